/* The functions below the cargo crate, for x86-64-v3. Generated of what is proved: not to be changed by hand. SPDX-License-Identifier: MIT */
	.ifndef twox_rust_7_xxh3_128_long_v3
	.section .text.twox_plain.xxhash32.rounds.products_of_block.i7_v3,"ax",@progbits
	.p2align 6
	.type twox_plain.xxhash32.rounds.products_of_block.i7_v3,@function
twox_plain.xxhash32.rounds.products_of_block.i7_v3:
	.cfi_startproc
	vpbroadcastd .L20_0.i7_v3(%rip),%ymm0
	vpmulld (%rsi),%ymm0,%ymm1
	vpmulld 0x20(%rsi),%ymm0,%ymm2
	vpmulld 0x40(%rsi),%ymm0,%ymm3
	vpmulld 0x60(%rsi),%ymm0,%ymm0
	vmovdqu %ymm1,(%rdi)
	vmovdqu %ymm2,0x20(%rdi)
	vmovdqu %ymm3,0x40(%rdi)
	vmovdqu %ymm0,0x60(%rdi)
	vzeroupper
	ret
	.cfi_endproc
	.size twox_plain.xxhash32.rounds.products_of_block.i7_v3,.-twox_plain.xxhash32.rounds.products_of_block.i7_v3
	.section .text.twox_plain.xxhash32.StateInMemory.add_blocks_in_place.i7_v3,"ax",@progbits
	.p2align 6
	.type twox_plain.xxhash32.StateInMemory.add_blocks_in_place.i7_v3,@function
twox_plain.xxhash32.StateInMemory.add_blocks_in_place.i7_v3:
	.cfi_startproc
	push %rbp
	.cfi_def_cfa_offset 16
	.cfi_offset 6, -16
	push %r15
	.cfi_def_cfa_offset 24
	.cfi_offset 15, -24
	push %r14
	.cfi_def_cfa_offset 32
	.cfi_offset 14, -32
	push %r13
	.cfi_def_cfa_offset 40
	.cfi_offset 13, -40
	push %r12
	.cfi_def_cfa_offset 48
	.cfi_offset 12, -48
	push %rbx
	.cfi_def_cfa_offset 56
	.cfi_offset 3, -56
	sub $0x88,%rsp
	.cfi_def_cfa_offset 192
	mov %rdx,%rbx
	mov %rsi,%r15
	mov (%rdi),%r14d
	mov 0x8(%rdi),%r13d
	mov 0x10(%rdi),%r12d
	mov %rdi,0x80(%rsp)
	mov 0x1c(%rdi),%ebp
	.byte 15,31,0
.L2_30.i7_v3:
	prefetcht0 0x400(%r15)
	prefetcht0 0x440(%r15)
	mov %rsp,%rdi
	mov %r15,%rsi
	call twox_plain.xxhash32.rounds.products_of_block.i7_v3
	add (%rsp),%r14d
	rorx $0x13,%r14d,%eax
	imul $0x9e3779b1,%eax,%eax
	add 0x4(%rsp),%r13d
	rorx $0x13,%r13d,%ecx
	imul $0x9e3779b1,%ecx,%ecx
	add 0x8(%rsp),%r12d
	rorx $0x13,%r12d,%edx
	imul $0x9e3779b1,%edx,%edx
	add 0xc(%rsp),%ebp
	rorx $0x13,%ebp,%esi
	imul $0x9e3779b1,%esi,%esi
	add 0x10(%rsp),%eax
	rorx $0x13,%eax,%eax
	imul $0x9e3779b1,%eax,%eax
	add 0x14(%rsp),%ecx
	rorx $0x13,%ecx,%ecx
	imul $0x9e3779b1,%ecx,%ecx
	add 0x18(%rsp),%edx
	rorx $0x13,%edx,%edx
	imul $0x9e3779b1,%edx,%edx
	add 0x1c(%rsp),%esi
	rorx $0x13,%esi,%esi
	imul $0x9e3779b1,%esi,%esi
	add 0x20(%rsp),%eax
	rorx $0x13,%eax,%eax
	imul $0x9e3779b1,%eax,%eax
	add 0x24(%rsp),%ecx
	rorx $0x13,%ecx,%ecx
	imul $0x9e3779b1,%ecx,%ecx
	add 0x28(%rsp),%edx
	rorx $0x13,%edx,%edx
	imul $0x9e3779b1,%edx,%edx
	add 0x2c(%rsp),%esi
	rorx $0x13,%esi,%esi
	imul $0x9e3779b1,%esi,%esi
	add 0x30(%rsp),%eax
	rorx $0x13,%eax,%eax
	imul $0x9e3779b1,%eax,%eax
	add 0x34(%rsp),%ecx
	rorx $0x13,%ecx,%ecx
	imul $0x9e3779b1,%ecx,%ecx
	add 0x38(%rsp),%edx
	rorx $0x13,%edx,%edx
	imul $0x9e3779b1,%edx,%edx
	add 0x3c(%rsp),%esi
	rorx $0x13,%esi,%esi
	imul $0x9e3779b1,%esi,%esi
	add 0x40(%rsp),%eax
	rorx $0x13,%eax,%eax
	imul $0x9e3779b1,%eax,%eax
	add 0x44(%rsp),%ecx
	rorx $0x13,%ecx,%ecx
	imul $0x9e3779b1,%ecx,%ecx
	add 0x48(%rsp),%edx
	rorx $0x13,%edx,%edx
	imul $0x9e3779b1,%edx,%edx
	add 0x4c(%rsp),%esi
	rorx $0x13,%esi,%esi
	imul $0x9e3779b1,%esi,%esi
	add 0x50(%rsp),%eax
	rorx $0x13,%eax,%eax
	imul $0x9e3779b1,%eax,%eax
	add 0x54(%rsp),%ecx
	rorx $0x13,%ecx,%ecx
	imul $0x9e3779b1,%ecx,%ecx
	add 0x58(%rsp),%edx
	rorx $0x13,%edx,%edx
	imul $0x9e3779b1,%edx,%edx
	add 0x5c(%rsp),%esi
	rorx $0x13,%esi,%esi
	imul $0x9e3779b1,%esi,%esi
	add 0x60(%rsp),%eax
	rorx $0x13,%eax,%eax
	imul $0x9e3779b1,%eax,%eax
	add 0x64(%rsp),%ecx
	rorx $0x13,%ecx,%ecx
	imul $0x9e3779b1,%ecx,%ecx
	add 0x68(%rsp),%edx
	rorx $0x13,%edx,%edx
	imul $0x9e3779b1,%edx,%edx
	add 0x6c(%rsp),%esi
	rorx $0x13,%esi,%esi
	imul $0x9e3779b1,%esi,%esi
	add 0x70(%rsp),%eax
	rorx $0x13,%eax,%eax
	imul $0x9e3779b1,%eax,%r14d
	add 0x74(%rsp),%ecx
	rorx $0x13,%ecx,%eax
	imul $0x9e3779b1,%eax,%r13d
	add 0x78(%rsp),%edx
	rorx $0x13,%edx,%eax
	imul $0x9e3779b1,%eax,%r12d
	add 0x7c(%rsp),%esi
	rorx $0x13,%esi,%eax
	imul $0x9e3779b1,%eax,%ebp
	sub $0xffffffffffffff80,%r15
	add $0xffffffffffffff80,%rbx
	.byte 15,31,132,0,0,0,0,0
	cmp $0x80,%rbx
	jae .L2_30.i7_v3
	cmp $0x10,%rbx
	jb .L2_2eb.i7_v3
	.byte 102,102,102,102,46,15,31,132,0,0,0,0,0
.L2_280.i7_v3:
	imul $0x85ebca77,(%r15),%eax
	add %r14d,%eax
	imul $0x85ebca77,0x4(%r15),%ecx
	imul $0x85ebca77,0x8(%r15),%edx
	add %r13d,%ecx
	imul $0x85ebca77,0xc(%r15),%esi
	add $0x10,%r15
	add $0xfffffffffffffff0,%rbx
	rorx $0x13,%eax,%eax
	imul $0x9e3779b1,%eax,%r14d
	rorx $0x13,%ecx,%eax
	imul $0x9e3779b1,%eax,%r13d
	add %r12d,%edx
	rorx $0x13,%edx,%eax
	imul $0x9e3779b1,%eax,%r12d
	add %ebp,%esi
	rorx $0x13,%esi,%eax
	imul $0x9e3779b1,%eax,%ebp
	cmp $0xf,%rbx
	ja .L2_280.i7_v3
.L2_2eb.i7_v3:
	mov 0x80(%rsp),%rcx
	mov %r14d,(%rcx)
	mov %r13d,0x8(%rcx)
	mov %r12d,0x10(%rcx)
	mov %ebp,0x1c(%rcx)
	test %rbx,%rbx
	je .L2_359.i7_v3
	cmp $0x8,%rbx
	jb .L2_31f.i7_v3
	mov (%r15),%rax
	mov %rax,0x20(%rcx)
	mov -0x8(%rbx,%r15,1),%rax
	mov %rax,0x18(%rcx,%rbx,1)
	jmp .L2_359.i7_v3
.L2_31f.i7_v3:
	.byte 144
	cmp $0x4,%rbx
	jb .L2_337.i7_v3
	mov (%r15),%eax
	mov %eax,0x20(%rcx)
	mov -0x4(%rbx,%r15,1),%eax
	mov %eax,0x1c(%rcx,%rbx,1)
	jmp .L2_359.i7_v3
.L2_337.i7_v3:
	cmp $0x1,%rbx
	jne .L2_346.i7_v3
	movzbl (%r15),%eax
	mov %al,0x20(%rcx)
	jmp .L2_359.i7_v3
.L2_346.i7_v3:
	movzwl (%r15),%eax
	mov %ax,0x20(%rcx)
	movzwl -0x2(%rbx,%r15,1),%eax
	mov %ax,0x1e(%rcx,%rbx,1)
.L2_359.i7_v3:
	add $0x32335858,%ebx
	mov %ebx,0xc(%rcx)
	add $0x88,%rsp
	.cfi_def_cfa_offset 56
	pop %rbx
	.cfi_def_cfa_offset 48
	.cfi_restore 3
	pop %r12
	.cfi_def_cfa_offset 40
	.cfi_restore 12
	pop %r13
	.cfi_def_cfa_offset 32
	.cfi_restore 13
	pop %r14
	.cfi_def_cfa_offset 24
	.cfi_restore 14
	pop %r15
	.cfi_def_cfa_offset 16
	.cfi_restore 15
	pop %rbp
	.cfi_def_cfa_offset 8
	.cfi_restore 6
	ret
	.cfi_endproc
	.size twox_plain.xxhash32.StateInMemory.add_blocks_in_place.i7_v3,.-twox_plain.xxhash32.StateInMemory.add_blocks_in_place.i7_v3
	.section .text.twox_core.width_128.oneshot_long.i7_v3,"ax",@progbits
	.p2align 6
	.type twox_core.width_128.oneshot_long.i7_v3,@function
twox_core.width_128.oneshot_long.i7_v3:
	.cfi_startproc
	cmp $0xc0,%rsi
	jne twox_core.width_128.oneshot_long_of_any_length.i7_v3
	cmp $0x7bff,%rcx
	ja .L3_55.i7_v3
	push %r14
	.cfi_def_cfa_offset 16
	.cfi_offset 14, -16
	push %rbx
	.cfi_def_cfa_offset 24
	.cfi_offset 3, -24
	.byte 15,31,128,0,0,0,0
	cmp $0x401,%rcx
	jae .L3_5f.i7_v3
	vmovdqa .L21_0.i7_v3(%rip),%ymm0
	vmovdqa .L21_20.i7_v3(%rip),%ymm1
	mov $0xffffffffffffffff,%rax
	mov %rdx,%rsi
	add %rcx,%rax
	shr $0x6,%rax
	jne .L3_270.i7_v3
	jmp .L3_2cf.i7_v3
	.cfi_def_cfa_offset 8
	.cfi_restore 3
	.cfi_restore 14
.L3_55.i7_v3:
	mov $0xc0,%esi
	jmp twox_core.width_128.oneshot_many.i7_v3
	.cfi_def_cfa_offset 24
	.cfi_offset 3, -24
	.cfi_offset 14, -16
.L3_5f.i7_v3:
	lea -0x1(%rcx),%rax
	mov %rax,%rsi
	shr $0xa,%rsi
	vmovdqu 0x80(%rdi),%ymm2
	vmovdqu 0xa0(%rdi),%ymm3
	lea 0x38(%rdi),%r8
	lea 0xe0(%rdx),%r9
	vmovdqa .L21_0.i7_v3(%rip),%ymm0
	vmovdqa .L21_20.i7_v3(%rip),%ymm1
	xor %r10d,%r10d
	mov %rdx,%r11
	.byte 15,31,68,0,0
.L3_a0.i7_v3:
	xor %ebx,%ebx
	mov %r8,%r14
	.byte 102,102,46,15,31,132,0,0,0,0,0
.L3_b0.i7_v3:
	prefetcht0 0x400(%r11,%rbx,1)
	prefetcht0 0x440(%r11,%rbx,1)
	prefetcht0 0x480(%r11,%rbx,1)
	prefetcht0 0x4c0(%r11,%rbx,1)
	vmovdqu -0xe0(%r9,%rbx,1),%ymm6
	vmovdqu -0xc0(%r9,%rbx,1),%ymm4
	vmovdqu -0xa0(%r9,%rbx,1),%ymm7
	vpxor -0x38(%r14),%ymm6,%ymm8
	vmovdqu -0x80(%r9,%rbx,1),%ymm5
	vpsrlq $0x20,%ymm8,%ymm9
	vpmuludq %ymm9,%ymm8,%ymm8
	vpaddq %ymm1,%ymm8,%ymm1
	vpxor -0x30(%r14),%ymm7,%ymm8
	vpsrlq $0x20,%ymm8,%ymm9
	vpmuludq %ymm9,%ymm8,%ymm8
	vmovdqu -0x60(%r9,%rbx,1),%ymm9
	vpxor -0x28(%r14),%ymm9,%ymm10
	vpsrlq $0x20,%ymm10,%ymm11
	vpmuludq %ymm11,%ymm10,%ymm10
	vpaddq %ymm10,%ymm8,%ymm8
	vpaddq %ymm1,%ymm8,%ymm1
	vmovdqu -0x20(%r9,%rbx,1),%ymm8
	vpxor -0x20(%r14),%ymm8,%ymm10
	vpsrlq $0x20,%ymm10,%ymm11
	vpmuludq %ymm11,%ymm10,%ymm10
	vpaddq %ymm6,%ymm7,%ymm6
	vpaddq %ymm8,%ymm9,%ymm7
	vpaddq %ymm7,%ymm6,%ymm6
	vpshufd $0x4e,%ymm6,%ymm6
	vpaddq %ymm6,%ymm10,%ymm6
	vpaddq %ymm6,%ymm1,%ymm1
	vpxor -0x18(%r14),%ymm4,%ymm6
	vpsrlq $0x20,%ymm6,%ymm7
	vpmuludq %ymm7,%ymm6,%ymm6
	vpxor -0x10(%r14),%ymm5,%ymm7
	vpaddq %ymm0,%ymm6,%ymm0
	vpsrlq $0x20,%ymm7,%ymm6
	vpmuludq %ymm6,%ymm7,%ymm6
	vmovdqu -0x40(%r9,%rbx,1),%ymm7
	vpxor -0x8(%r14),%ymm7,%ymm8
	vpsrlq $0x20,%ymm8,%ymm9
	vpmuludq %ymm9,%ymm8,%ymm8
	vpaddq %ymm6,%ymm8,%ymm6
	vmovdqu (%r9,%rbx,1),%ymm8
	vpxor (%r14),%ymm8,%ymm9
	vpaddq %ymm6,%ymm0,%ymm0
	vpsrlq $0x20,%ymm9,%ymm6
	vpmuludq %ymm6,%ymm9,%ymm6
	vpaddq %ymm4,%ymm5,%ymm4
	vpaddq %ymm7,%ymm8,%ymm5
	vpaddq %ymm5,%ymm4,%ymm4
	vpshufd $0x4e,%ymm4,%ymm4
	vpaddq %ymm6,%ymm4,%ymm4
	vpaddq %ymm4,%ymm0,%ymm0
	add $0x100,%rbx
	add $0x20,%r14
	cmp $0x400,%rbx
	jne .L3_b0.i7_v3
	vpsrlq $0x2f,%ymm1,%ymm4
	vpxor %ymm1,%ymm2,%ymm1
	vpxor %ymm4,%ymm1,%ymm1
	vpbroadcastq .L22_0.i7_v3(%rip),%ymm4
	vpmulld %ymm4,%ymm1,%ymm5
	vpsrlq $0x2f,%ymm0,%ymm6
	vpxor %ymm0,%ymm3,%ymm0
	vpxor %ymm6,%ymm0,%ymm0
	vpmulld %ymm4,%ymm0,%ymm4
	inc %r10
	vpbroadcastq .L22_8.i7_v3(%rip),%ymm6
	vpmuludq %ymm6,%ymm1,%ymm1
	vpaddq %ymm5,%ymm1,%ymm1
	vpmuludq %ymm6,%ymm0,%ymm0
	vpaddq %ymm4,%ymm0,%ymm0
	add $0x400,%r9
	add $0x400,%r11
	cmp %rsi,%r10
	jne .L3_a0.i7_v3
	and $0xfffffffffffffc00,%rax
	lea (%rdx,%rax,1),%rsi
	not %rax
	add %rcx,%rax
	shr $0x6,%rax
	je .L3_2cf.i7_v3
.L3_270.i7_v3:
	shl $0x3,%rax
	xor %r8d,%r8d
	.byte 102,15,31,132,0,0,0,0,0
.L3_280.i7_v3:
	vmovdqu (%rsi,%r8,8),%ymm2
	vmovdqu 0x20(%rsi,%r8,8),%ymm3
	vpshufd $0x4e,%ymm2,%ymm4
	vpaddq %ymm4,%ymm1,%ymm1
	vpxor (%rdi,%r8,1),%ymm2,%ymm2
	vpsrlq $0x20,%ymm2,%ymm4
	vpmuludq %ymm4,%ymm2,%ymm2
	vpaddq %ymm2,%ymm1,%ymm1
	vpshufd $0x4e,%ymm3,%ymm2
	vpaddq %ymm0,%ymm2,%ymm0
	vpxor 0x20(%rdi,%r8,1),%ymm3,%ymm2
	vpsrlq $0x20,%ymm2,%ymm3
	vpmuludq %ymm3,%ymm2,%ymm2
	vpaddq %ymm2,%ymm0,%ymm0
	add $0x8,%r8
	cmp %r8,%rax
	jne .L3_280.i7_v3
.L3_2cf.i7_v3:
	vmovdqu -0x40(%rdx,%rcx,1),%ymm2
	vmovdqu -0x20(%rdx,%rcx,1),%ymm3
	vpxor 0x79(%rdi),%ymm2,%ymm4
	vpshufd $0x4e,%ymm2,%ymm2
	vpsrlq $0x20,%ymm4,%ymm5
	vpmuludq %ymm5,%ymm4,%ymm4
	vpaddq %ymm4,%ymm2,%ymm2
	vpaddq %ymm1,%ymm2,%ymm1
	vpshufd $0x4e,%ymm3,%ymm2
	vpxor 0x99(%rdi),%ymm3,%ymm3
	vpsrlq $0x20,%ymm3,%ymm4
	vpmuludq %ymm4,%ymm3,%ymm3
	vpaddq %ymm3,%ymm2,%ymm2
	vpaddq %ymm0,%ymm2,%ymm0
	vpxor 0xb(%rdi),%ymm1,%ymm2
	vpextrq $0x1,%xmm2,%rax
	vmovq %xmm2,%rdx
	mulx %rax,%rdx,%rax
	movabs $0x9e3779b185ebca87,%rsi
	imul %rcx,%rsi
	xor %rdx,%rax
	add %rsi,%rax
	vextracti128 $0x1,%ymm2,%xmm2
	vmovq %xmm2,%rdx
	vpextrq $0x1,%xmm2,%rsi
	mulx %rsi,%rdx,%rsi
	xor %rdx,%rsi
	vpxor 0x2b(%rdi),%ymm0,%ymm2
	vpextrq $0x1,%xmm2,%r8
	vmovq %xmm2,%rdx
	mulx %r8,%rdx,%r8
	xor %rdx,%r8
	vextracti128 $0x1,%ymm2,%xmm2
	vpextrq $0x1,%xmm2,%r9
	vmovq %xmm2,%rdx
	mulx %r9,%rdx,%r9
	add %rax,%r8
	add %rsi,%r8
	xor %rdx,%r9
	add %r8,%r9
	mov %r9,%r8
	shr $0x25,%r8
	xor %r9,%r8
	movabs $0x165667919e3779f9,%rsi
	imul %rsi,%r8
	mov %r8,%rax
	vpxor 0x75(%rdi),%ymm1,%ymm1
	vpextrq $0x1,%xmm1,%r9
	vmovq %xmm1,%rdx
	mulx %r9,%rdx,%r9
	shr $0x20,%rax
	xor %r8,%rax
	xor %rdx,%r9
	movabs $0xc2b2ae3d27d4eb4f,%r8
	imul %rcx,%r8
	vextracti128 $0x1,%ymm1,%xmm1
	vpextrq $0x1,%xmm1,%rcx
	vmovq %xmm1,%rdx
	mulx %rcx,%rcx,%r10
	not %r8
	add %r9,%r8
	vpxor 0x95(%rdi),%ymm0,%ymm0
	xor %rcx,%r10
	vmovq %xmm0,%rdx
	vpextrq $0x1,%xmm0,%rcx
	mulx %rcx,%rcx,%rdi
	xor %rcx,%rdi
	add %r8,%rdi
	vextracti128 $0x1,%ymm0,%xmm0
	vpextrq $0x1,%xmm0,%rcx
	vmovq %xmm0,%rdx
	mulx %rcx,%rcx,%rdx
	add %r10,%rdi
	xor %rcx,%rdx
	add %rdi,%rdx
	mov %rdx,%rcx
	shr $0x25,%rcx
	xor %rdx,%rcx
	imul %rsi,%rcx
	mov %rcx,%rdx
	shr $0x20,%rdx
	xor %rcx,%rdx
	pop %rbx
	.cfi_def_cfa_offset 16
	.cfi_restore 3
	pop %r14
	.cfi_def_cfa_offset 8
	.cfi_restore 14
	vzeroupper
	ret
	.cfi_endproc
	.size twox_core.width_128.oneshot_long.i7_v3,.-twox_core.width_128.oneshot_long.i7_v3
	.section .text.twox_core.xxhash3.stripes.take_many_stripes.i7_v3,"ax",@progbits
	.p2align 6
	.type twox_core.xxhash3.stripes.take_many_stripes.i7_v3,@function
twox_core.xxhash3.stripes.take_many_stripes.i7_v3:
	.cfi_startproc
	push %rbp
	.cfi_def_cfa_offset 16
	.cfi_offset 6, -16
	push %r15
	.cfi_def_cfa_offset 24
	.cfi_offset 15, -24
	push %r14
	.cfi_def_cfa_offset 32
	.cfi_offset 14, -32
	push %r13
	.cfi_def_cfa_offset 40
	.cfi_offset 13, -40
	push %r12
	.cfi_def_cfa_offset 48
	.cfi_offset 12, -48
	push %rbx
	.cfi_def_cfa_offset 56
	.cfi_offset 3, -56
	sub $0x218,%rsp
	.cfi_def_cfa_offset 592
	mov %r8,%r9
	mov %rcx,%r8
	mov %rdx,%r14
	mov %rsi,%rdx
	mov %rdi,%rbx
	vxorps %xmm0,%xmm0,%xmm0
	vmovups %ymm0,0x70(%rsp)
	vmovups %ymm0,0x50(%rsp)
	movq $0x0,0x90(%rsp)
	lea -0x40(%r9),%rax
	mov %rax,%rcx
	and $0xfffffffffffffff8,%rcx
	cmp $0x80,%rcx
	sete %cl
	cmp $0x400,%r14
	setae %sil
	.byte 15,31,64,0
	test %cl,%sil
	jne .L4_ca.i7_v3
	mov 0x40(%rbx),%rax
	mov %rax,0x1c0(%rsp)
	vmovups (%rbx),%ymm0
	vmovups 0x20(%rbx),%ymm1
	vmovups %ymm1,0x1a0(%rsp)
	vmovups %ymm0,0x180(%rsp)
	lea 0x50(%rsp),%rdi
	lea 0x180(%rsp),%rsi
	mov %r14,%rcx
	vzeroupper
	call twox_core.xxhash3.stripes.take_stripes.i7_v3
	mov 0x90(%rsp),%rax
	mov %rax,0x40(%rbx)
	vmovdqu 0x50(%rsp),%ymm0
	vmovdqu 0x70(%rsp),%ymm1
	vmovdqu %ymm1,0x20(%rbx)
	vmovdqu %ymm0,(%rbx)
	jmp .L4_6e7.i7_v3
.L4_ca.i7_v3:
	cmp $0x7bff,%r14
	ja .L4_1c5.i7_v3
	mov 0x40(%rbx),%rsi
	mov %esi,%ecx
	shl $0x6,%ecx
	lea (%rcx,%rcx,2),%ecx
	movzbl %cl,%r9d
	lea (%rdx,%r9,1),%rdi
	sub %r9,%r14
	mov %r14d,%ecx
	and $0x7f00,%ecx
	vmovdqu (%rbx),%ymm1
	vmovdqu 0x20(%rbx),%ymm0
	test %r9d,%r9d
	je .L4_325.i7_v3
	shr $0x6,%r9d
	jmp .L4_11d.i7_v3
	.byte 144
.L4_110.i7_v3:
	add $0x40,%rdx
	dec %r9
	je .L4_325.i7_v3
.L4_11d.i7_v3:
	prefetcht0 0x140(%rdx)
	vmovdqu (%rdx),%ymm2
	vmovdqu 0x20(%rdx),%ymm3
	vpshufd $0x4e,%ymm2,%ymm4
	vpaddq %ymm4,%ymm1,%ymm1
	vpxor (%r8,%rsi,8),%ymm2,%ymm2
	vpsrlq $0x20,%ymm2,%ymm4
	vpmuludq %ymm4,%ymm2,%ymm2
	vpaddq %ymm2,%ymm1,%ymm1
	vpshufd $0x4e,%ymm3,%ymm2
	vpaddq %ymm0,%ymm2,%ymm0
	vpxor 0x20(%r8,%rsi,8),%ymm3,%ymm2
	vpsrlq $0x20,%ymm2,%ymm3
	vpmuludq %ymm3,%ymm2,%ymm2
	vpaddq %ymm2,%ymm0,%ymm0
	inc %rsi
	cmp $0x10,%rsi
	jne .L4_110.i7_v3
	vpsrlq $0x2f,%ymm1,%ymm2
	vpxor (%r8,%rax,1),%ymm2,%ymm2
	vpxor %ymm1,%ymm2,%ymm1
	vpbroadcastq .L22_10.i7_v3(%rip),%ymm2
	vpmulld %ymm2,%ymm1,%ymm3
	vpsrlq $0x2f,%ymm0,%ymm4
	vpxor 0x20(%r8,%rax,1),%ymm4,%ymm4
	vpxor %ymm0,%ymm4,%ymm0
	vpmulld %ymm2,%ymm0,%ymm2
	vpbroadcastq .L22_18.i7_v3(%rip),%ymm4
	vpmuludq %ymm4,%ymm1,%ymm1
	vpaddq %ymm3,%ymm1,%ymm1
	vpmuludq %ymm4,%ymm0,%ymm0
	vpaddq %ymm2,%ymm0,%ymm0
	xor %esi,%esi
	.byte 15,31,64,0
	jmp .L4_110.i7_v3
.L4_1c5.i7_v3:
	mov 0x40(%rbx),%rcx
	vmovups (%rbx),%ymm0
	vmovups 0x20(%rbx),%ymm1
	vmovups %ymm1,0x20(%rsp)
	vmovups %ymm0,(%rsp)
	mov %rcx,0x40(%rsp)
	neg %ecx
	and $0xf,%ecx
	shl $0x6,%ecx
	lea (%rdx,%rcx,1),%rbp
	vxorps %xmm0,%xmm0,%xmm0
	vmovups %ymm0,0x130(%rsp)
	sub %rcx,%r14
	vmovups %ymm0,0x150(%rsp)
	movq $0x0,0x170(%rsp)
	lea 0x130(%rsp),%rdi
	mov %rsp,%rsi
	mov %r8,%r15
	mov %r9,%r12
	vzeroupper
	call twox_core.xxhash3.stripes.take_stripes.i7_v3
	mov %r14,%rcx
	and $0xfffffffffffffc00,%rcx
	lea (%rcx,%rbp,1),%r13
	and $0x3ff,%r14d
	vxorps %xmm0,%xmm0,%xmm0
	vmovups %ymm0,0xf0(%rsp)
	vmovups %ymm0,0x110(%rsp)
	lea 0xf0(%rsp),%rdi
	lea 0x130(%rsp),%rsi
	mov %rbp,%rdx
	mov %r15,%r8
	mov %r12,%r9
	vzeroupper
	call twox_core.xxhash3.stripes.blocks.take_many_blocks.i7_v3
	vmovups 0xf0(%rsp),%ymm0
	vmovups 0x110(%rsp),%ymm1
	vmovups %ymm1,0x20(%rsp)
	vmovups %ymm0,(%rsp)
	vxorps %xmm0,%xmm0,%xmm0
	vmovups %ymm0,0xa0(%rsp)
	movq $0x0,0x40(%rsp)
	vmovups %ymm0,0xc0(%rsp)
	movq $0x0,0xe0(%rsp)
	lea 0xa0(%rsp),%rdi
	mov %rsp,%rsi
	mov %r13,%rdx
	mov %r14,%rcx
	mov %r15,%r8
	mov %r12,%r9
	vzeroupper
	call twox_core.xxhash3.stripes.take_stripes.i7_v3
	mov 0xe0(%rsp),%rax
	mov %rax,0x210(%rsp)
	vmovdqu 0xc0(%rsp),%ymm0
	vmovdqu %ymm0,0x1f0(%rsp)
	vmovdqu 0xa0(%rsp),%ymm1
	vmovdqu %ymm1,0x1d0(%rsp)
	mov %rax,0x40(%rbx)
	vmovdqu %ymm0,0x20(%rbx)
	vmovdqu %ymm1,(%rbx)
	jmp .L4_6e7.i7_v3
.L4_325.i7_v3:
	add %rdi,%rcx
	mov %r14,%rdx
	shr $0x8,%rdx
	jmp .L4_350.i7_v3
	.byte 102,102,102,102,102,102,46,15,31,132,0,0,0,0,0
.L4_340.i7_v3:
	add $0x100,%rdi
	dec %rdx
	je .L4_4cc.i7_v3
.L4_350.i7_v3:
	prefetcht0 0x400(%rdi)
	prefetcht0 0x440(%rdi)
	prefetcht0 0x480(%rdi)
	prefetcht0 0x4c0(%rdi)
	vmovdqu (%rdi),%ymm4
	vmovdqu 0x20(%rdi),%ymm2
	vmovdqu 0x40(%rdi),%ymm5
	vmovdqu 0x60(%rdi),%ymm3
	vpxor (%r8,%rsi,8),%ymm4,%ymm6
	vpsrlq $0x20,%ymm6,%ymm7
	vpmuludq %ymm7,%ymm6,%ymm6
	vpaddq %ymm1,%ymm6,%ymm1
	vpxor 0x8(%r8,%rsi,8),%ymm5,%ymm6
	vpsrlq $0x20,%ymm6,%ymm7
	vpmuludq %ymm7,%ymm6,%ymm6
	vmovdqu 0x80(%rdi),%ymm7
	vpxor 0x10(%r8,%rsi,8),%ymm7,%ymm8
	vpsrlq $0x20,%ymm8,%ymm9
	vpmuludq %ymm9,%ymm8,%ymm8
	vpaddq %ymm6,%ymm8,%ymm6
	vpaddq %ymm6,%ymm1,%ymm1
	vmovdqu 0xc0(%rdi),%ymm6
	vpxor 0x18(%r8,%rsi,8),%ymm6,%ymm8
	vpsrlq $0x20,%ymm8,%ymm9
	vpmuludq %ymm9,%ymm8,%ymm8
	vpaddq %ymm4,%ymm5,%ymm4
	vpaddq %ymm6,%ymm7,%ymm5
	vpaddq %ymm5,%ymm4,%ymm4
	vpshufd $0x4e,%ymm4,%ymm4
	vpaddq %ymm4,%ymm8,%ymm4
	vpxor 0x20(%r8,%rsi,8),%ymm2,%ymm5
	vpaddq %ymm4,%ymm1,%ymm1
	vpsrlq $0x20,%ymm5,%ymm4
	vpmuludq %ymm4,%ymm5,%ymm4
	vpaddq %ymm0,%ymm4,%ymm0
	vpxor 0x28(%r8,%rsi,8),%ymm3,%ymm4
	vpsrlq $0x20,%ymm4,%ymm5
	vpmuludq %ymm5,%ymm4,%ymm4
	vmovdqu 0xa0(%rdi),%ymm5
	vpxor 0x30(%r8,%rsi,8),%ymm5,%ymm6
	vpsrlq $0x20,%ymm6,%ymm7
	vpmuludq %ymm7,%ymm6,%ymm6
	vpaddq %ymm6,%ymm4,%ymm4
	vpaddq %ymm4,%ymm0,%ymm0
	vmovdqu 0xe0(%rdi),%ymm4
	vpxor 0x38(%r8,%rsi,8),%ymm4,%ymm6
	vpsrlq $0x20,%ymm6,%ymm7
	vpmuludq %ymm7,%ymm6,%ymm6
	vpaddq %ymm2,%ymm3,%ymm2
	vpaddq %ymm4,%ymm5,%ymm3
	vpaddq %ymm3,%ymm2,%ymm2
	vpshufd $0x4e,%ymm2,%ymm2
	vpaddq %ymm6,%ymm2,%ymm2
	vpaddq %ymm2,%ymm0,%ymm0
	add $0x4,%rsi
	cmp $0x10,%rsi
	jne .L4_340.i7_v3
	vpsrlq $0x2f,%ymm1,%ymm2
	vpxor (%r8,%rax,1),%ymm2,%ymm2
	vpxor %ymm1,%ymm2,%ymm1
	vpbroadcastq .L22_10.i7_v3(%rip),%ymm2
	vpmulld %ymm2,%ymm1,%ymm3
	vpsrlq $0x2f,%ymm0,%ymm4
	vpxor 0x20(%r8,%rax,1),%ymm4,%ymm4
	vpxor %ymm0,%ymm4,%ymm0
	vpbroadcastq .L22_18.i7_v3(%rip),%ymm4
	vpmuludq %ymm4,%ymm1,%ymm1
	vpmulld %ymm2,%ymm0,%ymm2
	vpaddq %ymm3,%ymm1,%ymm1
	vpmuludq %ymm4,%ymm0,%ymm0
	vpaddq %ymm2,%ymm0,%ymm0
	xor %esi,%esi
	jmp .L4_340.i7_v3
.L4_4cc.i7_v3:
	shr $0x6,%r14d
	and $0x3,%r14d
	je .L4_6da.i7_v3
	prefetcht0 0x140(%rcx)
	vmovdqu (%rcx),%ymm2
	vmovdqu 0x20(%rcx),%ymm3
	vpshufd $0x4e,%ymm2,%ymm4
	vpxor (%r8,%rsi,8),%ymm2,%ymm2
	vpsrlq $0x20,%ymm2,%ymm5
	vpmuludq %ymm5,%ymm2,%ymm2
	vpaddq %ymm2,%ymm4,%ymm2
	vpaddq %ymm2,%ymm1,%ymm1
	vpshufd $0x4e,%ymm3,%ymm2
	vpxor 0x20(%r8,%rsi,8),%ymm3,%ymm3
	vpsrlq $0x20,%ymm3,%ymm4
	vpmuludq %ymm4,%ymm3,%ymm3
	vpaddq %ymm3,%ymm2,%ymm2
	vpaddq %ymm0,%ymm2,%ymm0
	inc %rsi
	cmp $0x10,%rsi
	jne .L4_579.i7_v3
	vpsrlq $0x2f,%ymm1,%ymm2
	vpxor (%r8,%rax,1),%ymm2,%ymm2
	vpxor %ymm1,%ymm2,%ymm1
	vpbroadcastq .L22_10.i7_v3(%rip),%ymm2
	vpmulld %ymm2,%ymm1,%ymm3
	vpsrlq $0x2f,%ymm0,%ymm4
	vpxor 0x20(%r8,%rax,1),%ymm4,%ymm4
	vpxor %ymm0,%ymm4,%ymm0
	vpbroadcastq .L22_18.i7_v3(%rip),%ymm4
	vpmuludq %ymm4,%ymm1,%ymm1
	vpmulld %ymm2,%ymm0,%ymm2
	vpaddq %ymm3,%ymm1,%ymm1
	vpmuludq %ymm4,%ymm0,%ymm0
	vpaddq %ymm2,%ymm0,%ymm0
	xor %esi,%esi
.L4_579.i7_v3:
	.byte 15,31,128,0,0,0,0
	cmp $0x1,%r14d
	je .L4_6da.i7_v3
	prefetcht0 0x180(%rcx)
	vmovdqu 0x40(%rcx),%ymm2
	vmovdqu 0x60(%rcx),%ymm3
	vpshufd $0x4e,%ymm2,%ymm4
	vpxor (%r8,%rsi,8),%ymm2,%ymm2
	vpsrlq $0x20,%ymm2,%ymm5
	vpmuludq %ymm5,%ymm2,%ymm2
	vpaddq %ymm2,%ymm4,%ymm2
	vpaddq %ymm2,%ymm1,%ymm1
	vpshufd $0x4e,%ymm3,%ymm2
	vpxor 0x20(%r8,%rsi,8),%ymm3,%ymm3
	vpsrlq $0x20,%ymm3,%ymm4
	vpmuludq %ymm4,%ymm3,%ymm3
	vpaddq %ymm3,%ymm2,%ymm2
	vpaddq %ymm0,%ymm2,%ymm0
	inc %rsi
	cmp $0x10,%rsi
	jne .L4_62a.i7_v3
	vpsrlq $0x2f,%ymm1,%ymm2
	vpxor (%r8,%rax,1),%ymm2,%ymm2
	vpxor %ymm1,%ymm2,%ymm1
	vpbroadcastq .L22_10.i7_v3(%rip),%ymm2
	vpmulld %ymm2,%ymm1,%ymm3
	vpsrlq $0x2f,%ymm0,%ymm4
	vpxor 0x20(%r8,%rax,1),%ymm4,%ymm4
	vpxor %ymm0,%ymm4,%ymm0
	vpbroadcastq .L22_18.i7_v3(%rip),%ymm4
	vpmuludq %ymm4,%ymm1,%ymm1
	vpmulld %ymm2,%ymm0,%ymm2
	vpaddq %ymm3,%ymm1,%ymm1
	vpmuludq %ymm4,%ymm0,%ymm0
	vpaddq %ymm2,%ymm0,%ymm0
	xor %esi,%esi
.L4_62a.i7_v3:
	cmp $0x2,%r14d
	je .L4_6da.i7_v3
	prefetcht0 0x1c0(%rcx)
	vmovdqu 0x80(%rcx),%ymm2
	vmovdqu 0xa0(%rcx),%ymm3
	vpshufd $0x4e,%ymm2,%ymm4
	vpxor (%r8,%rsi,8),%ymm2,%ymm2
	vpsrlq $0x20,%ymm2,%ymm5
	vpmuludq %ymm5,%ymm2,%ymm2
	vpaddq %ymm2,%ymm4,%ymm2
	vpaddq %ymm2,%ymm1,%ymm1
	vpshufd $0x4e,%ymm3,%ymm2
	vpxor 0x20(%r8,%rsi,8),%ymm3,%ymm3
	vpsrlq $0x20,%ymm3,%ymm4
	vpmuludq %ymm4,%ymm3,%ymm3
	vpaddq %ymm3,%ymm2,%ymm2
	vpaddq %ymm0,%ymm2,%ymm0
	inc %rsi
	cmp $0x10,%rsi
	jne .L4_6da.i7_v3
	vpsrlq $0x2f,%ymm1,%ymm2
	vpxor (%r8,%rax,1),%ymm2,%ymm2
	vpxor %ymm1,%ymm2,%ymm1
	vpbroadcastq .L22_10.i7_v3(%rip),%ymm2
	vpmulld %ymm2,%ymm1,%ymm3
	vpsrlq $0x2f,%ymm0,%ymm4
	vpxor 0x20(%r8,%rax,1),%ymm4,%ymm4
	vpxor %ymm0,%ymm4,%ymm0
	vpbroadcastq .L22_18.i7_v3(%rip),%ymm4
	vpmuludq %ymm4,%ymm1,%ymm1
	vpmulld %ymm2,%ymm0,%ymm2
	vpaddq %ymm3,%ymm1,%ymm1
	vpmuludq %ymm4,%ymm0,%ymm0
	vpaddq %ymm2,%ymm0,%ymm0
	xor %esi,%esi
.L4_6da.i7_v3:
	vmovdqu %ymm1,(%rbx)
	vmovdqu %ymm0,0x20(%rbx)
	mov %rsi,0x40(%rbx)
.L4_6e7.i7_v3:
	add $0x218,%rsp
	.cfi_def_cfa_offset 56
	pop %rbx
	.cfi_def_cfa_offset 48
	.cfi_restore 3
	pop %r12
	.cfi_def_cfa_offset 40
	.cfi_restore 12
	pop %r13
	.cfi_def_cfa_offset 32
	.cfi_restore 13
	pop %r14
	.cfi_def_cfa_offset 24
	.cfi_restore 14
	pop %r15
	.cfi_def_cfa_offset 16
	.cfi_restore 15
	pop %rbp
	.cfi_def_cfa_offset 8
	.cfi_restore 6
	vzeroupper
	ret
	.cfi_endproc
	.size twox_core.xxhash3.stripes.take_many_stripes.i7_v3,.-twox_core.xxhash3.stripes.take_many_stripes.i7_v3
	.section .text.twox_core.xxhash3.stripes.take_stripes.i7_v3,"ax",@progbits
	.p2align 6
	.type twox_core.xxhash3.stripes.take_stripes.i7_v3,@function
twox_core.xxhash3.stripes.take_stripes.i7_v3:
	.cfi_startproc
	vmovdqu (%rsi),%ymm1
	vmovdqu 0x20(%rsi),%ymm0
	mov 0x40(%rsi),%rsi
	shr $0x6,%rcx
	je .L5_e5.i7_v3
	add $0xffffffffffffffc0,%r9
	mov %r9,%rax
	shr $0x3,%rax
	jmp .L5_3d.i7_v3
	.byte 102,102,102,46,15,31,132,0,0,0,0,0
.L5_30.i7_v3:
	add $0x40,%rdx
	dec %rcx
	je .L5_e5.i7_v3
.L5_3d.i7_v3:
	prefetcht0 0x140(%rdx)
	vmovdqu (%rdx),%ymm2
	vmovdqu 0x20(%rdx),%ymm3
	vpshufd $0x4e,%ymm2,%ymm4
	vpaddq %ymm1,%ymm4,%ymm1
	vpxor (%r8,%rsi,8),%ymm2,%ymm2
	vpsrlq $0x20,%ymm2,%ymm4
	vpmuludq %ymm4,%ymm2,%ymm2
	vpaddq %ymm2,%ymm1,%ymm1
	vpshufd $0x4e,%ymm3,%ymm2
	vpaddq %ymm0,%ymm2,%ymm0
	vpxor 0x20(%r8,%rsi,8),%ymm3,%ymm2
	vpsrlq $0x20,%ymm2,%ymm3
	vpmuludq %ymm3,%ymm2,%ymm2
	vpaddq %ymm2,%ymm0,%ymm0
	inc %rsi
	cmp %rax,%rsi
	jne .L5_30.i7_v3
	vpsrlq $0x2f,%ymm1,%ymm2
	vpxor (%r8,%r9,1),%ymm2,%ymm2
	vpxor %ymm1,%ymm2,%ymm1
	vpbroadcastq .L22_20.i7_v3(%rip),%ymm2
	vpmulld %ymm2,%ymm1,%ymm3
	vpsrlq $0x2f,%ymm0,%ymm4
	vpxor 0x20(%r8,%r9,1),%ymm4,%ymm4
	vpxor %ymm0,%ymm4,%ymm0
	vpbroadcastq .L22_28.i7_v3(%rip),%ymm4
	vpmuludq %ymm4,%ymm1,%ymm1
	vpmulld %ymm2,%ymm0,%ymm2
	vpaddq %ymm3,%ymm1,%ymm1
	vpmuludq %ymm4,%ymm0,%ymm0
	vpaddq %ymm2,%ymm0,%ymm0
	xor %esi,%esi
	.byte 15,31,68,0,0
	jmp .L5_30.i7_v3
.L5_e5.i7_v3:
	vmovdqu %ymm1,(%rdi)
	vmovdqu %ymm0,0x20(%rdi)
	mov %rsi,0x40(%rdi)
	vzeroupper
	ret
	.cfi_endproc
	.size twox_core.xxhash3.stripes.take_stripes.i7_v3,.-twox_core.xxhash3.stripes.take_stripes.i7_v3
	.section .text.twox_core.xxhash3.stripes.blocks.take_many_blocks.i7_v3,"ax",@progbits
	.p2align 6
	.type twox_core.xxhash3.stripes.blocks.take_many_blocks.i7_v3,@function
twox_core.xxhash3.stripes.blocks.take_many_blocks.i7_v3:
	.cfi_startproc
	push %rbx
	.cfi_def_cfa_offset 16
	.cfi_offset 3, -16
	shr $0xa,%rcx
	je .L6_233.i7_v3
	vmovdqu 0x20(%rsi),%ymm3
	vmovdqu (%rsi),%ymm2
	vmovdqu -0x40(%r8,%r9,1),%ymm0
	vmovdqu -0x20(%r8,%r9,1),%ymm1
	mov %rdx,%rax
	add $0xe0,%rax
	add $0x38,%r8
	xor %esi,%esi
	.byte 102,102,102,102,102,102,46,15,31,132,0,0,0,0,0
.L6_40.i7_v3:
	xor %r9d,%r9d
	mov %r8,%r10
	.byte 102,46,15,31,132,0,0,0,0,0
.L6_50.i7_v3:
	prefetcht0 0x400(%rdx,%r9,1)
	prefetcht0 0x440(%rdx,%r9,1)
	prefetcht0 0x480(%rdx,%r9,1)
	prefetcht0 0x4c0(%rdx,%r9,1)
	vmovdqu -0xe0(%rax,%r9,1),%ymm6
	vmovdqu -0xc0(%rax,%r9,1),%ymm4
	vmovdqu -0xa0(%rax,%r9,1),%ymm7
	vpxor -0x38(%r10),%ymm6,%ymm8
	vmovdqu -0x80(%rax,%r9,1),%ymm5
	vpsrlq $0x20,%ymm8,%ymm9
	vpmuludq %ymm9,%ymm8,%ymm8
	vpaddq %ymm2,%ymm8,%ymm2
	vpxor -0x30(%r10),%ymm7,%ymm8
	vpsrlq $0x20,%ymm8,%ymm9
	vpmuludq %ymm9,%ymm8,%ymm8
	vmovdqu -0x60(%rax,%r9,1),%ymm9
	vpxor -0x28(%r10),%ymm9,%ymm10
	vpsrlq $0x20,%ymm10,%ymm11
	vpmuludq %ymm11,%ymm10,%ymm10
	vpaddq %ymm10,%ymm8,%ymm8
	vpaddq %ymm2,%ymm8,%ymm2
	vmovdqu -0x20(%rax,%r9,1),%ymm8
	vpxor -0x20(%r10),%ymm8,%ymm10
	vpsrlq $0x20,%ymm10,%ymm11
	vpmuludq %ymm11,%ymm10,%ymm10
	vpaddq %ymm6,%ymm7,%ymm6
	vpaddq %ymm8,%ymm9,%ymm7
	vpaddq %ymm7,%ymm6,%ymm6
	vpshufd $0x4e,%ymm6,%ymm6
	vpaddq %ymm6,%ymm10,%ymm6
	vpaddq %ymm6,%ymm2,%ymm2
	vpxor -0x18(%r10),%ymm4,%ymm6
	vpsrlq $0x20,%ymm6,%ymm7
	vpmuludq %ymm7,%ymm6,%ymm6
	vpxor -0x10(%r10),%ymm5,%ymm7
	vpaddq %ymm3,%ymm6,%ymm3
	vpsrlq $0x20,%ymm7,%ymm6
	vpmuludq %ymm6,%ymm7,%ymm6
	vmovdqu -0x40(%rax,%r9,1),%ymm7
	vpxor -0x8(%r10),%ymm7,%ymm8
	vpsrlq $0x20,%ymm8,%ymm9
	vpmuludq %ymm9,%ymm8,%ymm8
	vpaddq %ymm6,%ymm8,%ymm6
	vmovdqu (%rax,%r9,1),%ymm8
	vpxor (%r10),%ymm8,%ymm9
	vpaddq %ymm6,%ymm3,%ymm3
	vpsrlq $0x20,%ymm9,%ymm6
	vpmuludq %ymm6,%ymm9,%ymm6
	vpaddq %ymm4,%ymm5,%ymm4
	vpaddq %ymm7,%ymm8,%ymm5
	vpaddq %ymm5,%ymm4,%ymm4
	vpshufd $0x4e,%ymm4,%ymm4
	vpaddq %ymm6,%ymm4,%ymm4
	vpaddq %ymm4,%ymm3,%ymm3
	add $0x100,%r9
	add $0x20,%r10
	cmp $0x400,%r9
	jne .L6_50.i7_v3
	vpsrlq $0x2f,%ymm2,%ymm4
	vpxor %ymm2,%ymm0,%ymm2
	vpxor %ymm2,%ymm4,%ymm2
	vpbroadcastq .L22_30.i7_v3(%rip),%ymm4
	vpmulld %ymm4,%ymm2,%ymm5
	vpbroadcastq .L22_38.i7_v3(%rip),%ymm6
	vpmuludq %ymm6,%ymm2,%ymm2
	vpaddq %ymm5,%ymm2,%ymm2
	vpsrlq $0x2f,%ymm3,%ymm5
	vpxor %ymm3,%ymm1,%ymm3
	vpxor %ymm3,%ymm5,%ymm3
	vpmulld %ymm4,%ymm3,%ymm4
	vpmuludq %ymm6,%ymm3,%ymm3
	vpaddq %ymm4,%ymm3,%ymm3
	inc %rsi
	add $0x400,%rax
	add $0x400,%rdx
	cmp %rcx,%rsi
	jne .L6_40.i7_v3
	vextracti128 $0x1,%ymm3,%xmm0
	vpextrq $0x1,%xmm0,%rax
	vmovq %xmm0,%rcx
	vpextrq $0x1,%xmm3,%rdx
	vmovq %xmm3,%r8
	vextracti128 $0x1,%ymm2,%xmm0
	vpextrq $0x1,%xmm0,%r9
	vmovq %xmm0,%r10
	vpextrq $0x1,%xmm2,%r11
	vmovq %xmm2,%rbx
	jmp .L6_252.i7_v3
.L6_233.i7_v3:
	mov (%rsi),%rbx
	mov 0x8(%rsi),%r11
	mov 0x10(%rsi),%r10
	mov 0x18(%rsi),%r9
	mov 0x20(%rsi),%r8
	mov 0x28(%rsi),%rdx
	mov 0x30(%rsi),%rcx
	mov 0x38(%rsi),%rax
.L6_252.i7_v3:
	mov %rbx,(%rdi)
	mov %r11,0x8(%rdi)
	mov %r10,0x10(%rdi)
	mov %r9,0x18(%rdi)
	mov %r8,0x20(%rdi)
	mov %rdx,0x28(%rdi)
	mov %rcx,0x30(%rdi)
	mov %rax,0x38(%rdi)
	pop %rbx
	.cfi_def_cfa_offset 8
	.cfi_restore 3
	vzeroupper
	ret
	.cfi_endproc
	.size twox_core.xxhash3.stripes.blocks.take_many_blocks.i7_v3,.-twox_core.xxhash3.stripes.blocks.take_many_blocks.i7_v3
	.section .text.twox_core.width_128.oneshot_many.i7_v3,"ax",@progbits
	.p2align 6
	.type twox_core.width_128.oneshot_many.i7_v3,@function
twox_core.width_128.oneshot_many.i7_v3:
	.cfi_startproc
	push %r15
	.cfi_def_cfa_offset 16
	.cfi_offset 15, -16
	push %r14
	.cfi_def_cfa_offset 24
	.cfi_offset 14, -24
	push %r13
	.cfi_def_cfa_offset 32
	.cfi_offset 13, -32
	push %r12
	.cfi_def_cfa_offset 40
	.cfi_offset 12, -40
	push %rbx
	.cfi_def_cfa_offset 48
	.cfi_offset 3, -48
	sub $0x50,%rsp
	.cfi_def_cfa_offset 128
	mov %rcx,%r15
	mov %rdx,%r12
	mov %rsi,%rbx
	mov %rdi,%r14
	lea -0x40(%rsi),%rcx
	shr $0x3,%rcx
	lea -0x1(%r15),%r13
	shr $0x6,%r13
	cmp %rcx,%r13
	jae .L7_33.i7_v3
	xor %r13d,%r13d
	jmp .L7_78.i7_v3
.L7_33.i7_v3:
	cmp $0x10,%rcx
	je .L7_68.i7_v3
	.byte 15,31,128,0,0,0,0
	test %rcx,%rcx
	je .L7_2f8.i7_v3
	mov %r13,%rax
	or %rcx,%rax
	movabs $0x1fffffff00000000,%rdx
	test %rdx,%rax
	je .L7_6e.i7_v3
	mov %r13,%rax
	xor %edx,%edx
	div %rcx
	jmp .L7_75.i7_v3
.L7_68.i7_v3:
	and $0xfffffffffffffff0,%r13
	jmp .L7_78.i7_v3
.L7_6e.i7_v3:
	mov %r13d,%eax
	xor %edx,%edx
	div %ecx
.L7_75.i7_v3:
	sub %rdx,%r13
.L7_78.i7_v3:
	shl $0x6,%r13
	vmovaps .L21_40.i7_v3(%rip),%ymm0
	vmovups %ymm0,0x8(%rsp)
	vmovaps .L21_60.i7_v3(%rip),%ymm0
	vmovups %ymm0,0x28(%rsp)
	movq $0x0,0x48(%rsp)
	lea 0x8(%rsp),%rdi
	mov %r12,%rsi
	mov %r13,%rdx
	mov %r14,%rcx
	mov %rbx,%r8
	vzeroupper
	call twox_core.xxhash3.stripes.take_many_stripes.i7_v3
	vmovdqu 0x8(%rsp),%ymm1
	vmovdqu 0x28(%rsp),%ymm0
	mov %r13,%rax
	not %rax
	add %r15,%rax
	shr $0x6,%rax
	je .L7_13d.i7_v3
	shl $0x3,%rax
	lea (%r12,%r13,1),%rcx
	add $0x20,%rcx
	xor %edx,%edx
	.byte 102,102,102,102,46,15,31,132,0,0,0,0,0
.L7_f0.i7_v3:
	vmovdqu -0x20(%rcx,%rdx,8),%ymm2
	vmovdqu (%rcx,%rdx,8),%ymm3
	vpshufd $0x4e,%ymm2,%ymm4
	vpaddq %ymm4,%ymm1,%ymm1
	vpxor (%r14,%rdx,1),%ymm2,%ymm2
	vpsrlq $0x20,%ymm2,%ymm4
	vpmuludq %ymm4,%ymm2,%ymm2
	vpaddq %ymm2,%ymm1,%ymm1
	vpshufd $0x4e,%ymm3,%ymm2
	vpaddq %ymm0,%ymm2,%ymm0
	vpxor 0x20(%r14,%rdx,1),%ymm3,%ymm2
	vpsrlq $0x20,%ymm2,%ymm3
	vpmuludq %ymm3,%ymm2,%ymm2
	vpaddq %ymm2,%ymm0,%ymm0
	add $0x8,%rdx
	cmp %rdx,%rax
	jne .L7_f0.i7_v3
.L7_13d.i7_v3:
	vmovdqu -0x40(%r12,%r15,1),%ymm2
	vmovdqu -0x20(%r12,%r15,1),%ymm3
	vpshufd $0x4e,%ymm2,%ymm4
	vpxor -0x47(%r14,%rbx,1),%ymm2,%ymm2
	vpsrlq $0x20,%ymm2,%ymm5
	vpmuludq %ymm5,%ymm2,%ymm2
	vpaddq %ymm2,%ymm4,%ymm2
	vpaddq %ymm1,%ymm2,%ymm1
	vpshufd $0x4e,%ymm3,%ymm2
	vpxor -0x27(%r14,%rbx,1),%ymm3,%ymm3
	vpsrlq $0x20,%ymm3,%ymm4
	vpmuludq %ymm4,%ymm3,%ymm3
	vpaddq %ymm3,%ymm2,%ymm2
	movabs $0x9e3779b185ebca87,%rax
	vpxor 0xb(%r14),%ymm1,%ymm3
	imul %r15,%rax
	vmovq %xmm3,%rdx
	vpextrq $0x1,%xmm3,%rcx
	mulx %rcx,%rcx,%rsi
	xor %rcx,%rsi
	add %rax,%rsi
	vextracti128 $0x1,%ymm3,%xmm3
	vpextrq $0x1,%xmm3,%rax
	vmovq %xmm3,%rdx
	mulx %rax,%rcx,%rax
	vpaddq %ymm0,%ymm2,%ymm0
	xor %rcx,%rax
	add %rsi,%rax
	cmp $0x88,%rbx
	jb .L7_22e.i7_v3
	vpxor 0x2b(%r14),%ymm0,%ymm2
	vmovq %xmm2,%rdx
	vpextrq $0x1,%xmm2,%rcx
	mulx %rcx,%rcx,%rsi
	xor %rcx,%rsi
	vextracti128 $0x1,%ymm2,%xmm2
	vmovq %xmm2,%rdx
	vpextrq $0x1,%xmm2,%rcx
	mulx %rcx,%rcx,%rdx
	xor %rcx,%rdx
	add %rsi,%rdx
	add %rdx,%rax
	mov %rax,%rcx
	shr $0x25,%rcx
	xor %rax,%rcx
	movabs $0x165667919e3779f9,%rdx
	imul %rcx,%rdx
	mov %rdx,%rax
	shr $0x20,%rax
	xor %rdx,%rax
.L7_22e.i7_v3:
	movabs $0xc2b2ae3d27d4eb4f,%rcx
	imul %rcx,%r15
	not %r15
	vpxor -0x4b(%r14,%rbx,1),%ymm1,%ymm1
	vpextrq $0x1,%xmm1,%rcx
	vmovq %xmm1,%rdx
	mulx %rcx,%rcx,%rsi
	xor %rcx,%rsi
	vextracti128 $0x1,%ymm1,%xmm1
	vpextrq $0x1,%xmm1,%rcx
	vmovq %xmm1,%rdx
	mulx %rcx,%rdx,%rcx
	add %r15,%rsi
	xor %rdx,%rcx
	add %rsi,%rcx
	.byte 15,31,132,0,0,0,0,0
	cmp $0x88,%rbx
	jb .L7_2e4.i7_v3
	vpxor -0x2b(%r14,%rbx,1),%ymm0,%ymm0
	vmovq %xmm0,%rdx
	vpextrq $0x1,%xmm0,%rsi
	mulx %rsi,%rdx,%rsi
	xor %rdx,%rsi
	vextracti128 $0x1,%ymm0,%xmm0
	vmovq %xmm0,%rdx
	vpextrq $0x1,%xmm0,%rdi
	mulx %rdi,%rdx,%rdi
	xor %rdx,%rdi
	add %rsi,%rdi
	add %rdi,%rcx
	mov %rcx,%rdx
	shr $0x25,%rdx
	xor %rcx,%rdx
	movabs $0x165667919e3779f9,%rsi
	imul %rdx,%rsi
	mov %rsi,%rcx
	shr $0x20,%rcx
	xor %rsi,%rcx
.L7_2e4.i7_v3:
	mov %rcx,%rdx
	add $0x50,%rsp
	.cfi_def_cfa_offset 48
	pop %rbx
	.cfi_def_cfa_offset 40
	.cfi_restore 3
	pop %r12
	.cfi_def_cfa_offset 32
	.cfi_restore 12
	pop %r13
	.cfi_def_cfa_offset 24
	.cfi_restore 13
	pop %r14
	.cfi_def_cfa_offset 16
	.cfi_restore 14
	pop %r15
	.cfi_def_cfa_offset 8
	.cfi_restore 15
	vzeroupper
	ret
	.cfi_def_cfa_offset 128
	.cfi_offset 3, -48
	.cfi_offset 12, -40
	.cfi_offset 13, -32
	.cfi_offset 14, -24
	.cfi_offset 15, -16
.L7_2f8.i7_v3:
	ud2
	.cfi_endproc
	.size twox_core.width_128.oneshot_many.i7_v3,.-twox_core.width_128.oneshot_many.i7_v3
	.section .text.twox_core.width_128.oneshot_long_of_any_length.i7_v3,"ax",@progbits
	.p2align 6
	.type twox_core.width_128.oneshot_long_of_any_length.i7_v3,@function
twox_core.width_128.oneshot_long_of_any_length.i7_v3:
	.cfi_startproc
	push %r15
	.cfi_def_cfa_offset 16
	.cfi_offset 15, -16
	push %r14
	.cfi_def_cfa_offset 24
	.cfi_offset 14, -24
	push %r12
	.cfi_def_cfa_offset 32
	.cfi_offset 12, -32
	push %rbx
	.cfi_def_cfa_offset 40
	.cfi_offset 3, -40
	cmp $0x7bff,%rcx
	ja .L8_45.i7_v3
	lea -0x40(%rsi),%r10
	mov %r10,%r11
	shr $0x3,%r11
	lea -0x1(%rcx),%r8
	shr $0x6,%r8
	vmovdqa .L21_80.i7_v3(%rip),%ymm0
	vmovdqa .L21_a0.i7_v3(%rip),%ymm1
	cmp %r11,%r8
	jae .L8_51.i7_v3
	xor %eax,%eax
	mov %rdx,%r9
	.byte 15,31,0
	jmp .L8_3a7.i7_v3
.L8_45.i7_v3:
	pop %rbx
	.cfi_def_cfa_offset 32
	.cfi_restore 3
	pop %r12
	.cfi_def_cfa_offset 24
	.cfi_restore 12
	pop %r14
	.cfi_def_cfa_offset 16
	.cfi_restore 14
	pop %r15
	.cfi_def_cfa_offset 8
	.cfi_restore 15
	jmp twox_core.width_128.oneshot_many.i7_v3
	.cfi_def_cfa_offset 40
	.cfi_offset 3, -40
	.cfi_offset 12, -32
	.cfi_offset 14, -24
	.cfi_offset 15, -16
.L8_51.i7_v3:
	cmp $0x10,%r11
	je .L8_82.i7_v3
	.byte 102,15,31,132,0,0,0,0,0
	test %r11,%r11
	je .L8_5aa.i7_v3
	mov %rdx,%r9
	mov %r8d,%eax
	xor %edx,%edx
	div %r11w
	movzwl %dx,%eax
	sub %rax,%r8
	mov %r9,%rdx
	.byte 102,144
	jmp .L8_86.i7_v3
.L8_82.i7_v3:
	and $0xfffffffffffffff0,%r8
.L8_86.i7_v3:
	mov %r8,%rax
	shl $0x6,%rax
	lea (%rdx,%rax,1),%r9
	cmp $0x10,%r11
	jne .L8_2b7.i7_v3
	mov %r8d,%ebx
	.byte 102,144
	and $0xf,%ebx
	jne .L8_2b7.i7_v3
	test %r8,%r8
	je .L8_3a5.i7_v3
	shr $0x4,%r8
	vmovdqu (%rdi,%r10,1),%ymm2
	vmovdqu 0x20(%rdi,%r10,1),%ymm3
	lea 0x38(%rdi),%r10
	lea 0xe0(%rdx),%r11
	vmovdqa .L21_80.i7_v3(%rip),%ymm0
	vmovdqa .L21_a0.i7_v3(%rip),%ymm1
	xor %ebx,%ebx
	mov %rdx,%r14
	.byte 102,102,102,102,46,15,31,132,0,0,0,0,0
.L8_f0.i7_v3:
	xor %r15d,%r15d
	mov %r10,%r12
	.byte 102,46,15,31,132,0,0,0,0,0
.L8_100.i7_v3:
	prefetcht0 0x400(%r14,%r15,1)
	prefetcht0 0x440(%r14,%r15,1)
	prefetcht0 0x480(%r14,%r15,1)
	prefetcht0 0x4c0(%r14,%r15,1)
	vmovdqu -0xe0(%r11,%r15,1),%ymm6
	vmovdqu -0xc0(%r11,%r15,1),%ymm4
	vmovdqu -0xa0(%r11,%r15,1),%ymm7
	vpxor -0x38(%r12),%ymm6,%ymm8
	vmovdqu -0x80(%r11,%r15,1),%ymm5
	vpsrlq $0x20,%ymm8,%ymm9
	vpmuludq %ymm9,%ymm8,%ymm8
	vpaddq %ymm1,%ymm8,%ymm1
	vpxor -0x30(%r12),%ymm7,%ymm8
	vpsrlq $0x20,%ymm8,%ymm9
	vpmuludq %ymm9,%ymm8,%ymm8
	vmovdqu -0x60(%r11,%r15,1),%ymm9
	vpxor -0x28(%r12),%ymm9,%ymm10
	vpsrlq $0x20,%ymm10,%ymm11
	vpmuludq %ymm11,%ymm10,%ymm10
	vpaddq %ymm10,%ymm8,%ymm8
	vpaddq %ymm1,%ymm8,%ymm1
	vmovdqu -0x20(%r11,%r15,1),%ymm8
	vpxor -0x20(%r12),%ymm8,%ymm10
	vpsrlq $0x20,%ymm10,%ymm11
	vpmuludq %ymm11,%ymm10,%ymm10
	vpaddq %ymm6,%ymm7,%ymm6
	vpaddq %ymm8,%ymm9,%ymm7
	vpaddq %ymm7,%ymm6,%ymm6
	vpshufd $0x4e,%ymm6,%ymm6
	vpaddq %ymm6,%ymm10,%ymm6
	vpaddq %ymm6,%ymm1,%ymm1
	vpxor -0x18(%r12),%ymm4,%ymm6
	vpsrlq $0x20,%ymm6,%ymm7
	vpmuludq %ymm7,%ymm6,%ymm6
	vpxor -0x10(%r12),%ymm5,%ymm7
	vpaddq %ymm0,%ymm6,%ymm0
	vpsrlq $0x20,%ymm7,%ymm6
	vpmuludq %ymm6,%ymm7,%ymm6
	vmovdqu -0x40(%r11,%r15,1),%ymm7
	vpxor -0x8(%r12),%ymm7,%ymm8
	vpsrlq $0x20,%ymm8,%ymm9
	vpmuludq %ymm9,%ymm8,%ymm8
	vpaddq %ymm6,%ymm8,%ymm6
	vmovdqu (%r11,%r15,1),%ymm8
	vpxor (%r12),%ymm8,%ymm9
	vpaddq %ymm6,%ymm0,%ymm0
	vpsrlq $0x20,%ymm9,%ymm6
	vpmuludq %ymm6,%ymm9,%ymm6
	vpaddq %ymm4,%ymm5,%ymm4
	vpaddq %ymm7,%ymm8,%ymm5
	vpaddq %ymm5,%ymm4,%ymm4
	vpshufd $0x4e,%ymm4,%ymm4
	vpaddq %ymm6,%ymm4,%ymm4
	vpaddq %ymm4,%ymm0,%ymm0
	add $0x100,%r15
	add $0x20,%r12
	cmp $0x400,%r15
	jne .L8_100.i7_v3
	vpsrlq $0x2f,%ymm1,%ymm4
	vpxor %ymm1,%ymm2,%ymm1
	vpxor %ymm4,%ymm1,%ymm1
	vpbroadcastq .L22_40.i7_v3(%rip),%ymm4
	vpmulld %ymm4,%ymm1,%ymm5
	vpsrlq $0x2f,%ymm0,%ymm6
	vpxor %ymm0,%ymm3,%ymm0
	vpxor %ymm6,%ymm0,%ymm0
	vpmulld %ymm4,%ymm0,%ymm4
	inc %rbx
	vpbroadcastq .L22_48.i7_v3(%rip),%ymm6
	vpmuludq %ymm6,%ymm1,%ymm1
	vpaddq %ymm5,%ymm1,%ymm1
	vpmuludq %ymm6,%ymm0,%ymm0
	vpaddq %ymm4,%ymm0,%ymm0
	add $0x400,%r11
	add $0x400,%r14
	cmp %r8,%rbx
	jne .L8_f0.i7_v3
	jmp .L8_3a7.i7_v3
.L8_2b7.i7_v3:
	.byte 102,15,31,132,0,0,0,0,0
	test %r8,%r8
	je .L8_3a5.i7_v3
	vmovdqa .L21_80.i7_v3(%rip),%ymm0
	vmovdqa .L21_a0.i7_v3(%rip),%ymm1
	xor %r14d,%r14d
	mov %rdx,%rbx
	.byte 144
	jmp .L8_2fd.i7_v3
	.byte 102,102,102,102,102,46,15,31,132,0,0,0,0,0
.L8_2f0.i7_v3:
	add $0x40,%rbx
	dec %r8
	je .L8_3a7.i7_v3
.L8_2fd.i7_v3:
	prefetcht0 0x140(%rbx)
	vmovdqu (%rbx),%ymm2
	vmovdqu 0x20(%rbx),%ymm3
	vpshufd $0x4e,%ymm2,%ymm4
	vpaddq %ymm4,%ymm1,%ymm1
	vpxor (%rdi,%r14,8),%ymm2,%ymm2
	vpsrlq $0x20,%ymm2,%ymm4
	vpmuludq %ymm4,%ymm2,%ymm2
	vpaddq %ymm2,%ymm1,%ymm1
	vpshufd $0x4e,%ymm3,%ymm2
	vpaddq %ymm0,%ymm2,%ymm0
	vpxor 0x20(%rdi,%r14,8),%ymm3,%ymm2
	vpsrlq $0x20,%ymm2,%ymm3
	vpmuludq %ymm3,%ymm2,%ymm2
	vpaddq %ymm2,%ymm0,%ymm0
	inc %r14
	cmp %r11,%r14
	jne .L8_2f0.i7_v3
	vpsrlq $0x2f,%ymm1,%ymm2
	vpxor (%rdi,%r10,1),%ymm2,%ymm2
	vpxor %ymm1,%ymm2,%ymm1
	vpbroadcastq .L22_40.i7_v3(%rip),%ymm2
	vpmulld %ymm2,%ymm1,%ymm3
	vpsrlq $0x2f,%ymm0,%ymm4
	vpxor 0x20(%rdi,%r10,1),%ymm4,%ymm4
	vpxor %ymm0,%ymm4,%ymm0
	vpmulld %ymm2,%ymm0,%ymm2
	vpbroadcastq .L22_48.i7_v3(%rip),%ymm4
	vpmuludq %ymm4,%ymm1,%ymm1
	vpaddq %ymm3,%ymm1,%ymm1
	vpmuludq %ymm4,%ymm0,%ymm0
	vpaddq %ymm2,%ymm0,%ymm0
	xor %r14d,%r14d
	.byte 15,31,64,0
	jmp .L8_2f0.i7_v3
.L8_3a5.i7_v3:
	xor %eax,%eax
.L8_3a7.i7_v3:
	not %rax
	add %rcx,%rax
	shr $0x6,%rax
	je .L8_40f.i7_v3
	shl $0x3,%rax
	xor %r8d,%r8d
	.byte 102,15,31,68,0,0
.L8_3c0.i7_v3:
	vmovdqu (%r9,%r8,8),%ymm2
	vmovdqu 0x20(%r9,%r8,8),%ymm3
	vpshufd $0x4e,%ymm2,%ymm4
	vpaddq %ymm4,%ymm1,%ymm1
	vpxor (%rdi,%r8,1),%ymm2,%ymm2
	vpsrlq $0x20,%ymm2,%ymm4
	vpmuludq %ymm4,%ymm2,%ymm2
	vpaddq %ymm2,%ymm1,%ymm1
	vpshufd $0x4e,%ymm3,%ymm2
	vpaddq %ymm0,%ymm2,%ymm0
	vpxor 0x20(%rdi,%r8,1),%ymm3,%ymm2
	vpsrlq $0x20,%ymm2,%ymm3
	vpmuludq %ymm3,%ymm2,%ymm2
	vpaddq %ymm2,%ymm0,%ymm0
	add $0x8,%r8
	cmp %r8,%rax
	jne .L8_3c0.i7_v3
.L8_40f.i7_v3:
	movabs $0x165667919e3779f9,%r9
	vmovdqu -0x40(%rdx,%rcx,1),%ymm2
	vmovdqu -0x20(%rdx,%rcx,1),%ymm3
	vpshufd $0x4e,%ymm2,%ymm4
	vpxor -0x47(%rdi,%rsi,1),%ymm2,%ymm2
	vpsrlq $0x20,%ymm2,%ymm5
	vpmuludq %ymm5,%ymm2,%ymm2
	vpaddq %ymm2,%ymm4,%ymm2
	vpaddq %ymm1,%ymm2,%ymm1
	vpshufd $0x4e,%ymm3,%ymm2
	vpxor -0x27(%rdi,%rsi,1),%ymm3,%ymm3
	vpsrlq $0x20,%ymm3,%ymm4
	vpmuludq %ymm4,%ymm3,%ymm3
	vpaddq %ymm3,%ymm2,%ymm2
	movabs $0x9e3779b185ebca87,%rax
	vpxor 0xb(%rdi),%ymm1,%ymm3
	imul %rcx,%rax
	vmovq %xmm3,%rdx
	vpextrq $0x1,%xmm3,%r8
	mulx %r8,%rdx,%r8
	xor %rdx,%r8
	add %rax,%r8
	vextracti128 $0x1,%ymm3,%xmm3
	vpextrq $0x1,%xmm3,%rax
	vmovq %xmm3,%rdx
	mulx %rax,%rdx,%rax
	vpaddq %ymm0,%ymm2,%ymm0
	xor %rdx,%rax
	add %r8,%rax
	cmp $0x88,%rsi
	jb .L8_4fa.i7_v3
	vpxor 0x2b(%rdi),%ymm0,%ymm2
	vpextrq $0x1,%xmm2,%r8
	vmovq %xmm2,%rdx
	mulx %r8,%rdx,%r8
	xor %rdx,%r8
	vextracti128 $0x1,%ymm2,%xmm2
	vpextrq $0x1,%xmm2,%r10
	vmovq %xmm2,%rdx
	mulx %r10,%rdx,%r10
	xor %rdx,%r10
	add %r8,%r10
	add %r10,%rax
	mov %rax,%rdx
	shr $0x25,%rdx
	xor %rax,%rdx
	imul %r9,%rdx
	mov %rdx,%rax
	shr $0x20,%rax
	xor %rdx,%rax
.L8_4fa.i7_v3:
	movabs $0xc2b2ae3d27d4eb4f,%rdx
	imul %rdx,%rcx
	not %rcx
	vpxor -0x4b(%rdi,%rsi,1),%ymm1,%ymm1
	vpextrq $0x1,%xmm1,%r8
	vmovq %xmm1,%rdx
	mulx %r8,%rdx,%r10
	xor %rdx,%r10
	vextracti128 $0x1,%ymm1,%xmm1
	vpextrq $0x1,%xmm1,%r8
	vmovq %xmm1,%rdx
	mulx %r8,%rdx,%r8
	add %rcx,%r10
	xor %rdx,%r8
	add %r10,%r8
	cmp $0x88,%rsi
	jb .L8_59c.i7_v3
	vpxor -0x2b(%rdi,%rsi,1),%ymm0,%ymm0
	vpextrq $0x1,%xmm0,%rcx
	vmovq %xmm0,%rdx
	mulx %rcx,%rcx,%rsi
	xor %rcx,%rsi
	vextracti128 $0x1,%ymm0,%xmm0
	vpextrq $0x1,%xmm0,%rcx
	vmovq %xmm0,%rdx
	mulx %rcx,%rcx,%rdx
	xor %rcx,%rdx
	add %rsi,%rdx
	add %rdx,%r8
	mov %r8,%rcx
	shr $0x25,%rcx
	xor %r8,%rcx
	imul %r9,%rcx
	mov %rcx,%r8
	shr $0x20,%r8
	xor %rcx,%r8
.L8_59c.i7_v3:
	mov %r8,%rdx
	pop %rbx
	.cfi_def_cfa_offset 32
	.cfi_restore 3
	pop %r12
	.cfi_def_cfa_offset 24
	.cfi_restore 12
	pop %r14
	.cfi_def_cfa_offset 16
	.cfi_restore 14
	pop %r15
	.cfi_def_cfa_offset 8
	.cfi_restore 15
	vzeroupper
	ret
	.cfi_def_cfa_offset 40
	.cfi_offset 3, -40
	.cfi_offset 12, -32
	.cfi_offset 14, -24
	.cfi_offset 15, -16
.L8_5aa.i7_v3:
	ud2
	.cfi_endproc
	.size twox_core.width_128.oneshot_long_of_any_length.i7_v3,.-twox_core.width_128.oneshot_long_of_any_length.i7_v3
	.section .text.twox_core.width_64.oneshot_long.i7_v3,"ax",@progbits
	.p2align 6
	.type twox_core.width_64.oneshot_long.i7_v3,@function
twox_core.width_64.oneshot_long.i7_v3:
	.cfi_startproc
	cmp $0xc0,%rsi
	jne twox_core.width_64.oneshot_long_of_any_length.i7_v3
	cmp $0x7bff,%rcx
	ja .L9_55.i7_v3
	push %r14
	.cfi_def_cfa_offset 16
	.cfi_offset 14, -16
	push %rbx
	.cfi_def_cfa_offset 24
	.cfi_offset 3, -24
	.byte 15,31,128,0,0,0,0
	cmp $0x401,%rcx
	jae .L9_5f.i7_v3
	vmovdqa .L21_c0.i7_v3(%rip),%ymm0
	vmovdqa .L21_e0.i7_v3(%rip),%ymm1
	mov $0xffffffffffffffff,%rax
	mov %rdx,%rsi
	add %rcx,%rax
	shr $0x6,%rax
	jne .L9_270.i7_v3
	jmp .L9_2cf.i7_v3
	.cfi_def_cfa_offset 8
	.cfi_restore 3
	.cfi_restore 14
.L9_55.i7_v3:
	mov $0xc0,%esi
	jmp twox_core.width_64.oneshot_many.i7_v3
	.cfi_def_cfa_offset 24
	.cfi_offset 3, -24
	.cfi_offset 14, -16
.L9_5f.i7_v3:
	lea -0x1(%rcx),%rax
	mov %rax,%rsi
	shr $0xa,%rsi
	vmovdqu 0x80(%rdi),%ymm2
	vmovdqu 0xa0(%rdi),%ymm3
	lea 0x38(%rdi),%r8
	lea 0xe0(%rdx),%r9
	vmovdqa .L21_c0.i7_v3(%rip),%ymm0
	vmovdqa .L21_e0.i7_v3(%rip),%ymm1
	xor %r10d,%r10d
	mov %rdx,%r11
	.byte 15,31,68,0,0
.L9_a0.i7_v3:
	xor %ebx,%ebx
	mov %r8,%r14
	.byte 102,102,46,15,31,132,0,0,0,0,0
.L9_b0.i7_v3:
	prefetcht0 0x400(%r11,%rbx,1)
	prefetcht0 0x440(%r11,%rbx,1)
	prefetcht0 0x480(%r11,%rbx,1)
	prefetcht0 0x4c0(%r11,%rbx,1)
	vmovdqu -0xe0(%r9,%rbx,1),%ymm6
	vmovdqu -0xc0(%r9,%rbx,1),%ymm4
	vmovdqu -0xa0(%r9,%rbx,1),%ymm7
	vpxor -0x38(%r14),%ymm6,%ymm8
	vmovdqu -0x80(%r9,%rbx,1),%ymm5
	vpsrlq $0x20,%ymm8,%ymm9
	vpmuludq %ymm9,%ymm8,%ymm8
	vpaddq %ymm1,%ymm8,%ymm1
	vpxor -0x30(%r14),%ymm7,%ymm8
	vpsrlq $0x20,%ymm8,%ymm9
	vpmuludq %ymm9,%ymm8,%ymm8
	vmovdqu -0x60(%r9,%rbx,1),%ymm9
	vpxor -0x28(%r14),%ymm9,%ymm10
	vpsrlq $0x20,%ymm10,%ymm11
	vpmuludq %ymm11,%ymm10,%ymm10
	vpaddq %ymm10,%ymm8,%ymm8
	vpaddq %ymm1,%ymm8,%ymm1
	vmovdqu -0x20(%r9,%rbx,1),%ymm8
	vpxor -0x20(%r14),%ymm8,%ymm10
	vpsrlq $0x20,%ymm10,%ymm11
	vpmuludq %ymm11,%ymm10,%ymm10
	vpaddq %ymm6,%ymm7,%ymm6
	vpaddq %ymm8,%ymm9,%ymm7
	vpaddq %ymm7,%ymm6,%ymm6
	vpshufd $0x4e,%ymm6,%ymm6
	vpaddq %ymm6,%ymm10,%ymm6
	vpaddq %ymm6,%ymm1,%ymm1
	vpxor -0x18(%r14),%ymm4,%ymm6
	vpsrlq $0x20,%ymm6,%ymm7
	vpmuludq %ymm7,%ymm6,%ymm6
	vpxor -0x10(%r14),%ymm5,%ymm7
	vpaddq %ymm0,%ymm6,%ymm0
	vpsrlq $0x20,%ymm7,%ymm6
	vpmuludq %ymm6,%ymm7,%ymm6
	vmovdqu -0x40(%r9,%rbx,1),%ymm7
	vpxor -0x8(%r14),%ymm7,%ymm8
	vpsrlq $0x20,%ymm8,%ymm9
	vpmuludq %ymm9,%ymm8,%ymm8
	vpaddq %ymm6,%ymm8,%ymm6
	vmovdqu (%r9,%rbx,1),%ymm8
	vpxor (%r14),%ymm8,%ymm9
	vpaddq %ymm6,%ymm0,%ymm0
	vpsrlq $0x20,%ymm9,%ymm6
	vpmuludq %ymm6,%ymm9,%ymm6
	vpaddq %ymm4,%ymm5,%ymm4
	vpaddq %ymm7,%ymm8,%ymm5
	vpaddq %ymm5,%ymm4,%ymm4
	vpshufd $0x4e,%ymm4,%ymm4
	vpaddq %ymm6,%ymm4,%ymm4
	vpaddq %ymm4,%ymm0,%ymm0
	add $0x100,%rbx
	add $0x20,%r14
	cmp $0x400,%rbx
	jne .L9_b0.i7_v3
	vpsrlq $0x2f,%ymm1,%ymm4
	vpxor %ymm1,%ymm2,%ymm1
	vpxor %ymm4,%ymm1,%ymm1
	vpbroadcastq .L22_50.i7_v3(%rip),%ymm4
	vpmulld %ymm4,%ymm1,%ymm5
	vpsrlq $0x2f,%ymm0,%ymm6
	vpxor %ymm0,%ymm3,%ymm0
	vpxor %ymm6,%ymm0,%ymm0
	vpmulld %ymm4,%ymm0,%ymm4
	inc %r10
	vpbroadcastq .L22_58.i7_v3(%rip),%ymm6
	vpmuludq %ymm6,%ymm1,%ymm1
	vpaddq %ymm5,%ymm1,%ymm1
	vpmuludq %ymm6,%ymm0,%ymm0
	vpaddq %ymm4,%ymm0,%ymm0
	add $0x400,%r9
	add $0x400,%r11
	cmp %rsi,%r10
	jne .L9_a0.i7_v3
	and $0xfffffffffffffc00,%rax
	lea (%rdx,%rax,1),%rsi
	not %rax
	add %rcx,%rax
	shr $0x6,%rax
	je .L9_2cf.i7_v3
.L9_270.i7_v3:
	shl $0x3,%rax
	xor %r8d,%r8d
	.byte 102,15,31,132,0,0,0,0,0
.L9_280.i7_v3:
	vmovdqu (%rsi,%r8,8),%ymm2
	vmovdqu 0x20(%rsi,%r8,8),%ymm3
	vpshufd $0x4e,%ymm2,%ymm4
	vpaddq %ymm4,%ymm1,%ymm1
	vpxor (%rdi,%r8,1),%ymm2,%ymm2
	vpsrlq $0x20,%ymm2,%ymm4
	vpmuludq %ymm4,%ymm2,%ymm2
	vpaddq %ymm2,%ymm1,%ymm1
	vpshufd $0x4e,%ymm3,%ymm2
	vpaddq %ymm0,%ymm2,%ymm0
	vpxor 0x20(%rdi,%r8,1),%ymm3,%ymm2
	vpsrlq $0x20,%ymm2,%ymm3
	vpmuludq %ymm3,%ymm2,%ymm2
	vpaddq %ymm2,%ymm0,%ymm0
	add $0x8,%r8
	cmp %r8,%rax
	jne .L9_280.i7_v3
.L9_2cf.i7_v3:
	movabs $0x9e3779b185ebca87,%rsi
	imul %rcx,%rsi
	vmovdqu -0x40(%rdx,%rcx,1),%ymm2
	vpshufd $0x4e,%ymm2,%ymm3
	vpxor 0x79(%rdi),%ymm2,%ymm2
	vpsrlq $0x20,%ymm2,%ymm4
	vpmuludq %ymm4,%ymm2,%ymm2
	vpaddq %ymm2,%ymm3,%ymm2
	vpaddq %ymm1,%ymm2,%ymm1
	vpxor 0xb(%rdi),%ymm1,%ymm1
	vpextrq $0x1,%xmm1,%r8
	vmovq %xmm1,%rax
	mov %rdx,%r9
	mov %rax,%rdx
	mulx %r8,%r8,%rax
	vmovdqu -0x20(%r9,%rcx,1),%ymm2
	vextracti128 $0x1,%ymm1,%xmm1
	vpextrq $0x1,%xmm1,%rcx
	vmovq %xmm1,%rdx
	mulx %rcx,%rcx,%r9
	xor %r8,%rax
	vpshufd $0x4e,%ymm2,%ymm1
	vpxor 0x99(%rdi),%ymm2,%ymm2
	vpsrlq $0x20,%ymm2,%ymm3
	vpmuludq %ymm3,%ymm2,%ymm2
	vpaddq %ymm2,%ymm1,%ymm1
	vpaddq %ymm0,%ymm1,%ymm0
	vpxor 0x2b(%rdi),%ymm0,%ymm0
	vpextrq $0x1,%xmm0,%rdi
	vmovq %xmm0,%rdx
	mulx %rdi,%rdx,%rdi
	add %rsi,%rax
	xor %rcx,%r9
	xor %rdx,%rdi
	add %rax,%rdi
	add %r9,%rdi
	vextracti128 $0x1,%ymm0,%xmm0
	vpextrq $0x1,%xmm0,%rax
	vmovq %xmm0,%rdx
	mulx %rax,%rax,%rcx
	xor %rax,%rcx
	add %rdi,%rcx
	mov %rcx,%rax
	shr $0x25,%rax
	xor %rcx,%rax
	movabs $0x165667919e3779f9,%rcx
	imul %rax,%rcx
	mov %rcx,%rax
	shr $0x20,%rax
	xor %rcx,%rax
	pop %rbx
	.cfi_def_cfa_offset 16
	.cfi_restore 3
	pop %r14
	.cfi_def_cfa_offset 8
	.cfi_restore 14
	vzeroupper
	ret
	.cfi_endproc
	.size twox_core.width_64.oneshot_long.i7_v3,.-twox_core.width_64.oneshot_long.i7_v3
	.section .text.twox_core.width_64.oneshot_many.i7_v3,"ax",@progbits
	.p2align 6
	.type twox_core.width_64.oneshot_many.i7_v3,@function
twox_core.width_64.oneshot_many.i7_v3:
	.cfi_startproc
	push %r15
	.cfi_def_cfa_offset 16
	.cfi_offset 15, -16
	push %r14
	.cfi_def_cfa_offset 24
	.cfi_offset 14, -24
	push %r13
	.cfi_def_cfa_offset 32
	.cfi_offset 13, -32
	push %r12
	.cfi_def_cfa_offset 40
	.cfi_offset 12, -40
	push %rbx
	.cfi_def_cfa_offset 48
	.cfi_offset 3, -48
	sub $0x50,%rsp
	.cfi_def_cfa_offset 128
	mov %rcx,%r15
	mov %rdx,%r12
	mov %rsi,%r14
	mov %rdi,%rbx
	lea -0x40(%rsi),%rcx
	shr $0x3,%rcx
	lea -0x1(%r15),%r13
	shr $0x6,%r13
	cmp %rcx,%r13
	jae .L10_33.i7_v3
	xor %r13d,%r13d
	jmp .L10_78.i7_v3
.L10_33.i7_v3:
	cmp $0x10,%rcx
	je .L10_68.i7_v3
	.byte 15,31,128,0,0,0,0
	test %rcx,%rcx
	je .L10_23b.i7_v3
	mov %r13,%rax
	or %rcx,%rax
	movabs $0x1fffffff00000000,%rdx
	test %rdx,%rax
	je .L10_6e.i7_v3
	mov %r13,%rax
	xor %edx,%edx
	div %rcx
	jmp .L10_75.i7_v3
.L10_68.i7_v3:
	and $0xfffffffffffffff0,%r13
	jmp .L10_78.i7_v3
.L10_6e.i7_v3:
	mov %r13d,%eax
	xor %edx,%edx
	div %ecx
.L10_75.i7_v3:
	sub %rdx,%r13
.L10_78.i7_v3:
	shl $0x6,%r13
	vmovaps .L21_100.i7_v3(%rip),%ymm0
	vmovups %ymm0,0x8(%rsp)
	vmovaps .L21_120.i7_v3(%rip),%ymm0
	vmovups %ymm0,0x28(%rsp)
	movq $0x0,0x48(%rsp)
	lea 0x8(%rsp),%rdi
	mov %r12,%rsi
	mov %r13,%rdx
	mov %rbx,%rcx
	mov %r14,%r8
	vzeroupper
	call twox_core.xxhash3.stripes.take_many_stripes.i7_v3
	vmovdqu 0x8(%rsp),%ymm1
	vmovdqu 0x28(%rsp),%ymm0
	mov %r13,%rax
	not %rax
	add %r15,%rax
	shr $0x6,%rax
	je .L10_13b.i7_v3
	shl $0x3,%rax
	lea (%r12,%r13,1),%rcx
	add $0x20,%rcx
	xor %edx,%edx
	.byte 102,102,102,102,46,15,31,132,0,0,0,0,0
.L10_f0.i7_v3:
	vmovdqu -0x20(%rcx,%rdx,8),%ymm2
	vmovdqu (%rcx,%rdx,8),%ymm3
	vpshufd $0x4e,%ymm2,%ymm4
	vpaddq %ymm4,%ymm1,%ymm1
	vpxor (%rbx,%rdx,1),%ymm2,%ymm2
	vpsrlq $0x20,%ymm2,%ymm4
	vpmuludq %ymm4,%ymm2,%ymm2
	vpaddq %ymm2,%ymm1,%ymm1
	vpshufd $0x4e,%ymm3,%ymm2
	vpaddq %ymm0,%ymm2,%ymm0
	vpxor 0x20(%rbx,%rdx,1),%ymm3,%ymm2
	vpsrlq $0x20,%ymm2,%ymm3
	vpmuludq %ymm3,%ymm2,%ymm2
	vpaddq %ymm2,%ymm0,%ymm0
	add $0x8,%rdx
	cmp %rdx,%rax
	jne .L10_f0.i7_v3
.L10_13b.i7_v3:
	vmovdqu -0x40(%r12,%r15,1),%ymm2
	vpshufd $0x4e,%ymm2,%ymm3
	vpxor -0x47(%rbx,%r14,1),%ymm2,%ymm2
	vpsrlq $0x20,%ymm2,%ymm4
	vpmuludq %ymm4,%ymm2,%ymm2
	vpaddq %ymm2,%ymm3,%ymm2
	vpaddq %ymm1,%ymm2,%ymm1
	movabs $0x9e3779b185ebca87,%rcx
	imul %r15,%rcx
	vpxor 0xb(%rbx),%ymm1,%ymm1
	vpextrq $0x1,%xmm1,%rax
	vmovq %xmm1,%rdx
	mulx %rax,%rax,%rsi
	xor %rax,%rsi
	vextracti128 $0x1,%ymm1,%xmm1
	vpextrq $0x1,%xmm1,%rax
	vmovq %xmm1,%rdx
	mulx %rax,%rdx,%rax
	add %rcx,%rsi
	xor %rdx,%rax
	add %rsi,%rax
	cmp $0x88,%r14
	jb .L10_22a.i7_v3
	vmovdqu -0x20(%r12,%r15,1),%ymm1
	vpshufd $0x4e,%ymm1,%ymm2
	vpxor -0x27(%rbx,%r14,1),%ymm1,%ymm1
	vpsrlq $0x20,%ymm1,%ymm3
	vpmuludq %ymm3,%ymm1,%ymm1
	vpaddq %ymm1,%ymm2,%ymm1
	vpaddq %ymm0,%ymm1,%ymm0
	vpxor 0x2b(%rbx),%ymm0,%ymm0
	vmovq %xmm0,%rdx
	vpextrq $0x1,%xmm0,%rcx
	mulx %rcx,%rcx,%rsi
	xor %rcx,%rsi
	vextracti128 $0x1,%ymm0,%xmm0
	vmovq %xmm0,%rdx
	vpextrq $0x1,%xmm0,%rcx
	mulx %rcx,%rcx,%rdx
	xor %rcx,%rdx
	add %rsi,%rdx
	add %rdx,%rax
	mov %rax,%rcx
	shr $0x25,%rcx
	xor %rax,%rcx
	movabs $0x165667919e3779f9,%rdx
	imul %rcx,%rdx
	mov %rdx,%rax
	shr $0x20,%rax
	xor %rdx,%rax
.L10_22a.i7_v3:
	add $0x50,%rsp
	.cfi_def_cfa_offset 48
	pop %rbx
	.cfi_def_cfa_offset 40
	.cfi_restore 3
	pop %r12
	.cfi_def_cfa_offset 32
	.cfi_restore 12
	pop %r13
	.cfi_def_cfa_offset 24
	.cfi_restore 13
	pop %r14
	.cfi_def_cfa_offset 16
	.cfi_restore 14
	pop %r15
	.cfi_def_cfa_offset 8
	.cfi_restore 15
	vzeroupper
	ret
	.cfi_def_cfa_offset 128
	.cfi_offset 3, -48
	.cfi_offset 12, -40
	.cfi_offset 13, -32
	.cfi_offset 14, -24
	.cfi_offset 15, -16
.L10_23b.i7_v3:
	ud2
	.cfi_endproc
	.size twox_core.width_64.oneshot_many.i7_v3,.-twox_core.width_64.oneshot_many.i7_v3
	.section .text.twox_core.width_64.oneshot_long_of_any_length.i7_v3,"ax",@progbits
	.p2align 6
	.type twox_core.width_64.oneshot_long_of_any_length.i7_v3,@function
twox_core.width_64.oneshot_long_of_any_length.i7_v3:
	.cfi_startproc
	push %r15
	.cfi_def_cfa_offset 16
	.cfi_offset 15, -16
	push %r14
	.cfi_def_cfa_offset 24
	.cfi_offset 14, -24
	push %r12
	.cfi_def_cfa_offset 32
	.cfi_offset 12, -32
	push %rbx
	.cfi_def_cfa_offset 40
	.cfi_offset 3, -40
	cmp $0x7bff,%rcx
	ja .L11_45.i7_v3
	lea -0x40(%rsi),%r10
	mov %r10,%r11
	shr $0x3,%r11
	lea -0x1(%rcx),%r8
	shr $0x6,%r8
	vmovdqa .L21_140.i7_v3(%rip),%ymm1
	vmovdqa .L21_160.i7_v3(%rip),%ymm0
	cmp %r11,%r8
	jae .L11_51.i7_v3
	xor %eax,%eax
	mov %rdx,%r9
	.byte 15,31,0
	jmp .L11_3a7.i7_v3
.L11_45.i7_v3:
	pop %rbx
	.cfi_def_cfa_offset 32
	.cfi_restore 3
	pop %r12
	.cfi_def_cfa_offset 24
	.cfi_restore 12
	pop %r14
	.cfi_def_cfa_offset 16
	.cfi_restore 14
	pop %r15
	.cfi_def_cfa_offset 8
	.cfi_restore 15
	jmp twox_core.width_64.oneshot_many.i7_v3
	.cfi_def_cfa_offset 40
	.cfi_offset 3, -40
	.cfi_offset 12, -32
	.cfi_offset 14, -24
	.cfi_offset 15, -16
.L11_51.i7_v3:
	cmp $0x10,%r11
	je .L11_82.i7_v3
	.byte 102,15,31,132,0,0,0,0,0
	test %r11,%r11
	je .L11_510.i7_v3
	mov %rdx,%r9
	mov %r8d,%eax
	xor %edx,%edx
	div %r11w
	movzwl %dx,%eax
	sub %rax,%r8
	mov %r9,%rdx
	.byte 102,144
	jmp .L11_86.i7_v3
.L11_82.i7_v3:
	and $0xfffffffffffffff0,%r8
.L11_86.i7_v3:
	mov %r8,%rax
	shl $0x6,%rax
	lea (%rdx,%rax,1),%r9
	cmp $0x10,%r11
	jne .L11_2b7.i7_v3
	mov %r8d,%ebx
	.byte 102,144
	and $0xf,%ebx
	jne .L11_2b7.i7_v3
	test %r8,%r8
	je .L11_3a5.i7_v3
	shr $0x4,%r8
	vmovdqu (%rdi,%r10,1),%ymm2
	vmovdqu 0x20(%rdi,%r10,1),%ymm3
	lea 0x38(%rdi),%r10
	lea 0xe0(%rdx),%r11
	vmovdqa .L21_160.i7_v3(%rip),%ymm0
	vmovdqa .L21_140.i7_v3(%rip),%ymm1
	xor %ebx,%ebx
	mov %rdx,%r14
	.byte 102,102,102,102,46,15,31,132,0,0,0,0,0
.L11_f0.i7_v3:
	xor %r15d,%r15d
	mov %r10,%r12
	.byte 102,46,15,31,132,0,0,0,0,0
.L11_100.i7_v3:
	prefetcht0 0x400(%r14,%r15,1)
	prefetcht0 0x440(%r14,%r15,1)
	prefetcht0 0x480(%r14,%r15,1)
	prefetcht0 0x4c0(%r14,%r15,1)
	vmovdqu -0xe0(%r11,%r15,1),%ymm6
	vmovdqu -0xc0(%r11,%r15,1),%ymm4
	vmovdqu -0xa0(%r11,%r15,1),%ymm7
	vpxor -0x38(%r12),%ymm6,%ymm8
	vmovdqu -0x80(%r11,%r15,1),%ymm5
	vpsrlq $0x20,%ymm8,%ymm9
	vpmuludq %ymm9,%ymm8,%ymm8
	vpaddq %ymm1,%ymm8,%ymm1
	vpxor -0x30(%r12),%ymm7,%ymm8
	vpsrlq $0x20,%ymm8,%ymm9
	vpmuludq %ymm9,%ymm8,%ymm8
	vmovdqu -0x60(%r11,%r15,1),%ymm9
	vpxor -0x28(%r12),%ymm9,%ymm10
	vpsrlq $0x20,%ymm10,%ymm11
	vpmuludq %ymm11,%ymm10,%ymm10
	vpaddq %ymm10,%ymm8,%ymm8
	vpaddq %ymm1,%ymm8,%ymm1
	vmovdqu -0x20(%r11,%r15,1),%ymm8
	vpxor -0x20(%r12),%ymm8,%ymm10
	vpsrlq $0x20,%ymm10,%ymm11
	vpmuludq %ymm11,%ymm10,%ymm10
	vpaddq %ymm6,%ymm7,%ymm6
	vpaddq %ymm8,%ymm9,%ymm7
	vpaddq %ymm7,%ymm6,%ymm6
	vpshufd $0x4e,%ymm6,%ymm6
	vpaddq %ymm6,%ymm10,%ymm6
	vpaddq %ymm6,%ymm1,%ymm1
	vpxor -0x18(%r12),%ymm4,%ymm6
	vpsrlq $0x20,%ymm6,%ymm7
	vpmuludq %ymm7,%ymm6,%ymm6
	vpxor -0x10(%r12),%ymm5,%ymm7
	vpaddq %ymm0,%ymm6,%ymm0
	vpsrlq $0x20,%ymm7,%ymm6
	vpmuludq %ymm6,%ymm7,%ymm6
	vmovdqu -0x40(%r11,%r15,1),%ymm7
	vpxor -0x8(%r12),%ymm7,%ymm8
	vpsrlq $0x20,%ymm8,%ymm9
	vpmuludq %ymm9,%ymm8,%ymm8
	vpaddq %ymm6,%ymm8,%ymm6
	vmovdqu (%r11,%r15,1),%ymm8
	vpxor (%r12),%ymm8,%ymm9
	vpaddq %ymm6,%ymm0,%ymm0
	vpsrlq $0x20,%ymm9,%ymm6
	vpmuludq %ymm6,%ymm9,%ymm6
	vpaddq %ymm4,%ymm5,%ymm4
	vpaddq %ymm7,%ymm8,%ymm5
	vpaddq %ymm5,%ymm4,%ymm4
	vpshufd $0x4e,%ymm4,%ymm4
	vpaddq %ymm6,%ymm4,%ymm4
	vpaddq %ymm4,%ymm0,%ymm0
	add $0x100,%r15
	add $0x20,%r12
	cmp $0x400,%r15
	jne .L11_100.i7_v3
	vpsrlq $0x2f,%ymm1,%ymm4
	vpxor %ymm1,%ymm2,%ymm1
	vpxor %ymm4,%ymm1,%ymm1
	vpbroadcastq .L22_60.i7_v3(%rip),%ymm4
	vpmulld %ymm4,%ymm1,%ymm5
	vpbroadcastq .L22_68.i7_v3(%rip),%ymm6
	vpmuludq %ymm6,%ymm1,%ymm1
	vpaddq %ymm5,%ymm1,%ymm1
	vpsrlq $0x2f,%ymm0,%ymm5
	vpxor %ymm0,%ymm3,%ymm0
	vpxor %ymm5,%ymm0,%ymm0
	vpmulld %ymm4,%ymm0,%ymm4
	vpmuludq %ymm6,%ymm0,%ymm0
	vpaddq %ymm4,%ymm0,%ymm0
	inc %rbx
	add $0x400,%r11
	add $0x400,%r14
	cmp %r8,%rbx
	jne .L11_f0.i7_v3
	jmp .L11_3a7.i7_v3
.L11_2b7.i7_v3:
	.byte 102,15,31,132,0,0,0,0,0
	test %r8,%r8
	je .L11_3a5.i7_v3
	vmovdqa .L21_160.i7_v3(%rip),%ymm0
	vmovdqa .L21_140.i7_v3(%rip),%ymm1
	xor %r14d,%r14d
	mov %rdx,%rbx
	.byte 144
	jmp .L11_2fd.i7_v3
	.byte 102,102,102,102,102,46,15,31,132,0,0,0,0,0
.L11_2f0.i7_v3:
	add $0x40,%rbx
	dec %r8
	je .L11_3a7.i7_v3
.L11_2fd.i7_v3:
	prefetcht0 0x140(%rbx)
	vmovdqu (%rbx),%ymm2
	vmovdqu 0x20(%rbx),%ymm3
	vpshufd $0x4e,%ymm2,%ymm4
	vpaddq %ymm4,%ymm1,%ymm1
	vpxor (%rdi,%r14,8),%ymm2,%ymm2
	vpsrlq $0x20,%ymm2,%ymm4
	vpmuludq %ymm4,%ymm2,%ymm2
	vpaddq %ymm2,%ymm1,%ymm1
	vpshufd $0x4e,%ymm3,%ymm2
	vpaddq %ymm0,%ymm2,%ymm0
	vpxor 0x20(%rdi,%r14,8),%ymm3,%ymm2
	vpsrlq $0x20,%ymm2,%ymm3
	vpmuludq %ymm3,%ymm2,%ymm2
	vpaddq %ymm2,%ymm0,%ymm0
	inc %r14
	cmp %r11,%r14
	jne .L11_2f0.i7_v3
	vpsrlq $0x2f,%ymm1,%ymm2
	vpxor (%rdi,%r10,1),%ymm2,%ymm2
	vpxor %ymm1,%ymm2,%ymm1
	vpbroadcastq .L22_60.i7_v3(%rip),%ymm2
	vpmulld %ymm2,%ymm1,%ymm3
	vpsrlq $0x2f,%ymm0,%ymm4
	vpxor 0x20(%rdi,%r10,1),%ymm4,%ymm4
	vpxor %ymm0,%ymm4,%ymm0
	vpbroadcastq .L22_68.i7_v3(%rip),%ymm4
	vpmuludq %ymm4,%ymm1,%ymm1
	vpmulld %ymm2,%ymm0,%ymm2
	vpaddq %ymm3,%ymm1,%ymm1
	vpmuludq %ymm4,%ymm0,%ymm0
	vpaddq %ymm2,%ymm0,%ymm0
	xor %r14d,%r14d
	.byte 15,31,64,0
	jmp .L11_2f0.i7_v3
.L11_3a5.i7_v3:
	xor %eax,%eax
.L11_3a7.i7_v3:
	not %rax
	add %rcx,%rax
	shr $0x6,%rax
	je .L11_40f.i7_v3
	shl $0x3,%rax
	xor %r8d,%r8d
	.byte 102,15,31,68,0,0
.L11_3c0.i7_v3:
	vmovdqu (%r9,%r8,8),%ymm2
	vmovdqu 0x20(%r9,%r8,8),%ymm3
	vpshufd $0x4e,%ymm2,%ymm4
	vpaddq %ymm4,%ymm1,%ymm1
	vpxor (%rdi,%r8,1),%ymm2,%ymm2
	vpsrlq $0x20,%ymm2,%ymm4
	vpmuludq %ymm4,%ymm2,%ymm2
	vpaddq %ymm2,%ymm1,%ymm1
	vpshufd $0x4e,%ymm3,%ymm2
	vpaddq %ymm0,%ymm2,%ymm0
	vpxor 0x20(%rdi,%r8,1),%ymm3,%ymm2
	vpsrlq $0x20,%ymm2,%ymm3
	vpmuludq %ymm3,%ymm2,%ymm2
	vpaddq %ymm2,%ymm0,%ymm0
	add $0x8,%r8
	cmp %r8,%rax
	jne .L11_3c0.i7_v3
.L11_40f.i7_v3:
	mov %rdx,%r8
	vmovdqu -0x40(%rdx,%rcx,1),%ymm2
	vpshufd $0x4e,%ymm2,%ymm3
	vpxor -0x47(%rdi,%rsi,1),%ymm2,%ymm2
	vpsrlq $0x20,%ymm2,%ymm4
	vpmuludq %ymm4,%ymm2,%ymm2
	vpaddq %ymm2,%ymm3,%ymm2
	vpaddq %ymm1,%ymm2,%ymm1
	movabs $0x9e3779b185ebca87,%r9
	imul %rcx,%r9
	vpxor 0xb(%rdi),%ymm1,%ymm1
	vpextrq $0x1,%xmm1,%rax
	vmovq %xmm1,%rdx
	mulx %rax,%rax,%r10
	xor %rax,%r10
	vextracti128 $0x1,%ymm1,%xmm1
	vpextrq $0x1,%xmm1,%rax
	vmovq %xmm1,%rdx
	mulx %rax,%rdx,%rax
	add %r9,%r10
	xor %rdx,%rax
	add %r10,%rax
	.byte 15,31,128,0,0,0,0
	cmp $0x88,%rsi
	jb .L11_505.i7_v3
	vmovdqu -0x20(%r8,%rcx,1),%ymm1
	vpshufd $0x4e,%ymm1,%ymm2
	vpxor -0x27(%rdi,%rsi,1),%ymm1,%ymm1
	vpsrlq $0x20,%ymm1,%ymm3
	vpmuludq %ymm3,%ymm1,%ymm1
	vpaddq %ymm1,%ymm2,%ymm1
	vpaddq %ymm0,%ymm1,%ymm0
	vpxor 0x2b(%rdi),%ymm0,%ymm0
	vmovq %xmm0,%rdx
	vpextrq $0x1,%xmm0,%rcx
	mulx %rcx,%rcx,%rsi
	xor %rcx,%rsi
	vextracti128 $0x1,%ymm0,%xmm0
	vmovq %xmm0,%rdx
	vpextrq $0x1,%xmm0,%rcx
	mulx %rcx,%rcx,%rdx
	xor %rcx,%rdx
	add %rsi,%rdx
	add %rdx,%rax
	mov %rax,%rcx
	shr $0x25,%rcx
	xor %rax,%rcx
	movabs $0x165667919e3779f9,%rdx
	imul %rcx,%rdx
	mov %rdx,%rax
	shr $0x20,%rax
	xor %rdx,%rax
.L11_505.i7_v3:
	pop %rbx
	.cfi_def_cfa_offset 32
	.cfi_restore 3
	pop %r12
	.cfi_def_cfa_offset 24
	.cfi_restore 12
	pop %r14
	.cfi_def_cfa_offset 16
	.cfi_restore 14
	pop %r15
	.cfi_def_cfa_offset 8
	.cfi_restore 15
	vzeroupper
	ret
	.cfi_def_cfa_offset 40
	.cfi_offset 3, -40
	.cfi_offset 12, -32
	.cfi_offset 14, -24
	.cfi_offset 15, -16
.L11_510.i7_v3:
	ud2
	.cfi_endproc
	.size twox_core.width_64.oneshot_long_of_any_length.i7_v3,.-twox_core.width_64.oneshot_long_of_any_length.i7_v3
	.section .text.twox_exports.stream_3.write_far.i7_v3,"ax",@progbits
	.p2align 6
	.type twox_exports.stream_3.write_far.i7_v3,@function
twox_exports.stream_3.write_far.i7_v3:
	.cfi_startproc
	push %rax
	.cfi_def_cfa_offset 16
	lea -0x40(%rdx),%r9
	shr $0x3,%r9
	mov $0x2,%eax
	cmp %r9,0x40(%rdi)
	jae .L12_c9.i7_v3
	mov 0x50(%rdi),%r10
	.byte 15,31,64,0
	cmp $0x200,%r10
	ja .L12_c9.i7_v3
	mov 0x58(%rdi),%r9
	test %r10,%r10
	.byte 15,132
	.long .L12_b7.i7_v3-.-4
	add %r8,%r9
	mov $0xffffffffffffffff,%r11
	cmovae %r9,%r11
.L12_48.i7_v3:
	lea 0x60(%rdi),%r9
	mov %r11,0x58(%rdi)
	mov $0x200,%eax
	sub %r10,%rax
	cmp %rax,%r8
	jbe .L12_81.i7_v3
	mov %rsi,%r10
	mov %rdx,%rax
	mov %rcx,%rsi
	mov %r8,%rdx
	mov %r10,%rcx
	cmp $0x7ff,%r8
	ja .L12_ce.i7_v3
	mov %rax,%r8
	call twox_core.xxhash3.streaming.stream_counts.StreamCounts.write_through.i7_v3
	xor %eax,%eax
	pop %rcx
	.cfi_def_cfa_offset 8
	ret
	.cfi_def_cfa_offset 16
.L12_81.i7_v3:
	lea (%r10,%r8,1),%rax
	mov %rax,0x50(%rdi)
	add %r10,%r9
	cmp $0x21,%r8
	jb .L12_dd.i7_v3
	mov %r9,%rax
	sub %rcx,%rax
	cmp %r8,%rax
	jae .L12_101.i7_v3
	lea (%r10,%rdi,1),%rax
	sub %rcx,%rax
	add $0x60,%rax
	cmp $0x80,%rax
	jae .L12_12d.i7_v3
	xor %edx,%edx
	jmp .L12_1da.i7_v3
.L12_b7.i7_v3:
	mov %r8,%r11
	.byte 102,15,31,68,0,0
	test %r9,%r9
	.byte 15,132
	.long .L12_48.i7_v3-.-4
.L12_c9.i7_v3:
	pop %rcx
	.cfi_def_cfa_offset 8
	vzeroupper
	ret
	.cfi_def_cfa_offset 16
.L12_ce.i7_v3:
	mov %rax,%r8
	call twox_core.xxhash3.streaming.stream_counts.StreamCounts.write_through.2.i7_v3
.L12_d6.i7_v3:
	xor %eax,%eax
	pop %rcx
	.cfi_def_cfa_offset 8
	vzeroupper
	ret
	.cfi_def_cfa_offset 16
.L12_dd.i7_v3:
	.byte 15,31,0
	cmp $0x11,%r8
	jb .L12_113.i7_v3
	vmovups (%rcx),%xmm0
	vmovups %xmm0,(%r9)
	vmovups -0x10(%rcx,%r8,1),%xmm0
	vmovups %xmm0,-0x10(%r9,%r8,1)
	xor %eax,%eax
	pop %rcx
	.cfi_def_cfa_offset 8
	ret
	.cfi_def_cfa_offset 16
.L12_101.i7_v3:
	mov %r9,%rdi
	mov %rcx,%rsi
	mov %r8,%rdx
	call memmove@PLT
	xor %eax,%eax
	pop %rcx
	.cfi_def_cfa_offset 8
	ret
	.cfi_def_cfa_offset 16
.L12_113.i7_v3:
	cmp $0x8,%r8
	jb .L12_13d.i7_v3
	mov (%rcx),%rax
	mov %rax,(%r9)
	mov -0x8(%rcx,%r8,1),%rax
	mov %rax,-0x8(%r9,%r8,1)
	xor %eax,%eax
	pop %rcx
	.cfi_def_cfa_offset 8
	ret
	.cfi_def_cfa_offset 16
.L12_12d.i7_v3:
	cmp $0x80,%r8
	jae .L12_15d.i7_v3
	xor %edx,%edx
	.byte 233
	.long .L12_1b6.i7_v3-.-4
.L12_13d.i7_v3:
	.byte 15,31,0
	cmp $0x4,%r8
	jb .L12_27c.i7_v3
	mov (%rcx),%eax
	mov %eax,(%r9)
	mov -0x4(%rcx,%r8,1),%eax
	mov %eax,-0x4(%r9,%r8,1)
	xor %eax,%eax
	pop %rcx
	.cfi_def_cfa_offset 8
	ret
	.cfi_def_cfa_offset 16
.L12_15d.i7_v3:
	mov %r8,%rdx
	and $0xffffffffffffff80,%rdx
	lea (%r10,%rdi,1),%rax
	add $0xc0,%rax
	xor %esi,%esi
.L12_170.i7_v3:
	vmovups (%rcx,%rsi,1),%ymm0
	vmovups 0x20(%rcx,%rsi,1),%ymm1
	vmovups 0x40(%rcx,%rsi,1),%ymm2
	vmovups 0x60(%rcx,%rsi,1),%ymm3
	vmovups %ymm0,-0x60(%rax,%rsi,1)
	vmovups %ymm1,-0x40(%rax,%rsi,1)
	vmovups %ymm2,-0x20(%rax,%rsi,1)
	vmovups %ymm3,(%rax,%rsi,1)
	sub $0xffffffffffffff80,%rsi
	cmp %rsi,%rdx
	jne .L12_170.i7_v3
	cmp %rdx,%r8
	je .L12_d6.i7_v3
	test $0x78,%r8b
	je .L12_1da.i7_v3
.L12_1b6.i7_v3:
	mov %rdx,%rax
	mov %r8,%rdx
	and $0xfffffffffffffff8,%rdx
.L12_1c0.i7_v3:
	mov (%rcx,%rax,1),%rsi
	mov %rsi,(%r9,%rax,1)
	add $0x8,%rax
	cmp %rax,%rdx
	jne .L12_1c0.i7_v3
	cmp %rdx,%r8
	je .L12_d6.i7_v3
.L12_1da.i7_v3:
	mov %r8,%rax
	mov %rdx,%rsi
	and $0x7,%rax
	je .L12_205.i7_v3
	mov %rdx,%rsi
	.byte 15,31,128,0,0,0,0
.L12_1f0.i7_v3:
	movzbl (%rcx,%rsi,1),%r11d
	mov %r11b,(%r9,%rsi,1)
	inc %rsi
	.byte 15,31,64,0
	dec %rax
	jne .L12_1f0.i7_v3
.L12_205.i7_v3:
	sub %r8,%rdx
	xor %eax,%eax
	cmp $0xfffffffffffffff8,%rdx
	ja .L12_c9.i7_v3
	lea (%r10,%rdi,1),%rdx
	add $0x67,%rdx
	.byte 15,31,64,0
.L12_220.i7_v3:
	movzbl (%rcx,%rsi,1),%edi
	mov %dil,-0x7(%rdx,%rsi,1)
	movzbl 0x1(%rcx,%rsi,1),%edi
	mov %dil,-0x6(%rdx,%rsi,1)
	movzbl 0x2(%rcx,%rsi,1),%edi
	mov %dil,-0x5(%rdx,%rsi,1)
	movzbl 0x3(%rcx,%rsi,1),%edi
	mov %dil,-0x4(%rdx,%rsi,1)
	movzbl 0x4(%rcx,%rsi,1),%edi
	mov %dil,-0x3(%rdx,%rsi,1)
	movzbl 0x5(%rcx,%rsi,1),%edi
	mov %dil,-0x2(%rdx,%rsi,1)
	movzbl 0x6(%rcx,%rsi,1),%edi
	mov %dil,-0x1(%rdx,%rsi,1)
	movzbl 0x7(%rcx,%rsi,1),%edi
	mov %dil,(%rdx,%rsi,1)
	add $0x8,%rsi
	cmp %rsi,%r8
	jne .L12_220.i7_v3
	jmp .L12_c9.i7_v3
.L12_27c.i7_v3:
	.byte 15,31,64,0
	cmp $0x2,%r8
	jb .L12_29d.i7_v3
	movzwl (%rcx),%eax
	mov %ax,(%r9)
	movzwl -0x2(%rcx,%r8,1),%eax
	mov %ax,-0x2(%r9,%r8,1)
	xor %eax,%eax
	pop %rcx
	.cfi_def_cfa_offset 8
	ret
	.cfi_def_cfa_offset 16
.L12_29d.i7_v3:
	xor %eax,%eax
	.byte 144
	cmp $0x1,%r8
	jne .L12_c9.i7_v3
	movzbl (%rcx),%ecx
	mov %cl,(%r9)
	pop %rcx
	.cfi_def_cfa_offset 8
	ret
	.cfi_endproc
	.size twox_exports.stream_3.write_far.i7_v3,.-twox_exports.stream_3.write_far.i7_v3
	.section .text.twox_core.xxhash3.streaming.stream_counts.StreamCounts.write_through.i7_v3,"ax",@progbits
	.p2align 6
	.type twox_core.xxhash3.streaming.stream_counts.StreamCounts.write_through.i7_v3,@function
twox_core.xxhash3.streaming.stream_counts.StreamCounts.write_through.i7_v3:
	.cfi_startproc
	push %r15
	.cfi_def_cfa_offset 16
	.cfi_offset 15, -16
	push %r14
	.cfi_def_cfa_offset 24
	.cfi_offset 14, -24
	push %r13
	.cfi_def_cfa_offset 32
	.cfi_offset 13, -32
	push %r12
	.cfi_def_cfa_offset 40
	.cfi_offset 12, -40
	push %rbx
	.cfi_def_cfa_offset 48
	.cfi_offset 3, -48
	mov 0x50(%rdi),%rax
	mov %eax,%r11d
	neg %r11d
	and $0x3f,%r11d
	je .L13_bf.i7_v3
	lea (%r9,%rax,1),%r10
	cmp $0x21,%r11d
	jb .L13_42.i7_v3
	vmovups (%rsi),%ymm0
	vmovups %ymm0,(%r10)
	vmovups -0x20(%rsi,%r11,1),%ymm0
	vmovups %ymm0,-0x20(%r10,%r11,1)
	.byte 102,144
	jmp .L13_b8.i7_v3
.L13_42.i7_v3:
	cmp $0x11,%r11d
	jb .L13_62.i7_v3
	vmovups (%rsi),%xmm0
	vmovups %xmm0,(%r10)
	vmovups -0x10(%rsi,%r11,1),%xmm0
	vmovups %xmm0,-0x10(%r10,%r11,1)
	.byte 144
	jmp .L13_b8.i7_v3
.L13_62.i7_v3:
	cmp $0x8,%r11d
	jb .L13_7a.i7_v3
	mov (%rsi),%rbx
	mov %rbx,(%r10)
	mov -0x8(%rsi,%r11,1),%rbx
	mov %rbx,-0x8(%r10,%r11,1)
	jmp .L13_b8.i7_v3
.L13_7a.i7_v3:
	.byte 102,15,31,68,0,0
	cmp $0x4,%r11d
	jb .L13_97.i7_v3
	mov (%rsi),%ebx
	mov %ebx,(%r10)
	mov -0x4(%rsi,%r11,1),%ebx
	mov %ebx,-0x4(%r10,%r11,1)
	jmp .L13_b8.i7_v3
.L13_97.i7_v3:
	cmp $0x1,%r11d
	jne .L13_a5.i7_v3
	movzbl (%rsi),%ebx
	mov %bl,(%r10)
	jmp .L13_b8.i7_v3
.L13_a5.i7_v3:
	movzwl (%rsi),%ebx
	mov %bx,(%r10)
	movzwl -0x2(%rsi,%r11,1),%ebx
	mov %bx,-0x2(%r10,%r11,1)
.L13_b8.i7_v3:
	add %r11,%rax
	mov %rax,0x50(%rdi)
.L13_bf.i7_v3:
	sub %r11,%rdx
	add $0xffffffffffffffc0,%r8
	mov %r8,%r10
	shr $0x3,%r10
	shr $0x6,%rax
	vmovdqu (%rdi),%ymm1
	vmovdqu 0x20(%rdi),%ymm0
	mov 0x40(%rdi),%rbx
	.byte 102,144
	je .L13_1a5.i7_v3
	mov %rax,%r14
	mov %r9,%r15
	jmp .L13_fd.i7_v3
	.byte 102,144
.L13_f0.i7_v3:
	add $0x40,%r15
	dec %r14
	je .L13_1a5.i7_v3
.L13_fd.i7_v3:
	prefetcht0 0x140(%r15)
	vmovdqu (%r15),%ymm2
	vmovdqu 0x20(%r15),%ymm3
	vpshufd $0x4e,%ymm2,%ymm4
	vpaddq %ymm1,%ymm4,%ymm1
	vpxor (%rcx,%rbx,8),%ymm2,%ymm2
	vpsrlq $0x20,%ymm2,%ymm4
	vpmuludq %ymm4,%ymm2,%ymm2
	vpaddq %ymm2,%ymm1,%ymm1
	vpshufd $0x4e,%ymm3,%ymm2
	vpaddq %ymm0,%ymm2,%ymm0
	vpxor 0x20(%rcx,%rbx,8),%ymm3,%ymm2
	vpsrlq $0x20,%ymm2,%ymm3
	vpmuludq %ymm3,%ymm2,%ymm2
	vpaddq %ymm2,%ymm0,%ymm0
	inc %rbx
	cmp %r10,%rbx
	jne .L13_f0.i7_v3
	vpsrlq $0x2f,%ymm1,%ymm2
	vpxor (%rcx,%r8,1),%ymm2,%ymm2
	vpxor %ymm1,%ymm2,%ymm1
	vpbroadcastq .L22_70.i7_v3(%rip),%ymm2
	vpmulld %ymm2,%ymm1,%ymm3
	vpsrlq $0x2f,%ymm0,%ymm4
	vpxor 0x20(%rcx,%r8,1),%ymm4,%ymm4
	vpxor %ymm0,%ymm4,%ymm0
	vpbroadcastq .L22_78.i7_v3(%rip),%ymm4
	vpmuludq %ymm4,%ymm1,%ymm1
	vpmulld %ymm2,%ymm0,%ymm2
	vpaddq %ymm3,%ymm1,%ymm1
	vpmuludq %ymm4,%ymm0,%ymm0
	vpaddq %ymm2,%ymm0,%ymm0
	xor %ebx,%ebx
	.byte 15,31,64,0
	jmp .L13_f0.i7_v3
.L13_1a5.i7_v3:
	vmovdqu %ymm1,(%rdi)
	vmovdqu %ymm0,0x20(%rdi)
	add %r11,%rsi
	mov %rbx,0x40(%rdi)
	add 0x48(%rdi),%rax
	mov $0xffffffffffffffff,%r11
	cmovb %r11,%rax
	mov %rax,0x48(%rdi)
	xor %r14d,%r14d
	mov %rdx,%r15
	sub $0x40,%r15
	cmovae %r15,%r14
	movq $0x0,0x50(%rdi)
	mov %r14,%r15
	and $0xffffffffffffffc0,%r15
	sub %r15,%rdx
	shr $0x6,%r14
	je .L13_2b7.i7_v3
	mov %r14,%r12
	neg %r12
	mov %rsi,%r13
	jmp .L13_20d.i7_v3
	.byte 15,31,0
.L13_200.i7_v3:
	add $0x40,%r13
	inc %r12
	je .L13_2b7.i7_v3
.L13_20d.i7_v3:
	prefetcht0 0x140(%r13)
	vmovdqu 0x0(%r13),%ymm2
	vmovdqu 0x20(%r13),%ymm3
	vpshufd $0x4e,%ymm2,%ymm4
	vpaddq %ymm1,%ymm4,%ymm1
	vpxor (%rcx,%rbx,8),%ymm2,%ymm2
	vpsrlq $0x20,%ymm2,%ymm4
	vpmuludq %ymm4,%ymm2,%ymm2
	vpaddq %ymm2,%ymm1,%ymm1
	vpshufd $0x4e,%ymm3,%ymm2
	vpaddq %ymm0,%ymm2,%ymm0
	vpxor 0x20(%rcx,%rbx,8),%ymm3,%ymm2
	vpsrlq $0x20,%ymm2,%ymm3
	vpmuludq %ymm3,%ymm2,%ymm2
	vpaddq %ymm2,%ymm0,%ymm0
	inc %rbx
	.byte 15,31,68,0,0
	cmp %r10,%rbx
	jne .L13_200.i7_v3
	vpsrlq $0x2f,%ymm1,%ymm2
	vpxor (%rcx,%r8,1),%ymm2,%ymm2
	vpxor %ymm1,%ymm2,%ymm1
	vpbroadcastq .L22_70.i7_v3(%rip),%ymm2
	vpmulld %ymm2,%ymm1,%ymm3
	vpsrlq $0x2f,%ymm0,%ymm4
	vpxor 0x20(%rcx,%r8,1),%ymm4,%ymm4
	vpxor %ymm0,%ymm4,%ymm0
	vpbroadcastq .L22_78.i7_v3(%rip),%ymm4
	vpmuludq %ymm4,%ymm1,%ymm1
	vpmulld %ymm2,%ymm0,%ymm2
	vpaddq %ymm3,%ymm1,%ymm1
	vpmuludq %ymm4,%ymm0,%ymm0
	vpaddq %ymm2,%ymm0,%ymm0
	xor %ebx,%ebx
	jmp .L13_200.i7_v3
.L13_2b7.i7_v3:
	add %r15,%rsi
	vmovdqu %ymm1,(%rdi)
	vmovdqu %ymm0,0x20(%rdi)
	mov %rbx,0x40(%rdi)
	add %rax,%r14
	cmovb %r11,%r14
	mov %r14,0x48(%rdi)
	cmp $0x41,%rdx
	jb .L13_30b.i7_v3
	vmovups (%rsi),%ymm0
	vmovups 0x20(%rsi),%ymm1
	vmovups %ymm1,0x20(%r9)
	vmovups %ymm0,(%r9)
	vmovdqu -0x40(%rsi,%rdx,1),%ymm0
	vmovdqu -0x20(%rsi,%rdx,1),%ymm1
	vmovdqu %ymm1,-0x20(%r9,%rdx,1)
	vmovdqu %ymm0,-0x40(%r9,%rdx,1)
	jmp .L13_39c.i7_v3
.L13_30b.i7_v3:
	cmp $0x21,%rdx
	jb .L13_329.i7_v3
	vmovups (%rsi),%ymm0
	vmovups %ymm0,(%r9)
	vmovdqu -0x20(%rsi,%rdx,1),%ymm0
	vmovdqu %ymm0,-0x20(%r9,%rdx,1)
	jmp .L13_39c.i7_v3
.L13_329.i7_v3:
	cmp $0x11,%rdx
	jb .L13_347.i7_v3
	vmovups (%rsi),%xmm0
	vmovups %xmm0,(%r9)
	vmovdqu -0x10(%rsi,%rdx,1),%xmm0
	vmovdqu %xmm0,-0x10(%r9,%rdx,1)
	jmp .L13_39c.i7_v3
.L13_347.i7_v3:
	cmp $0x8,%rdx
	jb .L13_35f.i7_v3
	mov (%rsi),%rax
	mov %rax,(%r9)
	mov -0x8(%rsi,%rdx,1),%rax
	mov %rax,-0x8(%r9,%rdx,1)
	jmp .L13_39c.i7_v3
.L13_35f.i7_v3:
	.byte 144
	cmp $0x4,%rdx
	jb .L13_376.i7_v3
	mov (%rsi),%eax
	mov %eax,(%r9)
	mov -0x4(%rsi,%rdx,1),%eax
	mov %eax,-0x4(%r9,%rdx,1)
	jmp .L13_39c.i7_v3
.L13_376.i7_v3:
	cmp $0x2,%rdx
	jb .L13_390.i7_v3
	movzwl (%rsi),%eax
	mov %ax,(%r9)
	movzwl -0x2(%rsi,%rdx,1),%eax
	mov %ax,-0x2(%r9,%rdx,1)
	jmp .L13_39c.i7_v3
.L13_390.i7_v3:
	cmp $0x1,%rdx
	jne .L13_39c.i7_v3
	movzbl (%rsi),%eax
	mov %al,(%r9)
.L13_39c.i7_v3:
	mov %rdx,0x50(%rdi)
	pop %rbx
	.cfi_def_cfa_offset 40
	.cfi_restore 3
	pop %r12
	.cfi_def_cfa_offset 32
	.cfi_restore 12
	pop %r13
	.cfi_def_cfa_offset 24
	.cfi_restore 13
	pop %r14
	.cfi_def_cfa_offset 16
	.cfi_restore 14
	pop %r15
	.cfi_def_cfa_offset 8
	.cfi_restore 15
	vzeroupper
	ret
	.cfi_endproc
	.size twox_core.xxhash3.streaming.stream_counts.StreamCounts.write_through.i7_v3,.-twox_core.xxhash3.streaming.stream_counts.StreamCounts.write_through.i7_v3
	.section .text.twox_core.xxhash3.streaming.stream_counts.StreamCounts.write_through.2.i7_v3,"ax",@progbits
	.p2align 6
	.type twox_core.xxhash3.streaming.stream_counts.StreamCounts.write_through.2.i7_v3,@function
twox_core.xxhash3.streaming.stream_counts.StreamCounts.write_through.2.i7_v3:
	.cfi_startproc
	push %rbp
	.cfi_def_cfa_offset 16
	.cfi_offset 6, -16
	push %r15
	.cfi_def_cfa_offset 24
	.cfi_offset 15, -24
	push %r14
	.cfi_def_cfa_offset 32
	.cfi_offset 14, -32
	push %r13
	.cfi_def_cfa_offset 40
	.cfi_offset 13, -40
	push %r12
	.cfi_def_cfa_offset 48
	.cfi_offset 12, -48
	push %rbx
	.cfi_def_cfa_offset 56
	.cfi_offset 3, -56
	push %rax
	.cfi_def_cfa_offset 64
	mov %r9,%r15
	mov %rdx,%rbx
	mov %rdi,%r14
	mov 0x50(%rdi),%rax
	mov %eax,%edx
	neg %edx
	.byte 15,31,64,0
	and $0x3f,%edx
	je .L14_ba.i7_v3
	lea (%r15,%rax,1),%rdi
	cmp $0x21,%edx
	jb .L14_48.i7_v3
	vmovups (%rsi),%ymm0
	vmovups %ymm0,(%rdi)
	vmovups -0x20(%rsi,%rdx,1),%ymm0
	vmovups %ymm0,-0x20(%rdi,%rdx,1)
	jmp .L14_b3.i7_v3
.L14_48.i7_v3:
	cmp $0x11,%edx
	jb .L14_63.i7_v3
	vmovups (%rsi),%xmm0
	vmovups %xmm0,(%rdi)
	vmovups -0x10(%rsi,%rdx,1),%xmm0
	vmovups %xmm0,-0x10(%rdi,%rdx,1)
	jmp .L14_b3.i7_v3
.L14_63.i7_v3:
	cmp $0x8,%edx
	jb .L14_7a.i7_v3
	mov (%rsi),%r9
	mov %r9,(%rdi)
	mov -0x8(%rsi,%rdx,1),%r9
	mov %r9,-0x8(%rdi,%rdx,1)
	jmp .L14_b3.i7_v3
.L14_7a.i7_v3:
	cmp $0x4,%edx
	jb .L14_91.i7_v3
	mov (%rsi),%r9d
	mov %r9d,(%rdi)
	mov -0x4(%rsi,%rdx,1),%r9d
	mov %r9d,-0x4(%rdi,%rdx,1)
	jmp .L14_b3.i7_v3
.L14_91.i7_v3:
	cmp $0x1,%edx
	jne .L14_9f.i7_v3
	movzbl (%rsi),%r9d
	mov %r9b,(%rdi)
	jmp .L14_b3.i7_v3
.L14_9f.i7_v3:
	movzwl (%rsi),%r9d
	mov %r9w,(%rdi)
	movzwl -0x2(%rsi,%rdx,1),%r9d
	mov %r9w,-0x2(%rdi,%rdx,1)
.L14_b3.i7_v3:
	add %rdx,%rax
	mov %rax,0x50(%r14)
.L14_ba.i7_v3:
	add %rdx,%rsi
	sub %rdx,%rbx
	shr $0x6,%rax
	vmovdqu (%r14),%ymm1
	vmovdqu 0x20(%r14),%ymm0
	mov 0x40(%r14),%r11
	je .L14_1a5.i7_v3
	lea -0x40(%r8),%rdx
	mov %rdx,%rdi
	shr $0x3,%rdi
	mov %rax,%r9
	mov %r15,%r10
	jmp .L14_fd.i7_v3
	.byte 15,31,64,0
.L14_f0.i7_v3:
	add $0x40,%r10
	dec %r9
	je .L14_1a5.i7_v3
.L14_fd.i7_v3:
	prefetcht0 0x140(%r10)
	vmovdqu (%r10),%ymm2
	vmovdqu 0x20(%r10),%ymm3
	vpshufd $0x4e,%ymm2,%ymm4
	vpaddq %ymm1,%ymm4,%ymm1
	vpxor (%rcx,%r11,8),%ymm2,%ymm2
	vpsrlq $0x20,%ymm2,%ymm4
	vpmuludq %ymm4,%ymm2,%ymm2
	vpaddq %ymm2,%ymm1,%ymm1
	vpshufd $0x4e,%ymm3,%ymm2
	vpaddq %ymm0,%ymm2,%ymm0
	vpxor 0x20(%rcx,%r11,8),%ymm3,%ymm2
	vpsrlq $0x20,%ymm2,%ymm3
	vpmuludq %ymm3,%ymm2,%ymm2
	vpaddq %ymm2,%ymm0,%ymm0
	inc %r11
	cmp %rdi,%r11
	jne .L14_f0.i7_v3
	vpsrlq $0x2f,%ymm1,%ymm2
	vpxor (%rcx,%rdx,1),%ymm2,%ymm2
	vpxor %ymm1,%ymm2,%ymm1
	vpbroadcastq .L22_80.i7_v3(%rip),%ymm2
	vpmulld %ymm2,%ymm1,%ymm3
	vpsrlq $0x2f,%ymm0,%ymm4
	vpxor 0x20(%rcx,%rdx,1),%ymm4,%ymm4
	vpxor %ymm0,%ymm4,%ymm0
	vpbroadcastq .L22_88.i7_v3(%rip),%ymm4
	vpmuludq %ymm4,%ymm1,%ymm1
	vpmulld %ymm2,%ymm0,%ymm2
	vpaddq %ymm3,%ymm1,%ymm1
	vpmuludq %ymm4,%ymm0,%ymm0
	vpaddq %ymm2,%ymm0,%ymm0
	xor %r11d,%r11d
	.byte 15,31,0
	jmp .L14_f0.i7_v3
.L14_1a5.i7_v3:
	vmovdqu %ymm1,(%r14)
	vmovdqu %ymm0,0x20(%r14)
	mov %r11,0x40(%r14)
	add 0x48(%r14),%rax
	mov $0xffffffffffffffff,%r13
	cmovb %r13,%rax
	mov %rax,0x48(%r14)
	xor %ebp,%ebp
	mov %rbx,%rax
	sub $0x40,%rax
	cmovae %rax,%rbp
	movq $0x0,0x50(%r14)
	mov %rbp,%rdx
	and $0xffffffffffffffc0,%rdx
	lea (%rsi,%rdx,1),%r12
	sub %rdx,%rbx
	mov %r14,%rdi
	vzeroupper
	call twox_core.xxhash3.stripes.take_many_stripes.i7_v3
	shr $0x6,%rbp
	add 0x48(%r14),%rbp
	cmovb %r13,%rbp
	mov %rbp,0x48(%r14)
	cmp $0x41,%rbx
	jb .L14_245.i7_v3
	vmovups (%r12),%ymm0
	vmovups 0x20(%r12),%ymm1
	vmovups %ymm1,0x20(%r15)
	vmovups %ymm0,(%r15)
	vmovdqu -0x40(%r12,%rbx,1),%ymm0
	vmovdqu -0x20(%r12,%rbx,1),%ymm1
	vmovdqu %ymm1,-0x20(%r15,%rbx,1)
	vmovdqu %ymm0,-0x40(%r15,%rbx,1)
	.byte 144
	jmp .L14_2ee.i7_v3
.L14_245.i7_v3:
	cmp $0x21,%rbx
	jb .L14_269.i7_v3
	vmovups (%r12),%ymm0
	vmovups %ymm0,(%r15)
	vmovdqu -0x20(%r12,%rbx,1),%ymm0
	vmovdqu %ymm0,-0x20(%r15,%rbx,1)
	jmp .L14_2ee.i7_v3
.L14_269.i7_v3:
	cmp $0x11,%rbx
	jb .L14_28a.i7_v3
	vmovups (%r12),%xmm0
	vmovups %xmm0,(%r15)
	vmovdqu -0x10(%r12,%rbx,1),%xmm0
	vmovdqu %xmm0,-0x10(%r15,%rbx,1)
	jmp .L14_2ee.i7_v3
.L14_28a.i7_v3:
	cmp $0x8,%rbx
	jb .L14_2a3.i7_v3
	mov (%r12),%rax
	mov %rax,(%r15)
	mov -0x8(%r12,%rbx,1),%rax
	mov %rax,-0x8(%r15,%rbx,1)
	jmp .L14_2ee.i7_v3
.L14_2a3.i7_v3:
	cmp $0x4,%rbx
	jb .L14_2bc.i7_v3
	mov (%r12),%eax
	mov %eax,(%r15)
	mov -0x4(%r12,%rbx,1),%eax
	mov %eax,-0x4(%r15,%rbx,1)
	jmp .L14_2ee.i7_v3
.L14_2bc.i7_v3:
	.byte 15,31,64,0
	cmp $0x2,%rbx
	jb .L14_2dd.i7_v3
	movzwl (%r12),%eax
	mov %ax,(%r15)
	movzwl -0x2(%r12,%rbx,1),%eax
	mov %ax,-0x2(%r15,%rbx,1)
	jmp .L14_2ee.i7_v3
.L14_2dd.i7_v3:
	.byte 15,31,0
	cmp $0x1,%rbx
	jne .L14_2ee.i7_v3
	movzbl (%r12),%eax
	mov %al,(%r15)
.L14_2ee.i7_v3:
	mov %rbx,0x50(%r14)
	add $0x8,%rsp
	.cfi_def_cfa_offset 56
	pop %rbx
	.cfi_def_cfa_offset 48
	.cfi_restore 3
	pop %r12
	.cfi_def_cfa_offset 40
	.cfi_restore 12
	pop %r13
	.cfi_def_cfa_offset 32
	.cfi_restore 13
	pop %r14
	.cfi_def_cfa_offset 24
	.cfi_restore 14
	pop %r15
	.cfi_def_cfa_offset 16
	.cfi_restore 15
	pop %rbp
	.cfi_def_cfa_offset 8
	.cfi_restore 6
	vzeroupper
	ret
	.cfi_endproc
	.size twox_core.xxhash3.streaming.stream_counts.StreamCounts.write_through.2.i7_v3,.-twox_core.xxhash3.streaming.stream_counts.StreamCounts.write_through.2.i7_v3
	.section .text.twox_rust_7_interface_v3,"ax",@progbits
	.p2align 6
	.weak twox_rust_7_interface_v3
	.hidden twox_rust_7_interface_v3
	.type twox_rust_7_interface_v3,@function
twox_rust_7_interface_v3:
	.cfi_startproc
	mov $0x7,%eax
	ret
	.cfi_endproc
	.size twox_rust_7_interface_v3,.-twox_rust_7_interface_v3
	.section .text.twox_rust_7_xxh32_write_v3,"ax",@progbits
	.p2align 6
	.weak twox_rust_7_xxh32_write_v3
	.hidden twox_rust_7_xxh32_write_v3
	.type twox_rust_7_xxh32_write_v3,@function
twox_rust_7_xxh32_write_v3:
	.cfi_startproc
	xor %ecx,%ecx
	test %rsi,%rsi
	sete %r9b
	mov $0xcdcca7a8,%r8d
	add 0xc(%rdi),%r8d
	mov $0x2,%eax
	cmp $0xf,%r8d
	jbe .L16_1f.i7_v3
.L16_1e.i7_v3:
	ret
.L16_1f.i7_v3:
	mov %r9b,%cl
	shl $0xc,%ecx
	add %rcx,%rsi
	mov 0x14(%rdi),%rax
	add %rdx,%rax
	mov $0xffffffffffffffff,%rcx
	cmovae %rax,%rcx
	mov %rcx,0x14(%rdi)
	.byte 102,144
	test %r8,%r8
	je .L16_1a8.i7_v3
	lea (%rdx,%r8,1),%rax
	lea (%rdi,%r8,1),%rcx
	add $0x20,%rcx
	cmp $0xf,%rax
	ja .L16_80.i7_v3
	add $0x32335858,%eax
	mov %eax,0xc(%rdi)
	cmp $0x11,%rdx
	jb .L16_a9.i7_v3
	vmovups (%rsi),%xmm0
	vmovups %xmm0,(%rcx)
	vmovups -0x10(%rsi,%rdx,1),%xmm0
	vmovups %xmm0,-0x10(%rcx,%rdx,1)
	xor %eax,%eax
	ret
.L16_80.i7_v3:
	mov $0x10,%eax
	sub %r8,%rax
	cmp $0x8,%r8d
	ja .L16_c2.i7_v3
	mov (%rsi),%rcx
	mov %rcx,0x20(%rdi,%r8,1)
	mov %rsi,%rcx
	sub %r8,%rcx
	mov 0x8(%rcx),%rcx
	mov %rcx,0x28(%rdi)
	jmp .L16_138.i7_v3
.L16_a9.i7_v3:
	cmp $0x8,%rdx
	jb .L16_dd.i7_v3
	mov (%rsi),%rax
	mov %rax,(%rcx)
	mov -0x8(%rsi,%rdx,1),%rax
	mov %rax,-0x8(%rcx,%rdx,1)
	xor %eax,%eax
	ret
.L16_c2.i7_v3:
	cmp $0xc,%r8d
	ja .L16_f5.i7_v3
	mov (%rsi),%ecx
	mov %ecx,0x20(%rdi,%r8,1)
	mov %rsi,%rcx
	sub %r8,%rcx
	mov 0xc(%rcx),%ecx
	mov %ecx,0x2c(%rdi)
	jmp .L16_138.i7_v3
.L16_dd.i7_v3:
	.byte 15,31,0
	cmp $0x4,%rdx
	jb .L16_104.i7_v3
	mov (%rsi),%eax
	mov %eax,(%rcx)
	mov -0x4(%rsi,%rdx,1),%eax
	mov %eax,-0x4(%rcx,%rdx,1)
	xor %eax,%eax
	ret
.L16_f5.i7_v3:
	cmp $0xf,%r8d
	jne .L16_121.i7_v3
	movzbl (%rsi),%r8d
	mov %r8b,(%rcx)
	jmp .L16_138.i7_v3
.L16_104.i7_v3:
	cmp $0x2,%rdx
	jb .L16_391.i7_v3
	movzwl (%rsi),%eax
	mov %ax,(%rcx)
	movzwl -0x2(%rsi,%rdx,1),%eax
	mov %ax,-0x2(%rcx,%rdx,1)
	xor %eax,%eax
	ret
.L16_121.i7_v3:
	movzwl (%rsi),%ecx
	mov %cx,0x20(%rdi,%r8,1)
	mov %rsi,%rcx
	sub %r8,%rcx
	movzwl 0xe(%rcx),%ecx
	mov %cx,0x2e(%rdi)
.L16_138.i7_v3:
	add %rax,%rsi
	sub %rax,%rdx
	imul $0x85ebca77,0x20(%rdi),%eax
	add (%rdi),%eax
	rorx $0x13,%eax,%eax
	imul $0x9e3779b1,%eax,%eax
	imul $0x85ebca77,0x24(%rdi),%ecx
	add 0x8(%rdi),%ecx
	rorx $0x13,%ecx,%ecx
	imul $0x9e3779b1,%ecx,%ecx
	imul $0x85ebca77,0x28(%rdi),%r8d
	add 0x10(%rdi),%r8d
	rorx $0x13,%r8d,%r8d
	imul $0x9e3779b1,%r8d,%r8d
	imul $0x85ebca77,0x2c(%rdi),%r9d
	add 0x1c(%rdi),%r9d
	rorx $0x13,%r9d,%r9d
	imul $0x9e3779b1,%r9d,%r9d
	mov %eax,(%rdi)
	mov %ecx,0x8(%rdi)
	mov %r8d,0x10(%rdi)
	mov %r9d,0x1c(%rdi)
.L16_1a8.i7_v3:
	push %rbp
	.cfi_def_cfa_offset 16
	.cfi_offset 6, -16
	push %rbx
	.cfi_def_cfa_offset 24
	.cfi_offset 3, -24
	push %rax
	.cfi_def_cfa_offset 32
	cmp $0x80,%rdx
	jb .L16_1be.i7_v3
	call twox_plain.xxhash32.StateInMemory.add_blocks_in_place.i7_v3
	jmp .L16_388.i7_v3
.L16_1be.i7_v3:
	.byte 102,144
	cmp $0x10,%rdx
	jb .L16_32c.i7_v3
	mov (%rdi),%r9d
	mov 0x8(%rdi),%r8d
	mov 0x10(%rdi),%ecx
	mov 0x1c(%rdi),%eax
	lea -0x10(%rdx),%r10
	.byte 15,31,68,0,0
	test $0x10,%r10b
	jne .L16_245.i7_v3
	imul $0x85ebca77,(%rsi),%edx
	add %r9d,%edx
	imul $0x85ebca77,0x4(%rsi),%r11d
	imul $0x85ebca77,0x8(%rsi),%ebx
	imul $0x85ebca77,0xc(%rsi),%ebp
	add %r8d,%r11d
	add $0x10,%rsi
	rorx $0x13,%edx,%edx
	imul $0x9e3779b1,%edx,%r9d
	rorx $0x13,%r11d,%edx
	imul $0x9e3779b1,%edx,%r8d
	add %ecx,%ebx
	rorx $0x13,%ebx,%ecx
	imul $0x9e3779b1,%ecx,%ecx
	add %eax,%ebp
	rorx $0x13,%ebp,%eax
	imul $0x9e3779b1,%eax,%eax
	mov %r10,%rdx
.L16_245.i7_v3:
	cmp $0x10,%r10
	jb .L16_31c.i7_v3
	.byte 144
.L16_250.i7_v3:
	imul $0x85ebca77,(%rsi),%r10d
	add %r9d,%r10d
	rorx $0x13,%r10d,%r9d
	imul $0x9e3779b1,%r9d,%r9d
	imul $0x85ebca77,0x4(%rsi),%r10d
	add %r8d,%r10d
	rorx $0x13,%r10d,%r8d
	imul $0x85ebca77,0x8(%rsi),%r10d
	imul $0x9e3779b1,%r8d,%r8d
	add %ecx,%r10d
	rorx $0x13,%r10d,%ecx
	imul $0x9e3779b1,%ecx,%ecx
	imul $0x85ebca77,0xc(%rsi),%r10d
	add %eax,%r10d
	rorx $0x13,%r10d,%eax
	imul $0x9e3779b1,%eax,%eax
	imul $0x85ebca77,0x10(%rsi),%r10d
	add %r9d,%r10d
	imul $0x85ebca77,0x14(%rsi),%r11d
	imul $0x85ebca77,0x18(%rsi),%ebx
	add %r8d,%r11d
	imul $0x85ebca77,0x1c(%rsi),%ebp
	add $0x20,%rsi
	add $0xffffffffffffffe0,%rdx
	rorx $0x13,%r10d,%r8d
	imul $0x9e3779b1,%r8d,%r9d
	rorx $0x13,%r11d,%r8d
	imul $0x9e3779b1,%r8d,%r8d
	add %ecx,%ebx
	rorx $0x13,%ebx,%ecx
	imul $0x9e3779b1,%ecx,%ecx
	add %eax,%ebp
	rorx $0x13,%ebp,%eax
	imul $0x9e3779b1,%eax,%eax
	cmp $0xf,%rdx
	ja .L16_250.i7_v3
	mov %rdx,%r10
.L16_31c.i7_v3:
	mov %r9d,(%rdi)
	mov %r8d,0x8(%rdi)
	mov %ecx,0x10(%rdi)
	mov %eax,0x1c(%rdi)
	mov %r10,%rdx
.L16_32c.i7_v3:
	test %rdx,%rdx
	je .L16_37f.i7_v3
	cmp $0x8,%rdx
	jb .L16_34a.i7_v3
	mov (%rsi),%rax
	mov %rax,0x20(%rdi)
	mov -0x8(%rdx,%rsi,1),%rax
	mov %rax,0x18(%rdi,%rdx,1)
	jmp .L16_37f.i7_v3
.L16_34a.i7_v3:
	cmp $0x4,%rdx
	jb .L16_35f.i7_v3
	mov (%rsi),%eax
	mov %eax,0x20(%rdi)
	mov -0x4(%rdx,%rsi,1),%eax
	mov %eax,0x1c(%rdi,%rdx,1)
	jmp .L16_37f.i7_v3
.L16_35f.i7_v3:
	.byte 144
	cmp $0x1,%rdx
	jne .L16_36e.i7_v3
	movzbl (%rsi),%eax
	mov %al,0x20(%rdi)
	jmp .L16_37f.i7_v3
.L16_36e.i7_v3:
	movzwl (%rsi),%eax
	mov %ax,0x20(%rdi)
	movzwl -0x2(%rdx,%rsi,1),%eax
	mov %ax,0x1e(%rdi,%rdx,1)
.L16_37f.i7_v3:
	add $0x32335858,%edx
	mov %edx,0xc(%rdi)
.L16_388.i7_v3:
	xor %eax,%eax
	add $0x8,%rsp
	.cfi_def_cfa_offset 24
	pop %rbx
	.cfi_def_cfa_offset 16
	.cfi_restore 3
	pop %rbp
	.cfi_def_cfa_offset 8
	.cfi_restore 6
	ret
.L16_391.i7_v3:
	xor %eax,%eax
	cmp $0x1,%rdx
	jne .L16_1e.i7_v3
	movzbl (%rsi),%edx
	mov %dl,(%rcx)
	ret
	.cfi_endproc
	.size twox_rust_7_xxh32_write_v3,.-twox_rust_7_xxh32_write_v3
	.section .text.twox_rust_7_xxh3_128_long_v3,"ax",@progbits
	.p2align 6
	.weak twox_rust_7_xxh3_128_long_v3
	.hidden twox_rust_7_xxh3_128_long_v3
	.type twox_rust_7_xxh3_128_long_v3,@function
twox_rust_7_xxh3_128_long_v3:
	.cfi_startproc
	push %rbx
	.cfi_def_cfa_offset 16
	.cfi_offset 3, -16
	xor %r10d,%r10d
	test %rdi,%rdi
	sete %bl
	xor %r9d,%r9d
	test %rdx,%rdx
	sete %r11b
	mov $0x3,%eax
	.byte 15,31,128,0,0,0,0
	cmp $0xf1,%rsi
	jb .L17_6e.i7_v3
	mov $0x1,%eax
	cmp $0x88,%rcx
	jb .L17_6e.i7_v3
	mov %bl,%r10b
	shl $0xc,%r10d
	add %r10,%rdi
	mov %r11b,%r9b
	shl $0xc,%r9d
	add %r9,%rdx
	mov %rdi,%rax
	mov %rdx,%rdi
	mov %rsi,%r9
	mov %rcx,%rsi
	mov %rax,%rdx
	mov %r9,%rcx
	mov %r8,%rbx
	call twox_core.width_128.oneshot_long.i7_v3
	mov %rax,(%rbx)
	mov %rdx,0x8(%rbx)
	xor %eax,%eax
.L17_6e.i7_v3:
	pop %rbx
	.cfi_def_cfa_offset 8
	.cfi_restore 3
	ret
	.cfi_endproc
	.size twox_rust_7_xxh3_128_long_v3,.-twox_rust_7_xxh3_128_long_v3
	.section .text.twox_rust_7_xxh3_64_long_v3,"ax",@progbits
	.p2align 6
	.weak twox_rust_7_xxh3_64_long_v3
	.hidden twox_rust_7_xxh3_64_long_v3
	.type twox_rust_7_xxh3_64_long_v3,@function
twox_rust_7_xxh3_64_long_v3:
	.cfi_startproc
	xor %r8d,%r8d
	test %rdi,%rdi
	sete %r10b
	xor %eax,%eax
	test %rdx,%rdx
	sete %r9b
	cmp $0xf1,%rsi
	jae .L18_24.i7_v3
	mov $0x3,%eax
	xor %edx,%edx
	ret
.L18_24.i7_v3:
	cmp $0x88,%rcx
	jb .L18_62.i7_v3
	push %rax
	.cfi_def_cfa_offset 16
	mov %r10b,%r8b
	shl $0xc,%r8d
	add %r8,%rdi
	mov %r9b,%al
	shl $0xc,%eax
	add %rax,%rdx
	mov %rdi,%rax
	mov %rdx,%rdi
	mov %rsi,%r8
	mov %rcx,%rsi
	mov %rax,%rdx
	mov %r8,%rcx
	call twox_core.width_64.oneshot_long.i7_v3
	mov %rax,%rdx
	xor %eax,%eax
	add $0x8,%rsp
	.cfi_def_cfa_offset 8
	ret
.L18_62.i7_v3:
	mov $0x1,%eax
	xor %edx,%edx
	ret
	.cfi_endproc
	.size twox_rust_7_xxh3_64_long_v3,.-twox_rust_7_xxh3_64_long_v3
	.section .text.twox_rust_7_xxh3_write_v3,"ax",@progbits
	.p2align 6
	.weak twox_rust_7_xxh3_write_v3
	.hidden twox_rust_7_xxh3_write_v3
	.type twox_rust_7_xxh3_write_v3,@function
twox_rust_7_xxh3_write_v3:
	.cfi_startproc
	push %rbx
	.cfi_def_cfa_offset 16
	.cfi_offset 3, -16
	xor %r9d,%r9d
	test %rsi,%rsi
	sete %r10b
	xor %r11d,%r11d
	test %rcx,%rcx
	sete %bl
	mov $0x1,%eax
	.byte 15,31,128,0,0,0,0
	cmp $0x88,%rdx
	jb .L19_15c.i7_v3
	mov %bl,%r11b
	shl $0xc,%r11d
	add %r11,%rcx
	mov 0x50(%rdi),%rax
	mov %rax,%r11
	.byte 102,144
	sub $0x200,%r11
	ja .L19_eb.i7_v3
	cmp $0x40,%r8
	ja .L19_eb.i7_v3
	neg %r11
	.byte 102,15,31,68,0,0
	cmp %r11,%r8
	ja .L19_eb.i7_v3
	lea -0x40(%rdx),%r11
	shr $0x3,%r11
	cmp %r11,0x40(%rdi)
	jae .L19_eb.i7_v3
	mov 0x58(%rdi),%r11
	.byte 15,31,68,0,0
	test %rax,%rax
	je .L19_e3.i7_v3
	add %r8,%r11
	mov $0xffffffffffffffff,%rbx
	cmovae %r11,%rbx
.L19_93.i7_v3:
	mov %rbx,0x58(%rdi)
	lea (%rdi,%rax,1),%rdx
	add $0x60,%rdx
	.byte 144
	cmp $0x21,%r8
	jb .L19_c5.i7_v3
	vmovups (%rcx),%ymm0
	vmovups %ymm0,(%rdx)
	vmovups -0x20(%rcx,%r8,1),%ymm0
	vmovups %ymm0,-0x20(%rdx,%r8,1)
	.byte 15,31,64,0
	jmp .L19_153.i7_v3
.L19_c5.i7_v3:
	cmp $0x11,%r8
	jb .L19_fb.i7_v3
	vmovups (%rcx),%xmm0
	vmovups %xmm0,(%rdx)
	vmovups -0x10(%rcx,%r8,1),%xmm0
	vmovups %xmm0,-0x10(%rdx,%r8,1)
	jmp .L19_153.i7_v3
.L19_e3.i7_v3:
	mov %r8,%rbx
	test %r11,%r11
	je .L19_93.i7_v3
.L19_eb.i7_v3:
	mov %r10b,%r9b
	shl $0xc,%r9d
	add %r9,%rsi
	pop %rbx
	.cfi_def_cfa_offset 8
	.cfi_restore 3
	jmp twox_exports.stream_3.write_far.i7_v3
	.cfi_def_cfa_offset 16
	.cfi_offset 3, -16
.L19_fb.i7_v3:
	.byte 15,31,68,0,0
	cmp $0x8,%r8
	jb .L19_118.i7_v3
	mov (%rcx),%rsi
	mov %rsi,(%rdx)
	mov -0x8(%rcx,%r8,1),%rcx
	mov %rcx,-0x8(%rdx,%r8,1)
	jmp .L19_153.i7_v3
.L19_118.i7_v3:
	cmp $0x4,%r8
	jb .L19_12e.i7_v3
	mov (%rcx),%esi
	mov %esi,(%rdx)
	mov -0x4(%rcx,%r8,1),%ecx
	mov %ecx,-0x4(%rdx,%r8,1)
	jmp .L19_153.i7_v3
.L19_12e.i7_v3:
	cmp $0x2,%r8
	jb .L19_148.i7_v3
	movzwl (%rcx),%esi
	mov %si,(%rdx)
	movzwl -0x2(%rcx,%r8,1),%ecx
	mov %cx,-0x2(%rdx,%r8,1)
	jmp .L19_153.i7_v3
.L19_148.i7_v3:
	cmp $0x1,%r8
	jne .L19_153.i7_v3
	movzbl (%rcx),%ecx
	mov %cl,(%rdx)
.L19_153.i7_v3:
	add %r8,%rax
	mov %rax,0x50(%rdi)
	xor %eax,%eax
.L19_15c.i7_v3:
	pop %rbx
	.cfi_def_cfa_offset 8
	.cfi_restore 3
	vzeroupper
	ret
	.cfi_endproc
	.size twox_rust_7_xxh3_write_v3,.-twox_rust_7_xxh3_write_v3
	.section .rodata.cst4,"aM",@progbits,4
	.p2align 2
.L20_0.i7_v3:
	.byte 119,202,235,133
	.section .rodata.cst32,"aM",@progbits,32
	.p2align 5
.L21_0.i7_v3:
	.quad 0x85ebca77c2b2ae63,0x85ebca77
	.quad 0x27d4eb2f165667c5,0x9e3779b1
.L21_20.i7_v3:
	.quad 0xc2b2ae3d,0x9e3779b185ebca87
	.quad 0xc2b2ae3d27d4eb4f,0x165667b19e3779f9
.L21_40.i7_v3:
	.quad 0xc2b2ae3d,0x9e3779b185ebca87
	.quad 0xc2b2ae3d27d4eb4f,0x165667b19e3779f9
.L21_60.i7_v3:
	.quad 0x85ebca77c2b2ae63,0x85ebca77
	.quad 0x27d4eb2f165667c5,0x9e3779b1
.L21_80.i7_v3:
	.quad 0x85ebca77c2b2ae63,0x85ebca77
	.quad 0x27d4eb2f165667c5,0x9e3779b1
.L21_a0.i7_v3:
	.quad 0xc2b2ae3d,0x9e3779b185ebca87
	.quad 0xc2b2ae3d27d4eb4f,0x165667b19e3779f9
.L21_c0.i7_v3:
	.quad 0x85ebca77c2b2ae63,0x85ebca77
	.quad 0x27d4eb2f165667c5,0x9e3779b1
.L21_e0.i7_v3:
	.quad 0xc2b2ae3d,0x9e3779b185ebca87
	.quad 0xc2b2ae3d27d4eb4f,0x165667b19e3779f9
.L21_100.i7_v3:
	.quad 0xc2b2ae3d,0x9e3779b185ebca87
	.quad 0xc2b2ae3d27d4eb4f,0x165667b19e3779f9
.L21_120.i7_v3:
	.quad 0x85ebca77c2b2ae63,0x85ebca77
	.quad 0x27d4eb2f165667c5,0x9e3779b1
.L21_140.i7_v3:
	.quad 0xc2b2ae3d,0x9e3779b185ebca87
	.quad 0xc2b2ae3d27d4eb4f,0x165667b19e3779f9
.L21_160.i7_v3:
	.quad 0x85ebca77c2b2ae63,0x85ebca77
	.quad 0x27d4eb2f165667c5,0x9e3779b1
	.section .rodata.cst8,"aM",@progbits,8
	.p2align 3
.L22_0.i7_v3:
	.quad 0x9e3779b100000000
.L22_8.i7_v3:
	.quad 0x9e3779b1
.L22_10.i7_v3:
	.quad 0x9e3779b100000000
.L22_18.i7_v3:
	.quad 0x9e3779b1
.L22_20.i7_v3:
	.quad 0x9e3779b100000000
.L22_28.i7_v3:
	.quad 0x9e3779b1
.L22_30.i7_v3:
	.quad 0x9e3779b100000000
.L22_38.i7_v3:
	.quad 0x9e3779b1
.L22_40.i7_v3:
	.quad 0x9e3779b100000000
.L22_48.i7_v3:
	.quad 0x9e3779b1
.L22_50.i7_v3:
	.quad 0x9e3779b100000000
.L22_58.i7_v3:
	.quad 0x9e3779b1
.L22_60.i7_v3:
	.quad 0x9e3779b100000000
.L22_68.i7_v3:
	.quad 0x9e3779b1
.L22_70.i7_v3:
	.quad 0x9e3779b100000000
.L22_78.i7_v3:
	.quad 0x9e3779b1
.L22_80.i7_v3:
	.quad 0x9e3779b100000000
.L22_88.i7_v3:
	.quad 0x9e3779b1
	.endif
	.section .note.GNU-stack,"",@progbits
	.section .note.gnu.property,"a",@note
	.p2align 3
	.long 4,16,5
	.asciz "GNU"
	.long 0xc0000002,4,2,0
	.text
