/* The functions below the cargo crate, for x86-64-v4. Generated of what is proved: not to be changed by hand. SPDX-License-Identifier: MIT */
	.ifndef twox_rust_7_xxh3_128_long_v4
	.section .text.twox_plain.xxhash32.rounds.products_of_block.i7_v4,"ax",@progbits
	.p2align 6
	.type twox_plain.xxhash32.rounds.products_of_block.i7_v4,@function
twox_plain.xxhash32.rounds.products_of_block.i7_v4:
	.cfi_startproc
	vpbroadcastd .L25_0.i7_v4(%rip),%ymm0
	vpmulld (%rsi),%ymm0,%ymm1
	vpmulld 0x20(%rsi),%ymm0,%ymm2
	vpmulld 0x40(%rsi),%ymm0,%ymm3
	vpmulld 0x60(%rsi),%ymm0,%ymm0
	vmovdqu %ymm1,(%rdi)
	vmovdqu %ymm2,0x20(%rdi)
	vmovdqu %ymm3,0x40(%rdi)
	vmovdqu %ymm0,0x60(%rdi)
	vzeroupper
	ret
	.cfi_endproc
	.size twox_plain.xxhash32.rounds.products_of_block.i7_v4,.-twox_plain.xxhash32.rounds.products_of_block.i7_v4
	.section .text.twox_plain.xxhash32.StateInMemory.add_blocks_in_place.i7_v4,"ax",@progbits
	.p2align 6
	.type twox_plain.xxhash32.StateInMemory.add_blocks_in_place.i7_v4,@function
twox_plain.xxhash32.StateInMemory.add_blocks_in_place.i7_v4:
	.cfi_startproc
	push %rbp
	.cfi_def_cfa_offset 16
	.cfi_offset 6, -16
	push %r15
	.cfi_def_cfa_offset 24
	.cfi_offset 15, -24
	push %r14
	.cfi_def_cfa_offset 32
	.cfi_offset 14, -32
	push %r13
	.cfi_def_cfa_offset 40
	.cfi_offset 13, -40
	push %r12
	.cfi_def_cfa_offset 48
	.cfi_offset 12, -48
	push %rbx
	.cfi_def_cfa_offset 56
	.cfi_offset 3, -56
	sub $0x88,%rsp
	.cfi_def_cfa_offset 192
	mov %rdx,%rbx
	mov %rsi,%r15
	mov (%rdi),%r14d
	mov 0x8(%rdi),%r13d
	mov 0x10(%rdi),%r12d
	mov %rdi,0x80(%rsp)
	mov 0x1c(%rdi),%ebp
	.byte 15,31,0
.L2_30.i7_v4:
	prefetcht0 0x400(%r15)
	prefetcht0 0x440(%r15)
	mov %rsp,%rdi
	mov %r15,%rsi
	call twox_plain.xxhash32.rounds.products_of_block.i7_v4
	add (%rsp),%r14d
	rorx $0x13,%r14d,%eax
	imul $0x9e3779b1,%eax,%eax
	add 0x4(%rsp),%r13d
	rorx $0x13,%r13d,%ecx
	imul $0x9e3779b1,%ecx,%ecx
	add 0x8(%rsp),%r12d
	rorx $0x13,%r12d,%edx
	imul $0x9e3779b1,%edx,%edx
	add 0xc(%rsp),%ebp
	rorx $0x13,%ebp,%esi
	imul $0x9e3779b1,%esi,%esi
	add 0x10(%rsp),%eax
	rorx $0x13,%eax,%eax
	imul $0x9e3779b1,%eax,%eax
	add 0x14(%rsp),%ecx
	rorx $0x13,%ecx,%ecx
	imul $0x9e3779b1,%ecx,%ecx
	add 0x18(%rsp),%edx
	rorx $0x13,%edx,%edx
	imul $0x9e3779b1,%edx,%edx
	add 0x1c(%rsp),%esi
	rorx $0x13,%esi,%esi
	imul $0x9e3779b1,%esi,%esi
	add 0x20(%rsp),%eax
	rorx $0x13,%eax,%eax
	imul $0x9e3779b1,%eax,%eax
	add 0x24(%rsp),%ecx
	rorx $0x13,%ecx,%ecx
	imul $0x9e3779b1,%ecx,%ecx
	add 0x28(%rsp),%edx
	rorx $0x13,%edx,%edx
	imul $0x9e3779b1,%edx,%edx
	add 0x2c(%rsp),%esi
	rorx $0x13,%esi,%esi
	imul $0x9e3779b1,%esi,%esi
	add 0x30(%rsp),%eax
	rorx $0x13,%eax,%eax
	imul $0x9e3779b1,%eax,%eax
	add 0x34(%rsp),%ecx
	rorx $0x13,%ecx,%ecx
	imul $0x9e3779b1,%ecx,%ecx
	add 0x38(%rsp),%edx
	rorx $0x13,%edx,%edx
	imul $0x9e3779b1,%edx,%edx
	add 0x3c(%rsp),%esi
	rorx $0x13,%esi,%esi
	imul $0x9e3779b1,%esi,%esi
	add 0x40(%rsp),%eax
	rorx $0x13,%eax,%eax
	imul $0x9e3779b1,%eax,%eax
	add 0x44(%rsp),%ecx
	rorx $0x13,%ecx,%ecx
	imul $0x9e3779b1,%ecx,%ecx
	add 0x48(%rsp),%edx
	rorx $0x13,%edx,%edx
	imul $0x9e3779b1,%edx,%edx
	add 0x4c(%rsp),%esi
	rorx $0x13,%esi,%esi
	imul $0x9e3779b1,%esi,%esi
	add 0x50(%rsp),%eax
	rorx $0x13,%eax,%eax
	imul $0x9e3779b1,%eax,%eax
	add 0x54(%rsp),%ecx
	rorx $0x13,%ecx,%ecx
	imul $0x9e3779b1,%ecx,%ecx
	add 0x58(%rsp),%edx
	rorx $0x13,%edx,%edx
	imul $0x9e3779b1,%edx,%edx
	add 0x5c(%rsp),%esi
	rorx $0x13,%esi,%esi
	imul $0x9e3779b1,%esi,%esi
	add 0x60(%rsp),%eax
	rorx $0x13,%eax,%eax
	imul $0x9e3779b1,%eax,%eax
	add 0x64(%rsp),%ecx
	rorx $0x13,%ecx,%ecx
	imul $0x9e3779b1,%ecx,%ecx
	add 0x68(%rsp),%edx
	rorx $0x13,%edx,%edx
	imul $0x9e3779b1,%edx,%edx
	add 0x6c(%rsp),%esi
	rorx $0x13,%esi,%esi
	imul $0x9e3779b1,%esi,%esi
	add 0x70(%rsp),%eax
	rorx $0x13,%eax,%eax
	imul $0x9e3779b1,%eax,%r14d
	add 0x74(%rsp),%ecx
	rorx $0x13,%ecx,%eax
	imul $0x9e3779b1,%eax,%r13d
	add 0x78(%rsp),%edx
	rorx $0x13,%edx,%eax
	imul $0x9e3779b1,%eax,%r12d
	add 0x7c(%rsp),%esi
	rorx $0x13,%esi,%eax
	imul $0x9e3779b1,%eax,%ebp
	sub $0xffffffffffffff80,%r15
	add $0xffffffffffffff80,%rbx
	.byte 15,31,132,0,0,0,0,0
	cmp $0x80,%rbx
	jae .L2_30.i7_v4
	cmp $0x10,%rbx
	jb .L2_2eb.i7_v4
	.byte 102,102,102,102,46,15,31,132,0,0,0,0,0
.L2_280.i7_v4:
	imul $0x85ebca77,(%r15),%eax
	add %r14d,%eax
	imul $0x85ebca77,0x4(%r15),%ecx
	imul $0x85ebca77,0x8(%r15),%edx
	add %r13d,%ecx
	imul $0x85ebca77,0xc(%r15),%esi
	add $0x10,%r15
	add $0xfffffffffffffff0,%rbx
	rorx $0x13,%eax,%eax
	imul $0x9e3779b1,%eax,%r14d
	rorx $0x13,%ecx,%eax
	imul $0x9e3779b1,%eax,%r13d
	add %r12d,%edx
	rorx $0x13,%edx,%eax
	imul $0x9e3779b1,%eax,%r12d
	add %ebp,%esi
	rorx $0x13,%esi,%eax
	imul $0x9e3779b1,%eax,%ebp
	cmp $0xf,%rbx
	ja .L2_280.i7_v4
.L2_2eb.i7_v4:
	mov 0x80(%rsp),%rcx
	mov %r14d,(%rcx)
	mov %r13d,0x8(%rcx)
	mov %r12d,0x10(%rcx)
	mov %ebp,0x1c(%rcx)
	test %rbx,%rbx
	je .L2_359.i7_v4
	cmp $0x8,%rbx
	jb .L2_31f.i7_v4
	mov (%r15),%rax
	mov %rax,0x20(%rcx)
	mov -0x8(%rbx,%r15,1),%rax
	mov %rax,0x18(%rcx,%rbx,1)
	jmp .L2_359.i7_v4
.L2_31f.i7_v4:
	.byte 144
	cmp $0x4,%rbx
	jb .L2_337.i7_v4
	mov (%r15),%eax
	mov %eax,0x20(%rcx)
	mov -0x4(%rbx,%r15,1),%eax
	mov %eax,0x1c(%rcx,%rbx,1)
	jmp .L2_359.i7_v4
.L2_337.i7_v4:
	cmp $0x1,%rbx
	jne .L2_346.i7_v4
	movzbl (%r15),%eax
	mov %al,0x20(%rcx)
	jmp .L2_359.i7_v4
.L2_346.i7_v4:
	movzwl (%r15),%eax
	mov %ax,0x20(%rcx)
	movzwl -0x2(%rbx,%r15,1),%eax
	mov %ax,0x1e(%rcx,%rbx,1)
.L2_359.i7_v4:
	add $0x32335858,%ebx
	mov %ebx,0xc(%rcx)
	add $0x88,%rsp
	.cfi_def_cfa_offset 56
	pop %rbx
	.cfi_def_cfa_offset 48
	.cfi_restore 3
	pop %r12
	.cfi_def_cfa_offset 40
	.cfi_restore 12
	pop %r13
	.cfi_def_cfa_offset 32
	.cfi_restore 13
	pop %r14
	.cfi_def_cfa_offset 24
	.cfi_restore 14
	pop %r15
	.cfi_def_cfa_offset 16
	.cfi_restore 15
	pop %rbp
	.cfi_def_cfa_offset 8
	.cfi_restore 6
	ret
	.cfi_endproc
	.size twox_plain.xxhash32.StateInMemory.add_blocks_in_place.i7_v4,.-twox_plain.xxhash32.StateInMemory.add_blocks_in_place.i7_v4
	.section .text.twox_core.width_128.oneshot_long.i7_v4,"ax",@progbits
	.p2align 6
	.type twox_core.width_128.oneshot_long.i7_v4,@function
twox_core.width_128.oneshot_long.i7_v4:
	.cfi_startproc
	cmp $0xc0,%rsi
	jne twox_core.width_128.oneshot_long_of_any_length.i7_v4
	cmp $0x400,%rcx
	jb .L3_25.i7_v4
	mov $0xc0,%esi
	.byte 15,31,68,0,0
	jmp twox_core.width_128.oneshot_by_eight_lanes.i7_v4
.L3_25.i7_v4:
	lea -0x1(%rcx),%rax
	shr $0x3,%rax
	and $0xfffffffffffffff8,%rax
	vmovdqa .L26_0.i7_v4(%rip),%ymm0
	vmovdqa .L26_20.i7_v4(%rip),%ymm1
	xor %esi,%esi
	.byte 102,102,102,102,46,15,31,132,0,0,0,0,0
.L3_50.i7_v4:
	vmovdqu (%rdx,%rsi,8),%ymm2
	vmovdqu 0x20(%rdx,%rsi,8),%ymm3
	vpshufd $0x4e,%ymm2,%ymm4
	vpaddq %ymm4,%ymm1,%ymm1
	vpxor (%rdi,%rsi,1),%ymm2,%ymm2
	vpsrlq $0x20,%ymm2,%ymm4
	vpmuludq %ymm4,%ymm2,%ymm2
	vpaddq %ymm2,%ymm1,%ymm1
	vpshufd $0x4e,%ymm3,%ymm2
	vpaddq %ymm0,%ymm2,%ymm0
	vpxor 0x20(%rdi,%rsi,1),%ymm3,%ymm2
	vpsrlq $0x20,%ymm2,%ymm3
	vpmuludq %ymm3,%ymm2,%ymm2
	vpaddq %ymm2,%ymm0,%ymm0
	add $0x8,%rsi
	cmp %rsi,%rax
	jne .L3_50.i7_v4
	vmovdqu -0x40(%rdx,%rcx,1),%ymm2
	vmovdqu -0x20(%rdx,%rcx,1),%ymm3
	vpxor 0x79(%rdi),%ymm2,%ymm4
	vpshufd $0x4e,%ymm2,%ymm2
	vpsrlq $0x20,%ymm4,%ymm5
	vpmuludq %ymm5,%ymm4,%ymm4
	vpaddq %ymm4,%ymm2,%ymm2
	vpaddq %ymm1,%ymm2,%ymm1
	vpshufd $0x4e,%ymm3,%ymm2
	vpxor 0x99(%rdi),%ymm3,%ymm3
	vpsrlq $0x20,%ymm3,%ymm4
	vpmuludq %ymm4,%ymm3,%ymm3
	vpaddq %ymm3,%ymm2,%ymm2
	vpaddq %ymm0,%ymm2,%ymm0
	vpxor 0xb(%rdi),%ymm1,%ymm2
	vpextrq $0x1,%xmm2,%rax
	vmovq %xmm2,%rdx
	mulx %rax,%rdx,%rax
	movabs $0x9e3779b185ebca87,%rsi
	imul %rcx,%rsi
	xor %rdx,%rax
	add %rsi,%rax
	vextracti128 $0x1,%ymm2,%xmm2
	vmovq %xmm2,%rdx
	vpextrq $0x1,%xmm2,%rsi
	mulx %rsi,%rdx,%rsi
	xor %rdx,%rsi
	vpxor 0x2b(%rdi),%ymm0,%ymm2
	vpextrq $0x1,%xmm2,%r8
	vmovq %xmm2,%rdx
	mulx %r8,%rdx,%r8
	xor %rdx,%r8
	vextracti128 $0x1,%ymm2,%xmm2
	vpextrq $0x1,%xmm2,%r9
	vmovq %xmm2,%rdx
	mulx %r9,%rdx,%r9
	add %rax,%r8
	add %rsi,%r8
	xor %rdx,%r9
	add %r8,%r9
	mov %r9,%r8
	shr $0x25,%r8
	xor %r9,%r8
	movabs $0x165667919e3779f9,%rsi
	imul %rsi,%r8
	mov %r8,%rax
	vpxor 0x75(%rdi),%ymm1,%ymm1
	vpextrq $0x1,%xmm1,%r9
	vmovq %xmm1,%rdx
	mulx %r9,%rdx,%r9
	shr $0x20,%rax
	xor %r8,%rax
	xor %rdx,%r9
	movabs $0xc2b2ae3d27d4eb4f,%r8
	imul %rcx,%r8
	vextracti128 $0x1,%ymm1,%xmm1
	vpextrq $0x1,%xmm1,%rcx
	vmovq %xmm1,%rdx
	mulx %rcx,%rcx,%r10
	not %r8
	add %r9,%r8
	vpxor 0x95(%rdi),%ymm0,%ymm0
	xor %rcx,%r10
	vmovq %xmm0,%rdx
	vpextrq $0x1,%xmm0,%rcx
	mulx %rcx,%rcx,%rdi
	xor %rcx,%rdi
	add %r8,%rdi
	vextracti128 $0x1,%ymm0,%xmm0
	vpextrq $0x1,%xmm0,%rcx
	vmovq %xmm0,%rdx
	mulx %rcx,%rcx,%rdx
	add %r10,%rdi
	xor %rcx,%rdx
	add %rdi,%rdx
	mov %rdx,%rcx
	shr $0x25,%rcx
	xor %rdx,%rcx
	imul %rsi,%rcx
	mov %rcx,%rdx
	shr $0x20,%rdx
	xor %rcx,%rdx
	vzeroupper
	ret
	.cfi_endproc
	.size twox_core.width_128.oneshot_long.i7_v4,.-twox_core.width_128.oneshot_long.i7_v4
	.section .text.twox_core.width_128.oneshot_by_eight_lanes.i7_v4,"ax",@progbits
	.p2align 6
	.type twox_core.width_128.oneshot_by_eight_lanes.i7_v4,@function
twox_core.width_128.oneshot_by_eight_lanes.i7_v4:
	.cfi_startproc
	push %r15
	.cfi_def_cfa_offset 16
	.cfi_offset 15, -16
	push %r14
	.cfi_def_cfa_offset 24
	.cfi_offset 14, -24
	push %r13
	.cfi_def_cfa_offset 32
	.cfi_offset 13, -32
	push %r12
	.cfi_def_cfa_offset 40
	.cfi_offset 12, -40
	push %rbx
	.cfi_def_cfa_offset 48
	.cfi_offset 3, -48
	sub $0x50,%rsp
	.cfi_def_cfa_offset 128
	mov %rcx,%r15
	mov %rdx,%r12
	mov %rsi,%rbx
	mov %rdi,%r14
	vxorps %xmm0,%xmm0,%xmm0
	vmovups %ymm0,0x20(%rsp)
	vmovups %ymm0,(%rsp)
	movabs $0x165667919e3779f9,%r13
	movq $0x0,0x40(%rsp)
	lea -0x1(%rcx),%rdx
	and $0xffffffffffffffc0,%rdx
	mov %rsp,%rdi
	mov %r12,%rsi
	mov %r14,%rcx
	vzeroupper
	call twox_core.xxhash3.stripes.start_widened.i7_v4
	vmovdqu -0x40(%r12,%r15,1),%ymm0
	vpshufd $0x4e,%ymm0,%ymm1
	vpaddq (%rsp),%ymm1,%ymm1
	vmovdqu -0x20(%r12,%r15,1),%ymm2
	vpxor -0x47(%r14,%rbx,1),%ymm0,%ymm0
	vpsrlq $0x20,%ymm0,%ymm3
	vpmuludq %ymm3,%ymm0,%ymm0
	vpshufd $0x4e,%ymm2,%ymm3
	vpaddq 0x20(%rsp),%ymm3,%ymm3
	vpaddq %ymm0,%ymm1,%ymm0
	vpxor -0x27(%r14,%rbx,1),%ymm2,%ymm1
	vpsrlq $0x20,%ymm1,%ymm2
	vpmuludq %ymm2,%ymm1,%ymm1
	movabs $0x9e3779b185ebca87,%rax
	vpxor 0xb(%r14),%ymm0,%ymm2
	imul %r15,%rax
	vmovq %xmm2,%rdx
	vpextrq $0x1,%xmm2,%rcx
	mulx %rcx,%rcx,%rsi
	xor %rcx,%rsi
	add %rax,%rsi
	vextracti128 $0x1,%ymm2,%xmm2
	vpextrq $0x1,%xmm2,%rax
	vmovq %xmm2,%rdx
	mulx %rax,%rcx,%rax
	vpaddq %ymm1,%ymm3,%ymm1
	xor %rcx,%rax
	add %rsi,%rax
	cmp $0x88,%rbx
	jb .L4_13e.i7_v4
	vpxor 0x2b(%r14),%ymm1,%ymm2
	vpextrq $0x1,%xmm2,%rcx
	vmovq %xmm2,%rdx
	mulx %rcx,%rcx,%rsi
	xor %rcx,%rsi
	vextracti128 $0x1,%ymm2,%xmm2
	vpextrq $0x1,%xmm2,%rcx
	vmovq %xmm2,%rdx
	mulx %rcx,%rcx,%rdx
	xor %rcx,%rdx
	add %rsi,%rdx
	add %rdx,%rax
	mov %rax,%rcx
	shr $0x25,%rcx
	xor %rax,%rcx
	imul %r13,%rcx
	mov %rcx,%rax
	shr $0x20,%rax
	xor %rcx,%rax
.L4_13e.i7_v4:
	movabs $0xc2b2ae3d27d4eb4f,%rcx
	imul %rcx,%r15
	not %r15
	vpxor -0x4b(%r14,%rbx,1),%ymm0,%ymm0
	vpextrq $0x1,%xmm0,%rcx
	vmovq %xmm0,%rdx
	mulx %rcx,%rcx,%rsi
	xor %rcx,%rsi
	vextracti128 $0x1,%ymm0,%xmm0
	vpextrq $0x1,%xmm0,%rcx
	vmovq %xmm0,%rdx
	mulx %rcx,%rdx,%rcx
	add %r15,%rsi
	xor %rdx,%rcx
	add %rsi,%rcx
	cmp $0x88,%rbx
	jb .L4_1e2.i7_v4
	vpxor -0x2b(%r14,%rbx,1),%ymm1,%ymm0
	vpextrq $0x1,%xmm0,%rsi
	vmovq %xmm0,%rdx
	mulx %rsi,%rdx,%rsi
	xor %rdx,%rsi
	vextracti128 $0x1,%ymm0,%xmm0
	vpextrq $0x1,%xmm0,%rdi
	vmovq %xmm0,%rdx
	mulx %rdi,%rdx,%rdi
	xor %rdx,%rdi
	add %rsi,%rdi
	add %rdi,%rcx
	mov %rcx,%rdx
	shr $0x25,%rdx
	xor %rcx,%rdx
	imul %r13,%rdx
	mov %rdx,%rcx
	shr $0x20,%rcx
	xor %rdx,%rcx
.L4_1e2.i7_v4:
	mov %rcx,%rdx
	add $0x50,%rsp
	.cfi_def_cfa_offset 48
	pop %rbx
	.cfi_def_cfa_offset 40
	.cfi_restore 3
	pop %r12
	.cfi_def_cfa_offset 32
	.cfi_restore 12
	pop %r13
	.cfi_def_cfa_offset 24
	.cfi_restore 13
	pop %r14
	.cfi_def_cfa_offset 16
	.cfi_restore 14
	pop %r15
	.cfi_def_cfa_offset 8
	.cfi_restore 15
	vzeroupper
	ret
	.cfi_endproc
	.size twox_core.width_128.oneshot_by_eight_lanes.i7_v4,.-twox_core.width_128.oneshot_by_eight_lanes.i7_v4
	.section .text.twox_core.xxhash3.stripes.start_widened.i7_v4,"ax",@progbits
	.p2align 6
	.type twox_core.xxhash3.stripes.start_widened.i7_v4,@function
twox_core.xxhash3.stripes.start_widened.i7_v4:
	.cfi_startproc
	mov %rdx,%rax
	shr $0xa,%rax
	je .L5_412.i7_v4
	vmovdqu64 0x80(%rcx),%zmm0
	vmovdqu64 (%rcx),%zmm1
	vmovdqu64 0x8(%rcx),%zmm2
	vmovdqu64 0x10(%rcx),%zmm3
	vmovdqu64 0x18(%rcx),%zmm4
	vmovdqu64 0x20(%rcx),%zmm5
	vmovdqu64 0x28(%rcx),%zmm6
	vmovdqu64 0x30(%rcx),%zmm7
	vmovdqu64 0x38(%rcx),%zmm8
	vmovdqu64 0x40(%rcx),%zmm9
	vmovdqu64 0x48(%rcx),%zmm10
	vmovdqu64 0x50(%rcx),%zmm11
	vmovdqu64 0x58(%rcx),%zmm12
	vmovdqu64 0x60(%rcx),%zmm13
	vmovdqu64 0x68(%rcx),%zmm14
	vmovdqu64 0x70(%rcx),%zmm15
	vmovdqu64 0x78(%rcx),%zmm16
	vmovdqa64 .L24_0.i7_v4(%rip),%zmm17
	xor %r8d,%r8d
	.byte 102,15,31,68,0,0
.L5_c0.i7_v4:
	prefetcht0 0x400(%rsi,%r8,1)
	prefetcht0 0x440(%rsi,%r8,1)
	prefetcht0 0x480(%rsi,%r8,1)
	prefetcht0 0x4c0(%rsi,%r8,1)
	vmovdqu64 (%rsi,%r8,1),%zmm18
	vmovdqu64 0x40(%rsi,%r8,1),%zmm19
	vmovdqu64 0x80(%rsi,%r8,1),%zmm20
	vmovdqu64 0xc0(%rsi,%r8,1),%zmm21
	vpxorq %zmm18,%zmm1,%zmm22
	vpsrlq $0x20,%zmm22,%zmm23
	vpmuludq %zmm23,%zmm22,%zmm22
	vpaddq %zmm17,%zmm22,%zmm17
	vpxorq %zmm19,%zmm2,%zmm22
	vpsrlq $0x20,%zmm22,%zmm23
	vpmuludq %zmm23,%zmm22,%zmm22
	vpxorq %zmm20,%zmm3,%zmm23
	vpsrlq $0x20,%zmm23,%zmm24
	vpmuludq %zmm24,%zmm23,%zmm23
	vpaddq %zmm23,%zmm22,%zmm22
	vpaddq %zmm22,%zmm17,%zmm17
	vpxorq %zmm21,%zmm4,%zmm22
	vpsrlq $0x20,%zmm22,%zmm23
	vpmuludq %zmm23,%zmm22,%zmm22
	vpaddq %zmm18,%zmm19,%zmm18
	vpaddq %zmm21,%zmm20,%zmm19
	vpaddq %zmm19,%zmm18,%zmm18
	vpshufd $0x4e,%zmm18,%zmm18
	vpaddq %zmm22,%zmm18,%zmm18
	prefetcht0 0x500(%rsi,%r8,1)
	prefetcht0 0x540(%rsi,%r8,1)
	prefetcht0 0x580(%rsi,%r8,1)
	prefetcht0 0x5c0(%rsi,%r8,1)
	vmovdqu64 0x100(%rsi,%r8,1),%zmm19
	vmovdqu64 0x140(%rsi,%r8,1),%zmm20
	vmovdqu64 0x180(%rsi,%r8,1),%zmm21
	vmovdqu64 0x1c0(%rsi,%r8,1),%zmm22
	vpxorq %zmm19,%zmm5,%zmm23
	vpsrlq $0x20,%zmm23,%zmm24
	vpmuludq %zmm24,%zmm23,%zmm23
	vpaddq %zmm18,%zmm23,%zmm18
	vpaddq %zmm17,%zmm18,%zmm17
	vpxorq %zmm20,%zmm6,%zmm18
	vpsrlq $0x20,%zmm18,%zmm23
	vpmuludq %zmm23,%zmm18,%zmm18
	vpxorq %zmm21,%zmm7,%zmm23
	vpsrlq $0x20,%zmm23,%zmm24
	vpmuludq %zmm24,%zmm23,%zmm23
	vpaddq %zmm23,%zmm18,%zmm18
	vpxorq %zmm22,%zmm8,%zmm23
	vpsrlq $0x20,%zmm23,%zmm24
	vpmuludq %zmm24,%zmm23,%zmm23
	vpaddq %zmm19,%zmm20,%zmm19
	vpaddq %zmm22,%zmm21,%zmm20
	vpaddq %zmm20,%zmm19,%zmm19
	vpshufd $0x4e,%zmm19,%zmm19
	vpaddq %zmm19,%zmm18,%zmm18
	vpaddq %zmm23,%zmm18,%zmm18
	vpaddq %zmm18,%zmm17,%zmm17
	prefetcht0 0x600(%rsi,%r8,1)
	prefetcht0 0x640(%rsi,%r8,1)
	prefetcht0 0x680(%rsi,%r8,1)
	prefetcht0 0x6c0(%rsi,%r8,1)
	vmovdqu64 0x200(%rsi,%r8,1),%zmm18
	vmovdqu64 0x240(%rsi,%r8,1),%zmm19
	vmovdqu64 0x280(%rsi,%r8,1),%zmm20
	vmovdqu64 0x2c0(%rsi,%r8,1),%zmm21
	vpxorq %zmm18,%zmm9,%zmm22
	vpsrlq $0x20,%zmm22,%zmm23
	vpmuludq %zmm23,%zmm22,%zmm22
	vpxorq %zmm19,%zmm10,%zmm23
	vpsrlq $0x20,%zmm23,%zmm24
	vpmuludq %zmm24,%zmm23,%zmm23
	vpaddq %zmm23,%zmm22,%zmm22
	vpxorq %zmm20,%zmm11,%zmm23
	vpsrlq $0x20,%zmm23,%zmm24
	vpmuludq %zmm24,%zmm23,%zmm23
	vpaddq %zmm23,%zmm22,%zmm22
	vpxorq %zmm21,%zmm12,%zmm23
	vpsrlq $0x20,%zmm23,%zmm24
	vpmuludq %zmm24,%zmm23,%zmm23
	vpaddq %zmm18,%zmm19,%zmm18
	vpaddq %zmm21,%zmm20,%zmm19
	vpaddq %zmm19,%zmm18,%zmm18
	vpshufd $0x4e,%zmm18,%zmm18
	vpaddq %zmm18,%zmm22,%zmm18
	vpaddq %zmm23,%zmm18,%zmm18
	vpaddq %zmm17,%zmm18,%zmm17
	prefetcht0 0x700(%rsi,%r8,1)
	prefetcht0 0x740(%rsi,%r8,1)
	prefetcht0 0x780(%rsi,%r8,1)
	vmovdqu64 0x300(%rsi,%r8,1),%zmm18
	vmovdqu64 0x340(%rsi,%r8,1),%zmm19
	vmovdqu64 0x380(%rsi,%r8,1),%zmm20
	vmovdqu64 0x3c0(%rsi,%r8,1),%zmm21
	prefetcht0 0x7c0(%rsi,%r8,1)
	vpxorq %zmm18,%zmm13,%zmm22
	vpsrlq $0x20,%zmm22,%zmm23
	vpmuludq %zmm23,%zmm22,%zmm22
	vpxorq %zmm19,%zmm14,%zmm23
	vpsrlq $0x20,%zmm23,%zmm24
	vpmuludq %zmm24,%zmm23,%zmm23
	vpaddq %zmm23,%zmm22,%zmm22
	vpxorq %zmm20,%zmm15,%zmm23
	vpsrlq $0x20,%zmm23,%zmm24
	vpmuludq %zmm24,%zmm23,%zmm23
	vpaddq %zmm23,%zmm22,%zmm22
	vpxorq %zmm21,%zmm16,%zmm23
	vpsrlq $0x20,%zmm23,%zmm24
	vpmuludq %zmm24,%zmm23,%zmm23
	vpaddq %zmm18,%zmm19,%zmm18
	vpaddq %zmm21,%zmm20,%zmm19
	vpaddq %zmm19,%zmm18,%zmm18
	vpshufd $0x4e,%zmm18,%zmm18
	vpaddq %zmm18,%zmm22,%zmm18
	vpaddq %zmm23,%zmm18,%zmm18
	vpaddq %zmm17,%zmm18,%zmm17
	vpsrlq $0x2f,%zmm17,%zmm18
	vpternlogq $0x96,%zmm0,%zmm17,%zmm18
	vpmullq .L27_0.i7_v4(%rip){1to8},%zmm18,%zmm17
	add $0x400,%r8
	.byte 102,15,31,68,0,0
	dec %rax
	jne .L5_c0.i7_v4
	vextracti64x4 $0x1,%zmm17,%ymm0
	jmp .L5_424.i7_v4
.L5_412.i7_v4:
	vmovdqa64 .L24_0.i7_v4(%rip),%zmm17
	vmovdqa .L26_40.i7_v4(%rip),%ymm0
.L5_424.i7_v4:
	mov %rdx,%r9
	shr $0x6,%r9
	mov %r9,%rax
	and $0xf,%rax
	je .L5_533.i7_v4
	and $0xfffffffffffffc00,%rdx
	.byte 144
	cmp $0x1,%eax
	jne .L5_44d.i7_v4
	xor %r8d,%r8d
	jmp .L5_4ec.i7_v4
.L5_44d.i7_v4:
	mov %r9d,%r10d
	and $0xe,%r10d
	lea (%rdx,%rsi,1),%r11
	add $0x180,%r11
	xor %r8d,%r8d
	.byte 102,102,102,102,102,46,15,31,132,0,0,0,0,0
.L5_470.i7_v4:
	prefetcht0 -0x40(%r11)
	vmovdqu64 -0x180(%r11),%zmm0
	vpshufd $0x4e,%zmm0,%zmm1
	vpaddq %zmm17,%zmm1,%zmm1
	vpxorq (%rcx,%r8,8),%zmm0,%zmm0
	vpsrlq $0x20,%zmm0,%zmm2
	vpmuludq %zmm2,%zmm0,%zmm0
	vmovdqu64 -0x140(%r11),%zmm2
	prefetcht0 (%r11)
	vpshufd $0x4e,%zmm2,%zmm3
	vpaddq %zmm1,%zmm3,%zmm1
	vpaddq %zmm0,%zmm1,%zmm0
	vpxorq 0x8(%rcx,%r8,8),%zmm2,%zmm1
	vpsrlq $0x20,%zmm1,%zmm2
	vpmuludq %zmm2,%zmm1,%zmm1
	vpaddq %zmm1,%zmm0,%zmm17
	add $0x2,%r8
	sub $0xffffffffffffff80,%r11
	cmp %r8,%r10
	jne .L5_470.i7_v4
	test $0x1,%r9b
	je .L5_52c.i7_v4
.L5_4ec.i7_v4:
	add %rdx,%rsi
	mov %r8,%rdx
	shl $0x6,%rdx
	prefetcht0 0x140(%rsi,%rdx,1)
	vmovdqu64 (%rsi,%rdx,1),%zmm0
	vpshufd $0x4e,%zmm0,%zmm1
	vpaddq %zmm17,%zmm1,%zmm1
	vpxorq (%rcx,%r8,8),%zmm0,%zmm0
	vpsrlq $0x20,%zmm0,%zmm2
	vpmuludq %zmm2,%zmm0,%zmm0
	vpaddq %zmm0,%zmm1,%zmm17
.L5_52c.i7_v4:
	vextracti64x4 $0x1,%zmm17,%ymm0
.L5_533.i7_v4:
	vmovdqu64 %ymm17,(%rdi)
	vmovdqu %ymm0,0x20(%rdi)
	mov %rax,0x40(%rdi)
	vzeroupper
	ret
	.cfi_endproc
	.size twox_core.xxhash3.stripes.start_widened.i7_v4,.-twox_core.xxhash3.stripes.start_widened.i7_v4
	.section .text.twox_core.xxhash3.stripes.take_many_stripes.i7_v4,"ax",@progbits
	.p2align 6
	.type twox_core.xxhash3.stripes.take_many_stripes.i7_v4,@function
twox_core.xxhash3.stripes.take_many_stripes.i7_v4:
	.cfi_startproc
	push %rbp
	.cfi_def_cfa_offset 16
	.cfi_offset 6, -16
	push %r15
	.cfi_def_cfa_offset 24
	.cfi_offset 15, -24
	push %r14
	.cfi_def_cfa_offset 32
	.cfi_offset 14, -32
	push %r13
	.cfi_def_cfa_offset 40
	.cfi_offset 13, -40
	push %r12
	.cfi_def_cfa_offset 48
	.cfi_offset 12, -48
	push %rbx
	.cfi_def_cfa_offset 56
	.cfi_offset 3, -56
	sub $0x218,%rsp
	.cfi_def_cfa_offset 592
	mov %r8,%r15
	mov %rcx,%rbx
	mov %rdx,%r14
	mov %rsi,%rdx
	vxorps %xmm0,%xmm0,%xmm0
	vmovups %ymm0,0x70(%rsp)
	vmovups %ymm0,0x50(%rsp)
	movq $0x0,0x90(%rsp)
	lea -0x40(%r8),%rax
	mov %rax,%rcx
	and $0xfffffffffffffff8,%rcx
	cmp $0x80,%rcx
	sete %cl
	cmp $0x400,%r14
	setae %sil
	.byte 15,31,128,0,0,0,0
	test %cl,%sil
	jne .L6_ef.i7_v4
	mov 0x40(%rdi),%rax
	mov %rax,0x1c0(%rsp)
	vmovups (%rdi),%ymm0
	vmovups 0x20(%rdi),%ymm1
	vmovups %ymm1,0x1a0(%rsp)
	vmovups %ymm0,0x180(%rsp)
	lea 0x50(%rsp),%rax
	lea 0x180(%rsp),%rsi
	mov %rdi,%r12
	mov %rax,%rdi
	mov %r14,%rcx
	mov %rbx,%r8
	mov %r15,%r9
	vzeroupper
	call twox_core.xxhash3.stripes.take_stripes.i7_v4
	mov 0x90(%rsp),%rax
	mov %rax,0x40(%r12)
	vmovdqu 0x50(%rsp),%ymm0
	vmovdqu 0x70(%rsp),%ymm1
	vmovdqu %ymm1,0x20(%r12)
	vmovdqu %ymm0,(%r12)
.L6_da.i7_v4:
	add $0x218,%rsp
	.cfi_def_cfa_offset 56
	pop %rbx
	.cfi_def_cfa_offset 48
	.cfi_restore 3
	pop %r12
	.cfi_def_cfa_offset 40
	.cfi_restore 12
	pop %r13
	.cfi_def_cfa_offset 32
	.cfi_restore 13
	pop %r14
	.cfi_def_cfa_offset 24
	.cfi_restore 14
	pop %r15
	.cfi_def_cfa_offset 16
	.cfi_restore 15
	pop %rbp
	.cfi_def_cfa_offset 8
	.cfi_restore 6
	vzeroupper
	ret
	.cfi_def_cfa_offset 592
	.cfi_offset 3, -56
	.cfi_offset 6, -16
	.cfi_offset 12, -48
	.cfi_offset 13, -40
	.cfi_offset 14, -32
	.cfi_offset 15, -24
.L6_ef.i7_v4:
	cmp $0xc0,%r15
	jne .L6_11a.i7_v4
	mov %rdx,%rsi
	mov %r14,%rdx
	mov %rbx,%rcx
	add $0x218,%rsp
	.cfi_def_cfa_offset 56
	pop %rbx
	.cfi_def_cfa_offset 48
	.cfi_restore 3
	pop %r12
	.cfi_def_cfa_offset 40
	.cfi_restore 12
	pop %r13
	.cfi_def_cfa_offset 32
	.cfi_restore 13
	pop %r14
	.cfi_def_cfa_offset 24
	.cfi_restore 14
	pop %r15
	.cfi_def_cfa_offset 16
	.cfi_restore 15
	pop %rbp
	.cfi_def_cfa_offset 8
	.cfi_restore 6
	vzeroupper
	jmp twox_core.xxhash3.stripes.take_widened.i7_v4
	.cfi_def_cfa_offset 592
	.cfi_offset 3, -56
	.cfi_offset 6, -16
	.cfi_offset 12, -48
	.cfi_offset 13, -40
	.cfi_offset 14, -32
	.cfi_offset 15, -24
.L6_11a.i7_v4:
	.byte 102,15,31,68,0,0
	cmp $0x7bff,%r14
	ja .L6_21d.i7_v4
	mov 0x40(%rdi),%rsi
	mov %esi,%ecx
	shl $0x6,%ecx
	lea (%rcx,%rcx,2),%ecx
	movzbl %cl,%r9d
	lea (%rdx,%r9,1),%r8
	sub %r9,%r14
	mov %r14d,%ecx
	and $0x7f00,%ecx
	vmovdqu (%rdi),%ymm1
	vmovdqu 0x20(%rdi),%ymm0
	test %r9d,%r9d
	je .L6_385.i7_v4
	shr $0x6,%r9d
	jmp .L6_17d.i7_v4
	.byte 102,102,46,15,31,132,0,0,0,0,0
.L6_170.i7_v4:
	add $0x40,%rdx
	dec %r9
	je .L6_385.i7_v4
.L6_17d.i7_v4:
	prefetcht0 0x140(%rdx)
	vmovdqu (%rdx),%ymm2
	vmovdqu 0x20(%rdx),%ymm3
	vpshufd $0x4e,%ymm2,%ymm4
	vpaddq %ymm4,%ymm1,%ymm1
	vpxor (%rbx,%rsi,8),%ymm2,%ymm2
	vpsrlq $0x20,%ymm2,%ymm4
	vpmuludq %ymm4,%ymm2,%ymm2
	vpaddq %ymm2,%ymm1,%ymm1
	vpshufd $0x4e,%ymm3,%ymm2
	vpaddq %ymm0,%ymm2,%ymm0
	vpxor 0x20(%rbx,%rsi,8),%ymm3,%ymm2
	vpsrlq $0x20,%ymm2,%ymm3
	vpmuludq %ymm3,%ymm2,%ymm2
	vpaddq %ymm2,%ymm0,%ymm0
	inc %rsi
	cmp $0x10,%rsi
	jne .L6_170.i7_v4
	vpsrlq $0x2f,%ymm1,%ymm2
	vpxor (%rbx,%rax,1),%ymm2,%ymm2
	vpxor %ymm1,%ymm2,%ymm1
	vpbroadcastq .L27_8.i7_v4(%rip),%ymm2
	vpmulld %ymm2,%ymm1,%ymm3
	vpsrlq $0x2f,%ymm0,%ymm4
	vpxor 0x20(%rbx,%rax,1),%ymm4,%ymm4
	vpxor %ymm0,%ymm4,%ymm0
	vpmulld %ymm2,%ymm0,%ymm2
	vpbroadcastq .L27_10.i7_v4(%rip),%ymm4
	vpmuludq %ymm4,%ymm1,%ymm1
	vpaddq %ymm3,%ymm1,%ymm1
	vpmuludq %ymm4,%ymm0,%ymm0
	vpaddq %ymm2,%ymm0,%ymm0
	xor %esi,%esi
	jmp .L6_170.i7_v4
.L6_21d.i7_v4:
	mov 0x40(%rdi),%rcx
	vmovups (%rdi),%ymm0
	vmovups 0x20(%rdi),%ymm1
	vmovups %ymm1,0x20(%rsp)
	vmovups %ymm0,(%rsp)
	mov %rcx,0x40(%rsp)
	neg %ecx
	and $0xf,%ecx
	shl $0x6,%ecx
	lea (%rdx,%rcx,1),%r13
	vxorps %xmm0,%xmm0,%xmm0
	vmovups %ymm0,0x130(%rsp)
	sub %rcx,%r14
	vmovups %ymm0,0x150(%rsp)
	movq $0x0,0x170(%rsp)
	lea 0x130(%rsp),%rax
	mov %rsp,%rsi
	mov %rdi,%rbp
	mov %rax,%rdi
	mov %rbx,%r8
	mov %r15,%r9
	vzeroupper
	call twox_core.xxhash3.stripes.take_stripes.i7_v4
	mov %r14,%rcx
	and $0xfffffffffffffc00,%rcx
	lea (%rcx,%r13,1),%r12
	and $0x3ff,%r14d
	vxorps %xmm0,%xmm0,%xmm0
	vmovups %ymm0,0xf0(%rsp)
	vmovups %ymm0,0x110(%rsp)
	lea 0xf0(%rsp),%rdi
	lea 0x130(%rsp),%rsi
	mov %r13,%rdx
	mov %rbx,%r8
	mov %r15,%r9
	vzeroupper
	call twox_core.xxhash3.stripes.blocks.take_many_blocks.i7_v4
	vmovups 0xf0(%rsp),%ymm0
	vmovups 0x110(%rsp),%ymm1
	vmovups %ymm1,0x20(%rsp)
	vmovups %ymm0,(%rsp)
	vxorps %xmm0,%xmm0,%xmm0
	vmovups %ymm0,0xa0(%rsp)
	movq $0x0,0x40(%rsp)
	vmovups %ymm0,0xc0(%rsp)
	movq $0x0,0xe0(%rsp)
	lea 0xa0(%rsp),%rdi
	mov %rsp,%rsi
	mov %r12,%rdx
	mov %r14,%rcx
	mov %rbx,%r8
	mov %r15,%r9
	vzeroupper
	call twox_core.xxhash3.stripes.take_stripes.i7_v4
	mov 0xe0(%rsp),%rax
	mov %rax,0x210(%rsp)
	vmovdqu 0xc0(%rsp),%ymm0
	vmovdqu %ymm0,0x1f0(%rsp)
	vmovdqu 0xa0(%rsp),%ymm1
	vmovdqu %ymm1,0x1d0(%rsp)
	mov %rax,0x40(%rbp)
	vmovdqu %ymm0,0x20(%rbp)
	vmovdqu %ymm1,0x0(%rbp)
	.byte 144
	jmp .L6_da.i7_v4
.L6_385.i7_v4:
	add %r8,%rcx
	mov %r14,%rdx
	shr $0x8,%rdx
	jmp .L6_3b0.i7_v4
	.byte 102,102,102,102,102,102,46,15,31,132,0,0,0,0,0
.L6_3a0.i7_v4:
	add $0x100,%r8
	dec %rdx
	je .L6_52e.i7_v4
.L6_3b0.i7_v4:
	prefetcht0 0x400(%r8)
	prefetcht0 0x440(%r8)
	prefetcht0 0x480(%r8)
	prefetcht0 0x4c0(%r8)
	vmovdqu (%r8),%ymm4
	vmovdqu 0x20(%r8),%ymm2
	vmovdqu 0x40(%r8),%ymm5
	vmovdqu 0x60(%r8),%ymm3
	vpxor (%rbx,%rsi,8),%ymm4,%ymm6
	vpsrlq $0x20,%ymm6,%ymm7
	vpmuludq %ymm7,%ymm6,%ymm6
	vpaddq %ymm1,%ymm6,%ymm1
	vpxor 0x8(%rbx,%rsi,8),%ymm5,%ymm6
	vpsrlq $0x20,%ymm6,%ymm7
	vpmuludq %ymm7,%ymm6,%ymm6
	vmovdqu 0x80(%r8),%ymm7
	vpxor 0x10(%rbx,%rsi,8),%ymm7,%ymm8
	vpsrlq $0x20,%ymm8,%ymm9
	vpmuludq %ymm9,%ymm8,%ymm8
	vpaddq %ymm6,%ymm8,%ymm6
	vpaddq %ymm6,%ymm1,%ymm1
	vmovdqu 0xc0(%r8),%ymm6
	vpxor 0x18(%rbx,%rsi,8),%ymm6,%ymm8
	vpsrlq $0x20,%ymm8,%ymm9
	vpmuludq %ymm9,%ymm8,%ymm8
	vpaddq %ymm4,%ymm5,%ymm4
	vpaddq %ymm6,%ymm7,%ymm5
	vpaddq %ymm5,%ymm4,%ymm4
	vpshufd $0x4e,%ymm4,%ymm4
	vpaddq %ymm4,%ymm8,%ymm4
	vpxor 0x20(%rbx,%rsi,8),%ymm2,%ymm5
	vpaddq %ymm4,%ymm1,%ymm1
	vpsrlq $0x20,%ymm5,%ymm4
	vpmuludq %ymm4,%ymm5,%ymm4
	vpaddq %ymm0,%ymm4,%ymm0
	vpxor 0x28(%rbx,%rsi,8),%ymm3,%ymm4
	vpsrlq $0x20,%ymm4,%ymm5
	vpmuludq %ymm5,%ymm4,%ymm4
	vmovdqu 0xa0(%r8),%ymm5
	vpxor 0x30(%rbx,%rsi,8),%ymm5,%ymm6
	vpsrlq $0x20,%ymm6,%ymm7
	vpmuludq %ymm7,%ymm6,%ymm6
	vpaddq %ymm6,%ymm4,%ymm4
	vpaddq %ymm4,%ymm0,%ymm0
	vmovdqu 0xe0(%r8),%ymm4
	vpxor 0x38(%rbx,%rsi,8),%ymm4,%ymm6
	vpsrlq $0x20,%ymm6,%ymm7
	vpmuludq %ymm7,%ymm6,%ymm6
	vpaddq %ymm2,%ymm3,%ymm2
	vpaddq %ymm4,%ymm5,%ymm3
	vpaddq %ymm3,%ymm2,%ymm2
	vpshufd $0x4e,%ymm2,%ymm2
	vpaddq %ymm6,%ymm2,%ymm2
	vpaddq %ymm2,%ymm0,%ymm0
	add $0x4,%rsi
	cmp $0x10,%rsi
	jne .L6_3a0.i7_v4
	vpsrlq $0x2f,%ymm1,%ymm2
	vpxor (%rbx,%rax,1),%ymm2,%ymm2
	vpxor %ymm1,%ymm2,%ymm1
	vpbroadcastq .L27_8.i7_v4(%rip),%ymm2
	vpmulld %ymm2,%ymm1,%ymm3
	vpsrlq $0x2f,%ymm0,%ymm4
	vpxor 0x20(%rbx,%rax,1),%ymm4,%ymm4
	vpxor %ymm0,%ymm4,%ymm0
	vpbroadcastq .L27_10.i7_v4(%rip),%ymm4
	vpmuludq %ymm4,%ymm1,%ymm1
	vpmulld %ymm2,%ymm0,%ymm2
	vpaddq %ymm3,%ymm1,%ymm1
	vpmuludq %ymm4,%ymm0,%ymm0
	vpaddq %ymm2,%ymm0,%ymm0
	xor %esi,%esi
	jmp .L6_3a0.i7_v4
.L6_52e.i7_v4:
	shr $0x6,%r14d
	and $0x3,%r14d
	je .L6_732.i7_v4
	prefetcht0 0x140(%rcx)
	vmovdqu (%rcx),%ymm2
	vmovdqu 0x20(%rcx),%ymm3
	vpshufd $0x4e,%ymm2,%ymm4
	vpxor (%rbx,%rsi,8),%ymm2,%ymm2
	vpsrlq $0x20,%ymm2,%ymm5
	vpmuludq %ymm5,%ymm2,%ymm2
	vpaddq %ymm2,%ymm4,%ymm2
	vpaddq %ymm2,%ymm1,%ymm1
	vpshufd $0x4e,%ymm3,%ymm2
	vpxor 0x20(%rbx,%rsi,8),%ymm3,%ymm3
	vpsrlq $0x20,%ymm3,%ymm4
	vpmuludq %ymm4,%ymm3,%ymm3
	vpaddq %ymm3,%ymm2,%ymm2
	vpaddq %ymm0,%ymm2,%ymm0
	inc %rsi
	cmp $0x10,%rsi
	jne .L6_5d7.i7_v4
	vpsrlq $0x2f,%ymm1,%ymm2
	vpxor (%rbx,%rax,1),%ymm2,%ymm2
	vpxor %ymm1,%ymm2,%ymm1
	vpbroadcastq .L27_8.i7_v4(%rip),%ymm2
	vpmulld %ymm2,%ymm1,%ymm3
	vpsrlq $0x2f,%ymm0,%ymm4
	vpxor 0x20(%rbx,%rax,1),%ymm4,%ymm4
	vpxor %ymm0,%ymm4,%ymm0
	vpbroadcastq .L27_10.i7_v4(%rip),%ymm4
	vpmuludq %ymm4,%ymm1,%ymm1
	vpmulld %ymm2,%ymm0,%ymm2
	vpaddq %ymm3,%ymm1,%ymm1
	vpmuludq %ymm4,%ymm0,%ymm0
	vpaddq %ymm2,%ymm0,%ymm0
	xor %esi,%esi
.L6_5d7.i7_v4:
	.byte 102,15,31,132,0,0,0,0,0
	cmp $0x1,%r14d
	je .L6_732.i7_v4
	prefetcht0 0x180(%rcx)
	vmovdqu 0x40(%rcx),%ymm2
	vmovdqu 0x60(%rcx),%ymm3
	vpshufd $0x4e,%ymm2,%ymm4
	vpxor (%rbx,%rsi,8),%ymm2,%ymm2
	vpsrlq $0x20,%ymm2,%ymm5
	vpmuludq %ymm5,%ymm2,%ymm2
	vpaddq %ymm2,%ymm4,%ymm2
	vpaddq %ymm2,%ymm1,%ymm1
	vpshufd $0x4e,%ymm3,%ymm2
	vpxor 0x20(%rbx,%rsi,8),%ymm3,%ymm3
	vpsrlq $0x20,%ymm3,%ymm4
	vpmuludq %ymm4,%ymm3,%ymm3
	vpaddq %ymm3,%ymm2,%ymm2
	vpaddq %ymm0,%ymm2,%ymm0
	inc %rsi
	cmp $0x10,%rsi
	jne .L6_686.i7_v4
	vpsrlq $0x2f,%ymm1,%ymm2
	vpxor (%rbx,%rax,1),%ymm2,%ymm2
	vpxor %ymm1,%ymm2,%ymm1
	vpbroadcastq .L27_8.i7_v4(%rip),%ymm2
	vpmulld %ymm2,%ymm1,%ymm3
	vpsrlq $0x2f,%ymm0,%ymm4
	vpxor 0x20(%rbx,%rax,1),%ymm4,%ymm4
	vpxor %ymm0,%ymm4,%ymm0
	vpbroadcastq .L27_10.i7_v4(%rip),%ymm4
	vpmuludq %ymm4,%ymm1,%ymm1
	vpmulld %ymm2,%ymm0,%ymm2
	vpaddq %ymm3,%ymm1,%ymm1
	vpmuludq %ymm4,%ymm0,%ymm0
	vpaddq %ymm2,%ymm0,%ymm0
	xor %esi,%esi
.L6_686.i7_v4:
	cmp $0x2,%r14d
	je .L6_732.i7_v4
	prefetcht0 0x1c0(%rcx)
	vmovdqu 0x80(%rcx),%ymm2
	vmovdqu 0xa0(%rcx),%ymm3
	vpshufd $0x4e,%ymm2,%ymm4
	vpxor (%rbx,%rsi,8),%ymm2,%ymm2
	vpsrlq $0x20,%ymm2,%ymm5
	vpmuludq %ymm5,%ymm2,%ymm2
	vpaddq %ymm2,%ymm4,%ymm2
	vpaddq %ymm2,%ymm1,%ymm1
	vpshufd $0x4e,%ymm3,%ymm2
	vpxor 0x20(%rbx,%rsi,8),%ymm3,%ymm3
	vpsrlq $0x20,%ymm3,%ymm4
	vpmuludq %ymm4,%ymm3,%ymm3
	vpaddq %ymm3,%ymm2,%ymm2
	vpaddq %ymm0,%ymm2,%ymm0
	inc %rsi
	cmp $0x10,%rsi
	jne .L6_732.i7_v4
	vpsrlq $0x2f,%ymm1,%ymm2
	vpxor (%rbx,%rax,1),%ymm2,%ymm2
	vpxor %ymm1,%ymm2,%ymm1
	vpbroadcastq .L27_8.i7_v4(%rip),%ymm2
	vpmulld %ymm2,%ymm1,%ymm3
	vpsrlq $0x2f,%ymm0,%ymm4
	vpxor 0x20(%rbx,%rax,1),%ymm4,%ymm4
	vpxor %ymm0,%ymm4,%ymm0
	vpbroadcastq .L27_10.i7_v4(%rip),%ymm4
	vpmuludq %ymm4,%ymm1,%ymm1
	vpmulld %ymm2,%ymm0,%ymm2
	vpaddq %ymm3,%ymm1,%ymm1
	vpmuludq %ymm4,%ymm0,%ymm0
	vpaddq %ymm2,%ymm0,%ymm0
	xor %esi,%esi
.L6_732.i7_v4:
	vmovdqu %ymm1,(%rdi)
	vmovdqu %ymm0,0x20(%rdi)
	mov %rsi,0x40(%rdi)
	.byte 144
	jmp .L6_da.i7_v4
	.cfi_endproc
	.size twox_core.xxhash3.stripes.take_many_stripes.i7_v4,.-twox_core.xxhash3.stripes.take_many_stripes.i7_v4
	.section .text.twox_core.xxhash3.stripes.take_stripes.i7_v4,"ax",@progbits
	.p2align 6
	.type twox_core.xxhash3.stripes.take_stripes.i7_v4,@function
twox_core.xxhash3.stripes.take_stripes.i7_v4:
	.cfi_startproc
	vmovdqu (%rsi),%ymm1
	vmovdqu 0x20(%rsi),%ymm0
	mov 0x40(%rsi),%rsi
	shr $0x6,%rcx
	je .L7_e5.i7_v4
	add $0xffffffffffffffc0,%r9
	mov %r9,%rax
	shr $0x3,%rax
	jmp .L7_3d.i7_v4
	.byte 102,102,102,46,15,31,132,0,0,0,0,0
.L7_30.i7_v4:
	add $0x40,%rdx
	dec %rcx
	je .L7_e5.i7_v4
.L7_3d.i7_v4:
	prefetcht0 0x140(%rdx)
	vmovdqu (%rdx),%ymm2
	vmovdqu 0x20(%rdx),%ymm3
	vpshufd $0x4e,%ymm2,%ymm4
	vpaddq %ymm1,%ymm4,%ymm1
	vpxor (%r8,%rsi,8),%ymm2,%ymm2
	vpsrlq $0x20,%ymm2,%ymm4
	vpmuludq %ymm4,%ymm2,%ymm2
	vpaddq %ymm2,%ymm1,%ymm1
	vpshufd $0x4e,%ymm3,%ymm2
	vpaddq %ymm0,%ymm2,%ymm0
	vpxor 0x20(%r8,%rsi,8),%ymm3,%ymm2
	vpsrlq $0x20,%ymm2,%ymm3
	vpmuludq %ymm3,%ymm2,%ymm2
	vpaddq %ymm2,%ymm0,%ymm0
	inc %rsi
	cmp %rax,%rsi
	jne .L7_30.i7_v4
	vpsrlq $0x2f,%ymm1,%ymm2
	vpxor (%r8,%r9,1),%ymm2,%ymm2
	vpxor %ymm1,%ymm2,%ymm1
	vpbroadcastq .L27_18.i7_v4(%rip),%ymm2
	vpmulld %ymm2,%ymm1,%ymm3
	vpsrlq $0x2f,%ymm0,%ymm4
	vpxor 0x20(%r8,%r9,1),%ymm4,%ymm4
	vpxor %ymm0,%ymm4,%ymm0
	vpbroadcastq .L27_20.i7_v4(%rip),%ymm4
	vpmuludq %ymm4,%ymm1,%ymm1
	vpmulld %ymm2,%ymm0,%ymm2
	vpaddq %ymm3,%ymm1,%ymm1
	vpmuludq %ymm4,%ymm0,%ymm0
	vpaddq %ymm2,%ymm0,%ymm0
	xor %esi,%esi
	.byte 15,31,68,0,0
	jmp .L7_30.i7_v4
.L7_e5.i7_v4:
	vmovdqu %ymm1,(%rdi)
	vmovdqu %ymm0,0x20(%rdi)
	mov %rsi,0x40(%rdi)
	vzeroupper
	ret
	.cfi_endproc
	.size twox_core.xxhash3.stripes.take_stripes.i7_v4,.-twox_core.xxhash3.stripes.take_stripes.i7_v4
	.section .text.twox_core.xxhash3.stripes.take_widened.i7_v4,"ax",@progbits
	.p2align 6
	.type twox_core.xxhash3.stripes.take_widened.i7_v4,@function
twox_core.xxhash3.stripes.take_widened.i7_v4:
	.cfi_startproc
	push %r15
	.cfi_def_cfa_offset 16
	.cfi_offset 15, -16
	push %r14
	.cfi_def_cfa_offset 24
	.cfi_offset 14, -24
	push %rbx
	.cfi_def_cfa_offset 32
	.cfi_offset 3, -32
	vmovdqu64 (%rdi),%zmm0
	mov 0x40(%rdi),%r9
	mov %r9d,%eax
	neg %eax
	and $0xf,%eax
	shl $0x6,%eax
	mov %eax,%r10d
	shr $0x6,%r10d
	lea (%r10,%r9,1),%r8
	test %eax,%eax
	je .L8_36.i7_v4
	cmp $0x40,%eax
	jne .L8_4f.i7_v4
	xor %r11d,%r11d
	jmp .L8_ec.i7_v4
.L8_36.i7_v4:
	vmovdqu 0x20(%rdi),%ymm1
	sub %rax,%rdx
	.byte 102,144
	cmp $0x10,%r8
	jae .L8_13d.i7_v4
	jmp .L8_164.i7_v4
.L8_4f.i7_v4:
	mov %r10d,%ebx
	and $0xfffffffe,%ebx
	lea 0x180(%rsi),%r14
	lea (%rcx,%r9,8),%r15
	add $0x8,%r15
	xor %r11d,%r11d
	.byte 102,15,31,132,0,0,0,0,0
.L8_70.i7_v4:
	prefetcht0 -0x40(%r14)
	vmovdqu64 -0x180(%r14),%zmm1
	vpshufd $0x4e,%zmm1,%zmm2
	vpaddq %zmm0,%zmm2,%zmm0
	vpxorq -0x8(%r15,%r11,8),%zmm1,%zmm1
	vpsrlq $0x20,%zmm1,%zmm2
	vpmuludq %zmm2,%zmm1,%zmm1
	vmovdqu64 -0x140(%r14),%zmm2
	prefetcht0 (%r14)
	vpshufd $0x4e,%zmm2,%zmm3
	vpaddq %zmm0,%zmm3,%zmm0
	vpaddq %zmm1,%zmm0,%zmm0
	vpxorq (%r15,%r11,8),%zmm2,%zmm1
	vpsrlq $0x20,%zmm1,%zmm2
	vpmuludq %zmm2,%zmm1,%zmm1
	vpaddq %zmm1,%zmm0,%zmm0
	add $0x2,%r11
	sub $0xffffffffffffff80,%r14
	cmp %r11,%rbx
	jne .L8_70.i7_v4
	test $0x1,%r10b
	je .L8_12d.i7_v4
.L8_ec.i7_v4:
	mov %r11,%r10
	shl $0x6,%r10
	add %r11,%r9
	prefetcht0 0x140(%rsi,%r10,1)
	vmovdqu64 (%rsi,%r10,1),%zmm1
	vpshufd $0x4e,%zmm1,%zmm2
	vpaddq %zmm0,%zmm2,%zmm0
	vpxorq (%rcx,%r9,8),%zmm1,%zmm1
	vpsrlq $0x20,%zmm1,%zmm2
	vpmuludq %zmm2,%zmm1,%zmm1
	vpaddq %zmm1,%zmm0,%zmm0
.L8_12d.i7_v4:
	vextracti64x4 $0x1,%zmm0,%ymm1
	sub %rax,%rdx
	cmp $0x10,%r8
	jb .L8_164.i7_v4
.L8_13d.i7_v4:
	vinserti64x4 $0x1,%ymm1,%zmm0,%zmm0
	vpsrlq $0x2f,%zmm0,%zmm1
	vpternlogq $0x96,0x80(%rcx),%zmm0,%zmm1
	vpmullq .L27_28.i7_v4(%rip){1to8},%zmm1,%zmm0
	vextracti64x4 $0x1,%zmm0,%ymm1
.L8_164.i7_v4:
	mov %rdx,%r8
	shr $0xa,%r8
	vinserti64x4 $0x1,%ymm1,%zmm0,%zmm17
	je .L8_587.i7_v4
	vmovdqu64 0x80(%rcx),%zmm0
	vmovdqu64 (%rcx),%zmm1
	vmovdqu64 0x8(%rcx),%zmm2
	vmovdqu64 0x10(%rcx),%zmm3
	vmovdqu64 0x18(%rcx),%zmm4
	vmovdqu64 0x20(%rcx),%zmm5
	vmovdqu64 0x28(%rcx),%zmm6
	vmovdqu64 0x30(%rcx),%zmm7
	vmovdqu64 0x38(%rcx),%zmm8
	vmovdqu64 0x40(%rcx),%zmm9
	vmovdqu64 0x48(%rcx),%zmm10
	vmovdqu64 0x50(%rcx),%zmm11
	vmovdqu64 0x58(%rcx),%zmm12
	vmovdqu64 0x60(%rcx),%zmm13
	vmovdqu64 0x68(%rcx),%zmm14
	vmovdqu64 0x70(%rcx),%zmm15
	vmovdqu64 0x78(%rcx),%zmm16
	lea 0x3c0(%rsi),%r9
	mov %rsi,%r10
	.byte 102,102,102,102,102,46,15,31,132,0,0,0,0,0
.L8_230.i7_v4:
	prefetcht0 0x400(%rax,%r10,1)
	prefetcht0 0x440(%rax,%r10,1)
	prefetcht0 0x480(%rax,%r10,1)
	vmovdqu64 -0x3c0(%r9,%rax,1),%zmm18
	vmovdqu64 -0x380(%r9,%rax,1),%zmm19
	vmovdqu64 -0x340(%r9,%rax,1),%zmm20
	prefetcht0 0x4c0(%rax,%r10,1)
	vmovdqu64 -0x300(%r9,%rax,1),%zmm21
	vpxorq %zmm18,%zmm1,%zmm22
	vpsrlq $0x20,%zmm22,%zmm23
	vpmuludq %zmm23,%zmm22,%zmm22
	vpaddq %zmm17,%zmm22,%zmm17
	vpxorq %zmm19,%zmm2,%zmm22
	vpsrlq $0x20,%zmm22,%zmm23
	vpmuludq %zmm23,%zmm22,%zmm22
	vpxorq %zmm20,%zmm3,%zmm23
	vpsrlq $0x20,%zmm23,%zmm24
	vpmuludq %zmm24,%zmm23,%zmm23
	vpaddq %zmm23,%zmm22,%zmm22
	vpaddq %zmm22,%zmm17,%zmm17
	vpxorq %zmm21,%zmm4,%zmm22
	vpsrlq $0x20,%zmm22,%zmm23
	vpmuludq %zmm23,%zmm22,%zmm22
	vpaddq %zmm18,%zmm19,%zmm18
	vpaddq %zmm21,%zmm20,%zmm19
	vpaddq %zmm19,%zmm18,%zmm18
	vpshufd $0x4e,%zmm18,%zmm18
	vpaddq %zmm22,%zmm18,%zmm18
	prefetcht0 0x500(%rax,%r10,1)
	prefetcht0 0x540(%rax,%r10,1)
	prefetcht0 0x580(%rax,%r10,1)
	vmovdqu64 -0x2c0(%r9,%rax,1),%zmm19
	vmovdqu64 -0x280(%r9,%rax,1),%zmm20
	prefetcht0 0x5c0(%rax,%r10,1)
	vmovdqu64 -0x240(%r9,%rax,1),%zmm21
	vmovdqu64 -0x200(%r9,%rax,1),%zmm22
	vpxorq %zmm19,%zmm5,%zmm23
	vpsrlq $0x20,%zmm23,%zmm24
	vpmuludq %zmm24,%zmm23,%zmm23
	vpaddq %zmm18,%zmm23,%zmm18
	vpaddq %zmm17,%zmm18,%zmm17
	vpxorq %zmm20,%zmm6,%zmm18
	vpsrlq $0x20,%zmm18,%zmm23
	vpmuludq %zmm23,%zmm18,%zmm18
	vpxorq %zmm21,%zmm7,%zmm23
	vpsrlq $0x20,%zmm23,%zmm24
	vpmuludq %zmm24,%zmm23,%zmm23
	vpaddq %zmm23,%zmm18,%zmm18
	vpxorq %zmm22,%zmm8,%zmm23
	vpsrlq $0x20,%zmm23,%zmm24
	vpmuludq %zmm24,%zmm23,%zmm23
	vpaddq %zmm19,%zmm20,%zmm19
	vpaddq %zmm22,%zmm21,%zmm20
	vpaddq %zmm20,%zmm19,%zmm19
	vpshufd $0x4e,%zmm19,%zmm19
	vpaddq %zmm19,%zmm18,%zmm18
	vpaddq %zmm23,%zmm18,%zmm18
	vpaddq %zmm18,%zmm17,%zmm17
	prefetcht0 0x600(%rax,%r10,1)
	prefetcht0 0x640(%rax,%r10,1)
	prefetcht0 0x680(%rax,%r10,1)
	vmovdqu64 -0x1c0(%r9,%rax,1),%zmm18
	vmovdqu64 -0x180(%r9,%rax,1),%zmm19
	vmovdqu64 -0x140(%r9,%rax,1),%zmm20
	prefetcht0 0x6c0(%rax,%r10,1)
	vmovdqu64 -0x100(%r9,%rax,1),%zmm21
	vpxorq %zmm18,%zmm9,%zmm22
	vpsrlq $0x20,%zmm22,%zmm23
	vpmuludq %zmm23,%zmm22,%zmm22
	vpxorq %zmm19,%zmm10,%zmm23
	vpsrlq $0x20,%zmm23,%zmm24
	vpmuludq %zmm24,%zmm23,%zmm23
	vpaddq %zmm23,%zmm22,%zmm22
	vpxorq %zmm20,%zmm11,%zmm23
	vpsrlq $0x20,%zmm23,%zmm24
	vpmuludq %zmm24,%zmm23,%zmm23
	vpaddq %zmm23,%zmm22,%zmm22
	vpxorq %zmm21,%zmm12,%zmm23
	vpsrlq $0x20,%zmm23,%zmm24
	vpmuludq %zmm24,%zmm23,%zmm23
	vpaddq %zmm18,%zmm19,%zmm18
	vpaddq %zmm21,%zmm20,%zmm19
	vpaddq %zmm19,%zmm18,%zmm18
	vpshufd $0x4e,%zmm18,%zmm18
	vpaddq %zmm18,%zmm22,%zmm18
	vpaddq %zmm23,%zmm18,%zmm18
	vpaddq %zmm17,%zmm18,%zmm17
	vmovdqu64 -0xc0(%r9,%rax,1),%zmm18
	vmovdqu64 -0x80(%r9,%rax,1),%zmm19
	vmovdqu64 -0x40(%r9,%rax,1),%zmm20
	prefetcht0 0x700(%rax,%r10,1)
	vmovdqu64 (%r9,%rax,1),%zmm21
	vpxorq %zmm18,%zmm13,%zmm22
	vpsrlq $0x20,%zmm22,%zmm23
	vpmuludq %zmm23,%zmm22,%zmm22
	vpxorq %zmm19,%zmm14,%zmm23
	vpsrlq $0x20,%zmm23,%zmm24
	vpmuludq %zmm24,%zmm23,%zmm23
	vpaddq %zmm23,%zmm22,%zmm22
	vpxorq %zmm20,%zmm15,%zmm23
	vpsrlq $0x20,%zmm23,%zmm24
	vpmuludq %zmm24,%zmm23,%zmm23
	vpaddq %zmm23,%zmm22,%zmm22
	vpxorq %zmm21,%zmm16,%zmm23
	vpsrlq $0x20,%zmm23,%zmm24
	vpmuludq %zmm24,%zmm23,%zmm23
	vpaddq %zmm18,%zmm19,%zmm18
	vpaddq %zmm21,%zmm20,%zmm19
	vpaddq %zmm19,%zmm18,%zmm18
	vpshufd $0x4e,%zmm18,%zmm18
	vpaddq %zmm18,%zmm22,%zmm18
	vpaddq %zmm23,%zmm18,%zmm18
	vpaddq %zmm17,%zmm18,%zmm17
	vpsrlq $0x2f,%zmm17,%zmm18
	vpternlogq $0x96,%zmm0,%zmm17,%zmm18
	vpmullq .L27_28.i7_v4(%rip){1to8},%zmm18,%zmm17
	prefetcht0 0x740(%rax,%r10,1)
	prefetcht0 0x780(%rax,%r10,1)
	prefetcht0 0x7c0(%rax,%r10,1)
	add $0x400,%r9
	add $0x400,%r10
	dec %r8
	jne .L8_230.i7_v4
	vextracti64x4 $0x1,%zmm17,%ymm1
	vmovdqa64 %ymm17,%ymm0
.L8_587.i7_v4:
	mov %rdx,%r10
	shr $0x6,%r10
	mov %r10,%r8
	and $0xf,%r8
	je .L8_6a4.i7_v4
	and $0xfffffffffffffc00,%rdx
	cmp $0x1,%r8d
	jne .L8_5b0.i7_v4
	xor %r9d,%r9d
	jmp .L8_65a.i7_v4
.L8_5b0.i7_v4:
	mov %r10d,%r11d
	and $0xe,%r11d
	lea (%rdx,%rax,1),%r9
	lea (%rsi,%r9,1),%rbx
	add $0x180,%rbx
	xor %r9d,%r9d
	.byte 15,31,128,0,0,0,0
.L8_5d0.i7_v4:
	prefetcht0 -0x40(%rbx)
	vmovdqu64 -0x180(%rbx),%zmm0
	vpshufd $0x4e,%zmm0,%zmm1
	vpaddq %zmm17,%zmm1,%zmm1
	vpxorq (%rcx,%r9,8),%zmm0,%zmm0
	vpsrlq $0x20,%zmm0,%zmm2
	vpmuludq %zmm2,%zmm0,%zmm0
	vmovdqu64 -0x140(%rbx),%zmm2
	prefetcht0 (%rbx)
	vpshufd $0x4e,%zmm2,%zmm3
	vpaddq %zmm1,%zmm3,%zmm1
	vpaddq %zmm0,%zmm1,%zmm0
	vpxorq 0x8(%rcx,%r9,8),%zmm2,%zmm1
	vpsrlq $0x20,%zmm1,%zmm2
	vpmuludq %zmm2,%zmm1,%zmm1
	vpaddq %zmm1,%zmm0,%zmm17
	add $0x2,%r9
	sub $0xffffffffffffff80,%rbx
	.byte 144
	cmp %r9,%r11
	jne .L8_5d0.i7_v4
	test $0x1,%r10b
	jne .L8_65a.i7_v4
	vextracti64x4 $0x1,%zmm17,%ymm1
	vmovdqa64 %ymm17,%ymm0
	jmp .L8_6a4.i7_v4
.L8_65a.i7_v4:
	add %rax,%rsi
	add %rdx,%rsi
	mov %r9,%rax
	shl $0x6,%rax
	prefetcht0 0x140(%rsi,%rax,1)
	vmovdqu64 (%rsi,%rax,1),%zmm0
	vpshufd $0x4e,%zmm0,%zmm1
	vpaddq %zmm17,%zmm1,%zmm1
	vpxorq (%rcx,%r9,8),%zmm0,%zmm0
	vpsrlq $0x20,%zmm0,%zmm2
	vpmuludq %zmm2,%zmm0,%zmm0
	vpaddq %zmm0,%zmm1,%zmm0
	vextracti64x4 $0x1,%zmm0,%ymm1
.L8_6a4.i7_v4:
	vmovdqu %ymm0,(%rdi)
	vmovdqu %ymm1,0x20(%rdi)
	mov %r8,0x40(%rdi)
	pop %rbx
	.cfi_def_cfa_offset 24
	.cfi_restore 3
	pop %r14
	.cfi_def_cfa_offset 16
	.cfi_restore 14
	pop %r15
	.cfi_def_cfa_offset 8
	.cfi_restore 15
	vzeroupper
	ret
	.cfi_endproc
	.size twox_core.xxhash3.stripes.take_widened.i7_v4,.-twox_core.xxhash3.stripes.take_widened.i7_v4
	.section .text.twox_core.xxhash3.stripes.blocks.take_many_blocks.i7_v4,"ax",@progbits
	.p2align 6
	.type twox_core.xxhash3.stripes.blocks.take_many_blocks.i7_v4,@function
twox_core.xxhash3.stripes.blocks.take_many_blocks.i7_v4:
	.cfi_startproc
	push %rbx
	.cfi_def_cfa_offset 16
	.cfi_offset 3, -16
	shr $0xa,%rcx
	je .L9_233.i7_v4
	vmovdqu 0x20(%rsi),%ymm3
	vmovdqu (%rsi),%ymm2
	vmovdqu -0x40(%r8,%r9,1),%ymm0
	vmovdqu -0x20(%r8,%r9,1),%ymm1
	mov %rdx,%rax
	add $0xe0,%rax
	add $0x38,%r8
	xor %esi,%esi
	.byte 102,102,102,102,102,102,46,15,31,132,0,0,0,0,0
.L9_40.i7_v4:
	xor %r9d,%r9d
	mov %r8,%r10
	.byte 102,46,15,31,132,0,0,0,0,0
.L9_50.i7_v4:
	prefetcht0 0x400(%rdx,%r9,1)
	prefetcht0 0x440(%rdx,%r9,1)
	prefetcht0 0x480(%rdx,%r9,1)
	prefetcht0 0x4c0(%rdx,%r9,1)
	vmovdqu -0xe0(%rax,%r9,1),%ymm6
	vmovdqu -0xc0(%rax,%r9,1),%ymm4
	vmovdqu -0xa0(%rax,%r9,1),%ymm7
	vpxor -0x38(%r10),%ymm6,%ymm8
	vmovdqu -0x80(%rax,%r9,1),%ymm5
	vpsrlq $0x20,%ymm8,%ymm9
	vpmuludq %ymm9,%ymm8,%ymm8
	vpaddq %ymm2,%ymm8,%ymm2
	vpxor -0x30(%r10),%ymm7,%ymm8
	vpsrlq $0x20,%ymm8,%ymm9
	vpmuludq %ymm9,%ymm8,%ymm8
	vmovdqu -0x60(%rax,%r9,1),%ymm9
	vpxor -0x28(%r10),%ymm9,%ymm10
	vpsrlq $0x20,%ymm10,%ymm11
	vpmuludq %ymm11,%ymm10,%ymm10
	vpaddq %ymm10,%ymm8,%ymm8
	vpaddq %ymm2,%ymm8,%ymm2
	vmovdqu -0x20(%rax,%r9,1),%ymm8
	vpxor -0x20(%r10),%ymm8,%ymm10
	vpsrlq $0x20,%ymm10,%ymm11
	vpmuludq %ymm11,%ymm10,%ymm10
	vpaddq %ymm6,%ymm7,%ymm6
	vpaddq %ymm8,%ymm9,%ymm7
	vpaddq %ymm7,%ymm6,%ymm6
	vpshufd $0x4e,%ymm6,%ymm6
	vpaddq %ymm6,%ymm10,%ymm6
	vpaddq %ymm6,%ymm2,%ymm2
	vpxor -0x18(%r10),%ymm4,%ymm6
	vpsrlq $0x20,%ymm6,%ymm7
	vpmuludq %ymm7,%ymm6,%ymm6
	vpxor -0x10(%r10),%ymm5,%ymm7
	vpaddq %ymm3,%ymm6,%ymm3
	vpsrlq $0x20,%ymm7,%ymm6
	vpmuludq %ymm6,%ymm7,%ymm6
	vmovdqu -0x40(%rax,%r9,1),%ymm7
	vpxor -0x8(%r10),%ymm7,%ymm8
	vpsrlq $0x20,%ymm8,%ymm9
	vpmuludq %ymm9,%ymm8,%ymm8
	vpaddq %ymm6,%ymm8,%ymm6
	vmovdqu (%rax,%r9,1),%ymm8
	vpxor (%r10),%ymm8,%ymm9
	vpaddq %ymm6,%ymm3,%ymm3
	vpsrlq $0x20,%ymm9,%ymm6
	vpmuludq %ymm6,%ymm9,%ymm6
	vpaddq %ymm4,%ymm5,%ymm4
	vpaddq %ymm7,%ymm8,%ymm5
	vpaddq %ymm5,%ymm4,%ymm4
	vpshufd $0x4e,%ymm4,%ymm4
	vpaddq %ymm6,%ymm4,%ymm4
	vpaddq %ymm4,%ymm3,%ymm3
	add $0x100,%r9
	add $0x20,%r10
	cmp $0x400,%r9
	jne .L9_50.i7_v4
	vpsrlq $0x2f,%ymm2,%ymm4
	vpxor %ymm2,%ymm0,%ymm2
	vpxor %ymm2,%ymm4,%ymm2
	vpbroadcastq .L27_30.i7_v4(%rip),%ymm4
	vpmulld %ymm4,%ymm2,%ymm5
	vpbroadcastq .L27_38.i7_v4(%rip),%ymm6
	vpmuludq %ymm6,%ymm2,%ymm2
	vpaddq %ymm5,%ymm2,%ymm2
	vpsrlq $0x2f,%ymm3,%ymm5
	vpxor %ymm3,%ymm1,%ymm3
	vpxor %ymm3,%ymm5,%ymm3
	vpmulld %ymm4,%ymm3,%ymm4
	vpmuludq %ymm6,%ymm3,%ymm3
	vpaddq %ymm4,%ymm3,%ymm3
	inc %rsi
	add $0x400,%rax
	add $0x400,%rdx
	cmp %rcx,%rsi
	jne .L9_40.i7_v4
	vextracti128 $0x1,%ymm3,%xmm0
	vpextrq $0x1,%xmm0,%rax
	vmovq %xmm0,%rcx
	vpextrq $0x1,%xmm3,%rdx
	vmovq %xmm3,%r8
	vextracti128 $0x1,%ymm2,%xmm0
	vpextrq $0x1,%xmm0,%r9
	vmovq %xmm0,%r10
	vpextrq $0x1,%xmm2,%r11
	vmovq %xmm2,%rbx
	jmp .L9_252.i7_v4
.L9_233.i7_v4:
	mov (%rsi),%rbx
	mov 0x8(%rsi),%r11
	mov 0x10(%rsi),%r10
	mov 0x18(%rsi),%r9
	mov 0x20(%rsi),%r8
	mov 0x28(%rsi),%rdx
	mov 0x30(%rsi),%rcx
	mov 0x38(%rsi),%rax
.L9_252.i7_v4:
	mov %rbx,(%rdi)
	mov %r11,0x8(%rdi)
	mov %r10,0x10(%rdi)
	mov %r9,0x18(%rdi)
	mov %r8,0x20(%rdi)
	mov %rdx,0x28(%rdi)
	mov %rcx,0x30(%rdi)
	mov %rax,0x38(%rdi)
	pop %rbx
	.cfi_def_cfa_offset 8
	.cfi_restore 3
	vzeroupper
	ret
	.cfi_endproc
	.size twox_core.xxhash3.stripes.blocks.take_many_blocks.i7_v4,.-twox_core.xxhash3.stripes.blocks.take_many_blocks.i7_v4
	.section .text.twox_core.width_128.oneshot_many.i7_v4,"ax",@progbits
	.p2align 6
	.type twox_core.width_128.oneshot_many.i7_v4,@function
twox_core.width_128.oneshot_many.i7_v4:
	.cfi_startproc
	push %r15
	.cfi_def_cfa_offset 16
	.cfi_offset 15, -16
	push %r14
	.cfi_def_cfa_offset 24
	.cfi_offset 14, -24
	push %r13
	.cfi_def_cfa_offset 32
	.cfi_offset 13, -32
	push %r12
	.cfi_def_cfa_offset 40
	.cfi_offset 12, -40
	push %rbx
	.cfi_def_cfa_offset 48
	.cfi_offset 3, -48
	sub $0x50,%rsp
	.cfi_def_cfa_offset 128
	mov %rcx,%r15
	mov %rdx,%r12
	mov %rsi,%rbx
	mov %rdi,%r14
	lea -0x40(%rsi),%rcx
	shr $0x3,%rcx
	lea -0x1(%r15),%r13
	shr $0x6,%r13
	cmp %rcx,%r13
	jae .L10_33.i7_v4
	xor %r13d,%r13d
	jmp .L10_78.i7_v4
.L10_33.i7_v4:
	cmp $0x10,%rcx
	je .L10_68.i7_v4
	.byte 15,31,128,0,0,0,0
	test %rcx,%rcx
	je .L10_2f8.i7_v4
	mov %r13,%rax
	or %rcx,%rax
	movabs $0x1fffffff00000000,%rdx
	test %rdx,%rax
	je .L10_6e.i7_v4
	mov %r13,%rax
	xor %edx,%edx
	div %rcx
	jmp .L10_75.i7_v4
.L10_68.i7_v4:
	and $0xfffffffffffffff0,%r13
	jmp .L10_78.i7_v4
.L10_6e.i7_v4:
	mov %r13d,%eax
	xor %edx,%edx
	div %ecx
.L10_75.i7_v4:
	sub %rdx,%r13
.L10_78.i7_v4:
	shl $0x6,%r13
	vmovaps .L26_60.i7_v4(%rip),%ymm0
	vmovups %ymm0,0x8(%rsp)
	vmovaps .L26_80.i7_v4(%rip),%ymm0
	vmovups %ymm0,0x28(%rsp)
	movq $0x0,0x48(%rsp)
	lea 0x8(%rsp),%rdi
	mov %r12,%rsi
	mov %r13,%rdx
	mov %r14,%rcx
	mov %rbx,%r8
	vzeroupper
	call twox_core.xxhash3.stripes.take_many_stripes.i7_v4
	vmovdqu 0x8(%rsp),%ymm1
	vmovdqu 0x28(%rsp),%ymm0
	mov %r13,%rax
	not %rax
	add %r15,%rax
	shr $0x6,%rax
	je .L10_13d.i7_v4
	shl $0x3,%rax
	lea (%r12,%r13,1),%rcx
	add $0x20,%rcx
	xor %edx,%edx
	.byte 102,102,102,102,46,15,31,132,0,0,0,0,0
.L10_f0.i7_v4:
	vmovdqu -0x20(%rcx,%rdx,8),%ymm2
	vmovdqu (%rcx,%rdx,8),%ymm3
	vpshufd $0x4e,%ymm2,%ymm4
	vpaddq %ymm4,%ymm1,%ymm1
	vpxor (%r14,%rdx,1),%ymm2,%ymm2
	vpsrlq $0x20,%ymm2,%ymm4
	vpmuludq %ymm4,%ymm2,%ymm2
	vpaddq %ymm2,%ymm1,%ymm1
	vpshufd $0x4e,%ymm3,%ymm2
	vpaddq %ymm0,%ymm2,%ymm0
	vpxor 0x20(%r14,%rdx,1),%ymm3,%ymm2
	vpsrlq $0x20,%ymm2,%ymm3
	vpmuludq %ymm3,%ymm2,%ymm2
	vpaddq %ymm2,%ymm0,%ymm0
	add $0x8,%rdx
	cmp %rdx,%rax
	jne .L10_f0.i7_v4
.L10_13d.i7_v4:
	vmovdqu -0x40(%r12,%r15,1),%ymm2
	vmovdqu -0x20(%r12,%r15,1),%ymm3
	vpshufd $0x4e,%ymm2,%ymm4
	vpxor -0x47(%r14,%rbx,1),%ymm2,%ymm2
	vpsrlq $0x20,%ymm2,%ymm5
	vpmuludq %ymm5,%ymm2,%ymm2
	vpaddq %ymm2,%ymm4,%ymm2
	vpaddq %ymm1,%ymm2,%ymm1
	vpshufd $0x4e,%ymm3,%ymm2
	vpxor -0x27(%r14,%rbx,1),%ymm3,%ymm3
	vpsrlq $0x20,%ymm3,%ymm4
	vpmuludq %ymm4,%ymm3,%ymm3
	vpaddq %ymm3,%ymm2,%ymm2
	movabs $0x9e3779b185ebca87,%rax
	vpxor 0xb(%r14),%ymm1,%ymm3
	imul %r15,%rax
	vmovq %xmm3,%rdx
	vpextrq $0x1,%xmm3,%rcx
	mulx %rcx,%rcx,%rsi
	xor %rcx,%rsi
	add %rax,%rsi
	vextracti128 $0x1,%ymm3,%xmm3
	vpextrq $0x1,%xmm3,%rax
	vmovq %xmm3,%rdx
	mulx %rax,%rcx,%rax
	vpaddq %ymm0,%ymm2,%ymm0
	xor %rcx,%rax
	add %rsi,%rax
	cmp $0x88,%rbx
	jb .L10_22e.i7_v4
	vpxor 0x2b(%r14),%ymm0,%ymm2
	vmovq %xmm2,%rdx
	vpextrq $0x1,%xmm2,%rcx
	mulx %rcx,%rcx,%rsi
	xor %rcx,%rsi
	vextracti128 $0x1,%ymm2,%xmm2
	vmovq %xmm2,%rdx
	vpextrq $0x1,%xmm2,%rcx
	mulx %rcx,%rcx,%rdx
	xor %rcx,%rdx
	add %rsi,%rdx
	add %rdx,%rax
	mov %rax,%rcx
	shr $0x25,%rcx
	xor %rax,%rcx
	movabs $0x165667919e3779f9,%rdx
	imul %rcx,%rdx
	mov %rdx,%rax
	shr $0x20,%rax
	xor %rdx,%rax
.L10_22e.i7_v4:
	movabs $0xc2b2ae3d27d4eb4f,%rcx
	imul %rcx,%r15
	not %r15
	vpxor -0x4b(%r14,%rbx,1),%ymm1,%ymm1
	vpextrq $0x1,%xmm1,%rcx
	vmovq %xmm1,%rdx
	mulx %rcx,%rcx,%rsi
	xor %rcx,%rsi
	vextracti128 $0x1,%ymm1,%xmm1
	vpextrq $0x1,%xmm1,%rcx
	vmovq %xmm1,%rdx
	mulx %rcx,%rdx,%rcx
	add %r15,%rsi
	xor %rdx,%rcx
	add %rsi,%rcx
	.byte 15,31,132,0,0,0,0,0
	cmp $0x88,%rbx
	jb .L10_2e4.i7_v4
	vpxor -0x2b(%r14,%rbx,1),%ymm0,%ymm0
	vmovq %xmm0,%rdx
	vpextrq $0x1,%xmm0,%rsi
	mulx %rsi,%rdx,%rsi
	xor %rdx,%rsi
	vextracti128 $0x1,%ymm0,%xmm0
	vmovq %xmm0,%rdx
	vpextrq $0x1,%xmm0,%rdi
	mulx %rdi,%rdx,%rdi
	xor %rdx,%rdi
	add %rsi,%rdi
	add %rdi,%rcx
	mov %rcx,%rdx
	shr $0x25,%rdx
	xor %rcx,%rdx
	movabs $0x165667919e3779f9,%rsi
	imul %rdx,%rsi
	mov %rsi,%rcx
	shr $0x20,%rcx
	xor %rsi,%rcx
.L10_2e4.i7_v4:
	mov %rcx,%rdx
	add $0x50,%rsp
	.cfi_def_cfa_offset 48
	pop %rbx
	.cfi_def_cfa_offset 40
	.cfi_restore 3
	pop %r12
	.cfi_def_cfa_offset 32
	.cfi_restore 12
	pop %r13
	.cfi_def_cfa_offset 24
	.cfi_restore 13
	pop %r14
	.cfi_def_cfa_offset 16
	.cfi_restore 14
	pop %r15
	.cfi_def_cfa_offset 8
	.cfi_restore 15
	vzeroupper
	ret
	.cfi_def_cfa_offset 128
	.cfi_offset 3, -48
	.cfi_offset 12, -40
	.cfi_offset 13, -32
	.cfi_offset 14, -24
	.cfi_offset 15, -16
.L10_2f8.i7_v4:
	ud2
	.cfi_endproc
	.size twox_core.width_128.oneshot_many.i7_v4,.-twox_core.width_128.oneshot_many.i7_v4
	.section .text.twox_core.width_128.oneshot_long_of_any_length.i7_v4,"ax",@progbits
	.p2align 6
	.type twox_core.width_128.oneshot_long_of_any_length.i7_v4,@function
twox_core.width_128.oneshot_long_of_any_length.i7_v4:
	.cfi_startproc
	push %r15
	.cfi_def_cfa_offset 16
	.cfi_offset 15, -16
	push %r14
	.cfi_def_cfa_offset 24
	.cfi_offset 14, -24
	push %r12
	.cfi_def_cfa_offset 32
	.cfi_offset 12, -32
	push %rbx
	.cfi_def_cfa_offset 40
	.cfi_offset 3, -40
	cmp $0x7bff,%rcx
	ja .L11_45.i7_v4
	lea -0x40(%rsi),%r10
	mov %r10,%r11
	shr $0x3,%r11
	lea -0x1(%rcx),%r8
	shr $0x6,%r8
	vmovdqa .L26_a0.i7_v4(%rip),%ymm0
	vmovdqa .L26_c0.i7_v4(%rip),%ymm1
	cmp %r11,%r8
	jae .L11_51.i7_v4
	xor %eax,%eax
	mov %rdx,%r9
	.byte 15,31,0
	jmp .L11_3a7.i7_v4
.L11_45.i7_v4:
	pop %rbx
	.cfi_def_cfa_offset 32
	.cfi_restore 3
	pop %r12
	.cfi_def_cfa_offset 24
	.cfi_restore 12
	pop %r14
	.cfi_def_cfa_offset 16
	.cfi_restore 14
	pop %r15
	.cfi_def_cfa_offset 8
	.cfi_restore 15
	jmp twox_core.width_128.oneshot_many.i7_v4
	.cfi_def_cfa_offset 40
	.cfi_offset 3, -40
	.cfi_offset 12, -32
	.cfi_offset 14, -24
	.cfi_offset 15, -16
.L11_51.i7_v4:
	cmp $0x10,%r11
	je .L11_82.i7_v4
	.byte 102,15,31,132,0,0,0,0,0
	test %r11,%r11
	je .L11_5aa.i7_v4
	mov %rdx,%r9
	mov %r8d,%eax
	xor %edx,%edx
	div %r11w
	movzwl %dx,%eax
	sub %rax,%r8
	mov %r9,%rdx
	.byte 102,144
	jmp .L11_86.i7_v4
.L11_82.i7_v4:
	and $0xfffffffffffffff0,%r8
.L11_86.i7_v4:
	mov %r8,%rax
	shl $0x6,%rax
	lea (%rdx,%rax,1),%r9
	cmp $0x10,%r11
	jne .L11_2b7.i7_v4
	mov %r8d,%ebx
	.byte 102,144
	and $0xf,%ebx
	jne .L11_2b7.i7_v4
	test %r8,%r8
	je .L11_3a5.i7_v4
	shr $0x4,%r8
	vmovdqu (%rdi,%r10,1),%ymm2
	vmovdqu 0x20(%rdi,%r10,1),%ymm3
	lea 0x38(%rdi),%r10
	lea 0xe0(%rdx),%r11
	vmovdqa .L26_a0.i7_v4(%rip),%ymm0
	vmovdqa .L26_c0.i7_v4(%rip),%ymm1
	xor %ebx,%ebx
	mov %rdx,%r14
	.byte 102,102,102,102,46,15,31,132,0,0,0,0,0
.L11_f0.i7_v4:
	xor %r15d,%r15d
	mov %r10,%r12
	.byte 102,46,15,31,132,0,0,0,0,0
.L11_100.i7_v4:
	prefetcht0 0x400(%r14,%r15,1)
	prefetcht0 0x440(%r14,%r15,1)
	prefetcht0 0x480(%r14,%r15,1)
	prefetcht0 0x4c0(%r14,%r15,1)
	vmovdqu -0xe0(%r11,%r15,1),%ymm6
	vmovdqu -0xc0(%r11,%r15,1),%ymm4
	vmovdqu -0xa0(%r11,%r15,1),%ymm7
	vpxor -0x38(%r12),%ymm6,%ymm8
	vmovdqu -0x80(%r11,%r15,1),%ymm5
	vpsrlq $0x20,%ymm8,%ymm9
	vpmuludq %ymm9,%ymm8,%ymm8
	vpaddq %ymm1,%ymm8,%ymm1
	vpxor -0x30(%r12),%ymm7,%ymm8
	vpsrlq $0x20,%ymm8,%ymm9
	vpmuludq %ymm9,%ymm8,%ymm8
	vmovdqu -0x60(%r11,%r15,1),%ymm9
	vpxor -0x28(%r12),%ymm9,%ymm10
	vpsrlq $0x20,%ymm10,%ymm11
	vpmuludq %ymm11,%ymm10,%ymm10
	vpaddq %ymm10,%ymm8,%ymm8
	vpaddq %ymm1,%ymm8,%ymm1
	vmovdqu -0x20(%r11,%r15,1),%ymm8
	vpxor -0x20(%r12),%ymm8,%ymm10
	vpsrlq $0x20,%ymm10,%ymm11
	vpmuludq %ymm11,%ymm10,%ymm10
	vpaddq %ymm6,%ymm7,%ymm6
	vpaddq %ymm8,%ymm9,%ymm7
	vpaddq %ymm7,%ymm6,%ymm6
	vpshufd $0x4e,%ymm6,%ymm6
	vpaddq %ymm6,%ymm10,%ymm6
	vpaddq %ymm6,%ymm1,%ymm1
	vpxor -0x18(%r12),%ymm4,%ymm6
	vpsrlq $0x20,%ymm6,%ymm7
	vpmuludq %ymm7,%ymm6,%ymm6
	vpxor -0x10(%r12),%ymm5,%ymm7
	vpaddq %ymm0,%ymm6,%ymm0
	vpsrlq $0x20,%ymm7,%ymm6
	vpmuludq %ymm6,%ymm7,%ymm6
	vmovdqu -0x40(%r11,%r15,1),%ymm7
	vpxor -0x8(%r12),%ymm7,%ymm8
	vpsrlq $0x20,%ymm8,%ymm9
	vpmuludq %ymm9,%ymm8,%ymm8
	vpaddq %ymm6,%ymm8,%ymm6
	vmovdqu (%r11,%r15,1),%ymm8
	vpxor (%r12),%ymm8,%ymm9
	vpaddq %ymm6,%ymm0,%ymm0
	vpsrlq $0x20,%ymm9,%ymm6
	vpmuludq %ymm6,%ymm9,%ymm6
	vpaddq %ymm4,%ymm5,%ymm4
	vpaddq %ymm7,%ymm8,%ymm5
	vpaddq %ymm5,%ymm4,%ymm4
	vpshufd $0x4e,%ymm4,%ymm4
	vpaddq %ymm6,%ymm4,%ymm4
	vpaddq %ymm4,%ymm0,%ymm0
	add $0x100,%r15
	add $0x20,%r12
	cmp $0x400,%r15
	jne .L11_100.i7_v4
	vpsrlq $0x2f,%ymm1,%ymm4
	vpxor %ymm1,%ymm2,%ymm1
	vpxor %ymm4,%ymm1,%ymm1
	vpbroadcastq .L27_40.i7_v4(%rip),%ymm4
	vpmulld %ymm4,%ymm1,%ymm5
	vpsrlq $0x2f,%ymm0,%ymm6
	vpxor %ymm0,%ymm3,%ymm0
	vpxor %ymm6,%ymm0,%ymm0
	vpmulld %ymm4,%ymm0,%ymm4
	inc %rbx
	vpbroadcastq .L27_48.i7_v4(%rip),%ymm6
	vpmuludq %ymm6,%ymm1,%ymm1
	vpaddq %ymm5,%ymm1,%ymm1
	vpmuludq %ymm6,%ymm0,%ymm0
	vpaddq %ymm4,%ymm0,%ymm0
	add $0x400,%r11
	add $0x400,%r14
	cmp %r8,%rbx
	jne .L11_f0.i7_v4
	jmp .L11_3a7.i7_v4
.L11_2b7.i7_v4:
	.byte 102,15,31,132,0,0,0,0,0
	test %r8,%r8
	je .L11_3a5.i7_v4
	vmovdqa .L26_a0.i7_v4(%rip),%ymm0
	vmovdqa .L26_c0.i7_v4(%rip),%ymm1
	xor %r14d,%r14d
	mov %rdx,%rbx
	.byte 144
	jmp .L11_2fd.i7_v4
	.byte 102,102,102,102,102,46,15,31,132,0,0,0,0,0
.L11_2f0.i7_v4:
	add $0x40,%rbx
	dec %r8
	je .L11_3a7.i7_v4
.L11_2fd.i7_v4:
	prefetcht0 0x140(%rbx)
	vmovdqu (%rbx),%ymm2
	vmovdqu 0x20(%rbx),%ymm3
	vpshufd $0x4e,%ymm2,%ymm4
	vpaddq %ymm4,%ymm1,%ymm1
	vpxor (%rdi,%r14,8),%ymm2,%ymm2
	vpsrlq $0x20,%ymm2,%ymm4
	vpmuludq %ymm4,%ymm2,%ymm2
	vpaddq %ymm2,%ymm1,%ymm1
	vpshufd $0x4e,%ymm3,%ymm2
	vpaddq %ymm0,%ymm2,%ymm0
	vpxor 0x20(%rdi,%r14,8),%ymm3,%ymm2
	vpsrlq $0x20,%ymm2,%ymm3
	vpmuludq %ymm3,%ymm2,%ymm2
	vpaddq %ymm2,%ymm0,%ymm0
	inc %r14
	cmp %r11,%r14
	jne .L11_2f0.i7_v4
	vpsrlq $0x2f,%ymm1,%ymm2
	vpxor (%rdi,%r10,1),%ymm2,%ymm2
	vpxor %ymm1,%ymm2,%ymm1
	vpbroadcastq .L27_40.i7_v4(%rip),%ymm2
	vpmulld %ymm2,%ymm1,%ymm3
	vpsrlq $0x2f,%ymm0,%ymm4
	vpxor 0x20(%rdi,%r10,1),%ymm4,%ymm4
	vpxor %ymm0,%ymm4,%ymm0
	vpmulld %ymm2,%ymm0,%ymm2
	vpbroadcastq .L27_48.i7_v4(%rip),%ymm4
	vpmuludq %ymm4,%ymm1,%ymm1
	vpaddq %ymm3,%ymm1,%ymm1
	vpmuludq %ymm4,%ymm0,%ymm0
	vpaddq %ymm2,%ymm0,%ymm0
	xor %r14d,%r14d
	.byte 15,31,64,0
	jmp .L11_2f0.i7_v4
.L11_3a5.i7_v4:
	xor %eax,%eax
.L11_3a7.i7_v4:
	not %rax
	add %rcx,%rax
	shr $0x6,%rax
	je .L11_40f.i7_v4
	shl $0x3,%rax
	xor %r8d,%r8d
	.byte 102,15,31,68,0,0
.L11_3c0.i7_v4:
	vmovdqu (%r9,%r8,8),%ymm2
	vmovdqu 0x20(%r9,%r8,8),%ymm3
	vpshufd $0x4e,%ymm2,%ymm4
	vpaddq %ymm4,%ymm1,%ymm1
	vpxor (%rdi,%r8,1),%ymm2,%ymm2
	vpsrlq $0x20,%ymm2,%ymm4
	vpmuludq %ymm4,%ymm2,%ymm2
	vpaddq %ymm2,%ymm1,%ymm1
	vpshufd $0x4e,%ymm3,%ymm2
	vpaddq %ymm0,%ymm2,%ymm0
	vpxor 0x20(%rdi,%r8,1),%ymm3,%ymm2
	vpsrlq $0x20,%ymm2,%ymm3
	vpmuludq %ymm3,%ymm2,%ymm2
	vpaddq %ymm2,%ymm0,%ymm0
	add $0x8,%r8
	cmp %r8,%rax
	jne .L11_3c0.i7_v4
.L11_40f.i7_v4:
	movabs $0x165667919e3779f9,%r9
	vmovdqu -0x40(%rdx,%rcx,1),%ymm2
	vmovdqu -0x20(%rdx,%rcx,1),%ymm3
	vpshufd $0x4e,%ymm2,%ymm4
	vpxor -0x47(%rdi,%rsi,1),%ymm2,%ymm2
	vpsrlq $0x20,%ymm2,%ymm5
	vpmuludq %ymm5,%ymm2,%ymm2
	vpaddq %ymm2,%ymm4,%ymm2
	vpaddq %ymm1,%ymm2,%ymm1
	vpshufd $0x4e,%ymm3,%ymm2
	vpxor -0x27(%rdi,%rsi,1),%ymm3,%ymm3
	vpsrlq $0x20,%ymm3,%ymm4
	vpmuludq %ymm4,%ymm3,%ymm3
	vpaddq %ymm3,%ymm2,%ymm2
	movabs $0x9e3779b185ebca87,%rax
	vpxor 0xb(%rdi),%ymm1,%ymm3
	imul %rcx,%rax
	vmovq %xmm3,%rdx
	vpextrq $0x1,%xmm3,%r8
	mulx %r8,%rdx,%r8
	xor %rdx,%r8
	add %rax,%r8
	vextracti128 $0x1,%ymm3,%xmm3
	vpextrq $0x1,%xmm3,%rax
	vmovq %xmm3,%rdx
	mulx %rax,%rdx,%rax
	vpaddq %ymm0,%ymm2,%ymm0
	xor %rdx,%rax
	add %r8,%rax
	cmp $0x88,%rsi
	jb .L11_4fa.i7_v4
	vpxor 0x2b(%rdi),%ymm0,%ymm2
	vpextrq $0x1,%xmm2,%r8
	vmovq %xmm2,%rdx
	mulx %r8,%rdx,%r8
	xor %rdx,%r8
	vextracti128 $0x1,%ymm2,%xmm2
	vpextrq $0x1,%xmm2,%r10
	vmovq %xmm2,%rdx
	mulx %r10,%rdx,%r10
	xor %rdx,%r10
	add %r8,%r10
	add %r10,%rax
	mov %rax,%rdx
	shr $0x25,%rdx
	xor %rax,%rdx
	imul %r9,%rdx
	mov %rdx,%rax
	shr $0x20,%rax
	xor %rdx,%rax
.L11_4fa.i7_v4:
	movabs $0xc2b2ae3d27d4eb4f,%rdx
	imul %rdx,%rcx
	not %rcx
	vpxor -0x4b(%rdi,%rsi,1),%ymm1,%ymm1
	vpextrq $0x1,%xmm1,%r8
	vmovq %xmm1,%rdx
	mulx %r8,%rdx,%r10
	xor %rdx,%r10
	vextracti128 $0x1,%ymm1,%xmm1
	vpextrq $0x1,%xmm1,%r8
	vmovq %xmm1,%rdx
	mulx %r8,%rdx,%r8
	add %rcx,%r10
	xor %rdx,%r8
	add %r10,%r8
	cmp $0x88,%rsi
	jb .L11_59c.i7_v4
	vpxor -0x2b(%rdi,%rsi,1),%ymm0,%ymm0
	vpextrq $0x1,%xmm0,%rcx
	vmovq %xmm0,%rdx
	mulx %rcx,%rcx,%rsi
	xor %rcx,%rsi
	vextracti128 $0x1,%ymm0,%xmm0
	vpextrq $0x1,%xmm0,%rcx
	vmovq %xmm0,%rdx
	mulx %rcx,%rcx,%rdx
	xor %rcx,%rdx
	add %rsi,%rdx
	add %rdx,%r8
	mov %r8,%rcx
	shr $0x25,%rcx
	xor %r8,%rcx
	imul %r9,%rcx
	mov %rcx,%r8
	shr $0x20,%r8
	xor %rcx,%r8
.L11_59c.i7_v4:
	mov %r8,%rdx
	pop %rbx
	.cfi_def_cfa_offset 32
	.cfi_restore 3
	pop %r12
	.cfi_def_cfa_offset 24
	.cfi_restore 12
	pop %r14
	.cfi_def_cfa_offset 16
	.cfi_restore 14
	pop %r15
	.cfi_def_cfa_offset 8
	.cfi_restore 15
	vzeroupper
	ret
	.cfi_def_cfa_offset 40
	.cfi_offset 3, -40
	.cfi_offset 12, -32
	.cfi_offset 14, -24
	.cfi_offset 15, -16
.L11_5aa.i7_v4:
	ud2
	.cfi_endproc
	.size twox_core.width_128.oneshot_long_of_any_length.i7_v4,.-twox_core.width_128.oneshot_long_of_any_length.i7_v4
	.section .text.twox_core.width_64.oneshot_long.i7_v4,"ax",@progbits
	.p2align 6
	.type twox_core.width_64.oneshot_long.i7_v4,@function
twox_core.width_64.oneshot_long.i7_v4:
	.cfi_startproc
	cmp $0xc0,%rsi
	jne twox_core.width_64.oneshot_long_of_any_length.i7_v4
	cmp $0x400,%rcx
	jb .L12_25.i7_v4
	mov $0xc0,%esi
	.byte 15,31,68,0,0
	jmp twox_core.width_64.oneshot_by_eight_lanes.i7_v4
.L12_25.i7_v4:
	lea -0x1(%rcx),%rax
	shr $0x3,%rax
	and $0xfffffffffffffff8,%rax
	vmovdqa .L26_e0.i7_v4(%rip),%ymm0
	vmovdqa .L26_100.i7_v4(%rip),%ymm1
	xor %esi,%esi
	.byte 102,102,102,102,46,15,31,132,0,0,0,0,0
.L12_50.i7_v4:
	vmovdqu (%rdx,%rsi,8),%ymm2
	vmovdqu 0x20(%rdx,%rsi,8),%ymm3
	vpshufd $0x4e,%ymm2,%ymm4
	vpaddq %ymm4,%ymm1,%ymm1
	vpxor (%rdi,%rsi,1),%ymm2,%ymm2
	vpsrlq $0x20,%ymm2,%ymm4
	vpmuludq %ymm4,%ymm2,%ymm2
	vpaddq %ymm2,%ymm1,%ymm1
	vpshufd $0x4e,%ymm3,%ymm2
	vpaddq %ymm0,%ymm2,%ymm0
	vpxor 0x20(%rdi,%rsi,1),%ymm3,%ymm2
	vpsrlq $0x20,%ymm2,%ymm3
	vpmuludq %ymm3,%ymm2,%ymm2
	vpaddq %ymm2,%ymm0,%ymm0
	add $0x8,%rsi
	cmp %rsi,%rax
	jne .L12_50.i7_v4
	movabs $0x9e3779b185ebca87,%rsi
	imul %rcx,%rsi
	vmovdqu -0x40(%rdx,%rcx,1),%ymm2
	vpshufd $0x4e,%ymm2,%ymm3
	vpxor 0x79(%rdi),%ymm2,%ymm2
	vpsrlq $0x20,%ymm2,%ymm4
	vpmuludq %ymm4,%ymm2,%ymm2
	vpaddq %ymm2,%ymm3,%ymm2
	vpaddq %ymm1,%ymm2,%ymm1
	vpxor 0xb(%rdi),%ymm1,%ymm1
	vpextrq $0x1,%xmm1,%r8
	vmovq %xmm1,%rax
	mov %rdx,%r9
	mov %rax,%rdx
	mulx %r8,%r8,%rax
	vmovdqu -0x20(%r9,%rcx,1),%ymm2
	vextracti128 $0x1,%ymm1,%xmm1
	vpextrq $0x1,%xmm1,%rcx
	vmovq %xmm1,%rdx
	mulx %rcx,%rcx,%r9
	xor %r8,%rax
	vpshufd $0x4e,%ymm2,%ymm1
	vpxor 0x99(%rdi),%ymm2,%ymm2
	vpsrlq $0x20,%ymm2,%ymm3
	vpmuludq %ymm3,%ymm2,%ymm2
	vpaddq %ymm2,%ymm1,%ymm1
	vpaddq %ymm0,%ymm1,%ymm0
	vpxor 0x2b(%rdi),%ymm0,%ymm0
	vpextrq $0x1,%xmm0,%rdi
	vmovq %xmm0,%rdx
	mulx %rdi,%rdx,%rdi
	add %rsi,%rax
	xor %rcx,%r9
	xor %rdx,%rdi
	add %rax,%rdi
	add %r9,%rdi
	vextracti128 $0x1,%ymm0,%xmm0
	vpextrq $0x1,%xmm0,%rax
	vmovq %xmm0,%rdx
	mulx %rax,%rax,%rcx
	xor %rax,%rcx
	add %rdi,%rcx
	mov %rcx,%rax
	shr $0x25,%rax
	xor %rcx,%rax
	movabs $0x165667919e3779f9,%rcx
	imul %rax,%rcx
	mov %rcx,%rax
	shr $0x20,%rax
	xor %rcx,%rax
	vzeroupper
	ret
	.cfi_endproc
	.size twox_core.width_64.oneshot_long.i7_v4,.-twox_core.width_64.oneshot_long.i7_v4
	.section .text.twox_core.width_64.oneshot_by_eight_lanes.i7_v4,"ax",@progbits
	.p2align 6
	.type twox_core.width_64.oneshot_by_eight_lanes.i7_v4,@function
twox_core.width_64.oneshot_by_eight_lanes.i7_v4:
	.cfi_startproc
	push %r15
	.cfi_def_cfa_offset 16
	.cfi_offset 15, -16
	push %r14
	.cfi_def_cfa_offset 24
	.cfi_offset 14, -24
	push %r12
	.cfi_def_cfa_offset 32
	.cfi_offset 12, -32
	push %rbx
	.cfi_def_cfa_offset 40
	.cfi_offset 3, -40
	sub $0x48,%rsp
	.cfi_def_cfa_offset 112
	vxorps %xmm0,%xmm0,%xmm0
	vmovups %ymm0,0x20(%rsp)
	vmovups %ymm0,(%rsp)
	mov %rcx,%r15
	mov %rdx,%r12
	mov %rsi,%r14
	mov %rdi,%rbx
	movq $0x0,0x40(%rsp)
	lea -0x1(%rcx),%rdx
	and $0xffffffffffffffc0,%rdx
	mov %rsp,%rdi
	mov %r12,%rsi
	mov %rbx,%rcx
	vzeroupper
	call twox_core.xxhash3.stripes.start_widened.i7_v4
	vmovdqu -0x40(%r12,%r15,1),%ymm0
	vpshufd $0x4e,%ymm0,%ymm1
	vpaddq (%rsp),%ymm1,%ymm1
	vpxor -0x47(%rbx,%r14,1),%ymm0,%ymm0
	vpsrlq $0x20,%ymm0,%ymm2
	vpmuludq %ymm2,%ymm0,%ymm0
	vpaddq %ymm0,%ymm1,%ymm0
	movabs $0x9e3779b185ebca87,%rcx
	imul %r15,%rcx
	vpxor 0xb(%rbx),%ymm0,%ymm0
	vpextrq $0x1,%xmm0,%rax
	vmovq %xmm0,%rdx
	mulx %rax,%rax,%rsi
	xor %rax,%rsi
	vextracti128 $0x1,%ymm0,%xmm0
	vpextrq $0x1,%xmm0,%rax
	vmovq %xmm0,%rdx
	mulx %rax,%rdx,%rax
	add %rcx,%rsi
	xor %rdx,%rax
	add %rsi,%rax
	cmp $0x88,%r14
	jb .L13_13a.i7_v4
	vmovdqu -0x20(%r12,%r15,1),%ymm0
	vpshufd $0x4e,%ymm0,%ymm1
	vpaddq 0x20(%rsp),%ymm1,%ymm1
	vpxor -0x27(%rbx,%r14,1),%ymm0,%ymm0
	vpsrlq $0x20,%ymm0,%ymm2
	vpmuludq %ymm2,%ymm0,%ymm0
	vpaddq %ymm0,%ymm1,%ymm0
	vpxor 0x2b(%rbx),%ymm0,%ymm0
	vmovq %xmm0,%rdx
	vpextrq $0x1,%xmm0,%rcx
	mulx %rcx,%rcx,%rsi
	xor %rcx,%rsi
	vextracti128 $0x1,%ymm0,%xmm0
	vmovq %xmm0,%rdx
	vpextrq $0x1,%xmm0,%rcx
	mulx %rcx,%rcx,%rdx
	xor %rcx,%rdx
	add %rsi,%rdx
	add %rdx,%rax
	mov %rax,%rcx
	shr $0x25,%rcx
	xor %rax,%rcx
	movabs $0x165667919e3779f9,%rdx
	imul %rcx,%rdx
	mov %rdx,%rax
	shr $0x20,%rax
	xor %rdx,%rax
.L13_13a.i7_v4:
	add $0x48,%rsp
	.cfi_def_cfa_offset 40
	pop %rbx
	.cfi_def_cfa_offset 32
	.cfi_restore 3
	pop %r12
	.cfi_def_cfa_offset 24
	.cfi_restore 12
	pop %r14
	.cfi_def_cfa_offset 16
	.cfi_restore 14
	pop %r15
	.cfi_def_cfa_offset 8
	.cfi_restore 15
	vzeroupper
	ret
	.cfi_endproc
	.size twox_core.width_64.oneshot_by_eight_lanes.i7_v4,.-twox_core.width_64.oneshot_by_eight_lanes.i7_v4
	.section .text.twox_core.width_64.oneshot_many.i7_v4,"ax",@progbits
	.p2align 6
	.type twox_core.width_64.oneshot_many.i7_v4,@function
twox_core.width_64.oneshot_many.i7_v4:
	.cfi_startproc
	push %r15
	.cfi_def_cfa_offset 16
	.cfi_offset 15, -16
	push %r14
	.cfi_def_cfa_offset 24
	.cfi_offset 14, -24
	push %r13
	.cfi_def_cfa_offset 32
	.cfi_offset 13, -32
	push %r12
	.cfi_def_cfa_offset 40
	.cfi_offset 12, -40
	push %rbx
	.cfi_def_cfa_offset 48
	.cfi_offset 3, -48
	sub $0x50,%rsp
	.cfi_def_cfa_offset 128
	mov %rcx,%r15
	mov %rdx,%r12
	mov %rsi,%r14
	mov %rdi,%rbx
	lea -0x40(%rsi),%rcx
	shr $0x3,%rcx
	lea -0x1(%r15),%r13
	shr $0x6,%r13
	cmp %rcx,%r13
	jae .L14_33.i7_v4
	xor %r13d,%r13d
	jmp .L14_78.i7_v4
.L14_33.i7_v4:
	cmp $0x10,%rcx
	je .L14_68.i7_v4
	.byte 15,31,128,0,0,0,0
	test %rcx,%rcx
	je .L14_23b.i7_v4
	mov %r13,%rax
	or %rcx,%rax
	movabs $0x1fffffff00000000,%rdx
	test %rdx,%rax
	je .L14_6e.i7_v4
	mov %r13,%rax
	xor %edx,%edx
	div %rcx
	jmp .L14_75.i7_v4
.L14_68.i7_v4:
	and $0xfffffffffffffff0,%r13
	jmp .L14_78.i7_v4
.L14_6e.i7_v4:
	mov %r13d,%eax
	xor %edx,%edx
	div %ecx
.L14_75.i7_v4:
	sub %rdx,%r13
.L14_78.i7_v4:
	shl $0x6,%r13
	vmovaps .L26_120.i7_v4(%rip),%ymm0
	vmovups %ymm0,0x8(%rsp)
	vmovaps .L26_140.i7_v4(%rip),%ymm0
	vmovups %ymm0,0x28(%rsp)
	movq $0x0,0x48(%rsp)
	lea 0x8(%rsp),%rdi
	mov %r12,%rsi
	mov %r13,%rdx
	mov %rbx,%rcx
	mov %r14,%r8
	vzeroupper
	call twox_core.xxhash3.stripes.take_many_stripes.i7_v4
	vmovdqu 0x8(%rsp),%ymm1
	vmovdqu 0x28(%rsp),%ymm0
	mov %r13,%rax
	not %rax
	add %r15,%rax
	shr $0x6,%rax
	je .L14_13b.i7_v4
	shl $0x3,%rax
	lea (%r12,%r13,1),%rcx
	add $0x20,%rcx
	xor %edx,%edx
	.byte 102,102,102,102,46,15,31,132,0,0,0,0,0
.L14_f0.i7_v4:
	vmovdqu -0x20(%rcx,%rdx,8),%ymm2
	vmovdqu (%rcx,%rdx,8),%ymm3
	vpshufd $0x4e,%ymm2,%ymm4
	vpaddq %ymm4,%ymm1,%ymm1
	vpxor (%rbx,%rdx,1),%ymm2,%ymm2
	vpsrlq $0x20,%ymm2,%ymm4
	vpmuludq %ymm4,%ymm2,%ymm2
	vpaddq %ymm2,%ymm1,%ymm1
	vpshufd $0x4e,%ymm3,%ymm2
	vpaddq %ymm0,%ymm2,%ymm0
	vpxor 0x20(%rbx,%rdx,1),%ymm3,%ymm2
	vpsrlq $0x20,%ymm2,%ymm3
	vpmuludq %ymm3,%ymm2,%ymm2
	vpaddq %ymm2,%ymm0,%ymm0
	add $0x8,%rdx
	cmp %rdx,%rax
	jne .L14_f0.i7_v4
.L14_13b.i7_v4:
	vmovdqu -0x40(%r12,%r15,1),%ymm2
	vpshufd $0x4e,%ymm2,%ymm3
	vpxor -0x47(%rbx,%r14,1),%ymm2,%ymm2
	vpsrlq $0x20,%ymm2,%ymm4
	vpmuludq %ymm4,%ymm2,%ymm2
	vpaddq %ymm2,%ymm3,%ymm2
	vpaddq %ymm1,%ymm2,%ymm1
	movabs $0x9e3779b185ebca87,%rcx
	imul %r15,%rcx
	vpxor 0xb(%rbx),%ymm1,%ymm1
	vpextrq $0x1,%xmm1,%rax
	vmovq %xmm1,%rdx
	mulx %rax,%rax,%rsi
	xor %rax,%rsi
	vextracti128 $0x1,%ymm1,%xmm1
	vpextrq $0x1,%xmm1,%rax
	vmovq %xmm1,%rdx
	mulx %rax,%rdx,%rax
	add %rcx,%rsi
	xor %rdx,%rax
	add %rsi,%rax
	cmp $0x88,%r14
	jb .L14_22a.i7_v4
	vmovdqu -0x20(%r12,%r15,1),%ymm1
	vpshufd $0x4e,%ymm1,%ymm2
	vpxor -0x27(%rbx,%r14,1),%ymm1,%ymm1
	vpsrlq $0x20,%ymm1,%ymm3
	vpmuludq %ymm3,%ymm1,%ymm1
	vpaddq %ymm1,%ymm2,%ymm1
	vpaddq %ymm0,%ymm1,%ymm0
	vpxor 0x2b(%rbx),%ymm0,%ymm0
	vmovq %xmm0,%rdx
	vpextrq $0x1,%xmm0,%rcx
	mulx %rcx,%rcx,%rsi
	xor %rcx,%rsi
	vextracti128 $0x1,%ymm0,%xmm0
	vmovq %xmm0,%rdx
	vpextrq $0x1,%xmm0,%rcx
	mulx %rcx,%rcx,%rdx
	xor %rcx,%rdx
	add %rsi,%rdx
	add %rdx,%rax
	mov %rax,%rcx
	shr $0x25,%rcx
	xor %rax,%rcx
	movabs $0x165667919e3779f9,%rdx
	imul %rcx,%rdx
	mov %rdx,%rax
	shr $0x20,%rax
	xor %rdx,%rax
.L14_22a.i7_v4:
	add $0x50,%rsp
	.cfi_def_cfa_offset 48
	pop %rbx
	.cfi_def_cfa_offset 40
	.cfi_restore 3
	pop %r12
	.cfi_def_cfa_offset 32
	.cfi_restore 12
	pop %r13
	.cfi_def_cfa_offset 24
	.cfi_restore 13
	pop %r14
	.cfi_def_cfa_offset 16
	.cfi_restore 14
	pop %r15
	.cfi_def_cfa_offset 8
	.cfi_restore 15
	vzeroupper
	ret
	.cfi_def_cfa_offset 128
	.cfi_offset 3, -48
	.cfi_offset 12, -40
	.cfi_offset 13, -32
	.cfi_offset 14, -24
	.cfi_offset 15, -16
.L14_23b.i7_v4:
	ud2
	.cfi_endproc
	.size twox_core.width_64.oneshot_many.i7_v4,.-twox_core.width_64.oneshot_many.i7_v4
	.section .text.twox_core.width_64.oneshot_long_of_any_length.i7_v4,"ax",@progbits
	.p2align 6
	.type twox_core.width_64.oneshot_long_of_any_length.i7_v4,@function
twox_core.width_64.oneshot_long_of_any_length.i7_v4:
	.cfi_startproc
	push %r15
	.cfi_def_cfa_offset 16
	.cfi_offset 15, -16
	push %r14
	.cfi_def_cfa_offset 24
	.cfi_offset 14, -24
	push %r12
	.cfi_def_cfa_offset 32
	.cfi_offset 12, -32
	push %rbx
	.cfi_def_cfa_offset 40
	.cfi_offset 3, -40
	cmp $0x7bff,%rcx
	ja .L15_45.i7_v4
	lea -0x40(%rsi),%r10
	mov %r10,%r11
	shr $0x3,%r11
	lea -0x1(%rcx),%r8
	shr $0x6,%r8
	vmovdqa .L26_160.i7_v4(%rip),%ymm1
	vmovdqa .L26_180.i7_v4(%rip),%ymm0
	cmp %r11,%r8
	jae .L15_51.i7_v4
	xor %eax,%eax
	mov %rdx,%r9
	.byte 15,31,0
	jmp .L15_3a7.i7_v4
.L15_45.i7_v4:
	pop %rbx
	.cfi_def_cfa_offset 32
	.cfi_restore 3
	pop %r12
	.cfi_def_cfa_offset 24
	.cfi_restore 12
	pop %r14
	.cfi_def_cfa_offset 16
	.cfi_restore 14
	pop %r15
	.cfi_def_cfa_offset 8
	.cfi_restore 15
	jmp twox_core.width_64.oneshot_many.i7_v4
	.cfi_def_cfa_offset 40
	.cfi_offset 3, -40
	.cfi_offset 12, -32
	.cfi_offset 14, -24
	.cfi_offset 15, -16
.L15_51.i7_v4:
	cmp $0x10,%r11
	je .L15_82.i7_v4
	.byte 102,15,31,132,0,0,0,0,0
	test %r11,%r11
	je .L15_510.i7_v4
	mov %rdx,%r9
	mov %r8d,%eax
	xor %edx,%edx
	div %r11w
	movzwl %dx,%eax
	sub %rax,%r8
	mov %r9,%rdx
	.byte 102,144
	jmp .L15_86.i7_v4
.L15_82.i7_v4:
	and $0xfffffffffffffff0,%r8
.L15_86.i7_v4:
	mov %r8,%rax
	shl $0x6,%rax
	lea (%rdx,%rax,1),%r9
	cmp $0x10,%r11
	jne .L15_2b7.i7_v4
	mov %r8d,%ebx
	.byte 102,144
	and $0xf,%ebx
	jne .L15_2b7.i7_v4
	test %r8,%r8
	je .L15_3a5.i7_v4
	shr $0x4,%r8
	vmovdqu (%rdi,%r10,1),%ymm2
	vmovdqu 0x20(%rdi,%r10,1),%ymm3
	lea 0x38(%rdi),%r10
	lea 0xe0(%rdx),%r11
	vmovdqa .L26_180.i7_v4(%rip),%ymm0
	vmovdqa .L26_160.i7_v4(%rip),%ymm1
	xor %ebx,%ebx
	mov %rdx,%r14
	.byte 102,102,102,102,46,15,31,132,0,0,0,0,0
.L15_f0.i7_v4:
	xor %r15d,%r15d
	mov %r10,%r12
	.byte 102,46,15,31,132,0,0,0,0,0
.L15_100.i7_v4:
	prefetcht0 0x400(%r14,%r15,1)
	prefetcht0 0x440(%r14,%r15,1)
	prefetcht0 0x480(%r14,%r15,1)
	prefetcht0 0x4c0(%r14,%r15,1)
	vmovdqu -0xe0(%r11,%r15,1),%ymm6
	vmovdqu -0xc0(%r11,%r15,1),%ymm4
	vmovdqu -0xa0(%r11,%r15,1),%ymm7
	vpxor -0x38(%r12),%ymm6,%ymm8
	vmovdqu -0x80(%r11,%r15,1),%ymm5
	vpsrlq $0x20,%ymm8,%ymm9
	vpmuludq %ymm9,%ymm8,%ymm8
	vpaddq %ymm1,%ymm8,%ymm1
	vpxor -0x30(%r12),%ymm7,%ymm8
	vpsrlq $0x20,%ymm8,%ymm9
	vpmuludq %ymm9,%ymm8,%ymm8
	vmovdqu -0x60(%r11,%r15,1),%ymm9
	vpxor -0x28(%r12),%ymm9,%ymm10
	vpsrlq $0x20,%ymm10,%ymm11
	vpmuludq %ymm11,%ymm10,%ymm10
	vpaddq %ymm10,%ymm8,%ymm8
	vpaddq %ymm1,%ymm8,%ymm1
	vmovdqu -0x20(%r11,%r15,1),%ymm8
	vpxor -0x20(%r12),%ymm8,%ymm10
	vpsrlq $0x20,%ymm10,%ymm11
	vpmuludq %ymm11,%ymm10,%ymm10
	vpaddq %ymm6,%ymm7,%ymm6
	vpaddq %ymm8,%ymm9,%ymm7
	vpaddq %ymm7,%ymm6,%ymm6
	vpshufd $0x4e,%ymm6,%ymm6
	vpaddq %ymm6,%ymm10,%ymm6
	vpaddq %ymm6,%ymm1,%ymm1
	vpxor -0x18(%r12),%ymm4,%ymm6
	vpsrlq $0x20,%ymm6,%ymm7
	vpmuludq %ymm7,%ymm6,%ymm6
	vpxor -0x10(%r12),%ymm5,%ymm7
	vpaddq %ymm0,%ymm6,%ymm0
	vpsrlq $0x20,%ymm7,%ymm6
	vpmuludq %ymm6,%ymm7,%ymm6
	vmovdqu -0x40(%r11,%r15,1),%ymm7
	vpxor -0x8(%r12),%ymm7,%ymm8
	vpsrlq $0x20,%ymm8,%ymm9
	vpmuludq %ymm9,%ymm8,%ymm8
	vpaddq %ymm6,%ymm8,%ymm6
	vmovdqu (%r11,%r15,1),%ymm8
	vpxor (%r12),%ymm8,%ymm9
	vpaddq %ymm6,%ymm0,%ymm0
	vpsrlq $0x20,%ymm9,%ymm6
	vpmuludq %ymm6,%ymm9,%ymm6
	vpaddq %ymm4,%ymm5,%ymm4
	vpaddq %ymm7,%ymm8,%ymm5
	vpaddq %ymm5,%ymm4,%ymm4
	vpshufd $0x4e,%ymm4,%ymm4
	vpaddq %ymm6,%ymm4,%ymm4
	vpaddq %ymm4,%ymm0,%ymm0
	add $0x100,%r15
	add $0x20,%r12
	cmp $0x400,%r15
	jne .L15_100.i7_v4
	vpsrlq $0x2f,%ymm1,%ymm4
	vpxor %ymm1,%ymm2,%ymm1
	vpxor %ymm4,%ymm1,%ymm1
	vpbroadcastq .L27_50.i7_v4(%rip),%ymm4
	vpmulld %ymm4,%ymm1,%ymm5
	vpbroadcastq .L27_58.i7_v4(%rip),%ymm6
	vpmuludq %ymm6,%ymm1,%ymm1
	vpaddq %ymm5,%ymm1,%ymm1
	vpsrlq $0x2f,%ymm0,%ymm5
	vpxor %ymm0,%ymm3,%ymm0
	vpxor %ymm5,%ymm0,%ymm0
	vpmulld %ymm4,%ymm0,%ymm4
	vpmuludq %ymm6,%ymm0,%ymm0
	vpaddq %ymm4,%ymm0,%ymm0
	inc %rbx
	add $0x400,%r11
	add $0x400,%r14
	cmp %r8,%rbx
	jne .L15_f0.i7_v4
	jmp .L15_3a7.i7_v4
.L15_2b7.i7_v4:
	.byte 102,15,31,132,0,0,0,0,0
	test %r8,%r8
	je .L15_3a5.i7_v4
	vmovdqa .L26_180.i7_v4(%rip),%ymm0
	vmovdqa .L26_160.i7_v4(%rip),%ymm1
	xor %r14d,%r14d
	mov %rdx,%rbx
	.byte 144
	jmp .L15_2fd.i7_v4
	.byte 102,102,102,102,102,46,15,31,132,0,0,0,0,0
.L15_2f0.i7_v4:
	add $0x40,%rbx
	dec %r8
	je .L15_3a7.i7_v4
.L15_2fd.i7_v4:
	prefetcht0 0x140(%rbx)
	vmovdqu (%rbx),%ymm2
	vmovdqu 0x20(%rbx),%ymm3
	vpshufd $0x4e,%ymm2,%ymm4
	vpaddq %ymm4,%ymm1,%ymm1
	vpxor (%rdi,%r14,8),%ymm2,%ymm2
	vpsrlq $0x20,%ymm2,%ymm4
	vpmuludq %ymm4,%ymm2,%ymm2
	vpaddq %ymm2,%ymm1,%ymm1
	vpshufd $0x4e,%ymm3,%ymm2
	vpaddq %ymm0,%ymm2,%ymm0
	vpxor 0x20(%rdi,%r14,8),%ymm3,%ymm2
	vpsrlq $0x20,%ymm2,%ymm3
	vpmuludq %ymm3,%ymm2,%ymm2
	vpaddq %ymm2,%ymm0,%ymm0
	inc %r14
	cmp %r11,%r14
	jne .L15_2f0.i7_v4
	vpsrlq $0x2f,%ymm1,%ymm2
	vpxor (%rdi,%r10,1),%ymm2,%ymm2
	vpxor %ymm1,%ymm2,%ymm1
	vpbroadcastq .L27_50.i7_v4(%rip),%ymm2
	vpmulld %ymm2,%ymm1,%ymm3
	vpsrlq $0x2f,%ymm0,%ymm4
	vpxor 0x20(%rdi,%r10,1),%ymm4,%ymm4
	vpxor %ymm0,%ymm4,%ymm0
	vpbroadcastq .L27_58.i7_v4(%rip),%ymm4
	vpmuludq %ymm4,%ymm1,%ymm1
	vpmulld %ymm2,%ymm0,%ymm2
	vpaddq %ymm3,%ymm1,%ymm1
	vpmuludq %ymm4,%ymm0,%ymm0
	vpaddq %ymm2,%ymm0,%ymm0
	xor %r14d,%r14d
	.byte 15,31,64,0
	jmp .L15_2f0.i7_v4
.L15_3a5.i7_v4:
	xor %eax,%eax
.L15_3a7.i7_v4:
	not %rax
	add %rcx,%rax
	shr $0x6,%rax
	je .L15_40f.i7_v4
	shl $0x3,%rax
	xor %r8d,%r8d
	.byte 102,15,31,68,0,0
.L15_3c0.i7_v4:
	vmovdqu (%r9,%r8,8),%ymm2
	vmovdqu 0x20(%r9,%r8,8),%ymm3
	vpshufd $0x4e,%ymm2,%ymm4
	vpaddq %ymm4,%ymm1,%ymm1
	vpxor (%rdi,%r8,1),%ymm2,%ymm2
	vpsrlq $0x20,%ymm2,%ymm4
	vpmuludq %ymm4,%ymm2,%ymm2
	vpaddq %ymm2,%ymm1,%ymm1
	vpshufd $0x4e,%ymm3,%ymm2
	vpaddq %ymm0,%ymm2,%ymm0
	vpxor 0x20(%rdi,%r8,1),%ymm3,%ymm2
	vpsrlq $0x20,%ymm2,%ymm3
	vpmuludq %ymm3,%ymm2,%ymm2
	vpaddq %ymm2,%ymm0,%ymm0
	add $0x8,%r8
	cmp %r8,%rax
	jne .L15_3c0.i7_v4
.L15_40f.i7_v4:
	mov %rdx,%r8
	vmovdqu -0x40(%rdx,%rcx,1),%ymm2
	vpshufd $0x4e,%ymm2,%ymm3
	vpxor -0x47(%rdi,%rsi,1),%ymm2,%ymm2
	vpsrlq $0x20,%ymm2,%ymm4
	vpmuludq %ymm4,%ymm2,%ymm2
	vpaddq %ymm2,%ymm3,%ymm2
	vpaddq %ymm1,%ymm2,%ymm1
	movabs $0x9e3779b185ebca87,%r9
	imul %rcx,%r9
	vpxor 0xb(%rdi),%ymm1,%ymm1
	vpextrq $0x1,%xmm1,%rax
	vmovq %xmm1,%rdx
	mulx %rax,%rax,%r10
	xor %rax,%r10
	vextracti128 $0x1,%ymm1,%xmm1
	vpextrq $0x1,%xmm1,%rax
	vmovq %xmm1,%rdx
	mulx %rax,%rdx,%rax
	add %r9,%r10
	xor %rdx,%rax
	add %r10,%rax
	.byte 15,31,128,0,0,0,0
	cmp $0x88,%rsi
	jb .L15_505.i7_v4
	vmovdqu -0x20(%r8,%rcx,1),%ymm1
	vpshufd $0x4e,%ymm1,%ymm2
	vpxor -0x27(%rdi,%rsi,1),%ymm1,%ymm1
	vpsrlq $0x20,%ymm1,%ymm3
	vpmuludq %ymm3,%ymm1,%ymm1
	vpaddq %ymm1,%ymm2,%ymm1
	vpaddq %ymm0,%ymm1,%ymm0
	vpxor 0x2b(%rdi),%ymm0,%ymm0
	vmovq %xmm0,%rdx
	vpextrq $0x1,%xmm0,%rcx
	mulx %rcx,%rcx,%rsi
	xor %rcx,%rsi
	vextracti128 $0x1,%ymm0,%xmm0
	vmovq %xmm0,%rdx
	vpextrq $0x1,%xmm0,%rcx
	mulx %rcx,%rcx,%rdx
	xor %rcx,%rdx
	add %rsi,%rdx
	add %rdx,%rax
	mov %rax,%rcx
	shr $0x25,%rcx
	xor %rax,%rcx
	movabs $0x165667919e3779f9,%rdx
	imul %rcx,%rdx
	mov %rdx,%rax
	shr $0x20,%rax
	xor %rdx,%rax
.L15_505.i7_v4:
	pop %rbx
	.cfi_def_cfa_offset 32
	.cfi_restore 3
	pop %r12
	.cfi_def_cfa_offset 24
	.cfi_restore 12
	pop %r14
	.cfi_def_cfa_offset 16
	.cfi_restore 14
	pop %r15
	.cfi_def_cfa_offset 8
	.cfi_restore 15
	vzeroupper
	ret
	.cfi_def_cfa_offset 40
	.cfi_offset 3, -40
	.cfi_offset 12, -32
	.cfi_offset 14, -24
	.cfi_offset 15, -16
.L15_510.i7_v4:
	ud2
	.cfi_endproc
	.size twox_core.width_64.oneshot_long_of_any_length.i7_v4,.-twox_core.width_64.oneshot_long_of_any_length.i7_v4
	.section .text.twox_exports.stream_3.write_far.i7_v4,"ax",@progbits
	.p2align 6
	.type twox_exports.stream_3.write_far.i7_v4,@function
twox_exports.stream_3.write_far.i7_v4:
	.cfi_startproc
	push %rax
	.cfi_def_cfa_offset 16
	lea -0x40(%rdx),%r9
	shr $0x3,%r9
	mov $0x2,%eax
	cmp %r9,0x40(%rdi)
	jae .L16_c9.i7_v4
	mov 0x50(%rdi),%r10
	.byte 15,31,64,0
	cmp $0x200,%r10
	ja .L16_c9.i7_v4
	mov 0x58(%rdi),%r9
	test %r10,%r10
	.byte 15,132
	.long .L16_b7.i7_v4-.-4
	add %r8,%r9
	mov $0xffffffffffffffff,%r11
	cmovae %r9,%r11
.L16_48.i7_v4:
	lea 0x60(%rdi),%r9
	mov %r11,0x58(%rdi)
	mov $0x200,%eax
	sub %r10,%rax
	cmp %rax,%r8
	jbe .L16_81.i7_v4
	mov %rsi,%r10
	mov %rdx,%rax
	mov %rcx,%rsi
	mov %r8,%rdx
	mov %r10,%rcx
	cmp $0x7ff,%r8
	ja .L16_ce.i7_v4
	mov %rax,%r8
	call twox_core.xxhash3.streaming.stream_counts.StreamCounts.write_through.i7_v4
	xor %eax,%eax
	pop %rcx
	.cfi_def_cfa_offset 8
	ret
	.cfi_def_cfa_offset 16
.L16_81.i7_v4:
	lea (%r10,%r8,1),%rax
	mov %rax,0x50(%rdi)
	add %r10,%r9
	cmp $0x21,%r8
	jb .L16_dd.i7_v4
	mov %r9,%rax
	sub %rcx,%rax
	cmp %r8,%rax
	jae .L16_101.i7_v4
	lea (%r10,%rdi,1),%rax
	sub %rcx,%rax
	add $0x60,%rax
	cmp $0x80,%rax
	jae .L16_12d.i7_v4
	xor %edx,%edx
	jmp .L16_1da.i7_v4
.L16_b7.i7_v4:
	mov %r8,%r11
	.byte 102,15,31,68,0,0
	test %r9,%r9
	.byte 15,132
	.long .L16_48.i7_v4-.-4
.L16_c9.i7_v4:
	pop %rcx
	.cfi_def_cfa_offset 8
	vzeroupper
	ret
	.cfi_def_cfa_offset 16
.L16_ce.i7_v4:
	mov %rax,%r8
	call twox_core.xxhash3.streaming.stream_counts.StreamCounts.write_through.2.i7_v4
.L16_d6.i7_v4:
	xor %eax,%eax
	pop %rcx
	.cfi_def_cfa_offset 8
	vzeroupper
	ret
	.cfi_def_cfa_offset 16
.L16_dd.i7_v4:
	.byte 15,31,0
	cmp $0x11,%r8
	jb .L16_113.i7_v4
	vmovups (%rcx),%xmm0
	vmovups %xmm0,(%r9)
	vmovups -0x10(%rcx,%r8,1),%xmm0
	vmovups %xmm0,-0x10(%r9,%r8,1)
	xor %eax,%eax
	pop %rcx
	.cfi_def_cfa_offset 8
	ret
	.cfi_def_cfa_offset 16
.L16_101.i7_v4:
	mov %r9,%rdi
	mov %rcx,%rsi
	mov %r8,%rdx
	call memmove@PLT
	xor %eax,%eax
	pop %rcx
	.cfi_def_cfa_offset 8
	ret
	.cfi_def_cfa_offset 16
.L16_113.i7_v4:
	cmp $0x8,%r8
	jb .L16_13d.i7_v4
	mov (%rcx),%rax
	mov %rax,(%r9)
	mov -0x8(%rcx,%r8,1),%rax
	mov %rax,-0x8(%r9,%r8,1)
	xor %eax,%eax
	pop %rcx
	.cfi_def_cfa_offset 8
	ret
	.cfi_def_cfa_offset 16
.L16_12d.i7_v4:
	cmp $0x80,%r8
	jae .L16_15d.i7_v4
	xor %edx,%edx
	.byte 233
	.long .L16_1b6.i7_v4-.-4
.L16_13d.i7_v4:
	.byte 15,31,0
	cmp $0x4,%r8
	jb .L16_27c.i7_v4
	mov (%rcx),%eax
	mov %eax,(%r9)
	mov -0x4(%rcx,%r8,1),%eax
	mov %eax,-0x4(%r9,%r8,1)
	xor %eax,%eax
	pop %rcx
	.cfi_def_cfa_offset 8
	ret
	.cfi_def_cfa_offset 16
.L16_15d.i7_v4:
	mov %r8,%rdx
	and $0xffffffffffffff80,%rdx
	lea (%r10,%rdi,1),%rax
	add $0xc0,%rax
	xor %esi,%esi
.L16_170.i7_v4:
	vmovups (%rcx,%rsi,1),%ymm0
	vmovups 0x20(%rcx,%rsi,1),%ymm1
	vmovups 0x40(%rcx,%rsi,1),%ymm2
	vmovups 0x60(%rcx,%rsi,1),%ymm3
	vmovups %ymm0,-0x60(%rax,%rsi,1)
	vmovups %ymm1,-0x40(%rax,%rsi,1)
	vmovups %ymm2,-0x20(%rax,%rsi,1)
	vmovups %ymm3,(%rax,%rsi,1)
	sub $0xffffffffffffff80,%rsi
	cmp %rsi,%rdx
	jne .L16_170.i7_v4
	cmp %rdx,%r8
	je .L16_d6.i7_v4
	test $0x78,%r8b
	je .L16_1da.i7_v4
.L16_1b6.i7_v4:
	mov %rdx,%rax
	mov %r8,%rdx
	and $0xfffffffffffffff8,%rdx
.L16_1c0.i7_v4:
	mov (%rcx,%rax,1),%rsi
	mov %rsi,(%r9,%rax,1)
	add $0x8,%rax
	cmp %rax,%rdx
	jne .L16_1c0.i7_v4
	cmp %rdx,%r8
	je .L16_d6.i7_v4
.L16_1da.i7_v4:
	mov %r8,%rax
	mov %rdx,%rsi
	and $0x7,%rax
	je .L16_205.i7_v4
	mov %rdx,%rsi
	.byte 15,31,128,0,0,0,0
.L16_1f0.i7_v4:
	movzbl (%rcx,%rsi,1),%r11d
	mov %r11b,(%r9,%rsi,1)
	inc %rsi
	.byte 15,31,64,0
	dec %rax
	jne .L16_1f0.i7_v4
.L16_205.i7_v4:
	sub %r8,%rdx
	xor %eax,%eax
	cmp $0xfffffffffffffff8,%rdx
	ja .L16_c9.i7_v4
	lea (%r10,%rdi,1),%rdx
	add $0x67,%rdx
	.byte 15,31,64,0
.L16_220.i7_v4:
	movzbl (%rcx,%rsi,1),%edi
	mov %dil,-0x7(%rdx,%rsi,1)
	movzbl 0x1(%rcx,%rsi,1),%edi
	mov %dil,-0x6(%rdx,%rsi,1)
	movzbl 0x2(%rcx,%rsi,1),%edi
	mov %dil,-0x5(%rdx,%rsi,1)
	movzbl 0x3(%rcx,%rsi,1),%edi
	mov %dil,-0x4(%rdx,%rsi,1)
	movzbl 0x4(%rcx,%rsi,1),%edi
	mov %dil,-0x3(%rdx,%rsi,1)
	movzbl 0x5(%rcx,%rsi,1),%edi
	mov %dil,-0x2(%rdx,%rsi,1)
	movzbl 0x6(%rcx,%rsi,1),%edi
	mov %dil,-0x1(%rdx,%rsi,1)
	movzbl 0x7(%rcx,%rsi,1),%edi
	mov %dil,(%rdx,%rsi,1)
	add $0x8,%rsi
	cmp %rsi,%r8
	jne .L16_220.i7_v4
	jmp .L16_c9.i7_v4
.L16_27c.i7_v4:
	.byte 15,31,64,0
	cmp $0x2,%r8
	jb .L16_29d.i7_v4
	movzwl (%rcx),%eax
	mov %ax,(%r9)
	movzwl -0x2(%rcx,%r8,1),%eax
	mov %ax,-0x2(%r9,%r8,1)
	xor %eax,%eax
	pop %rcx
	.cfi_def_cfa_offset 8
	ret
	.cfi_def_cfa_offset 16
.L16_29d.i7_v4:
	xor %eax,%eax
	.byte 144
	cmp $0x1,%r8
	jne .L16_c9.i7_v4
	movzbl (%rcx),%ecx
	mov %cl,(%r9)
	pop %rcx
	.cfi_def_cfa_offset 8
	ret
	.cfi_endproc
	.size twox_exports.stream_3.write_far.i7_v4,.-twox_exports.stream_3.write_far.i7_v4
	.section .text.twox_core.xxhash3.streaming.stream_counts.StreamCounts.write_through.i7_v4,"ax",@progbits
	.p2align 6
	.type twox_core.xxhash3.streaming.stream_counts.StreamCounts.write_through.i7_v4,@function
twox_core.xxhash3.streaming.stream_counts.StreamCounts.write_through.i7_v4:
	.cfi_startproc
	push %r15
	.cfi_def_cfa_offset 16
	.cfi_offset 15, -16
	push %r14
	.cfi_def_cfa_offset 24
	.cfi_offset 14, -24
	push %r13
	.cfi_def_cfa_offset 32
	.cfi_offset 13, -32
	push %r12
	.cfi_def_cfa_offset 40
	.cfi_offset 12, -40
	push %rbx
	.cfi_def_cfa_offset 48
	.cfi_offset 3, -48
	mov 0x50(%rdi),%rax
	mov %eax,%r11d
	neg %r11d
	and $0x3f,%r11d
	je .L17_bf.i7_v4
	lea (%r9,%rax,1),%r10
	cmp $0x21,%r11d
	jb .L17_42.i7_v4
	vmovups (%rsi),%ymm0
	vmovups %ymm0,(%r10)
	vmovups -0x20(%rsi,%r11,1),%ymm0
	vmovups %ymm0,-0x20(%r10,%r11,1)
	.byte 102,144
	jmp .L17_b8.i7_v4
.L17_42.i7_v4:
	cmp $0x11,%r11d
	jb .L17_62.i7_v4
	vmovups (%rsi),%xmm0
	vmovups %xmm0,(%r10)
	vmovups -0x10(%rsi,%r11,1),%xmm0
	vmovups %xmm0,-0x10(%r10,%r11,1)
	.byte 144
	jmp .L17_b8.i7_v4
.L17_62.i7_v4:
	cmp $0x8,%r11d
	jb .L17_7a.i7_v4
	mov (%rsi),%rbx
	mov %rbx,(%r10)
	mov -0x8(%rsi,%r11,1),%rbx
	mov %rbx,-0x8(%r10,%r11,1)
	jmp .L17_b8.i7_v4
.L17_7a.i7_v4:
	.byte 102,15,31,68,0,0
	cmp $0x4,%r11d
	jb .L17_97.i7_v4
	mov (%rsi),%ebx
	mov %ebx,(%r10)
	mov -0x4(%rsi,%r11,1),%ebx
	mov %ebx,-0x4(%r10,%r11,1)
	jmp .L17_b8.i7_v4
.L17_97.i7_v4:
	cmp $0x1,%r11d
	jne .L17_a5.i7_v4
	movzbl (%rsi),%ebx
	mov %bl,(%r10)
	jmp .L17_b8.i7_v4
.L17_a5.i7_v4:
	movzwl (%rsi),%ebx
	mov %bx,(%r10)
	movzwl -0x2(%rsi,%r11,1),%ebx
	mov %bx,-0x2(%r10,%r11,1)
.L17_b8.i7_v4:
	add %r11,%rax
	mov %rax,0x50(%rdi)
.L17_bf.i7_v4:
	sub %r11,%rdx
	add $0xffffffffffffffc0,%r8
	mov %r8,%r10
	shr $0x3,%r10
	shr $0x6,%rax
	vmovdqu (%rdi),%ymm1
	vmovdqu 0x20(%rdi),%ymm0
	mov 0x40(%rdi),%rbx
	.byte 102,144
	je .L17_1a5.i7_v4
	mov %rax,%r14
	mov %r9,%r15
	jmp .L17_fd.i7_v4
	.byte 102,144
.L17_f0.i7_v4:
	add $0x40,%r15
	dec %r14
	je .L17_1a5.i7_v4
.L17_fd.i7_v4:
	prefetcht0 0x140(%r15)
	vmovdqu (%r15),%ymm2
	vmovdqu 0x20(%r15),%ymm3
	vpshufd $0x4e,%ymm2,%ymm4
	vpaddq %ymm1,%ymm4,%ymm1
	vpxor (%rcx,%rbx,8),%ymm2,%ymm2
	vpsrlq $0x20,%ymm2,%ymm4
	vpmuludq %ymm4,%ymm2,%ymm2
	vpaddq %ymm2,%ymm1,%ymm1
	vpshufd $0x4e,%ymm3,%ymm2
	vpaddq %ymm0,%ymm2,%ymm0
	vpxor 0x20(%rcx,%rbx,8),%ymm3,%ymm2
	vpsrlq $0x20,%ymm2,%ymm3
	vpmuludq %ymm3,%ymm2,%ymm2
	vpaddq %ymm2,%ymm0,%ymm0
	inc %rbx
	cmp %r10,%rbx
	jne .L17_f0.i7_v4
	vpsrlq $0x2f,%ymm1,%ymm2
	vpxor (%rcx,%r8,1),%ymm2,%ymm2
	vpxor %ymm1,%ymm2,%ymm1
	vpbroadcastq .L27_60.i7_v4(%rip),%ymm2
	vpmulld %ymm2,%ymm1,%ymm3
	vpsrlq $0x2f,%ymm0,%ymm4
	vpxor 0x20(%rcx,%r8,1),%ymm4,%ymm4
	vpxor %ymm0,%ymm4,%ymm0
	vpbroadcastq .L27_68.i7_v4(%rip),%ymm4
	vpmuludq %ymm4,%ymm1,%ymm1
	vpmulld %ymm2,%ymm0,%ymm2
	vpaddq %ymm3,%ymm1,%ymm1
	vpmuludq %ymm4,%ymm0,%ymm0
	vpaddq %ymm2,%ymm0,%ymm0
	xor %ebx,%ebx
	.byte 15,31,64,0
	jmp .L17_f0.i7_v4
.L17_1a5.i7_v4:
	vmovdqu %ymm1,(%rdi)
	vmovdqu %ymm0,0x20(%rdi)
	add %r11,%rsi
	mov %rbx,0x40(%rdi)
	add 0x48(%rdi),%rax
	mov $0xffffffffffffffff,%r11
	cmovb %r11,%rax
	mov %rax,0x48(%rdi)
	xor %r14d,%r14d
	mov %rdx,%r15
	sub $0x40,%r15
	cmovae %r15,%r14
	movq $0x0,0x50(%rdi)
	mov %r14,%r15
	and $0xffffffffffffffc0,%r15
	sub %r15,%rdx
	shr $0x6,%r14
	je .L17_2b7.i7_v4
	mov %r14,%r12
	neg %r12
	mov %rsi,%r13
	jmp .L17_20d.i7_v4
	.byte 15,31,0
.L17_200.i7_v4:
	add $0x40,%r13
	inc %r12
	je .L17_2b7.i7_v4
.L17_20d.i7_v4:
	prefetcht0 0x140(%r13)
	vmovdqu 0x0(%r13),%ymm2
	vmovdqu 0x20(%r13),%ymm3
	vpshufd $0x4e,%ymm2,%ymm4
	vpaddq %ymm1,%ymm4,%ymm1
	vpxor (%rcx,%rbx,8),%ymm2,%ymm2
	vpsrlq $0x20,%ymm2,%ymm4
	vpmuludq %ymm4,%ymm2,%ymm2
	vpaddq %ymm2,%ymm1,%ymm1
	vpshufd $0x4e,%ymm3,%ymm2
	vpaddq %ymm0,%ymm2,%ymm0
	vpxor 0x20(%rcx,%rbx,8),%ymm3,%ymm2
	vpsrlq $0x20,%ymm2,%ymm3
	vpmuludq %ymm3,%ymm2,%ymm2
	vpaddq %ymm2,%ymm0,%ymm0
	inc %rbx
	.byte 15,31,68,0,0
	cmp %r10,%rbx
	jne .L17_200.i7_v4
	vpsrlq $0x2f,%ymm1,%ymm2
	vpxor (%rcx,%r8,1),%ymm2,%ymm2
	vpxor %ymm1,%ymm2,%ymm1
	vpbroadcastq .L27_60.i7_v4(%rip),%ymm2
	vpmulld %ymm2,%ymm1,%ymm3
	vpsrlq $0x2f,%ymm0,%ymm4
	vpxor 0x20(%rcx,%r8,1),%ymm4,%ymm4
	vpxor %ymm0,%ymm4,%ymm0
	vpbroadcastq .L27_68.i7_v4(%rip),%ymm4
	vpmuludq %ymm4,%ymm1,%ymm1
	vpmulld %ymm2,%ymm0,%ymm2
	vpaddq %ymm3,%ymm1,%ymm1
	vpmuludq %ymm4,%ymm0,%ymm0
	vpaddq %ymm2,%ymm0,%ymm0
	xor %ebx,%ebx
	jmp .L17_200.i7_v4
.L17_2b7.i7_v4:
	add %r15,%rsi
	vmovdqu %ymm1,(%rdi)
	vmovdqu %ymm0,0x20(%rdi)
	mov %rbx,0x40(%rdi)
	add %rax,%r14
	cmovb %r11,%r14
	mov %r14,0x48(%rdi)
	cmp $0x41,%rdx
	jb .L17_30b.i7_v4
	vmovups (%rsi),%ymm0
	vmovups 0x20(%rsi),%ymm1
	vmovups %ymm1,0x20(%r9)
	vmovups %ymm0,(%r9)
	vmovdqu -0x40(%rsi,%rdx,1),%ymm0
	vmovdqu -0x20(%rsi,%rdx,1),%ymm1
	vmovdqu %ymm1,-0x20(%r9,%rdx,1)
	vmovdqu %ymm0,-0x40(%r9,%rdx,1)
	jmp .L17_39c.i7_v4
.L17_30b.i7_v4:
	cmp $0x21,%rdx
	jb .L17_329.i7_v4
	vmovups (%rsi),%ymm0
	vmovups %ymm0,(%r9)
	vmovdqu -0x20(%rsi,%rdx,1),%ymm0
	vmovdqu %ymm0,-0x20(%r9,%rdx,1)
	jmp .L17_39c.i7_v4
.L17_329.i7_v4:
	cmp $0x11,%rdx
	jb .L17_347.i7_v4
	vmovups (%rsi),%xmm0
	vmovups %xmm0,(%r9)
	vmovdqu -0x10(%rsi,%rdx,1),%xmm0
	vmovdqu %xmm0,-0x10(%r9,%rdx,1)
	jmp .L17_39c.i7_v4
.L17_347.i7_v4:
	cmp $0x8,%rdx
	jb .L17_35f.i7_v4
	mov (%rsi),%rax
	mov %rax,(%r9)
	mov -0x8(%rsi,%rdx,1),%rax
	mov %rax,-0x8(%r9,%rdx,1)
	jmp .L17_39c.i7_v4
.L17_35f.i7_v4:
	.byte 144
	cmp $0x4,%rdx
	jb .L17_376.i7_v4
	mov (%rsi),%eax
	mov %eax,(%r9)
	mov -0x4(%rsi,%rdx,1),%eax
	mov %eax,-0x4(%r9,%rdx,1)
	jmp .L17_39c.i7_v4
.L17_376.i7_v4:
	cmp $0x2,%rdx
	jb .L17_390.i7_v4
	movzwl (%rsi),%eax
	mov %ax,(%r9)
	movzwl -0x2(%rsi,%rdx,1),%eax
	mov %ax,-0x2(%r9,%rdx,1)
	jmp .L17_39c.i7_v4
.L17_390.i7_v4:
	cmp $0x1,%rdx
	jne .L17_39c.i7_v4
	movzbl (%rsi),%eax
	mov %al,(%r9)
.L17_39c.i7_v4:
	mov %rdx,0x50(%rdi)
	pop %rbx
	.cfi_def_cfa_offset 40
	.cfi_restore 3
	pop %r12
	.cfi_def_cfa_offset 32
	.cfi_restore 12
	pop %r13
	.cfi_def_cfa_offset 24
	.cfi_restore 13
	pop %r14
	.cfi_def_cfa_offset 16
	.cfi_restore 14
	pop %r15
	.cfi_def_cfa_offset 8
	.cfi_restore 15
	vzeroupper
	ret
	.cfi_endproc
	.size twox_core.xxhash3.streaming.stream_counts.StreamCounts.write_through.i7_v4,.-twox_core.xxhash3.streaming.stream_counts.StreamCounts.write_through.i7_v4
	.section .text.twox_core.xxhash3.streaming.stream_counts.StreamCounts.write_through.2.i7_v4,"ax",@progbits
	.p2align 6
	.type twox_core.xxhash3.streaming.stream_counts.StreamCounts.write_through.2.i7_v4,@function
twox_core.xxhash3.streaming.stream_counts.StreamCounts.write_through.2.i7_v4:
	.cfi_startproc
	push %rbp
	.cfi_def_cfa_offset 16
	.cfi_offset 6, -16
	push %r15
	.cfi_def_cfa_offset 24
	.cfi_offset 15, -24
	push %r14
	.cfi_def_cfa_offset 32
	.cfi_offset 14, -32
	push %r13
	.cfi_def_cfa_offset 40
	.cfi_offset 13, -40
	push %r12
	.cfi_def_cfa_offset 48
	.cfi_offset 12, -48
	push %rbx
	.cfi_def_cfa_offset 56
	.cfi_offset 3, -56
	push %rax
	.cfi_def_cfa_offset 64
	mov %r9,%r15
	mov %rdx,%rbx
	mov %rdi,%r14
	mov 0x50(%rdi),%rax
	mov %eax,%edx
	neg %edx
	.byte 15,31,64,0
	and $0x3f,%edx
	je .L18_ba.i7_v4
	lea (%r15,%rax,1),%rdi
	cmp $0x21,%edx
	jb .L18_48.i7_v4
	vmovups (%rsi),%ymm0
	vmovups %ymm0,(%rdi)
	vmovups -0x20(%rsi,%rdx,1),%ymm0
	vmovups %ymm0,-0x20(%rdi,%rdx,1)
	jmp .L18_b3.i7_v4
.L18_48.i7_v4:
	cmp $0x11,%edx
	jb .L18_63.i7_v4
	vmovups (%rsi),%xmm0
	vmovups %xmm0,(%rdi)
	vmovups -0x10(%rsi,%rdx,1),%xmm0
	vmovups %xmm0,-0x10(%rdi,%rdx,1)
	jmp .L18_b3.i7_v4
.L18_63.i7_v4:
	cmp $0x8,%edx
	jb .L18_7a.i7_v4
	mov (%rsi),%r9
	mov %r9,(%rdi)
	mov -0x8(%rsi,%rdx,1),%r9
	mov %r9,-0x8(%rdi,%rdx,1)
	jmp .L18_b3.i7_v4
.L18_7a.i7_v4:
	cmp $0x4,%edx
	jb .L18_91.i7_v4
	mov (%rsi),%r9d
	mov %r9d,(%rdi)
	mov -0x4(%rsi,%rdx,1),%r9d
	mov %r9d,-0x4(%rdi,%rdx,1)
	jmp .L18_b3.i7_v4
.L18_91.i7_v4:
	cmp $0x1,%edx
	jne .L18_9f.i7_v4
	movzbl (%rsi),%r9d
	mov %r9b,(%rdi)
	jmp .L18_b3.i7_v4
.L18_9f.i7_v4:
	movzwl (%rsi),%r9d
	mov %r9w,(%rdi)
	movzwl -0x2(%rsi,%rdx,1),%r9d
	mov %r9w,-0x2(%rdi,%rdx,1)
.L18_b3.i7_v4:
	add %rdx,%rax
	mov %rax,0x50(%r14)
.L18_ba.i7_v4:
	add %rdx,%rsi
	sub %rdx,%rbx
	shr $0x6,%rax
	vmovdqu (%r14),%ymm1
	vmovdqu 0x20(%r14),%ymm0
	mov 0x40(%r14),%r11
	je .L18_1a5.i7_v4
	lea -0x40(%r8),%rdx
	mov %rdx,%rdi
	shr $0x3,%rdi
	mov %rax,%r9
	mov %r15,%r10
	jmp .L18_fd.i7_v4
	.byte 15,31,64,0
.L18_f0.i7_v4:
	add $0x40,%r10
	dec %r9
	je .L18_1a5.i7_v4
.L18_fd.i7_v4:
	prefetcht0 0x140(%r10)
	vmovdqu (%r10),%ymm2
	vmovdqu 0x20(%r10),%ymm3
	vpshufd $0x4e,%ymm2,%ymm4
	vpaddq %ymm1,%ymm4,%ymm1
	vpxor (%rcx,%r11,8),%ymm2,%ymm2
	vpsrlq $0x20,%ymm2,%ymm4
	vpmuludq %ymm4,%ymm2,%ymm2
	vpaddq %ymm2,%ymm1,%ymm1
	vpshufd $0x4e,%ymm3,%ymm2
	vpaddq %ymm0,%ymm2,%ymm0
	vpxor 0x20(%rcx,%r11,8),%ymm3,%ymm2
	vpsrlq $0x20,%ymm2,%ymm3
	vpmuludq %ymm3,%ymm2,%ymm2
	vpaddq %ymm2,%ymm0,%ymm0
	inc %r11
	cmp %rdi,%r11
	jne .L18_f0.i7_v4
	vpsrlq $0x2f,%ymm1,%ymm2
	vpxor (%rcx,%rdx,1),%ymm2,%ymm2
	vpxor %ymm1,%ymm2,%ymm1
	vpbroadcastq .L27_70.i7_v4(%rip),%ymm2
	vpmulld %ymm2,%ymm1,%ymm3
	vpsrlq $0x2f,%ymm0,%ymm4
	vpxor 0x20(%rcx,%rdx,1),%ymm4,%ymm4
	vpxor %ymm0,%ymm4,%ymm0
	vpbroadcastq .L27_78.i7_v4(%rip),%ymm4
	vpmuludq %ymm4,%ymm1,%ymm1
	vpmulld %ymm2,%ymm0,%ymm2
	vpaddq %ymm3,%ymm1,%ymm1
	vpmuludq %ymm4,%ymm0,%ymm0
	vpaddq %ymm2,%ymm0,%ymm0
	xor %r11d,%r11d
	.byte 15,31,0
	jmp .L18_f0.i7_v4
.L18_1a5.i7_v4:
	vmovdqu %ymm1,(%r14)
	vmovdqu %ymm0,0x20(%r14)
	mov %r11,0x40(%r14)
	add 0x48(%r14),%rax
	mov $0xffffffffffffffff,%r13
	cmovb %r13,%rax
	mov %rax,0x48(%r14)
	xor %ebp,%ebp
	mov %rbx,%rax
	sub $0x40,%rax
	cmovae %rax,%rbp
	movq $0x0,0x50(%r14)
	mov %rbp,%rdx
	and $0xffffffffffffffc0,%rdx
	lea (%rsi,%rdx,1),%r12
	sub %rdx,%rbx
	mov %r14,%rdi
	vzeroupper
	call twox_core.xxhash3.stripes.take_many_stripes.i7_v4
	shr $0x6,%rbp
	add 0x48(%r14),%rbp
	cmovb %r13,%rbp
	mov %rbp,0x48(%r14)
	cmp $0x41,%rbx
	jb .L18_245.i7_v4
	vmovups (%r12),%ymm0
	vmovups 0x20(%r12),%ymm1
	vmovups %ymm1,0x20(%r15)
	vmovups %ymm0,(%r15)
	vmovdqu -0x40(%r12,%rbx,1),%ymm0
	vmovdqu -0x20(%r12,%rbx,1),%ymm1
	vmovdqu %ymm1,-0x20(%r15,%rbx,1)
	vmovdqu %ymm0,-0x40(%r15,%rbx,1)
	.byte 144
	jmp .L18_2ee.i7_v4
.L18_245.i7_v4:
	cmp $0x21,%rbx
	jb .L18_269.i7_v4
	vmovups (%r12),%ymm0
	vmovups %ymm0,(%r15)
	vmovdqu -0x20(%r12,%rbx,1),%ymm0
	vmovdqu %ymm0,-0x20(%r15,%rbx,1)
	jmp .L18_2ee.i7_v4
.L18_269.i7_v4:
	cmp $0x11,%rbx
	jb .L18_28a.i7_v4
	vmovups (%r12),%xmm0
	vmovups %xmm0,(%r15)
	vmovdqu -0x10(%r12,%rbx,1),%xmm0
	vmovdqu %xmm0,-0x10(%r15,%rbx,1)
	jmp .L18_2ee.i7_v4
.L18_28a.i7_v4:
	cmp $0x8,%rbx
	jb .L18_2a3.i7_v4
	mov (%r12),%rax
	mov %rax,(%r15)
	mov -0x8(%r12,%rbx,1),%rax
	mov %rax,-0x8(%r15,%rbx,1)
	jmp .L18_2ee.i7_v4
.L18_2a3.i7_v4:
	cmp $0x4,%rbx
	jb .L18_2bc.i7_v4
	mov (%r12),%eax
	mov %eax,(%r15)
	mov -0x4(%r12,%rbx,1),%eax
	mov %eax,-0x4(%r15,%rbx,1)
	jmp .L18_2ee.i7_v4
.L18_2bc.i7_v4:
	.byte 15,31,64,0
	cmp $0x2,%rbx
	jb .L18_2dd.i7_v4
	movzwl (%r12),%eax
	mov %ax,(%r15)
	movzwl -0x2(%r12,%rbx,1),%eax
	mov %ax,-0x2(%r15,%rbx,1)
	jmp .L18_2ee.i7_v4
.L18_2dd.i7_v4:
	.byte 15,31,0
	cmp $0x1,%rbx
	jne .L18_2ee.i7_v4
	movzbl (%r12),%eax
	mov %al,(%r15)
.L18_2ee.i7_v4:
	mov %rbx,0x50(%r14)
	add $0x8,%rsp
	.cfi_def_cfa_offset 56
	pop %rbx
	.cfi_def_cfa_offset 48
	.cfi_restore 3
	pop %r12
	.cfi_def_cfa_offset 40
	.cfi_restore 12
	pop %r13
	.cfi_def_cfa_offset 32
	.cfi_restore 13
	pop %r14
	.cfi_def_cfa_offset 24
	.cfi_restore 14
	pop %r15
	.cfi_def_cfa_offset 16
	.cfi_restore 15
	pop %rbp
	.cfi_def_cfa_offset 8
	.cfi_restore 6
	vzeroupper
	ret
	.cfi_endproc
	.size twox_core.xxhash3.streaming.stream_counts.StreamCounts.write_through.2.i7_v4,.-twox_core.xxhash3.streaming.stream_counts.StreamCounts.write_through.2.i7_v4
	.section .text.twox_rust_7_interface_v4,"ax",@progbits
	.p2align 6
	.weak twox_rust_7_interface_v4
	.hidden twox_rust_7_interface_v4
	.type twox_rust_7_interface_v4,@function
twox_rust_7_interface_v4:
	.cfi_startproc
	mov $0x7,%eax
	ret
	.cfi_endproc
	.size twox_rust_7_interface_v4,.-twox_rust_7_interface_v4
	.section .text.twox_rust_7_xxh32_write_v4,"ax",@progbits
	.p2align 6
	.weak twox_rust_7_xxh32_write_v4
	.hidden twox_rust_7_xxh32_write_v4
	.type twox_rust_7_xxh32_write_v4,@function
twox_rust_7_xxh32_write_v4:
	.cfi_startproc
	xor %ecx,%ecx
	test %rsi,%rsi
	sete %r9b
	mov $0xcdcca7a8,%r8d
	add 0xc(%rdi),%r8d
	mov $0x2,%eax
	cmp $0xf,%r8d
	jbe .L20_1f.i7_v4
.L20_1e.i7_v4:
	ret
.L20_1f.i7_v4:
	mov %r9b,%cl
	shl $0xc,%ecx
	add %rcx,%rsi
	mov 0x14(%rdi),%rax
	add %rdx,%rax
	mov $0xffffffffffffffff,%rcx
	cmovae %rax,%rcx
	mov %rcx,0x14(%rdi)
	.byte 102,144
	test %r8,%r8
	je .L20_1a8.i7_v4
	lea (%rdx,%r8,1),%rax
	lea (%rdi,%r8,1),%rcx
	add $0x20,%rcx
	cmp $0xf,%rax
	ja .L20_80.i7_v4
	add $0x32335858,%eax
	mov %eax,0xc(%rdi)
	cmp $0x11,%rdx
	jb .L20_a9.i7_v4
	vmovups (%rsi),%xmm0
	vmovups %xmm0,(%rcx)
	vmovups -0x10(%rsi,%rdx,1),%xmm0
	vmovups %xmm0,-0x10(%rcx,%rdx,1)
	xor %eax,%eax
	ret
.L20_80.i7_v4:
	mov $0x10,%eax
	sub %r8,%rax
	cmp $0x8,%r8d
	ja .L20_c2.i7_v4
	mov (%rsi),%rcx
	mov %rcx,0x20(%rdi,%r8,1)
	mov %rsi,%rcx
	sub %r8,%rcx
	mov 0x8(%rcx),%rcx
	mov %rcx,0x28(%rdi)
	jmp .L20_138.i7_v4
.L20_a9.i7_v4:
	cmp $0x8,%rdx
	jb .L20_dd.i7_v4
	mov (%rsi),%rax
	mov %rax,(%rcx)
	mov -0x8(%rsi,%rdx,1),%rax
	mov %rax,-0x8(%rcx,%rdx,1)
	xor %eax,%eax
	ret
.L20_c2.i7_v4:
	cmp $0xc,%r8d
	ja .L20_f5.i7_v4
	mov (%rsi),%ecx
	mov %ecx,0x20(%rdi,%r8,1)
	mov %rsi,%rcx
	sub %r8,%rcx
	mov 0xc(%rcx),%ecx
	mov %ecx,0x2c(%rdi)
	jmp .L20_138.i7_v4
.L20_dd.i7_v4:
	.byte 15,31,0
	cmp $0x4,%rdx
	jb .L20_104.i7_v4
	mov (%rsi),%eax
	mov %eax,(%rcx)
	mov -0x4(%rsi,%rdx,1),%eax
	mov %eax,-0x4(%rcx,%rdx,1)
	xor %eax,%eax
	ret
.L20_f5.i7_v4:
	cmp $0xf,%r8d
	jne .L20_121.i7_v4
	movzbl (%rsi),%r8d
	mov %r8b,(%rcx)
	jmp .L20_138.i7_v4
.L20_104.i7_v4:
	cmp $0x2,%rdx
	jb .L20_391.i7_v4
	movzwl (%rsi),%eax
	mov %ax,(%rcx)
	movzwl -0x2(%rsi,%rdx,1),%eax
	mov %ax,-0x2(%rcx,%rdx,1)
	xor %eax,%eax
	ret
.L20_121.i7_v4:
	movzwl (%rsi),%ecx
	mov %cx,0x20(%rdi,%r8,1)
	mov %rsi,%rcx
	sub %r8,%rcx
	movzwl 0xe(%rcx),%ecx
	mov %cx,0x2e(%rdi)
.L20_138.i7_v4:
	add %rax,%rsi
	sub %rax,%rdx
	imul $0x85ebca77,0x20(%rdi),%eax
	add (%rdi),%eax
	rorx $0x13,%eax,%eax
	imul $0x9e3779b1,%eax,%eax
	imul $0x85ebca77,0x24(%rdi),%ecx
	add 0x8(%rdi),%ecx
	rorx $0x13,%ecx,%ecx
	imul $0x9e3779b1,%ecx,%ecx
	imul $0x85ebca77,0x28(%rdi),%r8d
	add 0x10(%rdi),%r8d
	rorx $0x13,%r8d,%r8d
	imul $0x9e3779b1,%r8d,%r8d
	imul $0x85ebca77,0x2c(%rdi),%r9d
	add 0x1c(%rdi),%r9d
	rorx $0x13,%r9d,%r9d
	imul $0x9e3779b1,%r9d,%r9d
	mov %eax,(%rdi)
	mov %ecx,0x8(%rdi)
	mov %r8d,0x10(%rdi)
	mov %r9d,0x1c(%rdi)
.L20_1a8.i7_v4:
	push %rbp
	.cfi_def_cfa_offset 16
	.cfi_offset 6, -16
	push %rbx
	.cfi_def_cfa_offset 24
	.cfi_offset 3, -24
	push %rax
	.cfi_def_cfa_offset 32
	cmp $0x80,%rdx
	jb .L20_1be.i7_v4
	call twox_plain.xxhash32.StateInMemory.add_blocks_in_place.i7_v4
	jmp .L20_388.i7_v4
.L20_1be.i7_v4:
	.byte 102,144
	cmp $0x10,%rdx
	jb .L20_32c.i7_v4
	mov (%rdi),%r9d
	mov 0x8(%rdi),%r8d
	mov 0x10(%rdi),%ecx
	mov 0x1c(%rdi),%eax
	lea -0x10(%rdx),%r10
	.byte 15,31,68,0,0
	test $0x10,%r10b
	jne .L20_245.i7_v4
	imul $0x85ebca77,(%rsi),%edx
	add %r9d,%edx
	imul $0x85ebca77,0x4(%rsi),%r11d
	imul $0x85ebca77,0x8(%rsi),%ebx
	imul $0x85ebca77,0xc(%rsi),%ebp
	add %r8d,%r11d
	add $0x10,%rsi
	rorx $0x13,%edx,%edx
	imul $0x9e3779b1,%edx,%r9d
	rorx $0x13,%r11d,%edx
	imul $0x9e3779b1,%edx,%r8d
	add %ecx,%ebx
	rorx $0x13,%ebx,%ecx
	imul $0x9e3779b1,%ecx,%ecx
	add %eax,%ebp
	rorx $0x13,%ebp,%eax
	imul $0x9e3779b1,%eax,%eax
	mov %r10,%rdx
.L20_245.i7_v4:
	cmp $0x10,%r10
	jb .L20_31c.i7_v4
	.byte 144
.L20_250.i7_v4:
	imul $0x85ebca77,(%rsi),%r10d
	add %r9d,%r10d
	rorx $0x13,%r10d,%r9d
	imul $0x9e3779b1,%r9d,%r9d
	imul $0x85ebca77,0x4(%rsi),%r10d
	add %r8d,%r10d
	rorx $0x13,%r10d,%r8d
	imul $0x85ebca77,0x8(%rsi),%r10d
	imul $0x9e3779b1,%r8d,%r8d
	add %ecx,%r10d
	rorx $0x13,%r10d,%ecx
	imul $0x9e3779b1,%ecx,%ecx
	imul $0x85ebca77,0xc(%rsi),%r10d
	add %eax,%r10d
	rorx $0x13,%r10d,%eax
	imul $0x9e3779b1,%eax,%eax
	imul $0x85ebca77,0x10(%rsi),%r10d
	add %r9d,%r10d
	imul $0x85ebca77,0x14(%rsi),%r11d
	imul $0x85ebca77,0x18(%rsi),%ebx
	add %r8d,%r11d
	imul $0x85ebca77,0x1c(%rsi),%ebp
	add $0x20,%rsi
	add $0xffffffffffffffe0,%rdx
	rorx $0x13,%r10d,%r8d
	imul $0x9e3779b1,%r8d,%r9d
	rorx $0x13,%r11d,%r8d
	imul $0x9e3779b1,%r8d,%r8d
	add %ecx,%ebx
	rorx $0x13,%ebx,%ecx
	imul $0x9e3779b1,%ecx,%ecx
	add %eax,%ebp
	rorx $0x13,%ebp,%eax
	imul $0x9e3779b1,%eax,%eax
	cmp $0xf,%rdx
	ja .L20_250.i7_v4
	mov %rdx,%r10
.L20_31c.i7_v4:
	mov %r9d,(%rdi)
	mov %r8d,0x8(%rdi)
	mov %ecx,0x10(%rdi)
	mov %eax,0x1c(%rdi)
	mov %r10,%rdx
.L20_32c.i7_v4:
	test %rdx,%rdx
	je .L20_37f.i7_v4
	cmp $0x8,%rdx
	jb .L20_34a.i7_v4
	mov (%rsi),%rax
	mov %rax,0x20(%rdi)
	mov -0x8(%rdx,%rsi,1),%rax
	mov %rax,0x18(%rdi,%rdx,1)
	jmp .L20_37f.i7_v4
.L20_34a.i7_v4:
	cmp $0x4,%rdx
	jb .L20_35f.i7_v4
	mov (%rsi),%eax
	mov %eax,0x20(%rdi)
	mov -0x4(%rdx,%rsi,1),%eax
	mov %eax,0x1c(%rdi,%rdx,1)
	jmp .L20_37f.i7_v4
.L20_35f.i7_v4:
	.byte 144
	cmp $0x1,%rdx
	jne .L20_36e.i7_v4
	movzbl (%rsi),%eax
	mov %al,0x20(%rdi)
	jmp .L20_37f.i7_v4
.L20_36e.i7_v4:
	movzwl (%rsi),%eax
	mov %ax,0x20(%rdi)
	movzwl -0x2(%rdx,%rsi,1),%eax
	mov %ax,0x1e(%rdi,%rdx,1)
.L20_37f.i7_v4:
	add $0x32335858,%edx
	mov %edx,0xc(%rdi)
.L20_388.i7_v4:
	xor %eax,%eax
	add $0x8,%rsp
	.cfi_def_cfa_offset 24
	pop %rbx
	.cfi_def_cfa_offset 16
	.cfi_restore 3
	pop %rbp
	.cfi_def_cfa_offset 8
	.cfi_restore 6
	ret
.L20_391.i7_v4:
	xor %eax,%eax
	cmp $0x1,%rdx
	jne .L20_1e.i7_v4
	movzbl (%rsi),%edx
	mov %dl,(%rcx)
	ret
	.cfi_endproc
	.size twox_rust_7_xxh32_write_v4,.-twox_rust_7_xxh32_write_v4
	.section .text.twox_rust_7_xxh3_128_long_v4,"ax",@progbits
	.p2align 6
	.weak twox_rust_7_xxh3_128_long_v4
	.hidden twox_rust_7_xxh3_128_long_v4
	.type twox_rust_7_xxh3_128_long_v4,@function
twox_rust_7_xxh3_128_long_v4:
	.cfi_startproc
	push %rbx
	.cfi_def_cfa_offset 16
	.cfi_offset 3, -16
	xor %r10d,%r10d
	test %rdi,%rdi
	sete %bl
	xor %r9d,%r9d
	test %rdx,%rdx
	sete %r11b
	mov $0x3,%eax
	.byte 15,31,128,0,0,0,0
	cmp $0xf1,%rsi
	jb .L21_6e.i7_v4
	mov $0x1,%eax
	cmp $0x88,%rcx
	jb .L21_6e.i7_v4
	mov %bl,%r10b
	shl $0xc,%r10d
	add %r10,%rdi
	mov %r11b,%r9b
	shl $0xc,%r9d
	add %r9,%rdx
	mov %rdi,%rax
	mov %rdx,%rdi
	mov %rsi,%r9
	mov %rcx,%rsi
	mov %rax,%rdx
	mov %r9,%rcx
	mov %r8,%rbx
	call twox_core.width_128.oneshot_long.i7_v4
	mov %rax,(%rbx)
	mov %rdx,0x8(%rbx)
	xor %eax,%eax
.L21_6e.i7_v4:
	pop %rbx
	.cfi_def_cfa_offset 8
	.cfi_restore 3
	ret
	.cfi_endproc
	.size twox_rust_7_xxh3_128_long_v4,.-twox_rust_7_xxh3_128_long_v4
	.section .text.twox_rust_7_xxh3_64_long_v4,"ax",@progbits
	.p2align 6
	.weak twox_rust_7_xxh3_64_long_v4
	.hidden twox_rust_7_xxh3_64_long_v4
	.type twox_rust_7_xxh3_64_long_v4,@function
twox_rust_7_xxh3_64_long_v4:
	.cfi_startproc
	xor %r8d,%r8d
	test %rdi,%rdi
	sete %r10b
	xor %eax,%eax
	test %rdx,%rdx
	sete %r9b
	cmp $0xf1,%rsi
	jae .L22_24.i7_v4
	mov $0x3,%eax
	xor %edx,%edx
	ret
.L22_24.i7_v4:
	cmp $0x88,%rcx
	jb .L22_62.i7_v4
	push %rax
	.cfi_def_cfa_offset 16
	mov %r10b,%r8b
	shl $0xc,%r8d
	add %r8,%rdi
	mov %r9b,%al
	shl $0xc,%eax
	add %rax,%rdx
	mov %rdi,%rax
	mov %rdx,%rdi
	mov %rsi,%r8
	mov %rcx,%rsi
	mov %rax,%rdx
	mov %r8,%rcx
	call twox_core.width_64.oneshot_long.i7_v4
	mov %rax,%rdx
	xor %eax,%eax
	add $0x8,%rsp
	.cfi_def_cfa_offset 8
	ret
.L22_62.i7_v4:
	mov $0x1,%eax
	xor %edx,%edx
	ret
	.cfi_endproc
	.size twox_rust_7_xxh3_64_long_v4,.-twox_rust_7_xxh3_64_long_v4
	.section .text.twox_rust_7_xxh3_write_v4,"ax",@progbits
	.p2align 6
	.weak twox_rust_7_xxh3_write_v4
	.hidden twox_rust_7_xxh3_write_v4
	.type twox_rust_7_xxh3_write_v4,@function
twox_rust_7_xxh3_write_v4:
	.cfi_startproc
	push %rbx
	.cfi_def_cfa_offset 16
	.cfi_offset 3, -16
	xor %r9d,%r9d
	test %rsi,%rsi
	sete %r10b
	xor %r11d,%r11d
	test %rcx,%rcx
	sete %bl
	mov $0x1,%eax
	.byte 15,31,128,0,0,0,0
	cmp $0x88,%rdx
	jb .L23_15c.i7_v4
	mov %bl,%r11b
	shl $0xc,%r11d
	add %r11,%rcx
	mov 0x50(%rdi),%rax
	mov %rax,%r11
	.byte 102,144
	sub $0x200,%r11
	ja .L23_eb.i7_v4
	cmp $0x40,%r8
	ja .L23_eb.i7_v4
	neg %r11
	.byte 102,15,31,68,0,0
	cmp %r11,%r8
	ja .L23_eb.i7_v4
	lea -0x40(%rdx),%r11
	shr $0x3,%r11
	cmp %r11,0x40(%rdi)
	jae .L23_eb.i7_v4
	mov 0x58(%rdi),%r11
	.byte 15,31,68,0,0
	test %rax,%rax
	je .L23_e3.i7_v4
	add %r8,%r11
	mov $0xffffffffffffffff,%rbx
	cmovae %r11,%rbx
.L23_93.i7_v4:
	mov %rbx,0x58(%rdi)
	lea (%rdi,%rax,1),%rdx
	add $0x60,%rdx
	.byte 144
	cmp $0x21,%r8
	jb .L23_c5.i7_v4
	vmovups (%rcx),%ymm0
	vmovups %ymm0,(%rdx)
	vmovups -0x20(%rcx,%r8,1),%ymm0
	vmovups %ymm0,-0x20(%rdx,%r8,1)
	.byte 15,31,64,0
	jmp .L23_153.i7_v4
.L23_c5.i7_v4:
	cmp $0x11,%r8
	jb .L23_fb.i7_v4
	vmovups (%rcx),%xmm0
	vmovups %xmm0,(%rdx)
	vmovups -0x10(%rcx,%r8,1),%xmm0
	vmovups %xmm0,-0x10(%rdx,%r8,1)
	jmp .L23_153.i7_v4
.L23_e3.i7_v4:
	mov %r8,%rbx
	test %r11,%r11
	je .L23_93.i7_v4
.L23_eb.i7_v4:
	mov %r10b,%r9b
	shl $0xc,%r9d
	add %r9,%rsi
	pop %rbx
	.cfi_def_cfa_offset 8
	.cfi_restore 3
	jmp twox_exports.stream_3.write_far.i7_v4
	.cfi_def_cfa_offset 16
	.cfi_offset 3, -16
.L23_fb.i7_v4:
	.byte 15,31,68,0,0
	cmp $0x8,%r8
	jb .L23_118.i7_v4
	mov (%rcx),%rsi
	mov %rsi,(%rdx)
	mov -0x8(%rcx,%r8,1),%rcx
	mov %rcx,-0x8(%rdx,%r8,1)
	jmp .L23_153.i7_v4
.L23_118.i7_v4:
	cmp $0x4,%r8
	jb .L23_12e.i7_v4
	mov (%rcx),%esi
	mov %esi,(%rdx)
	mov -0x4(%rcx,%r8,1),%ecx
	mov %ecx,-0x4(%rdx,%r8,1)
	jmp .L23_153.i7_v4
.L23_12e.i7_v4:
	cmp $0x2,%r8
	jb .L23_148.i7_v4
	movzwl (%rcx),%esi
	mov %si,(%rdx)
	movzwl -0x2(%rcx,%r8,1),%ecx
	mov %cx,-0x2(%rdx,%r8,1)
	jmp .L23_153.i7_v4
.L23_148.i7_v4:
	cmp $0x1,%r8
	jne .L23_153.i7_v4
	movzbl (%rcx),%ecx
	mov %cl,(%rdx)
.L23_153.i7_v4:
	add %r8,%rax
	mov %rax,0x50(%rdi)
	xor %eax,%eax
.L23_15c.i7_v4:
	pop %rbx
	.cfi_def_cfa_offset 8
	.cfi_restore 3
	vzeroupper
	ret
	.cfi_endproc
	.size twox_rust_7_xxh3_write_v4,.-twox_rust_7_xxh3_write_v4
	.section .rodata.i7_v4,"a",@progbits
	.p2align 6
.L24_0.i7_v4:
	.quad 0xc2b2ae3d,0x9e3779b185ebca87
	.quad 0xc2b2ae3d27d4eb4f,0x165667b19e3779f9
	.quad 0x85ebca77c2b2ae63,0x85ebca77
	.quad 0x27d4eb2f165667c5,0x9e3779b1
	.section .rodata.cst4,"aM",@progbits,4
	.p2align 2
.L25_0.i7_v4:
	.byte 119,202,235,133
	.section .rodata.cst32,"aM",@progbits,32
	.p2align 5
.L26_0.i7_v4:
	.quad 0x85ebca77c2b2ae63,0x85ebca77
	.quad 0x27d4eb2f165667c5,0x9e3779b1
.L26_20.i7_v4:
	.quad 0xc2b2ae3d,0x9e3779b185ebca87
	.quad 0xc2b2ae3d27d4eb4f,0x165667b19e3779f9
.L26_40.i7_v4:
	.quad 0x85ebca77c2b2ae63,0x85ebca77
	.quad 0x27d4eb2f165667c5,0x9e3779b1
.L26_60.i7_v4:
	.quad 0xc2b2ae3d,0x9e3779b185ebca87
	.quad 0xc2b2ae3d27d4eb4f,0x165667b19e3779f9
.L26_80.i7_v4:
	.quad 0x85ebca77c2b2ae63,0x85ebca77
	.quad 0x27d4eb2f165667c5,0x9e3779b1
.L26_a0.i7_v4:
	.quad 0x85ebca77c2b2ae63,0x85ebca77
	.quad 0x27d4eb2f165667c5,0x9e3779b1
.L26_c0.i7_v4:
	.quad 0xc2b2ae3d,0x9e3779b185ebca87
	.quad 0xc2b2ae3d27d4eb4f,0x165667b19e3779f9
.L26_e0.i7_v4:
	.quad 0x85ebca77c2b2ae63,0x85ebca77
	.quad 0x27d4eb2f165667c5,0x9e3779b1
.L26_100.i7_v4:
	.quad 0xc2b2ae3d,0x9e3779b185ebca87
	.quad 0xc2b2ae3d27d4eb4f,0x165667b19e3779f9
.L26_120.i7_v4:
	.quad 0xc2b2ae3d,0x9e3779b185ebca87
	.quad 0xc2b2ae3d27d4eb4f,0x165667b19e3779f9
.L26_140.i7_v4:
	.quad 0x85ebca77c2b2ae63,0x85ebca77
	.quad 0x27d4eb2f165667c5,0x9e3779b1
.L26_160.i7_v4:
	.quad 0xc2b2ae3d,0x9e3779b185ebca87
	.quad 0xc2b2ae3d27d4eb4f,0x165667b19e3779f9
.L26_180.i7_v4:
	.quad 0x85ebca77c2b2ae63,0x85ebca77
	.quad 0x27d4eb2f165667c5,0x9e3779b1
	.section .rodata.cst8,"aM",@progbits,8
	.p2align 3
.L27_0.i7_v4:
	.quad 0x9e3779b1
.L27_8.i7_v4:
	.quad 0x9e3779b100000000
.L27_10.i7_v4:
	.quad 0x9e3779b1
.L27_18.i7_v4:
	.quad 0x9e3779b100000000
.L27_20.i7_v4:
	.quad 0x9e3779b1
.L27_28.i7_v4:
	.quad 0x9e3779b1
.L27_30.i7_v4:
	.quad 0x9e3779b100000000
.L27_38.i7_v4:
	.quad 0x9e3779b1
.L27_40.i7_v4:
	.quad 0x9e3779b100000000
.L27_48.i7_v4:
	.quad 0x9e3779b1
.L27_50.i7_v4:
	.quad 0x9e3779b100000000
.L27_58.i7_v4:
	.quad 0x9e3779b1
.L27_60.i7_v4:
	.quad 0x9e3779b100000000
.L27_68.i7_v4:
	.quad 0x9e3779b1
.L27_70.i7_v4:
	.quad 0x9e3779b100000000
.L27_78.i7_v4:
	.quad 0x9e3779b1
	.endif
	.section .note.GNU-stack,"",@progbits
	.section .note.gnu.property,"a",@note
	.p2align 3
	.long 4,16,5
	.asciz "GNU"
	.long 0xc0000002,4,2,0
	.text
