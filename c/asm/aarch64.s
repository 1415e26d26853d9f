/* The functions of the library for C, for aarch64. Generated of what is proved: not to be changed by hand. SPDX-License-Identifier: MIT */
	.section .text.twox_plain.xxhash32.rounds.products_of_block,"ax",@progbits
	.p2align 6
	.type twox_plain.xxhash32.rounds.products_of_block,@function
twox_plain.xxhash32.rounds.products_of_block:
	.cfi_startproc
	mov w8, #0xca77
	ldp q1, q2, [x1]
	movk w8, #0x85eb, lsl #16
	ldp q3, q4, [x1, #32]
	dup v0.4s, w8
	ldp q5, q6, [x1, #64]
	ldp q7, q16, [x1, #96]
	mul v1.4s, v1.4s, v0.4s
	mul v2.4s, v2.4s, v0.4s
	mul v3.4s, v3.4s, v0.4s
	mul v4.4s, v4.4s, v0.4s
	mul v5.4s, v5.4s, v0.4s
	stp q1, q2, [x0]
	mul v1.4s, v6.4s, v0.4s
	mul v2.4s, v7.4s, v0.4s
	mul v0.4s, v16.4s, v0.4s
	stp q3, q4, [x0, #32]
	stp q5, q1, [x0, #64]
	stp q2, q0, [x0, #96]
	ret
	.cfi_endproc
	.size twox_plain.xxhash32.rounds.products_of_block,.-twox_plain.xxhash32.rounds.products_of_block
	.section .text.twox_plain.xxhash32.rounds.impl_from_128,"ax",@progbits
	.p2align 6
	.type twox_plain.xxhash32.rounds.impl_from_128,@function
twox_plain.xxhash32.rounds.impl_from_128:
	.cfi_startproc
	sub sp, sp, #0xc0
	.cfi_def_cfa_offset 192
	dup v0.4s, w0
	adrp x8, .L96_0
	str x21, [sp, #160]
	.cfi_offset 21, -32
	ldr q1, [x8, #:lo12:.L96_0]
	stp x20, x19, [sp, #176]
	.cfi_offset 19, -8
	.cfi_offset 20, -16
	mov x19, x2
	mov x20, x1
	mov x21, x2
	stp x29, x30, [sp, #144]
	.cfi_offset 29, -48
	.cfi_offset 30, -40
	add v2.4s, v0.4s, v1.4s
	add x29, sp, #0x90
.L2_30:
	add x0, sp, #0x10
	mov x1, x20
	str q2, [sp]
	prfm pldl1keep, [x20, #1024]
	prfm pldl1keep, [x20, #1088]
	bl twox_plain.xxhash32.rounds.products_of_block
	ldp q0, q1, [sp, #16]
	mov w8, #0x79b1
	ldr q2, [sp]
	movk w8, #0x9e37, lsl #16
	sub x21, x21, #0x80
	cmp x21, #0x80
	add x20, x20, #0x80
	add v0.4s, v0.4s, v2.4s
	shl v2.4s, v0.4s, #13
	usra v2.4s, v0.4s, #19
	dup v0.4s, w8
	mla v1.4s, v2.4s, v0.4s
	shl v2.4s, v1.4s, #13
	usra v2.4s, v1.4s, #19
	ldp q1, q3, [sp, #48]
	mla v1.4s, v2.4s, v0.4s
	shl v2.4s, v1.4s, #13
	usra v2.4s, v1.4s, #19
	mla v3.4s, v2.4s, v0.4s
	shl v1.4s, v3.4s, #13
	usra v1.4s, v3.4s, #19
	ldp q2, q3, [sp, #80]
	mla v2.4s, v1.4s, v0.4s
	shl v1.4s, v2.4s, #13
	usra v1.4s, v2.4s, #19
	mla v3.4s, v1.4s, v0.4s
	shl v1.4s, v3.4s, #13
	usra v1.4s, v3.4s, #19
	ldp q2, q3, [sp, #112]
	mla v2.4s, v1.4s, v0.4s
	shl v1.4s, v2.4s, #13
	usra v1.4s, v2.4s, #19
	mla v3.4s, v1.4s, v0.4s
	shl v1.4s, v3.4s, #13
	usra v1.4s, v3.4s, #19
	mul v2.4s, v1.4s, v0.4s
	b.cs .L2_30
	cmp x21, #0x10
	b.cc .L2_144
.L2_e4:
	ldr s0, [x20]
	add x8, x20, #0x4
	add x9, x20, #0x8
	sub x21, x21, #0x10
	ld1 {v0.s}[1], [x8]
	ldr s1, [x9]
	add x8, x20, #0xc
	cmp x21, #0xf
	ld1 {v1.s}[1], [x8]
	mov w8, #0xca77
	movk w8, #0x85eb, lsl #16
	zip1 v0.2d, v0.2d, v1.2d
	dup v1.4s, w8
	mov w8, #0x79b1
	movk w8, #0x9e37, lsl #16
	mla v2.4s, v0.4s, v1.4s
	dup v1.4s, w8
	add x8, x20, #0x10
	mov x20, x8
	shl v0.4s, v2.4s, #13
	usra v0.4s, v2.4s, #19
	mul v2.4s, v0.4s, v1.4s
	b.hi .L2_e4
	mov x20, x8
.L2_144:
	adrp x8, .L96_10
	adrp x9, .L96_20
	ubfx x10, x19, #2, #2
	ldr q0, [x8, #:lo12:.L96_10]
	ldr q1, [x9, #:lo12:.L96_20]
	mov w8, #0xae3d
	movk w8, #0xc2b2, lsl #16
	ushl v0.4s, v2.4s, v0.4s
	ushl v1.4s, v2.4s, v1.4s
	orr v0.16b, v1.16b, v0.16b
	addv s0, v0.4s
	fmov w9, s0
	add w9, w9, w19
	cbz x10, .L2_1c4
	ldr w11, [x20]
	cmp x10, #0x1
	madd w9, w11, w8, w9
	mov w11, #0xeb2f
	movk w11, #0x27d4, lsl #16
	ror w9, w9, #15
	mul w9, w9, w11
	b.eq .L2_1c4
	ldr w12, [x20, #4]
	cmp x10, #0x2
	madd w9, w12, w8, w9
	ror w9, w9, #15
	mul w9, w9, w11
	b.eq .L2_1c4
	ldr w10, [x20, #8]
	madd w9, w10, w8, w9
	ror w9, w9, #15
	mul w9, w9, w11
.L2_1c4:
	ands x10, x19, #0x3
	b.eq .L2_224
	and x11, x19, #0xc
	mov w12, #0x67b1
	cmp x10, #0x1
	add x11, x20, x11
	movk w12, #0x1656, lsl #16
	ldrb w13, [x11]
	madd w9, w13, w12, w9
	mov w13, #0x79b1
	movk w13, #0x9e37, lsl #16
	ror w9, w9, #21
	mul w9, w9, w13
	b.eq .L2_224
	ldrb w14, [x11, #1]
	cmp x10, #0x2
	madd w9, w14, w12, w9
	ror w9, w9, #21
	mul w9, w9, w13
	b.eq .L2_224
	ldrb w10, [x11, #2]
	madd w9, w10, w12, w9
	ror w9, w9, #21
	mul w9, w9, w13
.L2_224:
	eor w9, w9, w9, lsr #15
	mov w10, #0xca77
	ldr x21, [sp, #160]
	.cfi_restore 21
	movk w10, #0x85eb, lsl #16
	ldp x20, x19, [sp, #176]
	.cfi_restore 19
	.cfi_restore 20
	mul w9, w9, w10
	ldp x29, x30, [sp, #144]
	.cfi_restore 29
	.cfi_restore 30
	eor w9, w9, w9, lsr #13
	mul w8, w9, w8
	eor w0, w8, w8, lsr #16
	add sp, sp, #0xc0
	.cfi_def_cfa_offset 0
	ret
	.cfi_endproc
	.size twox_plain.xxhash32.rounds.impl_from_128,.-twox_plain.xxhash32.rounds.impl_from_128
	.section .text.twox_c.xxh3_64.XXH3_64bits,"ax",@progbits
	.p2align 6
	.type twox_c.xxh3_64.XXH3_64bits,@function
twox_c.xxh3_64.XXH3_64bits:
	.cfi_startproc
	mov x3, x1
	cmp x1, #0x10
	mov x2, x0
	b.hi .L3_70
	cmp x3, #0x9
	b.cc .L3_2a4
	mov x10, #0x39b9
	mov x11, #0x523a
	add x8, x2, x3
	movk x10, #0xea42, lsl #16
	movk x11, #0x996, lsl #16
	ldr x9, [x2]
	ldur x8, [x8, #-8]
	movk x10, #0x737b, lsl #32
	movk x11, #0xbc3b, lsl #32
	movk x10, #0x6782, lsl #48
	movk x11, #0xaf56, lsl #48
	eor x9, x9, x10
	eor x8, x8, x11
	mul x10, x8, x9
	umulh x11, x8, x9
	rev x9, x9
	add x9, x9, x3
	add x8, x9, x8
	eor x9, x11, x10
	add x8, x8, x9
	eor x8, x8, x8, lsr #37
	b .L3_288
.L3_70:
	cmp x3, #0x80
	b.hi .L3_304
	mov x10, #0xfeb8
	mov x11, #0x17c
	mov x14, #0xd4de
	ldp x8, x9, [x2]
	movk x10, #0x396c, lsl #16
	movk x11, #0x2c81, lsl #16
	movk x10, #0xa423, lsl #32
	movk x14, #0xe96d, lsl #16
	movk x11, #0x21f7, lsl #32
	movk x10, #0xbe4b, lsl #48
	movk x14, #0x9083, lsl #32
	movk x11, #0x1cad, lsl #48
	eor x10, x8, x10
	add x8, x2, x3
	eor x9, x9, x11
	ldp x12, x13, [x8, #-16]
	mul x11, x9, x10
	movk x14, #0xdb97, lsl #48
	cmp x3, #0x21
	umulh x9, x9, x10
	mov x10, #0x4072
	eor x12, x12, x14
	movk x10, #0xa4a4, lsl #16
	movk x10, #0xb3b7, lsl #32
	movk x10, #0x1f67, lsl #48
	eor x10, x13, x10
	mul x13, x10, x12
	eor x9, x9, x11
	umulh x10, x10, x12
	mov x12, #0xca87
	movk x12, #0x85eb, lsl #16
	movk x12, #0x79b1, lsl #32
	movk x12, #0x9e37, lsl #48
	madd x9, x3, x12, x9
	eor x10, x10, x13
	add x9, x9, x10
	b.cc .L3_284
	mov x12, #0x79cb
	mov x13, #0x5a82
	mov x15, #0x8b8
	ldp x10, x11, [x2, #16]
	movk x12, #0x4ee6, lsl #16
	movk x13, #0x7dd0, lsl #16
	movk x12, #0xc0cc, lsl #32
	movk x15, #0x7446, lsl #16
	movk x13, #0xffcc, lsl #32
	movk x12, #0x78e5, lsl #48
	movk x15, #0x43f7, lsl #32
	movk x13, #0x2172, lsl #48
	eor x10, x10, x12
	movk x15, #0x8e24, lsl #48
	eor x11, x11, x13
	ldp x13, x14, [x8, #-32]
	mul x12, x11, x10
	cmp x3, #0x41
	umulh x10, x11, x10
	mov x11, #0x35e0
	eor x13, x13, x15
	movk x11, #0xe690, lsl #16
	movk x11, #0x3a81, lsl #32
	movk x11, #0x4c26, lsl #48
	eor x11, x14, x11
	mul x14, x11, x13
	eor x10, x10, x12
	umulh x11, x11, x13
	eor x11, x11, x14
	add x10, x10, x11
	add x9, x9, x10
	b.cc .L3_284
	mov x12, #0x283c
	mov x13, #0xd088
	mov x15, #0x6471
	ldp x10, x11, [x2, #32]
	movk x12, #0xbb52, lsl #16
	movk x13, #0x8b65, lsl #16
	movk x12, #0xc391, lsl #32
	movk x15, #0x9748, lsl #16
	movk x13, #0x531b, lsl #32
	movk x12, #0xcb00, lsl #48
	movk x15, #0xda2, lsl #32
	movk x13, #0xa32e, lsl #48
	eor x10, x10, x12
	movk x15, #0x4ef9, lsl #48
	eor x11, x11, x13
	ldp x13, x14, [x8, #-48]
	mul x12, x11, x10
	cmp x3, #0x61
	umulh x10, x11, x10
	mov x11, #0x1938
	eor x13, x13, x15
	movk x11, #0x46ef, lsl #16
	movk x11, #0xdea9, lsl #32
	movk x11, #0xd8ac, lsl #48
	eor x11, x14, x11
	mul x14, x11, x13
	eor x10, x10, x12
	umulh x11, x11, x13
	eor x11, x11, x14
	add x10, x10, x11
	add x9, x9, x10
	b.cc .L3_284
	mov x12, #0xfaa8
	mov x13, #0xdcf9
	mov x14, #0x518a
	ldp x10, x11, [x2, #48]
	movk x12, #0x3f76, lsl #16
	movk x13, #0xc7bb, lsl #16
	movk x12, #0x9ce3, lsl #32
	movk x14, #0x4be0, lsl #16
	movk x13, #0xbc7, lsl #32
	movk x12, #0x3f34, lsl #48
	movk x14, #0xb4cd, lsl #32
	movk x13, #0x1d4f, lsl #48
	eor x10, x10, x12
	movk x14, #0x3159, lsl #48
	eor x11, x11, x13
	ldp x13, x8, [x8, #-64]
	mul x12, x11, x10
	umulh x10, x11, x10
	mov x11, #0x9fc8
	eor x13, x13, x14
	movk x11, #0xc97e, lsl #16
	movk x11, #0x78d9, lsl #32
	movk x11, #0x6473, lsl #48
	eor x8, x8, x11
	mul x11, x8, x13
	eor x10, x10, x12
	umulh x8, x8, x13
	eor x8, x8, x11
	add x8, x10, x8
	add x9, x9, x8
.L3_284:
	eor x8, x9, x9, lsr #37
.L3_288:
	mov x9, #0x79f9
	movk x9, #0x9e37, lsl #16
	movk x9, #0x6791, lsl #32
	movk x9, #0x1656, lsl #48
	mul x8, x8, x9
	eor x0, x8, x8, lsr #32
	ret
.L3_2a4:
	cmp x3, #0x4
	b.cc .L3_320
	add x8, x2, x3
	ldr w9, [x2]
	ldur w8, [x8, #-4]
	orr x8, x8, x9, lsl #32
	mov x9, #0xd5a2
	movk x9, #0xc5ec, lsl #16
	movk x9, #0xb174, lsl #32
	movk x9, #0xc73a, lsl #48
	eor x8, x8, x9
	ror x9, x8, #15
	eor x9, x9, x8, ror #40
	eor x8, x9, x8
	mov x9, #0xdf25
	movk x9, #0x1e98, lsl #16
	movk x9, #0x1c65, lsl #32
	movk x9, #0x9fb2, lsl #48
	mul x8, x8, x9
	add x10, x3, x8, lsr #35
	eor x8, x10, x8
	mul x8, x8, x9
	eor x0, x8, x8, lsr #28
	ret
.L3_304:
	adrp x0, .L98_0
	add x0, x0, :lo12:.L98_0
	cmp x3, #0xf0
	b.hi .L3_384
	add x4, x2, #0x8
	mov x1, xzr
	b twox_core.width_64.impl_129_to_240_bytes
.L3_320:
	cbz x3, .L3_38c
	add x8, x2, x3
	ldrb w9, [x2]
	lsr x10, x3, #1
	ldurb w8, [x8, #-1]
	orr x8, x8, x3, lsl #8
	orr x8, x8, x9, lsl #16
	ldrb w9, [x2, x10]
	orr x8, x8, x9, lsl #24
	mov w9, #0x5a9b
	movk w9, #0x8727, lsl #16
	eor x8, x8, x9
	mov x9, #0xeb4f
	movk x9, #0x27d4, lsl #16
	movk x9, #0xae3d, lsl #32
	movk x9, #0xc2b2, lsl #48
	mul x8, x8, x9
	mov x9, #0x79f9
	movk x9, #0x9e37, lsl #16
	movk x9, #0x67b1, lsl #32
	movk x9, #0x1656, lsl #48
	eor x8, x8, x8, lsr #29
	mul x8, x8, x9
	eor x0, x8, x8, lsr #32
	ret
.L3_384:
	mov w1, #0xc0
	b twox_core.width_64.oneshot_long
.L3_38c:
	mov x0, #0x94c2
	movk x0, #0x38d3, lsl #16
	movk x0, #0x8005, lsl #32
	movk x0, #0x2d06, lsl #48
	ret
	.cfi_endproc
	.size twox_c.xxh3_64.XXH3_64bits,.-twox_c.xxh3_64.XXH3_64bits
	.section .text.twox_core.width_64.impl_129_to_240_bytes,"ax",@progbits
	.p2align 6
	.type twox_core.width_64.impl_129_to_240_bytes,@function
twox_core.width_64.impl_129_to_240_bytes:
	.cfi_startproc
	str x23, [sp, #-48]!
	.cfi_def_cfa_offset 48
	.cfi_offset 23, -48
	ldp x8, x9, [x0]
	cmp x3, #0x90
	ldr x11, [x4]
	ldr x10, [x2]
	ldr x13, [x2, #16]
	ldr x14, [x4, #16]
	ldr x15, [x2, #32]
	ldr x16, [x4, #32]
	sub x9, x9, x1
	add x8, x8, x1
	ldr x17, [x2, #48]
	eor x9, x9, x11
	ldp x11, x12, [x0, #16]
	eor x10, x8, x10
	ldr x18, [x4, #48]
	ldr x5, [x2, #64]
	mul x8, x9, x10
	ldr x6, [x4, #64]
	stp x20, x19, [sp, #32]
	.cfi_offset 19, -8
	.cfi_offset 20, -16
	ldr x7, [x2, #80]
	ldr x19, [x4, #80]
	stp x22, x21, [sp, #16]
	.cfi_offset 21, -24
	.cfi_offset 22, -32
	umulh x9, x9, x10
	add x10, x11, x1
	sub x11, x12, x1
	eor x12, x10, x13
	eor x11, x11, x14
	ldr x20, [x2, #96]
	ldp x13, x14, [x0, #32]
	mul x10, x11, x12
	ldr x21, [x4, #96]
	ldr x22, [x2, #112]
	ldr x23, [x4, #112]
	umulh x11, x11, x12
	add x12, x13, x1
	sub x13, x14, x1
	eor x8, x9, x8
	eor x14, x12, x15
	eor x13, x13, x16
	mov x9, #0xca87
	ldp x15, x16, [x0, #48]
	mul x12, x13, x14
	movk x9, #0x85eb, lsl #16
	umulh x13, x13, x14
	movk x9, #0x79b1, lsl #32
	eor x10, x11, x10
	add x14, x15, x1
	sub x15, x16, x1
	movk x9, #0x9e37, lsl #48
	eor x16, x14, x17
	eor x15, x15, x18
	madd x8, x3, x9, x8
	ldp x17, x18, [x0, #64]
	mul x14, x15, x16
	eor x11, x13, x12
	umulh x15, x15, x16
	add x16, x17, x1
	sub x17, x18, x1
	eor x16, x16, x5
	eor x17, x17, x6
	add x9, x10, x11
	ldp x5, x6, [x0, #80]
	mul x18, x17, x16
	umulh x16, x17, x16
	add x17, x5, x1
	sub x5, x6, x1
	eor x10, x15, x14
	eor x17, x17, x7
	eor x5, x5, x19
	add x9, x9, x10
	ldp x7, x19, [x0, #96]
	mul x6, x5, x17
	umulh x17, x5, x17
	eor x10, x16, x18
	add x5, x7, x1
	sub x7, x19, x1
	add x9, x9, x10
	eor x5, x5, x20
	eor x7, x7, x21
	ldp x20, x21, [x0, #112]
	mul x19, x7, x5
	umulh x5, x7, x5
	eor x10, x17, x6
	add x7, x20, x1
	sub x20, x21, x1
	add x9, x9, x10
	eor x7, x7, x22
	eor x20, x20, x23
	add x8, x8, x9
	mul x21, x20, x7
	umulh x7, x20, x7
	eor x10, x5, x19
	eor x11, x7, x21
	add x9, x10, x11
	add x8, x8, x9
	eor x9, x8, x8, lsr #37
	mov x8, #0x79f9
	movk x8, #0x9e37, lsl #16
	movk x8, #0x6791, lsl #32
	movk x8, #0x1656, lsl #48
	mul x9, x9, x8
	eor x9, x9, x9, lsr #32
	b.cc .L4_320
	ldur x10, [x0, #3]
	ldur x11, [x0, #11]
	cmp x3, #0xa0
	ldr x12, [x2, #128]
	ldr x13, [x4, #128]
	add x10, x10, x1
	sub x11, x11, x1
	eor x10, x10, x12
	eor x11, x11, x13
	mul x12, x11, x10
	umulh x10, x11, x10
	eor x10, x10, x12
	add x9, x9, x10
	b.cc .L4_320
	ldur x10, [x0, #19]
	ldur x11, [x0, #27]
	cmp x3, #0xb0
	ldr x12, [x2, #144]
	ldr x13, [x4, #144]
	add x10, x10, x1
	sub x11, x11, x1
	eor x10, x10, x12
	eor x11, x11, x13
	mul x12, x11, x10
	umulh x10, x11, x10
	eor x10, x10, x12
	add x9, x9, x10
	b.cc .L4_320
	ldur x10, [x0, #35]
	ldur x11, [x0, #43]
	cmp x3, #0xc0
	ldr x12, [x2, #160]
	ldr x13, [x4, #160]
	add x10, x10, x1
	sub x11, x11, x1
	eor x10, x10, x12
	eor x11, x11, x13
	mul x12, x11, x10
	umulh x10, x11, x10
	eor x10, x10, x12
	add x9, x9, x10
	b.cc .L4_320
	ldur x10, [x0, #51]
	ldur x11, [x0, #59]
	cmp x3, #0xd0
	ldr x12, [x2, #176]
	ldr x13, [x4, #176]
	add x10, x10, x1
	sub x11, x11, x1
	eor x10, x10, x12
	eor x11, x11, x13
	mul x12, x11, x10
	umulh x10, x11, x10
	eor x10, x10, x12
	add x9, x9, x10
	b.cc .L4_320
	ldur x10, [x0, #67]
	ldur x11, [x0, #75]
	cmp x3, #0xe0
	ldr x12, [x2, #192]
	ldr x13, [x4, #192]
	add x10, x10, x1
	sub x11, x11, x1
	eor x10, x10, x12
	eor x11, x11, x13
	mul x12, x11, x10
	umulh x10, x11, x10
	eor x10, x10, x12
	add x9, x9, x10
	b.cc .L4_320
	ldur x10, [x0, #83]
	ldur x11, [x0, #91]
	cmp x3, #0xf0
	ldr x12, [x2, #208]
	ldr x13, [x4, #208]
	add x10, x10, x1
	sub x11, x11, x1
	eor x10, x10, x12
	eor x11, x11, x13
	mul x12, x11, x10
	umulh x10, x11, x10
	eor x10, x10, x12
	add x9, x9, x10
	b.cc .L4_320
	ldur x10, [x0, #99]
	ldur x11, [x0, #107]
	ldr x12, [x2, #224]
	ldr x13, [x4, #224]
	add x10, x10, x1
	sub x11, x11, x1
	eor x10, x10, x12
	eor x11, x11, x13
	mul x12, x11, x10
	umulh x10, x11, x10
	eor x10, x10, x12
	add x9, x9, x10
.L4_320:
	sub x10, x3, #0x10
	ldur x11, [x0, #119]
	ldur x12, [x0, #127]
	ldr x13, [x2, x10]
	ldr x10, [x4, x10]
	add x11, x11, x1
	sub x12, x12, x1
	eor x11, x11, x13
	eor x10, x12, x10
	mul x12, x10, x11
	ldp x20, x19, [sp, #32]
	.cfi_restore 19
	.cfi_restore 20
	ldp x22, x21, [sp, #16]
	.cfi_restore 21
	.cfi_restore 22
	umulh x10, x10, x11
	eor x10, x10, x12
	add x9, x9, x10
	eor x9, x9, x9, lsr #37
	mul x8, x9, x8
	eor x0, x8, x8, lsr #32
	ldr x23, [sp], #48
	.cfi_def_cfa_offset 0
	.cfi_restore 23
	ret
	.cfi_endproc
	.size twox_core.width_64.impl_129_to_240_bytes,.-twox_core.width_64.impl_129_to_240_bytes
	.section .text.twox_core.width_64.oneshot_long,"ax",@progbits
	.p2align 6
	.type twox_core.width_64.oneshot_long,@function
twox_core.width_64.oneshot_long:
	.cfi_startproc
	cmp x1, #0xc0
	b.ne .L5_68
	lsr x8, x3, #10
	cmp x8, #0x1e
	b.hi .L5_6c
	stp d15, d14, [sp, #-64]!
	.cfi_def_cfa_offset 64
	.cfi_offset 78, -56
	.cfi_offset 79, -64
	adrp x11, .L96_30
	cmp x3, #0x401
	adrp x14, .L96_40
	adrp x13, .L96_50
	adrp x12, .L96_60
	stp d13, d12, [sp, #16]
	.cfi_offset 76, -40
	.cfi_offset 77, -48
	stp d11, d10, [sp, #32]
	.cfi_offset 74, -24
	.cfi_offset 75, -32
	stp d9, d8, [sp, #48]
	.cfi_offset 72, -8
	.cfi_offset 73, -16
	b.cs .L5_74
	ldr q0, [x11, #:lo12:.L96_30]
	ldr q1, [x14, #:lo12:.L96_40]
	mov x8, #0xffffffffffffffff
	ldr q2, [x13, #:lo12:.L96_50]
	ldr q3, [x12, #:lo12:.L96_60]
	mov x11, x2
	add x8, x3, x8
	lsr x9, x8, #6
	add x8, x2, x3
	cbnz x9, .L5_2f0
	b .L5_374
	.cfi_def_cfa_offset 0
	.cfi_restore 72
	.cfi_restore 73
	.cfi_restore 74
	.cfi_restore 75
	.cfi_restore 76
	.cfi_restore 77
	.cfi_restore 78
	.cfi_restore 79
.L5_68:
	b twox_core.width_64.oneshot_long_of_any_length
.L5_6c:
	mov w1, #0xc0
	b twox_core.width_64.oneshot_many
	.cfi_def_cfa_offset 64
	.cfi_offset 72, -8
	.cfi_offset 73, -16
	.cfi_offset 74, -24
	.cfi_offset 75, -32
	.cfi_offset 76, -40
	.cfi_offset 77, -48
	.cfi_offset 78, -56
	.cfi_offset 79, -64
.L5_74:
	sub x8, x3, #0x1
	ldp q5, q4, [x0, #128]
	ldp q7, q6, [x0, #160]
	lsr x10, x8, #10
	ldr q0, [x11, #:lo12:.L96_30]
	ldr q1, [x14, #:lo12:.L96_40]
	mov x9, xzr
	ldr q2, [x13, #:lo12:.L96_50]
	ldr q3, [x12, #:lo12:.L96_60]
	add x11, x2, #0x80
.L5_9c:
	add x15, x0, #0x20
	mov w12, #0x4
	mov x13, x11
	mov x14, x15
.L5_ac:
	ldp q16, q17, [x15, #-32]
	subs x12, x12, #0x1
	ldp q21, q19, [x13, #-128]
	ldur q24, [x15, #-8]
	ldp q22, q20, [x13, #-64]
	ldur q18, [x15, #-24]
	ldr q8, [x15]
	ldur q11, [x15, #8]
	eor v23.16b, v17.16b, v19.16b
	eor v16.16b, v16.16b, v21.16b
	eor v25.16b, v24.16b, v20.16b
	ldp q27, q30, [x13]
	ldp q9, q10, [x13, #64]
	eor v18.16b, v18.16b, v22.16b
	shrn v28.2s, v23.2d, #32
	xtn v23.2s, v23.2d
	xtn v29.2s, v16.2d
	shrn v12.2s, v25.2d, #32
	xtn v25.2s, v25.2d
	shrn v26.2s, v16.2d, #32
	eor v14.16b, v8.16b, v30.16b
	eor v31.16b, v17.16b, v27.16b
	add v27.2d, v27.2d, v9.2d
	eor v17.16b, v24.16b, v9.16b
	shrn v13.2s, v18.2d, #32
	xtn v15.2s, v18.2d
	umlal v2.2d, v23.2s, v28.2s
	add v23.2d, v22.2d, v21.2d
	ldr q28, [x15, #16]
	ldp q21, q22, [x13, #-96]
	umlal v3.2d, v29.2s, v26.2s
	xtn v9.2s, v14.2d
	shrn v18.2s, v31.2d, #32
	shrn v24.2s, v14.2d, #32
	add v26.2d, v20.2d, v19.2d
	xtn v20.2s, v31.2d
	add v19.2d, v23.2d, v27.2d
	umlal v2.2d, v25.2s, v12.2s
	eor v25.16b, v28.16b, v22.16b
	eor v29.16b, v8.16b, v21.16b
	add v27.2d, v30.2d, v10.2d
	ldp q31, q30, [x13, #-32]
	eor v16.16b, v11.16b, v10.16b
	ldur q23, [x15, #24]
	umlal v3.2d, v15.2s, v13.2s
	shrn v8.2s, v29.2d, #32
	xtn v10.2s, v25.2d
	xtn v29.2s, v29.2d
	shrn v25.2s, v25.2d, #32
	umlal v2.2d, v9.2s, v24.2s
	eor v24.16b, v11.16b, v31.16b
	eor v9.16b, v23.16b, v30.16b
	ldp q11, q12, [x13, #32]
	ldr q13, [x14, #32]!
	add v26.2d, v26.2d, v27.2d
	umlal v0.2d, v10.2s, v25.2s
	umlal v1.2d, v29.2s, v8.2s
	xtn v15.2s, v24.2d
	ldp q25, q29, [x13, #96]
	shrn v14.2s, v9.2d, #32
	xtn v9.2s, v9.2d
	eor v13.16b, v13.16b, v12.16b
	eor v28.16b, v28.16b, v11.16b
	shrn v24.2s, v24.2d, #32
	add v21.2d, v31.2d, v21.2d
	add v22.2d, v30.2d, v22.2d
	add v27.2d, v11.2d, v25.2d
	add v30.2d, v12.2d, v29.2d
	umlal v3.2d, v20.2s, v18.2s
	shrn v31.2s, v28.2d, #32
	xtn v8.2s, v13.2d
	xtn v28.2s, v28.2d
	umlal v0.2d, v9.2s, v14.2s
	umlal v1.2d, v15.2s, v24.2s
	shrn v9.2s, v13.2d, #32
	add v21.2d, v21.2d, v27.2d
	add v22.2d, v22.2d, v30.2d
	ldur q24, [x15, #40]
	ext v18.16b, v26.16b, v26.16b, #8
	ext v19.16b, v19.16b, v19.16b, #8
	add x13, x13, #0x100
	eor v20.16b, v24.16b, v29.16b
	eor v23.16b, v23.16b, v25.16b
	mov x15, x14
	umlal v0.2d, v8.2s, v9.2s
	umlal v1.2d, v28.2s, v31.2s
	ext v22.16b, v22.16b, v22.16b, #8
	ext v21.16b, v21.16b, v21.16b, #8
	shrn v24.2s, v17.2d, #32
	shrn v25.2s, v16.2d, #32
	xtn v17.2s, v17.2d
	xtn v16.2s, v16.2d
	add v3.2d, v3.2d, v19.2d
	add v2.2d, v2.2d, v18.2d
	shrn v18.2s, v23.2d, #32
	xtn v19.2s, v23.2d
	xtn v23.2s, v20.2d
	shrn v20.2s, v20.2d, #32
	add v0.2d, v0.2d, v22.2d
	add v1.2d, v1.2d, v21.2d
	umlal v2.2d, v16.2s, v25.2s
	umlal v3.2d, v17.2s, v24.2s
	umlal v0.2d, v23.2s, v20.2s
	umlal v1.2d, v19.2s, v18.2s
	b.ne .L5_ac
	ushr v16.2d, v2.2d, #47
	eor v2.16b, v4.16b, v2.16b
	adrp x12, .L96_70
	ushr v17.2d, v3.2d, #47
	eor v3.16b, v5.16b, v3.16b
	ldr q20, [x12, #:lo12:.L96_70]
	ushr v18.2d, v0.2d, #47
	eor v0.16b, v6.16b, v0.16b
	mov w12, #0x79b1
	ushr v19.2d, v1.2d, #47
	eor v1.16b, v7.16b, v1.16b
	movk w12, #0x9e37, lsl #16
	eor v16.16b, v2.16b, v16.16b
	eor v17.16b, v3.16b, v17.16b
	add x9, x9, #0x1
	eor v18.16b, v0.16b, v18.16b
	dup v21.2s, w12
	cmp x9, x10
	eor v19.16b, v1.16b, v19.16b
	add x11, x11, #0x400
	mul v2.4s, v16.4s, v20.4s
	mul v3.4s, v17.4s, v20.4s
	xtn v16.2s, v16.2d
	xtn v17.2s, v17.2d
	mul v0.4s, v18.4s, v20.4s
	xtn v18.2s, v18.2d
	mul v1.4s, v19.4s, v20.4s
	xtn v19.2s, v19.2d
	umlal v2.2d, v16.2s, v21.2s
	umlal v3.2d, v17.2s, v21.2s
	umlal v0.2d, v18.2s, v21.2s
	umlal v1.2d, v19.2s, v21.2s
	b.ne .L5_9c
	and x8, x8, #0xfffffffffffffc00
	add x11, x2, x8
	mvn x8, x8
	add x8, x3, x8
	lsr x9, x8, #6
	add x8, x2, x3
	cbz x9, .L5_374
.L5_2f0:
	add x10, x0, #0x20
	add x11, x11, #0x20
.L5_2f8:
	ldp q4, q5, [x11, #-32]
	subs x9, x9, #0x1
	ldp q6, q7, [x10, #-32]
	ldp q17, q16, [x11], #64
	ldp q21, q20, [x10]
	ext v18.16b, v5.16b, v5.16b, #8
	ext v19.16b, v4.16b, v4.16b, #8
	eor v5.16b, v7.16b, v5.16b
	eor v4.16b, v6.16b, v4.16b
	ext v7.16b, v16.16b, v16.16b, #8
	ext v6.16b, v17.16b, v17.16b, #8
	add x10, x10, #0x8
	eor v17.16b, v21.16b, v17.16b
	eor v16.16b, v20.16b, v16.16b
	add v2.2d, v2.2d, v18.2d
	xtn v18.2s, v4.2d
	shrn v4.2s, v4.2d, #32
	add v3.2d, v3.2d, v19.2d
	shrn v19.2s, v5.2d, #32
	xtn v5.2s, v5.2d
	add v0.2d, v7.2d, v0.2d
	add v1.2d, v6.2d, v1.2d
	xtn v6.2s, v16.2d
	xtn v7.2s, v17.2d
	shrn v16.2s, v16.2d, #32
	shrn v17.2s, v17.2d, #32
	umlal v3.2d, v18.2s, v4.2s
	umlal v2.2d, v5.2s, v19.2s
	umlal v0.2d, v6.2s, v16.2s
	umlal v1.2d, v7.2s, v17.2s
	b.ne .L5_2f8
.L5_374:
	ldur q4, [x8, #-64]
	ldur q5, [x0, #121]
	ldur q7, [x0, #137]
	ldur q17, [x0, #153]
	ldp d9, d8, [sp, #48]
	.cfi_restore 72
	.cfi_restore 73
	ext v6.16b, v4.16b, v4.16b, #8
	eor v4.16b, v5.16b, v4.16b
	ldur q5, [x8, #-48]
	ldp d11, d10, [sp, #32]
	.cfi_restore 74
	.cfi_restore 75
	ext v16.16b, v5.16b, v5.16b, #8
	eor v5.16b, v7.16b, v5.16b
	xtn v7.2s, v4.2d
	shrn v4.2s, v4.2d, #32
	add v3.2d, v6.2d, v3.2d
	ldur q6, [x8, #-32]
	xtn v18.2s, v5.2d
	shrn v5.2s, v5.2d, #32
	add v2.2d, v16.2d, v2.2d
	ldur q16, [x0, #11]
	umlal v3.2d, v7.2s, v4.2s
	ext v4.16b, v6.16b, v6.16b, #8
	eor v6.16b, v17.16b, v6.16b
	ldur q7, [x8, #-16]
	ldur q17, [x0, #169]
	umlal v2.2d, v18.2s, v5.2s
	ldp d13, d12, [sp, #16]
	.cfi_restore 76
	.cfi_restore 77
	eor v5.16b, v17.16b, v7.16b
	ext v7.16b, v7.16b, v7.16b, #8
	eor v3.16b, v3.16b, v16.16b
	xtn v16.2s, v6.2d
	shrn v6.2s, v6.2d, #32
	add v1.2d, v4.2d, v1.2d
	ldur q4, [x0, #27]
	eor v2.16b, v2.16b, v4.16b
	shrn v4.2s, v5.2d, #32
	add v0.2d, v7.2d, v0.2d
	umlal v1.2d, v16.2s, v6.2s
	xtn v6.2s, v5.2d
	mov x8, v3.d[1]
	ldur q5, [x0, #43]
	fmov x9, d3
	ldur q3, [x0, #59]
	mov x10, v2.d[1]
	umlal v0.2d, v6.2s, v4.2s
	eor v1.16b, v1.16b, v5.16b
	mul x11, x9, x8
	umulh x8, x9, x8
	fmov x9, d2
	mov x12, v1.d[1]
	eor v0.16b, v0.16b, v3.16b
	mul x13, x9, x10
	umulh x9, x9, x10
	fmov x10, d1
	mov x14, v0.d[1]
	eor x8, x8, x11
	mul x15, x10, x12
	umulh x10, x10, x12
	fmov x12, d0
	eor x9, x9, x13
	mul x16, x12, x14
	umulh x12, x12, x14
	mov x14, #0xca87
	eor x10, x10, x15
	movk x14, #0x85eb, lsl #16
	add x9, x9, x10
	movk x14, #0x79b1, lsl #32
	movk x14, #0x9e37, lsl #48
	madd x8, x3, x14, x8
	eor x10, x12, x16
	add x9, x9, x10
	add x8, x8, x9
	mov x9, #0x79f9
	movk x9, #0x9e37, lsl #16
	eor x8, x8, x8, lsr #37
	movk x9, #0x6791, lsl #32
	movk x9, #0x1656, lsl #48
	mul x8, x8, x9
	eor x0, x8, x8, lsr #32
	ldp d15, d14, [sp], #64
	.cfi_def_cfa_offset 0
	.cfi_restore 78
	.cfi_restore 79
	ret
	.cfi_endproc
	.size twox_core.width_64.oneshot_long,.-twox_core.width_64.oneshot_long
	.section .text.twox_core.xxhash3.stripes.take_many_stripes,"ax",@progbits
	.p2align 6
	.type twox_core.xxhash3.stripes.take_many_stripes,@function
twox_core.xxhash3.stripes.take_many_stripes:
	.cfi_startproc
	stp d11, d10, [sp, #-112]!
	.cfi_def_cfa_offset 112
	.cfi_offset 74, -104
	.cfi_offset 75, -112
	stp d9, d8, [sp, #16]
	.cfi_offset 72, -88
	.cfi_offset 73, -96
	stp x29, x30, [sp, #32]
	.cfi_offset 29, -80
	.cfi_offset 30, -72
	add x29, sp, #0x20
	str x28, [sp, #48]
	.cfi_offset 28, -64
	stp x24, x23, [sp, #64]
	.cfi_offset 23, -40
	.cfi_offset 24, -48
	stp x22, x21, [sp, #80]
	.cfi_offset 21, -24
	.cfi_offset 22, -32
	stp x20, x19, [sp, #96]
	.cfi_offset 19, -8
	.cfi_offset 20, -16
	sub sp, sp, #0x220
	.cfi_def_cfa_offset 656
	movi v0.2d, #0x0
	mov x8, x2
	mov x5, x4
	mov x4, x3
	mov x2, x1
	mov x19, x0
	cmp x8, #0x400
	str xzr, [sp, #224]
	stp q0, q0, [sp, #160]
	stp q0, q0, [sp, #192]
	b.cc .L6_1b8
	sub x11, x5, #0x40
	and x9, x11, #0xfffffffffffffff8
	cmp x9, #0x80
	b.ne .L6_1b8
	lsr x9, x8, #10
	cmp x9, #0x1e
	b.hi .L6_1fc
	ldr x10, [x19, #64]
	ldp q0, q1, [x19, #32]
	ldp q3, q2, [x19]
	add w9, w10, w10, lsl #1
	lsl w14, w9, #6
	and x15, x14, #0xc0
	sub x12, x8, x15
	add x13, x2, x15
	and x8, x12, #0x7f00
	add x9, x13, x8
	adrp x8, .L96_80
	cbz x15, .L6_2e0
	ubfx x14, x14, #6, #2
	add x15, x4, x11
	b .L6_b4
.L6_a8:
	subs x14, x14, #0x1
	add x2, x2, #0x40
	b.eq .L6_2e0
.L6_b4:
	add x16, x4, x10, lsl #3
	prfm pldl1keep, [x2, #320]
	add x10, x10, #0x1
	ldp q4, q5, [x2]
	cmp x10, #0x10
	ldp q6, q7, [x2, #32]
	ldp q18, q19, [x16]
	ldp q21, q22, [x16, #32]
	ext v16.16b, v5.16b, v5.16b, #8
	ext v17.16b, v4.16b, v4.16b, #8
	ext v20.16b, v6.16b, v6.16b, #8
	ext v23.16b, v7.16b, v7.16b, #8
	eor v5.16b, v19.16b, v5.16b
	eor v4.16b, v18.16b, v4.16b
	eor v7.16b, v22.16b, v7.16b
	eor v6.16b, v21.16b, v6.16b
	add v2.2d, v2.2d, v16.2d
	add v3.2d, v3.2d, v17.2d
	shrn v16.2s, v5.2d, #32
	xtn v5.2s, v5.2d
	xtn v17.2s, v4.2d
	xtn v18.2s, v6.2d
	xtn v19.2s, v7.2d
	add v0.2d, v20.2d, v0.2d
	add v1.2d, v23.2d, v1.2d
	shrn v4.2s, v4.2d, #32
	shrn v6.2s, v6.2d, #32
	shrn v7.2s, v7.2d, #32
	umlal v2.2d, v5.2s, v16.2s
	umlal v3.2d, v17.2s, v4.2s
	umlal v1.2d, v19.2s, v7.2s
	umlal v0.2d, v18.2s, v6.2s
	b.ne .L6_a8
	ldp q4, q5, [x15]
	ushr v6.2d, v3.2d, #47
	ldp q7, q16, [x15, #32]
	ushr v17.2d, v2.2d, #47
	mov w10, #0x79b1
	eor v3.16b, v4.16b, v3.16b
	eor v2.16b, v5.16b, v2.16b
	ushr v4.2d, v1.2d, #47
	eor v1.16b, v16.16b, v1.16b
	ushr v5.2d, v0.2d, #47
	eor v0.16b, v7.16b, v0.16b
	ldr q16, [x8, #:lo12:.L96_80]
	movk w10, #0x9e37, lsl #16
	eor v6.16b, v6.16b, v3.16b
	eor v7.16b, v17.16b, v2.16b
	dup v17.2s, w10
	eor v4.16b, v4.16b, v1.16b
	eor v5.16b, v5.16b, v0.16b
	mov x10, xzr
	mul v2.4s, v7.4s, v16.4s
	mul v3.4s, v6.4s, v16.4s
	xtn v7.2s, v7.2d
	xtn v6.2s, v6.2d
	mul v1.4s, v4.4s, v16.4s
	mul v0.4s, v5.4s, v16.4s
	xtn v4.2s, v4.2d
	xtn v5.2s, v5.2d
	umlal v2.2d, v7.2s, v17.2s
	umlal v3.2d, v6.2s, v17.2s
	umlal v0.2d, v5.2s, v17.2s
	umlal v1.2d, v4.2s, v17.2s
	b .L6_a8
.L6_1b8:
	ldp q0, q1, [x19, #32]
	add x0, sp, #0xa0
	ldr x9, [x19, #64]
	add x1, sp, #0x50
	mov x3, x8
	stp q0, q1, [sp, #112]
	ldp q1, q0, [x19]
	str x9, [sp, #144]
	stp q1, q0, [sp, #80]
	bl twox_core.xxhash3.stripes.take_stripes
	ldp q0, q1, [sp, #192]
	ldr x8, [sp, #224]
	str x8, [x19, #64]
	stp q0, q1, [x19, #32]
	ldp q1, q0, [sp, #160]
	stp q1, q0, [x19]
	b .L6_854
.L6_1fc:
	ldp q0, q1, [x19]
	add x0, sp, #0x130
	ldr x9, [x19, #64]
	sub x1, x29, #0x70
	str xzr, [sp, #368]
	mov x21, x4
	mov x22, x5
	lsl w10, w9, #10
	stp q0, q1, [x29, #-112]
	movi v1.2d, #0x0
	ldp q0, q2, [x19, #32]
	stur x9, [x29, #-48]
	sub w9, w10, w9, lsl #6
	and x3, x9, #0x3c0
	stp q0, q2, [x29, #-80]
	stp q1, q1, [sp, #304]
	add x20, x2, x3
	sub x23, x8, x3
	stp q1, q1, [sp, #336]
	bl twox_core.xxhash3.stripes.take_stripes
	movi v0.2d, #0x0
	add x0, sp, #0xf0
	add x1, sp, #0x130
	and x3, x23, #0xfffffffffffffc00
	mov x2, x20
	mov x4, x21
	mov x5, x22
	and x24, x23, #0xfffffffffffffc00
	stp q0, q0, [sp, #240]
	stp q0, q0, [sp, #272]
	bl twox_core.xxhash3.stripes.blocks.take_many_blocks
	ldp q0, q1, [sp, #240]
	sub x0, x29, #0xc0
	sub x1, x29, #0x70
	add x2, x20, x24
	and x3, x23, #0x3ff
	mov x4, x21
	mov x5, x22
	stur xzr, [x29, #-48]
	stp q0, q1, [x29, #-112]
	ldp q0, q2, [sp, #272]
	stur xzr, [x29, #-128]
	stp q0, q2, [x29, #-80]
	movi v0.2d, #0x0
	stp q0, q0, [x29, #-192]
	stp q0, q0, [x29, #-160]
	bl twox_core.xxhash3.stripes.take_stripes
	ldp q1, q0, [x29, #-160]
	ldur x8, [x29, #-128]
	ldp q2, q3, [x29, #-192]
	str x8, [sp, #64]
	stp q1, q0, [sp, #32]
	stp q2, q3, [sp]
	stp q1, q0, [x19, #32]
	str x8, [x19, #64]
	stp q2, q3, [x19]
	b .L6_854
.L6_2e0:
	lsr x14, x12, #8
	add x15, x4, x11
	b .L6_2f8
.L6_2ec:
	subs x14, x14, #0x1
	add x13, x13, #0x100
	b.eq .L6_52c
.L6_2f8:
	add x16, x4, x10, lsl #3
	prfm pldl1keep, [x13, #1024]
	prfm pldl1keep, [x13, #1088]
	prfm pldl1keep, [x13, #1152]
	prfm pldl1keep, [x13, #1216]
	add x10, x10, #0x4
	ldp q16, q4, [x16]
	cmp x10, #0x10
	ldp q6, q5, [x13]
	ldur q18, [x16, #24]
	ldp q20, q17, [x13, #64]
	ldur q23, [x16, #8]
	ldur q28, [x16, #40]
	ldp q24, q25, [x13, #128]
	eor v7.16b, v4.16b, v5.16b
	eor v19.16b, v16.16b, v6.16b
	ldr q16, [x16, #32]
	eor v21.16b, v18.16b, v17.16b
	add v26.2d, v20.2d, v6.2d
	add v6.2d, v17.2d, v5.2d
	eor v20.16b, v23.16b, v20.16b
	eor v23.16b, v16.16b, v25.16b
	shrn v22.2s, v7.2d, #32
	xtn v7.2s, v7.2d
	xtn v17.2s, v19.2d
	xtn v27.2s, v21.2d
	shrn v19.2s, v19.2d, #32
	shrn v21.2s, v21.2d, #32
	umlal v2.2d, v7.2s, v22.2s
	ldp q5, q22, [x13, #192]
	umlal v3.2d, v17.2s, v19.2s
	ldur q17, [x16, #56]
	add v29.2d, v24.2d, v5.2d
	eor v5.16b, v18.16b, v5.16b
	add v7.2d, v25.2d, v22.2d
	ldp q18, q19, [x13, #32]
	umlal v2.2d, v27.2s, v21.2s
	ldr q21, [x16, #48]
	xtn v25.2s, v23.2d
	eor v24.16b, v4.16b, v24.16b
	eor v4.16b, v28.16b, v22.16b
	xtn v22.2s, v20.2d
	shrn v23.2s, v23.2d, #32
	eor v31.16b, v21.16b, v19.16b
	eor v8.16b, v16.16b, v18.16b
	shrn v20.2s, v20.2d, #32
	ldp q30, q27, [x13, #96]
	add v16.2d, v26.2d, v29.2d
	umlal v2.2d, v25.2s, v23.2s
	add v6.2d, v6.2d, v7.2d
	shrn v26.2s, v24.2d, #32
	xtn v29.2s, v31.2d
	xtn v23.2s, v8.2d
	umlal v3.2d, v22.2s, v20.2s
	shrn v20.2s, v8.2d, #32
	shrn v22.2s, v31.2d, #32
	eor v28.16b, v28.16b, v30.16b
	eor v9.16b, v17.16b, v27.16b
	ldp q25, q31, [x13, #160]
	ldr q8, [x16, #64]
	add v18.2d, v30.2d, v18.2d
	add v19.2d, v27.2d, v19.2d
	umlal v1.2d, v29.2s, v22.2s
	umlal v0.2d, v23.2s, v20.2s
	xtn v11.2s, v28.2d
	ldp q20, q22, [x13, #224]
	shrn v10.2s, v9.2d, #32
	xtn v9.2s, v9.2d
	eor v8.16b, v8.16b, v31.16b
	eor v21.16b, v21.16b, v25.16b
	shrn v7.2s, v28.2d, #32
	xtn v24.2s, v24.2d
	ext v6.16b, v6.16b, v6.16b, #8
	add v23.2d, v25.2d, v20.2d
	add v25.2d, v31.2d, v22.2d
	ext v16.16b, v16.16b, v16.16b, #8
	shrn v27.2s, v21.2d, #32
	xtn v28.2s, v8.2d
	xtn v21.2s, v21.2d
	umlal v1.2d, v9.2s, v10.2s
	umlal v0.2d, v11.2s, v7.2s
	shrn v29.2s, v8.2d, #32
	add v18.2d, v18.2d, v23.2d
	add v19.2d, v19.2d, v25.2d
	ldur q7, [x16, #72]
	umlal v3.2d, v24.2s, v26.2s
	eor v17.16b, v17.16b, v20.16b
	shrn v20.2s, v5.2d, #32
	eor v7.16b, v7.16b, v22.16b
	xtn v5.2s, v5.2d
	add v2.2d, v2.2d, v6.2d
	umlal v1.2d, v28.2s, v29.2s
	umlal v0.2d, v21.2s, v27.2s
	ext v19.16b, v19.16b, v19.16b, #8
	ext v18.16b, v18.16b, v18.16b, #8
	shrn v21.2s, v4.2d, #32
	xtn v4.2s, v4.2d
	add v3.2d, v3.2d, v16.2d
	shrn v6.2s, v17.2d, #32
	xtn v16.2s, v17.2d
	xtn v17.2s, v7.2d
	shrn v7.2s, v7.2d, #32
	add v1.2d, v1.2d, v19.2d
	add v0.2d, v0.2d, v18.2d
	umlal v2.2d, v4.2s, v21.2s
	umlal v3.2d, v5.2s, v20.2s
	umlal v1.2d, v17.2s, v7.2s
	umlal v0.2d, v16.2s, v6.2s
	b.ne .L6_2ec
	ldp q4, q5, [x15]
	ushr v6.2d, v3.2d, #47
	ldp q7, q16, [x15, #32]
	ushr v17.2d, v2.2d, #47
	mov w10, #0x79b1
	eor v3.16b, v4.16b, v3.16b
	eor v2.16b, v5.16b, v2.16b
	ushr v4.2d, v1.2d, #47
	eor v1.16b, v16.16b, v1.16b
	ushr v5.2d, v0.2d, #47
	eor v0.16b, v7.16b, v0.16b
	ldr q16, [x8, #:lo12:.L96_80]
	movk w10, #0x9e37, lsl #16
	eor v6.16b, v6.16b, v3.16b
	eor v7.16b, v17.16b, v2.16b
	dup v17.2s, w10
	eor v4.16b, v4.16b, v1.16b
	eor v5.16b, v5.16b, v0.16b
	mov x10, xzr
	mul v2.4s, v7.4s, v16.4s
	mul v3.4s, v6.4s, v16.4s
	xtn v7.2s, v7.2d
	xtn v6.2s, v6.2d
	mul v1.4s, v4.4s, v16.4s
	mul v0.4s, v5.4s, v16.4s
	xtn v4.2s, v4.2d
	xtn v5.2s, v5.2d
	umlal v2.2d, v7.2s, v17.2s
	umlal v3.2d, v6.2s, v17.2s
	umlal v0.2d, v5.2s, v17.2s
	umlal v1.2d, v4.2s, v17.2s
	b .L6_2ec
.L6_52c:
	ubfx x12, x12, #6, #2
	cbz x12, .L6_848
	add x13, x4, x10, lsl #3
	prfm pldl1keep, [x9, #320]
	add x10, x10, #0x1
	ldp q4, q5, [x9]
	cmp x10, #0x10
	ldp q6, q7, [x9, #32]
	add x11, x4, x11
	ldp q18, q19, [x13]
	ldp q21, q22, [x13, #32]
	ext v16.16b, v5.16b, v5.16b, #8
	ext v17.16b, v4.16b, v4.16b, #8
	ext v20.16b, v6.16b, v6.16b, #8
	ext v23.16b, v7.16b, v7.16b, #8
	eor v5.16b, v19.16b, v5.16b
	eor v4.16b, v18.16b, v4.16b
	eor v7.16b, v22.16b, v7.16b
	eor v6.16b, v21.16b, v6.16b
	add v2.2d, v2.2d, v16.2d
	add v3.2d, v3.2d, v17.2d
	shrn v16.2s, v5.2d, #32
	xtn v5.2s, v5.2d
	xtn v17.2s, v4.2d
	xtn v18.2s, v6.2d
	xtn v19.2s, v7.2d
	add v0.2d, v20.2d, v0.2d
	add v1.2d, v23.2d, v1.2d
	shrn v4.2s, v4.2d, #32
	shrn v6.2s, v6.2d, #32
	shrn v7.2s, v7.2d, #32
	umlal v2.2d, v5.2s, v16.2s
	umlal v3.2d, v17.2s, v4.2s
	umlal v1.2d, v19.2s, v7.2s
	umlal v0.2d, v18.2s, v6.2s
	b.ne .L6_638
	ldp q4, q5, [x11]
	ushr v6.2d, v3.2d, #47
	ldp q7, q16, [x11, #32]
	ushr v17.2d, v2.2d, #47
	mov w10, #0x79b1
	eor v3.16b, v4.16b, v3.16b
	eor v2.16b, v5.16b, v2.16b
	ushr v4.2d, v1.2d, #47
	eor v1.16b, v16.16b, v1.16b
	ushr v5.2d, v0.2d, #47
	eor v0.16b, v7.16b, v0.16b
	ldr q16, [x8, #:lo12:.L96_80]
	movk w10, #0x9e37, lsl #16
	eor v6.16b, v6.16b, v3.16b
	eor v7.16b, v17.16b, v2.16b
	dup v17.2s, w10
	eor v4.16b, v4.16b, v1.16b
	eor v5.16b, v5.16b, v0.16b
	mov x10, xzr
	mul v2.4s, v7.4s, v16.4s
	mul v3.4s, v6.4s, v16.4s
	xtn v7.2s, v7.2d
	xtn v6.2s, v6.2d
	mul v1.4s, v4.4s, v16.4s
	mul v0.4s, v5.4s, v16.4s
	xtn v4.2s, v4.2d
	xtn v5.2s, v5.2d
	umlal v2.2d, v7.2s, v17.2s
	umlal v3.2d, v6.2s, v17.2s
	umlal v0.2d, v5.2s, v17.2s
	umlal v1.2d, v4.2s, v17.2s
.L6_638:
	cmp x12, #0x1
	b.eq .L6_848
	add x13, x4, x10, lsl #3
	prfm pldl1keep, [x9, #384]
	add x10, x10, #0x1
	ldp q4, q5, [x9, #64]
	cmp x10, #0x10
	ldp q6, q7, [x9, #96]
	ldp q18, q19, [x13]
	ldp q21, q22, [x13, #32]
	ext v16.16b, v5.16b, v5.16b, #8
	ext v17.16b, v4.16b, v4.16b, #8
	ext v20.16b, v6.16b, v6.16b, #8
	ext v23.16b, v7.16b, v7.16b, #8
	eor v5.16b, v19.16b, v5.16b
	eor v4.16b, v18.16b, v4.16b
	eor v7.16b, v22.16b, v7.16b
	eor v6.16b, v21.16b, v6.16b
	add v2.2d, v2.2d, v16.2d
	add v3.2d, v3.2d, v17.2d
	shrn v16.2s, v5.2d, #32
	xtn v5.2s, v5.2d
	xtn v17.2s, v4.2d
	xtn v18.2s, v6.2d
	xtn v19.2s, v7.2d
	add v0.2d, v20.2d, v0.2d
	add v1.2d, v23.2d, v1.2d
	shrn v4.2s, v4.2d, #32
	shrn v6.2s, v6.2d, #32
	shrn v7.2s, v7.2d, #32
	umlal v2.2d, v5.2s, v16.2s
	umlal v3.2d, v17.2s, v4.2s
	umlal v1.2d, v19.2s, v7.2s
	umlal v0.2d, v18.2s, v6.2s
	b.ne .L6_740
	ldp q4, q5, [x11]
	ushr v6.2d, v3.2d, #47
	ldp q7, q16, [x11, #32]
	ushr v17.2d, v2.2d, #47
	mov w10, #0x79b1
	eor v3.16b, v4.16b, v3.16b
	eor v2.16b, v5.16b, v2.16b
	ushr v4.2d, v1.2d, #47
	eor v1.16b, v16.16b, v1.16b
	ushr v5.2d, v0.2d, #47
	eor v0.16b, v7.16b, v0.16b
	ldr q16, [x8, #:lo12:.L96_80]
	movk w10, #0x9e37, lsl #16
	eor v6.16b, v6.16b, v3.16b
	eor v7.16b, v17.16b, v2.16b
	dup v17.2s, w10
	eor v4.16b, v4.16b, v1.16b
	eor v5.16b, v5.16b, v0.16b
	mov x10, xzr
	mul v2.4s, v7.4s, v16.4s
	mul v3.4s, v6.4s, v16.4s
	xtn v7.2s, v7.2d
	xtn v6.2s, v6.2d
	mul v1.4s, v4.4s, v16.4s
	mul v0.4s, v5.4s, v16.4s
	xtn v4.2s, v4.2d
	xtn v5.2s, v5.2d
	umlal v2.2d, v7.2s, v17.2s
	umlal v3.2d, v6.2s, v17.2s
	umlal v0.2d, v5.2s, v17.2s
	umlal v1.2d, v4.2s, v17.2s
.L6_740:
	cmp x12, #0x2
	b.eq .L6_848
	add x12, x4, x10, lsl #3
	prfm pldl1keep, [x9, #448]
	add x10, x10, #0x1
	ldp q4, q5, [x9, #128]
	cmp x10, #0x10
	ldp q6, q7, [x9, #160]
	ldp q18, q19, [x12]
	ldp q21, q22, [x12, #32]
	ext v16.16b, v5.16b, v5.16b, #8
	ext v17.16b, v4.16b, v4.16b, #8
	ext v20.16b, v6.16b, v6.16b, #8
	ext v23.16b, v7.16b, v7.16b, #8
	eor v5.16b, v19.16b, v5.16b
	eor v4.16b, v18.16b, v4.16b
	eor v7.16b, v22.16b, v7.16b
	eor v6.16b, v21.16b, v6.16b
	add v2.2d, v2.2d, v16.2d
	add v3.2d, v3.2d, v17.2d
	shrn v16.2s, v5.2d, #32
	xtn v5.2s, v5.2d
	xtn v17.2s, v4.2d
	xtn v18.2s, v6.2d
	xtn v19.2s, v7.2d
	add v0.2d, v20.2d, v0.2d
	add v1.2d, v23.2d, v1.2d
	shrn v4.2s, v4.2d, #32
	shrn v6.2s, v6.2d, #32
	shrn v7.2s, v7.2d, #32
	umlal v2.2d, v5.2s, v16.2s
	umlal v3.2d, v17.2s, v4.2s
	umlal v1.2d, v19.2s, v7.2s
	umlal v0.2d, v18.2s, v6.2s
	b.ne .L6_848
	ldp q4, q5, [x11]
	ushr v6.2d, v3.2d, #47
	ldp q7, q16, [x11, #32]
	ushr v17.2d, v2.2d, #47
	mov x10, xzr
	eor v3.16b, v4.16b, v3.16b
	eor v2.16b, v5.16b, v2.16b
	ushr v4.2d, v1.2d, #47
	eor v1.16b, v16.16b, v1.16b
	ushr v5.2d, v0.2d, #47
	eor v0.16b, v7.16b, v0.16b
	ldr q16, [x8, #:lo12:.L96_80]
	mov w8, #0x79b1
	eor v6.16b, v6.16b, v3.16b
	eor v7.16b, v17.16b, v2.16b
	movk w8, #0x9e37, lsl #16
	eor v4.16b, v4.16b, v1.16b
	eor v5.16b, v5.16b, v0.16b
	dup v17.2s, w8
	mul v2.4s, v7.4s, v16.4s
	mul v3.4s, v6.4s, v16.4s
	xtn v7.2s, v7.2d
	xtn v6.2s, v6.2d
	mul v1.4s, v4.4s, v16.4s
	mul v0.4s, v5.4s, v16.4s
	xtn v4.2s, v4.2d
	xtn v5.2s, v5.2d
	umlal v2.2d, v7.2s, v17.2s
	umlal v3.2d, v6.2s, v17.2s
	umlal v0.2d, v5.2s, v17.2s
	umlal v1.2d, v4.2s, v17.2s
.L6_848:
	stp q3, q2, [x19]
	stp q0, q1, [x19, #32]
	str x10, [x19, #64]
.L6_854:
	add sp, sp, #0x220
	.cfi_def_cfa_offset 112
	ldp x20, x19, [sp, #96]
	.cfi_restore 19
	.cfi_restore 20
	ldr x28, [sp, #48]
	.cfi_restore 28
	ldp x22, x21, [sp, #80]
	.cfi_restore 21
	.cfi_restore 22
	ldp x24, x23, [sp, #64]
	.cfi_restore 23
	.cfi_restore 24
	ldp x29, x30, [sp, #32]
	.cfi_restore 29
	.cfi_restore 30
	ldp d9, d8, [sp, #16]
	.cfi_restore 72
	.cfi_restore 73
	ldp d11, d10, [sp], #112
	.cfi_def_cfa_offset 0
	.cfi_restore 74
	.cfi_restore 75
	ret
	.cfi_endproc
	.size twox_core.xxhash3.stripes.take_many_stripes,.-twox_core.xxhash3.stripes.take_many_stripes
	.section .text.twox_core.xxhash3.stripes.take_stripes,"ax",@progbits
	.p2align 6
	.type twox_core.xxhash3.stripes.take_stripes,@function
twox_core.xxhash3.stripes.take_stripes:
	.cfi_startproc
	ldp q3, q2, [x1]
	lsr x8, x3, #6
	ldp q0, q1, [x1, #32]
	ldr x11, [x1, #64]
	cbz x8, .L7_138
	sub x10, x5, #0x40
	lsr x9, x10, #3
	add x10, x4, x10
	b .L7_30
.L7_24:
	subs x8, x8, #0x1
	add x2, x2, #0x40
	b.eq .L7_138
.L7_30:
	add x12, x4, x11, lsl #3
	prfm pldl1keep, [x2, #320]
	add x11, x11, #0x1
	ldp q4, q5, [x2]
	cmp x11, x9
	ldp q6, q7, [x2, #32]
	ldp q18, q19, [x12]
	ldp q21, q22, [x12, #32]
	ext v16.16b, v5.16b, v5.16b, #8
	ext v17.16b, v4.16b, v4.16b, #8
	ext v20.16b, v6.16b, v6.16b, #8
	ext v23.16b, v7.16b, v7.16b, #8
	eor v5.16b, v19.16b, v5.16b
	eor v4.16b, v18.16b, v4.16b
	eor v7.16b, v22.16b, v7.16b
	eor v6.16b, v21.16b, v6.16b
	add v2.2d, v16.2d, v2.2d
	add v3.2d, v17.2d, v3.2d
	shrn v16.2s, v5.2d, #32
	xtn v5.2s, v5.2d
	xtn v17.2s, v4.2d
	xtn v18.2s, v6.2d
	xtn v19.2s, v7.2d
	add v0.2d, v20.2d, v0.2d
	add v1.2d, v23.2d, v1.2d
	shrn v4.2s, v4.2d, #32
	shrn v6.2s, v6.2d, #32
	shrn v7.2s, v7.2d, #32
	umlal v2.2d, v5.2s, v16.2s
	umlal v3.2d, v17.2s, v4.2s
	umlal v1.2d, v19.2s, v7.2s
	umlal v0.2d, v18.2s, v6.2s
	b.ne .L7_24
	ldp q4, q5, [x10]
	ushr v6.2d, v3.2d, #47
	ldp q7, q16, [x10, #32]
	ushr v17.2d, v2.2d, #47
	adrp x11, .L96_90
	eor v3.16b, v4.16b, v3.16b
	eor v2.16b, v5.16b, v2.16b
	ushr v4.2d, v1.2d, #47
	eor v1.16b, v16.16b, v1.16b
	ushr v5.2d, v0.2d, #47
	eor v0.16b, v7.16b, v0.16b
	ldr q16, [x11, #:lo12:.L96_90]
	mov w11, #0x79b1
	eor v6.16b, v6.16b, v3.16b
	eor v7.16b, v17.16b, v2.16b
	movk w11, #0x9e37, lsl #16
	eor v4.16b, v4.16b, v1.16b
	eor v5.16b, v5.16b, v0.16b
	dup v17.2s, w11
	mov x11, xzr
	mul v2.4s, v7.4s, v16.4s
	mul v3.4s, v6.4s, v16.4s
	xtn v7.2s, v7.2d
	xtn v6.2s, v6.2d
	mul v1.4s, v4.4s, v16.4s
	mul v0.4s, v5.4s, v16.4s
	xtn v4.2s, v4.2d
	xtn v5.2s, v5.2d
	umlal v2.2d, v7.2s, v17.2s
	umlal v3.2d, v6.2s, v17.2s
	umlal v0.2d, v5.2s, v17.2s
	umlal v1.2d, v4.2s, v17.2s
	b .L7_24
.L7_138:
	stp q3, q2, [x0]
	stp q0, q1, [x0, #32]
	str x11, [x0, #64]
	ret
	.cfi_endproc
	.size twox_core.xxhash3.stripes.take_stripes,.-twox_core.xxhash3.stripes.take_stripes
	.section .text.twox_core.xxhash3.stripes.blocks.take_many_blocks,"ax",@progbits
	.p2align 6
	.type twox_core.xxhash3.stripes.blocks.take_many_blocks,@function
twox_core.xxhash3.stripes.blocks.take_many_blocks:
	.cfi_startproc
	ldp q0, q1, [x1, #32]
	lsr x8, x3, #10
	ldp q2, q3, [x1]
	cbz x8, .L8_2c0
	stp d15, d14, [sp, #-64]!
	.cfi_def_cfa_offset 64
	.cfi_offset 78, -56
	.cfi_offset 79, -64
	add x10, x4, x5
	mov x9, xzr
	stp d13, d12, [sp, #16]
	.cfi_offset 76, -40
	.cfi_offset 77, -48
	ldp q5, q4, [x10, #-64]
	stp d11, d10, [sp, #32]
	.cfi_offset 74, -24
	.cfi_offset 75, -32
	ldp q7, q6, [x10, #-32]
	add x10, x4, #0x20
	stp d9, d8, [sp, #48]
	.cfi_offset 72, -8
	.cfi_offset 73, -16
.L8_34:
	mov x14, x10
	mov w11, #0x4
	mov x12, x2
	mov x13, x10
.L8_44:
	prfm pldl1keep, [x12, #1024]
	prfm pldl1keep, [x12, #1088]
	subs x11, x11, #0x1
	prfm pldl1keep, [x12, #1152]
	prfm pldl1keep, [x12, #1216]
	ldur q23, [x14, #-8]
	ldp q21, q16, [x14, #-32]
	ldur q28, [x14, #-24]
	ldr q25, [x14]
	ldur q10, [x14, #8]
	ldp q19, q18, [x12]
	ldp q22, q20, [x12, #64]
	eor v17.16b, v16.16b, v18.16b
	eor v24.16b, v21.16b, v19.16b
	eor v26.16b, v23.16b, v20.16b
	ldp q29, q21, [x12, #128]
	eor v28.16b, v28.16b, v22.16b
	add v22.2d, v22.2d, v19.2d
	shrn v27.2s, v17.2d, #32
	xtn v17.2s, v17.2d
	xtn v31.2s, v24.2d
	xtn v8.2s, v26.2d
	shrn v24.2s, v24.2d, #32
	eor v30.16b, v25.16b, v21.16b
	shrn v26.2s, v26.2d, #32
	shrn v12.2s, v28.2d, #32
	xtn v28.2s, v28.2d
	eor v11.16b, v16.16b, v29.16b
	umlal v3.2d, v17.2s, v27.2s
	ldp q27, q9, [x12, #192]
	umlal v2.2d, v31.2s, v24.2s
	shrn v13.2s, v30.2d, #32
	xtn v30.2s, v30.2d
	add v31.2d, v20.2d, v18.2d
	ldur q20, [x14, #24]
	shrn v18.2s, v11.2d, #32
	eor v17.16b, v23.16b, v27.16b
	ldp q23, q24, [x12, #32]
	umlal v3.2d, v8.2s, v26.2s
	ldr q26, [x14, #16]
	add v27.2d, v29.2d, v27.2d
	umlal v2.2d, v28.2s, v12.2s
	eor v16.16b, v10.16b, v9.16b
	add v21.2d, v21.2d, v9.2d
	eor v25.16b, v25.16b, v23.16b
	eor v29.16b, v26.16b, v24.16b
	xtn v19.2s, v11.2d
	add v22.2d, v22.2d, v27.2d
	ldp q11, q12, [x12, #160]
	umlal v3.2d, v30.2s, v13.2s
	ldp q30, q28, [x12, #96]
	shrn v27.2s, v25.2d, #32
	xtn v25.2s, v25.2d
	xtn v8.2s, v29.2d
	shrn v29.2s, v29.2d, #32
	ldr q13, [x13, #32]!
	eor v9.16b, v10.16b, v30.16b
	eor v10.16b, v20.16b, v28.16b
	eor v26.16b, v26.16b, v11.16b
	eor v13.16b, v13.16b, v12.16b
	add v23.2d, v30.2d, v23.2d
	add v24.2d, v28.2d, v24.2d
	umlal v0.2d, v25.2s, v27.2s
	ldp q25, q27, [x12, #224]
	shrn v14.2s, v10.2d, #32
	xtn v10.2s, v10.2d
	xtn v15.2s, v9.2d
	umlal v1.2d, v8.2s, v29.2s
	shrn v29.2s, v9.2d, #32
	add v21.2d, v31.2d, v21.2d
	add v28.2d, v11.2d, v25.2d
	add v30.2d, v12.2d, v27.2d
	shrn v31.2s, v26.2d, #32
	xtn v8.2s, v13.2d
	xtn v26.2s, v26.2d
	shrn v9.2s, v13.2d, #32
	umlal v0.2d, v15.2s, v29.2s
	ldur q29, [x14, #40]
	umlal v2.2d, v19.2s, v18.2s
	umlal v1.2d, v10.2s, v14.2s
	add v23.2d, v23.2d, v28.2d
	add v24.2d, v24.2d, v30.2d
	ext v18.16b, v21.16b, v21.16b, #8
	ext v19.16b, v22.16b, v22.16b, #8
	eor v21.16b, v29.16b, v27.16b
	eor v20.16b, v20.16b, v25.16b
	shrn v25.2s, v16.2d, #32
	xtn v16.2s, v16.2d
	umlal v0.2d, v26.2s, v31.2s
	ext v22.16b, v24.16b, v24.16b, #8
	ext v23.16b, v23.16b, v23.16b, #8
	umlal v1.2d, v8.2s, v9.2s
	shrn v24.2s, v17.2d, #32
	xtn v17.2s, v17.2d
	add v2.2d, v2.2d, v19.2d
	add v3.2d, v3.2d, v18.2d
	shrn v18.2s, v20.2d, #32
	xtn v19.2s, v20.2d
	xtn v20.2s, v21.2d
	shrn v21.2s, v21.2d, #32
	add v0.2d, v0.2d, v23.2d
	add x12, x12, #0x100
	mov x14, x13
	add v1.2d, v1.2d, v22.2d
	umlal v3.2d, v16.2s, v25.2s
	umlal v2.2d, v17.2s, v24.2s
	umlal v0.2d, v19.2s, v18.2s
	umlal v1.2d, v20.2s, v21.2s
	b.ne .L8_44
	ushr v16.2d, v3.2d, #47
	eor v3.16b, v4.16b, v3.16b
	adrp x11, .L96_a0
	ushr v17.2d, v2.2d, #47
	eor v2.16b, v5.16b, v2.16b
	ldr q20, [x11, #:lo12:.L96_a0]
	ushr v18.2d, v1.2d, #47
	eor v1.16b, v6.16b, v1.16b
	mov w11, #0x79b1
	ushr v19.2d, v0.2d, #47
	eor v0.16b, v7.16b, v0.16b
	movk w11, #0x9e37, lsl #16
	eor v16.16b, v16.16b, v3.16b
	eor v17.16b, v17.16b, v2.16b
	add x9, x9, #0x1
	eor v18.16b, v18.16b, v1.16b
	dup v21.2s, w11
	cmp x9, x8
	eor v19.16b, v19.16b, v0.16b
	add x2, x2, #0x400
	mul v3.4s, v16.4s, v20.4s
	mul v2.4s, v17.4s, v20.4s
	xtn v16.2s, v16.2d
	xtn v17.2s, v17.2d
	mul v1.4s, v18.4s, v20.4s
	xtn v18.2s, v18.2d
	mul v0.4s, v19.4s, v20.4s
	xtn v19.2s, v19.2d
	umlal v3.2d, v16.2s, v21.2s
	umlal v2.2d, v17.2s, v21.2s
	umlal v1.2d, v18.2s, v21.2s
	umlal v0.2d, v19.2s, v21.2s
	b.ne .L8_34
	mov x8, v1.d[1]
	mov x9, v0.d[1]
	mov x10, v3.d[1]
	mov x11, v2.d[1]
	ldp d9, d8, [sp, #48]
	.cfi_restore 72
	.cfi_restore 73
	fmov x12, d1
	fmov x13, d0
	fmov x14, d3
	fmov x15, d2
	ldp d11, d10, [sp, #32]
	.cfi_restore 74
	.cfi_restore 75
	ldp d13, d12, [sp, #16]
	.cfi_restore 76
	.cfi_restore 77
	ldp d15, d14, [sp], #64
	.cfi_def_cfa_offset 0
	.cfi_restore 78
	.cfi_restore 79
	stp x15, x11, [x0]
	stp x14, x10, [x0, #16]
	stp x13, x9, [x0, #32]
	stp x12, x8, [x0, #48]
	ret
.L8_2c0:
	mov x11, v2.d[1]
	mov x10, v3.d[1]
	mov x9, v0.d[1]
	mov x8, v1.d[1]
	fmov x15, d2
	fmov x14, d3
	fmov x13, d0
	fmov x12, d1
	stp x15, x11, [x0]
	stp x14, x10, [x0, #16]
	stp x13, x9, [x0, #32]
	stp x12, x8, [x0, #48]
	ret
	.cfi_endproc
	.size twox_core.xxhash3.stripes.blocks.take_many_blocks,.-twox_core.xxhash3.stripes.blocks.take_many_blocks
	.section .text.twox_core.width_64.oneshot_many,"ax",@progbits
	.p2align 6
	.type twox_core.width_64.oneshot_many,@function
twox_core.width_64.oneshot_many:
	.cfi_startproc
	sub sp, sp, #0x90
	.cfi_def_cfa_offset 144
	sub x8, x1, #0x40
	sub x9, x3, #0x1
	stp x22, x21, [sp, #112]
	.cfi_offset 21, -24
	.cfi_offset 22, -32
	lsr x8, x8, #3
	lsr x9, x9, #6
	stp x20, x19, [sp, #128]
	.cfi_offset 19, -8
	.cfi_offset 20, -16
	mov x21, x3
	mov x22, x2
	mov x20, x1
	cmp x9, x8
	mov x19, x0
	stp x29, x30, [sp, #80]
	.cfi_offset 29, -64
	.cfi_offset 30, -56
	str x23, [sp, #96]
	.cfi_offset 23, -48
	add x29, sp, #0x50
	b.cs .L9_48
	mov x8, xzr
	b .L9_64
.L9_48:
	cmp x8, #0x10
	b.eq .L9_60
	cbz x8, .L9_2a0
	udiv x9, x9, x8
	mul x8, x9, x8
	b .L9_64
.L9_60:
	and x8, x9, #0x3fffffffffffff0
.L9_64:
	adrp x9, .L96_b0
	adrp x10, .L96_c0
	lsl x23, x8, #6
	ldr q0, [x9, #:lo12:.L96_b0]
	ldr q1, [x10, #:lo12:.L96_c0]
	adrp x9, .L96_d0
	adrp x10, .L96_e0
	ldr q2, [x9, #:lo12:.L96_d0]
	mov x0, sp
	stp q0, q1, [sp]
	ldr q0, [x10, #:lo12:.L96_e0]
	mov x1, x22
	mov x2, x23
	mov x3, x19
	mov x4, x20
	stp q2, q0, [sp, #32]
	str xzr, [sp, #64]
	bl twox_core.xxhash3.stripes.take_many_stripes
	mvn x8, x23
	ldp q3, q2, [sp]
	add x8, x21, x8
	ldp q1, q0, [sp, #32]
	lsr x9, x8, #6
	add x8, x22, x21
	cbz x9, .L9_150
	add x11, x23, x22
	add x10, x19, #0x20
	add x11, x11, #0x20
.L9_d4:
	ldp q4, q5, [x11, #-32]
	subs x9, x9, #0x1
	ldp q6, q7, [x10, #-32]
	ldp q16, q17, [x11], #64
	ldp q20, q21, [x10]
	ext v18.16b, v5.16b, v5.16b, #8
	ext v19.16b, v4.16b, v4.16b, #8
	eor v5.16b, v7.16b, v5.16b
	eor v4.16b, v6.16b, v4.16b
	ext v7.16b, v16.16b, v16.16b, #8
	ext v6.16b, v17.16b, v17.16b, #8
	add x10, x10, #0x8
	eor v17.16b, v21.16b, v17.16b
	eor v16.16b, v20.16b, v16.16b
	add v2.2d, v2.2d, v18.2d
	xtn v18.2s, v4.2d
	shrn v4.2s, v4.2d, #32
	add v3.2d, v3.2d, v19.2d
	shrn v19.2s, v5.2d, #32
	xtn v5.2s, v5.2d
	add v1.2d, v7.2d, v1.2d
	add v0.2d, v6.2d, v0.2d
	xtn v6.2s, v16.2d
	xtn v7.2s, v17.2d
	shrn v16.2s, v16.2d, #32
	shrn v17.2s, v17.2d, #32
	umlal v3.2d, v18.2s, v4.2s
	umlal v2.2d, v5.2s, v19.2s
	umlal v1.2d, v6.2s, v16.2s
	umlal v0.2d, v7.2s, v17.2s
	b.ne .L9_d4
.L9_150:
	add x9, x19, x20
	ldur q4, [x8, #-64]
	cmp x20, #0x88
	ldur q5, [x9, #-71]
	ldur q7, [x9, #-55]
	ext v6.16b, v4.16b, v4.16b, #8
	eor v4.16b, v5.16b, v4.16b
	ldur q5, [x8, #-48]
	ext v16.16b, v5.16b, v5.16b, #8
	eor v5.16b, v7.16b, v5.16b
	xtn v17.2s, v4.2d
	add v3.2d, v6.2d, v3.2d
	shrn v4.2s, v4.2d, #32
	xtn v6.2s, v5.2d
	add v2.2d, v16.2d, v2.2d
	umlal v3.2d, v17.2s, v4.2s
	shrn v4.2s, v5.2d, #32
	ldur q5, [x19, #11]
	umlal v2.2d, v6.2s, v4.2s
	ldur q4, [x19, #27]
	eor v3.16b, v3.16b, v5.16b
	mov x10, v3.d[1]
	eor v2.16b, v2.16b, v4.16b
	fmov x11, d3
	mov x12, v2.d[1]
	mul x13, x11, x10
	umulh x10, x11, x10
	fmov x11, d2
	mul x14, x11, x12
	umulh x11, x11, x12
	mov x12, #0xca87
	eor x10, x10, x13
	movk x12, #0x85eb, lsl #16
	movk x12, #0x79b1, lsl #32
	movk x12, #0x9e37, lsl #48
	madd x10, x21, x12, x10
	eor x11, x11, x14
	add x0, x10, x11
	b.cc .L9_288
	ldur q2, [x8, #-32]
	ldur q3, [x9, #-39]
	ldur q5, [x9, #-23]
	ext v4.16b, v2.16b, v2.16b, #8
	eor v2.16b, v3.16b, v2.16b
	ldur q3, [x8, #-16]
	eor v5.16b, v5.16b, v3.16b
	ext v3.16b, v3.16b, v3.16b, #8
	add v1.2d, v4.2d, v1.2d
	xtn v4.2s, v2.2d
	shrn v2.2s, v2.2d, #32
	add v0.2d, v3.2d, v0.2d
	ldur q3, [x19, #43]
	umlal v1.2d, v4.2s, v2.2s
	xtn v2.2s, v5.2d
	shrn v4.2s, v5.2d, #32
	umlal v0.2d, v2.2s, v4.2s
	eor v1.16b, v1.16b, v3.16b
	ldur q2, [x19, #59]
	mov x8, v1.d[1]
	fmov x9, d1
	eor v0.16b, v0.16b, v2.16b
	mov x10, v0.d[1]
	mul x11, x9, x8
	umulh x8, x9, x8
	fmov x9, d0
	mul x12, x9, x10
	umulh x9, x9, x10
	eor x8, x8, x11
	eor x9, x9, x12
	add x8, x8, x9
	mov x9, #0x79f9
	add x8, x0, x8
	movk x9, #0x9e37, lsl #16
	eor x8, x8, x8, lsr #37
	movk x9, #0x6791, lsl #32
	movk x9, #0x1656, lsl #48
	mul x8, x8, x9
	eor x0, x8, x8, lsr #32
.L9_288:
	ldp x20, x19, [sp, #128]
	.cfi_restore 19
	.cfi_restore 20
	ldr x23, [sp, #96]
	.cfi_restore 23
	ldp x22, x21, [sp, #112]
	.cfi_restore 21
	.cfi_restore 22
	ldp x29, x30, [sp, #80]
	.cfi_restore 29
	.cfi_restore 30
	add sp, sp, #0x90
	.cfi_def_cfa_offset 0
	ret
	.cfi_def_cfa_offset 144
	.cfi_offset 19, -8
	.cfi_offset 20, -16
	.cfi_offset 21, -24
	.cfi_offset 22, -32
	.cfi_offset 23, -48
	.cfi_offset 29, -64
	.cfi_offset 30, -56
.L9_2a0:
	brk #0x1
	.cfi_endproc
	.size twox_core.width_64.oneshot_many,.-twox_core.width_64.oneshot_many
	.section .text.twox_core.width_64.oneshot_long_of_any_length,"ax",@progbits
	.p2align 6
	.type twox_core.width_64.oneshot_long_of_any_length,@function
twox_core.width_64.oneshot_long_of_any_length:
	.cfi_startproc
	stp d15, d14, [sp, #-64]!
	.cfi_def_cfa_offset 64
	.cfi_offset 78, -56
	.cfi_offset 79, -64
	lsr x8, x3, #10
	stp d13, d12, [sp, #16]
	.cfi_offset 76, -40
	.cfi_offset 77, -48
	stp d11, d10, [sp, #32]
	.cfi_offset 74, -24
	.cfi_offset 75, -32
	cmp x8, #0x1e
	stp d9, d8, [sp, #48]
	.cfi_offset 72, -8
	.cfi_offset 73, -16
	b.hi .L10_60
	sub x15, x1, #0x40
	sub x9, x3, #0x1
	adrp x12, .L96_f0
	lsr x10, x15, #3
	lsr x8, x9, #6
	adrp x13, .L96_100
	adrp x16, .L96_110
	adrp x17, .L96_120
	ldr q2, [x12, #:lo12:.L96_f0]
	ldr q3, [x13, #:lo12:.L96_100]
	ldr q0, [x16, #:lo12:.L96_110]
	ldr q1, [x17, #:lo12:.L96_120]
	cmp x8, x10
	b.cs .L10_74
	mov x9, xzr
	mov x8, x2
	b .L10_468
.L10_60:
	ldp d9, d8, [sp, #48]
	.cfi_restore 72
	.cfi_restore 73
	ldp d11, d10, [sp, #32]
	.cfi_restore 74
	.cfi_restore 75
	ldp d13, d12, [sp, #16]
	.cfi_restore 76
	.cfi_restore 77
	ldp d15, d14, [sp], #64
	.cfi_def_cfa_offset 0
	.cfi_restore 78
	.cfi_restore 79
	b twox_core.width_64.oneshot_many
	.cfi_def_cfa_offset 64
	.cfi_offset 72, -8
	.cfi_offset 73, -16
	.cfi_offset 74, -24
	.cfi_offset 75, -32
	.cfi_offset 76, -40
	.cfi_offset 77, -48
	.cfi_offset 78, -56
	.cfi_offset 79, -64
.L10_74:
	cmp x10, #0x10
	b.eq .L10_a8
	cbz x10, .L10_650
	ubfx w9, w9, #6, #16
	ubfx w11, w15, #3, #16
	udiv w14, w9, w11
	msub w9, w14, w11, w9
	sub x11, x8, x9
	lsl x9, x11, #6
	cmp x10, #0x10
	add x8, x2, x9
	b.eq .L10_bc
	b .L10_32c
.L10_a8:
	and x11, x8, #0x3fffffffffffff0
	lsl x9, x11, #6
	cmp x10, #0x10
	add x8, x2, x9
	b.ne .L10_32c
.L10_bc:
	and x14, x11, #0xf
	cbnz x14, .L10_32c
	cbz x11, .L10_464
	add x14, x0, x15
	lsr x11, x11, #4
	ldr q0, [x16, #:lo12:.L96_110]
	ldp q5, q4, [x14]
	ldr q1, [x17, #:lo12:.L96_120]
	ldp q7, q6, [x14, #32]
	mov x10, xzr
	ldr q2, [x12, #:lo12:.L96_f0]
	ldr q3, [x13, #:lo12:.L96_100]
	add x12, x2, #0x80
.L10_f0:
	add x16, x0, #0x20
	mov w13, #0x4
	mov x14, x12
	mov x15, x16
.L10_100:
	ldp q16, q17, [x16, #-32]
	subs x13, x13, #0x1
	ldp q21, q19, [x14, #-128]
	ldur q24, [x16, #-8]
	ldp q22, q20, [x14, #-64]
	ldur q18, [x16, #-24]
	ldr q8, [x16]
	ldur q11, [x16, #8]
	eor v23.16b, v17.16b, v19.16b
	eor v16.16b, v16.16b, v21.16b
	eor v25.16b, v24.16b, v20.16b
	ldp q27, q30, [x14]
	ldp q9, q10, [x14, #64]
	eor v18.16b, v18.16b, v22.16b
	shrn v28.2s, v23.2d, #32
	xtn v23.2s, v23.2d
	xtn v29.2s, v16.2d
	shrn v12.2s, v25.2d, #32
	xtn v25.2s, v25.2d
	shrn v26.2s, v16.2d, #32
	eor v14.16b, v8.16b, v30.16b
	eor v31.16b, v17.16b, v27.16b
	add v27.2d, v27.2d, v9.2d
	eor v17.16b, v24.16b, v9.16b
	shrn v13.2s, v18.2d, #32
	xtn v15.2s, v18.2d
	umlal v2.2d, v23.2s, v28.2s
	add v23.2d, v22.2d, v21.2d
	ldr q28, [x16, #16]
	ldp q21, q22, [x14, #-96]
	umlal v3.2d, v29.2s, v26.2s
	xtn v9.2s, v14.2d
	shrn v18.2s, v31.2d, #32
	shrn v24.2s, v14.2d, #32
	add v26.2d, v20.2d, v19.2d
	xtn v20.2s, v31.2d
	add v19.2d, v23.2d, v27.2d
	umlal v2.2d, v25.2s, v12.2s
	eor v25.16b, v28.16b, v22.16b
	eor v29.16b, v8.16b, v21.16b
	add v27.2d, v30.2d, v10.2d
	ldp q31, q30, [x14, #-32]
	eor v16.16b, v11.16b, v10.16b
	ldur q23, [x16, #24]
	umlal v3.2d, v15.2s, v13.2s
	shrn v8.2s, v29.2d, #32
	xtn v10.2s, v25.2d
	xtn v29.2s, v29.2d
	shrn v25.2s, v25.2d, #32
	umlal v2.2d, v9.2s, v24.2s
	eor v24.16b, v11.16b, v31.16b
	eor v9.16b, v23.16b, v30.16b
	ldp q11, q12, [x14, #32]
	ldr q13, [x15, #32]!
	add v26.2d, v26.2d, v27.2d
	umlal v0.2d, v10.2s, v25.2s
	umlal v1.2d, v29.2s, v8.2s
	xtn v15.2s, v24.2d
	ldp q25, q29, [x14, #96]
	shrn v14.2s, v9.2d, #32
	xtn v9.2s, v9.2d
	eor v13.16b, v13.16b, v12.16b
	eor v28.16b, v28.16b, v11.16b
	shrn v24.2s, v24.2d, #32
	add v21.2d, v31.2d, v21.2d
	add v22.2d, v30.2d, v22.2d
	add v27.2d, v11.2d, v25.2d
	add v30.2d, v12.2d, v29.2d
	umlal v3.2d, v20.2s, v18.2s
	shrn v31.2s, v28.2d, #32
	xtn v8.2s, v13.2d
	xtn v28.2s, v28.2d
	umlal v0.2d, v9.2s, v14.2s
	umlal v1.2d, v15.2s, v24.2s
	shrn v9.2s, v13.2d, #32
	add v21.2d, v21.2d, v27.2d
	add v22.2d, v22.2d, v30.2d
	ldur q24, [x16, #40]
	ext v18.16b, v26.16b, v26.16b, #8
	ext v19.16b, v19.16b, v19.16b, #8
	add x14, x14, #0x100
	eor v20.16b, v24.16b, v29.16b
	eor v23.16b, v23.16b, v25.16b
	mov x16, x15
	umlal v0.2d, v8.2s, v9.2s
	umlal v1.2d, v28.2s, v31.2s
	ext v22.16b, v22.16b, v22.16b, #8
	ext v21.16b, v21.16b, v21.16b, #8
	shrn v24.2s, v17.2d, #32
	shrn v25.2s, v16.2d, #32
	xtn v17.2s, v17.2d
	xtn v16.2s, v16.2d
	add v3.2d, v3.2d, v19.2d
	add v2.2d, v2.2d, v18.2d
	shrn v18.2s, v23.2d, #32
	xtn v19.2s, v23.2d
	xtn v23.2s, v20.2d
	shrn v20.2s, v20.2d, #32
	add v0.2d, v0.2d, v22.2d
	add v1.2d, v1.2d, v21.2d
	umlal v2.2d, v16.2s, v25.2s
	umlal v3.2d, v17.2s, v24.2s
	umlal v0.2d, v23.2s, v20.2s
	umlal v1.2d, v19.2s, v18.2s
	b.ne .L10_100
	ushr v16.2d, v2.2d, #47
	eor v2.16b, v4.16b, v2.16b
	adrp x13, .L96_130
	ushr v17.2d, v3.2d, #47
	eor v3.16b, v5.16b, v3.16b
	ldr q20, [x13, #:lo12:.L96_130]
	ushr v18.2d, v0.2d, #47
	eor v0.16b, v6.16b, v0.16b
	mov w13, #0x79b1
	ushr v19.2d, v1.2d, #47
	eor v1.16b, v7.16b, v1.16b
	movk w13, #0x9e37, lsl #16
	eor v16.16b, v2.16b, v16.16b
	eor v17.16b, v3.16b, v17.16b
	add x10, x10, #0x1
	eor v18.16b, v0.16b, v18.16b
	dup v21.2s, w13
	cmp x10, x11
	eor v19.16b, v1.16b, v19.16b
	add x12, x12, #0x400
	mul v2.4s, v16.4s, v20.4s
	mul v3.4s, v17.4s, v20.4s
	xtn v16.2s, v16.2d
	xtn v17.2s, v17.2d
	mul v0.4s, v18.4s, v20.4s
	xtn v18.2s, v18.2d
	mul v1.4s, v19.4s, v20.4s
	xtn v19.2s, v19.2d
	umlal v2.2d, v16.2s, v21.2s
	umlal v3.2d, v17.2s, v21.2s
	umlal v0.2d, v18.2s, v21.2s
	umlal v1.2d, v19.2s, v21.2s
	b.ne .L10_f0
	b .L10_468
.L10_32c:
	cbz x11, .L10_464
	ldr q0, [x16, #:lo12:.L96_110]
	ldr q1, [x17, #:lo12:.L96_120]
	mov x14, xzr
	ldr q2, [x12, #:lo12:.L96_f0]
	ldr q3, [x13, #:lo12:.L96_100]
	add x12, x0, x15
	mov x13, x2
	b .L10_35c
.L10_350:
	subs x11, x11, #0x1
	add x13, x13, #0x40
	b.eq .L10_468
.L10_35c:
	add x15, x0, x14, lsl #3
	prfm pldl1keep, [x13, #320]
	add x14, x14, #0x1
	ldp q4, q5, [x13]
	cmp x14, x10
	ldp q6, q7, [x13, #32]
	ldp q18, q19, [x15]
	ldp q21, q22, [x15, #32]
	ext v16.16b, v5.16b, v5.16b, #8
	ext v17.16b, v4.16b, v4.16b, #8
	ext v20.16b, v6.16b, v6.16b, #8
	ext v23.16b, v7.16b, v7.16b, #8
	eor v5.16b, v19.16b, v5.16b
	eor v4.16b, v18.16b, v4.16b
	eor v7.16b, v22.16b, v7.16b
	eor v6.16b, v21.16b, v6.16b
	add v2.2d, v2.2d, v16.2d
	add v3.2d, v3.2d, v17.2d
	shrn v16.2s, v5.2d, #32
	xtn v5.2s, v5.2d
	xtn v17.2s, v4.2d
	xtn v18.2s, v6.2d
	xtn v19.2s, v7.2d
	add v1.2d, v20.2d, v1.2d
	add v0.2d, v23.2d, v0.2d
	shrn v4.2s, v4.2d, #32
	shrn v6.2s, v6.2d, #32
	shrn v7.2s, v7.2d, #32
	umlal v2.2d, v5.2s, v16.2s
	umlal v3.2d, v17.2s, v4.2s
	umlal v0.2d, v19.2s, v7.2s
	umlal v1.2d, v18.2s, v6.2s
	b.ne .L10_350
	ldp q4, q5, [x12]
	ushr v6.2d, v3.2d, #47
	ldp q7, q16, [x12, #32]
	ushr v17.2d, v2.2d, #47
	adrp x14, .L96_130
	eor v3.16b, v4.16b, v3.16b
	eor v2.16b, v5.16b, v2.16b
	ushr v4.2d, v0.2d, #47
	eor v0.16b, v16.16b, v0.16b
	ushr v5.2d, v1.2d, #47
	eor v1.16b, v7.16b, v1.16b
	ldr q16, [x14, #:lo12:.L96_130]
	mov w14, #0x79b1
	eor v6.16b, v6.16b, v3.16b
	eor v7.16b, v17.16b, v2.16b
	movk w14, #0x9e37, lsl #16
	eor v4.16b, v4.16b, v0.16b
	eor v5.16b, v5.16b, v1.16b
	dup v17.2s, w14
	mov x14, xzr
	mul v2.4s, v7.4s, v16.4s
	mul v3.4s, v6.4s, v16.4s
	xtn v7.2s, v7.2d
	xtn v6.2s, v6.2d
	mul v0.4s, v4.4s, v16.4s
	mul v1.4s, v5.4s, v16.4s
	xtn v4.2s, v4.2d
	xtn v5.2s, v5.2d
	umlal v2.2d, v7.2s, v17.2s
	umlal v3.2d, v6.2s, v17.2s
	umlal v1.2d, v5.2s, v17.2s
	umlal v0.2d, v4.2s, v17.2s
	b .L10_350
.L10_464:
	mov x9, xzr
.L10_468:
	mvn x9, x9
	add x9, x3, x9
	lsr x10, x9, #6
	add x9, x2, x3
	cbz x10, .L10_500
	add x11, x0, #0x20
	add x8, x8, #0x20
.L10_484:
	ldp q4, q5, [x8, #-32]
	subs x10, x10, #0x1
	ldp q6, q7, [x11, #-32]
	ldp q16, q17, [x8], #64
	ldp q20, q21, [x11]
	ext v18.16b, v5.16b, v5.16b, #8
	ext v19.16b, v4.16b, v4.16b, #8
	eor v5.16b, v7.16b, v5.16b
	eor v4.16b, v6.16b, v4.16b
	ext v7.16b, v16.16b, v16.16b, #8
	ext v6.16b, v17.16b, v17.16b, #8
	add x11, x11, #0x8
	eor v17.16b, v21.16b, v17.16b
	eor v16.16b, v20.16b, v16.16b
	add v2.2d, v2.2d, v18.2d
	xtn v18.2s, v4.2d
	shrn v4.2s, v4.2d, #32
	add v3.2d, v3.2d, v19.2d
	shrn v19.2s, v5.2d, #32
	xtn v5.2s, v5.2d
	add v1.2d, v7.2d, v1.2d
	add v0.2d, v6.2d, v0.2d
	xtn v6.2s, v16.2d
	xtn v7.2s, v17.2d
	shrn v16.2s, v16.2d, #32
	shrn v17.2s, v17.2d, #32
	umlal v3.2d, v18.2s, v4.2s
	umlal v2.2d, v5.2s, v19.2s
	umlal v1.2d, v6.2s, v16.2s
	umlal v0.2d, v7.2s, v17.2s
	b.ne .L10_484
.L10_500:
	add x10, x0, x1
	ldur q4, [x9, #-64]
	cmp x1, #0x88
	ldur q5, [x10, #-71]
	ldur q7, [x10, #-55]
	ext v6.16b, v4.16b, v4.16b, #8
	eor v4.16b, v5.16b, v4.16b
	ldur q5, [x9, #-48]
	ext v16.16b, v5.16b, v5.16b, #8
	eor v5.16b, v7.16b, v5.16b
	xtn v17.2s, v4.2d
	add v3.2d, v6.2d, v3.2d
	shrn v4.2s, v4.2d, #32
	xtn v6.2s, v5.2d
	add v2.2d, v16.2d, v2.2d
	umlal v3.2d, v17.2s, v4.2s
	shrn v4.2s, v5.2d, #32
	ldur q5, [x0, #11]
	umlal v2.2d, v6.2s, v4.2s
	ldur q4, [x0, #27]
	eor v3.16b, v3.16b, v5.16b
	mov x8, v3.d[1]
	eor v2.16b, v2.16b, v4.16b
	fmov x11, d3
	mov x12, v2.d[1]
	mul x13, x11, x8
	umulh x8, x11, x8
	fmov x11, d2
	mul x14, x11, x12
	umulh x11, x11, x12
	mov x12, #0xca87
	eor x8, x8, x13
	movk x12, #0x85eb, lsl #16
	movk x12, #0x79b1, lsl #32
	movk x12, #0x9e37, lsl #48
	madd x8, x3, x12, x8
	eor x11, x11, x14
	add x8, x8, x11
	b.cc .L10_638
	ldur q2, [x9, #-32]
	ldur q3, [x10, #-39]
	ldur q5, [x10, #-23]
	ext v4.16b, v2.16b, v2.16b, #8
	eor v2.16b, v3.16b, v2.16b
	ldur q3, [x9, #-16]
	eor v5.16b, v5.16b, v3.16b
	ext v3.16b, v3.16b, v3.16b, #8
	add v1.2d, v4.2d, v1.2d
	xtn v4.2s, v2.2d
	shrn v2.2s, v2.2d, #32
	add v0.2d, v3.2d, v0.2d
	ldur q3, [x0, #43]
	umlal v1.2d, v4.2s, v2.2s
	xtn v2.2s, v5.2d
	shrn v4.2s, v5.2d, #32
	umlal v0.2d, v2.2s, v4.2s
	eor v1.16b, v1.16b, v3.16b
	ldur q2, [x0, #59]
	mov x9, v1.d[1]
	fmov x10, d1
	eor v0.16b, v0.16b, v2.16b
	mov x11, v0.d[1]
	mul x12, x10, x9
	umulh x9, x10, x9
	fmov x10, d0
	mul x13, x10, x11
	umulh x10, x10, x11
	eor x9, x9, x12
	eor x10, x10, x13
	add x9, x9, x10
	add x8, x8, x9
	mov x9, #0x79f9
	movk x9, #0x9e37, lsl #16
	eor x8, x8, x8, lsr #37
	movk x9, #0x6791, lsl #32
	movk x9, #0x1656, lsl #48
	mul x8, x8, x9
	eor x8, x8, x8, lsr #32
.L10_638:
	ldp d9, d8, [sp, #48]
	.cfi_restore 72
	.cfi_restore 73
	mov x0, x8
	ldp d11, d10, [sp, #32]
	.cfi_restore 74
	.cfi_restore 75
	ldp d13, d12, [sp, #16]
	.cfi_restore 76
	.cfi_restore 77
	ldp d15, d14, [sp], #64
	.cfi_def_cfa_offset 0
	.cfi_restore 78
	.cfi_restore 79
	ret
	.cfi_def_cfa_offset 64
	.cfi_offset 72, -8
	.cfi_offset 73, -16
	.cfi_offset 74, -24
	.cfi_offset 75, -32
	.cfi_offset 76, -40
	.cfi_offset 77, -48
	.cfi_offset 78, -56
	.cfi_offset 79, -64
.L10_650:
	brk #0x1
	.cfi_endproc
	.size twox_core.width_64.oneshot_long_of_any_length,.-twox_core.width_64.oneshot_long_of_any_length
	.section .text.twox_c.xxh3_64.XXH3_64bits_withSecret,"ax",@progbits
	.p2align 6
	.type twox_c.xxh3_64.XXH3_64bits_withSecret,@function
twox_c.xxh3_64.XXH3_64bits_withSecret:
	.cfi_startproc
	cmp x3, #0x88
	b.cs .L11_10
	mov x0, xzr
	ret
.L11_10:
	cmp x1, #0x10
	b.hi .L11_68
	cmp x1, #0x9
	b.cc .L11_1bc
	ldp x10, x13, [x2, #24]
	add x9, x0, x1
	ldp x11, x12, [x2, #40]
	ldr x8, [x0]
	ldur x9, [x9, #-8]
	eor x8, x10, x8
	eor x10, x11, x12
	eor x8, x8, x13
	eor x9, x10, x9
	mul x10, x9, x8
	umulh x11, x9, x8
	rev x8, x8
	add x9, x1, x9
	add x8, x8, x9
	eor x9, x11, x10
	add x8, x8, x9
	eor x8, x8, x8, lsr #37
	b .L11_1a0
.L11_68:
	cmp x1, #0x80
	b.hi .L11_214
	ldp x8, x9, [x0]
	cmp x1, #0x21
	ldp x10, x11, [x2]
	ldp x12, x13, [x2, #16]
	eor x10, x10, x8
	add x8, x0, x1
	eor x9, x11, x9
	ldp x14, x15, [x8, #-16]
	mul x11, x9, x10
	umulh x9, x9, x10
	eor x10, x12, x14
	eor x12, x13, x15
	mul x13, x12, x10
	umulh x10, x12, x10
	mov x12, #0xca87
	movk x12, #0x85eb, lsl #16
	eor x9, x9, x11
	movk x12, #0x79b1, lsl #32
	movk x12, #0x9e37, lsl #48
	madd x9, x1, x12, x9
	eor x10, x10, x13
	add x9, x9, x10
	b.cc .L11_19c
	ldp x10, x11, [x0, #16]
	cmp x1, #0x41
	ldp x12, x13, [x2, #32]
	ldp x15, x16, [x2, #48]
	eor x11, x13, x11
	ldp x13, x14, [x8, #-32]
	eor x10, x12, x10
	mul x12, x11, x10
	umulh x10, x11, x10
	eor x11, x15, x13
	eor x13, x16, x14
	mul x14, x13, x11
	umulh x11, x13, x11
	eor x10, x10, x12
	eor x11, x11, x14
	add x10, x10, x11
	add x9, x9, x10
	b.cc .L11_19c
	ldp x10, x11, [x0, #32]
	cmp x1, #0x61
	ldp x12, x13, [x2, #64]
	ldp x15, x16, [x2, #80]
	eor x11, x13, x11
	ldp x13, x14, [x8, #-48]
	eor x10, x12, x10
	mul x12, x11, x10
	umulh x10, x11, x10
	eor x11, x15, x13
	eor x13, x16, x14
	mul x14, x13, x11
	umulh x11, x13, x11
	eor x10, x10, x12
	eor x11, x11, x14
	add x10, x10, x11
	add x9, x9, x10
	b.cc .L11_19c
	ldp x10, x11, [x0, #48]
	ldp x12, x13, [x2, #96]
	ldp x14, x15, [x2, #112]
	eor x11, x13, x11
	ldp x13, x8, [x8, #-64]
	eor x10, x12, x10
	mul x12, x11, x10
	eor x8, x15, x8
	umulh x10, x11, x10
	eor x11, x14, x13
	mul x13, x8, x11
	umulh x8, x8, x11
	eor x10, x10, x12
	eor x8, x8, x13
	add x8, x10, x8
	add x9, x9, x8
.L11_19c:
	eor x8, x9, x9, lsr #37
.L11_1a0:
	mov x9, #0x79f9
	movk x9, #0x9e37, lsl #16
	movk x9, #0x6791, lsl #32
	movk x9, #0x1656, lsl #48
	mul x8, x8, x9
	eor x0, x8, x8, lsr #32
	ret
.L11_1bc:
	cmp x1, #0x4
	b.cc .L11_23c
	add x8, x0, x1
	ldr w9, [x0]
	ldur w8, [x8, #-4]
	ldp x10, x11, [x2, #8]
	orr x8, x8, x9, lsl #32
	eor x9, x11, x10
	eor x8, x9, x8
	ror x9, x8, #15
	eor x9, x9, x8, ror #40
	eor x8, x9, x8
	mov x9, #0xdf25
	movk x9, #0x1e98, lsl #16
	movk x9, #0x1c65, lsl #32
	movk x9, #0x9fb2, lsl #48
	mul x8, x8, x9
	add x10, x1, x8, lsr #35
	eor x8, x10, x8
	mul x8, x8, x9
	eor x0, x8, x8, lsr #28
	ret
.L11_214:
	mov x8, x1
	cmp x1, #0xf0
	b.hi .L11_2a0
	mov x9, x0
	add x4, x0, #0x8
	mov x0, x2
	mov x1, xzr
	mov x2, x9
	mov x3, x8
	b twox_core.width_64.impl_129_to_240_bytes
.L11_23c:
	mov x9, #0xeb4f
	mov x8, #0x79f9
	movk x9, #0x27d4, lsl #16
	movk x8, #0x9e37, lsl #16
	movk x9, #0xae3d, lsl #32
	movk x8, #0x67b1, lsl #32
	movk x9, #0xc2b2, lsl #48
	movk x8, #0x1656, lsl #48
	cbz x1, .L11_2b8
	add x10, x0, x1
	ldrb w11, [x0]
	lsr x12, x1, #1
	ldurb w10, [x10, #-1]
	orr x10, x10, x1, lsl #8
	orr x10, x10, x11, lsl #16
	ldrb w11, [x0, x12]
	ldp w12, w13, [x2]
	orr x10, x10, x11, lsl #24
	eor w11, w13, w12
	eor x10, x10, x11
	mul x9, x10, x9
	eor x9, x9, x9, lsr #29
	mul x8, x9, x8
	eor x0, x8, x8, lsr #32
	ret
.L11_2a0:
	mov x9, x0
	mov x0, x2
	mov x1, x3
	mov x2, x9
	mov x3, x8
	b twox_core.width_64.oneshot_long
.L11_2b8:
	ldp x10, x11, [x2, #56]
	eor x10, x11, x10
	eor x10, x10, x10, lsr #33
	mul x9, x10, x9
	eor x9, x9, x9, lsr #29
	mul x8, x9, x8
	eor x0, x8, x8, lsr #32
	ret
	.cfi_endproc
	.size twox_c.xxh3_64.XXH3_64bits_withSecret,.-twox_c.xxh3_64.XXH3_64bits_withSecret
	.section .text.twox_c.xxh3_64.XXH3_64bits_withSeed,"ax",@progbits
	.p2align 6
	.type twox_c.xxh3_64.XXH3_64bits_withSeed,@function
twox_c.xxh3_64.XXH3_64bits_withSeed:
	.cfi_startproc
	mov x3, x1
	cmp x1, #0x10
	b.hi .L12_74
	cmp x3, #0x9
	b.cc .L12_2e8
	mov x10, #0x39b9
	mov x11, #0x523a
	add x9, x0, x3
	movk x10, #0xea42, lsl #16
	movk x11, #0x996, lsl #16
	ldr x8, [x0]
	movk x10, #0x737b, lsl #32
	movk x11, #0xbc3b, lsl #32
	ldur x9, [x9, #-8]
	movk x10, #0x6782, lsl #48
	movk x11, #0xaf56, lsl #48
	add x10, x2, x10
	sub x11, x11, x2
	eor x8, x8, x10
	eor x9, x9, x11
	mul x10, x9, x8
	umulh x11, x9, x8
	rev x8, x8
	add x8, x8, x3
	add x8, x8, x9
	eor x9, x11, x10
	add x8, x8, x9
	eor x8, x8, x8, lsr #37
	b .L12_2cc
.L12_74:
	cmp x3, #0x80
	b.hi .L12_354
	mov x8, #0xfeb8
	mov x11, #0x17c
	mov x14, #0xd4de
	movk x8, #0x396c, lsl #16
	ldp x9, x10, [x0]
	movk x8, #0xa423, lsl #32
	movk x11, #0x2c81, lsl #16
	mov x15, #0x4072
	movk x8, #0xbe4b, lsl #48
	movk x11, #0x21f7, lsl #32
	movk x14, #0xe96d, lsl #16
	movk x11, #0x1cad, lsl #48
	add x12, x2, x8
	add x8, x0, x3
	movk x15, #0xa4a4, lsl #16
	sub x11, x11, x2
	eor x9, x9, x12
	ldp x12, x13, [x8, #-16]
	movk x14, #0x9083, lsl #32
	movk x15, #0xb3b7, lsl #32
	eor x10, x10, x11
	movk x14, #0xdb97, lsl #48
	movk x15, #0x1f67, lsl #48
	mul x11, x10, x9
	cmp x3, #0x21
	umulh x9, x10, x9
	add x10, x2, x14
	sub x14, x15, x2
	eor x10, x12, x10
	eor x12, x13, x14
	mul x13, x12, x10
	umulh x10, x12, x10
	mov x12, #0xca87
	movk x12, #0x85eb, lsl #16
	eor x9, x9, x11
	movk x12, #0x79b1, lsl #32
	movk x12, #0x9e37, lsl #48
	madd x9, x3, x12, x9
	eor x10, x10, x13
	add x9, x9, x10
	b.cc .L12_2c8
	mov x13, #0x5a82
	mov x12, #0x79cb
	mov x15, #0x8b8
	movk x13, #0x7dd0, lsl #16
	ldp x10, x11, [x0, #16]
	movk x12, #0x4ee6, lsl #16
	movk x13, #0xffcc, lsl #32
	mov x16, #0x35e0
	movk x12, #0xc0cc, lsl #32
	movk x13, #0x2172, lsl #48
	movk x15, #0x7446, lsl #16
	movk x12, #0x78e5, lsl #48
	sub x13, x13, x2
	movk x16, #0xe690, lsl #16
	add x12, x2, x12
	eor x11, x11, x13
	movk x15, #0x43f7, lsl #32
	ldp x13, x14, [x8, #-32]
	movk x16, #0x3a81, lsl #32
	eor x10, x10, x12
	movk x15, #0x8e24, lsl #48
	movk x16, #0x4c26, lsl #48
	mul x12, x11, x10
	cmp x3, #0x41
	umulh x10, x11, x10
	add x11, x2, x15
	sub x15, x16, x2
	eor x11, x13, x11
	eor x13, x14, x15
	mul x14, x13, x11
	umulh x11, x13, x11
	eor x10, x10, x12
	eor x11, x11, x14
	add x10, x10, x11
	add x9, x9, x10
	b.cc .L12_2c8
	mov x13, #0xd088
	mov x12, #0x283c
	mov x15, #0x6471
	movk x13, #0x8b65, lsl #16
	ldp x10, x11, [x0, #32]
	movk x12, #0xbb52, lsl #16
	movk x13, #0x531b, lsl #32
	mov x16, #0x1938
	movk x12, #0xc391, lsl #32
	movk x13, #0xa32e, lsl #48
	movk x15, #0x9748, lsl #16
	movk x12, #0xcb00, lsl #48
	sub x13, x13, x2
	movk x16, #0x46ef, lsl #16
	add x12, x2, x12
	eor x11, x11, x13
	movk x15, #0xda2, lsl #32
	ldp x13, x14, [x8, #-48]
	movk x16, #0xdea9, lsl #32
	eor x10, x10, x12
	movk x15, #0x4ef9, lsl #48
	movk x16, #0xd8ac, lsl #48
	mul x12, x11, x10
	cmp x3, #0x61
	umulh x10, x11, x10
	add x11, x2, x15
	sub x15, x16, x2
	eor x11, x13, x11
	eor x13, x14, x15
	mul x14, x13, x11
	umulh x11, x13, x11
	eor x10, x10, x12
	eor x11, x11, x14
	add x10, x10, x11
	add x9, x9, x10
	b.cc .L12_2c8
	mov x13, #0xdcf9
	mov x12, #0xfaa8
	mov x14, #0x518a
	movk x13, #0xc7bb, lsl #16
	ldp x10, x11, [x0, #48]
	movk x12, #0x3f76, lsl #16
	movk x13, #0xbc7, lsl #32
	mov x15, #0x9fc8
	movk x12, #0x9ce3, lsl #32
	movk x13, #0x1d4f, lsl #48
	movk x14, #0x4be0, lsl #16
	movk x12, #0x3f34, lsl #48
	sub x13, x13, x2
	movk x15, #0xc97e, lsl #16
	add x12, x2, x12
	eor x11, x11, x13
	movk x14, #0xb4cd, lsl #32
	ldp x13, x8, [x8, #-64]
	movk x15, #0x78d9, lsl #32
	eor x10, x10, x12
	movk x14, #0x3159, lsl #48
	movk x15, #0x6473, lsl #48
	mul x12, x11, x10
	umulh x10, x11, x10
	add x11, x2, x14
	sub x14, x15, x2
	eor x11, x13, x11
	eor x8, x8, x14
	mul x13, x8, x11
	umulh x8, x8, x11
	eor x10, x10, x12
	eor x8, x8, x13
	add x8, x10, x8
	add x9, x9, x8
.L12_2c8:
	eor x8, x9, x9, lsr #37
.L12_2cc:
	mov x9, #0x79f9
	movk x9, #0x9e37, lsl #16
	movk x9, #0x6791, lsl #32
	movk x9, #0x1656, lsl #48
	mul x8, x8, x9
	eor x0, x8, x8, lsr #32
	ret
.L12_2e8:
	cmp x3, #0x4
	b.cc .L12_37c
	add x8, x0, x3
	ldr w10, [x0]
	rev w9, w2
	ldur w8, [x8, #-4]
	eor x9, x2, x9, lsl #32
	orr x8, x8, x10, lsl #32
	mov x10, #0xd5a2
	movk x10, #0xc5ec, lsl #16
	movk x10, #0xb174, lsl #32
	movk x10, #0xc73a, lsl #48
	sub x9, x10, x9
	eor x8, x8, x9
	ror x9, x8, #15
	eor x9, x9, x8, ror #40
	eor x8, x9, x8
	mov x9, #0xdf25
	movk x9, #0x1e98, lsl #16
	movk x9, #0x1c65, lsl #32
	movk x9, #0x9fb2, lsl #48
	mul x8, x8, x9
	add x10, x3, x8, lsr #35
	eor x8, x10, x8
	mul x8, x8, x9
	eor x0, x8, x8, lsr #28
	ret
.L12_354:
	cmp x3, #0xf0
	b.hi .L12_3e8
	adrp x8, .L98_0
	add x8, x8, :lo12:.L98_0
	mov x9, x0
	add x4, x0, #0x8
	mov x0, x8
	mov x1, x2
	mov x2, x9
	b twox_core.width_64.impl_129_to_240_bytes
.L12_37c:
	mov x9, #0xeb4f
	mov x8, #0x79f9
	movk x9, #0x27d4, lsl #16
	movk x8, #0x9e37, lsl #16
	movk x9, #0xae3d, lsl #32
	movk x8, #0x67b1, lsl #32
	movk x9, #0xc2b2, lsl #48
	movk x8, #0x1656, lsl #48
	cbz x3, .L12_400
	add x10, x0, x3
	ldrb w11, [x0]
	lsr x12, x3, #1
	ldurb w10, [x10, #-1]
	orr x10, x10, x3, lsl #8
	orr x10, x10, x11, lsl #16
	ldrb w11, [x0, x12]
	mov w12, #0x5a9b
	movk w12, #0x8727, lsl #16
	orr x10, x10, x11, lsl #24
	add x11, x2, x12
	eor x10, x10, x11
	eor x10, x10, x10, lsr #33
	mul x9, x10, x9
	eor x9, x9, x9, lsr #29
	mul x8, x9, x8
	eor x0, x8, x8, lsr #32
	ret
.L12_3e8:
	mov x8, x0
	cbz x2, .L12_42c
	mov x0, x2
	mov x1, x8
	mov x2, x3
	b twox_core.width_64.oneshot_long_derived
.L12_400:
	mov x10, #0x1ddc
	movk x10, #0x5dc2, lsl #16
	movk x10, #0xf910, lsl #32
	movk x10, #0x8726, lsl #48
	eor x10, x2, x10
	eor x10, x10, x10, lsr #33
	mul x9, x10, x9
	eor x9, x9, x9, lsr #29
	mul x8, x9, x8
	eor x0, x8, x8, lsr #32
	ret
.L12_42c:
	adrp x0, .L98_0
	add x0, x0, :lo12:.L98_0
	mov w1, #0xc0
	mov x2, x8
	b twox_core.width_64.oneshot_long
	.cfi_endproc
	.size twox_c.xxh3_64.XXH3_64bits_withSeed,.-twox_c.xxh3_64.XXH3_64bits_withSeed
	.section .text.twox_core.width_64.oneshot_long_derived,"ax",@progbits
	.p2align 6
	.type twox_core.width_64.oneshot_long_derived,@function
twox_core.width_64.oneshot_long_derived:
	.cfi_startproc
	sub sp, sp, #0x120
	.cfi_def_cfa_offset 288
	fmov d0, x0
	adrp x8, .L96_140
	adrp x9, .L96_150
	ldr q2, [x9, #:lo12:.L96_150]
	adrp x9, .L96_170
	mov x3, x2
	ldr q4, [x9, #:lo12:.L96_170]
	mov x2, x1
	stp d15, d14, [sp, #192]
	.cfi_offset 78, -88
	.cfi_offset 79, -96
	neg v1.2d, v0.2d
	stp d13, d12, [sp, #208]
	.cfi_offset 76, -72
	.cfi_offset 77, -80
	stp d11, d10, [sp, #224]
	.cfi_offset 74, -56
	.cfi_offset 75, -64
	stp d9, d8, [sp, #240]
	.cfi_offset 72, -40
	.cfi_offset 73, -48
	zip1 v0.2d, v0.2d, v1.2d
	ldr q1, [x8, #:lo12:.L96_140]
	adrp x8, .L96_160
	ldr q3, [x8, #:lo12:.L96_160]
	adrp x8, .L96_180
	stp x29, x30, [sp, #256]
	.cfi_offset 29, -32
	.cfi_offset 30, -24
	ldr q5, [x8, #:lo12:.L96_180]
	adrp x8, .L96_190
	str x28, [sp, #272]
	.cfi_offset 28, -16
	ldr q6, [x8, #:lo12:.L96_190]
	adrp x8, .L96_1a0
	add x29, sp, #0x100
	add v2.2d, v0.2d, v2.2d
	ldr q7, [x8, #:lo12:.L96_1a0]
	adrp x8, .L96_1b0
	add v1.2d, v0.2d, v1.2d
	ldr q16, [x8, #:lo12:.L96_1b0]
	adrp x8, .L96_1c0
	add v4.2d, v0.2d, v4.2d
	ldr q17, [x8, #:lo12:.L96_1c0]
	add v3.2d, v0.2d, v3.2d
	adrp x8, .L96_1d0
	add v5.2d, v0.2d, v5.2d
	add v7.2d, v0.2d, v7.2d
	stp q1, q2, [sp]
	add v2.2d, v0.2d, v6.2d
	ldr q1, [x8, #:lo12:.L96_1d0]
	adrp x8, .L96_1f0
	stp q3, q4, [sp, #32]
	add v6.2d, v0.2d, v16.2d
	add v4.2d, v0.2d, v1.2d
	ldr q1, [x8, #:lo12:.L96_1f0]
	adrp x8, .L96_1e0
	stp q5, q2, [sp, #64]
	ldr q2, [x8, #:lo12:.L96_1e0]
	add v5.2d, v0.2d, v17.2d
	stp q7, q6, [sp, #96]
	add v6.2d, v0.2d, v1.2d
	lsr x8, x3, #10
	add v7.2d, v0.2d, v2.2d
	cmp x8, #0x1e
	stp q5, q4, [sp, #128]
	stp q7, q6, [sp, #160]
	b.hi .L13_130
	adrp x10, .L96_200
	cmp x3, #0x401
	adrp x13, .L96_210
	adrp x12, .L96_220
	adrp x11, .L96_230
	b.cs .L13_140
	ldr q0, [x10, #:lo12:.L96_200]
	ldr q1, [x13, #:lo12:.L96_210]
	mov x8, #0xffffffffffffffff
	ldr q2, [x12, #:lo12:.L96_220]
	ldr q3, [x11, #:lo12:.L96_230]
	mov x12, x2
	add x8, x3, x8
	add x9, x2, x3
	lsr x10, x8, #6
	mov x8, sp
	cbnz x10, .L13_3c0
	b .L13_448
.L13_130:
	mov x0, sp
	mov w1, #0xc0
	bl twox_core.width_64.oneshot_many
	b .L13_574
.L13_140:
	sub x8, x3, #0x1
	ldr q0, [x10, #:lo12:.L96_200]
	ldr q1, [x13, #:lo12:.L96_210]
	lsr x10, x8, #10
	ldr q2, [x12, #:lo12:.L96_220]
	ldr q3, [x11, #:lo12:.L96_230]
	mov x12, sp
	mov x9, xzr
	add x11, x2, #0x80
	add x12, x12, #0x20
.L13_168:
	mov x16, x12
	mov w13, #0x4
	mov x14, x11
	mov x15, x12
.L13_178:
	ldp q16, q17, [x16, #-32]
	subs x13, x13, #0x1
	ldp q21, q19, [x14, #-128]
	ldur q24, [x16, #-8]
	ldp q22, q20, [x14, #-64]
	ldur q18, [x16, #-24]
	ldr q8, [x16]
	ldur q11, [x16, #8]
	eor v23.16b, v17.16b, v19.16b
	eor v16.16b, v16.16b, v21.16b
	eor v25.16b, v24.16b, v20.16b
	ldp q27, q30, [x14]
	ldp q9, q10, [x14, #64]
	eor v18.16b, v18.16b, v22.16b
	shrn v28.2s, v23.2d, #32
	xtn v23.2s, v23.2d
	xtn v29.2s, v16.2d
	shrn v12.2s, v25.2d, #32
	xtn v25.2s, v25.2d
	shrn v26.2s, v16.2d, #32
	eor v14.16b, v8.16b, v30.16b
	eor v31.16b, v17.16b, v27.16b
	add v27.2d, v27.2d, v9.2d
	eor v17.16b, v24.16b, v9.16b
	shrn v13.2s, v18.2d, #32
	xtn v15.2s, v18.2d
	umlal v2.2d, v23.2s, v28.2s
	add v23.2d, v22.2d, v21.2d
	ldr q28, [x16, #16]
	ldp q21, q22, [x14, #-96]
	umlal v3.2d, v29.2s, v26.2s
	xtn v9.2s, v14.2d
	shrn v18.2s, v31.2d, #32
	shrn v24.2s, v14.2d, #32
	add v26.2d, v20.2d, v19.2d
	xtn v20.2s, v31.2d
	add v19.2d, v23.2d, v27.2d
	umlal v2.2d, v25.2s, v12.2s
	eor v25.16b, v28.16b, v22.16b
	eor v29.16b, v8.16b, v21.16b
	add v27.2d, v30.2d, v10.2d
	ldp q31, q30, [x14, #-32]
	eor v16.16b, v11.16b, v10.16b
	ldur q23, [x16, #24]
	umlal v3.2d, v15.2s, v13.2s
	shrn v8.2s, v29.2d, #32
	xtn v10.2s, v25.2d
	xtn v29.2s, v29.2d
	shrn v25.2s, v25.2d, #32
	umlal v2.2d, v9.2s, v24.2s
	eor v24.16b, v11.16b, v31.16b
	eor v9.16b, v23.16b, v30.16b
	ldp q11, q12, [x14, #32]
	ldr q13, [x15, #32]!
	add v26.2d, v26.2d, v27.2d
	umlal v0.2d, v10.2s, v25.2s
	umlal v1.2d, v29.2s, v8.2s
	xtn v15.2s, v24.2d
	ldp q25, q29, [x14, #96]
	shrn v14.2s, v9.2d, #32
	xtn v9.2s, v9.2d
	eor v13.16b, v13.16b, v12.16b
	eor v28.16b, v28.16b, v11.16b
	shrn v24.2s, v24.2d, #32
	add v21.2d, v31.2d, v21.2d
	add v22.2d, v30.2d, v22.2d
	add v27.2d, v11.2d, v25.2d
	add v30.2d, v12.2d, v29.2d
	umlal v3.2d, v20.2s, v18.2s
	shrn v31.2s, v28.2d, #32
	xtn v8.2s, v13.2d
	xtn v28.2s, v28.2d
	umlal v0.2d, v9.2s, v14.2s
	umlal v1.2d, v15.2s, v24.2s
	shrn v9.2s, v13.2d, #32
	add v21.2d, v21.2d, v27.2d
	add v22.2d, v22.2d, v30.2d
	ldur q24, [x16, #40]
	ext v18.16b, v26.16b, v26.16b, #8
	ext v19.16b, v19.16b, v19.16b, #8
	add x14, x14, #0x100
	eor v20.16b, v24.16b, v29.16b
	eor v23.16b, v23.16b, v25.16b
	mov x16, x15
	umlal v0.2d, v8.2s, v9.2s
	umlal v1.2d, v28.2s, v31.2s
	ext v22.16b, v22.16b, v22.16b, #8
	ext v21.16b, v21.16b, v21.16b, #8
	shrn v24.2s, v17.2d, #32
	shrn v25.2s, v16.2d, #32
	xtn v17.2s, v17.2d
	xtn v16.2s, v16.2d
	add v3.2d, v3.2d, v19.2d
	add v2.2d, v2.2d, v18.2d
	shrn v18.2s, v23.2d, #32
	xtn v19.2s, v23.2d
	xtn v23.2s, v20.2d
	shrn v20.2s, v20.2d, #32
	add v0.2d, v0.2d, v22.2d
	add v1.2d, v1.2d, v21.2d
	umlal v2.2d, v16.2s, v25.2s
	umlal v3.2d, v17.2s, v24.2s
	umlal v0.2d, v23.2s, v20.2s
	umlal v1.2d, v19.2s, v18.2s
	b.ne .L13_178
	ushr v16.2d, v2.2d, #47
	eor v2.16b, v4.16b, v2.16b
	adrp x13, .L96_240
	ushr v17.2d, v3.2d, #47
	eor v3.16b, v5.16b, v3.16b
	ldr q20, [x13, #:lo12:.L96_240]
	ushr v18.2d, v0.2d, #47
	eor v0.16b, v6.16b, v0.16b
	mov w13, #0x79b1
	ushr v19.2d, v1.2d, #47
	eor v1.16b, v7.16b, v1.16b
	movk w13, #0x9e37, lsl #16
	eor v16.16b, v2.16b, v16.16b
	eor v17.16b, v3.16b, v17.16b
	add x9, x9, #0x1
	eor v18.16b, v0.16b, v18.16b
	dup v21.2s, w13
	cmp x9, x10
	eor v19.16b, v1.16b, v19.16b
	add x11, x11, #0x400
	mul v2.4s, v16.4s, v20.4s
	mul v3.4s, v17.4s, v20.4s
	xtn v16.2s, v16.2d
	xtn v17.2s, v17.2d
	mul v0.4s, v18.4s, v20.4s
	xtn v18.2s, v18.2d
	mul v1.4s, v19.4s, v20.4s
	xtn v19.2s, v19.2d
	umlal v2.2d, v16.2s, v21.2s
	umlal v3.2d, v17.2s, v21.2s
	umlal v0.2d, v18.2s, v21.2s
	umlal v1.2d, v19.2s, v21.2s
	b.ne .L13_168
	and x8, x8, #0xfffffffffffffc00
	add x12, x2, x8
	mvn x8, x8
	add x8, x3, x8
	add x9, x2, x3
	lsr x10, x8, #6
	mov x8, sp
	cbz x10, .L13_448
.L13_3c0:
	mov x11, sp
	add x12, x12, #0x20
	add x11, x11, #0x20
.L13_3cc:
	ldp q4, q5, [x12, #-32]
	subs x10, x10, #0x1
	ldp q6, q7, [x11, #-32]
	ldp q17, q16, [x12], #64
	ldp q21, q20, [x11]
	ext v18.16b, v5.16b, v5.16b, #8
	ext v19.16b, v4.16b, v4.16b, #8
	eor v5.16b, v7.16b, v5.16b
	eor v4.16b, v6.16b, v4.16b
	ext v7.16b, v16.16b, v16.16b, #8
	ext v6.16b, v17.16b, v17.16b, #8
	add x11, x11, #0x8
	eor v17.16b, v21.16b, v17.16b
	eor v16.16b, v20.16b, v16.16b
	add v2.2d, v2.2d, v18.2d
	xtn v18.2s, v4.2d
	shrn v4.2s, v4.2d, #32
	add v3.2d, v3.2d, v19.2d
	shrn v19.2s, v5.2d, #32
	xtn v5.2s, v5.2d
	add v0.2d, v7.2d, v0.2d
	add v1.2d, v6.2d, v1.2d
	xtn v6.2s, v16.2d
	xtn v7.2s, v17.2d
	shrn v16.2s, v16.2d, #32
	shrn v17.2s, v17.2d, #32
	umlal v3.2d, v18.2s, v4.2s
	umlal v2.2d, v5.2s, v19.2s
	umlal v0.2d, v6.2s, v16.2s
	umlal v1.2d, v7.2s, v17.2s
	b.ne .L13_3cc
.L13_448:
	ldur q4, [x9, #-64]
	ldur q5, [sp, #121]
	ldur q7, [x8, #137]
	ldur q17, [x8, #153]
	ext v6.16b, v4.16b, v4.16b, #8
	eor v4.16b, v5.16b, v4.16b
	ldur q5, [x9, #-48]
	ext v16.16b, v5.16b, v5.16b, #8
	eor v5.16b, v7.16b, v5.16b
	xtn v7.2s, v4.2d
	shrn v4.2s, v4.2d, #32
	add v3.2d, v6.2d, v3.2d
	ldur q6, [x9, #-32]
	xtn v18.2s, v5.2d
	shrn v5.2s, v5.2d, #32
	add v2.2d, v16.2d, v2.2d
	ldur q16, [sp, #11]
	umlal v3.2d, v7.2s, v4.2s
	ext v4.16b, v6.16b, v6.16b, #8
	eor v6.16b, v17.16b, v6.16b
	ldur q7, [x9, #-16]
	umlal v2.2d, v18.2s, v5.2s
	ldur q5, [x8, #169]
	ext v17.16b, v7.16b, v7.16b, #8
	eor v3.16b, v3.16b, v16.16b
	xtn v16.2s, v6.2d
	eor v5.16b, v5.16b, v7.16b
	shrn v6.2s, v6.2d, #32
	add v1.2d, v4.2d, v1.2d
	ldur q4, [sp, #27]
	xtn v7.2s, v5.2d
	eor v2.16b, v2.16b, v4.16b
	shrn v4.2s, v5.2d, #32
	umlal v1.2d, v16.2s, v6.2s
	add v0.2d, v17.2d, v0.2d
	mov x8, v3.d[1]
	ldur q5, [sp, #43]
	fmov x9, d3
	ldur q3, [sp, #59]
	mov x10, v2.d[1]
	umlal v0.2d, v7.2s, v4.2s
	eor v1.16b, v1.16b, v5.16b
	mul x11, x9, x8
	umulh x8, x9, x8
	fmov x9, d2
	mov x12, v1.d[1]
	eor v0.16b, v0.16b, v3.16b
	mul x13, x9, x10
	mov x14, v0.d[1]
	umulh x9, x9, x10
	fmov x10, d1
	eor x8, x8, x11
	mul x15, x10, x12
	umulh x10, x10, x12
	fmov x12, d0
	eor x9, x9, x13
	mul x16, x12, x14
	umulh x12, x12, x14
	mov x14, #0xca87
	eor x10, x10, x15
	movk x14, #0x85eb, lsl #16
	add x9, x9, x10
	movk x14, #0x79b1, lsl #32
	movk x14, #0x9e37, lsl #48
	madd x8, x3, x14, x8
	eor x10, x12, x16
	add x9, x9, x10
	add x8, x8, x9
	mov x9, #0x79f9
	movk x9, #0x9e37, lsl #16
	eor x8, x8, x8, lsr #37
	movk x9, #0x6791, lsl #32
	movk x9, #0x1656, lsl #48
	mul x8, x8, x9
	eor x0, x8, x8, lsr #32
.L13_574:
	ldp x29, x30, [sp, #256]
	.cfi_restore 29
	.cfi_restore 30
	ldr x28, [sp, #272]
	.cfi_restore 28
	ldp d9, d8, [sp, #240]
	.cfi_restore 72
	.cfi_restore 73
	ldp d11, d10, [sp, #224]
	.cfi_restore 74
	.cfi_restore 75
	ldp d13, d12, [sp, #208]
	.cfi_restore 76
	.cfi_restore 77
	ldp d15, d14, [sp, #192]
	.cfi_restore 78
	.cfi_restore 79
	add sp, sp, #0x120
	.cfi_def_cfa_offset 0
	ret
	.cfi_endproc
	.size twox_core.width_64.oneshot_long_derived,.-twox_core.width_64.oneshot_long_derived
	.section .text.twox_plain.xxhash64.rounds.impl_long,"ax",@progbits
	.p2align 6
	.type twox_plain.xxhash64.rounds.impl_long,@function
twox_plain.xxhash64.rounds.impl_long:
	.cfi_startproc
	mov x10, #0xb5d6
	mov x8, #0xeb4f
	mov x9, #0xca87
	movk x10, #0xadc0, lsl #16
	movk x8, #0x27d4, lsl #16
	movk x9, #0x85eb, lsl #16
	movk x10, #0x27ee, lsl #32
	movk x8, #0xae3d, lsl #32
	movk x9, #0x79b1, lsl #32
	movk x10, #0x60ea, lsl #48
	movk x8, #0xc2b2, lsl #48
	movk x9, #0x9e37, lsl #48
	add x11, x0, x10
	mov x10, #0x3579
	add x12, x0, x8
	movk x10, #0x7a14, lsl #16
	mov x13, x2
	movk x10, #0x864e, lsl #32
	movk x10, #0x61c8, lsl #48
	add x10, x0, x10
.L14_50:
	prfm pldl1keep, [x1, #1024]
	ldp x14, x15, [x1]
	sub x13, x13, #0x20
	cmp x13, #0x1f
	madd x11, x14, x8, x11
	madd x12, x15, x8, x12
	ldp x14, x15, [x1, #16]
	add x1, x1, #0x20
	madd x14, x14, x8, x0
	ror x17, x11, #33
	madd x10, x15, x8, x10
	ror x16, x12, #33
	mul x11, x17, x9
	ror x15, x14, #33
	mul x12, x16, x9
	ror x14, x10, #33
	mul x0, x15, x9
	mul x10, x14, x9
	b.hi .L14_50
	mov x13, #0x6ca9
	ror x11, x11, #63
	ror x12, x12, #57
	movk x13, #0xf79, lsl #16
	ror x18, x0, #52
	ror x10, x10, #46
	movk x13, #0x5b01, lsl #32
	add x11, x12, x11
	movk x13, #0xdef3, lsl #48
	add x10, x18, x10
	mul x17, x17, x13
	add x10, x11, x10
	mov x11, #0xae63
	movk x11, #0xc2b2, lsl #16
	mul x16, x16, x13
	movk x11, #0xca77, lsl #32
	movk x11, #0x85eb, lsl #48
	mul x15, x15, x13
	ror x17, x17, #33
	mul x17, x17, x9
	ror x16, x16, #33
	mul x12, x16, x9
	ror x15, x15, #33
	mul x15, x15, x9
	eor x10, x10, x17
	madd x10, x10, x9, x11
	eor x10, x10, x12
	mul x12, x14, x13
	madd x10, x10, x9, x11
	ror x12, x12, #33
	eor x10, x10, x15
	mul x12, x12, x9
	madd x10, x10, x9, x11
	eor x10, x10, x12
	ubfx x12, x2, #3, #2
	madd x10, x10, x9, x2
	add x10, x10, x11
	cbz x12, .L14_198
	ldr x13, [x1]
	cmp x12, #0x1
	mul x13, x13, x8
	ror x13, x13, #33
	mul x13, x13, x9
	eor x10, x13, x10
	ror x10, x10, #37
	madd x10, x10, x9, x11
	b.eq .L14_198
	ldr x13, [x1, #8]
	cmp x12, #0x2
	mul x13, x13, x8
	ror x13, x13, #33
	mul x13, x13, x9
	eor x10, x13, x10
	ror x10, x10, #37
	madd x10, x10, x9, x11
	b.eq .L14_198
	ldr x12, [x1, #16]
	mul x12, x12, x8
	ror x12, x12, #33
	mul x12, x12, x9
	eor x10, x12, x10
	ror x10, x10, #37
	madd x10, x10, x9, x11
.L14_198:
	mov x11, #0x79f9
	movk x11, #0x9e37, lsl #16
	movk x11, #0x67b1, lsl #32
	movk x11, #0x1656, lsl #48
	tbz w2, #2, .L14_1c4
	and x12, x2, #0x18
	ldr w12, [x1, x12]
	mul x12, x12, x9
	eor x10, x12, x10
	ror x10, x10, #41
	madd x10, x10, x8, x11
.L14_1c4:
	ands x13, x2, #0x3
	b.eq .L14_230
	mov x12, #0x67c5
	and x14, x2, #0x1c
	cmp x13, #0x1
	movk x12, #0x1656, lsl #16
	ldrb w15, [x14, x1]
	movk x12, #0xeb2f, lsl #32
	movk x12, #0x27d4, lsl #48
	mul x15, x15, x12
	eor x10, x15, x10
	ror x10, x10, #53
	mul x10, x10, x9
	b.eq .L14_230
	add x14, x14, x1
	cmp x13, #0x2
	ldrb w15, [x14, #1]
	mul x15, x15, x12
	eor x10, x15, x10
	ror x10, x10, #53
	mul x10, x10, x9
	b.eq .L14_230
	ldrb w13, [x14, #2]
	mul x12, x13, x12
	eor x10, x12, x10
	ror x10, x10, #53
	mul x10, x10, x9
.L14_230:
	eor x9, x10, x10, lsr #33
	mul x8, x9, x8
	eor x8, x8, x8, lsr #29
	mul x8, x8, x11
	eor x0, x8, x8, lsr #32
	ret
	.cfi_endproc
	.size twox_plain.xxhash64.rounds.impl_long,.-twox_plain.xxhash64.rounds.impl_long
	.section .text.twox_c.xxh3_128.XXH3_128bits,"ax",@progbits
	.p2align 6
	.type twox_c.xxh3_128.XXH3_128bits,@function
twox_c.xxh3_128.XXH3_128bits:
	.cfi_startproc
	mov x3, x1
	cmp x1, #0x10
	mov x2, x0
	b.hi .L15_d4
	cmp x3, #0x9
	b.cc .L15_184
	mov x10, #0x2349
	ldr x8, [x2]
	add x9, x2, x3
	movk x10, #0x3336, lsl #16
	ldur x9, [x9, #-8]
	movk x10, #0x3f00, lsl #32
	movk x10, #0x5997, lsl #48
	eor x8, x8, x10
	mov x10, #0xca87
	movk x10, #0x85eb, lsl #16
	eor x8, x8, x9
	movk x10, #0x79b1, lsl #32
	movk x10, #0x9e37, lsl #48
	mul x11, x8, x10
	umulh x8, x8, x10
	mov x10, #0x3d58
	movk x10, #0x92d6, lsl #16
	movk x10, #0x7976, lsl #32
	movk x10, #0xc202, lsl #48
	eor x9, x9, x10
	mov w10, #0xca76
	movk w10, #0x85eb, lsl #16
	umaddl x9, w9, w10, x9
	add x10, x11, x3, lsl #54
	mov x11, #0xffc0000000000000
	add x10, x10, x11
	mov x11, #0xeb4f
	add x8, x9, x8
	movk x11, #0x27d4, lsl #16
	rev x9, x8
	movk x11, #0xae3d, lsl #32
	movk x11, #0xc2b2, lsl #48
	eor x9, x9, x10
	umulh x10, x9, x11
	mul x9, x9, x11
	madd x8, x8, x11, x10
	mov x10, #0x79f9
	movk x10, #0x9e37, lsl #16
	movk x10, #0x6791, lsl #32
	eor x9, x9, x9, lsr #37
	movk x10, #0x1656, lsl #48
	mul x9, x9, x10
	eor x8, x8, x8, lsr #37
	mul x8, x8, x10
	eor x0, x9, x9, lsr #32
	eor x1, x8, x8, lsr #32
	ret
.L15_d4:
	cmp x3, #0x40
	b.hi .L15_210
	mov x8, #0xca87
	cmp x3, #0x21
	movk x8, #0x85eb, lsl #16
	movk x8, #0x79b1, lsl #32
	movk x8, #0x9e37, lsl #48
	mul x9, x3, x8
	b.cc .L15_224
	mov x12, #0x79cb
	mov x13, #0x5a82
	add x14, x2, x3
	ldp x10, x11, [x2, #16]
	movk x12, #0x4ee6, lsl #16
	movk x13, #0x7dd0, lsl #16
	movk x12, #0xc0cc, lsl #32
	mov x17, #0x8b8
	movk x13, #0xffcc, lsl #32
	movk x12, #0x78e5, lsl #48
	movk x17, #0x7446, lsl #16
	movk x13, #0x2172, lsl #48
	eor x12, x10, x12
	movk x17, #0x43f7, lsl #32
	eor x13, x11, x13
	ldp x16, x14, [x14, #-32]
	mul x15, x13, x12
	movk x17, #0x8e24, lsl #48
	add x10, x11, x10
	umulh x12, x13, x12
	mov x13, #0x35e0
	eor x17, x16, x17
	movk x13, #0xe690, lsl #16
	movk x13, #0x3a81, lsl #32
	movk x13, #0x4c26, lsl #48
	eor x13, x14, x13
	mul x18, x13, x17
	eor x12, x12, x15
	add x9, x9, x12
	add x12, x14, x16
	umulh x13, x13, x17
	eor x9, x9, x12
	eor x13, x13, x18
	eor x10, x10, x13
	b .L15_228
.L15_184:
	cmp x3, #0x4
	b.cc .L15_314
	add x8, x2, x3
	ldr w9, [x2]
	mov x10, #0x94ac
	ldur w8, [x8, #-4]
	movk x10, #0x4dc9, lsl #16
	movk x10, #0x2334, lsl #32
	orr x8, x9, x8, lsl #32
	mov x9, #0xca87
	movk x10, #0xc4f0, lsl #48
	movk x9, #0x85eb, lsl #16
	movk x9, #0x79b1, lsl #32
	eor x8, x8, x10
	movk x9, #0x9e37, lsl #48
	add x9, x9, x3, lsl #2
	mul x10, x8, x9
	umulh x8, x8, x9
	add x8, x8, x10, lsl #1
	eor x9, x10, x8, lsr #3
	mov x10, #0xdf25
	eor x8, x8, x8, lsr #37
	movk x10, #0x1e98, lsl #16
	eor x9, x9, x9, lsr #35
	movk x10, #0x1c65, lsl #32
	movk x10, #0x9fb2, lsl #48
	mul x9, x9, x10
	mov x10, #0x79f9
	movk x10, #0x9e37, lsl #16
	movk x10, #0x6791, lsl #32
	movk x10, #0x1656, lsl #48
	mul x8, x8, x10
	eor x0, x9, x9, lsr #28
	eor x1, x8, x8, lsr #32
	ret
.L15_210:
	cmp x3, #0x80
	b.hi .L15_398
	mov x0, x2
	mov x1, x3
	b twox_core.width_128.oneshot_65_to_128
.L15_224:
	mov x10, xzr
.L15_228:
	add x11, x2, x3
	mov x13, #0xd4de
	mov x14, #0x4072
	ldp x12, x11, [x11, #-16]
	movk x13, #0xe96d, lsl #16
	movk x14, #0xa4a4, lsl #16
	movk x13, #0x9083, lsl #32
	mov x18, #0xfeb8
	movk x14, #0xb3b7, lsl #32
	movk x13, #0xdb97, lsl #48
	mov x0, #0x17c
	movk x14, #0x1f67, lsl #48
	eor x13, x12, x13
	movk x18, #0x396c, lsl #16
	eor x14, x11, x14
	ldp x16, x17, [x2]
	movk x0, #0x2c81, lsl #16
	mul x15, x14, x13
	movk x18, #0xa423, lsl #32
	movk x0, #0x21f7, lsl #32
	movk x18, #0xbe4b, lsl #48
	add x11, x11, x12
	umulh x13, x14, x13
	movk x0, #0x1cad, lsl #48
	eor x14, x16, x18
	eor x18, x17, x0
	mul x0, x18, x14
	umulh x14, x18, x14
	mov x18, #0xeb4f
	movk x18, #0x27d4, lsl #16
	eor x13, x13, x15
	add x15, x17, x16
	movk x18, #0xae3d, lsl #32
	add x10, x10, x13
	mov x13, #0xae63
	movk x18, #0xc2b2, lsl #48
	movk x13, #0xc2b2, lsl #16
	eor x10, x10, x15
	mul x18, x3, x18
	movk x13, #0xca77, lsl #32
	movk x13, #0x85eb, lsl #48
	eor x14, x14, x0
	add x9, x9, x14
	madd x13, x10, x13, x18
	eor x9, x9, x11
	mov x11, #0x79f9
	movk x11, #0x9e37, lsl #16
	movk x11, #0x6791, lsl #32
	madd x8, x9, x8, x13
	add x9, x9, x10
	movk x11, #0x1656, lsl #48
	eor x9, x9, x9, lsr #37
	mul x9, x9, x11
	eor x8, x8, x8, lsr #37
	mul x8, x8, x11
	eor x0, x9, x9, lsr #32
	eor x8, x8, x8, lsr #32
	neg x1, x8
	ret
.L15_314:
	cbz x3, .L15_3bc
	add x8, x2, x3
	ldrb w9, [x2]
	lsr x10, x3, #1
	ldurb w8, [x8, #-1]
	mov x11, #0xeb4f
	ldrb w10, [x2, x10]
	movk x11, #0x27d4, lsl #16
	orr w8, w8, w3, lsl #8
	movk x11, #0xae3d, lsl #32
	movk x11, #0xc2b2, lsl #48
	orr w8, w8, w9, lsl #16
	mov w9, #0x5a9b
	movk w9, #0x8727, lsl #16
	orr w8, w8, w10, lsl #24
	mov w10, #0x208b
	movk w10, #0x302c, lsl #16
	eor w9, w8, w9
	rev w8, w8
	mul x9, x9, x11
	eor w8, w10, w8, ror #19
	mov x10, #0x79f9
	movk x10, #0x9e37, lsl #16
	mul x8, x8, x11
	movk x10, #0x67b1, lsl #32
	movk x10, #0x1656, lsl #48
	eor x9, x9, x9, lsr #29
	mul x9, x9, x10
	eor x8, x8, x8, lsr #29
	mul x8, x8, x10
	eor x0, x9, x9, lsr #32
	eor x1, x8, x8, lsr #32
	ret
.L15_398:
	cmp x3, #0xf0
	b.hi .L15_3ac
	mov x0, x2
	mov x1, x3
	b twox_core.width_128.oneshot_129_to_240
.L15_3ac:
	adrp x0, .L98_0
	add x0, x0, :lo12:.L98_0
	mov w1, #0xc0
	b twox_core.width_128.oneshot_long
.L15_3bc:
	mov x1, #0x98d8
	mov x0, #0x497f
	movk x1, #0x147, lsl #16
	movk x0, #0x468d, lsl #16
	movk x1, #0x6d3, lsl #32
	movk x0, #0xc324, lsl #32
	movk x1, #0x99aa, lsl #48
	movk x0, #0x6001, lsl #48
	ret
	.cfi_endproc
	.size twox_c.xxh3_128.XXH3_128bits,.-twox_c.xxh3_128.XXH3_128bits
	.section .text.twox_core.width_128.oneshot_65_to_128,"ax",@progbits
	.p2align 6
	.type twox_core.width_128.oneshot_65_to_128,@function
twox_core.width_128.oneshot_65_to_128:
	.cfi_startproc
	mov x8, #0xca87
	cmp x1, #0x61
	movk x8, #0x85eb, lsl #16
	movk x8, #0x79b1, lsl #32
	movk x8, #0x9e37, lsl #48
	mul x9, x1, x8
	b.cc .L16_a8
	mov x12, #0xfaa8
	mov x13, #0xdcf9
	add x14, x0, x1
	ldp x10, x11, [x0, #48]
	movk x12, #0x3f76, lsl #16
	movk x13, #0xc7bb, lsl #16
	movk x12, #0x9ce3, lsl #32
	mov x17, #0x518a
	movk x13, #0xbc7, lsl #32
	movk x12, #0x3f34, lsl #48
	movk x17, #0x4be0, lsl #16
	movk x13, #0x1d4f, lsl #48
	eor x12, x10, x12
	movk x17, #0xb4cd, lsl #32
	eor x13, x11, x13
	ldp x16, x14, [x14, #-64]
	mul x15, x13, x12
	movk x17, #0x3159, lsl #48
	add x10, x11, x10
	umulh x12, x13, x12
	mov x13, #0x9fc8
	eor x17, x16, x17
	movk x13, #0xc97e, lsl #16
	movk x13, #0x78d9, lsl #32
	movk x13, #0x6473, lsl #48
	eor x13, x14, x13
	mul x18, x13, x17
	eor x12, x12, x15
	add x9, x9, x12
	add x12, x14, x16
	umulh x13, x13, x17
	eor x9, x9, x12
	eor x13, x13, x18
	eor x14, x10, x13
	b .L16_ac
.L16_a8:
	mov x14, xzr
.L16_ac:
	str x25, [sp, #-64]!
	.cfi_def_cfa_offset 64
	.cfi_offset 25, -64
	add x3, x0, x1
	mov x10, #0x1938
	mov x13, #0x6471
	ldp x11, x12, [x3, #-48]
	movk x10, #0x46ef, lsl #16
	movk x13, #0x9748, lsl #16
	movk x10, #0xdea9, lsl #32
	mov x18, #0x35e0
	movk x13, #0xda2, lsl #32
	movk x10, #0xd8ac, lsl #48
	mov x2, #0x8b8
	movk x13, #0x4ef9, lsl #48
	eor x16, x12, x10
	movk x18, #0xe690, lsl #16
	eor x17, x11, x13
	ldp x13, x10, [x3, #-32]
	movk x2, #0x7446, lsl #16
	movk x18, #0x3a81, lsl #32
	mul x15, x16, x17
	movk x2, #0x43f7, lsl #32
	movk x18, #0x4c26, lsl #48
	mov x6, #0x283c
	movk x2, #0x8e24, lsl #48
	umulh x4, x16, x17
	eor x17, x10, x18
	eor x18, x13, x2
	ldp x2, x5, [x0, #32]
	mul x16, x17, x18
	movk x6, #0xbb52, lsl #16
	stp x22, x21, [sp, #32]
	.cfi_offset 21, -24
	.cfi_offset 22, -32
	movk x6, #0xc391, lsl #32
	mov x21, #0x79cb
	stp x20, x19, [sp, #48]
	.cfi_offset 19, -8
	.cfi_offset 20, -16
	umulh x17, x17, x18
	mov x18, #0xd088
	movk x6, #0xcb00, lsl #48
	movk x18, #0x8b65, lsl #16
	eor x6, x2, x6
	movk x21, #0x4ee6, lsl #16
	movk x18, #0x531b, lsl #32
	ldp x20, x19, [x0, #16]
	movk x18, #0xa32e, lsl #48
	movk x21, #0xc0cc, lsl #32
	stp x24, x23, [sp, #16]
	.cfi_offset 23, -40
	.cfi_offset 24, -48
	eor x18, x5, x18
	movk x21, #0x78e5, lsl #48
	mov x24, #0x4072
	mul x7, x18, x6
	eor x21, x20, x21
	movk x24, #0xa4a4, lsl #16
	movk x24, #0xb3b7, lsl #32
	eor x15, x4, x15
	mov x25, #0xfeb8
	umulh x6, x18, x6
	mov x18, #0x5a82
	movk x24, #0x1f67, lsl #48
	movk x18, #0x7dd0, lsl #16
	add x14, x14, x15
	add x2, x5, x2
	movk x18, #0xffcc, lsl #32
	ldp x15, x0, [x0]
	movk x18, #0x2172, lsl #48
	movk x25, #0x396c, lsl #16
	eor x14, x14, x2
	eor x22, x19, x18
	ldp x18, x3, [x3, #-16]
	mul x23, x22, x21
	eor x2, x6, x7
	movk x25, #0xa423, lsl #32
	eor x16, x17, x16
	add x9, x9, x2
	add x11, x12, x11
	umulh x21, x22, x21
	mov x22, #0xd4de
	eor x24, x3, x24
	movk x22, #0xe96d, lsl #16
	movk x25, #0xbe4b, lsl #48
	add x14, x14, x16
	movk x22, #0x9083, lsl #32
	add x16, x19, x20
	eor x9, x9, x11
	movk x22, #0xdb97, lsl #48
	mov x11, #0xeb4f
	eor x5, x15, x25
	eor x22, x18, x22
	eor x14, x14, x16
	movk x11, #0x27d4, lsl #16
	mul x4, x24, x22
	movk x11, #0xae3d, lsl #32
	add x15, x0, x15
	movk x11, #0xc2b2, lsl #48
	add x10, x10, x13
	eor x16, x21, x23
	umulh x22, x24, x22
	mov x24, #0x17c
	add x9, x9, x16
	movk x24, #0x2c81, lsl #16
	eor x9, x9, x10
	movk x24, #0x21f7, lsl #32
	mul x11, x1, x11
	movk x24, #0x1cad, lsl #48
	ldp x20, x19, [sp, #48]
	.cfi_restore 19
	.cfi_restore 20
	eor x24, x0, x24
	eor x2, x22, x4
	mul x17, x24, x5
	add x14, x14, x2
	ldp x22, x21, [sp, #32]
	.cfi_restore 21
	.cfi_restore 22
	umulh x12, x24, x5
	eor x13, x14, x15
	mov x14, #0xae63
	movk x14, #0xc2b2, lsl #16
	ldp x24, x23, [sp, #16]
	.cfi_restore 23
	.cfi_restore 24
	movk x14, #0xca77, lsl #32
	movk x14, #0x85eb, lsl #48
	madd x11, x13, x14, x11
	eor x10, x12, x17
	add x9, x9, x10
	add x10, x3, x18
	eor x9, x9, x10
	mov x10, #0x79f9
	madd x8, x9, x8, x11
	movk x10, #0x9e37, lsl #16
	add x9, x9, x13
	movk x10, #0x6791, lsl #32
	eor x9, x9, x9, lsr #37
	movk x10, #0x1656, lsl #48
	mul x9, x9, x10
	eor x8, x8, x8, lsr #37
	mul x8, x8, x10
	eor x0, x9, x9, lsr #32
	eor x8, x8, x8, lsr #32
	neg x1, x8
	ldr x25, [sp], #64
	.cfi_def_cfa_offset 0
	.cfi_restore 25
	ret
	.cfi_endproc
	.size twox_core.width_128.oneshot_65_to_128,.-twox_core.width_128.oneshot_65_to_128
	.section .text.twox_core.width_128.oneshot_129_to_240,"ax",@progbits
	.p2align 6
	.type twox_core.width_128.oneshot_129_to_240,@function
twox_core.width_128.oneshot_129_to_240:
	.cfi_startproc
	str x30, [sp, #-96]!
	.cfi_def_cfa_offset 96
	.cfi_offset 30, -96
	mov x8, #0xfeb8
	mov x11, #0x17c
	mov x12, #0xd4de
	ldp x9, x10, [x0]
	movk x8, #0x396c, lsl #16
	movk x11, #0x2c81, lsl #16
	movk x8, #0xa423, lsl #32
	mov x15, #0x4072
	movk x11, #0x21f7, lsl #32
	movk x8, #0xbe4b, lsl #48
	movk x12, #0xe96d, lsl #16
	movk x11, #0x1cad, lsl #48
	eor x8, x9, x8
	movk x15, #0xa4a4, lsl #16
	eor x11, x10, x11
	ldp x13, x14, [x0, #16]
	mul x16, x11, x8
	movk x12, #0x9083, lsl #32
	movk x15, #0xb3b7, lsl #32
	movk x12, #0xdb97, lsl #48
	movk x15, #0x1f67, lsl #48
	mov x2, #0x79cb
	umulh x18, x11, x8
	eor x11, x13, x12
	eor x12, x14, x15
	mov x8, #0xca87
	mov x3, #0x5a82
	movk x2, #0x4ee6, lsl #16
	mul x15, x12, x11
	movk x8, #0x85eb, lsl #16
	movk x3, #0x7dd0, lsl #16
	movk x8, #0x79b1, lsl #32
	movk x2, #0xc0cc, lsl #32
	movk x3, #0xffcc, lsl #32
	umulh x17, x12, x11
	ldp x11, x12, [x0, #32]
	stp x20, x19, [sp, #80]
	.cfi_offset 19, -8
	.cfi_offset 20, -16
	movk x8, #0x9e37, lsl #48
	movk x2, #0x78e5, lsl #48
	movk x3, #0x2172, lsl #48
	eor x16, x18, x16
	mov x5, #0x8b8
	mov x19, #0x35e0
	stp x22, x21, [sp, #64]
	.cfi_offset 21, -24
	.cfi_offset 22, -32
	madd x7, x1, x8, x16
	eor x4, x11, x2
	eor x3, x12, x3
	movk x5, #0x7446, lsl #16
	ldp x16, x18, [x0, #48]
	movk x19, #0xe690, lsl #16
	mov x21, #0x283c
	mov x22, #0xd088
	mov x30, #0xfaa8
	mov x8, #0xdcf9
	stp x28, x27, [sp, #16]
	.cfi_offset 27, -72
	.cfi_offset 28, -80
	mul x2, x3, x4
	stp x26, x25, [sp, #32]
	.cfi_offset 25, -56
	.cfi_offset 26, -64
	movk x5, #0x43f7, lsl #32
	movk x19, #0x3a81, lsl #32
	umulh x6, x3, x4
	ldp x3, x4, [x0, #64]
	movk x21, #0xbb52, lsl #16
	movk x22, #0x8b65, lsl #16
	mov x25, #0x6471
	mov x26, #0x1938
	ldp x27, x28, [x0, #96]
	movk x30, #0x3f76, lsl #16
	movk x8, #0xc7bb, lsl #16
	stp x24, x23, [sp, #48]
	.cfi_offset 23, -40
	.cfi_offset 24, -48
	movk x5, #0x8e24, lsl #48
	movk x19, #0x4c26, lsl #48
	movk x21, #0xc391, lsl #32
	movk x22, #0x531b, lsl #32
	ldp x23, x24, [x0, #80]
	movk x25, #0x9748, lsl #16
	movk x26, #0x46ef, lsl #16
	movk x30, #0x9ce3, lsl #32
	movk x8, #0xbc7, lsl #32
	eor x20, x16, x5
	eor x19, x18, x19
	movk x21, #0xcb00, lsl #48
	movk x22, #0xa32e, lsl #48
	movk x25, #0xda2, lsl #32
	movk x26, #0xdea9, lsl #32
	movk x30, #0x3f34, lsl #48
	movk x8, #0x1d4f, lsl #48
	mul x5, x19, x20
	movk x25, #0x4ef9, lsl #48
	movk x26, #0xd8ac, lsl #48
	add x13, x14, x13
	eor x14, x27, x30
	eor x8, x28, x8
	umulh x19, x19, x20
	eor x20, x3, x21
	eor x21, x4, x22
	eor x13, x7, x13
	mov x30, #0x518a
	eor x15, x17, x15
	mul x22, x21, x20
	movk x30, #0x4be0, lsl #16
	add x9, x10, x9
	movk x30, #0xb4cd, lsl #32
	eor x9, x9, x15
	eor x15, x6, x2
	umulh x20, x21, x20
	eor x21, x23, x25
	eor x25, x24, x26
	movk x30, #0x3159, lsl #48
	add x13, x13, x15
	add x15, x18, x16
	mul x7, x8, x14
	eor x16, x19, x5
	add x11, x12, x11
	add x9, x9, x16
	eor x12, x13, x15
	umulh x8, x8, x14
	mov x14, #0x9fc8
	eor x9, x9, x11
	movk x14, #0xc97e, lsl #16
	eor x11, x20, x22
	mul x26, x25, x21
	movk x14, #0x78d9, lsl #32
	add x11, x12, x11
	movk x14, #0x6473, lsl #48
	add x12, x24, x23
	umulh x21, x25, x21
	ldp x17, x25, [x0, #112]
	eor x11, x11, x12
	eor x8, x8, x7
	add x12, x4, x3
	add x8, x11, x8
	eor x10, x17, x30
	eor x14, x25, x14
	add x11, x25, x17
	mul x2, x14, x10
	eor x8, x8, x11
	add x11, x28, x27
	eor x13, x21, x26
	eor x8, x8, x8, lsr #37
	umulh x10, x14, x10
	add x9, x9, x13
	eor x9, x9, x12
	lsr x12, x1, #5
	subs x12, x12, #0x4
	eor x10, x10, x2
	add x10, x9, x10
	mov x9, #0x79f9
	movk x9, #0x9e37, lsl #16
	eor x10, x10, x11
	movk x9, #0x6791, lsl #32
	eor x10, x10, x10, lsr #37
	movk x9, #0x1656, lsl #48
	mul x8, x8, x9
	mul x11, x10, x9
	eor x10, x8, x8, lsr #32
	eor x11, x11, x11, lsr #32
	b.eq .L17_420
	mov x14, #0x2339
	mov x15, #0xf72c
	mov x2, #0x83e9
	ldp x8, x13, [x0, #128]
	movk x14, #0x4ba4, lsl #16
	movk x15, #0xad21, lsl #16
	mov x3, #0xb7a4
	movk x14, #0x7cbe, lsl #32
	movk x15, #0xde1c, lsl #32
	ldp x17, x18, [x0, #144]
	movk x2, #0x9790, lsl #16
	movk x3, #0x67b3, lsl #16
	movk x14, #0x8101, lsl #48
	movk x15, #0x6dd4, lsl #48
	movk x2, #0x72db, lsl #32
	movk x3, #0xcb1f, lsl #32
	eor x14, x8, x14
	eor x15, x13, x15
	movk x2, #0xa440, lsl #48
	movk x3, #0xe679, lsl #48
	mul x16, x15, x14
	add x8, x13, x8
	cmp x12, #0x1
	umulh x14, x15, x14
	eor x15, x17, x2
	eor x2, x18, x3
	mul x3, x2, x15
	umulh x15, x2, x15
	eor x14, x14, x16
	add x16, x18, x17
	add x10, x10, x14
	eor x10, x10, x16
	eor x15, x15, x3
	add x11, x11, x15
	eor x11, x11, x8
	b.eq .L17_420
	mov x14, #0xcc4e
	mov x15, #0xcc7d
	mov x2, #0xf774
	ldp x8, x13, [x0, #160]
	movk x14, #0xe5c0, lsl #16
	movk x15, #0x72ff, lsl #16
	mov x3, #0x81e6
	movk x14, #0x8278, lsl #32
	movk x15, #0xb821, lsl #32
	ldp x17, x18, [x0, #176]
	movk x2, #0x2443, lsl #16
	movk x3, #0x263a, lsl #16
	movk x14, #0xd05a, lsl #48
	movk x15, #0x4608, lsl #48
	movk x2, #0xe08e, lsl #32
	movk x3, #0x3c4c, lsl #32
	eor x14, x8, x14
	eor x15, x13, x15
	movk x2, #0x9035, lsl #48
	movk x3, #0x5228, lsl #48
	mul x16, x15, x14
	add x8, x13, x8
	cmp x12, #0x2
	umulh x14, x15, x14
	eor x15, x17, x2
	eor x2, x18, x3
	mul x3, x2, x15
	umulh x15, x2, x15
	eor x14, x14, x16
	add x16, x18, x17
	add x10, x10, x14
	eor x10, x10, x16
	eor x15, x15, x3
	add x11, x11, x15
	eor x11, x11, x8
	b.eq .L17_420
	mov x13, #0x91bb
	mov x14, #0x1b8b
	mov x18, #0xa297
	ldp x8, x12, [x0, #192]
	movk x13, #0xc3, lsl #16
	movk x14, #0x2e53, lsl #16
	mov x2, #0xa946
	movk x13, #0x88cb, lsl #32
	movk x14, #0x71a3, lsl #32
	ldp x16, x17, [x0, #208]
	movk x18, #0xf90d, lsl #16
	movk x2, #0xacde, lsl #16
	movk x13, #0x65d0, lsl #48
	movk x14, #0x4864, lsl #48
	movk x18, #0x384e, lsl #32
	movk x2, #0xa8d8, lsl #32
	eor x13, x8, x13
	eor x14, x12, x14
	movk x18, #0xef19, lsl #48
	movk x2, #0x76fa, lsl #48
	mul x15, x14, x13
	add x8, x12, x8
	umulh x13, x14, x13
	eor x14, x16, x18
	eor x18, x17, x2
	mul x2, x18, x14
	umulh x14, x18, x14
	eor x13, x13, x15
	add x10, x10, x13
	add x13, x17, x16
	eor x10, x10, x13
	eor x14, x14, x2
	add x11, x11, x14
	eor x11, x11, x8
.L17_420:
	add x8, x0, x1
	mov x14, #0xc831
	mov x15, #0xea64
	ldp x12, x13, [x8, #-32]
	movk x14, #0x7e9f, lsl #16
	movk x15, #0xacc5, lsl #16
	movk x14, #0xd9c9, lsl #32
	mov x18, #0xf93f
	movk x15, #0x3483, lsl #32
	movk x14, #0x7378, lsl #48
	mov x0, #0x8a1d
	movk x15, #0xebd3, lsl #48
	eor x14, x12, x14
	movk x18, #0xbbdc, lsl #16
	eor x15, x13, x15
	ldp x17, x8, [x8, #-16]
	movk x0, #0xe051, lsl #16
	mul x16, x15, x14
	movk x18, #0xc7c7, lsl #32
	movk x0, #0xcd4b, lsl #32
	movk x18, #0x4f0b, lsl #48
	add x12, x13, x12
	umulh x14, x15, x14
	movk x0, #0x59b4, lsl #48
	eor x15, x17, x18
	eor x18, x8, x0
	add x8, x8, x17
	mul x0, x18, x15
	ldp x20, x19, [sp, #80]
	.cfi_restore 19
	.cfi_restore 20
	ldp x22, x21, [sp, #64]
	.cfi_restore 21
	.cfi_restore 22
	umulh x15, x18, x15
	mov x18, #0xeb4f
	movk x18, #0x27d4, lsl #16
	eor x14, x14, x16
	movk x18, #0xae3d, lsl #32
	add x11, x11, x14
	mov x14, #0xae63
	movk x18, #0xc2b2, lsl #48
	movk x14, #0xc2b2, lsl #16
	eor x8, x11, x8
	mul x18, x1, x18
	movk x14, #0xca77, lsl #32
	eor x11, x15, x0
	movk x14, #0x85eb, lsl #48
	add x10, x10, x11
	mov x11, #0xca87
	madd x14, x8, x14, x18
	movk x11, #0x85eb, lsl #16
	eor x10, x10, x12
	movk x11, #0x79b1, lsl #32
	add x8, x10, x8
	movk x11, #0x9e37, lsl #48
	eor x8, x8, x8, lsr #37
	madd x11, x10, x11, x14
	ldp x24, x23, [sp, #48]
	.cfi_restore 23
	.cfi_restore 24
	ldp x26, x25, [sp, #32]
	.cfi_restore 25
	.cfi_restore 26
	mul x8, x8, x9
	ldp x28, x27, [sp, #16]
	.cfi_restore 27
	.cfi_restore 28
	eor x11, x11, x11, lsr #37
	mul x10, x11, x9
	eor x0, x8, x8, lsr #32
	eor x9, x10, x10, lsr #32
	neg x1, x9
	ldr x30, [sp], #96
	.cfi_def_cfa_offset 0
	.cfi_restore 30
	ret
	.cfi_endproc
	.size twox_core.width_128.oneshot_129_to_240,.-twox_core.width_128.oneshot_129_to_240
	.section .text.twox_core.width_128.oneshot_long,"ax",@progbits
	.p2align 6
	.type twox_core.width_128.oneshot_long,@function
twox_core.width_128.oneshot_long:
	.cfi_startproc
	cmp x1, #0xc0
	b.ne .L18_68
	lsr x8, x3, #10
	cmp x8, #0x1e
	b.hi .L18_6c
	stp d15, d14, [sp, #-64]!
	.cfi_def_cfa_offset 64
	.cfi_offset 78, -56
	.cfi_offset 79, -64
	adrp x11, .L96_250
	cmp x3, #0x401
	adrp x14, .L96_260
	adrp x13, .L96_270
	adrp x12, .L96_280
	stp d13, d12, [sp, #16]
	.cfi_offset 76, -40
	.cfi_offset 77, -48
	stp d11, d10, [sp, #32]
	.cfi_offset 74, -24
	.cfi_offset 75, -32
	stp d9, d8, [sp, #48]
	.cfi_offset 72, -8
	.cfi_offset 73, -16
	b.cs .L18_74
	ldr q0, [x11, #:lo12:.L96_250]
	ldr q1, [x14, #:lo12:.L96_260]
	mov x8, #0xffffffffffffffff
	ldr q2, [x13, #:lo12:.L96_270]
	ldr q3, [x12, #:lo12:.L96_280]
	mov x11, x2
	add x8, x3, x8
	lsr x9, x8, #6
	add x8, x2, x3
	cbnz x9, .L18_2f0
	b .L18_374
	.cfi_def_cfa_offset 0
	.cfi_restore 72
	.cfi_restore 73
	.cfi_restore 74
	.cfi_restore 75
	.cfi_restore 76
	.cfi_restore 77
	.cfi_restore 78
	.cfi_restore 79
.L18_68:
	b twox_core.width_128.oneshot_long_of_any_length
.L18_6c:
	mov w1, #0xc0
	b twox_core.width_128.oneshot_many
	.cfi_def_cfa_offset 64
	.cfi_offset 72, -8
	.cfi_offset 73, -16
	.cfi_offset 74, -24
	.cfi_offset 75, -32
	.cfi_offset 76, -40
	.cfi_offset 77, -48
	.cfi_offset 78, -56
	.cfi_offset 79, -64
.L18_74:
	sub x8, x3, #0x1
	ldp q5, q4, [x0, #128]
	ldp q7, q6, [x0, #160]
	lsr x10, x8, #10
	ldr q0, [x11, #:lo12:.L96_250]
	ldr q1, [x14, #:lo12:.L96_260]
	mov x9, xzr
	ldr q2, [x13, #:lo12:.L96_270]
	ldr q3, [x12, #:lo12:.L96_280]
	add x11, x2, #0x80
.L18_9c:
	add x15, x0, #0x20
	mov w12, #0x4
	mov x13, x11
	mov x14, x15
.L18_ac:
	ldp q16, q17, [x15, #-32]
	subs x12, x12, #0x1
	ldp q21, q19, [x13, #-128]
	ldur q24, [x15, #-8]
	ldp q22, q20, [x13, #-64]
	ldur q18, [x15, #-24]
	ldr q8, [x15]
	ldur q11, [x15, #8]
	eor v23.16b, v17.16b, v19.16b
	eor v16.16b, v16.16b, v21.16b
	eor v25.16b, v24.16b, v20.16b
	ldp q27, q30, [x13]
	ldp q9, q10, [x13, #64]
	eor v18.16b, v18.16b, v22.16b
	shrn v28.2s, v23.2d, #32
	xtn v23.2s, v23.2d
	xtn v29.2s, v16.2d
	shrn v12.2s, v25.2d, #32
	xtn v25.2s, v25.2d
	shrn v26.2s, v16.2d, #32
	eor v14.16b, v8.16b, v30.16b
	eor v31.16b, v17.16b, v27.16b
	add v27.2d, v27.2d, v9.2d
	eor v17.16b, v24.16b, v9.16b
	shrn v13.2s, v18.2d, #32
	xtn v15.2s, v18.2d
	umlal v2.2d, v23.2s, v28.2s
	add v23.2d, v22.2d, v21.2d
	ldr q28, [x15, #16]
	ldp q21, q22, [x13, #-96]
	umlal v3.2d, v29.2s, v26.2s
	xtn v9.2s, v14.2d
	shrn v18.2s, v31.2d, #32
	shrn v24.2s, v14.2d, #32
	add v26.2d, v20.2d, v19.2d
	xtn v20.2s, v31.2d
	add v19.2d, v23.2d, v27.2d
	umlal v2.2d, v25.2s, v12.2s
	eor v25.16b, v28.16b, v22.16b
	eor v29.16b, v8.16b, v21.16b
	add v27.2d, v30.2d, v10.2d
	ldp q31, q30, [x13, #-32]
	eor v16.16b, v11.16b, v10.16b
	ldur q23, [x15, #24]
	umlal v3.2d, v15.2s, v13.2s
	shrn v8.2s, v29.2d, #32
	xtn v10.2s, v25.2d
	xtn v29.2s, v29.2d
	shrn v25.2s, v25.2d, #32
	umlal v2.2d, v9.2s, v24.2s
	eor v24.16b, v11.16b, v31.16b
	eor v9.16b, v23.16b, v30.16b
	ldp q11, q12, [x13, #32]
	ldr q13, [x14, #32]!
	add v26.2d, v26.2d, v27.2d
	umlal v0.2d, v10.2s, v25.2s
	umlal v1.2d, v29.2s, v8.2s
	xtn v15.2s, v24.2d
	ldp q25, q29, [x13, #96]
	shrn v14.2s, v9.2d, #32
	xtn v9.2s, v9.2d
	eor v13.16b, v13.16b, v12.16b
	eor v28.16b, v28.16b, v11.16b
	shrn v24.2s, v24.2d, #32
	add v21.2d, v31.2d, v21.2d
	add v22.2d, v30.2d, v22.2d
	add v27.2d, v11.2d, v25.2d
	add v30.2d, v12.2d, v29.2d
	umlal v3.2d, v20.2s, v18.2s
	shrn v31.2s, v28.2d, #32
	xtn v8.2s, v13.2d
	xtn v28.2s, v28.2d
	umlal v0.2d, v9.2s, v14.2s
	umlal v1.2d, v15.2s, v24.2s
	shrn v9.2s, v13.2d, #32
	add v21.2d, v21.2d, v27.2d
	add v22.2d, v22.2d, v30.2d
	ldur q24, [x15, #40]
	ext v18.16b, v26.16b, v26.16b, #8
	ext v19.16b, v19.16b, v19.16b, #8
	add x13, x13, #0x100
	eor v20.16b, v24.16b, v29.16b
	eor v23.16b, v23.16b, v25.16b
	mov x15, x14
	umlal v0.2d, v8.2s, v9.2s
	umlal v1.2d, v28.2s, v31.2s
	ext v22.16b, v22.16b, v22.16b, #8
	ext v21.16b, v21.16b, v21.16b, #8
	shrn v24.2s, v17.2d, #32
	shrn v25.2s, v16.2d, #32
	xtn v17.2s, v17.2d
	xtn v16.2s, v16.2d
	add v3.2d, v3.2d, v19.2d
	add v2.2d, v2.2d, v18.2d
	shrn v18.2s, v23.2d, #32
	xtn v19.2s, v23.2d
	xtn v23.2s, v20.2d
	shrn v20.2s, v20.2d, #32
	add v0.2d, v0.2d, v22.2d
	add v1.2d, v1.2d, v21.2d
	umlal v2.2d, v16.2s, v25.2s
	umlal v3.2d, v17.2s, v24.2s
	umlal v0.2d, v23.2s, v20.2s
	umlal v1.2d, v19.2s, v18.2s
	b.ne .L18_ac
	ushr v16.2d, v2.2d, #47
	eor v2.16b, v4.16b, v2.16b
	adrp x12, .L96_290
	ushr v17.2d, v3.2d, #47
	eor v3.16b, v5.16b, v3.16b
	ldr q20, [x12, #:lo12:.L96_290]
	ushr v18.2d, v0.2d, #47
	eor v0.16b, v6.16b, v0.16b
	mov w12, #0x79b1
	ushr v19.2d, v1.2d, #47
	eor v1.16b, v7.16b, v1.16b
	movk w12, #0x9e37, lsl #16
	eor v16.16b, v2.16b, v16.16b
	eor v17.16b, v3.16b, v17.16b
	add x9, x9, #0x1
	eor v18.16b, v0.16b, v18.16b
	dup v21.2s, w12
	cmp x9, x10
	eor v19.16b, v1.16b, v19.16b
	add x11, x11, #0x400
	mul v2.4s, v16.4s, v20.4s
	mul v3.4s, v17.4s, v20.4s
	xtn v16.2s, v16.2d
	xtn v17.2s, v17.2d
	mul v0.4s, v18.4s, v20.4s
	xtn v18.2s, v18.2d
	mul v1.4s, v19.4s, v20.4s
	xtn v19.2s, v19.2d
	umlal v2.2d, v16.2s, v21.2s
	umlal v3.2d, v17.2s, v21.2s
	umlal v0.2d, v18.2s, v21.2s
	umlal v1.2d, v19.2s, v21.2s
	b.ne .L18_9c
	and x8, x8, #0xfffffffffffffc00
	add x11, x2, x8
	mvn x8, x8
	add x8, x3, x8
	lsr x9, x8, #6
	add x8, x2, x3
	cbz x9, .L18_374
.L18_2f0:
	add x10, x0, #0x20
	add x11, x11, #0x20
.L18_2f8:
	ldp q4, q5, [x11, #-32]
	subs x9, x9, #0x1
	ldp q6, q7, [x10, #-32]
	ldp q17, q16, [x11], #64
	ldp q21, q20, [x10]
	ext v18.16b, v5.16b, v5.16b, #8
	ext v19.16b, v4.16b, v4.16b, #8
	eor v5.16b, v7.16b, v5.16b
	eor v4.16b, v6.16b, v4.16b
	ext v7.16b, v16.16b, v16.16b, #8
	ext v6.16b, v17.16b, v17.16b, #8
	add x10, x10, #0x8
	eor v17.16b, v21.16b, v17.16b
	eor v16.16b, v20.16b, v16.16b
	add v2.2d, v2.2d, v18.2d
	xtn v18.2s, v4.2d
	shrn v4.2s, v4.2d, #32
	add v3.2d, v3.2d, v19.2d
	shrn v19.2s, v5.2d, #32
	xtn v5.2s, v5.2d
	add v0.2d, v7.2d, v0.2d
	add v1.2d, v6.2d, v1.2d
	xtn v6.2s, v16.2d
	xtn v7.2s, v17.2d
	shrn v16.2s, v16.2d, #32
	shrn v17.2s, v17.2d, #32
	umlal v3.2d, v18.2s, v4.2s
	umlal v2.2d, v5.2s, v19.2s
	umlal v0.2d, v6.2s, v16.2s
	umlal v1.2d, v7.2s, v17.2s
	b.ne .L18_2f8
.L18_374:
	ldur q4, [x8, #-64]
	ldur q5, [x0, #121]
	mov x1, #0xeb4f
	ldur q7, [x0, #137]
	ldur q17, [x0, #153]
	mov x5, #0xca87
	ext v6.16b, v4.16b, v4.16b, #8
	eor v4.16b, v5.16b, v4.16b
	ldur q5, [x8, #-48]
	movk x1, #0x27d4, lsl #16
	movk x5, #0x85eb, lsl #16
	ext v16.16b, v5.16b, v5.16b, #8
	eor v5.16b, v7.16b, v5.16b
	movk x1, #0xae3d, lsl #32
	xtn v7.2s, v4.2d
	shrn v4.2s, v4.2d, #32
	movk x5, #0x79b1, lsl #32
	add v3.2d, v6.2d, v3.2d
	ldur q6, [x8, #-32]
	movk x1, #0xc2b2, lsl #48
	xtn v18.2s, v5.2d
	shrn v5.2s, v5.2d, #32
	movk x5, #0x9e37, lsl #48
	add v2.2d, v16.2d, v2.2d
	ldur q16, [x0, #169]
	mul x1, x3, x1
	umlal v3.2d, v7.2s, v4.2s
	ext v4.16b, v6.16b, v6.16b, #8
	eor v6.16b, v17.16b, v6.16b
	ldur q7, [x8, #-16]
	ldur q17, [x0, #11]
	umlal v2.2d, v18.2s, v5.2s
	ldp d9, d8, [sp, #48]
	.cfi_restore 72
	.cfi_restore 73
	eor v5.16b, v16.16b, v7.16b
	xtn v16.2s, v6.2d
	ext v7.16b, v7.16b, v7.16b, #8
	shrn v6.2s, v6.2d, #32
	add v1.2d, v4.2d, v1.2d
	eor v17.16b, v3.16b, v17.16b
	ldur q4, [x0, #27]
	ldp d11, d10, [sp, #32]
	.cfi_restore 74
	.cfi_restore 75
	ldp d13, d12, [sp, #16]
	.cfi_restore 76
	.cfi_restore 77
	umlal v1.2d, v16.2s, v6.2s
	xtn v6.2s, v5.2d
	shrn v5.2s, v5.2d, #32
	add v0.2d, v7.2d, v0.2d
	mov x8, v17.d[1]
	eor v4.16b, v2.16b, v4.16b
	ldur q7, [x0, #43]
	fmov x9, d17
	umlal v0.2d, v6.2s, v5.2s
	mov x12, v4.d[1]
	eor v5.16b, v1.16b, v7.16b
	mul x10, x9, x8
	ldur q6, [x0, #59]
	umulh x11, x9, x8
	fmov x9, d4
	mov x13, v5.d[1]
	eor v4.16b, v0.16b, v6.16b
	ldur q6, [x0, #117]
	mul x8, x9, x12
	eor v3.16b, v6.16b, v3.16b
	mov x14, v4.d[1]
	umulh x9, x9, x12
	fmov x12, d5
	eor x10, x11, x10
	mov x16, v3.d[1]
	madd x10, x3, x5, x10
	mul x15, x12, x13
	eor x8, x9, x8
	umulh x12, x12, x13
	fmov x13, d4
	ldur q4, [x0, #133]
	eor v2.16b, v4.16b, v2.16b
	mul x17, x13, x14
	umulh x13, x13, x14
	fmov x14, d3
	ldur q3, [x0, #149]
	fmov x2, d2
	eor x9, x12, x15
	eor v1.16b, v3.16b, v1.16b
	add x8, x8, x9
	mul x18, x14, x16
	umulh x14, x14, x16
	mov x16, v2.d[1]
	ldur q2, [x0, #165]
	mov x0, v1.d[1]
	eor x9, x13, x17
	mvn x13, x1
	eor v0.16b, v2.16b, v0.16b
	add x8, x8, x9
	add x8, x10, x8
	mul x4, x2, x16
	eor x8, x8, x8, lsr #37
	eor x9, x14, x18
	umulh x11, x2, x16
	fmov x16, d1
	mov x2, v0.d[1]
	add x9, x9, x13
	mul x3, x16, x0
	umulh x16, x16, x0
	fmov x0, d0
	eor x11, x11, x4
	mul x5, x0, x2
	umulh x12, x0, x2
	eor x14, x16, x3
	add x10, x11, x14
	mov x11, #0x79f9
	add x9, x9, x10
	movk x11, #0x9e37, lsl #16
	movk x11, #0x6791, lsl #32
	movk x11, #0x1656, lsl #48
	eor x10, x12, x5
	mul x8, x8, x11
	add x9, x9, x10
	eor x9, x9, x9, lsr #37
	mul x9, x9, x11
	eor x0, x8, x8, lsr #32
	eor x1, x9, x9, lsr #32
	ldp d15, d14, [sp], #64
	.cfi_def_cfa_offset 0
	.cfi_restore 78
	.cfi_restore 79
	ret
	.cfi_endproc
	.size twox_core.width_128.oneshot_long,.-twox_core.width_128.oneshot_long
	.section .text.twox_core.width_128.oneshot_many,"ax",@progbits
	.p2align 6
	.type twox_core.width_128.oneshot_many,@function
twox_core.width_128.oneshot_many:
	.cfi_startproc
	sub sp, sp, #0x90
	.cfi_def_cfa_offset 144
	sub x8, x1, #0x40
	sub x9, x3, #0x1
	stp x22, x21, [sp, #112]
	.cfi_offset 21, -24
	.cfi_offset 22, -32
	lsr x8, x8, #3
	lsr x9, x9, #6
	stp x20, x19, [sp, #128]
	.cfi_offset 19, -8
	.cfi_offset 20, -16
	mov x20, x3
	mov x22, x2
	mov x19, x1
	cmp x9, x8
	mov x21, x0
	stp x29, x30, [sp, #80]
	.cfi_offset 29, -64
	.cfi_offset 30, -56
	str x23, [sp, #96]
	.cfi_offset 23, -48
	add x29, sp, #0x50
	b.cs .L19_48
	mov x8, xzr
	b .L19_64
.L19_48:
	cmp x8, #0x10
	b.eq .L19_60
	cbz x8, .L19_358
	udiv x9, x9, x8
	mul x8, x9, x8
	b .L19_64
.L19_60:
	and x8, x9, #0x3fffffffffffff0
.L19_64:
	adrp x9, .L96_2a0
	adrp x10, .L96_2b0
	lsl x23, x8, #6
	ldr q0, [x9, #:lo12:.L96_2a0]
	ldr q1, [x10, #:lo12:.L96_2b0]
	adrp x9, .L96_2c0
	adrp x10, .L96_2d0
	ldr q2, [x9, #:lo12:.L96_2c0]
	mov x0, sp
	stp q0, q1, [sp]
	ldr q0, [x10, #:lo12:.L96_2d0]
	mov x1, x22
	mov x2, x23
	mov x3, x21
	mov x4, x19
	stp q2, q0, [sp, #32]
	str xzr, [sp, #64]
	bl twox_core.xxhash3.stripes.take_many_stripes
	mvn x8, x23
	ldp q1, q0, [sp, #32]
	add x8, x20, x8
	ldp q3, q2, [sp]
	lsr x9, x8, #6
	add x8, x22, x20
	cbz x9, .L19_150
	add x11, x23, x22
	add x10, x21, #0x20
	add x11, x11, #0x20
.L19_d4:
	ldp q4, q5, [x11, #-32]
	subs x9, x9, #0x1
	ldp q6, q7, [x10, #-32]
	ldp q17, q16, [x11], #64
	ldp q21, q20, [x10]
	ext v18.16b, v5.16b, v5.16b, #8
	ext v19.16b, v4.16b, v4.16b, #8
	eor v5.16b, v7.16b, v5.16b
	eor v4.16b, v6.16b, v4.16b
	ext v7.16b, v16.16b, v16.16b, #8
	ext v6.16b, v17.16b, v17.16b, #8
	add x10, x10, #0x8
	eor v17.16b, v21.16b, v17.16b
	eor v16.16b, v20.16b, v16.16b
	add v2.2d, v2.2d, v18.2d
	xtn v18.2s, v4.2d
	shrn v4.2s, v4.2d, #32
	add v3.2d, v3.2d, v19.2d
	shrn v19.2s, v5.2d, #32
	xtn v5.2s, v5.2d
	add v0.2d, v7.2d, v0.2d
	add v1.2d, v6.2d, v1.2d
	xtn v6.2s, v16.2d
	xtn v7.2s, v17.2d
	shrn v16.2s, v16.2d, #32
	shrn v17.2s, v17.2d, #32
	umlal v3.2d, v18.2s, v4.2s
	umlal v2.2d, v5.2s, v19.2s
	umlal v0.2d, v6.2s, v16.2s
	umlal v1.2d, v7.2s, v17.2s
	b.ne .L19_d4
.L19_150:
	add x9, x21, x19
	ldur q4, [x8, #-64]
	cmp x19, #0x88
	ldur q5, [x9, #-71]
	ldur q7, [x9, #-55]
	ext v6.16b, v4.16b, v4.16b, #8
	eor v4.16b, v5.16b, v4.16b
	ldur q5, [x8, #-48]
	ext v16.16b, v5.16b, v5.16b, #8
	eor v5.16b, v7.16b, v5.16b
	xtn v17.2s, v4.2d
	add v3.2d, v6.2d, v3.2d
	shrn v4.2s, v4.2d, #32
	xtn v6.2s, v5.2d
	add v2.2d, v16.2d, v2.2d
	ldur q16, [x9, #-23]
	umlal v3.2d, v17.2s, v4.2s
	shrn v4.2s, v5.2d, #32
	ldur q5, [x21, #11]
	umlal v2.2d, v6.2s, v4.2s
	ldp q6, q7, [x8, #-32]
	eor v4.16b, v3.16b, v5.16b
	ldur q5, [x21, #27]
	ext v17.16b, v7.16b, v7.16b, #8
	ext v18.16b, v6.16b, v6.16b, #8
	eor v7.16b, v16.16b, v7.16b
	mov x10, v4.d[1]
	eor v5.16b, v2.16b, v5.16b
	fmov x8, d4
	ldur q4, [x9, #-39]
	mov x11, v5.d[1]
	eor v4.16b, v4.16b, v6.16b
	xtn v6.2s, v7.2d
	mul x12, x8, x10
	add v1.2d, v18.2d, v1.2d
	add v0.2d, v17.2d, v0.2d
	shrn v7.2s, v7.2d, #32
	umulh x8, x8, x10
	fmov x10, d5
	xtn v5.2s, v4.2d
	shrn v4.2s, v4.2d, #32
	umlal v0.2d, v6.2s, v7.2s
	mul x13, x10, x11
	umlal v1.2d, v5.2s, v4.2s
	umulh x10, x10, x11
	mov x11, #0xca87
	eor x8, x8, x12
	movk x11, #0x85eb, lsl #16
	movk x11, #0x79b1, lsl #32
	movk x11, #0x9e37, lsl #48
	madd x8, x20, x11, x8
	eor x10, x10, x13
	add x0, x8, x10
	b.cc .L19_284
	ldur q4, [x21, #43]
	ldur q5, [x21, #59]
	eor v4.16b, v4.16b, v1.16b
	eor v5.16b, v5.16b, v0.16b
	mov x8, v4.d[1]
	fmov x10, d4
	mov x11, v5.d[1]
	mul x12, x10, x8
	umulh x8, x10, x8
	fmov x10, d5
	mul x13, x10, x11
	umulh x10, x10, x11
	eor x8, x8, x12
	eor x10, x10, x13
	add x8, x8, x10
	mov x10, #0x79f9
	add x8, x0, x8
	movk x10, #0x9e37, lsl #16
	eor x8, x8, x8, lsr #37
	movk x10, #0x6791, lsl #32
	movk x10, #0x1656, lsl #48
	mul x8, x8, x10
	eor x0, x8, x8, lsr #32
.L19_284:
	ldur q4, [x9, #-75]
	mov x10, #0xeb4f
	cmp x19, #0x88
	movk x10, #0x27d4, lsl #16
	eor v3.16b, v4.16b, v3.16b
	ldur q4, [x9, #-59]
	movk x10, #0xae3d, lsl #32
	movk x10, #0xc2b2, lsl #48
	eor v2.16b, v4.16b, v2.16b
	mul x10, x20, x10
	mov x8, v3.d[1]
	fmov x11, d3
	mov x12, v2.d[1]
	mul x13, x11, x8
	mvn x10, x10
	umulh x8, x11, x8
	fmov x11, d2
	mul x14, x11, x12
	umulh x11, x11, x12
	eor x8, x8, x13
	add x8, x8, x10
	eor x10, x11, x14
	add x1, x8, x10
	b.cc .L19_340
	ldur q2, [x9, #-43]
	eor v1.16b, v2.16b, v1.16b
	ldur q2, [x9, #-27]
	eor v0.16b, v2.16b, v0.16b
	mov x8, v1.d[1]
	fmov x9, d1
	mov x10, v0.d[1]
	mul x11, x9, x8
	umulh x8, x9, x8
	fmov x9, d0
	mul x12, x9, x10
	umulh x9, x9, x10
	eor x8, x8, x11
	eor x9, x9, x12
	add x8, x8, x9
	mov x9, #0x79f9
	add x8, x1, x8
	movk x9, #0x9e37, lsl #16
	eor x8, x8, x8, lsr #37
	movk x9, #0x6791, lsl #32
	movk x9, #0x1656, lsl #48
	mul x8, x8, x9
	eor x1, x8, x8, lsr #32
.L19_340:
	ldp x20, x19, [sp, #128]
	.cfi_restore 19
	.cfi_restore 20
	ldr x23, [sp, #96]
	.cfi_restore 23
	ldp x22, x21, [sp, #112]
	.cfi_restore 21
	.cfi_restore 22
	ldp x29, x30, [sp, #80]
	.cfi_restore 29
	.cfi_restore 30
	add sp, sp, #0x90
	.cfi_def_cfa_offset 0
	ret
	.cfi_def_cfa_offset 144
	.cfi_offset 19, -8
	.cfi_offset 20, -16
	.cfi_offset 21, -24
	.cfi_offset 22, -32
	.cfi_offset 23, -48
	.cfi_offset 29, -64
	.cfi_offset 30, -56
.L19_358:
	brk #0x1
	.cfi_endproc
	.size twox_core.width_128.oneshot_many,.-twox_core.width_128.oneshot_many
	.section .text.twox_core.width_128.oneshot_long_of_any_length,"ax",@progbits
	.p2align 6
	.type twox_core.width_128.oneshot_long_of_any_length,@function
twox_core.width_128.oneshot_long_of_any_length:
	.cfi_startproc
	stp d15, d14, [sp, #-64]!
	.cfi_def_cfa_offset 64
	.cfi_offset 78, -56
	.cfi_offset 79, -64
	lsr x8, x3, #10
	stp d13, d12, [sp, #16]
	.cfi_offset 76, -40
	.cfi_offset 77, -48
	stp d11, d10, [sp, #32]
	.cfi_offset 74, -24
	.cfi_offset 75, -32
	cmp x8, #0x1e
	stp d9, d8, [sp, #48]
	.cfi_offset 72, -8
	.cfi_offset 73, -16
	b.hi .L20_60
	sub x12, x1, #0x40
	sub x9, x3, #0x1
	adrp x13, .L96_2e0
	lsr x10, x12, #3
	lsr x8, x9, #6
	adrp x15, .L96_2f0
	adrp x16, .L96_300
	adrp x17, .L96_310
	ldr q0, [x13, #:lo12:.L96_2e0]
	ldr q1, [x15, #:lo12:.L96_2f0]
	ldr q2, [x16, #:lo12:.L96_300]
	ldr q3, [x17, #:lo12:.L96_310]
	cmp x8, x10
	b.cs .L20_74
	mov x9, xzr
	mov x8, x2
	b .L20_468
.L20_60:
	ldp d9, d8, [sp, #48]
	.cfi_restore 72
	.cfi_restore 73
	ldp d11, d10, [sp, #32]
	.cfi_restore 74
	.cfi_restore 75
	ldp d13, d12, [sp, #16]
	.cfi_restore 76
	.cfi_restore 77
	ldp d15, d14, [sp], #64
	.cfi_def_cfa_offset 0
	.cfi_restore 78
	.cfi_restore 79
	b twox_core.width_128.oneshot_many
	.cfi_def_cfa_offset 64
	.cfi_offset 72, -8
	.cfi_offset 73, -16
	.cfi_offset 74, -24
	.cfi_offset 75, -32
	.cfi_offset 76, -40
	.cfi_offset 77, -48
	.cfi_offset 78, -56
	.cfi_offset 79, -64
.L20_74:
	cmp x10, #0x10
	b.eq .L20_a8
	cbz x10, .L20_6f8
	ubfx w9, w9, #6, #16
	ubfx w11, w12, #3, #16
	udiv w14, w9, w11
	msub w9, w14, w11, w9
	sub x11, x8, x9
	lsl x9, x11, #6
	cmp x10, #0x10
	add x8, x2, x9
	b.eq .L20_bc
	b .L20_32c
.L20_a8:
	and x11, x8, #0x3fffffffffffff0
	lsl x9, x11, #6
	cmp x10, #0x10
	add x8, x2, x9
	b.ne .L20_32c
.L20_bc:
	and x14, x11, #0xf
	cbnz x14, .L20_32c
	cbz x11, .L20_464
	add x12, x0, x12
	lsr x11, x11, #4
	ldr q0, [x13, #:lo12:.L96_2e0]
	ldp q5, q4, [x12]
	ldr q1, [x15, #:lo12:.L96_2f0]
	ldp q7, q6, [x12, #32]
	mov x10, xzr
	ldr q2, [x16, #:lo12:.L96_300]
	ldr q3, [x17, #:lo12:.L96_310]
	add x12, x2, #0x80
.L20_f0:
	add x16, x0, #0x20
	mov w13, #0x4
	mov x14, x12
	mov x15, x16
.L20_100:
	ldp q16, q17, [x16, #-32]
	subs x13, x13, #0x1
	ldp q21, q19, [x14, #-128]
	ldur q24, [x16, #-8]
	ldp q22, q20, [x14, #-64]
	ldur q18, [x16, #-24]
	ldr q8, [x16]
	ldur q11, [x16, #8]
	eor v23.16b, v17.16b, v19.16b
	eor v16.16b, v16.16b, v21.16b
	eor v25.16b, v24.16b, v20.16b
	ldp q27, q30, [x14]
	ldp q9, q10, [x14, #64]
	eor v18.16b, v18.16b, v22.16b
	shrn v28.2s, v23.2d, #32
	xtn v23.2s, v23.2d
	xtn v29.2s, v16.2d
	shrn v12.2s, v25.2d, #32
	xtn v25.2s, v25.2d
	shrn v26.2s, v16.2d, #32
	eor v14.16b, v8.16b, v30.16b
	eor v31.16b, v17.16b, v27.16b
	add v27.2d, v27.2d, v9.2d
	eor v17.16b, v24.16b, v9.16b
	shrn v13.2s, v18.2d, #32
	xtn v15.2s, v18.2d
	umlal v2.2d, v23.2s, v28.2s
	add v23.2d, v22.2d, v21.2d
	ldr q28, [x16, #16]
	ldp q21, q22, [x14, #-96]
	umlal v3.2d, v29.2s, v26.2s
	xtn v9.2s, v14.2d
	shrn v18.2s, v31.2d, #32
	shrn v24.2s, v14.2d, #32
	add v26.2d, v20.2d, v19.2d
	xtn v20.2s, v31.2d
	add v19.2d, v23.2d, v27.2d
	umlal v2.2d, v25.2s, v12.2s
	eor v25.16b, v28.16b, v22.16b
	eor v29.16b, v8.16b, v21.16b
	add v27.2d, v30.2d, v10.2d
	ldp q31, q30, [x14, #-32]
	eor v16.16b, v11.16b, v10.16b
	ldur q23, [x16, #24]
	umlal v3.2d, v15.2s, v13.2s
	shrn v8.2s, v29.2d, #32
	xtn v10.2s, v25.2d
	xtn v29.2s, v29.2d
	shrn v25.2s, v25.2d, #32
	umlal v2.2d, v9.2s, v24.2s
	eor v24.16b, v11.16b, v31.16b
	eor v9.16b, v23.16b, v30.16b
	ldp q11, q12, [x14, #32]
	ldr q13, [x15, #32]!
	add v26.2d, v26.2d, v27.2d
	umlal v0.2d, v10.2s, v25.2s
	umlal v1.2d, v29.2s, v8.2s
	xtn v15.2s, v24.2d
	ldp q25, q29, [x14, #96]
	shrn v14.2s, v9.2d, #32
	xtn v9.2s, v9.2d
	eor v13.16b, v13.16b, v12.16b
	eor v28.16b, v28.16b, v11.16b
	shrn v24.2s, v24.2d, #32
	add v21.2d, v31.2d, v21.2d
	add v22.2d, v30.2d, v22.2d
	add v27.2d, v11.2d, v25.2d
	add v30.2d, v12.2d, v29.2d
	umlal v3.2d, v20.2s, v18.2s
	shrn v31.2s, v28.2d, #32
	xtn v8.2s, v13.2d
	xtn v28.2s, v28.2d
	umlal v0.2d, v9.2s, v14.2s
	umlal v1.2d, v15.2s, v24.2s
	shrn v9.2s, v13.2d, #32
	add v21.2d, v21.2d, v27.2d
	add v22.2d, v22.2d, v30.2d
	ldur q24, [x16, #40]
	ext v18.16b, v26.16b, v26.16b, #8
	ext v19.16b, v19.16b, v19.16b, #8
	add x14, x14, #0x100
	eor v20.16b, v24.16b, v29.16b
	eor v23.16b, v23.16b, v25.16b
	mov x16, x15
	umlal v0.2d, v8.2s, v9.2s
	umlal v1.2d, v28.2s, v31.2s
	ext v22.16b, v22.16b, v22.16b, #8
	ext v21.16b, v21.16b, v21.16b, #8
	shrn v24.2s, v17.2d, #32
	shrn v25.2s, v16.2d, #32
	xtn v17.2s, v17.2d
	xtn v16.2s, v16.2d
	add v3.2d, v3.2d, v19.2d
	add v2.2d, v2.2d, v18.2d
	shrn v18.2s, v23.2d, #32
	xtn v19.2s, v23.2d
	xtn v23.2s, v20.2d
	shrn v20.2s, v20.2d, #32
	add v0.2d, v0.2d, v22.2d
	add v1.2d, v1.2d, v21.2d
	umlal v2.2d, v16.2s, v25.2s
	umlal v3.2d, v17.2s, v24.2s
	umlal v0.2d, v23.2s, v20.2s
	umlal v1.2d, v19.2s, v18.2s
	b.ne .L20_100
	ushr v16.2d, v2.2d, #47
	eor v2.16b, v4.16b, v2.16b
	adrp x13, .L96_320
	ushr v17.2d, v3.2d, #47
	eor v3.16b, v5.16b, v3.16b
	ldr q20, [x13, #:lo12:.L96_320]
	ushr v18.2d, v0.2d, #47
	eor v0.16b, v6.16b, v0.16b
	mov w13, #0x79b1
	ushr v19.2d, v1.2d, #47
	eor v1.16b, v7.16b, v1.16b
	movk w13, #0x9e37, lsl #16
	eor v16.16b, v2.16b, v16.16b
	eor v17.16b, v3.16b, v17.16b
	add x10, x10, #0x1
	eor v18.16b, v0.16b, v18.16b
	dup v21.2s, w13
	cmp x10, x11
	eor v19.16b, v1.16b, v19.16b
	add x12, x12, #0x400
	mul v2.4s, v16.4s, v20.4s
	mul v3.4s, v17.4s, v20.4s
	xtn v16.2s, v16.2d
	xtn v17.2s, v17.2d
	mul v0.4s, v18.4s, v20.4s
	xtn v18.2s, v18.2d
	mul v1.4s, v19.4s, v20.4s
	xtn v19.2s, v19.2d
	umlal v2.2d, v16.2s, v21.2s
	umlal v3.2d, v17.2s, v21.2s
	umlal v0.2d, v18.2s, v21.2s
	umlal v1.2d, v19.2s, v21.2s
	b.ne .L20_f0
	b .L20_468
.L20_32c:
	cbz x11, .L20_464
	ldr q0, [x13, #:lo12:.L96_2e0]
	ldr q1, [x15, #:lo12:.L96_2f0]
	mov x14, xzr
	ldr q2, [x16, #:lo12:.L96_300]
	ldr q3, [x17, #:lo12:.L96_310]
	add x12, x0, x12
	mov x13, x2
	b .L20_35c
.L20_350:
	subs x11, x11, #0x1
	add x13, x13, #0x40
	b.eq .L20_468
.L20_35c:
	add x15, x0, x14, lsl #3
	prfm pldl1keep, [x13, #320]
	add x14, x14, #0x1
	ldp q4, q5, [x13]
	cmp x14, x10
	ldp q6, q7, [x13, #32]
	ldp q18, q19, [x15]
	ldp q21, q22, [x15, #32]
	ext v16.16b, v5.16b, v5.16b, #8
	ext v17.16b, v4.16b, v4.16b, #8
	ext v20.16b, v6.16b, v6.16b, #8
	ext v23.16b, v7.16b, v7.16b, #8
	eor v5.16b, v19.16b, v5.16b
	eor v4.16b, v18.16b, v4.16b
	eor v7.16b, v22.16b, v7.16b
	eor v6.16b, v21.16b, v6.16b
	add v2.2d, v2.2d, v16.2d
	add v3.2d, v3.2d, v17.2d
	shrn v16.2s, v5.2d, #32
	xtn v5.2s, v5.2d
	xtn v17.2s, v4.2d
	xtn v18.2s, v6.2d
	xtn v19.2s, v7.2d
	add v1.2d, v20.2d, v1.2d
	add v0.2d, v23.2d, v0.2d
	shrn v4.2s, v4.2d, #32
	shrn v6.2s, v6.2d, #32
	shrn v7.2s, v7.2d, #32
	umlal v2.2d, v5.2s, v16.2s
	umlal v3.2d, v17.2s, v4.2s
	umlal v0.2d, v19.2s, v7.2s
	umlal v1.2d, v18.2s, v6.2s
	b.ne .L20_350
	ldp q4, q5, [x12]
	ushr v6.2d, v3.2d, #47
	ldp q7, q16, [x12, #32]
	ushr v17.2d, v2.2d, #47
	adrp x14, .L96_320
	eor v3.16b, v4.16b, v3.16b
	eor v2.16b, v5.16b, v2.16b
	ushr v4.2d, v0.2d, #47
	eor v0.16b, v16.16b, v0.16b
	ushr v5.2d, v1.2d, #47
	eor v1.16b, v7.16b, v1.16b
	ldr q16, [x14, #:lo12:.L96_320]
	mov w14, #0x79b1
	eor v6.16b, v6.16b, v3.16b
	eor v7.16b, v17.16b, v2.16b
	movk w14, #0x9e37, lsl #16
	eor v4.16b, v4.16b, v0.16b
	eor v5.16b, v5.16b, v1.16b
	dup v17.2s, w14
	mov x14, xzr
	mul v2.4s, v7.4s, v16.4s
	mul v3.4s, v6.4s, v16.4s
	xtn v7.2s, v7.2d
	xtn v6.2s, v6.2d
	mul v0.4s, v4.4s, v16.4s
	mul v1.4s, v5.4s, v16.4s
	xtn v4.2s, v4.2d
	xtn v5.2s, v5.2d
	umlal v2.2d, v7.2s, v17.2s
	umlal v3.2d, v6.2s, v17.2s
	umlal v1.2d, v5.2s, v17.2s
	umlal v0.2d, v4.2s, v17.2s
	b .L20_350
.L20_464:
	mov x9, xzr
.L20_468:
	mvn x9, x9
	add x9, x3, x9
	lsr x10, x9, #6
	add x9, x2, x3
	cbz x10, .L20_500
	add x11, x0, #0x20
	add x8, x8, #0x20
.L20_484:
	ldp q4, q5, [x8, #-32]
	subs x10, x10, #0x1
	ldp q6, q7, [x11, #-32]
	ldp q17, q16, [x8], #64
	ldp q21, q20, [x11]
	ext v18.16b, v5.16b, v5.16b, #8
	ext v19.16b, v4.16b, v4.16b, #8
	eor v5.16b, v7.16b, v5.16b
	eor v4.16b, v6.16b, v4.16b
	ext v7.16b, v16.16b, v16.16b, #8
	ext v6.16b, v17.16b, v17.16b, #8
	add x11, x11, #0x8
	eor v17.16b, v21.16b, v17.16b
	eor v16.16b, v20.16b, v16.16b
	add v2.2d, v2.2d, v18.2d
	xtn v18.2s, v4.2d
	shrn v4.2s, v4.2d, #32
	add v3.2d, v3.2d, v19.2d
	shrn v19.2s, v5.2d, #32
	xtn v5.2s, v5.2d
	add v0.2d, v7.2d, v0.2d
	add v1.2d, v6.2d, v1.2d
	xtn v6.2s, v16.2d
	xtn v7.2s, v17.2d
	shrn v16.2s, v16.2d, #32
	shrn v17.2s, v17.2d, #32
	umlal v3.2d, v18.2s, v4.2s
	umlal v2.2d, v5.2s, v19.2s
	umlal v0.2d, v6.2s, v16.2s
	umlal v1.2d, v7.2s, v17.2s
	b.ne .L20_484
.L20_500:
	add x10, x0, x1
	ldur q4, [x9, #-64]
	cmp x1, #0x88
	ldur q5, [x10, #-71]
	ldur q7, [x10, #-55]
	ext v6.16b, v4.16b, v4.16b, #8
	eor v4.16b, v5.16b, v4.16b
	ldur q5, [x9, #-48]
	ext v16.16b, v5.16b, v5.16b, #8
	eor v5.16b, v7.16b, v5.16b
	xtn v17.2s, v4.2d
	add v3.2d, v6.2d, v3.2d
	shrn v4.2s, v4.2d, #32
	xtn v6.2s, v5.2d
	add v2.2d, v16.2d, v2.2d
	ldur q16, [x10, #-23]
	umlal v3.2d, v17.2s, v4.2s
	shrn v4.2s, v5.2d, #32
	ldur q5, [x0, #11]
	umlal v2.2d, v6.2s, v4.2s
	ldp q6, q7, [x9, #-32]
	eor v4.16b, v3.16b, v5.16b
	ldur q5, [x0, #27]
	ext v17.16b, v7.16b, v7.16b, #8
	ext v18.16b, v6.16b, v6.16b, #8
	eor v7.16b, v16.16b, v7.16b
	mov x8, v4.d[1]
	eor v5.16b, v2.16b, v5.16b
	fmov x9, d4
	ldur q4, [x10, #-39]
	mov x11, v5.d[1]
	eor v4.16b, v4.16b, v6.16b
	xtn v6.2s, v7.2d
	mul x12, x9, x8
	add v1.2d, v18.2d, v1.2d
	add v0.2d, v17.2d, v0.2d
	shrn v7.2s, v7.2d, #32
	umulh x8, x9, x8
	fmov x9, d5
	xtn v5.2s, v4.2d
	shrn v4.2s, v4.2d, #32
	umlal v0.2d, v6.2s, v7.2s
	mul x13, x9, x11
	umlal v1.2d, v5.2s, v4.2s
	umulh x9, x9, x11
	mov x11, #0xca87
	eor x8, x8, x12
	movk x11, #0x85eb, lsl #16
	movk x11, #0x79b1, lsl #32
	movk x11, #0x9e37, lsl #48
	madd x8, x3, x11, x8
	eor x11, x9, x13
	mov x9, #0x79f9
	movk x9, #0x9e37, lsl #16
	movk x9, #0x6791, lsl #32
	movk x9, #0x1656, lsl #48
	add x8, x8, x11
	b.cc .L20_634
	ldur q4, [x0, #43]
	ldur q5, [x0, #59]
	eor v4.16b, v4.16b, v1.16b
	eor v5.16b, v5.16b, v0.16b
	mov x11, v4.d[1]
	fmov x12, d4
	mov x13, v5.d[1]
	mul x14, x12, x11
	umulh x11, x12, x11
	fmov x12, d5
	mul x15, x12, x13
	umulh x12, x12, x13
	eor x11, x11, x14
	eor x12, x12, x15
	add x11, x11, x12
	add x8, x8, x11
	eor x8, x8, x8, lsr #37
	mul x8, x8, x9
	eor x8, x8, x8, lsr #32
.L20_634:
	ldur q4, [x10, #-75]
	mov x12, #0xeb4f
	cmp x1, #0x88
	movk x12, #0x27d4, lsl #16
	eor v3.16b, v4.16b, v3.16b
	ldur q4, [x10, #-59]
	movk x12, #0xae3d, lsl #32
	movk x12, #0xc2b2, lsl #48
	eor v2.16b, v4.16b, v2.16b
	mul x12, x3, x12
	mov x11, v3.d[1]
	fmov x13, d3
	mov x14, v2.d[1]
	mul x15, x13, x11
	mvn x12, x12
	umulh x11, x13, x11
	fmov x13, d2
	mul x16, x13, x14
	umulh x13, x13, x14
	eor x11, x11, x15
	add x11, x11, x12
	eor x12, x13, x16
	add x1, x11, x12
	b.cc .L20_6e0
	ldur q2, [x10, #-43]
	eor v1.16b, v2.16b, v1.16b
	ldur q2, [x10, #-27]
	eor v0.16b, v2.16b, v0.16b
	mov x10, v1.d[1]
	fmov x11, d1
	mov x12, v0.d[1]
	mul x13, x11, x10
	umulh x10, x11, x10
	fmov x11, d0
	mul x14, x11, x12
	umulh x11, x11, x12
	eor x10, x10, x13
	eor x11, x11, x14
	add x10, x10, x11
	add x10, x1, x10
	eor x10, x10, x10, lsr #37
	mul x9, x10, x9
	eor x1, x9, x9, lsr #32
.L20_6e0:
	ldp d9, d8, [sp, #48]
	.cfi_restore 72
	.cfi_restore 73
	mov x0, x8
	ldp d11, d10, [sp, #32]
	.cfi_restore 74
	.cfi_restore 75
	ldp d13, d12, [sp, #16]
	.cfi_restore 76
	.cfi_restore 77
	ldp d15, d14, [sp], #64
	.cfi_def_cfa_offset 0
	.cfi_restore 78
	.cfi_restore 79
	ret
	.cfi_def_cfa_offset 64
	.cfi_offset 72, -8
	.cfi_offset 73, -16
	.cfi_offset 74, -24
	.cfi_offset 75, -32
	.cfi_offset 76, -40
	.cfi_offset 77, -48
	.cfi_offset 78, -56
	.cfi_offset 79, -64
.L20_6f8:
	brk #0x1
	.cfi_endproc
	.size twox_core.width_128.oneshot_long_of_any_length,.-twox_core.width_128.oneshot_long_of_any_length
	.section .text.twox_c.xxh3_128.XXH3_128bits_withSecret,"ax",@progbits
	.p2align 6
	.type twox_c.xxh3_128.XXH3_128bits_withSecret,@function
twox_c.xxh3_128.XXH3_128bits_withSecret:
	.cfi_startproc
	cmp x3, #0x88
	b.cc .L21_c4
	cmp x1, #0x10
	b.hi .L21_d0
	cmp x1, #0x9
	b.cc .L21_148
	ldp x9, x11, [x2, #32]
	add x10, x0, x1
	ldr x8, [x0]
	ldur x10, [x10, #-8]
	eor x8, x8, x9
	mov x9, #0xca87
	movk x9, #0x85eb, lsl #16
	eor x8, x8, x11
	movk x9, #0x79b1, lsl #32
	eor x8, x8, x10
	movk x9, #0x9e37, lsl #48
	ldp x11, x12, [x2, #48]
	mul x13, x8, x9
	eor x11, x11, x12
	umulh x8, x8, x9
	mov w9, #0xca76
	movk w9, #0x85eb, lsl #16
	eor x10, x11, x10
	mov x11, #0xffc0000000000000
	umaddl x9, w10, w9, x10
	add x10, x13, x1, lsl #54
	add x10, x10, x11
	mov x11, #0xeb4f
	add x8, x9, x8
	movk x11, #0x27d4, lsl #16
	rev x9, x8
	movk x11, #0xae3d, lsl #32
	eor x9, x9, x10
	movk x11, #0xc2b2, lsl #48
	umulh x10, x9, x11
	mul x9, x9, x11
	madd x8, x8, x11, x10
	mov x10, #0x79f9
	movk x10, #0x9e37, lsl #16
	movk x10, #0x6791, lsl #32
	eor x9, x9, x9, lsr #37
	movk x10, #0x1656, lsl #48
	eor x8, x8, x8, lsr #37
	mul x9, x9, x10
	mul x8, x8, x10
	eor x0, x9, x9, lsr #32
	eor x1, x8, x8, lsr #32
	ret
.L21_c4:
	mov x0, xzr
	mov x1, xzr
	ret
.L21_d0:
	cmp x1, #0x40
	b.hi .L21_1cc
	mov x8, #0xca87
	cmp x1, #0x21
	movk x8, #0x85eb, lsl #16
	movk x8, #0x79b1, lsl #32
	movk x8, #0x9e37, lsl #48
	mul x9, x1, x8
	b.cc .L21_1e8
	ldp x10, x11, [x0, #16]
	add x14, x0, x1
	ldp x12, x13, [x2, #32]
	ldp x16, x17, [x2, #48]
	ldp x18, x14, [x14, #-32]
	eor x12, x12, x10
	eor x13, x13, x11
	add x10, x11, x10
	mul x15, x13, x12
	umulh x12, x13, x12
	eor x13, x16, x18
	eor x16, x17, x14
	mul x17, x16, x13
	umulh x13, x16, x13
	eor x12, x12, x15
	add x9, x9, x12
	add x12, x14, x18
	eor x9, x9, x12
	eor x13, x13, x17
	eor x10, x10, x13
	b .L21_1ec
.L21_148:
	cmp x1, #0x4
	b.cc .L21_2a0
	add x8, x0, x1
	ldr w9, [x0]
	ldur w8, [x8, #-4]
	ldp x10, x11, [x2, #16]
	orr x8, x9, x8, lsl #32
	mov x9, #0xca87
	movk x9, #0x85eb, lsl #16
	eor x10, x11, x10
	movk x9, #0x79b1, lsl #32
	eor x8, x10, x8
	movk x9, #0x9e37, lsl #48
	add x9, x9, x1, lsl #2
	mul x10, x8, x9
	umulh x8, x8, x9
	add x8, x8, x10, lsl #1
	eor x9, x10, x8, lsr #3
	mov x10, #0xdf25
	eor x8, x8, x8, lsr #37
	movk x10, #0x1e98, lsl #16
	eor x9, x9, x9, lsr #35
	movk x10, #0x1c65, lsl #32
	movk x10, #0x9fb2, lsl #48
	mul x9, x9, x10
	mov x10, #0x79f9
	movk x10, #0x9e37, lsl #16
	movk x10, #0x6791, lsl #32
	movk x10, #0x1656, lsl #48
	mul x8, x8, x10
	eor x0, x9, x9, lsr #28
	eor x1, x8, x8, lsr #32
	ret
.L21_1cc:
	stp x29, x30, [sp, #-16]!
	.cfi_def_cfa_offset 16
	.cfi_offset 29, -16
	.cfi_offset 30, -8
	cmp x1, #0x80
	mov x29, sp
	b.hi .L21_324
	bl twox_core.width_128.oneshot_with_secret_65_to_128
	ldp x29, x30, [sp], #16
	.cfi_def_cfa_offset 0
	.cfi_restore 29
	.cfi_restore 30
	ret
.L21_1e8:
	mov x10, xzr
.L21_1ec:
	ldp x11, x12, [x0]
	add x15, x0, x1
	ldp x13, x14, [x2]
	ldp x17, x18, [x2, #16]
	ldp x0, x15, [x15, #-16]
	eor x13, x13, x11
	eor x14, x14, x12
	add x11, x12, x11
	mul x16, x14, x13
	mov x12, #0xae63
	movk x12, #0xc2b2, lsl #16
	umulh x13, x14, x13
	eor x14, x17, x0
	eor x17, x18, x15
	add x15, x15, x0
	movk x12, #0xca77, lsl #32
	mul x18, x17, x14
	movk x12, #0x85eb, lsl #48
	umulh x14, x17, x14
	mov x17, #0xeb4f
	movk x17, #0x27d4, lsl #16
	eor x13, x13, x16
	movk x17, #0xae3d, lsl #32
	add x9, x9, x13
	movk x17, #0xc2b2, lsl #48
	eor x9, x9, x15
	mul x16, x1, x17
	eor x13, x14, x18
	add x10, x10, x13
	madd x8, x9, x8, x16
	eor x10, x10, x11
	mov x11, #0x79f9
	movk x11, #0x9e37, lsl #16
	add x9, x10, x9
	movk x11, #0x6791, lsl #32
	eor x9, x9, x9, lsr #37
	madd x8, x10, x12, x8
	movk x11, #0x1656, lsl #48
	mul x9, x9, x11
	eor x8, x8, x8, lsr #37
	mul x8, x8, x11
	eor x0, x9, x9, lsr #32
	eor x8, x8, x8, lsr #32
	neg x1, x8
	ret
.L21_2a0:
	mov x9, #0xeb4f
	mov x8, #0x79f9
	movk x9, #0x27d4, lsl #16
	movk x8, #0x9e37, lsl #16
	movk x9, #0xae3d, lsl #32
	movk x8, #0x67b1, lsl #32
	movk x9, #0xc2b2, lsl #48
	movk x8, #0x1656, lsl #48
	cbz x1, .L21_35c
	add x10, x0, x1
	ldrb w11, [x0]
	lsr x12, x1, #1
	ldurb w10, [x10, #-1]
	orr w10, w10, w1, lsl #8
	orr w10, w10, w11, lsl #16
	ldrb w11, [x0, x12]
	ldp w12, w13, [x2]
	orr w10, w10, w11, lsl #24
	ldp w11, w14, [x2, #8]
	eor w12, w13, w12
	eor w12, w12, w10
	rev w10, w10
	eor w11, w14, w11
	eor w10, w11, w10, ror #19
	mul x11, x12, x9
	mul x9, x10, x9
	eor x10, x11, x11, lsr #29
	mul x10, x10, x8
	eor x9, x9, x9, lsr #29
	mul x8, x9, x8
	eor x0, x10, x10, lsr #32
	eor x1, x8, x8, lsr #32
	ret
	.cfi_def_cfa_offset 16
	.cfi_offset 29, -16
	.cfi_offset 30, -8
.L21_324:
	cmp x1, #0xf0
	b.hi .L21_338
	bl twox_core.width_128.oneshot_with_secret_129_to_240
	ldp x29, x30, [sp], #16
	.cfi_def_cfa_offset 0
	.cfi_restore 29
	.cfi_restore 30
	ret
	.cfi_def_cfa_offset 16
	.cfi_offset 29, -16
	.cfi_offset 30, -8
.L21_338:
	mov x8, x0
	mov x9, x1
	mov x0, x2
	mov x1, x3
	mov x2, x8
	mov x3, x9
	bl twox_core.width_128.oneshot_long
	ldp x29, x30, [sp], #16
	.cfi_def_cfa_offset 0
	.cfi_restore 29
	.cfi_restore 30
	ret
.L21_35c:
	ldp x10, x11, [x2, #64]
	ldp x12, x13, [x2, #80]
	eor x10, x11, x10
	eor x10, x10, x10, lsr #33
	eor x11, x13, x12
	eor x11, x11, x11, lsr #33
	mul x10, x10, x9
	mul x9, x11, x9
	eor x10, x10, x10, lsr #29
	mul x10, x10, x8
	eor x9, x9, x9, lsr #29
	mul x8, x9, x8
	eor x0, x10, x10, lsr #32
	eor x1, x8, x8, lsr #32
	ret
	.cfi_endproc
	.size twox_c.xxh3_128.XXH3_128bits_withSecret,.-twox_c.xxh3_128.XXH3_128bits_withSecret
	.section .text.twox_core.width_128.oneshot_with_secret_65_to_128,"ax",@progbits
	.p2align 6
	.type twox_core.width_128.oneshot_with_secret_65_to_128,@function
twox_core.width_128.oneshot_with_secret_65_to_128:
	.cfi_startproc
	mov x8, #0xca87
	cmp x1, #0x61
	movk x8, #0x85eb, lsl #16
	movk x8, #0x79b1, lsl #32
	movk x8, #0x9e37, lsl #48
	mul x9, x1, x8
	b.cc .L22_70
	ldp x10, x11, [x0, #48]
	add x14, x0, x1
	ldp x12, x13, [x2, #96]
	ldp x16, x17, [x2, #112]
	ldp x18, x14, [x14, #-64]
	eor x12, x12, x10
	eor x13, x13, x11
	add x10, x11, x10
	mul x15, x13, x12
	umulh x12, x13, x12
	eor x13, x16, x18
	eor x16, x17, x14
	mul x17, x16, x13
	umulh x13, x16, x13
	eor x12, x12, x15
	add x9, x9, x12
	add x12, x14, x18
	eor x9, x9, x12
	eor x13, x13, x17
	eor x10, x10, x13
	b .L22_74
.L22_70:
	mov x10, xzr
.L22_74:
	stp x28, x27, [sp, #-80]!
	.cfi_def_cfa_offset 80
	.cfi_offset 27, -72
	.cfi_offset 28, -80
	add x15, x0, x1
	ldp x13, x14, [x2, #80]
	ldp x11, x12, [x15, #-48]
	stp x20, x19, [sp, #64]
	.cfi_offset 19, -8
	.cfi_offset 20, -16
	ldp x4, x3, [x2, #48]
	stp x24, x23, [sp, #32]
	.cfi_offset 23, -40
	.cfi_offset 24, -48
	stp x22, x21, [sp, #48]
	.cfi_offset 21, -24
	.cfi_offset 22, -32
	ldp x17, x16, [x15, #-32]
	eor x14, x14, x12
	eor x13, x13, x11
	add x11, x12, x11
	mul x18, x14, x13
	ldp x6, x7, [x0, #32]
	ldp x23, x22, [x2, #32]
	stp x26, x25, [sp, #16]
	.cfi_offset 25, -56
	.cfi_offset 26, -64
	umulh x5, x14, x13
	eor x14, x3, x16
	eor x3, x4, x17
	ldp x4, x19, [x2, #64]
	mul x13, x14, x3
	ldp x25, x26, [x2]
	ldp x27, x15, [x15, #-16]
	umulh x14, x14, x3
	eor x20, x4, x6
	eor x19, x19, x7
	ldp x4, x3, [x0, #16]
	eor x18, x5, x18
	mul x21, x19, x20
	ldp x24, x0, [x0]
	ldp x28, x2, [x2, #16]
	add x6, x7, x6
	umulh x19, x19, x20
	eor x20, x22, x3
	eor x22, x23, x4
	add x10, x10, x18
	eor x13, x14, x13
	mul x23, x20, x22
	eor x18, x28, x27
	eor x2, x2, x15
	eor x10, x10, x6
	umulh x20, x20, x22
	eor x22, x25, x24
	eor x25, x26, x0
	eor x7, x19, x21
	add x10, x10, x13
	add x13, x3, x4
	mul x26, x25, x22
	add x9, x9, x7
	eor x10, x10, x13
	eor x9, x9, x11
	umulh x5, x25, x22
	ldp x22, x21, [sp, #48]
	.cfi_restore 21
	.cfi_restore 22
	eor x11, x20, x23
	mul x19, x2, x18
	add x9, x9, x11
	add x11, x16, x17
	mov x16, #0xeb4f
	eor x9, x9, x11
	umulh x12, x2, x18
	movk x16, #0x27d4, lsl #16
	movk x16, #0xae3d, lsl #32
	eor x11, x5, x26
	movk x16, #0xc2b2, lsl #48
	add x9, x9, x11
	add x11, x15, x27
	mul x16, x1, x16
	eor x9, x9, x11
	ldp x26, x25, [sp, #16]
	.cfi_restore 25
	.cfi_restore 26
	eor x11, x12, x19
	ldp x20, x19, [sp, #64]
	.cfi_restore 19
	.cfi_restore 20
	add x10, x10, x11
	add x11, x0, x24
	madd x8, x9, x8, x16
	eor x10, x10, x11
	mov x11, #0xae63
	movk x11, #0xc2b2, lsl #16
	add x9, x10, x9
	movk x11, #0xca77, lsl #32
	eor x9, x9, x9, lsr #37
	movk x11, #0x85eb, lsl #48
	ldp x24, x23, [sp, #32]
	.cfi_restore 23
	.cfi_restore 24
	madd x8, x10, x11, x8
	mov x10, #0x79f9
	movk x10, #0x9e37, lsl #16
	movk x10, #0x6791, lsl #32
	movk x10, #0x1656, lsl #48
	mul x9, x9, x10
	eor x8, x8, x8, lsr #37
	mul x8, x8, x10
	eor x0, x9, x9, lsr #32
	eor x8, x8, x8, lsr #32
	neg x1, x8
	ldp x28, x27, [sp], #80
	.cfi_def_cfa_offset 0
	.cfi_restore 27
	.cfi_restore 28
	ret
	.cfi_endproc
	.size twox_core.width_128.oneshot_with_secret_65_to_128,.-twox_core.width_128.oneshot_with_secret_65_to_128
	.section .text.twox_core.width_128.oneshot_with_secret_129_to_240,"ax",@progbits
	.p2align 6
	.type twox_core.width_128.oneshot_with_secret_129_to_240,@function
twox_core.width_128.oneshot_with_secret_129_to_240:
	.cfi_startproc
	sub sp, sp, #0x80
	.cfi_def_cfa_offset 128
	stp x20, x19, [sp, #112]
	.cfi_offset 19, -8
	.cfi_offset 20, -16
	ldp x19, x4, [x0]
	ldp x8, x11, [x2]
	mov x9, x1
	ldp x13, x15, [x0, #16]
	str x1, [sp, #8]
	stp x22, x21, [sp, #96]
	.cfi_offset 21, -24
	.cfi_offset 22, -32
	ldp x12, x14, [x2, #16]
	eor x8, x8, x19
	eor x11, x11, x4
	str x30, [sp, #32]
	.cfi_offset 30, -96
	mul x17, x11, x8
	stp x28, x27, [sp, #48]
	.cfi_offset 27, -72
	.cfi_offset 28, -80
	ldp x1, x16, [x0, #32]
	stp x24, x23, [sp, #80]
	.cfi_offset 23, -40
	.cfi_offset 24, -48
	umulh x18, x11, x8
	eor x11, x12, x13
	eor x12, x14, x15
	ldp x3, x5, [x2, #32]
	add x13, x15, x13
	mul x8, x12, x11
	ldp x7, x20, [x2, #48]
	ldp x28, x30, [x0, #96]
	stp x26, x25, [sp, #64]
	.cfi_offset 25, -56
	.cfi_offset 26, -64
	eor x6, x3, x1
	eor x5, x5, x16
	umulh x11, x12, x11
	eor x17, x18, x17
	ldp x22, x23, [x2, #64]
	umulh x3, x5, x6
	ldp x24, x25, [x0, #80]
	str x8, [sp, #24]
	mov x8, #0xca87
	add x16, x16, x1
	movk x8, #0x85eb, lsl #16
	ldp x26, x27, [x2, #80]
	movk x8, #0x79b1, lsl #32
	str x11, [sp, #40]
	movk x8, #0x9e37, lsl #48
	ldp x12, x11, [x2, #112]
	madd x10, x9, x8, x17
	ldp x17, x18, [x0, #48]
	mul x8, x5, x6
	ldp x5, x6, [x0, #64]
	eor x21, x7, x17
	eor x20, x20, x18
	ldr x7, [sp, #24]
	eor x13, x10, x13
	ldr x10, [sp, #40]
	str x8, [sp, #16]
	mul x8, x20, x21
	eor x10, x10, x7
	umulh x20, x20, x21
	eor x21, x22, x5
	eor x22, x23, x6
	mul x23, x22, x21
	str x8, [sp]
	ldp x8, x9, [x2, #96]
	umulh x21, x22, x21
	eor x22, x26, x24
	eor x26, x27, x25
	eor x8, x8, x28
	eor x9, x9, x30
	mul x27, x26, x22
	mul x15, x9, x8
	umulh x8, x9, x8
	add x9, x4, x19
	eor x9, x9, x10
	ldp x4, x10, [sp, #8]
	umulh x22, x26, x22
	ldp x26, x14, [x0, #112]
	eor x10, x3, x10
	eor x12, x12, x26
	eor x11, x11, x14
	add x10, x13, x10
	add x13, x18, x17
	ldr x17, [sp]
	mul x3, x11, x12
	eor x10, x10, x13
	eor x13, x22, x27
	eor x8, x8, x15
	umulh x11, x11, x12
	eor x17, x20, x17
	eor x12, x21, x23
	add x9, x9, x17
	add x10, x10, x12
	add x12, x25, x24
	eor x9, x9, x16
	eor x10, x10, x12
	add x12, x6, x5
	add x9, x9, x13
	add x8, x10, x8
	add x10, x14, x26
	eor x9, x9, x12
	eor x8, x8, x10
	lsr x12, x4, #5
	eor x10, x11, x3
	add x11, x30, x28
	eor x8, x8, x8, lsr #37
	add x10, x9, x10
	mov x9, #0x79f9
	subs x12, x12, #0x4
	movk x9, #0x9e37, lsl #16
	eor x10, x10, x11
	movk x9, #0x6791, lsl #32
	eor x10, x10, x10, lsr #37
	movk x9, #0x1656, lsl #48
	mul x8, x8, x9
	mul x10, x10, x9
	eor x11, x8, x8, lsr #32
	eor x10, x10, x10, lsr #32
	b.eq .L23_2dc
	ldp x8, x13, [x0, #128]
	cmp x12, #0x1
	ldur x14, [x2, #3]
	ldur x15, [x2, #11]
	ldur x1, [x2, #19]
	ldp x17, x18, [x0, #144]
	ldur x3, [x2, #27]
	eor x14, x14, x8
	eor x15, x15, x13
	add x8, x13, x8
	mul x16, x15, x14
	umulh x14, x15, x14
	eor x15, x1, x17
	eor x1, x3, x18
	mul x3, x1, x15
	umulh x15, x1, x15
	eor x14, x14, x16
	add x16, x18, x17
	add x11, x11, x14
	eor x11, x11, x16
	eor x15, x15, x3
	add x10, x10, x15
	eor x10, x10, x8
	b.eq .L23_2dc
	ldp x8, x13, [x0, #160]
	cmp x12, #0x2
	ldur x14, [x2, #35]
	ldur x15, [x2, #43]
	ldur x1, [x2, #51]
	ldp x17, x18, [x0, #176]
	ldur x3, [x2, #59]
	eor x14, x14, x8
	eor x15, x15, x13
	add x8, x13, x8
	mul x16, x15, x14
	umulh x14, x15, x14
	eor x15, x1, x17
	eor x1, x3, x18
	mul x3, x1, x15
	umulh x15, x1, x15
	eor x14, x14, x16
	add x16, x18, x17
	add x11, x11, x14
	eor x11, x11, x16
	eor x15, x15, x3
	add x10, x10, x15
	eor x10, x10, x8
	b.eq .L23_2dc
	ldp x8, x12, [x0, #192]
	ldur x13, [x2, #67]
	ldur x14, [x2, #75]
	ldur x18, [x2, #83]
	ldur x1, [x2, #91]
	ldp x16, x17, [x0, #208]
	eor x13, x13, x8
	eor x14, x14, x12
	add x8, x12, x8
	mul x15, x14, x13
	umulh x13, x14, x13
	eor x14, x18, x16
	eor x18, x1, x17
	mul x1, x18, x14
	umulh x14, x18, x14
	eor x13, x13, x15
	add x11, x11, x13
	add x13, x17, x16
	eor x11, x11, x13
	eor x14, x14, x1
	add x10, x10, x14
	eor x10, x10, x8
.L23_2dc:
	add x8, x0, x4
	ldur x12, [x2, #103]
	ldur x13, [x2, #111]
	ldp x14, x15, [x8, #-16]
	ldur x16, [x2, #119]
	ldp x0, x8, [x8, #-32]
	ldur x18, [x2, #127]
	ldr x30, [sp, #32]
	.cfi_restore 30
	ldp x20, x19, [sp, #112]
	.cfi_restore 19
	.cfi_restore 20
	eor x12, x12, x14
	eor x13, x13, x15
	mul x17, x13, x12
	ldp x22, x21, [sp, #96]
	.cfi_restore 21
	.cfi_restore 22
	ldp x24, x23, [sp, #80]
	.cfi_restore 23
	.cfi_restore 24
	umulh x12, x13, x12
	eor x13, x16, x0
	eor x16, x18, x8
	add x8, x8, x0
	ldp x26, x25, [sp, #64]
	.cfi_restore 25
	.cfi_restore 26
	mul x18, x16, x13
	ldp x28, x27, [sp, #48]
	.cfi_restore 27
	.cfi_restore 28
	umulh x13, x16, x13
	mov x16, #0xeb4f
	movk x16, #0x27d4, lsl #16
	eor x12, x12, x17
	movk x16, #0xae3d, lsl #32
	add x11, x11, x12
	mov x12, #0xca87
	movk x16, #0xc2b2, lsl #48
	movk x12, #0x85eb, lsl #16
	eor x8, x11, x8
	mul x16, x4, x16
	movk x12, #0x79b1, lsl #32
	eor x11, x13, x18
	movk x12, #0x9e37, lsl #48
	add x13, x15, x14
	add x10, x10, x11
	mov x11, #0xae63
	madd x12, x8, x12, x16
	movk x11, #0xc2b2, lsl #16
	eor x10, x10, x13
	movk x11, #0xca77, lsl #32
	add x8, x10, x8
	movk x11, #0x85eb, lsl #48
	eor x8, x8, x8, lsr #37
	madd x11, x10, x11, x12
	mul x8, x8, x9
	eor x11, x11, x11, lsr #37
	mul x10, x11, x9
	eor x0, x8, x8, lsr #32
	eor x9, x10, x10, lsr #32
	neg x1, x9
	add sp, sp, #0x80
	.cfi_def_cfa_offset 0
	ret
	.cfi_endproc
	.size twox_core.width_128.oneshot_with_secret_129_to_240,.-twox_core.width_128.oneshot_with_secret_129_to_240
	.section .text.twox_core.width_128.short_129_to_240,"ax",@progbits
	.p2align 6
	.type twox_core.width_128.short_129_to_240,@function
twox_core.width_128.short_129_to_240:
	.cfi_startproc
	sub sp, sp, #0x80
	.cfi_def_cfa_offset 128
	ldp x8, x11, [x0]
	mov x9, x3
	ldp x10, x12, [x2]
	str x3, [sp, #8]
	ldp x14, x16, [x2, #16]
	stp x20, x19, [sp, #112]
	.cfi_offset 19, -8
	.cfi_offset 20, -16
	sub x11, x11, x1
	add x8, x8, x1
	stp x24, x23, [sp, #80]
	.cfi_offset 23, -40
	.cfi_offset 24, -48
	str x12, [sp, #24]
	eor x11, x11, x12
	eor x8, x8, x10
	ldp x12, x13, [x0, #16]
	mul x15, x11, x8
	ldp x4, x5, [x0, #32]
	stp x22, x21, [sp, #96]
	.cfi_offset 21, -24
	.cfi_offset 22, -32
	umulh x18, x11, x8
	ldp x3, x17, [x2, #32]
	add x8, x12, x1
	sub x11, x13, x1
	stp x28, x27, [sp, #48]
	.cfi_offset 27, -72
	.cfi_offset 28, -80
	eor x12, x8, x14
	eor x11, x11, x16
	add x4, x4, x1
	mul x8, x11, x12
	ldp x7, x19, [x0, #48]
	sub x5, x5, x1
	eor x6, x4, x3
	stp x26, x25, [sp, #64]
	.cfi_offset 25, -56
	.cfi_offset 26, -64
	eor x15, x18, x15
	ldp x18, x4, [x2, #48]
	eor x5, x5, x17
	ldp x23, x24, [x0, #64]
	ldp x27, x28, [x0, #80]
	stp x30, x10, [sp, #32]
	.cfi_offset 30, -96
	str x8, [sp, #16]
	mov x8, #0xca87
	add x14, x16, x14
	movk x8, #0x85eb, lsl #16
	add x23, x23, x1
	sub x24, x24, x1
	movk x8, #0x79b1, lsl #32
	add x27, x27, x1
	sub x28, x28, x1
	movk x8, #0x9e37, lsl #48
	ldp x16, x10, [x2, #96]
	madd x20, x9, x8, x15
	add x17, x17, x3
	mul x8, x5, x6
	umulh x5, x5, x6
	add x6, x7, x1
	sub x7, x19, x1
	eor x21, x6, x18
	ldp x6, x19, [x2, #64]
	eor x22, x7, x4
	umulh x13, x11, x12
	eor x14, x20, x14
	str x8, [sp]
	ldp x8, x15, [sp, #16]
	mul x7, x22, x21
	eor x25, x23, x6
	eor x26, x24, x19
	umulh x21, x22, x21
	ldp x22, x23, [x2, #80]
	eor x13, x13, x8
	ldp x9, x8, [x2, #112]
	mul x24, x26, x25
	umulh x25, x26, x25
	eor x26, x27, x22
	eor x27, x28, x23
	ldp x28, x30, [x0, #96]
	mul x12, x27, x26
	add x28, x28, x1
	sub x30, x30, x1
	umulh x26, x27, x26
	eor x20, x28, x16
	eor x27, x30, x10
	add x10, x10, x16
	ldp x28, x30, [x0, #112]
	mul x11, x27, x20
	umulh x20, x27, x20
	add x27, x28, x1
	sub x28, x30, x1
	ldr x30, [sp, #40]
	eor x27, x27, x9
	eor x28, x28, x8
	eor x12, x26, x12
	add x30, x15, x30
	ldr x15, [sp]
	add x8, x8, x9
	eor x13, x30, x13
	eor x15, x5, x15
	mul x5, x28, x27
	eor x11, x20, x11
	add x14, x14, x15
	add x15, x4, x18
	eor x18, x21, x7
	add x13, x13, x18
	umulh x18, x28, x27
	eor x14, x14, x15
	eor x15, x25, x24
	eor x13, x13, x17
	ldr x7, [sp, #8]
	add x14, x14, x15
	add x15, x23, x22
	add x12, x13, x12
	eor x14, x14, x15
	add x13, x19, x6
	add x11, x14, x11
	eor x9, x12, x13
	lsr x12, x7, #5
	eor x8, x11, x8
	eor x11, x18, x5
	add x11, x9, x11
	mov x9, #0x79f9
	eor x8, x8, x8, lsr #37
	movk x9, #0x9e37, lsl #16
	eor x10, x11, x10
	subs x12, x12, #0x4
	movk x9, #0x6791, lsl #32
	eor x10, x10, x10, lsr #37
	movk x9, #0x1656, lsl #48
	mul x8, x8, x9
	mul x10, x10, x9
	eor x11, x8, x8, lsr #32
	eor x10, x10, x10, lsr #32
	b.eq .L24_274
	add x13, x2, #0x98
	add x14, x0, #0x13
.L24_208:
	ldp x8, x15, [x14, #-16]
	subs x12, x12, #0x1
	ldp x16, x17, [x13, #-24]
	ldp x18, x3, [x14], #32
	add x8, x8, x1
	sub x15, x15, x1
	ldp x5, x6, [x13, #-8]
	eor x8, x8, x16
	eor x15, x15, x17
	add x18, x18, x1
	add x16, x17, x16
	mul x4, x15, x8
	add x13, x13, #0x20
	eor x18, x18, x5
	umulh x8, x15, x8
	sub x15, x3, x1
	eor x15, x15, x6
	mul x3, x15, x18
	umulh x15, x15, x18
	add x18, x6, x5
	eor x8, x8, x4
	add x8, x11, x8
	eor x11, x8, x18
	eor x15, x15, x3
	add x10, x10, x15
	eor x10, x10, x16
	b.ne .L24_208
.L24_274:
	add x8, x2, x7
	ldur x12, [x0, #103]
	ldur x13, [x0, #111]
	ldp x14, x15, [x8, #-16]
	ldur x16, [x0, #119]
	sub x12, x12, x1
	add x13, x13, x1
	ldur x17, [x0, #127]
	ldp x0, x8, [x8, #-32]
	ldr x30, [sp, #32]
	.cfi_restore 30
	eor x12, x12, x14
	eor x13, x13, x15
	mul x18, x13, x12
	ldp x20, x19, [sp, #112]
	.cfi_restore 19
	.cfi_restore 20
	ldp x22, x21, [sp, #96]
	.cfi_restore 21
	.cfi_restore 22
	umulh x12, x13, x12
	sub x13, x16, x1
	add x16, x17, x1
	eor x13, x13, x0
	eor x16, x16, x8
	add x8, x8, x0
	mul x17, x16, x13
	ldp x24, x23, [sp, #80]
	.cfi_restore 23
	.cfi_restore 24
	ldp x26, x25, [sp, #64]
	.cfi_restore 25
	.cfi_restore 26
	umulh x13, x16, x13
	sub x16, x7, x1
	mov x1, #0xeb4f
	movk x1, #0x27d4, lsl #16
	eor x12, x12, x18
	movk x1, #0xae3d, lsl #32
	add x11, x11, x12
	mov x12, #0xca87
	movk x1, #0xc2b2, lsl #48
	movk x12, #0x85eb, lsl #16
	eor x8, x11, x8
	mul x16, x16, x1
	movk x12, #0x79b1, lsl #32
	eor x11, x13, x17
	movk x12, #0x9e37, lsl #48
	add x13, x15, x14
	add x10, x10, x11
	mov x11, #0xae63
	madd x12, x8, x12, x16
	movk x11, #0xc2b2, lsl #16
	eor x10, x10, x13
	movk x11, #0xca77, lsl #32
	add x8, x10, x8
	movk x11, #0x85eb, lsl #48
	eor x8, x8, x8, lsr #37
	madd x11, x10, x11, x12
	ldp x28, x27, [sp, #48]
	.cfi_restore 27
	.cfi_restore 28
	mul x8, x8, x9
	eor x11, x11, x11, lsr #37
	mul x10, x11, x9
	eor x0, x8, x8, lsr #32
	eor x9, x10, x10, lsr #32
	neg x1, x9
	add sp, sp, #0x80
	.cfi_def_cfa_offset 0
	ret
	.cfi_endproc
	.size twox_core.width_128.short_129_to_240,.-twox_core.width_128.short_129_to_240
	.section .text.twox_c.xxh3_128.XXH3_128bits_withSeed,"ax",@progbits
	.p2align 6
	.type twox_c.xxh3_128.XXH3_128bits_withSeed,@function
twox_c.xxh3_128.XXH3_128bits_withSeed:
	.cfi_startproc
	mov x3, x1
	cmp x1, #0x10
	b.hi .L25_d8
	cmp x3, #0x9
	b.cc .L25_198
	mov x10, #0x2349
	ldr x8, [x0]
	add x9, x0, x3
	movk x10, #0x3336, lsl #16
	ldur x9, [x9, #-8]
	mov x12, #0x3d58
	movk x10, #0x3f00, lsl #32
	movk x12, #0x92d6, lsl #16
	movk x10, #0x5997, lsl #48
	movk x12, #0x7976, lsl #32
	sub x10, x10, x2
	movk x12, #0xc202, lsl #48
	eor x8, x8, x10
	mov x10, #0xca87
	add x12, x2, x12
	movk x10, #0x85eb, lsl #16
	eor x8, x8, x9
	eor x9, x9, x12
	movk x10, #0x79b1, lsl #32
	movk x10, #0x9e37, lsl #48
	mul x11, x8, x10
	umulh x8, x8, x10
	mov w10, #0xca76
	movk w10, #0x85eb, lsl #16
	umaddl x9, w9, w10, x9
	add x10, x11, x3, lsl #54
	mov x11, #0xffc0000000000000
	add x10, x10, x11
	mov x11, #0xeb4f
	add x8, x9, x8
	movk x11, #0x27d4, lsl #16
	rev x9, x8
	movk x11, #0xae3d, lsl #32
	eor x9, x9, x10
	movk x11, #0xc2b2, lsl #48
	umulh x10, x9, x11
	mul x9, x9, x11
	madd x8, x8, x11, x10
	mov x10, #0x79f9
	movk x10, #0x9e37, lsl #16
	movk x10, #0x6791, lsl #32
	eor x9, x9, x9, lsr #37
	movk x10, #0x1656, lsl #48
	eor x8, x8, x8, lsr #37
	mul x9, x9, x10
	mul x8, x8, x10
	eor x0, x9, x9, lsr #32
	eor x1, x8, x8, lsr #32
	ret
.L25_d8:
	cmp x3, #0x40
	b.hi .L25_230
	mov x8, #0xca87
	cmp x3, #0x21
	movk x8, #0x85eb, lsl #16
	movk x8, #0x79b1, lsl #32
	movk x8, #0x9e37, lsl #48
	mul x9, x3, x8
	b.cc .L25_240
	mov x12, #0x79cb
	mov x13, #0x5a82
	mov x17, #0x8b8
	movk x12, #0x4ee6, lsl #16
	movk x13, #0x7dd0, lsl #16
	mov x18, #0x35e0
	ldp x10, x11, [x0, #16]
	movk x12, #0xc0cc, lsl #32
	movk x13, #0xffcc, lsl #32
	movk x12, #0x78e5, lsl #48
	add x14, x0, x3
	movk x13, #0x2172, lsl #48
	movk x17, #0x7446, lsl #16
	movk x18, #0xe690, lsl #16
	add x12, x2, x12
	sub x13, x13, x2
	movk x17, #0x43f7, lsl #32
	ldp x16, x14, [x14, #-32]
	movk x18, #0x3a81, lsl #32
	eor x12, x10, x12
	eor x13, x11, x13
	movk x17, #0x8e24, lsl #48
	movk x18, #0x4c26, lsl #48
	mul x15, x13, x12
	add x10, x11, x10
	umulh x12, x13, x12
	add x13, x2, x17
	sub x17, x18, x2
	eor x13, x16, x13
	eor x17, x14, x17
	mul x18, x17, x13
	umulh x13, x17, x13
	eor x12, x12, x15
	add x9, x9, x12
	add x12, x14, x16
	eor x9, x9, x12
	eor x13, x13, x18
	eor x10, x10, x13
	b .L25_244
.L25_198:
	cmp x3, #0x4
	b.cc .L25_344
	add x8, x0, x3
	ldr w9, [x0]
	mov x11, #0x94ac
	ldur w8, [x8, #-4]
	rev w10, w2
	movk x11, #0x4dc9, lsl #16
	eor x10, x2, x10, lsl #32
	movk x11, #0x2334, lsl #32
	orr x8, x9, x8, lsl #32
	mov x9, #0xca87
	movk x11, #0xc4f0, lsl #48
	movk x9, #0x85eb, lsl #16
	add x10, x10, x11
	movk x9, #0x79b1, lsl #32
	eor x8, x8, x10
	movk x9, #0x9e37, lsl #48
	add x9, x9, x3, lsl #2
	mul x10, x8, x9
	umulh x8, x8, x9
	add x8, x8, x10, lsl #1
	eor x9, x10, x8, lsr #3
	mov x10, #0xdf25
	eor x8, x8, x8, lsr #37
	movk x10, #0x1e98, lsl #16
	eor x9, x9, x9, lsr #35
	movk x10, #0x1c65, lsl #32
	movk x10, #0x9fb2, lsl #48
	mul x9, x9, x10
	mov x10, #0x79f9
	movk x10, #0x9e37, lsl #16
	movk x10, #0x6791, lsl #32
	movk x10, #0x1656, lsl #48
	mul x8, x8, x10
	eor x0, x9, x9, lsr #28
	eor x1, x8, x8, lsr #32
	ret
.L25_230:
	cmp x3, #0x80
	b.hi .L25_3c0
	mov x1, x3
	b twox_core.width_128.oneshot_with_seed_65_to_128
.L25_240:
	mov x10, xzr
.L25_244:
	mov x12, #0xd4de
	mov x13, #0x4072
	add x11, x0, x3
	movk x12, #0xe96d, lsl #16
	movk x13, #0xa4a4, lsl #16
	mov x18, #0xfeb8
	movk x12, #0x9083, lsl #32
	movk x13, #0xb3b7, lsl #32
	movk x18, #0x396c, lsl #16
	ldp x14, x11, [x11, #-16]
	movk x12, #0xdb97, lsl #48
	movk x13, #0x1f67, lsl #48
	add x12, x2, x12
	movk x18, #0xa423, lsl #32
	sub x13, x13, x2
	ldp x16, x17, [x0]
	eor x12, x14, x12
	eor x13, x11, x13
	mov x0, #0x17c
	mul x15, x13, x12
	movk x0, #0x2c81, lsl #16
	movk x18, #0xbe4b, lsl #48
	movk x0, #0x21f7, lsl #32
	add x18, x2, x18
	mov x1, #0xeb4f
	umulh x12, x13, x12
	movk x0, #0x1cad, lsl #48
	eor x13, x16, x18
	sub x0, x0, x2
	movk x1, #0x27d4, lsl #16
	add x11, x11, x14
	eor x18, x17, x0
	movk x1, #0xae3d, lsl #32
	mul x0, x18, x13
	movk x1, #0xc2b2, lsl #48
	umulh x13, x18, x13
	eor x12, x12, x15
	sub x18, x3, x2
	add x10, x10, x12
	mov x12, #0xae63
	add x15, x17, x16
	mul x18, x18, x1
	movk x12, #0xc2b2, lsl #16
	eor x10, x10, x15
	movk x12, #0xca77, lsl #32
	movk x12, #0x85eb, lsl #48
	eor x13, x13, x0
	madd x12, x10, x12, x18
	add x9, x9, x13
	eor x9, x9, x11
	mov x11, #0x79f9
	madd x8, x9, x8, x12
	movk x11, #0x9e37, lsl #16
	add x9, x9, x10
	movk x11, #0x6791, lsl #32
	eor x9, x9, x9, lsr #37
	movk x11, #0x1656, lsl #48
	mul x9, x9, x11
	eor x8, x8, x8, lsr #37
	mul x8, x8, x11
	eor x0, x9, x9, lsr #32
	eor x8, x8, x8, lsr #32
	neg x1, x8
	ret
.L25_344:
	mov x9, #0xeb4f
	mov x8, #0x79f9
	movk x9, #0x27d4, lsl #16
	movk x8, #0x9e37, lsl #16
	movk x9, #0xae3d, lsl #32
	movk x8, #0x67b1, lsl #32
	movk x9, #0xc2b2, lsl #48
	movk x8, #0x1656, lsl #48
	cbz x3, .L25_3e8
	add x10, x0, x3
	ldrb w11, [x0]
	lsr x12, x3, #1
	ldurb w10, [x10, #-1]
	mov w13, #0x208b
	movk w13, #0x302c, lsl #16
	orr w10, w10, w3, lsl #8
	sub x13, x13, x2
	orr w10, w10, w11, lsl #16
	ldrb w11, [x0, x12]
	orr w10, w10, w11, lsl #24
	mov w11, #0x5a9b
	movk w11, #0x8727, lsl #16
	add x11, x2, x11
	rev w12, w10
	ror w12, w12, #19
	eor x10, x10, x11, lsr #33
	eor x10, x10, x11
	eor x11, x12, x13, lsr #33
	mul x10, x10, x9
	eor x11, x11, x13
	b .L25_41c
.L25_3c0:
	cmp x3, #0xf0
	b.hi .L25_3d0
	mov x1, x3
	b twox_core.width_128.oneshot_with_seed_129_to_240
.L25_3d0:
	mov x8, x0
	cbz x2, .L25_43c
	mov x0, x2
	mov x1, x8
	mov x2, x3
	b twox_core.width_128.oneshot_long_derived
.L25_3e8:
	mov x10, #0xf8b4
	mov x11, #0x7d49
	movk x10, #0x3037, lsl #16
	movk x11, #0xd1a7, lsl #16
	movk x10, #0x908a, lsl #32
	movk x11, #0xd30b, lsl #32
	movk x10, #0x682e, lsl #48
	movk x11, #0x9655, lsl #48
	eor x10, x2, x10
	eor x11, x2, x11
	eor x10, x10, x10, lsr #33
	eor x11, x11, x11, lsr #33
	mul x10, x10, x9
.L25_41c:
	mul x9, x11, x9
	eor x10, x10, x10, lsr #29
	mul x10, x10, x8
	eor x9, x9, x9, lsr #29
	mul x8, x9, x8
	eor x0, x10, x10, lsr #32
	eor x1, x8, x8, lsr #32
	ret
.L25_43c:
	adrp x0, .L98_0
	add x0, x0, :lo12:.L98_0
	mov w1, #0xc0
	mov x2, x8
	b twox_core.width_128.oneshot_long
	.cfi_endproc
	.size twox_c.xxh3_128.XXH3_128bits_withSeed,.-twox_c.xxh3_128.XXH3_128bits_withSeed
	.section .text.twox_core.width_128.oneshot_with_seed_65_to_128,"ax",@progbits
	.p2align 6
	.type twox_core.width_128.oneshot_with_seed_65_to_128,@function
twox_core.width_128.oneshot_with_seed_65_to_128:
	.cfi_startproc
	mov x8, #0xca87
	cmp x1, #0x61
	movk x8, #0x85eb, lsl #16
	movk x8, #0x79b1, lsl #32
	movk x8, #0x9e37, lsl #48
	mul x9, x1, x8
	b.cc .L26_b8
	mov x12, #0xfaa8
	mov x13, #0xdcf9
	mov x17, #0x518a
	movk x12, #0x3f76, lsl #16
	movk x13, #0xc7bb, lsl #16
	mov x18, #0x9fc8
	ldp x10, x11, [x0, #48]
	movk x12, #0x9ce3, lsl #32
	movk x13, #0xbc7, lsl #32
	movk x12, #0x3f34, lsl #48
	add x14, x0, x1
	movk x13, #0x1d4f, lsl #48
	movk x17, #0x4be0, lsl #16
	movk x18, #0xc97e, lsl #16
	add x12, x2, x12
	sub x13, x13, x2
	movk x17, #0xb4cd, lsl #32
	ldp x16, x14, [x14, #-64]
	movk x18, #0x78d9, lsl #32
	eor x12, x12, x10
	eor x13, x13, x11
	movk x17, #0x3159, lsl #48
	movk x18, #0x6473, lsl #48
	mul x15, x13, x12
	add x10, x11, x10
	umulh x12, x13, x12
	add x13, x2, x17
	sub x17, x18, x2
	eor x13, x13, x16
	eor x17, x17, x14
	mul x18, x17, x13
	umulh x13, x17, x13
	eor x12, x12, x15
	add x9, x9, x12
	add x12, x14, x16
	eor x9, x9, x12
	eor x13, x13, x18
	eor x14, x10, x13
	b .L26_bc
.L26_b8:
	mov x14, xzr
.L26_bc:
	str x25, [sp, #-64]!
	.cfi_def_cfa_offset 64
	.cfi_offset 25, -64
	mov x12, #0x1938
	mov x13, #0x6471
	add x15, x0, x1
	movk x12, #0x46ef, lsl #16
	movk x13, #0x9748, lsl #16
	mov x18, #0x35e0
	movk x12, #0xdea9, lsl #32
	movk x13, #0xda2, lsl #32
	mov x3, #0x8b8
	ldp x10, x11, [x15, #-48]
	movk x12, #0xd8ac, lsl #48
	movk x13, #0x4ef9, lsl #48
	sub x12, x12, x2
	movk x18, #0xe690, lsl #16
	add x13, x2, x13
	movk x3, #0x7446, lsl #16
	movk x18, #0x3a81, lsl #32
	eor x16, x12, x11
	eor x17, x13, x10
	movk x3, #0x43f7, lsl #32
	ldp x13, x12, [x15, #-32]
	mov x5, #0xd088
	mov x6, #0x283c
	movk x18, #0x4c26, lsl #48
	movk x3, #0x8e24, lsl #48
	movk x5, #0x8b65, lsl #16
	movk x6, #0xbb52, lsl #16
	stp x24, x23, [sp, #16]
	.cfi_offset 23, -40
	.cfi_offset 24, -48
	stp x22, x21, [sp, #32]
	.cfi_offset 21, -24
	.cfi_offset 22, -32
	mul x7, x16, x17
	movk x5, #0x531b, lsl #32
	stp x20, x19, [sp, #48]
	.cfi_offset 19, -8
	.cfi_offset 20, -16
	movk x6, #0xc391, lsl #32
	mov x22, #0x5a82
	umulh x19, x16, x17
	sub x16, x18, x2
	add x17, x2, x3
	ldp x18, x3, [x0, #32]
	mov x23, #0x79cb
	eor x4, x16, x12
	eor x17, x17, x13
	movk x5, #0xa32e, lsl #48
	movk x6, #0xcb00, lsl #48
	movk x22, #0x7dd0, lsl #16
	movk x23, #0x4ee6, lsl #16
	mul x16, x4, x17
	movk x22, #0xffcc, lsl #32
	movk x23, #0xc0cc, lsl #32
	movk x22, #0x2172, lsl #48
	movk x23, #0x78e5, lsl #48
	mov x24, #0x4072
	umulh x4, x4, x17
	sub x17, x5, x2
	add x5, x2, x6
	eor x20, x17, x3
	eor x21, x5, x18
	eor x7, x19, x7
	ldp x6, x5, [x0, #16]
	mul x17, x20, x21
	movk x24, #0xa4a4, lsl #16
	add x18, x3, x18
	mov x25, #0x17c
	umulh x20, x20, x21
	sub x21, x22, x2
	add x22, x2, x23
	mov x23, #0xd4de
	eor x19, x21, x5
	eor x21, x22, x6
	movk x23, #0xe96d, lsl #16
	add x22, x14, x7
	movk x24, #0xb3b7, lsl #32
	ldp x14, x15, [x15, #-16]
	movk x23, #0x9083, lsl #32
	movk x23, #0xdb97, lsl #48
	movk x24, #0x1f67, lsl #48
	mul x7, x19, x21
	eor x18, x22, x18
	movk x25, #0x2c81, lsl #16
	eor x17, x20, x17
	umulh x19, x19, x21
	add x21, x2, x23
	sub x23, x24, x2
	eor x3, x14, x21
	eor x21, x15, x23
	mov x24, #0xfeb8
	mul x22, x21, x3
	movk x24, #0x396c, lsl #16
	movk x25, #0x21f7, lsl #32
	ldp x23, x0, [x0]
	movk x24, #0xa423, lsl #32
	umulh x3, x21, x3
	add x9, x9, x17
	mov x17, #0xeb4f
	movk x24, #0xbe4b, lsl #48
	movk x25, #0x1cad, lsl #48
	eor x16, x4, x16
	movk x17, #0x27d4, lsl #16
	add x21, x2, x24
	sub x24, x25, x2
	add x16, x18, x16
	add x18, x5, x6
	add x10, x11, x10
	movk x17, #0xae3d, lsl #32
	eor x4, x23, x21
	eor x21, x0, x24
	eor x16, x16, x18
	eor x9, x9, x10
	sub x10, x1, x2
	movk x17, #0xc2b2, lsl #48
	eor x1, x3, x22
	mul x5, x21, x4
	add x16, x16, x1
	add x12, x12, x13
	eor x18, x19, x7
	umulh x11, x21, x4
	add x9, x9, x18
	eor x9, x9, x12
	ldp x20, x19, [sp, #48]
	.cfi_restore 19
	.cfi_restore 20
	mul x10, x10, x17
	add x17, x0, x23
	eor x13, x16, x17
	mov x16, #0xae63
	movk x16, #0xc2b2, lsl #16
	ldp x22, x21, [sp, #32]
	.cfi_restore 21
	.cfi_restore 22
	movk x16, #0xca77, lsl #32
	eor x11, x11, x5
	movk x16, #0x85eb, lsl #48
	add x9, x9, x11
	add x11, x15, x14
	madd x10, x13, x16, x10
	eor x9, x9, x11
	ldp x24, x23, [sp, #16]
	.cfi_restore 23
	.cfi_restore 24
	madd x8, x9, x8, x10
	mov x10, #0x79f9
	add x9, x9, x13
	movk x10, #0x9e37, lsl #16
	eor x9, x9, x9, lsr #37
	movk x10, #0x6791, lsl #32
	movk x10, #0x1656, lsl #48
	mul x9, x9, x10
	eor x8, x8, x8, lsr #37
	mul x8, x8, x10
	eor x0, x9, x9, lsr #32
	eor x8, x8, x8, lsr #32
	neg x1, x8
	ldr x25, [sp], #64
	.cfi_def_cfa_offset 0
	.cfi_restore 25
	ret
	.cfi_endproc
	.size twox_core.width_128.oneshot_with_seed_65_to_128,.-twox_core.width_128.oneshot_with_seed_65_to_128
	.section .text.twox_core.width_128.oneshot_with_seed_129_to_240,"ax",@progbits
	.p2align 6
	.type twox_core.width_128.oneshot_with_seed_129_to_240,@function
twox_core.width_128.oneshot_with_seed_129_to_240:
	.cfi_startproc
	sub sp, sp, #0x70
	.cfi_def_cfa_offset 112
	mov x8, #0xfeb8
	mov x11, #0x17c
	stp x1, x30, [sp, #8]
	.cfi_offset 30, -96
	movk x8, #0x396c, lsl #16
	movk x11, #0x2c81, lsl #16
	mov x9, x1
	movk x8, #0xa423, lsl #32
	ldp x10, x1, [x0]
	movk x11, #0x21f7, lsl #32
	movk x8, #0xbe4b, lsl #48
	mov x12, #0xd4de
	movk x11, #0x1cad, lsl #48
	add x8, x2, x8
	movk x12, #0xe96d, lsl #16
	sub x11, x11, x2
	mov x13, #0x4072
	eor x8, x8, x10
	eor x11, x11, x1
	movk x12, #0x9083, lsl #32
	movk x13, #0xa4a4, lsl #16
	ldp x17, x3, [x0, #16]
	movk x12, #0xdb97, lsl #48
	mul x14, x11, x8
	movk x13, #0xb3b7, lsl #32
	mov x16, #0x79cb
	movk x13, #0x1f67, lsl #48
	mov x18, #0x5a82
	movk x16, #0x4ee6, lsl #16
	umulh x15, x11, x8
	add x8, x2, x12
	sub x11, x13, x2
	eor x12, x8, x17
	mov x8, #0xca87
	eor x11, x11, x3
	movk x8, #0x85eb, lsl #16
	movk x18, #0x7dd0, lsl #16
	mul x13, x11, x12
	movk x8, #0x79b1, lsl #32
	movk x16, #0xc0cc, lsl #32
	movk x18, #0xffcc, lsl #32
	umulh x5, x11, x12
	ldp x11, x12, [x0, #32]
	movk x8, #0x9e37, lsl #48
	movk x16, #0x78e5, lsl #48
	movk x18, #0x2172, lsl #48
	eor x14, x15, x14
	mov x6, #0x8b8
	mov x7, #0x35e0
	stp x20, x19, [sp, #96]
	.cfi_offset 19, -8
	.cfi_offset 20, -16
	madd x19, x9, x8, x14
	add x14, x2, x16
	sub x15, x18, x2
	movk x6, #0x7446, lsl #16
	movk x7, #0xe690, lsl #16
	stp x24, x23, [sp, #64]
	.cfi_offset 23, -40
	.cfi_offset 24, -48
	eor x18, x14, x11
	eor x4, x15, x12
	ldp x14, x15, [x0, #48]
	movk x6, #0x43f7, lsl #32
	movk x7, #0x3a81, lsl #32
	mov x23, #0xd088
	stp x22, x21, [sp, #80]
	.cfi_offset 21, -24
	.cfi_offset 22, -32
	movk x6, #0x8e24, lsl #48
	movk x7, #0x4c26, lsl #48
	mov x22, #0x283c
	movk x23, #0x8b65, lsl #16
	stp x28, x27, [sp, #32]
	.cfi_offset 27, -72
	.cfi_offset 28, -80
	mul x16, x4, x18
	stp x26, x25, [sp, #48]
	.cfi_offset 25, -56
	.cfi_offset 26, -64
	add x20, x2, x6
	movk x22, #0xbb52, lsl #16
	umulh x6, x4, x18
	sub x18, x7, x2
	movk x23, #0x531b, lsl #32
	mov x26, #0x6471
	mov x27, #0x1938
	eor x20, x20, x14
	eor x21, x18, x15
	ldp x18, x4, [x0, #64]
	movk x22, #0xc391, lsl #32
	movk x23, #0xa32e, lsl #48
	movk x26, #0x9748, lsl #16
	movk x27, #0x46ef, lsl #16
	mul x7, x21, x20
	movk x22, #0xcb00, lsl #48
	sub x24, x23, x2
	movk x26, #0xda2, lsl #32
	movk x27, #0xdea9, lsl #32
	umulh x23, x21, x20
	ldp x20, x21, [x0, #80]
	add x22, x2, x22
	movk x26, #0x4ef9, lsl #48
	movk x27, #0xd8ac, lsl #48
	mov x30, #0xfaa8
	mov x8, #0xdcf9
	eor x25, x22, x18
	eor x24, x24, x4
	add x26, x2, x26
	sub x27, x27, x2
	movk x30, #0x3f76, lsl #16
	movk x8, #0xc7bb, lsl #16
	mul x22, x24, x25
	movk x30, #0x9ce3, lsl #32
	movk x8, #0xbc7, lsl #32
	str x10, [sp, #24]
	umulh x24, x24, x25
	eor x25, x26, x20
	eor x26, x27, x21
	ldp x27, x28, [x0, #96]
	movk x30, #0x3f34, lsl #48
	movk x8, #0x1d4f, lsl #48
	mov x10, #0x518a
	mov x9, #0x9fc8
	add x17, x3, x17
	add x30, x2, x30
	sub x8, x8, x2
	movk x10, #0x4be0, lsl #16
	movk x9, #0xc97e, lsl #16
	mul x3, x26, x25
	eor x17, x19, x17
	eor x19, x30, x27
	eor x8, x8, x28
	umulh x25, x26, x25
	ldp x26, x30, [x0, #112]
	movk x10, #0xb4cd, lsl #32
	movk x9, #0x78d9, lsl #32
	eor x13, x5, x13
	mul x5, x8, x19
	movk x10, #0x3159, lsl #48
	movk x9, #0x6473, lsl #48
	add x10, x2, x10
	sub x9, x9, x2
	eor x16, x6, x16
	umulh x8, x8, x19
	ldr x19, [sp, #24]
	eor x10, x10, x26
	eor x9, x9, x30
	add x16, x17, x16
	add x14, x15, x14
	add x1, x1, x19
	eor x15, x23, x7
	add x11, x12, x11
	eor x13, x1, x13
	mul x1, x9, x10
	eor x12, x24, x22
	add x13, x13, x15
	umulh x9, x9, x10
	eor x10, x16, x14
	eor x11, x13, x11
	add x10, x10, x12
	add x12, x21, x20
	eor x13, x25, x3
	eor x10, x10, x12
	add x11, x11, x13
	eor x8, x8, x5
	add x12, x4, x18
	add x8, x10, x8
	add x10, x30, x26
	eor x11, x11, x12
	eor x8, x8, x10
	ldr x4, [sp, #8]
	eor x9, x9, x1
	eor x8, x8, x8, lsr #37
	add x10, x11, x9
	add x11, x28, x27
	mov x9, #0x79f9
	movk x9, #0x9e37, lsl #16
	eor x10, x10, x11
	lsr x12, x4, #5
	movk x9, #0x6791, lsl #32
	eor x10, x10, x10, lsr #37
	movk x9, #0x1656, lsl #48
	subs x12, x12, #0x4
	mul x8, x8, x9
	mul x11, x10, x9
	eor x10, x8, x8, lsr #32
	eor x11, x11, x11, lsr #32
	b.eq .L27_4a4
	mov x14, #0x2339
	mov x15, #0xf72c
	mov x1, #0x83e9
	movk x14, #0x4ba4, lsl #16
	movk x15, #0xad21, lsl #16
	mov x3, #0xb7a4
	ldp x8, x13, [x0, #128]
	movk x14, #0x7cbe, lsl #32
	movk x15, #0xde1c, lsl #32
	movk x14, #0x8101, lsl #48
	movk x1, #0x9790, lsl #16
	movk x15, #0x6dd4, lsl #48
	movk x3, #0x67b3, lsl #16
	add x14, x2, x14
	sub x15, x15, x2
	ldp x17, x18, [x0, #144]
	movk x1, #0x72db, lsl #32
	movk x3, #0xcb1f, lsl #32
	eor x14, x14, x8
	eor x15, x15, x13
	movk x1, #0xa440, lsl #48
	movk x3, #0xe679, lsl #48
	mul x16, x15, x14
	add x8, x13, x8
	cmp x12, #0x1
	umulh x14, x15, x14
	add x15, x2, x1
	sub x1, x3, x2
	eor x15, x15, x17
	eor x1, x1, x18
	mul x3, x1, x15
	umulh x15, x1, x15
	eor x14, x14, x16
	add x16, x18, x17
	add x10, x10, x14
	eor x10, x10, x16
	eor x15, x15, x3
	add x11, x11, x15
	eor x11, x11, x8
	b.eq .L27_4a4
	mov x14, #0xcc4e
	mov x15, #0xcc7d
	mov x1, #0xf774
	movk x14, #0xe5c0, lsl #16
	movk x15, #0x72ff, lsl #16
	mov x3, #0x81e6
	ldp x8, x13, [x0, #160]
	movk x14, #0x8278, lsl #32
	movk x15, #0xb821, lsl #32
	movk x14, #0xd05a, lsl #48
	movk x1, #0x2443, lsl #16
	movk x15, #0x4608, lsl #48
	movk x3, #0x263a, lsl #16
	add x14, x2, x14
	sub x15, x15, x2
	ldp x17, x18, [x0, #176]
	movk x1, #0xe08e, lsl #32
	movk x3, #0x3c4c, lsl #32
	eor x14, x14, x8
	eor x15, x15, x13
	movk x1, #0x9035, lsl #48
	movk x3, #0x5228, lsl #48
	mul x16, x15, x14
	add x8, x13, x8
	cmp x12, #0x2
	umulh x14, x15, x14
	add x15, x2, x1
	sub x1, x3, x2
	eor x15, x15, x17
	eor x1, x1, x18
	mul x3, x1, x15
	umulh x15, x1, x15
	eor x14, x14, x16
	add x16, x18, x17
	add x10, x10, x14
	eor x10, x10, x16
	eor x15, x15, x3
	add x11, x11, x15
	eor x11, x11, x8
	b.eq .L27_4a4
	mov x13, #0x91bb
	mov x14, #0x1b8b
	mov x18, #0xa297
	movk x13, #0xc3, lsl #16
	movk x14, #0x2e53, lsl #16
	mov x1, #0xa946
	ldp x8, x12, [x0, #192]
	movk x13, #0x88cb, lsl #32
	movk x14, #0x71a3, lsl #32
	movk x13, #0x65d0, lsl #48
	movk x18, #0xf90d, lsl #16
	movk x14, #0x4864, lsl #48
	movk x1, #0xacde, lsl #16
	add x13, x2, x13
	sub x14, x14, x2
	ldp x16, x17, [x0, #208]
	movk x18, #0x384e, lsl #32
	movk x1, #0xa8d8, lsl #32
	eor x13, x13, x8
	eor x14, x14, x12
	movk x18, #0xef19, lsl #48
	movk x1, #0x76fa, lsl #48
	mul x15, x14, x13
	add x8, x12, x8
	umulh x13, x14, x13
	add x14, x2, x18
	sub x18, x1, x2
	eor x14, x14, x16
	eor x18, x18, x17
	mul x1, x18, x14
	umulh x14, x18, x14
	eor x13, x13, x15
	add x10, x10, x13
	add x13, x17, x16
	eor x10, x10, x13
	eor x14, x14, x1
	add x11, x11, x14
	eor x11, x11, x8
.L27_4a4:
	mov x12, #0xc831
	mov x13, #0xea64
	add x8, x0, x4
	movk x12, #0x7e9f, lsl #16
	movk x13, #0xacc5, lsl #16
	mov x16, #0xf93f
	movk x12, #0xd9c9, lsl #32
	movk x13, #0x3483, lsl #32
	mov x18, #0x8a1d
	ldp x14, x15, [x8, #-32]
	movk x12, #0x7378, lsl #48
	movk x13, #0xebd3, lsl #48
	sub x12, x12, x2
	movk x16, #0xbbdc, lsl #16
	add x13, x2, x13
	movk x18, #0xe051, lsl #16
	movk x16, #0xc7c7, lsl #32
	eor x12, x14, x12
	eor x13, x15, x13
	movk x18, #0xcd4b, lsl #32
	ldp x0, x8, [x8, #-16]
	movk x16, #0x4f0b, lsl #48
	mul x17, x13, x12
	movk x18, #0x59b4, lsl #48
	sub x16, x16, x2
	add x18, x2, x18
	mov x1, #0xeb4f
	ldr x30, [sp, #16]
	.cfi_restore 30
	umulh x12, x13, x12
	eor x13, x0, x16
	eor x16, x8, x18
	movk x1, #0x27d4, lsl #16
	add x8, x8, x0
	mul x18, x16, x13
	movk x1, #0xae3d, lsl #32
	movk x1, #0xc2b2, lsl #48
	ldp x20, x19, [sp, #96]
	.cfi_restore 19
	.cfi_restore 20
	umulh x13, x16, x13
	sub x16, x4, x2
	eor x12, x12, x17
	ldp x22, x21, [sp, #80]
	.cfi_restore 21
	.cfi_restore 22
	add x11, x11, x12
	mov x12, #0xae63
	mul x16, x16, x1
	movk x12, #0xc2b2, lsl #16
	eor x8, x11, x8
	movk x12, #0xca77, lsl #32
	ldp x24, x23, [sp, #64]
	.cfi_restore 23
	.cfi_restore 24
	eor x11, x13, x18
	movk x12, #0x85eb, lsl #48
	add x13, x15, x14
	add x10, x10, x11
	mov x11, #0xca87
	madd x12, x8, x12, x16
	movk x11, #0x85eb, lsl #16
	eor x10, x10, x13
	movk x11, #0x79b1, lsl #32
	add x8, x10, x8
	movk x11, #0x9e37, lsl #48
	eor x8, x8, x8, lsr #37
	madd x11, x10, x11, x12
	ldp x26, x25, [sp, #48]
	.cfi_restore 25
	.cfi_restore 26
	ldp x28, x27, [sp, #32]
	.cfi_restore 27
	.cfi_restore 28
	mul x8, x8, x9
	eor x11, x11, x11, lsr #37
	mul x10, x11, x9
	eor x0, x8, x8, lsr #32
	eor x9, x10, x10, lsr #32
	neg x1, x9
	add sp, sp, #0x70
	.cfi_def_cfa_offset 0
	ret
	.cfi_endproc
	.size twox_core.width_128.oneshot_with_seed_129_to_240,.-twox_core.width_128.oneshot_with_seed_129_to_240
	.section .text.twox_core.width_128.oneshot_long_derived,"ax",@progbits
	.p2align 6
	.type twox_core.width_128.oneshot_long_derived,@function
twox_core.width_128.oneshot_long_derived:
	.cfi_startproc
	sub sp, sp, #0x120
	.cfi_def_cfa_offset 288
	fmov d0, x0
	adrp x8, .L96_330
	adrp x9, .L96_340
	ldr q2, [x9, #:lo12:.L96_340]
	adrp x9, .L96_360
	mov x3, x2
	ldr q4, [x9, #:lo12:.L96_360]
	mov x2, x1
	stp d15, d14, [sp, #192]
	.cfi_offset 78, -88
	.cfi_offset 79, -96
	neg v1.2d, v0.2d
	stp d13, d12, [sp, #208]
	.cfi_offset 76, -72
	.cfi_offset 77, -80
	stp d11, d10, [sp, #224]
	.cfi_offset 74, -56
	.cfi_offset 75, -64
	stp d9, d8, [sp, #240]
	.cfi_offset 72, -40
	.cfi_offset 73, -48
	zip1 v0.2d, v0.2d, v1.2d
	ldr q1, [x8, #:lo12:.L96_330]
	adrp x8, .L96_350
	ldr q3, [x8, #:lo12:.L96_350]
	adrp x8, .L96_370
	stp x29, x30, [sp, #256]
	.cfi_offset 29, -32
	.cfi_offset 30, -24
	ldr q5, [x8, #:lo12:.L96_370]
	adrp x8, .L96_380
	str x28, [sp, #272]
	.cfi_offset 28, -16
	ldr q6, [x8, #:lo12:.L96_380]
	adrp x8, .L96_390
	add x29, sp, #0x100
	add v2.2d, v0.2d, v2.2d
	ldr q7, [x8, #:lo12:.L96_390]
	adrp x8, .L96_3a0
	add v1.2d, v0.2d, v1.2d
	ldr q16, [x8, #:lo12:.L96_3a0]
	adrp x8, .L96_3b0
	add v4.2d, v0.2d, v4.2d
	ldr q17, [x8, #:lo12:.L96_3b0]
	add v3.2d, v0.2d, v3.2d
	adrp x8, .L96_3c0
	add v5.2d, v0.2d, v5.2d
	add v7.2d, v0.2d, v7.2d
	stp q1, q2, [sp]
	add v2.2d, v0.2d, v6.2d
	ldr q1, [x8, #:lo12:.L96_3c0]
	adrp x8, .L96_3e0
	stp q3, q4, [sp, #32]
	add v6.2d, v0.2d, v16.2d
	add v4.2d, v0.2d, v1.2d
	ldr q1, [x8, #:lo12:.L96_3e0]
	adrp x8, .L96_3d0
	stp q5, q2, [sp, #64]
	ldr q2, [x8, #:lo12:.L96_3d0]
	add v5.2d, v0.2d, v17.2d
	stp q7, q6, [sp, #96]
	add v6.2d, v0.2d, v1.2d
	lsr x8, x3, #10
	add v7.2d, v0.2d, v2.2d
	cmp x8, #0x1e
	stp q5, q4, [sp, #128]
	stp q7, q6, [sp, #160]
	b.hi .L28_130
	adrp x10, .L96_3f0
	cmp x3, #0x401
	adrp x13, .L96_400
	adrp x12, .L96_410
	adrp x11, .L96_420
	b.cs .L28_140
	ldr q0, [x10, #:lo12:.L96_3f0]
	ldr q1, [x13, #:lo12:.L96_400]
	mov x8, #0xffffffffffffffff
	ldr q2, [x12, #:lo12:.L96_410]
	ldr q3, [x11, #:lo12:.L96_420]
	mov x12, x2
	add x8, x3, x8
	add x9, x2, x3
	lsr x10, x8, #6
	mov x8, sp
	cbnz x10, .L28_3c0
	b .L28_448
.L28_130:
	mov x0, sp
	mov w1, #0xc0
	bl twox_core.width_128.oneshot_many
	b .L28_618
.L28_140:
	sub x8, x3, #0x1
	ldr q0, [x10, #:lo12:.L96_3f0]
	ldr q1, [x13, #:lo12:.L96_400]
	lsr x10, x8, #10
	ldr q2, [x12, #:lo12:.L96_410]
	ldr q3, [x11, #:lo12:.L96_420]
	mov x12, sp
	mov x9, xzr
	add x11, x2, #0x80
	add x12, x12, #0x20
.L28_168:
	mov x16, x12
	mov w13, #0x4
	mov x14, x11
	mov x15, x12
.L28_178:
	ldp q16, q17, [x16, #-32]
	subs x13, x13, #0x1
	ldp q21, q19, [x14, #-128]
	ldur q24, [x16, #-8]
	ldp q22, q20, [x14, #-64]
	ldur q18, [x16, #-24]
	ldr q8, [x16]
	ldur q11, [x16, #8]
	eor v23.16b, v17.16b, v19.16b
	eor v16.16b, v16.16b, v21.16b
	eor v25.16b, v24.16b, v20.16b
	ldp q27, q30, [x14]
	ldp q9, q10, [x14, #64]
	eor v18.16b, v18.16b, v22.16b
	shrn v28.2s, v23.2d, #32
	xtn v23.2s, v23.2d
	xtn v29.2s, v16.2d
	shrn v12.2s, v25.2d, #32
	xtn v25.2s, v25.2d
	shrn v26.2s, v16.2d, #32
	eor v14.16b, v8.16b, v30.16b
	eor v31.16b, v17.16b, v27.16b
	add v27.2d, v27.2d, v9.2d
	eor v17.16b, v24.16b, v9.16b
	shrn v13.2s, v18.2d, #32
	xtn v15.2s, v18.2d
	umlal v2.2d, v23.2s, v28.2s
	add v23.2d, v22.2d, v21.2d
	ldr q28, [x16, #16]
	ldp q21, q22, [x14, #-96]
	umlal v3.2d, v29.2s, v26.2s
	xtn v9.2s, v14.2d
	shrn v18.2s, v31.2d, #32
	shrn v24.2s, v14.2d, #32
	add v26.2d, v20.2d, v19.2d
	xtn v20.2s, v31.2d
	add v19.2d, v23.2d, v27.2d
	umlal v2.2d, v25.2s, v12.2s
	eor v25.16b, v28.16b, v22.16b
	eor v29.16b, v8.16b, v21.16b
	add v27.2d, v30.2d, v10.2d
	ldp q31, q30, [x14, #-32]
	eor v16.16b, v11.16b, v10.16b
	ldur q23, [x16, #24]
	umlal v3.2d, v15.2s, v13.2s
	shrn v8.2s, v29.2d, #32
	xtn v10.2s, v25.2d
	xtn v29.2s, v29.2d
	shrn v25.2s, v25.2d, #32
	umlal v2.2d, v9.2s, v24.2s
	eor v24.16b, v11.16b, v31.16b
	eor v9.16b, v23.16b, v30.16b
	ldp q11, q12, [x14, #32]
	ldr q13, [x15, #32]!
	add v26.2d, v26.2d, v27.2d
	umlal v0.2d, v10.2s, v25.2s
	umlal v1.2d, v29.2s, v8.2s
	xtn v15.2s, v24.2d
	ldp q25, q29, [x14, #96]
	shrn v14.2s, v9.2d, #32
	xtn v9.2s, v9.2d
	eor v13.16b, v13.16b, v12.16b
	eor v28.16b, v28.16b, v11.16b
	shrn v24.2s, v24.2d, #32
	add v21.2d, v31.2d, v21.2d
	add v22.2d, v30.2d, v22.2d
	add v27.2d, v11.2d, v25.2d
	add v30.2d, v12.2d, v29.2d
	umlal v3.2d, v20.2s, v18.2s
	shrn v31.2s, v28.2d, #32
	xtn v8.2s, v13.2d
	xtn v28.2s, v28.2d
	umlal v0.2d, v9.2s, v14.2s
	umlal v1.2d, v15.2s, v24.2s
	shrn v9.2s, v13.2d, #32
	add v21.2d, v21.2d, v27.2d
	add v22.2d, v22.2d, v30.2d
	ldur q24, [x16, #40]
	ext v18.16b, v26.16b, v26.16b, #8
	ext v19.16b, v19.16b, v19.16b, #8
	add x14, x14, #0x100
	eor v20.16b, v24.16b, v29.16b
	eor v23.16b, v23.16b, v25.16b
	mov x16, x15
	umlal v0.2d, v8.2s, v9.2s
	umlal v1.2d, v28.2s, v31.2s
	ext v22.16b, v22.16b, v22.16b, #8
	ext v21.16b, v21.16b, v21.16b, #8
	shrn v24.2s, v17.2d, #32
	shrn v25.2s, v16.2d, #32
	xtn v17.2s, v17.2d
	xtn v16.2s, v16.2d
	add v3.2d, v3.2d, v19.2d
	add v2.2d, v2.2d, v18.2d
	shrn v18.2s, v23.2d, #32
	xtn v19.2s, v23.2d
	xtn v23.2s, v20.2d
	shrn v20.2s, v20.2d, #32
	add v0.2d, v0.2d, v22.2d
	add v1.2d, v1.2d, v21.2d
	umlal v2.2d, v16.2s, v25.2s
	umlal v3.2d, v17.2s, v24.2s
	umlal v0.2d, v23.2s, v20.2s
	umlal v1.2d, v19.2s, v18.2s
	b.ne .L28_178
	ushr v16.2d, v2.2d, #47
	eor v2.16b, v4.16b, v2.16b
	adrp x13, .L96_430
	ushr v17.2d, v3.2d, #47
	eor v3.16b, v5.16b, v3.16b
	ldr q20, [x13, #:lo12:.L96_430]
	ushr v18.2d, v0.2d, #47
	eor v0.16b, v6.16b, v0.16b
	mov w13, #0x79b1
	ushr v19.2d, v1.2d, #47
	eor v1.16b, v7.16b, v1.16b
	movk w13, #0x9e37, lsl #16
	eor v16.16b, v2.16b, v16.16b
	eor v17.16b, v3.16b, v17.16b
	add x9, x9, #0x1
	eor v18.16b, v0.16b, v18.16b
	dup v21.2s, w13
	cmp x9, x10
	eor v19.16b, v1.16b, v19.16b
	add x11, x11, #0x400
	mul v2.4s, v16.4s, v20.4s
	mul v3.4s, v17.4s, v20.4s
	xtn v16.2s, v16.2d
	xtn v17.2s, v17.2d
	mul v0.4s, v18.4s, v20.4s
	xtn v18.2s, v18.2d
	mul v1.4s, v19.4s, v20.4s
	xtn v19.2s, v19.2d
	umlal v2.2d, v16.2s, v21.2s
	umlal v3.2d, v17.2s, v21.2s
	umlal v0.2d, v18.2s, v21.2s
	umlal v1.2d, v19.2s, v21.2s
	b.ne .L28_168
	and x8, x8, #0xfffffffffffffc00
	add x12, x2, x8
	mvn x8, x8
	add x8, x3, x8
	add x9, x2, x3
	lsr x10, x8, #6
	mov x8, sp
	cbz x10, .L28_448
.L28_3c0:
	mov x11, sp
	add x12, x12, #0x20
	add x11, x11, #0x20
.L28_3cc:
	ldp q4, q5, [x12, #-32]
	subs x10, x10, #0x1
	ldp q6, q7, [x11, #-32]
	ldp q17, q16, [x12], #64
	ldp q21, q20, [x11]
	ext v18.16b, v5.16b, v5.16b, #8
	ext v19.16b, v4.16b, v4.16b, #8
	eor v5.16b, v7.16b, v5.16b
	eor v4.16b, v6.16b, v4.16b
	ext v7.16b, v16.16b, v16.16b, #8
	ext v6.16b, v17.16b, v17.16b, #8
	add x11, x11, #0x8
	eor v17.16b, v21.16b, v17.16b
	eor v16.16b, v20.16b, v16.16b
	add v2.2d, v2.2d, v18.2d
	xtn v18.2s, v4.2d
	shrn v4.2s, v4.2d, #32
	add v3.2d, v3.2d, v19.2d
	shrn v19.2s, v5.2d, #32
	xtn v5.2s, v5.2d
	add v0.2d, v7.2d, v0.2d
	add v1.2d, v6.2d, v1.2d
	xtn v6.2s, v16.2d
	xtn v7.2s, v17.2d
	shrn v16.2s, v16.2d, #32
	shrn v17.2s, v17.2d, #32
	umlal v3.2d, v18.2s, v4.2s
	umlal v2.2d, v5.2s, v19.2s
	umlal v0.2d, v6.2s, v16.2s
	umlal v1.2d, v7.2s, v17.2s
	b.ne .L28_3cc
.L28_448:
	ldur q4, [x9, #-64]
	ldur q5, [sp, #121]
	mov x5, #0xca87
	ldur q7, [x8, #137]
	ldur q17, [x8, #153]
	movk x5, #0x85eb, lsl #16
	ext v6.16b, v4.16b, v4.16b, #8
	eor v4.16b, v5.16b, v4.16b
	ldur q5, [x9, #-48]
	movk x5, #0x79b1, lsl #32
	ext v16.16b, v5.16b, v5.16b, #8
	eor v5.16b, v7.16b, v5.16b
	movk x5, #0x9e37, lsl #48
	xtn v7.2s, v4.2d
	shrn v4.2s, v4.2d, #32
	add v3.2d, v6.2d, v3.2d
	ldur q6, [x9, #-32]
	xtn v18.2s, v5.2d
	shrn v5.2s, v5.2d, #32
	add v2.2d, v16.2d, v2.2d
	ldur q16, [x8, #169]
	umlal v3.2d, v7.2s, v4.2s
	ext v4.16b, v6.16b, v6.16b, #8
	eor v6.16b, v17.16b, v6.16b
	ldur q7, [x9, #-16]
	ldur q17, [sp, #11]
	mov x9, #0xeb4f
	umlal v2.2d, v18.2s, v5.2s
	movk x9, #0x27d4, lsl #16
	eor v5.16b, v16.16b, v7.16b
	xtn v16.2s, v6.2d
	ext v7.16b, v7.16b, v7.16b, #8
	shrn v6.2s, v6.2d, #32
	add v1.2d, v4.2d, v1.2d
	eor v17.16b, v3.16b, v17.16b
	ldur q4, [sp, #27]
	movk x9, #0xae3d, lsl #32
	movk x9, #0xc2b2, lsl #48
	umlal v1.2d, v16.2s, v6.2s
	xtn v6.2s, v5.2d
	shrn v5.2s, v5.2d, #32
	add v0.2d, v7.2d, v0.2d
	mov x10, v17.d[1]
	eor v4.16b, v2.16b, v4.16b
	ldur q7, [sp, #43]
	fmov x11, d17
	mul x9, x3, x9
	umlal v0.2d, v6.2s, v5.2s
	mov x12, v4.d[1]
	eor v5.16b, v1.16b, v7.16b
	mul x13, x11, x10
	ldur q6, [sp, #59]
	umulh x10, x11, x10
	fmov x11, d4
	mov x14, v5.d[1]
	eor v4.16b, v0.16b, v6.16b
	ldur q6, [sp, #117]
	mvn x9, x9
	mul x15, x11, x12
	eor v3.16b, v6.16b, v3.16b
	mov x16, v4.d[1]
	umulh x11, x11, x12
	fmov x12, d5
	ldur q5, [x8, #133]
	mov x18, v3.d[1]
	eor x10, x10, x13
	eor v2.16b, v5.16b, v2.16b
	madd x10, x3, x5, x10
	mul x17, x12, x14
	mov x1, v2.d[1]
	eor x11, x11, x15
	umulh x12, x12, x14
	fmov x14, d4
	mul x0, x14, x16
	umulh x14, x14, x16
	fmov x16, d3
	ldur q3, [x8, #149]
	eor x12, x12, x17
	eor v1.16b, v3.16b, v1.16b
	add x11, x11, x12
	mul x2, x16, x18
	umulh x16, x16, x18
	fmov x18, d2
	ldur q2, [x8, #165]
	mov x8, v1.d[1]
	eor x12, x14, x0
	eor v0.16b, v2.16b, v0.16b
	add x11, x11, x12
	mul x4, x18, x1
	add x10, x10, x11
	mov x11, #0x79f9
	movk x11, #0x9e37, lsl #16
	eor x10, x10, x10, lsr #37
	umulh x13, x18, x1
	fmov x18, d1
	mov x1, v0.d[1]
	eor x12, x16, x2
	movk x11, #0x6791, lsl #32
	add x9, x12, x9
	movk x11, #0x1656, lsl #48
	mul x3, x18, x8
	umulh x8, x18, x8
	fmov x18, d0
	eor x13, x13, x4
	mul x5, x18, x1
	umulh x15, x18, x1
	eor x8, x8, x3
	add x8, x13, x8
	add x8, x9, x8
	eor x9, x15, x5
	add x8, x8, x9
	mul x9, x10, x11
	eor x8, x8, x8, lsr #37
	mul x8, x8, x11
	eor x0, x9, x9, lsr #32
	eor x1, x8, x8, lsr #32
.L28_618:
	ldp x29, x30, [sp, #256]
	.cfi_restore 29
	.cfi_restore 30
	ldr x28, [sp, #272]
	.cfi_restore 28
	ldp d9, d8, [sp, #240]
	.cfi_restore 72
	.cfi_restore 73
	ldp d11, d10, [sp, #224]
	.cfi_restore 74
	.cfi_restore 75
	ldp d13, d12, [sp, #208]
	.cfi_restore 76
	.cfi_restore 77
	ldp d15, d14, [sp, #192]
	.cfi_restore 78
	.cfi_restore 79
	add sp, sp, #0x120
	.cfi_def_cfa_offset 0
	ret
	.cfi_endproc
	.size twox_core.width_128.oneshot_long_derived,.-twox_core.width_128.oneshot_long_derived
	.section .text.twox_core.xxhash3.streaming.stream_counts.StreamCounts.finish,"ax",@progbits
	.p2align 6
	.type twox_core.xxhash3.streaming.stream_counts.StreamCounts.finish,@function
twox_core.xxhash3.streaming.stream_counts.StreamCounts.finish:
	.cfi_startproc
	sub sp, sp, #0x90
	.cfi_def_cfa_offset 144
	stp x20, x19, [sp, #128]
	.cfi_offset 19, -8
	.cfi_offset 20, -16
	ldr x19, [x0, #88]
	stp x29, x30, [sp, #64]
	.cfi_offset 29, -80
	.cfi_offset 30, -72
	add x29, sp, #0x40
	cmp x19, #0xf0
	stp x26, x25, [sp, #80]
	.cfi_offset 25, -56
	.cfi_offset 26, -64
	stp x24, x23, [sp, #96]
	.cfi_offset 23, -40
	.cfi_offset 24, -48
	stp x22, x21, [sp, #112]
	.cfi_offset 21, -24
	.cfi_offset 22, -32
	b.ls .L29_b4
	ldr x20, [x0, #80]
	cmp x20, #0x3f
	b.hi .L29_188
	movi v0.2d, #0x0
	orr x8, x20, #0xc0
	mov w9, #0x100
	sub x22, x9, x8
	mov x23, x0
	mov x0, sp
	mov x21, x1
	add x1, x1, x8
	mov x2, x22
	mov x26, sp
	mov x24, x5
	mov x25, x4
	stp q0, q0, [sp]
	stp q0, q0, [sp, #32]
	bl memcpy
	add x0, x26, x22
	mov x1, x21
	mov x2, x20
	bl memcpy
	ldp q5, q4, [sp]
	mov x0, x23
	ldp q1, q0, [sp, #32]
	mov x4, x25
	mov x5, x24
	mov x1, x21
	sub x8, x20, #0x1
	ldp q3, q2, [x23, #32]
	ldp q7, q6, [x23]
	lsr x9, x8, #6
	and x8, x8, #0xffffffffffffffc0
	cbnz x9, .L29_1ac
	b .L29_2d8
.L29_b4:
	tbz w2, #0, .L29_570
	cmp x19, #0x10
	b.hi .L29_594
	cmp x19, #0x9
	b.cc .L29_654
	mov x10, #0x2349
	ldr x8, [x1]
	add x9, x1, x19
	movk x10, #0x3336, lsl #16
	ldur x9, [x9, #-8]
	mov x12, #0x3d58
	movk x10, #0x3f00, lsl #32
	movk x12, #0x92d6, lsl #16
	movk x10, #0x5997, lsl #48
	movk x12, #0x7976, lsl #32
	sub x10, x10, x3
	movk x12, #0xc202, lsl #48
	eor x8, x8, x10
	mov x10, #0xca87
	add x12, x3, x12
	movk x10, #0x85eb, lsl #16
	eor x8, x8, x9
	eor x9, x9, x12
	movk x10, #0x79b1, lsl #32
	movk x10, #0x9e37, lsl #48
	mul x11, x8, x10
	umulh x8, x8, x10
	mov w10, #0xca76
	movk w10, #0x85eb, lsl #16
	umaddl x9, w9, w10, x9
	add x10, x11, x19, lsl #54
	mov x11, #0xffc0000000000000
	add x10, x10, x11
	mov x11, #0xeb4f
	add x8, x9, x8
	movk x11, #0x27d4, lsl #16
	rev x9, x8
	movk x11, #0xae3d, lsl #32
	eor x9, x9, x10
	movk x11, #0xc2b2, lsl #48
	umulh x10, x9, x11
	mul x9, x9, x11
	madd x8, x8, x11, x10
	mov x10, #0x79f9
	movk x10, #0x9e37, lsl #16
	movk x10, #0x6791, lsl #32
	eor x9, x9, x9, lsr #37
	movk x10, #0x1656, lsl #48
	eor x8, x8, x8, lsr #37
	mul x9, x9, x10
	mul x8, x8, x10
	eor x0, x9, x9, lsr #32
	b .L29_550
.L29_188:
	add x8, x1, x20
	ldp q5, q4, [x8, #-64]
	ldp q1, q0, [x8, #-32]
	sub x8, x20, #0x1
	ldp q3, q2, [x0, #32]
	ldp q7, q6, [x0]
	lsr x9, x8, #6
	and x8, x8, #0xffffffffffffffc0
	cbz x9, .L29_2d8
.L29_1ac:
	sub x11, x5, #0x40
	ldr x13, [x0, #64]
	mov x12, x1
	lsr x10, x11, #3
	add x11, x4, x11
	b .L29_1d0
.L29_1c4:
	subs x9, x9, #0x1
	add x12, x12, #0x40
	b.eq .L29_2d8
.L29_1d0:
	add x14, x4, x13, lsl #3
	prfm pldl1keep, [x12, #320]
	add x13, x13, #0x1
	ldp q16, q17, [x12]
	cmp x13, x10
	ldp q18, q19, [x12, #32]
	ldp q22, q23, [x14]
	ldp q25, q26, [x14, #32]
	ext v20.16b, v17.16b, v17.16b, #8
	ext v21.16b, v16.16b, v16.16b, #8
	ext v24.16b, v18.16b, v18.16b, #8
	ext v27.16b, v19.16b, v19.16b, #8
	eor v17.16b, v23.16b, v17.16b
	eor v16.16b, v22.16b, v16.16b
	eor v19.16b, v26.16b, v19.16b
	eor v18.16b, v25.16b, v18.16b
	add v6.2d, v20.2d, v6.2d
	add v7.2d, v21.2d, v7.2d
	shrn v20.2s, v17.2d, #32
	xtn v17.2s, v17.2d
	xtn v21.2s, v16.2d
	xtn v22.2s, v18.2d
	xtn v23.2s, v19.2d
	add v3.2d, v24.2d, v3.2d
	add v2.2d, v27.2d, v2.2d
	shrn v16.2s, v16.2d, #32
	shrn v18.2s, v18.2d, #32
	shrn v19.2s, v19.2d, #32
	umlal v6.2d, v17.2s, v20.2s
	umlal v7.2d, v21.2s, v16.2s
	umlal v2.2d, v23.2s, v19.2s
	umlal v3.2d, v22.2s, v18.2s
	b.ne .L29_1c4
	ldp q16, q17, [x11]
	ushr v18.2d, v7.2d, #47
	ldp q19, q20, [x11, #32]
	ushr v21.2d, v6.2d, #47
	adrp x13, .L96_440
	eor v7.16b, v16.16b, v7.16b
	eor v6.16b, v17.16b, v6.16b
	ushr v16.2d, v2.2d, #47
	eor v2.16b, v20.16b, v2.16b
	ushr v17.2d, v3.2d, #47
	eor v3.16b, v19.16b, v3.16b
	ldr q20, [x13, #:lo12:.L96_440]
	mov w13, #0x79b1
	eor v18.16b, v18.16b, v7.16b
	eor v19.16b, v21.16b, v6.16b
	movk w13, #0x9e37, lsl #16
	eor v16.16b, v16.16b, v2.16b
	eor v17.16b, v17.16b, v3.16b
	dup v21.2s, w13
	mov x13, xzr
	mul v6.4s, v19.4s, v20.4s
	mul v7.4s, v18.4s, v20.4s
	xtn v19.2s, v19.2d
	xtn v18.2s, v18.2d
	mul v2.4s, v16.4s, v20.4s
	mul v3.4s, v17.4s, v20.4s
	xtn v16.2s, v16.2d
	xtn v17.2s, v17.2d
	umlal v6.2d, v19.2s, v21.2s
	umlal v7.2d, v18.2s, v21.2s
	umlal v3.2d, v17.2s, v21.2s
	umlal v2.2d, v16.2s, v21.2s
	b .L29_1c4
.L29_2d8:
	mvn x9, x8
	add x9, x20, x9
	lsr x9, x9, #6
	cbz x9, .L29_370
	add x8, x8, x1
	add x10, x4, #0x20
	add x8, x8, #0x20
.L29_2f4:
	ldp q16, q17, [x8, #-32]
	subs x9, x9, #0x1
	ldp q18, q19, [x10, #-32]
	ldp q21, q20, [x8], #64
	ldp q25, q24, [x10]
	ext v22.16b, v17.16b, v17.16b, #8
	ext v23.16b, v16.16b, v16.16b, #8
	eor v17.16b, v19.16b, v17.16b
	eor v16.16b, v18.16b, v16.16b
	ext v19.16b, v20.16b, v20.16b, #8
	ext v18.16b, v21.16b, v21.16b, #8
	add x10, x10, #0x8
	eor v21.16b, v25.16b, v21.16b
	eor v20.16b, v24.16b, v20.16b
	add v6.2d, v22.2d, v6.2d
	xtn v22.2s, v16.2d
	shrn v16.2s, v16.2d, #32
	add v7.2d, v23.2d, v7.2d
	shrn v23.2s, v17.2d, #32
	xtn v17.2s, v17.2d
	add v2.2d, v19.2d, v2.2d
	add v3.2d, v18.2d, v3.2d
	xtn v18.2s, v20.2d
	xtn v19.2s, v21.2d
	shrn v20.2s, v20.2d, #32
	shrn v21.2s, v21.2d, #32
	umlal v7.2d, v22.2s, v16.2s
	umlal v6.2d, v17.2s, v23.2s
	umlal v2.2d, v18.2s, v20.2s
	umlal v3.2d, v19.2s, v21.2s
	b.ne .L29_2f4
.L29_370:
	add x8, x4, x5
	ext v17.16b, v5.16b, v5.16b, #8
	ext v18.16b, v4.16b, v4.16b, #8
	ldur q16, [x8, #-71]
	cmp x5, #0x88
	eor v5.16b, v16.16b, v5.16b
	ldur q16, [x8, #-55]
	eor v16.16b, v16.16b, v4.16b
	add v4.2d, v7.2d, v17.2d
	ldur q17, [x8, #-39]
	xtn v19.2s, v5.2d
	shrn v5.2s, v5.2d, #32
	eor v17.16b, v17.16b, v1.16b
	xtn v7.2s, v16.2d
	umlal v4.2d, v19.2s, v5.2s
	add v5.2d, v6.2d, v18.2d
	shrn v6.2s, v16.2d, #32
	ldur q16, [x4, #11]
	ldur q18, [x8, #-23]
	umlal v5.2d, v7.2s, v6.2s
	ldur q7, [x4, #27]
	eor v18.16b, v18.16b, v0.16b
	eor v6.16b, v4.16b, v16.16b
	ext v16.16b, v1.16b, v1.16b, #8
	mov x9, v6.d[1]
	eor v7.16b, v5.16b, v7.16b
	fmov x10, d6
	ext v6.16b, v0.16b, v0.16b, #8
	add v1.2d, v3.2d, v16.2d
	xtn v3.2s, v18.2d
	mov x11, v7.d[1]
	mul x12, x10, x9
	add v0.2d, v2.2d, v6.2d
	xtn v2.2s, v17.2d
	shrn v6.2s, v17.2d, #32
	umulh x9, x10, x9
	fmov x10, d7
	shrn v7.2s, v18.2d, #32
	mul x13, x10, x11
	umlal v0.2d, v3.2s, v7.2s
	umlal v1.2d, v2.2s, v6.2s
	umulh x10, x10, x11
	mov x11, #0xca87
	eor x9, x9, x12
	movk x11, #0x85eb, lsl #16
	movk x11, #0x79b1, lsl #32
	movk x11, #0x9e37, lsl #48
	madd x9, x19, x11, x9
	eor x10, x10, x13
	add x0, x9, x10
	b.cc .L29_498
	ldur q2, [x4, #43]
	ldur q3, [x4, #59]
	eor v2.16b, v2.16b, v1.16b
	eor v3.16b, v3.16b, v0.16b
	mov x9, v2.d[1]
	fmov x10, d2
	mov x11, v3.d[1]
	mul x12, x10, x9
	umulh x9, x10, x9
	fmov x10, d3
	mul x13, x10, x11
	umulh x10, x10, x11
	eor x9, x9, x12
	eor x10, x10, x13
	add x9, x9, x10
	mov x10, #0x79f9
	add x9, x0, x9
	movk x10, #0x9e37, lsl #16
	eor x9, x9, x9, lsr #37
	movk x10, #0x6791, lsl #32
	movk x10, #0x1656, lsl #48
	mul x9, x9, x10
	eor x0, x9, x9, lsr #32
.L29_498:
	ldur q2, [x8, #-75]
	ldur q3, [x8, #-59]
	mov x10, #0xeb4f
	movk x10, #0x27d4, lsl #16
	cmp x5, #0x88
	eor v2.16b, v2.16b, v4.16b
	eor v3.16b, v3.16b, v5.16b
	movk x10, #0xae3d, lsl #32
	movk x10, #0xc2b2, lsl #48
	mul x10, x19, x10
	mov x9, v2.d[1]
	fmov x11, d2
	mov x12, v3.d[1]
	mul x13, x11, x9
	mvn x10, x10
	umulh x9, x11, x9
	fmov x11, d3
	mul x14, x11, x12
	umulh x11, x11, x12
	eor x9, x9, x13
	add x9, x9, x10
	eor x10, x11, x14
	add x1, x9, x10
	b.cc .L29_554
	ldur q2, [x8, #-43]
	eor v1.16b, v2.16b, v1.16b
	ldur q2, [x8, #-27]
	eor v0.16b, v2.16b, v0.16b
	mov x8, v1.d[1]
	fmov x9, d1
	mov x10, v0.d[1]
	mul x11, x9, x8
	umulh x8, x9, x8
	fmov x9, d0
	mul x12, x9, x10
	umulh x9, x9, x10
	eor x8, x8, x11
	eor x9, x9, x12
	add x8, x8, x9
	mov x9, #0x79f9
	add x8, x1, x8
	movk x9, #0x9e37, lsl #16
	eor x8, x8, x8, lsr #37
	movk x9, #0x6791, lsl #32
	movk x9, #0x1656, lsl #48
	mul x8, x8, x9
.L29_550:
	eor x1, x8, x8, lsr #32
.L29_554:
	ldp x20, x19, [sp, #128]
	.cfi_restore 19
	.cfi_restore 20
	ldp x22, x21, [sp, #112]
	.cfi_restore 21
	.cfi_restore 22
	ldp x24, x23, [sp, #96]
	.cfi_restore 23
	.cfi_restore 24
	ldp x26, x25, [sp, #80]
	.cfi_restore 25
	.cfi_restore 26
	ldp x29, x30, [sp, #64]
	.cfi_restore 29
	.cfi_restore 30
	add sp, sp, #0x90
	.cfi_def_cfa_offset 0
	ret
	.cfi_def_cfa_offset 144
	.cfi_offset 19, -8
	.cfi_offset 20, -16
	.cfi_offset 21, -24
	.cfi_offset 22, -32
	.cfi_offset 23, -40
	.cfi_offset 24, -48
	.cfi_offset 25, -56
	.cfi_offset 26, -64
	.cfi_offset 29, -80
	.cfi_offset 30, -72
.L29_570:
	mov x2, x19
	ldp x20, x19, [sp, #128]
	.cfi_restore 19
	.cfi_restore 20
	ldp x22, x21, [sp, #112]
	.cfi_restore 21
	.cfi_restore 22
	mov x0, x4
	ldp x24, x23, [sp, #96]
	.cfi_restore 23
	.cfi_restore 24
	ldp x26, x25, [sp, #80]
	.cfi_restore 25
	.cfi_restore 26
	ldp x29, x30, [sp, #64]
	.cfi_restore 29
	.cfi_restore 30
	add sp, sp, #0x90
	.cfi_def_cfa_offset 0
	b twox_core.xxhash3.streaming.stream_counts.finish_keyed
	.cfi_def_cfa_offset 144
	.cfi_offset 19, -8
	.cfi_offset 20, -16
	.cfi_offset 21, -24
	.cfi_offset 22, -32
	.cfi_offset 23, -40
	.cfi_offset 24, -48
	.cfi_offset 25, -56
	.cfi_offset 26, -64
	.cfi_offset 29, -80
	.cfi_offset 30, -72
.L29_594:
	cmp x19, #0x40
	b.hi .L29_6e8
	mov x8, #0xca87
	cmp x19, #0x21
	movk x8, #0x85eb, lsl #16
	movk x8, #0x79b1, lsl #32
	movk x8, #0x9e37, lsl #48
	mul x9, x19, x8
	b.cc .L29_7a8
	mov x12, #0x79cb
	mov x13, #0x5a82
	mov x17, #0x8b8
	movk x12, #0x4ee6, lsl #16
	movk x13, #0x7dd0, lsl #16
	mov x18, #0x35e0
	ldp x10, x11, [x1, #16]
	movk x12, #0xc0cc, lsl #32
	movk x13, #0xffcc, lsl #32
	movk x12, #0x78e5, lsl #48
	add x14, x1, x19
	movk x13, #0x2172, lsl #48
	movk x17, #0x7446, lsl #16
	movk x18, #0xe690, lsl #16
	add x12, x3, x12
	sub x13, x13, x3
	movk x17, #0x43f7, lsl #32
	ldp x16, x14, [x14, #-32]
	movk x18, #0x3a81, lsl #32
	eor x12, x10, x12
	eor x13, x11, x13
	movk x17, #0x8e24, lsl #48
	movk x18, #0x4c26, lsl #48
	mul x15, x13, x12
	add x10, x11, x10
	umulh x12, x13, x12
	add x13, x3, x17
	sub x17, x18, x3
	eor x13, x16, x13
	eor x17, x14, x17
	mul x18, x17, x13
	umulh x13, x17, x13
	eor x12, x12, x15
	add x9, x9, x12
	add x12, x14, x16
	eor x9, x9, x12
	eor x13, x13, x18
	eor x10, x10, x13
	b .L29_7ac
.L29_654:
	cmp x19, #0x4
	b.cc .L29_8a0
	add x8, x1, x19
	ldr w9, [x1]
	mov x11, #0x94ac
	ldur w8, [x8, #-4]
	rev w10, w3
	movk x11, #0x4dc9, lsl #16
	eor x10, x3, x10, lsl #32
	movk x11, #0x2334, lsl #32
	orr x8, x9, x8, lsl #32
	mov x9, #0xca87
	movk x11, #0xc4f0, lsl #48
	movk x9, #0x85eb, lsl #16
	add x10, x10, x11
	movk x9, #0x79b1, lsl #32
	eor x8, x8, x10
	movk x9, #0x9e37, lsl #48
	add x9, x9, x19, lsl #2
	mul x10, x8, x9
	umulh x8, x8, x9
	add x8, x8, x10, lsl #1
	eor x9, x10, x8, lsr #3
	mov x10, #0xdf25
	eor x8, x8, x8, lsr #37
	movk x10, #0x1e98, lsl #16
	eor x9, x9, x9, lsr #35
	movk x10, #0x1c65, lsl #32
	movk x10, #0x9fb2, lsl #48
	mul x9, x9, x10
	mov x10, #0x79f9
	movk x10, #0x9e37, lsl #16
	movk x10, #0x6791, lsl #32
	movk x10, #0x1656, lsl #48
	mul x8, x8, x10
	eor x0, x9, x9, lsr #28
	b .L29_550
.L29_6e8:
	cmp x19, #0x80
	b.hi .L29_91c
	mov x8, #0xca87
	cmp x19, #0x61
	movk x8, #0x85eb, lsl #16
	movk x8, #0x79b1, lsl #32
	movk x8, #0x9e37, lsl #48
	mul x9, x19, x8
	b.cc .L29_938
	mov x12, #0xfaa8
	mov x13, #0xdcf9
	mov x17, #0x518a
	movk x12, #0x3f76, lsl #16
	movk x13, #0xc7bb, lsl #16
	mov x18, #0x9fc8
	ldp x10, x11, [x1, #48]
	movk x12, #0x9ce3, lsl #32
	movk x13, #0xbc7, lsl #32
	movk x12, #0x3f34, lsl #48
	add x14, x1, x19
	movk x13, #0x1d4f, lsl #48
	movk x17, #0x4be0, lsl #16
	movk x18, #0xc97e, lsl #16
	add x12, x3, x12
	sub x13, x13, x3
	movk x17, #0xb4cd, lsl #32
	ldp x16, x14, [x14, #-64]
	movk x18, #0x78d9, lsl #32
	eor x12, x12, x10
	eor x13, x13, x11
	movk x17, #0x3159, lsl #48
	movk x18, #0x6473, lsl #48
	mul x15, x13, x12
	add x10, x11, x10
	umulh x12, x13, x12
	add x13, x3, x17
	sub x17, x18, x3
	eor x13, x13, x16
	eor x17, x17, x14
	mul x18, x17, x13
	umulh x13, x17, x13
	eor x12, x12, x15
	add x9, x9, x12
	add x12, x14, x16
	eor x9, x9, x12
	eor x13, x13, x18
	eor x10, x10, x13
	b .L29_93c
.L29_7a8:
	mov x10, xzr
.L29_7ac:
	mov x12, #0xd4de
	mov x13, #0x4072
	add x11, x1, x19
	movk x12, #0xe96d, lsl #16
	movk x13, #0xa4a4, lsl #16
	mov x18, #0xfeb8
	movk x12, #0x9083, lsl #32
	movk x13, #0xb3b7, lsl #32
	mov x0, #0x17c
	ldp x14, x11, [x11, #-16]
	movk x12, #0xdb97, lsl #48
	movk x13, #0x1f67, lsl #48
	add x12, x3, x12
	movk x18, #0x396c, lsl #16
	sub x13, x13, x3
	movk x0, #0x2c81, lsl #16
	movk x18, #0xa423, lsl #32
	eor x12, x14, x12
	eor x13, x11, x13
	movk x0, #0x21f7, lsl #32
	mul x15, x13, x12
	ldp x16, x17, [x1]
	movk x18, #0xbe4b, lsl #48
	movk x0, #0x1cad, lsl #48
	mov x1, #0xeb4f
	umulh x12, x13, x12
	add x18, x3, x18
	sub x0, x0, x3
	eor x13, x16, x18
	eor x18, x17, x0
	movk x1, #0x27d4, lsl #16
	mul x0, x18, x13
	movk x1, #0xae3d, lsl #32
	add x11, x11, x14
	movk x1, #0xc2b2, lsl #48
	umulh x13, x18, x13
	sub x18, x19, x3
	eor x12, x12, x15
	add x15, x17, x16
	add x10, x10, x12
	mov x12, #0xae63
	mul x18, x18, x1
	movk x12, #0xc2b2, lsl #16
	eor x10, x10, x15
	movk x12, #0xca77, lsl #32
	movk x12, #0x85eb, lsl #48
	eor x13, x13, x0
	madd x12, x10, x12, x18
	add x9, x9, x13
	eor x9, x9, x11
	mov x11, #0x79f9
	movk x11, #0x9e37, lsl #16
	madd x8, x9, x8, x12
	add x9, x9, x10
	movk x11, #0x6791, lsl #32
	eor x9, x9, x9, lsr #37
	movk x11, #0x1656, lsl #48
	mul x9, x9, x11
	eor x8, x8, x8, lsr #37
	mul x8, x8, x11
	b .L29_b5c
.L29_8a0:
	mov x9, #0xeb4f
	mov x8, #0x79f9
	movk x9, #0x27d4, lsl #16
	movk x8, #0x9e37, lsl #16
	movk x9, #0xae3d, lsl #32
	movk x8, #0x67b1, lsl #32
	movk x9, #0xc2b2, lsl #48
	movk x8, #0x1656, lsl #48
	cbz x19, .L29_b6c
	add x10, x1, x19
	ldrb w11, [x1]
	lsr x12, x19, #1
	ldurb w10, [x10, #-1]
	mov w13, #0x208b
	movk w13, #0x302c, lsl #16
	orr w10, w10, w19, lsl #8
	sub x13, x13, x3
	orr w10, w10, w11, lsl #16
	ldrb w11, [x1, x12]
	orr w10, w10, w11, lsl #24
	mov w11, #0x5a9b
	movk w11, #0x8727, lsl #16
	add x11, x3, x11
	rev w12, w10
	ror w12, w12, #19
	eor x10, x10, x11, lsr #33
	eor x10, x10, x11
	eor x11, x12, x13, lsr #33
	mul x10, x10, x9
	eor x11, x11, x13
	b .L29_ba0
.L29_91c:
	adrp x0, .L98_0
	add x0, x0, :lo12:.L98_0
	mov x2, x1
	mov x1, x3
	mov x3, x19
	bl twox_core.width_128.short_129_to_240
	b .L29_554
.L29_938:
	mov x10, xzr
.L29_93c:
	mov x13, #0x283c
	mov x14, #0xd088
	mov x17, #0x6471
	movk x13, #0xbb52, lsl #16
	movk x14, #0x8b65, lsl #16
	mov x2, #0x1938
	ldp x11, x12, [x1, #32]
	movk x13, #0xc391, lsl #32
	movk x14, #0x531b, lsl #32
	movk x13, #0xcb00, lsl #48
	add x0, x1, x19
	movk x14, #0xa32e, lsl #48
	movk x17, #0x9748, lsl #16
	movk x2, #0x46ef, lsl #16
	add x13, x3, x13
	sub x14, x14, x3
	movk x17, #0xda2, lsl #32
	ldp x15, x16, [x0, #-48]
	movk x2, #0xdea9, lsl #32
	eor x13, x13, x11
	eor x14, x14, x12
	movk x17, #0x4ef9, lsl #48
	movk x2, #0xd8ac, lsl #48
	mov x20, #0x8b8
	mul x18, x14, x13
	mov x6, #0x35e0
	movk x20, #0x7446, lsl #16
	mov x22, #0x5a82
	umulh x7, x14, x13
	add x13, x3, x17
	sub x14, x2, x3
	eor x2, x13, x15
	eor x4, x14, x16
	movk x6, #0xe690, lsl #16
	movk x20, #0x43f7, lsl #32
	ldp x14, x13, [x0, #-32]
	movk x6, #0x3a81, lsl #32
	movk x20, #0x8e24, lsl #48
	mov x23, #0x79cb
	mul x17, x4, x2
	movk x6, #0x4c26, lsl #48
	movk x22, #0x7dd0, lsl #16
	movk x23, #0x4ee6, lsl #16
	movk x22, #0xffcc, lsl #32
	mov x24, #0xd4de
	umulh x5, x4, x2
	add x4, x3, x20
	sub x2, x6, x3
	eor x21, x4, x14
	ldp x6, x4, [x1, #16]
	movk x23, #0xc0cc, lsl #32
	mov x25, #0x4072
	eor x20, x2, x13
	movk x22, #0x2172, lsl #48
	movk x23, #0x78e5, lsl #48
	movk x24, #0xe96d, lsl #16
	movk x25, #0xa4a4, lsl #16
	mul x2, x20, x21
	movk x24, #0x9083, lsl #32
	movk x25, #0xb3b7, lsl #32
	movk x24, #0xdb97, lsl #48
	mov x26, #0x17c
	umulh x20, x20, x21
	sub x21, x22, x3
	add x22, x3, x23
	eor x21, x21, x4
	eor x22, x22, x6
	eor x23, x7, x18
	ldp x18, x0, [x0, #-16]
	movk x25, #0x1f67, lsl #48
	mul x7, x21, x22
	movk x26, #0x2c81, lsl #16
	add x9, x9, x23
	movk x26, #0x21f7, lsl #32
	add x15, x16, x15
	eor x17, x5, x17
	umulh x21, x21, x22
	add x22, x3, x24
	sub x24, x25, x3
	mov x25, #0xfeb8
	eor x22, x18, x22
	eor x23, x0, x24
	movk x25, #0x396c, lsl #16
	ldp x24, x1, [x1]
	movk x25, #0xa423, lsl #32
	mul x16, x23, x22
	movk x26, #0x1cad, lsl #48
	movk x25, #0xbe4b, lsl #48
	add x10, x10, x17
	add x11, x12, x11
	umulh x22, x23, x22
	add x23, x3, x25
	sub x25, x26, x3
	mov x17, #0xeb4f
	eor x5, x24, x23
	eor x23, x1, x25
	eor x10, x10, x11
	eor x11, x20, x2
	movk x17, #0x27d4, lsl #16
	mul x12, x23, x5
	eor x9, x9, x15
	add x10, x10, x11
	add x11, x4, x6
	movk x17, #0xae3d, lsl #32
	add x13, x13, x14
	umulh x15, x23, x5
	eor x10, x10, x11
	sub x11, x19, x3
	movk x17, #0xc2b2, lsl #48
	mov x14, #0xae63
	eor x16, x22, x16
	mul x11, x11, x17
	movk x14, #0xc2b2, lsl #16
	eor x2, x21, x7
	add x10, x10, x16
	add x16, x1, x24
	movk x14, #0xca77, lsl #32
	add x9, x9, x2
	eor x10, x10, x16
	movk x14, #0x85eb, lsl #48
	eor x9, x9, x13
	eor x12, x15, x12
	madd x11, x10, x14, x11
	add x9, x9, x12
	add x12, x0, x18
	eor x9, x9, x12
	madd x8, x9, x8, x11
	add x9, x9, x10
	mov x10, #0x79f9
	movk x10, #0x9e37, lsl #16
	eor x9, x9, x9, lsr #37
	movk x10, #0x6791, lsl #32
	movk x10, #0x1656, lsl #48
	mul x9, x9, x10
	eor x8, x8, x8, lsr #37
	mul x8, x8, x10
.L29_b5c:
	eor x8, x8, x8, lsr #32
	eor x0, x9, x9, lsr #32
	neg x1, x8
	b .L29_554
.L29_b6c:
	mov x10, #0xf8b4
	mov x11, #0x7d49
	movk x10, #0x3037, lsl #16
	movk x11, #0xd1a7, lsl #16
	movk x10, #0x908a, lsl #32
	movk x11, #0xd30b, lsl #32
	movk x10, #0x682e, lsl #48
	movk x11, #0x9655, lsl #48
	eor x10, x3, x10
	eor x11, x3, x11
	eor x10, x10, x10, lsr #33
	eor x11, x11, x11, lsr #33
	mul x10, x10, x9
.L29_ba0:
	mul x9, x11, x9
	eor x10, x10, x10, lsr #29
	mul x10, x10, x8
	eor x9, x9, x9, lsr #29
	mul x8, x9, x8
	eor x0, x10, x10, lsr #32
	b .L29_550
	.cfi_endproc
	.size twox_core.xxhash3.streaming.stream_counts.StreamCounts.finish,.-twox_core.xxhash3.streaming.stream_counts.StreamCounts.finish
	.section .text.twox_core.xxhash3.streaming.stream_counts.finish_keyed,"ax",@progbits
	.p2align 6
	.type twox_core.xxhash3.streaming.stream_counts.finish_keyed,@function
twox_core.xxhash3.streaming.stream_counts.finish_keyed:
	.cfi_startproc
	mov x3, x2
	mov x2, x1
	cmp x3, #0x10
	b.hi .L30_c4
	cmp x3, #0x9
	b.cc .L30_13c
	ldp x9, x11, [x0, #32]
	add x10, x2, x3
	ldr x8, [x2]
	ldur x10, [x10, #-8]
	eor x8, x8, x9
	mov x9, #0xca87
	movk x9, #0x85eb, lsl #16
	eor x8, x8, x11
	movk x9, #0x79b1, lsl #32
	eor x8, x8, x10
	movk x9, #0x9e37, lsl #48
	ldp x11, x12, [x0, #48]
	mul x13, x8, x9
	eor x11, x11, x12
	umulh x8, x8, x9
	mov w9, #0xca76
	movk w9, #0x85eb, lsl #16
	eor x10, x11, x10
	mov x11, #0xffc0000000000000
	umaddl x9, w10, w9, x10
	add x10, x13, x3, lsl #54
	add x10, x10, x11
	mov x11, #0xeb4f
	add x8, x9, x8
	movk x11, #0x27d4, lsl #16
	rev x9, x8
	movk x11, #0xae3d, lsl #32
	eor x9, x9, x10
	movk x11, #0xc2b2, lsl #48
	umulh x10, x9, x11
	mul x9, x9, x11
	madd x8, x8, x11, x10
	mov x10, #0x79f9
	movk x10, #0x9e37, lsl #16
	movk x10, #0x6791, lsl #32
	eor x9, x9, x9, lsr #37
	movk x10, #0x1656, lsl #48
	eor x8, x8, x8, lsr #37
	mul x9, x9, x10
	mul x8, x8, x10
	eor x0, x9, x9, lsr #32
	eor x1, x8, x8, lsr #32
	ret
.L30_c4:
	cmp x3, #0x40
	b.hi .L30_1c0
	mov x8, #0xca87
	cmp x3, #0x21
	movk x8, #0x85eb, lsl #16
	movk x8, #0x79b1, lsl #32
	movk x8, #0x9e37, lsl #48
	mul x9, x3, x8
	b.cc .L30_254
	ldp x10, x11, [x2, #16]
	add x14, x2, x3
	ldp x12, x13, [x0, #32]
	ldp x16, x17, [x0, #48]
	ldp x18, x14, [x14, #-32]
	eor x12, x12, x10
	eor x13, x13, x11
	add x10, x11, x10
	mul x15, x13, x12
	umulh x12, x13, x12
	eor x13, x16, x18
	eor x16, x17, x14
	mul x17, x16, x13
	umulh x13, x16, x13
	eor x12, x12, x15
	add x9, x9, x12
	add x12, x14, x18
	eor x9, x9, x12
	eor x13, x13, x17
	eor x10, x10, x13
	b .L30_258
.L30_13c:
	cmp x3, #0x4
	b.cc .L30_30c
	add x8, x2, x3
	ldr w9, [x2]
	ldur w8, [x8, #-4]
	ldp x10, x11, [x0, #16]
	orr x8, x9, x8, lsl #32
	mov x9, #0xca87
	movk x9, #0x85eb, lsl #16
	eor x10, x11, x10
	movk x9, #0x79b1, lsl #32
	eor x8, x10, x8
	movk x9, #0x9e37, lsl #48
	add x9, x9, x3, lsl #2
	mul x10, x8, x9
	umulh x8, x8, x9
	add x8, x8, x10, lsl #1
	eor x9, x10, x8, lsr #3
	mov x10, #0xdf25
	eor x8, x8, x8, lsr #37
	movk x10, #0x1e98, lsl #16
	eor x9, x9, x9, lsr #35
	movk x10, #0x1c65, lsl #32
	movk x10, #0x9fb2, lsl #48
	mul x9, x9, x10
	mov x10, #0x79f9
	movk x10, #0x9e37, lsl #16
	movk x10, #0x6791, lsl #32
	movk x10, #0x1656, lsl #48
	mul x8, x8, x10
	eor x0, x9, x9, lsr #28
	eor x1, x8, x8, lsr #32
	ret
.L30_1c0:
	stp x29, x30, [sp, #-96]!
	.cfi_def_cfa_offset 96
	.cfi_offset 29, -96
	.cfi_offset 30, -88
	cmp x3, #0x80
	stp x28, x27, [sp, #16]
	.cfi_offset 27, -72
	.cfi_offset 28, -80
	mov x29, sp
	stp x26, x25, [sp, #32]
	.cfi_offset 25, -56
	.cfi_offset 26, -64
	stp x24, x23, [sp, #48]
	.cfi_offset 23, -40
	.cfi_offset 24, -48
	stp x22, x21, [sp, #64]
	.cfi_offset 21, -24
	.cfi_offset 22, -32
	stp x20, x19, [sp, #80]
	.cfi_offset 19, -8
	.cfi_offset 20, -16
	b.hi .L30_390
	mov x8, #0xca87
	cmp x3, #0x61
	movk x8, #0x85eb, lsl #16
	movk x8, #0x79b1, lsl #32
	movk x8, #0x9e37, lsl #48
	mul x9, x3, x8
	b.cc .L30_39c
	ldp x10, x11, [x2, #48]
	add x14, x2, x3
	ldp x12, x13, [x0, #96]
	ldp x16, x17, [x0, #112]
	ldp x18, x14, [x14, #-64]
	eor x12, x12, x10
	eor x13, x13, x11
	add x10, x11, x10
	mul x15, x13, x12
	umulh x12, x13, x12
	eor x13, x16, x18
	eor x16, x17, x14
	mul x17, x16, x13
	umulh x13, x16, x13
	eor x12, x12, x15
	add x9, x9, x12
	add x12, x14, x18
	eor x9, x9, x12
	eor x13, x13, x17
	eor x10, x10, x13
	b .L30_3a0
	.cfi_def_cfa_offset 0
	.cfi_restore 19
	.cfi_restore 20
	.cfi_restore 21
	.cfi_restore 22
	.cfi_restore 23
	.cfi_restore 24
	.cfi_restore 25
	.cfi_restore 26
	.cfi_restore 27
	.cfi_restore 28
	.cfi_restore 29
	.cfi_restore 30
.L30_254:
	mov x10, xzr
.L30_258:
	ldp x11, x12, [x2]
	add x15, x2, x3
	ldp x13, x14, [x0]
	ldp x17, x18, [x0, #16]
	ldp x0, x15, [x15, #-16]
	eor x13, x13, x11
	eor x14, x14, x12
	add x11, x12, x11
	mul x16, x14, x13
	mov x12, #0xae63
	movk x12, #0xc2b2, lsl #16
	umulh x13, x14, x13
	eor x14, x17, x0
	eor x17, x18, x15
	add x15, x15, x0
	movk x12, #0xca77, lsl #32
	mul x18, x17, x14
	movk x12, #0x85eb, lsl #48
	umulh x14, x17, x14
	mov x17, #0xeb4f
	movk x17, #0x27d4, lsl #16
	eor x13, x13, x16
	movk x17, #0xae3d, lsl #32
	add x9, x9, x13
	movk x17, #0xc2b2, lsl #48
	eor x9, x9, x15
	mul x16, x3, x17
	eor x13, x14, x18
	add x10, x10, x13
	madd x8, x9, x8, x16
	eor x10, x10, x11
	mov x11, #0x79f9
	movk x11, #0x9e37, lsl #16
	add x9, x10, x9
	movk x11, #0x6791, lsl #32
	eor x9, x9, x9, lsr #37
	madd x8, x10, x12, x8
	movk x11, #0x1656, lsl #48
	mul x9, x9, x11
	eor x8, x8, x8, lsr #37
	mul x8, x8, x11
	eor x0, x9, x9, lsr #32
	eor x8, x8, x8, lsr #32
	neg x1, x8
	ret
.L30_30c:
	mov x9, #0xeb4f
	mov x8, #0x79f9
	movk x9, #0x27d4, lsl #16
	movk x8, #0x9e37, lsl #16
	movk x9, #0xae3d, lsl #32
	movk x8, #0x67b1, lsl #32
	movk x9, #0xc2b2, lsl #48
	movk x8, #0x1656, lsl #48
	cbz x3, .L30_50c
	add x10, x2, x3
	ldrb w11, [x2]
	lsr x12, x3, #1
	ldurb w10, [x10, #-1]
	orr w10, w10, w3, lsl #8
	orr w10, w10, w11, lsl #16
	ldrb w11, [x2, x12]
	ldp w12, w13, [x0]
	orr w10, w10, w11, lsl #24
	ldp w11, w14, [x0, #8]
	eor w12, w13, w12
	eor w12, w12, w10
	rev w10, w10
	eor w11, w14, w11
	eor w10, w11, w10, ror #19
	mul x11, x12, x9
	mul x9, x10, x9
	eor x10, x11, x11, lsr #29
	mul x10, x10, x8
	eor x9, x9, x9, lsr #29
	mul x8, x9, x8
	eor x0, x10, x10, lsr #32
	eor x1, x8, x8, lsr #32
	ret
	.cfi_def_cfa_offset 96
	.cfi_offset 19, -8
	.cfi_offset 20, -16
	.cfi_offset 21, -24
	.cfi_offset 22, -32
	.cfi_offset 23, -40
	.cfi_offset 24, -48
	.cfi_offset 25, -56
	.cfi_offset 26, -64
	.cfi_offset 27, -72
	.cfi_offset 28, -80
	.cfi_offset 29, -96
	.cfi_offset 30, -88
.L30_390:
	mov x1, xzr
	bl twox_core.width_128.short_129_to_240
	b .L30_4f0
.L30_39c:
	mov x10, xzr
.L30_3a0:
	ldp x11, x12, [x2, #32]
	add x1, x2, x3
	ldp x13, x14, [x0, #64]
	ldp x17, x4, [x0, #80]
	ldp x16, x18, [x1, #-48]
	eor x15, x13, x11
	eor x14, x14, x12
	add x11, x12, x11
	mul x13, x14, x15
	ldp x19, x7, [x1, #-32]
	ldp x23, x22, [x0, #32]
	umulh x5, x14, x15
	eor x14, x17, x16
	eor x15, x4, x18
	ldp x6, x17, [x0, #48]
	add x16, x18, x16
	mul x4, x15, x14
	ldp x25, x26, [x0]
	ldp x27, x1, [x1, #-16]
	umulh x20, x15, x14
	eor x21, x17, x7
	eor x6, x6, x19
	ldp x17, x15, [x2, #16]
	eor x13, x5, x13
	ldp x24, x2, [x2]
	mul x14, x21, x6
	ldp x28, x0, [x0, #16]
	add x9, x9, x13
	umulh x6, x21, x6
	eor x21, x22, x15
	eor x22, x23, x17
	eor x18, x20, x4
	eor x9, x9, x16
	mul x23, x21, x22
	eor x13, x28, x27
	eor x0, x0, x1
	add x10, x10, x18
	umulh x21, x21, x22
	eor x22, x25, x24
	eor x25, x26, x2
	eor x10, x10, x11
	eor x14, x6, x14
	mul x26, x25, x22
	add x10, x10, x14
	add x14, x15, x17
	eor x10, x10, x14
	umulh x5, x25, x22
	eor x11, x21, x23
	mul x4, x0, x13
	add x9, x9, x11
	add x11, x7, x19
	eor x9, x9, x11
	umulh x12, x0, x13
	mov x13, #0xeb4f
	movk x13, #0x27d4, lsl #16
	eor x11, x5, x26
	movk x13, #0xae3d, lsl #32
	add x9, x9, x11
	add x11, x1, x27
	movk x13, #0xc2b2, lsl #48
	eor x9, x9, x11
	mul x13, x3, x13
	eor x11, x12, x4
	add x10, x10, x11
	add x11, x2, x24
	eor x10, x10, x11
	mov x11, #0xae63
	madd x8, x9, x8, x13
	movk x11, #0xc2b2, lsl #16
	add x9, x10, x9
	movk x11, #0xca77, lsl #32
	eor x9, x9, x9, lsr #37
	movk x11, #0x85eb, lsl #48
	madd x8, x10, x11, x8
	mov x10, #0x79f9
	movk x10, #0x9e37, lsl #16
	movk x10, #0x6791, lsl #32
	movk x10, #0x1656, lsl #48
	mul x9, x9, x10
	eor x8, x8, x8, lsr #37
	mul x8, x8, x10
	eor x0, x9, x9, lsr #32
	eor x8, x8, x8, lsr #32
	neg x1, x8
.L30_4f0:
	ldp x20, x19, [sp, #80]
	.cfi_restore 19
	.cfi_restore 20
	ldp x22, x21, [sp, #64]
	.cfi_restore 21
	.cfi_restore 22
	ldp x24, x23, [sp, #48]
	.cfi_restore 23
	.cfi_restore 24
	ldp x26, x25, [sp, #32]
	.cfi_restore 25
	.cfi_restore 26
	ldp x28, x27, [sp, #16]
	.cfi_restore 27
	.cfi_restore 28
	ldp x29, x30, [sp], #96
	.cfi_def_cfa_offset 0
	.cfi_restore 29
	.cfi_restore 30
	ret
.L30_50c:
	ldp x10, x11, [x0, #64]
	ldp x12, x13, [x0, #80]
	eor x10, x11, x10
	eor x10, x10, x10, lsr #33
	eor x11, x13, x12
	eor x11, x11, x11, lsr #33
	mul x10, x10, x9
	mul x9, x11, x9
	eor x10, x10, x10, lsr #29
	mul x10, x10, x8
	eor x9, x9, x9, lsr #29
	mul x8, x9, x8
	eor x0, x10, x10, lsr #32
	eor x1, x8, x8, lsr #32
	ret
	.cfi_endproc
	.size twox_core.xxhash3.streaming.stream_counts.finish_keyed,.-twox_core.xxhash3.streaming.stream_counts.finish_keyed
	.section .text.twox_core.xxhash3.streaming.stream_counts.StreamCounts.finish.2,"ax",@progbits
	.p2align 6
	.type twox_core.xxhash3.streaming.stream_counts.StreamCounts.finish.2,@function
twox_core.xxhash3.streaming.stream_counts.StreamCounts.finish.2:
	.cfi_startproc
	sub sp, sp, #0x90
	.cfi_def_cfa_offset 144
	stp x20, x19, [sp, #128]
	.cfi_offset 19, -8
	.cfi_offset 20, -16
	ldr x19, [x0, #88]
	stp x29, x30, [sp, #64]
	.cfi_offset 29, -80
	.cfi_offset 30, -72
	add x29, sp, #0x40
	cmp x19, #0xf0
	stp x26, x25, [sp, #80]
	.cfi_offset 25, -56
	.cfi_offset 26, -64
	stp x24, x23, [sp, #96]
	.cfi_offset 23, -40
	.cfi_offset 24, -48
	stp x22, x21, [sp, #112]
	.cfi_offset 21, -24
	.cfi_offset 22, -32
	b.ls .L31_b4
	ldr x20, [x0, #80]
	cmp x20, #0x3f
	b.hi .L31_124
	movi v0.2d, #0x0
	orr x8, x20, #0xc0
	mov w9, #0x100
	sub x22, x9, x8
	mov x23, x0
	mov x0, sp
	mov x21, x1
	add x1, x1, x8
	mov x2, x22
	mov x26, sp
	mov x24, x4
	mov x25, x5
	stp q0, q0, [sp]
	stp q0, q0, [sp, #32]
	bl memcpy
	add x0, x26, x22
	mov x1, x21
	mov x2, x20
	bl memcpy
	ldp q5, q4, [sp]
	mov x0, x23
	ldp q1, q0, [sp, #32]
	mov x5, x25
	mov x1, x21
	mov x4, x24
	sub x8, x20, #0x1
	ldp q7, q6, [x23]
	ldp q3, q2, [x23, #32]
	lsr x9, x8, #6
	and x8, x8, #0xffffffffffffffc0
	cbnz x9, .L31_148
	b .L31_274
.L31_b4:
	tbz w2, #0, .L31_450
	cmp x19, #0x10
	b.hi .L31_474
	cmp x19, #0x9
	b.cc .L31_6d0
	mov x10, #0x39b9
	mov x11, #0x523a
	add x9, x1, x19
	movk x10, #0xea42, lsl #16
	movk x11, #0x996, lsl #16
	ldr x8, [x1]
	movk x10, #0x737b, lsl #32
	movk x11, #0xbc3b, lsl #32
	ldur x9, [x9, #-8]
	movk x10, #0x6782, lsl #48
	movk x11, #0xaf56, lsl #48
	add x10, x3, x10
	sub x11, x11, x3
	eor x8, x8, x10
	eor x9, x9, x11
	mul x10, x9, x8
	umulh x11, x9, x8
	rev x8, x8
	add x8, x8, x19
	add x8, x8, x9
	eor x9, x11, x10
	add x8, x8, x9
	b .L31_418
.L31_124:
	add x8, x1, x20
	ldp q5, q4, [x8, #-64]
	ldp q1, q0, [x8, #-32]
	sub x8, x20, #0x1
	ldp q7, q6, [x0]
	ldp q3, q2, [x0, #32]
	lsr x9, x8, #6
	and x8, x8, #0xffffffffffffffc0
	cbz x9, .L31_274
.L31_148:
	sub x11, x5, #0x40
	ldr x13, [x0, #64]
	mov x12, x1
	lsr x10, x11, #3
	add x11, x4, x11
	b .L31_16c
.L31_160:
	subs x9, x9, #0x1
	add x12, x12, #0x40
	b.eq .L31_274
.L31_16c:
	add x14, x4, x13, lsl #3
	prfm pldl1keep, [x12, #320]
	add x13, x13, #0x1
	ldp q16, q17, [x12]
	cmp x13, x10
	ldp q18, q19, [x12, #32]
	ldp q22, q23, [x14]
	ldp q25, q26, [x14, #32]
	ext v20.16b, v17.16b, v17.16b, #8
	ext v21.16b, v16.16b, v16.16b, #8
	ext v24.16b, v18.16b, v18.16b, #8
	ext v27.16b, v19.16b, v19.16b, #8
	eor v17.16b, v23.16b, v17.16b
	eor v16.16b, v22.16b, v16.16b
	eor v19.16b, v26.16b, v19.16b
	eor v18.16b, v25.16b, v18.16b
	add v6.2d, v20.2d, v6.2d
	add v7.2d, v21.2d, v7.2d
	shrn v20.2s, v17.2d, #32
	xtn v17.2s, v17.2d
	xtn v21.2s, v16.2d
	xtn v22.2s, v18.2d
	xtn v23.2s, v19.2d
	add v3.2d, v24.2d, v3.2d
	add v2.2d, v27.2d, v2.2d
	shrn v16.2s, v16.2d, #32
	shrn v18.2s, v18.2d, #32
	shrn v19.2s, v19.2d, #32
	umlal v6.2d, v17.2s, v20.2s
	umlal v7.2d, v21.2s, v16.2s
	umlal v2.2d, v23.2s, v19.2s
	umlal v3.2d, v22.2s, v18.2s
	b.ne .L31_160
	ldp q16, q17, [x11]
	ushr v18.2d, v7.2d, #47
	ldp q19, q20, [x11, #32]
	ushr v21.2d, v6.2d, #47
	adrp x13, .L96_450
	eor v7.16b, v16.16b, v7.16b
	eor v6.16b, v17.16b, v6.16b
	ushr v16.2d, v2.2d, #47
	eor v2.16b, v20.16b, v2.16b
	ushr v17.2d, v3.2d, #47
	eor v3.16b, v19.16b, v3.16b
	ldr q20, [x13, #:lo12:.L96_450]
	mov w13, #0x79b1
	eor v18.16b, v18.16b, v7.16b
	eor v19.16b, v21.16b, v6.16b
	movk w13, #0x9e37, lsl #16
	eor v16.16b, v16.16b, v2.16b
	eor v17.16b, v17.16b, v3.16b
	dup v21.2s, w13
	mov x13, xzr
	mul v6.4s, v19.4s, v20.4s
	mul v7.4s, v18.4s, v20.4s
	xtn v19.2s, v19.2d
	xtn v18.2s, v18.2d
	mul v2.4s, v16.4s, v20.4s
	mul v3.4s, v17.4s, v20.4s
	xtn v16.2s, v16.2d
	xtn v17.2s, v17.2d
	umlal v6.2d, v19.2s, v21.2s
	umlal v7.2d, v18.2s, v21.2s
	umlal v3.2d, v17.2s, v21.2s
	umlal v2.2d, v16.2s, v21.2s
	b .L31_160
.L31_274:
	mvn x9, x8
	add x9, x20, x9
	lsr x9, x9, #6
	cbz x9, .L31_30c
	add x8, x8, x1
	add x10, x4, #0x20
	add x8, x8, #0x20
.L31_290:
	ldp q16, q17, [x8, #-32]
	subs x9, x9, #0x1
	ldp q18, q19, [x10, #-32]
	ldp q20, q21, [x8], #64
	ldp q24, q25, [x10]
	ext v22.16b, v17.16b, v17.16b, #8
	ext v23.16b, v16.16b, v16.16b, #8
	eor v17.16b, v19.16b, v17.16b
	eor v16.16b, v18.16b, v16.16b
	ext v19.16b, v20.16b, v20.16b, #8
	ext v18.16b, v21.16b, v21.16b, #8
	add x10, x10, #0x8
	eor v21.16b, v25.16b, v21.16b
	eor v20.16b, v24.16b, v20.16b
	add v6.2d, v22.2d, v6.2d
	xtn v22.2s, v16.2d
	shrn v16.2s, v16.2d, #32
	add v7.2d, v23.2d, v7.2d
	shrn v23.2s, v17.2d, #32
	xtn v17.2s, v17.2d
	add v3.2d, v19.2d, v3.2d
	add v2.2d, v18.2d, v2.2d
	xtn v18.2s, v20.2d
	xtn v19.2s, v21.2d
	shrn v20.2s, v20.2d, #32
	shrn v21.2s, v21.2d, #32
	umlal v7.2d, v22.2s, v16.2s
	umlal v6.2d, v17.2s, v23.2s
	umlal v3.2d, v18.2s, v20.2s
	umlal v2.2d, v19.2s, v21.2s
	b.ne .L31_290
.L31_30c:
	add x8, x4, x5
	ext v17.16b, v5.16b, v5.16b, #8
	ext v18.16b, v4.16b, v4.16b, #8
	ldur q16, [x8, #-71]
	cmp x5, #0x88
	eor v5.16b, v16.16b, v5.16b
	ldur q16, [x8, #-55]
	add v7.2d, v7.2d, v17.2d
	eor v4.16b, v16.16b, v4.16b
	xtn v19.2s, v5.2d
	shrn v5.2s, v5.2d, #32
	xtn v16.2s, v4.2d
	shrn v4.2s, v4.2d, #32
	umlal v7.2d, v19.2s, v5.2s
	add v5.2d, v6.2d, v18.2d
	ldur q6, [x4, #11]
	umlal v5.2d, v16.2s, v4.2s
	eor v4.16b, v7.16b, v6.16b
	ldur q6, [x4, #27]
	mov x9, v4.d[1]
	eor v5.16b, v5.16b, v6.16b
	fmov x10, d4
	mov x11, v5.d[1]
	mul x12, x10, x9
	umulh x9, x10, x9
	fmov x10, d5
	mul x13, x10, x11
	umulh x10, x10, x11
	mov x11, #0xca87
	eor x9, x9, x12
	movk x11, #0x85eb, lsl #16
	movk x11, #0x79b1, lsl #32
	movk x11, #0x9e37, lsl #48
	madd x9, x19, x11, x9
	eor x10, x10, x13
	add x0, x9, x10
	b.cc .L31_434
	ldur q4, [x8, #-39]
	ext v5.16b, v1.16b, v1.16b, #8
	eor v1.16b, v4.16b, v1.16b
	ldur q4, [x8, #-23]
	add v3.2d, v3.2d, v5.2d
	eor v4.16b, v4.16b, v0.16b
	ext v0.16b, v0.16b, v0.16b, #8
	xtn v5.2s, v1.2d
	shrn v1.2s, v1.2d, #32
	add v0.2d, v2.2d, v0.2d
	shrn v2.2s, v4.2d, #32
	umlal v3.2d, v5.2s, v1.2s
	xtn v1.2s, v4.2d
	ldur q4, [x4, #43]
	umlal v0.2d, v1.2s, v2.2s
	eor v1.16b, v3.16b, v4.16b
	ldur q2, [x4, #59]
	mov x8, v1.d[1]
	fmov x9, d1
	eor v0.16b, v0.16b, v2.16b
	mov x10, v0.d[1]
	mul x11, x9, x8
	umulh x8, x9, x8
	fmov x9, d0
	mul x12, x9, x10
	umulh x9, x9, x10
	eor x8, x8, x11
	eor x9, x9, x12
	add x8, x8, x9
	add x8, x0, x8
.L31_418:
	eor x8, x8, x8, lsr #37
.L31_41c:
	mov x9, #0x79f9
	movk x9, #0x9e37, lsl #16
	movk x9, #0x6791, lsl #32
	movk x9, #0x1656, lsl #48
	mul x8, x8, x9
.L31_430:
	eor x0, x8, x8, lsr #32
.L31_434:
	ldp x20, x19, [sp, #128]
	.cfi_restore 19
	.cfi_restore 20
	ldp x22, x21, [sp, #112]
	.cfi_restore 21
	.cfi_restore 22
	ldp x24, x23, [sp, #96]
	.cfi_restore 23
	.cfi_restore 24
	ldp x26, x25, [sp, #80]
	.cfi_restore 25
	.cfi_restore 26
	ldp x29, x30, [sp, #64]
	.cfi_restore 29
	.cfi_restore 30
	add sp, sp, #0x90
	.cfi_def_cfa_offset 0
	ret
	.cfi_def_cfa_offset 144
	.cfi_offset 19, -8
	.cfi_offset 20, -16
	.cfi_offset 21, -24
	.cfi_offset 22, -32
	.cfi_offset 23, -40
	.cfi_offset 24, -48
	.cfi_offset 25, -56
	.cfi_offset 26, -64
	.cfi_offset 29, -80
	.cfi_offset 30, -72
.L31_450:
	mov x2, x19
	ldp x20, x19, [sp, #128]
	.cfi_restore 19
	.cfi_restore 20
	ldp x22, x21, [sp, #112]
	.cfi_restore 21
	.cfi_restore 22
	mov x0, x4
	ldp x24, x23, [sp, #96]
	.cfi_restore 23
	.cfi_restore 24
	ldp x26, x25, [sp, #80]
	.cfi_restore 25
	.cfi_restore 26
	ldp x29, x30, [sp, #64]
	.cfi_restore 29
	.cfi_restore 30
	add sp, sp, #0x90
	.cfi_def_cfa_offset 0
	b twox_core.xxhash3.streaming.stream_counts.finish_keyed.2
	.cfi_def_cfa_offset 144
	.cfi_offset 19, -8
	.cfi_offset 20, -16
	.cfi_offset 21, -24
	.cfi_offset 22, -32
	.cfi_offset 23, -40
	.cfi_offset 24, -48
	.cfi_offset 25, -56
	.cfi_offset 26, -64
	.cfi_offset 29, -80
	.cfi_offset 30, -72
.L31_474:
	cmp x19, #0x80
	b.hi .L31_73c
	mov x8, #0xfeb8
	mov x11, #0x17c
	mov x14, #0xd4de
	movk x8, #0x396c, lsl #16
	ldp x9, x10, [x1]
	movk x8, #0xa423, lsl #32
	movk x11, #0x2c81, lsl #16
	mov x15, #0x4072
	movk x8, #0xbe4b, lsl #48
	movk x11, #0x21f7, lsl #32
	movk x14, #0xe96d, lsl #16
	movk x11, #0x1cad, lsl #48
	add x12, x3, x8
	add x8, x1, x19
	movk x15, #0xa4a4, lsl #16
	sub x11, x11, x3
	eor x9, x9, x12
	ldp x12, x13, [x8, #-16]
	movk x14, #0x9083, lsl #32
	movk x15, #0xb3b7, lsl #32
	eor x10, x10, x11
	movk x14, #0xdb97, lsl #48
	movk x15, #0x1f67, lsl #48
	mul x11, x10, x9
	cmp x19, #0x21
	umulh x9, x10, x9
	add x10, x3, x14
	sub x14, x15, x3
	eor x10, x12, x10
	eor x12, x13, x14
	mul x13, x12, x10
	umulh x10, x12, x10
	mov x12, #0xca87
	movk x12, #0x85eb, lsl #16
	eor x9, x9, x11
	movk x12, #0x79b1, lsl #32
	movk x12, #0x9e37, lsl #48
	madd x9, x19, x12, x9
	eor x10, x10, x13
	add x9, x9, x10
	b.cc .L31_6c8
	mov x13, #0x5a82
	mov x12, #0x79cb
	mov x15, #0x8b8
	movk x13, #0x7dd0, lsl #16
	ldp x10, x11, [x1, #16]
	movk x12, #0x4ee6, lsl #16
	movk x13, #0xffcc, lsl #32
	mov x16, #0x35e0
	movk x12, #0xc0cc, lsl #32
	movk x13, #0x2172, lsl #48
	movk x15, #0x7446, lsl #16
	movk x12, #0x78e5, lsl #48
	sub x13, x13, x3
	movk x16, #0xe690, lsl #16
	add x12, x3, x12
	eor x11, x11, x13
	movk x15, #0x43f7, lsl #32
	ldp x13, x14, [x8, #-32]
	movk x16, #0x3a81, lsl #32
	eor x10, x10, x12
	movk x15, #0x8e24, lsl #48
	movk x16, #0x4c26, lsl #48
	mul x12, x11, x10
	cmp x19, #0x41
	umulh x10, x11, x10
	add x11, x3, x15
	sub x15, x16, x3
	eor x11, x13, x11
	eor x13, x14, x15
	mul x14, x13, x11
	umulh x11, x13, x11
	eor x10, x10, x12
	eor x11, x11, x14
	add x10, x10, x11
	add x9, x9, x10
	b.cc .L31_6c8
	mov x13, #0xd088
	mov x12, #0x283c
	mov x15, #0x6471
	movk x13, #0x8b65, lsl #16
	ldp x10, x11, [x1, #32]
	movk x12, #0xbb52, lsl #16
	movk x13, #0x531b, lsl #32
	mov x16, #0x1938
	movk x12, #0xc391, lsl #32
	movk x13, #0xa32e, lsl #48
	movk x15, #0x9748, lsl #16
	movk x12, #0xcb00, lsl #48
	sub x13, x13, x3
	movk x16, #0x46ef, lsl #16
	add x12, x3, x12
	eor x11, x11, x13
	movk x15, #0xda2, lsl #32
	ldp x13, x14, [x8, #-48]
	movk x16, #0xdea9, lsl #32
	eor x10, x10, x12
	movk x15, #0x4ef9, lsl #48
	movk x16, #0xd8ac, lsl #48
	mul x12, x11, x10
	cmp x19, #0x61
	umulh x10, x11, x10
	add x11, x3, x15
	sub x15, x16, x3
	eor x11, x13, x11
	eor x13, x14, x15
	mul x14, x13, x11
	umulh x11, x13, x11
	eor x10, x10, x12
	eor x11, x11, x14
	add x10, x10, x11
	add x9, x9, x10
	b.cc .L31_6c8
	mov x13, #0xdcf9
	mov x12, #0xfaa8
	mov x14, #0x518a
	movk x13, #0xc7bb, lsl #16
	ldp x10, x11, [x1, #48]
	movk x12, #0x3f76, lsl #16
	movk x13, #0xbc7, lsl #32
	mov x15, #0x9fc8
	movk x12, #0x9ce3, lsl #32
	movk x13, #0x1d4f, lsl #48
	movk x14, #0x4be0, lsl #16
	movk x12, #0x3f34, lsl #48
	sub x13, x13, x3
	movk x15, #0xc97e, lsl #16
	add x12, x3, x12
	eor x11, x11, x13
	movk x14, #0xb4cd, lsl #32
	ldp x13, x8, [x8, #-64]
	movk x15, #0x78d9, lsl #32
	eor x10, x10, x12
	movk x14, #0x3159, lsl #48
	movk x15, #0x6473, lsl #48
	mul x12, x11, x10
	umulh x10, x11, x10
	add x11, x3, x14
	sub x14, x15, x3
	eor x11, x13, x11
	eor x8, x8, x14
	mul x13, x8, x11
	umulh x8, x8, x11
	eor x10, x10, x12
	eor x8, x8, x13
	add x8, x10, x8
	add x9, x9, x8
.L31_6c8:
	eor x8, x9, x9, lsr #37
	b .L31_41c
.L31_6d0:
	cmp x19, #0x4
	b.cc .L31_770
	add x8, x1, x19
	ldr w10, [x1]
	rev w9, w3
	ldur w8, [x8, #-4]
	eor x9, x3, x9, lsl #32
	orr x8, x8, x10, lsl #32
	mov x10, #0xd5a2
	movk x10, #0xc5ec, lsl #16
	movk x10, #0xb174, lsl #32
	movk x10, #0xc73a, lsl #48
	sub x9, x10, x9
	eor x8, x8, x9
	ror x9, x8, #40
	eor x9, x9, x8, ror #15
	eor x8, x9, x8
	mov x9, #0xdf25
	movk x9, #0x1e98, lsl #16
	movk x9, #0x1c65, lsl #32
	movk x9, #0x9fb2, lsl #48
	mul x8, x8, x9
	add x10, x19, x8, lsr #35
	eor x8, x10, x8
	mul x8, x8, x9
	eor x0, x8, x8, lsr #28
	b .L31_434
.L31_73c:
	add x4, x1, #0x8
	mov x2, x1
	mov x1, x3
	mov x3, x19
	ldp x20, x19, [sp, #128]
	.cfi_restore 19
	.cfi_restore 20
	ldp x22, x21, [sp, #112]
	.cfi_restore 21
	.cfi_restore 22
	adrp x0, .L98_0
	add x0, x0, :lo12:.L98_0
	ldp x24, x23, [sp, #96]
	.cfi_restore 23
	.cfi_restore 24
	ldp x26, x25, [sp, #80]
	.cfi_restore 25
	.cfi_restore 26
	ldp x29, x30, [sp, #64]
	.cfi_restore 29
	.cfi_restore 30
	add sp, sp, #0x90
	.cfi_def_cfa_offset 0
	b twox_core.width_64.impl_129_to_240_bytes
	.cfi_def_cfa_offset 144
	.cfi_offset 19, -8
	.cfi_offset 20, -16
	.cfi_offset 21, -24
	.cfi_offset 22, -32
	.cfi_offset 23, -40
	.cfi_offset 24, -48
	.cfi_offset 25, -56
	.cfi_offset 26, -64
	.cfi_offset 29, -80
	.cfi_offset 30, -72
.L31_770:
	mov x9, #0xeb4f
	mov x8, #0x79f9
	movk x9, #0x27d4, lsl #16
	movk x8, #0x9e37, lsl #16
	movk x9, #0xae3d, lsl #32
	movk x8, #0x67b1, lsl #32
	movk x9, #0xc2b2, lsl #48
	movk x8, #0x1656, lsl #48
	cbz x19, .L31_7c8
	add x10, x1, x19
	ldrb w11, [x1]
	lsr x12, x19, #1
	ldurb w10, [x10, #-1]
	orr x10, x10, x19, lsl #8
	orr x10, x10, x11, lsl #16
	ldrb w11, [x1, x12]
	mov w12, #0x5a9b
	movk w12, #0x8727, lsl #16
	orr x10, x10, x11, lsl #24
	add x11, x3, x12
	eor x10, x10, x11
	b .L31_7dc
.L31_7c8:
	mov x10, #0x1ddc
	movk x10, #0x5dc2, lsl #16
	movk x10, #0xf910, lsl #32
	movk x10, #0x8726, lsl #48
	eor x10, x3, x10
.L31_7dc:
	eor x10, x10, x10, lsr #33
	mul x9, x10, x9
	eor x9, x9, x9, lsr #29
	mul x8, x9, x8
	b .L31_430
	.cfi_endproc
	.size twox_core.xxhash3.streaming.stream_counts.StreamCounts.finish.2,.-twox_core.xxhash3.streaming.stream_counts.StreamCounts.finish.2
	.section .text.twox_core.xxhash3.streaming.stream_counts.finish_keyed.2,"ax",@progbits
	.p2align 6
	.type twox_core.xxhash3.streaming.stream_counts.finish_keyed.2,@function
twox_core.xxhash3.streaming.stream_counts.finish_keyed.2:
	.cfi_startproc
	mov x3, x2
	mov x2, x1
	cmp x3, #0x10
	b.hi .L32_60
	cmp x3, #0x9
	b.cc .L32_1b4
	ldp x10, x13, [x0, #24]
	add x9, x2, x3
	ldp x11, x12, [x0, #40]
	ldr x8, [x2]
	ldur x9, [x9, #-8]
	eor x8, x10, x8
	eor x10, x11, x12
	eor x8, x8, x13
	eor x9, x10, x9
	mul x10, x9, x8
	umulh x11, x9, x8
	rev x8, x8
	add x9, x3, x9
	add x8, x8, x9
	eor x9, x11, x10
	add x8, x8, x9
	eor x8, x8, x8, lsr #37
	b .L32_198
.L32_60:
	cmp x3, #0x80
	b.hi .L32_20c
	ldp x8, x9, [x2]
	cmp x3, #0x21
	ldp x10, x11, [x0]
	ldp x12, x13, [x0, #16]
	eor x10, x10, x8
	add x8, x2, x3
	eor x9, x11, x9
	ldp x14, x15, [x8, #-16]
	mul x11, x9, x10
	umulh x9, x9, x10
	eor x10, x12, x14
	eor x12, x13, x15
	mul x13, x12, x10
	umulh x10, x12, x10
	mov x12, #0xca87
	movk x12, #0x85eb, lsl #16
	eor x9, x9, x11
	movk x12, #0x79b1, lsl #32
	movk x12, #0x9e37, lsl #48
	madd x9, x3, x12, x9
	eor x10, x10, x13
	add x9, x9, x10
	b.cc .L32_194
	ldp x10, x11, [x2, #16]
	cmp x3, #0x41
	ldp x12, x13, [x0, #32]
	ldp x15, x16, [x0, #48]
	eor x11, x13, x11
	ldp x13, x14, [x8, #-32]
	eor x10, x12, x10
	mul x12, x11, x10
	umulh x10, x11, x10
	eor x11, x15, x13
	eor x13, x16, x14
	mul x14, x13, x11
	umulh x11, x13, x11
	eor x10, x10, x12
	eor x11, x11, x14
	add x10, x10, x11
	add x9, x9, x10
	b.cc .L32_194
	ldp x10, x11, [x2, #32]
	cmp x3, #0x61
	ldp x12, x13, [x0, #64]
	ldp x15, x16, [x0, #80]
	eor x11, x13, x11
	ldp x13, x14, [x8, #-48]
	eor x10, x12, x10
	mul x12, x11, x10
	umulh x10, x11, x10
	eor x11, x15, x13
	eor x13, x16, x14
	mul x14, x13, x11
	umulh x11, x13, x11
	eor x10, x10, x12
	eor x11, x11, x14
	add x10, x10, x11
	add x9, x9, x10
	b.cc .L32_194
	ldp x10, x11, [x2, #48]
	ldp x12, x13, [x0, #96]
	ldp x14, x15, [x0, #112]
	eor x11, x13, x11
	ldp x13, x8, [x8, #-64]
	eor x10, x12, x10
	mul x12, x11, x10
	eor x8, x15, x8
	umulh x10, x11, x10
	eor x11, x14, x13
	mul x13, x8, x11
	umulh x8, x8, x11
	eor x10, x10, x12
	eor x8, x8, x13
	add x8, x10, x8
	add x9, x9, x8
.L32_194:
	eor x8, x9, x9, lsr #37
.L32_198:
	mov x9, #0x79f9
	movk x9, #0x9e37, lsl #16
	movk x9, #0x6791, lsl #32
	movk x9, #0x1656, lsl #48
	mul x8, x8, x9
	eor x0, x8, x8, lsr #32
	ret
.L32_1b4:
	cmp x3, #0x4
	b.cc .L32_218
	add x8, x2, x3
	ldr w9, [x2]
	ldur w8, [x8, #-4]
	ldp x10, x11, [x0, #8]
	orr x8, x8, x9, lsl #32
	eor x9, x11, x10
	eor x8, x9, x8
	ror x9, x8, #40
	eor x9, x9, x8, ror #15
	eor x8, x9, x8
	mov x9, #0xdf25
	movk x9, #0x1e98, lsl #16
	movk x9, #0x1c65, lsl #32
	movk x9, #0x9fb2, lsl #48
	mul x8, x8, x9
	add x10, x3, x8, lsr #35
	eor x8, x10, x8
	mul x8, x8, x9
	eor x0, x8, x8, lsr #28
	ret
.L32_20c:
	add x4, x2, #0x8
	mov x1, xzr
	b twox_core.width_64.impl_129_to_240_bytes
.L32_218:
	mov x9, #0xeb4f
	mov x8, #0x79f9
	movk x9, #0x27d4, lsl #16
	movk x8, #0x9e37, lsl #16
	movk x9, #0xae3d, lsl #32
	movk x8, #0x67b1, lsl #32
	movk x9, #0xc2b2, lsl #48
	movk x8, #0x1656, lsl #48
	cbz x3, .L32_27c
	add x10, x2, x3
	ldrb w11, [x2]
	lsr x12, x3, #1
	ldurb w10, [x10, #-1]
	orr x10, x10, x3, lsl #8
	orr x10, x10, x11, lsl #16
	ldrb w11, [x2, x12]
	ldp w12, w13, [x0]
	orr x10, x10, x11, lsl #24
	eor w11, w13, w12
	eor x10, x10, x11
	mul x9, x10, x9
	eor x9, x9, x9, lsr #29
	mul x8, x9, x8
	eor x0, x8, x8, lsr #32
	ret
.L32_27c:
	ldp x10, x11, [x0, #56]
	eor x10, x11, x10
	eor x10, x10, x10, lsr #33
	mul x9, x10, x9
	eor x9, x9, x9, lsr #29
	mul x8, x9, x8
	eor x0, x8, x8, lsr #32
	ret
	.cfi_endproc
	.size twox_core.xxhash3.streaming.stream_counts.finish_keyed.2,.-twox_core.xxhash3.streaming.stream_counts.finish_keyed.2
	.section .text.twox_c.xxh3_state.Xxh3State.reset,"ax",@progbits
	.p2align 6
	.type twox_c.xxh3_state.Xxh3State.reset,@function
twox_c.xxh3_state.Xxh3State.reset:
	.cfi_startproc
	adrp x8, .L96_460
	adrp x9, .L96_470
	movi v3.2d, #0x0
	ldr q0, [x8, #:lo12:.L96_460]
	adrp x8, .L96_480
	ldr q1, [x9, #:lo12:.L96_470]
	ldr q2, [x8, #:lo12:.L96_480]
	adrp x8, .L96_490
	str x1, [x0, #552]
	stp q0, q1, [x0]
	ldr q0, [x8, #:lo12:.L96_490]
	mov x8, #0x7774
	movk x8, #0x786f, lsl #16
	stp q3, q3, [x0, #64]
	movk x8, #0x5858, lsl #32
	stp q2, q0, [x0, #32]
	movk x8, #0x3348, lsl #48
	str xzr, [x0, #568]
	str x8, [x0, #544]
	ldp q0, q1, [x2]
	ldp q2, q3, [x2, #32]
	ldp q4, q5, [x2, #160]
	ldp q6, q7, [x2, #64]
	ldp q16, q17, [x2, #96]
	ldp q18, q19, [x2, #128]
	stp q0, q1, [x0, #352]
	stp q2, q3, [x0, #384]
	stp q6, q7, [x0, #416]
	stp q16, q17, [x0, #448]
	stp q18, q19, [x0, #480]
	stp q4, q5, [x0, #512]
	ret
	.cfi_endproc
	.size twox_c.xxh3_state.Xxh3State.reset,.-twox_c.xxh3_state.Xxh3State.reset
	.section .text.twox_core.xxhash3.streaming.stream_counts.StreamCounts.write_through,"ax",@progbits
	.p2align 6
	.type twox_core.xxhash3.streaming.stream_counts.StreamCounts.write_through,@function
twox_core.xxhash3.streaming.stream_counts.StreamCounts.write_through:
	.cfi_startproc
	ldr x8, [x0, #80]
	neg w9, w8
	and x10, x9, #0x3f
	cbz x10, .L34_c4
	cmp x10, #0x21
	add x9, x5, x8
	b.cc .L34_3c
	ldp q1, q0, [x1]
	sub x11, x10, #0x20
	add x12, x1, x11
	stp q1, q0, [x9]
	add x9, x9, x11
	ldp q1, q0, [x12]
	stp q1, q0, [x9]
	b .L34_bc
.L34_3c:
	cmp x10, #0x11
	b.cc .L34_5c
	ldr q0, [x1]
	sub x11, x10, #0x10
	str q0, [x9]
	ldr q0, [x1, x11]
	str q0, [x9, x11]
	b .L34_bc
.L34_5c:
	subs x11, x10, #0x8
	b.cc .L34_78
	ldr x12, [x1]
	str x12, [x9]
	ldr x12, [x1, x11]
	str x12, [x9, x11]
	b .L34_bc
.L34_78:
	subs x11, x10, #0x4
	b.cc .L34_94
	ldr w12, [x1]
	str w12, [x9]
	ldr w12, [x1, x11]
	str w12, [x9, x11]
	b .L34_bc
.L34_94:
	cmp x10, #0x1
	b.ne .L34_a8
	ldrb w11, [x1]
	strb w11, [x9]
	b .L34_bc
.L34_a8:
	ldrh w11, [x1]
	strh w11, [x9]
	sub x11, x10, #0x2
	ldrh w12, [x1, x11]
	strh w12, [x9, x11]
.L34_bc:
	add x8, x10, x8
	str x8, [x0, #80]
.L34_c4:
	sub x14, x4, #0x40
	ldp q3, q2, [x0]
	ldp q0, q1, [x0, #32]
	lsr x13, x8, #6
	lsr x8, x14, #3
	ldr x11, [x0, #64]
	add x9, x1, x10
	sub x12, x2, x10
	adrp x10, .L96_4a0
	cbz x13, .L34_20c
	add x15, x3, x14
	mov x16, x13
	mov x17, x5
	b .L34_108
.L34_fc:
	subs x16, x16, #0x1
	add x17, x17, #0x40
	b.eq .L34_20c
.L34_108:
	add x18, x3, x11, lsl #3
	prfm pldl1keep, [x17, #320]
	add x11, x11, #0x1
	ldp q4, q5, [x17]
	cmp x11, x8
	ldp q6, q7, [x17, #32]
	ldp q18, q19, [x18]
	ldp q21, q22, [x18, #32]
	ext v16.16b, v5.16b, v5.16b, #8
	ext v17.16b, v4.16b, v4.16b, #8
	ext v20.16b, v6.16b, v6.16b, #8
	ext v23.16b, v7.16b, v7.16b, #8
	eor v5.16b, v19.16b, v5.16b
	eor v4.16b, v18.16b, v4.16b
	eor v7.16b, v22.16b, v7.16b
	eor v6.16b, v21.16b, v6.16b
	add v2.2d, v16.2d, v2.2d
	add v3.2d, v17.2d, v3.2d
	shrn v16.2s, v5.2d, #32
	xtn v5.2s, v5.2d
	xtn v17.2s, v4.2d
	xtn v18.2s, v6.2d
	xtn v19.2s, v7.2d
	add v0.2d, v20.2d, v0.2d
	add v1.2d, v23.2d, v1.2d
	shrn v4.2s, v4.2d, #32
	shrn v6.2s, v6.2d, #32
	shrn v7.2s, v7.2d, #32
	umlal v2.2d, v5.2s, v16.2s
	umlal v3.2d, v17.2s, v4.2s
	umlal v1.2d, v19.2s, v7.2s
	umlal v0.2d, v18.2s, v6.2s
	b.ne .L34_fc
	ldp q4, q5, [x15]
	ushr v6.2d, v3.2d, #47
	ldp q7, q16, [x15, #32]
	ushr v17.2d, v2.2d, #47
	mov w11, #0x79b1
	eor v3.16b, v4.16b, v3.16b
	eor v2.16b, v5.16b, v2.16b
	ushr v4.2d, v1.2d, #47
	eor v1.16b, v16.16b, v1.16b
	ushr v5.2d, v0.2d, #47
	eor v0.16b, v7.16b, v0.16b
	ldr q16, [x10, #:lo12:.L96_4a0]
	movk w11, #0x9e37, lsl #16
	eor v6.16b, v6.16b, v3.16b
	eor v7.16b, v17.16b, v2.16b
	dup v17.2s, w11
	eor v4.16b, v4.16b, v1.16b
	eor v5.16b, v5.16b, v0.16b
	mov x11, xzr
	mul v2.4s, v7.4s, v16.4s
	mul v3.4s, v6.4s, v16.4s
	xtn v7.2s, v7.2d
	xtn v6.2s, v6.2d
	mul v1.4s, v4.4s, v16.4s
	mul v0.4s, v5.4s, v16.4s
	xtn v4.2s, v4.2d
	xtn v5.2s, v5.2d
	umlal v2.2d, v7.2s, v17.2s
	umlal v3.2d, v6.2s, v17.2s
	umlal v0.2d, v5.2s, v17.2s
	umlal v1.2d, v4.2s, v17.2s
	b .L34_fc
.L34_20c:
	ldr x15, [x0, #72]
	stp q3, q2, [x0]
	stp q0, q1, [x0, #32]
	adds x13, x13, x15
	str xzr, [x0, #80]
	csinv x15, x13, xzr, cc
	subs x13, x12, #0x40
	csel x13, xzr, x13, cc
	stp x11, x15, [x0, #64]
	lsr x16, x13, #6
	and x17, x13, #0xffffffffffffffc0
	add x13, x9, x17
	sub x12, x12, x17
	cbz x16, .L34_360
	add x14, x3, x14
	neg x17, x16
	b .L34_25c
.L34_250:
	adds x17, x17, #0x1
	add x9, x9, #0x40
	b.cs .L34_360
.L34_25c:
	add x18, x3, x11, lsl #3
	prfm pldl1keep, [x9, #320]
	add x11, x11, #0x1
	ldp q4, q5, [x9]
	cmp x11, x8
	ldp q6, q7, [x9, #32]
	ldp q18, q19, [x18]
	ldp q21, q22, [x18, #32]
	ext v16.16b, v5.16b, v5.16b, #8
	ext v17.16b, v4.16b, v4.16b, #8
	ext v20.16b, v6.16b, v6.16b, #8
	ext v23.16b, v7.16b, v7.16b, #8
	eor v5.16b, v19.16b, v5.16b
	eor v4.16b, v18.16b, v4.16b
	eor v7.16b, v22.16b, v7.16b
	eor v6.16b, v21.16b, v6.16b
	add v2.2d, v16.2d, v2.2d
	add v3.2d, v17.2d, v3.2d
	shrn v16.2s, v5.2d, #32
	xtn v5.2s, v5.2d
	xtn v17.2s, v4.2d
	xtn v18.2s, v6.2d
	xtn v19.2s, v7.2d
	add v0.2d, v20.2d, v0.2d
	add v1.2d, v23.2d, v1.2d
	shrn v4.2s, v4.2d, #32
	shrn v6.2s, v6.2d, #32
	shrn v7.2s, v7.2d, #32
	umlal v2.2d, v5.2s, v16.2s
	umlal v3.2d, v17.2s, v4.2s
	umlal v1.2d, v19.2s, v7.2s
	umlal v0.2d, v18.2s, v6.2s
	b.ne .L34_250
	ldp q4, q5, [x14]
	ushr v6.2d, v3.2d, #47
	ldp q7, q16, [x14, #32]
	ushr v17.2d, v2.2d, #47
	mov w11, #0x79b1
	eor v3.16b, v4.16b, v3.16b
	eor v2.16b, v5.16b, v2.16b
	ushr v4.2d, v1.2d, #47
	eor v1.16b, v16.16b, v1.16b
	ushr v5.2d, v0.2d, #47
	eor v0.16b, v7.16b, v0.16b
	ldr q16, [x10, #:lo12:.L96_4a0]
	movk w11, #0x9e37, lsl #16
	eor v6.16b, v6.16b, v3.16b
	eor v7.16b, v17.16b, v2.16b
	dup v17.2s, w11
	eor v4.16b, v4.16b, v1.16b
	eor v5.16b, v5.16b, v0.16b
	mov x11, xzr
	mul v2.4s, v7.4s, v16.4s
	mul v3.4s, v6.4s, v16.4s
	xtn v7.2s, v7.2d
	xtn v6.2s, v6.2d
	mul v1.4s, v4.4s, v16.4s
	mul v0.4s, v5.4s, v16.4s
	xtn v4.2s, v4.2d
	xtn v5.2s, v5.2d
	umlal v2.2d, v7.2s, v17.2s
	umlal v3.2d, v6.2s, v17.2s
	umlal v0.2d, v5.2s, v17.2s
	umlal v1.2d, v4.2s, v17.2s
	b .L34_250
.L34_360:
	adds x8, x16, x15
	stp q3, q2, [x0]
	csinv x8, x8, xzr, cc
	cmp x12, #0x41
	stp q0, q1, [x0, #32]
	stp x11, x8, [x0, #64]
	b.cc .L34_3b0
	ldp q1, q0, [x13, #32]
	sub x8, x12, #0x40
	ldp q2, q3, [x13]
	add x9, x13, x8
	add x8, x5, x8
	stp q1, q0, [x5, #32]
	stp q2, q3, [x5]
	ldp q1, q0, [x9, #32]
	ldp q2, q3, [x9]
	stp q1, q0, [x8, #32]
	stp q2, q3, [x8]
	str x12, [x0, #80]
	ret
.L34_3b0:
	cmp x12, #0x21
	b.cc .L34_3dc
	ldp q1, q0, [x13]
	sub x8, x12, #0x20
	add x9, x13, x8
	add x8, x5, x8
	stp q1, q0, [x5]
	ldp q1, q0, [x9]
	stp q1, q0, [x8]
	str x12, [x0, #80]
	ret
.L34_3dc:
	cmp x12, #0x11
	b.cc .L34_400
	ldr q0, [x13]
	sub x8, x12, #0x10
	str q0, [x5]
	ldr q0, [x13, x8]
	str q0, [x5, x8]
	str x12, [x0, #80]
	ret
.L34_400:
	subs x8, x12, #0x8
	b.cc .L34_420
	ldr x9, [x13]
	str x9, [x5]
	ldr x9, [x13, x8]
	str x9, [x5, x8]
	str x12, [x0, #80]
	ret
.L34_420:
	subs x8, x12, #0x4
	b.cc .L34_440
	ldr w9, [x13]
	str w9, [x5]
	ldr w9, [x13, x8]
	str w9, [x5, x8]
	str x12, [x0, #80]
	ret
.L34_440:
	subs x8, x12, #0x2
	b.cc .L34_460
	ldrh w9, [x13]
	strh w9, [x5]
	ldrh w9, [x13, x8]
	strh w9, [x5, x8]
	str x12, [x0, #80]
	ret
.L34_460:
	cmp x12, #0x1
	b.ne .L34_470
	ldrb w8, [x13]
	strb w8, [x5]
.L34_470:
	str x12, [x0, #80]
	ret
	.cfi_endproc
	.size twox_core.xxhash3.streaming.stream_counts.StreamCounts.write_through,.-twox_core.xxhash3.streaming.stream_counts.StreamCounts.write_through
	.section .text.twox_core.xxhash3.streaming.stream_counts.StreamCounts.write_through.2,"ax",@progbits
	.p2align 6
	.type twox_core.xxhash3.streaming.stream_counts.StreamCounts.write_through.2,@function
twox_core.xxhash3.streaming.stream_counts.StreamCounts.write_through.2:
	.cfi_startproc
	stp x29, x30, [sp, #-64]!
	.cfi_def_cfa_offset 64
	.cfi_offset 29, -64
	.cfi_offset 30, -56
	ldr x9, [x0, #80]
	stp x20, x19, [sp, #48]
	.cfi_offset 19, -8
	.cfi_offset 20, -16
	mov x20, x5
	mov x19, x0
	mov x8, x1
	str x23, [sp, #16]
	.cfi_offset 23, -48
	neg w10, w9
	stp x22, x21, [sp, #32]
	.cfi_offset 21, -24
	.cfi_offset 22, -32
	mov x29, sp
	and x10, x10, #0x3f
	add x1, x1, x10
	cbz x10, .L35_e8
	cmp x10, #0x21
	add x11, x20, x9
	b.cc .L35_60
	ldp q1, q0, [x8]
	sub x12, x10, #0x20
	add x8, x8, x12
	stp q1, q0, [x11]
	ldp q1, q0, [x8]
	add x8, x11, x12
	stp q1, q0, [x8]
	b .L35_e0
.L35_60:
	cmp x10, #0x11
	b.cc .L35_80
	ldr q0, [x8]
	sub x12, x10, #0x10
	str q0, [x11]
	ldr q0, [x8, x12]
	str q0, [x11, x12]
	b .L35_e0
.L35_80:
	subs x12, x10, #0x8
	b.cc .L35_9c
	ldr x13, [x8]
	str x13, [x11]
	ldr x8, [x8, x12]
	str x8, [x11, x12]
	b .L35_e0
.L35_9c:
	subs x12, x10, #0x4
	b.cc .L35_b8
	ldr w13, [x8]
	str w13, [x11]
	ldr w8, [x8, x12]
	str w8, [x11, x12]
	b .L35_e0
.L35_b8:
	cmp x10, #0x1
	b.ne .L35_cc
	ldrb w8, [x8]
	strb w8, [x11]
	b .L35_e0
.L35_cc:
	ldrh w12, [x8]
	strh w12, [x11]
	sub x12, x10, #0x2
	ldrh w8, [x8, x12]
	strh w8, [x11, x12]
.L35_e0:
	add x9, x10, x9
	str x9, [x19, #80]
.L35_e8:
	ldp q3, q2, [x19]
	lsr x9, x9, #6
	ldp q0, q1, [x19, #32]
	sub x8, x2, x10
	ldr x14, [x19, #64]
	cbz x9, .L35_22c
	sub x11, x4, #0x40
	mov x12, x9
	mov x13, x20
	lsr x10, x11, #3
	add x11, x3, x11
	b .L35_124
.L35_118:
	subs x12, x12, #0x1
	add x13, x13, #0x40
	b.eq .L35_22c
.L35_124:
	add x15, x3, x14, lsl #3
	prfm pldl1keep, [x13, #320]
	add x14, x14, #0x1
	ldp q4, q5, [x13]
	cmp x14, x10
	ldp q6, q7, [x13, #32]
	ldp q18, q19, [x15]
	ldp q21, q22, [x15, #32]
	ext v16.16b, v5.16b, v5.16b, #8
	ext v17.16b, v4.16b, v4.16b, #8
	ext v20.16b, v6.16b, v6.16b, #8
	ext v23.16b, v7.16b, v7.16b, #8
	eor v5.16b, v19.16b, v5.16b
	eor v4.16b, v18.16b, v4.16b
	eor v7.16b, v22.16b, v7.16b
	eor v6.16b, v21.16b, v6.16b
	add v2.2d, v16.2d, v2.2d
	add v3.2d, v17.2d, v3.2d
	shrn v16.2s, v5.2d, #32
	xtn v5.2s, v5.2d
	xtn v17.2s, v4.2d
	xtn v18.2s, v6.2d
	xtn v19.2s, v7.2d
	add v0.2d, v20.2d, v0.2d
	add v1.2d, v23.2d, v1.2d
	shrn v4.2s, v4.2d, #32
	shrn v6.2s, v6.2d, #32
	shrn v7.2s, v7.2d, #32
	umlal v2.2d, v5.2s, v16.2s
	umlal v3.2d, v17.2s, v4.2s
	umlal v1.2d, v19.2s, v7.2s
	umlal v0.2d, v18.2s, v6.2s
	b.ne .L35_118
	ldp q4, q5, [x11]
	ushr v6.2d, v3.2d, #47
	ldp q7, q16, [x11, #32]
	ushr v17.2d, v2.2d, #47
	adrp x14, .L96_4b0
	eor v3.16b, v4.16b, v3.16b
	eor v2.16b, v5.16b, v2.16b
	ushr v4.2d, v1.2d, #47
	eor v1.16b, v16.16b, v1.16b
	ushr v5.2d, v0.2d, #47
	eor v0.16b, v7.16b, v0.16b
	ldr q16, [x14, #:lo12:.L96_4b0]
	mov w14, #0x79b1
	eor v6.16b, v6.16b, v3.16b
	eor v7.16b, v17.16b, v2.16b
	movk w14, #0x9e37, lsl #16
	eor v4.16b, v4.16b, v1.16b
	eor v5.16b, v5.16b, v0.16b
	dup v17.2s, w14
	mov x14, xzr
	mul v2.4s, v7.4s, v16.4s
	mul v3.4s, v6.4s, v16.4s
	xtn v7.2s, v7.2d
	xtn v6.2s, v6.2d
	mul v1.4s, v4.4s, v16.4s
	mul v0.4s, v5.4s, v16.4s
	xtn v4.2s, v4.2d
	xtn v5.2s, v5.2d
	umlal v2.2d, v7.2s, v17.2s
	umlal v3.2d, v6.2s, v17.2s
	umlal v0.2d, v5.2s, v17.2s
	umlal v1.2d, v4.2s, v17.2s
	b .L35_118
.L35_22c:
	ldr x10, [x19, #72]
	mov x0, x19
	stp q3, q2, [x19]
	stp q0, q1, [x19, #32]
	adds x9, x9, x10
	str xzr, [x19, #80]
	csinv x9, x9, xzr, cc
	subs x10, x8, #0x40
	csel x23, xzr, x10, cc
	stp x14, x9, [x19, #64]
	and x9, x23, #0xffffffffffffffc0
	and x2, x23, #0xffffffffffffffc0
	add x22, x1, x9
	sub x21, x8, x9
	bl twox_core.xxhash3.stripes.take_many_stripes
	ldr x8, [x19, #72]
	adds x8, x8, x23, lsr #6
	csinv x8, x8, xzr, cc
	cmp x21, #0x41
	str x8, [x19, #72]
	b.cc .L35_2c4
	ldp q1, q0, [x22, #32]
	sub x8, x21, #0x40
	ldp q2, q3, [x22]
	add x9, x22, x8
	add x8, x20, x8
	stp q1, q0, [x20, #32]
	stp q2, q3, [x20]
	ldp q1, q0, [x9, #32]
	ldp q2, q3, [x9]
	stp q1, q0, [x8, #32]
	stp q2, q3, [x8]
.L35_2ac:
	str x21, [x19, #80]
	ldp x20, x19, [sp, #48]
	.cfi_restore 19
	.cfi_restore 20
	ldp x22, x21, [sp, #32]
	.cfi_restore 21
	.cfi_restore 22
	ldr x23, [sp, #16]
	.cfi_restore 23
	ldp x29, x30, [sp], #64
	.cfi_def_cfa_offset 0
	.cfi_restore 29
	.cfi_restore 30
	ret
	.cfi_def_cfa_offset 64
	.cfi_offset 19, -8
	.cfi_offset 20, -16
	.cfi_offset 21, -24
	.cfi_offset 22, -32
	.cfi_offset 23, -48
	.cfi_offset 29, -64
	.cfi_offset 30, -56
.L35_2c4:
	cmp x21, #0x21
	b.cc .L35_300
	ldp q1, q0, [x22]
	sub x8, x21, #0x20
	add x9, x22, x8
	add x8, x20, x8
	stp q1, q0, [x20]
	ldp q1, q0, [x9]
	stp q1, q0, [x8]
	str x21, [x19, #80]
	ldp x20, x19, [sp, #48]
	.cfi_restore 19
	.cfi_restore 20
	ldp x22, x21, [sp, #32]
	.cfi_restore 21
	.cfi_restore 22
	ldr x23, [sp, #16]
	.cfi_restore 23
	ldp x29, x30, [sp], #64
	.cfi_def_cfa_offset 0
	.cfi_restore 29
	.cfi_restore 30
	ret
	.cfi_def_cfa_offset 64
	.cfi_offset 19, -8
	.cfi_offset 20, -16
	.cfi_offset 21, -24
	.cfi_offset 22, -32
	.cfi_offset 23, -48
	.cfi_offset 29, -64
	.cfi_offset 30, -56
.L35_300:
	cmp x21, #0x11
	b.cc .L35_334
	ldr q0, [x22]
	sub x8, x21, #0x10
	str q0, [x20]
	ldr q0, [x22, x8]
	str q0, [x20, x8]
	str x21, [x19, #80]
	ldp x20, x19, [sp, #48]
	.cfi_restore 19
	.cfi_restore 20
	ldp x22, x21, [sp, #32]
	.cfi_restore 21
	.cfi_restore 22
	ldr x23, [sp, #16]
	.cfi_restore 23
	ldp x29, x30, [sp], #64
	.cfi_def_cfa_offset 0
	.cfi_restore 29
	.cfi_restore 30
	ret
	.cfi_def_cfa_offset 64
	.cfi_offset 19, -8
	.cfi_offset 20, -16
	.cfi_offset 21, -24
	.cfi_offset 22, -32
	.cfi_offset 23, -48
	.cfi_offset 29, -64
	.cfi_offset 30, -56
.L35_334:
	subs x8, x21, #0x8
	b.cc .L35_364
	ldr x9, [x22]
	str x9, [x20]
	ldr x9, [x22, x8]
	str x9, [x20, x8]
	str x21, [x19, #80]
	ldp x20, x19, [sp, #48]
	.cfi_restore 19
	.cfi_restore 20
	ldp x22, x21, [sp, #32]
	.cfi_restore 21
	.cfi_restore 22
	ldr x23, [sp, #16]
	.cfi_restore 23
	ldp x29, x30, [sp], #64
	.cfi_def_cfa_offset 0
	.cfi_restore 29
	.cfi_restore 30
	ret
	.cfi_def_cfa_offset 64
	.cfi_offset 19, -8
	.cfi_offset 20, -16
	.cfi_offset 21, -24
	.cfi_offset 22, -32
	.cfi_offset 23, -48
	.cfi_offset 29, -64
	.cfi_offset 30, -56
.L35_364:
	subs x8, x21, #0x4
	b.cc .L35_394
	ldr w9, [x22]
	str w9, [x20]
	ldr w9, [x22, x8]
	str w9, [x20, x8]
	str x21, [x19, #80]
	ldp x20, x19, [sp, #48]
	.cfi_restore 19
	.cfi_restore 20
	ldp x22, x21, [sp, #32]
	.cfi_restore 21
	.cfi_restore 22
	ldr x23, [sp, #16]
	.cfi_restore 23
	ldp x29, x30, [sp], #64
	.cfi_def_cfa_offset 0
	.cfi_restore 29
	.cfi_restore 30
	ret
	.cfi_def_cfa_offset 64
	.cfi_offset 19, -8
	.cfi_offset 20, -16
	.cfi_offset 21, -24
	.cfi_offset 22, -32
	.cfi_offset 23, -48
	.cfi_offset 29, -64
	.cfi_offset 30, -56
.L35_394:
	subs x8, x21, #0x2
	b.cc .L35_3c4
	ldrh w9, [x22]
	strh w9, [x20]
	ldrh w9, [x22, x8]
	strh w9, [x20, x8]
	str x21, [x19, #80]
	ldp x20, x19, [sp, #48]
	.cfi_restore 19
	.cfi_restore 20
	ldp x22, x21, [sp, #32]
	.cfi_restore 21
	.cfi_restore 22
	ldr x23, [sp, #16]
	.cfi_restore 23
	ldp x29, x30, [sp], #64
	.cfi_def_cfa_offset 0
	.cfi_restore 29
	.cfi_restore 30
	ret
	.cfi_def_cfa_offset 64
	.cfi_offset 19, -8
	.cfi_offset 20, -16
	.cfi_offset 21, -24
	.cfi_offset 22, -32
	.cfi_offset 23, -48
	.cfi_offset 29, -64
	.cfi_offset 30, -56
.L35_3c4:
	cmp x21, #0x1
	b.ne .L35_2ac
	ldrb w8, [x22]
	strb w8, [x20]
	str x21, [x19, #80]
	ldp x20, x19, [sp, #48]
	.cfi_restore 19
	.cfi_restore 20
	ldp x22, x21, [sp, #32]
	.cfi_restore 21
	.cfi_restore 22
	ldr x23, [sp, #16]
	.cfi_restore 23
	ldp x29, x30, [sp], #64
	.cfi_def_cfa_offset 0
	.cfi_restore 29
	.cfi_restore 30
	ret
	.cfi_endproc
	.size twox_core.xxhash3.streaming.stream_counts.StreamCounts.write_through.2,.-twox_core.xxhash3.streaming.stream_counts.StreamCounts.write_through.2
	.section .text.twox_c.xxh32.Xxh32State.update,"ax",@progbits
	.p2align 6
	.type twox_c.xxh32.Xxh32State.update,@function
twox_c.xxh32.Xxh32State.update:
	.cfi_startproc
	ldr w8, [x0, #12]
	mov w9, #0xa7a8
	movk w9, #0xcdcc, lsl #16
	add w10, w8, w9
	cmp w10, #0x10
	b.cs .L36_74
	ldur x8, [x0, #20]
	adds x8, x2, x8
	csinv x8, x8, xzr, cc
	stur x8, [x0, #20]
	cbz w10, .L36_1c0
	add x9, x2, x10
	add x8, x0, x10
	cmp x9, #0xf
	add x8, x8, #0x20
	b.hi .L36_7c
	mov w10, #0x5858
	cmp x2, #0x11
	movk w10, #0x3233, lsl #16
	add w9, w9, w10
	str w9, [x0, #12]
	b.cc .L36_ac
	ldr q0, [x1]
	sub x9, x2, #0x10
	mov w0, wzr
	str q0, [x8]
	ldr q0, [x1, x9]
	str q0, [x8, x9]
	ret
.L36_74:
	mov w0, #0x1
	ret
.L36_7c:
	mov w9, #0x10
	cmp w10, #0x8
	sub x11, x9, x10
	add x9, x1, x11
	sub x2, x2, x11
	b.hi .L36_cc
	ldr x11, [x1]
	str x11, [x8]
	sub x8, x1, x10
	ldr x8, [x8, #8]
	str x8, [x0, #40]
	b .L36_154
.L36_ac:
	subs x9, x2, #0x8
	b.cc .L36_ec
	ldr x10, [x1]
	mov w0, wzr
	str x10, [x8]
	ldr x10, [x1, x9]
	str x10, [x8, x9]
	ret
.L36_cc:
	cmp w10, #0xc
	b.hi .L36_10c
	ldr w11, [x1]
	str w11, [x8]
	sub x8, x1, x10
	ldr w8, [x8, #12]
	str w8, [x0, #44]
	b .L36_154
.L36_ec:
	subs x9, x2, #0x4
	b.cc .L36_120
	ldr w10, [x1]
	mov w0, wzr
	str w10, [x8]
	ldr w10, [x1, x9]
	str w10, [x8, x9]
	ret
.L36_10c:
	cmp w10, #0xf
	b.ne .L36_140
	ldrb w10, [x1]
	strb w10, [x8]
	b .L36_154
.L36_120:
	subs x9, x2, #0x2
	b.cc .L36_2ec
	ldrh w10, [x1]
	mov w0, wzr
	strh w10, [x8]
	ldrh w10, [x1, x9]
	strh w10, [x8, x9]
	ret
.L36_140:
	ldrh w11, [x1]
	strh w11, [x8]
	sub x8, x1, x10
	ldrh w8, [x8, #14]
	strh w8, [x0, #46]
.L36_154:
	ldp w8, w11, [x0, #32]
	mov w10, #0xca77
	ldr w12, [x0]
	mov x1, x9
	movk w10, #0x85eb, lsl #16
	ldp w13, w14, [x0, #40]
	madd w8, w8, w10, w12
	ldr w12, [x0, #8]
	madd w11, w11, w10, w12
	ldr w12, [x0, #16]
	madd w12, w13, w10, w12
	ldr w13, [x0, #28]
	madd w10, w14, w10, w13
	ror w8, w8, #19
	mov w13, #0x79b1
	ror w11, w11, #19
	movk w13, #0x9e37, lsl #16
	ror w12, w12, #19
	mul w8, w8, w13
	ror w10, w10, #19
	mul w11, w11, w13
	mul w12, w12, w13
	mul w10, w10, w13
	str w8, [x0]
	str w11, [x0, #8]
	str w12, [x0, #16]
	str w10, [x0, #28]
.L36_1c0:
	stp x29, x30, [sp, #-16]!
	.cfi_def_cfa_offset 16
	.cfi_offset 29, -16
	.cfi_offset 30, -8
	cmp x2, #0x80
	mov x29, sp
	b.cc .L36_1e0
	bl twox_plain.xxhash32.StateInMemory.add_blocks_in_place
	mov w0, wzr
	ldp x29, x30, [sp], #16
	.cfi_def_cfa_offset 0
	.cfi_restore 29
	.cfi_restore 30
	ret
	.cfi_def_cfa_offset 16
	.cfi_offset 29, -16
	.cfi_offset 30, -8
.L36_1e0:
	cmp x2, #0x10
	b.cc .L36_268
	ldr w13, [x0]
	ldr w12, [x0, #8]
	mov w9, #0x79b1
	ldr w10, [x0, #16]
	ldr w8, [x0, #28]
	mov w11, #0xca77
	movk w9, #0x9e37, lsl #16
	movk w11, #0x85eb, lsl #16
.L36_208:
	ldp w14, w15, [x1]
	sub x2, x2, #0x10
	cmp x2, #0xf
	madd w13, w14, w11, w13
	madd w12, w15, w11, w12
	ldp w14, w15, [x1, #8]
	ror w13, w13, #19
	ror w12, w12, #19
	madd w10, w14, w11, w10
	add x14, x1, #0x10
	madd w8, w15, w11, w8
	mov x1, x14
	mul w13, w13, w9
	ror w10, w10, #19
	mul w12, w12, w9
	ror w8, w8, #19
	mul w10, w10, w9
	mul w8, w8, w9
	b.hi .L36_208
	mov x1, x14
	str w13, [x0]
	str w12, [x0, #8]
	str w10, [x0, #16]
	str w8, [x0, #28]
.L36_268:
	cbz x2, .L36_2d0
	subs x9, x2, #0x8
	add x8, x0, #0x20
	b.cc .L36_28c
	ldr x10, [x1]
	str x10, [x8]
	ldr x10, [x1, x9]
	str x10, [x8, x9]
	b .L36_2d0
.L36_28c:
	subs x9, x2, #0x4
	b.cc .L36_2a8
	ldr w10, [x1]
	str w10, [x8]
	ldr w10, [x1, x9]
	str w10, [x8, x9]
	b .L36_2d0
.L36_2a8:
	cmp x2, #0x1
	b.ne .L36_2bc
	ldrb w9, [x1]
	strb w9, [x8]
	b .L36_2d0
.L36_2bc:
	ldrh w9, [x1]
	strh w9, [x8]
	sub x9, x2, #0x2
	ldrh w10, [x1, x9]
	strh w10, [x8, x9]
.L36_2d0:
	mov w9, #0x5858
	movk w9, #0x3233, lsl #16
	add w9, w2, w9
	str w9, [x0, #12]
	mov w0, wzr
	ldp x29, x30, [sp], #16
	.cfi_def_cfa_offset 0
	.cfi_restore 29
	.cfi_restore 30
	ret
.L36_2ec:
	cmp x2, #0x1
	b.ne .L36_304
	ldrb w9, [x1]
	mov w0, wzr
	strb w9, [x8]
	ret
.L36_304:
	mov w0, wzr
	ret
	.cfi_endproc
	.size twox_c.xxh32.Xxh32State.update,.-twox_c.xxh32.Xxh32State.update
	.section .text.twox_plain.xxhash32.StateInMemory.add_blocks_in_place,"ax",@progbits
	.p2align 6
	.type twox_plain.xxhash32.StateInMemory.add_blocks_in_place,@function
twox_plain.xxhash32.StateInMemory.add_blocks_in_place:
	.cfi_startproc
	sub sp, sp, #0xd0
	.cfi_def_cfa_offset 208
	stp x26, x25, [sp, #144]
	.cfi_offset 25, -56
	.cfi_offset 26, -64
	ldr w26, [x0]
	ldr w25, [x0, #8]
	stp x24, x23, [sp, #160]
	.cfi_offset 23, -40
	.cfi_offset 24, -48
	ldr w24, [x0, #16]
	ldr w23, [x0, #28]
	stp x22, x21, [sp, #176]
	.cfi_offset 21, -24
	.cfi_offset 22, -32
	mov w22, #0x79b1
	mov x21, x1
	stp x20, x19, [sp, #192]
	.cfi_offset 19, -8
	.cfi_offset 20, -16
	mov x19, x2
	mov x20, x0
	movk w22, #0x9e37, lsl #16
	stp x29, x30, [sp, #128]
	.cfi_offset 29, -80
	.cfi_offset 30, -72
	add x29, sp, #0x80
.L37_40:
	mov x0, sp
	mov x1, x21
	prfm pldl1keep, [x21, #1024]
	prfm pldl1keep, [x21, #1088]
	bl twox_plain.xxhash32.rounds.products_of_block
	ldp w8, w9, [sp]
	ldp w10, w11, [sp, #8]
	ldp w12, w13, [sp, #16]
	add w8, w8, w26
	add w9, w9, w25
	sub x19, x19, #0x80
	ror w8, w8, #19
	add w10, w10, w24
	add w11, w11, w23
	ror w9, w9, #19
	ror w10, w10, #19
	ror w11, w11, #19
	madd w8, w8, w22, w12
	cmp x19, #0x80
	add x21, x21, #0x80
	madd w9, w9, w22, w13
	ldp w12, w13, [sp, #24]
	madd w10, w10, w22, w12
	ror w8, w8, #19
	madd w11, w11, w22, w13
	ror w9, w9, #19
	ldp w12, w13, [sp, #32]
	ror w10, w10, #19
	madd w8, w8, w22, w12
	ror w11, w11, #19
	madd w9, w9, w22, w13
	ldp w12, w13, [sp, #40]
	madd w10, w10, w22, w12
	ror w8, w8, #19
	madd w11, w11, w22, w13
	ror w9, w9, #19
	ldp w12, w13, [sp, #48]
	ror w10, w10, #19
	madd w8, w8, w22, w12
	ror w11, w11, #19
	madd w9, w9, w22, w13
	ldp w12, w13, [sp, #56]
	madd w10, w10, w22, w12
	ror w8, w8, #19
	madd w11, w11, w22, w13
	ror w9, w9, #19
	ldp w12, w13, [sp, #64]
	ror w10, w10, #19
	madd w8, w8, w22, w12
	ror w11, w11, #19
	madd w9, w9, w22, w13
	ldp w12, w13, [sp, #72]
	madd w10, w10, w22, w12
	ror w8, w8, #19
	madd w11, w11, w22, w13
	ror w9, w9, #19
	ldp w12, w13, [sp, #80]
	ror w10, w10, #19
	madd w8, w8, w22, w12
	ror w11, w11, #19
	madd w9, w9, w22, w13
	ldp w12, w13, [sp, #88]
	madd w10, w10, w22, w12
	ror w8, w8, #19
	madd w11, w11, w22, w13
	ror w9, w9, #19
	ldp w12, w13, [sp, #96]
	ror w10, w10, #19
	madd w8, w8, w22, w12
	ror w11, w11, #19
	madd w9, w9, w22, w13
	ldp w12, w13, [sp, #104]
	madd w10, w10, w22, w12
	ror w8, w8, #19
	madd w11, w11, w22, w13
	ror w9, w9, #19
	ldp w12, w13, [sp, #112]
	ror w10, w10, #19
	madd w8, w8, w22, w12
	ror w11, w11, #19
	madd w9, w9, w22, w13
	ldp w12, w13, [sp, #120]
	madd w10, w10, w22, w12
	ror w8, w8, #19
	madd w11, w11, w22, w13
	ror w9, w9, #19
	mul w26, w8, w22
	ror w10, w10, #19
	mul w25, w9, w22
	ror w8, w11, #19
	mul w24, w10, w22
	mul w23, w8, w22
	b.cs .L37_40
	cmp x19, #0x10
	b.cc .L37_214
	mov w8, #0xca77
	movk w8, #0x85eb, lsl #16
.L37_1c4:
	ldp w9, w10, [x21]
	ldp w11, w12, [x21, #8]
	sub x19, x19, #0x10
	madd w9, w9, w8, w26
	cmp x19, #0xf
	madd w10, w10, w8, w25
	madd w11, w11, w8, w24
	madd w12, w12, w8, w23
	ror w9, w9, #19
	ror w10, w10, #19
	ror w11, w11, #19
	mul w26, w9, w22
	ror w9, w12, #19
	mul w25, w10, w22
	mul w24, w11, w22
	mul w23, w9, w22
	add x9, x21, #0x10
	mov x21, x9
	b.hi .L37_1c4
	mov x21, x9
.L37_214:
	str w26, [x20]
	str w25, [x20, #8]
	str w24, [x20, #16]
	str w23, [x20, #28]
	cbz x19, .L37_28c
	subs x9, x19, #0x8
	add x8, x20, #0x20
	b.cc .L37_248
	ldr x10, [x21]
	str x10, [x8]
	ldr x10, [x21, x9]
	str x10, [x8, x9]
	b .L37_28c
.L37_248:
	subs x9, x19, #0x4
	b.cc .L37_264
	ldr w10, [x21]
	str w10, [x8]
	ldr w10, [x21, x9]
	str w10, [x8, x9]
	b .L37_28c
.L37_264:
	cmp x19, #0x1
	b.ne .L37_278
	ldrb w9, [x21]
	strb w9, [x8]
	b .L37_28c
.L37_278:
	ldrh w9, [x21]
	strh w9, [x8]
	sub x9, x19, #0x2
	ldrh w10, [x21, x9]
	strh w10, [x8, x9]
.L37_28c:
	mov w8, #0x5858
	ldp x22, x21, [sp, #176]
	.cfi_restore 21
	.cfi_restore 22
	movk w8, #0x3233, lsl #16
	ldp x24, x23, [sp, #160]
	.cfi_restore 23
	.cfi_restore 24
	add w8, w19, w8
	ldp x26, x25, [sp, #144]
	.cfi_restore 25
	.cfi_restore 26
	str w8, [x20, #12]
	ldp x20, x19, [sp, #192]
	.cfi_restore 19
	.cfi_restore 20
	ldp x29, x30, [sp, #128]
	.cfi_restore 29
	.cfi_restore 30
	add sp, sp, #0xd0
	.cfi_def_cfa_offset 0
	ret
	.cfi_endproc
	.size twox_plain.xxhash32.StateInMemory.add_blocks_in_place,.-twox_plain.xxhash32.StateInMemory.add_blocks_in_place
	.section .text.twox_c.xxh3_state.Xxh3State.update,"ax",@progbits
	.p2align 6
	.type twox_c.xxh3_state.Xxh3State.update,@function
twox_c.xxh3_state.Xxh3State.update:
	.cfi_startproc
	stp x29, x30, [sp, #-16]!
	.cfi_def_cfa_offset 16
	.cfi_offset 29, -16
	.cfi_offset 30, -8
	mov x9, #0x7774
	ldr x8, [x0, #544]
	mov x29, sp
	movk x9, #0x786f, lsl #16
	movk x9, #0x5858, lsl #32
	movk x9, #0x3348, lsl #48
	cmp x8, x9
	b.eq .L38_3c
	mov x9, #0x4b87
	movk x9, #0x93d2, lsl #16
	movk x9, #0x6e0f, lsl #32
	movk x9, #0xc5a1, lsl #48
	cmp x8, x9
	b.ne .L38_108
.L38_3c:
	ldr x8, [x0, #64]
	cmp x8, #0xf
	b.hi .L38_108
	ldr x9, [x0, #80]
	cmp x9, #0x100
	b.hi .L38_108
	ldr x10, [x0, #88]
	cbz x9, .L38_100
	adds x8, x2, x10
	csinv x8, x8, xzr, cc
.L38_64:
	mov w10, #0x100
	add x5, x0, #0x60
	str x8, [x0, #88]
	sub x10, x10, x9
	cmp x2, x10
	b.ls .L38_9c
	add x3, x0, #0x160
	mov w4, #0xc0
	cmp x2, #0x7ff
	b.hi .L38_114
	bl twox_core.xxhash3.streaming.stream_counts.StreamCounts.write_through
	mov w0, wzr
	ldp x29, x30, [sp], #16
	.cfi_def_cfa_offset 0
	.cfi_restore 29
	.cfi_restore 30
	ret
	.cfi_def_cfa_offset 16
	.cfi_offset 29, -16
	.cfi_offset 30, -8
.L38_9c:
	add x8, x9, x2
	cmp x2, #0x21
	str x8, [x0, #80]
	add x8, x5, x9
	b.cc .L38_124
	sub x10, x8, x1
	cmp x10, x2
	b.cs .L38_14c
	add x13, x9, x0
	sub x8, x13, x1
	add x8, x8, #0x60
	cmp x8, #0x20
	b.cs .L38_184
	mov x8, xzr
.L38_d4:
	add x9, x8, x9
	add x10, x9, x0
	sub x9, x2, x8
	add x8, x1, x8
	add x10, x10, #0x60
.L38_e8:
	ldrb w11, [x8], #1
	mov w0, wzr
	subs x9, x9, #0x1
	strb w11, [x10], #1
	b.ne .L38_e8
	b .L38_10c
.L38_100:
	mov x8, x2
	cbz x10, .L38_64
.L38_108:
	mov w0, #0x1
.L38_10c:
	ldp x29, x30, [sp], #16
	.cfi_def_cfa_offset 0
	.cfi_restore 29
	.cfi_restore 30
	ret
	.cfi_def_cfa_offset 16
	.cfi_offset 29, -16
	.cfi_offset 30, -8
.L38_114:
	bl twox_core.xxhash3.streaming.stream_counts.StreamCounts.write_through.2
	mov w0, wzr
	ldp x29, x30, [sp], #16
	.cfi_def_cfa_offset 0
	.cfi_restore 29
	.cfi_restore 30
	ret
	.cfi_def_cfa_offset 16
	.cfi_offset 29, -16
	.cfi_offset 30, -8
.L38_124:
	cmp x2, #0x11
	b.cc .L38_160
	ldr q0, [x1]
	sub x9, x2, #0x10
	mov w0, wzr
	str q0, [x8]
	ldr q0, [x1, x9]
	str q0, [x8, x9]
	ldp x29, x30, [sp], #16
	.cfi_def_cfa_offset 0
	.cfi_restore 29
	.cfi_restore 30
	ret
	.cfi_def_cfa_offset 16
	.cfi_offset 29, -16
	.cfi_offset 30, -8
.L38_14c:
	mov x0, x8
	bl memmove
	mov w0, wzr
	ldp x29, x30, [sp], #16
	.cfi_def_cfa_offset 0
	.cfi_restore 29
	.cfi_restore 30
	ret
	.cfi_def_cfa_offset 16
	.cfi_offset 29, -16
	.cfi_offset 30, -8
.L38_160:
	subs x9, x2, #0x8
	b.cc .L38_1f4
	ldr x10, [x1]
	mov w0, wzr
	str x10, [x8]
	ldr x10, [x1, x9]
	str x10, [x8, x9]
	ldp x29, x30, [sp], #16
	.cfi_def_cfa_offset 0
	.cfi_restore 29
	.cfi_restore 30
	ret
	.cfi_def_cfa_offset 16
	.cfi_offset 29, -16
	.cfi_offset 30, -8
.L38_184:
	and x11, x2, #0x18
	and x10, x2, #0xffffffffffffffe0
	and x8, x2, #0xffffffffffffffe0
	add x12, x1, #0x10
	add x13, x13, #0x70
	and x14, x2, #0xffffffffffffffe0
.L38_19c:
	ldp q0, q1, [x12, #-16]
	subs x14, x14, #0x20
	add x12, x12, #0x20
	stp q0, q1, [x13, #-16]
	add x13, x13, #0x20
	b.ne .L38_19c
	cmp x2, x10
	b.eq .L38_258
	cbz x11, .L38_d4
	add x11, x9, x10
	and x8, x2, #0xfffffffffffffff8
	add x12, x11, x0
	sub x11, x8, x10
	add x10, x1, x10
	add x12, x12, #0x60
.L38_1d8:
	ldr d0, [x10], #8
	subs x11, x11, #0x8
	str d0, [x12], #8
	b.ne .L38_1d8
	cmp x2, x8
	b.ne .L38_d4
	b .L38_258
.L38_1f4:
	subs x9, x2, #0x4
	b.cc .L38_218
	ldr w10, [x1]
	mov w0, wzr
	str w10, [x8]
	ldr w10, [x1, x9]
	str w10, [x8, x9]
	ldp x29, x30, [sp], #16
	.cfi_def_cfa_offset 0
	.cfi_restore 29
	.cfi_restore 30
	ret
	.cfi_def_cfa_offset 16
	.cfi_offset 29, -16
	.cfi_offset 30, -8
.L38_218:
	subs x9, x2, #0x2
	b.cc .L38_23c
	ldrh w10, [x1]
	mov w0, wzr
	strh w10, [x8]
	ldrh w10, [x1, x9]
	strh w10, [x8, x9]
	ldp x29, x30, [sp], #16
	.cfi_def_cfa_offset 0
	.cfi_restore 29
	.cfi_restore 30
	ret
	.cfi_def_cfa_offset 16
	.cfi_offset 29, -16
	.cfi_offset 30, -8
.L38_23c:
	cmp x2, #0x1
	b.ne .L38_258
	ldrb w9, [x1]
	mov w0, wzr
	strb w9, [x8]
	ldp x29, x30, [sp], #16
	.cfi_def_cfa_offset 0
	.cfi_restore 29
	.cfi_restore 30
	ret
	.cfi_def_cfa_offset 16
	.cfi_offset 29, -16
	.cfi_offset 30, -8
.L38_258:
	mov w0, wzr
	ldp x29, x30, [sp], #16
	.cfi_def_cfa_offset 0
	.cfi_restore 29
	.cfi_restore 30
	ret
	.cfi_endproc
	.size twox_c.xxh3_state.Xxh3State.update,.-twox_c.xxh3_state.Xxh3State.update
	.section .text.twox_c.xxh64.Xxh64State.update,"ax",@progbits
	.p2align 6
	.type twox_c.xxh64.Xxh64State.update,@function
twox_c.xxh64.Xxh64State.update:
	.cfi_startproc
	ldr w8, [x0, #40]
	mov w9, #0xa7a8
	movk w9, #0xcbc9, lsl #16
	add w11, w8, w9
	cmp w11, #0x20
	b.cs .L39_74
	ldr x8, [x0, #24]
	adds x8, x2, x8
	csinv x9, x8, xzr, cc
	mov w8, #0x5858
	movk w8, #0x3436, lsl #16
	str x9, [x0, #24]
	cbz w11, .L39_208
	add x9, x2, x11
	add x10, x0, x11
	cmp x9, #0x1f
	add x10, x10, #0x38
	b.hi .L39_7c
	add w8, w9, w8
	cmp x2, #0x11
	str w8, [x0, #40]
	b.cc .L39_ac
	ldr q0, [x1]
	sub x8, x2, #0x10
	mov w0, wzr
	str q0, [x10]
	ldr q0, [x1, x8]
	str q0, [x10, x8]
	ret
.L39_74:
	mov w0, #0x1
	ret
.L39_7c:
	mov w9, #0x20
	cmp w11, #0xf
	sub x12, x9, x11
	add x9, x1, x12
	sub x2, x2, x12
	b.hi .L39_cc
	ldr q0, [x1]
	str q0, [x10]
	sub x10, x1, x11
	ldr q0, [x10, #16]
	stur q0, [x0, #72]
	b .L39_18c
.L39_ac:
	subs x8, x2, #0x8
	b.cc .L39_ec
	ldr x9, [x1]
	mov w0, wzr
	str x9, [x10]
	ldr x9, [x1, x8]
	str x9, [x10, x8]
	ret
.L39_cc:
	cmp w11, #0x18
	b.hi .L39_10c
	ldr x12, [x1]
	str x12, [x10]
	sub x10, x1, x11
	ldr x10, [x10, #24]
	str x10, [x0, #80]
	b .L39_18c
.L39_ec:
	subs x8, x2, #0x4
	b.cc .L39_12c
	ldr w9, [x1]
	mov w0, wzr
	str w9, [x10]
	ldr w9, [x1, x8]
	str w9, [x10, x8]
	ret
.L39_10c:
	cmp w11, #0x1c
	b.hi .L39_14c
	ldr w12, [x1]
	str w12, [x10]
	sub x10, x1, x11
	ldr w10, [x10, #28]
	str w10, [x0, #84]
	b .L39_18c
.L39_12c:
	subs x8, x2, #0x2
	b.cc .L39_160
	ldrh w9, [x1]
	mov w0, wzr
	strh w9, [x10]
	ldrh w9, [x1, x8]
	strh w9, [x10, x8]
	ret
.L39_14c:
	cmp w11, #0x1f
	b.ne .L39_178
	ldrb w11, [x1]
	strb w11, [x10]
	b .L39_18c
.L39_160:
	cmp x2, #0x1
	b.ne .L39_384
	ldrb w8, [x1]
	mov w0, wzr
	strb w8, [x10]
	ret
.L39_178:
	ldrh w12, [x1]
	strh w12, [x10]
	sub x10, x1, x11
	ldrh w10, [x10, #30]
	strh w10, [x0, #86]
.L39_18c:
	mov x11, #0xeb4f
	ldp x10, x13, [x0, #56]
	movk x11, #0x27d4, lsl #16
	ldr x12, [x0]
	mov x1, x9
	movk x11, #0xae3d, lsl #32
	ldp x14, x15, [x0, #72]
	movk x11, #0xc2b2, lsl #48
	madd x10, x10, x11, x12
	ldr x12, [x0, #16]
	madd x12, x13, x11, x12
	ldr x13, [x0, #32]
	madd x13, x14, x11, x13
	ldr x14, [x0, #48]
	ror x10, x10, #33
	madd x11, x15, x11, x14
	mov x14, #0xca87
	movk x14, #0x85eb, lsl #16
	ror x12, x12, #33
	movk x14, #0x79b1, lsl #32
	ror x13, x13, #33
	movk x14, #0x9e37, lsl #48
	mul x10, x10, x14
	ror x11, x11, #33
	mul x12, x12, x14
	mul x13, x13, x14
	str x10, [x0]
	mul x11, x11, x14
	str x12, [x0, #16]
	str x13, [x0, #32]
	str x11, [x0, #48]
.L39_208:
	sub sp, sp, #0x10
	.cfi_def_cfa_offset 16
	cmp x2, #0x20
	b.cc .L39_2a0
	mov x9, #0xeb4f
	mov x11, #0xca87
	ldr x13, [x0]
	movk x9, #0x27d4, lsl #16
	movk x11, #0x85eb, lsl #16
	ldr x14, [x0, #16]
	ldr x10, [x0, #32]
	ldr x12, [x0, #48]
	movk x9, #0xae3d, lsl #32
	movk x11, #0x79b1, lsl #32
	movk x9, #0xc2b2, lsl #48
	movk x11, #0x9e37, lsl #48
.L39_244:
	prfm pldl1keep, [x1, #1024]
	ldp x15, x16, [x1]
	sub x2, x2, #0x20
	cmp x2, #0x1f
	madd x13, x15, x9, x13
	madd x14, x16, x9, x14
	ldp x15, x16, [x1, #16]
	add x1, x1, #0x20
	madd x10, x15, x9, x10
	ror x13, x13, #33
	madd x12, x16, x9, x12
	ror x14, x14, #33
	mul x13, x13, x11
	ror x10, x10, #33
	mul x14, x14, x11
	ror x12, x12, #33
	mul x10, x10, x11
	mul x12, x12, x11
	b.hi .L39_244
	str x13, [x0]
	str x14, [x0, #16]
	str x10, [x0, #32]
	str x12, [x0, #48]
.L39_2a0:
	cbz x2, .L39_2cc
	cmp x2, #0x11
	add x9, x0, #0x38
	b.cc .L39_2e0
	stp xzr, xzr, [sp]
	sub x10, x2, #0x10
	ldr q0, [x1]
	stp xzr, xzr, [sp]
	str q0, [x9]
	ldr q0, [x1, x10]
	str q0, [x9, x10]
.L39_2cc:
	add w8, w2, w8
	str w8, [x0, #40]
	mov w0, wzr
	add sp, sp, #0x10
	.cfi_def_cfa_offset 0
	ret
	.cfi_def_cfa_offset 16
.L39_2e0:
	subs x10, x2, #0x8
	b.cc .L39_30c
	ldr x11, [x1]
	str x11, [x9]
	ldr x11, [x1, x10]
	str x11, [x9, x10]
	add w8, w2, w8
	str w8, [x0, #40]
	mov w0, wzr
	add sp, sp, #0x10
	.cfi_def_cfa_offset 0
	ret
	.cfi_def_cfa_offset 16
.L39_30c:
	subs x10, x2, #0x4
	b.cc .L39_338
	ldr w11, [x1]
	str w11, [x9]
	ldr w11, [x1, x10]
	str w11, [x9, x10]
	add w8, w2, w8
	str w8, [x0, #40]
	mov w0, wzr
	add sp, sp, #0x10
	.cfi_def_cfa_offset 0
	ret
	.cfi_def_cfa_offset 16
.L39_338:
	cmp x2, #0x1
	b.ne .L39_35c
	ldrb w10, [x1]
	strb w10, [x9]
	add w8, w2, w8
	str w8, [x0, #40]
	mov w0, wzr
	add sp, sp, #0x10
	.cfi_def_cfa_offset 0
	ret
	.cfi_def_cfa_offset 16
.L39_35c:
	ldrh w10, [x1]
	strh w10, [x9]
	sub x10, x2, #0x2
	ldrh w11, [x1, x10]
	strh w11, [x9, x10]
	add w8, w2, w8
	str w8, [x0, #40]
	mov w0, wzr
	add sp, sp, #0x10
	.cfi_def_cfa_offset 0
	ret
.L39_384:
	mov w0, wzr
	ret
	.cfi_endproc
	.size twox_c.xxh64.Xxh64State.update,.-twox_c.xxh64.Xxh64State.update
	.section .text.twox_c.secrets.write_secret,"ax",@progbits
	.p2align 6
	.type twox_c.secrets.write_secret,@function
twox_c.secrets.write_secret:
	.cfi_startproc
	cbz x3, .L40_14c
	stp x29, x30, [sp, #-48]!
	.cfi_def_cfa_offset 48
	.cfi_offset 29, -48
	.cfi_offset 30, -40
	stp x20, x19, [sp, #32]
	.cfi_offset 19, -8
	.cfi_offset 20, -16
	mov x19, x1
	mov x20, x0
	mov x8, xzr
	mov x9, xzr
	str x21, [sp, #16]
	.cfi_offset 21, -32
	mov x29, sp
.L40_24:
	ldrb w10, [x2, x8]
	add x11, x8, #0x1
	strb w10, [x20, x9]
	cmp x11, x3
	add x9, x9, #0x1
	csinc x8, xzr, x8, eq
	cmp x19, x9
	b.ne .L40_24
	mov x21, #0x79f9
	mov x0, x2
	mov x1, x3
	movk x21, #0x9e37, lsl #16
	movk x21, #0x6791, lsl #32
	movk x21, #0x1656, lsl #48
	bl twox_c.xxh3_128.XXH3_128bits
	mov x12, #0x3d58
	mov x13, #0x2349
	lsr x8, x19, #4
	movk x12, #0x92d6, lsl #16
	movk x13, #0x3336, lsl #16
	rev x9, x0
	rev x10, x1
	movk x12, #0x7976, lsl #32
	movk x13, #0x3f00, lsl #32
	eor x10, x10, x9
	add x11, x20, #0x8
	movk x12, #0xc202, lsl #48
	movk x13, #0x5997, lsl #48
.L40_94:
	mov x15, #0xca87
	eor x14, x13, x10
	mov x16, #0x3c0000000000000
	movk x15, #0x85eb, lsl #16
	mov w17, #0xca76
	sub x8, x8, #0x1
	movk x15, #0x79b1, lsl #32
	movk w17, #0x85eb, lsl #16
	sub x13, x13, #0x1
	movk x15, #0x9e37, lsl #48
	madd x16, x14, x15, x16
	umulh x14, x14, x15
	eor x15, x12, x9
	add x12, x12, #0x1
	umaddl x15, w15, w17, x15
	mov x17, #0xeb4f
	movk x17, #0x27d4, lsl #16
	movk x17, #0xae3d, lsl #32
	add x14, x15, x14
	movk x17, #0xc2b2, lsl #48
	rev x15, x14
	eor x15, x15, x16
	umulh x16, x15, x17
	mul x15, x15, x17
	madd x14, x14, x17, x16
	ldp x16, x17, [x11, #-8]
	eor x15, x15, x15, lsr #37
	eor x14, x14, x14, lsr #37
	mul x15, x15, x21
	mul x14, x14, x21
	eor x16, x16, x15, lsr #32
	eor x17, x17, x14, lsr #32
	eor x15, x16, x15
	eor x14, x17, x14
	stp x15, x14, [x11, #-8]
	add x11, x11, #0x10
	cbnz x8, .L40_94
	add x8, x20, x19
	ldp x20, x19, [sp, #32]
	.cfi_restore 19
	.cfi_restore 20
	ldp x9, x10, [x8, #-16]
	ldr x21, [sp, #16]
	.cfi_restore 21
	eor x9, x9, x0
	eor x10, x10, x1
	stp x9, x10, [x8, #-16]
	ldp x29, x30, [sp], #48
	.cfi_def_cfa_offset 0
	.cfi_restore 29
	.cfi_restore 30
	ret
.L40_14c:
	brk #0x1
	.cfi_endproc
	.size twox_c.secrets.write_secret,.-twox_c.secrets.write_secret
	.section .text.XXH32,"ax",@progbits
	.p2align 6
	.globl XXH32
	.type XXH32,@function
XXH32:
	.cfi_startproc
	cmp x0, #0x0
	mov w8, #0x1000
	csel x11, x8, xzr, eq
	cmp x1, #0xf
	add x8, x0, x11
	b.hi .L41_d4
	mov w10, #0x67b1
	lsr x12, x1, #2
	add w11, w2, w1
	movk w10, #0x1656, lsl #16
	mov w9, #0xae3d
	movk w9, #0xc2b2, lsl #16
	add w11, w11, w10
	cbz x12, .L41_5c
	mov w13, #0xeb2f
	mov x14, x8
	movk w13, #0x27d4, lsl #16
.L41_44:
	ldr w15, [x14], #4
	subs x12, x12, #0x1
	madd w11, w15, w9, w11
	ror w11, w11, #15
	mul w11, w11, w13
	b.ne .L41_44
.L41_5c:
	ands x12, x1, #0x3
	b.eq .L41_b4
	and x13, x1, #0xc
	cmp x12, #0x1
	add x8, x8, x13
	ldrb w13, [x8]
	madd w11, w13, w10, w11
	mov w13, #0x79b1
	movk w13, #0x9e37, lsl #16
	ror w11, w11, #21
	mul w11, w11, w13
	b.eq .L41_b4
	ldrb w14, [x8, #1]
	cmp x12, #0x2
	madd w11, w14, w10, w11
	ror w11, w11, #21
	mul w11, w11, w13
	b.eq .L41_b4
	ldrb w8, [x8, #2]
	madd w8, w8, w10, w11
	ror w8, w8, #21
	mul w11, w8, w13
.L41_b4:
	eor w8, w11, w11, lsr #15
	mov w10, #0xca77
	movk w10, #0x85eb, lsl #16
	mul w8, w8, w10
	eor w8, w8, w8, lsr #13
	mul w8, w8, w9
	eor w0, w8, w8, lsr #16
	ret
.L41_d4:
	cmp x1, #0x7f
	b.hi .L41_250
	mov w12, #0x864f
	and x14, x1, #0xc
	mov w10, #0xca77
	movk w12, #0x61c8, lsl #16
	mov w9, #0x79b1
	movk w10, #0x85eb, lsl #16
	add w13, w2, w12
	add x12, x14, x0
	mov w14, #0x4428
	movk w14, #0x2423, lsl #16
	add x11, x11, x12
	movk w9, #0x9e37, lsl #16
	add w15, w2, w10
	add w16, w2, w14
	add x11, x11, #0x2
	mov x14, x1
.L41_11c:
	mov x12, x8
	ldr w8, [x8]
	sub x14, x14, #0x10
	cmp x14, #0xf
	add x11, x11, #0x10
	madd w8, w8, w10, w16
	ldp w17, w16, [x12, #4]
	ror w8, w8, #19
	madd w15, w17, w10, w15
	ldr w17, [x12, #12]
	madd w16, w16, w10, w2
	madd w13, w17, w10, w13
	ror w15, w15, #19
	ror w17, w16, #19
	mul w16, w8, w9
	ror w8, w13, #19
	mul w15, w15, w9
	mul w2, w17, w9
	mul w13, w8, w9
	add x8, x12, #0x10
	b.hi .L41_11c
	ror w8, w16, #31
	ror w14, w15, #25
	ror w15, w2, #20
	ror w13, w13, #14
	add w8, w8, w1
	add w15, w14, w15
	ubfx x14, x1, #2, #2
	add w15, w8, w15
	mov w8, #0xae3d
	movk w8, #0xc2b2, lsl #16
	add w13, w15, w13
	cbz x14, .L41_1e8
	ldr w15, [x12, #16]
	cmp x14, #0x1
	madd w13, w15, w8, w13
	mov w15, #0xeb2f
	movk w15, #0x27d4, lsl #16
	ror w13, w13, #15
	mul w13, w13, w15
	b.eq .L41_1e8
	ldr w16, [x12, #20]
	cmp x14, #0x2
	madd w13, w16, w8, w13
	ror w13, w13, #15
	mul w13, w13, w15
	b.eq .L41_1e8
	ldr w12, [x12, #24]
	madd w12, w12, w8, w13
	ror w12, w12, #15
	mul w13, w12, w15
.L41_1e8:
	ands x14, x1, #0x3
	b.eq .L41_238
	ldurb w15, [x11, #-2]
	mov w12, #0x67b1
	cmp x14, #0x1
	movk w12, #0x1656, lsl #16
	madd w13, w15, w12, w13
	ror w13, w13, #21
	mul w13, w13, w9
	b.eq .L41_238
	ldurb w15, [x11, #-1]
	cmp x14, #0x2
	madd w13, w15, w12, w13
	ror w13, w13, #21
	mul w13, w13, w9
	b.eq .L41_238
	ldrb w11, [x11]
	madd w11, w11, w12, w13
	ror w11, w11, #21
	mul w13, w11, w9
.L41_238:
	eor w9, w13, w13, lsr #15
	mul w9, w9, w10
	eor w9, w9, w9, lsr #13
	mul w8, w9, w8
	eor w0, w8, w8, lsr #16
	ret
.L41_250:
	mov w0, w2
	mov x2, x1
	mov x1, x8
	b twox_plain.xxhash32.rounds.impl_from_128
	.cfi_endproc
	.size XXH32,.-XXH32
	.section .text.XXH32_canonicalFromHash,"ax",@progbits
	.p2align 6
	.globl XXH32_canonicalFromHash
	.type XXH32_canonicalFromHash,@function
XXH32_canonicalFromHash:
	.cfi_startproc
	rev w8, w1
	str w8, [x0]
	ret
	.cfi_endproc
	.size XXH32_canonicalFromHash,.-XXH32_canonicalFromHash
	.section .text.XXH32_copyState,"ax",@progbits
	.p2align 6
	.globl XXH32_copyState
	.type XXH32_copyState,@function
XXH32_copyState:
	.cfi_startproc
	ldp q1, q0, [x1, #16]
	ldr q2, [x1]
	str q2, [x0]
	stp q1, q0, [x0, #16]
	ret
	.cfi_endproc
	.size XXH32_copyState,.-XXH32_copyState
	.section .text.XXH32_hashFromCanonical,"ax",@progbits
	.p2align 6
	.globl XXH32_hashFromCanonical
	.type XXH32_hashFromCanonical,@function
XXH32_hashFromCanonical:
	.cfi_startproc
	ldr w8, [x0]
	rev w0, w8
	ret
	.cfi_endproc
	.size XXH32_hashFromCanonical,.-XXH32_hashFromCanonical
	.section .text.XXH3_64bits,"ax",@progbits
	.p2align 6
	.globl XXH3_64bits
	.type XXH3_64bits,@function
XXH3_64bits:
	.cfi_startproc
	mov w8, #0x1000
	cmp x0, #0x0
	csel x8, x8, xzr, eq
	add x0, x0, x8
	b twox_c.xxh3_64.XXH3_64bits
	.cfi_endproc
	.size XXH3_64bits,.-XXH3_64bits
	.section .text.XXH3_64bits_dispatch,"ax",@progbits
	.p2align 6
	.globl XXH3_64bits_dispatch
	.type XXH3_64bits_dispatch,@function
XXH3_64bits_dispatch:
	.cfi_startproc
	mov w8, #0x1000
	cmp x0, #0x0
	csel x8, x8, xzr, eq
	add x0, x0, x8
	b twox_c.xxh3_64.XXH3_64bits
	.cfi_endproc
	.size XXH3_64bits_dispatch,.-XXH3_64bits_dispatch
	.section .text.XXH3_64bits_withSecret,"ax",@progbits
	.p2align 6
	.globl XXH3_64bits_withSecret
	.type XXH3_64bits_withSecret,@function
XXH3_64bits_withSecret:
	.cfi_startproc
	mov w8, #0x1000
	cmp x0, #0x0
	csel x9, x8, xzr, eq
	cmp x2, #0x0
	csel x8, x8, xzr, eq
	add x0, x0, x9
	add x2, x2, x8
	b twox_c.xxh3_64.XXH3_64bits_withSecret
	.cfi_endproc
	.size XXH3_64bits_withSecret,.-XXH3_64bits_withSecret
	.section .text.XXH3_64bits_withSecret_dispatch,"ax",@progbits
	.p2align 6
	.globl XXH3_64bits_withSecret_dispatch
	.type XXH3_64bits_withSecret_dispatch,@function
XXH3_64bits_withSecret_dispatch:
	.cfi_startproc
	mov w8, #0x1000
	cmp x0, #0x0
	csel x9, x8, xzr, eq
	cmp x2, #0x0
	csel x8, x8, xzr, eq
	add x0, x0, x9
	add x2, x2, x8
	b twox_c.xxh3_64.XXH3_64bits_withSecret
	.cfi_endproc
	.size XXH3_64bits_withSecret_dispatch,.-XXH3_64bits_withSecret_dispatch
	.section .text.XXH3_64bits_withSecretandSeed,"ax",@progbits
	.p2align 6
	.globl XXH3_64bits_withSecretandSeed
	.type XXH3_64bits_withSecretandSeed,@function
XXH3_64bits_withSecretandSeed:
	.cfi_startproc
	mov w10, #0x1000
	cmp x0, #0x0
	mov x9, x2
	csel x11, x10, xzr, eq
	cmp x2, #0x0
	mov x8, x1
	csel x10, x10, xzr, eq
	cmp x1, #0xf0
	add x2, x0, x11
	b.hi .L49_98
	cmp x8, #0x10
	b.hi .L49_b0
	cmp x8, #0x9
	b.cc .L49_32c
	mov x11, #0x39b9
	mov x12, #0x523a
	add x10, x2, x8
	movk x11, #0xea42, lsl #16
	movk x12, #0x996, lsl #16
	ldr x9, [x2]
	movk x11, #0x737b, lsl #32
	movk x12, #0xbc3b, lsl #32
	ldur x10, [x10, #-8]
	movk x11, #0x6782, lsl #48
	movk x12, #0xaf56, lsl #48
	add x11, x4, x11
	sub x12, x12, x4
	eor x9, x9, x11
	eor x10, x10, x12
	mul x11, x10, x9
	umulh x12, x10, x9
	rev x9, x9
	add x8, x9, x8
	add x8, x8, x10
	eor x9, x12, x11
	add x8, x8, x9
	eor x8, x8, x8, lsr #37
	b .L49_308
.L49_98:
	cmp x3, #0x88
	b.cc .L49_324
	add x0, x9, x10
	mov x1, x3
	mov x3, x8
	b twox_core.width_64.oneshot_long
.L49_b0:
	cmp x8, #0x80
	b.hi .L49_398
	mov x9, #0xfeb8
	mov x12, #0x17c
	mov x15, #0xd4de
	movk x9, #0x396c, lsl #16
	ldp x10, x11, [x2]
	movk x9, #0xa423, lsl #32
	movk x12, #0x2c81, lsl #16
	mov x16, #0x4072
	movk x9, #0xbe4b, lsl #48
	movk x12, #0x21f7, lsl #32
	movk x15, #0xe96d, lsl #16
	movk x12, #0x1cad, lsl #48
	add x13, x4, x9
	add x9, x2, x8
	movk x16, #0xa4a4, lsl #16
	sub x12, x12, x4
	eor x10, x10, x13
	ldp x13, x14, [x9, #-16]
	movk x15, #0x9083, lsl #32
	movk x16, #0xb3b7, lsl #32
	eor x11, x11, x12
	movk x15, #0xdb97, lsl #48
	movk x16, #0x1f67, lsl #48
	mul x12, x11, x10
	cmp x8, #0x21
	umulh x10, x11, x10
	add x11, x4, x15
	sub x15, x16, x4
	eor x11, x13, x11
	eor x13, x14, x15
	mul x14, x13, x11
	umulh x11, x13, x11
	mov x13, #0xca87
	movk x13, #0x85eb, lsl #16
	eor x10, x10, x12
	movk x13, #0x79b1, lsl #32
	movk x13, #0x9e37, lsl #48
	madd x10, x8, x13, x10
	eor x11, x11, x14
	add x10, x10, x11
	b.cc .L49_304
	mov x14, #0x5a82
	mov x13, #0x79cb
	mov x16, #0x8b8
	movk x14, #0x7dd0, lsl #16
	ldp x11, x12, [x2, #16]
	movk x13, #0x4ee6, lsl #16
	movk x14, #0xffcc, lsl #32
	mov x17, #0x35e0
	movk x13, #0xc0cc, lsl #32
	movk x14, #0x2172, lsl #48
	movk x16, #0x7446, lsl #16
	movk x13, #0x78e5, lsl #48
	sub x14, x14, x4
	movk x17, #0xe690, lsl #16
	add x13, x4, x13
	eor x12, x12, x14
	movk x16, #0x43f7, lsl #32
	ldp x14, x15, [x9, #-32]
	movk x17, #0x3a81, lsl #32
	eor x11, x11, x13
	movk x16, #0x8e24, lsl #48
	movk x17, #0x4c26, lsl #48
	mul x13, x12, x11
	cmp x8, #0x41
	umulh x11, x12, x11
	add x12, x4, x16
	sub x16, x17, x4
	eor x12, x14, x12
	eor x14, x15, x16
	mul x15, x14, x12
	umulh x12, x14, x12
	eor x11, x11, x13
	eor x12, x12, x15
	add x11, x11, x12
	add x10, x10, x11
	b.cc .L49_304
	mov x14, #0xd088
	mov x13, #0x283c
	mov x16, #0x6471
	movk x14, #0x8b65, lsl #16
	ldp x11, x12, [x2, #32]
	movk x13, #0xbb52, lsl #16
	movk x14, #0x531b, lsl #32
	mov x17, #0x1938
	movk x13, #0xc391, lsl #32
	movk x14, #0xa32e, lsl #48
	movk x16, #0x9748, lsl #16
	movk x13, #0xcb00, lsl #48
	sub x14, x14, x4
	movk x17, #0x46ef, lsl #16
	add x13, x4, x13
	eor x12, x12, x14
	movk x16, #0xda2, lsl #32
	ldp x14, x15, [x9, #-48]
	movk x17, #0xdea9, lsl #32
	eor x11, x11, x13
	movk x16, #0x4ef9, lsl #48
	movk x17, #0xd8ac, lsl #48
	mul x13, x12, x11
	cmp x8, #0x61
	umulh x11, x12, x11
	add x12, x4, x16
	sub x16, x17, x4
	eor x12, x14, x12
	eor x14, x15, x16
	mul x15, x14, x12
	umulh x12, x14, x12
	eor x11, x11, x13
	eor x12, x12, x15
	add x11, x11, x12
	add x10, x10, x11
	b.cc .L49_304
	mov x13, #0xdcf9
	mov x12, #0xfaa8
	mov x14, #0x518a
	movk x13, #0xc7bb, lsl #16
	ldp x8, x11, [x2, #48]
	movk x12, #0x3f76, lsl #16
	movk x13, #0xbc7, lsl #32
	mov x15, #0x9fc8
	movk x12, #0x9ce3, lsl #32
	movk x13, #0x1d4f, lsl #48
	movk x14, #0x4be0, lsl #16
	movk x12, #0x3f34, lsl #48
	sub x13, x13, x4
	movk x15, #0xc97e, lsl #16
	add x12, x4, x12
	eor x11, x11, x13
	movk x14, #0xb4cd, lsl #32
	ldp x13, x9, [x9, #-64]
	movk x15, #0x78d9, lsl #32
	eor x8, x8, x12
	movk x14, #0x3159, lsl #48
	movk x15, #0x6473, lsl #48
	mul x12, x11, x8
	umulh x8, x11, x8
	add x11, x4, x14
	sub x14, x15, x4
	eor x11, x13, x11
	eor x9, x9, x14
	mul x13, x9, x11
	umulh x9, x9, x11
	eor x8, x8, x12
	eor x9, x9, x13
	add x8, x8, x9
	add x10, x10, x8
.L49_304:
	eor x8, x10, x10, lsr #37
.L49_308:
	mov x9, #0x79f9
	movk x9, #0x9e37, lsl #16
	movk x9, #0x6791, lsl #32
	movk x9, #0x1656, lsl #48
	mul x8, x8, x9
	eor x0, x8, x8, lsr #32
	ret
.L49_324:
	mov x0, xzr
	ret
.L49_32c:
	cmp x8, #0x4
	b.cc .L49_3b0
	add x9, x2, x8
	ldr w11, [x2]
	rev w10, w4
	ldur w9, [x9, #-4]
	eor x10, x4, x10, lsl #32
	orr x9, x9, x11, lsl #32
	mov x11, #0xd5a2
	movk x11, #0xc5ec, lsl #16
	movk x11, #0xb174, lsl #32
	movk x11, #0xc73a, lsl #48
	sub x10, x11, x10
	eor x9, x9, x10
	ror x10, x9, #40
	eor x10, x10, x9, ror #15
	eor x9, x10, x9
	mov x10, #0xdf25
	movk x10, #0x1e98, lsl #16
	movk x10, #0x1c65, lsl #32
	movk x10, #0x9fb2, lsl #48
	mul x9, x9, x10
	add x8, x8, x9, lsr #35
	eor x8, x8, x9
	mul x8, x8, x10
	eor x0, x8, x8, lsr #28
	ret
.L49_398:
	adrp x0, .L98_0
	add x0, x0, :lo12:.L98_0
	mov x1, x4
	add x4, x2, #0x8
	mov x3, x8
	b twox_core.width_64.impl_129_to_240_bytes
.L49_3b0:
	mov x10, #0xeb4f
	mov x9, #0x79f9
	movk x10, #0x27d4, lsl #16
	movk x9, #0x9e37, lsl #16
	movk x10, #0xae3d, lsl #32
	movk x9, #0x67b1, lsl #32
	movk x10, #0xc2b2, lsl #48
	movk x9, #0x1656, lsl #48
	cbz x8, .L49_41c
	add x11, x2, x8
	ldrb w12, [x2]
	ldurb w11, [x11, #-1]
	orr x11, x11, x8, lsl #8
	lsr x8, x8, #1
	orr x11, x11, x12, lsl #16
	ldrb w8, [x2, x8]
	mov w12, #0x5a9b
	movk w12, #0x8727, lsl #16
	orr x8, x11, x8, lsl #24
	add x11, x4, x12
	eor x8, x8, x11
	eor x8, x8, x8, lsr #33
	mul x8, x8, x10
	eor x8, x8, x8, lsr #29
	mul x8, x8, x9
	eor x0, x8, x8, lsr #32
	ret
.L49_41c:
	mov x8, #0x1ddc
	movk x8, #0x5dc2, lsl #16
	movk x8, #0xf910, lsl #32
	movk x8, #0x8726, lsl #48
	eor x8, x4, x8
	eor x8, x8, x8, lsr #33
	mul x8, x8, x10
	eor x8, x8, x8, lsr #29
	mul x8, x8, x9
	eor x0, x8, x8, lsr #32
	ret
	.cfi_endproc
	.size XXH3_64bits_withSecretandSeed,.-XXH3_64bits_withSecretandSeed
	.section .text.XXH3_64bits_withSeed,"ax",@progbits
	.p2align 6
	.globl XXH3_64bits_withSeed
	.type XXH3_64bits_withSeed,@function
XXH3_64bits_withSeed:
	.cfi_startproc
	cmp x0, #0x0
	mov w8, #0x1000
	csel x8, x8, xzr, eq
	add x0, x0, x8
	b twox_c.xxh3_64.XXH3_64bits_withSeed
	.cfi_endproc
	.size XXH3_64bits_withSeed,.-XXH3_64bits_withSeed
	.section .text.XXH3_64bits_withSeed_dispatch,"ax",@progbits
	.p2align 6
	.globl XXH3_64bits_withSeed_dispatch
	.type XXH3_64bits_withSeed_dispatch,@function
XXH3_64bits_withSeed_dispatch:
	.cfi_startproc
	cmp x0, #0x0
	mov w8, #0x1000
	csel x8, x8, xzr, eq
	add x0, x0, x8
	b twox_c.xxh3_64.XXH3_64bits_withSeed
	.cfi_endproc
	.size XXH3_64bits_withSeed_dispatch,.-XXH3_64bits_withSeed_dispatch
	.section .text.XXH3_copyState,"ax",@progbits
	.p2align 6
	.globl XXH3_copyState
	.type XXH3_copyState,@function
XXH3_copyState:
	.cfi_startproc
	mov w2, #0x240
	b memmove
	.cfi_endproc
	.size XXH3_copyState,.-XXH3_copyState
	.section .text.XXH3_generateSecret_fromSeed,"ax",@progbits
	.p2align 6
	.globl XXH3_generateSecret_fromSeed
	.type XXH3_generateSecret_fromSeed,@function
XXH3_generateSecret_fromSeed:
	.cfi_startproc
	fmov d0, x1
	adrp x8, .L96_4c0
	adrp x9, .L96_4d0
	ldr q2, [x9, #:lo12:.L96_4d0]
	adrp x9, .L96_4f0
	ldr q4, [x9, #:lo12:.L96_4f0]
	neg v1.2d, v0.2d
	zip1 v0.2d, v0.2d, v1.2d
	ldr q1, [x8, #:lo12:.L96_4c0]
	adrp x8, .L96_4e0
	ldr q3, [x8, #:lo12:.L96_4e0]
	adrp x8, .L96_500
	ldr q5, [x8, #:lo12:.L96_500]
	adrp x8, .L96_510
	ldr q6, [x8, #:lo12:.L96_510]
	adrp x8, .L96_520
	add v2.2d, v0.2d, v2.2d
	add v1.2d, v0.2d, v1.2d
	ldr q7, [x8, #:lo12:.L96_520]
	adrp x8, .L96_530
	add v5.2d, v0.2d, v5.2d
	add v4.2d, v0.2d, v4.2d
	ldr q16, [x8, #:lo12:.L96_530]
	adrp x8, .L96_540
	add v3.2d, v0.2d, v3.2d
	stp q1, q2, [x0]
	add v2.2d, v0.2d, v6.2d
	ldr q17, [x8, #:lo12:.L96_540]
	adrp x8, .L96_550
	ldr q1, [x8, #:lo12:.L96_550]
	adrp x8, .L96_570
	stp q3, q4, [x0, #32]
	stp q5, q2, [x0, #64]
	ldr q2, [x8, #:lo12:.L96_570]
	adrp x8, .L96_560
	ldr q6, [x8, #:lo12:.L96_560]
	add v4.2d, v0.2d, v16.2d
	add v3.2d, v0.2d, v7.2d
	add v1.2d, v0.2d, v1.2d
	add v5.2d, v0.2d, v17.2d
	add v2.2d, v0.2d, v2.2d
	add v0.2d, v0.2d, v6.2d
	stp q3, q4, [x0, #96]
	stp q5, q1, [x0, #128]
	stp q0, q2, [x0, #160]
	ret
	.cfi_endproc
	.size XXH3_generateSecret_fromSeed,.-XXH3_generateSecret_fromSeed
	.section .text.XXH64,"ax",@progbits
	.p2align 6
	.globl XXH64
	.type XXH64,@function
XXH64:
	.cfi_startproc
	cmp x0, #0x0
	mov w9, #0x1000
	mov x8, x1
	csel x9, x9, xzr, eq
	cmp x1, #0x1f
	add x1, x0, x9
	b.hi .L54_134
	mov x11, #0x67c5
	mov x9, #0xeb4f
	mov x10, #0xca87
	movk x11, #0x1656, lsl #16
	movk x9, #0x27d4, lsl #16
	movk x10, #0x85eb, lsl #16
	movk x11, #0xeb2f, lsl #32
	lsr x13, x8, #3
	add x12, x8, x2
	movk x11, #0x27d4, lsl #48
	movk x9, #0xae3d, lsl #32
	movk x10, #0x79b1, lsl #32
	movk x9, #0xc2b2, lsl #48
	movk x10, #0x9e37, lsl #48
	add x12, x12, x11
	cbz x13, .L54_94
	mov x14, x1
.L54_60:
	ldr x15, [x14], #8
	subs x13, x13, #0x1
	mul x15, x15, x9
	ror x15, x15, #33
	mul x15, x15, x10
	eor x12, x15, x12
	mov x15, #0xae63
	ror x12, x12, #37
	movk x15, #0xc2b2, lsl #16
	movk x15, #0xca77, lsl #32
	movk x15, #0x85eb, lsl #48
	madd x12, x12, x10, x15
	b.ne .L54_60
.L54_94:
	mov x13, #0x79f9
	movk x13, #0x9e37, lsl #16
	movk x13, #0x67b1, lsl #32
	movk x13, #0x1656, lsl #48
	tbz w8, #2, .L54_c0
	and x14, x8, #0x18
	ldr w14, [x1, x14]
	mul x14, x14, x10
	eor x12, x14, x12
	ror x12, x12, #41
	madd x12, x12, x9, x13
.L54_c0:
	ands x14, x8, #0x3
	b.eq .L54_11c
	and x8, x8, #0x1c
	cmp x14, #0x1
	add x8, x1, x8
	ldrb w15, [x8]
	mul x15, x15, x11
	eor x12, x15, x12
	ror x12, x12, #53
	mul x12, x12, x10
	b.eq .L54_11c
	ldrb w15, [x8, #1]
	cmp x14, #0x2
	mul x15, x15, x11
	eor x12, x15, x12
	ror x12, x12, #53
	mul x12, x12, x10
	b.eq .L54_11c
	ldrb w8, [x8, #2]
	mul x8, x8, x11
	eor x8, x8, x12
	ror x8, x8, #53
	mul x12, x8, x10
.L54_11c:
	eor x8, x12, x12, lsr #33
	mul x8, x8, x9
	eor x8, x8, x8, lsr #29
	mul x8, x8, x13
	eor x0, x8, x8, lsr #32
	ret
.L54_134:
	mov x0, x2
	mov x2, x8
	b twox_plain.xxhash64.rounds.impl_long
	.cfi_endproc
	.size XXH64,.-XXH64
	.section .text.XXH64_canonicalFromHash,"ax",@progbits
	.p2align 6
	.globl XXH64_canonicalFromHash
	.type XXH64_canonicalFromHash,@function
XXH64_canonicalFromHash:
	.cfi_startproc
	rev x8, x1
	str x8, [x0]
	ret
	.cfi_endproc
	.size XXH64_canonicalFromHash,.-XXH64_canonicalFromHash
	.section .text.XXH64_copyState,"ax",@progbits
	.p2align 6
	.globl XXH64_copyState
	.type XXH64_copyState,@function
XXH64_copyState:
	.cfi_startproc
	ldp q0, q1, [x1]
	ldr x8, [x1, #80]
	ldp q4, q2, [x1, #48]
	ldr q3, [x1, #32]
	str x8, [x0, #80]
	stp q1, q3, [x0, #16]
	stp q4, q2, [x0, #48]
	str q0, [x0]
	ret
	.cfi_endproc
	.size XXH64_copyState,.-XXH64_copyState
	.section .text.XXH64_hashFromCanonical,"ax",@progbits
	.p2align 6
	.globl XXH64_hashFromCanonical
	.type XXH64_hashFromCanonical,@function
XXH64_hashFromCanonical:
	.cfi_startproc
	ldr x8, [x0]
	rev x0, x8
	ret
	.cfi_endproc
	.size XXH64_hashFromCanonical,.-XXH64_hashFromCanonical
	.section .text.XXH_versionNumber,"ax",@progbits
	.p2align 6
	.globl XXH_versionNumber
	.type XXH_versionNumber,@function
XXH_versionNumber:
	.cfi_startproc
	mov w0, #0x321
	ret
	.cfi_endproc
	.size XXH_versionNumber,.-XXH_versionNumber
	.section .text.XXH32_digest,"ax",@progbits
	.p2align 6
	.globl XXH32_digest
	.type XXH32_digest,@function
XXH32_digest:
	.cfi_startproc
	ldr w8, [x0, #12]
	mov w9, #0xa7a8
	movk w9, #0xcdcc, lsl #16
	add w9, w8, w9
	cmp w9, #0xf
	b.hi .L59_50
	ldur x11, [x0, #20]
	mov w8, #0x67b1
	movk w8, #0x1656, lsl #16
	cmp x11, #0xf
	b.hi .L59_58
	ldr w10, [x0, #4]
	add w14, w10, w8
	lsr x13, x9, #2
	mov w10, #0xae3d
	add x12, x0, #0x20
	movk w10, #0xc2b2, lsl #16
	add w11, w14, w11
	cbnz x13, .L59_9c
	b .L59_c0
.L59_50:
	mov w0, wzr
	ret
.L59_58:
	ldr w10, [x0]
	ldr w12, [x0, #28]
	ldr w13, [x0, #16]
	ldr w14, [x0, #8]
	ror w10, w10, #31
	ror w13, w13, #20
	ror w12, w12, #14
	ror w14, w14, #25
	add w12, w13, w12
	add w10, w14, w10
	add w14, w12, w10
	lsr x13, x9, #2
	mov w10, #0xae3d
	add x12, x0, #0x20
	movk w10, #0xc2b2, lsl #16
	add w11, w14, w11
	cbz x13, .L59_c0
.L59_9c:
	mov x14, x12
.L59_a0:
	ldr w15, [x14], #4
	subs x13, x13, #0x1
	madd w11, w15, w10, w11
	mov w15, #0xeb2f
	movk w15, #0x27d4, lsl #16
	ror w11, w11, #15
	mul w11, w11, w15
	b.ne .L59_a0
.L59_c0:
	ands x13, x9, #0x3
	b.eq .L59_118
	and x9, x9, #0xc
	cmp x13, #0x1
	add x9, x12, x9
	ldrb w12, [x9]
	madd w11, w12, w8, w11
	mov w12, #0x79b1
	movk w12, #0x9e37, lsl #16
	ror w11, w11, #21
	mul w11, w11, w12
	b.eq .L59_118
	ldrb w14, [x9, #1]
	cmp x13, #0x2
	madd w11, w14, w8, w11
	ror w11, w11, #21
	mul w11, w11, w12
	b.eq .L59_118
	ldrb w9, [x9, #2]
	madd w8, w9, w8, w11
	ror w8, w8, #21
	mul w11, w8, w12
.L59_118:
	eor w8, w11, w11, lsr #15
	mov w9, #0xca77
	movk w9, #0x85eb, lsl #16
	mul w8, w8, w9
	eor w8, w8, w8, lsr #13
	mul w8, w8, w10
	eor w0, w8, w8, lsr #16
	ret
	.cfi_endproc
	.size XXH32_digest,.-XXH32_digest
	.section .text.XXH64_digest,"ax",@progbits
	.p2align 6
	.globl XXH64_digest
	.type XXH64_digest,@function
XXH64_digest:
	.cfi_startproc
	ldr w8, [x0, #40]
	mov w9, #0xa7a8
	movk w9, #0xcbc9, lsl #16
	add w11, w8, w9
	cmp w11, #0x1f
	b.hi .L60_80
	mov x8, #0xeb4f
	mov x9, #0xca87
	mov x13, #0xae63
	mov x10, #0x67c5
	ldr x14, [x0, #24]
	movk x8, #0x27d4, lsl #16
	movk x9, #0x85eb, lsl #16
	movk x13, #0xc2b2, lsl #16
	movk x10, #0x1656, lsl #16
	movk x8, #0xae3d, lsl #32
	movk x9, #0x79b1, lsl #32
	movk x13, #0xca77, lsl #32
	movk x10, #0xeb2f, lsl #32
	movk x8, #0xc2b2, lsl #48
	movk x9, #0x9e37, lsl #48
	cmp x14, #0x1f
	movk x13, #0x85eb, lsl #48
	movk x10, #0x27d4, lsl #48
	add x12, x0, #0x38
	b.hi .L60_88
	ldr x15, [x0, #8]
	add x16, x15, x10
	lsr x15, x11, #3
	add x14, x16, x14
	cbnz x15, .L60_110
	b .L60_138
.L60_80:
	mov x0, xzr
	ret
.L60_88:
	ldr x15, [x0]
	ldr x17, [x0, #16]
	ldr x1, [x0, #48]
	ldr x0, [x0, #32]
	mul x16, x15, x8
	ror x15, x15, #63
	ror x3, x1, #46
	ror x2, x0, #52
	mul x18, x17, x8
	ror x17, x17, #57
	add x2, x2, x3
	add x15, x17, x15
	mul x0, x0, x8
	ror x16, x16, #33
	add x15, x2, x15
	mul x16, x16, x9
	ror x18, x18, #33
	mul x17, x18, x9
	eor x15, x16, x15
	ror x16, x0, #33
	madd x15, x15, x9, x13
	mul x16, x16, x9
	eor x15, x15, x17
	mul x17, x1, x8
	madd x15, x15, x9, x13
	eor x15, x15, x16
	ror x16, x17, #33
	madd x15, x15, x9, x13
	mul x16, x16, x9
	eor x15, x15, x16
	madd x16, x15, x9, x13
	lsr x15, x11, #3
	add x14, x16, x14
	cbz x15, .L60_138
.L60_110:
	mov x16, x12
.L60_114:
	ldr x17, [x16], #8
	subs x15, x15, #0x1
	mul x17, x17, x8
	ror x17, x17, #33
	mul x17, x17, x9
	eor x14, x17, x14
	ror x14, x14, #37
	madd x14, x14, x9, x13
	b.ne .L60_114
.L60_138:
	mov x13, #0x79f9
	movk x13, #0x9e37, lsl #16
	movk x13, #0x67b1, lsl #32
	movk x13, #0x1656, lsl #48
	tbz w11, #2, .L60_164
	and x15, x11, #0x18
	ldr w15, [x12, x15]
	mul x15, x15, x9
	eor x14, x15, x14
	ror x14, x14, #41
	madd x14, x14, x8, x13
.L60_164:
	ands x15, x11, #0x3
	b.eq .L60_1c0
	and x11, x11, #0x1c
	cmp x15, #0x1
	add x11, x12, x11
	ldrb w12, [x11]
	mul x12, x12, x10
	eor x12, x12, x14
	ror x12, x12, #53
	mul x14, x12, x9
	b.eq .L60_1c0
	ldrb w12, [x11, #1]
	cmp x15, #0x2
	mul x12, x12, x10
	eor x12, x12, x14
	ror x12, x12, #53
	mul x14, x12, x9
	b.eq .L60_1c0
	ldrb w11, [x11, #2]
	mul x10, x11, x10
	eor x10, x10, x14
	ror x10, x10, #53
	mul x14, x10, x9
.L60_1c0:
	eor x9, x14, x14, lsr #33
	mul x8, x9, x8
	eor x8, x8, x8, lsr #29
	mul x8, x8, x13
	eor x0, x8, x8, lsr #32
	ret
	.cfi_endproc
	.size XXH64_digest,.-XXH64_digest
	.section .text.XXH128_hashFromCanonical,"ax",@progbits
	.p2align 6
	.globl XXH128_hashFromCanonical
	.type XXH128_hashFromCanonical,@function
XXH128_hashFromCanonical:
	.cfi_startproc
	ldp x8, x9, [x0]
	rev x0, x9
	rev x1, x8
	ret
	.cfi_endproc
	.size XXH128_hashFromCanonical,.-XXH128_hashFromCanonical
	.section .text.XXH3_128bits,"ax",@progbits
	.p2align 6
	.globl XXH3_128bits
	.type XXH3_128bits,@function
XXH3_128bits:
	.cfi_startproc
	mov w8, #0x1000
	cmp x0, #0x0
	csel x8, x8, xzr, eq
	add x0, x0, x8
	b twox_c.xxh3_128.XXH3_128bits
	.cfi_endproc
	.size XXH3_128bits,.-XXH3_128bits
	.section .text.XXH3_128bits_dispatch,"ax",@progbits
	.p2align 6
	.globl XXH3_128bits_dispatch
	.type XXH3_128bits_dispatch,@function
XXH3_128bits_dispatch:
	.cfi_startproc
	mov w8, #0x1000
	cmp x0, #0x0
	csel x8, x8, xzr, eq
	add x0, x0, x8
	b twox_c.xxh3_128.XXH3_128bits
	.cfi_endproc
	.size XXH3_128bits_dispatch,.-XXH3_128bits_dispatch
	.section .text.XXH3_128bits_withSecret,"ax",@progbits
	.p2align 6
	.globl XXH3_128bits_withSecret
	.type XXH3_128bits_withSecret,@function
XXH3_128bits_withSecret:
	.cfi_startproc
	mov w8, #0x1000
	cmp x0, #0x0
	csel x9, x8, xzr, eq
	cmp x2, #0x0
	csel x8, x8, xzr, eq
	add x0, x0, x9
	add x2, x2, x8
	b twox_c.xxh3_128.XXH3_128bits_withSecret
	.cfi_endproc
	.size XXH3_128bits_withSecret,.-XXH3_128bits_withSecret
	.section .text.XXH3_128bits_withSecret_dispatch,"ax",@progbits
	.p2align 6
	.globl XXH3_128bits_withSecret_dispatch
	.type XXH3_128bits_withSecret_dispatch,@function
XXH3_128bits_withSecret_dispatch:
	.cfi_startproc
	mov w8, #0x1000
	cmp x0, #0x0
	csel x9, x8, xzr, eq
	cmp x2, #0x0
	csel x8, x8, xzr, eq
	add x0, x0, x9
	add x2, x2, x8
	b twox_c.xxh3_128.XXH3_128bits_withSecret
	.cfi_endproc
	.size XXH3_128bits_withSecret_dispatch,.-XXH3_128bits_withSecret_dispatch
	.section .text.XXH3_128bits_withSecretandSeed,"ax",@progbits
	.p2align 6
	.globl XXH3_128bits_withSecretandSeed
	.type XXH3_128bits_withSecretandSeed,@function
XXH3_128bits_withSecretandSeed:
	.cfi_startproc
	stp x29, x30, [sp, #-80]!
	.cfi_def_cfa_offset 80
	.cfi_offset 29, -80
	.cfi_offset 30, -72
	mov w9, #0x1000
	cmp x0, #0x0
	mov x8, x2
	csel x10, x9, xzr, eq
	cmp x2, #0x0
	stp x26, x25, [sp, #16]
	.cfi_offset 25, -56
	.cfi_offset 26, -64
	csel x9, x9, xzr, eq
	cmp x1, #0xf0
	add x2, x0, x10
	stp x24, x23, [sp, #32]
	.cfi_offset 23, -40
	.cfi_offset 24, -48
	mov x29, sp
	stp x22, x21, [sp, #48]
	.cfi_offset 21, -24
	.cfi_offset 22, -32
	stp x20, x19, [sp, #64]
	.cfi_offset 19, -8
	.cfi_offset 20, -16
	b.hi .L66_10c
	cmp x1, #0x10
	b.hi .L66_140
	cmp x1, #0x9
	b.cc .L66_220
	mov x10, #0x2349
	ldr x8, [x2]
	add x9, x2, x1
	movk x10, #0x3336, lsl #16
	ldur x9, [x9, #-8]
	mov x12, #0x3d58
	movk x10, #0x3f00, lsl #32
	movk x12, #0x92d6, lsl #16
	movk x10, #0x5997, lsl #48
	movk x12, #0x7976, lsl #32
	sub x10, x10, x4
	movk x12, #0xc202, lsl #48
	eor x8, x8, x10
	mov x10, #0xca87
	add x12, x4, x12
	movk x10, #0x85eb, lsl #16
	eor x8, x8, x9
	eor x9, x9, x12
	movk x10, #0x79b1, lsl #32
	movk x10, #0x9e37, lsl #48
	mul x11, x8, x10
	umulh x8, x8, x10
	mov w10, #0xca76
	movk w10, #0x85eb, lsl #16
	umaddl x9, w9, w10, x9
	add x10, x11, x1, lsl #54
	mov x11, #0xffc0000000000000
	add x10, x10, x11
	mov x11, #0xeb4f
	add x8, x9, x8
	movk x11, #0x27d4, lsl #16
	rev x9, x8
	movk x11, #0xae3d, lsl #32
	eor x9, x9, x10
	movk x11, #0xc2b2, lsl #48
	umulh x10, x9, x11
	mul x9, x9, x11
	madd x8, x8, x11, x10
	mov x10, #0x79f9
	movk x10, #0x9e37, lsl #16
	movk x10, #0x6791, lsl #32
	eor x9, x9, x9, lsr #37
	movk x10, #0x1656, lsl #48
	eor x8, x8, x8, lsr #37
	mul x9, x9, x10
	mul x8, x8, x10
	eor x0, x9, x9, lsr #32
	b .L66_7a8
.L66_10c:
	cmp x3, #0x88
	b.cc .L66_200
	add x0, x8, x9
	mov x8, x1
	mov x1, x3
	mov x3, x8
	bl twox_core.width_128.oneshot_long
	ldp x20, x19, [sp, #64]
	.cfi_restore 19
	.cfi_restore 20
	ldp x22, x21, [sp, #48]
	.cfi_restore 21
	.cfi_restore 22
	ldp x24, x23, [sp, #32]
	.cfi_restore 23
	.cfi_restore 24
	ldp x26, x25, [sp, #16]
	.cfi_restore 25
	.cfi_restore 26
	ldp x29, x30, [sp], #80
	.cfi_def_cfa_offset 0
	.cfi_restore 29
	.cfi_restore 30
	ret
	.cfi_def_cfa_offset 80
	.cfi_offset 19, -8
	.cfi_offset 20, -16
	.cfi_offset 21, -24
	.cfi_offset 22, -32
	.cfi_offset 23, -40
	.cfi_offset 24, -48
	.cfi_offset 25, -56
	.cfi_offset 26, -64
	.cfi_offset 29, -80
	.cfi_offset 30, -72
.L66_140:
	cmp x1, #0x40
	b.hi .L66_2b4
	mov x8, #0xca87
	cmp x1, #0x21
	movk x8, #0x85eb, lsl #16
	movk x8, #0x79b1, lsl #32
	movk x8, #0x9e37, lsl #48
	mul x9, x1, x8
	b.cc .L66_374
	mov x12, #0x79cb
	mov x13, #0x5a82
	mov x17, #0x8b8
	movk x12, #0x4ee6, lsl #16
	movk x13, #0x7dd0, lsl #16
	mov x18, #0x35e0
	ldp x10, x11, [x2, #16]
	movk x12, #0xc0cc, lsl #32
	movk x13, #0xffcc, lsl #32
	movk x12, #0x78e5, lsl #48
	add x14, x2, x1
	movk x13, #0x2172, lsl #48
	movk x17, #0x7446, lsl #16
	movk x18, #0xe690, lsl #16
	add x12, x4, x12
	sub x13, x13, x4
	movk x17, #0x43f7, lsl #32
	ldp x16, x14, [x14, #-32]
	movk x18, #0x3a81, lsl #32
	eor x12, x10, x12
	eor x13, x11, x13
	movk x17, #0x8e24, lsl #48
	movk x18, #0x4c26, lsl #48
	mul x15, x13, x12
	add x10, x11, x10
	umulh x12, x13, x12
	add x13, x4, x17
	sub x17, x18, x4
	eor x13, x16, x13
	eor x17, x14, x17
	mul x18, x17, x13
	umulh x13, x17, x13
	eor x12, x12, x15
	add x9, x9, x12
	add x12, x14, x16
	eor x9, x9, x12
	eor x13, x13, x18
	eor x10, x10, x13
	b .L66_378
.L66_200:
	mov x0, xzr
	mov x1, xzr
	ldp x20, x19, [sp, #64]
	.cfi_restore 19
	.cfi_restore 20
	ldp x22, x21, [sp, #48]
	.cfi_restore 21
	.cfi_restore 22
	ldp x24, x23, [sp, #32]
	.cfi_restore 23
	.cfi_restore 24
	ldp x26, x25, [sp, #16]
	.cfi_restore 25
	.cfi_restore 26
	ldp x29, x30, [sp], #80
	.cfi_def_cfa_offset 0
	.cfi_restore 29
	.cfi_restore 30
	ret
	.cfi_def_cfa_offset 80
	.cfi_offset 19, -8
	.cfi_offset 20, -16
	.cfi_offset 21, -24
	.cfi_offset 22, -32
	.cfi_offset 23, -40
	.cfi_offset 24, -48
	.cfi_offset 25, -56
	.cfi_offset 26, -64
	.cfi_offset 29, -80
	.cfi_offset 30, -72
.L66_220:
	cmp x1, #0x4
	b.cc .L66_46c
	add x8, x2, x1
	ldr w9, [x2]
	mov x11, #0x94ac
	ldur w8, [x8, #-4]
	rev w10, w4
	movk x11, #0x4dc9, lsl #16
	eor x10, x4, x10, lsl #32
	movk x11, #0x2334, lsl #32
	orr x8, x9, x8, lsl #32
	mov x9, #0xca87
	movk x11, #0xc4f0, lsl #48
	movk x9, #0x85eb, lsl #16
	add x10, x10, x11
	movk x9, #0x79b1, lsl #32
	eor x8, x8, x10
	movk x9, #0x9e37, lsl #48
	add x9, x9, x1, lsl #2
	mul x10, x8, x9
	umulh x8, x8, x9
	add x8, x8, x10, lsl #1
	eor x9, x10, x8, lsr #3
	mov x10, #0xdf25
	eor x8, x8, x8, lsr #37
	movk x10, #0x1e98, lsl #16
	eor x9, x9, x9, lsr #35
	movk x10, #0x1c65, lsl #32
	movk x10, #0x9fb2, lsl #48
	mul x9, x9, x10
	mov x10, #0x79f9
	movk x10, #0x9e37, lsl #16
	movk x10, #0x6791, lsl #32
	movk x10, #0x1656, lsl #48
	mul x8, x8, x10
	eor x0, x9, x9, lsr #28
	b .L66_7a8
.L66_2b4:
	cmp x1, #0x80
	b.hi .L66_4e8
	mov x8, #0xca87
	cmp x1, #0x61
	movk x8, #0x85eb, lsl #16
	movk x8, #0x79b1, lsl #32
	movk x8, #0x9e37, lsl #48
	mul x9, x1, x8
	b.cc .L66_514
	mov x12, #0xfaa8
	mov x13, #0xdcf9
	mov x17, #0x518a
	movk x12, #0x3f76, lsl #16
	movk x13, #0xc7bb, lsl #16
	mov x18, #0x9fc8
	ldp x10, x11, [x2, #48]
	movk x12, #0x9ce3, lsl #32
	movk x13, #0xbc7, lsl #32
	movk x12, #0x3f34, lsl #48
	add x14, x2, x1
	movk x13, #0x1d4f, lsl #48
	movk x17, #0x4be0, lsl #16
	movk x18, #0xc97e, lsl #16
	add x12, x4, x12
	sub x13, x13, x4
	movk x17, #0xb4cd, lsl #32
	ldp x16, x14, [x14, #-64]
	movk x18, #0x78d9, lsl #32
	eor x12, x10, x12
	eor x13, x11, x13
	movk x17, #0x3159, lsl #48
	movk x18, #0x6473, lsl #48
	mul x15, x13, x12
	add x10, x11, x10
	umulh x12, x13, x12
	add x13, x4, x17
	sub x17, x18, x4
	eor x13, x16, x13
	eor x17, x14, x17
	mul x18, x17, x13
	umulh x13, x17, x13
	eor x12, x12, x15
	add x9, x9, x12
	add x12, x14, x16
	eor x9, x9, x12
	eor x13, x13, x18
	eor x10, x10, x13
	b .L66_518
.L66_374:
	mov x10, xzr
.L66_378:
	mov x12, #0xd4de
	mov x13, #0x4072
	add x11, x2, x1
	movk x12, #0xe96d, lsl #16
	movk x13, #0xa4a4, lsl #16
	mov x18, #0xfeb8
	movk x12, #0x9083, lsl #32
	movk x13, #0xb3b7, lsl #32
	mov x0, #0x17c
	ldp x14, x11, [x11, #-16]
	movk x12, #0xdb97, lsl #48
	movk x13, #0x1f67, lsl #48
	add x12, x4, x12
	movk x18, #0x396c, lsl #16
	sub x13, x13, x4
	movk x0, #0x2c81, lsl #16
	movk x18, #0xa423, lsl #32
	eor x12, x14, x12
	eor x13, x11, x13
	movk x0, #0x21f7, lsl #32
	ldp x16, x17, [x2]
	mul x15, x13, x12
	movk x18, #0xbe4b, lsl #48
	movk x0, #0x1cad, lsl #48
	add x11, x11, x14
	umulh x12, x13, x12
	add x18, x4, x18
	sub x0, x0, x4
	eor x13, x16, x18
	eor x18, x17, x0
	mul x0, x18, x13
	umulh x13, x18, x13
	sub x18, x1, x4
	mov x1, #0xeb4f
	movk x1, #0x27d4, lsl #16
	eor x12, x12, x15
	add x15, x17, x16
	movk x1, #0xae3d, lsl #32
	add x10, x10, x12
	mov x12, #0xae63
	movk x1, #0xc2b2, lsl #48
	movk x12, #0xc2b2, lsl #16
	eor x10, x10, x15
	mul x18, x18, x1
	movk x12, #0xca77, lsl #32
	movk x12, #0x85eb, lsl #48
	eor x13, x13, x0
	add x9, x9, x13
	madd x12, x10, x12, x18
	eor x9, x9, x11
	mov x11, #0x79f9
	movk x11, #0x9e37, lsl #16
	movk x11, #0x6791, lsl #32
	madd x8, x9, x8, x12
	add x9, x9, x10
	movk x11, #0x1656, lsl #48
	eor x9, x9, x9, lsr #37
	mul x9, x9, x11
	eor x8, x8, x8, lsr #37
	mul x8, x8, x11
	b .L66_738
.L66_46c:
	mov x9, #0xeb4f
	mov x8, #0x79f9
	movk x9, #0x27d4, lsl #16
	movk x8, #0x9e37, lsl #16
	movk x9, #0xae3d, lsl #32
	movk x8, #0x67b1, lsl #32
	movk x9, #0xc2b2, lsl #48
	movk x8, #0x1656, lsl #48
	cbz x1, .L66_75c
	add x10, x2, x1
	ldrb w11, [x2]
	lsr x12, x1, #1
	ldurb w10, [x10, #-1]
	mov w13, #0x208b
	movk w13, #0x302c, lsl #16
	orr w10, w10, w1, lsl #8
	sub x13, x13, x4
	orr w10, w10, w11, lsl #16
	ldrb w11, [x2, x12]
	orr w10, w10, w11, lsl #24
	mov w11, #0x5a9b
	movk w11, #0x8727, lsl #16
	add x11, x4, x11
	rev w12, w10
	ror w12, w12, #19
	eor x10, x10, x11, lsr #33
	eor x10, x10, x11
	eor x11, x12, x13, lsr #33
	mul x10, x10, x9
	eor x11, x11, x13
	b .L66_790
.L66_4e8:
	adrp x0, .L98_0
	add x0, x0, :lo12:.L98_0
	mov x3, x1
	mov x1, x4
	bl twox_core.width_128.short_129_to_240
	ldp x20, x19, [sp, #64]
	.cfi_restore 19
	.cfi_restore 20
	ldp x22, x21, [sp, #48]
	.cfi_restore 21
	.cfi_restore 22
	ldp x24, x23, [sp, #32]
	.cfi_restore 23
	.cfi_restore 24
	ldp x26, x25, [sp, #16]
	.cfi_restore 25
	.cfi_restore 26
	ldp x29, x30, [sp], #80
	.cfi_def_cfa_offset 0
	.cfi_restore 29
	.cfi_restore 30
	ret
	.cfi_def_cfa_offset 80
	.cfi_offset 19, -8
	.cfi_offset 20, -16
	.cfi_offset 21, -24
	.cfi_offset 22, -32
	.cfi_offset 23, -40
	.cfi_offset 24, -48
	.cfi_offset 25, -56
	.cfi_offset 26, -64
	.cfi_offset 29, -80
	.cfi_offset 30, -72
.L66_514:
	mov x10, xzr
.L66_518:
	mov x13, #0x283c
	mov x14, #0xd088
	mov x17, #0x6471
	movk x13, #0xbb52, lsl #16
	movk x14, #0x8b65, lsl #16
	mov x3, #0x1938
	ldp x11, x12, [x2, #32]
	movk x13, #0xc391, lsl #32
	movk x14, #0x531b, lsl #32
	movk x13, #0xcb00, lsl #48
	add x0, x2, x1
	movk x14, #0xa32e, lsl #48
	movk x17, #0x9748, lsl #16
	movk x3, #0x46ef, lsl #16
	add x13, x4, x13
	sub x14, x14, x4
	movk x17, #0xda2, lsl #32
	ldp x15, x16, [x0, #-48]
	movk x3, #0xdea9, lsl #32
	eor x13, x11, x13
	eor x14, x12, x14
	movk x17, #0x4ef9, lsl #48
	movk x3, #0xd8ac, lsl #48
	mov x20, #0x8b8
	mul x18, x14, x13
	mov x7, #0x35e0
	movk x20, #0x7446, lsl #16
	mov x22, #0x5a82
	umulh x19, x14, x13
	add x13, x4, x17
	sub x14, x3, x4
	eor x3, x15, x13
	eor x5, x16, x14
	movk x7, #0xe690, lsl #16
	movk x20, #0x43f7, lsl #32
	ldp x14, x13, [x0, #-32]
	movk x7, #0x3a81, lsl #32
	movk x20, #0x8e24, lsl #48
	mov x23, #0x79cb
	mul x17, x5, x3
	movk x7, #0x4c26, lsl #48
	movk x22, #0x7dd0, lsl #16
	movk x23, #0x4ee6, lsl #16
	movk x22, #0xffcc, lsl #32
	mov x24, #0xd4de
	umulh x6, x5, x3
	add x5, x4, x20
	sub x3, x7, x4
	eor x21, x14, x5
	ldp x7, x5, [x2, #16]
	movk x23, #0xc0cc, lsl #32
	mov x25, #0x4072
	eor x20, x13, x3
	movk x22, #0x2172, lsl #48
	movk x23, #0x78e5, lsl #48
	movk x24, #0xe96d, lsl #16
	movk x25, #0xa4a4, lsl #16
	mul x3, x21, x20
	movk x24, #0x9083, lsl #32
	movk x25, #0xb3b7, lsl #32
	movk x24, #0xdb97, lsl #48
	mov x26, #0x17c
	umulh x20, x21, x20
	sub x21, x22, x4
	add x22, x4, x23
	eor x21, x5, x21
	eor x22, x7, x22
	eor x23, x19, x18
	ldp x18, x0, [x0, #-16]
	movk x25, #0x1f67, lsl #48
	mul x19, x22, x21
	movk x26, #0x2c81, lsl #16
	add x9, x9, x23
	movk x26, #0x21f7, lsl #32
	add x15, x16, x15
	eor x17, x6, x17
	umulh x21, x22, x21
	add x22, x4, x24
	sub x24, x25, x4
	mov x25, #0xfeb8
	eor x22, x18, x22
	eor x23, x0, x24
	movk x25, #0x396c, lsl #16
	ldp x24, x2, [x2]
	movk x25, #0xa423, lsl #32
	mul x16, x23, x22
	movk x26, #0x1cad, lsl #48
	movk x25, #0xbe4b, lsl #48
	add x10, x10, x17
	add x11, x12, x11
	umulh x22, x23, x22
	add x23, x4, x25
	sub x25, x26, x4
	mov x17, #0xeb4f
	eor x6, x24, x23
	eor x23, x2, x25
	eor x10, x10, x11
	eor x11, x20, x3
	movk x17, #0x27d4, lsl #16
	mul x12, x23, x6
	eor x9, x9, x15
	add x10, x10, x11
	add x11, x7, x5
	movk x17, #0xae3d, lsl #32
	add x13, x14, x13
	umulh x15, x23, x6
	eor x10, x10, x11
	sub x11, x1, x4
	movk x17, #0xc2b2, lsl #48
	mov x14, #0xae63
	eor x16, x22, x16
	mul x11, x11, x17
	movk x14, #0xc2b2, lsl #16
	eor x1, x21, x19
	add x10, x10, x16
	add x16, x2, x24
	movk x14, #0xca77, lsl #32
	add x9, x9, x1
	eor x10, x10, x16
	movk x14, #0x85eb, lsl #48
	eor x9, x9, x13
	eor x12, x15, x12
	madd x11, x10, x14, x11
	add x9, x9, x12
	add x12, x0, x18
	eor x9, x9, x12
	madd x8, x9, x8, x11
	add x9, x9, x10
	mov x10, #0x79f9
	movk x10, #0x9e37, lsl #16
	eor x9, x9, x9, lsr #37
	movk x10, #0x6791, lsl #32
	movk x10, #0x1656, lsl #48
	mul x9, x9, x10
	eor x8, x8, x8, lsr #37
	mul x8, x8, x10
.L66_738:
	eor x8, x8, x8, lsr #32
	eor x0, x9, x9, lsr #32
	neg x1, x8
	ldp x20, x19, [sp, #64]
	.cfi_restore 19
	.cfi_restore 20
	ldp x22, x21, [sp, #48]
	.cfi_restore 21
	.cfi_restore 22
	ldp x24, x23, [sp, #32]
	.cfi_restore 23
	.cfi_restore 24
	ldp x26, x25, [sp, #16]
	.cfi_restore 25
	.cfi_restore 26
	ldp x29, x30, [sp], #80
	.cfi_def_cfa_offset 0
	.cfi_restore 29
	.cfi_restore 30
	ret
	.cfi_def_cfa_offset 80
	.cfi_offset 19, -8
	.cfi_offset 20, -16
	.cfi_offset 21, -24
	.cfi_offset 22, -32
	.cfi_offset 23, -40
	.cfi_offset 24, -48
	.cfi_offset 25, -56
	.cfi_offset 26, -64
	.cfi_offset 29, -80
	.cfi_offset 30, -72
.L66_75c:
	mov x10, #0xf8b4
	mov x11, #0x7d49
	movk x10, #0x3037, lsl #16
	movk x11, #0xd1a7, lsl #16
	movk x10, #0x908a, lsl #32
	movk x11, #0xd30b, lsl #32
	movk x10, #0x682e, lsl #48
	movk x11, #0x9655, lsl #48
	eor x10, x4, x10
	eor x11, x4, x11
	eor x10, x10, x10, lsr #33
	eor x11, x11, x11, lsr #33
	mul x10, x10, x9
.L66_790:
	mul x9, x11, x9
	eor x10, x10, x10, lsr #29
	mul x10, x10, x8
	eor x9, x9, x9, lsr #29
	mul x8, x9, x8
	eor x0, x10, x10, lsr #32
.L66_7a8:
	eor x1, x8, x8, lsr #32
	ldp x20, x19, [sp, #64]
	.cfi_restore 19
	.cfi_restore 20
	ldp x22, x21, [sp, #48]
	.cfi_restore 21
	.cfi_restore 22
	ldp x24, x23, [sp, #32]
	.cfi_restore 23
	.cfi_restore 24
	ldp x26, x25, [sp, #16]
	.cfi_restore 25
	.cfi_restore 26
	ldp x29, x30, [sp], #80
	.cfi_def_cfa_offset 0
	.cfi_restore 29
	.cfi_restore 30
	ret
	.cfi_endproc
	.size XXH3_128bits_withSecretandSeed,.-XXH3_128bits_withSecretandSeed
	.section .text.XXH3_128bits_withSeed,"ax",@progbits
	.p2align 6
	.globl XXH3_128bits_withSeed
	.type XXH3_128bits_withSeed,@function
XXH3_128bits_withSeed:
	.cfi_startproc
	cmp x0, #0x0
	mov w8, #0x1000
	csel x8, x8, xzr, eq
	add x0, x0, x8
	b twox_c.xxh3_128.XXH3_128bits_withSeed
	.cfi_endproc
	.size XXH3_128bits_withSeed,.-XXH3_128bits_withSeed
	.section .text.XXH128,"ax",@progbits
	.p2align 6
	.globl XXH128
	.type XXH128,@function
XXH128:
	.cfi_startproc
	cmp x0, #0x0
	mov w8, #0x1000
	csel x8, x8, xzr, eq
	add x0, x0, x8
	b twox_c.xxh3_128.XXH3_128bits_withSeed
	.cfi_endproc
	.size XXH128,.-XXH128
	.section .text.XXH3_128bits_withSeed_dispatch,"ax",@progbits
	.p2align 6
	.globl XXH3_128bits_withSeed_dispatch
	.type XXH3_128bits_withSeed_dispatch,@function
XXH3_128bits_withSeed_dispatch:
	.cfi_startproc
	cmp x0, #0x0
	mov w8, #0x1000
	csel x8, x8, xzr, eq
	add x0, x0, x8
	b twox_c.xxh3_128.XXH3_128bits_withSeed
	.cfi_endproc
	.size XXH3_128bits_withSeed_dispatch,.-XXH3_128bits_withSeed_dispatch
	.section .text.proved_XXH3_128bits_digest,"ax",@progbits
	.p2align 6
	.globl proved_XXH3_128bits_digest
	.type proved_XXH3_128bits_digest,@function
proved_XXH3_128bits_digest:
	.cfi_startproc
	mov x9, #0x7774
	ldr x8, [x0, #544]
	movk x9, #0x786f, lsl #16
	movk x9, #0x5858, lsl #32
	movk x9, #0x3348, lsl #48
	cmp x8, x9
	b.eq .L70_34
	mov x9, #0x4b87
	movk x9, #0x93d2, lsl #16
	movk x9, #0x6e0f, lsl #32
	movk x9, #0xc5a1, lsl #48
	cmp x8, x9
	b.ne .L70_a4
.L70_34:
	ldr x9, [x0, #64]
	cmp x9, #0xf
	b.hi .L70_a4
	ldr x9, [x0, #80]
	cmp x9, #0x100
	b.hi .L70_a4
	cbz x9, .L70_9c
.L70_50:
	mov x9, #0x4b87
	movk x9, #0x93d2, lsl #16
	movk x9, #0x6e0f, lsl #32
	movk x9, #0xc5a1, lsl #48
	cmp x8, x9
	b.ne .L70_74
	mov w2, wzr
	mov x3, xzr
	b .L70_7c
.L70_74:
	ldr x3, [x0, #552]
	mov w2, #0x1
.L70_7c:
	stp x29, x30, [sp, #-16]!
	.cfi_def_cfa_offset 16
	.cfi_offset 29, -16
	.cfi_offset 30, -8
	add x1, x0, #0x60
	add x4, x0, #0x160
	mov w5, #0xc0
	mov x29, sp
	bl twox_core.xxhash3.streaming.stream_counts.StreamCounts.finish
	ldp x29, x30, [sp], #16
	.cfi_def_cfa_offset 0
	.cfi_restore 29
	.cfi_restore 30
	ret
.L70_9c:
	ldr x9, [x0, #88]
	cbz x9, .L70_50
.L70_a4:
	mov x0, xzr
	mov x1, xzr
	ret
	.cfi_endproc
	.size proved_XXH3_128bits_digest,.-proved_XXH3_128bits_digest
	.section .text.proved_XXH3_64bits_digest,"ax",@progbits
	.p2align 6
	.globl proved_XXH3_64bits_digest
	.type proved_XXH3_64bits_digest,@function
proved_XXH3_64bits_digest:
	.cfi_startproc
	mov x9, #0x7774
	ldr x8, [x0, #544]
	movk x9, #0x786f, lsl #16
	movk x9, #0x5858, lsl #32
	movk x9, #0x3348, lsl #48
	cmp x8, x9
	b.eq .L71_34
	mov x9, #0x4b87
	movk x9, #0x93d2, lsl #16
	movk x9, #0x6e0f, lsl #32
	movk x9, #0xc5a1, lsl #48
	cmp x8, x9
	b.ne .L71_a0
.L71_34:
	ldr x9, [x0, #64]
	cmp x9, #0xf
	b.hi .L71_a0
	ldr x9, [x0, #80]
	cmp x9, #0x100
	b.hi .L71_a0
	cbz x9, .L71_98
.L71_50:
	mov x9, #0x4b87
	movk x9, #0x93d2, lsl #16
	movk x9, #0x6e0f, lsl #32
	movk x9, #0xc5a1, lsl #48
	cmp x8, x9
	b.ne .L71_80
	mov w2, wzr
	mov x3, xzr
	add x1, x0, #0x60
	add x4, x0, #0x160
	mov w5, #0xc0
	b twox_core.xxhash3.streaming.stream_counts.StreamCounts.finish.2
.L71_80:
	ldr x3, [x0, #552]
	mov w2, #0x1
	add x1, x0, #0x60
	add x4, x0, #0x160
	mov w5, #0xc0
	b twox_core.xxhash3.streaming.stream_counts.StreamCounts.finish.2
.L71_98:
	ldr x9, [x0, #88]
	cbz x9, .L71_50
.L71_a0:
	mov x0, xzr
	ret
	.cfi_endproc
	.size proved_XXH3_64bits_digest,.-proved_XXH3_64bits_digest
	.section .text.proved_XXH3_128bits_reset_withSeed,"ax",@progbits
	.p2align 6
	.globl proved_XXH3_128bits_reset_withSeed
	.type proved_XXH3_128bits_reset_withSeed,@function
proved_XXH3_128bits_reset_withSeed:
	.cfi_startproc
	sub sp, sp, #0xd0
	.cfi_def_cfa_offset 208
	fmov d0, x1
	adrp x8, .L96_580
	adrp x9, .L96_590
	ldr q2, [x9, #:lo12:.L96_590]
	adrp x9, .L96_5b0
	mov x2, sp
	ldr q4, [x9, #:lo12:.L96_5b0]
	stp x29, x30, [sp, #192]
	.cfi_offset 29, -16
	.cfi_offset 30, -8
	add x29, sp, #0xc0
	neg v1.2d, v0.2d
	zip1 v0.2d, v0.2d, v1.2d
	ldr q1, [x8, #:lo12:.L96_580]
	adrp x8, .L96_5a0
	ldr q3, [x8, #:lo12:.L96_5a0]
	adrp x8, .L96_5c0
	ldr q5, [x8, #:lo12:.L96_5c0]
	adrp x8, .L96_5d0
	ldr q6, [x8, #:lo12:.L96_5d0]
	adrp x8, .L96_5e0
	add v2.2d, v0.2d, v2.2d
	add v1.2d, v0.2d, v1.2d
	ldr q7, [x8, #:lo12:.L96_5e0]
	adrp x8, .L96_5f0
	add v5.2d, v0.2d, v5.2d
	add v4.2d, v0.2d, v4.2d
	ldr q16, [x8, #:lo12:.L96_5f0]
	adrp x8, .L96_600
	add v3.2d, v0.2d, v3.2d
	stp q1, q2, [sp]
	add v2.2d, v0.2d, v6.2d
	ldr q17, [x8, #:lo12:.L96_600]
	adrp x8, .L96_610
	ldr q1, [x8, #:lo12:.L96_610]
	adrp x8, .L96_630
	stp q3, q4, [sp, #32]
	stp q5, q2, [sp, #64]
	ldr q2, [x8, #:lo12:.L96_630]
	adrp x8, .L96_620
	ldr q6, [x8, #:lo12:.L96_620]
	add v4.2d, v0.2d, v16.2d
	add v3.2d, v0.2d, v7.2d
	add v1.2d, v0.2d, v1.2d
	add v5.2d, v0.2d, v17.2d
	add v2.2d, v0.2d, v2.2d
	add v0.2d, v0.2d, v6.2d
	stp q3, q4, [sp, #96]
	stp q5, q1, [sp, #128]
	stp q0, q2, [sp, #160]
	bl twox_c.xxh3_state.Xxh3State.reset
	ldp x29, x30, [sp, #192]
	.cfi_restore 29
	.cfi_restore 30
	mov w0, wzr
	add sp, sp, #0xd0
	.cfi_def_cfa_offset 0
	ret
	.cfi_endproc
	.size proved_XXH3_128bits_reset_withSeed,.-proved_XXH3_128bits_reset_withSeed
	.section .text.proved_XXH3_64bits_reset_withSeed,"ax",@progbits
	.p2align 6
	.globl proved_XXH3_64bits_reset_withSeed
	.type proved_XXH3_64bits_reset_withSeed,@function
proved_XXH3_64bits_reset_withSeed:
	.cfi_startproc
	sub sp, sp, #0xd0
	.cfi_def_cfa_offset 208
	fmov d0, x1
	adrp x8, .L96_640
	adrp x9, .L96_650
	ldr q2, [x9, #:lo12:.L96_650]
	adrp x9, .L96_670
	mov x2, sp
	ldr q4, [x9, #:lo12:.L96_670]
	stp x29, x30, [sp, #192]
	.cfi_offset 29, -16
	.cfi_offset 30, -8
	add x29, sp, #0xc0
	neg v1.2d, v0.2d
	zip1 v0.2d, v0.2d, v1.2d
	ldr q1, [x8, #:lo12:.L96_640]
	adrp x8, .L96_660
	ldr q3, [x8, #:lo12:.L96_660]
	adrp x8, .L96_680
	ldr q5, [x8, #:lo12:.L96_680]
	adrp x8, .L96_690
	ldr q6, [x8, #:lo12:.L96_690]
	adrp x8, .L96_6a0
	add v2.2d, v0.2d, v2.2d
	add v1.2d, v0.2d, v1.2d
	ldr q7, [x8, #:lo12:.L96_6a0]
	adrp x8, .L96_6b0
	add v5.2d, v0.2d, v5.2d
	add v4.2d, v0.2d, v4.2d
	ldr q16, [x8, #:lo12:.L96_6b0]
	adrp x8, .L96_6c0
	add v3.2d, v0.2d, v3.2d
	stp q1, q2, [sp]
	add v2.2d, v0.2d, v6.2d
	ldr q17, [x8, #:lo12:.L96_6c0]
	adrp x8, .L96_6d0
	ldr q1, [x8, #:lo12:.L96_6d0]
	adrp x8, .L96_6f0
	stp q3, q4, [sp, #32]
	stp q5, q2, [sp, #64]
	ldr q2, [x8, #:lo12:.L96_6f0]
	adrp x8, .L96_6e0
	ldr q6, [x8, #:lo12:.L96_6e0]
	add v4.2d, v0.2d, v16.2d
	add v3.2d, v0.2d, v7.2d
	add v1.2d, v0.2d, v1.2d
	add v5.2d, v0.2d, v17.2d
	add v2.2d, v0.2d, v2.2d
	add v0.2d, v0.2d, v6.2d
	stp q3, q4, [sp, #96]
	stp q5, q1, [sp, #128]
	stp q0, q2, [sp, #160]
	bl twox_c.xxh3_state.Xxh3State.reset
	ldp x29, x30, [sp, #192]
	.cfi_restore 29
	.cfi_restore 30
	mov w0, wzr
	add sp, sp, #0xd0
	.cfi_def_cfa_offset 0
	ret
	.cfi_endproc
	.size proved_XXH3_64bits_reset_withSeed,.-proved_XXH3_64bits_reset_withSeed
	.section .text.proved_XXH3_128bits_reset,"ax",@progbits
	.p2align 6
	.globl proved_XXH3_128bits_reset
	.type proved_XXH3_128bits_reset,@function
proved_XXH3_128bits_reset:
	.cfi_startproc
	stp x29, x30, [sp, #-16]!
	.cfi_def_cfa_offset 16
	.cfi_offset 29, -16
	.cfi_offset 30, -8
	adrp x2, .L98_0
	add x2, x2, :lo12:.L98_0
	mov x1, xzr
	mov x29, sp
	bl twox_c.xxh3_state.Xxh3State.reset
	mov w0, wzr
	ldp x29, x30, [sp], #16
	.cfi_def_cfa_offset 0
	.cfi_restore 29
	.cfi_restore 30
	ret
	.cfi_endproc
	.size proved_XXH3_128bits_reset,.-proved_XXH3_128bits_reset
	.section .text.proved_XXH3_64bits_reset,"ax",@progbits
	.p2align 6
	.globl proved_XXH3_64bits_reset
	.type proved_XXH3_64bits_reset,@function
proved_XXH3_64bits_reset:
	.cfi_startproc
	stp x29, x30, [sp, #-16]!
	.cfi_def_cfa_offset 16
	.cfi_offset 29, -16
	.cfi_offset 30, -8
	adrp x2, .L98_0
	add x2, x2, :lo12:.L98_0
	mov x1, xzr
	mov x29, sp
	bl twox_c.xxh3_state.Xxh3State.reset
	mov w0, wzr
	ldp x29, x30, [sp], #16
	.cfi_def_cfa_offset 0
	.cfi_restore 29
	.cfi_restore 30
	ret
	.cfi_endproc
	.size proved_XXH3_64bits_reset,.-proved_XXH3_64bits_reset
	.section .text.twox_c_digest_128,"ax",@progbits
	.p2align 6
	.globl twox_c_digest_128
	.type twox_c_digest_128,@function
twox_c_digest_128:
	.cfi_startproc
	mov w8, #0x1000
	cmp x1, #0x0
	csel x8, x8, xzr, eq
	cmp x2, #0x88
	b.cc .L76_c4
	mov x10, #0xe9b
	ldr x9, [x0, #544]
	mov x5, x2
	movk x10, #0xc13f, lsl #16
	movk x10, #0xb5ae, lsl #32
	movk x10, #0x68d7, lsl #48
	cmp x9, x10
	b.eq .L76_4c
	mov x10, #0xf516
	movk x10, #0x2ac8, lsl #16
	movk x10, #0xd371, lsl #32
	movk x10, #0x9b4e, lsl #48
	cmp x9, x10
	b.ne .L76_c4
.L76_4c:
	ldr x10, [x0, #64]
	sub x11, x5, #0x40
	cmp x10, x11, lsr #3
	b.cs .L76_c4
	ldr x10, [x0, #80]
	cmp x10, #0x100
	b.hi .L76_c4
	cbz x10, .L76_bc
.L76_6c:
	mov x10, #0xf516
	movk x10, #0x2ac8, lsl #16
	movk x10, #0xd371, lsl #32
	movk x10, #0x9b4e, lsl #48
	cmp x9, x10
	b.ne .L76_94
	mov x9, x1
	mov w2, wzr
	mov x3, xzr
	b .L76_a0
.L76_94:
	ldr x3, [x0, #552]
	mov x9, x1
	mov w2, #0x1
.L76_a0:
	stp x29, x30, [sp, #-16]!
	.cfi_def_cfa_offset 16
	.cfi_offset 29, -16
	.cfi_offset 30, -8
	add x1, x0, #0x60
	add x4, x9, x8
	mov x29, sp
	bl twox_core.xxhash3.streaming.stream_counts.StreamCounts.finish
	ldp x29, x30, [sp], #16
	.cfi_def_cfa_offset 0
	.cfi_restore 29
	.cfi_restore 30
	ret
.L76_bc:
	ldr x10, [x0, #88]
	cbz x10, .L76_6c
.L76_c4:
	mov x0, xzr
	mov x1, xzr
	ret
	.cfi_endproc
	.size twox_c_digest_128,.-twox_c_digest_128
	.section .text.twox_c_digest_64,"ax",@progbits
	.p2align 6
	.globl twox_c_digest_64
	.type twox_c_digest_64,@function
twox_c_digest_64:
	.cfi_startproc
	mov w8, #0x1000
	cmp x1, #0x0
	csel x8, x8, xzr, eq
	cmp x2, #0x88
	b.cc .L77_bc
	mov x10, #0xe9b
	ldr x9, [x0, #544]
	mov x5, x2
	movk x10, #0xc13f, lsl #16
	movk x10, #0xb5ae, lsl #32
	movk x10, #0x68d7, lsl #48
	cmp x9, x10
	b.eq .L77_4c
	mov x10, #0xf516
	movk x10, #0x2ac8, lsl #16
	movk x10, #0xd371, lsl #32
	movk x10, #0x9b4e, lsl #48
	cmp x9, x10
	b.ne .L77_bc
.L77_4c:
	ldr x10, [x0, #64]
	sub x11, x5, #0x40
	cmp x10, x11, lsr #3
	b.cs .L77_bc
	ldr x10, [x0, #80]
	cmp x10, #0x100
	b.hi .L77_bc
	cbz x10, .L77_b4
.L77_6c:
	mov x10, #0xf516
	movk x10, #0x2ac8, lsl #16
	movk x10, #0xd371, lsl #32
	movk x10, #0x9b4e, lsl #48
	cmp x9, x10
	b.ne .L77_9c
	mov x9, x1
	mov w2, wzr
	mov x3, xzr
	add x1, x0, #0x60
	add x4, x9, x8
	b twox_core.xxhash3.streaming.stream_counts.StreamCounts.finish.2
.L77_9c:
	ldr x3, [x0, #552]
	mov x9, x1
	mov w2, #0x1
	add x1, x0, #0x60
	add x4, x9, x8
	b twox_core.xxhash3.streaming.stream_counts.StreamCounts.finish.2
.L77_b4:
	ldr x10, [x0, #88]
	cbz x10, .L77_6c
.L77_bc:
	mov x0, xzr
	ret
	.cfi_endproc
	.size twox_c_digest_64,.-twox_c_digest_64
	.section .text.twox_c_forget_xxh3,"ax",@progbits
	.p2align 6
	.globl twox_c_forget_xxh3
	.type twox_c_forget_xxh3,@function
twox_c_forget_xxh3:
	.cfi_startproc
	str xzr, [x0, #544]
	ret
	.cfi_endproc
	.size twox_c_forget_xxh3,.-twox_c_forget_xxh3
	.section .text.twox_c_forget_xxh32,"ax",@progbits
	.p2align 6
	.globl twox_c_forget_xxh32
	.type twox_c_forget_xxh32,@function
twox_c_forget_xxh32:
	.cfi_startproc
	str wzr, [x0, #12]
	ret
	.cfi_endproc
	.size twox_c_forget_xxh32,.-twox_c_forget_xxh32
	.section .text.twox_c_forget_xxh64,"ax",@progbits
	.p2align 6
	.globl twox_c_forget_xxh64
	.type twox_c_forget_xxh64,@function
twox_c_forget_xxh64:
	.cfi_startproc
	str wzr, [x0, #40]
	ret
	.cfi_endproc
	.size twox_c_forget_xxh64,.-twox_c_forget_xxh64
	.section .text.twox_c_reset_xxh3_secret,"ax",@progbits
	.p2align 6
	.globl twox_c_reset_xxh3_secret
	.type twox_c_reset_xxh3_secret,@function
twox_c_reset_xxh3_secret:
	.cfi_startproc
	cmp x1, #0x0
	mov w8, #0x1000
	csel x8, x8, xzr, eq
	cmp x2, #0xc0
	b.ne .L81_a4
	adrp x9, .L96_700
	adrp x10, .L96_710
	str xzr, [x0, #568]
	ldr q0, [x9, #:lo12:.L96_700]
	ldr q1, [x10, #:lo12:.L96_710]
	adrp x10, .L96_730
	adrp x9, .L96_720
	stp q0, q1, [x0]
	ldr q1, [x10, #:lo12:.L96_730]
	mov x10, #0x4b87
	movk x10, #0x93d2, lsl #16
	movi v0.2d, #0x0
	ldr q2, [x9, #:lo12:.L96_720]
	movk x10, #0x6e0f, lsl #32
	add x9, x1, x8
	movk x10, #0xc5a1, lsl #48
	stp q2, q1, [x0, #32]
	str x10, [x0, #544]
	add x10, x0, #0x160
	sub x11, x10, x9
	stp q0, q0, [x0, #64]
	cmp x11, #0xbf
	b.hi .L81_b4
	sub x11, x0, x1
	sub x8, x11, x8
	add x8, x8, #0x160
	cmp x8, #0x1f
	b.hi .L81_140
	mov x8, xzr
.L81_88:
	ldrb w11, [x9, x8]
	strb w11, [x10, x8]
	add x8, x8, #0x1
	cmp x8, #0xc0
	b.ne .L81_88
	mov w0, wzr
	ret
.L81_a4:
	cmp x2, #0x88
	b.cs .L81_ec
	mov w0, #0x1
	ret
.L81_b4:
	ldp q0, q1, [x9]
	mov w0, wzr
	ldp q2, q3, [x9, #32]
	ldp q4, q5, [x9, #160]
	ldp q6, q7, [x9, #64]
	ldp q16, q17, [x9, #96]
	ldp q18, q19, [x9, #128]
	stp q0, q1, [x10]
	stp q2, q3, [x10, #32]
	stp q6, q7, [x10, #64]
	stp q16, q17, [x10, #96]
	stp q18, q19, [x10, #128]
	stp q4, q5, [x10, #160]
	ret
.L81_ec:
	adrp x9, .L96_700
	str x2, [x0, #560]
	ldr q0, [x9, #:lo12:.L96_700]
	adrp x9, .L96_710
	str x3, [x0, #568]
	ldr q1, [x9, #:lo12:.L96_710]
	adrp x9, .L96_720
	ldr q2, [x9, #:lo12:.L96_720]
	adrp x9, .L96_730
	stp q0, q1, [x0]
	movi v0.2d, #0x0
	ldr q1, [x9, #:lo12:.L96_730]
	mov x9, #0xf516
	movk x9, #0x2ac8, lsl #16
	stp q2, q1, [x0, #32]
	movk x9, #0xd371, lsl #32
	movk x9, #0x9b4e, lsl #48
	stp q0, q0, [x0, #64]
	str x9, [x0, #544]
	mov w0, wzr
	ret
.L81_140:
	ldp q0, q1, [x9]
	stp q0, q1, [x0, #352]
	ldp q0, q1, [x9, #32]
	stp q0, q1, [x0, #384]
	ldp q0, q1, [x9, #64]
	stp q0, q1, [x0, #416]
	ldp q0, q1, [x9, #96]
	stp q0, q1, [x0, #448]
	ldp q0, q1, [x9, #128]
	stp q0, q1, [x0, #480]
	ldp q0, q1, [x9, #160]
	stp q0, q1, [x0, #512]
	mov w0, wzr
	ret
	.cfi_endproc
	.size twox_c_reset_xxh3_secret,.-twox_c_reset_xxh3_secret
	.section .text.twox_c_reset_xxh3_secret_and_seed,"ax",@progbits
	.p2align 6
	.globl twox_c_reset_xxh3_secret_and_seed
	.type twox_c_reset_xxh3_secret_and_seed,@function
twox_c_reset_xxh3_secret_and_seed:
	.cfi_startproc
	mov w8, #0x1000
	cmp x1, #0x0
	csel x8, x8, xzr, eq
	cmp x2, #0xc0
	b.ne .L82_a8
	adrp x9, .L96_740
	adrp x10, .L96_750
	str x4, [x0, #552]
	ldr q0, [x9, #:lo12:.L96_740]
	adrp x9, .L96_760
	ldr q1, [x10, #:lo12:.L96_750]
	ldr q2, [x9, #:lo12:.L96_760]
	mov x9, #0x7774
	adrp x10, .L96_770
	movk x9, #0x786f, lsl #16
	stp q0, q1, [x0]
	movi v1.2d, #0x0
	movk x9, #0x5858, lsl #32
	ldr q0, [x10, #:lo12:.L96_770]
	add x10, x0, #0x160
	movk x9, #0x3348, lsl #48
	str xzr, [x0, #568]
	str x9, [x0, #544]
	add x9, x1, x8
	sub x11, x10, x9
	stp q2, q0, [x0, #32]
	cmp x11, #0xbf
	stp q1, q1, [x0, #64]
	b.hi .L82_b8
	sub x11, x0, x1
	sub x8, x11, x8
	add x8, x8, #0x160
	cmp x8, #0x1f
	b.hi .L82_148
	mov x8, xzr
.L82_8c:
	ldrb w11, [x9, x8]
	strb w11, [x10, x8]
	add x8, x8, #0x1
	cmp x8, #0xc0
	b.ne .L82_8c
	mov w0, wzr
	ret
.L82_a8:
	cmp x2, #0x88
	b.cs .L82_f0
	mov w0, #0x1
	ret
.L82_b8:
	ldp q0, q1, [x9]
	mov w0, wzr
	ldp q2, q3, [x9, #32]
	ldp q4, q5, [x9, #160]
	ldp q6, q7, [x9, #64]
	ldp q16, q17, [x9, #96]
	ldp q18, q19, [x9, #128]
	stp q0, q1, [x10]
	stp q2, q3, [x10, #32]
	stp q6, q7, [x10, #64]
	stp q16, q17, [x10, #96]
	stp q18, q19, [x10, #128]
	stp q4, q5, [x10, #160]
	ret
.L82_f0:
	adrp x9, .L96_740
	str x4, [x0, #552]
	ldr q0, [x9, #:lo12:.L96_740]
	adrp x9, .L96_750
	str x2, [x0, #560]
	ldr q1, [x9, #:lo12:.L96_750]
	adrp x9, .L96_760
	str x3, [x0, #568]
	ldr q2, [x9, #:lo12:.L96_760]
	adrp x9, .L96_770
	stp q0, q1, [x0]
	movi v0.2d, #0x0
	ldr q1, [x9, #:lo12:.L96_770]
	mov x9, #0xe9b
	movk x9, #0xc13f, lsl #16
	stp q2, q1, [x0, #32]
	movk x9, #0xb5ae, lsl #32
	movk x9, #0x68d7, lsl #48
	stp q0, q0, [x0, #64]
	str x9, [x0, #544]
	mov w0, wzr
	ret
.L82_148:
	ldp q0, q1, [x9]
	stp q0, q1, [x0, #352]
	ldp q0, q1, [x9, #32]
	stp q0, q1, [x0, #384]
	ldp q0, q1, [x9, #64]
	stp q0, q1, [x0, #416]
	ldp q0, q1, [x9, #96]
	stp q0, q1, [x0, #448]
	ldp q0, q1, [x9, #128]
	stp q0, q1, [x0, #480]
	ldp q0, q1, [x9, #160]
	stp q0, q1, [x0, #512]
	mov w0, wzr
	ret
	.cfi_endproc
	.size twox_c_reset_xxh3_secret_and_seed,.-twox_c_reset_xxh3_secret_and_seed
	.section .text.twox_c_update_xxh3,"ax",@progbits
	.p2align 6
	.globl twox_c_update_xxh3
	.type twox_c_update_xxh3,@function
twox_c_update_xxh3:
	.cfi_startproc
	stp x29, x30, [sp, #-16]!
	.cfi_def_cfa_offset 16
	.cfi_offset 29, -16
	.cfi_offset 30, -8
	mov w8, #0x1000
	cmp x1, #0x0
	mov x29, sp
	csel x10, x8, xzr, eq
	cmp x3, #0x0
	csel x9, x8, xzr, eq
	cmp x4, #0x88
	b.cc .L83_12c
	mov x11, #0xe9b
	ldr x8, [x0, #544]
	movk x11, #0xc13f, lsl #16
	movk x11, #0xb5ae, lsl #32
	movk x11, #0x68d7, lsl #48
	cmp x8, x11
	b.eq .L83_58
	mov x11, #0xf516
	movk x11, #0x2ac8, lsl #16
	movk x11, #0xd371, lsl #32
	movk x11, #0x9b4e, lsl #48
	cmp x8, x11
	b.ne .L83_12c
.L83_58:
	ldr x8, [x0, #64]
	sub x11, x4, #0x40
	cmp x8, x11, lsr #3
	b.cs .L83_12c
	ldr x11, [x0, #80]
	cmp x11, #0x100
	b.hi .L83_12c
	ldr x8, [x0, #88]
	cbz x11, .L83_124
	adds x8, x2, x8
	csinv x12, x8, xzr, cc
.L83_84:
	mov w8, #0x100
	add x5, x0, #0x60
	str x12, [x0, #88]
	sub x8, x8, x11
	cmp x2, x8
	add x8, x1, x10
	b.ls .L83_b8
	add x3, x3, x9
	mov x1, x8
	cmp x2, #0x7ff
	b.hi .L83_138
	bl twox_core.xxhash3.streaming.stream_counts.StreamCounts.write_through
	b .L83_174
.L83_b8:
	add x9, x11, x2
	cmp x2, #0x21
	str x9, [x0, #80]
	add x9, x5, x11
	b.cc .L83_140
	sub x12, x9, x8
	cmp x12, x2
	b.cs .L83_168
	add x14, x11, x0
	add x13, x10, x1
	sub x8, x14, x13
	add x8, x8, #0x60
	cmp x8, #0x20
	b.cs .L83_1a4
	mov x8, xzr
.L83_f4:
	add x9, x8, x11
	add x10, x10, x8
	sub x8, x2, x8
	add x11, x9, x0
	add x9, x1, x10
	add x10, x11, #0x60
.L83_10c:
	ldrb w11, [x9], #1
	mov w0, wzr
	subs x8, x8, #0x1
	strb w11, [x10], #1
	b.ne .L83_10c
	b .L83_178
.L83_124:
	mov x12, x2
	cbz x8, .L83_84
.L83_12c:
	mov w0, #0x1
	ldp x29, x30, [sp], #16
	.cfi_def_cfa_offset 0
	.cfi_restore 29
	.cfi_restore 30
	ret
	.cfi_def_cfa_offset 16
	.cfi_offset 29, -16
	.cfi_offset 30, -8
.L83_138:
	bl twox_core.xxhash3.streaming.stream_counts.StreamCounts.write_through.2
	b .L83_174
.L83_140:
	cmp x2, #0x11
	b.cc .L83_180
	ldr q0, [x8]
	sub x10, x2, #0x10
	mov w0, wzr
	str q0, [x9]
	ldr q0, [x8, x10]
	str q0, [x9, x10]
	ldp x29, x30, [sp], #16
	.cfi_def_cfa_offset 0
	.cfi_restore 29
	.cfi_restore 30
	ret
	.cfi_def_cfa_offset 16
	.cfi_offset 29, -16
	.cfi_offset 30, -8
.L83_168:
	mov x0, x9
	mov x1, x8
	bl memmove
.L83_174:
	mov w0, wzr
.L83_178:
	ldp x29, x30, [sp], #16
	.cfi_def_cfa_offset 0
	.cfi_restore 29
	.cfi_restore 30
	ret
	.cfi_def_cfa_offset 16
	.cfi_offset 29, -16
	.cfi_offset 30, -8
.L83_180:
	subs x10, x2, #0x8
	b.cc .L83_218
	ldr x11, [x8]
	mov w0, wzr
	str x11, [x9]
	ldr x8, [x8, x10]
	str x8, [x9, x10]
	ldp x29, x30, [sp], #16
	.cfi_def_cfa_offset 0
	.cfi_restore 29
	.cfi_restore 30
	ret
	.cfi_def_cfa_offset 16
	.cfi_offset 29, -16
	.cfi_offset 30, -8
.L83_1a4:
	and x12, x2, #0x18
	and x9, x2, #0xffffffffffffffe0
	and x8, x2, #0xffffffffffffffe0
	add x13, x13, #0x10
	add x14, x14, #0x70
	and x15, x2, #0xffffffffffffffe0
.L83_1bc:
	ldp q0, q1, [x13, #-16]
	subs x15, x15, #0x20
	add x13, x13, #0x20
	stp q0, q1, [x14, #-16]
	add x14, x14, #0x20
	b.ne .L83_1bc
	cmp x2, x9
	b.eq .L83_174
	cbz x12, .L83_f4
	add x12, x11, x9
	and x8, x2, #0xfffffffffffffff8
	add x13, x10, x9
	add x14, x12, x0
	sub x9, x8, x9
	add x12, x1, x13
	add x13, x14, #0x60
.L83_1fc:
	ldr d0, [x12], #8
	subs x9, x9, #0x8
	str d0, [x13], #8
	b.ne .L83_1fc
	cmp x2, x8
	b.ne .L83_f4
	b .L83_174
.L83_218:
	subs x10, x2, #0x4
	b.cc .L83_23c
	ldr w11, [x8]
	mov w0, wzr
	str w11, [x9]
	ldr w8, [x8, x10]
	str w8, [x9, x10]
	ldp x29, x30, [sp], #16
	.cfi_def_cfa_offset 0
	.cfi_restore 29
	.cfi_restore 30
	ret
	.cfi_def_cfa_offset 16
	.cfi_offset 29, -16
	.cfi_offset 30, -8
.L83_23c:
	subs x10, x2, #0x2
	b.cc .L83_260
	ldrh w11, [x8]
	mov w0, wzr
	strh w11, [x9]
	ldrh w8, [x8, x10]
	strh w8, [x9, x10]
	ldp x29, x30, [sp], #16
	.cfi_def_cfa_offset 0
	.cfi_restore 29
	.cfi_restore 30
	ret
	.cfi_def_cfa_offset 16
	.cfi_offset 29, -16
	.cfi_offset 30, -8
.L83_260:
	cmp x2, #0x1
	b.ne .L83_174
	ldrb w8, [x8]
	mov w0, wzr
	strb w8, [x9]
	ldp x29, x30, [sp], #16
	.cfi_def_cfa_offset 0
	.cfi_restore 29
	.cfi_restore 30
	ret
	.cfi_endproc
	.size twox_c_update_xxh3,.-twox_c_update_xxh3
	.section .text.XXH32_update,"ax",@progbits
	.p2align 6
	.globl XXH32_update
	.type XXH32_update,@function
XXH32_update:
	.cfi_startproc
	cmp x1, #0x0
	mov w8, #0x1000
	csel x8, x8, xzr, eq
	add x1, x1, x8
	b twox_c.xxh32.Xxh32State.update
	.cfi_endproc
	.size XXH32_update,.-XXH32_update
	.section .text.proved_XXH3_128bits_update,"ax",@progbits
	.p2align 6
	.globl proved_XXH3_128bits_update
	.type proved_XXH3_128bits_update,@function
proved_XXH3_128bits_update:
	.cfi_startproc
	cmp x1, #0x0
	mov w8, #0x1000
	csel x8, x8, xzr, eq
	add x1, x1, x8
	b twox_c.xxh3_state.Xxh3State.update
	.cfi_endproc
	.size proved_XXH3_128bits_update,.-proved_XXH3_128bits_update
	.section .text.XXH3_128bits_update_dispatch,"ax",@progbits
	.p2align 6
	.globl XXH3_128bits_update_dispatch
	.type XXH3_128bits_update_dispatch,@function
XXH3_128bits_update_dispatch:
	.cfi_startproc
	cmp x1, #0x0
	mov w8, #0x1000
	csel x8, x8, xzr, eq
	add x1, x1, x8
	b twox_c.xxh3_state.Xxh3State.update
	.cfi_endproc
	.size XXH3_128bits_update_dispatch,.-XXH3_128bits_update_dispatch
	.section .text.proved_XXH3_64bits_update,"ax",@progbits
	.p2align 6
	.globl proved_XXH3_64bits_update
	.type proved_XXH3_64bits_update,@function
proved_XXH3_64bits_update:
	.cfi_startproc
	cmp x1, #0x0
	mov w8, #0x1000
	csel x8, x8, xzr, eq
	add x1, x1, x8
	b twox_c.xxh3_state.Xxh3State.update
	.cfi_endproc
	.size proved_XXH3_64bits_update,.-proved_XXH3_64bits_update
	.section .text.XXH3_64bits_update_dispatch,"ax",@progbits
	.p2align 6
	.globl XXH3_64bits_update_dispatch
	.type XXH3_64bits_update_dispatch,@function
XXH3_64bits_update_dispatch:
	.cfi_startproc
	cmp x1, #0x0
	mov w8, #0x1000
	csel x8, x8, xzr, eq
	add x1, x1, x8
	b twox_c.xxh3_state.Xxh3State.update
	.cfi_endproc
	.size XXH3_64bits_update_dispatch,.-XXH3_64bits_update_dispatch
	.section .text.XXH64_update,"ax",@progbits
	.p2align 6
	.globl XXH64_update
	.type XXH64_update,@function
XXH64_update:
	.cfi_startproc
	cmp x1, #0x0
	mov w8, #0x1000
	csel x8, x8, xzr, eq
	add x1, x1, x8
	b twox_c.xxh64.Xxh64State.update
	.cfi_endproc
	.size XXH64_update,.-XXH64_update
	.section .text.XXH128_canonicalFromHash,"ax",@progbits
	.p2align 6
	.globl XXH128_canonicalFromHash
	.type XXH128_canonicalFromHash,@function
XXH128_canonicalFromHash:
	.cfi_startproc
	adrp x8, .L96_780
	adrp x9, .L96_7a0
	dup v0.2d, x1
	dup v1.2d, x2
	ldr q2, [x8, #:lo12:.L96_780]
	adrp x8, .L96_7b0
	ldr q3, [x9, #:lo12:.L96_7a0]
	adrp x9, .L96_790
	ldr q4, [x8, #:lo12:.L96_7b0]
	ldr q5, [x9, #:lo12:.L96_790]
	ushl v6.2d, v1.2d, v2.2d
	ushl v7.2d, v1.2d, v3.2d
	ushl v16.2d, v1.2d, v4.2d
	ushl v3.2d, v0.2d, v3.2d
	ushl v4.2d, v0.2d, v4.2d
	ushl v1.2d, v1.2d, v5.2d
	ushl v2.2d, v0.2d, v2.2d
	ushl v0.2d, v0.2d, v5.2d
	uzp1 v3.4s, v4.4s, v3.4s
	uzp1 v1.4s, v1.4s, v6.4s
	uzp1 v0.4s, v0.4s, v2.4s
	uzp1 v2.4s, v16.4s, v7.4s
	uzp1 v0.8h, v0.8h, v3.8h
	uzp1 v1.8h, v1.8h, v2.8h
	uzp1 v0.16b, v1.16b, v0.16b
	str q0, [x0]
	ret
	.cfi_endproc
	.size XXH128_canonicalFromHash,.-XXH128_canonicalFromHash
	.section .text.XXH128_cmp,"ax",@progbits
	.p2align 6
	.globl XXH128_cmp
	.type XXH128_cmp,@function
XXH128_cmp:
	.cfi_startproc
	ldp x8, x11, [x1]
	ldp x9, x10, [x0]
	cmp x8, x9
	sbcs xzr, x11, x10
	cset w12, cc
	cmp x9, x8
	sbcs xzr, x10, x11
	csinv w0, w12, wzr, cs
	ret
	.cfi_endproc
	.size XXH128_cmp,.-XXH128_cmp
	.section .text.XXH128_isEqual,"ax",@progbits
	.p2align 6
	.globl XXH128_isEqual
	.type XXH128_isEqual,@function
XXH128_isEqual:
	.cfi_startproc
	cmp x0, x2
	ccmp x1, x3, #0x0, eq
	cset w0, eq
	ret
	.cfi_endproc
	.size XXH128_isEqual,.-XXH128_isEqual
	.section .text.XXH32_reset,"ax",@progbits
	.p2align 6
	.globl XXH32_reset
	.type XXH32_reset,@function
XXH32_reset:
	.cfi_startproc
	mov w9, #0x4428
	mov w10, #0xca77
	mov x8, x0
	movk w9, #0x2423, lsl #16
	movk w10, #0x85eb, lsl #16
	mov w0, wzr
	add w9, w1, w9
	stp w1, wzr, [x8, #16]
	stp w9, w1, [x8]
	add w9, w1, w10
	mov w10, #0x5858
	movk w10, #0x3233, lsl #16
	stp xzr, xzr, [x8, #32]
	stp w9, w10, [x8, #8]
	mov w9, #0x864f
	movk w9, #0x61c8, lsl #16
	add w9, w1, w9
	stp wzr, w9, [x8, #24]
	ret
	.cfi_endproc
	.size XXH32_reset,.-XXH32_reset
	.section .text.XXH64_reset,"ax",@progbits
	.p2align 6
	.globl XXH64_reset
	.type XXH64_reset,@function
XXH64_reset:
	.cfi_startproc
	mov x9, #0xb5d6
	mov x8, x0
	mov x10, #0xeb4f
	movk x9, #0xadc0, lsl #16
	movk x10, #0x27d4, lsl #16
	mov w0, wzr
	movk x9, #0x27ee, lsl #32
	movk x10, #0xae3d, lsl #32
	str x1, [x8, #32]
	movk x9, #0x60ea, lsl #48
	movk x10, #0xc2b2, lsl #48
	add x9, x1, x9
	add x10, x1, x10
	stp x9, x1, [x8]
	adrp x9, .L97_0
	ldr d0, [x9, #:lo12:.L97_0]
	mov x9, #0x3579
	stp x10, xzr, [x8, #16]
	movk x9, #0x7a14, lsl #16
	str d0, [x8, #40]
	movi v0.2d, #0x0
	movk x9, #0x864e, lsl #32
	movk x9, #0x61c8, lsl #48
	add x9, x1, x9
	str x9, [x8, #48]
	stur q0, [x8, #56]
	stur q0, [x8, #72]
	ret
	.cfi_endproc
	.size XXH64_reset,.-XXH64_reset
	.section .text.proved_XXH3_generateSecret,"ax",@progbits
	.p2align 6
	.globl proved_XXH3_generateSecret
	.type proved_XXH3_generateSecret,@function
proved_XXH3_generateSecret:
	.cfi_startproc
	cmp x0, #0x0
	mov w9, #0x1000
	csel x8, x9, xzr, eq
	cmp x2, #0x0
	csel x9, x9, xzr, eq
	cmp x1, #0x88
	b.cs .L95_24
	mov w0, #0x1
	ret
.L95_24:
	stp x29, x30, [sp, #-16]!
	.cfi_def_cfa_offset 16
	.cfi_offset 29, -16
	.cfi_offset 30, -8
	mov x29, sp
	cbz x3, .L95_48
	add x0, x0, x8
	add x2, x2, x9
	bl twox_c.secrets.write_secret
	mov w0, wzr
	ldp x29, x30, [sp], #16
	.cfi_def_cfa_offset 0
	.cfi_restore 29
	.cfi_restore 30
	ret
	.cfi_def_cfa_offset 16
	.cfi_offset 29, -16
	.cfi_offset 30, -8
.L95_48:
	adrp x2, .L98_0
	add x2, x2, :lo12:.L98_0
	add x0, x0, x8
	mov w3, #0xc0
	bl twox_c.secrets.write_secret
	mov w0, wzr
	ldp x29, x30, [sp], #16
	.cfi_def_cfa_offset 0
	.cfi_restore 29
	.cfi_restore 30
	ret
	.cfi_endproc
	.size proved_XXH3_generateSecret,.-proved_XXH3_generateSecret
	.section .rodata.cst16,"aM",@progbits,16
	.p2align 4
.L96_0:
	.quad 0x85ebca7724234428,0x61c8864f00000000
.L96_10:
	.quad 0xffffffe7ffffffe1,0xfffffff2ffffffec
.L96_20:
	.quad 0x700000001,0x120000000c
.L96_30:
	.quad 0x27d4eb2f165667c5,0x9e3779b1
.L96_40:
	.quad 0x85ebca77c2b2ae63,0x85ebca77
.L96_50:
	.quad 0xc2b2ae3d27d4eb4f,0x165667b19e3779f9
.L96_60:
	.quad 0xc2b2ae3d,0x9e3779b185ebca87
.L96_70:
	.quad 0x9e3779b100000000,0x9e3779b100000000
.L96_80:
	.quad 0x9e3779b100000000,0x9e3779b100000000
.L96_90:
	.quad 0x9e3779b100000000,0x9e3779b100000000
.L96_a0:
	.quad 0x9e3779b100000000,0x9e3779b100000000
.L96_b0:
	.quad 0xc2b2ae3d,0x9e3779b185ebca87
.L96_c0:
	.quad 0xc2b2ae3d27d4eb4f,0x165667b19e3779f9
.L96_d0:
	.quad 0x85ebca77c2b2ae63,0x85ebca77
.L96_e0:
	.quad 0x27d4eb2f165667c5,0x9e3779b1
.L96_f0:
	.quad 0xc2b2ae3d27d4eb4f,0x165667b19e3779f9
.L96_100:
	.quad 0xc2b2ae3d,0x9e3779b185ebca87
.L96_110:
	.quad 0x27d4eb2f165667c5,0x9e3779b1
.L96_120:
	.quad 0x85ebca77c2b2ae63,0x85ebca77
.L96_130:
	.quad 0x9e3779b100000000,0x9e3779b100000000
.L96_140:
	.quad 0xbe4ba423396cfeb8,0x1cad21f72c81017c
.L96_150:
	.quad 0xdb979083e96dd4de,0x1f67b3b7a4a44072
.L96_160:
	.quad 0x78e5c0cc4ee679cb,0x2172ffcc7dd05a82
.L96_170:
	.quad 0x8e2443f7744608b8,0x4c263a81e69035e0
.L96_180:
	.quad 0xcb00c391bb52283c,0xa32e531b8b65d088
.L96_190:
	.quad 0x4ef90da297486471,0xd8acdea946ef1938
.L96_1a0:
	.quad 0x3f349ce33f76faa8,0x1d4f0bc7c7bbdcf9
.L96_1b0:
	.quad 0x3159b4cd4be0518a,0x647378d9c97e9fc8
.L96_1c0:
	.quad 0xc3ebd33483acc5ea,0xeb6313faffa081c5
.L96_1d0:
	.quad 0x49daf0b751dd0d17,0x9e68d429265516d3
.L96_1e0:
	.quad 0xfca1477d58be162b,0xce31d07ad1b8f88f
.L96_1f0:
	.quad 0x280416958f3acb45,0x7e404bbbcafbd7af
.L96_200:
	.quad 0x27d4eb2f165667c5,0x9e3779b1
.L96_210:
	.quad 0x85ebca77c2b2ae63,0x85ebca77
.L96_220:
	.quad 0xc2b2ae3d27d4eb4f,0x165667b19e3779f9
.L96_230:
	.quad 0xc2b2ae3d,0x9e3779b185ebca87
.L96_240:
	.quad 0x9e3779b100000000,0x9e3779b100000000
.L96_250:
	.quad 0x27d4eb2f165667c5,0x9e3779b1
.L96_260:
	.quad 0x85ebca77c2b2ae63,0x85ebca77
.L96_270:
	.quad 0xc2b2ae3d27d4eb4f,0x165667b19e3779f9
.L96_280:
	.quad 0xc2b2ae3d,0x9e3779b185ebca87
.L96_290:
	.quad 0x9e3779b100000000,0x9e3779b100000000
.L96_2a0:
	.quad 0xc2b2ae3d,0x9e3779b185ebca87
.L96_2b0:
	.quad 0xc2b2ae3d27d4eb4f,0x165667b19e3779f9
.L96_2c0:
	.quad 0x85ebca77c2b2ae63,0x85ebca77
.L96_2d0:
	.quad 0x27d4eb2f165667c5,0x9e3779b1
.L96_2e0:
	.quad 0x27d4eb2f165667c5,0x9e3779b1
.L96_2f0:
	.quad 0x85ebca77c2b2ae63,0x85ebca77
.L96_300:
	.quad 0xc2b2ae3d27d4eb4f,0x165667b19e3779f9
.L96_310:
	.quad 0xc2b2ae3d,0x9e3779b185ebca87
.L96_320:
	.quad 0x9e3779b100000000,0x9e3779b100000000
.L96_330:
	.quad 0xbe4ba423396cfeb8,0x1cad21f72c81017c
.L96_340:
	.quad 0xdb979083e96dd4de,0x1f67b3b7a4a44072
.L96_350:
	.quad 0x78e5c0cc4ee679cb,0x2172ffcc7dd05a82
.L96_360:
	.quad 0x8e2443f7744608b8,0x4c263a81e69035e0
.L96_370:
	.quad 0xcb00c391bb52283c,0xa32e531b8b65d088
.L96_380:
	.quad 0x4ef90da297486471,0xd8acdea946ef1938
.L96_390:
	.quad 0x3f349ce33f76faa8,0x1d4f0bc7c7bbdcf9
.L96_3a0:
	.quad 0x3159b4cd4be0518a,0x647378d9c97e9fc8
.L96_3b0:
	.quad 0xc3ebd33483acc5ea,0xeb6313faffa081c5
.L96_3c0:
	.quad 0x49daf0b751dd0d17,0x9e68d429265516d3
.L96_3d0:
	.quad 0xfca1477d58be162b,0xce31d07ad1b8f88f
.L96_3e0:
	.quad 0x280416958f3acb45,0x7e404bbbcafbd7af
.L96_3f0:
	.quad 0x27d4eb2f165667c5,0x9e3779b1
.L96_400:
	.quad 0x85ebca77c2b2ae63,0x85ebca77
.L96_410:
	.quad 0xc2b2ae3d27d4eb4f,0x165667b19e3779f9
.L96_420:
	.quad 0xc2b2ae3d,0x9e3779b185ebca87
.L96_430:
	.quad 0x9e3779b100000000,0x9e3779b100000000
.L96_440:
	.quad 0x9e3779b100000000,0x9e3779b100000000
.L96_450:
	.quad 0x9e3779b100000000,0x9e3779b100000000
.L96_460:
	.quad 0xc2b2ae3d,0x9e3779b185ebca87
.L96_470:
	.quad 0xc2b2ae3d27d4eb4f,0x165667b19e3779f9
.L96_480:
	.quad 0x85ebca77c2b2ae63,0x85ebca77
.L96_490:
	.quad 0x27d4eb2f165667c5,0x9e3779b1
.L96_4a0:
	.quad 0x9e3779b100000000,0x9e3779b100000000
.L96_4b0:
	.quad 0x9e3779b100000000,0x9e3779b100000000
.L96_4c0:
	.quad 0xbe4ba423396cfeb8,0x1cad21f72c81017c
.L96_4d0:
	.quad 0xdb979083e96dd4de,0x1f67b3b7a4a44072
.L96_4e0:
	.quad 0x78e5c0cc4ee679cb,0x2172ffcc7dd05a82
.L96_4f0:
	.quad 0x8e2443f7744608b8,0x4c263a81e69035e0
.L96_500:
	.quad 0xcb00c391bb52283c,0xa32e531b8b65d088
.L96_510:
	.quad 0x4ef90da297486471,0xd8acdea946ef1938
.L96_520:
	.quad 0x3f349ce33f76faa8,0x1d4f0bc7c7bbdcf9
.L96_530:
	.quad 0x3159b4cd4be0518a,0x647378d9c97e9fc8
.L96_540:
	.quad 0xc3ebd33483acc5ea,0xeb6313faffa081c5
.L96_550:
	.quad 0x49daf0b751dd0d17,0x9e68d429265516d3
.L96_560:
	.quad 0xfca1477d58be162b,0xce31d07ad1b8f88f
.L96_570:
	.quad 0x280416958f3acb45,0x7e404bbbcafbd7af
.L96_580:
	.quad 0xbe4ba423396cfeb8,0x1cad21f72c81017c
.L96_590:
	.quad 0xdb979083e96dd4de,0x1f67b3b7a4a44072
.L96_5a0:
	.quad 0x78e5c0cc4ee679cb,0x2172ffcc7dd05a82
.L96_5b0:
	.quad 0x8e2443f7744608b8,0x4c263a81e69035e0
.L96_5c0:
	.quad 0xcb00c391bb52283c,0xa32e531b8b65d088
.L96_5d0:
	.quad 0x4ef90da297486471,0xd8acdea946ef1938
.L96_5e0:
	.quad 0x3f349ce33f76faa8,0x1d4f0bc7c7bbdcf9
.L96_5f0:
	.quad 0x3159b4cd4be0518a,0x647378d9c97e9fc8
.L96_600:
	.quad 0xc3ebd33483acc5ea,0xeb6313faffa081c5
.L96_610:
	.quad 0x49daf0b751dd0d17,0x9e68d429265516d3
.L96_620:
	.quad 0xfca1477d58be162b,0xce31d07ad1b8f88f
.L96_630:
	.quad 0x280416958f3acb45,0x7e404bbbcafbd7af
.L96_640:
	.quad 0xbe4ba423396cfeb8,0x1cad21f72c81017c
.L96_650:
	.quad 0xdb979083e96dd4de,0x1f67b3b7a4a44072
.L96_660:
	.quad 0x78e5c0cc4ee679cb,0x2172ffcc7dd05a82
.L96_670:
	.quad 0x8e2443f7744608b8,0x4c263a81e69035e0
.L96_680:
	.quad 0xcb00c391bb52283c,0xa32e531b8b65d088
.L96_690:
	.quad 0x4ef90da297486471,0xd8acdea946ef1938
.L96_6a0:
	.quad 0x3f349ce33f76faa8,0x1d4f0bc7c7bbdcf9
.L96_6b0:
	.quad 0x3159b4cd4be0518a,0x647378d9c97e9fc8
.L96_6c0:
	.quad 0xc3ebd33483acc5ea,0xeb6313faffa081c5
.L96_6d0:
	.quad 0x49daf0b751dd0d17,0x9e68d429265516d3
.L96_6e0:
	.quad 0xfca1477d58be162b,0xce31d07ad1b8f88f
.L96_6f0:
	.quad 0x280416958f3acb45,0x7e404bbbcafbd7af
.L96_700:
	.quad 0xc2b2ae3d,0x9e3779b185ebca87
.L96_710:
	.quad 0xc2b2ae3d27d4eb4f,0x165667b19e3779f9
.L96_720:
	.quad 0x85ebca77c2b2ae63,0x85ebca77
.L96_730:
	.quad 0x27d4eb2f165667c5,0x9e3779b1
.L96_740:
	.quad 0xc2b2ae3d,0x9e3779b185ebca87
.L96_750:
	.quad 0xc2b2ae3d27d4eb4f,0x165667b19e3779f9
.L96_760:
	.quad 0x85ebca77c2b2ae63,0x85ebca77
.L96_770:
	.quad 0x27d4eb2f165667c5,0x9e3779b1
.L96_780:
	.quad 0xffffffffffffffd8,0xffffffffffffffe0
.L96_790:
	.quad 0xffffffffffffffc8,0xffffffffffffffd0
.L96_7a0:
	.quad 0xfffffffffffffff8,0x0
.L96_7b0:
	.quad 0xffffffffffffffe8,0xfffffffffffffff0
	.section .rodata.cst8,"aM",@progbits,8
	.p2align 3
.L97_0:
	.quad 0x34365858
	.section .rodata.static.0,"a",@progbits
	.p2align 0
.L98_0:
	.quad 0xbe4ba423396cfeb8,0x1cad21f72c81017c
	.quad 0xdb979083e96dd4de,0x1f67b3b7a4a44072
	.quad 0x78e5c0cc4ee679cb,0x2172ffcc7dd05a82
	.quad 0x8e2443f7744608b8,0x4c263a81e69035e0
	.quad 0xcb00c391bb52283c,0xa32e531b8b65d088
	.quad 0x4ef90da297486471,0xd8acdea946ef1938
	.quad 0x3f349ce33f76faa8,0x1d4f0bc7c7bbdcf9
	.quad 0x3159b4cd4be0518a,0x647378d9c97e9fc8
	.quad 0xc3ebd33483acc5ea,0xeb6313faffa081c5
	.quad 0x49daf0b751dd0d17,0x9e68d429265516d3
	.quad 0xfca1477d58be162b,0xce31d07ad1b8f88f
	.quad 0x280416958f3acb45,0x7e404bbbcafbd7af
	.section .note.GNU-stack,"",@progbits
	.text
