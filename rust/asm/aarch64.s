/* The functions below the cargo crate, for aarch64. Generated of what is proved: not to be changed by hand. SPDX-License-Identifier: MIT */
	.ifndef twox_rust_7_xxh3_128_long
	.section .text.twox_plain.xxhash32.rounds.products_of_block.i7,"ax",@progbits
	.p2align 6
	.type twox_plain.xxhash32.rounds.products_of_block.i7,@function
twox_plain.xxhash32.rounds.products_of_block.i7:
	.cfi_startproc
	mov w8, #0xca77
	ldp q1, q2, [x1]
	movk w8, #0x85eb, lsl #16
	ldp q3, q4, [x1, #32]
	dup v0.4s, w8
	ldp q5, q6, [x1, #64]
	ldp q7, q16, [x1, #96]
	mul v1.4s, v1.4s, v0.4s
	mul v2.4s, v2.4s, v0.4s
	mul v3.4s, v3.4s, v0.4s
	mul v4.4s, v4.4s, v0.4s
	mul v5.4s, v5.4s, v0.4s
	stp q1, q2, [x0]
	mul v1.4s, v6.4s, v0.4s
	mul v2.4s, v7.4s, v0.4s
	mul v0.4s, v16.4s, v0.4s
	stp q3, q4, [x0, #32]
	stp q5, q1, [x0, #64]
	stp q2, q0, [x0, #96]
	ret
	.cfi_endproc
	.size twox_plain.xxhash32.rounds.products_of_block.i7,.-twox_plain.xxhash32.rounds.products_of_block.i7
	.section .text.twox_plain.xxhash32.StateInMemory.add_blocks_in_place.i7,"ax",@progbits
	.p2align 6
	.type twox_plain.xxhash32.StateInMemory.add_blocks_in_place.i7,@function
twox_plain.xxhash32.StateInMemory.add_blocks_in_place.i7:
	.cfi_startproc
	sub sp, sp, #0xd0
	.cfi_def_cfa_offset 208
	stp x26, x25, [sp, #144]
	.cfi_offset 25, -56
	.cfi_offset 26, -64
	ldr w26, [x0]
	ldr w25, [x0, #8]
	stp x24, x23, [sp, #160]
	.cfi_offset 23, -40
	.cfi_offset 24, -48
	ldr w24, [x0, #16]
	ldr w23, [x0, #28]
	stp x22, x21, [sp, #176]
	.cfi_offset 21, -24
	.cfi_offset 22, -32
	mov w22, #0x79b1
	mov x21, x1
	stp x20, x19, [sp, #192]
	.cfi_offset 19, -8
	.cfi_offset 20, -16
	mov x19, x2
	mov x20, x0
	movk w22, #0x9e37, lsl #16
	stp x29, x30, [sp, #128]
	.cfi_offset 29, -80
	.cfi_offset 30, -72
	add x29, sp, #0x80
.L2_40.i7:
	mov x0, sp
	mov x1, x21
	prfm pldl1keep, [x21, #1024]
	prfm pldl1keep, [x21, #1088]
	bl twox_plain.xxhash32.rounds.products_of_block.i7
	ldp w8, w9, [sp]
	ldp w10, w11, [sp, #8]
	ldp w12, w13, [sp, #16]
	add w8, w8, w26
	add w9, w9, w25
	sub x19, x19, #0x80
	ror w8, w8, #19
	add w10, w10, w24
	add w11, w11, w23
	ror w9, w9, #19
	ror w10, w10, #19
	ror w11, w11, #19
	madd w8, w8, w22, w12
	cmp x19, #0x80
	add x21, x21, #0x80
	madd w9, w9, w22, w13
	ldp w12, w13, [sp, #24]
	madd w10, w10, w22, w12
	ror w8, w8, #19
	madd w11, w11, w22, w13
	ror w9, w9, #19
	ldp w12, w13, [sp, #32]
	ror w10, w10, #19
	madd w8, w8, w22, w12
	ror w11, w11, #19
	madd w9, w9, w22, w13
	ldp w12, w13, [sp, #40]
	madd w10, w10, w22, w12
	ror w8, w8, #19
	madd w11, w11, w22, w13
	ror w9, w9, #19
	ldp w12, w13, [sp, #48]
	ror w10, w10, #19
	madd w8, w8, w22, w12
	ror w11, w11, #19
	madd w9, w9, w22, w13
	ldp w12, w13, [sp, #56]
	madd w10, w10, w22, w12
	ror w8, w8, #19
	madd w11, w11, w22, w13
	ror w9, w9, #19
	ldp w12, w13, [sp, #64]
	ror w10, w10, #19
	madd w8, w8, w22, w12
	ror w11, w11, #19
	madd w9, w9, w22, w13
	ldp w12, w13, [sp, #72]
	madd w10, w10, w22, w12
	ror w8, w8, #19
	madd w11, w11, w22, w13
	ror w9, w9, #19
	ldp w12, w13, [sp, #80]
	ror w10, w10, #19
	madd w8, w8, w22, w12
	ror w11, w11, #19
	madd w9, w9, w22, w13
	ldp w12, w13, [sp, #88]
	madd w10, w10, w22, w12
	ror w8, w8, #19
	madd w11, w11, w22, w13
	ror w9, w9, #19
	ldp w12, w13, [sp, #96]
	ror w10, w10, #19
	madd w8, w8, w22, w12
	ror w11, w11, #19
	madd w9, w9, w22, w13
	ldp w12, w13, [sp, #104]
	madd w10, w10, w22, w12
	ror w8, w8, #19
	madd w11, w11, w22, w13
	ror w9, w9, #19
	ldp w12, w13, [sp, #112]
	ror w10, w10, #19
	madd w8, w8, w22, w12
	ror w11, w11, #19
	madd w9, w9, w22, w13
	ldp w12, w13, [sp, #120]
	madd w10, w10, w22, w12
	ror w8, w8, #19
	madd w11, w11, w22, w13
	ror w9, w9, #19
	mul w26, w8, w22
	ror w10, w10, #19
	mul w25, w9, w22
	ror w8, w11, #19
	mul w24, w10, w22
	mul w23, w8, w22
	b.cs .L2_40.i7
	cmp x19, #0x10
	b.cc .L2_214.i7
	mov w8, #0xca77
	movk w8, #0x85eb, lsl #16
.L2_1c4.i7:
	ldp w9, w10, [x21]
	ldp w11, w12, [x21, #8]
	sub x19, x19, #0x10
	madd w9, w9, w8, w26
	cmp x19, #0xf
	madd w10, w10, w8, w25
	madd w11, w11, w8, w24
	madd w12, w12, w8, w23
	ror w9, w9, #19
	ror w10, w10, #19
	ror w11, w11, #19
	mul w26, w9, w22
	ror w9, w12, #19
	mul w25, w10, w22
	mul w24, w11, w22
	mul w23, w9, w22
	add x9, x21, #0x10
	mov x21, x9
	b.hi .L2_1c4.i7
	mov x21, x9
.L2_214.i7:
	str w26, [x20]
	str w25, [x20, #8]
	str w24, [x20, #16]
	str w23, [x20, #28]
	cbz x19, .L2_28c.i7
	subs x9, x19, #0x8
	add x8, x20, #0x20
	b.cc .L2_248.i7
	ldr x10, [x21]
	str x10, [x8]
	ldr x10, [x21, x9]
	str x10, [x8, x9]
	b .L2_28c.i7
.L2_248.i7:
	subs x9, x19, #0x4
	b.cc .L2_264.i7
	ldr w10, [x21]
	str w10, [x8]
	ldr w10, [x21, x9]
	str w10, [x8, x9]
	b .L2_28c.i7
.L2_264.i7:
	cmp x19, #0x1
	b.ne .L2_278.i7
	ldrb w9, [x21]
	strb w9, [x8]
	b .L2_28c.i7
.L2_278.i7:
	ldrh w9, [x21]
	strh w9, [x8]
	sub x9, x19, #0x2
	ldrh w10, [x21, x9]
	strh w10, [x8, x9]
.L2_28c.i7:
	mov w8, #0x5858
	ldp x22, x21, [sp, #176]
	.cfi_restore 21
	.cfi_restore 22
	movk w8, #0x3233, lsl #16
	ldp x24, x23, [sp, #160]
	.cfi_restore 23
	.cfi_restore 24
	add w8, w19, w8
	ldp x26, x25, [sp, #144]
	.cfi_restore 25
	.cfi_restore 26
	str w8, [x20, #12]
	ldp x20, x19, [sp, #192]
	.cfi_restore 19
	.cfi_restore 20
	ldp x29, x30, [sp, #128]
	.cfi_restore 29
	.cfi_restore 30
	add sp, sp, #0xd0
	.cfi_def_cfa_offset 0
	ret
	.cfi_endproc
	.size twox_plain.xxhash32.StateInMemory.add_blocks_in_place.i7,.-twox_plain.xxhash32.StateInMemory.add_blocks_in_place.i7
	.section .text.twox_core.width_128.oneshot_long.i7,"ax",@progbits
	.p2align 6
	.type twox_core.width_128.oneshot_long.i7,@function
twox_core.width_128.oneshot_long.i7:
	.cfi_startproc
	cmp x1, #0xc0
	b.ne .L3_68.i7
	lsr x8, x3, #10
	cmp x8, #0x1e
	b.hi .L3_6c.i7
	stp d15, d14, [sp, #-64]!
	.cfi_def_cfa_offset 64
	.cfi_offset 78, -56
	.cfi_offset 79, -64
	adrp x11, .L20_0.i7
	cmp x3, #0x401
	adrp x14, .L20_10.i7
	adrp x13, .L20_20.i7
	adrp x12, .L20_30.i7
	stp d13, d12, [sp, #16]
	.cfi_offset 76, -40
	.cfi_offset 77, -48
	stp d11, d10, [sp, #32]
	.cfi_offset 74, -24
	.cfi_offset 75, -32
	stp d9, d8, [sp, #48]
	.cfi_offset 72, -8
	.cfi_offset 73, -16
	b.cs .L3_74.i7
	ldr q0, [x11, #:lo12:.L20_0.i7]
	ldr q1, [x14, #:lo12:.L20_10.i7]
	mov x8, #0xffffffffffffffff
	ldr q2, [x13, #:lo12:.L20_20.i7]
	ldr q3, [x12, #:lo12:.L20_30.i7]
	mov x11, x2
	add x8, x3, x8
	lsr x9, x8, #6
	add x8, x2, x3
	cbnz x9, .L3_2f0.i7
	b .L3_374.i7
	.cfi_def_cfa_offset 0
	.cfi_restore 72
	.cfi_restore 73
	.cfi_restore 74
	.cfi_restore 75
	.cfi_restore 76
	.cfi_restore 77
	.cfi_restore 78
	.cfi_restore 79
.L3_68.i7:
	b twox_core.width_128.oneshot_long_of_any_length.i7
.L3_6c.i7:
	mov w1, #0xc0
	b twox_core.width_128.oneshot_many.i7
	.cfi_def_cfa_offset 64
	.cfi_offset 72, -8
	.cfi_offset 73, -16
	.cfi_offset 74, -24
	.cfi_offset 75, -32
	.cfi_offset 76, -40
	.cfi_offset 77, -48
	.cfi_offset 78, -56
	.cfi_offset 79, -64
.L3_74.i7:
	sub x8, x3, #0x1
	ldp q5, q4, [x0, #128]
	ldp q7, q6, [x0, #160]
	lsr x10, x8, #10
	ldr q0, [x11, #:lo12:.L20_0.i7]
	ldr q1, [x14, #:lo12:.L20_10.i7]
	mov x9, xzr
	ldr q2, [x13, #:lo12:.L20_20.i7]
	ldr q3, [x12, #:lo12:.L20_30.i7]
	add x11, x2, #0x80
.L3_9c.i7:
	add x15, x0, #0x20
	mov w12, #0x4
	mov x13, x11
	mov x14, x15
.L3_ac.i7:
	ldp q16, q17, [x15, #-32]
	subs x12, x12, #0x1
	ldp q21, q19, [x13, #-128]
	ldur q24, [x15, #-8]
	ldp q22, q20, [x13, #-64]
	ldur q18, [x15, #-24]
	ldr q8, [x15]
	ldur q11, [x15, #8]
	eor v23.16b, v17.16b, v19.16b
	eor v16.16b, v16.16b, v21.16b
	eor v25.16b, v24.16b, v20.16b
	ldp q27, q30, [x13]
	ldp q9, q10, [x13, #64]
	eor v18.16b, v18.16b, v22.16b
	shrn v28.2s, v23.2d, #32
	xtn v23.2s, v23.2d
	xtn v29.2s, v16.2d
	shrn v12.2s, v25.2d, #32
	xtn v25.2s, v25.2d
	shrn v26.2s, v16.2d, #32
	eor v14.16b, v8.16b, v30.16b
	eor v31.16b, v17.16b, v27.16b
	add v27.2d, v27.2d, v9.2d
	eor v17.16b, v24.16b, v9.16b
	shrn v13.2s, v18.2d, #32
	xtn v15.2s, v18.2d
	umlal v2.2d, v23.2s, v28.2s
	add v23.2d, v22.2d, v21.2d
	ldr q28, [x15, #16]
	ldp q21, q22, [x13, #-96]
	umlal v3.2d, v29.2s, v26.2s
	xtn v9.2s, v14.2d
	shrn v18.2s, v31.2d, #32
	shrn v24.2s, v14.2d, #32
	add v26.2d, v20.2d, v19.2d
	xtn v20.2s, v31.2d
	add v19.2d, v23.2d, v27.2d
	umlal v2.2d, v25.2s, v12.2s
	eor v25.16b, v28.16b, v22.16b
	eor v29.16b, v8.16b, v21.16b
	add v27.2d, v30.2d, v10.2d
	ldp q31, q30, [x13, #-32]
	eor v16.16b, v11.16b, v10.16b
	ldur q23, [x15, #24]
	umlal v3.2d, v15.2s, v13.2s
	shrn v8.2s, v29.2d, #32
	xtn v10.2s, v25.2d
	xtn v29.2s, v29.2d
	shrn v25.2s, v25.2d, #32
	umlal v2.2d, v9.2s, v24.2s
	eor v24.16b, v11.16b, v31.16b
	eor v9.16b, v23.16b, v30.16b
	ldp q11, q12, [x13, #32]
	ldr q13, [x14, #32]!
	add v26.2d, v26.2d, v27.2d
	umlal v0.2d, v10.2s, v25.2s
	umlal v1.2d, v29.2s, v8.2s
	xtn v15.2s, v24.2d
	ldp q25, q29, [x13, #96]
	shrn v14.2s, v9.2d, #32
	xtn v9.2s, v9.2d
	eor v13.16b, v13.16b, v12.16b
	eor v28.16b, v28.16b, v11.16b
	shrn v24.2s, v24.2d, #32
	add v21.2d, v31.2d, v21.2d
	add v22.2d, v30.2d, v22.2d
	add v27.2d, v11.2d, v25.2d
	add v30.2d, v12.2d, v29.2d
	umlal v3.2d, v20.2s, v18.2s
	shrn v31.2s, v28.2d, #32
	xtn v8.2s, v13.2d
	xtn v28.2s, v28.2d
	umlal v0.2d, v9.2s, v14.2s
	umlal v1.2d, v15.2s, v24.2s
	shrn v9.2s, v13.2d, #32
	add v21.2d, v21.2d, v27.2d
	add v22.2d, v22.2d, v30.2d
	ldur q24, [x15, #40]
	ext v18.16b, v26.16b, v26.16b, #8
	ext v19.16b, v19.16b, v19.16b, #8
	add x13, x13, #0x100
	eor v20.16b, v24.16b, v29.16b
	eor v23.16b, v23.16b, v25.16b
	mov x15, x14
	umlal v0.2d, v8.2s, v9.2s
	umlal v1.2d, v28.2s, v31.2s
	ext v22.16b, v22.16b, v22.16b, #8
	ext v21.16b, v21.16b, v21.16b, #8
	shrn v24.2s, v17.2d, #32
	shrn v25.2s, v16.2d, #32
	xtn v17.2s, v17.2d
	xtn v16.2s, v16.2d
	add v3.2d, v3.2d, v19.2d
	add v2.2d, v2.2d, v18.2d
	shrn v18.2s, v23.2d, #32
	xtn v19.2s, v23.2d
	xtn v23.2s, v20.2d
	shrn v20.2s, v20.2d, #32
	add v0.2d, v0.2d, v22.2d
	add v1.2d, v1.2d, v21.2d
	umlal v2.2d, v16.2s, v25.2s
	umlal v3.2d, v17.2s, v24.2s
	umlal v0.2d, v23.2s, v20.2s
	umlal v1.2d, v19.2s, v18.2s
	b.ne .L3_ac.i7
	ushr v16.2d, v2.2d, #47
	eor v2.16b, v4.16b, v2.16b
	adrp x12, .L20_40.i7
	ushr v17.2d, v3.2d, #47
	eor v3.16b, v5.16b, v3.16b
	ldr q20, [x12, #:lo12:.L20_40.i7]
	ushr v18.2d, v0.2d, #47
	eor v0.16b, v6.16b, v0.16b
	mov w12, #0x79b1
	ushr v19.2d, v1.2d, #47
	eor v1.16b, v7.16b, v1.16b
	movk w12, #0x9e37, lsl #16
	eor v16.16b, v2.16b, v16.16b
	eor v17.16b, v3.16b, v17.16b
	add x9, x9, #0x1
	eor v18.16b, v0.16b, v18.16b
	dup v21.2s, w12
	cmp x9, x10
	eor v19.16b, v1.16b, v19.16b
	add x11, x11, #0x400
	mul v2.4s, v16.4s, v20.4s
	mul v3.4s, v17.4s, v20.4s
	xtn v16.2s, v16.2d
	xtn v17.2s, v17.2d
	mul v0.4s, v18.4s, v20.4s
	xtn v18.2s, v18.2d
	mul v1.4s, v19.4s, v20.4s
	xtn v19.2s, v19.2d
	umlal v2.2d, v16.2s, v21.2s
	umlal v3.2d, v17.2s, v21.2s
	umlal v0.2d, v18.2s, v21.2s
	umlal v1.2d, v19.2s, v21.2s
	b.ne .L3_9c.i7
	and x8, x8, #0xfffffffffffffc00
	add x11, x2, x8
	mvn x8, x8
	add x8, x3, x8
	lsr x9, x8, #6
	add x8, x2, x3
	cbz x9, .L3_374.i7
.L3_2f0.i7:
	add x10, x0, #0x20
	add x11, x11, #0x20
.L3_2f8.i7:
	ldp q4, q5, [x11, #-32]
	subs x9, x9, #0x1
	ldp q6, q7, [x10, #-32]
	ldp q17, q16, [x11], #64
	ldp q21, q20, [x10]
	ext v18.16b, v5.16b, v5.16b, #8
	ext v19.16b, v4.16b, v4.16b, #8
	eor v5.16b, v7.16b, v5.16b
	eor v4.16b, v6.16b, v4.16b
	ext v7.16b, v16.16b, v16.16b, #8
	ext v6.16b, v17.16b, v17.16b, #8
	add x10, x10, #0x8
	eor v17.16b, v21.16b, v17.16b
	eor v16.16b, v20.16b, v16.16b
	add v2.2d, v2.2d, v18.2d
	xtn v18.2s, v4.2d
	shrn v4.2s, v4.2d, #32
	add v3.2d, v3.2d, v19.2d
	shrn v19.2s, v5.2d, #32
	xtn v5.2s, v5.2d
	add v0.2d, v7.2d, v0.2d
	add v1.2d, v6.2d, v1.2d
	xtn v6.2s, v16.2d
	xtn v7.2s, v17.2d
	shrn v16.2s, v16.2d, #32
	shrn v17.2s, v17.2d, #32
	umlal v3.2d, v18.2s, v4.2s
	umlal v2.2d, v5.2s, v19.2s
	umlal v0.2d, v6.2s, v16.2s
	umlal v1.2d, v7.2s, v17.2s
	b.ne .L3_2f8.i7
.L3_374.i7:
	ldur q4, [x8, #-64]
	ldur q5, [x0, #121]
	mov x1, #0xeb4f
	ldur q7, [x0, #137]
	ldur q17, [x0, #153]
	mov x5, #0xca87
	ext v6.16b, v4.16b, v4.16b, #8
	eor v4.16b, v5.16b, v4.16b
	ldur q5, [x8, #-48]
	movk x1, #0x27d4, lsl #16
	movk x5, #0x85eb, lsl #16
	ext v16.16b, v5.16b, v5.16b, #8
	eor v5.16b, v7.16b, v5.16b
	movk x1, #0xae3d, lsl #32
	xtn v7.2s, v4.2d
	shrn v4.2s, v4.2d, #32
	movk x5, #0x79b1, lsl #32
	add v3.2d, v6.2d, v3.2d
	ldur q6, [x8, #-32]
	movk x1, #0xc2b2, lsl #48
	xtn v18.2s, v5.2d
	shrn v5.2s, v5.2d, #32
	movk x5, #0x9e37, lsl #48
	add v2.2d, v16.2d, v2.2d
	ldur q16, [x0, #169]
	mul x1, x3, x1
	umlal v3.2d, v7.2s, v4.2s
	ext v4.16b, v6.16b, v6.16b, #8
	eor v6.16b, v17.16b, v6.16b
	ldur q7, [x8, #-16]
	ldur q17, [x0, #11]
	umlal v2.2d, v18.2s, v5.2s
	ldp d9, d8, [sp, #48]
	.cfi_restore 72
	.cfi_restore 73
	eor v5.16b, v16.16b, v7.16b
	xtn v16.2s, v6.2d
	ext v7.16b, v7.16b, v7.16b, #8
	shrn v6.2s, v6.2d, #32
	add v1.2d, v4.2d, v1.2d
	eor v17.16b, v3.16b, v17.16b
	ldur q4, [x0, #27]
	ldp d11, d10, [sp, #32]
	.cfi_restore 74
	.cfi_restore 75
	ldp d13, d12, [sp, #16]
	.cfi_restore 76
	.cfi_restore 77
	umlal v1.2d, v16.2s, v6.2s
	xtn v6.2s, v5.2d
	shrn v5.2s, v5.2d, #32
	add v0.2d, v7.2d, v0.2d
	mov x8, v17.d[1]
	eor v4.16b, v2.16b, v4.16b
	ldur q7, [x0, #43]
	fmov x9, d17
	umlal v0.2d, v6.2s, v5.2s
	mov x12, v4.d[1]
	eor v5.16b, v1.16b, v7.16b
	mul x10, x9, x8
	ldur q6, [x0, #59]
	umulh x11, x9, x8
	fmov x9, d4
	mov x13, v5.d[1]
	eor v4.16b, v0.16b, v6.16b
	ldur q6, [x0, #117]
	mul x8, x9, x12
	eor v3.16b, v6.16b, v3.16b
	mov x14, v4.d[1]
	umulh x9, x9, x12
	fmov x12, d5
	eor x10, x11, x10
	mov x16, v3.d[1]
	madd x10, x3, x5, x10
	mul x15, x12, x13
	eor x8, x9, x8
	umulh x12, x12, x13
	fmov x13, d4
	ldur q4, [x0, #133]
	eor v2.16b, v4.16b, v2.16b
	mul x17, x13, x14
	umulh x13, x13, x14
	fmov x14, d3
	ldur q3, [x0, #149]
	fmov x2, d2
	eor x9, x12, x15
	eor v1.16b, v3.16b, v1.16b
	add x8, x8, x9
	mul x18, x14, x16
	umulh x14, x14, x16
	mov x16, v2.d[1]
	ldur q2, [x0, #165]
	mov x0, v1.d[1]
	eor x9, x13, x17
	mvn x13, x1
	eor v0.16b, v2.16b, v0.16b
	add x8, x8, x9
	add x8, x10, x8
	mul x4, x2, x16
	eor x8, x8, x8, lsr #37
	eor x9, x14, x18
	umulh x11, x2, x16
	fmov x16, d1
	mov x2, v0.d[1]
	add x9, x9, x13
	mul x3, x16, x0
	umulh x16, x16, x0
	fmov x0, d0
	eor x11, x11, x4
	mul x5, x0, x2
	umulh x12, x0, x2
	eor x14, x16, x3
	add x10, x11, x14
	mov x11, #0x79f9
	add x9, x9, x10
	movk x11, #0x9e37, lsl #16
	movk x11, #0x6791, lsl #32
	movk x11, #0x1656, lsl #48
	eor x10, x12, x5
	mul x8, x8, x11
	add x9, x9, x10
	eor x9, x9, x9, lsr #37
	mul x9, x9, x11
	eor x0, x8, x8, lsr #32
	eor x1, x9, x9, lsr #32
	ldp d15, d14, [sp], #64
	.cfi_def_cfa_offset 0
	.cfi_restore 78
	.cfi_restore 79
	ret
	.cfi_endproc
	.size twox_core.width_128.oneshot_long.i7,.-twox_core.width_128.oneshot_long.i7
	.section .text.twox_core.xxhash3.stripes.take_many_stripes.i7,"ax",@progbits
	.p2align 6
	.type twox_core.xxhash3.stripes.take_many_stripes.i7,@function
twox_core.xxhash3.stripes.take_many_stripes.i7:
	.cfi_startproc
	stp d11, d10, [sp, #-112]!
	.cfi_def_cfa_offset 112
	.cfi_offset 74, -104
	.cfi_offset 75, -112
	stp d9, d8, [sp, #16]
	.cfi_offset 72, -88
	.cfi_offset 73, -96
	stp x29, x30, [sp, #32]
	.cfi_offset 29, -80
	.cfi_offset 30, -72
	add x29, sp, #0x20
	str x28, [sp, #48]
	.cfi_offset 28, -64
	stp x24, x23, [sp, #64]
	.cfi_offset 23, -40
	.cfi_offset 24, -48
	stp x22, x21, [sp, #80]
	.cfi_offset 21, -24
	.cfi_offset 22, -32
	stp x20, x19, [sp, #96]
	.cfi_offset 19, -8
	.cfi_offset 20, -16
	sub sp, sp, #0x220
	.cfi_def_cfa_offset 656
	movi v0.2d, #0x0
	mov x8, x2
	mov x5, x4
	mov x4, x3
	mov x2, x1
	mov x19, x0
	cmp x8, #0x400
	str xzr, [sp, #224]
	stp q0, q0, [sp, #160]
	stp q0, q0, [sp, #192]
	b.cc .L4_1b8.i7
	sub x11, x5, #0x40
	and x9, x11, #0xfffffffffffffff8
	cmp x9, #0x80
	b.ne .L4_1b8.i7
	lsr x9, x8, #10
	cmp x9, #0x1e
	b.hi .L4_1fc.i7
	ldr x10, [x19, #64]
	ldp q0, q1, [x19, #32]
	ldp q3, q2, [x19]
	add w9, w10, w10, lsl #1
	lsl w14, w9, #6
	and x15, x14, #0xc0
	sub x12, x8, x15
	add x13, x2, x15
	and x8, x12, #0x7f00
	add x9, x13, x8
	adrp x8, .L20_50.i7
	cbz x15, .L4_2e0.i7
	ubfx x14, x14, #6, #2
	add x15, x4, x11
	b .L4_b4.i7
.L4_a8.i7:
	subs x14, x14, #0x1
	add x2, x2, #0x40
	b.eq .L4_2e0.i7
.L4_b4.i7:
	add x16, x4, x10, lsl #3
	prfm pldl1keep, [x2, #320]
	add x10, x10, #0x1
	ldp q4, q5, [x2]
	cmp x10, #0x10
	ldp q6, q7, [x2, #32]
	ldp q18, q19, [x16]
	ldp q21, q22, [x16, #32]
	ext v16.16b, v5.16b, v5.16b, #8
	ext v17.16b, v4.16b, v4.16b, #8
	ext v20.16b, v6.16b, v6.16b, #8
	ext v23.16b, v7.16b, v7.16b, #8
	eor v5.16b, v19.16b, v5.16b
	eor v4.16b, v18.16b, v4.16b
	eor v7.16b, v22.16b, v7.16b
	eor v6.16b, v21.16b, v6.16b
	add v2.2d, v2.2d, v16.2d
	add v3.2d, v3.2d, v17.2d
	shrn v16.2s, v5.2d, #32
	xtn v5.2s, v5.2d
	xtn v17.2s, v4.2d
	xtn v18.2s, v6.2d
	xtn v19.2s, v7.2d
	add v0.2d, v20.2d, v0.2d
	add v1.2d, v23.2d, v1.2d
	shrn v4.2s, v4.2d, #32
	shrn v6.2s, v6.2d, #32
	shrn v7.2s, v7.2d, #32
	umlal v2.2d, v5.2s, v16.2s
	umlal v3.2d, v17.2s, v4.2s
	umlal v1.2d, v19.2s, v7.2s
	umlal v0.2d, v18.2s, v6.2s
	b.ne .L4_a8.i7
	ldp q4, q5, [x15]
	ushr v6.2d, v3.2d, #47
	ldp q7, q16, [x15, #32]
	ushr v17.2d, v2.2d, #47
	mov w10, #0x79b1
	eor v3.16b, v4.16b, v3.16b
	eor v2.16b, v5.16b, v2.16b
	ushr v4.2d, v1.2d, #47
	eor v1.16b, v16.16b, v1.16b
	ushr v5.2d, v0.2d, #47
	eor v0.16b, v7.16b, v0.16b
	ldr q16, [x8, #:lo12:.L20_50.i7]
	movk w10, #0x9e37, lsl #16
	eor v6.16b, v6.16b, v3.16b
	eor v7.16b, v17.16b, v2.16b
	dup v17.2s, w10
	eor v4.16b, v4.16b, v1.16b
	eor v5.16b, v5.16b, v0.16b
	mov x10, xzr
	mul v2.4s, v7.4s, v16.4s
	mul v3.4s, v6.4s, v16.4s
	xtn v7.2s, v7.2d
	xtn v6.2s, v6.2d
	mul v1.4s, v4.4s, v16.4s
	mul v0.4s, v5.4s, v16.4s
	xtn v4.2s, v4.2d
	xtn v5.2s, v5.2d
	umlal v2.2d, v7.2s, v17.2s
	umlal v3.2d, v6.2s, v17.2s
	umlal v0.2d, v5.2s, v17.2s
	umlal v1.2d, v4.2s, v17.2s
	b .L4_a8.i7
.L4_1b8.i7:
	ldp q0, q1, [x19, #32]
	add x0, sp, #0xa0
	ldr x9, [x19, #64]
	add x1, sp, #0x50
	mov x3, x8
	stp q0, q1, [sp, #112]
	ldp q1, q0, [x19]
	str x9, [sp, #144]
	stp q1, q0, [sp, #80]
	bl twox_core.xxhash3.stripes.take_stripes.i7
	ldp q0, q1, [sp, #192]
	ldr x8, [sp, #224]
	str x8, [x19, #64]
	stp q0, q1, [x19, #32]
	ldp q1, q0, [sp, #160]
	stp q1, q0, [x19]
	b .L4_854.i7
.L4_1fc.i7:
	ldp q0, q1, [x19]
	add x0, sp, #0x130
	ldr x9, [x19, #64]
	sub x1, x29, #0x70
	str xzr, [sp, #368]
	mov x21, x4
	mov x22, x5
	lsl w10, w9, #10
	stp q0, q1, [x29, #-112]
	movi v1.2d, #0x0
	ldp q0, q2, [x19, #32]
	stur x9, [x29, #-48]
	sub w9, w10, w9, lsl #6
	and x3, x9, #0x3c0
	stp q0, q2, [x29, #-80]
	stp q1, q1, [sp, #304]
	add x20, x2, x3
	sub x23, x8, x3
	stp q1, q1, [sp, #336]
	bl twox_core.xxhash3.stripes.take_stripes.i7
	movi v0.2d, #0x0
	add x0, sp, #0xf0
	add x1, sp, #0x130
	and x3, x23, #0xfffffffffffffc00
	mov x2, x20
	mov x4, x21
	mov x5, x22
	and x24, x23, #0xfffffffffffffc00
	stp q0, q0, [sp, #240]
	stp q0, q0, [sp, #272]
	bl twox_core.xxhash3.stripes.blocks.take_many_blocks.i7
	ldp q0, q1, [sp, #240]
	sub x0, x29, #0xc0
	sub x1, x29, #0x70
	add x2, x20, x24
	and x3, x23, #0x3ff
	mov x4, x21
	mov x5, x22
	stur xzr, [x29, #-48]
	stp q0, q1, [x29, #-112]
	ldp q0, q2, [sp, #272]
	stur xzr, [x29, #-128]
	stp q0, q2, [x29, #-80]
	movi v0.2d, #0x0
	stp q0, q0, [x29, #-192]
	stp q0, q0, [x29, #-160]
	bl twox_core.xxhash3.stripes.take_stripes.i7
	ldp q1, q0, [x29, #-160]
	ldur x8, [x29, #-128]
	ldp q2, q3, [x29, #-192]
	str x8, [sp, #64]
	stp q1, q0, [sp, #32]
	stp q2, q3, [sp]
	stp q1, q0, [x19, #32]
	str x8, [x19, #64]
	stp q2, q3, [x19]
	b .L4_854.i7
.L4_2e0.i7:
	lsr x14, x12, #8
	add x15, x4, x11
	b .L4_2f8.i7
.L4_2ec.i7:
	subs x14, x14, #0x1
	add x13, x13, #0x100
	b.eq .L4_52c.i7
.L4_2f8.i7:
	add x16, x4, x10, lsl #3
	prfm pldl1keep, [x13, #1024]
	prfm pldl1keep, [x13, #1088]
	prfm pldl1keep, [x13, #1152]
	prfm pldl1keep, [x13, #1216]
	add x10, x10, #0x4
	ldp q16, q4, [x16]
	cmp x10, #0x10
	ldp q6, q5, [x13]
	ldur q18, [x16, #24]
	ldp q20, q17, [x13, #64]
	ldur q23, [x16, #8]
	ldur q28, [x16, #40]
	ldp q24, q25, [x13, #128]
	eor v7.16b, v4.16b, v5.16b
	eor v19.16b, v16.16b, v6.16b
	ldr q16, [x16, #32]
	eor v21.16b, v18.16b, v17.16b
	add v26.2d, v20.2d, v6.2d
	add v6.2d, v17.2d, v5.2d
	eor v20.16b, v23.16b, v20.16b
	eor v23.16b, v16.16b, v25.16b
	shrn v22.2s, v7.2d, #32
	xtn v7.2s, v7.2d
	xtn v17.2s, v19.2d
	xtn v27.2s, v21.2d
	shrn v19.2s, v19.2d, #32
	shrn v21.2s, v21.2d, #32
	umlal v2.2d, v7.2s, v22.2s
	ldp q5, q22, [x13, #192]
	umlal v3.2d, v17.2s, v19.2s
	ldur q17, [x16, #56]
	add v29.2d, v24.2d, v5.2d
	eor v5.16b, v18.16b, v5.16b
	add v7.2d, v25.2d, v22.2d
	ldp q18, q19, [x13, #32]
	umlal v2.2d, v27.2s, v21.2s
	ldr q21, [x16, #48]
	xtn v25.2s, v23.2d
	eor v24.16b, v4.16b, v24.16b
	eor v4.16b, v28.16b, v22.16b
	xtn v22.2s, v20.2d
	shrn v23.2s, v23.2d, #32
	eor v31.16b, v21.16b, v19.16b
	eor v8.16b, v16.16b, v18.16b
	shrn v20.2s, v20.2d, #32
	ldp q30, q27, [x13, #96]
	add v16.2d, v26.2d, v29.2d
	umlal v2.2d, v25.2s, v23.2s
	add v6.2d, v6.2d, v7.2d
	shrn v26.2s, v24.2d, #32
	xtn v29.2s, v31.2d
	xtn v23.2s, v8.2d
	umlal v3.2d, v22.2s, v20.2s
	shrn v20.2s, v8.2d, #32
	shrn v22.2s, v31.2d, #32
	eor v28.16b, v28.16b, v30.16b
	eor v9.16b, v17.16b, v27.16b
	ldp q25, q31, [x13, #160]
	ldr q8, [x16, #64]
	add v18.2d, v30.2d, v18.2d
	add v19.2d, v27.2d, v19.2d
	umlal v1.2d, v29.2s, v22.2s
	umlal v0.2d, v23.2s, v20.2s
	xtn v11.2s, v28.2d
	ldp q20, q22, [x13, #224]
	shrn v10.2s, v9.2d, #32
	xtn v9.2s, v9.2d
	eor v8.16b, v8.16b, v31.16b
	eor v21.16b, v21.16b, v25.16b
	shrn v7.2s, v28.2d, #32
	xtn v24.2s, v24.2d
	ext v6.16b, v6.16b, v6.16b, #8
	add v23.2d, v25.2d, v20.2d
	add v25.2d, v31.2d, v22.2d
	ext v16.16b, v16.16b, v16.16b, #8
	shrn v27.2s, v21.2d, #32
	xtn v28.2s, v8.2d
	xtn v21.2s, v21.2d
	umlal v1.2d, v9.2s, v10.2s
	umlal v0.2d, v11.2s, v7.2s
	shrn v29.2s, v8.2d, #32
	add v18.2d, v18.2d, v23.2d
	add v19.2d, v19.2d, v25.2d
	ldur q7, [x16, #72]
	umlal v3.2d, v24.2s, v26.2s
	eor v17.16b, v17.16b, v20.16b
	shrn v20.2s, v5.2d, #32
	eor v7.16b, v7.16b, v22.16b
	xtn v5.2s, v5.2d
	add v2.2d, v2.2d, v6.2d
	umlal v1.2d, v28.2s, v29.2s
	umlal v0.2d, v21.2s, v27.2s
	ext v19.16b, v19.16b, v19.16b, #8
	ext v18.16b, v18.16b, v18.16b, #8
	shrn v21.2s, v4.2d, #32
	xtn v4.2s, v4.2d
	add v3.2d, v3.2d, v16.2d
	shrn v6.2s, v17.2d, #32
	xtn v16.2s, v17.2d
	xtn v17.2s, v7.2d
	shrn v7.2s, v7.2d, #32
	add v1.2d, v1.2d, v19.2d
	add v0.2d, v0.2d, v18.2d
	umlal v2.2d, v4.2s, v21.2s
	umlal v3.2d, v5.2s, v20.2s
	umlal v1.2d, v17.2s, v7.2s
	umlal v0.2d, v16.2s, v6.2s
	b.ne .L4_2ec.i7
	ldp q4, q5, [x15]
	ushr v6.2d, v3.2d, #47
	ldp q7, q16, [x15, #32]
	ushr v17.2d, v2.2d, #47
	mov w10, #0x79b1
	eor v3.16b, v4.16b, v3.16b
	eor v2.16b, v5.16b, v2.16b
	ushr v4.2d, v1.2d, #47
	eor v1.16b, v16.16b, v1.16b
	ushr v5.2d, v0.2d, #47
	eor v0.16b, v7.16b, v0.16b
	ldr q16, [x8, #:lo12:.L20_50.i7]
	movk w10, #0x9e37, lsl #16
	eor v6.16b, v6.16b, v3.16b
	eor v7.16b, v17.16b, v2.16b
	dup v17.2s, w10
	eor v4.16b, v4.16b, v1.16b
	eor v5.16b, v5.16b, v0.16b
	mov x10, xzr
	mul v2.4s, v7.4s, v16.4s
	mul v3.4s, v6.4s, v16.4s
	xtn v7.2s, v7.2d
	xtn v6.2s, v6.2d
	mul v1.4s, v4.4s, v16.4s
	mul v0.4s, v5.4s, v16.4s
	xtn v4.2s, v4.2d
	xtn v5.2s, v5.2d
	umlal v2.2d, v7.2s, v17.2s
	umlal v3.2d, v6.2s, v17.2s
	umlal v0.2d, v5.2s, v17.2s
	umlal v1.2d, v4.2s, v17.2s
	b .L4_2ec.i7
.L4_52c.i7:
	ubfx x12, x12, #6, #2
	cbz x12, .L4_848.i7
	add x13, x4, x10, lsl #3
	prfm pldl1keep, [x9, #320]
	add x10, x10, #0x1
	ldp q4, q5, [x9]
	cmp x10, #0x10
	ldp q6, q7, [x9, #32]
	add x11, x4, x11
	ldp q18, q19, [x13]
	ldp q21, q22, [x13, #32]
	ext v16.16b, v5.16b, v5.16b, #8
	ext v17.16b, v4.16b, v4.16b, #8
	ext v20.16b, v6.16b, v6.16b, #8
	ext v23.16b, v7.16b, v7.16b, #8
	eor v5.16b, v19.16b, v5.16b
	eor v4.16b, v18.16b, v4.16b
	eor v7.16b, v22.16b, v7.16b
	eor v6.16b, v21.16b, v6.16b
	add v2.2d, v2.2d, v16.2d
	add v3.2d, v3.2d, v17.2d
	shrn v16.2s, v5.2d, #32
	xtn v5.2s, v5.2d
	xtn v17.2s, v4.2d
	xtn v18.2s, v6.2d
	xtn v19.2s, v7.2d
	add v0.2d, v20.2d, v0.2d
	add v1.2d, v23.2d, v1.2d
	shrn v4.2s, v4.2d, #32
	shrn v6.2s, v6.2d, #32
	shrn v7.2s, v7.2d, #32
	umlal v2.2d, v5.2s, v16.2s
	umlal v3.2d, v17.2s, v4.2s
	umlal v1.2d, v19.2s, v7.2s
	umlal v0.2d, v18.2s, v6.2s
	b.ne .L4_638.i7
	ldp q4, q5, [x11]
	ushr v6.2d, v3.2d, #47
	ldp q7, q16, [x11, #32]
	ushr v17.2d, v2.2d, #47
	mov w10, #0x79b1
	eor v3.16b, v4.16b, v3.16b
	eor v2.16b, v5.16b, v2.16b
	ushr v4.2d, v1.2d, #47
	eor v1.16b, v16.16b, v1.16b
	ushr v5.2d, v0.2d, #47
	eor v0.16b, v7.16b, v0.16b
	ldr q16, [x8, #:lo12:.L20_50.i7]
	movk w10, #0x9e37, lsl #16
	eor v6.16b, v6.16b, v3.16b
	eor v7.16b, v17.16b, v2.16b
	dup v17.2s, w10
	eor v4.16b, v4.16b, v1.16b
	eor v5.16b, v5.16b, v0.16b
	mov x10, xzr
	mul v2.4s, v7.4s, v16.4s
	mul v3.4s, v6.4s, v16.4s
	xtn v7.2s, v7.2d
	xtn v6.2s, v6.2d
	mul v1.4s, v4.4s, v16.4s
	mul v0.4s, v5.4s, v16.4s
	xtn v4.2s, v4.2d
	xtn v5.2s, v5.2d
	umlal v2.2d, v7.2s, v17.2s
	umlal v3.2d, v6.2s, v17.2s
	umlal v0.2d, v5.2s, v17.2s
	umlal v1.2d, v4.2s, v17.2s
.L4_638.i7:
	cmp x12, #0x1
	b.eq .L4_848.i7
	add x13, x4, x10, lsl #3
	prfm pldl1keep, [x9, #384]
	add x10, x10, #0x1
	ldp q4, q5, [x9, #64]
	cmp x10, #0x10
	ldp q6, q7, [x9, #96]
	ldp q18, q19, [x13]
	ldp q21, q22, [x13, #32]
	ext v16.16b, v5.16b, v5.16b, #8
	ext v17.16b, v4.16b, v4.16b, #8
	ext v20.16b, v6.16b, v6.16b, #8
	ext v23.16b, v7.16b, v7.16b, #8
	eor v5.16b, v19.16b, v5.16b
	eor v4.16b, v18.16b, v4.16b
	eor v7.16b, v22.16b, v7.16b
	eor v6.16b, v21.16b, v6.16b
	add v2.2d, v2.2d, v16.2d
	add v3.2d, v3.2d, v17.2d
	shrn v16.2s, v5.2d, #32
	xtn v5.2s, v5.2d
	xtn v17.2s, v4.2d
	xtn v18.2s, v6.2d
	xtn v19.2s, v7.2d
	add v0.2d, v20.2d, v0.2d
	add v1.2d, v23.2d, v1.2d
	shrn v4.2s, v4.2d, #32
	shrn v6.2s, v6.2d, #32
	shrn v7.2s, v7.2d, #32
	umlal v2.2d, v5.2s, v16.2s
	umlal v3.2d, v17.2s, v4.2s
	umlal v1.2d, v19.2s, v7.2s
	umlal v0.2d, v18.2s, v6.2s
	b.ne .L4_740.i7
	ldp q4, q5, [x11]
	ushr v6.2d, v3.2d, #47
	ldp q7, q16, [x11, #32]
	ushr v17.2d, v2.2d, #47
	mov w10, #0x79b1
	eor v3.16b, v4.16b, v3.16b
	eor v2.16b, v5.16b, v2.16b
	ushr v4.2d, v1.2d, #47
	eor v1.16b, v16.16b, v1.16b
	ushr v5.2d, v0.2d, #47
	eor v0.16b, v7.16b, v0.16b
	ldr q16, [x8, #:lo12:.L20_50.i7]
	movk w10, #0x9e37, lsl #16
	eor v6.16b, v6.16b, v3.16b
	eor v7.16b, v17.16b, v2.16b
	dup v17.2s, w10
	eor v4.16b, v4.16b, v1.16b
	eor v5.16b, v5.16b, v0.16b
	mov x10, xzr
	mul v2.4s, v7.4s, v16.4s
	mul v3.4s, v6.4s, v16.4s
	xtn v7.2s, v7.2d
	xtn v6.2s, v6.2d
	mul v1.4s, v4.4s, v16.4s
	mul v0.4s, v5.4s, v16.4s
	xtn v4.2s, v4.2d
	xtn v5.2s, v5.2d
	umlal v2.2d, v7.2s, v17.2s
	umlal v3.2d, v6.2s, v17.2s
	umlal v0.2d, v5.2s, v17.2s
	umlal v1.2d, v4.2s, v17.2s
.L4_740.i7:
	cmp x12, #0x2
	b.eq .L4_848.i7
	add x12, x4, x10, lsl #3
	prfm pldl1keep, [x9, #448]
	add x10, x10, #0x1
	ldp q4, q5, [x9, #128]
	cmp x10, #0x10
	ldp q6, q7, [x9, #160]
	ldp q18, q19, [x12]
	ldp q21, q22, [x12, #32]
	ext v16.16b, v5.16b, v5.16b, #8
	ext v17.16b, v4.16b, v4.16b, #8
	ext v20.16b, v6.16b, v6.16b, #8
	ext v23.16b, v7.16b, v7.16b, #8
	eor v5.16b, v19.16b, v5.16b
	eor v4.16b, v18.16b, v4.16b
	eor v7.16b, v22.16b, v7.16b
	eor v6.16b, v21.16b, v6.16b
	add v2.2d, v2.2d, v16.2d
	add v3.2d, v3.2d, v17.2d
	shrn v16.2s, v5.2d, #32
	xtn v5.2s, v5.2d
	xtn v17.2s, v4.2d
	xtn v18.2s, v6.2d
	xtn v19.2s, v7.2d
	add v0.2d, v20.2d, v0.2d
	add v1.2d, v23.2d, v1.2d
	shrn v4.2s, v4.2d, #32
	shrn v6.2s, v6.2d, #32
	shrn v7.2s, v7.2d, #32
	umlal v2.2d, v5.2s, v16.2s
	umlal v3.2d, v17.2s, v4.2s
	umlal v1.2d, v19.2s, v7.2s
	umlal v0.2d, v18.2s, v6.2s
	b.ne .L4_848.i7
	ldp q4, q5, [x11]
	ushr v6.2d, v3.2d, #47
	ldp q7, q16, [x11, #32]
	ushr v17.2d, v2.2d, #47
	mov x10, xzr
	eor v3.16b, v4.16b, v3.16b
	eor v2.16b, v5.16b, v2.16b
	ushr v4.2d, v1.2d, #47
	eor v1.16b, v16.16b, v1.16b
	ushr v5.2d, v0.2d, #47
	eor v0.16b, v7.16b, v0.16b
	ldr q16, [x8, #:lo12:.L20_50.i7]
	mov w8, #0x79b1
	eor v6.16b, v6.16b, v3.16b
	eor v7.16b, v17.16b, v2.16b
	movk w8, #0x9e37, lsl #16
	eor v4.16b, v4.16b, v1.16b
	eor v5.16b, v5.16b, v0.16b
	dup v17.2s, w8
	mul v2.4s, v7.4s, v16.4s
	mul v3.4s, v6.4s, v16.4s
	xtn v7.2s, v7.2d
	xtn v6.2s, v6.2d
	mul v1.4s, v4.4s, v16.4s
	mul v0.4s, v5.4s, v16.4s
	xtn v4.2s, v4.2d
	xtn v5.2s, v5.2d
	umlal v2.2d, v7.2s, v17.2s
	umlal v3.2d, v6.2s, v17.2s
	umlal v0.2d, v5.2s, v17.2s
	umlal v1.2d, v4.2s, v17.2s
.L4_848.i7:
	stp q3, q2, [x19]
	stp q0, q1, [x19, #32]
	str x10, [x19, #64]
.L4_854.i7:
	add sp, sp, #0x220
	.cfi_def_cfa_offset 112
	ldp x20, x19, [sp, #96]
	.cfi_restore 19
	.cfi_restore 20
	ldr x28, [sp, #48]
	.cfi_restore 28
	ldp x22, x21, [sp, #80]
	.cfi_restore 21
	.cfi_restore 22
	ldp x24, x23, [sp, #64]
	.cfi_restore 23
	.cfi_restore 24
	ldp x29, x30, [sp, #32]
	.cfi_restore 29
	.cfi_restore 30
	ldp d9, d8, [sp, #16]
	.cfi_restore 72
	.cfi_restore 73
	ldp d11, d10, [sp], #112
	.cfi_def_cfa_offset 0
	.cfi_restore 74
	.cfi_restore 75
	ret
	.cfi_endproc
	.size twox_core.xxhash3.stripes.take_many_stripes.i7,.-twox_core.xxhash3.stripes.take_many_stripes.i7
	.section .text.twox_core.xxhash3.stripes.take_stripes.i7,"ax",@progbits
	.p2align 6
	.type twox_core.xxhash3.stripes.take_stripes.i7,@function
twox_core.xxhash3.stripes.take_stripes.i7:
	.cfi_startproc
	ldp q3, q2, [x1]
	lsr x8, x3, #6
	ldp q0, q1, [x1, #32]
	ldr x11, [x1, #64]
	cbz x8, .L5_138.i7
	sub x10, x5, #0x40
	lsr x9, x10, #3
	add x10, x4, x10
	b .L5_30.i7
.L5_24.i7:
	subs x8, x8, #0x1
	add x2, x2, #0x40
	b.eq .L5_138.i7
.L5_30.i7:
	add x12, x4, x11, lsl #3
	prfm pldl1keep, [x2, #320]
	add x11, x11, #0x1
	ldp q4, q5, [x2]
	cmp x11, x9
	ldp q6, q7, [x2, #32]
	ldp q18, q19, [x12]
	ldp q21, q22, [x12, #32]
	ext v16.16b, v5.16b, v5.16b, #8
	ext v17.16b, v4.16b, v4.16b, #8
	ext v20.16b, v6.16b, v6.16b, #8
	ext v23.16b, v7.16b, v7.16b, #8
	eor v5.16b, v19.16b, v5.16b
	eor v4.16b, v18.16b, v4.16b
	eor v7.16b, v22.16b, v7.16b
	eor v6.16b, v21.16b, v6.16b
	add v2.2d, v16.2d, v2.2d
	add v3.2d, v17.2d, v3.2d
	shrn v16.2s, v5.2d, #32
	xtn v5.2s, v5.2d
	xtn v17.2s, v4.2d
	xtn v18.2s, v6.2d
	xtn v19.2s, v7.2d
	add v0.2d, v20.2d, v0.2d
	add v1.2d, v23.2d, v1.2d
	shrn v4.2s, v4.2d, #32
	shrn v6.2s, v6.2d, #32
	shrn v7.2s, v7.2d, #32
	umlal v2.2d, v5.2s, v16.2s
	umlal v3.2d, v17.2s, v4.2s
	umlal v1.2d, v19.2s, v7.2s
	umlal v0.2d, v18.2s, v6.2s
	b.ne .L5_24.i7
	ldp q4, q5, [x10]
	ushr v6.2d, v3.2d, #47
	ldp q7, q16, [x10, #32]
	ushr v17.2d, v2.2d, #47
	adrp x11, .L20_60.i7
	eor v3.16b, v4.16b, v3.16b
	eor v2.16b, v5.16b, v2.16b
	ushr v4.2d, v1.2d, #47
	eor v1.16b, v16.16b, v1.16b
	ushr v5.2d, v0.2d, #47
	eor v0.16b, v7.16b, v0.16b
	ldr q16, [x11, #:lo12:.L20_60.i7]
	mov w11, #0x79b1
	eor v6.16b, v6.16b, v3.16b
	eor v7.16b, v17.16b, v2.16b
	movk w11, #0x9e37, lsl #16
	eor v4.16b, v4.16b, v1.16b
	eor v5.16b, v5.16b, v0.16b
	dup v17.2s, w11
	mov x11, xzr
	mul v2.4s, v7.4s, v16.4s
	mul v3.4s, v6.4s, v16.4s
	xtn v7.2s, v7.2d
	xtn v6.2s, v6.2d
	mul v1.4s, v4.4s, v16.4s
	mul v0.4s, v5.4s, v16.4s
	xtn v4.2s, v4.2d
	xtn v5.2s, v5.2d
	umlal v2.2d, v7.2s, v17.2s
	umlal v3.2d, v6.2s, v17.2s
	umlal v0.2d, v5.2s, v17.2s
	umlal v1.2d, v4.2s, v17.2s
	b .L5_24.i7
.L5_138.i7:
	stp q3, q2, [x0]
	stp q0, q1, [x0, #32]
	str x11, [x0, #64]
	ret
	.cfi_endproc
	.size twox_core.xxhash3.stripes.take_stripes.i7,.-twox_core.xxhash3.stripes.take_stripes.i7
	.section .text.twox_core.xxhash3.stripes.blocks.take_many_blocks.i7,"ax",@progbits
	.p2align 6
	.type twox_core.xxhash3.stripes.blocks.take_many_blocks.i7,@function
twox_core.xxhash3.stripes.blocks.take_many_blocks.i7:
	.cfi_startproc
	ldp q0, q1, [x1, #32]
	lsr x8, x3, #10
	ldp q2, q3, [x1]
	cbz x8, .L6_2c0.i7
	stp d15, d14, [sp, #-64]!
	.cfi_def_cfa_offset 64
	.cfi_offset 78, -56
	.cfi_offset 79, -64
	add x10, x4, x5
	mov x9, xzr
	stp d13, d12, [sp, #16]
	.cfi_offset 76, -40
	.cfi_offset 77, -48
	ldp q5, q4, [x10, #-64]
	stp d11, d10, [sp, #32]
	.cfi_offset 74, -24
	.cfi_offset 75, -32
	ldp q7, q6, [x10, #-32]
	add x10, x4, #0x20
	stp d9, d8, [sp, #48]
	.cfi_offset 72, -8
	.cfi_offset 73, -16
.L6_34.i7:
	mov x14, x10
	mov w11, #0x4
	mov x12, x2
	mov x13, x10
.L6_44.i7:
	prfm pldl1keep, [x12, #1024]
	prfm pldl1keep, [x12, #1088]
	subs x11, x11, #0x1
	prfm pldl1keep, [x12, #1152]
	prfm pldl1keep, [x12, #1216]
	ldur q23, [x14, #-8]
	ldp q21, q16, [x14, #-32]
	ldur q28, [x14, #-24]
	ldr q25, [x14]
	ldur q10, [x14, #8]
	ldp q19, q18, [x12]
	ldp q22, q20, [x12, #64]
	eor v17.16b, v16.16b, v18.16b
	eor v24.16b, v21.16b, v19.16b
	eor v26.16b, v23.16b, v20.16b
	ldp q29, q21, [x12, #128]
	eor v28.16b, v28.16b, v22.16b
	add v22.2d, v22.2d, v19.2d
	shrn v27.2s, v17.2d, #32
	xtn v17.2s, v17.2d
	xtn v31.2s, v24.2d
	xtn v8.2s, v26.2d
	shrn v24.2s, v24.2d, #32
	eor v30.16b, v25.16b, v21.16b
	shrn v26.2s, v26.2d, #32
	shrn v12.2s, v28.2d, #32
	xtn v28.2s, v28.2d
	eor v11.16b, v16.16b, v29.16b
	umlal v3.2d, v17.2s, v27.2s
	ldp q27, q9, [x12, #192]
	umlal v2.2d, v31.2s, v24.2s
	shrn v13.2s, v30.2d, #32
	xtn v30.2s, v30.2d
	add v31.2d, v20.2d, v18.2d
	ldur q20, [x14, #24]
	shrn v18.2s, v11.2d, #32
	eor v17.16b, v23.16b, v27.16b
	ldp q23, q24, [x12, #32]
	umlal v3.2d, v8.2s, v26.2s
	ldr q26, [x14, #16]
	add v27.2d, v29.2d, v27.2d
	umlal v2.2d, v28.2s, v12.2s
	eor v16.16b, v10.16b, v9.16b
	add v21.2d, v21.2d, v9.2d
	eor v25.16b, v25.16b, v23.16b
	eor v29.16b, v26.16b, v24.16b
	xtn v19.2s, v11.2d
	add v22.2d, v22.2d, v27.2d
	ldp q11, q12, [x12, #160]
	umlal v3.2d, v30.2s, v13.2s
	ldp q30, q28, [x12, #96]
	shrn v27.2s, v25.2d, #32
	xtn v25.2s, v25.2d
	xtn v8.2s, v29.2d
	shrn v29.2s, v29.2d, #32
	ldr q13, [x13, #32]!
	eor v9.16b, v10.16b, v30.16b
	eor v10.16b, v20.16b, v28.16b
	eor v26.16b, v26.16b, v11.16b
	eor v13.16b, v13.16b, v12.16b
	add v23.2d, v30.2d, v23.2d
	add v24.2d, v28.2d, v24.2d
	umlal v0.2d, v25.2s, v27.2s
	ldp q25, q27, [x12, #224]
	shrn v14.2s, v10.2d, #32
	xtn v10.2s, v10.2d
	xtn v15.2s, v9.2d
	umlal v1.2d, v8.2s, v29.2s
	shrn v29.2s, v9.2d, #32
	add v21.2d, v31.2d, v21.2d
	add v28.2d, v11.2d, v25.2d
	add v30.2d, v12.2d, v27.2d
	shrn v31.2s, v26.2d, #32
	xtn v8.2s, v13.2d
	xtn v26.2s, v26.2d
	shrn v9.2s, v13.2d, #32
	umlal v0.2d, v15.2s, v29.2s
	ldur q29, [x14, #40]
	umlal v2.2d, v19.2s, v18.2s
	umlal v1.2d, v10.2s, v14.2s
	add v23.2d, v23.2d, v28.2d
	add v24.2d, v24.2d, v30.2d
	ext v18.16b, v21.16b, v21.16b, #8
	ext v19.16b, v22.16b, v22.16b, #8
	eor v21.16b, v29.16b, v27.16b
	eor v20.16b, v20.16b, v25.16b
	shrn v25.2s, v16.2d, #32
	xtn v16.2s, v16.2d
	umlal v0.2d, v26.2s, v31.2s
	ext v22.16b, v24.16b, v24.16b, #8
	ext v23.16b, v23.16b, v23.16b, #8
	umlal v1.2d, v8.2s, v9.2s
	shrn v24.2s, v17.2d, #32
	xtn v17.2s, v17.2d
	add v2.2d, v2.2d, v19.2d
	add v3.2d, v3.2d, v18.2d
	shrn v18.2s, v20.2d, #32
	xtn v19.2s, v20.2d
	xtn v20.2s, v21.2d
	shrn v21.2s, v21.2d, #32
	add v0.2d, v0.2d, v23.2d
	add x12, x12, #0x100
	mov x14, x13
	add v1.2d, v1.2d, v22.2d
	umlal v3.2d, v16.2s, v25.2s
	umlal v2.2d, v17.2s, v24.2s
	umlal v0.2d, v19.2s, v18.2s
	umlal v1.2d, v20.2s, v21.2s
	b.ne .L6_44.i7
	ushr v16.2d, v3.2d, #47
	eor v3.16b, v4.16b, v3.16b
	adrp x11, .L20_70.i7
	ushr v17.2d, v2.2d, #47
	eor v2.16b, v5.16b, v2.16b
	ldr q20, [x11, #:lo12:.L20_70.i7]
	ushr v18.2d, v1.2d, #47
	eor v1.16b, v6.16b, v1.16b
	mov w11, #0x79b1
	ushr v19.2d, v0.2d, #47
	eor v0.16b, v7.16b, v0.16b
	movk w11, #0x9e37, lsl #16
	eor v16.16b, v16.16b, v3.16b
	eor v17.16b, v17.16b, v2.16b
	add x9, x9, #0x1
	eor v18.16b, v18.16b, v1.16b
	dup v21.2s, w11
	cmp x9, x8
	eor v19.16b, v19.16b, v0.16b
	add x2, x2, #0x400
	mul v3.4s, v16.4s, v20.4s
	mul v2.4s, v17.4s, v20.4s
	xtn v16.2s, v16.2d
	xtn v17.2s, v17.2d
	mul v1.4s, v18.4s, v20.4s
	xtn v18.2s, v18.2d
	mul v0.4s, v19.4s, v20.4s
	xtn v19.2s, v19.2d
	umlal v3.2d, v16.2s, v21.2s
	umlal v2.2d, v17.2s, v21.2s
	umlal v1.2d, v18.2s, v21.2s
	umlal v0.2d, v19.2s, v21.2s
	b.ne .L6_34.i7
	mov x8, v1.d[1]
	mov x9, v0.d[1]
	mov x10, v3.d[1]
	mov x11, v2.d[1]
	ldp d9, d8, [sp, #48]
	.cfi_restore 72
	.cfi_restore 73
	fmov x12, d1
	fmov x13, d0
	fmov x14, d3
	fmov x15, d2
	ldp d11, d10, [sp, #32]
	.cfi_restore 74
	.cfi_restore 75
	ldp d13, d12, [sp, #16]
	.cfi_restore 76
	.cfi_restore 77
	ldp d15, d14, [sp], #64
	.cfi_def_cfa_offset 0
	.cfi_restore 78
	.cfi_restore 79
	stp x15, x11, [x0]
	stp x14, x10, [x0, #16]
	stp x13, x9, [x0, #32]
	stp x12, x8, [x0, #48]
	ret
.L6_2c0.i7:
	mov x11, v2.d[1]
	mov x10, v3.d[1]
	mov x9, v0.d[1]
	mov x8, v1.d[1]
	fmov x15, d2
	fmov x14, d3
	fmov x13, d0
	fmov x12, d1
	stp x15, x11, [x0]
	stp x14, x10, [x0, #16]
	stp x13, x9, [x0, #32]
	stp x12, x8, [x0, #48]
	ret
	.cfi_endproc
	.size twox_core.xxhash3.stripes.blocks.take_many_blocks.i7,.-twox_core.xxhash3.stripes.blocks.take_many_blocks.i7
	.section .text.twox_core.width_128.oneshot_many.i7,"ax",@progbits
	.p2align 6
	.type twox_core.width_128.oneshot_many.i7,@function
twox_core.width_128.oneshot_many.i7:
	.cfi_startproc
	sub sp, sp, #0x90
	.cfi_def_cfa_offset 144
	sub x8, x1, #0x40
	sub x9, x3, #0x1
	stp x22, x21, [sp, #112]
	.cfi_offset 21, -24
	.cfi_offset 22, -32
	lsr x8, x8, #3
	lsr x9, x9, #6
	stp x20, x19, [sp, #128]
	.cfi_offset 19, -8
	.cfi_offset 20, -16
	mov x20, x3
	mov x22, x2
	mov x19, x1
	cmp x9, x8
	mov x21, x0
	stp x29, x30, [sp, #80]
	.cfi_offset 29, -64
	.cfi_offset 30, -56
	str x23, [sp, #96]
	.cfi_offset 23, -48
	add x29, sp, #0x50
	b.cs .L7_48.i7
	mov x8, xzr
	b .L7_64.i7
.L7_48.i7:
	cmp x8, #0x10
	b.eq .L7_60.i7
	cbz x8, .L7_358.i7
	udiv x9, x9, x8
	mul x8, x9, x8
	b .L7_64.i7
.L7_60.i7:
	and x8, x9, #0x3fffffffffffff0
.L7_64.i7:
	adrp x9, .L20_80.i7
	adrp x10, .L20_90.i7
	lsl x23, x8, #6
	ldr q0, [x9, #:lo12:.L20_80.i7]
	ldr q1, [x10, #:lo12:.L20_90.i7]
	adrp x9, .L20_a0.i7
	adrp x10, .L20_b0.i7
	ldr q2, [x9, #:lo12:.L20_a0.i7]
	mov x0, sp
	stp q0, q1, [sp]
	ldr q0, [x10, #:lo12:.L20_b0.i7]
	mov x1, x22
	mov x2, x23
	mov x3, x21
	mov x4, x19
	stp q2, q0, [sp, #32]
	str xzr, [sp, #64]
	bl twox_core.xxhash3.stripes.take_many_stripes.i7
	mvn x8, x23
	ldp q1, q0, [sp, #32]
	add x8, x20, x8
	ldp q3, q2, [sp]
	lsr x9, x8, #6
	add x8, x22, x20
	cbz x9, .L7_150.i7
	add x11, x23, x22
	add x10, x21, #0x20
	add x11, x11, #0x20
.L7_d4.i7:
	ldp q4, q5, [x11, #-32]
	subs x9, x9, #0x1
	ldp q6, q7, [x10, #-32]
	ldp q17, q16, [x11], #64
	ldp q21, q20, [x10]
	ext v18.16b, v5.16b, v5.16b, #8
	ext v19.16b, v4.16b, v4.16b, #8
	eor v5.16b, v7.16b, v5.16b
	eor v4.16b, v6.16b, v4.16b
	ext v7.16b, v16.16b, v16.16b, #8
	ext v6.16b, v17.16b, v17.16b, #8
	add x10, x10, #0x8
	eor v17.16b, v21.16b, v17.16b
	eor v16.16b, v20.16b, v16.16b
	add v2.2d, v2.2d, v18.2d
	xtn v18.2s, v4.2d
	shrn v4.2s, v4.2d, #32
	add v3.2d, v3.2d, v19.2d
	shrn v19.2s, v5.2d, #32
	xtn v5.2s, v5.2d
	add v0.2d, v7.2d, v0.2d
	add v1.2d, v6.2d, v1.2d
	xtn v6.2s, v16.2d
	xtn v7.2s, v17.2d
	shrn v16.2s, v16.2d, #32
	shrn v17.2s, v17.2d, #32
	umlal v3.2d, v18.2s, v4.2s
	umlal v2.2d, v5.2s, v19.2s
	umlal v0.2d, v6.2s, v16.2s
	umlal v1.2d, v7.2s, v17.2s
	b.ne .L7_d4.i7
.L7_150.i7:
	add x9, x21, x19
	ldur q4, [x8, #-64]
	cmp x19, #0x88
	ldur q5, [x9, #-71]
	ldur q7, [x9, #-55]
	ext v6.16b, v4.16b, v4.16b, #8
	eor v4.16b, v5.16b, v4.16b
	ldur q5, [x8, #-48]
	ext v16.16b, v5.16b, v5.16b, #8
	eor v5.16b, v7.16b, v5.16b
	xtn v17.2s, v4.2d
	add v3.2d, v6.2d, v3.2d
	shrn v4.2s, v4.2d, #32
	xtn v6.2s, v5.2d
	add v2.2d, v16.2d, v2.2d
	ldur q16, [x9, #-23]
	umlal v3.2d, v17.2s, v4.2s
	shrn v4.2s, v5.2d, #32
	ldur q5, [x21, #11]
	umlal v2.2d, v6.2s, v4.2s
	ldp q6, q7, [x8, #-32]
	eor v4.16b, v3.16b, v5.16b
	ldur q5, [x21, #27]
	ext v17.16b, v7.16b, v7.16b, #8
	ext v18.16b, v6.16b, v6.16b, #8
	eor v7.16b, v16.16b, v7.16b
	mov x10, v4.d[1]
	eor v5.16b, v2.16b, v5.16b
	fmov x8, d4
	ldur q4, [x9, #-39]
	mov x11, v5.d[1]
	eor v4.16b, v4.16b, v6.16b
	xtn v6.2s, v7.2d
	mul x12, x8, x10
	add v1.2d, v18.2d, v1.2d
	add v0.2d, v17.2d, v0.2d
	shrn v7.2s, v7.2d, #32
	umulh x8, x8, x10
	fmov x10, d5
	xtn v5.2s, v4.2d
	shrn v4.2s, v4.2d, #32
	umlal v0.2d, v6.2s, v7.2s
	mul x13, x10, x11
	umlal v1.2d, v5.2s, v4.2s
	umulh x10, x10, x11
	mov x11, #0xca87
	eor x8, x8, x12
	movk x11, #0x85eb, lsl #16
	movk x11, #0x79b1, lsl #32
	movk x11, #0x9e37, lsl #48
	madd x8, x20, x11, x8
	eor x10, x10, x13
	add x0, x8, x10
	b.cc .L7_284.i7
	ldur q4, [x21, #43]
	ldur q5, [x21, #59]
	eor v4.16b, v4.16b, v1.16b
	eor v5.16b, v5.16b, v0.16b
	mov x8, v4.d[1]
	fmov x10, d4
	mov x11, v5.d[1]
	mul x12, x10, x8
	umulh x8, x10, x8
	fmov x10, d5
	mul x13, x10, x11
	umulh x10, x10, x11
	eor x8, x8, x12
	eor x10, x10, x13
	add x8, x8, x10
	mov x10, #0x79f9
	add x8, x0, x8
	movk x10, #0x9e37, lsl #16
	eor x8, x8, x8, lsr #37
	movk x10, #0x6791, lsl #32
	movk x10, #0x1656, lsl #48
	mul x8, x8, x10
	eor x0, x8, x8, lsr #32
.L7_284.i7:
	ldur q4, [x9, #-75]
	mov x10, #0xeb4f
	cmp x19, #0x88
	movk x10, #0x27d4, lsl #16
	eor v3.16b, v4.16b, v3.16b
	ldur q4, [x9, #-59]
	movk x10, #0xae3d, lsl #32
	movk x10, #0xc2b2, lsl #48
	eor v2.16b, v4.16b, v2.16b
	mul x10, x20, x10
	mov x8, v3.d[1]
	fmov x11, d3
	mov x12, v2.d[1]
	mul x13, x11, x8
	mvn x10, x10
	umulh x8, x11, x8
	fmov x11, d2
	mul x14, x11, x12
	umulh x11, x11, x12
	eor x8, x8, x13
	add x8, x8, x10
	eor x10, x11, x14
	add x1, x8, x10
	b.cc .L7_340.i7
	ldur q2, [x9, #-43]
	eor v1.16b, v2.16b, v1.16b
	ldur q2, [x9, #-27]
	eor v0.16b, v2.16b, v0.16b
	mov x8, v1.d[1]
	fmov x9, d1
	mov x10, v0.d[1]
	mul x11, x9, x8
	umulh x8, x9, x8
	fmov x9, d0
	mul x12, x9, x10
	umulh x9, x9, x10
	eor x8, x8, x11
	eor x9, x9, x12
	add x8, x8, x9
	mov x9, #0x79f9
	add x8, x1, x8
	movk x9, #0x9e37, lsl #16
	eor x8, x8, x8, lsr #37
	movk x9, #0x6791, lsl #32
	movk x9, #0x1656, lsl #48
	mul x8, x8, x9
	eor x1, x8, x8, lsr #32
.L7_340.i7:
	ldp x20, x19, [sp, #128]
	.cfi_restore 19
	.cfi_restore 20
	ldr x23, [sp, #96]
	.cfi_restore 23
	ldp x22, x21, [sp, #112]
	.cfi_restore 21
	.cfi_restore 22
	ldp x29, x30, [sp, #80]
	.cfi_restore 29
	.cfi_restore 30
	add sp, sp, #0x90
	.cfi_def_cfa_offset 0
	ret
	.cfi_def_cfa_offset 144
	.cfi_offset 19, -8
	.cfi_offset 20, -16
	.cfi_offset 21, -24
	.cfi_offset 22, -32
	.cfi_offset 23, -48
	.cfi_offset 29, -64
	.cfi_offset 30, -56
.L7_358.i7:
	brk #0x1
	.cfi_endproc
	.size twox_core.width_128.oneshot_many.i7,.-twox_core.width_128.oneshot_many.i7
	.section .text.twox_core.width_128.oneshot_long_of_any_length.i7,"ax",@progbits
	.p2align 6
	.type twox_core.width_128.oneshot_long_of_any_length.i7,@function
twox_core.width_128.oneshot_long_of_any_length.i7:
	.cfi_startproc
	stp d15, d14, [sp, #-64]!
	.cfi_def_cfa_offset 64
	.cfi_offset 78, -56
	.cfi_offset 79, -64
	lsr x8, x3, #10
	stp d13, d12, [sp, #16]
	.cfi_offset 76, -40
	.cfi_offset 77, -48
	stp d11, d10, [sp, #32]
	.cfi_offset 74, -24
	.cfi_offset 75, -32
	cmp x8, #0x1e
	stp d9, d8, [sp, #48]
	.cfi_offset 72, -8
	.cfi_offset 73, -16
	b.hi .L8_60.i7
	sub x12, x1, #0x40
	sub x9, x3, #0x1
	adrp x13, .L20_c0.i7
	lsr x10, x12, #3
	lsr x8, x9, #6
	adrp x15, .L20_d0.i7
	adrp x16, .L20_e0.i7
	adrp x17, .L20_f0.i7
	ldr q0, [x13, #:lo12:.L20_c0.i7]
	ldr q1, [x15, #:lo12:.L20_d0.i7]
	ldr q2, [x16, #:lo12:.L20_e0.i7]
	ldr q3, [x17, #:lo12:.L20_f0.i7]
	cmp x8, x10
	b.cs .L8_74.i7
	mov x9, xzr
	mov x8, x2
	b .L8_468.i7
.L8_60.i7:
	ldp d9, d8, [sp, #48]
	.cfi_restore 72
	.cfi_restore 73
	ldp d11, d10, [sp, #32]
	.cfi_restore 74
	.cfi_restore 75
	ldp d13, d12, [sp, #16]
	.cfi_restore 76
	.cfi_restore 77
	ldp d15, d14, [sp], #64
	.cfi_def_cfa_offset 0
	.cfi_restore 78
	.cfi_restore 79
	b twox_core.width_128.oneshot_many.i7
	.cfi_def_cfa_offset 64
	.cfi_offset 72, -8
	.cfi_offset 73, -16
	.cfi_offset 74, -24
	.cfi_offset 75, -32
	.cfi_offset 76, -40
	.cfi_offset 77, -48
	.cfi_offset 78, -56
	.cfi_offset 79, -64
.L8_74.i7:
	cmp x10, #0x10
	b.eq .L8_a8.i7
	cbz x10, .L8_6f8.i7
	ubfx w9, w9, #6, #16
	ubfx w11, w12, #3, #16
	udiv w14, w9, w11
	msub w9, w14, w11, w9
	sub x11, x8, x9
	lsl x9, x11, #6
	cmp x10, #0x10
	add x8, x2, x9
	b.eq .L8_bc.i7
	b .L8_32c.i7
.L8_a8.i7:
	and x11, x8, #0x3fffffffffffff0
	lsl x9, x11, #6
	cmp x10, #0x10
	add x8, x2, x9
	b.ne .L8_32c.i7
.L8_bc.i7:
	and x14, x11, #0xf
	cbnz x14, .L8_32c.i7
	cbz x11, .L8_464.i7
	add x12, x0, x12
	lsr x11, x11, #4
	ldr q0, [x13, #:lo12:.L20_c0.i7]
	ldp q5, q4, [x12]
	ldr q1, [x15, #:lo12:.L20_d0.i7]
	ldp q7, q6, [x12, #32]
	mov x10, xzr
	ldr q2, [x16, #:lo12:.L20_e0.i7]
	ldr q3, [x17, #:lo12:.L20_f0.i7]
	add x12, x2, #0x80
.L8_f0.i7:
	add x16, x0, #0x20
	mov w13, #0x4
	mov x14, x12
	mov x15, x16
.L8_100.i7:
	ldp q16, q17, [x16, #-32]
	subs x13, x13, #0x1
	ldp q21, q19, [x14, #-128]
	ldur q24, [x16, #-8]
	ldp q22, q20, [x14, #-64]
	ldur q18, [x16, #-24]
	ldr q8, [x16]
	ldur q11, [x16, #8]
	eor v23.16b, v17.16b, v19.16b
	eor v16.16b, v16.16b, v21.16b
	eor v25.16b, v24.16b, v20.16b
	ldp q27, q30, [x14]
	ldp q9, q10, [x14, #64]
	eor v18.16b, v18.16b, v22.16b
	shrn v28.2s, v23.2d, #32
	xtn v23.2s, v23.2d
	xtn v29.2s, v16.2d
	shrn v12.2s, v25.2d, #32
	xtn v25.2s, v25.2d
	shrn v26.2s, v16.2d, #32
	eor v14.16b, v8.16b, v30.16b
	eor v31.16b, v17.16b, v27.16b
	add v27.2d, v27.2d, v9.2d
	eor v17.16b, v24.16b, v9.16b
	shrn v13.2s, v18.2d, #32
	xtn v15.2s, v18.2d
	umlal v2.2d, v23.2s, v28.2s
	add v23.2d, v22.2d, v21.2d
	ldr q28, [x16, #16]
	ldp q21, q22, [x14, #-96]
	umlal v3.2d, v29.2s, v26.2s
	xtn v9.2s, v14.2d
	shrn v18.2s, v31.2d, #32
	shrn v24.2s, v14.2d, #32
	add v26.2d, v20.2d, v19.2d
	xtn v20.2s, v31.2d
	add v19.2d, v23.2d, v27.2d
	umlal v2.2d, v25.2s, v12.2s
	eor v25.16b, v28.16b, v22.16b
	eor v29.16b, v8.16b, v21.16b
	add v27.2d, v30.2d, v10.2d
	ldp q31, q30, [x14, #-32]
	eor v16.16b, v11.16b, v10.16b
	ldur q23, [x16, #24]
	umlal v3.2d, v15.2s, v13.2s
	shrn v8.2s, v29.2d, #32
	xtn v10.2s, v25.2d
	xtn v29.2s, v29.2d
	shrn v25.2s, v25.2d, #32
	umlal v2.2d, v9.2s, v24.2s
	eor v24.16b, v11.16b, v31.16b
	eor v9.16b, v23.16b, v30.16b
	ldp q11, q12, [x14, #32]
	ldr q13, [x15, #32]!
	add v26.2d, v26.2d, v27.2d
	umlal v0.2d, v10.2s, v25.2s
	umlal v1.2d, v29.2s, v8.2s
	xtn v15.2s, v24.2d
	ldp q25, q29, [x14, #96]
	shrn v14.2s, v9.2d, #32
	xtn v9.2s, v9.2d
	eor v13.16b, v13.16b, v12.16b
	eor v28.16b, v28.16b, v11.16b
	shrn v24.2s, v24.2d, #32
	add v21.2d, v31.2d, v21.2d
	add v22.2d, v30.2d, v22.2d
	add v27.2d, v11.2d, v25.2d
	add v30.2d, v12.2d, v29.2d
	umlal v3.2d, v20.2s, v18.2s
	shrn v31.2s, v28.2d, #32
	xtn v8.2s, v13.2d
	xtn v28.2s, v28.2d
	umlal v0.2d, v9.2s, v14.2s
	umlal v1.2d, v15.2s, v24.2s
	shrn v9.2s, v13.2d, #32
	add v21.2d, v21.2d, v27.2d
	add v22.2d, v22.2d, v30.2d
	ldur q24, [x16, #40]
	ext v18.16b, v26.16b, v26.16b, #8
	ext v19.16b, v19.16b, v19.16b, #8
	add x14, x14, #0x100
	eor v20.16b, v24.16b, v29.16b
	eor v23.16b, v23.16b, v25.16b
	mov x16, x15
	umlal v0.2d, v8.2s, v9.2s
	umlal v1.2d, v28.2s, v31.2s
	ext v22.16b, v22.16b, v22.16b, #8
	ext v21.16b, v21.16b, v21.16b, #8
	shrn v24.2s, v17.2d, #32
	shrn v25.2s, v16.2d, #32
	xtn v17.2s, v17.2d
	xtn v16.2s, v16.2d
	add v3.2d, v3.2d, v19.2d
	add v2.2d, v2.2d, v18.2d
	shrn v18.2s, v23.2d, #32
	xtn v19.2s, v23.2d
	xtn v23.2s, v20.2d
	shrn v20.2s, v20.2d, #32
	add v0.2d, v0.2d, v22.2d
	add v1.2d, v1.2d, v21.2d
	umlal v2.2d, v16.2s, v25.2s
	umlal v3.2d, v17.2s, v24.2s
	umlal v0.2d, v23.2s, v20.2s
	umlal v1.2d, v19.2s, v18.2s
	b.ne .L8_100.i7
	ushr v16.2d, v2.2d, #47
	eor v2.16b, v4.16b, v2.16b
	adrp x13, .L20_100.i7
	ushr v17.2d, v3.2d, #47
	eor v3.16b, v5.16b, v3.16b
	ldr q20, [x13, #:lo12:.L20_100.i7]
	ushr v18.2d, v0.2d, #47
	eor v0.16b, v6.16b, v0.16b
	mov w13, #0x79b1
	ushr v19.2d, v1.2d, #47
	eor v1.16b, v7.16b, v1.16b
	movk w13, #0x9e37, lsl #16
	eor v16.16b, v2.16b, v16.16b
	eor v17.16b, v3.16b, v17.16b
	add x10, x10, #0x1
	eor v18.16b, v0.16b, v18.16b
	dup v21.2s, w13
	cmp x10, x11
	eor v19.16b, v1.16b, v19.16b
	add x12, x12, #0x400
	mul v2.4s, v16.4s, v20.4s
	mul v3.4s, v17.4s, v20.4s
	xtn v16.2s, v16.2d
	xtn v17.2s, v17.2d
	mul v0.4s, v18.4s, v20.4s
	xtn v18.2s, v18.2d
	mul v1.4s, v19.4s, v20.4s
	xtn v19.2s, v19.2d
	umlal v2.2d, v16.2s, v21.2s
	umlal v3.2d, v17.2s, v21.2s
	umlal v0.2d, v18.2s, v21.2s
	umlal v1.2d, v19.2s, v21.2s
	b.ne .L8_f0.i7
	b .L8_468.i7
.L8_32c.i7:
	cbz x11, .L8_464.i7
	ldr q0, [x13, #:lo12:.L20_c0.i7]
	ldr q1, [x15, #:lo12:.L20_d0.i7]
	mov x14, xzr
	ldr q2, [x16, #:lo12:.L20_e0.i7]
	ldr q3, [x17, #:lo12:.L20_f0.i7]
	add x12, x0, x12
	mov x13, x2
	b .L8_35c.i7
.L8_350.i7:
	subs x11, x11, #0x1
	add x13, x13, #0x40
	b.eq .L8_468.i7
.L8_35c.i7:
	add x15, x0, x14, lsl #3
	prfm pldl1keep, [x13, #320]
	add x14, x14, #0x1
	ldp q4, q5, [x13]
	cmp x14, x10
	ldp q6, q7, [x13, #32]
	ldp q18, q19, [x15]
	ldp q21, q22, [x15, #32]
	ext v16.16b, v5.16b, v5.16b, #8
	ext v17.16b, v4.16b, v4.16b, #8
	ext v20.16b, v6.16b, v6.16b, #8
	ext v23.16b, v7.16b, v7.16b, #8
	eor v5.16b, v19.16b, v5.16b
	eor v4.16b, v18.16b, v4.16b
	eor v7.16b, v22.16b, v7.16b
	eor v6.16b, v21.16b, v6.16b
	add v2.2d, v2.2d, v16.2d
	add v3.2d, v3.2d, v17.2d
	shrn v16.2s, v5.2d, #32
	xtn v5.2s, v5.2d
	xtn v17.2s, v4.2d
	xtn v18.2s, v6.2d
	xtn v19.2s, v7.2d
	add v1.2d, v20.2d, v1.2d
	add v0.2d, v23.2d, v0.2d
	shrn v4.2s, v4.2d, #32
	shrn v6.2s, v6.2d, #32
	shrn v7.2s, v7.2d, #32
	umlal v2.2d, v5.2s, v16.2s
	umlal v3.2d, v17.2s, v4.2s
	umlal v0.2d, v19.2s, v7.2s
	umlal v1.2d, v18.2s, v6.2s
	b.ne .L8_350.i7
	ldp q4, q5, [x12]
	ushr v6.2d, v3.2d, #47
	ldp q7, q16, [x12, #32]
	ushr v17.2d, v2.2d, #47
	adrp x14, .L20_100.i7
	eor v3.16b, v4.16b, v3.16b
	eor v2.16b, v5.16b, v2.16b
	ushr v4.2d, v0.2d, #47
	eor v0.16b, v16.16b, v0.16b
	ushr v5.2d, v1.2d, #47
	eor v1.16b, v7.16b, v1.16b
	ldr q16, [x14, #:lo12:.L20_100.i7]
	mov w14, #0x79b1
	eor v6.16b, v6.16b, v3.16b
	eor v7.16b, v17.16b, v2.16b
	movk w14, #0x9e37, lsl #16
	eor v4.16b, v4.16b, v0.16b
	eor v5.16b, v5.16b, v1.16b
	dup v17.2s, w14
	mov x14, xzr
	mul v2.4s, v7.4s, v16.4s
	mul v3.4s, v6.4s, v16.4s
	xtn v7.2s, v7.2d
	xtn v6.2s, v6.2d
	mul v0.4s, v4.4s, v16.4s
	mul v1.4s, v5.4s, v16.4s
	xtn v4.2s, v4.2d
	xtn v5.2s, v5.2d
	umlal v2.2d, v7.2s, v17.2s
	umlal v3.2d, v6.2s, v17.2s
	umlal v1.2d, v5.2s, v17.2s
	umlal v0.2d, v4.2s, v17.2s
	b .L8_350.i7
.L8_464.i7:
	mov x9, xzr
.L8_468.i7:
	mvn x9, x9
	add x9, x3, x9
	lsr x10, x9, #6
	add x9, x2, x3
	cbz x10, .L8_500.i7
	add x11, x0, #0x20
	add x8, x8, #0x20
.L8_484.i7:
	ldp q4, q5, [x8, #-32]
	subs x10, x10, #0x1
	ldp q6, q7, [x11, #-32]
	ldp q17, q16, [x8], #64
	ldp q21, q20, [x11]
	ext v18.16b, v5.16b, v5.16b, #8
	ext v19.16b, v4.16b, v4.16b, #8
	eor v5.16b, v7.16b, v5.16b
	eor v4.16b, v6.16b, v4.16b
	ext v7.16b, v16.16b, v16.16b, #8
	ext v6.16b, v17.16b, v17.16b, #8
	add x11, x11, #0x8
	eor v17.16b, v21.16b, v17.16b
	eor v16.16b, v20.16b, v16.16b
	add v2.2d, v2.2d, v18.2d
	xtn v18.2s, v4.2d
	shrn v4.2s, v4.2d, #32
	add v3.2d, v3.2d, v19.2d
	shrn v19.2s, v5.2d, #32
	xtn v5.2s, v5.2d
	add v0.2d, v7.2d, v0.2d
	add v1.2d, v6.2d, v1.2d
	xtn v6.2s, v16.2d
	xtn v7.2s, v17.2d
	shrn v16.2s, v16.2d, #32
	shrn v17.2s, v17.2d, #32
	umlal v3.2d, v18.2s, v4.2s
	umlal v2.2d, v5.2s, v19.2s
	umlal v0.2d, v6.2s, v16.2s
	umlal v1.2d, v7.2s, v17.2s
	b.ne .L8_484.i7
.L8_500.i7:
	add x10, x0, x1
	ldur q4, [x9, #-64]
	cmp x1, #0x88
	ldur q5, [x10, #-71]
	ldur q7, [x10, #-55]
	ext v6.16b, v4.16b, v4.16b, #8
	eor v4.16b, v5.16b, v4.16b
	ldur q5, [x9, #-48]
	ext v16.16b, v5.16b, v5.16b, #8
	eor v5.16b, v7.16b, v5.16b
	xtn v17.2s, v4.2d
	add v3.2d, v6.2d, v3.2d
	shrn v4.2s, v4.2d, #32
	xtn v6.2s, v5.2d
	add v2.2d, v16.2d, v2.2d
	ldur q16, [x10, #-23]
	umlal v3.2d, v17.2s, v4.2s
	shrn v4.2s, v5.2d, #32
	ldur q5, [x0, #11]
	umlal v2.2d, v6.2s, v4.2s
	ldp q6, q7, [x9, #-32]
	eor v4.16b, v3.16b, v5.16b
	ldur q5, [x0, #27]
	ext v17.16b, v7.16b, v7.16b, #8
	ext v18.16b, v6.16b, v6.16b, #8
	eor v7.16b, v16.16b, v7.16b
	mov x8, v4.d[1]
	eor v5.16b, v2.16b, v5.16b
	fmov x9, d4
	ldur q4, [x10, #-39]
	mov x11, v5.d[1]
	eor v4.16b, v4.16b, v6.16b
	xtn v6.2s, v7.2d
	mul x12, x9, x8
	add v1.2d, v18.2d, v1.2d
	add v0.2d, v17.2d, v0.2d
	shrn v7.2s, v7.2d, #32
	umulh x8, x9, x8
	fmov x9, d5
	xtn v5.2s, v4.2d
	shrn v4.2s, v4.2d, #32
	umlal v0.2d, v6.2s, v7.2s
	mul x13, x9, x11
	umlal v1.2d, v5.2s, v4.2s
	umulh x9, x9, x11
	mov x11, #0xca87
	eor x8, x8, x12
	movk x11, #0x85eb, lsl #16
	movk x11, #0x79b1, lsl #32
	movk x11, #0x9e37, lsl #48
	madd x8, x3, x11, x8
	eor x11, x9, x13
	mov x9, #0x79f9
	movk x9, #0x9e37, lsl #16
	movk x9, #0x6791, lsl #32
	movk x9, #0x1656, lsl #48
	add x8, x8, x11
	b.cc .L8_634.i7
	ldur q4, [x0, #43]
	ldur q5, [x0, #59]
	eor v4.16b, v4.16b, v1.16b
	eor v5.16b, v5.16b, v0.16b
	mov x11, v4.d[1]
	fmov x12, d4
	mov x13, v5.d[1]
	mul x14, x12, x11
	umulh x11, x12, x11
	fmov x12, d5
	mul x15, x12, x13
	umulh x12, x12, x13
	eor x11, x11, x14
	eor x12, x12, x15
	add x11, x11, x12
	add x8, x8, x11
	eor x8, x8, x8, lsr #37
	mul x8, x8, x9
	eor x8, x8, x8, lsr #32
.L8_634.i7:
	ldur q4, [x10, #-75]
	mov x12, #0xeb4f
	cmp x1, #0x88
	movk x12, #0x27d4, lsl #16
	eor v3.16b, v4.16b, v3.16b
	ldur q4, [x10, #-59]
	movk x12, #0xae3d, lsl #32
	movk x12, #0xc2b2, lsl #48
	eor v2.16b, v4.16b, v2.16b
	mul x12, x3, x12
	mov x11, v3.d[1]
	fmov x13, d3
	mov x14, v2.d[1]
	mul x15, x13, x11
	mvn x12, x12
	umulh x11, x13, x11
	fmov x13, d2
	mul x16, x13, x14
	umulh x13, x13, x14
	eor x11, x11, x15
	add x11, x11, x12
	eor x12, x13, x16
	add x1, x11, x12
	b.cc .L8_6e0.i7
	ldur q2, [x10, #-43]
	eor v1.16b, v2.16b, v1.16b
	ldur q2, [x10, #-27]
	eor v0.16b, v2.16b, v0.16b
	mov x10, v1.d[1]
	fmov x11, d1
	mov x12, v0.d[1]
	mul x13, x11, x10
	umulh x10, x11, x10
	fmov x11, d0
	mul x14, x11, x12
	umulh x11, x11, x12
	eor x10, x10, x13
	eor x11, x11, x14
	add x10, x10, x11
	add x10, x1, x10
	eor x10, x10, x10, lsr #37
	mul x9, x10, x9
	eor x1, x9, x9, lsr #32
.L8_6e0.i7:
	ldp d9, d8, [sp, #48]
	.cfi_restore 72
	.cfi_restore 73
	mov x0, x8
	ldp d11, d10, [sp, #32]
	.cfi_restore 74
	.cfi_restore 75
	ldp d13, d12, [sp, #16]
	.cfi_restore 76
	.cfi_restore 77
	ldp d15, d14, [sp], #64
	.cfi_def_cfa_offset 0
	.cfi_restore 78
	.cfi_restore 79
	ret
	.cfi_def_cfa_offset 64
	.cfi_offset 72, -8
	.cfi_offset 73, -16
	.cfi_offset 74, -24
	.cfi_offset 75, -32
	.cfi_offset 76, -40
	.cfi_offset 77, -48
	.cfi_offset 78, -56
	.cfi_offset 79, -64
.L8_6f8.i7:
	brk #0x1
	.cfi_endproc
	.size twox_core.width_128.oneshot_long_of_any_length.i7,.-twox_core.width_128.oneshot_long_of_any_length.i7
	.section .text.twox_core.width_64.oneshot_long.i7,"ax",@progbits
	.p2align 6
	.type twox_core.width_64.oneshot_long.i7,@function
twox_core.width_64.oneshot_long.i7:
	.cfi_startproc
	cmp x1, #0xc0
	b.ne .L9_68.i7
	lsr x8, x3, #10
	cmp x8, #0x1e
	b.hi .L9_6c.i7
	stp d15, d14, [sp, #-64]!
	.cfi_def_cfa_offset 64
	.cfi_offset 78, -56
	.cfi_offset 79, -64
	adrp x11, .L20_110.i7
	cmp x3, #0x401
	adrp x14, .L20_120.i7
	adrp x13, .L20_130.i7
	adrp x12, .L20_140.i7
	stp d13, d12, [sp, #16]
	.cfi_offset 76, -40
	.cfi_offset 77, -48
	stp d11, d10, [sp, #32]
	.cfi_offset 74, -24
	.cfi_offset 75, -32
	stp d9, d8, [sp, #48]
	.cfi_offset 72, -8
	.cfi_offset 73, -16
	b.cs .L9_74.i7
	ldr q0, [x11, #:lo12:.L20_110.i7]
	ldr q1, [x14, #:lo12:.L20_120.i7]
	mov x8, #0xffffffffffffffff
	ldr q2, [x13, #:lo12:.L20_130.i7]
	ldr q3, [x12, #:lo12:.L20_140.i7]
	mov x11, x2
	add x8, x3, x8
	lsr x9, x8, #6
	add x8, x2, x3
	cbnz x9, .L9_2f0.i7
	b .L9_374.i7
	.cfi_def_cfa_offset 0
	.cfi_restore 72
	.cfi_restore 73
	.cfi_restore 74
	.cfi_restore 75
	.cfi_restore 76
	.cfi_restore 77
	.cfi_restore 78
	.cfi_restore 79
.L9_68.i7:
	b twox_core.width_64.oneshot_long_of_any_length.i7
.L9_6c.i7:
	mov w1, #0xc0
	b twox_core.width_64.oneshot_many.i7
	.cfi_def_cfa_offset 64
	.cfi_offset 72, -8
	.cfi_offset 73, -16
	.cfi_offset 74, -24
	.cfi_offset 75, -32
	.cfi_offset 76, -40
	.cfi_offset 77, -48
	.cfi_offset 78, -56
	.cfi_offset 79, -64
.L9_74.i7:
	sub x8, x3, #0x1
	ldp q5, q4, [x0, #128]
	ldp q7, q6, [x0, #160]
	lsr x10, x8, #10
	ldr q0, [x11, #:lo12:.L20_110.i7]
	ldr q1, [x14, #:lo12:.L20_120.i7]
	mov x9, xzr
	ldr q2, [x13, #:lo12:.L20_130.i7]
	ldr q3, [x12, #:lo12:.L20_140.i7]
	add x11, x2, #0x80
.L9_9c.i7:
	add x15, x0, #0x20
	mov w12, #0x4
	mov x13, x11
	mov x14, x15
.L9_ac.i7:
	ldp q16, q17, [x15, #-32]
	subs x12, x12, #0x1
	ldp q21, q19, [x13, #-128]
	ldur q24, [x15, #-8]
	ldp q22, q20, [x13, #-64]
	ldur q18, [x15, #-24]
	ldr q8, [x15]
	ldur q11, [x15, #8]
	eor v23.16b, v17.16b, v19.16b
	eor v16.16b, v16.16b, v21.16b
	eor v25.16b, v24.16b, v20.16b
	ldp q27, q30, [x13]
	ldp q9, q10, [x13, #64]
	eor v18.16b, v18.16b, v22.16b
	shrn v28.2s, v23.2d, #32
	xtn v23.2s, v23.2d
	xtn v29.2s, v16.2d
	shrn v12.2s, v25.2d, #32
	xtn v25.2s, v25.2d
	shrn v26.2s, v16.2d, #32
	eor v14.16b, v8.16b, v30.16b
	eor v31.16b, v17.16b, v27.16b
	add v27.2d, v27.2d, v9.2d
	eor v17.16b, v24.16b, v9.16b
	shrn v13.2s, v18.2d, #32
	xtn v15.2s, v18.2d
	umlal v2.2d, v23.2s, v28.2s
	add v23.2d, v22.2d, v21.2d
	ldr q28, [x15, #16]
	ldp q21, q22, [x13, #-96]
	umlal v3.2d, v29.2s, v26.2s
	xtn v9.2s, v14.2d
	shrn v18.2s, v31.2d, #32
	shrn v24.2s, v14.2d, #32
	add v26.2d, v20.2d, v19.2d
	xtn v20.2s, v31.2d
	add v19.2d, v23.2d, v27.2d
	umlal v2.2d, v25.2s, v12.2s
	eor v25.16b, v28.16b, v22.16b
	eor v29.16b, v8.16b, v21.16b
	add v27.2d, v30.2d, v10.2d
	ldp q31, q30, [x13, #-32]
	eor v16.16b, v11.16b, v10.16b
	ldur q23, [x15, #24]
	umlal v3.2d, v15.2s, v13.2s
	shrn v8.2s, v29.2d, #32
	xtn v10.2s, v25.2d
	xtn v29.2s, v29.2d
	shrn v25.2s, v25.2d, #32
	umlal v2.2d, v9.2s, v24.2s
	eor v24.16b, v11.16b, v31.16b
	eor v9.16b, v23.16b, v30.16b
	ldp q11, q12, [x13, #32]
	ldr q13, [x14, #32]!
	add v26.2d, v26.2d, v27.2d
	umlal v0.2d, v10.2s, v25.2s
	umlal v1.2d, v29.2s, v8.2s
	xtn v15.2s, v24.2d
	ldp q25, q29, [x13, #96]
	shrn v14.2s, v9.2d, #32
	xtn v9.2s, v9.2d
	eor v13.16b, v13.16b, v12.16b
	eor v28.16b, v28.16b, v11.16b
	shrn v24.2s, v24.2d, #32
	add v21.2d, v31.2d, v21.2d
	add v22.2d, v30.2d, v22.2d
	add v27.2d, v11.2d, v25.2d
	add v30.2d, v12.2d, v29.2d
	umlal v3.2d, v20.2s, v18.2s
	shrn v31.2s, v28.2d, #32
	xtn v8.2s, v13.2d
	xtn v28.2s, v28.2d
	umlal v0.2d, v9.2s, v14.2s
	umlal v1.2d, v15.2s, v24.2s
	shrn v9.2s, v13.2d, #32
	add v21.2d, v21.2d, v27.2d
	add v22.2d, v22.2d, v30.2d
	ldur q24, [x15, #40]
	ext v18.16b, v26.16b, v26.16b, #8
	ext v19.16b, v19.16b, v19.16b, #8
	add x13, x13, #0x100
	eor v20.16b, v24.16b, v29.16b
	eor v23.16b, v23.16b, v25.16b
	mov x15, x14
	umlal v0.2d, v8.2s, v9.2s
	umlal v1.2d, v28.2s, v31.2s
	ext v22.16b, v22.16b, v22.16b, #8
	ext v21.16b, v21.16b, v21.16b, #8
	shrn v24.2s, v17.2d, #32
	shrn v25.2s, v16.2d, #32
	xtn v17.2s, v17.2d
	xtn v16.2s, v16.2d
	add v3.2d, v3.2d, v19.2d
	add v2.2d, v2.2d, v18.2d
	shrn v18.2s, v23.2d, #32
	xtn v19.2s, v23.2d
	xtn v23.2s, v20.2d
	shrn v20.2s, v20.2d, #32
	add v0.2d, v0.2d, v22.2d
	add v1.2d, v1.2d, v21.2d
	umlal v2.2d, v16.2s, v25.2s
	umlal v3.2d, v17.2s, v24.2s
	umlal v0.2d, v23.2s, v20.2s
	umlal v1.2d, v19.2s, v18.2s
	b.ne .L9_ac.i7
	ushr v16.2d, v2.2d, #47
	eor v2.16b, v4.16b, v2.16b
	adrp x12, .L20_150.i7
	ushr v17.2d, v3.2d, #47
	eor v3.16b, v5.16b, v3.16b
	ldr q20, [x12, #:lo12:.L20_150.i7]
	ushr v18.2d, v0.2d, #47
	eor v0.16b, v6.16b, v0.16b
	mov w12, #0x79b1
	ushr v19.2d, v1.2d, #47
	eor v1.16b, v7.16b, v1.16b
	movk w12, #0x9e37, lsl #16
	eor v16.16b, v2.16b, v16.16b
	eor v17.16b, v3.16b, v17.16b
	add x9, x9, #0x1
	eor v18.16b, v0.16b, v18.16b
	dup v21.2s, w12
	cmp x9, x10
	eor v19.16b, v1.16b, v19.16b
	add x11, x11, #0x400
	mul v2.4s, v16.4s, v20.4s
	mul v3.4s, v17.4s, v20.4s
	xtn v16.2s, v16.2d
	xtn v17.2s, v17.2d
	mul v0.4s, v18.4s, v20.4s
	xtn v18.2s, v18.2d
	mul v1.4s, v19.4s, v20.4s
	xtn v19.2s, v19.2d
	umlal v2.2d, v16.2s, v21.2s
	umlal v3.2d, v17.2s, v21.2s
	umlal v0.2d, v18.2s, v21.2s
	umlal v1.2d, v19.2s, v21.2s
	b.ne .L9_9c.i7
	and x8, x8, #0xfffffffffffffc00
	add x11, x2, x8
	mvn x8, x8
	add x8, x3, x8
	lsr x9, x8, #6
	add x8, x2, x3
	cbz x9, .L9_374.i7
.L9_2f0.i7:
	add x10, x0, #0x20
	add x11, x11, #0x20
.L9_2f8.i7:
	ldp q4, q5, [x11, #-32]
	subs x9, x9, #0x1
	ldp q6, q7, [x10, #-32]
	ldp q17, q16, [x11], #64
	ldp q21, q20, [x10]
	ext v18.16b, v5.16b, v5.16b, #8
	ext v19.16b, v4.16b, v4.16b, #8
	eor v5.16b, v7.16b, v5.16b
	eor v4.16b, v6.16b, v4.16b
	ext v7.16b, v16.16b, v16.16b, #8
	ext v6.16b, v17.16b, v17.16b, #8
	add x10, x10, #0x8
	eor v17.16b, v21.16b, v17.16b
	eor v16.16b, v20.16b, v16.16b
	add v2.2d, v2.2d, v18.2d
	xtn v18.2s, v4.2d
	shrn v4.2s, v4.2d, #32
	add v3.2d, v3.2d, v19.2d
	shrn v19.2s, v5.2d, #32
	xtn v5.2s, v5.2d
	add v0.2d, v7.2d, v0.2d
	add v1.2d, v6.2d, v1.2d
	xtn v6.2s, v16.2d
	xtn v7.2s, v17.2d
	shrn v16.2s, v16.2d, #32
	shrn v17.2s, v17.2d, #32
	umlal v3.2d, v18.2s, v4.2s
	umlal v2.2d, v5.2s, v19.2s
	umlal v0.2d, v6.2s, v16.2s
	umlal v1.2d, v7.2s, v17.2s
	b.ne .L9_2f8.i7
.L9_374.i7:
	ldur q4, [x8, #-64]
	ldur q5, [x0, #121]
	ldur q7, [x0, #137]
	ldur q17, [x0, #153]
	ldp d9, d8, [sp, #48]
	.cfi_restore 72
	.cfi_restore 73
	ext v6.16b, v4.16b, v4.16b, #8
	eor v4.16b, v5.16b, v4.16b
	ldur q5, [x8, #-48]
	ldp d11, d10, [sp, #32]
	.cfi_restore 74
	.cfi_restore 75
	ext v16.16b, v5.16b, v5.16b, #8
	eor v5.16b, v7.16b, v5.16b
	xtn v7.2s, v4.2d
	shrn v4.2s, v4.2d, #32
	add v3.2d, v6.2d, v3.2d
	ldur q6, [x8, #-32]
	xtn v18.2s, v5.2d
	shrn v5.2s, v5.2d, #32
	add v2.2d, v16.2d, v2.2d
	ldur q16, [x0, #11]
	umlal v3.2d, v7.2s, v4.2s
	ext v4.16b, v6.16b, v6.16b, #8
	eor v6.16b, v17.16b, v6.16b
	ldur q7, [x8, #-16]
	ldur q17, [x0, #169]
	umlal v2.2d, v18.2s, v5.2s
	ldp d13, d12, [sp, #16]
	.cfi_restore 76
	.cfi_restore 77
	eor v5.16b, v17.16b, v7.16b
	ext v7.16b, v7.16b, v7.16b, #8
	eor v3.16b, v3.16b, v16.16b
	xtn v16.2s, v6.2d
	shrn v6.2s, v6.2d, #32
	add v1.2d, v4.2d, v1.2d
	ldur q4, [x0, #27]
	eor v2.16b, v2.16b, v4.16b
	shrn v4.2s, v5.2d, #32
	add v0.2d, v7.2d, v0.2d
	umlal v1.2d, v16.2s, v6.2s
	xtn v6.2s, v5.2d
	mov x8, v3.d[1]
	ldur q5, [x0, #43]
	fmov x9, d3
	ldur q3, [x0, #59]
	mov x10, v2.d[1]
	umlal v0.2d, v6.2s, v4.2s
	eor v1.16b, v1.16b, v5.16b
	mul x11, x9, x8
	umulh x8, x9, x8
	fmov x9, d2
	mov x12, v1.d[1]
	eor v0.16b, v0.16b, v3.16b
	mul x13, x9, x10
	umulh x9, x9, x10
	fmov x10, d1
	mov x14, v0.d[1]
	eor x8, x8, x11
	mul x15, x10, x12
	umulh x10, x10, x12
	fmov x12, d0
	eor x9, x9, x13
	mul x16, x12, x14
	umulh x12, x12, x14
	mov x14, #0xca87
	eor x10, x10, x15
	movk x14, #0x85eb, lsl #16
	add x9, x9, x10
	movk x14, #0x79b1, lsl #32
	movk x14, #0x9e37, lsl #48
	madd x8, x3, x14, x8
	eor x10, x12, x16
	add x9, x9, x10
	add x8, x8, x9
	mov x9, #0x79f9
	movk x9, #0x9e37, lsl #16
	eor x8, x8, x8, lsr #37
	movk x9, #0x6791, lsl #32
	movk x9, #0x1656, lsl #48
	mul x8, x8, x9
	eor x0, x8, x8, lsr #32
	ldp d15, d14, [sp], #64
	.cfi_def_cfa_offset 0
	.cfi_restore 78
	.cfi_restore 79
	ret
	.cfi_endproc
	.size twox_core.width_64.oneshot_long.i7,.-twox_core.width_64.oneshot_long.i7
	.section .text.twox_core.width_64.oneshot_many.i7,"ax",@progbits
	.p2align 6
	.type twox_core.width_64.oneshot_many.i7,@function
twox_core.width_64.oneshot_many.i7:
	.cfi_startproc
	sub sp, sp, #0x90
	.cfi_def_cfa_offset 144
	sub x8, x1, #0x40
	sub x9, x3, #0x1
	stp x22, x21, [sp, #112]
	.cfi_offset 21, -24
	.cfi_offset 22, -32
	lsr x8, x8, #3
	lsr x9, x9, #6
	stp x20, x19, [sp, #128]
	.cfi_offset 19, -8
	.cfi_offset 20, -16
	mov x21, x3
	mov x22, x2
	mov x20, x1
	cmp x9, x8
	mov x19, x0
	stp x29, x30, [sp, #80]
	.cfi_offset 29, -64
	.cfi_offset 30, -56
	str x23, [sp, #96]
	.cfi_offset 23, -48
	add x29, sp, #0x50
	b.cs .L10_48.i7
	mov x8, xzr
	b .L10_64.i7
.L10_48.i7:
	cmp x8, #0x10
	b.eq .L10_60.i7
	cbz x8, .L10_2a0.i7
	udiv x9, x9, x8
	mul x8, x9, x8
	b .L10_64.i7
.L10_60.i7:
	and x8, x9, #0x3fffffffffffff0
.L10_64.i7:
	adrp x9, .L20_160.i7
	adrp x10, .L20_170.i7
	lsl x23, x8, #6
	ldr q0, [x9, #:lo12:.L20_160.i7]
	ldr q1, [x10, #:lo12:.L20_170.i7]
	adrp x9, .L20_180.i7
	adrp x10, .L20_190.i7
	ldr q2, [x9, #:lo12:.L20_180.i7]
	mov x0, sp
	stp q0, q1, [sp]
	ldr q0, [x10, #:lo12:.L20_190.i7]
	mov x1, x22
	mov x2, x23
	mov x3, x19
	mov x4, x20
	stp q2, q0, [sp, #32]
	str xzr, [sp, #64]
	bl twox_core.xxhash3.stripes.take_many_stripes.i7
	mvn x8, x23
	ldp q3, q2, [sp]
	add x8, x21, x8
	ldp q1, q0, [sp, #32]
	lsr x9, x8, #6
	add x8, x22, x21
	cbz x9, .L10_150.i7
	add x11, x23, x22
	add x10, x19, #0x20
	add x11, x11, #0x20
.L10_d4.i7:
	ldp q4, q5, [x11, #-32]
	subs x9, x9, #0x1
	ldp q6, q7, [x10, #-32]
	ldp q16, q17, [x11], #64
	ldp q20, q21, [x10]
	ext v18.16b, v5.16b, v5.16b, #8
	ext v19.16b, v4.16b, v4.16b, #8
	eor v5.16b, v7.16b, v5.16b
	eor v4.16b, v6.16b, v4.16b
	ext v7.16b, v16.16b, v16.16b, #8
	ext v6.16b, v17.16b, v17.16b, #8
	add x10, x10, #0x8
	eor v17.16b, v21.16b, v17.16b
	eor v16.16b, v20.16b, v16.16b
	add v2.2d, v2.2d, v18.2d
	xtn v18.2s, v4.2d
	shrn v4.2s, v4.2d, #32
	add v3.2d, v3.2d, v19.2d
	shrn v19.2s, v5.2d, #32
	xtn v5.2s, v5.2d
	add v1.2d, v7.2d, v1.2d
	add v0.2d, v6.2d, v0.2d
	xtn v6.2s, v16.2d
	xtn v7.2s, v17.2d
	shrn v16.2s, v16.2d, #32
	shrn v17.2s, v17.2d, #32
	umlal v3.2d, v18.2s, v4.2s
	umlal v2.2d, v5.2s, v19.2s
	umlal v1.2d, v6.2s, v16.2s
	umlal v0.2d, v7.2s, v17.2s
	b.ne .L10_d4.i7
.L10_150.i7:
	add x9, x19, x20
	ldur q4, [x8, #-64]
	cmp x20, #0x88
	ldur q5, [x9, #-71]
	ldur q7, [x9, #-55]
	ext v6.16b, v4.16b, v4.16b, #8
	eor v4.16b, v5.16b, v4.16b
	ldur q5, [x8, #-48]
	ext v16.16b, v5.16b, v5.16b, #8
	eor v5.16b, v7.16b, v5.16b
	xtn v17.2s, v4.2d
	add v3.2d, v6.2d, v3.2d
	shrn v4.2s, v4.2d, #32
	xtn v6.2s, v5.2d
	add v2.2d, v16.2d, v2.2d
	umlal v3.2d, v17.2s, v4.2s
	shrn v4.2s, v5.2d, #32
	ldur q5, [x19, #11]
	umlal v2.2d, v6.2s, v4.2s
	ldur q4, [x19, #27]
	eor v3.16b, v3.16b, v5.16b
	mov x10, v3.d[1]
	eor v2.16b, v2.16b, v4.16b
	fmov x11, d3
	mov x12, v2.d[1]
	mul x13, x11, x10
	umulh x10, x11, x10
	fmov x11, d2
	mul x14, x11, x12
	umulh x11, x11, x12
	mov x12, #0xca87
	eor x10, x10, x13
	movk x12, #0x85eb, lsl #16
	movk x12, #0x79b1, lsl #32
	movk x12, #0x9e37, lsl #48
	madd x10, x21, x12, x10
	eor x11, x11, x14
	add x0, x10, x11
	b.cc .L10_288.i7
	ldur q2, [x8, #-32]
	ldur q3, [x9, #-39]
	ldur q5, [x9, #-23]
	ext v4.16b, v2.16b, v2.16b, #8
	eor v2.16b, v3.16b, v2.16b
	ldur q3, [x8, #-16]
	eor v5.16b, v5.16b, v3.16b
	ext v3.16b, v3.16b, v3.16b, #8
	add v1.2d, v4.2d, v1.2d
	xtn v4.2s, v2.2d
	shrn v2.2s, v2.2d, #32
	add v0.2d, v3.2d, v0.2d
	ldur q3, [x19, #43]
	umlal v1.2d, v4.2s, v2.2s
	xtn v2.2s, v5.2d
	shrn v4.2s, v5.2d, #32
	umlal v0.2d, v2.2s, v4.2s
	eor v1.16b, v1.16b, v3.16b
	ldur q2, [x19, #59]
	mov x8, v1.d[1]
	fmov x9, d1
	eor v0.16b, v0.16b, v2.16b
	mov x10, v0.d[1]
	mul x11, x9, x8
	umulh x8, x9, x8
	fmov x9, d0
	mul x12, x9, x10
	umulh x9, x9, x10
	eor x8, x8, x11
	eor x9, x9, x12
	add x8, x8, x9
	mov x9, #0x79f9
	add x8, x0, x8
	movk x9, #0x9e37, lsl #16
	eor x8, x8, x8, lsr #37
	movk x9, #0x6791, lsl #32
	movk x9, #0x1656, lsl #48
	mul x8, x8, x9
	eor x0, x8, x8, lsr #32
.L10_288.i7:
	ldp x20, x19, [sp, #128]
	.cfi_restore 19
	.cfi_restore 20
	ldr x23, [sp, #96]
	.cfi_restore 23
	ldp x22, x21, [sp, #112]
	.cfi_restore 21
	.cfi_restore 22
	ldp x29, x30, [sp, #80]
	.cfi_restore 29
	.cfi_restore 30
	add sp, sp, #0x90
	.cfi_def_cfa_offset 0
	ret
	.cfi_def_cfa_offset 144
	.cfi_offset 19, -8
	.cfi_offset 20, -16
	.cfi_offset 21, -24
	.cfi_offset 22, -32
	.cfi_offset 23, -48
	.cfi_offset 29, -64
	.cfi_offset 30, -56
.L10_2a0.i7:
	brk #0x1
	.cfi_endproc
	.size twox_core.width_64.oneshot_many.i7,.-twox_core.width_64.oneshot_many.i7
	.section .text.twox_core.width_64.oneshot_long_of_any_length.i7,"ax",@progbits
	.p2align 6
	.type twox_core.width_64.oneshot_long_of_any_length.i7,@function
twox_core.width_64.oneshot_long_of_any_length.i7:
	.cfi_startproc
	stp d15, d14, [sp, #-64]!
	.cfi_def_cfa_offset 64
	.cfi_offset 78, -56
	.cfi_offset 79, -64
	lsr x8, x3, #10
	stp d13, d12, [sp, #16]
	.cfi_offset 76, -40
	.cfi_offset 77, -48
	stp d11, d10, [sp, #32]
	.cfi_offset 74, -24
	.cfi_offset 75, -32
	cmp x8, #0x1e
	stp d9, d8, [sp, #48]
	.cfi_offset 72, -8
	.cfi_offset 73, -16
	b.hi .L11_60.i7
	sub x15, x1, #0x40
	sub x9, x3, #0x1
	adrp x12, .L20_1a0.i7
	lsr x10, x15, #3
	lsr x8, x9, #6
	adrp x13, .L20_1b0.i7
	adrp x16, .L20_1c0.i7
	adrp x17, .L20_1d0.i7
	ldr q2, [x12, #:lo12:.L20_1a0.i7]
	ldr q3, [x13, #:lo12:.L20_1b0.i7]
	ldr q0, [x16, #:lo12:.L20_1c0.i7]
	ldr q1, [x17, #:lo12:.L20_1d0.i7]
	cmp x8, x10
	b.cs .L11_74.i7
	mov x9, xzr
	mov x8, x2
	b .L11_468.i7
.L11_60.i7:
	ldp d9, d8, [sp, #48]
	.cfi_restore 72
	.cfi_restore 73
	ldp d11, d10, [sp, #32]
	.cfi_restore 74
	.cfi_restore 75
	ldp d13, d12, [sp, #16]
	.cfi_restore 76
	.cfi_restore 77
	ldp d15, d14, [sp], #64
	.cfi_def_cfa_offset 0
	.cfi_restore 78
	.cfi_restore 79
	b twox_core.width_64.oneshot_many.i7
	.cfi_def_cfa_offset 64
	.cfi_offset 72, -8
	.cfi_offset 73, -16
	.cfi_offset 74, -24
	.cfi_offset 75, -32
	.cfi_offset 76, -40
	.cfi_offset 77, -48
	.cfi_offset 78, -56
	.cfi_offset 79, -64
.L11_74.i7:
	cmp x10, #0x10
	b.eq .L11_a8.i7
	cbz x10, .L11_650.i7
	ubfx w9, w9, #6, #16
	ubfx w11, w15, #3, #16
	udiv w14, w9, w11
	msub w9, w14, w11, w9
	sub x11, x8, x9
	lsl x9, x11, #6
	cmp x10, #0x10
	add x8, x2, x9
	b.eq .L11_bc.i7
	b .L11_32c.i7
.L11_a8.i7:
	and x11, x8, #0x3fffffffffffff0
	lsl x9, x11, #6
	cmp x10, #0x10
	add x8, x2, x9
	b.ne .L11_32c.i7
.L11_bc.i7:
	and x14, x11, #0xf
	cbnz x14, .L11_32c.i7
	cbz x11, .L11_464.i7
	add x14, x0, x15
	lsr x11, x11, #4
	ldr q0, [x16, #:lo12:.L20_1c0.i7]
	ldp q5, q4, [x14]
	ldr q1, [x17, #:lo12:.L20_1d0.i7]
	ldp q7, q6, [x14, #32]
	mov x10, xzr
	ldr q2, [x12, #:lo12:.L20_1a0.i7]
	ldr q3, [x13, #:lo12:.L20_1b0.i7]
	add x12, x2, #0x80
.L11_f0.i7:
	add x16, x0, #0x20
	mov w13, #0x4
	mov x14, x12
	mov x15, x16
.L11_100.i7:
	ldp q16, q17, [x16, #-32]
	subs x13, x13, #0x1
	ldp q21, q19, [x14, #-128]
	ldur q24, [x16, #-8]
	ldp q22, q20, [x14, #-64]
	ldur q18, [x16, #-24]
	ldr q8, [x16]
	ldur q11, [x16, #8]
	eor v23.16b, v17.16b, v19.16b
	eor v16.16b, v16.16b, v21.16b
	eor v25.16b, v24.16b, v20.16b
	ldp q27, q30, [x14]
	ldp q9, q10, [x14, #64]
	eor v18.16b, v18.16b, v22.16b
	shrn v28.2s, v23.2d, #32
	xtn v23.2s, v23.2d
	xtn v29.2s, v16.2d
	shrn v12.2s, v25.2d, #32
	xtn v25.2s, v25.2d
	shrn v26.2s, v16.2d, #32
	eor v14.16b, v8.16b, v30.16b
	eor v31.16b, v17.16b, v27.16b
	add v27.2d, v27.2d, v9.2d
	eor v17.16b, v24.16b, v9.16b
	shrn v13.2s, v18.2d, #32
	xtn v15.2s, v18.2d
	umlal v2.2d, v23.2s, v28.2s
	add v23.2d, v22.2d, v21.2d
	ldr q28, [x16, #16]
	ldp q21, q22, [x14, #-96]
	umlal v3.2d, v29.2s, v26.2s
	xtn v9.2s, v14.2d
	shrn v18.2s, v31.2d, #32
	shrn v24.2s, v14.2d, #32
	add v26.2d, v20.2d, v19.2d
	xtn v20.2s, v31.2d
	add v19.2d, v23.2d, v27.2d
	umlal v2.2d, v25.2s, v12.2s
	eor v25.16b, v28.16b, v22.16b
	eor v29.16b, v8.16b, v21.16b
	add v27.2d, v30.2d, v10.2d
	ldp q31, q30, [x14, #-32]
	eor v16.16b, v11.16b, v10.16b
	ldur q23, [x16, #24]
	umlal v3.2d, v15.2s, v13.2s
	shrn v8.2s, v29.2d, #32
	xtn v10.2s, v25.2d
	xtn v29.2s, v29.2d
	shrn v25.2s, v25.2d, #32
	umlal v2.2d, v9.2s, v24.2s
	eor v24.16b, v11.16b, v31.16b
	eor v9.16b, v23.16b, v30.16b
	ldp q11, q12, [x14, #32]
	ldr q13, [x15, #32]!
	add v26.2d, v26.2d, v27.2d
	umlal v0.2d, v10.2s, v25.2s
	umlal v1.2d, v29.2s, v8.2s
	xtn v15.2s, v24.2d
	ldp q25, q29, [x14, #96]
	shrn v14.2s, v9.2d, #32
	xtn v9.2s, v9.2d
	eor v13.16b, v13.16b, v12.16b
	eor v28.16b, v28.16b, v11.16b
	shrn v24.2s, v24.2d, #32
	add v21.2d, v31.2d, v21.2d
	add v22.2d, v30.2d, v22.2d
	add v27.2d, v11.2d, v25.2d
	add v30.2d, v12.2d, v29.2d
	umlal v3.2d, v20.2s, v18.2s
	shrn v31.2s, v28.2d, #32
	xtn v8.2s, v13.2d
	xtn v28.2s, v28.2d
	umlal v0.2d, v9.2s, v14.2s
	umlal v1.2d, v15.2s, v24.2s
	shrn v9.2s, v13.2d, #32
	add v21.2d, v21.2d, v27.2d
	add v22.2d, v22.2d, v30.2d
	ldur q24, [x16, #40]
	ext v18.16b, v26.16b, v26.16b, #8
	ext v19.16b, v19.16b, v19.16b, #8
	add x14, x14, #0x100
	eor v20.16b, v24.16b, v29.16b
	eor v23.16b, v23.16b, v25.16b
	mov x16, x15
	umlal v0.2d, v8.2s, v9.2s
	umlal v1.2d, v28.2s, v31.2s
	ext v22.16b, v22.16b, v22.16b, #8
	ext v21.16b, v21.16b, v21.16b, #8
	shrn v24.2s, v17.2d, #32
	shrn v25.2s, v16.2d, #32
	xtn v17.2s, v17.2d
	xtn v16.2s, v16.2d
	add v3.2d, v3.2d, v19.2d
	add v2.2d, v2.2d, v18.2d
	shrn v18.2s, v23.2d, #32
	xtn v19.2s, v23.2d
	xtn v23.2s, v20.2d
	shrn v20.2s, v20.2d, #32
	add v0.2d, v0.2d, v22.2d
	add v1.2d, v1.2d, v21.2d
	umlal v2.2d, v16.2s, v25.2s
	umlal v3.2d, v17.2s, v24.2s
	umlal v0.2d, v23.2s, v20.2s
	umlal v1.2d, v19.2s, v18.2s
	b.ne .L11_100.i7
	ushr v16.2d, v2.2d, #47
	eor v2.16b, v4.16b, v2.16b
	adrp x13, .L20_1e0.i7
	ushr v17.2d, v3.2d, #47
	eor v3.16b, v5.16b, v3.16b
	ldr q20, [x13, #:lo12:.L20_1e0.i7]
	ushr v18.2d, v0.2d, #47
	eor v0.16b, v6.16b, v0.16b
	mov w13, #0x79b1
	ushr v19.2d, v1.2d, #47
	eor v1.16b, v7.16b, v1.16b
	movk w13, #0x9e37, lsl #16
	eor v16.16b, v2.16b, v16.16b
	eor v17.16b, v3.16b, v17.16b
	add x10, x10, #0x1
	eor v18.16b, v0.16b, v18.16b
	dup v21.2s, w13
	cmp x10, x11
	eor v19.16b, v1.16b, v19.16b
	add x12, x12, #0x400
	mul v2.4s, v16.4s, v20.4s
	mul v3.4s, v17.4s, v20.4s
	xtn v16.2s, v16.2d
	xtn v17.2s, v17.2d
	mul v0.4s, v18.4s, v20.4s
	xtn v18.2s, v18.2d
	mul v1.4s, v19.4s, v20.4s
	xtn v19.2s, v19.2d
	umlal v2.2d, v16.2s, v21.2s
	umlal v3.2d, v17.2s, v21.2s
	umlal v0.2d, v18.2s, v21.2s
	umlal v1.2d, v19.2s, v21.2s
	b.ne .L11_f0.i7
	b .L11_468.i7
.L11_32c.i7:
	cbz x11, .L11_464.i7
	ldr q0, [x16, #:lo12:.L20_1c0.i7]
	ldr q1, [x17, #:lo12:.L20_1d0.i7]
	mov x14, xzr
	ldr q2, [x12, #:lo12:.L20_1a0.i7]
	ldr q3, [x13, #:lo12:.L20_1b0.i7]
	add x12, x0, x15
	mov x13, x2
	b .L11_35c.i7
.L11_350.i7:
	subs x11, x11, #0x1
	add x13, x13, #0x40
	b.eq .L11_468.i7
.L11_35c.i7:
	add x15, x0, x14, lsl #3
	prfm pldl1keep, [x13, #320]
	add x14, x14, #0x1
	ldp q4, q5, [x13]
	cmp x14, x10
	ldp q6, q7, [x13, #32]
	ldp q18, q19, [x15]
	ldp q21, q22, [x15, #32]
	ext v16.16b, v5.16b, v5.16b, #8
	ext v17.16b, v4.16b, v4.16b, #8
	ext v20.16b, v6.16b, v6.16b, #8
	ext v23.16b, v7.16b, v7.16b, #8
	eor v5.16b, v19.16b, v5.16b
	eor v4.16b, v18.16b, v4.16b
	eor v7.16b, v22.16b, v7.16b
	eor v6.16b, v21.16b, v6.16b
	add v2.2d, v2.2d, v16.2d
	add v3.2d, v3.2d, v17.2d
	shrn v16.2s, v5.2d, #32
	xtn v5.2s, v5.2d
	xtn v17.2s, v4.2d
	xtn v18.2s, v6.2d
	xtn v19.2s, v7.2d
	add v1.2d, v20.2d, v1.2d
	add v0.2d, v23.2d, v0.2d
	shrn v4.2s, v4.2d, #32
	shrn v6.2s, v6.2d, #32
	shrn v7.2s, v7.2d, #32
	umlal v2.2d, v5.2s, v16.2s
	umlal v3.2d, v17.2s, v4.2s
	umlal v0.2d, v19.2s, v7.2s
	umlal v1.2d, v18.2s, v6.2s
	b.ne .L11_350.i7
	ldp q4, q5, [x12]
	ushr v6.2d, v3.2d, #47
	ldp q7, q16, [x12, #32]
	ushr v17.2d, v2.2d, #47
	adrp x14, .L20_1e0.i7
	eor v3.16b, v4.16b, v3.16b
	eor v2.16b, v5.16b, v2.16b
	ushr v4.2d, v0.2d, #47
	eor v0.16b, v16.16b, v0.16b
	ushr v5.2d, v1.2d, #47
	eor v1.16b, v7.16b, v1.16b
	ldr q16, [x14, #:lo12:.L20_1e0.i7]
	mov w14, #0x79b1
	eor v6.16b, v6.16b, v3.16b
	eor v7.16b, v17.16b, v2.16b
	movk w14, #0x9e37, lsl #16
	eor v4.16b, v4.16b, v0.16b
	eor v5.16b, v5.16b, v1.16b
	dup v17.2s, w14
	mov x14, xzr
	mul v2.4s, v7.4s, v16.4s
	mul v3.4s, v6.4s, v16.4s
	xtn v7.2s, v7.2d
	xtn v6.2s, v6.2d
	mul v0.4s, v4.4s, v16.4s
	mul v1.4s, v5.4s, v16.4s
	xtn v4.2s, v4.2d
	xtn v5.2s, v5.2d
	umlal v2.2d, v7.2s, v17.2s
	umlal v3.2d, v6.2s, v17.2s
	umlal v1.2d, v5.2s, v17.2s
	umlal v0.2d, v4.2s, v17.2s
	b .L11_350.i7
.L11_464.i7:
	mov x9, xzr
.L11_468.i7:
	mvn x9, x9
	add x9, x3, x9
	lsr x10, x9, #6
	add x9, x2, x3
	cbz x10, .L11_500.i7
	add x11, x0, #0x20
	add x8, x8, #0x20
.L11_484.i7:
	ldp q4, q5, [x8, #-32]
	subs x10, x10, #0x1
	ldp q6, q7, [x11, #-32]
	ldp q16, q17, [x8], #64
	ldp q20, q21, [x11]
	ext v18.16b, v5.16b, v5.16b, #8
	ext v19.16b, v4.16b, v4.16b, #8
	eor v5.16b, v7.16b, v5.16b
	eor v4.16b, v6.16b, v4.16b
	ext v7.16b, v16.16b, v16.16b, #8
	ext v6.16b, v17.16b, v17.16b, #8
	add x11, x11, #0x8
	eor v17.16b, v21.16b, v17.16b
	eor v16.16b, v20.16b, v16.16b
	add v2.2d, v2.2d, v18.2d
	xtn v18.2s, v4.2d
	shrn v4.2s, v4.2d, #32
	add v3.2d, v3.2d, v19.2d
	shrn v19.2s, v5.2d, #32
	xtn v5.2s, v5.2d
	add v1.2d, v7.2d, v1.2d
	add v0.2d, v6.2d, v0.2d
	xtn v6.2s, v16.2d
	xtn v7.2s, v17.2d
	shrn v16.2s, v16.2d, #32
	shrn v17.2s, v17.2d, #32
	umlal v3.2d, v18.2s, v4.2s
	umlal v2.2d, v5.2s, v19.2s
	umlal v1.2d, v6.2s, v16.2s
	umlal v0.2d, v7.2s, v17.2s
	b.ne .L11_484.i7
.L11_500.i7:
	add x10, x0, x1
	ldur q4, [x9, #-64]
	cmp x1, #0x88
	ldur q5, [x10, #-71]
	ldur q7, [x10, #-55]
	ext v6.16b, v4.16b, v4.16b, #8
	eor v4.16b, v5.16b, v4.16b
	ldur q5, [x9, #-48]
	ext v16.16b, v5.16b, v5.16b, #8
	eor v5.16b, v7.16b, v5.16b
	xtn v17.2s, v4.2d
	add v3.2d, v6.2d, v3.2d
	shrn v4.2s, v4.2d, #32
	xtn v6.2s, v5.2d
	add v2.2d, v16.2d, v2.2d
	umlal v3.2d, v17.2s, v4.2s
	shrn v4.2s, v5.2d, #32
	ldur q5, [x0, #11]
	umlal v2.2d, v6.2s, v4.2s
	ldur q4, [x0, #27]
	eor v3.16b, v3.16b, v5.16b
	mov x8, v3.d[1]
	eor v2.16b, v2.16b, v4.16b
	fmov x11, d3
	mov x12, v2.d[1]
	mul x13, x11, x8
	umulh x8, x11, x8
	fmov x11, d2
	mul x14, x11, x12
	umulh x11, x11, x12
	mov x12, #0xca87
	eor x8, x8, x13
	movk x12, #0x85eb, lsl #16
	movk x12, #0x79b1, lsl #32
	movk x12, #0x9e37, lsl #48
	madd x8, x3, x12, x8
	eor x11, x11, x14
	add x8, x8, x11
	b.cc .L11_638.i7
	ldur q2, [x9, #-32]
	ldur q3, [x10, #-39]
	ldur q5, [x10, #-23]
	ext v4.16b, v2.16b, v2.16b, #8
	eor v2.16b, v3.16b, v2.16b
	ldur q3, [x9, #-16]
	eor v5.16b, v5.16b, v3.16b
	ext v3.16b, v3.16b, v3.16b, #8
	add v1.2d, v4.2d, v1.2d
	xtn v4.2s, v2.2d
	shrn v2.2s, v2.2d, #32
	add v0.2d, v3.2d, v0.2d
	ldur q3, [x0, #43]
	umlal v1.2d, v4.2s, v2.2s
	xtn v2.2s, v5.2d
	shrn v4.2s, v5.2d, #32
	umlal v0.2d, v2.2s, v4.2s
	eor v1.16b, v1.16b, v3.16b
	ldur q2, [x0, #59]
	mov x9, v1.d[1]
	fmov x10, d1
	eor v0.16b, v0.16b, v2.16b
	mov x11, v0.d[1]
	mul x12, x10, x9
	umulh x9, x10, x9
	fmov x10, d0
	mul x13, x10, x11
	umulh x10, x10, x11
	eor x9, x9, x12
	eor x10, x10, x13
	add x9, x9, x10
	add x8, x8, x9
	mov x9, #0x79f9
	movk x9, #0x9e37, lsl #16
	eor x8, x8, x8, lsr #37
	movk x9, #0x6791, lsl #32
	movk x9, #0x1656, lsl #48
	mul x8, x8, x9
	eor x8, x8, x8, lsr #32
.L11_638.i7:
	ldp d9, d8, [sp, #48]
	.cfi_restore 72
	.cfi_restore 73
	mov x0, x8
	ldp d11, d10, [sp, #32]
	.cfi_restore 74
	.cfi_restore 75
	ldp d13, d12, [sp, #16]
	.cfi_restore 76
	.cfi_restore 77
	ldp d15, d14, [sp], #64
	.cfi_def_cfa_offset 0
	.cfi_restore 78
	.cfi_restore 79
	ret
	.cfi_def_cfa_offset 64
	.cfi_offset 72, -8
	.cfi_offset 73, -16
	.cfi_offset 74, -24
	.cfi_offset 75, -32
	.cfi_offset 76, -40
	.cfi_offset 77, -48
	.cfi_offset 78, -56
	.cfi_offset 79, -64
.L11_650.i7:
	brk #0x1
	.cfi_endproc
	.size twox_core.width_64.oneshot_long_of_any_length.i7,.-twox_core.width_64.oneshot_long_of_any_length.i7
	.section .text.twox_exports.stream_3.write_far.i7,"ax",@progbits
	.p2align 6
	.type twox_exports.stream_3.write_far.i7,@function
twox_exports.stream_3.write_far.i7:
	.cfi_startproc
	stp x29, x30, [sp, #-16]!
	.cfi_def_cfa_offset 16
	.cfi_offset 29, -16
	.cfi_offset 30, -8
	ldr x8, [x0, #64]
	sub x9, x2, #0x40
	mov x29, sp
	cmp x8, x9, lsr #3
	b.cs .L12_e8.i7
	ldr x9, [x0, #80]
	cmp x9, #0x200
	b.hi .L12_e8.i7
	ldr x10, [x0, #88]
	cbz x9, .L12_e0.i7
	adds x8, x4, x10
	csinv x8, x8, xzr, cc
.L12_34.i7:
	mov w10, #0x200
	add x5, x0, #0x60
	str x8, [x0, #88]
	sub x10, x10, x9
	cmp x4, x10
	b.ls .L12_7c.i7
	mov x9, x1
	mov x8, x2
	mov x1, x3
	mov x2, x4
	mov x3, x9
	cmp x4, #0x7ff
	b.hi .L12_f4.i7
	mov x4, x8
	bl twox_core.xxhash3.streaming.stream_counts.StreamCounts.write_through.i7
	mov w0, wzr
	ldp x29, x30, [sp], #16
	.cfi_def_cfa_offset 0
	.cfi_restore 29
	.cfi_restore 30
	ret
	.cfi_def_cfa_offset 16
	.cfi_offset 29, -16
	.cfi_offset 30, -8
.L12_7c.i7:
	add x8, x9, x4
	cmp x4, #0x21
	str x8, [x0, #80]
	add x8, x5, x9
	b.cc .L12_108.i7
	sub x10, x8, x3
	cmp x10, x4
	b.cs .L12_130.i7
	add x13, x9, x0
	sub x8, x13, x3
	add x8, x8, #0x60
	cmp x8, #0x20
	b.cs .L12_170.i7
	mov x8, xzr
.L12_b4.i7:
	add x9, x8, x9
	add x10, x9, x0
	sub x9, x4, x8
	add x8, x3, x8
	add x10, x10, #0x60
.L12_c8.i7:
	ldrb w11, [x8], #1
	mov w0, wzr
	subs x9, x9, #0x1
	strb w11, [x10], #1
	b.ne .L12_c8.i7
	b .L12_ec.i7
.L12_e0.i7:
	mov x8, x4
	cbz x10, .L12_34.i7
.L12_e8.i7:
	mov w0, #0x2
.L12_ec.i7:
	ldp x29, x30, [sp], #16
	.cfi_def_cfa_offset 0
	.cfi_restore 29
	.cfi_restore 30
	ret
	.cfi_def_cfa_offset 16
	.cfi_offset 29, -16
	.cfi_offset 30, -8
.L12_f4.i7:
	mov x4, x8
	bl twox_core.xxhash3.streaming.stream_counts.StreamCounts.write_through.2.i7
	mov w0, wzr
	ldp x29, x30, [sp], #16
	.cfi_def_cfa_offset 0
	.cfi_restore 29
	.cfi_restore 30
	ret
	.cfi_def_cfa_offset 16
	.cfi_offset 29, -16
	.cfi_offset 30, -8
.L12_108.i7:
	cmp x4, #0x11
	b.cc .L12_14c.i7
	ldr q0, [x3]
	sub x9, x4, #0x10
	mov w0, wzr
	str q0, [x8]
	ldr q0, [x3, x9]
	str q0, [x8, x9]
	ldp x29, x30, [sp], #16
	.cfi_def_cfa_offset 0
	.cfi_restore 29
	.cfi_restore 30
	ret
	.cfi_def_cfa_offset 16
	.cfi_offset 29, -16
	.cfi_offset 30, -8
.L12_130.i7:
	mov x0, x8
	mov x1, x3
	mov x2, x4
	bl memmove
	mov w0, wzr
	ldp x29, x30, [sp], #16
	.cfi_def_cfa_offset 0
	.cfi_restore 29
	.cfi_restore 30
	ret
	.cfi_def_cfa_offset 16
	.cfi_offset 29, -16
	.cfi_offset 30, -8
.L12_14c.i7:
	subs x9, x4, #0x8
	b.cc .L12_1e0.i7
	ldr x10, [x3]
	mov w0, wzr
	str x10, [x8]
	ldr x10, [x3, x9]
	str x10, [x8, x9]
	ldp x29, x30, [sp], #16
	.cfi_def_cfa_offset 0
	.cfi_restore 29
	.cfi_restore 30
	ret
	.cfi_def_cfa_offset 16
	.cfi_offset 29, -16
	.cfi_offset 30, -8
.L12_170.i7:
	and x11, x4, #0x18
	and x10, x4, #0xffffffffffffffe0
	and x8, x4, #0xffffffffffffffe0
	add x12, x3, #0x10
	add x13, x13, #0x70
	and x14, x4, #0xffffffffffffffe0
.L12_188.i7:
	ldp q0, q1, [x12, #-16]
	subs x14, x14, #0x20
	add x12, x12, #0x20
	stp q0, q1, [x13, #-16]
	add x13, x13, #0x20
	b.ne .L12_188.i7
	cmp x4, x10
	b.eq .L12_244.i7
	cbz x11, .L12_b4.i7
	add x11, x9, x10
	and x8, x4, #0xfffffffffffffff8
	add x12, x11, x0
	sub x11, x8, x10
	add x10, x3, x10
	add x12, x12, #0x60
.L12_1c4.i7:
	ldr d0, [x10], #8
	subs x11, x11, #0x8
	str d0, [x12], #8
	b.ne .L12_1c4.i7
	cmp x4, x8
	b.ne .L12_b4.i7
	b .L12_244.i7
.L12_1e0.i7:
	subs x9, x4, #0x4
	b.cc .L12_204.i7
	ldr w10, [x3]
	mov w0, wzr
	str w10, [x8]
	ldr w10, [x3, x9]
	str w10, [x8, x9]
	ldp x29, x30, [sp], #16
	.cfi_def_cfa_offset 0
	.cfi_restore 29
	.cfi_restore 30
	ret
	.cfi_def_cfa_offset 16
	.cfi_offset 29, -16
	.cfi_offset 30, -8
.L12_204.i7:
	subs x9, x4, #0x2
	b.cc .L12_228.i7
	ldrh w10, [x3]
	mov w0, wzr
	strh w10, [x8]
	ldrh w10, [x3, x9]
	strh w10, [x8, x9]
	ldp x29, x30, [sp], #16
	.cfi_def_cfa_offset 0
	.cfi_restore 29
	.cfi_restore 30
	ret
	.cfi_def_cfa_offset 16
	.cfi_offset 29, -16
	.cfi_offset 30, -8
.L12_228.i7:
	cmp x4, #0x1
	b.ne .L12_244.i7
	ldrb w9, [x3]
	mov w0, wzr
	strb w9, [x8]
	ldp x29, x30, [sp], #16
	.cfi_def_cfa_offset 0
	.cfi_restore 29
	.cfi_restore 30
	ret
	.cfi_def_cfa_offset 16
	.cfi_offset 29, -16
	.cfi_offset 30, -8
.L12_244.i7:
	mov w0, wzr
	ldp x29, x30, [sp], #16
	.cfi_def_cfa_offset 0
	.cfi_restore 29
	.cfi_restore 30
	ret
	.cfi_endproc
	.size twox_exports.stream_3.write_far.i7,.-twox_exports.stream_3.write_far.i7
	.section .text.twox_core.xxhash3.streaming.stream_counts.StreamCounts.write_through.i7,"ax",@progbits
	.p2align 6
	.type twox_core.xxhash3.streaming.stream_counts.StreamCounts.write_through.i7,@function
twox_core.xxhash3.streaming.stream_counts.StreamCounts.write_through.i7:
	.cfi_startproc
	ldr x8, [x0, #80]
	neg w9, w8
	and x10, x9, #0x3f
	cbz x10, .L13_c4.i7
	cmp x10, #0x21
	add x9, x5, x8
	b.cc .L13_3c.i7
	ldp q1, q0, [x1]
	sub x11, x10, #0x20
	add x12, x1, x11
	stp q1, q0, [x9]
	add x9, x9, x11
	ldp q1, q0, [x12]
	stp q1, q0, [x9]
	b .L13_bc.i7
.L13_3c.i7:
	cmp x10, #0x11
	b.cc .L13_5c.i7
	ldr q0, [x1]
	sub x11, x10, #0x10
	str q0, [x9]
	ldr q0, [x1, x11]
	str q0, [x9, x11]
	b .L13_bc.i7
.L13_5c.i7:
	subs x11, x10, #0x8
	b.cc .L13_78.i7
	ldr x12, [x1]
	str x12, [x9]
	ldr x12, [x1, x11]
	str x12, [x9, x11]
	b .L13_bc.i7
.L13_78.i7:
	subs x11, x10, #0x4
	b.cc .L13_94.i7
	ldr w12, [x1]
	str w12, [x9]
	ldr w12, [x1, x11]
	str w12, [x9, x11]
	b .L13_bc.i7
.L13_94.i7:
	cmp x10, #0x1
	b.ne .L13_a8.i7
	ldrb w11, [x1]
	strb w11, [x9]
	b .L13_bc.i7
.L13_a8.i7:
	ldrh w11, [x1]
	strh w11, [x9]
	sub x11, x10, #0x2
	ldrh w12, [x1, x11]
	strh w12, [x9, x11]
.L13_bc.i7:
	add x8, x10, x8
	str x8, [x0, #80]
.L13_c4.i7:
	sub x14, x4, #0x40
	ldp q3, q2, [x0]
	ldp q0, q1, [x0, #32]
	lsr x13, x8, #6
	lsr x8, x14, #3
	ldr x11, [x0, #64]
	add x9, x1, x10
	sub x12, x2, x10
	adrp x10, .L20_1f0.i7
	cbz x13, .L13_20c.i7
	add x15, x3, x14
	mov x16, x13
	mov x17, x5
	b .L13_108.i7
.L13_fc.i7:
	subs x16, x16, #0x1
	add x17, x17, #0x40
	b.eq .L13_20c.i7
.L13_108.i7:
	add x18, x3, x11, lsl #3
	prfm pldl1keep, [x17, #320]
	add x11, x11, #0x1
	ldp q4, q5, [x17]
	cmp x11, x8
	ldp q6, q7, [x17, #32]
	ldp q18, q19, [x18]
	ldp q21, q22, [x18, #32]
	ext v16.16b, v5.16b, v5.16b, #8
	ext v17.16b, v4.16b, v4.16b, #8
	ext v20.16b, v6.16b, v6.16b, #8
	ext v23.16b, v7.16b, v7.16b, #8
	eor v5.16b, v19.16b, v5.16b
	eor v4.16b, v18.16b, v4.16b
	eor v7.16b, v22.16b, v7.16b
	eor v6.16b, v21.16b, v6.16b
	add v2.2d, v16.2d, v2.2d
	add v3.2d, v17.2d, v3.2d
	shrn v16.2s, v5.2d, #32
	xtn v5.2s, v5.2d
	xtn v17.2s, v4.2d
	xtn v18.2s, v6.2d
	xtn v19.2s, v7.2d
	add v0.2d, v20.2d, v0.2d
	add v1.2d, v23.2d, v1.2d
	shrn v4.2s, v4.2d, #32
	shrn v6.2s, v6.2d, #32
	shrn v7.2s, v7.2d, #32
	umlal v2.2d, v5.2s, v16.2s
	umlal v3.2d, v17.2s, v4.2s
	umlal v1.2d, v19.2s, v7.2s
	umlal v0.2d, v18.2s, v6.2s
	b.ne .L13_fc.i7
	ldp q4, q5, [x15]
	ushr v6.2d, v3.2d, #47
	ldp q7, q16, [x15, #32]
	ushr v17.2d, v2.2d, #47
	mov w11, #0x79b1
	eor v3.16b, v4.16b, v3.16b
	eor v2.16b, v5.16b, v2.16b
	ushr v4.2d, v1.2d, #47
	eor v1.16b, v16.16b, v1.16b
	ushr v5.2d, v0.2d, #47
	eor v0.16b, v7.16b, v0.16b
	ldr q16, [x10, #:lo12:.L20_1f0.i7]
	movk w11, #0x9e37, lsl #16
	eor v6.16b, v6.16b, v3.16b
	eor v7.16b, v17.16b, v2.16b
	dup v17.2s, w11
	eor v4.16b, v4.16b, v1.16b
	eor v5.16b, v5.16b, v0.16b
	mov x11, xzr
	mul v2.4s, v7.4s, v16.4s
	mul v3.4s, v6.4s, v16.4s
	xtn v7.2s, v7.2d
	xtn v6.2s, v6.2d
	mul v1.4s, v4.4s, v16.4s
	mul v0.4s, v5.4s, v16.4s
	xtn v4.2s, v4.2d
	xtn v5.2s, v5.2d
	umlal v2.2d, v7.2s, v17.2s
	umlal v3.2d, v6.2s, v17.2s
	umlal v0.2d, v5.2s, v17.2s
	umlal v1.2d, v4.2s, v17.2s
	b .L13_fc.i7
.L13_20c.i7:
	ldr x15, [x0, #72]
	stp q3, q2, [x0]
	stp q0, q1, [x0, #32]
	adds x13, x13, x15
	str xzr, [x0, #80]
	csinv x15, x13, xzr, cc
	subs x13, x12, #0x40
	csel x13, xzr, x13, cc
	stp x11, x15, [x0, #64]
	lsr x16, x13, #6
	and x17, x13, #0xffffffffffffffc0
	add x13, x9, x17
	sub x12, x12, x17
	cbz x16, .L13_360.i7
	add x14, x3, x14
	neg x17, x16
	b .L13_25c.i7
.L13_250.i7:
	adds x17, x17, #0x1
	add x9, x9, #0x40
	b.cs .L13_360.i7
.L13_25c.i7:
	add x18, x3, x11, lsl #3
	prfm pldl1keep, [x9, #320]
	add x11, x11, #0x1
	ldp q4, q5, [x9]
	cmp x11, x8
	ldp q6, q7, [x9, #32]
	ldp q18, q19, [x18]
	ldp q21, q22, [x18, #32]
	ext v16.16b, v5.16b, v5.16b, #8
	ext v17.16b, v4.16b, v4.16b, #8
	ext v20.16b, v6.16b, v6.16b, #8
	ext v23.16b, v7.16b, v7.16b, #8
	eor v5.16b, v19.16b, v5.16b
	eor v4.16b, v18.16b, v4.16b
	eor v7.16b, v22.16b, v7.16b
	eor v6.16b, v21.16b, v6.16b
	add v2.2d, v16.2d, v2.2d
	add v3.2d, v17.2d, v3.2d
	shrn v16.2s, v5.2d, #32
	xtn v5.2s, v5.2d
	xtn v17.2s, v4.2d
	xtn v18.2s, v6.2d
	xtn v19.2s, v7.2d
	add v0.2d, v20.2d, v0.2d
	add v1.2d, v23.2d, v1.2d
	shrn v4.2s, v4.2d, #32
	shrn v6.2s, v6.2d, #32
	shrn v7.2s, v7.2d, #32
	umlal v2.2d, v5.2s, v16.2s
	umlal v3.2d, v17.2s, v4.2s
	umlal v1.2d, v19.2s, v7.2s
	umlal v0.2d, v18.2s, v6.2s
	b.ne .L13_250.i7
	ldp q4, q5, [x14]
	ushr v6.2d, v3.2d, #47
	ldp q7, q16, [x14, #32]
	ushr v17.2d, v2.2d, #47
	mov w11, #0x79b1
	eor v3.16b, v4.16b, v3.16b
	eor v2.16b, v5.16b, v2.16b
	ushr v4.2d, v1.2d, #47
	eor v1.16b, v16.16b, v1.16b
	ushr v5.2d, v0.2d, #47
	eor v0.16b, v7.16b, v0.16b
	ldr q16, [x10, #:lo12:.L20_1f0.i7]
	movk w11, #0x9e37, lsl #16
	eor v6.16b, v6.16b, v3.16b
	eor v7.16b, v17.16b, v2.16b
	dup v17.2s, w11
	eor v4.16b, v4.16b, v1.16b
	eor v5.16b, v5.16b, v0.16b
	mov x11, xzr
	mul v2.4s, v7.4s, v16.4s
	mul v3.4s, v6.4s, v16.4s
	xtn v7.2s, v7.2d
	xtn v6.2s, v6.2d
	mul v1.4s, v4.4s, v16.4s
	mul v0.4s, v5.4s, v16.4s
	xtn v4.2s, v4.2d
	xtn v5.2s, v5.2d
	umlal v2.2d, v7.2s, v17.2s
	umlal v3.2d, v6.2s, v17.2s
	umlal v0.2d, v5.2s, v17.2s
	umlal v1.2d, v4.2s, v17.2s
	b .L13_250.i7
.L13_360.i7:
	adds x8, x16, x15
	stp q3, q2, [x0]
	csinv x8, x8, xzr, cc
	cmp x12, #0x41
	stp q0, q1, [x0, #32]
	stp x11, x8, [x0, #64]
	b.cc .L13_3b0.i7
	ldp q1, q0, [x13, #32]
	sub x8, x12, #0x40
	ldp q2, q3, [x13]
	add x9, x13, x8
	add x8, x5, x8
	stp q1, q0, [x5, #32]
	stp q2, q3, [x5]
	ldp q1, q0, [x9, #32]
	ldp q2, q3, [x9]
	stp q1, q0, [x8, #32]
	stp q2, q3, [x8]
	str x12, [x0, #80]
	ret
.L13_3b0.i7:
	cmp x12, #0x21
	b.cc .L13_3dc.i7
	ldp q1, q0, [x13]
	sub x8, x12, #0x20
	add x9, x13, x8
	add x8, x5, x8
	stp q1, q0, [x5]
	ldp q1, q0, [x9]
	stp q1, q0, [x8]
	str x12, [x0, #80]
	ret
.L13_3dc.i7:
	cmp x12, #0x11
	b.cc .L13_400.i7
	ldr q0, [x13]
	sub x8, x12, #0x10
	str q0, [x5]
	ldr q0, [x13, x8]
	str q0, [x5, x8]
	str x12, [x0, #80]
	ret
.L13_400.i7:
	subs x8, x12, #0x8
	b.cc .L13_420.i7
	ldr x9, [x13]
	str x9, [x5]
	ldr x9, [x13, x8]
	str x9, [x5, x8]
	str x12, [x0, #80]
	ret
.L13_420.i7:
	subs x8, x12, #0x4
	b.cc .L13_440.i7
	ldr w9, [x13]
	str w9, [x5]
	ldr w9, [x13, x8]
	str w9, [x5, x8]
	str x12, [x0, #80]
	ret
.L13_440.i7:
	subs x8, x12, #0x2
	b.cc .L13_460.i7
	ldrh w9, [x13]
	strh w9, [x5]
	ldrh w9, [x13, x8]
	strh w9, [x5, x8]
	str x12, [x0, #80]
	ret
.L13_460.i7:
	cmp x12, #0x1
	b.ne .L13_470.i7
	ldrb w8, [x13]
	strb w8, [x5]
.L13_470.i7:
	str x12, [x0, #80]
	ret
	.cfi_endproc
	.size twox_core.xxhash3.streaming.stream_counts.StreamCounts.write_through.i7,.-twox_core.xxhash3.streaming.stream_counts.StreamCounts.write_through.i7
	.section .text.twox_core.xxhash3.streaming.stream_counts.StreamCounts.write_through.2.i7,"ax",@progbits
	.p2align 6
	.type twox_core.xxhash3.streaming.stream_counts.StreamCounts.write_through.2.i7,@function
twox_core.xxhash3.streaming.stream_counts.StreamCounts.write_through.2.i7:
	.cfi_startproc
	stp x29, x30, [sp, #-64]!
	.cfi_def_cfa_offset 64
	.cfi_offset 29, -64
	.cfi_offset 30, -56
	ldr x9, [x0, #80]
	stp x20, x19, [sp, #48]
	.cfi_offset 19, -8
	.cfi_offset 20, -16
	mov x20, x5
	mov x19, x0
	mov x8, x1
	str x23, [sp, #16]
	.cfi_offset 23, -48
	neg w10, w9
	stp x22, x21, [sp, #32]
	.cfi_offset 21, -24
	.cfi_offset 22, -32
	mov x29, sp
	and x10, x10, #0x3f
	add x1, x1, x10
	cbz x10, .L14_e8.i7
	cmp x10, #0x21
	add x11, x20, x9
	b.cc .L14_60.i7
	ldp q1, q0, [x8]
	sub x12, x10, #0x20
	add x8, x8, x12
	stp q1, q0, [x11]
	ldp q1, q0, [x8]
	add x8, x11, x12
	stp q1, q0, [x8]
	b .L14_e0.i7
.L14_60.i7:
	cmp x10, #0x11
	b.cc .L14_80.i7
	ldr q0, [x8]
	sub x12, x10, #0x10
	str q0, [x11]
	ldr q0, [x8, x12]
	str q0, [x11, x12]
	b .L14_e0.i7
.L14_80.i7:
	subs x12, x10, #0x8
	b.cc .L14_9c.i7
	ldr x13, [x8]
	str x13, [x11]
	ldr x8, [x8, x12]
	str x8, [x11, x12]
	b .L14_e0.i7
.L14_9c.i7:
	subs x12, x10, #0x4
	b.cc .L14_b8.i7
	ldr w13, [x8]
	str w13, [x11]
	ldr w8, [x8, x12]
	str w8, [x11, x12]
	b .L14_e0.i7
.L14_b8.i7:
	cmp x10, #0x1
	b.ne .L14_cc.i7
	ldrb w8, [x8]
	strb w8, [x11]
	b .L14_e0.i7
.L14_cc.i7:
	ldrh w12, [x8]
	strh w12, [x11]
	sub x12, x10, #0x2
	ldrh w8, [x8, x12]
	strh w8, [x11, x12]
.L14_e0.i7:
	add x9, x10, x9
	str x9, [x19, #80]
.L14_e8.i7:
	ldp q3, q2, [x19]
	lsr x9, x9, #6
	ldp q0, q1, [x19, #32]
	sub x8, x2, x10
	ldr x14, [x19, #64]
	cbz x9, .L14_22c.i7
	sub x11, x4, #0x40
	mov x12, x9
	mov x13, x20
	lsr x10, x11, #3
	add x11, x3, x11
	b .L14_124.i7
.L14_118.i7:
	subs x12, x12, #0x1
	add x13, x13, #0x40
	b.eq .L14_22c.i7
.L14_124.i7:
	add x15, x3, x14, lsl #3
	prfm pldl1keep, [x13, #320]
	add x14, x14, #0x1
	ldp q4, q5, [x13]
	cmp x14, x10
	ldp q6, q7, [x13, #32]
	ldp q18, q19, [x15]
	ldp q21, q22, [x15, #32]
	ext v16.16b, v5.16b, v5.16b, #8
	ext v17.16b, v4.16b, v4.16b, #8
	ext v20.16b, v6.16b, v6.16b, #8
	ext v23.16b, v7.16b, v7.16b, #8
	eor v5.16b, v19.16b, v5.16b
	eor v4.16b, v18.16b, v4.16b
	eor v7.16b, v22.16b, v7.16b
	eor v6.16b, v21.16b, v6.16b
	add v2.2d, v16.2d, v2.2d
	add v3.2d, v17.2d, v3.2d
	shrn v16.2s, v5.2d, #32
	xtn v5.2s, v5.2d
	xtn v17.2s, v4.2d
	xtn v18.2s, v6.2d
	xtn v19.2s, v7.2d
	add v0.2d, v20.2d, v0.2d
	add v1.2d, v23.2d, v1.2d
	shrn v4.2s, v4.2d, #32
	shrn v6.2s, v6.2d, #32
	shrn v7.2s, v7.2d, #32
	umlal v2.2d, v5.2s, v16.2s
	umlal v3.2d, v17.2s, v4.2s
	umlal v1.2d, v19.2s, v7.2s
	umlal v0.2d, v18.2s, v6.2s
	b.ne .L14_118.i7
	ldp q4, q5, [x11]
	ushr v6.2d, v3.2d, #47
	ldp q7, q16, [x11, #32]
	ushr v17.2d, v2.2d, #47
	adrp x14, .L20_200.i7
	eor v3.16b, v4.16b, v3.16b
	eor v2.16b, v5.16b, v2.16b
	ushr v4.2d, v1.2d, #47
	eor v1.16b, v16.16b, v1.16b
	ushr v5.2d, v0.2d, #47
	eor v0.16b, v7.16b, v0.16b
	ldr q16, [x14, #:lo12:.L20_200.i7]
	mov w14, #0x79b1
	eor v6.16b, v6.16b, v3.16b
	eor v7.16b, v17.16b, v2.16b
	movk w14, #0x9e37, lsl #16
	eor v4.16b, v4.16b, v1.16b
	eor v5.16b, v5.16b, v0.16b
	dup v17.2s, w14
	mov x14, xzr
	mul v2.4s, v7.4s, v16.4s
	mul v3.4s, v6.4s, v16.4s
	xtn v7.2s, v7.2d
	xtn v6.2s, v6.2d
	mul v1.4s, v4.4s, v16.4s
	mul v0.4s, v5.4s, v16.4s
	xtn v4.2s, v4.2d
	xtn v5.2s, v5.2d
	umlal v2.2d, v7.2s, v17.2s
	umlal v3.2d, v6.2s, v17.2s
	umlal v0.2d, v5.2s, v17.2s
	umlal v1.2d, v4.2s, v17.2s
	b .L14_118.i7
.L14_22c.i7:
	ldr x10, [x19, #72]
	mov x0, x19
	stp q3, q2, [x19]
	stp q0, q1, [x19, #32]
	adds x9, x9, x10
	str xzr, [x19, #80]
	csinv x9, x9, xzr, cc
	subs x10, x8, #0x40
	csel x23, xzr, x10, cc
	stp x14, x9, [x19, #64]
	and x9, x23, #0xffffffffffffffc0
	and x2, x23, #0xffffffffffffffc0
	add x22, x1, x9
	sub x21, x8, x9
	bl twox_core.xxhash3.stripes.take_many_stripes.i7
	ldr x8, [x19, #72]
	adds x8, x8, x23, lsr #6
	csinv x8, x8, xzr, cc
	cmp x21, #0x41
	str x8, [x19, #72]
	b.cc .L14_2c4.i7
	ldp q1, q0, [x22, #32]
	sub x8, x21, #0x40
	ldp q2, q3, [x22]
	add x9, x22, x8
	add x8, x20, x8
	stp q1, q0, [x20, #32]
	stp q2, q3, [x20]
	ldp q1, q0, [x9, #32]
	ldp q2, q3, [x9]
	stp q1, q0, [x8, #32]
	stp q2, q3, [x8]
.L14_2ac.i7:
	str x21, [x19, #80]
	ldp x20, x19, [sp, #48]
	.cfi_restore 19
	.cfi_restore 20
	ldp x22, x21, [sp, #32]
	.cfi_restore 21
	.cfi_restore 22
	ldr x23, [sp, #16]
	.cfi_restore 23
	ldp x29, x30, [sp], #64
	.cfi_def_cfa_offset 0
	.cfi_restore 29
	.cfi_restore 30
	ret
	.cfi_def_cfa_offset 64
	.cfi_offset 19, -8
	.cfi_offset 20, -16
	.cfi_offset 21, -24
	.cfi_offset 22, -32
	.cfi_offset 23, -48
	.cfi_offset 29, -64
	.cfi_offset 30, -56
.L14_2c4.i7:
	cmp x21, #0x21
	b.cc .L14_300.i7
	ldp q1, q0, [x22]
	sub x8, x21, #0x20
	add x9, x22, x8
	add x8, x20, x8
	stp q1, q0, [x20]
	ldp q1, q0, [x9]
	stp q1, q0, [x8]
	str x21, [x19, #80]
	ldp x20, x19, [sp, #48]
	.cfi_restore 19
	.cfi_restore 20
	ldp x22, x21, [sp, #32]
	.cfi_restore 21
	.cfi_restore 22
	ldr x23, [sp, #16]
	.cfi_restore 23
	ldp x29, x30, [sp], #64
	.cfi_def_cfa_offset 0
	.cfi_restore 29
	.cfi_restore 30
	ret
	.cfi_def_cfa_offset 64
	.cfi_offset 19, -8
	.cfi_offset 20, -16
	.cfi_offset 21, -24
	.cfi_offset 22, -32
	.cfi_offset 23, -48
	.cfi_offset 29, -64
	.cfi_offset 30, -56
.L14_300.i7:
	cmp x21, #0x11
	b.cc .L14_334.i7
	ldr q0, [x22]
	sub x8, x21, #0x10
	str q0, [x20]
	ldr q0, [x22, x8]
	str q0, [x20, x8]
	str x21, [x19, #80]
	ldp x20, x19, [sp, #48]
	.cfi_restore 19
	.cfi_restore 20
	ldp x22, x21, [sp, #32]
	.cfi_restore 21
	.cfi_restore 22
	ldr x23, [sp, #16]
	.cfi_restore 23
	ldp x29, x30, [sp], #64
	.cfi_def_cfa_offset 0
	.cfi_restore 29
	.cfi_restore 30
	ret
	.cfi_def_cfa_offset 64
	.cfi_offset 19, -8
	.cfi_offset 20, -16
	.cfi_offset 21, -24
	.cfi_offset 22, -32
	.cfi_offset 23, -48
	.cfi_offset 29, -64
	.cfi_offset 30, -56
.L14_334.i7:
	subs x8, x21, #0x8
	b.cc .L14_364.i7
	ldr x9, [x22]
	str x9, [x20]
	ldr x9, [x22, x8]
	str x9, [x20, x8]
	str x21, [x19, #80]
	ldp x20, x19, [sp, #48]
	.cfi_restore 19
	.cfi_restore 20
	ldp x22, x21, [sp, #32]
	.cfi_restore 21
	.cfi_restore 22
	ldr x23, [sp, #16]
	.cfi_restore 23
	ldp x29, x30, [sp], #64
	.cfi_def_cfa_offset 0
	.cfi_restore 29
	.cfi_restore 30
	ret
	.cfi_def_cfa_offset 64
	.cfi_offset 19, -8
	.cfi_offset 20, -16
	.cfi_offset 21, -24
	.cfi_offset 22, -32
	.cfi_offset 23, -48
	.cfi_offset 29, -64
	.cfi_offset 30, -56
.L14_364.i7:
	subs x8, x21, #0x4
	b.cc .L14_394.i7
	ldr w9, [x22]
	str w9, [x20]
	ldr w9, [x22, x8]
	str w9, [x20, x8]
	str x21, [x19, #80]
	ldp x20, x19, [sp, #48]
	.cfi_restore 19
	.cfi_restore 20
	ldp x22, x21, [sp, #32]
	.cfi_restore 21
	.cfi_restore 22
	ldr x23, [sp, #16]
	.cfi_restore 23
	ldp x29, x30, [sp], #64
	.cfi_def_cfa_offset 0
	.cfi_restore 29
	.cfi_restore 30
	ret
	.cfi_def_cfa_offset 64
	.cfi_offset 19, -8
	.cfi_offset 20, -16
	.cfi_offset 21, -24
	.cfi_offset 22, -32
	.cfi_offset 23, -48
	.cfi_offset 29, -64
	.cfi_offset 30, -56
.L14_394.i7:
	subs x8, x21, #0x2
	b.cc .L14_3c4.i7
	ldrh w9, [x22]
	strh w9, [x20]
	ldrh w9, [x22, x8]
	strh w9, [x20, x8]
	str x21, [x19, #80]
	ldp x20, x19, [sp, #48]
	.cfi_restore 19
	.cfi_restore 20
	ldp x22, x21, [sp, #32]
	.cfi_restore 21
	.cfi_restore 22
	ldr x23, [sp, #16]
	.cfi_restore 23
	ldp x29, x30, [sp], #64
	.cfi_def_cfa_offset 0
	.cfi_restore 29
	.cfi_restore 30
	ret
	.cfi_def_cfa_offset 64
	.cfi_offset 19, -8
	.cfi_offset 20, -16
	.cfi_offset 21, -24
	.cfi_offset 22, -32
	.cfi_offset 23, -48
	.cfi_offset 29, -64
	.cfi_offset 30, -56
.L14_3c4.i7:
	cmp x21, #0x1
	b.ne .L14_2ac.i7
	ldrb w8, [x22]
	strb w8, [x20]
	str x21, [x19, #80]
	ldp x20, x19, [sp, #48]
	.cfi_restore 19
	.cfi_restore 20
	ldp x22, x21, [sp, #32]
	.cfi_restore 21
	.cfi_restore 22
	ldr x23, [sp, #16]
	.cfi_restore 23
	ldp x29, x30, [sp], #64
	.cfi_def_cfa_offset 0
	.cfi_restore 29
	.cfi_restore 30
	ret
	.cfi_endproc
	.size twox_core.xxhash3.streaming.stream_counts.StreamCounts.write_through.2.i7,.-twox_core.xxhash3.streaming.stream_counts.StreamCounts.write_through.2.i7
	.section .text.twox_rust_7_interface,"ax",@progbits
	.p2align 6
	.weak twox_rust_7_interface
	.hidden twox_rust_7_interface
	.type twox_rust_7_interface,@function
twox_rust_7_interface:
	.cfi_startproc
	mov w0, #0x7
	ret
	.cfi_endproc
	.size twox_rust_7_interface,.-twox_rust_7_interface
	.section .text.twox_rust_7_xxh32_write,"ax",@progbits
	.p2align 6
	.weak twox_rust_7_xxh32_write
	.hidden twox_rust_7_xxh32_write
	.type twox_rust_7_xxh32_write,@function
twox_rust_7_xxh32_write:
	.cfi_startproc
	ldr w8, [x0, #12]
	mov w9, #0xa7a8
	cmp x1, #0x0
	movk w9, #0xcdcc, lsl #16
	mov w11, #0x1000
	add w10, w8, w9
	csel x8, x11, xzr, eq
	cmp w10, #0xf
	b.ls .L16_2c.i7
	mov w0, #0x2
	ret
.L16_2c.i7:
	ldur x9, [x0, #20]
	add x1, x1, x8
	adds x9, x2, x9
	csinv x9, x9, xzr, cc
	stur x9, [x0, #20]
	cbz w10, .L16_1d0.i7
	add x9, x2, x10
	add x8, x0, x10
	cmp x9, #0xf
	add x8, x8, #0x20
	b.hi .L16_8c.i7
	mov w10, #0x5858
	cmp x2, #0x11
	movk w10, #0x3233, lsl #16
	add w9, w9, w10
	str w9, [x0, #12]
	b.cc .L16_bc.i7
	ldr q0, [x1]
	sub x9, x2, #0x10
	mov w0, wzr
	str q0, [x8]
	ldr q0, [x1, x9]
	str q0, [x8, x9]
	ret
.L16_8c.i7:
	mov w9, #0x10
	cmp w10, #0x8
	sub x11, x9, x10
	add x9, x1, x11
	sub x2, x2, x11
	b.hi .L16_dc.i7
	ldr x11, [x1]
	str x11, [x8]
	sub x8, x1, x10
	ldr x8, [x8, #8]
	str x8, [x0, #40]
	b .L16_164.i7
.L16_bc.i7:
	subs x9, x2, #0x8
	b.cc .L16_fc.i7
	ldr x10, [x1]
	mov w0, wzr
	str x10, [x8]
	ldr x10, [x1, x9]
	str x10, [x8, x9]
	ret
.L16_dc.i7:
	cmp w10, #0xc
	b.hi .L16_11c.i7
	ldr w11, [x1]
	str w11, [x8]
	sub x8, x1, x10
	ldr w8, [x8, #12]
	str w8, [x0, #44]
	b .L16_164.i7
.L16_fc.i7:
	subs x9, x2, #0x4
	b.cc .L16_130.i7
	ldr w10, [x1]
	mov w0, wzr
	str w10, [x8]
	ldr w10, [x1, x9]
	str w10, [x8, x9]
	ret
.L16_11c.i7:
	cmp w10, #0xf
	b.ne .L16_150.i7
	ldrb w10, [x1]
	strb w10, [x8]
	b .L16_164.i7
.L16_130.i7:
	subs x9, x2, #0x2
	b.cc .L16_2fc.i7
	ldrh w10, [x1]
	mov w0, wzr
	strh w10, [x8]
	ldrh w10, [x1, x9]
	strh w10, [x8, x9]
	ret
.L16_150.i7:
	ldrh w11, [x1]
	strh w11, [x8]
	sub x8, x1, x10
	ldrh w8, [x8, #14]
	strh w8, [x0, #46]
.L16_164.i7:
	ldp w8, w11, [x0, #32]
	mov w10, #0xca77
	ldr w12, [x0]
	mov x1, x9
	movk w10, #0x85eb, lsl #16
	ldp w13, w14, [x0, #40]
	madd w8, w8, w10, w12
	ldr w12, [x0, #8]
	madd w11, w11, w10, w12
	ldr w12, [x0, #16]
	madd w12, w13, w10, w12
	ldr w13, [x0, #28]
	madd w10, w14, w10, w13
	ror w8, w8, #19
	mov w13, #0x79b1
	ror w11, w11, #19
	movk w13, #0x9e37, lsl #16
	ror w12, w12, #19
	mul w8, w8, w13
	ror w10, w10, #19
	mul w11, w11, w13
	mul w12, w12, w13
	mul w10, w10, w13
	str w8, [x0]
	str w11, [x0, #8]
	str w12, [x0, #16]
	str w10, [x0, #28]
.L16_1d0.i7:
	stp x29, x30, [sp, #-16]!
	.cfi_def_cfa_offset 16
	.cfi_offset 29, -16
	.cfi_offset 30, -8
	cmp x2, #0x80
	mov x29, sp
	b.cc .L16_1f0.i7
	bl twox_plain.xxhash32.StateInMemory.add_blocks_in_place.i7
	mov w0, wzr
	ldp x29, x30, [sp], #16
	.cfi_def_cfa_offset 0
	.cfi_restore 29
	.cfi_restore 30
	ret
	.cfi_def_cfa_offset 16
	.cfi_offset 29, -16
	.cfi_offset 30, -8
.L16_1f0.i7:
	cmp x2, #0x10
	b.cc .L16_278.i7
	ldr w13, [x0]
	ldr w12, [x0, #8]
	mov w9, #0x79b1
	ldr w10, [x0, #16]
	ldr w8, [x0, #28]
	mov w11, #0xca77
	movk w9, #0x9e37, lsl #16
	movk w11, #0x85eb, lsl #16
.L16_218.i7:
	ldp w14, w15, [x1]
	sub x2, x2, #0x10
	cmp x2, #0xf
	madd w13, w14, w11, w13
	madd w12, w15, w11, w12
	ldp w14, w15, [x1, #8]
	ror w13, w13, #19
	ror w12, w12, #19
	madd w10, w14, w11, w10
	add x14, x1, #0x10
	madd w8, w15, w11, w8
	mov x1, x14
	mul w13, w13, w9
	ror w10, w10, #19
	mul w12, w12, w9
	ror w8, w8, #19
	mul w10, w10, w9
	mul w8, w8, w9
	b.hi .L16_218.i7
	mov x1, x14
	str w13, [x0]
	str w12, [x0, #8]
	str w10, [x0, #16]
	str w8, [x0, #28]
.L16_278.i7:
	cbz x2, .L16_2e0.i7
	subs x9, x2, #0x8
	add x8, x0, #0x20
	b.cc .L16_29c.i7
	ldr x10, [x1]
	str x10, [x8]
	ldr x10, [x1, x9]
	str x10, [x8, x9]
	b .L16_2e0.i7
.L16_29c.i7:
	subs x9, x2, #0x4
	b.cc .L16_2b8.i7
	ldr w10, [x1]
	str w10, [x8]
	ldr w10, [x1, x9]
	str w10, [x8, x9]
	b .L16_2e0.i7
.L16_2b8.i7:
	cmp x2, #0x1
	b.ne .L16_2cc.i7
	ldrb w9, [x1]
	strb w9, [x8]
	b .L16_2e0.i7
.L16_2cc.i7:
	ldrh w9, [x1]
	strh w9, [x8]
	sub x9, x2, #0x2
	ldrh w10, [x1, x9]
	strh w10, [x8, x9]
.L16_2e0.i7:
	mov w9, #0x5858
	movk w9, #0x3233, lsl #16
	add w9, w2, w9
	str w9, [x0, #12]
	mov w0, wzr
	ldp x29, x30, [sp], #16
	.cfi_def_cfa_offset 0
	.cfi_restore 29
	.cfi_restore 30
	ret
.L16_2fc.i7:
	cmp x2, #0x1
	b.ne .L16_314.i7
	ldrb w9, [x1]
	mov w0, wzr
	strb w9, [x8]
	ret
.L16_314.i7:
	mov w0, wzr
	ret
	.cfi_endproc
	.size twox_rust_7_xxh32_write,.-twox_rust_7_xxh32_write
	.section .text.twox_rust_7_xxh3_128_long,"ax",@progbits
	.p2align 6
	.weak twox_rust_7_xxh3_128_long
	.hidden twox_rust_7_xxh3_128_long
	.type twox_rust_7_xxh3_128_long,@function
twox_rust_7_xxh3_128_long:
	.cfi_startproc
	mov w9, #0x1000
	cmp x0, #0x0
	csel x8, x9, xzr, eq
	cmp x2, #0x0
	csel x9, x9, xzr, eq
	cmp x1, #0xf1
	b.cs .L17_24.i7
	mov w0, #0x3
	ret
.L17_24.i7:
	cmp x3, #0x88
	b.cc .L17_70.i7
	stp x29, x30, [sp, #-32]!
	.cfi_def_cfa_offset 32
	.cfi_offset 29, -32
	.cfi_offset 30, -24
	mov x10, x0
	add x0, x2, x9
	str x19, [sp, #16]
	.cfi_offset 19, -16
	add x2, x10, x8
	mov x8, x1
	mov x1, x3
	mov x3, x8
	mov x29, sp
	mov x19, x4
	bl twox_core.width_128.oneshot_long.i7
	mov x8, x0
	mov w0, wzr
	stp x8, x1, [x19]
	ldr x19, [sp, #16]
	.cfi_restore 19
	ldp x29, x30, [sp], #32
	.cfi_def_cfa_offset 0
	.cfi_restore 29
	.cfi_restore 30
	ret
.L17_70.i7:
	mov w0, #0x1
	ret
	.cfi_endproc
	.size twox_rust_7_xxh3_128_long,.-twox_rust_7_xxh3_128_long
	.section .text.twox_rust_7_xxh3_64_long,"ax",@progbits
	.p2align 6
	.weak twox_rust_7_xxh3_64_long
	.hidden twox_rust_7_xxh3_64_long
	.type twox_rust_7_xxh3_64_long,@function
twox_rust_7_xxh3_64_long:
	.cfi_startproc
	cmp x0, #0x0
	mov w9, #0x1000
	csel x8, x9, xzr, eq
	cmp x2, #0x0
	csel x9, x9, xzr, eq
	cmp x1, #0xf1
	b.cs .L18_28.i7
	mov x1, xzr
	mov w0, #0x3
	ret
.L18_28.i7:
	cmp x3, #0x88
	b.cc .L18_64.i7
	stp x29, x30, [sp, #-16]!
	.cfi_def_cfa_offset 16
	.cfi_offset 29, -16
	.cfi_offset 30, -8
	mov x10, x0
	add x0, x2, x9
	mov x29, sp
	add x2, x10, x8
	mov x8, x1
	mov x1, x3
	mov x3, x8
	bl twox_core.width_64.oneshot_long.i7
	mov x1, x0
	mov x0, xzr
	ldp x29, x30, [sp], #16
	.cfi_def_cfa_offset 0
	.cfi_restore 29
	.cfi_restore 30
	ret
.L18_64.i7:
	mov x1, xzr
	mov w0, #0x1
	ret
	.cfi_endproc
	.size twox_rust_7_xxh3_64_long,.-twox_rust_7_xxh3_64_long
	.section .text.twox_rust_7_xxh3_write,"ax",@progbits
	.p2align 6
	.weak twox_rust_7_xxh3_write
	.hidden twox_rust_7_xxh3_write
	.type twox_rust_7_xxh3_write,@function
twox_rust_7_xxh3_write:
	.cfi_startproc
	mov w8, #0x1000
	cmp x1, #0x0
	csel x9, x8, xzr, eq
	cmp x3, #0x0
	csel x10, x8, xzr, eq
	cmp x2, #0x88
	b.cc .L19_a4.i7
	ldr x8, [x0, #80]
	add x3, x3, x10
	cmp x8, #0x200
	b.hi .L19_e0.i7
	cmp x4, #0x40
	b.hi .L19_e0.i7
	mov w10, #0x200
	sub x10, x10, x8
	cmp x4, x10
	b.hi .L19_e0.i7
	ldr x10, [x0, #64]
	sub x11, x2, #0x40
	cmp x10, x11, lsr #3
	b.cs .L19_e0.i7
	ldr x11, [x0, #88]
	cbz x8, .L19_d8.i7
	adds x9, x4, x11
	csinv x10, x9, xzr, cc
.L19_64.i7:
	add x9, x0, x8
	cmp x4, #0x21
	str x10, [x0, #88]
	add x9, x9, #0x60
	b.cc .L19_ac.i7
	ldp q1, q0, [x3]
	sub x10, x4, #0x20
	add x11, x3, x10
	stp q1, q0, [x9]
	add x9, x9, x10
	ldp q1, q0, [x11]
	stp q1, q0, [x9]
.L19_94.i7:
	add x8, x8, x4
	str x8, [x0, #80]
	mov w0, wzr
	ret
.L19_a4.i7:
	mov w0, #0x1
	ret
.L19_ac.i7:
	cmp x4, #0x11
	b.cc .L19_e8.i7
	ldr q0, [x3]
	sub x10, x4, #0x10
	str q0, [x9]
	ldr q0, [x3, x10]
	str q0, [x9, x10]
	add x8, x8, x4
	str x8, [x0, #80]
	mov w0, wzr
	ret
.L19_d8.i7:
	mov x10, x4
	cbz x11, .L19_64.i7
.L19_e0.i7:
	add x1, x1, x9
	b twox_exports.stream_3.write_far.i7
.L19_e8.i7:
	subs x10, x4, #0x8
	b.cc .L19_110.i7
	ldr x11, [x3]
	str x11, [x9]
	ldr x11, [x3, x10]
	str x11, [x9, x10]
	add x8, x8, x4
	str x8, [x0, #80]
	mov w0, wzr
	ret
.L19_110.i7:
	subs x10, x4, #0x4
	b.cc .L19_138.i7
	ldr w11, [x3]
	str w11, [x9]
	ldr w11, [x3, x10]
	str w11, [x9, x10]
	add x8, x8, x4
	str x8, [x0, #80]
	mov w0, wzr
	ret
.L19_138.i7:
	subs x10, x4, #0x2
	b.cc .L19_160.i7
	ldrh w11, [x3]
	strh w11, [x9]
	ldrh w11, [x3, x10]
	strh w11, [x9, x10]
	add x8, x8, x4
	str x8, [x0, #80]
	mov w0, wzr
	ret
.L19_160.i7:
	cmp x4, #0x1
	b.ne .L19_94.i7
	ldrb w10, [x3]
	strb w10, [x9]
	add x8, x8, x4
	str x8, [x0, #80]
	mov w0, wzr
	ret
	.cfi_endproc
	.size twox_rust_7_xxh3_write,.-twox_rust_7_xxh3_write
	.section .rodata.cst16,"aM",@progbits,16
	.p2align 4
.L20_0.i7:
	.quad 0x27d4eb2f165667c5,0x9e3779b1
.L20_10.i7:
	.quad 0x85ebca77c2b2ae63,0x85ebca77
.L20_20.i7:
	.quad 0xc2b2ae3d27d4eb4f,0x165667b19e3779f9
.L20_30.i7:
	.quad 0xc2b2ae3d,0x9e3779b185ebca87
.L20_40.i7:
	.quad 0x9e3779b100000000,0x9e3779b100000000
.L20_50.i7:
	.quad 0x9e3779b100000000,0x9e3779b100000000
.L20_60.i7:
	.quad 0x9e3779b100000000,0x9e3779b100000000
.L20_70.i7:
	.quad 0x9e3779b100000000,0x9e3779b100000000
.L20_80.i7:
	.quad 0xc2b2ae3d,0x9e3779b185ebca87
.L20_90.i7:
	.quad 0xc2b2ae3d27d4eb4f,0x165667b19e3779f9
.L20_a0.i7:
	.quad 0x85ebca77c2b2ae63,0x85ebca77
.L20_b0.i7:
	.quad 0x27d4eb2f165667c5,0x9e3779b1
.L20_c0.i7:
	.quad 0x27d4eb2f165667c5,0x9e3779b1
.L20_d0.i7:
	.quad 0x85ebca77c2b2ae63,0x85ebca77
.L20_e0.i7:
	.quad 0xc2b2ae3d27d4eb4f,0x165667b19e3779f9
.L20_f0.i7:
	.quad 0xc2b2ae3d,0x9e3779b185ebca87
.L20_100.i7:
	.quad 0x9e3779b100000000,0x9e3779b100000000
.L20_110.i7:
	.quad 0x27d4eb2f165667c5,0x9e3779b1
.L20_120.i7:
	.quad 0x85ebca77c2b2ae63,0x85ebca77
.L20_130.i7:
	.quad 0xc2b2ae3d27d4eb4f,0x165667b19e3779f9
.L20_140.i7:
	.quad 0xc2b2ae3d,0x9e3779b185ebca87
.L20_150.i7:
	.quad 0x9e3779b100000000,0x9e3779b100000000
.L20_160.i7:
	.quad 0xc2b2ae3d,0x9e3779b185ebca87
.L20_170.i7:
	.quad 0xc2b2ae3d27d4eb4f,0x165667b19e3779f9
.L20_180.i7:
	.quad 0x85ebca77c2b2ae63,0x85ebca77
.L20_190.i7:
	.quad 0x27d4eb2f165667c5,0x9e3779b1
.L20_1a0.i7:
	.quad 0xc2b2ae3d27d4eb4f,0x165667b19e3779f9
.L20_1b0.i7:
	.quad 0xc2b2ae3d,0x9e3779b185ebca87
.L20_1c0.i7:
	.quad 0x27d4eb2f165667c5,0x9e3779b1
.L20_1d0.i7:
	.quad 0x85ebca77c2b2ae63,0x85ebca77
.L20_1e0.i7:
	.quad 0x9e3779b100000000,0x9e3779b100000000
.L20_1f0.i7:
	.quad 0x9e3779b100000000,0x9e3779b100000000
.L20_200.i7:
	.quad 0x9e3779b100000000,0x9e3779b100000000
	.endif
	.section .note.GNU-stack,"",@progbits
	.text
