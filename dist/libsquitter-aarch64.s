	.file	"rattle"
	.section	".text.sq_digits::decimal::push_long::<=63>","ax",@progbits
	.p2align	2
	.type	"sq_digits::decimal::push_long::<=63>",@function
"sq_digits::decimal::push_long::<=63>":
	mov	x8, #32767
	movk	x8, #42182, lsl #16
	movk	x8, #36222, lsl #32
	movk	x8, #3, lsl #48
	cmp	x1, x8
	b.hi	.LBB0_5
	mov	x8, #13531
	mov	x11, #4095
	ldr	x10, [x0, #64]
	movk	x8, #55222, lsl #16
	movk	x11, #54437, lsl #16
	movk	x8, #56962, lsl #32
	movk	x11, #232, lsl #32
	movk	x8, #17179, lsl #48
	cmp	x1, x11
	umulh	x8, x1, x8
	lsr	x9, x8, #18
	adrp	x8, .Lstatic.22
	add	x8, x8, :lo12:.Lstatic.22
	b.hi	.LBB0_3
	mov	w11, #19923
	mov	x13, #59392
	mov	x14, #58368
	movk	w11, #4194, lsl #16
	movk	x13, #18550, lsl #16
	movk	x14, #21515, lsl #16
	mul	x12, x9, x11
	movk	x13, #23, lsl #32
	movk	x14, #2, lsl #32
	cmp	x1, x13
	umull	x11, w9, w11
	cset	w13, lo
	cmp	x1, x14
	mov	w14, #1000
	cinc	x13, x13, lo
	lsr	x11, x11, #36
	lsr	x12, x12, #38
	and	x11, x11, #0x1fffffc
	msub	w9, w12, w14, w9
	add	x11, x8, x11
	ldr	w11, [x11, x13]
	str	w11, [x0, x10]
	eor	x11, x13, #0x3
	add	x10, x10, x11
	ldr	s0, [x8, w9, uxtw #2]
	str	s0, [x0, x10]
	add	x9, x10, #3
	b	.LBB0_4
.LBB0_3:
	mov	x12, #23123
	lsr	x11, x1, #9
	mov	w14, #56963
	movk	x12, #41115, lsl #16
	movk	w14, #17179, lsl #16
	mov	x15, #16384
	movk	x12, #47151, lsl #32
	umull	x14, w9, w14
	movk	x15, #4218, lsl #16
	movk	x12, #68, lsl #48
	mov	x16, #40960
	movk	x15, #23283, lsl #32
	umulh	x11, x11, x12
	mov	w12, #19923
	movk	x16, #20082, lsl #16
	movk	w12, #4194, lsl #16
	lsr	x14, x14, #48
	cmp	x1, x15
	movk	x16, #2328, lsl #32
	mov	w17, #1000
	cset	w15, lo
	cmp	x1, x16
	lsr	x11, x11, #11
	mul	x13, x11, x12
	mul	x12, x9, x12
	lsr	x13, x13, #38
	msub	w11, w13, w17, w11
	and	x13, x14, #0x7ffc
	cinc	x14, x15, lo
	add	x13, x8, x13
	lsr	x12, x12, #38
	ldr	w13, [x13, x14]
	eor	x14, x14, #0x3
	str	w13, [x0, x10]
	add	x10, x10, x14
	add	x11, x8, w11, uxtw #2
	str	x10, [x0, #64]
	add	x14, x0, x10
	msub	w9, w12, w17, w9
	ldrh	w13, [x11]
	strh	w13, [x14]
	ldrb	w11, [x11, #2]
	strb	w11, [x14, #2]
	ldr	s0, [x8, w9, uxtw #2]
	add	x9, x10, #6
	stur	s0, [x14, #3]
.LBB0_4:
	mov	x11, #63439
	lsr	x10, x1, #3
	mov	w12, #1000
	movk	x11, #58195, lsl #16
	add	x14, x0, x9
	movk	x11, #39845, lsl #32
	movk	x11, #8388, lsl #48
	umulh	x10, x10, x11
	mov	x11, #42992
	movk	x11, #19398, lsl #16
	movk	x11, #35127, lsl #32
	movk	x11, #65, lsl #48
	lsr	x10, x10, #4
	umulh	x11, x10, x11
	msub	x11, x11, x12, x10
	msub	x10, x10, x12, x1
	add	x11, x8, x11, lsl #2
	ldrh	w13, [x11]
	strh	w13, [x14]
	ldrb	w11, [x11, #2]
	strb	w11, [x14, #2]
	ldr	s0, [x8, x10, lsl #2]
	add	x8, x9, #6
	stur	s0, [x14, #3]
	str	x8, [x0, #64]
	ret
.LBB0_5:
	b	"sq_digits::decimal::push_longest::<=63>"
.Lfunc_end0:
	.size	"sq_digits::decimal::push_long::<=63>", .Lfunc_end0-"sq_digits::decimal::push_long::<=63>"

	.section	".text.unlikely.sq_digits::decimal::push_longest::<=63>","ax",@progbits
	.p2align	2
	.type	"sq_digits::decimal::push_longest::<=63>",@function
"sq_digits::decimal::push_longest::<=63>":
	sub	sp, sp, #96
	movi	v0.2d, #0000000000000000
	mov	x8, xzr
	stp	x29, x30, [sp, #48]
	str	x21, [sp, #64]
	add	x29, sp, #48
	stp	x20, x19, [sp, #80]
	str	xzr, [sp, #32]
	stp	q0, q0, [sp]
.LBB1_1:
	mov	x10, #22859
	mov	x9, x1
	mov	w12, #5243
	movk	x10, #14470, lsl #16
	mov	w14, #57599
	mov	x13, sp
	movk	x10, #50646, lsl #32
	movk	w14, #1525, lsl #16
	add	x13, x13, x8
	movk	x10, #13421, lsl #48
	cmp	x1, x14
	sub	x8, x8, #4
	umulh	x10, x1, x10
	lsr	x1, x10, #11
	mov	w10, #10000
	msub	w10, w1, w10, w9
	ubfx	w11, w10, #2, #14
	mul	w11, w11, w12
	mov	w12, #100
	lsr	w11, w11, #17
	msub	w12, w11, w12, w10
	adrp	x10, .Lstatic.23
	add	x10, x10, :lo12:.Lstatic.23
	ldrh	w11, [x10, w11, uxtw #1]
	and	x12, x12, #0xffff
	strh	w11, [x13, #36]
	ldrh	w12, [x10, x12, lsl #1]
	strh	w12, [x13, #38]
	b.hi	.LBB1_1
	mov	w11, #16959
	movk	w11, #15, lsl #16
	cmp	x9, x11
	b.hi	.LBB1_5
	lsr	x9, x9, #5
	cmp	x9, #3124
	b.hi	.LBB1_7
	mov	x9, sp
	orr	w10, w1, #0x30
	add	x11, x9, x8
	add	x9, x8, #39
	strb	w10, [x11, #39]
	b	.LBB1_8
.LBB1_5:
	ubfx	w11, w1, #2, #14
	mov	w12, #5243
	mov	w14, #38527
	movk	w14, #152, lsl #16
	mul	w11, w11, w12
	mov	w12, #100
	cmp	x9, x14
	lsr	w11, w11, #17
	msub	w12, w11, w12, w1
	and	x12, x12, #0xffff
	ldrh	w13, [x10, x12, lsl #1]
	mov	x12, sp
	add	x12, x12, x8
	strh	w13, [x12, #38]
	b.hi	.LBB1_11
	orr	w10, w11, #0x30
	add	x9, x8, #37
	strb	w10, [x12, #37]
	b	.LBB1_8
.LBB1_7:
	ldrh	w10, [x10, x1, lsl #1]
	mov	x9, sp
	add	x11, x9, x8
	add	x9, x8, #38
	strh	w10, [x11, #38]
.LBB1_8:
	mov	x20, x0
	mov	w8, #40
	ldr	x21, [x20, #64]!
	sub	x19, x8, x9
.LBB1_9:
	mov	x8, sp
	add	x0, x0, x21
	mov	x2, x19
	add	x1, x8, x9
	bl	memcpy
.LBB1_10:
	add	x8, x21, x19
	ldp	x29, x30, [sp, #48]
	str	x8, [x20]
	ldp	x20, x19, [sp, #80]
	ldr	x21, [sp, #64]
	add	sp, sp, #96
	ret
.LBB1_11:
	mov	x20, x0
	ldrh	w9, [x10, w11, uxtw #1]
	cmp	x8, #4
	ldr	x21, [x20, #64]!
	strh	w9, [x12, #36]
	b.ne	.LBB1_13
	mov	x19, xzr
	b	.LBB1_10
.LBB1_13:
	mov	w10, #4
	add	x9, x8, #36
	sub	x19, x10, x8
	b	.LBB1_9
.Lfunc_end1:
	.size	"sq_digits::decimal::push_longest::<=63>", .Lfunc_end1-"sq_digits::decimal::push_longest::<=63>"

	.section	".text.squitter_c::texts::push_named","ax",@progbits
	.p2align	2
	.type	"squitter_c::texts::push_named",@function
"squitter_c::texts::push_named":
	ldrb	w10, [x1]
	adrp	x8, ".Lswitch.table.sq_text::faults::push_fault::<=512>"
	add	x8, x8, :lo12:".Lswitch.table.sq_text::faults::push_fault::<=512>"
	ldr	x9, [x0, #64]
	adrp	x11, ".Lswitch.table.sq_text::faults::push_fault::<=512>.358"
	add	x11, x11, :lo12:".Lswitch.table.sq_text::faults::push_fault::<=512>.358"
	ldr	x8, [x8, x10, lsl #3]
	ldr	x10, [x11, x10, lsl #3]
	mov	x12, x9
	mov	x11, x8
.LBB2_1:
	ldrb	w13, [x10], #1
	subs	x11, x11, #1
	strb	w13, [x0, x12]
	add	x12, x12, #1
	b.ne	.LBB2_1
	mov	w10, #51711
	add	x8, x9, x8
	movk	w10, #15258, lsl #16
	str	x8, [x0, #64]
	cmp	x2, x10
	b.hi	.LBB2_6
	mov	w9, #16959
	movk	w9, #15, lsl #16
	cmp	x2, x9
	b.hi	.LBB2_7
	cmp	x2, #999
	b.hi	.LBB2_8
	cmp	x2, #100
	adrp	x10, .Lstatic.22
	add	x10, x10, :lo12:.Lstatic.22
	cset	w9, lo
	cmp	x2, #10
	add	x10, x10, x2, lsl #2
	cinc	x9, x9, lo
	ldr	w10, [x10, x9]
	eor	x9, x9, #0x3
	str	w10, [x0, x8]
	add	x8, x8, x9
	str	x8, [x0, #64]
	ret
.LBB2_6:
	mov	x1, x2
	b	"sq_digits::decimal::push_long::<=63>"
.LBB2_7:
	mov	w9, #19923
	mov	w10, #56963
	mov	w11, #37749
	movk	w9, #4194, lsl #16
	movk	w10, #17179, lsl #16
	movk	w11, #1048, lsl #16
	mul	x9, x2, x9
	mov	w12, #57600
	mov	w13, #38528
	movk	w12, #1525, lsl #16
	movk	w13, #152, lsl #16
	mov	w14, #1000
	mul	x10, x2, x10
	cmp	x2, x12
	cset	w12, lo
	cmp	x2, x13
	adrp	x13, .Lstatic.22
	add	x13, x13, :lo12:.Lstatic.22
	cinc	x12, x12, lo
	lsr	x9, x9, #38
	umull	x11, w9, w11
	lsr	x10, x10, #50
	add	x10, x13, x10, lsl #2
	lsr	x11, x11, #36
	ldr	w10, [x10, x12]
	eor	x12, x12, #0x3
	msub	w11, w11, w14, w9
	str	w10, [x0, x8]
	add	x8, x8, x12
	add	x12, x0, x8
	msub	w9, w9, w14, w2
	add	x8, x8, #6
	add	x11, x13, w11, uxtw #2
	ldrh	w10, [x11]
	strh	w10, [x12]
	ldrb	w10, [x11, #2]
	strb	w10, [x12, #2]
	ldr	s0, [x13, w9, uxtw #2]
	stur	s0, [x12, #3]
	str	x8, [x0, #64]
	ret
.LBB2_8:
	mov	w9, #19923
	lsr	x10, x2, #5
	lsr	x11, x2, #4
	movk	w9, #4194, lsl #16
	adrp	x12, .Lstatic.22
	add	x12, x12, :lo12:.Lstatic.22
	mul	x9, x2, x9
	cmp	x10, #3125
	mov	w13, #1000
	cset	w10, lo
	cmp	x11, #625
	cinc	x10, x10, lo
	lsr	x9, x9, #38
	add	x11, x12, x9, lsl #2
	msub	w9, w9, w13, w2
	ldr	w11, [x11, x10]
	eor	x10, x10, #0x3
	str	w11, [x0, x8]
	add	x8, x8, x10
	ldr	s0, [x12, w9, uxtw #2]
	add	x9, x8, #3
	str	s0, [x0, x8]
	str	x9, [x0, #64]
	ret
.Lfunc_end2:
	.size	"squitter_c::texts::push_named", .Lfunc_end2-"squitter_c::texts::push_named"

	.section	".text.unlikely.sq_angle::quotients::divided","ax",@progbits
	.p2align	2
	.type	"sq_angle::quotients::divided",@function
"sq_angle::quotients::divided":
	cmp	x1, #0
	csel	x8, x0, xzr, eq
	cbnz	x1, .LBB3_3
	cbz	x2, .LBB3_5
	udiv	x0, x8, x2
	mov	x1, xzr
	ret
.LBB3_3:
	cbz	x2, .LBB3_5
	stp	x29, x30, [sp, #-16]!
	mov	x3, xzr
	mov	x29, sp
	bl	__udivti3
	ldp	x29, x30, [sp], #16
	ret
.LBB3_5:
	brk	#0x1
.Lfunc_end3:
	.size	"sq_angle::quotients::divided", .Lfunc_end3-"sq_angle::quotients::divided"

	.section	".text.core::slice::words::skip_far::<#52f9edcae2f82f51>","ax",@progbits
	.p2align	2
	.type	"core::slice::words::skip_far::<#52f9edcae2f82f51>",@function
"core::slice::words::skip_far::<#52f9edcae2f82f51>":
	sub	x8, x2, x1
	cmp	x8, #64
	b.lo	.LBB4_4
	ldr	x9, [x0]
.LBB4_2:
	add	x10, x9, x1
	ldp	q0, q1, [x10, #32]
	ldp	q2, q3, [x10]
	orr	v1.16b, v3.16b, v1.16b
	orr	v0.16b, v2.16b, v0.16b
	orr	v0.16b, v0.16b, v1.16b
	ext	v1.16b, v0.16b, v0.16b, #8
	orr	v0.8b, v0.8b, v1.8b
	fmov	x10, d0
	tst	x10, #0x8080808080808080
	b.ne	.LBB4_4
	sub	x8, x8, #64
	add	x1, x1, #64
	cmp	x8, #63
	b.hi	.LBB4_2
.LBB4_4:
	mov	x0, x1
	ret
.Lfunc_end4:
	.size	"core::slice::words::skip_far::<#52f9edcae2f82f51>", .Lfunc_end4-"core::slice::words::skip_far::<#52f9edcae2f82f51>"

	.section	".text.core::slice::words::skip_far::<#d9bf6fcacf29a880>","ax",@progbits
	.p2align	2
	.type	"core::slice::words::skip_far::<#d9bf6fcacf29a880>",@function
"core::slice::words::skip_far::<#d9bf6fcacf29a880>":
	sub	x8, x2, x1
	cmp	x8, #64
	b.lo	.LBB5_4
	ldrb	w9, [x0, #16]
	mov	x10, #72340172838076673
	mul	x9, x9, x10
	dup	v0.2d, x9
	ldr	x9, [x0]
.LBB5_2:
	add	x10, x9, x1
	movi	v1.16b, #127
	mov	x11, #-9187201950435737472
	ldp	q2, q4, [x10, #16]
	ldr	q3, [x10, #48]
	ldr	q5, [x10]
	eor	v3.16b, v0.16b, v3.16b
	eor	v2.16b, v0.16b, v2.16b
	eor	v5.16b, v0.16b, v5.16b
	eor	v4.16b, v0.16b, v4.16b
	and	v7.16b, v3.16b, v1.16b
	and	v6.16b, v2.16b, v1.16b
	and	v16.16b, v4.16b, v1.16b
	and	v17.16b, v5.16b, v1.16b
	add	v6.2d, v6.2d, v1.2d
	add	v17.2d, v17.2d, v1.2d
	add	v16.2d, v16.2d, v1.2d
	add	v1.2d, v7.2d, v1.2d
	orr	v2.16b, v6.16b, v2.16b
	orr	v1.16b, v1.16b, v3.16b
	orr	v3.16b, v16.16b, v4.16b
	orr	v4.16b, v17.16b, v5.16b
	and	v3.16b, v4.16b, v3.16b
	and	v1.16b, v2.16b, v1.16b
	and	v1.16b, v3.16b, v1.16b
	ext	v2.16b, v1.16b, v1.16b, #8
	and	v1.8b, v1.8b, v2.8b
	fmov	x10, d1
	bics	xzr, x11, x10
	b.ne	.LBB5_4
	sub	x8, x8, #64
	add	x1, x1, #64
	cmp	x8, #63
	b.hi	.LBB5_2
.LBB5_4:
	mov	x0, x1
	ret
.Lfunc_end5:
	.size	"core::slice::words::skip_far::<#d9bf6fcacf29a880>", .Lfunc_end5-"core::slice::words::skip_far::<#d9bf6fcacf29a880>"

	.section	".text.sq_cpr::encoding::nearest::<17'sq_cpr::span::Air,21'sq_cpr::span::AirSpan{}>","ax",@progbits
	.p2align	2
	.type	"sq_cpr::encoding::nearest::<17'sq_cpr::span::Air,21'sq_cpr::span::AirSpan{}>",@function
"sq_cpr::encoding::nearest::<17'sq_cpr::span::Air,21'sq_cpr::span::AirSpan{}>":
	stp	x29, x30, [sp, #-64]!
	ldp	x11, x8, [x1]
	mov	w9, #60
	sub	w12, w9, w2
	str	x23, [sp, #16]
	mov	w10, #360
	and	x23, x12, #0xff
	stp	x22, x21, [sp, #32]
	mov	x22, x1
	mul	x9, x8, x10
	stp	x20, x19, [sp, #48]
	mov	w19, w2
	mov	x20, x0
	mov	x29, sp
	mul	x8, x23, x11
	smulh	x10, x23, x11
	mov	x11, #-9223372036854775808
	lsr	x12, x9, #62
	lsl	x2, x9, #1
	extr	x10, x10, x8, #46
	adds	x8, x9, x8, lsl #18
	cinc	x1, x10, hs
	cmn	x8, x11
	cinc	x10, x1, hs
	cmp	x12, #0
	ccmp	x10, #0, #0, eq
	b.eq	.LBB6_4
	lsr	x3, x9, #63
	tbnz	x1, #63, .LBB6_7
	cbz	x9, .LBB6_30
	mov	x0, x8
	bl	__udivti3
	mov	x21, x0
	b	.LBB6_11
.LBB6_4:
	tbnz	x8, #63, .LBB6_9
	cbz	x9, .LBB6_30
	udiv	x21, x8, x2
	b	.LBB6_11
.LBB6_7:
	cbz	x9, .LBB6_30
	mvn	x0, x8
	mvn	x1, x1
	bl	__udivti3
	mvn	x21, x0
	b	.LBB6_11
.LBB6_9:
	cbz	x9, .LBB6_30
	mvn	x8, x8
	udiv	x8, x8, x2
	mvn	x21, x8
.LBB6_11:
	mov	w8, #360
	mov	w9, #47185920
	mov	w10, #11796480
	smull	x8, w21, w8
	umull	x9, w23, w9
	umull	x10, w23, w10
	cmp	x8, #0
	cneg	x8, x8, mi
	cmp	x9, x8
	ccmp	x8, x10, #2, hs
	b.hi	.LBB6_30
	mov	w9, #57600
	mov	w11, #58
	mov	w12, #360
	movk	w9, #1525, lsl #16
	mul	x8, x8, x9
	adrp	x9, .Lstatic.40
	add	x9, x9, :lo12:.Lstatic.40
	ldr	x9, [x9, x23, lsl #3]
	add	x8, x8, x23, lsl #17
	sub	x8, x8, #1
	lsr	x8, x8, #17
	mul	x10, x9, x8
	umulh	x8, x9, x8
	extr	x8, x8, x10, #48
	adrp	x10, .Lstatic.41
	add	x10, x10, :lo12:.Lstatic.41
	lsr	x9, x8, #25
	ldrb	w9, [x10, x9]
	adrp	x10, .Lstatic.42
	add	x10, x10, :lo12:.Lstatic.42
	ldr	x10, [x10, x9, lsl #3]
	cmp	x10, x8
	add	w8, w9, w19
	cinc	w9, w11, hs
	ldp	x11, x10, [x22, #16]
	sub	w9, w9, w8
	tst	w9, #0xfe
	mul	x8, x10, x12
	and	w10, w9, #0xff
	csinc	w22, w10, wzr, ne
	mul	x9, x22, x11
	smulh	x10, x22, x11
	lsr	x11, x8, #62
	lsl	x2, x8, #1
	adds	x0, x8, x9, lsl #18
	extr	x10, x10, x9, #46
	mov	x9, #-9223372036854775808
	cinc	x1, x10, hs
	cmn	x0, x9
	cinc	x9, x1, hs
	cbnz	x11, .LBB6_17
	cbnz	x9, .LBB6_17
	tbnz	x0, #63, .LBB6_22
	cbz	x8, .LBB6_30
	udiv	x0, x0, x2
	lsl	x9, x22, #17
	and	x8, x9, x0, asr #63
	adds	x8, x8, x0
	b.pl	.LBB6_24
	b	.LBB6_25
.LBB6_17:
	lsr	x3, x8, #63
	tbnz	x1, #63, .LBB6_20
	cbz	x8, .LBB6_30
	bl	__udivti3
	lsl	x9, x22, #17
	and	x8, x9, x0, asr #63
	adds	x8, x8, x0
	b.pl	.LBB6_24
	b	.LBB6_25
.LBB6_20:
	cbz	x8, .LBB6_30
	mvn	x0, x0
	mvn	x1, x1
	bl	__udivti3
	mvn	x0, x0
	lsl	x9, x22, #17
	and	x8, x9, x0, asr #63
	adds	x8, x8, x0
	b.pl	.LBB6_24
	b	.LBB6_25
.LBB6_22:
	cbz	x8, .LBB6_30
	mvn	x8, x0
	udiv	x8, x8, x2
	mvn	x0, x8
	lsl	x9, x22, #17
	and	x8, x9, x0, asr #63
	adds	x8, x8, x0
	b.mi	.LBB6_25
.LBB6_24:
	cmp	x8, x9
	b.lt	.LBB6_27
.LBB6_25:
	tbnz	x0, #63, .LBB6_29
	udiv	x8, x0, x9
	msub	x8, x8, x9, x0
.LBB6_27:
	cmp	x9, w8, uxtw
	b.ls	.LBB6_30
.LBB6_28:
	strb	w19, [x20]
	ldr	x23, [sp, #16]
	sturh	wzr, [x20, #1]
	strb	wzr, [x20, #3]
	str	w21, [x20, #4]
	strb	w22, [x20, #8]
	ldp	x22, x21, [sp, #32]
	sturh	wzr, [x20, #9]
	strb	wzr, [x20, #11]
	str	w8, [x20, #12]
	ldp	x20, x19, [sp, #48]
	ldp	x29, x30, [sp], #64
	ret
.LBB6_29:
	mvn	x8, x0
	udiv	x10, x8, x9
	msub	x8, x10, x9, x8
	mvn	x8, x8
	add	x8, x9, x8
	cmp	x9, w8, uxtw
	b.hi	.LBB6_28
.LBB6_30:
	brk	#0x1
.Lfunc_end6:
	.size	"sq_cpr::encoding::nearest::<17'sq_cpr::span::Air,21'sq_cpr::span::AirSpan{}>", .Lfunc_end6-"sq_cpr::encoding::nearest::<17'sq_cpr::span::Air,21'sq_cpr::span::AirSpan{}>"

	.section	".text.sq_zones::zones::zone_count","ax",@progbits
	.p2align	2
	.type	"sq_zones::zones::zone_count",@function
"sq_zones::zones::zone_count":
	mov	w8, #57600
	cmp	x0, #0
	mov	x2, x1
	movk	w8, #1525, lsl #16
	cneg	x9, x0, mi
	mul	x10, x9, x8
	umulh	x8, x9, x8
	sub	x9, x1, #1
	adds	x0, x10, x9
	cinc	x1, x8, hs
	tst	x2, #0xffffffffff01ffff
	b.ne	.LBB7_4
	extr	x8, x1, x0, #56
	cbnz	x8, .LBB7_4
	lsr	x8, x2, #14
	adrp	x10, .Lstatic.40
	add	x10, x10, :lo12:.Lstatic.40
	lsr	x9, x0, #17
	ldr	x8, [x10, x8]
	mul	x10, x8, x9
	umulh	x8, x8, x9
	extr	x0, x8, x10, #48
.LBB7_3:
	lsr	x8, x0, #25
	adrp	x9, .Lstatic.41
	add	x9, x9, :lo12:.Lstatic.41
	ldrb	w8, [x9, x8]
	adrp	x9, .Lstatic.42
	add	x9, x9, :lo12:.Lstatic.42
	ldr	x9, [x9, x8, lsl #3]
	cmp	x0, x9
	cset	w9, ls
	sub	w8, w9, w8
	add	w0, w8, #58
	ret
.LBB7_4:
	stp	x29, x30, [sp, #-16]!
	mov	x29, sp
	bl	"sq_angle::quotients::divided"
	ldp	x29, x30, [sp], #16
	b	.LBB7_3
.Lfunc_end7:
	.size	"sq_zones::zones::zone_count", .Lfunc_end7-"sq_zones::zones::zone_count"

	.section	".text.sq_cpr::index::on_circle","ax",@progbits
	.p2align	2
	.type	"sq_cpr::index::on_circle",@function
"sq_cpr::index::on_circle":
	and	x8, x1, #0xff
	umull	x8, w8, w2
	lsl	x9, x8, #17
	and	x8, x9, x0, asr #63
	adds	x8, x8, x0
	b.mi	.LBB8_3
	cmp	x8, x9
	b.ge	.LBB8_3
	mov	w0, w8
	ret
.LBB8_3:
	tst	w1, #0xff
	tbnz	x0, #63, .LBB8_6
	b.eq	.LBB8_8
	udiv	x8, x0, x9
	msub	x8, x8, x9, x0
	mov	w0, w8
	ret
.LBB8_6:
	b.eq	.LBB8_8
	mvn	x8, x0
	udiv	x10, x8, x9
	msub	x8, x10, x9, x8
	mvn	x8, x8
	add	x8, x9, x8
	mov	w0, w8
	ret
.LBB8_8:
	brk	#0x1
.Lfunc_end8:
	.size	"sq_cpr::index::on_circle", .Lfunc_end8-"sq_cpr::index::on_circle"

	.section	".text.sq_message::write::write_frame","ax",@progbits
	.p2align	2
	.type	"sq_message::write::write_frame",@function
"sq_message::write::write_frame":
	ldrb	w8, [x1, #8]
	ldrb	w9, [x1]
	ldr	w10, [x1, #4]
	cmp	w8, #2
	b.eq	.LBB9_3
	cmp	w8, #1
	b.ne	.LBB9_4
	ldrb	w8, [x1, #25]
	ldrb	w11, [x1, #24]
	ldrb	w12, [x1, #26]
	ldrb	w13, [x1, #27]
	lsl	w8, w8, #9
	add	w8, w8, w11, lsl #16
	ldp	w11, w14, [x1, #16]
	orr	w8, w8, w12, lsl #8
	ldrb	w12, [x1, #12]
	lsl	x11, x11, #17
	add	w8, w8, w13, lsl #1
	add	x11, x11, x12, lsl #34
	ldrb	w12, [x1, #28]
	b	.LBB9_5
.LBB9_3:
	ldr	x8, [x1, #16]
	b	.LBB9_6
.LBB9_4:
	ldrb	w8, [x1, #25]
	ldrb	w11, [x1, #24]
	ldrb	w12, [x1, #26]
	ldrh	w13, [x1, #28]
	lsl	w8, w8, #14
	add	w8, w8, w11, lsl #16
	ldp	w11, w14, [x1, #16]
	orr	w8, w8, w12, lsl #13
	ldrb	w12, [x1, #12]
	lsl	x11, x11, #17
	add	w8, w8, w13, lsl #1
	add	x11, x11, x12, lsl #34
	ldrb	w12, [x1, #30]
.LBB9_5:
	orr	w8, w8, w12
	add	x11, x11, x14
	add	x8, x11, x8, lsl #35
.LBB9_6:
	add	w9, w10, w9, lsl #24
	mov	w10, #-2013265920
	lsr	x11, x8, #40
	adrp	x12, .Lstatic.45
	add	x12, x12, :lo12:.Lstatic.45
	add	w9, w9, w10
	adrp	x10, .Lstatic.43
	add	x10, x10, :lo12:.Lstatic.43
	add	x9, x11, x9, lsl #16
	adrp	x11, .Lstatic.44
	add	x11, x11, :lo12:.Lstatic.44
	lsr	x13, x9, #46
	lsr	x14, x9, #38
	lsr	x15, x9, #30
	lsr	x16, x9, #8
	and	x13, x13, #0x4
	and	x14, x14, #0x3fc
	and	x15, x15, #0x3fc
	ldr	w13, [x10, x13]
	ldr	w14, [x11, x14]
	ldr	w15, [x12, x15]
	eor	w13, w14, w13
	eor	w14, w15, w16
	lsr	x16, x8, #24
	eor	w13, w13, w14
	lsr	w14, w13, #14
	lsr	w15, w13, #6
	ubfiz	x13, x13, #2, #8
	and	x14, x14, #0x3fc
	and	x15, x15, #0x3fc
	ldr	w13, [x12, x13]
	ldr	w14, [x10, x14]
	ldr	w15, [x11, x15]
	eor	w14, w14, w16
	eor	w13, w15, w13
	eor	w13, w14, w13
	lsr	w14, w13, #14
	lsr	w15, w13, #6
	ubfiz	x13, x13, #2, #8
	and	x14, x14, #0x3fc
	and	x15, x15, #0x3fc
	ldr	w13, [x12, x13]
	ldr	w14, [x10, x14]
	ldr	w15, [x11, x15]
	eor	w14, w14, w8
	eor	w13, w15, w13
	lsl	x8, x8, #24
	eor	w13, w14, w13
	lsr	w14, w13, #14
	lsr	w15, w13, #6
	ubfiz	x13, x13, #2, #8
	extr	x9, x9, x8, #48
	and	x14, x14, #0x3fc
	and	x15, x15, #0x3fc
	ldr	w12, [x12, x13]
	ldr	w10, [x10, x14]
	ldr	w11, [x11, x15]
	rev	x9, x9
	str	x9, [x0]
	eor	w10, w11, w10
	eor	w10, w10, w12
	eor	x8, x8, x10
	rev	w10, w10
	lsr	x8, x8, #16
	lsr	w11, w10, #16
	lsr	w9, w10, #24
	rev	w8, w8
	strb	w11, [x0, #12]
	str	w8, [x0, #8]
	strb	w9, [x0, #13]
	ret
.Lfunc_end9:
	.size	"sq_message::write::write_frame", .Lfunc_end9-"sq_message::write::write_frame"

	.section	".text.squitter_c::send::give","ax",@progbits
	.p2align	2
	.type	"squitter_c::send::give",@function
"squitter_c::send::give":
	ldrb	w8, [x1]
	ldrb	w15, [x1, #8]
	ldrb	w11, [x1, #9]
	ldrb	w12, [x1, #10]
	ldrb	w13, [x1, #11]
	cbz	w8, .LBB10_4
	ldp	x16, x14, [x1, #16]
	adrp	x17, .LJTI10_0
	add	x17, x17, :lo12:.LJTI10_0
	mov	w10, #20
	mov	x9, xzr
	adr	x18, .LBB10_2
	ldrb	w1, [x17, x15]
	add	x18, x18, x1, lsl #2
	mov	w8, wzr
	br	x18
.LBB10_2:
	and	x11, x16, #0xff
	adrp	x12, .LJTI10_1
	add	x12, x12, :lo12:.LJTI10_1
	adr	x13, .LBB10_3
	ldrb	w15, [x12, x11]
	add	x13, x13, x15, lsl #2
	mov	w10, #1
	mov	x9, xzr
	mov	w8, wzr
	br	x13
.LBB10_3:
	mov	w10, #40
	stp	w10, wzr, [x0]
	str	xzr, [x0, #8]
	ret
.LBB10_4:
	sub	sp, sp, #16
	ldur	w14, [x1, #1]
	ldrh	w16, [x1, #12]
	mov	w10, wzr
	ldurh	w17, [x1, #5]
	ldrb	w18, [x1, #14]
	mov	x9, xzr
	ldrb	w1, [x1, #7]
	str	w14, [x2]
	strh	w17, [x2, #4]
	strb	w1, [x2, #6]
	strh	w16, [sp, #12]
	strb	w18, [sp, #14]
	strb	w15, [x2, #7]
	strb	w11, [x2, #8]
	strb	w12, [x2, #9]
	strb	w13, [x2, #10]
	strb	w18, [x2, #13]
	sturh	w16, [x2, #11]
	add	sp, sp, #16
.LBB10_5:
	stp	w10, w8, [x0]
	str	x9, [x0, #8]
	ret
.LBB10_6:
	mov	w10, #50
	stp	w10, wzr, [x0]
	str	x16, [x0, #8]
	ret
.LBB10_7:
	mov	w10, #46
	stp	w10, wzr, [x0]
	str	xzr, [x0, #8]
	ret
.LBB10_8:
	mov	w10, #21
	stp	w10, wzr, [x0]
	str	xzr, [x0, #8]
	ret
.LBB10_9:
	mov	w10, #48
	stp	w10, wzr, [x0]
	str	xzr, [x0, #8]
	ret
.LBB10_10:
	mov	w10, #44
	stp	w10, wzr, [x0]
	str	xzr, [x0, #8]
	ret
.LBB10_11:
	cmp	w11, #2
	b.le	.LBB10_22
	cmp	w11, #4
	b.gt	.LBB10_25
	cmp	w11, #3
	b.ne	.LBB10_29
	mov	w10, #13
	stp	w10, wzr, [x0]
	str	xzr, [x0, #8]
	ret
.LBB10_15:
	add	w10, w11, #30
	stp	w10, wzr, [x0]
	str	xzr, [x0, #8]
	ret
.LBB10_16:
	mov	w10, #24
	stp	w10, wzr, [x0]
	str	xzr, [x0, #8]
	ret
.LBB10_17:
	mov	w10, #22
	stp	w10, wzr, [x0]
	str	xzr, [x0, #8]
	ret
.LBB10_18:
	mov	w10, #49
	stp	w10, wzr, [x0]
	str	xzr, [x0, #8]
	ret
.LBB10_19:
	mov	w10, #23
	stp	w10, wzr, [x0]
	str	xzr, [x0, #8]
	ret
.LBB10_20:
	mov	w10, #45
	stp	w10, wzr, [x0]
	str	xzr, [x0, #8]
	ret
.LBB10_21:
	mov	w10, #25
	stp	w10, wzr, [x0]
	str	xzr, [x0, #8]
	ret
.LBB10_22:
	cbz	w11, .LBB10_27
	cmp	w11, #1
	b.ne	.LBB10_28
	mov	w10, #11
	stp	w10, wzr, [x0]
	str	xzr, [x0, #8]
	ret
.LBB10_25:
	cmp	w11, #5
	b.ne	.LBB10_30
	mov	w10, #15
	stp	w10, wzr, [x0]
	str	xzr, [x0, #8]
	ret
.LBB10_27:
	mov	w10, #10
	stp	w10, w11, [x0]
	str	x11, [x0, #8]
	ret
.LBB10_28:
	mov	w10, #12
	stp	w10, wzr, [x0]
	str	xzr, [x0, #8]
	ret
.LBB10_29:
	mov	w10, #14
	stp	w10, wzr, [x0]
	str	xzr, [x0, #8]
	ret
.LBB10_30:
	mov	w10, #16
	stp	w10, w13, [x0]
	str	x12, [x0, #8]
	ret
.LBB10_31:
	mov	w10, #3
	stp	w10, wzr, [x0]
	str	x14, [x0, #8]
	ret
.LBB10_32:
	mov	w10, #43
	stp	w10, wzr, [x0]
	str	xzr, [x0, #8]
	ret
.LBB10_33:
	mov	w10, #41
	stp	w10, wzr, [x0]
	str	xzr, [x0, #8]
	ret
.LBB10_34:
	mov	w10, #2
	stp	w10, wzr, [x0]
	str	xzr, [x0, #8]
	ret
.LBB10_35:
	lsr	x9, x16, #32
	mov	w10, #6
	stp	w10, wzr, [x0]
	str	x9, [x0, #8]
	ret
.LBB10_36:
	mov	w10, #4
	stp	w10, wzr, [x0]
	str	x14, [x0, #8]
	ret
.LBB10_37:
	ubfx	x9, x16, #8, #8
	mov	w10, #5
	stp	w10, wzr, [x0]
	str	x9, [x0, #8]
	ret
.LBB10_38:
	mov	w10, #42
	stp	w10, wzr, [x0]
	str	x14, [x0, #8]
	ret
.Lfunc_end10:
	.size	"squitter_c::send::give", .Lfunc_end10-"squitter_c::send::give"
	.section	".rodata.squitter_c::send::give","a",@progbits
.LJTI10_0:
	.byte	(.LBB10_2-.LBB10_2)>>2
	.byte	(.LBB10_11-.LBB10_2)>>2
	.byte	(.LBB10_15-.LBB10_2)>>2
	.byte	(.LBB10_5-.LBB10_2)>>2
	.byte	(.LBB10_8-.LBB10_2)>>2
	.byte	(.LBB10_17-.LBB10_2)>>2
	.byte	(.LBB10_19-.LBB10_2)>>2
	.byte	(.LBB10_16-.LBB10_2)>>2
	.byte	(.LBB10_21-.LBB10_2)>>2
	.byte	(.LBB10_10-.LBB10_2)>>2
	.byte	(.LBB10_20-.LBB10_2)>>2
	.byte	(.LBB10_7-.LBB10_2)>>2
	.byte	(.LBB10_9-.LBB10_2)>>2
	.byte	(.LBB10_18-.LBB10_2)>>2
	.byte	(.LBB10_6-.LBB10_2)>>2
.LJTI10_1:
	.byte	(.LBB10_3-.LBB10_3)>>2
	.byte	(.LBB10_33-.LBB10_3)>>2
	.byte	(.LBB10_5-.LBB10_3)>>2
	.byte	(.LBB10_34-.LBB10_3)>>2
	.byte	(.LBB10_31-.LBB10_3)>>2
	.byte	(.LBB10_36-.LBB10_3)>>2
	.byte	(.LBB10_37-.LBB10_3)>>2
	.byte	(.LBB10_35-.LBB10_3)>>2
	.byte	(.LBB10_38-.LBB10_3)>>2
	.byte	(.LBB10_32-.LBB10_3)>>2

	.section	".text.sq_cpr::encoding::nearest::<#9b749bce0116a0b1>","ax",@progbits
	.p2align	2
	.type	"sq_cpr::encoding::nearest::<#9b749bce0116a0b1>",@function
"sq_cpr::encoding::nearest::<#9b749bce0116a0b1>":
	stp	x29, x30, [sp, #-64]!
	ldp	x11, x8, [x1]
	mov	w9, #60
	sub	w12, w9, w2
	str	x23, [sp, #16]
	mov	w10, #90
	and	x23, x12, #0xff
	stp	x22, x21, [sp, #32]
	mov	x22, x1
	mul	x9, x8, x10
	stp	x20, x19, [sp, #48]
	mov	w19, w2
	mov	x20, x0
	mov	x29, sp
	mul	x8, x23, x11
	smulh	x10, x23, x11
	mov	x11, #-9223372036854775808
	lsr	x12, x9, #62
	lsl	x2, x9, #1
	extr	x10, x10, x8, #46
	adds	x8, x9, x8, lsl #18
	cinc	x1, x10, hs
	cmn	x8, x11
	cinc	x10, x1, hs
	cmp	x12, #0
	ccmp	x10, #0, #0, eq
	b.eq	.LBB11_4
	lsr	x3, x9, #63
	tbnz	x1, #63, .LBB11_7
	cbz	x9, .LBB11_30
	mov	x0, x8
	bl	__udivti3
	mov	x21, x0
	b	.LBB11_11
.LBB11_4:
	tbnz	x8, #63, .LBB11_9
	cbz	x9, .LBB11_30
	udiv	x21, x8, x2
	b	.LBB11_11
.LBB11_7:
	cbz	x9, .LBB11_30
	mvn	x0, x8
	mvn	x1, x1
	bl	__udivti3
	mvn	x21, x0
	b	.LBB11_11
.LBB11_9:
	cbz	x9, .LBB11_30
	mvn	x8, x8
	udiv	x8, x8, x2
	mvn	x21, x8
.LBB11_11:
	mov	w8, #90
	mov	w9, #47185920
	mov	w10, #11796480
	smull	x8, w21, w8
	umull	x9, w23, w9
	umull	x10, w23, w10
	cmp	x8, #0
	cneg	x8, x8, mi
	cmp	x9, x8
	ccmp	x8, x10, #2, hs
	b.hi	.LBB11_30
	mov	w9, #57600
	mov	w11, #58
	mov	w12, #90
	movk	w9, #1525, lsl #16
	mul	x8, x8, x9
	adrp	x9, .Lstatic.40
	add	x9, x9, :lo12:.Lstatic.40
	ldr	x9, [x9, x23, lsl #3]
	add	x8, x8, x23, lsl #17
	sub	x8, x8, #1
	lsr	x8, x8, #17
	mul	x10, x9, x8
	umulh	x8, x9, x8
	extr	x8, x8, x10, #48
	adrp	x10, .Lstatic.41
	add	x10, x10, :lo12:.Lstatic.41
	lsr	x9, x8, #25
	ldrb	w9, [x10, x9]
	adrp	x10, .Lstatic.42
	add	x10, x10, :lo12:.Lstatic.42
	ldr	x10, [x10, x9, lsl #3]
	cmp	x10, x8
	add	w8, w9, w19
	cinc	w9, w11, hs
	ldp	x11, x10, [x22, #16]
	sub	w9, w9, w8
	tst	w9, #0xfe
	mul	x8, x10, x12
	and	w10, w9, #0xff
	csinc	w22, w10, wzr, ne
	mul	x9, x22, x11
	smulh	x10, x22, x11
	lsr	x11, x8, #62
	lsl	x2, x8, #1
	adds	x0, x8, x9, lsl #18
	extr	x10, x10, x9, #46
	mov	x9, #-9223372036854775808
	cinc	x1, x10, hs
	cmn	x0, x9
	cinc	x9, x1, hs
	cbnz	x11, .LBB11_17
	cbnz	x9, .LBB11_17
	tbnz	x0, #63, .LBB11_22
	cbz	x8, .LBB11_30
	udiv	x0, x0, x2
	lsl	x9, x22, #19
	and	x8, x9, x0, asr #63
	adds	x8, x8, x0
	b.pl	.LBB11_24
	b	.LBB11_25
.LBB11_17:
	lsr	x3, x8, #63
	tbnz	x1, #63, .LBB11_20
	cbz	x8, .LBB11_30
	bl	__udivti3
	lsl	x9, x22, #19
	and	x8, x9, x0, asr #63
	adds	x8, x8, x0
	b.pl	.LBB11_24
	b	.LBB11_25
.LBB11_20:
	cbz	x8, .LBB11_30
	mvn	x0, x0
	mvn	x1, x1
	bl	__udivti3
	mvn	x0, x0
	lsl	x9, x22, #19
	and	x8, x9, x0, asr #63
	adds	x8, x8, x0
	b.pl	.LBB11_24
	b	.LBB11_25
.LBB11_22:
	cbz	x8, .LBB11_30
	mvn	x8, x0
	udiv	x8, x8, x2
	mvn	x0, x8
	lsl	x9, x22, #19
	and	x8, x9, x0, asr #63
	adds	x8, x8, x0
	b.mi	.LBB11_25
.LBB11_24:
	cmp	x8, x9
	b.lt	.LBB11_27
.LBB11_25:
	tbnz	x0, #63, .LBB11_29
	udiv	x8, x0, x9
	msub	x8, x8, x9, x0
.LBB11_27:
	cmp	x9, w8, uxtw
	b.ls	.LBB11_30
.LBB11_28:
	strb	w19, [x20]
	ldr	x23, [sp, #16]
	sturh	wzr, [x20, #1]
	strb	wzr, [x20, #3]
	str	w21, [x20, #4]
	strb	w22, [x20, #8]
	ldp	x22, x21, [sp, #32]
	sturh	wzr, [x20, #9]
	strb	wzr, [x20, #11]
	str	w8, [x20, #12]
	ldp	x20, x19, [sp, #48]
	ldp	x29, x30, [sp], #64
	ret
.LBB11_29:
	mvn	x8, x0
	udiv	x10, x8, x9
	msub	x8, x10, x9, x8
	mvn	x8, x8
	add	x8, x9, x8
	cmp	x9, w8, uxtw
	b.hi	.LBB11_28
.LBB11_30:
	brk	#0x1
.Lfunc_end11:
	.size	"sq_cpr::encoding::nearest::<#9b749bce0116a0b1>", .Lfunc_end11-"sq_cpr::encoding::nearest::<#9b749bce0116a0b1>"

	.section	".text.sq_feed::avr::Avr::item_of","ax",@progbits
	.p2align	2
	.type	"sq_feed::avr::Avr::item_of",@function
"sq_feed::avr::Avr::item_of":
	sub	sp, sp, #160
	ldrb	w8, [x1, #64]
	str	wzr, [sp, #56]
	str	xzr, [sp, #48]
	cmp	w8, #1
	str	xzr, [sp]
	str	wzr, [sp, #8]
	b.ne	.LBB12_2
	stp	xzr, xzr, [x0, #16]
	strh	w8, [x0]
	str	xzr, [x0, #8]
	stur	xzr, [x0, #31]
	add	sp, sp, #160
	ret
.LBB12_2:
	and	x8, x2, #0xff
	adrp	x9, ".Lswitch.table.sq_feed::reader::Reader::find"
	add	x9, x9, :lo12:".Lswitch.table.sq_feed::reader::Reader::find"
	ldr	x8, [x9, x8, lsl #3]
	ldr	x10, [x1, #56]
	add	x9, x8, #4
	cmp	x10, x9
	b.ne	.LBB12_4
	mov	w8, wzr
	b	.LBB12_8
.LBB12_4:
	add	x9, x8, #14
	cmp	x10, x9
	b.ne	.LBB12_6
	mov	w8, #1
	b	.LBB12_8
.LBB12_6:
	add	x8, x8, #28
	cmp	x10, x8
	b.ne	.LBB12_29
	mov	w8, #2
.LBB12_8:
	add	x11, sp, #64
	lsr	x10, x10, #1
	mov	x9, xzr
	orr	x12, x11, #0x7
	orr	x11, x11, #0x6
	add	x13, x1, #9
	stp	xzr, xzr, [sp, #104]
	str	xzr, [sp, #120]
.LBB12_9:
	ldurb	w14, [x13, #-1]
	ldrb	w16, [x13], #2
	mov	w15, #9
	mov	w17, #-87
	mov	w18, #-55
	cmp	w14, #58
	csel	w15, wzr, w15, lo
	cmp	w16, #71
	csel	w17, w18, w17, lo
	cmp	w16, #58
	mov	w18, #-48
	csel	w17, w18, w17, lo
	add	w14, w15, w14
	add	w15, w17, w16
	add	w14, w15, w14, lsl #4
	add	x15, sp, #104
	strb	w14, [x15, x9]
	add	x9, x9, #1
	cmp	x10, x9
	str	x9, [sp, #128]
	b.ne	.LBB12_9
	ldur	q0, [sp, #120]
	ldur	q1, [sp, #104]
	ands	w9, w2, #0xff
	stp	q1, q0, [sp, #16]
	stp	q1, q0, [sp, #64]
	ldr	x13, [sp, #88]
	b.eq	.LBB12_13
	cmp	w9, #2
	b.ne	.LBB12_17
	ldrb	w9, [sp, #64]
	ldrb	w10, [sp, #65]
	mov	x14, #-7
	ldur	w11, [sp, #66]
	lsl	x9, x9, #16
	orr	x9, x9, x10, lsl #24
	mov	w10, #1
	orr	x9, x9, x11, lsl #32
	mov	x11, x12
	rev	x9, x9
	cmp	w8, #2
	add	x12, x14, x13
	str	wzr, [sp, #112]
	str	xzr, [sp, #104]
	b.ne	.LBB12_14
	b	.LBB12_18
.LBB12_13:
	and	x9, x2, #0xff
	add	x11, sp, #64
	mov	x10, x9
	cmp	w8, #2
	add	x12, x9, x13
	str	wzr, [sp, #112]
	str	xzr, [sp, #104]
	b.eq	.LBB12_18
.LBB12_14:
	cmp	w8, #1
	b.ne	.LBB12_20
	cmp	x12, #7
	b.ne	.LBB12_22
	ldur	w12, [x11, #2]
	ldrb	w13, [x11, #6]
	ldrh	w11, [x11]
	str	w12, [sp, #136]
	strb	w13, [sp, #140]
	b	.LBB12_23
.LBB12_17:
	ldrb	w9, [sp, #64]
	ldrb	w10, [sp, #65]
	mov	x14, #-6
	ldur	w12, [sp, #66]
	lsl	x9, x9, #16
	orr	x9, x9, x10, lsl #24
	mov	w10, #1
	orr	x9, x9, x12, lsl #32
	rev	x9, x9
	cmp	w8, #2
	add	x12, x14, x13
	str	wzr, [sp, #112]
	str	xzr, [sp, #104]
	b.ne	.LBB12_14
.LBB12_18:
	cmp	x12, #14
	b.ne	.LBB12_24
	ldur	x12, [x11, #2]
	ldur	w13, [x11, #10]
	ldrh	w11, [x11]
	str	x12, [sp, #144]
	str	w13, [sp, #152]
	b	.LBB12_25
.LBB12_20:
	cmp	x12, #2
	b.ne	.LBB12_26
	ldrh	w11, [x11]
	b	.LBB12_27
.LBB12_22:
	mov	w11, wzr
	strb	wzr, [sp, #140]
	str	wzr, [sp, #136]
.LBB12_23:
	ldr	w12, [sp, #136]
	ldrb	w13, [sp, #140]
	str	w12, [sp, #104]
	strb	w13, [sp, #108]
	b	.LBB12_27
.LBB12_24:
	mov	w11, wzr
	str	wzr, [sp, #152]
	str	xzr, [sp, #144]
.LBB12_25:
	ldr	x12, [sp, #144]
	ldr	w13, [sp, #152]
	str	x12, [sp, #104]
	str	w13, [sp, #112]
	b	.LBB12_27
.LBB12_26:
	mov	w11, wzr
.LBB12_27:
	ldr	x13, [sp, #104]
	ldr	w14, [sp, #112]
	mov	w12, wzr
	str	x13, [sp]
	str	w14, [sp, #8]
	str	x13, [sp, #48]
	str	w14, [sp, #56]
.LBB12_28:
	stp	x10, x9, [x0, #8]
	ldr	w9, [sp, #56]
	strb	w8, [x0, #24]
	ldr	x8, [sp, #48]
	strb	w12, [x0]
	strb	wzr, [x0, #1]
	sturh	w11, [x0, #25]
	stur	x8, [x0, #27]
	stur	w9, [x0, #35]
	add	sp, sp, #160
	ret
.LBB12_29:
	mov	w11, wzr
	mov	x10, xzr
	mov	x9, xzr
	mov	w8, wzr
	mov	w12, #1
	b	.LBB12_28
.Lfunc_end12:
	.size	"sq_feed::avr::Avr::item_of", .Lfunc_end12-"sq_feed::avr::Avr::item_of"

	.section	".text.sq_feed::ear::Ear::hear","ax",@progbits
	.p2align	2
	.type	"sq_feed::ear::Ear::hear",@function
"sq_feed::ear::Ear::hear":
	ldrb	w8, [x1]
	cmp	w8, #1
	b.gt	.LBB13_9
	cbnz	w8, .LBB13_12
	ldrb	w9, [x1, #24]
	cbz	w9, .LBB13_17
	ldrb	w11, [x0, #169]
	ldrb	w10, [x1, #8]
	mov	x4, x3
	ldr	x8, [x1, #16]
	mov	x3, x2
	cmp	w9, #2
	b.ne	.LBB13_22
	ldrsb	w12, [x1, #25]
	tbz	w12, #31, .LBB13_26
	cmp	w10, #1
	b.ne	.LBB13_7
	mov	x13, #16724
	movk	x13, #19788, lsl #16
	movk	x13, #65280, lsl #32
	cmp	x8, x13
	b.eq	.LBB13_25
.LBB13_7:
	ubfx	w12, w12, #3, #5
	cmp	w12, #17
	csinc	w11, w11, wzr, ne
	tbnz	w11, #0, .LBB13_32
.LBB13_8:
	eor	w8, w11, #0x1
	mov	w9, w12
	ldr	x10, [x0, #176]
	cmn	x10, #1
	b.ne	.LBB13_18
	b	.LBB13_27
.LBB13_9:
	cmp	w8, #2
	b.ne	.LBB13_14
	ldr	x9, [x0, #176]
	cmn	x9, #1
	b.eq	.LBB13_27
	ldr	x10, [x0, #208]
	add	x9, x9, #1
	mov	x1, xzr
	str	x9, [x0, #176]
	add	x9, x10, #1
	str	x9, [x0, #208]
	mov	w0, wzr
	ret
.LBB13_12:
	ldr	x9, [x0, #176]
	cmn	x9, #1
	b.eq	.LBB13_27
	ldr	x10, [x0, #216]
	add	x9, x9, #1
	mov	x1, xzr
	str	x9, [x0, #176]
	add	x9, x10, #1
	str	x9, [x0, #216]
	mov	w0, wzr
	ret
.LBB13_14:
	ldr	x8, [x0, #176]
	mov	x9, x1
	cmn	x8, #1
	b.eq	.LBB13_16
	ldr	x10, [x0, #216]
	add	x8, x8, #1
	str	x8, [x0, #176]
	add	x8, x10, #1
	str	x8, [x0, #216]
.LBB13_16:
	ldrb	w9, [x9, #1]
	mov	w10, #1
	mov	x1, xzr
	strb	w10, [x0, #432]
	strb	w9, [x0, #433]
	mov	w0, wzr
	ret
.LBB13_17:
	mov	w8, #2
	ldr	x10, [x0, #176]
	cmn	x10, #1
	b.eq	.LBB13_27
.LBB13_18:
	add	x10, x10, #1
	cmp	w8, #2
	str	x10, [x0, #176]
	b.gt	.LBB13_28
	cbz	w8, .LBB13_40
	cmp	w8, #1
	b.ne	.LBB13_42
	cmp	w9, #24
	mov	w10, #24
	mov	x1, xzr
	csel	w9, w9, w10, lo
	add	x9, x0, w9, uxtw #3
	mov	w0, wzr
	ldr	x10, [x9, #232]
	add	x10, x10, #1
	str	x10, [x9, #232]
	ret
.LBB13_22:
	ldrsb	w12, [x1, #25]
	tbnz	w12, #31, .LBB13_26
	cmp	w10, #1
	b.ne	.LBB13_31
	mov	x13, #16724
	movk	x13, #19788, lsl #16
	movk	x13, #65280, lsl #32
	cmp	x8, x13
	b.ne	.LBB13_31
.LBB13_25:
	mov	w9, wzr
	mov	w8, #3
	ldr	x10, [x0, #176]
	cmn	x10, #1
	b.ne	.LBB13_18
	b	.LBB13_27
.LBB13_26:
	mov	w9, wzr
	mov	w8, #5
	ldr	x10, [x0, #176]
	cmn	x10, #1
	b.ne	.LBB13_18
.LBB13_27:
	mov	x1, xzr
	mov	w0, wzr
	ret
.LBB13_28:
	cmp	w8, #3
	b.eq	.LBB13_41
	cmp	w8, #4
	b.ne	.LBB13_43
	ldr	x9, [x0, #208]
	mov	x1, xzr
	add	x9, x9, #1
	str	x9, [x0, #208]
	mov	w0, wzr
	ret
.LBB13_31:
	ubfx	w12, w12, #3, #5
	cmp	w11, #0
	csel	w12, wzr, w12, ne
	tbz	w11, #0, .LBB13_8
.LBB13_32:
	sub	sp, sp, #80
	cmp	w10, #2
	stp	x29, x30, [sp, #64]
	add	x29, sp, #64
	b.eq	.LBB13_44
	cmp	w10, #1
	b.ne	.LBB13_36
	cbz	x8, .LBB13_36
	ldrb	w10, [x0, #25]
	cmp	w10, #1
	b.ne	.LBB13_56
.LBB13_36:
	ldr	x8, [x0, #176]
	cmn	x8, #1
	b.eq	.LBB13_38
	ldr	x9, [x0, #184]
	add	x8, x8, #1
	add	x9, x9, #1
	stp	x8, x9, [x0, #176]
.LBB13_38:
	ldrb	w8, [x0, #24]
	ldr	x1, [x0, #48]
	cmp	w8, #1
	b.ne	.LBB13_65
	ldr	x8, [x0, #56]
	subs	x8, x3, x8
	csel	x8, xzr, x8, lo
	adds	x8, x8, x1
	csinv	x1, x8, xzr, lo
	stp	x1, x3, [x0, #48]
	mov	w8, #1
	ldp	x29, x30, [sp, #64]
	add	sp, sp, #80
	mov	w0, w8
	ret
.LBB13_40:
	ldr	x9, [x0, #184]
	mov	x1, xzr
	add	x9, x9, #1
	str	x9, [x0, #184]
	mov	w0, w8
	ret
.LBB13_41:
	ldr	x9, [x0, #200]
	mov	x1, xzr
	add	x9, x9, #1
	str	x9, [x0, #200]
	mov	w0, wzr
	ret
.LBB13_42:
	ldr	x9, [x0, #192]
	mov	x1, xzr
	add	x9, x9, #1
	str	x9, [x0, #192]
	mov	w0, wzr
	ret
.LBB13_43:
	ldr	x9, [x0, #216]
	mov	x1, xzr
	add	x9, x9, #1
	str	x9, [x0, #216]
	mov	w0, wzr
	ret
.LBB13_44:
	ldrb	w10, [x0, #64]
	mov	x11, x1
	str	xzr, [sp, #16]
	cmp	w10, #2
	b.ne	.LBB13_66
	ldrb	w12, [x0, #96]
	cbnz	w12, .LBB13_66
	ldr	x12, [x0, #152]
	adds	x13, x12, x8
	ldr	x12, [x0, #48]
	csinv	x1, x13, xzr, lo
	subs	x13, x12, x1
	b.ls	.LBB13_48
	ldr	x14, [x0, #40]
	mov	w15, #1000
	cmp	x14, #1000
	csel	x14, x14, x15, hi
	b	.LBB13_51
.LBB13_48:
	ldr	x13, [x0, #32]
	sub	x14, x1, x12
	cmp	x14, x13
	b.ls	.LBB13_52
	ldrb	w13, [x0, #24]
	cmp	w13, #1
	b.ne	.LBB13_66
	ldr	x13, [x0, #56]
	ldr	x14, [x0, #32]
	subs	x13, x3, x13
	csel	x13, xzr, x13, lo
	adds	x13, x13, x12
	csinv	x13, x13, xzr, lo
	subs	x13, x1, x13
	cneg	x13, x13, ls
.LBB13_51:
	cmp	x13, x14
	b.hi	.LBB13_66
.LBB13_52:
	ldr	x8, [x0, #176]
	cmn	x8, #1
	b.eq	.LBB13_54
	ldr	x9, [x0, #184]
	add	x8, x8, #1
	add	x9, x9, #1
	stp	x8, x9, [x0, #176]
.LBB13_54:
	cmp	x12, x1
	b.ls	.LBB13_65
	ldr	x8, [x0, #40]
	subs	x8, x12, x8
	csel	x8, xzr, x8, lo
	cmp	x8, x1
	csel	x1, x8, x1, hi
	mov	w8, #1
	ldp	x29, x30, [sp, #64]
	add	sp, sp, #80
	mov	w0, w8
	ret
.LBB13_56:
	ldrb	w11, [x0, #64]
	mov	x10, x1
	cmp	w11, #2
	b.ne	.LBB13_68
	ldrb	w11, [x0, #96]
	cbnz	w11, .LBB13_68
	ldrb	w11, [x0, #16]
	cmp	w11, #1
	b.ne	.LBB13_68
	ldr	x11, [x0]
	sub	x11, x8, x11
	ubfx	x12, x11, #47, #1
	cbnz	x12, .LBB13_68
	ldr	x12, [x0, #8]
	and	x11, x11, #0xffffffffffff
	ldr	x13, [x0, #152]
	adds	x11, x11, x12
	mov	x12, #10661
	movk	x12, #26389, lsl #16
	csinv	x11, x11, xzr, lo
	movk	x12, #15903, lsl #32
	movk	x12, #44739, lsl #48
	umulh	x12, x11, x12
	adds	x12, x13, x12, lsr #13
	ldr	x13, [x0, #48]
	csinv	x1, x12, xzr, lo
	subs	x12, x1, x13
	b.lo	.LBB13_68
	ldr	x13, [x0, #32]
	cmp	x12, x13
	b.hi	.LBB13_68
	ldr	x9, [x0, #176]
	cmn	x9, #1
	b.eq	.LBB13_64
	ldr	x10, [x0, #184]
	add	x9, x9, #1
	add	x10, x10, #1
	stp	x9, x10, [x0, #176]
.LBB13_64:
	and	x8, x8, #0xffffffffffff
	stp	x8, x11, [x0]
.LBB13_65:
	stp	x1, x3, [x0, #48]
	mov	w8, #1
	ldp	x29, x30, [sp, #64]
	add	sp, sp, #80
	mov	w0, w8
	ret
.LBB13_66:
	cmp	w9, #2
	b.ne	.LBB13_70
	ldur	x12, [x11, #27]
	ldur	w13, [x11, #35]
	ldurh	w9, [x11, #25]
	stur	x12, [x29, #-24]
	stur	w13, [x29, #-16]
	b	.LBB13_71
.LBB13_68:
	cmp	w9, #2
	b.ne	.LBB13_74
	ldur	x11, [x10, #27]
	ldur	w12, [x10, #35]
	ldurh	w9, [x10, #25]
	stur	x11, [x29, #-24]
	stur	w12, [x29, #-16]
	b	.LBB13_75
.LBB13_70:
	ldur	w9, [x11, #27]
	ldrb	w12, [x11, #31]
	stur	wzr, [x29, #-4]
	stur	wzr, [x29, #-7]
	stur	w9, [x29, #-12]
	ldurh	w9, [x11, #25]
	sturb	w12, [x29, #-8]
	ldur	w12, [x29, #-4]
	ldur	x13, [x29, #-12]
	stur	w12, [x29, #-16]
	stur	x13, [x29, #-24]
.LBB13_71:
	ldur	x11, [x29, #-24]
	ldur	w12, [x29, #-16]
	str	x11, [sp, #24]
	str	w12, [sp, #32]
	cbnz	w10, .LBB13_73
	mov	w10, #1
	strb	w10, [x0, #168]
.LBB13_73:
	str	x8, [sp]
	ldr	x8, [sp, #24]
	mov	x1, sp
	strh	w9, [sp, #8]
	ldr	w9, [sp, #32]
	mov	x2, x3
	mov	x3, x4
	stur	x8, [sp, #10]
	stur	w9, [sp, #18]
	bl	"sq_feed::ear::Ear::hear_jump"
	mov	w8, wzr
	mov	x1, xzr
	ldp	x29, x30, [sp, #64]
	add	sp, sp, #80
	mov	w0, w8
	ret
.LBB13_74:
	ldur	w9, [x10, #27]
	ldrb	w11, [x10, #31]
	stur	wzr, [x29, #-4]
	stur	wzr, [x29, #-7]
	stur	w9, [x29, #-12]
	ldurh	w9, [x10, #25]
	sturb	w11, [x29, #-8]
	ldur	w11, [x29, #-4]
	ldur	x12, [x29, #-12]
	stur	w11, [x29, #-16]
	stur	x12, [x29, #-24]
.LBB13_75:
	ldur	x10, [x29, #-24]
	strh	w9, [sp]
	mov	x2, sp
	ldur	w9, [x29, #-16]
	mov	x1, x8
	stur	x10, [sp, #2]
	stur	w9, [sp, #10]
	bl	"sq_feed::ear::Ear::hear_clock_jump"
	mov	w8, wzr
	mov	x1, xzr
	ldp	x29, x30, [sp, #64]
	add	sp, sp, #80
	mov	w0, w8
	ret
.Lfunc_end13:
	.size	"sq_feed::ear::Ear::hear", .Lfunc_end13-"sq_feed::ear::Ear::hear"

	.section	".text.unlikely.sq_feed::ear::Ear::hear_clock_jump","ax",@progbits
	.p2align	2
	.type	"sq_feed::ear::Ear::hear_clock_jump",@function
"sq_feed::ear::Ear::hear_clock_jump":
	stp	x29, x30, [sp, #-80]!
	stp	x28, x25, [sp, #16]
	mov	x29, sp
	stp	x24, x23, [sp, #32]
	stp	x22, x21, [sp, #48]
	stp	x20, x19, [sp, #64]
	sub	sp, sp, #528
	movi	v0.2d, #0000000000000000
	ldrb	w9, [x0, #16]
	mov	x19, x4
	mov	x20, x3
	mov	x22, x1
	mov	x21, x0
	add	x23, sp, #112
	cmp	w9, #1
	str	xzr, [sp, #96]
	stur	xzr, [sp, #102]
	stp	q0, q0, [x23, #48]
	stp	q0, q0, [x23, #80]
	str	q0, [x23, #32]
	stp	q0, q0, [sp, #16]
	stp	q0, q0, [sp, #48]
	stp	q0, q0, [sp, #112]
	str	xzr, [sp, #80]
	str	wzr, [sp, #8]
	stur	wzr, [sp, #11]
	b.ne	.LBB14_3
	ldp	x10, x8, [x21]
	sub	x10, x22, x10
	ubfx	x11, x10, #47, #1
	and	x10, x10, #0xffffffffffff
	cbnz	x11, .LBB14_6
	adds	x8, x10, x8
	csinv	x24, x8, xzr, lo
	b	.LBB14_11
.LBB14_3:
	ldrb	w10, [x21, #24]
	ldr	x8, [x21, #48]
	tbz	w10, #0, .LBB14_7
	ldr	x11, [x21, #56]
	ldr	x10, [x21, #32]
	subs	x12, x8, x11
	csel	x12, xzr, x12, lo
	cmp	x10, x12
	b.lo	.LBB14_9
	subs	x10, x20, x11
	csel	x10, xzr, x10, lo
	adds	x8, x10, x8
	b	.LBB14_10
.LBB14_6:
	mov	x11, #281474976710656
	sub	x10, x11, x10
	subs	x8, x8, x10
	csel	x24, xzr, x8, lo
	b	.LBB14_11
.LBB14_7:
	cbz	x8, .LBB14_19
	ldr	x10, [x21, #32]
.LBB14_9:
	adds	x8, x10, x8
	csinv	x8, x8, xzr, lo
	adds	x8, x8, #1
.LBB14_10:
	csinv	x8, x8, xzr, lo
	mov	w10, #12000
	mov	x11, #14506
	mul	x10, x8, x10
	movk	x11, #61691, lsl #16
	movk	x11, #30233, lsl #32
	movk	x11, #5, lsl #48
	cmp	x8, x11
	csinv	x24, x10, xzr, lo
.LBB14_11:
	mov	x8, #10661
	ldr	x10, [x2]
	ldur	x11, [x2, #6]
	movk	x8, #26389, lsl #16
	sub	x25, x29, #160
	sturh	wzr, [x29, #-162]
	movk	x8, #15903, lsl #32
	stp	q0, q0, [x23, #112]
	movk	x8, #44739, lsl #48
	stp	q0, q0, [x23, #144]
	umulh	x8, x24, x8
	stp	q0, q0, [x23, #176]
	str	q0, [x23, #208]
	lsr	x8, x8, #13
	stp	x8, x10, [x29, #-184]
	stur	x11, [x23, #246]
	tbz	w9, #0, .LBB14_15
	ldp	x9, x11, [x21]
	mov	x12, #281474976710656
	ldr	x13, [x21, #40]
	sub	x9, x22, x9
	ubfx	x10, x9, #47, #1
	and	x9, x9, #0xffffffffffff
	sub	x9, x12, x9
	cmp	x10, #0
	mov	w10, #1000
	csel	x9, xzr, x9, eq
	cmp	x13, #1000
	csel	x10, x13, x10, hi
	cmp	x11, x9
	b.hs	.LBB14_16
	mov	x11, #14506
	movk	x11, #61691, lsl #16
	movk	x11, #30233, lsl #32
	movk	x11, #5, lsl #48
	umulh	x9, x9, x11
	cmp	x9, x10
	b.ls	.LBB14_16
	add	x0, sp, #224
	add	x1, x21, #64
	sub	x4, x29, #184
	mov	x2, x21
	mov	x3, x20
	bl	"sq_feed::dates::Dates::lengthen"
	b	.LBB14_22
.LBB14_15:
	ldr	x9, [x2]
	ldur	x11, [x2, #6]
	mov	w12, #256
	movk	w12, #514, lsl #16
	mov	w10, wzr
	stur	wzr, [x29, #-192]
	stur	x9, [x29, #-24]
	mov	w9, #2
	stur	x11, [x25, #142]
	ldrb	w11, [x21, #64]
	str	x9, [x21, #64]
	ldrb	w9, [x21, #96]
	ldur	x13, [x25, #142]
	cmp	w11, #1
	stur	wzr, [x23, #227]
	lsl	w9, w9, #3
	stur	q0, [x21, #88]
	stur	q0, [x21, #72]
	lsr	w9, w12, w9
	ldur	x12, [x29, #-24]
	stur	q0, [x21, #104]
	stur	q0, [x21, #120]
	stur	q0, [x21, #136]
	cinc	w11, w9, eq
	mov	w9, #1
	str	xzr, [x21, #152]
	stur	xzr, [x29, #-80]
	stp	q0, q0, [x25, #16]
	stp	q0, q0, [x25, #48]
	stur	x13, [x25, #6]
	stur	x12, [x29, #-160]
	mov	w12, #1
	b	.LBB14_23
.LBB14_16:
	ldr	x9, [x2]
	sturh	wzr, [x29, #-2]
	stp	q0, q0, [x25, #16]
	stp	x8, x9, [x29, #-24]
	ldur	x9, [x2, #6]
	stp	q0, q0, [x25, #48]
	stur	x9, [x25, #150]
	ldurb	w9, [x21, #64]
	stp	q0, q0, [x25, #80]
	cmp	w9, #2
	str	q0, [x25, #112]
	b.eq	.LBB14_18
	cmp	w9, #1
	b.ne	.LBB14_20
.LBB14_18:
	sub	x0, x29, #144
	add	x1, x21, #64
	sub	x4, x29, #24
	mov	x2, x21
	mov	x3, x20
	bl	"sq_feed::dates::Dates::judge_later"
	b	.LBB14_21
.LBB14_19:
	and	x24, x22, #0xffffffffffff
	b	.LBB14_11
.LBB14_20:
	ldr	x9, [x2]
	ldur	x10, [x2, #6]
	strh	wzr, [x21, #94]
	stur	x9, [x29, #-160]
	mov	w9, #1
	stur	x10, [x25, #6]
	ldur	x10, [x29, #-160]
	stp	x9, x8, [x21, #64]
	ldur	x8, [x25, #6]
	str	x10, [x21, #80]
	stur	x8, [x21, #86]
.LBB14_21:
	ldp	q0, q1, [x25, #80]
	ldr	q2, [x25, #112]
	str	q2, [x23, #208]
	stp	q0, q1, [x23, #176]
	ldp	q0, q1, [x25, #16]
	stp	q0, q1, [x23, #112]
	ldp	q0, q2, [x25, #48]
	stp	q0, q2, [x23, #144]
.LBB14_22:
	ldr	x8, [sp, #232]
	ldur	x9, [x23, #126]
	ldur	q0, [x23, #152]
	ldur	q1, [x23, #168]
	ldur	w10, [x23, #217]
	ldurb	w11, [x21, #64]
	stur	x8, [x29, #-160]
	ldr	w12, [sp, #332]
	ldur	q2, [x23, #136]
	cmp	w11, #2
	stur	x9, [x25, #6]
	ldrb	w11, [sp, #328]
	stp	q0, q1, [x25, #32]
	ldur	q0, [x23, #184]
	stur	w10, [x29, #-192]
	ldrh	w10, [sp, #246]
	stur	w12, [x23, #227]
	cset	w12, eq
	str	q0, [x25, #64]
	ldp	x8, x9, [sp, #312]
	str	q2, [x25, #16]
	stur	x8, [x29, #-80]
	ldr	x8, [sp, #224]
.LBB14_23:
	ldur	x13, [x29, #-160]
	ldp	q0, q1, [x25, #32]
	ldur	x14, [x25, #6]
	ldr	q2, [x25, #16]
	strh	w10, [sp, #134]
	str	x13, [sp, #96]
	ldur	x13, [x29, #-80]
	stur	x14, [sp, #102]
	ldur	w14, [x23, #227]
	str	x13, [sp, #80]
	ldur	w13, [x29, #-192]
	stp	q0, q1, [sp, #32]
	ldr	q0, [x25, #64]
	stur	w14, [sp, #11]
	ldur	x14, [sp, #102]
	str	w13, [sp, #8]
	ldr	x13, [sp, #96]
	str	q0, [sp, #64]
	ldr	w10, [sp, #8]
	stur	x14, [sp, #126]
	ldp	q0, q1, [sp, #32]
	stp	x8, x13, [sp, #112]
	ldr	x8, [sp, #80]
	str	q2, [sp, #16]
	ldr	q2, [sp, #16]
	stur	q0, [x23, #40]
	ldr	q0, [sp, #64]
	stp	x8, x9, [sp, #200]
	ldur	w8, [sp, #11]
	stur	q1, [x23, #56]
	stur	q2, [x23, #24]
	stur	q0, [x23, #72]
	strb	w11, [sp, #216]
	str	w8, [sp, #220]
	stur	w10, [x23, #105]
	cbz	w12, .LBB14_25
	ldrb	w8, [x21, #96]
	cbz	w8, .LBB14_34
.LBB14_25:
	and	x8, x9, #0xff
	and	x10, x11, #0xff
	ldr	x11, [x21, #176]
	add	x12, x8, x10
	cmn	x12, x11
	b.hs	.LBB14_27
.LBB14_26:
	ldr	x13, [x21, #184]
	add	x11, x11, x12
	ldr	x12, [x21, #224]
	add	x8, x13, x8
	add	x10, x12, x10
	stp	x11, x8, [x21, #176]
	str	x10, [x21, #224]
.LBB14_27:
	cbz	x9, .LBB14_33
	add	x8, sp, #112
	b	.LBB14_31
.LBB14_29:
	ldr	x12, [x21, #40]
	subs	x11, x11, x12
	csel	x11, xzr, x11, lo
	cmp	x11, x10
	csel	x10, x11, x10, hi
.LBB14_30:
	ldr	x11, [x19, #96]
	mov	w12, #24
	ldr	x13, [x8, #8]
	ldur	x14, [x8, #14]
	sub	x9, x9, #1
	add	x8, x8, #24
	madd	x12, x11, x12, x19
	stp	x10, x13, [x12]
	add	x10, x11, #1
	stur	x14, [x12, #14]
	strh	wzr, [x12, #22]
	str	x10, [x19, #96]
	cbz	x9, .LBB14_33
.LBB14_31:
	ldr	x10, [x8]
	ldr	x11, [x21, #152]
	adds	x10, x11, x10
	ldr	x11, [x21, #48]
	csinv	x10, x10, xzr, lo
	cmp	x11, x10
	b.hi	.LBB14_29
	stp	x10, x20, [x21, #48]
	b	.LBB14_30
.LBB14_33:
	add	sp, sp, #528
	ldp	x20, x19, [sp, #64]
	ldp	x22, x21, [sp, #48]
	ldp	x24, x23, [sp, #32]
	ldp	x28, x25, [sp, #16]
	ldp	x29, x30, [sp], #80
	ret
.LBB14_34:
	and	x8, x22, #0xffffffffffff
	stp	x8, x24, [x21]
	mov	w8, #1
	strb	w8, [x21, #16]
	and	x8, x9, #0xff
	and	x10, x11, #0xff
	ldr	x11, [x21, #176]
	add	x12, x8, x10
	cmn	x12, x11
	b.lo	.LBB14_26
	b	.LBB14_27
.Lfunc_end14:
	.size	"sq_feed::ear::Ear::hear_clock_jump", .Lfunc_end14-"sq_feed::ear::Ear::hear_clock_jump"

	.section	".text.sq_feed::dates::Dates::lengthen","ax",@progbits
	.p2align	2
	.type	"sq_feed::dates::Dates::lengthen",@function
"sq_feed::dates::Dates::lengthen":
	stp	x29, x30, [sp, #-96]!
	str	x28, [sp, #16]
	mov	x29, sp
	stp	x26, x25, [sp, #32]
	stp	x24, x23, [sp, #48]
	stp	x22, x21, [sp, #64]
	stp	x20, x19, [sp, #80]
	sub	sp, sp, #640
	ldr	x8, [x4, #16]
	movi	v1.2d, #0000000000000000
	ldr	q0, [x4]
	mov	x19, x0
	add	x20, sp, #48
	sub	x21, x29, #184
	stur	x8, [x29, #-224]
	ldrb	w8, [x1, #32]
	str	q0, [x20, #352]
	cmp	w8, #1
	stp	q1, q1, [x20, #112]
	stp	q1, q1, [x20, #144]
	stp	q1, q1, [x20, #176]
	str	q1, [x20, #208]
	stp	q1, q1, [sp, #48]
	stp	q1, q1, [sp, #80]
	stp	q1, q1, [sp, #112]
	str	q1, [x20, #96]
	b.gt	.LBB15_3
	cbnz	w8, .LBB15_7
	ldr	q0, [x4]
	ldr	x9, [x4, #16]
	mov	w8, #1
	str	x8, [x1, #32]
	stur	q0, [x1, #40]
	movi	v0.2d, #0000000000000000
	stp	x9, xzr, [x1, #56]
	stp	xzr, xzr, [x1, #72]
	b	.LBB15_39
.LBB15_3:
	cmp	w8, #2
	b.ne	.LBB15_10
	mov	x23, x1
	ldur	x22, [x29, #-240]
	ldr	x8, [x23, #64]!
	ldr	x11, [x23, #24]
	ldur	q0, [x23, #-24]
	ldur	x14, [x23, #-8]
	adds	x9, x11, x22
	csinv	x10, x9, xzr, lo
	adds	x9, x11, x8
	str	q0, [x20, #288]
	csinv	x12, x9, xzr, lo
	sub	x9, x23, #24
	str	x14, [sp, #352]
	subs	x13, x12, x10
	b.ls	.LBB15_11
	ldr	x10, [x2, #40]
	mov	w11, #1000
	cmp	x10, #1000
	csel	x10, x10, x11, hi
	cmp	x13, x10
	b.ls	.LBB15_19
.LBB15_6:
	ldur	q0, [x23, #8]
	add	x0, sp, #48
	add	x3, sp, #336
	add	x4, sp, #8
	sub	x5, x29, #240
	str	x8, [sp, #8]
	stur	q0, [sp, #16]
	bl	"sq_feed::dates::Dates::replace"
	b	.LBB15_34
.LBB15_7:
	ldur	x8, [x29, #-240]
	ldr	x10, [x1, #88]
	ldr	x11, [x1, #40]
	adds	x9, x10, x8
	csinv	x9, x9, xzr, lo
	adds	x11, x10, x11
	csinv	x11, x11, xzr, lo
	subs	x12, x11, x9
	b.ls	.LBB15_15
	ldr	x9, [x2, #40]
	mov	w10, #1000
	cmp	x9, #1000
	csel	x9, x9, x10, hi
	cmp	x12, x9
	b.ls	.LBB15_37
.LBB15_9:
	ldur	q0, [x1, #48]
	ldur	q1, [x4, #8]
	mov	w9, #3
	b	.LBB15_38
.LBB15_10:
	ldur	q0, [x1, #40]
	ldr	x8, [x1, #56]
	add	x0, sp, #160
	ldr	q1, [x1, #64]
	ldr	x9, [x1, #80]
	add	x3, sp, #304
	add	x4, sp, #272
	sub	x5, x29, #240
	str	q0, [x20, #256]
	str	x8, [sp, #320]
	str	q1, [x20, #224]
	str	x9, [sp, #288]
	bl	"sq_feed::dates::Dates::replace"
	b	.LBB15_40
.LBB15_11:
	ldr	x24, [x2, #32]
	sub	x25, x10, x12
	cmp	x25, x24
	b.ls	.LBB15_30
	ldrb	w13, [x1]
	cmp	w13, #2
	b.eq	.LBB15_20
	cmp	w13, #1
	b.ne	.LBB15_20
	ldr	x14, [x1, #8]
	adds	x14, x11, x14
	csinv	x14, x14, xzr, lo
	cmp	x14, x12
	b.hi	.LBB15_21
	b	.LBB15_30
.LBB15_15:
	ldr	x12, [x2, #32]
	sub	x13, x9, x11
	cmp	x13, x12
	b.ls	.LBB15_37
	ldrb	w12, [x1]
	cmp	w12, #2
	b.eq	.LBB15_24
	cmp	w12, #1
	b.ne	.LBB15_24
	ldr	x13, [x1, #8]
	adds	x13, x10, x13
	csinv	x13, x13, xzr, lo
	cmp	x13, x11
	b.hi	.LBB15_25
	b	.LBB15_37
.LBB15_19:
	ldur	q0, [x23, #8]
	ldr	q1, [x9]
	sub	x0, x29, #160
	ldr	x9, [x9, #16]
	ldur	q2, [x4, #8]
	sub	x4, x29, #32
	sub	x5, x29, #184
	str	q0, [sp, #32]
	stur	q1, [x21, #152]
	stur	x9, [x29, #-16]
	stur	q2, [x21, #136]
	stur	x8, [x29, #-184]
	stur	q0, [x21, #8]
	bl	"sq_feed::dates::Dates::confirm"
	b	.LBB15_32
.LBB15_20:
	ldr	x14, [x2, #48]
	cmp	x14, x12
	b.ls	.LBB15_30
.LBB15_21:
	cmp	w13, #2
	b.eq	.LBB15_28
	cmp	w13, #1
	b.ne	.LBB15_28
	ldr	x12, [x1, #8]
	adds	x11, x11, x12
	csinv	x11, x11, xzr, lo
	b	.LBB15_29
.LBB15_24:
	ldr	x13, [x2, #48]
	cmp	x13, x11
	b.ls	.LBB15_37
.LBB15_25:
	cmp	w12, #2
	b.eq	.LBB15_35
	cmp	w12, #1
	b.ne	.LBB15_35
	ldr	x11, [x1, #8]
	adds	x10, x10, x11
	csinv	x10, x10, xzr, lo
	b	.LBB15_36
.LBB15_28:
	ldr	x11, [x2, #48]
.LBB15_29:
	cmp	x10, x11
	b.hs	.LBB15_6
.LBB15_30:
	ldur	q0, [x23, #8]
	ldr	q1, [x9]
	sub	x0, x29, #160
	ldr	x9, [x9, #16]
	ldur	q2, [x4, #8]
	sub	x4, x29, #32
	sub	x5, x29, #184
	str	q0, [sp, #32]
	mov	x26, x1
	stur	q1, [x21, #152]
	stur	x9, [x29, #-16]
	stur	q2, [x21, #136]
	stur	x8, [x29, #-184]
	stur	q0, [x21, #8]
	bl	"sq_feed::dates::Dates::confirm"
	cmp	x25, x24
	b.ls	.LBB15_32
	ldur	q0, [x21, #136]
	mov	w8, #1
	stp	xzr, xzr, [x23, #8]
	stp	x8, x22, [x26, #32]
	str	q0, [x26, #48]
	str	xzr, [x23]
	b	.LBB15_33
.LBB15_32:
	ldur	x8, [x29, #-64]
	mov	w9, #24
	sub	x10, x29, #160
	ldur	q0, [x21, #136]
	madd	x9, x8, x9, x10
	add	x8, x8, #1
	str	x22, [x9]
	stur	q0, [x9, #8]
	stur	x8, [x29, #-64]
.LBB15_33:
	ldur	q0, [x21, #88]
	ldur	q1, [x21, #104]
	ldur	q2, [x21, #120]
	stp	q0, q1, [sp, #112]
	ldur	q0, [x21, #24]
	ldur	q1, [x21, #40]
	str	q2, [x20, #96]
	ldur	q2, [x21, #72]
	stp	q0, q1, [sp, #48]
	ldur	q0, [x21, #56]
	stp	q0, q2, [sp, #80]
.LBB15_34:
	ldp	q0, q1, [sp, #112]
	ldr	q2, [x20, #96]
	str	q2, [x20, #208]
	stp	q0, q1, [x20, #176]
	ldp	q0, q1, [sp, #48]
	stp	q0, q1, [x20, #112]
	ldp	q0, q2, [sp, #80]
	stp	q0, q2, [x20, #144]
	b	.LBB15_40
.LBB15_35:
	ldr	x10, [x2, #48]
.LBB15_36:
	cmp	x9, x10
	b.hs	.LBB15_9
.LBB15_37:
	ldur	q0, [x1, #48]
	ldur	q1, [x4, #8]
	mov	w9, #2
.LBB15_38:
	stur	q0, [x21, #24]
	stur	q1, [x21, #152]
	ldur	q0, [x21, #24]
	ldur	q1, [x21, #152]
	str	x9, [x1, #32]
	str	x8, [x1, #64]
	stp	q1, q0, [x20, #320]
	stur	q0, [x1, #48]
	movi	v0.2d, #0000000000000000
	stur	q1, [x1, #72]
.LBB15_39:
	stp	q0, q0, [x20, #112]
	stp	q0, q0, [x20, #144]
	stp	q0, q0, [x20, #176]
	str	q0, [x20, #208]
.LBB15_40:
	ldp	q0, q1, [x20, #176]
	ldr	q2, [x20, #208]
	str	q2, [x19, #96]
	stp	q0, q1, [x19, #64]
	ldp	q0, q1, [x20, #112]
	stp	q0, q1, [x19]
	ldp	q0, q2, [x20, #144]
	stp	q0, q2, [x19, #32]
	add	sp, sp, #640
	ldp	x20, x19, [sp, #80]
	ldr	x28, [sp, #16]
	ldp	x22, x21, [sp, #64]
	ldp	x24, x23, [sp, #48]
	ldp	x26, x25, [sp, #32]
	ldp	x29, x30, [sp], #96
	ret
.Lfunc_end15:
	.size	"sq_feed::dates::Dates::lengthen", .Lfunc_end15-"sq_feed::dates::Dates::lengthen"

	.section	".text.sq_feed::dates::Dates::confirm","ax",@progbits
	.p2align	2
	.type	"sq_feed::dates::Dates::confirm",@function
"sq_feed::dates::Dates::confirm":
	sub	sp, sp, #160
	movi	v1.2d, #0000000000000000
	ldr	x8, [x5, #16]
	ldrb	w12, [x1]
	ldr	q0, [x5]
	ldur	q2, [x4, #8]
	ldr	x9, [x1, #88]
	str	x8, [sp, #144]
	cmp	w12, #1
	ldr	x8, [x4]
	stp	q2, q0, [sp, #112]
	stp	q1, q1, [sp]
	stp	q1, q1, [sp, #32]
	stp	q1, q1, [sp, #64]
	str	q1, [sp, #96]
	b.ne	.LBB16_3
	ldr	x10, [x1, #8]
	adds	x10, x9, x10
	csinv	x11, x10, xzr, lo
	adds	x10, x9, x8
	csinv	x10, x10, xzr, lo
	cmp	x11, x10
	b.ls	.LBB16_9
	ldr	x11, [x2, #48]
	b	.LBB16_4
.LBB16_3:
	ldr	x11, [x2, #48]
	adds	x10, x9, x8
	csinv	x10, x10, xzr, lo
	cmp	x11, x10
	b.ls	.LBB16_13
.LBB16_4:
	cmp	w12, #1
	cset	w12, eq
	cmp	x10, x11
	strb	w12, [sp, #104]
	b.hs	.LBB16_13
	ldrb	w12, [x2, #16]
	cmp	w12, #1
	b.ne	.LBB16_10
	ldrb	w12, [x2, #24]
	tbz	w12, #0, .LBB16_10
	ldr	x13, [x2, #56]
	ldr	x12, [x2, #32]
	subs	x14, x11, x13
	csel	x14, xzr, x14, lo
	cmp	x12, x14
	b.lo	.LBB16_11
	subs	x12, x3, x13
	csel	x12, xzr, x12, lo
	adds	x11, x12, x11
	b	.LBB16_12
.LBB16_9:
	ldr	x9, [sp, #96]
	mov	w10, #24
	mov	x11, sp
	ldur	q0, [x1, #8]
	madd	x10, x9, x10, x11
	ldr	x11, [x1, #24]
	add	x9, x9, #1
	str	q0, [x10]
	str	x11, [x10, #16]
	str	x9, [sp, #96]
	b	.LBB16_13
.LBB16_10:
	ldr	x12, [x2, #32]
.LBB16_11:
	adds	x11, x12, x11
	csinv	x11, x11, xzr, lo
	adds	x11, x11, #1
.LBB16_12:
	csinv	x11, x11, xzr, lo
	subs	x10, x11, x10
	ldr	x11, [x1, #96]
	csel	x10, xzr, x10, lo
	adds	x9, x10, x9
	csinv	x9, x9, xzr, lo
	adds	x10, x11, #1
	csinv	x10, x10, xzr, lo
	stp	x9, x10, [x1, #88]
.LBB16_13:
	mov	w9, #2
	mov	w10, #24
	mov	x11, sp
	stp	x9, xzr, [x1]
	ldr	x9, [sp, #96]
	movi	v0.2d, #0000000000000000
	ldp	q1, q2, [sp, #112]
	stp	xzr, xzr, [x1, #16]
	madd	x10, x9, x10, x11
	str	xzr, [x1, #80]
	stp	q0, q0, [x1, #48]
	str	q0, [x1, #32]
	str	x8, [x10]
	ldr	x8, [sp, #144]
	stur	q1, [x10, #8]
	str	x8, [x10, #40]
	add	x8, x9, #2
	stur	q2, [x10, #24]
	ldp	q0, q1, [sp, #64]
	str	x8, [sp, #96]
	stp	q0, q1, [x0, #64]
	ldp	q0, q2, [sp]
	stp	q0, q2, [x0]
	ldp	q0, q1, [sp, #32]
	ldr	q2, [sp, #96]
	stp	q0, q1, [x0, #32]
	str	q2, [x0, #96]
	add	sp, sp, #160
	ret
.Lfunc_end16:
	.size	"sq_feed::dates::Dates::confirm", .Lfunc_end16-"sq_feed::dates::Dates::confirm"

	.section	".text.sq_feed::dates::Dates::replace","ax",@progbits
	.p2align	2
	.type	"sq_feed::dates::Dates::replace",@function
"sq_feed::dates::Dates::replace":
	sub	sp, sp, #64
	ldr	x12, [x3], #8
	ldr	x11, [x1, #88]
	ldr	x8, [x5], #8
	adds	x9, x11, x12
	csinv	x15, x9, xzr, lo
	adds	x9, x11, x8
	csinv	x10, x9, xzr, lo
	ldr	x9, [x4], #8
	subs	x13, x15, x10
	b.ls	.LBB17_5
	ldr	x14, [x2, #40]
	mov	w15, #1000
	cmp	x14, #1000
	csel	x14, x14, x15, hi
	cmp	x13, x14
	b.ls	.LBB17_20
.LBB17_2:
	adds	x12, x11, x9
	csinv	x12, x12, xzr, lo
	subs	x13, x12, x10
	b.ls	.LBB17_9
	ldr	x10, [x2, #40]
	mov	w11, #1000
	cmp	x10, #1000
	csel	x10, x10, x11, hi
	cmp	x13, x10
	b.ls	.LBB17_31
.LBB17_4:
	ldr	q0, [x4]
	ldr	q1, [x5]
	mov	w10, #3
	b	.LBB17_32
.LBB17_5:
	ldr	x14, [x2, #32]
	sub	x13, x10, x15
	cmp	x13, x14
	b.ls	.LBB17_20
	ldrb	w13, [x1]
	cmp	w13, #2
	b.eq	.LBB17_13
	cmp	w13, #1
	b.ne	.LBB17_13
	ldr	x16, [x1, #8]
	adds	x16, x11, x16
	csinv	x16, x16, xzr, lo
	cmp	x16, x15
	b.hi	.LBB17_14
	b	.LBB17_18
.LBB17_9:
	ldr	x13, [x2, #32]
	sub	x14, x10, x12
	cmp	x14, x13
	b.ls	.LBB17_31
	ldrb	w13, [x1]
	cmp	w13, #2
	b.eq	.LBB17_25
	cmp	w13, #1
	b.ne	.LBB17_25
	ldr	x14, [x1, #8]
	adds	x14, x11, x14
	csinv	x14, x14, xzr, lo
	cmp	x14, x12
	b.hi	.LBB17_26
	b	.LBB17_31
.LBB17_13:
	ldr	x16, [x2, #48]
	cmp	x16, x15
	b.ls	.LBB17_18
.LBB17_14:
	cmp	w13, #2
	b.eq	.LBB17_17
	cmp	w13, #1
	b.ne	.LBB17_17
	ldr	x15, [x1, #8]
	adds	x15, x11, x15
	csinv	x15, x15, xzr, lo
	cmp	x10, x15
	b.hs	.LBB17_2
	b	.LBB17_18
.LBB17_17:
	ldr	x15, [x2, #48]
	cmp	x10, x15
	b.hs	.LBB17_2
.LBB17_18:
	adds	x15, x11, x9
	csinv	x15, x15, xzr, lo
	subs	x16, x15, x10
	b.ls	.LBB17_21
	ldr	x13, [x2, #40]
	mov	w14, #1000
	cmp	x13, #1000
	csel	x13, x13, x14, hi
	cmp	x16, x13
	b.ls	.LBB17_2
.LBB17_20:
	ldr	q0, [x3]
	ldr	q1, [x5]
	mov	w10, #2
	b	.LBB17_33
.LBB17_21:
	sub	x16, x10, x15
	cmp	x16, x14
	b.ls	.LBB17_2
	cmp	w13, #2
	b.eq	.LBB17_34
	cmp	w13, #1
	b.ne	.LBB17_34
	ldr	x14, [x1, #8]
	adds	x14, x11, x14
	csinv	x14, x14, xzr, lo
	b	.LBB17_35
.LBB17_25:
	ldr	x14, [x2, #48]
	cmp	x14, x12
	b.ls	.LBB17_31
.LBB17_26:
	cmp	w13, #2
	b.eq	.LBB17_29
	cmp	w13, #1
	b.ne	.LBB17_29
	ldr	x12, [x1, #8]
	adds	x11, x11, x12
	csinv	x11, x11, xzr, lo
	b	.LBB17_30
.LBB17_29:
	ldr	x11, [x2, #48]
.LBB17_30:
	cmp	x10, x11
	b.hs	.LBB17_4
.LBB17_31:
	ldr	q0, [x4]
	ldr	q1, [x5]
	mov	w10, #2
.LBB17_32:
	stp	q1, q0, [sp, #32]
	ldp	q1, q0, [sp, #32]
	mov	x12, x9
.LBB17_33:
	stp	q1, q0, [sp]
	ldp	q1, q0, [sp]
	str	x8, [x1, #64]
	mov	w8, #1
	stp	x10, x12, [x1, #32]
	str	q0, [x1, #48]
	movi	v0.2d, #0000000000000000
	stur	q1, [x1, #72]
	str	xzr, [x0, #96]
	strb	w8, [x0, #104]
	stp	q0, q0, [x0]
	stp	q0, q0, [x0, #32]
	stp	q0, q0, [x0, #64]
	stur	wzr, [x0, #105]
	str	wzr, [x0, #108]
	add	sp, sp, #64
	ret
.LBB17_34:
	ldr	x14, [x2, #48]
.LBB17_35:
	cmp	x14, x15
	b.ls	.LBB17_2
	cmp	w13, #2
	b.eq	.LBB17_39
	cmp	w13, #1
	b.ne	.LBB17_39
	ldr	x13, [x1, #8]
	adds	x13, x11, x13
	csinv	x13, x13, xzr, lo
	b	.LBB17_40
.LBB17_39:
	ldr	x13, [x2, #48]
.LBB17_40:
	cmp	x10, x13
	b.lo	.LBB17_2
	b	.LBB17_20
.Lfunc_end17:
	.size	"sq_feed::dates::Dates::replace", .Lfunc_end17-"sq_feed::dates::Dates::replace"

	.section	".text.sq_feed::dates::Dates::judge_later","ax",@progbits
	.p2align	2
	.type	"sq_feed::dates::Dates::judge_later",@function
"sq_feed::dates::Dates::judge_later":
	sub	sp, sp, #288
	ldr	q0, [x4]
	ldr	x8, [x4, #16]
	movi	v1.2d, #0000000000000000
	ldr	x10, [x1, #88]
	stp	x29, x30, [sp, #256]
	add	x29, sp, #256
	str	q0, [sp, #112]
	ldr	x9, [sp, #112]
	str	x8, [sp, #128]
	ldrb	w8, [x1]
	stp	x28, x19, [sp, #272]
	mov	x19, x0
	adds	x9, x10, x9
	stp	q1, q1, [x29, #-112]
	csinv	x9, x9, xzr, lo
	cmp	w8, #2
	stp	q1, q1, [x29, #-80]
	stp	q1, q1, [x29, #-48]
	stur	q1, [x29, #-16]
	b.eq	.LBB18_4
	cmp	w8, #1
	b.ne	.LBB18_4
	ldr	x11, [x1, #8]
	adds	x10, x10, x11
	csinv	x10, x10, xzr, lo
	subs	x11, x10, x9
	b.hi	.LBB18_5
.LBB18_3:
	ldr	x11, [x2, #32]
	sub	x10, x9, x10
	cmp	x10, x11
	b.hi	.LBB18_6
	b	.LBB18_11
.LBB18_4:
	ldr	x10, [x2, #48]
	subs	x11, x10, x9
	b.ls	.LBB18_3
.LBB18_5:
	ldr	x10, [x2, #40]
	mov	w12, #1000
	cmp	x10, #1000
	csel	x10, x10, x12, hi
	cmp	x11, x10
	b.ls	.LBB18_11
.LBB18_6:
	cmp	w8, #2
	b.ne	.LBB18_10
	ldrb	w10, [x2, #24]
	cmp	w10, #1
	b.ne	.LBB18_10
	ldr	x10, [x2, #48]
	cmp	x10, x9
	b.hi	.LBB18_10
	ldr	x11, [x2, #56]
	subs	x11, x3, x11
	csel	x11, xzr, x11, lo
	adds	x10, x11, x10
	csinv	x10, x10, xzr, lo
	subs	x9, x9, x10
	ldr	x10, [x2, #32]
	cneg	x9, x9, ls
	cmp	x9, x10
	b.ls	.LBB18_11
.LBB18_10:
	sub	x0, x29, #112
	add	x4, sp, #112
	bl	"sq_feed::dates::Dates::lengthen"
	ldp	q0, q1, [x29, #-48]
	ldur	q2, [x29, #-16]
	str	q2, [x19, #96]
	stp	q0, q1, [x19, #64]
	ldp	q0, q1, [x29, #-112]
	stp	q0, q1, [x19]
	ldp	q0, q2, [x29, #-80]
	stp	q0, q2, [x19, #32]
	ldp	x28, x19, [sp, #272]
	ldp	x29, x30, [sp, #256]
	add	sp, sp, #288
	ret
.LBB18_11:
	ldrb	w9, [x1, #32]
	movi	v0.2d, #0000000000000000
	mov	w10, #256
	movk	w10, #514, lsl #16
	cmp	w8, #1
	str	xzr, [sp, #96]
	lsl	w9, w9, #3
	stur	wzr, [sp, #105]
	str	wzr, [sp, #108]
	lsr	w9, w10, w9
	stp	q0, q0, [sp]
	stp	q0, q0, [sp, #32]
	stp	q0, q0, [sp, #64]
	strb	w9, [sp, #104]
	b.ne	.LBB18_13
	ldr	x8, [sp, #96]
	mov	w9, #24
	mov	x10, sp
	ldur	q0, [x1, #8]
	madd	x9, x8, x9, x10
	ldr	x10, [x1, #24]
	add	x8, x8, #1
	str	q0, [x9]
	str	x10, [x9, #16]
	b	.LBB18_14
.LBB18_13:
	ldr	x8, [sp, #96]
.LBB18_14:
	mov	w9, #2
	mov	w10, #24
	movi	v0.2d, #0000000000000000
	str	x9, [x1]
	mov	x9, sp
	ldr	q1, [sp, #112]
	madd	x9, x8, x10, x9
	ldr	x10, [sp, #128]
	add	x8, x8, #1
	stur	q0, [x1, #8]
	stur	q0, [x1, #24]
	stur	q0, [x1, #40]
	str	q1, [x9]
	str	x10, [x9, #16]
	stur	q0, [x1, #56]
	stur	q0, [x1, #72]
	ldp	q0, q1, [sp, #64]
	str	x8, [sp, #96]
	stp	q0, q1, [x19, #64]
	ldp	q2, q0, [sp]
	stp	q2, q0, [x19]
	ldp	q0, q1, [sp, #32]
	ldr	q2, [sp, #96]
	stp	q0, q1, [x19, #32]
	str	q2, [x19, #96]
	ldp	x28, x19, [sp, #272]
	ldp	x29, x30, [sp, #256]
	add	sp, sp, #288
	ret
.Lfunc_end18:
	.size	"sq_feed::dates::Dates::judge_later", .Lfunc_end18-"sq_feed::dates::Dates::judge_later"

	.section	".text.unlikely.sq_feed::ear::Ear::hear_jump","ax",@progbits
	.p2align	2
	.type	"sq_feed::ear::Ear::hear_jump",@function
"sq_feed::ear::Ear::hear_jump":
	sub	sp, sp, #448
	ldr	x8, [x1, #16]
	stp	x29, x30, [sp, #400]
	add	x29, sp, #400
	movi	v0.2d, #0000000000000000
	ldr	q1, [x1]
	stp	x28, x21, [sp, #416]
	stur	x8, [x29, #-16]
	mov	x8, x0
	mov	x21, x0
	ldrb	w9, [x8, #64]!
	stp	x20, x19, [sp, #432]
	mov	x19, x3
	mov	x20, x2
	cmp	w9, #2
	stp	q0, q0, [x29, #-144]
	stp	q0, q0, [x29, #-112]
	stp	q0, q0, [x29, #-80]
	stp	q0, q1, [x29, #-48]
	b.eq	.LBB19_2
	cmp	w9, #1
	b.ne	.LBB19_3
.LBB19_2:
	sub	x0, x29, #144
	sub	x4, x29, #32
	mov	x1, x8
	mov	x2, x21
	mov	x3, x20
	bl	"sq_feed::dates::Dates::judge_later"
	b	.LBB19_4
.LBB19_3:
	ldr	q0, [x1]
	ldr	x9, [x1, #16]
	mov	w8, #1
	str	x8, [x21, #64]
	stur	q0, [x29, #-176]
	stur	x9, [x29, #-160]
	stur	q0, [x21, #72]
	str	x9, [x21, #88]
.LBB19_4:
	ldp	q0, q1, [x29, #-80]
	ldur	q2, [x29, #-48]
	ldp	q3, q4, [x29, #-144]
	ldr	x11, [x21, #176]
	ldp	q6, q5, [x29, #-112]
	stp	q0, q1, [sp, #64]
	stp	q3, q4, [sp]
	stp	q6, q5, [sp, #32]
	stp	q2, q3, [sp, #96]
	stp	q4, q6, [sp, #128]
	stp	q5, q0, [sp, #160]
	stp	q1, q2, [sp, #192]
	ldr	x8, [sp, #208]
	ldrb	w9, [sp, #216]
	and	x10, x8, #0xff
	add	x12, x10, x9
	cmn	x12, x11
	b.hs	.LBB19_6
	ldr	x13, [x21, #184]
	add	x11, x12, x11
	ldr	x12, [x21, #224]
	add	x10, x13, x10
	add	x9, x12, x9
	stp	x11, x10, [x21, #176]
	str	x9, [x21, #224]
.LBB19_6:
	cbz	x8, .LBB19_12
	add	x9, sp, #112
	b	.LBB19_10
.LBB19_8:
	ldr	x12, [x21, #40]
	subs	x11, x11, x12
	csel	x11, xzr, x11, lo
	cmp	x11, x10
	csel	x10, x11, x10, hi
.LBB19_9:
	ldr	x11, [x19, #96]
	mov	w12, #24
	ldr	x13, [x9, #8]
	ldur	x14, [x9, #14]
	sub	x8, x8, #1
	add	x9, x9, #24
	madd	x12, x11, x12, x19
	stp	x10, x13, [x12]
	add	x10, x11, #1
	stur	x14, [x12, #14]
	strh	wzr, [x12, #22]
	str	x10, [x19, #96]
	cbz	x8, .LBB19_12
.LBB19_10:
	ldr	x10, [x9]
	ldr	x11, [x21, #152]
	adds	x10, x11, x10
	ldr	x11, [x21, #48]
	csinv	x10, x10, xzr, lo
	cmp	x11, x10
	b.hi	.LBB19_8
	stp	x10, x20, [x21, #48]
	b	.LBB19_9
.LBB19_12:
	ldp	x20, x19, [sp, #432]
	ldp	x28, x21, [sp, #416]
	ldp	x29, x30, [sp, #400]
	add	sp, sp, #448
	ret
.Lfunc_end19:
	.size	"sq_feed::ear::Ear::hear_jump", .Lfunc_end19-"sq_feed::ear::Ear::hear_jump"

	.section	".text.sq_feed::ear::Ear::end","ax",@progbits
	.p2align	2
	.type	"sq_feed::ear::Ear::end",@function
"sq_feed::ear::Ear::end":
	sub	sp, sp, #384
	stp	x20, x19, [sp, #368]
	mov	x19, x1
	movi	v0.2d, #0000000000000000
	mov	x1, x0
	stp	x29, x30, [sp, #336]
	add	x29, sp, #336
	ldrb	w8, [x1, #64]!
	mov	x20, x0
	str	x28, [sp, #352]
	cmp	w8, #2
	stp	q0, q0, [x29, #-96]
	stp	q0, q0, [x29, #-64]
	stp	q0, q0, [x29, #-32]
	stur	q0, [x29, #-112]
	b.eq	.LBB20_2
	cmp	w8, #1
	b.ne	.LBB20_3
.LBB20_2:
	sub	x0, x29, #112
	mov	x2, x20
	bl	"sq_feed::dates::Dates::end_run"
	b	.LBB20_4
.LBB20_3:
	ldrb	w8, [x20, #96]
	mov	w9, #256
	str	xzr, [x20, #144]
	movk	w9, #514, lsl #16
	stp	q0, q0, [x20, #112]
	lsl	w8, w8, #3
	str	q0, [x20, #96]
	stp	q0, q0, [x29, #-112]
	lsr	w8, w9, w8
	stp	q0, q0, [x29, #-80]
	stp	q0, q0, [x29, #-48]
	stur	xzr, [x29, #-16]
	sturb	w8, [x29, #-8]
	stur	wzr, [x29, #-7]
	stur	wzr, [x29, #-4]
.LBB20_4:
	ldp	q0, q1, [x29, #-48]
	ldur	q2, [x29, #-16]
	ldp	q3, q4, [x29, #-112]
	ldr	x11, [x20, #176]
	ldp	q6, q5, [x29, #-80]
	stp	q0, q1, [sp, #64]
	stp	q3, q4, [sp]
	stp	q6, q5, [sp, #32]
	stp	q2, q3, [sp, #96]
	stp	q4, q6, [sp, #128]
	stp	q5, q0, [sp, #160]
	stp	q1, q2, [sp, #192]
	ldr	x8, [sp, #208]
	ldrb	w9, [sp, #216]
	and	x10, x8, #0xff
	add	x12, x10, x9
	cmn	x12, x11
	b.hs	.LBB20_6
	ldr	x13, [x20, #184]
	add	x11, x12, x11
	ldr	x12, [x20, #224]
	add	x10, x13, x10
	add	x9, x12, x9
	stp	x11, x10, [x20, #176]
	str	x9, [x20, #224]
.LBB20_6:
	cbz	x8, .LBB20_12
	ldr	x9, [x20, #56]
	add	x10, sp, #112
	b	.LBB20_10
.LBB20_8:
	ldr	x13, [x20, #40]
	subs	x12, x12, x13
	csel	x12, xzr, x12, lo
	cmp	x12, x11
	csel	x11, x12, x11, hi
.LBB20_9:
	ldr	x12, [x19, #96]
	mov	w13, #24
	ldr	x14, [x10, #8]
	ldur	x15, [x10, #14]
	sub	x8, x8, #1
	add	x10, x10, #24
	madd	x13, x12, x13, x19
	stp	x11, x14, [x13]
	add	x11, x12, #1
	stur	x15, [x13, #14]
	strh	wzr, [x13, #22]
	str	x11, [x19, #96]
	cbz	x8, .LBB20_12
.LBB20_10:
	ldr	x11, [x10]
	ldr	x12, [x20, #152]
	adds	x11, x12, x11
	ldr	x12, [x20, #48]
	csinv	x11, x11, xzr, lo
	cmp	x12, x11
	b.hi	.LBB20_8
	stp	x11, x9, [x20, #48]
	b	.LBB20_9
.LBB20_12:
	ldp	x20, x19, [sp, #368]
	ldr	x28, [sp, #352]
	ldp	x29, x30, [sp, #336]
	add	sp, sp, #384
	ret
.Lfunc_end20:
	.size	"sq_feed::ear::Ear::end", .Lfunc_end20-"sq_feed::ear::Ear::end"

	.section	".text.sq_feed::dates::Dates::end_run","ax",@progbits
	.p2align	2
	.type	"sq_feed::dates::Dates::end_run",@function
"sq_feed::dates::Dates::end_run":
	sub	sp, sp, #464
	ldrb	w9, [x1, #32]
	stp	x29, x30, [sp, #416]
	add	x29, sp, #416
	stp	x20, x19, [sp, #448]
	sub	x8, x29, #128
	add	x19, sp, #112
	cmp	w9, #1
	str	x28, [sp, #432]
	b.gt	.LBB21_4
	cbnz	w9, .LBB21_6
	movi	v0.2d, #0000000000000000
	ldrb	w8, [x1]
	cmp	w8, #1
	stp	q0, q0, [x19, #176]
	stp	q0, q0, [x19, #208]
	stp	q0, q0, [x19, #240]
	b.ne	.LBB21_16
	ldr	x8, [x1, #24]
	ldur	q1, [x1, #8]
	stur	x8, [x29, #-112]
	mov	w8, #1
	str	q1, [x19, #176]
	b	.LBB21_17
.LBB21_4:
	cmp	w9, #2
	b.ne	.LBB21_11
	ldur	q0, [x1, #40]
	ldr	x8, [x1, #56]
	mov	x20, x0
	ldr	q1, [x1, #64]
	ldr	x9, [x1, #80]
	add	x0, sp, #112
	ldr	x3, [x2, #56]
	sub	x4, x29, #160
	sub	x5, x29, #192
	str	q0, [x19, #144]
	stur	x8, [x29, #-144]
	str	q1, [x19, #112]
	stur	x9, [x29, #-176]
	bl	"sq_feed::dates::Dates::confirm"
	mov	x0, x20
	b	.LBB21_26
.LBB21_6:
	ldrb	w10, [x1]
	ldr	x9, [x1, #40]
	cmp	w10, #2
	b.eq	.LBB21_13
	cmp	w10, #1
	b.ne	.LBB21_13
	ldr	x11, [x1, #8]
	ldr	x12, [x1, #88]
	adds	x11, x12, x11
	csinv	x11, x11, xzr, lo
	ldr	x12, [x1, #88]
	movi	v0.2d, #0000000000000000
	adds	x12, x12, x9
	csinv	x12, x12, xzr, lo
	cmp	x11, x12
	b.hi	.LBB21_14
.LBB21_9:
	ldur	q1, [x1, #48]
	cmp	w10, #1
	stp	q0, q0, [x19, #176]
	stp	q0, q0, [x19, #208]
	str	q1, [x8, #112]
	stp	q0, q0, [x19, #240]
	str	q0, [x19, #272]
	b.ne	.LBB21_20
	ldr	x10, [x1, #24]
	ldur	q1, [x1, #8]
	stur	x10, [x29, #-112]
	mov	w10, #1
	str	q1, [x19, #176]
	b	.LBB21_21
.LBB21_11:
	movi	v0.2d, #0000000000000000
	ldrb	w9, [x1]
	stur	wzr, [x29, #-16]
	stur	wzr, [x8, #115]
	cmp	w9, #1
	stp	q0, q0, [x8]
	stp	q0, q0, [x8, #32]
	stp	q0, q0, [x8, #64]
	b.ne	.LBB21_18
	ldr	x9, [x1, #24]
	ldur	q1, [x1, #8]
	stur	x9, [x29, #-112]
	mov	w9, #1
	str	q1, [x8]
	b	.LBB21_19
.LBB21_13:
	ldr	x11, [x2, #48]
	ldr	x12, [x1, #88]
	movi	v0.2d, #0000000000000000
	adds	x12, x12, x9
	csinv	x12, x12, xzr, lo
	cmp	x11, x12
	b.ls	.LBB21_9
.LBB21_14:
	cmp	w10, #1
	stp	q0, q0, [x8]
	stp	q0, q0, [x8, #32]
	stp	q0, q0, [x8, #64]
	stur	wzr, [x29, #-16]
	stur	wzr, [x8, #115]
	b.ne	.LBB21_22
	ldr	x9, [x1, #24]
	ldur	q1, [x1, #8]
	stur	x9, [x29, #-112]
	mov	w9, #1
	str	q1, [x8]
	b	.LBB21_23
.LBB21_16:
	mov	x8, xzr
.LBB21_17:
	stur	q0, [x1, #8]
	mov	w9, #2
	stur	q0, [x1, #24]
	stur	q0, [x1, #40]
	stur	q0, [x1, #56]
	stur	q0, [x1, #72]
	ldp	q1, q0, [x19, #208]
	str	x9, [x1]
	stp	x8, xzr, [sp, #208]
	stp	q1, q0, [x19, #32]
	ldp	q2, q0, [x19, #240]
	stp	q2, q0, [x19, #64]
	ldp	q1, q0, [x19, #176]
	stp	q1, q0, [sp, #112]
	b	.LBB21_26
.LBB21_18:
	mov	x9, xzr
.LBB21_19:
	stur	q0, [x1, #8]
	mov	w10, #2
	stur	q0, [x1, #24]
	stur	q0, [x1, #40]
	stur	q0, [x1, #56]
	stur	q0, [x1, #72]
	ldp	q1, q0, [x8, #32]
	str	x9, [sp, #208]
	ldur	w9, [x29, #-16]
	str	x10, [x1]
	stp	q1, q0, [x19, #32]
	ldp	q2, q0, [x8, #64]
	strb	w10, [sp, #216]
	stp	q2, q0, [x19, #64]
	ldp	q1, q0, [x8]
	ldur	w8, [x8, #115]
	b	.LBB21_25
.LBB21_20:
	mov	x10, xzr
.LBB21_21:
	mov	w11, #2
	mov	w12, #24
	ldr	q1, [x8, #112]
	str	x11, [x1]
	sub	x11, x29, #128
	umaddl	x11, w10, w12, x11
	stur	q0, [x1, #8]
	stur	q0, [x1, #24]
	stur	q0, [x1, #40]
	str	x9, [x11]
	add	x9, x10, #1
	ldur	w10, [x29, #-20]
	stur	q1, [x11, #8]
	ldur	w11, [x8, #105]
	ldurb	w8, [x29, #-24]
	stur	q0, [x1, #56]
	stur	q0, [x1, #72]
	ldp	q0, q1, [x19, #208]
	stur	x9, [x29, #-32]
	stur	w10, [sp, #11]
	stp	q0, q1, [sp, #48]
	ldp	q2, q0, [x19, #240]
	str	w11, [sp, #8]
	stp	q2, q0, [sp, #80]
	ldp	q1, q0, [x19, #176]
	stp	q1, q0, [sp, #16]
	b	.LBB21_24
.LBB21_22:
	mov	x9, xzr
.LBB21_23:
	stur	q0, [x1, #8]
	mov	w10, #2
	stur	q0, [x1, #24]
	stur	q0, [x1, #40]
	stur	q0, [x1, #56]
	stur	q0, [x1, #72]
	ldp	q1, q0, [x8, #32]
	str	x10, [x1]
	ldur	w10, [x29, #-16]
	stp	q1, q0, [sp, #48]
	ldp	q2, q0, [x8, #64]
	stp	q2, q0, [sp, #80]
	ldp	q1, q0, [x8]
	ldur	w8, [x8, #115]
	stur	w8, [sp, #11]
	mov	w8, #1
	stp	q1, q0, [sp, #16]
	str	w10, [sp, #8]
.LBB21_24:
	ldp	q0, q1, [sp, #48]
	str	x9, [sp, #208]
	ldr	w9, [sp, #8]
	strb	w8, [sp, #216]
	ldur	w8, [sp, #11]
	stp	q0, q1, [x19, #32]
	ldp	q0, q2, [sp, #80]
	stp	q0, q2, [x19, #64]
	ldp	q1, q0, [sp, #16]
.LBB21_25:
	stp	q1, q0, [sp, #112]
	stur	w9, [x19, #105]
	str	w8, [sp, #220]
.LBB21_26:
	ldp	q0, q1, [x19, #64]
	ldr	q2, [x19, #96]
	ldp	x29, x30, [sp, #416]
	ldr	x28, [sp, #432]
	str	q2, [x0, #96]
	stp	q0, q1, [x0, #64]
	ldp	q0, q1, [sp, #112]
	stp	q0, q1, [x0]
	ldp	q0, q2, [x19, #32]
	ldp	x20, x19, [sp, #448]
	stp	q0, q2, [x0, #32]
	add	sp, sp, #464
	ret
.Lfunc_end21:
	.size	"sq_feed::dates::Dates::end_run", .Lfunc_end21-"sq_feed::dates::Dates::end_run"

	.section	".text.sq_feed::feed::Feed::close","ax",@progbits
	.p2align	2
	.type	"sq_feed::feed::Feed::close",@function
"sq_feed::feed::Feed::close":
	stp	x29, x30, [sp, #-96]!
	sub	x9, sp, #7, lsl #12
	stp	x28, x27, [sp, #16]
	mov	x29, sp
	sub	x9, x9, #2048
	stp	x26, x25, [sp, #32]
	stp	x24, x23, [sp, #48]
	stp	x22, x21, [sp, #64]
	stp	x20, x19, [sp, #80]
.LBB22_1:
	sub	sp, sp, #3072
	cmp	sp, x9
	str	xzr, [sp]
	b.ne	.LBB22_1
	sub	sp, sp, #2864
	str	xzr, [sp]
	mov	x19, x0
	add	x20, sp, #528
	ldrb	w8, [x0, #2]
	add	x21, x0, #4, lsl #12
	cmp	w8, #2
	b.gt	.LBB22_6
	cbz	w8, .LBB22_9
	cmp	w8, #1
	b.ne	.LBB22_13
	ldr	x8, [x19, #16448]
	mov	w9, #3
	strh	w9, [x19, #2]
	str	x8, [x19, #16472]
	b	.LBB22_27
.LBB22_6:
	sub	w8, w8, #3
	cmp	w8, #2
	b.lo	.LBB22_27
	movi	v0.2d, #0000000000000000
	ldrb	w25, [x19]
	ldrb	w26, [x19, #1]
	sub	x22, x29, #64
	cmp	w25, #1
	stp	q0, q0, [x29, #-64]
	stur	q0, [x29, #-32]
	stur	xzr, [x22, #45]
	b.ne	.LBB22_17
	add	x0, sp, #4, lsl #12
	cmp	w26, #2
	mov	w8, #2
	add	x0, x0, #744
	mov	w1, wzr
	mov	w2, #16391
	strb	wzr, [x22, #52]
	cset	w24, eq
	csel	x23, x8, xzr, eq
	stur	q0, [x22, #36]
	stur	q0, [x22, #20]
	stur	q0, [x22, #4]
	bl	memset
	movi	v0.2d, #0000000000000000
	add	x0, sp, #680
	mov	w1, wzr
	mov	w2, #528
	str	xzr, [sp, #600]
	str	xzr, [sp, #592]
	stp	q0, q0, [sp]
	stp	q0, q0, [sp, #528]
	str	q0, [sp, #560]
	stur	q0, [x20, #41]
	str	q0, [sp, #32]
	stur	q0, [sp, #46]
	bl	memset
	b	.LBB22_18
.LBB22_9:
	ldr	x8, [x19, #16456]
	ldr	x9, [x19, #16448]
	mov	w0, #1
	add	x10, x19, x8
	sub	x2, x9, x8
	add	x1, x10, #64
	bl	"sq_feed::signs::line_sign"
	ldrb	w8, [x19, #8]
	cmp	w8, #1
	b.ne	.LBB22_11
	ldrb	w8, [x19, #9]
	sub	w8, w8, #1
	cmp	w8, #1
	b.hi	.LBB22_14
.LBB22_11:
	ldrb	w8, [x19, #56]
	cbz	w8, .LBB22_14
	mov	w9, #1
	and	w10, w0, #0xff
	cmp	w10, #1
	csinc	w9, w9, wzr, ne
	csel	w8, w1, wzr, eq
	cmp	w9, #2
	b.ne	.LBB22_20
	b	.LBB22_29
.LBB22_13:
	mov	w8, #3
	strh	w8, [x19, #2]
	b	.LBB22_27
.LBB22_14:
	ldr	x8, [x19, #16448]
	cbz	x8, .LBB22_19
	ldrb	w8, [x21, #80]
	tbz	w8, #0, .LBB22_28
	mov	w9, #1
	mov	w8, #1
	and	w10, w0, #0xff
	cmp	w10, #1
	csinc	w9, w9, wzr, ne
	csel	w8, w1, w8, eq
	cmp	w9, #2
	b.ne	.LBB22_20
	b	.LBB22_29
.LBB22_17:
	add	x0, sp, #4, lsl #12
	mov	w1, wzr
	mov	w2, #16391
	add	x0, x0, #744
	strb	wzr, [x22, #52]
	stur	q0, [x22, #36]
	stur	q0, [x22, #20]
	stur	q0, [x22, #4]
	bl	memset
	movi	v0.2d, #0000000000000000
	add	x0, sp, #680
	mov	w1, wzr
	mov	w2, #528
	str	xzr, [sp, #600]
	str	xzr, [sp, #592]
	stp	q0, q0, [sp]
	stp	q0, q0, [sp, #528]
	str	q0, [sp, #560]
	stur	q0, [x20, #41]
	str	q0, [sp, #32]
	stur	q0, [sp, #46]
	bl	memset
	mov	x24, xzr
	mov	x23, xzr
	mov	w26, #3
.LBB22_18:
	ldp	q0, q1, [x29, #-64]
	add	x1, sp, #4, lsl #12
	ldur	q2, [x29, #-32]
	ldur	x8, [x22, #45]
	add	x0, x19, #65
	add	x1, x1, #744
	mov	w2, #16391
	strb	w25, [x19, #2]
	strb	wzr, [x19, #3]
	stur	q0, [x19, #4]
	stur	q1, [x19, #20]
	stur	q2, [x19, #36]
	stur	x8, [x19, #49]
	stur	xzr, [x19, #57]
	bl	memcpy
	ldr	q0, [sp, #592]
	mov	w8, #16456
	ldr	q2, [sp, #560]
	str	q0, [x19, x8]
	ldp	q0, q1, [sp, #528]
	mov	w8, #16481
	mov	w9, #16538
	add	x1, sp, #680
	add	x8, x19, x8
	str	xzr, [x19, #16472]
	stp	q0, q1, [x8]
	ldur	q0, [x20, #41]
	ldur	q1, [sp, #46]
	str	q2, [x8, #32]
	stur	q0, [x8, #41]
	add	x8, x19, x9
	stur	q1, [x8, #46]
	ldp	q1, q0, [sp, #16]
	strb	w26, [x21, #96]
	str	xzr, [x19, #16600]
	stp	q1, q0, [x8, #16]
	ldr	q0, [sp]
	str	x24, [x19, #16608]
	str	q0, [x8]
	mov	w8, #16632
	add	x0, x19, x8
	str	xzr, [x19, #16616]
	str	x23, [x19, #16624]
	b	.LBB22_26
.LBB22_19:
	and	w10, w0, #0xff
	cmp	w10, #1
	cset	w9, eq
	csel	w8, w1, w8, eq
	cmp	w9, #2
	b.eq	.LBB22_29
.LBB22_20:
	cmp	w9, #1
	b.ne	.LBB22_22
	movi	v0.2d, #0000000000000000
	mov	w9, #3
	strb	w8, [x21, #96]
	mov	w10, #16481
	and	w8, w8, #0xff
	strh	w9, [x19, #2]
	add	x9, x19, x10
	cmp	w8, #2
	mov	w1, wzr
	cset	w8, eq
	mov	w2, #528
	str	xzr, [x19, #16616]
	str	q0, [x19, #16592]
	stp	q0, q0, [x9]
	stp	q0, q0, [x9, #32]
	stp	q0, q0, [x9, #64]
	str	q0, [x9, #96]
	mov	w9, #2
	str	x8, [x19, #16608]
	csel	x8, x9, xzr, eq
	mov	w9, #16632
	add	x0, x19, x9
	str	x8, [x19, #16624]
	bl	memset
	str	xzr, [x19, #16472]
	b	.LBB22_27
.LBB22_22:
	movi	v0.2d, #0000000000000000
	ldrb	w26, [x19]
	add	x23, sp, #4, lsl #12
	ldrb	w27, [x19, #1]
	mov	w22, #16456
	add	x23, x23, #688
	cmp	w26, #1
	str	q0, [sp, #17072]
	str	q0, [sp, #17088]
	str	q0, [sp, #17104]
	stur	xzr, [x23, #45]
	b.ne	.LBB22_24
	cmp	w27, #2
	mov	w8, #2
	add	x0, sp, #680
	mov	w1, wzr
	mov	w2, #16391
	strb	wzr, [x23, #52]
	stur	q0, [x23, #36]
	cset	w25, eq
	csel	x24, x8, xzr, eq
	stur	q0, [x23, #20]
	stur	q0, [x23, #4]
	bl	memset
	movi	v0.2d, #0000000000000000
	mov	x0, sp
	mov	w1, wzr
	mov	w2, #528
	str	xzr, [sp, #672]
	str	xzr, [sp, #664]
	stp	q0, q0, [sp, #528]
	stp	q0, q0, [sp, #592]
	str	q0, [sp, #624]
	stur	q0, [x20, #105]
	str	q0, [sp, #560]
	stur	q0, [x20, #46]
	bl	memset
	b	.LBB22_25
.LBB22_24:
	add	x0, sp, #680
	mov	w1, wzr
	mov	w2, #16391
	strb	wzr, [x23, #52]
	stur	q0, [x23, #36]
	stur	q0, [x23, #20]
	stur	q0, [x23, #4]
	bl	memset
	movi	v0.2d, #0000000000000000
	mov	x0, sp
	mov	w1, wzr
	mov	w2, #528
	str	xzr, [sp, #672]
	str	xzr, [sp, #664]
	stp	q0, q0, [sp, #528]
	stp	q0, q0, [sp, #592]
	str	q0, [sp, #624]
	stur	q0, [x20, #105]
	str	q0, [sp, #560]
	stur	q0, [x20, #46]
	bl	memset
	mov	x25, xzr
	mov	x24, xzr
	mov	w27, #3
.LBB22_25:
	ldr	q0, [sp, #17072]
	ldr	q1, [sp, #17088]
	add	x0, x19, #65
	ldr	q2, [sp, #17104]
	ldur	x8, [x23, #45]
	add	x1, sp, #680
	mov	w2, #16391
	strb	w26, [x19, #2]
	strb	wzr, [x19, #3]
	stur	q0, [x19, #4]
	stur	q1, [x19, #20]
	stur	q2, [x19, #36]
	stur	x8, [x19, #49]
	stur	xzr, [x19, #57]
	bl	memcpy
	ldur	q0, [x20, #136]
	mov	w8, #16481
	ldr	q2, [sp, #624]
	str	q0, [x19, x22]
	ldp	q0, q1, [sp, #592]
	add	x8, x19, x8
	mov	w9, #16538
	str	xzr, [x19, #16472]
	str	q2, [x8, #32]
	mov	x1, sp
	stp	q0, q1, [x8]
	ldur	q0, [x20, #105]
	ldur	q1, [x20, #46]
	strb	w27, [x21, #96]
	stur	q0, [x8, #41]
	add	x8, x19, x9
	stur	q1, [x8, #46]
	ldp	q1, q0, [sp, #544]
	str	xzr, [x19, #16600]
	str	x25, [x19, #16608]
	stp	q1, q0, [x8, #16]
	ldr	q0, [sp, #528]
	str	xzr, [x19, #16616]
	str	q0, [x8]
	mov	w8, #16632
	str	x24, [x19, #16624]
	add	x0, x19, x8
.LBB22_26:
	mov	w2, #528
	bl	memcpy
.LBB22_27:
	add	sp, sp, #8, lsl #12
	add	sp, sp, #816
	ldp	x20, x19, [sp, #80]
	ldp	x22, x21, [sp, #64]
	ldp	x24, x23, [sp, #48]
	ldp	x26, x25, [sp, #32]
	ldp	x28, x27, [sp, #16]
	ldp	x29, x30, [sp], #96
	ret
.LBB22_28:
	ldrb	w8, [x21, #81]
	and	w9, w0, #0xff
	ldrb	w10, [x21, #82]
	cmp	w9, #2
	mov	w9, #11
	csel	w9, w1, w9, eq
	cmp	w8, #1
	csel	w8, w10, w9, eq
	mov	w9, #2
	and	w10, w0, #0xff
	cmp	w10, #1
	csinc	w9, w9, wzr, ne
	csel	w8, w1, w8, eq
	cmp	w9, #2
	b.ne	.LBB22_20
.LBB22_29:
	mov	w9, #4
	strb	w8, [x19, #3]
	strb	w9, [x19, #2]
	b	.LBB22_27
.Lfunc_end22:
	.size	"sq_feed::feed::Feed::close", .Lfunc_end22-"sq_feed::feed::Feed::close"

	.section	.rodata.cst16,"aM",@progbits,16
	.p2align	4, 0x0
.LCPI23_0:
	.xword	1
	.xword	0
.LCPI23_1:
	.byte	1
	.byte	2
	.byte	4
	.byte	8
	.byte	16
	.byte	32
	.byte	64
	.byte	128
	.byte	1
	.byte	2
	.byte	4
	.byte	8
	.byte	16
	.byte	32
	.byte	64
	.byte	128
	.section	".text.sq_feed::signs::line_sign","ax",@progbits
	.p2align	2
	.type	"sq_feed::signs::line_sign",@function
"sq_feed::signs::line_sign":
	sub	sp, sp, #192
	movi	v0.2d, #0000000000000000
	stp	x29, x30, [sp, #96]
	add	x29, sp, #96
	stp	x22, x21, [sp, #160]
	mov	x22, x2
	mov	w21, w0
	stp	x20, x19, [sp, #176]
	mov	x19, x1
	cmp	x2, #513
	stp	x28, x27, [sp, #112]
	stp	x26, x25, [sp, #128]
	stp	x24, x23, [sp, #144]
	stp	xzr, xzr, [x29, #-24]
	stur	xzr, [x29, #-32]
	stp	q0, q0, [sp, #16]
	str	q0, [sp, #48]
	b.lo	.LBB23_2
	mov	w23, wzr
	mov	w20, #1
	mov	w8, #1
	b	.LBB23_7
.LBB23_2:
	add	x0, sp, #16
	sub	x1, x29, #32
	mov	x2, x19
	mov	x3, x22
	bl	"sq_feed::rows::row_read"
	ldrb	w8, [sp, #16]
	adrp	x9, .LCPI23_0
	add	x0, sp, #16
	ldr	q0, [x9, :lo12:.LCPI23_0]
	ldrb	w9, [sp, #24]
	sub	x1, x29, #32
	and	w8, w8, #0xff
	mov	x2, x19
	mov	x3, x22
	cmp	w8, #2
	stur	q0, [x29, #-32]
	movi	v0.2d, #0000000000000000
	mov	w8, #2
	cset	w10, eq
	tst	w9, #0xff
	stur	x8, [x29, #-16]
	cset	w8, eq
	mov	w9, #3
	ands	w8, w10, w8
	stp	q0, q0, [sp, #16]
	csel	w23, w9, wzr, ne
	eor	w20, w8, #0x1
	str	q0, [sp, #48]
	bl	"sq_feed::rows::row_read"
	ldrb	w25, [sp, #16]
	cbz	w25, .LBB23_5
	cmp	w25, #1
	b.ne	.LBB23_6
	mov	w24, wzr
	mov	w25, #2
	stp	w23, w20, [sp, #8]
	mov	x0, x19
	mov	x1, x22
	bl	"sq_feed::signs::is_framed_line"
	adrp	x28, .LCPI23_1
	cbnz	w0, .LBB23_8
	b	.LBB23_22
.LBB23_5:
	stp	w23, w20, [sp, #8]
	mov	w24, #1
	mov	x0, x19
	mov	x1, x22
	bl	"sq_feed::signs::is_framed_line"
	adrp	x28, .LCPI23_1
	cbnz	w0, .LBB23_8
	b	.LBB23_22
.LBB23_6:
	ldrb	w8, [sp, #24]
.LBB23_7:
	cmp	w8, #0
	mov	w8, #2
	stp	w23, w20, [sp, #8]
	cset	w24, ne
	csel	w25, wzr, w8, ne
	mov	x0, x19
	mov	x1, x22
	bl	"sq_feed::signs::is_framed_line"
	adrp	x28, .LCPI23_1
	cbz	w0, .LBB23_22
.LBB23_8:
	tbnz	w21, #0, .LBB23_21
	subs	x9, x22, #3
	mov	x8, x22
	mov	x1, x19
	b.lo	.LBB23_14
	ldrb	w8, [x19]
	mov	x1, x19
	cmp	w8, #239
	mov	x8, x22
	b.ne	.LBB23_15
	ldrb	w8, [x19, #1]
	mov	x1, x19
	cmp	w8, #187
	mov	x8, x22
	b.ne	.LBB23_15
	ldrb	w8, [x19, #2]
	mov	x1, x19
	cmp	w8, #191
	mov	x8, x22
	b.ne	.LBB23_15
	add	x1, x19, #3
	mov	x8, x9
.LBB23_14:
	cbz	x8, .LBB23_19
.LBB23_15:
	add	x9, x1, x8
	ldurb	w9, [x9, #-1]
	stp	xzr, xzr, [sp, #16]
	cmp	w9, #13
	cset	w9, eq
	sub	x2, x8, x9
	cmp	x2, #28
	b.ne	.LBB23_18
	movi	v0.16b, #223
	ldr	q1, [x1]
	movi	v2.16b, #198
	ldur	q4, [x1, #12]
	movi	v3.16b, #64
	movi	v6.16b, #6
	movi	v7.16b, #10
	movi	v16.16b, #191
	movi	v17.16b, #16
	and	v5.16b, v1.16b, v0.16b
	and	v0.16b, v4.16b, v0.16b
	add	v1.16b, v1.16b, v2.16b
	add	v2.16b, v4.16b, v2.16b
	sub	v4.16b, v3.16b, v5.16b
	sub	v3.16b, v3.16b, v0.16b
	uqsub	v1.16b, v1.16b, v6.16b
	uqsub	v2.16b, v2.16b, v6.16b
	add	v5.16b, v5.16b, v16.16b
	add	v0.16b, v0.16b, v16.16b
	umin	v4.16b, v4.16b, v7.16b
	umin	v3.16b, v3.16b, v7.16b
	add	v1.16b, v1.16b, v17.16b
	add	v2.16b, v2.16b, v17.16b
	add	v4.16b, v5.16b, v4.16b
	add	v0.16b, v0.16b, v3.16b
	umin	v1.16b, v1.16b, v4.16b
	umin	v0.16b, v2.16b, v0.16b
	movi	v2.16b, #15
	orr	v0.16b, v0.16b, v1.16b
	ldr	q1, [x28, :lo12:.LCPI23_1]
	cmhi	v0.16b, v0.16b, v2.16b
	and	v0.16b, v0.16b, v1.16b
	addp	v0.16b, v0.16b, v0.16b
	addp	v0.16b, v0.16b, v0.16b
	addp	v0.16b, v0.16b, v0.16b
	umov	w8, v0.h[0]
	cbz	w8, .LBB23_21
	add	x0, sp, #16
	mov	w2, #28
	bl	"sq_feed::avr::frame_of_any"
	ldrb	w8, [sp, #16]
	cbnz	w8, .LBB23_20
	b	.LBB23_22
.LBB23_18:
	add	x0, sp, #16
	bl	"sq_feed::avr::frame_of_any"
	ldrb	w8, [sp, #16]
	cbnz	w8, .LBB23_20
	b	.LBB23_22
.LBB23_19:
	mov	x2, xzr
	stp	xzr, xzr, [sp, #16]
	add	x0, sp, #16
	bl	"sq_feed::avr::frame_of_any"
	ldrb	w8, [sp, #16]
	cbz	w8, .LBB23_22
.LBB23_20:
	ldrb	w8, [sp, #17]
	cbz	w8, .LBB23_22
.LBB23_21:
	mov	w26, #1
	mov	w27, #1
	subs	x8, x22, #3
	b.hs	.LBB23_23
	b	.LBB23_28
.LBB23_22:
	mov	w26, wzr
	mov	w27, wzr
	subs	x8, x22, #3
	b.lo	.LBB23_28
.LBB23_23:
	ldrb	w9, [x19]
	cmp	w9, #239
	b.ne	.LBB23_27
	ldrb	w9, [x19, #1]
	cmp	w9, #187
	b.ne	.LBB23_27
	ldrb	w9, [x19, #2]
	cmp	w9, #191
	b.ne	.LBB23_27
	add	x19, x19, #3
	mov	x22, x8
.LBB23_27:
	cmp	x22, #4
	b.hs	.LBB23_46
.LBB23_28:
	mov	x20, x22
	cbz	x22, .LBB23_35
	cmp	x20, #3
	b.ne	.LBB23_52
	ldrb	w8, [x19]
	mov	w9, #1
	mov	w22, #3
.LBB23_31:
	cmp	w8, #73
	b.ne	.LBB23_53
	ldrb	w10, [x19, #1]
	cmp	w10, #68
	b.ne	.LBB23_53
	ldrb	w10, [x19, #2]
	cmp	w10, #44
	csinc	w8, w9, wzr, ne
	tbz	w8, #0, .LBB23_77
	cmp	w10, #44
	b.eq	.LBB23_82
	b	.LBB23_89
.LBB23_35:
	str	w26, [sp, #4]
	mov	w26, #1
	mov	x22, x20
.LBB23_36:
	adrp	x0, .Lstatic.46
	add	x0, x0, :lo12:.Lstatic.46
	mov	w1, #6
	mov	x2, x19
	mov	x3, x22
	bl	"sq_feed::cells::column_of"
	mov	w21, w0
	tbz	w0, #0, .LBB23_40
	adrp	x0, .Lstatic.47
	add	x0, x0, :lo12:.Lstatic.47
	mov	w1, #4
	mov	x2, x19
	mov	x3, x22
	bl	"sq_feed::cells::column_of"
	and	w8, w0, #0xff
	cmp	w8, #1
	b.eq	.LBB23_40
	adrp	x0, .Lstatic.48
	add	x0, x0, :lo12:.Lstatic.48
	mov	w1, #7
	mov	x2, x19
	mov	x3, x22
	bl	"sq_feed::cells::column_of"
	and	w8, w0, #0xff
	cmp	w8, #1
	b.eq	.LBB23_40
	adrp	x0, .Lstatic.49
	add	x0, x0, :lo12:.Lstatic.49
	mov	w1, #9
	mov	x2, x19
	mov	x3, x22
	bl	"sq_feed::cells::column_of"
	tbz	w0, #0, .LBB23_135
.LBB23_40:
	adrp	x0, .Lstatic.47
	add	x0, x0, :lo12:.Lstatic.47
	mov	w1, #4
	mov	x2, x19
	mov	x3, x22
	bl	"sq_feed::cells::column_of"
	and	w8, w0, #0xff
	cmp	w8, #1
	b.eq	.LBB23_43
	adrp	x0, .Lstatic.48
	add	x0, x0, :lo12:.Lstatic.48
	mov	w1, #7
	mov	x2, x19
	mov	x3, x22
	bl	"sq_feed::cells::column_of"
	and	w8, w0, #0xff
	cmp	w8, #1
	b.eq	.LBB23_43
	adrp	x0, .Lstatic.49
	add	x0, x0, :lo12:.Lstatic.49
	mov	w1, #9
	mov	x2, x19
	mov	x3, x22
	bl	"sq_feed::cells::column_of"
	tbz	w0, #0, .LBB23_56
.LBB23_43:
	adrp	x0, .Lstatic.57
	add	x0, x0, :lo12:.Lstatic.57
	mov	w1, #6
	mov	x2, x19
	mov	x3, x22
	bl	"sq_feed::cells::column_of"
	tbnz	w21, #0, .LBB23_56
	tbz	w0, #0, .LBB23_56
	mov	w8, #8
	b	.LBB23_136
.LBB23_46:
	ldrb	w8, [x19]
	ldrb	w12, [x19, #1]
	ldrb	w11, [x19, #2]
	ldrb	w10, [x19, #3]
	cmp	w8, #77
	b.ne	.LBB23_70
	cmp	w12, #83
	b.ne	.LBB23_70
	cmp	w11, #71
	b.ne	.LBB23_70
	cmp	w10, #44
	b.ne	.LBB23_70
	adrp	x2, .Lstatic.51
	add	x2, x2, :lo12:.Lstatic.51
	mov	x0, x19
	mov	w1, #4
	bl	"core::cmp::slices::groups_equal::<i8,31'core::cmp::numbers::U8PartialEq{}>"
	tbnz	w0, #0, .LBB23_82
	mov	w9, #83
	mov	w10, #71
	mov	w8, #77
	ldrb	w11, [x19, #3]
	cmp	w11, #44
	b.eq	.LBB23_78
	b	.LBB23_84
.LBB23_52:
	ldrb	w8, [x19]
	cmp	w8, #123
	mov	x22, x20
	b.ne	.LBB23_89
	b	.LBB23_55
.LBB23_53:
	tbz	w9, #0, .LBB23_76
.LBB23_54:
	cmp	w8, #123
	b.ne	.LBB23_89
.LBB23_55:
	mov	w8, #4
	b	.LBB23_83
.LBB23_56:
	add	x0, sp, #16
	mov	w1, #2
	mov	x2, x19
	mov	x3, x22
	stp	xzr, xzr, [sp, #16]
	str	xzr, [sp, #32]
	bl	"sq_feed::cells::cell_of"
	ldrb	w8, [sp, #16]
	cmp	w8, #1
	b.ne	.LBB23_145
	ldp	x9, x8, [sp, #24]
	mov	x11, xzr
	cbz	x8, .LBB23_61
.LBB23_58:
	ldrb	w10, [x9, x11]
	mov	w12, #1
	mov	x13, #13824
	movk	x13, #1, lsl #32
	lsl	x12, x12, x10
	cmp	w10, #32
	and	x10, x12, x13
	ccmp	x10, #0, #4, ls
	b.eq	.LBB23_61
	add	x11, x11, #1
	cmp	x8, x11
	b.ne	.LBB23_58
	mov	x11, x8
.LBB23_61:
	subs	x10, x8, x11
	add	x1, x9, x11
	b.eq	.LBB23_65
	add	x8, x8, x9
	sub	x8, x8, #1
.LBB23_63:
	ldrb	w9, [x8], #-1
	mov	w11, #1
	mov	x12, #13824
	lsl	x11, x11, x9
	movk	x12, #1, lsl #32
	cmp	w9, #32
	and	x11, x11, x12
	ccmp	x11, #0, #4, ls
	b.eq	.LBB23_141
	sub	x10, x10, #1
	cbnz	x10, .LBB23_63
.LBB23_65:
	mov	x2, xzr
.LBB23_66:
	stp	xzr, xzr, [x29, #-32]
.LBB23_67:
	sub	x0, x29, #32
	bl	"sq_feed::avr::frame_of_any"
	ldurb	w8, [x29, #-32]
	cbz	w8, .LBB23_145
.LBB23_68:
	ldurb	w8, [x29, #-31]
	cbz	w8, .LBB23_145
.LBB23_69:
	mov	w8, #9
	b	.LBB23_136
.LBB23_70:
	cmp	w8, #83
	mov	w9, wzr
	b.ne	.LBB23_31
	cmp	w12, #69
	b.ne	.LBB23_31
	cmp	w11, #76
	b.ne	.LBB23_31
	cmp	w10, #44
	b.ne	.LBB23_31
	adrp	x2, .Lstatic.52
	add	x2, x2, :lo12:.Lstatic.52
	mov	x0, x19
	mov	w1, #4
	bl	"core::cmp::slices::groups_equal::<i8,31'core::cmp::numbers::U8PartialEq{}>"
	tbnz	w0, #0, .LBB23_82
	mov	w9, #69
	mov	w10, #76
	mov	w8, #83
	ldrb	w11, [x19, #3]
	cmp	w11, #44
	b.eq	.LBB23_78
	b	.LBB23_84
.LBB23_76:
	ldrb	w9, [x19, #1]
	ldrb	w10, [x19, #2]
	ldrb	w11, [x19, #3]
	cmp	w11, #44
	b.eq	.LBB23_78
	b	.LBB23_84
.LBB23_77:
	mov	w9, #68
	mov	w8, #73
	ldrb	w11, [x19, #3]
	cmp	w11, #44
	b.ne	.LBB23_84
.LBB23_78:
	cmp	w10, #82
	b.ne	.LBB23_84
	cmp	w8, #65
	b.ne	.LBB23_84
	cmp	w9, #73
	b.ne	.LBB23_84
	adrp	x2, .Lstatic.54
	add	x2, x2, :lo12:.Lstatic.54
	mov	x0, x19
	mov	w1, #4
	bl	"core::cmp::slices::groups_equal::<i8,31'core::cmp::numbers::U8PartialEq{}>"
	tbz	w0, #0, .LBB23_89
.LBB23_82:
	mov	w8, wzr
.LBB23_83:
	ldp	w23, w21, [sp, #8]
	mov	w9, #2
	b	.LBB23_139
.LBB23_84:
	cmp	w11, #44
	b.ne	.LBB23_99
	cmp	w10, #65
	b.ne	.LBB23_99
	cmp	w8, #83
	b.ne	.LBB23_99
	cmp	w9, #84
	b.ne	.LBB23_99
	adrp	x2, .Lstatic.55
	add	x2, x2, :lo12:.Lstatic.55
	mov	x0, x19
	mov	w1, #4
	bl	"core::cmp::slices::groups_equal::<i8,31'core::cmp::numbers::U8PartialEq{}>"
	tbnz	w0, #0, .LBB23_82
.LBB23_89:
	cmp	x22, #512
	b.hi	.LBB23_98
	lsr	x20, x22, #4
	cmp	x20, #0
	cset	w23, eq
	cbz	x20, .LBB23_94
	mov	x8, xzr
	mov	x9, x19
	mov	x10, x20
.LBB23_92:
	movi	v0.16b, #59
	ldr	q1, [x9], #16
	cmeq	v0.16b, v1.16b, v0.16b
	ldr	q1, [x28, :lo12:.LCPI23_1]
	and	v0.16b, v0.16b, v1.16b
	addp	v0.16b, v0.16b, v0.16b
	addp	v0.16b, v0.16b, v0.16b
	addp	v0.16b, v0.16b, v0.16b
	umov	w11, v0.h[0]
	orr	w11, w11, #0x10000
	rbit	w11, w11
	clz	w11, w11
	cmp	w11, #15
	b.ls	.LBB23_106
	sub	x10, x10, #1
	sub	x8, x8, #16
	cbnz	x10, .LBB23_92
.LBB23_94:
	cmp	x22, #15
	b.hi	.LBB23_104
	mov	x8, xzr
.LBB23_96:
	ldrb	w9, [x19, x8]
	cmp	w9, #59
	b.eq	.LBB23_105
	add	x8, x8, #1
	cmp	x22, x8
	b.ne	.LBB23_96
	b	.LBB23_115
.LBB23_98:
	mov	w0, wzr
	mov	w8, wzr
	b	.LBB23_114
.LBB23_99:
	cmp	w11, #44
	b.ne	.LBB23_54
	cmp	w10, #75
	b.ne	.LBB23_54
	cmp	w8, #67
	b.ne	.LBB23_54
	cmp	w9, #76
	b.ne	.LBB23_54
	adrp	x2, .Lstatic.56
	add	x2, x2, :lo12:.Lstatic.56
	mov	x0, x19
	mov	w1, #4
	bl	"core::cmp::slices::groups_equal::<i8,31'core::cmp::numbers::U8PartialEq{}>"
	tbnz	w0, #0, .LBB23_82
	b	.LBB23_89
.LBB23_104:
	movi	v0.16b, #59
	sub	x8, x22, #16
	ldr	q1, [x19, x8]
	cmeq	v0.16b, v1.16b, v0.16b
	ldr	q1, [x28, :lo12:.LCPI23_1]
	and	v0.16b, v0.16b, v1.16b
	addp	v0.16b, v0.16b, v0.16b
	addp	v0.16b, v0.16b, v0.16b
	addp	v0.16b, v0.16b, v0.16b
	umov	w9, v0.h[0]
	orr	w9, w9, #0x10000
	rbit	w9, w9
	clz	w9, w9
	add	x8, x8, x9
	cmp	w9, #16
	csel	x8, x8, x22, lo
.LBB23_105:
	cmp	x8, x22
	b.hs	.LBB23_115
	b	.LBB23_107
.LBB23_106:
	mov	w23, wzr
	sub	x8, x11, x8
	cmp	x8, x22
	b.hs	.LBB23_115
.LBB23_107:
	mov	x21, xzr
	mov	x8, xzr
	b	.LBB23_110
.LBB23_108:
	add	x8, x21, #1
.LBB23_109:
	add	x21, x21, #1
	cmp	x22, x21
	b.eq	.LBB23_112
.LBB23_110:
	ldrb	w9, [x19, x21]
	cmp	w9, #59
	b.ne	.LBB23_109
	sub	x1, x21, x8
	add	x0, x19, x8
	bl	"sq_feed::tables::is_frame_cell"
	tbz	w0, #0, .LBB23_108
	b	.LBB23_113
.LBB23_112:
	sub	x1, x22, x8
	add	x0, x19, x8
	bl	"sq_feed::tables::is_frame_cell"
	tbz	w0, #0, .LBB23_115
.LBB23_113:
	mov	w8, #5
	mov	w0, #1
.LBB23_114:
	ldp	w23, w21, [sp, #8]
	b	.LBB23_138
.LBB23_115:
	str	w26, [sp, #4]
	tbnz	w23, #0, .LBB23_119
	mov	x8, xzr
	mov	x9, x19
	mov	x10, x20
.LBB23_117:
	movi	v0.16b, #9
	ldr	q1, [x9], #16
	cmeq	v0.16b, v1.16b, v0.16b
	ldr	q1, [x28, :lo12:.LCPI23_1]
	and	v0.16b, v0.16b, v1.16b
	addp	v0.16b, v0.16b, v0.16b
	addp	v0.16b, v0.16b, v0.16b
	addp	v0.16b, v0.16b, v0.16b
	umov	w11, v0.h[0]
	orr	w11, w11, #0x10000
	rbit	w11, w11
	clz	w11, w11
	cmp	w11, #15
	b.ls	.LBB23_126
	sub	x10, x10, #1
	sub	x8, x8, #16
	cbnz	x10, .LBB23_117
.LBB23_119:
	cmp	x22, #15
	b.hi	.LBB23_125
	cbz	x22, .LBB23_140
	mov	x8, xzr
.LBB23_122:
	ldrb	w9, [x19, x8]
	cmp	w9, #9
	b.eq	.LBB23_127
	add	x8, x8, #1
	cmp	x22, x8
	b.ne	.LBB23_122
	mov	w26, w23
	b	.LBB23_36
.LBB23_125:
	movi	v0.16b, #9
	sub	x8, x22, #16
	ldr	q1, [x19, x8]
	cmeq	v0.16b, v1.16b, v0.16b
	ldr	q1, [x28, :lo12:.LCPI23_1]
	and	v0.16b, v0.16b, v1.16b
	addp	v0.16b, v0.16b, v0.16b
	addp	v0.16b, v0.16b, v0.16b
	addp	v0.16b, v0.16b, v0.16b
	umov	w9, v0.h[0]
	orr	w9, w9, #0x10000
	rbit	w9, w9
	clz	w9, w9
	add	x8, x8, x9
	cmp	w9, #16
	csel	x8, x8, x22, lo
	mov	w26, w23
	cmp	x8, x22
	b.hs	.LBB23_36
	b	.LBB23_128
.LBB23_126:
	mov	w23, wzr
	sub	x8, x11, x8
.LBB23_127:
	mov	w26, w23
	cmp	x8, x22
	b.hs	.LBB23_36
.LBB23_128:
	mov	x21, xzr
	mov	x8, xzr
	b	.LBB23_130
.LBB23_129:
	add	x21, x21, #1
	cmp	x22, x21
	b.eq	.LBB23_133
.LBB23_130:
	ldrb	w9, [x19, x21]
	cmp	w9, #9
	b.ne	.LBB23_129
	sub	x1, x21, x8
	add	x0, x19, x8
	bl	"sq_feed::tables::is_frame_cell"
	tbnz	w0, #0, .LBB23_134
	add	x8, x21, #1
	b	.LBB23_129
.LBB23_133:
	sub	x1, x22, x8
	add	x0, x19, x8
	bl	"sq_feed::tables::is_frame_cell"
	tbz	w0, #0, .LBB23_36
.LBB23_134:
	mov	w8, #6
	b	.LBB23_136
.LBB23_135:
	mov	w8, #7
.LBB23_136:
	ldp	w23, w21, [sp, #8]
	ldr	w26, [sp, #4]
.LBB23_137:
	mov	w0, #1
.LBB23_138:
	lsl	w9, w0, #1
	cmp	w0, #0
	csel	w8, w8, wzr, ne
.LBB23_139:
	cmp	w26, #0
	ldp	x20, x19, [sp, #176]
	csinc	w9, w9, wzr, eq
	csel	w8, w27, w8, ne
	tst	w24, #0x1
	csel	w8, w8, w25, ne
	ands	w10, w21, #0x1
	csel	w1, w8, w23, ne
	tst	w10, w24
	ldp	x22, x21, [sp, #160]
	csinc	w0, w9, wzr, ne
	ldp	x24, x23, [sp, #144]
	ldp	x26, x25, [sp, #128]
	ldp	x28, x27, [sp, #112]
	ldp	x29, x30, [sp, #96]
	add	sp, sp, #192
	ret
.LBB23_140:
	mov	x20, xzr
	mov	w26, w23
	cmp	xzr, x22
	b.hs	.LBB23_36
	b	.LBB23_128
.LBB23_141:
	subs	x8, x10, #2
	b.lo	.LBB23_167
	ldrb	w11, [x1]
	stp	xzr, xzr, [x29, #-32]
	cmp	w11, #34
	cset	w11, eq
	cmp	w9, #34
	cset	w9, eq
	ands	w9, w9, w11
	csel	x2, x8, x10, ne
	add	x1, x1, x9
	cmp	x2, #28
	b.ne	.LBB23_67
	movi	v0.16b, #223
	ldr	q1, [x1]
	movi	v2.16b, #198
	ldur	q4, [x1, #12]
	movi	v3.16b, #64
	movi	v6.16b, #6
	movi	v7.16b, #10
	movi	v16.16b, #191
	movi	v17.16b, #16
	and	v5.16b, v1.16b, v0.16b
	and	v0.16b, v4.16b, v0.16b
	add	v1.16b, v1.16b, v2.16b
	add	v2.16b, v4.16b, v2.16b
	sub	v4.16b, v3.16b, v5.16b
	sub	v3.16b, v3.16b, v0.16b
	uqsub	v1.16b, v1.16b, v6.16b
	uqsub	v2.16b, v2.16b, v6.16b
	add	v5.16b, v5.16b, v16.16b
	add	v0.16b, v0.16b, v16.16b
	umin	v4.16b, v4.16b, v7.16b
	umin	v3.16b, v3.16b, v7.16b
	add	v1.16b, v1.16b, v17.16b
	add	v2.16b, v2.16b, v17.16b
	add	v4.16b, v5.16b, v4.16b
	add	v0.16b, v0.16b, v3.16b
	umin	v1.16b, v1.16b, v4.16b
	umin	v0.16b, v2.16b, v0.16b
	movi	v2.16b, #15
	orr	v0.16b, v0.16b, v1.16b
	ldr	q1, [x28, :lo12:.LCPI23_1]
	cmhi	v0.16b, v0.16b, v2.16b
	and	v0.16b, v0.16b, v1.16b
	addp	v0.16b, v0.16b, v0.16b
	addp	v0.16b, v0.16b, v0.16b
	addp	v0.16b, v0.16b, v0.16b
	umov	w8, v0.h[0]
	cbz	w8, .LBB23_69
	sub	x0, x29, #32
	mov	w2, #28
	bl	"sq_feed::avr::frame_of_any"
	ldurb	w8, [x29, #-32]
	cbnz	w8, .LBB23_68
.LBB23_145:
	tbnz	w26, #0, .LBB23_149
	mov	x8, xzr
	mov	x9, x19
.LBB23_147:
	movi	v0.16b, #44
	ldr	q1, [x9], #16
	cmeq	v0.16b, v1.16b, v0.16b
	ldr	q1, [x28, :lo12:.LCPI23_1]
	and	v0.16b, v0.16b, v1.16b
	addp	v0.16b, v0.16b, v0.16b
	addp	v0.16b, v0.16b, v0.16b
	addp	v0.16b, v0.16b, v0.16b
	umov	w10, v0.h[0]
	orr	w10, w10, #0x10000
	rbit	w10, w10
	clz	w10, w10
	cmp	w10, #15
	b.ls	.LBB23_155
	sub	x20, x20, #1
	sub	x8, x8, #16
	cbnz	x20, .LBB23_147
.LBB23_149:
	cmp	x22, #15
	b.hi	.LBB23_154
	ldr	w26, [sp, #4]
	mov	x9, xzr
	cbz	x22, .LBB23_165
	ldp	w23, w21, [sp, #8]
.LBB23_152:
	ldrb	w8, [x19, x9]
	cmp	w8, #44
	b.eq	.LBB23_157
	add	x9, x9, #1
	mov	w0, wzr
	mov	w8, wzr
	cmp	x22, x9
	b.ne	.LBB23_152
	b	.LBB23_138
.LBB23_154:
	movi	v0.16b, #44
	sub	x8, x22, #16
	ldr	q1, [x19, x8]
	cmeq	v0.16b, v1.16b, v0.16b
	ldr	q1, [x28, :lo12:.LCPI23_1]
	and	v0.16b, v0.16b, v1.16b
	addp	v0.16b, v0.16b, v0.16b
	addp	v0.16b, v0.16b, v0.16b
	addp	v0.16b, v0.16b, v0.16b
	umov	w9, v0.h[0]
	orr	w9, w9, #0x10000
	rbit	w9, w9
	clz	w9, w9
	add	x8, x8, x9
	cmp	w9, #16
	csel	x9, x8, x22, lo
	b	.LBB23_156
.LBB23_155:
	sub	x9, x10, x8
.LBB23_156:
	ldp	w23, w21, [sp, #8]
	ldr	w26, [sp, #4]
.LBB23_157:
	cmp	x9, x22
	b.hs	.LBB23_166
.LBB23_158:
	mov	x20, xzr
	mov	x8, xzr
	b	.LBB23_161
.LBB23_159:
	add	x8, x20, #1
.LBB23_160:
	add	x20, x20, #1
	cmp	x22, x20
	b.eq	.LBB23_164
.LBB23_161:
	ldrb	w9, [x19, x20]
	cmp	w9, #44
	b.ne	.LBB23_160
	sub	x1, x20, x8
	add	x0, x19, x8
	bl	"sq_feed::tables::is_frame_cell"
	tbz	w0, #0, .LBB23_159
	mov	w8, #10
	b	.LBB23_137
.LBB23_164:
	sub	x1, x22, x8
	add	x0, x19, x8
	bl	"sq_feed::tables::is_frame_cell"
	mov	w8, #10
	cmp	w0, #0
	csel	w8, w8, wzr, ne
	b	.LBB23_138
.LBB23_165:
	ldp	w23, w21, [sp, #8]
	cmp	x9, x22
	b.lo	.LBB23_158
.LBB23_166:
	mov	w0, wzr
	mov	w8, wzr
	b	.LBB23_138
.LBB23_167:
	mov	w2, #1
	b	.LBB23_66
.Lfunc_end23:
	.size	"sq_feed::signs::line_sign", .Lfunc_end23-"sq_feed::signs::line_sign"

	.section	.rodata.cst16,"aM",@progbits,16
	.p2align	4, 0x0
.LCPI24_0:
	.byte	1
	.byte	2
	.byte	4
	.byte	8
	.byte	16
	.byte	32
	.byte	64
	.byte	128
	.byte	1
	.byte	2
	.byte	4
	.byte	8
	.byte	16
	.byte	32
	.byte	64
	.byte	128
	.section	".text.sq_feed::rows::row_read","ax",@progbits
	.p2align	2
	.type	"sq_feed::rows::row_read",@function
"sq_feed::rows::row_read":
	sub	sp, sp, #304
	mov	x8, x1
	stp	x22, x21, [sp, #272]
	ldrb	w9, [x1]
	ldr	x1, [x1, #8]
	ldr	x22, [x8, #16]
	stp	x20, x19, [sp, #288]
	mov	x19, x0
	stp	x29, x30, [sp, #208]
	add	x29, sp, #208
	stp	x28, x27, [sp, #224]
	stp	x26, x25, [sp, #240]
	stp	x24, x23, [sp, #256]
	str	xzr, [sp, #96]
	stur	xzr, [sp, #102]
	str	xzr, [sp, #80]
	stur	xzr, [sp, #86]
	str	xzr, [sp, #64]
	stur	xzr, [sp, #70]
	str	xzr, [sp, #48]
	stur	xzr, [sp, #54]
	str	xzr, [sp, #32]
	stur	xzr, [sp, #38]
	stur	xzr, [sp, #22]
	str	xzr, [sp, #16]
	stur	xzr, [sp, #6]
	str	xzr, [sp]
	cbz	x3, .LBB24_25
	add	x8, x2, x3
	mov	x20, x2
	ldurb	w8, [x8, #-1]
	cmp	w8, #13
	cset	w8, eq
	sub	x21, x3, x8
	subs	x8, x21, #3
	b.lo	.LBB24_6
	ldrb	w10, [x20]
	cmp	w10, #239
	b.ne	.LBB24_7
	ldrb	w10, [x20, #1]
	cmp	w10, #187
	b.ne	.LBB24_7
	ldrb	w10, [x20, #2]
	cmp	w10, #191
	b.ne	.LBB24_7
	add	x20, x20, #3
	mov	x21, x8
.LBB24_6:
	cbz	x21, .LBB24_25
.LBB24_7:
	sub	x26, x29, #80
	adrp	x27, .LCPI24_0
	cbz	w9, .LBB24_26
	sub	x0, x29, #48
	mov	x2, x20
	mov	x3, x21
	stur	xzr, [x26, #6]
	stur	xzr, [x29, #-80]
	stp	xzr, xzr, [x29, #-48]
	stur	xzr, [x29, #-32]
	bl	"sq_feed::cells::cell_of"
	ldurb	w8, [x29, #-48]
	cmp	w8, #1
	b.ne	.LBB24_63
	ldp	x9, x8, [x29, #-40]
	mov	x11, xzr
	cbz	x8, .LBB24_13
.LBB24_10:
	ldrb	w10, [x9, x11]
	mov	w12, #1
	mov	x13, #13824
	movk	x13, #1, lsl #32
	lsl	x12, x12, x10
	cmp	w10, #32
	and	x10, x12, x13
	ccmp	x10, #0, #4, ls
	b.eq	.LBB24_13
	add	x11, x11, #1
	cmp	x8, x11
	b.ne	.LBB24_10
	mov	x11, x8
.LBB24_13:
	subs	x10, x8, x11
	add	x24, x9, x11
	b.eq	.LBB24_17
	add	x8, x8, x9
	sub	x8, x8, #1
.LBB24_15:
	ldrb	w9, [x8], #-1
	mov	w11, #1
	mov	x12, #13824
	lsl	x11, x11, x9
	movk	x12, #1, lsl #32
	cmp	w9, #32
	and	x11, x11, x12
	ccmp	x11, #0, #4, ls
	b.eq	.LBB24_73
	sub	x10, x10, #1
	cbnz	x10, .LBB24_15
.LBB24_17:
	mov	x28, xzr
.LBB24_18:
	mov	x25, xzr
.LBB24_19:
	mov	w0, #12
	mov	x1, x24
	mov	x2, x25
	bl	"sq_feed::cells::number_of"
	tbz	w0, #0, .LBB24_63
	add	x8, x25, #1
	mov	x23, x1
	cmp	x28, x8
	csinc	x10, x28, x25, lo
	cmp	x28, x8
	sub	x9, x28, x10
	add	x8, x24, x10
	mov	x10, x8
	mov	x11, x9
	b.ls	.LBB24_48
.LBB24_21:
	ldrb	w12, [x10], #1
	sub	w12, w12, #48
	cmp	w12, #10
	b.hs	.LBB24_63
	subs	x11, x11, #1
	b.ne	.LBB24_21
	cmp	x9, #1
	b.ne	.LBB24_84
	ldrb	w8, [x8]
	mov	w9, #100
	sub	w8, w8, #48
	and	x8, x8, #0xff
	umull	x24, w8, w9
	b	.LBB24_49
.LBB24_25:
	movi	v0.2d, #0000000000000000
	stur	q0, [x19, #31]
	stp	q0, q0, [x19]
	b	.LBB24_101
.LBB24_26:
	lsr	x8, x21, #4
	cbz	x8, .LBB24_30
	mov	x9, xzr
	mov	x10, x20
.LBB24_28:
	movi	v0.16b, #32
	ldr	q1, [x10], #16
	cmeq	v0.16b, v1.16b, v0.16b
	ldr	q1, [x27, :lo12:.LCPI24_0]
	and	v0.16b, v0.16b, v1.16b
	addp	v0.16b, v0.16b, v0.16b
	addp	v0.16b, v0.16b, v0.16b
	addp	v0.16b, v0.16b, v0.16b
	umov	w11, v0.h[0]
	orr	w11, w11, #0x10000
	rbit	w11, w11
	clz	w11, w11
	cmp	w11, #15
	b.ls	.LBB24_37
	sub	x8, x8, #1
	sub	x9, x9, #16
	cbnz	x8, .LBB24_28
.LBB24_30:
	cmp	x21, #15
	b.hi	.LBB24_35
	mov	x22, xzr
.LBB24_32:
	ldrb	w8, [x20, x22]
	cmp	w8, #32
	b.eq	.LBB24_36
	add	x22, x22, #1
	cmp	x21, x22
	b.ne	.LBB24_32
	mov	x22, x21
	mov	w0, #20
	mov	x1, x20
	mov	x2, x22
	bl	"sq_feed::cells::number_of"
	tbnz	w0, #0, .LBB24_38
	b	.LBB24_98
.LBB24_35:
	movi	v0.16b, #32
	sub	x8, x21, #16
	ldr	q1, [x20, x8]
	cmeq	v0.16b, v1.16b, v0.16b
	ldr	q1, [x27, :lo12:.LCPI24_0]
	and	v0.16b, v0.16b, v1.16b
	addp	v0.16b, v0.16b, v0.16b
	addp	v0.16b, v0.16b, v0.16b
	addp	v0.16b, v0.16b, v0.16b
	umov	w9, v0.h[0]
	orr	w9, w9, #0x10000
	rbit	w9, w9
	clz	w9, w9
	add	x8, x8, x9
	cmp	w9, #16
	csel	x22, x8, x21, lo
.LBB24_36:
	mov	w0, #20
	mov	x1, x20
	mov	x2, x22
	bl	"sq_feed::cells::number_of"
	tbnz	w0, #0, .LBB24_38
	b	.LBB24_98
.LBB24_37:
	sub	x22, x11, x9
	mov	w0, #20
	mov	x1, x20
	mov	x2, x22
	bl	"sq_feed::cells::number_of"
	tbz	w0, #0, .LBB24_98
.LBB24_38:
	add	x8, x22, #1
	stur	xzr, [x29, #-24]
	cmp	x21, x8
	stur	xzr, [x26, #62]
	csinc	x9, x21, x22, lo
	cmp	x21, x8
	stur	xzr, [x29, #-64]
	sub	x2, x21, x9
	add	x8, x20, x9
	stur	xzr, [x26, #22]
	b.ls	.LBB24_43
	ldrb	w10, [x8]
	add	x9, x20, x21
	ldurb	w9, [x9, #-1]
	cmp	w10, #42
	b.ne	.LBB24_71
	cmp	w9, #59
	b.ne	.LBB24_80
	mov	x20, x1
	cmp	x2, #1
	b.ne	.LBB24_91
	mov	x2, xzr
	stp	xzr, xzr, [x29, #-48]
	b	.LBB24_94
.LBB24_43:
	stp	xzr, xzr, [x29, #-48]
.LBB24_44:
	mov	x20, x1
	sub	x0, x29, #48
	mov	x1, x8
.LBB24_45:
	bl	"sq_feed::avr::frame_of_any"
	ldur	x10, [x26, #34]
	ldur	x11, [x29, #-40]
	mov	x1, x20
	ldurb	w8, [x29, #-48]
	ldurb	w9, [x29, #-47]
	stur	x10, [x29, #-64]
	stur	x11, [x26, #22]
.LBB24_46:
	ldur	x10, [x29, #-64]
	ldur	x11, [x26, #22]
	cmp	w8, #1
	stur	x10, [x29, #-96]
	stur	x11, [x29, #-90]
	b.ne	.LBB24_98
.LBB24_47:
	ldur	x8, [x29, #-96]
	ldur	x10, [x29, #-90]
	mov	w22, wzr
	str	x8, [sp, #80]
	mov	w8, #2
	stur	x10, [sp, #86]
	b	.LBB24_99
.LBB24_48:
	mov	x24, xzr
.LBB24_49:
	sub	x0, x29, #48
	mov	x1, x22
	mov	x2, x20
	mov	x3, x21
	stp	xzr, xzr, [x29, #-40]
	stur	xzr, [x29, #-48]
	bl	"sq_feed::cells::cell_of"
	ldurb	w8, [x29, #-48]
	cmp	w8, #1
	b.ne	.LBB24_63
	ldp	x9, x8, [x29, #-40]
	mov	x11, xzr
	cbz	x8, .LBB24_54
.LBB24_51:
	ldrb	w10, [x9, x11]
	mov	w12, #1
	mov	x13, #13824
	movk	x13, #1, lsl #32
	lsl	x12, x12, x10
	cmp	w10, #32
	and	x10, x12, x13
	ccmp	x10, #0, #4, ls
	b.eq	.LBB24_54
	add	x11, x11, #1
	cmp	x8, x11
	b.ne	.LBB24_51
	mov	x11, x8
.LBB24_54:
	subs	x10, x8, x11
	add	x1, x9, x11
	b.eq	.LBB24_58
	add	x8, x8, x9
	sub	x8, x8, #1
.LBB24_56:
	ldrb	w9, [x8], #-1
	mov	w11, #1
	mov	x12, #13824
	lsl	x11, x11, x9
	movk	x12, #1, lsl #32
	cmp	w9, #32
	and	x11, x11, x12
	ccmp	x11, #0, #4, ls
	b.eq	.LBB24_103
	sub	x10, x10, #1
	cbnz	x10, .LBB24_56
.LBB24_58:
	mov	x2, xzr
.LBB24_59:
	stp	xzr, xzr, [x29, #-24]
.LBB24_60:
	sub	x0, x29, #24
.LBB24_61:
	bl	"sq_feed::avr::frame_of_any"
	ldur	x8, [x26, #58]
	ldur	x9, [x29, #-16]
	stur	x8, [x29, #-64]
	ldurb	w8, [x29, #-24]
	mov	x11, x9
	stur	x9, [x26, #22]
	ldurb	w9, [x29, #-23]
	ldur	x10, [x29, #-64]
	cmp	w8, #1
	stur	x10, [x29, #-80]
	stur	x11, [x26, #6]
	b.ne	.LBB24_63
.LBB24_62:
	ldur	x8, [x29, #-80]
	ldur	x12, [x26, #6]
	mov	w13, #1000
	mov	x10, xzr
	mov	w22, wzr
	mov	w11, wzr
	str	x8, [sp, #48]
	madd	x1, x23, x13, x24
	stur	x12, [sp, #54]
	ldr	x8, [sp, #48]
	str	x8, [sp, #32]
	mov	w8, #2
	stur	x12, [sp, #38]
	mov	w12, #2
	b	.LBB24_70
.LBB24_63:
	adrp	x0, .Lstatic.47
	add	x0, x0, :lo12:.Lstatic.47
	mov	w1, #4
	mov	x2, x20
	mov	x3, x21
	bl	"sq_feed::cells::column_of"
	and	w8, w0, #0xff
	cmp	w8, #1
	b.eq	.LBB24_66
	adrp	x0, .Lstatic.48
	add	x0, x0, :lo12:.Lstatic.48
	mov	w1, #7
	mov	x2, x20
	mov	x3, x21
	bl	"sq_feed::cells::column_of"
	and	w8, w0, #0xff
	cmp	w8, #1
	b.eq	.LBB24_66
	adrp	x0, .Lstatic.49
	add	x0, x0, :lo12:.Lstatic.49
	mov	w1, #9
	mov	x2, x20
	mov	x3, x21
	bl	"sq_feed::cells::column_of"
	tbz	w0, #0, .LBB24_68
.LBB24_66:
	mov	x22, x1
	adrp	x0, .Lstatic.46
	add	x0, x0, :lo12:.Lstatic.46
	mov	w1, #6
	mov	x2, x20
	mov	x3, x21
	bl	"sq_feed::cells::column_of"
	tbz	w0, #0, .LBB24_68
	mov	x8, x1
	lsr	x11, x22, #8
	lsr	x10, x22, #16
	mov	w12, #1
	b	.LBB24_69
.LBB24_68:
	ldr	x9, [sp]
	ldur	x12, [sp, #6]
	mov	x10, xzr
	mov	w11, wzr
	mov	x8, xzr
	mov	w22, #1
	str	x9, [sp, #16]
	stur	x12, [sp, #22]
	mov	w12, #2
.LBB24_69:
	ldr	x13, [sp, #16]
	ldur	x14, [sp, #22]
	mov	x1, xzr
	mov	w9, wzr
	str	x13, [sp, #32]
	stur	x14, [sp, #38]
.LBB24_70:
	ldr	x13, [sp, #32]
	ldur	x14, [sp, #38]
	str	x13, [sp, #96]
	stur	x14, [sp, #102]
	b	.LBB24_100
.LBB24_71:
	cmp	w9, #59
	b.ne	.LBB24_81
	mov	w8, wzr
	mov	w9, wzr
	b	.LBB24_46
.LBB24_73:
	subs	x8, x10, #2
	b.lo	.LBB24_86
	ldrb	w11, [x24]
	cmp	w11, #34
	cset	w11, eq
	cmp	w9, #34
	cset	w9, eq
	ands	w9, w9, w11
	csel	x28, x8, x10, ne
	add	x24, x24, x9
	lsr	x8, x28, #4
	cbz	x8, .LBB24_78
	mov	x9, xzr
	mov	x10, x24
.LBB24_76:
	movi	v0.16b, #46
	ldr	q1, [x10], #16
	cmeq	v0.16b, v1.16b, v0.16b
	ldr	q1, [x27, :lo12:.LCPI24_0]
	and	v0.16b, v0.16b, v1.16b
	addp	v0.16b, v0.16b, v0.16b
	addp	v0.16b, v0.16b, v0.16b
	addp	v0.16b, v0.16b, v0.16b
	umov	w11, v0.h[0]
	orr	w11, w11, #0x10000
	rbit	w11, w11
	clz	w11, w11
	cmp	w11, #15
	b.ls	.LBB24_108
	sub	x8, x8, #1
	sub	x9, x9, #16
	cbnz	x8, .LBB24_76
.LBB24_78:
	cmp	x28, #15
	b.hi	.LBB24_107
	cbnz	x28, .LBB24_87
	b	.LBB24_18
.LBB24_80:
	mov	w8, wzr
	mov	w9, wzr
	b	.LBB24_97
.LBB24_81:
	cmp	x2, #28
	stp	xzr, xzr, [x29, #-48]
	b.ne	.LBB24_44
	movi	v0.16b, #223
	ldr	q1, [x8]
	movi	v2.16b, #198
	ldur	q4, [x8, #12]
	movi	v3.16b, #64
	movi	v6.16b, #6
	movi	v7.16b, #10
	movi	v16.16b, #191
	movi	v17.16b, #16
	and	v5.16b, v1.16b, v0.16b
	and	v0.16b, v4.16b, v0.16b
	add	v1.16b, v1.16b, v2.16b
	add	v2.16b, v4.16b, v2.16b
	sub	v4.16b, v3.16b, v5.16b
	sub	v3.16b, v3.16b, v0.16b
	uqsub	v1.16b, v1.16b, v6.16b
	uqsub	v2.16b, v2.16b, v6.16b
	add	v5.16b, v5.16b, v16.16b
	add	v0.16b, v0.16b, v16.16b
	umin	v4.16b, v4.16b, v7.16b
	umin	v3.16b, v3.16b, v7.16b
	add	v1.16b, v1.16b, v17.16b
	add	v2.16b, v2.16b, v17.16b
	add	v4.16b, v5.16b, v4.16b
	add	v3.16b, v0.16b, v3.16b
	umin	v0.16b, v1.16b, v4.16b
	umin	v1.16b, v2.16b, v3.16b
	movi	v2.16b, #15
	orr	v3.16b, v1.16b, v0.16b
	cmhi	v2.16b, v3.16b, v2.16b
	ldr	q3, [x27, :lo12:.LCPI24_0]
	and	v2.16b, v2.16b, v3.16b
	addp	v2.16b, v2.16b, v2.16b
	addp	v2.16b, v2.16b, v2.16b
	addp	v2.16b, v2.16b, v2.16b
	umov	w9, v2.h[0]
	cbz	w9, .LBB24_109
	mov	x20, x1
	sub	x0, x29, #48
	mov	x1, x8
	mov	w2, #28
	b	.LBB24_45
.LBB24_84:
	cmp	x9, #2
	b.hi	.LBB24_102
	ldrb	w9, [x8]
	ldrb	w8, [x8, #1]
	mov	w10, #100
	sub	w9, w9, #48
	sub	w8, w8, #48
	and	x9, x9, #0xff
	and	x8, x8, #0xff
	umull	x9, w9, w10
	mov	w10, #10
	umaddl	x24, w8, w10, x9
	b	.LBB24_49
.LBB24_86:
	mov	w28, #1
.LBB24_87:
	mov	x25, xzr
.LBB24_88:
	ldrb	w8, [x24, x25]
	cmp	w8, #46
	b.eq	.LBB24_19
	add	x25, x25, #1
	cmp	x28, x25
	b.ne	.LBB24_88
	mov	x25, x28
	b	.LBB24_19
.LBB24_91:
	sub	x2, x2, #2
	stp	xzr, xzr, [x29, #-48]
	cmp	x2, #28
	b.ne	.LBB24_94
	movi	v0.16b, #223
	ldur	q1, [x8, #1]
	movi	v2.16b, #198
	ldur	q4, [x8, #13]
	movi	v3.16b, #64
	movi	v6.16b, #6
	movi	v7.16b, #10
	movi	v16.16b, #191
	movi	v17.16b, #16
	and	v5.16b, v1.16b, v0.16b
	and	v0.16b, v4.16b, v0.16b
	add	v1.16b, v1.16b, v2.16b
	add	v2.16b, v4.16b, v2.16b
	sub	v4.16b, v3.16b, v5.16b
	sub	v3.16b, v3.16b, v0.16b
	uqsub	v1.16b, v1.16b, v6.16b
	uqsub	v2.16b, v2.16b, v6.16b
	add	v5.16b, v5.16b, v16.16b
	add	v0.16b, v0.16b, v16.16b
	umin	v4.16b, v4.16b, v7.16b
	umin	v3.16b, v3.16b, v7.16b
	add	v1.16b, v1.16b, v17.16b
	add	v2.16b, v2.16b, v17.16b
	add	v4.16b, v5.16b, v4.16b
	add	v3.16b, v0.16b, v3.16b
	umin	v0.16b, v1.16b, v4.16b
	umin	v1.16b, v2.16b, v3.16b
	movi	v2.16b, #15
	orr	v3.16b, v1.16b, v0.16b
	cmhi	v2.16b, v3.16b, v2.16b
	ldr	q3, [x27, :lo12:.LCPI24_0]
	and	v2.16b, v2.16b, v3.16b
	addp	v2.16b, v2.16b, v2.16b
	addp	v2.16b, v2.16b, v2.16b
	addp	v2.16b, v2.16b, v2.16b
	umov	w9, v2.h[0]
	cbz	w9, .LBB24_111
	sub	x0, x29, #48
	add	x1, x8, #1
	mov	w2, #28
	b	.LBB24_95
.LBB24_94:
	sub	x0, x29, #48
	add	x1, x8, #1
.LBB24_95:
	bl	"sq_feed::avr::frame_of_any"
	ldur	x10, [x26, #34]
	ldur	x11, [x29, #-40]
	ldurb	w8, [x29, #-48]
	ldurb	w9, [x29, #-47]
	stur	x10, [x29, #-24]
	stur	x11, [x26, #62]
.LBB24_96:
	mov	x1, x20
.LBB24_97:
	ldur	x10, [x29, #-24]
	ldur	x11, [x26, #62]
	cmp	w8, #1
	stur	x10, [x29, #-96]
	stur	x11, [x29, #-90]
	b.eq	.LBB24_47
.LBB24_98:
	ldr	x10, [sp, #64]
	ldur	x11, [sp, #70]
	mov	x8, xzr
	mov	x1, xzr
	mov	w9, wzr
	mov	w22, #1
	str	x10, [sp, #80]
	stur	x11, [sp, #86]
.LBB24_99:
	ldr	x12, [sp, #80]
	ldur	x13, [sp, #86]
	mov	x10, xzr
	mov	w11, wzr
	str	x12, [sp, #96]
	mov	w12, #2
	stur	x13, [sp, #102]
.LBB24_100:
	strb	w11, [x19, #9]
	lsr	x11, x10, #32
	stp	x8, x1, [x19, #16]
	ldr	x8, [sp, #96]
	strb	w9, [x19, #32]
	ldur	x9, [sp, #102]
	str	x12, [x19]
	strb	w22, [x19, #8]
	stur	w10, [x19, #10]
	strh	w11, [x19, #14]
	stur	x8, [x19, #33]
	stur	x9, [x19, #39]
.LBB24_101:
	ldp	x20, x19, [sp, #288]
	ldp	x22, x21, [sp, #272]
	ldp	x24, x23, [sp, #256]
	ldp	x26, x25, [sp, #240]
	ldp	x28, x27, [sp, #224]
	ldp	x29, x30, [sp, #208]
	add	sp, sp, #304
	ret
.LBB24_102:
	ldrb	w9, [x8, #1]
	ldrb	w10, [x8]
	mov	w11, #10
	ldrb	w8, [x8, #2]
	umull	x9, w9, w11
	mov	w11, #100
	umaddl	x9, w10, w11, x9
	mov	x10, #-5328
	add	x8, x8, x10
	add	x24, x9, x8
	b	.LBB24_49
.LBB24_103:
	subs	x8, x10, #2
	b.lo	.LBB24_110
	ldrb	w11, [x1]
	stp	xzr, xzr, [x29, #-24]
	cmp	w11, #34
	cset	w11, eq
	cmp	w9, #34
	cset	w9, eq
	ands	w9, w9, w11
	csel	x2, x8, x10, ne
	add	x1, x1, x9
	cmp	x2, #28
	b.ne	.LBB24_60
	movi	v0.16b, #223
	ldr	q1, [x1]
	movi	v2.16b, #198
	ldur	q4, [x1, #12]
	movi	v3.16b, #64
	movi	v6.16b, #6
	movi	v7.16b, #10
	movi	v16.16b, #191
	movi	v17.16b, #16
	and	v5.16b, v1.16b, v0.16b
	and	v0.16b, v4.16b, v0.16b
	add	v1.16b, v1.16b, v2.16b
	add	v2.16b, v4.16b, v2.16b
	sub	v4.16b, v3.16b, v5.16b
	sub	v3.16b, v3.16b, v0.16b
	uqsub	v1.16b, v1.16b, v6.16b
	uqsub	v2.16b, v2.16b, v6.16b
	add	v5.16b, v5.16b, v16.16b
	add	v0.16b, v0.16b, v16.16b
	umin	v4.16b, v4.16b, v7.16b
	umin	v3.16b, v3.16b, v7.16b
	add	v1.16b, v1.16b, v17.16b
	add	v2.16b, v2.16b, v17.16b
	add	v4.16b, v5.16b, v4.16b
	add	v3.16b, v0.16b, v3.16b
	umin	v0.16b, v1.16b, v4.16b
	umin	v1.16b, v2.16b, v3.16b
	movi	v2.16b, #15
	orr	v3.16b, v1.16b, v0.16b
	cmhi	v2.16b, v3.16b, v2.16b
	ldr	q3, [x27, :lo12:.LCPI24_0]
	and	v2.16b, v2.16b, v3.16b
	addp	v2.16b, v2.16b, v2.16b
	addp	v2.16b, v2.16b, v2.16b
	addp	v2.16b, v2.16b, v2.16b
	umov	w8, v2.h[0]
	cbz	w8, .LBB24_112
	sub	x0, x29, #24
	mov	w2, #28
	b	.LBB24_61
.LBB24_107:
	movi	v0.16b, #46
	sub	x8, x28, #16
	ldr	q1, [x24, x8]
	cmeq	v0.16b, v1.16b, v0.16b
	ldr	q1, [x27, :lo12:.LCPI24_0]
	and	v0.16b, v0.16b, v1.16b
	addp	v0.16b, v0.16b, v0.16b
	addp	v0.16b, v0.16b, v0.16b
	addp	v0.16b, v0.16b, v0.16b
	umov	w9, v0.h[0]
	orr	w9, w9, #0x10000
	rbit	w9, w9
	clz	w9, w9
	add	x8, x8, x9
	cmp	w9, #16
	csel	x25, x8, x28, lo
	b	.LBB24_19
.LBB24_108:
	sub	x25, x11, x9
	b	.LBB24_19
.LBB24_109:
	xtn	v2.8b, v1.8h
	uzp2	v1.16b, v1.16b, v0.16b
	xtn	v3.8b, v0.8h
	uzp2	v0.16b, v0.16b, v0.16b
	shl	v2.8b, v2.8b, #4
	shl	v3.8b, v3.8b, #4
	orr	v1.8b, v2.8b, v1.8b
	orr	v0.8b, v3.8b, v0.8b
	umov	w8, v1.b[2]
	umov	w9, v1.b[3]
	mov	b3, v1.b[6]
	stur	d0, [x26, #34]
	fmov	s2, w8
	umov	w8, v1.b[4]
	stur	b3, [x26, #46]
	mov	v2.h[1], w9
	umov	w9, v1.b[5]
	mov	b1, v1.b[7]
	mov	v2.h[2], w8
	stur	b1, [x26, #47]
	ldur	x8, [x26, #34]
	stur	x8, [x29, #-64]
	mov	w8, #1
	mov	v2.h[3], w9
	xtn	v2.8b, v2.8h
	stur	s2, [x26, #42]
	ldur	x9, [x29, #-40]
	stur	x9, [x26, #22]
	mov	w9, #2
	b	.LBB24_46
.LBB24_110:
	mov	w2, #1
	b	.LBB24_59
.LBB24_111:
	xtn	v2.8b, v1.8h
	uzp2	v1.16b, v1.16b, v0.16b
	xtn	v3.8b, v0.8h
	uzp2	v0.16b, v0.16b, v0.16b
	shl	v2.8b, v2.8b, #4
	shl	v3.8b, v3.8b, #4
	orr	v1.8b, v2.8b, v1.8b
	orr	v0.8b, v3.8b, v0.8b
	umov	w8, v1.b[2]
	umov	w9, v1.b[3]
	mov	b3, v1.b[6]
	stur	d0, [x26, #34]
	fmov	s2, w8
	umov	w8, v1.b[4]
	stur	b3, [x26, #46]
	mov	v2.h[1], w9
	umov	w9, v1.b[5]
	mov	b1, v1.b[7]
	mov	v2.h[2], w8
	stur	b1, [x26, #47]
	ldur	x8, [x26, #34]
	stur	x8, [x29, #-24]
	mov	w8, #1
	mov	v2.h[3], w9
	xtn	v2.8b, v2.8h
	stur	s2, [x26, #42]
	ldur	x9, [x29, #-40]
	stur	x9, [x26, #62]
	mov	w9, #2
	b	.LBB24_96
.LBB24_112:
	xtn	v2.8b, v1.8h
	uzp2	v1.16b, v1.16b, v0.16b
	xtn	v3.8b, v0.8h
	uzp2	v0.16b, v0.16b, v0.16b
	shl	v2.8b, v2.8b, #4
	shl	v3.8b, v3.8b, #4
	orr	v1.8b, v2.8b, v1.8b
	orr	v0.8b, v3.8b, v0.8b
	umov	w8, v1.b[2]
	umov	w9, v1.b[3]
	mov	b3, v1.b[6]
	stur	d0, [x26, #58]
	fmov	s2, w8
	umov	w8, v1.b[4]
	stur	b3, [x26, #70]
	mov	v2.h[1], w9
	umov	w9, v1.b[5]
	mov	b1, v1.b[7]
	mov	v2.h[2], w8
	stur	b1, [x26, #71]
	ldur	x8, [x26, #58]
	stur	x8, [x29, #-64]
	mov	v2.h[3], w9
	xtn	v2.8b, v2.8h
	stur	s2, [x26, #66]
	ldur	x9, [x29, #-16]
	stur	x9, [x26, #22]
	ldur	x8, [x29, #-64]
	stur	x8, [x29, #-80]
	stur	x9, [x26, #6]
	mov	w9, #2
	b	.LBB24_62
.Lfunc_end24:
	.size	"sq_feed::rows::row_read", .Lfunc_end24-"sq_feed::rows::row_read"

	.section	".text.sq_feed::cells::number_of","ax",@progbits
	.p2align	2
	.type	"sq_feed::cells::number_of",@function
"sq_feed::cells::number_of":
	stp	x20, x19, [sp, #-16]!
	sub	x8, x2, #1
	cmp	x8, x0
	b.hs	.LBB25_27
	cmp	x2, #19
	b.hi	.LBB25_6
	mov	x8, xzr
.LBB25_3:
	ldrb	w9, [x1], #1
	sub	w9, w9, #48
	cmp	w9, #9
	b.hi	.LBB25_27
	mov	w10, #10
	subs	x2, x2, #1
	mul	x8, x8, x10
	add	x8, x8, w9, uxtb
	b.ne	.LBB25_3
	mov	w0, #1
	mov	x1, x8
	ldp	x20, x19, [sp], #16
	ret
.LBB25_6:
	ldrb	w8, [x1]
	sub	w8, w8, #48
	cmp	w8, #10
	b.hs	.LBB25_27
	ldrb	w9, [x1, #1]
	sub	w12, w9, #48
	cmp	w12, #9
	b.hi	.LBB25_27
	ldrb	w9, [x1, #2]
	sub	w9, w9, #48
	cmp	w9, #9
	b.hi	.LBB25_27
	ldrb	w10, [x1, #3]
	sub	w10, w10, #48
	cmp	w10, #9
	b.hi	.LBB25_27
	ldrb	w11, [x1, #4]
	sub	w11, w11, #48
	cmp	w11, #9
	b.hi	.LBB25_27
	ldrb	w13, [x1, #5]
	sub	w13, w13, #48
	cmp	w13, #9
	b.hi	.LBB25_27
	ldrb	w14, [x1, #6]
	sub	w14, w14, #48
	cmp	w14, #9
	b.hi	.LBB25_27
	ldrb	w15, [x1, #7]
	sub	w15, w15, #48
	cmp	w15, #9
	b.hi	.LBB25_27
	ldrb	w16, [x1, #8]
	sub	w16, w16, #48
	cmp	w16, #9
	b.hi	.LBB25_27
	ldrb	w17, [x1, #9]
	sub	w17, w17, #48
	cmp	w17, #9
	b.hi	.LBB25_27
	ldrb	w18, [x1, #10]
	sub	w18, w18, #48
	cmp	w18, #9
	b.hi	.LBB25_27
	ldrb	w0, [x1, #11]
	sub	w0, w0, #48
	cmp	w0, #9
	b.hi	.LBB25_27
	ldrb	w2, [x1, #12]
	sub	w2, w2, #48
	cmp	w2, #9
	b.hi	.LBB25_27
	ldrb	w3, [x1, #13]
	sub	w3, w3, #48
	cmp	w3, #9
	b.hi	.LBB25_27
	ldrb	w4, [x1, #14]
	sub	w4, w4, #48
	cmp	w4, #9
	b.hi	.LBB25_27
	ldrb	w5, [x1, #15]
	sub	w5, w5, #48
	cmp	w5, #9
	b.hi	.LBB25_27
	ldrb	w6, [x1, #16]
	sub	w6, w6, #48
	cmp	w6, #9
	b.hi	.LBB25_27
	ldrb	w7, [x1, #17]
	sub	w7, w7, #48
	cmp	w7, #9
	b.hi	.LBB25_27
	ldrb	w19, [x1, #18]
	sub	w19, w19, #48
	cmp	w19, #9
	b.hi	.LBB25_27
	ldrb	w1, [x1, #19]
	sub	w1, w1, #48
	cmp	w1, #9
	b.hi	.LBB25_27
	mov	w20, #10
	madd	w8, w8, w20, w12
	and	x8, x8, #0xff
	umull	x8, w8, w20
	add	x8, x8, w9, uxtb
	mov	x9, #-7378697629483820647
	movk	x9, #6553, lsl #48
	umull	x8, w8, w20
	add	x8, x8, w10, uxtb
	umull	x8, w8, w20
	add	x8, x8, w11, uxtb
	mul	x8, x8, x20
	add	x8, x8, w13, uxtb
	mul	x8, x8, x20
	add	x8, x8, w14, uxtb
	mul	x8, x8, x20
	add	x8, x8, w15, uxtb
	mul	x8, x8, x20
	add	x8, x8, w16, uxtb
	mul	x8, x8, x20
	add	x8, x8, w17, uxtb
	mul	x8, x8, x20
	add	x8, x8, w18, uxtb
	mul	x8, x8, x20
	add	x8, x8, w0, uxtb
	mul	x8, x8, x20
	add	x8, x8, w2, uxtb
	mul	x8, x8, x20
	add	x8, x8, w3, uxtb
	mul	x8, x8, x20
	add	x8, x8, w4, uxtb
	mul	x8, x8, x20
	add	x8, x8, w5, uxtb
	mul	x8, x8, x20
	add	x8, x8, w6, uxtb
	mul	x8, x8, x20
	add	x8, x8, w7, uxtb
	mul	x8, x8, x20
	add	x8, x8, w19, uxtb
	cmp	x8, x9
	b.ls	.LBB25_28
.LBB25_27:
	mov	x8, xzr
	mov	w0, wzr
	mov	x1, x8
	ldp	x20, x19, [sp], #16
	ret
.LBB25_28:
	add	x8, x8, x8, lsl #2
	and	x9, x1, #0xff
	mvn	x10, x9
	lsl	x8, x8, #1
	cmp	x8, x10
	add	x8, x8, x9
	cset	w0, ls
	csel	x8, x8, xzr, ls
	mov	x1, x8
	ldp	x20, x19, [sp], #16
	ret
.Lfunc_end25:
	.size	"sq_feed::cells::number_of", .Lfunc_end25-"sq_feed::cells::number_of"

	.section	".text.sq_feed::avr::frame_of_any","ax",@progbits
	.p2align	2
	.type	"sq_feed::avr::frame_of_any",@function
"sq_feed::avr::frame_of_any":
	sub	sp, sp, #112
	cmp	x2, #42
	str	wzr, [sp, #48]
	str	xzr, [sp, #40]
	b.ls	.LBB26_2
.LBB26_1:
	stp	xzr, xzr, [x0]
	add	sp, sp, #112
	ret
.LBB26_2:
	cbz	x2, .LBB26_14
	mov	x8, xzr
	b	.LBB26_5
.LBB26_4:
	add	x8, x8, #1
	cmp	x2, x8
	b.eq	.LBB26_10
.LBB26_5:
	ldrb	w9, [x1, x8]
	cmp	w9, #48
	b.lo	.LBB26_1
	cmp	w9, #58
	b.lo	.LBB26_4
	cmp	w9, #65
	b.lo	.LBB26_1
	cmp	w9, #71
	b.lo	.LBB26_4
	sub	w9, w9, #97
	cmp	w9, #5
	b.ls	.LBB26_4
	b	.LBB26_1
.LBB26_10:
	cmp	x2, #4
	b.eq	.LBB26_16
	cmp	x2, #28
	b.eq	.LBB26_15
	cmp	x2, #14
	b.ne	.LBB26_14
	mov	w8, #1
	lsr	x9, x2, #1
	mov	x10, xzr
	cmp	x2, #16
	stp	xzr, xzr, [sp, #56]
	str	xzr, [sp, #72]
	b.hs	.LBB26_17
	b	.LBB26_20
.LBB26_14:
	mov	w9, wzr
	mov	w10, wzr
	mov	w8, wzr
	b	.LBB26_34
.LBB26_15:
	mov	w8, #2
	lsr	x9, x2, #1
	mov	x10, xzr
	cmp	x2, #16
	stp	xzr, xzr, [sp, #56]
	str	xzr, [sp, #72]
	b.hs	.LBB26_17
	b	.LBB26_20
.LBB26_16:
	mov	w8, wzr
	lsr	x9, x2, #1
	mov	x10, xzr
	cmp	x2, #16
	stp	xzr, xzr, [sp, #56]
	str	xzr, [sp, #72]
	b.lo	.LBB26_20
.LBB26_17:
	and	x10, x9, #0x18
	add	x11, sp, #56
	mov	x12, x1
	and	x13, x9, #0x18
.LBB26_18:
	ld2	{ v0.8b, v1.8b }, [x12], #16
	movi	v2.8b, #71
	movi	v3.8b, #58
	movi	v4.8b, #169
	movi	v5.8b, #201
	movi	v6.8b, #9
	subs	x13, x13, #8
	cmhi	v2.8b, v2.8b, v1.8b
	cmhs	v7.8b, v0.8b, v3.8b
	cmhi	v3.8b, v3.8b, v1.8b
	bsl	v2.8b, v5.8b, v4.8b
	movi	v4.8b, #208
	and	v5.8b, v7.8b, v6.8b
	bit	v2.8b, v4.8b, v3.8b
	add	v3.8b, v5.8b, v0.8b
	shl	v3.8b, v3.8b, #4
	add	v0.8b, v2.8b, v1.8b
	add	v0.8b, v0.8b, v3.8b
	str	d0, [x11], #8
	b.ne	.LBB26_18
	cmp	x9, x10
	b.eq	.LBB26_22
.LBB26_20:
	add	x11, x1, x10, lsl #1
	add	x13, sp, #56
	sub	x12, x9, x10
	add	x10, x13, x10
	add	x11, x11, #1
.LBB26_21:
	ldurb	w13, [x11, #-1]
	ldrb	w15, [x11], #2
	mov	w14, #9
	mov	w16, #-87
	mov	w17, #-55
	cmp	w13, #58
	csel	w14, wzr, w14, lo
	cmp	w15, #71
	csel	w16, w17, w16, lo
	cmp	w15, #58
	mov	w17, #-48
	csel	w16, w17, w16, lo
	add	w13, w14, w13
	subs	x12, x12, #1
	add	w14, w16, w15
	add	w13, w14, w13, lsl #4
	strb	w13, [x10], #1
	b.ne	.LBB26_21
.LBB26_22:
	ldur	x10, [sp, #58]
	ldur	w11, [sp, #66]
	cmp	w8, #2
	str	wzr, [sp, #64]
	str	x10, [sp, #24]
	ldrh	w10, [sp, #56]
	str	w11, [sp, #32]
	str	xzr, [sp, #56]
	b.eq	.LBB26_26
	cmp	w8, #1
	b.ne	.LBB26_28
	cmp	x9, #7
	b.ne	.LBB26_29
	ldr	w9, [sp, #24]
	ldrb	w11, [sp, #28]
	str	w9, [sp, #88]
	strb	w11, [sp, #92]
	b	.LBB26_30
.LBB26_26:
	cmp	x9, #14
	b.ne	.LBB26_31
	ldr	x9, [sp, #24]
	ldr	w11, [sp, #32]
	str	x9, [sp, #96]
	str	w11, [sp, #104]
	b	.LBB26_32
.LBB26_28:
	cmp	x9, #2
	csel	w10, w10, wzr, eq
	b	.LBB26_33
.LBB26_29:
	mov	w10, wzr
	strb	wzr, [sp, #92]
	str	wzr, [sp, #88]
.LBB26_30:
	ldr	w9, [sp, #88]
	ldrb	w11, [sp, #92]
	str	w9, [sp, #56]
	strb	w11, [sp, #60]
	b	.LBB26_33
.LBB26_31:
	mov	w10, wzr
	str	wzr, [sp, #104]
	str	xzr, [sp, #96]
.LBB26_32:
	ldr	x9, [sp, #96]
	ldr	w11, [sp, #104]
	str	x9, [sp, #56]
	str	w11, [sp, #64]
.LBB26_33:
	ldr	x9, [sp, #56]
	ldr	w11, [sp, #64]
	str	x9, [sp, #8]
	str	x9, [sp, #40]
	mov	w9, #1
	str	w11, [sp, #16]
	str	w11, [sp, #48]
.LBB26_34:
	strb	w9, [x0]
	ldr	w9, [sp, #48]
	strb	w8, [x0, #1]
	ldr	x8, [sp, #40]
	strh	w10, [x0, #2]
	stur	x8, [x0, #4]
	str	w9, [x0, #12]
	add	sp, sp, #112
	ret
.Lfunc_end26:
	.size	"sq_feed::avr::frame_of_any", .Lfunc_end26-"sq_feed::avr::frame_of_any"

	.section	.rodata.cst16,"aM",@progbits,16
	.p2align	4, 0x0
.LCPI27_0:
	.byte	1
	.byte	2
	.byte	4
	.byte	8
	.byte	16
	.byte	32
	.byte	64
	.byte	128
	.byte	1
	.byte	2
	.byte	4
	.byte	8
	.byte	16
	.byte	32
	.byte	64
	.byte	128
	.section	".text.sq_feed::cells::cell_of","ax",@progbits
	.p2align	2
	.type	"sq_feed::cells::cell_of",@function
"sq_feed::cells::cell_of":
	adrp	x8, .LCPI27_0
	cbz	x1, .LBB27_23
	mov	x9, xzr
.LBB27_2:
	cbz	x3, .LBB27_8
	ldrb	w10, [x2]
	cmp	w10, #34
	b.ne	.LBB27_9
	mov	w11, wzr
	mov	x10, xzr
	b	.LBB27_6
.LBB27_5:
	cmp	w12, #34
	add	x10, x10, #1
	cset	w12, eq
	cmp	x3, x10
	eor	w11, w11, w12
	b.eq	.LBB27_17
.LBB27_6:
	ldrb	w12, [x2, x10]
	tbnz	w11, #0, .LBB27_5
	cmp	w12, #44
	b.ne	.LBB27_5
	b	.LBB27_19
.LBB27_8:
	mov	x10, xzr
	cmp	x3, xzr
	b.hi	.LBB27_20
	b	.LBB27_22
.LBB27_9:
	lsr	x10, x3, #4
	cbz	x10, .LBB27_13
	mov	x11, xzr
	mov	x12, x2
.LBB27_11:
	movi	v0.16b, #44
	ldr	q1, [x12], #16
	cmeq	v0.16b, v1.16b, v0.16b
	ldr	q1, [x8, :lo12:.LCPI27_0]
	and	v0.16b, v0.16b, v1.16b
	addp	v0.16b, v0.16b, v0.16b
	addp	v0.16b, v0.16b, v0.16b
	addp	v0.16b, v0.16b, v0.16b
	umov	w13, v0.h[0]
	orr	w13, w13, #0x10000
	rbit	w13, w13
	clz	w13, w13
	cmp	w13, #15
	b.ls	.LBB27_21
	sub	x10, x10, #1
	sub	x11, x11, #16
	cbnz	x10, .LBB27_11
.LBB27_13:
	cmp	x3, #15
	b.hi	.LBB27_18
	mov	x10, xzr
.LBB27_15:
	ldrb	w11, [x2, x10]
	cmp	w11, #44
	b.eq	.LBB27_19
	add	x10, x10, #1
	cmp	x3, x10
	b.ne	.LBB27_15
.LBB27_17:
	mov	x10, x3
	cmp	x3, x3
	b.hi	.LBB27_20
	b	.LBB27_22
.LBB27_18:
	movi	v0.16b, #44
	sub	x10, x3, #16
	ldr	q1, [x2, x10]
	cmeq	v0.16b, v1.16b, v0.16b
	ldr	q1, [x8, :lo12:.LCPI27_0]
	and	v0.16b, v0.16b, v1.16b
	addp	v0.16b, v0.16b, v0.16b
	addp	v0.16b, v0.16b, v0.16b
	addp	v0.16b, v0.16b, v0.16b
	umov	w11, v0.h[0]
	orr	w11, w11, #0x10000
	rbit	w11, w11
	clz	w11, w11
	add	x10, x10, x11
	cmp	w11, #16
	csel	x10, x10, x3, lo
.LBB27_19:
	cmp	x3, x10
	b.ls	.LBB27_22
.LBB27_20:
	add	x9, x9, #1
	add	x10, x10, #1
	cmp	x9, x1
	add	x2, x2, x10
	sub	x3, x3, x10
	b.ne	.LBB27_2
	b	.LBB27_23
.LBB27_21:
	sub	x10, x13, x11
	cmp	x3, x10
	b.hi	.LBB27_20
.LBB27_22:
	stp	xzr, xzr, [x0]
	str	xzr, [x0, #16]
	ret
.LBB27_23:
	cbz	x3, .LBB27_30
	ldrb	w9, [x2]
	cmp	w9, #34
	b.ne	.LBB27_31
	mov	w9, wzr
	mov	x8, xzr
	b	.LBB27_27
.LBB27_26:
	cmp	w10, #34
	add	x8, x8, #1
	cset	w10, eq
	cmp	x3, x8
	eor	w9, w9, w10
	b.eq	.LBB27_39
.LBB27_27:
	ldrb	w10, [x2, x8]
	tbnz	w9, #0, .LBB27_26
	cmp	w10, #44
	b.ne	.LBB27_26
.LBB27_29:
	mov	w9, #1
	str	x8, [x0, #16]
	stp	x9, x2, [x0]
	ret
.LBB27_30:
	mov	w9, #1
	str	xzr, [x0, #16]
	stp	x9, x2, [x0]
	ret
.LBB27_31:
	lsr	x9, x3, #4
	cbz	x9, .LBB27_35
	mov	x10, xzr
	mov	x11, x2
.LBB27_33:
	movi	v0.16b, #44
	ldr	q1, [x11], #16
	cmeq	v0.16b, v1.16b, v0.16b
	ldr	q1, [x8, :lo12:.LCPI27_0]
	and	v0.16b, v0.16b, v1.16b
	addp	v0.16b, v0.16b, v0.16b
	addp	v0.16b, v0.16b, v0.16b
	addp	v0.16b, v0.16b, v0.16b
	umov	w12, v0.h[0]
	orr	w12, w12, #0x10000
	rbit	w12, w12
	clz	w12, w12
	cmp	w12, #15
	b.ls	.LBB27_41
	sub	x9, x9, #1
	sub	x10, x10, #16
	cbnz	x9, .LBB27_33
.LBB27_35:
	cmp	x3, #15
	b.hi	.LBB27_40
	mov	x8, xzr
.LBB27_37:
	ldrb	w9, [x2, x8]
	cmp	w9, #44
	b.eq	.LBB27_29
	add	x8, x8, #1
	cmp	x3, x8
	b.ne	.LBB27_37
.LBB27_39:
	mov	w9, #1
	str	x3, [x0, #16]
	stp	x9, x2, [x0]
	ret
.LBB27_40:
	movi	v0.16b, #44
	sub	x9, x3, #16
	ldr	q1, [x2, x9]
	cmeq	v0.16b, v1.16b, v0.16b
	ldr	q1, [x8, :lo12:.LCPI27_0]
	and	v0.16b, v0.16b, v1.16b
	addp	v0.16b, v0.16b, v0.16b
	addp	v0.16b, v0.16b, v0.16b
	addp	v0.16b, v0.16b, v0.16b
	umov	w8, v0.h[0]
	orr	w8, w8, #0x10000
	rbit	w8, w8
	clz	w8, w8
	add	x9, x9, x8
	cmp	w8, #16
	csel	x8, x9, x3, lo
	mov	w9, #1
	str	x8, [x0, #16]
	stp	x9, x2, [x0]
	ret
.LBB27_41:
	sub	x8, x12, x10
	mov	w9, #1
	str	x8, [x0, #16]
	stp	x9, x2, [x0]
	ret
.Lfunc_end27:
	.size	"sq_feed::cells::cell_of", .Lfunc_end27-"sq_feed::cells::cell_of"

	.section	".text.sq_feed::cells::thousandths","ax",@progbits
	.p2align	2
	.type	"sq_feed::cells::thousandths",@function
"sq_feed::cells::thousandths":
	cbz	x1, .LBB28_6
	cmp	x1, #1
	b.ne	.LBB28_3
	ldrb	w8, [x0]
	mov	w9, #100
	sub	w8, w8, #48
	and	x8, x8, #0xff
	umull	x0, w8, w9
	ret
.LBB28_3:
	cmp	x1, #2
	b.hi	.LBB28_5
	ldrb	w8, [x0]
	ldrb	w9, [x0, #1]
	mov	w10, #100
	sub	w8, w8, #48
	sub	w9, w9, #48
	and	x8, x8, #0xff
	and	x9, x9, #0xff
	umull	x8, w8, w10
	mov	w10, #10
	umaddl	x0, w9, w10, x8
	ret
.LBB28_5:
	ldrb	w8, [x0, #1]
	ldrb	w9, [x0]
	mov	w10, #10
	ldrb	w11, [x0, #2]
	umull	x8, w8, w10
	mov	w10, #100
	umaddl	x8, w9, w10, x8
	mov	x9, #-5328
	add	x9, x11, x9
	add	x1, x8, x9
.LBB28_6:
	mov	x0, x1
	ret
.Lfunc_end28:
	.size	"sq_feed::cells::thousandths", .Lfunc_end28-"sq_feed::cells::thousandths"

	.section	.rodata.cst16,"aM",@progbits,16
	.p2align	4, 0x0
.LCPI29_0:
	.byte	1
	.byte	2
	.byte	4
	.byte	8
	.byte	16
	.byte	32
	.byte	64
	.byte	128
	.byte	1
	.byte	2
	.byte	4
	.byte	8
	.byte	16
	.byte	32
	.byte	64
	.byte	128
	.section	".text.sq_feed::cells::column_of","ax",@progbits
	.p2align	2
	.type	"sq_feed::cells::column_of",@function
"sq_feed::cells::column_of":
	cmn	x3, #1
	b.eq	.LBB29_39
	mov	x8, x1
	mov	x1, xzr
	mov	x9, x3
.LBB29_2:
	cbz	x9, .LBB29_8
	ldrb	w10, [x2]
	cmp	w10, #34
	b.ne	.LBB29_9
	mov	w11, wzr
	mov	x10, xzr
	b	.LBB29_6
.LBB29_5:
	cmp	w12, #34
	add	x10, x10, #1
	cset	w12, eq
	cmp	x9, x10
	eor	w11, w11, w12
	b.eq	.LBB29_17
.LBB29_6:
	ldrb	w12, [x2, x10]
	tbnz	w11, #0, .LBB29_5
	cmp	w12, #44
	b.ne	.LBB29_5
	b	.LBB29_20
.LBB29_8:
	mov	x10, xzr
	b	.LBB29_27
.LBB29_9:
	lsr	x11, x9, #4
	adrp	x10, .LCPI29_0
	cbz	x11, .LBB29_13
	mov	x12, xzr
	mov	x13, x2
.LBB29_11:
	movi	v0.16b, #44
	ldr	q1, [x13], #16
	cmeq	v0.16b, v1.16b, v0.16b
	ldr	q1, [x10, :lo12:.LCPI29_0]
	and	v0.16b, v0.16b, v1.16b
	addp	v0.16b, v0.16b, v0.16b
	addp	v0.16b, v0.16b, v0.16b
	addp	v0.16b, v0.16b, v0.16b
	umov	w14, v0.h[0]
	orr	w14, w14, #0x10000
	rbit	w14, w14
	clz	w14, w14
	cmp	w14, #15
	b.ls	.LBB29_26
	sub	x11, x11, #1
	sub	x12, x12, #16
	cbnz	x11, .LBB29_11
.LBB29_13:
	cmp	x9, #15
	b.hi	.LBB29_18
	mov	x10, xzr
.LBB29_15:
	ldrb	w11, [x2, x10]
	cmp	w11, #44
	b.eq	.LBB29_20
	add	x10, x10, #1
	cmp	x9, x10
	b.ne	.LBB29_15
.LBB29_17:
	mov	x10, x9
	b	.LBB29_21
.LBB29_18:
	movi	v0.16b, #44
	sub	x11, x9, #16
	ldr	q1, [x2, x11]
	cmeq	v0.16b, v1.16b, v0.16b
	ldr	q1, [x10, :lo12:.LCPI29_0]
	and	v0.16b, v0.16b, v1.16b
	addp	v0.16b, v0.16b, v0.16b
	addp	v0.16b, v0.16b, v0.16b
	addp	v0.16b, v0.16b, v0.16b
	umov	w10, v0.h[0]
	orr	w10, w10, #0x10000
	rbit	w10, w10
	clz	w12, w10
	mov	x10, x9
	cmp	w12, #15
	b.hi	.LBB29_21
	add	x10, x11, x12
.LBB29_20:
	cbz	x10, .LBB29_27
.LBB29_21:
	mov	x12, xzr
.LBB29_22:
	ldrb	w11, [x2, x12]
	mov	w13, #1
	mov	x14, #13824
	movk	x14, #1, lsl #32
	lsl	x13, x13, x11
	cmp	w11, #32
	and	x11, x13, x14
	ccmp	x11, #0, #4, ls
	b.eq	.LBB29_25
	add	x12, x12, #1
	cmp	x10, x12
	b.ne	.LBB29_22
	mov	x12, x10
.LBB29_25:
	subs	x11, x10, x12
	b.ne	.LBB29_28
	b	.LBB29_31
.LBB29_26:
	sub	x10, x14, x12
	cbnz	x10, .LBB29_21
.LBB29_27:
	mov	x12, xzr
	subs	x11, x10, xzr
	b.eq	.LBB29_31
.LBB29_28:
	add	x13, x2, x10
	add	x12, x2, x12
	sub	x13, x13, #1
.LBB29_29:
	ldrb	w14, [x13], #-1
	mov	w15, #1
	mov	x16, #13824
	lsl	x15, x15, x14
	movk	x16, #1, lsl #32
	cmp	w14, #32
	and	x15, x15, x16
	ccmp	x15, #0, #4, ls
	b.eq	.LBB29_33
	sub	x11, x11, #1
	cbnz	x11, .LBB29_29
.LBB29_31:
	cmp	x9, x10
	b.ls	.LBB29_39
	add	x10, x10, #1
	cmp	x1, x3
	add	x1, x1, #1
	add	x2, x2, x10
	sub	x9, x9, x10
	b.ne	.LBB29_2
	b	.LBB29_39
.LBB29_33:
	subs	x13, x11, #2
	b.lo	.LBB29_31
	ldrb	w15, [x12]
	cmp	w15, #34
	cset	w15, eq
	cmp	w14, #34
	cset	w14, eq
	ands	w14, w14, w15
	csel	x11, x13, x11, ne
	cmp	x11, x8
	b.ne	.LBB29_31
	add	x11, x12, x14
	mov	x12, x0
	mov	x13, x8
.LBB29_36:
	ldrb	w14, [x11], #1
	ldrb	w15, [x12], #1
	sub	w16, w14, #65
	add	w17, w14, #32
	cmp	w16, #26
	sub	w16, w15, #65
	csel	w14, w17, w14, lo
	add	w17, w15, #32
	cmp	w16, #26
	csel	w15, w17, w15, lo
	cmp	w14, w15
	b.ne	.LBB29_31
	subs	x13, x13, #1
	b.ne	.LBB29_36
	mov	w0, #1
	ret
.LBB29_39:
	mov	x1, xzr
	mov	w0, wzr
	ret
.Lfunc_end29:
	.size	"sq_feed::cells::column_of", .Lfunc_end29-"sq_feed::cells::column_of"

	.section	.rodata.cst16,"aM",@progbits,16
	.p2align	4, 0x0
.LCPI30_0:
	.byte	1
	.byte	2
	.byte	4
	.byte	8
	.byte	16
	.byte	32
	.byte	64
	.byte	128
	.byte	1
	.byte	2
	.byte	4
	.byte	8
	.byte	16
	.byte	32
	.byte	64
	.byte	128
	.section	".text.sq_feed::signs::is_framed_line","ax",@progbits
	.p2align	2
	.type	"sq_feed::signs::is_framed_line",@function
"sq_feed::signs::is_framed_line":
	sub	sp, sp, #208
	lsr	x9, x1, #4
	stp	x20, x19, [sp, #192]
	mov	x19, x1
	mov	x20, x0
	adrp	x8, .LCPI30_0
	stp	x29, x30, [sp, #128]
	stp	x26, x25, [sp, #144]
	add	x29, sp, #128
	stp	x24, x23, [sp, #160]
	stp	x22, x21, [sp, #176]
	cbz	x9, .LBB30_4
	mov	x10, xzr
	mov	x11, x20
.LBB30_2:
	movi	v0.16b, #59
	ldr	q1, [x11], #16
	cmeq	v0.16b, v1.16b, v0.16b
	ldr	q1, [x8, :lo12:.LCPI30_0]
	and	v0.16b, v0.16b, v1.16b
	addp	v0.16b, v0.16b, v0.16b
	addp	v0.16b, v0.16b, v0.16b
	addp	v0.16b, v0.16b, v0.16b
	umov	w12, v0.h[0]
	orr	w12, w12, #0x10000
	rbit	w12, w12
	clz	w12, w12
	cmp	w12, #15
	b.ls	.LBB30_11
	sub	x9, x9, #1
	sub	x10, x10, #16
	cbnz	x9, .LBB30_2
.LBB30_4:
	cmp	x19, #15
	b.hi	.LBB30_9
	mov	x9, xzr
	cbz	x19, .LBB30_10
.LBB30_6:
	ldrb	w8, [x20, x9]
	cmp	w8, #59
	b.eq	.LBB30_10
	add	x9, x9, #1
	cmp	x19, x9
	b.ne	.LBB30_6
	movi	v0.2d, #0000000000000000
	str	xzr, [sp, #64]
	stp	q0, q0, [sp]
	stp	q0, q0, [sp, #32]
	b	.LBB30_20
.LBB30_9:
	movi	v0.16b, #59
	sub	x9, x19, #16
	ldr	q1, [x20, x9]
	cmeq	v0.16b, v1.16b, v0.16b
	ldr	q1, [x8, :lo12:.LCPI30_0]
	and	v0.16b, v0.16b, v1.16b
	addp	v0.16b, v0.16b, v0.16b
	addp	v0.16b, v0.16b, v0.16b
	addp	v0.16b, v0.16b, v0.16b
	umov	w8, v0.h[0]
	orr	w8, w8, #0x10000
	rbit	w8, w8
	clz	w8, w8
	add	x9, x9, x8
	cmp	w8, #16
	csel	x9, x9, x19, lo
.LBB30_10:
	subs	x23, x19, x9
	b.hi	.LBB30_12
	b	.LBB30_19
.LBB30_11:
	sub	x9, x12, x10
	subs	x23, x19, x9
	b.ls	.LBB30_19
.LBB30_12:
	add	x8, x9, #1
	subs	x22, x19, x8
	add	x21, x20, x8
	mov	x8, xzr
	b.eq	.LBB30_18
	mov	x24, xzr
	add	x25, x20, x9
	mov	w26, #1
	b	.LBB30_15
.LBB30_14:
	add	x24, x24, #1
	add	x26, x26, #1
	cmp	x23, x26
	b.eq	.LBB30_18
.LBB30_15:
	ldrb	w9, [x25, x26]
	cmp	w9, #59
	b.ne	.LBB30_14
	mvn	x9, x8
	add	x0, x21, x8
	add	x1, x9, x26
	bl	"sq_feed::tables::is_frame_cell"
	tbnz	w0, #0, .LBB30_56
	add	x24, x24, #1
	mov	x8, x26
	add	x26, x26, #1
	cmp	x23, x26
	b.ne	.LBB30_15
.LBB30_18:
	sub	x1, x22, x8
	add	x0, x21, x8
	bl	"sq_feed::tables::is_frame_cell"
	tbnz	w0, #0, .LBB30_56
.LBB30_19:
	movi	v0.2d, #0000000000000000
	str	xzr, [sp, #64]
	stp	q0, q0, [sp]
	stp	q0, q0, [sp, #32]
	cbz	x19, .LBB30_54
.LBB30_20:
	mov	x8, sp
	orr	x21, x8, #0x8
	b	.LBB30_23
.LBB30_21:
	mov	w8, #1
	strb	w8, [sp, #64]
.LBB30_22:
	subs	x19, x19, #1
	b.eq	.LBB30_51
.LBB30_23:
	movi	v0.2d, #0000000000000000
	ldrb	w8, [x20], #1
	cmp	w8, #58
	stp	q0, q0, [x29, #-32]
	stur	q0, [x29, #-48]
	b.le	.LBB30_28
	cmp	w8, #186
	b.gt	.LBB30_33
	cmp	w8, #59
	b.eq	.LBB30_40
	cmp	w8, #60
	b.eq	.LBB30_39
	cmp	w8, #64
	b.eq	.LBB30_38
	b	.LBB30_43
.LBB30_28:
	cmp	w8, #36
	b.le	.LBB30_35
	cmp	w8, #37
	b.eq	.LBB30_38
	cmp	w8, #42
	b.eq	.LBB30_32
	cmp	w8, #58
	b.ne	.LBB30_43
.LBB30_32:
	mov	w2, wzr
	mov	w3, wzr
	sub	x0, x29, #48
	mov	x1, sp
	bl	"sq_feed::avr::Avr::close"
	ldurb	w8, [x29, #-48]
	cbnz	w8, .LBB30_41
	b	.LBB30_22
.LBB30_33:
	sub	w9, w8, #187
	cmp	w9, #52
	b.hi	.LBB30_43
	mov	w10, #1
	lsl	x9, x10, x9
	mov	x10, #17
	movk	x10, #16, lsl #48
	tst	x9, x10
	b.ne	.LBB30_37
	b	.LBB30_43
.LBB30_35:
	cmp	w8, #10
	b.eq	.LBB30_37
	cmp	w8, #13
	b.ne	.LBB30_43
.LBB30_37:
	mov	w3, wzr
	mov	w2, #2
	sub	x0, x29, #48
	mov	x1, sp
	bl	"sq_feed::avr::Avr::close"
	ldurb	w8, [x29, #-48]
	cbnz	w8, .LBB30_41
	b	.LBB30_22
.LBB30_38:
	mov	w2, wzr
	mov	w3, #1
	sub	x0, x29, #48
	mov	x1, sp
	bl	"sq_feed::avr::Avr::close"
	ldurb	w8, [x29, #-48]
	cbnz	w8, .LBB30_41
	b	.LBB30_22
.LBB30_39:
	mov	w2, wzr
	mov	w3, #2
	sub	x0, x29, #48
	mov	x1, sp
	bl	"sq_feed::avr::Avr::close"
	ldurb	w8, [x29, #-48]
	cbnz	w8, .LBB30_41
	b	.LBB30_22
.LBB30_40:
	mov	w3, wzr
	mov	w2, #1
	sub	x0, x29, #48
	mov	x1, sp
	bl	"sq_feed::avr::Avr::close"
	ldurb	w8, [x29, #-48]
	cbz	w8, .LBB30_22
.LBB30_41:
	ldurb	w8, [x29, #-40]
	cbnz	w8, .LBB30_22
	ldurb	w8, [x29, #-16]
	cbz	w8, .LBB30_22
	b	.LBB30_53
.LBB30_43:
	ldrb	w9, [sp, #64]
	tbnz	w9, #0, .LBB30_22
	cmp	w8, #48
	b.lo	.LBB30_21
	cmp	w8, #58
	b.hs	.LBB30_48
.LBB30_46:
	ldr	x9, [sp, #56]
	cmp	x9, #41
	b.hi	.LBB30_21
	strb	w8, [x21, x9]
	add	x8, x9, #1
	str	x8, [sp, #56]
	b	.LBB30_22
.LBB30_48:
	cmp	w8, #65
	b.lo	.LBB30_21
	cmp	w8, #71
	b.lo	.LBB30_46
	sub	w9, w8, #97
	cmp	w9, #6
	b.hs	.LBB30_21
	b	.LBB30_46
.LBB30_51:
	ldrb	w8, [sp]
	cmp	w8, #1
	b.eq	.LBB30_56
	ldr	x8, [sp, #56]
	cmp	x8, #0
	cset	w8, ne
	movi	v0.2d, #0000000000000000
	ldrb	w9, [sp, #64]
	stur	xzr, [x29, #-16]
	stp	q0, q0, [x29, #-48]
	tbz	w9, #0, .LBB30_55
	b	.LBB30_57
.LBB30_53:
	mov	w0, #1
	b	.LBB30_58
.LBB30_54:
	mov	w8, wzr
	movi	v0.2d, #0000000000000000
	ldrb	w9, [sp, #64]
	stur	xzr, [x29, #-16]
	stp	q0, q0, [x29, #-48]
	tbnz	w9, #0, .LBB30_57
.LBB30_55:
	cbnz	w8, .LBB30_57
.LBB30_56:
	mov	w0, wzr
	b	.LBB30_58
.LBB30_57:
	sub	x0, x29, #48
	mov	x1, sp
	mov	w2, wzr
	bl	"sq_feed::avr::Avr::item_of"
	ldurb	w8, [x29, #-24]
	ldurb	w9, [x29, #-48]
	tst	w8, #0xff
	ccmp	w9, #0, #0, ne
	cset	w0, eq
.LBB30_58:
	ldp	x20, x19, [sp, #192]
	ldp	x22, x21, [sp, #176]
	ldp	x24, x23, [sp, #160]
	ldp	x26, x25, [sp, #144]
	ldp	x29, x30, [sp, #128]
	add	sp, sp, #208
	ret
.Lfunc_end30:
	.size	"sq_feed::signs::is_framed_line", .Lfunc_end30-"sq_feed::signs::is_framed_line"

	.section	.rodata.cst16,"aM",@progbits,16
	.p2align	4, 0x0
.LCPI31_0:
	.byte	1
	.byte	2
	.byte	4
	.byte	8
	.byte	16
	.byte	32
	.byte	64
	.byte	128
	.byte	1
	.byte	2
	.byte	4
	.byte	8
	.byte	16
	.byte	32
	.byte	64
	.byte	128
	.section	".text.sq_feed::tables::is_frame_cell","ax",@progbits
	.p2align	2
	.type	"sq_feed::tables::is_frame_cell",@function
"sq_feed::tables::is_frame_cell":
	sub	sp, sp, #32
	mov	x9, xzr
	stp	x29, x30, [sp, #16]
	add	x29, sp, #16
	cbz	x1, .LBB31_4
.LBB31_1:
	ldrb	w8, [x0, x9]
	mov	w10, #1
	mov	x11, #13824
	movk	x11, #1, lsl #32
	lsl	x10, x10, x8
	cmp	w8, #32
	and	x8, x10, x11
	ccmp	x8, #0, #4, ls
	b.eq	.LBB31_4
	add	x9, x9, #1
	cmp	x1, x9
	b.ne	.LBB31_1
	mov	x9, x1
.LBB31_4:
	subs	x8, x1, x9
	b.eq	.LBB31_8
	add	x10, x1, x0
	add	x9, x0, x9
	sub	x10, x10, #1
.LBB31_6:
	ldrb	w11, [x10], #-1
	mov	w12, #1
	mov	x13, #13824
	lsl	x12, x12, x11
	movk	x13, #1, lsl #32
	cmp	w11, #32
	and	x12, x12, x13
	ccmp	x12, #0, #4, ls
	b.eq	.LBB31_20
	sub	x8, x8, #1
	cbnz	x8, .LBB31_6
.LBB31_8:
	mov	x8, xzr
	cbz	x1, .LBB31_12
.LBB31_9:
	ldrb	w9, [x0, x8]
	mov	w10, #1
	mov	x11, #13824
	movk	x11, #1, lsl #32
	lsl	x10, x10, x9
	cmp	w9, #32
	and	x9, x10, x11
	ccmp	x9, #0, #4, ls
	b.eq	.LBB31_12
	add	x8, x8, #1
	cmp	x1, x8
	b.ne	.LBB31_9
	mov	x8, x1
.LBB31_12:
	subs	x9, x1, x8
	add	x8, x0, x8
	b.eq	.LBB31_16
	add	x10, x1, x0
	sub	x10, x10, #1
.LBB31_14:
	ldrb	w11, [x10], #-1
	mov	w12, #1
	mov	x13, #13824
	lsl	x12, x12, x11
	movk	x13, #1, lsl #32
	cmp	w11, #32
	and	x12, x12, x13
	ccmp	x12, #0, #4, ls
	b.eq	.LBB31_28
	sub	x9, x9, #1
	cbnz	x9, .LBB31_14
.LBB31_16:
	mov	x2, xzr
.LBB31_17:
	stp	xzr, xzr, [sp]
.LBB31_18:
	mov	x0, sp
	mov	x1, x8
.LBB31_19:
	bl	"sq_feed::avr::frame_of_any"
	ldrb	w8, [sp, #1]
	ldrb	w9, [sp]
	tst	w8, #0xff
	ccmp	w9, #0, #4, ne
	cset	w0, ne
	ldp	x29, x30, [sp, #16]
	add	sp, sp, #32
	ret
.LBB31_20:
	subs	x10, x8, #2
	b.lo	.LBB31_8
	ldrb	w12, [x9]
	cmp	w12, #34
	cset	w12, eq
	cmp	w11, #34
	cset	w11, eq
	ands	w11, w11, w12
	csel	x8, x10, x8, ne
	cmp	x8, #6
	b.ne	.LBB31_8
	add	x8, x9, x11
	ldrb	w9, [x8]
	sub	w10, w9, #65
	add	w11, w9, #32
	cmp	w10, #26
	csel	w9, w11, w9, lo
	cmp	w9, #114
	b.ne	.LBB31_8
	ldrb	w9, [x8, #1]
	sub	w10, w9, #65
	add	w11, w9, #32
	cmp	w10, #26
	csel	w9, w11, w9, lo
	cmp	w9, #97
	b.ne	.LBB31_8
	ldrb	w9, [x8, #2]
	sub	w10, w9, #65
	add	w11, w9, #32
	cmp	w10, #26
	csel	w9, w11, w9, lo
	cmp	w9, #119
	b.ne	.LBB31_8
	ldrb	w9, [x8, #3]
	sub	w10, w9, #65
	add	w11, w9, #32
	cmp	w10, #26
	csel	w9, w11, w9, lo
	cmp	w9, #109
	b.ne	.LBB31_8
	ldrb	w9, [x8, #4]
	sub	w10, w9, #65
	add	w11, w9, #32
	cmp	w10, #26
	csel	w9, w11, w9, lo
	cmp	w9, #115
	b.ne	.LBB31_8
	ldrb	w8, [x8, #5]
	sub	w9, w8, #65
	add	w10, w8, #32
	cmp	w9, #26
	csel	w8, w10, w8, lo
	cmp	w8, #103
	b.ne	.LBB31_8
	b	.LBB31_33
.LBB31_28:
	subs	x10, x9, #2
	b.lo	.LBB31_32
	ldrb	w12, [x8]
	stp	xzr, xzr, [sp]
	cmp	w12, #34
	cset	w12, eq
	cmp	w11, #34
	cset	w11, eq
	ands	w11, w11, w12
	csel	x2, x10, x9, ne
	add	x8, x8, x11
	cmp	x2, #28
	b.ne	.LBB31_18
	movi	v0.16b, #223
	ldr	q1, [x8]
	movi	v2.16b, #198
	ldur	q4, [x8, #12]
	movi	v3.16b, #64
	movi	v6.16b, #6
	movi	v7.16b, #10
	movi	v16.16b, #191
	adrp	x9, .LCPI31_0
	movi	v17.16b, #16
	and	v5.16b, v1.16b, v0.16b
	and	v0.16b, v4.16b, v0.16b
	add	v1.16b, v1.16b, v2.16b
	add	v2.16b, v4.16b, v2.16b
	sub	v4.16b, v3.16b, v5.16b
	sub	v3.16b, v3.16b, v0.16b
	uqsub	v1.16b, v1.16b, v6.16b
	uqsub	v2.16b, v2.16b, v6.16b
	add	v5.16b, v5.16b, v16.16b
	add	v0.16b, v0.16b, v16.16b
	umin	v4.16b, v4.16b, v7.16b
	umin	v3.16b, v3.16b, v7.16b
	add	v1.16b, v1.16b, v17.16b
	add	v2.16b, v2.16b, v17.16b
	add	v4.16b, v5.16b, v4.16b
	add	v0.16b, v0.16b, v3.16b
	umin	v1.16b, v1.16b, v4.16b
	umin	v0.16b, v2.16b, v0.16b
	movi	v2.16b, #15
	orr	v0.16b, v0.16b, v1.16b
	ldr	q1, [x9, :lo12:.LCPI31_0]
	cmhi	v0.16b, v0.16b, v2.16b
	and	v0.16b, v0.16b, v1.16b
	addp	v0.16b, v0.16b, v0.16b
	addp	v0.16b, v0.16b, v0.16b
	addp	v0.16b, v0.16b, v0.16b
	umov	w9, v0.h[0]
	cbz	w9, .LBB31_33
	mov	x0, sp
	mov	x1, x8
	mov	w2, #28
	b	.LBB31_19
.LBB31_32:
	mov	w2, #1
	b	.LBB31_17
.LBB31_33:
	mov	w0, #1
	ldp	x29, x30, [sp, #16]
	add	sp, sp, #32
	ret
.Lfunc_end31:
	.size	"sq_feed::tables::is_frame_cell", .Lfunc_end31-"sq_feed::tables::is_frame_cell"

	.section	".text.sq_feed::avr::Avr::close","ax",@progbits
	.p2align	2
	.type	"sq_feed::avr::Avr::close",@function
"sq_feed::avr::Avr::close":
	sub	sp, sp, #208
	movi	v0.2d, #0000000000000000
	ldrb	w8, [x1]
	stp	x29, x30, [sp, #144]
	add	x29, sp, #144
	stp	x20, x19, [sp, #192]
	cmp	w8, #1
	sub	x20, x29, #16
	str	x23, [sp, #160]
	stp	x22, x21, [sp, #176]
	stur	xzr, [sp, #6]
	str	xzr, [sp]
	stp	q0, q0, [sp, #32]
	str	xzr, [sp, #64]
	b.ne	.LBB32_5
	ands	w8, w2, #0xff
	b.eq	.LBB32_4
	cmp	w8, #2
	b.ne	.LBB32_15
	mov	w8, wzr
.LBB32_4:
	mov	w10, wzr
	mov	x11, xzr
	mov	w12, wzr
	mov	w9, #1
	stur	xzr, [x20, #6]
	stur	xzr, [x29, #-16]
	b	.LBB32_16
.LBB32_5:
	ands	w8, w2, #0xff
	b.eq	.LBB32_11
	cmp	w8, #2
	b.ne	.LBB32_17
	ldrb	w8, [x1, #64]
	stur	xzr, [x29, #-16]
	stur	xzr, [x20, #6]
	stp	q0, q0, [x29, #-64]
	stur	xzr, [x29, #-32]
	tbnz	w8, #0, .LBB32_9
	ldr	x8, [x1, #56]
	cbz	x8, .LBB32_20
.LBB32_9:
	mov	x21, x0
	sub	x0, x29, #64
	mov	w22, w2
	mov	w2, wzr
	mov	x19, x1
	mov	w23, w3
	bl	"sq_feed::avr::Avr::item_of"
	ldur	x13, [x29, #-39]
	ldurb	w9, [x29, #-64]
	mov	w2, w22
	ldurb	w8, [x29, #-63]
	ldurb	w10, [x29, #-56]
	mov	w3, w23
	ldur	x14, [x29, #-33]
	ldur	x11, [x29, #-48]
	mov	x1, x19
	ldurb	w12, [x29, #-40]
	mov	x0, x21
	stur	x13, [x29, #-16]
	mov	w13, #1
	stur	x14, [x20, #6]
.LBB32_10:
	ldur	x14, [x29, #-16]
	ldur	x15, [x20, #6]
	str	x14, [sp, #16]
	stur	x15, [sp, #22]
	b	.LBB32_18
.LBB32_11:
	ldrb	w8, [x1, #64]
	tbnz	w8, #0, .LBB32_13
	ldr	x8, [x1, #56]
	cbz	x8, .LBB32_21
.LBB32_13:
	mov	w9, #1
.LBB32_14:
	mov	w8, wzr
	mov	w10, wzr
	mov	x11, xzr
	mov	w12, wzr
	mov	w13, w9
	stur	xzr, [sp, #22]
	str	xzr, [sp, #16]
	b	.LBB32_18
.LBB32_15:
	mov	w21, w2
	ldrb	w2, [x1, #1]
	mov	x23, x0
	add	x0, sp, #32
	mov	w22, w3
	mov	x19, x1
	bl	"sq_feed::avr::Avr::item_of"
	ldur	x13, [sp, #57]
	ldur	x14, [sp, #63]
	mov	x1, x19
	ldrb	w9, [sp, #32]
	ldrb	w8, [sp, #33]
	mov	x0, x23
	ldrb	w10, [sp, #40]
	ldr	x11, [sp, #48]
	mov	w3, w22
	ldrb	w12, [sp, #56]
	stur	x13, [x29, #-16]
	mov	w2, w21
	stur	x14, [x20, #6]
.LBB32_16:
	ldur	x13, [x29, #-16]
	ldur	x14, [x20, #6]
	stur	x13, [x29, #-64]
	mov	w13, #1
	stur	x14, [x29, #-58]
	b	.LBB32_19
.LBB32_17:
	mov	w8, wzr
	mov	w10, wzr
	mov	x11, xzr
	mov	w12, wzr
	stur	xzr, [sp, #22]
	mov	w9, #1
	str	xzr, [sp, #16]
	mov	w13, #1
.LBB32_18:
	ldr	x14, [sp, #16]
	ldur	x15, [sp, #22]
	mov	w13, w13
	stur	x14, [x29, #-64]
	stur	x15, [x29, #-58]
.LBB32_19:
	movi	v0.2d, #0000000000000000
	ldur	x14, [x29, #-64]
	ldur	x15, [x29, #-58]
	tst	w2, #0xff
	ldp	x20, x19, [sp, #192]
	str	x14, [sp]
	cset	w14, eq
	ldr	x23, [sp, #160]
	stur	x15, [sp, #6]
	csel	w15, w3, wzr, eq
	strb	w14, [x1]
	ldp	x22, x21, [sp, #176]
	strb	w15, [x1, #1]
	ldp	x29, x30, [sp, #144]
	stur	q0, [x1, #8]
	stur	q0, [x1, #24]
	stur	q0, [x1, #40]
	stur	q0, [x1, #49]
	strb	w9, [x0, #8]
	mov	w9, w10
	strb	w8, [x0, #9]
	ldr	x8, [sp]
	stp	x9, x11, [x0, #16]
	ldur	x9, [sp, #6]
	str	x13, [x0]
	strb	w12, [x0, #32]
	stur	x8, [x0, #33]
	stur	x9, [x0, #39]
	add	sp, sp, #208
	ret
.LBB32_20:
	mov	w13, wzr
	mov	w9, wzr
	mov	w10, wzr
	mov	x11, xzr
	mov	w12, wzr
	b	.LBB32_10
.LBB32_21:
	mov	w9, wzr
	b	.LBB32_14
.Lfunc_end32:
	.size	"sq_feed::avr::Avr::close", .Lfunc_end32-"sq_feed::avr::Avr::close"

	.section	.rodata.cst16,"aM",@progbits,16
	.p2align	4, 0x0
.LCPI33_0:
	.byte	1
	.byte	2
	.byte	4
	.byte	8
	.byte	16
	.byte	32
	.byte	64
	.byte	128
	.byte	1
	.byte	2
	.byte	4
	.byte	8
	.byte	16
	.byte	32
	.byte	64
	.byte	128
	.section	".text.core::cmp::slices::groups_equal::<i8,31'core::cmp::numbers::U8PartialEq{}>","ax",@progbits
	.p2align	2
	.type	"core::cmp::slices::groups_equal::<i8,31'core::cmp::numbers::U8PartialEq{}>",@function
"core::cmp::slices::groups_equal::<i8,31'core::cmp::numbers::U8PartialEq{}>":
	subs	x9, x1, #8
	b.hi	.LBB33_2
	sub	x8, x1, #4
	ldr	s0, [x0]
	ldr	s1, [x2]
	add	x9, x0, x8
	add	x8, x2, x8
	ld1	{ v0.s }[1], [x9]
	ld1	{ v1.s }[1], [x8]
	fmov	x8, d0
	fmov	x9, d1
	cmp	x8, x9
	cset	w8, ne
	eor	w0, w8, #0x1
	ret
.LBB33_2:
	subs	x8, x1, #32
	b.hi	.LBB33_4
	cmp	x9, #8
	mov	w8, #8
	mov	w10, #16
	csel	x8, x9, x8, lo
	cmp	x9, #16
	ldr	d0, [x0]
	ldr	d1, [x2]
	ldr	d2, [x0, x8]
	ldr	d3, [x2, x8]
	csel	x8, x9, x10, lo
	ldr	d5, [x2, x9]
	ldr	d4, [x0, x8]
	mov	v0.d[1], v2.d[0]
	mov	v1.d[1], v3.d[0]
	ldr	d2, [x2, x8]
	ldr	d3, [x0, x9]
	mov	v4.d[1], v3.d[0]
	mov	v2.d[1], v5.d[0]
	cmeq	v0.16b, v0.16b, v1.16b
	cmeq	v1.16b, v4.16b, v2.16b
	b	.LBB33_17
.LBB33_4:
	cmp	x1, #65
	b.hs	.LBB33_6
	ldp	q1, q0, [x0]
	add	x9, x2, x8
	ldp	q3, q2, [x2]
	add	x8, x0, x8
	ldp	q4, q5, [x9]
	cmeq	v1.16b, v1.16b, v3.16b
	cmeq	v0.16b, v0.16b, v2.16b
	ldp	q2, q3, [x8]
	mvn	v1.16b, v1.16b
	mvn	v0.16b, v0.16b
	cmeq	v2.16b, v2.16b, v4.16b
	cmeq	v3.16b, v3.16b, v5.16b
	orn	v0.16b, v0.16b, v3.16b
	orn	v1.16b, v1.16b, v2.16b
	orr	v0.16b, v1.16b, v0.16b
	umaxv	b0, v0.16b
	fmov	w8, s0
	and	w8, w8, #0x1
	eor	w0, w8, #0x1
	ret
.LBB33_6:
	and	x9, x1, #0xffffffffffffffc0
	add	x10, x0, #32
	add	x12, x2, #32
	mov	w11, #32
	mov	x13, x1
.LBB33_7:
	ldp	q0, q3, [x12, #-32]
	ldp	q1, q2, [x10, #-32]
	ldp	q4, q5, [x12], #64
	cmeq	v0.16b, v1.16b, v0.16b
	cmeq	v1.16b, v2.16b, v3.16b
	ldp	q2, q3, [x10], #64
	mvn	v0.16b, v0.16b
	mvn	v1.16b, v1.16b
	cmeq	v2.16b, v2.16b, v4.16b
	cmeq	v3.16b, v3.16b, v5.16b
	orn	v0.16b, v0.16b, v2.16b
	orn	v1.16b, v1.16b, v3.16b
	orr	v0.16b, v1.16b, v0.16b
	umaxv	b0, v0.16b
	fmov	w14, s0
	tbnz	w14, #0, .LBB33_10
	sub	x13, x13, #64
	add	x11, x11, #64
	cmp	x13, #64
	b.hs	.LBB33_7
	sub	x10, x1, x9
	cmp	x10, #32
	b.hs	.LBB33_11
	b	.LBB33_16
.LBB33_10:
	sub	x9, x11, #32
	sub	x10, x1, x9
	cmp	x10, #32
	b.lo	.LBB33_16
.LBB33_11:
	add	x11, x0, x9
	add	x9, x2, x9
.LBB33_12:
	ldp	q0, q1, [x11], #32
	ldp	q2, q3, [x9], #32
	adrp	x12, .LCPI33_0
	cmeq	v1.16b, v1.16b, v3.16b
	cmeq	v0.16b, v0.16b, v2.16b
	ldr	q2, [x12, :lo12:.LCPI33_0]
	bic	v1.16b, v2.16b, v1.16b
	bic	v0.16b, v2.16b, v0.16b
	ext	v2.16b, v1.16b, v1.16b, #8
	ext	v3.16b, v0.16b, v0.16b, #8
	zip1	v1.16b, v1.16b, v2.16b
	zip1	v0.16b, v0.16b, v3.16b
	addv	h1, v1.8h
	addv	h0, v0.8h
	fmov	w12, s1
	fmov	w13, s0
	orr	w12, w13, w12
	tst	w12, #0xffff
	b.ne	.LBB33_14
	sub	x10, x10, #32
	cmp	x10, #32
	b.hs	.LBB33_12
	b	.LBB33_16
.LBB33_14:
	cmp	x10, #31
	b.ls	.LBB33_16
	mov	w8, #1
	eor	w0, w8, #0x1
	ret
.LBB33_16:
	add	x9, x0, x8
	add	x8, x2, x8
	ldp	q0, q3, [x8]
	ldp	q1, q2, [x9]
	cmeq	v0.16b, v1.16b, v0.16b
	cmeq	v1.16b, v2.16b, v3.16b
.LBB33_17:
	mvn	v0.16b, v0.16b
	orn	v0.16b, v0.16b, v1.16b
	umaxv	b0, v0.16b
	fmov	w8, s0
	and	w8, w8, #0x1
	eor	w0, w8, #0x1
	ret
.Lfunc_end33:
	.size	"core::cmp::slices::groups_equal::<i8,31'core::cmp::numbers::U8PartialEq{}>", .Lfunc_end33-"core::cmp::slices::groups_equal::<i8,31'core::cmp::numbers::U8PartialEq{}>"

	.section	.rodata.cst16,"aM",@progbits,16
	.p2align	4, 0x0
.LCPI34_0:
	.byte	1
	.byte	2
	.byte	4
	.byte	8
	.byte	16
	.byte	32
	.byte	64
	.byte	128
	.byte	1
	.byte	2
	.byte	4
	.byte	8
	.byte	16
	.byte	32
	.byte	64
	.byte	128
	.section	.rodata.cst8,"aM",@progbits,8
	.p2align	3, 0x0
.LCPI34_1:
	.byte	255
	.byte	255
	.byte	255
	.byte	255
	.byte	0
	.byte	2
	.byte	4
	.byte	6
.LCPI34_2:
	.byte	255
	.byte	255
	.byte	0
	.byte	1
	.byte	255
	.byte	255
	.byte	255
	.byte	255
	.section	".text.squitter_c::feed_take::take_by","ax",@progbits
	.p2align	2
	.type	"squitter_c::feed_take::take_by",@function
"squitter_c::feed_take::take_by":
	sub	sp, sp, #400
	cmp	x7, x5
	stp	x29, x30, [sp, #304]
	add	x29, sp, #304
	csel	x8, x7, x5, lo
	stp	x28, x27, [sp, #320]
	mov	x27, x3
	stp	x3, x8, [sp, #96]
	sub	x8, x29, #96
	add	x15, x0, #4, lsl #12
	orr	x8, x8, #0x2
	stp	x26, x25, [sp, #336]
	mov	x25, x0
	str	x8, [sp, #64]
	mov	w8, #17392
	mov	x26, xzr
	stp	x24, x23, [sp, #352]
	mov	x24, x1
	add	x8, x0, x8
	stp	x22, x21, [sp, #368]
	stp	x20, x19, [sp, #384]
	stp	x4, x6, [sp, #80]
	stp	x2, xzr, [sp, #112]
	stp	xzr, xzr, [sp, #128]
	str	xzr, [sp, #144]
	str	x8, [sp, #72]
	b	.LBB34_2
.LBB34_1:
	add	x1, x24, x26
	add	x4, sp, #128
	mov	x0, x25
	mov	x3, x27
	bl	"sq_feed::feed::Feed::step_other"
	add	x15, x25, #4, lsl #12
	add	x26, x0, x26
	tbnz	w1, #0, .LBB34_197
.LBB34_2:
	ldr	x8, [sp, #112]
	subs	x2, x8, x26
	b.ne	.LBB34_4
	ldrb	w8, [x25, #2]
	sub	w8, w8, #2
	cmp	w8, #3
	b.hs	.LBB34_22
.LBB34_4:
	mov	w8, #1
	cbz	w8, .LBB34_330
.LBB34_5:
	ldr	x8, [sp, #120]
	ldr	x9, [sp, #104]
	cmp	x8, x9
	b.hs	.LBB34_330
	ldr	x8, [x25, #17696]
	cbnz	x8, .LBB34_135
	ldrb	w8, [x25, #2]
	add	x9, x24, x26
	cmp	w8, #1
	b.ne	.LBB34_1
	ldrb	w8, [x15, #96]
	cbz	w8, .LBB34_23
	stur	xzr, [x29, #-144]
	stur	wzr, [x29, #-136]
	cmp	w8, #1
	b.gt	.LBB34_46
.LBB34_10:
	cbz	w8, .LBB34_1
	ldrb	w8, [x15, #152]
	cmp	w8, #1
	b.eq	.LBB34_1
	ldrb	w8, [x15, #216]
	tbnz	w8, #0, .LBB34_1
	cbz	x2, .LBB34_1
	ldr	x8, [x25, #16592]
	cbnz	x8, .LBB34_1
	ldrb	w12, [x9]
	cmp	w12, #13
	b.eq	.LBB34_17
	cmp	w12, #10
	b.ne	.LBB34_31
.LBB34_17:
	cmp	x2, #1
	b.eq	.LBB34_1
	ldrb	w8, [x9, #1]
	cmp	w8, #13
	ccmp	w8, #10, #4, ne
	mov	w8, #1
	cinc	x10, x8, eq
	subs	x11, x2, x10
	b.eq	.LBB34_1
	add	x8, x9, x10
	ldrb	w12, [x8]
	cmp	w12, #57
	b.le	.LBB34_32
.LBB34_20:
	cmp	w12, #64
	b.eq	.LBB34_126
	cmp	w12, #58
	b.eq	.LBB34_34
	b	.LBB34_1
.LBB34_22:
	ldr	x8, [x25, #17696]
	cmp	x8, #0
	cset	w8, ne
	cbnz	w8, .LBB34_5
	b	.LBB34_330
.LBB34_23:
	ldrb	w10, [x15, #104]
	cmp	w10, #1
	b.eq	.LBB34_1
	ldrb	w10, [x15, #144]
	tbnz	w10, #0, .LBB34_1
	cmp	x2, #2
	b.lo	.LBB34_45
	ldrb	w10, [x9]
	cmp	w10, #26
	b.ne	.LBB34_45
	ldrb	w10, [x9, #1]
	cmp	w10, #51
	b.eq	.LBB34_42
	cmp	w10, #50
	b.eq	.LBB34_38
	cmp	w10, #49
	b.ne	.LBB34_45
	mov	w10, #1
	mov	w11, #9
	add	x19, x11, #2
	cmp	x2, x19
	b.hs	.LBB34_39
	b	.LBB34_45
.LBB34_31:
	mov	x10, xzr
	mov	x11, x2
	add	x8, x24, x26
	cmp	w12, #57
	b.gt	.LBB34_20
.LBB34_32:
	cmp	w12, #37
	b.eq	.LBB34_126
	cmp	w12, #42
	b.ne	.LBB34_1
.LBB34_34:
	cmp	x11, #30
	b.lo	.LBB34_1
	ldrb	w9, [x8, #29]
	cmp	w9, #59
	b.ne	.LBB34_1
	movi	v0.16b, #223
	ldur	q1, [x8, #1]
	movi	v2.16b, #198
	ldur	q4, [x8, #13]
	movi	v3.16b, #64
	movi	v6.16b, #6
	movi	v7.16b, #10
	movi	v16.16b, #191
	adrp	x8, .LCPI34_0
	movi	v17.16b, #16
	and	v5.16b, v1.16b, v0.16b
	and	v0.16b, v4.16b, v0.16b
	add	v1.16b, v1.16b, v2.16b
	add	v2.16b, v4.16b, v2.16b
	sub	v4.16b, v3.16b, v5.16b
	sub	v3.16b, v3.16b, v0.16b
	uqsub	v1.16b, v1.16b, v6.16b
	uqsub	v2.16b, v2.16b, v6.16b
	add	v5.16b, v5.16b, v16.16b
	add	v0.16b, v0.16b, v16.16b
	umin	v4.16b, v4.16b, v7.16b
	umin	v3.16b, v3.16b, v7.16b
	add	v1.16b, v1.16b, v17.16b
	add	v2.16b, v2.16b, v17.16b
	add	v4.16b, v5.16b, v4.16b
	add	v3.16b, v0.16b, v3.16b
	umin	v0.16b, v1.16b, v4.16b
	umin	v1.16b, v2.16b, v3.16b
	movi	v2.16b, #15
	orr	v3.16b, v1.16b, v0.16b
	cmhi	v2.16b, v3.16b, v2.16b
	ldr	q3, [x8, :lo12:.LCPI34_0]
	and	v2.16b, v2.16b, v3.16b
	addp	v2.16b, v2.16b, v2.16b
	addp	v2.16b, v2.16b, v2.16b
	addp	v2.16b, v2.16b, v2.16b
	umov	w8, v2.h[0]
	cbnz	w8, .LBB34_1
	xtn	v2.8b, v1.8h
	xtn	v3.8b, v0.8h
	mov	x1, xzr
	uzp2	v1.16b, v1.16b, v0.16b
	uzp2	v0.16b, v0.16b, v0.16b
	mov	w9, #30
	shl	v2.8b, v2.8b, #4
	shl	v3.8b, v3.8b, #4
	orr	v1.8b, v2.8b, v1.8b
	orr	v2.8b, v3.8b, v0.8b
	mov	b0, v1.b[2]
	umov	w19, v2.b[4]
	umov	w16, v2.b[5]
	umov	w17, v2.b[6]
	umov	w22, v2.b[7]
	zip2	v3.8b, v1.8b, v0.8b
	zip1	v7.8b, v2.8b, v0.8b
	mov	v0.b[4], v1.b[3]
	b	.LBB34_131
.LBB34_38:
	mov	w10, wzr
	mov	w11, #14
	add	x19, x11, #2
	cmp	x2, x19
	b.lo	.LBB34_45
.LBB34_39:
	add	x12, x9, #2
	mov	x13, x11
.LBB34_40:
	cbz	x13, .LBB34_148
	ldrb	w14, [x12], #1
	sub	x13, x13, #1
	cmp	w14, #26
	b.ne	.LBB34_40
	b	.LBB34_45
.LBB34_42:
	cmp	x2, #23
	b.lo	.LBB34_45
	movi	v2.16b, #26
	ldur	q1, [x9, #2]
	adrp	x10, .LCPI34_0
	ldr	q3, [x10, :lo12:.LCPI34_0]
	cmeq	v0.16b, v1.16b, v2.16b
	and	v0.16b, v0.16b, v3.16b
	addp	v0.16b, v0.16b, v0.16b
	addp	v0.16b, v0.16b, v0.16b
	addp	v0.16b, v0.16b, v0.16b
	umov	w10, v0.h[0]
	cbnz	w10, .LBB34_45
	ldur	q0, [x9, #7]
	cmeq	v2.16b, v0.16b, v2.16b
	and	v2.16b, v2.16b, v3.16b
	addp	v2.16b, v2.16b, v2.16b
	addp	v2.16b, v2.16b, v2.16b
	addp	v2.16b, v2.16b, v2.16b
	umov	w10, v2.h[0]
	cbz	w10, .LBB34_226
.LBB34_45:
	stur	wzr, [x29, #-112]
	stur	xzr, [x29, #-120]
	stur	xzr, [x29, #-144]
	stur	wzr, [x29, #-136]
	cmp	w8, #1
	b.le	.LBB34_10
.LBB34_46:
	cmp	w8, #3
	adrp	x8, .LCPI34_0
	b.ne	.LBB34_58
	movi	v0.2d, #0000000000000000
	ldrb	w10, [x15, #768]
	stp	q0, q0, [x29, #-96]
	stur	q0, [x29, #-64]
	tbnz	w10, #0, .LBB34_72
	ldr	x10, [x25, #17144]
	cbnz	x10, .LBB34_72
	cmp	x2, #512
	mov	w10, #512
	csel	x11, x2, x10, lo
	lsr	x10, x11, #4
	cbz	x10, .LBB34_53
	mov	x12, xzr
	add	x13, x24, x26
.LBB34_51:
	movi	v0.16b, #10
	ldr	q1, [x13], #16
	cmeq	v0.16b, v1.16b, v0.16b
	ldr	q1, [x8, :lo12:.LCPI34_0]
	and	v0.16b, v0.16b, v1.16b
	addp	v0.16b, v0.16b, v0.16b
	addp	v0.16b, v0.16b, v0.16b
	addp	v0.16b, v0.16b, v0.16b
	umov	w14, v0.h[0]
	orr	w14, w14, #0x10000
	rbit	w14, w14
	clz	w14, w14
	cmp	w14, #15
	b.ls	.LBB34_105
	sub	x10, x10, #1
	sub	x12, x12, #16
	cbnz	x10, .LBB34_51
.LBB34_53:
	cmp	x2, #15
	b.hi	.LBB34_71
	cbz	x2, .LBB34_72
	mov	x27, xzr
.LBB34_56:
	ldrb	w8, [x9, x27]
	cmp	w8, #10
	b.eq	.LBB34_106
	movi	v1.2d, #0000000000000000
	movi	v7.2d, #0000000000000000
	add	x27, x27, #1
	mov	w19, wzr
	mov	w16, wzr
	mov	w17, wzr
	mov	w22, wzr
	mov	w23, wzr
	mov	w21, wzr
	mov	w10, wzr
	mov	w8, wzr
	mov	x1, xzr
	mov	w28, wzr
	cmp	x11, x27
	mov	x20, xzr
	b.ne	.LBB34_56
	b	.LBB34_73
.LBB34_58:
	ldrb	w10, [x15, #768]
	tbnz	w10, #0, .LBB34_72
	ldr	x10, [x25, #17144]
	cbnz	x10, .LBB34_72
	ldrb	w10, [x15, #224]
	cmp	w10, #1
	b.ne	.LBB34_62
	mov	w10, #16616
	ldr	x10, [x25, x10]
	cbz	x10, .LBB34_113
.LBB34_62:
	movi	v0.2d, #0000000000000000
	cmp	x2, #512
	mov	w10, #512
	csel	x11, x2, x10, lo
	lsr	x10, x11, #4
	stp	q0, q0, [x29, #-96]
	stur	q0, [x29, #-64]
	cbz	x10, .LBB34_66
	mov	x12, xzr
	add	x13, x24, x26
.LBB34_64:
	movi	v0.16b, #10
	ldr	q1, [x13], #16
	cmeq	v0.16b, v1.16b, v0.16b
	ldr	q1, [x8, :lo12:.LCPI34_0]
	and	v0.16b, v0.16b, v1.16b
	addp	v0.16b, v0.16b, v0.16b
	addp	v0.16b, v0.16b, v0.16b
	addp	v0.16b, v0.16b, v0.16b
	umov	w14, v0.h[0]
	orr	w14, w14, #0x10000
	rbit	w14, w14
	clz	w14, w14
	cmp	w14, #15
	b.ls	.LBB34_110
	sub	x10, x10, #1
	sub	x12, x12, #16
	cbnz	x10, .LBB34_64
.LBB34_66:
	cmp	x2, #15
	b.hi	.LBB34_71
	cbz	x2, .LBB34_72
	mov	x27, xzr
.LBB34_69:
	ldrb	w8, [x9, x27]
	cmp	w8, #10
	b.eq	.LBB34_106
	movi	v1.2d, #0000000000000000
	movi	v7.2d, #0000000000000000
	add	x27, x27, #1
	mov	w19, wzr
	mov	w16, wzr
	mov	w17, wzr
	mov	w22, wzr
	mov	w23, wzr
	mov	w21, wzr
	mov	w10, wzr
	mov	w8, wzr
	mov	x1, xzr
	mov	w28, wzr
	cmp	x11, x27
	mov	x20, xzr
	b.ne	.LBB34_69
	b	.LBB34_73
.LBB34_71:
	movi	v0.16b, #10
	sub	x10, x11, #16
	ldr	q1, [x9, x10]
	cmeq	v0.16b, v1.16b, v0.16b
	ldr	q1, [x8, :lo12:.LCPI34_0]
	and	v0.16b, v0.16b, v1.16b
	addp	v0.16b, v0.16b, v0.16b
	addp	v0.16b, v0.16b, v0.16b
	addp	v0.16b, v0.16b, v0.16b
	umov	w8, v0.h[0]
	orr	w8, w8, #0x10000
	rbit	w8, w8
	clz	w8, w8
	add	x9, x10, x8
	cmp	w8, #16
	csel	x27, x9, x11, lo
	cmp	x11, x27
	b.hi	.LBB34_107
.LBB34_72:
	mov	w19, wzr
	mov	w16, wzr
	mov	w17, wzr
	mov	w22, wzr
	mov	w23, wzr
	mov	w21, wzr
	mov	w10, wzr
	mov	w8, wzr
	mov	x1, xzr
	mov	w28, wzr
	movi	v1.2d, #0000000000000000
	movi	v7.2d, #0000000000000000
	mov	x20, xzr
.LBB34_73:
	ldr	x27, [sp, #96]
	cbz	w10, .LBB34_1
.LBB34_74:
	cmp	w28, #2
	b.ne	.LBB34_82
	umov	w9, v7.h[0]
	and	w10, w9, #0xf8
	sxtb	w27, w9
	cmp	w10, #136
	b.ne	.LBB34_132
.LBB34_76:
	cbz	w8, .LBB34_158
	cmp	w8, #2
	b.ne	.LBB34_93
	ldrb	w9, [x15, #840]
	cmp	w9, #2
	b.ne	.LBB34_158
	ldrb	w9, [x15, #872]
	cbnz	w9, .LBB34_158
	ldr	x9, [x25, #17312]
	ldr	x10, [x25, #17208]
	adds	x9, x9, x1
	csinv	x9, x9, xzr, lo
	subs	x11, x10, x9
	b.ls	.LBB34_155
	ldr	x12, [x25, #17200]
	mov	w13, #1000
	cmp	x12, #1000
	csel	x12, x12, x13, hi
	cmp	x11, x12
	b.hi	.LBB34_158
	b	.LBB34_263
.LBB34_82:
	cbz	w28, .LBB34_92
	umov	w9, v7.h[0]
	sxtb	w27, w9
	tbnz	w27, #31, .LBB34_133
	ldrb	w9, [x15, #945]
	cmp	w8, #1
	b.ne	.LBB34_86
	mov	x10, #16724
	movk	x10, #19788, lsl #16
	movk	x10, #65280, lsl #32
	cmp	x1, x10
	b.eq	.LBB34_160
.LBB34_86:
	tbz	w9, #0, .LBB34_111
	mov	w9, wzr
	cmp	w8, #2
	stp	w17, w16, [sp, #28]
	str	q7, [sp, #48]
	b.ne	.LBB34_163
.LBB34_88:
	ldrb	w10, [x15, #840]
	stur	xzr, [x29, #-80]
	cmp	w10, #2
	b.ne	.LBB34_198
	ldrb	w8, [x15, #872]
	cbnz	w8, .LBB34_198
	ldr	x8, [x25, #17312]
	ldr	x11, [x25, #17208]
	adds	x8, x8, x1
	csinv	x8, x8, xzr, lo
	subs	x12, x11, x8
	b.ls	.LBB34_137
	ldr	x13, [x25, #17200]
	mov	w14, #1000
	cmp	x13, #1000
	csel	x13, x13, x14, hi
	cmp	x12, x13
	b.ls	.LBB34_140
	b	.LBB34_198
.LBB34_92:
	mov	w10, wzr
	mov	w8, #2
	ldr	x9, [x25, #17336]
	cmn	x9, #1
	b.ne	.LBB34_171
	b	.LBB34_193
.LBB34_93:
	cbz	x1, .LBB34_158
	mov	x9, #16724
	movk	x9, #19788, lsl #16
	movk	x9, #65280, lsl #32
	cmp	x1, x9
	b.eq	.LBB34_158
	ldrb	w9, [x15, #801]
	tbnz	w9, #0, .LBB34_158
	ldrb	w9, [x15, #840]
	cmp	w9, #2
	b.ne	.LBB34_158
	ldrb	w9, [x15, #872]
	cbnz	w9, .LBB34_158
	ldrb	w9, [x15, #792]
	cmp	w9, #1
	b.ne	.LBB34_158
	ldr	x9, [x25, #17160]
	sub	x9, x1, x9
	ubfx	x10, x9, #47, #1
	cbnz	x10, .LBB34_158
	ldr	x10, [x25, #17168]
	and	x9, x9, #0xffffffffffff
	ldr	x11, [x25, #17312]
	adds	x9, x9, x10
	csinv	x10, x9, xzr, lo
	mov	x9, #10661
	movk	x9, #26389, lsl #16
	movk	x9, #15903, lsl #32
	movk	x9, #44739, lsl #48
	umulh	x9, x10, x9
	adds	x9, x11, x9, lsr #13
	ldr	x11, [x25, #17208]
	csinv	x9, x9, xzr, lo
	subs	x11, x9, x11
	b.lo	.LBB34_158
	ldr	x12, [x25, #17192]
	cmp	x11, x12
	b.hi	.LBB34_158
	mov	v2.16b, v1.16b
	ldr	x8, [x25, #17336]
	cmn	x8, #1
	b.eq	.LBB34_104
	ldr	x11, [x25, #17344]
	add	x8, x8, #1
	str	x8, [x25, #17336]
	add	x8, x11, #1
	str	x8, [x25, #17344]
.LBB34_104:
	and	x8, x1, #0xffffffffffff
	str	x10, [x25, #17168]
	add	x15, x25, #4, lsl #12
	str	x8, [x25, #17160]
	b	.LBB34_274
.LBB34_105:
	sub	x27, x14, x12
.LBB34_106:
	cmp	x11, x27
	b.ls	.LBB34_72
.LBB34_107:
	ldrb	w8, [x15, #224]
	mov	w9, #16616
	str	x2, [sp, #48]
	ldr	q0, [x25, x9]
	sub	x0, x29, #96
	sub	x1, x29, #120
	stur	x8, [x29, #-120]
	sub	x8, x29, #120
	add	x2, x24, x26
	mov	x3, x27
	stur	q0, [x8, #8]
	bl	"sq_feed::rows::row_read"
	movi	v1.2d, #0000000000000000
	ldurb	w8, [x29, #-96]
	mov	x1, xzr
	mov	w19, wzr
	cmp	w8, #2
	b.ne	.LBB34_112
	movi	v7.2d, #0000000000000000
	ldurb	w9, [x29, #-88]
	ldr	x2, [sp, #48]
	mov	w16, w19
	mov	w17, w19
	mov	w22, w19
	mov	w23, w19
	mov	w21, w19
	mov	w10, w19
	mov	w8, w19
	mov	w28, w19
	mov	x20, x1
	add	x15, x25, #4, lsl #12
	cbnz	w9, .LBB34_73
	ldur	s0, [x29, #-63]
	ldur	s1, [x29, #-53]
	add	x20, x27, #1
	ldurb	w8, [x29, #-80]
	ldur	x1, [x29, #-72]
	mov	w10, #1
	ushll	v7.8h, v0.8b, #0
	ushll	v1.8h, v1.8b, #0
	ldurb	w28, [x29, #-64]
	ldurb	w19, [x29, #-59]
	ldurb	w16, [x29, #-58]
	ldurb	w17, [x29, #-57]
	ldurb	w22, [x29, #-56]
	ldurb	w23, [x29, #-55]
	ldurb	w21, [x29, #-54]
	ldr	x27, [sp, #96]
	cbz	w10, .LBB34_1
	b	.LBB34_74
.LBB34_110:
	sub	x27, x14, x12
	cmp	x11, x27
	b.hi	.LBB34_107
	b	.LBB34_72
.LBB34_111:
	ubfx	w10, w27, #3, #5
	eor	w8, w9, #0x1
	ldr	x27, [sp, #96]
	ldr	x9, [x25, #17336]
	cmn	x9, #1
	b.ne	.LBB34_171
	b	.LBB34_193
.LBB34_112:
	ldr	x2, [sp, #48]
	movi	v7.2d, #0000000000000000
	mov	w16, w19
	mov	w17, w19
	mov	w22, w19
	mov	w23, w19
	mov	w21, w19
	mov	w8, w19
	mov	w28, w19
	mov	x20, x1
	add	x15, x25, #4, lsl #12
	ldr	x27, [sp, #96]
	cbnz	w19, .LBB34_74
	b	.LBB34_1
.LBB34_113:
	cmp	x2, #73
	b.lo	.LBB34_62
	ldr	x10, [x25, #16624]
	cmp	x10, #2
	b.ne	.LBB34_62
	ldr	q0, [x9]
	umov	w10, v0.b[10]
	cmp	w10, #46
	b.ne	.LBB34_62
	movi	v1.16b, #198
	movi	v2.16b, #246
	add	v1.16b, v0.16b, v1.16b
	cmhi	v2.16b, v2.16b, v1.16b
	ldr	q1, [x8, :lo12:.LCPI34_0]
	and	v2.16b, v2.16b, v1.16b
	addp	v2.16b, v2.16b, v2.16b
	addp	v2.16b, v2.16b, v2.16b
	addp	v2.16b, v2.16b, v2.16b
	umov	w10, v2.h[0]
	and	w10, w10, #0x7ff
	cmp	w10, #1024
	b.ne	.LBB34_62
	movi	v2.16b, #198
	add	x0, x24, x26
	movi	v4.16b, #246
	ldr	q3, [x0, #11]!
	add	v2.16b, v3.16b, v2.16b
	cmhi	v2.16b, v4.16b, v2.16b
	and	v2.16b, v2.16b, v1.16b
	addp	v2.16b, v2.16b, v2.16b
	addp	v2.16b, v2.16b, v2.16b
	addp	v2.16b, v2.16b, v2.16b
	umov	w10, v2.h[0]
	cbz	w10, .LBB34_62
	umov	w10, v2.h[0]
	rbit	w10, w10
	clz	w27, w10
	add	x10, x0, x27
	ldrb	w11, [x10]
	cmp	w11, #44
	b.ne	.LBB34_62
	ldrb	w11, [x10, #1]!
	cmp	w11, #34
	b.eq	.LBB34_62
	movi	v2.16b, #44
	ldr	q3, [x10]
	cmeq	v2.16b, v3.16b, v2.16b
	and	v2.16b, v2.16b, v1.16b
	addp	v2.16b, v2.16b, v2.16b
	addp	v2.16b, v2.16b, v2.16b
	addp	v2.16b, v2.16b, v2.16b
	umov	w11, v2.h[0]
	cbz	w11, .LBB34_62
	movi	v4.16b, #10
	umov	w12, v2.h[0]
	cmeq	v3.16b, v3.16b, v4.16b
	rbit	w12, w12
	clz	w12, w12
	and	v3.16b, v3.16b, v1.16b
	addp	v3.16b, v3.16b, v3.16b
	addp	v3.16b, v3.16b, v3.16b
	addp	v3.16b, v3.16b, v3.16b
	umov	w11, v3.h[0]
	orr	w11, w11, #0x10000
	rbit	w11, w11
	clz	w11, w11
	cmp	w11, w12
	csel	w19, wzr, w12, lo
	b.lo	.LBB34_62
	add	x10, x10, x19
	ldrb	w11, [x10, #29]
	cmp	w11, #10
	b.eq	.LBB34_280
	cmp	w11, #13
	b.ne	.LBB34_62
	ldrb	w11, [x10, #30]
	cmp	w11, #10
	b.ne	.LBB34_62
	mov	w20, #2
	b	.LBB34_281
.LBB34_126:
	cmp	x11, #42
	b.lo	.LBB34_1
	ldrb	w9, [x8, #41]
	cmp	w9, #59
	b.ne	.LBB34_1
	movi	v1.16b, #223
	ldur	q0, [x8, #1]
	movi	v2.16b, #198
	ldur	q7, [x8, #17]
	movi	v3.16b, #64
	movi	v4.16b, #6
	movi	v5.16b, #10
	movi	v6.16b, #191
	adrp	x9, .LCPI34_0
	movi	v16.16b, #16
	and	v17.16b, v0.16b, v1.16b
	and	v18.16b, v7.16b, v1.16b
	add	v0.16b, v0.16b, v2.16b
	add	v7.16b, v7.16b, v2.16b
	sub	v19.16b, v3.16b, v17.16b
	sub	v20.16b, v3.16b, v18.16b
	uqsub	v0.16b, v0.16b, v4.16b
	uqsub	v7.16b, v7.16b, v4.16b
	add	v17.16b, v17.16b, v6.16b
	add	v18.16b, v18.16b, v6.16b
	umin	v19.16b, v19.16b, v5.16b
	umin	v20.16b, v20.16b, v5.16b
	add	v0.16b, v0.16b, v16.16b
	add	v17.16b, v17.16b, v19.16b
	add	v19.16b, v7.16b, v16.16b
	add	v18.16b, v18.16b, v20.16b
	umin	v7.16b, v0.16b, v17.16b
	umin	v0.16b, v19.16b, v18.16b
	movi	v17.16b, #15
	orr	v18.16b, v0.16b, v7.16b
	cmhi	v19.16b, v18.16b, v17.16b
	ldr	q18, [x9, :lo12:.LCPI34_0]
	and	v19.16b, v19.16b, v18.16b
	addp	v19.16b, v19.16b, v19.16b
	addp	v19.16b, v19.16b, v19.16b
	addp	v19.16b, v19.16b, v19.16b
	umov	w9, v19.h[0]
	cbnz	w9, .LBB34_1
	ldur	q19, [x8, #25]
	and	v1.16b, v19.16b, v1.16b
	add	v2.16b, v19.16b, v2.16b
	sub	v3.16b, v3.16b, v1.16b
	uqsub	v2.16b, v2.16b, v4.16b
	add	v1.16b, v1.16b, v6.16b
	umin	v3.16b, v3.16b, v5.16b
	add	v2.16b, v2.16b, v16.16b
	add	v1.16b, v1.16b, v3.16b
	umin	v1.16b, v2.16b, v1.16b
	cmhi	v2.16b, v1.16b, v17.16b
	and	v2.16b, v2.16b, v18.16b
	addp	v2.16b, v2.16b, v2.16b
	addp	v2.16b, v2.16b, v2.16b
	addp	v2.16b, v2.16b, v2.16b
	umov	w8, v2.h[0]
	cbnz	w8, .LBB34_1
	xtn	v2.8b, v7.8h
	uzp2	v3.16b, v7.16b, v0.16b
	adrp	x8, .LCPI34_1
	ext	v4.16b, v1.16b, v1.16b, #8
	mov	v1.d[0], v1.d[1]
	ldr	d6, [x8, :lo12:.LCPI34_1]
	adrp	x8, .LCPI34_2
	shl	v2.8b, v2.8b, #4
	tbl	v1.8b, { v1.16b }, v6.8b
	rev16	v4.8b, v4.8b
	orr	v2.8b, v2.8b, v3.8b
	xtn	v3.8b, v0.8h
	uzp2	v0.16b, v0.16b, v0.16b
	shl	v1.8b, v1.8b, #4
	fmov	d5, d2
	shl	v3.8b, v3.8b, #4
	mov	b7, v5.b[6]
	orr	v3.8b, v3.8b, v0.8b
	umov	w19, v3.b[2]
	umov	w16, v3.b[3]
	umov	w17, v3.b[4]
	mov	v7.b[2], v5.b[7]
	ext	v5.8b, v2.8b, v0.8b, #2
	mov	v2.d[1], v2.d[0]
	ldr	d0, [x8, :lo12:.LCPI34_2]
	umov	w22, v3.b[5]
	tbl	v2.8b, { v2.16b }, v0.8b
	mov	b0, v3.b[6]
	mov	v7.b[4], v3.b[0]
	fmov	w8, s5
	zip2	v1.8b, v1.8b, v0.8b
	fmov	x9, d2
	mov	v7.b[6], v3.b[1]
	mov	v0.b[4], v3.b[7]
	orr	x8, x9, x8, lsl #32
	mov	w9, #42
	orr	v3.8b, v1.8b, v4.8b
	rev	x1, x8
	mov	w8, #1
.LBB34_131:
	mov	w21, v0.s[1]
	add	x20, x9, x10
	fmov	w23, s0
	mov	v1.16b, v3.16b
	umov	w9, v7.h[0]
	and	w10, w9, #0xf8
	sxtb	w27, w9
	cmp	w10, #136
	b.eq	.LBB34_76
.LBB34_132:
	tbnz	w27, #31, .LBB34_134
.LBB34_133:
	mov	w10, wzr
	mov	w8, #5
	ldr	x27, [sp, #96]
	ldr	x9, [x25, #17336]
	cmn	x9, #1
	b.ne	.LBB34_171
	b	.LBB34_193
.LBB34_134:
	ldrb	w9, [x15, #945]
	ubfx	w10, w27, #3, #5
	cmp	w8, #1
	b.eq	.LBB34_159
	b	.LBB34_161
.LBB34_135:
	add	x1, sp, #128
	mov	x0, x25
	bl	"sq_feed::feed::Feed::step_ready"
.LBB34_136:
	add	x15, x25, #4, lsl #12
	b	.LBB34_197
.LBB34_137:
	ldr	x12, [x25, #17192]
	sub	x13, x8, x11
	cmp	x13, x12
	b.ls	.LBB34_140
	ldrb	w13, [x15, #800]
	cmp	w13, #1
	b.ne	.LBB34_198
	ldr	x13, [x25, #17216]
	ldr	x14, [sp, #96]
	subs	x13, x14, x13
	csel	x13, xzr, x13, lo
	adds	x13, x13, x11
	csinv	x13, x13, xzr, lo
	subs	x13, x8, x13
	cneg	x13, x13, ls
	cmp	x13, x12
	b.hi	.LBB34_198
.LBB34_140:
	ldr	x9, [x25, #17336]
	cmn	x9, #1
	b.eq	.LBB34_142
	ldr	x10, [x25, #17344]
	add	x9, x9, #1
	str	x9, [x25, #17336]
	add	x9, x10, #1
	str	x9, [x25, #17344]
.LBB34_142:
	cmp	x11, x8
	b.ls	.LBB34_144
	ldr	x9, [x25, #17200]
	subs	x9, x11, x9
	csel	x9, xzr, x9, lo
	cmp	x9, x8
	csel	x8, x9, x8, hi
	mov	w9, #1
	and	w9, w9, #0xff
	cmp	w9, #1
	b.ne	.LBB34_192
	b	.LBB34_145
.LBB34_144:
	ldr	x9, [sp, #96]
	str	x8, [x25, #17208]
	str	x9, [x25, #17216]
	mov	w9, #1
	and	w9, w9, #0xff
	cmp	w9, #1
	b.ne	.LBB34_192
.LBB34_145:
	str	x8, [sp, #128]
	cbz	w28, .LBB34_255
	ldr	q0, [sp, #48]
	cmp	w28, #2
	umov	w9, v0.h[2]
	umov	w8, v0.h[3]
	b.ne	.LBB34_256
	ldp	w11, w10, [sp, #28]
	b	.LBB34_257
.LBB34_148:
	ldrb	w8, [x9, #2]
	ldrb	w12, [x9, #3]
	ldr	w13, [x9, #4]
	stur	wzr, [x29, #-88]
	lsl	x8, x8, #16
	stur	xzr, [x29, #-96]
	orr	x8, x8, x12, lsl #24
	orr	x12, x8, x13, lsl #32
	sub	x8, x11, #7
	rev	x1, x12
	cbz	w10, .LBB34_153
	cmp	x8, #2
	b.ne	.LBB34_206
	ldurh	w8, [x9, #9]
	mov	w11, wzr
	mov	w12, #1
	mov	w19, #11
	lsr	w10, w8, #8
	ldur	w9, [x29, #-88]
	ldur	x13, [x29, #-96]
	stur	w9, [x29, #-136]
	stur	x13, [x29, #-144]
.LBB34_151:
	tbz	w12, #0, .LBB34_200
	mov	w9, wzr
	mov	w8, #2
	ldr	x10, [x25, #17336]
	cmn	x10, #1
	b.ne	.LBB34_244
	b	.LBB34_262
.LBB34_153:
	cmp	x8, #7
	b.ne	.LBB34_207
	ldur	w10, [x9, #11]
	ldurh	w8, [x9, #9]
	ldrb	w9, [x9, #15]
	stur	w10, [x29, #-128]
	lsr	w10, w8, #8
	sturb	w9, [x29, #-124]
	b	.LBB34_208
.LBB34_155:
	ldr	x11, [x25, #17192]
	sub	x12, x9, x10
	cmp	x12, x11
	b.ls	.LBB34_263
	ldrb	w12, [x15, #800]
	cmp	w12, #1
	b.ne	.LBB34_158
	ldr	x12, [x25, #17216]
	ldr	x13, [sp, #96]
	subs	x12, x13, x12
	csel	x12, xzr, x12, lo
	adds	x12, x12, x10
	csinv	x12, x12, xzr, lo
	subs	x12, x9, x12
	cneg	x12, x12, ls
	cmp	x12, x11
	b.ls	.LBB34_263
.LBB34_158:
	ldrb	w9, [x15, #945]
	mov	w10, #17
	cmp	w8, #1
	b.ne	.LBB34_161
.LBB34_159:
	mov	x11, #16724
	movk	x11, #19788, lsl #16
	movk	x11, #65280, lsl #32
	cmp	x1, x11
	b.ne	.LBB34_161
.LBB34_160:
	mov	w10, wzr
	mov	w8, #3
	ldr	x27, [sp, #96]
	ldr	x9, [x25, #17336]
	cmn	x9, #1
	b.ne	.LBB34_171
	b	.LBB34_193
.LBB34_161:
	cmp	w10, #17
	cset	w11, eq
	orr	w11, w11, w9
	mov	w9, #1
	tbz	w11, #0, .LBB34_170
	mov	w28, #2
	cmp	w8, #2
	stp	w17, w16, [sp, #28]
	str	q7, [sp, #48]
	b.eq	.LBB34_88
.LBB34_163:
	cmp	w8, #1
	b.ne	.LBB34_166
	cbz	x1, .LBB34_166
	ldrb	w8, [x15, #801]
	cmp	w8, #1
	b.ne	.LBB34_182
.LBB34_166:
	ldr	x8, [x25, #17336]
	cmn	x8, #1
	b.eq	.LBB34_168
	ldr	x9, [x25, #17344]
	add	x8, x8, #1
	str	x8, [x25, #17336]
	add	x8, x9, #1
	str	x8, [x25, #17344]
.LBB34_168:
	ldrb	w9, [x15, #800]
	ldr	x8, [x25, #17208]
	cmp	w9, #1
	b.ne	.LBB34_191
	ldr	x9, [x25, #17216]
	ldr	x10, [sp, #96]
	subs	x9, x10, x9
	csel	x9, xzr, x9, lo
	adds	x8, x9, x8
	csinv	x8, x8, xzr, lo
	b	.LBB34_191
.LBB34_170:
	bic	w8, w9, w11
	ldr	x27, [sp, #96]
	ldr	x9, [x25, #17336]
	cmn	x9, #1
	b.eq	.LBB34_193
.LBB34_171:
	add	x9, x9, #1
	cmp	w8, #2
	str	x9, [x25, #17336]
	b.gt	.LBB34_175
	cbz	w8, .LBB34_178
	cmp	w8, #1
	b.ne	.LBB34_180
	cmp	w10, #24
	mov	w8, #24
	csel	w8, w10, w8, lo
	ldr	x10, [sp, #72]
	ldr	x9, [x10, w8, uxtw #3]
	add	x9, x9, #1
	str	x9, [x10, w8, uxtw #3]
	b	.LBB34_193
.LBB34_175:
	cmp	w8, #3
	b.eq	.LBB34_179
	cmp	w8, #4
	b.ne	.LBB34_181
	ldr	x8, [x25, #17368]
	add	x8, x8, #1
	str	x8, [x25, #17368]
	b	.LBB34_193
.LBB34_178:
	ldr	x8, [x25, #17344]
	add	x8, x8, #1
	str	x8, [x25, #17344]
	b	.LBB34_193
.LBB34_179:
	ldr	x8, [x25, #17360]
	add	x8, x8, #1
	str	x8, [x25, #17360]
	b	.LBB34_193
.LBB34_180:
	ldr	x8, [x25, #17352]
	add	x8, x8, #1
	str	x8, [x25, #17352]
	b	.LBB34_193
.LBB34_181:
	ldr	x8, [x25, #17376]
	add	x8, x8, #1
	str	x8, [x25, #17376]
	b	.LBB34_193
.LBB34_182:
	ldrb	w8, [x15, #840]
	cmp	w8, #2
	b.ne	.LBB34_204
	ldrb	w8, [x15, #872]
	cbnz	w8, .LBB34_204
	ldrb	w8, [x15, #792]
	cmp	w8, #1
	b.ne	.LBB34_204
	ldr	x8, [x25, #17160]
	sub	x8, x1, x8
	ubfx	x10, x8, #47, #1
	cbnz	x10, .LBB34_204
	ldr	x10, [x25, #17168]
	and	x8, x8, #0xffffffffffff
	ldr	x11, [x25, #17312]
	adds	x8, x8, x10
	csinv	x10, x8, xzr, lo
	mov	x8, #10661
	movk	x8, #26389, lsl #16
	movk	x8, #15903, lsl #32
	movk	x8, #44739, lsl #48
	umulh	x8, x10, x8
	adds	x8, x11, x8, lsr #13
	ldr	x11, [x25, #17208]
	csinv	x8, x8, xzr, lo
	subs	x11, x8, x11
	b.lo	.LBB34_204
	ldr	x12, [x25, #17192]
	cmp	x11, x12
	b.hi	.LBB34_204
	ldr	x9, [x25, #17336]
	cmn	x9, #1
	b.eq	.LBB34_190
	ldr	x11, [x25, #17344]
	add	x9, x9, #1
	str	x9, [x25, #17336]
	add	x9, x11, #1
	str	x9, [x25, #17344]
.LBB34_190:
	and	x9, x1, #0xffffffffffff
	str	x10, [x25, #17168]
	str	x9, [x25, #17160]
.LBB34_191:
	ldr	x10, [sp, #96]
	str	x8, [x25, #17208]
	mov	w9, #1
	str	x10, [x25, #17216]
	and	w9, w9, #0xff
	cmp	w9, #1
	b.eq	.LBB34_145
.LBB34_192:
	ldr	x27, [sp, #96]
.LBB34_193:
	ldr	x8, [x25, #17696]
	stp	xzr, xzr, [x29, #-96]
	stur	xzr, [x29, #-80]
	cbnz	x8, .LBB34_195
	add	x26, x20, x26
	b	.LBB34_2
.LBB34_195:
	mov	w8, #17600
	sub	x0, x29, #96
	add	x1, x25, x8
	bl	"arrayvec::array_vec::ArrayVec::remove::<#86edd032541158b8>"
	ldur	q0, [x29, #-96]
	ldur	x8, [x29, #-80]
	add	x15, x25, #4, lsl #12
	add	x26, x20, x26
.LBB34_196:
	str	q0, [sp, #128]
	str	x8, [sp, #144]
.LBB34_197:
	ldr	x13, [sp, #120]
	mov	w8, #14
	add	x11, sp, #128
	ldp	x12, x9, [sp, #80]
	ldur	x10, [x11, #14]
	madd	x8, x13, x8, x9
	ldr	x9, [sp, #128]
	ldur	x11, [x11, #8]
	str	x9, [x12, x13, lsl #3]
	add	x13, x13, #1
	str	x13, [sp, #120]
	stur	x10, [x8, #6]
	str	x11, [x8]
	b	.LBB34_2
.LBB34_198:
	str	q1, [sp]
	tbz	w9, #0, .LBB34_222
	mov	v0.16b, v1.16b
	umov	w8, v1.h[3]
	mov	w9, w22
	mov	w11, w23
	mov	v0.h[3], w21
	b	.LBB34_223
.LBB34_200:
	tbnz	w8, #7, .LBB34_221
	mov	x9, #16724
	movk	x9, #19788, lsl #16
	movk	x9, #65280, lsl #32
	cmp	x1, x9
	b.eq	.LBB34_231
	ldrb	w12, [x15, #945]
	tbnz	w12, #0, .LBB34_233
	ubfx	w9, w8, #3, #5
	eor	w8, w12, #0x1
	ldr	x10, [x25, #17336]
	cmn	x10, #1
	b.ne	.LBB34_244
	b	.LBB34_262
.LBB34_204:
	str	q1, [sp]
	tbz	w9, #0, .LBB34_227
	mov	v0.16b, v1.16b
	umov	w8, v1.h[3]
	mov	w9, w23
	mov	w10, w22
	mov	v0.h[3], w21
	b	.LBB34_228
.LBB34_206:
	mov	w11, wzr
	mov	w8, wzr
	mov	w10, wzr
	mov	w12, #1
	ldur	w9, [x29, #-88]
	ldur	x13, [x29, #-96]
	stur	w9, [x29, #-136]
	stur	x13, [x29, #-144]
	b	.LBB34_151
.LBB34_207:
	mov	w8, wzr
	mov	w10, wzr
	sturb	wzr, [x29, #-124]
	stur	wzr, [x29, #-128]
.LBB34_208:
	ldur	w9, [x29, #-128]
	ldurb	w13, [x29, #-124]
	mov	w11, wzr
	mov	w12, wzr
	stur	w9, [x29, #-96]
	sturb	w13, [x29, #-92]
	ldur	w9, [x29, #-88]
	ldur	x13, [x29, #-96]
	stur	w9, [x29, #-136]
	stur	x13, [x29, #-144]
	b	.LBB34_151
.LBB34_209:
	and	w9, w8, #0xf8
	cmp	w9, #136
	b.ne	.LBB34_220
	cbz	x1, .LBB34_219
	mov	x9, #16724
	movk	x9, #19788, lsl #16
	movk	x9, #65280, lsl #32
	cmp	x1, x9
	b.eq	.LBB34_219
	ldrb	w9, [x15, #801]
	tbnz	w9, #0, .LBB34_219
	ldrb	w9, [x15, #840]
	cmp	w9, #2
	b.ne	.LBB34_219
	ldrb	w9, [x15, #872]
	cbnz	w9, .LBB34_219
	ldrb	w9, [x15, #792]
	cmp	w9, #1
	b.ne	.LBB34_219
	ldr	x9, [x25, #17160]
	sub	x9, x1, x9
	ubfx	x12, x9, #47, #1
	cbnz	x12, .LBB34_219
	ldr	x12, [x25, #17168]
	and	x9, x9, #0xffffffffffff
	ldr	x13, [x25, #17312]
	adds	x9, x9, x12
	mov	x12, #10661
	movk	x12, #26389, lsl #16
	csinv	x9, x9, xzr, lo
	movk	x12, #15903, lsl #32
	movk	x12, #44739, lsl #48
	umulh	x12, x9, x12
	adds	x12, x13, x12, lsr #13
	ldr	x13, [x25, #17208]
	csinv	x12, x12, xzr, lo
	subs	x13, x12, x13
	b.lo	.LBB34_219
	ldr	x14, [x25, #17192]
	cmp	x13, x14
	b.ls	.LBB34_321
.LBB34_219:
	ldrb	w12, [x15, #945]
	mov	w9, #17
	b	.LBB34_230
.LBB34_220:
	tbnz	w8, #7, .LBB34_229
.LBB34_221:
	mov	w9, wzr
	mov	w8, #5
	ldr	x10, [x25, #17336]
	cmn	x10, #1
	b.ne	.LBB34_244
	b	.LBB34_262
.LBB34_222:
	movi	v0.2d, #0000000000000000
	mov	w9, wzr
	mov	w11, wzr
	mov	w8, wzr
.LBB34_223:
	cbnz	w10, .LBB34_225
	mov	w10, #1
	strb	w10, [x15, #944]
.LBB34_225:
	mov	h1, v7.h[1]
	ext	v0.8b, v0.8b, v0.8b, #6
	sturb	w9, [x29, #-81]
	mov	h2, v7.h[2]
	mov	w9, #17160
	mov	w10, #17600
	ldr	x2, [sp, #96]
	stur	x1, [x29, #-96]
	add	x0, x25, x9
	sub	x1, x29, #96
	add	x3, x25, x10
	sturb	w27, [x29, #-88]
	stur	b1, [x29, #-87]
	mov	h1, v7.h[3]
	uzp1	v0.8b, v0.8b, v0.8b
	stur	b2, [x29, #-86]
	sturb	w19, [x29, #-84]
	sturb	w16, [x29, #-83]
	stur	b1, [x29, #-85]
	sturb	w17, [x29, #-82]
	sturb	w11, [x29, #-80]
	stur	s0, [x29, #-79]
	sturb	w8, [x29, #-75]
	bl	"sq_feed::ear::Ear::hear_jump"
	add	x15, x25, #4, lsl #12
	mov	x8, xzr
	ldr	q1, [sp]
	and	w9, wzr, #0xff
	cmp	w9, #1
	b.ne	.LBB34_192
	b	.LBB34_145
.LBB34_226:
	umov	w8, v1.b[1]
	fmov	x10, d1
	ldur	x13, [x9, #11]
	ldur	w9, [x9, #19]
	mov	w12, wzr
	mov	w19, #23
	stur	x13, [x29, #-96]
	lsl	x11, x10, #16
	umov	w10, v0.b[3]
	stur	w9, [x29, #-88]
	lsl	w14, w8, #24
	umov	w8, v0.b[2]
	and	x11, x11, #0xffffffff00ffffff
	orr	x11, x11, x14
	rev	x1, x11
	mov	w11, #1
	mov	w9, w9
	stur	w9, [x29, #-136]
	stur	x13, [x29, #-144]
	cbnz	w11, .LBB34_209
	b	.LBB34_151
.LBB34_227:
	movi	v0.2d, #0000000000000000
	mov	w8, wzr
	mov	w9, wzr
	mov	w10, wzr
.LBB34_228:
	ext	v0.8b, v0.8b, v0.8b, #6
	sturb	w9, [x29, #-88]
	mov	w9, #17600
	sturb	w8, [x29, #-83]
	mov	w8, #17160
	ldr	x3, [sp, #96]
	add	x0, x25, x8
	sub	x2, x29, #96
	add	x4, x25, x9
	sturb	w19, [x29, #-92]
	uzp1	v1.8b, v7.8b, v0.8b
	uzp1	v0.8b, v0.8b, v0.8b
	sturb	w16, [x29, #-91]
	sturb	w17, [x29, #-90]
	sturb	w10, [x29, #-89]
	stur	s1, [x29, #-96]
	stur	s0, [x29, #-87]
	bl	"sq_feed::ear::Ear::hear_clock_jump"
	mov	x8, xzr
	add	x15, x25, #4, lsl #12
	ldr	q1, [sp]
	and	w9, wzr, #0xff
	cmp	w9, #1
	b.ne	.LBB34_192
	b	.LBB34_145
.LBB34_229:
	ldrb	w12, [x15, #945]
	ubfx	w9, w8, #3, #5
.LBB34_230:
	mov	x13, #16724
	movk	x13, #19788, lsl #16
	movk	x13, #65280, lsl #32
	cmp	x1, x13
	b.ne	.LBB34_232
.LBB34_231:
	mov	w9, wzr
	mov	w8, #3
	ldr	x10, [x25, #17336]
	cmn	x10, #1
	b.ne	.LBB34_244
	b	.LBB34_262
.LBB34_232:
	cmp	w9, #17
	cset	w13, eq
	orr	w12, w13, w12
	tbz	w12, #0, .LBB34_243
.LBB34_233:
	cbz	x1, .LBB34_276
	ldrb	w9, [x15, #801]
	cmp	w9, #1
	b.eq	.LBB34_276
	ldrb	w9, [x15, #840]
	cmp	w9, #2
	b.ne	.LBB34_241
	ldrb	w9, [x15, #872]
	cbnz	w9, .LBB34_241
	ldrb	w9, [x15, #792]
	cmp	w9, #1
	b.ne	.LBB34_241
	ldr	x9, [x25, #17160]
	sub	x9, x1, x9
	ubfx	x12, x9, #47, #1
	cbnz	x12, .LBB34_241
	ldr	x12, [x25, #17168]
	and	x9, x9, #0xffffffffffff
	ldr	x13, [x25, #17312]
	adds	x9, x9, x12
	csinv	x12, x9, xzr, lo
	mov	x9, #10661
	movk	x9, #26389, lsl #16
	movk	x9, #15903, lsl #32
	movk	x9, #44739, lsl #48
	umulh	x9, x12, x9
	adds	x9, x13, x9, lsr #13
	ldr	x13, [x25, #17208]
	csinv	x9, x9, xzr, lo
	subs	x13, x9, x13
	b.lo	.LBB34_241
	ldr	x14, [x25, #17192]
	cmp	x13, x14
	b.ls	.LBB34_267
.LBB34_241:
	cbz	w11, .LBB34_260
	ldur	x9, [x29, #-144]
	ldur	w11, [x29, #-136]
	b	.LBB34_261
.LBB34_243:
	mov	w8, #1
	bic	w8, w8, w12
	ldr	x10, [x25, #17336]
	cmn	x10, #1
	b.eq	.LBB34_262
.LBB34_244:
	add	x10, x10, #1
	cmp	w8, #2
	str	x10, [x25, #17336]
	b.gt	.LBB34_248
	cbz	w8, .LBB34_251
	cmp	w8, #1
	b.ne	.LBB34_253
	cmp	w9, #24
	mov	w8, #24
	ldr	x10, [sp, #72]
	csel	w8, w9, w8, lo
	add	x26, x19, x26
	ldr	x9, [x10, w8, uxtw #3]
	add	x9, x9, #1
	str	x9, [x10, w8, uxtw #3]
	b	.LBB34_2
.LBB34_248:
	cmp	w8, #3
	b.eq	.LBB34_252
	cmp	w8, #4
	b.ne	.LBB34_254
	ldr	x8, [x25, #17368]
	add	x26, x19, x26
	add	x8, x8, #1
	str	x8, [x25, #17368]
	b	.LBB34_2
.LBB34_251:
	ldr	x8, [x25, #17344]
	add	x26, x19, x26
	add	x8, x8, #1
	str	x8, [x25, #17344]
	b	.LBB34_2
.LBB34_252:
	ldr	x8, [x25, #17360]
	add	x26, x19, x26
	add	x8, x8, #1
	str	x8, [x25, #17360]
	b	.LBB34_2
.LBB34_253:
	ldr	x8, [x25, #17352]
	add	x26, x19, x26
	add	x8, x8, #1
	str	x8, [x25, #17352]
	b	.LBB34_2
.LBB34_254:
	ldr	x8, [x25, #17376]
	add	x8, x8, #1
	str	x8, [x25, #17376]
	b	.LBB34_262
.LBB34_255:
	movi	v1.2d, #0000000000000000
	ldr	q0, [sp, #48]
	mov	w21, wzr
	mov	w23, wzr
	mov	w22, wzr
	mov	w11, wzr
	mov	w10, wzr
	mov	w19, wzr
	mov	w8, wzr
	mov	w9, wzr
	b	.LBB34_257
.LBB34_256:
	ldp	w11, w10, [sp, #28]
	mov	w21, wzr
	mov	w23, wzr
	movi	v1.2d, #0000000000000000
	mov	w22, wzr
.LBB34_257:
	mov	h0, v0.h[1]
	strb	w27, [sp, #136]
	strb	w9, [sp, #138]
	strb	w8, [sp, #139]
	strb	w19, [sp, #140]
	stur	b0, [sp, #137]
	uzp1	v0.8b, v1.8b, v0.8b
	strb	w10, [sp, #141]
	strb	w11, [sp, #142]
	strb	w22, [sp, #143]
	strb	w23, [sp, #144]
	strb	w21, [sp, #145]
.LBB34_258:
	stur	s0, [sp, #146]
.LBB34_259:
	ldr	x27, [sp, #96]
	add	x26, x20, x26
	b	.LBB34_197
.LBB34_260:
	sub	x11, x29, #120
	ldur	w9, [x29, #-144]
	stur	wzr, [x11, #8]
	stur	wzr, [x11, #5]
	ldurb	w11, [x29, #-140]
	stur	w9, [x29, #-120]
	sturb	w11, [x29, #-116]
	ldur	w11, [x29, #-112]
	ldur	x9, [x29, #-120]
.LBB34_261:
	stur	x9, [x29, #-24]
	sub	x2, x29, #96
	mov	x3, x27
	stur	w11, [x29, #-16]
	sturb	w8, [x29, #-96]
	mov	x8, x9
	mov	w9, w11
	ldr	x11, [sp, #64]
	sturb	w10, [x29, #-95]
	mov	w10, #17600
	add	x4, x25, x10
	str	x8, [x11]
	mov	w8, #17160
	add	x0, x25, x8
	str	w9, [x11, #8]
	bl	"sq_feed::ear::Ear::hear_clock_jump"
	ldr	x8, [x25, #17696]
	add	x15, x25, #4, lsl #12
	stp	xzr, xzr, [x29, #-96]
	stur	xzr, [x29, #-80]
	cbnz	x8, .LBB34_287
.LBB34_262:
	add	x26, x19, x26
	b	.LBB34_2
.LBB34_263:
	ldr	x8, [x25, #17336]
	cmn	x8, #1
	b.eq	.LBB34_265
	ldr	x11, [x25, #17344]
	add	x8, x8, #1
	str	x8, [x25, #17336]
	add	x8, x11, #1
	str	x8, [x25, #17344]
.LBB34_265:
	mov	v2.16b, v1.16b
	cmp	x10, x9
	b.ls	.LBB34_274
	ldr	x8, [x25, #17200]
	subs	x8, x10, x8
	csel	x8, xzr, x8, lo
	cmp	x8, x9
	csel	x9, x8, x9, hi
	b	.LBB34_275
.LBB34_267:
	ldr	x13, [x25, #17336]
	cmn	x13, #1
	b.eq	.LBB34_269
	ldr	x14, [x25, #17344]
	add	x13, x13, #1
	str	x13, [x25, #17336]
	add	x13, x14, #1
	str	x13, [x25, #17344]
.LBB34_269:
	and	x13, x1, #0xffffffffffff
	str	x12, [x25, #17168]
	str	x13, [x25, #17160]
.LBB34_270:
	str	x9, [x25, #17208]
	str	x27, [x25, #17216]
	str	x9, [sp, #128]
	cbz	w11, .LBB34_272
	ldur	x9, [x29, #-144]
	ldur	w11, [x29, #-136]
	b	.LBB34_273
.LBB34_272:
	sub	x11, x29, #96
	ldur	w9, [x29, #-144]
	stur	wzr, [x11, #8]
	stur	wzr, [x11, #5]
	ldurb	w11, [x29, #-140]
	stur	w9, [x29, #-96]
	sturb	w11, [x29, #-92]
	ldur	w11, [x29, #-88]
	ldur	x9, [x29, #-96]
.LBB34_273:
	stur	w11, [x29, #-112]
	mov	w11, w11
	add	x26, x19, x26
	strb	w8, [sp, #136]
	add	x8, sp, #128
	stur	x9, [x29, #-120]
	stur	x9, [x29, #-40]
	stur	w11, [x29, #-32]
	strb	w10, [sp, #137]
	stur	x9, [x8, #10]
	stur	w11, [x8, #18]
	b	.LBB34_197
.LBB34_274:
	ldr	x8, [sp, #96]
	str	x9, [x25, #17208]
	str	x8, [x25, #17216]
.LBB34_275:
	mov	h0, v7.h[1]
	mov	h1, v7.h[2]
	str	x9, [sp, #128]
	strb	w27, [sp, #136]
	strb	w19, [sp, #140]
	strb	w16, [sp, #141]
	stur	b0, [sp, #137]
	mov	h0, v7.h[3]
	stur	b1, [sp, #138]
	strb	w17, [sp, #142]
	strb	w22, [sp, #143]
	stur	b0, [sp, #139]
	uzp1	v0.8b, v2.8b, v0.8b
	strb	w23, [sp, #144]
	strb	w21, [sp, #145]
	strh	wzr, [sp, #150]
	b	.LBB34_258
.LBB34_276:
	ldr	x9, [x25, #17336]
	cmn	x9, #1
	b.eq	.LBB34_278
	ldr	x12, [x25, #17344]
	add	x9, x9, #1
	str	x9, [x25, #17336]
	add	x9, x12, #1
	str	x9, [x25, #17344]
.LBB34_278:
	ldrb	w12, [x15, #800]
	ldr	x9, [x25, #17208]
	cmp	w12, #1
	b.ne	.LBB34_270
	ldr	x12, [x25, #17216]
	subs	x12, x27, x12
	csel	x12, xzr, x12, lo
	adds	x9, x12, x9
	csinv	x9, x9, xzr, lo
	b	.LBB34_270
.LBB34_280:
	mov	w20, #1
.LBB34_281:
	movi	v2.16b, #223
	ldur	q3, [x10, #1]
	movi	v4.16b, #198
	ldur	q6, [x10, #13]
	movi	v5.16b, #64
	movi	v16.16b, #6
	movi	v17.16b, #10
	movi	v18.16b, #191
	movi	v19.16b, #16
	and	v7.16b, v3.16b, v2.16b
	and	v2.16b, v6.16b, v2.16b
	add	v3.16b, v3.16b, v4.16b
	add	v4.16b, v6.16b, v4.16b
	sub	v6.16b, v5.16b, v7.16b
	sub	v5.16b, v5.16b, v2.16b
	uqsub	v3.16b, v3.16b, v16.16b
	uqsub	v4.16b, v4.16b, v16.16b
	add	v7.16b, v7.16b, v18.16b
	add	v2.16b, v2.16b, v18.16b
	umin	v6.16b, v6.16b, v17.16b
	umin	v5.16b, v5.16b, v17.16b
	add	v3.16b, v3.16b, v19.16b
	add	v4.16b, v4.16b, v19.16b
	add	v6.16b, v7.16b, v6.16b
	add	v2.16b, v2.16b, v5.16b
	umin	v5.16b, v3.16b, v6.16b
	umin	v4.16b, v4.16b, v2.16b
	movi	v2.16b, #15
	orr	v3.16b, v4.16b, v5.16b
	cmhi	v2.16b, v3.16b, v2.16b
	and	v1.16b, v2.16b, v1.16b
	addp	v1.16b, v1.16b, v1.16b
	addp	v1.16b, v1.16b, v1.16b
	addp	v1.16b, v1.16b, v1.16b
	umov	w10, v1.h[0]
	cbnz	w10, .LBB34_62
	umov	w8, v0.b[0]
	umov	w9, v0.b[1]
	mov	w10, #10
	mov	x1, x27
	add	x23, x25, #4, lsl #12
	mov	w22, #1000
	stp	q5, q4, [sp, #32]
	and	x8, x8, #0xff
	umull	x8, w8, w10
	add	x8, x8, w9, uxtb
	umov	w9, v0.b[2]
	umull	x8, w8, w10
	add	x8, x8, w9, uxtb
	umov	w9, v0.b[3]
	umull	x8, w8, w10
	add	x8, x8, w9, uxtb
	umov	w9, v0.b[4]
	mul	x8, x8, x10
	add	x8, x8, w9, uxtb
	umov	w9, v0.b[5]
	mul	x8, x8, x10
	add	x8, x8, w9, uxtb
	umov	w9, v0.b[6]
	mul	x8, x8, x10
	add	x8, x8, w9, uxtb
	umov	w9, v0.b[7]
	mul	x8, x8, x10
	add	x8, x8, w9, uxtb
	umov	w9, v0.b[8]
	mul	x8, x8, x10
	add	x8, x8, w9, uxtb
	umov	w9, v0.b[9]
	mul	x8, x8, x10
	add	x21, x8, w9, uxtb
	bl	"sq_feed::cells::thousandths"
	ldp	q1, q3, [sp, #32]
	madd	x11, x21, x22, x0
	mov	x13, #-16512
	add	x12, x27, x19
	movk	x13, #23964, lsl #16
	add	x12, x12, x20
	xtn	v0.8b, v1.8h
	xtn	v2.8b, v3.8h
	movk	x13, #53118, lsl #32
	add	x20, x12, #41
	uzp2	v1.16b, v1.16b, v0.16b
	shl	v0.8b, v0.8b, #4
	uzp2	v3.16b, v3.16b, v0.16b
	orr	v0.8b, v0.8b, v1.8b
	shl	v1.8b, v2.8b, #4
	orr	v1.8b, v1.8b, v3.8b
	umov	w10, v0.b[0]
	umov	w9, v1.b[2]
	umov	w8, v1.b[3]
	and	w10, w10, #0xf8
	cmp	w10, #136
	add	x10, x11, x13
	b.ne	.LBB34_288
	add	x16, x25, #4, lsl #12
	ldrb	w11, [x16, #840]
	cmp	w11, #2
	b.ne	.LBB34_317
	ldrb	w13, [x16, #872]
	ldr	x27, [sp, #96]
	cbnz	w13, .LBB34_301
	ldr	x11, [x25, #17312]
	ldr	x12, [x25, #17208]
	adds	x11, x11, x10
	csinv	x11, x11, xzr, lo
	subs	x14, x12, x11
	b.ls	.LBB34_298
	ldr	x15, [x25, #17200]
	mov	w16, #1000
	ldr	x27, [sp, #96]
	cmp	x15, #1000
	csel	x15, x15, x16, hi
	add	x16, x25, #4, lsl #12
	cmp	x14, x15
	b.hi	.LBB34_301
	b	.LBB34_324
.LBB34_287:
	mov	w8, #17600
	sub	x0, x29, #96
	add	x1, x25, x8
	bl	"arrayvec::array_vec::ArrayVec::remove::<#86edd032541158b8>"
	ldur	q0, [x29, #-96]
	ldur	x8, [x29, #-80]
	add	x15, x25, #4, lsl #12
	add	x26, x19, x26
	b	.LBB34_196
.LBB34_288:
	smov	w11, v0.b[0]
	tbnz	w11, #31, .LBB34_291
	ldr	x8, [x25, #17336]
	cmn	x8, #1
	b.eq	.LBB34_295
	ldr	x9, [x25, #17376]
	add	x8, x8, #1
	ldr	x27, [sp, #96]
	str	x8, [x25, #17336]
	add	x8, x9, #1
	str	x8, [x25, #17376]
	b	.LBB34_309
.LBB34_291:
	ubfx	w11, w11, #3, #5
	cmp	w11, #17
	b.eq	.LBB34_296
	ldrb	w12, [x23, #945]
	tbnz	w12, #0, .LBB34_296
	ldr	x8, [x25, #17336]
	cmn	x8, #1
	b.eq	.LBB34_295
	cmp	w11, #24
	mov	w9, #24
	add	x8, x8, #1
	csel	w9, w11, w9, lo
	ldr	x11, [sp, #72]
	ldr	x27, [sp, #96]
	str	x8, [x25, #17336]
	ldr	x10, [x11, w9, uxtw #3]
	add	x8, x10, #1
	str	x8, [x11, w9, uxtw #3]
	b	.LBB34_309
.LBB34_295:
	ldr	x27, [sp, #96]
	b	.LBB34_309
.LBB34_296:
	ldrb	w11, [x23, #840]
	stur	xzr, [x29, #-80]
	cmp	w11, #2
	b.ne	.LBB34_318
	add	x16, x25, #4, lsl #12
	ldr	x27, [sp, #96]
	ldrb	w13, [x16, #872]
	b	.LBB34_302
.LBB34_298:
	ldr	x14, [x25, #17192]
	sub	x15, x11, x12
	ldr	x27, [sp, #96]
	add	x16, x25, #4, lsl #12
	cmp	x15, x14
	b.ls	.LBB34_324
	ldrb	w15, [x16, #800]
	cmp	w15, #1
	b.ne	.LBB34_301
	ldr	x15, [x25, #17216]
	subs	x15, x27, x15
	csel	x15, xzr, x15, lo
	adds	x15, x15, x12
	csinv	x15, x15, xzr, lo
	subs	x15, x11, x15
	cneg	x15, x15, ls
	cmp	x15, x14
	b.ls	.LBB34_324
.LBB34_301:
	stur	xzr, [x29, #-80]
.LBB34_302:
	cbnz	w13, .LBB34_308
	ldr	x11, [x25, #17312]
	ldr	x12, [x25, #17208]
	adds	x11, x11, x10
	csinv	x11, x11, xzr, lo
	subs	x13, x12, x11
	b.ls	.LBB34_305
	ldr	x14, [x25, #17200]
	mov	w15, #1000
	cmp	x14, #1000
	csel	x14, x14, x15, hi
	cmp	x13, x14
	b.hi	.LBB34_308
	b	.LBB34_310
.LBB34_305:
	ldr	x13, [x25, #17192]
	sub	x14, x11, x12
	cmp	x14, x13
	b.ls	.LBB34_310
	ldrb	w14, [x16, #800]
	cmp	w14, #1
	b.ne	.LBB34_308
	ldr	x14, [x25, #17216]
	subs	x14, x27, x14
	csel	x14, xzr, x14, lo
	adds	x14, x14, x12
	csinv	x14, x14, xzr, lo
	subs	x14, x11, x14
	cneg	x14, x14, ls
	cmp	x14, x13
	b.ls	.LBB34_310
.LBB34_308:
	umov	w11, v1.b[4]
	umov	w12, v1.b[5]
	sturb	w9, [x29, #-80]
	sturb	w8, [x29, #-79]
	mov	w8, #17160
	mov	w9, #17600
	add	x0, x25, x8
	sub	x1, x29, #96
	add	x3, x25, x9
	mov	x2, x27
	stur	x10, [x29, #-96]
	fmov	s2, w11
	umov	w11, v1.b[6]
	stur	d0, [x29, #-88]
	mov	v2.h[1], w12
	umov	w12, v1.b[7]
	mov	v2.h[2], w11
	mov	v2.h[3], w12
	xtn	v1.8b, v2.8h
	stur	s1, [x29, #-78]
	bl	"sq_feed::ear::Ear::hear_jump"
	ldr	x8, [x25, #17696]
	stp	xzr, xzr, [x29, #-96]
	stur	xzr, [x29, #-80]
	cbnz	x8, .LBB34_320
.LBB34_309:
	add	x26, x20, x26
	add	x15, x25, #4, lsl #12
	b	.LBB34_2
.LBB34_310:
	ldr	x10, [x25, #17336]
	cmn	x10, #1
	b.eq	.LBB34_312
	ldr	x13, [x25, #17344]
	add	x10, x10, #1
	str	x10, [x25, #17336]
	add	x10, x13, #1
	str	x10, [x25, #17344]
.LBB34_312:
	cmp	x12, x11
	b.ls	.LBB34_314
	ldr	x10, [x25, #17200]
	subs	x10, x12, x10
	csel	x10, xzr, x10, lo
	cmp	x10, x11
	csel	x11, x10, x11, hi
	b	.LBB34_315
.LBB34_314:
	ldr	x10, [sp, #96]
	str	x11, [x25, #17208]
	str	x10, [x25, #17216]
.LBB34_315:
	umov	w10, v1.b[4]
	umov	w12, v1.b[5]
	str	x11, [sp, #128]
	str	d0, [sp, #136]
	strb	w9, [sp, #144]
	strb	w8, [sp, #145]
	fmov	s2, w10
	umov	w10, v1.b[6]
.LBB34_316:
	mov	v2.h[1], w12
	umov	w12, v1.b[7]
	mov	v2.h[2], w10
	mov	v2.h[3], w12
	xtn	v1.8b, v2.8h
	stur	s1, [sp, #146]
	add	x15, x25, #4, lsl #12
	b	.LBB34_259
.LBB34_317:
	stur	xzr, [x29, #-80]
.LBB34_318:
	ldr	x27, [sp, #96]
	add	x12, x25, #4, lsl #12
	cbnz	w11, .LBB34_308
	mov	w11, #1
	strb	w11, [x12, #944]
	b	.LBB34_308
.LBB34_320:
	mov	w8, #17600
	sub	x0, x29, #96
	add	x1, x25, x8
	bl	"arrayvec::array_vec::ArrayVec::remove::<#86edd032541158b8>"
	ldur	q0, [x29, #-96]
	ldur	x8, [x29, #-80]
	add	x26, x20, x26
	str	q0, [sp, #128]
	str	x8, [sp, #144]
	b	.LBB34_136
.LBB34_321:
	ldr	x11, [x25, #17336]
	cmn	x11, #1
	b.eq	.LBB34_323
	ldr	x13, [x25, #17344]
	add	x11, x11, #1
	str	x11, [x25, #17336]
	add	x11, x13, #1
	str	x11, [x25, #17344]
.LBB34_323:
	str	x9, [x25, #17168]
	ldr	x27, [sp, #96]
	ldur	w9, [x29, #-136]
	strb	w8, [sp, #136]
	and	x11, x1, #0xffffffffffff
	add	x15, x25, #4, lsl #12
	ldur	x8, [x29, #-144]
	strb	w10, [sp, #137]
	add	x10, sp, #128
	str	x11, [x25, #17160]
	add	x26, x19, x26
	str	x12, [x25, #17208]
	str	x27, [x25, #17216]
	str	x12, [sp, #128]
	stur	x8, [x10, #10]
	stur	w9, [x10, #18]
	strh	wzr, [sp, #150]
	b	.LBB34_197
.LBB34_324:
	ldr	x10, [x25, #17336]
	cmn	x10, #1
	b.eq	.LBB34_326
	ldr	x13, [x25, #17344]
	add	x10, x10, #1
	str	x10, [x25, #17336]
	add	x10, x13, #1
	str	x10, [x25, #17344]
.LBB34_326:
	cmp	x12, x11
	b.ls	.LBB34_328
	ldr	x10, [x25, #17200]
	subs	x10, x12, x10
	csel	x10, xzr, x10, lo
	cmp	x10, x11
	csel	x11, x10, x11, hi
	b	.LBB34_329
.LBB34_328:
	ldr	x10, [sp, #96]
	str	x11, [x25, #17208]
	str	x10, [x25, #17216]
.LBB34_329:
	umov	w10, v1.b[4]
	umov	w12, v1.b[5]
	str	x11, [sp, #128]
	str	d0, [sp, #136]
	strb	w9, [sp, #144]
	strb	w8, [sp, #145]
	fmov	s2, w10
	umov	w10, v1.b[6]
	strh	wzr, [sp, #150]
	b	.LBB34_316
.LBB34_330:
	mov	x0, x26
	ldp	x20, x19, [sp, #384]
	ldp	x22, x21, [sp, #368]
	ldr	x1, [sp, #120]
	ldp	x24, x23, [sp, #352]
	ldp	x26, x25, [sp, #336]
	ldp	x28, x27, [sp, #320]
	ldp	x29, x30, [sp, #304]
	add	sp, sp, #400
	ret
.Lfunc_end34:
	.size	"squitter_c::feed_take::take_by", .Lfunc_end34-"squitter_c::feed_take::take_by"

	.section	".text.unlikely.sq_feed::feed::Feed::step_ready","ax",@progbits
	.p2align	2
	.type	"sq_feed::feed::Feed::step_ready",@function
"sq_feed::feed::Feed::step_ready":
	sub	sp, sp, #64
	mov	x8, x0
	mov	w9, #17600
	str	x19, [sp, #48]
	mov	x19, x1
	add	x0, sp, #8
	add	x1, x8, x9
	stp	x29, x30, [sp, #32]
	add	x29, sp, #32
	stp	xzr, xzr, [sp, #8]
	str	xzr, [sp, #24]
	bl	"arrayvec::array_vec::ArrayVec::remove::<#86edd032541158b8>"
	ldur	q0, [sp, #8]
	ldr	x8, [sp, #24]
	ldp	x29, x30, [sp, #32]
	str	q0, [x19]
	str	x8, [x19, #16]
	ldr	x19, [sp, #48]
	add	sp, sp, #64
	ret
.Lfunc_end35:
	.size	"sq_feed::feed::Feed::step_ready", .Lfunc_end35-"sq_feed::feed::Feed::step_ready"

	.section	".text.arrayvec::array_vec::ArrayVec::remove::<#86edd032541158b8>","ax",@progbits
	.p2align	2
	.type	"arrayvec::array_vec::ArrayVec::remove::<#86edd032541158b8>",@function
"arrayvec::array_vec::ArrayVec::remove::<#86edd032541158b8>":
	sub	sp, sp, #112
	ldr	x9, [x1, #96]
	stp	x20, x19, [sp, #96]
	stp	x29, x30, [sp, #64]
	add	x29, sp, #64
	subs	x19, x9, #1
	str	x21, [sp, #80]
	b.ne	.LBB36_2
	mov	x8, xzr
	b	.LBB36_9
.LBB36_2:
	ldr	x8, [x1, #16]
	ldr	q0, [x1]
	cmp	x19, #86
	mov	x13, x19
	str	x8, [sp, #48]
	mov	x8, x1
	str	q0, [sp, #32]
	b.lo	.LBB36_7
	mov	x10, #-1
	mov	x8, x1
.LBB36_4:
	ldr	q1, [x8, #48]
	ldur	q0, [x8, #24]
	add	x11, x8, #264
	add	x12, x8, #312
	add	x13, x8, #360
	ldr	x14, [x8, #64]
	stur	q1, [x8, #24]
	ldr	q1, [x8, #96]
	sub	x10, x10, #85
	str	q0, [x8]
	ldur	q0, [x8, #72]
	ldr	x15, [x8, #2056]
	stur	q1, [x8, #72]
	ldr	q1, [x8, #144]
	str	q0, [x8, #48]
	ldur	q0, [x8, #120]
	stur	q1, [x8, #120]
	ldr	q1, [x8, #192]
	str	q0, [x8, #96]
	ldur	q0, [x8, #168]
	stur	q1, [x8, #168]
	ldr	q1, [x8, #240]
	str	q0, [x8, #144]
	ldur	q0, [x8, #216]
	stur	q1, [x8, #216]
	ldr	q1, [x8, #288]
	str	q0, [x8, #192]
	ldr	q0, [x11]
	str	q1, [x11]
	ldr	q1, [x8, #336]
	add	x11, x8, #408
	str	q0, [x8, #240]
	ldr	q0, [x12]
	str	q1, [x12]
	ldr	q1, [x8, #384]
	add	x12, x8, #456
	str	q0, [x8, #288]
	ldr	q0, [x13]
	str	q1, [x13]
	ldr	q1, [x8, #432]
	add	x13, x8, #504
	str	q0, [x8, #336]
	ldr	q0, [x11]
	str	q1, [x11]
	ldr	q1, [x8, #480]
	add	x11, x8, #552
	str	q0, [x8, #384]
	ldr	q0, [x12]
	str	q1, [x12]
	ldr	q1, [x8, #528]
	add	x12, x8, #600
	str	q0, [x8, #432]
	ldr	q0, [x13]
	str	q1, [x13]
	ldr	q1, [x8, #576]
	add	x13, x8, #648
	str	q0, [x8, #480]
	ldr	q0, [x11]
	str	q1, [x11]
	ldr	q1, [x8, #624]
	add	x11, x8, #696
	str	q0, [x8, #528]
	ldr	q0, [x12]
	str	q1, [x12]
	ldr	q1, [x8, #672]
	add	x12, x8, #744
	str	q0, [x8, #576]
	ldr	q0, [x13]
	str	q1, [x13]
	ldr	q1, [x8, #720]
	add	x13, x8, #792
	str	q0, [x8, #624]
	ldr	q0, [x11]
	str	q1, [x11]
	ldr	q1, [x8, #768]
	add	x11, x8, #840
	str	q0, [x8, #672]
	ldr	q0, [x12]
	str	q1, [x12]
	ldr	q1, [x8, #816]
	add	x12, x8, #888
	str	q0, [x8, #720]
	ldr	q0, [x13]
	str	q1, [x13]
	ldr	q1, [x8, #864]
	add	x13, x8, #936
	str	q0, [x8, #768]
	ldr	q0, [x11]
	str	q1, [x11]
	ldr	q1, [x8, #912]
	add	x11, x8, #984
	str	q0, [x8, #816]
	ldr	q0, [x12]
	str	q1, [x12]
	ldr	q1, [x8, #960]
	add	x12, x8, #1032
	str	q0, [x8, #864]
	ldr	q0, [x13]
	str	q1, [x13]
	ldr	q1, [x8, #1008]
	add	x13, x8, #1080
	str	q0, [x8, #912]
	ldr	q0, [x11]
	str	q1, [x11]
	ldr	q1, [x8, #1056]
	add	x11, x8, #1128
	str	q0, [x8, #960]
	ldr	q0, [x12]
	str	q1, [x12]
	ldr	q1, [x8, #1104]
	add	x12, x8, #1176
	str	q0, [x8, #1008]
	ldr	q0, [x13]
	str	q1, [x13]
	ldr	q1, [x8, #1152]
	add	x13, x8, #1224
	str	q0, [x8, #1056]
	ldr	q0, [x11]
	str	q1, [x11]
	ldr	q1, [x8, #1200]
	add	x11, x8, #1272
	str	q0, [x8, #1104]
	ldr	q0, [x12]
	str	q1, [x12]
	ldr	q1, [x8, #1248]
	add	x12, x8, #1320
	str	q0, [x8, #1152]
	ldr	q0, [x13]
	str	q1, [x13]
	ldr	q1, [x8, #1296]
	add	x13, x8, #1368
	str	q0, [x8, #1200]
	ldr	q0, [x11]
	str	q1, [x11]
	ldr	q1, [x8, #1344]
	add	x11, x8, #1416
	str	q0, [x8, #1248]
	ldr	q0, [x12]
	str	q1, [x12]
	ldr	q1, [x8, #1392]
	add	x12, x8, #1464
	str	q0, [x8, #1296]
	ldr	q0, [x13]
	str	q1, [x13]
	ldr	q1, [x8, #1440]
	add	x13, x8, #1512
	str	q0, [x8, #1344]
	ldr	q0, [x11]
	str	q1, [x11]
	ldr	q1, [x8, #1488]
	add	x11, x8, #1560
	str	q0, [x8, #1392]
	ldr	q0, [x12]
	str	q1, [x12]
	ldr	q1, [x8, #1536]
	add	x12, x8, #1608
	str	q0, [x8, #1440]
	ldr	q0, [x13]
	str	q1, [x13]
	ldr	q1, [x8, #1584]
	add	x13, x8, #1656
	str	q0, [x8, #1488]
	ldr	q0, [x11]
	str	q1, [x11]
	ldr	q1, [x8, #1632]
	add	x11, x8, #1704
	str	q0, [x8, #1536]
	ldr	q0, [x12]
	str	q1, [x12]
	ldr	q1, [x8, #1680]
	add	x12, x8, #1752
	str	q0, [x8, #1584]
	ldr	q0, [x13]
	str	q1, [x13]
	ldr	q1, [x8, #1728]
	add	x13, x8, #1800
	str	q0, [x8, #1632]
	ldr	q0, [x11]
	str	q1, [x11]
	ldr	q1, [x8, #1776]
	add	x11, x8, #1848
	str	q0, [x8, #1680]
	ldr	q0, [x12]
	str	q1, [x12]
	ldr	q1, [x8, #1824]
	add	x12, x8, #1896
	str	q0, [x8, #1728]
	ldr	q0, [x13]
	str	q1, [x13]
	ldr	q1, [x8, #1872]
	add	x13, x8, #1944
	str	q0, [x8, #1776]
	ldr	q0, [x11]
	str	q1, [x11]
	ldr	q1, [x8, #1920]
	add	x11, x8, #1992
	str	q0, [x8, #1824]
	ldr	q0, [x12]
	str	q1, [x12]
	ldr	q1, [x8, #1968]
	add	x12, x8, #2040
	str	q0, [x8, #1872]
	ldr	q0, [x13]
	str	q1, [x13]
	ldr	x13, [x8, #40]
	ldr	q1, [x12]
	str	x14, [x8, #40]
	ldr	x14, [x8, #112]
	str	x13, [x8, #16]
	ldr	x13, [x8, #88]
	str	x14, [x8, #88]
	ldr	x14, [x8, #160]
	str	x13, [x8, #64]
	ldr	x13, [x8, #136]
	str	x14, [x8, #136]
	ldr	x14, [x8, #208]
	str	x13, [x8, #112]
	ldr	x13, [x8, #184]
	str	x14, [x8, #184]
	ldr	x14, [x8, #256]
	str	x13, [x8, #160]
	ldr	x13, [x8, #232]
	str	x14, [x8, #232]
	ldr	x14, [x8, #304]
	str	x13, [x8, #208]
	ldr	x13, [x8, #280]
	str	x14, [x8, #280]
	ldr	x14, [x8, #352]
	str	x13, [x8, #256]
	ldr	x13, [x8, #328]
	str	x14, [x8, #328]
	ldr	x14, [x8, #400]
	str	x13, [x8, #304]
	ldr	x13, [x8, #376]
	str	x14, [x8, #376]
	ldr	x14, [x8, #448]
	str	x13, [x8, #352]
	ldr	x13, [x8, #424]
	str	x14, [x8, #424]
	ldr	x14, [x8, #496]
	str	x13, [x8, #400]
	ldr	x13, [x8, #472]
	str	x14, [x8, #472]
	ldr	x14, [x8, #544]
	str	x13, [x8, #448]
	ldr	x13, [x8, #520]
	str	x14, [x8, #520]
	ldr	x14, [x8, #592]
	str	x13, [x8, #496]
	ldr	x13, [x8, #568]
	str	x14, [x8, #568]
	ldr	x14, [x8, #640]
	str	x13, [x8, #544]
	ldr	x13, [x8, #616]
	str	x14, [x8, #616]
	ldr	x14, [x8, #688]
	str	x13, [x8, #592]
	ldr	x13, [x8, #664]
	str	x14, [x8, #664]
	ldr	x14, [x8, #736]
	str	x13, [x8, #640]
	ldr	x13, [x8, #712]
	str	x14, [x8, #712]
	ldr	x14, [x8, #784]
	str	x13, [x8, #688]
	ldr	x13, [x8, #760]
	str	x14, [x8, #760]
	ldr	x14, [x8, #832]
	str	x13, [x8, #736]
	ldr	x13, [x8, #808]
	str	x14, [x8, #808]
	ldr	x14, [x8, #880]
	str	x13, [x8, #784]
	ldr	x13, [x8, #856]
	str	x14, [x8, #856]
	ldr	x14, [x8, #928]
	str	x13, [x8, #832]
	ldr	x13, [x8, #904]
	str	x14, [x8, #904]
	ldr	x14, [x8, #976]
	str	x13, [x8, #880]
	ldr	x13, [x8, #952]
	str	x14, [x8, #952]
	ldr	x14, [x8, #1024]
	str	x13, [x8, #928]
	ldr	x13, [x8, #1000]
	str	x14, [x8, #1000]
	ldr	x14, [x8, #1072]
	str	x13, [x8, #976]
	ldr	x13, [x8, #1048]
	str	x14, [x8, #1048]
	ldr	x14, [x8, #1120]
	str	x13, [x8, #1024]
	ldr	x13, [x8, #1096]
	str	x14, [x8, #1096]
	ldr	x14, [x8, #1168]
	str	x13, [x8, #1072]
	ldr	x13, [x8, #1144]
	str	x14, [x8, #1144]
	ldr	x14, [x8, #1216]
	str	x13, [x8, #1120]
	ldr	x13, [x8, #1192]
	str	x14, [x8, #1192]
	ldr	x14, [x8, #1264]
	str	x13, [x8, #1168]
	ldr	x13, [x8, #1240]
	str	x14, [x8, #1240]
	ldr	x14, [x8, #1312]
	str	x13, [x8, #1216]
	ldr	x13, [x8, #1288]
	str	x14, [x8, #1288]
	ldr	x14, [x8, #1360]
	str	x13, [x8, #1264]
	ldr	x13, [x8, #1336]
	str	x14, [x8, #1336]
	ldr	x14, [x8, #1408]
	str	x13, [x8, #1312]
	ldr	x13, [x8, #1384]
	str	x14, [x8, #1384]
	ldr	x14, [x8, #1456]
	str	x13, [x8, #1360]
	ldr	x13, [x8, #1432]
	str	x14, [x8, #1432]
	ldr	x14, [x8, #1504]
	str	x13, [x8, #1408]
	ldr	x13, [x8, #1480]
	str	x14, [x8, #1480]
	ldr	x14, [x8, #1552]
	str	x13, [x8, #1456]
	ldr	x13, [x8, #1528]
	str	x14, [x8, #1528]
	ldr	x14, [x8, #1600]
	str	x13, [x8, #1504]
	ldr	x13, [x8, #1576]
	str	x14, [x8, #1576]
	ldr	x14, [x8, #1648]
	str	x13, [x8, #1552]
	ldr	x13, [x8, #1624]
	str	x14, [x8, #1624]
	ldr	x14, [x8, #1696]
	str	x13, [x8, #1600]
	ldr	x13, [x8, #1672]
	str	x14, [x8, #1672]
	ldr	x14, [x8, #1744]
	str	x13, [x8, #1648]
	ldr	x13, [x8, #1720]
	str	x14, [x8, #1720]
	ldr	x14, [x8, #1792]
	str	x13, [x8, #1696]
	ldr	x13, [x8, #1768]
	str	x14, [x8, #1768]
	ldr	x14, [x8, #1840]
	str	x13, [x8, #1744]
	ldr	x13, [x8, #1816]
	str	x14, [x8, #1816]
	ldr	x14, [x8, #1888]
	str	x13, [x8, #1792]
	ldr	x13, [x8, #1864]
	str	x14, [x8, #1864]
	ldr	x14, [x8, #1936]
	str	x13, [x8, #1840]
	ldr	x13, [x8, #1912]
	str	x14, [x8, #1912]
	ldr	x14, [x8, #1984]
	str	x13, [x8, #1888]
	ldr	x13, [x8, #1960]
	str	q0, [x8, #1920]
	ldr	q0, [x11]
	str	x13, [x8, #1936]
	ldr	x13, [x8, #2008]
	str	x14, [x8, #1960]
	ldr	x14, [x8, #2032]
	str	q0, [x8, #1968]
	ldr	q0, [x8, #2016]
	str	x13, [x8, #1984]
	add	x13, x9, x10
	str	q1, [x8, #2016]
	cmp	x13, #85
	str	x14, [x8, #2008]
	str	x15, [x8, #2032]
	mov	x8, x12
	str	q0, [x11]
	b.hi	.LBB36_4
	cbz	x10, .LBB36_10
	cbz	x13, .LBB36_8
.LBB36_7:
	add	x9, x13, x13, lsl #1
	mov	x20, x1
	add	x1, x8, #24
	mov	x21, x0
	mov	x0, x8
	lsl	x2, x9, #3
	bl	memmove
	mov	x1, x20
	mov	x0, x21
.LBB36_8:
	mov	w8, #24
	ldr	q0, [sp, #32]
	ldr	x9, [sp, #48]
	madd	x8, x19, x8, x1
	str	q0, [x8]
	str	x9, [x8, #16]
	ldr	x8, [x1, #96]
	sub	x8, x8, #1
.LBB36_9:
	mov	w9, #24
	str	x8, [x1, #96]
	ldr	x21, [sp, #80]
	madd	x9, x8, x9, x1
	ldp	x20, x19, [sp, #96]
	ldp	x29, x30, [sp, #64]
	ldr	x8, [x9, #16]
	ldr	q0, [x9]
	str	xzr, [x9]
	stp	xzr, xzr, [x9, #8]
	str	q0, [sp]
	str	x8, [sp, #16]
	str	q0, [x0]
	str	x8, [x0, #16]
	add	sp, sp, #112
	ret
.LBB36_10:
	cbz	x9, .LBB36_8
	mov	w8, #24
	madd	x11, x9, x8, x1
	add	x8, x9, x10
	sub	x9, x11, #24
.LBB36_12:
	ldr	q0, [x9]
	ldr	x10, [x9, #16]
	sub	x11, x9, #24
	subs	x8, x8, #1
	stur	q0, [x9, #-24]
	stur	x10, [x9, #-8]
	mov	x9, x11
	b.ne	.LBB36_12
	b	.LBB36_8
.Lfunc_end36:
	.size	"arrayvec::array_vec::ArrayVec::remove::<#86edd032541158b8>", .Lfunc_end36-"arrayvec::array_vec::ArrayVec::remove::<#86edd032541158b8>"

	.section	.rodata.cst16,"aM",@progbits,16
	.p2align	4, 0x0
.LCPI37_0:
	.xword	0
	.xword	1
	.section	".text.sq_feed::feed::Feed::step_other","ax",@progbits
	.p2align	2
	.type	"sq_feed::feed::Feed::step_other",@function
"sq_feed::feed::Feed::step_other":
	stp	x29, x30, [sp, #-96]!
	sub	x9, sp, #3, lsl #12
	stp	x28, x27, [sp, #16]
	mov	x29, sp
	sub	x9, x9, #3072
	stp	x26, x25, [sp, #32]
	stp	x24, x23, [sp, #48]
	stp	x22, x21, [sp, #64]
	stp	x20, x19, [sp, #80]
.LBB37_1:
	sub	sp, sp, #3072
	cmp	sp, x9
	str	xzr, [sp]
	b.ne	.LBB37_1
	sub	sp, sp, #2032
	str	xzr, [sp]
	movi	v0.2d, #0000000000000000
	mov	x19, x4
	ldrb	w8, [x0, #2]
	mov	x21, x3
	mov	x3, x2
	mov	x20, x0
	add	x23, sp, #128
	str	xzr, [sp, #64]
	cmp	w8, #2
	str	xzr, [sp, #16]
	stur	xzr, [sp, #22]
	stp	q0, q0, [sp, #32]
	stur	q0, [sp, #136]
	stp	q0, q0, [sp, #80]
	stp	q0, q0, [sp, #176]
	str	q0, [sp, #208]
	str	xzr, [sp, #224]
	stur	q0, [x23, #24]
	str	xzr, [sp, #168]
	str	q0, [sp, #112]
	b.gt	.LBB37_8
	mov	x2, x1
	cbz	w8, .LBB37_12
	cmp	w8, #1
	b.ne	.LBB37_14
	mov	w8, #16480
	str	xzr, [sp, #288]
	ldrb	w8, [x20, x8]
	stp	q0, q0, [sp, #256]
	str	q0, [sp, #240]
	cmp	w8, #1
	b.gt	.LBB37_17
	cbnz	w8, .LBB37_21
	mov	w8, #16488
	add	x0, sp, #240
	add	x1, x20, x8
	bl	"sq_feed::beast::Beast::take"
	b	.LBB37_22
.LBB37_8:
	cmp	w8, #3
	b.eq	.LBB37_13
	cmp	w8, #4
	b.ne	.LBB37_16
	ldrb	w28, [x20]
	ldrb	w8, [x20, #3]
	sub	x25, x29, #80
	ldrb	w22, [x20, #1]
	add	x24, sp, #768
	stp	q0, q0, [x29, #-80]
	cmp	w28, #1
	str	w8, [sp, #12]
	stur	q0, [x29, #-48]
	stur	xzr, [x25, #45]
	b.ne	.LBB37_18
	cmp	w22, #2
	mov	w8, #2
	add	x0, sp, #920
	mov	w1, wzr
	mov	w2, #16391
	strb	wzr, [x25, #52]
	stur	q0, [x25, #36]
	cset	w27, eq
	csel	x26, x8, xzr, eq
	stur	q0, [x25, #20]
	stur	q0, [x25, #4]
	bl	memset
	movi	v0.2d, #0000000000000000
	add	x0, sp, #240
	mov	w1, wzr
	mov	w2, #528
	str	xzr, [sp, #912]
	str	xzr, [sp, #904]
	stp	q0, q0, [sp, #768]
	stp	q0, q0, [sp, #832]
	str	q0, [sp, #864]
	stur	q0, [x24, #105]
	str	q0, [sp, #800]
	stur	q0, [x24, #46]
	bl	memset
	b	.LBB37_19
.LBB37_12:
	add	x0, sp, #176
	mov	x1, x20
	bl	"sq_feed::reader::Reader::find"
	b	.LBB37_23
.LBB37_13:
	add	x0, sp, #80
	mov	x1, x20
	bl	"sq_feed::reader::Reader::end"
	ldrb	w8, [sp, #80]
	ldrh	w9, [sp, #88]
	ldrb	w10, [sp, #96]
	stp	xzr, x8, [sp, #176]
	ldr	x8, [sp, #104]
	strh	w9, [sp, #192]
	ldrb	w9, [sp, #112]
	stp	x10, x8, [sp, #200]
	ldur	x8, [sp, #113]
	strb	w9, [sp, #216]
	ldur	x9, [sp, #119]
	b	.LBB37_15
.LBB37_14:
	add	x0, sp, #128
	mov	x1, x20
	bl	"sq_feed::reader::Reader::replay"
	ldrb	w8, [sp, #128]
	ldrh	w9, [sp, #136]
	ldrb	w10, [sp, #144]
	stp	xzr, x8, [sp, #176]
	ldr	x8, [sp, #152]
	strh	w9, [sp, #192]
	ldrb	w9, [sp, #160]
	stp	x10, x8, [sp, #200]
	ldur	x8, [x23, #33]
	strb	w9, [sp, #216]
	ldur	x9, [x23, #39]
.LBB37_15:
	stur	x8, [x23, #89]
	stur	x9, [x23, #95]
	b	.LBB37_23
.LBB37_16:
	str	x3, [sp, #176]
	strb	wzr, [sp, #192]
	str	xzr, [sp, #216]
	b	.LBB37_20
.LBB37_17:
	cmp	w8, #2
	mov	w8, #16608
	add	x0, sp, #240
	add	x1, x20, x8
	bl	"sq_feed::rows::Rows::take"
	b	.LBB37_22
.LBB37_18:
	add	x0, sp, #920
	mov	w1, wzr
	mov	w2, #16391
	strb	wzr, [x25, #52]
	stur	q0, [x25, #36]
	stur	q0, [x25, #20]
	stur	q0, [x25, #4]
	bl	memset
	movi	v0.2d, #0000000000000000
	add	x0, sp, #240
	mov	w1, wzr
	mov	w2, #528
	str	xzr, [sp, #912]
	str	xzr, [sp, #904]
	stp	q0, q0, [sp, #768]
	stp	q0, q0, [sp, #832]
	str	q0, [sp, #864]
	stur	q0, [x24, #105]
	str	q0, [sp, #800]
	stur	q0, [x24, #46]
	bl	memset
	mov	x27, xzr
	mov	x26, xzr
	mov	w22, #3
.LBB37_19:
	ldp	q0, q1, [x29, #-80]
	add	x0, x20, #65
	ldur	q2, [x29, #-48]
	ldur	x8, [x25, #45]
	add	x1, sp, #920
	mov	w2, #16391
	strb	w28, [x20, #2]
	strb	wzr, [x20, #3]
	stur	q0, [x20, #4]
	stur	q1, [x20, #20]
	stur	q2, [x20, #36]
	stur	x8, [x20, #49]
	stur	xzr, [x20, #57]
	bl	memcpy
	mov	w8, #16480
	ldur	q0, [x24, #136]
	mov	w9, #16481
	strb	w22, [x20, x8]
	mov	w8, #16456
	ldr	q2, [sp, #864]
	str	q0, [x20, x8]
	ldp	q0, q1, [sp, #832]
	add	x8, x20, x9
	mov	w9, #16538
	add	x1, sp, #240
	str	q2, [x8, #32]
	mov	w2, #528
	stp	q0, q1, [x8]
	ldur	q0, [x24, #105]
	ldur	q1, [x24, #46]
	str	xzr, [x20, #16472]
	stur	q0, [x8, #41]
	add	x8, x20, x9
	stur	q1, [x8, #46]
	ldp	q1, q0, [sp, #784]
	str	xzr, [x20, #16600]
	str	x27, [x20, #16608]
	stp	q1, q0, [x8, #16]
	ldr	q0, [sp, #768]
	str	xzr, [x20, #16616]
	str	q0, [x8]
	mov	w8, #16632
	add	x0, x20, x8
	str	x26, [x20, #16624]
	bl	memcpy
	adrp	x8, .LCPI37_0
	ldr	w9, [sp, #12]
	str	xzr, [sp, #216]
	ldr	q0, [x8, :lo12:.LCPI37_0]
	strb	w9, [sp, #193]
	mov	w9, #3
	strb	w9, [sp, #192]
	str	q0, [sp, #176]
.LBB37_20:
	stp	xzr, xzr, [sp, #200]
	stur	xzr, [x23, #95]
	b	.LBB37_23
.LBB37_21:
	mov	w8, #16536
	add	x0, sp, #240
	add	x1, x20, x8
	bl	"sq_feed::avr::Avr::take"
.LBB37_22:
	ldp	q0, q1, [sp, #240]
	ldr	q2, [sp, #272]
	ldr	x8, [sp, #288]
	str	q2, [sp, #208]
	stp	q0, q1, [sp, #176]
	str	x8, [sp, #224]
.LBB37_23:
	ldrb	w10, [sp, #184]
	ldr	x22, [sp, #176]
	ldrb	w24, [sp, #192]
	ldrb	w8, [sp, #193]
	ldur	x11, [x23, #89]
	ldrb	w9, [sp, #200]
	cmp	w10, #1
	ldur	x12, [x23, #95]
	ldr	x10, [sp, #208]
	ldrb	w25, [sp, #216]
	str	x11, [sp, #16]
	stur	x12, [sp, #22]
	b.ne	.LBB37_30
	strb	w8, [sp, #33]
	ldr	x8, [sp, #16]
	mov	w26, #17600
	stp	x9, x10, [sp, #40]
	ldur	x9, [sp, #22]
	add	x1, sp, #32
	stur	x8, [sp, #57]
	mov	w8, #17160
	add	x3, x20, x26
	add	x0, x20, x8
	mov	x2, x21
	strb	w24, [sp, #32]
	strb	w25, [sp, #56]
	stur	x9, [sp, #63]
	bl	"sq_feed::ear::Ear::hear"
	and	w8, w0, #0xff
	cmp	w8, #1
	b.ne	.LBB37_31
	cmp	w24, #1
	str	x1, [x19]
	b.gt	.LBB37_33
	cbnz	w24, .LBB37_34
	cbz	w25, .LBB37_38
	cmp	w25, #1
	b.ne	.LBB37_39
	ldur	w9, [sp, #18]
	ldrb	w10, [sp, #22]
	ldurh	w8, [sp, #57]
	stur	wzr, [x23, #117]
	str	wzr, [sp, #248]
	str	w9, [sp, #240]
	strb	w10, [sp, #244]
	b	.LBB37_36
.LBB37_30:
	mov	w1, wzr
	b	.LBB37_37
.LBB37_31:
	ldr	x8, [x20, #17696]
	stp	xzr, xzr, [sp, #240]
	str	xzr, [sp, #256]
	cmp	x8, #0
	cset	w1, ne
	cbz	x8, .LBB37_37
	add	x0, sp, #240
	mov	w21, w1
	add	x1, x20, x26
	bl	"arrayvec::array_vec::ArrayVec::remove::<#86edd032541158b8>"
	ldr	q0, [sp, #240]
	ldr	x8, [sp, #256]
	mov	w1, w21
	str	q0, [x19]
	str	x8, [x19, #16]
	b	.LBB37_37
.LBB37_33:
	cmp	w24, #2
.LBB37_34:
	mov	w8, wzr
.LBB37_35:
	str	wzr, [sp, #248]
	str	xzr, [sp, #240]
.LBB37_36:
	ldr	x9, [sp, #240]
	strh	w8, [x19, #8]
	mov	w1, #1
	ldr	w8, [sp, #248]
	stur	x9, [x19, #10]
	stur	w8, [x19, #18]
.LBB37_37:
	mov	x0, x22
	add	sp, sp, #4, lsl #12
	add	sp, sp, #1008
	ldp	x20, x19, [sp, #80]
	ldp	x22, x21, [sp, #64]
	ldp	x24, x23, [sp, #48]
	ldp	x26, x25, [sp, #32]
	ldp	x28, x27, [sp, #16]
	ldp	x29, x30, [sp], #96
	ret
.LBB37_38:
	ldurh	w8, [sp, #57]
	b	.LBB37_35
.LBB37_39:
	ldur	x9, [sp, #18]
	ldur	w10, [sp, #26]
	ldurh	w8, [sp, #57]
	str	x9, [sp, #240]
	str	w10, [sp, #248]
	b	.LBB37_36
.Lfunc_end37:
	.size	"sq_feed::feed::Feed::step_other", .Lfunc_end37-"sq_feed::feed::Feed::step_other"

	.section	.rodata.cst16,"aM",@progbits,16
	.p2align	4, 0x0
.LCPI38_0:
	.byte	1
	.byte	2
	.byte	4
	.byte	8
	.byte	16
	.byte	32
	.byte	64
	.byte	128
	.byte	1
	.byte	2
	.byte	4
	.byte	8
	.byte	16
	.byte	32
	.byte	64
	.byte	128
	.section	".text.sq_feed::beast::Beast::take","ax",@progbits
	.p2align	2
	.type	"sq_feed::beast::Beast::take",@function
"sq_feed::beast::Beast::take":
	sub	sp, sp, #208
	movi	v0.2d, #0000000000000000
	ldrb	w8, [x1]
	str	x19, [sp, #192]
	mov	x19, x0
	stp	x29, x30, [sp, #176]
	add	x29, sp, #176
	cmp	w8, #1
	str	xzr, [sp, #64]
	stp	q0, q0, [sp, #32]
	str	q0, [sp, #16]
	b.eq	.LBB38_17
	ldrb	w8, [x1, #40]
	tbnz	w8, #0, .LBB38_17
	cmp	x3, #2
	b.lo	.LBB38_16
	ldrb	w8, [x2]
	cmp	w8, #26
	b.ne	.LBB38_16
	ldrb	w8, [x2, #1]
	cmp	w8, #51
	b.eq	.LBB38_13
	cmp	w8, #50
	b.eq	.LBB38_8
	cmp	w8, #49
	b.ne	.LBB38_16
	mov	w8, wzr
	mov	w10, #9
	b	.LBB38_9
.LBB38_8:
	mov	w8, #1
	mov	w10, #14
.LBB38_9:
	add	x9, x10, #2
	cmp	x3, x9
	b.lo	.LBB38_16
	add	x11, x2, #2
	mov	x12, x10
.LBB38_11:
	cbz	x12, .LBB38_19
	ldrb	w13, [x11], #1
	sub	x12, x12, #1
	cmp	w13, #26
	b.ne	.LBB38_11
	b	.LBB38_16
.LBB38_13:
	cmp	x3, #23
	b.lo	.LBB38_16
	movi	v1.16b, #26
	ldur	q0, [x2, #2]
	adrp	x8, .LCPI38_0
	ldr	q2, [x8, :lo12:.LCPI38_0]
	cmeq	v3.16b, v0.16b, v1.16b
	and	v3.16b, v3.16b, v2.16b
	addp	v3.16b, v3.16b, v3.16b
	addp	v3.16b, v3.16b, v3.16b
	addp	v3.16b, v3.16b, v3.16b
	umov	w8, v3.h[0]
	cbnz	w8, .LBB38_16
	ldur	q3, [x2, #7]
	cmeq	v1.16b, v3.16b, v1.16b
	and	v1.16b, v1.16b, v2.16b
	addp	v1.16b, v1.16b, v1.16b
	addp	v1.16b, v1.16b, v1.16b
	addp	v1.16b, v1.16b, v1.16b
	umov	w8, v1.h[0]
	cbz	w8, .LBB38_34
.LBB38_16:
	str	wzr, [sp, #88]
	str	xzr, [sp, #80]
.LBB38_17:
	add	x0, sp, #16
	bl	"sq_feed::beast::Beast::take_bytes"
	ldp	q0, q1, [sp, #16]
	ldr	q2, [sp, #48]
	ldr	x8, [sp, #64]
.LBB38_18:
	stp	q0, q1, [x19]
	ldp	x29, x30, [sp, #176]
	str	q2, [x19, #32]
	str	x8, [x19, #48]
	ldr	x19, [sp, #192]
	add	sp, sp, #208
	ret
.LBB38_19:
	ldrb	w13, [x2, #2]
	ldrb	w12, [x2, #3]
	sub	x11, x10, #7
	ldr	w14, [x2, #4]
.LBB38_20:
	lsl	w10, w12, #24
	cmp	w8, #2
	stur	xzr, [x29, #-32]
	stur	wzr, [x29, #-24]
	bfi	x10, x13, #16, #8
	orr	x10, x10, x14, lsl #32
	rev	x10, x10
	b.eq	.LBB38_24
	cmp	w8, #1
	b.ne	.LBB38_26
	cmp	x11, #7
	b.ne	.LBB38_28
	ldur	w12, [x2, #11]
	ldrb	w13, [x2, #15]
	ldurh	w11, [x2, #9]
	stur	w12, [x29, #-16]
	sturb	w13, [x29, #-12]
	b	.LBB38_29
.LBB38_24:
	cmp	x11, #14
	b.ne	.LBB38_30
	ldur	x12, [x2, #11]
	ldur	w13, [x2, #19]
	ldurh	w11, [x2, #9]
	stur	x12, [x29, #-16]
	stur	w13, [x29, #-8]
	b	.LBB38_31
.LBB38_26:
	cmp	x11, #2
	b.ne	.LBB38_32
	ldurh	w11, [x2, #9]
	b	.LBB38_33
.LBB38_28:
	mov	w11, wzr
	sturb	wzr, [x29, #-12]
	stur	wzr, [x29, #-16]
.LBB38_29:
	ldur	w12, [x29, #-16]
	ldurb	w13, [x29, #-12]
	stur	w12, [x29, #-48]
	sturb	w13, [x29, #-44]
	stur	w12, [x29, #-32]
	sturb	w13, [x29, #-28]
	b	.LBB38_33
.LBB38_30:
	mov	w11, wzr
	stur	wzr, [x29, #-8]
	stur	xzr, [x29, #-16]
.LBB38_31:
	ldur	x12, [x29, #-16]
	ldur	w13, [x29, #-8]
	stur	x12, [x29, #-48]
	stur	w13, [x29, #-40]
	stur	x12, [x29, #-32]
	stur	w13, [x29, #-24]
	b	.LBB38_33
.LBB38_32:
	mov	w11, wzr
.LBB38_33:
	ldur	w12, [x29, #-24]
	ldur	x13, [x29, #-32]
	strh	wzr, [sp, #32]
	strb	w8, [sp, #56]
	str	w12, [sp, #8]
	mov	w12, #1
	stp	x9, x12, [sp, #16]
	ldr	w9, [sp, #8]
	stp	x12, x10, [sp, #40]
	sturh	w11, [sp, #57]
	ldp	q0, q1, [sp, #16]
	stur	x13, [sp, #59]
	stur	w9, [sp, #67]
	ldr	q2, [sp, #48]
	ldr	x8, [sp, #64]
	str	x13, [sp]
	b	.LBB38_18
.LBB38_34:
	fmov	x13, d0
	umov	w12, v0.b[1]
	mov	w8, #2
	mov	w11, #14
	mov	w9, #23
	lsr	x14, x13, #16
	b	.LBB38_20
.Lfunc_end38:
	.size	"sq_feed::beast::Beast::take", .Lfunc_end38-"sq_feed::beast::Beast::take"

	.section	.rodata.cst16,"aM",@progbits,16
	.p2align	4, 0x0
.LCPI39_0:
	.byte	1
	.byte	2
	.byte	4
	.byte	8
	.byte	16
	.byte	32
	.byte	64
	.byte	128
	.byte	1
	.byte	2
	.byte	4
	.byte	8
	.byte	16
	.byte	32
	.byte	64
	.byte	128
	.section	".text.sq_feed::beast::Beast::take_bytes","ax",@progbits
	.p2align	2
	.type	"sq_feed::beast::Beast::take_bytes",@function
"sq_feed::beast::Beast::take_bytes":
	sub	sp, sp, #144
	movi	v0.2d, #0000000000000000
	stp	x20, x19, [sp, #128]
	mov	x20, x3
	mov	x19, x0
	stp	x29, x30, [sp, #48]
	add	x29, sp, #48
	stp	x28, x27, [sp, #64]
	stp	x26, x25, [sp, #80]
	stp	x24, x23, [sp, #96]
	stp	x22, x21, [sp, #112]
	stp	q0, q0, [sp, #16]
	str	q0, [sp]
	cbz	x3, .LBB39_38
	mov	x21, x2
	mov	x22, x1
	mov	x24, xzr
	add	x25, x1, #8
	add	x26, x2, #16
	add	x27, x1, #24
	b	.LBB39_3
.LBB39_2:
	cmp	x24, x20
	b.hs	.LBB39_38
.LBB39_3:
	ldrb	w8, [x22, #40]
	tbnz	w8, #0, .LBB39_17
	ldrb	w8, [x22]
	cmp	w8, #1
	b.ne	.LBB39_17
	ldrb	w8, [x22, #1]
	cbnz	w8, .LBB39_17
	ldrb	w8, [x22, #2]
	ldr	x28, [x22, #32]
	adrp	x9, ".Lswitch.table.sq_feed::beast::Beast::take_byte.350"
	add	x9, x9, :lo12:".Lswitch.table.sq_feed::beast::Beast::take_byte.350"
	sub	x10, x20, x24
	ldr	x8, [x9, x8, lsl #3]
	mvn	x9, x28
	add	x8, x8, x9
	cmp	x8, x10
	csel	x9, x8, x10, lo
	add	x8, x21, x24
	adrp	x10, .LCPI39_0
	lsr	x11, x9, #4
	cbz	x11, .LBB39_10
	mov	x12, xzr
	add	x13, x21, x24
.LBB39_8:
	movi	v0.16b, #26
	ldr	q1, [x13], #16
	cmeq	v0.16b, v1.16b, v0.16b
	ldr	q1, [x10, :lo12:.LCPI39_0]
	and	v0.16b, v0.16b, v1.16b
	addp	v0.16b, v0.16b, v0.16b
	addp	v0.16b, v0.16b, v0.16b
	addp	v0.16b, v0.16b, v0.16b
	umov	w14, v0.h[0]
	orr	w14, w14, #0x10000
	rbit	w14, w14
	clz	w14, w14
	cmp	w14, #15
	b.ls	.LBB39_20
	sub	x11, x11, #1
	sub	x12, x12, #16
	cbnz	x11, .LBB39_8
.LBB39_10:
	cmp	x9, #15
	b.hi	.LBB39_15
	mov	x23, xzr
	cbz	x9, .LBB39_25
.LBB39_12:
	ldrb	w10, [x8, x23]
	cmp	w10, #26
	b.eq	.LBB39_16
	add	x23, x23, #1
	cmp	x9, x23
	b.ne	.LBB39_12
	mov	x23, x9
	mov	w9, #21
	sub	x9, x9, x28
	cmp	x9, x23
	b.lo	.LBB39_17
	b	.LBB39_21
.LBB39_15:
	movi	v0.16b, #26
	sub	x11, x9, #16
	ldr	q1, [x8, x11]
	cmeq	v0.16b, v1.16b, v0.16b
	ldr	q1, [x10, :lo12:.LCPI39_0]
	and	v0.16b, v0.16b, v1.16b
	addp	v0.16b, v0.16b, v0.16b
	addp	v0.16b, v0.16b, v0.16b
	addp	v0.16b, v0.16b, v0.16b
	umov	w10, v0.h[0]
	orr	w10, w10, #0x10000
	rbit	w10, w10
	clz	w10, w10
	add	x11, x11, x10
	cmp	w10, #16
	csel	x23, x11, x9, lo
.LBB39_16:
	mov	w9, #21
	sub	x9, x9, x28
	cmp	x9, x23
	b.hs	.LBB39_21
.LBB39_17:
	add	x24, xzr, x24
	cmp	x24, x20
	b.hs	.LBB39_2
.LBB39_18:
	ldrb	w2, [x21, x24]
	mov	x0, sp
	mov	x1, x22
	bl	"sq_feed::beast::Beast::take_byte"
	ldrb	w8, [sp]
	cmp	w8, #1
	b.eq	.LBB39_39
	add	x24, x24, #1
	b	.LBB39_2
.LBB39_20:
	sub	x23, x14, x12
	mov	w9, #21
	sub	x9, x9, x28
	cmp	x9, x23
	b.lo	.LBB39_17
.LBB39_21:
	add	x0, x25, x28
	sub	x9, x0, x8
	cmp	x9, x23
	b.hs	.LBB39_26
	cmp	x23, #8
	b.lo	.LBB39_24
	add	x9, x25, x28
	add	x10, x24, x21
	sub	x9, x9, x10
	cmp	x9, #32
	b.hs	.LBB39_27
.LBB39_24:
	mov	x9, xzr
	b	.LBB39_36
.LBB39_25:
	add	x0, x25, x28
.LBB39_26:
	add	x1, x21, x24
	mov	x2, x23
	bl	memmove
	b	.LBB39_37
.LBB39_27:
	cmp	x23, #32
	b.hs	.LBB39_29
	mov	x9, xzr
	b	.LBB39_33
.LBB39_29:
	and	x10, x23, #0x18
	and	x9, x23, #0xffffffffffffffe0
	add	x11, x26, x24
	add	x12, x27, x28
	and	x13, x23, #0xffffffffffffffe0
.LBB39_30:
	ldp	q0, q1, [x11, #-16]
	subs	x13, x13, #32
	add	x11, x11, #32
	stp	q0, q1, [x12, #-16]
	add	x12, x12, #32
	b.ne	.LBB39_30
	cmp	x23, x9
	b.eq	.LBB39_37
	cbz	x10, .LBB39_36
.LBB39_33:
	mov	x10, x9
	and	x9, x23, #0xfffffffffffffff8
	add	x11, x10, x24
	add	x12, x10, x28
	sub	x10, x10, x9
	add	x11, x21, x11
	add	x12, x25, x12
.LBB39_34:
	ldr	d0, [x11], #8
	adds	x10, x10, #8
	str	d0, [x12], #8
	b.ne	.LBB39_34
.LBB39_35:
	cmp	x23, x9
	b.eq	.LBB39_37
.LBB39_36:
	ldrb	w10, [x8, x9]
	strb	w10, [x0, x9]
	add	x9, x9, #1
	b	.LBB39_35
.LBB39_37:
	add	x8, x23, x28
	str	x8, [x22, #32]
	add	x24, x23, x24
	cmp	x24, x20
	b.hs	.LBB39_2
	b	.LBB39_18
.LBB39_38:
	movi	v0.2d, #0000000000000000
	str	x20, [x19]
	stur	q0, [x19, #8]
	stur	q0, [x19, #24]
	stur	q0, [x19, #40]
	b	.LBB39_40
.LBB39_39:
	ldrh	w9, [sp, #8]
	add	x8, x24, #1
	mov	w10, #1
	stp	x8, x10, [x19]
	ldrb	w8, [sp, #16]
	ldrb	w10, [sp, #32]
	strh	w9, [x19, #16]
	ldr	x9, [sp, #24]
	stur	wzr, [x19, #18]
	stp	x8, x9, [x19, #24]
	ldur	x8, [sp, #33]
	ldur	x9, [sp, #39]
	strh	wzr, [x19, #22]
	strb	w10, [x19, #40]
	stur	x8, [x19, #41]
	stur	x9, [x19, #47]
	strb	wzr, [x19, #55]
.LBB39_40:
	ldp	x20, x19, [sp, #128]
	ldp	x22, x21, [sp, #112]
	ldp	x24, x23, [sp, #96]
	ldp	x26, x25, [sp, #80]
	ldp	x28, x27, [sp, #64]
	ldp	x29, x30, [sp, #48]
	add	sp, sp, #144
	ret
.Lfunc_end39:
	.size	"sq_feed::beast::Beast::take_bytes", .Lfunc_end39-"sq_feed::beast::Beast::take_bytes"

	.section	".text.sq_feed::beast::Beast::take_byte","ax",@progbits
	.p2align	2
	.type	"sq_feed::beast::Beast::take_byte",@function
"sq_feed::beast::Beast::take_byte":
	sub	sp, sp, #96
	ldrb	w8, [x1, #40]
	cmp	w8, #1
	b.ne	.LBB40_10
	and	w8, w2, #0xff
	strb	wzr, [x1, #40]
	cmp	w8, #26
	b.ne	.LBB40_12
	ldrb	w8, [x1]
	cmp	w8, #1
	b.ne	.LBB40_26
	ldrb	w8, [x1, #1]
	cmp	w8, #1
	b.gt	.LBB40_31
	cbnz	w8, .LBB40_32
	ldr	x10, [x1, #32]
	mov	w9, #26
	ldrb	w8, [x1, #2]
	add	x11, x1, x10
	add	x12, x10, #1
	strb	w9, [x11, #8]
	adrp	x9, ".Lswitch.table.sq_feed::beast::Beast::take_byte.350"
	add	x9, x9, :lo12:".Lswitch.table.sq_feed::beast::Beast::take_byte.350"
	str	x12, [x1, #32]
	ldr	x9, [x9, x8, lsl #3]
	cmp	x12, x9
	b.lo	.LBB40_32
	ldrb	w9, [x1, #8]
	ldrb	w11, [x1, #9]
	cmp	w8, #2
	ldur	w12, [x1, #10]
	sub	x10, x10, #6
	str	xzr, [sp, #64]
	lsl	x9, x9, #16
	str	wzr, [sp, #72]
	orr	x9, x9, x11, lsl #24
	orr	x9, x9, x12, lsl #32
	rev	x9, x9
	b.eq	.LBB40_39
	cmp	w8, #1
	b.ne	.LBB40_24
.LBB40_8:
	cmp	x10, #7
	b.ne	.LBB40_41
	ldur	w11, [x1, #17]
	ldrb	w12, [x1, #21]
	ldurh	w10, [x1, #15]
	str	w11, [sp, #80]
	strb	w12, [sp, #84]
	b	.LBB40_42
.LBB40_10:
	and	w8, w2, #0xff
	cmp	w8, #26
	b.ne	.LBB40_18
	mov	w8, #1
	strb	w8, [x1, #40]
	str	xzr, [x0]
	strh	wzr, [x0, #8]
	stp	xzr, xzr, [x0, #24]
	str	xzr, [x0, #16]
	stur	xzr, [x0, #39]
	add	sp, sp, #96
	ret
.LBB40_12:
	ldrb	w8, [x1]
	cmp	w8, #1
	b.ne	.LBB40_27
	ldrb	w9, [x1, #1]
	mov	w10, #1
	movk	w10, #258, lsl #16
	lsl	w8, w9, #3
	lsr	w8, w10, w8
	adrp	x10, ".Lswitch.table.sq_feed::reader::Reader::end"
	add	x10, x10, :lo12:".Lswitch.table.sq_feed::reader::Reader::end"
	ldr	x9, [x10, x9, lsl #3]
	and	w10, w2, #0xff
	cmp	w10, #50
	b.le	.LBB40_28
.LBB40_14:
	cmp	w10, #51
	b.eq	.LBB40_34
	cmp	w10, #52
	b.eq	.LBB40_35
	cmp	w10, #227
	b.ne	.LBB40_37
	mov	w10, wzr
	mov	w11, #2
	b	.LBB40_38
.LBB40_18:
	ldrb	w8, [x1]
	cmp	w8, #1
	b.ne	.LBB40_26
	ldrb	w8, [x1, #1]
	cmp	w8, #1
	b.gt	.LBB40_31
	cbnz	w8, .LBB40_32
	ldr	x10, [x1, #32]
	ldrb	w8, [x1, #2]
	add	x9, x1, x10
	add	x11, x10, #1
	strb	w2, [x9, #8]
	adrp	x9, ".Lswitch.table.sq_feed::beast::Beast::take_byte.350"
	add	x9, x9, :lo12:".Lswitch.table.sq_feed::beast::Beast::take_byte.350"
	str	x11, [x1, #32]
	ldr	x9, [x9, x8, lsl #3]
	cmp	x11, x9
	b.lo	.LBB40_32
	ldrb	w9, [x1, #8]
	ldrb	w11, [x1, #9]
	cmp	w8, #2
	ldur	w12, [x1, #10]
	sub	x10, x10, #6
	str	xzr, [sp, #64]
	lsl	x9, x9, #16
	str	wzr, [sp, #72]
	orr	x9, x9, x11, lsl #24
	orr	x9, x9, x12, lsl #32
	rev	x9, x9
	b.eq	.LBB40_39
	cmp	w8, #1
	b.eq	.LBB40_8
.LBB40_24:
	cmp	x10, #2
	b.ne	.LBB40_45
	ldurh	w10, [x1, #15]
	b	.LBB40_46
.LBB40_26:
	mov	w11, #257
	mov	w10, wzr
	mov	x12, xzr
	mov	x9, xzr
	mov	w8, wzr
	strh	w11, [x1]
	strb	wzr, [x1, #2]
	mov	w13, #1
	mov	w11, #1
	str	xzr, [sp]
	str	wzr, [sp, #8]
	b	.LBB40_33
.LBB40_27:
	mov	w8, wzr
	mov	x9, xzr
	and	w10, w2, #0xff
	cmp	w10, #50
	b.gt	.LBB40_14
.LBB40_28:
	cmp	w10, #49
	b.eq	.LBB40_36
	cmp	w10, #50
	b.ne	.LBB40_37
	mov	w11, wzr
	mov	w10, #1
	b	.LBB40_38
.LBB40_31:
	cmp	w8, #2
.LBB40_32:
	mov	w10, wzr
	mov	x13, xzr
	mov	w11, wzr
	mov	x12, xzr
	mov	x9, xzr
	mov	w8, wzr
	str	wzr, [sp, #8]
	str	xzr, [sp]
.LBB40_33:
	stp	x12, x9, [x0, #16]
	ldr	w9, [sp, #8]
	strb	w8, [x0, #32]
	ldr	x8, [sp]
	str	x13, [x0]
	strb	w11, [x0, #8]
	strb	wzr, [x0, #9]
	sturh	w10, [x0, #33]
	stur	x8, [x0, #35]
	stur	w9, [x0, #43]
	add	sp, sp, #96
	ret
.LBB40_34:
	mov	w11, wzr
	mov	w10, #2
	b	.LBB40_38
.LBB40_35:
	mov	w10, wzr
	mov	w11, #1
	b	.LBB40_38
.LBB40_36:
	mov	w11, wzr
	mov	w10, wzr
	b	.LBB40_38
.LBB40_37:
	mov	w10, wzr
	mov	w11, #3
.LBB40_38:
	movi	v0.2d, #0000000000000000
	strb	w11, [x1, #1]
	mov	w11, #1
	strb	w10, [x1, #2]
	strb	w11, [x1]
	stur	q0, [x1, #8]
	stur	q0, [x1, #24]
	str	x9, [x0]
	strb	w8, [x0, #8]
	strb	wzr, [x0, #9]
	stp	xzr, xzr, [x0, #24]
	str	xzr, [x0, #16]
	stur	xzr, [x0, #39]
	add	sp, sp, #96
	ret
.LBB40_39:
	cmp	x10, #14
	b.ne	.LBB40_43
	ldur	x11, [x1, #17]
	ldur	w12, [x1, #25]
	ldurh	w10, [x1, #15]
	str	x11, [sp, #80]
	str	w12, [sp, #88]
	b	.LBB40_44
.LBB40_41:
	mov	w10, wzr
	strb	wzr, [sp, #84]
	str	wzr, [sp, #80]
.LBB40_42:
	ldr	w11, [sp, #80]
	ldrb	w12, [sp, #84]
	str	w11, [sp, #48]
	strb	w12, [sp, #52]
	str	w11, [sp, #64]
	strb	w12, [sp, #68]
	b	.LBB40_46
.LBB40_43:
	mov	w10, wzr
	str	wzr, [sp, #88]
	str	xzr, [sp, #80]
.LBB40_44:
	ldr	x11, [sp, #80]
	ldr	w12, [sp, #88]
	str	x11, [sp, #48]
	str	w12, [sp, #56]
	str	x11, [sp, #64]
	str	w12, [sp, #72]
	b	.LBB40_46
.LBB40_45:
	mov	w10, wzr
.LBB40_46:
	ldr	x12, [sp, #64]
	ldr	w14, [sp, #72]
	mov	w11, wzr
	mov	w13, #1
	strh	wzr, [x1]
	str	x12, [sp, #80]
	str	x12, [sp]
	mov	w12, #1
	str	w14, [sp, #88]
	strb	wzr, [x1, #2]
	str	w14, [sp, #8]
	b	.LBB40_33
.Lfunc_end40:
	.size	"sq_feed::beast::Beast::take_byte", .Lfunc_end40-"sq_feed::beast::Beast::take_byte"

	.section	.rodata.cst16,"aM",@progbits,16
	.p2align	4, 0x0
.LCPI41_0:
	.byte	1
	.byte	2
	.byte	4
	.byte	8
	.byte	16
	.byte	32
	.byte	64
	.byte	128
	.byte	1
	.byte	2
	.byte	4
	.byte	8
	.byte	16
	.byte	32
	.byte	64
	.byte	128
	.section	.rodata.cst8,"aM",@progbits,8
	.p2align	3, 0x0
.LCPI41_1:
	.byte	255
	.byte	255
	.byte	255
	.byte	255
	.byte	0
	.byte	2
	.byte	4
	.byte	6
.LCPI41_2:
	.byte	255
	.byte	255
	.byte	0
	.byte	1
	.byte	255
	.byte	255
	.byte	255
	.byte	255
	.section	".text.sq_feed::avr::Avr::take","ax",@progbits
	.p2align	2
	.type	"sq_feed::avr::Avr::take",@function
"sq_feed::avr::Avr::take":
	sub	sp, sp, #96
	movi	v0.2d, #0000000000000000
	ldrb	w8, [x1]
	str	x19, [sp, #80]
	mov	x19, x0
	stp	x29, x30, [sp, #64]
	add	x29, sp, #64
	cmp	w8, #1
	str	xzr, [sp, #48]
	stp	q0, q0, [sp, #16]
	str	q0, [sp]
	b.eq	.LBB41_2
	ldrb	w8, [x1, #64]
	tbz	w8, #0, .LBB41_3
.LBB41_2:
	mov	x0, sp
	bl	"sq_feed::avr::Avr::take_bytes"
	ldp	q0, q1, [sp]
	ldr	q2, [sp, #32]
	ldr	x8, [sp, #48]
	str	q2, [x19, #32]
	stp	q0, q1, [x19]
	ldp	x29, x30, [sp, #64]
	str	x8, [x19, #48]
	ldr	x19, [sp, #80]
	add	sp, sp, #96
	ret
.LBB41_3:
	ldr	x8, [x1, #56]
	cbnz	x8, .LBB41_2
	cbz	x3, .LBB41_2
	ldrb	w11, [x2]
	cmp	w11, #13
	b.eq	.LBB41_7
	cmp	w11, #10
	b.ne	.LBB41_12
.LBB41_7:
	cmp	x3, #1
	b.eq	.LBB41_2
	ldrb	w8, [x2, #1]
	cmp	w8, #13
	ccmp	w8, #10, #4, ne
	mov	w8, #1
	cinc	x8, x8, eq
	subs	x10, x3, x8
	b.eq	.LBB41_2
	add	x9, x2, x8
	ldrb	w11, [x9]
	cmp	w11, #57
	b.le	.LBB41_13
.LBB41_10:
	cmp	w11, #64
	b.eq	.LBB41_19
	cmp	w11, #58
	b.eq	.LBB41_15
	b	.LBB41_2
.LBB41_12:
	mov	x8, xzr
	mov	x10, x3
	mov	x9, x2
	cmp	w11, #57
	b.gt	.LBB41_10
.LBB41_13:
	cmp	w11, #37
	b.eq	.LBB41_19
	cmp	w11, #42
	b.ne	.LBB41_2
.LBB41_15:
	cmp	x10, #30
	b.lo	.LBB41_2
	ldrb	w10, [x9, #29]
	cmp	w10, #59
	b.ne	.LBB41_2
	movi	v0.16b, #223
	ldur	q1, [x9, #1]
	movi	v2.16b, #198
	ldur	q4, [x9, #13]
	movi	v3.16b, #64
	movi	v6.16b, #6
	movi	v7.16b, #10
	movi	v16.16b, #191
	adrp	x9, .LCPI41_0
	movi	v17.16b, #16
	and	v5.16b, v1.16b, v0.16b
	and	v0.16b, v4.16b, v0.16b
	add	v1.16b, v1.16b, v2.16b
	add	v2.16b, v4.16b, v2.16b
	sub	v4.16b, v3.16b, v5.16b
	sub	v3.16b, v3.16b, v0.16b
	uqsub	v1.16b, v1.16b, v6.16b
	uqsub	v2.16b, v2.16b, v6.16b
	add	v5.16b, v5.16b, v16.16b
	add	v0.16b, v0.16b, v16.16b
	umin	v4.16b, v4.16b, v7.16b
	umin	v3.16b, v3.16b, v7.16b
	add	v1.16b, v1.16b, v17.16b
	add	v2.16b, v2.16b, v17.16b
	add	v4.16b, v5.16b, v4.16b
	add	v3.16b, v0.16b, v3.16b
	umin	v0.16b, v1.16b, v4.16b
	umin	v1.16b, v2.16b, v3.16b
	movi	v2.16b, #15
	orr	v3.16b, v1.16b, v0.16b
	cmhi	v2.16b, v3.16b, v2.16b
	ldr	q3, [x9, :lo12:.LCPI41_0]
	and	v2.16b, v2.16b, v3.16b
	addp	v2.16b, v2.16b, v2.16b
	addp	v2.16b, v2.16b, v2.16b
	addp	v2.16b, v2.16b, v2.16b
	umov	w9, v2.h[0]
	cbnz	w9, .LBB41_2
	xtn	v2.8b, v0.8h
	uzp2	v0.16b, v0.16b, v0.16b
	mov	x10, xzr
	xtn	v3.8b, v1.8h
	mov	x9, xzr
	mov	w12, #30
	uzp2	v1.16b, v1.16b, v0.16b
	shl	v2.8b, v2.8b, #4
	shl	v3.8b, v3.8b, #4
	orr	v0.8b, v2.8b, v0.8b
	orr	v1.8b, v3.8b, v1.8b
	umov	w11, v0.h[0]
	trn2	v2.4h, v1.4h, v0.4h
	ext	v0.8b, v0.8b, v2.8b, #2
	zip2	v1.8b, v1.8b, v0.8b
	b	.LBB41_24
.LBB41_19:
	cmp	x10, #42
	b.lo	.LBB41_2
	ldrb	w10, [x9, #41]
	cmp	w10, #59
	b.ne	.LBB41_2
	movi	v1.16b, #223
	ldur	q0, [x9, #1]
	movi	v2.16b, #198
	ldur	q7, [x9, #17]
	movi	v3.16b, #64
	movi	v4.16b, #6
	movi	v5.16b, #10
	movi	v6.16b, #191
	adrp	x10, .LCPI41_0
	movi	v16.16b, #16
	and	v17.16b, v0.16b, v1.16b
	and	v18.16b, v7.16b, v1.16b
	add	v0.16b, v0.16b, v2.16b
	add	v7.16b, v7.16b, v2.16b
	sub	v19.16b, v3.16b, v17.16b
	sub	v20.16b, v3.16b, v18.16b
	uqsub	v0.16b, v0.16b, v4.16b
	uqsub	v7.16b, v7.16b, v4.16b
	add	v17.16b, v17.16b, v6.16b
	add	v18.16b, v18.16b, v6.16b
	umin	v19.16b, v19.16b, v5.16b
	umin	v20.16b, v20.16b, v5.16b
	add	v0.16b, v0.16b, v16.16b
	add	v17.16b, v17.16b, v19.16b
	add	v19.16b, v7.16b, v16.16b
	add	v18.16b, v18.16b, v20.16b
	umin	v7.16b, v0.16b, v17.16b
	umin	v0.16b, v19.16b, v18.16b
	movi	v17.16b, #15
	orr	v18.16b, v0.16b, v7.16b
	cmhi	v19.16b, v18.16b, v17.16b
	ldr	q18, [x10, :lo12:.LCPI41_0]
	and	v19.16b, v19.16b, v18.16b
	addp	v19.16b, v19.16b, v19.16b
	addp	v19.16b, v19.16b, v19.16b
	addp	v19.16b, v19.16b, v19.16b
	umov	w10, v19.h[0]
	cbnz	w10, .LBB41_2
	ldur	q19, [x9, #25]
	and	v1.16b, v19.16b, v1.16b
	add	v2.16b, v19.16b, v2.16b
	sub	v3.16b, v3.16b, v1.16b
	uqsub	v2.16b, v2.16b, v4.16b
	add	v1.16b, v1.16b, v6.16b
	umin	v3.16b, v3.16b, v5.16b
	add	v2.16b, v2.16b, v16.16b
	add	v1.16b, v1.16b, v3.16b
	umin	v1.16b, v2.16b, v1.16b
	cmhi	v2.16b, v1.16b, v17.16b
	and	v2.16b, v2.16b, v18.16b
	addp	v2.16b, v2.16b, v2.16b
	addp	v2.16b, v2.16b, v2.16b
	addp	v2.16b, v2.16b, v2.16b
	umov	w9, v2.h[0]
	cbnz	w9, .LBB41_2
	xtn	v2.8b, v7.8h
	uzp2	v3.16b, v7.16b, v0.16b
	adrp	x9, .LCPI41_1
	ext	v4.16b, v1.16b, v1.16b, #8
	mov	v1.d[0], v1.d[1]
	mov	w12, #42
	xtn	v5.8b, v0.8h
	shl	v2.8b, v2.8b, #4
	rev16	v4.8b, v4.8b
	shl	v5.8b, v5.8b, #4
	orr	v2.8b, v2.8b, v3.8b
	ldr	d3, [x9, :lo12:.LCPI41_1]
	adrp	x9, .LCPI41_2
	ldr	d6, [x9, :lo12:.LCPI41_2]
	tbl	v1.8b, { v1.16b }, v3.8b
	mov	v3.16b, v2.16b
	ext	v7.8b, v2.8b, v0.8b, #2
	uzp2	v0.16b, v0.16b, v0.16b
	umov	w11, v2.h[3]
	mov	v3.d[1], v2.d[0]
	shl	v1.8b, v1.8b, #4
	fmov	w9, s7
	zip2	v1.8b, v1.8b, v0.8b
	orr	v0.8b, v5.8b, v0.8b
	tbl	v3.8b, { v3.16b }, v6.8b
	orr	v1.8b, v1.8b, v4.8b
	fmov	x10, d3
	orr	x9, x10, x9, lsl #32
	mov	w10, #1
	rev	x9, x9
.LBB41_24:
	uzp1	v1.8b, v1.8b, v0.8b
	add	x8, x12, x8
	mov	w12, #1
	stp	x8, x12, [sp]
	mov	w8, #2
	stp	x10, x9, [sp, #24]
	strb	w8, [sp, #40]
	sturh	w11, [sp, #41]
	stur	d0, [sp, #43]
	strb	wzr, [sp, #17]
	stur	s1, [sp, #51]
	ldp	q1, q0, [sp, #16]
	ldr	x8, [sp, #48]
	stp	q1, q0, [x19, #16]
	ldr	q0, [sp]
	str	q0, [x19]
	ldp	x29, x30, [sp, #64]
	str	x8, [x19, #48]
	ldr	x19, [sp, #80]
	add	sp, sp, #96
	ret
.Lfunc_end41:
	.size	"sq_feed::avr::Avr::take", .Lfunc_end41-"sq_feed::avr::Avr::take"

	.section	".text.sq_feed::avr::Avr::take_bytes","ax",@progbits
	.p2align	2
	.type	"sq_feed::avr::Avr::take_bytes",@function
"sq_feed::avr::Avr::take_bytes":
	sub	sp, sp, #144
	stp	x20, x19, [sp, #128]
	mov	x20, x3
	mov	x19, x0
	stp	x29, x30, [sp, #64]
	add	x29, sp, #64
	str	x25, [sp, #80]
	stp	x24, x23, [sp, #96]
	stp	x22, x21, [sp, #112]
	cbz	x3, .LBB42_32
	mov	x21, x2
	mov	x22, x1
	mov	x23, xzr
	add	x24, x1, #8
	add	x25, sp, #16
.LBB42_2:
	movi	v0.2d, #0000000000000000
	ldrb	w8, [x21, x23]
	cmp	w8, #58
	stp	q0, q0, [sp, #32]
	str	q0, [sp, #16]
	b.le	.LBB42_7
	cmp	w8, #186
	b.gt	.LBB42_12
	cmp	w8, #59
	b.eq	.LBB42_19
	cmp	w8, #60
	b.eq	.LBB42_18
	cmp	w8, #64
	b.eq	.LBB42_17
	b	.LBB42_22
.LBB42_7:
	cmp	w8, #36
	b.le	.LBB42_14
	cmp	w8, #37
	b.eq	.LBB42_17
	cmp	w8, #42
	b.eq	.LBB42_11
	cmp	w8, #58
	b.ne	.LBB42_22
.LBB42_11:
	mov	w2, wzr
	mov	w3, wzr
	b	.LBB42_20
.LBB42_12:
	sub	w9, w8, #187
	cmp	w9, #52
	b.hi	.LBB42_22
	mov	w10, #1
	lsl	x9, x10, x9
	mov	x10, #17
	movk	x10, #16, lsl #48
	tst	x9, x10
	b.ne	.LBB42_16
	b	.LBB42_22
.LBB42_14:
	cmp	w8, #10
	b.eq	.LBB42_16
	cmp	w8, #13
	b.ne	.LBB42_22
.LBB42_16:
	mov	w3, wzr
	mov	w2, #2
	b	.LBB42_20
.LBB42_17:
	mov	w2, wzr
	mov	w3, #1
	b	.LBB42_20
.LBB42_18:
	mov	w2, wzr
	mov	w3, #2
	b	.LBB42_20
.LBB42_19:
	mov	w3, wzr
	mov	w2, #1
.LBB42_20:
	add	x0, sp, #16
	mov	x1, x22
	bl	"sq_feed::avr::Avr::close"
	ldrb	w11, [sp, #16]
	ldrb	w8, [sp, #24]
	ldrb	w9, [sp, #25]
	ldur	x13, [x25, #33]
	ldrb	w10, [sp, #32]
	ldur	x14, [x25, #39]
	cmp	w11, #1
	ldr	x12, [sp, #40]
	ldrb	w11, [sp, #48]
	str	x13, [sp]
	stur	x14, [sp, #6]
	b.eq	.LBB42_33
	add	x23, x23, #1
	cmp	x20, x23
	b.ne	.LBB42_2
	b	.LBB42_32
.LBB42_22:
	ldrb	w9, [x22, #64]
	tbnz	w9, #0, .LBB42_27
	cmp	w8, #48
	b.lo	.LBB42_31
	cmp	w8, #58
	b.hs	.LBB42_28
.LBB42_25:
	ldr	x9, [x22, #56]
	cmp	x9, #41
	b.hi	.LBB42_31
	strb	w8, [x24, x9]
	add	x8, x9, #1
	str	x8, [x22, #56]
.LBB42_27:
	stur	xzr, [sp, #6]
	str	xzr, [sp]
	add	x23, x23, #1
	cmp	x20, x23
	b.ne	.LBB42_2
	b	.LBB42_32
.LBB42_28:
	cmp	w8, #65
	b.lo	.LBB42_31
	cmp	w8, #71
	b.lo	.LBB42_25
	sub	w9, w8, #97
	cmp	w9, #6
	b.lo	.LBB42_25
.LBB42_31:
	mov	w8, #1
	strb	w8, [x22, #64]
	stur	xzr, [sp, #6]
	str	xzr, [sp]
	add	x23, x23, #1
	cmp	x20, x23
	b.ne	.LBB42_2
.LBB42_32:
	movi	v0.2d, #0000000000000000
	str	x20, [x19]
	stur	q0, [x19, #8]
	stur	q0, [x19, #24]
	stur	q0, [x19, #40]
	b	.LBB42_34
.LBB42_33:
	strb	w8, [x19, #16]
	ldr	x8, [sp]
	add	x13, x23, #1
	strb	w9, [x19, #17]
	ldur	x9, [sp, #6]
	mov	w14, #1
	stp	x13, x14, [x19]
	stur	wzr, [x19, #18]
	strh	wzr, [x19, #22]
	stp	x10, x12, [x19, #24]
	strb	w11, [x19, #40]
	stur	x8, [x19, #41]
	stur	x9, [x19, #47]
	strb	wzr, [x19, #55]
.LBB42_34:
	ldp	x20, x19, [sp, #128]
	ldr	x25, [sp, #80]
	ldp	x22, x21, [sp, #112]
	ldp	x24, x23, [sp, #96]
	ldp	x29, x30, [sp, #64]
	add	sp, sp, #144
	ret
.Lfunc_end42:
	.size	"sq_feed::avr::Avr::take_bytes", .Lfunc_end42-"sq_feed::avr::Avr::take_bytes"

	.section	.rodata.cst16,"aM",@progbits,16
	.p2align	4, 0x0
.LCPI43_0:
	.byte	1
	.byte	2
	.byte	4
	.byte	8
	.byte	16
	.byte	32
	.byte	64
	.byte	128
	.byte	1
	.byte	2
	.byte	4
	.byte	8
	.byte	16
	.byte	32
	.byte	64
	.byte	128
	.section	".text.sq_feed::rows::Rows::take","ax",@progbits
	.p2align	2
	.type	"sq_feed::rows::Rows::take",@function
"sq_feed::rows::Rows::take":
	sub	sp, sp, #208
	movi	v0.2d, #0000000000000000
	ldrb	w8, [x1, #544]
	stp	x29, x30, [sp, #144]
	stp	x20, x19, [sp, #192]
	add	x29, sp, #144
	mov	x19, x0
	str	x23, [sp, #160]
	stp	x22, x21, [sp, #176]
	str	xzr, [sp, #64]
	stp	q0, q0, [sp, #32]
	str	q0, [sp, #16]
	stp	q0, q0, [x29, #-48]
	stur	q0, [x29, #-16]
	tbnz	w8, #0, .LBB43_2
	ldr	x8, [x1, #536]
	cbz	x8, .LBB43_4
.LBB43_2:
	add	x0, sp, #16
	bl	"sq_feed::rows::Rows::take_bytes"
	ldp	q0, q1, [sp, #16]
.LBB43_3:
	ldr	q2, [sp, #48]
	ldr	x8, [sp, #64]
	stp	q0, q1, [x19]
	str	q2, [x19, #32]
	ldp	x22, x21, [sp, #176]
	str	x8, [x19, #48]
	ldr	x23, [sp, #160]
	ldp	x20, x19, [sp, #192]
	ldp	x29, x30, [sp, #144]
	add	sp, sp, #208
	ret
.LBB43_4:
	cmp	x3, #512
	mov	w8, #512
	adrp	x9, .LCPI43_0
	csel	x8, x3, x8, lo
	lsr	x10, x8, #4
	cbz	x10, .LBB43_8
	mov	x11, xzr
	mov	x12, x2
.LBB43_6:
	movi	v0.16b, #10
	ldr	q1, [x12], #16
	cmeq	v0.16b, v1.16b, v0.16b
	ldr	q1, [x9, :lo12:.LCPI43_0]
	and	v0.16b, v0.16b, v1.16b
	addp	v0.16b, v0.16b, v0.16b
	addp	v0.16b, v0.16b, v0.16b
	addp	v0.16b, v0.16b, v0.16b
	umov	w13, v0.h[0]
	orr	w13, w13, #0x10000
	rbit	w13, w13
	clz	w13, w13
	cmp	w13, #15
	b.ls	.LBB43_15
	sub	x10, x10, #1
	sub	x11, x11, #16
	cbnz	x10, .LBB43_6
.LBB43_8:
	cmp	x3, #15
	b.hi	.LBB43_13
	cbz	x3, .LBB43_2
	mov	x20, xzr
.LBB43_11:
	ldrb	w9, [x2, x20]
	cmp	w9, #10
	b.eq	.LBB43_14
	add	x20, x20, #1
	cmp	x8, x20
	b.ne	.LBB43_11
	b	.LBB43_2
.LBB43_13:
	movi	v0.16b, #10
	sub	x10, x8, #16
	ldr	q1, [x2, x10]
	cmeq	v0.16b, v1.16b, v0.16b
	ldr	q1, [x9, :lo12:.LCPI43_0]
	and	v0.16b, v0.16b, v1.16b
	addp	v0.16b, v0.16b, v0.16b
	addp	v0.16b, v0.16b, v0.16b
	addp	v0.16b, v0.16b, v0.16b
	umov	w9, v0.h[0]
	orr	w9, w9, #0x10000
	rbit	w9, w9
	clz	w9, w9
	add	x10, x10, x9
	cmp	w9, #16
	csel	x20, x10, x8, lo
.LBB43_14:
	cmp	x8, x20
	b.ls	.LBB43_2
	b	.LBB43_16
.LBB43_15:
	sub	x20, x13, x11
	cmp	x8, x20
	b.ls	.LBB43_2
.LBB43_16:
	ldrb	w8, [x1]
	ldur	q0, [x1, #8]
	mov	x21, x3
	mov	x22, x1
	sub	x0, x29, #48
	add	x1, sp, #72
	mov	x3, x20
	str	x8, [sp, #72]
	mov	x23, x2
	stur	q0, [sp, #80]
	bl	"sq_feed::rows::row_read"
	ldurb	w8, [x29, #-48]
	cmp	w8, #2
	b.ne	.LBB43_19
	ldurb	w8, [x29, #-40]
	cbnz	w8, .LBB43_19
	sub	x8, x29, #48
	add	x9, x20, #1
	mov	w10, #1
	ldur	x11, [x8, #33]
	ldur	x8, [x8, #39]
	stp	x9, x10, [sp, #16]
	ldurb	w9, [x29, #-32]
	strh	wzr, [sp, #32]
	ldurb	w10, [x29, #-16]
	str	x11, [sp]
	stur	x8, [sp, #6]
	ldur	x8, [x29, #-24]
	strb	w10, [sp, #56]
	stp	x9, x8, [sp, #40]
	ldur	x8, [sp, #6]
	ldr	x9, [sp]
	ldp	q0, q1, [sp, #16]
	stur	x8, [sp, #63]
	stur	x9, [sp, #57]
	b	.LBB43_3
.LBB43_19:
	mov	x3, x21
	mov	x2, x23
	mov	x1, x22
	b	.LBB43_2
.Lfunc_end43:
	.size	"sq_feed::rows::Rows::take", .Lfunc_end43-"sq_feed::rows::Rows::take"

	.section	".text.sq_feed::rows::Rows::take_bytes","ax",@progbits
	.p2align	2
	.type	"sq_feed::rows::Rows::take_bytes",@function
"sq_feed::rows::Rows::take_bytes":
	sub	sp, sp, #288
	stp	x24, x23, [sp, #240]
	mov	x23, x3
	stp	x29, x30, [sp, #192]
	add	x29, sp, #192
	stp	x28, x27, [sp, #208]
	stp	x26, x25, [sp, #224]
	stp	x22, x21, [sp, #256]
	stp	x20, x19, [sp, #272]
	str	x0, [sp, #16]
	strh	wzr, [sp, #52]
	str	wzr, [sp, #48]
	cbz	x3, .LBB44_11
	mov	x28, x2
	mov	x22, x1
	mov	x24, xzr
	add	x8, x1, #24
	sub	x26, x29, #64
	str	x8, [sp, #8]
	b	.LBB44_3
.LBB44_2:
	str	xzr, [sp, #32]
	stur	xzr, [sp, #38]
	add	x24, x24, #1
	cmp	x23, x24
	b.eq	.LBB44_11
.LBB44_3:
	ldrb	w8, [x28, x24]
	cmp	w8, #10
	b.ne	.LBB44_8
	movi	v0.2d, #0000000000000000
	ldrb	w8, [x22, #544]
	cmp	w8, #1
	stp	q0, q0, [x29, #-64]
	stur	q0, [x29, #-32]
	b.eq	.LBB44_12
	ldrb	w8, [x22]
	ldur	q0, [x22, #8]
	sub	x0, x29, #64
	ldr	x3, [x22, #536]
	sub	x1, x29, #88
	add	x2, x22, #24
	stur	x8, [x29, #-88]
	sub	x8, x29, #88
	stur	q0, [x8, #8]
	bl	"sq_feed::rows::row_read"
	ldur	w8, [x26, #10]
	ldurh	w9, [x26, #14]
	add	x0, x22, #24
	ldur	w10, [x26, #17]
	ldurb	w27, [x29, #-64]
	mov	w1, wzr
	str	w8, [sp, #96]
	ldur	x8, [x29, #-40]
	mov	w2, #521
	strh	w9, [sp, #100]
	ldur	x9, [x26, #39]
	ldurb	w21, [x29, #-32]
	str	x8, [sp, #24]
	ldur	w8, [x26, #20]
	ldurb	w19, [x29, #-56]
	str	w10, [sp, #88]
	ldurb	w25, [x29, #-55]
	ldurb	w20, [x29, #-48]
	stur	w8, [sp, #91]
	ldur	x8, [x26, #33]
	stur	x9, [sp, #78]
	str	x8, [sp, #72]
	bl	memset
	cbz	w27, .LBB44_2
	cmp	w27, #1
	b.ne	.LBB44_13
	mov	w8, #1
	ldr	w9, [sp, #96]
	strb	w19, [x22, #8]
	str	x8, [x22]
	ldrh	w8, [sp, #100]
	stur	w9, [x22, #10]
	ldur	w9, [sp, #91]
	sturh	w8, [x22, #14]
	ldr	w8, [sp, #88]
	strb	w25, [x22, #9]
	strb	w20, [x22, #16]
	stur	w8, [x22, #17]
	stur	w9, [x22, #20]
	b	.LBB44_2
.LBB44_8:
	ldr	x9, [x22, #536]
	cmp	x9, #511
	b.hi	.LBB44_10
	add	x10, x22, #24
	strb	w8, [x10, x9]
	add	x8, x9, #1
	str	x8, [x22, #536]
	stur	xzr, [sp, #38]
	str	xzr, [sp, #32]
	add	x24, x24, #1
	cmp	x23, x24
	b.ne	.LBB44_3
	b	.LBB44_11
.LBB44_10:
	mov	w8, #1
	strb	w8, [x22, #544]
	stur	xzr, [sp, #38]
	str	xzr, [sp, #32]
	add	x24, x24, #1
	cmp	x23, x24
	b.ne	.LBB44_3
.LBB44_11:
	movi	v0.2d, #0000000000000000
	ldr	x8, [sp, #16]
	str	x23, [x8]
	stur	q0, [x8, #8]
	stur	q0, [x8, #24]
	stur	q0, [x8, #40]
	b	.LBB44_15
.LBB44_12:
	ldr	x0, [sp, #8]
	mov	w1, wzr
	mov	w2, #521
	stur	xzr, [sp, #78]
	str	xzr, [sp, #72]
	bl	memset
	mov	x12, xzr
	mov	w21, wzr
	mov	w25, wzr
	mov	x20, xzr
	mov	w19, #1
	b	.LBB44_14
.LBB44_13:
	ldr	x12, [sp, #24]
.LBB44_14:
	ldr	x8, [sp, #72]
	ldur	x9, [sp, #78]
	ldr	x11, [sp, #16]
	str	x8, [sp, #56]
	add	x8, x24, #1
	stur	x9, [sp, #62]
	mov	w9, #1
	ldr	x10, [sp, #56]
	stp	x8, x9, [x11]
	ldur	x8, [sp, #62]
	ldrh	w9, [sp, #52]
	strb	w19, [x11, #16]
	str	x10, [sp, #32]
	stur	x8, [sp, #38]
	ldr	w8, [sp, #48]
	strh	w9, [x11, #22]
	ldur	x9, [sp, #38]
	stur	w8, [x11, #18]
	ldr	x8, [sp, #32]
	strb	w25, [x11, #17]
	stp	x20, x12, [x11, #24]
	strb	w21, [x11, #40]
	stur	x8, [x11, #41]
	stur	x9, [x11, #47]
	strb	wzr, [x11, #55]
.LBB44_15:
	ldp	x20, x19, [sp, #272]
	ldp	x22, x21, [sp, #256]
	ldp	x24, x23, [sp, #240]
	ldp	x26, x25, [sp, #224]
	ldp	x28, x27, [sp, #208]
	ldp	x29, x30, [sp, #192]
	add	sp, sp, #288
	ret
.Lfunc_end44:
	.size	"sq_feed::rows::Rows::take_bytes", .Lfunc_end44-"sq_feed::rows::Rows::take_bytes"

	.section	".text.sq_feed::reader::Reader::find","ax",@progbits
	.p2align	2
	.type	"sq_feed::reader::Reader::find",@function
"sq_feed::reader::Reader::find":
	sub	sp, sp, #224
	stp	x22, x21, [sp, #192]
	mov	x21, x3
	stp	x20, x19, [sp, #208]
	mov	x19, x0
	stp	x29, x30, [sp, #128]
	add	x29, sp, #128
	stp	x28, x27, [sp, #144]
	stp	x26, x25, [sp, #160]
	stp	x24, x23, [sp, #176]
	str	x2, [sp, #24]
	stur	xzr, [sp, #46]
	str	xzr, [sp, #40]
	cbz	x3, .LBB45_96
	mov	x20, x1
	mov	x25, xzr
	add	x26, x1, #4, lsl #12
	str	x21, [sp, #16]
.LBB45_2:
	movi	v0.2d, #0000000000000000
	ldr	x8, [sp, #24]
	add	x0, sp, #64
	add	x1, x20, #8
	add	x2, sp, #60
	mov	w3, #1
	ldrb	w28, [x8, x25]
	str	xzr, [sp, #112]
	strb	w28, [sp, #60]
	stp	q0, q0, [sp, #80]
	str	q0, [sp, #64]
	bl	"sq_feed::beast::Beast::take_bytes"
	ldrb	w8, [sp, #72]
	cmp	w8, #1
	b.ne	.LBB45_9
	ldrb	w9, [sp, #80]
	ldrb	w8, [x20, #56]
	cmp	w9, #1
	b.gt	.LBB45_6
	cbnz	w9, .LBB45_7
	cmp	w8, #2
	cinc	w8, w8, lo
	b	.LBB45_8
.LBB45_6:
	cmp	w9, #2
	b.eq	.LBB45_8
.LBB45_7:
	mov	w8, wzr
.LBB45_8:
	strb	w8, [x20, #56]
.LBB45_9:
	ldurb	w8, [x20, #8]
	cmp	w8, #1
	b.ne	.LBB45_12
	ldrb	w8, [x20, #9]
	mov	w21, wzr
	cmp	w8, #1
	b.gt	.LBB45_36
	cbz	w8, .LBB45_13
.LBB45_12:
	ldrb	w21, [x20, #56]
.LBB45_13:
	ldr	x8, [x20, #16448]
	add	x9, x20, #64
	cmp	w28, #10
	strb	w28, [x9, x8]
	add	x22, x8, #1
	add	x8, x20, #64
	ldr	x27, [x20, #16456]
	str	x22, [x20, #16448]
	str	x8, [sp, #32]
	add	x1, x9, x27
	sub	x9, x22, x27
	b.eq	.LBB45_26
	cmp	w28, #59
	b.ne	.LBB45_28
	sub	x8, x9, #1
	cmp	x8, #3
	b.lo	.LBB45_20
	ldrb	w10, [x1]
	cmp	w10, #239
	b.ne	.LBB45_22
	ldrb	w8, [x1, #1]
	cmp	w8, #187
	b.ne	.LBB45_82
	ldrb	w8, [x1, #2]
	cmp	w8, #191
	b.ne	.LBB45_82
	add	x1, x1, #3
	sub	x8, x9, #4
.LBB45_20:
	cbz	x8, .LBB45_82
	ldrb	w10, [x1]
.LBB45_22:
	mov	x9, xzr
	cmp	w10, #57
	mov	w24, wzr
	b.le	.LBB45_37
	cmp	w10, #58
	b.eq	.LBB45_39
	cmp	w10, #60
	b.eq	.LBB45_47
	cmp	w10, #64
	mov	w23, w24
	b.eq	.LBB45_40
	b	.LBB45_83
.LBB45_26:
	ldrb	w0, [x26, #80]
	sub	x2, x9, #1
	bl	"sq_feed::signs::line_sign"
	cmp	w21, #1
	b.hi	.LBB45_99
	ldr	x22, [x20, #16448]
	mov	w24, w0
	mov	w23, w1
	b	.LBB45_85
.LBB45_28:
	cbnz	x27, .LBB45_82
	cmp	x9, #3
	b.le	.LBB45_41
	cmp	x9, #4
	b.eq	.LBB45_57
	cmp	x9, #5
	b.eq	.LBB45_67
	cmp	x9, #262
	b.ne	.LBB45_82
	add	x0, x1, #257
	mov	w9, #29557
	ldr	w8, [x0]
	movk	w9, #24948, lsl #16
	cmp	w8, w9
	b.ne	.LBB45_82
	adrp	x2, .Lstatic.66
	add	x2, x2, :lo12:.Lstatic.66
	mov	w1, #5
	bl	"core::cmp::slices::groups_equal::<i8,31'core::cmp::numbers::U8PartialEq{}>"
	tbz	w0, #0, .LBB45_82
	mov	w23, #1
	mov	w24, #2
	b	.LBB45_83
.LBB45_36:
	cmp	w8, #2
	b.eq	.LBB45_12
	b	.LBB45_13
.LBB45_37:
	cmp	w10, #37
	b.eq	.LBB45_40
	cmp	w10, #42
	mov	w23, w24
	b.ne	.LBB45_83
.LBB45_39:
	sub	x10, x8, #1
	cmp	x10, #42
	b.ls	.LBB45_48
	b	.LBB45_82
.LBB45_40:
	mov	w9, #1
	sub	x10, x8, #1
	cmp	x10, #42
	b.ls	.LBB45_48
	b	.LBB45_82
.LBB45_41:
	cmp	x9, #2
	b.eq	.LBB45_69
	cmp	x9, #3
	b.ne	.LBB45_82
	ldrb	w8, [x1]
	cmp	w8, #31
	b.eq	.LBB45_76
	cmp	w8, #66
	b.ne	.LBB45_82
	ldrb	w8, [x1, #1]
	cmp	w8, #90
	b.ne	.LBB45_82
	ldrb	w8, [x1, #2]
	cmp	w8, #104
	b.ne	.LBB45_82
	b	.LBB45_78
.LBB45_47:
	mov	w9, #2
	sub	x10, x8, #1
	cmp	x10, #42
	b.hi	.LBB45_82
.LBB45_48:
	cbz	x10, .LBB45_56
	add	x11, x1, #1
	b	.LBB45_51
.LBB45_50:
	subs	x10, x10, #1
	b.eq	.LBB45_56
.LBB45_51:
	ldrb	w12, [x11], #1
	cmp	w12, #48
	b.lo	.LBB45_82
	cmp	w12, #58
	b.lo	.LBB45_50
	cmp	w12, #65
	b.lo	.LBB45_82
	cmp	w12, #71
	b.lo	.LBB45_50
	sub	w12, w12, #97
	cmp	w12, #5
	b.ls	.LBB45_50
	b	.LBB45_82
.LBB45_56:
	adrp	x10, ".Lswitch.table.sq_feed::reader::Reader::find"
	add	x10, x10, :lo12:".Lswitch.table.sq_feed::reader::Reader::find"
	ldr	x9, [x10, x9, lsl #3]
	add	x10, x9, #5
	cmp	x8, x10
	add	x10, x9, #15
	add	x9, x9, #29
	ccmp	x8, x10, #4, ne
	ccmp	x8, x9, #4, ne
	cset	w24, eq
	mov	w23, w24
	b	.LBB45_83
.LBB45_57:
	ldrb	w23, [x1]
	ldrb	w10, [x1, #1]
	ldrb	w24, [x1, #2]
	ldrb	w8, [x1, #3]
	cmp	w23, #40
	b.ne	.LBB45_62
	cmp	w10, #181
	b.ne	.LBB45_62
	cmp	w24, #47
	b.ne	.LBB45_62
	cmp	w8, #253
	b.ne	.LBB45_62
	stp	w10, w8, [sp, #8]
	ldr	x8, [sp, #32]
	adrp	x2, .Lstatic.61
	add	x2, x2, :lo12:.Lstatic.61
	mov	w1, #4
	add	x0, x8, x27
	bl	"core::cmp::slices::groups_equal::<i8,31'core::cmp::numbers::U8PartialEq{}>"
	ldp	w10, w8, [sp, #8]
	tbnz	w0, #0, .LBB45_78
.LBB45_62:
	cmp	w23, #80
	b.ne	.LBB45_72
	cmp	w10, #75
	b.ne	.LBB45_72
	cmp	w24, #3
	b.ne	.LBB45_72
	cmp	w8, #4
	b.ne	.LBB45_72
	ldr	x8, [sp, #32]
	adrp	x2, .Lstatic.62
	add	x2, x2, :lo12:.Lstatic.62
	mov	w1, #4
	add	x0, x8, x27
	bl	"core::cmp::slices::groups_equal::<i8,31'core::cmp::numbers::U8PartialEq{}>"
	tbz	w0, #0, .LBB45_82
	b	.LBB45_78
.LBB45_67:
	ldr	w8, [x1]
	mov	w9, #14333
	movk	w9, #22650, lsl #16
	cmp	w8, w9
	b.ne	.LBB45_82
	ldr	x8, [sp, #32]
	adrp	x2, .Lstatic.60
	add	x2, x2, :lo12:.Lstatic.60
	mov	w1, #5
	add	x0, x8, x27
	bl	"core::cmp::slices::groups_equal::<i8,31'core::cmp::numbers::U8PartialEq{}>"
	tbz	w0, #0, .LBB45_82
	b	.LBB45_78
.LBB45_69:
	ldrb	w8, [x1]
	cmp	w8, #26
	b.ne	.LBB45_82
	ldrb	w8, [x1, #1]
	mov	w23, wzr
	mov	w24, #1
	sub	w9, w8, #49
	cmp	w9, #4
	b.lo	.LBB45_83
	cmp	w8, #227
	b.ne	.LBB45_82
	b	.LBB45_83
.LBB45_72:
	cmp	w23, #254
	b.eq	.LBB45_79
	cmp	w23, #255
	b.ne	.LBB45_82
	cmp	w10, #254
	b.ne	.LBB45_82
	cbz	w8, .LBB45_81
	b	.LBB45_82
.LBB45_76:
	ldrb	w8, [x1, #1]
	cmp	w8, #139
	b.ne	.LBB45_82
	ldrb	w8, [x1, #2]
	cmp	w8, #8
	b.ne	.LBB45_82
.LBB45_78:
	mov	w24, #2
	mov	w23, #2
	b	.LBB45_83
.LBB45_79:
	cmp	w10, #255
	b.ne	.LBB45_82
	cbnz	w24, .LBB45_82
.LBB45_81:
	mov	w23, #3
	mov	w24, #2
	b	.LBB45_83
.LBB45_82:
	mov	w24, wzr
	mov	w23, wzr
.LBB45_83:
	cmp	w21, #1
	b.hi	.LBB45_99
	cmp	w28, #10
	b.ne	.LBB45_89
.LBB45_85:
	ldrb	w8, [x26, #80]
	tbz	w8, #0, .LBB45_87
	mov	w0, #1
	b	.LBB45_88
.LBB45_87:
	ldr	x8, [x20, #16456]
	ldr	x10, [sp, #32]
	mvn	x9, x8
	add	x0, x10, x8
	add	x1, x22, x9
	bl	"sq_feed::signs::is_framed_line"
.LBB45_88:
	mov	x27, x22
	strb	w0, [x26, #80]
	str	x22, [x20, #16456]
.LBB45_89:
	ldrb	w10, [x26, #81]
	and	w21, w24, #0xff
	ldrb	w11, [x26, #82]
	cmp	w21, #2
	mov	w9, wzr
	mov	w8, wzr
	cset	w12, eq
	csel	w13, w23, wzr, eq
	cmp	w10, #1
	csinc	w10, w12, wzr, ne
	csel	w11, w11, w13, eq
	cmp	x22, #4, lsl #12
	strb	w10, [x26, #81]
	strb	w11, [x26, #82]
	b.ne	.LBB45_93
	mov	w8, #16384
	mov	w0, #1
	mov	w22, #1
	sub	x2, x8, x27
	ldr	x8, [sp, #32]
	add	x1, x8, x27
	bl	"sq_feed::signs::line_sign"
	ldrb	w9, [x26, #80]
	mov	w8, #1
	tbnz	w9, #0, .LBB45_92
	ldrb	w8, [x26, #81]
	and	w9, w0, #0xff
	ldrb	w10, [x26, #82]
	cmp	w9, #2
	mov	w9, #11
	mov	w22, #2
	csel	w9, w1, w9, eq
	cmp	w8, #1
	csel	w8, w10, w9, eq
.LBB45_92:
	and	w9, w0, #0xff
	cmp	w9, #1
	csinc	w9, w22, wzr, ne
	csel	w8, w1, w8, eq
.LBB45_93:
	cmp	w21, #1
	b.eq	.LBB45_100
	cbnz	w9, .LBB45_97
	ldr	x21, [sp, #16]
	add	x25, x25, #1
	cmp	x25, x21
	b.ne	.LBB45_2
.LBB45_96:
	mov	w8, wzr
	mov	w9, wzr
	mov	x10, xzr
	stur	xzr, [sp, #46]
	str	xzr, [sp, #40]
	b	.LBB45_103
.LBB45_97:
	cmp	w9, #1
	b.ne	.LBB45_101
	mov	w23, w8
	b	.LBB45_100
.LBB45_99:
	mov	w23, wzr
.LBB45_100:
	movi	v0.2d, #0000000000000000
	mov	w9, #16481
	and	w10, w23, #0xff
	add	x9, x20, x9
	mov	w8, #2
	cmp	w10, #2
	strh	w8, [x20, #2]
	cset	w10, eq
	csel	x8, x8, xzr, eq
	mov	w1, wzr
	mov	w2, #528
	strb	w23, [x26, #96]
	str	q0, [x20, #16592]
	add	x21, x25, #1
	stp	q0, q0, [x9]
	stp	q0, q0, [x9, #32]
	stp	q0, q0, [x9, #64]
	str	q0, [x9, #96]
	mov	w9, #16632
	add	x0, x20, x9
	str	x10, [x20, #16608]
	str	xzr, [x20, #16616]
	str	x8, [x20, #16624]
	bl	memset
	mov	w8, wzr
	mov	w9, wzr
	mov	x10, xzr
	str	xzr, [x20, #16472]
	b	.LBB45_102
.LBB45_101:
	mov	w9, #5
	add	x21, x25, #1
	mov	w10, #1
	strh	w9, [x20, #2]
	mov	w9, #3
.LBB45_102:
	str	xzr, [sp, #40]
	stur	xzr, [sp, #46]
.LBB45_103:
	strb	w9, [x19, #16]
	ldur	x9, [sp, #46]
	strb	w8, [x19, #17]
	ldr	x8, [sp, #40]
	stp	x21, x10, [x19]
	ldp	x22, x21, [sp, #192]
	stur	xzr, [x19, #26]
	ldp	x24, x23, [sp, #176]
	stur	xzr, [x19, #18]
	ldp	x26, x25, [sp, #160]
	stur	xzr, [x19, #33]
	ldp	x28, x27, [sp, #144]
	stur	x8, [x19, #41]
	ldp	x29, x30, [sp, #128]
	stur	x9, [x19, #47]
	strb	wzr, [x19, #55]
	ldp	x20, x19, [sp, #208]
	add	sp, sp, #224
	ret
.Lfunc_end45:
	.size	"sq_feed::reader::Reader::find", .Lfunc_end45-"sq_feed::reader::Reader::find"

	.section	".text.sq_feed::reader::Reader::replay","ax",@progbits
	.p2align	2
	.type	"sq_feed::reader::Reader::replay",@function
"sq_feed::reader::Reader::replay":
	sub	sp, sp, #80
	movi	v0.2d, #0000000000000000
	ldr	x8, [x1, #16472]
	ldr	x9, [x1, #16448]
	str	x19, [sp, #64]
	mov	x19, x0
	cmp	x8, x9
	stp	x29, x30, [sp, #48]
	add	x29, sp, #48
	stp	q0, q0, [sp, #16]
	str	q0, [sp]
	b.ne	.LBB46_2
	mov	w14, #1
	mov	x8, xzr
	mov	w9, wzr
	mov	w10, wzr
	mov	x11, xzr
	mov	x12, xzr
	mov	w13, wzr
	strh	w14, [x1, #2]
	stur	xzr, [x19, #39]
	stur	xzr, [x19, #33]
	b	.LBB46_3
.LBB46_2:
	mov	x0, sp
	bl	"sq_feed::reader::Reader::read_held"
	ldrb	w8, [sp]
	ldrb	w9, [sp, #8]
	ldur	x14, [sp, #33]
	ldrb	w10, [sp, #9]
	ldrb	w11, [sp, #16]
	ldur	x15, [sp, #39]
	ldr	x12, [sp, #24]
	ldrb	w13, [sp, #32]
	stur	x14, [x19, #33]
	stur	x15, [x19, #39]
.LBB46_3:
	ldp	x29, x30, [sp, #48]
	str	x8, [x19]
	strb	w9, [x19, #8]
	strb	w10, [x19, #9]
	stp	x11, x12, [x19, #16]
	strb	w13, [x19, #32]
	ldr	x19, [sp, #64]
	add	sp, sp, #80
	ret
.Lfunc_end46:
	.size	"sq_feed::reader::Reader::replay", .Lfunc_end46-"sq_feed::reader::Reader::replay"

	.section	".text.sq_feed::reader::Reader::read_held","ax",@progbits
	.p2align	2
	.type	"sq_feed::reader::Reader::read_held",@function
"sq_feed::reader::Reader::read_held":
	sub	sp, sp, #112
	movi	v0.2d, #0000000000000000
	mov	w8, #16480
	ldr	x10, [x1, #16472]
	ldrb	w9, [x1, x8]
	ldr	x11, [x1, #16448]
	stp	x20, x19, [sp, #96]
	mov	x20, x1
	mov	x19, x0
	add	x8, x1, x10
	cmp	w9, #1
	sub	x3, x11, x10
	stp	x29, x30, [sp, #80]
	add	x29, sp, #80
	str	xzr, [sp, #64]
	stp	q0, q0, [sp, #32]
	str	q0, [sp, #16]
	b.gt	.LBB47_3
	cbnz	w9, .LBB47_4
	mov	w9, #16488
	add	x0, sp, #16
	add	x2, x8, #64
	add	x1, x20, x9
	bl	"sq_feed::beast::Beast::take"
	b	.LBB47_5
.LBB47_3:
	cmp	w9, #2
	mov	w9, #16608
	add	x0, sp, #16
	add	x1, x20, x9
	add	x2, x8, #64
	bl	"sq_feed::rows::Rows::take"
	b	.LBB47_5
.LBB47_4:
	mov	w9, #16536
	add	x0, sp, #16
	add	x2, x8, #64
	add	x1, x20, x9
	bl	"sq_feed::avr::Avr::take"
.LBB47_5:
	ldur	x8, [sp, #57]
	ldr	x9, [sp, #16]
	ldr	x11, [x20, #16472]
	ldur	x10, [sp, #63]
	ldp	x29, x30, [sp, #80]
	add	x9, x11, x9
	str	x8, [sp]
	ldrb	w8, [sp, #24]
	stur	x10, [sp, #6]
	ldrh	w10, [sp, #32]
	str	x9, [x20, #16472]
	ldrb	w9, [sp, #40]
	str	x8, [x19]
	ldr	x8, [sp, #48]
	strh	w10, [x19, #8]
	ldrb	w10, [sp, #56]
	stp	x9, x8, [x19, #16]
	ldr	x8, [sp]
	ldur	x9, [sp, #6]
	strb	w10, [x19, #32]
	stur	x8, [x19, #33]
	stur	x9, [x19, #39]
	ldp	x20, x19, [sp, #96]
	add	sp, sp, #112
	ret
.Lfunc_end47:
	.size	"sq_feed::reader::Reader::read_held", .Lfunc_end47-"sq_feed::reader::Reader::read_held"

	.section	".text.sq_feed::reader::Reader::end","ax",@progbits
	.p2align	2
	.type	"sq_feed::reader::Reader::end",@function
"sq_feed::reader::Reader::end":
	stp	x29, x30, [sp, #-96]!
	sub	x9, sp, #7, lsl #12
	stp	x28, x27, [sp, #16]
	mov	x29, sp
	sub	x9, x9, #2048
	stp	x26, x25, [sp, #32]
	stp	x24, x23, [sp, #48]
	stp	x22, x21, [sp, #64]
	stp	x20, x19, [sp, #80]
.LBB48_1:
	sub	sp, sp, #3072
	cmp	sp, x9
	str	xzr, [sp]
	b.ne	.LBB48_1
	sub	sp, sp, #2992
	str	xzr, [sp]
	movi	v0.2d, #0000000000000000
	mov	x20, x1
	ldr	x8, [x1, #16472]
	ldr	x9, [x1, #16448]
	mov	x19, x0
	cmp	x8, x9
	stp	q0, q0, [sp, #48]
	str	q0, [sp, #32]
	b.hs	.LBB48_4
	add	x0, sp, #32
	mov	x1, x20
	bl	"sq_feed::reader::Reader::read_held"
	ldrb	w8, [sp, #32]
	ldrh	w9, [sp, #40]
	ldrb	w10, [sp, #48]
	str	x8, [x19]
	ldr	x8, [sp, #56]
	strh	w9, [x19, #8]
	ldrb	w9, [sp, #64]
	stp	x10, x8, [x19, #16]
	ldur	x8, [sp, #65]
	strb	w9, [x19, #32]
	ldur	x9, [sp, #71]
	b	.LBB48_25
.LBB48_4:
	add	x9, x20, #4, lsl #12
	add	x26, sp, #4, lsl #12
	sub	x21, x29, #80
	ldrb	w8, [x9, #96]
	add	x26, x26, #704
	cmp	w8, #1
	b.gt	.LBB48_8
	cbnz	w8, .LBB48_10
	ldrb	w8, [x9, #104]
	cmp	w8, #1
	b.ne	.LBB48_14
	ldrb	w8, [x9, #105]
	mov	w10, #1
	movk	w10, #258, lsl #16
	lsl	w9, w8, #3
	lsr	w12, w10, w9
	adrp	x9, ".Lswitch.table.sq_feed::reader::Reader::end"
	add	x9, x9, :lo12:".Lswitch.table.sq_feed::reader::Reader::end"
	ldr	x8, [x9, x8, lsl #3]
	str	x8, [sp]
	b	.LBB48_15
.LBB48_8:
	cmp	w8, #2
	ldrb	w8, [x9, #768]
	str	xzr, [sp, #88]
	stur	xzr, [sp, #94]
	cmp	w8, #1
	str	q0, [sp, #17232]
	str	q0, [sp, #17248]
	str	q0, [sp, #17264]
	b.ne	.LBB48_12
	mov	x11, xzr
	mov	w13, wzr
	mov	w14, wzr
	mov	w8, wzr
	mov	w12, #1
	stur	xzr, [x21, #6]
	str	xzr, [x21]
	b	.LBB48_13
.LBB48_10:
	add	x1, x20, #4, lsl #12
	ldrb	w8, [x1, #152]!
	cmp	w8, #1
	b.ne	.LBB48_16
	mov	w9, #1
	mov	w14, wzr
	mov	w8, wzr
	mov	x11, xzr
	mov	w13, wzr
	stur	xzr, [sp, #94]
	str	xzr, [sp, #88]
	mov	w12, #1
	str	x9, [sp]
	b	.LBB48_21
.LBB48_12:
	ldrb	w8, [x9, #224]
	mov	w9, #16616
	ldr	x3, [x20, #17144]
	ldr	q0, [x20, x9]
	add	x0, sp, #4, lsl #12
	add	x1, sp, #104
	str	x8, [sp, #104]
	mov	w8, #16632
	add	x0, x0, #848
	add	x2, x20, x8
	stur	q0, [sp, #112]
	bl	"sq_feed::rows::row_read"
	ldrb	w8, [x26, #144]
	ldr	x11, [sp, #17256]
	ldrb	w13, [x26, #176]
	ldur	x9, [x26, #177]
	ldrb	w12, [x26, #152]
	ldur	x10, [x26, #183]
	cmp	w8, #2
	ldrb	w14, [x26, #153]
	ldrb	w8, [x26, #160]
	str	x9, [x21]
	stur	x10, [x21, #6]
	b.ne	.LBB48_19
.LBB48_13:
	ldr	x9, [x21]
	ldur	x10, [x21, #6]
	str	x9, [sp, #88]
	mov	w9, #1
	stur	x10, [sp, #94]
	str	x9, [sp]
	b	.LBB48_21
.LBB48_14:
	mov	w12, wzr
	str	xzr, [sp]
.LBB48_15:
	mov	w14, wzr
	mov	w8, wzr
	mov	x11, xzr
	mov	w13, wzr
	stur	xzr, [sp, #94]
	str	xzr, [sp, #88]
	b	.LBB48_21
.LBB48_16:
	ldrb	w8, [x9, #216]
	str	xzr, [sp, #88]
	stur	xzr, [sp, #94]
	str	q0, [sp, #17232]
	str	q0, [sp, #17248]
	str	xzr, [sp, #17264]
	tbnz	w8, #0, .LBB48_18
	ldr	x8, [x20, #16592]
	cbz	x8, .LBB48_26
.LBB48_18:
	add	x0, sp, #4, lsl #12
	mov	w2, wzr
	add	x0, x0, #848
	bl	"sq_feed::avr::Avr::item_of"
	ldur	x9, [x26, #169]
	ldur	x10, [x26, #175]
	ldrb	w12, [x26, #144]
	ldrb	w14, [x26, #145]
	ldrb	w8, [x26, #152]
	ldr	x11, [sp, #17248]
	ldrb	w13, [x26, #168]
	str	x9, [sp, #88]
	mov	w9, #1
	str	x9, [sp]
	stur	x10, [sp, #94]
	b	.LBB48_21
.LBB48_19:
	mov	w12, wzr
	mov	w14, wzr
	mov	w8, wzr
	str	xzr, [sp]
.LBB48_20:
	mov	x11, xzr
	mov	w13, wzr
.LBB48_21:
	movi	v0.2d, #0000000000000000
	ldrb	w25, [x20]
	ldrb	w28, [x20, #1]
	add	x24, sp, #4, lsl #12
	mov	w23, w8
	stp	w14, w13, [sp, #12]
	cmp	w25, #1
	add	x24, x24, #112
	str	w12, [sp, #20]
	str	x11, [sp, #24]
	stp	q0, q0, [x29, #-80]
	stur	q0, [x29, #-48]
	stur	xzr, [x21, #45]
	b.ne	.LBB48_23
	add	x0, sp, #4, lsl #12
	strb	wzr, [x21, #52]
	cmp	w28, #2
	stur	q0, [x21, #36]
	mov	w8, #2
	sub	x22, x29, #80
	stur	q0, [x21, #20]
	add	x21, sp, #4, lsl #12
	add	x0, x0, #848
	mov	w1, wzr
	mov	w2, #16391
	cset	w27, eq
	add	x21, x21, #704
	csel	x26, x8, xzr, eq
	stur	q0, [x22, #4]
	bl	memset
	movi	v0.2d, #0000000000000000
	add	x0, sp, #4, lsl #12
	mov	w1, wzr
	add	x0, x0, #176
	mov	w2, #528
	str	xzr, [sp, #17224]
	str	xzr, [sp, #17216]
	str	q0, [sp, #17152]
	str	q0, [sp, #17168]
	str	q0, [sp, #17184]
	stur	q0, [x21, #105]
	str	q0, [sp, #17088]
	str	q0, [sp, #17104]
	str	q0, [sp, #17120]
	stur	q0, [x21, #46]
	bl	memset
	b	.LBB48_24
.LBB48_23:
	add	x0, sp, #4, lsl #12
	mov	w1, wzr
	mov	w2, #16391
	add	x0, x0, #848
	strb	wzr, [x21, #52]
	stur	q0, [x21, #36]
	stur	q0, [x21, #20]
	stur	q0, [x21, #4]
	bl	memset
	movi	v0.2d, #0000000000000000
	add	x0, sp, #4, lsl #12
	mov	w1, wzr
	add	x0, x0, #176
	mov	w2, #528
	str	xzr, [sp, #17224]
	str	xzr, [sp, #17216]
	str	q0, [sp, #17152]
	str	q0, [sp, #17168]
	str	q0, [sp, #17184]
	stur	q0, [x26, #105]
	str	q0, [sp, #17088]
	str	q0, [sp, #17104]
	str	q0, [sp, #17120]
	stur	q0, [x26, #46]
	bl	memset
	add	x21, sp, #4, lsl #12
	mov	x27, xzr
	sub	x22, x29, #80
	add	x21, x21, #704
	mov	x26, xzr
	mov	w28, #3
.LBB48_24:
	ldp	q0, q1, [x29, #-80]
	add	x1, sp, #4, lsl #12
	ldur	q2, [x29, #-48]
	ldur	x8, [x22, #45]
	add	x0, sp, #104
	add	x1, x1, #848
	mov	w2, #16391
	str	q0, [sp, #16496]
	str	q1, [sp, #16512]
	str	q2, [sp, #16528]
	stur	x8, [x24, #45]
	bl	memcpy
	ldr	q0, [sp, #16496]
	ldr	q1, [sp, #16512]
	add	x0, x20, #65
	ldr	q2, [sp, #16528]
	ldur	x8, [x24, #45]
	add	x1, sp, #104
	mov	w2, #16391
	strb	w25, [x20, #2]
	strb	wzr, [x20, #3]
	stur	q0, [x20, #4]
	stur	q1, [x20, #20]
	stur	q2, [x20, #36]
	stur	x8, [x20, #49]
	stur	xzr, [x20, #57]
	bl	memcpy
	ldr	q0, [sp, #17216]
	mov	w8, #16456
	ldr	q1, [sp, #17168]
	str	q0, [x20, x8]
	mov	w8, #16481
	ldr	q0, [sp, #17152]
	add	x8, x20, x8
	add	x9, x20, #4, lsl #12
	ldr	q2, [sp, #17184]
	stp	q0, q1, [x8]
	ldur	q0, [x21, #105]
	ldur	q1, [x21, #46]
	strb	w28, [x9, #96]
	mov	w9, #16538
	add	x1, sp, #4, lsl #12
	str	q2, [x8, #32]
	add	x1, x1, #176
	mov	w2, #528
	stur	q0, [x8, #41]
	add	x8, x20, x9
	ldr	q0, [sp, #17120]
	stur	q1, [x8, #46]
	ldr	q1, [sp, #17104]
	str	xzr, [x20, #16472]
	stp	q1, q0, [x8, #16]
	ldr	q0, [sp, #17088]
	str	xzr, [x20, #16600]
	str	q0, [x8]
	mov	w8, #16632
	add	x0, x20, x8
	str	x27, [x20, #16608]
	str	xzr, [x20, #16616]
	str	x26, [x20, #16624]
	bl	memcpy
	ldr	x8, [sp]
	str	x8, [x19]
	ldp	w9, w8, [sp, #16]
	strb	w8, [x19, #8]
	ldr	w8, [sp, #12]
	strb	w9, [x19, #32]
	ldur	x9, [sp, #94]
	strb	w8, [x19, #9]
	ldr	x8, [sp, #24]
	stp	x23, x8, [x19, #16]
	ldr	x8, [sp, #88]
.LBB48_25:
	stur	x8, [x19, #33]
	stur	x9, [x19, #39]
	add	sp, sp, #8, lsl #12
	add	sp, sp, #944
	ldp	x20, x19, [sp, #80]
	ldp	x22, x21, [sp, #64]
	ldp	x24, x23, [sp, #48]
	ldp	x26, x25, [sp, #32]
	ldp	x28, x27, [sp, #16]
	ldp	x29, x30, [sp], #96
	ret
.LBB48_26:
	str	xzr, [sp]
	mov	w12, wzr
	mov	w14, wzr
	b	.LBB48_20
.Lfunc_end48:
	.size	"sq_feed::reader::Reader::end", .Lfunc_end48-"sq_feed::reader::Reader::end"

	.section	.rodata.cst16,"aM",@progbits,16
	.p2align	4, 0x0
.LCPI49_0:
	.byte	1
	.byte	2
	.byte	4
	.byte	8
	.byte	16
	.byte	32
	.byte	64
	.byte	128
	.byte	1
	.byte	2
	.byte	4
	.byte	8
	.byte	16
	.byte	32
	.byte	64
	.byte	128
	.section	.rodata.cst8,"aM",@progbits,8
	.p2align	3, 0x0
.LCPI49_1:
	.byte	255
	.byte	255
	.byte	255
	.byte	255
	.byte	0
	.byte	2
	.byte	4
	.byte	6
.LCPI49_2:
	.byte	255
	.byte	255
	.byte	0
	.byte	1
	.byte	255
	.byte	255
	.byte	255
	.byte	255
	.section	".text.squitter_c::feed_text::take_by","ax",@progbits
	.p2align	2
	.type	"squitter_c::feed_text::take_by",@function
"squitter_c::feed_text::take_by":
	stp	x29, x30, [sp, #-96]!
	stp	x28, x27, [sp, #16]
	mov	x29, sp
	stp	x26, x25, [sp, #32]
	stp	x24, x23, [sp, #48]
	stp	x22, x21, [sp, #64]
	stp	x20, x19, [sp, #80]
	sub	sp, sp, #832
	str	x2, [sp, #120]
	mov	x23, x1
	mov	x24, x0
	add	x0, sp, #136
	mov	w1, wzr
	mov	w2, #520
	stp	x3, x5, [sp, #104]
	str	x4, [sp, #88]
	stp	xzr, xzr, [x29, #-176]
	stur	xzr, [x29, #-160]
	bl	memset
	sub	x9, x29, #96
	mov	w8, #17392
	mov	x25, xzr
	orr	x9, x9, #0x2
	add	x8, x24, x8
	str	xzr, [sp, #128]
	stp	x9, x8, [sp, #72]
.LBB49_1:
	ldr	x8, [sp, #120]
	subs	x2, x8, x25
	b.ne	.LBB49_4
	ldrb	w8, [x24, #2]
	sub	w8, w8, #2
	cmp	w8, #3
	b.lo	.LBB49_4
	ldr	x8, [x24, #17696]
	cbz	x8, .LBB49_327
.LBB49_4:
	ldr	x8, [sp, #112]
	ldr	x9, [sp, #128]
	ldr	x26, [sp, #648]
	sub	x8, x8, x9
	sub	x8, x8, x26
	cmp	x8, #50
	b.lo	.LBB49_328
	ldr	x8, [x24, #17696]
	cbnz	x8, .LBB49_29
	ldrb	w8, [x24, #2]
	add	x9, x23, x25
	cmp	w8, #1
	b.ne	.LBB49_128
	add	x27, x24, #4, lsl #12
	ldrb	w8, [x27, #96]
	cbz	w8, .LBB49_21
	stur	xzr, [x29, #-144]
	stur	wzr, [x29, #-136]
	cmp	w8, #1
	str	x27, [sp, #96]
	b.gt	.LBB49_45
.LBB49_9:
	cbz	w8, .LBB49_128
	ldr	x8, [sp, #96]
	ldrb	w8, [x8, #152]
	cmp	w8, #1
	b.eq	.LBB49_128
	ldr	x8, [sp, #96]
	ldrb	w8, [x8, #216]
	tbnz	w8, #0, .LBB49_128
	cbz	x2, .LBB49_128
	ldr	x8, [x24, #16592]
	cbnz	x8, .LBB49_128
	ldrb	w12, [x9]
	cmp	w12, #13
	b.eq	.LBB49_16
	cmp	w12, #10
	b.ne	.LBB49_30
.LBB49_16:
	cmp	x2, #1
	b.eq	.LBB49_128
	ldrb	w8, [x9, #1]
	cmp	w8, #13
	ccmp	w8, #10, #4, ne
	mov	w8, #1
	cinc	x10, x8, eq
	subs	x11, x2, x10
	b.eq	.LBB49_128
	add	x8, x9, x10
	ldrb	w12, [x8]
	cmp	w12, #57
	b.le	.LBB49_31
.LBB49_19:
	cmp	w12, #64
	b.eq	.LBB49_124
	cmp	w12, #58
	b.eq	.LBB49_33
	b	.LBB49_128
.LBB49_21:
	ldrb	w10, [x27, #104]
	cmp	w10, #1
	b.eq	.LBB49_128
	ldrb	w10, [x27, #144]
	tbnz	w10, #0, .LBB49_128
	cmp	x2, #2
	b.lo	.LBB49_44
	ldrb	w10, [x9]
	cmp	w10, #26
	b.ne	.LBB49_44
	ldrb	w10, [x9, #1]
	cmp	w10, #51
	b.eq	.LBB49_41
	cmp	w10, #50
	b.eq	.LBB49_37
	cmp	w10, #49
	b.ne	.LBB49_44
	mov	w10, #1
	mov	w11, #9
	add	x19, x11, #2
	cmp	x2, x19
	b.hs	.LBB49_38
	b	.LBB49_44
.LBB49_29:
	sub	x1, x29, #176
	mov	x0, x24
	bl	"sq_feed::feed::Feed::step_ready"
	b	.LBB49_130
.LBB49_30:
	mov	x10, xzr
	mov	x11, x2
	add	x8, x23, x25
	cmp	w12, #57
	b.gt	.LBB49_19
.LBB49_31:
	cmp	w12, #37
	b.eq	.LBB49_124
	cmp	w12, #42
	b.ne	.LBB49_128
.LBB49_33:
	cmp	x11, #30
	b.lo	.LBB49_128
	ldrb	w9, [x8, #29]
	cmp	w9, #59
	b.ne	.LBB49_128
	movi	v0.16b, #223
	ldur	q1, [x8, #1]
	movi	v2.16b, #198
	ldur	q4, [x8, #13]
	movi	v3.16b, #64
	movi	v6.16b, #6
	movi	v7.16b, #10
	movi	v16.16b, #191
	adrp	x8, .LCPI49_0
	movi	v17.16b, #16
	and	v5.16b, v1.16b, v0.16b
	and	v0.16b, v4.16b, v0.16b
	add	v1.16b, v1.16b, v2.16b
	add	v2.16b, v4.16b, v2.16b
	sub	v4.16b, v3.16b, v5.16b
	sub	v3.16b, v3.16b, v0.16b
	uqsub	v1.16b, v1.16b, v6.16b
	uqsub	v2.16b, v2.16b, v6.16b
	add	v5.16b, v5.16b, v16.16b
	add	v0.16b, v0.16b, v16.16b
	umin	v4.16b, v4.16b, v7.16b
	umin	v3.16b, v3.16b, v7.16b
	add	v1.16b, v1.16b, v17.16b
	add	v2.16b, v2.16b, v17.16b
	add	v4.16b, v5.16b, v4.16b
	add	v3.16b, v0.16b, v3.16b
	umin	v0.16b, v1.16b, v4.16b
	umin	v1.16b, v2.16b, v3.16b
	movi	v2.16b, #15
	orr	v3.16b, v1.16b, v0.16b
	cmhi	v2.16b, v3.16b, v2.16b
	ldr	q3, [x8, :lo12:.LCPI49_0]
	and	v2.16b, v2.16b, v3.16b
	addp	v2.16b, v2.16b, v2.16b
	addp	v2.16b, v2.16b, v2.16b
	addp	v2.16b, v2.16b, v2.16b
	umov	w8, v2.h[0]
	cbnz	w8, .LBB49_128
	xtn	v2.8b, v1.8h
	xtn	v3.8b, v0.8h
	mov	x1, xzr
	uzp2	v1.16b, v1.16b, v0.16b
	uzp2	v0.16b, v0.16b, v0.16b
	mov	w9, #30
	shl	v2.8b, v2.8b, #4
	shl	v3.8b, v3.8b, #4
	orr	v1.8b, v2.8b, v1.8b
	orr	v2.8b, v3.8b, v0.8b
	mov	b0, v1.b[2]
	umov	w20, v2.b[4]
	umov	w15, v2.b[5]
	umov	w16, v2.b[6]
	umov	w22, v2.b[7]
	zip2	v3.8b, v1.8b, v0.8b
	zip1	v7.8b, v2.8b, v0.8b
	mov	v0.b[4], v1.b[3]
	b	.LBB49_210
.LBB49_37:
	mov	w10, wzr
	mov	w11, #14
	add	x19, x11, #2
	cmp	x2, x19
	b.lo	.LBB49_44
.LBB49_38:
	add	x12, x9, #2
	mov	x13, x11
.LBB49_39:
	cbz	x13, .LBB49_142
	ldrb	w14, [x12], #1
	sub	x13, x13, #1
	cmp	w14, #26
	b.ne	.LBB49_39
	b	.LBB49_44
.LBB49_41:
	cmp	x2, #23
	b.lo	.LBB49_44
	movi	v2.16b, #26
	ldur	q1, [x9, #2]
	adrp	x10, .LCPI49_0
	ldr	q3, [x10, :lo12:.LCPI49_0]
	cmeq	v0.16b, v1.16b, v2.16b
	and	v0.16b, v0.16b, v3.16b
	addp	v0.16b, v0.16b, v0.16b
	addp	v0.16b, v0.16b, v0.16b
	addp	v0.16b, v0.16b, v0.16b
	umov	w10, v0.h[0]
	cbnz	w10, .LBB49_44
	ldur	q0, [x9, #7]
	cmeq	v2.16b, v0.16b, v2.16b
	and	v2.16b, v2.16b, v3.16b
	addp	v2.16b, v2.16b, v2.16b
	addp	v2.16b, v2.16b, v2.16b
	addp	v2.16b, v2.16b, v2.16b
	umov	w10, v2.h[0]
	cbz	w10, .LBB49_166
.LBB49_44:
	stur	wzr, [x29, #-112]
	stur	xzr, [x29, #-120]
	stur	xzr, [x29, #-144]
	stur	wzr, [x29, #-136]
	cmp	w8, #1
	str	x27, [sp, #96]
	b.le	.LBB49_9
.LBB49_45:
	cmp	w8, #3
	adrp	x8, .LCPI49_0
	b.ne	.LBB49_57
	movi	v0.2d, #0000000000000000
	ldrb	w10, [x27, #768]
	sub	x11, x29, #176
	stp	q0, q0, [x11, #80]
	str	q0, [x11, #112]
	tbnz	w10, #0, .LBB49_59
	ldr	x10, [x24, #17144]
	cbnz	x10, .LBB49_59
	cmp	x2, #512
	mov	w10, #512
	csel	x11, x2, x10, lo
	lsr	x10, x11, #4
	cbz	x10, .LBB49_52
	mov	x12, xzr
	add	x13, x23, x25
.LBB49_50:
	movi	v0.16b, #10
	ldr	q1, [x13], #16
	cmeq	v0.16b, v1.16b, v0.16b
	ldr	q1, [x8, :lo12:.LCPI49_0]
	and	v0.16b, v0.16b, v1.16b
	addp	v0.16b, v0.16b, v0.16b
	addp	v0.16b, v0.16b, v0.16b
	addp	v0.16b, v0.16b, v0.16b
	umov	w14, v0.h[0]
	orr	w14, w14, #0x10000
	rbit	w14, w14
	clz	w14, w14
	cmp	w14, #15
	b.ls	.LBB49_72
	sub	x10, x10, #1
	sub	x12, x12, #16
	cbnz	x10, .LBB49_50
.LBB49_52:
	cmp	x2, #15
	b.hi	.LBB49_71
	cbz	x2, .LBB49_59
	mov	x26, xzr
.LBB49_55:
	ldrb	w8, [x9, x26]
	cmp	w8, #10
	b.eq	.LBB49_73
	movi	v3.2d, #0000000000000000
	movi	v7.2d, #0000000000000000
	add	x26, x26, #1
	mov	w20, wzr
	mov	w15, wzr
	mov	w16, wzr
	mov	w22, wzr
	mov	w27, wzr
	mov	w21, wzr
	mov	w10, wzr
	mov	w8, wzr
	mov	x1, xzr
	mov	w19, wzr
	cmp	x11, x26
	mov	x28, xzr
	b.ne	.LBB49_55
	b	.LBB49_78
.LBB49_57:
	ldrb	w10, [x27, #768]
	tbnz	w10, #0, .LBB49_59
	ldr	x10, [x24, #17144]
	cbz	x10, .LBB49_60
.LBB49_59:
	mov	w20, wzr
	mov	w15, wzr
	mov	w16, wzr
	mov	w22, wzr
	mov	w27, wzr
	mov	w21, wzr
	mov	w8, wzr
	mov	x1, xzr
	mov	w19, wzr
	movi	v3.2d, #0000000000000000
	movi	v7.2d, #0000000000000000
	mov	x28, xzr
	b	.LBB49_128
.LBB49_60:
	ldrb	w10, [x27, #224]
	cmp	w10, #1
	b.ne	.LBB49_62
	mov	w10, #16616
	ldr	x10, [x24, x10]
	cbz	x10, .LBB49_111
.LBB49_62:
	movi	v0.2d, #0000000000000000
	cmp	x2, #512
	mov	w10, #512
	csel	x11, x2, x10, lo
	sub	x12, x29, #176
	lsr	x10, x11, #4
	stp	q0, q0, [x12, #80]
	str	q0, [x12, #112]
	cbz	x10, .LBB49_66
	mov	x12, xzr
	add	x13, x23, x25
.LBB49_64:
	movi	v0.16b, #10
	ldr	q1, [x13], #16
	cmeq	v0.16b, v1.16b, v0.16b
	ldr	q1, [x8, :lo12:.LCPI49_0]
	and	v0.16b, v0.16b, v1.16b
	addp	v0.16b, v0.16b, v0.16b
	addp	v0.16b, v0.16b, v0.16b
	addp	v0.16b, v0.16b, v0.16b
	umov	w14, v0.h[0]
	orr	w14, w14, #0x10000
	rbit	w14, w14
	clz	w14, w14
	cmp	w14, #15
	b.ls	.LBB49_72
	sub	x10, x10, #1
	sub	x12, x12, #16
	cbnz	x10, .LBB49_64
.LBB49_66:
	cmp	x2, #15
	b.hi	.LBB49_71
	cbz	x2, .LBB49_59
	mov	x26, xzr
.LBB49_69:
	ldrb	w8, [x9, x26]
	cmp	w8, #10
	b.eq	.LBB49_73
	movi	v3.2d, #0000000000000000
	movi	v7.2d, #0000000000000000
	add	x26, x26, #1
	mov	w20, wzr
	mov	w15, wzr
	mov	w16, wzr
	mov	w22, wzr
	mov	w27, wzr
	mov	w21, wzr
	mov	w10, wzr
	mov	w8, wzr
	mov	x1, xzr
	mov	w19, wzr
	cmp	x11, x26
	mov	x28, xzr
	b.ne	.LBB49_69
	b	.LBB49_78
.LBB49_71:
	movi	v0.16b, #10
	sub	x10, x11, #16
	ldr	q1, [x9, x10]
	cmeq	v0.16b, v1.16b, v0.16b
	ldr	q1, [x8, :lo12:.LCPI49_0]
	and	v0.16b, v0.16b, v1.16b
	addp	v0.16b, v0.16b, v0.16b
	addp	v0.16b, v0.16b, v0.16b
	addp	v0.16b, v0.16b, v0.16b
	umov	w8, v0.h[0]
	orr	w8, w8, #0x10000
	rbit	w8, w8
	clz	w8, w8
	add	x9, x10, x8
	cmp	w8, #16
	csel	x26, x9, x11, lo
	cmp	x11, x26
	b.hi	.LBB49_74
	b	.LBB49_59
.LBB49_72:
	sub	x26, x14, x12
	cmp	x11, x26
	b.hi	.LBB49_74
	b	.LBB49_59
.LBB49_73:
	add	x27, x24, #4, lsl #12
	cmp	x11, x26
	b.ls	.LBB49_59
.LBB49_74:
	ldrb	w8, [x27, #224]
	mov	w9, #16616
	str	x2, [sp, #48]
	ldr	q0, [x24, x9]
	sub	x0, x29, #96
	sub	x1, x29, #120
	stur	x8, [x29, #-120]
	sub	x8, x29, #120
	add	x2, x23, x25
	mov	x3, x26
	stur	q0, [x8, #8]
	bl	"sq_feed::rows::row_read"
	movi	v3.2d, #0000000000000000
	ldurb	w8, [x29, #-96]
	mov	x1, xzr
	mov	w20, wzr
	cmp	w8, #2
	b.ne	.LBB49_77
	movi	v7.2d, #0000000000000000
	ldurb	w9, [x29, #-88]
	ldr	x2, [sp, #48]
	mov	w15, w20
	mov	w16, w20
	mov	w22, w20
	mov	w27, w20
	mov	w21, w20
	mov	w10, w20
	mov	w8, w20
	mov	w19, w20
	mov	x28, x1
	cbnz	w9, .LBB49_78
	sub	x9, x29, #176
	ldurb	w8, [x29, #-80]
	ldur	x1, [x29, #-72]
	ldur	s0, [x9, #113]
	ldur	s1, [x9, #123]
	add	x28, x26, #1
	ldurb	w19, [x29, #-64]
	ldurb	w20, [x29, #-59]
	mov	w10, #1
	ushll	v7.8h, v0.8b, #0
	ushll	v3.8h, v1.8b, #0
	ldurb	w15, [x29, #-58]
	ldurb	w16, [x29, #-57]
	ldurb	w22, [x29, #-56]
	ldurb	w27, [x29, #-55]
	ldurb	w21, [x29, #-54]
	cbnz	w10, .LBB49_79
	b	.LBB49_128
.LBB49_77:
	ldr	x2, [sp, #48]
	movi	v7.2d, #0000000000000000
	mov	w15, w20
	mov	w16, w20
	mov	w22, w20
	mov	w27, w20
	mov	w21, w20
	mov	w10, w20
	mov	w8, w20
	mov	w19, w20
	mov	x28, x1
.LBB49_78:
	cbz	w10, .LBB49_128
.LBB49_79:
	cmp	w19, #2
	b.ne	.LBB49_87
	umov	w9, v7.h[0]
	and	w10, w9, #0xf8
	sxtb	w26, w9
	cmp	w10, #136
	b.ne	.LBB49_211
.LBB49_81:
	cbz	w8, .LBB49_150
	cmp	w8, #2
	b.ne	.LBB49_98
	ldr	x9, [sp, #96]
	ldrb	w9, [x9, #840]
	cmp	w9, #2
	b.ne	.LBB49_150
	ldr	x9, [sp, #96]
	ldrb	w9, [x9, #872]
	cbnz	w9, .LBB49_150
	ldr	x9, [x24, #17312]
	ldr	x10, [x24, #17208]
	adds	x9, x9, x1
	csinv	x9, x9, xzr, lo
	subs	x11, x10, x9
	b.ls	.LBB49_147
	ldr	x12, [x24, #17200]
	mov	w13, #1000
	cmp	x12, #1000
	csel	x12, x12, x13, hi
	cmp	x11, x12
	b.hi	.LBB49_150
	b	.LBB49_151
.LBB49_87:
	cbz	w19, .LBB49_97
	umov	w9, v7.h[0]
	sxtb	w26, w9
	tbnz	w26, #31, .LBB49_212
	ldr	x9, [sp, #96]
	cmp	w8, #1
	ldrb	w9, [x9, #945]
	b.ne	.LBB49_91
	mov	x10, #16724
	movk	x10, #19788, lsl #16
	movk	x10, #65280, lsl #32
	cmp	x1, x10
	b.eq	.LBB49_215
.LBB49_91:
	tbz	w9, #0, .LBB49_110
	mov	w9, wzr
	cmp	w8, #2
	stp	w16, w15, [sp, #28]
	str	q3, [sp]
	str	q7, [sp, #48]
	b.ne	.LBB49_218
.LBB49_93:
	ldr	x8, [sp, #96]
	stur	xzr, [x29, #-80]
	ldrb	w10, [x8, #840]
	cmp	w10, #2
	b.ne	.LBB49_155
	ldr	x8, [sp, #96]
	ldrb	w8, [x8, #872]
	cbnz	w8, .LBB49_155
	ldr	x8, [x24, #17312]
	ldr	x11, [x24, #17208]
	adds	x8, x8, x1
	csinv	x8, x8, xzr, lo
	subs	x12, x11, x8
	b.ls	.LBB49_134
	ldr	x13, [x24, #17200]
	mov	w14, #1000
	cmp	x13, #1000
	csel	x13, x13, x14, hi
	cmp	x12, x13
	b.ls	.LBB49_137
	b	.LBB49_155
.LBB49_97:
	mov	w10, wzr
	mov	w8, #2
	ldr	x9, [x24, #17336]
	cmn	x9, #1
	b.ne	.LBB49_226
	b	.LBB49_258
.LBB49_98:
	cbz	x1, .LBB49_150
	mov	x9, #16724
	movk	x9, #19788, lsl #16
	movk	x9, #65280, lsl #32
	cmp	x1, x9
	b.eq	.LBB49_150
	ldr	x9, [sp, #96]
	ldrb	w9, [x9, #801]
	tbnz	w9, #0, .LBB49_150
	ldr	x9, [sp, #96]
	ldrb	w9, [x9, #840]
	cmp	w9, #2
	b.ne	.LBB49_150
	ldr	x9, [sp, #96]
	ldrb	w9, [x9, #872]
	cbnz	w9, .LBB49_150
	ldr	x9, [sp, #96]
	ldrb	w9, [x9, #792]
	cmp	w9, #1
	b.ne	.LBB49_150
	ldr	x9, [x24, #17160]
	sub	x9, x1, x9
	ubfx	x10, x9, #47, #1
	cbnz	x10, .LBB49_150
	ldr	x10, [x24, #17168]
	and	x9, x9, #0xffffffffffff
	ldr	x11, [x24, #17312]
	adds	x9, x9, x10
	csinv	x10, x9, xzr, lo
	mov	x9, #10661
	movk	x9, #26389, lsl #16
	movk	x9, #15903, lsl #32
	movk	x9, #44739, lsl #48
	umulh	x9, x10, x9
	adds	x9, x11, x9, lsr #13
	ldr	x11, [x24, #17208]
	csinv	x9, x9, xzr, lo
	subs	x11, x9, x11
	b.lo	.LBB49_150
	ldr	x12, [x24, #17192]
	cmp	x11, x12
	b.hi	.LBB49_150
	ldr	x8, [x24, #17336]
	cmn	x8, #1
	b.eq	.LBB49_109
	ldr	x11, [x24, #17344]
	add	x8, x8, #1
	str	x8, [x24, #17336]
	add	x8, x11, #1
	str	x8, [x24, #17344]
.LBB49_109:
	and	x8, x1, #0xffffffffffff
	str	x10, [x24, #17168]
	str	x8, [x24, #17160]
	b	.LBB49_157
.LBB49_110:
	ubfx	w10, w26, #3, #5
	eor	w8, w9, #0x1
	ldr	x9, [x24, #17336]
	cmn	x9, #1
	b.ne	.LBB49_226
	b	.LBB49_258
.LBB49_111:
	cmp	x2, #73
	b.lo	.LBB49_62
	ldr	x10, [x24, #16624]
	cmp	x10, #2
	b.ne	.LBB49_62
	ldr	q0, [x9]
	umov	w10, v0.b[10]
	cmp	w10, #46
	b.ne	.LBB49_62
	movi	v1.16b, #198
	movi	v2.16b, #246
	add	v1.16b, v0.16b, v1.16b
	cmhi	v2.16b, v2.16b, v1.16b
	ldr	q1, [x8, :lo12:.LCPI49_0]
	and	v2.16b, v2.16b, v1.16b
	addp	v2.16b, v2.16b, v2.16b
	addp	v2.16b, v2.16b, v2.16b
	addp	v2.16b, v2.16b, v2.16b
	umov	w10, v2.h[0]
	and	w10, w10, #0x7ff
	cmp	w10, #1024
	b.ne	.LBB49_62
	movi	v2.16b, #198
	add	x0, x23, x25
	movi	v4.16b, #246
	ldr	q3, [x0, #11]!
	add	v2.16b, v3.16b, v2.16b
	cmhi	v2.16b, v4.16b, v2.16b
	and	v2.16b, v2.16b, v1.16b
	addp	v2.16b, v2.16b, v2.16b
	addp	v2.16b, v2.16b, v2.16b
	addp	v2.16b, v2.16b, v2.16b
	umov	w10, v2.h[0]
	cbz	w10, .LBB49_62
	umov	w10, v2.h[0]
	rbit	w10, w10
	clz	w26, w10
	add	x10, x0, x26
	ldrb	w11, [x10]
	cmp	w11, #44
	b.ne	.LBB49_62
	ldrb	w11, [x10, #1]!
	cmp	w11, #34
	b.eq	.LBB49_62
	movi	v2.16b, #44
	ldr	q3, [x10]
	cmeq	v2.16b, v3.16b, v2.16b
	and	v2.16b, v2.16b, v1.16b
	addp	v2.16b, v2.16b, v2.16b
	addp	v2.16b, v2.16b, v2.16b
	addp	v2.16b, v2.16b, v2.16b
	umov	w11, v2.h[0]
	cbz	w11, .LBB49_62
	movi	v4.16b, #10
	umov	w12, v2.h[0]
	cmeq	v3.16b, v3.16b, v4.16b
	rbit	w12, w12
	clz	w12, w12
	and	v3.16b, v3.16b, v1.16b
	addp	v3.16b, v3.16b, v3.16b
	addp	v3.16b, v3.16b, v3.16b
	addp	v3.16b, v3.16b, v3.16b
	umov	w11, v3.h[0]
	orr	w11, w11, #0x10000
	rbit	w11, w11
	clz	w11, w11
	cmp	w11, w12
	csel	w19, wzr, w12, lo
	b.lo	.LBB49_62
	add	x10, x10, x19
	ldrb	w11, [x10, #29]
	cmp	w11, #10
	b.eq	.LBB49_278
	cmp	w11, #13
	b.ne	.LBB49_62
	ldrb	w11, [x10, #30]
	cmp	w11, #10
	b.ne	.LBB49_62
	mov	w20, #2
	b	.LBB49_279
.LBB49_124:
	cmp	x11, #42
	b.lo	.LBB49_128
	ldrb	w9, [x8, #41]
	cmp	w9, #59
	b.ne	.LBB49_128
	movi	v1.16b, #223
	ldur	q0, [x8, #1]
	movi	v2.16b, #198
	ldur	q7, [x8, #17]
	movi	v3.16b, #64
	movi	v4.16b, #6
	movi	v5.16b, #10
	movi	v6.16b, #191
	adrp	x9, .LCPI49_0
	movi	v16.16b, #16
	and	v17.16b, v0.16b, v1.16b
	and	v18.16b, v7.16b, v1.16b
	add	v0.16b, v0.16b, v2.16b
	add	v7.16b, v7.16b, v2.16b
	sub	v19.16b, v3.16b, v17.16b
	sub	v20.16b, v3.16b, v18.16b
	uqsub	v0.16b, v0.16b, v4.16b
	uqsub	v7.16b, v7.16b, v4.16b
	add	v17.16b, v17.16b, v6.16b
	add	v18.16b, v18.16b, v6.16b
	umin	v19.16b, v19.16b, v5.16b
	umin	v20.16b, v20.16b, v5.16b
	add	v0.16b, v0.16b, v16.16b
	add	v17.16b, v17.16b, v19.16b
	add	v19.16b, v7.16b, v16.16b
	add	v18.16b, v18.16b, v20.16b
	umin	v7.16b, v0.16b, v17.16b
	umin	v0.16b, v19.16b, v18.16b
	movi	v17.16b, #15
	orr	v18.16b, v0.16b, v7.16b
	cmhi	v19.16b, v18.16b, v17.16b
	ldr	q18, [x9, :lo12:.LCPI49_0]
	and	v19.16b, v19.16b, v18.16b
	addp	v19.16b, v19.16b, v19.16b
	addp	v19.16b, v19.16b, v19.16b
	addp	v19.16b, v19.16b, v19.16b
	umov	w9, v19.h[0]
	cbnz	w9, .LBB49_128
	ldur	q19, [x8, #25]
	and	v1.16b, v19.16b, v1.16b
	add	v2.16b, v19.16b, v2.16b
	sub	v3.16b, v3.16b, v1.16b
	uqsub	v2.16b, v2.16b, v4.16b
	add	v1.16b, v1.16b, v6.16b
	umin	v3.16b, v3.16b, v5.16b
	add	v2.16b, v2.16b, v16.16b
	add	v1.16b, v1.16b, v3.16b
	umin	v1.16b, v2.16b, v1.16b
	cmhi	v2.16b, v1.16b, v17.16b
	and	v2.16b, v2.16b, v18.16b
	addp	v2.16b, v2.16b, v2.16b
	addp	v2.16b, v2.16b, v2.16b
	addp	v2.16b, v2.16b, v2.16b
	umov	w8, v2.h[0]
	cbz	w8, .LBB49_209
.LBB49_128:
	ldr	x3, [sp, #104]
	add	x1, x23, x25
	sub	x4, x29, #176
	mov	x0, x24
	bl	"sq_feed::feed::Feed::step_other"
	add	x25, x0, x25
	tbz	w1, #0, .LBB49_1
.LBB49_129:
	ldr	x26, [sp, #648]
.LBB49_130:
	add	x8, x26, #50
	cmp	x8, #512
	b.hi	.LBB49_133
	ldur	x1, [x29, #-176]
.LBB49_132:
	sub	x8, x29, #176
	add	x0, sp, #136
	add	x2, x8, #8
	bl	"sq_feed::lines::push_log_line::<=512>"
	b	.LBB49_1
.LBB49_133:
	ldr	x8, [sp, #88]
	ldr	x19, [sp, #128]
	add	x1, sp, #136
	mov	x2, x26
	add	x0, x8, x19
	bl	memcpy
	ldur	x1, [x29, #-176]
	add	x19, x26, x19
	str	xzr, [sp, #648]
	str	x19, [sp, #128]
	b	.LBB49_132
.LBB49_134:
	ldr	x12, [x24, #17192]
	sub	x13, x8, x11
	cmp	x13, x12
	b.ls	.LBB49_137
	ldr	x13, [sp, #96]
	ldrb	w13, [x13, #800]
	cmp	w13, #1
	b.ne	.LBB49_155
	ldr	x13, [x24, #17216]
	ldr	x14, [sp, #104]
	subs	x13, x14, x13
	csel	x13, xzr, x13, lo
	adds	x13, x13, x11
	csinv	x13, x13, xzr, lo
	subs	x13, x8, x13
	cneg	x13, x13, ls
	cmp	x13, x12
	b.hi	.LBB49_155
.LBB49_137:
	ldr	x9, [x24, #17336]
	cmn	x9, #1
	b.eq	.LBB49_139
	ldr	x10, [x24, #17344]
	add	x9, x9, #1
	str	x9, [x24, #17336]
	add	x9, x10, #1
	str	x9, [x24, #17344]
.LBB49_139:
	cmp	x11, x8
	b.ls	.LBB49_141
	ldr	x9, [x24, #17200]
	subs	x9, x11, x9
	csel	x9, xzr, x9, lo
	cmp	x9, x8
	csel	x8, x9, x8, hi
	mov	w9, #1
	and	w9, w9, #0xff
	cmp	w9, #1
	b.eq	.LBB49_247
	b	.LBB49_258
.LBB49_141:
	ldr	x9, [sp, #104]
	str	x8, [x24, #17208]
	str	x9, [x24, #17216]
	mov	w9, #1
	and	w9, w9, #0xff
	cmp	w9, #1
	b.eq	.LBB49_247
	b	.LBB49_258
.LBB49_142:
	ldrb	w8, [x9, #2]
	ldrb	w12, [x9, #3]
	ldr	w13, [x9, #4]
	stur	wzr, [x29, #-88]
	lsl	x8, x8, #16
	stur	xzr, [x29, #-96]
	orr	x8, x8, x12, lsl #24
	orr	x12, x8, x13, lsl #32
	sub	x8, x11, #7
	rev	x1, x12
	cbz	w10, .LBB49_145
	cmp	x8, #2
	b.ne	.LBB49_159
	ldurh	w8, [x9, #9]
	mov	w11, wzr
	mov	w12, #1
	mov	w19, #11
	lsr	w10, w8, #8
	b	.LBB49_167
.LBB49_145:
	cmp	x8, #7
	b.ne	.LBB49_160
	ldur	w10, [x9, #11]
	ldurh	w8, [x9, #9]
	ldrb	w9, [x9, #15]
	stur	w10, [x29, #-128]
	lsr	w10, w8, #8
	sturb	w9, [x29, #-124]
	b	.LBB49_161
.LBB49_147:
	ldr	x11, [x24, #17192]
	sub	x12, x9, x10
	cmp	x12, x11
	b.ls	.LBB49_151
	ldr	x12, [sp, #96]
	ldrb	w12, [x12, #800]
	cmp	w12, #1
	b.ne	.LBB49_150
	ldr	x12, [x24, #17216]
	ldr	x13, [sp, #104]
	subs	x12, x13, x12
	csel	x12, xzr, x12, lo
	adds	x12, x12, x10
	csinv	x12, x12, xzr, lo
	subs	x12, x9, x12
	cneg	x12, x12, ls
	cmp	x12, x11
	b.ls	.LBB49_151
.LBB49_150:
	ldr	x9, [sp, #96]
	mov	w10, #17
	ldrb	w9, [x9, #945]
	cmp	w8, #1
	b.eq	.LBB49_214
	b	.LBB49_216
.LBB49_151:
	ldr	x8, [x24, #17336]
	cmn	x8, #1
	b.eq	.LBB49_153
	ldr	x11, [x24, #17344]
	add	x8, x8, #1
	str	x8, [x24, #17336]
	add	x8, x11, #1
	str	x8, [x24, #17344]
.LBB49_153:
	cmp	x10, x9
	b.ls	.LBB49_157
	ldr	x8, [x24, #17200]
	subs	x8, x10, x8
	csel	x8, xzr, x8, lo
	cmp	x8, x9
	csel	x9, x8, x9, hi
	b	.LBB49_158
.LBB49_155:
	tbz	w9, #0, .LBB49_162
	mov	v0.16b, v3.16b
	umov	w8, v3.h[3]
	mov	w9, w22
	mov	w11, w27
	mov	v0.h[3], w21
	b	.LBB49_163
.LBB49_157:
	ldr	x8, [sp, #104]
	str	x9, [x24, #17208]
	str	x8, [x24, #17216]
.LBB49_158:
	mov	h0, v7.h[1]
	sub	x8, x29, #176
	mov	h1, v7.h[2]
	stur	x9, [x29, #-176]
	sturb	w26, [x29, #-168]
	sturb	w20, [x29, #-164]
	stur	b0, [x8, #9]
	mov	h0, v7.h[3]
	stur	b1, [x8, #10]
	sturb	w15, [x29, #-163]
	sturb	w16, [x29, #-162]
	stur	b0, [x8, #11]
	uzp1	v0.8b, v3.8b, v0.8b
	sturb	w22, [x29, #-161]
	sturb	w27, [x29, #-160]
	sturb	w21, [x29, #-159]
	stur	s0, [x8, #18]
	sturh	wzr, [x29, #-154]
	b	.LBB49_260
.LBB49_159:
	mov	w11, wzr
	mov	w8, wzr
	mov	w10, wzr
	mov	w12, #1
	b	.LBB49_167
.LBB49_160:
	mov	w8, wzr
	mov	w10, wzr
	sturb	wzr, [x29, #-124]
	stur	wzr, [x29, #-128]
.LBB49_161:
	ldur	w9, [x29, #-128]
	ldurb	w13, [x29, #-124]
	mov	w11, wzr
	mov	w12, wzr
	stur	w9, [x29, #-96]
	sturb	w13, [x29, #-92]
	b	.LBB49_167
.LBB49_162:
	movi	v0.2d, #0000000000000000
	mov	w9, wzr
	mov	w11, wzr
	mov	w8, wzr
.LBB49_163:
	cbnz	w10, .LBB49_165
	ldr	x12, [sp, #96]
	mov	w10, #1
	strb	w10, [x12, #944]
.LBB49_165:
	mov	h1, v7.h[1]
	ext	v0.8b, v0.8b, v0.8b, #6
	sub	x10, x29, #176
	mov	h2, v7.h[2]
	sturb	w9, [x29, #-81]
	mov	w9, #17160
	ldr	x2, [sp, #104]
	stur	x1, [x29, #-96]
	add	x0, x24, x9
	sub	x1, x29, #96
	sturb	w26, [x29, #-88]
	stur	b1, [x10, #89]
	mov	h1, v7.h[3]
	uzp1	v0.8b, v0.8b, v0.8b
	stur	b2, [x10, #90]
	sturb	w20, [x29, #-84]
	sturb	w15, [x29, #-83]
	stur	b1, [x10, #91]
	stur	s0, [x10, #97]
	mov	w10, #17600
	add	x3, x24, x10
	sturb	w16, [x29, #-82]
	sturb	w11, [x29, #-80]
	sturb	w8, [x29, #-75]
	bl	"sq_feed::ear::Ear::hear_jump"
	b	.LBB49_257
.LBB49_166:
	umov	w8, v1.b[1]
	fmov	x10, d1
	ldur	x13, [x9, #11]
	ldur	w9, [x9, #19]
	mov	w12, wzr
	mov	w19, #23
	stur	x13, [x29, #-96]
	lsl	x11, x10, #16
	umov	w10, v0.b[3]
	stur	w9, [x29, #-88]
	lsl	w14, w8, #24
	umov	w8, v0.b[2]
	and	x11, x11, #0xffffffff00ffffff
	orr	x11, x11, x14
	rev	x1, x11
	mov	w11, #1
.LBB49_167:
	ldur	w9, [x29, #-88]
	ldur	x13, [x29, #-96]
	stur	w9, [x29, #-136]
	stur	x13, [x29, #-144]
	cbz	w11, .LBB49_179
	and	w9, w8, #0xf8
	cmp	w9, #136
	b.ne	.LBB49_181
	cbz	x1, .LBB49_178
	mov	x9, #16724
	movk	x9, #19788, lsl #16
	movk	x9, #65280, lsl #32
	cmp	x1, x9
	b.eq	.LBB49_178
	ldrb	w9, [x27, #801]
	tbnz	w9, #0, .LBB49_178
	ldrb	w9, [x27, #840]
	cmp	w9, #2
	b.ne	.LBB49_178
	ldrb	w9, [x27, #872]
	cbnz	w9, .LBB49_178
	ldrb	w9, [x27, #792]
	cmp	w9, #1
	b.ne	.LBB49_178
	ldr	x9, [x24, #17160]
	sub	x9, x1, x9
	ubfx	x12, x9, #47, #1
	cbnz	x12, .LBB49_178
	ldr	x12, [x24, #17168]
	and	x9, x9, #0xffffffffffff
	ldr	x13, [x24, #17312]
	adds	x9, x9, x12
	mov	x12, #10661
	movk	x12, #26389, lsl #16
	csinv	x9, x9, xzr, lo
	movk	x12, #15903, lsl #32
	movk	x12, #44739, lsl #48
	umulh	x12, x9, x12
	adds	x12, x13, x12, lsr #13
	ldr	x13, [x24, #17208]
	csinv	x12, x12, xzr, lo
	subs	x13, x12, x13
	b.lo	.LBB49_178
	ldr	x14, [x24, #17192]
	cmp	x13, x14
	b.ls	.LBB49_308
.LBB49_178:
	ldrb	w12, [x27, #945]
	mov	w9, #17
	b	.LBB49_183
.LBB49_179:
	tbz	w12, #0, .LBB49_186
	mov	w9, wzr
	mov	w8, #2
	ldr	x10, [x24, #17336]
	cmn	x10, #1
	b.ne	.LBB49_190
	b	.LBB49_201
.LBB49_181:
	tbz	w8, #7, .LBB49_189
	ldrb	w12, [x27, #945]
	ubfx	w9, w8, #3, #5
.LBB49_183:
	mov	x13, #16724
	movk	x13, #19788, lsl #16
	movk	x13, #65280, lsl #32
	cmp	x1, x13
	b.eq	.LBB49_188
	cmp	w9, #17
	cset	w13, eq
	orr	w12, w13, w12
	tbnz	w12, #0, .LBB49_203
	mov	w8, #1
	bic	w8, w8, w12
	ldr	x10, [x24, #17336]
	cmn	x10, #1
	b.ne	.LBB49_190
	b	.LBB49_201
.LBB49_186:
	tbnz	w8, #7, .LBB49_189
	mov	x9, #16724
	movk	x9, #19788, lsl #16
	movk	x9, #65280, lsl #32
	cmp	x1, x9
	b.ne	.LBB49_202
.LBB49_188:
	mov	w9, wzr
	mov	w8, #3
	ldr	x10, [x24, #17336]
	cmn	x10, #1
	b.ne	.LBB49_190
	b	.LBB49_201
.LBB49_189:
	mov	w9, wzr
	mov	w8, #5
	ldr	x10, [x24, #17336]
	cmn	x10, #1
	b.eq	.LBB49_201
.LBB49_190:
	add	x10, x10, #1
	cmp	w8, #2
	str	x10, [x24, #17336]
	b.gt	.LBB49_194
	cbz	w8, .LBB49_197
	cmp	w8, #1
	b.ne	.LBB49_199
	cmp	w9, #24
	mov	w8, #24
	ldr	x10, [sp, #80]
	csel	w8, w9, w8, lo
	add	x25, x19, x25
	ldr	x9, [x10, w8, uxtw #3]
	add	x9, x9, #1
	str	x9, [x10, w8, uxtw #3]
	b	.LBB49_1
.LBB49_194:
	cmp	w8, #3
	b.eq	.LBB49_198
	cmp	w8, #4
	b.ne	.LBB49_200
	ldr	x8, [x24, #17368]
	add	x25, x19, x25
	add	x8, x8, #1
	str	x8, [x24, #17368]
	b	.LBB49_1
.LBB49_197:
	ldr	x8, [x24, #17344]
	add	x25, x19, x25
	add	x8, x8, #1
	str	x8, [x24, #17344]
	b	.LBB49_1
.LBB49_198:
	ldr	x8, [x24, #17360]
	add	x25, x19, x25
	add	x8, x8, #1
	str	x8, [x24, #17360]
	b	.LBB49_1
.LBB49_199:
	ldr	x8, [x24, #17352]
	add	x25, x19, x25
	add	x8, x8, #1
	str	x8, [x24, #17352]
	b	.LBB49_1
.LBB49_200:
	ldr	x8, [x24, #17376]
	add	x8, x8, #1
	str	x8, [x24, #17376]
.LBB49_201:
	add	x25, x19, x25
	b	.LBB49_1
.LBB49_202:
	ldrb	w12, [x27, #945]
	tbz	w12, #0, .LBB49_262
.LBB49_203:
	cbz	x1, .LBB49_205
	ldrb	w9, [x27, #801]
	cmp	w9, #1
	b.ne	.LBB49_263
.LBB49_205:
	ldr	x9, [x24, #17336]
	cmn	x9, #1
	b.eq	.LBB49_207
	ldr	x12, [x24, #17344]
	add	x9, x9, #1
	str	x9, [x24, #17336]
	add	x9, x12, #1
	str	x9, [x24, #17344]
.LBB49_207:
	ldrb	w12, [x27, #800]
	ldr	x9, [x24, #17208]
	cmp	w12, #1
	b.ne	.LBB49_272
	ldr	x12, [x24, #17216]
	ldr	x13, [sp, #104]
	subs	x12, x13, x12
	csel	x12, xzr, x12, lo
	adds	x9, x12, x9
	csinv	x9, x9, xzr, lo
	b	.LBB49_272
.LBB49_209:
	xtn	v2.8b, v7.8h
	uzp2	v3.16b, v7.16b, v0.16b
	adrp	x8, .LCPI49_1
	ext	v4.16b, v1.16b, v1.16b, #8
	mov	v1.d[0], v1.d[1]
	ldr	d6, [x8, :lo12:.LCPI49_1]
	adrp	x8, .LCPI49_2
	shl	v2.8b, v2.8b, #4
	tbl	v1.8b, { v1.16b }, v6.8b
	rev16	v4.8b, v4.8b
	orr	v2.8b, v2.8b, v3.8b
	xtn	v3.8b, v0.8h
	uzp2	v0.16b, v0.16b, v0.16b
	shl	v1.8b, v1.8b, #4
	fmov	d5, d2
	shl	v3.8b, v3.8b, #4
	mov	b7, v5.b[6]
	orr	v3.8b, v3.8b, v0.8b
	umov	w20, v3.b[2]
	umov	w15, v3.b[3]
	umov	w16, v3.b[4]
	mov	v7.b[2], v5.b[7]
	ext	v5.8b, v2.8b, v0.8b, #2
	mov	v2.d[1], v2.d[0]
	ldr	d0, [x8, :lo12:.LCPI49_2]
	umov	w22, v3.b[5]
	tbl	v2.8b, { v2.16b }, v0.8b
	mov	b0, v3.b[6]
	mov	v7.b[4], v3.b[0]
	fmov	w8, s5
	zip2	v1.8b, v1.8b, v0.8b
	fmov	x9, d2
	mov	v7.b[6], v3.b[1]
	mov	v0.b[4], v3.b[7]
	orr	x8, x9, x8, lsl #32
	mov	w9, #42
	orr	v3.8b, v1.8b, v4.8b
	rev	x1, x8
	mov	w8, #1
.LBB49_210:
	mov	w21, v0.s[1]
	add	x28, x9, x10
	fmov	w27, s0
	umov	w9, v7.h[0]
	and	w10, w9, #0xf8
	sxtb	w26, w9
	cmp	w10, #136
	b.eq	.LBB49_81
.LBB49_211:
	tbnz	w26, #31, .LBB49_213
.LBB49_212:
	mov	w10, wzr
	mov	w8, #5
	ldr	x9, [x24, #17336]
	cmn	x9, #1
	b.ne	.LBB49_226
	b	.LBB49_258
.LBB49_213:
	ldr	x9, [sp, #96]
	ubfx	w10, w26, #3, #5
	ldrb	w9, [x9, #945]
	cmp	w8, #1
	b.ne	.LBB49_216
.LBB49_214:
	mov	x11, #16724
	movk	x11, #19788, lsl #16
	movk	x11, #65280, lsl #32
	cmp	x1, x11
	b.ne	.LBB49_216
.LBB49_215:
	mov	w10, wzr
	mov	w8, #3
	ldr	x9, [x24, #17336]
	cmn	x9, #1
	b.ne	.LBB49_226
	b	.LBB49_258
.LBB49_216:
	cmp	w10, #17
	cset	w11, eq
	orr	w11, w11, w9
	mov	w9, #1
	tbz	w11, #0, .LBB49_225
	mov	w19, #2
	cmp	w8, #2
	stp	w16, w15, [sp, #28]
	str	q3, [sp]
	str	q7, [sp, #48]
	b.eq	.LBB49_93
.LBB49_218:
	cmp	w8, #1
	b.ne	.LBB49_221
	cbz	x1, .LBB49_221
	ldr	x8, [sp, #96]
	ldrb	w8, [x8, #801]
	cmp	w8, #1
	b.ne	.LBB49_237
.LBB49_221:
	ldr	x8, [x24, #17336]
	cmn	x8, #1
	b.eq	.LBB49_223
	ldr	x9, [x24, #17344]
	add	x8, x8, #1
	str	x8, [x24, #17336]
	add	x8, x9, #1
	str	x8, [x24, #17344]
.LBB49_223:
	ldr	x8, [sp, #96]
	ldrb	w9, [x8, #800]
	ldr	x8, [x24, #17208]
	cmp	w9, #1
	b.ne	.LBB49_246
	ldr	x9, [x24, #17216]
	ldr	x10, [sp, #104]
	subs	x9, x10, x9
	csel	x9, xzr, x9, lo
	adds	x8, x9, x8
	csinv	x8, x8, xzr, lo
	b	.LBB49_246
.LBB49_225:
	bic	w8, w9, w11
	ldr	x9, [x24, #17336]
	cmn	x9, #1
	b.eq	.LBB49_258
.LBB49_226:
	add	x9, x9, #1
	cmp	w8, #2
	str	x9, [x24, #17336]
	b.gt	.LBB49_230
	cbz	w8, .LBB49_233
	cmp	w8, #1
	b.ne	.LBB49_235
	cmp	w10, #24
	mov	w8, #24
	csel	w8, w10, w8, lo
	ldr	x10, [sp, #80]
	ldr	x9, [x10, w8, uxtw #3]
	add	x9, x9, #1
	str	x9, [x10, w8, uxtw #3]
	b	.LBB49_258
.LBB49_230:
	cmp	w8, #3
	b.eq	.LBB49_234
	cmp	w8, #4
	b.ne	.LBB49_236
	ldr	x8, [x24, #17368]
	add	x8, x8, #1
	str	x8, [x24, #17368]
	b	.LBB49_258
.LBB49_233:
	ldr	x8, [x24, #17344]
	add	x8, x8, #1
	str	x8, [x24, #17344]
	b	.LBB49_258
.LBB49_234:
	ldr	x8, [x24, #17360]
	add	x8, x8, #1
	str	x8, [x24, #17360]
	b	.LBB49_258
.LBB49_235:
	ldr	x8, [x24, #17352]
	add	x8, x8, #1
	str	x8, [x24, #17352]
	b	.LBB49_258
.LBB49_236:
	ldr	x8, [x24, #17376]
	add	x8, x8, #1
	str	x8, [x24, #17376]
	b	.LBB49_258
.LBB49_237:
	ldr	x8, [sp, #96]
	ldrb	w8, [x8, #840]
	cmp	w8, #2
	b.ne	.LBB49_253
	ldr	x8, [sp, #96]
	ldrb	w8, [x8, #872]
	cbnz	w8, .LBB49_253
	ldr	x8, [sp, #96]
	ldrb	w8, [x8, #792]
	cmp	w8, #1
	b.ne	.LBB49_253
	ldr	x8, [x24, #17160]
	sub	x8, x1, x8
	ubfx	x10, x8, #47, #1
	cbnz	x10, .LBB49_253
	ldr	x10, [x24, #17168]
	and	x8, x8, #0xffffffffffff
	ldr	x11, [x24, #17312]
	adds	x8, x8, x10
	csinv	x10, x8, xzr, lo
	mov	x8, #10661
	movk	x8, #26389, lsl #16
	movk	x8, #15903, lsl #32
	movk	x8, #44739, lsl #48
	umulh	x8, x10, x8
	adds	x8, x11, x8, lsr #13
	ldr	x11, [x24, #17208]
	csinv	x8, x8, xzr, lo
	subs	x11, x8, x11
	b.lo	.LBB49_253
	ldr	x12, [x24, #17192]
	cmp	x11, x12
	b.hi	.LBB49_253
	ldr	x9, [x24, #17336]
	cmn	x9, #1
	b.eq	.LBB49_245
	ldr	x11, [x24, #17344]
	add	x9, x9, #1
	str	x9, [x24, #17336]
	add	x9, x11, #1
	str	x9, [x24, #17344]
.LBB49_245:
	and	x9, x1, #0xffffffffffff
	str	x10, [x24, #17168]
	str	x9, [x24, #17160]
.LBB49_246:
	ldr	x10, [sp, #104]
	str	x8, [x24, #17208]
	mov	w9, #1
	str	x10, [x24, #17216]
	and	w9, w9, #0xff
	cmp	w9, #1
	b.ne	.LBB49_258
.LBB49_247:
	stur	x8, [x29, #-176]
	cbz	w19, .LBB49_250
	ldr	q0, [sp, #48]
	cmp	w19, #2
	umov	w9, v0.h[2]
	umov	w8, v0.h[3]
	b.ne	.LBB49_251
	ldp	w11, w10, [sp, #28]
	ldr	q1, [sp]
	b	.LBB49_252
.LBB49_250:
	movi	v1.2d, #0000000000000000
	ldr	q0, [sp, #48]
	mov	w21, wzr
	mov	w27, wzr
	mov	w22, wzr
	mov	w11, wzr
	mov	w10, wzr
	mov	w20, wzr
	mov	w8, wzr
	mov	w9, wzr
	b	.LBB49_252
.LBB49_251:
	ldp	w11, w10, [sp, #28]
	mov	w21, wzr
	mov	w27, wzr
	movi	v1.2d, #0000000000000000
	mov	w22, wzr
.LBB49_252:
	mov	h0, v0.h[1]
	sturb	w8, [x29, #-165]
	sub	x8, x29, #176
	sturb	w26, [x29, #-168]
	sturb	w9, [x29, #-166]
	sturb	w20, [x29, #-164]
	stur	b0, [x8, #9]
	uzp1	v0.8b, v1.8b, v0.8b
	sturb	w10, [x29, #-163]
	sturb	w11, [x29, #-162]
	sturb	w22, [x29, #-161]
	sturb	w27, [x29, #-160]
	sturb	w21, [x29, #-159]
	stur	s0, [x8, #18]
	b	.LBB49_260
.LBB49_253:
	tbz	w9, #0, .LBB49_255
	mov	v0.16b, v3.16b
	umov	w8, v3.h[3]
	mov	w9, w27
	mov	w10, w22
	mov	v0.h[3], w21
	b	.LBB49_256
.LBB49_255:
	movi	v0.2d, #0000000000000000
	mov	w8, wzr
	mov	w9, wzr
	mov	w10, wzr
.LBB49_256:
	ext	v0.8b, v0.8b, v0.8b, #6
	sturb	w9, [x29, #-88]
	sub	x9, x29, #176
	sturb	w8, [x29, #-83]
	mov	w8, #17160
	ldr	x3, [sp, #104]
	add	x0, x24, x8
	sub	x2, x29, #96
	sturb	w20, [x29, #-92]
	sturb	w15, [x29, #-91]
	uzp1	v1.8b, v7.8b, v0.8b
	uzp1	v0.8b, v0.8b, v0.8b
	sturb	w16, [x29, #-90]
	sturb	w10, [x29, #-89]
	stur	s0, [x9, #89]
	mov	w9, #17600
	add	x4, x24, x9
	stur	s1, [x29, #-96]
	bl	"sq_feed::ear::Ear::hear_clock_jump"
.LBB49_257:
	mov	x8, xzr
	and	w9, wzr, #0xff
	cmp	w9, #1
	b.eq	.LBB49_247
.LBB49_258:
	ldr	x8, [x24, #17696]
	stp	xzr, xzr, [x29, #-96]
	stur	xzr, [x29, #-80]
	cbz	x8, .LBB49_261
.LBB49_259:
	mov	w8, #17600
	sub	x0, x29, #96
	add	x1, x24, x8
	bl	"arrayvec::array_vec::ArrayVec::remove::<#86edd032541158b8>"
	sub	x9, x29, #176
	ldur	x8, [x29, #-80]
	ldr	q0, [x9, #80]
	stur	x8, [x29, #-160]
	str	q0, [x9]
.LBB49_260:
	add	x25, x28, x25
	b	.LBB49_129
.LBB49_261:
	add	x25, x28, x25
	b	.LBB49_1
.LBB49_262:
	ubfx	w9, w8, #3, #5
	eor	w8, w12, #0x1
	ldr	x10, [x24, #17336]
	cmn	x10, #1
	b.ne	.LBB49_190
	b	.LBB49_201
.LBB49_263:
	ldrb	w9, [x27, #840]
	cmp	w9, #2
	b.ne	.LBB49_276
	ldrb	w9, [x27, #872]
	cbnz	w9, .LBB49_276
	ldrb	w9, [x27, #792]
	cmp	w9, #1
	b.ne	.LBB49_276
	ldr	x9, [x24, #17160]
	sub	x9, x1, x9
	ubfx	x12, x9, #47, #1
	cbnz	x12, .LBB49_276
	ldr	x12, [x24, #17168]
	and	x9, x9, #0xffffffffffff
	ldr	x13, [x24, #17312]
	adds	x9, x9, x12
	csinv	x12, x9, xzr, lo
	mov	x9, #10661
	movk	x9, #26389, lsl #16
	movk	x9, #15903, lsl #32
	movk	x9, #44739, lsl #48
	umulh	x9, x12, x9
	adds	x9, x13, x9, lsr #13
	ldr	x13, [x24, #17208]
	csinv	x9, x9, xzr, lo
	subs	x13, x9, x13
	b.lo	.LBB49_276
	ldr	x14, [x24, #17192]
	cmp	x13, x14
	b.hi	.LBB49_276
	ldr	x13, [x24, #17336]
	cmn	x13, #1
	b.eq	.LBB49_271
	ldr	x14, [x24, #17344]
	add	x13, x13, #1
	str	x13, [x24, #17336]
	add	x13, x14, #1
	str	x13, [x24, #17344]
.LBB49_271:
	and	x13, x1, #0xffffffffffff
	str	x12, [x24, #17168]
	str	x13, [x24, #17160]
.LBB49_272:
	ldr	x12, [sp, #104]
	str	x9, [x24, #17208]
	stur	x9, [x29, #-176]
	str	x12, [x24, #17216]
	cbz	w11, .LBB49_274
	ldur	x9, [x29, #-144]
	ldur	w11, [x29, #-136]
	b	.LBB49_275
.LBB49_274:
	sub	x11, x29, #96
	ldur	w9, [x29, #-144]
	stur	wzr, [x11, #8]
	stur	wzr, [x11, #5]
	ldurb	w11, [x29, #-140]
	stur	w9, [x29, #-96]
	sturb	w11, [x29, #-92]
	ldur	w11, [x29, #-88]
	ldur	x9, [x29, #-96]
.LBB49_275:
	stur	w11, [x29, #-112]
	mov	w11, w11
	ldr	x26, [sp, #648]
	sturb	w8, [x29, #-168]
	sub	x8, x29, #176
	add	x25, x19, x25
	stur	x9, [x29, #-120]
	stur	x9, [x29, #-48]
	stur	w11, [x29, #-40]
	sturb	w10, [x29, #-167]
	stur	x9, [x8, #10]
	stur	w11, [x8, #18]
	b	.LBB49_130
.LBB49_276:
	cbz	w11, .LBB49_286
	ldur	x9, [x29, #-144]
	ldur	w11, [x29, #-136]
	b	.LBB49_287
.LBB49_278:
	mov	w20, #1
.LBB49_279:
	movi	v2.16b, #223
	ldur	q3, [x10, #1]
	movi	v4.16b, #198
	ldur	q6, [x10, #13]
	movi	v5.16b, #64
	movi	v16.16b, #6
	movi	v17.16b, #10
	movi	v18.16b, #191
	movi	v19.16b, #16
	and	v7.16b, v3.16b, v2.16b
	and	v2.16b, v6.16b, v2.16b
	add	v3.16b, v3.16b, v4.16b
	add	v4.16b, v6.16b, v4.16b
	sub	v6.16b, v5.16b, v7.16b
	sub	v5.16b, v5.16b, v2.16b
	uqsub	v3.16b, v3.16b, v16.16b
	uqsub	v4.16b, v4.16b, v16.16b
	add	v7.16b, v7.16b, v18.16b
	add	v2.16b, v2.16b, v18.16b
	umin	v6.16b, v6.16b, v17.16b
	umin	v5.16b, v5.16b, v17.16b
	add	v3.16b, v3.16b, v19.16b
	add	v4.16b, v4.16b, v19.16b
	add	v6.16b, v7.16b, v6.16b
	add	v2.16b, v2.16b, v5.16b
	umin	v5.16b, v3.16b, v6.16b
	umin	v4.16b, v4.16b, v2.16b
	movi	v2.16b, #15
	orr	v3.16b, v4.16b, v5.16b
	cmhi	v2.16b, v3.16b, v2.16b
	and	v1.16b, v2.16b, v1.16b
	addp	v1.16b, v1.16b, v1.16b
	addp	v1.16b, v1.16b, v1.16b
	addp	v1.16b, v1.16b, v1.16b
	umov	w10, v1.h[0]
	cbnz	w10, .LBB49_62
	umov	w8, v0.b[0]
	umov	w9, v0.b[1]
	mov	w10, #10
	mov	x1, x26
	mov	w22, #1000
	stp	q5, q4, [sp, #32]
	and	x8, x8, #0xff
	umull	x8, w8, w10
	add	x8, x8, w9, uxtb
	umov	w9, v0.b[2]
	umull	x8, w8, w10
	add	x8, x8, w9, uxtb
	umov	w9, v0.b[3]
	umull	x8, w8, w10
	add	x8, x8, w9, uxtb
	umov	w9, v0.b[4]
	mul	x8, x8, x10
	add	x8, x8, w9, uxtb
	umov	w9, v0.b[5]
	mul	x8, x8, x10
	add	x8, x8, w9, uxtb
	umov	w9, v0.b[6]
	mul	x8, x8, x10
	add	x8, x8, w9, uxtb
	umov	w9, v0.b[7]
	mul	x8, x8, x10
	add	x8, x8, w9, uxtb
	umov	w9, v0.b[8]
	mul	x8, x8, x10
	add	x8, x8, w9, uxtb
	umov	w9, v0.b[9]
	mul	x8, x8, x10
	add	x21, x8, w9, uxtb
	bl	"sq_feed::cells::thousandths"
	ldp	q1, q3, [sp, #32]
	madd	x11, x21, x22, x0
	mov	x13, #-16512
	add	x12, x26, x19
	movk	x13, #23964, lsl #16
	add	x12, x12, x20
	xtn	v0.8b, v1.8h
	xtn	v2.8b, v3.8h
	movk	x13, #53118, lsl #32
	add	x28, x12, #41
	uzp2	v1.16b, v1.16b, v0.16b
	shl	v0.8b, v0.8b, #4
	uzp2	v3.16b, v3.16b, v0.16b
	orr	v0.8b, v0.8b, v1.8b
	shl	v1.8b, v2.8b, #4
	orr	v1.8b, v1.8b, v3.8b
	umov	w10, v0.b[0]
	umov	w9, v1.b[2]
	umov	w8, v1.b[3]
	and	w10, w10, #0xf8
	cmp	w10, #136
	add	x10, x11, x13
	b.ne	.LBB49_289
	ldrb	w11, [x27, #840]
	add	x17, x24, #4, lsl #12
	cmp	w11, #2
	b.ne	.LBB49_322
	ldrb	w13, [x27, #872]
	cbz	w13, .LBB49_306
.LBB49_283:
	stur	xzr, [x29, #-80]
	cbnz	w13, .LBB49_325
.LBB49_284:
	ldr	x11, [x24, #17312]
	ldr	x12, [x24, #17208]
	adds	x11, x11, x10
	csinv	x11, x11, xzr, lo
	subs	x13, x12, x11
	b.ls	.LBB49_292
	ldr	x14, [x24, #17200]
	mov	w15, #1000
	cmp	x14, #1000
	csel	x14, x14, x15, hi
	cmp	x13, x14
	b.ls	.LBB49_295
	b	.LBB49_325
.LBB49_286:
	sub	x11, x29, #120
	ldur	w9, [x29, #-144]
	stur	wzr, [x11, #8]
	stur	wzr, [x11, #5]
	ldurb	w11, [x29, #-140]
	stur	w9, [x29, #-120]
	sturb	w11, [x29, #-116]
	ldur	w11, [x29, #-112]
	ldur	x9, [x29, #-120]
.LBB49_287:
	stur	x9, [x29, #-32]
	ldr	x3, [sp, #104]
	sub	x2, x29, #96
	stur	w11, [x29, #-24]
	sturb	w8, [x29, #-96]
	mov	x8, x9
	mov	w9, w11
	ldr	x11, [sp, #72]
	sturb	w10, [x29, #-95]
	mov	w10, #17600
	add	x4, x24, x10
	str	x8, [x11]
	mov	w8, #17160
	add	x0, x24, x8
	str	w9, [x11, #8]
	bl	"sq_feed::ear::Ear::hear_clock_jump"
	ldr	x8, [x24, #17696]
	stp	xzr, xzr, [x29, #-96]
	stur	xzr, [x29, #-80]
	cbz	x8, .LBB49_201
	mov	w8, #17600
	sub	x0, x29, #96
	add	x1, x24, x8
	bl	"arrayvec::array_vec::ArrayVec::remove::<#86edd032541158b8>"
	sub	x9, x29, #176
	ldur	x8, [x29, #-80]
	ldr	x26, [sp, #648]
	ldr	q0, [x9, #80]
	add	x25, x19, x25
	stur	x8, [x29, #-160]
	str	q0, [x9]
	b	.LBB49_130
.LBB49_289:
	smov	w11, v0.b[0]
	add	x17, x24, #4, lsl #12
	tbnz	w11, #31, .LBB49_302
	ldr	x8, [x24, #17336]
	cmn	x8, #1
	b.eq	.LBB49_326
	ldr	x9, [x24, #17376]
	add	x8, x8, #1
	add	x25, x28, x25
	str	x8, [x24, #17336]
	add	x8, x9, #1
	str	x8, [x24, #17376]
	b	.LBB49_1
.LBB49_292:
	ldr	x13, [x24, #17192]
	sub	x14, x11, x12
	cmp	x14, x13
	b.ls	.LBB49_295
	ldrb	w14, [x17, #800]
	cmp	w14, #1
	b.ne	.LBB49_325
	ldr	x14, [x24, #17216]
	ldr	x15, [sp, #104]
	subs	x14, x15, x14
	csel	x14, xzr, x14, lo
	adds	x14, x14, x12
	csinv	x14, x14, xzr, lo
	subs	x14, x11, x14
	cneg	x14, x14, ls
	cmp	x14, x13
	b.hi	.LBB49_325
.LBB49_295:
	ldr	x10, [x24, #17336]
	cmn	x10, #1
	b.eq	.LBB49_297
	ldr	x13, [x24, #17344]
	add	x10, x10, #1
	str	x10, [x24, #17336]
	add	x10, x13, #1
	str	x10, [x24, #17344]
.LBB49_297:
	cmp	x12, x11
	b.ls	.LBB49_299
	ldr	x10, [x24, #17200]
	subs	x10, x12, x10
	csel	x10, xzr, x10, lo
	cmp	x10, x11
	csel	x11, x10, x11, hi
	b	.LBB49_300
.LBB49_299:
	ldr	x10, [sp, #104]
	str	x11, [x24, #17208]
	str	x10, [x24, #17216]
.LBB49_300:
	umov	w10, v1.b[4]
	umov	w12, v1.b[5]
	sturb	w8, [x29, #-159]
	sub	x8, x29, #176
	stur	x11, [x29, #-176]
	stur	d0, [x29, #-168]
	sturb	w9, [x29, #-160]
	fmov	s2, w10
	umov	w10, v1.b[6]
.LBB49_301:
	mov	v2.h[1], w12
	umov	w12, v1.b[7]
	mov	v2.h[2], w10
	mov	v2.h[3], w12
	xtn	v1.8b, v2.8h
	stur	s1, [x8, #18]
	b	.LBB49_260
.LBB49_302:
	ubfx	w11, w11, #3, #5
	cmp	w11, #17
	b.eq	.LBB49_311
	ldrb	w12, [x17, #945]
	tbnz	w12, #0, .LBB49_311
	ldr	x8, [x24, #17336]
	cmn	x8, #1
	b.eq	.LBB49_326
	cmp	w11, #24
	mov	w9, #24
	add	x8, x8, #1
	csel	w9, w11, w9, lo
	ldr	x11, [sp, #80]
	str	x8, [x24, #17336]
	add	x25, x28, x25
	ldr	x10, [x11, w9, uxtw #3]
	add	x8, x10, #1
	str	x8, [x11, w9, uxtw #3]
	b	.LBB49_1
.LBB49_306:
	ldr	x11, [x24, #17312]
	ldr	x12, [x24, #17208]
	adds	x11, x11, x10
	csinv	x11, x11, xzr, lo
	subs	x14, x12, x11
	b.ls	.LBB49_313
	ldr	x15, [x24, #17200]
	mov	w16, #1000
	cmp	x15, #1000
	csel	x15, x15, x16, hi
	cmp	x14, x15
	b.hi	.LBB49_283
	b	.LBB49_316
.LBB49_308:
	ldr	x11, [x24, #17336]
	cmn	x11, #1
	b.eq	.LBB49_310
	ldr	x13, [x24, #17344]
	add	x11, x11, #1
	str	x11, [x24, #17336]
	add	x11, x13, #1
	str	x11, [x24, #17344]
.LBB49_310:
	str	x9, [x24, #17168]
	ldr	x9, [sp, #104]
	and	x11, x1, #0xffffffffffff
	sturb	w8, [x29, #-168]
	ldur	x8, [x29, #-144]
	ldr	x26, [sp, #648]
	str	x9, [x24, #17216]
	add	x25, x19, x25
	ldur	w9, [x29, #-136]
	sturb	w10, [x29, #-167]
	sub	x10, x29, #176
	str	x11, [x24, #17160]
	str	x12, [x24, #17208]
	stur	x12, [x29, #-176]
	stur	x8, [x10, #10]
	stur	w9, [x10, #18]
	sturh	wzr, [x29, #-154]
	b	.LBB49_130
.LBB49_311:
	ldrb	w11, [x17, #840]
	stur	xzr, [x29, #-80]
	cmp	w11, #2
	b.ne	.LBB49_323
	ldrb	w13, [x17, #872]
	cbz	w13, .LBB49_284
	b	.LBB49_325
.LBB49_313:
	ldr	x14, [x24, #17192]
	sub	x15, x11, x12
	cmp	x15, x14
	b.ls	.LBB49_316
	ldrb	w15, [x17, #800]
	cmp	w15, #1
	b.ne	.LBB49_283
	ldr	x15, [x24, #17216]
	ldr	x16, [sp, #104]
	subs	x15, x16, x15
	csel	x15, xzr, x15, lo
	adds	x15, x15, x12
	csinv	x15, x15, xzr, lo
	subs	x15, x11, x15
	cneg	x15, x15, ls
	cmp	x15, x14
	b.hi	.LBB49_283
.LBB49_316:
	ldr	x10, [x24, #17336]
	cmn	x10, #1
	b.eq	.LBB49_318
	ldr	x13, [x24, #17344]
	add	x10, x10, #1
	str	x10, [x24, #17336]
	add	x10, x13, #1
	str	x10, [x24, #17344]
.LBB49_318:
	cmp	x12, x11
	b.ls	.LBB49_320
	ldr	x10, [x24, #17200]
	subs	x10, x12, x10
	csel	x10, xzr, x10, lo
	cmp	x10, x11
	csel	x11, x10, x11, hi
	b	.LBB49_321
.LBB49_320:
	ldr	x10, [sp, #104]
	str	x11, [x24, #17208]
	str	x10, [x24, #17216]
.LBB49_321:
	umov	w10, v1.b[4]
	umov	w12, v1.b[5]
	sturb	w8, [x29, #-159]
	sub	x8, x29, #176
	stur	x11, [x29, #-176]
	stur	d0, [x29, #-168]
	sturb	w9, [x29, #-160]
	fmov	s2, w10
	umov	w10, v1.b[6]
	sturh	wzr, [x29, #-154]
	b	.LBB49_301
.LBB49_322:
	stur	xzr, [x29, #-80]
.LBB49_323:
	cbnz	w11, .LBB49_325
	mov	w11, #1
	strb	w11, [x17, #944]
.LBB49_325:
	umov	w11, v1.b[4]
	umov	w12, v1.b[5]
	sturb	w8, [x29, #-79]
	sub	x8, x29, #176
	sturb	w9, [x29, #-80]
	mov	w9, #17600
	ldr	x2, [sp, #104]
	sub	x1, x29, #96
	add	x3, x24, x9
	stur	x10, [x29, #-96]
	fmov	s2, w11
	umov	w11, v1.b[6]
	stur	d0, [x29, #-88]
	mov	v2.h[1], w12
	umov	w12, v1.b[7]
	mov	v2.h[2], w11
	mov	v2.h[3], w12
	xtn	v1.8b, v2.8h
	stur	s1, [x8, #98]
	mov	w8, #17160
	add	x0, x24, x8
	bl	"sq_feed::ear::Ear::hear_jump"
	ldr	x8, [x24, #17696]
	stp	xzr, xzr, [x29, #-96]
	stur	xzr, [x29, #-80]
	cbnz	x8, .LBB49_259
.LBB49_326:
	add	x25, x28, x25
	b	.LBB49_1
.LBB49_327:
	ldr	x26, [sp, #648]
.LBB49_328:
	ldr	x8, [sp, #88]
	ldr	x19, [sp, #128]
	add	x1, sp, #136
	mov	x2, x26
	add	x0, x8, x19
	bl	memcpy
	add	x1, x26, x19
	mov	x0, x25
	add	sp, sp, #832
	ldp	x20, x19, [sp, #80]
	ldp	x22, x21, [sp, #64]
	ldp	x24, x23, [sp, #48]
	ldp	x26, x25, [sp, #32]
	ldp	x28, x27, [sp, #16]
	ldp	x29, x30, [sp], #96
	ret
.Lfunc_end49:
	.size	"squitter_c::feed_text::take_by", .Lfunc_end49-"squitter_c::feed_text::take_by"

	.section	".text.sq_feed::lines::push_log_line::<=512>","ax",@progbits
	.p2align	2
	.type	"sq_feed::lines::push_log_line::<=512>",@function
"sq_feed::lines::push_log_line::<=512>":
	stp	x29, x30, [sp, #-32]!
	mov	w8, #51711
	stp	x20, x19, [sp, #16]
	mov	x19, x2
	movk	w8, #15258, lsl #16
	mov	x29, sp
	cmp	x1, x8
	b.hi	.LBB50_4
	mov	w8, #16959
	movk	w8, #15, lsl #16
	cmp	x1, x8
	b.hi	.LBB50_5
	cmp	x1, #999
	b.hi	.LBB50_7
	cmp	x1, #100
	adrp	x9, .Lstatic.22
	add	x9, x9, :lo12:.Lstatic.22
	cset	w8, lo
	cmp	x1, #10
	add	x9, x9, x1, lsl #2
	cinc	x8, x8, lo
	ldr	x10, [x0, #512]
	ldr	w9, [x9, x8]
	eor	x8, x8, #0x3
	add	x8, x10, x8
	str	w9, [x0, x10]
	str	x8, [x0, #512]
	ldrsb	w9, [x19]
	tbz	w9, #31, .LBB50_6
	b	.LBB50_8
.LBB50_4:
	mov	x20, x0
	bl	"sq_digits::decimal::push_long::<=512>"
	mov	x0, x20
	ldrsb	w9, [x19]
	tbz	w9, #31, .LBB50_6
	b	.LBB50_8
.LBB50_5:
	mov	w8, #19923
	mov	w9, #56963
	mov	w10, #37749
	movk	w8, #4194, lsl #16
	movk	w9, #17179, lsl #16
	movk	w10, #1048, lsl #16
	mul	x8, x1, x8
	mov	w12, #57600
	mov	w13, #1000
	movk	w12, #1525, lsl #16
	mov	w14, #38528
	adrp	x11, .Lstatic.22
	add	x11, x11, :lo12:.Lstatic.22
	mul	x9, x1, x9
	movk	w14, #152, lsl #16
	cmp	x1, x12
	cset	w12, lo
	cmp	x1, x14
	ldr	x14, [x0, #512]
	lsr	x8, x8, #38
	cinc	x12, x12, lo
	umull	x10, w8, w10
	lsr	x9, x9, #50
	add	x9, x11, x9, lsl #2
	lsr	x10, x10, #36
	ldr	w9, [x9, x12]
	eor	x12, x12, #0x3
	msub	w10, w10, w13, w8
	str	w9, [x0, x14]
	add	x9, x14, x12
	add	x14, x0, x9
	msub	w8, w8, w13, w1
	add	x10, x11, w10, uxtw #2
	ldrh	w12, [x10]
	strh	w12, [x14]
	ldrb	w10, [x10, #2]
	strb	w10, [x14, #2]
	ldr	s0, [x11, w8, uxtw #2]
	add	x8, x9, #6
	stur	s0, [x14, #3]
	str	x8, [x0, #512]
	ldrsb	w9, [x19]
	tbnz	w9, #31, .LBB50_8
.LBB50_6:
	mov	x1, x19
	ldp	x20, x19, [sp, #16]
	ldp	x29, x30, [sp], #32
	b	"sq_feed::lines::push_short_tail::<=512>"
.LBB50_7:
	mov	w8, #19923
	lsr	x9, x1, #5
	lsr	x10, x1, #4
	movk	w8, #4194, lsl #16
	adrp	x11, .Lstatic.22
	add	x11, x11, :lo12:.Lstatic.22
	mul	x8, x1, x8
	cmp	x9, #3125
	mov	w12, #1000
	cset	w9, lo
	cmp	x10, #625
	cinc	x9, x9, lo
	lsr	x8, x8, #38
	add	x10, x11, x8, lsl #2
	msub	w8, w8, w12, w1
	ldr	x12, [x0, #512]
	ldr	w10, [x10, x9]
	eor	x9, x9, #0x3
	str	w10, [x0, x12]
	add	x9, x12, x9
	ldr	s0, [x11, w8, uxtw #2]
	add	x8, x9, #3
	str	s0, [x0, x9]
	str	x8, [x0, #512]
	ldrsb	w9, [x19]
	tbz	w9, #31, .LBB50_6
.LBB50_8:
	ldrb	w10, [x19, #1]
	ldrb	w11, [x19, #2]
	adrp	x8, .Lstatic.67
	add	x8, x8, :lo12:.Lstatic.67
	ldrb	w12, [x19, #3]
	ldrb	w14, [x19, #4]
	ldrb	w15, [x19, #5]
	ldrb	w16, [x19, #6]
	and	x9, x9, #0xff
	ldrb	w1, [x19, #7]
	ldrb	w2, [x19, #8]
	mov	w18, #32
	ldrb	w3, [x19, #9]
	ldrb	w4, [x19, #10]
	ldrb	w5, [x19, #11]
	ldrb	w6, [x19, #12]
	ldrb	w7, [x19, #13]
	ldr	x13, [x0, #512]
	ldrh	w9, [x8, x9, lsl #1]
	ldrh	w10, [x8, x10, lsl #1]
	ldrh	w11, [x8, x11, lsl #1]
	add	x17, x0, x13
	ldrh	w12, [x8, x12, lsl #1]
	ldrh	w14, [x8, x14, lsl #1]
	ldrh	w15, [x8, x15, lsl #1]
	ldrh	w16, [x8, x16, lsl #1]
	ldrh	w1, [x8, x1, lsl #1]
	ldrh	w2, [x8, x2, lsl #1]
	ldrh	w3, [x8, x3, lsl #1]
	ldrh	w4, [x8, x4, lsl #1]
	ldrh	w5, [x8, x5, lsl #1]
	ldrh	w6, [x8, x6, lsl #1]
	ldrh	w8, [x8, x7, lsl #1]
	sturh	w9, [x17, #1]
	mov	w9, #10
	sturh	w8, [x17, #27]
	add	x8, x13, #30
	strb	w18, [x17]
	ldp	x20, x19, [sp, #16]
	sturh	w10, [x17, #3]
	sturh	w11, [x17, #5]
	sturh	w12, [x17, #7]
	sturh	w14, [x17, #9]
	sturh	w15, [x17, #11]
	sturh	w16, [x17, #13]
	sturh	w1, [x17, #15]
	sturh	w2, [x17, #17]
	sturh	w3, [x17, #19]
	sturh	w4, [x17, #21]
	sturh	w5, [x17, #23]
	sturh	w6, [x17, #25]
	strb	w9, [x17, #29]
	str	x8, [x0, #512]
	ldp	x29, x30, [sp], #32
	ret
.Lfunc_end50:
	.size	"sq_feed::lines::push_log_line::<=512>", .Lfunc_end50-"sq_feed::lines::push_log_line::<=512>"

	.section	".text.sq_digits::decimal::push_long::<=512>","ax",@progbits
	.p2align	2
	.type	"sq_digits::decimal::push_long::<=512>",@function
"sq_digits::decimal::push_long::<=512>":
	mov	x8, #32767
	movk	x8, #42182, lsl #16
	movk	x8, #36222, lsl #32
	movk	x8, #3, lsl #48
	cmp	x1, x8
	b.hi	.LBB51_5
	mov	x8, #13531
	mov	x11, #4095
	ldr	x10, [x0, #512]
	movk	x8, #55222, lsl #16
	movk	x11, #54437, lsl #16
	movk	x8, #56962, lsl #32
	movk	x11, #232, lsl #32
	movk	x8, #17179, lsl #48
	cmp	x1, x11
	umulh	x8, x1, x8
	lsr	x9, x8, #18
	adrp	x8, .Lstatic.22
	add	x8, x8, :lo12:.Lstatic.22
	b.hi	.LBB51_3
	mov	w11, #19923
	mov	x13, #59392
	mov	x14, #58368
	movk	w11, #4194, lsl #16
	movk	x13, #18550, lsl #16
	movk	x14, #21515, lsl #16
	mul	x12, x9, x11
	movk	x13, #23, lsl #32
	movk	x14, #2, lsl #32
	cmp	x1, x13
	umull	x11, w9, w11
	cset	w13, lo
	cmp	x1, x14
	mov	w14, #1000
	cinc	x13, x13, lo
	lsr	x11, x11, #36
	lsr	x12, x12, #38
	and	x11, x11, #0x1fffffc
	msub	w9, w12, w14, w9
	add	x11, x8, x11
	ldr	w11, [x11, x13]
	str	w11, [x0, x10]
	eor	x11, x13, #0x3
	add	x10, x10, x11
	ldr	s0, [x8, w9, uxtw #2]
	str	s0, [x0, x10]
	add	x9, x10, #3
	b	.LBB51_4
.LBB51_3:
	mov	x12, #23123
	lsr	x11, x1, #9
	mov	w14, #56963
	movk	x12, #41115, lsl #16
	movk	w14, #17179, lsl #16
	mov	x15, #16384
	movk	x12, #47151, lsl #32
	umull	x14, w9, w14
	movk	x15, #4218, lsl #16
	movk	x12, #68, lsl #48
	mov	x16, #40960
	movk	x15, #23283, lsl #32
	umulh	x11, x11, x12
	mov	w12, #19923
	movk	x16, #20082, lsl #16
	movk	w12, #4194, lsl #16
	lsr	x14, x14, #48
	cmp	x1, x15
	movk	x16, #2328, lsl #32
	mov	w17, #1000
	cset	w15, lo
	cmp	x1, x16
	lsr	x11, x11, #11
	mul	x13, x11, x12
	mul	x12, x9, x12
	lsr	x13, x13, #38
	msub	w11, w13, w17, w11
	and	x13, x14, #0x7ffc
	cinc	x14, x15, lo
	add	x13, x8, x13
	lsr	x12, x12, #38
	ldr	w13, [x13, x14]
	eor	x14, x14, #0x3
	str	w13, [x0, x10]
	add	x10, x10, x14
	add	x11, x8, w11, uxtw #2
	str	x10, [x0, #512]
	add	x14, x0, x10
	msub	w9, w12, w17, w9
	ldrh	w13, [x11]
	strh	w13, [x14]
	ldrb	w11, [x11, #2]
	strb	w11, [x14, #2]
	ldr	s0, [x8, w9, uxtw #2]
	add	x9, x10, #6
	stur	s0, [x14, #3]
.LBB51_4:
	mov	x11, #63439
	lsr	x10, x1, #3
	mov	w12, #1000
	movk	x11, #58195, lsl #16
	add	x14, x0, x9
	movk	x11, #39845, lsl #32
	movk	x11, #8388, lsl #48
	umulh	x10, x10, x11
	mov	x11, #42992
	movk	x11, #19398, lsl #16
	movk	x11, #35127, lsl #32
	movk	x11, #65, lsl #48
	lsr	x10, x10, #4
	umulh	x11, x10, x11
	msub	x11, x11, x12, x10
	msub	x10, x10, x12, x1
	add	x11, x8, x11, lsl #2
	ldrh	w13, [x11]
	strh	w13, [x14]
	ldrb	w11, [x11, #2]
	strb	w11, [x14, #2]
	ldr	s0, [x8, x10, lsl #2]
	add	x8, x9, #6
	stur	s0, [x14, #3]
	str	x8, [x0, #512]
	ret
.LBB51_5:
	b	"sq_digits::decimal::push_longest::<=512>"
.Lfunc_end51:
	.size	"sq_digits::decimal::push_long::<=512>", .Lfunc_end51-"sq_digits::decimal::push_long::<=512>"

	.section	".text.unlikely.sq_digits::decimal::push_longest::<=512>","ax",@progbits
	.p2align	2
	.type	"sq_digits::decimal::push_longest::<=512>",@function
"sq_digits::decimal::push_longest::<=512>":
	sub	sp, sp, #96
	movi	v0.2d, #0000000000000000
	mov	x8, xzr
	stp	x29, x30, [sp, #48]
	str	x21, [sp, #64]
	add	x29, sp, #48
	stp	x20, x19, [sp, #80]
	str	xzr, [sp, #32]
	stp	q0, q0, [sp]
.LBB52_1:
	mov	x10, #22859
	mov	x9, x1
	mov	w12, #5243
	movk	x10, #14470, lsl #16
	mov	w14, #57599
	mov	x13, sp
	movk	x10, #50646, lsl #32
	movk	w14, #1525, lsl #16
	add	x13, x13, x8
	movk	x10, #13421, lsl #48
	cmp	x1, x14
	sub	x8, x8, #4
	umulh	x10, x1, x10
	lsr	x1, x10, #11
	mov	w10, #10000
	msub	w10, w1, w10, w9
	ubfx	w11, w10, #2, #14
	mul	w11, w11, w12
	mov	w12, #100
	lsr	w11, w11, #17
	msub	w12, w11, w12, w10
	adrp	x10, .Lstatic.23
	add	x10, x10, :lo12:.Lstatic.23
	ldrh	w11, [x10, w11, uxtw #1]
	and	x12, x12, #0xffff
	strh	w11, [x13, #36]
	ldrh	w12, [x10, x12, lsl #1]
	strh	w12, [x13, #38]
	b.hi	.LBB52_1
	mov	w11, #16959
	movk	w11, #15, lsl #16
	cmp	x9, x11
	b.hi	.LBB52_5
	lsr	x9, x9, #5
	cmp	x9, #3124
	b.hi	.LBB52_7
	mov	x9, sp
	orr	w10, w1, #0x30
	add	x11, x9, x8
	add	x9, x8, #39
	strb	w10, [x11, #39]
	b	.LBB52_8
.LBB52_5:
	ubfx	w11, w1, #2, #14
	mov	w12, #5243
	mov	w14, #38527
	movk	w14, #152, lsl #16
	mul	w11, w11, w12
	mov	w12, #100
	cmp	x9, x14
	lsr	w11, w11, #17
	msub	w12, w11, w12, w1
	and	x12, x12, #0xffff
	ldrh	w13, [x10, x12, lsl #1]
	mov	x12, sp
	add	x12, x12, x8
	strh	w13, [x12, #38]
	b.hi	.LBB52_11
	orr	w10, w11, #0x30
	add	x9, x8, #37
	strb	w10, [x12, #37]
	b	.LBB52_8
.LBB52_7:
	ldrh	w10, [x10, x1, lsl #1]
	mov	x9, sp
	add	x11, x9, x8
	add	x9, x8, #38
	strh	w10, [x11, #38]
.LBB52_8:
	mov	w8, #40
	ldr	x20, [x0, #512]
	add	x21, x0, #512
	sub	x19, x8, x9
.LBB52_9:
	mov	x8, sp
	add	x0, x0, x20
	mov	x2, x19
	add	x1, x8, x9
	bl	memcpy
.LBB52_10:
	add	x8, x20, x19
	ldp	x20, x19, [sp, #80]
	ldp	x29, x30, [sp, #48]
	str	x8, [x21]
	ldr	x21, [sp, #64]
	add	sp, sp, #96
	ret
.LBB52_11:
	ldrh	w9, [x10, w11, uxtw #1]
	ldr	x20, [x0, #512]
	cmp	x8, #4
	add	x21, x0, #512
	strh	w9, [x12, #36]
	b.ne	.LBB52_13
	mov	x19, xzr
	b	.LBB52_10
.LBB52_13:
	mov	w10, #4
	add	x9, x8, #36
	sub	x19, x10, x8
	b	.LBB52_9
.Lfunc_end52:
	.size	"sq_digits::decimal::push_longest::<=512>", .Lfunc_end52-"sq_digits::decimal::push_longest::<=512>"

	.section	".text.sq_feed::lines::push_short_tail::<=512>","ax",@progbits
	.p2align	2
	.type	"sq_feed::lines::push_short_tail::<=512>",@function
"sq_feed::lines::push_short_tail::<=512>":
	ldrb	w10, [x1]
	ldrb	w11, [x1, #1]
	adrp	x9, .Lstatic.67
	add	x9, x9, :lo12:.Lstatic.67
	ldrb	w12, [x1, #2]
	ldrb	w13, [x1, #3]
	ldrb	w14, [x1, #4]
	ldrb	w16, [x1, #5]
	mov	w8, #32
	ldrb	w17, [x1, #6]
	ldr	x15, [x0, #512]
	ldrh	w10, [x9, x10, lsl #1]
	ldrh	w11, [x9, x11, lsl #1]
	ldrh	w12, [x9, x12, lsl #1]
	ldrh	w13, [x9, x13, lsl #1]
	add	x18, x0, x15
	ldrh	w14, [x9, x14, lsl #1]
	ldrh	w16, [x9, x16, lsl #1]
	ldrh	w9, [x9, x17, lsl #1]
	strb	w8, [x18]
	mov	w8, #10
	sturh	w10, [x18, #1]
	sturh	w9, [x18, #13]
	add	x9, x15, #16
	sturh	w11, [x18, #3]
	sturh	w12, [x18, #5]
	sturh	w13, [x18, #7]
	sturh	w14, [x18, #9]
	sturh	w16, [x18, #11]
	strb	w8, [x18, #15]
	str	x9, [x0, #512]
	ret
.Lfunc_end53:
	.size	"sq_feed::lines::push_short_tail::<=512>", .Lfunc_end53-"sq_feed::lines::push_short_tail::<=512>"

	.section	.rodata.cst16,"aM",@progbits,16
	.p2align	4, 0x0
.LCPI54_0:
	.byte	1
	.byte	2
	.byte	4
	.byte	8
	.byte	16
	.byte	32
	.byte	64
	.byte	128
	.byte	1
	.byte	2
	.byte	4
	.byte	8
	.byte	16
	.byte	32
	.byte	64
	.byte	128
.LCPI54_2:
	.xword	24
	.xword	32
.LCPI54_3:
	.xword	40
	.xword	48
.LCPI54_4:
	.xword	8
	.xword	16
	.section	.rodata.cst8,"aM",@progbits,8
	.p2align	3, 0x0
.LCPI54_1:
	.byte	5
	.byte	7
	.byte	9
	.byte	11
	.byte	13
	.byte	15
	.byte	255
	.byte	255
	.section	".text.sq_text::frame_text::read_text","ax",@progbits
	.p2align	2
	.type	"sq_text::frame_text::read_text",@function
"sq_text::frame_text::read_text":
	sub	sp, sp, #16
	cbz	x2, .LBB54_14
	cmp	x2, #1
	b.ne	.LBB54_5
	ldrb	w8, [x1]
	cmp	w8, #42
	b.eq	.LBB54_9
	cmp	w8, #59
	b.eq	.LBB54_9
	mov	w9, wzr
	mov	w10, wzr
	mov	w11, wzr
	movi	v0.2d, #0000000000000000
	mov	w8, #1
	mov	w12, #2
	mov	w2, #1
	b	.LBB54_15
.LBB54_5:
	ldrb	w9, [x1]
	add	x8, x1, x2
	ldurb	w8, [x8, #-1]
	cmp	w9, #42
	b.ne	.LBB54_8
	cmp	w8, #59
	b.ne	.LBB54_9
	add	x1, x1, #1
	sub	x2, x2, #2
	b	.LBB54_10
.LBB54_8:
	cmp	w8, #59
	b.ne	.LBB54_10
.LBB54_9:
	mov	w8, #1
	str	xzr, [x0, #16]
	strb	w8, [x0]
	stur	xzr, [x0, #1]
	stur	xzr, [x0, #7]
	add	sp, sp, #16
	ret
.LBB54_10:
	cmp	x2, #14
	b.eq	.LBB54_31
	cmp	x2, #28
	b.ne	.LBB54_14
	movi	v0.16b, #223
	ldr	q1, [x1]
	movi	v2.16b, #198
	ldur	q4, [x1, #12]
	movi	v3.16b, #64
	movi	v6.16b, #6
	movi	v7.16b, #10
	movi	v16.16b, #191
	adrp	x8, .LCPI54_0
	movi	v17.16b, #16
	and	v5.16b, v1.16b, v0.16b
	and	v0.16b, v4.16b, v0.16b
	add	v1.16b, v1.16b, v2.16b
	add	v2.16b, v4.16b, v2.16b
	sub	v4.16b, v3.16b, v5.16b
	sub	v3.16b, v3.16b, v0.16b
	uqsub	v1.16b, v1.16b, v6.16b
	uqsub	v2.16b, v2.16b, v6.16b
	add	v5.16b, v5.16b, v16.16b
	add	v0.16b, v0.16b, v16.16b
	umin	v4.16b, v4.16b, v7.16b
	umin	v3.16b, v3.16b, v7.16b
	add	v1.16b, v1.16b, v17.16b
	add	v2.16b, v2.16b, v17.16b
	add	v4.16b, v5.16b, v4.16b
	add	v3.16b, v0.16b, v3.16b
	umin	v0.16b, v1.16b, v4.16b
	umin	v1.16b, v2.16b, v3.16b
	movi	v2.16b, #15
	orr	v3.16b, v1.16b, v0.16b
	cmhi	v2.16b, v3.16b, v2.16b
	ldr	q3, [x8, :lo12:.LCPI54_0]
	and	v2.16b, v2.16b, v3.16b
	addp	v2.16b, v2.16b, v2.16b
	addp	v2.16b, v2.16b, v2.16b
	addp	v2.16b, v2.16b, v2.16b
	umov	w8, v2.h[0]
	cbz	w8, .LBB54_32
	mov	x8, xzr
	mov	x9, sp
	stur	xzr, [sp, #6]
	str	xzr, [sp]
	b	.LBB54_18
.LBB54_14:
	movi	v0.2d, #0000000000000000
	mov	w9, wzr
	mov	w10, wzr
	mov	w11, wzr
	mov	w8, #1
	mov	w12, #2
.LBB54_15:
	uzp1	v0.8b, v0.8b, v0.8b
	strb	w8, [x0]
	lsr	x8, x12, #48
	strb	w9, [x0, #5]
	lsr	x9, x12, #32
	strb	w10, [x0, #6]
	strb	w11, [x0, #7]
	stur	s0, [x0, #1]
	str	w12, [x0, #8]
	strb	w8, [x0, #14]
	strh	w9, [x0, #12]
	str	x2, [x0, #16]
	add	sp, sp, #16
	ret
.LBB54_16:
	sub	w12, w11, #55
.LBB54_17:
	add	w10, w12, w10, lsl #4
	sub	x8, x8, #2
	add	x1, x1, #2
	cmn	x8, #28
	strb	w10, [x9], #1
	b.eq	.LBB54_36
.LBB54_18:
	ldrb	w12, [x1]
	subs	w10, w12, #48
	b.lo	.LBB54_33
	ldrb	w11, [x1, #1]
	cmp	w12, #57
	b.ls	.LBB54_25
	cmp	w12, #65
	b.lo	.LBB54_33
	cmp	w12, #70
	b.hi	.LBB54_23
	sub	w10, w12, #55
	b	.LBB54_25
.LBB54_23:
	sub	w10, w12, #97
	cmp	w10, #5
	b.hi	.LBB54_33
	sub	w10, w12, #87
.LBB54_25:
	subs	w12, w11, #48
	b.lo	.LBB54_34
	cmp	w11, #57
	b.ls	.LBB54_17
	cmp	w11, #65
	b.lo	.LBB54_34
	cmp	w11, #70
	b.ls	.LBB54_16
	sub	w12, w11, #97
	cmp	w12, #5
	b.hi	.LBB54_34
	sub	w12, w11, #87
	b	.LBB54_17
.LBB54_31:
	mov	w12, #1
	mov	w9, wzr
	mov	w10, wzr
	mov	w11, wzr
	mov	x2, xzr
	movi	v0.2d, #0000000000000000
	mov	w8, w12
	b	.LBB54_15
.LBB54_32:
	xtn	v2.8b, v1.8h
	adrp	x9, .LCPI54_1
	adrp	x10, .LCPI54_4
	ldr	d3, [x9, :lo12:.LCPI54_1]
	adrp	x9, .LCPI54_3
	ldr	q5, [x10, :lo12:.LCPI54_4]
	mov	x2, xzr
	tbl	v1.8b, { v1.16b }, v3.8b
	ldr	q3, [x9, :lo12:.LCPI54_3]
	adrp	x9, .LCPI54_2
	shl	v2.8b, v2.8b, #4
	ext	v2.8b, v2.8b, v0.8b, #2
	orr	v1.8b, v2.8b, v1.8b
	ushll	v1.8h, v1.8b, #0
	ushll2	v2.4s, v1.8h, #0
	ushll	v1.4s, v1.4h, #0
	ushll	v2.2d, v2.2s, #0
	ushll	v4.2d, v1.2s, #0
	ushll2	v1.2d, v1.4s, #0
	ushl	v2.2d, v2.2d, v3.2d
	ushl	v3.2d, v4.2d, v5.2d
	ldr	q4, [x9, :lo12:.LCPI54_2]
	ushl	v1.2d, v1.2d, v4.2d
	xtn	v4.8b, v0.8h
	uzp2	v0.16b, v0.16b, v0.16b
	orr	v2.16b, v3.16b, v2.16b
	orr	v1.16b, v2.16b, v1.16b
	shl	v2.8b, v4.8b, #4
	ext	v3.16b, v1.16b, v1.16b, #8
	orr	v0.8b, v2.8b, v0.8b
	umov	w12, v0.b[7]
	umov	w9, v0.b[4]
	umov	w10, v0.b[5]
	orr	v1.8b, v1.8b, v3.8b
	umov	w11, v0.b[6]
	zip1	v0.8b, v0.8b, v0.8b
	fmov	x13, d1
	orr	x12, x13, x12
	b	.LBB54_15
.LBB54_33:
	neg	x8, x8
	b	.LBB54_35
.LBB54_34:
	mov	w9, #1
	sub	x8, x9, x8
.LBB54_35:
	mov	w9, wzr
	mov	w10, wzr
	mov	w11, wzr
	movi	v0.2d, #0000000000000000
	add	x2, x8, #1
	mov	w8, #1
	mov	w12, #3
	b	.LBB54_15
.LBB54_36:
	ldrb	w9, [sp, #13]
	ldurh	w10, [sp, #11]
	mov	w8, wzr
	ldur	w11, [sp, #7]
	ldr	s0, [sp]
	mov	x2, xzr
	orr	w9, w10, w9, lsl #16
	ldrb	w10, [sp, #5]
	ushll	v0.8h, v0.8b, #0
	orr	x12, x11, x9, lsl #32
	ldrb	w9, [sp, #4]
	ldrb	w11, [sp, #6]
	b	.LBB54_15
.Lfunc_end54:
	.size	"sq_text::frame_text::read_text", .Lfunc_end54-"sq_text::frame_text::read_text"

	.section	.rodata.cst8,"aM",@progbits,8
	.p2align	3, 0x0
.LCPI55_0:
	.word	1
	.word	0
	.section	".text.squitter_c::decode::near","ax",@progbits
	.p2align	2
	.type	"squitter_c::decode::near",@function
"squitter_c::decode::near":
	sub	sp, sp, #128
	mov	x12, #-4097
	ldr	x9, [x2, #8]
	stp	x29, x30, [sp, #96]
	movk	x12, #11098, lsl #16
	str	x19, [sp, #112]
	add	x29, sp, #96
	movk	x12, #65303, lsl #32
	stp	xzr, xzr, [sp, #24]
	add	x8, x9, x12
	add	x10, x12, #1
	stp	xzr, xzr, [sp, #8]
	cmp	x8, x10
	b.lo	.LBB55_4
	mov	w8, #360
	ldr	x10, [x2]
	mul	x11, x9, x8
	cmp	x10, #0
	cneg	x8, x10, mi
	cmp	x11, x8
	b.lo	.LBB55_4
	ldr	x11, [x2, #24]
	add	x13, x11, x12
	add	x12, x12, #1
	cmp	x13, x12
	b.lo	.LBB55_4
	mov	w12, #360
	mul	x14, x11, x12
	ldr	x12, [x2, #16]
	cmp	x12, #0
	cneg	x13, x12, mi
	cmp	x14, x13
	b.hs	.LBB55_5
.LBB55_4:
	adrp	x8, .LCPI55_0
	mov	w9, #3
	stur	xzr, [x0, #17]
	ldr	d0, [x8, :lo12:.LCPI55_0]
	stur	xzr, [x0, #9]
	strb	w9, [x0, #8]
	str	d0, [x0]
	str	xzr, [x0, #24]
	ldp	x29, x30, [sp, #96]
	ldr	x19, [sp, #112]
	add	sp, sp, #128
	ret
.LBB55_5:
	mov	w14, #90
	mul	x14, x9, x14
	cmp	x8, x14
	b.hi	.LBB55_4
	mov	w8, #180
	mul	x8, x11, x8
	cmp	x13, x8
	b.hi	.LBB55_4
	ldr	x8, [x1]
	stp	x10, x9, [x29, #-32]
	stp	x12, x11, [x29, #-16]
	rev	x8, x8
	lsr	x13, x8, #59
	cmp	x13, #17
	b.ne	.LBB55_11
	mov	w9, #572
	lsr	x11, x8, #46
	adrp	x10, .Lstatic.44
	add	x10, x10, :lo12:.Lstatic.44
	and	x9, x9, x8, lsr #54
	lsr	x12, x8, #24
	and	x13, x11, #0x3fc
	adrp	x11, .Lstatic.45
	add	x11, x11, :lo12:.Lstatic.45
	ldr	w9, [x10, x9]
	ldr	w13, [x11, x13]
	ldur	w14, [x1, #10]
	ldrb	w15, [x1, #8]
	eor	w9, w9, w12
	ldrb	w12, [x1, #9]
	eor	w9, w9, w13
	lsl	x13, x14, #32
	lsr	w14, w9, #14
	lsr	w16, w9, #6
	ubfiz	x9, x9, #2, #8
	orr	x12, x13, x12, lsl #24
	and	x13, x14, #0x3fc
	adrp	x14, .Lstatic.43
	add	x14, x14, :lo12:.Lstatic.43
	and	x16, x16, #0x3fc
	ldr	w13, [x14, x13]
	ldr	w9, [x11, x9]
	ldr	w16, [x10, x16]
	orr	x12, x12, x15, lsl #16
	eor	w13, w13, w8
	eor	w9, w16, w9
	rev	x12, x12
	eor	w13, w13, w9
	orr	x9, x12, x8, lsl #48
	and	w12, w12, #0xffffff
	lsr	w15, w13, #14
	lsr	w16, w13, #6
	ubfiz	x13, x13, #2, #8
	lsr	x17, x9, #24
	and	x15, x15, #0x3fc
	and	x16, x16, #0x3fc
	ldr	w13, [x11, x13]
	ldr	w15, [x14, x15]
	ldr	w16, [x10, x16]
	eor	w13, w13, w17
	eor	w15, w16, w15
	eor	w13, w15, w13
	lsr	w15, w13, #6
	ubfiz	x16, x13, #2, #8
	lsr	w13, w13, #14
	and	x15, x15, #0x3fc
	ldr	w11, [x11, x16]
	and	x13, x13, #0x3fc
	ldr	w15, [x10, x15]
	ldr	w10, [x14, x13]
	eor	w11, w12, w11
	eor	w11, w15, w11
	cmp	w10, w11
	b.ne	.LBB55_12
	lsr	x16, x8, #16
	ubfx	x10, x8, #56, #3
	ubfx	x11, x8, #32, #24
	extr	x12, x16, x9, #24
	ubfx	x13, x12, #51, #5
	and	x14, x12, #0xffffffffffffff
	cmp	x13, #5
	b.hs	.LBB55_14
	mov	x19, x0
	mov	w18, wzr
	mov	x17, xzr
	mov	w15, #2
	b	.LBB55_20
.LBB55_11:
	mov	x8, xzr
	mov	w9, #6
	b	.LBB55_13
.LBB55_12:
	eor	w8, w11, w10
	mov	x13, xzr
	mov	w9, #7
	lsl	x8, x8, #32
.LBB55_13:
	orr	x9, x9, x13, lsl #8
	mov	w10, #1
	stur	xzr, [x0, #4]
	str	wzr, [x0, #12]
	orr	x8, x9, x8
	str	w10, [x0]
	stp	x8, xzr, [x0, #16]
	ldp	x29, x30, [sp, #96]
	ldr	x19, [sp, #112]
	add	sp, sp, #128
	ret
.LBB55_14:
	lsr	x1, x14, #51
	mov	x19, x0
	cmp	x1, #8
	b.hi	.LBB55_16
	lsr	x14, x8, #3
	lsr	x8, x8, #12
	extr	x15, x16, x9, #36
	lsr	x16, x9, #27
	lsr	x17, x9, #41
	ubfx	x18, x9, #58, #1
	and	x14, x14, #0x10000
	and	x8, x8, #0x7f00
	and	x15, x15, #0x7f000000
	orr	x8, x8, x14
	and	x14, x16, #0x100000000
	orr	x9, x17, x12, lsl #32
	orr	x8, x8, x15
	mov	w15, #1
	orr	x8, x8, x14
	and	x14, x9, #0x1ffff0001ffff
	orr	x17, x8, x13
	b	.LBB55_20
.LBB55_16:
	cmp	x1, #19
	b.lo	.LBB55_19
	mov	x17, xzr
	mov	w18, wzr
	cmp	x13, #19
	mov	w15, #2
	b.eq	.LBB55_20
	cmp	x1, #22
	b.hi	.LBB55_20
.LBB55_19:
	lsr	x14, x8, #8
	lsr	x8, x8, #17
	extr	x16, x16, x9, #28
	lsr	x17, x9, #41
	lsr	x18, x9, #11
	mov	w15, wzr
	and	x14, x14, #0x10000
	and	x8, x8, #0x300
	orr	x8, x8, x14
	and	x14, x16, #0xfff00000000
	and	x16, x18, #0x1000000000000
	orr	x8, x8, x14
	orr	x12, x17, x12, lsl #32
	ubfx	x18, x9, #58, #1
	orr	x8, x8, x16
	orr	x17, x8, x13
	and	x14, x12, #0x1ffff0001ffff
.LBB55_20:
	add	x0, sp, #8
	add	x1, sp, #32
	sub	x2, x29, #32
	strb	w10, [sp, #32]
	stp	w11, w15, [sp, #36]
	str	w18, [sp, #44]
	stp	x14, x17, [sp, #48]
	bl	"sq_message::place::place_local"
	ldrb	w8, [sp, #8]
	cbz	w8, .LBB55_22
	ldrb	w11, [sp, #9]
	ldrb	w13, [sp, #10]
	mov	w10, wzr
	ldrb	w15, [sp, #11]
	mov	x12, xzr
	mov	w9, wzr
	mov	w14, #1
	b	.LBB55_23
.LBB55_22:
	ldrb	w9, [sp, #12]
	ldrb	w14, [sp, #16]
	ldrb	w11, [sp, #17]
	ldrb	w13, [sp, #18]
	ldrb	w15, [sp, #19]
	ldr	w10, [sp, #20]
	ldr	x12, [sp, #24]
.LBB55_23:
	stp	w8, w9, [x19]
	strb	w14, [x19, #8]
	strb	w11, [x19, #9]
	strb	w13, [x19, #10]
	strb	w15, [x19, #11]
	str	w10, [x19, #12]
	stp	x12, xzr, [x19, #16]
	ldp	x29, x30, [sp, #96]
	ldr	x19, [sp, #112]
	add	sp, sp, #128
	ret
.Lfunc_end55:
	.size	"squitter_c::decode::near", .Lfunc_end55-"squitter_c::decode::near"

	.section	".text.sq_message::place::place_local","ax",@progbits
	.p2align	2
	.type	"sq_message::place::place_local",@function
"sq_message::place::place_local":
	sub	sp, sp, #80
	ldrb	w8, [x1, #8]
	stp	x29, x30, [sp, #16]
	add	x29, sp, #16
	stp	x24, x23, [sp, #32]
	cmp	w8, #2
	stp	x22, x21, [sp, #48]
	stp	x20, x19, [sp, #64]
	sturb	wzr, [x29, #-2]
	sturh	wzr, [x29, #-4]
	strh	wzr, [sp, #8]
	strb	wzr, [sp, #10]
	b.eq	.LBB56_6
	cmp	w8, #1
	b.ne	.LBB56_7
	ldrb	w19, [x1, #12]
	ldr	x8, [x2]
	mov	w9, #60
	ldp	w23, w21, [x1, #16]
	sub	x22, x9, x19
	cbz	x8, .LBB56_11
	ldr	x9, [x2, #8]
	mov	w10, #90
	mul	x9, x9, x10
	mov	w10, w22
	mul	x11, x10, x8
	smulh	x8, x10, x8
	lsl	x13, x9, #17
	lsr	x3, x9, #46
	mul	x10, x9, x23
	umulh	x12, x9, x23
	extr	x8, x8, x11, #47
	subs	x10, x10, x11, lsl #17
	lsr	x11, x9, #47
	lsl	x9, x9, #18
	sbc	x8, x12, x8
	extr	x8, x8, x10, #63
	adds	x10, x13, x10, lsl #1
	adc	x11, x11, x8
	subs	x8, x10, #1
	mov	x10, #-1
	adc	x1, x11, x10
	tbnz	x1, #63, .LBB56_32
	cmp	x8, x9
	sbcs	xzr, x1, x3
	b.hs	.LBB56_32
	sub	w20, w23, wzr
	cmp	w19, #60
	b.ne	.LBB56_13
	b	.LBB56_24
.LBB56_6:
	mov	w19, wzr
	mov	w20, wzr
	mov	w22, wzr
	mov	w8, wzr
	mov	w10, wzr
	mov	w9, #1
	b	.LBB56_53
.LBB56_7:
	ldrb	w19, [x1, #12]
	ldr	x8, [x2]
	mov	w9, #60
	ldp	w20, w21, [x1, #16]
	sub	x22, x9, x19
	cbz	x8, .LBB56_22
	ldr	x9, [x2, #8]
	mov	w10, #360
	mul	x9, x9, x10
	mov	w10, w22
	mul	x11, x10, x8
	smulh	x8, x10, x8
	lsl	x13, x9, #17
	lsr	x3, x9, #46
	mul	x10, x9, x20
	umulh	x12, x9, x20
	extr	x8, x8, x11, #47
	subs	x10, x10, x11, lsl #17
	lsr	x11, x9, #47
	lsl	x9, x9, #18
	sbc	x8, x12, x8
	extr	x8, x8, x10, #63
	adds	x10, x13, x10, lsl #1
	adc	x11, x11, x8
	subs	x8, x10, #1
	mov	x10, #-1
	adc	x1, x11, x10
	tbnz	x1, #63, .LBB56_33
	cmp	x8, x9
	sbcs	xzr, x1, x3
	b.hs	.LBB56_33
	sub	w20, w20, wzr
	cmp	w19, #60
	b.eq	.LBB56_24
	b	.LBB56_36
.LBB56_11:
	cmp	w23, #16, lsl #12
	mov	w20, w23
	b.hi	.LBB56_34
	cmp	w19, #60
	b.eq	.LBB56_24
.LBB56_13:
	mov	w8, #90
	mov	w9, #47185920
	smull	x8, w20, w8
	umull	x9, w22, w9
	cmp	x8, #0
	cneg	x8, x8, mi
	cmp	x9, x8
	b.lo	.LBB56_24
	mov	w9, #11796480
	umull	x9, w22, w9
	cmp	x8, x9
	b.hi	.LBB56_24
	mov	w9, #57600
	movk	w9, #1525, lsl #16
	mul	x10, x8, x9
	umulh	x11, x8, x9
	lsl	x8, x22, #17
	sub	x9, x8, #1
	adds	x9, x10, x9
	cinc	x1, x11, hs
	extr	x10, x1, x9, #56
	cbnz	x10, .LBB56_54
	lsr	x8, x9, #17
	adrp	x9, .Lstatic.40
	add	x9, x9, :lo12:.Lstatic.40
	ldr	x9, [x9, x22, lsl #3]
	mul	x10, x9, x8
	umulh	x8, x9, x8
	extr	x8, x8, x10, #48
.LBB56_17:
	lsr	x9, x8, #25
	adrp	x10, .Lstatic.41
	add	x10, x10, :lo12:.Lstatic.41
	ldrb	w9, [x10, x9]
	adrp	x10, .Lstatic.42
	add	x10, x10, :lo12:.Lstatic.42
	ldr	x10, [x10, x9, lsl #3]
	add	w9, w9, w19
	cmp	x8, x10
	mov	w8, #58
	cinc	w8, w8, ls
	sub	w9, w8, w9
	ldr	x8, [x2, #16]
	and	w10, w9, #0xff
	tst	w9, #0xfe
	csinc	w22, w10, wzr, ne
	cbz	x8, .LBB56_25
	ldr	x9, [x2, #24]
	mov	w10, #90
	mul	x9, x9, x10
	mul	x10, x22, x8
	smulh	x8, x22, x8
	lsl	x13, x9, #17
	lsr	x3, x9, #46
	lsl	x2, x9, #18
	mul	x11, x9, x21
	umulh	x12, x9, x21
	extr	x8, x8, x10, #47
	subs	x10, x11, x10, lsl #17
	lsr	x11, x9, #47
	sbc	x8, x12, x8
	extr	x8, x8, x10, #63
	adds	x10, x13, x10, lsl #1
	adc	x11, x11, x8
	subs	x8, x10, #1
	mov	x10, #-1
	adc	x1, x11, x10
	tbnz	x1, #63, .LBB56_56
	cmp	x8, x2
	sbcs	xzr, x1, x3
	b.hs	.LBB56_56
	mov	w8, wzr
.LBB56_21:
	sub	w21, w21, w8
	ubfiz	x9, x22, #19, #32
	cmp	w21, #0
	csel	x8, x9, xzr, mi
	adds	x8, x8, w21, sxtw
	b.pl	.LBB56_27
	b	.LBB56_28
.LBB56_22:
	cmp	w20, #16, lsl #12
	b.hi	.LBB56_35
	cmp	w19, #60
	b.ne	.LBB56_36
.LBB56_24:
	mov	w8, #1281
	stur	xzr, [x0, #10]
	strh	w8, [x0]
	stur	xzr, [x0, #2]
	str	xzr, [x0, #16]
	ldp	x20, x19, [sp, #64]
	ldp	x22, x21, [sp, #48]
	ldp	x24, x23, [sp, #32]
	ldp	x29, x30, [sp, #16]
	add	sp, sp, #80
	ret
.LBB56_25:
	cmp	w21, #16, lsl #12
	b.hi	.LBB56_58
	ubfiz	x9, x22, #19, #32
	cmp	w21, #0
	csel	x8, x9, xzr, mi
	adds	x8, x8, w21, sxtw
	b.mi	.LBB56_28
.LBB56_27:
	cmp	x8, x9
	b.lt	.LBB56_31
.LBB56_28:
	tbnz	w21, #31, .LBB56_30
	udiv	w8, w21, w9
	msub	w8, w8, w9, w21
	b	.LBB56_31
.LBB56_30:
	mvn	w8, w21
	udiv	w10, w8, w9
	msub	w8, w10, w9, w8
	mvn	w8, w8
	add	x8, x9, x8
.LBB56_31:
	mov	w9, wzr
	mov	w10, #1
	sturb	wzr, [x29, #-2]
	sturh	wzr, [x29, #-4]
	b	.LBB56_52
.LBB56_32:
	mov	x20, x0
	mov	x0, x8
	mov	x24, x2
	mov	x2, x9
	bl	"sq_cpr::index::far_quotient"
	mov	x8, x0
	mov	x2, x24
	mov	x0, x20
	lsl	w8, w8, #17
	sub	w20, w23, w8
	cmp	w19, #60
	b.ne	.LBB56_13
	b	.LBB56_24
.LBB56_33:
	mov	x23, x0
	mov	x0, x8
	mov	x24, x2
	mov	x2, x9
	bl	"sq_cpr::index::far_quotient"
	mov	x8, x0
	mov	x2, x24
	mov	x0, x23
	lsl	w8, w8, #17
	sub	w20, w20, w8
	cmp	w19, #60
	b.eq	.LBB56_24
	b	.LBB56_36
.LBB56_34:
	mov	w8, #131071
	mov	x20, x0
	mov	w1, #262144
	add	x8, x8, x23, lsl #1
	mov	x24, x2
	mov	x0, x8
	bl	"sq_cpr::index::rare_quotient"
	mov	x8, x0
	mov	x2, x24
	mov	x0, x20
	sub	w20, w23, w8, lsl #17
	cmp	w19, #60
	b.ne	.LBB56_13
	b	.LBB56_24
.LBB56_35:
	mov	w8, #131071
	mov	x23, x0
	mov	w1, #262144
	add	x8, x8, x20, lsl #1
	mov	x24, x2
	mov	x0, x8
	bl	"sq_cpr::index::rare_quotient"
	mov	x8, x0
	mov	x2, x24
	mov	x0, x23
	sub	w20, w20, w8, lsl #17
	cmp	w19, #60
	b.eq	.LBB56_24
.LBB56_36:
	mov	w8, #360
	mov	w9, #47185920
	smull	x8, w20, w8
	umull	x9, w22, w9
	cmp	x8, #0
	cneg	x8, x8, mi
	cmp	x9, x8
	b.lo	.LBB56_24
	mov	w9, #11796480
	umull	x9, w22, w9
	cmp	x8, x9
	b.hi	.LBB56_24
	mov	w9, #57600
	movk	w9, #1525, lsl #16
	mul	x10, x8, x9
	umulh	x11, x8, x9
	lsl	x8, x22, #17
	sub	x9, x8, #1
	adds	x9, x10, x9
	cinc	x1, x11, hs
	extr	x10, x1, x9, #56
	cbnz	x10, .LBB56_55
	lsr	x8, x9, #17
	adrp	x9, .Lstatic.40
	add	x9, x9, :lo12:.Lstatic.40
	ldr	x9, [x9, x22, lsl #3]
	mul	x10, x9, x8
	umulh	x8, x9, x8
	extr	x8, x8, x10, #48
.LBB56_40:
	lsr	x9, x8, #25
	adrp	x10, .Lstatic.41
	add	x10, x10, :lo12:.Lstatic.41
	ldrb	w9, [x10, x9]
	adrp	x10, .Lstatic.42
	add	x10, x10, :lo12:.Lstatic.42
	ldr	x10, [x10, x9, lsl #3]
	add	w9, w9, w19
	cmp	x8, x10
	mov	w8, #58
	cinc	w8, w8, ls
	sub	w9, w8, w9
	ldr	x8, [x2, #16]
	and	w10, w9, #0xff
	tst	w9, #0xfe
	csinc	w22, w10, wzr, ne
	cbz	x8, .LBB56_45
	ldr	x9, [x2, #24]
	mov	w10, #360
	mul	x9, x9, x10
	mul	x10, x22, x8
	smulh	x8, x22, x8
	lsl	x13, x9, #17
	lsr	x3, x9, #46
	lsl	x2, x9, #18
	mul	x11, x9, x21
	umulh	x12, x9, x21
	extr	x8, x8, x10, #47
	subs	x10, x11, x10, lsl #17
	lsr	x11, x9, #47
	sbc	x8, x12, x8
	extr	x8, x8, x10, #63
	adds	x10, x13, x10, lsl #1
	adc	x11, x11, x8
	subs	x8, x10, #1
	mov	x10, #-1
	adc	x1, x11, x10
	tbnz	x1, #63, .LBB56_57
	cmp	x8, x2
	sbcs	xzr, x1, x3
	b.hs	.LBB56_57
	mov	w8, wzr
.LBB56_44:
	sub	w21, w21, w8
	ubfiz	x9, x22, #17, #32
	cmp	w21, #0
	csel	x8, x9, xzr, mi
	adds	x8, x8, w21, sxtw
	b.pl	.LBB56_47
	b	.LBB56_48
.LBB56_45:
	cmp	w21, #16, lsl #12
	b.hi	.LBB56_59
	ubfiz	x9, x22, #17, #32
	cmp	w21, #0
	csel	x8, x9, xzr, mi
	adds	x8, x8, w21, sxtw
	b.mi	.LBB56_48
.LBB56_47:
	cmp	x8, x9
	b.lt	.LBB56_51
.LBB56_48:
	tbnz	w21, #31, .LBB56_50
	udiv	w8, w21, w9
	msub	w8, w8, w9, w21
	b	.LBB56_51
.LBB56_50:
	mvn	w8, w21
	udiv	w10, w8, w9
	msub	w8, w10, w9, w8
	mvn	w8, w8
	add	x8, x9, x8
.LBB56_51:
	mov	w9, wzr
	mov	w10, wzr
	sturb	wzr, [x29, #-2]
	sturh	wzr, [x29, #-4]
.LBB56_52:
	strh	wzr, [sp, #8]
	strb	wzr, [sp, #10]
.LBB56_53:
	strb	w9, [x0]
	ldurh	w9, [x29, #-4]
	str	w10, [x0, #4]
	ldurb	w10, [x29, #-2]
	sturh	w9, [x0, #9]
	ldrh	w9, [sp, #8]
	strb	w10, [x0, #11]
	ldrb	w10, [sp, #10]
	sturh	wzr, [x0, #1]
	strb	wzr, [x0, #3]
	strb	w19, [x0, #8]
	str	w20, [x0, #12]
	strb	w22, [x0, #16]
	sturh	w9, [x0, #17]
	strb	w10, [x0, #19]
	str	w8, [x0, #20]
	ldp	x20, x19, [sp, #64]
	ldp	x22, x21, [sp, #48]
	ldp	x24, x23, [sp, #32]
	ldp	x29, x30, [sp, #16]
	add	sp, sp, #80
	ret
.LBB56_54:
	mov	x22, x0
	mov	x0, x9
	mov	x23, x2
	mov	x2, x8
	bl	"sq_angle::quotients::divided"
	mov	x2, x23
	mov	x8, x0
	mov	x0, x22
	b	.LBB56_17
.LBB56_55:
	mov	x22, x0
	mov	x0, x9
	mov	x23, x2
	mov	x2, x8
	bl	"sq_angle::quotients::divided"
	mov	x2, x23
	mov	x8, x0
	mov	x0, x22
	b	.LBB56_40
.LBB56_56:
	mov	x23, x0
	mov	x0, x8
	bl	"sq_cpr::index::far_quotient"
	mov	x8, x0
	mov	x0, x23
	lsl	w8, w8, #17
	b	.LBB56_21
.LBB56_57:
	mov	x23, x0
	mov	x0, x8
	bl	"sq_cpr::index::far_quotient"
	mov	x8, x0
	mov	x0, x23
	lsl	w8, w8, #17
	b	.LBB56_44
.LBB56_58:
	mov	w8, #131071
	mov	x23, x0
	mov	w1, #262144
	add	x8, x8, x21, lsl #1
	mov	x0, x8
	bl	"sq_cpr::index::rare_quotient"
	mov	x8, x0
	mov	x0, x23
	sub	w21, w21, w8, lsl #17
	ubfiz	x9, x22, #19, #32
	cmp	w21, #0
	csel	x8, x9, xzr, mi
	adds	x8, x8, w21, sxtw
	b.pl	.LBB56_27
	b	.LBB56_28
.LBB56_59:
	mov	w8, #131071
	mov	x23, x0
	mov	w1, #262144
	add	x8, x8, x21, lsl #1
	mov	x0, x8
	bl	"sq_cpr::index::rare_quotient"
	mov	x8, x0
	mov	x0, x23
	sub	w21, w21, w8, lsl #17
	ubfiz	x9, x22, #17, #32
	cmp	w21, #0
	csel	x8, x9, xzr, mi
	adds	x8, x8, w21, sxtw
	b.pl	.LBB56_47
	b	.LBB56_48
.Lfunc_end56:
	.size	"sq_message::place::place_local", .Lfunc_end56-"sq_message::place::place_local"

	.section	".text.sq_cpr::index::index_within","ax",@progbits
	.p2align	2
	.type	"sq_cpr::index::index_within",@function
"sq_cpr::index::index_within":
	stp	x29, x30, [sp, #-32]!
	stp	x20, x19, [sp, #16]
	mov	x29, sp
	cbz	x4, .LBB57_6
	mov	w8, w3
	and	x9, x2, #0xff
	asr	x12, x0, #63
	mul	x8, x5, x8
	ubfiz	x19, x1, #17, #8
	mul	x10, x9, x4
	smulh	x9, x9, x4
	umulh	x11, x8, x0
	mul	x13, x8, x19
	extr	x9, x9, x10, #47
	madd	x11, x8, x12, x11
	mul	x12, x8, x0
	lsl	x2, x13, #1
	umulh	x14, x8, x19
	subs	x8, x12, x10, lsl #17
	mov	x10, #-1
	sbc	x9, x11, x9
	extr	x9, x9, x8, #63
	adds	x8, x13, x8, lsl #1
	extr	x3, x14, x13, #63
	adc	x9, x14, x9
	subs	x8, x8, #1
	adc	x1, x9, x10
	tbnz	x1, #63, .LBB57_9
	cmp	x8, x2
	sbcs	xzr, x1, x3
	b.hs	.LBB57_9
	mov	x8, xzr
.LBB57_4:
	sub	w0, w0, w8
.LBB57_5:
	ldp	x20, x19, [sp, #16]
	ldp	x29, x30, [sp], #32
	ret
.LBB57_6:
	and	x9, x1, #0xff
	lsl	x19, x9, #17
	lsl	x1, x9, #18
	add	x8, x19, x0, lsl #1
	subs	x8, x8, #1
	b.mi	.LBB57_8
	cmp	x8, x1
	b.lo	.LBB57_5
.LBB57_8:
	mov	x20, x0
	mov	x0, x8
	bl	"sq_cpr::index::rare_quotient"
	msub	x0, x0, x19, x20
	ldp	x20, x19, [sp, #16]
	ldp	x29, x30, [sp], #32
	ret
.LBB57_9:
	mov	x20, x0
	mov	x0, x8
	bl	"sq_cpr::index::far_quotient"
	mov	x8, x0
	mov	x0, x20
	mul	x8, x8, x19
	b	.LBB57_4
.Lfunc_end57:
	.size	"sq_cpr::index::index_within", .Lfunc_end57-"sq_cpr::index::index_within"

	.section	".text.unlikely.sq_cpr::index::rare_quotient","ax",@progbits
	.p2align	2
	.type	"sq_cpr::index::rare_quotient",@function
"sq_cpr::index::rare_quotient":
	tbnz	x0, #63, .LBB58_3
	cbz	x1, .LBB58_5
	udiv	x0, x0, x1
	ret
.LBB58_3:
	cbz	x1, .LBB58_5
	mvn	x8, x0
	udiv	x8, x8, x1
	mvn	x0, x8
	ret
.LBB58_5:
	brk	#0x1
.Lfunc_end58:
	.size	"sq_cpr::index::rare_quotient", .Lfunc_end58-"sq_cpr::index::rare_quotient"

	.section	".text.unlikely.sq_cpr::index::far_quotient","ax",@progbits
	.p2align	2
	.type	"sq_cpr::index::far_quotient",@function
"sq_cpr::index::far_quotient":
	stp	x29, x30, [sp, #-16]!
	mov	x8, #-9223372036854775808
	mov	x29, sp
	cmn	x0, x8
	cinc	x8, x1, hs
	cbnz	x8, .LBB59_5
	orr	x8, x3, x2, lsr #63
	cbnz	x8, .LBB59_5
	orr	x8, x2, x3
	tbnz	x0, #63, .LBB59_10
	cbz	x8, .LBB59_12
	udiv	x0, x0, x2
	asr	x1, x0, #63
	ldp	x29, x30, [sp], #16
	ret
.LBB59_5:
	orr	x8, x2, x3
	tbnz	x1, #63, .LBB59_8
	cbz	x8, .LBB59_12
	bl	__udivti3
	ldp	x29, x30, [sp], #16
	ret
.LBB59_8:
	cbz	x8, .LBB59_12
	mvn	x0, x0
	mvn	x1, x1
	bl	__udivti3
	mvn	x1, x1
	mvn	x0, x0
	ldp	x29, x30, [sp], #16
	ret
.LBB59_10:
	cbz	x8, .LBB59_12
	mvn	x8, x0
	udiv	x8, x8, x2
	mvn	x0, x8
	asr	x1, x0, #63
	ldp	x29, x30, [sp], #16
	ret
.LBB59_12:
	brk	#0x1
.Lfunc_end59:
	.size	"sq_cpr::index::far_quotient", .Lfunc_end59-"sq_cpr::index::far_quotient"

	.section	".text.squitter_c::decode::give","ax",@progbits
	.p2align	2
	.type	"squitter_c::decode::give",@function
"squitter_c::decode::give":
	sub	sp, sp, #96
	movi	v0.2d, #0000000000000000
	ldp	x12, x13, [x1, #16]
	ldrb	w8, [x1]
	ldrb	w17, [x1, #4]
	ldrb	w11, [x1, #8]
	ldrb	w14, [x1, #9]
	ldrb	w15, [x1, #10]
	ldrb	w16, [x1, #11]
	ldrsw	x9, [x1, #12]
	stp	x20, x19, [sp, #80]
	mov	x19, x0
	stp	x29, x30, [sp, #64]
	add	x29, sp, #64
	stp	q0, q0, [sp, #32]
	cbz	w8, .LBB60_4
	adrp	x17, .LJTI60_0
	add	x17, x17, :lo12:.LJTI60_0
	mov	w10, #20
	adr	x18, .LBB60_2
	ldrb	w0, [x17, x11]
	add	x18, x18, x0, lsl #2
	mov	x9, xzr
	mov	w8, wzr
	br	x18
.LBB60_2:
	and	x11, x12, #0xff
	adrp	x14, .LJTI60_1
	add	x14, x14, :lo12:.LJTI60_1
	adr	x15, .LBB60_3
	ldrb	w16, [x14, x11]
	add	x15, x15, x16, lsl #2
	mov	w10, #1
	mov	x9, xzr
	mov	w8, wzr
	br	x15
.LBB60_3:
	mov	w10, #40
	stp	w10, wzr, [x19]
	ldp	x29, x30, [sp, #64]
	str	xzr, [x19, #8]
	ldp	x20, x19, [sp, #80]
	add	sp, sp, #96
	ret
.LBB60_4:
	mov	x13, #-65536
	and	x8, x12, #0xff
	mov	w10, #23592960
	movk	x13, #64816, lsl #16
	umull	x14, w8, w10
	lsr	x10, x12, #32
	smull	x13, w8, w13
	mov	x20, x2
	cbz	w17, .LBB60_6
	mov	w12, #90
	b	.LBB60_7
.LBB60_6:
	mov	w12, #360
.LBB60_7:
	umull	x15, w10, w12
	lsl	x8, x8, #17
	add	x0, sp, #32
	smull	x9, w9, w12
	mov	x1, sp
	cmp	x15, x14
	csel	x13, xzr, x13, lo
	umaddl	x10, w10, w12, x13
	mov	w12, #60
	sub	x11, x12, x11
	lsl	x11, x11, #17
	stp	x10, x8, [sp, #16]
	stp	x9, x11, [sp]
	bl	"squitter_c::plain::plain_position"
	ldp	q0, q1, [sp, #32]
	mov	w10, wzr
	mov	w8, wzr
	mov	x9, xzr
	stp	q0, q1, [x20]
.LBB60_8:
	stp	w10, w8, [x19]
	ldp	x29, x30, [sp, #64]
	str	x9, [x19, #8]
	ldp	x20, x19, [sp, #80]
	add	sp, sp, #96
	ret
.LBB60_9:
	mov	w10, #50
	stp	w10, wzr, [x19]
	ldp	x29, x30, [sp, #64]
	str	x12, [x19, #8]
	ldp	x20, x19, [sp, #80]
	add	sp, sp, #96
	ret
.LBB60_10:
	mov	w10, #46
	stp	w10, wzr, [x19]
	ldp	x29, x30, [sp, #64]
	str	xzr, [x19, #8]
	ldp	x20, x19, [sp, #80]
	add	sp, sp, #96
	ret
.LBB60_11:
	mov	w10, #21
	stp	w10, wzr, [x19]
	ldp	x29, x30, [sp, #64]
	str	xzr, [x19, #8]
	ldp	x20, x19, [sp, #80]
	add	sp, sp, #96
	ret
.LBB60_12:
	mov	w10, #48
	stp	w10, wzr, [x19]
	ldp	x29, x30, [sp, #64]
	str	xzr, [x19, #8]
	ldp	x20, x19, [sp, #80]
	add	sp, sp, #96
	ret
.LBB60_13:
	mov	w10, #44
	stp	w10, wzr, [x19]
	ldp	x29, x30, [sp, #64]
	str	xzr, [x19, #8]
	ldp	x20, x19, [sp, #80]
	add	sp, sp, #96
	ret
.LBB60_14:
	cmp	w14, #2
	b.le	.LBB60_25
	cmp	w14, #4
	b.gt	.LBB60_28
	cmp	w14, #3
	b.ne	.LBB60_32
	mov	w10, #13
	stp	w10, wzr, [x19]
	ldp	x29, x30, [sp, #64]
	str	xzr, [x19, #8]
	ldp	x20, x19, [sp, #80]
	add	sp, sp, #96
	ret
.LBB60_18:
	add	w10, w14, #30
	stp	w10, wzr, [x19]
	ldp	x29, x30, [sp, #64]
	str	xzr, [x19, #8]
	ldp	x20, x19, [sp, #80]
	add	sp, sp, #96
	ret
.LBB60_19:
	mov	w10, #24
	stp	w10, wzr, [x19]
	ldp	x29, x30, [sp, #64]
	str	xzr, [x19, #8]
	ldp	x20, x19, [sp, #80]
	add	sp, sp, #96
	ret
.LBB60_20:
	mov	w10, #22
	stp	w10, wzr, [x19]
	ldp	x29, x30, [sp, #64]
	str	xzr, [x19, #8]
	ldp	x20, x19, [sp, #80]
	add	sp, sp, #96
	ret
.LBB60_21:
	mov	w10, #49
	stp	w10, wzr, [x19]
	ldp	x29, x30, [sp, #64]
	str	xzr, [x19, #8]
	ldp	x20, x19, [sp, #80]
	add	sp, sp, #96
	ret
.LBB60_22:
	mov	w10, #23
	stp	w10, wzr, [x19]
	ldp	x29, x30, [sp, #64]
	str	xzr, [x19, #8]
	ldp	x20, x19, [sp, #80]
	add	sp, sp, #96
	ret
.LBB60_23:
	mov	w10, #45
	stp	w10, wzr, [x19]
	ldp	x29, x30, [sp, #64]
	str	xzr, [x19, #8]
	ldp	x20, x19, [sp, #80]
	add	sp, sp, #96
	ret
.LBB60_24:
	mov	w10, #25
	stp	w10, wzr, [x19]
	ldp	x29, x30, [sp, #64]
	str	xzr, [x19, #8]
	ldp	x20, x19, [sp, #80]
	add	sp, sp, #96
	ret
.LBB60_25:
	cbz	w14, .LBB60_30
	cmp	w14, #1
	b.ne	.LBB60_31
	mov	w10, #11
	stp	w10, wzr, [x19]
	ldp	x29, x30, [sp, #64]
	str	xzr, [x19, #8]
	ldp	x20, x19, [sp, #80]
	add	sp, sp, #96
	ret
.LBB60_28:
	cmp	w14, #5
	b.ne	.LBB60_33
	mov	w10, #15
	stp	w10, wzr, [x19]
	ldp	x29, x30, [sp, #64]
	str	xzr, [x19, #8]
	ldp	x20, x19, [sp, #80]
	add	sp, sp, #96
	ret
.LBB60_30:
	mov	w10, #10
	stp	w10, w14, [x19]
	ldp	x29, x30, [sp, #64]
	str	x14, [x19, #8]
	ldp	x20, x19, [sp, #80]
	add	sp, sp, #96
	ret
.LBB60_31:
	mov	w10, #12
	stp	w10, wzr, [x19]
	ldp	x29, x30, [sp, #64]
	str	xzr, [x19, #8]
	ldp	x20, x19, [sp, #80]
	add	sp, sp, #96
	ret
.LBB60_32:
	mov	w10, #14
	stp	w10, wzr, [x19]
	ldp	x29, x30, [sp, #64]
	str	xzr, [x19, #8]
	ldp	x20, x19, [sp, #80]
	add	sp, sp, #96
	ret
.LBB60_33:
	mov	w10, #16
	stp	w10, w16, [x19]
	ldp	x29, x30, [sp, #64]
	str	x15, [x19, #8]
	ldp	x20, x19, [sp, #80]
	add	sp, sp, #96
	ret
.LBB60_34:
	mov	w8, wzr
	mov	w10, #3
	b	.LBB60_42
.LBB60_35:
	mov	w10, #43
	stp	w10, wzr, [x19]
	ldp	x29, x30, [sp, #64]
	str	xzr, [x19, #8]
	ldp	x20, x19, [sp, #80]
	add	sp, sp, #96
	ret
.LBB60_36:
	mov	w10, #41
	stp	w10, wzr, [x19]
	ldp	x29, x30, [sp, #64]
	str	xzr, [x19, #8]
	ldp	x20, x19, [sp, #80]
	add	sp, sp, #96
	ret
.LBB60_37:
	mov	w10, #2
	stp	w10, wzr, [x19]
	ldp	x29, x30, [sp, #64]
	str	xzr, [x19, #8]
	ldp	x20, x19, [sp, #80]
	add	sp, sp, #96
	ret
.LBB60_38:
	lsr	x9, x12, #32
	mov	w10, #6
	stp	w10, wzr, [x19]
	ldp	x29, x30, [sp, #64]
	str	x9, [x19, #8]
	ldp	x20, x19, [sp, #80]
	add	sp, sp, #96
	ret
.LBB60_39:
	mov	w8, wzr
	mov	w10, #4
	b	.LBB60_42
.LBB60_40:
	ubfx	x9, x12, #8, #8
	mov	w10, #5
	stp	w10, wzr, [x19]
	ldp	x29, x30, [sp, #64]
	str	x9, [x19, #8]
	ldp	x20, x19, [sp, #80]
	add	sp, sp, #96
	ret
.LBB60_41:
	mov	w8, wzr
	mov	w10, #42
.LBB60_42:
	stp	w10, w8, [x19]
	ldp	x29, x30, [sp, #64]
	str	x13, [x19, #8]
	ldp	x20, x19, [sp, #80]
	add	sp, sp, #96
	ret
.Lfunc_end60:
	.size	"squitter_c::decode::give", .Lfunc_end60-"squitter_c::decode::give"
	.section	".rodata.squitter_c::decode::give","a",@progbits
.LJTI60_0:
	.byte	(.LBB60_2-.LBB60_2)>>2
	.byte	(.LBB60_14-.LBB60_2)>>2
	.byte	(.LBB60_18-.LBB60_2)>>2
	.byte	(.LBB60_8-.LBB60_2)>>2
	.byte	(.LBB60_11-.LBB60_2)>>2
	.byte	(.LBB60_20-.LBB60_2)>>2
	.byte	(.LBB60_22-.LBB60_2)>>2
	.byte	(.LBB60_19-.LBB60_2)>>2
	.byte	(.LBB60_24-.LBB60_2)>>2
	.byte	(.LBB60_13-.LBB60_2)>>2
	.byte	(.LBB60_23-.LBB60_2)>>2
	.byte	(.LBB60_10-.LBB60_2)>>2
	.byte	(.LBB60_12-.LBB60_2)>>2
	.byte	(.LBB60_21-.LBB60_2)>>2
	.byte	(.LBB60_9-.LBB60_2)>>2
.LJTI60_1:
	.byte	(.LBB60_3-.LBB60_3)>>2
	.byte	(.LBB60_36-.LBB60_3)>>2
	.byte	(.LBB60_8-.LBB60_3)>>2
	.byte	(.LBB60_37-.LBB60_3)>>2
	.byte	(.LBB60_34-.LBB60_3)>>2
	.byte	(.LBB60_39-.LBB60_3)>>2
	.byte	(.LBB60_40-.LBB60_3)>>2
	.byte	(.LBB60_38-.LBB60_3)>>2
	.byte	(.LBB60_41-.LBB60_3)>>2
	.byte	(.LBB60_35-.LBB60_3)>>2

	.section	".text.squitter_c::plain::plain_position","ax",@progbits
	.p2align	2
	.type	"squitter_c::plain::plain_position",@function
"squitter_c::plain::plain_position":
	ldp	x9, x8, [x1]
	rbit	x10, x8
	rbit	x11, x9
	cmp	x9, #0
	clz	x12, x10
	clz	x11, x11
	cneg	x10, x9, mi
	cmp	w11, w12
	csel	w11, w11, w12, lo
	cbz	x8, .LBB61_13
	lsr	x12, x8, x12
	lsr	x13, x10, x11
	udiv	x14, x13, x12
	msub	x13, x14, x12, x13
	cbz	x13, .LBB61_3
.LBB61_2:
	rbit	x14, x13
	clz	x14, x14
	lsr	x14, x13, x14
	subs	x13, x14, x12
	cneg	x13, x13, ls
	csel	x12, x14, x12, lo
	cbnz	x13, .LBB61_2
.LBB61_3:
	lsl	x11, x12, x11
	cmp	x11, #1
	b.eq	.LBB61_6
	cbz	x11, .LBB61_13
	udiv	x10, x10, x11
	udiv	x8, x8, x11
.LBB61_6:
	ldp	x12, x11, [x1, #16]
	rbit	x13, x11
	rbit	x14, x12
	cmp	x12, #0
	clz	x15, x13
	clz	x14, x14
	cneg	x13, x12, mi
	cmp	w14, w15
	csel	w14, w14, w15, lo
	cbz	x11, .LBB61_13
	lsr	x15, x11, x15
	lsr	x16, x13, x14
	udiv	x17, x16, x15
	msub	x16, x17, x15, x16
	cbz	x16, .LBB61_9
.LBB61_8:
	rbit	x17, x16
	clz	x17, x17
	lsr	x17, x16, x17
	subs	x16, x17, x15
	cneg	x16, x16, ls
	csel	x15, x17, x15, lo
	cbnz	x16, .LBB61_8
.LBB61_9:
	lsl	x14, x15, x14
	cmp	x14, #1
	b.eq	.LBB61_12
	cbz	x14, .LBB61_13
	udiv	x13, x13, x14
	udiv	x11, x11, x14
.LBB61_12:
	cmp	x9, #0
	cneg	x9, x10, mi
	cmp	x12, #0
	stp	x9, x8, [x0]
	cneg	x9, x13, mi
	stp	x9, x11, [x0, #16]
	ret
.LBB61_13:
	brk	#0x1
.Lfunc_end61:
	.size	"squitter_c::plain::plain_position", .Lfunc_end61-"squitter_c::plain::plain_position"

	.section	".text.unlikely.std_alloc::vec::Vec::grow_amortized::<#90923cc7d49729f9>","ax",@progbits
	.p2align	2
	.type	"std_alloc::vec::Vec::grow_amortized::<#90923cc7d49729f9>",@function
"std_alloc::vec::Vec::grow_amortized::<#90923cc7d49729f9>":
	ldr	x8, [x0, #8]
	cmn	x8, x1
	b.lo	.LBB62_2
	mov	w0, wzr
	ret
.LBB62_2:
	stp	x29, x30, [sp, #-48]!
	ldr	x11, [x0, #16]
	add	x9, x8, x1
	mov	w10, #4
	cmp	x9, #4
	stp	x20, x19, [sp, #32]
	mov	x29, sp
	lsl	x12, x11, #1
	csel	x9, x9, x10, hi
	lsr	x10, x11, #62
	stp	x22, x21, [sp, #16]
	cmp	x9, x12
	csel	x12, x9, x12, hi
	cmp	x10, #0
	csel	x20, x12, x9, eq
	mov	x9, #6148914691236517205
	movk	x9, #1365, lsl #48
	cmp	x20, x9
	b.hi	.LBB62_13
	ldr	x9, [x0, #24]
	ldr	x1, [x0]
	ldrb	w13, [x9]
	ldp	x10, x19, [x9, #8]
	stp	xzr, xzr, [x9]
	cmp	w13, #1
	str	xzr, [x9, #16]
	cbz	x11, .LBB62_7
	b.ne	.LBB62_11
	mov	w11, #24
	mov	x12, #15
	madd	x11, x20, x11, x12
	and	x11, x11, #0xfffffffffffffff0
	subs	x12, x10, x11
	b.hs	.LBB62_15
	mov	w21, #1
	stp	x21, x10, [x9]
	b	.LBB62_10
.LBB62_7:
	b.ne	.LBB62_11
	mov	w8, #24
	mov	x11, #15
	madd	x8, x12, x8, x11
	and	x8, x8, #0xfffffffffffffff0
	subs	x11, x10, x8
	b.hs	.LBB62_19
	mov	w21, #1
	stp	x21, x10, [x9]
.LBB62_10:
	str	x19, [x9, #16]
	mov	x19, xzr
	b	.LBB62_12
.LBB62_11:
	mov	x19, xzr
	mov	w21, #1
.LBB62_12:
	tst	w21, #0xff
	b.eq	.LBB62_14
.LBB62_13:
	mov	w0, wzr
	ldp	x20, x19, [sp, #32]
	ldp	x22, x21, [sp, #16]
	ldp	x29, x30, [sp], #48
	ret
.LBB62_14:
	str	x19, [x0]
	str	x20, [x0, #16]
	mov	w0, #1
	ldp	x20, x19, [sp, #32]
	ldp	x22, x21, [sp, #16]
	ldp	x29, x30, [sp], #48
	ret
.LBB62_15:
	add	x10, x8, x8, lsl #1
	mov	w21, wzr
	mov	w13, #1
	add	x11, x19, x11
	stp	x13, x12, [x9]
	lsl	x2, x10, #3
	sub	x10, x19, x1
	str	x11, [x9, #16]
	cmp	x10, x2
	b.hs	.LBB62_20
	cbz	x8, .LBB62_12
	mov	x9, xzr
.LBB62_18:
	add	x10, x1, x9
	add	x12, x19, x9
	subs	x8, x8, #1
	ldr	x11, [x10, #16]
	ldr	q0, [x10]
	add	x9, x9, #24
	str	x11, [x12, #16]
	str	q0, [x12]
	b.ne	.LBB62_18
	b	.LBB62_12
.LBB62_19:
	mov	w21, wzr
	mov	w10, #1
	add	x8, x19, x8
	stp	x10, x11, [x9]
	str	x8, [x9, #16]
	b	.LBB62_12
.LBB62_20:
	mov	x22, x0
	mov	x0, x19
	bl	memmove
	mov	x0, x22
	b	.LBB62_12
.Lfunc_end62:
	.size	"std_alloc::vec::Vec::grow_amortized::<#90923cc7d49729f9>", .Lfunc_end62-"std_alloc::vec::Vec::grow_amortized::<#90923cc7d49729f9>"

	.section	".text.unlikely.sq_feed::order::move_to_front::<#bd73a11ec42be588>","ax",@progbits
	.p2align	2
	.type	"sq_feed::order::move_to_front::<#bd73a11ec42be588>",@function
"sq_feed::order::move_to_front::<#bd73a11ec42be588>":
	ldr	x8, [x0, #8]
	subs	x8, x8, x1
	b.ne	.LBB63_3
	cmp	x1, x8
	b.hi	.LBB63_6
.LBB63_2:
	ret
.LBB63_3:
	add	x10, x1, x1, lsl #1
	ldr	x9, [x0]
	mov	x11, x8
	lsl	x10, x10, #3
.LBB63_4:
	add	x12, x9, x10
	subs	x11, x11, #1
	ldr	x13, [x12, #16]
	ldr	q0, [x12]
	str	x13, [x9, #16]
	str	q0, [x9], #24
	b.ne	.LBB63_4
	ldr	x1, [x0, #8]
	cmp	x1, x8
	b.ls	.LBB63_2
.LBB63_6:
	str	x8, [x0, #8]
	ret
.Lfunc_end63:
	.size	"sq_feed::order::move_to_front::<#bd73a11ec42be588>", .Lfunc_end63-"sq_feed::order::move_to_front::<#bd73a11ec42be588>"

	.section	".text.unlikely.sq_feed::order::insert_within::<#bd73a11ec42be588>","ax",@progbits
	.p2align	2
	.type	"sq_feed::order::insert_within::<#bd73a11ec42be588>",@function
"sq_feed::order::insert_within::<#bd73a11ec42be588>":
	sub	sp, sp, #112
	ldp	x8, x9, [x0, #8]
	ldr	q0, [x2]
	ldr	x10, [x2, #16]
	stp	x29, x30, [sp, #64]
	add	x29, sp, #64
	str	x21, [sp, #80]
	cmp	x8, x9
	stp	x20, x19, [sp, #96]
	str	q0, [sp, #32]
	str	x10, [sp, #48]
	b.hs	.LBB64_2
	ldr	q0, [x2]
	ldr	x8, [x2, #16]
	mov	x2, sp
	str	q0, [sp]
	str	x8, [sp, #16]
	b	.LBB64_4
.LBB64_2:
	cmp	x9, x8
	b.eq	.LBB64_6
.LBB64_3:
	add	x2, sp, #32
.LBB64_4:
	bl	"std_alloc::vec::Vec::put_at::<#90923cc7d49729f9>"
	mov	w19, wzr
.LBB64_5:
	mov	w0, w19
	ldp	x20, x19, [sp, #96]
	ldp	x29, x30, [sp, #64]
	ldr	x21, [sp, #80]
	add	sp, sp, #112
	ret
.LBB64_6:
	mov	x21, x1
	mov	w1, #1
	mov	x20, x0
	mov	w19, #1
	bl	"std_alloc::vec::Vec::grow_amortized::<#90923cc7d49729f9>"
	mov	x1, x21
	mov	w8, w0
	mov	x0, x20
	cbnz	w8, .LBB64_3
	b	.LBB64_5
.Lfunc_end64:
	.size	"sq_feed::order::insert_within::<#bd73a11ec42be588>", .Lfunc_end64-"sq_feed::order::insert_within::<#bd73a11ec42be588>"

	.section	.rodata.cst16,"aM",@progbits,16
	.p2align	4, 0x0
.LCPI65_0:
	.xword	1
	.xword	0
	.section	".text.std_alloc::vec::Vec::put_at::<#90923cc7d49729f9>","ax",@progbits
	.p2align	2
	.type	"std_alloc::vec::Vec::put_at::<#90923cc7d49729f9>",@function
"std_alloc::vec::Vec::put_at::<#90923cc7d49729f9>":
	ldr	q0, [x2]
	ldr	x9, [x2, #16]
	str	q0, [sp, #-32]!
	str	x9, [sp, #16]
	ldp	x8, x9, [x0]
	ldur	q0, [x0, #8]
	adds	x11, x1, #1
	stp	xzr, xzr, [x0, #8]
	b.lo	.LBB65_8
	add	x10, x9, #1
	cmp	x10, #86
	b.lo	.LBB65_11
	mov	x14, xzr
	add	x12, x8, #1992
	b	.LBB65_5
.LBB65_3:
	mov	w13, #24
	madd	x13, x11, x13, x8
	sub	x14, x13, #24
	add	x16, x13, #264
	ldr	q1, [x14]
	ldr	x15, [x14, #16]
	str	q1, [x13]
	stur	q1, [x13, #24]
	str	q1, [x13, #48]
	stur	q1, [x13, #72]
	str	q1, [x13, #96]
	stur	q1, [x13, #120]
	str	q1, [x13, #144]
	stur	q1, [x13, #168]
	ldr	q1, [x14]
	str	x15, [x13, #16]
	str	x15, [x13, #40]
	str	x15, [x13, #64]
	str	x15, [x13, #88]
	str	x15, [x13, #112]
	str	x15, [x13, #136]
	str	x15, [x13, #160]
	str	x15, [x13, #184]
	ldr	x15, [x14, #16]
	str	q1, [x16]
	add	x16, x13, #312
	str	q1, [x16]
	add	x16, x13, #360
	str	x15, [x13, #208]
	str	q1, [x13, #192]
	str	x15, [x13, #232]
	stur	q1, [x13, #216]
	str	x15, [x13, #256]
	str	q1, [x13, #240]
	str	x15, [x13, #280]
	str	x15, [x13, #304]
	str	q1, [x13, #288]
	str	x15, [x13, #328]
	str	x15, [x13, #352]
	str	q1, [x13, #336]
	str	x15, [x13, #376]
	ldr	x15, [x14, #16]
	str	q1, [x16]
	ldr	q1, [x14]
	add	x16, x13, #408
	str	x15, [x13, #400]
	ldr	x15, [x14, #16]
	str	q1, [x13, #384]
	ldr	q1, [x14]
	str	x15, [x13, #424]
	ldr	x15, [x14, #16]
	str	q1, [x16]
	ldr	q1, [x14]
	add	x16, x13, #456
	str	x15, [x13, #448]
	ldr	x15, [x14, #16]
	str	q1, [x13, #432]
	ldr	q1, [x14]
	str	x15, [x13, #472]
	ldr	x15, [x14, #16]
	str	q1, [x16]
	ldr	q1, [x14]
	add	x16, x13, #504
	str	x15, [x13, #496]
	ldr	x15, [x14, #16]
	str	q1, [x13, #480]
	ldr	q1, [x14]
	str	x15, [x13, #520]
	ldr	x15, [x14, #16]
	str	q1, [x16]
	ldr	q1, [x14]
	add	x16, x13, #552
	str	x15, [x13, #544]
	ldr	x15, [x14, #16]
	str	q1, [x13, #528]
	ldr	q1, [x14]
	str	x15, [x13, #568]
	ldr	x15, [x14, #16]
	str	q1, [x16]
	ldr	q1, [x14]
	add	x16, x13, #600
	str	x15, [x13, #592]
	ldr	x15, [x14, #16]
	str	q1, [x13, #576]
	ldr	q1, [x14]
	str	x15, [x13, #616]
	ldr	x15, [x14, #16]
	str	q1, [x16]
	ldr	q1, [x14]
	add	x16, x13, #648
	str	x15, [x13, #640]
	ldr	x15, [x14, #16]
	str	q1, [x13, #624]
	ldr	q1, [x14]
	str	x15, [x13, #664]
	ldr	x15, [x14, #16]
	str	q1, [x16]
	ldr	q1, [x14]
	add	x16, x13, #696
	str	x15, [x13, #688]
	ldr	x15, [x14, #16]
	str	q1, [x13, #672]
	ldr	q1, [x14]
	str	x15, [x13, #712]
	ldr	x15, [x14, #16]
	str	q1, [x16]
	ldr	q1, [x14]
	add	x16, x13, #744
	str	x15, [x13, #736]
	ldr	x15, [x14, #16]
	str	q1, [x13, #720]
	ldr	q1, [x14]
	str	x15, [x13, #760]
	ldr	x15, [x14, #16]
	str	q1, [x16]
	ldr	q1, [x14]
	add	x16, x13, #792
	str	x15, [x13, #784]
	ldr	x15, [x14, #16]
	str	q1, [x13, #768]
	ldr	q1, [x14]
	str	x15, [x13, #808]
	ldr	x15, [x14, #16]
	str	q1, [x16]
	ldr	q1, [x14]
	add	x16, x13, #840
	str	x15, [x13, #832]
	ldr	x15, [x14, #16]
	str	q1, [x13, #816]
	ldr	q1, [x14]
	str	x15, [x13, #856]
	ldr	x15, [x14, #16]
	str	q1, [x16]
	ldr	q1, [x14]
	add	x16, x13, #888
	str	x15, [x13, #880]
	ldr	x15, [x14, #16]
	str	q1, [x13, #864]
	ldr	q1, [x14]
	str	x15, [x13, #904]
	ldr	x15, [x14, #16]
	str	q1, [x16]
	ldr	q1, [x14]
	add	x16, x13, #936
	str	x15, [x13, #928]
	ldr	x15, [x14, #16]
	str	q1, [x13, #912]
	ldr	q1, [x14]
	str	x15, [x13, #952]
	ldr	x15, [x14, #16]
	str	q1, [x16]
	ldr	q1, [x14]
	add	x16, x13, #984
	str	x15, [x13, #976]
	ldr	x15, [x14, #16]
	str	q1, [x13, #960]
	ldr	q1, [x14]
	str	x15, [x13, #1000]
	ldr	x15, [x14, #16]
	str	q1, [x16]
	ldr	q1, [x14]
	add	x16, x13, #1032
	str	x15, [x13, #1024]
	ldr	x15, [x14, #16]
	str	q1, [x13, #1008]
	ldr	q1, [x14]
	str	x15, [x13, #1048]
	ldr	x15, [x14, #16]
	str	q1, [x16]
	ldr	q1, [x14]
	add	x16, x13, #1080
	str	x15, [x13, #1072]
	ldr	x15, [x14, #16]
	str	q1, [x13, #1056]
	ldr	q1, [x14]
	str	x15, [x13, #1096]
	ldr	x15, [x14, #16]
	str	q1, [x16]
	ldr	q1, [x14]
	add	x16, x13, #1128
	str	x15, [x13, #1120]
	ldr	x15, [x14, #16]
	str	q1, [x13, #1104]
	ldr	q1, [x14]
	str	x15, [x13, #1144]
	ldr	x15, [x14, #16]
	str	q1, [x16]
	ldr	q1, [x14]
	add	x16, x13, #1176
	str	x15, [x13, #1168]
	ldr	x15, [x14, #16]
	str	q1, [x13, #1152]
	ldr	q1, [x14]
	str	x15, [x13, #1192]
	ldr	x15, [x14, #16]
	str	q1, [x16]
	ldr	q1, [x14]
	add	x16, x13, #1224
	str	x15, [x13, #1216]
	ldr	x15, [x14, #16]
	str	q1, [x13, #1200]
	ldr	q1, [x14]
	str	x15, [x13, #1240]
	ldr	x15, [x14, #16]
	str	q1, [x16]
	ldr	q1, [x14]
	add	x16, x13, #1272
	str	x15, [x13, #1264]
	ldr	x15, [x14, #16]
	str	q1, [x13, #1248]
	ldr	q1, [x14]
	str	x15, [x13, #1288]
	ldr	x15, [x14, #16]
	str	q1, [x16]
	ldr	q1, [x14]
	add	x16, x13, #1320
	str	x15, [x13, #1312]
	ldr	x15, [x14, #16]
	str	q1, [x13, #1296]
	ldr	q1, [x14]
	str	x15, [x13, #1336]
	ldr	x15, [x14, #16]
	str	q1, [x16]
	ldr	q1, [x14]
	add	x16, x13, #1368
	str	x15, [x13, #1360]
	ldr	x15, [x14, #16]
	str	q1, [x13, #1344]
	ldr	q1, [x14]
	str	x15, [x13, #1384]
	ldr	x15, [x14, #16]
	str	q1, [x16]
	ldr	q1, [x14]
	add	x16, x13, #1416
	str	x15, [x13, #1408]
	ldr	x15, [x14, #16]
	str	q1, [x13, #1392]
	ldr	q1, [x14]
	str	x15, [x13, #1432]
	ldr	x15, [x14, #16]
	str	q1, [x16]
	ldr	q1, [x14]
	add	x16, x13, #1464
	str	x15, [x13, #1456]
	ldr	x15, [x14, #16]
	str	q1, [x13, #1440]
	ldr	q1, [x14]
	str	x15, [x13, #1480]
	ldr	x15, [x14, #16]
	str	q1, [x16]
	ldr	q1, [x14]
	add	x16, x13, #1512
	str	x15, [x13, #1504]
	ldr	x15, [x14, #16]
	str	q1, [x13, #1488]
	ldr	q1, [x14]
	str	x15, [x13, #1528]
	ldr	x15, [x14, #16]
	str	q1, [x16]
	ldr	q1, [x14]
	add	x16, x13, #1560
	str	x15, [x13, #1552]
	ldr	x15, [x14, #16]
	str	q1, [x13, #1536]
	ldr	q1, [x14]
	str	x15, [x13, #1576]
	ldr	x15, [x14, #16]
	str	q1, [x16]
	ldr	q1, [x14]
	add	x16, x13, #1608
	str	x15, [x13, #1600]
	ldr	x15, [x14, #16]
	str	q1, [x13, #1584]
	ldr	q1, [x14]
	str	x15, [x13, #1624]
	ldr	x15, [x14, #16]
	str	q1, [x16]
	ldr	q1, [x14]
	add	x16, x13, #1656
	str	x15, [x13, #1648]
	ldr	x15, [x14, #16]
	str	q1, [x13, #1632]
	ldr	q1, [x14]
	str	x15, [x13, #1672]
	ldr	x15, [x14, #16]
	str	q1, [x16]
	ldr	q1, [x14]
	add	x16, x13, #1704
	str	x15, [x13, #1696]
	ldr	x15, [x14, #16]
	str	q1, [x13, #1680]
	ldr	q1, [x14]
	str	x15, [x13, #1720]
	ldr	x15, [x14, #16]
	str	q1, [x16]
	ldr	q1, [x14]
	add	x16, x13, #1752
	str	x15, [x13, #1744]
	ldr	x15, [x14, #16]
	str	q1, [x13, #1728]
	ldr	q1, [x14]
	str	x15, [x13, #1768]
	ldr	x15, [x14, #16]
	str	q1, [x16]
	ldr	q1, [x14]
	add	x16, x13, #1800
	str	x15, [x13, #1792]
	ldr	x15, [x14, #16]
	str	q1, [x13, #1776]
	ldr	q1, [x14]
	str	x15, [x13, #1816]
	ldr	x15, [x14, #16]
	str	q1, [x16]
	ldr	q1, [x14]
	add	x16, x13, #1848
	str	x15, [x13, #1840]
	ldr	x15, [x14, #16]
	str	q1, [x13, #1824]
	ldr	q1, [x14]
	str	x15, [x13, #1864]
	ldr	x15, [x14, #16]
	str	q1, [x16]
	ldr	q1, [x14]
	add	x16, x13, #1896
	str	x15, [x13, #1888]
	ldr	x15, [x14, #16]
	str	q1, [x13, #1872]
	ldr	q1, [x14]
	str	x15, [x13, #1912]
	ldr	x15, [x14, #16]
	str	q1, [x16]
	ldr	q1, [x14]
	add	x16, x13, #1944
	str	x15, [x13, #1936]
	ldr	x15, [x14, #16]
	str	q1, [x13, #1920]
	ldr	q1, [x14]
	str	x15, [x13, #1960]
	ldr	x15, [x14, #16]
	str	q1, [x16]
	ldr	q1, [x14]
	add	x16, x13, #1992
	str	x15, [x13, #1984]
	ldr	x15, [x14, #16]
	str	q1, [x13, #1968]
	ldr	q1, [x14]
	str	x15, [x13, #2008]
	ldr	x15, [x14, #16]
	str	q1, [x16]
	ldr	q1, [x14]
	str	x15, [x13, #2032]
	str	q1, [x13, #2016]
.LBB65_4:
	add	x14, x11, #85
	add	x12, x12, #2040
	sub	x13, x10, x14
	cmp	x13, #85
	b.ls	.LBB65_12
.LBB65_5:
	mov	x11, x14
	cbz	x14, .LBB65_3
	mov	w13, #85
	mov	x14, x12
.LBB65_7:
	ldr	q1, [x14]
	ldr	x15, [x14, #16]
	subs	x13, x13, #1
	stur	q1, [x14, #24]
	str	x15, [x14, #40]
	sub	x14, x14, #24
	b.ne	.LBB65_7
	b	.LBB65_4
.LBB65_8:
	cmp	x9, x1
	b.eq	.LBB65_19
	mov	w10, #24
	madd	x10, x9, x10, x8
	sub	x9, x9, x1
.LBB65_10:
	ldur	q1, [x10, #-24]
	ldur	x11, [x10, #-8]
	sub	x12, x10, #24
	subs	x9, x9, #1
	str	q1, [x10]
	str	x11, [x10, #16]
	mov	x10, x12
	b.ne	.LBB65_10
	b	.LBB65_19
.LBB65_11:
	add	x9, x11, x11, lsl #1
	mov	x13, x10
	lsl	x9, x9, #3
	cbnz	x10, .LBB65_17
	b	.LBB65_19
.LBB65_12:
	cbz	x14, .LBB65_16
	cmp	x10, x14
	b.eq	.LBB65_19
	mov	w10, #24
	madd	x10, x9, x10, x8
	sub	x9, x9, x11
	sub	x9, x9, #84
.LBB65_15:
	ldur	q1, [x10, #-24]
	ldur	x11, [x10, #-8]
	sub	x12, x10, #24
	subs	x9, x9, #1
	str	q1, [x10]
	str	x11, [x10, #16]
	mov	x10, x12
	b.ne	.LBB65_15
	b	.LBB65_19
.LBB65_16:
	add	x9, x14, x14, lsl #1
	lsl	x9, x9, #3
	cbz	x10, .LBB65_19
.LBB65_17:
	add	x9, x8, x9
.LBB65_18:
	ldur	q1, [x9, #-24]
	ldur	x10, [x9, #-8]
	subs	x13, x13, #1
	str	q1, [x9]
	str	x10, [x9, #16]
	add	x9, x9, #24
	b.ne	.LBB65_18
.LBB65_19:
	mov	w9, #24
	adrp	x10, .LCPI65_0
	ldr	q1, [sp]
	madd	x9, x1, x9, x8
	ldr	q2, [x10, :lo12:.LCPI65_0]
	ldr	x10, [sp, #16]
	add	v0.2d, v0.2d, v2.2d
	str	q1, [x9]
	str	x10, [x9, #16]
	str	x8, [x0]
	stur	q0, [x0, #8]
	add	sp, sp, #32
	ret
.Lfunc_end65:
	.size	"std_alloc::vec::Vec::put_at::<#90923cc7d49729f9>", .Lfunc_end65-"std_alloc::vec::Vec::put_at::<#90923cc7d49729f9>"

	.section	".text.squitter_c::decode::of_two","ax",@progbits
	.p2align	2
	.type	"squitter_c::decode::of_two",@function
"squitter_c::decode::of_two":
	sub	sp, sp, #208
	ldr	x8, [x1]
	stp	x29, x30, [sp, #112]
	add	x29, sp, #112
	stp	x28, x27, [sp, #128]
	rev	x16, x8
	stp	x26, x25, [sp, #144]
	lsr	x9, x16, #59
	stp	x24, x23, [sp, #160]
	stp	x22, x21, [sp, #176]
	cmp	x9, #17
	stp	x20, x19, [sp, #192]
	str	xzr, [sp, #40]
	str	xzr, [sp, #8]
	b.ne	.LBB66_4
	mov	w8, #572
	lsr	x9, x16, #46
	adrp	x13, .Lstatic.44
	add	x13, x13, :lo12:.Lstatic.44
	and	x8, x8, x16, lsr #54
	lsr	x10, x16, #24
	and	x9, x9, #0x3fc
	adrp	x14, .Lstatic.45
	add	x14, x14, :lo12:.Lstatic.45
	ldr	w8, [x13, x8]
	ldr	w9, [x14, x9]
	ldur	w11, [x1, #10]
	adrp	x15, .Lstatic.43
	add	x15, x15, :lo12:.Lstatic.43
	ldrb	w12, [x1, #8]
	eor	w8, w8, w10
	lsl	x10, x11, #32
	eor	w8, w8, w9
	ldrb	w9, [x1, #9]
	lsr	w11, w8, #14
	lsr	w17, w8, #6
	ubfiz	x8, x8, #2, #8
	orr	x9, x10, x9, lsl #24
	and	x10, x11, #0x3fc
	and	x11, x17, #0x3fc
	ldr	w8, [x14, x8]
	ldr	w10, [x15, x10]
	ldr	w11, [x13, x11]
	orr	x9, x9, x12, lsl #16
	eor	w10, w10, w16
	eor	w8, w11, w8
	rev	x9, x9
	eor	w8, w10, w8
	orr	x18, x9, x16, lsl #48
	and	w9, w9, #0xffffff
	lsr	w10, w8, #14
	lsr	w11, w8, #6
	ubfiz	x8, x8, #2, #8
	lsr	x12, x18, #24
	and	x10, x10, #0x3fc
	and	x11, x11, #0x3fc
	ldr	w8, [x14, x8]
	ldr	w10, [x15, x10]
	ldr	w11, [x13, x11]
	eor	w8, w8, w12
	eor	w10, w11, w10
	eor	w8, w10, w8
	lsr	w10, w8, #6
	ubfiz	x11, x8, #2, #8
	lsr	w8, w8, #14
	and	x10, x10, #0x3fc
	ldr	w11, [x14, x11]
	and	x8, x8, #0x3fc
	ldr	w10, [x13, x10]
	ldr	w8, [x15, x8]
	eor	w9, w9, w11
	eor	w10, w10, w9
	cmp	w8, w10
	b.ne	.LBB66_5
	lsr	x19, x16, #16
	ubfx	x17, x16, #56, #3
	ubfx	x8, x16, #32, #24
	extr	x5, x19, x18, #24
	ubfx	x6, x5, #51, #5
	and	x9, x5, #0xffffffffffffff
	cmp	x6, #5
	b.hs	.LBB66_9
	mov	w11, wzr
	mov	w12, wzr
	mov	x7, xzr
	mov	w1, #2
	mov	w10, #1
	b	.LBB66_15
.LBB66_4:
	mov	x8, xzr
	mov	w10, #6
	b	.LBB66_6
.LBB66_5:
	eor	w8, w10, w8
	mov	x9, xzr
	mov	w10, #7
	lsl	x8, x8, #32
.LBB66_6:
	orr	x9, x10, x9, lsl #8
.LBB66_7:
	mov	w10, #1
	orr	x8, x9, x8
	stur	xzr, [x0, #4]
	str	wzr, [x0, #12]
	str	w10, [x0]
	str	x8, [x0, #16]
.LBB66_8:
	ldp	x20, x19, [sp, #192]
	str	xzr, [x0, #24]
	ldp	x22, x21, [sp, #176]
	ldp	x24, x23, [sp, #160]
	ldp	x26, x25, [sp, #144]
	ldp	x28, x27, [sp, #128]
	ldp	x29, x30, [sp, #112]
	add	sp, sp, #208
	ret
.LBB66_9:
	lsr	x12, x9, #51
	cmp	x12, #8
	b.hi	.LBB66_11
	lsr	x9, x16, #3
	lsr	x12, x16, #12
	extr	x16, x19, x18, #36
	lsr	x1, x18, #27
	mov	w10, wzr
	mov	w11, wzr
	and	x9, x9, #0x10000
	and	x12, x12, #0x7f00
	and	x16, x16, #0x7f000000
	orr	x9, x12, x9
	lsr	x12, x18, #41
	ubfx	x18, x18, #58, #1
	orr	x9, x9, x16
	and	x16, x1, #0x100000000
	mov	w1, #1
	orr	x12, x12, x5, lsl #32
	orr	x9, x9, x16
	orr	x7, x9, x6
	and	x9, x12, #0x1ffff0001ffff
	mov	w12, w18
	b	.LBB66_15
.LBB66_11:
	cmp	x12, #19
	b.lo	.LBB66_14
	mov	x7, xzr
	mov	w11, wzr
	cmp	x6, #19
	mov	w1, #2
	mov	w10, #1
	b.eq	.LBB66_39
	cmp	x12, #22
	mov	w12, w11
	b.hi	.LBB66_15
.LBB66_14:
	lsr	x9, x16, #8
	lsr	x11, x16, #17
	extr	x16, x19, x18, #28
	lsr	x12, x18, #41
	lsr	x7, x18, #11
	mov	w10, wzr
	and	x9, x9, #0x10000
	and	x11, x11, #0x300
	mov	w1, wzr
	orr	x9, x11, x9
	and	x11, x16, #0xfff00000000
	orr	x16, x12, x5, lsl #32
	orr	x9, x9, x11
	and	x11, x7, #0x1000000000000
	ubfx	x12, x18, #58, #1
	orr	x9, x9, x11
	mov	w11, #1
	orr	x7, x9, x6
	and	x9, x16, #0x1ffff0001ffff
.LBB66_15:
	ldr	x16, [x2]
	strb	w17, [sp, #40]
	stp	w8, w1, [sp, #44]
	rev	x16, x16
	str	w12, [sp, #52]
	lsr	x17, x16, #59
	stp	x9, x7, [sp, #56]
	cmp	x17, #17
	b.ne	.LBB66_19
	mov	w17, #572
	lsr	x18, x16, #46
	lsr	x1, x16, #24
	and	x17, x17, x16, lsr #54
	ldur	w5, [x2, #10]
	and	x18, x18, #0x3fc
	ldr	w17, [x13, x17]
	ldr	w18, [x14, x18]
	eor	w17, w17, w1
	lsl	x1, x5, #32
	ldrb	w5, [x2, #9]
	eor	w17, w17, w18
	ldrb	w2, [x2, #8]
	lsr	w18, w17, #14
	lsr	w6, w17, #6
	ubfiz	x17, x17, #2, #8
	orr	x1, x1, x5, lsl #24
	and	x18, x18, #0x3fc
	and	x5, x6, #0x3fc
	ldr	w17, [x14, x17]
	ldr	w18, [x15, x18]
	ldr	w5, [x13, x5]
	orr	x1, x1, x2, lsl #16
	eor	w18, w18, w16
	eor	w17, w5, w17
	rev	x1, x1
	eor	w18, w18, w17
	orr	x17, x1, x16, lsl #48
	and	w1, w1, #0xffffff
	lsr	w2, w18, #14
	lsr	w5, w18, #6
	ubfiz	x18, x18, #2, #8
	lsr	x6, x17, #24
	and	x2, x2, #0x3fc
	and	x5, x5, #0x3fc
	ldr	w18, [x14, x18]
	ldr	w2, [x15, x2]
	ldr	w5, [x13, x5]
	eor	w18, w18, w6
	eor	w2, w5, w2
	eor	w18, w2, w18
	lsr	w2, w18, #6
	ubfiz	x5, x18, #2, #8
	lsr	w18, w18, #14
	and	x2, x2, #0x3fc
	ldr	w14, [x14, x5]
	and	x18, x18, #0x3fc
	ldr	w2, [x13, x2]
	ldr	w13, [x15, x18]
	eor	w14, w1, w14
	eor	w14, w2, w14
	cmp	w13, w14
	b.ne	.LBB66_20
	lsr	x20, x16, #16
	ubfx	x14, x16, #56, #3
	ubfx	x13, x16, #32, #24
	extr	x6, x20, x17, #24
	ubfx	x5, x6, #51, #5
	and	x15, x6, #0xffffffffffffff
	cmp	x5, #5
	b.hs	.LBB66_21
	mov	w1, wzr
	mov	w2, wzr
	mov	w22, wzr
	mov	x19, xzr
	mov	w7, #2
	mov	w18, #1
	b	.LBB66_27
.LBB66_19:
	mov	w9, #6
	mov	x8, xzr
	orr	x9, x9, x17, lsl #8
	b	.LBB66_7
.LBB66_20:
	eor	w8, w14, w13
	mov	w9, #7
	lsl	x8, x8, #32
	orr	x9, x9, xzr, lsl #8
	b	.LBB66_7
.LBB66_21:
	lsr	x2, x15, #51
	cmp	x2, #8
	b.hi	.LBB66_23
	lsr	x15, x16, #3
	lsr	x16, x16, #12
	extr	x7, x20, x17, #36
	lsr	x1, x17, #41
	lsr	x19, x17, #27
	ubfx	x22, x17, #58, #1
	and	x15, x15, #0x10000
	and	x16, x16, #0x7f00
	mov	w18, wzr
	orr	x15, x16, x15
	and	x16, x7, #0x7f000000
	orr	x1, x1, x6, lsl #32
	and	x6, x19, #0x100000000
	orr	x15, x15, x16
	mov	w2, wzr
	orr	x16, x15, x6
	and	x15, x1, #0x1ffff0001ffff
	mov	w1, #1
	orr	x19, x16, x5
	mov	w7, #1
	b	.LBB66_27
.LBB66_23:
	cmp	x2, #19
	b.lo	.LBB66_26
	mov	x19, xzr
	mov	w1, wzr
	cmp	x5, #19
	mov	w7, #2
	mov	w18, #1
	b.eq	.LBB66_46
	cmp	x2, #22
	mov	w2, w1
	mov	w22, w1
	b.hi	.LBB66_27
.LBB66_26:
	lsr	x15, x16, #8
	lsr	x16, x16, #17
	extr	x19, x20, x17, #28
	lsr	x2, x17, #41
	lsr	x20, x17, #11
	ubfx	x22, x17, #58, #1
	and	x15, x15, #0x10000
	and	x16, x16, #0x300
	mov	w18, wzr
	orr	x15, x16, x15
	and	x16, x19, #0xfff00000000
	mov	w1, wzr
	orr	x15, x15, x16
	orr	x16, x2, x6, lsl #32
	and	x2, x20, #0x1000000000000
	orr	x15, x15, x2
	mov	w7, wzr
	mov	w2, #1
	orr	x19, x15, x5
	and	x15, x16, #0x1ffff0001ffff
.LBB66_27:
	orr	w10, w10, w18
	strb	w14, [sp, #8]
	stp	w13, w7, [sp, #12]
	str	w22, [sp, #20]
	stp	x15, x19, [sp, #24]
	stp	xzr, xzr, [x29, #-40]
	stur	xzr, [x29, #-24]
	tbz	w10, #0, .LBB66_29
	mov	w10, wzr
	b	.LBB66_35
.LBB66_29:
	cmp	w8, w13
	b.ne	.LBB66_34
	cbz	w11, .LBB66_40
	cbz	w2, .LBB66_44
	cmp	w12, w22
	b.ne	.LBB66_47
	mov	w21, wzr
	mov	w22, wzr
	mov	w8, wzr
	mov	w11, wzr
	stur	xzr, [x29, #-30]
	mov	w12, #1
	stur	xzr, [x29, #-38]
	mov	w10, #3
	mov	w9, wzr
	stur	xzr, [x29, #-24]
	b	.LBB66_42
.LBB66_34:
	mov	w10, #1
.LBB66_35:
	mov	w21, wzr
	mov	x13, xzr
	mov	w9, wzr
	mov	w11, wzr
	mov	w8, wzr
.LBB66_36:
	mov	w12, #1
.LBB66_37:
	mov	w22, #1
.LBB66_38:
	stp	w12, w9, [x0]
	strb	w22, [x0, #8]
	strb	w10, [x0, #9]
	strb	w11, [x0, #10]
	strb	w8, [x0, #11]
	str	w21, [x0, #12]
	str	x13, [x0, #16]
	b	.LBB66_8
.LBB66_39:
	mov	w12, w11
	b	.LBB66_15
.LBB66_40:
	cbz	w1, .LBB66_44
	add	x8, sp, #40
	add	x9, sp, #8
	mov	x19, x0
	sub	x0, x29, #40
	add	x1, x8, #12
	add	x2, x9, #12
	bl	"sq_message::place::ground_pair"
	ldurb	w12, [x29, #-40]
	ldurb	w10, [x29, #-39]
	mov	x0, x19
	ldurb	w11, [x29, #-38]
	ldurb	w8, [x29, #-37]
	ldurb	w9, [x29, #-36]
	ldurb	w22, [x29, #-32]
	ldur	w21, [x29, #-28]
.LBB66_42:
	cbz	w12, .LBB66_45
	mov	w21, wzr
	mov	x13, xzr
	mov	w9, wzr
	b	.LBB66_37
.LBB66_44:
	mov	w21, wzr
	mov	x13, xzr
	mov	w9, wzr
	mov	w11, wzr
	mov	w8, wzr
	mov	w10, #2
	b	.LBB66_36
.LBB66_45:
	ldurb	w10, [x29, #-31]
	ldurb	w11, [x29, #-30]
	ldurb	w8, [x29, #-29]
	ldur	x13, [x29, #-24]
	b	.LBB66_38
.LBB66_46:
	mov	w2, w1
	mov	w22, w1
	b	.LBB66_27
.LBB66_47:
	cmp	w22, #0
	mov	w11, #59
	lsr	x24, x15, #32
	csel	x8, x9, x15, eq
	csel	x10, x15, x9, eq
	lsr	x9, x9, #32
	mov	w27, w8
	mov	x8, #-60
	mov	w10, w10
	mul	x8, x27, x8
	mov	x23, x0
	mov	w19, #1
	mov	w1, #60
	mov	w2, #60
	mov	w3, #360
	mov	x4, xzr
	mov	w5, #1
	movk	w19, #10620, lsl #16
	umaddl	x8, w10, w11, x8
	csel	x26, x24, x9, eq
	csel	x25, x9, x24, eq
	mov	w20, #360
	add	x8, x8, #1936, lsl #12
	and	x8, x8, #0xfffffffffffe0000
	sub	x28, x8, #1920, lsl #12
	add	x0, x28, x10
	bl	"sq_cpr::index::index_within"
	mov	w21, w0
	add	x0, x28, x27
	mov	w1, #59
	mov	w2, #59
	mov	w3, #360
	mov	x4, xzr
	mov	w5, #1
	bl	"sq_cpr::index::index_within"
	smull	x8, w21, w20
	add	x10, x19, #2880, lsl #12
	cmp	x8, #0
	cneg	x9, x8, mi
	cmp	x9, x10
	b.hs	.LBB66_51
	smull	x20, w0, w20
	cmp	x20, #0
	cneg	x9, x20, mi
	cmp	x9, x19
	b.hs	.LBB66_51
	mov	w27, w0
	mov	x0, x8
	mov	w1, #7864320
	bl	"sq_zones::zones::zone_count"
	mov	w19, w0
	and	w28, w0, #0xff
	mov	x0, x20
	mov	w1, #7733248
	bl	"sq_zones::zones::zone_count"
	cmp	w28, w0, uxtb
	b.ne	.LBB66_56
	sub	w8, w19, #1
	and	x10, x19, #0xff
	mov	w2, #1
	and	w9, w8, #0xff
	tst	w8, #0xfe
	csinc	w8, w9, wzr, ne
	cmp	w22, #0
	umull	x9, w26, w8
	csel	w20, w19, w8, eq
	csel	w21, w21, w27, eq
	umsubl	x9, w25, w10, x9
	mov	x10, #-65536
	mov	w1, w20
	movk	x10, #65416, lsl #16
	add	x10, x24, x10
	mov	w24, #1
	add	x9, x9, #1936, lsl #12
	and	x9, x9, #0xfffffffffffe0000
	add	x0, x10, x9
	bl	"sq_cpr::index::on_circle"
	mov	w9, w0
	mov	w8, wzr
	mov	w19, wzr
	mov	w10, #1
	sturh	wzr, [x29, #-4]
	sturb	wzr, [x29, #-2]
	b	.LBB66_53
.LBB66_51:
	mov	w8, wzr
	mov	w19, wzr
	mov	w10, wzr
	mov	w9, wzr
	mov	w20, wzr
	mov	w21, wzr
	mov	w22, wzr
	sturb	wzr, [x29, #-2]
	mov	w24, #1
.LBB66_52:
	sturh	wzr, [x29, #-4]
.LBB66_53:
	sturh	wzr, [x29, #-8]
	sturb	wzr, [x29, #-6]
	ldurh	w11, [x29, #-4]
	ldurb	w12, [x29, #-2]
	mov	x0, x23
	and	w13, wzr, #0xffff
	sturh	w11, [x29, #-12]
	and	w11, wzr, #0xff
	sturb	w12, [x29, #-10]
	sturh	w13, [x29, #-16]
	sturb	w11, [x29, #-14]
	cbz	w10, .LBB66_55
	ldurh	w13, [x29, #-12]
	ldurb	w14, [x29, #-10]
	mov	w8, wzr
	mov	w11, wzr
	mov	w10, wzr
	mov	w12, wzr
	sturh	w13, [x29, #-31]
	ldurh	w13, [x29, #-16]
	sturb	w14, [x29, #-29]
	ldurb	w14, [x29, #-14]
	sturb	w20, [x29, #-24]
	sturh	w13, [x29, #-23]
	sturb	w14, [x29, #-21]
	stur	w9, [x29, #-20]
	mov	w9, wzr
	b	.LBB66_42
.LBB66_55:
	cmp	w24, #0
	mov	w9, #5
	mov	w21, wzr
	mov	w22, wzr
	stur	xzr, [x29, #-28]
	cinc	w10, w9, eq
	csel	w11, wzr, w19, ne
	stur	xzr, [x29, #-36]
	csel	w8, wzr, w8, ne
	stur	wzr, [x29, #-20]
	mov	w12, #1
	mov	w9, wzr
	b	.LBB66_42
.LBB66_56:
	mov	w8, w0
	mov	w24, wzr
	mov	w10, wzr
	mov	w9, wzr
	mov	w20, wzr
	mov	w21, wzr
	mov	w22, wzr
	sturb	wzr, [x29, #-2]
	b	.LBB66_52
.Lfunc_end66:
	.size	"squitter_c::decode::of_two", .Lfunc_end66-"squitter_c::decode::of_two"

	.section	.rodata.cst8,"aM",@progbits,8
	.p2align	3, 0x0
.LCPI67_0:
	.word	0
	.word	1
	.section	".text.sq_message::place::ground_pair","ax",@progbits
	.p2align	2
	.type	"sq_message::place::ground_pair",@function
"sq_message::place::ground_pair":
	sub	sp, sp, #128
	stp	x20, x19, [sp, #112]
	ldrb	w8, [x1]
	ldrb	w19, [x2]
	stp	x29, x30, [sp, #32]
	add	x29, sp, #32
	cmp	w8, w19
	stp	x28, x27, [sp, #48]
	stp	x26, x25, [sp, #64]
	stp	x24, x23, [sp, #80]
	stp	x22, x21, [sp, #96]
	sturb	wzr, [x29, #-10]
	sturh	wzr, [x29, #-12]
	strh	wzr, [sp, #16]
	strb	wzr, [sp, #18]
	b.ne	.LBB67_2
	mov	w8, #769
	b	.LBB67_12
.LBB67_2:
	tbz	w3, #0, .LBB67_11
	ldp	w8, w22, [x2, #4]
	ldp	w9, w10, [x1, #4]
	cmp	w19, #0
	mov	x12, #-60
	ldr	x26, [x4]
	mov	x23, #-65536
	csel	w11, w9, w8, eq
	csel	w8, w8, w9, eq
	mov	w9, #59
	mul	x12, x11, x12
	movk	x23, #65416, lsl #16
	csel	w25, w22, w10, eq
	csel	w16, w10, w22, eq
	umaddl	x9, w8, w9, x12
	add	x9, x9, #1936, lsl #12
	and	x9, x9, #0xfffffffffffe0000
	sub	x9, x9, #1920, lsl #12
	add	x20, x9, x8
	add	x21, x9, x11
	cbz	x26, .LBB67_14
	ldr	x8, [x4, #8]
	mov	w9, #90
	umulh	x12, x26, x23
	asr	x13, x20, #63
	asr	x28, x26, #63
	mov	w10, #7864320
	mul	x27, x8, x9
	mov	w9, #707788800
	mov	w15, #1415577600
	mul	x9, x8, x9
	sub	x12, x12, x26
	add	x12, x12, x26, lsl #63
	mul	x2, x8, x15
	umulh	x11, x27, x20
	mul	x14, x27, x20
	madd	x11, x27, x13, x11
	lsl	x13, x26, #19
	smaddl	x12, w28, w23, x12
	sub	x13, x13, x26, lsl #23
	umulh	x10, x27, x10
	adds	x13, x14, x13
	adc	x8, x11, x12
	mov	w11, #15728640
	adds	x9, x9, x13, lsl #1
	umulh	x3, x27, x11
	extr	x8, x8, x13, #63
	adc	x10, x10, x8
	subs	x8, x9, #1
	mov	x9, #-1
	adc	x1, x10, x9
	tbnz	x1, #63, .LBB67_36
	cmp	x8, x2
	sbcs	xzr, x1, x3
	b.hs	.LBB67_36
	mov	x9, xzr
.LBB67_7:
	mov	x24, #-65536
	umulh	x8, x27, x21
	asr	x11, x21, #63
	movk	x24, #65418, lsl #16
	mov	w10, #7733248
	mov	w15, #15466496
	umulh	x13, x26, x24
	add	w20, w9, w20
	madd	x8, x27, x11, x8
	mul	x11, x27, x21
	sub	x13, x13, x26
	mul	x14, x26, x24
	add	x13, x13, x26, lsl #63
	umulh	x12, x27, x10
	mul	x10, x27, x10
	adds	x11, x11, x14
	smaddl	x13, w28, w24, x13
	umulh	x3, x27, x15
	adc	x8, x8, x13
	mul	x2, x27, x15
	adds	x10, x10, x11, lsl #1
	extr	x8, x8, x11, #63
	adc	x11, x12, x8
	subs	x8, x10, #1
	mov	x10, #-1
	adc	x1, x11, x10
	tbnz	x1, #63, .LBB67_37
	cmp	x8, x2
	sbcs	xzr, x1, x3
	b.hs	.LBB67_37
	mov	x8, xzr
.LBB67_10:
	add	w21, w8, w21
	b	.LBB67_16
.LBB67_11:
	mov	w8, #1025
.LBB67_12:
	stur	xzr, [x0, #10]
	strh	w8, [x0]
	stur	xzr, [x0, #2]
	str	xzr, [x0, #16]
.LBB67_13:
	ldp	x20, x19, [sp, #112]
	ldp	x22, x21, [sp, #96]
	ldp	x24, x23, [sp, #80]
	ldp	x26, x25, [sp, #64]
	ldp	x28, x27, [sp, #48]
	ldp	x29, x30, [sp, #32]
	add	sp, sp, #128
	ret
.LBB67_14:
	mov	w24, #7733247
	add	x8, x24, x20, lsl #1
	add	x8, x8, #32, lsl #12
	cmp	x8, #3840, lsl #12
	b.hs	.LBB67_41
	add	x8, x24, x21, lsl #1
	cmp	x8, #3776, lsl #12
	b.hs	.LBB67_42
.LBB67_16:
	mov	w9, #90
	mov	w10, #1
	smull	x8, w20, w9
	movk	w10, #10620, lsl #16
	add	x11, x10, #2880, lsl #12
	cmp	x8, #0
	cneg	x8, x8, mi
	cmp	x8, x11
	b.hs	.LBB67_24
	smull	x9, w21, w9
	cmp	x9, #0
	cneg	x9, x9, mi
	cmp	x9, x10
	b.hs	.LBB67_24
	mov	w10, #57600
	mov	w11, #7733247
	mov	x12, #17477
	movk	w10, #1525, lsl #16
	movk	x12, #17476, lsl #16
	madd	x8, x8, x10, x11
	movk	x12, #1092, lsl #32
	madd	x9, x9, x10, x11
	mov	x10, #56650
	movk	x10, #51095, lsl #16
	movk	x10, #1110, lsl #32
	add	x8, x8, #32, lsl #12
	lsr	x8, x8, #17
	lsr	x9, x9, #17
	mul	x13, x8, x12
	umulh	x8, x8, x12
	adrp	x12, .Lstatic.41
	add	x12, x12, :lo12:.Lstatic.41
	mul	x11, x9, x10
	umulh	x9, x9, x10
	extr	x8, x8, x13, #48
	lsr	x10, x8, #25
	extr	x9, x9, x11, #48
	ldrb	w10, [x12, x10]
	lsr	x11, x9, #25
	ldrb	w11, [x12, x11]
	adrp	x12, .Lstatic.42
	add	x12, x12, :lo12:.Lstatic.42
	ldr	x13, [x12, x10, lsl #3]
	ldr	x12, [x12, x11, lsl #3]
	cmp	x13, x8
	cset	w8, hs
	cmp	x12, x9
	sub	w8, w8, w10
	cset	w9, hs
	and	w10, w8, #0xff
	sub	w11, w9, w11
	add	w9, w8, #58
	cmp	w10, w11, uxtb
	b.ne	.LBB67_28
	add	w8, w8, #57
	and	x11, x9, #0xff
	add	x12, x22, x23
	and	w10, w8, #0xff
	tst	w8, #0xfe
	csinc	w10, w10, wzr, ne
	cmp	w19, #0
	umull	x8, w10, w25
	csel	w22, w9, w10, eq
	umsubl	x11, w11, w16, x8
	ldr	x8, [x4, #16]
	add	x11, x11, #1936, lsl #12
	and	x11, x11, #0xfffffffffffe0000
	add	x23, x12, x11
	cbz	x8, .LBB67_29
	ldr	x9, [x4, #24]
	mov	w10, #90
	and	x24, x22, #0xff
	lsl	x25, x24, #17
	asr	x12, x23, #63
	mul	x9, x9, x10
	smulh	x10, x8, x25
	mul	x8, x8, x25
	umulh	x11, x9, x23
	mul	x13, x9, x23
	madd	x11, x9, x12, x11
	mul	x12, x9, x25
	subs	x8, x13, x8
	umulh	x9, x9, x25
	sbc	x10, x11, x10
	mov	x11, #-1
	extr	x10, x10, x8, #63
	adds	x8, x12, x8, lsl #1
	lsl	x2, x12, #1
	adc	x10, x9, x10
	subs	x8, x8, #1
	extr	x3, x9, x12, #63
	adc	x1, x10, x11
	tbnz	x1, #63, .LBB67_43
	cmp	x8, x2
	sbcs	xzr, x1, x3
	b.hs	.LBB67_43
	mov	x8, xzr
.LBB67_23:
	sub	x23, x23, x8
	sxtw	x10, w23
	lsl	x9, x24, #19
	and	x8, x9, x10, asr #63
	adds	x8, x8, x10
	b.pl	.LBB67_32
	b	.LBB67_33
.LBB67_24:
	mov	w19, wzr
	mov	w10, wzr
	mov	w22, wzr
	mov	w8, wzr
	mov	w12, wzr
	mov	w9, wzr
	mov	w11, wzr
	sturb	wzr, [x29, #-2]
	mov	w13, #1
.LBB67_25:
	sturh	wzr, [x29, #-4]
	sturh	wzr, [x29, #-8]
	sturb	wzr, [x29, #-6]
	and	w14, wzr, #0xffff
	ldurb	w15, [x29, #-2]
	and	w16, wzr, #0xffff
	sturh	w14, [x29, #-12]
	and	w14, wzr, #0xff
	sturb	w15, [x29, #-10]
	strh	w16, [sp, #16]
	strb	w14, [sp, #18]
	tbz	w12, #0, .LBB67_27
	ldurh	w9, [x29, #-12]
	adrp	x11, .LCPI67_0
	ldurb	w12, [x29, #-10]
	ldr	d0, [x11, :lo12:.LCPI67_0]
	str	w10, [x0, #12]
	ldrb	w10, [sp, #18]
	sturh	w9, [x0, #9]
	ldrh	w9, [sp, #16]
	strb	w19, [x0, #8]
	strb	w12, [x0, #11]
	str	d0, [x0]
	strb	w22, [x0, #16]
	sturh	w9, [x0, #17]
	strb	w10, [x0, #19]
	str	w8, [x0, #20]
	b	.LBB67_13
.LBB67_27:
	cmp	w13, #0
	mov	w8, #5
	mov	w10, #1
	cinc	w8, w8, eq
	csel	w9, wzr, w9, ne
	strb	w10, [x0]
	strb	w8, [x0, #1]
	csel	w8, wzr, w11, ne
	strb	w9, [x0, #2]
	strb	w8, [x0, #3]
	stur	xzr, [x0, #12]
	stur	xzr, [x0, #4]
	str	wzr, [x0, #20]
	b	.LBB67_13
.LBB67_28:
	mov	w19, wzr
	mov	w10, wzr
	mov	w22, wzr
	mov	w8, wzr
	mov	w12, wzr
	mov	w13, wzr
	sturb	wzr, [x29, #-2]
	add	w11, w11, #58
	b	.LBB67_25
.LBB67_29:
	and	x24, x22, #0xff
	lsl	x25, x24, #17
	lsl	x1, x24, #18
	add	x8, x25, x23, lsl #1
	subs	x8, x8, #1
	b.mi	.LBB67_44
	cmp	x8, x1
	b.hs	.LBB67_44
	sxtw	x10, w23
	lsl	x9, x24, #19
	and	x8, x9, x10, asr #63
	adds	x8, x8, x10
	b.mi	.LBB67_33
.LBB67_32:
	cmp	x8, x9
	b.lt	.LBB67_40
.LBB67_33:
	tst	w22, #0xff
	tbnz	x10, #63, .LBB67_38
	b.eq	.LBB67_45
	udiv	w8, w23, w9
	msub	w8, w8, w9, w23
	b	.LBB67_40
.LBB67_36:
	stp	x4, x0, [sp]
	mov	x0, x8
	mov	w24, w16
	bl	"sq_cpr::index::far_quotient"
	mov	x8, x0
	ldp	x4, x0, [sp]
	lsl	x9, x8, #19
	mov	w16, w24
	sub	x9, x9, x8, lsl #23
	b	.LBB67_7
.LBB67_37:
	mov	x26, x0
	mov	x0, x8
	mov	x27, x4
	mov	w28, w16
	bl	"sq_cpr::index::far_quotient"
	mov	w16, w28
	mov	x4, x27
	mul	x8, x0, x24
	mov	x0, x26
	b	.LBB67_10
.LBB67_38:
	b.eq	.LBB67_45
	mvn	w8, w23
	udiv	w10, w8, w9
	msub	w8, w10, w9, w8
	mvn	w8, w8
	add	x8, x9, x8
.LBB67_40:
	cmp	w19, #0
	mov	w9, wzr
	mov	w11, wzr
	csel	w10, w20, w21, eq
	mov	w12, #1
	mov	w13, #1
	sturb	wzr, [x29, #-2]
	b	.LBB67_25
.LBB67_41:
	mov	x26, x0
	mov	x0, x8
	mov	w1, #15728640
	mov	x27, x4
	mov	w28, w16
	bl	"sq_cpr::index::rare_quotient"
	mov	w16, w28
	mov	x4, x27
	madd	x20, x0, x23, x20
	mov	x0, x26
	add	x8, x24, x21, lsl #1
	cmp	x8, #3776, lsl #12
	b.lo	.LBB67_16
.LBB67_42:
	mov	x24, x0
	mov	x0, x8
	mov	w1, #15466496
	mov	x26, x4
	mov	w27, w16
	bl	"sq_cpr::index::rare_quotient"
	mov	x8, x0
	add	x9, x23, #32, lsl #12
	mov	w16, w27
	mov	x4, x26
	mov	x0, x24
	madd	x21, x8, x9, x21
	b	.LBB67_16
.LBB67_43:
	mov	x26, x0
	mov	x0, x8
	bl	"sq_cpr::index::far_quotient"
	mov	x8, x0
	mov	x0, x26
	mul	x8, x25, x8
	b	.LBB67_23
.LBB67_44:
	mov	x26, x0
	mov	x0, x8
	bl	"sq_cpr::index::rare_quotient"
	mov	x8, x0
	mov	x0, x26
	msub	x23, x8, x25, x23
	sxtw	x10, w23
	lsl	x9, x24, #19
	and	x8, x9, x10, asr #63
	adds	x8, x8, x10
	b.pl	.LBB67_32
	b	.LBB67_33
.LBB67_45:
	brk	#0x1
.Lfunc_end67:
	.size	"sq_message::place::ground_pair", .Lfunc_end67-"sq_message::place::ground_pair"

	.section	.rodata.cst8,"aM",@progbits,8
	.p2align	3, 0x0
.LCPI68_0:
	.word	1
	.word	0
	.section	".text.squitter_c::decode::squitter_pair_at","ax",@progbits
	.p2align	2
	.type	"squitter_c::decode::squitter_pair_at",@function
"squitter_c::decode::squitter_pair_at":
	sub	sp, sp, #144
	mov	x12, #-4097
	movi	v0.2d, #0000000000000000
	ldr	x8, [x3, #8]
	movk	x12, #11098, lsl #16
	stp	x29, x30, [sp, #112]
	add	x29, sp, #112
	movk	x12, #65303, lsl #32
	stp	x20, x19, [sp, #128]
	mov	x20, x4
	add	x9, x12, #1
	add	x10, x8, x12
	mov	x19, x0
	cmp	x10, x9
	stp	xzr, xzr, [sp, #32]
	stp	q0, q0, [sp]
	stp	q0, q0, [x29, #-32]
	b.lo	.LBB68_4
	mov	w9, #360
	mul	x10, x8, x9
	ldr	x9, [x3]
	cmp	x9, #0
	cneg	x11, x9, mi
	cmp	x10, x11
	b.lo	.LBB68_4
	ldr	x10, [x3, #24]
	add	x13, x10, x12
	add	x12, x12, #1
	cmp	x13, x12
	b.lo	.LBB68_4
	mov	w12, #360
	mul	x14, x10, x12
	ldr	x12, [x3, #16]
	cmp	x12, #0
	cneg	x13, x12, mi
	cmp	x14, x13
	b.hs	.LBB68_6
.LBB68_4:
	mov	w8, #3
	adrp	x9, .LCPI68_0
	stp	xzr, xzr, [x29, #-16]
	sturb	w8, [x29, #-24]
	ldr	d0, [x9, :lo12:.LCPI68_0]
	ldur	q1, [x29, #-24]
	str	xzr, [sp, #24]
	str	d0, [sp]
	stur	q1, [sp, #8]
.LBB68_5:
	add	x0, sp, #32
	mov	x1, sp
	mov	x2, x20
	bl	"squitter_c::decode::give"
	ldr	q0, [sp, #32]
	ldp	x29, x30, [sp, #112]
	str	q0, [x19]
	ldp	x20, x19, [sp, #128]
	add	sp, sp, #144
	ret
.LBB68_6:
	mov	w14, #90
	mul	x14, x8, x14
	cmp	x11, x14
	b.hi	.LBB68_4
	mov	w11, #180
	mul	x11, x10, x11
	cmp	x13, x11
	b.hi	.LBB68_4
	sub	x0, x29, #32
	add	x4, sp, #48
	mov	w3, #1
	stp	x9, x8, [sp, #48]
	stp	x12, x10, [sp, #64]
	bl	"squitter_c::decode::of_two"
	ldurb	w8, [x29, #-32]
	ldurb	w9, [x29, #-28]
	ldur	q0, [x29, #-24]
	stp	w8, w9, [sp]
	ldur	x8, [x29, #-8]
	stur	q0, [sp, #8]
	str	x8, [sp, #24]
	b	.LBB68_5
.Lfunc_end68:
	.size	"squitter_c::decode::squitter_pair_at", .Lfunc_end68-"squitter_c::decode::squitter_pair_at"

	.section	".text.squitter_c::e7::both","ax",@progbits
	.p2align	2
	.type	"squitter_c::e7::both",@function
"squitter_c::e7::both":
	stp	x29, x30, [sp, #-48]!
	stp	x20, x19, [sp, #32]
	ldp	x20, x9, [x0]
	mov	w8, #11520
	stp	x22, x21, [sp, #16]
	adrp	x21, .Lstatic.40
	add	x21, x21, :lo12:.Lstatic.40
	movk	w8, #305, lsl #16
	mov	x29, sp
	cmp	x20, #0
	lsl	x2, x9, #1
	cneg	x10, x20, mi
	mul	x11, x10, x8
	umulh	x10, x10, x8
	adds	x8, x11, x9
	cinc	x1, x10, hs
	tst	x9, #0xffff
	b.ne	.LBB69_9
	lsr	x9, x2, #24
	extr	x10, x1, x8, #56
	cmp	x9, #0
	ccmp	x10, #0, #0, eq
	b.ne	.LBB69_9
	lsr	x9, x2, #14
	lsr	x8, x8, #17
	ldr	x9, [x21, x9]
	mul	x10, x9, x8
	umulh	x8, x9, x8
	extr	x19, x8, x10, #48
.LBB69_3:
	ldp	x22, x8, [x0, #16]
	mov	w9, #11520
	movk	w9, #305, lsl #16
	cmp	x22, #0
	lsl	x2, x8, #1
	cneg	x10, x22, mi
	mul	x11, x10, x9
	umulh	x9, x10, x9
	adds	x0, x11, x8
	cinc	x1, x9, hs
	tst	x8, #0xffff
	b.ne	.LBB69_8
	lsr	x8, x2, #24
	cbnz	x8, .LBB69_8
	extr	x8, x1, x0, #56
	cbnz	x8, .LBB69_8
	lsr	x8, x2, #14
	lsr	x9, x0, #17
	ldr	x8, [x21, x8]
	mul	x10, x8, x9
	umulh	x8, x8, x9
	extr	x0, x8, x10, #48
.LBB69_7:
	cmp	x20, #0
	cneg	w8, w19, mi
	cmp	x22, #0
	ldp	x20, x19, [sp, #32]
	cneg	w1, w0, mi
	ldp	x22, x21, [sp, #16]
	mov	w0, w8
	ldp	x29, x30, [sp], #48
	ret
.LBB69_8:
	bl	"sq_angle::quotients::divided"
	b	.LBB69_7
.LBB69_9:
	mov	x22, x0
	mov	x0, x8
	bl	"sq_angle::quotients::divided"
	mov	x19, x0
	mov	x0, x22
	b	.LBB69_3
.Lfunc_end69:
	.size	"squitter_c::e7::both", .Lfunc_end69-"squitter_c::e7::both"

	.section	".text.squitter_c::read::squitter_read_frame","ax",@progbits
	.p2align	2
	.type	"squitter_c::read::squitter_read_frame",@function
"squitter_c::read::squitter_read_frame":
	ldr	x8, [x1]
	rev	x8, x8
	lsr	x12, x8, #59
	cmp	x12, #17
	b.ne	.LBB70_4
	mov	w9, #572
	lsr	x10, x8, #46
	lsr	x12, x8, #24
	and	x11, x9, x8, lsr #54
	adrp	x9, .Lstatic.44
	add	x9, x9, :lo12:.Lstatic.44
	and	x13, x10, #0x3fc
	adrp	x10, .Lstatic.45
	add	x10, x10, :lo12:.Lstatic.45
	ldr	w11, [x9, x11]
	ldr	w13, [x10, x13]
	ldur	w14, [x1, #10]
	ldrb	w15, [x1, #8]
	eor	w11, w11, w12
	ldrb	w12, [x1, #9]
	eor	w11, w11, w13
	lsl	x13, x14, #32
	lsr	w14, w11, #14
	lsr	w16, w11, #6
	ubfiz	x11, x11, #2, #8
	orr	x12, x13, x12, lsl #24
	and	x13, x14, #0x3fc
	adrp	x14, .Lstatic.43
	add	x14, x14, :lo12:.Lstatic.43
	and	x16, x16, #0x3fc
	ldr	w13, [x14, x13]
	ldr	w11, [x10, x11]
	ldr	w16, [x9, x16]
	orr	x12, x12, x15, lsl #16
	eor	w13, w13, w8
	eor	w11, w16, w11
	rev	x15, x12
	eor	w11, w13, w11
	orr	x12, x15, x8, lsl #48
	and	w15, w15, #0xffffff
	lsr	w13, w11, #14
	lsr	w16, w11, #6
	ubfiz	x11, x11, #2, #8
	lsr	x6, x12, #24
	and	x13, x13, #0x3fc
	and	x16, x16, #0x3fc
	ldr	w11, [x10, x11]
	ldr	w13, [x14, x13]
	ldr	w16, [x9, x16]
	eor	w11, w11, w6
	eor	w13, w16, w13
	eor	w11, w13, w11
	lsr	w13, w11, #6
	ubfiz	x16, x11, #2, #8
	lsr	w11, w11, #14
	and	x13, x13, #0x3fc
	ldr	w10, [x10, x16]
	and	x11, x11, #0x3fc
	ldr	w13, [x9, x13]
	ldr	w9, [x14, x11]
	eor	w10, w15, w10
	eor	w10, w13, w10
	cmp	w9, w10
	b.ne	.LBB70_5
	stp	x22, x21, [sp, #-32]!
	lsr	x22, x8, #16
	ubfx	x9, x8, #56, #3
	ubfx	x11, x8, #32, #24
	stp	x20, x19, [sp, #16]
	extr	x10, x22, x12, #24
	ubfx	x13, x10, #51, #5
	and	x15, x10, #0xffffffffffffff
	lsr	x10, x15, #51
	cmp	x13, #5
	b.hs	.LBB70_6
	mov	w16, wzr
	mov	w14, wzr
	mov	w17, wzr
	mov	w13, wzr
	mov	w18, wzr
	mov	w20, wzr
	mov	w1, wzr
	mov	w21, wzr
	mov	w3, wzr
	mov	w4, wzr
	mov	w5, wzr
	mov	w7, wzr
	mov	w19, wzr
	b	.LBB70_19
.LBB70_4:
	mov	w8, #5
	stp	w8, wzr, [x0]
	str	x12, [x0, #8]
	ret
.LBB70_5:
	eor	w12, w10, w9
	mov	w8, #6
	stp	w8, wzr, [x0]
	str	x12, [x0, #8]
	ret
.LBB70_6:
	cmp	x10, #8
	b.hi	.LBB70_8
	and	w14, w6, #0x1ffff
	extr	x16, x22, x12, #60
	ubfx	x6, x12, #41, #17
	ubfx	x1, x12, #58, #1
	ubfx	x21, x12, #59, #1
	mov	x15, xzr
	mov	w17, wzr
	mov	w13, wzr
	mov	w18, wzr
	mov	w3, wzr
	mov	w4, wzr
	ubfx	w5, w8, #20, #7
	ubfx	w7, w8, #19, #1
	and	w19, w16, #0x7f
	mov	w20, #2
	mov	w16, w6
	b	.LBB70_19
.LBB70_8:
	cmp	x10, #19
	b.lo	.LBB70_11
	cmp	x13, #19
	mov	w16, wzr
	b.eq	.LBB70_16
	cmp	x10, #22
	mov	w14, w16
	mov	w17, w16
	mov	w13, w16
	mov	w18, w16
	mov	w20, w16
	mov	w1, w16
	mov	w21, w16
	mov	w3, w16
	mov	w4, w16
	mov	w5, w16
	mov	w7, w16
	mov	w19, w16
	b.hi	.LBB70_19
.LBB70_11:
	extr	x17, x22, x12, #28
	lsr	x14, x15, #53
	ubfx	x1, x12, #58, #1
	ubfx	x16, x12, #41, #17
	ubfx	x13, x17, #32, #12
	cmp	x14, #4
	and	w14, w6, #0x1ffff
	b.hi	.LBB70_14
	and	x15, x17, #0xfff00000000
	cbz	x15, .LBB70_15
	tbnz	w13, #4, .LBB70_17
.LBB70_14:
	mov	w17, wzr
	mov	w18, #2
	b	.LBB70_18
.LBB70_15:
	mov	w18, wzr
	mov	w17, wzr
	b	.LBB70_18
.LBB70_16:
	mov	w14, w16
	mov	w17, w16
	mov	w13, w16
	mov	w18, w16
	mov	w20, w16
	mov	w1, w16
	mov	w21, w16
	mov	w3, w16
	mov	w4, w16
	mov	w5, w16
	mov	w7, w16
	mov	w19, w16
	b	.LBB70_19
.LBB70_17:
	ubfx	w15, w13, #5, #7
	and	w17, w13, #0xf
	mov	w18, #-1000
	orr	w15, w17, w15, lsl #4
	mov	w17, #25
	madd	w17, w15, w17, w18
	mov	w18, #1
.LBB70_18:
	ubfx	w3, w8, #25, #2
	ubfx	w4, w8, #24, #1
	ubfx	x21, x12, #59, #1
	mov	x15, xzr
	mov	w5, wzr
	mov	w7, wzr
	mov	w19, wzr
	mov	w20, #1
.LBB70_19:
	strb	w20, [x2, #27]
	strb	w19, [x2, #36]
	ldp	x20, x19, [sp, #16]
	str	x15, [x2]
	stp	w11, w16, [x2, #8]
	stp	w14, w17, [x2, #16]
	strh	w13, [x2, #24]
	strb	w18, [x2, #26]
	strb	w9, [x2, #28]
	strb	w10, [x2, #29]
	strb	w1, [x2, #30]
	strb	w21, [x2, #31]
	strb	w3, [x2, #32]
	strb	w4, [x2, #33]
	strb	w5, [x2, #34]
	strb	w7, [x2, #35]
	sturh	wzr, [x2, #37]
	strb	wzr, [x2, #39]
	ldp	x22, x21, [sp], #32
	stp	wzr, wzr, [x0]
	str	xzr, [x0, #8]
	ret
.Lfunc_end70:
	.size	"squitter_c::read::squitter_read_frame", .Lfunc_end70-"squitter_c::read::squitter_read_frame"

	.section	.rodata.cst16,"aM",@progbits,16
	.p2align	4, 0x0
.LCPI71_0:
	.xword	71777214277877760
	.xword	280379743272960
	.section	".text.unlikely.sq_text::reading::read_any","ax",@progbits
	.p2align	2
	.type	"sq_text::reading::read_any",@function
"sq_text::reading::read_any":
	sub	sp, sp, #64
	str	x19, [sp, #48]
	mov	x19, x0
	add	x0, sp, #8
	stp	x29, x30, [sp, #32]
	add	x29, sp, #32
	stp	xzr, xzr, [sp, #8]
	str	xzr, [sp, #24]
	bl	"sq_text::frame_text::read_text"
	ldrb	w8, [sp, #22]
	ldrh	w9, [sp, #20]
	ldrb	w10, [sp, #8]
	orr	w8, w9, w8, lsl #16
	ldr	w9, [sp, #16]
	orr	x9, x9, x8, lsl #32
	cbz	w10, .LBB71_4
	and	w10, w9, #0xff
	cmp	w10, #1
	b.gt	.LBB71_8
	cbnz	w10, .LBB71_11
	and	x8, x9, #0xff
	mov	w9, #2
	b	.LBB71_13
.LBB71_4:
	ldrb	w8, [sp, #15]
	lsl	x10, x9, #56
	ldrb	w11, [sp, #14]
	orr	x8, x10, x8, lsl #48
	ldrb	w10, [sp, #13]
	orr	x8, x8, x11, lsl #40
	ldrb	w11, [sp, #12]
	orr	x8, x8, x10, lsl #32
	ldrb	w10, [sp, #11]
	orr	x8, x8, x11, lsl #24
	ldrb	w11, [sp, #10]
	orr	x8, x8, x10, lsl #16
	ldrb	w10, [sp, #9]
	orr	x8, x8, x11, lsl #8
	orr	x8, x8, x10
	rev	x8, x8
	lsr	x10, x8, #59
	cmp	x10, #17
	b.ne	.LBB71_10
	lsl	x11, x9, #8
	adrp	x9, .LCPI71_0
	mov	w10, #572
	ldr	q1, [x9, :lo12:.LCPI71_0]
	lsr	x12, x8, #46
	and	x13, x10, x8, lsr #54
	dup	v0.2d, x11
	adrp	x9, .Lstatic.44
	add	x9, x9, :lo12:.Lstatic.44
	adrp	x10, .Lstatic.45
	add	x10, x10, :lo12:.Lstatic.45
	lsr	x14, x8, #24
	and	x12, x12, #0x3fc
	ldr	w13, [x9, x13]
	adrp	x15, .Lstatic.43
	add	x15, x15, :lo12:.Lstatic.43
	and	v0.16b, v0.16b, v1.16b
	ldr	w12, [x10, x12]
	eor	w13, w13, w14
	and	x16, x11, #0xff0000
	and	x11, x11, #0xff00000000000000
	eor	w12, w13, w12
	ext	v1.16b, v0.16b, v0.16b, #8
	lsr	w13, w12, #14
	lsr	w14, w12, #6
	ubfiz	x12, x12, #2, #8
	and	x13, x13, #0x3fc
	and	x14, x14, #0x3fc
	ldr	w12, [x10, x12]
	ldr	w13, [x15, x13]
	ldr	w14, [x9, x14]
	orr	v0.8b, v0.8b, v1.8b
	eor	w13, w13, w8
	eor	w12, w14, w12
	eor	w12, w13, w12
	fmov	x17, d0
	lsr	w14, w12, #14
	and	x14, x14, #0x3fc
	orr	x16, x17, x16
	ldr	w14, [x15, x14]
	orr	x11, x11, x16
	lsr	w16, w12, #6
	ubfiz	x12, x12, #2, #8
	rev	x13, x11
	orr	x11, x13, x8, lsl #48
	and	x16, x16, #0x3fc
	ldr	w12, [x10, x12]
	ldr	w16, [x9, x16]
	and	w13, w13, #0xffffff
	lsr	x17, x11, #24
	eor	w12, w16, w12
	eor	w14, w14, w17
	eor	w12, w14, w12
	lsr	w14, w12, #6
	ubfiz	x16, x12, #2, #8
	lsr	w12, w12, #14
	and	x14, x14, #0x3fc
	ldr	w10, [x10, x16]
	and	x12, x12, #0x3fc
	ldr	w14, [x9, x14]
	ldr	w9, [x15, x12]
	eor	w10, w13, w10
	eor	w12, w14, w10
	cmp	w9, w12
	b.ne	.LBB71_14
	lsr	x17, x8, #16
	ubfx	x10, x8, #56, #3
	ubfx	x9, x8, #32, #24
	extr	x12, x17, x11, #24
	ubfx	x13, x12, #51, #5
	and	x15, x12, #0xffffffffffffff
	cmp	x13, #5
	b.hs	.LBB71_16
	mov	x16, xzr
	mov	x18, xzr
	mov	w14, #2
	b	.LBB71_22
.LBB71_8:
	ldr	x8, [sp, #24]
	cmp	w10, #2
	b.ne	.LBB71_12
	mov	w9, #4
	b	.LBB71_13
.LBB71_10:
	mov	w8, wzr
	mov	w9, #6
	b	.LBB71_15
.LBB71_11:
	mov	x8, xzr
	mov	w9, #3
	b	.LBB71_13
.LBB71_12:
	mov	w9, #5
.LBB71_13:
	mov	w10, #1
	strb	w9, [x19, #8]
	str	x10, [x19]
	strb	wzr, [x19, #9]
	str	wzr, [x19, #12]
	stp	xzr, xzr, [x19, #24]
	str	x8, [x19, #16]
	ldp	x29, x30, [sp, #32]
	ldr	x19, [sp, #48]
	add	sp, sp, #64
	ret
.LBB71_14:
	mov	w10, wzr
	eor	w8, w12, w9
	mov	w9, #7
.LBB71_15:
	mov	w11, #1
	strb	w9, [x19, #8]
	str	x11, [x19]
	strb	w10, [x19, #9]
	str	w8, [x19, #12]
	stp	xzr, xzr, [x19, #24]
	str	xzr, [x19, #16]
	ldp	x29, x30, [sp, #32]
	ldr	x19, [sp, #48]
	add	sp, sp, #64
	ret
.LBB71_16:
	lsr	x18, x15, #51
	cmp	x18, #8
	b.hi	.LBB71_18
	lsr	x14, x8, #3
	lsr	x8, x8, #12
	extr	x16, x17, x11, #36
	lsr	x15, x11, #41
	lsr	x17, x11, #27
	and	x14, x14, #0x10000
	and	x8, x8, #0x7f00
	and	x16, x16, #0x7f000000
	orr	x8, x8, x14
	and	x14, x17, #0x100000000
	orr	x12, x15, x12, lsl #32
	orr	x8, x8, x16
	ubfx	x16, x11, #58, #1
	orr	x8, x8, x14
	and	x15, x12, #0x1ffff0001ffff
	mov	w14, #1
	orr	x18, x8, x13
	b	.LBB71_22
.LBB71_18:
	cmp	x18, #19
	b.lo	.LBB71_21
	mov	x16, xzr
	cmp	x13, #19
	mov	w14, #2
	b.eq	.LBB71_23
	cmp	x18, #22
	mov	x18, x16
	b.hi	.LBB71_22
.LBB71_21:
	lsr	x15, x8, #8
	lsr	x8, x8, #17
	extr	x17, x17, x11, #28
	lsr	x16, x11, #41
	lsr	x18, x11, #11
	mov	x14, xzr
	and	x15, x15, #0x10000
	and	x8, x8, #0x300
	orr	x8, x8, x15
	and	x15, x17, #0xfff00000000
	and	x17, x18, #0x1000000000000
	orr	x8, x8, x15
	orr	x12, x16, x12, lsl #32
	ubfx	x16, x11, #58, #1
	orr	x8, x8, x17
	orr	x18, x8, x13
	and	x15, x12, #0x1ffff0001ffff
.LBB71_22:
	orr	x8, x14, x16, lsl #32
	str	xzr, [x19]
	strb	w10, [x19, #8]
	strb	wzr, [x19, #9]
	str	w9, [x19, #12]
	stp	x8, x15, [x19, #16]
	str	x18, [x19, #32]
	ldp	x29, x30, [sp, #32]
	ldr	x19, [sp, #48]
	add	sp, sp, #64
	ret
.LBB71_23:
	mov	x18, x16
	b	.LBB71_22
.Lfunc_end71:
	.size	"sq_text::reading::read_any", .Lfunc_end71-"sq_text::reading::read_any"

	.section	.rodata.cst16,"aM",@progbits,16
	.p2align	4, 0x0
.LCPI72_0:
	.xword	0
	.xword	2611923443488327891
	.section	".text.squitter_c::tracker_new::make","ax",@progbits
	.p2align	2
	.type	"squitter_c::tracker_new::make",@function
"squitter_c::tracker_new::make":
	stp	x29, x30, [sp, #-96]!
	stp	x28, x27, [sp, #16]
	mov	x29, sp
	stp	x26, x25, [sp, #32]
	stp	x24, x23, [sp, #48]
	stp	x22, x21, [sp, #64]
	stp	x20, x19, [sp, #80]
	sub	sp, sp, #704
	ldr	q0, [x6, #16]
	ldr	x8, [x6, #32]
	mov	x25, x0
	ldrb	w26, [x6]
	ldr	x12, [x6, #8]
	stp	xzr, xzr, [sp, #16]
	str	q0, [sp, #256]
	str	x8, [sp, #272]
	stp	xzr, xzr, [x1]
	cbz	w4, .LBB72_18
	mov	w19, w4
	mov	w23, w4
	mov	x20, x3
	add	x24, x19, #1
	mov	x21, x1
	mov	w10, #1
	lsl	x8, x24, #1
.LBB72_2:
	add	x11, x10, x10, lsl #3
	mov	x9, x10
	lsl	x10, x10, #1
	cmp	x11, x8
	b.lo	.LBB72_2
	mov	x3, xzr
	cmp	x2, #1024
	mov	w1, #1
	b.lo	.LBB72_20
	mov	w10, #2848
	lsl	x28, x24, #3
	madd	x9, x9, x10, x28
	add	x9, x9, #1280
	cmp	x2, x9
	b.lo	.LBB72_20
	subs	x9, x2, #1088
	b.lo	.LBB72_19
	str	x9, [x20, #1032]
	add	x9, x20, #1088
	mov	w10, #1
	str	x9, [x20, #1040]
	sub	x9, x29, #24
	add	x27, x20, #1024
	stp	x9, xzr, [x29, #-224]
	sub	x0, x29, #224
	mov	x1, x8
	stp	x9, xzr, [x29, #-192]
	sub	x22, x29, #224
	stp	x9, xzr, [x29, #-160]
	stp	x9, xzr, [x29, #-128]
	adrp	x9, .LCPI72_0
	ldr	q0, [x9, :lo12:.LCPI72_0]
	stp	x12, x5, [sp]
	str	x10, [x20, #1024]
	stp	xzr, xzr, [sp, #440]
	stp	xzr, xzr, [sp, #424]
	stp	xzr, xzr, [sp, #408]
	stp	xzr, xzr, [sp, #392]
	stp	xzr, xzr, [sp, #376]
	stp	xzr, xzr, [sp, #360]
	stp	xzr, xzr, [sp, #344]
	stp	xzr, xzr, [sp, #328]
	stp	xzr, xzr, [sp, #312]
	stp	xzr, xzr, [sp, #296]
	str	xzr, [sp, #288]
	stp	xzr, xzr, [x29, #-48]
	stp	xzr, xzr, [x29, #-64]
	stp	xzr, xzr, [x29, #-80]
	stp	xzr, xzr, [x29, #-240]
	stp	xzr, x27, [x29, #-208]
	stp	xzr, x27, [x29, #-176]
	stp	xzr, x27, [x29, #-144]
	stp	xzr, x27, [x29, #-112]
	stur	q0, [x29, #-96]
	bl	"indexmap::map::IndexMap::grow::<#4ad524c54542ea2c>"
	and	w8, w0, #0xff
	tbz	w8, #0, .LBB72_8
	sub	x14, x29, #224
	b	.LBB72_11
.LBB72_8:
	ldur	q0, [x22, #8]
	ldur	q2, [x22, #40]
	sub	x14, x29, #224
	ldrb	w8, [x20, #1024]
	ldur	q1, [x14, #24]
	ldur	q4, [x22, #72]
	stp	q2, q0, [x29, #-64]
	ldur	q0, [x22, #104]
	ldur	q3, [x14, #56]
	cmp	w8, #1
	ldur	q2, [x14, #88]
	ldur	x10, [x29, #-224]
	stur	q0, [x29, #-240]
	ldur	x9, [x29, #-104]
	ldr	x13, [x20, #1032]
	ldur	q0, [x29, #-96]
	ldr	x8, [x20, #1040]
	stur	q4, [x29, #-80]
	stp	xzr, xzr, [x27]
	str	xzr, [x27, #16]
	b.ne	.LBB72_11
	add	x11, x28, #15
	and	x12, x11, #0x1ffffffff0
	subs	x11, x13, x12
	b.hs	.LBB72_17
	mov	w9, #1
	str	x13, [x20, #1032]
	str	x9, [x20, #1024]
	str	x8, [x20, #1040]
.LBB72_11:
	ldp	q1, q0, [sp, #416]
	movi	v3.2d, #0000000000000000
	movi	v2.2d, #0000000000000000
	ldp	q5, q4, [sp, #352]
	ldr	x12, [sp, #448]
	mov	x13, xzr
	mov	w11, wzr
	stp	q1, q0, [sp, #96]
	ldp	q1, q0, [sp, #384]
	mov	x3, xzr
	mov	x26, xzr
	mov	x10, xzr
	mov	x9, xzr
	mov	x8, xzr
	mov	x24, xzr
	stp	q1, q0, [sp, #64]
	movi	v0.2d, #0000000000000000
	movi	v1.2d, #0000000000000000
	mov	x27, xzr
	mov	w1, #1
	stp	q5, q4, [sp, #32]
	str	x12, [sp, #128]
.LBB72_12:
	movi	v4.2d, #0000000000000000
	stur	xzr, [x29, #-192]
	stp	xzr, xzr, [sp, #432]
	stp	xzr, xzr, [x29, #-48]
	stp	xzr, xzr, [x29, #-64]
	stp	q4, q4, [x29, #-224]
	stp	xzr, xzr, [x29, #-80]
	cbz	w11, .LBB72_14
	ldp	q5, q4, [sp, #96]
	ldr	x12, [sp, #128]
	stur	x12, [x29, #-208]
	stur	q4, [x29, #-224]
	stur	q5, [x14, #24]
	ldp	q5, q4, [sp, #64]
	str	q4, [sp, #432]
	stur	q5, [x29, #-48]
	ldp	q5, q4, [sp, #32]
	stp	q5, q4, [x29, #-80]
	b	.LBB72_15
.LBB72_14:
	movi	v0.2d, #0000000000000000
	movi	v1.2d, #0000000000000000
	mov	x26, xzr
	movi	v3.2d, #0000000000000000
	movi	v2.2d, #0000000000000000
	mov	x13, xzr
	mov	x10, xzr
	mov	x9, xzr
	mov	x8, xzr
	mov	x24, xzr
	mov	x27, xzr
	and	x1, x1, #0xff
.LBB72_15:
	ldp	q4, q5, [x29, #-224]
	ldur	x12, [x29, #-192]
	str	x12, [sp, #240]
	stp	q4, q5, [sp, #208]
	ldr	q4, [sp, #432]
	str	q4, [sp, #192]
	ldp	q4, q5, [x29, #-64]
	stp	q4, q5, [sp, #160]
	ldur	q5, [x29, #-80]
	str	q5, [sp, #144]
	tbz	w11, #0, .LBB72_20
	ldp	q4, q5, [sp, #208]
	stur	q0, [x20, #200]
	movi	v0.2d, #0000000000000000
	stp	x8, xzr, [x20, #216]
	mov	x8, x20
	ldr	x11, [sp, #240]
	stp	x1, x3, [x20]
	stp	q4, q5, [x20, #32]
	ldp	q5, q4, [sp, #176]
	stp	x26, x13, [x20, #16]
	str	q0, [x8, #248]!
	stp	q4, q1, [x20, #80]
	stp	q5, q3, [x20, #112]
	ldp	q3, q1, [sp, #144]
	stp	q0, q0, [x8, #16]
	stp	q0, q0, [x8, #48]
	stp	q0, q0, [x8, #80]
	stp	q0, q0, [x8, #112]
	stp	q0, q0, [x8, #144]
	mov	w8, #65
	stp	x8, x8, [x20, #424]
	mov	w8, #1
	stp	x11, x10, [x20, #64]
	stp	q1, q2, [x20, #144]
	str	q3, [x20, #176]
	str	x9, [x20, #192]
	stp	x24, x27, [x20, #232]
	stp	xzr, xzr, [x20, #440]
	stp	x8, x20, [x21]
	stp	xzr, xzr, [sp, #16]
	b	.LBB72_21
.LBB72_17:
	ldp	q5, q4, [x29, #-64]
	add	x12, x8, x12
	str	x12, [x20, #1040]
	ldr	x12, [sp, #272]
	and	w13, w23, #0xff
	str	x11, [x20, #1032]
	mov	w11, #1
	stp	q5, q4, [sp, #320]
	ldur	q4, [x29, #-80]
	str	x12, [sp, #128]
	and	x12, x19, #0xffffff00
	str	q4, [sp, #304]
	ldur	q4, [x29, #-240]
	orr	x1, x12, x13
	ldp	x13, x3, [sp]
	str	x11, [x20, #1024]
	str	q4, [sp, #288]
	ldr	q4, [sp, #256]
	stp	xzr, xzr, [sp, #96]
	str	q4, [sp, #112]
	ldr	q4, [sp, #336]
	str	q4, [sp, #80]
	ldr	q4, [sp, #320]
	str	q4, [sp, #64]
	ldr	q4, [sp, #304]
	str	q4, [sp, #48]
	ldr	q4, [sp, #288]
	str	q4, [sp, #32]
	b	.LBB72_12
.LBB72_18:
	mov	w1, wzr
	mov	x3, xzr
	b	.LBB72_20
.LBB72_19:
	mov	x3, xzr
	mov	w1, #1
.LBB72_20:
	add	x0, sp, #16
	mov	x2, x3
	bl	"squitter_c::tracker_hear::fault_of_tracker"
.LBB72_21:
	ldr	q0, [sp, #16]
	str	q0, [x25]
	add	sp, sp, #704
	ldp	x20, x19, [sp, #80]
	ldp	x22, x21, [sp, #64]
	ldp	x24, x23, [sp, #48]
	ldp	x26, x25, [sp, #32]
	ldp	x28, x27, [sp, #16]
	ldp	x29, x30, [sp], #96
	ret
.Lfunc_end72:
	.size	"squitter_c::tracker_new::make", .Lfunc_end72-"squitter_c::tracker_new::make"

	.section	".text.indexmap::map::IndexMap::grow::<#4ad524c54542ea2c>","ax",@progbits
	.p2align	2
	.type	"indexmap::map::IndexMap::grow::<#4ad524c54542ea2c>",@function
"indexmap::map::IndexMap::grow::<#4ad524c54542ea2c>":
	stp	x29, x30, [sp, #-80]!
	stp	x22, x21, [sp, #48]
	ldr	x21, [x0, #128]
	mov	x29, sp
	stp	x20, x19, [sp, #64]
	mov	x19, x0
	cmp	x1, x21
	str	x25, [sp, #16]
	stp	x24, x23, [sp, #32]
	b.ls	.LBB73_3
	add	x0, x19, #64
	bl	"indexmap::index_table::IndexTable::reserve_rehash::<#6813f35f51a2c4fa>"
	and	w8, w0, #0xff
	tbnz	w8, #0, .LBB73_31
	ldr	x21, [x19, #128]
.LBB73_3:
	ldp	x8, x11, [x19, #8]
	sub	x9, x11, x8
	cmp	x21, x9
	b.ls	.LBB73_17
	cmn	x8, x21
	b.hs	.LBB73_31
	add	x22, x8, x21
	lsr	x9, x22, #61
	cbnz	x9, .LBB73_31
	ldr	x9, [x19, #24]
	ldr	x1, [x19]
	ldrb	w12, [x9]
	ldp	x10, x20, [x9, #8]
	stp	xzr, xzr, [x9]
	cmp	w12, #1
	str	xzr, [x9, #16]
	cbz	x11, .LBB73_10
	b.ne	.LBB73_14
	lsl	x11, x22, #2
	mov	w12, #16
	cmp	x11, #16
	csel	x11, x11, x12, hi
	add	x11, x11, #15
	and	x11, x11, #0xfffffffffffffff0
	subs	x12, x10, x11
	b.hs	.LBB73_33
	mov	w23, #1
	stp	x23, x10, [x9]
	b	.LBB73_13
.LBB73_10:
	b.ne	.LBB73_14
	lsl	x8, x22, #2
	mov	w11, #16
	cmp	x8, #16
	csel	x8, x8, x11, hi
	add	x8, x8, #15
	and	x8, x8, #0xfffffffffffffff0
	subs	x11, x10, x8
	b.hs	.LBB73_39
	mov	w23, #1
	stp	x23, x10, [x9]
.LBB73_13:
	str	x20, [x9, #16]
	mov	x20, xzr
	b	.LBB73_15
.LBB73_14:
	mov	x20, xzr
	mov	w23, #1
.LBB73_15:
	tst	w23, #0xff
	b.ne	.LBB73_31
	str	x20, [x19]
	str	x22, [x19, #16]
.LBB73_17:
	ldp	x24, x10, [x19, #40]
	sub	x8, x10, x24
	cmp	x21, x8
	b.ls	.LBB73_24
	cmn	x24, x21
	b.hs	.LBB73_31
	mov	x8, #60222
	add	x22, x24, x21
	movk	x8, #21254, lsl #16
	movk	x8, #46052, lsl #32
	movk	x8, #110, lsl #48
	cmp	x22, x8
	b.hi	.LBB73_31
	ldr	x8, [x19, #56]
	ldr	x21, [x19, #32]
	ldrb	w11, [x8]
	ldp	x9, x20, [x8, #8]
	stp	xzr, xzr, [x8]
	cmp	w11, #1
	str	xzr, [x8, #16]
	cbz	x10, .LBB73_25
	b.ne	.LBB73_29
	mov	w10, #296
	mov	w11, #16
	mul	x10, x22, x10
	cmp	x10, #16
	csel	x10, x10, x11, hi
	add	x10, x10, #15
	and	x10, x10, #0x7ffffffffffffff0
	subs	x11, x9, x10
	b.hs	.LBB73_40
	mov	w23, #1
	stp	x23, x9, [x8]
	b	.LBB73_28
.LBB73_24:
	mov	w0, wzr
	ldp	x20, x19, [sp, #64]
	ldr	x25, [sp, #16]
	ldp	x22, x21, [sp, #48]
	ldp	x24, x23, [sp, #32]
	ldp	x29, x30, [sp], #80
	ret
.LBB73_25:
	b.ne	.LBB73_29
	mov	w10, #296
	mov	w11, #16
	mul	x10, x22, x10
	cmp	x10, #16
	csel	x10, x10, x11, hi
	add	x10, x10, #15
	and	x10, x10, #0x7ffffffffffffff0
	subs	x11, x9, x10
	b.hs	.LBB73_45
	mov	w23, #1
	stp	x23, x9, [x8]
.LBB73_28:
	str	x20, [x8, #16]
	mov	x20, xzr
	b	.LBB73_30
.LBB73_29:
	mov	x20, xzr
	mov	w23, #1
.LBB73_30:
	tst	w23, #0xff
	b.eq	.LBB73_32
.LBB73_31:
	mov	w0, #1
	ldp	x20, x19, [sp, #64]
	ldr	x25, [sp, #16]
	ldp	x22, x21, [sp, #48]
	ldp	x24, x23, [sp, #32]
	ldp	x29, x30, [sp], #80
	ret
.LBB73_32:
	mov	w0, wzr
	str	x20, [x19, #32]
	str	x22, [x19, #48]
	ldp	x20, x19, [sp, #64]
	ldr	x25, [sp, #16]
	ldp	x22, x21, [sp, #48]
	ldp	x24, x23, [sp, #32]
	ldp	x29, x30, [sp], #80
	ret
.LBB73_33:
	mov	w10, #1
	lsl	x2, x8, #2
	mov	w23, wzr
	stp	x10, x12, [x9]
	sub	x10, x20, x1
	add	x11, x20, x11
	cmp	x10, x2
	str	x11, [x9, #16]
	b.hs	.LBB73_44
	cbz	x8, .LBB73_15
	cmp	x8, #8
	mov	x9, xzr
	b.lo	.LBB73_48
	cmp	x10, #32
	b.lo	.LBB73_48
	and	x9, x8, #0xfffffffffffffff8
	add	x10, x1, #16
	add	x11, x20, #16
	and	x12, x8, #0xfffffffffffffff8
.LBB73_38:
	ldp	q0, q1, [x10, #-16]
	subs	x12, x12, #8
	add	x10, x10, #32
	stp	q0, q1, [x11, #-16]
	add	x11, x11, #32
	b.ne	.LBB73_38
	b	.LBB73_47
.LBB73_39:
	mov	w23, wzr
	mov	w10, #1
	add	x8, x20, x8
	stp	x10, x11, [x9]
	str	x8, [x9, #16]
	b	.LBB73_15
.LBB73_40:
	mov	w9, #296
	mov	w23, wzr
	add	x10, x20, x10
	mul	x2, x24, x9
	mov	w9, #1
	str	x10, [x8, #16]
	stp	x9, x11, [x8]
	sub	x9, x20, x21
	cmp	x9, x2
	b.hs	.LBB73_46
	cbz	x24, .LBB73_30
	mov	x25, xzr
.LBB73_43:
	add	x0, x20, x25
	add	x1, x21, x25
	mov	w2, #296
	bl	memmove
	subs	x24, x24, #1
	add	x25, x25, #296
	b.ne	.LBB73_43
	b	.LBB73_30
.LBB73_44:
	mov	x0, x20
	bl	memmove
	b	.LBB73_15
.LBB73_45:
	mov	w9, #1
	mov	w23, wzr
	stp	x9, x11, [x8]
	add	x9, x20, x10
	str	x9, [x8, #16]
	b	.LBB73_30
.LBB73_46:
	mov	x0, x20
	mov	x1, x21
	bl	memmove
	b	.LBB73_30
.LBB73_47:
	cmp	x8, x9
	b.eq	.LBB73_15
.LBB73_48:
	ldr	w10, [x1, x9, lsl #2]
	str	w10, [x20, x9, lsl #2]
	add	x9, x9, #1
	b	.LBB73_47
.Lfunc_end73:
	.size	"indexmap::map::IndexMap::grow::<#4ad524c54542ea2c>", .Lfunc_end73-"indexmap::map::IndexMap::grow::<#4ad524c54542ea2c>"

	.section	.rodata.cst16,"aM",@progbits,16
	.p2align	4, 0x0
.LCPI74_0:
	.byte	1
	.byte	2
	.byte	4
	.byte	8
	.byte	16
	.byte	32
	.byte	64
	.byte	128
	.byte	1
	.byte	2
	.byte	4
	.byte	8
	.byte	16
	.byte	32
	.byte	64
	.byte	128
	.section	".text.indexmap::index_table::IndexTable::reserve_rehash::<#6813f35f51a2c4fa>","ax",@progbits
	.p2align	2
	.type	"indexmap::index_table::IndexTable::reserve_rehash::<#6813f35f51a2c4fa>",@function
"indexmap::index_table::IndexTable::reserve_rehash::<#6813f35f51a2c4fa>":
	stp	x29, x30, [sp, #-80]!
	stp	x22, x21, [sp, #48]
	ldr	x22, [x0, #40]
	mov	w8, #-1879048192
	str	x25, [sp, #16]
	mov	x29, sp
	sub	x8, x8, x22
	stp	x24, x23, [sp, #32]
	cmp	x8, x1
	stp	x20, x19, [sp, #64]
	b.hs	.LBB74_2
.LBB74_1:
	mov	w8, #1
	b	.LBB74_63
.LBB74_2:
	ldr	x24, [x0, #8]
	mov	w8, #268435456
	add	x20, x24, x24, lsl #3
	cmp	x24, x8
	b.eq	.LBB74_13
	lsr	x9, x20, #1
	add	x8, x22, x1
	cmp	x8, x9
	b.ls	.LBB74_13
	add	x9, x20, #1
	cmp	x9, x8
	mov	w9, #1
	csinc	x8, x8, x20, ls
.LBB74_5:
	add	x23, x9, x9, lsl #3
	mov	x19, x9
	lsl	x9, x9, #1
	cmp	x23, x8
	b.lo	.LBB74_5
	ldr	x10, [x0, #48]
	sub	x21, x23, x22
	sub	x8, x10, x22
	cmp	x21, x8
	b.ls	.LBB74_29
	lsr	x9, x23, #60
	mov	w8, #1
	cbnz	x9, .LBB74_63
	mvn	x9, x22
	cmp	x21, x9
	b.hi	.LBB74_63
	ldr	x8, [x0, #56]
	ldr	x1, [x0, #32]
	ldrb	w11, [x8]
	ldp	x9, x20, [x8, #8]
	stp	xzr, xzr, [x8]
	cmp	w11, #1
	str	xzr, [x8, #16]
	cbz	x10, .LBB74_22
	b.ne	.LBB74_26
	lsl	x10, x23, #3
	mov	w11, #16
	cmp	x10, #16
	csel	x10, x10, x11, hi
	add	x10, x10, #15
	and	x10, x10, #0xfffffffffffffff0
	subs	x11, x9, x10
	b.hs	.LBB74_36
	mov	w24, #1
	stp	x24, x9, [x8]
	b	.LBB74_25
.LBB74_13:
	ldr	x19, [x0]
	ldr	x21, [x0, #32]
	cbz	x24, .LBB74_15
	lsl	x2, x24, #6
	mov	x23, x0
	mov	x0, x19
	mov	w1, wzr
	bl	memset
	mov	x0, x23
.LBB74_15:
	cbz	x22, .LBB74_21
	mov	w9, #-1
	mov	x8, xzr
	sub	x10, x24, #1
	add	x9, x24, x9
	b	.LBB74_18
.LBB74_17:
	rbit	w15, w17
	clz	w15, w15
	add	x17, x16, w15, uxtw #2
	strb	w13, [x16, w15, uxtw]
	orr	w13, w15, w14, lsl #4
	str	w8, [x17, #16]
	add	x8, x8, #1
	cmp	x8, x22
	stp	w12, w13, [x11]
	b.eq	.LBB74_21
.LBB74_18:
	add	x11, x21, x8, lsl #3
	mov	w14, #1
	ldr	w12, [x11]
	lsr	w13, w12, #24
	cmp	w13, #1
	csinc	w13, w13, wzr, hi
	lsl	w15, w14, w13
	and	x14, x9, x12
.LBB74_19:
	add	x16, x19, x14, lsl #6
	adrp	x17, .LCPI74_0
	ldr	q1, [x17, :lo12:.LCPI74_0]
	ldr	q0, [x16]
	cmeq	v0.16b, v0.16b, #0
	and	v0.16b, v0.16b, v1.16b
	addp	v0.16b, v0.16b, v0.16b
	addp	v0.16b, v0.16b, v0.16b
	addp	v0.16b, v0.16b, v0.16b
	umov	w17, v0.h[0]
	ands	w17, w17, #0xfff
	b.ne	.LBB74_17
	ldr	w17, [x16, #12]
	add	x14, x14, #1
	and	x14, x14, x10
	orr	w17, w17, w15
	str	w17, [x16, #12]
	b	.LBB74_19
.LBB74_21:
	sub	x9, x20, x22
	mov	w8, wzr
	str	x9, [x0, #64]
	b	.LBB74_63
.LBB74_22:
	b.ne	.LBB74_26
	lsl	x10, x23, #3
	mov	w11, #16
	cmp	x10, #16
	csel	x10, x10, x11, hi
	add	x10, x10, #15
	and	x10, x10, #0xfffffffffffffff0
	subs	x11, x9, x10
	b.hs	.LBB74_64
	mov	w24, #1
	stp	x24, x9, [x8]
.LBB74_25:
	str	x20, [x8, #16]
	mov	x20, xzr
	b	.LBB74_27
.LBB74_26:
	mov	x20, xzr
	mov	w24, #1
.LBB74_27:
	tst	w24, #0xff
	b.ne	.LBB74_1
	ldr	x24, [x0, #8]
	str	x20, [x0, #32]
	str	x23, [x0, #48]
.LBB74_29:
	ldr	x23, [x0, #16]
	subs	x8, x19, x24
	csel	x8, xzr, x8, lo
	sub	x9, x23, x24
	cmp	x8, x9
	b.ls	.LBB74_49
	cmn	x24, x8
	b.hs	.LBB74_1
	add	x22, x8, x24
	lsr	x8, x22, #57
	cbnz	x8, .LBB74_1
	ldr	x8, [x0, #24]
	ldr	x1, [x0]
	ldrb	w10, [x8]
	ldp	x9, x20, [x8, #8]
	stp	xzr, xzr, [x8]
	cmp	w10, #1
	str	xzr, [x8, #16]
	cbz	x23, .LBB74_42
	b.ne	.LBB74_46
	lsl	x10, x22, #6
	mov	w11, #16
	cmp	x10, #16
	csel	x10, x10, x11, hi
	subs	x11, x9, x10
	b.hs	.LBB74_68
	mov	w23, #1
	stp	x23, x9, [x8]
	b	.LBB74_45
.LBB74_36:
	mov	w9, #1
	lsl	x2, x22, #3
	mov	x25, x0
	stp	x9, x11, [x8]
	sub	x9, x20, x1
	mov	w24, wzr
	add	x10, x20, x10
	cmp	x9, x2
	str	x10, [x8, #16]
	b.hs	.LBB74_65
	cbz	x22, .LBB74_72
	cmp	x22, #4
	mov	x8, xzr
	b.lo	.LBB74_75
	cmp	x9, #32
	mov	x0, x25
	b.lo	.LBB74_78
	and	x8, x22, #0xfffffffffffffffc
	add	x9, x1, #16
	add	x10, x20, #16
	and	x11, x22, #0xfffffffffffffffc
.LBB74_41:
	ldp	q0, q1, [x9, #-16]
	subs	x11, x11, #4
	add	x9, x9, #32
	stp	q0, q1, [x10, #-16]
	add	x10, x10, #32
	b.ne	.LBB74_41
	b	.LBB74_77
.LBB74_42:
	b.ne	.LBB74_46
	lsl	x10, x22, #6
	mov	w11, #16
	cmp	x10, #16
	csel	x10, x10, x11, hi
	subs	x11, x9, x10
	b.hs	.LBB74_73
	mov	w23, #1
	stp	x23, x9, [x8]
.LBB74_45:
	str	x20, [x8, #16]
	mov	x20, xzr
	b	.LBB74_47
.LBB74_46:
	mov	x20, xzr
	mov	w23, #1
.LBB74_47:
	tst	w23, #0xff
	b.ne	.LBB74_1
	ldr	x24, [x0, #8]
	mov	x23, x22
	str	x20, [x0]
	str	x22, [x0, #16]
.LBB74_49:
	cbz	x24, .LBB74_51
	str	xzr, [x0, #8]
.LBB74_51:
	cbz	x19, .LBB74_56
	cmp	x19, x23
	b.hi	.LBB74_66
	mov	x8, xzr
	add	x22, xzr, x19
	ldr	x20, [x0]
	cmp	xzr, x22
	b.hs	.LBB74_55
.LBB74_54:
	add	x8, x20, x8, lsl #6
	lsl	x2, x19, #6
	mov	x19, x0
	mov	w1, wzr
	mov	x0, x8
	bl	memset
	mov	x0, x19
.LBB74_55:
	stp	x20, x22, [x0]
	str	x23, [x0, #16]
	ldr	x8, [x0, #40]
	cbnz	x8, .LBB74_57
	b	.LBB74_62
.LBB74_56:
	ldr	x20, [x0]
	mov	x22, xzr
	ldr	x8, [x0, #40]
	cbz	x8, .LBB74_62
.LBB74_57:
	ldr	x10, [x0, #32]
	mov	w11, #-1
	mov	x9, xzr
	add	x11, x22, x11
	sub	x12, x22, #1
	b	.LBB74_59
.LBB74_58:
	rbit	w17, w1
	clz	w17, w17
	add	x1, x18, w17, uxtw #2
	strb	w15, [x18, w17, uxtw]
	orr	w15, w17, w16, lsl #4
	str	w9, [x1, #16]
	add	x9, x9, #1
	cmp	x9, x8
	stp	w14, w15, [x13]
	b.eq	.LBB74_62
.LBB74_59:
	add	x13, x10, x9, lsl #3
	mov	w16, #1
	ldr	w14, [x13]
	lsr	w15, w14, #24
	cmp	w15, #1
	csinc	w15, w15, wzr, hi
	lsl	w17, w16, w15
	and	x16, x11, x14
.LBB74_60:
	add	x18, x20, x16, lsl #6
	adrp	x1, .LCPI74_0
	ldr	q1, [x1, :lo12:.LCPI74_0]
	ldr	q0, [x18]
	cmeq	v0.16b, v0.16b, #0
	and	v0.16b, v0.16b, v1.16b
	addp	v0.16b, v0.16b, v0.16b
	addp	v0.16b, v0.16b, v0.16b
	addp	v0.16b, v0.16b, v0.16b
	umov	w1, v0.h[0]
	ands	w1, w1, #0xfff
	b.ne	.LBB74_58
	ldr	w1, [x18, #12]
	add	x16, x16, #1
	and	x16, x16, x12
	orr	w1, w1, w17
	str	w1, [x18, #12]
	b	.LBB74_60
.LBB74_62:
	mov	w8, wzr
	str	x21, [x0, #64]
.LBB74_63:
	ldp	x20, x19, [sp, #64]
	mov	w0, w8
	ldp	x22, x21, [sp, #48]
	ldr	x25, [sp, #16]
	ldp	x24, x23, [sp, #32]
	ldp	x29, x30, [sp], #80
	ret
.LBB74_64:
	mov	w9, #1
	mov	w24, wzr
	stp	x9, x11, [x8]
	add	x9, x20, x10
	str	x9, [x8, #16]
	b	.LBB74_27
.LBB74_65:
	mov	x0, x20
	bl	memmove
	mov	x0, x25
	b	.LBB74_27
.LBB74_66:
	mov	x1, x19
	mov	x20, x0
	bl	"std_alloc::vec::Vec::grow_amortized::<#9cb2eb1b073929cc>"
	cbz	w0, .LBB74_76
	ldp	x8, x23, [x20, #8]
	mov	x0, x20
	add	x22, x8, x19
	ldr	x20, [x20]
	cmp	x8, x22
	b.lo	.LBB74_54
	b	.LBB74_55
.LBB74_68:
	mov	w9, #1
	lsl	x2, x24, #6
	mov	w23, wzr
	stp	x9, x11, [x8]
	sub	x9, x20, x1
	add	x10, x20, x10
	cmp	x9, x2
	str	x10, [x8, #16]
	b.hs	.LBB74_74
	cbz	x24, .LBB74_47
	mov	x8, xzr
.LBB74_71:
	add	x9, x1, x8
	add	x10, x20, x8
	subs	x24, x24, #1
	ldp	q1, q0, [x9, #32]
	add	x8, x8, #64
	ldp	q2, q3, [x9]
	stp	q1, q0, [x10, #32]
	stp	q2, q3, [x10]
	b.ne	.LBB74_71
	b	.LBB74_47
.LBB74_72:
	mov	x0, x25
	b	.LBB74_27
.LBB74_73:
	mov	w9, #1
	mov	w23, wzr
	stp	x9, x11, [x8]
	add	x9, x20, x10
	str	x9, [x8, #16]
	b	.LBB74_47
.LBB74_74:
	mov	x24, x0
	mov	x0, x20
	bl	memmove
	mov	x0, x24
	b	.LBB74_47
.LBB74_75:
	mov	x0, x25
	b	.LBB74_78
.LBB74_76:
	brk	#0x1
.LBB74_77:
	cmp	x22, x8
	b.eq	.LBB74_27
.LBB74_78:
	ldr	x9, [x1, x8, lsl #3]
	str	x9, [x20, x8, lsl #3]
	add	x8, x8, #1
	b	.LBB74_77
.Lfunc_end74:
	.size	"indexmap::index_table::IndexTable::reserve_rehash::<#6813f35f51a2c4fa>", .Lfunc_end74-"indexmap::index_table::IndexTable::reserve_rehash::<#6813f35f51a2c4fa>"

	.section	".text.unlikely.std_alloc::vec::Vec::grow_amortized::<#9cb2eb1b073929cc>","ax",@progbits
	.p2align	2
	.type	"std_alloc::vec::Vec::grow_amortized::<#9cb2eb1b073929cc>",@function
"std_alloc::vec::Vec::grow_amortized::<#9cb2eb1b073929cc>":
	ldr	x8, [x0, #8]
	cmn	x8, x1
	b.lo	.LBB75_2
	mov	w0, wzr
	ret
.LBB75_2:
	stp	x29, x30, [sp, #-48]!
	ldr	x11, [x0, #16]
	add	x9, x8, x1
	mov	w10, #4
	cmp	x9, #4
	stp	x20, x19, [sp, #32]
	mov	x29, sp
	lsl	x12, x11, #1
	csel	x9, x9, x10, hi
	lsr	x10, x11, #62
	stp	x22, x21, [sp, #16]
	cmp	x9, x12
	csel	x12, x9, x12, hi
	cmp	x10, #0
	csel	x20, x12, x9, eq
	lsr	x9, x20, #57
	cbnz	x9, .LBB75_13
	ldr	x9, [x0, #24]
	ldr	x1, [x0]
	ldrb	w13, [x9]
	ldp	x10, x19, [x9, #8]
	stp	xzr, xzr, [x9]
	cmp	w13, #1
	str	xzr, [x9, #16]
	cbz	x11, .LBB75_7
	b.ne	.LBB75_11
	lsl	x11, x20, #6
	subs	x12, x10, x11
	b.hs	.LBB75_15
	mov	w21, #1
	stp	x21, x10, [x9]
	b	.LBB75_10
.LBB75_7:
	b.ne	.LBB75_11
	lsl	x8, x12, #6
	subs	x11, x10, x8
	b.hs	.LBB75_19
	mov	w21, #1
	stp	x21, x10, [x9]
.LBB75_10:
	str	x19, [x9, #16]
	mov	x19, xzr
	b	.LBB75_12
.LBB75_11:
	mov	x19, xzr
	mov	w21, #1
.LBB75_12:
	tst	w21, #0xff
	b.eq	.LBB75_14
.LBB75_13:
	mov	w0, wzr
	ldp	x20, x19, [sp, #32]
	ldp	x22, x21, [sp, #16]
	ldp	x29, x30, [sp], #48
	ret
.LBB75_14:
	str	x19, [x0]
	str	x20, [x0, #16]
	mov	w0, #1
	ldp	x20, x19, [sp, #32]
	ldp	x22, x21, [sp, #16]
	ldp	x29, x30, [sp], #48
	ret
.LBB75_15:
	mov	w10, #1
	lsl	x2, x8, #6
	mov	w21, wzr
	stp	x10, x12, [x9]
	sub	x10, x19, x1
	add	x11, x19, x11
	cmp	x10, x2
	str	x11, [x9, #16]
	b.hs	.LBB75_20
	cbz	x8, .LBB75_12
	mov	x9, xzr
.LBB75_18:
	add	x10, x1, x9
	add	x11, x19, x9
	subs	x8, x8, #1
	ldp	q1, q0, [x10, #32]
	add	x9, x9, #64
	ldp	q2, q3, [x10]
	stp	q1, q0, [x11, #32]
	stp	q2, q3, [x11]
	b.ne	.LBB75_18
	b	.LBB75_12
.LBB75_19:
	mov	w21, wzr
	mov	w10, #1
	add	x8, x19, x8
	stp	x10, x11, [x9]
	str	x8, [x9, #16]
	b	.LBB75_12
.LBB75_20:
	mov	x22, x0
	mov	x0, x19
	bl	memmove
	mov	x0, x22
	b	.LBB75_12
.Lfunc_end75:
	.size	"std_alloc::vec::Vec::grow_amortized::<#9cb2eb1b073929cc>", .Lfunc_end75-"std_alloc::vec::Vec::grow_amortized::<#9cb2eb1b073929cc>"

	.section	".text.unlikely.squitter_c::tracker_hear::fault_of_tracker","ax",@progbits
	.p2align	2
	.type	"squitter_c::tracker_hear::fault_of_tracker",@function
"squitter_c::tracker_hear::fault_of_tracker":
	and	w8, w1, #0xff
	cmp	w8, #1
	b.gt	.LBB76_2
	mov	w9, #45
	mov	w10, #44
	cmp	w8, #0
	csel	w8, w9, w10, eq
	stp	w8, wzr, [x0]
	str	xzr, [x0, #8]
	ret
.LBB76_2:
	cmp	w8, #2
	b.ne	.LBB76_4
	mov	w8, #42
	stp	w8, wzr, [x0]
	str	x2, [x0, #8]
	ret
.LBB76_4:
	mov	w8, #43
	stp	w8, wzr, [x0]
	str	xzr, [x0, #8]
	ret
.Lfunc_end76:
	.size	"squitter_c::tracker_hear::fault_of_tracker", .Lfunc_end76-"squitter_c::tracker_hear::fault_of_tracker"

	.section	".text.squitter_c::entry::received_of","ax",@progbits
	.p2align	2
	.type	"squitter_c::entry::received_of",@function
"squitter_c::entry::received_of":
	sub	sp, sp, #16
	ldr	x8, [x1, #8]
	strb	wzr, [sp, #14]
	strh	wzr, [sp, #12]
	rev	x9, x8
	lsr	x8, x9, #59
	cmp	x8, #17
	b.ne	.LBB77_4
	mov	w8, #572
	lsr	x10, x9, #46
	lsr	x12, x9, #24
	and	x11, x8, x9, lsr #54
	adrp	x8, .Lstatic.44
	add	x8, x8, :lo12:.Lstatic.44
	and	x13, x10, #0x3fc
	adrp	x10, .Lstatic.45
	add	x10, x10, :lo12:.Lstatic.45
	ldr	w11, [x8, x11]
	ldr	w13, [x10, x13]
	ldur	w14, [x1, #18]
	ldrb	w15, [x1, #16]
	eor	w11, w11, w12
	ldrb	w12, [x1, #17]
	eor	w11, w11, w13
	lsl	x13, x14, #32
	lsr	w14, w11, #14
	lsr	w16, w11, #6
	ubfiz	x11, x11, #2, #8
	orr	x12, x13, x12, lsl #24
	and	x13, x14, #0x3fc
	adrp	x14, .Lstatic.43
	add	x14, x14, :lo12:.Lstatic.43
	and	x16, x16, #0x3fc
	ldr	w13, [x14, x13]
	ldr	w11, [x10, x11]
	ldr	w16, [x8, x16]
	orr	x12, x12, x15, lsl #16
	eor	w13, w13, w9
	eor	w11, w16, w11
	rev	x12, x12
	eor	w13, w13, w11
	orr	x11, x12, x9, lsl #48
	and	w12, w12, #0xffffff
	lsr	w15, w13, #14
	lsr	w16, w13, #6
	ubfiz	x13, x13, #2, #8
	lsr	x17, x11, #24
	and	x15, x15, #0x3fc
	and	x16, x16, #0x3fc
	ldr	w13, [x10, x13]
	ldr	w15, [x14, x15]
	ldr	w16, [x8, x16]
	eor	w13, w13, w17
	eor	w15, w16, w15
	eor	w13, w15, w13
	lsr	w15, w13, #6
	ubfiz	x16, x13, #2, #8
	lsr	w13, w13, #14
	and	x15, x15, #0x3fc
	ldr	w10, [x10, x16]
	and	x13, x13, #0x3fc
	ldr	w8, [x8, x15]
	ldr	w13, [x14, x13]
	eor	w10, w12, w10
	eor	w8, w8, w10
	cmp	w13, w8
	b.ne	.LBB77_4
	lsr	x18, x9, #16
	ubfx	x10, x9, #56, #3
	ubfx	x8, x9, #32, #24
	extr	x16, x18, x11, #24
	ubfx	x17, x16, #51, #5
	and	x12, x16, #0xffffffffffffff
	cmp	x17, #5
	b.hs	.LBB77_5
	mov	w15, wzr
	mov	x14, xzr
	mov	w13, #2
	b	.LBB77_11
.LBB77_4:
	mov	w15, wzr
	mov	x12, xzr
	mov	x14, xzr
	mov	w8, wzr
	mov	x9, xzr
	mov	x11, xzr
	mov	w10, wzr
	mov	w13, wzr
	b	.LBB77_12
.LBB77_5:
	lsr	x2, x12, #51
	cmp	x2, #8
	b.hi	.LBB77_7
	lsr	x12, x9, #3
	lsr	x9, x9, #12
	extr	x13, x18, x11, #36
	lsr	x14, x11, #27
	lsr	x15, x11, #41
	ubfx	x11, x11, #58, #1
	and	x12, x12, #0x10000
	and	x9, x9, #0x7f00
	and	x13, x13, #0x7f000000
	orr	x9, x9, x12
	and	x12, x14, #0x100000000
	orr	x9, x9, x13
	orr	x13, x15, x16, lsl #32
	mov	w15, w11
	orr	x9, x9, x12
	orr	x14, x9, x17
	and	x12, x13, #0x1ffff0001ffff
	mov	w13, #1
	b	.LBB77_11
.LBB77_7:
	cmp	x2, #19
	b.lo	.LBB77_10
	mov	x14, xzr
	mov	w15, wzr
	cmp	x17, #19
	mov	w13, #2
	b.eq	.LBB77_11
	cmp	x2, #22
	b.hi	.LBB77_11
.LBB77_10:
	lsr	x12, x9, #8
	lsr	x9, x9, #17
	extr	x15, x18, x11, #28
	lsr	x14, x11, #41
	lsr	x18, x11, #11
	mov	w13, wzr
	and	x12, x12, #0x10000
	and	x9, x9, #0x300
	orr	x9, x9, x12
	and	x12, x15, #0xfff00000000
	and	x18, x18, #0x1000000000000
	orr	x9, x9, x12
	orr	x12, x14, x16, lsl #32
	ubfx	x15, x11, #58, #1
	orr	x9, x9, x18
	orr	x14, x9, x17
	and	x12, x12, #0x1ffff0001ffff
.LBB77_11:
	ldr	x11, [x1]
	mov	w9, #1
.LBB77_12:
	stp	x9, x11, [x0]
	ldrh	w9, [sp, #12]
	strb	w10, [x0, #16]
	ldrb	w10, [sp, #14]
	sturh	w9, [x0, #17]
	strb	w10, [x0, #19]
	stp	w8, w13, [x0, #20]
	str	w15, [x0, #28]
	stp	x12, x14, [x0, #32]
	add	sp, sp, #16
	ret
.Lfunc_end77:
	.size	"squitter_c::entry::received_of", .Lfunc_end77-"squitter_c::entry::received_of"

	.section	.rodata.cst16,"aM",@progbits,16
	.p2align	4, 0x0
.LCPI78_0:
	.byte	1
	.byte	2
	.byte	4
	.byte	8
	.byte	16
	.byte	32
	.byte	64
	.byte	128
	.byte	1
	.byte	2
	.byte	4
	.byte	8
	.byte	16
	.byte	32
	.byte	64
	.byte	128
	.section	".text.sq_track::contacts::Contacts::contains::<#bd73a11ec42be588>","ax",@progbits
	.p2align	2
	.type	"sq_track::contacts::Contacts::contains::<#bd73a11ec42be588>",@function
"sq_track::contacts::Contacts::contains::<#bd73a11ec42be588>":
	ldr	x12, [x0, #72]
	cbz	x12, .LBB78_8
	mov	w8, w1
	mov	x10, #31773
	ldr	x9, [x0, #136]
	orr	x8, x8, x8, lsl #32
	movk	x10, #32586, lsl #16
	mov	w13, #1
	movk	x10, #31161, lsl #32
	movk	x10, #40503, lsl #48
	eor	x8, x9, x8
	mul	x9, x8, x10
	umulh	x8, x8, x10
	ldr	x10, [x0, #64]
	eor	x8, x8, x9
	lsr	x9, x8, #32
	eor	w8, w9, w8
	lsr	w9, w8, #24
	cmp	w9, #1
	csinc	w11, w9, wzr, hi
	sub	w9, w12, #1
	sub	x12, x12, #1
	dup	v0.16b, w11
	and	w8, w9, w8
	ldr	x9, [x0]
	lsl	w11, w13, w11
	mov	x13, x8
.LBB78_2:
	add	x14, x10, x13, lsl #6
	adrp	x15, .LCPI78_0
	ldr	q2, [x15, :lo12:.LCPI78_0]
	ldr	q1, [x14]
	cmeq	v1.16b, v1.16b, v0.16b
	and	v1.16b, v1.16b, v2.16b
	addp	v1.16b, v1.16b, v1.16b
	addp	v1.16b, v1.16b, v1.16b
	addp	v1.16b, v1.16b, v1.16b
	umov	w15, v1.h[0]
	ands	w15, w15, #0xfff
	b.eq	.LBB78_6
	add	x16, x14, #16
.LBB78_4:
	rbit	w17, w15
	clz	w17, w17
	ldr	w17, [x16, w17, uxtw #2]
	ldr	w17, [x9, x17, lsl #2]
	cmp	w1, w17
	b.eq	.LBB78_9
	sub	w17, w15, #1
	ands	w15, w17, w15
	b.ne	.LBB78_4
.LBB78_6:
	ldr	w14, [x14, #12]
	tst	w14, w11
	b.eq	.LBB78_8
	add	x13, x13, #1
	and	x13, x13, x12
	cmp	x13, x8
	b.ne	.LBB78_2
.LBB78_8:
	mov	w0, wzr
	ret
.LBB78_9:
	mov	w0, #1
	ret
.Lfunc_end78:
	.size	"sq_track::contacts::Contacts::contains::<#bd73a11ec42be588>", .Lfunc_end78-"sq_track::contacts::Contacts::contains::<#bd73a11ec42be588>"

	.section	.rodata.cst16,"aM",@progbits,16
	.p2align	4, 0x0
.LCPI79_0:
	.byte	1
	.byte	2
	.byte	4
	.byte	8
	.byte	16
	.byte	32
	.byte	64
	.byte	128
	.byte	1
	.byte	2
	.byte	4
	.byte	8
	.byte	16
	.byte	32
	.byte	64
	.byte	128
	.section	".text.sq_track::contacts::enter::<#bd73a11ec42be588>","ax",@progbits
	.p2align	2
	.type	"sq_track::contacts::enter::<#bd73a11ec42be588>",@function
"sq_track::contacts::enter::<#bd73a11ec42be588>":
	stp	x29, x30, [sp, #-80]!
	ldp	x8, x9, [x1, #8]
	mov	x29, sp
	stp	x20, x19, [sp, #64]
	mov	x19, x1
	ldr	x1, [x0, #8]
	str	x25, [sp, #16]
	cmp	x9, x8
	stp	x24, x23, [sp, #32]
	stp	x22, x21, [sp, #48]
	b.eq	.LBB79_22
.LBB79_1:
	ldr	x9, [x19]
	mov	x10, x1
	add	x11, x8, #1
	bfi	x10, x1, #32, #32
	adrp	x20, .LCPI79_0
	str	x10, [x9, x8, lsl #3]
	mov	w8, w3
	mov	x10, #31773
	str	x11, [x19, #8]
	orr	x8, x8, x8, lsl #32
	movk	x10, #32586, lsl #16
	ldr	x9, [x0, #136]
	movk	x10, #31161, lsl #32
	movk	x10, #40503, lsl #48
	eor	x8, x9, x8
	mul	x9, x8, x10
	umulh	x8, x8, x10
	eor	x10, x8, x9
	ldp	x8, x9, [x0, #64]
	eor	x21, x10, x10, lsr #32
	ldr	x10, [x0, #8]
	cbz	x9, .LBB79_9
	lsr	w11, w21, #24
	sub	w12, w9, #1
	mov	w14, #1
	and	w12, w12, w21
	cmp	w11, #1
	mov	x15, x12
	csinc	w13, w11, wzr, hi
	ldr	x11, [x0]
	dup	v0.16b, w13
	lsl	w13, w14, w13
	sub	x14, x9, #1
.LBB79_3:
	add	x16, x8, x15, lsl #6
	ldr	q2, [x20, :lo12:.LCPI79_0]
	ldr	q1, [x16]
	cmeq	v1.16b, v1.16b, v0.16b
	and	v1.16b, v1.16b, v2.16b
	addp	v1.16b, v1.16b, v1.16b
	addp	v1.16b, v1.16b, v1.16b
	addp	v1.16b, v1.16b, v1.16b
	umov	w17, v1.h[0]
	ands	w17, w17, #0xfff
	b.eq	.LBB79_7
	add	x18, x16, #16
.LBB79_5:
	rbit	w4, w17
	clz	w4, w4
	ldr	w4, [x18, w4, uxtw #2]
	ldr	w5, [x11, x4, lsl #2]
	cmp	w3, w5
	b.eq	.LBB79_13
	sub	w4, w17, #1
	ands	w17, w4, w17
	b.ne	.LBB79_5
.LBB79_7:
	ldr	w16, [x16, #12]
	tst	w16, w13
	b.eq	.LBB79_9
	add	x15, x15, #1
	and	x15, x15, x14
	cmp	x15, x12
	b.ne	.LBB79_3
.LBB79_9:
	ldr	x11, [x0, #16]
	ldr	x12, [x0, #48]
	cmp	x12, x11
	csel	x11, x12, x11, lo
	subs	x10, x11, x10
	ldr	x11, [x0, #128]
	csel	x10, xzr, x10, lo
	cmp	x10, x11
	csel	x10, x10, x11, lo
	cbz	x10, .LBB79_18
.LBB79_10:
	lsr	w10, w21, #24
	mov	w13, #1
	ldr	x11, [x0, #104]
	sub	w15, w9, #1
	sub	x9, x9, #1
	cmp	w10, #1
	csinc	w12, w10, wzr, hi
	mov	w10, w21
	lsl	w14, w13, w12
	and	x13, x15, x10
.LBB79_11:
	add	x15, x8, x13, lsl #6
	ldr	q1, [x20, :lo12:.LCPI79_0]
	ldr	q0, [x15]
	cmeq	v0.16b, v0.16b, #0
	and	v0.16b, v0.16b, v1.16b
	addp	v0.16b, v0.16b, v0.16b
	addp	v0.16b, v0.16b, v0.16b
	addp	v0.16b, v0.16b, v0.16b
	umov	w16, v0.h[0]
	ands	w16, w16, #0xfff
	b.ne	.LBB79_15
	ldr	w16, [x15, #12]
	add	x13, x13, #1
	and	x13, x13, x9
	orr	w16, w16, w14
	str	w16, [x15, #12]
	b	.LBB79_11
.LBB79_13:
	mov	w8, #296
	movi	v0.2d, #0000000000000000
	ldr	x9, [x0, #32]
	umaddl	x8, w4, w8, x9
	str	xzr, [x8, #288]
	stp	q0, q0, [x8]
	stp	q0, q0, [x8, #32]
	stp	q0, q0, [x8, #64]
	stp	q0, q0, [x8, #96]
	stp	q0, q0, [x8, #128]
	stp	q0, q0, [x8, #160]
	stp	q0, q0, [x8, #192]
	stp	q0, q0, [x8, #224]
	stp	q0, q0, [x8, #256]
	cbz	w1, .LBB79_16
.LBB79_14:
	ldr	w8, [x2]
	ldr	x9, [x19]
	ubfiz	x12, x1, #3, #32
	lsl	x10, x8, #3
	add	x12, x9, x12
	ldr	w11, [x9, x10]
	add	x13, x9, x11, lsl #3
	str	w1, [x13, #4]
	stp	w11, w8, [x12]
	str	w1, [x9, x10]
	b	.LBB79_17
.LBB79_15:
	rbit	w8, w16
	movi	v0.2d, #0000000000000000
	clz	w8, w8
	add	x9, x15, w8, uxtw #2
	strb	w12, [x15, w8, uxtw]
	orr	w8, w8, w13, lsl #4
	str	w11, [x9, #16]
	orr	x8, x10, x8, lsl #32
	ldp	x11, x9, [x0, #96]
	str	x8, [x11, x9, lsl #3]
	add	x8, x9, #1
	ldr	x9, [x0, #128]
	str	x8, [x0, #104]
	ldp	x10, x8, [x0]
	sub	x9, x9, #1
	str	x9, [x0, #128]
	str	w3, [x10, x8, lsl #2]
	mov	w10, #296
	add	x8, x8, #1
	ldp	x11, x9, [x0, #32]
	str	x8, [x0, #8]
	madd	x10, x9, x10, x11
	add	x8, x9, #1
	str	xzr, [x10, #288]
	stp	q0, q0, [x10]
	stp	q0, q0, [x10, #32]
	stp	q0, q0, [x10, #64]
	stp	q0, q0, [x10, #96]
	stp	q0, q0, [x10, #128]
	stp	q0, q0, [x10, #160]
	stp	q0, q0, [x10, #192]
	stp	q0, q0, [x10, #224]
	stp	q0, q0, [x10, #256]
	str	x8, [x0, #40]
	cbnz	w1, .LBB79_14
.LBB79_16:
	mov	w8, wzr
.LBB79_17:
	mov	w0, wzr
	str	w8, [x2]
	ldp	x20, x19, [sp, #64]
	ldr	x25, [sp, #16]
	ldp	x22, x21, [sp, #48]
	ldp	x24, x23, [sp, #32]
	ldp	x29, x30, [sp], #80
	ret
.LBB79_18:
	mov	w22, w3
	mov	x23, x2
	mov	x24, x1
	mov	x25, x0
	bl	"indexmap::map::IndexMap::grow::<#d5741e7a8f76bf3c>"
	and	w8, w0, #0xff
	tbz	w8, #0, .LBB79_21
	ldr	x8, [x19, #8]
	cbz	x8, .LBB79_24
	mov	w1, wzr
	sub	x8, x8, #1
	str	x8, [x19, #8]
	b	.LBB79_25
.LBB79_21:
	ldp	x8, x9, [x25, #64]
	mov	x0, x25
	mov	x1, x24
	mov	x2, x23
	mov	w3, w22
	b	.LBB79_10
.LBB79_22:
	mov	x21, x0
	mov	x0, x19
	mov	w20, w3
	mov	x22, x2
	mov	x23, x1
	bl	"std_alloc::vec::Vec::grow_amortized::<#45893ff2f3c320db>"
	cbz	w0, .LBB79_24
	ldr	x8, [x19, #8]
	mov	x1, x23
	mov	x2, x22
	mov	x0, x21
	mov	w3, w20
	b	.LBB79_1
.LBB79_24:
	mov	w1, wzr
.LBB79_25:
	mov	w0, #1
	ldp	x20, x19, [sp, #64]
	ldr	x25, [sp, #16]
	ldp	x22, x21, [sp, #48]
	ldp	x24, x23, [sp, #32]
	ldp	x29, x30, [sp], #80
	ret
.Lfunc_end79:
	.size	"sq_track::contacts::enter::<#bd73a11ec42be588>", .Lfunc_end79-"sq_track::contacts::enter::<#bd73a11ec42be588>"

	.section	".text.unlikely.std_alloc::vec::Vec::grow_amortized::<#45893ff2f3c320db>","ax",@progbits
	.p2align	2
	.type	"std_alloc::vec::Vec::grow_amortized::<#45893ff2f3c320db>",@function
"std_alloc::vec::Vec::grow_amortized::<#45893ff2f3c320db>":
	ldr	x8, [x0, #8]
	cmn	x8, #1
	b.eq	.LBB80_6
	stp	x29, x30, [sp, #-48]!
	ldr	x11, [x0, #16]
	cmp	x8, #3
	mov	w9, #3
	csel	x9, x8, x9, hi
	stp	x20, x19, [sp, #32]
	mov	x29, sp
	lsl	x10, x11, #1
	add	x12, x9, #1
	lsr	x13, x11, #62
	stp	x22, x21, [sp, #16]
	cmp	x12, x10
	csinc	x12, x10, x9, ls
	cmp	x13, #0
	csinc	x20, x12, x9, eq
	lsr	x9, x20, #60
	cbnz	x9, .LBB80_13
	ldr	x9, [x0, #24]
	ldr	x1, [x0]
	ldrb	w13, [x9]
	ldp	x10, x19, [x9, #8]
	stp	xzr, xzr, [x9]
	cmp	w13, #1
	str	xzr, [x9, #16]
	cbz	x11, .LBB80_7
	b.ne	.LBB80_11
	lsl	x11, x20, #3
	add	x11, x11, #15
	and	x11, x11, #0xfffffffffffffff0
	subs	x12, x10, x11
	b.hs	.LBB80_15
	mov	w21, #1
	stp	x21, x10, [x9]
	b	.LBB80_10
.LBB80_6:
	mov	w0, wzr
	ret
.LBB80_7:
	b.ne	.LBB80_11
	lsl	x8, x12, #3
	add	x8, x8, #15
	and	x8, x8, #0xfffffffffffffff0
	subs	x11, x10, x8
	b.hs	.LBB80_21
	mov	w21, #1
	stp	x21, x10, [x9]
.LBB80_10:
	str	x19, [x9, #16]
	mov	x19, xzr
	b	.LBB80_12
.LBB80_11:
	mov	x19, xzr
	mov	w21, #1
.LBB80_12:
	tst	w21, #0xff
	b.eq	.LBB80_14
.LBB80_13:
	mov	w0, wzr
	ldp	x20, x19, [sp, #32]
	ldp	x22, x21, [sp, #16]
	ldp	x29, x30, [sp], #48
	ret
.LBB80_14:
	str	x19, [x0]
	str	x20, [x0, #16]
	mov	w0, #1
	ldp	x20, x19, [sp, #32]
	ldp	x22, x21, [sp, #16]
	ldp	x29, x30, [sp], #48
	ret
.LBB80_15:
	mov	w10, #1
	lsl	x2, x8, #3
	mov	x22, x0
	stp	x10, x12, [x9]
	sub	x10, x19, x1
	mov	w21, wzr
	add	x11, x19, x11
	cmp	x10, x2
	str	x11, [x9, #16]
	b.hs	.LBB80_22
	cbz	x8, .LBB80_23
	cmp	x8, #4
	mov	x9, xzr
	b.lo	.LBB80_24
	cmp	x10, #32
	mov	x0, x22
	b.lo	.LBB80_26
	and	x9, x8, #0xfffffffffffffffc
	add	x10, x1, #16
	add	x11, x19, #16
	and	x12, x8, #0xfffffffffffffffc
.LBB80_20:
	ldp	q0, q1, [x10, #-16]
	subs	x12, x12, #4
	add	x10, x10, #32
	stp	q0, q1, [x11, #-16]
	add	x11, x11, #32
	b.ne	.LBB80_20
	b	.LBB80_25
.LBB80_21:
	mov	w21, wzr
	mov	w10, #1
	add	x8, x19, x8
	stp	x10, x11, [x9]
	str	x8, [x9, #16]
	b	.LBB80_12
.LBB80_22:
	mov	x0, x19
	bl	memmove
.LBB80_23:
	mov	x0, x22
	b	.LBB80_12
.LBB80_24:
	mov	x0, x22
	b	.LBB80_26
.LBB80_25:
	cmp	x8, x9
	b.eq	.LBB80_12
.LBB80_26:
	ldr	x10, [x1, x9, lsl #3]
	str	x10, [x19, x9, lsl #3]
	add	x9, x9, #1
	b	.LBB80_25
.Lfunc_end80:
	.size	"std_alloc::vec::Vec::grow_amortized::<#45893ff2f3c320db>", .Lfunc_end80-"std_alloc::vec::Vec::grow_amortized::<#45893ff2f3c320db>"

	.section	".text.indexmap::map::IndexMap::grow::<#d5741e7a8f76bf3c>","ax",@progbits
	.p2align	2
	.type	"indexmap::map::IndexMap::grow::<#d5741e7a8f76bf3c>",@function
"indexmap::map::IndexMap::grow::<#d5741e7a8f76bf3c>":
	stp	x29, x30, [sp, #-80]!
	stp	x20, x19, [sp, #64]
	ldr	x20, [x0, #128]
	mov	x29, sp
	str	x25, [sp, #16]
	stp	x24, x23, [sp, #32]
	stp	x22, x21, [sp, #48]
	cbz	x20, .LBB81_8
	ldp	x8, x11, [x0, #8]
	sub	x9, x11, x8
	cmp	x20, x9
	b.ls	.LBB81_10
.LBB81_2:
	cmn	x8, x20
	b.hs	.LBB81_30
	add	x21, x8, x20
	lsr	x9, x21, #61
	cbnz	x9, .LBB81_30
	ldr	x9, [x0, #24]
	ldr	x1, [x0]
	ldrb	w12, [x9]
	ldp	x10, x19, [x9, #8]
	stp	xzr, xzr, [x9]
	cmp	w12, #1
	str	xzr, [x9, #16]
	cbz	x11, .LBB81_17
	b.ne	.LBB81_21
	lsl	x11, x21, #2
	mov	w12, #16
	cmp	x11, #16
	csel	x11, x11, x12, hi
	add	x11, x11, #15
	and	x11, x11, #0xfffffffffffffff0
	subs	x12, x10, x11
	b.hs	.LBB81_33
	mov	w22, #1
	stp	x22, x10, [x9]
	b	.LBB81_20
.LBB81_8:
	mov	x19, x0
	add	x0, x0, #64
	bl	"indexmap::index_table::IndexTable::reserve_rehash::<#bd73a11ec42be588>"
	and	w8, w0, #0xff
	tbnz	w8, #0, .LBB81_30
	ldr	x20, [x19, #128]
	mov	x0, x19
	ldp	x8, x11, [x19, #8]
	sub	x9, x11, x8
	cmp	x20, x9
	b.hi	.LBB81_2
.LBB81_10:
	ldp	x23, x10, [x0, #40]
	sub	x8, x10, x23
	cmp	x20, x8
	b.ls	.LBB81_32
.LBB81_11:
	cmn	x23, x20
	b.hs	.LBB81_30
	mov	x8, #60222
	add	x21, x23, x20
	movk	x8, #21254, lsl #16
	movk	x8, #46052, lsl #32
	movk	x8, #110, lsl #48
	cmp	x21, x8
	b.hi	.LBB81_30
	ldr	x8, [x0, #56]
	ldr	x20, [x0, #32]
	ldrb	w11, [x8]
	ldp	x9, x19, [x8, #8]
	stp	xzr, xzr, [x8]
	cmp	w11, #1
	str	xzr, [x8, #16]
	cbz	x10, .LBB81_24
	b.ne	.LBB81_28
	mov	w10, #296
	mov	w11, #16
	mul	x10, x21, x10
	cmp	x10, #16
	csel	x10, x10, x11, hi
	add	x10, x10, #15
	and	x10, x10, #0x7ffffffffffffff0
	subs	x11, x9, x10
	b.hs	.LBB81_40
	mov	w22, #1
	stp	x22, x9, [x8]
	b	.LBB81_27
.LBB81_17:
	b.ne	.LBB81_21
	lsl	x8, x21, #2
	mov	w11, #16
	cmp	x8, #16
	csel	x8, x8, x11, hi
	add	x8, x8, #15
	and	x8, x8, #0xfffffffffffffff0
	subs	x11, x10, x8
	b.hs	.LBB81_39
	mov	w22, #1
	stp	x22, x10, [x9]
.LBB81_20:
	str	x19, [x9, #16]
	mov	x19, xzr
	b	.LBB81_22
.LBB81_21:
	mov	x19, xzr
	mov	w22, #1
.LBB81_22:
	tst	w22, #0xff
	b.ne	.LBB81_30
	str	x19, [x0]
	str	x21, [x0, #16]
	ldp	x23, x10, [x0, #40]
	sub	x8, x10, x23
	cmp	x20, x8
	b.hi	.LBB81_11
	b	.LBB81_32
.LBB81_24:
	b.ne	.LBB81_28
	mov	w10, #296
	mov	w11, #16
	mul	x10, x21, x10
	cmp	x10, #16
	csel	x10, x10, x11, hi
	add	x10, x10, #15
	and	x10, x10, #0x7ffffffffffffff0
	subs	x11, x9, x10
	b.hs	.LBB81_46
	mov	w22, #1
	stp	x22, x9, [x8]
.LBB81_27:
	str	x19, [x8, #16]
	mov	x19, xzr
	b	.LBB81_29
.LBB81_28:
	mov	x19, xzr
	mov	w22, #1
.LBB81_29:
	tst	w22, #0xff
	b.eq	.LBB81_31
.LBB81_30:
	mov	w0, #1
	ldp	x20, x19, [sp, #64]
	ldr	x25, [sp, #16]
	ldp	x22, x21, [sp, #48]
	ldp	x24, x23, [sp, #32]
	ldp	x29, x30, [sp], #80
	ret
.LBB81_31:
	str	x19, [x0, #32]
	str	x21, [x0, #48]
.LBB81_32:
	mov	w0, wzr
	ldp	x20, x19, [sp, #64]
	ldr	x25, [sp, #16]
	ldp	x22, x21, [sp, #48]
	ldp	x24, x23, [sp, #32]
	ldp	x29, x30, [sp], #80
	ret
.LBB81_33:
	mov	w10, #1
	lsl	x2, x8, #2
	mov	x23, x0
	stp	x10, x12, [x9]
	sub	x10, x19, x1
	mov	w22, wzr
	add	x11, x19, x11
	cmp	x10, x2
	str	x11, [x9, #16]
	b.hs	.LBB81_45
	cbz	x8, .LBB81_48
	cmp	x8, #8
	mov	x9, xzr
	b.lo	.LBB81_49
	cmp	x10, #32
	mov	x0, x23
	b.lo	.LBB81_51
	and	x9, x8, #0xfffffffffffffff8
	add	x10, x1, #16
	add	x11, x19, #16
	and	x12, x8, #0xfffffffffffffff8
.LBB81_38:
	ldp	q0, q1, [x10, #-16]
	subs	x12, x12, #8
	add	x10, x10, #32
	stp	q0, q1, [x11, #-16]
	add	x11, x11, #32
	b.ne	.LBB81_38
	b	.LBB81_50
.LBB81_39:
	mov	w22, wzr
	mov	w10, #1
	add	x8, x19, x8
	stp	x10, x11, [x9]
	str	x8, [x9, #16]
	b	.LBB81_22
.LBB81_40:
	mov	w9, #296
	mov	w22, wzr
	add	x10, x19, x10
	mul	x2, x23, x9
	mov	w9, #1
	str	x10, [x8, #16]
	stp	x9, x11, [x8]
	sub	x9, x19, x20
	cmp	x9, x2
	b.hs	.LBB81_47
	cbz	x23, .LBB81_29
	mov	x24, x0
	mov	x25, xzr
.LBB81_43:
	add	x0, x19, x25
	add	x1, x20, x25
	mov	w2, #296
	bl	memmove
	subs	x23, x23, #1
	add	x25, x25, #296
	b.ne	.LBB81_43
	mov	x0, x24
	b	.LBB81_29
.LBB81_45:
	mov	x0, x19
	bl	memmove
	mov	x0, x23
	b	.LBB81_22
.LBB81_46:
	mov	w9, #1
	mov	w22, wzr
	stp	x9, x11, [x8]
	add	x9, x19, x10
	str	x9, [x8, #16]
	b	.LBB81_29
.LBB81_47:
	mov	x23, x0
	mov	x0, x19
	mov	x1, x20
	bl	memmove
	mov	x0, x23
	b	.LBB81_29
.LBB81_48:
	mov	x0, x23
	b	.LBB81_22
.LBB81_49:
	mov	x0, x23
	b	.LBB81_51
.LBB81_50:
	cmp	x8, x9
	b.eq	.LBB81_22
.LBB81_51:
	ldr	w10, [x1, x9, lsl #2]
	str	w10, [x19, x9, lsl #2]
	add	x9, x9, #1
	b	.LBB81_50
.Lfunc_end81:
	.size	"indexmap::map::IndexMap::grow::<#d5741e7a8f76bf3c>", .Lfunc_end81-"indexmap::map::IndexMap::grow::<#d5741e7a8f76bf3c>"

	.section	.rodata.cst16,"aM",@progbits,16
	.p2align	4, 0x0
.LCPI82_0:
	.byte	1
	.byte	2
	.byte	4
	.byte	8
	.byte	16
	.byte	32
	.byte	64
	.byte	128
	.byte	1
	.byte	2
	.byte	4
	.byte	8
	.byte	16
	.byte	32
	.byte	64
	.byte	128
	.section	".text.indexmap::index_table::IndexTable::reserve_rehash::<#bd73a11ec42be588>","ax",@progbits
	.p2align	2
	.type	"indexmap::index_table::IndexTable::reserve_rehash::<#bd73a11ec42be588>",@function
"indexmap::index_table::IndexTable::reserve_rehash::<#bd73a11ec42be588>":
	stp	x29, x30, [sp, #-80]!
	stp	x22, x21, [sp, #48]
	ldr	x22, [x0, #40]
	mov	w8, #-1879048192
	str	x25, [sp, #16]
	mov	x29, sp
	cmp	x22, x8
	stp	x24, x23, [sp, #32]
	stp	x20, x19, [sp, #64]
	b.ne	.LBB82_2
.LBB82_1:
	mov	w8, #1
	b	.LBB82_63
.LBB82_2:
	ldr	x24, [x0, #8]
	mov	w8, #268435456
	add	x20, x24, x24, lsl #3
	cmp	x24, x8
	b.eq	.LBB82_13
	lsr	x9, x20, #1
	add	x8, x22, #1
	cmp	x8, x9
	b.ls	.LBB82_13
	add	x9, x20, #1
	cmp	x9, x8
	mov	w9, #1
	csinc	x8, x8, x20, ls
.LBB82_5:
	add	x23, x9, x9, lsl #3
	mov	x19, x9
	lsl	x9, x9, #1
	cmp	x23, x8
	b.lo	.LBB82_5
	ldr	x10, [x0, #48]
	sub	x21, x23, x22
	sub	x8, x10, x22
	cmp	x21, x8
	b.ls	.LBB82_29
	lsr	x9, x23, #60
	mov	w8, #1
	cbnz	x9, .LBB82_63
	mvn	x9, x22
	cmp	x21, x9
	b.hi	.LBB82_63
	ldr	x8, [x0, #56]
	ldr	x1, [x0, #32]
	ldrb	w11, [x8]
	ldp	x9, x20, [x8, #8]
	stp	xzr, xzr, [x8]
	cmp	w11, #1
	str	xzr, [x8, #16]
	cbz	x10, .LBB82_22
	b.ne	.LBB82_26
	lsl	x10, x23, #3
	mov	w11, #16
	cmp	x10, #16
	csel	x10, x10, x11, hi
	add	x10, x10, #15
	and	x10, x10, #0xfffffffffffffff0
	subs	x11, x9, x10
	b.hs	.LBB82_36
	mov	w24, #1
	stp	x24, x9, [x8]
	b	.LBB82_25
.LBB82_13:
	ldr	x19, [x0]
	ldr	x21, [x0, #32]
	cbz	x24, .LBB82_15
	lsl	x2, x24, #6
	mov	x23, x0
	mov	x0, x19
	mov	w1, wzr
	bl	memset
	mov	x0, x23
.LBB82_15:
	cbz	x22, .LBB82_21
	mov	w9, #-1
	mov	x8, xzr
	sub	x10, x24, #1
	add	x9, x24, x9
	b	.LBB82_18
.LBB82_17:
	rbit	w15, w17
	clz	w15, w15
	add	x17, x16, w15, uxtw #2
	strb	w13, [x16, w15, uxtw]
	orr	w13, w15, w14, lsl #4
	str	w8, [x17, #16]
	add	x8, x8, #1
	cmp	x8, x22
	stp	w12, w13, [x11]
	b.eq	.LBB82_21
.LBB82_18:
	add	x11, x21, x8, lsl #3
	mov	w14, #1
	ldr	w12, [x11]
	lsr	w13, w12, #24
	cmp	w13, #1
	csinc	w13, w13, wzr, hi
	lsl	w15, w14, w13
	and	x14, x9, x12
.LBB82_19:
	add	x16, x19, x14, lsl #6
	adrp	x17, .LCPI82_0
	ldr	q1, [x17, :lo12:.LCPI82_0]
	ldr	q0, [x16]
	cmeq	v0.16b, v0.16b, #0
	and	v0.16b, v0.16b, v1.16b
	addp	v0.16b, v0.16b, v0.16b
	addp	v0.16b, v0.16b, v0.16b
	addp	v0.16b, v0.16b, v0.16b
	umov	w17, v0.h[0]
	ands	w17, w17, #0xfff
	b.ne	.LBB82_17
	ldr	w17, [x16, #12]
	add	x14, x14, #1
	and	x14, x14, x10
	orr	w17, w17, w15
	str	w17, [x16, #12]
	b	.LBB82_19
.LBB82_21:
	sub	x9, x20, x22
	mov	w8, wzr
	str	x9, [x0, #64]
	b	.LBB82_63
.LBB82_22:
	b.ne	.LBB82_26
	lsl	x10, x23, #3
	mov	w11, #16
	cmp	x10, #16
	csel	x10, x10, x11, hi
	add	x10, x10, #15
	and	x10, x10, #0xfffffffffffffff0
	subs	x11, x9, x10
	b.hs	.LBB82_64
	mov	w24, #1
	stp	x24, x9, [x8]
.LBB82_25:
	str	x20, [x8, #16]
	mov	x20, xzr
	b	.LBB82_27
.LBB82_26:
	mov	x20, xzr
	mov	w24, #1
.LBB82_27:
	tst	w24, #0xff
	b.ne	.LBB82_1
	ldr	x24, [x0, #8]
	str	x20, [x0, #32]
	str	x23, [x0, #48]
.LBB82_29:
	ldr	x23, [x0, #16]
	subs	x8, x19, x24
	csel	x8, xzr, x8, lo
	sub	x9, x23, x24
	cmp	x8, x9
	b.ls	.LBB82_49
	cmn	x24, x8
	b.hs	.LBB82_1
	add	x22, x8, x24
	lsr	x8, x22, #57
	cbnz	x8, .LBB82_1
	ldr	x8, [x0, #24]
	ldr	x1, [x0]
	ldrb	w10, [x8]
	ldp	x9, x20, [x8, #8]
	stp	xzr, xzr, [x8]
	cmp	w10, #1
	str	xzr, [x8, #16]
	cbz	x23, .LBB82_42
	b.ne	.LBB82_46
	lsl	x10, x22, #6
	mov	w11, #16
	cmp	x10, #16
	csel	x10, x10, x11, hi
	subs	x11, x9, x10
	b.hs	.LBB82_68
	mov	w23, #1
	stp	x23, x9, [x8]
	b	.LBB82_45
.LBB82_36:
	mov	w9, #1
	lsl	x2, x22, #3
	mov	x25, x0
	stp	x9, x11, [x8]
	sub	x9, x20, x1
	mov	w24, wzr
	add	x10, x20, x10
	cmp	x9, x2
	str	x10, [x8, #16]
	b.hs	.LBB82_65
	cbz	x22, .LBB82_72
	cmp	x22, #4
	mov	x8, xzr
	b.lo	.LBB82_75
	cmp	x9, #32
	mov	x0, x25
	b.lo	.LBB82_78
	and	x8, x22, #0xfffffffffffffffc
	add	x9, x1, #16
	add	x10, x20, #16
	and	x11, x22, #0xfffffffffffffffc
.LBB82_41:
	ldp	q0, q1, [x9, #-16]
	subs	x11, x11, #4
	add	x9, x9, #32
	stp	q0, q1, [x10, #-16]
	add	x10, x10, #32
	b.ne	.LBB82_41
	b	.LBB82_77
.LBB82_42:
	b.ne	.LBB82_46
	lsl	x10, x22, #6
	mov	w11, #16
	cmp	x10, #16
	csel	x10, x10, x11, hi
	subs	x11, x9, x10
	b.hs	.LBB82_73
	mov	w23, #1
	stp	x23, x9, [x8]
.LBB82_45:
	str	x20, [x8, #16]
	mov	x20, xzr
	b	.LBB82_47
.LBB82_46:
	mov	x20, xzr
	mov	w23, #1
.LBB82_47:
	tst	w23, #0xff
	b.ne	.LBB82_1
	ldr	x24, [x0, #8]
	mov	x23, x22
	str	x20, [x0]
	str	x22, [x0, #16]
.LBB82_49:
	cbz	x24, .LBB82_51
	str	xzr, [x0, #8]
.LBB82_51:
	cbz	x19, .LBB82_56
	cmp	x19, x23
	b.hi	.LBB82_66
	mov	x8, xzr
	add	x22, xzr, x19
	ldr	x20, [x0]
	cmp	xzr, x22
	b.hs	.LBB82_55
.LBB82_54:
	add	x8, x20, x8, lsl #6
	lsl	x2, x19, #6
	mov	x19, x0
	mov	w1, wzr
	mov	x0, x8
	bl	memset
	mov	x0, x19
.LBB82_55:
	stp	x20, x22, [x0]
	str	x23, [x0, #16]
	ldr	x8, [x0, #40]
	cbnz	x8, .LBB82_57
	b	.LBB82_62
.LBB82_56:
	ldr	x20, [x0]
	mov	x22, xzr
	ldr	x8, [x0, #40]
	cbz	x8, .LBB82_62
.LBB82_57:
	ldr	x10, [x0, #32]
	mov	w11, #-1
	mov	x9, xzr
	add	x11, x22, x11
	sub	x12, x22, #1
	b	.LBB82_59
.LBB82_58:
	rbit	w17, w1
	clz	w17, w17
	add	x1, x18, w17, uxtw #2
	strb	w15, [x18, w17, uxtw]
	orr	w15, w17, w16, lsl #4
	str	w9, [x1, #16]
	add	x9, x9, #1
	cmp	x9, x8
	stp	w14, w15, [x13]
	b.eq	.LBB82_62
.LBB82_59:
	add	x13, x10, x9, lsl #3
	mov	w16, #1
	ldr	w14, [x13]
	lsr	w15, w14, #24
	cmp	w15, #1
	csinc	w15, w15, wzr, hi
	lsl	w17, w16, w15
	and	x16, x11, x14
.LBB82_60:
	add	x18, x20, x16, lsl #6
	adrp	x1, .LCPI82_0
	ldr	q1, [x1, :lo12:.LCPI82_0]
	ldr	q0, [x18]
	cmeq	v0.16b, v0.16b, #0
	and	v0.16b, v0.16b, v1.16b
	addp	v0.16b, v0.16b, v0.16b
	addp	v0.16b, v0.16b, v0.16b
	addp	v0.16b, v0.16b, v0.16b
	umov	w1, v0.h[0]
	ands	w1, w1, #0xfff
	b.ne	.LBB82_58
	ldr	w1, [x18, #12]
	add	x16, x16, #1
	and	x16, x16, x12
	orr	w1, w1, w17
	str	w1, [x18, #12]
	b	.LBB82_60
.LBB82_62:
	mov	w8, wzr
	str	x21, [x0, #64]
.LBB82_63:
	ldp	x20, x19, [sp, #64]
	mov	w0, w8
	ldp	x22, x21, [sp, #48]
	ldr	x25, [sp, #16]
	ldp	x24, x23, [sp, #32]
	ldp	x29, x30, [sp], #80
	ret
.LBB82_64:
	mov	w9, #1
	mov	w24, wzr
	stp	x9, x11, [x8]
	add	x9, x20, x10
	str	x9, [x8, #16]
	b	.LBB82_27
.LBB82_65:
	mov	x0, x20
	bl	memmove
	mov	x0, x25
	b	.LBB82_27
.LBB82_66:
	mov	x1, x19
	mov	x20, x0
	bl	"std_alloc::vec::Vec::grow_amortized::<#9a2b4b41bb17a51e>"
	cbz	w0, .LBB82_76
	ldp	x8, x23, [x20, #8]
	mov	x0, x20
	add	x22, x8, x19
	ldr	x20, [x20]
	cmp	x8, x22
	b.lo	.LBB82_54
	b	.LBB82_55
.LBB82_68:
	mov	w9, #1
	lsl	x2, x24, #6
	mov	w23, wzr
	stp	x9, x11, [x8]
	sub	x9, x20, x1
	add	x10, x20, x10
	cmp	x9, x2
	str	x10, [x8, #16]
	b.hs	.LBB82_74
	cbz	x24, .LBB82_47
	mov	x8, xzr
.LBB82_71:
	add	x9, x1, x8
	add	x10, x20, x8
	subs	x24, x24, #1
	ldp	q1, q0, [x9, #32]
	add	x8, x8, #64
	ldp	q2, q3, [x9]
	stp	q1, q0, [x10, #32]
	stp	q2, q3, [x10]
	b.ne	.LBB82_71
	b	.LBB82_47
.LBB82_72:
	mov	x0, x25
	b	.LBB82_27
.LBB82_73:
	mov	w9, #1
	mov	w23, wzr
	stp	x9, x11, [x8]
	add	x9, x20, x10
	str	x9, [x8, #16]
	b	.LBB82_47
.LBB82_74:
	mov	x24, x0
	mov	x0, x20
	bl	memmove
	mov	x0, x24
	b	.LBB82_47
.LBB82_75:
	mov	x0, x25
	b	.LBB82_78
.LBB82_76:
	brk	#0x1
.LBB82_77:
	cmp	x22, x8
	b.eq	.LBB82_27
.LBB82_78:
	ldr	x9, [x1, x8, lsl #3]
	str	x9, [x20, x8, lsl #3]
	add	x8, x8, #1
	b	.LBB82_77
.Lfunc_end82:
	.size	"indexmap::index_table::IndexTable::reserve_rehash::<#bd73a11ec42be588>", .Lfunc_end82-"indexmap::index_table::IndexTable::reserve_rehash::<#bd73a11ec42be588>"

	.section	".text.unlikely.std_alloc::vec::Vec::grow_amortized::<#9a2b4b41bb17a51e>","ax",@progbits
	.p2align	2
	.type	"std_alloc::vec::Vec::grow_amortized::<#9a2b4b41bb17a51e>",@function
"std_alloc::vec::Vec::grow_amortized::<#9a2b4b41bb17a51e>":
	ldr	x8, [x0, #8]
	cmn	x8, x1
	b.lo	.LBB83_2
	mov	w0, wzr
	ret
.LBB83_2:
	stp	x29, x30, [sp, #-48]!
	ldr	x11, [x0, #16]
	add	x9, x8, x1
	mov	w10, #4
	cmp	x9, #4
	stp	x20, x19, [sp, #32]
	mov	x29, sp
	lsl	x12, x11, #1
	csel	x9, x9, x10, hi
	lsr	x10, x11, #62
	stp	x22, x21, [sp, #16]
	cmp	x9, x12
	csel	x12, x9, x12, hi
	cmp	x10, #0
	csel	x20, x12, x9, eq
	lsr	x9, x20, #57
	cbnz	x9, .LBB83_13
	ldr	x9, [x0, #24]
	ldr	x1, [x0]
	ldrb	w13, [x9]
	ldp	x10, x19, [x9, #8]
	stp	xzr, xzr, [x9]
	cmp	w13, #1
	str	xzr, [x9, #16]
	cbz	x11, .LBB83_7
	b.ne	.LBB83_11
	lsl	x11, x20, #6
	subs	x12, x10, x11
	b.hs	.LBB83_15
	mov	w21, #1
	stp	x21, x10, [x9]
	b	.LBB83_10
.LBB83_7:
	b.ne	.LBB83_11
	lsl	x8, x12, #6
	subs	x11, x10, x8
	b.hs	.LBB83_19
	mov	w21, #1
	stp	x21, x10, [x9]
.LBB83_10:
	str	x19, [x9, #16]
	mov	x19, xzr
	b	.LBB83_12
.LBB83_11:
	mov	x19, xzr
	mov	w21, #1
.LBB83_12:
	tst	w21, #0xff
	b.eq	.LBB83_14
.LBB83_13:
	mov	w0, wzr
	ldp	x20, x19, [sp, #32]
	ldp	x22, x21, [sp, #16]
	ldp	x29, x30, [sp], #48
	ret
.LBB83_14:
	str	x19, [x0]
	str	x20, [x0, #16]
	mov	w0, #1
	ldp	x20, x19, [sp, #32]
	ldp	x22, x21, [sp, #16]
	ldp	x29, x30, [sp], #48
	ret
.LBB83_15:
	mov	w10, #1
	lsl	x2, x8, #6
	mov	w21, wzr
	stp	x10, x12, [x9]
	sub	x10, x19, x1
	add	x11, x19, x11
	cmp	x10, x2
	str	x11, [x9, #16]
	b.hs	.LBB83_20
	cbz	x8, .LBB83_12
	mov	x9, xzr
.LBB83_18:
	add	x10, x1, x9
	add	x11, x19, x9
	subs	x8, x8, #1
	ldp	q1, q0, [x10, #32]
	add	x9, x9, #64
	ldp	q2, q3, [x10]
	stp	q1, q0, [x11, #32]
	stp	q2, q3, [x11]
	b.ne	.LBB83_18
	b	.LBB83_12
.LBB83_19:
	mov	w21, wzr
	mov	w10, #1
	add	x8, x19, x8
	stp	x10, x11, [x9]
	str	x8, [x9, #16]
	b	.LBB83_12
.LBB83_20:
	mov	x22, x0
	mov	x0, x19
	bl	memmove
	mov	x0, x22
	b	.LBB83_12
.Lfunc_end83:
	.size	"std_alloc::vec::Vec::grow_amortized::<#9a2b4b41bb17a51e>", .Lfunc_end83-"std_alloc::vec::Vec::grow_amortized::<#9a2b4b41bb17a51e>"

	.section	".text.sq_track::tracker::look_through::<#bd73a11ec42be588>","ax",@progbits
	.p2align	2
	.type	"sq_track::tracker::look_through::<#bd73a11ec42be588>",@function
"sq_track::tracker::look_through::<#bd73a11ec42be588>":
	stp	x29, x30, [sp, #-48]!
	ldr	w8, [x0, #176]
	ldr	x10, [x0, #8]
	mov	x29, sp
	stp	x20, x19, [sp, #32]
	mov	x19, x2
	cmp	x10, x8
	str	x21, [sp, #16]
	b.ls	.LBB84_17
	mov	x20, x0
	mov	x21, x1
	b	.LBB84_3
.LBB84_2:
	ldr	w8, [x20, #176]
	ldr	x10, [x20, #8]
	cmp	x10, x8
	b.ls	.LBB84_17
.LBB84_3:
	mov	w9, #296
	ldr	x11, [x20, #32]
	umull	x9, w8, w9
	ldr	x11, [x11, x9]
	subs	x11, x19, x11
	csel	x11, xzr, x11, lo
	cmp	x11, x21
	b.ls	.LBB84_15
	ldr	x12, [x20, #144]
	lsl	x10, x8, #3
	add	x11, x12, x10
	ldp	w13, w11, [x11]
	add	x14, x12, x13, lsl #3
	lsl	x15, x11, #3
	str	w11, [x14, #4]
	str	w13, [x12, x15]
	ldr	x13, [x20, #152]
	sub	w12, w13, #1
	cmp	w8, w12
	b.ne	.LBB84_7
	sub	x13, x13, #1
	cmp	x13, x8
	str	x13, [x20, #152]
	b.ne	.LBB84_8
.LBB84_6:
	ldr	x13, [x20, #8]
	cmp	w11, w12
	csel	w11, w8, w11, eq
	cmp	x13, x8
	str	w11, [x20, #176]
	b.ls	.LBB84_2
	b	.LBB84_9
.LBB84_7:
	ldr	x13, [x20, #144]
	add	x14, x13, w12, uxtw #3
	add	x17, x13, x10
	ldp	w15, w14, [x14]
	add	x16, x13, x15, lsl #3
	str	w8, [x16, #4]
	lsl	x16, x14, #3
	stp	w15, w14, [x17]
	str	w8, [x13, x16]
	ldr	x13, [x20, #152]
	sub	x13, x13, #1
	cmp	x13, x8
	str	x13, [x20, #152]
	b.eq	.LBB84_6
.LBB84_8:
	ldr	x14, [x20, #144]
	ldr	x13, [x14, x13, lsl #3]
	str	x13, [x14, x10]
	ldr	x13, [x20, #8]
	cmp	w11, w12
	csel	w11, w8, w11, eq
	cmp	x13, x8
	str	w11, [x20, #176]
	b.ls	.LBB84_2
.LBB84_9:
	ldp	x12, x11, [x20, #96]
	add	x11, x12, x11, lsl #3
	add	x12, x12, x10
	ldr	w12, [x12, #4]
	ldur	w11, [x11, #-4]
	lsl	x13, x11, #2
	ldr	x11, [x20, #64]
	and	x14, x13, #0x3ffffffc0
	and	x13, x13, #0x3c
	add	x14, x11, x14
	add	x13, x14, x13
	str	w8, [x13, #16]
	ldr	x13, [x20, #104]
	sub	x13, x13, #1
	cmp	x13, x8
	str	x13, [x20, #104]
	b.eq	.LBB84_11
	ldr	x14, [x20, #96]
	ldr	x13, [x14, x13, lsl #3]
	str	x13, [x14, x10]
.LBB84_11:
	lsl	x10, x12, #2
	and	x12, x12, #0xf
	and	x10, x10, #0x3ffffffc0
	add	x10, x11, x10
	strb	wzr, [x10, x12]
	ldr	w10, [x10, #12]
	ldr	x12, [x20, #8]
	ldr	x11, [x20, #128]
	cmp	w10, #0
	sub	x10, x12, #1
	cinc	x11, x11, eq
	cmp	x10, x8
	str	x10, [x20, #8]
	str	x11, [x20, #128]
	b.eq	.LBB84_13
	ldr	x11, [x20]
	ldr	w10, [x11, x10, lsl #2]
	str	w10, [x11, x8, lsl #2]
.LBB84_13:
	ldr	x10, [x20, #40]
	sub	x10, x10, #1
	cmp	x10, x8
	str	x10, [x20, #40]
	b.eq	.LBB84_2
	mov	w8, #296
	ldr	x11, [x20, #32]
	mov	w2, #296
	madd	x1, x10, x8, x11
	add	x0, x11, x9
	bl	memmove
	b	.LBB84_2
.LBB84_15:
	mov	w8, w8
	cmp	x10, x8
	b.ls	.LBB84_17
	mov	w9, #296
	umull	x8, w8, w9
	ldr	x9, [x20, #32]
	ldr	x19, [x9, x8]
.LBB84_17:
	mov	x0, x19
	ldp	x20, x19, [sp, #32]
	ldr	x21, [sp, #16]
	ldp	x29, x30, [sp], #48
	ret
.Lfunc_end84:
	.size	"sq_track::tracker::look_through::<#bd73a11ec42be588>", .Lfunc_end84-"sq_track::tracker::look_through::<#bd73a11ec42be588>"

	.section	.rodata.cst16,"aM",@progbits,16
	.p2align	4, 0x0
.LCPI85_0:
	.xword	1000
	.xword	1000000
	.section	".text.sq_feed::units::Units::watch","ax",@progbits
	.p2align	2
	.type	"sq_feed::units::Units::watch",@function
"sq_feed::units::Units::watch":
	ldr	w8, [x0]
	cbnz	w8, .LBB85_2
	str	x1, [x0, #8]
.LBB85_2:
	mov	w9, #12000
	mov	w10, #11999
	ldrb	w11, [x0, #24]
	madd	w9, w1, w9, w10
	add	w10, w8, #1
	cmp	x1, #0
	mov	w8, #1
	str	w10, [x0]
	cset	w10, ne
	ldr	w12, [x0, #60]
	orr	w11, w10, w11
	str	x1, [x0, #16]
	ubfx	x9, x9, #25, #5
	strb	w11, [x0, #24]
	add	x9, x0, x9
	ldrb	w13, [x9, #25]
	strb	w8, [x9, #25]
	and	w8, w2, #0xff
	add	x9, x0, #64
	ldr	w10, [x9, w8, uxtw #2]
	cmp	w13, #0
	cinc	w11, w12, eq
	cmp	w10, w2
	str	w11, [x0, #60]
	b.ne	.LBB85_6
	add	x9, x0, #1088
	ldr	x10, [x9, x8, lsl #3]
	subs	x10, x1, x10
	b.lo	.LBB85_5
	mov	w11, #38527
	mov	w12, #28528
	dup	v3.2d, x10
	movk	w11, #152, lsl #16
	movk	w12, #152, lsl #16
	movi	v2.2s, #1
	dup	v0.2d, x11
	dup	v1.2d, x12
	mov	x11, #-10000
	adrp	x12, .LCPI85_0
	add	x11, x10, x11
	ldr	x13, [x0, #3160]
	ldr	q4, [x12, :lo12:.LCPI85_0]
	mov	w12, #51712
	mov	v0.d[0], x11
	mov	v1.d[1], x10
	cset	w11, ne
	cmhi	v5.2d, v4.2d, v3.2d
	mov	v2.s[1], w11
	add	x11, x0, #3144
	movk	w12, #15258, lsl #16
	cmp	x10, x12
	cmhi	v0.2d, v1.2d, v0.2d
	mov	v1.16b, v5.16b
	csel	x10, x10, x12, lo
	add	x10, x13, x10
	str	x10, [x0, #3160]
	bsl	v1.16b, v3.16b, v4.16b
	ldr	d3, [x0, #3136]
	xtn	v0.2s, v0.2d
	ldr	q4, [x11]
	add	v2.2s, v3.2s, v2.2s
	ldr	d3, [x0, #3168]
	add	v1.2d, v4.2d, v1.2d
	sub	v0.2s, v3.2s, v0.2s
	str	d2, [x0, #3136]
	str	q1, [x11]
	str	d0, [x0, #3168]
.LBB85_5:
	str	x1, [x9, x8, lsl #3]
	ret
.LBB85_6:
	cbz	w10, .LBB85_8
	ret
.LBB85_8:
	add	x10, x0, x8, lsl #3
	str	w2, [x9, x8, lsl #2]
	str	x1, [x10, #1088]
	ret
.Lfunc_end85:
	.size	"sq_feed::units::Units::watch", .Lfunc_end85-"sq_feed::units::Units::watch"

	.section	".text.sq_track::watch::are_apart","ax",@progbits
	.p2align	2
	.type	"sq_track::watch::are_apart",@function
"sq_track::watch::are_apart":
	stp	x29, x30, [sp, #-80]!
	stp	x20, x19, [sp, #64]
	ldp	x20, x19, [x3]
	ldp	x9, x8, [x2]
	mov	x29, sp
	str	x25, [sp, #16]
	asr	x13, x20, #63
	stp	x24, x23, [sp, #32]
	umulh	x10, x19, x9
	asr	x11, x9, #63
	stp	x22, x21, [sp, #48]
	mul	x12, x19, x9
	madd	x10, x19, x11, x10
	umulh	x11, x20, x8
	mul	x14, x20, x8
	madd	x11, x13, x8, x11
	umulh	x15, x8, x0
	subs	x12, x12, x14
	mul	x14, x8, x0
	sbc	x10, x10, x11
	asr	x11, x10, #63
	eor	x12, x12, x11
	eor	x10, x10, x11
	subs	x12, x12, x11
	umulh	x13, x1, x12
	sbc	x10, x10, x11
	mov	w11, #60
	mul	x12, x1, x12
	madd	x10, x1, x10, x13
	umulh	x13, x12, x11
	madd	x10, x10, x11, x13
	umulh	x11, x14, x19
	mul	x13, x14, x19
	lsl	x14, x12, #6
	madd	x11, x15, x19, x11
	sub	x12, x14, x12, lsl #2
	cmp	x13, x12
	sbcs	xzr, x11, x10
	b.hs	.LBB86_2
	mov	w0, #1
	ldp	x20, x19, [sp, #64]
	ldr	x25, [sp, #16]
	ldp	x22, x21, [sp, #48]
	ldp	x24, x23, [sp, #32]
	ldp	x29, x30, [sp], #80
	ret
.LBB86_2:
	cmp	x9, #0
	mov	w10, #57600
	adrp	x21, .Lstatic.40
	add	x21, x21, :lo12:.Lstatic.40
	movk	w10, #1525, lsl #16
	cneg	x9, x9, mi
	mul	x11, x9, x10
	umulh	x10, x9, x10
	sub	x9, x8, #1
	adds	x9, x11, x9
	cinc	x10, x10, hs
	tst	x8, #0xffffffffff01ffff
	b.ne	.LBB86_11
	extr	x11, x10, x9, #56
	cbnz	x11, .LBB86_11
	lsr	x8, x8, #14
	lsr	x9, x9, #17
	ldr	x8, [x21, x8]
	mul	x10, x8, x9
	umulh	x8, x8, x9
	extr	x8, x8, x10, #48
.LBB86_5:
	lsr	x9, x8, #25
	adrp	x22, .Lstatic.41
	add	x22, x22, :lo12:.Lstatic.41
	adrp	x23, .Lstatic.42
	add	x23, x23, :lo12:.Lstatic.42
	ldrb	w9, [x22, x9]
	ldr	x10, [x23, x9, lsl #3]
	cmp	x8, x10
	mov	w8, #57600
	cset	w10, ls
	cmp	x20, #0
	movk	w8, #1525, lsl #16
	cneg	x11, x20, mi
	sub	w10, w10, w9
	mul	x12, x11, x8
	add	w20, w10, #58
	umulh	x11, x11, x8
	sub	x8, x19, #1
	adds	x8, x12, x8
	cinc	x9, x11, hs
	tst	x19, #0xffffffffff01ffff
	b.ne	.LBB86_12
	extr	x10, x9, x8, #56
	cbnz	x10, .LBB86_12
	lsr	x9, x19, #14
	lsr	x8, x8, #17
	ldr	x9, [x21, x9]
	mul	x10, x9, x8
	umulh	x8, x9, x8
	extr	x8, x8, x10, #48
.LBB86_8:
	lsr	x9, x8, #25
	ldrb	w9, [x22, x9]
	ldr	x10, [x23, x9, lsl #3]
	cmp	x8, x10
	cset	w8, ls
	sub	w8, w8, w9
	and	w9, w20, #0xff
	add	w8, w8, #58
	and	w8, w8, #0xff
	cmp	w8, w9
	csel	w8, w8, w9, lo
	cmp	w8, #2
	b.hs	.LBB86_10
	mov	w0, wzr
	ldp	x20, x19, [sp, #64]
	ldr	x25, [sp, #16]
	ldp	x22, x21, [sp, #48]
	ldp	x24, x23, [sp, #32]
	ldp	x29, x30, [sp], #80
	ret
.LBB86_10:
	ldp	x9, x12, [x2, #16]
	ldp	x11, x10, [x3, #16]
	asr	x14, x9, #63
	umulh	x13, x10, x9
	umulh	x15, x11, x12
	madd	x13, x10, x14, x13
	asr	x14, x11, #63
	madd	x14, x14, x12, x15
	mul	x15, x10, x12
	mul	x9, x10, x9
	mul	x11, x11, x12
	umulh	x10, x10, x12
	mov	w12, #360
	umulh	x16, x15, x12
	subs	x9, x9, x11
	mul	x11, x15, x12
	sbc	x13, x13, x14
	asr	x14, x13, #63
	madd	x12, x10, x12, x16
	eor	x9, x9, x14
	eor	x13, x13, x14
	subs	x9, x9, x14
	umulh	x16, x15, x0
	sbc	x13, x13, x14
	subs	x11, x11, x9
	mul	x14, x8, x1
	sbcs	x12, x12, x13
	csel	x11, xzr, x11, lo
	csel	x12, xzr, x12, lo
	umulh	x8, x8, x1
	cmp	x11, x9
	sbcs	xzr, x12, x13
	mul	x15, x15, x0
	csel	x9, x11, x9, lo
	csel	x12, x12, x13, lo
	umulh	x11, x14, x9
	madd	x10, x10, x0, x16
	madd	x11, x14, x12, x11
	mul	x12, x14, x9
	madd	x8, x8, x9, x11
	cmp	x15, x12
	sbcs	xzr, x10, x8
	cset	w0, lo
	ldp	x20, x19, [sp, #64]
	ldr	x25, [sp, #16]
	ldp	x22, x21, [sp, #48]
	ldp	x24, x23, [sp, #32]
	ldp	x29, x30, [sp], #80
	ret
.LBB86_11:
	mov	x22, x0
	mov	x0, x9
	mov	x23, x1
	mov	x1, x10
	mov	x24, x2
	mov	x2, x8
	mov	x25, x3
	bl	"sq_angle::quotients::divided"
	mov	x3, x25
	mov	x2, x24
	mov	x1, x23
	mov	x8, x0
	mov	x0, x22
	b	.LBB86_5
.LBB86_12:
	mov	x21, x0
	mov	x0, x8
	mov	x24, x1
	mov	x1, x9
	mov	x25, x2
	mov	x2, x19
	mov	x19, x3
	bl	"sq_angle::quotients::divided"
	mov	x3, x19
	mov	x2, x25
	mov	x1, x24
	mov	x8, x0
	mov	x0, x21
	b	.LBB86_8
.Lfunc_end86:
	.size	"sq_track::watch::are_apart", .Lfunc_end86-"sq_track::watch::are_apart"

	.section	".text.squitter_c::entry::plain_entry","ax",@progbits
	.p2align	2
	.type	"squitter_c::entry::plain_entry",@function
"squitter_c::entry::plain_entry":
	sub	sp, sp, #288
	ldrb	w8, [x2, #8]
	stp	x22, x21, [sp, #256]
	mov	x21, x2
	ldr	x22, [x2]
	stp	x29, x30, [sp, #192]
	add	x29, sp, #192
	stp	x20, x19, [sp, #272]
	mov	w20, w1
	mov	x19, x0
	cmp	w8, #1
	str	x28, [sp, #208]
	stp	x26, x25, [sp, #224]
	stp	x24, x23, [sp, #240]
	stur	xzr, [sp, #54]
	str	xzr, [sp, #48]
	str	xzr, [sp, #32]
	stur	xzr, [sp, #38]
	stur	xzr, [sp, #86]
	str	xzr, [sp, #80]
	stur	xzr, [x29, #-58]
	stur	xzr, [x29, #-64]
	b.ne	.LBB87_3
	ldr	x8, [x21, #48]
	ldp	q0, q1, [x21, #16]
	sub	x0, x29, #64
	stur	x8, [x29, #-16]
	sub	x8, x29, #48
	orr	x1, x8, #0x8
	stp	q0, q1, [x29, #-48]
	bl	"sq_message::write::write_frame"
	ldur	x8, [x29, #-64]
	ldur	x9, [x29, #-58]
	ldur	x23, [x29, #-48]
	str	x8, [sp, #64]
	stur	x9, [sp, #70]
	ldrb	w8, [x21, #56]
	stur	xzr, [x29, #-64]
	stur	xzr, [x29, #-58]
	cmp	w8, #1
	b.eq	.LBB87_4
.LBB87_2:
	mov	x24, xzr
	stur	xzr, [x29, #-74]
	stur	xzr, [x29, #-80]
	b	.LBB87_5
.LBB87_3:
	mov	x23, xzr
	stur	xzr, [sp, #70]
	str	xzr, [sp, #64]
	ldrb	w8, [x21, #56]
	stur	xzr, [x29, #-64]
	stur	xzr, [x29, #-58]
	cmp	w8, #1
	b.ne	.LBB87_2
.LBB87_4:
	ldr	x8, [x21, #96]
	ldp	q0, q1, [x21, #64]
	sub	x0, x29, #64
	stur	x8, [x29, #-16]
	sub	x8, x29, #48
	orr	x1, x8, #0x8
	stp	q0, q1, [x29, #-48]
	bl	"sq_message::write::write_frame"
	ldur	x8, [x29, #-64]
	ldur	x9, [x29, #-58]
	ldur	x24, [x29, #-48]
	stur	x8, [x29, #-80]
	stur	x9, [x29, #-74]
.LBB87_5:
	ldrb	w9, [x21, #104]
	ldur	x8, [x29, #-80]
	ldur	x10, [x29, #-74]
	cmp	w9, #1
	str	x8, [sp, #80]
	stur	x10, [sp, #86]
	b.ne	.LBB87_7
	ldr	q0, [x21, #128]
	ldr	x25, [x21, #144]
	str	q0, [sp]
	ldr	q0, [x21, #112]
	str	q0, [sp, #16]
	b	.LBB87_8
.LBB87_7:
	movi	v0.2d, #0000000000000000
	mov	x25, xzr
	stp	q0, q0, [sp]
.LBB87_8:
	ldr	x8, [sp, #80]
	ldur	x9, [sp, #86]
	stur	xzr, [sp, #86]
	str	xzr, [sp, #80]
	str	x8, [sp, #48]
	ldrb	w8, [x21, #152]
	stur	x9, [sp, #54]
	cmp	w8, #1
	stur	xzr, [x29, #-58]
	stur	xzr, [x29, #-64]
	b.ne	.LBB87_11
	ldr	x8, [x21, #192]
	ldp	q0, q1, [x21, #160]
	sub	x0, x29, #64
	stur	x8, [x29, #-16]
	sub	x8, x29, #48
	orr	x1, x8, #0x8
	stp	q0, q1, [x29, #-48]
	bl	"sq_message::write::write_frame"
	ldur	x8, [x29, #-64]
	ldur	x9, [x29, #-58]
	ldur	x26, [x29, #-48]
	str	x8, [sp, #96]
	stur	x9, [sp, #102]
	ldrb	w8, [x21, #200]
	stur	xzr, [x29, #-64]
	stur	xzr, [x29, #-58]
	cmp	w8, #1
	b.eq	.LBB87_12
.LBB87_10:
	mov	x8, xzr
	stur	xzr, [x29, #-74]
	stur	xzr, [x29, #-80]
	b	.LBB87_13
.LBB87_11:
	mov	x26, xzr
	stur	xzr, [sp, #102]
	str	xzr, [sp, #96]
	ldrb	w8, [x21, #200]
	stur	xzr, [x29, #-64]
	stur	xzr, [x29, #-58]
	cmp	w8, #1
	b.ne	.LBB87_10
.LBB87_12:
	ldr	x8, [x21, #240]
	ldp	q0, q1, [x21, #208]
	sub	x0, x29, #64
	stur	x8, [x29, #-16]
	sub	x8, x29, #48
	orr	x1, x8, #0x8
	stp	q0, q1, [x29, #-48]
	bl	"sq_message::write::write_frame"
	ldur	x9, [x29, #-64]
	ldur	x10, [x29, #-58]
	ldur	x8, [x29, #-48]
	stur	x9, [x29, #-80]
	stur	x10, [x29, #-74]
.LBB87_13:
	ldrb	w10, [x21, #248]
	ldur	x9, [x29, #-80]
	ldur	x11, [x29, #-74]
	cmp	w10, #1
	str	x9, [sp, #80]
	stur	x11, [sp, #86]
	b.ne	.LBB87_15
	ldp	q0, q1, [x21, #256]
	ldr	x9, [x21, #288]
	b	.LBB87_16
.LBB87_15:
	movi	v0.2d, #0000000000000000
	movi	v1.2d, #0000000000000000
	mov	x9, xzr
.LBB87_16:
	ldr	x10, [sp, #80]
	ldur	x11, [sp, #86]
	ldr	q2, [sp]
	str	x22, [x19]
	ldr	x28, [sp, #208]
	str	x10, [sp, #32]
	ldr	x10, [sp, #64]
	stur	x11, [sp, #38]
	ldur	x11, [sp, #70]
	stp	x23, x10, [x19, #16]
	ldr	x10, [sp, #48]
	stur	x11, [x19, #30]
	ldur	x11, [sp, #54]
	stp	x24, x10, [x19, #40]
	ldur	x10, [sp, #102]
	stur	x11, [x19, #54]
	ldr	x11, [sp, #96]
	stur	x10, [x19, #118]
	ldur	x10, [sp, #38]
	str	q2, [x19, #80]
	ldr	q2, [sp, #16]
	stur	x10, [x19, #142]
	ldr	x10, [sp, #32]
	stp	w20, wzr, [x19, #8]
	ldp	x22, x21, [sp, #256]
	strh	wzr, [x19, #38]
	ldp	x24, x23, [sp, #240]
	strh	wzr, [x19, #62]
	ldp	x29, x30, [sp, #192]
	str	q2, [x19, #64]
	stp	x25, x26, [x19, #96]
	ldp	x26, x25, [sp, #224]
	str	x11, [x19, #112]
	strh	wzr, [x19, #126]
	stp	x8, x10, [x19, #128]
	strh	wzr, [x19, #150]
	stur	q0, [x19, #152]
	stur	q1, [x19, #168]
	str	x9, [x19, #184]
	ldp	x20, x19, [sp, #272]
	add	sp, sp, #288
	ret
.Lfunc_end87:
	.size	"squitter_c::entry::plain_entry", .Lfunc_end87-"squitter_c::entry::plain_entry"

	.section	".text.squitter_c::tracker_present::squitter_tracker_present","ax",@progbits
	.p2align	2
	.type	"squitter_c::tracker_present::squitter_tracker_present",@function
"squitter_c::tracker_present::squitter_tracker_present":
	stp	x29, x30, [sp, #-96]!
	stp	x28, x27, [sp, #16]
	mov	x29, sp
	stp	x26, x25, [sp, #32]
	stp	x24, x23, [sp, #48]
	stp	x22, x21, [sp, #64]
	stp	x20, x19, [sp, #80]
	sub	sp, sp, #1104
	str	xzr, [sp]
	ldp	x8, x20, [x0]
	stp	xzr, xzr, [x0]
	cbz	x8, .LBB88_12
	movi	v0.2d, #0000000000000000
	ldr	x9, [x20, #80]
	mov	x21, x4
	mov	x22, x3
	mov	x23, x2
	mov	x19, x0
	mov	x24, x1
	stp	q0, q0, [sp]
	stp	q0, q0, [sp, #32]
	stp	q0, q0, [sp, #64]
	stp	q0, q0, [sp, #96]
	stp	q0, q0, [sp, #128]
	stp	q0, q0, [sp, #160]
	cbz	x9, .LBB88_5
	ldr	w8, [x20, #248]
	ldr	x10, [x20, #216]
	lsl	x8, x8, #3
	ldr	w8, [x10, x8]
	cmp	x9, x8
	b.ls	.LBB88_5
	mov	w9, #296
	ldr	x10, [x20, #104]
	stp	q0, q0, [sp, #816]
	umaddl	x9, w8, w9, x10
	ldr	x10, [x20, #72]
	stp	q0, q0, [sp, #848]
	stp	q0, q0, [sp, #880]
	ldr	w27, [x10, x8, lsl #2]
	stp	q0, q0, [sp, #912]
	ldr	x25, [x9]
	stp	q0, q0, [sp, #944]
	stp	q0, q0, [sp, #976]
	cmp	x24, x25
	stp	q0, q0, [sp, #1008]
	str	q0, [sp, #1040]
	str	q0, [sp, #1056]
	str	q0, [sp, #1072]
	str	q0, [sp, #1088]
	b.ls	.LBB88_20
	mov	x25, xzr
	mov	x26, xzr
	mov	w27, wzr
	b	.LBB88_6
.LBB88_5:
	mov	x25, xzr
	mov	x26, xzr
	mov	w27, wzr
	str	q0, [sp, #1088]
	str	q0, [sp, #1072]
	str	q0, [sp, #1056]
	str	q0, [sp, #1040]
	stp	q0, q0, [sp, #816]
	stp	q0, q0, [sp, #848]
	stp	q0, q0, [sp, #880]
	stp	q0, q0, [sp, #912]
	stp	q0, q0, [sp, #944]
	stp	q0, q0, [sp, #976]
	stp	q0, q0, [sp, #1008]
.LBB88_6:
	str	w27, [sp, #512]
	add	x27, sp, #504
	add	x1, sp, #816
	add	x0, x27, #24
	mov	w2, #288
	str	x26, [sp, #504]
	str	wzr, [sp, #516]
	str	x25, [sp, #520]
	bl	memcpy
	cbz	x23, .LBB88_11
	mov	x25, xzr
.LBB88_8:
	ldrb	w8, [sp, #504]
	cmp	w8, #1
	b.ne	.LBB88_13
	ldr	w4, [sp, #512]
	add	x0, sp, #504
	mov	x1, x20
	mov	x2, x24
	mov	x3, x25
	bl	"sq_track::tracker::Tracker::present_behind::<#bd73a11ec42be588>"
	add	x25, x25, #1
	cmp	x23, x25
	b.ne	.LBB88_8
	ldrb	w26, [sp, #504]
.LBB88_11:
	mov	w8, w26
	add	x1, x27, #8
	mov	w2, #304
	str	x8, [sp, #192]
	add	x8, sp, #192
	orr	x0, x8, #0x8
	bl	memcpy
	mov	x25, xzr
	cbnz	x21, .LBB88_14
	b	.LBB88_18
.LBB88_12:
	mov	x25, xzr
	b	.LBB88_19
.LBB88_13:
	movi	v0.2d, #0000000000000000
	str	xzr, [sp, #496]
	stp	q0, q0, [sp, #208]
	stp	q0, q0, [sp, #240]
	stp	q0, q0, [sp, #272]
	stp	q0, q0, [sp, #304]
	stp	q0, q0, [sp, #336]
	stp	q0, q0, [sp, #368]
	stp	q0, q0, [sp, #400]
	stp	q0, q0, [sp, #432]
	stp	q0, q0, [sp, #464]
	str	q0, [sp, #192]
	mov	x25, xzr
	cbz	x21, .LBB88_18
.LBB88_14:
	add	x27, sp, #192
.LBB88_15:
	ldrb	w8, [sp, #192]
	cmp	w8, #1
	b.ne	.LBB88_18
	ldr	w26, [sp, #200]
	mov	x0, sp
	add	x2, x27, #16
	mov	w1, w26
	bl	"squitter_c::entry::plain_entry"
	ldp	q0, q1, [sp, #128]
	add	x0, sp, #192
	add	x3, x23, x25
	mov	x1, x20
	mov	x2, x24
	mov	w4, w26
	stp	q0, q1, [x22, #128]
	ldp	q0, q2, [sp, #160]
	stp	q0, q2, [x22, #160]
	ldp	q1, q0, [sp, #64]
	stp	q1, q0, [x22, #64]
	ldp	q2, q0, [sp, #96]
	stp	q2, q0, [x22, #96]
	ldp	q1, q0, [sp]
	stp	q1, q0, [x22]
	ldp	q2, q0, [sp, #32]
	stp	q2, q0, [x22, #32]
	bl	"sq_track::tracker::Tracker::present_behind::<#bd73a11ec42be588>"
	add	x25, x25, #1
	add	x22, x22, #192
	cmp	x21, x25
	b.ne	.LBB88_15
	mov	x25, x21
.LBB88_18:
	mov	w8, #1
	stp	x8, x20, [x19]
.LBB88_19:
	mov	x0, x25
	add	sp, sp, #1104
	ldp	x20, x19, [sp, #80]
	ldp	x22, x21, [sp, #64]
	ldp	x24, x23, [sp, #48]
	ldp	x26, x25, [sp, #32]
	ldp	x28, x27, [sp, #16]
	ldp	x29, x30, [sp], #96
	ret
.LBB88_20:
	add	x0, sp, #816
	add	x1, x9, #8
	mov	w2, #288
	bl	memcpy
	mov	w26, #1
	b	.LBB88_6
.Lfunc_end88:
	.size	"squitter_c::tracker_present::squitter_tracker_present", .Lfunc_end88-"squitter_c::tracker_present::squitter_tracker_present"

	.section	.rodata.cst16,"aM",@progbits,16
	.p2align	4, 0x0
.LCPI89_0:
	.byte	1
	.byte	2
	.byte	4
	.byte	8
	.byte	16
	.byte	32
	.byte	64
	.byte	128
	.byte	1
	.byte	2
	.byte	4
	.byte	8
	.byte	16
	.byte	32
	.byte	64
	.byte	128
	.section	".text.sq_track::tracker::Tracker::present_behind::<#bd73a11ec42be588>","ax",@progbits
	.p2align	2
	.type	"sq_track::tracker::Tracker::present_behind::<#bd73a11ec42be588>",@function
"sq_track::tracker::Tracker::present_behind::<#bd73a11ec42be588>":
	stp	x29, x30, [sp, #-96]!
	str	x28, [sp, #16]
	mov	x29, sp
	stp	x26, x25, [sp, #32]
	stp	x24, x23, [sp, #48]
	stp	x22, x21, [sp, #64]
	stp	x20, x19, [sp, #80]
	sub	sp, sp, #1152
	str	xzr, [sp]
	movi	v0.2d, #0000000000000000
	mov	x19, x0
	ldr	x20, [x1, #80]
	cmp	x20, #0
	cset	w8, ne
	stp	q0, q0, [sp, #288]
	sub	x8, x20, x8
	stp	q0, q0, [sp, #320]
	cmp	x8, x3
	stp	q0, q0, [sp, #352]
	stp	q0, q0, [sp, #384]
	stp	q0, q0, [sp, #416]
	stp	q0, q0, [sp, #448]
	stp	q0, q0, [sp, #480]
	stp	q0, q0, [sp, #512]
	stp	q0, q0, [sp, #544]
	b.ls	.LBB89_10
	ldr	x12, [x1, #144]
	cbz	x12, .LBB89_9
	mov	w8, w4
	mov	x10, #31773
	ldr	x9, [x1, #208]
	orr	x8, x8, x8, lsl #32
	movk	x10, #32586, lsl #16
	mov	w13, #1
	movk	x10, #31161, lsl #32
	movk	x10, #40503, lsl #48
	eor	x8, x9, x8
	mul	x9, x8, x10
	umulh	x8, x8, x10
	eor	x8, x8, x9
	lsr	x9, x8, #32
	eor	w9, w9, w8
	ldr	x8, [x1, #72]
	lsr	w10, w9, #24
	cmp	w10, #1
	csinc	w11, w10, wzr, hi
	sub	w10, w12, #1
	sub	x12, x12, #1
	dup	v0.16b, w11
	and	w9, w10, w9
	ldr	x10, [x1, #136]
	lsl	w11, w13, w11
	mov	x13, x9
.LBB89_3:
	add	x14, x10, x13, lsl #6
	adrp	x15, .LCPI89_0
	ldr	q2, [x15, :lo12:.LCPI89_0]
	ldr	q1, [x14]
	cmeq	v1.16b, v1.16b, v0.16b
	and	v1.16b, v1.16b, v2.16b
	addp	v1.16b, v1.16b, v1.16b
	addp	v1.16b, v1.16b, v1.16b
	addp	v1.16b, v1.16b, v1.16b
	umov	w15, v1.h[0]
	ands	w16, w15, #0xfff
	b.eq	.LBB89_7
	add	x17, x14, #16
.LBB89_5:
	rbit	w15, w16
	clz	w15, w15
	ldr	w15, [x17, w15, uxtw #2]
	ldr	w18, [x8, x15, lsl #2]
	cmp	w4, w18
	b.eq	.LBB89_13
	sub	w15, w16, #1
	ands	w16, w15, w16
	b.ne	.LBB89_5
.LBB89_7:
	ldr	w14, [x14, #12]
	tst	w14, w11
	b.eq	.LBB89_9
	add	x13, x13, #1
	and	x13, x13, x12
	cmp	x13, x9
	b.ne	.LBB89_3
.LBB89_9:
	mov	x21, xzr
	mov	x20, xzr
	mov	w23, wzr
	movi	v0.2d, #0000000000000000
	b	.LBB89_11
.LBB89_10:
	mov	x21, xzr
	mov	x20, xzr
	mov	w23, wzr
.LBB89_11:
	str	q0, [sp, #1136]
	str	q0, [sp, #1120]
	str	q0, [sp, #1104]
	str	q0, [sp, #1088]
	str	q0, [sp, #1072]
	str	q0, [sp, #1056]
	str	q0, [sp, #1040]
	stp	q0, q0, [sp, #880]
	stp	q0, q0, [sp, #912]
	stp	q0, q0, [sp, #944]
	stp	q0, q0, [sp, #976]
	stp	q0, q0, [sp, #1008]
	str	q0, [sp, #864]
.LBB89_12:
	add	x0, sp, #288
	add	x1, sp, #864
	mov	w2, #288
	bl	memcpy
	add	x0, x19, #24
	add	x1, sp, #288
	mov	w2, #288
	str	x20, [x19]
	stp	w23, wzr, [x19, #8]
	str	x21, [x19, #16]
	bl	memcpy
	add	sp, sp, #1152
	ldp	x20, x19, [sp, #80]
	ldr	x28, [sp, #16]
	ldp	x22, x21, [sp, #64]
	ldp	x24, x23, [sp, #48]
	ldp	x26, x25, [sp, #32]
	ldp	x29, x30, [sp], #96
	ret
.LBB89_13:
	ldr	x9, [x1, #216]
	lsl	x10, x15, #3
	movi	v0.2d, #0000000000000000
	mov	x22, x2
	ldr	w25, [x9, x10]
	cmp	x20, x25
	str	q0, [sp, #1136]
	str	q0, [sp, #1120]
	str	q0, [sp, #1104]
	str	q0, [sp, #1088]
	str	q0, [sp, #1072]
	str	q0, [sp, #1056]
	str	q0, [sp, #1040]
	stp	q0, q0, [sp, #880]
	stp	q0, q0, [sp, #912]
	stp	q0, q0, [sp, #944]
	stp	q0, q0, [sp, #976]
	stp	q0, q0, [sp, #1008]
	str	q0, [sp, #864]
	b.hi	.LBB89_15
	mov	x26, xzr
	mov	w24, wzr
	b	.LBB89_16
.LBB89_15:
	mov	w9, #296
	ldr	x10, [x1, #104]
	ldr	w24, [x8, x25, lsl #2]
	umaddl	x1, w25, w9, x10
	add	x0, sp, #864
	mov	w2, #288
	ldr	x26, [x1], #8
	bl	memcpy
.LBB89_16:
	add	x0, sp, #576
	add	x1, sp, #864
	mov	w2, #288
	bl	memcpy
	mov	x0, sp
	add	x1, sp, #576
	mov	w2, #288
	bl	memcpy
	movi	v0.2d, #0000000000000000
	mov	w23, wzr
	mov	x21, xzr
	cmp	x20, x25
	str	q0, [sp, #1136]
	str	q0, [sp, #1120]
	str	q0, [sp, #1104]
	str	q0, [sp, #1088]
	str	q0, [sp, #1072]
	str	q0, [sp, #1056]
	str	q0, [sp, #1040]
	stp	q0, q0, [sp, #880]
	stp	q0, q0, [sp, #912]
	stp	q0, q0, [sp, #944]
	stp	q0, q0, [sp, #976]
	stp	q0, q0, [sp, #1008]
	str	q0, [sp, #864]
	b.ls	.LBB89_19
	cmp	x22, x26
	mov	x20, x21
	b.hi	.LBB89_12
	add	x0, sp, #864
	mov	x1, sp
	mov	w2, #288
	bl	memcpy
	mov	w20, #1
	mov	x21, x26
	mov	w23, w24
	b	.LBB89_12
.LBB89_19:
	mov	x20, x21
	b	.LBB89_12
.Lfunc_end89:
	.size	"sq_track::tracker::Tracker::present_behind::<#bd73a11ec42be588>", .Lfunc_end89-"sq_track::tracker::Tracker::present_behind::<#bd73a11ec42be588>"

	.section	".text.unlikely.sq_log::marked_bytes::MarkedBytes::close","ax",@progbits
	.p2align	2
	.type	"sq_log::marked_bytes::MarkedBytes::close",@function
"sq_log::marked_bytes::MarkedBytes::close":
	ldr	x9, [x0, #152]
	ldr	x10, [x0, #136]
	mov	w8, #65
	subs	x10, x10, x9
	add	x9, x0, x9
	ldur	q0, [x9, #17]
	ldur	q1, [x9, #1]
	csel	x10, xzr, x10, lo
	ldur	q2, [x9, #49]
	ldur	q3, [x9, #33]
	cmp	x10, #64
	stp	x10, x8, [x0, #136]
	stur	q3, [x0, #33]
	stur	q2, [x0, #49]
	stur	q1, [x0, #1]
	stur	q0, [x0, #17]
	stp	xzr, xzr, [x0, #152]
	b.ls	.LBB90_2
	ret
.LBB90_2:
	adrp	x1, .Lstatic.68
	add	x1, x1, :lo12:.Lstatic.68
	mov	w2, #1
	b	"sq_log::marked_bytes::MarkedBytes::fill_part"
.Lfunc_end90:
	.size	"sq_log::marked_bytes::MarkedBytes::close", .Lfunc_end90-"sq_log::marked_bytes::MarkedBytes::close"

	.section	.rodata.cst16,"aM",@progbits,16
	.p2align	4, 0x0
.LCPI91_0:
	.byte	1
	.byte	2
	.byte	4
	.byte	8
	.byte	16
	.byte	32
	.byte	64
	.byte	128
	.byte	1
	.byte	2
	.byte	4
	.byte	8
	.byte	16
	.byte	32
	.byte	64
	.byte	128
	.section	".text.unlikely.sq_log::marked_bytes::MarkedBytes::fill_part","ax",@progbits
	.p2align	2
	.type	"sq_log::marked_bytes::MarkedBytes::fill_part",@function
"sq_log::marked_bytes::MarkedBytes::fill_part":
	stp	x29, x30, [sp, #-32]!
	add	x8, x0, #65
	stp	x20, x19, [sp, #16]
	mov	x19, x2
	sub	x8, x8, x1
	mov	x20, x0
	mov	x29, sp
	cmp	x8, x2
	b.hs	.LBB91_6
	cmp	x19, #4
	b.lo	.LBB91_3
	sub	x8, x20, x1
	add	x8, x8, #65
	cmp	x8, #16
	b.hs	.LBB91_8
.LBB91_3:
	mov	x8, xzr
.LBB91_4:
	add	x10, x8, x20
	sub	x9, x19, x8
	add	x8, x1, x8
	add	x10, x10, #65
.LBB91_5:
	ldrb	w11, [x8], #1
	subs	x9, x9, #1
	strb	w11, [x10], #1
	b.ne	.LBB91_5
	b	.LBB91_7
.LBB91_6:
	add	x0, x20, #65
	mov	x2, x19
	bl	memmove
.LBB91_7:
	movi	v0.16b, #10
	ldur	q1, [x20, #65]
	ldur	q2, [x20, #113]
	ldur	q3, [x20, #81]
	ldur	q4, [x20, #97]
	adrp	x8, .LCPI91_0
	cmeq	v2.16b, v2.16b, v0.16b
	cmeq	v1.16b, v1.16b, v0.16b
	cmeq	v4.16b, v4.16b, v0.16b
	cmeq	v0.16b, v3.16b, v0.16b
	ldr	q3, [x8, :lo12:.LCPI91_0]
	mov	x8, #-1
	lsl	x8, x8, x19
	and	v1.16b, v1.16b, v3.16b
	and	v4.16b, v4.16b, v3.16b
	and	v2.16b, v2.16b, v3.16b
	and	v0.16b, v0.16b, v3.16b
	addp	v0.16b, v1.16b, v0.16b
	addp	v1.16b, v4.16b, v2.16b
	addp	v0.16b, v0.16b, v1.16b
	addp	v0.16b, v0.16b, v0.16b
	fmov	x9, d0
	bic	x8, x9, x8
	stp	x19, x8, [x20, #152]
	ldp	x20, x19, [sp, #16]
	ldp	x29, x30, [sp], #32
	ret
.LBB91_8:
	cmp	x19, #16
	b.hs	.LBB91_10
	mov	x8, xzr
	b	.LBB91_14
.LBB91_10:
	and	x9, x19, #0xc
	and	x8, x19, #0x30
	add	x10, x1, #8
	add	x11, x20, #73
	and	x12, x19, #0x30
.LBB91_11:
	ldp	d0, d1, [x10, #-8]
	subs	x12, x12, #16
	add	x10, x10, #16
	stp	d0, d1, [x11, #-8]
	add	x11, x11, #16
	b.ne	.LBB91_11
	cmp	x19, x8
	b.eq	.LBB91_7
	cbz	x9, .LBB91_4
.LBB91_14:
	mov	x10, x8
	and	x8, x19, #0x3c
	add	x11, x10, x20
	sub	x9, x10, x8
	add	x10, x1, x10
	add	x11, x11, #65
.LBB91_15:
	ldr	w12, [x10], #4
	adds	x9, x9, #4
	str	w12, [x11], #4
	b.ne	.LBB91_15
	cmp	x19, x8
	b.eq	.LBB91_7
	b	.LBB91_4
.Lfunc_end91:
	.size	"sq_log::marked_bytes::MarkedBytes::fill_part", .Lfunc_end91-"sq_log::marked_bytes::MarkedBytes::fill_part"

	.section	.rodata.cst16,"aM",@progbits,16
	.p2align	4, 0x0
.LCPI92_0:
	.byte	1
	.byte	2
	.byte	4
	.byte	8
	.byte	16
	.byte	32
	.byte	64
	.byte	128
	.byte	1
	.byte	2
	.byte	4
	.byte	8
	.byte	16
	.byte	32
	.byte	64
	.byte	128
	.section	".text.squitter_c::log_loop::write_some::<#4e49cecb6d0bb978>","ax",@progbits
	.p2align	2
	.type	"squitter_c::log_loop::write_some::<#4e49cecb6d0bb978>",@function
"squitter_c::log_loop::write_some::<#4e49cecb6d0bb978>":
	sub	sp, sp, #400
	stp	x29, x30, [sp, #304]
	add	x29, sp, #304
	cmp	x5, x6
	stp	x28, x27, [sp, #320]
	stp	x26, x25, [sp, #336]
	stp	x24, x23, [sp, #352]
	stp	x22, x21, [sp, #368]
	stp	x20, x19, [sp, #384]
	str	x0, [sp, #112]
	stur	wzr, [x29, #-117]
	stur	wzr, [x29, #-120]
	b.ne	.LBB92_5
	mov	x30, xzr
.LBB92_2:
	ldr	x10, [sp, #112]
	ldur	w9, [x29, #-120]
	mov	w8, #1
	stp	x30, x5, [x10]
.LBB92_3:
	strb	w8, [x10, #16]
	ldur	w8, [x29, #-117]
	stur	w9, [x10, #17]
	str	w8, [x10, #20]
.LBB92_4:
	ldp	x20, x19, [sp, #384]
	ldp	x22, x21, [sp, #368]
	ldp	x24, x23, [sp, #352]
	ldp	x26, x25, [sp, #336]
	ldp	x28, x27, [sp, #320]
	ldp	x29, x30, [sp, #304]
	add	sp, sp, #400
	ret
.LBB92_5:
	mov	x7, x2
	mov	x25, x1
	mov	x30, xzr
	add	x2, x1, #40
	stp	x4, x5, [x29, #-144]
	stp	x7, x3, [sp, #144]
	b	.LBB92_12
.LBB92_6:
	mov	w12, #90
.LBB92_7:
	umull	x14, w8, w12
	lsl	x20, x10, #17
	sub	x0, x29, #80
	smull	x21, w13, w12
	cmp	x14, x11
	csel	x9, xzr, x9, lo
	umaddl	x26, w8, w12, x9
	stp	x21, x22, [x29, #-80]
	stp	x26, x20, [x29, #-64]
	bl	"squitter_c::e7::both"
	mov	w15, wzr
	mov	w16, wzr
	mov	w8, #1
	stur	wzr, [x29, #-88]
	sturb	wzr, [x29, #-84]
.LBB92_8:
	ldp	x6, x30, [sp, #128]
	add	x2, x25, #40
	ldp	x4, x5, [x29, #-144]
	ldr	w17, [sp, #120]
	ldp	x7, x3, [sp, #144]
.LBB92_9:
	ldur	w9, [x29, #-88]
	ldurb	w11, [x29, #-84]
	mov	w10, wzr
	ldur	w13, [x29, #-32]
	mov	x12, xzr
	stur	w9, [x29, #-96]
	stur	w9, [x29, #-88]
	mov	w9, w0
	sturb	w11, [x29, #-84]
	ldurh	w11, [x29, #-28]
	orr	x9, x9, x1, lsl #32
	ldur	x1, [x29, #-128]
	stur	w13, [x29, #-80]
	sturh	w11, [x29, #-76]
.LBB92_10:
	mov	w13, #96
	ldur	w11, [x29, #-88]
	ldurb	w14, [x29, #-84]
	madd	x13, x6, x13, x4
	add	x6, x6, #1
	stur	w11, [x29, #-104]
	ldur	w11, [x29, #-80]
	sturb	w14, [x29, #-100]
	ldurh	w14, [x29, #-76]
	stur	w11, [x29, #-112]
	ldurb	w11, [x29, #-100]
	sturh	w14, [x29, #-108]
	strb	w8, [x13, #48]
	ldur	w8, [x29, #-104]
	stp	x12, x9, [x13, #64]
	ldur	w9, [x29, #-112]
	stur	w8, [x13, #51]
	and	w8, w14, #0xffff
	stp	x23, x28, [x13]
	stp	x21, x22, [x13, #16]
	stp	x26, x20, [x13, #32]
	strb	w15, [x13, #49]
	strb	w16, [x13, #50]
	strb	w11, [x13, #55]
	stp	w10, wzr, [x13, #56]
	stp	w19, w17, [x13, #80]
	strb	w27, [x13, #88]
	strb	w24, [x13, #89]
	strh	w8, [x13, #94]
	stur	w9, [x13, #90]
.LBB92_11:
	cmp	x5, x6
	add	x30, x1, x30
	b.eq	.LBB92_2
.LBB92_12:
	ldr	x8, [x25, #200]
	cbz	x8, .LBB92_14
	mov	x1, xzr
	b	.LBB92_17
.LBB92_14:
	sub	x11, x3, x30
	cbz	x11, .LBB92_208
	ldr	x8, [x25, #192]
	ldr	x9, [x25, #176]
	add	x10, x2, x8
	subs	x8, x9, x8
	mov	w9, #65
	ldur	q0, [x10, #17]
	ldur	q1, [x10, #1]
	ldur	q2, [x10, #49]
	ldur	q3, [x10, #33]
	csel	x8, xzr, x8, lo
	cmp	x11, #63
	stp	x8, x9, [x25, #176]
	stur	q3, [x25, #73]
	stur	q2, [x25, #89]
	stur	q1, [x25, #41]
	stur	q0, [x25, #57]
	stp	xzr, xzr, [x25, #192]
	b.ls	.LBB92_36
	movi	v0.16b, #10
	add	x8, x7, x30
	adrp	x9, .LCPI92_0
	ldp	q2, q1, [x8]
	ldr	q5, [x9, :lo12:.LCPI92_0]
	ldp	q4, q3, [x8, #32]
	mov	w1, #64
	str	x1, [x25, #192]
	cmeq	v6.16b, v2.16b, v0.16b
	stur	q2, [x25, #105]
	cmeq	v7.16b, v3.16b, v0.16b
	cmeq	v16.16b, v4.16b, v0.16b
	cmeq	v0.16b, v1.16b, v0.16b
	stur	q4, [x25, #137]
	and	v6.16b, v6.16b, v5.16b
	stur	q3, [x25, #153]
	and	v0.16b, v0.16b, v5.16b
	and	v16.16b, v16.16b, v5.16b
	and	v5.16b, v7.16b, v5.16b
	stur	q1, [x25, #121]
	addp	v0.16b, v6.16b, v0.16b
	addp	v5.16b, v16.16b, v5.16b
	addp	v0.16b, v0.16b, v5.16b
	addp	v0.16b, v0.16b, v0.16b
	fmov	x8, d0
	str	d0, [x25, #200]
	cbz	x8, .LBB92_11
.LBB92_17:
	rbit	x9, x8
	clz	x23, x9
	ldp	x8, x9, [x25, #176]
	sub	x10, x23, x8
	add	x27, x10, x9
	cmp	x27, #64
	b.ls	.LBB92_19
	mov	x11, xzr
	mov	x19, xzr
	mov	x9, xzr
	mov	x20, xzr
	b	.LBB92_45
.LBB92_19:
	cbz	x27, .LBB92_26
	add	x28, x2, x8
	sub	x8, x27, #1
	ldrb	w9, [x28, x8]
	cmp	w9, #13
	b.ne	.LBB92_22
	mov	x27, x8
	cbz	x8, .LBB92_26
.LBB92_22:
	cmp	x27, #15
	adrp	x21, .LCPI92_0
	stur	x1, [x29, #-128]
	b.ls	.LBB92_37
	movi	v1.16b, #198
	ldr	q0, [x28]
	movi	v2.16b, #246
	add	v1.16b, v0.16b, v1.16b
	cmhi	v1.16b, v2.16b, v1.16b
	ldr	q2, [x21, :lo12:.LCPI92_0]
	and	v1.16b, v1.16b, v2.16b
	addp	v1.16b, v1.16b, v1.16b
	addp	v1.16b, v1.16b, v1.16b
	addp	v1.16b, v1.16b, v1.16b
	umov	w8, v1.h[0]
	orr	w8, w8, #0x10000
	rbit	w8, w8
	clz	w1, w8
	cbz	w1, .LBB92_43
	fmov	x8, d0
	cmp	w1, #8
	b.hi	.LBB92_27
	lsl	x9, x1, #3
	neg	x9, x9
	lsl	x8, x8, x9
	mov	w9, #2561
	and	x8, x8, #0xf0f0f0f0f0f0f0f
	mul	x8, x8, x9
	mov	w9, #1
	movk	w9, #100, lsl #16
	lsr	x8, x8, #8
	and	x8, x8, #0xff00ff00ff00ff
	mul	x8, x8, x9
	mov	x9, #1
	movk	x9, #10000, lsl #32
	lsr	x8, x8, #16
	and	x8, x8, #0xffff0000ffff
	mul	x8, x8, x9
	lsr	x18, x8, #32
	cbnz	x1, .LBB92_29
	b	.LBB92_42
.LBB92_26:
	ldr	x9, [x25, #200]
	ldr	x8, [x25, #184]
	ldr	x10, [x25, #16]
	lsr	x9, x9, x23
	add	x8, x23, x8
	add	x8, x8, #1
	lsr	x9, x9, #1
	stp	x8, x8, [x25, #176]
	add	x8, x10, #1
	str	x8, [x25, #16]
	str	x9, [x25, #200]
	b	.LBB92_11
.LBB92_27:
	sub	x9, x1, #8
	cmp	w1, #16
	lsl	x10, x9, #3
	ldr	x9, [x28, x9]
	neg	x10, x10
	and	x9, x9, #0xf0f0f0f0f0f0f0f
	lsl	x8, x8, x10
	mov	w10, #2561
	mul	x9, x9, x10
	and	x8, x8, #0xf0f0f0f0f0f0f0f
	mul	x8, x8, x10
	mov	w10, #1
	movk	w10, #100, lsl #16
	lsr	x9, x9, #8
	lsr	x8, x8, #8
	and	x9, x9, #0xff00ff00ff00ff
	mul	x9, x9, x10
	and	x8, x8, #0xff00ff00ff00ff
	mul	x8, x8, x10
	mov	x10, #1
	movk	x10, #10000, lsl #32
	lsr	x9, x9, #16
	lsr	x8, x8, #16
	and	x9, x9, #0xffff0000ffff
	mul	x9, x9, x10
	and	x8, x8, #0xffff0000ffff
	mul	x8, x8, x10
	mov	w10, #57600
	movk	w10, #1525, lsl #16
	lsr	x9, x9, #32
	lsr	x8, x8, #32
	umaddl	x18, w8, w10, x9
	b.hs	.LBB92_40
	cbz	x1, .LBB92_42
.LBB92_29:
	cmp	x1, x27
	b.hs	.LBB92_42
	ldrb	w8, [x28, x1]
	cmp	w8, #32
	b.ne	.LBB92_42
	add	x8, x1, #1
	add	x1, x28, x8
	sub	x2, x27, x8
	movi	v0.2d, #0000000000000000
	cmp	x2, #30
	stur	xzr, [x29, #-48]
	stp	q0, q0, [x29, #-80]
	b.eq	.LBB92_75
.LBB92_32:
	subs	x8, x2, #2
	b.lo	.LBB92_84
	ldrb	w10, [x1]
	add	x9, x1, x2
	ldurb	w9, [x9, #-1]
	cmp	w10, #42
	b.ne	.LBB92_38
	cmp	w9, #59
	b.ne	.LBB92_84
	add	x9, x1, #1
	b	.LBB92_39
.LBB92_36:
	add	x0, x25, #40
	add	x1, x7, x30
	sub	x2, x3, x30
	sub	x21, x3, x30
	mov	x19, x6
	mov	x20, x30
	bl	"sq_log::marked_bytes::MarkedBytes::fill_part"
	ldp	x7, x3, [sp, #144]
	mov	x1, x21
	ldp	x4, x5, [x29, #-144]
	add	x2, x25, #40
	ldr	x8, [x25, #200]
	mov	x30, x20
	mov	x6, x19
	cbnz	x8, .LBB92_17
	b	.LBB92_11
.LBB92_37:
	mov	x0, x28
	mov	x1, x27
	mov	x2, xzr
	mov	x3, xzr
	b	.LBB92_41
.LBB92_38:
	cmp	w9, #59
	mov	x8, x2
	mov	x9, x1
	b.eq	.LBB92_84
.LBB92_39:
	cmp	x8, #28
	csel	x8, x9, xzr, eq
	b.eq	.LBB92_78
	b	.LBB92_84
.LBB92_40:
	mov	x0, x28
	mov	x1, x27
	mov	x2, x18
	mov	w3, #16
.LBB92_41:
	mov	x19, x6
	mov	x20, x30
	bl	"sq_text::timed::more_digits"
	ldp	x7, x3, [sp, #144]
	mov	x30, x20
	ldp	x4, x5, [x29, #-144]
	mov	x6, x19
	mov	x18, x0
	cbnz	x1, .LBB92_29
.LBB92_42:
	cmp	x1, #18
	add	x2, x25, #40
	b.hi	.LBB92_73
.LBB92_43:
	mov	x11, xzr
	mov	x9, xzr
	mov	x20, xzr
	mov	w19, #1
.LBB92_44:
	ldur	x1, [x29, #-128]
.LBB92_45:
	ldr	x12, [x25, #184]
	ldr	x18, [x25, #200]
	mov	w16, wzr
	ldr	x0, [x25, #16]
	mov	w15, wzr
	mov	x14, xzr
	add	x12, x23, x12
	lsr	x18, x18, x23
	mov	w24, wzr
	add	x12, x12, #1
	add	x23, x0, #1
	mov	w21, wzr
	stp	x12, x12, [x25, #176]
	ldr	x12, [x25, #32]
	lsr	x18, x18, #1
	mov	w26, wzr
	mov	w28, wzr
	mov	x13, xzr
	add	x12, x12, #1
	mov	x10, xzr
	mov	x8, xzr
	mov	w17, wzr
	str	x18, [x25, #200]
	mov	w22, #7864320
	str	x23, [x25, #16]
	str	x12, [x25, #32]
	mov	w12, #1
	stur	wzr, [x29, #-104]
	sturb	wzr, [x29, #-100]
	stur	wzr, [x29, #-112]
	sturh	wzr, [x29, #-108]
	cbz	w17, .LBB92_191
.LBB92_46:
	cmp	w24, #2
	stur	wzr, [x29, #-32]
	sturh	wzr, [x29, #-28]
	stur	wzr, [x29, #-96]
	sturb	wzr, [x29, #-92]
	b.eq	.LBB92_49
	cmp	w24, #1
	b.ne	.LBB92_50
	mov	w24, wzr
	mov	w17, wzr
	mov	w27, #2
	b	.LBB92_56
.LBB92_49:
	mov	w27, wzr
	mov	w24, wzr
	mov	w17, wzr
	b	.LBB92_56
.LBB92_50:
	tbnz	w16, #0, .LBB92_53
	cbz	w15, .LBB92_54
	tbnz	w15, #4, .LBB92_55
.LBB92_53:
	mov	w17, wzr
	mov	w24, #2
	mov	w27, #1
	b	.LBB92_56
.LBB92_54:
	mov	w24, wzr
	mov	w17, wzr
	mov	w27, #1
	b	.LBB92_56
.LBB92_55:
	ubfx	w16, w15, #5, #11
	and	w15, w15, #0xf
	mov	w17, #-1000
	mov	w27, #1
	mov	w24, #1
	orr	w15, w15, w16, lsl #4
	mov	w16, #25
	madd	w17, w15, w16, w17
.LBB92_56:
	orr	x14, x14, x19
	mov	w16, w28
	lsr	x19, x20, #32
	orr	x11, x14, x11, lsl #32
	mov	x15, x26
	cmp	w21, #2
	stur	x1, [x29, #-128]
	orr	x28, x11, x9, lsl #8
	b.le	.LBB92_60
	cmp	w21, #4
	b.gt	.LBB92_64
	cmp	w21, #3
	b.ne	.LBB92_69
	mov	x21, xzr
	mov	x22, xzr
	mov	x26, xzr
	mov	x20, xzr
	mov	w0, wzr
	mov	w1, wzr
	sturb	wzr, [x29, #-84]
	mov	w8, #4
	stur	wzr, [x29, #-88]
	b	.LBB92_9
.LBB92_60:
	cbz	w21, .LBB92_66
	cmp	w21, #1
	b.ne	.LBB92_68
	mov	w9, #23592960
	stp	x6, x30, [sp, #128]
	umull	x11, w10, w9
	mov	x9, #-65536
	str	w17, [sp, #120]
	movk	x9, #64816, lsl #16
	smull	x9, w10, w9
	cbz	w12, .LBB92_71
	mov	w12, #360
	b	.LBB92_72
.LBB92_64:
	cmp	w21, #5
	b.ne	.LBB92_70
	mov	x21, xzr
	mov	x22, xzr
	mov	x26, xzr
	mov	x20, xzr
	mov	w15, wzr
	mov	w16, wzr
	mov	w0, wzr
	mov	w1, wzr
	sturb	wzr, [x29, #-84]
	stur	wzr, [x29, #-88]
	mov	w8, #6
	b	.LBB92_9
.LBB92_66:
	mov	w9, #23592960
	stp	x6, x30, [sp, #128]
	umull	x11, w10, w9
	mov	x9, #-65536
	str	w17, [sp, #120]
	movk	x9, #64816, lsl #16
	smull	x9, w10, w9
	cbz	w12, .LBB92_6
	mov	w12, #360
	b	.LBB92_7
.LBB92_68:
	mov	x21, xzr
	mov	x22, xzr
	mov	x26, xzr
	mov	x20, xzr
	mov	w15, wzr
	mov	w16, wzr
	mov	w0, wzr
	mov	w1, wzr
	sturb	wzr, [x29, #-84]
	stur	wzr, [x29, #-88]
	mov	w8, #3
	b	.LBB92_9
.LBB92_69:
	mov	x21, xzr
	mov	x22, xzr
	mov	x26, xzr
	mov	x20, xzr
	mov	w15, wzr
	mov	w16, wzr
	mov	w0, wzr
	mov	w1, wzr
	sturb	wzr, [x29, #-84]
	stur	wzr, [x29, #-88]
	mov	w8, #5
	b	.LBB92_9
.LBB92_70:
	mov	x21, xzr
	mov	x22, xzr
	mov	x26, xzr
	mov	x20, xzr
	mov	w15, wzr
	mov	w16, wzr
	mov	w0, wzr
	mov	w1, wzr
	mov	w8, #7
	sturb	wzr, [x29, #-84]
	stur	wzr, [x29, #-88]
	b	.LBB92_9
.LBB92_71:
	mov	w12, #90
.LBB92_72:
	umull	x14, w8, w12
	lsl	x20, x10, #17
	sub	x0, x29, #80
	smull	x21, w13, w12
	cmp	x14, x11
	csel	x9, xzr, x9, lo
	umaddl	x26, w8, w12, x9
	stp	x21, x22, [x29, #-80]
	stp	x26, x20, [x29, #-64]
	bl	"squitter_c::e7::both"
	mov	w15, wzr
	mov	w16, wzr
	stur	wzr, [x29, #-88]
	sturb	wzr, [x29, #-84]
	mov	w8, #2
	b	.LBB92_8
.LBB92_73:
	sub	x0, x29, #80
	mov	x1, x28
	mov	x2, x27
	mov	x22, x30
	mov	x20, x6
	bl	"sq_text::timed::split_longest"
	ldurb	w8, [x29, #-80]
	cmp	w8, #1
	b.ne	.LBB92_89
	ldp	x18, x1, [x29, #-72]
	mov	x6, x20
	ldp	x4, x5, [x29, #-144]
	mov	x30, x22
	ldp	x7, x3, [sp, #144]
	ldur	x2, [x29, #-56]
	movi	v0.2d, #0000000000000000
	cmp	x2, #30
	stur	xzr, [x29, #-48]
	stp	q0, q0, [x29, #-80]
	b.ne	.LBB92_32
.LBB92_75:
	ldrb	w8, [x1]
	cmp	w8, #42
	b.ne	.LBB92_84
	ldrb	w8, [x1, #29]
	cmp	w8, #59
	b.ne	.LBB92_84
	add	x8, x1, #1
.LBB92_78:
	movi	v0.16b, #223
	ldr	q1, [x8]
	movi	v2.16b, #198
	ldur	q4, [x8, #12]
	movi	v3.16b, #64
	movi	v6.16b, #6
	movi	v7.16b, #10
	movi	v16.16b, #191
	movi	v17.16b, #16
	and	v5.16b, v1.16b, v0.16b
	and	v0.16b, v4.16b, v0.16b
	add	v1.16b, v1.16b, v2.16b
	add	v2.16b, v4.16b, v2.16b
	sub	v4.16b, v3.16b, v5.16b
	sub	v3.16b, v3.16b, v0.16b
	uqsub	v1.16b, v1.16b, v6.16b
	uqsub	v2.16b, v2.16b, v6.16b
	add	v5.16b, v5.16b, v16.16b
	add	v0.16b, v0.16b, v16.16b
	umin	v4.16b, v4.16b, v7.16b
	umin	v3.16b, v3.16b, v7.16b
	add	v1.16b, v1.16b, v17.16b
	add	v2.16b, v2.16b, v17.16b
	add	v4.16b, v5.16b, v4.16b
	add	v0.16b, v0.16b, v3.16b
	umin	v1.16b, v1.16b, v4.16b
	umin	v0.16b, v2.16b, v0.16b
	movi	v2.16b, #15
	orr	v3.16b, v0.16b, v1.16b
	cmhi	v2.16b, v3.16b, v2.16b
	ldr	q3, [x21, :lo12:.LCPI92_0]
	and	v2.16b, v2.16b, v3.16b
	addp	v2.16b, v2.16b, v2.16b
	addp	v2.16b, v2.16b, v2.16b
	addp	v2.16b, v2.16b, v2.16b
	umov	w8, v2.h[0]
	cbnz	w8, .LBB92_84
	xtn	v2.8b, v1.8h
	uzp2	v1.16b, v1.16b, v0.16b
	shl	v2.8b, v2.8b, #4
	orr	v1.8b, v2.8b, v1.8b
	fmov	x8, d1
	rev	x8, x8
	lsr	x9, x8, #59
	cmp	x9, #17
	b.ne	.LBB92_83
	xtn	v1.8b, v0.8h
	mov	w9, #572
	lsr	x11, x8, #46
	and	x9, x9, x8, lsr #54
	uzp2	v0.16b, v0.16b, v0.16b
	adrp	x10, .Lstatic.44
	add	x10, x10, :lo12:.Lstatic.44
	lsr	x12, x8, #24
	and	x13, x11, #0x3fc
	ldr	w9, [x10, x9]
	adrp	x11, .Lstatic.45
	add	x11, x11, :lo12:.Lstatic.45
	shl	v1.8b, v1.8b, #4
	ldr	w13, [x11, x13]
	movi	d2, #0xffffffffffff0000
	eor	w9, w9, w12
	adrp	x14, .Lstatic.43
	add	x14, x14, :lo12:.Lstatic.43
	eor	w9, w9, w13
	ldur	x1, [x29, #-128]
	add	x2, x25, #40
	orr	v0.8b, v1.8b, v0.8b
	lsr	w12, w9, #14
	lsr	w13, w9, #6
	ubfiz	x9, x9, #2, #8
	and	x12, x12, #0x3fc
	and	x13, x13, #0x3fc
	and	v0.8b, v0.8b, v2.8b
	ldr	w12, [x14, x12]
	ldr	w13, [x10, x13]
	ldr	w9, [x11, x9]
	eor	w12, w12, w13
	fmov	x13, d0
	eor	w9, w9, w8
	eor	w12, w12, w9
	lsr	w15, w12, #14
	lsr	w16, w12, #6
	ubfiz	x12, x12, #2, #8
	rev	x13, x13
	orr	x9, x13, x8, lsl #48
	and	x15, x15, #0x3fc
	and	x16, x16, #0x3fc
	ldr	w15, [x14, x15]
	ldr	w16, [x10, x16]
	ldr	w12, [x11, x12]
	lsr	x17, x9, #24
	and	x13, x13, #0xffffff
	eor	w12, w16, w12
	eor	w15, w15, w17
	eor	w12, w15, w12
	lsr	w15, w12, #6
	ubfiz	x16, x12, #2, #8
	lsr	w12, w12, #14
	and	x15, x15, #0x3fc
	ldr	w11, [x11, x16]
	and	x12, x12, #0x3fc
	ldr	w15, [x10, x15]
	ldr	w10, [x14, x12]
	eor	x11, x13, x11
	eor	x11, x15, x11
	cmp	x10, x11
	b.ne	.LBB92_86
	lsr	x10, x8, #16
	extr	x11, x10, x9, #24
	ubfx	x10, x11, #51, #5
	and	x14, x11, #0xffffffffffffff
	cmp	x10, #5
	b.hs	.LBB92_87
	mov	w20, wzr
	mov	x13, xzr
	mov	w24, #2
	b	.LBB92_96
.LBB92_83:
	ldur	x1, [x29, #-128]
	mov	x11, xzr
	mov	w19, #6
	add	x2, x25, #40
	mov	x20, xzr
	b	.LBB92_45
.LBB92_84:
	sub	x0, x29, #80
	mov	x28, x18
	mov	x26, x30
	mov	x24, x6
	bl	"sq_text::reading::read_any"
	ldurb	w8, [x29, #-80]
	ldurb	w19, [x29, #-72]
	cbz	w8, .LBB92_90
	ldp	x4, x5, [x29, #-144]
	mov	x6, x24
	ldp	x7, x3, [sp, #144]
	mov	x30, x26
	ldurb	w9, [x29, #-71]
	ldur	w11, [x29, #-68]
	add	x2, x25, #40
	ldur	x20, [x29, #-64]
	b	.LBB92_44
.LBB92_86:
	mov	x9, xzr
	eor	x11, x11, x10
	mov	w19, #7
	mov	x20, xzr
	b	.LBB92_45
.LBB92_87:
	lsr	x12, x14, #51
	cmp	x12, #8
	b.hi	.LBB92_91
	lsl	x12, x8, #12
	lsr	x13, x8, #11
	lsr	x14, x8, #3
	lsr	x15, x8, #12
	lsr	x9, x9, #41
	ubfx	w20, w8, #10, #1
	and	x12, x12, #0x7f000000
	mov	w24, #1
	bfi	x12, x13, #32, #1
	and	x13, x14, #0x10000
	and	x14, x15, #0x7f00
	b	.LBB92_95
.LBB92_89:
	ldp	x4, x5, [x29, #-144]
	mov	x11, xzr
	ldp	x7, x3, [sp, #144]
	mov	x9, xzr
	mov	w19, #1
	mov	x6, x20
	mov	x20, xzr
	mov	x30, x22
	add	x2, x25, #40
	b	.LBB92_44
.LBB92_90:
	ldurb	w8, [x29, #-64]
	ldp	x14, x13, [x29, #-56]
	ldp	x4, x5, [x29, #-144]
	mov	x6, x24
	ldp	x7, x3, [sp, #144]
	mov	w24, w8
	ldur	w27, [x29, #-68]
	mov	x30, x26
	add	x2, x25, #40
	ldur	w20, [x29, #-60]
	ldur	x1, [x29, #-128]
	mov	x18, x28
	b	.LBB92_97
.LBB92_91:
	cmp	x12, #19
	b.lo	.LBB92_94
	mov	x13, xzr
	mov	w20, wzr
	cmp	x10, #19
	mov	w24, #2
	b.eq	.LBB92_96
	cmp	x12, #22
	b.hi	.LBB92_96
.LBB92_94:
	lsl	x12, x8, #20
	lsr	x13, x8, #11
	lsr	x14, x8, #8
	lsr	x15, x8, #17
	lsr	x9, x9, #41
	ubfx	w20, w8, #10, #1
	and	x12, x12, #0xfff00000000
	mov	w24, wzr
	bfi	x12, x13, #48, #1
	and	x13, x14, #0x10000
	and	x14, x15, #0x300
.LBB92_95:
	orr	x13, x13, x14
	orr	x9, x9, x11, lsl #32
	orr	x11, x12, x13
	orr	x13, x11, x10
	and	x14, x9, #0x1ffff0001ffff
.LBB92_96:
	ubfx	x19, x8, #56, #3
	ubfx	x27, x8, #32, #24
.LBB92_97:
	mov	w10, w27
	ldr	x22, [x25]
	stp	w24, w20, [x29, #-64]
	orr	x8, x19, x10, lsl #32
	stp	x14, x13, [x29, #-56]
	stp	x18, x8, [x29, #-80]
	str	x8, [sp, #120]
	ldrb	w8, [x22, #56]
	cmp	w8, #1
	b.ne	.LBB92_101
	ldr	x8, [x22, #64]
	cmp	x18, x8
	b.hs	.LBB92_101
	mov	w19, #8
	mov	x20, x8
.LBB92_100:
	mov	x11, xzr
	mov	x9, xzr
	b	.LBB92_45
.LBB92_101:
	cmp	w24, #2
	str	x13, [sp, #104]
	b.ne	.LBB92_105
	ldr	x0, [x22, #256]
	ldr	x1, [x22, #8]
	subs	x8, x18, x0
	csel	x8, xzr, x8, lo
	cmp	x8, x1
	b.ls	.LBB92_104
	add	x0, x22, #72
	mov	x2, x18
	mov	x19, x6
	mov	x20, x30
	mov	x21, x18
	bl	"sq_track::tracker::look_through::<#bd73a11ec42be588>"
	ldp	x7, x3, [sp, #144]
	mov	x18, x21
	ldp	x4, x5, [x29, #-144]
	add	x2, x25, #40
	mov	x30, x20
	mov	x6, x19
.LBB92_104:
	mov	w12, #1
	ldr	x20, [sp, #120]
	mov	x8, xzr
	mov	x13, xzr
	mov	w28, wzr
	mov	w26, wzr
	str	x0, [x22, #256]
	mov	w21, #6
	stp	x12, x18, [x22, #56]
	mov	w22, #7864320
	b	.LBB92_190
.LBB92_105:
	ldr	x8, [x22, #8]
	ldr	w13, [x22]
	mov	x26, x18
	ldp	x9, x11, [x22, #136]
	stp	x14, x8, [sp, #72]
	ldp	x8, x12, [x22, #72]
	cmp	x12, x13
	b.hs	.LBB92_115
.LBB92_106:
	ldrb	w28, [x22, #16]
	add	x12, x22, #24
	ldur	x1, [x29, #-128]
	str	x22, [sp, #96]
	cmp	w28, #1
	str	w24, [sp, #92]
	csel	x22, x12, xzr, eq
	cbz	x11, .LBB92_114
	ldr	x12, [sp, #96]
	mov	x13, #31773
	orr	x10, x10, x10, lsl #32
	movk	x13, #32586, lsl #16
	mov	w14, #1
	ldr	x12, [x12, #208]
	movk	x13, #31161, lsl #32
	movk	x13, #40503, lsl #48
	eor	x10, x12, x10
	mul	x12, x10, x13
	umulh	x10, x10, x13
	sub	w13, w11, #1
	sub	x11, x11, #1
	eor	x10, x10, x12
	lsr	x12, x10, #32
	eor	w10, w12, w10
	lsr	w12, w10, #24
	and	w10, w13, w10
	mov	x13, x10
	cmp	w12, #1
	csinc	w12, w12, wzr, hi
	dup	v0.16b, w12
	lsl	w12, w14, w12
.LBB92_108:
	add	x14, x9, x13, lsl #6
	ldr	q2, [x21, :lo12:.LCPI92_0]
	ldr	q1, [x14]
	cmeq	v1.16b, v1.16b, v0.16b
	and	v1.16b, v1.16b, v2.16b
	addp	v1.16b, v1.16b, v1.16b
	addp	v1.16b, v1.16b, v1.16b
	addp	v1.16b, v1.16b, v1.16b
	umov	w15, v1.h[0]
	ands	w15, w15, #0xfff
	b.eq	.LBB92_112
	add	x16, x14, #16
.LBB92_110:
	rbit	w17, w15
	clz	w17, w17
	ldr	w17, [x16, w17, uxtw #2]
	ldr	w18, [x8, x17, lsl #2]
	cmp	w27, w18
	b.eq	.LBB92_126
	sub	w17, w15, #1
	ands	w15, w17, w15
	b.ne	.LBB92_110
.LBB92_112:
	ldr	w14, [x14, #12]
	tst	w14, w12
	b.eq	.LBB92_114
	add	x13, x13, #1
	and	x13, x13, x11
	cmp	x13, x10
	b.ne	.LBB92_108
.LBB92_114:
	ldr	x8, [sp, #96]
	mov	w3, w27
	mov	x21, x6
	mov	x24, x30
	add	x0, x8, #72
	add	x1, x8, #216
	add	x2, x8, #248
	bl	"sq_track::contacts::enter::<#bd73a11ec42be588>"
	ldp	x7, x3, [sp, #144]
	mov	x30, x24
	ldp	x4, x5, [x29, #-144]
	mov	w17, w1
	ldr	w24, [sp, #92]
	ldur	x1, [x29, #-128]
	add	x2, x25, #40
	mov	x6, x21
	b	.LBB92_127
.LBB92_115:
	cbz	x11, .LBB92_123
	mov	x15, #31773
	orr	x13, x10, x10, lsl #32
	ldr	x14, [x22, #208]
	movk	x15, #32586, lsl #16
	mov	w16, #1
	movk	x15, #31161, lsl #32
	eor	x13, x14, x13
	movk	x15, #40503, lsl #48
	mul	x14, x13, x15
	umulh	x13, x13, x15
	sub	w15, w11, #1
	eor	x13, x13, x14
	lsr	x14, x13, #32
	eor	w13, w14, w13
	lsr	w14, w13, #24
	and	w13, w15, w13
	sub	x15, x11, #1
	cmp	w14, #1
	csinc	w14, w14, wzr, hi
	dup	v0.16b, w14
	lsl	w14, w16, w14
	mov	x16, x13
.LBB92_117:
	add	x17, x9, x16, lsl #6
	ldr	q2, [x21, :lo12:.LCPI92_0]
	ldr	q1, [x17]
	cmeq	v1.16b, v1.16b, v0.16b
	and	v1.16b, v1.16b, v2.16b
	addp	v1.16b, v1.16b, v1.16b
	addp	v1.16b, v1.16b, v1.16b
	addp	v1.16b, v1.16b, v1.16b
	umov	w18, v1.h[0]
	ands	w18, w18, #0xfff
	b.eq	.LBB92_121
	add	x0, x17, #16
.LBB92_119:
	rbit	w1, w18
	clz	w1, w1
	ldr	w1, [x0, w1, uxtw #2]
	ldr	w1, [x8, x1, lsl #2]
	cmp	w27, w1
	b.eq	.LBB92_106
	sub	w1, w18, #1
	ands	w18, w1, w18
	b.ne	.LBB92_119
.LBB92_121:
	ldr	w17, [x17, #12]
	tst	w17, w14
	b.eq	.LBB92_123
	add	x16, x16, #1
	and	x16, x16, x15
	cmp	x16, x13
	b.ne	.LBB92_117
.LBB92_123:
	ldr	w13, [x22, #248]
	cmp	x12, x13
	b.ls	.LBB92_125
	mov	w12, #296
	umull	x12, w13, w12
	ldr	x13, [x22, #104]
	ldr	x12, [x13, x12]
	ldr	x13, [sp, #80]
	subs	x12, x26, x12
	csel	x12, xzr, x12, lo
	cmp	x12, x13
	b.hi	.LBB92_106
.LBB92_125:
	ldur	x1, [x29, #-128]
	mov	x20, xzr
	mov	w19, #9
	b	.LBB92_100
.LBB92_126:
	mov	w0, wzr
.LBB92_127:
	tst	w0, #0xff
	b.ne	.LBB92_209
	ldr	x10, [sp, #96]
	mov	w9, #296
	ubfiz	x0, x17, #3, #32
	mov	x18, x26
	and	w12, w20, #0xff
	ldr	x8, [x10, #216]
	ldr	x10, [x10, #104]
	umaddl	x14, w17, w9, x10
	ldr	x1, [x8, x0]
	str	x26, [x14]
	cbz	w24, .LBB92_133
	add	x8, x14, #256
	mov	w9, #1
	cbz	w12, .LBB92_143
	strb	w19, [x14, #216]
	ldrb	w19, [x14, #248]
	ldrb	w10, [x14, #152]
	sub	x11, x29, #80
	stp	x9, x18, [x14, #200]
	cmp	w19, #1
	ldur	w9, [x11, #36]
	ldur	q0, [x11, #20]
	csel	x20, x8, xzr, eq
	add	x8, x14, #160
	cmp	w10, #1
	stp	w27, w24, [x14, #220]
	sub	x24, x29, #80
	csel	x8, x8, xzr, eq
	sturh	wzr, [x14, #217]
	strb	wzr, [x14, #219]
	str	w9, [x14, #244]
	stur	q0, [x14, #228]
	tbz	w10, #0, .LBB92_135
.LBB92_131:
	ldr	x9, [x8]
	ldr	x10, [sp, #80]
	subs	x9, x18, x9
	csel	x9, xzr, x9, lo
	cmp	x9, x10
	b.ls	.LBB92_141
	ldr	x27, [sp, #96]
	mov	w28, wzr
	mov	w16, wzr
	mov	w21, #2
	tbnz	w19, #0, .LBB92_137
	b	.LBB92_169
.LBB92_133:
	add	x8, x14, #112
	mov	w9, #1
	cbz	w12, .LBB92_144
	strb	w19, [x14, #72]
	ldrb	w19, [x14, #104]
	ldrb	w10, [x14, #8]
	sub	x11, x29, #80
	stp	x9, x18, [x14, #56]
	cmp	w19, #1
	ldur	w9, [x11, #36]
	ldur	q0, [x11, #20]
	csel	x20, x8, xzr, eq
	add	x8, x14, #16
	cmp	w10, #1
	stp	w27, w24, [x14, #76]
	sub	x24, x29, #80
	csel	x8, x8, xzr, eq
	sturh	wzr, [x14, #73]
	strb	wzr, [x14, #75]
	str	w9, [x14, #100]
	stur	q0, [x14, #84]
	tbnz	w10, #0, .LBB92_131
.LBB92_135:
	ldr	x27, [sp, #96]
	mov	w21, #2
	tbz	w19, #0, .LBB92_168
.LBB92_136:
	mov	w16, wzr
	mov	w28, wzr
.LBB92_137:
	ldr	x8, [x20]
	ldr	x9, [sp, #80]
	stp	xzr, xzr, [x29, #-32]
	stur	xzr, [x29, #-16]
	subs	x8, x18, x8
	csel	x8, xzr, x8, lo
	cmp	x8, x9
	b.hi	.LBB92_139
	stp	x1, x0, [sp, #48]
	sub	x0, x29, #32
	add	x1, x24, #8
	add	x2, x20, #8
	mov	x19, x6
	mov	x22, x30
	mov	x24, x16
	mov	x26, x18
	str	x20, [sp, #40]
	mov	x20, x17
	str	x14, [sp, #64]
	bl	"sq_message::place::place_local"
	ldp	x0, x14, [sp, #56]
	mov	x17, x20
	ldp	x20, x1, [sp, #40]
	mov	x18, x26
	ldp	x7, x3, [sp, #144]
	mov	x16, x24
	ldp	x4, x5, [x29, #-144]
	add	x2, x25, #40
	ldurb	w8, [x29, #-32]
	mov	x30, x22
	mov	x6, x19
	cbz	w8, .LBB92_150
.LBB92_139:
	ldr	w24, [sp, #92]
.LBB92_140:
	ldp	x13, x10, [x20]
	mov	w19, wzr
	ldp	x9, x11, [x20, #16]
	mov	w22, wzr
	ldr	x8, [x20, #32]
	ldr	x20, [sp, #120]
	mov	w15, wzr
	str	xzr, [sp, #72]
	mov	w12, #1
	str	wzr, [sp, #80]
	cbnz	w24, .LBB92_171
	b	.LBB92_183
.LBB92_141:
	ldrb	w9, [x8, #16]
	stp	xzr, xzr, [x29, #-32]
	stur	xzr, [x29, #-16]
	cmp	w9, #2
	b.ne	.LBB92_145
	mov	w8, wzr
	b	.LBB92_153
.LBB92_143:
	strb	w19, [x14, #168]
	ldrb	w19, [x14, #248]
	ldrb	w10, [x14, #200]
	sub	x11, x29, #80
	stp	x9, x18, [x14, #152]
	cmp	w19, #1
	ldur	w9, [x11, #36]
	ldur	q0, [x11, #20]
	csel	x20, x8, xzr, eq
	add	x8, x14, #208
	cmp	w10, #1
	stp	w27, w24, [x14, #172]
	sub	x24, x29, #80
	csel	x8, x8, xzr, eq
	sturh	wzr, [x14, #169]
	strb	wzr, [x14, #171]
	str	w9, [x14, #196]
	stur	q0, [x14, #180]
	tbnz	w10, #0, .LBB92_131
	b	.LBB92_135
.LBB92_144:
	strb	w19, [x14, #24]
	ldrb	w19, [x14, #104]
	ldrb	w10, [x14, #56]
	sub	x11, x29, #80
	stp	x9, x18, [x14, #8]
	cmp	w19, #1
	ldur	w9, [x11, #36]
	ldur	q0, [x11, #20]
	csel	x20, x8, xzr, eq
	add	x8, x14, #64
	cmp	w10, #1
	stp	w27, w24, [x14, #28]
	sub	x24, x29, #80
	csel	x8, x8, xzr, eq
	sturh	wzr, [x14, #25]
	strb	wzr, [x14, #27]
	str	w9, [x14, #52]
	stur	q0, [x14, #36]
	tbnz	w10, #0, .LBB92_131
	b	.LBB92_135
.LBB92_145:
	ldr	w10, [x8, #12]
	cmp	w10, w27
	b.ne	.LBB92_152
	cbz	w9, .LBB92_165
	ldr	w9, [sp, #92]
	cmp	w9, #1
	b.ne	.LBB92_166
	stp	x0, x14, [sp, #56]
	sub	x0, x29, #32
	add	x2, x24, #20
	str	x1, [sp, #48]
	add	x1, x8, #20
	mov	w3, w28
	mov	x4, x22
	str	x17, [sp, #32]
	mov	x27, x6
	str	x30, [sp, #136]
	bl	"sq_message::place::ground_pair"
	ldurb	w8, [x29, #-32]
	cbz	w8, .LBB92_174
	ldp	x4, x5, [x29, #-144]
	mov	x6, x27
	ldp	x7, x3, [sp, #144]
	add	x2, x25, #40
	ldp	x1, x0, [sp, #48]
	mov	x18, x26
	ldurb	w8, [x29, #-31]
	ldurb	w16, [x29, #-30]
	ldurb	w28, [x29, #-29]
	ldr	x30, [sp, #136]
	ldr	x27, [sp, #96]
	ldr	x17, [sp, #32]
	ldr	x14, [sp, #64]
	b	.LBB92_154
.LBB92_150:
	ldurb	w8, [x29, #-16]
	ldurb	w14, [x29, #-24]
	mov	w9, #23592960
	mov	w10, #60
	ldur	w22, [x29, #-20]
	ldur	w11, [x29, #-12]
	umull	x12, w8, w9
	sub	x9, x10, x14
	mov	x10, #-65536
	mov	w13, w8
	movk	x10, #64816, lsl #16
	ldurb	w15, [x29, #-28]
	mov	x26, x13
	smull	x13, w13, w10
	lsl	x8, x8, #17
	sxtw	x10, w22
	lsl	x9, x9, #17
	mov	w19, w14
	str	x22, [sp, #72]
	mov	w22, w11
	cbz	w15, .LBB92_158
	mov	w14, #90
	str	w15, [sp, #80]
	mov	w28, wzr
	umull	x15, w11, w14
	mov	w16, wzr
	smull	x10, w10, w14
	cmp	x15, x12
	csel	x12, xzr, x13, lo
	umaddl	x11, w11, w14, x12
	mov	x13, x18
	mov	w12, #1
	mov	w21, w12
	b	.LBB92_159
.LBB92_152:
	mov	w8, #1
.LBB92_153:
	ldr	x27, [sp, #96]
	mov	w28, wzr
	mov	w16, wzr
.LBB92_154:
	cmp	w8, #3
	b.le	.LBB92_167
	cmp	w8, #4
	b.eq	.LBB92_160
	cmp	w8, #6
	b.ne	.LBB92_161
	mov	w21, #3
	tbnz	w19, #0, .LBB92_137
	b	.LBB92_169
.LBB92_158:
	mov	w14, #360
	mov	w28, wzr
	mov	w16, wzr
	umull	x15, w11, w14
	mov	w21, #1
	str	wzr, [sp, #80]
	smull	x10, w10, w14
	cmp	x15, x12
	csel	x12, xzr, x13, lo
	umaddl	x11, w11, w14, x12
	mov	x13, x18
	mov	w12, #1
.LBB92_159:
	ldr	x20, [sp, #120]
	ldr	w24, [sp, #92]
	mov	x15, x19
	ldr	x14, [sp, #64]
	mov	x19, x22
	mov	x22, x26
	cbnz	w24, .LBB92_171
	b	.LBB92_183
.LBB92_160:
	ldr	w24, [sp, #92]
	mov	w21, #5
	b	.LBB92_162
.LBB92_161:
	ldr	w24, [sp, #92]
	mov	w21, #4
.LBB92_162:
	tbz	w19, #0, .LBB92_164
	mov	w16, wzr
	mov	w28, wzr
	b	.LBB92_140
.LBB92_164:
	ldr	x20, [sp, #120]
	mov	w28, wzr
	mov	w16, wzr
	b	.LBB92_170
.LBB92_165:
	ldr	w9, [sp, #92]
	cbz	w9, .LBB92_172
.LBB92_166:
	ldr	x27, [sp, #96]
.LBB92_167:
	mov	w21, #2
	tbnz	w19, #0, .LBB92_136
.LBB92_168:
	mov	w28, wzr
	mov	w16, wzr
.LBB92_169:
	ldr	x20, [sp, #120]
	ldr	w24, [sp, #92]
.LBB92_170:
	mov	w19, wzr
	mov	w22, wzr
	str	xzr, [sp, #72]
	mov	w15, wzr
	str	wzr, [sp, #80]
	mov	x13, xzr
	mov	x12, xzr
	mov	x8, xzr
	mov	x11, xzr
	mov	x9, xzr
	mov	x10, xzr
	cbz	w24, .LBB92_183
.LBB92_171:
	stp	x12, x13, [x14, #248]
	stp	x10, x9, [x14, #264]
	stp	x11, x8, [x14, #280]
	b	.LBB92_184
.LBB92_172:
	ldrb	w9, [x8, #20]
	cmp	w9, w12
	b.ne	.LBB92_176
	ldr	x27, [sp, #96]
	mov	w28, wzr
	mov	w16, wzr
	mov	w8, #3
	b	.LBB92_154
.LBB92_174:
	ldurb	w8, [x29, #-28]
	ldurb	w15, [x29, #-24]
	ldur	w24, [x29, #-20]
	ldurb	w22, [x29, #-16]
	ldur	w19, [x29, #-12]
	str	w8, [sp, #80]
	cbz	w8, .LBB92_182
	mov	w8, #90
	mov	w9, #23592960
	mov	x10, #-65536
	umull	x11, w19, w8
	movk	x10, #64816, lsl #16
	mov	w13, #60
	umull	x9, w22, w9
	ldp	x4, x5, [x29, #-144]
	smull	x12, w22, w10
	ldp	x7, x3, [sp, #144]
	smull	x10, w24, w8
	ldp	x1, x0, [sp, #48]
	cmp	x11, x9
	sub	x9, x13, x15
	str	x24, [sp, #72]
	csel	x11, xzr, x12, lo
	lsl	x9, x9, #17
	mov	x6, x27
	umaddl	x11, w19, w8, x11
	lsl	x8, x22, #17
	ldr	x30, [sp, #136]
	ldr	x20, [sp, #120]
	ldr	w24, [sp, #92]
	ldr	x27, [sp, #96]
	ldr	x17, [sp, #32]
	ldr	x14, [sp, #64]
	mov	w21, wzr
	mov	w16, wzr
	mov	w28, wzr
	mov	w12, #1
	mov	x18, x26
	mov	x13, x26
	add	x2, x25, #40
	b	.LBB92_171
.LBB92_176:
	ldp	w9, w8, [x8, #24]
	str	x12, [sp, #16]
	cmp	w12, #0
	ldr	x12, [sp, #72]
	mov	x10, #-60
	mov	w11, #59
	mov	w28, #7733247
	csel	w21, w9, w12, eq
	csel	w9, w12, w9, eq
	stp	x20, x1, [sp, #40]
	mul	x10, x21, x10
	lsr	x22, x12, #32
	stp	x0, x14, [sp, #56]
	mov	x27, x6
	stp	x18, x17, [sp, #24]
	str	x30, [sp, #136]
	umaddl	x10, w9, w11, x10
	add	x10, x10, #1936, lsl #12
	and	x10, x10, #0xfffffffffffe0000
	sub	x26, x10, #1920, lsl #12
	add	x9, x26, x9
	mov	x20, x9
	add	x9, x28, x9, lsl #1
	add	x0, x9, #32, lsl #12
	csel	w9, w22, w8, eq
	csel	w8, w8, w22, eq
	cmp	x0, #3840, lsl #12
	str	w9, [sp, #12]
	str	w8, [sp, #72]
	b.hs	.LBB92_206
	add	x26, x26, x21
	add	x0, x28, x26, lsl #1
	cmp	x0, #3776, lsl #12
	b.hs	.LBB92_207
.LBB92_178:
	mov	w9, #360
	mov	w8, #1
	smull	x0, w20, w9
	movk	w8, #10620, lsl #16
	add	x11, x8, #2880, lsl #12
	cmp	x0, #0
	cneg	x10, x0, mi
	cmp	x10, x11
	b.hs	.LBB92_203
	smull	x28, w26, w9
	cmp	x28, #0
	cneg	x9, x28, mi
	cmp	x9, x8
	b.hs	.LBB92_203
	mov	w1, #7864320
	bl	"sq_zones::zones::zone_count"
	mov	x21, x0
	and	w8, w0, #0xff
	mov	w1, #7733248
	mov	x0, x28
	str	w8, [sp, #8]
	bl	"sq_zones::zones::zone_count"
	ldr	w8, [sp, #8]
	cmp	w8, w0, uxtb
	b.ne	.LBB92_205
	sub	w8, w21, #1
	ldr	w11, [sp, #72]
	and	x10, x21, #0xff
	and	w9, w8, #0xff
	tst	w8, #0xfe
	ldr	x19, [sp, #16]
	csinc	w8, w9, wzr, ne
	ldr	w9, [sp, #12]
	mov	w2, #1
	cmp	w19, #0
	umull	x9, w8, w9
	csel	w24, w20, w26, eq
	umsubl	x9, w10, w11, x9
	mov	x10, #-65536
	movk	x10, #65416, lsl #16
	add	x10, x22, x10
	csel	w22, w21, w8, eq
	add	x9, x9, #1936, lsl #12
	mov	w1, w22
	and	x9, x9, #0xfffffffffffe0000
	add	x0, x10, x9
	bl	"sq_cpr::index::on_circle"
	ldr	x26, [sp, #24]
	mov	x15, x19
	mov	w19, w0
.LBB92_182:
	mov	w9, w22
	mov	w10, #23592960
	mov	w8, #360
	and	x12, x9, #0xff
	umull	x9, w19, w8
	str	x24, [sp, #72]
	umull	x11, w12, w10
	mov	x10, #-65536
	mov	x6, x27
	movk	x10, #64816, lsl #16
	ldp	x4, x5, [x29, #-144]
	smull	x13, w12, w10
	ldp	x7, x3, [sp, #144]
	cmp	x9, x11
	mov	w9, #60
	smull	x10, w24, w8
	sub	w9, w9, w15
	ldp	x1, x0, [sp, #48]
	csel	x11, xzr, x13, lo
	ubfiz	x9, x9, #17, #32
	ldr	x30, [sp, #136]
	umaddl	x11, w19, w8, x11
	lsl	x8, x12, #17
	ldr	x20, [sp, #120]
	ldr	w24, [sp, #92]
	ldr	x27, [sp, #96]
	ldr	x17, [sp, #32]
	ldr	x14, [sp, #64]
	mov	w28, wzr
	mov	w16, wzr
	mov	w21, wzr
	mov	w12, #1
	mov	x18, x26
	mov	x13, x26
	add	x2, x25, #40
	str	wzr, [sp, #80]
	cbnz	w24, .LBB92_171
.LBB92_183:
	stp	x12, x13, [x14, #104]
	stp	x10, x9, [x14, #120]
	stp	x11, x8, [x14, #136]
.LBB92_184:
	lsr	x8, x1, #32
	ldur	w9, [x27, #248]
	mov	x26, x16
	cmp	w9, w8
	b.eq	.LBB92_187
	cmp	w17, w9
	b.eq	.LBB92_187
	ldur	x10, [x27, #216]
	ubfiz	x11, x1, #3, #32
	lsl	x12, x8, #3
	lsl	x13, x9, #3
	add	x11, x10, x11
	str	w8, [x11, #4]
	str	w1, [x10, x12]
	add	x12, x10, x0
	ldr	w8, [x10, x13]
	add	x11, x10, x8, lsl #3
	str	w17, [x11, #4]
	stp	w8, w9, [x12]
	mov	w8, w9
	str	w17, [x10, x13]
.LBB92_187:
	ldr	x0, [x27, #256]
	ldr	x1, [x27, #8]
	str	w8, [x27, #248]
	subs	x9, x18, x0
	csel	x9, xzr, x9, lo
	cmp	x9, x1
	b.ls	.LBB92_189
	add	x0, x27, #72
	mov	x2, x18
	mov	x20, x6
	mov	x24, x30
	str	x19, [sp, #96]
	mov	x19, x18
	str	x22, [sp, #64]
	mov	x22, x27
	mov	x27, x15
	bl	"sq_track::tracker::look_through::<#bd73a11ec42be588>"
	ldp	x7, x3, [sp, #144]
	mov	x15, x27
	ldp	x4, x5, [x29, #-144]
	mov	x27, x22
	ldr	x22, [sp, #64]
	mov	x18, x19
	ldr	x19, [sp, #96]
	mov	x30, x24
	ldr	w24, [sp, #92]
	mov	x6, x20
	ldr	x20, [sp, #120]
	add	x2, x25, #40
.LBB92_189:
	ldr	x9, [sp, #72]
	and	w8, w22, #0xff
	mov	w10, #60
	str	x0, [x27, #256]
	mov	w9, w9
	orr	x13, x9, x8, lsl #32
	sub	w9, w10, w15
	ldr	w10, [sp, #80]
	mov	w8, #1
	ubfiz	x22, x9, #17, #32
	cmp	w10, #0
	stp	x8, x18, [x27, #56]
	mov	w8, w19
	cset	w12, eq
.LBB92_190:
	mov	w17, #1
	ldr	q1, [x25, #16]
	ldr	x10, [x25, #184]
	dup	v0.2d, x17
	ldr	x14, [x25, #200]
	ldr	x16, [sp, #104]
	add	x10, x23, x10
	and	x19, x18, #0xff
	ubfx	x9, x18, #8, #8
	lsr	x14, x14, x23
	ubfx	x15, x16, #32, #16
	and	w16, w16, #0xff
	add	v0.2d, v1.2d, v0.2d
	add	x10, x10, #1
	lsr	x11, x18, #32
	stp	x10, x10, [x25, #176]
	mov	x0, x18
	lsr	x18, x14, #1
	cmp	w16, #19
	lsr	x10, x13, #32
	sxtw	x13, w13
	fmov	x23, d0
	ldur	x1, [x29, #-128]
	and	x14, x0, #0xffff0000
	cset	w16, hi
	str	x18, [x25, #200]
	str	q0, [x25, #16]
	stur	wzr, [x29, #-104]
	sturb	wzr, [x29, #-100]
	stur	wzr, [x29, #-112]
	sturh	wzr, [x29, #-108]
	cbnz	w17, .LBB92_46
.LBB92_191:
	adrp	x8, .LJTI92_0
	add	x8, x8, :lo12:.LJTI92_0
	mov	w10, #1
	adr	x13, .LBB92_192
	ldrb	w14, [x8, x19]
	add	x13, x13, x14, lsl #2
	mov	x12, xzr
	br	x13
.LBB92_192:
	mov	x12, xzr
	mov	w10, #40
	b	.LBB92_202
.LBB92_193:
	mov	w10, #3
	b	.LBB92_201
.LBB92_194:
	mov	x12, xzr
	mov	w10, #43
	b	.LBB92_202
.LBB92_195:
	mov	x12, xzr
	mov	w10, #41
	b	.LBB92_202
.LBB92_196:
	mov	x12, xzr
	mov	w10, #2
	b	.LBB92_202
.LBB92_197:
	mov	w10, #6
	mov	x12, x11
	b	.LBB92_202
.LBB92_198:
	mov	w10, #4
	b	.LBB92_201
.LBB92_199:
	mov	w10, #5
	mov	x12, x9
	b	.LBB92_202
.LBB92_200:
	mov	w10, #42
.LBB92_201:
	mov	x12, x20
.LBB92_202:
	mov	x21, xzr
	mov	x22, xzr
	mov	x26, xzr
	mov	x20, xzr
	mov	w8, wzr
	mov	w15, wzr
	mov	w16, wzr
	mov	x28, xzr
	mov	x9, xzr
	mov	w19, wzr
	mov	w17, wzr
	mov	w27, wzr
	mov	w24, wzr
	sturb	wzr, [x29, #-84]
	stur	wzr, [x29, #-88]
	stur	wzr, [x29, #-80]
	sturh	wzr, [x29, #-76]
	b	.LBB92_10
.LBB92_203:
	ldp	x4, x5, [x29, #-144]
	mov	w28, wzr
	ldp	x7, x3, [sp, #144]
	mov	w16, wzr
	ldr	x30, [sp, #136]
	ldr	x18, [sp, #24]
	mov	w8, #5
	mov	x6, x27
	add	x2, x25, #40
.LBB92_204:
	ldp	x17, x20, [sp, #32]
	ldr	x14, [sp, #64]
	ldp	x1, x0, [sp, #48]
	ldr	x27, [sp, #96]
	b	.LBB92_154
.LBB92_205:
	ldp	x4, x5, [x29, #-144]
	mov	w28, w0
	ldp	x7, x3, [sp, #144]
	mov	w8, #6
	ldr	x30, [sp, #136]
	ldr	x18, [sp, #24]
	mov	x6, x27
	add	x2, x25, #40
	mov	x16, x21
	b	.LBB92_204
.LBB92_206:
	mov	w1, #15728640
	bl	"sq_cpr::index::rare_quotient"
	mov	x8, #-65536
	movk	x8, #65416, lsl #16
	madd	x20, x0, x8, x20
	add	x26, x26, x21
	add	x0, x28, x26, lsl #1
	cmp	x0, #3776, lsl #12
	b.lo	.LBB92_178
.LBB92_207:
	mov	w1, #15466496
	bl	"sq_cpr::index::rare_quotient"
	mov	x8, #-65536
	movk	x8, #65416, lsl #16
	add	x8, x8, #32, lsl #12
	madd	x26, x0, x8, x26
	b	.LBB92_178
.LBB92_208:
	ldr	x10, [sp, #112]
	ldur	w8, [x29, #-120]
	ldur	w9, [x29, #-117]
	stp	x30, x6, [x10]
	strb	wzr, [x10, #16]
	stur	w8, [x10, #17]
	str	w9, [x10, #20]
	b	.LBB92_4
.LBB92_209:
	ldr	x10, [sp, #112]
	add	x8, x1, x30
	ldur	w9, [x29, #-120]
	stp	x8, x6, [x10]
	mov	w8, #2
	b	.LBB92_3
.Lfunc_end92:
	.size	"squitter_c::log_loop::write_some::<#4e49cecb6d0bb978>", .Lfunc_end92-"squitter_c::log_loop::write_some::<#4e49cecb6d0bb978>"
	.section	".rodata.squitter_c::log_loop::write_some::<#4e49cecb6d0bb978>","a",@progbits
.LJTI92_0:
	.byte	(.LBB92_192-.LBB92_192)>>2
	.byte	(.LBB92_195-.LBB92_192)>>2
	.byte	(.LBB92_202-.LBB92_192)>>2
	.byte	(.LBB92_196-.LBB92_192)>>2
	.byte	(.LBB92_193-.LBB92_192)>>2
	.byte	(.LBB92_198-.LBB92_192)>>2
	.byte	(.LBB92_199-.LBB92_192)>>2
	.byte	(.LBB92_197-.LBB92_192)>>2
	.byte	(.LBB92_200-.LBB92_192)>>2
	.byte	(.LBB92_194-.LBB92_192)>>2

	.section	".text.unlikely.sq_text::timed::more_digits","ax",@progbits
	.p2align	2
	.type	"sq_text::timed::more_digits",@function
"sq_text::timed::more_digits":
	mov	x8, x1
	cmp	x1, #19
	mov	w9, #19
	csel	x1, x1, x9, lo
	cmp	x8, x3
	b.ls	.LBB93_3
.LBB93_1:
	ldrb	w8, [x0, x3]
	sub	w8, w8, #48
	cmp	w8, #9
	b.hi	.LBB93_4
	mov	w9, #10
	add	x3, x3, #1
	mul	x9, x2, x9
	cmp	x3, x1
	add	x2, x9, w8, uxtb
	b.lo	.LBB93_1
.LBB93_3:
	mov	x0, x2
	ret
.LBB93_4:
	mov	x1, x3
	mov	x0, x2
	ret
.Lfunc_end93:
	.size	"sq_text::timed::more_digits", .Lfunc_end93-"sq_text::timed::more_digits"

	.section	".text.unlikely.sq_text::timed::split_longest","ax",@progbits
	.p2align	2
	.type	"sq_text::timed::split_longest",@function
"sq_text::timed::split_longest":
	subs	x8, x2, #21
	b.lo	.LBB94_23
	ldrb	w9, [x1, #20]
	cmp	w9, #32
	b.ne	.LBB94_23
	str	x23, [sp, #-48]!
	ldrb	w9, [x1]
	stp	x22, x21, [sp, #16]
	stp	x20, x19, [sp, #32]
	sub	w9, w9, #48
	cmp	w9, #9
	b.hi	.LBB94_24
	ldrb	w10, [x1, #1]
	sub	w13, w10, #48
	cmp	w13, #9
	b.hi	.LBB94_24
	ldrb	w10, [x1, #2]
	sub	w10, w10, #48
	cmp	w10, #9
	b.hi	.LBB94_24
	ldrb	w11, [x1, #3]
	sub	w11, w11, #48
	cmp	w11, #9
	b.hi	.LBB94_24
	ldrb	w12, [x1, #4]
	sub	w12, w12, #48
	cmp	w12, #9
	b.hi	.LBB94_24
	ldrb	w14, [x1, #5]
	sub	w14, w14, #48
	cmp	w14, #9
	b.hi	.LBB94_24
	ldrb	w15, [x1, #6]
	sub	w15, w15, #48
	cmp	w15, #9
	b.hi	.LBB94_24
	ldrb	w16, [x1, #7]
	sub	w16, w16, #48
	cmp	w16, #9
	b.hi	.LBB94_24
	ldrb	w17, [x1, #8]
	sub	w17, w17, #48
	cmp	w17, #9
	b.hi	.LBB94_24
	ldrb	w18, [x1, #9]
	sub	w18, w18, #48
	cmp	w18, #9
	b.hi	.LBB94_24
	ldrb	w2, [x1, #10]
	sub	w2, w2, #48
	cmp	w2, #9
	b.hi	.LBB94_24
	ldrb	w3, [x1, #11]
	sub	w3, w3, #48
	cmp	w3, #9
	b.hi	.LBB94_24
	ldrb	w4, [x1, #12]
	sub	w4, w4, #48
	cmp	w4, #9
	b.hi	.LBB94_24
	ldrb	w5, [x1, #13]
	sub	w5, w5, #48
	cmp	w5, #9
	b.hi	.LBB94_24
	ldrb	w6, [x1, #14]
	sub	w6, w6, #48
	cmp	w6, #9
	b.hi	.LBB94_24
	ldrb	w7, [x1, #15]
	sub	w7, w7, #48
	cmp	w7, #9
	b.hi	.LBB94_24
	ldrb	w19, [x1, #16]
	sub	w19, w19, #48
	cmp	w19, #9
	b.hi	.LBB94_24
	ldrb	w20, [x1, #17]
	sub	w20, w20, #48
	cmp	w20, #9
	b.hi	.LBB94_24
	ldrb	w21, [x1, #18]
	sub	w21, w21, #48
	cmp	w21, #9
	b.hi	.LBB94_24
	ldrb	w22, [x1, #19]
	sub	w22, w22, #48
	cmp	w22, #9
	b.hi	.LBB94_24
	mov	w23, #10
	madd	w9, w9, w23, w13
	and	x9, x9, #0xff
	umull	x9, w9, w23
	add	x9, x9, w10, uxtb
	umull	x9, w9, w23
	add	x9, x9, w11, uxtb
	umull	x9, w9, w23
	add	x9, x9, w12, uxtb
	mul	x9, x9, x23
	add	x9, x9, w14, uxtb
	mul	x9, x9, x23
	add	x9, x9, w15, uxtb
	mul	x9, x9, x23
	add	x9, x9, w16, uxtb
	mul	x9, x9, x23
	add	x9, x9, w17, uxtb
	mul	x9, x9, x23
	add	x9, x9, w18, uxtb
	mul	x9, x9, x23
	add	x9, x9, w2, uxtb
	mul	x9, x9, x23
	add	x9, x9, w3, uxtb
	mul	x9, x9, x23
	add	x9, x9, w4, uxtb
	mul	x9, x9, x23
	add	x9, x9, w5, uxtb
	mul	x9, x9, x23
	add	x9, x9, w6, uxtb
	mul	x9, x9, x23
	add	x9, x9, w7, uxtb
	mul	x9, x9, x23
	add	x9, x9, w19, uxtb
	mul	x9, x9, x23
	add	x9, x9, w20, uxtb
	mul	x9, x9, x23
	add	x9, x9, w21, uxtb
	umulh	x10, x9, x23
	add	x9, x9, x9, lsl #2
	lsl	x9, x9, #1
	adds	x9, x9, w22, uxtb
	cinc	x10, x10, hs
	cmp	x10, #0
	cset	w10, eq
	csel	x9, x9, xzr, eq
	b	.LBB94_25
.LBB94_23:
	movi	v0.2d, #0000000000000000
	stp	q0, q0, [x0]
	ret
.LBB94_24:
	mov	x9, xzr
	mov	w10, wzr
.LBB94_25:
	cmp	w10, #0
	mov	w10, w10
	add	x11, x1, #21
	csel	x9, xzr, x9, eq
	ldp	x20, x19, [sp, #32]
	ldp	x22, x21, [sp, #16]
	stp	x10, x9, [x0]
	csel	x10, xzr, x11, eq
	csel	x8, xzr, x8, eq
	stp	x10, x8, [x0, #16]
	ldr	x23, [sp], #48
	ret
.Lfunc_end94:
	.size	"sq_text::timed::split_longest", .Lfunc_end94-"sq_text::timed::split_longest"

	.section	.rodata.cst16,"aM",@progbits,16
	.p2align	4, 0x0
.LCPI95_0:
	.byte	1
	.byte	2
	.byte	4
	.byte	8
	.byte	16
	.byte	32
	.byte	64
	.byte	128
	.byte	1
	.byte	2
	.byte	4
	.byte	8
	.byte	16
	.byte	32
	.byte	64
	.byte	128
.LCPI95_2:
	.byte	44
	.byte	34
	.byte	109
	.byte	111
	.byte	109
	.byte	101
	.byte	110
	.byte	116
	.byte	34
	.byte	58
	.byte	110
	.byte	117
	.byte	108
	.byte	108
	.byte	44
	.byte	34
.LCPI95_4:
	.byte	34
	.byte	44
	.byte	34
	.byte	97
	.byte	100
	.byte	100
	.byte	114
	.byte	101
	.byte	115
	.byte	115
	.byte	34
	.byte	58
	.byte	110
	.byte	117
	.byte	108
	.byte	108
.LCPI95_5:
	.byte	44
	.byte	34
	.byte	107
	.byte	105
	.byte	110
	.byte	100
	.byte	34
	.byte	58
	.byte	110
	.byte	117
	.byte	108
	.byte	108
	.byte	44
	.byte	34
	.byte	108
	.byte	97
.LCPI95_6:
	.byte	116
	.byte	34
	.byte	58
	.byte	110
	.byte	117
	.byte	108
	.byte	108
	.byte	44
	.byte	34
	.byte	108
	.byte	111
	.byte	110
	.byte	34
	.byte	58
	.byte	110
	.byte	117
.LCPI95_7:
	.byte	108
	.byte	108
	.byte	44
	.byte	34
	.byte	102
	.byte	101
	.byte	101
	.byte	116
	.byte	34
	.byte	58
	.byte	110
	.byte	117
	.byte	108
	.byte	108
	.byte	125
	.byte	10
	.section	.rodata.cst8,"aM",@progbits,8
	.p2align	3, 0x0
.LCPI95_1:
	.byte	123
	.byte	34
	.byte	108
	.byte	105
	.byte	110
	.byte	101
	.byte	34
	.byte	58
.LCPI95_3:
	.byte	97
	.byte	110
	.byte	115
	.byte	119
	.byte	101
	.byte	114
	.byte	34
	.byte	58
.LCPI95_8:
	.byte	44
	.byte	34
	.byte	109
	.byte	111
	.byte	109
	.byte	101
	.byte	110
	.byte	116
.LCPI95_9:
	.byte	44
	.byte	34
	.byte	97
	.byte	110
	.byte	115
	.byte	119
	.byte	101
	.byte	114
.LCPI95_10:
	.byte	34
	.byte	44
	.byte	34
	.byte	97
	.byte	100
	.byte	100
	.byte	114
	.byte	101
.LCPI95_11:
	.byte	115
	.byte	115
	.byte	34
	.byte	58
	.zero	1
	.zero	1
	.zero	1
	.zero	1
.LCPI95_12:
	.byte	34
	.byte	44
	.byte	34
	.byte	107
	.byte	105
	.byte	110
	.byte	100
	.byte	34
.LCPI95_13:
	.byte	44
	.byte	34
	.byte	108
	.byte	97
	.byte	116
	.byte	34
	.byte	58
	.byte	110
.LCPI95_14:
	.byte	117
	.byte	108
	.byte	108
	.byte	44
	.zero	1
	.zero	1
	.zero	1
	.zero	1
.LCPI95_15:
	.byte	108
	.byte	111
	.byte	110
	.byte	34
	.byte	58
	.byte	110
	.byte	117
	.byte	108
.LCPI95_16:
	.byte	44
	.byte	34
	.byte	108
	.byte	97
	.zero	1
	.zero	1
	.zero	1
	.zero	1
.LCPI95_17:
	.byte	44
	.byte	34
	.byte	108
	.byte	111
	.zero	1
	.zero	1
	.zero	1
	.zero	1
.LCPI95_18:
	.byte	44
	.byte	34
	.byte	102
	.byte	101
	.byte	101
	.byte	116
	.byte	34
	.byte	58
.LCPI95_19:
	.byte	110
	.byte	117
	.byte	108
	.byte	108
	.zero	1
	.zero	1
	.zero	1
	.zero	1
.LCPI95_20:
	.byte	110
	.byte	111
	.byte	32
	.byte	112
	.byte	111
	.byte	115
	.byte	105
	.byte	116
.LCPI95_21:
	.byte	105
	.byte	111
	.byte	110
	.byte	32
	.zero	1
	.zero	1
	.zero	1
	.zero	1
.LCPI95_22:
	.byte	110
	.byte	111
	.byte	32
	.byte	115
	.byte	105
	.byte	116
	.byte	101
	.byte	32
.LCPI95_23:
	.byte	102
	.byte	97
	.byte	114
	.byte	32
	.zero	1
	.zero	1
	.zero	1
	.zero	1
.LCPI95_24:
	.byte	115
	.byte	112
	.byte	108
	.byte	105
	.zero	1
	.zero	1
	.zero	1
	.zero	1
.LCPI95_25:
	.byte	119
	.byte	97
	.byte	105
	.byte	116
	.byte	105
	.byte	110
	.byte	103
	.byte	32
.LCPI95_26:
	.byte	102
	.byte	111
	.byte	108
	.byte	108
	.byte	111
	.byte	119
	.byte	101
	.byte	100
.LCPI95_27:
	.byte	102
	.byte	105
	.byte	120
	.byte	32
	.zero	1
	.zero	1
	.zero	1
	.zero	1
	.section	".text.squitter_c::log_loop::write_some::<#507aa2edf0378fed>","ax",@progbits
	.p2align	2
	.type	"squitter_c::log_loop::write_some::<#507aa2edf0378fed>",@function
"squitter_c::log_loop::write_some::<#507aa2edf0378fed>":
	sub	sp, sp, #384
	sub	x8, x6, x7
	stp	x29, x30, [sp, #288]
	add	x29, sp, #288
	stp	x20, x19, [sp, #368]
	mov	x20, x7
	cmp	x8, #512
	stp	x28, x27, [sp, #304]
	stp	x26, x25, [sp, #320]
	stp	x24, x23, [sp, #336]
	stp	x22, x21, [sp, #352]
	stur	x4, [x29, #-128]
	str	x3, [sp, #144]
	str	x0, [sp, #80]
	stur	x6, [x29, #-104]
	stur	wzr, [x29, #-85]
	stur	wzr, [x29, #-88]
	b.lo	.LBB95_329
	sub	x8, x5, x2
	mov	x25, x2
	mov	x26, x1
	sub	x8, x8, #8
	mov	x23, xzr
	stur	x5, [x29, #-112]
	str	x8, [sp, #104]
	add	x8, x5, #16
	stp	x1, x8, [sp, #64]
	b	.LBB95_5
.LBB95_2:
	add	x0, x19, x20
	add	x1, x25, #8
	bl	memmove
.LBB95_3:
	ldr	x8, [x25, #520]
	add	x20, x8, x20
.LBB95_4:
	ldur	x8, [x29, #-104]
	add	x23, x27, x23
	sub	x8, x8, x20
	cmp	x8, #511
	b.ls	.LBB95_330
.LBB95_5:
	ldr	x8, [x26, #200]
	cbz	x8, .LBB95_7
	mov	x27, xzr
	b	.LBB95_10
.LBB95_7:
	ldur	x8, [x29, #-128]
	sub	x27, x8, x23
	cbz	x27, .LBB95_333
	ldr	x8, [x26, #192]
	ldr	x9, [x26, #176]
	add	x10, x26, #40
	add	x10, x10, x8
	subs	x8, x9, x8
	mov	w9, #65
	ldur	q0, [x10, #17]
	ldur	q1, [x10, #1]
	ldur	q2, [x10, #49]
	ldur	q3, [x10, #33]
	csel	x8, xzr, x8, lo
	cmp	x27, #63
	stp	x8, x9, [x26, #176]
	stur	q3, [x26, #73]
	stur	q2, [x26, #89]
	stur	q1, [x26, #41]
	stur	q0, [x26, #57]
	stp	xzr, xzr, [x26, #192]
	b.ls	.LBB95_29
	ldr	x8, [sp, #144]
	movi	v0.16b, #10
	adrp	x9, .LCPI95_0
	ldr	q5, [x9, :lo12:.LCPI95_0]
	mov	w27, #64
	add	x8, x8, x23
	ldp	q2, q1, [x8]
	ldp	q4, q3, [x8, #32]
	str	x27, [x26, #192]
	cmeq	v6.16b, v2.16b, v0.16b
	stur	q2, [x26, #105]
	cmeq	v7.16b, v3.16b, v0.16b
	cmeq	v16.16b, v4.16b, v0.16b
	cmeq	v0.16b, v1.16b, v0.16b
	stur	q4, [x26, #137]
	and	v6.16b, v6.16b, v5.16b
	stur	q3, [x26, #153]
	and	v0.16b, v0.16b, v5.16b
	and	v16.16b, v16.16b, v5.16b
	and	v5.16b, v7.16b, v5.16b
	stur	q1, [x26, #121]
	addp	v0.16b, v6.16b, v0.16b
	addp	v5.16b, v16.16b, v5.16b
	addp	v0.16b, v0.16b, v5.16b
	addp	v0.16b, v0.16b, v0.16b
	fmov	x8, d0
	str	d0, [x26, #200]
	cbz	x8, .LBB95_4
.LBB95_10:
	rbit	x9, x8
	clz	x21, x9
	ldp	x8, x9, [x26, #176]
	sub	x10, x21, x8
	add	x24, x10, x9
	cmp	x24, #64
	b.ls	.LBB95_12
	stur	x20, [x29, #-96]
	mov	x24, xzr
	mov	x28, xzr
	mov	x20, xzr
	mov	x22, xzr
	b	.LBB95_36
.LBB95_12:
	cbz	x24, .LBB95_19
	add	x9, x26, #40
	add	x28, x9, x8
	sub	x8, x24, #1
	ldrb	w9, [x28, x8]
	cmp	w9, #13
	b.ne	.LBB95_15
	mov	x24, x8
	cbz	x8, .LBB95_19
.LBB95_15:
	cmp	x24, #15
	adrp	x19, .LCPI95_0
	stur	x20, [x29, #-96]
	b.ls	.LBB95_30
	movi	v1.16b, #198
	ldr	q0, [x28]
	movi	v2.16b, #246
	add	v1.16b, v0.16b, v1.16b
	cmhi	v1.16b, v2.16b, v1.16b
	ldr	q2, [x19, :lo12:.LCPI95_0]
	and	v1.16b, v1.16b, v2.16b
	addp	v1.16b, v1.16b, v1.16b
	addp	v1.16b, v1.16b, v1.16b
	addp	v1.16b, v1.16b, v1.16b
	umov	w8, v1.h[0]
	orr	w8, w8, #0x10000
	rbit	w8, w8
	clz	w1, w8
	cbz	w1, .LBB95_35
	fmov	x8, d0
	cmp	w1, #8
	b.hi	.LBB95_20
	lsl	x9, x1, #3
	neg	x9, x9
	lsl	x8, x8, x9
	mov	w9, #2561
	and	x8, x8, #0xf0f0f0f0f0f0f0f
	mul	x8, x8, x9
	mov	w9, #1
	movk	w9, #100, lsl #16
	lsr	x8, x8, #8
	and	x8, x8, #0xff00ff00ff00ff
	mul	x8, x8, x9
	mov	x9, #1
	movk	x9, #10000, lsl #32
	lsr	x8, x8, #16
	and	x8, x8, #0xffff0000ffff
	mul	x8, x8, x9
	lsr	x3, x8, #32
	cbnz	x1, .LBB95_22
	b	.LBB95_34
.LBB95_19:
	ldr	x9, [x26, #200]
	ldr	x8, [x26, #184]
	ldr	x10, [x26, #16]
	lsr	x9, x9, x21
	add	x8, x21, x8
	add	x8, x8, #1
	lsr	x9, x9, #1
	stp	x8, x8, [x26, #176]
	add	x8, x10, #1
	str	x8, [x26, #16]
	str	x9, [x26, #200]
	b	.LBB95_4
.LBB95_20:
	sub	x9, x1, #8
	cmp	w1, #16
	lsl	x10, x9, #3
	ldr	x9, [x28, x9]
	neg	x10, x10
	and	x9, x9, #0xf0f0f0f0f0f0f0f
	lsl	x8, x8, x10
	mov	w10, #2561
	mul	x9, x9, x10
	and	x8, x8, #0xf0f0f0f0f0f0f0f
	mul	x8, x8, x10
	mov	w10, #1
	movk	w10, #100, lsl #16
	lsr	x9, x9, #8
	lsr	x8, x8, #8
	and	x9, x9, #0xff00ff00ff00ff
	mul	x9, x9, x10
	and	x8, x8, #0xff00ff00ff00ff
	mul	x8, x8, x10
	mov	x10, #1
	movk	x10, #10000, lsl #32
	lsr	x9, x9, #16
	lsr	x8, x8, #16
	and	x9, x9, #0xffff0000ffff
	mul	x9, x9, x10
	and	x8, x8, #0xffff0000ffff
	mul	x8, x8, x10
	mov	w10, #57600
	movk	w10, #1525, lsl #16
	lsr	x9, x9, #32
	lsr	x8, x8, #32
	umaddl	x3, w8, w10, x9
	b.hs	.LBB95_33
	cbz	x1, .LBB95_34
.LBB95_22:
	cmp	x1, x24
	b.hs	.LBB95_34
	ldrb	w8, [x28, x1]
	cmp	w8, #32
	b.ne	.LBB95_34
	add	x8, x1, #1
	add	x1, x28, x8
	sub	x2, x24, x8
	movi	v0.2d, #0000000000000000
	cmp	x2, #30
	stur	xzr, [x29, #-48]
	stp	q0, q0, [x29, #-80]
	b.eq	.LBB95_170
.LBB95_25:
	subs	x8, x2, #2
	b.lo	.LBB95_179
	ldrb	w10, [x1]
	add	x9, x1, x2
	ldurb	w9, [x9, #-1]
	cmp	w10, #42
	b.ne	.LBB95_31
	cmp	w9, #59
	b.ne	.LBB95_179
	add	x9, x1, #1
	b	.LBB95_32
.LBB95_29:
	ldr	x8, [sp, #144]
	add	x0, x26, #40
	add	x1, x8, x23
	ldur	x8, [x29, #-128]
	sub	x2, x8, x23
	bl	"sq_log::marked_bytes::MarkedBytes::fill_part"
	ldr	x8, [x26, #200]
	cbnz	x8, .LBB95_10
	b	.LBB95_4
.LBB95_30:
	mov	x0, x28
	mov	x1, x24
	mov	x2, xzr
	mov	x3, xzr
	bl	"sq_text::timed::more_digits"
	mov	x3, x0
	cbnz	x1, .LBB95_22
	b	.LBB95_34
.LBB95_31:
	cmp	w9, #59
	mov	x8, x2
	mov	x9, x1
	b.eq	.LBB95_179
.LBB95_32:
	cmp	x8, #28
	csel	x8, x9, xzr, eq
	b.eq	.LBB95_173
	b	.LBB95_179
.LBB95_33:
	mov	x0, x28
	mov	x1, x24
	mov	x2, x3
	mov	w3, #16
	bl	"sq_text::timed::more_digits"
	mov	x3, x0
	cbnz	x1, .LBB95_22
.LBB95_34:
	cmp	x1, #18
	b.hi	.LBB95_168
.LBB95_35:
	mov	x24, xzr
	mov	x20, xzr
	mov	x22, xzr
	mov	w28, #1
.LBB95_36:
	ldr	x10, [x26, #184]
	ldr	x11, [x26, #200]
	mov	x8, xzr
	ldr	x12, [x26, #16]
	mov	w2, wzr
	mov	w13, wzr
	add	x10, x21, x10
	lsr	x11, x11, x21
	mov	w14, wzr
	add	x10, x10, #1
	add	x1, x12, #1
	mov	x5, xzr
	stp	x10, x10, [x26, #176]
	ldr	x10, [x26, #32]
	lsr	x11, x11, #1
	mov	w6, wzr
	mov	w7, wzr
	mov	x18, xzr
	add	x10, x10, #1
	mov	x17, xzr
	mov	x16, xzr
	mov	w9, wzr
	str	x11, [x26, #200]
	mov	w0, #1
	str	x1, [x26, #16]
	mov	w15, #60
	str	x10, [x26, #32]
	ldrb	w11, [x25]
	ldrb	w10, [x25, #1]
	str	xzr, [x25, #520]
	cbz	w9, .LBB95_287
.LBB95_37:
	lsr	x3, x22, #32
	stur	x0, [x29, #-136]
	stur	x27, [x29, #-120]
	cbz	w11, .LBB95_43
	orr	x8, x8, x28
	str	w2, [sp, #140]
	orr	x8, x8, x24, lsl #32
	stp	x16, x14, [sp, #120]
	str	w13, [sp, #96]
	orr	x24, x8, x20, lsl #8
	str	x18, [sp, #112]
	cbz	w10, .LBB95_47
	adrp	x8, .LCPI95_1
	mov	w9, #51712
	add	x28, x25, #8
	ldr	d0, [x8, :lo12:.LCPI95_1]
	movk	w9, #15258, lsl #16
	mov	w8, #8
	cmp	x1, x9
	str	x8, [x25, #520]
	str	d0, [x25, #8]
	b.hs	.LBB95_51
	mov	w8, #16960
	mov	x19, x5
	mov	x27, x3
	movk	w8, #15, lsl #16
	mov	x21, x15
	mov	x20, x17
	cmp	x1, x8
	b.hs	.LBB95_54
	cmp	x1, #999
	b.hi	.LBB95_57
	cmp	x1, #100
	adrp	x9, .Lstatic.22
	add	x9, x9, :lo12:.Lstatic.22
	cset	w8, lo
	cmp	x1, #10
	add	x9, x9, x1, lsl #2
	cinc	x8, x8, lo
	mov	w10, #11
	ldr	w9, [x9, x8]
	eor	x8, x8, x10
	str	w9, [x25, #16]
	b	.LBB95_58
.LBB95_43:
	mov	w8, #51712
	str	x22, [sp, #88]
	movk	w8, #15258, lsl #16
	cmp	x1, x8
	b.hs	.LBB95_52
	mov	w8, #16960
	add	x28, x25, #8
	movk	w8, #15, lsl #16
	cmp	x1, x8
	b.hs	.LBB95_55
	cmp	x1, #999
	b.hi	.LBB95_94
	cmp	x1, #100
	adrp	x9, .Lstatic.22
	add	x9, x9, :lo12:.Lstatic.22
	cset	w8, lo
	cmp	x1, #10
	add	x9, x9, x1, lsl #2
	cinc	x8, x8, lo
	ldr	w9, [x9, x8]
	eor	x20, x8, #0x3
	str	w9, [x28]
	b	.LBB95_95
.LBB95_47:
	mov	w8, #51712
	add	x28, x25, #8
	movk	w8, #15258, lsl #16
	cmp	x1, x8
	b.hs	.LBB95_53
	mov	w8, #16960
	mov	x19, x5
	mov	x27, x3
	movk	w8, #15, lsl #16
	mov	x21, x15
	mov	x20, x17
	cmp	x1, x8
	b.hs	.LBB95_56
	cmp	x1, #999
	b.hi	.LBB95_113
	cmp	x1, #100
	adrp	x9, .Lstatic.22
	add	x9, x9, :lo12:.Lstatic.22
	cset	w8, lo
	cmp	x1, #10
	add	x9, x9, x1, lsl #2
	cinc	x8, x8, lo
	ldr	w9, [x9, x8]
	eor	x8, x8, #0x3
	str	w9, [x28]
	b	.LBB95_114
.LBB95_51:
	add	x0, x25, #8
	mov	x19, x5
	mov	x27, x3
	mov	x21, x15
	mov	x20, x17
	bl	"sq_digits::decimal::push_long::<=512>"
	ldr	x8, [x25, #520]
	b	.LBB95_58
.LBB95_52:
	add	x0, x25, #8
	mov	x20, x17
	mov	x21, x15
	mov	x24, x16
	mov	x28, x18
	mov	x27, x3
	mov	x19, x23
	mov	x23, x5
	mov	x22, x25
	mov	x25, x6
	mov	w26, w7
	bl	"sq_digits::decimal::push_long::<=512>"
	mov	w7, w26
	ldr	x26, [sp, #64]
	mov	x17, x20
	ldr	x20, [x22, #520]
	mov	x6, x25
	mov	x25, x22
	mov	x5, x23
	mov	x23, x19
	mov	x3, x27
	mov	x18, x28
	mov	x16, x24
	mov	x15, x21
	add	x28, x22, #8
	b	.LBB95_95
.LBB95_53:
	add	x0, x25, #8
	mov	x19, x5
	mov	x27, x3
	mov	x21, x15
	mov	x20, x17
	bl	"sq_digits::decimal::push_long::<=512>"
	ldr	x8, [x25, #520]
	b	.LBB95_114
.LBB95_54:
	mov	w9, #19923
	mov	w8, w1
	mov	w10, #56963
	movk	w9, #4194, lsl #16
	movk	w10, #17179, lsl #16
	mov	w11, #57600
	umull	x9, w8, w9
	movk	w11, #1525, lsl #16
	mov	w12, #38528
	umull	x8, w8, w10
	mov	w10, #4719
	cmp	x1, x11
	movk	w10, #131, lsl #16
	movk	w12, #152, lsl #16
	cset	w11, lo
	lsr	x9, x9, #38
	cmp	x1, x12
	mov	w12, #1000
	lsr	x8, x8, #48
	adrp	x13, .Lstatic.22
	add	x13, x13, :lo12:.Lstatic.22
	umull	x10, w9, w10
	cinc	x11, x11, lo
	and	x8, x8, #0x7ffc
	sub	x14, x28, x11
	add	x8, x13, x8
	lsr	x10, x10, #33
	ldr	w8, [x8, x11]
	msub	w10, w10, w12, w9
	str	w8, [x25, #16]
	msub	w9, w9, w12, w1
	add	x10, x13, w10, uxtw #2
	ldrh	w8, [x10]
	sturh	w8, [x14, #11]
	ldrb	w8, [x10, #2]
	strb	w8, [x14, #13]
	mov	w8, #17
	ldr	s0, [x13, w9, uxtw #2]
	sub	x8, x8, x11
	stur	s0, [x14, #14]
	b	.LBB95_58
.LBB95_55:
	mov	w9, #19923
	mov	w8, w1
	mov	w10, #56963
	movk	w9, #4194, lsl #16
	mov	w11, #4719
	movk	w10, #17179, lsl #16
	umull	x9, w8, w9
	movk	w11, #131, lsl #16
	mov	w12, #57600
	umull	x8, w8, w10
	movk	w12, #1525, lsl #16
	mov	w14, #38528
	cmp	x1, x12
	mov	w12, #1000
	movk	w14, #152, lsl #16
	lsr	x9, x9, #38
	cset	w13, lo
	cmp	x1, x14
	lsr	x8, x8, #48
	cinc	x13, x13, lo
	umull	x10, w9, w11
	adrp	x11, .Lstatic.22
	add	x11, x11, :lo12:.Lstatic.22
	and	x8, x8, #0x7ffc
	add	x8, x11, x8
	lsr	x10, x10, #33
	ldr	w8, [x8, x13]
	msub	w10, w10, w12, w9
	str	w8, [x25, #8]
	eor	x8, x13, #0x3
	add	x8, x28, x8
	msub	w9, w9, w12, w1
	add	x10, x11, w10, uxtw #2
	ldrh	w14, [x10]
	strh	w14, [x8]
	mov	w14, #6
	ldrb	w10, [x10, #2]
	sub	x12, x14, x13
	str	x12, [x25, #520]
	strb	w10, [x8, #2]
	mov	w8, #9
	ldr	s0, [x11, w9, uxtw #2]
	sub	x20, x8, x13
	str	s0, [x28, x12]
	b	.LBB95_95
.LBB95_56:
	mov	w9, #19923
	mov	w8, w1
	mov	w10, #56963
	movk	w9, #4194, lsl #16
	movk	w10, #17179, lsl #16
	mov	w11, #57600
	umull	x9, w8, w9
	movk	w11, #1525, lsl #16
	mov	w12, #38528
	umull	x8, w8, w10
	mov	w10, #4719
	cmp	x1, x11
	movk	w10, #131, lsl #16
	movk	w12, #152, lsl #16
	cset	w11, lo
	lsr	x9, x9, #38
	cmp	x1, x12
	mov	w12, #1000
	lsr	x8, x8, #48
	adrp	x13, .Lstatic.22
	add	x13, x13, :lo12:.Lstatic.22
	umull	x10, w9, w10
	cinc	x11, x11, lo
	and	x8, x8, #0x7ffc
	add	x8, x13, x8
	lsr	x10, x10, #33
	ldr	w8, [x8, x11]
	msub	w10, w10, w12, w9
	str	w8, [x28]
	eor	x8, x11, #0x3
	add	x8, x28, x8
	msub	w9, w9, w12, w1
	add	x10, x13, w10, uxtw #2
	ldrh	w14, [x10]
	strh	w14, [x8]
	ldrb	w10, [x10, #2]
	strb	w10, [x8, #2]
	ldr	s0, [x13, w9, uxtw #2]
	mov	w9, #9
	stur	s0, [x8, #3]
	sub	x8, x9, x11
	b	.LBB95_114
.LBB95_57:
	mov	w8, #19923
	mov	w9, w1
	mov	w10, #34464
	movk	w8, #4194, lsl #16
	movk	w10, #1, lsl #16
	mov	w12, #1000
	umull	x8, w9, w8
	lsr	x9, x1, #4
	cmp	x1, x10
	cset	w10, lo
	cmp	x9, #625
	adrp	x9, .Lstatic.22
	add	x9, x9, :lo12:.Lstatic.22
	lsr	x8, x8, #38
	cinc	x10, x10, lo
	add	x11, x9, x8, lsl #2
	msub	w8, w8, w12, w1
	ldr	w11, [x11, x10]
	str	w11, [x25, #16]
	ldr	s0, [x9, w8, uxtw #2]
	sub	x8, x28, x10
	mov	w9, #14
	stur	s0, [x8, #11]
	sub	x8, x9, x10
.LBB95_58:
	adrp	x9, .LCPI95_8
	add	x10, x28, x8
	mov	w11, #14882
	ldr	d0, [x9, :lo12:.LCPI95_8]
	mov	w9, #51712
	add	x8, x8, #10
	movk	w9, #15258, lsl #16
	strh	w11, [x10, #8]
	cmp	x24, x9
	str	d0, [x10]
	str	x8, [x25, #520]
	b.hs	.LBB95_62
	mov	w9, #16960
	movk	w9, #15, lsl #16
	cmp	x24, x9
	b.hs	.LBB95_63
	ldr	w17, [sp, #140]
	cmp	x24, #999
	mov	x18, x20
	b.hi	.LBB95_93
	cmp	x24, #100
	adrp	x10, .Lstatic.22
	add	x10, x10, :lo12:.Lstatic.22
	cset	w9, lo
	cmp	x24, #10
	add	x10, x10, x24, lsl #2
	cinc	x9, x9, lo
	ldr	w10, [x10, x9]
	eor	x9, x9, #0x3
	str	w10, [x28, x8]
	add	x8, x8, x9
	str	x8, [x25, #520]
	b	.LBB95_65
.LBB95_62:
	add	x0, x25, #8
	mov	x1, x24
	bl	"sq_digits::decimal::push_long::<=512>"
	b	.LBB95_64
.LBB95_63:
	mov	w10, #19923
	mov	w9, w24
	mov	w11, #4719
	movk	w10, #4194, lsl #16
	movk	w11, #131, lsl #16
	mov	w12, #56963
	umull	x10, w9, w10
	movk	w12, #17179, lsl #16
	mov	w15, #38528
	umull	x9, w9, w12
	mov	w12, #57600
	movk	w15, #152, lsl #16
	movk	w12, #1525, lsl #16
	adrp	x13, .Lstatic.22
	add	x13, x13, :lo12:.Lstatic.22
	lsr	x10, x10, #38
	cmp	x24, x12
	mov	w12, #1000
	lsr	x9, x9, #48
	cset	w14, lo
	cmp	x24, x15
	umull	x11, w10, w11
	cinc	x14, x14, lo
	and	x9, x9, #0x7ffc
	add	x9, x13, x9
	lsr	x11, x11, #33
	ldr	w9, [x9, x14]
	eor	x14, x14, #0x3
	str	w9, [x28, x8]
	add	x8, x8, x14
	msub	w11, w11, w12, w10
	add	x14, x28, x8
	add	x8, x8, #6
	add	x11, x13, w11, uxtw #2
	ldrh	w9, [x11]
	strh	w9, [x14]
	msub	w9, w10, w12, w24
	ldrb	w10, [x11, #2]
	strb	w10, [x14, #2]
	ldr	s0, [x13, w9, uxtw #2]
	stur	s0, [x14, #3]
	str	x8, [x25, #520]
.LBB95_64:
	ldr	w17, [sp, #140]
	mov	x18, x20
.LBB95_65:
	ldr	x10, [x25, #520]
	adrp	x8, ".Lswitch.table.squitter_c::log_loop::write_some::<#507aa2edf0378fed>.354"
	add	x8, x8, :lo12:".Lswitch.table.squitter_c::log_loop::write_some::<#507aa2edf0378fed>.354"
	adrp	x9, .LCPI95_9
	ldr	x8, [x8, x19, lsl #3]
	mov	w12, #14882
	ldr	d0, [x9, :lo12:.LCPI95_9]
	adrp	x9, ".Lswitch.table.squitter_c::log_loop::write_some::<#507aa2edf0378fed>.355"
	add	x9, x9, :lo12:".Lswitch.table.squitter_c::log_loop::write_some::<#507aa2edf0378fed>.355"
	add	x11, x28, x10
	ldr	x9, [x9, x19, lsl #3]
	add	x10, x10, #11
	strh	w12, [x11, #8]
	mov	w12, #34
	mov	x14, x21
	str	d0, [x11]
	strb	w12, [x11, #10]
	add	x11, x28, x10
	mov	x12, x8
.LBB95_66:
	ldrb	w13, [x9], #1
	subs	x12, x12, #1
	strb	w13, [x11], #1
	b.ne	.LBB95_66
	adrp	x9, .LCPI95_10
	add	x10, x10, x8
	adrp	x8, .LCPI95_11
	ldr	d0, [x9, :lo12:.LCPI95_10]
	add	x11, x28, x10
	mov	w9, #34
	strb	w9, [x11, #12]
	adrp	x9, .Lstatic.67
	add	x9, x9, :lo12:.Lstatic.67
	str	d0, [x11]
	ldr	d0, [x8, :lo12:.LCPI95_11]
	lsr	x8, x22, #47
	lsr	x12, x22, #39
	ubfiz	x13, x27, #1, #8
	and	x8, x8, #0x1fe
	str	s0, [x11, #8]
	ldrh	w8, [x9, x8]
	and	x12, x12, #0x1fe
	sturh	w8, [x11, #13]
	add	x8, x10, #15
	add	x10, x10, #29
	str	x8, [x25, #520]
	ldrh	w12, [x9, x12]
	strh	w12, [x28, x8]
	adrp	x8, .LCPI95_12
	mov	w12, #8762
	ldrh	w9, [x9, x13]
	ldr	d0, [x8, :lo12:.LCPI95_12]
	adrp	x8, ".Lswitch.table.squitter_c::log_loop::write_some::<#507aa2edf0378fed>.356"
	add	x8, x8, :lo12:".Lswitch.table.squitter_c::log_loop::write_some::<#507aa2edf0378fed>.356"
	sturh	w9, [x11, #17]
	adrp	x9, ".Lswitch.table.squitter_c::log_loop::write_some::<#507aa2edf0378fed>.357"
	add	x9, x9, :lo12:".Lswitch.table.squitter_c::log_loop::write_some::<#507aa2edf0378fed>.357"
	stur	d0, [x11, #19]
	ldr	x8, [x8, w17, uxtw #3]
	ldr	x9, [x9, w17, uxtw #3]
	sturh	w12, [x11, #27]
	add	x11, x28, x10
	mov	x12, x8
.LBB95_68:
	ldrb	w13, [x9], #1
	subs	x12, x12, #1
	strb	w13, [x11], #1
	b.ne	.LBB95_68
	add	x20, x8, x10
	ldur	x27, [x29, #-120]
	mov	w10, #34
	add	x8, x28, x20
	cmp	x19, #2
	add	x9, x20, #1
	strb	w10, [x8]
	b.hs	.LBB95_72
	mov	w10, #23592960
	ldur	x12, [x29, #-136]
	umull	x11, w18, w10
	mov	x10, #-65536
	movk	x10, #64816, lsl #16
	smull	x10, w18, w10
	cbz	w12, .LBB95_74
	mov	w12, #360
	b	.LBB95_75
.LBB95_72:
	adrp	x11, .LCPI95_13
	adrp	x12, .LCPI95_14
	strb	w10, [x8, #13]
	ldr	d0, [x11, :lo12:.LCPI95_13]
	ldr	d1, [x12, :lo12:.LCPI95_14]
	adrp	x10, .LCPI95_15
	str	d0, [x28, x9]
	add	x9, x20, #14
	ldr	d0, [x10, :lo12:.LCPI95_15]
	mov	w10, #108
	ldur	x19, [x29, #-112]
	ldr	x18, [sp, #128]
	stur	s1, [x8, #9]
	str	x9, [x25, #520]
	str	d0, [x28, x9]
	add	x9, x20, #23
	strb	w10, [x8, #22]
	ldur	x20, [x29, #-96]
	adrp	x8, .LCPI95_18
	cbz	w17, .LBB95_85
.LBB95_73:
	ldr	d0, [x8, :lo12:.LCPI95_18]
	adrp	x10, .LCPI95_19
	add	x8, x9, #8
	str	d0, [x28, x9]
	ldr	d0, [x10, :lo12:.LCPI95_19]
	str	x8, [x25, #520]
	str	s0, [x28, x8]
	b	.LBB95_87
.LBB95_74:
	mov	w12, #90
.LBB95_75:
	ldp	x16, x15, [sp, #112]
	adrp	x21, .Lstatic.40
	add	x21, x21, :lo12:.Lstatic.40
	umull	x13, w15, w12
	smull	x22, w16, w12
	cmp	x13, x11
	mov	w11, #11520
	csel	x10, xzr, x10, lo
	cmp	x22, #0
	umaddl	x19, w15, w12, x10
	cneg	x10, x22, mi
	movk	w11, #305, lsl #16
	mul	x12, x10, x11
	umulh	x10, x10, x11
	adrp	x11, .LCPI95_16
	ldr	d0, [x11, :lo12:.LCPI95_16]
	str	s0, [x28, x9]
	adds	x0, x12, x14, lsl #17
	mov	w12, #8820
	sturh	w12, [x8, #5]
	mov	w12, #58
	cinc	x1, x10, hs
	adc	x10, x0, x10
	strb	w12, [x8, #7]
	extr	x10, x1, x10, #56
	cbnz	x10, .LBB95_184
	lsl	x8, x14, #4
	lsr	x9, x0, #17
	ldr	x8, [x21, x8]
	mul	x10, x8, x9
	umulh	x8, x8, x9
	extr	x0, x8, x10, #48
	add	x8, x20, #8
	tbz	x22, #63, .LBB95_79
.LBB95_77:
	cbz	x0, .LBB95_79
	mov	w9, #45
	strb	w9, [x28, x8]
	add	x8, x20, #9
.LBB95_79:
	mov	x22, #17085
	mov	w10, #38528
	mov	w11, #19923
	movk	x22, #58746, lsl #16
	movk	w10, #152, lsl #16
	movk	w11, #4194, lsl #16
	movk	x22, #38101, lsl #32
	mov	w13, #8389
	mov	w15, #57600
	movk	x22, #54975, lsl #48
	movk	w15, #1525, lsl #16
	adrp	x20, .Lstatic.22
	add	x20, x20, :lo12:.Lstatic.22
	umulh	x9, x0, x22
	lsr	x9, x9, #23
	msub	w10, w9, w10, w0
	add	x9, x20, x9, lsl #2
	umull	x11, w10, w11
	lsr	x11, x11, #38
	ubfx	w12, w11, #3, #13
	mul	w12, w12, w13
	mov	w13, #51712
	movk	w13, #15258, lsl #16
	cmp	x0, x13
	mov	w13, #56963
	movk	w13, #17179, lsl #16
	cset	w14, lo
	cmp	x0, x15
	umull	x13, w10, w13
	lsr	w12, w12, #20
	mov	w15, #1000
	cinc	x14, x14, lo
	msub	w10, w11, w15, w10
	cmp	x19, #0
	eor	x16, x14, #0x3
	msub	w12, w12, w15, w11
	ldr	w9, [x9, x14]
	add	x24, x8, x16
	lsr	x13, x13, #50
	str	w9, [x28, x8]
	mov	w8, #46
	add	x9, x28, x24
	cneg	x11, x19, mi
	strb	w8, [x9]
	orr	w8, w13, #0x30
	add	x12, x20, w12, uxth #2
	strb	w8, [x9, #1]
	add	x10, x20, w10, uxtw #2
	mov	w14, #58
	ldrh	w8, [x12]
	strh	w8, [x9, #2]
	mov	w8, #11520
	movk	w8, #305, lsl #16
	ldrb	w12, [x12, #2]
	mul	x13, x11, x8
	strb	w12, [x9, #4]
	adrp	x12, .LCPI95_17
	umulh	x8, x11, x8
	ldrh	w11, [x10]
	ldr	d0, [x12, :lo12:.LCPI95_17]
	lsl	x12, x18, #17
	sturh	w11, [x9, #5]
	mov	w11, #8814
	ldrb	w10, [x10, #2]
	adds	x0, x13, x12
	str	s0, [x9, #8]
	strh	w11, [x9, #12]
	cinc	x1, x8, hs
	cmp	x18, #63
	strb	w10, [x9, #7]
	strb	w14, [x9, #14]
	b.hi	.LBB95_185
	extr	x8, x1, x0, #56
	cbnz	x8, .LBB95_185
	lsl	x8, x18, #4
	lsr	x9, x0, #17
	ldr	x8, [x21, x8]
	mul	x10, x8, x9
	umulh	x8, x8, x9
	extr	x0, x8, x10, #48
	ldr	x18, [sp, #128]
	add	x8, x24, #15
	tbz	x19, #63, .LBB95_84
.LBB95_82:
	cbz	x0, .LBB95_84
	mov	w9, #45
	strb	w9, [x28, x8]
	add	x8, x24, #16
	str	x8, [x25, #520]
.LBB95_84:
	umulh	x9, x0, x22
	mov	w10, #38528
	mov	w11, #19923
	movk	w10, #152, lsl #16
	movk	w11, #4194, lsl #16
	mov	w13, #8389
	mov	w14, #56963
	mov	w15, #57600
	ldur	x19, [x29, #-112]
	movk	w14, #17179, lsl #16
	movk	w15, #1525, lsl #16
	lsr	x9, x9, #23
	msub	w10, w9, w10, w0
	add	x9, x20, x9, lsl #2
	umull	x11, w10, w11
	umull	x14, w10, w14
	lsr	x11, x11, #38
	lsr	x14, x14, #50
	ubfx	w12, w11, #3, #13
	mul	w12, w12, w13
	mov	w13, #51712
	movk	w13, #15258, lsl #16
	cmp	x0, x13
	cset	w13, lo
	cmp	x0, x15
	lsr	w12, w12, #20
	cinc	x13, x13, lo
	mov	w15, #1000
	eor	x16, x13, #0x3
	msub	w12, w12, w15, w11
	ldr	w9, [x9, x13]
	add	x13, x8, x16
	str	w9, [x28, x8]
	mov	w9, #46
	add	x8, x28, x13
	msub	w10, w11, w15, w10
	strb	w9, [x8]
	orr	w9, w14, #0x30
	add	x12, x20, w12, uxth #2
	strb	w9, [x8, #1]
	ldrh	w9, [x12]
	add	x10, x20, w10, uxtw #2
	strh	w9, [x8, #2]
	ldrb	w9, [x12, #2]
	strb	w9, [x8, #4]
	ldrh	w9, [x10]
	sturh	w9, [x8, #5]
	ldrb	w9, [x10, #2]
	strb	w9, [x8, #7]
	add	x9, x13, #8
	ldur	x20, [x29, #-96]
	adrp	x8, .LCPI95_18
	cbnz	w17, .LBB95_73
.LBB95_85:
	ldr	d0, [x8, :lo12:.LCPI95_18]
	ldr	w8, [sp, #96]
	tst	w18, #0x10
	csinc	w10, w8, wzr, ne
	add	x8, x28, x9
	str	d0, [x8]
	tbz	w10, #0, .LBB95_89
	adrp	x10, .LCPI95_19
	ldr	d0, [x10, :lo12:.LCPI95_19]
	str	s0, [x8, #8]
.LBB95_87:
	add	x8, x9, #12
.LBB95_88:
	add	x2, x8, #2
	mov	w9, #2685
	strh	w9, [x28, x8]
	str	x2, [x25, #520]
	b	.LBB95_310
.LBB95_89:
	ubfx	w8, w18, #5, #11
	and	w10, w18, #0xf
	mov	w11, #1000
	orr	w8, w10, w8, lsl #4
	mov	w10, #25
	mul	w10, w8, w10
	subs	w12, w10, #1000
	sub	w10, w11, w10
	csel	w10, w12, w10, pl
	cmp	w8, #39
	add	x8, x9, #8
	b.hi	.LBB95_91
	mov	w11, #45
	strb	w11, [x28, x8]
	add	x8, x9, #9
.LBB95_91:
	cmp	w10, #999
	b.hi	.LBB95_112
	cmp	w10, #100
	adrp	x11, .Lstatic.22
	add	x11, x11, :lo12:.Lstatic.22
	cset	w9, lo
	cmp	w10, #10
	add	x10, x11, w10, uxtw #2
	cinc	x9, x9, lo
	ldr	w10, [x10, x9]
	eor	x9, x9, #0x3
	str	w10, [x28, x8]
	add	x8, x8, x9
	b	.LBB95_88
.LBB95_93:
	mov	w9, #19923
	mov	w10, w24
	adrp	x11, .Lstatic.22
	add	x11, x11, :lo12:.Lstatic.22
	movk	w9, #4194, lsl #16
	mov	w12, #1000
	umull	x9, w10, w9
	mov	w10, #34464
	movk	w10, #1, lsl #16
	cmp	x24, x10
	lsr	x10, x24, #4
	lsr	x9, x9, #38
	cset	w13, lo
	cmp	x10, #625
	add	x10, x11, x9, lsl #2
	msub	w9, w9, w12, w24
	cinc	x12, x13, lo
	ldr	w10, [x10, x12]
	eor	x12, x12, #0x3
	str	w10, [x28, x8]
	add	x8, x8, x12
	ldr	s0, [x11, w9, uxtw #2]
	add	x9, x8, #3
	str	s0, [x28, x8]
	str	x9, [x25, #520]
	b	.LBB95_65
.LBB95_94:
	mov	w8, #19923
	mov	w9, w1
	mov	w10, #34464
	movk	w8, #4194, lsl #16
	movk	w10, #1, lsl #16
	mov	w12, #1000
	umull	x8, w9, w8
	lsr	x9, x1, #4
	cmp	x1, x10
	cset	w10, lo
	cmp	x9, #625
	adrp	x9, .Lstatic.22
	add	x9, x9, :lo12:.Lstatic.22
	lsr	x8, x8, #38
	cinc	x10, x10, lo
	add	x11, x9, x8, lsl #2
	msub	w8, w8, w12, w1
	ldr	w11, [x11, x10]
	str	w11, [x28]
	eor	x11, x10, #0x3
	ldr	s0, [x9, w8, uxtw #2]
	mov	w8, #6
	str	s0, [x28, x11]
	sub	x20, x8, x10
.LBB95_95:
	mov	w8, #32
	strb	w8, [x28, x20]
	cmp	x5, #2
	add	x8, x20, #1
	str	x8, [x25, #520]
	add	x8, x28, x8
	b.le	.LBB95_99
	ldur	x27, [x29, #-120]
	cmp	x5, #4
	b.gt	.LBB95_103
	ldr	x19, [sp, #88]
	cmp	x5, #3
	b.ne	.LBB95_109
	adrp	x9, .LCPI95_24
	lsr	x11, x19, #47
	mov	w10, #8308
	ldr	d0, [x9, :lo12:.LCPI95_24]
	adrp	x9, .Lstatic.67
	add	x9, x9, :lo12:.Lstatic.67
	strh	w10, [x8, #4]
	and	x10, x11, #0x1fe
	lsr	x11, x19, #39
	str	s0, [x8]
	ubfiz	x12, x3, #1, #8
	and	w15, w7, #0xff
	ldrh	w10, [x9, x10]
	and	x11, x11, #0x1fe
	strh	w10, [x8, #6]
	and	w10, w6, #0xff
	ldrh	w11, [x9, x11]
	cmp	w10, #100
	cset	w13, lo
	cmp	w10, #10
	mov	w10, #32
	strh	w11, [x8, #8]
	cinc	x13, x13, lo
	add	x11, x20, #14
	ldrh	w9, [x9, x12]
	adrp	x12, .Lstatic.22
	add	x12, x12, :lo12:.Lstatic.22
	add	x14, x12, w6, uxtb #2
	strb	w10, [x8, #12]
	cmp	w15, #100
	strh	w9, [x8, #10]
	eor	x8, x13, #0x3
	add	x12, x12, w7, uxtb #2
	cset	w9, lo
	ldr	w13, [x14, x13]
	cmp	w15, #10
	add	x8, x11, x8
	str	w13, [x28, x11]
	cinc	x9, x9, lo
	strb	w10, [x28, x8]
	add	x8, x8, #1
	ldr	w10, [x12, x9]
	eor	x9, x9, #0x3
	str	w10, [x28, x8]
	add	x8, x8, x9
	b	.LBB95_111
.LBB95_99:
	ldur	x27, [x29, #-120]
	cbz	x5, .LBB95_105
	ldr	x19, [sp, #88]
	cmp	x5, #1
	b.ne	.LBB95_107
	adrp	x9, .LCPI95_26
	mov	w10, #32
	adrp	x11, .Lstatic.67
	add	x11, x11, :lo12:.Lstatic.67
	ldr	d0, [x9, :lo12:.LCPI95_26]
	lsr	x9, x19, #47
	strb	w10, [x8, #8]
	lsr	x10, x19, #39
	ubfiz	x12, x3, #1, #8
	str	d0, [x8]
	and	x9, x9, #0x1fe
	ldrh	w9, [x11, x9]
	sturh	w9, [x8, #9]
	and	x9, x10, #0x1fe
	mov	w10, #23592960
	ldrh	w9, [x11, x9]
	umull	x10, w17, w10
	sturh	w9, [x8, #11]
	mov	x9, #-65536
	ldrh	w11, [x11, x12]
	movk	x9, #64816, lsl #16
	smull	x9, w17, w9
	sturh	w11, [x8, #13]
	ldur	x8, [x29, #-136]
	cbz	w8, .LBB95_155
	mov	w8, #360
	b	.LBB95_156
.LBB95_103:
	ldr	x19, [sp, #88]
	cmp	x5, #5
	b.ne	.LBB95_110
	adrp	x9, .LCPI95_22
	ldr	d0, [x9, :lo12:.LCPI95_22]
	b	.LBB95_108
.LBB95_105:
	ldr	x19, [sp, #88]
	adrp	x9, .LCPI95_27
	adrp	x11, .Lstatic.67
	add	x11, x11, :lo12:.Lstatic.67
	ldr	d0, [x9, :lo12:.LCPI95_27]
	ubfiz	x12, x3, #1, #8
	lsr	x9, x19, #47
	lsr	x10, x19, #39
	str	s0, [x8]
	and	x9, x9, #0x1fe
	ldrh	w9, [x11, x9]
	strh	w9, [x8, #4]
	and	x9, x10, #0x1fe
	mov	w10, #23592960
	ldrh	w9, [x11, x9]
	umull	x10, w17, w10
	strh	w9, [x8, #6]
	mov	x9, #-65536
	ldrh	w11, [x11, x12]
	movk	x9, #64816, lsl #16
	smull	x9, w17, w9
	strh	w11, [x8, #8]
	ldur	x8, [x29, #-136]
	cbz	w8, .LBB95_148
	mov	w8, #360
	b	.LBB95_149
.LBB95_107:
	adrp	x9, .LCPI95_25
	ldr	d0, [x9, :lo12:.LCPI95_25]
.LBB95_108:
	lsr	x9, x19, #47
	str	d0, [x8]
	adrp	x10, .Lstatic.67
	add	x10, x10, :lo12:.Lstatic.67
	lsr	x11, x19, #39
	and	x9, x9, #0x1fe
	ldrh	w9, [x10, x9]
	strh	w9, [x8, #8]
	and	x9, x11, #0x1fe
	ubfiz	x11, x3, #1, #8
	ldrh	w9, [x10, x9]
	strh	w9, [x8, #10]
	ldrh	w9, [x10, x11]
	strh	w9, [x8, #12]
	add	x8, x20, #15
	b	.LBB95_111
.LBB95_109:
	adrp	x9, .LCPI95_23
	adrp	x10, .Lstatic.67
	add	x10, x10, :lo12:.Lstatic.67
	ldr	d0, [x9, :lo12:.LCPI95_23]
	lsr	x9, x19, #47
	lsr	x11, x19, #39
	str	s0, [x8]
	and	x9, x9, #0x1fe
	ldrh	w9, [x10, x9]
	strh	w9, [x8, #4]
	and	x9, x11, #0x1fe
	ubfiz	x11, x3, #1, #8
	ldrh	w9, [x10, x9]
	strh	w9, [x8, #6]
	ldrh	w9, [x10, x11]
	strh	w9, [x8, #8]
	add	x8, x20, #11
	b	.LBB95_111
.LBB95_110:
	adrp	x9, .LCPI95_20
	adrp	x10, .LCPI95_21
	lsr	x11, x19, #39
	ldr	d0, [x9, :lo12:.LCPI95_20]
	ldr	d1, [x10, :lo12:.LCPI95_21]
	lsr	x9, x19, #47
	adrp	x10, .Lstatic.67
	add	x10, x10, :lo12:.Lstatic.67
	str	d0, [x8]
	and	x9, x9, #0x1fe
	str	s1, [x8, #8]
	ldrh	w9, [x10, x9]
	strh	w9, [x8, #12]
	and	x9, x11, #0x1fe
	ubfiz	x11, x3, #1, #8
	ldrh	w9, [x10, x9]
	strh	w9, [x8, #14]
	ldrh	w9, [x10, x11]
	strh	w9, [x8, #16]
	add	x8, x20, #19
.LBB95_111:
	ldur	x19, [x29, #-112]
	b	.LBB95_166
.LBB95_112:
	mov	w9, #19923
	lsr	w11, w10, #5
	adrp	x13, .Lstatic.22
	add	x13, x13, :lo12:.Lstatic.22
	movk	w9, #4194, lsl #16
	mov	w14, #1000
	umull	x9, w10, w9
	cmp	w11, #3125
	lsr	w11, w10, #4
	cset	w12, lo
	cmp	w11, #625
	lsr	x9, x9, #38
	add	x11, x13, x9, lsl #2
	msub	w9, w9, w14, w10
	cinc	x10, x12, lo
	ldr	w11, [x11, x10]
	eor	x10, x10, #0x3
	str	w11, [x28, x8]
	add	x8, x8, x10
	ldr	s0, [x13, w9, uxtw #2]
	str	s0, [x28, x8]
	add	x8, x8, #3
	b	.LBB95_88
.LBB95_113:
	mov	w8, #19923
	mov	w9, w1
	mov	w10, #34464
	movk	w8, #4194, lsl #16
	movk	w10, #1, lsl #16
	mov	w12, #1000
	umull	x8, w9, w8
	lsr	x9, x1, #4
	cmp	x1, x10
	cset	w10, lo
	cmp	x9, #625
	adrp	x9, .Lstatic.22
	add	x9, x9, :lo12:.Lstatic.22
	lsr	x8, x8, #38
	cinc	x10, x10, lo
	add	x11, x9, x8, lsl #2
	msub	w8, w8, w12, w1
	ldr	w11, [x11, x10]
	str	w11, [x28]
	eor	x11, x10, #0x3
	ldr	s0, [x9, w8, uxtw #2]
	mov	w8, #6
	str	s0, [x28, x11]
	sub	x8, x8, x10
.LBB95_114:
	mov	w9, #44
	strb	w9, [x28, x8]
	add	x8, x8, #1
	mov	w9, #51712
	str	x8, [x25, #520]
	movk	w9, #15258, lsl #16
	cmp	x24, x9
	b.hs	.LBB95_118
	mov	w9, #16960
	movk	w9, #15, lsl #16
	cmp	x24, x9
	b.hs	.LBB95_119
	ldr	w17, [sp, #140]
	cmp	x24, #999
	mov	x18, x20
	b.hi	.LBB95_147
	cmp	x24, #100
	adrp	x10, .Lstatic.22
	add	x10, x10, :lo12:.Lstatic.22
	cset	w9, lo
	cmp	x24, #10
	add	x10, x10, x24, lsl #2
	cinc	x9, x9, lo
	ldr	w10, [x10, x9]
	eor	x9, x9, #0x3
	str	w10, [x28, x8]
	add	x8, x8, x9
	str	x8, [x25, #520]
	b	.LBB95_121
.LBB95_118:
	add	x0, x25, #8
	mov	x1, x24
	bl	"sq_digits::decimal::push_long::<=512>"
	b	.LBB95_120
.LBB95_119:
	mov	w10, #19923
	mov	w9, w24
	mov	w11, #4719
	movk	w10, #4194, lsl #16
	movk	w11, #131, lsl #16
	mov	w12, #56963
	umull	x10, w9, w10
	movk	w12, #17179, lsl #16
	mov	w15, #38528
	umull	x9, w9, w12
	mov	w12, #57600
	movk	w15, #152, lsl #16
	movk	w12, #1525, lsl #16
	adrp	x13, .Lstatic.22
	add	x13, x13, :lo12:.Lstatic.22
	lsr	x10, x10, #38
	cmp	x24, x12
	mov	w12, #1000
	lsr	x9, x9, #48
	cset	w14, lo
	cmp	x24, x15
	umull	x11, w10, w11
	cinc	x14, x14, lo
	and	x9, x9, #0x7ffc
	add	x9, x13, x9
	lsr	x11, x11, #33
	ldr	w9, [x9, x14]
	eor	x14, x14, #0x3
	str	w9, [x28, x8]
	add	x8, x8, x14
	msub	w11, w11, w12, w10
	add	x14, x28, x8
	add	x8, x8, #6
	add	x11, x13, w11, uxtw #2
	ldrh	w9, [x11]
	strh	w9, [x14]
	msub	w9, w10, w12, w24
	ldrb	w10, [x11, #2]
	strb	w10, [x14, #2]
	ldr	s0, [x13, w9, uxtw #2]
	stur	s0, [x14, #3]
	str	x8, [x25, #520]
.LBB95_120:
	ldr	w17, [sp, #140]
	mov	x18, x20
.LBB95_121:
	adrp	x8, ".Lswitch.table.squitter_c::log_loop::write_some::<#507aa2edf0378fed>.354"
	add	x8, x8, :lo12:".Lswitch.table.squitter_c::log_loop::write_some::<#507aa2edf0378fed>.354"
	ldr	x11, [x25, #520]
	ldr	x8, [x8, x19, lsl #3]
	adrp	x9, ".Lswitch.table.squitter_c::log_loop::write_some::<#507aa2edf0378fed>.355"
	add	x9, x9, :lo12:".Lswitch.table.squitter_c::log_loop::write_some::<#507aa2edf0378fed>.355"
	ldr	x9, [x9, x19, lsl #3]
	mov	w12, #44
	add	x10, x11, #1
	mov	x14, x21
	strb	w12, [x28, x11]
	add	x11, x28, x10
	mov	x12, x8
.LBB95_122:
	ldrb	w13, [x9], #1
	subs	x12, x12, #1
	strb	w13, [x11], #1
	b.ne	.LBB95_122
	add	x9, x10, x8
	lsr	x8, x22, #47
	mov	w11, #44
	add	x12, x28, x9
	str	x9, [x25, #520]
	adrp	x10, .Lstatic.67
	add	x10, x10, :lo12:.Lstatic.67
	strb	w11, [x12]
	and	x8, x8, #0x1fe
	ldrh	w8, [x10, x8]
	lsr	x13, x22, #39
	add	x9, x9, #8
	sturh	w8, [x12, #1]
	and	x8, x13, #0x1fe
	ubfiz	x13, x27, #1, #8
	ldrh	w8, [x10, x8]
	sturh	w8, [x12, #3]
	ldrh	w8, [x10, x13]
	adrp	x10, ".Lswitch.table.squitter_c::log_loop::write_some::<#507aa2edf0378fed>.357"
	add	x10, x10, :lo12:".Lswitch.table.squitter_c::log_loop::write_some::<#507aa2edf0378fed>.357"
	sturh	w8, [x12, #5]
	adrp	x8, ".Lswitch.table.squitter_c::log_loop::write_some::<#507aa2edf0378fed>.356"
	add	x8, x8, :lo12:".Lswitch.table.squitter_c::log_loop::write_some::<#507aa2edf0378fed>.356"
	ldr	x8, [x8, w17, uxtw #3]
	ldr	x10, [x10, w17, uxtw #3]
	strb	w11, [x12, #7]
	add	x11, x28, x9
	mov	x12, x8
.LBB95_124:
	ldrb	w13, [x10], #1
	subs	x12, x12, #1
	strb	w13, [x11], #1
	b.ne	.LBB95_124
	ldur	x27, [x29, #-120]
	cmp	x19, #2
	add	x20, x8, x9
	b.hs	.LBB95_128
	mov	w8, #23592960
	ldur	x10, [x29, #-136]
	umull	x9, w18, w8
	mov	x8, #-65536
	movk	x8, #64816, lsl #16
	smull	x8, w18, w8
	cbz	w10, .LBB95_129
	mov	w10, #360
	b	.LBB95_130
.LBB95_128:
	ldur	x19, [x29, #-112]
	ldr	x18, [sp, #128]
	mov	w8, #11308
	strh	w8, [x28, x20]
	add	x10, x20, #2
	ldur	x20, [x29, #-96]
	cbnz	w17, .LBB95_141
	b	.LBB95_140
.LBB95_129:
	mov	w10, #90
.LBB95_130:
	ldp	x13, x12, [sp, #112]
	umull	x11, w12, w10
	smull	x21, w13, w10
	cmp	x11, x9
	mov	w9, #11520
	csel	x8, xzr, x8, lo
	cmp	x21, #0
	umaddl	x19, w12, w10, x8
	cneg	x8, x21, mi
	movk	w9, #305, lsl #16
	mul	x10, x8, x9
	umulh	x8, x8, x9
	mov	w9, #44
	strb	w9, [x28, x20]
	adds	x0, x10, x14, lsl #17
	cinc	x1, x8, hs
	adc	x8, x0, x8
	extr	x8, x1, x8, #56
	cbnz	x8, .LBB95_187
	lsl	x8, x14, #4
	adrp	x10, .Lstatic.40
	add	x10, x10, :lo12:.Lstatic.40
	lsr	x9, x0, #17
	ldr	x8, [x10, x8]
	mul	x10, x8, x9
	umulh	x8, x8, x9
	extr	x0, x8, x10, #48
	add	x8, x20, #1
	tbz	x21, #63, .LBB95_134
.LBB95_132:
	cbz	x0, .LBB95_134
	mov	w9, #45
	strb	w9, [x28, x8]
	add	x8, x20, #2
.LBB95_134:
	mov	x21, #17085
	mov	w10, #38528
	mov	w11, #19923
	movk	x21, #58746, lsl #16
	movk	w10, #152, lsl #16
	movk	w11, #4194, lsl #16
	movk	x21, #38101, lsl #32
	mov	w13, #51712
	mov	w15, #57600
	movk	x21, #54975, lsl #48
	movk	w13, #15258, lsl #16
	movk	w15, #1525, lsl #16
	umulh	x9, x0, x21
	cmp	x0, x13
	mov	w13, #8389
	adrp	x20, .Lstatic.22
	add	x20, x20, :lo12:.Lstatic.22
	cset	w14, lo
	cmp	x0, x15
	mov	w16, #1000
	cinc	x14, x14, lo
	cmp	x19, #0
	eor	x15, x14, #0x3
	lsr	x9, x9, #23
	add	x22, x8, x15
	msub	w10, w9, w10, w0
	add	x9, x20, x9, lsl #2
	ldr	w9, [x9, x14]
	mov	w14, #46
	umull	x11, w10, w11
	str	w9, [x28, x8]
	add	x8, x28, x22
	strb	w14, [x8]
	lsr	x11, x11, #38
	ubfx	w12, w11, #3, #13
	mul	w12, w12, w13
	mov	w13, #56963
	movk	w13, #17179, lsl #16
	umull	x13, w10, w13
	lsr	w12, w12, #20
	msub	w10, w11, w16, w10
	lsr	x13, x13, #50
	msub	w12, w12, w16, w11
	mov	w11, #11520
	movk	w11, #305, lsl #16
	add	x10, x20, w10, uxtw #2
	orr	w9, w13, #0x30
	add	x13, x22, #2
	strb	w9, [x8, #1]
	add	x9, x20, w12, uxth #2
	str	x13, [x25, #520]
	add	x13, x28, x13
	ldrh	w12, [x9]
	strh	w12, [x13]
	cneg	x12, x19, mi
	ldrb	w9, [x9, #2]
	mul	x14, x12, x11
	strb	w9, [x13, #2]
	umulh	x9, x12, x11
	lsl	x12, x18, #17
	ldrh	w11, [x10]
	sturh	w11, [x8, #5]
	adds	x0, x14, x12
	mov	w11, #44
	ldrb	w10, [x10, #2]
	strb	w11, [x8, #8]
	cinc	x1, x9, hs
	cmp	x18, #63
	strb	w10, [x8, #7]
	b.hi	.LBB95_188
	extr	x8, x1, x0, #56
	cbnz	x8, .LBB95_188
	lsl	x8, x18, #4
	adrp	x10, .Lstatic.40
	add	x10, x10, :lo12:.Lstatic.40
	lsr	x9, x0, #17
	ldr	x8, [x10, x8]
	mul	x10, x8, x9
	umulh	x8, x8, x9
	extr	x0, x8, x10, #48
	ldr	x18, [sp, #128]
	add	x8, x22, #9
	tbz	x19, #63, .LBB95_139
.LBB95_137:
	cbz	x0, .LBB95_139
	mov	w9, #45
	strb	w9, [x28, x8]
	add	x8, x22, #10
.LBB95_139:
	umulh	x9, x0, x21
	mov	w10, #38528
	mov	w11, #19923
	movk	w10, #152, lsl #16
	movk	w11, #4194, lsl #16
	mov	w13, #8389
	mov	w14, #56963
	mov	w15, #57600
	ldur	x19, [x29, #-112]
	movk	w14, #17179, lsl #16
	movk	w15, #1525, lsl #16
	lsr	x9, x9, #23
	msub	w10, w9, w10, w0
	add	x9, x20, x9, lsl #2
	umull	x11, w10, w11
	umull	x14, w10, w14
	lsr	x11, x11, #38
	lsr	x14, x14, #50
	ubfx	w12, w11, #3, #13
	mul	w12, w12, w13
	mov	w13, #51712
	movk	w13, #15258, lsl #16
	cmp	x0, x13
	cset	w13, lo
	cmp	x0, x15
	lsr	w12, w12, #20
	cinc	x13, x13, lo
	mov	w15, #1000
	eor	x16, x13, #0x3
	msub	w12, w12, w15, w11
	ldr	w9, [x9, x13]
	add	x13, x8, x16
	str	w9, [x28, x8]
	mov	w9, #46
	add	x8, x28, x13
	msub	w10, w11, w15, w10
	strb	w9, [x8]
	orr	w9, w14, #0x30
	add	x12, x20, w12, uxth #2
	strb	w9, [x8, #1]
	ldrh	w9, [x12]
	add	x10, x20, w10, uxtw #2
	strh	w9, [x8, #2]
	ldrb	w9, [x12, #2]
	strb	w9, [x8, #4]
	ldrh	w9, [x10]
	sturh	w9, [x8, #5]
	ldrb	w9, [x10, #2]
	add	x10, x13, #8
	strb	w9, [x8, #7]
	ldur	x20, [x29, #-96]
	cbnz	w17, .LBB95_141
.LBB95_140:
	ldr	w8, [sp, #96]
	tst	w18, #0x10
	csinc	w8, w8, wzr, ne
	tbz	w8, #0, .LBB95_143
.LBB95_141:
	mov	w8, #44
	strb	w8, [x28, x10]
	add	x8, x10, #1
.LBB95_142:
	add	x2, x8, #1
	mov	w9, #10
	strb	w9, [x28, x8]
	str	x2, [x25, #520]
	b	.LBB95_310
.LBB95_143:
	ubfx	w8, w18, #5, #11
	and	w9, w18, #0xf
	mov	w11, #1000
	orr	w8, w9, w8, lsl #4
	mov	w9, #25
	mul	w9, w8, w9
	subs	w12, w9, #1000
	sub	w9, w11, w9
	csel	w9, w12, w9, pl
	cmp	w8, #39
	mov	w8, #44
	strb	w8, [x28, x10]
	add	x8, x10, #1
	b.hi	.LBB95_145
	mov	w11, #45
	strb	w11, [x28, x8]
	add	x8, x10, #2
	str	x8, [x25, #520]
.LBB95_145:
	cmp	w9, #999
	b.hi	.LBB95_167
	cmp	w9, #100
	adrp	x11, .Lstatic.22
	add	x11, x11, :lo12:.Lstatic.22
	cset	w10, lo
	cmp	w9, #10
	add	x9, x11, w9, uxtw #2
	cinc	x10, x10, lo
	ldr	w9, [x9, x10]
	eor	x10, x10, #0x3
	str	w9, [x28, x8]
	add	x8, x8, x10
	b	.LBB95_142
.LBB95_147:
	mov	w9, #19923
	mov	w10, w24
	adrp	x11, .Lstatic.22
	add	x11, x11, :lo12:.Lstatic.22
	movk	w9, #4194, lsl #16
	mov	w12, #1000
	umull	x9, w10, w9
	mov	w10, #34464
	movk	w10, #1, lsl #16
	cmp	x24, x10
	lsr	x10, x24, #4
	lsr	x9, x9, #38
	cset	w13, lo
	cmp	x10, #625
	add	x10, x11, x9, lsl #2
	msub	w9, w9, w12, w24
	cinc	x12, x13, lo
	ldr	w10, [x10, x12]
	eor	x12, x12, #0x3
	str	w10, [x28, x8]
	add	x8, x8, x12
	ldr	s0, [x11, w9, uxtw #2]
	add	x9, x8, #3
	str	s0, [x28, x8]
	str	x9, [x25, #520]
	b	.LBB95_121
.LBB95_148:
	mov	w8, #90
.LBB95_149:
	umull	x11, w16, w8
	smull	x21, w18, w8
	cmp	x11, x10
	csel	x9, xzr, x9, lo
	umaddl	x19, w16, w8, x9
	cmp	x21, #0
	mov	w9, #11520
	cneg	x8, x21, mi
	movk	w9, #305, lsl #16
	mul	x10, x8, x9
	umulh	x8, x8, x9
	add	x9, x28, x20
	adds	x0, x10, x15, lsl #17
	mov	w10, #32
	strb	w10, [x9, #11]
	cinc	x1, x8, hs
	adc	x8, x0, x8
	extr	x8, x1, x8, #56
	cbnz	x8, .LBB95_230
	lsl	x8, x15, #4
	adrp	x10, .Lstatic.40
	add	x10, x10, :lo12:.Lstatic.40
	lsr	x9, x0, #17
	ldr	x8, [x10, x8]
	mul	x10, x8, x9
	umulh	x8, x8, x9
	extr	x0, x8, x10, #48
	add	x8, x20, #12
	tbz	x21, #63, .LBB95_153
.LBB95_151:
	cbz	x0, .LBB95_153
	mov	w9, #45
	strb	w9, [x28, x8]
	add	x8, x20, #13
	str	x8, [x25, #520]
.LBB95_153:
	mov	x21, #17085
	mov	w10, #38528
	mov	w11, #19923
	movk	x21, #58746, lsl #16
	movk	w10, #152, lsl #16
	movk	w11, #4194, lsl #16
	movk	x21, #38101, lsl #32
	mov	w13, #8389
	mov	w15, #57600
	movk	x21, #54975, lsl #48
	movk	w15, #1525, lsl #16
	adrp	x20, .Lstatic.22
	add	x20, x20, :lo12:.Lstatic.22
	umulh	x9, x0, x21
	lsr	x9, x9, #23
	msub	w10, w9, w10, w0
	add	x9, x20, x9, lsl #2
	umull	x11, w10, w11
	lsr	x11, x11, #38
	ubfx	w12, w11, #3, #13
	mul	w12, w12, w13
	mov	w13, #51712
	movk	w13, #15258, lsl #16
	cmp	x0, x13
	mov	w13, #56963
	movk	w13, #17179, lsl #16
	cset	w14, lo
	cmp	x0, x15
	umull	x13, w10, w13
	lsr	w12, w12, #20
	mov	w15, #1000
	cinc	x14, x14, lo
	msub	w10, w11, w15, w10
	cmp	x19, #0
	eor	x16, x14, #0x3
	msub	w12, w12, w15, w11
	ldr	w9, [x9, x14]
	add	x22, x8, x16
	lsr	x13, x13, #50
	str	w9, [x28, x8]
	mov	w8, #46
	add	x9, x28, x22
	cneg	x11, x19, mi
	strb	w8, [x9]
	orr	w8, w13, #0x30
	add	x12, x20, w12, uxth #2
	strb	w8, [x9, #1]
	add	x10, x20, w10, uxtw #2
	ldrh	w8, [x12]
	strh	w8, [x9, #2]
	mov	w8, #11520
	movk	w8, #305, lsl #16
	ldrb	w12, [x12, #2]
	mul	x13, x11, x8
	strb	w12, [x9, #4]
	lsl	x12, x17, #17
	umulh	x8, x11, x8
	ldrh	w11, [x10]
	sturh	w11, [x9, #5]
	mov	w11, #32
	ldrb	w10, [x10, #2]
	adds	x0, x13, x12
	strb	w11, [x9, #8]
	cinc	x1, x8, hs
	cmp	x17, #63
	strb	w10, [x9, #7]
	b.hi	.LBB95_189
	extr	x8, x1, x0, #56
	cbz	x8, .LBB95_162
	b	.LBB95_189
.LBB95_155:
	mov	w8, #90
.LBB95_156:
	umull	x11, w16, w8
	smull	x21, w18, w8
	cmp	x11, x10
	csel	x9, xzr, x9, lo
	umaddl	x19, w16, w8, x9
	cmp	x21, #0
	mov	w9, #11520
	cneg	x8, x21, mi
	movk	w9, #305, lsl #16
	mul	x10, x8, x9
	umulh	x8, x8, x9
	add	x9, x28, x20
	adds	x0, x10, x15, lsl #17
	mov	w10, #32
	strb	w10, [x9, #16]
	cinc	x1, x8, hs
	adc	x8, x0, x8
	extr	x8, x1, x8, #56
	cbnz	x8, .LBB95_231
	lsl	x8, x15, #4
	adrp	x10, .Lstatic.40
	add	x10, x10, :lo12:.Lstatic.40
	lsr	x9, x0, #17
	ldr	x8, [x10, x8]
	mul	x10, x8, x9
	umulh	x8, x8, x9
	extr	x0, x8, x10, #48
	add	x8, x20, #17
	tbz	x21, #63, .LBB95_160
.LBB95_158:
	cbz	x0, .LBB95_160
	mov	w9, #45
	strb	w9, [x28, x8]
	add	x8, x20, #18
	str	x8, [x25, #520]
.LBB95_160:
	mov	x21, #17085
	mov	w10, #38528
	mov	w11, #19923
	movk	x21, #58746, lsl #16
	movk	w10, #152, lsl #16
	movk	w11, #4194, lsl #16
	movk	x21, #38101, lsl #32
	mov	w13, #8389
	mov	w15, #57600
	movk	x21, #54975, lsl #48
	movk	w15, #1525, lsl #16
	adrp	x20, .Lstatic.22
	add	x20, x20, :lo12:.Lstatic.22
	umulh	x9, x0, x21
	lsr	x9, x9, #23
	msub	w10, w9, w10, w0
	add	x9, x20, x9, lsl #2
	umull	x11, w10, w11
	lsr	x11, x11, #38
	ubfx	w12, w11, #3, #13
	mul	w12, w12, w13
	mov	w13, #51712
	movk	w13, #15258, lsl #16
	cmp	x0, x13
	mov	w13, #56963
	movk	w13, #17179, lsl #16
	cset	w14, lo
	cmp	x0, x15
	umull	x13, w10, w13
	lsr	w12, w12, #20
	mov	w15, #1000
	cinc	x14, x14, lo
	msub	w10, w11, w15, w10
	cmp	x19, #0
	eor	x16, x14, #0x3
	msub	w12, w12, w15, w11
	ldr	w9, [x9, x14]
	add	x22, x8, x16
	lsr	x13, x13, #50
	str	w9, [x28, x8]
	mov	w8, #46
	add	x9, x28, x22
	cneg	x11, x19, mi
	strb	w8, [x9]
	orr	w8, w13, #0x30
	add	x12, x20, w12, uxth #2
	strb	w8, [x9, #1]
	add	x10, x20, w10, uxtw #2
	ldrh	w8, [x12]
	strh	w8, [x9, #2]
	mov	w8, #11520
	movk	w8, #305, lsl #16
	ldrb	w12, [x12, #2]
	mul	x13, x11, x8
	strb	w12, [x9, #4]
	lsl	x12, x17, #17
	umulh	x8, x11, x8
	ldrh	w11, [x10]
	sturh	w11, [x9, #5]
	mov	w11, #32
	ldrb	w10, [x10, #2]
	adds	x0, x13, x12
	strb	w11, [x9, #8]
	cinc	x1, x8, hs
	cmp	x17, #63
	strb	w10, [x9, #7]
	b.hi	.LBB95_189
	extr	x8, x1, x0, #56
	cbnz	x8, .LBB95_189
.LBB95_162:
	lsl	x8, x17, #4
	adrp	x10, .Lstatic.40
	add	x10, x10, :lo12:.Lstatic.40
	lsr	x9, x0, #17
	ldr	x8, [x10, x8]
	mul	x10, x8, x9
	umulh	x8, x8, x9
	extr	x0, x8, x10, #48
	add	x8, x22, #9
	tbz	x19, #63, .LBB95_165
.LBB95_163:
	cbz	x0, .LBB95_165
	mov	w9, #45
	strb	w9, [x28, x8]
	add	x8, x22, #10
.LBB95_165:
	umulh	x9, x0, x21
	mov	w10, #38528
	mov	w11, #19923
	movk	w10, #152, lsl #16
	movk	w11, #4194, lsl #16
	mov	w13, #8389
	mov	w14, #56963
	mov	w15, #57600
	ldur	x19, [x29, #-112]
	movk	w14, #17179, lsl #16
	movk	w15, #1525, lsl #16
	lsr	x9, x9, #23
	msub	w10, w9, w10, w0
	add	x9, x20, x9, lsl #2
	umull	x11, w10, w11
	umull	x14, w10, w14
	lsr	x11, x11, #38
	lsr	x14, x14, #50
	ubfx	w12, w11, #3, #13
	mul	w12, w12, w13
	mov	w13, #51712
	movk	w13, #15258, lsl #16
	cmp	x0, x13
	cset	w13, lo
	cmp	x0, x15
	lsr	w12, w12, #20
	cinc	x13, x13, lo
	mov	w15, #1000
	eor	x16, x13, #0x3
	msub	w12, w12, w15, w11
	ldr	w9, [x9, x13]
	add	x13, x8, x16
	str	w9, [x28, x8]
	mov	w9, #46
	add	x8, x28, x13
	msub	w10, w11, w15, w10
	strb	w9, [x8]
	orr	w9, w14, #0x30
	add	x12, x20, w12, uxth #2
	strb	w9, [x8, #1]
	ldrh	w9, [x12]
	add	x10, x20, w10, uxtw #2
	strh	w9, [x8, #2]
	ldrb	w9, [x12, #2]
	strb	w9, [x8, #4]
	ldrh	w9, [x10]
	sturh	w9, [x8, #5]
	ldrb	w9, [x10, #2]
	strb	w9, [x8, #7]
	add	x8, x13, #8
.LBB95_166:
	add	x2, x8, #1
	mov	w9, #10
	strb	w9, [x28, x8]
	str	x2, [x25, #520]
	b	.LBB95_309
.LBB95_167:
	mov	w10, #19923
	lsr	w11, w9, #5
	adrp	x13, .Lstatic.22
	add	x13, x13, :lo12:.Lstatic.22
	movk	w10, #4194, lsl #16
	mov	w14, #1000
	umull	x10, w9, w10
	cmp	w11, #3125
	lsr	w11, w9, #4
	cset	w12, lo
	cmp	w11, #625
	lsr	x10, x10, #38
	add	x11, x13, x10, lsl #2
	msub	w9, w10, w14, w9
	cinc	x10, x12, lo
	ldr	w11, [x11, x10]
	eor	x10, x10, #0x3
	str	w11, [x28, x8]
	add	x8, x8, x10
	ldr	s0, [x13, w9, uxtw #2]
	str	s0, [x28, x8]
	add	x8, x8, #3
	b	.LBB95_142
.LBB95_168:
	sub	x0, x29, #80
	mov	x1, x28
	mov	x2, x24
	bl	"sq_text::timed::split_longest"
	ldurb	w8, [x29, #-80]
	cmp	w8, #1
	b.ne	.LBB95_35
	ldp	x3, x1, [x29, #-72]
	ldur	x2, [x29, #-56]
	movi	v0.2d, #0000000000000000
	cmp	x2, #30
	stur	xzr, [x29, #-48]
	stp	q0, q0, [x29, #-80]
	b.ne	.LBB95_25
.LBB95_170:
	ldrb	w8, [x1]
	cmp	w8, #42
	b.ne	.LBB95_179
	ldrb	w8, [x1, #29]
	cmp	w8, #59
	b.ne	.LBB95_179
	add	x8, x1, #1
.LBB95_173:
	movi	v0.16b, #223
	ldr	q1, [x8]
	movi	v2.16b, #198
	ldur	q4, [x8, #12]
	movi	v3.16b, #64
	movi	v6.16b, #6
	movi	v7.16b, #10
	movi	v16.16b, #191
	movi	v17.16b, #16
	and	v5.16b, v1.16b, v0.16b
	and	v0.16b, v4.16b, v0.16b
	add	v1.16b, v1.16b, v2.16b
	add	v2.16b, v4.16b, v2.16b
	sub	v4.16b, v3.16b, v5.16b
	sub	v3.16b, v3.16b, v0.16b
	uqsub	v1.16b, v1.16b, v6.16b
	uqsub	v2.16b, v2.16b, v6.16b
	add	v5.16b, v5.16b, v16.16b
	add	v0.16b, v0.16b, v16.16b
	umin	v4.16b, v4.16b, v7.16b
	umin	v3.16b, v3.16b, v7.16b
	add	v1.16b, v1.16b, v17.16b
	add	v2.16b, v2.16b, v17.16b
	add	v4.16b, v5.16b, v4.16b
	add	v0.16b, v0.16b, v3.16b
	umin	v1.16b, v1.16b, v4.16b
	umin	v0.16b, v2.16b, v0.16b
	movi	v2.16b, #15
	orr	v3.16b, v0.16b, v1.16b
	cmhi	v2.16b, v3.16b, v2.16b
	ldr	q3, [x19, :lo12:.LCPI95_0]
	and	v2.16b, v2.16b, v3.16b
	addp	v2.16b, v2.16b, v2.16b
	addp	v2.16b, v2.16b, v2.16b
	addp	v2.16b, v2.16b, v2.16b
	umov	w8, v2.h[0]
	cbnz	w8, .LBB95_179
	xtn	v2.8b, v1.8h
	uzp2	v1.16b, v1.16b, v0.16b
	shl	v2.8b, v2.8b, #4
	orr	v1.8b, v2.8b, v1.8b
	fmov	x8, d1
	rev	x8, x8
	lsr	x20, x8, #59
	cmp	x20, #17
	b.ne	.LBB95_178
	xtn	v1.8b, v0.8h
	mov	w9, #572
	lsr	x11, x8, #46
	and	x9, x9, x8, lsr #54
	uzp2	v0.16b, v0.16b, v0.16b
	adrp	x10, .Lstatic.44
	add	x10, x10, :lo12:.Lstatic.44
	lsr	x12, x8, #24
	and	x13, x11, #0x3fc
	ldr	w9, [x10, x9]
	adrp	x11, .Lstatic.45
	add	x11, x11, :lo12:.Lstatic.45
	shl	v1.8b, v1.8b, #4
	ldr	w13, [x11, x13]
	movi	d2, #0xffffffffffff0000
	eor	w9, w9, w12
	adrp	x14, .Lstatic.43
	add	x14, x14, :lo12:.Lstatic.43
	eor	w9, w9, w13
	orr	v0.8b, v1.8b, v0.8b
	lsr	w12, w9, #14
	lsr	w13, w9, #6
	ubfiz	x9, x9, #2, #8
	and	x12, x12, #0x3fc
	and	x13, x13, #0x3fc
	and	v0.8b, v0.8b, v2.8b
	ldr	w12, [x14, x12]
	ldr	w13, [x10, x13]
	ldr	w9, [x11, x9]
	eor	w12, w12, w13
	fmov	x13, d0
	eor	w9, w9, w8
	eor	w12, w12, w9
	lsr	w15, w12, #14
	lsr	w16, w12, #6
	ubfiz	x12, x12, #2, #8
	rev	x13, x13
	orr	x9, x13, x8, lsl #48
	and	x15, x15, #0x3fc
	and	x16, x16, #0x3fc
	ldr	w15, [x14, x15]
	ldr	w16, [x10, x16]
	ldr	w12, [x11, x12]
	lsr	x17, x9, #24
	and	x13, x13, #0xffffff
	eor	w12, w16, w12
	eor	w15, w15, w17
	eor	w12, w15, w12
	lsr	w15, w12, #6
	ubfiz	x16, x12, #2, #8
	lsr	w12, w12, #14
	and	x15, x15, #0x3fc
	ldr	w11, [x11, x16]
	and	x12, x12, #0x3fc
	ldr	w15, [x10, x15]
	ldr	w10, [x14, x12]
	eor	x11, x13, x11
	eor	x11, x15, x11
	cmp	x10, x11
	b.ne	.LBB95_181
	lsr	x10, x8, #16
	extr	x11, x10, x9, #24
	ubfx	x10, x11, #51, #5
	and	x6, x11, #0xffffffffffffff
	cmp	x10, #5
	b.hs	.LBB95_182
	mov	w7, wzr
	mov	x4, xzr
	mov	w2, #2
	b	.LBB95_195
.LBB95_178:
	mov	x24, xzr
	mov	w28, #6
	mov	x22, xzr
	b	.LBB95_36
.LBB95_179:
	sub	x0, x29, #80
	mov	x22, x3
	bl	"sq_text::reading::read_any"
	ldurb	w8, [x29, #-80]
	ldurb	w28, [x29, #-72]
	cbz	w8, .LBB95_186
	ldurb	w20, [x29, #-71]
	ldur	w24, [x29, #-68]
	ldur	x22, [x29, #-64]
	b	.LBB95_36
.LBB95_181:
	mov	x20, xzr
	eor	x24, x11, x10
	mov	w28, #7
	mov	x22, xzr
	b	.LBB95_36
.LBB95_182:
	lsr	x12, x6, #51
	cmp	x12, #8
	b.hi	.LBB95_190
	lsl	x12, x8, #12
	lsr	x13, x8, #11
	lsr	x14, x8, #3
	lsr	x15, x8, #12
	lsr	x9, x9, #41
	ubfx	w7, w8, #10, #1
	and	x12, x12, #0x7f000000
	mov	w2, #1
	bfi	x12, x13, #32, #1
	and	x13, x14, #0x10000
	and	x14, x15, #0x7f00
	b	.LBB95_194
.LBB95_184:
	lsl	x2, x14, #18
	mov	x24, x18
	bl	"sq_angle::quotients::divided"
	ldr	w17, [sp, #140]
	mov	x18, x24
	add	x8, x20, #8
	tbnz	x22, #63, .LBB95_77
	b	.LBB95_79
.LBB95_185:
	lsl	x2, x18, #18
	bl	"sq_angle::quotients::divided"
	ldr	w17, [sp, #140]
	ldr	x18, [sp, #128]
	add	x8, x24, #15
	tbnz	x19, #63, .LBB95_82
	b	.LBB95_84
.LBB95_186:
	ldp	x6, x4, [x29, #-56]
	mov	x3, x22
	ldur	w24, [x29, #-68]
	ldurb	w2, [x29, #-64]
	ldur	w7, [x29, #-60]
	b	.LBB95_196
.LBB95_187:
	lsl	x2, x14, #18
	mov	x22, x18
	bl	"sq_angle::quotients::divided"
	ldr	w17, [sp, #140]
	mov	x18, x22
	add	x8, x20, #1
	tbnz	x21, #63, .LBB95_132
	b	.LBB95_134
.LBB95_188:
	lsl	x2, x18, #18
	bl	"sq_angle::quotients::divided"
	ldr	w17, [sp, #140]
	ldr	x18, [sp, #128]
	add	x8, x22, #9
	tbnz	x19, #63, .LBB95_137
	b	.LBB95_139
.LBB95_189:
	lsl	x2, x17, #18
	bl	"sq_angle::quotients::divided"
	add	x8, x22, #9
	tbnz	x19, #63, .LBB95_163
	b	.LBB95_165
.LBB95_190:
	cmp	x12, #19
	b.lo	.LBB95_193
	mov	x4, xzr
	mov	w7, wzr
	cmp	x10, #19
	mov	w2, #2
	b.eq	.LBB95_195
	cmp	x12, #22
	b.hi	.LBB95_195
.LBB95_193:
	lsl	x12, x8, #20
	lsr	x13, x8, #11
	lsr	x14, x8, #8
	lsr	x15, x8, #17
	lsr	x9, x9, #41
	ubfx	w7, w8, #10, #1
	and	x12, x12, #0xfff00000000
	mov	w2, wzr
	bfi	x12, x13, #48, #1
	and	x13, x14, #0x10000
	and	x14, x15, #0x300
.LBB95_194:
	orr	x13, x13, x14
	orr	x9, x9, x11, lsl #32
	orr	x11, x12, x13
	orr	x4, x11, x10
	and	x6, x9, #0x1ffff0001ffff
.LBB95_195:
	ubfx	x28, x8, #56, #3
	ubfx	x24, x8, #32, #24
.LBB95_196:
	ldr	x5, [x26]
	mov	w10, w24
	stp	w2, w7, [x29, #-64]
	orr	x22, x28, x10, lsl #32
	stp	x6, x4, [x29, #-56]
	ldrb	w8, [x5, #56]
	stp	x3, x22, [x29, #-80]
	cmp	w8, #1
	b.ne	.LBB95_200
	ldr	x8, [x5, #64]
	cmp	x3, x8
	b.hs	.LBB95_200
	mov	w28, #8
	mov	x22, x8
.LBB95_199:
	mov	x24, xzr
	mov	x20, xzr
	b	.LBB95_36
.LBB95_200:
	cmp	w2, #2
	b.ne	.LBB95_204
	ldr	x0, [x5, #256]
	ldr	x1, [x5, #8]
	subs	x8, x3, x0
	csel	x8, xzr, x8, lo
	cmp	x8, x1
	b.ls	.LBB95_203
	add	x0, x5, #72
	mov	w19, w2
	mov	x2, x3
	mov	x20, x3
	mov	x24, x4
	mov	x28, x5
	bl	"sq_track::tracker::look_through::<#bd73a11ec42be588>"
	mov	x5, x28
	mov	x4, x24
	mov	x3, x20
	mov	w2, w19
.LBB95_203:
	mov	w8, #1
	mov	x16, xzr
	mov	x10, xzr
	mov	w7, wzr
	mov	w6, wzr
	str	x0, [x5, #256]
	mov	w0, #1
	stp	x8, x3, [x5, #56]
	mov	w5, #6
	mov	w15, #60
	b	.LBB95_286
.LBB95_204:
	ldp	x8, x12, [x5, #72]
	ldr	w13, [x5]
	ldp	x9, x11, [x5, #136]
	ldr	x30, [x5, #8]
	cmp	x12, x13
	b.hs	.LBB95_214
.LBB95_205:
	ldrb	w0, [x5, #16]
	add	x12, x5, #24
	str	w2, [sp, #140]
	stur	x3, [x29, #-136]
	cmp	w0, #1
	str	w0, [sp, #120]
	csel	x1, x12, xzr, eq
	str	x1, [sp, #112]
	cbz	x11, .LBB95_213
	mov	x13, #31773
	orr	x10, x10, x10, lsl #32
	ldr	x12, [x5, #208]
	movk	x13, #32586, lsl #16
	mov	w14, #1
	movk	x13, #31161, lsl #32
	eor	x10, x12, x10
	movk	x13, #40503, lsl #48
	mul	x12, x10, x13
	umulh	x10, x10, x13
	sub	w13, w11, #1
	sub	x11, x11, #1
	eor	x10, x10, x12
	lsr	x12, x10, #32
	eor	w10, w12, w10
	lsr	w12, w10, #24
	and	w10, w13, w10
	mov	x13, x10
	cmp	w12, #1
	csinc	w12, w12, wzr, hi
	dup	v0.16b, w12
	lsl	w12, w14, w12
.LBB95_207:
	add	x14, x9, x13, lsl #6
	ldr	q2, [x19, :lo12:.LCPI95_0]
	ldr	q1, [x14]
	cmeq	v1.16b, v1.16b, v0.16b
	and	v1.16b, v1.16b, v2.16b
	addp	v1.16b, v1.16b, v1.16b
	addp	v1.16b, v1.16b, v1.16b
	addp	v1.16b, v1.16b, v1.16b
	umov	w15, v1.h[0]
	ands	w15, w15, #0xfff
	b.eq	.LBB95_211
	add	x16, x14, #16
.LBB95_209:
	rbit	w17, w15
	clz	w17, w17
	ldr	w17, [x16, w17, uxtw #2]
	ldr	w18, [x8, x17, lsl #2]
	cmp	w24, w18
	b.eq	.LBB95_225
	sub	w17, w15, #1
	ands	w15, w17, w15
	b.ne	.LBB95_209
.LBB95_211:
	ldr	w14, [x14, #12]
	tst	w14, w12
	b.eq	.LBB95_213
	add	x13, x13, #1
	and	x13, x13, x11
	cmp	x13, x10
	b.ne	.LBB95_207
.LBB95_213:
	add	x0, x5, #72
	add	x1, x5, #216
	add	x2, x5, #248
	mov	w3, w24
	mov	x20, x5
	str	x4, [sp, #96]
	mov	x19, x30
	str	x6, [sp, #128]
	str	w7, [sp, #88]
	bl	"sq_track::contacts::enter::<#bd73a11ec42be588>"
	ldr	w7, [sp, #88]
	ldr	x6, [sp, #128]
	mov	x30, x19
	ldr	x4, [sp, #96]
	ldur	x3, [x29, #-136]
	ldr	w2, [sp, #140]
	b	.LBB95_226
.LBB95_214:
	cbz	x11, .LBB95_222
	mov	x15, #31773
	orr	x13, x10, x10, lsl #32
	ldr	x14, [x5, #208]
	movk	x15, #32586, lsl #16
	mov	w16, #1
	movk	x15, #31161, lsl #32
	eor	x13, x14, x13
	movk	x15, #40503, lsl #48
	mul	x14, x13, x15
	umulh	x13, x13, x15
	sub	w15, w11, #1
	eor	x13, x13, x14
	lsr	x14, x13, #32
	eor	w13, w14, w13
	lsr	w14, w13, #24
	and	w13, w15, w13
	sub	x15, x11, #1
	cmp	w14, #1
	csinc	w14, w14, wzr, hi
	dup	v0.16b, w14
	lsl	w14, w16, w14
	mov	x16, x13
.LBB95_216:
	add	x17, x9, x16, lsl #6
	ldr	q2, [x19, :lo12:.LCPI95_0]
	ldr	q1, [x17]
	cmeq	v1.16b, v1.16b, v0.16b
	and	v1.16b, v1.16b, v2.16b
	addp	v1.16b, v1.16b, v1.16b
	addp	v1.16b, v1.16b, v1.16b
	addp	v1.16b, v1.16b, v1.16b
	umov	w18, v1.h[0]
	ands	w18, w18, #0xfff
	b.eq	.LBB95_220
	add	x0, x17, #16
.LBB95_218:
	rbit	w1, w18
	clz	w1, w1
	ldr	w1, [x0, w1, uxtw #2]
	ldr	w1, [x8, x1, lsl #2]
	cmp	w24, w1
	b.eq	.LBB95_205
	sub	w1, w18, #1
	ands	w18, w1, w18
	b.ne	.LBB95_218
.LBB95_220:
	ldr	w17, [x17, #12]
	tst	w17, w14
	b.eq	.LBB95_222
	add	x16, x16, #1
	and	x16, x16, x15
	cmp	x16, x13
	b.ne	.LBB95_216
.LBB95_222:
	ldr	w13, [x5, #248]
	cmp	x12, x13
	b.ls	.LBB95_224
	mov	w12, #296
	umull	x12, w13, w12
	ldr	x13, [x5, #104]
	ldr	x12, [x13, x12]
	subs	x12, x3, x12
	csel	x12, xzr, x12, lo
	cmp	x12, x30
	b.hi	.LBB95_205
.LBB95_224:
	mov	x22, xzr
	mov	w28, #9
	b	.LBB95_199
.LBB95_225:
	mov	x20, x5
	mov	w0, wzr
	mov	w1, w17
.LBB95_226:
	tst	w0, #0xff
	b.ne	.LBB95_334
	ldr	x8, [x20, #216]
	mov	w9, #296
	ubfiz	x17, x1, #3, #32
	ldr	x10, [x20, #104]
	umaddl	x18, w1, w9, x10
	mov	x16, x20
	ldr	x19, [x8, x17]
	and	w12, w7, #0xff
	str	x3, [x18]
	cbz	w2, .LBB95_232
	add	x8, x18, #256
	mov	w9, #1
	cbz	w12, .LBB95_234
	ldrb	w20, [x18, #248]
	ldrb	w10, [x18, #152]
	sub	x11, x29, #80
	stp	x9, x3, [x18, #200]
	ldur	w9, [x11, #36]
	ldur	q0, [x11, #20]
	cmp	w20, #1
	strb	w28, [x18, #216]
	csel	x13, x8, xzr, eq
	add	x8, x18, #160
	cmp	w10, #1
	csel	x8, x8, xzr, eq
	sturh	wzr, [x18, #217]
	strb	wzr, [x18, #219]
	stp	w24, w2, [x18, #220]
	str	w9, [x18, #244]
	stur	q0, [x18, #228]
	tbnz	w10, #0, .LBB95_236
	b	.LBB95_248
.LBB95_230:
	lsl	x2, x15, #18
	mov	x22, x17
	bl	"sq_angle::quotients::divided"
	mov	x17, x22
	add	x8, x20, #12
	tbnz	x21, #63, .LBB95_151
	b	.LBB95_153
.LBB95_231:
	lsl	x2, x15, #18
	mov	x22, x17
	bl	"sq_angle::quotients::divided"
	mov	x17, x22
	add	x8, x20, #17
	tbnz	x21, #63, .LBB95_158
	b	.LBB95_160
.LBB95_232:
	add	x8, x18, #112
	mov	w9, #1
	cbz	w12, .LBB95_235
	ldrb	w20, [x18, #104]
	ldrb	w10, [x18, #8]
	sub	x11, x29, #80
	stp	x9, x3, [x18, #56]
	ldur	w9, [x11, #36]
	ldur	q0, [x11, #20]
	cmp	w20, #1
	strb	w28, [x18, #72]
	csel	x13, x8, xzr, eq
	add	x8, x18, #16
	cmp	w10, #1
	csel	x8, x8, xzr, eq
	sturh	wzr, [x18, #73]
	strb	wzr, [x18, #75]
	stp	w24, w2, [x18, #76]
	str	w9, [x18, #100]
	stur	q0, [x18, #84]
	tbnz	w10, #0, .LBB95_236
	b	.LBB95_248
.LBB95_234:
	ldrb	w20, [x18, #248]
	ldrb	w10, [x18, #200]
	sub	x11, x29, #80
	stp	x9, x3, [x18, #152]
	ldur	w9, [x11, #36]
	ldur	q0, [x11, #20]
	cmp	w20, #1
	strb	w28, [x18, #168]
	csel	x13, x8, xzr, eq
	add	x8, x18, #208
	cmp	w10, #1
	csel	x8, x8, xzr, eq
	sturh	wzr, [x18, #169]
	strb	wzr, [x18, #171]
	stp	w24, w2, [x18, #172]
	str	w9, [x18, #196]
	stur	q0, [x18, #180]
	tbnz	w10, #0, .LBB95_236
	b	.LBB95_248
.LBB95_235:
	ldrb	w20, [x18, #104]
	ldrb	w10, [x18, #56]
	sub	x11, x29, #80
	stp	x9, x3, [x18, #8]
	ldur	w9, [x11, #36]
	ldur	q0, [x11, #20]
	cmp	w20, #1
	strb	w28, [x18, #24]
	csel	x13, x8, xzr, eq
	add	x8, x18, #64
	cmp	w10, #1
	csel	x8, x8, xzr, eq
	sturh	wzr, [x18, #25]
	strb	wzr, [x18, #27]
	stp	w24, w2, [x18, #28]
	str	w9, [x18, #52]
	stur	q0, [x18, #36]
	tbz	w10, #0, .LBB95_248
.LBB95_236:
	ldr	x9, [x8]
	subs	x9, x3, x9
	csel	x9, xzr, x9, lo
	cmp	x9, x30
	b.ls	.LBB95_238
	mov	w7, wzr
	mov	w6, wzr
	mov	w5, #2
	tbnz	w20, #0, .LBB95_250
	b	.LBB95_265
.LBB95_238:
	ldrb	w9, [x8, #16]
	stp	xzr, xzr, [x29, #-32]
	stur	xzr, [x29, #-16]
	cmp	w9, #2
	b.ne	.LBB95_240
	mov	w8, wzr
	b	.LBB95_246
.LBB95_240:
	ldr	w10, [x8, #12]
	cmp	w10, w24
	b.ne	.LBB95_245
	cbz	w9, .LBB95_267
	cmp	w2, #1
	b.ne	.LBB95_248
	stp	x1, x4, [sp, #88]
	add	x1, x8, #20
	sub	x8, x29, #80
	ldr	w3, [sp, #120]
	ldr	x4, [sp, #112]
	sub	x0, x29, #32
	add	x2, x8, #20
	mov	x28, x13
	mov	x24, x30
	str	x18, [sp, #32]
	str	x17, [sp, #56]
	str	x16, [sp, #128]
	bl	"sq_message::place::ground_pair"
	ldurb	w8, [x29, #-32]
	cbz	w8, .LBB95_270
	ldp	x1, x4, [sp, #88]
	mov	x30, x24
	ldurb	w8, [x29, #-31]
	ldurb	w6, [x29, #-30]
	mov	x13, x28
	ldurb	w7, [x29, #-29]
	ldr	w2, [sp, #140]
	ldur	x3, [x29, #-136]
	ldr	x16, [sp, #128]
	ldr	x17, [sp, #56]
	ldr	x18, [sp, #32]
	b	.LBB95_247
.LBB95_245:
	mov	w8, #1
.LBB95_246:
	mov	w7, wzr
	mov	w6, wzr
.LBB95_247:
	cmp	w8, #3
	b.gt	.LBB95_253
.LBB95_248:
	mov	w5, #2
	tbz	w20, #0, .LBB95_264
	mov	w6, wzr
	mov	w7, wzr
.LBB95_250:
	ldr	x8, [x13]
	stp	xzr, xzr, [x29, #-32]
	stur	xzr, [x29, #-16]
	subs	x8, x3, x8
	csel	x8, xzr, x8, lo
	cmp	x8, x30
	b.hi	.LBB95_252
	sub	x8, x29, #80
	sub	x0, x29, #32
	str	x1, [sp, #88]
	add	x1, x8, #8
	add	x2, x13, #8
	mov	x24, x3
	mov	x28, x4
	stp	x5, x16, [sp, #120]
	mov	x20, x18
	stp	x19, x17, [sp, #48]
	mov	x19, x6
	str	w7, [sp, #112]
	str	x13, [sp, #40]
	bl	"sq_message::place::place_local"
	mov	x6, x19
	ldp	x5, x16, [sp, #120]
	ldp	x13, x19, [sp, #40]
	mov	x18, x20
	ldr	w7, [sp, #112]
	ldr	x17, [sp, #56]
	mov	x4, x28
	ldr	x1, [sp, #88]
	ldr	w2, [sp, #140]
	mov	x3, x24
	ldurb	w8, [x29, #-32]
	cbz	w8, .LBB95_256
.LBB95_252:
	ldp	x12, x10, [x13]
	mov	w24, wzr
	ldp	x9, x11, [x13, #16]
	mov	w20, wzr
	ldr	x8, [x13, #32]
	mov	w15, wzr
	mov	w30, wzr
	mov	w28, wzr
	mov	w13, #1
	cbnz	w2, .LBB95_266
	b	.LBB95_279
.LBB95_253:
	cmp	w8, #4
	b.eq	.LBB95_260
	cmp	w8, #6
	b.ne	.LBB95_261
	mov	w5, #3
	tbnz	w20, #0, .LBB95_250
	b	.LBB95_265
.LBB95_256:
	ldurb	w8, [x29, #-16]
	ldurb	w14, [x29, #-24]
	mov	w9, #23592960
	mov	w10, #60
	ldur	w24, [x29, #-20]
	ldur	w11, [x29, #-12]
	umull	x12, w8, w9
	sub	x9, x10, x14
	mov	x10, #-65536
	movk	x10, #64816, lsl #16
	ldurb	w28, [x29, #-28]
	mov	w20, w8
	smull	x13, w8, w10
	lsl	x8, x8, #17
	sxtw	x10, w24
	lsl	x9, x9, #17
	mov	w30, w14
	mov	w0, w24
	mov	w24, w11
	mov	w7, wzr
	mov	w6, wzr
	cbz	w28, .LBB95_258
	mov	w14, #90
	b	.LBB95_259
.LBB95_258:
	mov	w14, #360
.LBB95_259:
	umull	x15, w11, w14
	mov	w5, #1
	smull	x10, w10, w14
	cmp	x15, x12
	mov	x15, x0
	csel	x12, xzr, x13, lo
	umaddl	x11, w11, w14, x12
	mov	w13, #1
	mov	x12, x3
	cbnz	w2, .LBB95_266
	b	.LBB95_279
.LBB95_260:
	mov	w5, #5
	b	.LBB95_262
.LBB95_261:
	mov	w5, #4
.LBB95_262:
	tbz	w20, #0, .LBB95_264
	mov	w6, wzr
	mov	w7, wzr
	b	.LBB95_252
.LBB95_264:
	mov	w7, wzr
	mov	w6, wzr
.LBB95_265:
	mov	w24, wzr
	mov	w20, wzr
	mov	w15, wzr
	mov	w30, wzr
	mov	w28, wzr
	mov	x12, xzr
	mov	x13, xzr
	mov	x8, xzr
	mov	x11, xzr
	mov	x9, xzr
	mov	x10, xzr
	cbz	w2, .LBB95_279
.LBB95_266:
	stp	x13, x12, [x18, #248]
	stp	x10, x9, [x18, #264]
	stp	x11, x8, [x18, #280]
	b	.LBB95_280
.LBB95_267:
	cbnz	w2, .LBB95_248
	ldrb	w9, [x8, #20]
	cmp	w9, w12
	b.ne	.LBB95_272
	mov	w7, wzr
	mov	w6, wzr
	mov	w8, #3
	b	.LBB95_247
.LBB95_270:
	ldurb	w8, [x29, #-28]
	ldurb	w30, [x29, #-24]
	ldur	w15, [x29, #-20]
	ldurb	w20, [x29, #-16]
	ldur	w24, [x29, #-12]
	cbz	w8, .LBB95_278
	mov	w14, w8
	mov	w8, #90
	mov	w9, #23592960
	mov	x10, #-65536
	umull	x11, w24, w8
	mov	w13, #60
	umull	x9, w20, w9
	movk	x10, #64816, lsl #16
	ldur	x3, [x29, #-136]
	smull	x12, w20, w10
	ldp	x1, x4, [sp, #88]
	smull	x10, w15, w8
	ldr	w2, [sp, #140]
	ldr	x16, [sp, #128]
	cmp	x11, x9
	sub	x9, x13, x30
	ldr	x17, [sp, #56]
	csel	x11, xzr, x12, lo
	lsl	x9, x9, #17
	ldr	x18, [sp, #32]
	umaddl	x11, w24, w8, x11
	lsl	x8, x20, #17
	mov	x5, xzr
	mov	w6, wzr
	mov	w7, wzr
	mov	w13, #1
	mov	x12, x3
	mov	w28, w14
	b	.LBB95_266
.LBB95_272:
	ldp	w9, w8, [x8, #24]
	cmp	w12, #0
	mov	x10, #-60
	mov	w11, #59
	stp	x19, x17, [sp, #48]
	csel	w24, w9, w6, eq
	csel	w9, w6, w9, eq
	stp	x18, x13, [sp, #32]
	mul	x10, x24, x10
	str	x30, [sp, #24]
	stp	x1, x4, [sp, #88]
	stp	x12, x16, [sp, #120]
	umaddl	x10, w9, w11, x10
	mov	w11, #7733247
	add	x10, x10, #1936, lsl #12
	and	x10, x10, #0xfffffffffffe0000
	sub	x19, x10, #1920, lsl #12
	lsr	x10, x6, #32
	add	x28, x19, x9
	add	x9, x11, x28, lsl #1
	mov	x26, x10
	add	x0, x9, #32, lsl #12
	csel	w9, w10, w8, eq
	csel	w8, w8, w10, eq
	cmp	x0, #3840, lsl #12
	stp	w9, w8, [sp, #16]
	b.hs	.LBB95_327
	add	x19, x19, x24
	add	x0, x11, x19, lsl #1
	cmp	x0, #3776, lsl #12
	b.hs	.LBB95_328
.LBB95_274:
	mov	w9, #360
	mov	w8, #1
	smull	x0, w28, w9
	movk	w8, #10620, lsl #16
	add	x11, x8, #2880, lsl #12
	cmp	x0, #0
	cneg	x10, x0, mi
	cmp	x10, x11
	b.hs	.LBB95_324
	smull	x24, w19, w9
	str	x19, [sp, #8]
	cmp	x24, #0
	cneg	x9, x24, mi
	cmp	x9, x8
	b.hs	.LBB95_324
	mov	w1, #7864320
	bl	"sq_zones::zones::zone_count"
	str	x0, [sp, #112]
	and	w19, w0, #0xff
	mov	w1, #7733248
	mov	x0, x24
	bl	"sq_zones::zones::zone_count"
	cmp	w19, w0, uxtb
	b.ne	.LBB95_326
	ldp	x11, x19, [sp, #112]
	mov	w2, #1
	sub	w8, w11, #1
	and	x10, x11, #0xff
	and	w9, w8, #0xff
	tst	w8, #0xfe
	csinc	w8, w9, wzr, ne
	cmp	w19, #0
	ldp	w9, w12, [sp, #16]
	csel	w20, w11, w8, eq
	mov	w1, w20
	umull	x9, w8, w9
	ldr	x8, [sp, #8]
	umsubl	x9, w10, w12, x9
	mov	x10, #-65536
	movk	x10, #65416, lsl #16
	csel	w24, w28, w8, eq
	add	x10, x26, x10
	add	x9, x9, #1936, lsl #12
	and	x9, x9, #0xfffffffffffe0000
	add	x0, x10, x9
	bl	"sq_cpr::index::on_circle"
	mov	x30, x19
	ldr	x19, [sp, #48]
	ldr	x26, [sp, #64]
	mov	x15, x24
	mov	w24, w0
.LBB95_278:
	mov	w9, w20
	mov	w10, #23592960
	mov	w8, #360
	and	x12, x9, #0xff
	umull	x9, w24, w8
	ldur	x3, [x29, #-136]
	umull	x11, w12, w10
	mov	x10, #-65536
	ldr	w2, [sp, #140]
	movk	x10, #64816, lsl #16
	ldp	x1, x4, [sp, #88]
	smull	x13, w12, w10
	ldr	x16, [sp, #128]
	ldr	x17, [sp, #56]
	cmp	x9, x11
	mov	w9, #60
	smull	x10, w15, w8
	sub	w9, w9, w30
	ldr	x18, [sp, #32]
	mov	w7, wzr
	csel	x11, xzr, x13, lo
	ubfiz	x9, x9, #17, #32
	mov	w6, wzr
	umaddl	x11, w24, w8, x11
	lsl	x8, x12, #17
	mov	x5, xzr
	mov	w13, #1
	mov	x12, x3
	mov	w28, wzr
	cbnz	w2, .LBB95_266
.LBB95_279:
	stp	x13, x12, [x18, #104]
	stp	x10, x9, [x18, #120]
	stp	x11, x8, [x18, #136]
.LBB95_280:
	lsr	x8, x19, #32
	ldur	w9, [x16, #248]
	cmp	w9, w8
	b.eq	.LBB95_283
	cmp	w1, w9
	b.eq	.LBB95_283
	ldur	x10, [x16, #216]
	ubfiz	x11, x19, #3, #32
	lsl	x12, x8, #3
	lsl	x13, x9, #3
	add	x11, x10, x11
	str	w8, [x11, #4]
	str	w19, [x10, x12]
	add	x12, x10, x17
	ldr	w8, [x10, x13]
	add	x11, x10, x8, lsl #3
	str	w1, [x11, #4]
	stp	w8, w9, [x12]
	mov	w8, w9
	str	w1, [x10, x13]
.LBB95_283:
	ldr	x0, [x16, #256]
	ldr	x1, [x16, #8]
	str	w8, [x16, #248]
	subs	x9, x3, x0
	csel	x9, xzr, x9, lo
	cmp	x9, x1
	b.ls	.LBB95_285
	add	x0, x16, #72
	mov	x2, x3
	stp	x24, x20, [sp, #88]
	str	w28, [sp, #56]
	mov	x28, x4
	mov	x19, x5
	stp	x30, x16, [sp, #120]
	mov	w24, w7
	mov	x20, x15
	str	x6, [sp, #112]
	bl	"sq_track::tracker::look_through::<#bd73a11ec42be588>"
	mov	x15, x20
	ldp	x6, x30, [sp, #112]
	mov	w7, w24
	ldp	x24, x20, [sp, #88]
	ldr	x16, [sp, #128]
	mov	x4, x28
	ldr	w28, [sp, #56]
	ldur	x3, [x29, #-136]
	ldr	w2, [sp, #140]
	mov	x5, x19
.LBB95_285:
	and	w8, w20, #0xff
	mov	w9, w15
	mov	w11, #1
	orr	x10, x9, x8, lsl #32
	cmp	w28, #0
	mov	w8, #60
	str	x0, [x16, #256]
	cset	w0, eq
	sub	w15, w8, w30
	stp	x11, x3, [x16, #56]
	mov	w16, w24
.LBB95_286:
	mov	w9, #1
	ldr	q1, [x26, #16]
	ldr	x11, [x26, #200]
	dup	v0.2d, x9
	ldr	x8, [x26, #184]
	and	w12, w4, #0xff
	lsr	x11, x11, x21
	ubfx	x20, x3, #8, #8
	lsr	x24, x3, #32
	add	x8, x21, x8
	ubfx	x14, x4, #32, #16
	cmp	w12, #19
	add	v0.2d, v1.2d, v0.2d
	add	x13, x8, #1
	lsr	x11, x11, #1
	lsr	x17, x10, #32
	sxtw	x18, w10
	and	x28, x3, #0xff
	stp	x13, x13, [x26, #176]
	and	x8, x3, #0xffff0000
	cset	w13, hi
	fmov	x1, d0
	str	x11, [x26, #200]
	str	q0, [x26, #16]
	ldrb	w11, [x25]
	ldrb	w10, [x25, #1]
	str	xzr, [x25, #520]
	cbnz	w9, .LBB95_37
.LBB95_287:
	stp	xzr, x22, [x29, #-32]
	sturb	w28, [x29, #-32]
	sturb	w20, [x29, #-31]
	stur	w24, [x29, #-28]
	cbz	w11, .LBB95_304
	ldur	x19, [x29, #-112]
	cbz	w10, .LBB95_293
	adrp	x8, .LCPI95_1
	mov	w9, #51712
	ldr	d0, [x8, :lo12:.LCPI95_1]
	movk	w9, #15258, lsl #16
	mov	w8, #8
	cmp	x1, x9
	str	x8, [x25, #520]
	str	d0, [x25, #8]
	b.hs	.LBB95_297
	mov	w8, #16960
	movk	w8, #15, lsl #16
	cmp	x1, x8
	b.hs	.LBB95_300
	cmp	x1, #999
	b.hi	.LBB95_302
	cmp	x1, #100
	adrp	x9, .Lstatic.22
	add	x9, x9, :lo12:.Lstatic.22
	cset	w8, lo
	cmp	x1, #10
	add	x9, x9, x1, lsl #2
	cinc	x8, x8, lo
	mov	w10, #11
	ldr	w9, [x9, x8]
	eor	x8, x8, x10
	str	w9, [x25, #16]
	b	.LBB95_298
.LBB95_293:
	mov	w8, #51712
	movk	w8, #15258, lsl #16
	cmp	x1, x8
	b.hs	.LBB95_299
	mov	w8, #16960
	movk	w8, #15, lsl #16
	cmp	x1, x8
	b.hs	.LBB95_301
	cmp	x1, #999
	b.hi	.LBB95_305
	cmp	x1, #100
	adrp	x9, .Lstatic.22
	add	x9, x9, :lo12:.Lstatic.22
	cset	w8, lo
	cmp	x1, #10
	add	x9, x9, x1, lsl #2
	cinc	x8, x8, lo
	add	x21, x25, #8
	ldr	w9, [x9, x8]
	eor	x8, x8, #0x3
	str	w9, [x21]
	b	.LBB95_306
.LBB95_297:
	add	x0, x25, #8
	bl	"sq_digits::decimal::push_long::<=512>"
	ldr	x8, [x25, #520]
.LBB95_298:
	add	x21, x25, #8
	b	.LBB95_303
.LBB95_299:
	add	x0, x25, #8
	bl	"sq_digits::decimal::push_long::<=512>"
	ldr	x8, [x25, #520]
	add	x21, x25, #8
	b	.LBB95_306
.LBB95_300:
	mov	w9, #19923
	mov	w8, w1
	mov	w10, #56963
	movk	w9, #4194, lsl #16
	mov	w11, #4719
	movk	w10, #17179, lsl #16
	umull	x9, w8, w9
	movk	w11, #131, lsl #16
	mov	w12, #57600
	umull	x8, w8, w10
	movk	w12, #1525, lsl #16
	mov	w14, #38528
	cmp	x1, x12
	mov	w12, #1000
	movk	w14, #152, lsl #16
	lsr	x9, x9, #38
	cset	w13, lo
	cmp	x1, x14
	lsr	x8, x8, #48
	cinc	x13, x13, lo
	add	x21, x25, #8
	umull	x10, w9, w11
	adrp	x11, .Lstatic.22
	add	x11, x11, :lo12:.Lstatic.22
	and	x8, x8, #0x7ffc
	sub	x14, x21, x13
	add	x8, x11, x8
	lsr	x10, x10, #33
	ldr	w8, [x8, x13]
	msub	w10, w10, w12, w9
	str	w8, [x25, #16]
	msub	w9, w9, w12, w1
	add	x10, x11, w10, uxtw #2
	ldrh	w8, [x10]
	sturh	w8, [x14, #11]
	ldrb	w8, [x10, #2]
	mov	w10, #14
	sub	x10, x10, x13
	strb	w8, [x14, #13]
	mov	w8, #17
	str	x10, [x25, #520]
	sub	x8, x8, x13
	ldr	s0, [x11, w9, uxtw #2]
	str	s0, [x21, x10]
	b	.LBB95_303
.LBB95_301:
	mov	w9, #19923
	mov	w8, w1
	mov	w10, #56963
	movk	w9, #4194, lsl #16
	mov	w11, #4719
	movk	w10, #17179, lsl #16
	umull	x9, w8, w9
	movk	w11, #131, lsl #16
	mov	w12, #57600
	umull	x8, w8, w10
	movk	w12, #1525, lsl #16
	mov	w14, #38528
	cmp	x1, x12
	mov	w12, #1000
	movk	w14, #152, lsl #16
	lsr	x9, x9, #38
	cset	w13, lo
	cmp	x1, x14
	lsr	x8, x8, #48
	cinc	x13, x13, lo
	add	x21, x25, #8
	umull	x10, w9, w11
	adrp	x11, .Lstatic.22
	add	x11, x11, :lo12:.Lstatic.22
	and	x8, x8, #0x7ffc
	add	x8, x11, x8
	lsr	x10, x10, #33
	ldr	w8, [x8, x13]
	msub	w10, w10, w12, w9
	str	w8, [x25, #8]
	eor	x8, x13, #0x3
	add	x8, x21, x8
	msub	w9, w9, w12, w1
	add	x10, x11, w10, uxtw #2
	ldrh	w14, [x10]
	strh	w14, [x8]
	mov	w14, #6
	ldrb	w10, [x10, #2]
	sub	x12, x14, x13
	str	x12, [x25, #520]
	strb	w10, [x8, #2]
	mov	w8, #9
	ldr	s0, [x11, w9, uxtw #2]
	sub	x8, x8, x13
	str	s0, [x21, x12]
	b	.LBB95_306
.LBB95_302:
	mov	w8, #19923
	mov	w9, w1
	mov	w10, #34464
	movk	w8, #4194, lsl #16
	movk	w10, #1, lsl #16
	mov	w12, #1000
	umull	x8, w9, w8
	lsr	x9, x1, #4
	cmp	x1, x10
	cset	w10, lo
	add	x21, x25, #8
	cmp	x9, #625
	adrp	x9, .Lstatic.22
	add	x9, x9, :lo12:.Lstatic.22
	lsr	x8, x8, #38
	cinc	x10, x10, lo
	add	x11, x9, x8, lsl #2
	msub	w8, w8, w12, w1
	ldr	w11, [x11, x10]
	str	w11, [x25, #16]
	ldr	s0, [x9, w8, uxtw #2]
	sub	x8, x21, x10
	mov	w9, #14
	stur	s0, [x8, #11]
	sub	x8, x9, x10
.LBB95_303:
	adrp	x9, .LCPI95_2
	adrp	x10, .LCPI95_3
	add	x0, x25, #8
	ldr	q0, [x9, :lo12:.LCPI95_2]
	add	x9, x21, x8
	add	x8, x8, #25
	sub	x1, x29, #80
	stp	xzr, x22, [x29, #-80]
	str	q0, [x9]
	ldr	d0, [x10, :lo12:.LCPI95_3]
	mov	w10, #34
	sturb	w28, [x29, #-80]
	sturb	w20, [x29, #-79]
	stur	w24, [x29, #-76]
	str	d0, [x9, #16]
	strb	w10, [x9, #24]
	str	x8, [x25, #520]
	bl	"sq_text::faults::push_fault::<=512>"
	ldr	x8, [x25, #520]
	adrp	x9, .LCPI95_4
	adrp	x10, .LCPI95_5
	ldr	q0, [x9, :lo12:.LCPI95_4]
	adrp	x9, .LCPI95_6
	ldr	q1, [x10, :lo12:.LCPI95_5]
	add	x10, x21, x8
	ldr	q2, [x9, :lo12:.LCPI95_6]
	adrp	x9, .LCPI95_7
	stp	q0, q1, [x10]
	ldr	q0, [x9, :lo12:.LCPI95_7]
	add	x2, x8, #64
	stp	q2, q0, [x10, #32]
	b	.LBB95_307
.LBB95_304:
	add	x0, x25, #8
	sub	x2, x29, #32
	bl	"sq_commands::answer_lines::push_refused_line"
	ldr	x2, [x25, #520]
	ldur	x19, [x29, #-112]
	b	.LBB95_308
.LBB95_305:
	mov	w8, #19923
	mov	w9, w1
	mov	w10, #34464
	movk	w8, #4194, lsl #16
	movk	w10, #1, lsl #16
	mov	w12, #1000
	umull	x8, w9, w8
	lsr	x9, x1, #4
	cmp	x1, x10
	cset	w10, lo
	add	x21, x25, #8
	cmp	x9, #625
	adrp	x9, .Lstatic.22
	add	x9, x9, :lo12:.Lstatic.22
	lsr	x8, x8, #38
	cinc	x10, x10, lo
	add	x11, x9, x8, lsl #2
	msub	w8, w8, w12, w1
	ldr	w11, [x11, x10]
	str	w11, [x21]
	eor	x11, x10, #0x3
	ldr	s0, [x9, w8, uxtw #2]
	mov	w8, #6
	str	s0, [x21, x11]
	sub	x8, x8, x10
.LBB95_306:
	add	x9, x21, x8
	mov	w10, #44
	add	x8, x8, #2
	add	x0, x25, #8
	sub	x1, x29, #80
	stp	xzr, x22, [x29, #-80]
	strb	w10, [x9]
	sturb	w28, [x29, #-80]
	sturb	w20, [x29, #-79]
	stur	w24, [x29, #-76]
	strb	w10, [x9, #1]
	str	x8, [x25, #520]
	bl	"sq_text::faults::push_fault::<=512>"
	ldr	x8, [x25, #520]
	mov	w9, #11308
	mov	w11, #2604
	movk	w9, #11308, lsl #16
	add	x10, x21, x8
	add	x2, x8, #6
	str	w9, [x10]
	strh	w11, [x10, #4]
.LBB95_307:
	str	x2, [x25, #520]
.LBB95_308:
	add	x28, x25, #8
.LBB95_309:
	ldur	x20, [x29, #-96]
.LBB95_310:
	add	x8, x19, x20
	sub	x8, x8, x28
	cmp	x8, x2
	b.hs	.LBB95_2
	cmp	x2, #8
	mov	x8, xzr
	b.lo	.LBB95_322
	ldr	x9, [sp, #104]
	add	x9, x9, x20
	cmp	x9, #32
	b.lo	.LBB95_322
	cmp	x2, #32
	b.hs	.LBB95_315
	mov	x8, xzr
	b	.LBB95_319
.LBB95_315:
	ldr	x10, [sp, #72]
	and	x9, x2, #0x18
	and	x8, x2, #0xffffffffffffffe0
	add	x11, x25, #24
	and	x12, x2, #0xffffffffffffffe0
	add	x10, x10, x20
.LBB95_316:
	ldp	q0, q1, [x11, #-16]
	subs	x12, x12, #32
	add	x11, x11, #32
	stp	q0, q1, [x10, #-16]
	add	x10, x10, #32
	b.ne	.LBB95_316
	cmp	x2, x8
	b.eq	.LBB95_3
	cbz	x9, .LBB95_322
.LBB95_319:
	mov	x10, x8
	and	x8, x2, #0xfffffffffffffff8
	add	x11, x10, x20
	sub	x9, x10, x8
	add	x10, x28, x10
	add	x11, x19, x11
.LBB95_320:
	ldr	d0, [x10], #8
	adds	x9, x9, #8
	str	d0, [x11], #8
	b.ne	.LBB95_320
	cmp	x2, x8
	b.eq	.LBB95_3
.LBB95_322:
	add	x10, x8, x20
	sub	x9, x2, x8
	add	x8, x28, x8
	add	x10, x19, x10
.LBB95_323:
	ldrb	w11, [x8], #1
	subs	x9, x9, #1
	strb	w11, [x10], #1
	b.ne	.LBB95_323
	b	.LBB95_3
.LBB95_324:
	ldp	x1, x4, [sp, #88]
	mov	w7, wzr
	ldp	x19, x17, [sp, #48]
	mov	w6, wzr
	ldr	w2, [sp, #140]
	ldur	x3, [x29, #-136]
	mov	w8, #5
	ldr	x16, [sp, #128]
.LBB95_325:
	ldp	x30, x18, [sp, #24]
	ldr	x26, [sp, #64]
	ldr	x13, [sp, #40]
	b	.LBB95_247
.LBB95_326:
	ldp	x1, x4, [sp, #88]
	mov	w7, w0
	ldp	x19, x17, [sp, #48]
	mov	w8, #6
	ldr	w2, [sp, #140]
	ldur	x3, [x29, #-136]
	ldr	x16, [sp, #128]
	ldr	x6, [sp, #112]
	b	.LBB95_325
.LBB95_327:
	mov	w1, #15728640
	bl	"sq_cpr::index::rare_quotient"
	mov	x8, #-65536
	mov	w11, #7733247
	movk	x8, #65416, lsl #16
	madd	x28, x0, x8, x28
	add	x19, x19, x24
	add	x0, x11, x19, lsl #1
	cmp	x0, #3776, lsl #12
	b.lo	.LBB95_274
.LBB95_328:
	mov	w1, #15466496
	bl	"sq_cpr::index::rare_quotient"
	mov	x8, #-65536
	movk	x8, #65416, lsl #16
	add	x8, x8, #32, lsl #12
	madd	x19, x0, x8, x19
	b	.LBB95_274
.LBB95_329:
	mov	x23, xzr
.LBB95_330:
	ldr	x10, [sp, #80]
	ldur	w9, [x29, #-88]
	mov	w8, #1
	stp	x23, x20, [x10]
.LBB95_331:
	strb	w8, [x10, #16]
	ldur	w8, [x29, #-85]
	stur	w9, [x10, #17]
	str	w8, [x10, #20]
.LBB95_332:
	ldp	x20, x19, [sp, #368]
	ldp	x22, x21, [sp, #352]
	ldp	x24, x23, [sp, #336]
	ldp	x26, x25, [sp, #320]
	ldp	x28, x27, [sp, #304]
	ldp	x29, x30, [sp, #288]
	add	sp, sp, #384
	ret
.LBB95_333:
	ldr	x10, [sp, #80]
	ldur	w8, [x29, #-88]
	ldur	w9, [x29, #-85]
	stp	x23, x20, [x10]
	strb	wzr, [x10, #16]
	stur	w8, [x10, #17]
	str	w9, [x10, #20]
	b	.LBB95_332
.LBB95_334:
	ldr	x10, [sp, #80]
	ldur	x11, [x29, #-96]
	add	x8, x27, x23
	ldur	w9, [x29, #-88]
	stp	x8, x11, [x10]
	mov	w8, #2
	b	.LBB95_331
.Lfunc_end95:
	.size	"squitter_c::log_loop::write_some::<#507aa2edf0378fed>", .Lfunc_end95-"squitter_c::log_loop::write_some::<#507aa2edf0378fed>"

	.section	".text.unlikely.sq_commands::answer_lines::push_refused_line","ax",@progbits
	.p2align	2
	.type	"sq_commands::answer_lines::push_refused_line",@function
"sq_commands::answer_lines::push_refused_line":
	sub	sp, sp, #48
	mov	w11, #51711
	ldrh	w8, [x2]
	ldr	x9, [x2, #8]
	ldr	w10, [x2, #4]
	movk	w11, #15258, lsl #16
	str	x19, [sp, #32]
	mov	x19, x0
	cmp	x1, x11
	stp	x29, x30, [sp, #16]
	add	x29, sp, #16
	stp	xzr, x9, [sp]
	strh	w8, [sp]
	str	w10, [sp, #4]
	b.hi	.LBB96_4
	mov	w8, #16959
	movk	w8, #15, lsl #16
	cmp	x1, x8
	b.hi	.LBB96_5
	cmp	x1, #999
	b.hi	.LBB96_6
	cmp	x1, #100
	adrp	x9, .Lstatic.22
	add	x9, x9, :lo12:.Lstatic.22
	cset	w8, lo
	cmp	x1, #10
	add	x9, x9, x1, lsl #2
	cinc	x8, x8, lo
	ldr	x10, [x19, #512]
	ldr	w9, [x9, x8]
	eor	x8, x8, #0x3
	str	w9, [x19, x10]
	add	x8, x10, x8
	b	.LBB96_7
.LBB96_4:
	mov	x0, x19
	bl	"sq_digits::decimal::push_long::<=512>"
	ldr	x8, [x19, #512]
	b	.LBB96_7
.LBB96_5:
	mov	w8, #19923
	mov	w9, #56963
	mov	w10, #37749
	movk	w8, #4194, lsl #16
	movk	w9, #17179, lsl #16
	movk	w10, #1048, lsl #16
	mul	x8, x1, x8
	mov	w12, #57600
	mov	w13, #1000
	movk	w12, #1525, lsl #16
	mov	w14, #38528
	adrp	x11, .Lstatic.22
	add	x11, x11, :lo12:.Lstatic.22
	mul	x9, x1, x9
	movk	w14, #152, lsl #16
	cmp	x1, x12
	cset	w12, lo
	cmp	x1, x14
	ldr	x14, [x19, #512]
	lsr	x8, x8, #38
	cinc	x12, x12, lo
	umull	x10, w8, w10
	lsr	x9, x9, #50
	add	x9, x11, x9, lsl #2
	lsr	x10, x10, #36
	ldr	w9, [x9, x12]
	eor	x12, x12, #0x3
	msub	w10, w10, w13, w8
	str	w9, [x19, x14]
	add	x9, x14, x12
	add	x14, x19, x9
	msub	w8, w8, w13, w1
	add	x10, x11, w10, uxtw #2
	ldrh	w12, [x10]
	strh	w12, [x14]
	add	x12, x9, #3
	ldrb	w10, [x10, #2]
	strb	w10, [x14, #2]
	str	x12, [x19, #512]
	ldr	s0, [x11, w8, uxtw #2]
	add	x8, x9, #6
	str	s0, [x19, x12]
	b	.LBB96_7
.LBB96_6:
	mov	w8, #19923
	lsr	x9, x1, #5
	adrp	x11, .Lstatic.22
	add	x11, x11, :lo12:.Lstatic.22
	movk	w8, #4194, lsl #16
	mov	w12, #1000
	mul	x8, x1, x8
	cmp	x9, #3125
	lsr	x9, x1, #4
	cset	w10, lo
	cmp	x9, #625
	cinc	x10, x10, lo
	lsr	x8, x8, #38
	add	x9, x11, x8, lsl #2
	msub	w8, w8, w12, w1
	ldr	x12, [x19, #512]
	ldr	w9, [x9, x10]
	str	w9, [x19, x12]
	eor	x9, x10, #0x3
	add	x9, x12, x9
	ldr	s0, [x11, w8, uxtw #2]
	str	s0, [x19, x9]
	add	x8, x9, #3
.LBB96_7:
	mov	w9, #32
	strb	w9, [x19, x8]
	add	x8, x8, #1
	mov	x1, sp
	mov	x0, x19
	str	x8, [x19, #512]
	bl	"sq_text::faults::push_fault::<=512>"
	ldr	x8, [x19, #512]
	mov	w9, #10
	ldp	x29, x30, [sp, #16]
	strb	w9, [x19, x8]
	add	x8, x8, #1
	str	x8, [x19, #512]
	ldr	x19, [sp, #32]
	add	sp, sp, #48
	ret
.Lfunc_end96:
	.size	"sq_commands::answer_lines::push_refused_line", .Lfunc_end96-"sq_commands::answer_lines::push_refused_line"

	.section	".text.sq_text::faults::push_fault::<=512>","ax",@progbits
	.p2align	2
	.type	"sq_text::faults::push_fault::<=512>",@function
"sq_text::faults::push_fault::<=512>":
	ldrb	w11, [x1]
	adrp	x8, ".Lswitch.table.sq_text::faults::push_fault::<=512>"
	add	x8, x8, :lo12:".Lswitch.table.sq_text::faults::push_fault::<=512>"
	ldr	x12, [x0, #512]
	adrp	x13, ".Lswitch.table.sq_text::faults::push_fault::<=512>.358"
	add	x13, x13, :lo12:".Lswitch.table.sq_text::faults::push_fault::<=512>.358"
	ldr	x8, [x8, x11, lsl #3]
	ldrb	w10, [x1, #1]
	ldr	w9, [x1, #4]
	ldr	x1, [x1, #8]
	ldr	x13, [x13, x11, lsl #3]
	mov	x15, x12
	mov	x14, x8
.LBB97_1:
	ldrb	w16, [x13], #1
	subs	x14, x14, #1
	strb	w16, [x0, x15]
	add	x15, x15, #1
	b.ne	.LBB97_1
	add	x8, x12, x8
	cmp	w11, #4
	str	x8, [x0, #512]
	b.gt	.LBB97_5
	b.hs	.LBB97_11
.LBB97_4:
	ret
.LBB97_5:
	cmp	w11, #6
	b.le	.LBB97_10
	cmp	w11, #7
	b.eq	.LBB97_15
	cmp	w11, #8
	b.ne	.LBB97_4
	mov	w9, #51712
	movk	w9, #15258, lsl #16
	cmp	x1, x9
	b.lo	.LBB97_12
.LBB97_9:
	b	"sq_digits::decimal::push_long::<=512>"
.LBB97_10:
	cmp	w11, #5
	b.ne	.LBB97_16
.LBB97_11:
	mov	w9, #51712
	movk	w9, #15258, lsl #16
	cmp	x1, x9
	b.hs	.LBB97_9
.LBB97_12:
	mov	w9, #16960
	movk	w9, #15, lsl #16
	cmp	x1, x9
	b.hs	.LBB97_18
	cmp	x1, #999
	b.hi	.LBB97_19
	adrp	x10, .Lstatic.22
	add	x10, x10, :lo12:.Lstatic.22
	cmp	x1, #100
	add	x10, x10, x1, lsl #2
	cset	w9, lo
	cmp	x1, #10
	b	.LBB97_17
.LBB97_15:
	lsr	x10, x9, #15
	adrp	x11, .Lstatic.67
	add	x11, x11, :lo12:.Lstatic.67
	lsr	x12, x9, #7
	add	x13, x0, x8
	add	x8, x8, #6
	and	x10, x10, #0x1fe
	ubfiz	x9, x9, #1, #8
	ldrh	w10, [x11, x10]
	and	x12, x12, #0x1fe
	strh	w10, [x13]
	ldrh	w10, [x11, x12]
	strh	w10, [x13, #2]
	ldrh	w9, [x11, x9]
	strh	w9, [x13, #4]
	str	x8, [x0, #512]
	ret
.LBB97_16:
	cmp	w10, #100
	adrp	x11, .Lstatic.22
	add	x11, x11, :lo12:.Lstatic.22
	cset	w9, lo
	cmp	w10, #10
	add	x10, x11, x10, lsl #2
.LBB97_17:
	cinc	x9, x9, lo
	ldr	w10, [x10, x9]
	eor	x9, x9, #0x3
	str	w10, [x0, x8]
	add	x8, x8, x9
	str	x8, [x0, #512]
	ret
.LBB97_18:
	mov	w9, #19923
	mov	w10, #56963
	mov	w11, #37749
	movk	w9, #4194, lsl #16
	movk	w10, #17179, lsl #16
	movk	w11, #1048, lsl #16
	mul	x9, x1, x9
	mov	w12, #57600
	mov	w13, #38528
	movk	w12, #1525, lsl #16
	movk	w13, #152, lsl #16
	mov	w14, #1000
	mul	x10, x1, x10
	cmp	x1, x12
	cset	w12, lo
	cmp	x1, x13
	adrp	x13, .Lstatic.22
	add	x13, x13, :lo12:.Lstatic.22
	cinc	x12, x12, lo
	lsr	x9, x9, #38
	umull	x11, w9, w11
	lsr	x10, x10, #50
	add	x10, x13, x10, lsl #2
	lsr	x11, x11, #36
	ldr	w10, [x10, x12]
	eor	x12, x12, #0x3
	msub	w11, w11, w14, w9
	str	w10, [x0, x8]
	add	x8, x8, x12
	add	x12, x0, x8
	msub	w9, w9, w14, w1
	add	x8, x8, #6
	add	x11, x13, w11, uxtw #2
	ldrh	w10, [x11]
	strh	w10, [x12]
	ldrb	w10, [x11, #2]
	strb	w10, [x12, #2]
	ldr	s0, [x13, w9, uxtw #2]
	stur	s0, [x12, #3]
	str	x8, [x0, #512]
	ret
.LBB97_19:
	mov	w9, #19923
	lsr	x10, x1, #5
	lsr	x11, x1, #4
	movk	w9, #4194, lsl #16
	adrp	x12, .Lstatic.22
	add	x12, x12, :lo12:.Lstatic.22
	mul	x9, x1, x9
	cmp	x10, #3125
	mov	w13, #1000
	cset	w10, lo
	cmp	x11, #625
	cinc	x10, x10, lo
	lsr	x9, x9, #38
	add	x11, x12, x9, lsl #2
	msub	w9, w9, w13, w1
	ldr	w11, [x11, x10]
	eor	x10, x10, #0x3
	str	w11, [x0, x8]
	add	x8, x8, x10
	ldr	s0, [x12, w9, uxtw #2]
	add	x9, x8, #3
	str	s0, [x0, x8]
	str	x9, [x0, #512]
	ret
.Lfunc_end97:
	.size	"sq_text::faults::push_fault::<=512>", .Lfunc_end97-"sq_text::faults::push_fault::<=512>"

	.section	.text.squitter_feed_size,"ax",@progbits
	.globl	squitter_feed_size
	.p2align	2
	.type	squitter_feed_size,@function
squitter_feed_size:
	mov	w0, #20480
	ret
.Lfunc_end98:
	.size	squitter_feed_size, .Lfunc_end98-squitter_feed_size

	.section	.text.squitter_log_header,"ax",@progbits
	.globl	squitter_log_header
	.p2align	2
	.type	squitter_log_header,@function
squitter_log_header:
	adrp	x8, .Lstatic.0
	add	x8, x8, :lo12:.Lstatic.0
	cmp	w0, #1
	adrp	x9, .Lstatic.1
	add	x9, x9, :lo12:.Lstatic.1
	csel	x8, x9, x8, eq
	b.ne	.LBB99_6
	mov	x9, xzr
	b	.LBB99_3
.LBB99_2:
	ldrb	w10, [x8, x9]
	strb	w10, [x1, x9]
	add	x9, x9, #1
	cmp	x9, #64
	b.eq	.LBB99_5
.LBB99_3:
	cmp	x9, #44
	b.ls	.LBB99_2
	strb	wzr, [x1, x9]
	add	x9, x9, #1
	cmp	x9, #64
	b.ne	.LBB99_3
.LBB99_5:
	ret
.LBB99_6:
	movi	v0.2d, #0000000000000000
	stp	q0, q0, [x1]
	stp	q0, q0, [x1, #32]
	ret
.Lfunc_end99:
	.size	squitter_log_header, .Lfunc_end99-squitter_log_header

	.section	.text.squitter_order_size,"ax",@progbits
	.globl	squitter_order_size
	.p2align	2
	.type	squitter_order_size,@function
squitter_order_size:
	mov	w8, #43691
	mov	w9, w0
	mov	x10, #536
	movk	w8, #43690, lsl #16
	umull	x8, w0, w8
	add	x8, x9, x8, lsr #33
	mov	w9, #24
	madd	x0, x8, x9, x10
	ret
.Lfunc_end100:
	.size	squitter_order_size, .Lfunc_end100-squitter_order_size

	.section	.text.squitter_text_of_frame,"ax",@progbits
	.globl	squitter_text_of_frame
	.p2align	2
	.type	squitter_text_of_frame,@function
squitter_text_of_frame:
	ldrb	w9, [x0]
	adrp	x8, .Lstatic.2
	add	x8, x8, :lo12:.Lstatic.2
	lsr	x10, x9, #4
	and	x9, x9, #0xf
	ldrb	w10, [x8, x10]
	strb	w10, [x1]
	ldrb	w9, [x8, x9]
	strb	w9, [x1, #1]
	ldrb	w9, [x0, #1]
	lsr	x10, x9, #4
	and	x9, x9, #0xf
	ldrb	w10, [x8, x10]
	strb	w10, [x1, #2]
	ldrb	w9, [x8, x9]
	strb	w9, [x1, #3]
	ldrb	w9, [x0, #2]
	lsr	x10, x9, #4
	and	x9, x9, #0xf
	ldrb	w10, [x8, x10]
	strb	w10, [x1, #4]
	ldrb	w9, [x8, x9]
	strb	w9, [x1, #5]
	ldrb	w9, [x0, #3]
	lsr	x10, x9, #4
	and	x9, x9, #0xf
	ldrb	w10, [x8, x10]
	strb	w10, [x1, #6]
	ldrb	w9, [x8, x9]
	strb	w9, [x1, #7]
	ldrb	w9, [x0, #4]
	lsr	x10, x9, #4
	and	x9, x9, #0xf
	ldrb	w10, [x8, x10]
	strb	w10, [x1, #8]
	ldrb	w9, [x8, x9]
	strb	w9, [x1, #9]
	ldrb	w9, [x0, #5]
	lsr	x10, x9, #4
	and	x9, x9, #0xf
	ldrb	w10, [x8, x10]
	strb	w10, [x1, #10]
	ldrb	w9, [x8, x9]
	strb	w9, [x1, #11]
	ldrb	w9, [x0, #6]
	lsr	x10, x9, #4
	and	x9, x9, #0xf
	ldrb	w10, [x8, x10]
	strb	w10, [x1, #12]
	ldrb	w9, [x8, x9]
	strb	w9, [x1, #13]
	ldrb	w9, [x0, #7]
	lsr	x10, x9, #4
	and	x9, x9, #0xf
	ldrb	w10, [x8, x10]
	strb	w10, [x1, #14]
	ldrb	w9, [x8, x9]
	strb	w9, [x1, #15]
	ldrb	w9, [x0, #8]
	lsr	x10, x9, #4
	and	x9, x9, #0xf
	ldrb	w10, [x8, x10]
	strb	w10, [x1, #16]
	ldrb	w9, [x8, x9]
	strb	w9, [x1, #17]
	ldrb	w9, [x0, #9]
	lsr	x10, x9, #4
	and	x9, x9, #0xf
	ldrb	w10, [x8, x10]
	strb	w10, [x1, #18]
	ldrb	w9, [x8, x9]
	strb	w9, [x1, #19]
	ldrb	w9, [x0, #10]
	lsr	x10, x9, #4
	and	x9, x9, #0xf
	ldrb	w10, [x8, x10]
	strb	w10, [x1, #20]
	ldrb	w9, [x8, x9]
	strb	w9, [x1, #21]
	ldrb	w9, [x0, #11]
	lsr	x10, x9, #4
	and	x9, x9, #0xf
	ldrb	w10, [x8, x10]
	strb	w10, [x1, #22]
	ldrb	w9, [x8, x9]
	strb	w9, [x1, #23]
	ldrb	w9, [x0, #12]
	lsr	x10, x9, #4
	and	x9, x9, #0xf
	ldrb	w10, [x8, x10]
	strb	w10, [x1, #24]
	ldrb	w9, [x8, x9]
	strb	w9, [x1, #25]
	ldrb	w9, [x0, #13]
	lsr	x10, x9, #4
	and	x9, x9, #0xf
	ldrb	w10, [x8, x10]
	strb	w10, [x1, #26]
	ldrb	w8, [x8, x9]
	strb	w8, [x1, #27]
	ret
.Lfunc_end101:
	.size	squitter_text_of_frame, .Lfunc_end101-squitter_text_of_frame

	.section	.text.squitter_tracker_size,"ax",@progbits
	.globl	squitter_tracker_size
	.p2align	2
	.type	squitter_tracker_size,@function
squitter_tracker_size:
	mov	w8, w0
	mov	w11, #1
	add	x8, x8, #1
	lsl	x9, x8, #1
.LBB102_1:
	add	x12, x11, x11, lsl #3
	mov	x10, x11
	lsl	x11, x11, #1
	cmp	x12, x9
	b.lo	.LBB102_1
	mov	w9, #2848
	mul	x9, x10, x9
	add	x8, x9, x8, lsl #3
	add	x0, x8, #1280
	ret
.Lfunc_end102:
	.size	squitter_tracker_size, .Lfunc_end102-squitter_tracker_size

	.section	.text.squitter_log_size,"ax",@progbits
	.globl	squitter_log_size
	.p2align	2
	.type	squitter_log_size,@function
squitter_log_size:
	mov	w8, w0
	mov	w11, #1
	add	x8, x8, #1
	lsl	x9, x8, #1
.LBB103_1:
	add	x12, x11, x11, lsl #3
	mov	x10, x11
	lsl	x11, x11, #1
	cmp	x12, x9
	b.lo	.LBB103_1
	mov	w9, #2848
	mul	x9, x10, x9
	add	x8, x9, x8, lsl #3
	add	x0, x8, #1280
	ret
.Lfunc_end103:
	.size	squitter_log_size, .Lfunc_end103-squitter_log_size

	.section	.text.squitter_version,"ax",@progbits
	.globl	squitter_version
	.p2align	2
	.type	squitter_version,@function
squitter_version:
	mov	w0, #256
	ret
.Lfunc_end104:
	.size	squitter_version, .Lfunc_end104-squitter_version

	.section	.text.squitter_feed_free,"ax",@progbits
	.globl	squitter_feed_free
	.p2align	2
	.type	squitter_feed_free,@function
squitter_feed_free:
	stp	xzr, xzr, [x0]
	ret
.Lfunc_end105:
	.size	squitter_feed_free, .Lfunc_end105-squitter_feed_free

	.section	.text.squitter_order_free,"ax",@progbits
	.globl	squitter_order_free
	.p2align	2
	.type	squitter_order_free,@function
squitter_order_free:
	stp	xzr, xzr, [x0]
	ret
.Lfunc_end106:
	.size	squitter_order_free, .Lfunc_end106-squitter_order_free

	.section	.text.squitter_tracker_free,"ax",@progbits
	.globl	squitter_tracker_free
	.p2align	2
	.type	squitter_tracker_free,@function
squitter_tracker_free:
	stp	xzr, xzr, [x0]
	ret
.Lfunc_end107:
	.size	squitter_tracker_free, .Lfunc_end107-squitter_tracker_free

	.section	.text.squitter_log_free,"ax",@progbits
	.globl	squitter_log_free
	.p2align	2
	.type	squitter_log_free,@function
squitter_log_free:
	stp	xzr, xzr, [x0]
	ret
.Lfunc_end108:
	.size	squitter_log_free, .Lfunc_end108-squitter_log_free

	.section	.text.squitter_tracker_len,"ax",@progbits
	.globl	squitter_tracker_len
	.p2align	2
	.type	squitter_tracker_len,@function
squitter_tracker_len:
	ldp	x8, x9, [x0]
	stp	xzr, xzr, [x0]
	cbz	x8, .LBB109_2
	ldr	x8, [x9, #80]
	mov	w10, #1
	stp	x10, x9, [x0]
.LBB109_2:
	mov	x0, x8
	ret
.Lfunc_end109:
	.size	squitter_tracker_len, .Lfunc_end109-squitter_tracker_len

	.section	.rodata.cst8,"aM",@progbits,8
	.p2align	3, 0x0
.LCPI110_0:
	.byte	98
	.byte	97
	.byte	100
	.byte	32
	.byte	101
	.byte	110
	.byte	116
	.byte	114
.LCPI110_1:
	.byte	98
	.byte	97
	.byte	100
	.byte	32
	.byte	102
	.byte	111
	.byte	114
	.byte	109
.LCPI110_2:
	.byte	108
	.byte	111
	.byte	103
	.byte	32
	.byte	116
	.byte	111
	.byte	111
	.byte	32
.LCPI110_3:
	.byte	108
	.byte	111
	.byte	110
	.byte	103
	.zero	1
	.zero	1
	.zero	1
	.zero	1
.LCPI110_4:
	.byte	110
	.byte	111
	.byte	32
	.byte	116
	.byte	114
	.byte	97
	.byte	99
	.byte	107
.LCPI110_5:
	.byte	108
	.byte	105
	.byte	109
	.byte	105
	.byte	116
	.byte	32
	.byte	105
	.byte	115
.LCPI110_6:
	.byte	111
	.byte	117
	.byte	116
	.byte	32
	.byte	111
	.byte	102
	.byte	32
	.byte	109
.LCPI110_7:
	.byte	101
	.byte	109
	.byte	111
	.byte	114
	.zero	1
	.zero	1
	.zero	1
	.zero	1
.LCPI110_8:
	.byte	116
	.byte	97
	.byte	98
	.byte	108
	.byte	101
	.byte	32
	.byte	102
	.byte	117
.LCPI110_9:
	.byte	98
	.byte	97
	.byte	100
	.byte	32
	.byte	109
	.byte	111
	.byte	109
	.byte	101
.LCPI110_10:
	.byte	108
	.byte	111
	.byte	110
	.byte	103
	.byte	32
	.byte	108
	.byte	105
	.byte	110
.LCPI110_11:
	.byte	111
	.byte	117
	.byte	116
	.byte	32
	.byte	111
	.byte	102
	.byte	32
	.byte	114
.LCPI110_12:
	.byte	97
	.byte	110
	.byte	103
	.byte	101
	.zero	1
	.zero	1
	.zero	1
	.zero	1
.LCPI110_14:
	.byte	110
	.byte	111
	.byte	116
	.byte	32
	.byte	97
	.byte	32
	.byte	110
	.byte	117
.LCPI110_15:
	.byte	109
	.byte	98
	.byte	101
	.byte	114
	.zero	1
	.zero	1
	.zero	1
	.zero	1
.LCPI110_16:
	.byte	98
	.byte	97
	.byte	100
	.byte	32
	.byte	112
	.byte	97
	.byte	114
	.byte	105
.LCPI110_17:
	.byte	98
	.byte	97
	.byte	100
	.byte	32
	.byte	102
	.byte	101
	.byte	101
	.byte	116
.LCPI110_18:
	.byte	98
	.byte	97
	.byte	100
	.byte	32
	.byte	108
	.byte	97
	.byte	116
	.byte	105
.LCPI110_19:
	.byte	116
	.byte	117
	.byte	100
	.byte	101
	.zero	1
	.zero	1
	.zero	1
	.zero	1
.LCPI110_20:
	.byte	98
	.byte	97
	.byte	100
	.byte	32
	.byte	97
	.byte	110
	.byte	103
	.byte	108
.LCPI110_21:
	.byte	98
	.byte	97
	.byte	100
	.byte	32
	.byte	102
	.byte	105
	.byte	101
	.byte	108
.LCPI110_22:
	.byte	98
	.byte	97
	.byte	100
	.byte	32
	.byte	112
	.byte	111
	.byte	115
	.byte	105
.LCPI110_23:
	.byte	116
	.byte	105
	.byte	111
	.byte	110
	.zero	1
	.zero	1
	.zero	1
	.zero	1
.LCPI110_24:
	.byte	122
	.byte	111
	.byte	110
	.byte	101
	.byte	32
	.byte	99
	.byte	111
	.byte	117
.LCPI110_25:
	.byte	110
	.byte	116
	.byte	115
	.byte	32
	.zero	1
	.zero	1
	.zero	1
	.zero	1
.LCPI110_27:
	.byte	114
	.byte	97
	.byte	110
	.byte	103
	.zero	1
	.zero	1
	.zero	1
	.zero	1
.LCPI110_28:
	.byte	110
	.byte	111
	.byte	32
	.byte	115
	.zero	1
	.zero	1
	.zero	1
	.zero	1
.LCPI110_29:
	.byte	115
	.byte	97
	.byte	109
	.byte	101
	.byte	32
	.byte	112
	.byte	97
	.byte	114
.LCPI110_30:
	.byte	111
	.byte	116
	.byte	104
	.byte	101
	.byte	114
	.byte	32
	.byte	107
	.byte	105
.LCPI110_31:
	.byte	111
	.byte	116
	.byte	104
	.byte	101
	.byte	114
	.byte	32
	.byte	97
	.byte	100
.LCPI110_32:
	.byte	100
	.byte	114
	.byte	101
	.byte	115
	.zero	1
	.zero	1
	.zero	1
	.zero	1
.LCPI110_33:
	.byte	110
	.byte	111
	.byte	116
	.byte	32
	.byte	97
	.byte	32
	.byte	112
	.byte	111
.LCPI110_34:
	.byte	115
	.byte	105
	.byte	116
	.byte	105
	.zero	1
	.zero	1
	.zero	1
	.zero	1
.LCPI110_35:
	.byte	112
	.byte	97
	.byte	114
	.byte	105
	.zero	1
	.zero	1
	.zero	1
	.zero	1
.LCPI110_38:
	.byte	115
	.byte	104
	.byte	111
	.byte	114
	.byte	116
	.byte	32
	.byte	102
	.byte	114
.LCPI110_39:
	.byte	98
	.byte	97
	.byte	100
	.byte	32
	.byte	119
	.byte	114
	.byte	97
	.byte	112
.LCPI110_40:
	.byte	112
	.byte	105
	.byte	110
	.byte	103
	.zero	1
	.zero	1
	.zero	1
	.zero	1
.LCPI110_41:
	.byte	110
	.byte	111
	.byte	32
	.byte	102
	.byte	97
	.byte	117
	.byte	108
	.byte	116
.LCPI110_42:
	.byte	117
	.byte	110
	.byte	107
	.byte	110
	.byte	111
	.byte	119
	.byte	110
	.byte	32
.LCPI110_43:
	.byte	102
	.byte	97
	.byte	117
	.byte	108
	.zero	1
	.zero	1
	.zero	1
	.zero	1
	.section	.rodata.cst16,"aM",@progbits,16
	.p2align	4, 0x0
.LCPI110_13:
	.byte	116
	.byte	111
	.byte	111
	.byte	32
	.byte	109
	.byte	97
	.byte	110
	.byte	121
	.byte	32
	.byte	100
	.byte	101
	.byte	99
	.byte	105
	.byte	109
	.byte	97
	.byte	108
.LCPI110_26:
	.byte	108
	.byte	97
	.byte	116
	.byte	105
	.byte	116
	.byte	117
	.byte	100
	.byte	101
	.byte	32
	.byte	111
	.byte	117
	.byte	116
	.byte	32
	.byte	111
	.byte	102
	.byte	32
.LCPI110_36:
	.xword	-12
	.xword	-8
.LCPI110_37:
	.xword	-20
	.xword	-16
.LCPI110_44:
	.xword	14
	.xword	15
.LCPI110_45:
	.xword	12
	.xword	13
.LCPI110_46:
	.xword	10
	.xword	11
.LCPI110_47:
	.xword	8
	.xword	9
.LCPI110_48:
	.xword	6
	.xword	7
.LCPI110_49:
	.xword	4
	.xword	5
.LCPI110_50:
	.xword	2
	.xword	3
.LCPI110_51:
	.xword	0
	.xword	1
.LCPI110_52:
	.xword	30
	.xword	31
.LCPI110_53:
	.xword	28
	.xword	29
.LCPI110_54:
	.xword	26
	.xword	27
.LCPI110_55:
	.xword	24
	.xword	25
.LCPI110_56:
	.xword	22
	.xword	23
.LCPI110_57:
	.xword	20
	.xword	21
.LCPI110_58:
	.xword	18
	.xword	19
.LCPI110_59:
	.xword	16
	.xword	17
.LCPI110_60:
	.xword	46
	.xword	47
.LCPI110_61:
	.xword	44
	.xword	45
.LCPI110_62:
	.xword	42
	.xword	43
.LCPI110_63:
	.xword	40
	.xword	41
.LCPI110_64:
	.xword	38
	.xword	39
.LCPI110_65:
	.xword	36
	.xword	37
.LCPI110_66:
	.xword	34
	.xword	35
.LCPI110_67:
	.xword	32
	.xword	33
.LCPI110_68:
	.xword	62
	.xword	63
.LCPI110_69:
	.xword	60
	.xword	61
.LCPI110_70:
	.xword	58
	.xword	59
.LCPI110_71:
	.xword	56
	.xword	57
.LCPI110_72:
	.xword	54
	.xword	55
.LCPI110_73:
	.xword	52
	.xword	53
.LCPI110_74:
	.xword	50
	.xword	51
.LCPI110_75:
	.xword	48
	.xword	49
	.section	.text.squitter_text_of_fault,"ax",@progbits
	.globl	squitter_text_of_fault
	.p2align	2
	.type	squitter_text_of_fault,@function
squitter_text_of_fault:
	sub	sp, sp, #192
	stp	x20, x19, [sp, #176]
	movi	v0.2d, #0000000000000000
	ldr	x2, [x0, #8]
	ldp	w8, w19, [x0]
	stp	x29, x30, [sp, #160]
	add	x29, sp, #160
	stp	d9, d8, [sp, #144]
	cmp	w8, #50
	str	xzr, [sp, #64]
	stp	q0, q0, [sp]
	stp	q0, q0, [sp, #32]
	stp	xzr, xzr, [x29, #-32]
	stp	xzr, xzr, [x29, #-48]
	stp	xzr, xzr, [x29, #-64]
	stp	xzr, xzr, [sp, #80]
	b.hi	.LBB110_47
	adrp	x9, .LJTI110_0
	add	x9, x9, :lo12:.LJTI110_0
	adr	x10, .LBB110_2
	ldrh	w11, [x9, x8, lsl #1]
	add	x10, x10, x11, lsl #2
	br	x10
.LBB110_2:
	adrp	x8, .LCPI110_41
	ldr	d0, [x8, :lo12:.LCPI110_41]
	b	.LBB110_4
.LBB110_3:
	adrp	x8, .LCPI110_17
	ldr	d0, [x8, :lo12:.LCPI110_17]
.LBB110_4:
	mov	w8, #8
	str	d0, [sp]
	b	.LBB110_51
.LBB110_5:
	adrp	x8, .LCPI110_13
	mov	w9, #115
	ldr	q0, [x8, :lo12:.LCPI110_13]
	strb	w9, [sp, #16]
	mov	w8, #17
	str	q0, [sp]
	b	.LBB110_51
.LBB110_6:
	mov	w8, #8
	mov	x0, sp
	mov	x19, x1
	strb	w8, [sp, #80]
	add	x1, sp, #80
	b	.LBB110_28
.LBB110_7:
	adrp	x8, .LCPI110_10
	mov	w9, #101
	ldr	d0, [x8, :lo12:.LCPI110_10]
	b	.LBB110_33
.LBB110_8:
	adrp	x8, .LCPI110_5
	mov	w9, #12320
	ldr	d0, [x8, :lo12:.LCPI110_5]
	b	.LBB110_42
.LBB110_9:
	adrp	x8, .LCPI110_26
	adrp	x9, .LCPI110_27
	mov	w10, #101
	ldr	q0, [x8, :lo12:.LCPI110_26]
	ldr	d1, [x9, :lo12:.LCPI110_27]
	strb	w10, [sp, #20]
	mov	w8, #21
	str	q0, [sp]
	str	s1, [sp, #16]
	b	.LBB110_51
.LBB110_10:
	adrp	x8, .LCPI110_28
	mov	w9, #29801
	mov	w10, #101
	ldr	d0, [x8, :lo12:.LCPI110_28]
	strh	w9, [sp, #4]
	mov	w8, #7
	strb	w10, [sp, #6]
	str	s0, [sp]
	b	.LBB110_51
.LBB110_11:
	adrp	x8, .LCPI110_11
	adrp	x9, .LCPI110_12
	ldr	d0, [x8, :lo12:.LCPI110_11]
	ldr	d1, [x9, :lo12:.LCPI110_12]
	b	.LBB110_39
.LBB110_12:
	adrp	x8, .LCPI110_16
	mov	w9, #31092
	ldr	d0, [x8, :lo12:.LCPI110_16]
	b	.LBB110_42
.LBB110_13:
	adrp	x8, .LCPI110_4
	mov	w9, #29285
	ldr	d0, [x8, :lo12:.LCPI110_4]
	b	.LBB110_42
.LBB110_14:
	adrp	x8, .LCPI110_1
	mov	w9, #29793
	ldr	d0, [x8, :lo12:.LCPI110_1]
	b	.LBB110_42
.LBB110_15:
	dup	v0.2d, x2
	adrp	x8, .LCPI110_36
	adrp	x9, .LCPI110_37
	ldr	q1, [x8, :lo12:.LCPI110_36]
	ldr	q2, [x9, :lo12:.LCPI110_37]
	movi	v3.4h, #55
	adrp	x8, .LCPI110_35
	mov	w10, #32
	mov	w9, #31092
	ushl	v1.2d, v0.2d, v1.2d
	ushl	v0.2d, v0.2d, v2.2d
	movi	v2.4h, #10
	strb	w10, [sp, #6]
	mov	w10, #48
	and	w11, w2, #0xff
	strh	w9, [sp, #4]
	mov	w9, #48
	bfxil	w10, w2, #4, #4
	uzp1	v0.4s, v0.4s, v1.4s
	movi	v1.4h, #15
	cmp	w11, #160
	and	w11, w2, #0xf
	bfxil	w9, w2, #0, #4
	add	w12, w11, #55
	xtn	v0.4h, v0.4s
	and	v0.8b, v0.8b, v1.8b
	cmhi	v1.4h, v2.4h, v0.4h
	add	v2.4h, v0.4h, v3.4h
	orr	v0.4h, #48
	bif	v0.8b, v2.8b, v1.8b
	ldr	d1, [x8, :lo12:.LCPI110_35]
	ubfx	w8, w2, #4, #4
	add	w8, w8, #55
	str	s1, [sp]
	csel	w8, w10, w8, lo
	cmp	w11, #10
	uzp1	v0.8b, v0.8b, v0.8b
	strb	w8, [sp, #11]
	csel	w8, w9, w12, lo
	strb	w8, [sp, #12]
	mov	w8, #13
	stur	s0, [sp, #7]
	b	.LBB110_51
.LBB110_16:
	adrp	x8, .LCPI110_33
	adrp	x9, .LCPI110_34
	mov	w10, #28271
	ldr	d0, [x8, :lo12:.LCPI110_33]
	ldr	d1, [x9, :lo12:.LCPI110_34]
	strh	w10, [sp, #12]
	mov	w8, #14
	b	.LBB110_49
.LBB110_17:
	mov	w8, #4
	mov	x0, sp
	mov	x19, x1
	sub	x1, x29, #32
	sturb	w8, [x29, #-32]
	b	.LBB110_28
.LBB110_18:
	mov	w8, #5
	mov	x0, sp
	mov	x19, x1
	sturb	w8, [x29, #-48]
	sub	x1, x29, #48
	b	.LBB110_28
.LBB110_19:
	adrp	x8, .LCPI110_39
	adrp	x9, .LCPI110_40
	ldr	d0, [x8, :lo12:.LCPI110_39]
	ldr	d1, [x9, :lo12:.LCPI110_40]
	b	.LBB110_39
.LBB110_20:
	adrp	x8, .LCPI110_9
	mov	w9, #29806
	ldr	d0, [x8, :lo12:.LCPI110_9]
	b	.LBB110_42
.LBB110_21:
	adrp	x8, .LCPI110_30
	mov	w9, #25710
	ldr	d0, [x8, :lo12:.LCPI110_30]
	b	.LBB110_42
.LBB110_22:
	adrp	x8, .LCPI110_31
	adrp	x9, .LCPI110_32
	mov	w10, #115
	ldr	d0, [x8, :lo12:.LCPI110_31]
	ldr	d1, [x9, :lo12:.LCPI110_32]
	b	.LBB110_48
.LBB110_23:
	adrp	x8, .LCPI110_22
	adrp	x9, .LCPI110_23
	ldr	d0, [x8, :lo12:.LCPI110_22]
	ldr	d1, [x9, :lo12:.LCPI110_23]
	b	.LBB110_39
.LBB110_24:
	adrp	x8, .LCPI110_38
	mov	w9, #28001
	mov	w10, #101
	ldr	d0, [x8, :lo12:.LCPI110_38]
	b	.LBB110_31
.LBB110_25:
	adrp	x8, .LCPI110_21
	mov	w9, #29540
	ldr	d0, [x8, :lo12:.LCPI110_21]
	b	.LBB110_42
.LBB110_26:
	adrp	x8, .LCPI110_2
	adrp	x9, .LCPI110_3
	ldr	d0, [x8, :lo12:.LCPI110_2]
	ldr	d1, [x9, :lo12:.LCPI110_3]
	b	.LBB110_39
.LBB110_27:
	mov	w8, #6
	mov	x0, sp
	mov	x19, x1
	sturb	w8, [x29, #-64]
	sub	x1, x29, #64
.LBB110_28:
	bl	"squitter_c::texts::push_named"
	mov	x1, x19
	b	.LBB110_52
.LBB110_29:
	adrp	x8, .LCPI110_18
	adrp	x9, .LCPI110_19
	ldr	d0, [x8, :lo12:.LCPI110_18]
	ldr	d1, [x9, :lo12:.LCPI110_19]
	b	.LBB110_39
.LBB110_30:
	adrp	x8, .LCPI110_29
	mov	w9, #29801
	mov	w10, #121
	ldr	d0, [x8, :lo12:.LCPI110_29]
.LBB110_31:
	strh	w9, [sp, #8]
	mov	w8, #11
	strb	w10, [sp, #10]
	str	d0, [sp]
	b	.LBB110_51
.LBB110_32:
	adrp	x8, .LCPI110_20
	mov	w9, #101
	ldr	d0, [x8, :lo12:.LCPI110_20]
.LBB110_33:
	strb	w9, [sp, #8]
	mov	w8, #9
	str	d0, [sp]
	b	.LBB110_51
.LBB110_34:
	adrp	x8, .LCPI110_24
	adrp	x9, .LCPI110_25
	ldr	d0, [x8, :lo12:.LCPI110_24]
	mov	w8, #51712
	ldr	d1, [x9, :lo12:.LCPI110_25]
	movk	w8, #15258, lsl #16
	mov	w9, #12
	cmp	x2, x8
	str	d0, [sp]
	str	s1, [sp, #8]
	str	x9, [sp, #64]
	b.hs	.LBB110_53
	mov	w8, #16960
	mov	x20, x1
	movk	w8, #15, lsl #16
	cmp	x2, x8
	b.hs	.LBB110_55
	cmp	x2, #999
	b.hi	.LBB110_57
	cmp	x2, #100
	adrp	x9, .Lstatic.22
	add	x9, x9, :lo12:.Lstatic.22
	cset	w8, lo
	cmp	x2, #10
	add	x9, x9, x2, lsl #2
	cinc	x8, x8, lo
	ldr	w9, [x9, x8]
	eor	x8, x8, #0xf
	str	w9, [sp, #12]
	b	.LBB110_58
.LBB110_38:
	adrp	x8, .LCPI110_14
	adrp	x9, .LCPI110_15
	ldr	d0, [x8, :lo12:.LCPI110_14]
	ldr	d1, [x9, :lo12:.LCPI110_15]
.LBB110_39:
	str	d0, [sp]
	mov	w8, #12
	b	.LBB110_50
.LBB110_40:
	adrp	x8, .LCPI110_6
	adrp	x9, .LCPI110_7
	mov	w10, #121
	ldr	d0, [x8, :lo12:.LCPI110_6]
	ldr	d1, [x9, :lo12:.LCPI110_7]
	b	.LBB110_48
.LBB110_41:
	adrp	x8, .LCPI110_8
	mov	w9, #27756
	ldr	d0, [x8, :lo12:.LCPI110_8]
.LBB110_42:
	strh	w9, [sp, #8]
	mov	w8, #10
	str	d0, [sp]
	b	.LBB110_51
.LBB110_43:
	adrp	x8, .LCPI110_0
	mov	w9, #8313
	ldr	d0, [x8, :lo12:.LCPI110_0]
	mov	w8, #51712
	strh	w9, [sp, #8]
	movk	w8, #15258, lsl #16
	mov	w9, #10
	cmp	x2, x8
	str	d0, [sp]
	str	x9, [sp, #64]
	b.hs	.LBB110_54
	mov	w8, #16960
	movk	w8, #15, lsl #16
	cmp	x2, x8
	b.hs	.LBB110_56
	cmp	x2, #999
	b.hi	.LBB110_65
	cmp	x2, #100
	adrp	x8, .Lstatic.22
	add	x8, x8, :lo12:.Lstatic.22
	add	x8, x8, x2, lsl #2
	cset	w9, lo
	cmp	x2, #10
	cinc	x9, x9, lo
	mov	w10, #13
	ldr	w8, [x8, x9]
	sub	x9, x10, x9
	str	x9, [sp, #64]
	stur	w8, [sp, #10]
	b	.LBB110_52
.LBB110_47:
	adrp	x8, .LCPI110_42
	adrp	x9, .LCPI110_43
	mov	w10, #116
	ldr	d0, [x8, :lo12:.LCPI110_42]
	ldr	d1, [x9, :lo12:.LCPI110_43]
.LBB110_48:
	mov	w8, #13
	strb	w10, [sp, #12]
.LBB110_49:
	str	d0, [sp]
.LBB110_50:
	str	s1, [sp, #8]
.LBB110_51:
	str	x8, [sp, #64]
.LBB110_52:
	ldr	d0, [sp, #64]
	adrp	x8, .LCPI110_44
	adrp	x9, .LCPI110_45
	ldr	q1, [x8, :lo12:.LCPI110_44]
	adrp	x8, .LCPI110_46
	ldr	q2, [x9, :lo12:.LCPI110_45]
	adrp	x9, .LCPI110_47
	ldr	q3, [x8, :lo12:.LCPI110_46]
	dup	v0.2d, v0.d[0]
	adrp	x8, .LCPI110_48
	ldr	q4, [x9, :lo12:.LCPI110_47]
	adrp	x9, .LCPI110_49
	ldr	q5, [x8, :lo12:.LCPI110_48]
	ldr	q6, [x9, :lo12:.LCPI110_49]
	adrp	x8, .LCPI110_50
	adrp	x9, .LCPI110_51
	cmhi	v1.2d, v0.2d, v1.2d
	cmhi	v2.2d, v0.2d, v2.2d
	ldr	q7, [x8, :lo12:.LCPI110_50]
	ldr	q16, [x9, :lo12:.LCPI110_51]
	adrp	x8, .LCPI110_52
	cmhi	v3.2d, v0.2d, v3.2d
	cmhi	v4.2d, v0.2d, v4.2d
	cmhi	v5.2d, v0.2d, v5.2d
	cmhi	v6.2d, v0.2d, v6.2d
	ldr	q17, [x8, :lo12:.LCPI110_52]
	adrp	x8, .LCPI110_53
	cmhi	v7.2d, v0.2d, v7.2d
	cmhi	v16.2d, v0.2d, v16.2d
	ldr	q18, [x8, :lo12:.LCPI110_53]
	adrp	x8, .LCPI110_54
	uzp1	v1.4s, v2.4s, v1.4s
	uzp1	v2.4s, v4.4s, v3.4s
	uzp1	v3.4s, v6.4s, v5.4s
	ldr	q5, [x8, :lo12:.LCPI110_54]
	adrp	x8, .LCPI110_55
	ldr	q6, [x8, :lo12:.LCPI110_55]
	adrp	x8, .LCPI110_56
	uzp1	v4.4s, v16.4s, v7.4s
	ldr	q16, [x8, :lo12:.LCPI110_56]
	adrp	x8, .LCPI110_57
	cmhi	v7.2d, v0.2d, v17.2d
	cmhi	v17.2d, v0.2d, v18.2d
	ldr	q18, [x8, :lo12:.LCPI110_57]
	adrp	x8, .LCPI110_58
	ldr	q20, [x8, :lo12:.LCPI110_58]
	adrp	x8, .LCPI110_59
	cmhi	v19.2d, v0.2d, v5.2d
	ldr	q21, [x8, :lo12:.LCPI110_59]
	adrp	x8, .LCPI110_60
	cmhi	v6.2d, v0.2d, v6.2d
	ldr	q22, [x8, :lo12:.LCPI110_60]
	adrp	x8, .LCPI110_61
	cmhi	v16.2d, v0.2d, v16.2d
	cmhi	v18.2d, v0.2d, v18.2d
	ldr	q23, [x8, :lo12:.LCPI110_61]
	adrp	x8, .LCPI110_62
	uzp1	v5.4s, v17.4s, v7.4s
	ldr	q17, [x8, :lo12:.LCPI110_62]
	adrp	x8, .LCPI110_63
	uzp1	v6.4s, v6.4s, v19.4s
	ldr	q19, [x8, :lo12:.LCPI110_63]
	adrp	x8, .LCPI110_64
	uzp1	v7.4s, v18.4s, v16.4s
	ldr	q16, [x8, :lo12:.LCPI110_64]
	adrp	x8, .LCPI110_65
	cmhi	v18.2d, v0.2d, v20.2d
	ldr	q20, [x8, :lo12:.LCPI110_65]
	adrp	x8, .LCPI110_66
	ldr	q24, [x8, :lo12:.LCPI110_66]
	adrp	x8, .LCPI110_67
	cmhi	v21.2d, v0.2d, v21.2d
	ldr	q25, [x8, :lo12:.LCPI110_67]
	adrp	x8, .LCPI110_68
	cmhi	v22.2d, v0.2d, v22.2d
	ldr	q26, [x8, :lo12:.LCPI110_68]
	adrp	x8, .LCPI110_69
	cmhi	v23.2d, v0.2d, v23.2d
	ldr	q27, [x8, :lo12:.LCPI110_69]
	adrp	x8, .LCPI110_70
	cmhi	v17.2d, v0.2d, v17.2d
	ldr	q28, [x8, :lo12:.LCPI110_70]
	adrp	x8, .LCPI110_71
	cmhi	v19.2d, v0.2d, v19.2d
	ldr	q29, [x8, :lo12:.LCPI110_71]
	adrp	x8, .LCPI110_72
	cmhi	v16.2d, v0.2d, v16.2d
	ldr	q30, [x8, :lo12:.LCPI110_72]
	adrp	x8, .LCPI110_73
	cmhi	v20.2d, v0.2d, v20.2d
	ldr	q31, [x8, :lo12:.LCPI110_73]
	adrp	x8, .LCPI110_74
	cmhi	v24.2d, v0.2d, v24.2d
	ldr	q8, [x8, :lo12:.LCPI110_74]
	adrp	x8, .LCPI110_75
	cmhi	v25.2d, v0.2d, v25.2d
	ldr	q9, [x8, :lo12:.LCPI110_75]
	cmhi	v26.2d, v0.2d, v26.2d
	cmhi	v27.2d, v0.2d, v27.2d
	cmhi	v28.2d, v0.2d, v28.2d
	cmhi	v29.2d, v0.2d, v29.2d
	cmhi	v30.2d, v0.2d, v30.2d
	cmhi	v31.2d, v0.2d, v31.2d
	cmhi	v8.2d, v0.2d, v8.2d
	cmhi	v0.2d, v0.2d, v9.2d
	uzp1	v18.4s, v21.4s, v18.4s
	uzp1	v21.4s, v23.4s, v22.4s
	uzp1	v17.4s, v19.4s, v17.4s
	uzp1	v16.4s, v20.4s, v16.4s
	uzp1	v19.4s, v25.4s, v24.4s
	uzp1	v20.4s, v27.4s, v26.4s
	uzp1	v22.4s, v29.4s, v28.4s
	uzp1	v23.4s, v31.4s, v30.4s
	uzp1	v0.4s, v0.4s, v8.4s
	uzp1	v1.8h, v2.8h, v1.8h
	uzp1	v2.8h, v4.8h, v3.8h
	uzp1	v3.8h, v6.8h, v5.8h
	uzp1	v4.8h, v18.8h, v7.8h
	uzp1	v5.8h, v17.8h, v21.8h
	uzp1	v6.8h, v19.8h, v16.8h
	ldp	x20, x19, [sp, #176]
	uzp1	v7.8h, v22.8h, v20.8h
	uzp1	v0.8h, v0.8h, v23.8h
	uzp1	v1.16b, v2.16b, v1.16b
	ldp	x29, x30, [sp, #160]
	uzp1	v2.16b, v4.16b, v3.16b
	ldp	d9, d8, [sp, #144]
	uzp1	v3.16b, v6.16b, v5.16b
	ldp	q4, q5, [sp]
	uzp1	v0.16b, v0.16b, v7.16b
	and	v1.16b, v4.16b, v1.16b
	ldp	q4, q6, [sp, #32]
	and	v2.16b, v5.16b, v2.16b
	and	v3.16b, v4.16b, v3.16b
	and	v0.16b, v6.16b, v0.16b
	stp	q1, q2, [x1]
	stp	q3, q0, [x1, #32]
	add	sp, sp, #192
	ret
.LBB110_53:
	mov	x20, x1
	mov	x0, sp
	mov	x1, x2
	bl	"sq_digits::decimal::push_long::<=63>"
	ldr	x8, [sp, #64]
	b	.LBB110_58
.LBB110_54:
	mov	x0, sp
	mov	x19, x1
	mov	x1, x2
	bl	"sq_digits::decimal::push_long::<=63>"
	mov	x1, x19
	b	.LBB110_52
.LBB110_55:
	mov	w8, #19923
	mov	w9, #56963
	mov	w10, #4719
	movk	w8, #4194, lsl #16
	movk	w9, #17179, lsl #16
	movk	w10, #131, lsl #16
	mul	x8, x2, x8
	mov	w13, #57600
	mov	w12, #1000
	movk	w13, #1525, lsl #16
	mov	w14, #38528
	adrp	x11, .Lstatic.22
	add	x11, x11, :lo12:.Lstatic.22
	mul	x9, x2, x9
	movk	w14, #152, lsl #16
	cmp	x2, x13
	mov	x15, sp
	cset	w13, lo
	cmp	x2, x14
	mov	w14, #18
	lsr	x8, x8, #38
	cinc	x13, x13, lo
	sub	x14, x14, x13
	umull	x10, w8, w10
	lsr	x9, x9, #50
	str	x14, [sp, #64]
	add	x9, x11, x9, lsl #2
	lsr	x10, x10, #33
	ldr	w9, [x9, x13]
	msub	w10, w10, w12, w8
	msub	w8, w8, w12, w2
	eor	x12, x13, #0xf
	str	w9, [sp, #12]
	orr	x12, x15, x12
	add	x10, x11, w10, uxtw #2
	ldr	s0, [x11, w8, uxtw #2]
	ldrh	w16, [x10]
	ldrb	w9, [x10, #2]
	mov	w10, #21
	sub	x8, x10, x13
	strh	w16, [x12]
	strb	w9, [x12, #2]
	str	s0, [x15, x14]
	b	.LBB110_58
.LBB110_56:
	mov	w8, #19923
	mov	w9, #56963
	mov	w10, #4719
	movk	w8, #4194, lsl #16
	movk	w9, #17179, lsl #16
	movk	w10, #131, lsl #16
	mul	x8, x2, x8
	mov	w11, #57600
	mov	w13, #1000
	movk	w11, #1525, lsl #16
	adrp	x12, .Lstatic.22
	add	x12, x12, :lo12:.Lstatic.22
	mul	x9, x2, x9
	cmp	x2, x11
	mov	w11, #38528
	movk	w11, #152, lsl #16
	cset	w14, lo
	cmp	x2, x11
	lsr	x8, x8, #38
	cinc	x11, x14, lo
	umull	x10, w8, w10
	lsr	x9, x9, #50
	add	x9, x12, x9, lsl #2
	lsr	x10, x10, #33
	ldr	w9, [x9, x11]
	msub	w10, w10, w13, w8
	msub	w8, w8, w13, w2
	mov	x13, sp
	stur	w9, [sp, #10]
	add	x10, x12, w10, uxtw #2
	ldr	s0, [x12, w8, uxtw #2]
	sub	x8, x13, x11
	mov	w12, #19
	ldrh	w9, [x10]
	ldrb	w10, [x10, #2]
	str	s0, [x8, #16]
	sturh	w9, [x8, #13]
	eor	x9, x11, x12
	strb	w10, [x8, #15]
	str	x9, [sp, #64]
	b	.LBB110_52
.LBB110_57:
	mov	w8, #19923
	lsr	x9, x2, #5
	lsr	x10, x2, #4
	movk	w8, #4194, lsl #16
	adrp	x11, .Lstatic.22
	add	x11, x11, :lo12:.Lstatic.22
	mul	x8, x2, x8
	cmp	x9, #3125
	mov	w12, #1000
	cset	w9, lo
	cmp	x10, #625
	mov	x13, sp
	cinc	x9, x9, lo
	lsr	x8, x8, #38
	add	x10, x11, x8, lsl #2
	msub	w8, w8, w12, w2
	eor	x12, x9, #0xf
	ldr	w10, [x10, x9]
	ldr	s0, [x11, w8, uxtw #2]
	orr	x8, x13, x12
	str	w10, [sp, #12]
	mov	w10, #18
	str	s0, [x8]
	sub	x8, x10, x9
.LBB110_58:
	mov	w11, #51711
	mov	x9, sp
	mov	w10, #32
	movk	w11, #15258, lsl #16
	strb	w10, [x9, x8]
	add	x8, x8, #1
	cmp	w19, w11
	str	x8, [sp, #64]
	b.hi	.LBB110_62
	mov	w9, #16959
	movk	w9, #15, lsl #16
	cmp	w19, w9
	b.hi	.LBB110_63
	cmp	w19, #999
	mov	x1, x20
	b.hi	.LBB110_64
	cmp	w19, #100
	adrp	x10, .Lstatic.22
	add	x10, x10, :lo12:.Lstatic.22
	cset	w9, lo
	cmp	w19, #10
	add	x10, x10, x19, lsl #2
	cinc	x9, x9, lo
	mov	x11, sp
	ldr	w10, [x10, x9]
	eor	x9, x9, #0x3
	str	w10, [x11, x8]
	add	x8, x8, x9
	b	.LBB110_51
.LBB110_62:
	mov	x0, sp
	mov	x1, x19
	bl	"sq_digits::decimal::push_long::<=63>"
	mov	x1, x20
	b	.LBB110_52
.LBB110_63:
	mov	w9, #19923
	mov	w10, #4719
	mov	w11, #56963
	movk	w9, #4194, lsl #16
	movk	w10, #131, lsl #16
	movk	w11, #17179, lsl #16
	umull	x9, w19, w9
	mov	w12, #57600
	mov	w13, #1000
	umull	x11, w19, w11
	movk	w12, #1525, lsl #16
	mov	x1, x20
	cmp	w19, w12
	mov	w12, #38528
	lsr	x9, x9, #38
	movk	w12, #152, lsl #16
	cset	w14, lo
	lsr	x11, x11, #48
	cmp	w19, w12
	adrp	x12, .Lstatic.22
	add	x12, x12, :lo12:.Lstatic.22
	umull	x10, w9, w10
	cinc	x14, x14, lo
	and	x11, x11, #0x7ffc
	eor	x15, x14, #0x3
	add	x11, x12, x11
	add	x15, x8, x15
	lsr	x10, x10, #33
	ldr	w11, [x11, x14]
	msub	w10, w10, w13, w9
	msub	w9, w9, w13, w19
	mov	x13, sp
	str	w11, [x13, x8]
	add	x10, x12, w10, uxtw #2
	ldr	s0, [x12, w9, uxtw #2]
	add	x9, x13, x15
	ldrh	w8, [x10]
	ldrb	w10, [x10, #2]
	stur	s0, [x9, #3]
	strh	w8, [x9]
	add	x8, x15, #6
	strb	w10, [x9, #2]
	b	.LBB110_51
.LBB110_64:
	mov	w9, #19923
	lsr	w10, w19, #5
	lsr	w12, w19, #4
	movk	w9, #4194, lsl #16
	adrp	x11, .Lstatic.22
	add	x11, x11, :lo12:.Lstatic.22
	umull	x9, w19, w9
	cmp	w10, #3125
	mov	w10, #1000
	cset	w13, lo
	cmp	w12, #625
	lsr	x9, x9, #38
	add	x12, x11, x9, lsl #2
	msub	w9, w9, w10, w19
	cinc	x10, x13, lo
	eor	x14, x10, #0x3
	mov	x13, sp
	ldr	w10, [x12, x10]
	add	x12, x8, x14
	ldr	s0, [x11, w9, uxtw #2]
	str	w10, [x13, x8]
	add	x8, x12, #3
	str	s0, [x13, x12]
	b	.LBB110_51
.LBB110_65:
	mov	w8, #19923
	lsr	x9, x2, #5
	lsr	x11, x2, #4
	movk	w8, #4194, lsl #16
	adrp	x10, .Lstatic.22
	add	x10, x10, :lo12:.Lstatic.22
	mul	x8, x2, x8
	cmp	x9, #3125
	mov	w9, #1000
	cset	w12, lo
	cmp	x11, #625
	cinc	x11, x12, lo
	mov	x12, sp
	lsr	x8, x8, #38
	msub	w9, w8, w9, w2
	add	x8, x10, x8, lsl #2
	ldr	w8, [x8, x11]
	ldr	s0, [x10, w9, uxtw #2]
	mov	w9, #16
	sub	x10, x12, x11
	stur	w8, [sp, #10]
	sub	x8, x9, x11
	stur	s0, [x10, #13]
	b	.LBB110_51
.Lfunc_end110:
	.size	squitter_text_of_fault, .Lfunc_end110-squitter_text_of_fault
	.section	.rodata.squitter_text_of_fault,"a",@progbits
	.p2align	1, 0x0
.LJTI110_0:
	.hword	(.LBB110_2-.LBB110_2)>>2
	.hword	(.LBB110_19-.LBB110_2)>>2
	.hword	(.LBB110_24-.LBB110_2)>>2
	.hword	(.LBB110_17-.LBB110_2)>>2
	.hword	(.LBB110_18-.LBB110_2)>>2
	.hword	(.LBB110_27-.LBB110_2)>>2
	.hword	(.LBB110_15-.LBB110_2)>>2
	.hword	(.LBB110_47-.LBB110_2)>>2
	.hword	(.LBB110_47-.LBB110_2)>>2
	.hword	(.LBB110_47-.LBB110_2)>>2
	.hword	(.LBB110_16-.LBB110_2)>>2
	.hword	(.LBB110_22-.LBB110_2)>>2
	.hword	(.LBB110_21-.LBB110_2)>>2
	.hword	(.LBB110_30-.LBB110_2)>>2
	.hword	(.LBB110_10-.LBB110_2)>>2
	.hword	(.LBB110_9-.LBB110_2)>>2
	.hword	(.LBB110_34-.LBB110_2)>>2
	.hword	(.LBB110_47-.LBB110_2)>>2
	.hword	(.LBB110_47-.LBB110_2)>>2
	.hword	(.LBB110_47-.LBB110_2)>>2
	.hword	(.LBB110_23-.LBB110_2)>>2
	.hword	(.LBB110_25-.LBB110_2)>>2
	.hword	(.LBB110_32-.LBB110_2)>>2
	.hword	(.LBB110_29-.LBB110_2)>>2
	.hword	(.LBB110_3-.LBB110_2)>>2
	.hword	(.LBB110_12-.LBB110_2)>>2
	.hword	(.LBB110_47-.LBB110_2)>>2
	.hword	(.LBB110_47-.LBB110_2)>>2
	.hword	(.LBB110_47-.LBB110_2)>>2
	.hword	(.LBB110_47-.LBB110_2)>>2
	.hword	(.LBB110_38-.LBB110_2)>>2
	.hword	(.LBB110_5-.LBB110_2)>>2
	.hword	(.LBB110_11-.LBB110_2)>>2
	.hword	(.LBB110_47-.LBB110_2)>>2
	.hword	(.LBB110_47-.LBB110_2)>>2
	.hword	(.LBB110_47-.LBB110_2)>>2
	.hword	(.LBB110_47-.LBB110_2)>>2
	.hword	(.LBB110_47-.LBB110_2)>>2
	.hword	(.LBB110_47-.LBB110_2)>>2
	.hword	(.LBB110_47-.LBB110_2)>>2
	.hword	(.LBB110_7-.LBB110_2)>>2
	.hword	(.LBB110_20-.LBB110_2)>>2
	.hword	(.LBB110_6-.LBB110_2)>>2
	.hword	(.LBB110_41-.LBB110_2)>>2
	.hword	(.LBB110_40-.LBB110_2)>>2
	.hword	(.LBB110_8-.LBB110_2)>>2
	.hword	(.LBB110_13-.LBB110_2)>>2
	.hword	(.LBB110_47-.LBB110_2)>>2
	.hword	(.LBB110_26-.LBB110_2)>>2
	.hword	(.LBB110_14-.LBB110_2)>>2
	.hword	(.LBB110_43-.LBB110_2)>>2

	.section	.text.squitter_angle_e7,"ax",@progbits
	.globl	squitter_angle_e7
	.p2align	2
	.type	squitter_angle_e7,@function
squitter_angle_e7:
	mov	x8, #-4097
	ldr	x9, [x0, #8]
	movk	x8, #11098, lsl #16
	movk	x8, #65303, lsl #32
	add	x10, x9, x8
	add	x8, x8, #1
	cmp	x10, x8
	b.hs	.LBB111_2
	mov	w0, #22
	mov	x1, xzr
	ret
.LBB111_2:
	stp	x29, x30, [sp, #-32]!
	mov	w8, #360
	stp	x20, x19, [sp, #16]
	ldr	x19, [x0]
	mul	x10, x9, x8
	mov	x29, sp
	cmp	x19, #0
	cneg	x8, x19, mi
	cmp	x10, x8
	b.hs	.LBB111_4
	mov	w0, #22
	ldp	x20, x19, [sp, #16]
	ldp	x29, x30, [sp], #32
	mov	x1, xzr
	ret
.LBB111_4:
	mov	w10, #11520
	movk	w10, #305, lsl #16
	mul	x11, x8, x10
	umulh	x8, x8, x10
	and	x10, x9, #0xffffffffff
	adds	x0, x11, x9
	cinc	x8, x8, hs
	tst	x10, #0xffffffffff80ffff
	b.ne	.LBB111_8
	extr	x10, x8, x0, #56
	cbnz	x10, .LBB111_8
	lsr	x8, x9, #13
	adrp	x10, .Lstatic.40
	add	x10, x10, :lo12:.Lstatic.40
	lsr	x9, x0, #17
	ldr	x8, [x10, x8]
	mul	x10, x8, x9
	umulh	x8, x8, x9
	extr	x8, x8, x10, #48
.LBB111_7:
	cmp	x19, #0
	mov	x0, xzr
	cneg	x8, x8, mi
	str	x8, [x1]
	ldp	x20, x19, [sp, #16]
	ldp	x29, x30, [sp], #32
	mov	x1, xzr
	ret
.LBB111_8:
	lsl	x2, x9, #1
	mov	x20, x1
	mov	x1, x8
	bl	"sq_angle::quotients::divided"
	mov	x1, x20
	mov	x8, x0
	b	.LBB111_7
.Lfunc_end111:
	.size	squitter_angle_e7, .Lfunc_end111-squitter_angle_e7

	.section	.rodata.cst16,"aM",@progbits,16
	.p2align	4, 0x0
.LCPI112_0:
	.xword	0
	.xword	3327647950551526958
	.section	.text.squitter_angle_of_text,"ax",@progbits
	.globl	squitter_angle_of_text
	.p2align	2
	.type	squitter_angle_of_text,@function
squitter_angle_of_text:
	sub	sp, sp, #112
	cmp	x0, #0
	mov	w8, #4096
	stp	x22, x21, [sp, #80]
	csel	x22, x8, xzr, eq
	stp	x29, x30, [sp, #32]
	add	x29, sp, #32
	stp	x26, x25, [sp, #48]
	stp	x24, x23, [sp, #64]
	stp	x20, x19, [sp, #96]
	cbz	x1, .LBB112_92
	mov	x19, x2
	mov	x21, x1
	mov	x20, x0
	mov	x9, xzr
	add	x24, x0, x22
	sub	x23, x1, #8
	b	.LBB112_6
.LBB112_2:
	and	w10, w10, #0xff
	tbnz	w10, #7, .LBB112_23
.LBB112_3:
	mov	w8, #1
.LBB112_4:
	add	x8, x8, x9
.LBB112_5:
	cmp	x8, x21
	mov	x9, x8
	b.hs	.LBB112_51
.LBB112_6:
	add	x8, x24, x9
	sub	x11, x21, x9
	ldrsb	w10, [x8]
	cmp	x11, #2
	b.lo	.LBB112_2
	tbnz	w10, #31, .LBB112_2
	ldrsb	w10, [x8, #1]
	tbnz	w10, #31, .LBB112_3
	cmp	x11, #7
	stp	x24, x21, [sp, #8]
	b.hi	.LBB112_28
	ldrsb	w8, [x24, x9]
	tbnz	w8, #31, .LBB112_43
	add	x8, x9, #1
	cmp	x8, x21
	b.eq	.LBB112_51
	ldrsb	w10, [x24, x8]
	tbnz	w10, #31, .LBB112_5
	add	x8, x9, #2
	cmp	x8, x21
	b.eq	.LBB112_51
	ldrsb	w10, [x24, x8]
	tbnz	w10, #31, .LBB112_5
	add	x8, x9, #3
	cmp	x8, x21
	b.eq	.LBB112_51
	ldrsb	w10, [x24, x8]
	tbnz	w10, #31, .LBB112_5
	add	x8, x9, #4
	cmp	x8, x21
	b.eq	.LBB112_51
	ldrsb	w10, [x24, x8]
	tbnz	w10, #31, .LBB112_5
	add	x8, x9, #5
	cmp	x8, x21
	b.eq	.LBB112_51
	ldrsb	w10, [x24, x8]
	tbnz	w10, #31, .LBB112_5
	add	x8, x9, #6
	cmp	x8, x21
	b.eq	.LBB112_51
	ldrsb	w9, [x24, x8]
	tbnz	w9, #31, .LBB112_5
	b	.LBB112_51
.LBB112_23:
	cmp	w10, #194
	b.lo	.LBB112_92
	cmp	w10, #223
	b.hi	.LBB112_36
	cmp	x11, #2
	b.lo	.LBB112_92
	ldrsb	w8, [x8, #1]
	cmn	w8, #65
	b.gt	.LBB112_92
	mov	w8, #2
	b	.LBB112_4
.LBB112_28:
	ldr	x8, [x8]
	mov	w10, #8
	ands	x8, x8, #0x8080808080808080
	rbit	x8, x8
	clz	x8, x8
	lsr	x8, x8, #3
	csel	x8, x10, x8, eq
	add	x8, x8, x9
	add	x9, x9, #8
	cmp	x8, x9
	b.lo	.LBB112_5
	sub	x9, x21, x8
	cmp	x9, #32
	b.lo	.LBB112_32
.LBB112_30:
	add	x9, x24, x8
	ldp	q1, q0, [x9]
	orr	v0.16b, v1.16b, v0.16b
	ext	v1.16b, v0.16b, v0.16b, #8
	orr	v0.8b, v0.8b, v1.8b
	fmov	x9, d0
	tst	x9, #0x8080808080808080
	b.ne	.LBB112_32
	add	x0, sp, #8
	add	x1, x8, #32
	mov	x2, x21
	bl	"core::slice::words::skip_far::<#52f9edcae2f82f51>"
	sub	x9, x21, x0
	mov	x8, x0
	cmp	x9, #31
	b.hi	.LBB112_30
.LBB112_32:
	sub	x9, x21, x8
.LBB112_33:
	cmp	x9, #9
	b.lo	.LBB112_50
	ldr	x10, [x24, x8]
	mov	w11, #8
	sub	x9, x9, #8
	ands	x10, x10, #0x8080808080808080
	rbit	x10, x10
	clz	x10, x10
	lsr	x10, x10, #3
	csel	x10, x11, x10, eq
	add	x11, x10, x8
	add	x8, x8, #8
	cmp	x11, x8
	b.hs	.LBB112_33
	add	x8, x10, x8
	sub	x8, x8, #8
	b	.LBB112_5
.LBB112_36:
	cmp	w10, #239
	b.hi	.LBB112_44
	cmp	x11, #3
	b.lo	.LBB112_92
	ldrsb	w11, [x8, #1]
	cmn	w11, #65
	b.gt	.LBB112_92
	ldrsb	w8, [x8, #2]
	cmn	w8, #65
	b.gt	.LBB112_92
	and	w8, w11, #0xff
	add	w8, w8, w10, lsl #6
	mov	w10, #-14464
	add	w10, w8, w10
	cmp	w10, #32
	b.lo	.LBB112_92
	cmp	w10, #896
	mov	w8, #3
	csel	x11, xzr, x8, lo
	cmp	w10, #864
	b.lo	.LBB112_4
	mov	x8, x11
	b	.LBB112_49
.LBB112_43:
	mov	x8, x9
	b	.LBB112_5
.LBB112_44:
	cmp	x11, #4
	b.lo	.LBB112_92
	ldrsb	w11, [x8, #1]
	cmn	w11, #65
	b.gt	.LBB112_92
	ldrsb	w12, [x8, #2]
	cmn	w12, #65
	b.gt	.LBB112_92
	ldrsb	w8, [x8, #3]
	cmn	w8, #65
	b.gt	.LBB112_92
	and	w8, w11, #0xff
	add	w8, w8, w10, lsl #6
	mov	w10, #-15488
	add	w10, w8, w10
	mov	w8, #4
	cmp	w10, #272
	csel	x8, x8, xzr, lo
	cmp	w10, #16
	b.lo	.LBB112_92
.LBB112_49:
	cbnz	x8, .LBB112_4
	b	.LBB112_92
.LBB112_50:
	ldr	x8, [x24, x23]
	mov	w9, #8
	ands	x8, x8, #0x8080808080808080
	rbit	x8, x8
	clz	x8, x8
	lsr	x8, x8, #3
	csel	x8, x9, x8, eq
	add	x8, x8, x23
	b	.LBB112_5
.LBB112_51:
	ldrsb	w8, [x24]
	and	w23, w8, #0xff
	tbnz	w8, #31, .LBB112_53
	mov	w8, #1
	b	.LBB112_58
.LBB112_53:
	ldrb	w8, [x24, #1]
	cmp	w23, #223
	and	w9, w8, #0x3f
	b.hi	.LBB112_55
	bfi	w9, w23, #6, #5
	mov	w8, #2
	mov	w23, w9
	b	.LBB112_58
.LBB112_55:
	ldrb	w8, [x24, #2]
	cmp	w23, #239
	and	w8, w8, #0x3f
	b.hi	.LBB112_57
	ubfiz	w10, w23, #12, #4
	orr	w9, w10, w9, lsl #6
	orr	w23, w9, w8
	mov	w8, #3
	b	.LBB112_58
.LBB112_57:
	ubfiz	w10, w23, #18, #3
	orr	w9, w10, w9, lsl #12
	ldrb	w10, [x24, #3]
	orr	w23, w9, w8, lsl #6
	mov	w8, #4
	bfxil	w23, w10, #0, #6
.LBB112_58:
	cmp	w23, #45
	mov	w9, #46
	stur	wzr, [sp, #25]
	csel	x25, x8, xzr, eq
	strb	w9, [sp, #24]
	sub	x21, x21, x25
	add	x24, x24, x25
	str	wzr, [sp, #28]
	cmp	x21, #7
	stp	x24, x21, [sp, #8]
	b.hi	.LBB112_62
	cbz	x21, .LBB112_92
	ldrb	w8, [x24]
	cmp	w8, #46
	b.ne	.LBB112_71
	mov	x8, xzr
	b	.LBB112_75
.LBB112_62:
	ldr	x8, [x24]
	mov	x26, #1012762419733073422
	mov	x10, #9187201950435737471
	orr	x26, x26, #0x2222222222222222
	and	x9, x8, #0x7f7f7f7f7f7f7f7f
	eor	x9, x9, x26
	add	x9, x9, x10
	orr	x8, x9, x8
	mov	x9, #-9187201950435737472
	and	x8, x8, #0x8080808080808080
	cmp	x8, x9
	b.ne	.LBB112_70
	mov	w8, #8
	cmp	x21, #40
	b.lo	.LBB112_66
.LBB112_64:
	movi	v0.16b, #127
	movi	v1.16b, #46
	add	x9, x24, x8
	ldp	q2, q5, [x9]
	adrp	x9, .LCPI112_0
	mov	x10, #-9187201950435737472
	and	v3.16b, v2.16b, v0.16b
	eor	v4.16b, v2.16b, v1.16b
	eor	v3.16b, v3.16b, v1.16b
	and	v4.16b, v4.16b, v0.16b
	eor	v1.16b, v5.16b, v1.16b
	ldr	q5, [x9, :lo12:.LCPI112_0]
	mov	v3.d[1], v4.d[1]
	and	v4.16b, v1.16b, v0.16b
	eor	v2.16b, v2.16b, v5.16b
	add	v3.2d, v3.2d, v0.2d
	add	v0.2d, v4.2d, v0.2d
	orr	v0.16b, v0.16b, v1.16b
	orr	v1.16b, v3.16b, v2.16b
	and	v0.16b, v1.16b, v0.16b
	ext	v1.16b, v0.16b, v0.16b, #8
	and	v0.8b, v0.8b, v1.8b
	fmov	x9, d0
	bics	xzr, x10, x9
	b.ne	.LBB112_66
	add	x0, sp, #8
	add	x1, x8, #32
	mov	x2, x21
	bl	"core::slice::words::skip_far::<#d9bf6fcacf29a880>"
	sub	x9, x21, x0
	mov	x8, x0
	cmp	x9, #31
	b.hi	.LBB112_64
.LBB112_66:
	sub	x9, x21, x8
.LBB112_67:
	cmp	x9, #9
	b.lo	.LBB112_74
	ldr	x10, [x24, x8]
	mov	x12, #9187201950435737471
	sub	x9, x9, #8
	and	x11, x10, #0x7f7f7f7f7f7f7f7f
	eor	x11, x11, x26
	add	x11, x11, x12
	mov	x12, #-9187201950435737472
	orr	x10, x11, x10
	and	x10, x10, #0x8080808080808080
	eor	x11, x10, #0x8080808080808080
	cmp	x10, x12
	mov	w10, #8
	rbit	x11, x11
	clz	x11, x11
	lsr	x11, x11, #3
	csel	x10, x10, x11, eq
	add	x11, x10, x8
	add	x8, x8, #8
	cmp	x11, x8
	b.hs	.LBB112_67
	add	x8, x10, x8
	sub	x8, x8, #8
	b	.LBB112_75
.LBB112_70:
	eor	x8, x8, #0x8080808080808080
	rbit	x8, x8
	clz	x8, x8
	lsr	x8, x8, #3
	b	.LBB112_75
.LBB112_71:
	cmp	x21, #1
	b.eq	.LBB112_79
	ldrb	w8, [x24, #1]
	cmp	w8, #46
	b.ne	.LBB112_78
	mov	w8, #1
	b	.LBB112_75
.LBB112_74:
	sub	x8, x21, #8
	mov	x11, #9187201950435737471
	ldr	x9, [x24, x8]
	and	x10, x9, #0x7f7f7f7f7f7f7f7f
	eor	x10, x10, x26
	add	x10, x10, x11
	mov	x11, #-9187201950435737472
	orr	x9, x10, x9
	and	x9, x9, #0x8080808080808080
	eor	x10, x9, #0x8080808080808080
	cmp	x9, x11
	mov	w9, #8
	rbit	x10, x10
	clz	x10, x10
	lsr	x10, x10, #3
	csel	x9, x9, x10, eq
	add	x8, x9, x8
.LBB112_75:
	cmp	x8, x21
	b.hs	.LBB112_79
	add	x10, x8, #1
	subs	x9, x21, x10
	b.eq	.LBB112_92
	add	x10, x24, x10
	mov	x21, x8
	sub	x8, x8, #1
	cmp	x8, #2
	b.ls	.LBB112_80
	b	.LBB112_92
.LBB112_78:
	cmp	x21, #2
	b.ne	.LBB112_99
.LBB112_79:
	mov	x9, xzr
	adrp	x10, .Lstatic.0
	add	x10, x10, :lo12:.Lstatic.0
	sub	x8, x21, #1
	cmp	x8, #2
	b.hi	.LBB112_92
.LBB112_80:
	cbz	x21, .LBB112_83
	ldrb	w8, [x24]
	sub	w8, w8, #48
	cmp	w8, #9
	b.hi	.LBB112_92
	cmp	x21, #1
	b.ne	.LBB112_88
.LBB112_83:
	mov	x8, xzr
.LBB112_84:
	cmp	x9, x8
	b.eq	.LBB112_86
	ldrb	w11, [x10, x8]
	add	x8, x8, #1
	sub	w11, w11, #48
	cmp	w11, #10
	b.lo	.LBB112_84
	b	.LBB112_92
.LBB112_86:
	cmp	x9, #12
	b.ls	.LBB112_94
	mov	w0, #31
	b	.LBB112_93
.LBB112_88:
	ldrb	w8, [x24, #1]
	sub	w8, w8, #48
	cmp	w8, #9
	b.hi	.LBB112_92
	cmp	x21, #2
	b.eq	.LBB112_83
	ldrb	w8, [x24, #2]
	mov	w0, #30
	sub	w8, w8, #48
	cmp	w8, #9
	b.hi	.LBB112_93
	cmp	x21, #3
	b.eq	.LBB112_83
	b	.LBB112_93
.LBB112_92:
	mov	w0, #30
.LBB112_93:
	ldp	x20, x19, [sp, #96]
	mov	x1, xzr
	ldp	x22, x21, [sp, #80]
	ldp	x24, x23, [sp, #64]
	ldp	x26, x25, [sp, #48]
	ldp	x29, x30, [sp, #32]
	add	sp, sp, #112
	ret
.LBB112_94:
	cbz	x9, .LBB112_101
	mov	w8, #10
	cmp	w9, #1
	b.eq	.LBB112_102
	mov	w11, #1
	mov	w12, w9
.LBB112_97:
	tst	w12, #0x1
	csinc	x13, x8, xzr, ne
	mul	x8, x8, x8
	cmp	w12, #3
	lsr	w12, w12, #1
	mul	x11, x13, x11
	b.hi	.LBB112_97
	mul	x8, x11, x8
	b	.LBB112_102
.LBB112_99:
	ldrb	w8, [x24, #2]
	cmp	w8, #46
	b.ne	.LBB112_129
	mov	w8, #2
	b	.LBB112_75
.LBB112_101:
	mov	w8, #1
.LBB112_102:
	cbz	x21, .LBB112_105
	ldrb	w11, [x24]
	cmp	w11, #43
	b.ne	.LBB112_113
	subs	x12, x21, #1
	b.ne	.LBB112_132
.LBB112_105:
	mov	x11, xzr
.LBB112_106:
	cbz	x9, .LBB112_109
	ldrb	w12, [x10]
	cmp	w12, #43
	b.ne	.LBB112_118
	subs	x9, x9, #1
	b.ne	.LBB112_137
.LBB112_109:
	mov	x12, xzr
.LBB112_110:
	mov	x9, #-4097
	movk	x9, #11098, lsl #16
	movk	x9, #65303, lsl #32
	add	x10, x8, x9
	add	x9, x9, #1
	cmp	x10, x9
	b.lo	.LBB112_112
	mul	x9, x11, x8
	mov	w10, #360
	cmp	w23, #45
	mul	x11, x8, x10
	add	x10, x12, x9
	cneg	x9, x10, eq
	cmp	x10, #0
	cneg	x10, x10, mi
	cmp	x11, x10
	b.hs	.LBB112_123
.LBB112_112:
	mov	w0, #32
	b	.LBB112_93
.LBB112_113:
	mov	x12, #-7378697629483820647
	mov	x13, xzr
	eor	x12, x12, #0x8000000000000003
.LBB112_114:
	cmp	x13, x12
	mov	x11, xzr
	b.hs	.LBB112_106
	ldrb	w14, [x24], #1
	sub	w15, w14, #48
	cmp	w15, #9
	b.hi	.LBB112_106
	add	x11, x13, x13, lsl #2
	and	x13, x14, #0xf
	lsl	x11, x11, #1
	cmn	x13, x11
	b.hs	.LBB112_105
	add	x13, x11, x13
	subs	x21, x21, #1
	mov	x11, x13
	b.ne	.LBB112_114
	b	.LBB112_106
.LBB112_118:
	mov	x13, #-7378697629483820647
	mov	x14, xzr
	eor	x13, x13, #0x8000000000000003
.LBB112_119:
	cmp	x14, x13
	mov	x12, xzr
	b.hs	.LBB112_110
	ldrb	w15, [x10], #1
	sub	w16, w15, #48
	cmp	w16, #9
	b.hi	.LBB112_110
	add	x12, x14, x14, lsl #2
	and	x14, x15, #0xf
	lsl	x12, x12, #1
	cmn	x14, x12
	b.hs	.LBB112_109
	add	x14, x12, x14
	subs	x9, x9, #1
	mov	x12, x14
	b.ne	.LBB112_119
	b	.LBB112_110
.LBB112_123:
	rbit	x11, x8
	rbit	x12, x9
	clz	x13, x11
	clz	x11, x12
	cmp	w11, w13
	lsr	x12, x8, x13
	csel	w11, w11, w13, lo
	lsr	x13, x10, x11
	udiv	x14, x13, x12
	msub	x13, x14, x12, x13
	cbz	x13, .LBB112_125
.LBB112_124:
	rbit	x14, x13
	clz	x14, x14
	lsr	x14, x13, x14
	subs	x13, x14, x12
	cneg	x13, x13, ls
	csel	x12, x14, x12, lo
	cbnz	x13, .LBB112_124
.LBB112_125:
	lsl	x11, x12, x11
	cmp	x11, #1
	b.eq	.LBB112_128
	cbz	x11, .LBB112_151
	udiv	x10, x10, x11
	udiv	x8, x8, x11
.LBB112_128:
	cmp	x9, #0
	mov	x0, xzr
	cneg	x9, x10, mi
	stp	x9, x8, [x19]
	b	.LBB112_93
.LBB112_129:
	cmp	x21, #3
	b.eq	.LBB112_79
	ldrb	w8, [x24, #3]
	cmp	w8, #46
	b.ne	.LBB112_142
	mov	w8, #3
	b	.LBB112_75
.LBB112_132:
	add	x11, x25, x22
	mov	x13, #-7378697629483820647
	mov	x15, xzr
	add	x11, x11, x20
	eor	x13, x13, #0x8000000000000003
	add	x14, x11, #1
.LBB112_133:
	cmp	x15, x13
	mov	x11, xzr
	b.hs	.LBB112_106
	ldrb	w16, [x14], #1
	sub	w17, w16, #48
	cmp	w17, #9
	b.hi	.LBB112_106
	add	x11, x15, x15, lsl #2
	and	x15, x16, #0xf
	lsl	x11, x11, #1
	cmn	x15, x11
	b.hs	.LBB112_105
	add	x15, x11, x15
	subs	x12, x12, #1
	mov	x11, x15
	b.ne	.LBB112_133
	b	.LBB112_106
.LBB112_137:
	mov	x13, #-7378697629483820647
	mov	x14, xzr
	add	x10, x10, #1
	eor	x13, x13, #0x8000000000000003
.LBB112_138:
	cmp	x14, x13
	mov	x12, xzr
	b.hs	.LBB112_110
	ldrb	w15, [x10], #1
	sub	w16, w15, #48
	cmp	w16, #9
	b.hi	.LBB112_110
	add	x12, x14, x14, lsl #2
	and	x14, x15, #0xf
	lsl	x12, x12, #1
	cmn	x14, x12
	b.hs	.LBB112_109
	add	x14, x12, x14
	subs	x9, x9, #1
	mov	x12, x14
	b.ne	.LBB112_138
	b	.LBB112_110
.LBB112_142:
	cmp	x21, #4
	b.eq	.LBB112_79
	ldrb	w8, [x24, #4]
	cmp	w8, #46
	b.ne	.LBB112_145
	mov	w8, #4
	b	.LBB112_75
.LBB112_145:
	cmp	x21, #5
	b.eq	.LBB112_79
	ldrb	w8, [x24, #5]
	cmp	w8, #46
	b.ne	.LBB112_148
	mov	w8, #5
	b	.LBB112_75
.LBB112_148:
	cmp	x21, #6
	b.eq	.LBB112_79
	ldrb	w8, [x24, #6]
	cmp	w8, #46
	b.ne	.LBB112_79
	mov	w8, #6
	b	.LBB112_75
.LBB112_151:
	brk	#0x1
.Lfunc_end112:
	.size	squitter_angle_of_text, .Lfunc_end112-squitter_angle_of_text

	.section	.text.squitter_encode_air,"ax",@progbits
	.globl	squitter_encode_air
	.p2align	2
	.type	squitter_encode_air,@function
squitter_encode_air:
	sub	sp, sp, #208
	movi	v0.2d, #0000000000000000
	ldrb	w12, [x0, #9]
	stp	x29, x30, [sp, #144]
	add	x29, sp, #144
	str	x23, [sp, #160]
	cmp	w12, #1
	stp	x22, x21, [sp, #176]
	stp	x20, x19, [sp, #192]
	stp	xzr, xzr, [sp, #32]
	stur	xzr, [x29, #-64]
	stp	q0, q0, [sp]
	stur	xzr, [x29, #-58]
	str	xzr, [sp, #48]
	b.hi	.LBB113_3
	ldrb	w11, [x0, #10]
	cmp	w11, #1
	b.hi	.LBB113_3
	ldrb	w8, [x0, #7]
	cmp	w8, #9
	b.hs	.LBB113_6
.LBB113_3:
	mov	w8, #1
	stur	wzr, [sp, #1]
	strb	w8, [sp]
	mov	w8, #4
.LBB113_4:
	str	wzr, [sp, #4]
	strb	w8, [sp, #8]
	stur	wzr, [sp, #9]
	sturh	wzr, [sp, #13]
.LBB113_5:
	add	x0, sp, #32
	mov	x1, sp
	stp	xzr, xzr, [sp, #16]
	bl	"squitter_c::send::give"
	ldp	x0, x1, [sp, #32]
	ldr	x23, [sp, #160]
	ldp	x20, x19, [sp, #192]
	ldp	x22, x21, [sp, #176]
	ldp	x29, x30, [sp, #144]
	add	sp, sp, #208
	ret
.LBB113_6:
	ldrb	w10, [x0, #8]
	ldrh	w9, [x0, #4]
	cmp	w8, #19
	b.lo	.LBB113_9
	b.eq	.LBB113_3
	cmp	w8, #22
	b.hi	.LBB113_3
.LBB113_9:
	cmp	w10, #3
	b.hi	.LBB113_3
	cmp	w9, #4095
	b.hi	.LBB113_3
	ldrb	w20, [x0, #6]
	cmp	w20, #7
	b.hi	.LBB113_3
	ldr	w21, [x0]
	lsr	w13, w21, #24
	cbnz	w13, .LBB113_3
	cmp	w11, #1
	mov	x11, #281474976710656
	ldrb	w19, [x0, #11]
	csel	x11, x11, xzr, eq
	cmp	w12, #1
	mov	w12, #65536
	csel	x12, x12, xzr, eq
	cmp	w19, #2
	b.hs	.LBB113_3
	mov	x16, #-4097
	ldr	x13, [x1, #8]
	movk	x16, #11098, lsl #16
	movk	x16, #65303, lsl #32
	add	x14, x13, x16
	add	x15, x16, #1
	cmp	x14, x15
	b.lo	.LBB113_18
	mov	w14, #360
	mul	x15, x13, x14
	ldr	x14, [x1]
	cmp	x14, #0
	cneg	x17, x14, mi
	cmp	x15, x17
	b.lo	.LBB113_18
	ldr	x15, [x1, #24]
	add	x18, x15, x16
	add	x16, x16, #1
	cmp	x18, x16
	b.lo	.LBB113_18
	mov	w16, #360
	mul	x0, x15, x16
	ldr	x16, [x1, #16]
	cmp	x16, #0
	cneg	x18, x16, mi
	cmp	x0, x18
	b.hs	.LBB113_19
.LBB113_18:
	mov	w8, #1
	stur	wzr, [sp, #1]
	strb	w8, [sp]
	mov	w8, #3
	b	.LBB113_4
.LBB113_19:
	mov	w0, #90
	mul	x0, x13, x0
	cmp	x17, x0
	b.hi	.LBB113_18
	mov	w17, #180
	mul	x17, x15, x17
	cmp	x18, x17
	b.hi	.LBB113_18
	orr	x8, x8, x10, lsl #8
	orr	x10, x11, x12
	sub	x0, x29, #16
	sub	x1, x29, #48
	mov	x22, x2
	mov	w2, w19
	orr	x8, x10, x8
	stp	x14, x13, [x29, #-48]
	stp	x16, x15, [x29, #-32]
	orr	x23, x8, x9, lsl #32
	stp	xzr, xzr, [x29, #-16]
	bl	"sq_cpr::encoding::nearest::<17'sq_cpr::span::Air,21'sq_cpr::span::AirSpan{}>"
	ldur	w8, [x29, #-12]
	ldur	w9, [x29, #-4]
	sub	x0, x29, #64
	add	x1, sp, #48
	strb	w20, [sp, #48]
	and	w8, w8, #0x1ffff
	and	w9, w9, #0x1ffff
	stp	w21, wzr, [sp, #52]
	strb	w19, [sp, #60]
	sturh	wzr, [sp, #61]
	strb	wzr, [sp, #63]
	stp	w8, w9, [sp, #64]
	str	x23, [sp, #72]
	bl	"sq_message::write::write_frame"
	ldur	w8, [x29, #-64]
	ldur	w9, [x29, #-61]
	mov	x2, x22
	ldur	w10, [x29, #-57]
	strb	wzr, [sp]
	stur	w8, [sp, #1]
	ldurb	w8, [x29, #-51]
	stp	w9, w10, [sp, #4]
	ldurh	w9, [x29, #-53]
	strb	w8, [sp, #14]
	strh	w9, [sp, #12]
	b	.LBB113_5
.Lfunc_end113:
	.size	squitter_encode_air, .Lfunc_end113-squitter_encode_air

	.section	.text.squitter_encode_ground,"ax",@progbits
	.globl	squitter_encode_ground
	.p2align	2
	.type	squitter_encode_ground,@function
squitter_encode_ground:
	sub	sp, sp, #240
	movi	v0.2d, #0000000000000000
	ldrb	w8, [x0, #7]
	stp	x29, x30, [sp, #144]
	add	x29, sp, #144
	str	x27, [sp, #160]
	cmp	w8, #1
	stp	x26, x25, [sp, #176]
	stp	x24, x23, [sp, #192]
	stp	x22, x21, [sp, #208]
	stp	x20, x19, [sp, #224]
	stp	xzr, xzr, [sp, #32]
	stur	xzr, [x29, #-64]
	stp	q0, q0, [sp]
	stur	xzr, [x29, #-58]
	str	xzr, [sp, #48]
	b.hi	.LBB114_2
	ldrb	w9, [x0, #9]
	cmp	w9, #1
	b.ls	.LBB114_5
.LBB114_2:
	mov	w8, #1
	stur	wzr, [sp, #1]
	strb	w8, [sp]
	mov	w8, #4
.LBB114_3:
	str	wzr, [sp, #4]
	strb	w8, [sp, #8]
	stur	wzr, [sp, #9]
	sturh	wzr, [sp, #13]
.LBB114_4:
	add	x0, sp, #32
	mov	x1, sp
	stp	xzr, xzr, [sp, #16]
	bl	"squitter_c::send::give"
	ldp	x0, x1, [sp, #32]
	ldr	x27, [sp, #160]
	ldp	x20, x19, [sp, #224]
	ldp	x22, x21, [sp, #208]
	ldp	x24, x23, [sp, #192]
	ldp	x26, x25, [sp, #176]
	ldp	x29, x30, [sp, #144]
	add	sp, sp, #240
	ret
.LBB114_5:
	ldrb	w20, [x0, #5]
	sub	w10, w20, #5
	cmp	w10, #3
	b.hi	.LBB114_2
	ldrb	w22, [x0, #6]
	ldrb	w21, [x0, #8]
	orr	w10, w21, w22
	sxtb	w10, w10
	tbnz	w10, #31, .LBB114_2
	ldrb	w24, [x0, #4]
	cmp	w24, #7
	b.hi	.LBB114_2
	ldr	w26, [x0]
	lsr	w10, w26, #24
	cbnz	w10, .LBB114_2
	cmp	w9, #1
	ldrb	w19, [x0, #10]
	cset	w23, eq
	cmp	w8, #1
	cset	w25, eq
	cmp	w19, #2
	b.hs	.LBB114_2
	mov	x11, #-4097
	ldr	x8, [x1, #8]
	movk	x11, #11098, lsl #16
	movk	x11, #65303, lsl #32
	add	x9, x8, x11
	add	x10, x11, #1
	cmp	x9, x10
	b.lo	.LBB114_14
	mov	w9, #360
	mul	x10, x8, x9
	ldr	x9, [x1]
	cmp	x9, #0
	cneg	x12, x9, mi
	cmp	x10, x12
	b.lo	.LBB114_14
	ldr	x10, [x1, #24]
	add	x13, x10, x11
	add	x11, x11, #1
	cmp	x13, x11
	b.lo	.LBB114_14
	mov	w11, #360
	mul	x14, x10, x11
	ldr	x11, [x1, #16]
	cmp	x11, #0
	cneg	x13, x11, mi
	cmp	x14, x13
	b.hs	.LBB114_15
.LBB114_14:
	mov	w8, #1
	stur	wzr, [sp, #1]
	strb	w8, [sp]
	mov	w8, #3
	b	.LBB114_3
.LBB114_15:
	mov	w14, #90
	mul	x14, x8, x14
	cmp	x12, x14
	b.hi	.LBB114_14
	mov	w12, #180
	mul	x12, x10, x12
	cmp	x13, x12
	b.hi	.LBB114_14
	sub	x0, x29, #16
	sub	x1, x29, #48
	mov	x27, x2
	mov	w2, w19
	stp	x9, x8, [x29, #-48]
	stp	x11, x10, [x29, #-32]
	stp	xzr, xzr, [x29, #-16]
	bl	"sq_cpr::encoding::nearest::<#9b749bce0116a0b1>"
	mov	w8, #1
	ldur	w9, [x29, #-4]
	sub	x0, x29, #64
	stp	w26, w8, [sp, #52]
	ldur	w8, [x29, #-12]
	add	x1, sp, #48
	and	w9, w9, #0x1ffff
	strb	w24, [sp, #48]
	and	w8, w8, #0x1ffff
	strb	w19, [sp, #60]
	sturh	wzr, [sp, #61]
	strb	wzr, [sp, #63]
	stp	w8, w9, [sp, #64]
	strb	w20, [sp, #72]
	strb	w22, [sp, #73]
	strb	w25, [sp, #74]
	strb	w21, [sp, #75]
	strb	w23, [sp, #76]
	sturh	wzr, [sp, #77]
	strb	wzr, [sp, #79]
	bl	"sq_message::write::write_frame"
	ldur	w8, [x29, #-64]
	ldur	w9, [x29, #-61]
	mov	x2, x27
	ldur	w10, [x29, #-57]
	strb	wzr, [sp]
	stur	w8, [sp, #1]
	ldurb	w8, [x29, #-51]
	stp	w9, w10, [sp, #4]
	ldurh	w9, [x29, #-53]
	strb	w8, [sp, #14]
	strh	w9, [sp, #12]
	b	.LBB114_4
.Lfunc_end114:
	.size	squitter_encode_ground, .Lfunc_end114-squitter_encode_ground

	.section	.text.squitter_feed_counts,"ax",@progbits
	.globl	squitter_feed_counts
	.p2align	2
	.type	squitter_feed_counts,@function
squitter_feed_counts:
	ldp	x9, x11, [x0]
	stp	xzr, xzr, [x0]
	cbz	x9, .LBB115_3
	add	x9, x11, #4, lsl #12
	mov	x8, x0
	add	x10, x9, #952
	add	x12, x9, #968
	add	x13, x9, #984
	ldrb	w14, [x9, #800]
	ldr	q0, [x10]
	ldr	q1, [x12]
	ldr	q2, [x13]
	ldr	x12, [x11, #17384]
	ldr	x9, [x11, #17320]
	cmp	w14, #1
	b.ne	.LBB115_4
	ldr	x10, [x11, #17208]
	ldr	x13, [x11, #17216]
	subs	x10, x10, x13
	ldr	x13, [x11, #17192]
	csel	x10, xzr, x10, lo
	cmp	x13, x10
	cset	w10, lo
	b	.LBB115_5
.LBB115_3:
	mov	w0, #46
	mov	x1, xzr
	ret
.LBB115_4:
	mov	x10, xzr
.LBB115_5:
	sub	sp, sp, #208
	ldr	q3, [x11, #17552]
	ldr	q4, [x11, #17568]
	mov	x0, xzr
	ldr	q5, [x11, #17488]
	ldr	x13, [x11, #17584]
	ldr	q6, [x11, #17472]
	stp	q3, q4, [sp, #160]
	ldr	q3, [x11, #17504]
	ldr	q4, [x11, #17536]
	str	x13, [sp, #192]
	mov	w13, #1
	stp	q5, q3, [sp, #96]
	ldr	q3, [x11, #17520]
	ldr	q5, [x11, #17408]
	str	q6, [sp, #80]
	stp	q3, q4, [sp, #128]
	ldr	q3, [x11, #17424]
	ldr	q4, [x11, #17392]
	stp	q5, q3, [sp, #16]
	ldr	q5, [x11, #17440]
	ldr	q3, [x11, #17456]
	str	q4, [sp]
	stp	x13, x11, [x8]
	ldr	x8, [sp, #192]
	stp	q0, q1, [x1]
	str	q2, [x1, #32]
	ldp	q0, q2, [sp]
	stp	q5, q3, [sp, #48]
	str	x12, [x1, #48]
	stur	q0, [x1, #56]
	ldp	q0, q1, [sp, #48]
	stur	q2, [x1, #72]
	stp	x8, x9, [x1, #248]
	stur	q1, [x1, #120]
	ldr	q1, [sp, #32]
	stur	q0, [x1, #104]
	stur	q1, [x1, #88]
	ldp	q1, q0, [sp, #112]
	str	x10, [x1, #264]
	stur	q0, [x1, #184]
	ldp	q3, q0, [sp, #80]
	stur	q1, [x1, #168]
	ldp	q2, q1, [sp, #144]
	stur	q0, [x1, #152]
	ldr	q0, [sp, #176]
	stur	q3, [x1, #136]
	stur	q0, [x1, #232]
	stur	q1, [x1, #216]
	stur	q2, [x1, #200]
	add	sp, sp, #208
	mov	x1, xzr
	ret
.Lfunc_end115:
	.size	squitter_feed_counts, .Lfunc_end115-squitter_feed_counts

	.section	.text.squitter_feed_disconnected,"ax",@progbits
	.globl	squitter_feed_disconnected
	.p2align	2
	.type	squitter_feed_disconnected,@function
squitter_feed_disconnected:
	stp	x29, x30, [sp, #-96]!
	sub	x9, sp, #3, lsl #12
	stp	x28, x27, [sp, #16]
	mov	x29, sp
	sub	x9, x9, #3072
	stp	x26, x25, [sp, #32]
	stp	x24, x23, [sp, #48]
	stp	x22, x21, [sp, #64]
	stp	x20, x19, [sp, #80]
.LBB116_1:
	sub	sp, sp, #3072
	cmp	sp, x9
	str	xzr, [sp]
	b.ne	.LBB116_1
	sub	sp, sp, #1840
	str	xzr, [sp]
	ldp	x8, x20, [x0]
	stp	xzr, xzr, [x0]
	cbz	x8, .LBB116_10
	movi	v0.2d, #0000000000000000
	ldrb	w8, [x20, #2]
	mov	x19, x0
	sub	x22, x29, #64
	add	x21, x20, #4, lsl #12
	str	xzr, [sp, #32]
	cmp	w8, #1
	stp	q0, q0, [sp]
	b.le	.LBB116_14
	sub	w8, w8, #2
	cmp	w8, #3
	b.hs	.LBB116_8
	mov	w8, #1
.LBB116_6:
	stur	xzr, [sp, #54]
	str	xzr, [sp, #48]
.LBB116_7:
	strb	w8, [sp]
	ldr	x8, [sp, #48]
	ldur	x9, [sp, #54]
	mov	w10, #17600
	mov	x1, sp
	mov	x2, xzr
	stur	x8, [sp, #25]
	mov	w8, #17160
	add	x3, x20, x10
	add	x0, x20, x8
	strb	wzr, [sp, #1]
	stp	xzr, xzr, [sp, #8]
	strb	wzr, [sp, #24]
	stur	x9, [sp, #31]
	bl	"sq_feed::ear::Ear::hear"
.LBB116_8:
	mov	w8, #17160
	mov	w9, #17600
	add	x23, sp, #592
	add	x0, x20, x8
	add	x1, x20, x9
	bl	"sq_feed::ear::Ear::end"
	movi	v0.2d, #0000000000000000
	ldrb	w26, [x20]
	ldrb	w27, [x20, #1]
	strb	wzr, [x21, #792]
	cmp	w26, #1
	stp	q0, q0, [x29, #-64]
	stur	q0, [x29, #-32]
	stur	xzr, [x22, #45]
	b.ne	.LBB116_11
	cmp	w27, #2
	mov	w8, #2
	add	x0, sp, #744
	mov	w1, wzr
	mov	w2, #16391
	strb	wzr, [x22, #52]
	stur	q0, [x22, #36]
	cset	w25, eq
	csel	x24, x8, xzr, eq
	stur	q0, [x22, #20]
	stur	q0, [x22, #4]
	bl	memset
	movi	v0.2d, #0000000000000000
	add	x0, sp, #64
	mov	w1, wzr
	mov	w2, #528
	str	xzr, [sp, #736]
	str	xzr, [sp, #728]
	stp	q0, q0, [sp, #592]
	stp	q0, q0, [sp, #656]
	str	q0, [sp, #688]
	stur	q0, [x23, #105]
	str	q0, [sp, #624]
	stur	q0, [x23, #46]
	bl	memset
	b	.LBB116_12
.LBB116_10:
	mov	w0, #46
	b	.LBB116_13
.LBB116_11:
	add	x0, sp, #744
	mov	w1, wzr
	mov	w2, #16391
	strb	wzr, [x22, #52]
	stur	q0, [x22, #36]
	stur	q0, [x22, #20]
	stur	q0, [x22, #4]
	bl	memset
	movi	v0.2d, #0000000000000000
	add	x0, sp, #64
	mov	w1, wzr
	mov	w2, #528
	str	xzr, [sp, #736]
	str	xzr, [sp, #728]
	stp	q0, q0, [sp, #592]
	stp	q0, q0, [sp, #656]
	str	q0, [sp, #688]
	stur	q0, [x23, #105]
	str	q0, [sp, #624]
	stur	q0, [x23, #46]
	bl	memset
	mov	x25, xzr
	mov	x24, xzr
	mov	w27, #3
.LBB116_12:
	ldp	q0, q1, [x29, #-64]
	add	x0, x20, #65
	ldur	q2, [x29, #-32]
	ldur	x8, [x22, #45]
	add	x1, sp, #744
	mov	w2, #16391
	strb	w26, [x20, #2]
	strb	wzr, [x20, #3]
	stur	q0, [x20, #4]
	stur	q1, [x20, #20]
	stur	q2, [x20, #36]
	stur	x8, [x20, #49]
	stur	xzr, [x20, #57]
	bl	memcpy
	ldur	q0, [x23, #136]
	mov	w8, #16456
	ldr	q2, [sp, #688]
	str	q0, [x20, x8]
	ldp	q0, q1, [sp, #656]
	mov	w8, #16481
	mov	w9, #16538
	add	x1, sp, #64
	add	x8, x20, x8
	mov	w2, #528
	str	xzr, [x20, #16472]
	stp	q0, q1, [x8]
	ldur	q0, [x23, #105]
	ldur	q1, [x23, #46]
	str	q2, [x8, #32]
	stur	q0, [x8, #41]
	add	x8, x20, x9
	stur	q1, [x8, #46]
	ldp	q1, q0, [sp, #608]
	strb	w27, [x21, #96]
	str	xzr, [x20, #16600]
	stp	q1, q0, [x8, #16]
	ldr	q0, [sp, #592]
	str	x25, [x20, #16608]
	str	q0, [x8]
	mov	w8, #16632
	add	x0, x20, x8
	str	xzr, [x20, #16616]
	str	x24, [x20, #16624]
	bl	memcpy
	mov	x0, xzr
	mov	w8, #1
	stp	x8, x20, [x19]
.LBB116_13:
	mov	x1, xzr
	add	sp, sp, #4, lsl #12
	add	sp, sp, #816
	ldp	x20, x19, [sp, #80]
	ldp	x22, x21, [sp, #64]
	ldp	x24, x23, [sp, #48]
	ldp	x26, x25, [sp, #32]
	ldp	x28, x27, [sp, #16]
	ldp	x29, x30, [sp], #96
	ret
.LBB116_14:
	cbnz	w8, .LBB116_17
	ldr	x8, [x20, #16448]
	str	xzr, [sp, #48]
	stur	xzr, [sp, #54]
	cbz	x8, .LBB116_8
	mov	w8, #1
	b	.LBB116_7
.LBB116_17:
	ldrb	w8, [x21, #96]
	cmp	w8, #1
	b.gt	.LBB116_21
	cbnz	w8, .LBB116_22
	ldrb	w8, [x21, #104]
	cmp	w8, #1
	b.ne	.LBB116_27
	ldrb	w8, [x21, #105]
	mov	w10, #1
	stur	xzr, [sp, #54]
	movk	w10, #257, lsl #16
	lsl	w9, w8, #3
	add	w8, w10, #16, lsl #12
	lsr	w8, w8, w9
	lsr	w9, w10, w9
	b	.LBB116_29
.LBB116_21:
	cmp	w8, #2
	ldr	x8, [x20, #17144]
	str	xzr, [sp, #48]
	stur	xzr, [sp, #54]
	cmp	x8, #0
	cset	w9, ne
	mov	w8, w9
	and	w9, w9, #0xff
	cmp	w9, #1
	b.eq	.LBB116_7
	b	.LBB116_8
.LBB116_22:
	ldrb	w8, [x21, #152]
	cmp	w8, #1
	b.eq	.LBB116_6
	ldrb	w8, [x21, #216]
	tbnz	w8, #0, .LBB116_25
	ldr	x8, [x20, #16592]
	cbz	x8, .LBB116_30
.LBB116_25:
	mov	w9, #1
.LBB116_26:
	mov	w8, w9
	b	.LBB116_28
.LBB116_27:
	mov	w8, wzr
	mov	w9, wzr
.LBB116_28:
	stur	xzr, [sp, #54]
.LBB116_29:
	str	xzr, [sp, #48]
	and	w9, w9, #0xff
	cmp	w9, #1
	b.eq	.LBB116_7
	b	.LBB116_8
.LBB116_30:
	mov	w9, wzr
	b	.LBB116_26
.Lfunc_end116:
	.size	squitter_feed_disconnected, .Lfunc_end116-squitter_feed_disconnected

	.section	.text.squitter_feed_finish,"ax",@progbits
	.globl	squitter_feed_finish
	.p2align	2
	.type	squitter_feed_finish,@function
squitter_feed_finish:
	stp	x29, x30, [sp, #-96]!
	stp	x22, x21, [sp, #64]
	cmp	x2, #0
	mov	w9, #4096
	ldp	x10, x21, [x0]
	csel	x8, x9, xzr, eq
	cmp	x4, #0
	str	x27, [sp, #16]
	mov	x29, sp
	csel	x9, x9, xzr, eq
	stp	x26, x25, [sp, #32]
	stp	x24, x23, [sp, #48]
	stp	x20, x19, [sp, #80]
	stp	xzr, xzr, [x0]
	cbz	x10, .LBB117_5
	mov	x20, x0
	mov	x0, x21
	mov	x19, x6
	mov	x23, x5
	mov	x24, x3
	mov	x22, x1
	add	x25, x2, x8
	add	x26, x4, x9
	bl	"sq_feed::feed::Feed::close"
	adrp	x1, .Lstatic.0
	add	x1, x1, :lo12:.Lstatic.0
	mov	x0, x21
	mov	x2, xzr
	mov	x3, x22
	mov	x4, x25
	mov	x5, x24
	mov	x6, x26
	mov	x7, x23
	bl	"squitter_c::feed_take::take_by"
	ldrb	w8, [x21, #2]
	sub	w8, w8, #2
	cmp	w8, #3
	b.lo	.LBB117_4
	ldr	x8, [x21, #17696]
	cbnz	x8, .LBB117_4
	mov	w8, #17160
	mov	w9, #17600
	mov	x27, x1
	add	x0, x21, x8
	add	x1, x21, x9
	bl	"sq_feed::ear::Ear::end"
	mov	w8, #14
	add	x4, x25, x27, lsl #3
	sub	x5, x24, x27
	madd	x6, x27, x8, x26
	sub	x7, x23, x27
	adrp	x1, .Lstatic.0
	add	x1, x1, :lo12:.Lstatic.0
	mov	x0, x21
	mov	x2, xzr
	mov	x3, x22
	bl	"squitter_c::feed_take::take_by"
	mov	x0, xzr
	add	x1, x1, x27
.LBB117_4:
	mov	x8, xzr
	mov	w9, #1
	stp	x0, x1, [x19]
	stp	x9, x21, [x20]
	b	.LBB117_6
.LBB117_5:
	mov	w8, #46
.LBB117_6:
	ldp	x20, x19, [sp, #80]
	mov	x0, x8
	ldp	x22, x21, [sp, #64]
	mov	x1, xzr
	ldp	x24, x23, [sp, #48]
	ldr	x27, [sp, #16]
	ldp	x26, x25, [sp, #32]
	ldp	x29, x30, [sp], #96
	ret
.Lfunc_end117:
	.size	squitter_feed_finish, .Lfunc_end117-squitter_feed_finish

	.section	.text.squitter_feed_finish_text,"ax",@progbits
	.globl	squitter_feed_finish_text
	.p2align	2
	.type	squitter_feed_finish_text,@function
squitter_feed_finish_text:
	stp	x29, x30, [sp, #-80]!
	stp	x22, x21, [sp, #48]
	ldp	x9, x21, [x0]
	cmp	x2, #0
	mov	w8, #4096
	str	x25, [sp, #16]
	csel	x8, x8, xzr, eq
	stp	x24, x23, [sp, #32]
	mov	x29, sp
	stp	x20, x19, [sp, #64]
	stp	xzr, xzr, [x0]
	cbz	x9, .LBB118_5
	mov	x19, x0
	mov	x0, x21
	mov	x20, x4
	mov	x23, x3
	mov	x22, x1
	add	x24, x2, x8
	bl	"sq_feed::feed::Feed::close"
	adrp	x1, .Lstatic.0
	add	x1, x1, :lo12:.Lstatic.0
	mov	x0, x21
	mov	x2, xzr
	mov	x3, x22
	mov	x4, x24
	mov	x5, x23
	bl	"squitter_c::feed_text::take_by"
	ldrb	w8, [x21, #2]
	sub	w8, w8, #2
	cmp	w8, #3
	b.lo	.LBB118_4
	ldr	x8, [x21, #17696]
	cbnz	x8, .LBB118_4
	mov	w8, #17160
	mov	w9, #17600
	mov	x25, x1
	add	x0, x21, x8
	add	x1, x21, x9
	bl	"sq_feed::ear::Ear::end"
	sub	x5, x23, x25
	adrp	x1, .Lstatic.0
	add	x1, x1, :lo12:.Lstatic.0
	add	x4, x24, x25
	mov	x0, x21
	mov	x2, xzr
	mov	x3, x22
	bl	"squitter_c::feed_text::take_by"
	mov	x0, xzr
	add	x1, x1, x25
.LBB118_4:
	mov	x8, xzr
	mov	w9, #1
	stp	x0, x1, [x20]
	stp	x9, x21, [x19]
	b	.LBB118_6
.LBB118_5:
	mov	w8, #46
.LBB118_6:
	ldp	x20, x19, [sp, #64]
	mov	x0, x8
	ldp	x22, x21, [sp, #48]
	mov	x1, xzr
	ldp	x24, x23, [sp, #32]
	ldr	x25, [sp, #16]
	ldp	x29, x30, [sp], #80
	ret
.Lfunc_end118:
	.size	squitter_feed_finish_text, .Lfunc_end118-squitter_feed_finish_text

	.section	.text.squitter_feed_format,"ax",@progbits
	.globl	squitter_feed_format
	.p2align	2
	.type	squitter_feed_format,@function
squitter_feed_format:
	ldp	x8, x9, [x0]
	stp	xzr, xzr, [x0]
	cbz	x8, .LBB119_3
	ldrb	w8, [x9, #2]
	sub	w8, w8, #1
	cmp	w8, #3
	add	x8, x9, #4, lsl #12
	b.hs	.LBB119_4
	ldrb	w10, [x8, #96]
	b	.LBB119_7
.LBB119_3:
	mov	w8, #46
	mov	x0, x8
	mov	x1, xzr
	ret
.LBB119_4:
	ldrb	w10, [x8, #1208]
	cbz	w10, .LBB119_6
	ldrb	w8, [x8, #1209]
	adrp	x10, .Lswitch.table.squitter_feed_format
	add	x10, x10, :lo12:.Lswitch.table.squitter_feed_format
	ldr	w10, [x10, x8, lsl #2]
	b	.LBB119_7
.LBB119_6:
	mov	w10, #4
.LBB119_7:
	mov	w11, #1
	mov	x8, xzr
	stp	x11, x9, [x0]
	str	w10, [x1]
	mov	x0, x8
	mov	x1, xzr
	ret
.Lfunc_end119:
	.size	squitter_feed_format, .Lfunc_end119-squitter_feed_format

	.section	.text.squitter_feed_new,"ax",@progbits
	.globl	squitter_feed_new
	.p2align	2
	.type	squitter_feed_new,@function
squitter_feed_new:
	stp	x29, x30, [sp, #-96]!
	sub	x9, sp, #3, lsl #12
	stp	x28, x27, [sp, #16]
	mov	x29, sp
	sub	x9, x9, #3072
	stp	x26, x25, [sp, #32]
	stp	x24, x23, [sp, #48]
	stp	x22, x21, [sp, #64]
	stp	x20, x19, [sp, #80]
.LBB120_1:
	sub	sp, sp, #3072
	cmp	sp, x9
	str	xzr, [sp]
	b.ne	.LBB120_1
	sub	sp, sp, #1776
	str	xzr, [sp]
	mov	w23, w6
	mov	x22, x4
	mov	x19, x0
	mov	x20, x2
	sub	x25, x29, #48
	stp	xzr, xzr, [x0]
	cmp	w3, #1
	add	x24, sp, #544
	mov	w0, #49
	b.le	.LBB120_8
	cmp	w3, #2
	b.eq	.LBB120_11
	cmp	w3, #3
	b.eq	.LBB120_13
	cmp	w3, #4
	b.ne	.LBB120_16
	cmp	x1, #5, lsl #12
	b.lo	.LBB120_12
	add	x0, sp, #696
	mov	w1, wzr
	mov	w2, #16391
	str	x5, [sp, #8]
	stp	xzr, xzr, [x29, #-48]
	strb	wzr, [x25, #24]
	stur	xzr, [x29, #-32]
	bl	memset
	movi	v0.2d, #0000000000000000
	add	x0, sp, #16
	mov	w1, wzr
	mov	w2, #528
	str	xzr, [sp, #688]
	str	xzr, [sp, #680]
	stp	q0, q0, [sp, #544]
	stp	q0, q0, [sp, #608]
	str	q0, [sp, #640]
	stur	q0, [x24, #105]
	str	q0, [sp, #576]
	stur	q0, [x24, #46]
	bl	memset
	mov	x8, xzr
	mov	x9, xzr
	mov	x28, xzr
	mov	x27, xzr
	mov	w26, #3
	b	.LBB120_15
.LBB120_8:
	cbz	w3, .LBB120_17
	cmp	w3, #1
	b.ne	.LBB120_16
	mov	w8, wzr
	mov	w26, #1
	cmp	x1, #5, lsl #12
	b.lo	.LBB120_12
	b	.LBB120_14
.LBB120_11:
	mov	w26, #2
	mov	w8, #1
	cmp	x1, #5, lsl #12
	b.hs	.LBB120_14
.LBB120_12:
	mov	w0, #44
	b	.LBB120_16
.LBB120_13:
	mov	w8, wzr
	mov	w26, #3
	cmp	x1, #5, lsl #12
	b.lo	.LBB120_12
.LBB120_14:
	cmp	w8, #0
	mov	w9, #2
	add	x0, sp, #696
	mov	w1, wzr
	mov	w2, #16391
	str	x5, [sp, #8]
	stp	xzr, xzr, [x29, #-48]
	csel	x27, x9, xzr, ne
	mov	w28, w8
	strb	wzr, [x25, #24]
	stur	xzr, [x29, #-32]
	bl	memset
	movi	v0.2d, #0000000000000000
	add	x0, sp, #16
	mov	w1, wzr
	mov	w2, #528
	str	xzr, [sp, #688]
	str	xzr, [sp, #680]
	stp	q0, q0, [sp, #544]
	stp	q0, q0, [sp, #608]
	str	q0, [sp, #640]
	stur	q0, [x24, #105]
	str	q0, [sp, #576]
	stur	q0, [x24, #46]
	bl	memset
	ubfiz	x9, x26, #8, #32
	mov	w8, #1
.LBB120_15:
	orr	x9, x9, x8, lsl #16
	ldur	q0, [x29, #-48]
	ldur	q1, [x25, #9]
	add	x0, x20, #65
	add	x1, sp, #696
	mov	w2, #16391
	orr	x8, x9, x8
	stp	xzr, xzr, [x20, #16]
	ubfx	w25, w23, #2, #1
	stp	x8, xzr, [x20]
	ubfx	w21, w23, #1, #1
	and	w23, w23, #0x1
	str	q0, [x20, #32]
	stur	q1, [x20, #41]
	stur	xzr, [x20, #57]
	bl	memcpy
	mov	w8, #16480
	ldur	q0, [x24, #136]
	mov	w9, #16481
	strb	w26, [x20, x8]
	mov	w8, #16456
	ldr	q2, [sp, #640]
	str	q0, [x20, x8]
	ldp	q0, q1, [sp, #608]
	add	x8, x20, x9
	mov	w9, #16538
	add	x1, sp, #16
	str	q2, [x8, #32]
	mov	w2, #528
	stp	q0, q1, [x8]
	ldur	q0, [x24, #105]
	ldur	q1, [x24, #46]
	str	xzr, [x20, #16472]
	stur	q0, [x8, #41]
	add	x8, x20, x9
	stur	q1, [x8, #46]
	ldp	q1, q0, [sp, #560]
	str	xzr, [x20, #16600]
	str	x28, [x20, #16608]
	stp	q1, q0, [x8, #16]
	ldr	q0, [sp, #544]
	str	xzr, [x20, #16616]
	str	q0, [x8]
	mov	w8, #16632
	add	x0, x20, x8
	str	x27, [x20, #16624]
	bl	memcpy
	mov	w8, #17184
	movi	v0.2d, #0000000000000000
	ldr	x9, [sp, #8]
	strb	w23, [x20, x8]
	mov	w8, #17185
	mov	x0, xzr
	strb	w21, [x20, x8]
	mov	w8, #17186
	add	x8, x20, x8
	str	x9, [x20, #17200]
	mov	w9, #17330
	str	wzr, [x8]
	strh	wzr, [x8, #4]
	mov	w8, #17208
	add	x8, x20, x8
	str	xzr, [x20, #17160]
	stp	q0, q0, [x8]
	stp	q0, q0, [x8, #32]
	stp	q0, q0, [x8, #64]
	str	q0, [x8, #96]
	stur	q0, [x8, #105]
	mov	w8, #17329
	strb	w25, [x20, x8]
	add	x8, x20, x9
	stp	q0, q0, [x8]
	stp	q0, q0, [x8, #32]
	stp	q0, q0, [x8, #64]
	stp	q0, q0, [x8, #96]
	stp	q0, q0, [x8, #128]
	stp	q0, q0, [x8, #160]
	stp	q0, q0, [x8, #192]
	stp	q0, q0, [x8, #224]
	stp	q0, q0, [x8, #256]
	stp	q0, q0, [x8, #288]
	stp	q0, q0, [x8, #320]
	str	q0, [x8, #352]
	mov	w8, #1
	str	xzr, [x20, #17176]
	str	xzr, [x20, #17168]
	str	x22, [x20, #17192]
	str	xzr, [x20, #17696]
	stp	x8, x20, [x19]
.LBB120_16:
	mov	x1, xzr
	add	sp, sp, #4, lsl #12
	add	sp, sp, #752
	ldp	x20, x19, [sp, #80]
	ldp	x22, x21, [sp, #64]
	ldp	x24, x23, [sp, #48]
	ldp	x26, x25, [sp, #32]
	ldp	x28, x27, [sp, #16]
	ldp	x29, x30, [sp], #96
	ret
.LBB120_17:
	mov	w8, wzr
	mov	w26, wzr
	cmp	x1, #5, lsl #12
	b.lo	.LBB120_12
	b	.LBB120_14
.Lfunc_end120:
	.size	squitter_feed_new, .Lfunc_end120-squitter_feed_new

	.section	.text.squitter_feed_take,"ax",@progbits
	.globl	squitter_feed_take
	.p2align	2
	.type	squitter_feed_take,@function
squitter_feed_take:
	stp	x29, x30, [sp, #-48]!
	stp	x20, x19, [sp, #32]
	ldp	x8, x20, [x0]
	str	x21, [sp, #16]
	mov	x29, sp
	stp	xzr, xzr, [x0]
	cbz	x8, .LBB121_2
	cmp	x6, #0
	mov	w8, #4096
	mov	x19, x0
	csel	x9, x8, xzr, eq
	cmp	x4, #0
	ldr	x21, [x29, #48]
	csel	x10, x8, xzr, eq
	cmp	x1, #0
	add	x6, x6, x9
	csel	x8, x8, xzr, eq
	add	x4, x4, x10
	mov	x0, x20
	add	x1, x1, x8
	bl	"squitter_c::feed_take::take_by"
	mov	x8, x0
	mov	x0, xzr
	stp	x8, x1, [x21]
	mov	w8, #1
	stp	x8, x20, [x19]
	ldp	x20, x19, [sp, #32]
	mov	x1, xzr
	ldr	x21, [sp, #16]
	ldp	x29, x30, [sp], #48
	ret
.LBB121_2:
	mov	w0, #46
	ldp	x20, x19, [sp, #32]
	mov	x1, xzr
	ldr	x21, [sp, #16]
	ldp	x29, x30, [sp], #48
	ret
.Lfunc_end121:
	.size	squitter_feed_take, .Lfunc_end121-squitter_feed_take

	.section	.text.squitter_feed_take_text,"ax",@progbits
	.globl	squitter_feed_take_text
	.p2align	2
	.type	squitter_feed_take_text,@function
squitter_feed_take_text:
	stp	x29, x30, [sp, #-48]!
	str	x21, [sp, #16]
	ldp	x8, x21, [x0]
	stp	x20, x19, [sp, #32]
	mov	x29, sp
	stp	xzr, xzr, [x0]
	cbz	x8, .LBB122_2
	cmp	x4, #0
	mov	w8, #4096
	mov	x19, x0
	csel	x9, x8, xzr, eq
	cmp	x1, #0
	mov	x0, x21
	csel	x8, x8, xzr, eq
	add	x4, x4, x9
	mov	x20, x6
	add	x1, x1, x8
	bl	"squitter_c::feed_text::take_by"
	mov	x8, x0
	mov	x0, xzr
	stp	x8, x1, [x20]
	mov	w8, #1
	stp	x8, x21, [x19]
	ldp	x20, x19, [sp, #32]
	mov	x1, xzr
	ldr	x21, [sp, #16]
	ldp	x29, x30, [sp], #48
	ret
.LBB122_2:
	mov	w0, #46
	ldp	x20, x19, [sp, #32]
	mov	x1, xzr
	ldr	x21, [sp, #16]
	ldp	x29, x30, [sp], #48
	ret
.Lfunc_end122:
	.size	squitter_feed_take_text, .Lfunc_end122-squitter_feed_take_text

	.section	.text.squitter_feet_of_field,"ax",@progbits
	.globl	squitter_feet_of_field
	.p2align	2
	.type	squitter_feet_of_field,@function
squitter_feet_of_field:
	and	w8, w0, #0xff
	cmp	w8, #9
	b.hs	.LBB123_2
.LBB123_1:
	mov	w0, #21
	mov	x1, xzr
	ret
.LBB123_2:
	cmp	w8, #19
	and	w8, w1, #0xffff
	b.hs	.LBB123_7
	cmp	w8, #4095
	b.hi	.LBB123_1
	cbz	w8, .LBB123_11
	tbz	w8, #4, .LBB123_10
	ubfx	w9, w8, #5, #7
	and	w8, w8, #0xf
	orr	w8, w8, w9, lsl #4
	mov	w9, #25
	mul	w8, w8, w9
	mov	w9, #-1000
	add	x8, x8, x9
	orr	x8, x8, #0x100000000
	b	.LBB123_12
.LBB123_7:
	and	w9, w0, #0xff
	mov	w0, #21
	cmp	w9, #19
	b.eq	.LBB123_13
	cmp	w9, #22
	b.hi	.LBB123_13
	cmp	w8, #1, lsl #12
	b.hs	.LBB123_13
.LBB123_10:
	mov	x8, #8589934592
	b	.LBB123_12
.LBB123_11:
	mov	x8, xzr
.LBB123_12:
	mov	x0, xzr
	str	x8, [x2]
.LBB123_13:
	mov	x1, xzr
	ret
.Lfunc_end123:
	.size	squitter_feet_of_field, .Lfunc_end123-squitter_feet_of_field

	.section	.text.squitter_field_of_feet,"ax",@progbits
	.globl	squitter_field_of_feet
	.p2align	2
	.type	squitter_field_of_feet,@function
squitter_field_of_feet:
	mov	w9, #51175
	add	w10, w0, #1000
	mov	w8, w0
	cmp	w10, w9
	mov	w0, #24
	b.hi	.LBB124_3
	mov	w9, #34079
	movk	w9, #20971, lsl #16
	smull	x9, w8, w9
	asr	x10, x9, #35
	add	x9, x10, x9, lsr #63
	mov	w10, #25
	msub	w9, w9, w10, w8
	cbnz	w9, .LBB124_3
	add	w8, w8, #1000
	mov	w10, #18351
	mov	x0, xzr
	and	w9, w8, #0xffff
	mul	w9, w9, w10
	lsr	w9, w9, #16
	sub	w8, w8, w9
	and	w8, w8, #0xfffe
	add	w8, w9, w8, lsr #1
	lsr	w9, w8, #3
	and	w9, w9, #0x1fe0
	bfxil	w9, w8, #4, #4
	orr	w8, w9, #0x10
	strh	w8, [x1]
.LBB124_3:
	mov	x1, xzr
	ret
.Lfunc_end124:
	.size	squitter_field_of_feet, .Lfunc_end124-squitter_field_of_feet

	.section	.text.squitter_frame_of_text,"ax",@progbits
	.globl	squitter_frame_of_text
	.p2align	2
	.type	squitter_frame_of_text,@function
squitter_frame_of_text:
	sub	sp, sp, #64
	cmp	x0, #0
	mov	w9, #4096
	mov	x8, x0
	csel	x9, x9, xzr, eq
	str	x19, [sp, #48]
	mov	x19, x2
	mov	x2, x1
	add	x0, sp, #8
	add	x1, x8, x9
	stp	x29, x30, [sp, #32]
	add	x29, sp, #32
	stp	xzr, xzr, [sp, #8]
	str	xzr, [sp, #24]
	bl	"sq_text::frame_text::read_text"
	ldrb	w8, [sp, #8]
	cbz	w8, .LBB125_4
	ldrb	w8, [sp, #16]
	cmp	w8, #1
	b.gt	.LBB125_5
	mov	x1, xzr
	cbnz	w8, .LBB125_7
	mov	w0, #1
	ldp	x29, x30, [sp, #32]
	ldr	x19, [sp, #48]
	add	sp, sp, #64
	ret
.LBB125_4:
	ldur	x8, [sp, #9]
	ldur	x9, [sp, #15]
	mov	x1, xzr
	mov	x0, xzr
	str	x8, [x19]
	stur	x9, [x19, #6]
	ldp	x29, x30, [sp, #32]
	ldr	x19, [sp, #48]
	add	sp, sp, #64
	ret
.LBB125_5:
	ldr	x1, [sp, #24]
	cmp	w8, #2
	b.ne	.LBB125_8
	mov	w0, #3
	ldp	x29, x30, [sp, #32]
	ldr	x19, [sp, #48]
	add	sp, sp, #64
	ret
.LBB125_7:
	mov	w0, #2
	ldp	x29, x30, [sp, #32]
	ldr	x19, [sp, #48]
	add	sp, sp, #64
	ret
.LBB125_8:
	mov	w0, #4
	ldp	x29, x30, [sp, #32]
	ldr	x19, [sp, #48]
	add	sp, sp, #64
	ret
.Lfunc_end125:
	.size	squitter_frame_of_text, .Lfunc_end125-squitter_frame_of_text

	.section	.text.squitter_local,"ax",@progbits
	.globl	squitter_local
	.p2align	2
	.type	squitter_local,@function
squitter_local:
	sub	sp, sp, #80
	stp	x29, x30, [sp, #48]
	add	x29, sp, #48
	str	x19, [sp, #64]
	mov	x19, x2
	mov	x2, x1
	mov	x1, x0
	mov	x0, sp
	stp	xzr, xzr, [x29, #-16]
	bl	"squitter_c::decode::near"
	sub	x0, x29, #16
	mov	x1, sp
	mov	x2, x19
	bl	"squitter_c::decode::give"
	ldp	x0, x1, [x29, #-16]
	ldr	x19, [sp, #64]
	ldp	x29, x30, [sp, #48]
	add	sp, sp, #80
	ret
.Lfunc_end126:
	.size	squitter_local, .Lfunc_end126-squitter_local

	.section	.text.squitter_local_many,"ax",@progbits
	.globl	squitter_local_many
	.p2align	2
	.type	squitter_local_many,@function
squitter_local_many:
	sub	sp, sp, #128
	cmp	x0, #0
	mov	w11, #4096
	stp	x20, x19, [sp, #112]
	csel	x8, x11, xzr, eq
	cmp	x2, #0
	stp	x29, x30, [sp, #64]
	csel	x9, x11, xzr, eq
	cmp	x4, #0
	stp	x24, x23, [sp, #80]
	csel	x10, x11, xzr, eq
	cmp	x6, #0
	stp	x22, x21, [sp, #96]
	csel	x11, x11, xzr, eq
	cmp	x7, x5
	add	x29, sp, #64
	csel	x12, x7, x5, lo
	cmp	x12, x3
	csel	x12, x12, x3, lo
	cmp	x12, x1
	csel	x19, x12, x1, lo
	cbz	x19, .LBB127_3
	add	x20, x0, x8
	add	x21, x2, x9
	add	x22, x4, x10
	add	x23, x6, x11
	mov	x24, x19
.LBB127_2:
	add	x0, sp, #16
	mov	x1, x20
	mov	x2, x21
	stp	xzr, xzr, [x29, #-16]
	bl	"squitter_c::decode::near"
	sub	x0, x29, #16
	add	x1, sp, #16
	mov	x2, x22
	bl	"squitter_c::decode::give"
	ldur	q0, [x29, #-16]
	subs	x24, x24, #1
	add	x22, x22, #32
	add	x21, x21, #32
	add	x20, x20, #14
	str	q0, [sp]
	str	q0, [x23], #16
	b.ne	.LBB127_2
.LBB127_3:
	mov	x0, x19
	ldp	x20, x19, [sp, #112]
	ldp	x22, x21, [sp, #96]
	ldp	x24, x23, [sp, #80]
	ldp	x29, x30, [sp, #64]
	add	sp, sp, #128
	ret
.Lfunc_end127:
	.size	squitter_local_many, .Lfunc_end127-squitter_local_many

	.section	.text.squitter_log_tally,"ax",@progbits
	.globl	squitter_log_tally
	.p2align	2
	.type	squitter_log_tally,@function
squitter_log_tally:
	ldp	x10, x9, [x0]
	stp	xzr, xzr, [x0]
	cbz	x10, .LBB128_2
	ldr	q0, [x9, #272]
	mov	x8, x0
	mov	w10, #1
	mov	x0, xzr
	stp	x10, x9, [x8]
	str	q0, [x1]
	mov	x1, xzr
	ret
.LBB128_2:
	mov	w0, #46
	mov	x1, xzr
	ret
.Lfunc_end128:
	.size	squitter_log_tally, .Lfunc_end128-squitter_log_tally

	.section	.text.squitter_order_flush,"ax",@progbits
	.globl	squitter_order_flush
	.p2align	2
	.type	squitter_order_flush,@function
squitter_order_flush:
	cmp	x1, #0
	mov	w8, #4096
	ldp	x10, x9, [x0]
	csel	x11, x8, xzr, eq
	cmp	x3, #0
	stp	xzr, xzr, [x0]
	csel	x12, x8, xzr, eq
	cbz	x10, .LBB129_7
	sub	sp, sp, #32
	cmp	x4, x2
	mov	x10, xzr
	csel	x8, x4, x2, lo
	cbz	x8, .LBB129_6
	add	x11, x1, x11
	add	x12, x3, x12
.LBB129_3:
	ldr	x14, [x9, #8]
	ldr	x13, [x9, #32]
	cmp	x14, x13
	b.eq	.LBB129_6
	mov	w14, #24
	ldr	x15, [x9]
	madd	x14, x13, x14, x15
	add	x13, x13, #1
	ldur	q0, [x14, #8]
	ldr	x14, [x14]
	str	x13, [x9, #32]
	str	q0, [sp, #16]
	ldr	x15, [sp, #16]
	ldur	x13, [sp, #22]
	str	x14, [x9, #56]
	str	x14, [x11, x10, lsl #3]
	add	x10, x10, #1
	str	x15, [sp]
	cmp	x8, x10
	stur	x13, [sp, #6]
	ldr	x13, [sp]
	ldur	x14, [sp, #6]
	str	x13, [x12]
	stur	x14, [x12, #6]
	add	x12, x12, #14
	b.ne	.LBB129_3
	mov	x10, x8
.LBB129_6:
	mov	x8, xzr
	stp	xzr, x10, [x5]
	mov	w10, #1
	stp	x10, x9, [x0]
	add	sp, sp, #32
	mov	x0, x8
	mov	x1, xzr
	ret
.LBB129_7:
	mov	w8, #46
	mov	x0, x8
	mov	x1, xzr
	ret
.Lfunc_end129:
	.size	squitter_order_flush, .Lfunc_end129-squitter_order_flush

	.section	.text.squitter_order_grow,"ax",@progbits
	.globl	squitter_order_grow
	.p2align	2
	.type	squitter_order_grow,@function
squitter_order_grow:
	sub	sp, sp, #192
	stp	x20, x19, [sp, #176]
	ldp	x8, x19, [x0]
	stp	x29, x30, [sp, #112]
	add	x29, sp, #112
	stp	x26, x25, [sp, #128]
	stp	x24, x23, [sp, #144]
	stp	x22, x21, [sp, #160]
	stp	xzr, xzr, [x0]
	cbz	x8, .LBB130_6
	cmp	x1, #535
	b.ls	.LBB130_5
	sub	x9, x1, #512
	mov	x11, #-9223372036854775793
	sub	x8, x1, #320
	mov	w10, #1
	add	x20, x2, #320
	cmp	x9, x11
	stp	x10, x8, [x2, #256]
	str	x20, [x2, #272]
	b.hi	.LBB130_5
	mov	x10, #-6148914691236517206
	movk	x10, #43691
	umulh	x9, x9, x10
	mov	x10, #15
	lsr	x21, x9, #4
	mov	w9, #24
	madd	x11, x21, x9, x10
	ldr	x9, [x19, #40]
	add	x10, x2, #256
	stp	xzr, xzr, [x10]
	str	xzr, [x10, #16]
	and	x11, x11, #0xfffffffffffffff0
	subs	x12, x8, x11
	b.hs	.LBB130_8
	mov	w9, #1
	str	x20, [x2, #272]
	stp	x9, x8, [x2, #256]
.LBB130_5:
	mov	w8, #1
	stp	x8, x19, [x0]
	mov	w0, #44
	b	.LBB130_7
.LBB130_6:
	mov	w0, #46
.LBB130_7:
	ldp	x20, x19, [sp, #176]
	mov	x1, xzr
	ldp	x22, x21, [sp, #160]
	ldp	x24, x23, [sp, #144]
	ldp	x26, x25, [sp, #128]
	ldp	x29, x30, [sp, #112]
	add	sp, sp, #192
	ret
.LBB130_8:
	mov	w8, #1
	stp	x20, xzr, [sp, #40]
	stp	x8, x12, [x2, #256]
	add	x8, x20, x11
	str	x8, [x2, #272]
	ldp	x25, x23, [x19]
	ldr	x24, [x19, #32]
	stp	x21, x10, [sp, #56]
	stp	xzr, x9, [sp, #72]
	sub	x22, x23, x24
	stp	xzr, xzr, [sp, #96]
	cmp	x22, x21
	str	xzr, [sp, #88]
	b.hi	.LBB130_15
	mov	x10, xzr
.LBB130_10:
	mov	w8, #24
	add	x9, x22, x22, lsl #1
	add	x26, sp, #40
	madd	x1, x24, x8, x25
	mov	w8, #24
	add	x25, x10, x22
	lsl	x9, x9, #3
	madd	x8, x10, x8, x20
	sub	x11, x8, x1
	cmp	x11, x9
	b.hs	.LBB130_13
	cmp	x23, x24
	b.eq	.LBB130_14
.LBB130_12:
	ldr	x9, [x1, #16]
	ldr	q0, [x1], #24
	subs	x22, x22, #1
	str	x9, [x8, #16]
	str	q0, [x8], #24
	b.ne	.LBB130_12
	b	.LBB130_14
.LBB130_13:
	mov	x22, x0
	mov	x0, x8
	mov	x23, x2
	mov	x2, x9
	bl	memmove
	mov	x2, x23
	mov	x0, x22
.LBB130_14:
	ldr	q0, [x19, #48]
	ldr	x9, [x19, #64]
	ldr	x10, [sp, #64]
	stp	x20, x25, [x2]
	stur	q0, [sp, #88]
	str	x9, [sp, #104]
	ldp	q1, q0, [x26, #32]
	ldur	x9, [x26, #64]
	stp	x21, x10, [x2, #16]
	str	x9, [sp, #32]
	str	x9, [x2, #64]
	mov	w9, #1
	stp	q1, q0, [x2, #32]
	stp	x9, x2, [x0]
	mov	x0, xzr
	stp	q1, q0, [sp]
	b	.LBB130_7
.LBB130_15:
	mov	x20, x0
	add	x0, sp, #40
	sub	x1, x23, x24
	mov	x21, x2
	bl	"std_alloc::vec::Vec::grow_amortized::<#90923cc7d49729f9>"
	mov	w8, w0
	mov	x0, x20
	cbz	w8, .LBB130_5
	mov	x2, x21
	ldp	x10, x21, [sp, #48]
	ldr	x20, [sp, #40]
	b	.LBB130_10
.Lfunc_end130:
	.size	squitter_order_grow, .Lfunc_end130-squitter_order_grow

	.section	.text.squitter_order_held,"ax",@progbits
	.globl	squitter_order_held
	.p2align	2
	.type	squitter_order_held,@function
squitter_order_held:
	ldp	x10, x9, [x0]
	stp	xzr, xzr, [x0]
	cbz	x10, .LBB131_2
	ldr	x10, [x9, #8]
	ldr	x11, [x9, #32]
	mov	x8, x0
	mov	w12, #1
	mov	x0, xzr
	sub	x10, x10, x11
	stp	x12, x9, [x8]
	str	x10, [x1]
	mov	x1, xzr
	ret
.LBB131_2:
	mov	w0, #46
	mov	x1, xzr
	ret
.Lfunc_end131:
	.size	squitter_order_held, .Lfunc_end131-squitter_order_held

	.section	.text.squitter_order_late,"ax",@progbits
	.globl	squitter_order_late
	.p2align	2
	.type	squitter_order_late,@function
squitter_order_late:
	ldp	x10, x9, [x0]
	stp	xzr, xzr, [x0]
	cbz	x10, .LBB132_2
	ldr	x11, [x9, #64]
	mov	x8, x0
	mov	w10, #1
	mov	x0, xzr
	stp	x10, x9, [x8]
	str	x11, [x1]
	mov	x1, xzr
	ret
.LBB132_2:
	mov	w0, #46
	mov	x1, xzr
	ret
.Lfunc_end132:
	.size	squitter_order_late, .Lfunc_end132-squitter_order_late

	.section	.text.squitter_order_new,"ax",@progbits
	.globl	squitter_order_new
	.p2align	2
	.type	squitter_order_new,@function
squitter_order_new:
	cmp	x1, #536
	stp	xzr, xzr, [x0]
	b.lo	.LBB133_4
	sub	x9, x1, #320
	mov	w8, #1
	sub	x10, x1, #512
	mov	x11, #-9223372036854775793
	stp	x8, x9, [x2, #256]
	add	x8, x2, #320
	cmp	x10, x11
	str	x8, [x2, #272]
	b.hi	.LBB133_4
	mov	x11, #-6148914691236517206
	mov	x12, #15
	movk	x11, #43691
	umulh	x10, x10, x11
	mov	w11, #24
	lsr	x10, x10, #4
	madd	x12, x10, x11, x12
	add	x11, x2, #256
	stp	xzr, xzr, [x11]
	str	xzr, [x11, #16]
	and	x12, x12, #0xfffffffffffffff0
	subs	x13, x9, x12
	b.hs	.LBB133_5
	mov	w10, #1
	mov	w0, #44
	mov	x1, xzr
	stp	x10, x9, [x2, #256]
	str	x8, [x2, #272]
	ret
.LBB133_4:
	mov	w0, #44
	mov	x1, xzr
	ret
.LBB133_5:
	mov	w14, #1
	add	x12, x8, x12
	stp	x8, xzr, [x2]
	stp	x14, x13, [x2, #256]
	mov	x1, xzr
	str	x12, [x2, #272]
	stp	x10, x11, [x2, #16]
	stp	xzr, x3, [x2, #32]
	stp	xzr, xzr, [x2, #56]
	str	xzr, [x2, #48]
	stp	x14, x2, [x0]
	mov	x0, xzr
	ret
.Lfunc_end133:
	.size	squitter_order_new, .Lfunc_end133-squitter_order_new

	.section	.text.squitter_order_take,"ax",@progbits
	.globl	squitter_order_take
	.p2align	2
	.type	squitter_order_take,@function
squitter_order_take:
	sub	sp, sp, #176
	cmp	x1, #0
	mov	w11, #4096
	stp	x20, x19, [sp, #160]
	csel	x8, x11, xzr, eq
	cmp	x3, #0
	stp	x29, x30, [sp, #80]
	csel	x9, x11, xzr, eq
	cmp	x5, #0
	stp	x28, x27, [sp, #96]
	ldp	x12, x20, [x0]
	csel	x10, x11, xzr, eq
	cmp	x7, #0
	stp	x26, x25, [sp, #112]
	add	x29, sp, #80
	csel	x11, x11, xzr, eq
	stp	x24, x23, [sp, #128]
	stp	x22, x21, [sp, #144]
	stp	xzr, xzr, [x0]
	cbz	x12, .LBB134_28
	ldp	x12, x13, [x29, #96]
	cmp	x4, x2
	csel	x24, x4, x2, lo
	mov	x19, x0
	mov	x22, xzr
	mov	x23, xzr
	str	xzr, [sp, #40]
	cmp	x12, x6
	str	x13, [sp, #16]
	csel	x25, x12, x6, lo
	cbz	x25, .LBB134_26
	add	x26, x1, x8
	add	x8, x5, x10
	add	x27, x3, x9
	str	x8, [sp, #8]
	add	x8, x7, x11
	add	x28, sp, #24
	str	x8, [sp]
	b	.LBB134_4
.LBB134_3:
	ldr	x8, [x20, #64]
	adds	x8, x8, #1
	csinv	x8, x8, xzr, lo
	str	x8, [x20, #64]
	add	x22, x22, #1
	cmp	x23, x25
	b.hs	.LBB134_26
.LBB134_4:
	ldr	x1, [x20, #32]
	ldr	x9, [x20, #8]
	cmp	x22, x24
	b.lo	.LBB134_8
	cmp	x1, x9
	b.eq	.LBB134_26
	mov	w8, #24
	ldr	x10, [x20]
	mul	x8, x1, x8
	ldr	x8, [x10, x8]
	ldr	x10, [x20, #48]
	subs	x8, x10, x8
	b.lo	.LBB134_26
	ldr	x10, [x20, #40]
	cmp	x10, x8
	b.hi	.LBB134_26
.LBB134_8:
	cmp	x1, x9
	b.eq	.LBB134_11
	mov	w8, #24
	ldr	x10, [x20]
	ldr	x11, [x20, #48]
	madd	x10, x1, x8, x10
	ldr	x8, [x10]
	subs	x11, x11, x8
	b.lo	.LBB134_11
	ldr	x12, [x20, #40]
	cmp	x12, x11
	b.ls	.LBB134_21
.LBB134_11:
	mov	w8, #14
	ldr	x21, [x26, x22, lsl #3]
	ldr	x10, [x20, #56]
	madd	x8, x22, x8, x27
	cmp	x21, x10
	str	x21, [sp, #24]
	ldr	x11, [x8]
	ldur	x8, [x8, #6]
	stur	x11, [x28, #8]
	stur	x8, [x28, #14]
	b.lo	.LBB134_3
	cmp	x1, x9, lsr #2
	b.lo	.LBB134_14
	ldr	x8, [x20, #16]
	cmp	x9, x8
	b.hs	.LBB134_22
.LBB134_14:
	mov	w8, #24
	mov	x10, #-24
	mov	x12, x9
	madd	x11, x9, x8, x10
	ldr	x10, [x20]
	str	x1, [x20, #32]
.LBB134_15:
	mov	x8, x12
	cmp	x1, x12
	b.eq	.LBB134_17
	ldr	x12, [x10, x11]
	sub	x11, x11, #24
	cmp	x21, x12
	sub	x12, x8, #1
	b.lo	.LBB134_15
.LBB134_17:
	cmp	x8, x9
	b.lo	.LBB134_23
	ldr	x8, [x20, #16]
	cmp	x8, x9
	b.eq	.LBB134_24
.LBB134_19:
	mov	w8, #24
	ldur	q0, [sp, #24]
	madd	x8, x9, x8, x10
	ldr	x10, [sp, #40]
	add	x9, x9, #1
	str	q0, [x8]
	str	x10, [x8, #16]
	str	x9, [x20, #8]
.LBB134_20:
	ldr	x8, [x20, #48]
	cmp	x21, x8
	csel	x8, x21, x8, hi
	str	x8, [x20, #48]
	add	x22, x22, #1
	cmp	x23, x25
	b.lo	.LBB134_4
	b	.LBB134_26
.LBB134_21:
	ldur	q0, [x10, #8]
	mov	w10, #14
	str	x8, [x20, #56]
	stur	q0, [x29, #-16]
	ldur	x9, [x29, #-16]
	ldur	x11, [x29, #-10]
	stur	x9, [x29, #-32]
	ldr	x9, [sp]
	madd	x9, x23, x10, x9
	stur	x11, [x29, #-26]
	ldr	x11, [sp, #8]
	add	x10, x1, #1
	str	x10, [x20, #32]
	ldur	x10, [x29, #-32]
	str	x8, [x11, x23, lsl #3]
	ldur	x8, [x29, #-26]
	add	x23, x23, #1
	str	x10, [x9]
	stur	x8, [x9, #6]
	cmp	x23, x25
	b.lo	.LBB134_4
	b	.LBB134_26
.LBB134_22:
	mov	x0, x20
	bl	"sq_feed::order::move_to_front::<#bd73a11ec42be588>"
	ldr	x9, [x20, #8]
	mov	x1, xzr
	b	.LBB134_14
.LBB134_23:
	add	x2, sp, #24
	mov	x0, x20
	mov	x1, x8
	bl	"sq_feed::order::insert_within::<#bd73a11ec42be588>"
	and	w8, w0, #0xff
	tbz	w8, #0, .LBB134_20
	b	.LBB134_30
.LBB134_24:
	mov	x0, x20
	mov	w1, #1
	bl	"std_alloc::vec::Vec::grow_amortized::<#90923cc7d49729f9>"
	cbz	w0, .LBB134_30
	ldp	x10, x9, [x20]
	b	.LBB134_19
.LBB134_26:
	ldr	x8, [sp, #16]
	mov	x0, xzr
.LBB134_27:
	stp	x22, x23, [x8]
	mov	w8, #1
	stp	x8, x20, [x19]
	b	.LBB134_29
.LBB134_28:
	mov	w0, #46
.LBB134_29:
	ldp	x20, x19, [sp, #160]
	mov	x1, xzr
	ldp	x22, x21, [sp, #144]
	ldp	x24, x23, [sp, #128]
	ldp	x26, x25, [sp, #112]
	ldp	x28, x27, [sp, #96]
	ldp	x29, x30, [sp, #80]
	add	sp, sp, #176
	ret
.LBB134_30:
	ldr	x8, [sp, #16]
	mov	w0, #44
	b	.LBB134_27
.Lfunc_end134:
	.size	squitter_order_take, .Lfunc_end134-squitter_order_take

	.section	.text.squitter_pair,"ax",@progbits
	.globl	squitter_pair
	.p2align	2
	.type	squitter_pair,@function
squitter_pair:
	sub	sp, sp, #80
	stp	x29, x30, [sp, #48]
	add	x29, sp, #48
	mov	w3, wzr
	str	x19, [sp, #64]
	mov	x19, x2
	mov	x2, x1
	mov	x1, x0
	mov	x0, sp
	mov	x4, xzr
	stp	xzr, xzr, [x29, #-16]
	bl	"squitter_c::decode::of_two"
	sub	x0, x29, #16
	mov	x1, sp
	mov	x2, x19
	bl	"squitter_c::decode::give"
	ldp	x0, x1, [x29, #-16]
	ldr	x19, [sp, #64]
	ldp	x29, x30, [sp, #48]
	add	sp, sp, #80
	ret
.Lfunc_end135:
	.size	squitter_pair, .Lfunc_end135-squitter_pair

	.section	.text.squitter_pair_at,"ax",@progbits
	.globl	squitter_pair_at
	.p2align	2
	.type	squitter_pair_at,@function
squitter_pair_at:
	sub	sp, sp, #32
	mov	x4, x3
	mov	x3, x2
	mov	x2, x1
	mov	x1, x0
	mov	x0, sp
	stp	x29, x30, [sp, #16]
	add	x29, sp, #16
	bl	"squitter_c::decode::squitter_pair_at"
	ldp	x0, x1, [sp]
	ldp	x29, x30, [sp, #16]
	add	sp, sp, #32
	ret
.Lfunc_end136:
	.size	squitter_pair_at, .Lfunc_end136-squitter_pair_at

	.section	.text.squitter_pair_at_many,"ax",@progbits
	.globl	squitter_pair_at_many
	.p2align	2
	.type	squitter_pair_at_many,@function
squitter_pair_at_many:
	sub	sp, sp, #96
	cmp	x0, #0
	mov	w11, #4096
	stp	x29, x30, [sp, #16]
	add	x29, sp, #16
	csel	x8, x11, xzr, eq
	cmp	x2, #0
	ldr	x12, [x29, #80]
	csel	x9, x11, xzr, eq
	cmp	x5, #0
	csel	x10, x11, xzr, eq
	cmp	x7, #0
	stp	x20, x19, [sp, #80]
	csel	x11, x11, xzr, eq
	cmp	x12, x6
	str	x25, [sp, #32]
	csel	x12, x12, x6, lo
	stp	x24, x23, [sp, #48]
	cmp	x12, x3
	stp	x22, x21, [sp, #64]
	csel	x12, x12, x3, lo
	cmp	x12, x1
	csel	x19, x12, x1, lo
	cbz	x19, .LBB137_3
	mov	x20, x4
	add	x21, x0, x8
	add	x22, x2, x9
	add	x23, x5, x10
	add	x24, x7, x11
	mov	x25, x19
.LBB137_2:
	mov	x0, sp
	mov	x1, x21
	mov	x2, x22
	mov	x3, x20
	mov	x4, x23
	bl	"squitter_c::decode::squitter_pair_at"
	ldr	q0, [sp]
	subs	x25, x25, #1
	add	x23, x23, #32
	add	x22, x22, #14
	add	x21, x21, #14
	str	q0, [x24], #16
	b.ne	.LBB137_2
.LBB137_3:
	mov	x0, x19
	ldp	x20, x19, [sp, #80]
	ldp	x22, x21, [sp, #64]
	ldr	x25, [sp, #32]
	ldp	x24, x23, [sp, #48]
	ldp	x29, x30, [sp, #16]
	add	sp, sp, #96
	ret
.Lfunc_end137:
	.size	squitter_pair_at_many, .Lfunc_end137-squitter_pair_at_many

	.section	.text.squitter_pair_many,"ax",@progbits
	.globl	squitter_pair_many
	.p2align	2
	.type	squitter_pair_many,@function
squitter_pair_many:
	sub	sp, sp, #128
	cmp	x0, #0
	mov	w11, #4096
	stp	x20, x19, [sp, #112]
	csel	x8, x11, xzr, eq
	cmp	x2, #0
	stp	x29, x30, [sp, #64]
	csel	x9, x11, xzr, eq
	cmp	x4, #0
	stp	x24, x23, [sp, #80]
	csel	x10, x11, xzr, eq
	cmp	x6, #0
	stp	x22, x21, [sp, #96]
	csel	x11, x11, xzr, eq
	cmp	x7, x5
	add	x29, sp, #64
	csel	x12, x7, x5, lo
	cmp	x12, x3
	csel	x12, x12, x3, lo
	cmp	x12, x1
	csel	x19, x12, x1, lo
	cbz	x19, .LBB138_3
	add	x20, x0, x8
	add	x21, x2, x9
	add	x22, x4, x10
	add	x23, x6, x11
	mov	x24, x19
.LBB138_2:
	add	x0, sp, #16
	mov	x1, x20
	mov	x2, x21
	mov	w3, wzr
	mov	x4, xzr
	stp	xzr, xzr, [x29, #-16]
	bl	"squitter_c::decode::of_two"
	sub	x0, x29, #16
	add	x1, sp, #16
	mov	x2, x22
	bl	"squitter_c::decode::give"
	ldur	q0, [x29, #-16]
	subs	x24, x24, #1
	add	x22, x22, #32
	add	x21, x21, #14
	add	x20, x20, #14
	str	q0, [sp]
	str	q0, [x23], #16
	b.ne	.LBB138_2
.LBB138_3:
	mov	x0, x19
	ldp	x20, x19, [sp, #112]
	ldp	x22, x21, [sp, #96]
	ldp	x24, x23, [sp, #80]
	ldp	x29, x30, [sp, #64]
	add	sp, sp, #128
	ret
.Lfunc_end138:
	.size	squitter_pair_many, .Lfunc_end138-squitter_pair_many

	.section	.text.squitter_position_e7,"ax",@progbits
	.globl	squitter_position_e7
	.p2align	2
	.type	squitter_position_e7,@function
squitter_position_e7:
	mov	x11, #-4097
	ldr	x8, [x0, #8]
	movk	x11, #11098, lsl #16
	movk	x11, #65303, lsl #32
	add	x9, x8, x11
	add	x10, x11, #1
	cmp	x9, x10
	b.hs	.LBB139_2
	mov	w0, #20
	mov	x1, xzr
	ret
.LBB139_2:
	mov	w9, #360
	mul	x10, x8, x9
	ldr	x9, [x0]
	cmp	x9, #0
	cneg	x12, x9, mi
	cmp	x10, x12
	b.hs	.LBB139_4
	mov	w0, #20
	mov	x1, xzr
	ret
.LBB139_4:
	ldr	x10, [x0, #24]
	add	x13, x10, x11
	add	x11, x11, #1
	cmp	x13, x11
	b.hs	.LBB139_6
	mov	w0, #20
	mov	x1, xzr
	ret
.LBB139_6:
	mov	w11, #360
	mul	x14, x10, x11
	ldr	x11, [x0, #16]
	cmp	x11, #0
	cneg	x13, x11, mi
	cmp	x14, x13
	b.hs	.LBB139_8
	mov	w0, #20
	mov	x1, xzr
	ret
.LBB139_8:
	mov	w14, #90
	mov	w0, #20
	mul	x14, x8, x14
	cmp	x12, x14
	b.hi	.LBB139_11
	mov	w12, #180
	mul	x12, x10, x12
	cmp	x13, x12
	b.hi	.LBB139_11
	sub	sp, sp, #64
	mov	x0, sp
	stp	x29, x30, [sp, #32]
	add	x29, sp, #32
	str	x19, [sp, #48]
	mov	x19, x1
	stp	x9, x8, [sp]
	stp	x11, x10, [sp, #16]
	bl	"squitter_c::e7::both"
	ldp	x29, x30, [sp, #32]
	stp	w0, w1, [x19]
	ldr	x19, [sp, #48]
	mov	x0, xzr
	add	sp, sp, #64
.LBB139_11:
	mov	x1, xzr
	ret
.Lfunc_end139:
	.size	squitter_position_e7, .Lfunc_end139-squitter_position_e7

	.section	.text.squitter_position_e7_many,"ax",@progbits
	.globl	squitter_position_e7_many
	.p2align	2
	.type	squitter_position_e7_many,@function
squitter_position_e7_many:
	sub	sp, sp, #96
	cmp	x0, #0
	mov	w10, #4096
	stp	x20, x19, [sp, #80]
	csel	x9, x10, xzr, eq
	cmp	x2, #0
	stp	x29, x30, [sp, #32]
	csel	x8, x10, xzr, eq
	cmp	x4, #0
	stp	x24, x23, [sp, #48]
	csel	x10, x10, xzr, eq
	cmp	x5, x3
	stp	x22, x21, [sp, #64]
	csel	x11, x5, x3, lo
	add	x29, sp, #32
	cmp	x11, x1
	csel	x19, x11, x1, lo
	cbz	x19, .LBB140_11
	mov	x20, #-4097
	add	x10, x10, x4
	add	x9, x9, x0
	movk	x20, #11098, lsl #16
	add	x8, x8, x2
	add	x21, x10, #8
	movk	x20, #65303, lsl #32
	add	x22, x9, #16
	add	x23, x8, #4
	mov	x24, x19
.LBB140_2:
	ldur	x8, [x22, #-8]
	add	x10, x20, #1
	add	x9, x8, x20
	cmp	x9, x10
	b.lo	.LBB140_6
	mov	w9, #360
	mul	x10, x8, x9
	ldur	x9, [x22, #-16]
	cmp	x9, #0
	cneg	x11, x9, mi
	cmp	x10, x11
	b.lo	.LBB140_6
	ldr	x10, [x22, #8]
	add	x13, x20, #1
	add	x12, x10, x20
	cmp	x12, x13
	b.lo	.LBB140_6
	mov	w12, #360
	mul	x14, x10, x12
	ldr	x12, [x22]
	cmp	x12, #0
	cneg	x13, x12, mi
	cmp	x14, x13
	b.hs	.LBB140_8
.LBB140_6:
	mov	w11, #20
.LBB140_7:
	subs	x24, x24, #1
	add	x22, x22, #32
	add	x23, x23, #8
	stp	w11, wzr, [x21, #-8]
	str	xzr, [x21], #16
	b.ne	.LBB140_2
	b	.LBB140_11
.LBB140_8:
	mov	w14, #90
	mul	x14, x8, x14
	cmp	x11, x14
	mov	w11, #20
	b.hi	.LBB140_7
	mov	w14, #180
	mul	x14, x10, x14
	cmp	x13, x14
	b.hi	.LBB140_7
	mov	x0, sp
	stp	x9, x8, [sp]
	stp	x12, x10, [sp, #16]
	bl	"squitter_c::e7::both"
	mov	w11, wzr
	stp	w0, w1, [x23, #-4]
	b	.LBB140_7
.LBB140_11:
	mov	x0, x19
	ldp	x20, x19, [sp, #80]
	ldp	x22, x21, [sp, #64]
	ldp	x24, x23, [sp, #48]
	ldp	x29, x30, [sp, #32]
	add	sp, sp, #96
	ret
.Lfunc_end140:
	.size	squitter_position_e7_many, .Lfunc_end140-squitter_position_e7_many

	.section	.text.squitter_read_frame,"ax",@progbits
	.globl	squitter_read_frame
	.p2align	2
	.type	squitter_read_frame,@function
squitter_read_frame:
	sub	sp, sp, #32
	mov	x2, x1
	mov	x1, x0
	mov	x0, sp
	stp	x29, x30, [sp, #16]
	add	x29, sp, #16
	bl	"squitter_c::read::squitter_read_frame"
	ldp	x0, x1, [sp]
	ldp	x29, x30, [sp, #16]
	add	sp, sp, #32
	ret
.Lfunc_end141:
	.size	squitter_read_frame, .Lfunc_end141-squitter_read_frame

	.section	.text.squitter_read_many,"ax",@progbits
	.globl	squitter_read_many
	.p2align	2
	.type	squitter_read_many,@function
squitter_read_many:
	sub	sp, sp, #80
	cmp	x0, #0
	mov	w10, #4096
	stp	x20, x19, [sp, #64]
	csel	x8, x10, xzr, eq
	cmp	x2, #0
	stp	x29, x30, [sp, #16]
	csel	x9, x10, xzr, eq
	cmp	x4, #0
	str	x23, [sp, #32]
	csel	x10, x10, xzr, eq
	cmp	x5, x3
	stp	x22, x21, [sp, #48]
	csel	x11, x5, x3, lo
	add	x29, sp, #16
	cmp	x11, x1
	csel	x19, x11, x1, lo
	cbz	x19, .LBB142_3
	add	x20, x0, x8
	add	x21, x2, x9
	add	x22, x4, x10
	mov	x23, x19
.LBB142_2:
	mov	x0, sp
	mov	x1, x20
	mov	x2, x21
	bl	"squitter_c::read::squitter_read_frame"
	ldr	q0, [sp]
	subs	x23, x23, #1
	add	x21, x21, #40
	add	x20, x20, #14
	str	q0, [x22], #16
	b.ne	.LBB142_2
.LBB142_3:
	mov	x0, x19
	ldp	x20, x19, [sp, #64]
	ldp	x22, x21, [sp, #48]
	ldr	x23, [sp, #32]
	ldp	x29, x30, [sp, #16]
	add	sp, sp, #80
	ret
.Lfunc_end142:
	.size	squitter_read_many, .Lfunc_end142-squitter_read_many

	.section	.rodata.cst16,"aM",@progbits,16
	.p2align	4, 0x0
.LCPI143_0:
	.byte	1
	.byte	2
	.byte	4
	.byte	8
	.byte	16
	.byte	32
	.byte	64
	.byte	128
	.byte	1
	.byte	2
	.byte	4
	.byte	8
	.byte	16
	.byte	32
	.byte	64
	.byte	128
	.section	.text.squitter_read_text,"ax",@progbits
	.globl	squitter_read_text
	.p2align	2
	.type	squitter_read_text,@function
squitter_read_text:
	sub	sp, sp, #80
	movi	v0.2d, #0000000000000000
	mov	w8, #4096
	cmp	x0, #0
	csel	x8, x8, xzr, eq
	cmp	x1, #30
	stp	x29, x30, [sp, #48]
	add	x8, x0, x8
	str	x19, [sp, #64]
	add	x29, sp, #48
	str	xzr, [sp, #32]
	stp	q0, q0, [sp]
	b.eq	.LBB143_5
	subs	x9, x1, #2
	b.lo	.LBB143_17
	ldrb	w11, [x8]
	add	x10, x8, x1
	ldurb	w10, [x10, #-1]
	cmp	w11, #42
	b.ne	.LBB143_8
	cmp	w10, #59
	b.ne	.LBB143_17
	add	x10, x8, #1
	b	.LBB143_9
.LBB143_5:
	ldrb	w9, [x8]
	cmp	w9, #42
	b.ne	.LBB143_17
	ldrb	w9, [x8, #29]
	cmp	w9, #59
	b.ne	.LBB143_17
	add	x9, x8, #1
	b	.LBB143_10
.LBB143_8:
	cmp	w10, #59
	mov	x9, x1
	mov	x10, x8
	b.eq	.LBB143_17
.LBB143_9:
	cmp	x9, #28
	csel	x9, x10, xzr, eq
	b.ne	.LBB143_17
.LBB143_10:
	movi	v0.16b, #223
	ldr	q1, [x9]
	movi	v2.16b, #198
	ldur	q4, [x9, #12]
	movi	v3.16b, #64
	movi	v6.16b, #6
	movi	v7.16b, #10
	movi	v16.16b, #191
	adrp	x9, .LCPI143_0
	movi	v17.16b, #16
	and	v5.16b, v1.16b, v0.16b
	and	v0.16b, v4.16b, v0.16b
	add	v1.16b, v1.16b, v2.16b
	add	v2.16b, v4.16b, v2.16b
	sub	v4.16b, v3.16b, v5.16b
	sub	v3.16b, v3.16b, v0.16b
	uqsub	v1.16b, v1.16b, v6.16b
	uqsub	v2.16b, v2.16b, v6.16b
	add	v5.16b, v5.16b, v16.16b
	add	v0.16b, v0.16b, v16.16b
	umin	v4.16b, v4.16b, v7.16b
	umin	v3.16b, v3.16b, v7.16b
	add	v1.16b, v1.16b, v17.16b
	add	v2.16b, v2.16b, v17.16b
	add	v4.16b, v5.16b, v4.16b
	add	v0.16b, v0.16b, v3.16b
	umin	v1.16b, v1.16b, v4.16b
	umin	v0.16b, v2.16b, v0.16b
	movi	v2.16b, #15
	orr	v3.16b, v0.16b, v1.16b
	cmhi	v2.16b, v3.16b, v2.16b
	ldr	q3, [x9, :lo12:.LCPI143_0]
	and	v2.16b, v2.16b, v3.16b
	addp	v2.16b, v2.16b, v2.16b
	addp	v2.16b, v2.16b, v2.16b
	addp	v2.16b, v2.16b, v2.16b
	umov	w9, v2.h[0]
	cbnz	w9, .LBB143_17
	xtn	v2.8b, v1.8h
	uzp2	v1.16b, v1.16b, v0.16b
	shl	v2.8b, v2.8b, #4
	orr	v1.8b, v2.8b, v1.8b
	fmov	x8, d1
	rev	x13, x8
	lsr	x9, x13, #59
	cmp	x9, #17
	b.ne	.LBB143_16
	xtn	v1.8b, v0.8h
	mov	w8, #572
	lsr	x9, x13, #46
	and	x10, x8, x13, lsr #54
	uzp2	v0.16b, v0.16b, v0.16b
	adrp	x8, .Lstatic.44
	add	x8, x8, :lo12:.Lstatic.44
	lsr	x11, x13, #24
	and	x12, x9, #0x3fc
	ldr	w10, [x8, x10]
	adrp	x9, .Lstatic.45
	add	x9, x9, :lo12:.Lstatic.45
	shl	v1.8b, v1.8b, #4
	ldr	w12, [x9, x12]
	movi	d2, #0xffffffffffff0000
	eor	w10, w10, w11
	adrp	x14, .Lstatic.43
	add	x14, x14, :lo12:.Lstatic.43
	eor	w10, w10, w12
	orr	v0.8b, v1.8b, v0.8b
	lsr	w12, w10, #6
	lsr	w11, w10, #14
	ubfiz	x10, x10, #2, #8
	and	x12, x12, #0x3fc
	and	x11, x11, #0x3fc
	and	v0.8b, v0.8b, v2.8b
	ldr	w10, [x9, x10]
	ldr	w12, [x8, x12]
	ldr	w11, [x14, x11]
	eor	w10, w12, w10
	fmov	x12, d0
	eor	w11, w11, w13
	eor	w10, w11, w10
	lsr	w16, w10, #6
	rev	x11, x12
	lsr	w12, w10, #14
	ubfiz	x10, x10, #2, #8
	orr	x15, x11, x13, lsl #48
	and	x16, x16, #0x3fc
	and	w11, w11, #0xffffff
	and	x12, x12, #0x3fc
	ldr	w16, [x8, x16]
	ldr	w10, [x9, x10]
	lsr	x17, x15, #24
	ldr	w12, [x14, x12]
	eor	w10, w16, w10
	eor	w12, w12, w17
	eor	w10, w12, w10
	lsr	w12, w10, #6
	ubfiz	x16, x10, #2, #8
	lsr	w10, w10, #14
	and	x12, x12, #0x3fc
	ldr	w9, [x9, x16]
	and	x10, x10, #0x3fc
	ldr	w12, [x8, x12]
	ldr	w8, [x14, x10]
	eor	w9, w11, w9
	eor	w10, w12, w9
	cmp	w8, w10
	b.ne	.LBB143_19
	lsr	x8, x13, #16
	ubfx	x9, x13, #32, #24
	extr	x17, x8, x15, #24
	ubfx	x8, x13, #56, #3
	ubfx	x16, x17, #51, #5
	and	x12, x17, #0xffffffffffffff
	cmp	x16, #5
	b.hs	.LBB143_24
	mov	x10, xzr
	mov	x11, xzr
	mov	w14, #2
	cmp	w14, #2
	b.ne	.LBB143_40
.LBB143_15:
	mov	w6, wzr
	mov	w15, wzr
	mov	w14, wzr
	mov	w13, wzr
	mov	w16, wzr
	mov	w7, wzr
	mov	w10, wzr
	mov	w19, wzr
	mov	w18, wzr
	mov	w3, wzr
	mov	w17, wzr
	mov	w5, wzr
	mov	w4, wzr
	lsr	x11, x12, #51
	b	.LBB143_49
.LBB143_16:
	mov	w10, wzr
	mov	w8, #6
	b	.LBB143_20
.LBB143_17:
	mov	x19, x2
	mov	x0, sp
	mov	x2, x1
	mov	x1, x8
	bl	"sq_text::reading::read_any"
	ldrb	w9, [sp]
	ldrb	w8, [sp, #8]
	cbz	w9, .LBB143_26
	ldp	w12, w9, [sp, #16]
	and	x10, x12, #0xffffff00
	orr	x11, x10, x9, lsl #32
	ldr	w10, [sp, #12]
	ldrb	w9, [sp, #9]
	bfxil	x11, x12, #0, #8
	b	.LBB143_21
.LBB143_19:
	mov	w9, wzr
	eor	w10, w10, w8
	mov	w8, #7
.LBB143_20:
	mov	x11, xzr
.LBB143_21:
	mov	w8, w8
	adrp	x12, .LJTI143_0
	add	x12, x12, :lo12:.LJTI143_0
	adr	x13, .LBB143_22
	ldrb	w14, [x12, x8]
	add	x13, x13, x14, lsl #2
	mov	w0, #1
	mov	x1, xzr
	br	x13
.LBB143_22:
	mov	x1, xzr
	mov	w0, #40
.LBB143_23:
	ldp	x29, x30, [sp, #48]
	ldr	x19, [sp, #64]
	add	sp, sp, #80
	ret
.LBB143_24:
	lsr	x11, x12, #51
	cmp	x11, #8
	b.hi	.LBB143_35
	lsl	x10, x13, #12
	lsr	x11, x13, #11
	lsr	x12, x13, #3
	lsr	x14, x13, #12
	lsr	x15, x15, #41
	and	x18, x10, #0x7f000000
	and	x10, x12, #0x10000
	bfi	x18, x11, #32, #1
	and	x11, x14, #0x7f00
	orr	x12, x15, x17, lsl #32
	orr	x11, x10, x11
	ubfx	x10, x13, #10, #1
	mov	w14, #1
	orr	x11, x18, x11
	and	x12, x12, #0x1ffff0001ffff
	orr	x11, x11, x16
	cmp	w14, #2
	b.ne	.LBB143_40
	b	.LBB143_15
.LBB143_26:
	ldp	x12, x11, [sp, #24]
	mov	x2, x19
	ldr	w9, [sp, #12]
	ldrb	w14, [sp, #16]
	ldr	w10, [sp, #20]
	cmp	w14, #2
	b.ne	.LBB143_40
	b	.LBB143_15
.LBB143_27:
	mov	w0, #3
	mov	x1, x11
	ldp	x29, x30, [sp, #48]
	ldr	x19, [sp, #64]
	add	sp, sp, #80
	ret
.LBB143_28:
	mov	x1, xzr
	mov	w0, #43
	ldp	x29, x30, [sp, #48]
	ldr	x19, [sp, #64]
	add	sp, sp, #80
	ret
.LBB143_29:
	mov	x1, xzr
	mov	w0, #41
	ldp	x29, x30, [sp, #48]
	ldr	x19, [sp, #64]
	add	sp, sp, #80
	ret
.LBB143_30:
	mov	x1, xzr
	mov	w0, #2
	ldp	x29, x30, [sp, #48]
	ldr	x19, [sp, #64]
	add	sp, sp, #80
	ret
.LBB143_31:
	mov	w1, w10
	mov	w0, #6
	ldp	x29, x30, [sp, #48]
	ldr	x19, [sp, #64]
	add	sp, sp, #80
	ret
.LBB143_32:
	mov	w0, #4
	mov	x1, x11
	ldp	x29, x30, [sp, #48]
	ldr	x19, [sp, #64]
	add	sp, sp, #80
	ret
.LBB143_33:
	mov	w1, w9
	mov	w0, #5
	ldp	x29, x30, [sp, #48]
	ldr	x19, [sp, #64]
	add	sp, sp, #80
	ret
.LBB143_34:
	mov	w0, #42
	mov	x1, x11
	ldp	x29, x30, [sp, #48]
	ldr	x19, [sp, #64]
	add	sp, sp, #80
	ret
.LBB143_35:
	cmp	x11, #19
	b.lo	.LBB143_38
	mov	x10, xzr
	cmp	x16, #19
	mov	w14, #2
	b.eq	.LBB143_50
	cmp	x11, #22
	mov	x11, x10
	b.hi	.LBB143_39
.LBB143_38:
	lsl	x10, x13, #20
	lsr	x11, x13, #11
	lsr	x12, x13, #8
	lsr	x18, x13, #17
	lsr	x15, x15, #41
	mov	w14, wzr
	and	x0, x10, #0xfff00000000
	and	x10, x12, #0x10000
	bfi	x0, x11, #48, #1
	and	x11, x18, #0x300
	orr	x12, x15, x17, lsl #32
	orr	x11, x10, x11
	ubfx	x10, x13, #10, #1
	orr	x11, x0, x11
	and	x12, x12, #0x1ffff0001ffff
	orr	x11, x11, x16
.LBB143_39:
	cmp	w14, #2
	b.eq	.LBB143_15
.LBB143_40:
	cmp	w14, #1
	b.ne	.LBB143_42
	lsr	x15, x12, #32
	ubfx	x19, x11, #32, #1
	mov	w14, wzr
	mov	w13, wzr
	mov	w16, wzr
	mov	w18, wzr
	mov	w3, wzr
	mov	w6, w12
	lsr	x17, x11, #8
	lsr	x4, x11, #24
	ubfx	w5, w11, #16, #1
	mov	w7, #2
	mov	x12, xzr
	b	.LBB143_49
.LBB143_42:
	and	w14, w11, #0xff
	lsr	x15, x12, #32
	ubfx	x13, x11, #32, #16
	cmp	w14, #19
	b.hi	.LBB143_45
	cbz	w13, .LBB143_46
	tbnz	w13, #4, .LBB143_47
.LBB143_45:
	mov	w14, wzr
	mov	w16, #2
	b	.LBB143_48
.LBB143_46:
	mov	w16, wzr
	mov	w14, wzr
	b	.LBB143_48
.LBB143_47:
	ubfx	w14, w13, #5, #11
	and	w16, w13, #0xf
	mov	w17, #-1000
	orr	w14, w16, w14, lsl #4
	mov	w16, #25
	madd	w14, w14, w16, w17
	mov	w16, #1
.LBB143_48:
	mov	w17, wzr
	mov	w5, wzr
	mov	w4, wzr
	lsr	x18, x11, #8
	ubfx	w3, w11, #16, #1
	ubfx	x19, x11, #48, #1
	mov	w6, w12
	mov	w7, #1
	mov	x12, xzr
.LBB143_49:
	mov	x0, xzr
	mov	x1, xzr
	str	x12, [x2]
	stp	w9, w6, [x2, #8]
	stp	w15, w14, [x2, #16]
	strh	w13, [x2, #24]
	strb	w16, [x2, #26]
	strb	w7, [x2, #27]
	strb	w8, [x2, #28]
	strb	w11, [x2, #29]
	strb	w10, [x2, #30]
	strb	w19, [x2, #31]
	strb	w18, [x2, #32]
	strb	w3, [x2, #33]
	strb	w17, [x2, #34]
	strb	w5, [x2, #35]
	strb	w4, [x2, #36]
	sturh	wzr, [x2, #37]
	strb	wzr, [x2, #39]
	ldp	x29, x30, [sp, #48]
	ldr	x19, [sp, #64]
	add	sp, sp, #80
	ret
.LBB143_50:
	mov	x11, x10
	cmp	w14, #2
	b.ne	.LBB143_40
	b	.LBB143_15
.Lfunc_end143:
	.size	squitter_read_text, .Lfunc_end143-squitter_read_text
	.section	.rodata.squitter_read_text,"a",@progbits
.LJTI143_0:
	.byte	(.LBB143_22-.LBB143_22)>>2
	.byte	(.LBB143_29-.LBB143_22)>>2
	.byte	(.LBB143_23-.LBB143_22)>>2
	.byte	(.LBB143_30-.LBB143_22)>>2
	.byte	(.LBB143_27-.LBB143_22)>>2
	.byte	(.LBB143_32-.LBB143_22)>>2
	.byte	(.LBB143_33-.LBB143_22)>>2
	.byte	(.LBB143_31-.LBB143_22)>>2
	.byte	(.LBB143_34-.LBB143_22)>>2
	.byte	(.LBB143_28-.LBB143_22)>>2

	.section	.rodata.cst8,"aM",@progbits,8
	.p2align	3, 0x0
.LCPI144_0:
	.hword	1
	.hword	0
	.hword	0
	.hword	0
	.section	.text.squitter_send_again,"ax",@progbits
	.globl	squitter_send_again
	.p2align	2
	.type	squitter_send_again,@function
squitter_send_again:
	sub	sp, sp, #192
	movi	v0.2d, #0000000000000000
	and	w12, w1, #0xff
	ldr	x11, [x0]
	ldrb	w10, [x0, #8]
	ldrb	w9, [x0, #9]
	ldur	w8, [x0, #10]
	stp	x20, x19, [sp, #176]
	mov	x19, x3
	cmp	w12, #1
	stp	x29, x30, [sp, #144]
	add	x29, sp, #144
	stp	x22, x21, [sp, #160]
	stp	xzr, xzr, [sp, #40]
	stur	wzr, [sp, #59]
	stp	q0, q0, [sp]
	str	wzr, [sp, #56]
	b.hi	.LBB144_6
	mov	x15, #-4097
	ldr	x12, [x2, #8]
	movk	x15, #11098, lsl #16
	movk	x15, #65303, lsl #32
	add	x13, x12, x15
	add	x14, x15, #1
	cmp	x13, x14
	b.lo	.LBB144_5
	mov	w13, #360
	mul	x14, x12, x13
	ldr	x13, [x2]
	cmp	x13, #0
	cneg	x16, x13, mi
	cmp	x14, x16
	b.lo	.LBB144_5
	ldr	x14, [x2, #24]
	add	x17, x14, x15
	add	x15, x15, #1
	cmp	x17, x15
	b.lo	.LBB144_5
	mov	w15, #360
	mul	x18, x14, x15
	ldr	x15, [x2, #16]
	cmp	x15, #0
	cneg	x17, x15, mi
	cmp	x18, x17
	b.hs	.LBB144_10
.LBB144_5:
	mov	w8, #1
	stur	wzr, [sp, #1]
	strb	w8, [sp]
	mov	w8, #3
	b	.LBB144_7
.LBB144_6:
	mov	w8, #1
	stur	wzr, [sp, #1]
	strb	w8, [sp]
	mov	w8, #8
.LBB144_7:
	str	wzr, [sp, #4]
	strb	w8, [sp, #8]
	stur	wzr, [sp, #9]
	sturh	wzr, [sp, #13]
.LBB144_8:
	stp	xzr, xzr, [sp, #16]
.LBB144_9:
	add	x0, sp, #40
	mov	x1, sp
	mov	x2, x19
	bl	"squitter_c::send::give"
	ldp	x0, x1, [sp, #40]
	ldp	x20, x19, [sp, #176]
	ldp	x22, x21, [sp, #160]
	ldp	x29, x30, [sp, #144]
	add	sp, sp, #192
	ret
.LBB144_10:
	mov	w18, #90
	mul	x18, x12, x18
	cmp	x16, x18
	b.hi	.LBB144_5
	mov	w16, #180
	mul	x16, x14, x16
	cmp	x17, x16
	b.hi	.LBB144_5
	rev	x20, x11
	stp	x13, x12, [sp, #64]
	lsr	x11, x20, #59
	stp	x15, x14, [sp, #80]
	cmp	x11, #17
	b.ne	.LBB144_16
	mov	w11, #572
	lsr	x12, x20, #46
	lsr	x14, x20, #24
	and	x13, x11, x20, lsr #54
	adrp	x11, .Lstatic.44
	add	x11, x11, :lo12:.Lstatic.44
	and	x15, x12, #0x3fc
	adrp	x12, .Lstatic.45
	add	x12, x12, :lo12:.Lstatic.45
	ldr	w13, [x11, x13]
	ldr	w15, [x12, x15]
	lsl	x10, x10, #16
	eor	w13, w13, w14
	orr	x9, x10, x9, lsl #24
	eor	w13, w13, w15
	lsr	w14, w13, #14
	lsr	w15, w13, #6
	ubfiz	x10, x13, #2, #8
	orr	x8, x9, x8, lsl #32
	and	x13, x14, #0x3fc
	adrp	x14, .Lstatic.43
	add	x14, x14, :lo12:.Lstatic.43
	and	x15, x15, #0x3fc
	ldr	w13, [x14, x13]
	ldr	w10, [x12, x10]
	ldr	w15, [x11, x15]
	eor	w9, w13, w20
	rev	x13, x8
	eor	w10, w15, w10
	orr	x8, x13, x20, lsl #48
	and	w13, w13, #0xffffff
	eor	w9, w9, w10
	lsr	w10, w9, #14
	lsr	w15, w9, #6
	ubfiz	x9, x9, #2, #8
	lsr	x16, x8, #24
	and	x10, x10, #0x3fc
	and	x15, x15, #0x3fc
	ldr	w9, [x12, x9]
	ldr	w10, [x14, x10]
	ldr	w15, [x11, x15]
	eor	w10, w10, w16
	eor	w9, w15, w9
	eor	w9, w10, w9
	lsr	w10, w9, #6
	ubfiz	x15, x9, #2, #8
	lsr	w9, w9, #14
	and	x10, x10, #0x3fc
	ldr	w12, [x12, x15]
	and	x9, x9, #0x3fc
	ldr	w10, [x11, x10]
	ldr	w9, [x14, x9]
	eor	w11, w13, w12
	eor	w10, w10, w11
	cmp	w9, w10
	b.ne	.LBB144_17
	lsr	x10, x20, #16
	adrp	x11, .LCPI144_0
	ldr	d0, [x11, :lo12:.LCPI144_0]
	extr	x9, x10, x8, #24
	ubfx	x21, x9, #51, #5
	cmp	x21, #5
	b.hs	.LBB144_19
	mov	w9, wzr
	mov	w11, #1
	b	.LBB144_26
.LBB144_16:
	mov	x8, xzr
	mov	w9, #6
	b	.LBB144_18
.LBB144_17:
	eor	w8, w10, w9
	mov	x11, xzr
	mov	w9, #7
	lsl	x8, x8, #32
.LBB144_18:
	orr	x9, x9, x11, lsl #8
	mov	w10, #1
	stur	xzr, [sp, #1]
	stur	xzr, [sp, #7]
	orr	x8, x9, x8
	strb	w10, [sp]
	stp	x8, xzr, [sp, #16]
	b	.LBB144_9
.LBB144_19:
	and	x9, x9, #0xffffffffffffff
	lsr	x12, x9, #51
	cmp	x12, #9
	b.hs	.LBB144_21
	lsr	x9, x20, #3
	lsr	x11, x20, #12
	extr	x10, x10, x8, #36
	lsr	x8, x8, #27
	sub	x0, x29, #48
	mov	w2, w1
	and	x9, x9, #0x10000
	and	x11, x11, #0x7f00
	and	x10, x10, #0x7f000000
	orr	x9, x11, x9
	and	x8, x8, #0x100000000
	add	x1, sp, #64
	orr	x9, x9, x10
	stp	xzr, xzr, [x29, #-48]
	orr	x22, x9, x8
	bl	"sq_cpr::encoding::nearest::<#9b749bce0116a0b1>"
	ldurb	w8, [x29, #-48]
	ldur	w9, [x29, #-44]
	mov	w11, #1
	ldur	w10, [x29, #-36]
	b	.LBB144_25
.LBB144_21:
	cmp	x12, #19
	b.lo	.LBB144_24
	mov	w9, wzr
	cmp	x21, #19
	mov	w11, #1
	b.eq	.LBB144_26
	cmp	x12, #23
	b.hs	.LBB144_26
.LBB144_24:
	lsr	x9, x20, #8
	lsr	x11, x20, #17
	extr	x10, x10, x8, #28
	lsr	x8, x8, #11
	sub	x0, x29, #32
	mov	w2, w1
	and	x9, x9, #0x10000
	and	x11, x11, #0x300
	and	x10, x10, #0xfff00000000
	orr	x9, x11, x9
	and	x8, x8, #0x1000000000000
	add	x1, sp, #64
	orr	x9, x9, x10
	stp	xzr, xzr, [x29, #-32]
	orr	x22, x9, x8
	bl	"sq_cpr::encoding::nearest::<17'sq_cpr::span::Air,21'sq_cpr::span::AirSpan{}>"
	ldurb	w8, [x29, #-32]
	ldur	w9, [x29, #-28]
	mov	w11, wzr
	ldur	w10, [x29, #-20]
.LBB144_25:
	stur	xzr, [x29, #-48]
	ubfx	x12, x20, #56, #3
	ubfx	x13, x20, #32, #24
	sturb	w8, [x29, #-20]
	and	w8, w9, #0x1ffff
	and	w9, w10, #0x1ffff
	sub	x0, x29, #48
	stp	w8, w9, [x29, #-16]
	orr	x8, x22, x21
	sub	x1, x29, #32
	stur	xzr, [x29, #-42]
	stur	xzr, [x29, #-32]
	sturb	w12, [x29, #-32]
	stp	w13, w11, [x29, #-28]
	sturb	wzr, [x29, #-17]
	sturh	wzr, [x29, #-19]
	stur	x8, [x29, #-8]
	bl	"sq_message::write::write_frame"
	ldur	s0, [x29, #-41]
	ldurb	w9, [x29, #-35]
	mov	w11, wzr
	ldurh	w10, [x29, #-37]
	ldur	w8, [x29, #-48]
	ldur	w12, [x29, #-45]
	ushll	v0.8h, v0.8b, #0
	orr	w9, w10, w9, lsl #16
	str	w8, [sp, #56]
	stur	w12, [sp, #59]
.LBB144_26:
	ldr	w8, [sp, #56]
	uzp1	v0.8b, v0.8b, v0.8b
	ldur	w10, [sp, #59]
	strb	w11, [sp]
	stur	w8, [sp, #1]
	lsr	w8, w9, #16
	strh	w9, [sp, #12]
	str	w10, [sp, #4]
	str	s0, [sp, #8]
	strb	w8, [sp, #14]
	b	.LBB144_8
.Lfunc_end144:
	.size	squitter_send_again, .Lfunc_end144-squitter_send_again

	.section	.text.squitter_text_of_angle,"ax",@progbits
	.globl	squitter_text_of_angle
	.p2align	2
	.type	squitter_text_of_angle,@function
squitter_text_of_angle:
	mov	x8, #-4097
	ldr	x9, [x0, #8]
	movk	x8, #11098, lsl #16
	movk	x8, #65303, lsl #32
	add	x10, x9, x8
	add	x8, x8, #1
	cmp	x10, x8
	b.hs	.LBB145_2
	mov	w0, #22
	mov	x1, xzr
	ret
.LBB145_2:
	sub	sp, sp, #96
	mov	w8, #360
	stp	x20, x19, [sp, #80]
	ldr	x20, [x0]
	mul	x10, x9, x8
	stp	x29, x30, [sp, #48]
	add	x29, sp, #48
	cmp	x20, #0
	str	x21, [sp, #64]
	cneg	x8, x20, mi
	cmp	x10, x8
	b.hs	.LBB145_4
	mov	w0, #22
	ldp	x20, x19, [sp, #80]
	ldr	x21, [sp, #64]
	ldp	x29, x30, [sp, #48]
	add	sp, sp, #96
	mov	x1, xzr
	ret
.LBB145_4:
	mov	w10, #11520
	mov	x19, x1
	stp	xzr, xzr, [sp, #24]
	movk	w10, #305, lsl #16
	mul	x11, x8, x10
	umulh	x8, x8, x10
	and	x10, x9, #0xffffffffff
	adds	x0, x11, x9
	cinc	x8, x8, hs
	tst	x10, #0xffffffffff80ffff
	b.ne	.LBB145_15
	extr	x10, x8, x0, #56
	cbnz	x10, .LBB145_15
	lsr	x8, x9, #13
	adrp	x10, .Lstatic.40
	add	x10, x10, :lo12:.Lstatic.40
	lsr	x9, x0, #17
	ldr	x8, [x10, x8]
	mul	x10, x8, x9
	umulh	x8, x8, x9
	extr	x0, x8, x10, #48
	mov	x8, xzr
	tbz	x20, #63, .LBB145_9
.LBB145_7:
	cbz	x0, .LBB145_9
	mov	w8, #45
	strb	w8, [sp, #24]
	mov	w8, #1
.LBB145_9:
	mov	x9, #17085
	mov	w10, #38528
	mov	w11, #19923
	movk	x9, #58746, lsl #16
	movk	w10, #152, lsl #16
	movk	w11, #4194, lsl #16
	movk	x9, #38101, lsl #32
	mov	w12, #51712
	mov	w15, #8389
	movk	x9, #54975, lsl #48
	movk	w12, #15258, lsl #16
	adrp	x14, .Lstatic.22
	add	x14, x14, :lo12:.Lstatic.22
	umulh	x9, x0, x9
	cmp	x0, x12
	cset	w16, lo
	mov	w1, wzr
	lsr	x9, x9, #23
	msub	w10, w9, w10, w0
	add	x9, x14, x9, lsl #2
	umull	x11, w10, w11
	lsr	x11, x11, #38
	ubfx	w13, w11, #3, #13
	mul	w12, w13, w15
	mov	w13, #57600
	mov	w15, #56963
	movk	w13, #1525, lsl #16
	movk	w15, #17179, lsl #16
	cmp	x0, x13
	mov	w13, #1000
	cinc	x16, x16, lo
	lsr	w12, w12, #20
	msub	w17, w11, w13, w10
	umull	x10, w10, w15
	add	x15, sp, #24
	ldr	w9, [x9, x16]
	msub	w11, w12, w13, w11
	orr	x12, x15, x8
	mov	w13, #46
	str	w9, [x12]
	eor	x9, x16, #0x3
	lsl	w12, w17, #2
	add	x20, x8, x9
	lsr	x8, x10, #50
	orr	x9, x15, x20
	add	x10, x14, x12
	ubfiz	x11, x11, #2, #14
	orr	w8, w8, #0x30
	ldrh	w12, [x10]
	orr	x21, x20, #0x8
	strb	w8, [x9, #1]
	ldrb	w8, [x10, #2]
	add	x10, x14, x11
	ldrh	w11, [x10]
	strb	w13, [x9]
	strb	w8, [x9, #7]
	ldrb	w8, [x10, #2]
	mov	w10, #24
	sub	x2, x10, x21
	sturh	w12, [x9, #5]
	strb	w8, [x9, #4]
	mov	x8, sp
	add	x0, x8, x21
	strh	w11, [x9, #2]
	str	x21, [sp, #40]
	bl	memset
	mov	x0, sp
	add	x1, sp, #24
	orr	x2, x20, #0x8
	bl	memcpy
	ldr	d0, [sp]
	ldrb	w11, [sp, #8]
	cmp	x21, #9
	ldrb	w10, [sp, #9]
	ldrb	w9, [sp, #10]
	ldrb	w8, [sp, #11]
	str	d0, [x19]
	strb	w11, [x19, #8]
	b.ls	.LBB145_12
	cmp	x20, #2
	strb	w10, [x19, #9]
	b.eq	.LBB145_13
	cmp	x21, #11
	strb	w9, [x19, #10]
	csel	w8, w8, wzr, hi
	b	.LBB145_14
.LBB145_12:
	strb	wzr, [x19, #9]
.LBB145_13:
	mov	w8, wzr
	strb	wzr, [x19, #10]
.LBB145_14:
	mov	x0, xzr
	strb	w8, [x19, #11]
	str	wzr, [x19, #12]
	ldp	x20, x19, [sp, #80]
	ldr	x21, [sp, #64]
	ldp	x29, x30, [sp, #48]
	add	sp, sp, #96
	mov	x1, xzr
	ret
.LBB145_15:
	lsl	x2, x9, #1
	mov	x1, x8
	bl	"sq_angle::quotients::divided"
	mov	x8, xzr
	tbnz	x20, #63, .LBB145_7
	b	.LBB145_9
.Lfunc_end145:
	.size	squitter_text_of_angle, .Lfunc_end145-squitter_text_of_angle

	.section	.text.squitter_tracker_new,"ax",@progbits
	.globl	squitter_tracker_new
	.p2align	2
	.type	squitter_tracker_new,@function
squitter_tracker_new:
	sub	sp, sp, #80
	movi	v0.2d, #0000000000000000
	stp	x29, x30, [sp, #64]
	add	x29, sp, #64
	mov	x5, x4
	mov	w4, w3
	mov	x3, x2
	mov	x2, x1
	mov	x1, x0
	sub	x0, x29, #16
	mov	x6, sp
	stp	xzr, xzr, [x29, #-16]
	stp	q0, q0, [sp]
	str	xzr, [sp, #32]
	bl	"squitter_c::tracker_new::make"
	ldp	x0, x1, [x29, #-16]
	ldp	x29, x30, [sp, #64]
	add	sp, sp, #80
	ret
.Lfunc_end146:
	.size	squitter_tracker_new, .Lfunc_end146-squitter_tracker_new

	.section	.text.squitter_log_new,"ax",@progbits
	.globl	squitter_log_new
	.p2align	2
	.type	squitter_log_new,@function
squitter_log_new:
	sub	sp, sp, #80
	movi	v0.2d, #0000000000000000
	stp	x29, x30, [sp, #64]
	add	x29, sp, #64
	mov	x5, x4
	mov	w4, w3
	mov	x3, x2
	mov	x2, x1
	mov	x1, x0
	sub	x0, x29, #16
	mov	x6, sp
	stp	xzr, xzr, [x29, #-16]
	stp	q0, q0, [sp]
	str	xzr, [sp, #32]
	bl	"squitter_c::tracker_new::make"
	ldp	x0, x1, [x29, #-16]
	ldp	x29, x30, [sp, #64]
	add	sp, sp, #80
	ret
.Lfunc_end147:
	.size	squitter_log_new, .Lfunc_end147-squitter_log_new

	.section	.text.squitter_tracker_new_at,"ax",@progbits
	.globl	squitter_tracker_new_at
	.p2align	2
	.type	squitter_tracker_new_at,@function
squitter_tracker_new_at:
	sub	sp, sp, #80
	mov	x12, #-4097
	ldr	x9, [x5, #8]
	stp	x29, x30, [sp, #64]
	movk	x12, #11098, lsl #16
	add	x29, sp, #64
	movk	x12, #65303, lsl #32
	stp	xzr, xzr, [x29, #-16]
	add	x10, x9, x12
	add	x11, x12, #1
	cmp	x10, x11
	b.lo	.LBB148_4
	mov	w10, #360
	mul	x11, x9, x10
	ldr	x10, [x5]
	cmp	x10, #0
	cneg	x13, x10, mi
	cmp	x11, x13
	b.lo	.LBB148_4
	ldr	x11, [x5, #24]
	add	x14, x11, x12
	add	x12, x12, #1
	cmp	x14, x12
	b.lo	.LBB148_4
	mov	w12, #360
	mul	x15, x11, x12
	ldr	x12, [x5, #16]
	cmp	x12, #0
	cneg	x14, x12, mi
	cmp	x15, x14
	b.hs	.LBB148_5
.LBB148_4:
	mov	x1, xzr
	mov	w8, #20
	stp	xzr, xzr, [x0]
	stur	w8, [x29, #-16]
	ldur	x0, [x29, #-16]
	ldp	x29, x30, [sp, #64]
	add	sp, sp, #80
	ret
.LBB148_5:
	mov	w15, #90
	mul	x15, x9, x15
	cmp	x13, x15
	b.hi	.LBB148_4
	mov	w13, #180
	mul	x13, x11, x13
	cmp	x14, x13
	b.hi	.LBB148_4
	mov	x8, x4
	mov	w4, w3
	mov	x3, x2
	mov	x2, x1
	mov	w13, #1
	mov	x1, x0
	sub	x0, x29, #16
	add	x6, sp, #8
	mov	x5, x8
	stp	x13, x10, [sp, #8]
	stp	x9, x12, [sp, #24]
	str	x11, [sp, #40]
	bl	"squitter_c::tracker_new::make"
	ldp	x0, x1, [x29, #-16]
	ldp	x29, x30, [sp, #64]
	add	sp, sp, #80
	ret
.Lfunc_end148:
	.size	squitter_tracker_new_at, .Lfunc_end148-squitter_tracker_new_at

	.section	.text.squitter_log_new_at,"ax",@progbits
	.globl	squitter_log_new_at
	.p2align	2
	.type	squitter_log_new_at,@function
squitter_log_new_at:
	sub	sp, sp, #80
	mov	x12, #-4097
	ldr	x9, [x5, #8]
	stp	x29, x30, [sp, #64]
	movk	x12, #11098, lsl #16
	add	x29, sp, #64
	movk	x12, #65303, lsl #32
	stp	xzr, xzr, [x29, #-16]
	add	x10, x9, x12
	add	x11, x12, #1
	cmp	x10, x11
	b.lo	.LBB149_4
	mov	w10, #360
	mul	x11, x9, x10
	ldr	x10, [x5]
	cmp	x10, #0
	cneg	x13, x10, mi
	cmp	x11, x13
	b.lo	.LBB149_4
	ldr	x11, [x5, #24]
	add	x14, x11, x12
	add	x12, x12, #1
	cmp	x14, x12
	b.lo	.LBB149_4
	mov	w12, #360
	mul	x15, x11, x12
	ldr	x12, [x5, #16]
	cmp	x12, #0
	cneg	x14, x12, mi
	cmp	x15, x14
	b.hs	.LBB149_5
.LBB149_4:
	mov	x1, xzr
	mov	w8, #20
	stp	xzr, xzr, [x0]
	stur	w8, [x29, #-16]
	ldur	x0, [x29, #-16]
	ldp	x29, x30, [sp, #64]
	add	sp, sp, #80
	ret
.LBB149_5:
	mov	w15, #90
	mul	x15, x9, x15
	cmp	x13, x15
	b.hi	.LBB149_4
	mov	w13, #180
	mul	x13, x11, x13
	cmp	x14, x13
	b.hi	.LBB149_4
	mov	x8, x4
	mov	w4, w3
	mov	x3, x2
	mov	x2, x1
	mov	w13, #1
	mov	x1, x0
	sub	x0, x29, #16
	add	x6, sp, #8
	mov	x5, x8
	stp	x13, x10, [sp, #8]
	stp	x9, x12, [sp, #24]
	str	x11, [sp, #40]
	bl	"squitter_c::tracker_new::make"
	ldp	x0, x1, [x29, #-16]
	ldp	x29, x30, [sp, #64]
	add	sp, sp, #80
	ret
.Lfunc_end149:
	.size	squitter_log_new_at, .Lfunc_end149-squitter_log_new_at

	.section	.rodata.cst16,"aM",@progbits,16
	.p2align	4, 0x0
.LCPI150_0:
	.byte	1
	.byte	2
	.byte	4
	.byte	8
	.byte	16
	.byte	32
	.byte	64
	.byte	128
	.byte	1
	.byte	2
	.byte	4
	.byte	8
	.byte	16
	.byte	32
	.byte	64
	.byte	128
	.section	.text.squitter_tracker_restore,"ax",@progbits
	.globl	squitter_tracker_restore
	.p2align	2
	.type	squitter_tracker_restore,@function
squitter_tracker_restore:
	stp	x29, x30, [sp, #-96]!
	stp	x28, x27, [sp, #16]
	mov	x29, sp
	stp	x26, x25, [sp, #32]
	stp	x24, x23, [sp, #48]
	stp	x22, x21, [sp, #64]
	stp	x20, x19, [sp, #80]
	sub	sp, sp, #848
	ldp	x8, x23, [x0]
	cmp	x2, #0
	mov	w9, #4096
	stp	xzr, xzr, [x0]
	csel	x20, x9, xzr, eq
	cbz	x8, .LBB150_3
	ldr	x8, [x1, #8]
	mov	x26, x3
	mov	x22, x2
	mov	x24, x0
	cbz	x8, .LBB150_4
	ldr	x21, [x1]
	mov	w25, #1
	b	.LBB150_5
.LBB150_3:
	mov	x1, xzr
	mov	w0, #46
	b	.LBB150_140
.LBB150_4:
	mov	x25, xzr
	mov	x21, xzr
.LBB150_5:
	movi	v0.2d, #0000000000000000
	ldr	x8, [x23, #176]
	str	xzr, [sp, #640]
	str	xzr, [sp, #336]
	str	xzr, [sp, #288]
	str	xzr, [sp, #240]
	stp	q0, q0, [sp, #160]
	stp	q0, q0, [sp, #208]
	stp	q0, q0, [sp, #256]
	stp	q0, q0, [sp, #304]
	stp	q0, q0, [sp, #352]
	stp	q0, q0, [sp, #384]
	stp	q0, q0, [sp, #416]
	stp	q0, q0, [sp, #448]
	stp	q0, q0, [sp, #480]
	stp	q0, q0, [sp, #512]
	stp	q0, q0, [sp, #544]
	stp	q0, q0, [sp, #576]
	stp	q0, q0, [sp, #608]
	str	xzr, [sp, #192]
	cbz	x8, .LBB150_7
	str	xzr, [x23, #176]
.LBB150_7:
	ldr	x8, [x23, #144]
	cbz	x8, .LBB150_9
	ldr	x0, [x23, #136]
	lsl	x2, x8, #6
	mov	w1, wzr
	bl	memset
	ldr	x8, [x23, #144]
	add	x8, x8, x8, lsl #3
.LBB150_9:
	ldr	x9, [x23, #80]
	str	x8, [x23, #200]
	cbz	x9, .LBB150_11
	str	xzr, [x23, #80]
.LBB150_11:
	ldr	x8, [x23, #112]
	cbz	x8, .LBB150_13
	str	xzr, [x23, #112]
.LBB150_13:
	ldr	x8, [x23, #224]
	cbz	x8, .LBB150_15
	str	xzr, [x23, #224]
.LBB150_15:
	mov	x9, x23
	str	x25, [x9, #56]!
	mov	x8, x9
	str	x21, [x9, #8]
	str	wzr, [x8, #192]!
	str	xzr, [x9, #200]
	cbz	x26, .LBB150_138
	mov	x19, #-4097
	str	x26, [sp, #64]
	mov	w13, wzr
	movk	x19, #11098, lsl #16
	mov	x10, xzr
	add	x21, x22, x20
	movk	x19, #65303, lsl #32
	sub	x26, x29, #56
	sub	x27, x29, #104
	add	x28, sp, #352
	stp	x9, x24, [sp, #80]
	stp	x8, x21, [sp, #48]
.LBB150_17:
	mov	w8, #192
	sub	x0, x29, #56
	str	x13, [sp, #72]
	madd	x22, x10, x8, x21
	str	x10, [sp, #96]
	ldr	x8, [x22]
	add	x1, x22, #16
	str	x8, [sp, #152]
	bl	"squitter_c::entry::received_of"
	sub	x0, x29, #104
	add	x1, x22, #40
	bl	"squitter_c::entry::received_of"
	ldr	x8, [x22, #80]
	add	x20, x19, #1
	add	x9, x8, x19
	cmp	x9, x20
	b.lo	.LBB150_21
	mov	w9, #360
	mul	x10, x8, x9
	ldr	x9, [x22, #72]
	cmp	x9, #0
	cneg	x12, x9, mi
	cmp	x10, x12
	b.lo	.LBB150_21
	ldr	x10, [x22, #96]
	add	x13, x19, #1
	add	x11, x10, x19
	cmp	x11, x13
	b.lo	.LBB150_21
	mov	w11, #360
	mul	x14, x10, x11
	ldr	x11, [x22, #88]
	cmp	x11, #0
	cneg	x13, x11, mi
	cmp	x14, x13
	b.hs	.LBB150_63
.LBB150_21:
	mov	x24, xzr
	stp	xzr, xzr, [sp, #136]
	mov	x12, xzr
	stp	xzr, xzr, [sp, #120]
.LBB150_22:
	ldur	q0, [x26, #8]
	ldur	q1, [x26, #24]
	sub	x0, x29, #56
	ldur	x8, [x26, #40]
	ldurb	w9, [x29, #-56]
	add	x1, x22, #104
	stp	q0, q1, [x29, #-144]
	ldur	q0, [x27, #8]
	ldur	q1, [x27, #24]
	stur	x8, [x29, #-112]
	ldur	x8, [x27, #40]
	ldurb	w25, [x29, #-104]
	stp	q0, q1, [x29, #-192]
	stp	x9, x12, [sp, #104]
	stur	x8, [x29, #-160]
	bl	"squitter_c::entry::received_of"
	sub	x0, x29, #104
	add	x1, x22, #128
	bl	"squitter_c::entry::received_of"
	ldr	x8, [x22, #168]
	add	x9, x8, x19
	cmp	x9, x20
	b.hs	.LBB150_24
	ldp	x6, x3, [sp, #104]
	mov	x30, xzr
	ldr	x16, [sp, #152]
	mov	x1, xzr
	mov	x0, xzr
	mov	x17, xzr
	mov	x18, xzr
	mov	x4, xzr
	mov	x7, x24
	b	.LBB150_28
.LBB150_24:
	mov	w9, #360
	ldp	x6, x3, [sp, #104]
	mul	x10, x8, x9
	ldr	x9, [x22, #160]
	ldr	x16, [sp, #152]
	mov	x7, x24
	cmp	x9, #0
	cneg	x12, x9, mi
	cmp	x10, x12
	b.lo	.LBB150_27
	ldr	x10, [x22, #184]
	add	x13, x19, #1
	add	x11, x10, x19
	cmp	x11, x13
	b.lo	.LBB150_27
	mov	w11, #360
	mul	x14, x10, x11
	ldr	x11, [x22, #176]
	cmp	x11, #0
	cneg	x13, x11, mi
	cmp	x14, x13
	b.hs	.LBB150_66
.LBB150_27:
	mov	x30, xzr
	mov	x1, xzr
	mov	x0, xzr
	mov	x17, xzr
	mov	x18, xzr
	mov	x4, xzr
.LBB150_28:
	ldur	x8, [x26, #40]
	ldur	q0, [x26, #8]
	ldur	q1, [x26, #24]
	ldur	x9, [x29, #-112]
	ldurb	w21, [x29, #-56]
	ldurb	w20, [x29, #-104]
	str	x8, [sp, #240]
	ldur	x8, [x27, #40]
	stp	q0, q1, [sp, #208]
	ldur	q0, [x27, #8]
	ldur	q1, [x27, #24]
	str	x8, [sp, #192]
	ldur	x8, [x29, #-160]
	ldr	x27, [x23, #80]
	stp	q0, q1, [sp, #160]
	ldp	q1, q0, [x29, #-144]
	str	x8, [sp, #288]
	stur	x9, [x28, #48]
	ldr	x8, [sp, #288]
	stp	q1, q0, [sp, #304]
	ldp	q1, q0, [x29, #-192]
	stur	x8, [x28, #96]
	ldr	x8, [sp, #144]
	str	x9, [sp, #336]
	stp	q1, q0, [sp, #256]
	ldp	q0, q1, [sp, #304]
	str	x8, [sp, #472]
	ldr	x8, [sp, #136]
	stp	x16, x6, [sp, #352]
	str	x8, [sp, #480]
	ldp	x9, x8, [sp, #120]
	stp	q0, q1, [x28, #16]
	ldp	q0, q1, [sp, #256]
	str	x25, [sp, #408]
	stp	x8, x9, [sp, #488]
	ldr	x8, [sp, #240]
	stp	q0, q1, [x28, #64]
	ldp	q1, q0, [sp, #208]
	stur	x8, [x28, #192]
	ldr	x8, [sp, #192]
	stp	x7, x3, [sp, #456]
	stp	q1, q0, [x28, #160]
	ldp	q1, q0, [sp, #160]
	stur	x8, [x28, #240]
	ldr	w8, [x23]
	str	x21, [sp, #504]
	cmp	x27, x8
	stp	q1, q0, [x28, #208]
	str	x20, [sp, #552]
	str	x30, [sp, #600]
	str	x4, [sp, #608]
	str	x1, [sp, #616]
	str	x0, [sp, #624]
	str	x17, [sp, #632]
	str	x18, [sp, #640]
	b.hs	.LBB150_126
	ldp	x24, x5, [x23, #136]
	adrp	x2, .LCPI150_0
	ldr	w22, [x22, #8]
	ldr	x26, [x23, #72]
	cbz	x5, .LBB150_37
	mov	x10, #31773
	orr	x8, x22, x22, lsl #32
	ldr	x9, [x23, #208]
	movk	x10, #32586, lsl #16
	mov	w11, #1
	movk	x10, #31161, lsl #32
	eor	x8, x9, x8
	movk	x10, #40503, lsl #48
	mul	x9, x8, x10
	umulh	x8, x8, x10
	sub	w10, w5, #1
	eor	x8, x8, x9
	lsr	x9, x8, #32
	eor	w8, w9, w8
	lsr	w9, w8, #24
	and	w8, w10, w8
	sub	x10, x5, #1
	cmp	w9, #1
	csinc	w9, w9, wzr, hi
	dup	v0.16b, w9
	lsl	w9, w11, w9
	mov	x11, x8
.LBB150_31:
	add	x12, x24, x11, lsl #6
	ldr	q2, [x2, :lo12:.LCPI150_0]
	ldr	q1, [x12]
	cmeq	v1.16b, v1.16b, v0.16b
	and	v1.16b, v1.16b, v2.16b
	addp	v1.16b, v1.16b, v1.16b
	addp	v1.16b, v1.16b, v1.16b
	addp	v1.16b, v1.16b, v1.16b
	umov	w13, v1.h[0]
	ands	w13, w13, #0xfff
	b.eq	.LBB150_35
	add	x14, x12, #16
.LBB150_33:
	rbit	w15, w13
	clz	w15, w15
	ldr	w15, [x14, w15, uxtw #2]
	ldr	w15, [x26, x15, lsl #2]
	cmp	w22, w15
	b.eq	.LBB150_126
	sub	w15, w13, #1
	ands	w13, w15, w13
	b.ne	.LBB150_33
.LBB150_35:
	ldr	w12, [x12, #12]
	tst	w12, w9
	b.eq	.LBB150_37
	add	x11, x11, #1
	and	x11, x11, x10
	cmp	x11, x8
	b.ne	.LBB150_31
.LBB150_37:
	tbz	w6, #0, .LBB150_41
	ldr	x8, [sp, #368]
	cmp	x8, x16
	b.hi	.LBB150_126
	ldr	w8, [sp, #380]
	cmp	w8, w22
	b.ne	.LBB150_126
	ldrb	w8, [sp, #388]
	ldrb	w9, [sp, #384]
	and	w8, w8, #0xff
	orr	w8, w9, w8
	cbnz	w8, .LBB150_126
.LBB150_41:
	tbz	w25, #0, .LBB150_46
	ldr	x8, [sp, #416]
	cmp	x8, x16
	b.hi	.LBB150_126
	ldr	w8, [sp, #428]
	cmp	w8, w22
	b.ne	.LBB150_126
	ldrb	w8, [sp, #432]
	cbnz	w8, .LBB150_126
	ldrb	w8, [sp, #436]
	cbz	w8, .LBB150_126
.LBB150_46:
	tbz	w21, #0, .LBB150_51
	ldr	x8, [sp, #512]
	cmp	x8, x16
	b.hi	.LBB150_126
	ldr	w8, [sp, #524]
	cmp	w8, w22
	b.ne	.LBB150_126
	ldrb	w8, [sp, #528]
	cmp	w8, #1
	b.ne	.LBB150_126
	ldrb	w8, [sp, #532]
	cbnz	w8, .LBB150_126
.LBB150_51:
	tbz	w20, #0, .LBB150_56
	ldr	x8, [sp, #560]
	cmp	x8, x16
	b.hi	.LBB150_126
	ldr	w8, [sp, #572]
	cmp	w8, w22
	b.ne	.LBB150_126
	ldrb	w8, [sp, #576]
	cmp	w8, #1
	b.ne	.LBB150_126
	ldrb	w8, [sp, #580]
	cbz	w8, .LBB150_126
.LBB150_56:
	ldr	x8, [sp, #368]
	tbz	w6, #0, .LBB150_58
	cmp	x16, x8
	b.ls	.LBB150_72
.LBB150_58:
	tbz	w25, #0, .LBB150_60
	ldr	x9, [sp, #416]
	cmp	x16, x9
	b.ls	.LBB150_72
.LBB150_60:
	tbz	w21, #0, .LBB150_69
	ldr	x9, [sp, #512]
	cmp	x16, x9
	b.ls	.LBB150_71
	tbnz	w20, #0, .LBB150_70
	b	.LBB150_71
.LBB150_63:
	mov	w14, #90
	mov	x24, xzr
	mul	x14, x8, x14
	cmp	x12, x14
	b.hi	.LBB150_124
	mov	w12, #180
	stp	x24, x24, [sp, #136]
	mul	x12, x10, x12
	stp	x24, x24, [sp, #120]
	cmp	x13, x12
	mov	x12, x24
	b.hi	.LBB150_22
	ldr	x12, [x22, #64]
	mov	w24, #1
	stp	x8, x9, [sp, #136]
	stp	x10, x11, [sp, #120]
	b	.LBB150_22
.LBB150_66:
	mov	w14, #90
	mov	x30, xzr
	mul	x14, x8, x14
	cmp	x12, x14
	b.hi	.LBB150_125
	mov	w12, #180
	mov	x1, x30
	mov	x0, x30
	mul	x12, x10, x12
	mov	x17, x30
	mov	x18, x30
	mov	x4, x30
	cmp	x13, x12
	b.hi	.LBB150_28
	ldr	x4, [x22, #152]
	mov	w30, #1
	mov	x1, x9
	mov	x0, x8
	mov	x17, x11
	mov	x18, x10
	b	.LBB150_28
.LBB150_69:
	tbz	w20, #0, .LBB150_126
.LBB150_70:
	ldr	x9, [sp, #560]
.LBB150_71:
	cmp	x16, x9
	b.hi	.LBB150_126
.LBB150_72:
	ldrb	w9, [x23, #56]
	cmp	w9, #1
	b.ne	.LBB150_126
	ldr	x9, [x23, #64]
	cmp	x9, x16
	b.lo	.LBB150_126
	ldr	x10, [x23, #8]
	sub	x9, x9, x16
	cmp	x9, x10
	b.hi	.LBB150_126
	stp	x18, x17, [sp, #16]
	stp	x0, x5, [sp, #32]
	cbz	x7, .LBB150_91
	mov	x19, #-65536
	str	x4, [sp, #8]
	movk	x19, #64816, lsl #16
	tbz	w6, #0, .LBB150_83
	cmp	x3, x8
	b.hi	.LBB150_83
	cmp	w25, #1
	b.ne	.LBB150_126
	str	x1, [sp]
	sub	x0, x29, #56
	add	x1, x28, #120
	mov	w2, wzr
	mov	x25, x30
	stp	xzr, xzr, [x29, #-56]
	bl	"sq_cpr::encoding::nearest::<17'sq_cpr::span::Air,21'sq_cpr::span::AirSpan{}>"
	ldursw	x8, [x29, #-52]
	mov	w9, #360
	smull	x8, w8, w9
	ldr	x9, [sp, #144]
	cmp	x9, x8
	b.ne	.LBB150_85
	ldurb	w8, [x29, #-56]
	mov	w9, #60
	sub	x8, x9, x8
	ldr	x9, [sp, #136]
	lsl	x8, x8, #17
	cmp	x9, x8
	b.ne	.LBB150_85
	ldur	w9, [x29, #-44]
	ldurb	w8, [x29, #-48]
	mov	w10, #360
	mov	w11, #23592960
	ldp	x1, x4, [sp]
	umull	x12, w9, w10
	ldp	x6, x3, [sp, #104]
	umull	x11, w8, w11
	ldr	x16, [sp, #152]
	ldr	x5, [sp, #40]
	smull	x13, w8, w19
	adrp	x2, .LCPI150_0
	mov	x30, x25
	cmp	x12, x11
	csel	x11, xzr, x13, lo
	umaddl	x9, w9, w10, x11
	ldr	x10, [sp, #128]
	cmp	x10, x9
	b.ne	.LBB150_84
	lsl	x8, x8, #17
	ldr	x9, [sp, #120]
	cmp	x9, x8
	b.eq	.LBB150_91
	b	.LBB150_84
.LBB150_83:
	tbz	w25, #0, .LBB150_126
.LBB150_84:
	cmp	w6, #1
	b.eq	.LBB150_86
	b	.LBB150_126
.LBB150_85:
	ldp	x6, x3, [sp, #104]
	mov	x30, x25
	ldr	x1, [sp]
	cmp	w6, #1
	b.ne	.LBB150_126
.LBB150_86:
	ldr	x8, [sp, #416]
	cmp	x3, x8
	b.hi	.LBB150_126
	mov	x19, x24
	mov	x24, x1
	sub	x0, x29, #56
	add	x1, x28, #120
	mov	w2, #1
	mov	x25, x30
	stp	xzr, xzr, [x29, #-56]
	bl	"sq_cpr::encoding::nearest::<17'sq_cpr::span::Air,21'sq_cpr::span::AirSpan{}>"
	ldursw	x8, [x29, #-52]
	mov	w9, #360
	smull	x8, w8, w9
	ldr	x9, [sp, #144]
	cmp	x9, x8
	b.ne	.LBB150_126
	ldurb	w8, [x29, #-56]
	mov	w9, #60
	sub	x8, x9, x8
	ldr	x9, [sp, #136]
	lsl	x8, x8, #17
	cmp	x9, x8
	b.ne	.LBB150_126
	ldur	w9, [x29, #-44]
	ldurb	w8, [x29, #-48]
	mov	w10, #360
	mov	w11, #23592960
	mov	x13, #-65536
	ldr	x16, [sp, #152]
	umull	x12, w9, w10
	movk	x13, #64816, lsl #16
	ldr	x4, [sp, #8]
	umull	x11, w8, w11
	ldr	x5, [sp, #40]
	adrp	x2, .LCPI150_0
	smull	x13, w8, w13
	cmp	x12, x11
	csel	x11, xzr, x13, lo
	umaddl	x9, w9, w10, x11
	ldr	x10, [sp, #128]
	cmp	x10, x9
	b.ne	.LBB150_126
	lsl	x8, x8, #17
	ldr	x9, [sp, #120]
	mov	x1, x24
	mov	x24, x19
	mov	x30, x25
	cmp	x9, x8
	b.ne	.LBB150_126
.LBB150_91:
	cbz	x30, .LBB150_107
	mov	x19, #-65536
	movk	x19, #64816, lsl #16
	tbz	w21, #0, .LBB150_99
	ldr	x8, [sp, #512]
	cmp	x4, x8
	b.hi	.LBB150_99
	cmp	w20, #1
	b.ne	.LBB150_126
	sub	x0, x29, #56
	mov	x20, x1
	add	x1, x28, #264
	mov	w2, wzr
	str	x4, [sp, #8]
	stp	xzr, xzr, [x29, #-56]
	bl	"sq_cpr::encoding::nearest::<#9b749bce0116a0b1>"
	ldursw	x8, [x29, #-52]
	mov	w9, #90
	ldr	x10, [sp, #32]
	mov	x1, x20
	smull	x8, w8, w9
	cmp	x20, x8
	b.ne	.LBB150_101
	ldurb	w8, [x29, #-56]
	mov	w9, #60
	sub	x8, x9, x8
	lsl	x8, x8, #17
	cmp	x10, x8
	b.ne	.LBB150_101
	ldur	w9, [x29, #-44]
	ldurb	w8, [x29, #-48]
	mov	w10, #90
	mov	w11, #23592960
	ldr	x16, [sp, #152]
	ldr	x5, [sp, #40]
	umull	x12, w9, w10
	adrp	x2, .LCPI150_0
	umull	x11, w8, w11
	smull	x13, w8, w19
	cmp	x12, x11
	csel	x11, xzr, x13, lo
	umaddl	x9, w9, w10, x11
	ldr	x10, [sp, #24]
	cmp	x10, x9
	ldp	x4, x9, [sp, #8]
	b.ne	.LBB150_100
	lsl	x8, x8, #17
	cmp	x9, x8
	b.eq	.LBB150_107
	b	.LBB150_100
.LBB150_99:
	tbz	w20, #0, .LBB150_126
.LBB150_100:
	cmp	w21, #1
	b.eq	.LBB150_102
	b	.LBB150_126
.LBB150_101:
	ldr	x4, [sp, #8]
	cmp	w21, #1
	b.ne	.LBB150_126
.LBB150_102:
	ldr	x8, [sp, #560]
	cmp	x4, x8
	b.hi	.LBB150_126
	sub	x0, x29, #56
	mov	x20, x1
	add	x1, x28, #264
	mov	w2, #1
	stp	xzr, xzr, [x29, #-56]
	bl	"sq_cpr::encoding::nearest::<#9b749bce0116a0b1>"
	ldursw	x8, [x29, #-52]
	mov	w9, #90
	smull	x8, w8, w9
	cmp	x20, x8
	b.ne	.LBB150_126
	ldurb	w8, [x29, #-56]
	mov	w9, #60
	sub	x8, x9, x8
	ldr	x9, [sp, #32]
	lsl	x8, x8, #17
	cmp	x9, x8
	b.ne	.LBB150_126
	ldur	w9, [x29, #-44]
	ldurb	w8, [x29, #-48]
	mov	w10, #90
	mov	w11, #23592960
	ldr	x16, [sp, #152]
	ldr	x5, [sp, #40]
	umull	x12, w9, w10
	adrp	x2, .LCPI150_0
	umull	x11, w8, w11
	smull	x13, w8, w19
	cmp	x12, x11
	csel	x11, xzr, x13, lo
	umaddl	x9, w9, w10, x11
	ldr	x10, [sp, #24]
	cmp	x10, x9
	ldr	x9, [sp, #16]
	b.ne	.LBB150_126
	lsl	x8, x8, #17
	cmp	x9, x8
	b.ne	.LBB150_126
.LBB150_107:
	cbz	x27, .LBB150_110
	ldr	x8, [sp, #72]
	ldur	x9, [x23, #216]
	ubfiz	x8, x8, #3, #32
	ldr	w8, [x9, x8]
	cmp	x8, x27
	b.hs	.LBB150_110
	mov	w9, #296
	umull	x8, w8, w9
	ldr	x9, [x23, #104]
	ldr	x8, [x9, x8]
	cmp	x8, x16
	b.hi	.LBB150_126
.LBB150_110:
	sub	x27, x29, #104
	cbz	x5, .LBB150_118
	mov	x10, #31773
	orr	x8, x22, x22, lsl #32
	ldr	x9, [x23, #208]
	movk	x10, #32586, lsl #16
	mov	w11, #1
	movk	x10, #31161, lsl #32
	eor	x8, x9, x8
	movk	x10, #40503, lsl #48
	mul	x9, x8, x10
	umulh	x8, x8, x10
	sub	w10, w5, #1
	eor	x8, x8, x9
	lsr	x9, x8, #32
	eor	w8, w9, w8
	lsr	w9, w8, #24
	and	w8, w10, w8
	sub	x10, x5, #1
	cmp	w9, #1
	csinc	w9, w9, wzr, hi
	dup	v0.16b, w9
	lsl	w9, w11, w9
	mov	x11, x8
.LBB150_112:
	add	x12, x24, x11, lsl #6
	ldr	q2, [x2, :lo12:.LCPI150_0]
	ldr	q1, [x12]
	cmeq	v1.16b, v1.16b, v0.16b
	and	v1.16b, v1.16b, v2.16b
	addp	v1.16b, v1.16b, v1.16b
	addp	v1.16b, v1.16b, v1.16b
	addp	v1.16b, v1.16b, v1.16b
	umov	w13, v1.h[0]
	ands	w13, w13, #0xfff
	b.eq	.LBB150_116
	add	x14, x12, #16
.LBB150_114:
	rbit	w15, w13
	clz	w15, w15
	ldr	w15, [x14, w15, uxtw #2]
	ldr	w16, [x26, x15, lsl #2]
	cmp	w22, w16
	b.eq	.LBB150_119
	sub	w15, w13, #1
	ands	w13, w15, w13
	b.ne	.LBB150_114
.LBB150_116:
	ldr	w12, [x12, #12]
	tst	w12, w9
	b.eq	.LBB150_118
	add	x11, x11, #1
	and	x11, x11, x10
	cmp	x11, x8
	b.ne	.LBB150_112
.LBB150_118:
	ldr	x2, [sp, #48]
	add	x0, x23, #72
	add	x1, x23, #216
	mov	w3, w22
	bl	"sq_track::contacts::enter::<#bd73a11ec42be588>"
	mov	w22, w1
	b	.LBB150_120
.LBB150_119:
	mov	w0, wzr
	mov	w22, w15
.LBB150_120:
	mov	x19, #-4097
	ldr	x24, [sp, #88]
	tst	w0, #0xff
	movk	x19, #11098, lsl #16
	sub	x26, x29, #56
	movk	x19, #65303, lsl #32
	b.ne	.LBB150_141
	ldr	x8, [x23, #216]
	ubfiz	x20, x22, #3, #32
	ldr	x9, [x23, #104]
	add	x1, sp, #352
	mov	w2, #296
	ldr	x21, [x8, x20]
	mov	w8, #296
	umaddl	x0, w22, w8, x9
	lsr	x28, x21, #32
	bl	memcpy
	ldr	w8, [x23, #248]
	mov	x13, x28
	cmp	w8, w13
	ccmp	w22, w8, #4, ne
	b.eq	.LBB150_123
	ldur	x9, [x23, #216]
	ubfiz	x10, x21, #3, #32
	lsl	x11, x13, #3
	lsl	x12, x8, #3
	add	x10, x9, x10
	str	w13, [x10, #4]
	add	x13, x9, x20
	str	w21, [x9, x11]
	ldr	w10, [x9, x12]
	add	x11, x9, x10, lsl #3
	str	w22, [x11, #4]
	stp	w10, w8, [x13]
	mov	w13, w8
	str	w22, [x9, x12]
.LBB150_123:
	ldr	x9, [sp, #152]
	ldr	x8, [x23, #256]
	add	x28, sp, #352
	ldr	x10, [sp, #96]
	mov	x0, xzr
	mov	x1, xzr
	cmp	x9, x8
	str	w13, [x23, #248]
	csel	x8, x9, x8, lo
	ldp	x21, x9, [sp, #56]
	add	x10, x10, #1
	str	x8, [x23, #256]
	cmp	x10, x9
	b.ne	.LBB150_17
	b	.LBB150_139
.LBB150_124:
	stp	x24, x24, [sp, #136]
	mov	x12, x24
	stp	x24, x24, [sp, #120]
	b	.LBB150_22
.LBB150_125:
	mov	x1, x30
	mov	x0, x30
	mov	x17, x30
	mov	x18, x30
	mov	x4, x30
	b	.LBB150_28
.LBB150_126:
	ldr	x8, [x23, #176]
	cbz	x8, .LBB150_128
	str	xzr, [x23, #176]
.LBB150_128:
	ldr	x8, [x23, #144]
	ldr	x24, [sp, #88]
	cbz	x8, .LBB150_130
	ldr	x0, [x23, #136]
	lsl	x2, x8, #6
	mov	w1, wzr
	bl	memset
	ldr	x8, [x23, #144]
	ldr	x27, [x23, #80]
	add	x8, x8, x8, lsl #3
.LBB150_130:
	ldr	x1, [sp, #96]
	ldr	x9, [sp, #80]
	str	x8, [x23, #200]
	cbz	x27, .LBB150_132
	str	xzr, [x23, #80]
.LBB150_132:
	ldr	x8, [x23, #112]
	cbz	x8, .LBB150_134
	str	xzr, [x23, #112]
.LBB150_134:
	ldr	x8, [x23, #224]
	cbz	x8, .LBB150_136
	str	xzr, [x23, #224]
.LBB150_136:
	str	wzr, [x23, #248]
	mov	w0, #50
.LBB150_137:
	str	xzr, [x23, #256]
	stp	xzr, xzr, [x9]
	b	.LBB150_139
.LBB150_138:
	mov	x0, xzr
	mov	x1, xzr
.LBB150_139:
	mov	w8, #1
	stp	x8, x23, [x24]
.LBB150_140:
	add	sp, sp, #848
	ldp	x20, x19, [sp, #80]
	ldp	x22, x21, [sp, #64]
	ldp	x24, x23, [sp, #48]
	ldp	x26, x25, [sp, #32]
	ldp	x28, x27, [sp, #16]
	ldp	x29, x30, [sp], #96
	ret
.LBB150_141:
	ldr	x8, [x23, #176]
	cbz	x8, .LBB150_143
	str	xzr, [x23, #176]
.LBB150_143:
	ldr	x8, [x23, #144]
	cbz	x8, .LBB150_145
	ldr	x0, [x23, #136]
	lsl	x2, x8, #6
	mov	w1, wzr
	bl	memset
	ldr	x8, [x23, #144]
	add	x8, x8, x8, lsl #3
.LBB150_145:
	ldr	x9, [x23, #80]
	str	x8, [x23, #200]
	cbz	x9, .LBB150_147
	str	xzr, [x23, #80]
.LBB150_147:
	ldr	x8, [x23, #112]
	cbz	x8, .LBB150_149
	str	xzr, [x23, #112]
.LBB150_149:
	ldr	x8, [x23, #224]
	ldr	x9, [sp, #80]
	cbz	x8, .LBB150_151
	str	xzr, [x23, #224]
.LBB150_151:
	mov	x1, xzr
	mov	w0, #44
	str	wzr, [x23, #248]
	b	.LBB150_137
.Lfunc_end150:
	.size	squitter_tracker_restore, .Lfunc_end150-squitter_tracker_restore

	.section	.rodata.cst16,"aM",@progbits,16
	.p2align	4, 0x0
.LCPI151_0:
	.byte	1
	.byte	2
	.byte	4
	.byte	8
	.byte	16
	.byte	32
	.byte	64
	.byte	128
	.byte	1
	.byte	2
	.byte	4
	.byte	8
	.byte	16
	.byte	32
	.byte	64
	.byte	128
	.section	.text.squitter_tracker_hear,"ax",@progbits
	.globl	squitter_tracker_hear
	.p2align	2
	.type	squitter_tracker_hear,@function
squitter_tracker_hear:
	sub	sp, sp, #336
	stp	x24, x23, [sp, #288]
	ldp	x8, x24, [x0]
	stp	x29, x30, [sp, #240]
	add	x29, sp, #240
	stp	x28, x27, [sp, #256]
	stp	x26, x25, [sp, #272]
	stp	x22, x21, [sp, #304]
	stp	x20, x19, [sp, #320]
	stp	xzr, xzr, [x0]
	cbz	x8, .LBB151_5
	ldr	x8, [x2]
	ldrb	w14, [x2, #8]
	ldrb	w13, [x2, #9]
	ldur	w12, [x2, #10]
	str	xzr, [sp, #104]
	rev	x9, x8
	lsr	x8, x9, #59
	cmp	x8, #17
	b.ne	.LBB151_6
	mov	w8, #572
	lsr	x11, x9, #46
	adrp	x10, .Lstatic.44
	add	x10, x10, :lo12:.Lstatic.44
	and	x8, x8, x9, lsr #54
	lsr	x15, x9, #24
	and	x16, x11, #0x3fc
	adrp	x11, .Lstatic.45
	add	x11, x11, :lo12:.Lstatic.45
	ldr	w8, [x10, x8]
	ldr	w16, [x11, x16]
	lsl	x14, x14, #16
	eor	w8, w8, w15
	orr	x13, x14, x13, lsl #24
	eor	w8, w8, w16
	lsr	w15, w8, #14
	lsr	w16, w8, #6
	ubfiz	x8, x8, #2, #8
	orr	x12, x13, x12, lsl #32
	and	x14, x15, #0x3fc
	adrp	x15, .Lstatic.43
	add	x15, x15, :lo12:.Lstatic.43
	and	x16, x16, #0x3fc
	ldr	w14, [x15, x14]
	ldr	w8, [x11, x8]
	ldr	w16, [x10, x16]
	rev	x12, x12
	eor	w13, w14, w9
	eor	w8, w16, w8
	eor	w13, w13, w8
	orr	x8, x12, x9, lsl #48
	and	w12, w12, #0xffffff
	lsr	w14, w13, #14
	lsr	w16, w13, #6
	ubfiz	x13, x13, #2, #8
	lsr	x17, x8, #24
	and	x14, x14, #0x3fc
	and	x16, x16, #0x3fc
	ldr	w13, [x11, x13]
	ldr	w14, [x15, x14]
	ldr	w16, [x10, x16]
	eor	w14, w14, w17
	eor	w13, w16, w13
	eor	w13, w14, w13
	lsr	w14, w13, #6
	ubfiz	x16, x13, #2, #8
	lsr	w13, w13, #14
	and	x14, x14, #0x3fc
	ldr	w11, [x11, x16]
	and	x13, x13, #0x3fc
	ldr	w14, [x10, x14]
	ldr	w10, [x15, x13]
	eor	w11, w12, w11
	eor	w11, w14, w11
	cmp	w10, w11
	b.ne	.LBB151_7
	lsr	x14, x9, #16
	ubfx	x25, x9, #56, #3
	ubfx	x20, x9, #32, #24
	extr	x12, x14, x8, #24
	ubfx	x11, x12, #51, #5
	and	x23, x12, #0xffffffffffffff
	cmp	x11, #5
	b.hs	.LBB151_8
	mov	w17, wzr
	mov	w30, wzr
	mov	w22, wzr
	mov	x13, xzr
	mov	w19, #2
	mov	w10, #1
	b	.LBB151_14
.LBB151_5:
	mov	w9, #46
	b	.LBB151_103
.LBB151_6:
	mov	w9, #5
	b	.LBB151_102
.LBB151_7:
	eor	w8, w11, w10
	mov	w9, #6
	b	.LBB151_102
.LBB151_8:
	lsr	x15, x23, #51
	cmp	x15, #8
	b.hi	.LBB151_10
	lsr	x13, x9, #3
	lsr	x9, x9, #12
	extr	x14, x14, x8, #36
	lsr	x15, x8, #41
	lsr	x16, x8, #27
	ubfx	x22, x8, #58, #1
	and	x13, x13, #0x10000
	and	x9, x9, #0x7f00
	mov	w10, wzr
	orr	x9, x9, x13
	and	x13, x14, #0x7f000000
	orr	x12, x15, x12, lsl #32
	and	x14, x16, #0x100000000
	orr	x9, x9, x13
	mov	w30, wzr
	orr	x8, x9, x14
	and	x23, x12, #0x1ffff0001ffff
	mov	w17, #1
	orr	x13, x8, x11
	mov	w19, #1
	b	.LBB151_14
.LBB151_10:
	cmp	x15, #19
	b.lo	.LBB151_13
	mov	x13, xzr
	mov	w17, wzr
	cmp	x11, #19
	mov	w19, #2
	mov	w10, #1
	b.eq	.LBB151_52
	cmp	x15, #22
	mov	w30, w17
	mov	w22, w17
	b.hi	.LBB151_14
.LBB151_13:
	lsr	x13, x9, #8
	lsr	x9, x9, #17
	extr	x14, x14, x8, #28
	lsr	x15, x8, #41
	lsr	x16, x8, #11
	ubfx	x22, x8, #58, #1
	and	x13, x13, #0x10000
	and	x9, x9, #0x300
	mov	w10, wzr
	orr	x9, x9, x13
	and	x13, x14, #0xfff00000000
	orr	x12, x15, x12, lsl #32
	orr	x9, x9, x13
	and	x13, x16, #0x1000000000000
	mov	w17, wzr
	orr	x8, x9, x13
	mov	w19, wzr
	and	x23, x12, #0x1ffff0001ffff
	orr	x13, x8, x11
	mov	w30, #1
.LBB151_14:
	ldrb	w8, [x24, #56]
	strb	w25, [sp, #104]
	stp	w20, w19, [sp, #108]
	cmp	w8, #1
	str	w22, [sp, #116]
	stp	x23, x13, [sp, #120]
	str	x0, [sp, #88]
	b.ne	.LBB151_16
	ldr	x2, [x24, #64]
	cmp	x1, x2
	b.lo	.LBB151_46
.LBB151_16:
	cbz	w10, .LBB151_20
	ldr	x8, [x24, #256]
	ldr	x9, [x24, #8]
	subs	x10, x1, x8
	csel	x10, xzr, x10, lo
	cmp	x10, x9
	b.ls	.LBB151_19
	mov	x19, x1
	add	x0, x24, #72
	mov	x1, x9
	mov	x2, x19
	mov	x20, x3
	bl	"sq_track::tracker::look_through::<#bd73a11ec42be588>"
	mov	x8, x0
	ldr	x0, [sp, #88]
	mov	x1, x19
	mov	x3, x20
.LBB151_19:
	movi	v0.2d, #0000000000000000
	str	x8, [x24, #256]
	mov	w8, #1
	str	wzr, [sp, #100]
	mov	w21, wzr
	mov	w10, #7
	stp	x8, x1, [x24, #56]
	stur	wzr, [x29, #-88]
	stp	q0, q0, [x29, #-48]
	sturb	wzr, [x29, #-84]
	b	.LBB151_101
.LBB151_20:
	ldr	w8, [x24]
	ldr	x21, [x24, #80]
	ldr	x5, [x24, #8]
	str	w17, [sp, #100]
	cmp	x21, x8
	str	w30, [sp, #84]
	b.lo	.LBB151_24
	add	x0, x24, #72
	mov	x27, x1
	mov	w1, w20
	mov	x28, x3
	mov	x26, x5
	bl	"sq_track::contacts::Contacts::contains::<#bd73a11ec42be588>"
	ldr	w30, [sp, #84]
	mov	w8, w0
	ldr	x0, [sp, #88]
	mov	x5, x26
	mov	x1, x27
	mov	x3, x28
	tbnz	w8, #0, .LBB151_24
	ldr	w8, [x24, #248]
	cmp	x21, x8
	b.ls	.LBB151_69
	mov	w9, #296
	umull	x8, w8, w9
	ldr	x9, [x24, #104]
	ldr	x8, [x9, x8]
	subs	x8, x1, x8
	csel	x8, xzr, x8, lo
	cmp	x8, x5
	b.ls	.LBB151_69
.LBB151_24:
	ldrb	w6, [x24, #16]
	ldr	x12, [x24, #144]
	add	x8, x24, #24
	cmp	w6, #1
	csel	x21, x8, xzr, eq
	cbz	x12, .LBB151_32
	mov	x10, #31773
	orr	x8, x20, x20, lsl #32
	ldr	x9, [x24, #208]
	movk	x10, #32586, lsl #16
	mov	w13, #1
	movk	x10, #31161, lsl #32
	eor	x8, x9, x8
	movk	x10, #40503, lsl #48
	mul	x9, x8, x10
	umulh	x8, x8, x10
	eor	x8, x8, x9
	lsr	x9, x8, #32
	eor	w9, w9, w8
	ldr	x8, [x24, #72]
	lsr	w10, w9, #24
	cmp	w10, #1
	csinc	w11, w10, wzr, hi
	sub	w10, w12, #1
	sub	x12, x12, #1
	dup	v0.16b, w11
	and	w9, w10, w9
	ldr	x10, [x24, #136]
	lsl	w11, w13, w11
	mov	x13, x9
.LBB151_26:
	add	x14, x10, x13, lsl #6
	adrp	x15, .LCPI151_0
	ldr	q2, [x15, :lo12:.LCPI151_0]
	ldr	q1, [x14]
	cmeq	v1.16b, v1.16b, v0.16b
	and	v1.16b, v1.16b, v2.16b
	addp	v1.16b, v1.16b, v1.16b
	addp	v1.16b, v1.16b, v1.16b
	addp	v1.16b, v1.16b, v1.16b
	umov	w15, v1.h[0]
	ands	w15, w15, #0xfff
	b.eq	.LBB151_30
	add	x16, x14, #16
.LBB151_28:
	rbit	w17, w15
	clz	w17, w17
	ldr	w17, [x16, w17, uxtw #2]
	ldr	w18, [x8, x17, lsl #2]
	cmp	w20, w18
	b.eq	.LBB151_33
	sub	w17, w15, #1
	ands	w15, w17, w15
	b.ne	.LBB151_28
.LBB151_30:
	ldr	w14, [x14, #12]
	tst	w14, w11
	b.eq	.LBB151_32
	add	x13, x13, #1
	and	x13, x13, x12
	cmp	x13, x9
	b.ne	.LBB151_26
.LBB151_32:
	add	x0, x24, #72
	str	x22, [sp, #72]
	mov	x22, x1
	add	x1, x24, #216
	add	x2, x24, #248
	mov	x28, x3
	mov	w3, w20
	mov	x26, x5
	mov	x27, x24
	mov	w24, w19
	mov	x19, x25
	mov	x25, x23
	mov	w23, w6
	bl	"sq_track::contacts::enter::<#bd73a11ec42be588>"
	ldr	w30, [sp, #84]
	mov	w8, w0
	ldr	x0, [sp, #88]
	mov	w17, w1
	mov	x1, x22
	ldr	x22, [sp, #72]
	mov	w6, w23
	mov	x23, x25
	mov	x25, x19
	mov	w19, w24
	mov	x24, x27
	mov	x5, x26
	mov	x3, x28
	b	.LBB151_34
.LBB151_33:
	mov	w8, wzr
.LBB151_34:
	tst	w8, #0xff
	b.ne	.LBB151_67
	ldr	x8, [x24, #216]
	ubfiz	x18, x17, #3, #32
	mov	w9, #296
	ldr	x2, [x8, x18]
	ldr	x8, [x24, #104]
	umaddl	x28, w17, w9, x8
	add	x8, sp, #104
	lsr	x16, x2, #32
	str	x1, [x28]
	cbz	w30, .LBB151_38
	add	x9, x28, #112
	mov	w10, #1
	cbz	w22, .LBB151_40
	ldrb	w27, [x28, #104]
	ldrb	w11, [x28, #8]
	stp	x10, x1, [x28, #56]
	strb	w25, [x28, #72]
	ldur	w10, [x8, #28]
	ldur	q0, [x8, #12]
	cmp	w27, #1
	sturh	wzr, [x28, #73]
	csel	x25, x9, xzr, eq
	add	x9, x28, #16
	cmp	w11, #1
	csel	x9, x9, xzr, eq
	strb	wzr, [x28, #75]
	stp	w20, w19, [x28, #76]
	str	w10, [x28, #100]
	stur	q0, [x28, #84]
	tbnz	w11, #0, .LBB151_42
	b	.LBB151_56
.LBB151_38:
	add	x9, x28, #256
	mov	w10, #1
	cbz	w22, .LBB151_41
	ldrb	w27, [x28, #248]
	ldrb	w11, [x28, #152]
	stp	x10, x1, [x28, #200]
	strb	w25, [x28, #216]
	ldur	w10, [x8, #28]
	ldur	q0, [x8, #12]
	cmp	w27, #1
	sturh	wzr, [x28, #217]
	csel	x25, x9, xzr, eq
	add	x9, x28, #160
	cmp	w11, #1
	csel	x9, x9, xzr, eq
	strb	wzr, [x28, #219]
	stp	w20, w19, [x28, #220]
	str	w10, [x28, #244]
	stur	q0, [x28, #228]
	tbnz	w11, #0, .LBB151_42
	b	.LBB151_56
.LBB151_40:
	ldrb	w27, [x28, #104]
	ldrb	w11, [x28, #56]
	stp	x10, x1, [x28, #8]
	strb	w25, [x28, #24]
	ldur	w10, [x8, #28]
	ldur	q0, [x8, #12]
	cmp	w27, #1
	sturh	wzr, [x28, #25]
	csel	x25, x9, xzr, eq
	add	x9, x28, #64
	cmp	w11, #1
	csel	x9, x9, xzr, eq
	strb	wzr, [x28, #27]
	stp	w20, w19, [x28, #28]
	str	w10, [x28, #52]
	stur	q0, [x28, #36]
	tbnz	w11, #0, .LBB151_42
	b	.LBB151_56
.LBB151_41:
	ldrb	w27, [x28, #248]
	ldrb	w11, [x28, #200]
	stp	x10, x1, [x28, #152]
	strb	w25, [x28, #168]
	ldur	w10, [x8, #28]
	ldur	q0, [x8, #12]
	cmp	w27, #1
	sturh	wzr, [x28, #169]
	csel	x25, x9, xzr, eq
	add	x9, x28, #208
	cmp	w11, #1
	csel	x9, x9, xzr, eq
	strb	wzr, [x28, #171]
	stp	w20, w19, [x28, #172]
	str	w10, [x28, #196]
	stur	q0, [x28, #180]
	tbz	w11, #0, .LBB151_56
.LBB151_42:
	ldr	x10, [x9]
	subs	x10, x1, x10
	csel	x10, xzr, x10, lo
	cmp	x10, x5
	b.ls	.LBB151_44
	mov	w21, wzr
	mov	w22, #2
	str	wzr, [sp, #100]
	tbnz	w27, #0, .LBB151_58
	b	.LBB151_76
.LBB151_44:
	ldrb	w10, [x9, #16]
	stp	xzr, xzr, [x29, #-80]
	stur	xzr, [x29, #-64]
	cmp	w10, #2
	b.ne	.LBB151_47
	mov	w8, wzr
	b	.LBB151_54
.LBB151_46:
	mov	w1, #2
	b	.LBB151_70
.LBB151_47:
	ldr	w11, [x9, #12]
	cmp	w11, w20
	b.ne	.LBB151_53
	cbz	w10, .LBB151_104
	ldr	w10, [sp, #100]
	tbz	w10, #0, .LBB151_56
	stp	x2, x18, [sp, #48]
	mov	x19, x1
	mov	x22, x3
	sub	x0, x29, #80
	add	x1, x9, #20
	add	x2, x8, #12
	mov	w3, w6
	mov	x4, x21
	mov	x23, x5
	str	x16, [sp, #40]
	str	x17, [sp, #64]
	bl	"sq_message::place::ground_pair"
	ldurb	w8, [x29, #-80]
	cbz	w8, .LBB151_107
	ldp	x18, x17, [sp, #56]
	mov	x3, x22
	ldp	x16, x2, [sp, #40]
	mov	x1, x19
	ldurb	w8, [x29, #-79]
	ldurb	w21, [x29, #-78]
	mov	x5, x23
	ldurb	w9, [x29, #-77]
	ldr	x0, [sp, #88]
	ldr	w30, [sp, #84]
	str	w9, [sp, #100]
	b	.LBB151_55
.LBB151_52:
	mov	w30, w17
	mov	w22, w17
	b	.LBB151_14
.LBB151_53:
	mov	w8, #1
.LBB151_54:
	str	wzr, [sp, #100]
	mov	w21, wzr
.LBB151_55:
	cmp	w8, #3
	b.gt	.LBB151_62
.LBB151_56:
	mov	w22, #2
	tbz	w27, #0, .LBB151_75
	mov	w21, wzr
	str	wzr, [sp, #100]
.LBB151_58:
	ldr	x8, [x25]
	stp	xzr, xzr, [x29, #-80]
	stur	xzr, [x29, #-64]
	subs	x8, x1, x8
	csel	x8, xzr, x8, lo
	cmp	x8, x5
	b.hi	.LBB151_60
	sub	x0, x29, #80
	mov	x19, x1
	add	x1, sp, #104
	mov	x20, x2
	add	x2, x25, #8
	mov	x23, x3
	mov	x26, x17
	mov	x27, x16
	str	x25, [sp, #72]
	mov	x25, x22
	mov	x22, x18
	bl	"sq_message::place::place_local"
	mov	x18, x22
	mov	x22, x25
	ldr	x25, [sp, #72]
	ldr	w30, [sp, #84]
	ldr	x0, [sp, #88]
	ldurb	w8, [x29, #-80]
	mov	x2, x20
	mov	x16, x27
	mov	x17, x26
	mov	x1, x19
	mov	x3, x23
	cbz	w8, .LBB151_65
.LBB151_60:
	ldp	x13, x10, [x25]
	mov	w12, #1
	ldp	x9, x11, [x25, #16]
	mov	w5, wzr
	ldr	x8, [x25, #32]
	mov	w23, wzr
	mov	w27, wzr
	mov	w26, wzr
	mov	w20, w12
	cbnz	w30, .LBB151_77
.LBB151_61:
	stp	x12, x13, [x28, #248]
	stp	x10, x9, [x28, #264]
	stp	x11, x8, [x28, #280]
	b	.LBB151_78
.LBB151_62:
	cmp	w8, #4
	b.eq	.LBB151_71
	cmp	w8, #6
	b.ne	.LBB151_72
	mov	w22, #3
	tbnz	w27, #0, .LBB151_58
	b	.LBB151_76
.LBB151_65:
	ldurb	w8, [x29, #-64]
	ldurb	w26, [x29, #-72]
	mov	x13, #-65536
	ldur	w15, [x29, #-68]
	mov	w9, #23592960
	mov	w10, #60
	movk	x13, #64816, lsl #16
	umull	x12, w8, w9
	ldur	w11, [x29, #-60]
	sub	x9, x10, x26
	smull	x13, w8, w13
	ldurb	w14, [x29, #-76]
	mov	w23, w8
	lsl	x8, x8, #17
	sxtw	x10, w15
	lsl	x9, x9, #17
	mov	w27, w15
	mov	w5, w11
	cbz	w14, .LBB151_68
	mov	w14, #90
	mov	w21, wzr
	mov	w20, wzr
	umull	x15, w11, w14
	str	wzr, [sp, #100]
	smull	x10, w10, w14
	cmp	x15, x12
	csel	x12, xzr, x13, lo
	umaddl	x11, w11, w14, x12
	mov	x13, x1
	mov	w12, #1
	mov	w22, w12
	cbnz	w30, .LBB151_77
	b	.LBB151_61
.LBB151_67:
	mov	x2, xzr
	mov	w1, #1
	b	.LBB151_70
.LBB151_68:
	mov	w14, #360
	mov	w22, #1
	mov	w21, wzr
	umull	x15, w11, w14
	mov	w20, w22
	str	wzr, [sp, #100]
	smull	x10, w10, w14
	cmp	x15, x12
	csel	x12, xzr, x13, lo
	umaddl	x11, w11, w14, x12
	mov	x13, x1
	mov	w12, #1
	cbnz	w30, .LBB151_77
	b	.LBB151_61
.LBB151_69:
	mov	x2, xzr
	mov	w1, #3
.LBB151_70:
	sub	x0, x29, #104
	stp	xzr, xzr, [x29, #-104]
	bl	"squitter_c::tracker_hear::fault_of_tracker"
	ldp	x9, x8, [x29, #-104]
	ldr	x0, [sp, #88]
	b	.LBB151_102
.LBB151_71:
	mov	w22, #5
	b	.LBB151_73
.LBB151_72:
	mov	w22, #4
.LBB151_73:
	tbz	w27, #0, .LBB151_75
	mov	w21, wzr
	str	wzr, [sp, #100]
	b	.LBB151_60
.LBB151_75:
	str	wzr, [sp, #100]
	mov	w21, wzr
.LBB151_76:
	mov	w5, wzr
	mov	w23, wzr
	mov	w27, wzr
	mov	w26, wzr
	mov	x13, xzr
	mov	x12, xzr
	mov	x8, xzr
	mov	x11, xzr
	mov	x9, xzr
	mov	x10, xzr
	mov	w20, #1
	cbz	w30, .LBB151_61
.LBB151_77:
	stp	x12, x13, [x28, #104]
	stp	x10, x9, [x28, #120]
	stp	x11, x8, [x28, #136]
.LBB151_78:
	ldur	w8, [x24, #248]
	cmp	w8, w16
	b.eq	.LBB151_81
	cmp	w17, w8
	b.eq	.LBB151_81
	ldur	x9, [x24, #216]
	ubfiz	x10, x2, #3, #32
	lsl	x11, x16, #3
	lsl	x12, x8, #3
	add	x10, x9, x10
	add	x13, x9, x18
	str	w16, [x10, #4]
	mov	w16, w8
	str	w2, [x9, x11]
	ldr	w10, [x9, x12]
	add	x11, x9, x10, lsl #3
	str	w17, [x11, #4]
	stp	w10, w8, [x13]
	str	w17, [x9, x12]
.LBB151_81:
	ldr	x8, [x24, #256]
	ldr	x9, [x24, #8]
	str	w16, [x24, #248]
	subs	x10, x1, x8
	csel	x10, xzr, x10, lo
	cmp	x10, x9
	b.ls	.LBB151_83
	mov	x19, x1
	add	x0, x24, #72
	mov	x1, x9
	mov	x2, x19
	mov	x28, x27
	mov	x27, x3
	mov	x25, x23
	mov	x23, x5
	bl	"sq_track::tracker::look_through::<#bd73a11ec42be588>"
	mov	x8, x0
	ldr	x0, [sp, #88]
	mov	x5, x23
	mov	x23, x25
	mov	x1, x19
	mov	x3, x27
	mov	x27, x28
.LBB151_83:
	str	x8, [x24, #256]
	mov	w8, #1
	cmp	w22, #2
	stp	x8, x1, [x24, #56]
	b.gt	.LBB151_88
	mov	w8, #60
	and	x9, x23, #0xff
	mov	w10, w5
	sub	w8, w8, w26
	ubfiz	x8, x8, #17, #32
	cbz	w22, .LBB151_91
	cmp	w22, #1
	b.ne	.LBB151_94
	mov	x13, #-65536
	movi	v0.2d, #0000000000000000
	mov	w11, #23592960
	movk	x13, #64816, lsl #16
	umull	x12, w9, w11
	mov	w14, w27
	smull	x11, w9, w13
	sxtw	x13, w14
	mov	x19, x3
	stp	q0, q0, [x29, #-48]
	cbz	w20, .LBB151_98
	mov	w14, #360
	b	.LBB151_99
.LBB151_88:
	cmp	w22, #3
	b.eq	.LBB151_93
	cmp	w22, #4
	b.ne	.LBB151_95
	movi	v0.2d, #0000000000000000
	str	wzr, [sp, #100]
	mov	w21, wzr
	stur	wzr, [x29, #-88]
	mov	w10, #5
	sturb	wzr, [x29, #-84]
	stp	q0, q0, [x29, #-48]
	b	.LBB151_101
.LBB151_91:
	mov	x13, #-65536
	movi	v0.2d, #0000000000000000
	mov	w11, #23592960
	movk	x13, #64816, lsl #16
	umull	x12, w9, w11
	mov	w14, w27
	smull	x11, w9, w13
	sxtw	x13, w14
	mov	x19, x3
	stp	q0, q0, [x29, #-48]
	cbz	w20, .LBB151_96
	mov	w14, #360
	b	.LBB151_97
.LBB151_93:
	movi	v0.2d, #0000000000000000
	stur	wzr, [x29, #-88]
	mov	w10, #4
	sturb	wzr, [x29, #-84]
	stp	q0, q0, [x29, #-48]
	b	.LBB151_101
.LBB151_94:
	movi	v0.2d, #0000000000000000
	str	wzr, [sp, #100]
	mov	w21, wzr
	stur	wzr, [x29, #-88]
	mov	w10, #3
	sturb	wzr, [x29, #-84]
	stp	q0, q0, [x29, #-48]
	b	.LBB151_101
.LBB151_95:
	movi	v0.2d, #0000000000000000
	mov	w21, wzr
	mov	w10, #6
	str	wzr, [sp, #100]
	stur	wzr, [x29, #-88]
	sturb	wzr, [x29, #-84]
	stp	q0, q0, [x29, #-48]
	b	.LBB151_101
.LBB151_96:
	mov	w14, #90
.LBB151_97:
	umull	x15, w10, w14
	lsl	x9, x9, #17
	sub	x0, x29, #48
	smull	x13, w13, w14
	sub	x1, x29, #80
	cmp	x15, x12
	csel	x11, xzr, x11, lo
	umaddl	x10, w10, w14, x11
	stp	x13, x8, [x29, #-80]
	stp	x10, x9, [x29, #-64]
	bl	"squitter_c::plain::plain_position"
	mov	w21, wzr
	mov	w10, #1
	str	wzr, [sp, #100]
	b	.LBB151_100
.LBB151_98:
	mov	w14, #90
.LBB151_99:
	umull	x15, w10, w14
	lsl	x9, x9, #17
	sub	x0, x29, #48
	smull	x13, w13, w14
	sub	x1, x29, #80
	cmp	x15, x12
	csel	x11, xzr, x11, lo
	umaddl	x10, w10, w14, x11
	stp	x13, x8, [x29, #-80]
	stp	x10, x9, [x29, #-64]
	bl	"squitter_c::plain::plain_position"
	str	wzr, [sp, #100]
	mov	w21, wzr
	mov	w10, #2
.LBB151_100:
	sturb	wzr, [x29, #-84]
	ldr	x0, [sp, #88]
	stur	wzr, [x29, #-88]
	mov	x3, x19
.LBB151_101:
	ldr	w11, [sp, #100]
	ldp	q0, q1, [x29, #-48]
	strb	w10, [x3, #32]
	mov	x8, xzr
	mov	x9, xzr
	ldur	w10, [x29, #-88]
	strb	w11, [x3, #34]
	ldurb	w11, [x29, #-84]
	stp	q0, q1, [x3]
	strb	w21, [x3, #33]
	stur	w10, [x3, #35]
	strb	w11, [x3, #39]
.LBB151_102:
	mov	w10, #1
	stp	x10, x24, [x0]
.LBB151_103:
	ldp	x20, x19, [sp, #320]
	mov	x0, x9
	ldp	x22, x21, [sp, #304]
	mov	x1, x8
	ldp	x24, x23, [sp, #288]
	ldp	x26, x25, [sp, #272]
	ldp	x28, x27, [sp, #256]
	ldp	x29, x30, [sp, #240]
	add	sp, sp, #336
	ret
.LBB151_104:
	cbz	w30, .LBB151_56
	ldrb	w8, [x9, #20]
	cmp	w8, w22
	b.ne	.LBB151_109
	str	wzr, [sp, #100]
	mov	w21, wzr
	mov	w8, #3
	b	.LBB151_55
.LBB151_107:
	ldurb	w8, [x29, #-76]
	ldurb	w26, [x29, #-72]
	mov	x3, x22
	ldur	w27, [x29, #-68]
	ldurb	w23, [x29, #-64]
	mov	x1, x19
	ldur	w5, [x29, #-60]
	cbz	w8, .LBB151_116
	mov	w10, #23592960
	mov	w8, #90
	mov	w13, #60
	umull	x11, w23, w10
	mov	x10, #-65536
	ldr	x0, [sp, #88]
	umull	x9, w5, w8
	movk	x10, #64816, lsl #16
	ldr	w30, [sp, #84]
	smull	x12, w23, w10
	ldp	x18, x17, [sp, #56]
	ldp	x16, x2, [sp, #40]
	str	wzr, [sp, #100]
	cmp	x9, x11
	sub	x9, x13, x26
	mov	w21, wzr
	csel	x11, xzr, x12, lo
	mov	w20, wzr
	mov	w22, wzr
	smull	x10, w27, w8
	lsl	x9, x9, #17
	mov	w12, #1
	umaddl	x11, w5, w8, x11
	lsl	x8, x23, #17
	mov	x13, x1
	cbnz	w30, .LBB151_77
	b	.LBB151_61
.LBB151_109:
	ldp	w8, w9, [x9, #24]
	cmp	w22, #0
	mov	x11, #-60
	mov	w12, #59
	mov	w20, #7733247
	csel	w10, w8, w23, eq
	csel	w8, w23, w8, eq
	lsr	x23, x23, #32
	mul	x11, x10, x11
	csel	w14, w23, w9, eq
	csel	w13, w9, w23, eq
	umaddl	x11, w8, w12, x11
	add	x11, x11, #1936, lsl #12
	and	x11, x11, #0xfffffffffffe0000
	sub	x11, x11, #1920, lsl #12
	add	x19, x11, x8
	add	x26, x11, x10
	add	x8, x20, x19, lsl #1
	add	x8, x8, #32, lsl #12
	cmp	x8, #3840, lsl #12
	b.hs	.LBB151_119
	add	x8, x20, x26, lsl #1
	cmp	x8, #3776, lsl #12
	b.hs	.LBB151_120
.LBB151_111:
	mov	w10, #360
	mov	w9, #1
	smull	x8, w19, w10
	movk	w9, #10620, lsl #16
	add	x12, x9, #2880, lsl #12
	cmp	x8, #0
	cneg	x11, x8, mi
	cmp	x11, x12
	b.hs	.LBB151_115
	smull	x20, w26, w10
	stp	w14, w13, [sp, #32]
	cmp	x20, #0
	cneg	x10, x20, mi
	cmp	x10, x9
	b.hs	.LBB151_115
	stp	x3, x1, [sp, #16]
	mov	x0, x8
	mov	w1, #7864320
	stp	x17, x25, [sp, #64]
	mov	x25, x5
	stp	x2, x18, [sp, #48]
	str	x16, [sp, #40]
	bl	"sq_zones::zones::zone_count"
	mov	x21, x0
	and	w8, w0, #0xff
	mov	w1, #7733248
	mov	x0, x20
	str	w8, [sp, #12]
	bl	"sq_zones::zones::zone_count"
	ldr	w8, [sp, #12]
	str	w0, [sp, #100]
	cmp	w8, w0, uxtb
	b.ne	.LBB151_118
	sub	w8, w21, #1
	and	x10, x21, #0xff
	mov	w2, #1
	and	w9, w8, #0xff
	tst	w8, #0xfe
	csinc	w8, w9, wzr, ne
	cmp	w22, #0
	ldp	w9, w11, [sp, #32]
	csel	w27, w19, w26, eq
	umull	x9, w8, w9
	umsubl	x9, w10, w11, x9
	mov	x10, #-65536
	movk	x10, #65416, lsl #16
	add	x10, x23, x10
	csel	w23, w21, w8, eq
	add	x9, x9, #1936, lsl #12
	mov	w1, w23
	and	x9, x9, #0xfffffffffffe0000
	add	x0, x10, x9
	bl	"sq_cpr::index::on_circle"
	ldp	x3, x1, [sp, #16]
	mov	w5, w0
	ldr	x0, [sp, #88]
	mov	w26, w22
	b	.LBB151_117
.LBB151_115:
	str	wzr, [sp, #100]
	mov	w21, wzr
	mov	w8, #5
	b	.LBB151_55
.LBB151_116:
	ldr	x0, [sp, #88]
.LBB151_117:
	mov	w9, w23
	mov	w10, #23592960
	mov	w8, #360
	and	x12, x9, #0xff
	umull	x9, w5, w8
	mov	w14, #60
	umull	x11, w12, w10
	mov	x10, #-65536
	ldr	w30, [sp, #84]
	movk	x10, #64816, lsl #16
	ldp	x18, x17, [sp, #56]
	smull	x13, w12, w10
	ldp	x16, x2, [sp, #40]
	cmp	x9, x11
	sub	w9, w14, w26
	str	wzr, [sp, #100]
	mov	w21, wzr
	mov	w22, wzr
	smull	x10, w27, w8
	csel	x11, xzr, x13, lo
	ubfiz	x9, x9, #17, #32
	mov	w20, #1
	umaddl	x11, w5, w8, x11
	lsl	x8, x12, #17
	mov	x13, x1
	mov	w12, #1
	cbnz	w30, .LBB151_77
	b	.LBB151_61
.LBB151_118:
	ldp	x3, x1, [sp, #16]
	mov	x5, x25
	ldp	x18, x17, [sp, #56]
	mov	w8, #6
	ldp	x16, x2, [sp, #40]
	ldr	x0, [sp, #88]
	ldr	w30, [sp, #84]
	ldr	x25, [sp, #72]
	b	.LBB151_55
.LBB151_119:
	mov	x0, x8
	str	x1, [sp, #24]
	mov	w1, #15728640
	mov	x21, x3
	stp	x18, x17, [sp, #56]
	stp	x16, x2, [sp, #40]
	str	x25, [sp, #72]
	mov	x25, x5
	stp	w14, w13, [sp, #32]
	bl	"sq_cpr::index::rare_quotient"
	mov	x9, #-65536
	mov	x5, x25
	movk	x9, #65416, lsl #16
	ldp	x17, x25, [sp, #64]
	madd	x19, x0, x9, x19
	ldp	x2, x18, [sp, #48]
	ldp	w14, w13, [sp, #32]
	ldr	x16, [sp, #40]
	ldr	w30, [sp, #84]
	ldr	x1, [sp, #24]
	ldr	x0, [sp, #88]
	mov	x3, x21
	add	x8, x20, x26, lsl #1
	cmp	x8, #3776, lsl #12
	b.lo	.LBB151_111
.LBB151_120:
	mov	x0, x8
	str	x1, [sp, #24]
	mov	w1, #15466496
	mov	x21, x3
	stp	x18, x17, [sp, #56]
	mov	x20, x16
	str	x2, [sp, #48]
	str	x25, [sp, #72]
	mov	x25, x5
	stp	w14, w13, [sp, #32]
	bl	"sq_cpr::index::rare_quotient"
	mov	x9, #-65536
	mov	x5, x25
	movk	x9, #65416, lsl #16
	ldp	x17, x25, [sp, #64]
	add	x9, x9, #32, lsl #12
	ldp	x2, x18, [sp, #48]
	madd	x26, x0, x9, x26
	ldr	w30, [sp, #84]
	ldr	x1, [sp, #24]
	ldp	w14, w13, [sp, #32]
	ldr	x0, [sp, #88]
	mov	x16, x20
	mov	x3, x21
	b	.LBB151_111
.Lfunc_end151:
	.size	squitter_tracker_hear, .Lfunc_end151-squitter_tracker_hear

	.section	.rodata.cst8,"aM",@progbits,8
	.p2align	3, 0x0
.LCPI152_0:
	.word	5
	.word	0
.LCPI152_1:
	.word	6
	.word	0
.LCPI152_3:
	.word	46
	.word	0
	.section	.rodata.cst16,"aM",@progbits,16
	.p2align	4, 0x0
.LCPI152_2:
	.byte	1
	.byte	2
	.byte	4
	.byte	8
	.byte	16
	.byte	32
	.byte	64
	.byte	128
	.byte	1
	.byte	2
	.byte	4
	.byte	8
	.byte	16
	.byte	32
	.byte	64
	.byte	128
	.section	.text.squitter_tracker_hear_many,"ax",@progbits
	.globl	squitter_tracker_hear_many
	.p2align	2
	.type	squitter_tracker_hear_many,@function
squitter_tracker_hear_many:
	sub	sp, sp, #464
	cmp	x1, #0
	mov	w10, #4096
	stp	x29, x30, [sp, #368]
	add	x29, sp, #368
	csel	x8, x10, xzr, eq
	cmp	x3, #0
	ldr	x12, [x29, #96]
	csel	x9, x10, xzr, eq
	cmp	x5, #0
	csel	x11, x10, xzr, eq
	cmp	x7, #0
	stp	x26, x25, [sp, #400]
	csel	x10, x10, xzr, eq
	cmp	x12, x6
	stp	x22, x21, [sp, #432]
	csel	x12, x12, x6, lo
	stp	x28, x27, [sp, #384]
	cmp	x12, x4
	stp	x24, x23, [sp, #416]
	csel	x12, x12, x4, lo
	stp	x20, x19, [sp, #448]
	cmp	x12, x2
	str	x0, [sp, #56]
	csel	x26, x12, x2, lo
	ldp	x12, x21, [x0]
	stp	xzr, xzr, [x0]
	str	x12, [sp, #72]
	cbz	x26, .LBB152_125
	ldr	x12, [sp, #72]
	cmp	x12, #0
	csel	x13, xzr, x21, eq
	str	x13, [sp, #136]
	cbz	x12, .LBB152_127
	mov	x20, xzr
	add	x24, x1, x8
	add	x27, x3, x9
	add	x8, x5, x11
	add	x19, x7, x10
	str	x26, [sp, #64]
	stp	x8, x24, [sp, #80]
	stp	x19, x21, [sp, #104]
	str	x27, [sp, #96]
	b	.LBB152_5
.LBB152_3:
	adrp	x8, .LCPI152_0
	ldr	d0, [x8, :lo12:.LCPI152_0]
.LBB152_4:
	add	x8, x19, x20, lsl #4
	add	x20, x20, #1
	cmp	x20, x26
	str	d0, [x8]
	str	x9, [x8, #8]
	b.eq	.LBB152_125
.LBB152_5:
	mov	w8, #14
	ldr	x11, [x24, x20, lsl #3]
	madd	x10, x20, x8, x27
	stp	x11, xzr, [sp, #144]
	ldr	x8, [x10]
	ldrb	w13, [x10, #8]
	ldrb	w12, [x10, #9]
	ldur	w10, [x10, #10]
	rev	x8, x8
	lsr	x9, x8, #59
	cmp	x9, #17
	b.ne	.LBB152_3
	mov	w9, #572
	lsr	x11, x8, #46
	lsr	x15, x8, #24
	and	x14, x9, x8, lsr #54
	adrp	x9, .Lstatic.44
	add	x9, x9, :lo12:.Lstatic.44
	and	x16, x11, #0x3fc
	adrp	x11, .Lstatic.45
	add	x11, x11, :lo12:.Lstatic.45
	ldr	w14, [x9, x14]
	ldr	w16, [x11, x16]
	lsl	x13, x13, #16
	eor	w14, w14, w15
	orr	x12, x13, x12, lsl #24
	eor	w14, w14, w16
	lsr	w15, w14, #14
	lsr	w16, w14, #6
	ubfiz	x13, x14, #2, #8
	orr	x10, x12, x10, lsl #32
	and	x14, x15, #0x3fc
	adrp	x15, .Lstatic.43
	add	x15, x15, :lo12:.Lstatic.43
	and	x16, x16, #0x3fc
	ldr	w14, [x15, x14]
	ldr	w13, [x11, x13]
	ldr	w16, [x9, x16]
	eor	w12, w14, w8
	rev	x14, x10
	eor	w13, w16, w13
	orr	x10, x14, x8, lsl #48
	and	w14, w14, #0xffffff
	eor	w12, w12, w13
	lsr	w13, w12, #14
	lsr	w16, w12, #6
	ubfiz	x12, x12, #2, #8
	lsr	x17, x10, #24
	and	x13, x13, #0x3fc
	and	x16, x16, #0x3fc
	ldr	w12, [x11, x12]
	ldr	w13, [x15, x13]
	ldr	w16, [x9, x16]
	eor	w13, w13, w17
	eor	w12, w16, w12
	eor	w12, w13, w12
	lsr	w13, w12, #6
	ubfiz	x16, x12, #2, #8
	lsr	w12, w12, #14
	and	x13, x13, #0x3fc
	ldr	w11, [x11, x16]
	and	x12, x12, #0x3fc
	ldr	w13, [x9, x13]
	ldr	w9, [x15, x12]
	eor	w11, w14, w11
	eor	w11, w13, w11
	cmp	w9, w11
	b.ne	.LBB152_9
	lsr	x14, x8, #16
	extr	x13, x14, x10, #24
	ubfx	x12, x13, #51, #5
	and	x27, x13, #0xffffffffffffff
	cmp	x12, #5
	b.hs	.LBB152_10
	mov	w5, wzr
	mov	w3, wzr
	mov	w28, wzr
	mov	x11, xzr
	mov	w22, #2
	mov	w9, #1
	b	.LBB152_16
.LBB152_9:
	adrp	x8, .LCPI152_1
	eor	w9, w11, w9
	ldr	d0, [x8, :lo12:.LCPI152_1]
	b	.LBB152_4
.LBB152_10:
	lsr	x15, x27, #51
	cmp	x15, #8
	b.hi	.LBB152_12
	lsr	x11, x8, #3
	lsr	x15, x8, #12
	extr	x14, x14, x10, #36
	lsr	x16, x10, #41
	lsr	x17, x10, #27
	ubfx	x25, x10, #58, #1
	and	x11, x11, #0x10000
	and	x15, x15, #0x7f00
	and	x14, x14, #0x7f000000
	orr	x11, x15, x11
	orr	x13, x16, x13, lsl #32
	and	x15, x17, #0x100000000
	orr	x11, x11, x14
	mov	w9, wzr
	mov	w3, wzr
	orr	x10, x11, x15
	and	x27, x13, #0x1ffff0001ffff
	mov	w5, #1
	orr	x11, x10, x12
	mov	w22, #1
	mov	w28, w25
	b	.LBB152_16
.LBB152_12:
	cmp	x15, #19
	b.lo	.LBB152_15
	mov	x11, xzr
	mov	w5, wzr
	cmp	x12, #19
	mov	w22, #2
	mov	w9, #1
	b.eq	.LBB152_62
	cmp	x15, #22
	mov	w3, w5
	mov	w28, w5
	b.hi	.LBB152_16
.LBB152_15:
	lsr	x11, x8, #8
	lsr	x15, x8, #17
	extr	x14, x14, x10, #28
	lsr	x16, x10, #41
	lsr	x17, x10, #11
	ubfx	x28, x10, #58, #1
	and	x11, x11, #0x10000
	and	x15, x15, #0x300
	and	x14, x14, #0xfff00000000
	orr	x11, x15, x11
	orr	x13, x16, x13, lsl #32
	mov	w9, wzr
	orr	x11, x11, x14
	and	x14, x17, #0x1000000000000
	mov	w5, wzr
	orr	x10, x11, x14
	mov	w22, wzr
	and	x27, x13, #0x1ffff0001ffff
	orr	x11, x10, x12
	mov	w3, #1
.LBB152_16:
	ubfx	x25, x8, #56, #3
	ubfx	x23, x8, #32, #24
	ldr	x8, [sp, #136]
	str	w28, [sp, #164]
	ldrb	w8, [x8, #56]
	strb	w25, [sp, #152]
	stp	w23, w22, [sp, #156]
	cmp	w8, #1
	stp	x27, x11, [sp, #168]
	b.ne	.LBB152_18
	ldr	x8, [sp, #136]
	ldr	x2, [x8, #64]
	ldr	x8, [sp, #144]
	cmp	x8, x2
	b.lo	.LBB152_56
.LBB152_18:
	cbz	w9, .LBB152_24
	ldr	x8, [sp, #136]
	ldr	x1, [x21, #8]
	ldp	x27, x19, [sp, #96]
	ldr	x0, [x8, #256]
	ldr	x8, [sp, #144]
	subs	x8, x8, x0
	csel	x8, xzr, x8, lo
	cmp	x8, x1
	b.ls	.LBB152_21
	ldp	x8, x2, [sp, #136]
	add	x0, x8, #72
	bl	"sq_track::tracker::look_through::<#bd73a11ec42be588>"
	ldr	x21, [sp, #112]
.LBB152_21:
	movi	v0.2d, #0000000000000000
	ldr	x9, [sp, #136]
	mov	w8, #1
	str	wzr, [sp, #128]
	mov	w28, wzr
	str	x8, [x9, #56]
	ldr	x8, [sp, #144]
	str	x0, [x9, #256]
	str	x8, [x9, #64]
	mov	w8, #7
	stp	q0, q0, [x29, #-112]
	stur	wzr, [x29, #-120]
.LBB152_22:
	sturb	wzr, [x29, #-116]
.LBB152_23:
	mov	w10, #40
	ldp	x11, x24, [sp, #80]
	madd	x10, x20, x10, x11
	ldp	q0, q1, [x29, #-112]
	ldur	w11, [x29, #-120]
	ldr	w12, [sp, #128]
	mov	x9, xzr
	stp	q0, q1, [x29, #-176]
	str	w11, [sp, #184]
	stp	q0, q1, [x10]
	movi	v0.2d, #0000000000000000
	strb	w8, [x10, #32]
	ldurb	w8, [x29, #-116]
	strb	w28, [x10, #33]
	strb	w8, [sp, #188]
	strb	w12, [x10, #34]
	stur	w11, [x10, #35]
	strb	w8, [x10, #39]
	b	.LBB152_4
.LBB152_24:
	ldr	x8, [sp, #136]
	ldr	w10, [x21]
	ldr	x12, [x21, #80]
	ldp	x9, x11, [x21, #136]
	ldr	x2, [x8, #8]
	cmp	x12, x10
	adrp	x10, .LCPI152_2
	ldr	x8, [x8, #72]
	b.lo	.LBB152_35
	cbz	x11, .LBB152_33
	mov	x15, #31773
	orr	x13, x23, x23, lsl #32
	ldr	x14, [x21, #208]
	movk	x15, #32586, lsl #16
	mov	w16, #1
	movk	x15, #31161, lsl #32
	eor	x13, x14, x13
	movk	x15, #40503, lsl #48
	mul	x14, x13, x15
	umulh	x13, x13, x15
	sub	w15, w11, #1
	eor	x13, x13, x14
	lsr	x14, x13, #32
	eor	w13, w14, w13
	lsr	w14, w13, #24
	and	w13, w15, w13
	sub	x15, x11, #1
	cmp	w14, #1
	csinc	w14, w14, wzr, hi
	dup	v0.16b, w14
	lsl	w14, w16, w14
	mov	x16, x13
.LBB152_27:
	add	x17, x9, x16, lsl #6
	ldr	q2, [x10, :lo12:.LCPI152_2]
	ldr	q1, [x17]
	cmeq	v1.16b, v1.16b, v0.16b
	and	v1.16b, v1.16b, v2.16b
	addp	v1.16b, v1.16b, v1.16b
	addp	v1.16b, v1.16b, v1.16b
	addp	v1.16b, v1.16b, v1.16b
	umov	w18, v1.h[0]
	ands	w18, w18, #0xfff
	b.eq	.LBB152_31
	add	x0, x17, #16
.LBB152_29:
	rbit	w1, w18
	clz	w1, w1
	ldr	w1, [x0, w1, uxtw #2]
	ldr	w1, [x8, x1, lsl #2]
	cmp	w23, w1
	b.eq	.LBB152_35
	sub	w1, w18, #1
	ands	w18, w1, w18
	b.ne	.LBB152_29
.LBB152_31:
	ldr	w17, [x17, #12]
	tst	w17, w14
	b.eq	.LBB152_33
	add	x16, x16, #1
	and	x16, x16, x15
	cmp	x16, x13
	b.ne	.LBB152_27
.LBB152_33:
	ldr	w13, [x21, #248]
	cmp	x12, x13
	b.ls	.LBB152_105
	mov	w12, #296
	umull	x12, w13, w12
	ldr	x13, [x21, #104]
	ldr	x12, [x13, x12]
	ldr	x13, [sp, #144]
	subs	x12, x13, x12
	csel	x12, xzr, x12, lo
	cmp	x12, x2
	b.ls	.LBB152_105
.LBB152_35:
	ldrb	w6, [x21, #16]
	ldr	x12, [sp, #136]
	cmp	w6, #1
	add	x12, x12, #24
	csel	x4, x12, xzr, eq
	cbz	x11, .LBB152_43
	mov	x14, #31773
	orr	x12, x23, x23, lsl #32
	ldr	x13, [x21, #208]
	movk	x14, #32586, lsl #16
	mov	w15, #1
	movk	x14, #31161, lsl #32
	eor	x12, x13, x12
	movk	x14, #40503, lsl #48
	mul	x13, x12, x14
	umulh	x12, x12, x14
	sub	w14, w11, #1
	sub	x11, x11, #1
	eor	x12, x12, x13
	lsr	x13, x12, #32
	eor	w12, w13, w12
	lsr	w13, w12, #24
	and	w12, w14, w12
	mov	x14, x12
	cmp	w13, #1
	csinc	w13, w13, wzr, hi
	dup	v0.16b, w13
	lsl	w13, w15, w13
.LBB152_37:
	add	x15, x9, x14, lsl #6
	ldr	q2, [x10, :lo12:.LCPI152_2]
	ldr	q1, [x15]
	cmeq	v1.16b, v1.16b, v0.16b
	and	v1.16b, v1.16b, v2.16b
	addp	v1.16b, v1.16b, v1.16b
	addp	v1.16b, v1.16b, v1.16b
	addp	v1.16b, v1.16b, v1.16b
	umov	w16, v1.h[0]
	ands	w16, w16, #0xfff
	b.eq	.LBB152_41
	add	x17, x15, #16
.LBB152_39:
	rbit	w18, w16
	clz	w18, w18
	ldr	w18, [x17, w18, uxtw #2]
	ldr	w0, [x8, x18, lsl #2]
	cmp	w23, w0
	b.eq	.LBB152_45
	sub	w18, w16, #1
	ands	w16, w18, w16
	b.ne	.LBB152_39
.LBB152_41:
	ldr	w15, [x15, #12]
	tst	w15, w13
	b.eq	.LBB152_43
	add	x14, x14, #1
	and	x14, x14, x11
	cmp	x14, x12
	b.ne	.LBB152_37
.LBB152_43:
	ldr	x8, [sp, #136]
	mov	x24, x2
	mov	w26, w3
	mov	w3, w23
	str	x28, [sp, #128]
	mov	w28, w5
	add	x0, x8, #72
	add	x1, x8, #216
	add	x2, x8, #248
	mov	w21, w6
	mov	w19, w22
	mov	x22, x4
	bl	"sq_track::contacts::enter::<#bd73a11ec42be588>"
	mov	w6, w21
	mov	w5, w28
	ldr	x28, [sp, #128]
	ldr	x21, [sp, #112]
	mov	x4, x22
	mov	w22, w19
	mov	x2, x24
	mov	w3, w26
	tst	w0, #0xff
	b.eq	.LBB152_46
.LBB152_44:
	ldr	x26, [sp, #64]
	ldr	x24, [sp, #88]
	mov	x2, xzr
	mov	w1, #1
	b	.LBB152_57
.LBB152_45:
	mov	w1, w18
	tst	wzr, #0xff
	b.ne	.LBB152_44
.LBB152_46:
	ldr	x8, [sp, #136]
	mov	w9, #296
	ubfiz	x16, x1, #3, #32
	ldr	x10, [x21, #104]
	umaddl	x26, w1, w9, x10
	ldur	x8, [x8, #216]
	ldr	x17, [x8, x16]
	ldr	x8, [sp, #144]
	str	x8, [x26]
	cbz	w3, .LBB152_49
	add	x8, x26, #112
	mov	w9, #1
	cbz	w28, .LBB152_51
	ldrb	w19, [x26, #104]
	str	x9, [x26, #56]
	add	x12, sp, #152
	ldr	x9, [sp, #144]
	ldrb	w10, [x26, #8]
	add	x11, sp, #152
	cmp	w19, #1
	ldur	q0, [x12, #12]
	strb	w25, [x26, #72]
	str	x9, [x26, #64]
	ldur	w9, [x12, #28]
	csel	x12, x8, xzr, eq
	add	x8, x26, #16
	cmp	w10, #1
	sturh	wzr, [x26, #73]
	csel	x8, x8, xzr, eq
	strb	wzr, [x26, #75]
	stp	w23, w22, [x26, #76]
	str	w9, [x26, #100]
	stur	q0, [x26, #84]
	tbnz	w10, #0, .LBB152_53
	b	.LBB152_66
.LBB152_49:
	add	x8, x26, #256
	mov	w9, #1
	cbz	w28, .LBB152_52
	ldrb	w19, [x26, #248]
	str	x9, [x26, #200]
	add	x12, sp, #152
	ldr	x9, [sp, #144]
	ldrb	w10, [x26, #152]
	add	x11, sp, #152
	cmp	w19, #1
	ldur	q0, [x12, #12]
	strb	w25, [x26, #216]
	str	x9, [x26, #208]
	ldur	w9, [x12, #28]
	csel	x12, x8, xzr, eq
	add	x8, x26, #160
	cmp	w10, #1
	sturh	wzr, [x26, #217]
	csel	x8, x8, xzr, eq
	strb	wzr, [x26, #219]
	stp	w23, w22, [x26, #220]
	str	w9, [x26, #244]
	stur	q0, [x26, #228]
	tbnz	w10, #0, .LBB152_53
	b	.LBB152_66
.LBB152_51:
	ldrb	w19, [x26, #104]
	str	x9, [x26, #8]
	add	x12, sp, #152
	ldr	x9, [sp, #144]
	ldrb	w10, [x26, #56]
	add	x11, sp, #152
	cmp	w19, #1
	ldur	q0, [x12, #12]
	strb	w25, [x26, #24]
	str	x9, [x26, #16]
	ldur	w9, [x12, #28]
	csel	x12, x8, xzr, eq
	add	x8, x26, #64
	cmp	w10, #1
	sturh	wzr, [x26, #25]
	csel	x8, x8, xzr, eq
	strb	wzr, [x26, #27]
	stp	w23, w22, [x26, #28]
	str	w9, [x26, #52]
	stur	q0, [x26, #36]
	tbnz	w10, #0, .LBB152_53
	b	.LBB152_66
.LBB152_52:
	ldrb	w19, [x26, #248]
	str	x9, [x26, #152]
	add	x12, sp, #152
	ldr	x9, [sp, #144]
	ldrb	w10, [x26, #200]
	add	x11, sp, #152
	cmp	w19, #1
	ldur	q0, [x12, #12]
	strb	w25, [x26, #168]
	str	x9, [x26, #160]
	ldur	w9, [x12, #28]
	csel	x12, x8, xzr, eq
	add	x8, x26, #208
	cmp	w10, #1
	sturh	wzr, [x26, #169]
	csel	x8, x8, xzr, eq
	strb	wzr, [x26, #171]
	stp	w23, w22, [x26, #172]
	str	w9, [x26, #196]
	stur	q0, [x26, #180]
	tbz	w10, #0, .LBB152_66
.LBB152_53:
	ldr	x9, [x8]
	ldr	x10, [sp, #144]
	subs	x9, x10, x9
	csel	x9, xzr, x9, lo
	cmp	x9, x2
	b.hi	.LBB152_66
	ldrb	w9, [x8, #16]
	stp	xzr, xzr, [x29, #-48]
	stur	xzr, [x29, #-32]
	cmp	w9, #2
	b.ne	.LBB152_58
	mov	w8, wzr
	b	.LBB152_64
.LBB152_56:
	mov	w1, #2
.LBB152_57:
	sub	x0, x29, #136
	stp	xzr, xzr, [x29, #-136]
	bl	"squitter_c::tracker_hear::fault_of_tracker"
	ldp	x19, x21, [sp, #104]
	ldur	d0, [x29, #-136]
	ldur	x9, [x29, #-128]
	ldr	x27, [sp, #96]
	b	.LBB152_4
.LBB152_58:
	ldr	w10, [x8, #12]
	cmp	w10, w23
	b.ne	.LBB152_63
	cbz	w9, .LBB152_106
	cbz	w5, .LBB152_66
	sub	x0, x29, #48
	str	x1, [sp, #120]
	add	x1, x8, #20
	mov	x27, x2
	add	x2, x11, #12
	mov	w22, w3
	mov	w3, w6
	mov	x24, x16
	mov	x25, x17
	mov	x23, x12
	bl	"sq_message::place::ground_pair"
	ldurb	w10, [x29, #-44]
	ldurb	w9, [x29, #-48]
	mov	x17, x25
	ldp	x21, x1, [sp, #112]
	mov	w3, w22
	ldurb	w11, [x29, #-45]
	cmp	w10, #0
	ldur	w10, [x29, #-36]
	ldurb	w8, [x29, #-47]
	ldurb	w28, [x29, #-46]
	cset	w22, eq
	ldurb	w25, [x29, #-40]
	ldurb	w18, [x29, #-32]
	cmp	w9, #0
	ldur	w5, [x29, #-28]
	mov	x12, x23
	mov	x2, x27
	mov	x16, x24
	str	w11, [sp, #128]
	cset	w9, eq
	str	x10, [sp, #48]
	b	.LBB152_117
.LBB152_62:
	mov	w3, w5
	mov	w28, w5
	b	.LBB152_16
.LBB152_63:
	mov	w8, #1
.LBB152_64:
	str	wzr, [sp, #128]
	mov	w28, wzr
.LBB152_65:
	cmp	w8, #3
	b.gt	.LBB152_72
.LBB152_66:
	mov	w8, #2
	str	x8, [sp, #120]
	tbz	w19, #0, .LBB152_81
	mov	w28, wzr
	str	wzr, [sp, #128]
.LBB152_68:
	ldr	x8, [x12]
	ldr	x9, [sp, #144]
	stp	xzr, xzr, [x29, #-48]
	stur	xzr, [x29, #-32]
	subs	x8, x9, x8
	csel	x8, xzr, x8, lo
	cmp	x8, x2
	b.hi	.LBB152_70
	sub	x0, x29, #48
	mov	x25, x1
	add	x1, sp, #152
	add	x2, x12, #8
	mov	w19, w3
	mov	x24, x28
	mov	x23, x16
	mov	x27, x17
	mov	x28, x12
	bl	"sq_message::place::place_local"
	ldr	x21, [sp, #112]
	ldurb	w8, [x29, #-48]
	mov	x12, x28
	mov	x17, x27
	mov	x16, x23
	mov	x28, x24
	mov	x1, x25
	mov	w3, w19
	cbz	w8, .LBB152_75
.LBB152_70:
	ldp	x13, x10, [x12]
	mov	w5, wzr
	ldp	x9, x11, [x12, #16]
	mov	w18, wzr
	ldr	x8, [x12, #32]
	mov	w15, wzr
	mov	w25, wzr
	mov	w23, #1
	mov	w12, #1
	ldr	x27, [sp, #96]
	cbnz	w3, .LBB152_83
.LBB152_71:
	stp	x12, x13, [x26, #248]
	stp	x10, x9, [x26, #264]
	stp	x11, x8, [x26, #280]
	ldr	x9, [sp, #136]
	lsr	x8, x17, #32
	ldr	x26, [sp, #64]
	ldur	w9, [x9, #248]
	cmp	w9, w8
	b.ne	.LBB152_84
	b	.LBB152_86
.LBB152_72:
	cmp	w8, #4
	b.eq	.LBB152_78
	cmp	w8, #6
	b.ne	.LBB152_80
	mov	w8, #3
	str	x8, [sp, #120]
	tbnz	w19, #0, .LBB152_68
	b	.LBB152_82
.LBB152_75:
	ldurb	w18, [x29, #-32]
	ldurb	w25, [x29, #-40]
	mov	w8, #23592960
	mov	w9, #60
	ldur	w15, [x29, #-36]
	ldurb	w13, [x29, #-44]
	umull	x11, w18, w8
	sub	x8, x9, x25
	mov	x9, #-65536
	movk	x9, #64816, lsl #16
	ldur	w5, [x29, #-28]
	sxtw	x10, w15
	smull	x12, w18, w9
	lsl	x9, x8, #17
	lsl	x8, x18, #17
	cbz	w13, .LBB152_77
	mov	w13, #90
	mov	w23, wzr
	mov	w28, wzr
	umull	x14, w5, w13
	str	wzr, [sp, #128]
	smull	x10, w10, w13
	cmp	x14, x11
	csel	x11, xzr, x12, lo
	mov	w12, #1
	umaddl	x11, w5, w13, x11
	mov	w13, w12
	str	x13, [sp, #120]
	ldr	x13, [sp, #144]
	ldr	x27, [sp, #96]
	cbnz	w3, .LBB152_83
	b	.LBB152_71
.LBB152_77:
	mov	w13, #360
	mov	w23, #1
	str	wzr, [sp, #128]
	umull	x14, w5, w13
	mov	w28, wzr
	smull	x10, w10, w13
	cmp	x14, x11
	csel	x11, xzr, x12, lo
	mov	w12, #1
	umaddl	x11, w5, w13, x11
	ldr	x13, [sp, #144]
	str	x12, [sp, #120]
	mov	w12, #1
	ldr	x27, [sp, #96]
	cbnz	w3, .LBB152_83
	b	.LBB152_71
.LBB152_78:
	mov	w8, #5
	str	x8, [sp, #120]
	tbz	w19, #0, .LBB152_81
.LBB152_79:
	mov	w28, wzr
	str	wzr, [sp, #128]
	b	.LBB152_70
.LBB152_80:
	mov	w8, #4
	str	x8, [sp, #120]
	tbnz	w19, #0, .LBB152_79
.LBB152_81:
	str	wzr, [sp, #128]
	mov	w28, wzr
.LBB152_82:
	mov	w5, wzr
	mov	w18, wzr
	mov	w15, wzr
	mov	w25, wzr
	mov	x13, xzr
	mov	x12, xzr
	mov	x8, xzr
	mov	x11, xzr
	mov	x9, xzr
	mov	x10, xzr
	mov	w23, #1
	ldr	x27, [sp, #96]
	cbz	w3, .LBB152_71
.LBB152_83:
	stp	x12, x13, [x26, #104]
	stp	x10, x9, [x26, #120]
	stp	x11, x8, [x26, #136]
	ldr	x9, [sp, #136]
	lsr	x8, x17, #32
	ldr	x26, [sp, #64]
	ldur	w9, [x9, #248]
	cmp	w9, w8
	b.eq	.LBB152_86
.LBB152_84:
	cmp	w1, w9
	b.eq	.LBB152_86
	ldr	x10, [sp, #136]
	ubfiz	x11, x17, #3, #32
	lsl	x12, x8, #3
	lsl	x13, x9, #3
	ldur	x10, [x10, #216]
	add	x11, x10, x11
	str	w8, [x11, #4]
	str	w17, [x10, x12]
	add	x12, x10, x16
	ldr	w8, [x10, x13]
	add	x11, x10, x8, lsl #3
	str	w1, [x11, #4]
	stp	w8, w9, [x12]
	mov	w8, w9
	str	w1, [x10, x13]
.LBB152_86:
	ldp	x10, x9, [sp, #136]
	ldr	x0, [x10, #256]
	ldr	x1, [x10, #8]
	str	w8, [x10, #248]
	subs	x9, x9, x0
	csel	x9, xzr, x9, lo
	cmp	x9, x1
	b.ls	.LBB152_88
	ldp	x8, x2, [sp, #136]
	mov	x22, x18
	mov	x19, x25
	mov	x25, x5
	mov	x24, x15
	add	x0, x8, #72
	bl	"sq_track::tracker::look_through::<#bd73a11ec42be588>"
	ldr	x21, [sp, #112]
	mov	x15, x24
	mov	x5, x25
	mov	x25, x19
	mov	x18, x22
.LBB152_88:
	ldr	x9, [sp, #136]
	mov	w8, #1
	stp	xzr, xzr, [x29, #-136]
	str	x8, [x9, #56]
	ldr	x8, [sp, #144]
	str	x0, [x9, #256]
	str	x8, [x9, #64]
	ldr	x8, [sp, #120]
	cmp	w8, #2
	b.gt	.LBB152_93
	mov	w8, #60
	mov	w9, w18
	ldr	x11, [sp, #120]
	sub	w8, w8, w25
	and	x9, x9, #0xff
	mov	w10, w5
	ubfiz	x8, x8, #17, #32
	cbz	w11, .LBB152_96
	ldr	x11, [sp, #120]
	cmp	w11, #1
	b.ne	.LBB152_99
	mov	x11, #-65536
	movi	v0.2d, #0000000000000000
	mov	w12, #23592960
	movk	x11, #64816, lsl #16
	mov	w13, w15
	umull	x12, w9, w12
	smull	x11, w9, w11
	sxtw	x13, w13
	sub	x14, x29, #48
	stp	q0, q0, [x14]
	cbz	w23, .LBB152_103
	mov	w14, #360
	b	.LBB152_104
.LBB152_93:
	ldr	x8, [sp, #120]
	cmp	w8, #3
	b.eq	.LBB152_98
	ldr	x8, [sp, #120]
	ldr	x19, [sp, #104]
	cmp	w8, #4
	b.ne	.LBB152_100
	movi	v0.2d, #0000000000000000
	str	wzr, [sp, #128]
	mov	w28, wzr
	stur	wzr, [x29, #-120]
	mov	w8, #5
	sturb	wzr, [x29, #-116]
	stp	q0, q0, [x29, #-112]
	b	.LBB152_23
.LBB152_96:
	mov	x11, #-65536
	movi	v0.2d, #0000000000000000
	mov	w12, #23592960
	movk	x11, #64816, lsl #16
	mov	w13, w15
	umull	x12, w9, w12
	smull	x11, w9, w11
	sxtw	x13, w13
	sub	x14, x29, #48
	stp	q0, q0, [x14]
	cbz	w23, .LBB152_101
	mov	w14, #360
	b	.LBB152_102
.LBB152_98:
	movi	v0.2d, #0000000000000000
	ldr	x19, [sp, #104]
	stur	wzr, [x29, #-120]
	sturb	wzr, [x29, #-116]
	mov	w8, #4
	stp	q0, q0, [x29, #-112]
	b	.LBB152_23
.LBB152_99:
	movi	v0.2d, #0000000000000000
	ldr	x19, [sp, #104]
	str	wzr, [sp, #128]
	mov	w28, wzr
	stur	wzr, [x29, #-120]
	mov	w8, #3
	sturb	wzr, [x29, #-116]
	stp	q0, q0, [x29, #-112]
	b	.LBB152_23
.LBB152_100:
	movi	v0.2d, #0000000000000000
	mov	w28, wzr
	mov	w8, #6
	str	wzr, [sp, #128]
	stur	wzr, [x29, #-120]
	sturb	wzr, [x29, #-116]
	stp	q0, q0, [x29, #-112]
	b	.LBB152_23
.LBB152_101:
	mov	w14, #90
.LBB152_102:
	umull	x15, w10, w14
	lsl	x9, x9, #17
	sub	x0, x29, #48
	smull	x13, w13, w14
	sub	x1, x29, #80
	cmp	x15, x12
	csel	x11, xzr, x11, lo
	umaddl	x10, w10, w14, x11
	stp	x13, x8, [x29, #-80]
	stp	x10, x9, [x29, #-64]
	bl	"squitter_c::plain::plain_position"
	sub	x8, x29, #48
	ldp	x19, x21, [sp, #104]
	ldp	q0, q1, [x8]
	mov	w28, wzr
	str	wzr, [sp, #128]
	mov	w8, #1
	stur	wzr, [x29, #-120]
	stp	q0, q1, [x29, #-112]
	b	.LBB152_22
.LBB152_103:
	mov	w14, #90
.LBB152_104:
	umull	x15, w10, w14
	lsl	x9, x9, #17
	ldr	x19, [sp, #104]
	smull	x13, w13, w14
	sub	x0, x29, #48
	sub	x1, x29, #80
	cmp	x15, x12
	csel	x11, xzr, x11, lo
	umaddl	x10, w10, w14, x11
	stp	x13, x8, [x29, #-80]
	stp	x10, x9, [x29, #-64]
	bl	"squitter_c::plain::plain_position"
	sub	x8, x29, #48
	ldr	x21, [sp, #112]
	str	wzr, [sp, #128]
	ldp	q0, q1, [x8]
	mov	w28, wzr
	stur	wzr, [x29, #-120]
	mov	w8, #2
	sturb	wzr, [x29, #-116]
	stp	q0, q1, [x29, #-112]
	b	.LBB152_23
.LBB152_105:
	mov	x2, xzr
	mov	w1, #3
	b	.LBB152_57
.LBB152_106:
	cbz	w3, .LBB152_66
	ldrb	w9, [x8, #20]
	cmp	w9, w28
	b.ne	.LBB152_109
	mov	w5, wzr
	mov	w18, wzr
	str	xzr, [sp, #48]
	mov	w25, wzr
	str	wzr, [sp, #128]
	mov	w28, wzr
	mov	w9, wzr
	mov	w8, #3
	mov	w22, #1
	b	.LBB152_117
.LBB152_109:
	ldp	w9, w8, [x8, #24]
	cmp	w28, #0
	mov	x10, #-60
	mov	w11, #59
	lsr	x22, x27, #32
	csel	w23, w9, w27, eq
	csel	w9, w27, w9, eq
	mul	x10, x23, x10
	csel	w14, w22, w8, eq
	csel	w13, w8, w22, eq
	umaddl	x10, w9, w11, x10
	add	x10, x10, #1936, lsl #12
	and	x10, x10, #0xfffffffffffe0000
	sub	x24, x10, #1920, lsl #12
	mov	w10, #7733247
	add	x25, x24, x9
	add	x9, x10, x25, lsl #1
	add	x0, x9, #32, lsl #12
	cmp	x0, #3840, lsl #12
	b.hs	.LBB152_123
	add	x15, x24, x23
	add	x0, x10, x15, lsl #1
	cmp	x0, #3776, lsl #12
	b.hs	.LBB152_124
.LBB152_111:
	mov	w9, #360
	mov	w8, #1
	smull	x0, w25, w9
	movk	w8, #10620, lsl #16
	add	x11, x8, #2880, lsl #12
	cmp	x0, #0
	cneg	x10, x0, mi
	cmp	x10, x11
	b.hs	.LBB152_115
	smull	x24, w15, w9
	cmp	x24, #0
	cneg	x9, x24, mi
	cmp	x9, x8
	b.hs	.LBB152_115
	str	x1, [sp, #120]
	mov	w1, #7864320
	mov	w23, w14
	stp	x16, x15, [sp, #40]
	mov	w21, w13
	stp	x12, x17, [sp, #8]
	str	x2, [sp, #32]
	str	w3, [sp, #28]
	bl	"sq_zones::zones::zone_count"
	mov	w27, w0
	mov	x0, x24
	mov	w1, #7733248
	bl	"sq_zones::zones::zone_count"
	and	w8, w27, #0xff
	str	w0, [sp, #128]
	cmp	w8, w0, uxtb
	b.ne	.LBB152_122
	sub	w8, w27, #1
	and	x10, x27, #0xff
	mov	w2, #1
	and	w9, w8, #0xff
	tst	w8, #0xfe
	csinc	w8, w9, wzr, ne
	cmp	w28, #0
	umull	x9, w8, w23
	csel	w24, w27, w8, eq
	ldr	x8, [sp, #48]
	umsubl	x9, w10, w21, x9
	mov	x10, #-65536
	mov	w1, w24
	movk	x10, #65416, lsl #16
	csel	w8, w25, w8, eq
	add	x10, x22, x10
	str	x8, [sp, #48]
	mov	w22, #1
	add	x9, x9, #1936, lsl #12
	and	x9, x9, #0xfffffffffffe0000
	add	x0, x10, x9
	bl	"sq_cpr::index::on_circle"
	ldp	x21, x1, [sp, #112]
	mov	x18, x24
	ldp	x2, x16, [sp, #32]
	mov	w24, wzr
	ldp	x12, x17, [sp, #8]
	mov	w5, w0
	ldr	w3, [sp, #28]
	mov	w8, wzr
	sturb	w28, [x29, #-40]
	sub	x10, x29, #48
	mov	w25, w28
	mov	w9, #1
	mov	x28, x24
	str	wzr, [sp, #128]
	stur	xzr, [x29, #-48]
	sturh	wzr, [x10, #9]
	sturb	wzr, [x10, #11]
	b	.LBB152_117
.LBB152_115:
	mov	w28, wzr
	str	wzr, [sp, #128]
	mov	w8, #5
.LBB152_116:
	mov	w22, #1
	mov	w5, wzr
	mov	w18, wzr
	str	xzr, [sp, #48]
	mov	w25, wzr
	mov	w9, wzr
	sturb	w22, [x29, #-48]
	sturb	w8, [x29, #-47]
.LBB152_117:
	tbz	w9, #0, .LBB152_65
	mov	w8, w18
	mov	w10, #60
	mov	w9, #23592960
	and	x8, x8, #0xff
	sub	w13, w10, w25
	mov	x10, #-65536
	umull	x11, w8, w9
	ldr	x9, [sp, #48]
	movk	x10, #64816, lsl #16
	smull	x12, w8, w10
	sxtw	x10, w9
	lsl	x8, x8, #17
	ubfiz	x9, x13, #17, #32
	mov	w13, w5
	cbz	w22, .LBB152_120
	mov	w14, #360
	mov	w28, wzr
	str	wzr, [sp, #128]
	umull	x15, w13, w14
	str	xzr, [sp, #120]
	smull	x10, w10, w14
	cmp	x15, x11
	csel	x11, xzr, x12, lo
	mov	w12, #1
	umaddl	x11, w13, w14, x11
	mov	w23, w12
	b	.LBB152_121
.LBB152_120:
	mov	w14, #90
	mov	w23, wzr
	str	wzr, [sp, #128]
	umull	x15, w13, w14
	mov	w28, wzr
	str	xzr, [sp, #120]
	smull	x10, w10, w14
	cmp	x15, x11
	csel	x11, xzr, x12, lo
	mov	w12, #1
	umaddl	x11, w13, w14, x11
.LBB152_121:
	ldr	x13, [sp, #144]
	ldr	x27, [sp, #96]
	ldr	x15, [sp, #48]
	cbnz	w3, .LBB152_83
	b	.LBB152_71
.LBB152_122:
	ldp	x21, x1, [sp, #112]
	mov	w8, #6
	ldp	x2, x16, [sp, #32]
	mov	x28, x27
	ldp	x12, x17, [sp, #8]
	ldr	w3, [sp, #28]
	b	.LBB152_116
.LBB152_123:
	str	x1, [sp, #120]
	mov	w1, #15728640
	mov	x27, x12
	str	w3, [sp, #28]
	mov	w21, w13
	stp	x2, x16, [sp, #32]
	str	x17, [sp, #16]
	str	w14, [sp, #128]
	bl	"sq_cpr::index::rare_quotient"
	mov	x8, #-65536
	mov	w13, w21
	ldr	w14, [sp, #128]
	movk	x8, #65416, lsl #16
	ldp	x2, x16, [sp, #32]
	madd	x25, x0, x8, x25
	ldp	x21, x1, [sp, #112]
	ldr	x17, [sp, #16]
	ldr	w3, [sp, #28]
	mov	w10, #7733247
	mov	x12, x27
	add	x15, x24, x23
	add	x0, x10, x15, lsl #1
	cmp	x0, #3776, lsl #12
	b.lo	.LBB152_111
.LBB152_124:
	str	x1, [sp, #120]
	mov	w1, #15466496
	mov	w23, w3
	stp	x2, x16, [sp, #32]
	mov	x24, x17
	mov	x27, x12
	mov	w21, w13
	str	w14, [sp, #128]
	str	x15, [sp, #48]
	bl	"sq_cpr::index::rare_quotient"
	mov	x8, #-65536
	ldp	x16, x15, [sp, #40]
	movk	x8, #65416, lsl #16
	mov	w13, w21
	ldr	w14, [sp, #128]
	add	x8, x8, #32, lsl #12
	ldp	x21, x1, [sp, #112]
	madd	x15, x0, x8, x15
	ldr	x2, [sp, #32]
	mov	x12, x27
	mov	x17, x24
	mov	w3, w23
	b	.LBB152_111
.LBB152_125:
	ldr	x8, [sp, #72]
	cbz	x8, .LBB152_129
	ldr	x9, [sp, #56]
	mov	w8, #1
	stp	x8, x21, [x9]
	b	.LBB152_129
.LBB152_127:
	add	x8, x10, x7
	mov	x9, x26
	add	x8, x8, #8
.LBB152_128:
	adrp	x10, .LCPI152_3
	subs	x9, x9, #1
	ldr	d0, [x10, :lo12:.LCPI152_3]
	stur	d0, [x8, #-8]
	str	xzr, [x8], #16
	b.ne	.LBB152_128
.LBB152_129:
	mov	x0, x26
	ldp	x20, x19, [sp, #448]
	ldp	x22, x21, [sp, #432]
	ldp	x24, x23, [sp, #416]
	ldp	x26, x25, [sp, #400]
	ldp	x28, x27, [sp, #384]
	ldp	x29, x30, [sp, #368]
	add	sp, sp, #464
	ret
.Lfunc_end152:
	.size	squitter_tracker_hear_many, .Lfunc_end152-squitter_tracker_hear_many

	.section	.text.squitter_unit_of,"ax",@progbits
	.globl	squitter_unit_of
	.p2align	2
	.type	squitter_unit_of,@function
squitter_unit_of:
	stp	x29, x30, [sp, #-80]!
	stp	x28, x25, [sp, #16]
	mov	x29, sp
	stp	x24, x23, [sp, #32]
	stp	x22, x21, [sp, #48]
	stp	x20, x19, [sp, #64]
	sub	sp, sp, #3072
	str	xzr, [sp], #-112
	mov	w8, #4096
	cmp	x0, #0
	mov	x20, x2
	mov	x21, x0
	mov	x23, x1
	csel	x24, x8, xzr, eq
	cmp	x2, #0
	add	x0, sp, #8
	mov	w1, wzr
	mov	w2, #3176
	mov	w19, w4
	mov	x22, x3
	csel	x25, x8, xzr, eq
	bl	memset
	cmp	x22, x23
	csel	x22, x22, x23, lo
	cbz	x22, .LBB153_17
	mov	w8, wzr
	add	x21, x21, x24
	add	x20, x20, x25
	b	.LBB153_3
.LBB153_2:
	subs	x22, x22, #1
	add	x21, x21, #8
	add	x20, x20, #4
	b.eq	.LBB153_5
.LBB153_3:
	lsr	w9, w8, #14
	cbnz	w9, .LBB153_2
	ldr	w2, [x20]
	ldr	x1, [x21]
	add	x0, sp, #8
	bl	"sq_feed::units::Units::watch"
	ldr	w8, [sp, #8]
	b	.LBB153_2
.LBB153_5:
	cmp	w8, #2
	b.lo	.LBB153_8
	ldrb	w8, [sp, #32]
	tbnz	w8, #0, .LBB153_8
	mov	w0, #4
	b	.LBB153_18
.LBB153_8:
	ldr	w8, [sp, #3144]
	cmp	w8, #16
	b.lo	.LBB153_17
	tst	w19, #0xff
	b.eq	.LBB153_15
	mov	w9, #8000
	ldr	x10, [sp, #3160]
	umull	x9, w8, w9
	cmp	x9, x10
	b.hi	.LBB153_17
	ldr	w9, [sp, #3176]
	cmp	w8, w9, lsl #2
	b.hi	.LBB153_17
	ldrb	w8, [sp, #63]
	cbnz	w8, .LBB153_17
	ldrb	w8, [sp, #64]
	cbnz	w8, .LBB153_17
	mov	w0, #5
	b	.LBB153_18
.LBB153_15:
	ldp	x10, x9, [sp, #16]
	mov	x11, #-4096
	movk	x11, #11098, lsl #16
	mov	x12, #12288
	movk	x11, #65303, lsl #32
	movk	x12, #32239, lsl #16
	add	x13, x10, x11
	movk	x12, #698, lsl #32
	cmp	x13, x12
	b.hs	.LBB153_19
	add	x11, x9, x11
	cmp	x11, x12
	b.hs	.LBB153_19
.LBB153_17:
	mov	w0, wzr
.LBB153_18:
	add	sp, sp, #3184
	ldp	x20, x19, [sp, #64]
	ldp	x22, x21, [sp, #48]
	ldp	x24, x23, [sp, #32]
	ldp	x28, x25, [sp, #16]
	ldp	x29, x30, [sp], #80
	ret
.LBB153_19:
	mov	x11, #40960
	movk	x11, #20082, lsl #16
	movk	x11, #2328, lsl #32
	cmp	x9, x11
	b.lo	.LBB153_22
	mov	x8, #-2725642241
	movk	x8, #17784, lsl #32
	movk	x8, #355, lsl #48
	cmp	x9, x8
	b.ls	.LBB153_27
.LBB153_21:
	mov	w0, #3
	b	.LBB153_18
.LBB153_22:
	mov	w11, #50
	umull	x12, w8, w11
	ldr	x11, [sp, #3152]
	cmp	x11, x12
	b.lo	.LBB153_26
	mov	x12, #-51712
	movk	x12, #50277, lsl #16
	add	x13, x10, x12
	mov	w10, #24064
	movk	w10, #45776, lsl #16
	cmp	x13, x10
	b.hs	.LBB153_31
	add	x9, x9, x12
	cmp	x9, x10
	b.hs	.LBB153_31
	mov	w9, #100
	umull	x8, w8, w9
	cmp	x11, x8
	b.hs	.LBB153_31
.LBB153_26:
	mov	w0, #1
	b	.LBB153_18
.LBB153_27:
	mov	x8, #32768
	movk	x8, #23353, lsl #16
	movk	x8, #29313, lsl #32
	movk	x8, #65532, lsl #48
	add	x11, x10, x8
	mov	x10, #32768
	movk	x10, #61011, lsl #16
	movk	x10, #43131, lsl #32
	movk	x10, #10, lsl #48
	cmp	x11, x10
	b.hs	.LBB153_29
	add	x8, x9, x8
	cmp	x8, x10
	b.lo	.LBB153_33
.LBB153_29:
	ldr	w8, [sp, #3148]
	mov	w9, #57600
	ldr	x10, [sp, #3168]
	movk	w9, #1525, lsl #16
	umull	x9, w8, w9
	cmp	x9, x10
	b.hi	.LBB153_33
	ldr	w9, [sp, #3180]
	cmp	w8, w9, lsl #1
	b.lo	.LBB153_21
	b	.LBB153_33
.LBB153_31:
	ldr	w8, [sp, #3148]
	mov	w9, #34464
	ldr	x10, [sp, #3160]
	movk	w9, #1, lsl #16
	umull	x9, w8, w9
	cmp	x9, x10
	b.hi	.LBB153_34
	ldr	w9, [sp, #3176]
	cmp	w8, w9, lsl #1
	b.hs	.LBB153_34
.LBB153_33:
	mov	w0, #2
	b	.LBB153_18
.LBB153_34:
	mov	w9, #57600
	ldr	x10, [sp, #3168]
	movk	w9, #1525, lsl #16
	umull	x9, w8, w9
	cmp	x9, x10
	b.hi	.LBB153_17
	ldr	w9, [sp, #3180]
	cmp	w8, w9, lsl #1
	b.hs	.LBB153_17
	b	.LBB153_21
.Lfunc_end153:
	.size	squitter_unit_of, .Lfunc_end153-squitter_unit_of

	.section	.text.squitter_doubts,"ax",@progbits
	.globl	squitter_doubts
	.p2align	2
	.type	squitter_doubts,@function
squitter_doubts:
	mov	x8, #-4097
	ldr	x15, [x1, #8]
	movk	x8, #11098, lsl #16
	movk	x8, #65303, lsl #32
	add	x9, x15, x8
	add	x14, x8, #1
	cmp	x9, x14
	b.lo	.LBB154_4
	mov	w9, #360
	ldr	x16, [x1]
	mul	x10, x15, x9
	cmp	x16, #0
	cneg	x9, x16, mi
	cmp	x10, x9
	b.lo	.LBB154_4
	ldr	x17, [x1, #24]
	add	x11, x8, #1
	add	x10, x17, x8
	cmp	x10, x11
	b.lo	.LBB154_4
	mov	w10, #360
	ldr	x18, [x1, #16]
	mul	x11, x17, x10
	cmp	x18, #0
	cneg	x10, x18, mi
	cmp	x11, x10
	b.hs	.LBB154_17
.LBB154_4:
	mov	x9, xzr
	mov	x10, xzr
	mov	x11, xzr
	mov	x12, xzr
	mov	x13, xzr
.LBB154_5:
	sub	sp, sp, #176
	ldr	x15, [x2, #16]
	stp	x29, x30, [sp, #128]
	add	x29, sp, #128
	stp	x22, x21, [sp, #144]
	add	x16, x15, x8
	stp	x20, x19, [sp, #160]
	cmp	x16, x14
	b.lo	.LBB154_9
	mov	w14, #360
	ldr	x16, [x2, #8]
	mul	x17, x15, x14
	cmp	x16, #0
	cneg	x14, x16, mi
	cmp	x17, x14
	b.lo	.LBB154_9
	ldr	x18, [x2, #32]
	add	x1, x8, #1
	add	x17, x18, x8
	cmp	x17, x1
	b.lo	.LBB154_9
	mov	w17, #360
	ldr	x6, [x2, #24]
	mul	x1, x18, x17
	cmp	x6, #0
	cneg	x17, x6, mi
	cmp	x1, x17
	b.hs	.LBB154_20
.LBB154_9:
	mov	x20, xzr
	mov	x14, xzr
	mov	x17, xzr
	mov	x1, xzr
	mov	x5, xzr
	mov	x21, xzr
.LBB154_10:
	stp	x9, x10, [x29, #-40]
	ldr	x10, [x4, #8]
	stp	x11, x12, [x29, #-24]
	add	x12, x8, #1
	add	x11, x10, x8
	stur	x13, [x29, #-8]
	cmp	x11, x12
	stp	x20, x21, [sp, #40]
	stp	x14, x17, [sp, #56]
	stp	x1, x5, [sp, #72]
	b.hs	.LBB154_13
	mov	w19, wzr
.LBB154_12:
	mov	w0, w19
	ldp	x20, x19, [sp, #160]
	ldp	x22, x21, [sp, #144]
	ldp	x29, x30, [sp, #128]
	add	sp, sp, #176
	ret
.LBB154_13:
	mov	w11, #360
	ldr	x12, [x4]
	mul	x11, x10, x11
	cmp	x12, #0
	cneg	x14, x12, mi
	cmp	x11, x14
	b.lo	.LBB154_16
	ldr	x11, [x4, #24]
	add	x13, x11, x8
	add	x8, x8, #1
	cmp	x13, x8
	b.lo	.LBB154_16
	mov	w8, #360
	ldr	x13, [x4, #16]
	mul	x15, x11, x8
	cmp	x13, #0
	cneg	x8, x13, mi
	cmp	x15, x8
	b.hs	.LBB154_23
.LBB154_16:
	mov	w19, wzr
	mov	w0, w19
	ldp	x20, x19, [sp, #160]
	ldp	x22, x21, [sp, #144]
	ldp	x29, x30, [sp, #128]
	add	sp, sp, #176
	ret
.LBB154_17:
	mov	w11, #90
	mul	x11, x15, x11
	cmp	x9, x11
	mov	x9, xzr
	b.hi	.LBB154_31
	mov	w11, #180
	mov	x12, x9
	mov	x13, x9
	mul	x11, x17, x11
	cmp	x10, x11
	mov	x10, x9
	mov	x11, x9
	b.hi	.LBB154_5
	mov	w9, #1
	mov	x10, x16
	mov	x11, x15
	mov	x12, x18
	mov	x13, x17
	b	.LBB154_5
.LBB154_20:
	mov	w1, #90
	mov	x20, xzr
	mul	x1, x15, x1
	cmp	x14, x1
	b.hi	.LBB154_32
	mov	w14, #180
	mov	x1, x20
	mov	x5, x20
	mul	x14, x18, x14
	mov	x21, x20
	cmp	x17, x14
	mov	x14, x20
	mov	x17, x20
	b.hi	.LBB154_10
	ldr	x21, [x2]
	mov	w20, #1
	mov	x14, x16
	mov	x17, x15
	mov	x1, x6
	mov	x5, x18
	b	.LBB154_10
.LBB154_23:
	mov	w15, #90
	mov	w19, wzr
	mul	x15, x10, x15
	cmp	x14, x15
	b.hi	.LBB154_12
	mov	w14, #180
	mul	x14, x11, x14
	cmp	x8, x14
	b.hi	.LBB154_12
	ldp	w8, w22, [x0]
	mov	w19, wzr
	stp	x12, x10, [sp, #8]
	stp	x13, x11, [sp, #24]
	cbz	w8, .LBB154_28
	cbz	w9, .LBB154_28
	sub	x9, x29, #40
	mov	x19, x3
	add	x3, sp, #8
	add	x2, x9, #8
	mov	x0, x8
	mov	w1, #1
	bl	"sq_track::watch::are_apart"
	mov	x3, x19
	mov	w19, w0
.LBB154_28:
	cbz	w22, .LBB154_12
	cbz	w20, .LBB154_12
	subs	x8, x3, x21
	mov	x10, #4480
	mov	w1, #61056
	csel	x8, xzr, x8, lo
	movk	x10, #65481, lsl #16
	add	x3, sp, #8
	mul	x9, x22, x8
	movk	x10, #255, lsl #32
	movk	w1, #54, lsl #16
	umulh	x8, x22, x8
	cmp	x9, x10
	csel	x9, x9, x10, lo
	cmp	x8, #0
	add	x8, sp, #40
	csel	x9, x9, x10, eq
	mov	w10, #61056
	add	x2, x8, #16
	movk	w10, #54, lsl #16
	add	x0, x9, x10
	bl	"sq_track::watch::are_apart"
	mov	w8, #2
	cmp	w0, #0
	csel	w8, w8, wzr, ne
	orr	w19, w8, w19
	mov	w0, w19
	ldp	x20, x19, [sp, #160]
	ldp	x22, x21, [sp, #144]
	ldp	x29, x30, [sp, #128]
	add	sp, sp, #176
	ret
.LBB154_31:
	mov	x10, x9
	mov	x11, x9
	mov	x12, x9
	mov	x13, x9
	b	.LBB154_5
.LBB154_32:
	mov	x14, x20
	mov	x17, x20
	mov	x1, x20
	mov	x5, x20
	mov	x21, x20
	b	.LBB154_10
.Lfunc_end154:
	.size	squitter_doubts, .Lfunc_end154-squitter_doubts

	.section	.rodata.cst16,"aM",@progbits,16
	.p2align	4, 0x0
.LCPI155_0:
	.byte	1
	.byte	2
	.byte	4
	.byte	8
	.byte	16
	.byte	32
	.byte	64
	.byte	128
	.byte	1
	.byte	2
	.byte	4
	.byte	8
	.byte	16
	.byte	32
	.byte	64
	.byte	128
	.section	.text.squitter_tracker_save,"ax",@progbits
	.globl	squitter_tracker_save
	.p2align	2
	.type	squitter_tracker_save,@function
squitter_tracker_save:
	stp	x29, x30, [sp, #-96]!
	str	x28, [sp, #16]
	mov	x29, sp
	stp	x26, x25, [sp, #32]
	stp	x24, x23, [sp, #48]
	stp	x22, x21, [sp, #64]
	stp	x20, x19, [sp, #80]
	sub	sp, sp, #1088
	str	xzr, [sp]
	cmp	x2, #0
	mov	w9, #4096
	ldp	x8, x23, [x0]
	csel	x25, x9, xzr, eq
	stp	xzr, xzr, [x0]
	cbz	x8, .LBB155_19
	ldrb	w8, [x23, #56]
	ldr	x9, [x23, #64]
	mov	x19, x0
	cmp	w8, #1
	csel	x8, x9, xzr, eq
	cset	w9, eq
	stp	x8, x9, [x1]
	ldr	x8, [x23, #224]
	cbz	x8, .LBB155_20
	ldr	w8, [x23, #248]
	ldr	x21, [x23, #80]
	cmp	x21, x8
	b.ls	.LBB155_21
	mov	w9, #296
	ldr	x10, [x23, #72]
	ldr	x11, [x23, #104]
	umaddl	x1, w8, w9, x11
	mov	x26, x2
	add	x0, sp, #192
	ldr	w22, [x10, x8, lsl #2]
	mov	w2, #296
	mov	x20, x3
	bl	memcpy
	cbz	x20, .LBB155_21
	mov	x24, xzr
	add	x25, x26, x25
.LBB155_5:
	mov	x0, sp
	add	x2, sp, #192
	mov	w1, w22
	bl	"squitter_c::entry::plain_entry"
	mov	w8, #192
	ldp	q0, q1, [sp, #128]
	madd	x8, x24, x8, x25
	stp	q0, q1, [x8, #128]
	ldp	q0, q2, [sp, #160]
	stp	q0, q2, [x8, #160]
	ldp	q0, q1, [sp, #64]
	stp	q0, q1, [x8, #64]
	ldp	q0, q2, [sp, #96]
	stp	q0, q2, [x8, #96]
	ldp	q1, q0, [sp]
	stp	q1, q0, [x8]
	ldp	q2, q0, [sp, #32]
	stp	q2, q0, [x8, #32]
	ldr	x21, [x23, #80]
	cmp	x21, #0
	cset	w8, ne
	sub	x8, x21, x8
	cmp	x8, x24
	b.ls	.LBB155_21
	ldr	x12, [x23, #144]
	cbz	x12, .LBB155_21
	mov	w8, w22
	mov	x10, #31773
	ldr	x9, [x23, #208]
	orr	x8, x8, x8, lsl #32
	movk	x10, #32586, lsl #16
	mov	w13, #1
	movk	x10, #31161, lsl #32
	movk	x10, #40503, lsl #48
	eor	x8, x9, x8
	mul	x9, x8, x10
	umulh	x8, x8, x10
	eor	x8, x8, x9
	lsr	x9, x8, #32
	eor	w9, w9, w8
	ldr	x8, [x23, #72]
	lsr	w10, w9, #24
	cmp	w10, #1
	csinc	w11, w10, wzr, hi
	sub	w10, w12, #1
	sub	x12, x12, #1
	dup	v0.16b, w11
	and	w9, w10, w9
	ldr	x10, [x23, #136]
	lsl	w11, w13, w11
	mov	x13, x9
.LBB155_8:
	add	x14, x10, x13, lsl #6
	adrp	x15, .LCPI155_0
	ldr	q2, [x15, :lo12:.LCPI155_0]
	ldr	q1, [x14]
	cmeq	v1.16b, v1.16b, v0.16b
	and	v1.16b, v1.16b, v2.16b
	addp	v1.16b, v1.16b, v1.16b
	addp	v1.16b, v1.16b, v1.16b
	addp	v1.16b, v1.16b, v1.16b
	umov	w15, v1.h[0]
	ands	w16, w15, #0xfff
	b.eq	.LBB155_12
	add	x17, x14, #16
.LBB155_10:
	rbit	w15, w16
	clz	w15, w15
	ldr	w15, [x17, w15, uxtw #2]
	ldr	w18, [x8, x15, lsl #2]
	cmp	w22, w18
	b.eq	.LBB155_14
	sub	w15, w16, #1
	ands	w16, w15, w16
	b.ne	.LBB155_10
.LBB155_12:
	ldr	w14, [x14, #12]
	tst	w14, w11
	b.eq	.LBB155_21
	add	x13, x13, #1
	and	x13, x13, x12
	cmp	x13, x9
	b.ne	.LBB155_8
	b	.LBB155_21
.LBB155_14:
	ldr	x9, [x23, #216]
	movi	v0.2d, #0000000000000000
	str	xzr, [sp, #1072]
	ldr	x9, [x9, x15, lsl #3]
	lsr	x26, x9, #32
	str	q0, [sp, #1056]
	str	q0, [sp, #1040]
	cmp	x21, x26
	stp	q0, q0, [sp, #784]
	stp	q0, q0, [sp, #816]
	stp	q0, q0, [sp, #848]
	stp	q0, q0, [sp, #880]
	stp	q0, q0, [sp, #912]
	stp	q0, q0, [sp, #944]
	stp	q0, q0, [sp, #976]
	stp	q0, q0, [sp, #1008]
	b.ls	.LBB155_16
	mov	w9, #296
	ldr	x10, [x23, #104]
	ldr	w22, [x8, x26, lsl #2]
	umaddl	x1, w26, w9, x10
	add	x0, sp, #784
	mov	w2, #296
	bl	memcpy
	b	.LBB155_17
.LBB155_16:
	mov	w22, wzr
.LBB155_17:
	add	x0, sp, #488
	add	x1, sp, #784
	mov	w2, #296
	bl	memcpy
	add	x0, sp, #192
	add	x1, sp, #488
	mov	w2, #296
	bl	memcpy
	add	x24, x24, #1
	cmp	x24, x20
	b.hs	.LBB155_21
	cmp	x21, x26
	b.hi	.LBB155_5
	b	.LBB155_21
.LBB155_19:
	mov	x21, xzr
	b	.LBB155_22
.LBB155_20:
	ldr	x21, [x23, #80]
.LBB155_21:
	mov	w8, #1
	stp	x8, x23, [x19]
.LBB155_22:
	mov	x0, x21
	add	sp, sp, #1088
	ldp	x20, x19, [sp, #80]
	ldr	x28, [sp, #16]
	ldp	x22, x21, [sp, #64]
	ldp	x24, x23, [sp, #48]
	ldp	x26, x25, [sp, #32]
	ldp	x29, x30, [sp], #96
	ret
.Lfunc_end155:
	.size	squitter_tracker_save, .Lfunc_end155-squitter_tracker_save

	.section	.text.squitter_tracker_present,"ax",@progbits
	.globl	squitter_tracker_present
	.p2align	2
	.type	squitter_tracker_present,@function
squitter_tracker_present:
	cmp	x3, #0
	mov	w8, #4096
	csel	x8, x8, xzr, eq
	add	x3, x3, x8
	b	"squitter_c::tracker_present::squitter_tracker_present"
.Lfunc_end156:
	.size	squitter_tracker_present, .Lfunc_end156-squitter_tracker_present

	.section	.text.squitter_log_present,"ax",@progbits
	.globl	squitter_log_present
	.p2align	2
	.type	squitter_log_present,@function
squitter_log_present:
	cmp	x3, #0
	mov	w8, #4096
	csel	x8, x8, xzr, eq
	add	x3, x3, x8
	b	"squitter_c::tracker_present::squitter_tracker_present"
.Lfunc_end157:
	.size	squitter_log_present, .Lfunc_end157-squitter_log_present

	.section	.text.squitter_log_finish,"ax",@progbits
	.globl	squitter_log_finish
	.p2align	2
	.type	squitter_log_finish,@function
squitter_log_finish:
	sub	sp, sp, #368
	stp	x24, x23, [sp, #320]
	ldp	x8, x24, [x0]
	cmp	x1, #0
	mov	w9, #4096
	stp	x26, x25, [sp, #304]
	csel	x26, x9, xzr, eq
	stp	x29, x30, [sp, #272]
	add	x29, sp, #272
	str	x28, [sp, #288]
	stp	x22, x21, [sp, #336]
	stp	x20, x19, [sp, #352]
	stp	xzr, xzr, [x0]
	cbz	x8, .LBB158_5
	ldr	x8, [x24, #264]
	mov	x19, x0
	tbnz	x8, #63, .LBB158_6
	ldr	q0, [x24, #272]
	add	x9, sp, #16
	mov	x21, x2
	mov	x22, x1
	mov	x20, x3
	adrp	x2, .Lstatic.0
	add	x2, x2, :lo12:.Lstatic.0
	stur	q0, [sp, #40]
	sub	x0, x29, #24
	ldp	q0, q2, [x24, #288]
	ldr	q1, [x24, #320]
	add	x1, sp, #16
	add	x4, x22, x26
	mov	x3, xzr
	stur	q1, [sp, #88]
	mov	x5, x21
	mov	x6, xzr
	stur	q0, [sp, #56]
	add	x25, sp, #16
	stur	q2, [sp, #72]
	ldp	q1, q0, [x24, #368]
	stp	xzr, xzr, [x29, #-16]
	ldp	q2, q3, [x24, #336]
	stp	xzr, xzr, [x29, #-32]
	stp	xzr, xzr, [x29, #-48]
	stur	q0, [x9, #136]
	stur	q1, [x9, #120]
	stur	q3, [sp, #120]
	stur	q2, [sp, #104]
	ldp	q1, q0, [x24, #416]
	ldr	q2, [x24, #400]
	ldr	x10, [x24, #448]
	stp	x24, x2, [sp, #16]
	stur	q2, [x9, #152]
	stur	q0, [x9, #184]
	stur	q1, [x9, #168]
	str	x10, [sp, #216]
	str	x8, [sp, #32]
	bl	"squitter_c::log_loop::write_some::<#4e49cecb6d0bb978>"
	ldurb	w9, [x29, #-8]
	ldp	x8, x23, [x29, #-24]
	cmp	w9, #1
	b.eq	.LBB158_7
	cmp	w9, #2
	b.ne	.LBB158_12
	mov	w0, #44
	b	.LBB158_8
.LBB158_5:
	mov	w0, #46
	b	.LBB158_11
.LBB158_6:
	mov	w0, #48
	b	.LBB158_10
.LBB158_7:
	mov	x0, xzr
.LBB158_8:
	stp	x8, x23, [x29, #-48]
.LBB158_9:
	ldr	x8, [sp, #32]
	str	x8, [x24, #264]
	ldur	q0, [x25, #24]
	str	q0, [x24, #272]
	ldur	q0, [x25, #136]
	ldur	q1, [x25, #120]
	ldur	q2, [x25, #104]
	ldur	q3, [x25, #88]
	stp	q1, q0, [x24, #368]
	stp	q3, q2, [x24, #336]
	ldur	q0, [x25, #152]
	ldur	q1, [x25, #168]
	ldur	x8, [x25, #200]
	ldur	q2, [x25, #184]
	stp	q0, q1, [x24, #400]
	ldur	q0, [x29, #-48]
	str	x8, [x24, #448]
	str	q2, [x24, #432]
	ldur	q1, [x25, #72]
	str	q0, [sp]
	ldur	q0, [x25, #56]
	ldur	q2, [x25, #40]
	stp	q0, q1, [x24, #304]
	ldr	q1, [sp]
	str	q2, [x24, #288]
	str	q1, [x20]
.LBB158_10:
	mov	w8, #1
	stp	x8, x24, [x19]
.LBB158_11:
	ldp	x20, x19, [sp, #352]
	mov	x1, xzr
	ldp	x22, x21, [sp, #336]
	ldr	x28, [sp, #288]
	ldp	x24, x23, [sp, #320]
	ldp	x26, x25, [sp, #304]
	ldp	x29, x30, [sp, #272]
	add	sp, sp, #368
	ret
.LBB158_12:
	add	x8, sp, #16
	add	x0, x8, #40
	bl	"sq_log::marked_bytes::MarkedBytes::close"
	adrp	x2, .Lstatic.0
	add	x2, x2, :lo12:.Lstatic.0
	sub	x0, x29, #48
	add	x1, sp, #16
	add	x4, x22, x26
	mov	x3, xzr
	mov	x5, x21
	mov	x6, x23
	bl	"squitter_c::log_loop::write_some::<#4e49cecb6d0bb978>"
	ldurb	w8, [x29, #-32]
	cmp	w8, #2
	mov	w8, #44
	csel	x0, x8, xzr, eq
	b	.LBB158_9
.Lfunc_end158:
	.size	squitter_log_finish, .Lfunc_end158-squitter_log_finish

	.section	.text.squitter_log_finish_text,"ax",@progbits
	.globl	squitter_log_finish_text
	.p2align	2
	.type	squitter_log_finish_text,@function
squitter_log_finish_text:
	stp	x29, x30, [sp, #-96]!
	str	x28, [sp, #16]
	mov	x29, sp
	stp	x26, x25, [sp, #32]
	stp	x24, x23, [sp, #48]
	stp	x22, x21, [sp, #64]
	stp	x20, x19, [sp, #80]
	sub	sp, sp, #800
	ldp	x8, x21, [x0]
	cmp	x2, #0
	mov	w9, #4096
	stp	xzr, xzr, [x0]
	csel	x24, x9, xzr, eq
	cbz	x8, .LBB159_6
	cmp	w1, #2
	str	xzr, [sp]
	b.hi	.LBB159_7
	ubfiz	x8, x1, #3, #21
	mov	w9, #256
	mov	w10, #65536
	movk	w9, #1, lsl #16
	mov	x25, x2
	mov	x22, x0
	lsr	w9, w9, w8
	lsr	w8, w10, w8
	mov	w1, wzr
	mov	w2, #520
	mov	x19, x3
	mov	x23, x4
	strb	w8, [sp, #1]
	mov	x8, sp
	add	x0, x8, #8
	strb	w9, [sp]
	bl	memset
	ldr	x8, [x21, #264]
	tbnz	x8, #63, .LBB159_8
	ldr	q0, [x21, #272]
	sub	x9, x29, #256
	adrp	x3, .Lstatic.0
	add	x3, x3, :lo12:.Lstatic.0
	sub	x0, x29, #24
	sub	x1, x29, #256
	stur	q0, [x9, #24]
	mov	x2, sp
	add	x5, x25, x24
	ldp	q0, q2, [x21, #288]
	ldr	q1, [x21, #320]
	mov	x4, xzr
	mov	x6, x19
	mov	x7, xzr
	stur	q1, [x9, #72]
	sub	x26, x29, #256
	stur	q0, [x9, #40]
	stur	q2, [x9, #56]
	ldp	q1, q0, [x21, #368]
	stp	xzr, xzr, [x29, #-16]
	ldp	q2, q3, [x21, #336]
	stp	xzr, xzr, [x29, #-32]
	stur	xzr, [x29, #-40]
	stur	q0, [x9, #136]
	stur	q1, [x9, #120]
	stur	q3, [x9, #104]
	stur	q2, [x9, #88]
	ldp	q1, q0, [x21, #416]
	ldr	q2, [x21, #400]
	ldr	x10, [x21, #448]
	stp	x21, x3, [x29, #-256]
	stur	q2, [x9, #152]
	stur	q0, [x9, #184]
	stur	q1, [x9, #168]
	stp	x10, xzr, [x29, #-56]
	stur	x8, [x29, #-240]
	bl	"squitter_c::log_loop::write_some::<#507aa2edf0378fed>"
	ldurb	w8, [x29, #-8]
	ldp	x10, x20, [x29, #-24]
	cmp	w8, #1
	b.eq	.LBB159_9
	cmp	w8, #2
	b.ne	.LBB159_14
	mov	x0, x22
	mov	x9, x23
	mov	w8, #44
	stp	x10, x20, [x29, #-48]
	b	.LBB159_11
.LBB159_6:
	mov	w8, #46
	b	.LBB159_13
.LBB159_7:
	mov	w8, #49
	b	.LBB159_12
.LBB159_8:
	mov	w8, #48
	mov	x0, x22
	b	.LBB159_12
.LBB159_9:
	mov	x8, xzr
	stp	x10, x20, [x29, #-48]
.LBB159_10:
	mov	x0, x22
	mov	x9, x23
.LBB159_11:
	ldur	x10, [x29, #-240]
	str	x10, [x21, #264]
	ldur	q0, [x26, #24]
	str	q0, [x21, #272]
	ldur	q0, [x26, #136]
	ldur	q1, [x26, #120]
	ldur	q2, [x26, #104]
	ldur	q3, [x26, #88]
	stp	q1, q0, [x21, #368]
	stp	q3, q2, [x21, #336]
	ldur	q0, [x26, #152]
	ldur	q1, [x26, #168]
	ldur	x10, [x26, #200]
	ldur	q2, [x26, #184]
	stp	q0, q1, [x21, #400]
	ldur	q0, [x29, #-48]
	str	x10, [x21, #448]
	str	q2, [x21, #432]
	ldur	q1, [x26, #72]
	str	q0, [sp, #528]
	ldur	q0, [x26, #56]
	ldur	q2, [x26, #40]
	stp	q0, q1, [x21, #304]
	ldr	q1, [sp, #528]
	str	q2, [x21, #288]
	str	q1, [x9]
.LBB159_12:
	mov	w9, #1
	stp	x9, x21, [x0]
.LBB159_13:
	mov	x0, x8
	mov	x1, xzr
	add	sp, sp, #800
	ldp	x20, x19, [sp, #80]
	ldr	x28, [sp, #16]
	ldp	x22, x21, [sp, #64]
	ldp	x24, x23, [sp, #48]
	ldp	x26, x25, [sp, #32]
	ldp	x29, x30, [sp], #96
	ret
.LBB159_14:
	sub	x8, x29, #256
	add	x0, x8, #40
	bl	"sq_log::marked_bytes::MarkedBytes::close"
	adrp	x3, .Lstatic.0
	add	x3, x3, :lo12:.Lstatic.0
	sub	x0, x29, #48
	sub	x1, x29, #256
	mov	x2, sp
	add	x5, x25, x24
	mov	x4, xzr
	mov	x6, x19
	mov	x7, x20
	bl	"squitter_c::log_loop::write_some::<#507aa2edf0378fed>"
	ldurb	w8, [x29, #-32]
	cmp	w8, #2
	mov	w8, #44
	csel	x8, x8, xzr, eq
	b	.LBB159_10
.Lfunc_end159:
	.size	squitter_log_finish_text, .Lfunc_end159-squitter_log_finish_text

	.section	.text.squitter_log_take,"ax",@progbits
	.globl	squitter_log_take
	.p2align	2
	.type	squitter_log_take,@function
squitter_log_take:
	sub	sp, sp, #320
	stp	x20, x19, [sp, #304]
	cmp	x1, #0
	mov	w8, #4096
	ldp	x11, x19, [x0]
	csel	x9, x8, xzr, eq
	cmp	x3, #0
	stp	x29, x30, [sp, #256]
	add	x29, sp, #256
	csel	x10, x8, xzr, eq
	str	x28, [sp, #272]
	stp	x22, x21, [sp, #288]
	stp	xzr, xzr, [x0]
	cbz	x11, .LBB160_5
	mov	x8, #2305843009213693952
	cmp	x2, x8
	mov	w8, #48
	b.hi	.LBB160_4
	ldr	x11, [x19, #264]
	tbnz	x11, #63, .LBB160_4
	ldr	q0, [x19, #272]
	add	x20, sp, #48
	adrp	x8, .Lstatic.0
	add	x8, x8, :lo12:.Lstatic.0
	mov	x21, x0
	add	x0, sp, #24
	stur	q0, [sp, #72]
	mov	x22, x5
	mov	x6, xzr
	ldp	q1, q0, [x19, #304]
	ldr	q2, [x19, #288]
	stp	xzr, xzr, [sp, #24]
	stur	q2, [sp, #88]
	stur	q0, [sp, #120]
	stur	q1, [sp, #104]
	ldp	q1, q0, [x19, #368]
	str	xzr, [sp, #40]
	ldp	q2, q3, [x19, #336]
	stur	q0, [x20, #136]
	stur	q1, [x20, #120]
	stur	q3, [x20, #104]
	stur	q2, [x20, #88]
	ldp	q0, q1, [x19, #400]
	ldr	q2, [x19, #432]
	ldr	x12, [x19, #448]
	str	x11, [sp, #64]
	stp	x19, x8, [sp, #48]
	mov	x8, x2
	add	x2, x1, x9
	mov	x9, x4
	add	x1, sp, #48
	add	x4, x3, x10
	mov	x3, x8
	mov	x5, x9
	stur	q2, [x20, #184]
	stur	q1, [x20, #168]
	stur	q0, [x20, #152]
	str	x12, [sp, #248]
	bl	"squitter_c::log_loop::write_some::<#4e49cecb6d0bb978>"
	ldr	x8, [sp, #64]
	mov	w9, #44
	mov	x0, x21
	str	x8, [x19, #264]
	ldur	q0, [sp, #72]
	str	q0, [x19, #272]
	ldur	q0, [x20, #136]
	ldur	q1, [x20, #120]
	ldur	q2, [x20, #104]
	ldur	q3, [x20, #88]
	stp	q1, q0, [x19, #368]
	stp	q3, q2, [x19, #336]
	ldr	x8, [sp, #248]
	ldur	q0, [x20, #152]
	ldur	q1, [x20, #168]
	ldur	q2, [x20, #184]
	str	x8, [x19, #448]
	ldrb	w8, [sp, #40]
	stp	q0, q1, [x19, #400]
	ldur	q0, [sp, #24]
	str	q2, [x19, #432]
	cmp	w8, #2
	ldur	q1, [sp, #120]
	ldur	q2, [sp, #104]
	ldur	q3, [sp, #88]
	csel	x8, x9, xzr, eq
	str	q0, [sp]
	stp	q2, q1, [x19, #304]
	str	q3, [x19, #288]
	str	q0, [x22]
.LBB160_4:
	mov	w9, #1
	stp	x9, x19, [x0]
	b	.LBB160_6
.LBB160_5:
	mov	w8, #46
.LBB160_6:
	ldp	x20, x19, [sp, #304]
	mov	x0, x8
	ldp	x22, x21, [sp, #288]
	mov	x1, xzr
	ldp	x29, x30, [sp, #256]
	ldr	x28, [sp, #272]
	add	sp, sp, #320
	ret
.Lfunc_end160:
	.size	squitter_log_take, .Lfunc_end160-squitter_log_take

	.section	.text.squitter_log_take_text,"ax",@progbits
	.globl	squitter_log_take_text
	.p2align	2
	.type	squitter_log_take_text,@function
squitter_log_take_text:
	stp	x29, x30, [sp, #-96]!
	stp	x28, x27, [sp, #16]
	mov	x29, sp
	stp	x26, x25, [sp, #32]
	stp	x24, x23, [sp, #48]
	stp	x22, x21, [sp, #64]
	stp	x20, x19, [sp, #80]
	sub	sp, sp, #800
	cmp	x2, #0
	mov	w8, #4096
	ldp	x9, x21, [x0]
	csel	x24, x8, xzr, eq
	cmp	x4, #0
	stp	xzr, xzr, [x0]
	csel	x25, x8, xzr, eq
	cbz	x9, .LBB161_6
	cmp	w1, #2
	str	xzr, [sp]
	b.hi	.LBB161_7
	ubfiz	x8, x1, #3, #21
	mov	w9, #256
	mov	w10, #65536
	movk	w9, #1, lsl #16
	mov	x28, x2
	mov	x22, x0
	lsr	w9, w9, w8
	lsr	w8, w10, w8
	mov	w1, wzr
	mov	w2, #520
	mov	x19, x3
	mov	x27, x4
	strb	w8, [sp, #1]
	mov	x8, sp
	mov	x20, x5
	add	x0, x8, #8
	mov	x23, x6
	strb	w9, [sp]
	bl	memset
	mov	x8, #2305843009213693952
	cmp	x19, x8
	mov	w8, #48
	b.hi	.LBB161_5
	ldr	x9, [x21, #264]
	tbnz	x9, #63, .LBB161_5
	ldr	q0, [x21, #272]
	sub	x26, x29, #248
	adrp	x8, .Lstatic.0
	add	x8, x8, :lo12:.Lstatic.0
	sub	x0, x29, #248
	sub	x1, x29, #224
	stur	q0, [x26, #48]
	mov	x2, sp
	add	x3, x28, x24
	ldp	q1, q0, [x21, #304]
	ldr	q2, [x21, #288]
	add	x5, x27, x25
	mov	x4, x19
	mov	x6, x20
	stur	q2, [x26, #64]
	mov	x7, xzr
	stp	q1, q0, [x26, #80]
	ldp	q1, q0, [x21, #368]
	stp	xzr, xzr, [x29, #-248]
	ldp	q2, q3, [x21, #336]
	stur	xzr, [x29, #-232]
	stp	q1, q0, [x26, #144]
	stp	q2, q3, [x26, #112]
	ldp	q0, q1, [x21, #400]
	ldr	q2, [x21, #432]
	ldr	x10, [x21, #448]
	stp	x21, x8, [x29, #-224]
	stur	x9, [x29, #-208]
	stp	q1, q2, [x26, #192]
	stur	q0, [x26, #176]
	stur	x10, [x29, #-24]
	bl	"squitter_c::log_loop::write_some::<#507aa2edf0378fed>"
	ldur	x8, [x29, #-208]
	mov	w9, #44
	str	x8, [x21, #264]
	ldur	q0, [x26, #48]
	str	q0, [x21, #272]
	ldp	q1, q0, [x26, #144]
	ldp	q3, q2, [x26, #112]
	stp	q1, q0, [x21, #368]
	stp	q3, q2, [x21, #336]
	ldp	q0, q1, [x26, #176]
	ldur	x8, [x29, #-24]
	ldur	q2, [x26, #208]
	str	x8, [x21, #448]
	ldurb	w8, [x29, #-232]
	stp	q0, q1, [x21, #400]
	ldr	q0, [x26]
	str	q2, [x21, #432]
	cmp	w8, #2
	ldp	q2, q1, [x26, #80]
	ldur	q3, [x26, #64]
	csel	x8, x9, xzr, eq
	str	q0, [sp, #528]
	str	q3, [x21, #288]
	stp	q2, q1, [x21, #304]
	str	q0, [x23]
.LBB161_5:
	mov	x0, x22
	b	.LBB161_8
.LBB161_6:
	mov	w8, #46
	b	.LBB161_9
.LBB161_7:
	mov	w8, #49
.LBB161_8:
	mov	w9, #1
	stp	x9, x21, [x0]
.LBB161_9:
	mov	x0, x8
	mov	x1, xzr
	add	sp, sp, #800
	ldp	x20, x19, [sp, #80]
	ldp	x22, x21, [sp, #64]
	ldp	x24, x23, [sp, #48]
	ldp	x26, x25, [sp, #32]
	ldp	x28, x27, [sp, #16]
	ldp	x29, x30, [sp], #96
	ret
.Lfunc_end161:
	.size	squitter_log_take_text, .Lfunc_end161-squitter_log_take_text

	.section	.text.squitter_zone_count,"ax",@progbits
	.globl	squitter_zone_count
	.p2align	2
	.type	squitter_zone_count,@function
squitter_zone_count:
	mov	x8, #-4097
	ldr	x2, [x0, #8]
	movk	x8, #11098, lsl #16
	movk	x8, #65303, lsl #32
	add	x9, x2, x8
	add	x8, x8, #1
	cmp	x9, x8
	b.hs	.LBB162_2
	mov	w0, #23
	mov	x1, xzr
	ret
.LBB162_2:
	mov	w8, #360
	ldr	x10, [x0]
	mul	x9, x2, x8
	mov	w8, #90
	cmp	x10, #0
	mul	x11, x2, x8
	cneg	x8, x10, mi
	cmp	x9, x8
	ccmp	x8, x11, #2, hs
	b.ls	.LBB162_4
	mov	w0, #23
	mov	x1, xzr
	ret
.LBB162_4:
	mov	w9, #57600
	movk	w9, #1525, lsl #16
	mul	x10, x8, x9
	umulh	x8, x8, x9
	sub	x9, x2, #1
	adds	x0, x10, x9
	and	x9, x2, #0xffffffffff
	cinc	x8, x8, hs
	tst	x9, #0xffffffffff01ffff
	b.ne	.LBB162_8
	extr	x9, x8, x0, #56
	cbnz	x9, .LBB162_8
	lsr	x8, x2, #14
	adrp	x10, .Lstatic.40
	add	x10, x10, :lo12:.Lstatic.40
	lsr	x9, x0, #17
	ldr	x8, [x10, x8]
	mul	x10, x8, x9
	umulh	x8, x8, x9
	extr	x8, x8, x10, #48
.LBB162_7:
	lsr	x9, x8, #25
	adrp	x10, .Lstatic.41
	add	x10, x10, :lo12:.Lstatic.41
	mov	x0, xzr
	ldrb	w9, [x10, x9]
	adrp	x10, .Lstatic.42
	add	x10, x10, :lo12:.Lstatic.42
	ldr	x10, [x10, x9, lsl #3]
	cmp	x8, x10
	cset	w8, ls
	sub	w8, w8, w9
	add	w8, w8, #58
	strb	w8, [x1]
	mov	x1, xzr
	ret
.LBB162_8:
	stp	x29, x30, [sp, #-32]!
	str	x19, [sp, #16]
	mov	x19, x1
	mov	x1, x8
	mov	x29, sp
	bl	"sq_angle::quotients::divided"
	mov	x1, x19
	ldr	x19, [sp, #16]
	mov	x8, x0
	ldp	x29, x30, [sp], #32
	b	.LBB162_7
.Lfunc_end162:
	.size	squitter_zone_count, .Lfunc_end162-squitter_zone_count

	.section	.text.squitter_local_zones,"ax",@progbits
	.globl	squitter_local_zones
	.p2align	2
	.type	squitter_local_zones,@function
squitter_local_zones:
	sub	sp, sp, #96
	stp	x20, x19, [sp, #80]
	mov	x19, x2
	mov	x2, x1
	mov	x1, x0
	mov	x0, sp
	stp	x29, x30, [sp, #32]
	str	x23, [sp, #48]
	add	x29, sp, #32
	stp	x22, x21, [sp, #64]
	bl	"squitter_c::decode::near"
	ldrb	w8, [sp]
	ldrb	w21, [sp, #8]
	ldr	x20, [sp, #16]
	cbz	w8, .LBB163_4
	adrp	x12, .LJTI163_0
	add	x12, x12, :lo12:.LJTI163_0
	ldrb	w8, [sp, #9]
	ldrb	w10, [sp, #10]
	ldrb	w11, [sp, #11]
	ldr	x9, [sp, #24]
	adr	x13, .LBB163_2
	ldrb	w14, [x12, x21]
	add	x13, x13, x14, lsl #2
	mov	w0, #20
	mov	x1, xzr
	br	x13
.LBB163_2:
	and	x8, x20, #0xff
	adrp	x10, .LJTI163_1
	add	x10, x10, :lo12:.LJTI163_1
	adr	x11, .LBB163_3
	ldrh	w12, [x10, x8, lsl #1]
	add	x11, x11, x12, lsl #2
	mov	w0, #1
	mov	x1, xzr
	br	x11
.LBB163_3:
	mov	x1, xzr
	mov	w0, #40
	ldp	x20, x19, [sp, #80]
	ldr	x23, [sp, #48]
	ldp	x22, x21, [sp, #64]
	ldp	x29, x30, [sp, #32]
	add	sp, sp, #96
	ret
.LBB163_4:
	mov	w8, #60
	ldrb	w10, [sp, #4]
	ldrsw	x23, [sp, #12]
	sub	w22, w8, w21
	and	x8, x22, #0xff
	lsl	x2, x8, #17
	sub	x9, x2, #1
	cbz	w10, .LBB163_8
	mov	w10, #90
	mov	w11, #57600
	smull	x10, w23, w10
	movk	w11, #1525, lsl #16
	cmp	x10, #0
	cneg	x10, x10, mi
	mul	x12, x10, x11
	umulh	x10, x10, x11
	adds	x0, x12, x9
	cinc	x1, x10, hs
	extr	x9, x1, x0, #56
	cbnz	x9, .LBB163_32
	adrp	x10, .Lstatic.40
	add	x10, x10, :lo12:.Lstatic.40
	lsr	x9, x0, #17
	ldr	x8, [x10, x8, lsl #3]
	mul	x10, x8, x9
	umulh	x8, x8, x9
	extr	x0, x8, x10, #48
.LBB163_7:
	lsr	x8, x0, #25
	adrp	x9, .Lstatic.41
	add	x9, x9, :lo12:.Lstatic.41
	ldrb	w8, [x9, x8]
	adrp	x9, .Lstatic.42
	add	x9, x9, :lo12:.Lstatic.42
	ldr	x9, [x9, x8, lsl #3]
	cmp	x0, x9
	cset	w9, ls
	sub	w8, w9, w8
	mov	w9, #90
	b	.LBB163_11
.LBB163_8:
	mov	w10, #360
	mov	w11, #57600
	smull	x10, w23, w10
	movk	w11, #1525, lsl #16
	cmp	x10, #0
	cneg	x10, x10, mi
	mul	x12, x10, x11
	umulh	x10, x10, x11
	adds	x0, x12, x9
	cinc	x1, x10, hs
	extr	x9, x1, x0, #56
	cbnz	x9, .LBB163_35
	adrp	x10, .Lstatic.40
	add	x10, x10, :lo12:.Lstatic.40
	lsr	x9, x0, #17
	ldr	x8, [x10, x8, lsl #3]
	mul	x10, x8, x9
	umulh	x8, x8, x9
	extr	x0, x8, x10, #48
.LBB163_10:
	lsr	x8, x0, #25
	adrp	x9, .Lstatic.41
	add	x9, x9, :lo12:.Lstatic.41
	ldrb	w8, [x9, x8]
	adrp	x9, .Lstatic.42
	add	x9, x9, :lo12:.Lstatic.42
	ldr	x9, [x9, x8, lsl #3]
	cmp	x0, x9
	cset	w9, ls
	sub	w8, w9, w8
	mov	w9, #360
.LBB163_11:
	asr	w10, w23, #17
	lsr	x11, x20, #49
	add	w8, w8, #58
	mov	x0, xzr
	mov	x1, xzr
	strb	w22, [x19, #12]
	stp	w11, w9, [x19, #4]
	str	w10, [x19]
	strb	w8, [x19, #13]
	strb	w20, [x19, #14]
	strb	w21, [x19, #15]
.LBB163_12:
	ldp	x20, x19, [sp, #80]
	ldr	x23, [sp, #48]
	ldp	x22, x21, [sp, #64]
	ldp	x29, x30, [sp, #32]
	add	sp, sp, #96
	ret
.LBB163_13:
	mov	w0, #50
	mov	x1, x20
	ldp	x20, x19, [sp, #80]
	ldr	x23, [sp, #48]
	ldp	x22, x21, [sp, #64]
	ldp	x29, x30, [sp, #32]
	add	sp, sp, #96
	ret
.LBB163_14:
	mov	x1, xzr
	mov	w0, #46
	ldp	x20, x19, [sp, #80]
	ldr	x23, [sp, #48]
	ldp	x22, x21, [sp, #64]
	ldp	x29, x30, [sp, #32]
	add	sp, sp, #96
	ret
.LBB163_15:
	mov	x1, xzr
	mov	w0, #21
	ldp	x20, x19, [sp, #80]
	ldr	x23, [sp, #48]
	ldp	x22, x21, [sp, #64]
	ldp	x29, x30, [sp, #32]
	add	sp, sp, #96
	ret
.LBB163_16:
	mov	x1, xzr
	mov	w0, #48
	ldp	x20, x19, [sp, #80]
	ldr	x23, [sp, #48]
	ldp	x22, x21, [sp, #64]
	ldp	x29, x30, [sp, #32]
	add	sp, sp, #96
	ret
.LBB163_17:
	mov	x1, xzr
	mov	w0, #44
	ldp	x20, x19, [sp, #80]
	ldr	x23, [sp, #48]
	ldp	x22, x21, [sp, #64]
	ldp	x29, x30, [sp, #32]
	add	sp, sp, #96
	ret
.LBB163_18:
	cmp	w8, #2
	b.le	.LBB163_29
	cmp	w8, #4
	b.gt	.LBB163_33
	cmp	w8, #3
	b.ne	.LBB163_38
	mov	x1, xzr
	mov	w0, #13
	ldp	x20, x19, [sp, #80]
	ldr	x23, [sp, #48]
	ldp	x22, x21, [sp, #64]
	ldp	x29, x30, [sp, #32]
	add	sp, sp, #96
	ret
.LBB163_22:
	mov	x1, xzr
	add	x0, x8, #30
	ldp	x20, x19, [sp, #80]
	ldr	x23, [sp, #48]
	ldp	x22, x21, [sp, #64]
	ldp	x29, x30, [sp, #32]
	add	sp, sp, #96
	ret
.LBB163_23:
	mov	x1, xzr
	mov	w0, #24
	ldp	x20, x19, [sp, #80]
	ldr	x23, [sp, #48]
	ldp	x22, x21, [sp, #64]
	ldp	x29, x30, [sp, #32]
	add	sp, sp, #96
	ret
.LBB163_24:
	mov	x1, xzr
	mov	w0, #22
	ldp	x20, x19, [sp, #80]
	ldr	x23, [sp, #48]
	ldp	x22, x21, [sp, #64]
	ldp	x29, x30, [sp, #32]
	add	sp, sp, #96
	ret
.LBB163_25:
	mov	x1, xzr
	mov	w0, #49
	ldp	x20, x19, [sp, #80]
	ldr	x23, [sp, #48]
	ldp	x22, x21, [sp, #64]
	ldp	x29, x30, [sp, #32]
	add	sp, sp, #96
	ret
.LBB163_26:
	mov	x1, xzr
	mov	w0, #23
	ldp	x20, x19, [sp, #80]
	ldr	x23, [sp, #48]
	ldp	x22, x21, [sp, #64]
	ldp	x29, x30, [sp, #32]
	add	sp, sp, #96
	ret
.LBB163_27:
	mov	x1, xzr
	mov	w0, #45
	ldp	x20, x19, [sp, #80]
	ldr	x23, [sp, #48]
	ldp	x22, x21, [sp, #64]
	ldp	x29, x30, [sp, #32]
	add	sp, sp, #96
	ret
.LBB163_28:
	mov	x1, xzr
	mov	w0, #25
	ldp	x20, x19, [sp, #80]
	ldr	x23, [sp, #48]
	ldp	x22, x21, [sp, #64]
	ldp	x29, x30, [sp, #32]
	add	sp, sp, #96
	ret
.LBB163_29:
	cbz	w8, .LBB163_36
	cmp	w8, #1
	b.ne	.LBB163_37
	mov	x1, xzr
	mov	w0, #11
	ldp	x20, x19, [sp, #80]
	ldr	x23, [sp, #48]
	ldp	x22, x21, [sp, #64]
	ldp	x29, x30, [sp, #32]
	add	sp, sp, #96
	ret
.LBB163_32:
	bl	"sq_angle::quotients::divided"
	b	.LBB163_7
.LBB163_33:
	cmp	w8, #5
	b.ne	.LBB163_39
	mov	x1, xzr
	mov	w0, #15
	ldp	x20, x19, [sp, #80]
	ldr	x23, [sp, #48]
	ldp	x22, x21, [sp, #64]
	ldp	x29, x30, [sp, #32]
	add	sp, sp, #96
	ret
.LBB163_35:
	bl	"sq_angle::quotients::divided"
	b	.LBB163_10
.LBB163_36:
	mov	w0, #10
	mov	x1, x8
	ldp	x20, x19, [sp, #80]
	ldr	x23, [sp, #48]
	ldp	x22, x21, [sp, #64]
	ldp	x29, x30, [sp, #32]
	add	sp, sp, #96
	ret
.LBB163_37:
	mov	x1, xzr
	mov	w0, #12
	ldp	x20, x19, [sp, #80]
	ldr	x23, [sp, #48]
	ldp	x22, x21, [sp, #64]
	ldp	x29, x30, [sp, #32]
	add	sp, sp, #96
	ret
.LBB163_38:
	mov	x1, xzr
	mov	w0, #14
	ldp	x20, x19, [sp, #80]
	ldr	x23, [sp, #48]
	ldp	x22, x21, [sp, #64]
	ldp	x29, x30, [sp, #32]
	add	sp, sp, #96
	ret
.LBB163_39:
	mov	w8, #16
	mov	x1, x10
	orr	x0, x8, x11, lsl #32
	ldp	x20, x19, [sp, #80]
	ldr	x23, [sp, #48]
	ldp	x22, x21, [sp, #64]
	ldp	x29, x30, [sp, #32]
	add	sp, sp, #96
	ret
.LBB163_40:
	mov	w0, #3
	b	.LBB163_48
.LBB163_41:
	mov	x1, xzr
	mov	w0, #43
	ldp	x20, x19, [sp, #80]
	ldr	x23, [sp, #48]
	ldp	x22, x21, [sp, #64]
	ldp	x29, x30, [sp, #32]
	add	sp, sp, #96
	ret
.LBB163_42:
	mov	x1, xzr
	mov	w0, #41
	ldp	x20, x19, [sp, #80]
	ldr	x23, [sp, #48]
	ldp	x22, x21, [sp, #64]
	ldp	x29, x30, [sp, #32]
	add	sp, sp, #96
	ret
.LBB163_43:
	mov	x1, xzr
	mov	w0, #2
	ldp	x20, x19, [sp, #80]
	ldr	x23, [sp, #48]
	ldp	x22, x21, [sp, #64]
	ldp	x29, x30, [sp, #32]
	add	sp, sp, #96
	ret
.LBB163_44:
	lsr	x1, x20, #32
	mov	w0, #6
	ldp	x20, x19, [sp, #80]
	ldr	x23, [sp, #48]
	ldp	x22, x21, [sp, #64]
	ldp	x29, x30, [sp, #32]
	add	sp, sp, #96
	ret
.LBB163_45:
	mov	w0, #4
	b	.LBB163_48
.LBB163_46:
	ubfx	x1, x20, #8, #8
	mov	w0, #5
	ldp	x20, x19, [sp, #80]
	ldr	x23, [sp, #48]
	ldp	x22, x21, [sp, #64]
	ldp	x29, x30, [sp, #32]
	add	sp, sp, #96
	ret
.LBB163_47:
	mov	w0, #42
.LBB163_48:
	mov	x1, x9
	ldp	x20, x19, [sp, #80]
	ldr	x23, [sp, #48]
	ldp	x22, x21, [sp, #64]
	ldp	x29, x30, [sp, #32]
	add	sp, sp, #96
	ret
.Lfunc_end163:
	.size	squitter_local_zones, .Lfunc_end163-squitter_local_zones
	.section	.rodata.squitter_local_zones,"a",@progbits
.LJTI163_0:
	.byte	(.LBB163_2-.LBB163_2)>>2
	.byte	(.LBB163_18-.LBB163_2)>>2
	.byte	(.LBB163_22-.LBB163_2)>>2
	.byte	(.LBB163_12-.LBB163_2)>>2
	.byte	(.LBB163_15-.LBB163_2)>>2
	.byte	(.LBB163_24-.LBB163_2)>>2
	.byte	(.LBB163_26-.LBB163_2)>>2
	.byte	(.LBB163_23-.LBB163_2)>>2
	.byte	(.LBB163_28-.LBB163_2)>>2
	.byte	(.LBB163_17-.LBB163_2)>>2
	.byte	(.LBB163_27-.LBB163_2)>>2
	.byte	(.LBB163_14-.LBB163_2)>>2
	.byte	(.LBB163_16-.LBB163_2)>>2
	.byte	(.LBB163_25-.LBB163_2)>>2
	.byte	(.LBB163_13-.LBB163_2)>>2
	.p2align	1, 0x0
.LJTI163_1:
	.hword	(.LBB163_3-.LBB163_3)>>2
	.hword	(.LBB163_42-.LBB163_3)>>2
	.hword	(.LBB163_12-.LBB163_3)>>2
	.hword	(.LBB163_43-.LBB163_3)>>2
	.hword	(.LBB163_40-.LBB163_3)>>2
	.hword	(.LBB163_45-.LBB163_3)>>2
	.hword	(.LBB163_46-.LBB163_3)>>2
	.hword	(.LBB163_44-.LBB163_3)>>2
	.hword	(.LBB163_47-.LBB163_3)>>2
	.hword	(.LBB163_41-.LBB163_3)>>2

	.type	.Lstatic.0,@object
	.section	.rodata..Lstatic.0,"a",@progbits
.Lstatic.0:
	.size	.Lstatic.0, 0

	.type	.Lstatic.1,@object
	.section	.rodata..Lstatic.1,"a",@progbits
.Lstatic.1:
	.ascii	"line,moment,answer,address,kind,lat,lon,feet\n"
	.size	.Lstatic.1, 45

	.type	.Lstatic.2,@object
	.section	.rodata.cst16,"aM",@progbits,16
.Lstatic.2:
	.ascii	"0123456789ABCDEF"
	.size	.Lstatic.2, 16

	.type	.Lstatic.18,@object
	.section	.rodata..Lstatic.18,"a",@progbits
.Lstatic.18:
	.ascii	"no site"
	.size	.Lstatic.18, 7

	.type	.Lstatic.22,@object
	.section	.rodata..Lstatic.22,"a",@progbits
.Lstatic.22:
	.ascii	"000 001 002 003 004 005 006 007 008 009 010 011 012 013 014 015 016 017 018 019 020 021 022 023 024 025 026 027 028 029 030 031 032 033 034 035 036 037 038 039 040 041 042 043 044 045 046 047 048 049 050 051 052 053 054 055 056 057 058 059 060 061 062 063 064 065 066 067 068 069 070 071 072 073 074 075 076 077 078 079 080 081 082 083 084 085 086 087 088 089 090 091 092 093 094 095 096 097 098 099 100 101 102 103 104 105 106 107 108 109 110 111 112 113 114 115 116 117 118 119 120 121 122 123 124 125 126 127 128 129 130 131 132 133 134 135 136 137 138 139 140 141 142 143 144 145 146 147 148 149 150 151 152 153 154 155 156 157 158 159 160 161 162 163 164 165 166 167 168 169 170 171 172 173 174 175 176 177 178 179 180 181 182 183 184 185 186 187 188 189 190 191 192 193 194 195 196 197 198 199 200 201 202 203 204 205 206 207 208 209 210 211 212 213 214 215 216 217 218 219 220 221 222 223 224 225 226 227 228 229 230 231 232 233 234 235 236 237 238 239 240 241 242 243 244 245 246 247 248 249 250 251 252 253 254 255 256 257 258 259 260 261 262 263 264 265 266 267 268 269 270 271 272 273 274 275 276 277 278 279 280 281 282 283 284 285 286 287 288 289 290 291 292 293 294 295 296 297 298 299 300 301 302 303 304 305 306 307 308 309 310 311 312 313 314 315 316 317 318 319 320 321 322 323 324 325 326 327 328 329 330 331 332 333 334 335 336 337 338 339 340 341 342 343 344 345 346 347 348 349 350 351 352 353 354 355 356 357 358 359 360 361 362 363 364 365 366 367 368 369 370 371 372 373 374 375 376 377 378 379 380 381 382 383 384 385 386 387 388 389 390 391 392 393 394 395 396 397 398 399 400 401 402 403 404 405 406 407 408 409 410 411 412 413 414 415 416 417 418 419 420 421 422 423 424 425 426 427 428 429 430 431 432 433 434 435 436 437 438 439 440 441 442 443 444 445 446 447 448 449 450 451 452 453 454 455 456 457 458 459 460 461 462 463 464 465 466 467 468 469 470 471 472 473 474 475 476 477 478 479 480 481 482 483 484 485 486 487 488 489 490 491 492 493 494 495 496 497 498 499 500 501 502 503 504 505 506 507 508 509 510 511 512 513 514 515 516 517 518 519 520 521 522 523 524 525 526 527 528 529 530 531 532 533 534 535 536 537 538 539 540 541 542 543 544 545 546 547 548 549 550 551 552 553 554 555 556 557 558 559 560 561 562 563 564 565 566 567 568 569 570 571 572 573 574 575 576 577 578 579 580 581 582 583 584 585 586 587 588 589 590 591 592 593 594 595 596 597 598 599 600 601 602 603 604 605 606 607 608 609 610 611 612 613 614 615 616 617 618 619 620 621 622 623 624 625 626 627 628 629 630 631 632 633 634 635 636 637 638 639 640 641 642 643 644 645 646 647 648 649 650 651 652 653 654 655 656 657 658 659 660 661 662 663 664 665 666 667 668 669 670 671 672 673 674 675 676 677 678 679 680 681 682 683 684 685 686 687 688 689 690 691 692 693 694 695 696 697 698 699 700 701 702 703 704 705 706 707 708 709 710 711 712 713 714 715 716 717 718 719 720 721 722 723 724 725 726 727 728 729 730 731 732 733 734 735 736 737 738 739 740 741 742 743 744 745 746 747 748 749 750 751 752 753 754 755 756 757 758 759 760 761 762 763 764 765 766 767 768 769 770 771 772 773 774 775 776 777 778 779 780 781 782 783 784 785 786 787 788 789 790 791 792 793 794 795 796 797 798 799 800 801 802 803 804 805 806 807 808 809 810 811 812 813 814 815 816 817 818 819 820 821 822 823 824 825 826 827 828 829 830 831 832 833 834 835 836 837 838 839 840 841 842 843 844 845 846 847 848 849 850 851 852 853 854 855 856 857 858 859 860 861 862 863 864 865 866 867 868 869 870 871 872 873 874 875 876 877 878 879 880 881 882 883 884 885 886 887 888 889 890 891 892 893 894 895 896 897 898 899 900 901 902 903 904 905 906 907 908 909 910 911 912 913 914 915 916 917 918 919 920 921 922 923 924 925 926 927 928 929 930 931 932 933 934 935 936 937 938 939 940 941 942 943 944 945 946 947 948 949 950 951 952 953 954 955 956 957 958 959 960 961 962 963 964 965 966 967 968 969 970 971 972 973 974 975 976 977 978 979 980 981 982 983 984 985 986 987 988 989 990 991 992 993 994 995 996 997 998 999 "
	.size	.Lstatic.22, 4000

	.type	.Lstatic.23,@object
	.section	.rodata..Lstatic.23,"a",@progbits
.Lstatic.23:
	.ascii	"00010203040506070809101112131415161718192021222324252627282930313233343536373839404142434445464748495051525354555657585960616263646566676869707172737475767778798081828384858687888990919293949596979899"
	.size	.Lstatic.23, 200

	.type	.Lstatic.27,@object
	.section	.rodata..Lstatic.27,"a",@progbits
.Lstatic.27:
	.ascii	"long line"
	.size	.Lstatic.27, 9

	.type	.Lstatic.28,@object
	.section	.rodata..Lstatic.28,"a",@progbits
.Lstatic.28:
	.ascii	"bad moment"
	.size	.Lstatic.28, 10

	.type	.Lstatic.29,@object
	.section	.rodata..Lstatic.29,"a",@progbits
.Lstatic.29:
	.ascii	"bad wrapping"
	.size	.Lstatic.29, 12

	.type	.Lstatic.30,@object
	.section	.rodata..Lstatic.30,"a",@progbits
.Lstatic.30:
	.ascii	"short frame"
	.size	.Lstatic.30, 11

	.type	.Lstatic.31,@object
	.section	.rodata..Lstatic.31,"a",@progbits
.Lstatic.31:
	.ascii	"bad length "
	.size	.Lstatic.31, 11

	.type	.Lstatic.32,@object
	.section	.rodata..Lstatic.32,"a",@progbits
.Lstatic.32:
	.ascii	"bad digit "
	.size	.Lstatic.32, 10

	.type	.Lstatic.33,@object
	.section	.rodata..Lstatic.33,"a",@progbits
.Lstatic.33:
	.ascii	"moment back "
	.size	.Lstatic.33, 12

	.type	.Lstatic.34,@object
	.section	.rodata..Lstatic.34,"a",@progbits
.Lstatic.34:
	.ascii	"table full"
	.size	.Lstatic.34, 10

	.type	.Lstatic.35,@object
	.section	.rodata..Lstatic.35,"a",@progbits
.Lstatic.35:
	.ascii	"not DF17 "
	.size	.Lstatic.35, 9

	.type	.Lstatic.36,@object
	.section	.rodata..Lstatic.36,"a",@progbits
.Lstatic.36:
	.ascii	"parity "
	.size	.Lstatic.36, 7

	.type	.Lstatic.40,@object
	.section	.rodata..Lstatic.40,"a",@progbits
	.p2align	3, 0x0
.Lstatic.40:
	.asciz	"\000\000\000\000\000\000\000\000\000\000\000\000\000\000\001\000\000\000\000\000\000\200\000\000VUUUUU\000\000\000\000\000\000\000@\000\000433333\000\000\253\252\252\252\252*\000\000J\222$I\222$\000\000\000\000\000\000\000 \000\000\310q\034\307q\034\000\000\232\231\231\231\231\031\000\000\030]t\321E\027\000\000VUUUU\025\000\000<\261\023;\261\023\000\000%I\222$I\022\000\000\022\021\021\021\021\021\000\000\000\000\000\000\000\020\000\000\020\017\017\017\017\017\000\000\3448\216\3438\016\000\000\330P^Cy\r\000\000\315\314\314\314\314\f\000\000\3040\f\3030\f\000\000\214.\272\350\242\013\000\000\221\205,d!\013\000\000\253\252\252\252\252\n\000\000\013\327\243p=\n\000\000\236\330\211\235\330\t\000\000\230\320^B{\t\000\000\223$I\222$\t\000\000>\215\260\334\323\b\000\000\211\210\210\210\210\b\000\000\t!\204\020B\b\000\000\000\000\000\000\000\b\000\000\b\037|\360\301\007\000\000\210\207\207\207\207\007\000\000vP\007uP\007\000\000r\034\307q\034\007\000\000o0E>\353\006\000\000l(\257\241\274\006\000\000j\220\006i\220\006\000\000gffff\006\000\000\007\347cp>\006\000\000b\030\206a\030\006\000\000B_\320\027\364\005\000\000F\027]t\321\005\000\000\\\260\005[\260\005\000\000\311B\026\262\220\005\000\000\305\344\nbr\005\000\000VUUUU\005\000\000\302\313)x9\005\000\000\206\353Q\270\036\005\000\000\006\005\005\005\005\005\000\000O\354\304N\354\004\000\000\337\312>\207\324\004\000\000Lh/\241\275\004\000\000\005yJ\220\247\004\000\000J\222$I\222\004\000\000Hp\037\301}\004\000\000\237FX\356i\004\000\000J\335\227\307V\004\000\000EDDDD\004\000\0007\357S\\2\004\000\000\205\020B\b!\004\000\000B\020\004A\020\004\000\000\000\000\000\000\000\004\000\000@\360\003?\360\003\000\000\204\017>\370\340\003\000\000\027~5&\322\003\000\000\304\303\303\303\303\003\000\0001\327\016\314\265\003\000\000;\250\203:\250\003\000\000t \321\n\233\003\000\0009\216\3438\216\003\000\0009p\340\300\201\003\000\0008\230\"\237u\003\000\000\004\2356\320i\003\000\0006\224\327P^\003\000\000M\r\354\035S\003\000\0005H\2034H\003\000\000\007\242\322\221=\003\000\00043333\003\000\000\336\232\037\026)\003\000\000\204\36318\037\003\000\000\177\355!\227\025\003\000\0001\f\3030\f\003\000\000\004\003\003\003\003\003\000\000\241/\350\013\372\002\000\000\025/\220I\361\002\000\000\243\213.\272\350\002\000\000q\201\013\\\340\002\000\000.\330\202-\330\002\000\000.\320\002-\320\002\000\000e!\013Y\310\002\000\000\003\013,\260\300\002\000\000cr\0051\271\002\000\000,\020F\332\261\002\000\000\253\252\252\252\252\002\000\000`\\\375\240\243\002\000\000\341\345\024\274\234\002\000\000X\n\324\372\225\002\000\000\303\365(\\\217\002\000\000\\\254\f\337\210\002\000\000\203\202\202\202\202\002\000\000\226\234\227E|\002\000\000(vb'v\002\000\000(p\002'p\002\000\000pe\237Cj\002\000\000cEi|d\002\000\000&\264\227\320^\002\000\000&\260i?Y\002\000\000\203<%\310S\002\000\000%\020\027jN\002\000\000%I\222$I\002\000\000@$\360\366C\002\000\000$\270\217\340>\002\000\000Q\264\325\3409\002\000\000P#,\3674\002\000\000$0\002#0\002\000\000\245\356\313c+\002\000\000\272&\002\271&\002\000\000#\"\"\"\"\002\000\000\324|\255\236\035\002\000\000\234\367).\031\002\000\000\003M!\320\024\002\000\000C\b!\204\020\002\000\0006^\272I\f\002\000\000!\b\202 \b\002\000\000A \020\b\004\002\000"
	.size	.Lstatic.40, 1024

	.type	.Lstatic.41,@object
	.section	.rodata..Lstatic.41,"a",@progbits
.Lstatic.41:
	.ascii	"\000\000\000\000\000\000\000\000\000\000\000\000\000\000\000\000\000\000\000\000\000\000\000\000\000\000\000\000\000\000\000\000\000\000\000\000\000\000\000\000\000\000\000\000\001\001\001\001\001\001\001\001\001\001\002\002\002\002\002\002\002\002\003\003\003\003\003\003\003\003\004\004\004\004\004\004\005\005\005\005\005\005\005\006\006\006\006\006\006\007\007\007\007\007\b\b\b\b\b\t\t\t\t\t\n\n\n\n\n\013\013\013\013\013\f\f\f\f\r\r\r\r\r\016\016\016\016\017\017\017\017\020\020\020\020\021\021\021\021\022\022\022\022\023\023\023\023\024\024\024\024\025\025\025\026\026\026\026\027\027\027\030\030\030\030\031\031\031\032\032\032\032\033\033\033\034\034\034\035\035\035\036\036\036\036\037\037\037   !!!\"\"\"###$$$%%%&&&'''((()))***+++,,,---...///000112223334445566677889999999999"
	.size	.Lstatic.41, 269

	.type	.Lstatic.42,@object
	.section	.rodata..Lstatic.42,"a",@progbits
	.p2align	3, 0x0
.Lstatic.42:
	.asciz	"\332\253h>\000\000\000\000\235\377aX\000\000\000\0005\tfl\000\000\000\000eOX}\000\000\000\000'\343V\214\000\000\000\000\243M\364\231\000\000\000\000\326\202\207\246\000\000\000\000\306\033I\262\000\000\000\000l_`\275\000\000\000\000\334\340\351\307\000\000\000\000\216.\373\321\000\000\000\000T\005\245\333\000\000\000\000$\263\364\344\000\000\000\000\254\000\365\355\000\000\000\000\270\320\256\366\000\000\000\000\\\220)\377\000\000\000\000\347\207k\007\001\000\000\000\243\026z\017\001\000\000\000\304\337Y\027\001\000\000\000\330\354\016\037\001\000\000\000w\310\234&\001\000\000\000V\223\006.\001\000\000\000\005\025O5\001\000\000\000y\311x<\001\000\000\000\000\354\205C\001\000\000\000L\200xJ\001\000\000\000\344YRQ\001\000\000\000Z\"\025X\001\000\000\000\200^\302^\001\000\000\000\315r[e\001\000\000\000\016\247\341k\001\000\000\000\223)Vr\001\000\000\000\327\021\272x\001\000\000\000\313b\016\177\001\000\000\000\276\fT\205\001\000\000\000\000\357\213\213\001\000\000\0006\331\266\221\001\000\000\000f\214\325\227\001\000\000\000\307\273\350\235\001\000\000\000C\r\361\243\001\000\000\000\251\031\357\251\001\000\000\000\201l\343\257\001\000\000\000b\203\316\265\001\000\000\000\250\314\260\273\001\000\000\000A\245\212\301\001\000\000\000'U\\\307\001\000\000\000\325\t&\315\001\000\000\000\203\315\347\322\001\000\000\000\001y\241\330\001\000\000\000M\234R\336\001\000\000\000\005V\372\343\001\000\000\000u\t\227\351\001\000\000\000\325\315%\357\001\000\000\000\2737\241\364\001\000\000\000oe\376\371\001\000\000\000ua$\377\001\000\000\000\346~\312\003\002\000\000\000\000w\217\006\002\000\000"
	.size	.Lstatic.42, 464

	.type	.Lstatic.43,@object
	.section	.rodata..Lstatic.43,"a",@progbits
	.p2align	2, 0x0
.Lstatic.43:
	.asciz	"\000\000\000\000A\324\r\000\202\250\033\000\303|\026\000\004Q7\000E\205:\000\206\371,\000\307-!\000\b\242n\000Ivc\000\212\nu\000\313\336x\000\f\363Y\000M'T\000\216[B\000\317\217O\000\020D\335\000Q\220\320\000\222\354\306\000\3238\313\000\024\025\352\000U\301\347\000\226\275\361\000\327i\374\000\030\346\263\000Y2\276\000\232N\250\000\333\232\245\000\034\267\204\000]c\211\000\236\037\237\000\337\313\222\000)|E\000h\250H\000\253\324^\000\352\000S\000--r\000l\371\177\000\257\205i\000\356Qd\000!\336+\000`\n&\000\243v0\000\342\242=\000%\217\034\000d[\021\000\247'\007\000\346\363\n\00098\230\000x\354\225\000\273\220\203\000\372D\216\000=i\257\000|\275\242\000\277\301\264\000\376\025\271\0001\232\366\000pN\373\000\2632\355\000\362\346\340\0005\313\301\000t\037\314\000\267c\332\000\366\267\327\000R\370\212\000\023,\207\000\320P\221\000\221\204\234\000V\251\275\000\027}\260\000\324\001\246\000\225\325\253\000ZZ\344\000\033\216\351\000\330\362\377\000\231&\362\000^\013\323\000\037\337\336\000\334\243\310\000\235w\305\000B\274W\000\003hZ\000\300\024L\000\201\300A\000F\355`\000\0079m\000\304E{\000\205\221v\000J\0369\000\013\3124\000\310\266\"\000\211b/\000NO\016\000\017\233\003\000\314\347\025\000\2153\030\000{\204\317\000:P\302\000\371,\324\000\270\370\331\000\177\325\370\000>\001\365\000\375}\343\000\274\251\356\000s&\241\0002\362\254\000\361\216\272\000\260Z\267\000ww\226\0006\243\233\000\365\337\215\000\264\013\200\000k\300\022\000*\024\037\000\351h\t\000\250\274\004\000o\221%\000.E(\000\3559>\000\254\3553\000cb|\000\"\266q\000\341\312g\000\240\036j\000g3K\000&\347F\000\345\233P\000\244O]\000\255\004\352\000\354\320\347\000/\254\361\000nx\374\000\251U\335\000\350\201\320\000+\375\306\000j)\313\000\245\246\204\000\344r\211\000'\016\237\000f\332\222\000\241\367\263\000\340#\276\000#_\250\000b\213\245\000\275@7\000\374\224:\000?\350,\000~<!\000\271\021\000\000\370\305\r\000;\271\033\000zm\026\000\265\342Y\000\3646T\0007JB\000v\236O\000\261\263n\000\360gc\0003\033u\000r\317x\000\204x\257\000\305\254\242\000\006\320\264\000G\004\271\000\200)\230\000\301\375\225\000\002\201\203\000CU\216\000\214\332\301\000\315\016\314\000\016r\332\000O\246\327\000\210\213\366\000\311_\373\000\n#\355\000K\367\340\000\224<r\000\325\350\177\000\026\224i\000W@d\000\220mE\000\321\271H\000\022\305^\000S\021S\000\234\236\034\000\335J\021\000\0366\007\000_\342\n\000\230\317+\000\331\033&\000\032g0\000[\263=\000\377\374`\000\276(m\000}T{\000<\200v\000\373\255W\000\272yZ\000y\005L\0008\321A\000\367^\016\000\266\212\003\000u\366\025\0004\"\030\000\363\0179\000\262\3334\000q\247\"\0000s/\000\357\270\275\000\256l\260\000m\020\246\000,\304\253\000\353\351\212\000\252=\207\000iA\221\000(\225\234\000\347\032\323\000\246\316\336\000e\262\310\000$f\305\000\343K\344\000\242\237\351\000a\343\377\000 7\362\000\326\200%\000\227T(\000T(>\000\025\3743\000\322\321\022\000\223\005\037\000Py\t\000\021\255\004\000\336\"K\000\237\366F\000\\\212P\000\035^]\000\332s|\000\233\247q\000X\333g\000\031\017j\000\306\304\370\000\207\020\365\000Dl\343\000\005\270\356\000\302\225\317\000\203A\302\000@=\324\000\001\351\331\000\316f\226\000\217\262\233\000L\316\215\000\r\032\200\000\3127\241\000\213\343\254\000H\237\272\000\tK\267"
	.size	.Lstatic.43, 1024

	.type	.Lstatic.44,@object
	.section	.rodata..Lstatic.44,"a",@progbits
	.p2align	2, 0x0
.Lstatic.44:
	.asciz	"\000\000\000\000\200\r\016\000\000\033\034\000\200\026\022\000\00068\000\200;6\000\000-$\000\200 *\000\000lp\000\200a~\000\000wl\000\200zb\000\000ZH\000\200WF\000\000AT\000\200LZ\000\000\330\340\000\200\325\356\000\000\303\374\000\200\316\362\000\000\356\330\000\200\343\326\000\000\365\304\000\200\370\312\000\000\264\220\000\200\271\236\000\000\257\214\000\200\242\202\000\000\202\250\000\200\217\246\000\000\231\264\000\200\224\272\000\tD>\000\211I0\000\t_\"\000\211R,\000\tr\006\000\211\177\b\000\ti\032\000\211d\024\000\t(N\000\211%@\000\t3R\000\211>\\\000\t\036v\000\211\023x\000\t\005j\000\211\bd\000\t\234\336\000\211\221\320\000\t\207\302\000\211\212\314\000\t\252\346\000\211\247\350\000\t\261\372\000\211\274\364\000\t\360\256\000\211\375\240\000\t\353\262\000\211\346\274\000\t\306\226\000\211\313\230\000\t\335\212\000\211\320\204\000\022\210|\000\222\205r\000\022\223`\000\222\236n\000\022\276D\000\222\263J\000\022\245X\000\222\250V\000\022\344\f\000\222\351\002\000\022\377\020\000\222\362\036\000\022\3224\000\222\337:\000\022\311(\000\222\304&\000\022P\234\000\222]\222\000\022K\200\000\222F\216\000\022f\244\000\222k\252\000\022}\270\000\222p\266\000\022<\354\000\2221\342\000\022'\360\000\222*\376\000\022\n\324\000\222\007\332\000\022\021\310\000\222\034\306\000\033\314B\000\233\301L\000\033\327^\000\233\332P\000\033\372z\000\233\367t\000\033\341f\000\233\354h\000\033\2402\000\233\255<\000\033\273.\000\233\266 \000\033\226\n\000\233\233\004\000\033\215\026\000\233\200\030\000\033\024\242\000\233\031\254\000\033\017\276\000\233\002\260\000\033\"\232\000\233/\224\000\0339\206\000\2334\210\000\033x\322\000\233u\334\000\033c\316\000\233n\300\000\033N\352\000\233C\344\000\033U\366\000\233X\370\000$\020\371\000\244\035\367\000$\013\345\000\244\006\353\000$&\301\000\244+\317\000$=\335\000\2440\323\000$|\211\000\244q\207\000$g\225\000\244j\233\000$J\261\000\244G\277\000$Q\255\000\244\\\243\000$\310\031\000\244\305\027\000$\323\005\000\244\336\013\000$\376!\000\244\363/\000$\345=\000\244\3503\000$\244i\000\244\251g\000$\277u\000\244\262{\000$\222Q\000\244\237_\000$\211M\000\244\204C\000-T\307\000\255Y\311\000-O\333\000\255B\325\000-b\377\000\255o\361\000-y\343\000\255t\355\000-8\267\000\2555\271\000-#\253\000\255.\245\000-\016\217\000\255\003\201\000-\025\223\000\255\030\235\000-\214'\000\255\201)\000-\227;\000\255\2325\000-\272\037\000\255\267\021\000-\241\003\000\255\254\r\000-\340W\000\255\355Y\000-\373K\000\255\366E\000-\326o\000\255\333a\000-\315s\000\255\300}\0006\230\205\000\266\225\213\0006\203\231\000\266\216\227\0006\256\275\000\266\243\263\0006\265\241\000\266\270\257\0006\364\365\000\266\371\373\0006\357\351\000\266\342\347\0006\302\315\000\266\317\303\0006\331\321\000\266\324\337\0006@e\000\266Mk\0006[y\000\266Vw\0006v]\000\266{S\0006mA\000\266`O\0006,\025\000\266!\033\00067\t\000\266:\007\0006\032-\000\266\027#\0006\0011\000\266\f?\000?\334\273\000\277\321\265\000?\307\247\000\277\312\251\000?\352\203\000\277\347\215\000?\361\237\000\277\374\221\000?\260\313\000\277\275\305\000?\253\327\000\277\246\331\000?\206\363\000\277\213\375\000?\235\357\000\277\220\341\000?\004[\000\277\tU\000?\037G\000\277\022I\000?2c\000\277?m\000?)\177\000\277$q\000?h+\000\277e%\000?s7\000\277~9\000?^\023\000\277S\035\000?E\017\000\277H\001"
	.size	.Lstatic.44, 1024

	.type	.Lstatic.45,@object
	.section	.rodata..Lstatic.45,"a",@progbits
	.p2align	2, 0x0
.Lstatic.45:
	.asciz	"\000\000\000\000\t\364\377\000\033\034\000\000\022\350\377\00068\000\000?\314\377\000-$\000\000$\320\377\000lp\000\000e\204\377\000wl\000\000~\230\377\000ZH\000\000S\274\377\000AT\000\000H\240\377\000\330\340\000\000\321\024\377\000\303\374\000\000\312\b\377\000\356\330\000\000\347,\377\000\365\304\000\000\3740\377\000\264\220\000\000\275d\377\000\257\214\000\000\246x\377\000\202\250\000\000\213\\\377\000\231\264\000\000\220@\377\000\260\301\001\000\2715\376\000\253\335\001\000\242)\376\000\206\371\001\000\217\r\376\000\235\345\001\000\224\021\376\000\334\261\001\000\325E\376\000\307\255\001\000\316Y\376\000\352\211\001\000\343}\376\000\361\225\001\000\370a\376\000h!\001\000a\325\376\000s=\001\000z\311\376\000^\031\001\000W\355\376\000E\005\001\000L\361\376\000\004Q\001\000\r\245\376\000\037M\001\000\026\271\376\0002i\001\000;\235\376\000)u\001\000 \201\376\000`\203\003\000iw\374\000{\237\003\000rk\374\000V\273\003\000_O\374\000M\247\003\000DS\374\000\f\363\003\000\005\007\374\000\027\357\003\000\036\033\374\000:\313\003\0003?\374\000!\327\003\000(#\374\000\270c\003\000\261\227\374\000\243\177\003\000\252\213\374\000\216[\003\000\207\257\374\000\225G\003\000\234\263\374\000\324\023\003\000\335\347\374\000\317\017\003\000\306\373\374\000\342+\003\000\353\337\374\000\3717\003\000\360\303\374\000\320B\002\000\331\266\375\000\313^\002\000\302\252\375\000\346z\002\000\357\216\375\000\375f\002\000\364\222\375\000\2742\002\000\265\306\375\000\247.\002\000\256\332\375\000\212\n\002\000\203\376\375\000\221\026\002\000\230\342\375\000\b\242\002\000\001V\375\000\023\276\002\000\032J\375\000>\232\002\0007n\375\000%\206\002\000,r\375\000d\322\002\000m&\375\000\177\316\002\000v:\375\000R\352\002\000[\036\375\000I\366\002\000@\002\375\000\300\006\007\000\311\362\370\000\333\032\007\000\322\356\370\000\366>\007\000\377\312\370\000\355\"\007\000\344\326\370\000\254v\007\000\245\202\370\000\267j\007\000\276\236\370\000\232N\007\000\223\272\370\000\201R\007\000\210\246\370\000\030\346\007\000\021\022\370\000\003\372\007\000\n\016\370\000.\336\007\000'*\370\0005\302\007\000<6\370\000t\226\007\000}b\370\000o\212\007\000f~\370\000B\256\007\000KZ\370\000Y\262\007\000PF\370\000p\307\006\000y3\371\000k\333\006\000b/\371\000F\377\006\000O\013\371\000]\343\006\000T\027\371\000\034\267\006\000\025C\371\000\007\253\006\000\016_\371\000*\217\006\000#{\371\0001\223\006\0008g\371\000\250'\006\000\241\323\371\000\263;\006\000\272\317\371\000\236\037\006\000\227\353\371\000\205\003\006\000\214\367\371\000\304W\006\000\315\243\371\000\337K\006\000\326\277\371\000\362o\006\000\373\233\371\000\351s\006\000\340\207\371\000\240\205\004\000\251q\373\000\273\231\004\000\262m\373\000\226\275\004\000\237I\373\000\215\241\004\000\204U\373\000\314\365\004\000\305\001\373\000\327\351\004\000\336\035\373\000\372\315\004\000\3639\373\000\341\321\004\000\350%\373\000xe\004\000q\221\373\000cy\004\000j\215\373\000N]\004\000G\251\373\000UA\004\000\\\265\373\000\024\025\004\000\035\341\373\000\017\t\004\000\006\375\373\000\"-\004\000+\331\373\00091\004\0000\305\373\000\020D\005\000\031\260\372\000\013X\005\000\002\254\372\000&|\005\000/\210\372\000=`\005\0004\224\372\000|4\005\000u\300\372\000g(\005\000n\334\372\000J\f\005\000C\370\372\000Q\020\005\000X\344\372\000\310\244\005\000\301P\372\000\323\270\005\000\332L\372\000\376\234\005\000\367h\372\000\345\200\005\000\354t\372\000\244\324\005\000\255 \372\000\277\310\005\000\266<\372\000\222\354\005\000\233\030\372\000\211\360\005\000\200\004\372"
	.size	.Lstatic.45, 1024

	.type	.Lstatic.46,@object
	.section	.rodata..Lstatic.46,"a",@progbits
.Lstatic.46:
	.ascii	"rawmsg"
	.size	.Lstatic.46, 6

	.type	.Lstatic.47,@object
	.section	.rodata.cst4,"aM",@progbits,4
.Lstatic.47:
	.ascii	"time"
	.size	.Lstatic.47, 4

	.type	.Lstatic.48,@object
	.section	.rodata..Lstatic.48,"a",@progbits
.Lstatic.48:
	.ascii	"mintime"
	.size	.Lstatic.48, 7

	.type	.Lstatic.49,@object
	.section	.rodata..Lstatic.49,"a",@progbits
.Lstatic.49:
	.ascii	"timestamp"
	.size	.Lstatic.49, 9

	.type	.Lstatic.51,@object
	.section	.rodata.cst4,"aM",@progbits,4
.Lstatic.51:
	.ascii	"MSG,"
	.size	.Lstatic.51, 4

	.type	.Lstatic.52,@object
.Lstatic.52:
	.ascii	"SEL,"
	.size	.Lstatic.52, 4

	.type	.Lstatic.54,@object
.Lstatic.54:
	.ascii	"AIR,"
	.size	.Lstatic.54, 4

	.type	.Lstatic.55,@object
.Lstatic.55:
	.ascii	"STA,"
	.size	.Lstatic.55, 4

	.type	.Lstatic.56,@object
.Lstatic.56:
	.ascii	"CLK,"
	.size	.Lstatic.56, 4

	.type	.Lstatic.57,@object
	.section	.rodata..Lstatic.57,"a",@progbits
.Lstatic.57:
	.ascii	"icao24"
	.size	.Lstatic.57, 6

	.type	.Lstatic.60,@object
	.section	.rodata..Lstatic.60,"a",@progbits
.Lstatic.60:
	.ascii	"\3757zXZ"
	.size	.Lstatic.60, 5

	.type	.Lstatic.61,@object
	.section	.rodata.cst4,"aM",@progbits,4
.Lstatic.61:
	.ascii	"(\265/\375"
	.size	.Lstatic.61, 4

	.type	.Lstatic.62,@object
.Lstatic.62:
	.ascii	"PK\003\004"
	.size	.Lstatic.62, 4

	.type	.Lstatic.66,@object
	.section	.rodata..Lstatic.66,"a",@progbits
.Lstatic.66:
	.ascii	"ustar"
	.size	.Lstatic.66, 5

	.type	.Lstatic.67,@object
	.section	.rodata..Lstatic.67,"a",@progbits
.Lstatic.67:
	.ascii	"000102030405060708090A0B0C0D0E0F101112131415161718191A1B1C1D1E1F202122232425262728292A2B2C2D2E2F303132333435363738393A3B3C3D3E3F404142434445464748494A4B4C4D4E4F505152535455565758595A5B5C5D5E5F606162636465666768696A6B6C6D6E6F707172737475767778797A7B7C7D7E7F808182838485868788898A8B8C8D8E8F909192939495969798999A9B9C9D9E9FA0A1A2A3A4A5A6A7A8A9AAABACADAEAFB0B1B2B3B4B5B6B7B8B9BABBBCBDBEBFC0C1C2C3C4C5C6C7C8C9CACBCCCDCECFD0D1D2D3D4D5D6D7D8D9DADBDCDDDEDFE0E1E2E3E4E5E6E7E8E9EAEBECEDEEEFF0F1F2F3F4F5F6F7F8F9FAFBFCFDFEFF"
	.size	.Lstatic.67, 512

	.type	.Lstatic.68,@object
	.section	.rodata..Lstatic.68,"a",@progbits
.Lstatic.68:
	.byte	10
	.size	.Lstatic.68, 1

	.type	.Lstatic.84,@object
	.section	.rodata..Lstatic.84,"a",@progbits
.Lstatic.84:
	.ascii	"fix"
	.size	.Lstatic.84, 3

	.type	.Lstatic.85,@object
	.section	.rodata.cst8,"aM",@progbits,8
.Lstatic.85:
	.ascii	"followed"
	.size	.Lstatic.85, 8

	.type	.Lstatic.86,@object
	.section	.rodata..Lstatic.86,"a",@progbits
.Lstatic.86:
	.ascii	"waiting"
	.size	.Lstatic.86, 7

	.type	.Lstatic.87,@object
	.section	.rodata..Lstatic.87,"a",@progbits
.Lstatic.87:
	.ascii	"split"
	.size	.Lstatic.87, 5

	.type	.Lstatic.88,@object
	.section	.rodata..Lstatic.88,"a",@progbits
.Lstatic.88:
	.ascii	"far"
	.size	.Lstatic.88, 3

	.type	.Lstatic.89,@object
	.section	.rodata..Lstatic.89,"a",@progbits
.Lstatic.89:
	.ascii	"no position"
	.size	.Lstatic.89, 11

	.type	.Lstatic.91,@object
	.section	.rodata..Lstatic.91,"a",@progbits
.Lstatic.91:
	.ascii	"air"
	.size	.Lstatic.91, 3

	.type	.Lstatic.92,@object
	.section	.rodata..Lstatic.92,"a",@progbits
.Lstatic.92:
	.ascii	"ground"
	.size	.Lstatic.92, 6

	.type	.Lstatic.93,@object
	.section	.rodata..Lstatic.93,"a",@progbits
.Lstatic.93:
	.ascii	"other"
	.size	.Lstatic.93, 5

	.type	".Lswitch.table.sq_feed::beast::Beast::take_byte.350",@object
	.section	".rodata..Lswitch.table.sq_feed::beast::Beast::take_byte.350","a",@progbits
	.p2align	3, 0x0
".Lswitch.table.sq_feed::beast::Beast::take_byte.350":
	.xword	9
	.xword	14
	.xword	21
	.size	".Lswitch.table.sq_feed::beast::Beast::take_byte.350", 24

	.type	".Lswitch.table.sq_feed::reader::Reader::find",@object
	.section	".rodata..Lswitch.table.sq_feed::reader::Reader::find","a",@progbits
	.p2align	3, 0x0
".Lswitch.table.sq_feed::reader::Reader::find":
	.xword	0
	.xword	12
	.xword	14
	.size	".Lswitch.table.sq_feed::reader::Reader::find", 24

	.type	".Lswitch.table.sq_feed::reader::Reader::end",@object
	.section	.rodata.cst32,"aM",@progbits,32
	.p2align	3, 0x0
".Lswitch.table.sq_feed::reader::Reader::end":
	.xword	1
	.xword	0
	.xword	1
	.xword	1
	.size	".Lswitch.table.sq_feed::reader::Reader::end", 32

	.type	".Lswitch.table.squitter_c::log_loop::write_some::<#507aa2edf0378fed>.354",@object
	.section	".rodata..Lswitch.table.squitter_c::log_loop::write_some::<#507aa2edf0378fed>.354","a",@progbits
	.p2align	3, 0x0
".Lswitch.table.squitter_c::log_loop::write_some::<#507aa2edf0378fed>.354":
	.xword	3
	.xword	8
	.xword	7
	.xword	5
	.xword	3
	.xword	7
	.xword	11
	.size	".Lswitch.table.squitter_c::log_loop::write_some::<#507aa2edf0378fed>.354", 56

	.type	".Lswitch.table.squitter_c::log_loop::write_some::<#507aa2edf0378fed>.355",@object
	.section	".data.rel.ro..Lswitch.table.squitter_c::log_loop::write_some::<#507aa2edf0378fed>.355","aw",@progbits
	.p2align	3, 0x0
".Lswitch.table.squitter_c::log_loop::write_some::<#507aa2edf0378fed>.355":
	.xword	.Lstatic.84
	.xword	.Lstatic.85
	.xword	.Lstatic.86
	.xword	.Lstatic.87
	.xword	.Lstatic.88
	.xword	.Lstatic.18
	.xword	.Lstatic.89
	.size	".Lswitch.table.squitter_c::log_loop::write_some::<#507aa2edf0378fed>.355", 56

	.type	".Lswitch.table.squitter_c::log_loop::write_some::<#507aa2edf0378fed>.356",@object
	.section	".rodata..Lswitch.table.squitter_c::log_loop::write_some::<#507aa2edf0378fed>.356","a",@progbits
	.p2align	3, 0x0
".Lswitch.table.squitter_c::log_loop::write_some::<#507aa2edf0378fed>.356":
	.xword	3
	.xword	6
	.xword	5
	.size	".Lswitch.table.squitter_c::log_loop::write_some::<#507aa2edf0378fed>.356", 24

	.type	".Lswitch.table.squitter_c::log_loop::write_some::<#507aa2edf0378fed>.357",@object
	.section	".data.rel.ro..Lswitch.table.squitter_c::log_loop::write_some::<#507aa2edf0378fed>.357","aw",@progbits
	.p2align	3, 0x0
".Lswitch.table.squitter_c::log_loop::write_some::<#507aa2edf0378fed>.357":
	.xword	.Lstatic.91
	.xword	.Lstatic.92
	.xword	.Lstatic.93
	.size	".Lswitch.table.squitter_c::log_loop::write_some::<#507aa2edf0378fed>.357", 24

	.type	".Lswitch.table.sq_text::faults::push_fault::<=512>",@object
	.section	".rodata..Lswitch.table.sq_text::faults::push_fault::<=512>","a",@progbits
	.p2align	3, 0x0
".Lswitch.table.sq_text::faults::push_fault::<=512>":
	.xword	9
	.xword	10
	.xword	12
	.xword	11
	.xword	11
	.xword	10
	.xword	9
	.xword	7
	.xword	12
	.xword	10
	.size	".Lswitch.table.sq_text::faults::push_fault::<=512>", 80

	.type	".Lswitch.table.sq_text::faults::push_fault::<=512>.358",@object
	.section	".data.rel.ro..Lswitch.table.sq_text::faults::push_fault::<=512>.358","aw",@progbits
	.p2align	3, 0x0
".Lswitch.table.sq_text::faults::push_fault::<=512>.358":
	.xword	.Lstatic.27
	.xword	.Lstatic.28
	.xword	.Lstatic.29
	.xword	.Lstatic.30
	.xword	.Lstatic.31
	.xword	.Lstatic.32
	.xword	.Lstatic.35
	.xword	.Lstatic.36
	.xword	.Lstatic.33
	.xword	.Lstatic.34
	.size	".Lswitch.table.sq_text::faults::push_fault::<=512>.358", 80

	.type	.Lswitch.table.squitter_feed_format,@object
	.section	.rodata..Lswitch.table.squitter_feed_format,"a",@progbits
	.p2align	2, 0x0
.Lswitch.table.squitter_feed_format:
	.word	5
	.word	6
	.word	7
	.word	8
	.word	9
	.word	11
	.word	12
	.word	13
	.word	14
	.word	15
	.word	16
	.word	10
	.size	.Lswitch.table.squitter_feed_format, 48

	.ident	"rattle logic=dac8208d650f15bf3e2dc313a14fa4c783a3acf887bdfab66e1714b038d9e11b"
	.section	".note.GNU-stack","",@progbits
