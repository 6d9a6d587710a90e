	.file	"rattle"
	.section	.rodata.cst16,"aM",@progbits,16
	.p2align	4, 0x0
.LCPI0_0:
	.xword	1
	.xword	3
	.section	".text.jpeg_header::header","ax",@progbits
	.p2align	2
	.type	"jpeg_header::header",@function
"jpeg_header::header":
	stp	x29, x30, [sp, #-80]!
	str	x28, [sp, #16]
	mov	x29, sp
	stp	x24, x23, [sp, #32]
	stp	x22, x21, [sp, #48]
	stp	x20, x19, [sp, #64]
	movi	v0.2d, #0000000000000000
	mov	x19, x0
	cmp	x2, #2
	stp	q0, q0, [sp, #-672]!
	stp	q0, q0, [sp, #32]
	stp	q0, q0, [sp, #64]
	stp	q0, q0, [sp, #96]
	stp	q0, q0, [sp, #128]
	stp	q0, q0, [sp, #160]
	stp	q0, q0, [sp, #192]
	stp	q0, q0, [sp, #224]
	stp	q0, q0, [sp, #256]
	stp	q0, q0, [sp, #288]
	stp	q0, q0, [sp, #320]
	stp	q0, q0, [sp, #352]
	b.lo	.LBB0_7
	ldrb	w8, [x1]
	mov	x22, x1
	cmp	w8, #255
	b.ne	.LBB0_7
	ldrb	w8, [x22, #1]
	cmp	w8, #216
	b.ne	.LBB0_7
	mov	w8, #2
	add	x23, sp, #392
	mov	w20, w3
	mov	x21, x2
	str	x8, [sp, #392]
	add	x8, x23, #8
	add	x9, sp, #392
	mov	x0, sp
	add	x4, sp, #392
	mov	x1, x22
	mov	x24, sp
	str	q0, [x8, #256]
	stur	q0, [x9, #8]
	stur	q0, [x9, #24]
	stur	q0, [x9, #40]
	stur	q0, [x9, #56]
	stur	q0, [x9, #72]
	stur	q0, [x9, #88]
	stur	q0, [x9, #104]
	stur	q0, [x9, #120]
	stur	q0, [x9, #136]
	stur	q0, [x9, #152]
	stur	q0, [x9, #168]
	stur	q0, [x9, #184]
	stur	q0, [x9, #200]
	stur	q0, [x9, #216]
	stur	q0, [x9, #232]
	stur	q0, [x9, #248]
	bl	"jpeg_header::step"
	ldrb	w9, [sp]
	ldrb	w8, [sp, #8]
	cbnz	w9, .LBB0_6
.LBB0_4:
	ldp	x12, x11, [sp, #16]
	ldp	x10, x9, [sp, #32]
	cbnz	w8, .LBB0_9
	ldp	q0, q1, [x24, #240]
	mov	x0, sp
	ldr	q2, [x24, #272]
	ldr	x8, [x24, #288]
	add	x4, sp, #392
	stp	x12, x11, [sp, #392]
	mov	x1, x22
	mov	x2, x21
	stp	q0, q1, [x23, #224]
	ldp	q0, q1, [x24, #176]
	str	q2, [x23, #256]
	mov	w3, w20
	stp	x10, x9, [sp, #408]
	stp	q0, q1, [x23, #160]
	ldp	q2, q0, [x24, #208]
	str	x8, [x23, #272]
	stp	q2, q0, [x23, #192]
	ldp	q1, q0, [x24, #112]
	stp	q1, q0, [x23, #96]
	ldp	q2, q0, [x24, #144]
	stp	q2, q0, [x23, #128]
	ldp	q1, q0, [x24, #48]
	stp	q1, q0, [x23, #32]
	ldp	q2, q0, [x24, #80]
	stp	q2, q0, [x23, #64]
	bl	"jpeg_header::step"
	ldrb	w9, [sp]
	ldrb	w8, [sp, #8]
	cbz	w9, .LBB0_4
.LBB0_6:
	ldr	q0, [sp, #16]
	mov	w9, #1
	mov	w8, w8
	stp	x9, x8, [x19]
	ldr	x9, [sp, #32]
	str	q0, [x19, #16]
	movi	v0.2d, #0000000000000000
	str	x9, [x19, #32]
	stur	q0, [x19, #56]
	stur	q0, [x19, #72]
	stur	q0, [x19, #88]
	stur	q0, [x19, #104]
	stur	q0, [x19, #120]
	stur	q0, [x19, #136]
	stur	q0, [x19, #152]
	stur	q0, [x19, #168]
	stur	q0, [x19, #184]
	stur	q0, [x19, #200]
	stur	q0, [x19, #216]
	stur	q0, [x19, #232]
	stur	q0, [x19, #248]
	str	q0, [x19, #40]!
	stp	q0, q0, [x19, #224]
	stp	q0, q0, [x19, #256]
	stp	q0, q0, [x19, #288]
	str	q0, [x19, #320]
	b	.LBB0_8
.LBB0_7:
	adrp	x8, .LCPI0_0
	stp	q0, q0, [x19, #32]
	ldr	q1, [x8, :lo12:.LCPI0_0]
	stp	q0, q0, [x19, #64]
	stp	q0, q0, [x19, #96]
	stp	q1, q0, [x19]
	stp	q0, q0, [x19, #128]
	stp	q0, q0, [x19, #160]
	stp	q0, q0, [x19, #192]
	stp	q0, q0, [x19, #224]
	stp	q0, q0, [x19, #256]
	stp	q0, q0, [x19, #288]
	stp	q0, q0, [x19, #320]
	str	q0, [x19, #352]
	str	xzr, [x19, #368]
.LBB0_8:
	add	sp, sp, #672
	ldp	x20, x19, [sp, #64]
	ldr	x28, [sp, #16]
	ldp	x22, x21, [sp, #48]
	ldp	x24, x23, [sp, #32]
	ldp	x29, x30, [sp], #80
	ret
.LBB0_9:
	add	x0, x19, #40
	add	x1, x24, #48
	mov	w2, #336
	stp	xzr, x12, [x19]
	stp	x11, x10, [x19, #16]
	str	x9, [x19, #32]
	bl	memcpy
	b	.LBB0_8
.Lfunc_end0:
	.size	"jpeg_header::header", .Lfunc_end0-"jpeg_header::header"

	.section	.rodata.cst16,"aM",@progbits,16
	.p2align	4, 0x0
.LCPI1_0:
	.byte	1
	.byte	2
	.byte	4
	.byte	8
	.byte	16
	.byte	32
	.byte	64
	.byte	128
	.byte	1
	.byte	2
	.byte	4
	.byte	8
	.byte	16
	.byte	32
	.byte	64
	.byte	128
.LCPI1_1:
	.xword	1
	.xword	3
.LCPI1_2:
	.xword	1
	.xword	4
	.section	".text.jpeg_header::step","ax",@progbits
	.p2align	2
	.type	"jpeg_header::step",@function
"jpeg_header::step":
	stp	x29, x30, [sp, #-96]!
	stp	x28, x27, [sp, #16]
	mov	x29, sp
	stp	x26, x25, [sp, #32]
	stp	x24, x23, [sp, #48]
	stp	x22, x21, [sp, #64]
	stp	x20, x19, [sp, #80]
	sub	sp, sp, #1040
	str	xzr, [sp]
	movi	v0.2d, #0000000000000000
	add	x19, sp, #352
	ldrb	w11, [x4, #8]
	ldr	x10, [x4]
	ldr	x9, [x4, #16]
	ldr	x8, [x4, #272]
	str	xzr, [sp, #240]
	cmp	w11, #2
	str	xzr, [sp, #80]
	stp	q0, q0, [sp, #16]
	stp	q0, q0, [sp, #48]
	stp	q0, q0, [sp, #96]
	stp	q0, q0, [sp, #128]
	stp	q0, q0, [sp, #160]
	stp	q0, q0, [sp, #192]
	stp	q0, q0, [sp, #256]
	stp	q0, q0, [sp, #288]
	stp	q0, q0, [sp, #320]
	str	q0, [sp, #224]
	str	q0, [sp]
	b.eq	.LBB1_8
	cmp	w11, #1
	b.ne	.LBB1_12
	subs	x11, x9, x10
	b.lo	.LBB1_14
	b.eq	.LBB1_10
	cmp	x11, #65
	b.lo	.LBB1_121
	add	x11, x1, x10
	ldrb	w13, [x11]
	cmp	w13, #3
	b.hi	.LBB1_121
	ldur	q0, [x11, #17]
	ldur	q1, [x11, #33]
	ldur	q2, [x11, #49]
	ldur	q3, [x11, #1]
	adrp	x11, .LCPI1_0
	cmeq	v1.16b, v1.16b, #0
	cmeq	v2.16b, v2.16b, #0
	cmeq	v0.16b, v0.16b, #0
	cmeq	v3.16b, v3.16b, #0
	ldr	q4, [x11, :lo12:.LCPI1_0]
	and	v1.16b, v1.16b, v4.16b
	and	v2.16b, v2.16b, v4.16b
	and	v0.16b, v0.16b, v4.16b
	and	v3.16b, v3.16b, v4.16b
	ext	v4.16b, v1.16b, v1.16b, #8
	ext	v6.16b, v2.16b, v2.16b, #8
	ext	v7.16b, v0.16b, v0.16b, #8
	ext	v5.16b, v3.16b, v3.16b, #8
	zip1	v1.16b, v1.16b, v4.16b
	zip1	v2.16b, v2.16b, v6.16b
	zip1	v0.16b, v0.16b, v7.16b
	zip1	v3.16b, v3.16b, v5.16b
	addv	h1, v1.8h
	addv	h2, v2.8h
	addv	h0, v0.8h
	addv	h3, v3.8h
	fmov	w11, s1
	fmov	w14, s2
	fmov	w15, s0
	fmov	w12, s3
	orr	w11, w12, w11
	orr	w12, w15, w14
	orr	w11, w11, w12
	tst	w11, #0xffff
	b.ne	.LBB1_121
	ldur	q0, [x4, #56]
	ldur	q1, [x4, #72]
	mov	w12, wzr
	ldr	x14, [x4, #264]
	ldur	q2, [x4, #88]
	mov	w11, wzr
	stur	q0, [x19, #56]
	ldur	q0, [x4, #104]
	stur	q1, [x19, #72]
	ldur	q1, [x4, #24]
	stur	q0, [x19, #104]
	ldur	q0, [x4, #40]
	stur	q1, [x19, #24]
	ldur	q1, [x4, #216]
	stur	q0, [x19, #40]
	ldur	q0, [x4, #232]
	stur	q1, [x19, #216]
	ldur	q1, [x4, #248]
	stur	q0, [x19, #232]
	ldur	q0, [x4, #152]
	stur	q1, [x19, #248]
	ldur	q1, [x4, #168]
	stur	q0, [x19, #152]
	ldur	q0, [x4, #184]
	stur	q1, [x19, #168]
	ldur	q1, [x4, #200]
	str	x14, [sp, #616]
	add	x14, sp, #352
	stur	q0, [x19, #184]
	ldur	q0, [x4, #120]
	add	x14, x14, #24
	stur	q1, [x19, #200]
	ldur	q1, [x4, #136]
	stur	q2, [x19, #88]
	stur	q0, [x19, #120]
	stur	q1, [x19, #136]
	str	x8, [sp, #624]
	add	x8, x10, #1
	add	x10, x10, #65
	str	x8, [x14, x13, lsl #3]
	mov	w8, #1
	ldur	w13, [x4, #9]
	ldur	q0, [x19, #56]
	ldur	q1, [x19, #72]
	ldur	q2, [x19, #88]
	strb	w8, [sp, #360]
	ldur	w8, [x4, #12]
	stp	q0, q1, [sp, #288]
	ldur	q0, [x19, #104]
	ldur	q1, [x19, #24]
	stur	w13, [x19, #9]
	stp	q2, q0, [sp, #320]
	ldur	q0, [x19, #40]
	ldur	q2, [x19, #136]
	str	w8, [sp, #364]
	ldr	x8, [sp, #616]
	stp	q1, q0, [sp, #256]
	ldur	q0, [x19, #120]
	ldur	q1, [x19, #200]
	str	x8, [sp, #240]
	ldr	x13, [sp, #360]
	ldr	x8, [sp, #624]
	stp	q0, q2, [sp, #96]
	ldur	q0, [x19, #184]
	ldur	q2, [x19, #168]
	str	xzr, [sp, #80]
	stp	q0, q1, [sp, #160]
	ldur	q1, [x19, #152]
	ldur	q0, [x19, #248]
	stp	q1, q2, [sp, #128]
	ldur	q1, [x19, #232]
	ldur	q2, [x19, #216]
	stp	q1, q0, [sp, #208]
	movi	v0.2d, #0000000000000000
	str	q2, [sp, #192]
	stp	q0, q0, [sp, #16]
	stp	q0, q0, [sp, #48]
	str	q0, [sp]
	b	.LBB1_124
.LBB1_8:
	subs	x13, x9, x10
	b.lo	.LBB1_14
	b.ne	.LBB1_15
.LBB1_10:
	ldur	q0, [x4, #56]
	ldur	q1, [x4, #72]
	mov	w12, wzr
	ldur	q2, [x4, #88]
	ldr	x14, [x4, #264]
	mov	w11, wzr
	stp	q0, q1, [sp, #288]
	ldur	q0, [x4, #104]
	mov	x13, xzr
	ldur	q1, [x4, #24]
	mov	x9, xzr
	str	x14, [sp, #240]
	stp	q2, q0, [sp, #320]
	ldur	q0, [x4, #40]
.LBB1_11:
	ldur	q2, [x4, #248]
	str	xzr, [sp, #80]
	stp	q1, q0, [sp, #256]
	ldur	q0, [x4, #232]
	ldur	q1, [x4, #216]
	stp	q0, q2, [sp, #208]
	ldur	q2, [x4, #200]
	ldur	q0, [x4, #184]
	stp	q2, q1, [sp, #176]
	ldur	q1, [x4, #168]
	ldur	q2, [x4, #120]
	stp	q1, q0, [sp, #144]
	ldur	q0, [x4, #152]
	movi	v1.2d, #0000000000000000
	str	q0, [sp, #128]
	ldur	q0, [x4, #136]
	stp	q1, q1, [sp, #16]
	stp	q1, q1, [sp, #48]
	stp	q2, q0, [sp, #96]
	str	q1, [sp]
	b	.LBB1_124
.LBB1_12:
	ldur	q0, [x4, #56]
	add	x11, sp, #744
	ldur	q1, [x4, #72]
	ldur	w12, [x4, #9]
	str	x9, [sp, #760]
	sub	x9, x2, x10
	stur	q0, [x11, #56]
	ldur	q0, [x4, #88]
	cmp	x9, #2
	stur	q1, [x11, #72]
	ldur	q1, [x4, #104]
	stur	q0, [x11, #88]
	ldur	q0, [x4, #24]
	stur	q1, [x11, #104]
	ldur	q1, [x4, #40]
	stur	q0, [x11, #24]
	ldur	q0, [x4, #216]
	stur	q1, [x11, #40]
	ldur	q1, [x4, #232]
	stur	q0, [x11, #216]
	ldur	q0, [x4, #248]
	stur	w12, [x11, #9]
	ldur	w12, [x4, #12]
	stur	q0, [x11, #248]
	ldur	q0, [x4, #168]
	stur	q1, [x11, #232]
	ldur	q1, [x4, #152]
	stur	q0, [x11, #168]
	ldur	q0, [x4, #184]
	str	w12, [sp, #756]
	ldr	x12, [x4, #264]
	stur	q0, [x11, #184]
	ldur	q0, [x4, #200]
	stur	q1, [x11, #152]
	stur	q0, [x11, #200]
	ldur	q0, [x4, #120]
	str	x10, [sp, #744]
	stur	q0, [x11, #120]
	ldur	q0, [x4, #136]
	strb	wzr, [sp, #752]
	stur	q0, [x11, #136]
	movi	v0.2d, #0000000000000000
	str	x12, [sp, #1008]
	str	x8, [sp, #1016]
	stp	q0, q0, [sp, #352]
	stp	q0, q0, [sp, #384]
	stp	q0, q0, [sp, #416]
	stp	q0, q0, [sp, #448]
	stp	q0, q0, [sp, #480]
	stp	q0, q0, [sp, #512]
	stp	q0, q0, [sp, #544]
	stp	q0, q0, [sp, #576]
	stp	q0, q0, [sp, #608]
	stp	q0, q0, [sp, #640]
	stp	q0, q0, [sp, #672]
	stp	q0, q0, [sp, #704]
	b.lo	.LBB1_14
	ldrb	w11, [x1, x10]
	cmp	w11, #255
	b.eq	.LBB1_18
.LBB1_14:
	mov	x10, xzr
	mov	x13, xzr
	mov	x9, xzr
	mov	x8, xzr
	b	.LBB1_122
.LBB1_15:
	add	x12, x1, x10
	cmp	x13, #2
	ldrb	w11, [x12]
	b.lo	.LBB1_21
	ldrb	w14, [x12, #1]
	cmp	x13, #2
	b.ne	.LBB1_55
	mov	w7, wzr
	mov	w6, wzr
	mov	w3, wzr
	mov	w2, wzr
	mov	w18, wzr
	mov	w17, wzr
	mov	w15, wzr
	b	.LBB1_22
.LBB1_18:
	add	x14, x10, #1
	ldrb	w11, [x1, x14]
	cmp	w11, #217
	b.eq	.LBB1_14
	cmp	w11, #255
	b.ne	.LBB1_58
	ldur	q0, [x4, #56]
	ldur	q1, [x4, #72]
	mov	w12, wzr
	ldur	q2, [x4, #88]
	ldr	x10, [x4, #264]
	mov	w11, wzr
	stp	q0, q1, [sp, #288]
	ldur	q0, [x4, #104]
	mov	x13, xzr
	ldur	q1, [x4, #24]
	mov	x9, xzr
	str	x10, [sp, #240]
	stp	q2, q0, [sp, #320]
	ldur	q0, [x4, #40]
	mov	x10, x14
	b	.LBB1_11
.LBB1_21:
	mov	w7, wzr
	mov	w6, wzr
	mov	w3, wzr
	mov	w2, wzr
	mov	w18, wzr
	mov	w17, wzr
	mov	w15, wzr
	mov	w14, wzr
.LBB1_22:
	mov	w16, wzr
.LBB1_23:
	mov	w1, wzr
.LBB1_24:
	mov	w5, wzr
.LBB1_25:
	mov	w20, wzr
.LBB1_26:
	mov	w22, wzr
.LBB1_27:
	mov	w24, wzr
.LBB1_28:
	mov	w23, wzr
.LBB1_29:
	mov	x21, xzr
	cmp	x13, #17
	b.lo	.LBB1_121
.LBB1_30:
	mov	w25, #236
	and	w25, w11, w25
	cbnz	w25, .LBB1_121
	mov	w2, w2
	mov	w26, w3
	mov	w6, w6
	mov	w7, w7
	mov	w22, w22
	mov	w20, w20
	mov	w16, w16
	mov	w25, w14
	mov	w3, w15
	add	x14, x6, x7
	add	x27, x26, x2
	mov	w15, w17
	mov	w17, w18
	mov	w24, w24
	mov	w1, w1
	add	x14, x14, x27
	add	x18, x17, x15
	add	x27, x25, x16
	add	x28, x20, x22
	mov	w23, w23
	mov	w5, w5
	add	x18, x18, x3
	add	x27, x27, x1
	add	x28, x28, x24
	add	x14, x14, x18
	add	x18, x27, x5
	add	x27, x28, x23
	add	x14, x14, x18
	add	x18, x27, x21
	add	x14, x14, x18
	sub	x18, x14, #1
	cmp	x18, #255
	b.hi	.LBB1_121
	add	x14, x14, #17
	cmp	x14, x13
	b.hi	.LBB1_121
	ldrb	w13, [x12, #1]
	cmp	w13, #1
	b.hi	.LBB1_121
	ldrb	w18, [x12, #2]
	add	x13, x18, x13, lsl #1
	cmp	x13, #3
	b.hi	.LBB1_121
	ldrb	w18, [x12, #3]
	add	x13, x18, x13, lsl #1
	cmp	x13, #7
	b.hi	.LBB1_121
	ldrb	w18, [x12, #4]
	add	x13, x18, x13, lsl #1
	cmp	x13, #15
	b.hi	.LBB1_121
	ldrb	w18, [x12, #5]
	add	x13, x18, x13, lsl #1
	cmp	x13, #31
	b.hi	.LBB1_121
	ldrb	w18, [x12, #6]
	add	x13, x18, x13, lsl #1
	cmp	x13, #63
	b.hi	.LBB1_121
	ldrb	w18, [x12, #7]
	add	x13, x18, x13, lsl #1
	cmp	x13, #127
	b.hi	.LBB1_121
	ldrb	w18, [x12, #8]
	add	x13, x18, x13, lsl #1
	cmp	x13, #255
	b.hi	.LBB1_121
	ldrb	w18, [x12, #9]
	add	x13, x18, x13, lsl #1
	cmp	x13, #511
	b.hi	.LBB1_121
	ldrb	w18, [x12, #10]
	add	x13, x18, x13, lsl #1
	cmp	x13, #1023
	b.hi	.LBB1_121
	ldrb	w18, [x12, #11]
	add	x13, x18, x13, lsl #1
	cmp	x13, #2047
	b.hi	.LBB1_121
	ldrb	w18, [x12, #12]
	add	x13, x18, x13, lsl #1
	cmp	x13, #4095
	b.hi	.LBB1_121
	ldrb	w18, [x12, #13]
	add	x13, x18, x13, lsl #1
	lsr	x18, x13, #13
	cbnz	x18, .LBB1_121
	ldrb	w18, [x12, #14]
	add	x13, x18, x13, lsl #1
	lsr	x18, x13, #14
	cbnz	x18, .LBB1_121
	ldrb	w18, [x12, #15]
	add	x13, x18, x13, lsl #1
	lsr	x18, x13, #15
	cbnz	x18, .LBB1_121
	ldrb	w18, [x12, #16]
	add	x13, x18, x13, lsl #1
	lsr	x13, x13, #16
	cbnz	x13, .LBB1_121
	add	x13, x21, x6
	add	x18, x7, x26
	add	x17, x2, x17
	add	x2, x3, x25
	add	x3, x5, x20
	add	x13, x13, x18
	add	x15, x17, x15
	add	x16, x2, x16
	add	x17, x3, x22
	add	x13, x13, x15
	add	x15, x16, x1
	add	x16, x17, x24
	add	x13, x13, x15
	add	x15, x16, x23
	cmp	w11, #16
	add	x12, x12, #17
	add	x13, x13, x15
	stp	q0, q0, [sp, #352]
	stp	q0, q0, [sp, #384]
	stp	q0, q0, [sp, #416]
	stp	q0, q0, [sp, #448]
	stp	q0, q0, [sp, #480]
	stp	q0, q0, [sp, #512]
	stp	q0, q0, [sp, #544]
	stp	q0, q0, [sp, #576]
	b.hs	.LBB1_116
.LBB1_50:
	ldrb	w15, [x12], #1
	cmp	x15, #11
	b.hi	.LBB1_121
	add	x16, sp, #352
	ldrb	w16, [x16, x15]
	tbnz	w16, #0, .LBB1_121
	add	x16, sp, #352
	subs	x13, x13, #1
	mov	w17, #1
	strb	w17, [x16, x15]
	b.ne	.LBB1_50
.LBB1_53:
	ldur	q0, [x4, #56]
	ldur	q1, [x4, #72]
	mov	w12, #2
	strb	w12, [sp, #360]
	ldur	w12, [x4, #9]
	add	x13, sp, #352
	stur	q0, [x19, #56]
	ldur	q0, [x4, #88]
	cmp	w11, #15
	stur	q1, [x19, #72]
	ldur	q1, [x4, #104]
	add	x14, x14, x10
	stur	q0, [x19, #88]
	ldur	q0, [x4, #24]
	add	x10, x10, #1
	stur	q1, [x19, #104]
	ldur	q1, [x4, #40]
	stur	q0, [x19, #24]
	ldur	q0, [x4, #216]
	stur	w12, [x19, #9]
	ldur	w12, [x4, #12]
	stur	q0, [x19, #216]
	ldur	q0, [x4, #248]
	stur	q1, [x19, #40]
	ldur	q1, [x4, #232]
	stur	q0, [x19, #248]
	ldur	q0, [x4, #168]
	str	w12, [sp, #364]
	ldr	x12, [x4, #264]
	stur	q0, [x19, #168]
	ldur	q0, [x4, #184]
	stur	q1, [x19, #232]
	ldur	q1, [x4, #152]
	stur	q0, [x19, #184]
	ldur	q0, [x4, #200]
	str	x12, [sp, #616]
	lsl	x12, x11, #3
	stur	q0, [x19, #200]
	ldur	q0, [x4, #120]
	stur	q1, [x19, #152]
	stur	q0, [x19, #120]
	ldur	q0, [x4, #136]
	str	x8, [sp, #624]
	stur	q0, [x19, #136]
	b.hi	.LBB1_125
	add	x8, x13, x12
	str	x10, [x8, #56]
	ldr	x8, [sp, #624]
	b	.LBB1_126
.LBB1_55:
	ldrb	w16, [x12, #2]
	cmp	x13, #4
	b.lo	.LBB1_70
	ldrb	w15, [x12, #3]
	cmp	x13, #4
	b.ne	.LBB1_71
	mov	w7, wzr
	mov	w6, wzr
	mov	w3, wzr
	mov	w2, wzr
	mov	w18, wzr
	mov	w17, wzr
	b	.LBB1_23
.LBB1_58:
	cmp	x9, #4
	b.lo	.LBB1_69
	add	x9, x10, #2
	cmp	x9, x2
	b.hs	.LBB1_69
	ldrb	w12, [x1, x9]
	add	x13, x10, #3
	cmp	x13, x2
	lsl	x12, x12, #8
	b.hs	.LBB1_62
	ldrb	w13, [x1, x13]
	orr	x12, x12, x13
.LBB1_62:
	cmp	x12, #2
	b.lo	.LBB1_69
	add	x5, x12, x9
	cmp	x2, x5
	b.lo	.LBB1_69
	add	x9, x10, #4
	cmp	w11, #218
	sub	x2, x5, x9
	b.le	.LBB1_78
	cmp	w11, #219
	b.eq	.LBB1_82
	cmp	w11, #221
	b.eq	.LBB1_84
	cmp	w11, #254
	b.ne	.LBB1_88
.LBB1_68:
	add	x9, sp, #352
	ldur	q0, [x4, #248]
	ldur	q1, [x4, #56]
	add	x10, x9, #136
	add	x9, x9, #296
	stp	xzr, xzr, [sp, #352]
	str	q0, [x10, #128]
	ldur	q0, [x4, #72]
	ldr	x10, [x4, #264]
	stur	q1, [x19, #72]
	ldur	q1, [x4, #88]
	stur	q0, [x19, #88]
	ldur	q0, [x4, #104]
	stur	q1, [x19, #104]
	ldur	q1, [x4, #24]
	stur	q0, [x19, #120]
	ldur	q0, [x4, #40]
	stur	q1, [x19, #40]
	ldur	q1, [x4, #232]
	stur	q0, [x19, #56]
	ldur	q0, [x4, #216]
	stur	q1, [x19, #248]
	ldur	q1, [x4, #200]
	stur	q0, [x19, #232]
	ldur	q0, [x4, #184]
	stur	q1, [x19, #216]
	ldur	q1, [x4, #168]
	stur	q0, [x19, #200]
	ldur	q0, [x4, #152]
	stur	q1, [x19, #184]
	ldur	q1, [x4, #136]
	stur	q0, [x19, #168]
	ldur	q0, [x4, #120]
	stur	q1, [x19, #152]
	stur	q0, [x19, #136]
	movi	v0.2d, #0000000000000000
	stp	x5, xzr, [sp, #368]
	str	xzr, [sp, #384]
	str	x10, [sp, #632]
	stp	q0, q0, [x9]
	stp	q0, q0, [x9, #32]
	str	q0, [x9, #64]
	str	x8, [sp, #640]
	str	xzr, [sp, #728]
	b	.LBB1_99
.LBB1_69:
	mov	x10, xzr
	mov	x13, xzr
	mov	x9, xzr
	mov	x8, xzr
	str	q0, [sp, #224]
	mov	w11, #2
	str	xzr, [sp, #240]
	stp	q0, q0, [sp]
	stp	q0, q0, [sp, #32]
	stp	q0, q0, [sp, #96]
	stp	q0, q0, [sp, #128]
	stp	q0, q0, [sp, #160]
	stp	q0, q0, [sp, #192]
	stp	q0, q0, [sp, #256]
	stp	q0, q0, [sp, #288]
	stp	q0, q0, [sp, #320]
	b	.LBB1_123
.LBB1_70:
	mov	w7, wzr
	mov	w6, wzr
	mov	w3, wzr
	mov	w2, wzr
	mov	w18, wzr
	mov	w17, wzr
	mov	w15, wzr
	b	.LBB1_23
.LBB1_71:
	ldrb	w1, [x12, #4]
	cmp	x13, #6
	b.lo	.LBB1_74
	ldrb	w17, [x12, #5]
	cmp	x13, #6
	b.ne	.LBB1_75
	mov	w7, wzr
	mov	w6, wzr
	mov	w3, wzr
	mov	w2, wzr
	mov	w18, wzr
	b	.LBB1_24
.LBB1_74:
	mov	w7, wzr
	mov	w6, wzr
	mov	w3, wzr
	mov	w2, wzr
	mov	w18, wzr
	mov	w17, wzr
	b	.LBB1_24
.LBB1_75:
	ldrb	w5, [x12, #6]
	cmp	x13, #8
	b.lo	.LBB1_81
	ldrb	w18, [x12, #7]
	cmp	x13, #8
	b.ne	.LBB1_90
	mov	w7, wzr
	mov	w6, wzr
	mov	w3, wzr
	mov	w2, wzr
	b	.LBB1_25
.LBB1_78:
	cmp	w11, #196
	b.eq	.LBB1_86
	cmp	w11, #218
	b.ne	.LBB1_88
	mov	x20, x0
	add	x0, sp, #352
	add	x1, x1, x9
	add	x4, sp, #744
	bl	"jpeg_header_state::scan"
	mov	x0, x20
	b	.LBB1_99
.LBB1_81:
	mov	w7, wzr
	mov	w6, wzr
	mov	w3, wzr
	mov	w2, wzr
	mov	w18, wzr
	b	.LBB1_25
.LBB1_82:
	cmp	x5, x9
	b.eq	.LBB1_87
	add	x10, sp, #352
	ldur	q0, [x4, #248]
	ldur	q1, [x4, #216]
	add	x11, x10, #136
	ldur	q2, [x4, #232]
	add	x10, x10, #296
	str	q0, [x11, #128]
	ldur	q0, [x4, #152]
	ldr	x11, [x4, #264]
	stur	q1, [x19, #232]
	ldur	q1, [x4, #168]
	stur	q0, [x19, #168]
	ldur	q0, [x4, #184]
	stur	q1, [x19, #184]
	ldur	q1, [x4, #200]
	stur	q0, [x19, #200]
	ldur	q0, [x4, #120]
	stur	q1, [x19, #216]
	ldur	q1, [x4, #136]
	stur	q0, [x19, #136]
	ldur	q0, [x4, #56]
	stur	q1, [x19, #152]
	ldur	q1, [x4, #72]
	stur	q0, [x19, #72]
	ldur	q0, [x4, #88]
	stur	q1, [x19, #88]
	ldur	q1, [x4, #104]
	stur	q0, [x19, #104]
	movi	v0.2d, #0000000000000000
	stur	q2, [x19, #248]
	ldur	q2, [x4, #24]
	stur	q1, [x19, #120]
	ldur	q1, [x4, #40]
	stur	q2, [x19, #40]
	stp	q0, q0, [x10]
	stp	q0, q0, [x10, #32]
	str	q0, [x10, #64]
	mov	w10, #1
	stur	q1, [x19, #56]
	str	x11, [sp, #632]
	b	.LBB1_96
.LBB1_84:
	cmp	x2, #2
	b.ne	.LBB1_93
	ldur	q0, [x4, #56]
	ldur	q1, [x4, #72]
	add	x8, sp, #352
	add	x10, x8, #136
	ldur	q2, [x4, #88]
	ldrh	w9, [x1, x9]
	stur	q0, [x19, #72]
	ldur	q0, [x4, #104]
	add	x8, x8, #296
	stur	q1, [x19, #88]
	ldur	q1, [x4, #24]
	ldur	q3, [x4, #152]
	stur	q0, [x19, #120]
	ldur	q0, [x4, #40]
	stur	q1, [x19, #40]
	ldur	q1, [x4, #248]
	stur	q0, [x19, #56]
	ldur	q0, [x4, #136]
	str	q1, [x10, #128]
	ldur	q1, [x4, #120]
	ldr	x10, [x4, #264]
	stur	q0, [x19, #152]
	ldur	q0, [x4, #200]
	stur	q2, [x19, #104]
	ldur	q2, [x4, #168]
	stur	q0, [x19, #216]
	movi	v0.2d, #0000000000000000
	stur	q1, [x19, #136]
	ldur	q1, [x4, #184]
	stur	q2, [x19, #184]
	ldur	q2, [x4, #216]
	stur	q1, [x19, #200]
	ldur	q1, [x4, #232]
	stp	q0, q0, [x8]
	stp	q0, q0, [x8, #32]
	str	q0, [x8, #64]
	rev16	w8, w9
	stur	q3, [x19, #168]
	str	x10, [sp, #632]
	stur	q1, [x19, #248]
	stur	q2, [x19, #232]
	stur	q0, [x19, #24]
	str	xzr, [sp, #728]
	b	.LBB1_94
.LBB1_86:
	cmp	x5, x9
	b.ne	.LBB1_95
.LBB1_87:
	add	x11, sp, #352
	mov	x9, xzr
	mov	x10, xzr
	add	x12, x11, #296
	add	x11, x11, #40
	mov	x5, xzr
	str	q0, [x11, #224]
	adrp	x11, .LCPI1_1
	mov	x8, xzr
	stp	q0, q0, [x12, #16]
	stp	q0, q0, [x12, #48]
	str	q0, [x12]
	stur	q0, [x19, #40]
	stur	q0, [x19, #56]
	stur	q0, [x19, #72]
	stur	q0, [x19, #88]
	stur	q0, [x19, #104]
	stur	q0, [x19, #120]
	stur	q0, [x19, #136]
	stur	q0, [x19, #152]
	stur	q0, [x19, #168]
	stur	q0, [x19, #184]
	stur	q0, [x19, #200]
	stur	q0, [x19, #216]
	stur	q0, [x19, #232]
	stur	q0, [x19, #248]
	ldr	q0, [x11, :lo12:.LCPI1_1]
	str	xzr, [sp, #728]
	str	xzr, [sp, #632]
	b	.LBB1_97
.LBB1_88:
	cmp	w11, #192
	b.hs	.LBB1_100
.LBB1_89:
	adrp	x8, .LCPI1_2
	stp	xzr, xzr, [sp, #376]
	ldr	q0, [x8, :lo12:.LCPI1_2]
	str	xzr, [sp, #368]
	str	q0, [sp, #352]
	b	.LBB1_99
.LBB1_90:
	ldrb	w20, [x12, #8]
	cmp	x13, #10
	b.lo	.LBB1_102
	ldrb	w2, [x12, #9]
	cmp	x13, #10
	b.ne	.LBB1_104
	mov	w7, wzr
	mov	w6, wzr
	mov	w3, wzr
	b	.LBB1_26
.LBB1_93:
	add	x9, sp, #352
	stur	q0, [x19, #24]
	mov	x5, xzr
	add	x10, x9, #296
	add	x9, x9, #24
	stur	q0, [x19, #40]
	str	q0, [x9, #240]
	adrp	x9, .LCPI1_1
	mov	x8, xzr
	stp	q0, q0, [x10, #16]
	stp	q0, q0, [x10, #48]
	str	q0, [x10]
	stur	q0, [x19, #56]
	stur	q0, [x19, #72]
	stur	q0, [x19, #88]
	stur	q0, [x19, #104]
	stur	q0, [x19, #120]
	stur	q0, [x19, #136]
	stur	q0, [x19, #152]
	stur	q0, [x19, #168]
	stur	q0, [x19, #184]
	stur	q0, [x19, #200]
	stur	q0, [x19, #216]
	stur	q0, [x19, #232]
	stur	q0, [x19, #248]
	ldr	q0, [x9, :lo12:.LCPI1_1]
	str	xzr, [sp, #728]
	str	xzr, [sp, #632]
.LBB1_94:
	str	q0, [sp, #352]
	str	x5, [sp, #368]
	b	.LBB1_98
.LBB1_95:
	add	x10, sp, #352
	ldur	q0, [x4, #248]
	ldur	q1, [x4, #216]
	add	x11, x10, #136
	ldur	q2, [x4, #232]
	add	x10, x10, #296
	str	q0, [x11, #128]
	ldur	q0, [x4, #152]
	ldr	x11, [x4, #264]
	stur	q1, [x19, #232]
	ldur	q1, [x4, #168]
	stur	q0, [x19, #168]
	ldur	q0, [x4, #184]
	stur	q1, [x19, #184]
	ldur	q1, [x4, #200]
	stur	q0, [x19, #200]
	ldur	q0, [x4, #120]
	stur	q1, [x19, #216]
	ldur	q1, [x4, #136]
	stur	q0, [x19, #136]
	ldur	q0, [x4, #56]
	stur	q1, [x19, #152]
	ldur	q1, [x4, #72]
	stur	q0, [x19, #72]
	ldur	q0, [x4, #88]
	stur	q1, [x19, #88]
	ldur	q1, [x4, #104]
	stur	q0, [x19, #104]
	movi	v0.2d, #0000000000000000
	stur	q2, [x19, #248]
	ldur	q2, [x4, #24]
	stur	q1, [x19, #120]
	ldur	q1, [x4, #40]
	stur	q2, [x19, #40]
	stur	q1, [x19, #56]
	str	x11, [sp, #632]
	stp	q0, q0, [x10]
	stp	q0, q0, [x10, #32]
	str	q0, [x10, #64]
	mov	w10, #2
.LBB1_96:
	str	xzr, [sp, #728]
.LBB1_97:
	str	q0, [sp, #352]
	stp	x9, x10, [sp, #368]
	str	x5, [sp, #384]
.LBB1_98:
	str	x8, [sp, #640]
.LBB1_99:
	ldur	q0, [x19, #72]
	ldur	q1, [x19, #88]
	add	x8, sp, #352
	ldur	q2, [x19, #104]
	add	x9, x8, #136
	ldr	x10, [sp, #632]
	stp	q0, q1, [sp, #288]
	ldur	q0, [x19, #120]
	ldur	q1, [x19, #40]
	str	x10, [sp, #240]
	add	x10, x8, #296
	ldr	x13, [sp, #728]
	stp	q2, q0, [sp, #320]
	ldur	q0, [x19, #56]
	ldur	q2, [x19, #152]
	str	x13, [sp, #80]
	ldr	x8, [sp, #640]
	ldrb	w12, [sp, #352]
	stp	q1, q0, [sp, #256]
	ldur	q0, [x19, #136]
	ldur	q1, [x19, #216]
	ldrb	w11, [sp, #360]
	stp	q0, q2, [sp, #96]
	ldur	q0, [x19, #200]
	stp	q0, q1, [sp, #160]
	ldur	q1, [x19, #184]
	ldur	q0, [x19, #168]
	stp	q0, q1, [sp, #128]
	ldr	q0, [x9, #128]
	ldur	q1, [x19, #248]
	ldp	x13, x9, [sp, #376]
	stp	q1, q0, [sp, #208]
	ldur	q0, [x19, #232]
	ldr	q1, [x10, #64]
	str	q0, [sp, #192]
	ldp	q2, q0, [x10, #32]
	str	q1, [sp, #64]
	stp	q2, q0, [sp, #32]
	ldp	q0, q1, [x10]
	ldr	x10, [sp, #368]
	stp	q0, q1, [sp]
	b	.LBB1_124
.LBB1_100:
	cmp	w11, #194
	b.hs	.LBB1_103
	mov	x20, x0
	add	x0, sp, #352
	add	x1, x1, x9
	add	x3, sp, #744
	mov	x4, x5
	bl	"jpeg_header_state::frame"
	mov	x0, x20
	b	.LBB1_99
.LBB1_102:
	mov	w7, wzr
	mov	w6, wzr
	mov	w3, wzr
	mov	w2, wzr
	b	.LBB1_26
.LBB1_103:
	and	w9, w11, #0xf0
	cmp	w9, #224
	b.eq	.LBB1_68
	b	.LBB1_89
.LBB1_104:
	ldrb	w22, [x12, #10]
	cmp	x13, #12
	b.lo	.LBB1_107
	ldrb	w3, [x12, #11]
	cmp	x13, #12
	b.ne	.LBB1_108
	mov	w7, wzr
	mov	w6, wzr
	b	.LBB1_27
.LBB1_107:
	mov	w7, wzr
	mov	w6, wzr
	mov	w3, wzr
	b	.LBB1_27
.LBB1_108:
	ldrb	w24, [x12, #12]
	cmp	x13, #14
	b.lo	.LBB1_111
	ldrb	w6, [x12, #13]
	cmp	x13, #14
	b.ne	.LBB1_112
	mov	w7, wzr
	b	.LBB1_28
.LBB1_111:
	mov	w7, wzr
	mov	w6, wzr
	b	.LBB1_28
.LBB1_112:
	ldrb	w23, [x12, #14]
	cmp	x13, #16
	b.lo	.LBB1_120
	ldrb	w7, [x12, #15]
	cmp	x13, #16
	b.eq	.LBB1_29
	ldrb	w21, [x12, #16]
	cmp	x13, #17
	b.hs	.LBB1_30
	b	.LBB1_121
.LBB1_115:
	add	x16, sp, #352
	subs	x13, x13, #1
	mov	w17, #1
	strb	w17, [x16, x15]
	b.eq	.LBB1_53
.LBB1_116:
	ldrb	w15, [x12], #1
	add	x16, sp, #352
	ldrb	w16, [x16, x15]
	tbnz	w16, #0, .LBB1_121
	cbz	w15, .LBB1_115
	cmp	w15, #240
	b.eq	.LBB1_115
	and	x16, x15, #0xf
	sub	x16, x16, #1
	cmp	x16, #9
	b.ls	.LBB1_115
	b	.LBB1_121
.LBB1_120:
	mov	w7, wzr
	mov	x21, xzr
	cmp	x13, #17
	b.hs	.LBB1_30
.LBB1_121:
	mov	x10, xzr
	mov	x13, xzr
	mov	x9, xzr
	mov	x8, xzr
	movi	v0.2d, #0000000000000000
.LBB1_122:
	mov	w11, #3
	stp	q0, q0, [sp]
	stp	q0, q0, [sp, #32]
	stp	q0, q0, [sp, #96]
	stp	q0, q0, [sp, #128]
	stp	q0, q0, [sp, #160]
	stp	q0, q0, [sp, #192]
	stp	q0, q0, [sp, #256]
	stp	q0, q0, [sp, #288]
	stp	q0, q0, [sp, #320]
	str	q0, [sp, #224]
	str	xzr, [sp, #240]
.LBB1_123:
	str	q0, [sp, #64]
	mov	w12, #1
	str	xzr, [sp, #80]
.LBB1_124:
	ldp	q0, q1, [sp, #288]
	mov	w12, w12
	str	x9, [x0, #32]
	add	x9, x0, #136
	ldr	q2, [sp, #64]
	mov	w11, w11
	stp	x10, x13, [x0, #16]
	stur	q0, [x0, #72]
	stur	q1, [x0, #88]
	ldp	q0, q1, [sp, #320]
	stp	x12, x11, [x0]
	stur	q0, [x0, #104]
	stur	q1, [x0, #120]
	ldp	q0, q1, [sp, #256]
	stur	q0, [x0, #40]
	stur	q1, [x0, #56]
	ldp	q1, q0, [sp, #208]
	str	q0, [x9, #128]
	ldr	x9, [sp, #240]
	stur	q1, [x0, #248]
	ldp	q1, q0, [sp, #176]
	stp	x9, x8, [x0, #280]
	add	x8, x0, #296
	ldr	x9, [sp, #80]
	str	q2, [x8, #64]
	stur	q0, [x0, #232]
	stur	q1, [x0, #216]
	ldp	q1, q0, [sp, #144]
	str	x9, [x0, #376]
	stur	q0, [x0, #200]
	stur	q1, [x0, #184]
	ldp	q1, q0, [sp, #112]
	stur	q0, [x0, #168]
	ldr	q0, [sp, #96]
	stur	q1, [x0, #152]
	stur	q0, [x0, #136]
	ldp	q0, q1, [sp, #32]
	stp	q0, q1, [x8, #32]
	ldp	q0, q1, [sp]
	stp	q0, q1, [x8]
	add	sp, sp, #1040
	ldp	x20, x19, [sp, #80]
	ldp	x22, x21, [sp, #64]
	ldp	x24, x23, [sp, #48]
	ldp	x26, x25, [sp, #32]
	ldp	x28, x27, [sp, #16]
	ldp	x29, x30, [sp], #96
	ret
.LBB1_125:
	and	x11, x12, #0x18
	add	x11, x13, x11
	str	x10, [x11, #88]
.LBB1_126:
	ldur	q0, [x13, #56]
	ldur	q1, [x13, #72]
	mov	w12, wzr
	ldur	q2, [x13, #88]
	ldr	x10, [x13, #264]
	mov	w11, wzr
	stp	q0, q1, [sp, #288]
	ldur	q0, [x13, #104]
	ldur	q1, [x13, #24]
	ldur	q3, [x13, #216]
	str	x10, [sp, #240]
	mov	x10, x14
	stp	q2, q0, [sp, #320]
	ldur	q0, [x13, #40]
	ldur	q2, [x13, #136]
	str	q3, [sp, #192]
	stp	q1, q0, [sp, #256]
	ldur	q0, [x13, #120]
	ldur	q1, [x13, #200]
	str	xzr, [sp, #80]
	stp	q0, q2, [sp, #96]
	ldur	q0, [x13, #184]
	ldur	q2, [x13, #168]
	stp	q0, q1, [sp, #160]
	ldur	q1, [x13, #152]
	ldur	q0, [x13, #248]
	stp	q1, q2, [sp, #128]
	movi	v2.2d, #0000000000000000
	ldur	q1, [x13, #232]
	ldr	x13, [sp, #360]
	stp	q1, q0, [sp, #208]
	stp	q2, q2, [sp, #16]
	stp	q2, q2, [sp, #48]
	str	q2, [sp]
	b	.LBB1_124
.Lfunc_end1:
	.size	"jpeg_header::step", .Lfunc_end1-"jpeg_header::step"

	.section	.rodata.cst16,"aM",@progbits,16
	.p2align	4, 0x0
.LCPI2_0:
	.xword	1
	.xword	3
.LCPI2_1:
	.xword	1
	.xword	4
	.section	".text.jpeg_header_state::frame","ax",@progbits
	.p2align	2
	.type	"jpeg_header_state::frame",@function
"jpeg_header_state::frame":
	stp	x29, x30, [sp, #-96]!
	str	x28, [sp, #16]
	mov	x29, sp
	stp	x26, x25, [sp, #32]
	stp	x24, x23, [sp, #48]
	stp	x22, x21, [sp, #64]
	stp	x20, x19, [sp, #80]
	sub	sp, sp, #576
	movi	v0.2d, #0000000000000000
	ldr	x8, [x3, #136]
	ldr	x19, [x3, #272]
	add	x20, sp, #160
	stp	q0, q0, [x20]
	stp	q0, q0, [x20, #32]
	stp	q0, q0, [x20, #64]
	cbz	x8, .LBB2_2
	adrp	x8, .LCPI2_0
	stp	q0, q0, [x0, #32]
	ldr	q1, [x8, :lo12:.LCPI2_0]
	stp	q1, q0, [x0]
	b	.LBB2_21
.LBB2_2:
	cmp	x2, #6
	b.lo	.LBB2_19
	ldrb	w8, [x1]
	cmp	w8, #8
	b.ne	.LBB2_19
	ldrb	w25, [x1, #5]
	sub	w8, w25, #1
	and	w8, w8, #0xff
	cmp	w8, #4
	b.hs	.LBB2_19
	add	x8, x25, x25, lsl #1
	add	x8, x8, #6
	cmp	x2, x8
	b.ne	.LBB2_23
	mov	x26, x0
	add	x0, sp, #264
	mov	x22, x3
	mov	x21, x4
	mov	x23, x1
	mov	x24, x2
	bl	"jpeg_header_rules::frame_of"
	ldr	x9, [sp, #264]
	mov	x8, x26
	cbz	x9, .LBB2_119
	ldr	x9, [sp, #272]
	cbz	x9, .LBB2_119
	cbz	w25, .LBB2_26
	mov	x9, x24
	sub	w9, w9, #5
	and	w10, w9, #0xff
	mov	w9, #171
	mul	w9, w10, w9
	cmp	w10, #3
	lsr	w9, w9, #9
	b.lo	.LBB2_25
	ldrb	w10, [x23, #7]
	lsr	x11, x10, #4
	sub	x11, x11, #1
	cmp	x11, #3
	b.hi	.LBB2_24
	and	x10, x10, #0xf
	sub	x10, x10, #1
	cmp	x10, #3
	b.hi	.LBB2_24
	cmp	w25, #1
	b.eq	.LBB2_26
	mov	x10, x24
	sub	w10, w10, #8
	and	w10, w10, #0xff
	cmp	w10, #3
	b.lo	.LBB2_25
	ldrb	w10, [x23, #10]
	lsr	x11, x10, #4
	sub	x11, x11, #1
	cmp	x11, #3
	b.hi	.LBB2_88
	and	x10, x10, #0xf
	sub	x10, x10, #1
	cmp	x10, #3
	b.hi	.LBB2_88
	cmp	w25, #2
	b.eq	.LBB2_26
	sub	w8, w24, #11
	and	w8, w8, #0xff
	cmp	w8, #3
	b.hs	.LBB2_120
	mov	x8, x26
	b	.LBB2_25
.LBB2_19:
	adrp	x8, .LCPI2_1
	ldr	q1, [x8, :lo12:.LCPI2_1]
.LBB2_20:
	stp	q1, q0, [x0]
	stp	q0, q0, [x0, #32]
.LBB2_21:
	stp	q0, q0, [x0, #64]
	stp	q0, q0, [x0, #96]
	stp	q0, q0, [x0, #128]
	stp	q0, q0, [x0, #160]
	stp	q0, q0, [x0, #192]
	stp	q0, q0, [x0, #224]
	stp	q0, q0, [x0, #256]
	stp	q0, q0, [x0, #288]
	stp	q0, q0, [x0, #320]
	stp	q0, q0, [x0, #352]
.LBB2_22:
	add	sp, sp, #576
	ldp	x20, x19, [sp, #80]
	ldr	x28, [sp, #16]
	ldp	x22, x21, [sp, #64]
	ldp	x24, x23, [sp, #48]
	ldp	x26, x25, [sp, #32]
	ldp	x29, x30, [sp], #96
	ret
.LBB2_23:
	adrp	x8, .LCPI2_0
	ldr	q1, [x8, :lo12:.LCPI2_0]
	b	.LBB2_20
.LBB2_24:
	mov	w9, wzr
.LBB2_25:
	cmp	w9, w25
	b.lo	.LBB2_119
.LBB2_26:
	ldr	x9, [sp, #280]
	mov	x10, xzr
	cbz	x9, .LBB2_34
	ldr	x11, [sp, #384]
	cmp	x11, #3
	b.hi	.LBB2_34
	cmp	x9, #1
	mov	w10, #1
	b.eq	.LBB2_34
	ldr	x11, [sp, #392]
	cmp	x11, #3
	b.hi	.LBB2_34
	cmp	x9, #2
	mov	w10, #2
	b.eq	.LBB2_34
	ldr	x11, [sp, #400]
	cmp	x11, #3
	b.hi	.LBB2_34
	cmp	x9, #3
	mov	w10, #3
	b.eq	.LBB2_34
	ldr	x11, [sp, #408]
	cmp	x11, #4
	b.lo	.LBB2_35
.LBB2_34:
	cmp	x10, x9
	b.lo	.LBB2_119
.LBB2_35:
	add	x9, sp, #105
	ldr	x10, [sp, #408]
	mov	w11, #4
	ldur	q0, [x9, #255]
	add	x9, sp, #121
	mov	x2, x24
	ldur	q1, [x9, #255]
	add	x9, sp, #137
	stur	x10, [x29, #-16]
	ldur	q2, [x9, #255]
	add	x9, sp, #41
	mov	x1, x23
	stp	q0, q1, [x20, #352]
	ldur	q0, [x9, #255]
	add	x9, sp, #57
	ldur	q1, [x9, #255]
	add	x9, sp, #73
	str	q2, [x20, #384]
	ldur	q2, [x9, #255]
	add	x9, sp, #89
	stp	q0, q1, [x20, #288]
	ldur	q0, [x9, #255]
	add	x9, sp, #25
	ldur	q1, [x9, #255]
	add	x9, sp, #9
	stp	q2, q0, [x20, #320]
	ldur	q0, [x9, #255]
	stp	q0, q1, [x20, #256]
	ldur	x9, [x29, #-144]
	cmp	x9, #4
	csel	x10, x9, x11, lo
	cbz	x9, .LBB2_108
	sub	x11, x10, #1
	sub	x13, x29, #160
	cmp	x11, #4
	b.lo	.LBB2_47
	ldur	x14, [x29, #-72]
	mov	x17, xzr
	and	x12, x11, #0xfffffffffffffffc
	add	x15, x13, #120
	sub	x16, x10, #1
	b	.LBB2_41
.LBB2_38:
	orr	x17, x17, #0x1
.LBB2_39:
	cmp	x17, x18
	b.lo	.LBB2_119
.LBB2_40:
	sub	x16, x16, #4
	add	x15, x15, #32
	mov	x17, x18
	cmp	x16, #3
	b.ls	.LBB2_48
.LBB2_41:
	cmn	x17, #4
	add	x18, x17, #4
	b.eq	.LBB2_40
	ldur	x0, [x15, #-24]
	cmp	x0, x14
	b.eq	.LBB2_39
	ldur	x0, [x15, #-16]
	cmp	x0, x14
	b.eq	.LBB2_38
	ldur	x0, [x15, #-8]
	cmp	x0, x14
	b.ne	.LBB2_46
	orr	x17, x17, #0x2
	b	.LBB2_39
.LBB2_46:
	ldr	x0, [x15]
	add	x17, x17, #3
	cmp	x0, x14
	csel	x17, x17, x18, eq
	b	.LBB2_39
.LBB2_47:
	mov	x12, xzr
.LBB2_48:
	cmp	x12, x11
	b.hs	.LBB2_53
	ldur	x14, [x29, #-72]
	add	x13, x13, #96
.LBB2_50:
	ldr	x15, [x13, x12, lsl #3]
	cmp	x15, x14
	b.eq	.LBB2_52
	add	x12, x12, #1
	cmp	x11, x12
	b.ne	.LBB2_50
	b	.LBB2_53
.LBB2_52:
	cmp	x12, x11
	b.lo	.LBB2_119
.LBB2_53:
	cmp	x9, #1
	b.eq	.LBB2_108
	sub	x11, x10, #2
	sub	x13, x29, #160
	cmp	x11, #4
	b.lo	.LBB2_65
	ldur	x14, [x29, #-64]
	mov	x17, xzr
	and	x12, x11, #0xfffffffffffffffc
	add	x15, x13, #128
	sub	x16, x10, #2
	b	.LBB2_59
.LBB2_56:
	orr	x17, x17, #0x1
.LBB2_57:
	cmp	x17, x18
	b.lo	.LBB2_119
.LBB2_58:
	sub	x16, x16, #4
	add	x15, x15, #32
	mov	x17, x18
	cmp	x16, #3
	b.ls	.LBB2_66
.LBB2_59:
	cmn	x17, #4
	add	x18, x17, #4
	b.eq	.LBB2_58
	ldur	x0, [x15, #-24]
	cmp	x0, x14
	b.eq	.LBB2_57
	ldur	x0, [x15, #-16]
	cmp	x0, x14
	b.eq	.LBB2_56
	ldur	x0, [x15, #-8]
	cmp	x0, x14
	b.ne	.LBB2_64
	orr	x17, x17, #0x2
	b	.LBB2_57
.LBB2_64:
	ldr	x0, [x15]
	add	x17, x17, #3
	cmp	x0, x14
	csel	x17, x17, x18, eq
	b	.LBB2_57
.LBB2_65:
	mov	x12, xzr
.LBB2_66:
	cmp	x12, x11
	b.hs	.LBB2_71
	ldur	x14, [x29, #-64]
	add	x13, x13, #104
.LBB2_68:
	ldr	x15, [x13, x12, lsl #3]
	cmp	x15, x14
	b.eq	.LBB2_70
	add	x12, x12, #1
	cmp	x11, x12
	b.ne	.LBB2_68
	b	.LBB2_71
.LBB2_70:
	cmp	x12, x11
	b.lo	.LBB2_119
.LBB2_71:
	cmp	x9, #2
	b.eq	.LBB2_108
	sub	x11, x10, #3
	sub	x13, x29, #160
	cmp	x11, #4
	b.lo	.LBB2_83
	ldur	x14, [x29, #-56]
	mov	x17, xzr
	and	x12, x11, #0xfffffffffffffffc
	add	x15, x13, #136
	sub	x16, x10, #3
	b	.LBB2_77
.LBB2_74:
	orr	x17, x17, #0x1
.LBB2_75:
	cmp	x17, x18
	b.lo	.LBB2_119
.LBB2_76:
	sub	x16, x16, #4
	add	x15, x15, #32
	mov	x17, x18
	cmp	x16, #3
	b.ls	.LBB2_84
.LBB2_77:
	cmn	x17, #4
	add	x18, x17, #4
	b.eq	.LBB2_76
	ldur	x0, [x15, #-24]
	cmp	x0, x14
	b.eq	.LBB2_75
	ldur	x0, [x15, #-16]
	cmp	x0, x14
	b.eq	.LBB2_74
	ldur	x0, [x15, #-8]
	cmp	x0, x14
	b.ne	.LBB2_82
	orr	x17, x17, #0x2
	b	.LBB2_75
.LBB2_82:
	ldr	x0, [x15]
	add	x17, x17, #3
	cmp	x0, x14
	csel	x17, x17, x18, eq
	b	.LBB2_75
.LBB2_83:
	mov	x12, xzr
.LBB2_84:
	cmp	x12, x11
	b.hs	.LBB2_90
	ldur	x14, [x29, #-56]
	add	x13, x13, #112
.LBB2_86:
	ldr	x15, [x13, x12, lsl #3]
	cmp	x15, x14
	b.eq	.LBB2_89
	add	x12, x12, #1
	cmp	x11, x12
	b.ne	.LBB2_86
	b	.LBB2_90
.LBB2_88:
	mov	w9, #1
	b	.LBB2_25
.LBB2_89:
	cmp	x12, x11
	b.lo	.LBB2_119
.LBB2_90:
	cmp	x9, #3
	b.eq	.LBB2_108
	sub	x9, x10, #4
	sub	x11, x29, #160
	cmp	x9, #4
	b.lo	.LBB2_102
	ldur	x12, [x29, #-48]
	mov	x15, xzr
	and	x10, x9, #0xfffffffffffffffc
	add	x13, x11, #144
	mov	x14, x9
	b	.LBB2_96
.LBB2_93:
	orr	x15, x15, #0x1
.LBB2_94:
	cmp	x15, x16
	b.lo	.LBB2_119
.LBB2_95:
	sub	x14, x14, #4
	add	x13, x13, #32
	mov	x15, x16
	cmp	x14, #3
	b.ls	.LBB2_103
.LBB2_96:
	cmn	x15, #4
	add	x16, x15, #4
	b.eq	.LBB2_95
	ldur	x17, [x13, #-24]
	cmp	x17, x12
	b.eq	.LBB2_94
	ldur	x17, [x13, #-16]
	cmp	x17, x12
	b.eq	.LBB2_93
	ldur	x17, [x13, #-8]
	cmp	x17, x12
	b.ne	.LBB2_101
	orr	x15, x15, #0x2
	b	.LBB2_94
.LBB2_101:
	ldr	x17, [x13]
	add	x15, x15, #3
	cmp	x17, x12
	csel	x15, x15, x16, eq
	b	.LBB2_94
.LBB2_102:
	mov	x10, xzr
.LBB2_103:
	cmp	x10, x9
	b.hs	.LBB2_108
	ldur	x12, [x29, #-48]
	add	x11, x11, #120
.LBB2_105:
	ldr	x13, [x11, x10, lsl #3]
	cmp	x13, x12
	b.eq	.LBB2_107
	add	x10, x10, #1
	cmp	x9, x10
	b.ne	.LBB2_105
	b	.LBB2_108
.LBB2_107:
	cmp	x10, x9
	b.lo	.LBB2_119
.LBB2_108:
	ldr	x10, [sp, #280]
	sub	x9, x10, #1
	cmp	x9, #3
	b.hi	.LBB2_119
	ldr	x9, [sp, #288]
	ldr	x11, [sp, #320]
	sub	x12, x9, #1
	sub	x13, x11, #1
	orr	x12, x13, x12
	cmp	x12, #3
	b.hi	.LBB2_119
	mul	x9, x11, x9
	cmp	x10, #1
	b.ne	.LBB2_113
.LBB2_111:
	cmp	x9, #11
	b.hs	.LBB2_119
	add	x0, sp, #8
	mov	x23, x8
	bl	"jpeg_header_rules::frame_of"
	ldur	q0, [x22, #56]
	ldur	q1, [x22, #72]
	add	x8, x23, #136
	ldur	q2, [x22, #24]
	ldur	q3, [x22, #40]
	ldur	q4, [x22, #88]
	stp	q0, q1, [x20, #32]
	ldur	q5, [x22, #104]
	stur	q0, [x23, #72]
	ldur	q0, [sp, #24]
	stur	q1, [x23, #88]
	ldur	q1, [sp, #8]
	stur	q0, [x23, #152]
	ldur	q0, [sp, #88]
	stp	q2, q3, [x20]
	stur	q0, [x23, #216]
	ldur	q0, [sp, #56]
	stur	q2, [x23, #40]
	ldur	q2, [sp, #72]
	stur	q0, [x23, #184]
	ldur	q0, [sp, #136]
	stur	q1, [x23, #136]
	ldur	q1, [sp, #40]
	str	q0, [x8, #128]
	movi	v0.2d, #0000000000000000
	ldr	x8, [sp, #152]
	stur	q2, [x23, #200]
	ldur	q2, [sp, #104]
	stur	q1, [x23, #168]
	ldur	q1, [sp, #120]
	stp	x8, x19, [x23, #280]
	add	x8, x23, #296
	stp	q4, q5, [x20, #64]
	stp	xzr, xzr, [x23]
	stp	xzr, xzr, [x23, #24]
	str	x21, [x23, #16]
	stur	q5, [x23, #120]
	stur	q4, [x23, #104]
	stur	q3, [x23, #56]
	stur	q1, [x23, #248]
	stur	q2, [x23, #232]
	stp	q0, q0, [x8]
	stp	q0, q0, [x8, #32]
	str	q0, [x8, #64]
	str	xzr, [x23, #376]
	b	.LBB2_22
.LBB2_113:
	ldr	x11, [sp, #296]
	ldr	x12, [sp, #328]
	sub	x13, x11, #1
	sub	x14, x12, #1
	orr	x13, x14, x13
	cmp	x13, #3
	b.hi	.LBB2_119
	madd	x9, x12, x11, x9
	cmp	x10, #2
	b.eq	.LBB2_111
	ldr	x11, [sp, #304]
	ldr	x12, [sp, #336]
	sub	x13, x11, #1
	sub	x14, x12, #1
	orr	x13, x14, x13
	cmp	x13, #3
	b.hi	.LBB2_119
	madd	x9, x12, x11, x9
	cmp	x10, #3
	b.eq	.LBB2_111
	ldr	x10, [sp, #312]
	ldr	x11, [sp, #344]
	sub	x12, x10, #1
	sub	x13, x11, #1
	orr	x12, x13, x12
	cmp	x12, #3
	b.hi	.LBB2_119
	madd	x9, x11, x10, x9
	b	.LBB2_111
.LBB2_119:
	movi	v0.2d, #0000000000000000
	adrp	x9, .LCPI2_1
	ldr	q1, [x9, :lo12:.LCPI2_1]
	stp	q1, q0, [x8]
	stp	q0, q0, [x8, #32]
	stp	q0, q0, [x8, #64]
	stp	q0, q0, [x8, #96]
	stp	q0, q0, [x8, #128]
	stp	q0, q0, [x8, #160]
	stp	q0, q0, [x8, #192]
	stp	q0, q0, [x8, #224]
	stp	q0, q0, [x8, #256]
	stp	q0, q0, [x8, #288]
	stp	q0, q0, [x8, #320]
	stp	q0, q0, [x8, #352]
	b	.LBB2_22
.LBB2_120:
	ldrb	w8, [x23, #13]
	lsr	x10, x8, #4
	sub	x10, x10, #1
	cmp	x10, #3
	b.hi	.LBB2_128
	and	x8, x8, #0xf
	sub	x8, x8, #1
	cmp	x8, #3
	b.hi	.LBB2_128
	cmp	w25, #3
	mov	x8, x26
	b.eq	.LBB2_26
	sub	w10, w24, #14
	and	w10, w10, #0xff
	cmp	w10, #3
	b.lo	.LBB2_25
	ldrb	w8, [x23, #16]
	lsr	x10, x8, #4
	sub	x10, x10, #1
	cmp	x10, #3
	b.hi	.LBB2_129
	and	x8, x8, #0xf
	sub	x8, x8, #1
	cmp	x8, #3
	b.hi	.LBB2_129
	cmp	w25, #4
	mov	x8, x26
	b.eq	.LBB2_26
	sub	w10, w24, #17
	and	w10, w10, #0xff
	cmp	w10, #3
	mov	w10, #4
	csel	w9, w9, w10, lo
	b	.LBB2_25
.LBB2_128:
	mov	w9, #2
	mov	x8, x26
	b	.LBB2_25
.LBB2_129:
	mov	w9, #3
	mov	x8, x26
	b	.LBB2_25
.Lfunc_end2:
	.size	"jpeg_header_state::frame", .Lfunc_end2-"jpeg_header_state::frame"

	.section	".text.jpeg_header_rules::frame_of","ax",@progbits
	.p2align	2
	.type	"jpeg_header_rules::frame_of",@function
"jpeg_header_rules::frame_of":
	ldrb	w8, [x1, #5]
	cbz	w8, .LBB3_5
	cmp	x2, #8
	b.lo	.LBB3_6
	ldrb	w18, [x1, #7]
	cmp	w8, #1
	b.eq	.LBB3_7
.LBB3_3:
	cmp	x2, #11
	b.lo	.LBB3_23
	ldrb	w17, [x1, #10]
	mov	x3, xzr
	cmp	w8, #3
	mov	w13, wzr
	b.hs	.LBB3_24
	b	.LBB3_9
.LBB3_5:
	mov	w13, wzr
	mov	x18, xzr
	b	.LBB3_8
.LBB3_6:
	mov	x18, xzr
	cmp	w8, #1
	b.ne	.LBB3_3
.LBB3_7:
	mov	w13, wzr
.LBB3_8:
	mov	x17, xzr
	mov	x3, xzr
.LBB3_9:
	str	x23, [sp, #-48]!
	ldrb	w9, [x1, #3]
	ldrb	w10, [x1, #4]
	cmp	w8, #1
	ldrb	w11, [x1, #1]
	ldrb	w12, [x1, #2]
	stp	x22, x21, [sp, #16]
	stp	x20, x19, [sp, #32]
	b.ne	.LBB3_14
	cmp	x2, #7
	b.lo	.LBB3_19
	ldrb	w3, [x1, #6]
	mov	x18, xzr
	mov	x15, xzr
	mov	x17, xzr
	mov	x14, xzr
	mov	x13, xzr
	mov	x16, xzr
	mov	x4, xzr
	mov	w6, #1
	mov	w5, #1
.LBB3_12:
	cmp	x2, #9
	mov	x7, xzr
	b.lo	.LBB3_20
	mov	w19, wzr
	b	.LBB3_38
.LBB3_14:
	mov	w15, w13
	lsr	x14, x17, #4
	lsr	x5, x18, #4
	lsr	x13, x15, #4
	lsr	x16, x3, #4
	mov	w21, wzr
	mov	x7, xzr
	and	x15, x15, #0xf
	and	x17, x17, #0xf
	and	x6, x18, #0xf
	and	x18, x3, #0xf
	cbz	w8, .LBB3_18
	cmp	x2, #6
	b.ls	.LBB3_18
	ldrb	w3, [x1, #6]
	cmp	x2, #10
	b.lo	.LBB3_33
	ldrb	w4, [x1, #9]
	cmp	w8, #3
	b.hs	.LBB3_34
	b	.LBB3_12
.LBB3_18:
	mov	x4, x7
	mov	x3, x7
	mov	x19, x7
	mov	x20, x7
	mov	x22, x7
	mov	x23, x7
	b	.LBB3_40
.LBB3_19:
	mov	x7, xzr
	mov	x4, xzr
	mov	x3, xzr
	mov	x19, xzr
	mov	x16, xzr
	mov	x13, xzr
	mov	x14, xzr
	mov	x17, xzr
	mov	x15, xzr
	mov	x18, xzr
	mov	w21, wzr
	mov	x20, xzr
	mov	x22, xzr
	mov	x23, xzr
	mov	w5, #1
	mov	w6, #1
	b	.LBB3_40
.LBB3_20:
	mov	x19, x7
	mov	x20, x7
	cmp	w8, #1
	b.eq	.LBB3_39
.LBB3_21:
	cmp	x2, #12
	b.lo	.LBB3_28
	ldrb	w22, [x1, #11]
	mov	x23, xzr
	cmp	w8, #3
	mov	w21, wzr
	b.hs	.LBB3_29
	b	.LBB3_40
.LBB3_23:
	mov	x17, xzr
	mov	x3, xzr
	cmp	w8, #3
	mov	w13, wzr
	b.lo	.LBB3_9
.LBB3_24:
	cmp	x2, #14
	b.lo	.LBB3_9
	ldrb	w13, [x1, #13]
	cmp	w8, #3
	mov	x3, xzr
	b.eq	.LBB3_9
	cmp	x2, #17
	b.lo	.LBB3_9
	ldrb	w3, [x1, #16]
	b	.LBB3_9
.LBB3_28:
	mov	x22, xzr
	mov	x23, xzr
	cmp	w8, #3
	mov	w21, wzr
	b.lo	.LBB3_40
.LBB3_29:
	cmp	x2, #15
	b.lo	.LBB3_40
	ldrb	w21, [x1, #14]
	cmp	w8, #3
	mov	x23, xzr
	b.eq	.LBB3_40
	cmp	x2, #18
	b.lo	.LBB3_40
	ldrb	w23, [x1, #17]
	b	.LBB3_40
.LBB3_33:
	mov	x4, xzr
	cmp	w8, #3
	b.lo	.LBB3_12
.LBB3_34:
	cmp	x2, #13
	b.lo	.LBB3_12
	ldrb	w19, [x1, #12]
	cmp	w8, #3
	mov	x7, xzr
	b.eq	.LBB3_38
	cmp	x2, #16
	b.lo	.LBB3_38
	ldrb	w7, [x1, #15]
.LBB3_38:
	ldrb	w20, [x1, #8]
	mov	w19, w19
	cmp	w8, #1
	b.ne	.LBB3_21
.LBB3_39:
	mov	w21, wzr
	mov	x22, xzr
	mov	x23, xzr
.LBB3_40:
	stp	x8, x5, [x0, #16]
	mov	w8, w21
	orr	x9, x10, x9, lsl #8
	orr	x10, x12, x11, lsl #8
	stp	x4, x19, [x0, #96]
	stp	x7, x20, [x0, #112]
	ldp	x20, x19, [sp, #32]
	stp	x22, x8, [x0, #128]
	ldp	x22, x21, [sp, #16]
	stp	x9, x10, [x0]
	stp	x14, x13, [x0, #32]
	stp	x16, x6, [x0, #48]
	stp	x17, x15, [x0, #64]
	stp	x18, x3, [x0, #80]
	str	x23, [x0, #144]
	ldr	x23, [sp], #48
	ret
.Lfunc_end3:
	.size	"jpeg_header_rules::frame_of", .Lfunc_end3-"jpeg_header_rules::frame_of"

	.section	.rodata.cst16,"aM",@progbits,16
	.p2align	4, 0x0
.LCPI4_0:
	.xword	1
	.xword	3
.LCPI4_1:
	.xword	1
	.xword	4
.LCPI4_2:
	.xword	0
	.xword	1
	.section	".text.jpeg_header_state::scan","ax",@progbits
	.p2align	2
	.type	"jpeg_header_state::scan",@function
"jpeg_header_state::scan":
	str	x30, [sp, #-96]!
	stp	x28, x27, [sp, #16]
	stp	x26, x25, [sp, #32]
	stp	x24, x23, [sp, #48]
	stp	x22, x21, [sp, #64]
	stp	x20, x19, [sp, #80]
	sub	sp, sp, #608
	movi	v0.2d, #0000000000000000
	ldp	x15, x16, [x4, #120]
	ldp	x11, x12, [x4, #208]
	add	x9, sp, #176
	ldp	x13, x10, [x4, #224]
	ldr	x14, [x4, #136]
	ldr	x8, [x4, #272]
	stur	wzr, [sp, #43]
	stp	q0, q0, [x9]
	stp	q0, q0, [x9, #32]
	stp	q0, q0, [sp, #48]
	stp	q0, q0, [sp, #80]
	stp	q0, q0, [sp, #112]
	stp	q0, q0, [sp, #144]
	str	wzr, [sp, #40]
	cbz	x14, .LBB4_21
	sub	x17, x15, #1
	mov	w18, #65534
	cmp	x17, x18
	b.hi	.LBB4_28
	sub	x17, x16, #1
	mov	w18, #65534
	cmp	x17, x18
	b.hi	.LBB4_28
	cmp	x14, #4
	b.hi	.LBB4_28
	ldr	x17, [x4, #144]
	ldr	x6, [x4, #176]
	sub	x18, x17, #1
	sub	x7, x6, #1
	orr	x18, x7, x18
	cmp	x18, #3
	b.hi	.LBB4_28
	mul	x7, x6, x17
	cmp	x14, #1
	b.ne	.LBB4_22
.LBB4_6:
	cmp	x7, #10
	b.hi	.LBB4_28
	cbz	x2, .LBB4_28
	ldrb	w18, [x1]
	cmp	x14, x18
	b.ne	.LBB4_28
	lsl	x19, x14, #1
	add	x19, x19, #4
	cmp	x2, x19
	b.ne	.LBB4_28
	add	x19, x1, x2
	ldurb	w20, [x19, #-2]
	cmp	w20, #63
	b.ne	.LBB4_28
	ldurb	w20, [x19, #-3]
	ldurb	w19, [x19, #-1]
	orr	w19, w19, w20
	cbnz	w19, .LBB4_28
	cbz	w18, .LBB4_46
	ldrb	w19, [x1, #1]
	cmp	x11, x19
	b.ne	.LBB4_33
	cmp	w18, #1
	b.eq	.LBB4_41
	ldrb	w19, [x1, #3]
	cmp	x12, x19
	b.ne	.LBB4_36
	cmp	w18, #2
	b.eq	.LBB4_41
	ldrb	w19, [x1, #5]
	cmp	x13, x19
	b.ne	.LBB4_37
	cmp	w18, #3
	b.eq	.LBB4_41
	cmp	x2, #8
	b.lo	.LBB4_38
	ldrb	w19, [x1, #7]
	b	.LBB4_39
.LBB4_21:
	adrp	x8, .LCPI4_0
	stp	q0, q0, [x0, #32]
	ldr	q1, [x8, :lo12:.LCPI4_0]
	stp	q1, q0, [x0]
	b	.LBB4_31
.LBB4_22:
	ldr	x19, [x4, #152]
	ldr	x18, [x4, #184]
	sub	x20, x19, #1
	sub	x21, x18, #1
	orr	x20, x21, x20
	cmp	x20, #3
	b.hi	.LBB4_28
	madd	x7, x18, x19, x7
	cmp	x19, x17
	csel	x17, x19, x17, hi
	cmp	x18, x6
	csel	x6, x18, x6, hi
	cmp	x14, #2
	b.eq	.LBB4_6
	ldr	x19, [x4, #160]
	ldr	x18, [x4, #192]
	sub	x20, x19, #1
	sub	x21, x18, #1
	orr	x20, x21, x20
	cmp	x20, #3
	b.hi	.LBB4_28
	madd	x7, x18, x19, x7
	cmp	x19, x17
	csel	x17, x19, x17, hi
	cmp	x18, x6
	csel	x6, x18, x6, hi
	cmp	x14, #3
	b.eq	.LBB4_6
	ldr	x19, [x4, #168]
	ldr	x18, [x4, #200]
	sub	x20, x19, #1
	sub	x21, x18, #1
	orr	x20, x21, x20
	cmp	x20, #3
	b.hi	.LBB4_28
	madd	x7, x18, x19, x7
	cmp	x19, x17
	csel	x17, x19, x17, hi
	cmp	x18, x6
	csel	x6, x18, x6, hi
	b	.LBB4_6
.LBB4_28:
	adrp	x8, .LCPI4_1
.LBB4_29:
	ldr	q1, [x8, :lo12:.LCPI4_1]
.LBB4_30:
	stp	q1, q0, [x0]
	stp	q0, q0, [x0, #32]
.LBB4_31:
	stp	q0, q0, [x0, #64]
	stp	q0, q0, [x0, #96]
	stp	q0, q0, [x0, #128]
	stp	q0, q0, [x0, #160]
	stp	q0, q0, [x0, #192]
	stp	q0, q0, [x0, #224]
	stp	q0, q0, [x0, #256]
	stp	q0, q0, [x0, #288]
	stp	q0, q0, [x0, #320]
	stp	q0, q0, [x0, #352]
.LBB4_32:
	add	sp, sp, #608
	ldp	x20, x19, [sp, #80]
	ldp	x22, x21, [sp, #64]
	ldp	x24, x23, [sp, #48]
	ldp	x26, x25, [sp, #32]
	ldp	x28, x27, [sp, #16]
	ldr	x30, [sp], #96
	ret
.LBB4_33:
	mov	x18, xzr
.LBB4_34:
	cmp	x18, x14
	b.hs	.LBB4_41
	adrp	x8, .LCPI4_0
	movi	v0.2d, #0000000000000000
	ldr	q1, [x8, :lo12:.LCPI4_0]
	b	.LBB4_30
.LBB4_36:
	mov	w18, #1
	b	.LBB4_34
.LBB4_37:
	mov	w18, #2
	b	.LBB4_34
.LBB4_38:
	mov	x19, xzr
.LBB4_39:
	cmp	x19, x10
	b.ne	.LBB4_88
	cmp	w18, #4
	b.ne	.LBB4_89
.LBB4_41:
	mov	w18, #2
	mov	x19, x14
	b	.LBB4_43
.LBB4_42:
	subs	x19, x19, #1
	add	x18, x18, #2
	b.eq	.LBB4_46
.LBB4_43:
	cmp	x18, x2
	b.hs	.LBB4_42
	ldrb	w20, [x1, x18]
	tst	w20, #0xcccccccc
	b.eq	.LBB4_42
	adrp	x8, .LCPI4_1
	movi	v0.2d, #0000000000000000
	b	.LBB4_29
.LBB4_46:
	ldrb	w28, [x1, #2]
	cmp	x14, #1
	b.ne	.LBB4_48
	mov	w26, wzr
	mov	w2, wzr
	mov	x18, xzr
	b	.LBB4_53
.LBB4_48:
	ldrb	w2, [x1, #4]
	cmp	x14, #3
	b.lo	.LBB4_51
	ldrb	w26, [x1, #6]
	cmp	x14, #3
	b.ne	.LBB4_52
	mov	x18, xzr
	b	.LBB4_53
.LBB4_51:
	mov	w26, wzr
	mov	x18, xzr
	b	.LBB4_53
.LBB4_52:
	ldrb	w18, [x1, #8]
.LBB4_53:
	lsr	x19, x15, #16
	mov	x1, xzr
	mov	w27, w2
	cbnz	x19, .LBB4_56
	sub	x2, x17, #1
	cmp	x2, #3
	b.hi	.LBB4_56
	lsl	w17, w17, #3
	and	w1, w15, #0xffff
	and	w2, w17, #0xfff8
	udiv	w1, w1, w2
	msub	w17, w1, w17, w15
	tst	w17, #0xffff
	cinc	x17, x1, ne
	mul	x1, x17, x7
.LBB4_56:
	lsr	x7, x16, #16
	mov	x17, xzr
	add	x2, sp, #240
	cbnz	x7, .LBB4_59
	sub	x7, x6, #1
	cmp	x7, #3
	b.hi	.LBB4_59
	lsl	w17, w6, #3
	and	w6, w16, #0xffff
	and	w7, w17, #0xfff8
	udiv	w6, w6, w7
	msub	w17, w6, w17, w16
	tst	w17, #0xffff
	cinc	x17, x6, ne
	mul	x17, x17, x1
.LBB4_59:
	ldp	q0, q1, [x4, #240]
	lsr	x1, x28, #4
	lsr	x6, x27, #4
	mov	w7, w26
	lsr	x21, x18, #4
	lsr	x19, x7, #4
	and	x23, x7, #0xf
	lsl	x25, x17, #6
	stur	q0, [x9, #184]
	ldur	q0, [x4, #56]
	and	x20, x28, #0xf
	stur	q1, [x9, #200]
	ldur	q1, [x4, #72]
	and	x24, x18, #0xf
	stur	q0, [x9, #248]
	ldur	q0, [x4, #88]
	stur	q1, [x2, #200]
	ldur	q1, [x4, #104]
	stur	q0, [x2, #216]
	ldur	q0, [x4, #24]
	stur	q1, [x2, #232]
	ldur	q1, [x4, #40]
	stur	q0, [x2, #152]
	ldr	x7, [sp, #424]
	stur	q1, [x2, #168]
	mul	x2, x16, x15
	ldr	x30, [sp, #392]
	stp	x1, x6, [sp, #488]
	cmp	x7, #0
	ldr	x7, [sp, #360]
	str	x6, [sp, #616]
	ccmp	x30, #0, #4, ne
	stp	x21, x19, [sp, #24]
	cmp	x7, #3
	stp	x19, x21, [sp, #504]
	add	x19, sp, #240
	and	x21, x27, #0xf
	mul	x6, x2, x14
	mov	w2, #3136
	add	x30, x19, #184
	str	x20, [sp, #520]
	str	x21, [sp, #528]
	madd	x22, x17, x2, x6
	add	x2, x19, #152
	str	x23, [sp, #536]
	str	x24, [sp, #544]
	str	x8, [sp, #552]
	str	x5, [sp, #560]
	str	x17, [sp, #568]
	str	x22, [sp, #16]
	str	x22, [sp, #592]
	add	x22, x19, #361
	add	x19, x19, #216
	str	x25, [sp, #576]
	str	x6, [sp, #584]
	strb	w3, [sp, #600]
	str	wzr, [x22]
	str	wzr, [sp, #604]
	b.hi	.LBB4_87
	ldr	x7, [x2, x7, lsl #3]
	cbz	x7, .LBB4_87
	cmp	w28, #63
	b.hi	.LBB4_87
	ldr	x7, [x30, x1, lsl #3]
	cbz	x7, .LBB4_87
	cmp	x20, #3
	b.hi	.LBB4_87
	ldr	x7, [x19, x20, lsl #3]
	cbz	x7, .LBB4_87
	cmp	x14, #1
	b.ne	.LBB4_67
.LBB4_66:
	ldp	q0, q1, [x4, #144]
	adrp	x18, .LCPI4_2
	stp	q0, q1, [x9]
	ldp	q0, q2, [x4, #176]
	stp	q0, q2, [x9, #32]
	ldp	q1, q0, [x4, #240]
	ldur	q2, [x4, #56]
	stp	q1, q0, [sp, #144]
	ldur	q0, [x4, #72]
	ldur	q1, [x4, #88]
	stp	q2, q0, [sp, #80]
	ldur	q0, [x4, #104]
	ldur	q2, [x4, #24]
	stp	q1, q0, [sp, #112]
	ldur	q1, [x4, #40]
	ldr	q0, [x18, :lo12:.LCPI4_2]
	stp	x24, x8, [x0, #320]
	ldr	x8, [sp, #16]
	stp	q2, q1, [sp, #48]
	str	q0, [x0]
	ldp	q1, q0, [x9, #32]
	str	x8, [x0, #368]
	add	x8, x0, #377
	stp	x15, x16, [x0, #16]
	stur	q0, [x0, #88]
	stur	q1, [x0, #72]
	ldp	q1, q0, [x9]
	ldr	x9, [sp, #616]
	str	x14, [x0, #32]
	stp	x11, x12, [x0, #104]
	stur	q0, [x0, #56]
	stur	q1, [x0, #40]
	ldp	q1, q0, [sp, #144]
	stp	x1, x9, [x0, #264]
	ldr	x9, [sp, #32]
	stp	x13, x10, [x0, #120]
	stur	q0, [x0, #152]
	ldp	q2, q0, [sp, #48]
	stur	q1, [x0, #136]
	str	x9, [x0, #280]
	ldr	x9, [sp, #24]
	stur	q0, [x0, #184]
	ldp	q1, q0, [sp, #112]
	stur	q2, [x0, #168]
	stp	x9, x20, [x0, #288]
	stur	q0, [x0, #248]
	ldp	q2, q0, [sp, #80]
	stur	q1, [x0, #232]
	stp	x21, x23, [x0, #304]
	stur	q0, [x0, #216]
	stur	q2, [x0, #200]
	stp	x5, x17, [x0, #336]
	stp	x25, x6, [x0, #352]
	strb	w3, [x0, #376]
	str	wzr, [x0, #380]
	str	wzr, [x8]
	b	.LBB4_32
.LBB4_67:
	ldr	x7, [sp, #368]
	cmp	x7, #3
	b.hi	.LBB4_87
	ldr	x7, [x2, x7, lsl #3]
	cbz	x7, .LBB4_87
	cmp	w27, #63
	b.hi	.LBB4_87
	ldr	x7, [sp, #616]
	ldr	x7, [x30, x7, lsl #3]
	cbz	x7, .LBB4_87
	cmp	x21, #3
	b.hi	.LBB4_87
	ldr	x7, [x19, x21, lsl #3]
	cbz	x7, .LBB4_87
	cmp	x14, #2
	b.eq	.LBB4_66
	ldr	x7, [sp, #376]
	cmp	x7, #3
	b.hi	.LBB4_87
	ldr	x7, [x2, x7, lsl #3]
	cbz	x7, .LBB4_87
	cmp	w26, #63
	b.hi	.LBB4_87
	ldr	x7, [sp, #32]
	ldr	x7, [x30, x7, lsl #3]
	cbz	x7, .LBB4_87
	cmp	x23, #3
	b.hi	.LBB4_87
	ldr	x7, [x19, x23, lsl #3]
	cbz	x7, .LBB4_87
	cmp	x14, #3
	b.eq	.LBB4_66
	ldr	x7, [sp, #384]
	cmp	x7, #3
	b.hi	.LBB4_87
	ldr	x2, [x2, x7, lsl #3]
	cbz	x2, .LBB4_87
	cmp	x18, #63
	b.hi	.LBB4_87
	ldr	x18, [sp, #24]
	ldr	x18, [x30, x18, lsl #3]
	cbz	x18, .LBB4_87
	cmp	x24, #3
	b.hi	.LBB4_87
	ldr	x18, [x19, x24, lsl #3]
	cbnz	x18, .LBB4_66
.LBB4_87:
	ldp	q0, q1, [x9]
	adrp	x8, .LCPI4_0
	stp	xzr, xzr, [x0, #24]
	str	xzr, [x0, #16]
	stur	q0, [x0, #40]
	ldr	q0, [x8, :lo12:.LCPI4_0]
	add	x8, x0, #264
	stur	q1, [x0, #56]
	str	q0, [x0]
	ldp	q1, q0, [x9, #32]
	ldur	w9, [sp, #43]
	strb	wzr, [x0, #376]
	stur	q1, [x0, #72]
	stur	q0, [x0, #88]
	ldp	q0, q1, [sp, #144]
	str	w9, [x0, #380]
	add	x9, x0, #377
	stur	q1, [x0, #152]
	stur	q0, [x0, #136]
	ldp	q1, q0, [sp, #80]
	stur	q1, [x0, #200]
	stur	q0, [x0, #216]
	ldp	q1, q0, [sp, #112]
	stur	q1, [x0, #232]
	stur	q0, [x0, #248]
	ldp	q1, q0, [sp, #48]
	stur	q1, [x0, #168]
	movi	v1.2d, #0000000000000000
	stur	q0, [x0, #184]
	stp	q1, q1, [x8]
	stp	q1, q1, [x8, #32]
	stp	q1, q1, [x8, #64]
	str	q1, [x8, #96]
	ldr	w8, [sp, #40]
	stur	q1, [x0, #104]
	stur	q1, [x0, #120]
	str	w8, [x9]
	b	.LBB4_32
.LBB4_88:
	mov	w18, #3
	b	.LBB4_34
.LBB4_89:
	mov	w18, #4
	mov	w19, #9
	b	.LBB4_91
.LBB4_90:
	add	x18, x18, #1
	add	x19, x19, #2
	cmp	x14, x18
	b.eq	.LBB4_41
.LBB4_91:
	cmp	x19, x2
	b.hs	.LBB4_90
	ldrb	w20, [x1, x19]
	cbz	w20, .LBB4_90
	b	.LBB4_34
.Lfunc_end4:
	.size	"jpeg_header_state::scan", .Lfunc_end4-"jpeg_header_state::scan"

	.section	".text.jpeg_scan_plan::Plan::of","ax",@progbits
	.p2align	2
	.type	"jpeg_scan_plan::Plan::of",@function
"jpeg_scan_plan::Plan::of":
	sub	sp, sp, #240
	ldr	x8, [x2, #320]
	str	x27, [sp, #160]
	stp	x26, x25, [sp, #176]
	cmp	x1, x8
	stp	x24, x23, [sp, #192]
	stp	x22, x21, [sp, #208]
	stp	x20, x19, [sp, #224]
	b.lo	.LBB5_24
	ldr	x7, [x2, #16]
	sub	x9, x7, #1
	cmp	x9, #3
	b.hi	.LBB5_24
	ldr	x9, [x2, #24]
	ldr	x10, [x2, #56]
	sub	x11, x9, #1
	sub	x12, x10, #1
	orr	x11, x12, x11
	cmp	x11, #3
	b.hi	.LBB5_24
	mul	x9, x10, x9
	ldp	x15, x12, [x2, #120]
	ldp	x13, x14, [x2, #136]
	ldr	x10, [x2, #312]
	ldp	x16, x17, [x2, #248]
	cmp	x7, #1
	ldp	x18, x1, [x2, #264]
	ldr	x11, [x2, #328]
	ldp	x3, x4, [x2, #280]
	ldp	x5, x6, [x2, #296]
	b.ne	.LBB5_18
.LBB5_4:
	cmp	x9, #10
	b.hi	.LBB5_24
	ldur	q0, [x2, #184]
	ldur	q1, [x2, #200]
	cmp	x16, #3
	stp	q0, q1, [sp]
	b.hi	.LBB5_26
	mov	x7, sp
	ldr	x16, [x7, x16, lsl #3]
	cmp	x17, #3
	b.ls	.LBB5_27
.LBB5_7:
	mov	x17, xzr
	cmp	x18, #3
	b.ls	.LBB5_28
.LBB5_8:
	mov	x18, xzr
	cmp	x1, #3
	b.ls	.LBB5_29
.LBB5_9:
	mov	x1, xzr
	ldur	q0, [x2, #216]
	ldur	q1, [x2, #232]
	cmp	x3, #3
	stp	q0, q1, [sp]
	b.ls	.LBB5_30
.LBB5_10:
	mov	x3, xzr
	cmp	x4, #3
	b.ls	.LBB5_31
.LBB5_11:
	mov	x4, xzr
	cmp	x5, #3
	b.ls	.LBB5_32
.LBB5_12:
	mov	x5, xzr
	cmp	x6, #3
	b.ls	.LBB5_33
.LBB5_13:
	mov	x6, xzr
	ldur	q0, [x2, #152]
	ldur	q1, [x2, #168]
	cmp	x15, #3
	stp	q0, q1, [sp]
	b.ls	.LBB5_34
.LBB5_14:
	mov	x7, xzr
	cmp	x12, #3
	b.ls	.LBB5_35
.LBB5_15:
	mov	x19, xzr
	cmp	x13, #3
	b.ls	.LBB5_36
.LBB5_16:
	mov	x20, xzr
	cmp	x14, #3
	b.ls	.LBB5_37
.LBB5_17:
	mov	x21, xzr
	b	.LBB5_38
.LBB5_18:
	ldr	x19, [x2, #32]
	ldr	x20, [x2, #64]
	sub	x21, x19, #1
	sub	x22, x20, #1
	orr	x21, x22, x21
	cmp	x21, #3
	b.hi	.LBB5_24
	madd	x9, x20, x19, x9
	cmp	x7, #2
	b.eq	.LBB5_4
	ldr	x19, [x2, #40]
	ldr	x20, [x2, #72]
	sub	x21, x19, #1
	sub	x22, x20, #1
	orr	x21, x22, x21
	cmp	x21, #3
	b.hi	.LBB5_24
	madd	x9, x20, x19, x9
	cmp	x7, #3
	b.eq	.LBB5_4
	ldr	x7, [x2, #48]
	ldr	x19, [x2, #80]
	sub	x20, x7, #1
	sub	x21, x19, #1
	orr	x20, x21, x20
	cmp	x20, #3
	b.hi	.LBB5_24
	madd	x9, x19, x7, x9
	b	.LBB5_4
.LBB5_24:
	movi	v0.2d, #0000000000000000
	stp	q0, q0, [x0, #16]
	stp	q0, q0, [x0, #48]
	stp	q0, q0, [x0, #80]
	stp	q0, q0, [x0, #112]
	str	q0, [x0]
.LBB5_25:
	ldp	x20, x19, [sp, #224]
	ldr	x27, [sp, #160]
	ldp	x22, x21, [sp, #208]
	ldp	x24, x23, [sp, #192]
	ldp	x26, x25, [sp, #176]
	add	sp, sp, #240
	ret
.LBB5_26:
	mov	x16, xzr
	cmp	x17, #3
	b.hi	.LBB5_7
.LBB5_27:
	mov	x7, sp
	ldr	x17, [x7, x17, lsl #3]
	cmp	x18, #3
	b.hi	.LBB5_8
.LBB5_28:
	mov	x7, sp
	ldr	x18, [x7, x18, lsl #3]
	cmp	x1, #3
	b.hi	.LBB5_9
.LBB5_29:
	mov	x7, sp
	ldr	x1, [x7, x1, lsl #3]
	ldur	q0, [x2, #216]
	ldur	q1, [x2, #232]
	cmp	x3, #3
	stp	q0, q1, [sp]
	b.hi	.LBB5_10
.LBB5_30:
	mov	x7, sp
	ldr	x3, [x7, x3, lsl #3]
	cmp	x4, #3
	b.hi	.LBB5_11
.LBB5_31:
	mov	x7, sp
	ldr	x4, [x7, x4, lsl #3]
	cmp	x5, #3
	b.hi	.LBB5_12
.LBB5_32:
	mov	x7, sp
	ldr	x5, [x7, x5, lsl #3]
	cmp	x6, #3
	b.hi	.LBB5_13
.LBB5_33:
	mov	x7, sp
	ldr	x6, [x7, x6, lsl #3]
	ldur	q0, [x2, #152]
	ldur	q1, [x2, #168]
	cmp	x15, #3
	stp	q0, q1, [sp]
	b.hi	.LBB5_14
.LBB5_34:
	mov	x7, sp
	ldr	x7, [x7, x15, lsl #3]
	cmp	x12, #3
	b.hi	.LBB5_15
.LBB5_35:
	mov	x19, sp
	ldr	x19, [x19, x12, lsl #3]
	cmp	x13, #3
	b.hi	.LBB5_16
.LBB5_36:
	mov	x20, sp
	ldr	x20, [x20, x13, lsl #3]
	cmp	x14, #3
	b.hi	.LBB5_17
.LBB5_37:
	mov	x21, sp
	ldr	x21, [x21, x14, lsl #3]
.LBB5_38:
	ldp	q0, q1, [x2, #64]
	ldr	q2, [x2, #96]
	ldr	x22, [x2, #112]
	stp	x12, x13, [sp, #128]
	str	q2, [sp, #96]
	stp	q0, q1, [sp, #64]
	ldp	q0, q1, [x2]
	stp	x22, x15, [sp, #112]
	str	x14, [sp, #144]
	stp	q0, q1, [sp]
	ldp	q2, q0, [x2, #32]
	ldr	x22, [sp, #16]
	stp	q2, q0, [sp, #32]
	cbz	x22, .LBB5_44
	mov	x23, xzr
	mov	w24, #9
.LBB5_40:
	mov	x25, sp
	add	x25, x25, x23, lsl #3
	ldr	x26, [x25, #24]
	ldr	x25, [x25, #56]
	mul	x25, x25, x26
	subs	x24, x24, x25
	b.lo	.LBB5_43
	add	x23, x23, #1
	cmp	x22, x23
	b.ne	.LBB5_40
	mov	x23, x22
.LBB5_43:
	ubfiz	x22, x23, #2, #2
.LBB5_44:
	ldp	q0, q1, [x2, #64]
	ldr	q2, [x2, #96]
	ldr	x23, [x2, #112]
	stp	x12, x13, [sp, #128]
	str	q2, [sp, #96]
	stp	q0, q1, [sp, #64]
	ldp	q0, q1, [x2]
	stp	x23, x15, [sp, #112]
	str	x14, [sp, #144]
	stp	q0, q1, [sp]
	ldp	q2, q0, [x2, #32]
	ldr	x23, [sp, #16]
	stp	q2, q0, [sp, #32]
	cbz	x23, .LBB5_50
	mov	x24, xzr
	mov	w25, #8
.LBB5_46:
	mov	x26, sp
	add	x26, x26, x24, lsl #3
	ldr	x27, [x26, #24]
	ldr	x26, [x26, #56]
	mul	x26, x26, x27
	subs	x25, x25, x26
	b.lo	.LBB5_49
	add	x24, x24, #1
	cmp	x23, x24
	b.ne	.LBB5_46
	mov	x24, x23
.LBB5_49:
	and	x23, x24, #0x3
	orr	x22, x23, x22
.LBB5_50:
	ldp	q0, q1, [x2, #64]
	lsl	x22, x22, #2
	ldr	q2, [x2, #96]
	ldr	x23, [x2, #112]
	stp	x12, x13, [sp, #128]
	str	x14, [sp, #144]
	stp	q0, q1, [sp, #64]
	ldp	q0, q1, [x2]
	str	q2, [sp, #96]
	stp	x23, x15, [sp, #112]
	stp	q0, q1, [sp]
	ldp	q2, q0, [x2, #32]
	ldr	x23, [sp, #16]
	stp	q2, q0, [sp, #32]
	cbz	x23, .LBB5_56
	mov	x24, xzr
	mov	w25, #7
.LBB5_52:
	mov	x26, sp
	add	x26, x26, x24, lsl #3
	ldr	x27, [x26, #24]
	ldr	x26, [x26, #56]
	mul	x26, x26, x27
	subs	x25, x25, x26
	b.lo	.LBB5_55
	add	x24, x24, #1
	cmp	x23, x24
	b.ne	.LBB5_52
	mov	x24, x23
.LBB5_55:
	and	x23, x24, #0x3
	orr	x22, x23, x22
.LBB5_56:
	ldp	q0, q1, [x2, #64]
	lsl	x22, x22, #2
	ldr	q2, [x2, #96]
	ldr	x23, [x2, #112]
	stp	x12, x13, [sp, #128]
	str	x14, [sp, #144]
	stp	q0, q1, [sp, #64]
	ldp	q0, q1, [x2]
	str	q2, [sp, #96]
	stp	x23, x15, [sp, #112]
	stp	q0, q1, [sp]
	ldp	q2, q0, [x2, #32]
	ldr	x23, [sp, #16]
	stp	q2, q0, [sp, #32]
	cbz	x23, .LBB5_62
	mov	x24, xzr
	mov	w25, #6
.LBB5_58:
	mov	x26, sp
	add	x26, x26, x24, lsl #3
	ldr	x27, [x26, #24]
	ldr	x26, [x26, #56]
	mul	x26, x26, x27
	subs	x25, x25, x26
	b.lo	.LBB5_61
	add	x24, x24, #1
	cmp	x23, x24
	b.ne	.LBB5_58
	mov	x24, x23
.LBB5_61:
	and	x23, x24, #0x3
	orr	x22, x23, x22
.LBB5_62:
	ldp	q0, q1, [x2, #64]
	lsl	x22, x22, #2
	ldr	q2, [x2, #96]
	ldr	x23, [x2, #112]
	stp	x12, x13, [sp, #128]
	str	x14, [sp, #144]
	stp	q0, q1, [sp, #64]
	ldp	q0, q1, [x2]
	str	q2, [sp, #96]
	stp	x23, x15, [sp, #112]
	stp	q0, q1, [sp]
	ldp	q2, q0, [x2, #32]
	ldr	x23, [sp, #16]
	stp	q2, q0, [sp, #32]
	cbz	x23, .LBB5_68
	mov	x24, xzr
	mov	w25, #5
.LBB5_64:
	mov	x26, sp
	add	x26, x26, x24, lsl #3
	ldr	x27, [x26, #24]
	ldr	x26, [x26, #56]
	mul	x26, x26, x27
	subs	x25, x25, x26
	b.lo	.LBB5_67
	add	x24, x24, #1
	cmp	x23, x24
	b.ne	.LBB5_64
	mov	x24, x23
.LBB5_67:
	and	x23, x24, #0x3
	orr	x22, x23, x22
.LBB5_68:
	ldp	q0, q1, [x2, #64]
	lsl	x22, x22, #2
	ldr	q2, [x2, #96]
	ldr	x23, [x2, #112]
	stp	x12, x13, [sp, #128]
	str	x14, [sp, #144]
	stp	q0, q1, [sp, #64]
	ldp	q0, q1, [x2]
	str	q2, [sp, #96]
	stp	x23, x15, [sp, #112]
	stp	q0, q1, [sp]
	ldp	q2, q0, [x2, #32]
	ldr	x23, [sp, #16]
	stp	q2, q0, [sp, #32]
	cbz	x23, .LBB5_74
	mov	x24, xzr
	mov	w25, #4
.LBB5_70:
	mov	x26, sp
	add	x26, x26, x24, lsl #3
	ldr	x27, [x26, #24]
	ldr	x26, [x26, #56]
	mul	x26, x26, x27
	subs	x25, x25, x26
	b.lo	.LBB5_73
	add	x24, x24, #1
	cmp	x23, x24
	b.ne	.LBB5_70
	mov	x24, x23
.LBB5_73:
	and	x23, x24, #0x3
	orr	x22, x23, x22
.LBB5_74:
	ldp	q0, q1, [x2, #64]
	lsl	x22, x22, #2
	ldr	q2, [x2, #96]
	ldr	x23, [x2, #112]
	stp	x12, x13, [sp, #128]
	str	x14, [sp, #144]
	stp	q0, q1, [sp, #64]
	ldp	q0, q1, [x2]
	str	q2, [sp, #96]
	stp	x23, x15, [sp, #112]
	stp	q0, q1, [sp]
	ldp	q2, q0, [x2, #32]
	ldr	x23, [sp, #16]
	stp	q2, q0, [sp, #32]
	cbz	x23, .LBB5_80
	mov	x24, xzr
	mov	w25, #3
.LBB5_76:
	mov	x26, sp
	add	x26, x26, x24, lsl #3
	ldr	x27, [x26, #24]
	ldr	x26, [x26, #56]
	mul	x26, x26, x27
	subs	x25, x25, x26
	b.lo	.LBB5_79
	add	x24, x24, #1
	cmp	x23, x24
	b.ne	.LBB5_76
	mov	x24, x23
.LBB5_79:
	and	x23, x24, #0x3
	orr	x22, x23, x22
.LBB5_80:
	ldp	q0, q1, [x2, #64]
	lsl	x22, x22, #2
	ldr	q2, [x2, #96]
	ldr	x23, [x2, #112]
	stp	x12, x13, [sp, #128]
	str	x14, [sp, #144]
	stp	q0, q1, [sp, #64]
	ldp	q0, q1, [x2]
	str	q2, [sp, #96]
	stp	x23, x15, [sp, #112]
	stp	q0, q1, [sp]
	ldp	q2, q0, [x2, #32]
	ldr	x23, [sp, #16]
	stp	q2, q0, [sp, #32]
	cbz	x23, .LBB5_86
	mov	x24, xzr
	mov	w25, #2
.LBB5_82:
	mov	x26, sp
	add	x26, x26, x24, lsl #3
	ldr	x27, [x26, #24]
	ldr	x26, [x26, #56]
	mul	x26, x26, x27
	subs	x25, x25, x26
	b.lo	.LBB5_85
	add	x24, x24, #1
	cmp	x23, x24
	b.ne	.LBB5_82
	mov	x24, x23
.LBB5_85:
	and	x23, x24, #0x3
	orr	x22, x23, x22
.LBB5_86:
	ldp	q0, q1, [x2, #64]
	lsl	x22, x22, #2
	ldr	q2, [x2, #96]
	ldr	x23, [x2, #112]
	stp	x12, x13, [sp, #128]
	str	x14, [sp, #144]
	stp	q0, q1, [sp, #64]
	ldp	q0, q1, [x2]
	str	q2, [sp, #96]
	stp	x23, x15, [sp, #112]
	stp	q0, q1, [sp]
	ldp	q2, q0, [x2, #32]
	ldr	x23, [sp, #16]
	stp	q2, q0, [sp, #32]
	cbz	x23, .LBB5_92
	mov	x24, xzr
	mov	w25, #1
.LBB5_88:
	mov	x26, sp
	add	x26, x26, x24, lsl #3
	ldr	x27, [x26, #24]
	ldr	x26, [x26, #56]
	mul	x26, x26, x27
	subs	x25, x25, x26
	b.lo	.LBB5_91
	add	x24, x24, #1
	cmp	x23, x24
	b.ne	.LBB5_88
	mov	x24, x23
.LBB5_91:
	and	x23, x24, #0x3
	orr	x22, x23, x22
.LBB5_92:
	ldp	q0, q1, [x2, #64]
	ldr	q2, [x2, #96]
	stp	x12, x13, [sp, #128]
	mov	x12, xzr
	str	q2, [sp, #96]
	stp	q0, q1, [sp, #64]
	ldp	q0, q1, [x2]
	str	x14, [sp, #144]
	stp	q0, q1, [sp]
	ldp	q2, q0, [x2, #32]
	ldr	x2, [x2, #112]
	stp	x2, x15, [sp, #112]
	ldr	x15, [sp, #16]
	stp	q2, q0, [sp, #32]
	cbz	x15, .LBB5_97
.LBB5_93:
	mov	x13, sp
	add	x13, x13, x12, lsl #3
	ldr	x14, [x13, #24]
	ldr	x13, [x13, #56]
	mul	x13, x13, x14
	cbnz	x13, .LBB5_96
	add	x12, x12, #1
	cmp	x15, x12
	b.ne	.LBB5_93
	mov	x12, x15
.LBB5_96:
	and	x12, x12, #0x3
.LBB5_97:
	mov	w13, #1
	stp	x16, x17, [x0, #16]
	stp	x13, x8, [x0]
	orr	x8, x12, x22, lsl #2
	stp	x18, x1, [x0, #32]
	stp	x3, x4, [x0, #48]
	stp	x5, x6, [x0, #64]
	stp	x7, x19, [x0, #80]
	stp	x20, x21, [x0, #96]
	stp	x8, x9, [x0, #112]
	stp	x10, x11, [x0, #128]
	b	.LBB5_25
.Lfunc_end5:
	.size	"jpeg_scan_plan::Plan::of", .Lfunc_end5-"jpeg_scan_plan::Plan::of"

	.section	.rodata.cst16,"aM",@progbits,16
	.p2align	4, 0x0
.LCPI6_0:
	.byte	0
	.byte	1
	.byte	8
	.byte	16
	.byte	9
	.byte	2
	.byte	3
	.byte	10
	.byte	17
	.byte	24
	.byte	32
	.byte	25
	.byte	18
	.byte	11
	.byte	4
	.byte	5
.LCPI6_1:
	.byte	12
	.byte	19
	.byte	26
	.byte	33
	.byte	40
	.byte	48
	.byte	41
	.byte	34
	.byte	27
	.byte	20
	.byte	13
	.byte	6
	.byte	7
	.byte	14
	.byte	21
	.byte	28
.LCPI6_2:
	.byte	35
	.byte	42
	.byte	49
	.byte	56
	.byte	57
	.byte	50
	.byte	43
	.byte	36
	.byte	29
	.byte	22
	.byte	15
	.byte	23
	.byte	30
	.byte	37
	.byte	44
	.byte	51
.LCPI6_3:
	.byte	58
	.byte	59
	.byte	52
	.byte	45
	.byte	38
	.byte	31
	.byte	39
	.byte	46
	.byte	53
	.byte	60
	.byte	61
	.byte	54
	.byte	47
	.byte	55
	.byte	62
	.byte	63
	.section	".text.jpeg_scan::run::<#c44e4da361dd472c>","ax",@progbits
	.p2align	2
	.type	"jpeg_scan::run::<#c44e4da361dd472c>",@function
"jpeg_scan::run::<#c44e4da361dd472c>":
	str	x30, [sp, #-96]!
	stp	x28, x27, [sp, #16]
	stp	x26, x25, [sp, #32]
	stp	x24, x23, [sp, #48]
	stp	x22, x21, [sp, #64]
	stp	x20, x19, [sp, #80]
	sub	sp, sp, #1392
	str	xzr, [sp]
	ldur	q0, [x1, #88]
	ldur	q1, [x1, #104]
	ldr	x5, [x1, #16]
	ldp	x8, x13, [x1, #120]
	stp	q0, q1, [sp, #208]
	ldur	q0, [x1, #24]
	ldur	q1, [x1, #40]
	ldp	x12, x11, [x1]
	ldp	x14, x15, [x1, #136]
	stp	q0, q1, [sp, #144]
	ldur	q0, [x1, #72]
	ldur	q1, [x1, #56]
	str	x8, [sp, #240]
	stp	q1, q0, [sp, #176]
	cbz	x13, .LBB6_112
	udiv	x8, x15, x13
	msub	x9, x8, x13, x15
	cmp	x9, #0
	cinc	x21, x8, ne
	cbz	x21, .LBB6_91
	movi	v0.2d, #0000000000000000
	add	x9, sp, #408
	add	x10, sp, #816
	lsr	x6, x4, #6
	mov	x17, xzr
	mov	x16, xzr
	mov	x1, xzr
	mov	x27, xzr
	add	x18, x9, #24
	sub	x24, x14, #1
	add	x20, x9, #56
	add	x8, x9, #88
	add	x19, x10, #32
	add	x7, x10, #256
	neg	x22, x11
	mov	x9, x5
.LBB6_3:
	ldp	q1, q2, [sp, #192]
	and	x4, x27, #0xff
	mov	x27, x4
	ldr	q3, [sp, #224]
	ldr	x10, [sp, #240]
	bfi	x27, x1, #8, #8
	cmp	x15, x16
	stp	x12, x11, [sp, #408]
	stp	q1, q2, [x18, #48]
	ldp	q2, q4, [sp, #160]
	ldr	q1, [sp, #144]
	str	q3, [x18, #80]
	str	x5, [sp, #424]
	stp	q1, q2, [x18]
	str	x10, [x18, #96]
	str	q4, [x18, #32]
	str	x13, [sp, #536]
	str	x14, [sp, #544]
	str	x15, [sp, #552]
	b.ls	.LBB6_86
	stp	x8, x6, [sp, #128]
	str	x7, [sp, #120]
	cbz	x14, .LBB6_12
	cbz	x17, .LBB6_12
	udiv	x8, x17, x14
	mov	x10, x9
	msub	x6, x8, x14, x17
	cbnz	x6, .LBB6_13
	ubfiz	x10, x1, #8, #8
	mov	x1, #-1
	sub	w8, w8, #1
	mov	w6, #208
	cmp	x24, x17
	mov	w7, #3
	lsr	x10, x10, #8
	bfxil	x6, x8, #0, #3
	lsl	x10, x1, x10
	mov	w1, #208
	csel	x1, x6, x1, lo
	orr	x10, x10, x4
	cmn	x10, #1
	b.ne	.LBB6_111
	cmp	x9, x11
	b.hs	.LBB6_111
	mov	x8, xzr
	add	x4, x22, x9
	mov	x10, x12
.LBB6_10:
	ldrb	w6, [x10, x9]
	cmp	x6, #255
	b.ne	.LBB6_87
	sub	x8, x8, #1
	add	x10, x10, #1
	cmp	x4, x8
	b.ne	.LBB6_10
	b	.LBB6_103
.LBB6_12:
	mov	x10, x9
.LBB6_13:
	subs	x1, x15, x16
	ldr	x4, [sp, #528]
	mov	x8, xzr
	csel	x1, xzr, x1, lo
	mov	x6, x16
	str	q0, [sp, #384]
	cmp	x1, x13
	str	x20, [sp, #96]
	csel	x1, x1, x13, lo
	stp	x19, x1, [sp, #80]
.LBB6_14:
	add	x1, sp, #384
	movi	v0.2d, #0000000000000000
	and	x7, x4, #0x3
	bfi	x1, x4, #2, #2
	stp	x4, x7, [sp, #104]
	ldr	x4, [x18, x7, lsl #3]
	ldr	x20, [x20, x7, lsl #3]
	str	x6, [sp, #1400]
	mov	x6, xzr
	ldrsw	x1, [x1]
	mov	x30, x10
	lsr	x28, x27, #8
	mov	w7, #1
	stp	q0, q0, [sp, #256]
	stp	q0, q0, [sp, #288]
	stp	q0, q0, [sp, #320]
	stp	q0, q0, [sp, #352]
.LBB6_15:
	subs	x22, x5, x4
	b.ls	.LBB6_96
	cmp	x22, #16
	mov	w23, #16
	mov	x19, xzr
	add	x25, x12, x4
	add	x4, x4, #16
	csel	x23, x22, x23, lo
	b	.LBB6_19
.LBB6_17:
	sub	w28, w28, #1
	and	w22, w27, #0xff
	lsr	w22, w22, w28
	and	w26, w22, #0x1
	mov	w26, w26
	ldrb	w22, [x25], #1
	orr	x26, x26, x19, lsl #1
	subs	x19, x26, x22
	b.lo	.LBB6_26
.LBB6_18:
	subs	x23, x23, #1
	add	x4, x4, x22
	b.eq	.LBB6_96
.LBB6_19:
	tst	w28, #0xff
	b.ne	.LBB6_17
	cmp	x11, x10
	b.ls	.LBB6_97
	ldrb	w27, [x12, x10]
	add	x22, x10, #1
	cmp	w27, #255
	b.ne	.LBB6_25
	cmp	x11, x22
	b.ls	.LBB6_97
	ldrb	w22, [x12, x22]
	cbnz	w22, .LBB6_104
	add	x22, x10, #2
.LBB6_25:
	lsr	w26, w27, #7
	mov	w28, #7
	mov	x10, x22
	mov	w26, w26
	ldrb	w22, [x25], #1
	orr	x26, x26, x19, lsl #1
	subs	x19, x26, x22
	b.hs	.LBB6_18
.LBB6_26:
	add	x4, x26, x4
	cmp	x4, x5
	b.hs	.LBB6_34
	ldrb	w19, [x12, x4]
	cbz	x6, .LBB6_39
	cmp	w19, #240
	b.eq	.LBB6_44
	cbz	w19, .LBB6_60
	and	x22, x19, #0xf
	mov	w7, #3
	sub	x4, x22, #1
	cmp	x4, #9
	b.hi	.LBB6_105
	lsr	x4, x19, #4
	add	x19, x4, x6
	cmp	x19, #64
	b.hs	.LBB6_105
	mov	x19, x22
	and	x23, x28, #0xff
	add	x6, x4, x6
	cmp	x22, x23
	b.hi	.LBB6_41
.LBB6_33:
	mov	x4, xzr
	mov	x7, x19
	b	.LBB6_36
.LBB6_34:
	cbnz	x6, .LBB6_60
	mov	x19, xzr
	mov	x4, xzr
	mov	x7, xzr
	and	x23, x28, #0xff
.LBB6_36:
	mov	w22, w27
	sub	x28, x23, x7
	mov	x23, #-1
	and	x22, x22, #0xff
	lsl	x23, x23, x7
	lsl	x4, x4, x7
	lsr	x22, x22, x28
	mov	w7, #1
	lsl	x7, x7, x19
	bic	x22, x22, x23
	add	x4, x22, x4
	sub	w19, w4, w7
	cmp	x7, x4, lsl #1
	csinc	w4, w4, w19, ls
	cbnz	x6, .LBB6_38
	add	x4, x1, w4, sxth
	add	x7, x4, #2048
	cmp	x7, #4095
	b.hi	.LBB6_110
.LBB6_38:
	add	x19, sp, #256
	add	x7, x6, #1
	strh	w4, [x19, x6, lsl #1]
	mov	x6, x7
	cmp	x7, #64
	mov	x4, x20
	b.lo	.LBB6_15
	b	.LBB6_60
.LBB6_39:
	cmp	w19, #11
	b.hi	.LBB6_110
	and	x23, x28, #0xff
	add	x6, xzr, x6
	cmp	x19, x23
	b.ls	.LBB6_33
.LBB6_41:
	cmp	x11, x10
	b.ls	.LBB6_97
	ldrb	w25, [x12, x10]
	add	x4, x10, #1
	cmp	x25, #255
	b.eq	.LBB6_46
	mov	x10, x4
	b	.LBB6_49
.LBB6_44:
	cmp	x6, #49
	b.hs	.LBB6_110
	add	x6, x6, #16
	cmp	x6, #64
	mov	x4, x20
	b.lo	.LBB6_15
	b	.LBB6_60
.LBB6_46:
	cmp	x11, x4
	b.ls	.LBB6_97
	ldrb	w4, [x12, x4]
	cbnz	w4, .LBB6_104
	add	x10, x10, #2
.LBB6_49:
	mov	x4, #-1
	lsr	x22, x25, #7
	mvn	x7, x23
	lsl	x4, x4, x23
	add	x7, x19, x7
	cmp	x7, #8
	bic	w4, w27, w4
	and	x4, x4, #0xff
	orr	x4, x22, x4, lsl #1
	b.lo	.LBB6_58
	b	.LBB6_53
.LBB6_51:
	mov	x10, x22
.LBB6_52:
	ubfiz	x22, x25, #1, #7
	sub	x7, x7, #8
	mov	w25, w27
	cmp	x7, #7
	orr	x4, x22, x4, lsl #8
	orr	x4, x4, x27, lsr #7
	b.ls	.LBB6_59
.LBB6_53:
	cmp	x11, x10
	b.ls	.LBB6_97
	ldrb	w27, [x12, x10]
	add	x22, x10, #1
	cmp	x27, #255
	b.ne	.LBB6_51
	cmp	x11, x22
	b.ls	.LBB6_97
	ldrb	w22, [x12, x22]
	cbnz	w22, .LBB6_104
	add	x10, x10, #2
	b	.LBB6_52
.LBB6_58:
	mov	w23, #7
	mov	w27, w25
	b	.LBB6_36
.LBB6_59:
	mov	w23, #7
	b	.LBB6_36
.LBB6_60:
	ldrsh	w23, [sp, #256]
	ldr	x20, [sp, #96]
	mov	x1, x8
	ldr	x6, [sp, #1400]
	cbz	w2, .LBB6_84
	ldr	x8, [sp, #136]
	cmp	x8, x6
	b.ls	.LBB6_84
	str	x1, [sp, #40]
	ldr	x8, [sp, #128]
	ldr	x1, [sp, #112]
	mov	w19, #64
	ldr	x4, [x8, x1, lsl #3]
	add	x8, x3, x6, lsl #6
	cmp	x5, x4
	csel	x6, x5, x4, lo
	sub	x1, x5, x6
	add	x6, x12, x6
	cmp	x1, #64
	csel	x1, x1, x19, lo
	mov	x19, #536870912
	cmp	x7, #1
	movk	x19, #32, lsl #32
	b.ne	.LBB6_65
	cmp	x5, x4
	b.ls	.LBB6_82
	ldrb	w1, [x6]
	b	.LBB6_83
.LBB6_65:
	movi	v0.2d, #0000000000000000
	adrp	x4, .LCPI6_0
	str	x8, [sp, #16]
	ldr	q1, [x4, :lo12:.LCPI6_0]
	adrp	x4, .LCPI6_1
	cmp	x7, #64
	ldr	x8, [sp, #80]
	str	q1, [sp, #1328]
	stp	q0, q0, [sp, #560]
	stp	q0, q0, [sp, #592]
	stp	q0, q0, [sp, #624]
	stp	q0, q0, [sp, #656]
	stp	q0, q0, [sp, #688]
	stp	q0, q0, [sp, #720]
	stp	q0, q0, [sp, #752]
	stp	q0, q0, [sp, #784]
	stp	q0, q0, [sp, #816]
	stp	q0, q0, [sp, #848]
	stp	q0, q0, [sp, #880]
	stp	q0, q0, [sp, #912]
	stp	q0, q0, [sp, #944]
	stp	q0, q0, [sp, #976]
	stp	q0, q0, [sp, #1008]
	str	q0, [sp, #1040]
	str	q0, [sp, #1056]
	str	q0, [sp, #1072]
	str	q0, [sp, #1088]
	str	q0, [sp, #1104]
	str	q0, [sp, #1120]
	str	q0, [sp, #1136]
	str	q0, [sp, #1152]
	str	q0, [sp, #1168]
	str	q0, [sp, #1184]
	str	q0, [sp, #1200]
	str	q0, [sp, #1216]
	str	q0, [sp, #1232]
	str	q0, [sp, #1248]
	str	q0, [sp, #1264]
	str	q0, [sp, #1280]
	str	q0, [sp, #1296]
	str	q0, [sp, #1312]
	ldr	q0, [x4, :lo12:.LCPI6_1]
	adrp	x4, .LCPI6_2
	ldr	q2, [x4, :lo12:.LCPI6_2]
	adrp	x4, .LCPI6_3
	str	q0, [sp, #1344]
	ldr	q0, [x4, :lo12:.LCPI6_3]
	mov	w4, #64
	csel	x4, x7, x4, lo
	str	q2, [sp, #1360]
	str	q0, [sp, #1376]
	cbz	x7, .LBB6_71
	mov	x7, xzr
	b	.LBB6_69
.LBB6_67:
	ldrb	w19, [x6, x7]
.LBB6_68:
	add	x20, sp, #256
	add	x22, sp, #1328
	ldrsh	x20, [x20, x7, lsl #1]
	ldrb	w22, [x22, x7]
	add	x7, x7, #1
	cmp	x4, x7
	smull	x19, w19, w20
	add	x20, sp, #816
	str	x19, [x20, x22, lsl #3]
	b.eq	.LBB6_71
.LBB6_69:
	cmp	x7, x1
	b.lo	.LBB6_67
	mov	x19, xzr
	b	.LBB6_68
.LBB6_71:
	mov	w1, #8
	mov	x6, x8
	str	w23, [sp, #28]
	str	x16, [sp, #32]
	str	x5, [sp, #72]
	str	x3, [sp, #48]
	str	w2, [sp, #68]
	b	.LBB6_74
.LBB6_72:
	mov	w8, #11585
	mul	x4, x26, x8
	mov	x7, x4
	mov	x19, x4
	mov	x20, x4
	mov	x23, x4
	mov	x30, x4
	mov	x25, x4
	mov	x26, x4
.LBB6_73:
	stp	x4, x7, [x6, #-32]
	subs	x1, x1, #1
	stp	x19, x20, [x6, #-16]
	stp	x23, x30, [x6]
	stp	x25, x26, [x6, #16]
	add	x6, x6, #64
	b.eq	.LBB6_76
.LBB6_74:
	ldp	x4, x23, [x6, #-24]
	ldr	x20, [x6, #24]
	ldp	x7, x22, [x6, #-8]
	ldp	x19, x25, [x6, #8]
	orr	x26, x23, x4
	orr	x30, x7, x22
	orr	x8, x19, x25
	orr	x30, x26, x30
	ldur	x26, [x6, #-32]
	orr	x8, x8, x20
	orr	x8, x30, x8
	cbz	x8, .LBB6_72
	add	x8, x22, x26
	mov	w30, #11585
	sub	x22, x26, x22
	mov	w26, #15137
	mul	x2, x8, x30
	mov	x3, x21
	mov	x21, #-3196
	mov	w16, #3196
	mov	x24, #-16069
	mul	x22, x22, x30
	mov	w30, #6270
	mul	x26, x23, x26
	mul	x23, x23, x30
	madd	x26, x25, x30, x26
	mov	x30, #-15137
	madd	x23, x25, x30, x23
	mov	w25, #16069
	mov	w30, #13623
	mul	x25, x4, x25
	mul	x5, x4, x30
	madd	x25, x7, x30, x25
	madd	x5, x7, x21, x5
	mov	w21, #9102
	madd	x25, x19, x21, x25
	mul	x21, x4, x21
	mul	x4, x4, x16
	madd	x8, x20, x16, x25
	mov	x25, #-9102
	madd	x4, x7, x25, x4
	madd	x21, x7, x24, x21
	madd	x4, x19, x30, x4
	madd	x5, x19, x24, x5
	madd	x16, x19, x16, x21
	madd	x21, x20, x24, x4
	add	x24, x26, x2
	sub	x2, x2, x26
	add	x4, x8, x24
	sub	x26, x24, x8
	madd	x5, x20, x25, x5
	add	x25, x23, x22
	sub	x22, x22, x23
	madd	x16, x20, x30, x16
	add	x20, x21, x2
	sub	x23, x2, x21
	mov	x21, x3
	ldr	x3, [sp, #48]
	add	x7, x5, x25
	sub	x25, x25, x5
	add	x19, x16, x22
	sub	x30, x22, x16
	b	.LBB6_73
.LBB6_76:
	movi	v0.2d, #0000000000000000
	ldr	x6, [sp, #120]
	str	x21, [sp, #56]
	stp	q0, q0, [sp, #560]
	stp	q0, q0, [sp, #592]
	stp	q0, q0, [sp, #624]
	stp	q0, q0, [sp, #656]
	stp	q0, q0, [sp, #688]
	stp	q0, q0, [sp, #720]
	stp	q0, q0, [sp, #752]
	stp	q0, q0, [sp, #784]
	b	.LBB6_79
.LBB6_77:
	mov	w5, #16069
	mov	w19, #13623
	mov	w8, #11585
	mul	x5, x7, x5
	mov	w16, #15137
	mov	w2, #6270
	mov	w21, #3196
	mov	x25, #536870912
	mul	x20, x7, x19
	movk	x25, #32, lsl #32
	madd	x19, x4, x19, x5
	mov	x5, #-3196
	mul	x8, x26, x8
	madd	x5, x4, x5, x20
	mov	w20, #9102
	mul	x16, x23, x16
	add	x22, x8, x25
	mul	x20, x7, x20
	mul	x2, x23, x2
	add	x23, x16, x22
	mul	x7, x7, x21
	mov	x21, #-16069
	madd	x20, x4, x21, x20
	mov	x21, #-9102
	madd	x4, x4, x21, x7
	sub	x7, x8, x2
	sub	x8, x8, x16
	add	x16, x19, x23
	add	x21, sp, #560
	add	x7, x7, x25
	lsr	x16, x16, #30
	add	x21, x21, x1
	add	x8, x8, x25
	add	x24, x7, x20
	add	x2, x2, x22
	str	w16, [x21]
	lsr	x16, x24, #30
	add	x22, x5, x2
	add	x24, x8, x4
	sub	x8, x8, x4
	lsr	x22, x22, #30
	str	w16, [x21, #64]
	lsr	x8, x8, #30
	sub	x16, x7, x20
	lsr	x16, x16, #30
	sub	x2, x2, x5
	str	w22, [x21, #32]
	str	w8, [x21, #128]
	lsr	x8, x2, #30
	sub	x2, x23, x19
	lsr	x22, x24, #30
	str	w16, [x21, #160]
	lsr	x16, x2, #30
	str	w8, [x21, #192]
	str	w22, [x21, #96]
	str	w16, [x21, #224]
.LBB6_78:
	add	x1, x1, #4
	ldr	x5, [sp, #72]
	ldr	w2, [sp, #68]
	ldr	x21, [sp, #56]
	cmp	x1, #32
	add	x6, x6, #8
	sub	x24, x14, #1
	b.eq	.LBB6_81
.LBB6_79:
	ldr	x22, [x6]
	ldr	x20, [x6, #64]
	ldr	x25, [x6, #128]
	ldr	x19, [x6, #192]
	ldur	x26, [x6, #-256]
	ldur	x7, [x6, #-192]
	orr	x8, x20, x22
	ldur	x23, [x6, #-128]
	ldur	x4, [x6, #-64]
	orr	x16, x25, x19
	orr	x8, x8, x16
	cbz	x8, .LBB6_77
	add	x8, x22, x26
	mov	w16, #11585
	sub	x2, x26, x22
	mul	x8, x8, x16
	mov	w5, #6270
	mov	w22, #13623
	mov	x24, #-3196
	mov	w30, #3196
	mul	x16, x2, x16
	mov	w2, #15137
	mul	x2, x23, x2
	mul	x21, x23, x5
	madd	x2, x25, x5, x2
	mov	x5, #-15137
	madd	x5, x25, x5, x21
	mov	w21, #16069
	mov	x25, #-16069
	mul	x21, x7, x21
	mul	x23, x7, x22
	madd	x21, x4, x22, x21
	madd	x23, x4, x24, x23
	mov	w24, #9102
	madd	x21, x20, x24, x21
	mul	x24, x7, x24
	mul	x7, x7, x30
	madd	x26, x20, x25, x23
	madd	x23, x19, x30, x21
	mov	x21, #-9102
	madd	x24, x4, x25, x24
	madd	x4, x4, x21, x7
	madd	x7, x20, x30, x24
	mov	x30, #536870912
	movk	x30, #32, lsl #32
	madd	x4, x20, x22, x4
	add	x20, x2, x8
	sub	x8, x8, x2
	add	x24, x8, x30
	madd	x7, x19, x22, x7
	add	x22, x20, x30
	add	x2, x22, x23
	madd	x4, x19, x25, x4
	lsr	x2, x2, #30
	madd	x26, x19, x21, x26
	add	x21, x5, x16
	sub	x16, x16, x5
	add	x5, sp, #560
	add	x22, x16, x30
	add	x19, x21, x30
	add	x5, x5, x1
	add	x22, x22, x7
	sub	x16, x16, x7
	str	w2, [x5]
	lsr	x2, x22, #30
	sub	x8, x8, x4
	add	x8, x8, x30
	add	x16, x16, x30
	add	x22, x24, x4
	add	x19, x19, x26
	str	w2, [x5, #64]
	lsr	x8, x8, #30
	sub	x2, x21, x26
	lsr	x19, x19, #30
	lsr	x16, x16, #30
	add	x2, x2, x30
	sub	x4, x20, x23
	str	w8, [x5, #128]
	lsr	x8, x2, #30
	add	x2, x4, x30
	str	w19, [x5, #32]
	lsr	x19, x22, #30
	str	w16, [x5, #160]
	lsr	x16, x2, #30
	str	w8, [x5, #192]
	str	w19, [x5, #96]
	str	w16, [x5, #224]
	b	.LBB6_78
.LBB6_81:
	movi	v0.2d, #0000000000000000
	ldp	q2, q1, [sp, #560]
	ldp	q4, q3, [sp, #592]
	movi	v17.2d, #0x0000ff000000ff
	ldp	q6, q5, [sp, #656]
	ldr	x8, [sp, #16]
	ldp	q16, q7, [sp, #624]
	ldr	x20, [sp, #96]
	smax	v4.4s, v4.4s, v0.4s
	smax	v3.4s, v3.4s, v0.4s
	smax	v2.4s, v2.4s, v0.4s
	ldp	q19, q18, [sp, #688]
	smax	v1.4s, v1.4s, v0.4s
	ldp	q21, q20, [sp, #720]
	smax	v6.4s, v6.4s, v0.4s
	ldp	q23, q22, [sp, #752]
	smax	v5.4s, v5.4s, v0.4s
	ldp	q25, q24, [sp, #784]
	smax	v16.4s, v16.4s, v0.4s
	smax	v7.4s, v7.4s, v0.4s
	smax	v21.4s, v21.4s, v0.4s
	smax	v20.4s, v20.4s, v0.4s
	smax	v19.4s, v19.4s, v0.4s
	smax	v18.4s, v18.4s, v0.4s
	smax	v23.4s, v23.4s, v0.4s
	smax	v25.4s, v25.4s, v0.4s
	smax	v24.4s, v24.4s, v0.4s
	smax	v0.4s, v22.4s, v0.4s
	smin	v1.4s, v1.4s, v17.4s
	smin	v2.4s, v2.4s, v17.4s
	smin	v3.4s, v3.4s, v17.4s
	smin	v4.4s, v4.4s, v17.4s
	smin	v7.4s, v7.4s, v17.4s
	smin	v16.4s, v16.4s, v17.4s
	smin	v5.4s, v5.4s, v17.4s
	smin	v6.4s, v6.4s, v17.4s
	smin	v18.4s, v18.4s, v17.4s
	smin	v19.4s, v19.4s, v17.4s
	smin	v20.4s, v20.4s, v17.4s
	smin	v21.4s, v21.4s, v17.4s
	smin	v0.4s, v0.4s, v17.4s
	smin	v22.4s, v23.4s, v17.4s
	smin	v23.4s, v24.4s, v17.4s
	smin	v17.4s, v25.4s, v17.4s
	uzp1	v3.8h, v4.8h, v3.8h
	uzp1	v1.8h, v2.8h, v1.8h
	uzp1	v2.8h, v6.8h, v5.8h
	uzp1	v4.8h, v16.8h, v7.8h
	ldr	x6, [sp, #1400]
	uzp1	v5.8h, v21.8h, v20.8h
	uzp1	v6.8h, v19.8h, v18.8h
	ldr	w23, [sp, #28]
	uzp1	v0.8h, v22.8h, v0.8h
	ldp	x16, x1, [sp, #32]
	uzp1	v7.8h, v17.8h, v23.8h
	uzp1	v1.16b, v1.16b, v3.16b
	uzp1	v2.16b, v4.16b, v2.16b
	uzp1	v3.16b, v6.16b, v5.16b
	uzp1	v0.16b, v0.16b, v7.16b
	stp	q1, q2, [x8]
	stp	q3, q0, [x8, #32]
	b	.LBB6_84
.LBB6_82:
	mov	x1, xzr
.LBB6_83:
	smull	x1, w1, w23
	mov	w4, #60033
	ldr	x6, [sp, #1400]
	movk	w4, #2047, lsl #16
	smaddl	x1, w1, w4, x19
	mov	w4, #255
	lsr	x1, x1, #30
	bic	w1, w1, w1, asr #31
	cmp	w1, #255
	csel	w1, w1, w4, lt
	dup	v0.16b, w1
	ldr	x1, [sp, #40]
	stp	q0, q0, [x8]
	stp	q0, q0, [x8, #32]
.LBB6_84:
	ldr	x4, [sp, #112]
	add	x8, sp, #384
	ldr	x7, [sp, #88]
	and	x27, x27, #0xff
	add	x1, x1, #1
	add	x6, x6, #1
	orr	x8, x8, x4, lsl #2
	ldr	x4, [sp, #104]
	bfi	x27, x28, #8, #8
	cmp	x1, x7
	lsr	x4, x4, #2
	str	w23, [x8]
	mov	x8, x1
	b.ne	.LBB6_14
	mov	x16, x6
	ldp	x8, x6, [sp, #128]
	ldr	q0, [sp, #384]
	ldr	x19, [sp, #80]
	mov	x9, x10
	ldr	x7, [sp, #120]
	neg	x22, x11
.LBB6_86:
	add	x17, x17, #1
	lsr	x1, x27, #8
	cmp	x17, x21
	b.lo	.LBB6_3
	b	.LBB6_107
.LBB6_87:
	mov	w7, #3
	cbz	x8, .LBB6_111
	sub	x10, x9, x8
	cmp	x11, x10
	b.ls	.LBB6_111
	cmp	x1, x6
	b.ne	.LBB6_111
	movi	v0.2d, #0000000000000000
	mov	x27, xzr
	add	x10, x10, #1
	b	.LBB6_13
.LBB6_91:
	mov	x16, xzr
	mov	x8, #-1
	lsl	x8, x8, xzr
	orr	x8, x8, xzr
	cmn	x8, #1
	b.ne	.LBB6_108
.LBB6_92:
	subs	x10, x11, x5
	b.ls	.LBB6_108
	mov	x14, xzr
	mov	x13, x5
.LBB6_94:
	ldrb	w9, [x12, x13]
	cmp	w9, #255
	b.ne	.LBB6_98
	sub	x10, x10, #1
	add	x13, x13, #1
	sub	x14, x14, #1
	cbnz	x10, .LBB6_94
	b	.LBB6_108
.LBB6_96:
	mov	w7, #2
	b	.LBB6_105
.LBB6_97:
	mov	w7, wzr
	b	.LBB6_105
.LBB6_98:
	cbz	x14, .LBB6_108
	cmp	x11, x13
	b.ls	.LBB6_108
	cmp	w9, #217
	b.ne	.LBB6_108
	cmp	x10, #1
	b.ne	.LBB6_108
	strb	wzr, [x0]
	strb	wzr, [x0, #8]
	strb	wzr, [x0, #15]
	sturh	wzr, [x0, #13]
	stur	wzr, [x0, #9]
	stp	xzr, xzr, [x0, #16]
	b	.LBB6_109
.LBB6_103:
	mov	w7, #3
	mov	x10, x16
	b	.LBB6_106
.LBB6_104:
	mov	w7, #1
.LBB6_105:
	ldr	x10, [sp, #1400]
	cmp	x10, x16
	csel	x9, x9, x30, eq
.LBB6_106:
	mov	w8, #1
	strb	w7, [x0, #8]
	strb	w8, [x0]
	strb	wzr, [x0, #15]
	sturh	wzr, [x0, #13]
	stur	wzr, [x0, #9]
	stp	x10, x9, [x0, #16]
	b	.LBB6_109
.LBB6_107:
	and	x10, x27, #0xff
	mov	x5, x9
	mov	x8, #-1
	lsl	x8, x8, x1
	orr	x8, x8, x10
	cmn	x8, #1
	b.eq	.LBB6_92
.LBB6_108:
	mov	w8, #1
	mov	w9, #3
	stur	wzr, [x0, #9]
	strb	w8, [x0]
	strb	w9, [x0, #8]
	str	wzr, [x0, #12]
	stp	x16, x5, [x0, #16]
.LBB6_109:
	add	sp, sp, #1392
	ldp	x20, x19, [sp, #80]
	ldp	x22, x21, [sp, #64]
	ldp	x24, x23, [sp, #48]
	ldp	x26, x25, [sp, #32]
	ldp	x28, x27, [sp, #16]
	ldr	x30, [sp], #96
	ret
.LBB6_110:
	mov	w7, #3
	b	.LBB6_105
.LBB6_111:
	mov	x10, x16
	b	.LBB6_106
.LBB6_112:
	brk	#0x1
.Lfunc_end6:
	.size	"jpeg_scan::run::<#c44e4da361dd472c>", .Lfunc_end6-"jpeg_scan::run::<#c44e4da361dd472c>"

	.section	".text.jpeg_header::comment","ax",@progbits
	.p2align	2
	.type	"jpeg_header::comment",@function
"jpeg_header::comment":
	stp	x29, x30, [sp, #-64]!
	stp	x28, x23, [sp, #16]
	mov	x29, sp
	stp	x22, x21, [sp, #32]
	stp	x20, x19, [sp, #48]
	movi	v0.2d, #0000000000000000
	cmp	x2, #2
	stp	q0, q0, [sp, #-672]!
	stp	q0, q0, [sp, #32]
	stp	q0, q0, [sp, #64]
	stp	q0, q0, [sp, #96]
	stp	q0, q0, [sp, #128]
	stp	q0, q0, [sp, #160]
	stp	q0, q0, [sp, #192]
	stp	q0, q0, [sp, #224]
	stp	q0, q0, [sp, #256]
	stp	q0, q0, [sp, #288]
	stp	q0, q0, [sp, #320]
	stp	q0, q0, [sp, #352]
	b.lo	.LBB7_11
	ldrb	w8, [x1]
	mov	x19, x1
	cmp	w8, #255
	b.ne	.LBB7_11
	ldrb	w8, [x19, #1]
	cmp	w8, #216
	b.ne	.LBB7_11
	mov	w8, #2
	add	x9, sp, #392
	mov	x21, x3
	mov	x20, x2
	mov	x22, x0
	str	x8, [sp, #392]
	add	x8, x9, #8
	add	x9, sp, #392
	mov	x0, sp
	add	x4, sp, #392
	mov	x1, x19
	mov	w3, wzr
	mov	x23, sp
	str	q0, [x8, #256]
	stur	q0, [x9, #8]
	stur	q0, [x9, #24]
	stur	q0, [x9, #40]
	stur	q0, [x9, #56]
	stur	q0, [x9, #72]
	stur	q0, [x9, #88]
	stur	q0, [x9, #104]
	stur	q0, [x9, #120]
	stur	q0, [x9, #136]
	stur	q0, [x9, #152]
	stur	q0, [x9, #168]
	stur	q0, [x9, #184]
	stur	q0, [x9, #200]
	stur	q0, [x9, #216]
	stur	q0, [x9, #232]
	stur	q0, [x9, #248]
	b	.LBB7_5
.LBB7_4:
	add	x0, sp, #392
	add	x1, x23, #16
	mov	w2, #280
	bl	memcpy
	mov	x0, sp
	add	x4, sp, #392
	mov	x1, x19
	mov	x2, x20
	mov	w3, wzr
.LBB7_5:
	bl	"jpeg_header::step"
	ldrb	w8, [sp, #8]
	ldrb	w9, [sp]
	and	w8, w8, #0xff
	orr	w8, w9, w8
	cbnz	w8, .LBB7_12
	ldrb	w8, [sp, #400]
	cbnz	w8, .LBB7_4
	ldr	x8, [sp, #392]
	add	x9, x8, #1
	cmp	x9, x20
	b.hs	.LBB7_4
	ldrb	w9, [x19, x9]
	cmp	w9, #254
	b.ne	.LBB7_4
	cbz	x21, .LBB7_13
	sub	x21, x21, #1
	b	.LBB7_4
.LBB7_11:
	stp	xzr, xzr, [x0]
	str	xzr, [x0, #16]
	add	sp, sp, #672
	ldp	x20, x19, [sp, #48]
	ldp	x22, x21, [sp, #32]
	ldp	x28, x23, [sp, #16]
	ldp	x29, x30, [sp], #64
	ret
.LBB7_12:
	stp	xzr, xzr, [x22]
	str	xzr, [x22, #16]
	add	sp, sp, #672
	ldp	x20, x19, [sp, #48]
	ldp	x22, x21, [sp, #32]
	ldp	x28, x23, [sp, #16]
	ldp	x29, x30, [sp], #64
	ret
.LBB7_13:
	add	x9, x8, #2
	cmp	x9, x20
	b.hs	.LBB7_16
	ldrb	w9, [x19, x9]
	add	x10, x8, #3
	cmp	x10, x20
	lsl	x9, x9, #8
	b.hs	.LBB7_17
	ldrb	w10, [x19, x10]
	orr	x9, x9, x10
	b	.LBB7_17
.LBB7_16:
	mov	x9, xzr
.LBB7_17:
	mov	w10, #1
	add	x8, x8, #4
	sub	x9, x9, #2
	stp	x10, x8, [x22]
	str	x9, [x22, #16]
	add	sp, sp, #672
	ldp	x20, x19, [sp, #48]
	ldp	x22, x21, [sp, #32]
	ldp	x28, x23, [sp, #16]
	ldp	x29, x30, [sp], #64
	ret
.Lfunc_end7:
	.size	"jpeg_header::comment", .Lfunc_end7-"jpeg_header::comment"

	.section	".text.jpeg::inspect","ax",@progbits
	.p2align	2
	.type	"jpeg::inspect",@function
"jpeg::inspect":
	stp	x29, x30, [sp, #-96]!
	stp	x28, x27, [sp, #16]
	mov	x29, sp
	stp	x26, x25, [sp, #32]
	stp	x24, x23, [sp, #48]
	stp	x22, x21, [sp, #64]
	stp	x20, x19, [sp, #80]
	sub	sp, sp, #2416
	str	xzr, [sp]
	movi	v0.2d, #0000000000000000
	mov	x20, x5
	ldp	x8, x24, [x4]
	ldr	x21, [x4, #16]
	mov	x19, x0
	add	x10, sp, #376
	str	xzr, [sp, #696]
	str	xzr, [sp, #688]
	stp	q0, q0, [sp, #32]
	stp	q0, q0, [sp, #64]
	stp	q0, q0, [sp, #96]
	stp	q0, q0, [sp, #128]
	stp	q0, q0, [sp, #160]
	stp	q0, q0, [sp, #192]
	stp	q0, q0, [sp, #224]
	stp	q0, q0, [sp, #256]
	stp	q0, q0, [sp, #288]
	stp	q0, q0, [sp, #384]
	stp	q0, q0, [sp, #416]
	stp	q0, q0, [sp, #448]
	stp	q0, q0, [sp, #480]
	stp	q0, q0, [sp, #512]
	stp	q0, q0, [sp, #544]
	stp	q0, q0, [sp, #576]
	stp	q0, q0, [sp, #608]
	stp	q0, q0, [sp, #640]
	str	q0, [sp, #672]
	stur	wzr, [x10, #3]
	str	wzr, [sp, #376]
	stp	xzr, xzr, [sp, #352]
	stp	xzr, xzr, [sp, #336]
	str	q0, [sp, #320]
	str	xzr, [sp, #712]
	str	xzr, [sp, #704]
	str	q0, [sp, #1744]
	str	q0, [sp, #1760]
	str	q0, [sp, #1776]
	str	q0, [sp, #1792]
	str	q0, [sp, #1808]
	str	q0, [sp, #1824]
	str	q0, [sp, #1840]
	str	q0, [sp, #1856]
	str	q0, [sp, #1872]
	str	q0, [sp, #1888]
	str	q0, [sp, #1904]
	str	q0, [sp, #1920]
	str	q0, [sp, #1936]
	str	q0, [sp, #1952]
	str	q0, [sp, #1968]
	str	q0, [sp, #1984]
	str	q0, [sp, #2000]
	str	q0, [sp, #2016]
	str	q0, [sp, #2032]
	str	q0, [sp, #2048]
	str	xzr, [sp, #1408]
	str	q0, [sp, #1392]
	str	q0, [sp, #1376]
	str	q0, [sp, #1360]
	str	q0, [sp, #1344]
	str	q0, [sp, #1328]
	str	q0, [sp, #1312]
	str	q0, [sp, #1296]
	str	q0, [sp, #1280]
	str	q0, [sp, #1264]
	str	q0, [sp, #1248]
	str	q0, [sp, #1232]
	str	q0, [sp, #1216]
	str	q0, [sp, #1200]
	str	q0, [sp, #1184]
	str	q0, [sp, #1168]
	str	q0, [sp, #1152]
	str	q0, [sp, #1136]
	str	q0, [sp, #1120]
	str	q0, [sp, #1104]
	str	q0, [sp, #1088]
	str	q0, [sp, #1072]
	str	q0, [sp, #1056]
	str	q0, [sp, #1040]
	tbnz	x2, #63, .LBB8_5
	cmp	x8, x2
	b.lo	.LBB8_5
	lsl	x8, x2, #1
	cmp	x20, x8
	b.ls	.LBB8_6
	mvn	x8, x8
	add	x0, sp, #1040
	add	x22, sp, #1040
	add	x20, x20, x8
	stp	x1, x2, [sp, #16]
	bl	"jpeg_header::header"
	ldrb	w8, [sp, #1040]
	ldr	x23, [sp, #1048]
	cbz	w8, .LBB8_7
	movi	v0.2d, #0000000000000000
	ldur	q1, [x22, #24]
	ldr	x22, [sp, #1056]
	add	x0, sp, #720
	add	x1, sp, #1744
	mov	w2, #320
	str	q1, [sp, #1744]
	and	x24, x23, #0xff
	str	q0, [sp, #1760]
	str	q0, [sp, #1776]
	str	q0, [sp, #1792]
	str	q0, [sp, #1808]
	str	q0, [sp, #1824]
	str	q0, [sp, #1840]
	str	q0, [sp, #1856]
	str	q0, [sp, #1872]
	str	q0, [sp, #1888]
	str	q0, [sp, #1904]
	str	q0, [sp, #1920]
	str	q0, [sp, #1936]
	str	q0, [sp, #1952]
	str	q0, [sp, #1968]
	str	q0, [sp, #1984]
	str	q0, [sp, #2000]
	str	q0, [sp, #2016]
	str	q0, [sp, #2032]
	str	q0, [sp, #2048]
	bl	memcpy
	b	.LBB8_10
.LBB8_5:
	add	x0, sp, #720
	add	x1, sp, #1744
	mov	w2, #320
	str	xzr, [sp, #1752]
	str	xzr, [sp, #1744]
	bl	memcpy
	add	x10, sp, #376
	mov	x22, xzr
	mov	x24, xzr
	b	.LBB8_11
.LBB8_6:
	mov	x22, xzr
	mov	w24, #1
	stp	q0, q0, [sp, #720]
	stp	q0, q0, [sp, #752]
	stp	q0, q0, [sp, #784]
	stp	q0, q0, [sp, #816]
	stp	q0, q0, [sp, #848]
	stp	q0, q0, [sp, #880]
	stp	q0, q0, [sp, #912]
	stp	q0, q0, [sp, #944]
	stp	q0, q0, [sp, #976]
	stp	q0, q0, [sp, #1008]
	b	.LBB8_11
.LBB8_7:
	ldr	x8, [sp, #1384]
	ldur	q0, [x22, #24]
	add	x9, sp, #1040
	ldr	x28, [sp, #1056]
	ldr	x25, [sp, #1392]
	add	x1, x9, #40
	str	x8, [sp, #8]
	add	x8, sp, #1424
	ldr	x26, [sp, #1400]
	ldr	x27, [sp, #1408]
	add	x0, x8, #16
	mov	w2, #304
	add	x22, sp, #2072
	str	q0, [sp, #1424]
	bl	memcpy
	movi	v0.2d, #0000000000000000
	cmp	x24, x23
	stp	q0, q0, [x22, #32]
	stp	q0, q0, [x22, #64]
	stp	q0, q0, [x22, #96]
	stp	q0, q0, [x22, #128]
	stp	q0, q0, [x22, #160]
	stp	q0, q0, [x22, #192]
	stp	q0, q0, [x22, #224]
	stp	q0, q0, [x22, #256]
	stp	q0, q0, [x22, #288]
	str	q0, [x22, #16]
	b.hs	.LBB8_14
.LBB8_8:
	add	x0, sp, #1744
	add	x1, sp, #2072
	mov	w2, #320
	str	xzr, [sp, #2080]
	str	xzr, [sp, #2072]
	bl	memcpy
	mov	w24, #5
.LBB8_9:
	add	x0, sp, #720
	add	x1, sp, #1744
	mov	w2, #320
	bl	memcpy
	mov	x22, xzr
.LBB8_10:
	add	x10, sp, #376
.LBB8_11:
	ldr	q0, [sp, #720]
	mov	x21, x20
.LBB8_12:
	str	q0, [sp, #688]
	movi	v1.2d, #0000000000000000
	ldr	q0, [sp, #688]
	mov	x23, xzr
	mov	x28, xzr
	mov	x20, xzr
	mov	x25, xzr
	mov	x26, xzr
	mov	x27, xzr
	mov	w8, #1
	str	q0, [sp, #352]
	stp	xzr, xzr, [sp, #336]
	stp	q1, q1, [sp, #32]
	stp	q1, q1, [sp, #64]
	stp	q1, q1, [sp, #96]
	stp	q1, q1, [sp, #128]
	stp	q1, q1, [sp, #160]
	stp	q1, q1, [sp, #192]
	stp	q1, q1, [sp, #224]
	stp	q1, q1, [sp, #256]
	stp	q1, q1, [sp, #288]
	str	q1, [sp, #320]
.LBB8_13:
	ldr	q0, [sp, #352]
	ldr	w9, [sp, #376]
	add	x0, x19, #80
	strb	w8, [x19]
	ldur	w8, [x10, #3]
	add	x1, sp, #32
	stur	q0, [x19, #24]
	ldr	q0, [sp, #336]
	mov	w2, #304
	stur	w9, [x19, #1]
	str	w8, [x19, #4]
	stp	x24, x22, [x19, #8]
	stp	x21, x23, [x19, #40]
	str	x28, [x19, #56]
	str	q0, [x19, #64]
	bl	memcpy
	stp	x20, x25, [x19, #384]
	stp	x26, x27, [x19, #400]
	add	sp, sp, #2416
	ldp	x20, x19, [sp, #80]
	ldp	x22, x21, [sp, #64]
	ldp	x24, x23, [sp, #48]
	ldp	x26, x25, [sp, #32]
	ldp	x28, x27, [sp, #16]
	ldp	x29, x30, [sp], #96
	ret
.LBB8_14:
	cmp	x24, x28
	b.lo	.LBB8_8
	ldr	x8, [sp, #8]
	cmp	x21, x8
	b.lo	.LBB8_8
	cmp	x21, x25
	b.lo	.LBB8_8
	subs	x21, x20, x26
	b.hs	.LBB8_19
	mov	w24, #6
	str	q0, [sp, #2048]
	str	q0, [sp, #2032]
	str	q0, [sp, #2016]
	str	q0, [sp, #2000]
	str	q0, [sp, #1984]
	str	q0, [sp, #1968]
	str	q0, [sp, #1952]
	str	q0, [sp, #1936]
	str	q0, [sp, #1920]
	str	q0, [sp, #1904]
	str	q0, [sp, #1888]
	str	q0, [sp, #1872]
	str	q0, [sp, #1856]
	str	q0, [sp, #1840]
	str	q0, [sp, #1824]
	str	q0, [sp, #1808]
	str	q0, [sp, #1792]
	str	q0, [sp, #1776]
	str	q0, [sp, #1760]
	str	q0, [sp, #1744]
	b	.LBB8_9
.LBB8_19:
	add	x0, sp, #720
	add	x1, sp, #1424
	mov	w2, #320
	add	x20, sp, #720
	bl	memcpy
	ldr	q0, [sp, #720]
	add	x8, sp, #1040
	add	x1, x20, #16
	add	x0, x8, #32
	mov	w2, #304
	str	x23, [sp, #1040]
	str	x28, [sp, #1048]
	str	q0, [sp, #1056]
	bl	memcpy
	movi	v0.2d, #0000000000000000
	ldr	x8, [sp, #8]
	ldr	x1, [sp, #24]
	add	x0, sp, #1744
	add	x2, sp, #1040
	str	x25, [sp, #1384]
	str	x8, [sp, #1376]
	str	x26, [sp, #1392]
	str	x27, [sp, #1400]
	str	q0, [sp, #1744]
	str	q0, [sp, #1760]
	str	q0, [sp, #1776]
	str	q0, [sp, #1792]
	str	q0, [sp, #1808]
	str	q0, [sp, #1824]
	str	q0, [sp, #1840]
	str	q0, [sp, #1856]
	str	q0, [sp, #1872]
	bl	"jpeg_scan_plan::Plan::of"
	ldrb	w8, [sp, #1744]
	cmp	w8, #1
	b.ne	.LBB8_22
	add	x8, sp, #1498
	ldr	q1, [sp, #1824]
	ldr	q2, [sp, #1840]
	ldur	q0, [x8, #255]
	ldr	x8, [sp, #16]
	add	x0, sp, #1424
	stur	q1, [x22, #88]
	ldr	q1, [sp, #1856]
	add	x1, sp, #2072
	stur	q0, [x22, #17]
	ldr	q0, [sp, #1808]
	sub	x3, x29, #17
	stur	q2, [x22, #104]
	ldr	q2, [sp, #1872]
	mov	w2, wzr
	str	x8, [sp, #2072]
	ldr	x8, [sp, #24]
	mov	x4, xzr
	stur	q0, [x22, #72]
	movi	v0.2d, #0000000000000000
	ldrb	w9, [sp, #1752]
	stur	q1, [x22, #120]
	ldr	q1, [sp, #1776]
	stur	q2, [x22, #136]
	ldr	q2, [sp, #1792]
	str	x8, [sp, #2080]
	ldr	x8, [sp, #1768]
	stur	q1, [x22, #40]
	stur	q2, [x22, #56]
	add	x22, sp, #1424
	strb	w9, [sp, #2088]
	str	x8, [sp, #2104]
	str	q0, [sp, #1440]
	str	q0, [sp, #1424]
	bl	"jpeg_scan::run::<#c44e4da361dd472c>"
	ldrb	w12, [sp, #1424]
	ldrb	w8, [sp, #1432]
	ldr	q0, [sp, #1440]
	ldrb	w10, [sp, #1439]
	ldurh	w11, [x22, #13]
	ldur	w9, [x22, #9]
	str	q0, [sp, #704]
	cbz	w12, .LBB8_24
	orr	w10, w11, w10, lsl #16
	orr	x9, x9, x10, lsl #32
	b	.LBB8_23
.LBB8_22:
	mov	x9, xzr
	mov	w8, #3
	str	xzr, [sp, #712]
	str	xzr, [sp, #704]
.LBB8_23:
	ldr	q0, [sp, #704]
	mov	w8, w8
	mov	w24, #10
	orr	x22, x8, x9, lsl #8
	add	x10, sp, #376
	b	.LBB8_12
.LBB8_24:
	ldr	q0, [sp, #720]
	add	x0, sp, #384
	add	x1, x20, #16
	mov	w2, #304
	str	q0, [sp, #688]
	bl	memcpy
	ldr	q0, [sp, #688]
	add	x0, sp, #32
	add	x1, sp, #384
	mov	w2, #304
	stp	xzr, xzr, [sp, #352]
	str	q0, [sp, #336]
	bl	memcpy
	ldr	x20, [sp, #8]
	mov	w8, wzr
	mov	x22, xzr
	mov	x24, xzr
	add	x10, sp, #376
	b	.LBB8_13
.Lfunc_end8:
	.size	"jpeg::inspect", .Lfunc_end8-"jpeg::inspect"

	.section	.text.tillsparrow_comment,"ax",@progbits
	.globl	tillsparrow_comment
	.p2align	2
	.type	tillsparrow_comment,@function
tillsparrow_comment:
	stp	x29, x30, [sp, #-64]!
	stp	x28, x23, [sp, #16]
	mov	x29, sp
	stp	x22, x21, [sp, #32]
	stp	x20, x19, [sp, #48]
	sub	sp, sp, #768
	movi	v0.2d, #0000000000000000
	cmp	x0, #0
	mov	w8, #4096
	csel	x8, x8, xzr, eq
	mov	x20, x1
	mov	x19, x2
	add	x21, x0, x8
	add	x22, sp, #32
	add	x0, sp, #32
	mov	x1, x21
	mov	x2, x20
	mov	w3, wzr
	stp	xzr, xzr, [sp, #8]
	add	x23, sp, #32
	str	xzr, [sp, #24]
	str	xzr, [sp, #400]
	stp	q0, q0, [x22, #112]
	stp	q0, q0, [x22, #144]
	stp	q0, q0, [x22, #176]
	stp	q0, q0, [x22, #208]
	stp	q0, q0, [x22, #240]
	stp	q0, q0, [x22, #272]
	stp	q0, q0, [x22, #304]
	stp	q0, q0, [x22, #336]
	stp	q0, q0, [sp, #48]
	stp	q0, q0, [sp, #80]
	stp	q0, q0, [sp, #112]
	str	q0, [sp, #32]
	bl	"jpeg_header::header"
	ldrb	w8, [sp, #32]
	cbnz	w8, .LBB9_4
	movi	v0.2d, #0000000000000000
	add	x0, sp, #416
	orr	x2, x23, #0x8
	mov	x1, x20
	stp	q0, q0, [x22, #400]
	stp	q0, q0, [x22, #432]
	stp	q0, q0, [x22, #464]
	stp	q0, q0, [x22, #496]
	str	q0, [x22, #384]
	bl	"jpeg_scan_plan::Plan::of"
	ldrb	w8, [sp, #416]
	cmp	w8, #1
	b.ne	.LBB9_4
	add	x8, sp, #416
	sub	x9, x29, #200
	ldr	x10, [sp, #440]
	ldp	q1, q2, [x8, #80]
	ldur	q0, [x8, #9]
	sub	x0, x29, #48
	sub	x1, x29, #200
	sub	x3, x29, #1
	stur	q0, [x8, #169]
	mov	w2, wzr
	mov	x4, xzr
	stur	q1, [x8, #240]
	stur	q2, [x9, #104]
	ldp	q1, q2, [x8, #112]
	stp	x21, x20, [x29, #-200]
	stur	x10, [x29, #-168]
	stur	q2, [x9, #136]
	ldp	q2, q0, [x8, #48]
	stur	q1, [x9, #120]
	ldr	q1, [x8, #32]
	ldrb	w8, [sp, #424]
	stur	q0, [x9, #72]
	movi	v0.2d, #0000000000000000
	stur	q1, [x9, #40]
	stur	q2, [x9, #56]
	sturb	w8, [x29, #-184]
	stur	q0, [x9, #168]
	stur	q0, [x9, #152]
	bl	"jpeg_scan::run::<#c44e4da361dd472c>"
	ldurb	w8, [x29, #-48]
	mov	x0, xzr
	mov	x1, xzr
	cbz	w8, .LBB9_5
	add	sp, sp, #768
	ldp	x20, x19, [sp, #48]
	ldp	x22, x21, [sp, #32]
	ldp	x28, x23, [sp, #16]
	ldp	x29, x30, [sp], #64
	ret
.LBB9_4:
	mov	x0, xzr
	mov	x1, xzr
	add	sp, sp, #768
	ldp	x20, x19, [sp, #48]
	ldp	x22, x21, [sp, #32]
	ldp	x28, x23, [sp, #16]
	ldp	x29, x30, [sp], #64
	ret
.LBB9_5:
	add	x0, sp, #8
	mov	x1, x21
	mov	x2, x20
	mov	x3, x19
	bl	"jpeg_header::comment"
	ldrb	w8, [sp, #8]
	ldp	x9, x10, [sp, #16]
	cmp	w8, #1
	csel	x0, x9, xzr, eq
	csel	x1, x10, xzr, eq
	add	sp, sp, #768
	ldp	x20, x19, [sp, #48]
	ldp	x22, x21, [sp, #32]
	ldp	x28, x23, [sp, #16]
	ldp	x29, x30, [sp], #64
	ret
.Lfunc_end9:
	.size	tillsparrow_comment, .Lfunc_end9-tillsparrow_comment

	.section	.rodata.cst16,"aM",@progbits,16
	.p2align	4, 0x0
.LCPI10_0:
	.byte	0
	.byte	2
	.byte	4
	.byte	6
	.byte	20
	.byte	21
	.byte	22
	.byte	23
	.byte	32
	.byte	33
	.byte	34
	.byte	35
	.byte	36
	.byte	37
	.byte	38
	.byte	39
.LCPI10_1:
	.byte	4
	.byte	255
	.byte	255
	.byte	255
	.byte	5
	.byte	255
	.byte	255
	.byte	255
	.byte	6
	.byte	255
	.byte	255
	.byte	255
	.byte	7
	.byte	255
	.byte	255
	.byte	255
.LCPI10_2:
	.byte	0
	.byte	255
	.byte	255
	.byte	255
	.byte	1
	.byte	255
	.byte	255
	.byte	255
	.byte	2
	.byte	255
	.byte	255
	.byte	255
	.byte	3
	.byte	255
	.byte	255
	.byte	255
.LCPI10_3:
	.byte	12
	.byte	255
	.byte	255
	.byte	255
	.byte	13
	.byte	255
	.byte	255
	.byte	255
	.byte	14
	.byte	255
	.byte	255
	.byte	255
	.byte	15
	.byte	255
	.byte	255
	.byte	255
.LCPI10_4:
	.byte	8
	.byte	255
	.byte	255
	.byte	255
	.byte	9
	.byte	255
	.byte	255
	.byte	255
	.byte	10
	.byte	255
	.byte	255
	.byte	255
	.byte	11
	.byte	255
	.byte	255
	.byte	255
.LCPI10_5:
	.byte	0
	.byte	4
	.byte	8
	.byte	12
	.byte	16
	.byte	20
	.byte	24
	.byte	28
	.byte	32
	.byte	36
	.byte	40
	.byte	44
	.byte	48
	.byte	52
	.byte	56
	.byte	60
.LCPI10_6:
	.byte	0
	.byte	4
	.byte	8
	.byte	12
	.byte	16
	.byte	20
	.byte	24
	.byte	28
	.byte	255
	.byte	255
	.byte	255
	.byte	255
	.byte	255
	.byte	255
	.byte	255
	.byte	255
	.section	.text.tillsparrow_decode,"ax",@progbits
	.globl	tillsparrow_decode
	.p2align	2
	.type	tillsparrow_decode,@function
tillsparrow_decode:
	stp	d15, d14, [sp, #-160]!
	stp	d13, d12, [sp, #16]
	stp	d11, d10, [sp, #32]
	stp	d9, d8, [sp, #48]
	stp	x29, x30, [sp, #64]
	add	x29, sp, #64
	stp	x28, x27, [sp, #80]
	stp	x26, x25, [sp, #96]
	stp	x24, x23, [sp, #112]
	stp	x22, x21, [sp, #128]
	stp	x20, x19, [sp, #144]
	sub	sp, sp, #1840
	str	xzr, [sp]
	cmp	x0, #0
	mov	w8, #4096
	csel	x9, x8, xzr, eq
	cmp	x3, #0
	ldr	x23, [x2, #360]
	csel	x13, x8, xzr, eq
	cmp	x5, #0
	ldr	x10, [x2, #16]
	ldr	x27, [x2, #344]
	csel	x12, x8, xzr, eq
	cmp	x23, #1
	cset	w26, eq
	csel	x10, xzr, x10, hi
	mov	w8, #7
	cmp	x4, x27
	b.lo	.LBB10_6
	ldr	x15, [x2, #336]
	cmp	x6, x15
	b.lo	.LBB10_6
	tbnz	x1, #63, .LBB10_5
	lsl	x8, x1, #1
	cmp	x7, x8
	b.ls	.LBB10_5
	ldr	x14, [x2, #352]
	mvn	x8, x8
	add	x8, x7, x8
	subs	x8, x8, x14
	b.hs	.LBB10_8
.LBB10_5:
	mov	w8, #2
.LBB10_6:
	mov	x1, x7
.LBB10_7:
	mov	x0, x8
	add	sp, sp, #1840
	ldp	x20, x19, [sp, #144]
	ldp	x22, x21, [sp, #128]
	ldp	x24, x23, [sp, #112]
	ldp	x26, x25, [sp, #96]
	ldp	x28, x27, [sp, #80]
	ldp	x29, x30, [sp, #64]
	ldp	d9, d8, [sp, #48]
	ldp	d11, d10, [sp, #32]
	ldp	d13, d12, [sp, #16]
	ldp	d15, d14, [sp], #160
	ret
.LBB10_8:
	ldr	q1, [x2, #128]
	str	x10, [sp, #680]
	movi	v0.2d, #0000000000000000
	ldr	x10, [x2, #192]
	str	x8, [sp, #696]
	cmp	x23, #1
	str	q1, [sp, #624]
	ldr	q1, [x2, #112]
	ldr	x8, [x2]
	str	x10, [sp, #568]
	add	x22, x0, x9
	add	x0, sp, #704
	ldr	x10, [x2, #232]
	str	q1, [sp, #608]
	ldr	q1, [x2, #96]
	str	x8, [sp, #672]
	ldr	x8, [x2, #8]
	str	x10, [sp, #560]
	ldr	x10, [x2, #72]
	str	q1, [sp, #592]
	ldr	q1, [x2, #80]
	str	x10, [sp, #248]
	ldr	x10, [x2, #64]
	str	q1, [sp, #640]
	ldr	q1, [x2, #64]
	str	x10, [sp, #264]
	ldr	x10, [x2, #56]
	str	q1, [sp, #400]
	ldr	q1, [x2, #48]
	str	x10, [sp, #280]
	ldr	x10, [x2, #48]
	str	q1, [sp, #384]
	ldr	q1, [x2, #32]
	str	x10, [sp, #272]
	ldr	x10, [x2, #40]
	str	q1, [sp, #352]
	ldr	q1, [x2, #176]
	str	x10, [sp, #256]
	ldr	x10, [x2, #32]
	str	q1, [sp, #464]
	ldr	q1, [x2, #160]
	str	x10, [sp, #288]
	ldr	x10, [x2, #184]
	str	q1, [sp, #432]
	ldr	q1, [x2, #144]
	str	x10, [sp, #232]
	ldr	x10, [x2, #176]
	str	q1, [sp, #480]
	ldur	q1, [x2, #216]
	str	x10, [sp, #224]
	ldr	x10, [x2, #168]
	str	q1, [sp, #336]
	ldr	q1, [x2, #240]
	str	x10, [sp, #216]
	ldr	x10, [x2, #160]
	str	q1, [sp, #544]
	ldr	q1, [x2, #256]
	str	x10, [sp, #328]
	ldr	x10, [x2, #152]
	str	q1, [sp, #448]
	ldr	q1, [x2, #288]
	str	x10, [sp, #320]
	ldr	x10, [x2, #144]
	str	q1, [sp, #528]
	ldr	q1, [x2, #272]
	str	x8, [sp, #664]
	ldr	x8, [x2, #24]
	str	x10, [sp, #240]
	ldr	x10, [x2, #224]
	str	q1, [sp, #512]
	ldur	q1, [x2, #200]
	str	x8, [sp, #688]
	add	x8, x2, #256
	str	x10, [sp, #312]
	ldr	x10, [x2, #216]
	ldr	x28, [x8, #56]
	str	q1, [sp, #416]
	ldur	q1, [x8, #56]
	ldp	x19, x8, [x2, #320]
	str	x10, [sp, #304]
	ldr	x10, [x2, #304]
	stp	x13, x3, [sp, #168]
	cset	w3, eq
	str	x15, [sp, #584]
	ldp	x25, x20, [x2, #256]
	str	x14, [sp, #576]
	ldp	x21, x24, [x2, #200]
	mov	x2, x1
	mov	x1, x22
	stp	x4, x12, [sp, #184]
	stp	x5, x6, [sp, #200]
	str	xzr, [sp, #1072]
	str	q0, [sp, #1056]
	str	q0, [sp, #1040]
	stp	q0, q0, [sp, #720]
	stp	q0, q0, [sp, #752]
	stp	q0, q0, [sp, #784]
	stp	q0, q0, [sp, #816]
	stp	q0, q0, [sp, #848]
	stp	q0, q0, [sp, #880]
	stp	q0, q0, [sp, #912]
	stp	q0, q0, [sp, #944]
	stp	q0, q0, [sp, #976]
	stp	q0, q0, [sp, #1008]
	str	q1, [sp, #368]
	stp	x8, x10, [sp, #496]
	str	q0, [sp, #704]
	str	x2, [sp, #296]
	bl	"jpeg_header::header"
	ldrb	w8, [sp, #704]
	cbz	w8, .LBB10_10
	ldr	x1, [sp, #696]
	mov	w8, #8
	b	.LBB10_7
.LBB10_10:
	ldp	q10, q9, [sp, #592]
	add	x9, sp, #505
	ldr	q25, [sp, #480]
	ldp	q18, q19, [sp, #384]
	ldp	q8, q11, [sp, #624]
	add	x8, sp, #704
	ext	v28.16b, v10.16b, v10.16b, #8
	ext	v4.16b, v25.16b, v25.16b, #8
	ext	v30.16b, v9.16b, v9.16b, #8
	ext	v3.16b, v18.16b, v18.16b, #8
	mov	v5.16b, v10.16b
	ldp	q23, q20, [sp, #336]
	ext	v29.16b, v8.16b, v8.16b, #8
	mov	v7.16b, v9.16b
	mov	v16.16b, v8.16b
	ext	v31.16b, v11.16b, v11.16b, #8
	ext	v0.16b, v19.16b, v19.16b, #8
	ext	v2.16b, v20.16b, v20.16b, #8
	ldur	q1, [x9, #255]
	mov	v25.d[1], v4.d[0]
	mov	v5.d[1], v28.d[0]
	add	x9, sp, #569
	mov	v7.d[1], v30.d[0]
	mov	v18.d[1], v3.d[0]
	ldur	q4, [x9, #255]
	add	x9, sp, #553
	mov	v3.16b, v11.16b
	ldur	q17, [x9, #255]
	mov	v16.d[1], v29.d[0]
	add	x9, sp, #489
	mov	v20.d[1], v2.d[0]
	ldur	q2, [x8, #136]
	mov	v19.d[1], v0.d[0]
	zip1	v0.2d, v25.2d, v23.2d
	cmeq	v5.2d, v17.2d, v5.2d
	ldur	q17, [x9, #255]
	mov	v3.d[1], v31.d[0]
	add	x9, sp, #521
	cmeq	v4.2d, v4.2d, v7.2d
	ldur	q7, [x9, #255]
	add	x9, sp, #537
	cmeq	v2.2d, v2.2d, v16.2d
	ldur	q16, [x8, #152]
	cmeq	v18.2d, v1.2d, v18.2d
	ldur	q1, [x9, #255]
	ldr	q21, [sp, #432]
	ldr	q22, [sp, #464]
	cmeq	v17.2d, v17.2d, v20.2d
	cmeq	v7.2d, v7.2d, v19.2d
	cmeq	v16.2d, v16.2d, v0.2d
	cmeq	v3.2d, v1.2d, v3.2d
	ext	v6.16b, v21.16b, v21.16b, #8
	ext	v19.16b, v22.16b, v22.16b, #8
	ldp	q13, q12, [sp, #512]
	uzp1	v4.4s, v5.4s, v4.4s
	uzp1	v2.4s, v2.4s, v16.4s
	uzp1	v16.4s, v17.4s, v18.4s
	add	x9, sp, #704
	uzp1	v3.4s, v7.4s, v3.4s
	stp	x19, x28, [sp, #136]
	add	x9, x9, #40
	ext	v1.16b, v13.16b, v13.16b, #8
	mov	v21.d[1], v6.d[0]
	dup	v6.2d, v23.d[1]
	mov	v20.16b, v13.16b
	mov	v22.d[1], v19.d[0]
	ldr	x28, [sp, #504]
	stp	x21, x24, [sp, #152]
	ext	v0.16b, v12.16b, v12.16b, #8
	ldr	x24, [sp, #560]
	ldp	q18, q17, [x9, #224]
	mov	v5.16b, v12.16b
	mov	v25.d[0], x28
	uzp1	v2.8h, v4.8h, v2.8h
	uzp1	v3.8h, v16.8h, v3.8h
	ldp	q4, q16, [sp, #1008]
	mov	v6.d[1], x24
	mov	v20.d[1], v1.d[0]
	ldr	q23, [sp, #368]
	cmeq	v17.2d, v17.2d, v22.2d
	ldur	q22, [x8, #248]
	ldr	q24, [sp, #416]
	ldur	q19, [x8, #216]
	mov	v5.d[1], v0.d[0]
	cmeq	v16.2d, v16.2d, v23.2d
	ldur	q23, [x8, #168]
	cmeq	v4.2d, v4.2d, v24.2d
	cmeq	v22.2d, v22.2d, v25.2d
	xtn	v27.8b, v2.8h
	ldur	q7, [x8, #200]
	cmeq	v18.2d, v18.2d, v21.2d
	ldur	q21, [x8, #232]
	ldur	q24, [x8, #184]
	xtn	v26.8b, v3.8h
	cmeq	v2.2d, v23.2d, v6.2d
	cmeq	v3.2d, v19.2d, v20.2d
	ldr	q6, [sp, #448]
	ldr	q19, [sp, #544]
	cmeq	v5.2d, v21.2d, v5.2d
	uzp1	v4.4s, v4.4s, v16.4s
	uzp1	v16.4s, v18.4s, v17.4s
	cmeq	v6.2d, v7.2d, v6.2d
	cmeq	v7.2d, v24.2d, v19.2d
	adrp	x8, .LCPI10_0
	ldr	x2, [sp, #576]
	ldr	x9, [sp, #712]
	ldr	x3, [sp, #672]
	uzp1	v5.4s, v5.4s, v22.4s
	str	x23, [sp, #128]
	ldr	x11, [sp, #720]
	uzp1	v2.4s, v2.4s, v7.4s
	uzp1	v3.4s, v6.4s, v3.4s
	xtn	v4.4h, v4.4s
	zip1	v6.8b, v26.8b, v0.8b
	ldr	x23, [sp, #664]
	ldr	x12, [sp, #728]
	ldr	x0, [sp, #680]
	ldr	x13, [sp, #736]
	ldr	x19, [sp, #688]
	uzp1	v5.8h, v5.8h, v16.8h
	ldr	x15, [sp, #1000]
	ldr	x18, [sp, #568]
	uzp1	v2.8h, v2.8h, v3.8h
	ldr	q3, [x8, :lo12:.LCPI10_0]
	ldr	x8, [sp, #1064]
	and	v25.8b, v6.8b, v4.8b
	mov	x4, x20
	ldr	x20, [sp, #496]
	cmp	x8, x2
	mov	x5, x25
	ldr	x16, [sp, #1048]
	cset	w14, eq
	cmp	x9, x3
	ldr	x25, [sp, #584]
	tbl	v3.16b, { v25.16b, v26.16b, v27.16b }, v3.16b
	uzp1	v2.16b, v2.16b, v5.16b
	cset	w10, eq
	cmp	x11, x23
	ldr	x17, [sp, #1056]
	cset	w8, eq
	cmp	x12, x0
	cset	w9, eq
	cmp	x13, x19
	ldr	x13, [sp, #1040]
	and	v2.16b, v3.16b, v2.16b
	cset	w11, eq
	cmp	x15, x18
	cset	w12, eq
	cmp	x13, x20
	ldp	x7, x6, [sp, #304]
	cset	w15, eq
	shl	v2.16b, v2.16b, #7
	ldp	x30, x21, [sp, #320]
	cmp	x16, x25
	cset	w13, eq
	cmp	x17, x27
	cmlt	v2.16b, v2.16b, #0
	uminv	b2, v2.16b
	fmov	w1, s2
	and	w16, w14, w1
	ldr	x1, [sp, #696]
	cset	w14, eq
	cmp	w16, #1
	b.ne	.LBB10_23
	cbz	w10, .LBB10_23
	cbz	w8, .LBB10_23
	cbz	w9, .LBB10_23
	cbz	w11, .LBB10_23
	cbz	w12, .LBB10_23
	cbz	w15, .LBB10_23
	cbz	w13, .LBB10_23
	cbz	w14, .LBB10_23
	ldrb	w8, [sp, #1072]
	cmp	w8, w26
	b.ne	.LBB10_23
	ldp	x8, x1, [sp, #288]
	mov	v3.16b, v10.16b
	mov	v2.16b, v11.16b
	mov	v6.16b, v12.16b
	mov	v7.16b, v13.16b
	str	x8, [sp, #1264]
	ldr	x8, [sp, #256]
	mov	v2.d[1], v31.d[0]
	mov	v3.d[1], v28.d[0]
	str	x0, [sp, #1248]
	str	x8, [sp, #1272]
	ldr	x8, [sp, #272]
	mov	v7.d[1], v1.d[0]
	mov	v6.d[1], v0.d[0]
	movi	v0.2d, #0000000000000000
	str	x2, [sp, #1584]
	str	x8, [sp, #1280]
	ldr	x8, [sp, #280]
	add	x0, sp, #1088
	str	q2, [sp, #1312]
	mov	v2.16b, v9.16b
	add	x2, sp, #1232
	str	x8, [sp, #1288]
	ldr	x8, [sp, #264]
	str	q3, [sp, #1328]
	mov	v3.16b, v8.16b
	str	x8, [sp, #1296]
	ldr	x8, [sp, #248]
	mov	v2.d[1], v30.d[0]
	str	x3, [sp, #1232]
	str	x8, [sp, #1304]
	ldr	x8, [sp, #240]
	mov	v3.d[1], v29.d[0]
	str	x23, [sp, #1240]
	str	x8, [sp, #1376]
	ldr	x8, [sp, #216]
	stp	q31, q30, [sp, #432]
	str	x8, [sp, #1496]
	ldr	x8, [sp, #224]
	str	x19, [sp, #1256]
	add	x19, sp, #1088
	str	x8, [sp, #1504]
	ldr	x8, [sp, #232]
	stp	q29, q28, [sp, #464]
	str	x8, [sp, #1512]
	ldr	x8, [sp, #152]
	str	q2, [sp, #1344]
	str	x8, [sp, #1528]
	ldr	x8, [sp, #160]
	str	q3, [sp, #1360]
	str	x8, [sp, #1536]
	ldr	x8, [sp, #144]
	str	x7, [sp, #1384]
	str	x8, [sp, #1544]
	ldr	x8, [sp, #136]
	str	x6, [sp, #1392]
	str	x8, [sp, #1552]
	add	x8, sp, #1232
	add	x8, x8, #361
	str	x24, [sp, #1400]
	str	q19, [sp, #1408]
	str	x5, [sp, #1424]
	str	x4, [sp, #1432]
	str	q7, [sp, #1440]
	str	q6, [sp, #1456]
	str	x28, [sp, #1472]
	str	x30, [sp, #1480]
	str	x21, [sp, #1488]
	str	x18, [sp, #1520]
	str	x20, [sp, #1560]
	str	x25, [sp, #1568]
	str	x27, [sp, #1576]
	strb	w26, [sp, #1592]
	str	wzr, [x8]
	str	wzr, [sp, #1596]
	str	q0, [sp, #1088]
	str	q0, [sp, #1104]
	str	q0, [sp, #1120]
	str	q0, [sp, #1136]
	str	q0, [sp, #1152]
	str	q0, [sp, #1168]
	str	q0, [sp, #1184]
	str	q0, [sp, #1200]
	str	q0, [sp, #1216]
	bl	"jpeg_scan_plan::Plan::of"
	ldrb	w8, [sp, #1088]
	cmp	w8, #1
	b.ne	.LBB10_22
	movi	v0.2d, #0000000000000000
	ldr	x8, [sp, #296]
	ldr	q1, [sp, #1136]
	ldr	q2, [sp, #1184]
	ldrb	w20, [sp, #1096]
	mov	x26, x22
	str	x8, [sp, #1608]
	add	x8, sp, #842
	ldr	x9, [sp, #1112]
	str	x22, [sp, #1600]
	ldr	x10, [sp, #1216]
	sub	x0, x29, #144
	stp	q0, q0, [x29, #-144]
	ldr	x22, [sp, #1224]
	add	x1, sp, #1600
	stp	q0, q0, [x29, #-112]
	ldur	q0, [x8, #255]
	add	x8, sp, #1600
	stur	q1, [x8, #56]
	ldr	q1, [sp, #1168]
	mov	w2, wzr
	stur	q0, [x8, #17]
	ldr	q0, [sp, #1120]
	add	x23, sp, #1600
	stur	q2, [x8, #104]
	ldr	x4, [sp, #208]
	stur	q0, [x8, #40]
	ldr	q0, [sp, #1152]
	stur	q1, [x8, #88]
	stur	q0, [x8, #72]
	ldr	q0, [sp, #1200]
	strb	w20, [sp, #1616]
	stur	q0, [x8, #120]
	ldp	x24, x8, [sp, #192]
	str	x9, [sp, #1632]
	str	x10, [sp, #1736]
	add	x3, x8, x24
	add	x21, x8, x24
	str	x22, [sp, #1744]
	bl	"jpeg_scan::run::<#c44e4da361dd472c>"
	ldurb	w8, [x29, #-144]
	cbz	w8, .LBB10_24
.LBB10_22:
	ldr	x1, [sp, #696]
.LBB10_23:
	mov	w8, #8
	b	.LBB10_7
.LBB10_24:
	ldr	x4, [sp, #208]
	cmp	x22, x4, lsr #6
	b.ls	.LBB10_26
	ldr	x1, [sp, #696]
	ldr	x10, [sp, #680]
	ldr	x11, [sp, #672]
	ldr	x12, [sp, #688]
	ldr	q0, [sp, #640]
	b	.LBB10_27
.LBB10_26:
	ldp	q0, q1, [x19, #80]
	mov	w8, #9
	orr	x9, x19, x8
	ldr	x8, [sp, #296]
	sub	x0, x29, #112
	add	x1, sp, #1600
	mov	w2, #1
	str	x26, [sp, #1600]
	stur	q1, [x23, #104]
	ldr	q1, [x9]
	str	x8, [sp, #1608]
	ldur	x8, [x9, #15]
	ldur	x9, [x19, #128]
	stur	q0, [x23, #88]
	ldur	q0, [x19, #112]
	stur	q1, [x23, #17]
	ldp	q1, q2, [x19, #48]
	stur	x8, [x23, #32]
	ldr	x8, [sp, #200]
	stur	q0, [x23, #120]
	ldur	q0, [x19, #32]
	add	x3, x8, x24
	stur	q1, [x23, #56]
	stur	q0, [x23, #40]
	strb	w20, [sp, #1616]
	stur	x9, [x23, #136]
	stur	q2, [x23, #72]
	str	x22, [sp, #1744]
	bl	"jpeg_scan::run::<#c44e4da361dd472c>"
	ldurb	w8, [x29, #-112]
	ldr	x1, [sp, #696]
	ldr	x10, [sp, #680]
	ldr	x11, [sp, #672]
	ldr	x12, [sp, #688]
	ldr	q0, [sp, #640]
	cbnz	w8, .LBB10_23
.LBB10_27:
	lsr	x8, x11, #16
	ldr	x13, [sp, #288]
	str	x21, [sp, #576]
	cbnz	x8, .LBB10_375
	ldr	x8, [sp, #664]
	lsr	x8, x8, #16
	cbnz	x8, .LBB10_375
	sub	x8, x10, #1
	cmp	x8, #3
	b.hi	.LBB10_375
	ldr	x9, [sp, #280]
	sub	x8, x12, #1
	sub	x9, x9, #1
	orr	x8, x9, x8
	cmp	x8, #3
	b.hi	.LBB10_375
	ldr	x15, [sp, #280]
	fmov	x9, d0
	cmp	x10, #1
	mov	x22, x12
	mul	x14, x15, x12
	str	x9, [sp, #160]
	b.ne	.LBB10_36
.LBB10_32:
	cmp	x14, #10
	b.hi	.LBB10_375
	mul	x8, x10, x11
	ldr	x9, [sp, #664]
	mul	x9, x8, x9
	str	x8, [sp, #312]
	ldr	x8, [sp, #184]
	cmp	x9, x8
	b.hi	.LBB10_375
	sub	x8, x22, #1
	str	x15, [sp, #304]
	cmp	x8, #3
	str	x14, [sp, #224]
	b.hi	.LBB10_41
	lsl	w8, w22, #3
	ldr	x11, [sp, #672]
	and	w9, w11, #0xffff
	and	w10, w8, #0xfff8
	udiv	w9, w9, w10
	msub	w8, w9, w8, w11
	tst	w8, #0xffff
	cinc	x8, x9, ne
	b	.LBB10_42
.LBB10_36:
	ldr	x9, [sp, #264]
	sub	x8, x13, #1
	sub	x9, x9, #1
	orr	x8, x9, x8
	cmp	x8, #3
	b.hi	.LBB10_375
	ldr	x8, [sp, #264]
	ldr	x9, [sp, #280]
	cmp	x13, x12
	csel	x22, x13, x12, hi
	madd	x14, x8, x13, x14
	cmp	x8, x9
	csel	x15, x8, x9, hi
	cmp	x10, #2
	b.eq	.LBB10_32
	ldp	x9, x8, [sp, #248]
	sub	x8, x8, #1
	sub	x9, x9, #1
	orr	x8, x9, x8
	cmp	x8, #3
	b.hi	.LBB10_375
	ldp	x8, x9, [sp, #248]
	madd	x14, x8, x9, x14
	cmp	x9, x22
	csel	x22, x9, x22, hi
	cmp	x8, x15
	csel	x15, x8, x15, hi
	cmp	x10, #3
	b.ne	.LBB10_373
	ldr	x1, [sp, #696]
	ldr	x10, [sp, #680]
	ldr	x11, [sp, #672]
	b	.LBB10_32
.LBB10_41:
	mov	x8, xzr
.LBB10_42:
	ldr	x9, [sp, #304]
	sub	x9, x9, #1
	cmp	x9, #3
	b.hi	.LBB10_44
	ldr	x9, [sp, #304]
	ldr	x12, [sp, #664]
	lsl	w9, w9, #3
	and	w10, w12, #0xffff
	and	w11, w9, #0xfff8
	udiv	w10, w10, w11
	msub	w9, w10, w9, w12
	tst	w9, #0xffff
	cinc	x9, x10, ne
	b	.LBB10_45
.LBB10_44:
	mov	x9, xzr
.LBB10_45:
	ldr	x11, [sp, #224]
	ldp	q1, q0, [sp, #608]
	ldp	q4, q3, [sp, #464]
	ldr	x1, [sp, #696]
	lsl	x7, x11, #6
	ldr	x0, [sp, #680]
	ldr	x25, [sp, #672]
	ldr	x30, [sp, #288]
	ldr	x16, [sp, #304]
	ldr	q2, [sp, #592]
	mul	x8, x8, x7
	ldp	q6, q5, [sp, #432]
	mul	x8, x8, x9
	ldr	x9, [sp, #584]
	cmp	x8, x9
	b.hi	.LBB10_375
	ldr	x8, [sp, #664]
	cbz	x8, .LBB10_375
	fmov	x9, d6
	add	x14, sp, #1088
	cmp	x0, #1
	ccmp	x22, #1, #0, eq
	ldp	x17, x8, [sp, #168]
	lsl	x4, x22, #3
	ldr	x2, [sp, #688]
	lsl	x15, x22, #2
	str	x9, [sp, #144]
	fmov	x9, d2
	mov	x13, xzr
	add	x12, x8, x17
	lsl	x3, x2, #1
	str	x15, [sp, #448]
	str	x12, [sp, #48]
	str	x9, [sp, #136]
	fmov	x9, d3
	str	x7, [sp, #560]
	str	x4, [sp, #568]
	str	x9, [sp, #120]
	fmov	x9, d1
	str	x3, [sp, #624]
	str	x9, [sp, #112]
	fmov	x9, d5
	str	x9, [sp, #104]
	fmov	x9, d0
	str	x9, [sp, #96]
	fmov	x9, d4
	str	x9, [sp, #88]
	add	x9, sp, #1232
	add	x10, x9, #96
	add	x5, x9, #64
	add	x6, x9, #32
	str	x10, [sp, #24]
	add	x10, sp, #1600
	add	x9, x9, #16
	str	x9, [sp, #152]
	add	x9, x10, #16
	sub	x10, x4, x22
	str	x9, [sp, #296]
	add	x9, x14, #16
	lsl	x14, x22, #1
	str	x9, [sp, #232]
	cset	w9, eq
	cmp	x30, #1
	str	w9, [sp, #208]
	lsl	x9, x16, #3
	ccmp	x2, x22, #0, eq
	str	x10, [sp, #480]
	ldr	x10, [sp, #256]
	str	x9, [sp, #320]
	lsl	w9, w22, #3
	ccmp	x10, #1, #0, eq
	str	x14, [sp, #464]
	str	w9, [sp, #20]
	add	x9, x25, #7
	ccmp	x0, #3, #0, eq
	lsr	x9, x9, #3
	str	x5, [sp, #592]
	str	x6, [sp, #584]
	mul	x9, x11, x9
	str	x9, [sp, #32]
	add	x9, x8, x17
	ldp	x18, x8, [sp, #192]
	add	x17, x9, #1
	str	x17, [sp, #80]
	str	x17, [sp, #504]
	add	x8, x8, x18
	add	x18, x9, #2
	add	x9, x9, #3
	str	x8, [sp, #8]
	add	x8, x14, x22
	add	x14, x15, x22
	str	x8, [sp, #432]
	lsl	x8, x8, #1
	str	x14, [sp, #416]
	lsl	x14, x30, #1
	str	x8, [sp, #400]
	add	x8, x25, x25, lsl #1
	stp	x9, x18, [sp, #64]
	str	x8, [sp, #216]
	cset	w8, eq
	str	w8, [sp, #60]
	lsl	x8, x10, #1
	mov	x10, x12
	str	x18, [sp, #368]
	mov	x18, x14
	str	x8, [sp, #544]
	ldr	x8, [sp, #272]
	str	x9, [sp, #384]
	lsl	x8, x8, #1
	str	x14, [sp, #640]
	str	x8, [sp, #168]
	b	.LBB10_49
.LBB10_48:
	ldp	x16, x8, [sp, #304]
	ldr	x13, [sp, #336]
	ldp	x12, x9, [sp, #496]
	ldr	x10, [sp, #528]
	add	x13, x13, #1
	add	x9, x9, x8
	add	x12, x12, x8
	str	x9, [sp, #504]
	ldr	x9, [sp, #664]
	cmp	x13, x9
	ldr	x9, [sp, #368]
	add	x9, x9, x8
	str	x9, [sp, #368]
	ldr	x9, [sp, #384]
	add	x9, x9, x8
	ldp	x8, x11, [sp, #216]
	str	x9, [sp, #384]
	add	x10, x10, x8
	b.eq	.LBB10_375
.LBB10_49:
	ldr	w8, [sp, #208]
	str	x12, [sp, #496]
	str	x10, [sp, #528]
	str	x13, [sp, #336]
	cbz	w8, .LBB10_64
	ldr	x8, [sp, #320]
	cbz	x8, .LBB10_376
	cbz	x16, .LBB10_376
	cbz	x25, .LBB10_48
	ldr	x13, [sp, #336]
	ldr	x11, [sp, #320]
	mov	x8, xzr
	ldr	x12, [sp, #280]
	ldr	x14, [sp, #688]
	mov	x9, xzr
	udiv	x10, x13, x11
	msub	x11, x10, x11, x13
	mul	x11, x11, x12
	ldr	x12, [sp, #304]
	udiv	x11, x11, x12
	ldr	x12, [sp, #32]
	mul	x10, x12, x10
	lsr	x12, x11, #3
	ubfiz	x11, x11, #3, #3
	madd	x12, x12, x14, x10
	ldr	x10, [sp, #48]
	madd	x10, x13, x25, x10
	ldr	x13, [sp, #576]
	add	x12, x13, x12, lsl #6
	add	x11, x12, x11
	b	.LBB10_55
.LBB10_54:
	add	x9, x12, x9
	add	x8, x8, x7
	cmp	x9, x25
	b.hs	.LBB10_48
.LBB10_55:
	subs	x12, x25, x9
	mov	w13, #8
	cmp	x12, #8
	csel	x12, x12, x13, lo
	subs	x13, x25, x9
	b.eq	.LBB10_54
	add	x14, x11, x8
	add	x15, x10, x9
	cmp	x13, #1
	ldrb	w16, [x14]
	strb	w16, [x15]
	b.eq	.LBB10_54
	ldrb	w16, [x14, #1]
	cmp	x13, #2
	strb	w16, [x15, #1]
	b.eq	.LBB10_54
	ldrb	w16, [x14, #2]
	cmp	x13, #3
	strb	w16, [x15, #2]
	b.eq	.LBB10_54
	ldrb	w16, [x14, #3]
	cmp	x13, #4
	strb	w16, [x15, #3]
	b.eq	.LBB10_54
	ldrb	w16, [x14, #4]
	cmp	x13, #5
	strb	w16, [x15, #4]
	b.eq	.LBB10_54
	ldrb	w16, [x14, #5]
	cmp	x13, #6
	strb	w16, [x15, #5]
	b.eq	.LBB10_54
	ldrb	w16, [x14, #6]
	cmp	x13, #7
	strb	w16, [x15, #6]
	b.eq	.LBB10_54
	ldrb	w13, [x14, #7]
	strb	w13, [x15, #7]
	b	.LBB10_54
.LBB10_64:
	ldp	x21, x8, [sp, #256]
	str	x25, [sp, #1232]
	str	x0, [sp, #1248]
	str	x8, [sp, #1296]
	ldr	x8, [sp, #248]
	str	x30, [sp, #1264]
	str	x8, [sp, #1304]
	ldr	x8, [sp, #160]
	str	x21, [sp, #1272]
	str	x8, [sp, #1312]
	ldr	x8, [sp, #144]
	str	x22, [sp, #1384]
	str	x8, [sp, #1320]
	ldr	x8, [sp, #136]
	str	x16, [sp, #1392]
	str	x8, [sp, #1328]
	ldr	x8, [sp, #120]
	str	x11, [sp, #1400]
	str	x8, [sp, #1336]
	ldr	x8, [sp, #112]
	str	x8, [sp, #1344]
	ldr	x8, [sp, #104]
	str	x8, [sp, #1352]
	ldr	x8, [sp, #96]
	str	x8, [sp, #1360]
	ldr	x8, [sp, #88]
	str	x8, [sp, #1368]
	ldr	x8, [sp, #664]
	str	x8, [sp, #1240]
	ldr	x8, [sp, #688]
	str	x8, [sp, #1256]
	ldp	x2, x8, [sp, #272]
	str	x8, [sp, #1288]
	ldr	x8, [sp, #240]
	str	x2, [sp, #1280]
	str	x8, [sp, #1376]
	ldr	x8, [sp, #320]
	cbz	x8, .LBB10_376
	sub	x8, x22, #1
	cmp	x8, #3
	b.hi	.LBB10_67
	ldr	w10, [sp, #20]
	and	w8, w25, #0xffff
	and	w9, w10, #0xffff
	udiv	w8, w8, w9
	msub	w9, w8, w10, w25
	tst	w9, #0xffff
	cinc	x8, x8, ne
	mul	x10, x8, x11
	b	.LBB10_68
.LBB10_67:
	mov	x10, xzr
.LBB10_68:
	movi	v0.2d, #0000000000000000
	str	q0, [sp, #1616]
	str	q0, [sp, #1600]
	cbz	x16, .LBB10_376
	ldp	x9, x14, [sp, #312]
	mov	x8, xzr
	ldr	x15, [sp, #80]
	udiv	x11, x13, x14
	madd	x12, x9, x13, x15
	str	x12, [sp, #192]
	mul	x12, x9, x13
	add	x17, x15, x12
	msub	x9, x11, x14, x13
	mul	x10, x11, x10
	ldr	x11, [sp, #72]
	add	x11, x11, x12
	str	x11, [sp, #184]
	ldr	x11, [sp, #64]
	add	x11, x11, x12
	str	x11, [sp, #200]
.LBB10_70:
	lsl	x11, x8, #3
	add	x12, sp, #1232
	add	x8, x8, #1
	cmp	x0, x8
	add	x12, x12, x11
	ldr	x13, [x12, #56]
	ldr	x12, [x12, #24]
	mul	x14, x13, x9
	udiv	x14, x14, x16
	lsr	x15, x14, #3
	madd	x15, x15, x12, x10
	madd	x10, x12, x13, x10
	ubfiz	x12, x14, #3, #3
	add	x13, sp, #1600
	orr	x12, x12, x15, lsl #6
	str	x12, [x13, x11]
	b.ne	.LBB10_70
	ldr	x8, [sp, #1600]
	str	x8, [sp, #608]
	ldr	x8, [sp, #1608]
	str	x8, [sp, #352]
	ldr	x8, [sp, #1616]
	str	x8, [sp, #328]
	ldr	w8, [sp, #60]
	tbz	w8, #0, .LBB10_106
	cbz	x25, .LBB10_48
	ldr	x12, [sp, #688]
	ldr	x10, [sp, #576]
	mov	x23, x30
	ldr	x8, [sp, #608]
	ldr	x9, [sp, #352]
	ldr	x11, [sp, #328]
	cmp	x12, #1
	add	x8, x10, x8
	add	x9, x10, x9
	add	x10, x10, x11
	b.eq	.LBB10_297
	cmp	x12, #2
	b.eq	.LBB10_283
	cmp	x12, #3
	b.ne	.LBB10_327
	mov	x11, xzr
	mov	x12, xzr
	b	.LBB10_78
.LBB10_77:
	ldr	x7, [sp, #560]
	add	x12, x13, x12
	ldr	x5, [sp, #592]
	ldr	x6, [sp, #584]
	ldr	x4, [sp, #568]
	cmp	x12, x25
	ldr	x3, [sp, #624]
	ldr	x18, [sp, #640]
	add	x11, x11, x7
	ldr	x0, [sp, #680]
	mov	x30, x23
	b.hs	.LBB10_48
.LBB10_78:
	add	x13, x9, x11
	add	x0, sp, #1600
	add	x17, x10, x11
	ldrb	w14, [x13]
	ldrb	w15, [x13, #1]
	ldrb	w16, [x13, #2]
	stur	wzr, [x0, #25]
	mov	w20, #62976
	add	x18, sp, #1600
	strb	w14, [sp, #1602]
	orr	w14, w14, w14, lsl #8
	movk	w20, #7, lsl #16
	sturb	w15, [x0, #5]
	orr	w15, w15, w15, lsl #8
	strh	w14, [sp, #1600]
	orr	w14, w16, w16, lsl #8
	sturh	w15, [x0, #3]
	ldrb	w15, [x13, #3]
	sturb	w16, [x0, #8]
	ldrb	w16, [x13, #4]
	sturh	w14, [x0, #6]
	orr	w14, w15, w15, lsl #8
	sturb	w15, [x0, #11]
	ldrb	w15, [x13, #5]
	sturh	w14, [x0, #9]
	orr	w14, w16, w16, lsl #8
	sturb	w15, [x0, #17]
	sturh	w14, [x0, #12]
	orr	w14, w15, w15, lsl #8
	ldrb	w15, [x13, #6]
	ldrb	w13, [x13, #7]
	sturb	w16, [x0, #14]
	sturh	w14, [x0, #15]
	mov	w14, #16843009
	orr	w16, w15, w15, lsl #8
	mul	w13, w13, w14
	sturb	w15, [x0, #20]
	ldrb	w15, [x17]
	sturh	w16, [x0, #18]
	ldrb	w16, [x17, #1]
	strb	w15, [sp, #1090]
	stur	w13, [x0, #21]
	orr	w13, w15, w15, lsl #8
	ldrb	w15, [x17, #2]
	stur	wzr, [x0, #28]
	add	x0, sp, #1088
	strh	w13, [sp, #1088]
	orr	w13, w16, w16, lsl #8
	sturb	w15, [x0, #8]
	sturh	w13, [x0, #3]
	orr	w13, w15, w15, lsl #8
	ldrb	w15, [x17, #3]
	sturb	w16, [x0, #5]
	add	x16, x8, x11
	sturh	w13, [x0, #6]
	orr	w13, w15, w15, lsl #8
	ldr	d0, [x16]
	sturb	w15, [x0, #11]
	ldrb	w15, [x17, #4]
	ldr	d1, [x16, #64]
	sturh	w13, [x0, #9]
	orr	w13, w15, w15, lsl #8
	sturb	w15, [x0, #14]
	ldrb	w15, [x17, #5]
	mov	v0.d[1], v1.d[0]
	ldr	d1, [x16, #128]
	ldrb	w16, [x17, #7]
	sturb	w15, [x0, #17]
	orr	w15, w15, w15, lsl #8
	sturh	w13, [x0, #12]
	sub	x13, x25, x12
	mul	w14, w16, w14
	cmp	x4, x13
	sturh	w15, [x0, #15]
	ldrb	w15, [x17, #6]
	csel	x13, x4, x13, lo
	add	x17, sp, #1088
	str	xzr, [sp, #1256]
	orr	w16, w15, w15, lsl #8
	sturb	w15, [x0, #20]
	sub	x15, x13, #1
	cmp	x15, #31
	stur	wzr, [x0, #25]
	stur	wzr, [x0, #28]
	str	q0, [sp, #1232]
	str	d1, [sp, #1248]
	sturh	w16, [x0, #18]
	stur	w14, [x0, #21]
	b.hi	.LBB10_77
	ldr	x15, [sp, #128]
	add	x14, x12, x12, lsl #1
	cmp	x15, #1
	b.ne	.LBB10_82
	cmp	x13, #8
	b.hs	.LBB10_84
	mov	x15, xzr
	b	.LBB10_95
.LBB10_82:
	cmp	x13, #8
	b.hs	.LBB10_89
	mov	x15, xzr
	b	.LBB10_104
.LBB10_84:
	cmp	x13, #16
	b.hs	.LBB10_91
	mov	x15, xzr
.LBB10_86:
	add	x17, x15, x15, lsl #1
	mov	x2, x15
	and	x15, x13, #0x38
	add	x18, sp, #1088
	add	x0, sp, #1600
	add	x3, sp, #1232
	ldr	x5, [sp, #528]
	sub	x16, x2, x15
	add	x17, x17, x14
	add	x18, x18, x2
	add	x0, x0, x2
	add	x2, x3, x2
	adrp	x6, .LCPI10_1
	adrp	x7, .LCPI10_2
	adrp	x19, .LCPI10_5
	adrp	x21, .LCPI10_6
.LBB10_87:
	ldr	d2, [x0], #8
	ldr	q1, [x7, :lo12:.LCPI10_2]
	ldr	q0, [x6, :lo12:.LCPI10_1]
	ldr	d4, [x18], #8
	tbl	v3.16b, { v2.16b }, v1.16b
	mov	w3, #42982
	mov	w4, #26345
	tbl	v2.16b, { v2.16b }, v0.16b
	dup	v5.4h, w3
	tbl	v6.16b, { v4.16b }, v1.16b
	tbl	v4.16b, { v4.16b }, v0.16b
	mov	w3, #18734
	movi	v22.4s, #128, lsl #8
	dup	v18.4h, w3
	ldr	d17, [x2], #8
	xtn	v7.4h, v3.4s
	mov	w3, #62976
	movi	v23.4s, #128, lsl #8
	xtn	v16.4h, v2.4s
	xtn	v19.4h, v6.4s
	movk	w3, #7, lsl #16
	xtn	v20.4h, v4.4s
	tbl	v1.16b, { v17.16b }, v1.16b
	dup	v21.4s, w3
	tbl	v0.16b, { v17.16b }, v0.16b
	mov	w3, #50594
	movi	v17.4s, #128, lsl #8
	smull	v7.4s, v7.4h, v5.4h
	adds	x16, x16, #8
	smull	v5.4s, v16.4h, v5.4h
	mvni	v16.4s, #127
	umlal	v7.4s, v19.4h, v18.4h
	add	v2.4s, v2.4s, v16.4s
	add	v19.4s, v4.4s, v16.4s
	umlal	v5.4s, v20.4h, v18.4h
	add	v3.4s, v3.4s, v16.4s
	add	v16.4s, v6.4s, v16.4s
	dup	v20.4h, w3
	sub	v6.4s, v1.4s, v6.4s
	dup	v18.4h, w4
	xtn	v24.4h, v2.4s
	sub	v4.4s, v0.4s, v4.4s
	xtn	v25.4h, v19.4s
	add	v7.4s, v7.4s, v21.4s
	xtn	v26.4h, v3.4s
	xtn	v27.4h, v16.4s
	add	v5.4s, v5.4s, v21.4s
	movi	v21.4s, #128, lsl #8
	add	v2.4s, v2.4s, v2.4s
	add	v3.4s, v3.4s, v3.4s
	add	x3, x5, x17
	add	x17, x17, #24
	ssra	v6.4s, v7.4s, #16
	movi	v7.4s, #128
	smlal	v17.4s, v24.4h, v20.4h
	ssra	v4.4s, v5.4s, #16
	add	v5.4s, v19.4s, v0.4s
	smlal	v23.4s, v26.4h, v20.4h
	add	v0.4s, v2.4s, v0.4s
	smlal	v22.4s, v25.4h, v18.4h
	add	v2.4s, v3.4s, v1.4s
	movi	v3.2d, #0000000000000000
	smlal	v21.4s, v27.4h, v18.4h
	add	v1.4s, v16.4s, v1.4s
	add	v4.4s, v4.4s, v7.4s
	add	v6.4s, v6.4s, v7.4s
	movi	v7.2d, #0x0000ff000000ff
	ssra	v0.4s, v17.4s, #16
	ssra	v2.4s, v23.4s, #16
	ssra	v5.4s, v22.4s, #16
	ssra	v1.4s, v21.4s, #16
	smax	v4.4s, v4.4s, v3.4s
	smax	v6.4s, v6.4s, v3.4s
	smax	v0.4s, v0.4s, v3.4s
	smax	v2.4s, v2.4s, v3.4s
	smax	v5.4s, v5.4s, v3.4s
	smax	v1.4s, v1.4s, v3.4s
	smin	v19.4s, v4.4s, v7.4s
	smin	v4.4s, v0.4s, v7.4s
	smin	v18.4s, v6.4s, v7.4s
	ldr	q0, [x21, :lo12:.LCPI10_6]
	smin	v3.4s, v2.4s, v7.4s
	smin	v17.4s, v5.4s, v7.4s
	smin	v16.4s, v1.4s, v7.4s
	ldr	q1, [x19, :lo12:.LCPI10_5]
	tbl	v4.16b, { v3.16b, v4.16b }, v0.16b
	tbl	v2.16b, { v16.16b, v17.16b, v18.16b, v19.16b }, v1.16b
	ext	v3.16b, v2.16b, v2.16b, #8
	st3	{ v2.8b, v3.8b, v4.8b }, [x3]
	b.ne	.LBB10_87
	cmp	x13, x15
	b.eq	.LBB10_77
	b	.LBB10_95
.LBB10_89:
	cmp	x13, #32
	b.hs	.LBB10_97
	mov	x15, xzr
	b	.LBB10_101
.LBB10_91:
	ldr	x4, [sp, #528]
	and	x15, x13, #0x30
	add	x16, sp, #1088
	add	x17, sp, #1600
	add	x18, sp, #1232
	mov	x0, x14
	and	x2, x13, #0x30
	adrp	x5, .LCPI10_1
	adrp	x6, .LCPI10_2
	adrp	x7, .LCPI10_3
	adrp	x19, .LCPI10_4
	adrp	x21, .LCPI10_5
.LBB10_92:
	ldr	q2, [x17], #16
	ldr	q7, [x6, :lo12:.LCPI10_2]
	ldr	q1, [x16], #16
	ldr	q5, [x19, :lo12:.LCPI10_4]
	tbl	v24.16b, { v2.16b }, v7.16b
	ldr	q6, [x7, :lo12:.LCPI10_3]
	ldr	q4, [x5, :lo12:.LCPI10_1]
	mov	w3, #42982
	tbl	v26.16b, { v2.16b }, v5.16b
	tbl	v20.16b, { v1.16b }, v7.16b
	tbl	v29.16b, { v2.16b }, v6.16b
	tbl	v30.16b, { v2.16b }, v4.16b
	dup	v18.4h, w3
	mov	w3, #18734
	tbl	v16.16b, { v1.16b }, v5.16b
	tbl	v23.16b, { v1.16b }, v4.16b
	xtn	v21.4h, v24.4s
	tbl	v19.16b, { v1.16b }, v6.16b
	dup	v11.4h, w3
	xtn	v3.4h, v26.4s
	xtn	v31.4h, v20.4s
	mvni	v25.4s, #127
	xtn	v2.4h, v29.4s
	ldr	q14, [x18], #16
	xtn	v1.4h, v16.4s
	xtn	v8.4h, v23.4s
	mov	w3, #62976
	smull	v15.4s, v21.4h, v18.4h
	xtn	v21.4h, v30.4s
	xtn	v17.4h, v19.4s
	smull	v12.4s, v3.4h, v18.4h
	add	v22.4s, v23.4s, v25.4s
	tbl	v7.16b, { v14.16b }, v7.16b
	smull	v13.4s, v2.4h, v18.4h
	tbl	v28.16b, { v14.16b }, v5.16b
	movk	w3, #7, lsl #16
	add	v9.4s, v20.4s, v25.4s
	add	v29.4s, v29.4s, v25.4s
	tbl	v27.16b, { v14.16b }, v6.16b
	umlal	v15.4s, v31.4h, v11.4h
	smull	v31.4s, v21.4h, v18.4h
	subs	x2, x2, #16
	xtn	v0.4h, v22.4s
	umlal	v12.4s, v1.4h, v11.4h
	dup	v1.4s, w3
	umlal	v13.4s, v17.4h, v11.4h
	mov	w3, #26345
	add	v10.4s, v19.4s, v25.4s
	dup	v18.4h, w3
	mov	w3, #50594
	xtn	v2.4h, v9.4s
	umlal	v31.4s, v8.4h, v11.4h
	add	v8.4s, v26.4s, v25.4s
	tbl	v21.16b, { v14.16b }, v4.16b
	str	d0, [sp, #608]
	add	v0.4s, v16.4s, v25.4s
	sub	v16.4s, v28.4s, v16.4s
	add	v12.4s, v12.4s, v1.4s
	add	v13.4s, v13.4s, v1.4s
	add	v14.4s, v15.4s, v1.4s
	add	v4.4s, v9.4s, v7.4s
	add	v30.4s, v30.4s, v25.4s
	xtn	v9.4h, v8.4s
	add	v26.4s, v31.4s, v1.4s
	add	v1.4s, v24.4s, v25.4s
	xtn	v24.4h, v29.4s
	dup	v25.4h, w3
	add	x3, x4, x0
	add	x0, x0, #48
	movi	v31.4s, #128, lsl #8
	movi	v11.4s, #128, lsl #8
	add	v29.4s, v29.4s, v29.4s
	add	v8.4s, v8.4s, v8.4s
	sub	v20.4s, v7.4s, v20.4s
	xtn	v3.4h, v10.4s
	sub	v19.4s, v27.4s, v19.4s
	add	v5.4s, v10.4s, v27.4s
	ssra	v16.4s, v12.4s, #16
	xtn	v10.4h, v30.4s
	xtn	v12.4h, v1.4s
	add	v30.4s, v30.4s, v30.4s
	add	v1.4s, v1.4s, v1.4s
	xtn	v17.4h, v0.4s
	add	v0.4s, v0.4s, v28.4s
	smlal	v31.4s, v24.4h, v25.4h
	movi	v24.4s, #128, lsl #8
	smlal	v11.4s, v9.4h, v25.4h
	add	v28.4s, v8.4s, v28.4s
	add	v27.4s, v29.4s, v27.4s
	movi	v29.4s, #128, lsl #8
	movi	v8.4s, #128, lsl #8
	movi	v9.4s, #128, lsl #8
	ssra	v20.4s, v14.4s, #16
	sub	v23.4s, v21.4s, v23.4s
	movi	v14.4s, #128, lsl #8
	add	v6.4s, v22.4s, v21.4s
	ssra	v19.4s, v13.4s, #16
	movi	v13.4s, #128, lsl #8
	add	v1.4s, v1.4s, v7.4s
	add	v7.4s, v30.4s, v21.4s
	ldr	d21, [sp, #608]
	movi	v22.4s, #128
	ssra	v23.4s, v26.4s, #16
	smlal	v29.4s, v17.4h, v18.4h
	smlal	v8.4s, v3.4h, v18.4h
	smlal	v24.4s, v21.4h, v18.4h
	smlal	v9.4s, v2.4h, v18.4h
	smlal	v14.4s, v10.4h, v25.4h
	smlal	v13.4s, v12.4h, v25.4h
	movi	v25.2d, #0000000000000000
	ssra	v27.4s, v31.4s, #16
	add	v17.4s, v23.4s, v22.4s
	add	v18.4s, v20.4s, v22.4s
	add	v19.4s, v19.4s, v22.4s
	add	v16.4s, v16.4s, v22.4s
	ssra	v28.4s, v11.4s, #16
	ssra	v5.4s, v8.4s, #16
	ssra	v6.4s, v24.4s, #16
	ssra	v4.4s, v9.4s, #16
	ssra	v0.4s, v29.4s, #16
	ssra	v7.4s, v14.4s, #16
	ssra	v1.4s, v13.4s, #16
	smax	v2.4s, v27.4s, v25.4s
	movi	v3.2d, #0x0000ff000000ff
	smax	v18.4s, v18.4s, v25.4s
	smax	v17.4s, v17.4s, v25.4s
	smax	v16.4s, v16.4s, v25.4s
	smax	v19.4s, v19.4s, v25.4s
	smax	v20.4s, v28.4s, v25.4s
	smax	v6.4s, v6.4s, v25.4s
	smax	v0.4s, v0.4s, v25.4s
	smax	v5.4s, v5.4s, v25.4s
	smax	v4.4s, v4.4s, v25.4s
	smax	v7.4s, v7.4s, v25.4s
	smax	v1.4s, v1.4s, v25.4s
	smin	v24.4s, v2.4s, v3.4s
	smin	v2.4s, v17.4s, v3.4s
	smin	v17.4s, v18.4s, v3.4s
	smin	v18.4s, v19.4s, v3.4s
	smin	v16.4s, v16.4s, v3.4s
	smin	v23.4s, v20.4s, v3.4s
	smin	v6.4s, v6.4s, v3.4s
	smin	v5.4s, v5.4s, v3.4s
	smin	v0.4s, v0.4s, v3.4s
	smin	v4.4s, v4.4s, v3.4s
	smin	v22.4s, v7.4s, v3.4s
	smin	v21.4s, v1.4s, v3.4s
	ldr	q3, [x21, :lo12:.LCPI10_5]
	uzp1	v2.8h, v17.8h, v2.8h
	uzp1	v1.8h, v16.8h, v18.8h
	uzp1	v0.8h, v0.8h, v5.8h
	uzp1	v4.8h, v4.8h, v6.8h
	tbl	v7.16b, { v21.16b, v22.16b, v23.16b, v24.16b }, v3.16b
	uzp1	v6.16b, v2.16b, v1.16b
	uzp1	v5.16b, v4.16b, v0.16b
	st3	{ v5.16b, v6.16b, v7.16b }, [x3]
	b.ne	.LBB10_92
	cmp	x13, x15
	b.eq	.LBB10_77
	tbnz	w13, #3, .LBB10_86
.LBB10_95:
	add	x18, x15, x15, lsl #1
	add	x0, sp, #1600
	add	x17, sp, #1232
	add	x2, sp, #1088
	sub	x16, x13, x15
	add	x17, x17, x15
	add	x18, x18, x14
	add	x14, x0, x15
	ldr	x0, [sp, #528]
	add	x15, x2, x15
	add	x18, x0, x18
.LBB10_96:
	ldrb	w0, [x14], #1
	mov	w3, #-22554
	ldrb	w2, [x15], #1
	mov	w4, #26345
	madd	w3, w0, w3, w20
	mov	w7, #18734
	mov	w6, #32768
	sub	w5, w2, #128
	ldrb	w19, [x17], #1
	madd	w4, w5, w4, w6
	sub	w0, w0, #128
	madd	w3, w2, w7, w3
	mov	w7, #-14942
	add	w5, w5, w19
	madd	w6, w0, w7, w6
	sub	w2, w19, w2
	add	w0, w19, w0, lsl #1
	add	w4, w5, w4, asr #16
	add	w2, w2, w3, asr #16
	bic	w3, w4, w4, asr #31
	add	w0, w0, w6, asr #16
	mov	w4, #255
	add	w2, w2, #128
	bic	w2, w2, w2, asr #31
	cmp	w3, #255
	bic	w0, w0, w0, asr #31
	csel	w3, w3, w4, lt
	cmp	w2, #255
	strb	w3, [x18]
	csel	w2, w2, w4, lt
	cmp	w0, #255
	csel	w0, w0, w4, lt
	strb	w2, [x18, #1]
	subs	x16, x16, #1
	strb	w0, [x18, #2]
	add	x18, x18, #3
	b.ne	.LBB10_96
	b	.LBB10_77
.LBB10_97:
	ldr	x0, [sp, #528]
	add	x3, sp, #1232
	and	x16, x13, #0x18
	and	x15, x13, #0x20
	add	x17, x17, #16
	add	x18, x18, #16
	add	x0, x0, x14
	and	x2, x13, #0x20
	add	x3, x3, #16
.LBB10_98:
	ldp	q0, q3, [x3, #-16]
	add	x4, x0, #96
	ldp	q1, q4, [x18, #-16]
	add	x3, x3, #32
	ldp	q2, q5, [x17, #-16]
	subs	x2, x2, #32
	add	x18, x18, #32
	add	x17, x17, #32
	st3	{ v0.16b, v1.16b, v2.16b }, [x0], #48
	st3	{ v3.16b, v4.16b, v5.16b }, [x0]
	mov	x0, x4
	b.ne	.LBB10_98
	cmp	x13, x15
	b.eq	.LBB10_77
	cbz	x16, .LBB10_104
.LBB10_101:
	add	x17, x15, x15, lsl #1
	mov	x2, x15
	and	x15, x13, #0x38
	add	x18, sp, #1088
	add	x0, sp, #1600
	add	x3, sp, #1232
	ldr	x4, [sp, #528]
	sub	x16, x2, x15
	add	x17, x17, x14
	add	x18, x18, x2
	add	x0, x0, x2
	add	x2, x3, x2
.LBB10_102:
	ldr	d0, [x2], #8
	add	x3, x4, x17
	ldr	d1, [x0], #8
	adds	x16, x16, #8
	ldr	d2, [x18], #8
	add	x17, x17, #24
	st3	{ v0.8b, v1.8b, v2.8b }, [x3]
	b.ne	.LBB10_102
	cmp	x13, x15
	b.eq	.LBB10_77
.LBB10_104:
	ldr	x2, [sp, #528]
	add	x18, x15, x15, lsl #1
	add	x17, sp, #1232
	add	x0, sp, #1600
	add	x3, sp, #1088
	sub	x16, x13, x15
	add	x2, x2, x14
	add	x17, x17, x15
	add	x14, x0, x15
	add	x18, x2, x18
	add	x15, x3, x15
.LBB10_105:
	ldrb	w0, [x17], #1
	subs	x16, x16, #1
	ldrb	w2, [x14], #1
	ldrb	w3, [x15], #1
	strb	w0, [x18]
	strb	w2, [x18, #1]
	strb	w3, [x18, #2]
	add	x18, x18, #3
	b.ne	.LBB10_105
	b	.LBB10_77
.LBB10_106:
	str	x17, [sp, #40]
	cbz	x25, .LBB10_48
	ldr	x8, [sp, #312]
	ldr	x9, [sp, #336]
	mov	x26, xzr
	ldr	x10, [sp, #8]
	ldr	x11, [sp, #1624]
	mov	x20, xzr
	mul	x8, x9, x8
	ldr	x9, [sp, #608]
	add	x23, x10, x11
	str	x11, [sp, #176]
	add	x19, x10, x9
	ldr	x9, [sp, #48]
	add	x8, x9, x8
	str	x8, [sp, #512]
	ldr	x8, [sp, #352]
	add	x28, x10, x8
	ldr	x8, [sp, #328]
	add	x24, x10, x8
	b	.LBB10_111
.LBB10_108:
	ldr	x18, [sp, #640]
.LBB10_109:
	mov	x2, x27
.LBB10_110:
	add	x20, x2, x20
	add	x26, x26, x7
	add	x19, x19, x7
	cmp	x20, x25
	add	x28, x28, x7
	add	x24, x24, x7
	add	x23, x23, x7
	b.hs	.LBB10_48
.LBB10_111:
	mul	x8, x20, x0
	sub	x9, x25, x20
	cmp	x4, x9
	csel	x2, x4, x9, lo
	ldr	x9, [sp, #608]
	cmp	x0, #3
	mov	x27, x2
	add	x9, x26, x9
	b.eq	.LBB10_122
	movi	v0.2d, #0000000000000000
	ldr	x10, [sp, #512]
	ldr	x17, [sp, #544]
	cmp	x0, #2
	mov	x11, x0
	add	x0, x10, x8
	b.eq	.LBB10_118
	cmp	x11, #1
	b.ne	.LBB10_126
	ldr	x16, [sp, #688]
	str	q0, [sp, #1248]
	str	q0, [sp, #1232]
	cmp	x16, x22
	b.ne	.LBB10_134
	cbz	x16, .LBB10_162
	mov	x8, xzr
	mov	x9, x16
.LBB10_117:
	ldr	d0, [x19, x8, lsl #3]
	add	x10, sp, #1232
	subs	x9, x9, #1
	str	d0, [x10, x8]
	add	x8, x8, #8
	b.ne	.LBB10_117
	b	.LBB10_162
.LBB10_118:
	ldr	x10, [sp, #688]
	str	q0, [sp, #1280]
	str	q0, [sp, #1264]
	cmp	x10, x22
	str	q0, [sp, #1248]
	str	q0, [sp, #1232]
	b.ne	.LBB10_130
	mov	x17, x30
	cbz	x10, .LBB10_142
	ldr	x10, [sp, #688]
	mov	x9, xzr
.LBB10_121:
	ldr	d0, [x19, x9, lsl #3]
	add	x11, sp, #1232
	subs	x10, x10, #1
	str	d0, [x11, x9]
	add	x9, x9, #8
	b.ne	.LBB10_121
	b	.LBB10_142
.LBB10_122:
	movi	v0.2d, #0000000000000000
	ldr	x10, [sp, #688]
	ldr	x17, [sp, #544]
	cmp	x10, x22
	str	q0, [sp, #1312]
	str	q0, [sp, #1296]
	str	q0, [sp, #1280]
	str	q0, [sp, #1264]
	str	q0, [sp, #1248]
	str	q0, [sp, #1232]
	b.ne	.LBB10_132
	mov	x2, x30
	cbz	x10, .LBB10_152
	ldr	x11, [sp, #688]
	add	x9, sp, #1232
	mov	x10, x19
.LBB10_125:
	ldr	d0, [x10], #64
	subs	x11, x11, #1
	str	d0, [x9], #8
	b.ne	.LBB10_125
	b	.LBB10_152
.LBB10_126:
	ldr	x10, [sp, #688]
	str	q0, [sp, #1344]
	str	q0, [sp, #1328]
	cmp	x10, x22
	str	q0, [sp, #1312]
	str	q0, [sp, #1296]
	str	q0, [sp, #1280]
	str	q0, [sp, #1264]
	str	q0, [sp, #1248]
	str	q0, [sp, #1232]
	b.ne	.LBB10_136
	mov	x2, x30
	cbz	x10, .LBB10_169
	ldr	x10, [sp, #688]
	mov	x9, xzr
.LBB10_129:
	ldr	d0, [x19, x9, lsl #3]
	add	x11, sp, #1232
	subs	x10, x10, #1
	str	d0, [x11, x9]
	add	x9, x9, #8
	b.ne	.LBB10_129
	b	.LBB10_169
.LBB10_130:
	cmp	x10, #1
	mov	x17, x30
	b.ne	.LBB10_138
	ldr	x10, [sp, #576]
	mov	w11, #16843009
	ldr	x16, [sp, #464]
	add	x15, sp, #1232
	add	x9, x10, x9
	ldrb	w10, [x9]
	ldrb	w12, [x9, #1]
	ldrb	w13, [x9, #2]
	ldrb	w14, [x9, #3]
	mul	w10, w10, w11
	mul	w12, w12, w11
	mul	w13, w13, w11
	str	w10, [sp, #1232]
	ldrb	w10, [x9, #4]
	mul	w14, w14, w11
	str	w12, [x15, x22]
	ldrb	w12, [x9, #5]
	str	w13, [x15, x16]
	ldr	x16, [sp, #432]
	ldrb	w13, [x9, #6]
	mul	w10, w10, w11
	ldrb	w9, [x9, #7]
	str	w14, [x15, x16]
	ldr	x14, [sp, #448]
	mul	w12, w12, w11
	mul	w9, w9, w11
	str	w10, [x15, x14]
	mul	w10, w13, w11
	ldr	x13, [sp, #416]
	ldr	x11, [sp, #400]
	str	w12, [x15, x13]
	str	w10, [x15, x11]
	ldr	x10, [sp, #480]
	str	w9, [x15, x10]
	b	.LBB10_142
.LBB10_132:
	cmp	x10, #1
	mov	x2, x30
	b.ne	.LBB10_148
	ldr	x10, [sp, #576]
	mov	w11, #16843009
	ldr	x16, [sp, #464]
	add	x15, sp, #1232
	add	x9, x10, x9
	ldrb	w10, [x9]
	ldrb	w12, [x9, #1]
	ldrb	w13, [x9, #2]
	ldrb	w14, [x9, #3]
	mul	w10, w10, w11
	mul	w12, w12, w11
	mul	w13, w13, w11
	str	w10, [sp, #1232]
	ldrb	w10, [x9, #4]
	mul	w14, w14, w11
	str	w12, [x15, x22]
	ldrb	w12, [x9, #5]
	str	w13, [x15, x16]
	ldr	x16, [sp, #432]
	ldrb	w13, [x9, #6]
	mul	w10, w10, w11
	ldrb	w9, [x9, #7]
	str	w14, [x15, x16]
	ldr	x14, [sp, #448]
	mul	w12, w12, w11
	mul	w9, w9, w11
	str	w10, [x15, x14]
	mul	w10, w13, w11
	ldr	x13, [sp, #416]
	ldr	x11, [sp, #400]
	str	w12, [x15, x13]
	str	w10, [x15, x11]
	ldr	x10, [sp, #480]
	str	w9, [x15, x10]
	b	.LBB10_152
.LBB10_134:
	cmp	x16, #1
	b.ne	.LBB10_158
	ldr	x8, [sp, #576]
	mov	w10, #16843009
	ldr	x15, [sp, #464]
	add	x14, sp, #1232
	add	x8, x8, x9
	ldrb	w9, [x8]
	ldrb	w11, [x8, #1]
	ldrb	w12, [x8, #2]
	ldrb	w13, [x8, #3]
	mul	w9, w9, w10
	mul	w11, w11, w10
	mul	w12, w12, w10
	str	w9, [sp, #1232]
	ldrb	w9, [x8, #4]
	mul	w13, w13, w10
	str	w11, [x14, x22]
	ldrb	w11, [x8, #5]
	str	w12, [x14, x15]
	ldr	x15, [sp, #432]
	ldrb	w12, [x8, #6]
	mul	w9, w9, w10
	ldrb	w8, [x8, #7]
	str	w13, [x14, x15]
	ldr	x13, [sp, #448]
	mul	w11, w11, w10
	mul	w8, w8, w10
	str	w9, [x14, x13]
	mul	w9, w12, w10
	ldr	x12, [sp, #416]
	ldr	x10, [sp, #400]
	str	w11, [x14, x12]
	str	w9, [x14, x10]
	ldr	x9, [sp, #480]
	str	w8, [x14, x9]
	b	.LBB10_162
.LBB10_136:
	cmp	x10, #1
	mov	x2, x30
	b.ne	.LBB10_165
	ldr	x10, [sp, #576]
	mov	w11, #16843009
	ldr	x16, [sp, #464]
	add	x15, sp, #1232
	add	x9, x10, x9
	ldrb	w10, [x9]
	ldrb	w12, [x9, #1]
	ldrb	w13, [x9, #2]
	ldrb	w14, [x9, #3]
	mul	w10, w10, w11
	mul	w12, w12, w11
	mul	w13, w13, w11
	str	w10, [sp, #1232]
	ldrb	w10, [x9, #4]
	mul	w14, w14, w11
	str	w12, [x15, x22]
	ldrb	w12, [x9, #5]
	str	w13, [x15, x16]
	ldr	x16, [sp, #432]
	ldrb	w13, [x9, #6]
	mul	w10, w10, w11
	ldrb	w9, [x9, #7]
	str	w14, [x15, x16]
	ldr	x14, [sp, #448]
	mul	w12, w12, w11
	mul	w9, w9, w11
	str	w10, [x15, x14]
	mul	w10, w13, w11
	ldr	x13, [sp, #416]
	ldr	x11, [sp, #400]
	str	w12, [x15, x13]
	str	w10, [x15, x11]
	ldr	x10, [sp, #480]
	str	w9, [x15, x10]
	b	.LBB10_169
.LBB10_138:
	cbz	x4, .LBB10_142
	cbz	x22, .LBB10_376
	ldr	x11, [sp, #576]
	add	x12, sp, #1232
	mov	x10, xzr
	add	x12, x12, #1
	add	x9, x11, x9
	mov	x11, x4
.LBB10_141:
	ldr	x14, [sp, #688]
	udiv	x13, x10, x22
	subs	x11, x11, #2
	add	x14, x14, x10
	add	x10, x10, x3
	udiv	x14, x14, x22
	lsr	x15, x13, #3
	and	x13, x13, #0x7
	add	x15, x9, x15, lsl #6
	ldrb	w13, [x15, x13]
	sturb	w13, [x12, #-1]
	lsr	x16, x14, #3
	and	x14, x14, #0x7
	add	x16, x9, x16, lsl #6
	ldrb	w14, [x16, x14]
	strb	w14, [x12], #2
	b.ne	.LBB10_141
.LBB10_142:
	cmp	x17, x22
	b.ne	.LBB10_146
	cbz	x17, .LBB10_179
	mov	x9, xzr
	mov	x10, x17
.LBB10_145:
	ldr	d0, [x28, x9, lsl #3]
	subs	x10, x10, #1
	str	d0, [x6, x9]
	add	x9, x9, #8
	b.ne	.LBB10_145
	b	.LBB10_179
.LBB10_146:
	ldr	x9, [sp, #352]
	cmp	x17, #1
	add	x10, x26, x9
	b.ne	.LBB10_175
	ldr	x9, [sp, #576]
	mov	w11, #16843009
	ldr	x15, [sp, #464]
	add	x9, x9, x10
	ldrb	w10, [x9]
	ldrb	w12, [x9, #1]
	ldrb	w13, [x9, #2]
	ldrb	w14, [x9, #3]
	mul	w10, w10, w11
	mul	w12, w12, w11
	mul	w13, w13, w11
	str	w10, [x6]
	ldrb	w10, [x9, #4]
	mul	w14, w14, w11
	str	w12, [x6, x22]
	ldrb	w12, [x9, #5]
	str	w13, [x6, x15]
	ldr	x15, [sp, #432]
	ldrb	w13, [x9, #6]
	mul	w10, w10, w11
	ldrb	w9, [x9, #7]
	str	w14, [x6, x15]
	ldr	x14, [sp, #448]
	mul	w12, w12, w11
	mul	w9, w9, w11
	str	w10, [x6, x14]
	mul	w10, w13, w11
	ldr	x13, [sp, #416]
	ldr	x11, [sp, #400]
	str	w12, [x6, x13]
	str	w10, [x6, x11]
	ldr	x10, [sp, #480]
	str	w9, [x6, x10]
	b	.LBB10_179
.LBB10_148:
	cbz	x4, .LBB10_152
	cbz	x22, .LBB10_376
	ldr	x11, [sp, #576]
	add	x12, sp, #1232
	mov	x10, xzr
	add	x12, x12, #1
	add	x9, x11, x9
	mov	x11, x4
.LBB10_151:
	ldr	x14, [sp, #688]
	udiv	x13, x10, x22
	subs	x11, x11, #2
	add	x14, x14, x10
	add	x10, x10, x3
	udiv	x14, x14, x22
	lsr	x15, x13, #3
	and	x13, x13, #0x7
	add	x15, x9, x15, lsl #6
	ldrb	w13, [x15, x13]
	sturb	w13, [x12, #-1]
	lsr	x16, x14, #3
	and	x14, x14, #0x7
	add	x16, x9, x16, lsl #6
	ldrb	w14, [x16, x14]
	strb	w14, [x12], #2
	b.ne	.LBB10_151
.LBB10_152:
	cmp	x2, x22
	b.ne	.LBB10_156
	cbz	x2, .LBB10_194
	add	x10, sp, #1232
	mov	x9, x28
	mov	x11, x2
	add	x10, x10, #32
.LBB10_155:
	ldr	d0, [x9], #64
	subs	x11, x11, #1
	str	d0, [x10], #8
	b.ne	.LBB10_155
	b	.LBB10_194
.LBB10_156:
	ldr	x9, [sp, #352]
	cmp	x2, #1
	add	x10, x26, x9
	b.ne	.LBB10_190
	ldr	x9, [sp, #576]
	mov	w11, #16843009
	ldr	x15, [sp, #464]
	add	x9, x9, x10
	ldrb	w10, [x9]
	ldrb	w12, [x9, #1]
	ldrb	w13, [x9, #2]
	ldrb	w14, [x9, #3]
	mul	w10, w10, w11
	mul	w12, w12, w11
	mul	w13, w13, w11
	str	w10, [x6]
	ldrb	w10, [x9, #4]
	mul	w14, w14, w11
	str	w12, [x6, x22]
	ldrb	w12, [x9, #5]
	str	w13, [x6, x15]
	ldr	x15, [sp, #432]
	ldrb	w13, [x9, #6]
	mul	w10, w10, w11
	ldrb	w9, [x9, #7]
	str	w14, [x6, x15]
	ldr	x14, [sp, #448]
	mul	w12, w12, w11
	mul	w9, w9, w11
	str	w10, [x6, x14]
	mul	w10, w13, w11
	ldr	x13, [sp, #416]
	ldr	x11, [sp, #400]
	str	w12, [x6, x13]
	str	w10, [x6, x11]
	ldr	x10, [sp, #480]
	str	w9, [x6, x10]
	b	.LBB10_194
.LBB10_158:
	cbz	x4, .LBB10_162
	cbz	x22, .LBB10_376
	ldr	x10, [sp, #576]
	add	x11, sp, #1232
	mov	x8, xzr
	add	x11, x11, #1
	add	x9, x10, x9
	mov	x10, x4
.LBB10_161:
	add	x13, x16, x8
	udiv	x12, x8, x22
	subs	x10, x10, #2
	add	x8, x8, x3
	udiv	x13, x13, x22
	lsr	x14, x12, #3
	and	x12, x12, #0x7
	add	x14, x9, x14, lsl #6
	ldrb	w12, [x14, x12]
	sturb	w12, [x11, #-1]
	lsr	x15, x13, #3
	and	x13, x13, #0x7
	add	x15, x9, x15, lsl #6
	ldrb	w13, [x15, x13]
	strb	w13, [x11], #2
	b.ne	.LBB10_161
.LBB10_162:
	cbz	x2, .LBB10_164
	add	x1, sp, #1232
	bl	memcpy
	ldr	x18, [sp, #640]
	ldr	x3, [sp, #624]
	mov	x2, x27
	ldr	x4, [sp, #568]
.LBB10_164:
	ldr	x1, [sp, #696]
	ldr	x25, [sp, #672]
	ldr	x30, [sp, #288]
	ldr	x7, [sp, #560]
	ldr	x5, [sp, #592]
	ldr	x6, [sp, #584]
	ldr	x0, [sp, #680]
	b	.LBB10_110
.LBB10_165:
	cbz	x4, .LBB10_169
	cbz	x22, .LBB10_376
	ldr	x11, [sp, #576]
	add	x12, sp, #1232
	mov	x10, xzr
	add	x12, x12, #1
	add	x9, x11, x9
	mov	x11, x4
.LBB10_168:
	ldr	x14, [sp, #688]
	udiv	x13, x10, x22
	subs	x11, x11, #2
	add	x14, x14, x10
	add	x10, x10, x3
	udiv	x14, x14, x22
	lsr	x15, x13, #3
	and	x13, x13, #0x7
	add	x15, x9, x15, lsl #6
	ldrb	w13, [x15, x13]
	sturb	w13, [x12, #-1]
	lsr	x16, x14, #3
	and	x14, x14, #0x7
	add	x16, x9, x16, lsl #6
	ldrb	w14, [x16, x14]
	strb	w14, [x12], #2
	b.ne	.LBB10_168
.LBB10_169:
	cmp	x2, x22
	b.ne	.LBB10_173
	cbz	x2, .LBB10_204
	mov	x9, xzr
	mov	x10, x2
.LBB10_172:
	ldr	d0, [x28, x9, lsl #3]
	subs	x10, x10, #1
	str	d0, [x6, x9]
	add	x9, x9, #8
	b.ne	.LBB10_172
	b	.LBB10_204
.LBB10_173:
	ldr	x9, [sp, #352]
	cmp	x2, #1
	add	x10, x26, x9
	b.ne	.LBB10_200
	ldr	x9, [sp, #576]
	mov	w11, #16843009
	ldr	x15, [sp, #464]
	add	x9, x9, x10
	ldrb	w10, [x9]
	ldrb	w12, [x9, #1]
	ldrb	w13, [x9, #2]
	ldrb	w14, [x9, #3]
	mul	w10, w10, w11
	mul	w12, w12, w11
	mul	w13, w13, w11
	str	w10, [x6]
	ldrb	w10, [x9, #4]
	mul	w14, w14, w11
	str	w12, [x6, x22]
	ldrb	w12, [x9, #5]
	str	w13, [x6, x15]
	ldr	x15, [sp, #432]
	ldrb	w13, [x9, #6]
	mul	w10, w10, w11
	ldrb	w9, [x9, #7]
	str	w14, [x6, x15]
	ldr	x14, [sp, #448]
	mul	w12, w12, w11
	mul	w9, w9, w11
	str	w10, [x6, x14]
	mul	w10, w13, w11
	ldr	x13, [sp, #416]
	ldr	x11, [sp, #400]
	str	w12, [x6, x13]
	str	w10, [x6, x11]
	ldr	x10, [sp, #480]
	str	w9, [x6, x10]
	b	.LBB10_204
.LBB10_175:
	cbz	x4, .LBB10_179
	cbz	x22, .LBB10_376
	ldr	x11, [sp, #576]
	add	x12, sp, #1232
	mov	x9, xzr
	add	x12, x12, #33
	add	x10, x11, x10
	mov	x11, x4
.LBB10_178:
	add	x14, x17, x9
	udiv	x13, x9, x22
	subs	x11, x11, #2
	add	x9, x9, x18
	udiv	x14, x14, x22
	lsr	x15, x13, #3
	and	x13, x13, #0x7
	add	x15, x10, x15, lsl #6
	ldrb	w13, [x15, x13]
	sturb	w13, [x12, #-1]
	lsr	x16, x14, #3
	and	x14, x14, #0x7
	add	x16, x10, x16, lsl #6
	ldrb	w14, [x16, x14]
	strb	w14, [x12], #2
	b.ne	.LBB10_178
.LBB10_179:
	mov	x2, x27
	cbz	x27, .LBB10_184
	cmp	x2, #8
	b.hs	.LBB10_185
	mov	x9, xzr
.LBB10_182:
	add	x10, x8, x9, lsl #1
	ldr	x11, [sp, #504]
	sub	x8, x2, x9
	add	x9, x6, x9
	add	x10, x11, x10
.LBB10_183:
	ldurb	w11, [x9, #-32]
	ldrb	w12, [x9], #1
	subs	x8, x8, #1
	sturb	w11, [x10, #-1]
	strb	w12, [x10], #2
	b.ne	.LBB10_183
.LBB10_184:
	ldr	x0, [sp, #680]
	b	.LBB10_110
.LBB10_185:
	lsl	x9, x2, #1
	sub	x10, x9, #2
	add	x9, x0, x10
	cmp	x9, x0
	mov	x9, xzr
	b.lo	.LBB10_182
	ldr	x11, [sp, #192]
	add	x11, x11, x8
	add	x10, x11, x10
	cmp	x10, x11
	b.lo	.LBB10_182
	cmp	x2, #1
	b.lt	.LBB10_182
	cmp	x2, #32
	b.hs	.LBB10_257
	mov	x9, xzr
	b	.LBB10_261
.LBB10_190:
	cbz	x4, .LBB10_194
	cbz	x22, .LBB10_376
	ldr	x11, [sp, #576]
	add	x12, sp, #1232
	mov	x9, xzr
	add	x12, x12, #33
	add	x10, x11, x10
	mov	x11, x4
.LBB10_193:
	add	x14, x2, x9
	udiv	x13, x9, x22
	subs	x11, x11, #2
	add	x9, x9, x18
	udiv	x14, x14, x22
	lsr	x15, x13, #3
	and	x13, x13, #0x7
	add	x15, x10, x15, lsl #6
	ldrb	w13, [x15, x13]
	sturb	w13, [x12, #-1]
	lsr	x16, x14, #3
	and	x14, x14, #0x7
	add	x16, x10, x16, lsl #6
	ldrb	w14, [x16, x14]
	strb	w14, [x12], #2
	b.ne	.LBB10_193
.LBB10_194:
	cmp	x21, x22
	b.ne	.LBB10_198
	cbz	x21, .LBB10_214
	add	x10, sp, #1232
	mov	x9, x24
	mov	x11, x21
	add	x10, x10, #64
.LBB10_197:
	ldr	d0, [x9], #64
	subs	x11, x11, #1
	str	d0, [x10], #8
	b.ne	.LBB10_197
	b	.LBB10_214
.LBB10_198:
	ldr	x9, [sp, #328]
	cmp	x21, #1
	add	x10, x26, x9
	b.ne	.LBB10_210
	ldr	x9, [sp, #576]
	mov	w11, #16843009
	ldr	x15, [sp, #464]
	add	x9, x9, x10
	ldrb	w10, [x9]
	ldrb	w12, [x9, #1]
	ldrb	w13, [x9, #2]
	ldrb	w14, [x9, #3]
	mul	w10, w10, w11
	mul	w12, w12, w11
	mul	w13, w13, w11
	str	w10, [x5]
	ldrb	w10, [x9, #4]
	mul	w14, w14, w11
	str	w12, [x5, x22]
	ldrb	w12, [x9, #5]
	str	w13, [x5, x15]
	ldr	x15, [sp, #432]
	ldrb	w13, [x9, #6]
	mul	w10, w10, w11
	ldrb	w9, [x9, #7]
	str	w14, [x5, x15]
	ldr	x14, [sp, #448]
	mul	w12, w12, w11
	mul	w9, w9, w11
	str	w10, [x5, x14]
	mul	w10, w13, w11
	ldr	x13, [sp, #416]
	ldr	x11, [sp, #400]
	str	w12, [x5, x13]
	str	w10, [x5, x11]
	ldr	x10, [sp, #480]
	str	w9, [x5, x10]
	b	.LBB10_214
.LBB10_200:
	cbz	x4, .LBB10_204
	cbz	x22, .LBB10_376
	ldr	x11, [sp, #576]
	add	x12, sp, #1232
	mov	x9, xzr
	add	x12, x12, #33
	add	x10, x11, x10
	mov	x11, x4
.LBB10_203:
	add	x14, x2, x9
	udiv	x13, x9, x22
	subs	x11, x11, #2
	add	x9, x9, x18
	udiv	x14, x14, x22
	lsr	x15, x13, #3
	and	x13, x13, #0x7
	add	x15, x10, x15, lsl #6
	ldrb	w13, [x15, x13]
	sturb	w13, [x12, #-1]
	lsr	x16, x14, #3
	and	x14, x14, #0x7
	add	x16, x10, x16, lsl #6
	ldrb	w14, [x16, x14]
	strb	w14, [x12], #2
	b.ne	.LBB10_203
.LBB10_204:
	cmp	x21, x22
	b.ne	.LBB10_208
	ldr	x2, [sp, #272]
	cbz	x21, .LBB10_222
	mov	x9, xzr
	mov	x10, x21
.LBB10_207:
	ldr	d0, [x24, x9, lsl #3]
	subs	x10, x10, #1
	str	d0, [x5, x9]
	add	x9, x9, #8
	b.ne	.LBB10_207
	b	.LBB10_222
.LBB10_208:
	ldr	x9, [sp, #328]
	ldr	x2, [sp, #272]
	cmp	x21, #1
	add	x10, x26, x9
	b.ne	.LBB10_218
	ldr	x9, [sp, #576]
	mov	w11, #16843009
	ldr	x15, [sp, #464]
	add	x9, x9, x10
	ldrb	w10, [x9]
	ldrb	w12, [x9, #1]
	ldrb	w13, [x9, #2]
	ldrb	w14, [x9, #3]
	mul	w10, w10, w11
	mul	w12, w12, w11
	mul	w13, w13, w11
	str	w10, [x5]
	ldrb	w10, [x9, #4]
	mul	w14, w14, w11
	str	w12, [x5, x22]
	ldrb	w12, [x9, #5]
	str	w13, [x5, x15]
	ldr	x15, [sp, #432]
	ldrb	w13, [x9, #6]
	mul	w10, w10, w11
	ldrb	w9, [x9, #7]
	str	w14, [x5, x15]
	ldr	x14, [sp, #448]
	mul	w12, w12, w11
	mul	w9, w9, w11
	str	w10, [x5, x14]
	mul	w10, w13, w11
	ldr	x13, [sp, #416]
	ldr	x11, [sp, #400]
	str	w12, [x5, x13]
	str	w10, [x5, x11]
	ldr	x10, [sp, #480]
	str	w9, [x5, x10]
	b	.LBB10_222
.LBB10_210:
	cbz	x4, .LBB10_214
	cbz	x22, .LBB10_376
	ldr	x11, [sp, #576]
	add	x12, sp, #1232
	mov	x9, xzr
	add	x12, x12, #65
	add	x10, x11, x10
	mov	x11, x4
.LBB10_213:
	add	x14, x21, x9
	udiv	x13, x9, x22
	subs	x11, x11, #2
	add	x9, x9, x17
	udiv	x14, x14, x22
	lsr	x15, x13, #3
	and	x13, x13, #0x7
	add	x15, x10, x15, lsl #6
	ldrb	w13, [x15, x13]
	sturb	w13, [x12, #-1]
	lsr	x16, x14, #3
	and	x14, x14, #0x7
	add	x16, x10, x16, lsl #6
	ldrb	w14, [x16, x14]
	strb	w14, [x12], #2
	b.ne	.LBB10_213
.LBB10_214:
	sub	x9, x27, #1
	cmp	x9, #31
	b.hi	.LBB10_108
	ldr	x9, [sp, #128]
	cmp	x9, #1
	b.ne	.LBB10_228
	cmp	x27, #8
	b.hs	.LBB10_250
	mov	x2, xzr
	b	.LBB10_272
.LBB10_218:
	cbz	x4, .LBB10_222
	cbz	x22, .LBB10_376
	ldr	x11, [sp, #576]
	add	x12, sp, #1232
	mov	x9, xzr
	add	x12, x12, #65
	add	x10, x11, x10
	mov	x11, x4
.LBB10_221:
	add	x14, x21, x9
	udiv	x13, x9, x22
	subs	x11, x11, #2
	add	x9, x9, x17
	udiv	x14, x14, x22
	lsr	x15, x13, #3
	and	x13, x13, #0x7
	add	x15, x10, x15, lsl #6
	ldrb	w13, [x15, x13]
	sturb	w13, [x12, #-1]
	lsr	x16, x14, #3
	and	x14, x14, #0x7
	add	x16, x10, x16, lsl #6
	ldrb	w14, [x16, x14]
	strb	w14, [x12], #2
	b.ne	.LBB10_221
.LBB10_222:
	cmp	x2, x22
	b.ne	.LBB10_226
	cbz	x2, .LBB10_234
	add	x10, sp, #1232
	mov	x9, x23
	mov	x11, x2
	add	x10, x10, #96
.LBB10_225:
	ldr	d0, [x9], #64
	subs	x11, x11, #1
	str	d0, [x10], #8
	b.ne	.LBB10_225
	b	.LBB10_234
.LBB10_226:
	ldp	x17, x9, [sp, #168]
	cmp	x2, #1
	add	x10, x26, x9
	b.ne	.LBB10_230
	ldr	x9, [sp, #576]
	mov	w11, #16843009
	ldr	x15, [sp, #24]
	ldr	x16, [sp, #464]
	add	x9, x9, x10
	ldrb	w10, [x9]
	ldrb	w12, [x9, #1]
	ldrb	w13, [x9, #2]
	ldrb	w14, [x9, #3]
	mul	w10, w10, w11
	mul	w12, w12, w11
	mul	w13, w13, w11
	str	w10, [x15]
	ldrb	w10, [x9, #4]
	mul	w14, w14, w11
	str	w12, [x15, x22]
	ldrb	w12, [x9, #5]
	str	w13, [x15, x16]
	ldr	x16, [sp, #432]
	ldrb	w13, [x9, #6]
	mul	w10, w10, w11
	ldrb	w9, [x9, #7]
	str	w14, [x15, x16]
	ldr	x14, [sp, #448]
	mul	w12, w12, w11
	mul	w9, w9, w11
	str	w10, [x15, x14]
	mul	w10, w13, w11
	ldr	x13, [sp, #416]
	ldr	x11, [sp, #400]
	str	w12, [x15, x13]
	str	w10, [x15, x11]
	ldr	x10, [sp, #480]
	str	w9, [x15, x10]
	b	.LBB10_234
.LBB10_228:
	cmp	x27, #8
	b.hs	.LBB10_255
	mov	x9, xzr
	b	.LBB10_281
.LBB10_230:
	cbz	x4, .LBB10_234
	cbz	x22, .LBB10_376
	ldr	x11, [sp, #576]
	add	x12, sp, #1232
	mov	x9, xzr
	add	x12, x12, #97
	add	x10, x11, x10
	mov	x11, x4
.LBB10_233:
	add	x14, x2, x9
	udiv	x13, x9, x22
	subs	x11, x11, #2
	add	x9, x9, x17
	udiv	x14, x14, x22
	lsr	x15, x13, #3
	and	x13, x13, #0x7
	add	x15, x10, x15, lsl #6
	ldrb	w13, [x15, x13]
	sturb	w13, [x12, #-1]
	lsr	x16, x14, #3
	and	x14, x14, #0x7
	add	x16, x10, x16, lsl #6
	ldrb	w14, [x16, x14]
	strb	w14, [x12], #2
	b.ne	.LBB10_233
.LBB10_234:
	cbz	x27, .LBB10_239
	cmp	x27, #8
	b.hs	.LBB10_240
	mov	x9, xzr
.LBB10_237:
	ldr	x12, [sp, #504]
	ldr	x13, [sp, #368]
	lsl	x11, x9, #2
	ldr	x14, [sp, #384]
	sub	x10, x27, x9
	add	x9, x5, x9
	add	x12, x12, x8
	add	x13, x13, x8
	add	x8, x14, x8
.LBB10_238:
	ldurb	w14, [x9, #-64]
	add	x15, x8, x11
	ldurb	w16, [x9, #-32]
	ldrb	w17, [x9, #32]
	subs	x10, x10, #1
	add	x8, x8, #4
	sturb	w14, [x15, #-3]
	ldrb	w14, [x9], #1
	strb	w16, [x12, x11]
	add	x12, x12, #4
	strb	w14, [x13, x11]
	add	x13, x13, #4
	strb	w17, [x15]
	b.ne	.LBB10_238
.LBB10_239:
	ldr	x0, [sp, #680]
	b	.LBB10_109
.LBB10_240:
	sub	x10, x27, #1
	ldr	x9, [sp, #200]
	lsl	x11, x10, #2
	add	x9, x9, x8
	add	x12, x9, x11
	cmp	x12, x9
	mov	x9, xzr
	b.lo	.LBB10_237
	ldr	x12, [sp, #184]
	add	x12, x12, x8
	add	x13, x12, x11
	cmp	x13, x12
	b.lo	.LBB10_237
	add	x12, x0, x11
	cmp	x12, x0
	b.lo	.LBB10_237
	ldr	x12, [sp, #40]
	add	x12, x12, x8
	add	x11, x12, x11
	cmp	x11, x12
	b.lo	.LBB10_237
	lsr	x10, x10, #62
	cbnz	x10, .LBB10_237
	cmp	x27, #16
	b.hs	.LBB10_264
	mov	x9, xzr
.LBB10_247:
	mov	x12, x9
	and	x9, x27, #0xfff8
	ldr	x14, [sp, #496]
	add	x10, x8, x12, lsl #2
	mov	x15, x27
	sub	x11, x12, x9
	add	x12, x5, x12
.LBB10_248:
	ldur	d0, [x12, #-64]
	add	x13, x14, x10
	adds	x11, x11, #8
	ldur	d1, [x12, #-32]
	add	x10, x10, #32
	ldr	d2, [x12]
	ldr	d3, [x12, #32]
	add	x12, x12, #8
	st4	{ v0.8b, v1.8b, v2.8b, v3.8b }, [x13]
	b.ne	.LBB10_248
	cmp	x15, x9
	b.ne	.LBB10_237
	b	.LBB10_239
.LBB10_250:
	mov	x9, x27
	cmp	x27, #16
	b.hs	.LBB10_268
	mov	x2, xzr
.LBB10_252:
	mov	x12, x2
	and	x2, x27, #0x38
	ldr	x15, [sp, #496]
	add	x11, x12, x12, lsl #1
	sub	x10, x12, x2
	add	x12, x5, x12
	adrp	x16, .LCPI10_1
	adrp	x17, .LCPI10_2
	adrp	x9, .LCPI10_5
	add	x11, x8, x11
	adrp	x18, .LCPI10_6
.LBB10_253:
	ldur	d2, [x12, #-32]
	ldr	q1, [x17, :lo12:.LCPI10_2]
	mov	w13, #42982
	ldr	q0, [x16, :lo12:.LCPI10_1]
	ldr	d4, [x12]
	dup	v5.4h, w13
	tbl	v3.16b, { v2.16b }, v1.16b
	mov	w13, #18734
	ldur	d17, [x12, #-64]
	tbl	v2.16b, { v2.16b }, v0.16b
	tbl	v6.16b, { v4.16b }, v1.16b
	tbl	v4.16b, { v4.16b }, v0.16b
	dup	v18.4h, w13
	mov	w13, #62976
	tbl	v1.16b, { v17.16b }, v1.16b
	movk	w13, #7, lsl #16
	tbl	v0.16b, { v17.16b }, v0.16b
	mov	w14, #26345
	xtn	v7.4h, v3.4s
	dup	v21.4s, w13
	mov	w13, #50594
	xtn	v16.4h, v2.4s
	xtn	v19.4h, v6.4s
	xtn	v20.4h, v4.4s
	movi	v17.4s, #128, lsl #8
	movi	v22.4s, #128, lsl #8
	movi	v23.4s, #128, lsl #8
	adds	x10, x10, #8
	add	x12, x12, #8
	smull	v7.4s, v7.4h, v5.4h
	smull	v5.4s, v16.4h, v5.4h
	mvni	v16.4s, #127
	umlal	v7.4s, v19.4h, v18.4h
	add	v2.4s, v2.4s, v16.4s
	add	v19.4s, v4.4s, v16.4s
	umlal	v5.4s, v20.4h, v18.4h
	add	v3.4s, v3.4s, v16.4s
	add	v16.4s, v6.4s, v16.4s
	dup	v20.4h, w13
	sub	v6.4s, v1.4s, v6.4s
	dup	v18.4h, w14
	xtn	v24.4h, v2.4s
	sub	v4.4s, v0.4s, v4.4s
	xtn	v25.4h, v19.4s
	add	v7.4s, v7.4s, v21.4s
	xtn	v26.4h, v3.4s
	xtn	v27.4h, v16.4s
	add	v5.4s, v5.4s, v21.4s
	movi	v21.4s, #128, lsl #8
	add	v2.4s, v2.4s, v2.4s
	add	v3.4s, v3.4s, v3.4s
	add	x13, x15, x11
	add	x11, x11, #24
	ssra	v6.4s, v7.4s, #16
	movi	v7.4s, #128
	smlal	v17.4s, v24.4h, v20.4h
	ssra	v4.4s, v5.4s, #16
	add	v5.4s, v19.4s, v0.4s
	smlal	v23.4s, v26.4h, v20.4h
	add	v0.4s, v2.4s, v0.4s
	smlal	v22.4s, v25.4h, v18.4h
	add	v2.4s, v3.4s, v1.4s
	movi	v3.2d, #0000000000000000
	smlal	v21.4s, v27.4h, v18.4h
	add	v1.4s, v16.4s, v1.4s
	add	v4.4s, v4.4s, v7.4s
	add	v6.4s, v6.4s, v7.4s
	movi	v7.2d, #0x0000ff000000ff
	ssra	v0.4s, v17.4s, #16
	ssra	v2.4s, v23.4s, #16
	ssra	v5.4s, v22.4s, #16
	ssra	v1.4s, v21.4s, #16
	smax	v4.4s, v4.4s, v3.4s
	smax	v6.4s, v6.4s, v3.4s
	smax	v0.4s, v0.4s, v3.4s
	smax	v2.4s, v2.4s, v3.4s
	smax	v5.4s, v5.4s, v3.4s
	smax	v1.4s, v1.4s, v3.4s
	smin	v19.4s, v4.4s, v7.4s
	smin	v4.4s, v0.4s, v7.4s
	smin	v18.4s, v6.4s, v7.4s
	ldr	q0, [x18, :lo12:.LCPI10_6]
	smin	v3.4s, v2.4s, v7.4s
	smin	v17.4s, v5.4s, v7.4s
	smin	v16.4s, v1.4s, v7.4s
	ldr	q1, [x9, :lo12:.LCPI10_5]
	tbl	v4.16b, { v3.16b, v4.16b }, v0.16b
	tbl	v2.16b, { v16.16b, v17.16b, v18.16b, v19.16b }, v1.16b
	ext	v3.16b, v2.16b, v2.16b, #8
	st3	{ v2.8b, v3.8b, v4.8b }, [x13]
	b.ne	.LBB10_253
	cmp	x27, x2
	b.eq	.LBB10_108
	b	.LBB10_272
.LBB10_255:
	mov	x15, x27
	cmp	x27, #32
	b.hs	.LBB10_274
	mov	x9, xzr
	b	.LBB10_278
.LBB10_257:
	ldr	x11, [sp, #496]
	and	x10, x2, #0x18
	and	x9, x2, #0xffe0
	and	x12, x2, #0xffe0
	add	x13, x11, x8
	add	x11, sp, #1232
	add	x11, x11, #32
.LBB10_258:
	ldp	q0, q2, [x11, #-32]
	add	x14, x13, #64
	ldp	q1, q3, [x11], #32
	subs	x12, x12, #32
	st2	{ v0.16b, v1.16b }, [x13], #32
	st2	{ v2.16b, v3.16b }, [x13]
	mov	x13, x14
	b.ne	.LBB10_258
	cmp	x2, x9
	b.eq	.LBB10_184
	cbz	x10, .LBB10_182
.LBB10_261:
	mov	x12, x9
	and	x9, x2, #0xfff8
	ldr	x14, [sp, #496]
	add	x10, x8, x12, lsl #1
	sub	x11, x12, x9
	add	x12, x6, x12
.LBB10_262:
	ldur	d0, [x12, #-32]
	add	x13, x14, x10
	adds	x11, x11, #8
	ldr	d1, [x12], #8
	add	x10, x10, #16
	st2	{ v0.8b, v1.8b }, [x13]
	b.ne	.LBB10_262
	cmp	x2, x9
	b.ne	.LBB10_182
	b	.LBB10_184
.LBB10_264:
	add	x11, sp, #1232
	ldr	x14, [sp, #496]
	mov	x15, x27
	and	x9, x27, #0xfff0
	mov	x10, x8
	add	x11, x11, #64
	and	x12, x27, #0xfff0
.LBB10_265:
	ldur	q0, [x11, #-64]
	add	x13, x14, x10
	subs	x12, x12, #16
	ldur	q1, [x11, #-32]
	add	x10, x10, #64
	ldr	q2, [x11]
	ldr	q3, [x11, #32]
	add	x11, x11, #16
	st4	{ v0.16b, v1.16b, v2.16b, v3.16b }, [x13]
	b.ne	.LBB10_265
	cmp	x15, x9
	b.eq	.LBB10_239
	tbz	w27, #3, .LBB10_237
	b	.LBB10_247
.LBB10_268:
	add	x10, sp, #1232
	ldr	x15, [sp, #496]
	and	x2, x9, #0x30
	add	x10, x10, #64
	mov	x11, x8
	and	x12, x9, #0x30
	adrp	x16, .LCPI10_1
	adrp	x17, .LCPI10_2
	adrp	x18, .LCPI10_3
	adrp	x0, .LCPI10_4
	adrp	x9, .LCPI10_5
.LBB10_269:
	ldur	q1, [x10, #-32]
	ldr	q4, [x18, :lo12:.LCPI10_3]
	mov	w14, #42982
	ldr	q6, [x16, :lo12:.LCPI10_1]
	ldr	q28, [x17, :lo12:.LCPI10_2]
	dup	v18.4h, w14
	tbl	v26.16b, { v1.16b }, v4.16b
	ldr	q2, [x10]
	ldr	q27, [x0, :lo12:.LCPI10_4]
	tbl	v30.16b, { v1.16b }, v6.16b
	tbl	v25.16b, { v1.16b }, v28.16b
	mov	w13, #18734
	tbl	v19.16b, { v2.16b }, v4.16b
	tbl	v24.16b, { v1.16b }, v27.16b
	tbl	v29.16b, { v2.16b }, v6.16b
	tbl	v20.16b, { v2.16b }, v28.16b
	dup	v22.4h, w13
	mvni	v23.4s, #127
	xtn	v7.4h, v26.4s
	tbl	v16.16b, { v2.16b }, v27.16b
	ldur	q9, [x10, #-64]
	xtn	v0.4h, v30.4s
	xtn	v3.4h, v25.4s
	mov	w13, #62976
	xtn	v21.4h, v19.4s
	xtn	v2.4h, v24.4s
	xtn	v12.4h, v29.4s
	xtn	v11.4h, v20.4s
	add	v31.4s, v29.4s, v23.4s
	movk	w13, #7, lsl #16
	smull	v14.4s, v7.4h, v18.4h
	xtn	v17.4h, v16.4s
	tbl	v7.16b, { v9.16b }, v28.16b
	smull	v0.4s, v0.4h, v18.4h
	smull	v15.4s, v3.4h, v18.4h
	subs	x12, x12, #16
	smull	v13.4s, v2.4h, v18.4h
	tbl	v28.16b, { v9.16b }, v27.16b
	add	x10, x10, #16
	tbl	v27.16b, { v9.16b }, v4.16b
	add	v8.4s, v20.4s, v23.4s
	add	v10.4s, v19.4s, v23.4s
	umlal	v14.4s, v21.4h, v22.4h
	tbl	v21.16b, { v9.16b }, v6.16b
	xtn	v1.4h, v31.4s
	umlal	v0.4s, v12.4h, v22.4h
	add	v5.4s, v16.4s, v23.4s
	umlal	v15.4s, v11.4h, v22.4h
	dup	v11.4s, w13
	mov	w13, #26345
	umlal	v13.4s, v17.4h, v22.4h
	dup	v18.4h, w13
	mov	w13, #50594
	xtn	v2.4h, v8.4s
	add	v6.4s, v31.4s, v21.4s
	add	v31.4s, v26.4s, v23.4s
	sub	v26.4s, v21.4s, v29.4s
	add	v29.4s, v24.4s, v23.4s
	xtn	v3.4h, v10.4s
	xtn	v17.4h, v5.4s
	add	v9.4s, v5.4s, v28.4s
	add	v5.4s, v10.4s, v27.4s
	add	v4.4s, v8.4s, v7.4s
	add	v30.4s, v30.4s, v23.4s
	add	v24.4s, v0.4s, v11.4s
	add	v0.4s, v25.4s, v23.4s
	xtn	v23.4h, v31.4s
	dup	v25.4h, w13
	add	x13, x15, x11
	add	x11, x11, #48
	movi	v8.4s, #128, lsl #8
	xtn	v10.4h, v29.4s
	movi	v12.4s, #128, lsl #8
	add	v31.4s, v31.4s, v31.4s
	add	v29.4s, v29.4s, v29.4s
	sub	v20.4s, v7.4s, v20.4s
	add	v15.4s, v15.4s, v11.4s
	sub	v16.4s, v28.4s, v16.4s
	add	v13.4s, v13.4s, v11.4s
	sub	v19.4s, v27.4s, v19.4s
	add	v14.4s, v14.4s, v11.4s
	smlal	v8.4s, v23.4h, v25.4h
	movi	v23.4s, #128, lsl #8
	add	v28.4s, v29.4s, v28.4s
	smlal	v12.4s, v10.4h, v25.4h
	add	v27.4s, v31.4s, v27.4s
	movi	v29.4s, #128, lsl #8
	movi	v31.4s, #128, lsl #8
	movi	v10.4s, #128, lsl #8
	ssra	v20.4s, v15.4s, #16
	xtn	v11.4h, v30.4s
	movi	v15.4s, #128, lsl #8
	ssra	v16.4s, v13.4s, #16
	ssra	v19.4s, v14.4s, #16
	xtn	v13.4h, v0.4s
	movi	v14.4s, #128, lsl #8
	movi	v22.4s, #128
	add	v30.4s, v30.4s, v30.4s
	add	v0.4s, v0.4s, v0.4s
	ssra	v26.4s, v24.4s, #16
	smlal	v23.4s, v1.4h, v18.4h
	smlal	v29.4s, v17.4h, v18.4h
	smlal	v31.4s, v3.4h, v18.4h
	smlal	v10.4s, v2.4h, v18.4h
	smlal	v15.4s, v11.4h, v25.4h
	smlal	v14.4s, v13.4h, v25.4h
	movi	v25.2d, #0000000000000000
	add	v0.4s, v0.4s, v7.4s
	add	v7.4s, v30.4s, v21.4s
	ssra	v27.4s, v8.4s, #16
	add	v3.4s, v26.4s, v22.4s
	add	v17.4s, v20.4s, v22.4s
	add	v18.4s, v19.4s, v22.4s
	add	v16.4s, v16.4s, v22.4s
	ssra	v28.4s, v12.4s, #16
	ssra	v6.4s, v23.4s, #16
	ssra	v4.4s, v10.4s, #16
	ssra	v5.4s, v31.4s, #16
	ssra	v9.4s, v29.4s, #16
	ssra	v7.4s, v15.4s, #16
	ssra	v0.4s, v14.4s, #16
	smax	v1.4s, v27.4s, v25.4s
	movi	v2.2d, #0x0000ff000000ff
	smax	v17.4s, v17.4s, v25.4s
	smax	v3.4s, v3.4s, v25.4s
	smax	v16.4s, v16.4s, v25.4s
	smax	v18.4s, v18.4s, v25.4s
	smax	v19.4s, v28.4s, v25.4s
	smax	v6.4s, v6.4s, v25.4s
	smax	v20.4s, v9.4s, v25.4s
	smax	v5.4s, v5.4s, v25.4s
	smax	v4.4s, v4.4s, v25.4s
	smax	v7.4s, v7.4s, v25.4s
	smax	v0.4s, v0.4s, v25.4s
	smin	v24.4s, v1.4s, v2.4s
	smin	v1.4s, v3.4s, v2.4s
	smin	v3.4s, v17.4s, v2.4s
	smin	v16.4s, v16.4s, v2.4s
	smin	v17.4s, v18.4s, v2.4s
	smin	v23.4s, v19.4s, v2.4s
	smin	v6.4s, v6.4s, v2.4s
	smin	v4.4s, v4.4s, v2.4s
	smin	v5.4s, v5.4s, v2.4s
	smin	v18.4s, v20.4s, v2.4s
	smin	v22.4s, v7.4s, v2.4s
	smin	v21.4s, v0.4s, v2.4s
	ldr	q2, [x9, :lo12:.LCPI10_5]
	uzp1	v1.8h, v3.8h, v1.8h
	uzp1	v0.8h, v16.8h, v17.8h
	uzp1	v3.8h, v18.8h, v5.8h
	uzp1	v4.8h, v4.8h, v6.8h
	tbl	v7.16b, { v21.16b, v22.16b, v23.16b, v24.16b }, v2.16b
	uzp1	v6.16b, v1.16b, v0.16b
	uzp1	v5.16b, v4.16b, v3.16b
	st3	{ v5.16b, v6.16b, v7.16b }, [x13]
	b.ne	.LBB10_269
	ldr	x0, [sp, #680]
	cmp	x27, x2
	b.eq	.LBB10_108
	tbnz	w27, #3, .LBB10_252
.LBB10_272:
	ldr	x11, [sp, #496]
	add	x10, x2, x2, lsl #1
	add	x9, x5, x2
	add	x11, x11, x8
	sub	x8, x27, x2
	add	x10, x11, x10
.LBB10_273:
	ldurb	w11, [x9, #-32]
	ldrb	w12, [x9]
	mov	w13, #-22554
	mov	w16, #62976
	mov	w14, #26345
	mov	w17, #18734
	sub	w15, w12, #128
	movk	w16, #7, lsl #16
	madd	w13, w11, w13, w16
	mov	w16, #32768
	madd	w14, w15, w14, w16
	ldurb	w18, [x9, #-64]
	madd	w13, w12, w17, w13
	sub	w11, w11, #128
	mov	w17, #-14942
	madd	w16, w11, w17, w16
	add	w15, w15, w18
	sub	w12, w18, w12
	add	w14, w15, w14, asr #16
	add	w11, w18, w11, lsl #1
	add	x9, x9, #1
	add	w12, w12, w13, asr #16
	bic	w13, w14, w14, asr #31
	add	w11, w11, w16, asr #16
	mov	w14, #255
	add	w12, w12, #128
	bic	w12, w12, w12, asr #31
	cmp	w13, #255
	bic	w11, w11, w11, asr #31
	csel	w13, w13, w14, lt
	cmp	w12, #255
	strb	w13, [x10]
	csel	w12, w12, w14, lt
	cmp	w11, #255
	csel	w11, w11, w14, lt
	strb	w12, [x10, #1]
	subs	x8, x8, #1
	strb	w11, [x10, #2]
	add	x10, x10, #3
	b.ne	.LBB10_273
	b	.LBB10_108
.LBB10_274:
	ldr	x11, [sp, #496]
	add	x13, sp, #1232
	and	x10, x15, #0x18
	and	x9, x15, #0x20
	and	x12, x15, #0x20
	add	x13, x13, #48
	add	x11, x11, x8
.LBB10_275:
	ldp	q0, q3, [x13, #-48]
	add	x14, x11, #96
	ldp	q1, q4, [x13, #-16]
	subs	x12, x12, #32
	ldr	q2, [x13, #16]
	ldr	q5, [x13, #32]!
	st3	{ v0.16b, v1.16b, v2.16b }, [x11], #48
	st3	{ v3.16b, v4.16b, v5.16b }, [x11]
	mov	x11, x14
	b.ne	.LBB10_275
	cmp	x15, x9
	b.eq	.LBB10_108
	cbz	x10, .LBB10_281
.LBB10_278:
	mov	x12, x9
	and	x9, x27, #0x38
	ldr	x14, [sp, #496]
	add	x11, x12, x12, lsl #1
	mov	x15, x27
	sub	x10, x12, x9
	add	x12, x5, x12
	add	x11, x8, x11
.LBB10_279:
	ldur	d0, [x12, #-64]
	add	x13, x14, x11
	adds	x10, x10, #8
	ldur	d1, [x12, #-32]
	add	x11, x11, #24
	ldr	d2, [x12], #8
	st3	{ v0.8b, v1.8b, v2.8b }, [x13]
	b.ne	.LBB10_279
	cmp	x15, x9
	b.eq	.LBB10_108
.LBB10_281:
	ldr	x11, [sp, #496]
	add	x10, x9, x9, lsl #1
	add	x11, x11, x8
	sub	x8, x27, x9
	add	x9, x5, x9
	add	x10, x11, x10
.LBB10_282:
	ldurb	w11, [x9, #-64]
	ldurb	w12, [x9, #-32]
	subs	x8, x8, #1
	ldrb	w13, [x9], #1
	strb	w11, [x10]
	strb	w12, [x10, #1]
	strb	w13, [x10, #2]
	add	x10, x10, #3
	b.ne	.LBB10_282
	b	.LBB10_108
.LBB10_283:
	ldr	x11, [sp, #128]
	cmp	x11, #1
	b.ne	.LBB10_357
	ldr	x12, [sp, #336]
	ldr	x14, [sp, #216]
	mov	x11, xzr
	ldr	x13, [sp, #48]
	ldr	x1, [sp, #696]
	ldr	x0, [sp, #680]
	madd	x12, x14, x12, x13
	ldr	x25, [sp, #672]
	mov	x13, xzr
	ldr	x30, [sp, #288]
	ldr	x7, [sp, #560]
	ldr	x4, [sp, #568]
	b	.LBB10_287
.LBB10_285:
	ldur	q0, [x29, #-112]
	ldr	q1, [sp, #1088]
	ldr	q2, [sp, #1104]
	ldr	q3, [sp, #1600]
	uaddw	v1.8h, v1.8h, v0.8b
	uaddw	v3.8h, v3.8h, v0.8b
	sqxtun	v6.8b, v1.8h
	uaddw2	v1.8h, v2.8h, v0.16b
	ldr	q2, [sp, #1616]
	uaddw2	v2.8h, v2.8h, v0.16b
	sqxtun2	v6.16b, v1.8h
	ldr	q1, [sp, #1232]
	sqxtun	v5.8b, v3.8h
	ldr	q3, [sp, #1248]
	uaddw	v1.8h, v1.8h, v0.8b
	uaddw2	v0.8h, v3.8h, v0.16b
	sqxtun2	v5.16b, v2.8h
	sqxtun	v4.8b, v1.8h
	sqxtun2	v4.16b, v0.8h
	st3	{ v4.16b, v5.16b, v6.16b }, [x15]
.LBB10_286:
	add	x13, x14, x13
	ldr	x5, [sp, #592]
	ldr	x6, [sp, #584]
	ldr	x4, [sp, #568]
	ldr	x3, [sp, #624]
	cmp	x13, x25
	ldr	x18, [sp, #640]
	add	x11, x11, x7
	mov	x0, x19
	b.hs	.LBB10_48
.LBB10_287:
	add	x14, x8, x11
	mov	x19, x0
	sub	x15, x29, #112
	ldr	d0, [x14]
	ldr	d1, [x14, #64]
	sub	x14, x25, x13
	cmp	x4, x14
	stp	xzr, xzr, [x15, #16]
	mov	v0.d[1], v1.d[0]
	csel	x14, x4, x14, lo
	cmp	x14, #16
	stur	q0, [x29, #-112]
	b.hi	.LBB10_286
	add	x15, x10, x11
	mov	w16, #18734
	movi	v21.4s, #128, lsl #8
	ldp	s0, s2, [x15]
	dup	v3.4h, w16
	add	x15, x9, x11
	mov	w16, #42982
	movi	v22.4s, #128, lsl #8
	ldp	s4, s6, [x15]
	dup	v5.4h, w16
	ushll	v1.8h, v0.8b, #0
	ushll	v0.8h, v2.8b, #0
	mvni	v2.4s, #127
	mov	w16, #62976
	mov	w15, #26345
	ushll	v4.8h, v4.8b, #0
	ushll	v6.8h, v6.8b, #0
	movk	w16, #7, lsl #16
	umull	v7.4s, v1.4h, v3.4h
	umull	v3.4s, v0.4h, v3.4h
	uaddw	v16.4s, v2.4s, v1.4h
	dup	v17.4s, w16
	dup	v19.4h, w15
	uaddw	v18.4s, v2.4s, v0.4h
	mov	w15, #50594
	xtn	v20.4h, v16.4s
	smlal	v7.4s, v4.4h, v5.4h
	smlal	v3.4s, v6.4h, v5.4h
	movi	v5.4s, #128, lsl #8
	uaddw	v4.4s, v2.4s, v4.4h
	uaddw	v2.4s, v2.4s, v6.4h
	xtn	v6.4h, v18.4s
	add	v7.4s, v7.4s, v17.4s
	add	v3.4s, v3.4s, v17.4s
	dup	v17.4h, w15
	xtn	v23.4h, v4.4s
	smlal	v5.4s, v20.4h, v19.4h
	movi	v20.4s, #128, lsl #8
	xtn	v24.4h, v2.4s
	smlal	v21.4s, v6.4h, v19.4h
	add	v4.4s, v4.4s, v4.4s
	ushr	v7.4s, v7.4s, #16
	ushr	v3.4s, v3.4s, #16
	add	v2.4s, v2.4s, v2.4s
	smlal	v22.4s, v23.4h, v17.4h
	usra	v16.4s, v5.4s, #16
	usubw	v1.4s, v7.4s, v1.4h
	smlal	v20.4s, v24.4h, v17.4h
	usubw	v0.4s, v3.4s, v0.4h
	movi	v3.4h, #128
	usra	v18.4s, v21.4s, #16
	zip2	v5.4s, v16.4s, v16.4s
	zip1	v6.4s, v16.4s, v16.4s
	xtn	v1.4h, v1.4s
	xtn	v0.4h, v0.4s
	usra	v4.4s, v22.4s, #16
	usra	v2.4s, v20.4s, #16
	zip2	v7.4s, v18.4s, v18.4s
	zip1	v16.4s, v18.4s, v18.4s
	uzp1	v5.8h, v6.8h, v5.8h
	zip2	v6.4s, v4.4s, v4.4s
	zip1	v4.4s, v4.4s, v4.4s
	add	v1.4h, v1.4h, v3.4h
	add	v0.4h, v0.4h, v3.4h
	zip2	v3.4s, v2.4s, v2.4s
	zip1	v2.4s, v2.4s, v2.4s
	uzp1	v7.8h, v16.8h, v7.8h
	zip1	v1.8h, v1.8h, v1.8h
	zip1	v0.8h, v0.8h, v0.8h
	uzp1	v4.8h, v4.8h, v6.8h
	str	q5, [sp, #1232]
	uzp1	v2.8h, v2.8h, v3.8h
	str	q7, [sp, #1248]
	str	q1, [sp, #1600]
	str	q0, [sp, #1616]
	str	q4, [sp, #1088]
	str	q2, [sp, #1104]
	cbz	x14, .LBB10_286
	add	x18, x13, x13, lsl #1
	cmp	x14, #8
	b.hs	.LBB10_293
	mov	x0, xzr
.LBB10_291:
	lsl	x2, x0, #1
	ldr	x3, [sp, #528]
	sub	x16, x29, #112
	sub	x15, x14, x0
	add	x17, sp, #1232
	add	x16, x16, x0
	add	x0, x2, x0
	add	x18, x3, x18
	add	x3, sp, #1088
	add	x4, sp, #1600
	add	x17, x17, x2
	add	x18, x18, x0
	add	x0, x3, x2
	add	x2, x4, x2
.LBB10_292:
	ldrb	w3, [x16], #1
	ldrh	w4, [x17], #2
	ldrh	w5, [x2], #2
	add	w4, w4, w3
	ldrh	w6, [x0], #2
	sxth	w4, w4
	add	w5, w5, w3
	sxth	w5, w5
	add	w3, w6, w3
	mov	w6, #255
	bic	w4, w4, w4, asr #31
	sxth	w3, w3
	bic	w5, w5, w5, asr #31
	cmp	w4, #255
	bic	w3, w3, w3, asr #31
	csel	w4, w4, w6, lt
	cmp	w5, #255
	strb	w4, [x18]
	csel	w4, w5, w6, lt
	cmp	w3, #255
	csel	w3, w3, w6, lt
	strb	w4, [x18, #1]
	subs	x15, x15, #1
	strb	w3, [x18, #2]
	add	x18, x18, #3
	b.ne	.LBB10_292
	b	.LBB10_286
.LBB10_293:
	cmp	x14, #16
	add	x15, x12, x18
	b.eq	.LBB10_285
	ldur	d0, [x29, #-112]
	ldr	q1, [sp, #1088]
	and	x0, x14, #0x18
	ldr	q2, [sp, #1600]
	ldr	q3, [sp, #1232]
	cmp	x0, #8
	uaddw	v1.8h, v1.8h, v0.8b
	uaddw	v2.8h, v2.8h, v0.8b
	uaddw	v0.8h, v3.8h, v0.8b
	sqxtun	v5.8b, v1.8h
	sqxtun	v4.8b, v2.8h
	sqxtun	v3.8b, v0.8h
	st3	{ v3.8b, v4.8b, v5.8b }, [x15]
	b.eq	.LBB10_296
	ldur	d0, [x29, #-104]
	ldr	q1, [sp, #1104]
	add	x15, x15, #24
	ldr	q2, [sp, #1616]
	ldr	q3, [sp, #1248]
	uaddw	v1.8h, v1.8h, v0.8b
	uaddw	v2.8h, v2.8h, v0.8b
	uaddw	v0.8h, v3.8h, v0.8b
	sqxtun	v5.8b, v1.8h
	sqxtun	v4.8b, v2.8h
	sqxtun	v3.8b, v0.8h
	st3	{ v3.8b, v4.8b, v5.8b }, [x15]
.LBB10_296:
	cmp	x14, x0
	b.eq	.LBB10_286
	b	.LBB10_291
.LBB10_297:
	mov	x11, xzr
	mov	x12, xzr
	b	.LBB10_299
.LBB10_298:
	ldr	x7, [sp, #560]
	add	x12, x13, x12
	ldr	x5, [sp, #592]
	ldr	x6, [sp, #584]
	ldr	x4, [sp, #568]
	cmp	x12, x25
	ldr	x3, [sp, #624]
	ldr	x18, [sp, #640]
	add	x11, x11, x7
	ldr	x0, [sp, #680]
	mov	x30, x23
	b.hs	.LBB10_48
.LBB10_299:
	add	x13, sp, #1232
	ldr	d0, [x8, x11]
	mov	w20, #62976
	stp	xzr, xzr, [x13, #8]
	add	x18, sp, #1600
	add	x15, sp, #1088
	stur	xzr, [x13, #24]
	add	x13, sp, #1600
	add	x17, sp, #1088
	stp	xzr, xzr, [x13, #16]
	movk	w20, #7, lsl #16
	stur	xzr, [x13, #8]
	sub	x13, x25, x12
	str	d0, [sp, #1232]
	ldr	d0, [x9, x11]
	cmp	x4, x13
	csel	x13, x4, x13, lo
	stp	xzr, xzr, [x15, #16]
	str	d0, [sp, #1600]
	ldr	d0, [x10, x11]
	sub	x14, x13, #1
	cmp	x14, #31
	stur	xzr, [x15, #8]
	str	d0, [sp, #1088]
	b.hi	.LBB10_298
	ldr	x15, [sp, #128]
	add	x14, x12, x12, lsl #1
	cmp	x15, #1
	b.ne	.LBB10_303
	cmp	x13, #8
	b.hs	.LBB10_305
	mov	x15, xzr
	b	.LBB10_316
.LBB10_303:
	cmp	x13, #8
	b.hs	.LBB10_310
	mov	x15, xzr
	b	.LBB10_325
.LBB10_305:
	cmp	x13, #16
	b.hs	.LBB10_312
	mov	x15, xzr
.LBB10_307:
	add	x17, x15, x15, lsl #1
	mov	x2, x15
	and	x15, x13, #0x38
	add	x18, sp, #1088
	add	x0, sp, #1600
	add	x3, sp, #1232
	ldr	x5, [sp, #528]
	sub	x16, x2, x15
	add	x17, x17, x14
	add	x18, x18, x2
	add	x0, x0, x2
	add	x2, x3, x2
	adrp	x6, .LCPI10_1
	adrp	x7, .LCPI10_2
	adrp	x19, .LCPI10_5
	adrp	x21, .LCPI10_6
.LBB10_308:
	ldr	d2, [x0], #8
	ldr	q1, [x7, :lo12:.LCPI10_2]
	ldr	q0, [x6, :lo12:.LCPI10_1]
	ldr	d4, [x18], #8
	tbl	v3.16b, { v2.16b }, v1.16b
	mov	w3, #42982
	mov	w4, #26345
	tbl	v2.16b, { v2.16b }, v0.16b
	dup	v5.4h, w3
	tbl	v6.16b, { v4.16b }, v1.16b
	tbl	v4.16b, { v4.16b }, v0.16b
	mov	w3, #18734
	movi	v22.4s, #128, lsl #8
	dup	v18.4h, w3
	ldr	d17, [x2], #8
	xtn	v7.4h, v3.4s
	mov	w3, #62976
	movi	v23.4s, #128, lsl #8
	xtn	v16.4h, v2.4s
	xtn	v19.4h, v6.4s
	movk	w3, #7, lsl #16
	xtn	v20.4h, v4.4s
	tbl	v1.16b, { v17.16b }, v1.16b
	dup	v21.4s, w3
	tbl	v0.16b, { v17.16b }, v0.16b
	mov	w3, #50594
	movi	v17.4s, #128, lsl #8
	smull	v7.4s, v7.4h, v5.4h
	adds	x16, x16, #8
	smull	v5.4s, v16.4h, v5.4h
	mvni	v16.4s, #127
	umlal	v7.4s, v19.4h, v18.4h
	add	v2.4s, v2.4s, v16.4s
	add	v19.4s, v4.4s, v16.4s
	umlal	v5.4s, v20.4h, v18.4h
	add	v3.4s, v3.4s, v16.4s
	add	v16.4s, v6.4s, v16.4s
	dup	v20.4h, w3
	sub	v6.4s, v1.4s, v6.4s
	dup	v18.4h, w4
	xtn	v24.4h, v2.4s
	sub	v4.4s, v0.4s, v4.4s
	xtn	v25.4h, v19.4s
	add	v7.4s, v7.4s, v21.4s
	xtn	v26.4h, v3.4s
	xtn	v27.4h, v16.4s
	add	v5.4s, v5.4s, v21.4s
	movi	v21.4s, #128, lsl #8
	add	v2.4s, v2.4s, v2.4s
	add	v3.4s, v3.4s, v3.4s
	add	x3, x5, x17
	add	x17, x17, #24
	ssra	v6.4s, v7.4s, #16
	movi	v7.4s, #128
	smlal	v17.4s, v24.4h, v20.4h
	ssra	v4.4s, v5.4s, #16
	add	v5.4s, v19.4s, v0.4s
	smlal	v23.4s, v26.4h, v20.4h
	add	v0.4s, v2.4s, v0.4s
	smlal	v22.4s, v25.4h, v18.4h
	add	v2.4s, v3.4s, v1.4s
	movi	v3.2d, #0000000000000000
	smlal	v21.4s, v27.4h, v18.4h
	add	v1.4s, v16.4s, v1.4s
	add	v4.4s, v4.4s, v7.4s
	add	v6.4s, v6.4s, v7.4s
	movi	v7.2d, #0x0000ff000000ff
	ssra	v0.4s, v17.4s, #16
	ssra	v2.4s, v23.4s, #16
	ssra	v5.4s, v22.4s, #16
	ssra	v1.4s, v21.4s, #16
	smax	v4.4s, v4.4s, v3.4s
	smax	v6.4s, v6.4s, v3.4s
	smax	v0.4s, v0.4s, v3.4s
	smax	v2.4s, v2.4s, v3.4s
	smax	v5.4s, v5.4s, v3.4s
	smax	v1.4s, v1.4s, v3.4s
	smin	v19.4s, v4.4s, v7.4s
	smin	v4.4s, v0.4s, v7.4s
	smin	v18.4s, v6.4s, v7.4s
	ldr	q0, [x21, :lo12:.LCPI10_6]
	smin	v3.4s, v2.4s, v7.4s
	smin	v17.4s, v5.4s, v7.4s
	smin	v16.4s, v1.4s, v7.4s
	ldr	q1, [x19, :lo12:.LCPI10_5]
	tbl	v4.16b, { v3.16b, v4.16b }, v0.16b
	tbl	v2.16b, { v16.16b, v17.16b, v18.16b, v19.16b }, v1.16b
	ext	v3.16b, v2.16b, v2.16b, #8
	st3	{ v2.8b, v3.8b, v4.8b }, [x3]
	b.ne	.LBB10_308
	cmp	x13, x15
	b.eq	.LBB10_298
	b	.LBB10_316
.LBB10_310:
	cmp	x13, #32
	b.hs	.LBB10_318
	mov	x15, xzr
	b	.LBB10_322
.LBB10_312:
	ldr	x4, [sp, #528]
	and	x15, x13, #0x30
	add	x16, sp, #1088
	add	x17, sp, #1600
	add	x18, sp, #1232
	mov	x0, x14
	and	x2, x13, #0x30
	adrp	x5, .LCPI10_1
	adrp	x6, .LCPI10_2
	adrp	x7, .LCPI10_3
	adrp	x19, .LCPI10_4
	adrp	x21, .LCPI10_5
.LBB10_313:
	ldr	q2, [x17], #16
	ldr	q7, [x6, :lo12:.LCPI10_2]
	ldr	q1, [x16], #16
	ldr	q5, [x19, :lo12:.LCPI10_4]
	tbl	v24.16b, { v2.16b }, v7.16b
	ldr	q6, [x7, :lo12:.LCPI10_3]
	ldr	q4, [x5, :lo12:.LCPI10_1]
	mov	w3, #42982
	tbl	v26.16b, { v2.16b }, v5.16b
	tbl	v20.16b, { v1.16b }, v7.16b
	tbl	v29.16b, { v2.16b }, v6.16b
	tbl	v30.16b, { v2.16b }, v4.16b
	dup	v18.4h, w3
	mov	w3, #18734
	tbl	v16.16b, { v1.16b }, v5.16b
	tbl	v23.16b, { v1.16b }, v4.16b
	xtn	v21.4h, v24.4s
	tbl	v19.16b, { v1.16b }, v6.16b
	dup	v11.4h, w3
	xtn	v3.4h, v26.4s
	xtn	v31.4h, v20.4s
	mvni	v25.4s, #127
	xtn	v2.4h, v29.4s
	ldr	q14, [x18], #16
	xtn	v1.4h, v16.4s
	xtn	v8.4h, v23.4s
	mov	w3, #62976
	smull	v15.4s, v21.4h, v18.4h
	xtn	v21.4h, v30.4s
	xtn	v17.4h, v19.4s
	smull	v12.4s, v3.4h, v18.4h
	add	v22.4s, v23.4s, v25.4s
	tbl	v7.16b, { v14.16b }, v7.16b
	smull	v13.4s, v2.4h, v18.4h
	tbl	v28.16b, { v14.16b }, v5.16b
	movk	w3, #7, lsl #16
	add	v9.4s, v20.4s, v25.4s
	add	v29.4s, v29.4s, v25.4s
	tbl	v27.16b, { v14.16b }, v6.16b
	umlal	v15.4s, v31.4h, v11.4h
	smull	v31.4s, v21.4h, v18.4h
	subs	x2, x2, #16
	xtn	v0.4h, v22.4s
	umlal	v12.4s, v1.4h, v11.4h
	dup	v1.4s, w3
	umlal	v13.4s, v17.4h, v11.4h
	mov	w3, #26345
	add	v10.4s, v19.4s, v25.4s
	dup	v18.4h, w3
	mov	w3, #50594
	xtn	v2.4h, v9.4s
	umlal	v31.4s, v8.4h, v11.4h
	add	v8.4s, v26.4s, v25.4s
	tbl	v21.16b, { v14.16b }, v4.16b
	str	d0, [sp, #608]
	add	v0.4s, v16.4s, v25.4s
	sub	v16.4s, v28.4s, v16.4s
	add	v12.4s, v12.4s, v1.4s
	add	v13.4s, v13.4s, v1.4s
	add	v14.4s, v15.4s, v1.4s
	add	v4.4s, v9.4s, v7.4s
	add	v30.4s, v30.4s, v25.4s
	xtn	v9.4h, v8.4s
	add	v26.4s, v31.4s, v1.4s
	add	v1.4s, v24.4s, v25.4s
	xtn	v24.4h, v29.4s
	dup	v25.4h, w3
	add	x3, x4, x0
	add	x0, x0, #48
	movi	v31.4s, #128, lsl #8
	movi	v11.4s, #128, lsl #8
	add	v29.4s, v29.4s, v29.4s
	add	v8.4s, v8.4s, v8.4s
	sub	v20.4s, v7.4s, v20.4s
	xtn	v3.4h, v10.4s
	sub	v19.4s, v27.4s, v19.4s
	add	v5.4s, v10.4s, v27.4s
	ssra	v16.4s, v12.4s, #16
	xtn	v10.4h, v30.4s
	xtn	v12.4h, v1.4s
	add	v30.4s, v30.4s, v30.4s
	add	v1.4s, v1.4s, v1.4s
	xtn	v17.4h, v0.4s
	add	v0.4s, v0.4s, v28.4s
	smlal	v31.4s, v24.4h, v25.4h
	movi	v24.4s, #128, lsl #8
	smlal	v11.4s, v9.4h, v25.4h
	add	v28.4s, v8.4s, v28.4s
	add	v27.4s, v29.4s, v27.4s
	movi	v29.4s, #128, lsl #8
	movi	v8.4s, #128, lsl #8
	movi	v9.4s, #128, lsl #8
	ssra	v20.4s, v14.4s, #16
	sub	v23.4s, v21.4s, v23.4s
	movi	v14.4s, #128, lsl #8
	add	v6.4s, v22.4s, v21.4s
	ssra	v19.4s, v13.4s, #16
	movi	v13.4s, #128, lsl #8
	add	v1.4s, v1.4s, v7.4s
	add	v7.4s, v30.4s, v21.4s
	ldr	d21, [sp, #608]
	movi	v22.4s, #128
	ssra	v23.4s, v26.4s, #16
	smlal	v29.4s, v17.4h, v18.4h
	smlal	v8.4s, v3.4h, v18.4h
	smlal	v24.4s, v21.4h, v18.4h
	smlal	v9.4s, v2.4h, v18.4h
	smlal	v14.4s, v10.4h, v25.4h
	smlal	v13.4s, v12.4h, v25.4h
	movi	v25.2d, #0000000000000000
	ssra	v27.4s, v31.4s, #16
	add	v17.4s, v23.4s, v22.4s
	add	v18.4s, v20.4s, v22.4s
	add	v19.4s, v19.4s, v22.4s
	add	v16.4s, v16.4s, v22.4s
	ssra	v28.4s, v11.4s, #16
	ssra	v5.4s, v8.4s, #16
	ssra	v6.4s, v24.4s, #16
	ssra	v4.4s, v9.4s, #16
	ssra	v0.4s, v29.4s, #16
	ssra	v7.4s, v14.4s, #16
	ssra	v1.4s, v13.4s, #16
	smax	v2.4s, v27.4s, v25.4s
	movi	v3.2d, #0x0000ff000000ff
	smax	v18.4s, v18.4s, v25.4s
	smax	v17.4s, v17.4s, v25.4s
	smax	v16.4s, v16.4s, v25.4s
	smax	v19.4s, v19.4s, v25.4s
	smax	v20.4s, v28.4s, v25.4s
	smax	v6.4s, v6.4s, v25.4s
	smax	v0.4s, v0.4s, v25.4s
	smax	v5.4s, v5.4s, v25.4s
	smax	v4.4s, v4.4s, v25.4s
	smax	v7.4s, v7.4s, v25.4s
	smax	v1.4s, v1.4s, v25.4s
	smin	v24.4s, v2.4s, v3.4s
	smin	v2.4s, v17.4s, v3.4s
	smin	v17.4s, v18.4s, v3.4s
	smin	v18.4s, v19.4s, v3.4s
	smin	v16.4s, v16.4s, v3.4s
	smin	v23.4s, v20.4s, v3.4s
	smin	v6.4s, v6.4s, v3.4s
	smin	v5.4s, v5.4s, v3.4s
	smin	v0.4s, v0.4s, v3.4s
	smin	v4.4s, v4.4s, v3.4s
	smin	v22.4s, v7.4s, v3.4s
	smin	v21.4s, v1.4s, v3.4s
	ldr	q3, [x21, :lo12:.LCPI10_5]
	uzp1	v2.8h, v17.8h, v2.8h
	uzp1	v1.8h, v16.8h, v18.8h
	uzp1	v0.8h, v0.8h, v5.8h
	uzp1	v4.8h, v4.8h, v6.8h
	tbl	v7.16b, { v21.16b, v22.16b, v23.16b, v24.16b }, v3.16b
	uzp1	v6.16b, v2.16b, v1.16b
	uzp1	v5.16b, v4.16b, v0.16b
	st3	{ v5.16b, v6.16b, v7.16b }, [x3]
	b.ne	.LBB10_313
	cmp	x13, x15
	b.eq	.LBB10_298
	tbnz	w13, #3, .LBB10_307
.LBB10_316:
	add	x18, x15, x15, lsl #1
	add	x0, sp, #1600
	add	x17, sp, #1232
	add	x2, sp, #1088
	sub	x16, x13, x15
	add	x17, x17, x15
	add	x18, x18, x14
	add	x14, x0, x15
	ldr	x0, [sp, #528]
	add	x15, x2, x15
	add	x18, x0, x18
.LBB10_317:
	ldrb	w0, [x14], #1
	mov	w3, #-22554
	ldrb	w2, [x15], #1
	mov	w4, #26345
	madd	w3, w0, w3, w20
	mov	w7, #18734
	mov	w6, #32768
	sub	w5, w2, #128
	ldrb	w19, [x17], #1
	madd	w4, w5, w4, w6
	sub	w0, w0, #128
	madd	w3, w2, w7, w3
	mov	w7, #-14942
	add	w5, w5, w19
	madd	w6, w0, w7, w6
	sub	w2, w19, w2
	add	w0, w19, w0, lsl #1
	add	w4, w5, w4, asr #16
	add	w2, w2, w3, asr #16
	bic	w3, w4, w4, asr #31
	add	w0, w0, w6, asr #16
	mov	w4, #255
	add	w2, w2, #128
	bic	w2, w2, w2, asr #31
	cmp	w3, #255
	bic	w0, w0, w0, asr #31
	csel	w3, w3, w4, lt
	cmp	w2, #255
	strb	w3, [x18]
	csel	w2, w2, w4, lt
	cmp	w0, #255
	csel	w0, w0, w4, lt
	strb	w2, [x18, #1]
	subs	x16, x16, #1
	strb	w0, [x18, #2]
	add	x18, x18, #3
	b.ne	.LBB10_317
	b	.LBB10_298
.LBB10_318:
	ldr	x0, [sp, #528]
	add	x3, sp, #1232
	and	x16, x13, #0x18
	and	x15, x13, #0x20
	add	x17, x17, #16
	add	x18, x18, #16
	add	x0, x0, x14
	and	x2, x13, #0x20
	add	x3, x3, #16
.LBB10_319:
	ldp	q0, q3, [x3, #-16]
	add	x4, x0, #96
	ldp	q1, q4, [x18, #-16]
	add	x3, x3, #32
	ldp	q2, q5, [x17, #-16]
	subs	x2, x2, #32
	add	x18, x18, #32
	add	x17, x17, #32
	st3	{ v0.16b, v1.16b, v2.16b }, [x0], #48
	st3	{ v3.16b, v4.16b, v5.16b }, [x0]
	mov	x0, x4
	b.ne	.LBB10_319
	cmp	x13, x15
	b.eq	.LBB10_298
	cbz	x16, .LBB10_325
.LBB10_322:
	add	x17, x15, x15, lsl #1
	mov	x2, x15
	and	x15, x13, #0x38
	add	x18, sp, #1088
	add	x0, sp, #1600
	add	x3, sp, #1232
	ldr	x4, [sp, #528]
	sub	x16, x2, x15
	add	x17, x17, x14
	add	x18, x18, x2
	add	x0, x0, x2
	add	x2, x3, x2
.LBB10_323:
	ldr	d0, [x2], #8
	add	x3, x4, x17
	ldr	d1, [x0], #8
	adds	x16, x16, #8
	ldr	d2, [x18], #8
	add	x17, x17, #24
	st3	{ v0.8b, v1.8b, v2.8b }, [x3]
	b.ne	.LBB10_323
	cmp	x13, x15
	b.eq	.LBB10_298
.LBB10_325:
	ldr	x2, [sp, #528]
	add	x18, x15, x15, lsl #1
	add	x17, sp, #1232
	add	x0, sp, #1600
	add	x3, sp, #1088
	sub	x16, x13, x15
	add	x2, x2, x14
	add	x17, x17, x15
	add	x14, x0, x15
	add	x18, x2, x18
	add	x15, x3, x15
.LBB10_326:
	ldrb	w0, [x17], #1
	subs	x16, x16, #1
	ldrb	w2, [x14], #1
	ldrb	w3, [x15], #1
	strb	w0, [x18]
	strb	w2, [x18, #1]
	strb	w3, [x18, #2]
	add	x18, x18, #3
	b.ne	.LBB10_326
	b	.LBB10_298
.LBB10_327:
	mov	x11, xzr
	mov	x12, xzr
	b	.LBB10_329
.LBB10_328:
	ldr	x7, [sp, #560]
	add	x12, x13, x12
	ldr	x5, [sp, #592]
	ldr	x6, [sp, #584]
	ldr	x4, [sp, #568]
	cmp	x12, x25
	ldr	x3, [sp, #624]
	ldr	x18, [sp, #640]
	add	x11, x11, x7
	ldr	x0, [sp, #680]
	mov	x30, x23
	b.hs	.LBB10_48
.LBB10_329:
	add	x13, x9, x11
	mov	w14, #16843009
	add	x3, sp, #1600
	ldrb	w15, [x13]
	ldrb	w16, [x13, #1]
	ldrb	w17, [x13, #2]
	ldrb	w18, [x13, #3]
	ldrb	w0, [x13, #4]
	ldr	x2, [sp, #296]
	mul	w15, w15, w14
	mov	w20, #62976
	mul	w16, w16, w14
	movk	w20, #7, lsl #16
	mul	w17, w17, w14
	str	w15, [sp, #1600]
	ldrb	w15, [x13, #5]
	mul	w18, w18, w14
	mul	w0, w0, w14
	stp	w16, w17, [x3, #4]
	ldrb	w16, [x13, #6]
	add	x17, x10, x11
	mul	w15, w15, w14
	ldrb	w13, [x13, #7]
	stur	w18, [x3, #12]
	mul	w16, w16, w14
	ldrb	w18, [x17]
	str	w0, [x2]
	mul	w13, w13, w14
	add	x0, x8, x11
	add	x2, sp, #1600
	ldr	d0, [x0]
	ldr	d1, [x0, #64]
	ldr	d2, [x0, #128]
	stp	w15, w16, [x3, #20]
	mul	w15, w18, w14
	ldrb	w18, [x17, #1]
	ldrb	w16, [x17, #2]
	stur	w13, [x3, #28]
	ldr	d3, [x0, #192]
	mul	w13, w18, w14
	add	x0, sp, #1088
	ldrb	w18, [x17, #3]
	str	w15, [sp, #1088]
	mul	w15, w16, w14
	ldrb	w16, [x17, #4]
	mul	w18, w18, w14
	mov	v0.d[1], v1.d[0]
	mov	v2.d[1], v3.d[0]
	stp	w13, w15, [x0, #4]
	mul	w13, w16, w14
	ldr	x16, [sp, #232]
	ldrb	w15, [x17, #5]
	stur	w18, [x0, #12]
	str	q0, [sp, #1232]
	str	w13, [x16]
	ldrb	w13, [x17, #6]
	sub	x16, x25, x12
	ldrb	w17, [x17, #7]
	cmp	x4, x16
	mul	w15, w15, w14
	mul	w18, w13, w14
	csel	x13, x4, x16, lo
	str	q2, [sp, #1248]
	mul	w14, w17, w14
	sub	x16, x13, #1
	add	x17, sp, #1088
	cmp	x16, #31
	stp	w15, w18, [x0, #20]
	stur	w14, [x0, #28]
	b.hi	.LBB10_328
	ldr	x15, [sp, #128]
	add	x14, x12, x12, lsl #1
	cmp	x15, #1
	b.ne	.LBB10_333
	cmp	x13, #8
	b.hs	.LBB10_335
	mov	x15, xzr
	b	.LBB10_346
.LBB10_333:
	cmp	x13, #8
	b.hs	.LBB10_340
	mov	x15, xzr
	b	.LBB10_355
.LBB10_335:
	cmp	x13, #16
	b.hs	.LBB10_342
	mov	x15, xzr
.LBB10_337:
	add	x17, x15, x15, lsl #1
	mov	x2, x15
	and	x15, x13, #0x38
	add	x18, sp, #1088
	add	x0, sp, #1600
	add	x3, sp, #1232
	ldr	x5, [sp, #528]
	sub	x16, x2, x15
	add	x17, x17, x14
	add	x18, x18, x2
	add	x0, x0, x2
	add	x2, x3, x2
	adrp	x6, .LCPI10_1
	adrp	x7, .LCPI10_2
	adrp	x19, .LCPI10_5
	adrp	x21, .LCPI10_6
.LBB10_338:
	ldr	d2, [x0], #8
	ldr	q1, [x7, :lo12:.LCPI10_2]
	ldr	q0, [x6, :lo12:.LCPI10_1]
	ldr	d4, [x18], #8
	tbl	v3.16b, { v2.16b }, v1.16b
	mov	w3, #42982
	mov	w4, #26345
	tbl	v2.16b, { v2.16b }, v0.16b
	dup	v5.4h, w3
	tbl	v6.16b, { v4.16b }, v1.16b
	tbl	v4.16b, { v4.16b }, v0.16b
	mov	w3, #18734
	movi	v22.4s, #128, lsl #8
	dup	v18.4h, w3
	ldr	d17, [x2], #8
	xtn	v7.4h, v3.4s
	mov	w3, #62976
	movi	v23.4s, #128, lsl #8
	xtn	v16.4h, v2.4s
	xtn	v19.4h, v6.4s
	movk	w3, #7, lsl #16
	xtn	v20.4h, v4.4s
	tbl	v1.16b, { v17.16b }, v1.16b
	dup	v21.4s, w3
	tbl	v0.16b, { v17.16b }, v0.16b
	mov	w3, #50594
	movi	v17.4s, #128, lsl #8
	smull	v7.4s, v7.4h, v5.4h
	adds	x16, x16, #8
	smull	v5.4s, v16.4h, v5.4h
	mvni	v16.4s, #127
	umlal	v7.4s, v19.4h, v18.4h
	add	v2.4s, v2.4s, v16.4s
	add	v19.4s, v4.4s, v16.4s
	umlal	v5.4s, v20.4h, v18.4h
	add	v3.4s, v3.4s, v16.4s
	add	v16.4s, v6.4s, v16.4s
	dup	v20.4h, w3
	sub	v6.4s, v1.4s, v6.4s
	dup	v18.4h, w4
	xtn	v24.4h, v2.4s
	sub	v4.4s, v0.4s, v4.4s
	xtn	v25.4h, v19.4s
	add	v7.4s, v7.4s, v21.4s
	xtn	v26.4h, v3.4s
	xtn	v27.4h, v16.4s
	add	v5.4s, v5.4s, v21.4s
	movi	v21.4s, #128, lsl #8
	add	v2.4s, v2.4s, v2.4s
	add	v3.4s, v3.4s, v3.4s
	add	x3, x5, x17
	add	x17, x17, #24
	ssra	v6.4s, v7.4s, #16
	movi	v7.4s, #128
	smlal	v17.4s, v24.4h, v20.4h
	ssra	v4.4s, v5.4s, #16
	add	v5.4s, v19.4s, v0.4s
	smlal	v23.4s, v26.4h, v20.4h
	add	v0.4s, v2.4s, v0.4s
	smlal	v22.4s, v25.4h, v18.4h
	add	v2.4s, v3.4s, v1.4s
	movi	v3.2d, #0000000000000000
	smlal	v21.4s, v27.4h, v18.4h
	add	v1.4s, v16.4s, v1.4s
	add	v4.4s, v4.4s, v7.4s
	add	v6.4s, v6.4s, v7.4s
	movi	v7.2d, #0x0000ff000000ff
	ssra	v0.4s, v17.4s, #16
	ssra	v2.4s, v23.4s, #16
	ssra	v5.4s, v22.4s, #16
	ssra	v1.4s, v21.4s, #16
	smax	v4.4s, v4.4s, v3.4s
	smax	v6.4s, v6.4s, v3.4s
	smax	v0.4s, v0.4s, v3.4s
	smax	v2.4s, v2.4s, v3.4s
	smax	v5.4s, v5.4s, v3.4s
	smax	v1.4s, v1.4s, v3.4s
	smin	v19.4s, v4.4s, v7.4s
	smin	v4.4s, v0.4s, v7.4s
	smin	v18.4s, v6.4s, v7.4s
	ldr	q0, [x21, :lo12:.LCPI10_6]
	smin	v3.4s, v2.4s, v7.4s
	smin	v17.4s, v5.4s, v7.4s
	smin	v16.4s, v1.4s, v7.4s
	ldr	q1, [x19, :lo12:.LCPI10_5]
	tbl	v4.16b, { v3.16b, v4.16b }, v0.16b
	tbl	v2.16b, { v16.16b, v17.16b, v18.16b, v19.16b }, v1.16b
	ext	v3.16b, v2.16b, v2.16b, #8
	st3	{ v2.8b, v3.8b, v4.8b }, [x3]
	b.ne	.LBB10_338
	cmp	x13, x15
	b.eq	.LBB10_328
	b	.LBB10_346
.LBB10_340:
	cmp	x13, #32
	b.hs	.LBB10_348
	mov	x15, xzr
	b	.LBB10_352
.LBB10_342:
	ldr	x4, [sp, #528]
	and	x15, x13, #0x30
	add	x16, sp, #1088
	add	x17, sp, #1600
	add	x18, sp, #1232
	mov	x0, x14
	and	x2, x13, #0x30
	adrp	x5, .LCPI10_1
	adrp	x6, .LCPI10_2
	adrp	x7, .LCPI10_3
	adrp	x19, .LCPI10_4
	adrp	x21, .LCPI10_5
.LBB10_343:
	ldr	q2, [x17], #16
	ldr	q7, [x6, :lo12:.LCPI10_2]
	ldr	q1, [x16], #16
	ldr	q5, [x19, :lo12:.LCPI10_4]
	tbl	v24.16b, { v2.16b }, v7.16b
	ldr	q6, [x7, :lo12:.LCPI10_3]
	ldr	q4, [x5, :lo12:.LCPI10_1]
	mov	w3, #42982
	tbl	v26.16b, { v2.16b }, v5.16b
	tbl	v20.16b, { v1.16b }, v7.16b
	tbl	v29.16b, { v2.16b }, v6.16b
	tbl	v30.16b, { v2.16b }, v4.16b
	dup	v18.4h, w3
	mov	w3, #18734
	tbl	v16.16b, { v1.16b }, v5.16b
	tbl	v23.16b, { v1.16b }, v4.16b
	xtn	v21.4h, v24.4s
	tbl	v19.16b, { v1.16b }, v6.16b
	dup	v11.4h, w3
	xtn	v3.4h, v26.4s
	xtn	v31.4h, v20.4s
	mvni	v25.4s, #127
	xtn	v2.4h, v29.4s
	ldr	q14, [x18], #16
	xtn	v1.4h, v16.4s
	xtn	v8.4h, v23.4s
	mov	w3, #62976
	smull	v15.4s, v21.4h, v18.4h
	xtn	v21.4h, v30.4s
	xtn	v17.4h, v19.4s
	smull	v12.4s, v3.4h, v18.4h
	add	v22.4s, v23.4s, v25.4s
	tbl	v7.16b, { v14.16b }, v7.16b
	smull	v13.4s, v2.4h, v18.4h
	tbl	v28.16b, { v14.16b }, v5.16b
	movk	w3, #7, lsl #16
	add	v9.4s, v20.4s, v25.4s
	add	v29.4s, v29.4s, v25.4s
	tbl	v27.16b, { v14.16b }, v6.16b
	umlal	v15.4s, v31.4h, v11.4h
	smull	v31.4s, v21.4h, v18.4h
	subs	x2, x2, #16
	xtn	v0.4h, v22.4s
	umlal	v12.4s, v1.4h, v11.4h
	dup	v1.4s, w3
	umlal	v13.4s, v17.4h, v11.4h
	mov	w3, #26345
	add	v10.4s, v19.4s, v25.4s
	dup	v18.4h, w3
	mov	w3, #50594
	xtn	v2.4h, v9.4s
	umlal	v31.4s, v8.4h, v11.4h
	add	v8.4s, v26.4s, v25.4s
	tbl	v21.16b, { v14.16b }, v4.16b
	str	d0, [sp, #608]
	add	v0.4s, v16.4s, v25.4s
	sub	v16.4s, v28.4s, v16.4s
	add	v12.4s, v12.4s, v1.4s
	add	v13.4s, v13.4s, v1.4s
	add	v14.4s, v15.4s, v1.4s
	add	v4.4s, v9.4s, v7.4s
	add	v30.4s, v30.4s, v25.4s
	xtn	v9.4h, v8.4s
	add	v26.4s, v31.4s, v1.4s
	add	v1.4s, v24.4s, v25.4s
	xtn	v24.4h, v29.4s
	dup	v25.4h, w3
	add	x3, x4, x0
	add	x0, x0, #48
	movi	v31.4s, #128, lsl #8
	movi	v11.4s, #128, lsl #8
	add	v29.4s, v29.4s, v29.4s
	add	v8.4s, v8.4s, v8.4s
	sub	v20.4s, v7.4s, v20.4s
	xtn	v3.4h, v10.4s
	sub	v19.4s, v27.4s, v19.4s
	add	v5.4s, v10.4s, v27.4s
	ssra	v16.4s, v12.4s, #16
	xtn	v10.4h, v30.4s
	xtn	v12.4h, v1.4s
	add	v30.4s, v30.4s, v30.4s
	add	v1.4s, v1.4s, v1.4s
	xtn	v17.4h, v0.4s
	add	v0.4s, v0.4s, v28.4s
	smlal	v31.4s, v24.4h, v25.4h
	movi	v24.4s, #128, lsl #8
	smlal	v11.4s, v9.4h, v25.4h
	add	v28.4s, v8.4s, v28.4s
	add	v27.4s, v29.4s, v27.4s
	movi	v29.4s, #128, lsl #8
	movi	v8.4s, #128, lsl #8
	movi	v9.4s, #128, lsl #8
	ssra	v20.4s, v14.4s, #16
	sub	v23.4s, v21.4s, v23.4s
	movi	v14.4s, #128, lsl #8
	add	v6.4s, v22.4s, v21.4s
	ssra	v19.4s, v13.4s, #16
	movi	v13.4s, #128, lsl #8
	add	v1.4s, v1.4s, v7.4s
	add	v7.4s, v30.4s, v21.4s
	ldr	d21, [sp, #608]
	movi	v22.4s, #128
	ssra	v23.4s, v26.4s, #16
	smlal	v29.4s, v17.4h, v18.4h
	smlal	v8.4s, v3.4h, v18.4h
	smlal	v24.4s, v21.4h, v18.4h
	smlal	v9.4s, v2.4h, v18.4h
	smlal	v14.4s, v10.4h, v25.4h
	smlal	v13.4s, v12.4h, v25.4h
	movi	v25.2d, #0000000000000000
	ssra	v27.4s, v31.4s, #16
	add	v17.4s, v23.4s, v22.4s
	add	v18.4s, v20.4s, v22.4s
	add	v19.4s, v19.4s, v22.4s
	add	v16.4s, v16.4s, v22.4s
	ssra	v28.4s, v11.4s, #16
	ssra	v5.4s, v8.4s, #16
	ssra	v6.4s, v24.4s, #16
	ssra	v4.4s, v9.4s, #16
	ssra	v0.4s, v29.4s, #16
	ssra	v7.4s, v14.4s, #16
	ssra	v1.4s, v13.4s, #16
	smax	v2.4s, v27.4s, v25.4s
	movi	v3.2d, #0x0000ff000000ff
	smax	v18.4s, v18.4s, v25.4s
	smax	v17.4s, v17.4s, v25.4s
	smax	v16.4s, v16.4s, v25.4s
	smax	v19.4s, v19.4s, v25.4s
	smax	v20.4s, v28.4s, v25.4s
	smax	v6.4s, v6.4s, v25.4s
	smax	v0.4s, v0.4s, v25.4s
	smax	v5.4s, v5.4s, v25.4s
	smax	v4.4s, v4.4s, v25.4s
	smax	v7.4s, v7.4s, v25.4s
	smax	v1.4s, v1.4s, v25.4s
	smin	v24.4s, v2.4s, v3.4s
	smin	v2.4s, v17.4s, v3.4s
	smin	v17.4s, v18.4s, v3.4s
	smin	v18.4s, v19.4s, v3.4s
	smin	v16.4s, v16.4s, v3.4s
	smin	v23.4s, v20.4s, v3.4s
	smin	v6.4s, v6.4s, v3.4s
	smin	v5.4s, v5.4s, v3.4s
	smin	v0.4s, v0.4s, v3.4s
	smin	v4.4s, v4.4s, v3.4s
	smin	v22.4s, v7.4s, v3.4s
	smin	v21.4s, v1.4s, v3.4s
	ldr	q3, [x21, :lo12:.LCPI10_5]
	uzp1	v2.8h, v17.8h, v2.8h
	uzp1	v1.8h, v16.8h, v18.8h
	uzp1	v0.8h, v0.8h, v5.8h
	uzp1	v4.8h, v4.8h, v6.8h
	tbl	v7.16b, { v21.16b, v22.16b, v23.16b, v24.16b }, v3.16b
	uzp1	v6.16b, v2.16b, v1.16b
	uzp1	v5.16b, v4.16b, v0.16b
	st3	{ v5.16b, v6.16b, v7.16b }, [x3]
	b.ne	.LBB10_343
	cmp	x13, x15
	b.eq	.LBB10_328
	tbnz	w13, #3, .LBB10_337
.LBB10_346:
	add	x18, x15, x15, lsl #1
	add	x0, sp, #1600
	add	x17, sp, #1232
	add	x2, sp, #1088
	sub	x16, x13, x15
	add	x17, x17, x15
	add	x18, x18, x14
	add	x14, x0, x15
	ldr	x0, [sp, #528]
	add	x15, x2, x15
	add	x18, x0, x18
.LBB10_347:
	ldrb	w0, [x14], #1
	mov	w3, #-22554
	ldrb	w2, [x15], #1
	mov	w4, #26345
	madd	w3, w0, w3, w20
	mov	w7, #18734
	mov	w6, #32768
	sub	w5, w2, #128
	ldrb	w19, [x17], #1
	madd	w4, w5, w4, w6
	sub	w0, w0, #128
	madd	w3, w2, w7, w3
	mov	w7, #-14942
	add	w5, w5, w19
	madd	w6, w0, w7, w6
	sub	w2, w19, w2
	add	w0, w19, w0, lsl #1
	add	w4, w5, w4, asr #16
	add	w2, w2, w3, asr #16
	bic	w3, w4, w4, asr #31
	add	w0, w0, w6, asr #16
	mov	w4, #255
	add	w2, w2, #128
	bic	w2, w2, w2, asr #31
	cmp	w3, #255
	bic	w0, w0, w0, asr #31
	csel	w3, w3, w4, lt
	cmp	w2, #255
	strb	w3, [x18]
	csel	w2, w2, w4, lt
	cmp	w0, #255
	csel	w0, w0, w4, lt
	strb	w2, [x18, #1]
	subs	x16, x16, #1
	strb	w0, [x18, #2]
	add	x18, x18, #3
	b.ne	.LBB10_347
	b	.LBB10_328
.LBB10_348:
	ldr	x18, [sp, #528]
	add	x3, sp, #1232
	and	x16, x13, #0x18
	and	x15, x13, #0x20
	add	x17, x17, #16
	add	x3, x3, #16
	add	x0, x18, x14
	add	x18, x2, #16
	and	x2, x13, #0x20
.LBB10_349:
	ldp	q0, q3, [x3, #-16]
	add	x4, x0, #96
	ldp	q1, q4, [x18, #-16]
	add	x3, x3, #32
	ldp	q2, q5, [x17, #-16]
	subs	x2, x2, #32
	add	x18, x18, #32
	add	x17, x17, #32
	st3	{ v0.16b, v1.16b, v2.16b }, [x0], #48
	st3	{ v3.16b, v4.16b, v5.16b }, [x0]
	mov	x0, x4
	b.ne	.LBB10_349
	cmp	x13, x15
	b.eq	.LBB10_328
	cbz	x16, .LBB10_355
.LBB10_352:
	add	x17, x15, x15, lsl #1
	mov	x2, x15
	and	x15, x13, #0x38
	add	x18, sp, #1088
	add	x0, sp, #1600
	add	x3, sp, #1232
	ldr	x4, [sp, #528]
	sub	x16, x2, x15
	add	x17, x17, x14
	add	x18, x18, x2
	add	x0, x0, x2
	add	x2, x3, x2
.LBB10_353:
	ldr	d0, [x2], #8
	add	x3, x4, x17
	ldr	d1, [x0], #8
	adds	x16, x16, #8
	ldr	d2, [x18], #8
	add	x17, x17, #24
	st3	{ v0.8b, v1.8b, v2.8b }, [x3]
	b.ne	.LBB10_353
	cmp	x13, x15
	b.eq	.LBB10_328
.LBB10_355:
	ldr	x2, [sp, #528]
	add	x18, x15, x15, lsl #1
	add	x17, sp, #1232
	add	x0, sp, #1600
	add	x3, sp, #1088
	sub	x16, x13, x15
	add	x2, x2, x14
	add	x17, x17, x15
	add	x14, x0, x15
	add	x18, x2, x18
	add	x15, x3, x15
.LBB10_356:
	ldrb	w0, [x17], #1
	subs	x16, x16, #1
	ldrb	w2, [x14], #1
	ldrb	w3, [x15], #1
	strb	w0, [x18]
	strb	w2, [x18, #1]
	strb	w3, [x18, #2]
	add	x18, x18, #3
	b.ne	.LBB10_356
	b	.LBB10_328
.LBB10_357:
	ldr	x1, [sp, #696]
	ldr	x0, [sp, #680]
	mov	x11, xzr
	ldr	x25, [sp, #672]
	ldr	x30, [sp, #288]
	mov	x12, xzr
	ldr	x7, [sp, #560]
	ldr	x5, [sp, #592]
	ldr	x6, [sp, #584]
	ldr	x4, [sp, #568]
	b	.LBB10_359
.LBB10_358:
	add	x12, x13, x12
	ldr	x3, [sp, #624]
	ldr	x18, [sp, #640]
	cmp	x12, x25
	add	x11, x11, x7
	mov	x0, x20
	b.hs	.LBB10_48
.LBB10_359:
	add	x13, x9, x11
	mov	x20, x0
	add	x0, sp, #1600
	ldrb	w14, [x13]
	ldrb	w15, [x13, #1]
	ldrb	w16, [x13, #2]
	ldrb	w17, [x13, #3]
	add	x2, sp, #1088
	ldr	x18, [sp, #152]
	orr	w14, w14, w14, lsl #8
	orr	w15, w15, w15, lsl #8
	orr	w16, w16, w16, lsl #8
	orr	w17, w17, w17, lsl #8
	stp	xzr, xzr, [x18]
	add	x18, sp, #1600
	strh	w14, [sp, #1600]
	ldrb	w14, [x13, #4]
	sturh	w15, [x0, #2]
	ldrb	w15, [x13, #5]
	sturh	w16, [x0, #4]
	ldrb	w16, [x13, #6]
	orr	w14, w14, w14, lsl #8
	orr	w15, w15, w15, lsl #8
	ldrb	w13, [x13, #7]
	sturh	w17, [x0, #6]
	sturh	w14, [x0, #8]
	orr	w14, w16, w16, lsl #8
	mov	w17, #16843009
	sturh	w15, [x0, #10]
	add	x15, x10, x11
	mul	w13, w13, w17
	sturh	w14, [x0, #12]
	ldrb	w14, [x15]
	ldrb	w16, [x15, #2]
	stur	xzr, [x0, #18]
	orr	w14, w14, w14, lsl #8
	stur	w13, [x0, #14]
	ldrb	w13, [x15, #1]
	stur	xzr, [x0, #24]
	strh	w14, [sp, #1088]
	orr	w14, w16, w16, lsl #8
	ldrb	w16, [x15, #3]
	orr	w13, w13, w13, lsl #8
	stur	xzr, [x2, #18]
	sturh	w14, [x2, #4]
	orr	w14, w16, w16, lsl #8
	ldrb	w16, [x15, #4]
	sturh	w13, [x2, #2]
	add	x13, x8, x11
	ldr	d0, [x13]
	ldr	d1, [x13, #64]
	orr	w13, w16, w16, lsl #8
	sturh	w14, [x2, #6]
	ldrb	w14, [x15, #7]
	sub	x16, x25, x12
	sturh	w13, [x2, #8]
	ldrb	w13, [x15, #5]
	mov	v0.d[1], v1.d[0]
	ldrb	w15, [x15, #6]
	cmp	x4, x16
	mul	w14, w14, w17
	orr	w17, w13, w13, lsl #8
	csel	x13, x4, x16, lo
	stur	xzr, [x2, #24]
	orr	w15, w15, w15, lsl #8
	sub	x16, x13, #1
	sturh	w17, [x2, #10]
	cmp	x16, #31
	add	x17, sp, #1088
	str	q0, [sp, #1232]
	sturh	w15, [x2, #12]
	stur	w14, [x2, #14]
	b.hi	.LBB10_358
	add	x14, x12, x12, lsl #1
	cmp	x13, #8
	b.hs	.LBB10_362
	mov	x15, xzr
	b	.LBB10_371
.LBB10_362:
	cmp	x13, #32
	b.hs	.LBB10_364
	mov	x15, xzr
	b	.LBB10_368
.LBB10_364:
	ldr	x0, [sp, #528]
	add	x3, sp, #1232
	and	x16, x13, #0x18
	and	x15, x13, #0x20
	add	x17, x17, #16
	add	x18, x18, #16
	add	x0, x0, x14
	and	x2, x13, #0x20
	add	x3, x3, #16
.LBB10_365:
	ldp	q0, q3, [x3, #-16]
	add	x4, x0, #96
	ldp	q1, q4, [x18, #-16]
	add	x3, x3, #32
	ldp	q2, q5, [x17, #-16]
	subs	x2, x2, #32
	add	x18, x18, #32
	add	x17, x17, #32
	st3	{ v0.16b, v1.16b, v2.16b }, [x0], #48
	st3	{ v3.16b, v4.16b, v5.16b }, [x0]
	mov	x0, x4
	b.ne	.LBB10_365
	ldr	x4, [sp, #568]
	cmp	x13, x15
	b.eq	.LBB10_358
	cbz	x16, .LBB10_371
.LBB10_368:
	add	x17, x15, x15, lsl #1
	mov	x2, x15
	and	x15, x13, #0x38
	add	x18, sp, #1088
	add	x0, sp, #1600
	add	x3, sp, #1232
	ldr	x19, [sp, #528]
	sub	x16, x2, x15
	add	x17, x17, x14
	add	x18, x18, x2
	add	x0, x0, x2
	add	x2, x3, x2
.LBB10_369:
	ldr	d0, [x2], #8
	add	x3, x19, x17
	ldr	d1, [x0], #8
	adds	x16, x16, #8
	ldr	d2, [x18], #8
	add	x17, x17, #24
	st3	{ v0.8b, v1.8b, v2.8b }, [x3]
	b.ne	.LBB10_369
	cmp	x13, x15
	b.eq	.LBB10_358
.LBB10_371:
	ldr	x2, [sp, #528]
	add	x18, x15, x15, lsl #1
	add	x17, sp, #1232
	add	x0, sp, #1600
	add	x3, sp, #1088
	sub	x16, x13, x15
	add	x2, x2, x14
	add	x17, x17, x15
	add	x14, x0, x15
	add	x18, x2, x18
	add	x15, x3, x15
.LBB10_372:
	ldrb	w0, [x17], #1
	subs	x16, x16, #1
	ldrb	w2, [x14], #1
	ldrb	w3, [x15], #1
	strb	w0, [x18]
	strb	w2, [x18, #1]
	strb	w3, [x18, #2]
	add	x18, x18, #3
	b.ne	.LBB10_372
	b	.LBB10_358
.LBB10_373:
	ldr	x8, [sp, #272]
	ldr	x9, [sp, #160]
	ldr	x1, [sp, #696]
	ldr	x10, [sp, #680]
	ldr	x11, [sp, #672]
	sub	x8, x8, #1
	sub	x9, x9, #1
	orr	x8, x9, x8
	cmp	x8, #3
	b.hi	.LBB10_375
	ldr	x8, [sp, #272]
	ldr	x9, [sp, #160]
	madd	x14, x9, x8, x14
	cmp	x8, x22
	csel	x22, x8, x22, hi
	cmp	x9, x15
	csel	x15, x9, x15, hi
	b	.LBB10_32
.LBB10_375:
	mov	x8, xzr
	b	.LBB10_7
.LBB10_376:
	brk	#0x1
.Lfunc_end10:
	.size	tillsparrow_decode, .Lfunc_end10-tillsparrow_decode

	.section	.text.tillsparrow_has_comment,"ax",@progbits
	.globl	tillsparrow_has_comment
	.p2align	2
	.type	tillsparrow_has_comment,@function
tillsparrow_has_comment:
	stp	x29, x30, [sp, #-80]!
	str	x28, [sp, #16]
	mov	x29, sp
	stp	x24, x23, [sp, #32]
	stp	x22, x21, [sp, #48]
	stp	x20, x19, [sp, #64]
	sub	sp, sp, #464
	mov	x19, x8
	cmp	x0, #0
	mov	w8, #4096
	mov	x21, x0
	mov	x22, x1
	csel	x24, x8, xzr, eq
	mov	x20, x2
	stp	x3, x4, [x29, #-48]
	mov	x0, sp
	stur	x5, [x29, #-32]
	add	x1, x21, x24
	sub	x4, x29, #48
	mov	x2, x22
	mov	w3, wzr
	mov	x5, x6
	bl	"jpeg::inspect"
	ldrb	w8, [sp]
	ldrb	w10, [sp, #8]
	ldr	x23, [sp, #40]
	stp	xzr, xzr, [x29, #-24]
	stur	xzr, [x29, #-8]
	cbz	w8, .LBB11_3
	ldp	x9, x8, [sp, #24]
	adrp	x13, .LJTI11_0
	add	x13, x13, :lo12:.LJTI11_0
	ldr	x12, [sp, #16]
	cmp	w10, #10
	adr	x14, .LBB11_2
	ldrb	w15, [x13, x10]
	add	x14, x14, x15, lsl #2
	mov	w11, #1
	csel	x9, x9, xzr, eq
	csel	x8, x8, xzr, eq
	br	x14
.LBB11_2:
	mov	x10, xzr
	mov	w11, #2
	b	.LBB11_4
.LBB11_3:
	sub	x0, x29, #24
	add	x1, x21, x24
	mov	x2, x22
	mov	x3, x20
	bl	"jpeg_header::comment"
	ldurb	w10, [x29, #-24]
	mov	x8, xzr
	mov	x9, xzr
	mov	x11, xzr
	cmp	w10, #1
	cset	w10, eq
.LBB11_4:
	stp	x11, x23, [x19]
	stp	x9, x8, [x19, #16]
	str	x10, [x19, #32]
	add	sp, sp, #464
	ldp	x20, x19, [sp, #64]
	ldr	x28, [sp, #16]
	ldp	x22, x21, [sp, #48]
	ldp	x24, x23, [sp, #32]
	ldp	x29, x30, [sp], #80
	ret
.LBB11_5:
	mov	x10, xzr
	mov	w11, #9
	b	.LBB11_4
.LBB11_6:
	mov	x10, xzr
	mov	w11, #3
	b	.LBB11_4
.LBB11_7:
	mov	x10, xzr
	mov	w11, #7
	b	.LBB11_4
.LBB11_8:
	mov	x10, xzr
	mov	w11, #5
	b	.LBB11_4
.LBB11_9:
	mov	x10, xzr
	mov	w11, #6
	b	.LBB11_4
.LBB11_10:
	and	w10, w12, #0xff
	cmp	w10, #1
	b.gt	.LBB11_14
	cbnz	w10, .LBB11_17
	and	x10, x12, #0xff
	mov	w11, #3
	b	.LBB11_4
.LBB11_13:
	mov	x10, xzr
	mov	w11, #8
	b	.LBB11_4
.LBB11_14:
	cmp	w10, #2
	b.ne	.LBB11_16
	mov	x10, xzr
	mov	w11, #11
	b	.LBB11_4
.LBB11_16:
	mov	x10, xzr
	mov	w11, #4
	b	.LBB11_4
.LBB11_17:
	mov	x10, xzr
	mov	w11, #10
	b	.LBB11_4
.Lfunc_end11:
	.size	tillsparrow_has_comment, .Lfunc_end11-tillsparrow_has_comment
	.section	.rodata.tillsparrow_has_comment,"a",@progbits
.LJTI11_0:
	.byte	(.LBB11_4-.LBB11_2)>>2
	.byte	(.LBB11_2-.LBB11_2)>>2
	.byte	(.LBB11_6-.LBB11_2)>>2
	.byte	(.LBB11_16-.LBB11_2)>>2
	.byte	(.LBB11_8-.LBB11_2)>>2
	.byte	(.LBB11_9-.LBB11_2)>>2
	.byte	(.LBB11_2-.LBB11_2)>>2
	.byte	(.LBB11_7-.LBB11_2)>>2
	.byte	(.LBB11_13-.LBB11_2)>>2
	.byte	(.LBB11_5-.LBB11_2)>>2
	.byte	(.LBB11_10-.LBB11_2)>>2

	.section	.text.tillsparrow_inspect,"ax",@progbits
	.globl	tillsparrow_inspect
	.p2align	2
	.type	tillsparrow_inspect,@function
tillsparrow_inspect:
	sub	sp, sp, #496
	stp	x20, x19, [sp, #480]
	mov	x19, x8
	cmp	x0, #0
	mov	w8, #4096
	stp	x29, x30, [sp, #448]
	add	x29, sp, #448
	mov	x9, x1
	mov	x10, x0
	csel	x8, x8, xzr, eq
	stp	x3, x4, [x29, #-24]
	add	x0, sp, #8
	add	x1, x10, x8
	stur	x5, [x29, #-8]
	and	w3, w2, #0x1
	sub	x4, x29, #24
	mov	x2, x9
	mov	x5, x6
	stp	x28, x21, [sp, #464]
	add	x20, sp, #8
	add	x21, sp, #8
	bl	"jpeg::inspect"
	add	x10, sp, #121
	ldr	x12, [sp, #48]
	ldur	q2, [sp, #56]
	ldur	q0, [x10, #255]
	add	x10, sp, #137
	ldr	x9, [sp, #72]
	ldr	x8, [sp, #368]
	ldrb	w13, [sp, #8]
	ldur	q1, [x10, #255]
	ldr	x10, [sp, #408]
	ldrb	w11, [sp, #416]
	cbz	w13, .LBB12_3
	ldrb	w17, [sp, #16]
	ldp	x14, x13, [sp, #32]
	adrp	x18, .LJTI12_0
	add	x18, x18, :lo12:.LJTI12_0
	ldrb	w16, [sp, #24]
	cmp	w17, #10
	adr	x0, .LBB12_2
	ldrb	w1, [x18, x17]
	add	x0, x0, x1, lsl #2
	mov	w15, #1
	csel	x14, x14, xzr, eq
	csel	x13, x13, xzr, eq
	br	x0
.LBB12_2:
	mov	w15, #2
	b	.LBB12_4
.LBB12_3:
	mov	x13, xzr
	mov	x14, xzr
	mov	x15, xzr
.LBB12_4:
	str	q2, [x19, #32]
	ldp	q3, q2, [sp, #80]
	stp	x15, x12, [x19]
	add	x12, x21, #296
	stp	x14, x13, [x19, #16]
	add	x13, x21, #328
	stur	q3, [x19, #56]
	ldp	x29, x30, [sp, #448]
	stur	q2, [x19, #72]
	ldp	q3, q2, [sp, #112]
	str	x8, [x19, #344]
	and	x8, x11, #0x1
	str	x9, [x19, #48]
	add	x9, x19, #312
	stur	q3, [x19, #88]
	ldur	q3, [x20, #152]
	stur	q2, [x19, #104]
	ldur	q2, [x20, #136]
	stur	q3, [x19, #136]
	ldur	q3, [x20, #184]
	stur	q2, [x19, #120]
	ldur	q2, [x20, #168]
	stur	q3, [x19, #168]
	stur	q2, [x19, #152]
	ldp	q2, q3, [x12]
	add	x12, x19, #248
	stp	q0, q1, [x19, #352]
	stp	x10, x8, [x19, #384]
	stur	q3, [x19, #200]
	stur	q2, [x19, #184]
	ldp	q2, q3, [x13]
	add	x13, x21, #264
	ldp	x28, x21, [sp, #464]
	stur	q3, [x19, #232]
	ldur	q3, [x20, #216]
	stur	q2, [x19, #216]
	ldur	q2, [x20, #200]
	str	q3, [x12, #16]
	ldur	q3, [x20, #248]
	add	x12, x19, #280
	stur	q2, [x19, #248]
	ldur	q2, [x20, #232]
	ldp	x20, x19, [sp, #480]
	stp	q2, q3, [x12]
	ldp	q3, q2, [x13]
	stp	q3, q2, [x9]
	add	sp, sp, #496
	ret
.LBB12_5:
	mov	w15, #9
	b	.LBB12_4
.LBB12_6:
	mov	w15, #7
	b	.LBB12_4
.LBB12_7:
	mov	w15, #5
	b	.LBB12_4
.LBB12_8:
	mov	w15, #6
	b	.LBB12_4
.LBB12_9:
	and	w15, w16, #0xff
	cmp	w15, #1
	b.gt	.LBB12_13
	cbnz	w15, .LBB12_16
.LBB12_11:
	mov	w15, #3
	b	.LBB12_4
.LBB12_12:
	mov	w15, #8
	b	.LBB12_4
.LBB12_13:
	cmp	w15, #2
	b.ne	.LBB12_15
	mov	w15, #11
	b	.LBB12_4
.LBB12_15:
	mov	w15, #4
	b	.LBB12_4
.LBB12_16:
	mov	w15, #10
	b	.LBB12_4
.Lfunc_end12:
	.size	tillsparrow_inspect, .Lfunc_end12-tillsparrow_inspect
	.section	.rodata.tillsparrow_inspect,"a",@progbits
.LJTI12_0:
	.byte	(.LBB12_4-.LBB12_2)>>2
	.byte	(.LBB12_2-.LBB12_2)>>2
	.byte	(.LBB12_11-.LBB12_2)>>2
	.byte	(.LBB12_15-.LBB12_2)>>2
	.byte	(.LBB12_7-.LBB12_2)>>2
	.byte	(.LBB12_8-.LBB12_2)>>2
	.byte	(.LBB12_2-.LBB12_2)>>2
	.byte	(.LBB12_6-.LBB12_2)>>2
	.byte	(.LBB12_12-.LBB12_2)>>2
	.byte	(.LBB12_5-.LBB12_2)>>2
	.byte	(.LBB12_9-.LBB12_2)>>2

	.ident	"rattle logic=dac8208d650f15bf3e2dc313a14fa4c783a3acf887bdfab66e1714b038d9e11b"
	.section	".note.GNU-stack","",@progbits
