	.file	"rattle"
	.section	".text.std_io::io::error::Error::from_raw_os_error","ax",@progbits
	.p2align	2
	.type	"std_io::io::error::Error::from_raw_os_error",@function
"std_io::io::error::Error::from_raw_os_error":
	tbnz	w1, #31, .LBB0_4
	sub	w8, w1, #1
	cmp	w8, #121
	b.hi	.LBB0_4
	adrp	x9, .LJTI0_0
	add	x9, x9, :lo12:.LJTI0_0
	adr	x10, .LBB0_3
	ldrb	w11, [x9, x8]
	add	x10, x10, x11, lsl #2
	mov	w8, #1
	br	x10
.LBB0_3:
	mov	w8, #36
	b	.LBB0_5
.LBB0_4:
	mov	w8, #41
.LBB0_5:
	movi	v0.2d, #0000000000000000
	strb	wzr, [x0]
	strb	w8, [x0, #1]
	strh	wzr, [x0, #2]
	str	w1, [x0, #4]
	stur	q0, [x0, #8]
	stur	q0, [x0, #24]
	stur	q0, [x0, #40]
	stur	q0, [x0, #56]
	stur	q0, [x0, #72]
	ret
.LBB0_6:
	mov	w8, #4
	b	.LBB0_5
.LBB0_7:
	mov	w8, #7
	b	.LBB0_5
.LBB0_8:
	mov	w8, #26
	b	.LBB0_5
.LBB0_9:
	mov	w8, #39
	b	.LBB0_5
.LBB0_10:
	mov	w8, #9
	b	.LBB0_5
.LBB0_11:
	mov	w8, #8
	b	.LBB0_5
.LBB0_12:
	mov	w8, #30
	b	.LBB0_5
.LBB0_13:
	mov	w8, #25
	b	.LBB0_5
.LBB0_14:
	mov	w8, #32
	b	.LBB0_5
.LBB0_15:
	mov	w8, #33
	b	.LBB0_5
.LBB0_16:
	mov	w8, #22
	b	.LBB0_5
.LBB0_17:
	mov	w8, #31
	b	.LBB0_5
.LBB0_18:
	mov	w8, #29
	b	.LBB0_5
.LBB0_19:
	mov	w8, #18
	b	.LBB0_5
.LBB0_20:
	mov	w8, #10
	b	.LBB0_5
.LBB0_21:
	mov	w8, #28
	b	.LBB0_5
.LBB0_22:
	mov	w8, #14
	b	.LBB0_5
.LBB0_23:
	mov	w8, #12
	b	.LBB0_5
.LBB0_24:
	mov	w8, #5
	b	.LBB0_5
.LBB0_25:
	mov	w8, #3
	b	.LBB0_5
.LBB0_26:
	mov	w8, wzr
	b	.LBB0_5
.LBB0_27:
	mov	w8, #13
	b	.LBB0_5
.LBB0_28:
	mov	w8, #38
	b	.LBB0_5
.LBB0_29:
	mov	w8, #11
	b	.LBB0_5
.LBB0_30:
	mov	w8, #35
	b	.LBB0_5
.LBB0_31:
	mov	w8, #34
	b	.LBB0_5
.LBB0_32:
	mov	w8, #20
	b	.LBB0_5
.LBB0_33:
	mov	w8, #15
	b	.LBB0_5
.LBB0_34:
	mov	w8, #19
	b	.LBB0_5
.LBB0_35:
	mov	w8, #16
	b	.LBB0_5
.LBB0_36:
	mov	w8, #6
	b	.LBB0_5
.LBB0_37:
	mov	w8, #27
	b	.LBB0_5
.LBB0_38:
	mov	w8, #24
	b	.LBB0_5
.LBB0_39:
	mov	w8, #2
	b	.LBB0_5
.LBB0_40:
	mov	w8, #17
	b	.LBB0_5
.Lfunc_end0:
	.size	"std_io::io::error::Error::from_raw_os_error", .Lfunc_end0-"std_io::io::error::Error::from_raw_os_error"
	.section	".rodata.std_io::io::error::Error::from_raw_os_error","a",@progbits
.LJTI0_0:
	.byte	(.LBB0_5-.LBB0_3)>>2
	.byte	(.LBB0_26-.LBB0_3)>>2
	.byte	(.LBB0_4-.LBB0_3)>>2
	.byte	(.LBB0_30-.LBB0_3)>>2
	.byte	(.LBB0_4-.LBB0_3)>>2
	.byte	(.LBB0_4-.LBB0_3)>>2
	.byte	(.LBB0_31-.LBB0_3)>>2
	.byte	(.LBB0_4-.LBB0_3)>>2
	.byte	(.LBB0_4-.LBB0_3)>>2
	.byte	(.LBB0_4-.LBB0_3)>>2
	.byte	(.LBB0_27-.LBB0_3)>>2
	.byte	(.LBB0_28-.LBB0_3)>>2
	.byte	(.LBB0_5-.LBB0_3)>>2
	.byte	(.LBB0_4-.LBB0_3)>>2
	.byte	(.LBB0_4-.LBB0_3)>>2
	.byte	(.LBB0_21-.LBB0_3)>>2
	.byte	(.LBB0_23-.LBB0_3)>>2
	.byte	(.LBB0_17-.LBB0_3)>>2
	.byte	(.LBB0_4-.LBB0_3)>>2
	.byte	(.LBB0_22-.LBB0_3)>>2
	.byte	(.LBB0_33-.LBB0_3)>>2
	.byte	(.LBB0_32-.LBB0_3)>>2
	.byte	(.LBB0_4-.LBB0_3)>>2
	.byte	(.LBB0_4-.LBB0_3)>>2
	.byte	(.LBB0_4-.LBB0_3)>>2
	.byte	(.LBB0_18-.LBB0_3)>>2
	.byte	(.LBB0_37-.LBB0_3)>>2
	.byte	(.LBB0_38-.LBB0_3)>>2
	.byte	(.LBB0_13-.LBB0_3)>>2
	.byte	(.LBB0_40-.LBB0_3)>>2
	.byte	(.LBB0_14-.LBB0_3)>>2
	.byte	(.LBB0_29-.LBB0_3)>>2
	.byte	(.LBB0_4-.LBB0_3)>>2
	.byte	(.LBB0_4-.LBB0_3)>>2
	.byte	(.LBB0_12-.LBB0_3)>>2
	.byte	(.LBB0_15-.LBB0_3)>>2
	.byte	(.LBB0_4-.LBB0_3)>>2
	.byte	(.LBB0_3-.LBB0_3)>>2
	.byte	(.LBB0_35-.LBB0_3)>>2
	.byte	(.LBB0_19-.LBB0_3)>>2
	.byte	(.LBB0_4-.LBB0_3)>>2
	.byte	(.LBB0_4-.LBB0_3)>>2
	.byte	(.LBB0_4-.LBB0_3)>>2
	.byte	(.LBB0_4-.LBB0_3)>>2
	.byte	(.LBB0_4-.LBB0_3)>>2
	.byte	(.LBB0_4-.LBB0_3)>>2
	.byte	(.LBB0_4-.LBB0_3)>>2
	.byte	(.LBB0_4-.LBB0_3)>>2
	.byte	(.LBB0_4-.LBB0_3)>>2
	.byte	(.LBB0_4-.LBB0_3)>>2
	.byte	(.LBB0_4-.LBB0_3)>>2
	.byte	(.LBB0_4-.LBB0_3)>>2
	.byte	(.LBB0_4-.LBB0_3)>>2
	.byte	(.LBB0_4-.LBB0_3)>>2
	.byte	(.LBB0_4-.LBB0_3)>>2
	.byte	(.LBB0_4-.LBB0_3)>>2
	.byte	(.LBB0_4-.LBB0_3)>>2
	.byte	(.LBB0_4-.LBB0_3)>>2
	.byte	(.LBB0_4-.LBB0_3)>>2
	.byte	(.LBB0_4-.LBB0_3)>>2
	.byte	(.LBB0_4-.LBB0_3)>>2
	.byte	(.LBB0_4-.LBB0_3)>>2
	.byte	(.LBB0_4-.LBB0_3)>>2
	.byte	(.LBB0_4-.LBB0_3)>>2
	.byte	(.LBB0_4-.LBB0_3)>>2
	.byte	(.LBB0_4-.LBB0_3)>>2
	.byte	(.LBB0_4-.LBB0_3)>>2
	.byte	(.LBB0_4-.LBB0_3)>>2
	.byte	(.LBB0_4-.LBB0_3)>>2
	.byte	(.LBB0_4-.LBB0_3)>>2
	.byte	(.LBB0_4-.LBB0_3)>>2
	.byte	(.LBB0_4-.LBB0_3)>>2
	.byte	(.LBB0_4-.LBB0_3)>>2
	.byte	(.LBB0_4-.LBB0_3)>>2
	.byte	(.LBB0_4-.LBB0_3)>>2
	.byte	(.LBB0_4-.LBB0_3)>>2
	.byte	(.LBB0_4-.LBB0_3)>>2
	.byte	(.LBB0_4-.LBB0_3)>>2
	.byte	(.LBB0_4-.LBB0_3)>>2
	.byte	(.LBB0_4-.LBB0_3)>>2
	.byte	(.LBB0_4-.LBB0_3)>>2
	.byte	(.LBB0_4-.LBB0_3)>>2
	.byte	(.LBB0_4-.LBB0_3)>>2
	.byte	(.LBB0_4-.LBB0_3)>>2
	.byte	(.LBB0_4-.LBB0_3)>>2
	.byte	(.LBB0_4-.LBB0_3)>>2
	.byte	(.LBB0_4-.LBB0_3)>>2
	.byte	(.LBB0_4-.LBB0_3)>>2
	.byte	(.LBB0_4-.LBB0_3)>>2
	.byte	(.LBB0_4-.LBB0_3)>>2
	.byte	(.LBB0_4-.LBB0_3)>>2
	.byte	(.LBB0_4-.LBB0_3)>>2
	.byte	(.LBB0_4-.LBB0_3)>>2
	.byte	(.LBB0_4-.LBB0_3)>>2
	.byte	(.LBB0_3-.LBB0_3)>>2
	.byte	(.LBB0_4-.LBB0_3)>>2
	.byte	(.LBB0_4-.LBB0_3)>>2
	.byte	(.LBB0_11-.LBB0_3)>>2
	.byte	(.LBB0_10-.LBB0_3)>>2
	.byte	(.LBB0_20-.LBB0_3)>>2
	.byte	(.LBB0_24-.LBB0_3)>>2
	.byte	(.LBB0_4-.LBB0_3)>>2
	.byte	(.LBB0_36-.LBB0_3)>>2
	.byte	(.LBB0_25-.LBB0_3)>>2
	.byte	(.LBB0_4-.LBB0_3)>>2
	.byte	(.LBB0_4-.LBB0_3)>>2
	.byte	(.LBB0_7-.LBB0_3)>>2
	.byte	(.LBB0_4-.LBB0_3)>>2
	.byte	(.LBB0_4-.LBB0_3)>>2
	.byte	(.LBB0_16-.LBB0_3)>>2
	.byte	(.LBB0_39-.LBB0_3)>>2
	.byte	(.LBB0_4-.LBB0_3)>>2
	.byte	(.LBB0_6-.LBB0_3)>>2
	.byte	(.LBB0_4-.LBB0_3)>>2
	.byte	(.LBB0_9-.LBB0_3)>>2
	.byte	(.LBB0_34-.LBB0_3)>>2
	.byte	(.LBB0_4-.LBB0_3)>>2
	.byte	(.LBB0_4-.LBB0_3)>>2
	.byte	(.LBB0_4-.LBB0_3)>>2
	.byte	(.LBB0_4-.LBB0_3)>>2
	.byte	(.LBB0_4-.LBB0_3)>>2
	.byte	(.LBB0_8-.LBB0_3)>>2

	.section	.rodata.cst16,"aM",@progbits,16
	.p2align	4, 0x0
.LCPI1_0:
	.byte	1
	.byte	2
	.byte	4
	.byte	8
	.byte	16
	.byte	32
	.byte	64
	.byte	128
	.byte	1
	.byte	2
	.byte	4
	.byte	8
	.byte	16
	.byte	32
	.byte	64
	.byte	128
.LCPI1_1:
	.xword	1
	.xword	3
.LCPI1_2:
	.xword	1
	.xword	4
	.section	".text.jpeg_header::header","ax",@progbits
	.p2align	2
	.type	"jpeg_header::header",@function
"jpeg_header::header":
	stp	x29, x30, [sp, #-96]!
	stp	x28, x27, [sp, #16]
	mov	x29, sp
	stp	x26, x25, [sp, #32]
	stp	x24, x23, [sp, #48]
	stp	x22, x21, [sp, #64]
	stp	x20, x19, [sp, #80]
	sub	sp, sp, #1984
	movi	v0.2d, #0000000000000000
	cmp	x2, #2
	str	xzr, [sp]
	str	xzr, [sp, #688]
	str	xzr, [sp, #592]
	str	xzr, [sp, #432]
	stp	q0, q0, [sp, #112]
	stp	q0, q0, [sp, #144]
	stp	q0, q0, [sp, #208]
	stp	q0, q0, [sp, #240]
	stp	q0, q0, [sp, #272]
	stp	q0, q0, [sp, #304]
	stp	q0, q0, [sp, #368]
	stp	q0, q0, [sp, #400]
	stp	q0, q0, [sp, #464]
	stp	q0, q0, [sp, #496]
	stp	q0, q0, [sp, #528]
	stp	q0, q0, [sp, #560]
	stp	q0, q0, [sp, #608]
	stp	q0, q0, [sp, #640]
	stp	q0, q0, [sp, #720]
	stp	q0, q0, [sp, #752]
	stp	q0, q0, [sp, #784]
	stp	q0, q0, [sp, #816]
	stp	q0, q0, [sp, #848]
	stp	q0, q0, [sp, #880]
	stp	q0, q0, [sp, #912]
	str	q0, [sp, #704]
	str	q0, [sp, #672]
	str	q0, [sp, #448]
	str	q0, [sp, #352]
	str	xzr, [sp, #336]
	str	q0, [sp, #192]
	str	xzr, [sp, #176]
	str	q0, [sp, #96]
	b.lo	.LBB1_136
	ldrb	w8, [x1]
	cmp	w8, #255
	b.ne	.LBB1_136
	ldrb	w8, [x1, #1]
	cmp	w8, #216
	b.ne	.LBB1_136
	add	x11, sp, #1296
	movi	v16.2d, #0000000000000000
	mov	x12, xzr
	add	x14, x11, #88
	mov	x10, xzr
	mov	w13, wzr
	str	x14, [sp, #24]
	add	x14, x11, #56
	mov	x8, xzr
	str	x14, [sp, #16]
	add	x14, x11, #24
	mov	x9, xzr
	str	x14, [sp, #64]
	add	x14, x11, #296
	add	x23, sp, #1680
	str	x14, [sp, #56]
	add	x14, x11, #40
	add	x11, x11, #136
	add	x27, sp, #1680
	stp	x14, x11, [sp, #40]
	mov	w11, #2
	str	w3, [sp, #36]
	str	xzr, [sp, #688]
	str	q16, [sp, #608]
	stp	q16, q16, [sp, #448]
	stp	q16, q16, [sp, #480]
	stp	q16, q16, [sp, #512]
	stp	q16, q16, [sp, #544]
	stp	q16, q16, [sp, #624]
	stp	q16, q16, [sp, #656]
	str	q16, [sp, #576]
	str	xzr, [sp, #592]
.LBB1_4:
	and	w13, w13, #0xff
	str	q16, [sp, #1200]
	cmp	w13, #2
	str	q16, [sp, #1216]
	str	q16, [sp, #1232]
	str	q16, [sp, #1248]
	str	q16, [sp, #1264]
	str	xzr, [sp, #1280]
	str	q16, [sp, #1040]
	str	q16, [sp, #1056]
	str	q16, [sp, #1072]
	str	q16, [sp, #1088]
	str	q16, [sp, #1104]
	str	q16, [sp, #1120]
	str	q16, [sp, #1136]
	str	q16, [sp, #1152]
	str	q16, [sp, #1168]
	str	xzr, [sp, #1184]
	stp	q16, q16, [sp, #944]
	stp	q16, q16, [sp, #976]
	str	q16, [sp, #1008]
	str	xzr, [sp, #1024]
	b.eq	.LBB1_12
	cmp	w13, #1
	b.ne	.LBB1_14
	subs	x13, x8, x11
	b.lo	.LBB1_13
	b.eq	.LBB1_23
	cmp	x13, #65
	b.lo	.LBB1_13
	add	x14, x1, x11
	ldrb	w13, [x14]
	cmp	w13, #3
	b.hi	.LBB1_13
	ldur	q0, [x14, #17]
	ldur	q1, [x14, #33]
	ldur	q2, [x14, #49]
	ldur	q3, [x14, #1]
	adrp	x14, .LCPI1_0
	cmeq	v1.16b, v1.16b, #0
	cmeq	v2.16b, v2.16b, #0
	cmeq	v0.16b, v0.16b, #0
	cmeq	v3.16b, v3.16b, #0
	ldr	q4, [x14, :lo12:.LCPI1_0]
	and	v1.16b, v1.16b, v4.16b
	and	v2.16b, v2.16b, v4.16b
	and	v0.16b, v0.16b, v4.16b
	and	v3.16b, v3.16b, v4.16b
	ext	v4.16b, v1.16b, v1.16b, #8
	ext	v6.16b, v2.16b, v2.16b, #8
	ext	v7.16b, v0.16b, v0.16b, #8
	ext	v5.16b, v3.16b, v3.16b, #8
	zip1	v1.16b, v1.16b, v4.16b
	zip1	v2.16b, v2.16b, v6.16b
	zip1	v0.16b, v0.16b, v7.16b
	zip1	v3.16b, v3.16b, v5.16b
	addv	h1, v1.8h
	addv	h2, v2.8h
	addv	h0, v0.8h
	addv	h3, v3.8h
	fmov	w14, s1
	fmov	w16, s2
	fmov	w17, s0
	fmov	w15, s3
	orr	w14, w15, w14
	orr	w15, w17, w16
	orr	w14, w14, w15
	tst	w14, #0xffff
	b.ne	.LBB1_13
	ldp	q0, q1, [sp, #640]
	add	x18, sp, #1296
	ldr	q2, [sp, #672]
	mov	w16, #1
	ldr	x17, [sp, #688]
	strb	w16, [sp, #1304]
	ldr	x16, [sp, #592]
	mov	w15, wzr
	stp	q0, q1, [x18, #64]
	ldp	q0, q1, [sp, #608]
	stur	q2, [x18, #96]
	mov	w14, wzr
	str	x10, [sp, #1320]
	ldr	x10, [sp, #64]
	stp	q0, q1, [x18, #32]
	ldp	q2, q0, [sp, #448]
	stur	x17, [x18, #112]
	str	x16, [x18, #264]
	stur	q0, [x18, #136]
	ldp	q1, q0, [sp, #512]
	stur	q2, [x18, #120]
	str	x9, [sp, #1568]
	add	x9, x11, #1
	add	x11, x11, #65
	stur	q0, [x18, #200]
	ldp	q2, q0, [sp, #480]
	stur	q1, [x18, #184]
	str	xzr, [sp, #1024]
	stur	q0, [x18, #168]
	ldp	q1, q0, [sp, #560]
	stur	q2, [x18, #152]
	ldr	q2, [sp, #544]
	stur	q0, [x18, #248]
	stur	q1, [x18, #232]
	stur	q2, [x18, #216]
	str	x9, [x10, x13, lsl #3]
	lsr	x9, x12, #48
	lsr	x10, x12, #32
	ldp	q0, q1, [x18, #64]
	ldur	q2, [x18, #96]
	strb	w9, [sp, #1311]
	ldur	x9, [x18, #112]
	add	x13, sp, #1296
	str	q2, [sp, #1264]
	ldur	q2, [x18, #136]
	str	q0, [sp, #1232]
	str	q1, [sp, #1248]
	ldp	q0, q1, [x18, #32]
	str	q2, [sp, #1056]
	ldur	q2, [x18, #168]
	str	x9, [sp, #1280]
	ldr	x9, [x18, #264]
	str	q0, [sp, #1200]
	ldur	q0, [x18, #120]
	str	q1, [sp, #1216]
	ldur	q1, [x18, #200]
	str	q0, [sp, #1040]
	ldur	q0, [x18, #184]
	str	q1, [sp, #1120]
	ldur	q1, [x18, #152]
	str	q0, [sp, #1104]
	ldur	q0, [x18, #248]
	stur	w12, [x13, #9]
	str	q0, [sp, #1168]
	movi	v0.2d, #0000000000000000
	sturh	w10, [x13, #13]
	ldr	x10, [sp, #1320]
	str	q2, [sp, #1088]
	ldur	q2, [x18, #216]
	ldr	x13, [sp, #1304]
	str	q1, [sp, #1072]
	ldur	q1, [x18, #232]
	str	x9, [sp, #1184]
	ldr	x9, [sp, #1568]
	str	q1, [sp, #1152]
	str	q2, [sp, #1136]
	b	.LBB1_24
.LBB1_12:
	subs	x22, x8, x11
	b.hs	.LBB1_22
.LBB1_13:
	mov	x10, xzr
	mov	x11, xzr
	mov	x13, xzr
	mov	x8, xzr
	mov	x9, xzr
	movi	v0.2d, #0000000000000000
	b	.LBB1_17
.LBB1_14:
	ldp	q0, q1, [sp, #640]
	lsr	x13, x12, #48
	ldr	q2, [sp, #672]
	stur	w12, [x23, #9]
	lsr	x12, x12, #32
	str	x8, [sp, #1696]
	ldr	x8, [sp, #688]
	stp	q0, q1, [x27, #64]
	ldp	q0, q1, [sp, #608]
	stur	q2, [x27, #96]
	sturh	w12, [x23, #13]
	ldr	x12, [sp, #592]
	stp	q0, q1, [x27, #32]
	ldp	q2, q0, [sp, #544]
	ldr	q1, [sp, #576]
	stur	x8, [x27, #112]
	sub	x8, x2, x11
	cmp	x8, #2
	str	x11, [sp, #1680]
	stur	q0, [x27, #232]
	stur	q1, [x27, #248]
	ldp	q0, q1, [sp, #480]
	stur	q2, [x27, #216]
	strb	wzr, [sp, #1688]
	stur	q0, [x27, #152]
	stur	q1, [x27, #168]
	ldp	q0, q1, [sp, #512]
	strb	w13, [sp, #1695]
	str	x10, [sp, #1704]
	stur	q0, [x27, #184]
	stur	q1, [x27, #200]
	ldp	q0, q1, [sp, #448]
	str	x12, [x27, #264]
	str	x9, [sp, #1952]
	stur	q0, [x27, #120]
	movi	v0.2d, #0000000000000000
	stur	q1, [x27, #136]
	str	q0, [sp, #1296]
	str	q0, [sp, #1312]
	str	q0, [sp, #1328]
	str	q0, [sp, #1344]
	str	q0, [sp, #1360]
	str	q0, [sp, #1376]
	str	q0, [sp, #1392]
	str	q0, [sp, #1408]
	str	q0, [sp, #1424]
	str	q0, [sp, #1440]
	str	q0, [sp, #1456]
	str	q0, [sp, #1472]
	str	q0, [sp, #1488]
	str	q0, [sp, #1504]
	str	q0, [sp, #1520]
	str	q0, [sp, #1536]
	str	q0, [sp, #1552]
	str	q0, [sp, #1568]
	str	q0, [sp, #1584]
	str	q0, [sp, #1600]
	str	q0, [sp, #1616]
	str	q0, [sp, #1632]
	str	q0, [sp, #1648]
	str	q0, [sp, #1664]
	b.lo	.LBB1_16
	ldrb	w12, [x1, x11]
	cmp	w12, #255
	b.eq	.LBB1_28
.LBB1_16:
	mov	x10, xzr
	mov	x11, xzr
	mov	x13, xzr
	mov	x8, xzr
	mov	x9, xzr
.LBB1_17:
	mov	w14, #3
	str	xzr, [sp, #1280]
	str	q0, [sp, #1264]
.LBB1_18:
	str	q0, [sp, #1248]
	str	q0, [sp, #1232]
	str	q0, [sp, #1216]
	str	q0, [sp, #1200]
	str	q0, [sp, #1040]
	str	q0, [sp, #1056]
	str	q0, [sp, #1072]
	str	q0, [sp, #1088]
	str	q0, [sp, #1104]
	str	q0, [sp, #1120]
	str	q0, [sp, #1136]
	str	q0, [sp, #1152]
	str	q0, [sp, #1168]
	str	xzr, [sp, #1184]
	stp	q0, q0, [sp, #944]
	stp	q0, q0, [sp, #976]
	str	q0, [sp, #1008]
	mov	w15, #1
	str	xzr, [sp, #1024]
.LBB1_19:
	ldr	q0, [sp, #1232]
	ldr	q1, [sp, #1248]
	ldr	q2, [sp, #1264]
	ldr	x12, [sp, #1280]
	stp	q0, q1, [sp, #384]
	ldr	q0, [sp, #1200]
	ldr	q1, [sp, #1216]
	str	q2, [sp, #416]
	ldr	q2, [sp, #1120]
	stp	q0, q1, [sp, #352]
	ldr	q0, [sp, #1168]
	ldr	q1, [sp, #1152]
	str	x12, [sp, #432]
	ldr	x12, [sp, #1184]
	stp	q1, q0, [sp, #304]
	ldr	q0, [sp, #1136]
	ldr	q1, [sp, #1088]
	str	x12, [sp, #336]
	ldr	x12, [sp, #1024]
	stp	q2, q0, [sp, #272]
	ldr	q0, [sp, #1104]
	ldr	q2, [sp, #1040]
	str	x12, [sp, #176]
	stp	q1, q0, [sp, #240]
	ldr	q0, [sp, #1072]
	str	q0, [sp, #224]
	ldr	q0, [sp, #1056]
	stp	q2, q0, [sp, #192]
	ldp	q1, q0, [sp, #976]
	ldr	q2, [sp, #1008]
	stp	q1, q0, [sp, #128]
	ldp	q0, q1, [sp, #944]
	str	q2, [sp, #160]
	stp	q0, q1, [sp, #96]
	cbnz	w15, .LBB1_138
	cbnz	w14, .LBB1_139
	ldp	q0, q1, [sp, #384]
	ldr	q2, [sp, #416]
	ldr	x12, [sp, #432]
	str	q2, [sp, #672]
	stp	q0, q1, [sp, #640]
	ldp	q0, q1, [sp, #352]
	str	x12, [sp, #688]
	ldr	x12, [sp, #336]
	stp	q0, q1, [sp, #608]
	ldp	q1, q0, [sp, #304]
	str	x12, [sp, #592]
	lsr	x12, x13, #8
	stp	q1, q0, [sp, #560]
	ldp	q2, q0, [sp, #272]
	stp	q2, q0, [sp, #528]
	ldp	q1, q0, [sp, #240]
	stp	q1, q0, [sp, #496]
	ldr	q0, [sp, #224]
	str	q0, [sp, #480]
	ldp	q2, q0, [sp, #192]
	stp	q2, q0, [sp, #448]
	b	.LBB1_4
.LBB1_22:
	b.ne	.LBB1_25
.LBB1_23:
	ldp	q0, q1, [sp, #640]
	mov	w15, wzr
	ldr	q2, [sp, #672]
	ldr	x12, [sp, #688]
	mov	w14, wzr
	ldr	x16, [sp, #592]
	mov	x13, xzr
	mov	x8, xzr
	str	q0, [sp, #1232]
	str	q1, [sp, #1248]
	ldp	q0, q1, [sp, #608]
	str	q2, [sp, #1264]
	str	x12, [sp, #1280]
	str	q0, [sp, #1200]
	ldp	q0, q2, [sp, #560]
	str	q1, [sp, #1216]
	str	x16, [sp, #1184]
	str	q2, [sp, #1168]
	ldp	q2, q1, [sp, #528]
	str	q0, [sp, #1152]
	str	xzr, [sp, #1024]
	str	q1, [sp, #1136]
	ldp	q1, q0, [sp, #496]
	str	q2, [sp, #1120]
	str	q0, [sp, #1104]
	ldr	q0, [sp, #480]
	str	q1, [sp, #1088]
	str	q0, [sp, #1072]
	ldp	q2, q0, [sp, #448]
	str	q0, [sp, #1056]
	movi	v0.2d, #0000000000000000
	str	q2, [sp, #1040]
.LBB1_24:
	stp	q0, q0, [sp, #992]
	str	q0, [sp, #976]
	stp	q0, q0, [sp, #944]
	b	.LBB1_19
.LBB1_25:
	add	x14, x1, x11
	cmp	x22, #2
	ldrb	w18, [x14]
	b.lo	.LBB1_31
	ldrb	w17, [x14, #1]
	cmp	x22, #2
	b.ne	.LBB1_63
	add	x5, x1, x11
	mov	x24, xzr
	mov	x30, xzr
	mov	x19, xzr
	mov	x7, xzr
	mov	x3, xzr
	stp	xzr, xzr, [sp, #72]
	b	.LBB1_32
.LBB1_28:
	add	x16, x11, #1
	ldrb	w12, [x1, x16]
	cmp	w12, #217
	b.eq	.LBB1_16
	cmp	w12, #255
	b.ne	.LBB1_66
	ldp	q0, q1, [sp, #640]
	mov	w15, wzr
	ldr	q2, [sp, #672]
	ldr	x11, [sp, #688]
	mov	w14, wzr
	ldr	x12, [sp, #592]
	mov	x13, xzr
	mov	x8, xzr
	str	q0, [sp, #1232]
	str	q1, [sp, #1248]
	ldp	q0, q1, [sp, #608]
	str	q2, [sp, #1264]
	str	x11, [sp, #1280]
	mov	x11, x16
	str	q0, [sp, #1200]
	ldp	q0, q2, [sp, #560]
	str	q1, [sp, #1216]
	str	x12, [sp, #1184]
	str	q2, [sp, #1168]
	ldp	q2, q1, [sp, #528]
	str	q0, [sp, #1152]
	str	xzr, [sp, #1024]
	str	q1, [sp, #1136]
	ldp	q1, q0, [sp, #496]
	str	q2, [sp, #1120]
	str	q0, [sp, #1104]
	ldr	q0, [sp, #480]
	str	q1, [sp, #1088]
	str	q0, [sp, #1072]
	ldp	q2, q0, [sp, #448]
	str	q0, [sp, #1056]
	movi	v0.2d, #0000000000000000
	str	q2, [sp, #1040]
	stp	q0, q0, [sp, #960]
	stp	q0, q0, [sp, #992]
	str	q0, [sp, #944]
	b	.LBB1_19
.LBB1_31:
	add	x5, x1, x11
	mov	x24, xzr
	mov	x30, xzr
	mov	x19, xzr
	mov	x7, xzr
	mov	x3, xzr
	stp	xzr, xzr, [sp, #72]
	mov	x17, xzr
.LBB1_32:
	str	xzr, [sp, #88]
.LBB1_33:
	mov	x15, xzr
.LBB1_34:
	mov	x6, xzr
.LBB1_35:
	mov	x26, xzr
.LBB1_36:
	mov	x28, xzr
	mov	x20, xzr
	mov	x23, xzr
	mov	x21, xzr
	cmp	x22, #17
	b.lo	.LBB1_121
.LBB1_37:
	mov	w25, #236
	and	w25, w18, w25
	cbnz	w25, .LBB1_121
	ldp	x14, x4, [sp, #72]
	add	x25, x30, x24
	ldr	x16, [sp, #88]
	add	x13, x19, x7
	add	x13, x25, x13
	add	x25, x26, x28
	add	x14, x3, x14
	add	x16, x17, x16
	add	x25, x25, x20
	add	x14, x14, x4
	add	x16, x16, x15
	add	x13, x13, x14
	add	x14, x16, x6
	add	x16, x25, x23
	add	x13, x13, x14
	add	x14, x16, x21
	add	x25, x13, x14
	sub	x13, x25, #1
	cmp	x13, #255
	b.hi	.LBB1_121
	add	x25, x25, #17
	cmp	x25, x22
	b.hi	.LBB1_121
	ldrb	w22, [x5, #1]
	cmp	w22, #1
	b.hi	.LBB1_121
	ldrb	w13, [x5, #2]
	add	x22, x13, x22, lsl #1
	cmp	x22, #3
	b.hi	.LBB1_121
	ldrb	w13, [x5, #3]
	add	x22, x13, x22, lsl #1
	cmp	x22, #7
	b.hi	.LBB1_121
	ldrb	w13, [x5, #4]
	add	x22, x13, x22, lsl #1
	cmp	x22, #15
	b.hi	.LBB1_121
	ldrb	w13, [x5, #5]
	add	x22, x13, x22, lsl #1
	cmp	x22, #31
	b.hi	.LBB1_121
	ldrb	w13, [x5, #6]
	add	x22, x13, x22, lsl #1
	cmp	x22, #63
	b.hi	.LBB1_121
	ldrb	w13, [x5, #7]
	add	x22, x13, x22, lsl #1
	cmp	x22, #127
	b.hi	.LBB1_121
	ldrb	w13, [x5, #8]
	add	x22, x13, x22, lsl #1
	cmp	x22, #255
	b.hi	.LBB1_121
	ldrb	w13, [x5, #9]
	add	x22, x13, x22, lsl #1
	cmp	x22, #511
	b.hi	.LBB1_121
	ldrb	w13, [x5, #10]
	add	x22, x13, x22, lsl #1
	cmp	x22, #1023
	b.hi	.LBB1_121
	ldrb	w13, [x5, #11]
	add	x22, x13, x22, lsl #1
	cmp	x22, #2047
	b.hi	.LBB1_121
	ldrb	w13, [x5, #12]
	add	x22, x13, x22, lsl #1
	cmp	x22, #4095
	b.hi	.LBB1_121
	ldrb	w13, [x5, #13]
	add	x22, x13, x22, lsl #1
	lsr	x13, x22, #13
	cbnz	x13, .LBB1_121
	ldrb	w13, [x5, #14]
	add	x22, x13, x22, lsl #1
	lsr	x13, x22, #14
	cbnz	x13, .LBB1_121
	ldrb	w13, [x5, #15]
	add	x22, x13, x22, lsl #1
	lsr	x13, x22, #15
	cbnz	x13, .LBB1_121
	ldrb	w13, [x5, #16]
	add	x13, x13, x22, lsl #1
	lsr	x13, x13, #16
	cbnz	x13, .LBB1_121
	movi	v0.2d, #0000000000000000
	mov	x14, x18
	add	x22, x5, #17
	cmp	w14, #16
	add	x13, x21, x30
	add	x14, x24, x19
	add	x16, x7, x3
	str	x1, [sp, #8]
	str	q0, [sp, #1920]
	str	q0, [sp, #1904]
	str	q0, [sp, #1888]
	str	q0, [sp, #1872]
	str	q0, [sp, #1856]
	str	q0, [sp, #1840]
	str	q0, [sp, #1824]
	str	q0, [sp, #1808]
	str	q0, [sp, #1792]
	str	q0, [sp, #1776]
	str	q0, [sp, #1760]
	str	q0, [sp, #1744]
	str	q0, [sp, #1728]
	str	q0, [sp, #1712]
	str	q0, [sp, #1696]
	str	q0, [sp, #1680]
	b.hs	.LBB1_127
	add	x13, x13, x14
	ldp	x14, x5, [sp, #72]
	add	x14, x16, x14
	ldr	x16, [sp, #88]
	add	x7, x5, x17
	add	x5, x6, x26
	add	x13, x13, x14
	add	x16, x7, x16
	add	x4, x5, x28
	add	x14, x16, x15
	add	x16, x4, x20
	add	x13, x13, x14
	add	x14, x16, x23
	add	x14, x13, x14
.LBB1_58:
	ldrb	w16, [x22], #1
	cmp	x16, #11
	b.hi	.LBB1_133
	add	x13, sp, #1680
	ldrb	w13, [x13, x16]
	tbnz	w13, #0, .LBB1_133
	add	x13, sp, #1680
	subs	x14, x14, #1
	mov	w17, #1
	strb	w17, [x13, x16]
	b.ne	.LBB1_58
.LBB1_61:
	mov	w13, #2
	ldp	q0, q1, [sp, #640]
	strb	w13, [sp, #1304]
	lsr	x13, x12, #48
	ldr	q2, [sp, #672]
	add	x14, sp, #1296
	cmp	w18, #15
	str	x10, [sp, #1320]
	strb	w13, [sp, #1311]
	add	x13, sp, #1296
	stp	q0, q1, [x13, #64]
	ldp	q0, q1, [sp, #608]
	stur	q2, [x13, #96]
	stur	w12, [x14, #9]
	lsr	x12, x12, #32
	stp	q0, q1, [x13, #32]
	ldp	q2, q0, [sp, #448]
	sturh	w12, [x14, #13]
	ldr	x12, [sp, #688]
	str	x9, [sp, #1568]
	stur	q0, [x13, #136]
	ldp	q1, q0, [sp, #512]
	stur	q2, [x13, #120]
	stur	x12, [x13, #112]
	ldr	x12, [sp, #592]
	stur	q0, [x13, #200]
	ldp	q2, q0, [sp, #480]
	stur	q1, [x13, #184]
	str	x12, [x13, #264]
	lsl	x12, x18, #3
	stur	q0, [x13, #168]
	ldp	q1, q0, [sp, #560]
	stur	q2, [x13, #152]
	ldr	q2, [sp, #544]
	stur	q0, [x13, #248]
	stur	q1, [x13, #232]
	stur	q2, [x13, #216]
	add	x13, x11, #1
	b.hi	.LBB1_134
	ldr	x9, [sp, #16]
	str	x13, [x9, x12]
	ldr	x9, [sp, #1568]
	b	.LBB1_135
.LBB1_63:
	ldrb	w13, [x14, #2]
	cmp	x22, #4
	str	x13, [sp, #88]
	b.lo	.LBB1_78
	ldrb	w13, [x14, #3]
	cmp	x22, #4
	str	x13, [sp, #80]
	b.ne	.LBB1_79
	add	x5, x1, x11
	mov	x24, xzr
	mov	x30, xzr
	mov	x19, xzr
	mov	x7, xzr
	mov	x3, xzr
	str	xzr, [sp, #72]
	b	.LBB1_33
.LBB1_66:
	cmp	x8, #4
	b.lo	.LBB1_77
	add	x8, x11, #2
	cmp	x8, x2
	b.hs	.LBB1_77
	ldrb	w13, [x1, x8]
	add	x14, x11, #3
	cmp	x14, x2
	lsl	x13, x13, #8
	b.hs	.LBB1_70
	ldrb	w14, [x1, x14]
	orr	x13, x13, x14
.LBB1_70:
	cmp	x13, #2
	b.lo	.LBB1_77
	add	x5, x13, x8
	cmp	x2, x5
	b.lo	.LBB1_77
	add	x11, x11, #4
	cmp	w12, #218
	sub	x8, x5, x11
	b.le	.LBB1_86
	cmp	w12, #219
	b.eq	.LBB1_90
	cmp	w12, #221
	b.eq	.LBB1_92
	cmp	w12, #254
	b.ne	.LBB1_96
.LBB1_76:
	ldp	q0, q1, [sp, #640]
	add	x11, sp, #1296
	ldr	q2, [sp, #672]
	ldr	x8, [sp, #64]
	str	x10, [sp, #1336]
	ldr	x10, [sp, #592]
	stp	q0, q1, [x11, #80]
	ldp	q0, q1, [sp, #608]
	stur	q2, [x11, #112]
	stp	xzr, xzr, [x8]
	ldr	x8, [sp, #688]
	stp	q0, q1, [x11, #48]
	ldp	q0, q2, [sp, #448]
	stur	x8, [x11, #128]
	ldp	x12, x8, [sp, #48]
	str	xzr, [sp, #1304]
	stp	q0, q2, [x12]
	ldp	q0, q1, [sp, #512]
	str	xzr, [sp, #1296]
	str	x5, [sp, #1312]
	stp	q0, q1, [x12, #64]
	ldp	q0, q2, [sp, #480]
	str	x10, [x12, #144]
	str	x9, [sp, #1584]
	stp	q0, q2, [x12, #32]
	ldp	q0, q1, [sp, #560]
	str	xzr, [x8, #80]
	stp	q0, q1, [x12, #112]
	movi	v0.2d, #0000000000000000
	ldr	q1, [sp, #544]
	str	q1, [x12, #96]
	stp	q0, q0, [x8]
	stp	q0, q0, [x8, #32]
	str	q0, [x8, #64]
	b	.LBB1_106
.LBB1_77:
	mov	x10, xzr
	mov	x11, xzr
	mov	x13, xzr
	mov	x8, xzr
	mov	x9, xzr
	str	xzr, [sp, #1280]
	str	q0, [sp, #1264]
	mov	w14, #2
	b	.LBB1_18
.LBB1_78:
	add	x5, x1, x11
	mov	x24, xzr
	mov	x30, xzr
	mov	x19, xzr
	mov	x7, xzr
	mov	x3, xzr
	stp	xzr, xzr, [sp, #72]
	b	.LBB1_33
.LBB1_79:
	ldrb	w15, [x14, #4]
	cmp	x22, #6
	b.lo	.LBB1_82
	ldrb	w13, [x14, #5]
	cmp	x22, #6
	str	x13, [sp, #72]
	b.ne	.LBB1_83
	add	x5, x1, x11
	mov	x24, xzr
	mov	x30, xzr
	mov	x19, xzr
	mov	x7, xzr
	mov	x3, xzr
	b	.LBB1_34
.LBB1_82:
	add	x5, x1, x11
	mov	x24, xzr
	mov	x30, xzr
	mov	x19, xzr
	mov	x7, xzr
	mov	x3, xzr
	str	xzr, [sp, #72]
	b	.LBB1_34
.LBB1_83:
	ldrb	w6, [x14, #6]
	cmp	x22, #8
	b.lo	.LBB1_89
	ldrb	w3, [x14, #7]
	cmp	x22, #8
	b.ne	.LBB1_98
	add	x5, x1, x11
	mov	x24, xzr
	mov	x30, xzr
	mov	x19, xzr
	mov	x7, xzr
	b	.LBB1_35
.LBB1_86:
	cmp	w12, #196
	b.eq	.LBB1_94
	cmp	w12, #218
	b.ne	.LBB1_96
	ldr	w3, [sp, #36]
	mov	x20, x0
	add	x0, sp, #1296
	mov	x21, x1
	add	x1, x1, x11
	add	x4, sp, #1680
	mov	x22, x2
	mov	x2, x8
	bl	"jpeg_header_state::scan"
	movi	v16.2d, #0000000000000000
	mov	x1, x21
	mov	x2, x22
	mov	x0, x20
	b	.LBB1_106
.LBB1_89:
	add	x5, x1, x11
	mov	x24, xzr
	mov	x30, xzr
	mov	x19, xzr
	mov	x7, xzr
	mov	x3, xzr
	b	.LBB1_35
.LBB1_90:
	cmp	x5, x11
	b.eq	.LBB1_95
	ldp	q0, q1, [sp, #544]
	add	x12, sp, #1296
	ldr	q2, [sp, #576]
	ldr	x8, [sp, #592]
	str	x10, [sp, #1336]
	ldp	x13, x10, [sp, #48]
	stp	q0, q1, [x13, #96]
	ldp	q0, q1, [sp, #480]
	str	q2, [x13, #128]
	str	x8, [x13, #144]
	ldr	x8, [sp, #688]
	stp	q0, q1, [x13, #32]
	ldp	q2, q0, [sp, #512]
	stur	x8, [x12, #128]
	mov	w8, #1
	b	.LBB1_104
.LBB1_92:
	cmp	x8, #2
	b.ne	.LBB1_101
	ldp	q0, q1, [sp, #640]
	add	x9, sp, #1296
	ldr	q2, [sp, #672]
	ldr	x8, [sp, #688]
	ldr	q3, [sp, #544]
	str	x10, [sp, #1336]
	stp	q0, q1, [x9, #80]
	ldp	q0, q1, [sp, #608]
	stur	q2, [x9, #112]
	stur	x8, [x9, #128]
	ldr	x8, [sp, #592]
	stp	q0, q1, [x9, #48]
	ldp	q0, q2, [sp, #448]
	ldr	x9, [sp, #48]
	stp	q0, q2, [x9]
	ldp	q2, q1, [sp, #512]
	str	x8, [x9, #144]
	str	q3, [x9, #96]
	stp	q2, q1, [x9, #64]
	ldp	q1, q0, [sp, #480]
	stp	q1, q0, [x9, #32]
	ldp	q2, q1, [sp, #560]
	movi	v0.2d, #0000000000000000
	stp	q2, q1, [x9, #112]
	ldp	x9, x8, [sp, #56]
	str	q0, [x8]
	ldrh	w8, [x1, x11]
	stp	q0, q0, [x9]
	rev16	w8, w8
	stp	q0, q0, [x9, #32]
	str	q0, [x9, #64]
	str	xzr, [x9, #80]
	b	.LBB1_102
.LBB1_94:
	cmp	x5, x11
	b.ne	.LBB1_103
.LBB1_95:
	ldr	x12, [sp, #56]
	ldr	x13, [sp, #40]
	adrp	x10, .LCPI1_1
	mov	x11, xzr
	mov	x8, xzr
	mov	x5, xzr
	stp	q0, q0, [x12, #16]
	mov	x9, xzr
	stp	q0, q0, [x12, #48]
	str	q0, [x12]
	stp	q0, q0, [x13]
	stp	q0, q0, [x13, #32]
	stp	q0, q0, [x13, #64]
	stp	q0, q0, [x13, #96]
	stp	q0, q0, [x13, #128]
	stp	q0, q0, [x13, #160]
	stp	q0, q0, [x13, #192]
	str	q0, [x13, #224]
	ldr	q0, [x10, :lo12:.LCPI1_1]
	str	xzr, [x12, #80]
	str	xzr, [x13, #240]
	b	.LBB1_105
.LBB1_96:
	cmp	w12, #192
	b.hs	.LBB1_107
.LBB1_97:
	adrp	x8, .LCPI1_2
	ldr	q0, [x8, :lo12:.LCPI1_2]
	add	x8, sp, #1296
	stp	xzr, xzr, [x8, #24]
	str	q0, [sp, #1296]
	stur	xzr, [x8, #16]
	b	.LBB1_106
.LBB1_98:
	ldrb	w26, [x14, #8]
	cmp	x22, #10
	b.lo	.LBB1_109
	ldrb	w7, [x14, #9]
	cmp	x22, #10
	b.ne	.LBB1_111
	add	x5, x1, x11
	mov	x24, xzr
	mov	x30, xzr
	mov	x19, xzr
	b	.LBB1_36
.LBB1_101:
	ldp	x11, x10, [sp, #56]
	adrp	x9, .LCPI1_1
	mov	x5, xzr
	mov	x8, xzr
	stp	q0, q0, [x11, #16]
	stp	q0, q0, [x11, #48]
	str	q0, [x11]
	stp	q0, q0, [x10]
	stp	q0, q0, [x10, #32]
	stp	q0, q0, [x10, #64]
	stp	q0, q0, [x10, #96]
	stp	q0, q0, [x10, #128]
	stp	q0, q0, [x10, #160]
	stp	q0, q0, [x10, #192]
	stp	q0, q0, [x10, #224]
	ldr	q0, [x9, :lo12:.LCPI1_1]
	str	xzr, [x11, #80]
	str	xzr, [x10, #256]
.LBB1_102:
	str	q0, [sp, #1296]
	str	x5, [sp, #1312]
	str	x8, [sp, #1584]
	b	.LBB1_106
.LBB1_103:
	ldp	q0, q1, [sp, #544]
	add	x12, sp, #1296
	ldr	q2, [sp, #576]
	ldr	x8, [sp, #592]
	str	x10, [sp, #1336]
	ldp	x13, x10, [sp, #48]
	stp	q0, q1, [x13, #96]
	ldp	q0, q1, [sp, #480]
	str	q2, [x13, #128]
	str	x8, [x13, #144]
	ldr	x8, [sp, #688]
	stp	q0, q1, [x13, #32]
	ldp	q2, q0, [sp, #512]
	stur	x8, [x12, #128]
	mov	w8, #2
.LBB1_104:
	stp	q2, q0, [x13, #64]
	ldp	q1, q0, [sp, #448]
	stp	q1, q0, [x13]
	ldp	q2, q0, [sp, #640]
	ldr	q1, [sp, #672]
	stp	q2, q0, [x12, #80]
	stur	q1, [x12, #112]
	ldp	q0, q1, [sp, #608]
	stp	q0, q1, [x12, #48]
	movi	v0.2d, #0000000000000000
	stp	q0, q0, [x10]
	stp	q0, q0, [x10, #32]
	str	q0, [x10, #64]
	str	xzr, [x10, #80]
.LBB1_105:
	str	q0, [sp, #1296]
	str	x11, [sp, #1312]
	str	x8, [sp, #1320]
	str	x5, [sp, #1328]
	str	x9, [sp, #1584]
.LBB1_106:
	add	x9, sp, #1296
	ldrb	w15, [sp, #1296]
	ldp	q0, q1, [x9, #80]
	ldur	q2, [x9, #112]
	ldur	x8, [x9, #128]
	ldrb	w14, [sp, #1304]
	ldr	x11, [sp, #1312]
	str	q2, [sp, #1264]
	ldr	x13, [sp, #1320]
	str	q0, [sp, #1232]
	str	q1, [sp, #1248]
	ldp	q0, q1, [x9, #48]
	ldp	x9, x10, [sp, #48]
	str	x8, [sp, #1280]
	str	q0, [sp, #1200]
	ldp	q0, q2, [x9]
	str	q1, [sp, #1216]
	ldr	x8, [x9, #144]
	str	q0, [sp, #1040]
	ldp	q0, q1, [x9, #64]
	str	q2, [sp, #1056]
	str	x8, [sp, #1184]
	ldr	x8, [x10, #80]
	str	q0, [sp, #1104]
	ldp	q0, q2, [x9, #32]
	str	q1, [sp, #1120]
	str	x8, [sp, #1024]
	ldr	x8, [sp, #1328]
	str	q0, [sp, #1072]
	ldp	q1, q0, [x9, #112]
	str	q2, [sp, #1088]
	ldr	q2, [x10, #64]
	str	q0, [sp, #1168]
	ldr	q0, [x9, #96]
	ldr	x9, [sp, #1584]
	str	q1, [sp, #1152]
	str	q0, [sp, #1136]
	ldp	q1, q0, [x10, #32]
	str	q2, [sp, #1008]
	stp	q1, q0, [sp, #976]
	ldp	q0, q1, [x10]
	ldr	x10, [sp, #1336]
	stp	q0, q1, [sp, #944]
	b	.LBB1_19
.LBB1_107:
	cmp	w12, #194
	b.hs	.LBB1_110
	mov	x19, x0
	add	x0, sp, #1296
	mov	x20, x1
	add	x1, x1, x11
	add	x3, sp, #1680
	mov	x22, x2
	mov	x2, x8
	mov	x4, x5
	bl	"jpeg_header_state::frame"
	movi	v16.2d, #0000000000000000
	mov	x1, x20
	mov	x2, x22
	mov	x0, x19
	b	.LBB1_106
.LBB1_109:
	add	x5, x1, x11
	mov	x24, xzr
	mov	x30, xzr
	mov	x19, xzr
	mov	x7, xzr
	b	.LBB1_36
.LBB1_110:
	and	w8, w12, #0xf0
	cmp	w8, #224
	b.eq	.LBB1_76
	b	.LBB1_97
.LBB1_111:
	ldrb	w28, [x14, #10]
	cmp	x22, #12
	b.lo	.LBB1_114
	ldrb	w19, [x14, #11]
	mov	x5, x14
	cmp	x22, #12
	b.ne	.LBB1_115
	mov	x24, xzr
	mov	x30, xzr
	mov	x20, xzr
	b	.LBB1_119
.LBB1_114:
	add	x5, x1, x11
	mov	x24, xzr
	mov	x30, xzr
	mov	x19, xzr
	mov	x20, xzr
	mov	x23, xzr
	mov	x21, xzr
	cmp	x22, #17
	b.hs	.LBB1_37
	b	.LBB1_121
.LBB1_115:
	ldrb	w20, [x5, #12]
	cmp	x22, #14
	b.lo	.LBB1_118
	ldrb	w30, [x5, #13]
	cmp	x22, #14
	b.ne	.LBB1_123
	mov	x24, xzr
	b	.LBB1_119
.LBB1_118:
	mov	x24, xzr
	mov	x30, xzr
.LBB1_119:
	mov	x23, xzr
.LBB1_120:
	mov	x21, xzr
	movi	v16.2d, #0000000000000000
	cmp	x22, #17
	b.hs	.LBB1_37
.LBB1_121:
	movi	v0.2d, #0000000000000000
	mov	x10, xzr
	mov	x11, xzr
	mov	x13, xzr
	mov	x8, xzr
	mov	x9, xzr
	str	xzr, [sp, #1280]
	mov	w14, #3
	mov	w15, #1
	str	xzr, [sp, #1184]
	str	q0, [sp, #1264]
	str	q0, [sp, #1248]
	str	q0, [sp, #1232]
	str	q0, [sp, #1216]
	str	q0, [sp, #1200]
	str	q0, [sp, #1040]
	str	q0, [sp, #1056]
	str	q0, [sp, #1072]
	str	q0, [sp, #1088]
	str	q0, [sp, #1104]
	str	q0, [sp, #1120]
	str	q0, [sp, #1136]
	str	q0, [sp, #1152]
	str	q0, [sp, #1168]
	stp	q0, q0, [sp, #944]
	stp	q0, q0, [sp, #976]
	str	q0, [sp, #1008]
	str	xzr, [sp, #1024]
.LBB1_122:
	add	x23, sp, #1680
	b	.LBB1_19
.LBB1_123:
	ldrb	w23, [x5, #14]
	cmp	x22, #16
	b.lo	.LBB1_126
	ldrb	w24, [x5, #15]
	cmp	x22, #16
	b.eq	.LBB1_120
	ldrb	w21, [x5, #16]
	movi	v16.2d, #0000000000000000
	cmp	x22, #17
	b.hs	.LBB1_37
	b	.LBB1_121
.LBB1_126:
	mov	x24, xzr
	mov	x21, xzr
	movi	v16.2d, #0000000000000000
	cmp	x22, #17
	b.hs	.LBB1_37
	b	.LBB1_121
.LBB1_127:
	add	x13, x13, x14
	ldp	x14, x5, [sp, #72]
	add	x14, x16, x14
	ldr	x16, [sp, #88]
	add	x7, x5, x17
	add	x5, x6, x26
	add	x13, x13, x14
	add	x16, x7, x16
	add	x4, x5, x28
	add	x14, x16, x15
	add	x16, x4, x20
	add	x13, x13, x14
	add	x14, x16, x23
	add	x14, x13, x14
	b	.LBB1_129
.LBB1_128:
	add	x13, sp, #1680
	subs	x14, x14, #1
	mov	w17, #1
	strb	w17, [x13, x16]
	b.eq	.LBB1_61
.LBB1_129:
	ldrb	w16, [x22], #1
	add	x13, sp, #1680
	ldrb	w13, [x13, x16]
	tbnz	w13, #0, .LBB1_133
	cbz	w16, .LBB1_128
	cmp	w16, #240
	b.eq	.LBB1_128
	and	x13, x16, #0xf
	sub	x13, x13, #1
	cmp	x13, #9
	b.ls	.LBB1_128
.LBB1_133:
	movi	v16.2d, #0000000000000000
	ldr	x1, [sp, #8]
	b	.LBB1_121
.LBB1_134:
	ldr	x14, [sp, #24]
	and	x12, x12, #0x18
	str	x13, [x14, x12]
.LBB1_135:
	add	x13, sp, #1296
	movi	v16.2d, #0000000000000000
	ldr	x1, [sp, #8]
	ldp	q0, q1, [x13, #64]
	ldur	q2, [x13, #96]
	ldur	x12, [x13, #112]
	ldur	q3, [x13, #216]
	mov	w15, wzr
	str	q2, [sp, #1264]
	ldur	q2, [x13, #136]
	mov	w14, wzr
	str	q0, [sp, #1232]
	add	x11, x25, x11
	str	q1, [sp, #1248]
	ldp	q0, q1, [x13, #32]
	str	q2, [sp, #1056]
	ldur	q2, [x13, #168]
	str	x12, [sp, #1280]
	ldr	x12, [x13, #264]
	str	q0, [sp, #1200]
	ldur	q0, [x13, #120]
	str	q1, [sp, #1216]
	ldur	q1, [x13, #200]
	str	q0, [sp, #1040]
	ldur	q0, [x13, #184]
	str	q1, [sp, #1120]
	ldur	q1, [x13, #152]
	str	q2, [sp, #1088]
	movi	v2.2d, #0000000000000000
	str	q0, [sp, #1104]
	ldur	q0, [x13, #248]
	str	q1, [sp, #1072]
	ldur	q1, [x13, #232]
	ldr	x13, [sp, #1304]
	str	x12, [sp, #1184]
	str	q0, [sp, #1168]
	str	q1, [sp, #1152]
	str	q3, [sp, #1136]
	str	xzr, [sp, #1024]
	stp	q2, q2, [sp, #960]
	stp	q2, q2, [sp, #992]
	str	q2, [sp, #944]
	b	.LBB1_122
.LBB1_136:
	adrp	x8, .LCPI1_1
	stp	q0, q0, [x0, #32]
	ldr	q1, [x8, :lo12:.LCPI1_1]
	stp	q0, q0, [x0, #64]
	stp	q0, q0, [x0, #96]
	stp	q1, q0, [x0]
	stp	q0, q0, [x0, #128]
	stp	q0, q0, [x0, #160]
	stp	q0, q0, [x0, #192]
	stp	q0, q0, [x0, #224]
	stp	q0, q0, [x0, #256]
	stp	q0, q0, [x0, #288]
	stp	q0, q0, [x0, #320]
	str	q0, [x0, #352]
	str	xzr, [x0, #368]
.LBB1_137:
	add	sp, sp, #1984
	ldp	x20, x19, [sp, #80]
	ldp	x22, x21, [sp, #64]
	ldp	x24, x23, [sp, #48]
	ldp	x26, x25, [sp, #32]
	ldp	x28, x27, [sp, #16]
	ldp	x29, x30, [sp], #96
	ret
.LBB1_138:
	movi	v0.2d, #0000000000000000
	mov	w9, #1
	mov	w10, w14
	stp	x9, x10, [x0]
	stp	x11, x13, [x0, #16]
	str	x8, [x0, #32]
	stur	q0, [x0, #56]
	stur	q0, [x0, #72]
	stur	q0, [x0, #88]
	stur	q0, [x0, #104]
	stur	q0, [x0, #120]
	stur	q0, [x0, #136]
	stur	q0, [x0, #152]
	stur	q0, [x0, #168]
	stur	q0, [x0, #184]
	stur	q0, [x0, #200]
	stur	q0, [x0, #216]
	stur	q0, [x0, #232]
	stur	q0, [x0, #248]
	str	q0, [x0, #40]!
	stp	q0, q0, [x0, #224]
	stp	q0, q0, [x0, #256]
	stp	q0, q0, [x0, #288]
	str	q0, [x0, #320]
	b	.LBB1_137
.LBB1_139:
	ldp	q0, q1, [sp, #384]
	ldr	x12, [sp, #432]
	ldr	q2, [sp, #416]
	ldr	x14, [sp, #336]
	stp	x13, x8, [x0, #16]
	str	x12, [sp, #784]
	add	x12, sp, #704
	ldr	x8, [sp, #176]
	stp	q0, q1, [sp, #736]
	ldp	q0, q1, [sp, #352]
	str	q2, [sp, #768]
	str	x14, [sp, #936]
	stp	q0, q1, [sp, #704]
	ldp	q1, q0, [sp, #272]
	stp	xzr, x11, [x0]
	str	x10, [x0, #32]
	stur	q0, [x12, #184]
	stur	q1, [x12, #168]
	ldp	q1, q0, [sp, #240]
	str	x9, [x0, #280]
	str	x8, [x0, #368]
	stur	q0, [x12, #152]
	ldr	q0, [sp, #224]
	stur	q1, [x12, #136]
	stur	q0, [x12, #120]
	ldp	q1, q0, [sp, #192]
	stur	q1, [x12, #88]
	ldp	q2, q1, [sp, #304]
	stur	q0, [x12, #104]
	stur	q2, [x12, #200]
	stur	q1, [x12, #216]
	ldp	q0, q1, [sp, #880]
	add	x12, x0, #40
	stur	q0, [x0, #216]
	stur	q1, [x0, #232]
	ldp	q0, q1, [sp, #912]
	stur	q0, [x0, #248]
	str	q1, [x12, #224]
	ldp	q0, q1, [sp, #816]
	stur	q0, [x0, #152]
	ldp	q0, q2, [sp, #848]
	stur	q1, [x0, #168]
	stur	q0, [x0, #184]
	ldp	q0, q1, [sp, #752]
	stur	q2, [x0, #200]
	stur	q0, [x0, #88]
	ldp	q0, q3, [sp, #784]
	stur	q1, [x0, #104]
	ldp	q1, q2, [sp, #720]
	stur	q0, [x0, #120]
	ldr	q0, [sp, #704]
	stur	q1, [x0, #56]
	stur	q0, [x0, #40]
	ldp	q0, q1, [sp, #128]
	stur	q2, [x0, #72]
	ldr	q2, [sp, #160]
	stur	q3, [x0, #136]
	stp	q0, q1, [x0, #320]
	ldp	q0, q1, [sp, #96]
	str	q2, [x0, #352]
	stp	q0, q1, [x0, #288]
	b	.LBB1_137
.Lfunc_end1:
	.size	"jpeg_header::header", .Lfunc_end1-"jpeg_header::header"

	.section	.rodata.cst16,"aM",@progbits,16
	.p2align	4, 0x0
.LCPI2_0:
	.xword	1
	.xword	3
.LCPI2_1:
	.xword	1
	.xword	4
	.section	".text.jpeg_header_state::frame","ax",@progbits
	.p2align	2
	.type	"jpeg_header_state::frame",@function
"jpeg_header_state::frame":
	stp	x29, x30, [sp, #-96]!
	str	x28, [sp, #16]
	mov	x29, sp
	stp	x26, x25, [sp, #32]
	stp	x24, x23, [sp, #48]
	stp	x22, x21, [sp, #64]
	stp	x20, x19, [sp, #80]
	sub	sp, sp, #576
	movi	v0.2d, #0000000000000000
	ldr	x8, [x3, #136]
	ldr	x19, [x3, #272]
	add	x20, sp, #160
	stp	q0, q0, [x20]
	stp	q0, q0, [x20, #32]
	stp	q0, q0, [x20, #64]
	cbz	x8, .LBB2_2
	adrp	x8, .LCPI2_0
	stp	q0, q0, [x0, #32]
	ldr	q1, [x8, :lo12:.LCPI2_0]
	stp	q1, q0, [x0]
	b	.LBB2_21
.LBB2_2:
	cmp	x2, #6
	b.lo	.LBB2_19
	ldrb	w8, [x1]
	cmp	w8, #8
	b.ne	.LBB2_19
	ldrb	w25, [x1, #5]
	sub	w8, w25, #1
	and	w8, w8, #0xff
	cmp	w8, #4
	b.hs	.LBB2_19
	add	x8, x25, x25, lsl #1
	add	x8, x8, #6
	cmp	x2, x8
	b.ne	.LBB2_23
	mov	x26, x0
	add	x0, sp, #264
	mov	x22, x3
	mov	x21, x4
	mov	x23, x1
	mov	x24, x2
	bl	"jpeg_header_rules::frame_of"
	ldr	x9, [sp, #264]
	mov	x8, x26
	cbz	x9, .LBB2_119
	ldr	x9, [sp, #272]
	cbz	x9, .LBB2_119
	cbz	w25, .LBB2_26
	mov	x9, x24
	sub	w9, w9, #5
	and	w10, w9, #0xff
	mov	w9, #171
	mul	w9, w10, w9
	cmp	w10, #3
	lsr	w9, w9, #9
	b.lo	.LBB2_25
	ldrb	w10, [x23, #7]
	lsr	x11, x10, #4
	sub	x11, x11, #1
	cmp	x11, #3
	b.hi	.LBB2_24
	and	x10, x10, #0xf
	sub	x10, x10, #1
	cmp	x10, #3
	b.hi	.LBB2_24
	cmp	w25, #1
	b.eq	.LBB2_26
	mov	x10, x24
	sub	w10, w10, #8
	and	w10, w10, #0xff
	cmp	w10, #3
	b.lo	.LBB2_25
	ldrb	w10, [x23, #10]
	lsr	x11, x10, #4
	sub	x11, x11, #1
	cmp	x11, #3
	b.hi	.LBB2_88
	and	x10, x10, #0xf
	sub	x10, x10, #1
	cmp	x10, #3
	b.hi	.LBB2_88
	cmp	w25, #2
	b.eq	.LBB2_26
	sub	w8, w24, #11
	and	w8, w8, #0xff
	cmp	w8, #3
	b.hs	.LBB2_120
	mov	x8, x26
	b	.LBB2_25
.LBB2_19:
	adrp	x8, .LCPI2_1
	ldr	q1, [x8, :lo12:.LCPI2_1]
.LBB2_20:
	stp	q1, q0, [x0]
	stp	q0, q0, [x0, #32]
.LBB2_21:
	stp	q0, q0, [x0, #64]
	stp	q0, q0, [x0, #96]
	stp	q0, q0, [x0, #128]
	stp	q0, q0, [x0, #160]
	stp	q0, q0, [x0, #192]
	stp	q0, q0, [x0, #224]
	stp	q0, q0, [x0, #256]
	stp	q0, q0, [x0, #288]
	stp	q0, q0, [x0, #320]
	stp	q0, q0, [x0, #352]
.LBB2_22:
	add	sp, sp, #576
	ldp	x20, x19, [sp, #80]
	ldr	x28, [sp, #16]
	ldp	x22, x21, [sp, #64]
	ldp	x24, x23, [sp, #48]
	ldp	x26, x25, [sp, #32]
	ldp	x29, x30, [sp], #96
	ret
.LBB2_23:
	adrp	x8, .LCPI2_0
	ldr	q1, [x8, :lo12:.LCPI2_0]
	b	.LBB2_20
.LBB2_24:
	mov	w9, wzr
.LBB2_25:
	cmp	w9, w25
	b.lo	.LBB2_119
.LBB2_26:
	ldr	x9, [sp, #280]
	mov	x10, xzr
	cbz	x9, .LBB2_34
	ldr	x11, [sp, #384]
	cmp	x11, #3
	b.hi	.LBB2_34
	cmp	x9, #1
	mov	w10, #1
	b.eq	.LBB2_34
	ldr	x11, [sp, #392]
	cmp	x11, #3
	b.hi	.LBB2_34
	cmp	x9, #2
	mov	w10, #2
	b.eq	.LBB2_34
	ldr	x11, [sp, #400]
	cmp	x11, #3
	b.hi	.LBB2_34
	cmp	x9, #3
	mov	w10, #3
	b.eq	.LBB2_34
	ldr	x11, [sp, #408]
	cmp	x11, #4
	b.lo	.LBB2_35
.LBB2_34:
	cmp	x10, x9
	b.lo	.LBB2_119
.LBB2_35:
	add	x9, sp, #105
	ldr	x10, [sp, #408]
	mov	w11, #4
	ldur	q0, [x9, #255]
	add	x9, sp, #121
	mov	x2, x24
	ldur	q1, [x9, #255]
	add	x9, sp, #137
	stur	x10, [x29, #-16]
	ldur	q2, [x9, #255]
	add	x9, sp, #41
	mov	x1, x23
	stp	q0, q1, [x20, #352]
	ldur	q0, [x9, #255]
	add	x9, sp, #57
	ldur	q1, [x9, #255]
	add	x9, sp, #73
	str	q2, [x20, #384]
	ldur	q2, [x9, #255]
	add	x9, sp, #89
	stp	q0, q1, [x20, #288]
	ldur	q0, [x9, #255]
	add	x9, sp, #25
	ldur	q1, [x9, #255]
	add	x9, sp, #9
	stp	q2, q0, [x20, #320]
	ldur	q0, [x9, #255]
	stp	q0, q1, [x20, #256]
	ldur	x9, [x29, #-144]
	cmp	x9, #4
	csel	x10, x9, x11, lo
	cbz	x9, .LBB2_108
	sub	x11, x10, #1
	sub	x13, x29, #160
	cmp	x11, #4
	b.lo	.LBB2_47
	ldur	x14, [x29, #-72]
	mov	x17, xzr
	and	x12, x11, #0xfffffffffffffffc
	add	x15, x13, #120
	sub	x16, x10, #1
	b	.LBB2_41
.LBB2_38:
	orr	x17, x17, #0x1
.LBB2_39:
	cmp	x17, x18
	b.lo	.LBB2_119
.LBB2_40:
	sub	x16, x16, #4
	add	x15, x15, #32
	mov	x17, x18
	cmp	x16, #3
	b.ls	.LBB2_48
.LBB2_41:
	cmn	x17, #4
	add	x18, x17, #4
	b.eq	.LBB2_40
	ldur	x0, [x15, #-24]
	cmp	x0, x14
	b.eq	.LBB2_39
	ldur	x0, [x15, #-16]
	cmp	x0, x14
	b.eq	.LBB2_38
	ldur	x0, [x15, #-8]
	cmp	x0, x14
	b.ne	.LBB2_46
	orr	x17, x17, #0x2
	b	.LBB2_39
.LBB2_46:
	ldr	x0, [x15]
	add	x17, x17, #3
	cmp	x0, x14
	csel	x17, x17, x18, eq
	b	.LBB2_39
.LBB2_47:
	mov	x12, xzr
.LBB2_48:
	cmp	x12, x11
	b.hs	.LBB2_53
	ldur	x14, [x29, #-72]
	add	x13, x13, #96
.LBB2_50:
	ldr	x15, [x13, x12, lsl #3]
	cmp	x15, x14
	b.eq	.LBB2_52
	add	x12, x12, #1
	cmp	x11, x12
	b.ne	.LBB2_50
	b	.LBB2_53
.LBB2_52:
	cmp	x12, x11
	b.lo	.LBB2_119
.LBB2_53:
	cmp	x9, #1
	b.eq	.LBB2_108
	sub	x11, x10, #2
	sub	x13, x29, #160
	cmp	x11, #4
	b.lo	.LBB2_65
	ldur	x14, [x29, #-64]
	mov	x17, xzr
	and	x12, x11, #0xfffffffffffffffc
	add	x15, x13, #128
	sub	x16, x10, #2
	b	.LBB2_59
.LBB2_56:
	orr	x17, x17, #0x1
.LBB2_57:
	cmp	x17, x18
	b.lo	.LBB2_119
.LBB2_58:
	sub	x16, x16, #4
	add	x15, x15, #32
	mov	x17, x18
	cmp	x16, #3
	b.ls	.LBB2_66
.LBB2_59:
	cmn	x17, #4
	add	x18, x17, #4
	b.eq	.LBB2_58
	ldur	x0, [x15, #-24]
	cmp	x0, x14
	b.eq	.LBB2_57
	ldur	x0, [x15, #-16]
	cmp	x0, x14
	b.eq	.LBB2_56
	ldur	x0, [x15, #-8]
	cmp	x0, x14
	b.ne	.LBB2_64
	orr	x17, x17, #0x2
	b	.LBB2_57
.LBB2_64:
	ldr	x0, [x15]
	add	x17, x17, #3
	cmp	x0, x14
	csel	x17, x17, x18, eq
	b	.LBB2_57
.LBB2_65:
	mov	x12, xzr
.LBB2_66:
	cmp	x12, x11
	b.hs	.LBB2_71
	ldur	x14, [x29, #-64]
	add	x13, x13, #104
.LBB2_68:
	ldr	x15, [x13, x12, lsl #3]
	cmp	x15, x14
	b.eq	.LBB2_70
	add	x12, x12, #1
	cmp	x11, x12
	b.ne	.LBB2_68
	b	.LBB2_71
.LBB2_70:
	cmp	x12, x11
	b.lo	.LBB2_119
.LBB2_71:
	cmp	x9, #2
	b.eq	.LBB2_108
	sub	x11, x10, #3
	sub	x13, x29, #160
	cmp	x11, #4
	b.lo	.LBB2_83
	ldur	x14, [x29, #-56]
	mov	x17, xzr
	and	x12, x11, #0xfffffffffffffffc
	add	x15, x13, #136
	sub	x16, x10, #3
	b	.LBB2_77
.LBB2_74:
	orr	x17, x17, #0x1
.LBB2_75:
	cmp	x17, x18
	b.lo	.LBB2_119
.LBB2_76:
	sub	x16, x16, #4
	add	x15, x15, #32
	mov	x17, x18
	cmp	x16, #3
	b.ls	.LBB2_84
.LBB2_77:
	cmn	x17, #4
	add	x18, x17, #4
	b.eq	.LBB2_76
	ldur	x0, [x15, #-24]
	cmp	x0, x14
	b.eq	.LBB2_75
	ldur	x0, [x15, #-16]
	cmp	x0, x14
	b.eq	.LBB2_74
	ldur	x0, [x15, #-8]
	cmp	x0, x14
	b.ne	.LBB2_82
	orr	x17, x17, #0x2
	b	.LBB2_75
.LBB2_82:
	ldr	x0, [x15]
	add	x17, x17, #3
	cmp	x0, x14
	csel	x17, x17, x18, eq
	b	.LBB2_75
.LBB2_83:
	mov	x12, xzr
.LBB2_84:
	cmp	x12, x11
	b.hs	.LBB2_90
	ldur	x14, [x29, #-56]
	add	x13, x13, #112
.LBB2_86:
	ldr	x15, [x13, x12, lsl #3]
	cmp	x15, x14
	b.eq	.LBB2_89
	add	x12, x12, #1
	cmp	x11, x12
	b.ne	.LBB2_86
	b	.LBB2_90
.LBB2_88:
	mov	w9, #1
	b	.LBB2_25
.LBB2_89:
	cmp	x12, x11
	b.lo	.LBB2_119
.LBB2_90:
	cmp	x9, #3
	b.eq	.LBB2_108
	sub	x9, x10, #4
	sub	x11, x29, #160
	cmp	x9, #4
	b.lo	.LBB2_102
	ldur	x12, [x29, #-48]
	mov	x15, xzr
	and	x10, x9, #0xfffffffffffffffc
	add	x13, x11, #144
	mov	x14, x9
	b	.LBB2_96
.LBB2_93:
	orr	x15, x15, #0x1
.LBB2_94:
	cmp	x15, x16
	b.lo	.LBB2_119
.LBB2_95:
	sub	x14, x14, #4
	add	x13, x13, #32
	mov	x15, x16
	cmp	x14, #3
	b.ls	.LBB2_103
.LBB2_96:
	cmn	x15, #4
	add	x16, x15, #4
	b.eq	.LBB2_95
	ldur	x17, [x13, #-24]
	cmp	x17, x12
	b.eq	.LBB2_94
	ldur	x17, [x13, #-16]
	cmp	x17, x12
	b.eq	.LBB2_93
	ldur	x17, [x13, #-8]
	cmp	x17, x12
	b.ne	.LBB2_101
	orr	x15, x15, #0x2
	b	.LBB2_94
.LBB2_101:
	ldr	x17, [x13]
	add	x15, x15, #3
	cmp	x17, x12
	csel	x15, x15, x16, eq
	b	.LBB2_94
.LBB2_102:
	mov	x10, xzr
.LBB2_103:
	cmp	x10, x9
	b.hs	.LBB2_108
	ldur	x12, [x29, #-48]
	add	x11, x11, #120
.LBB2_105:
	ldr	x13, [x11, x10, lsl #3]
	cmp	x13, x12
	b.eq	.LBB2_107
	add	x10, x10, #1
	cmp	x9, x10
	b.ne	.LBB2_105
	b	.LBB2_108
.LBB2_107:
	cmp	x10, x9
	b.lo	.LBB2_119
.LBB2_108:
	ldr	x10, [sp, #280]
	sub	x9, x10, #1
	cmp	x9, #3
	b.hi	.LBB2_119
	ldr	x9, [sp, #288]
	ldr	x11, [sp, #320]
	sub	x12, x9, #1
	sub	x13, x11, #1
	orr	x12, x13, x12
	cmp	x12, #3
	b.hi	.LBB2_119
	mul	x9, x11, x9
	cmp	x10, #1
	b.ne	.LBB2_113
.LBB2_111:
	cmp	x9, #11
	b.hs	.LBB2_119
	add	x0, sp, #8
	mov	x23, x8
	bl	"jpeg_header_rules::frame_of"
	ldur	q0, [x22, #56]
	ldur	q1, [x22, #72]
	add	x8, x23, #136
	ldur	q2, [x22, #24]
	ldur	q3, [x22, #40]
	ldur	q4, [x22, #88]
	stp	q0, q1, [x20, #32]
	ldur	q5, [x22, #104]
	stur	q0, [x23, #72]
	ldur	q0, [sp, #24]
	stur	q1, [x23, #88]
	ldur	q1, [sp, #8]
	stur	q0, [x23, #152]
	ldur	q0, [sp, #88]
	stp	q2, q3, [x20]
	stur	q0, [x23, #216]
	ldur	q0, [sp, #56]
	stur	q2, [x23, #40]
	ldur	q2, [sp, #72]
	stur	q0, [x23, #184]
	ldur	q0, [sp, #136]
	stur	q1, [x23, #136]
	ldur	q1, [sp, #40]
	str	q0, [x8, #128]
	movi	v0.2d, #0000000000000000
	ldr	x8, [sp, #152]
	stur	q2, [x23, #200]
	ldur	q2, [sp, #104]
	stur	q1, [x23, #168]
	ldur	q1, [sp, #120]
	stp	x8, x19, [x23, #280]
	add	x8, x23, #296
	stp	q4, q5, [x20, #64]
	stp	xzr, xzr, [x23]
	stp	xzr, xzr, [x23, #24]
	str	x21, [x23, #16]
	stur	q5, [x23, #120]
	stur	q4, [x23, #104]
	stur	q3, [x23, #56]
	stur	q1, [x23, #248]
	stur	q2, [x23, #232]
	stp	q0, q0, [x8]
	stp	q0, q0, [x8, #32]
	str	q0, [x8, #64]
	str	xzr, [x23, #376]
	b	.LBB2_22
.LBB2_113:
	ldr	x11, [sp, #296]
	ldr	x12, [sp, #328]
	sub	x13, x11, #1
	sub	x14, x12, #1
	orr	x13, x14, x13
	cmp	x13, #3
	b.hi	.LBB2_119
	madd	x9, x12, x11, x9
	cmp	x10, #2
	b.eq	.LBB2_111
	ldr	x11, [sp, #304]
	ldr	x12, [sp, #336]
	sub	x13, x11, #1
	sub	x14, x12, #1
	orr	x13, x14, x13
	cmp	x13, #3
	b.hi	.LBB2_119
	madd	x9, x12, x11, x9
	cmp	x10, #3
	b.eq	.LBB2_111
	ldr	x10, [sp, #312]
	ldr	x11, [sp, #344]
	sub	x12, x10, #1
	sub	x13, x11, #1
	orr	x12, x13, x12
	cmp	x12, #3
	b.hi	.LBB2_119
	madd	x9, x11, x10, x9
	b	.LBB2_111
.LBB2_119:
	movi	v0.2d, #0000000000000000
	adrp	x9, .LCPI2_1
	ldr	q1, [x9, :lo12:.LCPI2_1]
	stp	q1, q0, [x8]
	stp	q0, q0, [x8, #32]
	stp	q0, q0, [x8, #64]
	stp	q0, q0, [x8, #96]
	stp	q0, q0, [x8, #128]
	stp	q0, q0, [x8, #160]
	stp	q0, q0, [x8, #192]
	stp	q0, q0, [x8, #224]
	stp	q0, q0, [x8, #256]
	stp	q0, q0, [x8, #288]
	stp	q0, q0, [x8, #320]
	stp	q0, q0, [x8, #352]
	b	.LBB2_22
.LBB2_120:
	ldrb	w8, [x23, #13]
	lsr	x10, x8, #4
	sub	x10, x10, #1
	cmp	x10, #3
	b.hi	.LBB2_128
	and	x8, x8, #0xf
	sub	x8, x8, #1
	cmp	x8, #3
	b.hi	.LBB2_128
	cmp	w25, #3
	mov	x8, x26
	b.eq	.LBB2_26
	sub	w10, w24, #14
	and	w10, w10, #0xff
	cmp	w10, #3
	b.lo	.LBB2_25
	ldrb	w8, [x23, #16]
	lsr	x10, x8, #4
	sub	x10, x10, #1
	cmp	x10, #3
	b.hi	.LBB2_129
	and	x8, x8, #0xf
	sub	x8, x8, #1
	cmp	x8, #3
	b.hi	.LBB2_129
	cmp	w25, #4
	mov	x8, x26
	b.eq	.LBB2_26
	sub	w10, w24, #17
	and	w10, w10, #0xff
	cmp	w10, #3
	mov	w10, #4
	csel	w9, w9, w10, lo
	b	.LBB2_25
.LBB2_128:
	mov	w9, #2
	mov	x8, x26
	b	.LBB2_25
.LBB2_129:
	mov	w9, #3
	mov	x8, x26
	b	.LBB2_25
.Lfunc_end2:
	.size	"jpeg_header_state::frame", .Lfunc_end2-"jpeg_header_state::frame"

	.section	".text.jpeg_header_rules::frame_of","ax",@progbits
	.p2align	2
	.type	"jpeg_header_rules::frame_of",@function
"jpeg_header_rules::frame_of":
	ldrb	w8, [x1, #5]
	cbz	w8, .LBB3_5
	cmp	x2, #8
	b.lo	.LBB3_6
	ldrb	w18, [x1, #7]
	cmp	w8, #1
	b.eq	.LBB3_7
.LBB3_3:
	cmp	x2, #11
	b.lo	.LBB3_23
	ldrb	w17, [x1, #10]
	mov	x3, xzr
	cmp	w8, #3
	mov	w13, wzr
	b.hs	.LBB3_24
	b	.LBB3_9
.LBB3_5:
	mov	w13, wzr
	mov	x18, xzr
	b	.LBB3_8
.LBB3_6:
	mov	x18, xzr
	cmp	w8, #1
	b.ne	.LBB3_3
.LBB3_7:
	mov	w13, wzr
.LBB3_8:
	mov	x17, xzr
	mov	x3, xzr
.LBB3_9:
	str	x23, [sp, #-48]!
	ldrb	w9, [x1, #3]
	ldrb	w10, [x1, #4]
	cmp	w8, #1
	ldrb	w11, [x1, #1]
	ldrb	w12, [x1, #2]
	stp	x22, x21, [sp, #16]
	stp	x20, x19, [sp, #32]
	b.ne	.LBB3_14
	cmp	x2, #7
	b.lo	.LBB3_19
	ldrb	w3, [x1, #6]
	mov	x18, xzr
	mov	x15, xzr
	mov	x17, xzr
	mov	x14, xzr
	mov	x13, xzr
	mov	x16, xzr
	mov	x4, xzr
	mov	w6, #1
	mov	w5, #1
.LBB3_12:
	cmp	x2, #9
	mov	x7, xzr
	b.lo	.LBB3_20
	mov	w19, wzr
	b	.LBB3_38
.LBB3_14:
	mov	w15, w13
	lsr	x14, x17, #4
	lsr	x5, x18, #4
	lsr	x13, x15, #4
	lsr	x16, x3, #4
	mov	w21, wzr
	mov	x7, xzr
	and	x15, x15, #0xf
	and	x17, x17, #0xf
	and	x6, x18, #0xf
	and	x18, x3, #0xf
	cbz	w8, .LBB3_18
	cmp	x2, #6
	b.ls	.LBB3_18
	ldrb	w3, [x1, #6]
	cmp	x2, #10
	b.lo	.LBB3_33
	ldrb	w4, [x1, #9]
	cmp	w8, #3
	b.hs	.LBB3_34
	b	.LBB3_12
.LBB3_18:
	mov	x4, x7
	mov	x3, x7
	mov	x19, x7
	mov	x20, x7
	mov	x22, x7
	mov	x23, x7
	b	.LBB3_40
.LBB3_19:
	mov	x7, xzr
	mov	x4, xzr
	mov	x3, xzr
	mov	x19, xzr
	mov	x16, xzr
	mov	x13, xzr
	mov	x14, xzr
	mov	x17, xzr
	mov	x15, xzr
	mov	x18, xzr
	mov	w21, wzr
	mov	x20, xzr
	mov	x22, xzr
	mov	x23, xzr
	mov	w5, #1
	mov	w6, #1
	b	.LBB3_40
.LBB3_20:
	mov	x19, x7
	mov	x20, x7
	cmp	w8, #1
	b.eq	.LBB3_39
.LBB3_21:
	cmp	x2, #12
	b.lo	.LBB3_28
	ldrb	w22, [x1, #11]
	mov	x23, xzr
	cmp	w8, #3
	mov	w21, wzr
	b.hs	.LBB3_29
	b	.LBB3_40
.LBB3_23:
	mov	x17, xzr
	mov	x3, xzr
	cmp	w8, #3
	mov	w13, wzr
	b.lo	.LBB3_9
.LBB3_24:
	cmp	x2, #14
	b.lo	.LBB3_9
	ldrb	w13, [x1, #13]
	cmp	w8, #3
	mov	x3, xzr
	b.eq	.LBB3_9
	cmp	x2, #17
	b.lo	.LBB3_9
	ldrb	w3, [x1, #16]
	b	.LBB3_9
.LBB3_28:
	mov	x22, xzr
	mov	x23, xzr
	cmp	w8, #3
	mov	w21, wzr
	b.lo	.LBB3_40
.LBB3_29:
	cmp	x2, #15
	b.lo	.LBB3_40
	ldrb	w21, [x1, #14]
	cmp	w8, #3
	mov	x23, xzr
	b.eq	.LBB3_40
	cmp	x2, #18
	b.lo	.LBB3_40
	ldrb	w23, [x1, #17]
	b	.LBB3_40
.LBB3_33:
	mov	x4, xzr
	cmp	w8, #3
	b.lo	.LBB3_12
.LBB3_34:
	cmp	x2, #13
	b.lo	.LBB3_12
	ldrb	w19, [x1, #12]
	cmp	w8, #3
	mov	x7, xzr
	b.eq	.LBB3_38
	cmp	x2, #16
	b.lo	.LBB3_38
	ldrb	w7, [x1, #15]
.LBB3_38:
	ldrb	w20, [x1, #8]
	mov	w19, w19
	cmp	w8, #1
	b.ne	.LBB3_21
.LBB3_39:
	mov	w21, wzr
	mov	x22, xzr
	mov	x23, xzr
.LBB3_40:
	stp	x8, x5, [x0, #16]
	mov	w8, w21
	orr	x9, x10, x9, lsl #8
	orr	x10, x12, x11, lsl #8
	stp	x4, x19, [x0, #96]
	stp	x7, x20, [x0, #112]
	ldp	x20, x19, [sp, #32]
	stp	x22, x8, [x0, #128]
	ldp	x22, x21, [sp, #16]
	stp	x9, x10, [x0]
	stp	x14, x13, [x0, #32]
	stp	x16, x6, [x0, #48]
	stp	x17, x15, [x0, #64]
	stp	x18, x3, [x0, #80]
	str	x23, [x0, #144]
	ldr	x23, [sp], #48
	ret
.Lfunc_end3:
	.size	"jpeg_header_rules::frame_of", .Lfunc_end3-"jpeg_header_rules::frame_of"

	.section	.rodata.cst16,"aM",@progbits,16
	.p2align	4, 0x0
.LCPI4_0:
	.xword	1
	.xword	3
.LCPI4_1:
	.xword	1
	.xword	4
.LCPI4_2:
	.xword	0
	.xword	1
	.section	".text.jpeg_header_state::scan","ax",@progbits
	.p2align	2
	.type	"jpeg_header_state::scan",@function
"jpeg_header_state::scan":
	str	x30, [sp, #-96]!
	stp	x28, x27, [sp, #16]
	stp	x26, x25, [sp, #32]
	stp	x24, x23, [sp, #48]
	stp	x22, x21, [sp, #64]
	stp	x20, x19, [sp, #80]
	sub	sp, sp, #608
	movi	v0.2d, #0000000000000000
	ldp	x15, x16, [x4, #120]
	ldp	x11, x12, [x4, #208]
	add	x9, sp, #176
	ldp	x13, x10, [x4, #224]
	ldr	x14, [x4, #136]
	ldr	x8, [x4, #272]
	stur	wzr, [sp, #43]
	stp	q0, q0, [x9]
	stp	q0, q0, [x9, #32]
	stp	q0, q0, [sp, #48]
	stp	q0, q0, [sp, #80]
	stp	q0, q0, [sp, #112]
	stp	q0, q0, [sp, #144]
	str	wzr, [sp, #40]
	cbz	x14, .LBB4_21
	sub	x17, x15, #1
	mov	w18, #65534
	cmp	x17, x18
	b.hi	.LBB4_28
	sub	x17, x16, #1
	mov	w18, #65534
	cmp	x17, x18
	b.hi	.LBB4_28
	cmp	x14, #4
	b.hi	.LBB4_28
	ldr	x17, [x4, #144]
	ldr	x6, [x4, #176]
	sub	x18, x17, #1
	sub	x7, x6, #1
	orr	x18, x7, x18
	cmp	x18, #3
	b.hi	.LBB4_28
	mul	x7, x6, x17
	cmp	x14, #1
	b.ne	.LBB4_22
.LBB4_6:
	cmp	x7, #10
	b.hi	.LBB4_28
	cbz	x2, .LBB4_28
	ldrb	w18, [x1]
	cmp	x14, x18
	b.ne	.LBB4_28
	lsl	x19, x14, #1
	add	x19, x19, #4
	cmp	x2, x19
	b.ne	.LBB4_28
	add	x19, x1, x2
	ldurb	w20, [x19, #-2]
	cmp	w20, #63
	b.ne	.LBB4_28
	ldurb	w20, [x19, #-3]
	ldurb	w19, [x19, #-1]
	orr	w19, w19, w20
	cbnz	w19, .LBB4_28
	cbz	w18, .LBB4_46
	ldrb	w19, [x1, #1]
	cmp	x11, x19
	b.ne	.LBB4_33
	cmp	w18, #1
	b.eq	.LBB4_41
	ldrb	w19, [x1, #3]
	cmp	x12, x19
	b.ne	.LBB4_36
	cmp	w18, #2
	b.eq	.LBB4_41
	ldrb	w19, [x1, #5]
	cmp	x13, x19
	b.ne	.LBB4_37
	cmp	w18, #3
	b.eq	.LBB4_41
	cmp	x2, #8
	b.lo	.LBB4_38
	ldrb	w19, [x1, #7]
	b	.LBB4_39
.LBB4_21:
	adrp	x8, .LCPI4_0
	stp	q0, q0, [x0, #32]
	ldr	q1, [x8, :lo12:.LCPI4_0]
	stp	q1, q0, [x0]
	b	.LBB4_31
.LBB4_22:
	ldr	x19, [x4, #152]
	ldr	x18, [x4, #184]
	sub	x20, x19, #1
	sub	x21, x18, #1
	orr	x20, x21, x20
	cmp	x20, #3
	b.hi	.LBB4_28
	madd	x7, x18, x19, x7
	cmp	x19, x17
	csel	x17, x19, x17, hi
	cmp	x18, x6
	csel	x6, x18, x6, hi
	cmp	x14, #2
	b.eq	.LBB4_6
	ldr	x19, [x4, #160]
	ldr	x18, [x4, #192]
	sub	x20, x19, #1
	sub	x21, x18, #1
	orr	x20, x21, x20
	cmp	x20, #3
	b.hi	.LBB4_28
	madd	x7, x18, x19, x7
	cmp	x19, x17
	csel	x17, x19, x17, hi
	cmp	x18, x6
	csel	x6, x18, x6, hi
	cmp	x14, #3
	b.eq	.LBB4_6
	ldr	x19, [x4, #168]
	ldr	x18, [x4, #200]
	sub	x20, x19, #1
	sub	x21, x18, #1
	orr	x20, x21, x20
	cmp	x20, #3
	b.hi	.LBB4_28
	madd	x7, x18, x19, x7
	cmp	x19, x17
	csel	x17, x19, x17, hi
	cmp	x18, x6
	csel	x6, x18, x6, hi
	b	.LBB4_6
.LBB4_28:
	adrp	x8, .LCPI4_1
.LBB4_29:
	ldr	q1, [x8, :lo12:.LCPI4_1]
.LBB4_30:
	stp	q1, q0, [x0]
	stp	q0, q0, [x0, #32]
.LBB4_31:
	stp	q0, q0, [x0, #64]
	stp	q0, q0, [x0, #96]
	stp	q0, q0, [x0, #128]
	stp	q0, q0, [x0, #160]
	stp	q0, q0, [x0, #192]
	stp	q0, q0, [x0, #224]
	stp	q0, q0, [x0, #256]
	stp	q0, q0, [x0, #288]
	stp	q0, q0, [x0, #320]
	stp	q0, q0, [x0, #352]
.LBB4_32:
	add	sp, sp, #608
	ldp	x20, x19, [sp, #80]
	ldp	x22, x21, [sp, #64]
	ldp	x24, x23, [sp, #48]
	ldp	x26, x25, [sp, #32]
	ldp	x28, x27, [sp, #16]
	ldr	x30, [sp], #96
	ret
.LBB4_33:
	mov	x18, xzr
.LBB4_34:
	cmp	x18, x14
	b.hs	.LBB4_41
	adrp	x8, .LCPI4_0
	movi	v0.2d, #0000000000000000
	ldr	q1, [x8, :lo12:.LCPI4_0]
	b	.LBB4_30
.LBB4_36:
	mov	w18, #1
	b	.LBB4_34
.LBB4_37:
	mov	w18, #2
	b	.LBB4_34
.LBB4_38:
	mov	x19, xzr
.LBB4_39:
	cmp	x19, x10
	b.ne	.LBB4_88
	cmp	w18, #4
	b.ne	.LBB4_89
.LBB4_41:
	mov	w18, #2
	mov	x19, x14
	b	.LBB4_43
.LBB4_42:
	subs	x19, x19, #1
	add	x18, x18, #2
	b.eq	.LBB4_46
.LBB4_43:
	cmp	x18, x2
	b.hs	.LBB4_42
	ldrb	w20, [x1, x18]
	tst	w20, #0xcccccccc
	b.eq	.LBB4_42
	adrp	x8, .LCPI4_1
	movi	v0.2d, #0000000000000000
	b	.LBB4_29
.LBB4_46:
	ldrb	w28, [x1, #2]
	cmp	x14, #1
	b.ne	.LBB4_48
	mov	w26, wzr
	mov	w2, wzr
	mov	x18, xzr
	b	.LBB4_53
.LBB4_48:
	ldrb	w2, [x1, #4]
	cmp	x14, #3
	b.lo	.LBB4_51
	ldrb	w26, [x1, #6]
	cmp	x14, #3
	b.ne	.LBB4_52
	mov	x18, xzr
	b	.LBB4_53
.LBB4_51:
	mov	w26, wzr
	mov	x18, xzr
	b	.LBB4_53
.LBB4_52:
	ldrb	w18, [x1, #8]
.LBB4_53:
	lsr	x19, x15, #16
	mov	x1, xzr
	mov	w27, w2
	cbnz	x19, .LBB4_56
	sub	x2, x17, #1
	cmp	x2, #3
	b.hi	.LBB4_56
	lsl	w17, w17, #3
	and	w1, w15, #0xffff
	and	w2, w17, #0xfff8
	udiv	w1, w1, w2
	msub	w17, w1, w17, w15
	tst	w17, #0xffff
	cinc	x17, x1, ne
	mul	x1, x17, x7
.LBB4_56:
	lsr	x7, x16, #16
	mov	x17, xzr
	add	x2, sp, #240
	cbnz	x7, .LBB4_59
	sub	x7, x6, #1
	cmp	x7, #3
	b.hi	.LBB4_59
	lsl	w17, w6, #3
	and	w6, w16, #0xffff
	and	w7, w17, #0xfff8
	udiv	w6, w6, w7
	msub	w17, w6, w17, w16
	tst	w17, #0xffff
	cinc	x17, x6, ne
	mul	x17, x17, x1
.LBB4_59:
	ldp	q0, q1, [x4, #240]
	lsr	x1, x28, #4
	lsr	x6, x27, #4
	mov	w7, w26
	lsr	x21, x18, #4
	lsr	x19, x7, #4
	and	x23, x7, #0xf
	lsl	x25, x17, #6
	stur	q0, [x9, #184]
	ldur	q0, [x4, #56]
	and	x20, x28, #0xf
	stur	q1, [x9, #200]
	ldur	q1, [x4, #72]
	and	x24, x18, #0xf
	stur	q0, [x9, #248]
	ldur	q0, [x4, #88]
	stur	q1, [x2, #200]
	ldur	q1, [x4, #104]
	stur	q0, [x2, #216]
	ldur	q0, [x4, #24]
	stur	q1, [x2, #232]
	ldur	q1, [x4, #40]
	stur	q0, [x2, #152]
	ldr	x7, [sp, #424]
	stur	q1, [x2, #168]
	mul	x2, x16, x15
	ldr	x30, [sp, #392]
	stp	x1, x6, [sp, #488]
	cmp	x7, #0
	ldr	x7, [sp, #360]
	str	x6, [sp, #616]
	ccmp	x30, #0, #4, ne
	stp	x21, x19, [sp, #24]
	cmp	x7, #3
	stp	x19, x21, [sp, #504]
	add	x19, sp, #240
	and	x21, x27, #0xf
	mul	x6, x2, x14
	mov	w2, #3136
	add	x30, x19, #184
	str	x20, [sp, #520]
	str	x21, [sp, #528]
	madd	x22, x17, x2, x6
	add	x2, x19, #152
	str	x23, [sp, #536]
	str	x24, [sp, #544]
	str	x8, [sp, #552]
	str	x5, [sp, #560]
	str	x17, [sp, #568]
	str	x22, [sp, #16]
	str	x22, [sp, #592]
	add	x22, x19, #361
	add	x19, x19, #216
	str	x25, [sp, #576]
	str	x6, [sp, #584]
	strb	w3, [sp, #600]
	str	wzr, [x22]
	str	wzr, [sp, #604]
	b.hi	.LBB4_87
	ldr	x7, [x2, x7, lsl #3]
	cbz	x7, .LBB4_87
	cmp	w28, #63
	b.hi	.LBB4_87
	ldr	x7, [x30, x1, lsl #3]
	cbz	x7, .LBB4_87
	cmp	x20, #3
	b.hi	.LBB4_87
	ldr	x7, [x19, x20, lsl #3]
	cbz	x7, .LBB4_87
	cmp	x14, #1
	b.ne	.LBB4_67
.LBB4_66:
	ldp	q0, q1, [x4, #144]
	adrp	x18, .LCPI4_2
	stp	q0, q1, [x9]
	ldp	q0, q2, [x4, #176]
	stp	q0, q2, [x9, #32]
	ldp	q1, q0, [x4, #240]
	ldur	q2, [x4, #56]
	stp	q1, q0, [sp, #144]
	ldur	q0, [x4, #72]
	ldur	q1, [x4, #88]
	stp	q2, q0, [sp, #80]
	ldur	q0, [x4, #104]
	ldur	q2, [x4, #24]
	stp	q1, q0, [sp, #112]
	ldur	q1, [x4, #40]
	ldr	q0, [x18, :lo12:.LCPI4_2]
	stp	x24, x8, [x0, #320]
	ldr	x8, [sp, #16]
	stp	q2, q1, [sp, #48]
	str	q0, [x0]
	ldp	q1, q0, [x9, #32]
	str	x8, [x0, #368]
	add	x8, x0, #377
	stp	x15, x16, [x0, #16]
	stur	q0, [x0, #88]
	stur	q1, [x0, #72]
	ldp	q1, q0, [x9]
	ldr	x9, [sp, #616]
	str	x14, [x0, #32]
	stp	x11, x12, [x0, #104]
	stur	q0, [x0, #56]
	stur	q1, [x0, #40]
	ldp	q1, q0, [sp, #144]
	stp	x1, x9, [x0, #264]
	ldr	x9, [sp, #32]
	stp	x13, x10, [x0, #120]
	stur	q0, [x0, #152]
	ldp	q2, q0, [sp, #48]
	stur	q1, [x0, #136]
	str	x9, [x0, #280]
	ldr	x9, [sp, #24]
	stur	q0, [x0, #184]
	ldp	q1, q0, [sp, #112]
	stur	q2, [x0, #168]
	stp	x9, x20, [x0, #288]
	stur	q0, [x0, #248]
	ldp	q2, q0, [sp, #80]
	stur	q1, [x0, #232]
	stp	x21, x23, [x0, #304]
	stur	q0, [x0, #216]
	stur	q2, [x0, #200]
	stp	x5, x17, [x0, #336]
	stp	x25, x6, [x0, #352]
	strb	w3, [x0, #376]
	str	wzr, [x0, #380]
	str	wzr, [x8]
	b	.LBB4_32
.LBB4_67:
	ldr	x7, [sp, #368]
	cmp	x7, #3
	b.hi	.LBB4_87
	ldr	x7, [x2, x7, lsl #3]
	cbz	x7, .LBB4_87
	cmp	w27, #63
	b.hi	.LBB4_87
	ldr	x7, [sp, #616]
	ldr	x7, [x30, x7, lsl #3]
	cbz	x7, .LBB4_87
	cmp	x21, #3
	b.hi	.LBB4_87
	ldr	x7, [x19, x21, lsl #3]
	cbz	x7, .LBB4_87
	cmp	x14, #2
	b.eq	.LBB4_66
	ldr	x7, [sp, #376]
	cmp	x7, #3
	b.hi	.LBB4_87
	ldr	x7, [x2, x7, lsl #3]
	cbz	x7, .LBB4_87
	cmp	w26, #63
	b.hi	.LBB4_87
	ldr	x7, [sp, #32]
	ldr	x7, [x30, x7, lsl #3]
	cbz	x7, .LBB4_87
	cmp	x23, #3
	b.hi	.LBB4_87
	ldr	x7, [x19, x23, lsl #3]
	cbz	x7, .LBB4_87
	cmp	x14, #3
	b.eq	.LBB4_66
	ldr	x7, [sp, #384]
	cmp	x7, #3
	b.hi	.LBB4_87
	ldr	x2, [x2, x7, lsl #3]
	cbz	x2, .LBB4_87
	cmp	x18, #63
	b.hi	.LBB4_87
	ldr	x18, [sp, #24]
	ldr	x18, [x30, x18, lsl #3]
	cbz	x18, .LBB4_87
	cmp	x24, #3
	b.hi	.LBB4_87
	ldr	x18, [x19, x24, lsl #3]
	cbnz	x18, .LBB4_66
.LBB4_87:
	ldp	q0, q1, [x9]
	adrp	x8, .LCPI4_0
	stp	xzr, xzr, [x0, #24]
	str	xzr, [x0, #16]
	stur	q0, [x0, #40]
	ldr	q0, [x8, :lo12:.LCPI4_0]
	add	x8, x0, #264
	stur	q1, [x0, #56]
	str	q0, [x0]
	ldp	q1, q0, [x9, #32]
	ldur	w9, [sp, #43]
	strb	wzr, [x0, #376]
	stur	q1, [x0, #72]
	stur	q0, [x0, #88]
	ldp	q0, q1, [sp, #144]
	str	w9, [x0, #380]
	add	x9, x0, #377
	stur	q1, [x0, #152]
	stur	q0, [x0, #136]
	ldp	q1, q0, [sp, #80]
	stur	q1, [x0, #200]
	stur	q0, [x0, #216]
	ldp	q1, q0, [sp, #112]
	stur	q1, [x0, #232]
	stur	q0, [x0, #248]
	ldp	q1, q0, [sp, #48]
	stur	q1, [x0, #168]
	movi	v1.2d, #0000000000000000
	stur	q0, [x0, #184]
	stp	q1, q1, [x8]
	stp	q1, q1, [x8, #32]
	stp	q1, q1, [x8, #64]
	str	q1, [x8, #96]
	ldr	w8, [sp, #40]
	stur	q1, [x0, #104]
	stur	q1, [x0, #120]
	str	w8, [x9]
	b	.LBB4_32
.LBB4_88:
	mov	w18, #3
	b	.LBB4_34
.LBB4_89:
	mov	w18, #4
	mov	w19, #9
	b	.LBB4_91
.LBB4_90:
	add	x18, x18, #1
	add	x19, x19, #2
	cmp	x14, x18
	b.eq	.LBB4_41
.LBB4_91:
	cmp	x19, x2
	b.hs	.LBB4_90
	ldrb	w20, [x1, x19]
	cbz	w20, .LBB4_90
	b	.LBB4_34
.Lfunc_end4:
	.size	"jpeg_header_state::scan", .Lfunc_end4-"jpeg_header_state::scan"

	.section	".text.jpeg_scan_plan::Plan::of","ax",@progbits
	.p2align	2
	.type	"jpeg_scan_plan::Plan::of",@function
"jpeg_scan_plan::Plan::of":
	sub	sp, sp, #240
	ldr	x8, [x2, #320]
	str	x27, [sp, #160]
	stp	x26, x25, [sp, #176]
	cmp	x1, x8
	stp	x24, x23, [sp, #192]
	stp	x22, x21, [sp, #208]
	stp	x20, x19, [sp, #224]
	b.lo	.LBB5_24
	ldr	x7, [x2, #16]
	sub	x9, x7, #1
	cmp	x9, #3
	b.hi	.LBB5_24
	ldr	x9, [x2, #24]
	ldr	x10, [x2, #56]
	sub	x11, x9, #1
	sub	x12, x10, #1
	orr	x11, x12, x11
	cmp	x11, #3
	b.hi	.LBB5_24
	mul	x9, x10, x9
	ldp	x15, x12, [x2, #120]
	ldp	x13, x14, [x2, #136]
	ldr	x10, [x2, #312]
	ldp	x16, x17, [x2, #248]
	cmp	x7, #1
	ldp	x18, x1, [x2, #264]
	ldr	x11, [x2, #328]
	ldp	x3, x4, [x2, #280]
	ldp	x5, x6, [x2, #296]
	b.ne	.LBB5_18
.LBB5_4:
	cmp	x9, #10
	b.hi	.LBB5_24
	ldur	q0, [x2, #184]
	ldur	q1, [x2, #200]
	cmp	x16, #3
	stp	q0, q1, [sp]
	b.hi	.LBB5_26
	mov	x7, sp
	ldr	x16, [x7, x16, lsl #3]
	cmp	x17, #3
	b.ls	.LBB5_27
.LBB5_7:
	mov	x17, xzr
	cmp	x18, #3
	b.ls	.LBB5_28
.LBB5_8:
	mov	x18, xzr
	cmp	x1, #3
	b.ls	.LBB5_29
.LBB5_9:
	mov	x1, xzr
	ldur	q0, [x2, #216]
	ldur	q1, [x2, #232]
	cmp	x3, #3
	stp	q0, q1, [sp]
	b.ls	.LBB5_30
.LBB5_10:
	mov	x3, xzr
	cmp	x4, #3
	b.ls	.LBB5_31
.LBB5_11:
	mov	x4, xzr
	cmp	x5, #3
	b.ls	.LBB5_32
.LBB5_12:
	mov	x5, xzr
	cmp	x6, #3
	b.ls	.LBB5_33
.LBB5_13:
	mov	x6, xzr
	ldur	q0, [x2, #152]
	ldur	q1, [x2, #168]
	cmp	x15, #3
	stp	q0, q1, [sp]
	b.ls	.LBB5_34
.LBB5_14:
	mov	x7, xzr
	cmp	x12, #3
	b.ls	.LBB5_35
.LBB5_15:
	mov	x19, xzr
	cmp	x13, #3
	b.ls	.LBB5_36
.LBB5_16:
	mov	x20, xzr
	cmp	x14, #3
	b.ls	.LBB5_37
.LBB5_17:
	mov	x21, xzr
	b	.LBB5_38
.LBB5_18:
	ldr	x19, [x2, #32]
	ldr	x20, [x2, #64]
	sub	x21, x19, #1
	sub	x22, x20, #1
	orr	x21, x22, x21
	cmp	x21, #3
	b.hi	.LBB5_24
	madd	x9, x20, x19, x9
	cmp	x7, #2
	b.eq	.LBB5_4
	ldr	x19, [x2, #40]
	ldr	x20, [x2, #72]
	sub	x21, x19, #1
	sub	x22, x20, #1
	orr	x21, x22, x21
	cmp	x21, #3
	b.hi	.LBB5_24
	madd	x9, x20, x19, x9
	cmp	x7, #3
	b.eq	.LBB5_4
	ldr	x7, [x2, #48]
	ldr	x19, [x2, #80]
	sub	x20, x7, #1
	sub	x21, x19, #1
	orr	x20, x21, x20
	cmp	x20, #3
	b.hi	.LBB5_24
	madd	x9, x19, x7, x9
	b	.LBB5_4
.LBB5_24:
	movi	v0.2d, #0000000000000000
	stp	q0, q0, [x0, #16]
	stp	q0, q0, [x0, #48]
	stp	q0, q0, [x0, #80]
	stp	q0, q0, [x0, #112]
	str	q0, [x0]
.LBB5_25:
	ldp	x20, x19, [sp, #224]
	ldr	x27, [sp, #160]
	ldp	x22, x21, [sp, #208]
	ldp	x24, x23, [sp, #192]
	ldp	x26, x25, [sp, #176]
	add	sp, sp, #240
	ret
.LBB5_26:
	mov	x16, xzr
	cmp	x17, #3
	b.hi	.LBB5_7
.LBB5_27:
	mov	x7, sp
	ldr	x17, [x7, x17, lsl #3]
	cmp	x18, #3
	b.hi	.LBB5_8
.LBB5_28:
	mov	x7, sp
	ldr	x18, [x7, x18, lsl #3]
	cmp	x1, #3
	b.hi	.LBB5_9
.LBB5_29:
	mov	x7, sp
	ldr	x1, [x7, x1, lsl #3]
	ldur	q0, [x2, #216]
	ldur	q1, [x2, #232]
	cmp	x3, #3
	stp	q0, q1, [sp]
	b.hi	.LBB5_10
.LBB5_30:
	mov	x7, sp
	ldr	x3, [x7, x3, lsl #3]
	cmp	x4, #3
	b.hi	.LBB5_11
.LBB5_31:
	mov	x7, sp
	ldr	x4, [x7, x4, lsl #3]
	cmp	x5, #3
	b.hi	.LBB5_12
.LBB5_32:
	mov	x7, sp
	ldr	x5, [x7, x5, lsl #3]
	cmp	x6, #3
	b.hi	.LBB5_13
.LBB5_33:
	mov	x7, sp
	ldr	x6, [x7, x6, lsl #3]
	ldur	q0, [x2, #152]
	ldur	q1, [x2, #168]
	cmp	x15, #3
	stp	q0, q1, [sp]
	b.hi	.LBB5_14
.LBB5_34:
	mov	x7, sp
	ldr	x7, [x7, x15, lsl #3]
	cmp	x12, #3
	b.hi	.LBB5_15
.LBB5_35:
	mov	x19, sp
	ldr	x19, [x19, x12, lsl #3]
	cmp	x13, #3
	b.hi	.LBB5_16
.LBB5_36:
	mov	x20, sp
	ldr	x20, [x20, x13, lsl #3]
	cmp	x14, #3
	b.hi	.LBB5_17
.LBB5_37:
	mov	x21, sp
	ldr	x21, [x21, x14, lsl #3]
.LBB5_38:
	ldp	q0, q1, [x2, #64]
	ldr	q2, [x2, #96]
	ldr	x22, [x2, #112]
	stp	x12, x13, [sp, #128]
	str	q2, [sp, #96]
	stp	q0, q1, [sp, #64]
	ldp	q0, q1, [x2]
	stp	x22, x15, [sp, #112]
	str	x14, [sp, #144]
	stp	q0, q1, [sp]
	ldp	q2, q0, [x2, #32]
	ldr	x22, [sp, #16]
	stp	q2, q0, [sp, #32]
	cbz	x22, .LBB5_44
	mov	x23, xzr
	mov	w24, #9
.LBB5_40:
	mov	x25, sp
	add	x25, x25, x23, lsl #3
	ldr	x26, [x25, #24]
	ldr	x25, [x25, #56]
	mul	x25, x25, x26
	subs	x24, x24, x25
	b.lo	.LBB5_43
	add	x23, x23, #1
	cmp	x22, x23
	b.ne	.LBB5_40
	mov	x23, x22
.LBB5_43:
	ubfiz	x22, x23, #2, #2
.LBB5_44:
	ldp	q0, q1, [x2, #64]
	ldr	q2, [x2, #96]
	ldr	x23, [x2, #112]
	stp	x12, x13, [sp, #128]
	str	q2, [sp, #96]
	stp	q0, q1, [sp, #64]
	ldp	q0, q1, [x2]
	stp	x23, x15, [sp, #112]
	str	x14, [sp, #144]
	stp	q0, q1, [sp]
	ldp	q2, q0, [x2, #32]
	ldr	x23, [sp, #16]
	stp	q2, q0, [sp, #32]
	cbz	x23, .LBB5_50
	mov	x24, xzr
	mov	w25, #8
.LBB5_46:
	mov	x26, sp
	add	x26, x26, x24, lsl #3
	ldr	x27, [x26, #24]
	ldr	x26, [x26, #56]
	mul	x26, x26, x27
	subs	x25, x25, x26
	b.lo	.LBB5_49
	add	x24, x24, #1
	cmp	x23, x24
	b.ne	.LBB5_46
	mov	x24, x23
.LBB5_49:
	and	x23, x24, #0x3
	orr	x22, x23, x22
.LBB5_50:
	ldp	q0, q1, [x2, #64]
	lsl	x22, x22, #2
	ldr	q2, [x2, #96]
	ldr	x23, [x2, #112]
	stp	x12, x13, [sp, #128]
	str	x14, [sp, #144]
	stp	q0, q1, [sp, #64]
	ldp	q0, q1, [x2]
	str	q2, [sp, #96]
	stp	x23, x15, [sp, #112]
	stp	q0, q1, [sp]
	ldp	q2, q0, [x2, #32]
	ldr	x23, [sp, #16]
	stp	q2, q0, [sp, #32]
	cbz	x23, .LBB5_56
	mov	x24, xzr
	mov	w25, #7
.LBB5_52:
	mov	x26, sp
	add	x26, x26, x24, lsl #3
	ldr	x27, [x26, #24]
	ldr	x26, [x26, #56]
	mul	x26, x26, x27
	subs	x25, x25, x26
	b.lo	.LBB5_55
	add	x24, x24, #1
	cmp	x23, x24
	b.ne	.LBB5_52
	mov	x24, x23
.LBB5_55:
	and	x23, x24, #0x3
	orr	x22, x23, x22
.LBB5_56:
	ldp	q0, q1, [x2, #64]
	lsl	x22, x22, #2
	ldr	q2, [x2, #96]
	ldr	x23, [x2, #112]
	stp	x12, x13, [sp, #128]
	str	x14, [sp, #144]
	stp	q0, q1, [sp, #64]
	ldp	q0, q1, [x2]
	str	q2, [sp, #96]
	stp	x23, x15, [sp, #112]
	stp	q0, q1, [sp]
	ldp	q2, q0, [x2, #32]
	ldr	x23, [sp, #16]
	stp	q2, q0, [sp, #32]
	cbz	x23, .LBB5_62
	mov	x24, xzr
	mov	w25, #6
.LBB5_58:
	mov	x26, sp
	add	x26, x26, x24, lsl #3
	ldr	x27, [x26, #24]
	ldr	x26, [x26, #56]
	mul	x26, x26, x27
	subs	x25, x25, x26
	b.lo	.LBB5_61
	add	x24, x24, #1
	cmp	x23, x24
	b.ne	.LBB5_58
	mov	x24, x23
.LBB5_61:
	and	x23, x24, #0x3
	orr	x22, x23, x22
.LBB5_62:
	ldp	q0, q1, [x2, #64]
	lsl	x22, x22, #2
	ldr	q2, [x2, #96]
	ldr	x23, [x2, #112]
	stp	x12, x13, [sp, #128]
	str	x14, [sp, #144]
	stp	q0, q1, [sp, #64]
	ldp	q0, q1, [x2]
	str	q2, [sp, #96]
	stp	x23, x15, [sp, #112]
	stp	q0, q1, [sp]
	ldp	q2, q0, [x2, #32]
	ldr	x23, [sp, #16]
	stp	q2, q0, [sp, #32]
	cbz	x23, .LBB5_68
	mov	x24, xzr
	mov	w25, #5
.LBB5_64:
	mov	x26, sp
	add	x26, x26, x24, lsl #3
	ldr	x27, [x26, #24]
	ldr	x26, [x26, #56]
	mul	x26, x26, x27
	subs	x25, x25, x26
	b.lo	.LBB5_67
	add	x24, x24, #1
	cmp	x23, x24
	b.ne	.LBB5_64
	mov	x24, x23
.LBB5_67:
	and	x23, x24, #0x3
	orr	x22, x23, x22
.LBB5_68:
	ldp	q0, q1, [x2, #64]
	lsl	x22, x22, #2
	ldr	q2, [x2, #96]
	ldr	x23, [x2, #112]
	stp	x12, x13, [sp, #128]
	str	x14, [sp, #144]
	stp	q0, q1, [sp, #64]
	ldp	q0, q1, [x2]
	str	q2, [sp, #96]
	stp	x23, x15, [sp, #112]
	stp	q0, q1, [sp]
	ldp	q2, q0, [x2, #32]
	ldr	x23, [sp, #16]
	stp	q2, q0, [sp, #32]
	cbz	x23, .LBB5_74
	mov	x24, xzr
	mov	w25, #4
.LBB5_70:
	mov	x26, sp
	add	x26, x26, x24, lsl #3
	ldr	x27, [x26, #24]
	ldr	x26, [x26, #56]
	mul	x26, x26, x27
	subs	x25, x25, x26
	b.lo	.LBB5_73
	add	x24, x24, #1
	cmp	x23, x24
	b.ne	.LBB5_70
	mov	x24, x23
.LBB5_73:
	and	x23, x24, #0x3
	orr	x22, x23, x22
.LBB5_74:
	ldp	q0, q1, [x2, #64]
	lsl	x22, x22, #2
	ldr	q2, [x2, #96]
	ldr	x23, [x2, #112]
	stp	x12, x13, [sp, #128]
	str	x14, [sp, #144]
	stp	q0, q1, [sp, #64]
	ldp	q0, q1, [x2]
	str	q2, [sp, #96]
	stp	x23, x15, [sp, #112]
	stp	q0, q1, [sp]
	ldp	q2, q0, [x2, #32]
	ldr	x23, [sp, #16]
	stp	q2, q0, [sp, #32]
	cbz	x23, .LBB5_80
	mov	x24, xzr
	mov	w25, #3
.LBB5_76:
	mov	x26, sp
	add	x26, x26, x24, lsl #3
	ldr	x27, [x26, #24]
	ldr	x26, [x26, #56]
	mul	x26, x26, x27
	subs	x25, x25, x26
	b.lo	.LBB5_79
	add	x24, x24, #1
	cmp	x23, x24
	b.ne	.LBB5_76
	mov	x24, x23
.LBB5_79:
	and	x23, x24, #0x3
	orr	x22, x23, x22
.LBB5_80:
	ldp	q0, q1, [x2, #64]
	lsl	x22, x22, #2
	ldr	q2, [x2, #96]
	ldr	x23, [x2, #112]
	stp	x12, x13, [sp, #128]
	str	x14, [sp, #144]
	stp	q0, q1, [sp, #64]
	ldp	q0, q1, [x2]
	str	q2, [sp, #96]
	stp	x23, x15, [sp, #112]
	stp	q0, q1, [sp]
	ldp	q2, q0, [x2, #32]
	ldr	x23, [sp, #16]
	stp	q2, q0, [sp, #32]
	cbz	x23, .LBB5_86
	mov	x24, xzr
	mov	w25, #2
.LBB5_82:
	mov	x26, sp
	add	x26, x26, x24, lsl #3
	ldr	x27, [x26, #24]
	ldr	x26, [x26, #56]
	mul	x26, x26, x27
	subs	x25, x25, x26
	b.lo	.LBB5_85
	add	x24, x24, #1
	cmp	x23, x24
	b.ne	.LBB5_82
	mov	x24, x23
.LBB5_85:
	and	x23, x24, #0x3
	orr	x22, x23, x22
.LBB5_86:
	ldp	q0, q1, [x2, #64]
	lsl	x22, x22, #2
	ldr	q2, [x2, #96]
	ldr	x23, [x2, #112]
	stp	x12, x13, [sp, #128]
	str	x14, [sp, #144]
	stp	q0, q1, [sp, #64]
	ldp	q0, q1, [x2]
	str	q2, [sp, #96]
	stp	x23, x15, [sp, #112]
	stp	q0, q1, [sp]
	ldp	q2, q0, [x2, #32]
	ldr	x23, [sp, #16]
	stp	q2, q0, [sp, #32]
	cbz	x23, .LBB5_92
	mov	x24, xzr
	mov	w25, #1
.LBB5_88:
	mov	x26, sp
	add	x26, x26, x24, lsl #3
	ldr	x27, [x26, #24]
	ldr	x26, [x26, #56]
	mul	x26, x26, x27
	subs	x25, x25, x26
	b.lo	.LBB5_91
	add	x24, x24, #1
	cmp	x23, x24
	b.ne	.LBB5_88
	mov	x24, x23
.LBB5_91:
	and	x23, x24, #0x3
	orr	x22, x23, x22
.LBB5_92:
	ldp	q0, q1, [x2, #64]
	ldr	q2, [x2, #96]
	stp	x12, x13, [sp, #128]
	mov	x12, xzr
	str	q2, [sp, #96]
	stp	q0, q1, [sp, #64]
	ldp	q0, q1, [x2]
	str	x14, [sp, #144]
	stp	q0, q1, [sp]
	ldp	q2, q0, [x2, #32]
	ldr	x2, [x2, #112]
	stp	x2, x15, [sp, #112]
	ldr	x15, [sp, #16]
	stp	q2, q0, [sp, #32]
	cbz	x15, .LBB5_97
.LBB5_93:
	mov	x13, sp
	add	x13, x13, x12, lsl #3
	ldr	x14, [x13, #24]
	ldr	x13, [x13, #56]
	mul	x13, x13, x14
	cbnz	x13, .LBB5_96
	add	x12, x12, #1
	cmp	x15, x12
	b.ne	.LBB5_93
	mov	x12, x15
.LBB5_96:
	and	x12, x12, #0x3
.LBB5_97:
	mov	w13, #1
	stp	x16, x17, [x0, #16]
	stp	x13, x8, [x0]
	orr	x8, x12, x22, lsl #2
	stp	x18, x1, [x0, #32]
	stp	x3, x4, [x0, #48]
	stp	x5, x6, [x0, #64]
	stp	x7, x19, [x0, #80]
	stp	x20, x21, [x0, #96]
	stp	x8, x9, [x0, #112]
	stp	x10, x11, [x0, #128]
	b	.LBB5_25
.Lfunc_end5:
	.size	"jpeg_scan_plan::Plan::of", .Lfunc_end5-"jpeg_scan_plan::Plan::of"

	.section	.rodata.cst16,"aM",@progbits,16
	.p2align	4, 0x0
.LCPI6_0:
	.byte	0
	.byte	1
	.byte	8
	.byte	16
	.byte	9
	.byte	2
	.byte	3
	.byte	10
	.byte	17
	.byte	24
	.byte	32
	.byte	25
	.byte	18
	.byte	11
	.byte	4
	.byte	5
.LCPI6_1:
	.byte	12
	.byte	19
	.byte	26
	.byte	33
	.byte	40
	.byte	48
	.byte	41
	.byte	34
	.byte	27
	.byte	20
	.byte	13
	.byte	6
	.byte	7
	.byte	14
	.byte	21
	.byte	28
.LCPI6_2:
	.byte	35
	.byte	42
	.byte	49
	.byte	56
	.byte	57
	.byte	50
	.byte	43
	.byte	36
	.byte	29
	.byte	22
	.byte	15
	.byte	23
	.byte	30
	.byte	37
	.byte	44
	.byte	51
.LCPI6_3:
	.byte	58
	.byte	59
	.byte	52
	.byte	45
	.byte	38
	.byte	31
	.byte	39
	.byte	46
	.byte	53
	.byte	60
	.byte	61
	.byte	54
	.byte	47
	.byte	55
	.byte	62
	.byte	63
	.section	".text.jpeg_scan::run::<#c44e4da361dd472c>","ax",@progbits
	.p2align	2
	.type	"jpeg_scan::run::<#c44e4da361dd472c>",@function
"jpeg_scan::run::<#c44e4da361dd472c>":
	str	x30, [sp, #-96]!
	stp	x28, x27, [sp, #16]
	stp	x26, x25, [sp, #32]
	stp	x24, x23, [sp, #48]
	stp	x22, x21, [sp, #64]
	stp	x20, x19, [sp, #80]
	sub	sp, sp, #1392
	str	xzr, [sp]
	ldur	q0, [x1, #88]
	ldur	q1, [x1, #104]
	ldr	x5, [x1, #16]
	ldp	x8, x13, [x1, #120]
	stp	q0, q1, [sp, #208]
	ldur	q0, [x1, #24]
	ldur	q1, [x1, #40]
	ldp	x12, x11, [x1]
	ldp	x14, x15, [x1, #136]
	stp	q0, q1, [sp, #144]
	ldur	q0, [x1, #72]
	ldur	q1, [x1, #56]
	str	x8, [sp, #240]
	stp	q1, q0, [sp, #176]
	cbz	x13, .LBB6_112
	udiv	x8, x15, x13
	msub	x9, x8, x13, x15
	cmp	x9, #0
	cinc	x21, x8, ne
	cbz	x21, .LBB6_91
	movi	v0.2d, #0000000000000000
	add	x9, sp, #408
	add	x10, sp, #816
	lsr	x6, x4, #6
	mov	x17, xzr
	mov	x16, xzr
	mov	x1, xzr
	mov	x27, xzr
	add	x18, x9, #24
	sub	x24, x14, #1
	add	x20, x9, #56
	add	x8, x9, #88
	add	x19, x10, #32
	add	x7, x10, #256
	neg	x22, x11
	mov	x9, x5
.LBB6_3:
	ldp	q1, q2, [sp, #192]
	and	x4, x27, #0xff
	mov	x27, x4
	ldr	q3, [sp, #224]
	ldr	x10, [sp, #240]
	bfi	x27, x1, #8, #8
	cmp	x15, x16
	stp	x12, x11, [sp, #408]
	stp	q1, q2, [x18, #48]
	ldp	q2, q4, [sp, #160]
	ldr	q1, [sp, #144]
	str	q3, [x18, #80]
	str	x5, [sp, #424]
	stp	q1, q2, [x18]
	str	x10, [x18, #96]
	str	q4, [x18, #32]
	str	x13, [sp, #536]
	str	x14, [sp, #544]
	str	x15, [sp, #552]
	b.ls	.LBB6_86
	stp	x8, x6, [sp, #128]
	str	x7, [sp, #120]
	cbz	x14, .LBB6_12
	cbz	x17, .LBB6_12
	udiv	x8, x17, x14
	mov	x10, x9
	msub	x6, x8, x14, x17
	cbnz	x6, .LBB6_13
	ubfiz	x10, x1, #8, #8
	mov	x1, #-1
	sub	w8, w8, #1
	mov	w6, #208
	cmp	x24, x17
	mov	w7, #3
	lsr	x10, x10, #8
	bfxil	x6, x8, #0, #3
	lsl	x10, x1, x10
	mov	w1, #208
	csel	x1, x6, x1, lo
	orr	x10, x10, x4
	cmn	x10, #1
	b.ne	.LBB6_111
	cmp	x9, x11
	b.hs	.LBB6_111
	mov	x8, xzr
	add	x4, x22, x9
	mov	x10, x12
.LBB6_10:
	ldrb	w6, [x10, x9]
	cmp	x6, #255
	b.ne	.LBB6_87
	sub	x8, x8, #1
	add	x10, x10, #1
	cmp	x4, x8
	b.ne	.LBB6_10
	b	.LBB6_103
.LBB6_12:
	mov	x10, x9
.LBB6_13:
	subs	x1, x15, x16
	ldr	x4, [sp, #528]
	mov	x8, xzr
	csel	x1, xzr, x1, lo
	mov	x6, x16
	str	q0, [sp, #384]
	cmp	x1, x13
	str	x20, [sp, #96]
	csel	x1, x1, x13, lo
	stp	x19, x1, [sp, #80]
.LBB6_14:
	add	x1, sp, #384
	movi	v0.2d, #0000000000000000
	and	x7, x4, #0x3
	bfi	x1, x4, #2, #2
	stp	x4, x7, [sp, #104]
	ldr	x4, [x18, x7, lsl #3]
	ldr	x20, [x20, x7, lsl #3]
	str	x6, [sp, #1400]
	mov	x6, xzr
	ldrsw	x1, [x1]
	mov	x30, x10
	lsr	x28, x27, #8
	mov	w7, #1
	stp	q0, q0, [sp, #256]
	stp	q0, q0, [sp, #288]
	stp	q0, q0, [sp, #320]
	stp	q0, q0, [sp, #352]
.LBB6_15:
	subs	x22, x5, x4
	b.ls	.LBB6_96
	cmp	x22, #16
	mov	w23, #16
	mov	x19, xzr
	add	x25, x12, x4
	add	x4, x4, #16
	csel	x23, x22, x23, lo
	b	.LBB6_19
.LBB6_17:
	sub	w28, w28, #1
	and	w22, w27, #0xff
	lsr	w22, w22, w28
	and	w26, w22, #0x1
	mov	w26, w26
	ldrb	w22, [x25], #1
	orr	x26, x26, x19, lsl #1
	subs	x19, x26, x22
	b.lo	.LBB6_26
.LBB6_18:
	subs	x23, x23, #1
	add	x4, x4, x22
	b.eq	.LBB6_96
.LBB6_19:
	tst	w28, #0xff
	b.ne	.LBB6_17
	cmp	x11, x10
	b.ls	.LBB6_97
	ldrb	w27, [x12, x10]
	add	x22, x10, #1
	cmp	w27, #255
	b.ne	.LBB6_25
	cmp	x11, x22
	b.ls	.LBB6_97
	ldrb	w22, [x12, x22]
	cbnz	w22, .LBB6_104
	add	x22, x10, #2
.LBB6_25:
	lsr	w26, w27, #7
	mov	w28, #7
	mov	x10, x22
	mov	w26, w26
	ldrb	w22, [x25], #1
	orr	x26, x26, x19, lsl #1
	subs	x19, x26, x22
	b.hs	.LBB6_18
.LBB6_26:
	add	x4, x26, x4
	cmp	x4, x5
	b.hs	.LBB6_34
	ldrb	w19, [x12, x4]
	cbz	x6, .LBB6_39
	cmp	w19, #240
	b.eq	.LBB6_44
	cbz	w19, .LBB6_60
	and	x22, x19, #0xf
	mov	w7, #3
	sub	x4, x22, #1
	cmp	x4, #9
	b.hi	.LBB6_105
	lsr	x4, x19, #4
	add	x19, x4, x6
	cmp	x19, #64
	b.hs	.LBB6_105
	mov	x19, x22
	and	x23, x28, #0xff
	add	x6, x4, x6
	cmp	x22, x23
	b.hi	.LBB6_41
.LBB6_33:
	mov	x4, xzr
	mov	x7, x19
	b	.LBB6_36
.LBB6_34:
	cbnz	x6, .LBB6_60
	mov	x19, xzr
	mov	x4, xzr
	mov	x7, xzr
	and	x23, x28, #0xff
.LBB6_36:
	mov	w22, w27
	sub	x28, x23, x7
	mov	x23, #-1
	and	x22, x22, #0xff
	lsl	x23, x23, x7
	lsl	x4, x4, x7
	lsr	x22, x22, x28
	mov	w7, #1
	lsl	x7, x7, x19
	bic	x22, x22, x23
	add	x4, x22, x4
	sub	w19, w4, w7
	cmp	x7, x4, lsl #1
	csinc	w4, w4, w19, ls
	cbnz	x6, .LBB6_38
	add	x4, x1, w4, sxth
	add	x7, x4, #2048
	cmp	x7, #4095
	b.hi	.LBB6_110
.LBB6_38:
	add	x19, sp, #256
	add	x7, x6, #1
	strh	w4, [x19, x6, lsl #1]
	mov	x6, x7
	cmp	x7, #64
	mov	x4, x20
	b.lo	.LBB6_15
	b	.LBB6_60
.LBB6_39:
	cmp	w19, #11
	b.hi	.LBB6_110
	and	x23, x28, #0xff
	add	x6, xzr, x6
	cmp	x19, x23
	b.ls	.LBB6_33
.LBB6_41:
	cmp	x11, x10
	b.ls	.LBB6_97
	ldrb	w25, [x12, x10]
	add	x4, x10, #1
	cmp	x25, #255
	b.eq	.LBB6_46
	mov	x10, x4
	b	.LBB6_49
.LBB6_44:
	cmp	x6, #49
	b.hs	.LBB6_110
	add	x6, x6, #16
	cmp	x6, #64
	mov	x4, x20
	b.lo	.LBB6_15
	b	.LBB6_60
.LBB6_46:
	cmp	x11, x4
	b.ls	.LBB6_97
	ldrb	w4, [x12, x4]
	cbnz	w4, .LBB6_104
	add	x10, x10, #2
.LBB6_49:
	mov	x4, #-1
	lsr	x22, x25, #7
	mvn	x7, x23
	lsl	x4, x4, x23
	add	x7, x19, x7
	cmp	x7, #8
	bic	w4, w27, w4
	and	x4, x4, #0xff
	orr	x4, x22, x4, lsl #1
	b.lo	.LBB6_58
	b	.LBB6_53
.LBB6_51:
	mov	x10, x22
.LBB6_52:
	ubfiz	x22, x25, #1, #7
	sub	x7, x7, #8
	mov	w25, w27
	cmp	x7, #7
	orr	x4, x22, x4, lsl #8
	orr	x4, x4, x27, lsr #7
	b.ls	.LBB6_59
.LBB6_53:
	cmp	x11, x10
	b.ls	.LBB6_97
	ldrb	w27, [x12, x10]
	add	x22, x10, #1
	cmp	x27, #255
	b.ne	.LBB6_51
	cmp	x11, x22
	b.ls	.LBB6_97
	ldrb	w22, [x12, x22]
	cbnz	w22, .LBB6_104
	add	x10, x10, #2
	b	.LBB6_52
.LBB6_58:
	mov	w23, #7
	mov	w27, w25
	b	.LBB6_36
.LBB6_59:
	mov	w23, #7
	b	.LBB6_36
.LBB6_60:
	ldrsh	w23, [sp, #256]
	ldr	x20, [sp, #96]
	mov	x1, x8
	ldr	x6, [sp, #1400]
	cbz	w2, .LBB6_84
	ldr	x8, [sp, #136]
	cmp	x8, x6
	b.ls	.LBB6_84
	str	x1, [sp, #40]
	ldr	x8, [sp, #128]
	ldr	x1, [sp, #112]
	mov	w19, #64
	ldr	x4, [x8, x1, lsl #3]
	add	x8, x3, x6, lsl #6
	cmp	x5, x4
	csel	x6, x5, x4, lo
	sub	x1, x5, x6
	add	x6, x12, x6
	cmp	x1, #64
	csel	x1, x1, x19, lo
	mov	x19, #536870912
	cmp	x7, #1
	movk	x19, #32, lsl #32
	b.ne	.LBB6_65
	cmp	x5, x4
	b.ls	.LBB6_82
	ldrb	w1, [x6]
	b	.LBB6_83
.LBB6_65:
	movi	v0.2d, #0000000000000000
	adrp	x4, .LCPI6_0
	str	x8, [sp, #16]
	ldr	q1, [x4, :lo12:.LCPI6_0]
	adrp	x4, .LCPI6_1
	cmp	x7, #64
	ldr	x8, [sp, #80]
	str	q1, [sp, #1328]
	stp	q0, q0, [sp, #560]
	stp	q0, q0, [sp, #592]
	stp	q0, q0, [sp, #624]
	stp	q0, q0, [sp, #656]
	stp	q0, q0, [sp, #688]
	stp	q0, q0, [sp, #720]
	stp	q0, q0, [sp, #752]
	stp	q0, q0, [sp, #784]
	stp	q0, q0, [sp, #816]
	stp	q0, q0, [sp, #848]
	stp	q0, q0, [sp, #880]
	stp	q0, q0, [sp, #912]
	stp	q0, q0, [sp, #944]
	stp	q0, q0, [sp, #976]
	stp	q0, q0, [sp, #1008]
	str	q0, [sp, #1040]
	str	q0, [sp, #1056]
	str	q0, [sp, #1072]
	str	q0, [sp, #1088]
	str	q0, [sp, #1104]
	str	q0, [sp, #1120]
	str	q0, [sp, #1136]
	str	q0, [sp, #1152]
	str	q0, [sp, #1168]
	str	q0, [sp, #1184]
	str	q0, [sp, #1200]
	str	q0, [sp, #1216]
	str	q0, [sp, #1232]
	str	q0, [sp, #1248]
	str	q0, [sp, #1264]
	str	q0, [sp, #1280]
	str	q0, [sp, #1296]
	str	q0, [sp, #1312]
	ldr	q0, [x4, :lo12:.LCPI6_1]
	adrp	x4, .LCPI6_2
	ldr	q2, [x4, :lo12:.LCPI6_2]
	adrp	x4, .LCPI6_3
	str	q0, [sp, #1344]
	ldr	q0, [x4, :lo12:.LCPI6_3]
	mov	w4, #64
	csel	x4, x7, x4, lo
	str	q2, [sp, #1360]
	str	q0, [sp, #1376]
	cbz	x7, .LBB6_71
	mov	x7, xzr
	b	.LBB6_69
.LBB6_67:
	ldrb	w19, [x6, x7]
.LBB6_68:
	add	x20, sp, #256
	add	x22, sp, #1328
	ldrsh	x20, [x20, x7, lsl #1]
	ldrb	w22, [x22, x7]
	add	x7, x7, #1
	cmp	x4, x7
	smull	x19, w19, w20
	add	x20, sp, #816
	str	x19, [x20, x22, lsl #3]
	b.eq	.LBB6_71
.LBB6_69:
	cmp	x7, x1
	b.lo	.LBB6_67
	mov	x19, xzr
	b	.LBB6_68
.LBB6_71:
	mov	w1, #8
	mov	x6, x8
	str	w23, [sp, #28]
	str	x16, [sp, #32]
	str	x5, [sp, #72]
	str	x3, [sp, #48]
	str	w2, [sp, #68]
	b	.LBB6_74
.LBB6_72:
	mov	w8, #11585
	mul	x4, x26, x8
	mov	x7, x4
	mov	x19, x4
	mov	x20, x4
	mov	x23, x4
	mov	x30, x4
	mov	x25, x4
	mov	x26, x4
.LBB6_73:
	stp	x4, x7, [x6, #-32]
	subs	x1, x1, #1
	stp	x19, x20, [x6, #-16]
	stp	x23, x30, [x6]
	stp	x25, x26, [x6, #16]
	add	x6, x6, #64
	b.eq	.LBB6_76
.LBB6_74:
	ldp	x4, x23, [x6, #-24]
	ldr	x20, [x6, #24]
	ldp	x7, x22, [x6, #-8]
	ldp	x19, x25, [x6, #8]
	orr	x26, x23, x4
	orr	x30, x7, x22
	orr	x8, x19, x25
	orr	x30, x26, x30
	ldur	x26, [x6, #-32]
	orr	x8, x8, x20
	orr	x8, x30, x8
	cbz	x8, .LBB6_72
	add	x8, x22, x26
	mov	w30, #11585
	sub	x22, x26, x22
	mov	w26, #15137
	mul	x2, x8, x30
	mov	x3, x21
	mov	x21, #-3196
	mov	w16, #3196
	mov	x24, #-16069
	mul	x22, x22, x30
	mov	w30, #6270
	mul	x26, x23, x26
	mul	x23, x23, x30
	madd	x26, x25, x30, x26
	mov	x30, #-15137
	madd	x23, x25, x30, x23
	mov	w25, #16069
	mov	w30, #13623
	mul	x25, x4, x25
	mul	x5, x4, x30
	madd	x25, x7, x30, x25
	madd	x5, x7, x21, x5
	mov	w21, #9102
	madd	x25, x19, x21, x25
	mul	x21, x4, x21
	mul	x4, x4, x16
	madd	x8, x20, x16, x25
	mov	x25, #-9102
	madd	x4, x7, x25, x4
	madd	x21, x7, x24, x21
	madd	x4, x19, x30, x4
	madd	x5, x19, x24, x5
	madd	x16, x19, x16, x21
	madd	x21, x20, x24, x4
	add	x24, x26, x2
	sub	x2, x2, x26
	add	x4, x8, x24
	sub	x26, x24, x8
	madd	x5, x20, x25, x5
	add	x25, x23, x22
	sub	x22, x22, x23
	madd	x16, x20, x30, x16
	add	x20, x21, x2
	sub	x23, x2, x21
	mov	x21, x3
	ldr	x3, [sp, #48]
	add	x7, x5, x25
	sub	x25, x25, x5
	add	x19, x16, x22
	sub	x30, x22, x16
	b	.LBB6_73
.LBB6_76:
	movi	v0.2d, #0000000000000000
	ldr	x6, [sp, #120]
	str	x21, [sp, #56]
	stp	q0, q0, [sp, #560]
	stp	q0, q0, [sp, #592]
	stp	q0, q0, [sp, #624]
	stp	q0, q0, [sp, #656]
	stp	q0, q0, [sp, #688]
	stp	q0, q0, [sp, #720]
	stp	q0, q0, [sp, #752]
	stp	q0, q0, [sp, #784]
	b	.LBB6_79
.LBB6_77:
	mov	w5, #16069
	mov	w19, #13623
	mov	w8, #11585
	mul	x5, x7, x5
	mov	w16, #15137
	mov	w2, #6270
	mov	w21, #3196
	mov	x25, #536870912
	mul	x20, x7, x19
	movk	x25, #32, lsl #32
	madd	x19, x4, x19, x5
	mov	x5, #-3196
	mul	x8, x26, x8
	madd	x5, x4, x5, x20
	mov	w20, #9102
	mul	x16, x23, x16
	add	x22, x8, x25
	mul	x20, x7, x20
	mul	x2, x23, x2
	add	x23, x16, x22
	mul	x7, x7, x21
	mov	x21, #-16069
	madd	x20, x4, x21, x20
	mov	x21, #-9102
	madd	x4, x4, x21, x7
	sub	x7, x8, x2
	sub	x8, x8, x16
	add	x16, x19, x23
	add	x21, sp, #560
	add	x7, x7, x25
	lsr	x16, x16, #30
	add	x21, x21, x1
	add	x8, x8, x25
	add	x24, x7, x20
	add	x2, x2, x22
	str	w16, [x21]
	lsr	x16, x24, #30
	add	x22, x5, x2
	add	x24, x8, x4
	sub	x8, x8, x4
	lsr	x22, x22, #30
	str	w16, [x21, #64]
	lsr	x8, x8, #30
	sub	x16, x7, x20
	lsr	x16, x16, #30
	sub	x2, x2, x5
	str	w22, [x21, #32]
	str	w8, [x21, #128]
	lsr	x8, x2, #30
	sub	x2, x23, x19
	lsr	x22, x24, #30
	str	w16, [x21, #160]
	lsr	x16, x2, #30
	str	w8, [x21, #192]
	str	w22, [x21, #96]
	str	w16, [x21, #224]
.LBB6_78:
	add	x1, x1, #4
	ldr	x5, [sp, #72]
	ldr	w2, [sp, #68]
	ldr	x21, [sp, #56]
	cmp	x1, #32
	add	x6, x6, #8
	sub	x24, x14, #1
	b.eq	.LBB6_81
.LBB6_79:
	ldr	x22, [x6]
	ldr	x20, [x6, #64]
	ldr	x25, [x6, #128]
	ldr	x19, [x6, #192]
	ldur	x26, [x6, #-256]
	ldur	x7, [x6, #-192]
	orr	x8, x20, x22
	ldur	x23, [x6, #-128]
	ldur	x4, [x6, #-64]
	orr	x16, x25, x19
	orr	x8, x8, x16
	cbz	x8, .LBB6_77
	add	x8, x22, x26
	mov	w16, #11585
	sub	x2, x26, x22
	mul	x8, x8, x16
	mov	w5, #6270
	mov	w22, #13623
	mov	x24, #-3196
	mov	w30, #3196
	mul	x16, x2, x16
	mov	w2, #15137
	mul	x2, x23, x2
	mul	x21, x23, x5
	madd	x2, x25, x5, x2
	mov	x5, #-15137
	madd	x5, x25, x5, x21
	mov	w21, #16069
	mov	x25, #-16069
	mul	x21, x7, x21
	mul	x23, x7, x22
	madd	x21, x4, x22, x21
	madd	x23, x4, x24, x23
	mov	w24, #9102
	madd	x21, x20, x24, x21
	mul	x24, x7, x24
	mul	x7, x7, x30
	madd	x26, x20, x25, x23
	madd	x23, x19, x30, x21
	mov	x21, #-9102
	madd	x24, x4, x25, x24
	madd	x4, x4, x21, x7
	madd	x7, x20, x30, x24
	mov	x30, #536870912
	movk	x30, #32, lsl #32
	madd	x4, x20, x22, x4
	add	x20, x2, x8
	sub	x8, x8, x2
	add	x24, x8, x30
	madd	x7, x19, x22, x7
	add	x22, x20, x30
	add	x2, x22, x23
	madd	x4, x19, x25, x4
	lsr	x2, x2, #30
	madd	x26, x19, x21, x26
	add	x21, x5, x16
	sub	x16, x16, x5
	add	x5, sp, #560
	add	x22, x16, x30
	add	x19, x21, x30
	add	x5, x5, x1
	add	x22, x22, x7
	sub	x16, x16, x7
	str	w2, [x5]
	lsr	x2, x22, #30
	sub	x8, x8, x4
	add	x8, x8, x30
	add	x16, x16, x30
	add	x22, x24, x4
	add	x19, x19, x26
	str	w2, [x5, #64]
	lsr	x8, x8, #30
	sub	x2, x21, x26
	lsr	x19, x19, #30
	lsr	x16, x16, #30
	add	x2, x2, x30
	sub	x4, x20, x23
	str	w8, [x5, #128]
	lsr	x8, x2, #30
	add	x2, x4, x30
	str	w19, [x5, #32]
	lsr	x19, x22, #30
	str	w16, [x5, #160]
	lsr	x16, x2, #30
	str	w8, [x5, #192]
	str	w19, [x5, #96]
	str	w16, [x5, #224]
	b	.LBB6_78
.LBB6_81:
	movi	v0.2d, #0000000000000000
	ldp	q2, q1, [sp, #560]
	ldp	q4, q3, [sp, #592]
	movi	v17.2d, #0x0000ff000000ff
	ldp	q6, q5, [sp, #656]
	ldr	x8, [sp, #16]
	ldp	q16, q7, [sp, #624]
	ldr	x20, [sp, #96]
	smax	v4.4s, v4.4s, v0.4s
	smax	v3.4s, v3.4s, v0.4s
	smax	v2.4s, v2.4s, v0.4s
	ldp	q19, q18, [sp, #688]
	smax	v1.4s, v1.4s, v0.4s
	ldp	q21, q20, [sp, #720]
	smax	v6.4s, v6.4s, v0.4s
	ldp	q23, q22, [sp, #752]
	smax	v5.4s, v5.4s, v0.4s
	ldp	q25, q24, [sp, #784]
	smax	v16.4s, v16.4s, v0.4s
	smax	v7.4s, v7.4s, v0.4s
	smax	v21.4s, v21.4s, v0.4s
	smax	v20.4s, v20.4s, v0.4s
	smax	v19.4s, v19.4s, v0.4s
	smax	v18.4s, v18.4s, v0.4s
	smax	v23.4s, v23.4s, v0.4s
	smax	v25.4s, v25.4s, v0.4s
	smax	v24.4s, v24.4s, v0.4s
	smax	v0.4s, v22.4s, v0.4s
	smin	v1.4s, v1.4s, v17.4s
	smin	v2.4s, v2.4s, v17.4s
	smin	v3.4s, v3.4s, v17.4s
	smin	v4.4s, v4.4s, v17.4s
	smin	v7.4s, v7.4s, v17.4s
	smin	v16.4s, v16.4s, v17.4s
	smin	v5.4s, v5.4s, v17.4s
	smin	v6.4s, v6.4s, v17.4s
	smin	v18.4s, v18.4s, v17.4s
	smin	v19.4s, v19.4s, v17.4s
	smin	v20.4s, v20.4s, v17.4s
	smin	v21.4s, v21.4s, v17.4s
	smin	v0.4s, v0.4s, v17.4s
	smin	v22.4s, v23.4s, v17.4s
	smin	v23.4s, v24.4s, v17.4s
	smin	v17.4s, v25.4s, v17.4s
	uzp1	v3.8h, v4.8h, v3.8h
	uzp1	v1.8h, v2.8h, v1.8h
	uzp1	v2.8h, v6.8h, v5.8h
	uzp1	v4.8h, v16.8h, v7.8h
	ldr	x6, [sp, #1400]
	uzp1	v5.8h, v21.8h, v20.8h
	uzp1	v6.8h, v19.8h, v18.8h
	ldr	w23, [sp, #28]
	uzp1	v0.8h, v22.8h, v0.8h
	ldp	x16, x1, [sp, #32]
	uzp1	v7.8h, v17.8h, v23.8h
	uzp1	v1.16b, v1.16b, v3.16b
	uzp1	v2.16b, v4.16b, v2.16b
	uzp1	v3.16b, v6.16b, v5.16b
	uzp1	v0.16b, v0.16b, v7.16b
	stp	q1, q2, [x8]
	stp	q3, q0, [x8, #32]
	b	.LBB6_84
.LBB6_82:
	mov	x1, xzr
.LBB6_83:
	smull	x1, w1, w23
	mov	w4, #60033
	ldr	x6, [sp, #1400]
	movk	w4, #2047, lsl #16
	smaddl	x1, w1, w4, x19
	mov	w4, #255
	lsr	x1, x1, #30
	bic	w1, w1, w1, asr #31
	cmp	w1, #255
	csel	w1, w1, w4, lt
	dup	v0.16b, w1
	ldr	x1, [sp, #40]
	stp	q0, q0, [x8]
	stp	q0, q0, [x8, #32]
.LBB6_84:
	ldr	x4, [sp, #112]
	add	x8, sp, #384
	ldr	x7, [sp, #88]
	and	x27, x27, #0xff
	add	x1, x1, #1
	add	x6, x6, #1
	orr	x8, x8, x4, lsl #2
	ldr	x4, [sp, #104]
	bfi	x27, x28, #8, #8
	cmp	x1, x7
	lsr	x4, x4, #2
	str	w23, [x8]
	mov	x8, x1
	b.ne	.LBB6_14
	mov	x16, x6
	ldp	x8, x6, [sp, #128]
	ldr	q0, [sp, #384]
	ldr	x19, [sp, #80]
	mov	x9, x10
	ldr	x7, [sp, #120]
	neg	x22, x11
.LBB6_86:
	add	x17, x17, #1
	lsr	x1, x27, #8
	cmp	x17, x21
	b.lo	.LBB6_3
	b	.LBB6_107
.LBB6_87:
	mov	w7, #3
	cbz	x8, .LBB6_111
	sub	x10, x9, x8
	cmp	x11, x10
	b.ls	.LBB6_111
	cmp	x1, x6
	b.ne	.LBB6_111
	movi	v0.2d, #0000000000000000
	mov	x27, xzr
	add	x10, x10, #1
	b	.LBB6_13
.LBB6_91:
	mov	x16, xzr
	mov	x8, #-1
	lsl	x8, x8, xzr
	orr	x8, x8, xzr
	cmn	x8, #1
	b.ne	.LBB6_108
.LBB6_92:
	subs	x10, x11, x5
	b.ls	.LBB6_108
	mov	x14, xzr
	mov	x13, x5
.LBB6_94:
	ldrb	w9, [x12, x13]
	cmp	w9, #255
	b.ne	.LBB6_98
	sub	x10, x10, #1
	add	x13, x13, #1
	sub	x14, x14, #1
	cbnz	x10, .LBB6_94
	b	.LBB6_108
.LBB6_96:
	mov	w7, #2
	b	.LBB6_105
.LBB6_97:
	mov	w7, wzr
	b	.LBB6_105
.LBB6_98:
	cbz	x14, .LBB6_108
	cmp	x11, x13
	b.ls	.LBB6_108
	cmp	w9, #217
	b.ne	.LBB6_108
	cmp	x10, #1
	b.ne	.LBB6_108
	strb	wzr, [x0]
	strb	wzr, [x0, #8]
	strb	wzr, [x0, #15]
	sturh	wzr, [x0, #13]
	stur	wzr, [x0, #9]
	stp	xzr, xzr, [x0, #16]
	b	.LBB6_109
.LBB6_103:
	mov	w7, #3
	mov	x10, x16
	b	.LBB6_106
.LBB6_104:
	mov	w7, #1
.LBB6_105:
	ldr	x10, [sp, #1400]
	cmp	x10, x16
	csel	x9, x9, x30, eq
.LBB6_106:
	mov	w8, #1
	strb	w7, [x0, #8]
	strb	w8, [x0]
	strb	wzr, [x0, #15]
	sturh	wzr, [x0, #13]
	stur	wzr, [x0, #9]
	stp	x10, x9, [x0, #16]
	b	.LBB6_109
.LBB6_107:
	and	x10, x27, #0xff
	mov	x5, x9
	mov	x8, #-1
	lsl	x8, x8, x1
	orr	x8, x8, x10
	cmn	x8, #1
	b.eq	.LBB6_92
.LBB6_108:
	mov	w8, #1
	mov	w9, #3
	stur	wzr, [x0, #9]
	strb	w8, [x0]
	strb	w9, [x0, #8]
	str	wzr, [x0, #12]
	stp	x16, x5, [x0, #16]
.LBB6_109:
	add	sp, sp, #1392
	ldp	x20, x19, [sp, #80]
	ldp	x22, x21, [sp, #64]
	ldp	x24, x23, [sp, #48]
	ldp	x26, x25, [sp, #32]
	ldp	x28, x27, [sp, #16]
	ldr	x30, [sp], #96
	ret
.LBB6_110:
	mov	w7, #3
	b	.LBB6_105
.LBB6_111:
	mov	x10, x16
	b	.LBB6_106
.LBB6_112:
	brk	#0x1
.Lfunc_end6:
	.size	"jpeg_scan::run::<#c44e4da361dd472c>", .Lfunc_end6-"jpeg_scan::run::<#c44e4da361dd472c>"

	.section	".text.core::fmt::type_impls::writers::RefMutWrite::write_str::<#18b16ec19ae6b37c>","ax",@progbits
	.p2align	2
	.type	"core::fmt::type_impls::writers::RefMutWrite::write_str::<#18b16ec19ae6b37c>",@function
"core::fmt::type_impls::writers::RefMutWrite::write_str::<#18b16ec19ae6b37c>":
	ldrb	w8, [x0, #72]
	tbz	w8, #0, .LBB7_2
	mov	w0, #1
	ret
.LBB7_2:
	sub	sp, sp, #80
	stp	x20, x19, [sp, #64]
	ldr	x20, [x0, #64]
	stp	x29, x30, [sp, #32]
	add	x29, sp, #32
	cmp	x20, #64
	str	x21, [sp, #48]
	b.hi	.LBB7_27
	mov	w8, #64
	sub	x8, x8, x20
	cmp	x2, x8
	b.ls	.LBB7_8
	cmp	x20, #62
	b.lo	.LBB7_14
	mov	x19, x0
	add	x0, sp, #8
	mov	x2, x20
	mov	x1, x19
	stp	xzr, xzr, [sp, #8]
	str	xzr, [sp, #24]
	bl	"core::str::utf8::from_utf8"
	ldrb	w8, [sp, #8]
	ldp	x10, x9, [sp, #16]
	adrp	x11, .Lstatic.2
	add	x11, x11, :lo12:.Lstatic.2
	mov	x0, x19
	cmp	w8, #0
	csel	x8, x9, xzr, eq
	csel	x9, x10, x11, eq
	cmp	x8, #62
	b.lo	.LBB7_21
	ldrsb	w8, [x9, #61]
	cmn	w8, #65
	b.le	.LBB7_32
	mov	w8, #61
	b	.LBB7_21
.LBB7_8:
	add	x8, x0, x20
	sub	x8, x8, x1
	cmp	x8, x2
	b.hs	.LBB7_23
	cmp	x2, #8
	b.lo	.LBB7_11
	add	x8, x20, x0
	sub	x8, x8, x1
	cmp	x8, #32
	b.hs	.LBB7_34
.LBB7_11:
	mov	x8, xzr
.LBB7_12:
	add	x10, x8, x20
	sub	x9, x2, x8
	add	x8, x1, x8
	add	x10, x0, x10
.LBB7_13:
	ldrb	w11, [x8], #1
	subs	x9, x9, #1
	strb	w11, [x10], #1
	b.ne	.LBB7_13
	b	.LBB7_24
.LBB7_14:
	cmp	x20, #61
	b.eq	.LBB7_18
	mov	w8, #61
	sub	x19, x8, x20
.LBB7_16:
	ldrsb	w8, [x1, x19]
	cmn	w8, #65
	b.gt	.LBB7_28
	subs	x19, x19, #1
	b.ne	.LBB7_16
.LBB7_18:
	mov	x19, xzr
	mov	x21, x0
	add	x8, x0, x20
.LBB7_19:
	mov	x0, x8
	mov	x2, x19
	bl	memmove
	mov	x0, x21
.LBB7_20:
	add	x8, x19, x20
.LBB7_21:
	add	x9, x0, x8
	adrp	x10, .Lstatic.12
	add	x10, x10, :lo12:.Lstatic.12
	sub	x10, x9, x10
	str	x8, [x0, #64]
	sub	x10, x10, #16
	cmp	x10, #2
	b.hi	.LBB7_25
	mov	w10, #11822
	mov	w11, #46
	strh	w10, [x9]
	strb	w11, [x9, #2]
	b	.LBB7_26
.LBB7_23:
	mov	x21, x0
	add	x0, x0, x20
	mov	x19, x2
	bl	memmove
	mov	x2, x19
	mov	x0, x21
.LBB7_24:
	add	x9, x20, x2
	str	x9, [x0, #64]
	mov	w0, wzr
	ldp	x20, x19, [sp, #64]
	ldr	x21, [sp, #48]
	ldp	x29, x30, [sp, #32]
	add	sp, sp, #80
	ret
.LBB7_25:
	mov	w10, #46
	mov	w11, #11822
	strb	w10, [x9, #2]
	strh	w11, [x9]
.LBB7_26:
	add	x8, x8, #3
	mov	w9, #1
	str	x8, [x0, #64]
	strb	w9, [x0, #72]
.LBB7_27:
	mov	w0, #1
	ldp	x20, x19, [sp, #64]
	ldr	x21, [sp, #48]
	ldp	x29, x30, [sp, #32]
	add	sp, sp, #80
	ret
.LBB7_28:
	add	x8, x0, x20
	sub	x9, x8, x1
	cmp	x9, x19
	b.hs	.LBB7_36
	cmp	x19, #8
	b.lo	.LBB7_31
	add	x9, x20, x0
	sub	x9, x9, x1
	cmp	x9, #32
	b.hs	.LBB7_48
.LBB7_31:
	mov	x9, xzr
	b	.LBB7_169
.LBB7_32:
	ldrsb	w8, [x9, #60]
	cmn	w8, #65
	b.le	.LBB7_37
	mov	w8, #60
	b	.LBB7_21
.LBB7_34:
	cmp	x2, #32
	b.hs	.LBB7_39
	mov	x8, xzr
	b	.LBB7_43
.LBB7_36:
	mov	x21, x0
	b	.LBB7_19
.LBB7_37:
	ldrsb	w8, [x9, #59]
	cmn	w8, #65
	b.le	.LBB7_46
	mov	w8, #59
	b	.LBB7_21
.LBB7_39:
	add	x11, x20, x0
	and	x9, x2, #0x18
	and	x8, x2, #0xffffffffffffffe0
	add	x10, x1, #16
	add	x11, x11, #16
	and	x12, x2, #0xffffffffffffffe0
.LBB7_40:
	ldp	q0, q1, [x10, #-16]
	subs	x12, x12, #32
	add	x10, x10, #32
	stp	q0, q1, [x11, #-16]
	add	x11, x11, #32
	b.ne	.LBB7_40
	cmp	x2, x8
	b.eq	.LBB7_24
	cbz	x9, .LBB7_12
.LBB7_43:
	mov	x10, x8
	and	x8, x2, #0xfffffffffffffff8
	add	x11, x10, x20
	sub	x9, x10, x8
	add	x10, x1, x10
	add	x11, x0, x11
.LBB7_44:
	ldr	d0, [x10], #8
	adds	x9, x9, #8
	str	d0, [x11], #8
	b.ne	.LBB7_44
	cmp	x2, x8
	b.eq	.LBB7_24
	b	.LBB7_12
.LBB7_46:
	ldrsb	w8, [x9, #58]
	cmn	w8, #65
	b.le	.LBB7_50
	mov	w8, #58
	b	.LBB7_21
.LBB7_48:
	cmp	x19, #32
	b.hs	.LBB7_52
	mov	x9, xzr
	b	.LBB7_56
.LBB7_50:
	ldrsb	w8, [x9, #57]
	cmn	w8, #65
	b.le	.LBB7_58
	mov	w8, #57
	b	.LBB7_21
.LBB7_52:
	add	x12, x20, x0
	and	x10, x19, #0x18
	and	x9, x19, #0xffffffffffffffe0
	add	x11, x1, #16
	add	x12, x12, #16
	and	x13, x19, #0xffffffffffffffe0
.LBB7_53:
	ldp	q0, q1, [x11, #-16]
	subs	x13, x13, #32
	add	x11, x11, #32
	stp	q0, q1, [x12, #-16]
	add	x12, x12, #32
	b.ne	.LBB7_53
	cmp	x19, x9
	b.eq	.LBB7_20
	cbz	x10, .LBB7_169
.LBB7_56:
	mov	x11, x9
	and	x9, x19, #0xfffffffffffffff8
	add	x12, x11, x20
	sub	x10, x11, x9
	add	x11, x1, x11
	add	x12, x0, x12
.LBB7_57:
	ldr	d0, [x11], #8
	adds	x10, x10, #8
	str	d0, [x12], #8
	b.ne	.LBB7_57
	b	.LBB7_170
.LBB7_58:
	ldrsb	w8, [x9, #56]
	cmn	w8, #65
	b.le	.LBB7_60
	mov	w8, #56
	b	.LBB7_21
.LBB7_60:
	ldrsb	w8, [x9, #55]
	cmn	w8, #65
	b.le	.LBB7_62
	mov	w8, #55
	b	.LBB7_21
.LBB7_62:
	ldrsb	w8, [x9, #54]
	cmn	w8, #65
	b.le	.LBB7_64
	mov	w8, #54
	b	.LBB7_21
.LBB7_64:
	ldrsb	w8, [x9, #53]
	cmn	w8, #65
	b.le	.LBB7_66
	mov	w8, #53
	b	.LBB7_21
.LBB7_66:
	ldrsb	w8, [x9, #52]
	cmn	w8, #65
	b.le	.LBB7_68
	mov	w8, #52
	mov	x0, x19
	b	.LBB7_21
.LBB7_68:
	ldrsb	w8, [x9, #51]
	cmn	w8, #65
	b.le	.LBB7_70
	mov	w8, #51
	mov	x0, x19
	b	.LBB7_21
.LBB7_70:
	ldrsb	w8, [x9, #50]
	cmn	w8, #65
	b.le	.LBB7_72
	mov	w8, #50
	mov	x0, x19
	b	.LBB7_21
.LBB7_72:
	ldrsb	w8, [x9, #49]
	cmn	w8, #65
	b.le	.LBB7_74
	mov	w8, #49
	mov	x0, x19
	b	.LBB7_21
.LBB7_74:
	ldrsb	w8, [x9, #48]
	cmn	w8, #65
	b.le	.LBB7_76
	mov	w8, #48
	mov	x0, x19
	b	.LBB7_21
.LBB7_76:
	ldrsb	w8, [x9, #47]
	cmn	w8, #65
	b.le	.LBB7_78
	mov	w8, #47
	mov	x0, x19
	b	.LBB7_21
.LBB7_78:
	ldrsb	w8, [x9, #46]
	cmn	w8, #65
	b.le	.LBB7_80
	mov	w8, #46
	mov	x0, x19
	b	.LBB7_21
.LBB7_80:
	ldrsb	w8, [x9, #45]
	cmn	w8, #65
	b.le	.LBB7_82
	mov	w8, #45
	mov	x0, x19
	b	.LBB7_21
.LBB7_82:
	ldrsb	w8, [x9, #44]
	cmn	w8, #65
	b.le	.LBB7_84
	mov	w8, #44
	mov	x0, x19
	b	.LBB7_21
.LBB7_84:
	ldrsb	w8, [x9, #43]
	cmn	w8, #65
	b.le	.LBB7_86
	mov	w8, #43
	mov	x0, x19
	b	.LBB7_21
.LBB7_86:
	ldrsb	w8, [x9, #42]
	cmn	w8, #65
	b.le	.LBB7_88
	mov	w8, #42
	mov	x0, x19
	b	.LBB7_21
.LBB7_88:
	ldrsb	w8, [x9, #41]
	cmn	w8, #65
	b.le	.LBB7_90
	mov	w8, #41
	mov	x0, x19
	b	.LBB7_21
.LBB7_90:
	ldrsb	w8, [x9, #40]
	cmn	w8, #65
	b.le	.LBB7_92
	mov	w8, #40
	mov	x0, x19
	b	.LBB7_21
.LBB7_92:
	ldrsb	w8, [x9, #39]
	cmn	w8, #65
	b.le	.LBB7_94
	mov	w8, #39
	mov	x0, x19
	b	.LBB7_21
.LBB7_94:
	ldrsb	w8, [x9, #38]
	cmn	w8, #65
	b.le	.LBB7_96
	mov	w8, #38
	mov	x0, x19
	b	.LBB7_21
.LBB7_96:
	ldrsb	w8, [x9, #37]
	cmn	w8, #65
	b.le	.LBB7_98
	mov	w8, #37
	mov	x0, x19
	b	.LBB7_21
.LBB7_98:
	ldrsb	w8, [x9, #36]
	cmn	w8, #65
	b.le	.LBB7_100
	mov	w8, #36
	mov	x0, x19
	b	.LBB7_21
.LBB7_100:
	ldrsb	w8, [x9, #35]
	cmn	w8, #65
	b.le	.LBB7_102
	mov	w8, #35
	mov	x0, x19
	b	.LBB7_21
.LBB7_102:
	ldrsb	w8, [x9, #34]
	cmn	w8, #65
	b.le	.LBB7_104
	mov	w8, #34
	mov	x0, x19
	b	.LBB7_21
.LBB7_104:
	ldrsb	w8, [x9, #33]
	cmn	w8, #65
	b.le	.LBB7_106
	mov	w8, #33
	mov	x0, x19
	b	.LBB7_21
.LBB7_106:
	ldrsb	w8, [x9, #32]
	cmn	w8, #65
	b.le	.LBB7_108
	mov	w8, #32
	mov	x0, x19
	b	.LBB7_21
.LBB7_108:
	ldrsb	w8, [x9, #31]
	cmn	w8, #65
	b.le	.LBB7_110
	mov	w8, #31
	mov	x0, x19
	b	.LBB7_21
.LBB7_110:
	ldrsb	w8, [x9, #30]
	cmn	w8, #65
	b.le	.LBB7_112
	mov	w8, #30
	mov	x0, x19
	b	.LBB7_21
.LBB7_112:
	ldrsb	w8, [x9, #29]
	cmn	w8, #65
	b.le	.LBB7_114
	mov	w8, #29
	mov	x0, x19
	b	.LBB7_21
.LBB7_114:
	ldrsb	w8, [x9, #28]
	cmn	w8, #65
	b.le	.LBB7_116
	mov	w8, #28
	mov	x0, x19
	b	.LBB7_21
.LBB7_116:
	ldrsb	w8, [x9, #27]
	cmn	w8, #65
	b.le	.LBB7_118
	mov	w8, #27
	mov	x0, x19
	b	.LBB7_21
.LBB7_118:
	ldrsb	w8, [x9, #26]
	cmn	w8, #65
	b.le	.LBB7_120
	mov	w8, #26
	mov	x0, x19
	b	.LBB7_21
.LBB7_120:
	ldrsb	w8, [x9, #25]
	cmn	w8, #65
	b.le	.LBB7_122
	mov	w8, #25
	mov	x0, x19
	b	.LBB7_21
.LBB7_122:
	ldrsb	w8, [x9, #24]
	cmn	w8, #65
	b.le	.LBB7_124
	mov	w8, #24
	mov	x0, x19
	b	.LBB7_21
.LBB7_124:
	ldrsb	w8, [x9, #23]
	cmn	w8, #65
	b.le	.LBB7_126
	mov	w8, #23
	mov	x0, x19
	b	.LBB7_21
.LBB7_126:
	ldrsb	w8, [x9, #22]
	cmn	w8, #65
	b.le	.LBB7_128
	mov	w8, #22
	mov	x0, x19
	b	.LBB7_21
.LBB7_128:
	ldrsb	w8, [x9, #21]
	cmn	w8, #65
	b.le	.LBB7_130
	mov	w8, #21
	mov	x0, x19
	b	.LBB7_21
.LBB7_130:
	ldrsb	w8, [x9, #20]
	cmn	w8, #65
	b.le	.LBB7_132
	mov	w8, #20
	mov	x0, x19
	b	.LBB7_21
.LBB7_132:
	ldrsb	w8, [x9, #19]
	cmn	w8, #65
	b.le	.LBB7_134
	mov	w8, #19
	mov	x0, x19
	b	.LBB7_21
.LBB7_134:
	ldrsb	w8, [x9, #18]
	cmn	w8, #65
	b.le	.LBB7_136
	mov	w8, #18
	mov	x0, x19
	b	.LBB7_21
.LBB7_136:
	ldrsb	w8, [x9, #17]
	cmn	w8, #65
	b.le	.LBB7_138
	mov	w8, #17
	mov	x0, x19
	b	.LBB7_21
.LBB7_138:
	ldrsb	w8, [x9, #16]
	cmn	w8, #65
	b.le	.LBB7_140
	mov	w8, #16
	mov	x0, x19
	b	.LBB7_21
.LBB7_140:
	ldrsb	w8, [x9, #15]
	cmn	w8, #65
	b.le	.LBB7_142
	mov	w8, #15
	mov	x0, x19
	b	.LBB7_21
.LBB7_142:
	ldrsb	w8, [x9, #14]
	cmn	w8, #65
	b.le	.LBB7_144
	mov	w8, #14
	mov	x0, x19
	b	.LBB7_21
.LBB7_144:
	ldrsb	w8, [x9, #13]
	cmn	w8, #65
	b.le	.LBB7_146
	mov	w8, #13
	mov	x0, x19
	b	.LBB7_21
.LBB7_146:
	ldrsb	w8, [x9, #12]
	cmn	w8, #65
	b.le	.LBB7_148
	mov	w8, #12
	mov	x0, x19
	b	.LBB7_21
.LBB7_148:
	ldrsb	w8, [x9, #11]
	cmn	w8, #65
	b.le	.LBB7_150
	mov	w8, #11
	mov	x0, x19
	b	.LBB7_21
.LBB7_150:
	ldrsb	w8, [x9, #10]
	cmn	w8, #65
	b.le	.LBB7_152
	mov	w8, #10
	mov	x0, x19
	b	.LBB7_21
.LBB7_152:
	ldrsb	w8, [x9, #9]
	cmn	w8, #65
	b.le	.LBB7_154
	mov	w8, #9
	mov	x0, x19
	b	.LBB7_21
.LBB7_154:
	ldrsb	w8, [x9, #8]
	cmn	w8, #65
	b.le	.LBB7_156
	mov	w8, #8
	mov	x0, x19
	b	.LBB7_21
.LBB7_156:
	ldrsb	w8, [x9, #7]
	cmn	w8, #65
	b.le	.LBB7_158
	mov	w8, #7
	mov	x0, x19
	b	.LBB7_21
.LBB7_158:
	ldrsb	w8, [x9, #6]
	cmn	w8, #65
	b.le	.LBB7_160
	mov	w8, #6
	mov	x0, x19
	b	.LBB7_21
.LBB7_160:
	ldrsb	w8, [x9, #5]
	cmn	w8, #65
	b.le	.LBB7_162
	mov	w8, #5
	mov	x0, x19
	b	.LBB7_21
.LBB7_162:
	ldrsb	w8, [x9, #4]
	cmn	w8, #65
	b.le	.LBB7_164
	mov	w8, #4
	mov	x0, x19
	b	.LBB7_21
.LBB7_164:
	ldrsb	w8, [x9, #3]
	cmn	w8, #65
	b.le	.LBB7_166
	mov	w8, #3
	mov	x0, x19
	b	.LBB7_21
.LBB7_166:
	ldrsb	w8, [x9, #2]
	cmn	w8, #65
	b.le	.LBB7_168
	mov	w8, #2
	mov	x0, x19
	b	.LBB7_21
.LBB7_168:
	ldrsb	w8, [x9, #1]
	mov	x0, x19
	cmn	w8, #65
	cset	w8, gt
	b	.LBB7_21
.LBB7_169:
	ldrb	w10, [x1, x9]
	strb	w10, [x8, x9]
	add	x9, x9, #1
.LBB7_170:
	cmp	x19, x9
	b.ne	.LBB7_169
	b	.LBB7_20
.Lfunc_end7:
	.size	"core::fmt::type_impls::writers::RefMutWrite::write_str::<#18b16ec19ae6b37c>", .Lfunc_end7-"core::fmt::type_impls::writers::RefMutWrite::write_str::<#18b16ec19ae6b37c>"

	.section	".text.core::str::utf8::from_utf8","ax",@progbits
	.p2align	2
	.type	"core::str::utf8::from_utf8",@function
"core::str::utf8::from_utf8":
	sub	sp, sp, #64
	stp	x22, x21, [sp, #32]
	mov	x21, x1
	stp	x20, x19, [sp, #48]
	mov	x20, x2
	mov	x19, x0
	stp	x29, x30, [sp, #16]
	add	x29, sp, #16
	cbz	x2, .LBB8_51
	mov	x9, xzr
	sub	x22, x20, #8
	b	.LBB8_6
.LBB8_2:
	and	w11, w11, #0xff
	tbnz	w11, #7, .LBB8_23
.LBB8_3:
	mov	w12, #1
.LBB8_4:
	add	x8, x12, x9
.LBB8_5:
	cmp	x8, x20
	mov	x9, x8
	b.hs	.LBB8_51
.LBB8_6:
	add	x8, x21, x9
	sub	x10, x20, x9
	ldrsb	w11, [x8]
	cmp	x10, #2
	b.lo	.LBB8_2
	tbnz	w11, #31, .LBB8_2
	ldrsb	w11, [x8, #1]
	tbnz	w11, #31, .LBB8_3
	cmp	x10, #7
	stp	x21, x20, [sp]
	b.hi	.LBB8_28
	ldrsb	w8, [x21, x9]
	tbnz	w8, #31, .LBB8_43
	add	x8, x9, #1
	cmp	x8, x20
	b.eq	.LBB8_51
	ldrsb	w10, [x21, x8]
	tbnz	w10, #31, .LBB8_5
	add	x8, x9, #2
	cmp	x8, x20
	b.eq	.LBB8_51
	ldrsb	w10, [x21, x8]
	tbnz	w10, #31, .LBB8_5
	add	x8, x9, #3
	cmp	x8, x20
	b.eq	.LBB8_51
	ldrsb	w10, [x21, x8]
	tbnz	w10, #31, .LBB8_5
	add	x8, x9, #4
	cmp	x8, x20
	b.eq	.LBB8_51
	ldrsb	w10, [x21, x8]
	tbnz	w10, #31, .LBB8_5
	add	x8, x9, #5
	cmp	x8, x20
	b.eq	.LBB8_51
	ldrsb	w10, [x21, x8]
	tbnz	w10, #31, .LBB8_5
	add	x8, x9, #6
	cmp	x8, x20
	b.eq	.LBB8_51
	ldrsb	w9, [x21, x8]
	tbnz	w9, #31, .LBB8_5
	b	.LBB8_51
.LBB8_23:
	cmp	w11, #194
	b.lo	.LBB8_59
	cmp	w11, #223
	b.hi	.LBB8_36
	cmp	x10, #2
	b.lo	.LBB8_58
	ldrsb	w12, [x8, #1]
	cmn	w12, #65
	b.gt	.LBB8_55
	mov	w12, #2
	b	.LBB8_4
.LBB8_28:
	ldr	x8, [x8]
	mov	w10, #8
	ands	x8, x8, #0x8080808080808080
	rbit	x8, x8
	clz	x8, x8
	lsr	x8, x8, #3
	csel	x8, x10, x8, eq
	add	x8, x8, x9
	add	x9, x9, #8
	cmp	x8, x9
	b.lo	.LBB8_5
	sub	x9, x20, x8
	cmp	x9, #32
	b.lo	.LBB8_32
.LBB8_30:
	add	x9, x21, x8
	ldp	q1, q0, [x9]
	orr	v0.16b, v1.16b, v0.16b
	ext	v1.16b, v0.16b, v0.16b, #8
	orr	v0.8b, v0.8b, v1.8b
	fmov	x9, d0
	tst	x9, #0x8080808080808080
	b.ne	.LBB8_32
	mov	x0, sp
	add	x1, x8, #32
	mov	x2, x20
	bl	"core::slice::words::skip_far::<#52f9edcae2f82f51>"
	sub	x9, x20, x0
	mov	x8, x0
	cmp	x9, #31
	b.hi	.LBB8_30
.LBB8_32:
	sub	x9, x20, x8
.LBB8_33:
	cmp	x9, #9
	b.lo	.LBB8_50
	ldr	x10, [x21, x8]
	mov	w11, #8
	sub	x9, x9, #8
	ands	x10, x10, #0x8080808080808080
	rbit	x10, x10
	clz	x10, x10
	lsr	x10, x10, #3
	csel	x10, x11, x10, eq
	add	x11, x10, x8
	add	x8, x8, #8
	cmp	x11, x8
	b.hs	.LBB8_33
	add	x8, x10, x8
	sub	x8, x8, #8
	b	.LBB8_5
.LBB8_36:
	cmp	w11, #239
	b.hi	.LBB8_44
	cmp	x10, #3
	b.lo	.LBB8_53
	ldrsb	w12, [x8, #1]
	cmn	w12, #65
	b.gt	.LBB8_55
	ldrsb	w13, [x8, #2]
	cmn	w13, #65
	b.gt	.LBB8_55
	and	w13, w12, #0xff
	mov	w14, #-14464
	add	w13, w13, w11, lsl #6
	add	w13, w13, w14
	cmp	w13, #32
	b.lo	.LBB8_55
	cmp	w13, #896
	mov	w12, #3
	csel	x14, xzr, x12, lo
	cmp	w13, #864
	b.lo	.LBB8_4
	mov	x12, x14
	b	.LBB8_49
.LBB8_43:
	mov	x8, x9
	b	.LBB8_5
.LBB8_44:
	cmp	x10, #4
	b.lo	.LBB8_52
	ldrsb	w12, [x8, #1]
	cmn	w12, #65
	b.gt	.LBB8_52
	ldrsb	w13, [x8, #2]
	cmn	w13, #65
	b.gt	.LBB8_52
	ldrsb	w13, [x8, #3]
	cmn	w13, #65
	b.gt	.LBB8_52
	and	w12, w12, #0xff
	mov	w13, #-15488
	add	w12, w12, w11, lsl #6
	add	w13, w12, w13
	mov	w12, #4
	cmp	w13, #272
	csel	x12, x12, xzr, lo
	cmp	w13, #16
	b.lo	.LBB8_52
.LBB8_49:
	cbnz	x12, .LBB8_4
	b	.LBB8_52
.LBB8_50:
	ldr	x8, [x21, x22]
	mov	w9, #8
	ands	x8, x8, #0x8080808080808080
	rbit	x8, x8
	clz	x8, x8
	lsr	x8, x8, #3
	csel	x8, x9, x8, eq
	add	x8, x8, x22
	b	.LBB8_5
.LBB8_51:
	stp	xzr, x21, [x19]
	str	x20, [x19, #16]
	ldp	x20, x19, [sp, #48]
	ldp	x22, x21, [sp, #32]
	ldp	x29, x30, [sp, #16]
	add	sp, sp, #64
	ret
.LBB8_52:
	cmp	w11, #244
	b.hi	.LBB8_59
.LBB8_53:
	cmp	x10, #2
	b.lo	.LBB8_58
	ldrb	w12, [x8, #1]
.LBB8_55:
	cmp	w11, #240
	mov	w13, #-128
	mov	w14, #-112
	mov	w15, #-96
	csel	w13, w14, w13, eq
	cmp	w11, #224
	mov	w14, #-65
	csel	w13, w15, w13, eq
	mov	w15, #-113
	cmp	w11, #244
	and	w16, w13, #0xf0
	csel	w13, w15, w14, eq
	cmp	w11, #237
	mov	w11, #-97
	csel	w13, w11, w13, eq
	cmp	w16, w12, uxtb
	mov	w11, #257
	b.hi	.LBB8_60
	and	w12, w12, #0xff
	cmp	w12, w13, uxtb
	b.hi	.LBB8_60
	cmp	x10, #2
	b.ne	.LBB8_61
.LBB8_58:
	mov	x11, xzr
	b	.LBB8_60
.LBB8_59:
	mov	w11, #257
.LBB8_60:
	mov	w8, #1
	str	x11, [x19, #16]
	stp	x8, x9, [x19]
	ldp	x20, x19, [sp, #48]
	ldp	x22, x21, [sp, #32]
	ldp	x29, x30, [sp, #16]
	add	sp, sp, #64
	ret
.LBB8_61:
	ldrsb	w8, [x8, #2]
	cmn	w8, #65
	b.gt	.LBB8_63
	cmp	x10, #3
	mov	w8, #769
	csel	x11, x8, xzr, hi
	b	.LBB8_60
.LBB8_63:
	mov	w11, #513
	b	.LBB8_60
.Lfunc_end8:
	.size	"core::str::utf8::from_utf8", .Lfunc_end8-"core::str::utf8::from_utf8"

	.section	".text.core::slice::words::skip_far::<#52f9edcae2f82f51>","ax",@progbits
	.p2align	2
	.type	"core::slice::words::skip_far::<#52f9edcae2f82f51>",@function
"core::slice::words::skip_far::<#52f9edcae2f82f51>":
	sub	x8, x2, x1
	cmp	x8, #64
	b.lo	.LBB9_4
	ldr	x9, [x0]
.LBB9_2:
	add	x10, x9, x1
	ldp	q0, q1, [x10, #32]
	ldp	q2, q3, [x10]
	orr	v1.16b, v3.16b, v1.16b
	orr	v0.16b, v2.16b, v0.16b
	orr	v0.16b, v0.16b, v1.16b
	ext	v1.16b, v0.16b, v0.16b, #8
	orr	v0.8b, v0.8b, v1.8b
	fmov	x10, d0
	tst	x10, #0x8080808080808080
	b.ne	.LBB9_4
	sub	x8, x8, #64
	add	x1, x1, #64
	cmp	x8, #63
	b.hi	.LBB9_2
.LBB9_4:
	mov	x0, x1
	ret
.Lfunc_end9:
	.size	"core::slice::words::skip_far::<#52f9edcae2f82f51>", .Lfunc_end9-"core::slice::words::skip_far::<#52f9edcae2f82f51>"

	.section	.rodata.cst16,"aM",@progbits,16
	.p2align	4, 0x0
.LCPI10_0:
	.xword	3327647951695996518
	.xword	3327647950551526958
.LCPI10_1:
	.xword	2334399978102268015
	.xword	8458358670138239095
.LCPI10_2:
	.xword	1840898
	.xword	8367798494427701606
.LCPI10_3:
	.byte	0
	.byte	1
	.byte	2
	.byte	3
	.byte	4
	.byte	5
	.byte	6
	.byte	7
	.byte	8
	.byte	9
	.byte	10
	.byte	11
	.byte	12
	.byte	13
	.byte	14
	.byte	15
.LCPI10_4:
	.byte	16
	.byte	17
	.byte	18
	.byte	19
	.byte	20
	.byte	21
	.byte	22
	.byte	23
	.byte	24
	.byte	25
	.byte	26
	.byte	27
	.byte	28
	.byte	29
	.byte	30
	.byte	31
	.section	.rodata.cst8,"aM",@progbits,8
	.p2align	3, 0x0
.LCPI10_5:
	.byte	32
	.byte	33
	.byte	34
	.byte	35
	.byte	36
	.byte	37
	.byte	38
	.byte	39
	.section	".text.std::io::stdio::StdoutWrite::write_all","ax",@progbits
	.p2align	2
	.type	"std::io::stdio::StdoutWrite::write_all",@function
"std::io::stdio::StdoutWrite::write_all":
	sub	sp, sp, #256
	stp	x24, x23, [sp, #208]
	mov	w23, #1
	stp	x22, x21, [sp, #224]
	mov	x21, x1
	add	x22, sp, #96
	stp	x20, x19, [sp, #240]
	mov	x20, x2
	mov	x19, x0
	stp	x29, x30, [sp, #192]
	add	x29, sp, #192
	b	.LBB10_2
.LBB10_1:
	adds	x23, x23, #1
	b.hs	.LBB10_10
.LBB10_2:
	cbz	x20, .LBB10_9
	mov	w0, #1
	mov	x1, x21
	mov	x2, x20
	bl	write
	tbnz	x0, #63, .LBB10_6
	cbz	x0, .LBB10_11
	cmp	x0, x20
	csel	x8, x0, x20, lo
	add	x21, x21, x8
	sub	x20, x20, x8
	b	.LBB10_1
.LBB10_6:
	bl	rattle_errno
	mov	w1, w0
	add	x0, sp, #96
	add	x24, sp, #96
	bl	"std_io::io::error::Error::from_raw_os_error"
	ldur	q0, [x22, #56]
	ldur	q1, [x22, #72]
	adrp	x8, .LCPI10_3
	ldr	x9, [sp, #96]
	ldr	q3, [x8, :lo12:.LCPI10_3]
	adrp	x8, .LCPI10_4
	stp	q0, q1, [sp, #64]
	ldp	q0, q1, [sp, #96]
	ubfx	w10, w9, #8, #8
	ldr	q4, [x8, :lo12:.LCPI10_4]
	adrp	x8, .LCPI10_5
	ldr	q2, [sp, #128]
	ldr	d5, [x8, :lo12:.LCPI10_5]
	mov	w11, #40
	ldr	x8, [sp, #144]
	cmp	w10, #41
	stp	q3, q4, [sp, #96]
	str	d5, [sp, #128]
	strb	w11, [sp, #136]
	b.hs	.LBB10_8
	ubfx	x9, x9, #8, #6
	ldrb	w9, [x24, x9]
	cmp	w9, #35
	b.eq	.LBB10_1
.LBB10_8:
	ldp	q3, q4, [sp, #64]
	mov	w9, #1
	stp	q3, q4, [sp]
	b	.LBB10_12
.LBB10_9:
	movi	v0.2d, #0000000000000000
	mov	w9, wzr
	mov	x8, xzr
	movi	v1.2d, #0000000000000000
	movi	v2.2d, #0000000000000000
	stp	q0, q0, [sp]
	b	.LBB10_12
.LBB10_10:
	adrp	x2, .Lstatic.16
	add	x2, x2, :lo12:.Lstatic.16
	add	x0, sp, #96
	mov	w1, #22
	mov	w3, #43
	bl	"std_io::io::error::Error::from_static_message"
	ldp	q0, q1, [sp, #96]
	mov	w9, #1
	ldur	q3, [x22, #72]
	ldur	q4, [x22, #56]
	ldr	q2, [sp, #128]
	ldr	x8, [sp, #144]
	stp	q4, q3, [sp]
	stp	q4, q3, [sp, #32]
	b	.LBB10_12
.LBB10_11:
	movi	v3.16b, #46
	adrp	x8, .LCPI10_0
	adrp	x9, .LCPI10_1
	adrp	x10, .LCPI10_2
	ldr	q2, [x8, :lo12:.LCPI10_0]
	ldr	q1, [x9, :lo12:.LCPI10_1]
	ldr	q0, [x10, :lo12:.LCPI10_2]
	mov	x8, #1012762419733073422
	mov	w9, #1
	orr	x8, x8, #0x2222222222222222
	stp	q3, q3, [sp]
.LBB10_12:
	stur	q0, [x19, #8]
	ldp	x22, x21, [sp, #224]
	stur	q1, [x19, #24]
	ldp	q0, q1, [sp]
	strb	w9, [x19]
	ldp	x24, x23, [sp, #208]
	stur	q2, [x19, #40]
	ldp	x29, x30, [sp, #192]
	str	x8, [x19, #56]
	stp	q0, q1, [x19, #64]
	ldp	x20, x19, [sp, #240]
	add	sp, sp, #256
	ret
.Lfunc_end10:
	.size	"std::io::stdio::StdoutWrite::write_all", .Lfunc_end10-"std::io::stdio::StdoutWrite::write_all"

	.section	".text.std_io::io::error::Error::from_static_message","ax",@progbits
	.p2align	2
	.type	"std_io::io::error::Error::from_static_message",@function
"std_io::io::error::Error::from_static_message":
	sub	sp, sp, #192
	ldr	x8, [x2]
	cmp	x3, #15
	stp	x28, x27, [sp, #112]
	stp	x26, x25, [sp, #128]
	stp	x30, x8, [sp, #96]
	ldr	w8, [x2, #8]
	stp	x24, x23, [sp, #144]
	str	x8, [sp, #64]
	ldrb	w8, [x2, #12]
	stp	x22, x21, [sp, #160]
	str	x8, [sp, #56]
	ldrb	w8, [x2, #13]
	stp	x20, x19, [sp, #176]
	str	x8, [sp, #72]
	ldrb	w8, [x2, #14]
	str	w1, [sp, #92]
	str	x8, [sp, #80]
	b.ne	.LBB11_2
	mov	x17, #12947848928690176
	mov	x14, #197568495616
	mov	w15, #46
	mov	x22, #50577534877696
	mov	x2, #3314649325744685056
	mov	w16, #3014656
	mov	w25, #771751936
	mov	w21, #11776
	mov	w8, #11776
	mov	x9, #3314649325744685056
	mov	x11, #50577534877696
	mov	w12, #771751936
	mov	w20, #11776
	mov	x7, #3314649325744685056
	mov	x6, #50577534877696
	mov	w4, #771751936
	mov	w18, #11776
	mov	x13, #3314649325744685056
	b	.LBB11_6
.LBB11_2:
	ldrb	w8, [x2, #15]
	cmp	x3, #17
	lsl	x13, x8, #56
	b.lo	.LBB11_5
	ldrb	w15, [x2, #16]
	cmp	x3, #17
	b.ne	.LBB11_16
	mov	w5, #46
	mov	x17, #12947848928690176
	mov	x14, #197568495616
	mov	x22, #50577534877696
	mov	x2, #3314649325744685056
	mov	w16, #3014656
	mov	w25, #771751936
	mov	w21, #11776
	mov	w8, #11776
	mov	x9, #3314649325744685056
	mov	x11, #50577534877696
	mov	w12, #771751936
	mov	w20, #11776
	mov	x7, #3314649325744685056
	mov	x6, #50577534877696
	mov	w4, #771751936
	mov	w18, #11776
	b	.LBB11_7
.LBB11_5:
	mov	x17, #12947848928690176
	mov	x14, #197568495616
	mov	w15, #46
	mov	x22, #50577534877696
	mov	x2, #3314649325744685056
	mov	w16, #3014656
	mov	w25, #771751936
	mov	w21, #11776
	mov	w8, #11776
	mov	x9, #3314649325744685056
	mov	x11, #50577534877696
	mov	w12, #771751936
	mov	w20, #11776
	mov	x7, #3314649325744685056
	mov	x6, #50577534877696
	mov	w4, #771751936
	mov	w18, #11776
.LBB11_6:
	mov	w5, #46
.LBB11_7:
	mov	w19, #3014656
.LBB11_8:
	mov	x30, #197568495616
.LBB11_9:
	mov	x28, #12947848928690176
.LBB11_10:
	mov	w10, #46
.LBB11_11:
	mov	w23, #3014656
.LBB11_12:
	mov	x24, #197568495616
.LBB11_13:
	mov	x26, #12947848928690176
.LBB11_14:
	mov	w27, #46
	mov	w1, #3014656
.LBB11_15:
	orr	x2, x22, x2
	orr	x8, x25, x8
	mov	w10, w10
	orr	x2, x2, x8
	orr	x10, x10, x23
	orr	x9, x11, x9
	orr	x10, x2, x10
	orr	x11, x12, x20
	mov	w15, w15
	ldp	x2, x12, [sp, #56]
	orr	x15, x15, x16
	mov	w5, w5
	orr	x9, x9, x11
	orr	x11, x6, x7
	orr	x18, x4, x18
	orr	x14, x14, x17
	orr	x12, x12, x2, lsl #32
	mov	w2, #2
	orr	x11, x11, x18
	strb	w2, [x0]
	ldp	x2, x16, [sp, #72]
	orr	x11, x11, x15
	orr	x11, x11, x14
	movi	v0.16b, #46
	orr	x1, x21, x1
	orr	x12, x12, x2, lsl #40
	ldr	w2, [sp, #92]
	mov	w8, w27
	orr	x8, x1, x8
	orr	x1, x24, x26
	strb	w3, [x0, #2]
	orr	x12, x12, x16, lsl #48
	strb	w2, [x0, #1]
	orr	x2, x5, x19
	orr	x9, x9, x2
	ldp	x20, x19, [sp, #176]
	orr	x12, x12, x13
	ldr	x13, [sp, #104]
	orr	x10, x10, x1
	ldp	x22, x21, [sp, #160]
	strb	wzr, [x0, #3]
	stp	x13, x12, [x0, #8]
	orr	x13, x30, x28
	ldr	x30, [sp, #96]
	orr	x9, x9, x13
	ldp	x24, x23, [sp, #144]
	stp	x11, x9, [x0, #24]
	mov	x11, #771751936
	movk	x11, #11822, lsl #32
	ldp	x26, x25, [sp, #128]
	movk	x11, #11822, lsl #48
	ldp	x28, x27, [sp, #112]
	orr	x8, x8, x11
	str	wzr, [x0, #4]
	stp	x10, x8, [x0, #40]
	stur	q0, [x0, #56]
	stur	q0, [x0, #72]
	add	sp, sp, #192
	ret
.LBB11_16:
	ldrb	w8, [x2, #17]
	cmp	x3, #19
	lsl	x18, x8, #8
	b.lo	.LBB11_19
	ldrb	w8, [x2, #18]
	cmp	x3, #19
	lsl	x16, x8, #16
	b.ne	.LBB11_20
	mov	w5, #46
	mov	x17, #12947848928690176
	mov	x14, #197568495616
	mov	x22, #50577534877696
	mov	x2, #3314649325744685056
	mov	w19, #3014656
	mov	w25, #771751936
	mov	w21, #11776
	mov	w8, #11776
	mov	x9, #3314649325744685056
	mov	x11, #50577534877696
	mov	w12, #771751936
	mov	w20, #11776
	mov	x7, #3314649325744685056
	mov	x6, #50577534877696
	mov	w4, #771751936
	b	.LBB11_8
.LBB11_19:
	mov	w5, #46
	mov	x17, #12947848928690176
	mov	x14, #197568495616
	mov	x22, #50577534877696
	mov	x2, #3314649325744685056
	mov	w16, #3014656
	mov	w25, #771751936
	mov	w21, #11776
	mov	w8, #11776
	mov	x9, #3314649325744685056
	mov	x11, #50577534877696
	mov	w12, #771751936
	mov	w20, #11776
	mov	x7, #3314649325744685056
	mov	x6, #50577534877696
	mov	w4, #771751936
	b	.LBB11_7
.LBB11_20:
	ldrb	w8, [x2, #19]
	cmp	x3, #21
	lsl	x4, x8, #24
	b.lo	.LBB11_23
	ldrb	w8, [x2, #20]
	cmp	x3, #21
	lsl	x14, x8, #32
	b.ne	.LBB11_24
	mov	x30, #197568495616
	mov	w5, #46
	mov	x17, #12947848928690176
	mov	x22, #50577534877696
	mov	x2, #3314649325744685056
	mov	w19, #3014656
	mov	w25, #771751936
	mov	w21, #11776
	mov	w8, #11776
	mov	x9, #3314649325744685056
	mov	x11, #50577534877696
	mov	w12, #771751936
	mov	w20, #11776
	mov	x7, #3314649325744685056
	mov	x6, #50577534877696
	b	.LBB11_9
.LBB11_23:
	mov	w5, #46
	mov	x17, #12947848928690176
	mov	x14, #197568495616
	mov	x22, #50577534877696
	mov	x2, #3314649325744685056
	mov	w19, #3014656
	mov	w25, #771751936
	mov	w21, #11776
	mov	w8, #11776
	mov	x9, #3314649325744685056
	mov	x11, #50577534877696
	mov	w12, #771751936
	mov	w20, #11776
	mov	x7, #3314649325744685056
	mov	x6, #50577534877696
	b	.LBB11_8
.LBB11_24:
	ldrb	w8, [x2, #21]
	cmp	x3, #23
	lsl	x6, x8, #40
	b.lo	.LBB11_27
	ldrb	w8, [x2, #22]
	cmp	x3, #23
	lsl	x17, x8, #48
	b.ne	.LBB11_28
	mov	x28, #12947848928690176
	mov	x30, #197568495616
	mov	w5, #46
	mov	x22, #50577534877696
	mov	x2, #3314649325744685056
	mov	w19, #3014656
	mov	w25, #771751936
	mov	w21, #11776
	mov	w8, #11776
	mov	x9, #3314649325744685056
	mov	x11, #50577534877696
	mov	w12, #771751936
	mov	w20, #11776
	mov	x7, #3314649325744685056
	b	.LBB11_10
.LBB11_27:
	mov	x30, #197568495616
	mov	w5, #46
	mov	x17, #12947848928690176
	mov	x22, #50577534877696
	mov	x2, #3314649325744685056
	mov	w19, #3014656
	mov	w25, #771751936
	mov	w21, #11776
	mov	w8, #11776
	mov	x9, #3314649325744685056
	mov	x11, #50577534877696
	mov	w12, #771751936
	mov	w20, #11776
	mov	x7, #3314649325744685056
	b	.LBB11_9
.LBB11_28:
	ldrb	w8, [x2, #23]
	cmp	x3, #25
	lsl	x7, x8, #56
	b.lo	.LBB11_31
	ldrb	w5, [x2, #24]
	cmp	x3, #25
	b.ne	.LBB11_32
	mov	w10, #46
	mov	x28, #12947848928690176
	mov	x30, #197568495616
	mov	x22, #50577534877696
	mov	x2, #3314649325744685056
	mov	w19, #3014656
	mov	w25, #771751936
	mov	w21, #11776
	mov	w8, #11776
	mov	x9, #3314649325744685056
	mov	x11, #50577534877696
	mov	w12, #771751936
	mov	w20, #11776
	b	.LBB11_11
.LBB11_31:
	mov	x28, #12947848928690176
	mov	x30, #197568495616
	mov	w5, #46
	mov	x22, #50577534877696
	mov	x2, #3314649325744685056
	mov	w19, #3014656
	mov	w25, #771751936
	mov	w21, #11776
	mov	w8, #11776
	mov	x9, #3314649325744685056
	mov	x11, #50577534877696
	mov	w12, #771751936
	mov	w20, #11776
	b	.LBB11_10
.LBB11_32:
	ldrb	w8, [x2, #25]
	cmp	x3, #27
	lsl	x20, x8, #8
	b.lo	.LBB11_35
	ldrb	w8, [x2, #26]
	cmp	x3, #27
	lsl	x19, x8, #16
	b.ne	.LBB11_36
	mov	w10, #46
	mov	x28, #12947848928690176
	mov	x30, #197568495616
	mov	x22, #50577534877696
	mov	x2, #3314649325744685056
	mov	w23, #3014656
	mov	w25, #771751936
	mov	w21, #11776
	mov	w8, #11776
	mov	x9, #3314649325744685056
	mov	x11, #50577534877696
	mov	w12, #771751936
	b	.LBB11_12
.LBB11_35:
	mov	w10, #46
	mov	x28, #12947848928690176
	mov	x30, #197568495616
	mov	x22, #50577534877696
	mov	x2, #3314649325744685056
	mov	w19, #3014656
	mov	w25, #771751936
	mov	w21, #11776
	mov	w8, #11776
	mov	x9, #3314649325744685056
	mov	x11, #50577534877696
	mov	w12, #771751936
	b	.LBB11_11
.LBB11_36:
	ldrb	w8, [x2, #27]
	cmp	x3, #29
	lsl	x8, x8, #24
	str	x8, [sp, #48]
	b.lo	.LBB11_39
	ldrb	w8, [x2, #28]
	cmp	x3, #29
	lsl	x8, x8, #32
	str	x8, [sp, #40]
	b.ne	.LBB11_40
	ldp	x30, x12, [sp, #40]
	mov	x24, #197568495616
	mov	w10, #46
	mov	x28, #12947848928690176
	mov	x22, #50577534877696
	mov	x2, #3314649325744685056
	mov	w23, #3014656
	mov	w25, #771751936
	mov	w21, #11776
	mov	w8, #11776
	mov	x9, #3314649325744685056
	mov	x11, #50577534877696
	b	.LBB11_13
.LBB11_39:
	ldr	x12, [sp, #48]
	mov	w10, #46
	mov	x28, #12947848928690176
	mov	x30, #197568495616
	mov	x22, #50577534877696
	mov	x2, #3314649325744685056
	mov	w23, #3014656
	mov	w25, #771751936
	mov	w21, #11776
	mov	w8, #11776
	mov	x9, #3314649325744685056
	mov	x11, #50577534877696
	b	.LBB11_12
.LBB11_40:
	ldrb	w8, [x2, #29]
	cmp	x3, #31
	lsl	x8, x8, #40
	str	x8, [sp, #32]
	b.lo	.LBB11_43
	ldrb	w8, [x2, #30]
	cmp	x3, #31
	lsl	x8, x8, #48
	str	x8, [sp, #24]
	b.ne	.LBB11_45
	ldr	x30, [sp, #40]
	ldr	x28, [sp, #24]
	mov	x26, #12947848928690176
	mov	x24, #197568495616
	mov	w10, #46
	mov	x22, #50577534877696
	mov	x2, #3314649325744685056
	mov	w23, #3014656
	mov	w25, #771751936
	mov	w21, #11776
	mov	w8, #11776
	mov	x9, #3314649325744685056
	b	.LBB11_44
.LBB11_43:
	ldr	x30, [sp, #40]
	mov	x24, #197568495616
	mov	w10, #46
	mov	x28, #12947848928690176
	mov	x22, #50577534877696
	mov	x2, #3314649325744685056
	mov	w23, #3014656
	mov	w25, #771751936
	mov	w21, #11776
	mov	w8, #11776
	mov	x9, #3314649325744685056
	mov	x26, #12947848928690176
.LBB11_44:
	mov	w27, #46
	mov	w1, #3014656
	ldr	x12, [sp, #48]
	ldr	x11, [sp, #32]
	b	.LBB11_15
.LBB11_45:
	ldrb	w8, [x2, #31]
	cmp	x3, #33
	lsl	x8, x8, #56
	str	x8, [sp, #16]
	b.lo	.LBB11_48
	ldrb	w8, [x2, #32]
	cmp	x3, #33
	str	w8, [sp, #12]
	b.ne	.LBB11_49
	mov	w27, #46
	mov	x26, #12947848928690176
	mov	x24, #197568495616
	mov	x22, #50577534877696
	mov	x2, #3314649325744685056
	mov	w23, #3014656
	mov	w25, #771751936
	mov	w21, #11776
	mov	w8, #11776
	b	.LBB11_53
.LBB11_48:
	ldp	x30, x12, [sp, #40]
	mov	x26, #12947848928690176
	ldp	x28, x11, [sp, #24]
	mov	x24, #197568495616
	ldr	x9, [sp, #16]
	mov	w10, #46
	mov	x22, #50577534877696
	mov	x2, #3314649325744685056
	mov	w23, #3014656
	mov	w25, #771751936
	mov	w21, #11776
	mov	w8, #11776
	b	.LBB11_14
.LBB11_49:
	ldrb	w8, [x2, #33]
	cmp	x3, #35
	lsl	x8, x8, #8
	b.lo	.LBB11_52
	ldrb	w9, [x2, #34]
	cmp	x3, #35
	lsl	x23, x9, #16
	b.ne	.LBB11_56
	mov	w27, #46
	mov	x26, #12947848928690176
	mov	x24, #197568495616
	mov	x22, #50577534877696
	mov	x2, #3314649325744685056
	mov	w1, #3014656
	mov	w25, #771751936
	mov	w21, #11776
	b	.LBB11_54
.LBB11_52:
	mov	w27, #46
	mov	x26, #12947848928690176
	mov	x24, #197568495616
	mov	x22, #50577534877696
	mov	x2, #3314649325744685056
	mov	w23, #3014656
	mov	w25, #771751936
	mov	w21, #11776
.LBB11_53:
	mov	w1, #3014656
.LBB11_54:
	ldp	x30, x12, [sp, #40]
.LBB11_55:
	ldp	x28, x11, [sp, #24]
	ldr	x9, [sp, #16]
	ldr	w10, [sp, #12]
	b	.LBB11_15
.LBB11_56:
	ldrb	w9, [x2, #35]
	cmp	x3, #37
	lsl	x25, x9, #24
	b.lo	.LBB11_59
	ldrb	w9, [x2, #36]
	cmp	x3, #37
	lsl	x24, x9, #32
	b.ne	.LBB11_62
	mov	w27, #46
	mov	x26, #12947848928690176
	b	.LBB11_60
.LBB11_59:
	mov	w27, #46
	mov	x26, #12947848928690176
	mov	x24, #197568495616
.LBB11_60:
	mov	x22, #50577534877696
.LBB11_61:
	mov	x2, #3314649325744685056
	mov	w1, #3014656
	mov	w21, #11776
	b	.LBB11_54
.LBB11_62:
	ldrb	w9, [x2, #37]
	cmp	x3, #39
	lsl	x22, x9, #40
	b.lo	.LBB11_65
	ldrb	w9, [x2, #38]
	cmp	x3, #39
	lsl	x26, x9, #48
	b.ne	.LBB11_66
	mov	w27, #46
	b	.LBB11_61
.LBB11_65:
	mov	w27, #46
	mov	x26, #12947848928690176
	b	.LBB11_61
.LBB11_66:
	ldrb	w9, [x2, #39]
	cmp	x3, #41
	lsl	x9, x9, #56
	b.lo	.LBB11_70
	ldrb	w27, [x2, #40]
	cmp	x3, #41
	b.eq	.LBB11_71
	ldrb	w10, [x2, #41]
	cmp	x3, #43
	lsl	x21, x10, #8
	b.lo	.LBB11_73
	ldrb	w10, [x2, #42]
	lsl	x1, x10, #16
	b	.LBB11_72
.LBB11_70:
	mov	w27, #46
.LBB11_71:
	mov	w1, #3014656
	mov	w21, #11776
.LBB11_72:
	ldp	x30, x12, [sp, #40]
	mov	x2, x9
	b	.LBB11_55
.LBB11_73:
	mov	w1, #3014656
	b	.LBB11_72
.Lfunc_end11:
	.size	"std_io::io::error::Error::from_static_message", .Lfunc_end11-"std_io::io::error::Error::from_static_message"

	.section	.rodata.cst16,"aM",@progbits,16
	.p2align	4, 0x0
.LCPI12_0:
	.xword	8458358670138239095
	.xword	3327647951695996518
.LCPI12_1:
	.xword	8367798494427701606
	.xword	2334399978102268015
	.section	.rodata.cst8,"aM",@progbits,8
	.p2align	3, 0x0
.LCPI12_2:
	.hword	2
	.hword	23
	.hword	28
	.hword	0
.LCPI12_3:
	.hword	0
	.hword	35
	.hword	0
	.hword	0
	.section	".text.std_io::io::buffer::Buffer::flush","ax",@progbits
	.p2align	2
	.type	"std_io::io::buffer::Buffer::flush",@function
"std_io::io::buffer::Buffer::flush":
	sub	sp, sp, #208
	stp	x22, x21, [sp, #176]
	ldr	x22, [x0, #1032]
	stp	x29, x30, [sp, #128]
	add	x29, sp, #128
	cmp	x22, #1025
	str	x25, [sp, #144]
	stp	x24, x23, [sp, #160]
	stp	x20, x19, [sp, #192]
	str	xzr, [x0, #1032]
	b.lo	.LBB12_2
	mov	w0, wzr
	b	.LBB12_15
.LBB12_2:
	mov	x24, x0
	mov	x19, x0
	mov	x23, xzr
	ldr	w20, [x24], #4
	add	x25, x22, #64
	b	.LBB12_5
.LBB12_3:
	bl	rattle_errno
	cmp	w0, #4
	b.ne	.LBB12_13
	subs	x25, x25, #1
	b.eq	.LBB12_9
.LBB12_5:
	subs	x21, x22, x23
	b.ls	.LBB12_11
	add	x1, x24, x23
	mov	w0, w20
	mov	x2, x21
	bl	write
	tbnz	x0, #63, .LBB12_3
	cbz	x0, .LBB12_12
	cmp	x0, x21
	csel	x8, x0, x21, lo
	add	x23, x8, x23
	subs	x25, x25, #1
	b.ne	.LBB12_5
.LBB12_9:
	cmp	x22, x23
	b.ls	.LBB12_11
	movi	v1.2d, #0000000000000000
	movi	v2.2d, #0000000000000000
	adrp	x8, .LCPI12_3
	movi	v0.2d, #0000000000000000
	ldr	d3, [x8, :lo12:.LCPI12_3]
	mov	w8, #4
	stp	q1, q1, [sp]
	b	.LBB12_14
.LBB12_11:
	mov	w0, #1
	b	.LBB12_15
.LBB12_12:
	movi	v0.16b, #46
	adrp	x9, .LCPI12_0
	adrp	x10, .LCPI12_1
	adrp	x11, .LCPI12_2
	ldr	q2, [x9, :lo12:.LCPI12_0]
	ldr	q1, [x10, :lo12:.LCPI12_1]
	ldr	d3, [x11, :lo12:.LCPI12_2]
	mov	w8, wzr
	stp	q0, q0, [sp]
	b	.LBB12_14
.LBB12_13:
	mov	w1, w0
	add	x0, sp, #40
	bl	"std_io::io::error::Error::from_raw_os_error"
	ldr	s0, [sp, #40]
	ldp	q4, q5, [sp, #96]
	ldp	q1, q2, [sp, #48]
	ldr	w8, [sp, #44]
	ushll	v3.8h, v0.8b, #0
	ldur	q0, [sp, #80]
	stp	q4, q5, [sp]
.LBB12_14:
	uzp1	v3.8b, v3.8b, v0.8b
	str	q1, [x19, #1056]
	mov	w0, wzr
	str	q0, [x19, #1088]
	ldp	q1, q0, [sp]
	str	w8, [x19, #1052]
	mov	w8, #1
	str	q2, [x19, #1072]
	str	x8, [x19, #1040]
	str	s3, [x19, #1048]
	str	q1, [x19, #1104]
	str	q0, [x19, #1120]
.LBB12_15:
	ldp	x20, x19, [sp, #192]
	ldr	x25, [sp, #144]
	ldp	x22, x21, [sp, #176]
	ldp	x24, x23, [sp, #160]
	ldp	x29, x30, [sp, #128]
	add	sp, sp, #208
	ret
.Lfunc_end12:
	.size	"std_io::io::buffer::Buffer::flush", .Lfunc_end12-"std_io::io::buffer::Buffer::flush"

	.section	".text.unlikely.core::fmt::formatter::Formatter::write_indented::<#bf264aed5fa78656>","ax",@progbits
	.p2align	2
	.type	"core::fmt::formatter::Formatter::write_indented::<#bf264aed5fa78656>",@function
"core::fmt::formatter::Formatter::write_indented::<#bf264aed5fa78656>":
	stp	x29, x30, [sp, #-80]!
	str	x25, [sp, #16]
	mov	x29, sp
	stp	x24, x23, [sp, #32]
	stp	x22, x21, [sp, #48]
	stp	x20, x19, [sp, #64]
	cbz	x2, .LBB13_16
	mov	x21, x2
	mov	x20, x1
	mov	x19, x0
	mov	x8, xzr
	mov	x24, xzr
	b	.LBB13_4
.LBB13_2:
	mov	w23, #1
	add	x1, x20, x25
	mov	x0, x19
	mov	x2, x22
	strb	w23, [x19, #1168]
	bl	"core::fmt::formatter::Formatter::write_raw::<#bf264aed5fa78656>"
	and	w9, w0, #0xff
	mov	x8, x24
	tbnz	w9, #0, .LBB13_18
.LBB13_3:
	cmp	x24, x21
	b.eq	.LBB13_10
.LBB13_4:
	ldrb	w10, [x20, x24]
	mov	x9, x24
	add	x24, x24, #1
	cmp	w10, #10
	b.ne	.LBB13_3
	subs	x22, x24, x8
	csel	x25, xzr, x8, lo
	cmp	x8, x9
	mov	x8, x24
	b.hi	.LBB13_3
	ldrb	w8, [x19, #1168]
	cmp	w8, #1
	b.ne	.LBB13_2
	ldr	x23, [x19, #1160]
	cbz	x23, .LBB13_2
.LBB13_8:
	adrp	x1, .Lstatic.13
	add	x1, x1, :lo12:.Lstatic.13
	mov	x0, x19
	mov	w2, #4
	bl	"core::fmt::formatter::Formatter::write_raw::<#bf264aed5fa78656>"
	and	w8, w0, #0xff
	tbnz	w8, #0, .LBB13_17
	subs	x23, x23, #1
	b.ne	.LBB13_8
	b	.LBB13_2
.LBB13_10:
	cmp	x8, x21
	csel	x22, xzr, x8, hi
	subs	x8, x21, x8
	csel	x21, xzr, x8, lo
	b.ls	.LBB13_16
	ldrb	w8, [x19, #1168]
	cmp	w8, #1
	b.ne	.LBB13_15
	ldr	x23, [x19, #1160]
	cbz	x23, .LBB13_15
.LBB13_13:
	adrp	x1, .Lstatic.13
	add	x1, x1, :lo12:.Lstatic.13
	mov	x0, x19
	mov	w2, #4
	bl	"core::fmt::formatter::Formatter::write_raw::<#bf264aed5fa78656>"
	and	w8, w0, #0xff
	tbnz	w8, #0, .LBB13_17
	subs	x23, x23, #1
	b.ne	.LBB13_13
.LBB13_15:
	add	x1, x20, x22
	mov	x0, x19
	mov	x2, x21
	strb	wzr, [x19, #1168]
	ldp	x20, x19, [sp, #64]
	ldp	x22, x21, [sp, #48]
	ldr	x25, [sp, #16]
	ldp	x24, x23, [sp, #32]
	ldp	x29, x30, [sp], #80
	b	"core::fmt::formatter::Formatter::write_raw::<#bf264aed5fa78656>"
.LBB13_16:
	mov	w23, wzr
	b	.LBB13_18
.LBB13_17:
	mov	w23, #1
.LBB13_18:
	mov	w0, w23
	ldp	x20, x19, [sp, #64]
	ldp	x22, x21, [sp, #48]
	ldr	x25, [sp, #16]
	ldp	x24, x23, [sp, #32]
	ldp	x29, x30, [sp], #80
	ret
.Lfunc_end13:
	.size	"core::fmt::formatter::Formatter::write_indented::<#bf264aed5fa78656>", .Lfunc_end13-"core::fmt::formatter::Formatter::write_indented::<#bf264aed5fa78656>"

	.section	".text.core::fmt::formatter::Formatter::write_raw::<#bf264aed5fa78656>","ax",@progbits
	.p2align	2
	.type	"core::fmt::formatter::Formatter::write_raw::<#bf264aed5fa78656>",@function
"core::fmt::formatter::Formatter::write_raw::<#bf264aed5fa78656>":
	cbz	x2, .LBB14_21
	stp	x29, x30, [sp, #-64]!
	stp	x22, x21, [sp, #32]
	mov	x21, x0
	mov	x8, xzr
	stp	x20, x19, [sp, #48]
	mov	x19, x2
	mov	x20, x1
	str	x23, [sp, #16]
	mov	x29, sp
	b	.LBB14_4
.LBB14_2:
	mov	w10, #1
.LBB14_3:
	add	x8, x10, x8
	cmp	x8, x19
	b.hs	.LBB14_22
.LBB14_4:
	ldrsb	w9, [x20, x8]
	tbz	w9, #31, .LBB14_2
	add	x10, x8, #1
	cmp	x19, x10
	b.ls	.LBB14_29
	ldrsb	w10, [x20, x10]
	tbz	w10, #31, .LBB14_29
	and	w9, w9, #0xff
	cmn	w10, #64
	mov	w11, #-64
	csel	w10, w10, w11, lo
	cmp	w9, #194
	mov	w0, #1
	b.lo	.LBB14_28
	and	w10, w10, #0x7f
	cmp	w10, #63
	b.hi	.LBB14_28
	cmp	w9, #224
	b.hs	.LBB14_11
	mov	w10, #2
	b	.LBB14_3
.LBB14_11:
	add	x11, x8, #2
	cmp	x19, x11
	b.ls	.LBB14_28
	ldrsb	w11, [x20, x11]
	cmn	w11, #65
	b.gt	.LBB14_28
	cmp	w9, #239
	b.hi	.LBB14_17
	lsl	w11, w9, #12
	add	w10, w11, w10, lsl #6
	sub	w10, w10, #224, lsl #12
	cmp	w10, #2048
	b.lo	.LBB14_28
	lsr	w10, w10, #11
	cmp	w10, #27
	mov	w10, #3
	b.lo	.LBB14_3
	cmp	w9, #238
	b.hs	.LBB14_3
	b	.LBB14_28
.LBB14_17:
	add	x11, x8, #3
	cmp	x19, x11
	b.ls	.LBB14_28
	ldrsb	w11, [x20, x11]
	cmn	w11, #65
	b.gt	.LBB14_28
	lsl	w9, w9, #18
	add	w9, w9, w10, lsl #12
	mov	w10, #-62980096
	add	w9, w9, w10
	lsr	w9, w9, #20
	cbnz	w9, .LBB14_28
	mov	w10, #4
	b	.LBB14_3
.LBB14_21:
	mov	w0, wzr
	ret
.LBB14_22:
	ldr	x8, [x21, #1032]
	add	x22, x21, #4
	b	.LBB14_24
.LBB14_23:
	sub	x19, x19, #1
	strb	w23, [x22, x8]
	add	x8, x8, #1
	str	x8, [x21, #1032]
	cbz	x19, .LBB14_30
.LBB14_24:
	ldrb	w23, [x20], #1
	cmp	x8, #1024
	b.lo	.LBB14_23
	mov	x0, x21
	bl	"std_io::io::buffer::Buffer::flush"
	cbz	w0, .LBB14_29
	ldr	x8, [x21, #1032]
	cmp	x8, #1023
	b.ls	.LBB14_23
	mov	w0, #1
.LBB14_28:
	ldp	x20, x19, [sp, #48]
	ldr	x23, [sp, #16]
	ldp	x22, x21, [sp, #32]
	ldp	x29, x30, [sp], #64
	ret
.LBB14_29:
	mov	w0, #1
	ldp	x20, x19, [sp, #48]
	ldr	x23, [sp, #16]
	ldp	x22, x21, [sp, #32]
	ldp	x29, x30, [sp], #64
	ret
.LBB14_30:
	mov	w0, wzr
	ldp	x20, x19, [sp, #48]
	ldr	x23, [sp, #16]
	ldp	x22, x21, [sp, #32]
	ldp	x29, x30, [sp], #64
	ret
.Lfunc_end14:
	.size	"core::fmt::formatter::Formatter::write_raw::<#bf264aed5fa78656>", .Lfunc_end14-"core::fmt::formatter::Formatter::write_raw::<#bf264aed5fa78656>"

	.section	.rodata.cst16,"aM",@progbits,16
	.p2align	4, 0x0
.LCPI15_0:
	.byte	4
	.byte	255
	.byte	255
	.byte	255
	.byte	5
	.byte	255
	.byte	255
	.byte	255
	.byte	6
	.byte	255
	.byte	255
	.byte	255
	.byte	7
	.byte	255
	.byte	255
	.byte	255
.LCPI15_1:
	.byte	0
	.byte	255
	.byte	255
	.byte	255
	.byte	1
	.byte	255
	.byte	255
	.byte	255
	.byte	2
	.byte	255
	.byte	255
	.byte	255
	.byte	3
	.byte	255
	.byte	255
	.byte	255
.LCPI15_2:
	.byte	12
	.byte	255
	.byte	255
	.byte	255
	.byte	13
	.byte	255
	.byte	255
	.byte	255
	.byte	14
	.byte	255
	.byte	255
	.byte	255
	.byte	15
	.byte	255
	.byte	255
	.byte	255
.LCPI15_3:
	.byte	8
	.byte	255
	.byte	255
	.byte	255
	.byte	9
	.byte	255
	.byte	255
	.byte	255
	.byte	10
	.byte	255
	.byte	255
	.byte	255
	.byte	11
	.byte	255
	.byte	255
	.byte	255
.LCPI15_4:
	.byte	0
	.byte	4
	.byte	8
	.byte	12
	.byte	16
	.byte	20
	.byte	24
	.byte	28
	.byte	32
	.byte	36
	.byte	40
	.byte	44
	.byte	48
	.byte	52
	.byte	56
	.byte	60
.LCPI15_5:
	.byte	0
	.byte	4
	.byte	8
	.byte	12
	.byte	16
	.byte	20
	.byte	24
	.byte	28
	.byte	255
	.byte	255
	.byte	255
	.byte	255
	.byte	255
	.byte	255
	.byte	255
	.byte	255
	.section	.text.main,"ax",@progbits
	.globl	main
	.p2align	2
	.type	main,@function
main:
	stp	d15, d14, [sp, #-160]!
	sub	x9, sp, #48, lsl #12
	stp	d13, d12, [sp, #16]
	stp	d11, d10, [sp, #32]
	stp	d9, d8, [sp, #48]
	stp	x29, x30, [sp, #64]
	add	x29, sp, #64
	stp	x28, x27, [sp, #80]
	stp	x26, x25, [sp, #96]
	stp	x24, x23, [sp, #112]
	stp	x22, x21, [sp, #128]
	stp	x20, x19, [sp, #144]
.LBB15_1:
	sub	sp, sp, #3072
	cmp	sp, x9
	str	xzr, [sp]
	b.ne	.LBB15_1
	sub	sp, sp, #1824
	add	x25, sp, #48, lsl #12
	add	x24, sp, #48, lsl #12
	add	x22, sp, #48, lsl #12
	add	x21, sp, #32, lsl #12
	mov	w0, #13
	mov	w1, #1
	str	xzr, [sp]
	add	x25, x25, #1568
	add	x24, x24, #1200
	add	x22, x22, #672
	add	x21, x21, #672
	mov	w26, #65537
	bl	__sysv_signal
	add	x0, sp, #664
	mov	w1, wzr
	mov	w2, #65537
	add	x19, sp, #664
	bl	memset
	mov	x20, xzr
.LBB15_3:
	add	x1, x19, x20
	sub	x2, x26, x20
	mov	w0, wzr
	sub	x23, x26, x20
	bl	read
	tbnz	x0, #63, .LBB15_14
	cbz	x0, .LBB15_6
	cmp	x0, x23
	csel	x8, x0, x23, lo
	add	x20, x8, x20
	cmp	x20, x26
	b.lo	.LBB15_3
.LBB15_6:
	mov	x23, x0
	add	x0, sp, #32, lsl #12
	mov	w1, wzr
	add	x0, x0, #672
	mov	w2, #65536
	bl	memset
	add	x0, sp, #16, lsl #12
	mov	w1, wzr
	mov	w2, #65536
	add	x0, x0, #672
	bl	memset
	movi	v0.2d, #0000000000000000
	mov	x27, xzr
	mov	x8, xzr
	cmp	x20, #16, lsl #12
	str	xzr, [x22, #368]
	stp	q0, q0, [x22, #16]
	stp	q0, q0, [x22, #48]
	stp	q0, q0, [x22, #80]
	stp	q0, q0, [x22, #112]
	stp	q0, q0, [x22, #144]
	stp	q0, q0, [x22, #176]
	stp	q0, q0, [x22, #208]
	stp	q0, q0, [x22, #240]
	stp	q0, q0, [x22, #272]
	stp	q0, q0, [x22, #304]
	stp	q0, q0, [x22, #336]
	str	q0, [x22]
	b.hi	.LBB15_9
	add	x0, sp, #48, lsl #12
	add	x1, sp, #664
	mov	x2, x20
	add	x0, x0, #672
	mov	w3, #1
	bl	"jpeg_header::header"
	ldrb	w8, [x22]
	ldr	x27, [x22, #8]
	cbz	w8, .LBB15_19
	ldr	x8, [x22, #16]
.LBB15_9:
	mov	x28, x27
.LBB15_10:
	movi	v0.2d, #0000000000000000
	add	x10, sp, #48, lsl #12
	and	w9, w28, #0xff
	add	x10, x10, #672
	cmp	w9, #4
	add	x20, x10, #23
	add	x19, x10, #22
	stp	q0, q0, [x24]
	stp	q0, q0, [x24, #32]
	stp	q0, q0, [x24, #64]
	stp	q0, q0, [x25]
	stp	q0, q0, [x25, #32]
	str	q0, [x25, #64]
	b.le	.LBB15_15
	cmp	w9, #6
	b.le	.LBB15_22
	sub	w9, w9, #7
	cmp	w9, #3
	b.hs	.LBB15_37
	mov	w26, wzr
	b	.LBB15_43
.LBB15_14:
	mov	x23, x0
	bl	rattle_errno
	b	.LBB15_51
.LBB15_15:
	cmp	w9, #1
	b.le	.LBB15_24
	cmp	w9, #2
	b.eq	.LBB15_39
	cmp	w9, #3
	b.eq	.LBB15_42
	mov	w26, wzr
	mov	w28, #5
	b	.LBB15_43
.LBB15_19:
	lsr	x8, x27, #16
	cbz	x8, .LBB15_27
	mov	w28, #5
.LBB15_21:
	mov	x8, xzr
	b	.LBB15_10
.LBB15_22:
	cmp	w9, #5
	b.ne	.LBB15_26
	mov	w26, wzr
	mov	w28, #6
	b	.LBB15_43
.LBB15_24:
	cbnz	w9, .LBB15_26
	mov	w26, wzr
	mov	w28, #1
	b	.LBB15_43
.LBB15_26:
	mov	w26, wzr
	mov	w28, #2
	b	.LBB15_43
.LBB15_27:
	ldr	q2, [x22, #16]
	mov	w28, #5
	fmov	x9, d2
	lsr	x8, x9, #16
	cbnz	x8, .LBB15_21
	ldr	x19, [x22, #344]
	cmp	x19, #16, lsl #12
	b.hi	.LBB15_21
	ldr	x8, [x22, #352]
	cmp	x8, #16, lsl #12
	str	x8, [sp, #656]
	b.hi	.LBB15_21
	mvn	x8, x20
	ldr	x28, [x22, #360]
	lsl	x8, x8, #1
	cmp	x8, x28
	b.hs	.LBB15_32
	mov	w28, #6
	b	.LBB15_21
.LBB15_32:
	ldp	q1, q0, [x22, #32]
	add	x0, sp, #48, lsl #12
	str	q2, [sp, #640]
	add	x2, sp, #48, lsl #12
	add	x0, x0, #1568
	stur	q2, [x22, #8]
	add	x2, x2, #672
	mov	x1, x20
	stp	q0, q1, [sp, #576]
	stur	q1, [x22, #24]
	ldp	q1, q2, [x22, #64]
	stur	q0, [x22, #40]
	str	x9, [sp, #304]
	ldp	x8, x9, [x22, #272]
	str	q1, [sp, #608]
	stur	q1, [x22, #56]
	ldp	q0, q1, [x22, #96]
	str	q2, [sp, #560]
	stur	q2, [x22, #72]
	stp	q0, q1, [sp, #512]
	stur	q0, [x22, #88]
	ldp	q2, q0, [x22, #128]
	stur	q1, [x22, #104]
	stp	x9, x8, [sp, #368]
	str	q2, [sp, #496]
	stur	q2, [x22, #120]
	ldp	q1, q2, [x22, #160]
	str	q0, [sp, #544]
	stur	q0, [x22, #136]
	stp	q2, q1, [sp, #464]
	stur	q1, [x22, #152]
	ldp	q0, q1, [x22, #192]
	stur	q2, [x22, #168]
	str	x27, [x22]
	stp	q1, q0, [sp, #432]
	stur	q1, [x22, #200]
	ldr	q1, [x22, #256]
	stp	x8, x9, [x22, #264]
	ldp	x8, x10, [x22, #288]
	stur	q0, [x22, #184]
	ldp	q0, q2, [x22, #224]
	str	q1, [sp, #384]
	stp	x10, x8, [sp, #352]
	stp	x8, x10, [x22, #280]
	ldp	x8, x9, [x22, #304]
	stp	q2, q0, [sp, #400]
	stur	q0, [x22, #216]
	movi	v0.2d, #0000000000000000
	stp	x9, x8, [sp, #336]
	stp	x8, x9, [x22, #296]
	ldp	x8, x10, [x22, #320]
	ldr	x9, [x22, #336]
	stur	q2, [x22, #232]
	stur	q1, [x22, #248]
	stp	x10, x8, [sp, #320]
	stp	x8, x10, [x22, #312]
	ldr	x8, [sp, #656]
	str	x9, [sp, #312]
	stp	x9, x19, [x22, #328]
	ldr	x9, [x22, #368]
	stp	x8, x28, [x22, #344]
	str	x9, [sp, #632]
	str	x9, [x22, #360]
	stp	q0, q0, [x24, #384]
	stp	q0, q0, [x24, #416]
	stp	q0, q0, [x24, #448]
	stp	q0, q0, [x24, #480]
	str	q0, [x24, #368]
	bl	"jpeg_scan_plan::Plan::of"
	ldrb	w8, [x24, #368]
	cmp	w8, #1
	b.ne	.LBB15_35
	ldp	q1, q2, [x25, #80]
	add	x10, sp, #48, lsl #12
	add	x10, x10, #1056
	ldur	q0, [x25, #9]
	add	x8, sp, #664
	ldrb	w9, [x24, #376]
	stp	x8, x20, [x10, #144]
	ldr	x8, [x25, #24]
	stur	q1, [x10, #232]
	add	x0, sp, #48, lsl #12
	add	x1, sp, #48, lsl #12
	stur	q2, [x10, #248]
	ldp	q1, q2, [x25, #112]
	stur	q0, [x10, #161]
	add	x0, x0, #1056
	add	x1, x1, #1200
	sub	x3, x29, #81
	mov	w2, wzr
	mov	x4, xzr
	stur	q2, [x24, #136]
	ldp	q2, q0, [x25, #48]
	stur	q1, [x24, #120]
	ldr	q1, [x25, #32]
	strb	w9, [x10, #160]
	stur	q0, [x24, #72]
	movi	v0.2d, #0000000000000000
	stur	q1, [x24, #40]
	stur	q2, [x24, #56]
	str	x8, [x10, #176]
	stp	q0, q0, [x22, #384]
	bl	"jpeg_scan::run::<#c44e4da361dd472c>"
	ldrb	w8, [x22, #384]
	cbz	w8, .LBB15_71
	ldrb	w8, [x22, #392]
	b	.LBB15_36
.LBB15_35:
	mov	w8, #3
.LBB15_36:
	movi	v0.2d, #0000000000000000
	add	x9, sp, #48, lsl #12
	mov	w8, w8
	add	x9, x9, #672
	add	x20, x9, #23
	add	x19, x9, #22
	stp	q0, q0, [x24]
	stp	q0, q0, [x24, #32]
	stp	q0, q0, [x24, #64]
	stp	q0, q0, [x25]
	stp	q0, q0, [x25, #32]
	str	q0, [x25, #64]
.LBB15_37:
	and	w8, w8, #0xff
	cmp	w8, #1
	b.gt	.LBB15_40
	cbnz	w8, .LBB15_70
.LBB15_39:
	mov	w26, wzr
	mov	w28, #3
	b	.LBB15_43
.LBB15_40:
	cmp	w8, #2
	b.ne	.LBB15_42
	mov	w28, #11
	mov	w26, #1
	b	.LBB15_43
.LBB15_42:
	mov	w26, wzr
	mov	w28, #4
.LBB15_43:
	add	x0, sp, #48, lsl #12
	adrp	x1, .Lstatic.3
	add	x1, x1, :lo12:.Lstatic.3
	add	x0, x0, #1568
	mov	w2, #8
	bl	"core::fmt::type_impls::writers::RefMutWrite::write_str::<#18b16ec19ae6b37c>"
	and	w8, w0, #0xff
	tbnz	w8, #0, .LBB15_51
	stp	xzr, xzr, [x22]
	stur	xzr, [x22, #15]
	cbz	w26, .LBB15_46
	mov	w9, #49
	add	w8, w28, #38
	mov	w2, #2
	strb	w9, [x22, #22]
	b	.LBB15_47
.LBB15_46:
	orr	w8, w28, #0x30
	mov	w2, #1
	mov	x19, x20
.LBB15_47:
	add	x0, sp, #48, lsl #12
	strb	w8, [x22, #23]
	mov	w8, #45
	add	x0, x0, #1568
	mov	x1, x19
	sturb	w8, [x19, #-1]
	bl	"core::fmt::type_impls::writers::RefMutWrite::write_str::<#18b16ec19ae6b37c>"
	and	w8, w0, #0xff
	tbnz	w8, #0, .LBB15_51
	add	x0, sp, #48, lsl #12
	adrp	x1, .Lstatic.4
	add	x1, x1, :lo12:.Lstatic.4
	add	x0, x0, #1568
	mov	w2, #1
	bl	"core::fmt::type_impls::writers::RefMutWrite::write_str::<#18b16ec19ae6b37c>"
	mov	x19, xzr
	and	w8, w0, #0xff
	tbnz	w8, #0, .LBB15_51
.LBB15_49:
	ldr	x8, [x25, #64]
	mov	w9, #64
	add	x0, sp, #48, lsl #12
	add	x1, sp, #48, lsl #12
	add	x0, x0, #672
	stp	xzr, xzr, [x22]
	cmp	x8, #64
	add	x1, x1, #1568
	str	xzr, [x22, #16]
	csel	x2, x8, x9, lo
	bl	"core::str::utf8::from_utf8"
	ldrb	w8, [x22]
	ldp	x9, x10, [x22, #8]
	adrp	x11, .Lstatic.2
	add	x11, x11, :lo12:.Lstatic.2
	add	x0, sp, #48, lsl #12
	cmp	w8, #0
	add	x0, x0, #1200
	csel	x1, x9, x11, eq
	csel	x2, x10, xzr, eq
	bl	"std::io::stdio::StdoutWrite::write_all"
	ldrb	w8, [x24]
	cbnz	w8, .LBB15_51
	movi	v0.2d, #0000000000000000
	add	x0, sp, #48, lsl #12
	add	x1, sp, #32, lsl #12
	add	x0, x0, #672
	add	x1, x1, #672
	mov	x2, x19
	stp	q0, q0, [x22]
	stp	q0, q0, [x22, #32]
	stp	q0, q0, [x22, #64]
	bl	"std::io::stdio::StdoutWrite::write_all"
	ldrb	w8, [x22]
	cmp	w8, #1
	b.ne	.LBB15_68
.LBB15_51:
	add	x20, sp, #664
	mov	w8, #2
	mov	w1, wzr
	orr	x0, x20, #0x4
	mov	w2, #1132
	str	w8, [sp, #664]
	orr	x19, x20, #0x4
	bl	memset
	movi	v0.2d, #0000000000000000
	mov	w8, #32
	add	x22, x20, #1140
	add	x9, x20, #1160
	str	wzr, [sp, #1812]
	mov	x10, #-1
	str	w8, [sp, #1800]
	add	x20, x20, #1136
	str	xzr, [x22]
	str	q0, [x9]
	add	x9, sp, #1545
	ldur	q0, [x9, #255]
	str	x10, [sp, #1816]
	str	x10, [x21, #16]
	str	q0, [x21]
	str	w8, [sp, #1800]
	str	xzr, [x22]
	str	wzr, [sp, #1812]
	tbnz	x23, #63, .LBB15_57
	mov	x23, xzr
	mov	x8, xzr
	b	.LBB15_54
.LBB15_53:
	add	x23, x23, #1
	strb	w24, [x19, x8]
	add	x8, x8, #1
	cmp	x23, #41
	str	x8, [sp, #1696]
	b.eq	.LBB15_62
.LBB15_54:
	adrp	x9, .Lstatic.18
	add	x9, x9, :lo12:.Lstatic.18
	cmp	x8, #1024
	ldrb	w24, [x9, x23]
	b.lo	.LBB15_53
	add	x0, sp, #664
	bl	"std_io::io::buffer::Buffer::flush"
	cbz	w0, .LBB15_67
	ldr	x8, [sp, #1696]
	cmp	x8, #1023
	b.ls	.LBB15_53
	b	.LBB15_67
.LBB15_57:
	mov	x23, xzr
	mov	x8, xzr
	b	.LBB15_59
.LBB15_58:
	add	x23, x23, #1
	strb	w24, [x19, x8]
	add	x8, x8, #1
	cmp	x23, #37
	str	x8, [sp, #1696]
	b.eq	.LBB15_62
.LBB15_59:
	adrp	x9, .Lstatic.17
	add	x9, x9, :lo12:.Lstatic.17
	cmp	x8, #1024
	ldrb	w24, [x9, x23]
	b.lo	.LBB15_58
	add	x0, sp, #664
	bl	"std_io::io::buffer::Buffer::flush"
	cbz	w0, .LBB15_67
	ldr	x8, [sp, #1696]
	cmp	x8, #1023
	b.ls	.LBB15_58
	b	.LBB15_67
.LBB15_62:
	ldr	q0, [x21]
	ldr	x9, [x21, #16]
	mov	w10, #32
	str	q0, [x20]
	str	x9, [x20, #16]
	ldr	q0, [x20]
	str	w10, [sp, #1800]
	ldr	x10, [sp, #1824]
	str	x9, [x21, #16]
	mov	x9, #-1
	str	xzr, [x22]
	str	q0, [x21]
	str	wzr, [x22, #8]
	str	x9, [sp, #1816]
	cbnz	x10, .LBB15_69
	cmp	x8, #1024
	b.lo	.LBB15_66
	add	x0, sp, #664
	bl	"std_io::io::buffer::Buffer::flush"
	cbz	w0, .LBB15_67
	ldr	x8, [sp, #1696]
	cmp	x8, #1023
	b.hi	.LBB15_67
.LBB15_66:
	mov	w9, #10
	strb	w9, [x19, x8]
	add	x8, x8, #1
	str	x8, [sp, #1696]
.LBB15_67:
	ldr	x8, [x21, #16]
	ldr	q0, [x21]
	mov	x1, x19
	mov	w2, #1132
	str	x8, [x20, #16]
	ldr	w8, [sp, #664]
	str	q0, [x20]
	str	w8, [x21]
	add	x8, sp, #32, lsl #12
	add	x8, x8, #672
	orr	x0, x8, #0x4
	bl	memcpy
	add	x0, sp, #32, lsl #12
	add	x0, x0, #672
	bl	"std_io::io::buffer::Buffer::flush"
.LBB15_68:
	mov	w0, wzr
	add	sp, sp, #48, lsl #12
	add	sp, sp, #1824
	ldp	x20, x19, [sp, #144]
	ldp	x22, x21, [sp, #128]
	ldp	x24, x23, [sp, #112]
	ldp	x26, x25, [sp, #96]
	ldp	x28, x27, [sp, #80]
	ldp	x29, x30, [sp, #64]
	ldp	d9, d8, [sp, #48]
	ldp	d11, d10, [sp, #32]
	ldp	d13, d12, [sp, #16]
	ldp	d15, d14, [sp], #160
	ret
.LBB15_69:
	adrp	x1, .Lstatic.4
	add	x1, x1, :lo12:.Lstatic.4
	add	x0, sp, #664
	mov	w2, #1
	bl	"core::fmt::formatter::Formatter::write_indented::<#bf264aed5fa78656>"
	b	.LBB15_67
.LBB15_70:
	mov	w28, #10
	mov	w26, #1
	b	.LBB15_43
.LBB15_71:
	ldr	q0, [sp, #640]
	mov	x8, v0.d[1]
	cmp	x8, #2
	b.eq	.LBB15_73
	cmp	x8, #4
	b.ne	.LBB15_74
.LBB15_73:
	movi	v0.2d, #0000000000000000
	add	x8, sp, #48, lsl #12
	mov	w26, wzr
	add	x8, x8, #672
	mov	w28, #5
	b	.LBB15_76
.LBB15_74:
	movi	v0.2d, #0000000000000000
	str	x8, [sp, #296]
	ldr	x8, [sp, #632]
	add	x0, sp, #48, lsl #12
	add	x1, sp, #664
	mov	x2, x20
	add	x0, x0, #672
	and	w3, w8, #0x1
	str	xzr, [x22, #368]
	stp	q0, q0, [x22, #16]
	stp	q0, q0, [x22, #48]
	stp	q0, q0, [x22, #80]
	stp	q0, q0, [x22, #112]
	stp	q0, q0, [x22, #144]
	stp	q0, q0, [x22, #176]
	stp	q0, q0, [x22, #208]
	stp	q0, q0, [x22, #240]
	stp	q0, q0, [x22, #272]
	stp	q0, q0, [x22, #304]
	stp	q0, q0, [x22, #336]
	str	q0, [x22]
	bl	"jpeg_header::header"
	ldrb	w8, [x22]
	cbz	w8, .LBB15_77
.LBB15_75:
	movi	v0.2d, #0000000000000000
	add	x8, sp, #48, lsl #12
	mov	w26, wzr
	add	x8, x8, #672
	mov	w28, #8
.LBB15_76:
	add	x20, x8, #23
	add	x19, x8, #22
	stp	q0, q0, [x24]
	stp	q0, q0, [x24, #32]
	stp	q0, q0, [x24, #64]
	stp	q0, q0, [x25]
	stp	q0, q0, [x25, #32]
	str	q0, [x25, #64]
	b	.LBB15_43
.LBB15_77:
	ldp	q1, q0, [x22, #144]
	ldr	q6, [sp, #544]
	ldp	q3, q2, [x22, #176]
	ldr	x12, [sp, #320]
	ldr	x16, [x22, #344]
	ldr	x15, [x22, #8]
	cmeq	v1.2d, v1.2d, v6.2d
	ldr	q6, [sp, #480]
	ldp	q20, q18, [sp, #416]
	cmeq	v0.2d, v0.2d, v6.2d
	ldp	q16, q6, [sp, #448]
	ldp	q24, q22, [sp, #384]
	ldp	q5, q4, [x22, #112]
	cmeq	v3.2d, v3.2d, v6.2d
	ldp	q7, q6, [x22, #208]
	cmeq	v2.2d, v2.2d, v16.2d
	ldp	q17, q16, [x22, #80]
	uzp1	v0.4s, v1.4s, v0.4s
	ldp	x13, x8, [x22, #352]
	cmeq	v7.2d, v7.2d, v18.2d
	ldp	q19, q18, [x22, #240]
	cmeq	v6.2d, v6.2d, v20.2d
	ldp	q20, q21, [x22, #16]
	uzp1	v1.4s, v3.4s, v2.4s
	ldp	x9, x10, [x22, #312]
	cmeq	v18.2d, v18.2d, v24.2d
	ldr	q24, [sp, #592]
	cmeq	v19.2d, v19.2d, v22.2d
	ldp	q23, q22, [x22, #48]
	uzp1	v2.4s, v7.4s, v6.4s
	cmeq	v21.2d, v21.2d, v24.2d
	ldr	q24, [sp, #640]
	cmp	x8, x28
	uzp1	v3.4s, v19.4s, v18.4s
	uzp1	v0.8h, v0.8h, v1.8h
	cset	w14, eq
	cmeq	v20.2d, v20.2d, v24.2d
	ldr	q24, [sp, #576]
	ldp	x11, x8, [sp, #328]
	cmeq	v23.2d, v23.2d, v24.2d
	ldr	q24, [sp, #608]
	uzp1	v6.4s, v20.4s, v21.4s
	uzp1	v1.8h, v2.8h, v3.8h
	cmeq	v22.2d, v22.2d, v24.2d
	ldr	q24, [sp, #560]
	cmp	x9, x8
	cset	w8, eq
	cmp	x10, x11
	cmeq	v17.2d, v17.2d, v24.2d
	ldr	q24, [sp, #512]
	cset	w11, eq
	uzp1	v7.4s, v23.4s, v22.4s
	uzp1	v0.16b, v0.16b, v1.16b
	cmeq	v16.2d, v16.2d, v24.2d
	ldr	q24, [sp, #528]
	ldp	x9, x10, [x22, #328]
	cmeq	v5.2d, v5.2d, v24.2d
	ldr	q24, [sp, #496]
	uzp1	v16.4s, v17.4s, v16.4s
	uzp1	v2.8h, v6.8h, v7.8h
	cmeq	v4.2d, v4.2d, v24.2d
	cmp	x9, x12
	ldr	x12, [sp, #312]
	cset	w9, eq
	ldp	x17, x18, [x22, #272]
	cmp	x10, x12
	uzp1	v4.4s, v5.4s, v4.4s
	cset	w12, eq
	cmp	x16, x19
	ldr	x16, [sp, #656]
	cset	w10, eq
	cmp	x13, x16
	uzp1	v3.8h, v16.8h, v4.8h
	cset	w13, eq
	cmp	x15, x27
	ldr	x15, [sp, #376]
	uzp1	v2.16b, v2.16b, v3.16b
	and	v0.16b, v2.16b, v0.16b
	shl	v0.16b, v0.16b, #7
	cmlt	v0.16b, v0.16b, #0
	uminv	b0, v0.16b
	fmov	w16, s0
	and	w14, w14, w16
	csel	w14, wzr, w14, ne
	cmp	x17, x15
	ldr	x17, [sp, #368]
	ldp	x15, x16, [x22, #288]
	csel	w14, wzr, w14, ne
	cmp	x18, x17
	ldr	x18, [sp, #360]
	ldr	x17, [x22, #304]
	ccmp	x15, x18, #0, eq
	ldr	x15, [sp, #352]
	ccmp	x16, x15, #0, eq
	ldr	x15, [sp, #344]
	csel	w14, wzr, w14, ne
	cmp	x17, x15
	csel	w14, wzr, w14, ne
	cmp	w14, #1
	b.ne	.LBB15_75
	cbz	w8, .LBB15_75
	cbz	w11, .LBB15_75
	cbz	w9, .LBB15_75
	cbz	w12, .LBB15_75
	cbz	w10, .LBB15_75
	cbz	w13, .LBB15_75
	ldrb	w8, [x22, #368]
	ldr	x9, [sp, #632]
	cmp	w8, w9, uxtb
	b.ne	.LBB15_75
	ldr	q0, [sp, #592]
	ldr	x8, [sp, #304]
	add	x0, sp, #48, lsl #12
	add	x2, sp, #48, lsl #12
	add	x0, x0, #1056
	mov	x1, x20
	stur	q0, [x24, #24]
	ldr	q0, [sp, #576]
	add	x2, x2, #1200
	stp	x27, x8, [x24]
	ldr	x8, [sp, #296]
	stur	q0, [x24, #40]
	ldr	q0, [sp, #608]
	str	x8, [x24, #16]
	ldr	x8, [sp, #376]
	stur	q0, [x24, #56]
	ldr	q0, [sp, #560]
	str	x8, [x24, #264]
	ldr	x8, [sp, #368]
	stur	q0, [x24, #72]
	ldr	q0, [sp, #512]
	str	x8, [x24, #272]
	ldr	x8, [sp, #360]
	stur	q0, [x24, #88]
	ldr	q0, [sp, #528]
	str	x8, [x24, #280]
	ldr	x8, [sp, #352]
	stur	q0, [x24, #104]
	ldr	q0, [sp, #496]
	str	x8, [x24, #288]
	ldr	x8, [sp, #344]
	stur	q0, [x24, #120]
	ldr	q0, [sp, #544]
	str	x8, [x24, #296]
	ldr	x8, [sp, #336]
	stur	q0, [x24, #136]
	ldr	q0, [sp, #480]
	str	x8, [x24, #304]
	ldr	x8, [sp, #328]
	stur	q0, [x24, #152]
	ldr	q0, [sp, #464]
	str	x8, [x24, #312]
	ldr	x8, [sp, #320]
	stur	q0, [x24, #168]
	ldr	q0, [sp, #448]
	str	x8, [x24, #320]
	ldr	x8, [sp, #312]
	stur	q0, [x24, #184]
	ldr	q0, [sp, #432]
	stp	x8, x19, [x24, #328]
	ldr	x8, [sp, #656]
	stur	q0, [x24, #200]
	ldr	q0, [sp, #416]
	stp	x8, x28, [x24, #344]
	ldr	x8, [sp, #632]
	stur	q0, [x24, #216]
	ldr	q0, [sp, #400]
	str	x8, [x24, #360]
	stur	q0, [x24, #232]
	ldr	q0, [sp, #384]
	stur	q0, [x24, #248]
	movi	v0.2d, #0000000000000000
	stp	q0, q0, [x22, #400]
	stp	q0, q0, [x22, #432]
	stp	q0, q0, [x22, #464]
	stp	q0, q0, [x22, #496]
	str	q0, [x22, #384]
	bl	"jpeg_scan_plan::Plan::of"
	ldrb	w8, [x22, #384]
	cmp	w8, #1
	b.ne	.LBB15_75
	movi	v0.2d, #0000000000000000
	add	x9, sp, #48, lsl #12
	add	x8, sp, #664
	add	x9, x9, #1056
	stp	x8, x20, [x25]
	ldrb	w10, [x22, #392]
	ldr	x8, [x9, #24]
	ldr	x28, [x22, #520]
	add	x1, sp, #48, lsl #12
	add	x3, sp, #16, lsl #12
	sub	x0, x29, #160
	add	x1, x1, #1568
	stp	q0, q0, [x25, #160]
	add	x3, x3, #672
	mov	w2, wzr
	stp	q0, q0, [x25, #192]
	ldur	q0, [x9, #9]
	mov	w4, #65536
	str	w10, [sp, #640]
	stur	q0, [x25, #17]
	ldp	q0, q1, [x9, #32]
	str	x8, [x25, #32]
	ldr	x8, [x9, #128]
	strb	w10, [x25, #16]
	stur	q0, [x25, #40]
	stur	q1, [x25, #56]
	ldp	q0, q1, [x9, #64]
	stp	x8, x28, [x25, #136]
	stur	q0, [x25, #72]
	ldp	q2, q0, [x9, #96]
	stur	q1, [x25, #88]
	stur	q0, [x25, #120]
	stur	q2, [x25, #104]
	bl	"jpeg_scan::run::<#c44e4da361dd472c>"
	ldrb	w8, [x25, #160]
	cbnz	w8, .LBB15_75
	cmp	x28, #1025
	b.hs	.LBB15_89
	add	x10, sp, #48, lsl #12
	mov	w8, #9
	add	x11, sp, #48, lsl #12
	add	x10, x10, #1056
	add	x11, x11, #1568
	add	x9, sp, #664
	ldp	q0, q1, [x10, #80]
	orr	x8, x10, x8
	stp	x9, x20, [x25]
	ldr	w9, [sp, #640]
	add	x1, sp, #48, lsl #12
	add	x3, sp, #16, lsl #12
	sub	x0, x29, #128
	add	x1, x1, #1568
	stur	q1, [x11, #104]
	ldr	q1, [x8]
	ldur	x8, [x8, #15]
	stur	q0, [x11, #88]
	ldur	q0, [x10, #112]
	add	x3, x3, #672
	stur	q1, [x11, #17]
	ldp	q1, q2, [x10, #48]
	stur	q0, [x11, #120]
	ldur	q0, [x10, #32]
	mov	w2, #1
	strb	w9, [x25, #16]
	ldur	x9, [x10, #128]
	mov	w4, #65536
	stur	q0, [x11, #40]
	stur	q1, [x11, #56]
	stur	x8, [x11, #32]
	stur	x9, [x11, #136]
	stur	q2, [x11, #72]
	str	x28, [x25, #144]
	bl	"jpeg_scan::run::<#c44e4da361dd472c>"
	ldrb	w8, [x25, #192]
	cbnz	w8, .LBB15_75
.LBB15_89:
	ldr	x8, [sp, #296]
	sub	x8, x8, #1
	cmp	x8, #3
	b.hi	.LBB15_422
	ldr	q0, [sp, #592]
	fmov	x8, d0
	ldr	q0, [sp, #608]
	fmov	x9, d0
	str	x8, [sp, #480]
	sub	x8, x8, #1
	str	x9, [sp, #256]
	sub	x9, x9, #1
	orr	x8, x9, x8
	cmp	x8, #3
	b.hi	.LBB15_422
	ldp	q0, q1, [sp, #592]
	ldr	x9, [sp, #480]
	ldr	x10, [sp, #256]
	mov	x8, v0.d[1]
	ldr	q0, [sp, #576]
	str	x9, [sp, #576]
	str	x10, [sp, #320]
	str	x8, [sp, #464]
	mul	x8, x10, x9
	str	x8, [sp, #232]
	mov	x8, v0.d[1]
	str	x8, [sp, #416]
	mov	x8, v1.d[1]
	ldr	q1, [sp, #560]
	str	x8, [sp, #208]
	mov	x8, v1.d[1]
	str	x8, [sp, #168]
	fmov	x8, d0
	str	x8, [sp, #448]
	ldr	x8, [sp, #296]
	cmp	x8, #1
	fmov	x8, d1
	str	x8, [sp, #184]
	b.ne	.LBB15_96
.LBB15_92:
	ldr	x8, [sp, #232]
	cmp	x8, #10
	b.hi	.LBB15_422
	ldr	x8, [sp, #296]
	mul	x9, x8, x27
	ldr	x8, [sp, #304]
	mul	x8, x9, x8
	str	x9, [sp, #240]
	cmp	x8, x26
	b.hs	.LBB15_422
	ldr	x8, [sp, #576]
	sub	x8, x8, #1
	cmp	x8, #3
	str	x8, [sp, #120]
	b.hi	.LBB15_102
	ldr	x8, [sp, #576]
	and	w9, w27, #0xffff
	lsl	w8, w8, #3
	and	w10, w8, #0xfff8
	udiv	w9, w9, w10
	msub	w8, w9, w8, w27
	tst	w8, #0xffff
	cinc	x8, x9, ne
	b	.LBB15_103
.LBB15_96:
	ldr	x8, [sp, #464]
	ldr	x9, [sp, #208]
	sub	x8, x8, #1
	sub	x9, x9, #1
	orr	x8, x9, x8
	cmp	x8, #3
	b.hi	.LBB15_422
	ldr	x9, [sp, #464]
	ldr	x10, [sp, #208]
	ldr	x8, [sp, #232]
	madd	x8, x10, x9, x8
	str	x8, [sp, #232]
	ldr	x8, [sp, #480]
	cmp	x9, x8
	csel	x8, x9, x8, hi
	str	x8, [sp, #576]
	ldr	x8, [sp, #256]
	cmp	x10, x8
	csel	x8, x10, x8, hi
	str	x8, [sp, #320]
	ldr	x8, [sp, #296]
	cmp	x8, #2
	b.eq	.LBB15_92
	ldr	x8, [sp, #448]
	ldr	x9, [sp, #184]
	sub	x8, x8, #1
	sub	x9, x9, #1
	orr	x8, x9, x8
	cmp	x8, #3
	b.hi	.LBB15_422
	ldr	x9, [sp, #448]
	ldr	x10, [sp, #184]
	ldr	x8, [sp, #232]
	madd	x8, x10, x9, x8
	str	x8, [sp, #232]
	ldr	x8, [sp, #576]
	cmp	x9, x8
	csel	x8, x9, x8, hi
	str	x8, [sp, #576]
	ldr	x8, [sp, #320]
	cmp	x10, x8
	csel	x8, x10, x8, hi
	str	x8, [sp, #320]
	ldr	x8, [sp, #296]
	cmp	x8, #3
	b.eq	.LBB15_92
	ldr	x8, [sp, #416]
	ldr	x9, [sp, #168]
	sub	x8, x8, #1
	sub	x9, x9, #1
	orr	x8, x9, x8
	cmp	x8, #3
	b.hi	.LBB15_422
	ldr	x9, [sp, #416]
	ldr	x10, [sp, #168]
	ldr	x8, [sp, #232]
	madd	x8, x10, x9, x8
	str	x8, [sp, #232]
	ldr	x8, [sp, #576]
	cmp	x9, x8
	csel	x8, x9, x8, hi
	str	x8, [sp, #576]
	ldr	x8, [sp, #320]
	cmp	x10, x8
	csel	x8, x10, x8, hi
	str	x8, [sp, #320]
	b	.LBB15_92
.LBB15_102:
	mov	x8, xzr
.LBB15_103:
	ldr	x9, [sp, #320]
	sub	x9, x9, #1
	cmp	x9, #3
	b.hi	.LBB15_105
	ldr	x9, [sp, #320]
	ldr	x12, [sp, #304]
	lsl	w9, w9, #3
	and	w10, w12, #0xffff
	and	w11, w9, #0xfff8
	udiv	w10, w10, w11
	msub	w9, w10, w9, w12
	tst	w9, #0xffff
	cinc	x9, x10, ne
	b	.LBB15_106
.LBB15_105:
	mov	x9, xzr
.LBB15_106:
	ldr	x10, [sp, #232]
	lsl	x10, x10, #6
	mul	x8, x8, x10
	str	x10, [sp, #608]
	mul	x8, x8, x9
	cmp	x8, x19
	b.hi	.LBB15_422
	ldr	x8, [sp, #304]
	cbz	x8, .LBB15_422
	ldr	q0, [sp, #512]
	add	x10, sp, #48, lsl #12
	add	x11, sp, #48, lsl #12
	add	x10, x10, #1568
	ldr	x12, [sp, #576]
	add	x11, x11, #1056
	fmov	x8, d0
	ldr	x13, [sp, #448]
	str	xzr, [sp, #336]
	lsl	x15, x12, #2
	lsl	x14, x12, #1
	str	x8, [sp, #112]
	mov	x8, v0.d[1]
	ldr	q0, [sp, #528]
	str	x14, [sp, #384]
	add	x14, x14, x12
	str	x8, [sp, #104]
	fmov	x8, d0
	str	x8, [sp, #96]
	mov	x8, v0.d[1]
	ldr	q0, [sp, #496]
	str	x8, [sp, #88]
	fmov	x8, d0
	str	x8, [sp, #80]
	mov	x8, v0.d[1]
	ldr	q0, [sp, #544]
	mov	x9, v0.d[1]
	str	x8, [sp, #72]
	fmov	x8, d0
	stp	x9, x8, [sp, #56]
	add	x8, sp, #48, lsl #12
	add	x8, x8, #1200
	add	x9, x8, #64
	str	x9, [sp, #312]
	add	x9, x8, #32
	str	x9, [sp, #328]
	add	x9, x8, #96
	add	x8, x8, #16
	str	x9, [sp, #24]
	ldr	x9, [sp, #296]
	str	x8, [sp, #136]
	add	x8, x10, #16
	lsl	x10, x12, #3
	cmp	x9, #1
	str	x8, [sp, #224]
	add	x8, x11, #16
	ccmp	x12, #1, #0, eq
	str	x8, [sp, #216]
	ldr	x11, [sp, #464]
	cset	w8, eq
	str	x10, [sp, #560]
	sub	x10, x10, x12
	str	w8, [sp, #204]
	ldr	x8, [sp, #320]
	cmp	x11, #1
	stp	x10, x15, [sp, #368]
	ldr	x10, [sp, #480]
	lsl	x8, x8, #3
	ccmp	x10, x12, #0, eq
	str	x8, [sp, #248]
	lsl	w8, w12, #3
	add	x12, x15, x12
	stp	x12, x14, [sp, #352]
	lsl	x12, x14, #1
	ccmp	x13, #1, #0, eq
	str	w8, [sp, #20]
	add	x8, x27, #7
	ccmp	x9, #3, #0, eq
	lsr	x8, x8, #3
	str	x12, [sp, #344]
	ldr	x12, [sp, #232]
	add	x9, sp, #32, lsl #12
	mul	x8, x12, x8
	add	x9, x9, #672
	str	x8, [sp, #32]
	cset	w8, eq
	str	w8, [sp, #52]
	lsl	x8, x10, #1
	str	x8, [sp, #160]
	lsl	x8, x11, #1
	str	x8, [sp, #128]
	lsl	x8, x13, #1
	str	x8, [sp, #40]
	add	x8, x9, #1
	str	x8, [sp, #400]
	ldr	x8, [sp, #416]
	lsl	x8, x8, #1
	str	x8, [sp, #8]
	add	x8, x9, #2
	str	x8, [sp, #288]
	add	x8, x9, #3
	str	x8, [sp, #280]
	add	x8, sp, #32, lsl #12
	add	x8, x8, #672
	str	x8, [sp, #640]
	add	x8, sp, #32, lsl #12
	add	x8, x8, #672
	str	x8, [sp, #592]
	b	.LBB15_110
.LBB15_109:
	ldr	x9, [sp, #240]
	ldr	x8, [sp, #592]
	ldr	x10, [sp, #336]
	add	x8, x8, x9
	add	x10, x10, #1
	str	x8, [sp, #592]
	ldr	x8, [sp, #400]
	str	x10, [sp, #336]
	add	x8, x8, x9
	str	x8, [sp, #400]
	ldr	x8, [sp, #304]
	cmp	x10, x8
	ldr	x8, [sp, #288]
	add	x8, x8, x9
	str	x8, [sp, #288]
	ldr	x8, [sp, #280]
	add	x8, x8, x9
	ldr	x9, [sp, #640]
	str	x8, [sp, #280]
	add	x8, x27, x27, lsl #1
	add	x9, x9, x8
	str	x9, [sp, #640]
	b.eq	.LBB15_422
.LBB15_110:
	ldr	w8, [sp, #204]
	cbz	w8, .LBB15_118
	ldr	x8, [sp, #248]
	cbz	x8, .LBB15_444
	ldr	x8, [sp, #320]
	cbz	x8, .LBB15_444
	cbz	x27, .LBB15_109
	ldp	x9, x10, [sp, #248]
	mov	x19, xzr
	ldr	x12, [sp, #336]
	ldr	x11, [sp, #480]
	mov	x26, xzr
	udiv	x8, x12, x9
	msub	x9, x8, x9, x12
	mul	x9, x9, x10
	ldr	x10, [sp, #320]
	udiv	x9, x9, x10
	ldr	x10, [sp, #32]
	mul	x8, x10, x8
	lsr	x10, x9, #3
	ubfiz	x9, x9, #3, #3
	madd	x8, x10, x11, x8
	add	x10, sp, #32, lsl #12
	add	x10, x10, #672
	madd	x10, x12, x27, x10
	str	x10, [sp, #544]
	add	x10, sp, #16, lsl #12
	add	x10, x10, #672
	add	x8, x10, x8, lsl #6
	add	x28, x8, x9
	b	.LBB15_116
.LBB15_115:
	ldr	x8, [sp, #608]
	add	x26, x20, x26
	cmp	x26, x27
	add	x19, x19, x8
	b.hs	.LBB15_109
.LBB15_116:
	subs	x8, x27, x26
	mov	w9, #8
	cmp	x8, #8
	csel	x20, x8, x9, lo
	cmp	x27, x26
	b.eq	.LBB15_115
	ldr	x8, [sp, #544]
	add	x1, x28, x19
	mov	x2, x20
	add	x0, x8, x26
	bl	memcpy
	b	.LBB15_115
.LBB15_118:
	ldr	x8, [sp, #208]
	str	x8, [x24, #64]
	ldr	x8, [sp, #184]
	str	x8, [x24, #72]
	ldr	x8, [sp, #168]
	str	x8, [x24, #80]
	ldr	x8, [sp, #112]
	str	x8, [x24, #88]
	ldr	x8, [sp, #104]
	str	x8, [x24, #96]
	ldr	x8, [sp, #96]
	str	x8, [x24, #104]
	ldr	x8, [sp, #88]
	str	x8, [x24, #112]
	ldr	x8, [sp, #80]
	str	x8, [x24, #120]
	ldr	x8, [sp, #72]
	str	x8, [x24, #128]
	ldr	x8, [sp, #64]
	str	x8, [x24, #136]
	ldr	x8, [sp, #304]
	stp	x27, x8, [x24]
	ldr	x8, [sp, #296]
	str	x8, [x24, #16]
	ldr	x8, [sp, #480]
	str	x8, [x24, #24]
	ldr	x8, [sp, #464]
	str	x8, [x24, #32]
	ldr	x8, [sp, #448]
	str	x8, [x24, #40]
	ldr	x8, [sp, #256]
	str	x8, [x24, #56]
	ldr	x8, [sp, #416]
	str	x8, [x24, #48]
	ldr	x8, [sp, #56]
	str	x8, [x24, #144]
	ldr	x8, [sp, #576]
	str	x8, [x24, #152]
	ldr	x8, [sp, #320]
	str	x8, [x24, #160]
	ldr	x8, [sp, #232]
	str	x8, [x24, #168]
	ldr	x8, [sp, #248]
	cbz	x8, .LBB15_444
	ldr	x8, [sp, #120]
	cmp	x8, #3
	b.hi	.LBB15_121
	ldr	w10, [sp, #20]
	and	w8, w27, #0xffff
	and	w9, w10, #0xffff
	udiv	w8, w8, w9
	msub	w9, w8, w10, w27
	tst	w9, #0xffff
	ldr	x9, [sp, #232]
	cinc	x8, x8, ne
	mul	x10, x8, x9
	b	.LBB15_122
.LBB15_121:
	mov	x10, xzr
.LBB15_122:
	movi	v0.2d, #0000000000000000
	ldr	x8, [sp, #320]
	stp	q0, q0, [x25]
	cbz	x8, .LBB15_444
	ldp	x9, x14, [sp, #240]
	add	x12, sp, #32, lsl #12
	ldr	x13, [sp, #336]
	add	x12, x12, #672
	ldr	x16, [sp, #296]
	ldr	x17, [sp, #320]
	mov	x8, xzr
	udiv	x11, x13, x14
	madd	x12, x9, x13, x12
	msub	x9, x11, x14, x13
	mul	x10, x11, x10
	add	x11, x12, #1
	str	x11, [sp, #192]
	add	x11, x12, #2
	str	x11, [sp, #152]
	add	x11, x12, #3
	str	x11, [sp, #176]
.LBB15_124:
	lsl	x11, x8, #3
	add	x12, sp, #48, lsl #12
	add	x8, x8, #1
	add	x12, x12, #1200
	cmp	x16, x8
	add	x12, x12, x11
	ldr	x13, [x12, #56]
	ldr	x12, [x12, #24]
	mul	x14, x13, x9
	udiv	x14, x14, x17
	lsr	x15, x14, #3
	madd	x15, x15, x12, x10
	madd	x10, x12, x13, x10
	ubfiz	x12, x14, #3, #3
	add	x13, sp, #48, lsl #12
	add	x13, x13, #1568
	orr	x12, x12, x15, lsl #6
	str	x12, [x13, x11]
	b.ne	.LBB15_124
	ldr	x8, [x25]
	str	x8, [sp, #496]
	ldr	x8, [x25, #8]
	str	x8, [sp, #272]
	ldr	x8, [x25, #16]
	str	x8, [sp, #264]
	ldr	w8, [sp, #52]
	tbz	w8, #0, .LBB15_160
	cbz	x27, .LBB15_109
	ldr	x8, [sp, #480]
	ldp	x11, x9, [sp, #264]
	add	x10, sp, #16, lsl #12
	cmp	x8, #1
	ldr	x8, [sp, #496]
	add	x10, x10, #672
	add	x9, x10, x9
	add	x8, x10, x8
	add	x10, x10, x11
	b.eq	.LBB15_332
	ldr	x11, [sp, #480]
	cmp	x11, #2
	b.eq	.LBB15_362
	ldr	x11, [sp, #480]
	cmp	x11, #3
	b.ne	.LBB15_376
	mov	x11, xzr
	mov	x12, xzr
	b	.LBB15_132
.LBB15_131:
	add	x12, x13, x12
	ldr	x13, [sp, #608]
	cmp	x12, x27
	add	x11, x11, x13
	b.hs	.LBB15_109
.LBB15_132:
	add	x13, x9, x11
	add	x18, sp, #48, lsl #12
	add	x17, x10, x11
	ldrb	w14, [x13]
	ldrb	w15, [x13, #1]
	add	x18, x18, #1568
	ldrb	w16, [x13, #2]
	stur	wzr, [x18, #25]
	ldr	x0, [sp, #560]
	strb	w14, [x25, #2]
	orr	w14, w14, w14, lsl #8
	add	x1, sp, #48, lsl #12
	sturb	w15, [x18, #5]
	orr	w15, w15, w15, lsl #8
	add	x1, x1, #1568
	strh	w14, [x25]
	orr	w14, w16, w16, lsl #8
	sturh	w15, [x18, #3]
	ldrb	w15, [x13, #3]
	sturb	w16, [x18, #8]
	ldrb	w16, [x13, #4]
	sturh	w14, [x18, #6]
	orr	w14, w15, w15, lsl #8
	sturb	w15, [x18, #11]
	ldrb	w15, [x13, #5]
	sturh	w14, [x18, #9]
	orr	w14, w16, w16, lsl #8
	sturb	w15, [x18, #17]
	sturh	w14, [x18, #12]
	orr	w14, w15, w15, lsl #8
	ldrb	w15, [x13, #6]
	ldrb	w13, [x13, #7]
	sturb	w16, [x18, #14]
	sturh	w14, [x18, #15]
	mov	w14, #16843009
	orr	w16, w15, w15, lsl #8
	mul	w13, w13, w14
	sturb	w15, [x18, #20]
	ldrb	w15, [x17]
	stur	wzr, [x18, #28]
	sturh	w16, [x18, #18]
	ldrb	w16, [x17, #1]
	stur	w13, [x18, #21]
	orr	w13, w15, w15, lsl #8
	add	x18, sp, #48, lsl #12
	add	x18, x18, #1056
	str	xzr, [x24, #24]
	strb	w15, [x18, #2]
	ldrb	w15, [x17, #2]
	strh	w13, [x18]
	orr	w13, w16, w16, lsl #8
	add	x18, sp, #48, lsl #12
	add	x18, x18, #1056
	sturh	w13, [x18, #3]
	orr	w13, w15, w15, lsl #8
	sturb	w15, [x18, #8]
	ldrb	w15, [x17, #3]
	sturh	w13, [x18, #6]
	sturb	w15, [x18, #11]
	orr	w13, w15, w15, lsl #8
	ldrb	w15, [x17, #4]
	sturb	w16, [x18, #5]
	add	x16, x8, x11
	sturh	w13, [x18, #9]
	orr	w13, w15, w15, lsl #8
	ldr	d0, [x16]
	sturb	w15, [x18, #14]
	ldrb	w15, [x17, #5]
	ldr	d1, [x16, #64]
	sturh	w13, [x18, #12]
	sub	x13, x27, x12
	sturb	w15, [x18, #17]
	orr	w15, w15, w15, lsl #8
	mov	v0.d[1], v1.d[0]
	ldr	d1, [x16, #128]
	ldrb	w16, [x17, #7]
	cmp	x0, x13
	sturh	w15, [x18, #15]
	ldrb	w15, [x17, #6]
	csel	x13, x0, x13, lo
	mul	w14, w16, w14
	add	x17, sp, #48, lsl #12
	stur	wzr, [x18, #25]
	orr	w16, w15, w15, lsl #8
	sturb	w15, [x18, #20]
	sub	x15, x13, #1
	cmp	x15, #31
	add	x17, x17, #1056
	stur	wzr, [x18, #28]
	str	q0, [x24]
	str	d1, [x24, #16]
	sturh	w16, [x18, #18]
	stur	w14, [x18, #21]
	b.hi	.LBB15_131
	add	x14, x12, x12, lsl #1
	ldr	x15, [sp, #632]
	tbz	w15, #0, .LBB15_136
	cmp	x13, #8
	b.hs	.LBB15_138
	mov	w19, #62976
	mov	x15, xzr
	movk	w19, #7, lsl #16
	b	.LBB15_149
.LBB15_136:
	cmp	x13, #8
	b.hs	.LBB15_140
	mov	x15, xzr
	b	.LBB15_158
.LBB15_138:
	cmp	x13, #16
	b.hs	.LBB15_142
	mov	x15, xzr
	b	.LBB15_146
.LBB15_140:
	cmp	x13, #32
	b.hs	.LBB15_151
	mov	x15, xzr
	b	.LBB15_155
.LBB15_142:
	add	x16, sp, #48, lsl #12
	add	x17, sp, #48, lsl #12
	add	x18, sp, #48, lsl #12
	and	x15, x13, #0x30
	add	x16, x16, #1056
	add	x17, x17, #1568
	add	x18, x18, #1200
	mov	x0, x14
	and	x1, x13, #0x30
.LBB15_143:
	adrp	x2, .LCPI15_3
	ldr	q2, [x17], #16
	ldr	q5, [x2, :lo12:.LCPI15_3]
	adrp	x2, .LCPI15_2
	mvni	v25.4s, #127
	ldr	q6, [x2, :lo12:.LCPI15_2]
	adrp	x2, .LCPI15_0
	subs	x1, x1, #16
	ldr	q4, [x2, :lo12:.LCPI15_0]
	adrp	x2, .LCPI15_1
	tbl	v26.16b, { v2.16b }, v5.16b
	ldr	q7, [x2, :lo12:.LCPI15_1]
	ldr	q1, [x16], #16
	mov	w2, #42982
	tbl	v29.16b, { v2.16b }, v6.16b
	tbl	v30.16b, { v2.16b }, v4.16b
	tbl	v24.16b, { v2.16b }, v7.16b
	tbl	v20.16b, { v1.16b }, v7.16b
	dup	v18.4h, w2
	mov	w2, #18734
	tbl	v16.16b, { v1.16b }, v5.16b
	tbl	v23.16b, { v1.16b }, v4.16b
	tbl	v19.16b, { v1.16b }, v6.16b
	xtn	v3.4h, v26.4s
	dup	v11.4h, w2
	xtn	v2.4h, v29.4s
	ldr	q14, [x18], #16
	xtn	v21.4h, v24.4s
	xtn	v31.4h, v20.4s
	mov	w2, #62976
	xtn	v1.4h, v16.4s
	xtn	v8.4h, v23.4s
	add	v22.4s, v23.4s, v25.4s
	xtn	v17.4h, v19.4s
	smull	v12.4s, v3.4h, v18.4h
	tbl	v7.16b, { v14.16b }, v7.16b
	smull	v13.4s, v2.4h, v18.4h
	tbl	v28.16b, { v14.16b }, v5.16b
	movk	w2, #7, lsl #16
	smull	v15.4s, v21.4h, v18.4h
	xtn	v21.4h, v30.4s
	xtn	v0.4h, v22.4s
	add	v9.4s, v20.4s, v25.4s
	add	v29.4s, v29.4s, v25.4s
	tbl	v27.16b, { v14.16b }, v6.16b
	umlal	v12.4s, v1.4h, v11.4h
	dup	v1.4s, w2
	mov	w2, #26345
	umlal	v13.4s, v17.4h, v11.4h
	add	v10.4s, v19.4s, v25.4s
	add	v30.4s, v30.4s, v25.4s
	umlal	v15.4s, v31.4h, v11.4h
	smull	v31.4s, v21.4h, v18.4h
	dup	v18.4h, w2
	mov	w2, #50594
	str	d0, [sp, #544]
	xtn	v2.4h, v9.4s
	add	v0.4s, v16.4s, v25.4s
	tbl	v21.16b, { v14.16b }, v4.16b
	sub	v16.4s, v28.4s, v16.4s
	add	v12.4s, v12.4s, v1.4s
	add	v13.4s, v13.4s, v1.4s
	add	v4.4s, v9.4s, v7.4s
	umlal	v31.4s, v8.4h, v11.4h
	add	v8.4s, v26.4s, v25.4s
	add	v14.4s, v15.4s, v1.4s
	movi	v11.4s, #128, lsl #8
	sub	v20.4s, v7.4s, v20.4s
	xtn	v3.4h, v10.4s
	sub	v19.4s, v27.4s, v19.4s
	add	v5.4s, v10.4s, v27.4s
	ssra	v16.4s, v12.4s, #16
	xtn	v9.4h, v8.4s
	add	v8.4s, v8.4s, v8.4s
	xtn	v10.4h, v30.4s
	add	v26.4s, v31.4s, v1.4s
	add	v1.4s, v24.4s, v25.4s
	xtn	v24.4h, v29.4s
	dup	v25.4h, w2
	adrp	x2, .LCPI15_4
	movi	v31.4s, #128, lsl #8
	add	v29.4s, v29.4s, v29.4s
	add	v30.4s, v30.4s, v30.4s
	xtn	v17.4h, v0.4s
	xtn	v12.4h, v1.4s
	add	v1.4s, v1.4s, v1.4s
	add	v0.4s, v0.4s, v28.4s
	add	v28.4s, v8.4s, v28.4s
	movi	v8.4s, #128, lsl #8
	ssra	v20.4s, v14.4s, #16
	smlal	v31.4s, v24.4h, v25.4h
	movi	v24.4s, #128, lsl #8
	smlal	v11.4s, v9.4h, v25.4h
	add	v27.4s, v29.4s, v27.4s
	movi	v29.4s, #128, lsl #8
	movi	v9.4s, #128, lsl #8
	sub	v23.4s, v21.4s, v23.4s
	movi	v14.4s, #128, lsl #8
	add	v6.4s, v22.4s, v21.4s
	ssra	v19.4s, v13.4s, #16
	movi	v13.4s, #128, lsl #8
	add	v1.4s, v1.4s, v7.4s
	add	v7.4s, v30.4s, v21.4s
	ldr	d21, [sp, #544]
	movi	v22.4s, #128
	ssra	v23.4s, v26.4s, #16
	smlal	v29.4s, v17.4h, v18.4h
	smlal	v8.4s, v3.4h, v18.4h
	smlal	v24.4s, v21.4h, v18.4h
	smlal	v9.4s, v2.4h, v18.4h
	smlal	v14.4s, v10.4h, v25.4h
	smlal	v13.4s, v12.4h, v25.4h
	movi	v25.2d, #0000000000000000
	ssra	v27.4s, v31.4s, #16
	add	v17.4s, v23.4s, v22.4s
	add	v18.4s, v20.4s, v22.4s
	add	v19.4s, v19.4s, v22.4s
	add	v16.4s, v16.4s, v22.4s
	ssra	v28.4s, v11.4s, #16
	ssra	v5.4s, v8.4s, #16
	ssra	v6.4s, v24.4s, #16
	ssra	v4.4s, v9.4s, #16
	ssra	v0.4s, v29.4s, #16
	ssra	v7.4s, v14.4s, #16
	ssra	v1.4s, v13.4s, #16
	smax	v2.4s, v27.4s, v25.4s
	movi	v3.2d, #0x0000ff000000ff
	smax	v18.4s, v18.4s, v25.4s
	smax	v17.4s, v17.4s, v25.4s
	smax	v16.4s, v16.4s, v25.4s
	smax	v19.4s, v19.4s, v25.4s
	smax	v20.4s, v28.4s, v25.4s
	smax	v6.4s, v6.4s, v25.4s
	smax	v0.4s, v0.4s, v25.4s
	smax	v5.4s, v5.4s, v25.4s
	smax	v4.4s, v4.4s, v25.4s
	smax	v7.4s, v7.4s, v25.4s
	smax	v1.4s, v1.4s, v25.4s
	smin	v24.4s, v2.4s, v3.4s
	smin	v2.4s, v17.4s, v3.4s
	smin	v17.4s, v18.4s, v3.4s
	smin	v18.4s, v19.4s, v3.4s
	smin	v16.4s, v16.4s, v3.4s
	smin	v23.4s, v20.4s, v3.4s
	smin	v6.4s, v6.4s, v3.4s
	smin	v5.4s, v5.4s, v3.4s
	smin	v0.4s, v0.4s, v3.4s
	smin	v4.4s, v4.4s, v3.4s
	smin	v22.4s, v7.4s, v3.4s
	smin	v21.4s, v1.4s, v3.4s
	ldr	q3, [x2, :lo12:.LCPI15_4]
	ldr	x2, [sp, #640]
	uzp1	v1.8h, v16.8h, v18.8h
	uzp1	v2.8h, v17.8h, v2.8h
	add	x2, x2, x0
	add	x0, x0, #48
	uzp1	v0.8h, v0.8h, v5.8h
	uzp1	v4.8h, v4.8h, v6.8h
	tbl	v7.16b, { v21.16b, v22.16b, v23.16b, v24.16b }, v3.16b
	uzp1	v6.16b, v2.16b, v1.16b
	uzp1	v5.16b, v4.16b, v0.16b
	st3	{ v5.16b, v6.16b, v7.16b }, [x2]
	b.ne	.LBB15_143
	mov	w19, #62976
	cmp	x13, x15
	movk	w19, #7, lsl #16
	b.eq	.LBB15_131
	tbz	w13, #3, .LBB15_149
.LBB15_146:
	add	x17, x15, x15, lsl #1
	add	x18, sp, #48, lsl #12
	add	x0, sp, #48, lsl #12
	add	x2, sp, #48, lsl #12
	mov	x1, x15
	and	x15, x13, #0x38
	add	x18, x18, #1056
	add	x0, x0, #1568
	add	x2, x2, #1200
	sub	x16, x1, x15
	add	x17, x17, x14
	add	x18, x18, x1
	add	x0, x0, x1
	add	x1, x2, x1
.LBB15_147:
	adrp	x2, .LCPI15_1
	ldr	d2, [x0], #8
	ldr	q1, [x2, :lo12:.LCPI15_1]
	adrp	x2, .LCPI15_0
	mov	w3, #26345
	ldr	q0, [x2, :lo12:.LCPI15_0]
	ldr	d4, [x18], #8
	tbl	v3.16b, { v2.16b }, v1.16b
	mov	w2, #42982
	movi	v22.4s, #128, lsl #8
	tbl	v2.16b, { v2.16b }, v0.16b
	dup	v5.4h, w2
	tbl	v6.16b, { v4.16b }, v1.16b
	tbl	v4.16b, { v4.16b }, v0.16b
	mov	w2, #18734
	movi	v23.4s, #128, lsl #8
	dup	v18.4h, w2
	ldr	d17, [x1], #8
	xtn	v7.4h, v3.4s
	mov	w2, #62976
	adds	x16, x16, #8
	xtn	v16.4h, v2.4s
	xtn	v19.4h, v6.4s
	movk	w2, #7, lsl #16
	xtn	v20.4h, v4.4s
	tbl	v1.16b, { v17.16b }, v1.16b
	dup	v21.4s, w2
	tbl	v0.16b, { v17.16b }, v0.16b
	mov	w2, #50594
	movi	v17.4s, #128, lsl #8
	smull	v7.4s, v7.4h, v5.4h
	smull	v5.4s, v16.4h, v5.4h
	mvni	v16.4s, #127
	umlal	v7.4s, v19.4h, v18.4h
	add	v2.4s, v2.4s, v16.4s
	add	v19.4s, v4.4s, v16.4s
	umlal	v5.4s, v20.4h, v18.4h
	add	v3.4s, v3.4s, v16.4s
	add	v16.4s, v6.4s, v16.4s
	dup	v20.4h, w2
	sub	v6.4s, v1.4s, v6.4s
	dup	v18.4h, w3
	xtn	v24.4h, v2.4s
	sub	v4.4s, v0.4s, v4.4s
	xtn	v25.4h, v19.4s
	add	v7.4s, v7.4s, v21.4s
	xtn	v26.4h, v3.4s
	xtn	v27.4h, v16.4s
	add	v5.4s, v5.4s, v21.4s
	movi	v21.4s, #128, lsl #8
	add	v2.4s, v2.4s, v2.4s
	add	v3.4s, v3.4s, v3.4s
	adrp	x2, .LCPI15_5
	ssra	v6.4s, v7.4s, #16
	movi	v7.4s, #128
	smlal	v17.4s, v24.4h, v20.4h
	ssra	v4.4s, v5.4s, #16
	add	v5.4s, v19.4s, v0.4s
	smlal	v23.4s, v26.4h, v20.4h
	add	v0.4s, v2.4s, v0.4s
	smlal	v22.4s, v25.4h, v18.4h
	add	v2.4s, v3.4s, v1.4s
	movi	v3.2d, #0000000000000000
	smlal	v21.4s, v27.4h, v18.4h
	add	v1.4s, v16.4s, v1.4s
	add	v4.4s, v4.4s, v7.4s
	add	v6.4s, v6.4s, v7.4s
	movi	v7.2d, #0x0000ff000000ff
	ssra	v0.4s, v17.4s, #16
	ssra	v2.4s, v23.4s, #16
	ssra	v5.4s, v22.4s, #16
	ssra	v1.4s, v21.4s, #16
	smax	v4.4s, v4.4s, v3.4s
	smax	v6.4s, v6.4s, v3.4s
	smax	v0.4s, v0.4s, v3.4s
	smax	v2.4s, v2.4s, v3.4s
	smax	v5.4s, v5.4s, v3.4s
	smax	v1.4s, v1.4s, v3.4s
	smin	v19.4s, v4.4s, v7.4s
	smin	v4.4s, v0.4s, v7.4s
	smin	v18.4s, v6.4s, v7.4s
	ldr	q0, [x2, :lo12:.LCPI15_5]
	smin	v3.4s, v2.4s, v7.4s
	smin	v17.4s, v5.4s, v7.4s
	adrp	x2, .LCPI15_4
	smin	v16.4s, v1.4s, v7.4s
	ldr	q1, [x2, :lo12:.LCPI15_4]
	ldr	x2, [sp, #640]
	add	x2, x2, x17
	add	x17, x17, #24
	tbl	v4.16b, { v3.16b, v4.16b }, v0.16b
	tbl	v2.16b, { v16.16b, v17.16b, v18.16b, v19.16b }, v1.16b
	ext	v3.16b, v2.16b, v2.16b, #8
	st3	{ v2.8b, v3.8b, v4.8b }, [x2]
	b.ne	.LBB15_147
	mov	w19, #62976
	cmp	x13, x15
	movk	w19, #7, lsl #16
	b.eq	.LBB15_131
.LBB15_149:
	add	x18, x15, x15, lsl #1
	add	x0, sp, #48, lsl #12
	add	x17, sp, #48, lsl #12
	add	x0, x0, #1568
	add	x1, sp, #48, lsl #12
	add	x17, x17, #1200
	add	x18, x18, x14
	add	x14, x0, x15
	ldr	x0, [sp, #640]
	add	x1, x1, #1056
	sub	x16, x13, x15
	add	x17, x17, x15
	add	x18, x0, x18
	add	x15, x1, x15
.LBB15_150:
	ldrb	w0, [x14], #1
	mov	w2, #-22554
	ldrb	w1, [x15], #1
	mov	w3, #26345
	madd	w2, w0, w2, w19
	mov	w6, #18734
	mov	w5, #32768
	sub	w4, w1, #128
	ldrb	w7, [x17], #1
	madd	w3, w4, w3, w5
	sub	w0, w0, #128
	madd	w2, w1, w6, w2
	mov	w6, #-14942
	add	w4, w4, w7
	madd	w5, w0, w6, w5
	sub	w1, w7, w1
	add	w0, w7, w0, lsl #1
	add	w3, w4, w3, asr #16
	add	w1, w1, w2, asr #16
	bic	w2, w3, w3, asr #31
	add	w0, w0, w5, asr #16
	mov	w3, #255
	add	w1, w1, #128
	bic	w1, w1, w1, asr #31
	cmp	w2, #255
	bic	w0, w0, w0, asr #31
	csel	w2, w2, w3, lt
	cmp	w1, #255
	strb	w2, [x18]
	csel	w1, w1, w3, lt
	cmp	w0, #255
	csel	w0, w0, w3, lt
	strb	w1, [x18, #1]
	subs	x16, x16, #1
	strb	w0, [x18, #2]
	add	x18, x18, #3
	b.ne	.LBB15_150
	b	.LBB15_131
.LBB15_151:
	ldr	x18, [sp, #640]
	add	x2, sp, #48, lsl #12
	and	x16, x13, #0x18
	add	x2, x2, #1200
	and	x15, x13, #0x20
	add	x17, x17, #16
	add	x0, x18, x14
	add	x18, x1, #16
	and	x1, x13, #0x20
	add	x2, x2, #16
.LBB15_152:
	ldp	q0, q3, [x2, #-16]
	add	x3, x0, #96
	ldp	q1, q4, [x18, #-16]
	add	x2, x2, #32
	ldp	q2, q5, [x17, #-16]
	subs	x1, x1, #32
	add	x18, x18, #32
	add	x17, x17, #32
	st3	{ v0.16b, v1.16b, v2.16b }, [x0], #48
	st3	{ v3.16b, v4.16b, v5.16b }, [x0]
	mov	x0, x3
	b.ne	.LBB15_152
	cmp	x13, x15
	b.eq	.LBB15_131
	cbz	x16, .LBB15_158
.LBB15_155:
	add	x17, x15, x15, lsl #1
	add	x18, sp, #48, lsl #12
	add	x0, sp, #48, lsl #12
	add	x2, sp, #48, lsl #12
	mov	x1, x15
	and	x15, x13, #0x38
	add	x18, x18, #1056
	add	x0, x0, #1568
	add	x2, x2, #1200
	sub	x16, x1, x15
	add	x17, x17, x14
	add	x18, x18, x1
	add	x0, x0, x1
	add	x1, x2, x1
.LBB15_156:
	ldr	d0, [x1], #8
	ldr	x2, [sp, #640]
	ldr	d1, [x0], #8
	adds	x16, x16, #8
	ldr	d2, [x18], #8
	add	x2, x2, x17
	add	x17, x17, #24
	st3	{ v0.8b, v1.8b, v2.8b }, [x2]
	b.ne	.LBB15_156
	cmp	x13, x15
	b.eq	.LBB15_131
.LBB15_158:
	ldr	x1, [sp, #640]
	add	x17, sp, #48, lsl #12
	add	x18, x15, x15, lsl #1
	add	x0, sp, #48, lsl #12
	add	x2, sp, #48, lsl #12
	add	x17, x17, #1200
	add	x0, x0, #1568
	add	x1, x1, x14
	add	x2, x2, #1056
	sub	x16, x13, x15
	add	x17, x17, x15
	add	x14, x0, x15
	add	x18, x1, x18
	add	x15, x2, x15
.LBB15_159:
	ldrb	w0, [x17], #1
	subs	x16, x16, #1
	ldrb	w1, [x14], #1
	ldrb	w2, [x15], #1
	strb	w0, [x18]
	strb	w1, [x18, #1]
	strb	w2, [x18, #2]
	add	x18, x18, #3
	b.ne	.LBB15_159
	b	.LBB15_131
.LBB15_160:
	cbz	x27, .LBB15_109
	ldr	x8, [sp, #240]
	ldr	x9, [sp, #336]
	add	x10, sp, #16, lsl #12
	add	x10, x10, #672
	ldr	x14, [x25, #24]
	ldr	x11, [sp, #496]
	mul	x8, x9, x8
	add	x9, sp, #32, lsl #12
	mov	x12, xzr
	add	x9, x9, #672
	mov	x13, xzr
	add	x20, x10, x11
	str	x14, [sp, #144]
	add	x8, x9, x8
	str	x8, [sp, #432]
	ldr	x8, [sp, #272]
	add	x28, x10, x8
	ldr	x8, [sp, #264]
	add	x26, x10, x8
	add	x8, x10, x14
	str	x8, [sp, #528]
	b	.LBB15_163
.LBB15_162:
	ldr	x13, [sp, #512]
	ldr	x8, [sp, #608]
	ldr	x12, [sp, #544]
	ldr	x9, [sp, #528]
	add	x13, x19, x13
	add	x12, x12, x8
	add	x20, x20, x8
	cmp	x13, x27
	add	x28, x28, x8
	add	x26, x26, x8
	add	x9, x9, x8
	str	x9, [sp, #528]
	b.hs	.LBB15_109
.LBB15_163:
	ldr	x10, [sp, #296]
	ldr	x11, [sp, #560]
	sub	x9, x27, x13
	str	x13, [sp, #512]
	mul	x8, x13, x10
	cmp	x11, x9
	str	x12, [sp, #544]
	csel	x19, x11, x9, lo
	ldr	x9, [sp, #496]
	cmp	x10, #3
	add	x9, x12, x9
	b.eq	.LBB15_174
	cmp	x10, #2
	ldr	x10, [sp, #432]
	add	x0, x10, x8
	b.eq	.LBB15_170
	movi	v0.2d, #0000000000000000
	ldr	x10, [sp, #296]
	cmp	x10, #1
	b.ne	.LBB15_178
	ldr	x8, [sp, #480]
	ldr	x10, [sp, #576]
	stp	q0, q0, [x24]
	cmp	x8, x10
	b.ne	.LBB15_186
	ldr	x9, [sp, #480]
	cbz	x9, .LBB15_214
	mov	x8, xzr
.LBB15_169:
	add	x10, sp, #48, lsl #12
	ldr	d0, [x20, x8, lsl #3]
	subs	x9, x9, #1
	add	x10, x10, #1200
	str	d0, [x10, x8]
	add	x8, x8, #8
	b.ne	.LBB15_169
	b	.LBB15_214
.LBB15_170:
	movi	v0.2d, #0000000000000000
	ldr	x10, [sp, #480]
	ldr	x11, [sp, #576]
	cmp	x10, x11
	stp	q0, q0, [x24]
	stp	q0, q0, [x24, #32]
	b.ne	.LBB15_182
	ldr	x10, [sp, #480]
	ldr	x18, [sp, #576]
	cbz	x10, .LBB15_194
	mov	x9, xzr
.LBB15_173:
	add	x11, sp, #48, lsl #12
	ldr	d0, [x20, x9, lsl #3]
	subs	x10, x10, #1
	add	x11, x11, #1200
	str	d0, [x11, x9]
	add	x9, x9, #8
	b.ne	.LBB15_173
	b	.LBB15_194
.LBB15_174:
	movi	v0.2d, #0000000000000000
	ldr	x10, [sp, #480]
	ldr	x11, [sp, #576]
	cmp	x10, x11
	stp	q0, q0, [x24]
	stp	q0, q0, [x24, #32]
	stp	q0, q0, [x24, #64]
	b.ne	.LBB15_184
	ldr	x11, [sp, #480]
	ldr	x18, [sp, #576]
	cbz	x11, .LBB15_204
	add	x9, sp, #48, lsl #12
	mov	x10, x20
	add	x9, x9, #1200
.LBB15_177:
	ldr	d0, [x10], #64
	subs	x11, x11, #1
	str	d0, [x9], #8
	b.ne	.LBB15_177
	b	.LBB15_204
.LBB15_178:
	ldr	x10, [sp, #480]
	ldr	x11, [sp, #576]
	stp	q0, q0, [x24]
	stp	q0, q0, [x24, #32]
	cmp	x10, x11
	stp	q0, q0, [x24, #64]
	stp	q0, q0, [x24, #96]
	b.ne	.LBB15_188
	ldr	x10, [sp, #480]
	ldr	x18, [sp, #576]
	cbz	x10, .LBB15_220
	mov	x9, xzr
.LBB15_181:
	add	x11, sp, #48, lsl #12
	ldr	d0, [x20, x9, lsl #3]
	subs	x10, x10, #1
	add	x11, x11, #1200
	str	d0, [x11, x9]
	add	x9, x9, #8
	b.ne	.LBB15_181
	b	.LBB15_220
.LBB15_182:
	ldr	x10, [sp, #480]
	cmp	x10, #1
	b.ne	.LBB15_190
	add	x10, sp, #16, lsl #12
	mov	w11, #16843009
	ldr	x18, [sp, #576]
	add	x10, x10, #672
	add	x15, sp, #48, lsl #12
	ldr	x16, [sp, #384]
	add	x9, x10, x9
	add	x15, x15, #1200
	ldrb	w10, [x9]
	ldrb	w12, [x9, #1]
	ldrb	w13, [x9, #2]
	ldrb	w14, [x9, #3]
	mul	w10, w10, w11
	mul	w12, w12, w11
	mul	w13, w13, w11
	str	w10, [x24]
	ldrb	w10, [x9, #4]
	mul	w14, w14, w11
	str	w12, [x15, x18]
	ldrb	w12, [x9, #5]
	str	w13, [x15, x16]
	ldr	x16, [sp, #360]
	ldrb	w13, [x9, #6]
	mul	w10, w10, w11
	ldrb	w9, [x9, #7]
	str	w14, [x15, x16]
	ldr	x14, [sp, #376]
	mul	w12, w12, w11
	mul	w9, w9, w11
	str	w10, [x15, x14]
	mul	w10, w13, w11
	ldp	x11, x13, [sp, #344]
	str	w12, [x15, x13]
	str	w10, [x15, x11]
	ldr	x10, [sp, #368]
	str	w9, [x15, x10]
	b	.LBB15_194
.LBB15_184:
	ldr	x10, [sp, #480]
	cmp	x10, #1
	b.ne	.LBB15_200
	add	x10, sp, #16, lsl #12
	mov	w11, #16843009
	ldr	x18, [sp, #576]
	add	x10, x10, #672
	add	x15, sp, #48, lsl #12
	ldr	x16, [sp, #384]
	add	x9, x10, x9
	add	x15, x15, #1200
	ldrb	w10, [x9]
	ldrb	w12, [x9, #1]
	ldrb	w13, [x9, #2]
	ldrb	w14, [x9, #3]
	mul	w10, w10, w11
	mul	w12, w12, w11
	mul	w13, w13, w11
	str	w10, [x24]
	ldrb	w10, [x9, #4]
	mul	w14, w14, w11
	str	w12, [x15, x18]
	ldrb	w12, [x9, #5]
	str	w13, [x15, x16]
	ldr	x16, [sp, #360]
	ldrb	w13, [x9, #6]
	mul	w10, w10, w11
	ldrb	w9, [x9, #7]
	str	w14, [x15, x16]
	ldr	x14, [sp, #376]
	mul	w12, w12, w11
	mul	w9, w9, w11
	str	w10, [x15, x14]
	mul	w10, w13, w11
	ldp	x11, x13, [sp, #344]
	str	w12, [x15, x13]
	str	w10, [x15, x11]
	ldr	x10, [sp, #368]
	str	w9, [x15, x10]
	b	.LBB15_204
.LBB15_186:
	ldr	x8, [sp, #480]
	cmp	x8, #1
	b.ne	.LBB15_210
	add	x8, sp, #16, lsl #12
	mov	w10, #16843009
	ldr	x14, [sp, #576]
	add	x8, x8, #672
	add	x15, sp, #48, lsl #12
	add	x8, x8, x9
	add	x15, x15, #1200
	ldrb	w9, [x8]
	ldrb	w11, [x8, #1]
	ldrb	w12, [x8, #2]
	ldrb	w13, [x8, #3]
	mul	w9, w9, w10
	mul	w11, w11, w10
	mul	w12, w12, w10
	str	w9, [x24]
	ldrb	w9, [x8, #4]
	mul	w13, w13, w10
	str	w11, [x15, x14]
	ldr	x14, [sp, #384]
	ldrb	w11, [x8, #5]
	mul	w9, w9, w10
	str	w12, [x15, x14]
	ldr	x14, [sp, #360]
	ldrb	w12, [x8, #6]
	ldrb	w8, [x8, #7]
	mul	w11, w11, w10
	str	w13, [x15, x14]
	ldr	x13, [sp, #376]
	mul	w8, w8, w10
	str	w9, [x15, x13]
	mul	w9, w12, w10
	ldp	x10, x12, [sp, #344]
	str	w11, [x15, x12]
	str	w9, [x15, x10]
	ldr	x9, [sp, #368]
	str	w8, [x15, x9]
	b	.LBB15_214
.LBB15_188:
	ldr	x10, [sp, #480]
	cmp	x10, #1
	b.ne	.LBB15_216
	add	x10, sp, #16, lsl #12
	mov	w11, #16843009
	ldr	x18, [sp, #576]
	add	x10, x10, #672
	add	x15, sp, #48, lsl #12
	ldr	x16, [sp, #384]
	add	x9, x10, x9
	add	x15, x15, #1200
	ldrb	w10, [x9]
	ldrb	w12, [x9, #1]
	ldrb	w13, [x9, #2]
	ldrb	w14, [x9, #3]
	mul	w10, w10, w11
	mul	w12, w12, w11
	mul	w13, w13, w11
	str	w10, [x24]
	ldrb	w10, [x9, #4]
	mul	w14, w14, w11
	str	w12, [x15, x18]
	ldrb	w12, [x9, #5]
	str	w13, [x15, x16]
	ldr	x16, [sp, #360]
	ldrb	w13, [x9, #6]
	mul	w10, w10, w11
	ldrb	w9, [x9, #7]
	str	w14, [x15, x16]
	ldr	x14, [sp, #376]
	mul	w12, w12, w11
	mul	w9, w9, w11
	str	w10, [x15, x14]
	mul	w10, w13, w11
	ldp	x11, x13, [sp, #344]
	str	w12, [x15, x13]
	str	w10, [x15, x11]
	ldr	x10, [sp, #368]
	str	w9, [x15, x10]
	b	.LBB15_220
.LBB15_190:
	ldr	x18, [sp, #576]
	ldr	x10, [sp, #560]
	cbz	x10, .LBB15_194
	cbz	x18, .LBB15_444
	add	x11, sp, #16, lsl #12
	add	x12, sp, #48, lsl #12
	ldr	x17, [sp, #480]
	add	x11, x11, #672
	add	x12, x12, #1200
	ldr	x18, [sp, #576]
	add	x9, x11, x9
	ldr	x11, [sp, #560]
	ldr	x1, [sp, #160]
	mov	x10, xzr
	add	x12, x12, #1
.LBB15_193:
	add	x14, x17, x10
	udiv	x13, x10, x18
	subs	x11, x11, #2
	add	x10, x10, x1
	udiv	x14, x14, x18
	lsr	x15, x13, #3
	and	x13, x13, #0x7
	add	x15, x9, x15, lsl #6
	ldrb	w13, [x15, x13]
	sturb	w13, [x12, #-1]
	lsr	x16, x14, #3
	and	x14, x14, #0x7
	add	x16, x9, x16, lsl #6
	ldrb	w14, [x16, x14]
	strb	w14, [x12], #2
	b.ne	.LBB15_193
.LBB15_194:
	ldr	x9, [sp, #464]
	cmp	x9, x18
	b.ne	.LBB15_198
	ldr	x10, [sp, #464]
	ldr	x11, [sp, #328]
	cbz	x10, .LBB15_230
	mov	x12, x28
	mov	x9, xzr
.LBB15_197:
	ldr	d0, [x12, x9, lsl #3]
	subs	x10, x10, #1
	str	d0, [x11, x9]
	add	x9, x9, #8
	b.ne	.LBB15_197
	b	.LBB15_230
.LBB15_198:
	ldr	x9, [sp, #464]
	ldr	x10, [sp, #544]
	cmp	x9, #1
	ldr	x9, [sp, #272]
	add	x10, x10, x9
	b.ne	.LBB15_226
	add	x9, sp, #16, lsl #12
	mov	w11, #16843009
	ldr	x16, [sp, #328]
	add	x9, x9, #672
	ldr	x15, [sp, #576]
	add	x9, x9, x10
	ldrb	w10, [x9]
	ldrb	w12, [x9, #1]
	ldrb	w13, [x9, #2]
	ldrb	w14, [x9, #3]
	mul	w10, w10, w11
	mul	w12, w12, w11
	mul	w13, w13, w11
	str	w10, [x16]
	ldrb	w10, [x9, #4]
	mul	w14, w14, w11
	str	w12, [x16, x15]
	ldr	x15, [sp, #384]
	ldrb	w12, [x9, #5]
	mul	w10, w10, w11
	str	w13, [x16, x15]
	ldr	x15, [sp, #360]
	ldrb	w13, [x9, #6]
	ldrb	w9, [x9, #7]
	mul	w12, w12, w11
	str	w14, [x16, x15]
	ldr	x14, [sp, #376]
	mul	w9, w9, w11
	str	w10, [x16, x14]
	mul	w10, w13, w11
	ldp	x11, x13, [sp, #344]
	str	w12, [x16, x13]
	str	w10, [x16, x11]
	ldr	x10, [sp, #368]
	str	w9, [x16, x10]
	b	.LBB15_230
.LBB15_200:
	ldr	x18, [sp, #576]
	ldr	x10, [sp, #560]
	cbz	x10, .LBB15_204
	cbz	x18, .LBB15_444
	add	x11, sp, #16, lsl #12
	add	x12, sp, #48, lsl #12
	ldr	x17, [sp, #480]
	add	x11, x11, #672
	add	x12, x12, #1200
	ldr	x18, [sp, #576]
	add	x9, x11, x9
	ldr	x11, [sp, #560]
	ldr	x0, [sp, #160]
	mov	x10, xzr
	add	x12, x12, #1
.LBB15_203:
	add	x14, x17, x10
	udiv	x13, x10, x18
	subs	x11, x11, #2
	add	x10, x10, x0
	udiv	x14, x14, x18
	lsr	x15, x13, #3
	and	x13, x13, #0x7
	add	x15, x9, x15, lsl #6
	ldrb	w13, [x15, x13]
	sturb	w13, [x12, #-1]
	lsr	x16, x14, #3
	and	x14, x14, #0x7
	add	x16, x9, x16, lsl #6
	ldrb	w14, [x16, x14]
	strb	w14, [x12], #2
	b.ne	.LBB15_203
.LBB15_204:
	ldr	x9, [sp, #464]
	cmp	x9, x18
	b.ne	.LBB15_208
	ldr	x11, [sp, #464]
	ldr	x18, [sp, #576]
	cbz	x11, .LBB15_244
	add	x10, sp, #48, lsl #12
	mov	x9, x28
	add	x10, x10, #1200
	add	x10, x10, #32
.LBB15_207:
	ldr	d0, [x9], #64
	subs	x11, x11, #1
	str	d0, [x10], #8
	b.ne	.LBB15_207
	b	.LBB15_244
.LBB15_208:
	ldr	x9, [sp, #464]
	ldr	x10, [sp, #544]
	cmp	x9, #1
	ldr	x9, [sp, #272]
	add	x10, x10, x9
	b.ne	.LBB15_240
	add	x9, sp, #16, lsl #12
	mov	w11, #16843009
	ldr	x15, [sp, #328]
	add	x9, x9, #672
	ldr	x18, [sp, #576]
	ldr	x16, [sp, #384]
	add	x9, x9, x10
	ldrb	w10, [x9]
	ldrb	w12, [x9, #1]
	ldrb	w13, [x9, #2]
	ldrb	w14, [x9, #3]
	mul	w10, w10, w11
	mul	w12, w12, w11
	mul	w13, w13, w11
	str	w10, [x15]
	ldrb	w10, [x9, #4]
	mul	w14, w14, w11
	str	w12, [x15, x18]
	ldrb	w12, [x9, #5]
	str	w13, [x15, x16]
	ldr	x16, [sp, #360]
	ldrb	w13, [x9, #6]
	mul	w10, w10, w11
	ldrb	w9, [x9, #7]
	str	w14, [x15, x16]
	ldr	x14, [sp, #376]
	mul	w12, w12, w11
	mul	w9, w9, w11
	str	w10, [x15, x14]
	mul	w10, w13, w11
	ldp	x11, x13, [sp, #344]
	str	w12, [x15, x13]
	str	w10, [x15, x11]
	ldr	x10, [sp, #368]
	str	w9, [x15, x10]
	b	.LBB15_244
.LBB15_210:
	ldr	x8, [sp, #576]
	ldr	x10, [sp, #560]
	cbz	x10, .LBB15_214
	cbz	x8, .LBB15_444
	add	x10, sp, #16, lsl #12
	add	x11, sp, #48, lsl #12
	ldr	x16, [sp, #480]
	add	x10, x10, #672
	add	x11, x11, #1200
	ldr	x17, [sp, #576]
	add	x9, x10, x9
	ldr	x10, [sp, #560]
	ldr	x18, [sp, #160]
	mov	x8, xzr
	add	x11, x11, #1
.LBB15_213:
	add	x13, x16, x8
	udiv	x12, x8, x17
	subs	x10, x10, #2
	add	x8, x8, x18
	udiv	x13, x13, x17
	lsr	x14, x12, #3
	and	x12, x12, #0x7
	add	x14, x9, x14, lsl #6
	ldrb	w12, [x14, x12]
	sturb	w12, [x11, #-1]
	lsr	x15, x13, #3
	and	x13, x13, #0x7
	add	x15, x9, x15, lsl #6
	ldrb	w13, [x15, x13]
	strb	w13, [x11], #2
	b.ne	.LBB15_213
.LBB15_214:
	cbz	x19, .LBB15_162
	add	x1, sp, #48, lsl #12
	mov	x2, x19
	add	x1, x1, #1200
	bl	memcpy
	b	.LBB15_162
.LBB15_216:
	ldr	x18, [sp, #576]
	ldr	x10, [sp, #560]
	cbz	x10, .LBB15_220
	cbz	x18, .LBB15_444
	add	x11, sp, #16, lsl #12
	add	x12, sp, #48, lsl #12
	ldr	x17, [sp, #480]
	add	x11, x11, #672
	add	x12, x12, #1200
	ldr	x18, [sp, #576]
	add	x9, x11, x9
	ldr	x11, [sp, #560]
	ldr	x1, [sp, #160]
	mov	x10, xzr
	add	x12, x12, #1
.LBB15_219:
	add	x14, x17, x10
	udiv	x13, x10, x18
	subs	x11, x11, #2
	add	x10, x10, x1
	udiv	x14, x14, x18
	lsr	x15, x13, #3
	and	x13, x13, #0x7
	add	x15, x9, x15, lsl #6
	ldrb	w13, [x15, x13]
	sturb	w13, [x12, #-1]
	lsr	x16, x14, #3
	and	x14, x14, #0x7
	add	x16, x9, x16, lsl #6
	ldrb	w14, [x16, x14]
	strb	w14, [x12], #2
	b.ne	.LBB15_219
.LBB15_220:
	ldr	x9, [sp, #464]
	cmp	x9, x18
	b.ne	.LBB15_224
	ldr	x10, [sp, #464]
	ldr	x18, [sp, #576]
	ldr	x11, [sp, #328]
	cbz	x10, .LBB15_254
	mov	x12, x28
	mov	x9, xzr
.LBB15_223:
	ldr	d0, [x12, x9, lsl #3]
	subs	x10, x10, #1
	str	d0, [x11, x9]
	add	x9, x9, #8
	b.ne	.LBB15_223
	b	.LBB15_254
.LBB15_224:
	ldr	x9, [sp, #464]
	ldr	x10, [sp, #544]
	cmp	x9, #1
	ldr	x9, [sp, #272]
	add	x10, x10, x9
	b.ne	.LBB15_250
	add	x9, sp, #16, lsl #12
	mov	w11, #16843009
	ldr	x15, [sp, #328]
	add	x9, x9, #672
	ldr	x18, [sp, #576]
	ldr	x16, [sp, #384]
	add	x9, x9, x10
	ldrb	w10, [x9]
	ldrb	w12, [x9, #1]
	ldrb	w13, [x9, #2]
	ldrb	w14, [x9, #3]
	mul	w10, w10, w11
	mul	w12, w12, w11
	mul	w13, w13, w11
	str	w10, [x15]
	ldrb	w10, [x9, #4]
	mul	w14, w14, w11
	str	w12, [x15, x18]
	ldrb	w12, [x9, #5]
	str	w13, [x15, x16]
	ldr	x16, [sp, #360]
	ldrb	w13, [x9, #6]
	mul	w10, w10, w11
	ldrb	w9, [x9, #7]
	str	w14, [x15, x16]
	ldr	x14, [sp, #376]
	mul	w12, w12, w11
	mul	w9, w9, w11
	str	w10, [x15, x14]
	mul	w10, w13, w11
	ldp	x11, x13, [sp, #344]
	str	w12, [x15, x13]
	str	w10, [x15, x11]
	ldr	x10, [sp, #368]
	str	w9, [x15, x10]
	b	.LBB15_254
.LBB15_226:
	ldr	x9, [sp, #576]
	ldr	x11, [sp, #560]
	cbz	x11, .LBB15_230
	cbz	x9, .LBB15_444
	add	x11, sp, #16, lsl #12
	add	x12, sp, #48, lsl #12
	ldr	x17, [sp, #464]
	add	x11, x11, #672
	add	x12, x12, #1200
	ldr	x18, [sp, #576]
	add	x10, x11, x10
	ldr	x11, [sp, #560]
	ldr	x1, [sp, #128]
	mov	x9, xzr
	add	x12, x12, #33
.LBB15_229:
	add	x14, x17, x9
	udiv	x13, x9, x18
	subs	x11, x11, #2
	add	x9, x9, x1
	udiv	x14, x14, x18
	lsr	x15, x13, #3
	and	x13, x13, #0x7
	add	x15, x10, x15, lsl #6
	ldrb	w13, [x15, x13]
	sturb	w13, [x12, #-1]
	lsr	x16, x14, #3
	and	x14, x14, #0x7
	add	x16, x10, x16, lsl #6
	ldrb	w14, [x16, x14]
	strb	w14, [x12], #2
	b.ne	.LBB15_229
.LBB15_230:
	cbz	x19, .LBB15_162
	cmp	x19, #8
	b.hs	.LBB15_235
	mov	x9, xzr
.LBB15_233:
	add	x10, x8, x9, lsl #1
	ldr	x11, [sp, #400]
	sub	x8, x19, x9
	add	x10, x11, x10
	ldr	x11, [sp, #328]
	add	x9, x11, x9
.LBB15_234:
	ldurb	w11, [x9, #-32]
	ldrb	w12, [x9], #1
	subs	x8, x8, #1
	sturb	w11, [x10, #-1]
	strb	w12, [x10], #2
	b.ne	.LBB15_234
	b	.LBB15_162
.LBB15_235:
	lsl	x9, x19, #1
	sub	x10, x9, #2
	add	x9, x0, x10
	cmp	x9, x0
	mov	x9, xzr
	b.lo	.LBB15_233
	ldr	x11, [sp, #192]
	add	x11, x11, x8
	add	x10, x11, x10
	cmp	x10, x11
	b.lo	.LBB15_233
	cmp	x19, #1
	b.lt	.LBB15_233
	cmp	x19, #32
	b.hs	.LBB15_306
	mov	x9, xzr
	b	.LBB15_310
.LBB15_240:
	ldr	x18, [sp, #576]
	ldr	x9, [sp, #560]
	cbz	x9, .LBB15_244
	cbz	x18, .LBB15_444
	add	x11, sp, #16, lsl #12
	add	x12, sp, #48, lsl #12
	ldr	x17, [sp, #464]
	add	x11, x11, #672
	add	x12, x12, #1200
	ldr	x18, [sp, #576]
	add	x10, x11, x10
	ldr	x11, [sp, #560]
	ldr	x0, [sp, #128]
	mov	x9, xzr
	add	x12, x12, #33
.LBB15_243:
	add	x14, x17, x9
	udiv	x13, x9, x18
	subs	x11, x11, #2
	add	x9, x9, x0
	udiv	x14, x14, x18
	lsr	x15, x13, #3
	and	x13, x13, #0x7
	add	x15, x10, x15, lsl #6
	ldrb	w13, [x15, x13]
	sturb	w13, [x12, #-1]
	lsr	x16, x14, #3
	and	x14, x14, #0x7
	add	x16, x10, x16, lsl #6
	ldrb	w14, [x16, x14]
	strb	w14, [x12], #2
	b.ne	.LBB15_243
.LBB15_244:
	ldr	x9, [sp, #448]
	cmp	x9, x18
	b.ne	.LBB15_248
	ldr	x11, [sp, #448]
	cbz	x11, .LBB15_264
	add	x10, sp, #48, lsl #12
	mov	x9, x26
	add	x10, x10, #1200
	add	x10, x10, #64
.LBB15_247:
	ldr	d0, [x9], #64
	subs	x11, x11, #1
	str	d0, [x10], #8
	b.ne	.LBB15_247
	b	.LBB15_264
.LBB15_248:
	ldr	x9, [sp, #448]
	ldr	x10, [sp, #544]
	cmp	x9, #1
	ldr	x9, [sp, #264]
	add	x10, x10, x9
	b.ne	.LBB15_260
	add	x9, sp, #16, lsl #12
	mov	w11, #16843009
	ldr	x16, [sp, #312]
	add	x9, x9, #672
	ldr	x15, [sp, #576]
	add	x9, x9, x10
	ldrb	w10, [x9]
	ldrb	w12, [x9, #1]
	ldrb	w13, [x9, #2]
	ldrb	w14, [x9, #3]
	mul	w10, w10, w11
	mul	w12, w12, w11
	mul	w13, w13, w11
	str	w10, [x16]
	ldrb	w10, [x9, #4]
	mul	w14, w14, w11
	str	w12, [x16, x15]
	ldr	x15, [sp, #384]
	ldrb	w12, [x9, #5]
	mul	w10, w10, w11
	str	w13, [x16, x15]
	ldr	x15, [sp, #360]
	ldrb	w13, [x9, #6]
	ldrb	w9, [x9, #7]
	mul	w12, w12, w11
	str	w14, [x16, x15]
	ldr	x14, [sp, #376]
	mul	w9, w9, w11
	str	w10, [x16, x14]
	mul	w10, w13, w11
	ldp	x11, x13, [sp, #344]
	str	w12, [x16, x13]
	str	w10, [x16, x11]
	ldr	x10, [sp, #368]
	str	w9, [x16, x10]
	b	.LBB15_264
.LBB15_250:
	ldr	x18, [sp, #576]
	ldr	x9, [sp, #560]
	cbz	x9, .LBB15_254
	cbz	x18, .LBB15_444
	add	x11, sp, #16, lsl #12
	add	x12, sp, #48, lsl #12
	ldr	x17, [sp, #464]
	add	x11, x11, #672
	add	x12, x12, #1200
	ldr	x18, [sp, #576]
	add	x10, x11, x10
	ldr	x11, [sp, #560]
	ldr	x1, [sp, #128]
	mov	x9, xzr
	add	x12, x12, #33
.LBB15_253:
	add	x14, x17, x9
	udiv	x13, x9, x18
	subs	x11, x11, #2
	add	x9, x9, x1
	udiv	x14, x14, x18
	lsr	x15, x13, #3
	and	x13, x13, #0x7
	add	x15, x10, x15, lsl #6
	ldrb	w13, [x15, x13]
	sturb	w13, [x12, #-1]
	lsr	x16, x14, #3
	and	x14, x14, #0x7
	add	x16, x10, x16, lsl #6
	ldrb	w14, [x16, x14]
	strb	w14, [x12], #2
	b.ne	.LBB15_253
.LBB15_254:
	ldr	x9, [sp, #448]
	cmp	x9, x18
	b.ne	.LBB15_258
	ldr	x10, [sp, #448]
	ldr	x18, [sp, #576]
	ldr	x11, [sp, #312]
	cbz	x10, .LBB15_272
	mov	x12, x26
	mov	x9, xzr
.LBB15_257:
	ldr	d0, [x12, x9, lsl #3]
	subs	x10, x10, #1
	str	d0, [x11, x9]
	add	x9, x9, #8
	b.ne	.LBB15_257
	b	.LBB15_272
.LBB15_258:
	ldr	x9, [sp, #448]
	ldr	x10, [sp, #544]
	cmp	x9, #1
	ldr	x9, [sp, #264]
	add	x10, x10, x9
	b.ne	.LBB15_268
	add	x9, sp, #16, lsl #12
	mov	w11, #16843009
	ldr	x15, [sp, #312]
	add	x9, x9, #672
	ldr	x18, [sp, #576]
	ldr	x16, [sp, #384]
	add	x9, x9, x10
	ldrb	w10, [x9]
	ldrb	w12, [x9, #1]
	ldrb	w13, [x9, #2]
	ldrb	w14, [x9, #3]
	mul	w10, w10, w11
	mul	w12, w12, w11
	mul	w13, w13, w11
	str	w10, [x15]
	ldrb	w10, [x9, #4]
	mul	w14, w14, w11
	str	w12, [x15, x18]
	ldrb	w12, [x9, #5]
	str	w13, [x15, x16]
	ldr	x16, [sp, #360]
	ldrb	w13, [x9, #6]
	mul	w10, w10, w11
	ldrb	w9, [x9, #7]
	str	w14, [x15, x16]
	ldr	x14, [sp, #376]
	mul	w12, w12, w11
	mul	w9, w9, w11
	str	w10, [x15, x14]
	mul	w10, w13, w11
	ldp	x11, x13, [sp, #344]
	str	w12, [x15, x13]
	str	w10, [x15, x11]
	ldr	x10, [sp, #368]
	str	w9, [x15, x10]
	b	.LBB15_272
.LBB15_260:
	ldr	x9, [sp, #576]
	ldr	x11, [sp, #560]
	cbz	x11, .LBB15_264
	cbz	x9, .LBB15_444
	add	x11, sp, #16, lsl #12
	add	x12, sp, #48, lsl #12
	ldr	x17, [sp, #448]
	add	x11, x11, #672
	add	x12, x12, #1200
	ldr	x18, [sp, #576]
	add	x10, x11, x10
	ldr	x11, [sp, #560]
	ldr	x0, [sp, #40]
	mov	x9, xzr
	add	x12, x12, #65
.LBB15_263:
	add	x14, x17, x9
	udiv	x13, x9, x18
	subs	x11, x11, #2
	add	x9, x9, x0
	udiv	x14, x14, x18
	lsr	x15, x13, #3
	and	x13, x13, #0x7
	add	x15, x10, x15, lsl #6
	ldrb	w13, [x15, x13]
	sturb	w13, [x12, #-1]
	lsr	x16, x14, #3
	and	x14, x14, #0x7
	add	x16, x10, x16, lsl #6
	ldrb	w14, [x16, x14]
	strb	w14, [x12], #2
	b.ne	.LBB15_263
.LBB15_264:
	sub	x9, x19, #1
	cmp	x9, #31
	b.hi	.LBB15_162
	ldr	x9, [sp, #632]
	tbz	w9, #0, .LBB15_278
	cmp	x19, #8
	b.hs	.LBB15_299
	mov	w0, #62976
	mov	x9, xzr
	movk	w0, #7, lsl #16
	b	.LBB15_321
.LBB15_268:
	ldr	x18, [sp, #576]
	ldr	x9, [sp, #560]
	cbz	x9, .LBB15_272
	cbz	x18, .LBB15_444
	add	x11, sp, #16, lsl #12
	add	x12, sp, #48, lsl #12
	ldr	x17, [sp, #448]
	add	x11, x11, #672
	add	x12, x12, #1200
	ldr	x18, [sp, #576]
	add	x10, x11, x10
	ldr	x11, [sp, #560]
	ldr	x1, [sp, #40]
	mov	x9, xzr
	add	x12, x12, #65
.LBB15_271:
	add	x14, x17, x9
	udiv	x13, x9, x18
	subs	x11, x11, #2
	add	x9, x9, x1
	udiv	x14, x14, x18
	lsr	x15, x13, #3
	and	x13, x13, #0x7
	add	x15, x10, x15, lsl #6
	ldrb	w13, [x15, x13]
	sturb	w13, [x12, #-1]
	lsr	x16, x14, #3
	and	x14, x14, #0x7
	add	x16, x10, x16, lsl #6
	ldrb	w14, [x16, x14]
	strb	w14, [x12], #2
	b.ne	.LBB15_271
.LBB15_272:
	ldr	x9, [sp, #416]
	cmp	x9, x18
	b.ne	.LBB15_276
	ldr	x11, [sp, #416]
	cbz	x11, .LBB15_284
	add	x10, sp, #48, lsl #12
	ldr	x9, [sp, #528]
	add	x10, x10, #1200
	add	x10, x10, #96
.LBB15_275:
	ldr	d0, [x9], #64
	subs	x11, x11, #1
	str	d0, [x10], #8
	b.ne	.LBB15_275
	b	.LBB15_284
.LBB15_276:
	ldr	x9, [sp, #416]
	ldr	x10, [sp, #544]
	cmp	x9, #1
	ldr	x9, [sp, #144]
	add	x10, x10, x9
	b.ne	.LBB15_280
	add	x9, sp, #16, lsl #12
	mov	w11, #16843009
	ldr	x16, [sp, #24]
	add	x9, x9, #672
	ldr	x15, [sp, #576]
	add	x9, x9, x10
	ldrb	w10, [x9]
	ldrb	w12, [x9, #1]
	ldrb	w13, [x9, #2]
	ldrb	w14, [x9, #3]
	mul	w10, w10, w11
	mul	w12, w12, w11
	mul	w13, w13, w11
	str	w10, [x16]
	ldrb	w10, [x9, #4]
	mul	w14, w14, w11
	str	w12, [x16, x15]
	ldr	x15, [sp, #384]
	ldrb	w12, [x9, #5]
	mul	w10, w10, w11
	str	w13, [x16, x15]
	ldr	x15, [sp, #360]
	ldrb	w13, [x9, #6]
	ldrb	w9, [x9, #7]
	mul	w12, w12, w11
	str	w14, [x16, x15]
	ldr	x14, [sp, #376]
	mul	w9, w9, w11
	str	w10, [x16, x14]
	mul	w10, w13, w11
	ldp	x11, x13, [sp, #344]
	str	w12, [x16, x13]
	str	w10, [x16, x11]
	ldr	x10, [sp, #368]
	str	w9, [x16, x10]
	b	.LBB15_284
.LBB15_278:
	cmp	x19, #8
	b.hs	.LBB15_304
	mov	x9, xzr
	b	.LBB15_330
.LBB15_280:
	ldr	x9, [sp, #576]
	ldr	x11, [sp, #560]
	cbz	x11, .LBB15_284
	cbz	x9, .LBB15_444
	add	x11, sp, #16, lsl #12
	add	x12, sp, #48, lsl #12
	ldr	x17, [sp, #416]
	add	x11, x11, #672
	add	x12, x12, #1200
	ldr	x18, [sp, #576]
	add	x10, x11, x10
	ldr	x11, [sp, #560]
	ldr	x1, [sp, #8]
	mov	x9, xzr
	add	x12, x12, #97
.LBB15_283:
	add	x14, x17, x9
	udiv	x13, x9, x18
	subs	x11, x11, #2
	add	x9, x9, x1
	udiv	x14, x14, x18
	lsr	x15, x13, #3
	and	x13, x13, #0x7
	add	x15, x10, x15, lsl #6
	ldrb	w13, [x15, x13]
	sturb	w13, [x12, #-1]
	lsr	x16, x14, #3
	and	x14, x14, #0x7
	add	x16, x10, x16, lsl #6
	ldrb	w14, [x16, x14]
	strb	w14, [x12], #2
	b.ne	.LBB15_283
.LBB15_284:
	cbz	x19, .LBB15_162
	cmp	x19, #8
	b.hs	.LBB15_289
	mov	x9, xzr
.LBB15_287:
	ldp	x14, x13, [sp, #280]
	lsl	x11, x9, #2
	ldr	x12, [sp, #400]
	sub	x10, x19, x9
	add	x12, x12, x8
	add	x13, x13, x8
	add	x8, x14, x8
	ldr	x14, [sp, #312]
	add	x9, x14, x9
.LBB15_288:
	ldurb	w14, [x9, #-64]
	add	x15, x8, x11
	ldurb	w16, [x9, #-32]
	ldrb	w17, [x9, #32]
	subs	x10, x10, #1
	add	x8, x8, #4
	sturb	w14, [x15, #-3]
	ldrb	w14, [x9], #1
	strb	w16, [x12, x11]
	add	x12, x12, #4
	strb	w14, [x13, x11]
	add	x13, x13, #4
	strb	w17, [x15]
	b.ne	.LBB15_288
	b	.LBB15_162
.LBB15_289:
	sub	x10, x19, #1
	ldr	x9, [sp, #176]
	lsl	x11, x10, #2
	add	x9, x9, x8
	add	x12, x9, x11
	cmp	x12, x9
	mov	x9, xzr
	b.lo	.LBB15_287
	ldr	x12, [sp, #152]
	add	x12, x12, x8
	add	x13, x12, x11
	cmp	x13, x12
	b.lo	.LBB15_287
	add	x12, x0, x11
	cmp	x12, x0
	b.lo	.LBB15_287
	ldr	x12, [sp, #192]
	add	x12, x12, x8
	add	x11, x12, x11
	cmp	x11, x12
	b.lo	.LBB15_287
	lsr	x10, x10, #62
	cbnz	x10, .LBB15_287
	cmp	x19, #16
	b.hs	.LBB15_313
	mov	x9, xzr
.LBB15_296:
	mov	x12, x9
	ldr	x13, [sp, #312]
	and	x9, x19, #0xfff8
	add	x10, x8, x12, lsl #2
	sub	x11, x12, x9
	add	x12, x13, x12
.LBB15_297:
	ldur	d0, [x12, #-64]
	ldr	x13, [sp, #592]
	adds	x11, x11, #8
	ldur	d1, [x12, #-32]
	ldr	d2, [x12]
	add	x13, x13, x10
	add	x10, x10, #32
	ldr	d3, [x12, #32]
	add	x12, x12, #8
	st4	{ v0.8b, v1.8b, v2.8b, v3.8b }, [x13]
	b.ne	.LBB15_297
	cmp	x19, x9
	b.eq	.LBB15_162
	b	.LBB15_287
.LBB15_299:
	cmp	x19, #16
	b.hs	.LBB15_317
	mov	x9, xzr
.LBB15_301:
	mov	x12, x9
	ldr	x13, [sp, #312]
	and	x9, x19, #0x38
	add	x11, x12, x12, lsl #1
	sub	x10, x12, x9
	add	x12, x13, x12
	add	x11, x8, x11
.LBB15_302:
	adrp	x13, .LCPI15_1
	ldur	d2, [x12, #-32]
	ldr	d4, [x12]
	ldr	q1, [x13, :lo12:.LCPI15_1]
	adrp	x13, .LCPI15_0
	ldur	d17, [x12, #-64]
	ldr	q0, [x13, :lo12:.LCPI15_0]
	mov	w13, #42982
	mov	w14, #26345
	tbl	v3.16b, { v2.16b }, v1.16b
	dup	v5.4h, w13
	tbl	v6.16b, { v4.16b }, v1.16b
	tbl	v2.16b, { v2.16b }, v0.16b
	tbl	v4.16b, { v4.16b }, v0.16b
	mov	w13, #18734
	dup	v18.4h, w13
	mov	w13, #62976
	tbl	v1.16b, { v17.16b }, v1.16b
	movk	w13, #7, lsl #16
	tbl	v0.16b, { v17.16b }, v0.16b
	movi	v17.4s, #128, lsl #8
	xtn	v7.4h, v3.4s
	xtn	v19.4h, v6.4s
	dup	v21.4s, w13
	xtn	v16.4h, v2.4s
	xtn	v20.4h, v4.4s
	mov	w13, #50594
	movi	v22.4s, #128, lsl #8
	movi	v23.4s, #128, lsl #8
	adds	x10, x10, #8
	add	x12, x12, #8
	smull	v7.4s, v7.4h, v5.4h
	smull	v5.4s, v16.4h, v5.4h
	mvni	v16.4s, #127
	umlal	v7.4s, v19.4h, v18.4h
	add	v2.4s, v2.4s, v16.4s
	add	v19.4s, v4.4s, v16.4s
	umlal	v5.4s, v20.4h, v18.4h
	add	v3.4s, v3.4s, v16.4s
	add	v16.4s, v6.4s, v16.4s
	dup	v20.4h, w13
	sub	v6.4s, v1.4s, v6.4s
	dup	v18.4h, w14
	xtn	v24.4h, v2.4s
	sub	v4.4s, v0.4s, v4.4s
	xtn	v25.4h, v19.4s
	add	v7.4s, v7.4s, v21.4s
	xtn	v26.4h, v3.4s
	xtn	v27.4h, v16.4s
	add	v5.4s, v5.4s, v21.4s
	movi	v21.4s, #128, lsl #8
	add	v2.4s, v2.4s, v2.4s
	add	v3.4s, v3.4s, v3.4s
	adrp	x13, .LCPI15_5
	ssra	v6.4s, v7.4s, #16
	movi	v7.4s, #128
	smlal	v17.4s, v24.4h, v20.4h
	ssra	v4.4s, v5.4s, #16
	add	v5.4s, v19.4s, v0.4s
	smlal	v23.4s, v26.4h, v20.4h
	add	v0.4s, v2.4s, v0.4s
	smlal	v22.4s, v25.4h, v18.4h
	add	v2.4s, v3.4s, v1.4s
	movi	v3.2d, #0000000000000000
	smlal	v21.4s, v27.4h, v18.4h
	add	v1.4s, v16.4s, v1.4s
	add	v4.4s, v4.4s, v7.4s
	add	v6.4s, v6.4s, v7.4s
	movi	v7.2d, #0x0000ff000000ff
	ssra	v0.4s, v17.4s, #16
	ssra	v2.4s, v23.4s, #16
	ssra	v5.4s, v22.4s, #16
	ssra	v1.4s, v21.4s, #16
	smax	v4.4s, v4.4s, v3.4s
	smax	v6.4s, v6.4s, v3.4s
	smax	v0.4s, v0.4s, v3.4s
	smax	v2.4s, v2.4s, v3.4s
	smax	v5.4s, v5.4s, v3.4s
	smax	v1.4s, v1.4s, v3.4s
	smin	v19.4s, v4.4s, v7.4s
	smin	v4.4s, v0.4s, v7.4s
	smin	v18.4s, v6.4s, v7.4s
	ldr	q0, [x13, :lo12:.LCPI15_5]
	smin	v3.4s, v2.4s, v7.4s
	smin	v17.4s, v5.4s, v7.4s
	adrp	x13, .LCPI15_4
	smin	v16.4s, v1.4s, v7.4s
	ldr	q1, [x13, :lo12:.LCPI15_4]
	ldr	x13, [sp, #592]
	add	x13, x13, x11
	add	x11, x11, #24
	tbl	v4.16b, { v3.16b, v4.16b }, v0.16b
	tbl	v2.16b, { v16.16b, v17.16b, v18.16b, v19.16b }, v1.16b
	ext	v3.16b, v2.16b, v2.16b, #8
	st3	{ v2.8b, v3.8b, v4.8b }, [x13]
	b.ne	.LBB15_302
	mov	w0, #62976
	cmp	x19, x9
	movk	w0, #7, lsl #16
	b.eq	.LBB15_162
	b	.LBB15_321
.LBB15_304:
	cmp	x19, #32
	b.hs	.LBB15_323
	mov	x9, xzr
	b	.LBB15_327
.LBB15_306:
	ldr	x11, [sp, #592]
	and	x10, x19, #0x18
	and	x9, x19, #0xffe0
	and	x12, x19, #0xffe0
	add	x13, x11, x8
	add	x11, sp, #48, lsl #12
	add	x11, x11, #1200
	add	x11, x11, #32
.LBB15_307:
	ldp	q0, q2, [x11, #-32]
	add	x14, x13, #64
	ldp	q1, q3, [x11], #32
	subs	x12, x12, #32
	st2	{ v0.16b, v1.16b }, [x13], #32
	st2	{ v2.16b, v3.16b }, [x13]
	mov	x13, x14
	b.ne	.LBB15_307
	cmp	x19, x9
	b.eq	.LBB15_162
	cbz	x10, .LBB15_233
.LBB15_310:
	mov	x12, x9
	ldr	x13, [sp, #328]
	and	x9, x19, #0xfff8
	add	x10, x8, x12, lsl #1
	ldr	x14, [sp, #592]
	sub	x11, x12, x9
	add	x12, x13, x12
.LBB15_311:
	ldur	d0, [x12, #-32]
	add	x13, x14, x10
	adds	x11, x11, #8
	ldr	d1, [x12], #8
	add	x10, x10, #16
	st2	{ v0.8b, v1.8b }, [x13]
	b.ne	.LBB15_311
	cmp	x19, x9
	b.eq	.LBB15_162
	b	.LBB15_233
.LBB15_313:
	add	x11, sp, #48, lsl #12
	and	x9, x19, #0xfff0
	mov	x10, x8
	add	x11, x11, #1200
	and	x12, x19, #0xfff0
	add	x11, x11, #64
.LBB15_314:
	ldur	q0, [x11, #-64]
	ldr	x13, [sp, #592]
	subs	x12, x12, #16
	ldur	q1, [x11, #-32]
	ldr	q2, [x11]
	add	x13, x13, x10
	add	x10, x10, #64
	ldr	q3, [x11, #32]
	add	x11, x11, #16
	st4	{ v0.16b, v1.16b, v2.16b, v3.16b }, [x13]
	b.ne	.LBB15_314
	cmp	x19, x9
	b.eq	.LBB15_162
	tbz	w19, #3, .LBB15_287
	b	.LBB15_296
.LBB15_317:
	add	x10, sp, #48, lsl #12
	and	x9, x19, #0x30
	mov	x11, x8
	add	x10, x10, #1200
	and	x12, x19, #0x30
	add	x10, x10, #64
.LBB15_318:
	adrp	x13, .LCPI15_3
	ldur	q1, [x10, #-32]
	ldr	q2, [x10]
	ldr	q27, [x13, :lo12:.LCPI15_3]
	adrp	x13, .LCPI15_1
	mov	w14, #42982
	ldr	q28, [x13, :lo12:.LCPI15_1]
	adrp	x13, .LCPI15_2
	dup	v18.4h, w14
	ldr	q4, [x13, :lo12:.LCPI15_2]
	adrp	x13, .LCPI15_0
	tbl	v24.16b, { v1.16b }, v27.16b
	ldr	q6, [x13, :lo12:.LCPI15_0]
	tbl	v25.16b, { v1.16b }, v28.16b
	mov	w13, #18734
	tbl	v26.16b, { v1.16b }, v4.16b
	tbl	v19.16b, { v2.16b }, v4.16b
	tbl	v20.16b, { v2.16b }, v28.16b
	tbl	v30.16b, { v1.16b }, v6.16b
	tbl	v29.16b, { v2.16b }, v6.16b
	dup	v22.4h, w13
	mvni	v23.4s, #127
	tbl	v16.16b, { v2.16b }, v27.16b
	xtn	v2.4h, v24.4s
	xtn	v3.4h, v25.4s
	ldur	q9, [x10, #-64]
	mov	w13, #62976
	xtn	v7.4h, v26.4s
	xtn	v21.4h, v19.4s
	xtn	v11.4h, v20.4s
	xtn	v0.4h, v30.4s
	xtn	v12.4h, v29.4s
	add	v31.4s, v29.4s, v23.4s
	xtn	v17.4h, v16.4s
	smull	v13.4s, v2.4h, v18.4h
	movk	w13, #7, lsl #16
	smull	v15.4s, v3.4h, v18.4h
	add	v8.4s, v20.4s, v23.4s
	add	v10.4s, v19.4s, v23.4s
	smull	v14.4s, v7.4h, v18.4h
	tbl	v7.16b, { v9.16b }, v28.16b
	tbl	v28.16b, { v9.16b }, v27.16b
	smull	v0.4s, v0.4h, v18.4h
	tbl	v27.16b, { v9.16b }, v4.16b
	xtn	v1.4h, v31.4s
	add	v5.4s, v16.4s, v23.4s
	umlal	v13.4s, v17.4h, v22.4h
	subs	x12, x12, #16
	umlal	v15.4s, v11.4h, v22.4h
	dup	v11.4s, w13
	mov	w13, #26345
	umlal	v14.4s, v21.4h, v22.4h
	tbl	v21.16b, { v9.16b }, v6.16b
	add	x10, x10, #16
	umlal	v0.4s, v12.4h, v22.4h
	dup	v18.4h, w13
	mov	w13, #50594
	xtn	v2.4h, v8.4s
	xtn	v3.4h, v10.4s
	xtn	v17.4h, v5.4s
	add	v9.4s, v5.4s, v28.4s
	add	v5.4s, v10.4s, v27.4s
	add	v4.4s, v8.4s, v7.4s
	add	v6.4s, v31.4s, v21.4s
	add	v31.4s, v26.4s, v23.4s
	sub	v26.4s, v21.4s, v29.4s
	add	v29.4s, v24.4s, v23.4s
	add	v30.4s, v30.4s, v23.4s
	add	v24.4s, v0.4s, v11.4s
	add	v0.4s, v25.4s, v23.4s
	dup	v25.4h, w13
	adrp	x13, .LCPI15_4
	xtn	v23.4h, v31.4s
	movi	v8.4s, #128, lsl #8
	movi	v12.4s, #128, lsl #8
	xtn	v10.4h, v29.4s
	add	v31.4s, v31.4s, v31.4s
	add	v29.4s, v29.4s, v29.4s
	sub	v20.4s, v7.4s, v20.4s
	add	v15.4s, v15.4s, v11.4s
	sub	v16.4s, v28.4s, v16.4s
	add	v13.4s, v13.4s, v11.4s
	sub	v19.4s, v27.4s, v19.4s
	add	v14.4s, v14.4s, v11.4s
	smlal	v8.4s, v23.4h, v25.4h
	movi	v23.4s, #128, lsl #8
	add	v28.4s, v29.4s, v28.4s
	smlal	v12.4s, v10.4h, v25.4h
	add	v27.4s, v31.4s, v27.4s
	movi	v29.4s, #128, lsl #8
	movi	v31.4s, #128, lsl #8
	movi	v10.4s, #128, lsl #8
	ssra	v20.4s, v15.4s, #16
	xtn	v11.4h, v30.4s
	movi	v15.4s, #128, lsl #8
	ssra	v16.4s, v13.4s, #16
	ssra	v19.4s, v14.4s, #16
	xtn	v13.4h, v0.4s
	movi	v14.4s, #128, lsl #8
	movi	v22.4s, #128
	add	v30.4s, v30.4s, v30.4s
	add	v0.4s, v0.4s, v0.4s
	ssra	v26.4s, v24.4s, #16
	smlal	v23.4s, v1.4h, v18.4h
	smlal	v29.4s, v17.4h, v18.4h
	smlal	v31.4s, v3.4h, v18.4h
	smlal	v10.4s, v2.4h, v18.4h
	smlal	v15.4s, v11.4h, v25.4h
	smlal	v14.4s, v13.4h, v25.4h
	movi	v25.2d, #0000000000000000
	add	v0.4s, v0.4s, v7.4s
	add	v7.4s, v30.4s, v21.4s
	ssra	v27.4s, v8.4s, #16
	add	v3.4s, v26.4s, v22.4s
	add	v17.4s, v20.4s, v22.4s
	add	v18.4s, v19.4s, v22.4s
	add	v16.4s, v16.4s, v22.4s
	ssra	v28.4s, v12.4s, #16
	ssra	v6.4s, v23.4s, #16
	ssra	v4.4s, v10.4s, #16
	ssra	v5.4s, v31.4s, #16
	ssra	v9.4s, v29.4s, #16
	ssra	v7.4s, v15.4s, #16
	ssra	v0.4s, v14.4s, #16
	smax	v1.4s, v27.4s, v25.4s
	movi	v2.2d, #0x0000ff000000ff
	smax	v17.4s, v17.4s, v25.4s
	smax	v3.4s, v3.4s, v25.4s
	smax	v16.4s, v16.4s, v25.4s
	smax	v18.4s, v18.4s, v25.4s
	smax	v19.4s, v28.4s, v25.4s
	smax	v6.4s, v6.4s, v25.4s
	smax	v20.4s, v9.4s, v25.4s
	smax	v5.4s, v5.4s, v25.4s
	smax	v4.4s, v4.4s, v25.4s
	smax	v7.4s, v7.4s, v25.4s
	smax	v0.4s, v0.4s, v25.4s
	smin	v24.4s, v1.4s, v2.4s
	smin	v1.4s, v3.4s, v2.4s
	smin	v3.4s, v17.4s, v2.4s
	smin	v16.4s, v16.4s, v2.4s
	smin	v17.4s, v18.4s, v2.4s
	smin	v23.4s, v19.4s, v2.4s
	smin	v6.4s, v6.4s, v2.4s
	smin	v4.4s, v4.4s, v2.4s
	smin	v5.4s, v5.4s, v2.4s
	smin	v18.4s, v20.4s, v2.4s
	smin	v22.4s, v7.4s, v2.4s
	smin	v21.4s, v0.4s, v2.4s
	ldr	q2, [x13, :lo12:.LCPI15_4]
	ldr	x13, [sp, #592]
	uzp1	v0.8h, v16.8h, v17.8h
	uzp1	v1.8h, v3.8h, v1.8h
	add	x13, x13, x11
	add	x11, x11, #48
	uzp1	v3.8h, v18.8h, v5.8h
	uzp1	v4.8h, v4.8h, v6.8h
	tbl	v7.16b, { v21.16b, v22.16b, v23.16b, v24.16b }, v2.16b
	uzp1	v6.16b, v1.16b, v0.16b
	uzp1	v5.16b, v4.16b, v3.16b
	st3	{ v5.16b, v6.16b, v7.16b }, [x13]
	b.ne	.LBB15_318
	mov	w0, #62976
	cmp	x19, x9
	movk	w0, #7, lsl #16
	b.eq	.LBB15_162
	tbnz	w19, #3, .LBB15_301
.LBB15_321:
	ldr	x11, [sp, #592]
	add	x10, x9, x9, lsl #1
	ldr	x12, [sp, #312]
	add	x11, x11, x8
	sub	x8, x19, x9
	add	x9, x12, x9
	add	x10, x11, x10
.LBB15_322:
	ldurb	w11, [x9, #-32]
	ldrb	w12, [x9]
	mov	w13, #-22554
	mov	w14, #26345
	mov	w17, #18734
	mov	w16, #32768
	sub	w15, w12, #128
	madd	w13, w11, w13, w0
	ldurb	w18, [x9, #-64]
	madd	w14, w15, w14, w16
	sub	w11, w11, #128
	add	x9, x9, #1
	madd	w13, w12, w17, w13
	mov	w17, #-14942
	add	w15, w15, w18
	madd	w16, w11, w17, w16
	sub	w12, w18, w12
	add	w11, w18, w11, lsl #1
	add	w14, w15, w14, asr #16
	add	w12, w12, w13, asr #16
	bic	w13, w14, w14, asr #31
	add	w11, w11, w16, asr #16
	mov	w14, #255
	add	w12, w12, #128
	bic	w12, w12, w12, asr #31
	cmp	w13, #255
	bic	w11, w11, w11, asr #31
	csel	w13, w13, w14, lt
	cmp	w12, #255
	strb	w13, [x10]
	csel	w12, w12, w14, lt
	cmp	w11, #255
	csel	w11, w11, w14, lt
	strb	w12, [x10, #1]
	subs	x8, x8, #1
	strb	w11, [x10, #2]
	add	x10, x10, #3
	b.ne	.LBB15_322
	b	.LBB15_162
.LBB15_323:
	ldr	x11, [sp, #592]
	add	x13, sp, #48, lsl #12
	and	x10, x19, #0x18
	add	x13, x13, #1200
	and	x9, x19, #0x20
	and	x12, x19, #0x20
	add	x11, x11, x8
	add	x13, x13, #48
.LBB15_324:
	ldp	q0, q3, [x13, #-48]
	add	x14, x11, #96
	ldp	q1, q4, [x13, #-16]
	subs	x12, x12, #32
	ldr	q2, [x13, #16]
	ldr	q5, [x13, #32]!
	st3	{ v0.16b, v1.16b, v2.16b }, [x11], #48
	st3	{ v3.16b, v4.16b, v5.16b }, [x11]
	mov	x11, x14
	b.ne	.LBB15_324
	cmp	x19, x9
	b.eq	.LBB15_162
	cbz	x10, .LBB15_330
.LBB15_327:
	mov	x12, x9
	ldr	x13, [sp, #312]
	and	x9, x19, #0x38
	add	x11, x12, x12, lsl #1
	sub	x10, x12, x9
	add	x12, x13, x12
	add	x11, x8, x11
.LBB15_328:
	ldur	d0, [x12, #-64]
	ldr	x13, [sp, #592]
	adds	x10, x10, #8
	ldur	d1, [x12, #-32]
	ldr	d2, [x12], #8
	add	x13, x13, x11
	add	x11, x11, #24
	st3	{ v0.8b, v1.8b, v2.8b }, [x13]
	b.ne	.LBB15_328
	cmp	x19, x9
	b.eq	.LBB15_162
.LBB15_330:
	ldr	x11, [sp, #592]
	add	x10, x9, x9, lsl #1
	ldr	x12, [sp, #312]
	add	x11, x11, x8
	sub	x8, x19, x9
	add	x9, x12, x9
	add	x10, x11, x10
.LBB15_331:
	ldurb	w11, [x9, #-64]
	ldurb	w12, [x9, #-32]
	subs	x8, x8, #1
	ldrb	w13, [x9], #1
	strb	w11, [x10]
	strb	w12, [x10, #1]
	strb	w13, [x10, #2]
	add	x10, x10, #3
	b.ne	.LBB15_331
	b	.LBB15_162
.LBB15_332:
	mov	x11, xzr
	mov	x12, xzr
	b	.LBB15_334
.LBB15_333:
	add	x12, x13, x12
	ldr	x13, [sp, #608]
	cmp	x12, x27
	add	x11, x11, x13
	b.hs	.LBB15_109
.LBB15_334:
	add	x13, sp, #48, lsl #12
	ldr	x14, [sp, #560]
	ldr	d0, [x8, x11]
	add	x13, x13, #1200
	add	x18, sp, #48, lsl #12
	add	x15, sp, #48, lsl #12
	stp	xzr, xzr, [x13, #8]
	add	x17, sp, #48, lsl #12
	add	x18, x18, #1568
	stur	xzr, [x13, #24]
	add	x13, sp, #48, lsl #12
	add	x15, x15, #1056
	add	x13, x13, #1568
	str	d0, [x24]
	ldr	d0, [x9, x11]
	stp	xzr, xzr, [x13, #16]
	add	x17, x17, #1056
	stur	xzr, [x13, #8]
	sub	x13, x27, x12
	cmp	x14, x13
	str	d0, [x25]
	ldr	d0, [x10, x11]
	csel	x13, x14, x13, lo
	stp	xzr, xzr, [x15, #16]
	sub	x14, x13, #1
	stur	xzr, [x15, #8]
	cmp	x14, #31
	add	x14, sp, #48, lsl #12
	add	x14, x14, #1056
	str	d0, [x14]
	b.hi	.LBB15_333
	add	x14, x12, x12, lsl #1
	ldr	x15, [sp, #632]
	tbz	w15, #0, .LBB15_338
	cmp	x13, #8
	b.hs	.LBB15_340
	mov	w19, #62976
	mov	x15, xzr
	movk	w19, #7, lsl #16
	b	.LBB15_351
.LBB15_338:
	cmp	x13, #8
	b.hs	.LBB15_342
	mov	x15, xzr
	b	.LBB15_360
.LBB15_340:
	cmp	x13, #16
	b.hs	.LBB15_344
	mov	x15, xzr
	b	.LBB15_348
.LBB15_342:
	cmp	x13, #32
	b.hs	.LBB15_353
	mov	x15, xzr
	b	.LBB15_357
.LBB15_344:
	add	x16, sp, #48, lsl #12
	add	x17, sp, #48, lsl #12
	add	x18, sp, #48, lsl #12
	and	x15, x13, #0x30
	add	x16, x16, #1056
	add	x17, x17, #1568
	add	x18, x18, #1200
	mov	x0, x14
	and	x1, x13, #0x30
.LBB15_345:
	adrp	x2, .LCPI15_3
	ldr	q2, [x17], #16
	ldr	q5, [x2, :lo12:.LCPI15_3]
	adrp	x2, .LCPI15_2
	mvni	v25.4s, #127
	ldr	q6, [x2, :lo12:.LCPI15_2]
	adrp	x2, .LCPI15_0
	subs	x1, x1, #16
	ldr	q4, [x2, :lo12:.LCPI15_0]
	adrp	x2, .LCPI15_1
	tbl	v26.16b, { v2.16b }, v5.16b
	ldr	q7, [x2, :lo12:.LCPI15_1]
	ldr	q1, [x16], #16
	mov	w2, #42982
	tbl	v29.16b, { v2.16b }, v6.16b
	tbl	v30.16b, { v2.16b }, v4.16b
	tbl	v24.16b, { v2.16b }, v7.16b
	tbl	v20.16b, { v1.16b }, v7.16b
	dup	v18.4h, w2
	mov	w2, #18734
	tbl	v16.16b, { v1.16b }, v5.16b
	tbl	v23.16b, { v1.16b }, v4.16b
	tbl	v19.16b, { v1.16b }, v6.16b
	xtn	v3.4h, v26.4s
	dup	v11.4h, w2
	xtn	v2.4h, v29.4s
	ldr	q14, [x18], #16
	xtn	v21.4h, v24.4s
	xtn	v31.4h, v20.4s
	mov	w2, #62976
	xtn	v1.4h, v16.4s
	xtn	v8.4h, v23.4s
	add	v22.4s, v23.4s, v25.4s
	xtn	v17.4h, v19.4s
	smull	v12.4s, v3.4h, v18.4h
	tbl	v7.16b, { v14.16b }, v7.16b
	smull	v13.4s, v2.4h, v18.4h
	tbl	v28.16b, { v14.16b }, v5.16b
	movk	w2, #7, lsl #16
	smull	v15.4s, v21.4h, v18.4h
	xtn	v21.4h, v30.4s
	xtn	v0.4h, v22.4s
	add	v9.4s, v20.4s, v25.4s
	add	v29.4s, v29.4s, v25.4s
	tbl	v27.16b, { v14.16b }, v6.16b
	umlal	v12.4s, v1.4h, v11.4h
	dup	v1.4s, w2
	mov	w2, #26345
	umlal	v13.4s, v17.4h, v11.4h
	add	v10.4s, v19.4s, v25.4s
	add	v30.4s, v30.4s, v25.4s
	umlal	v15.4s, v31.4h, v11.4h
	smull	v31.4s, v21.4h, v18.4h
	dup	v18.4h, w2
	mov	w2, #50594
	str	d0, [sp, #544]
	xtn	v2.4h, v9.4s
	add	v0.4s, v16.4s, v25.4s
	tbl	v21.16b, { v14.16b }, v4.16b
	sub	v16.4s, v28.4s, v16.4s
	add	v12.4s, v12.4s, v1.4s
	add	v13.4s, v13.4s, v1.4s
	add	v4.4s, v9.4s, v7.4s
	umlal	v31.4s, v8.4h, v11.4h
	add	v8.4s, v26.4s, v25.4s
	add	v14.4s, v15.4s, v1.4s
	movi	v11.4s, #128, lsl #8
	sub	v20.4s, v7.4s, v20.4s
	xtn	v3.4h, v10.4s
	sub	v19.4s, v27.4s, v19.4s
	add	v5.4s, v10.4s, v27.4s
	ssra	v16.4s, v12.4s, #16
	xtn	v9.4h, v8.4s
	add	v8.4s, v8.4s, v8.4s
	xtn	v10.4h, v30.4s
	add	v26.4s, v31.4s, v1.4s
	add	v1.4s, v24.4s, v25.4s
	xtn	v24.4h, v29.4s
	dup	v25.4h, w2
	adrp	x2, .LCPI15_4
	movi	v31.4s, #128, lsl #8
	add	v29.4s, v29.4s, v29.4s
	add	v30.4s, v30.4s, v30.4s
	xtn	v17.4h, v0.4s
	xtn	v12.4h, v1.4s
	add	v1.4s, v1.4s, v1.4s
	add	v0.4s, v0.4s, v28.4s
	add	v28.4s, v8.4s, v28.4s
	movi	v8.4s, #128, lsl #8
	ssra	v20.4s, v14.4s, #16
	smlal	v31.4s, v24.4h, v25.4h
	movi	v24.4s, #128, lsl #8
	smlal	v11.4s, v9.4h, v25.4h
	add	v27.4s, v29.4s, v27.4s
	movi	v29.4s, #128, lsl #8
	movi	v9.4s, #128, lsl #8
	sub	v23.4s, v21.4s, v23.4s
	movi	v14.4s, #128, lsl #8
	add	v6.4s, v22.4s, v21.4s
	ssra	v19.4s, v13.4s, #16
	movi	v13.4s, #128, lsl #8
	add	v1.4s, v1.4s, v7.4s
	add	v7.4s, v30.4s, v21.4s
	ldr	d21, [sp, #544]
	movi	v22.4s, #128
	ssra	v23.4s, v26.4s, #16
	smlal	v29.4s, v17.4h, v18.4h
	smlal	v8.4s, v3.4h, v18.4h
	smlal	v24.4s, v21.4h, v18.4h
	smlal	v9.4s, v2.4h, v18.4h
	smlal	v14.4s, v10.4h, v25.4h
	smlal	v13.4s, v12.4h, v25.4h
	movi	v25.2d, #0000000000000000
	ssra	v27.4s, v31.4s, #16
	add	v17.4s, v23.4s, v22.4s
	add	v18.4s, v20.4s, v22.4s
	add	v19.4s, v19.4s, v22.4s
	add	v16.4s, v16.4s, v22.4s
	ssra	v28.4s, v11.4s, #16
	ssra	v5.4s, v8.4s, #16
	ssra	v6.4s, v24.4s, #16
	ssra	v4.4s, v9.4s, #16
	ssra	v0.4s, v29.4s, #16
	ssra	v7.4s, v14.4s, #16
	ssra	v1.4s, v13.4s, #16
	smax	v2.4s, v27.4s, v25.4s
	movi	v3.2d, #0x0000ff000000ff
	smax	v18.4s, v18.4s, v25.4s
	smax	v17.4s, v17.4s, v25.4s
	smax	v16.4s, v16.4s, v25.4s
	smax	v19.4s, v19.4s, v25.4s
	smax	v20.4s, v28.4s, v25.4s
	smax	v6.4s, v6.4s, v25.4s
	smax	v0.4s, v0.4s, v25.4s
	smax	v5.4s, v5.4s, v25.4s
	smax	v4.4s, v4.4s, v25.4s
	smax	v7.4s, v7.4s, v25.4s
	smax	v1.4s, v1.4s, v25.4s
	smin	v24.4s, v2.4s, v3.4s
	smin	v2.4s, v17.4s, v3.4s
	smin	v17.4s, v18.4s, v3.4s
	smin	v18.4s, v19.4s, v3.4s
	smin	v16.4s, v16.4s, v3.4s
	smin	v23.4s, v20.4s, v3.4s
	smin	v6.4s, v6.4s, v3.4s
	smin	v5.4s, v5.4s, v3.4s
	smin	v0.4s, v0.4s, v3.4s
	smin	v4.4s, v4.4s, v3.4s
	smin	v22.4s, v7.4s, v3.4s
	smin	v21.4s, v1.4s, v3.4s
	ldr	q3, [x2, :lo12:.LCPI15_4]
	ldr	x2, [sp, #640]
	uzp1	v1.8h, v16.8h, v18.8h
	uzp1	v2.8h, v17.8h, v2.8h
	add	x2, x2, x0
	add	x0, x0, #48
	uzp1	v0.8h, v0.8h, v5.8h
	uzp1	v4.8h, v4.8h, v6.8h
	tbl	v7.16b, { v21.16b, v22.16b, v23.16b, v24.16b }, v3.16b
	uzp1	v6.16b, v2.16b, v1.16b
	uzp1	v5.16b, v4.16b, v0.16b
	st3	{ v5.16b, v6.16b, v7.16b }, [x2]
	b.ne	.LBB15_345
	mov	w19, #62976
	cmp	x13, x15
	movk	w19, #7, lsl #16
	b.eq	.LBB15_333
	tbz	w13, #3, .LBB15_351
.LBB15_348:
	add	x17, x15, x15, lsl #1
	add	x18, sp, #48, lsl #12
	add	x0, sp, #48, lsl #12
	add	x2, sp, #48, lsl #12
	mov	x1, x15
	and	x15, x13, #0x38
	add	x18, x18, #1056
	add	x0, x0, #1568
	add	x2, x2, #1200
	sub	x16, x1, x15
	add	x17, x17, x14
	add	x18, x18, x1
	add	x0, x0, x1
	add	x1, x2, x1
.LBB15_349:
	adrp	x2, .LCPI15_1
	ldr	d2, [x0], #8
	ldr	q1, [x2, :lo12:.LCPI15_1]
	adrp	x2, .LCPI15_0
	mov	w3, #26345
	ldr	q0, [x2, :lo12:.LCPI15_0]
	ldr	d4, [x18], #8
	tbl	v3.16b, { v2.16b }, v1.16b
	mov	w2, #42982
	movi	v22.4s, #128, lsl #8
	tbl	v2.16b, { v2.16b }, v0.16b
	dup	v5.4h, w2
	tbl	v6.16b, { v4.16b }, v1.16b
	tbl	v4.16b, { v4.16b }, v0.16b
	mov	w2, #18734
	movi	v23.4s, #128, lsl #8
	dup	v18.4h, w2
	ldr	d17, [x1], #8
	xtn	v7.4h, v3.4s
	mov	w2, #62976
	adds	x16, x16, #8
	xtn	v16.4h, v2.4s
	xtn	v19.4h, v6.4s
	movk	w2, #7, lsl #16
	xtn	v20.4h, v4.4s
	tbl	v1.16b, { v17.16b }, v1.16b
	dup	v21.4s, w2
	tbl	v0.16b, { v17.16b }, v0.16b
	mov	w2, #50594
	movi	v17.4s, #128, lsl #8
	smull	v7.4s, v7.4h, v5.4h
	smull	v5.4s, v16.4h, v5.4h
	mvni	v16.4s, #127
	umlal	v7.4s, v19.4h, v18.4h
	add	v2.4s, v2.4s, v16.4s
	add	v19.4s, v4.4s, v16.4s
	umlal	v5.4s, v20.4h, v18.4h
	add	v3.4s, v3.4s, v16.4s
	add	v16.4s, v6.4s, v16.4s
	dup	v20.4h, w2
	sub	v6.4s, v1.4s, v6.4s
	dup	v18.4h, w3
	xtn	v24.4h, v2.4s
	sub	v4.4s, v0.4s, v4.4s
	xtn	v25.4h, v19.4s
	add	v7.4s, v7.4s, v21.4s
	xtn	v26.4h, v3.4s
	xtn	v27.4h, v16.4s
	add	v5.4s, v5.4s, v21.4s
	movi	v21.4s, #128, lsl #8
	add	v2.4s, v2.4s, v2.4s
	add	v3.4s, v3.4s, v3.4s
	adrp	x2, .LCPI15_5
	ssra	v6.4s, v7.4s, #16
	movi	v7.4s, #128
	smlal	v17.4s, v24.4h, v20.4h
	ssra	v4.4s, v5.4s, #16
	add	v5.4s, v19.4s, v0.4s
	smlal	v23.4s, v26.4h, v20.4h
	add	v0.4s, v2.4s, v0.4s
	smlal	v22.4s, v25.4h, v18.4h
	add	v2.4s, v3.4s, v1.4s
	movi	v3.2d, #0000000000000000
	smlal	v21.4s, v27.4h, v18.4h
	add	v1.4s, v16.4s, v1.4s
	add	v4.4s, v4.4s, v7.4s
	add	v6.4s, v6.4s, v7.4s
	movi	v7.2d, #0x0000ff000000ff
	ssra	v0.4s, v17.4s, #16
	ssra	v2.4s, v23.4s, #16
	ssra	v5.4s, v22.4s, #16
	ssra	v1.4s, v21.4s, #16
	smax	v4.4s, v4.4s, v3.4s
	smax	v6.4s, v6.4s, v3.4s
	smax	v0.4s, v0.4s, v3.4s
	smax	v2.4s, v2.4s, v3.4s
	smax	v5.4s, v5.4s, v3.4s
	smax	v1.4s, v1.4s, v3.4s
	smin	v19.4s, v4.4s, v7.4s
	smin	v4.4s, v0.4s, v7.4s
	smin	v18.4s, v6.4s, v7.4s
	ldr	q0, [x2, :lo12:.LCPI15_5]
	smin	v3.4s, v2.4s, v7.4s
	smin	v17.4s, v5.4s, v7.4s
	adrp	x2, .LCPI15_4
	smin	v16.4s, v1.4s, v7.4s
	ldr	q1, [x2, :lo12:.LCPI15_4]
	ldr	x2, [sp, #640]
	add	x2, x2, x17
	add	x17, x17, #24
	tbl	v4.16b, { v3.16b, v4.16b }, v0.16b
	tbl	v2.16b, { v16.16b, v17.16b, v18.16b, v19.16b }, v1.16b
	ext	v3.16b, v2.16b, v2.16b, #8
	st3	{ v2.8b, v3.8b, v4.8b }, [x2]
	b.ne	.LBB15_349
	mov	w19, #62976
	cmp	x13, x15
	movk	w19, #7, lsl #16
	b.eq	.LBB15_333
.LBB15_351:
	add	x18, x15, x15, lsl #1
	add	x0, sp, #48, lsl #12
	add	x17, sp, #48, lsl #12
	add	x0, x0, #1568
	add	x1, sp, #48, lsl #12
	add	x17, x17, #1200
	add	x18, x18, x14
	add	x14, x0, x15
	ldr	x0, [sp, #640]
	add	x1, x1, #1056
	sub	x16, x13, x15
	add	x17, x17, x15
	add	x18, x0, x18
	add	x15, x1, x15
.LBB15_352:
	ldrb	w0, [x14], #1
	mov	w2, #-22554
	ldrb	w1, [x15], #1
	mov	w3, #26345
	madd	w2, w0, w2, w19
	mov	w6, #18734
	mov	w5, #32768
	sub	w4, w1, #128
	ldrb	w7, [x17], #1
	madd	w3, w4, w3, w5
	sub	w0, w0, #128
	madd	w2, w1, w6, w2
	mov	w6, #-14942
	add	w4, w4, w7
	madd	w5, w0, w6, w5
	sub	w1, w7, w1
	add	w0, w7, w0, lsl #1
	add	w3, w4, w3, asr #16
	add	w1, w1, w2, asr #16
	bic	w2, w3, w3, asr #31
	add	w0, w0, w5, asr #16
	mov	w3, #255
	add	w1, w1, #128
	bic	w1, w1, w1, asr #31
	cmp	w2, #255
	bic	w0, w0, w0, asr #31
	csel	w2, w2, w3, lt
	cmp	w1, #255
	strb	w2, [x18]
	csel	w1, w1, w3, lt
	cmp	w0, #255
	csel	w0, w0, w3, lt
	strb	w1, [x18, #1]
	subs	x16, x16, #1
	strb	w0, [x18, #2]
	add	x18, x18, #3
	b.ne	.LBB15_352
	b	.LBB15_333
.LBB15_353:
	ldr	x0, [sp, #640]
	add	x2, sp, #48, lsl #12
	and	x16, x13, #0x18
	add	x2, x2, #1200
	and	x15, x13, #0x20
	add	x17, x17, #16
	add	x0, x0, x14
	add	x18, x18, #16
	and	x1, x13, #0x20
	add	x2, x2, #16
.LBB15_354:
	ldp	q0, q3, [x2, #-16]
	add	x3, x0, #96
	ldp	q1, q4, [x18, #-16]
	add	x2, x2, #32
	ldp	q2, q5, [x17, #-16]
	subs	x1, x1, #32
	add	x18, x18, #32
	add	x17, x17, #32
	st3	{ v0.16b, v1.16b, v2.16b }, [x0], #48
	st3	{ v3.16b, v4.16b, v5.16b }, [x0]
	mov	x0, x3
	b.ne	.LBB15_354
	cmp	x13, x15
	b.eq	.LBB15_333
	cbz	x16, .LBB15_360
.LBB15_357:
	add	x17, x15, x15, lsl #1
	add	x18, sp, #48, lsl #12
	add	x0, sp, #48, lsl #12
	add	x2, sp, #48, lsl #12
	mov	x1, x15
	and	x15, x13, #0x38
	add	x18, x18, #1056
	add	x0, x0, #1568
	add	x2, x2, #1200
	sub	x16, x1, x15
	add	x17, x17, x14
	add	x18, x18, x1
	add	x0, x0, x1
	add	x1, x2, x1
.LBB15_358:
	ldr	d0, [x1], #8
	ldr	x2, [sp, #640]
	ldr	d1, [x0], #8
	adds	x16, x16, #8
	ldr	d2, [x18], #8
	add	x2, x2, x17
	add	x17, x17, #24
	st3	{ v0.8b, v1.8b, v2.8b }, [x2]
	b.ne	.LBB15_358
	cmp	x13, x15
	b.eq	.LBB15_333
.LBB15_360:
	ldr	x1, [sp, #640]
	add	x17, sp, #48, lsl #12
	add	x18, x15, x15, lsl #1
	add	x0, sp, #48, lsl #12
	add	x2, sp, #48, lsl #12
	add	x17, x17, #1200
	add	x0, x0, #1568
	add	x1, x1, x14
	add	x2, x2, #1056
	sub	x16, x13, x15
	add	x17, x17, x15
	add	x14, x0, x15
	add	x18, x1, x18
	add	x15, x2, x15
.LBB15_361:
	ldrb	w0, [x17], #1
	subs	x16, x16, #1
	ldrb	w1, [x14], #1
	ldrb	w2, [x15], #1
	strb	w0, [x18]
	strb	w1, [x18, #1]
	strb	w2, [x18, #2]
	add	x18, x18, #3
	b.ne	.LBB15_361
	b	.LBB15_333
.LBB15_362:
	ldr	x11, [sp, #632]
	tbz	w11, #0, .LBB15_406
	add	x12, sp, #32, lsl #12
	ldr	x13, [sp, #336]
	add	x14, x27, x27, lsl #1
	add	x12, x12, #672
	mov	x11, xzr
	madd	x12, x14, x13, x12
	mov	x13, xzr
	b	.LBB15_366
.LBB15_364:
	add	x16, sp, #48, lsl #12
	ldr	q0, [x25, #192]
	add	x16, x16, #1056
	ldp	q1, q2, [x16]
	uaddw	v1.8h, v1.8h, v0.8b
	sqxtun	v6.8b, v1.8h
	uaddw2	v1.8h, v2.8h, v0.16b
	ldp	q3, q2, [x25]
	uaddw	v3.8h, v3.8h, v0.8b
	sqxtun2	v6.16b, v1.8h
	uaddw2	v2.8h, v2.8h, v0.16b
	sqxtun	v5.8b, v3.8h
	ldp	q1, q3, [x24]
	uaddw	v1.8h, v1.8h, v0.8b
	uaddw2	v0.8h, v3.8h, v0.16b
	sqxtun2	v5.16b, v2.8h
	sqxtun	v4.8b, v1.8h
	sqxtun2	v4.16b, v0.8h
	st3	{ v4.16b, v5.16b, v6.16b }, [x15]
.LBB15_365:
	add	x13, x14, x13
	ldr	x14, [sp, #608]
	cmp	x13, x27
	add	x11, x11, x14
	b.hs	.LBB15_109
.LBB15_366:
	add	x14, x8, x11
	ldr	x15, [sp, #560]
	ldr	d0, [x14]
	ldr	d1, [x14, #64]
	sub	x14, x27, x13
	cmp	x15, x14
	mov	v0.d[1], v1.d[0]
	csel	x14, x15, x14, lo
	sub	x15, x29, #128
	cmp	x14, #16
	stp	xzr, xzr, [x15, #16]
	str	q0, [x25, #192]
	b.hi	.LBB15_365
	add	x15, x10, x11
	mov	w16, #18734
	movi	v21.4s, #128, lsl #8
	ldp	s0, s2, [x15]
	dup	v3.4h, w16
	add	x15, x9, x11
	mov	w16, #42982
	movi	v22.4s, #128, lsl #8
	ldp	s4, s6, [x15]
	dup	v5.4h, w16
	ushll	v1.8h, v0.8b, #0
	ushll	v0.8h, v2.8b, #0
	mvni	v2.4s, #127
	mov	w16, #62976
	mov	w15, #26345
	ushll	v4.8h, v4.8b, #0
	ushll	v6.8h, v6.8b, #0
	movk	w16, #7, lsl #16
	umull	v7.4s, v1.4h, v3.4h
	umull	v3.4s, v0.4h, v3.4h
	uaddw	v16.4s, v2.4s, v1.4h
	dup	v17.4s, w16
	dup	v19.4h, w15
	uaddw	v18.4s, v2.4s, v0.4h
	mov	w15, #50594
	xtn	v20.4h, v16.4s
	smlal	v7.4s, v4.4h, v5.4h
	smlal	v3.4s, v6.4h, v5.4h
	movi	v5.4s, #128, lsl #8
	uaddw	v4.4s, v2.4s, v4.4h
	uaddw	v2.4s, v2.4s, v6.4h
	xtn	v6.4h, v18.4s
	add	v7.4s, v7.4s, v17.4s
	add	v3.4s, v3.4s, v17.4s
	dup	v17.4h, w15
	xtn	v23.4h, v4.4s
	smlal	v5.4s, v20.4h, v19.4h
	movi	v20.4s, #128, lsl #8
	xtn	v24.4h, v2.4s
	smlal	v21.4s, v6.4h, v19.4h
	add	v4.4s, v4.4s, v4.4s
	ushr	v7.4s, v7.4s, #16
	ushr	v3.4s, v3.4s, #16
	add	v2.4s, v2.4s, v2.4s
	add	x15, sp, #48, lsl #12
	smlal	v22.4s, v23.4h, v17.4h
	usra	v16.4s, v5.4s, #16
	add	x15, x15, #1056
	usubw	v1.4s, v7.4s, v1.4h
	smlal	v20.4s, v24.4h, v17.4h
	usubw	v0.4s, v3.4s, v0.4h
	movi	v3.4h, #128
	usra	v18.4s, v21.4s, #16
	zip2	v5.4s, v16.4s, v16.4s
	zip1	v6.4s, v16.4s, v16.4s
	xtn	v1.4h, v1.4s
	xtn	v0.4h, v0.4s
	usra	v4.4s, v22.4s, #16
	usra	v2.4s, v20.4s, #16
	zip2	v7.4s, v18.4s, v18.4s
	zip1	v16.4s, v18.4s, v18.4s
	uzp1	v5.8h, v6.8h, v5.8h
	zip2	v6.4s, v4.4s, v4.4s
	zip1	v4.4s, v4.4s, v4.4s
	add	v1.4h, v1.4h, v3.4h
	add	v0.4h, v0.4h, v3.4h
	zip2	v3.4s, v2.4s, v2.4s
	zip1	v2.4s, v2.4s, v2.4s
	uzp1	v7.8h, v16.8h, v7.8h
	zip1	v1.8h, v1.8h, v1.8h
	zip1	v0.8h, v0.8h, v0.8h
	uzp1	v4.8h, v4.8h, v6.8h
	uzp1	v2.8h, v2.8h, v3.8h
	stp	q5, q7, [x24]
	stp	q1, q0, [x25]
	stp	q4, q2, [x15]
	cbz	x14, .LBB15_365
	add	x18, x13, x13, lsl #1
	cmp	x14, #8
	b.hs	.LBB15_372
	mov	x0, xzr
.LBB15_370:
	ldr	x2, [sp, #640]
	lsl	x1, x0, #1
	sub	x16, x29, #128
	add	x17, sp, #48, lsl #12
	add	x3, sp, #48, lsl #12
	sub	x15, x14, x0
	add	x18, x2, x18
	add	x2, sp, #48, lsl #12
	add	x17, x17, #1200
	add	x16, x16, x0
	add	x0, x1, x0
	add	x2, x2, #1056
	add	x3, x3, #1568
	add	x17, x17, x1
	add	x18, x18, x0
	add	x0, x2, x1
	add	x1, x3, x1
.LBB15_371:
	ldrb	w2, [x16], #1
	ldrh	w3, [x17], #2
	ldrh	w4, [x1], #2
	add	w3, w3, w2
	ldrh	w5, [x0], #2
	sxth	w3, w3
	add	w4, w4, w2
	sxth	w4, w4
	add	w2, w5, w2
	mov	w5, #255
	bic	w3, w3, w3, asr #31
	sxth	w2, w2
	bic	w4, w4, w4, asr #31
	cmp	w3, #255
	bic	w2, w2, w2, asr #31
	csel	w3, w3, w5, lt
	cmp	w4, #255
	strb	w3, [x18]
	csel	w3, w4, w5, lt
	cmp	w2, #255
	csel	w2, w2, w5, lt
	strb	w3, [x18, #1]
	subs	x15, x15, #1
	strb	w2, [x18, #2]
	add	x18, x18, #3
	b.ne	.LBB15_371
	b	.LBB15_365
.LBB15_372:
	cmp	x14, #16
	add	x15, x12, x18
	b.eq	.LBB15_364
	add	x16, sp, #48, lsl #12
	ldr	d0, [x25, #192]
	ldr	q2, [x25]
	add	x16, x16, #1056
	ldr	q3, [x24]
	and	x0, x14, #0x18
	ldr	q1, [x16]
	uaddw	v2.8h, v2.8h, v0.8b
	cmp	x0, #8
	uaddw	v1.8h, v1.8h, v0.8b
	uaddw	v0.8h, v3.8h, v0.8b
	sqxtun	v5.8b, v1.8h
	sqxtun	v4.8b, v2.8h
	sqxtun	v3.8b, v0.8h
	st3	{ v3.8b, v4.8b, v5.8b }, [x15]
	b.eq	.LBB15_375
	add	x16, sp, #48, lsl #12
	ldr	d0, [x25, #200]
	ldr	q2, [x25, #16]
	add	x16, x16, #1056
	ldr	q3, [x24, #16]
	add	x15, x15, #24
	ldr	q1, [x16, #16]
	uaddw	v2.8h, v2.8h, v0.8b
	uaddw	v1.8h, v1.8h, v0.8b
	uaddw	v0.8h, v3.8h, v0.8b
	sqxtun	v5.8b, v1.8h
	sqxtun	v4.8b, v2.8h
	sqxtun	v3.8b, v0.8h
	st3	{ v3.8b, v4.8b, v5.8b }, [x15]
.LBB15_375:
	cmp	x14, x0
	b.eq	.LBB15_365
	b	.LBB15_370
.LBB15_376:
	mov	x11, xzr
	mov	x12, xzr
	b	.LBB15_378
.LBB15_377:
	add	x12, x13, x12
	ldr	x13, [sp, #608]
	cmp	x12, x27
	add	x11, x11, x13
	b.hs	.LBB15_109
.LBB15_378:
	add	x13, x9, x11
	mov	w14, #16843009
	add	x1, sp, #48, lsl #12
	ldrb	w15, [x13]
	ldrb	w16, [x13, #1]
	ldrb	w17, [x13, #2]
	ldrb	w18, [x13, #3]
	add	x1, x1, #1568
	ldrb	w0, [x13, #4]
	mul	w15, w15, w14
	ldr	x2, [sp, #224]
	mul	w16, w16, w14
	mul	w17, w17, w14
	str	w15, [x25]
	ldrb	w15, [x13, #5]
	mul	w18, w18, w14
	mul	w0, w0, w14
	stp	w16, w17, [x1, #4]
	ldrb	w16, [x13, #6]
	ldrb	w13, [x13, #7]
	add	x17, x10, x11
	mul	w15, w15, w14
	stur	w18, [x1, #12]
	mul	w16, w16, w14
	ldrb	w18, [x17]
	str	w0, [x2]
	mul	w13, w13, w14
	add	x0, x8, x11
	add	x2, sp, #48, lsl #12
	ldr	d0, [x0]
	ldr	d1, [x0, #64]
	ldr	d2, [x0, #128]
	stp	w15, w16, [x1, #20]
	mul	w15, w18, w14
	ldrb	w18, [x17, #1]
	ldrb	w16, [x17, #2]
	stur	w13, [x1, #28]
	add	x1, sp, #48, lsl #12
	add	x1, x1, #1056
	mul	w13, w18, w14
	ldr	d3, [x0, #192]
	str	w15, [x1]
	mul	w15, w16, w14
	ldrb	w16, [x17, #4]
	add	x0, sp, #48, lsl #12
	ldrb	w18, [x17, #3]
	ldr	x1, [sp, #560]
	add	x0, x0, #1056
	mov	v0.d[1], v1.d[0]
	mov	v2.d[1], v3.d[0]
	stp	w13, w15, [x0, #4]
	mul	w13, w16, w14
	ldr	x16, [sp, #216]
	mul	w18, w18, w14
	ldrb	w15, [x17, #5]
	add	x2, x2, #1568
	str	w13, [x16]
	ldrb	w13, [x17, #6]
	sub	x16, x27, x12
	ldrb	w17, [x17, #7]
	cmp	x1, x16
	stur	w18, [x0, #12]
	mul	w15, w15, w14
	stp	q0, q2, [x24]
	mul	w18, w13, w14
	csel	x13, x1, x16, lo
	mul	w14, w17, w14
	sub	x16, x13, #1
	add	x17, sp, #48, lsl #12
	cmp	x16, #31
	add	x17, x17, #1056
	stp	w15, w18, [x0, #20]
	stur	w14, [x0, #28]
	b.hi	.LBB15_377
	add	x14, x12, x12, lsl #1
	ldr	x15, [sp, #632]
	tbz	w15, #0, .LBB15_382
	cmp	x13, #8
	b.hs	.LBB15_384
	mov	w19, #62976
	mov	x15, xzr
	movk	w19, #7, lsl #16
	b	.LBB15_395
.LBB15_382:
	cmp	x13, #8
	b.hs	.LBB15_386
	mov	x15, xzr
	b	.LBB15_404
.LBB15_384:
	cmp	x13, #16
	b.hs	.LBB15_388
	mov	x15, xzr
	b	.LBB15_392
.LBB15_386:
	cmp	x13, #32
	b.hs	.LBB15_397
	mov	x15, xzr
	b	.LBB15_401
.LBB15_388:
	add	x16, sp, #48, lsl #12
	add	x17, sp, #48, lsl #12
	add	x18, sp, #48, lsl #12
	and	x15, x13, #0x30
	add	x16, x16, #1056
	add	x17, x17, #1568
	add	x18, x18, #1200
	mov	x0, x14
	and	x1, x13, #0x30
.LBB15_389:
	adrp	x2, .LCPI15_3
	ldr	q2, [x17], #16
	ldr	q5, [x2, :lo12:.LCPI15_3]
	adrp	x2, .LCPI15_2
	mvni	v25.4s, #127
	ldr	q6, [x2, :lo12:.LCPI15_2]
	adrp	x2, .LCPI15_0
	subs	x1, x1, #16
	ldr	q4, [x2, :lo12:.LCPI15_0]
	adrp	x2, .LCPI15_1
	tbl	v26.16b, { v2.16b }, v5.16b
	ldr	q7, [x2, :lo12:.LCPI15_1]
	ldr	q1, [x16], #16
	mov	w2, #42982
	tbl	v29.16b, { v2.16b }, v6.16b
	tbl	v30.16b, { v2.16b }, v4.16b
	tbl	v24.16b, { v2.16b }, v7.16b
	tbl	v20.16b, { v1.16b }, v7.16b
	dup	v18.4h, w2
	mov	w2, #18734
	tbl	v16.16b, { v1.16b }, v5.16b
	tbl	v23.16b, { v1.16b }, v4.16b
	tbl	v19.16b, { v1.16b }, v6.16b
	xtn	v3.4h, v26.4s
	dup	v11.4h, w2
	xtn	v2.4h, v29.4s
	ldr	q14, [x18], #16
	xtn	v21.4h, v24.4s
	xtn	v31.4h, v20.4s
	mov	w2, #62976
	xtn	v1.4h, v16.4s
	xtn	v8.4h, v23.4s
	add	v22.4s, v23.4s, v25.4s
	xtn	v17.4h, v19.4s
	smull	v12.4s, v3.4h, v18.4h
	tbl	v7.16b, { v14.16b }, v7.16b
	smull	v13.4s, v2.4h, v18.4h
	tbl	v28.16b, { v14.16b }, v5.16b
	movk	w2, #7, lsl #16
	smull	v15.4s, v21.4h, v18.4h
	xtn	v21.4h, v30.4s
	xtn	v0.4h, v22.4s
	add	v9.4s, v20.4s, v25.4s
	add	v29.4s, v29.4s, v25.4s
	tbl	v27.16b, { v14.16b }, v6.16b
	umlal	v12.4s, v1.4h, v11.4h
	dup	v1.4s, w2
	mov	w2, #26345
	umlal	v13.4s, v17.4h, v11.4h
	add	v10.4s, v19.4s, v25.4s
	add	v30.4s, v30.4s, v25.4s
	umlal	v15.4s, v31.4h, v11.4h
	smull	v31.4s, v21.4h, v18.4h
	dup	v18.4h, w2
	mov	w2, #50594
	str	d0, [sp, #544]
	xtn	v2.4h, v9.4s
	add	v0.4s, v16.4s, v25.4s
	tbl	v21.16b, { v14.16b }, v4.16b
	sub	v16.4s, v28.4s, v16.4s
	add	v12.4s, v12.4s, v1.4s
	add	v13.4s, v13.4s, v1.4s
	add	v4.4s, v9.4s, v7.4s
	umlal	v31.4s, v8.4h, v11.4h
	add	v8.4s, v26.4s, v25.4s
	add	v14.4s, v15.4s, v1.4s
	movi	v11.4s, #128, lsl #8
	sub	v20.4s, v7.4s, v20.4s
	xtn	v3.4h, v10.4s
	sub	v19.4s, v27.4s, v19.4s
	add	v5.4s, v10.4s, v27.4s
	ssra	v16.4s, v12.4s, #16
	xtn	v9.4h, v8.4s
	add	v8.4s, v8.4s, v8.4s
	xtn	v10.4h, v30.4s
	add	v26.4s, v31.4s, v1.4s
	add	v1.4s, v24.4s, v25.4s
	xtn	v24.4h, v29.4s
	dup	v25.4h, w2
	adrp	x2, .LCPI15_4
	movi	v31.4s, #128, lsl #8
	add	v29.4s, v29.4s, v29.4s
	add	v30.4s, v30.4s, v30.4s
	xtn	v17.4h, v0.4s
	xtn	v12.4h, v1.4s
	add	v1.4s, v1.4s, v1.4s
	add	v0.4s, v0.4s, v28.4s
	add	v28.4s, v8.4s, v28.4s
	movi	v8.4s, #128, lsl #8
	ssra	v20.4s, v14.4s, #16
	smlal	v31.4s, v24.4h, v25.4h
	movi	v24.4s, #128, lsl #8
	smlal	v11.4s, v9.4h, v25.4h
	add	v27.4s, v29.4s, v27.4s
	movi	v29.4s, #128, lsl #8
	movi	v9.4s, #128, lsl #8
	sub	v23.4s, v21.4s, v23.4s
	movi	v14.4s, #128, lsl #8
	add	v6.4s, v22.4s, v21.4s
	ssra	v19.4s, v13.4s, #16
	movi	v13.4s, #128, lsl #8
	add	v1.4s, v1.4s, v7.4s
	add	v7.4s, v30.4s, v21.4s
	ldr	d21, [sp, #544]
	movi	v22.4s, #128
	ssra	v23.4s, v26.4s, #16
	smlal	v29.4s, v17.4h, v18.4h
	smlal	v8.4s, v3.4h, v18.4h
	smlal	v24.4s, v21.4h, v18.4h
	smlal	v9.4s, v2.4h, v18.4h
	smlal	v14.4s, v10.4h, v25.4h
	smlal	v13.4s, v12.4h, v25.4h
	movi	v25.2d, #0000000000000000
	ssra	v27.4s, v31.4s, #16
	add	v17.4s, v23.4s, v22.4s
	add	v18.4s, v20.4s, v22.4s
	add	v19.4s, v19.4s, v22.4s
	add	v16.4s, v16.4s, v22.4s
	ssra	v28.4s, v11.4s, #16
	ssra	v5.4s, v8.4s, #16
	ssra	v6.4s, v24.4s, #16
	ssra	v4.4s, v9.4s, #16
	ssra	v0.4s, v29.4s, #16
	ssra	v7.4s, v14.4s, #16
	ssra	v1.4s, v13.4s, #16
	smax	v2.4s, v27.4s, v25.4s
	movi	v3.2d, #0x0000ff000000ff
	smax	v18.4s, v18.4s, v25.4s
	smax	v17.4s, v17.4s, v25.4s
	smax	v16.4s, v16.4s, v25.4s
	smax	v19.4s, v19.4s, v25.4s
	smax	v20.4s, v28.4s, v25.4s
	smax	v6.4s, v6.4s, v25.4s
	smax	v0.4s, v0.4s, v25.4s
	smax	v5.4s, v5.4s, v25.4s
	smax	v4.4s, v4.4s, v25.4s
	smax	v7.4s, v7.4s, v25.4s
	smax	v1.4s, v1.4s, v25.4s
	smin	v24.4s, v2.4s, v3.4s
	smin	v2.4s, v17.4s, v3.4s
	smin	v17.4s, v18.4s, v3.4s
	smin	v18.4s, v19.4s, v3.4s
	smin	v16.4s, v16.4s, v3.4s
	smin	v23.4s, v20.4s, v3.4s
	smin	v6.4s, v6.4s, v3.4s
	smin	v5.4s, v5.4s, v3.4s
	smin	v0.4s, v0.4s, v3.4s
	smin	v4.4s, v4.4s, v3.4s
	smin	v22.4s, v7.4s, v3.4s
	smin	v21.4s, v1.4s, v3.4s
	ldr	q3, [x2, :lo12:.LCPI15_4]
	ldr	x2, [sp, #640]
	uzp1	v1.8h, v16.8h, v18.8h
	uzp1	v2.8h, v17.8h, v2.8h
	add	x2, x2, x0
	add	x0, x0, #48
	uzp1	v0.8h, v0.8h, v5.8h
	uzp1	v4.8h, v4.8h, v6.8h
	tbl	v7.16b, { v21.16b, v22.16b, v23.16b, v24.16b }, v3.16b
	uzp1	v6.16b, v2.16b, v1.16b
	uzp1	v5.16b, v4.16b, v0.16b
	st3	{ v5.16b, v6.16b, v7.16b }, [x2]
	b.ne	.LBB15_389
	mov	w19, #62976
	cmp	x13, x15
	movk	w19, #7, lsl #16
	b.eq	.LBB15_377
	tbz	w13, #3, .LBB15_395
.LBB15_392:
	add	x17, x15, x15, lsl #1
	add	x18, sp, #48, lsl #12
	add	x0, sp, #48, lsl #12
	add	x2, sp, #48, lsl #12
	mov	x1, x15
	and	x15, x13, #0x38
	add	x18, x18, #1056
	add	x0, x0, #1568
	add	x2, x2, #1200
	sub	x16, x1, x15
	add	x17, x17, x14
	add	x18, x18, x1
	add	x0, x0, x1
	add	x1, x2, x1
.LBB15_393:
	adrp	x2, .LCPI15_1
	ldr	d2, [x0], #8
	ldr	q1, [x2, :lo12:.LCPI15_1]
	adrp	x2, .LCPI15_0
	mov	w3, #26345
	ldr	q0, [x2, :lo12:.LCPI15_0]
	ldr	d4, [x18], #8
	tbl	v3.16b, { v2.16b }, v1.16b
	mov	w2, #42982
	movi	v22.4s, #128, lsl #8
	tbl	v2.16b, { v2.16b }, v0.16b
	dup	v5.4h, w2
	tbl	v6.16b, { v4.16b }, v1.16b
	tbl	v4.16b, { v4.16b }, v0.16b
	mov	w2, #18734
	movi	v23.4s, #128, lsl #8
	dup	v18.4h, w2
	ldr	d17, [x1], #8
	xtn	v7.4h, v3.4s
	mov	w2, #62976
	adds	x16, x16, #8
	xtn	v16.4h, v2.4s
	xtn	v19.4h, v6.4s
	movk	w2, #7, lsl #16
	xtn	v20.4h, v4.4s
	tbl	v1.16b, { v17.16b }, v1.16b
	dup	v21.4s, w2
	tbl	v0.16b, { v17.16b }, v0.16b
	mov	w2, #50594
	movi	v17.4s, #128, lsl #8
	smull	v7.4s, v7.4h, v5.4h
	smull	v5.4s, v16.4h, v5.4h
	mvni	v16.4s, #127
	umlal	v7.4s, v19.4h, v18.4h
	add	v2.4s, v2.4s, v16.4s
	add	v19.4s, v4.4s, v16.4s
	umlal	v5.4s, v20.4h, v18.4h
	add	v3.4s, v3.4s, v16.4s
	add	v16.4s, v6.4s, v16.4s
	dup	v20.4h, w2
	sub	v6.4s, v1.4s, v6.4s
	dup	v18.4h, w3
	xtn	v24.4h, v2.4s
	sub	v4.4s, v0.4s, v4.4s
	xtn	v25.4h, v19.4s
	add	v7.4s, v7.4s, v21.4s
	xtn	v26.4h, v3.4s
	xtn	v27.4h, v16.4s
	add	v5.4s, v5.4s, v21.4s
	movi	v21.4s, #128, lsl #8
	add	v2.4s, v2.4s, v2.4s
	add	v3.4s, v3.4s, v3.4s
	adrp	x2, .LCPI15_5
	ssra	v6.4s, v7.4s, #16
	movi	v7.4s, #128
	smlal	v17.4s, v24.4h, v20.4h
	ssra	v4.4s, v5.4s, #16
	add	v5.4s, v19.4s, v0.4s
	smlal	v23.4s, v26.4h, v20.4h
	add	v0.4s, v2.4s, v0.4s
	smlal	v22.4s, v25.4h, v18.4h
	add	v2.4s, v3.4s, v1.4s
	movi	v3.2d, #0000000000000000
	smlal	v21.4s, v27.4h, v18.4h
	add	v1.4s, v16.4s, v1.4s
	add	v4.4s, v4.4s, v7.4s
	add	v6.4s, v6.4s, v7.4s
	movi	v7.2d, #0x0000ff000000ff
	ssra	v0.4s, v17.4s, #16
	ssra	v2.4s, v23.4s, #16
	ssra	v5.4s, v22.4s, #16
	ssra	v1.4s, v21.4s, #16
	smax	v4.4s, v4.4s, v3.4s
	smax	v6.4s, v6.4s, v3.4s
	smax	v0.4s, v0.4s, v3.4s
	smax	v2.4s, v2.4s, v3.4s
	smax	v5.4s, v5.4s, v3.4s
	smax	v1.4s, v1.4s, v3.4s
	smin	v19.4s, v4.4s, v7.4s
	smin	v4.4s, v0.4s, v7.4s
	smin	v18.4s, v6.4s, v7.4s
	ldr	q0, [x2, :lo12:.LCPI15_5]
	smin	v3.4s, v2.4s, v7.4s
	smin	v17.4s, v5.4s, v7.4s
	adrp	x2, .LCPI15_4
	smin	v16.4s, v1.4s, v7.4s
	ldr	q1, [x2, :lo12:.LCPI15_4]
	ldr	x2, [sp, #640]
	add	x2, x2, x17
	add	x17, x17, #24
	tbl	v4.16b, { v3.16b, v4.16b }, v0.16b
	tbl	v2.16b, { v16.16b, v17.16b, v18.16b, v19.16b }, v1.16b
	ext	v3.16b, v2.16b, v2.16b, #8
	st3	{ v2.8b, v3.8b, v4.8b }, [x2]
	b.ne	.LBB15_393
	mov	w19, #62976
	cmp	x13, x15
	movk	w19, #7, lsl #16
	b.eq	.LBB15_377
.LBB15_395:
	add	x18, x15, x15, lsl #1
	add	x0, sp, #48, lsl #12
	add	x17, sp, #48, lsl #12
	add	x0, x0, #1568
	add	x1, sp, #48, lsl #12
	add	x17, x17, #1200
	add	x18, x18, x14
	add	x14, x0, x15
	ldr	x0, [sp, #640]
	add	x1, x1, #1056
	sub	x16, x13, x15
	add	x17, x17, x15
	add	x18, x0, x18
	add	x15, x1, x15
.LBB15_396:
	ldrb	w0, [x14], #1
	mov	w2, #-22554
	ldrb	w1, [x15], #1
	mov	w3, #26345
	madd	w2, w0, w2, w19
	mov	w6, #18734
	mov	w5, #32768
	sub	w4, w1, #128
	ldrb	w7, [x17], #1
	madd	w3, w4, w3, w5
	sub	w0, w0, #128
	madd	w2, w1, w6, w2
	mov	w6, #-14942
	add	w4, w4, w7
	madd	w5, w0, w6, w5
	sub	w1, w7, w1
	add	w0, w7, w0, lsl #1
	add	w3, w4, w3, asr #16
	add	w1, w1, w2, asr #16
	bic	w2, w3, w3, asr #31
	add	w0, w0, w5, asr #16
	mov	w3, #255
	add	w1, w1, #128
	bic	w1, w1, w1, asr #31
	cmp	w2, #255
	bic	w0, w0, w0, asr #31
	csel	w2, w2, w3, lt
	cmp	w1, #255
	strb	w2, [x18]
	csel	w1, w1, w3, lt
	cmp	w0, #255
	csel	w0, w0, w3, lt
	strb	w1, [x18, #1]
	subs	x16, x16, #1
	strb	w0, [x18, #2]
	add	x18, x18, #3
	b.ne	.LBB15_396
	b	.LBB15_377
.LBB15_397:
	ldr	x18, [sp, #640]
	and	x16, x13, #0x18
	and	x15, x13, #0x20
	add	x17, x17, #16
	and	x1, x13, #0x20
	add	x0, x18, x14
	add	x18, x2, #16
	add	x2, sp, #48, lsl #12
	add	x2, x2, #1200
	add	x2, x2, #16
.LBB15_398:
	ldp	q0, q3, [x2, #-16]
	add	x3, x0, #96
	ldp	q1, q4, [x18, #-16]
	add	x2, x2, #32
	ldp	q2, q5, [x17, #-16]
	subs	x1, x1, #32
	add	x18, x18, #32
	add	x17, x17, #32
	st3	{ v0.16b, v1.16b, v2.16b }, [x0], #48
	st3	{ v3.16b, v4.16b, v5.16b }, [x0]
	mov	x0, x3
	b.ne	.LBB15_398
	cmp	x13, x15
	b.eq	.LBB15_377
	cbz	x16, .LBB15_404
.LBB15_401:
	add	x17, x15, x15, lsl #1
	add	x18, sp, #48, lsl #12
	add	x0, sp, #48, lsl #12
	add	x2, sp, #48, lsl #12
	mov	x1, x15
	and	x15, x13, #0x38
	add	x18, x18, #1056
	add	x0, x0, #1568
	add	x2, x2, #1200
	sub	x16, x1, x15
	add	x17, x17, x14
	add	x18, x18, x1
	add	x0, x0, x1
	add	x1, x2, x1
.LBB15_402:
	ldr	d0, [x1], #8
	ldr	x2, [sp, #640]
	ldr	d1, [x0], #8
	adds	x16, x16, #8
	ldr	d2, [x18], #8
	add	x2, x2, x17
	add	x17, x17, #24
	st3	{ v0.8b, v1.8b, v2.8b }, [x2]
	b.ne	.LBB15_402
	cmp	x13, x15
	b.eq	.LBB15_377
.LBB15_404:
	ldr	x1, [sp, #640]
	add	x17, sp, #48, lsl #12
	add	x18, x15, x15, lsl #1
	add	x0, sp, #48, lsl #12
	add	x2, sp, #48, lsl #12
	add	x17, x17, #1200
	add	x0, x0, #1568
	add	x1, x1, x14
	add	x2, x2, #1056
	sub	x16, x13, x15
	add	x17, x17, x15
	add	x14, x0, x15
	add	x18, x1, x18
	add	x15, x2, x15
.LBB15_405:
	ldrb	w0, [x17], #1
	subs	x16, x16, #1
	ldrb	w1, [x14], #1
	ldrb	w2, [x15], #1
	strb	w0, [x18]
	strb	w1, [x18, #1]
	strb	w2, [x18, #2]
	add	x18, x18, #3
	b.ne	.LBB15_405
	b	.LBB15_377
.LBB15_406:
	mov	x11, xzr
	mov	x12, xzr
	b	.LBB15_408
.LBB15_407:
	add	x12, x13, x12
	ldr	x13, [sp, #608]
	cmp	x12, x27
	add	x11, x11, x13
	b.hs	.LBB15_109
.LBB15_408:
	add	x13, x9, x11
	add	x0, sp, #48, lsl #12
	ldr	x18, [sp, #136]
	ldrb	w14, [x13]
	ldrb	w15, [x13, #1]
	ldrb	w16, [x13, #2]
	add	x0, x0, #1568
	ldrb	w17, [x13, #3]
	stp	xzr, xzr, [x18]
	orr	w14, w14, w14, lsl #8
	orr	w15, w15, w15, lsl #8
	orr	w16, w16, w16, lsl #8
	orr	w17, w17, w17, lsl #8
	add	x18, sp, #48, lsl #12
	add	x1, sp, #48, lsl #12
	strh	w14, [x25]
	ldrb	w14, [x13, #4]
	add	x18, x18, #1056
	sturh	w15, [x0, #2]
	ldrb	w15, [x13, #5]
	add	x1, x1, #1056
	sturh	w16, [x0, #4]
	ldrb	w16, [x13, #6]
	orr	w14, w14, w14, lsl #8
	orr	w15, w15, w15, lsl #8
	ldrb	w13, [x13, #7]
	sturh	w17, [x0, #6]
	sturh	w14, [x0, #8]
	orr	w14, w16, w16, lsl #8
	mov	w17, #16843009
	sturh	w15, [x0, #10]
	add	x15, x10, x11
	mul	w13, w13, w17
	sturh	w14, [x0, #12]
	ldrb	w14, [x15]
	ldrb	w16, [x15, #2]
	stur	xzr, [x0, #18]
	orr	w14, w14, w14, lsl #8
	stur	w13, [x0, #14]
	ldrb	w13, [x15, #1]
	stur	xzr, [x0, #24]
	ldr	x0, [sp, #560]
	strh	w14, [x18]
	orr	w14, w16, w16, lsl #8
	ldrb	w16, [x15, #3]
	orr	w13, w13, w13, lsl #8
	add	x18, sp, #48, lsl #12
	stur	xzr, [x1, #18]
	sturh	w14, [x1, #4]
	orr	w14, w16, w16, lsl #8
	ldrb	w16, [x15, #4]
	sturh	w13, [x1, #2]
	add	x13, x8, x11
	add	x18, x18, #1568
	ldr	d0, [x13]
	ldr	d1, [x13, #64]
	orr	w13, w16, w16, lsl #8
	sturh	w14, [x1, #6]
	ldrb	w14, [x15, #7]
	sub	x16, x27, x12
	sturh	w13, [x1, #8]
	ldrb	w13, [x15, #5]
	mov	v0.d[1], v1.d[0]
	mul	w14, w14, w17
	ldrb	w15, [x15, #6]
	cmp	x0, x16
	orr	w17, w13, w13, lsl #8
	csel	x13, x0, x16, lo
	stur	xzr, [x1, #24]
	orr	w15, w15, w15, lsl #8
	sub	x16, x13, #1
	sturh	w17, [x1, #10]
	add	x17, sp, #48, lsl #12
	cmp	x16, #31
	add	x17, x17, #1056
	str	q0, [x24]
	sturh	w15, [x1, #12]
	stur	w14, [x1, #14]
	b.hi	.LBB15_407
	add	x14, x12, x12, lsl #1
	cmp	x13, #8
	b.hs	.LBB15_411
	mov	x15, xzr
	b	.LBB15_420
.LBB15_411:
	cmp	x13, #32
	b.hs	.LBB15_413
	mov	x15, xzr
	b	.LBB15_417
.LBB15_413:
	ldr	x0, [sp, #640]
	add	x2, sp, #48, lsl #12
	and	x16, x13, #0x18
	add	x2, x2, #1200
	and	x15, x13, #0x20
	add	x17, x17, #16
	add	x0, x0, x14
	add	x18, x18, #16
	and	x1, x13, #0x20
	add	x2, x2, #16
.LBB15_414:
	ldp	q0, q3, [x2, #-16]
	add	x3, x0, #96
	ldp	q1, q4, [x18, #-16]
	add	x2, x2, #32
	ldp	q2, q5, [x17, #-16]
	subs	x1, x1, #32
	add	x18, x18, #32
	add	x17, x17, #32
	st3	{ v0.16b, v1.16b, v2.16b }, [x0], #48
	st3	{ v3.16b, v4.16b, v5.16b }, [x0]
	mov	x0, x3
	b.ne	.LBB15_414
	cmp	x13, x15
	b.eq	.LBB15_407
	cbz	x16, .LBB15_420
.LBB15_417:
	add	x17, x15, x15, lsl #1
	add	x18, sp, #48, lsl #12
	add	x0, sp, #48, lsl #12
	add	x2, sp, #48, lsl #12
	mov	x1, x15
	and	x15, x13, #0x38
	add	x18, x18, #1056
	add	x0, x0, #1568
	add	x2, x2, #1200
	sub	x16, x1, x15
	add	x17, x17, x14
	add	x18, x18, x1
	add	x0, x0, x1
	add	x1, x2, x1
.LBB15_418:
	ldr	d0, [x1], #8
	ldr	x2, [sp, #640]
	ldr	d1, [x0], #8
	adds	x16, x16, #8
	ldr	d2, [x18], #8
	add	x2, x2, x17
	add	x17, x17, #24
	st3	{ v0.8b, v1.8b, v2.8b }, [x2]
	b.ne	.LBB15_418
	cmp	x13, x15
	b.eq	.LBB15_407
.LBB15_420:
	ldr	x1, [sp, #640]
	add	x17, sp, #48, lsl #12
	add	x18, x15, x15, lsl #1
	add	x0, sp, #48, lsl #12
	add	x2, sp, #48, lsl #12
	add	x17, x17, #1200
	add	x0, x0, #1568
	add	x1, x1, x14
	add	x2, x2, #1056
	sub	x16, x13, x15
	add	x17, x17, x15
	add	x14, x0, x15
	add	x18, x1, x18
	add	x15, x2, x15
.LBB15_421:
	ldrb	w0, [x17], #1
	subs	x16, x16, #1
	ldrb	w1, [x14], #1
	ldrb	w2, [x15], #1
	strb	w0, [x18]
	strb	w1, [x18, #1]
	strb	w2, [x18, #2]
	add	x18, x18, #3
	b.ne	.LBB15_421
	b	.LBB15_407
.LBB15_422:
	movi	v0.2d, #0000000000000000
	ldr	x10, [sp, #296]
	adrp	x8, .Lstatic.6
	add	x8, x8, :lo12:.Lstatic.6
	adrp	x9, .Lstatic.5
	add	x9, x9, :lo12:.Lstatic.5
	cmp	x10, #1
	add	x0, sp, #48, lsl #12
	mov	w2, #2
	csel	x1, x9, x8, eq
	add	x0, x0, #1568
	stp	q0, q0, [x24]
	stp	q0, q0, [x24, #32]
	stp	q0, q0, [x24, #64]
	stp	q0, q0, [x25]
	stp	q0, q0, [x25, #32]
	str	q0, [x25, #64]
	bl	"core::fmt::type_impls::writers::RefMutWrite::write_str::<#18b16ec19ae6b37c>"
	and	w8, w0, #0xff
	tbnz	w8, #0, .LBB15_51
	add	x0, sp, #48, lsl #12
	adrp	x1, .Lstatic.4
	add	x1, x1, :lo12:.Lstatic.4
	add	x0, x0, #1568
	mov	w2, #1
	bl	"core::fmt::type_impls::writers::RefMutWrite::write_str::<#18b16ec19ae6b37c>"
	and	w8, w0, #0xff
	tbnz	w8, #0, .LBB15_51
	mov	x19, #62915
	cmp	x27, #100
	stp	xzr, xzr, [x22]
	movk	x19, #23592, lsl #16
	str	xzr, [x22, #16]
	movk	x19, #49807, lsl #32
	movk	x19, #10485, lsl #48
	b.lo	.LBB15_428
	mov	x8, xzr
.LBB15_426:
	lsr	x10, x27, #2
	mov	x9, x27
	mov	w11, #205
	umulh	x10, x10, x19
	lsr	x27, x10, #2
	mov	w10, #100
	msub	w10, w27, w10, w9
	lsr	x9, x9, #4
	cmp	x9, #624
	and	w12, w10, #0xff
	mul	w11, w12, w11
	mov	w12, #10
	lsr	w11, w11, #11
	msub	w10, w11, w12, w10
	add	x12, sp, #48, lsl #12
	orr	w9, w11, #0x30
	add	x12, x12, #672
	add	x12, x12, x8
	sub	x8, x8, #2
	orr	w10, w10, #0x30
	strb	w9, [x12, #22]
	strb	w10, [x12, #23]
	b.hi	.LBB15_426
	add	x8, x8, #24
	b	.LBB15_429
.LBB15_428:
	mov	w8, #24
.LBB15_429:
	cmp	x27, #10
	b.lo	.LBB15_431
	and	w9, w27, #0xff
	mov	w10, #205
	add	x11, sp, #48, lsl #12
	mul	w9, w9, w10
	mov	w10, #10
	add	x11, x11, #672
	add	x11, x11, x8
	sub	x8, x8, #2
	lsr	w9, w9, #11
	msub	w10, w9, w10, w27
	orr	w9, w9, #0x30
	sturb	w9, [x11, #-2]
	orr	w10, w10, #0x30
	sturb	w10, [x11, #-1]
	b	.LBB15_432
.LBB15_431:
	add	x9, sp, #48, lsl #12
	sub	x8, x8, #1
	orr	w10, w27, #0x30
	add	x9, x9, #672
	strb	w10, [x9, x8]
.LBB15_432:
	add	x9, sp, #48, lsl #12
	mov	w10, #24
	add	x0, sp, #48, lsl #12
	add	x9, x9, #672
	sub	x2, x10, x8
	add	x0, x0, #1568
	add	x1, x9, x8
	mov	w9, #45
	sturb	w9, [x1, #-1]
	bl	"core::fmt::type_impls::writers::RefMutWrite::write_str::<#18b16ec19ae6b37c>"
	and	w8, w0, #0xff
	tbnz	w8, #0, .LBB15_51
	add	x0, sp, #48, lsl #12
	adrp	x1, .Lstatic.7
	add	x1, x1, :lo12:.Lstatic.7
	add	x0, x0, #1568
	mov	w2, #1
	bl	"core::fmt::type_impls::writers::RefMutWrite::write_str::<#18b16ec19ae6b37c>"
	and	w8, w0, #0xff
	tbnz	w8, #0, .LBB15_51
	ldr	x8, [sp, #304]
	stp	xzr, xzr, [x22]
	str	xzr, [x22, #16]
	cmp	x8, #100
	b.lo	.LBB15_438
	mov	x8, xzr
.LBB15_436:
	ldr	x9, [sp, #304]
	lsr	x10, x9, #2
	umulh	x10, x10, x19
	lsr	x11, x10, #2
	mov	w10, #100
	msub	w10, w11, w10, w9
	str	x11, [sp, #304]
	mov	w11, #205
	lsr	x9, x9, #4
	and	w12, w10, #0xff
	cmp	x9, #624
	mul	w11, w12, w11
	mov	w12, #10
	lsr	w11, w11, #11
	msub	w10, w11, w12, w10
	add	x12, sp, #48, lsl #12
	orr	w9, w11, #0x30
	add	x12, x12, #672
	add	x12, x12, x8
	sub	x8, x8, #2
	orr	w10, w10, #0x30
	strb	w9, [x12, #22]
	strb	w10, [x12, #23]
	b.hi	.LBB15_436
	add	x8, x8, #24
	b	.LBB15_439
.LBB15_438:
	mov	w8, #24
.LBB15_439:
	ldr	x9, [sp, #304]
	cmp	x9, #10
	b.lo	.LBB15_441
	ldr	x11, [sp, #304]
	mov	w10, #205
	and	w9, w11, #0xff
	mul	w9, w9, w10
	mov	w10, #10
	lsr	w9, w9, #11
	msub	w10, w9, w10, w11
	add	x11, sp, #48, lsl #12
	orr	w9, w9, #0x30
	add	x11, x11, #672
	add	x11, x11, x8
	sub	x8, x8, #2
	orr	w10, w10, #0x30
	sturb	w9, [x11, #-2]
	sturb	w10, [x11, #-1]
	b	.LBB15_442
.LBB15_441:
	add	x9, sp, #48, lsl #12
	ldr	x10, [sp, #304]
	sub	x8, x8, #1
	add	x9, x9, #672
	orr	w10, w10, #0x30
	strb	w10, [x9, x8]
.LBB15_442:
	add	x9, sp, #48, lsl #12
	mov	w10, #24
	add	x0, sp, #48, lsl #12
	add	x9, x9, #672
	sub	x2, x10, x8
	add	x0, x0, #1568
	add	x1, x9, x8
	mov	w9, #45
	sturb	w9, [x1, #-1]
	bl	"core::fmt::type_impls::writers::RefMutWrite::write_str::<#18b16ec19ae6b37c>"
	ldr	x19, [sp, #656]
	and	w8, w0, #0xff
	tbnz	w8, #0, .LBB15_51
	add	x0, sp, #48, lsl #12
	adrp	x1, .Lstatic.8
	add	x1, x1, :lo12:.Lstatic.8
	add	x0, x0, #1568
	mov	w2, #5
	bl	"core::fmt::type_impls::writers::RefMutWrite::write_str::<#18b16ec19ae6b37c>"
	and	w8, w0, #0xff
	tbnz	w8, #0, .LBB15_51
	b	.LBB15_49
.LBB15_444:
	brk	#0x1
.Lfunc_end15:
	.size	main, .Lfunc_end15-main

	.type	.Lstatic.2,@object
	.section	.rodata..Lstatic.2,"a",@progbits
.Lstatic.2:
	.size	.Lstatic.2, 0

	.type	.Lstatic.3,@object
	.section	.rodata.cst8,"aM",@progbits,8
.Lstatic.3:
	.ascii	"refused "
	.size	.Lstatic.3, 8

	.type	.Lstatic.4,@object
	.section	.rodata..Lstatic.4,"a",@progbits
.Lstatic.4:
	.byte	10
	.size	.Lstatic.4, 1

	.type	.Lstatic.5,@object
	.section	.rodata..Lstatic.5,"a",@progbits
.Lstatic.5:
	.ascii	"P5"
	.size	.Lstatic.5, 2

	.type	.Lstatic.6,@object
	.section	.rodata..Lstatic.6,"a",@progbits
.Lstatic.6:
	.ascii	"P6"
	.size	.Lstatic.6, 2

	.type	.Lstatic.7,@object
	.section	.rodata..Lstatic.7,"a",@progbits
.Lstatic.7:
	.byte	32
	.size	.Lstatic.7, 1

	.type	.Lstatic.8,@object
	.section	.rodata..Lstatic.8,"a",@progbits
.Lstatic.8:
	.ascii	"\n255\n"
	.size	.Lstatic.8, 5

	.type	.Lstatic.12,@object
	.section	.data.rel.ro..Lstatic.12,"aw",@progbits
	.p2align	3, 0x0
.Lstatic.12:
	.xword	.Lstatic.12+16
	.asciz	"\003\000\000\000\000\000\000\000...\000\000\000\000"
	.size	.Lstatic.12, 24

	.type	.Lstatic.13,@object
	.section	.rodata.cst4,"aM",@progbits,4
.Lstatic.13:
	.zero	4,32
	.size	.Lstatic.13, 4

	.type	.Lstatic.16,@object
	.section	.rodata..Lstatic.16,"a",@progbits
.Lstatic.16:
	.ascii	"gave up reading or writing after 2^64 tries"
	.size	.Lstatic.16, 43

	.type	.Lstatic.17,@object
	.section	.rodata..Lstatic.17,"a",@progbits
.Lstatic.17:
	.ascii	"tillsparrow: the input cannot be read"
	.size	.Lstatic.17, 37

	.type	.Lstatic.18,@object
	.section	.rodata..Lstatic.18,"a",@progbits
.Lstatic.18:
	.ascii	"tillsparrow: the output cannot be written"
	.size	.Lstatic.18, 41

	.ident	"rattle logic=dac8208d650f15bf3e2dc313a14fa4c783a3acf887bdfab66e1714b038d9e11b"
	.section	".note.GNU-stack","",@progbits
	.text
	.globl	rattle_errno
	.p2align	2
	.type	rattle_errno,@function
rattle_errno:
	.cfi_startproc
	stp	x29, x30, [sp, #-16]!
	.cfi_def_cfa_offset 16
	mov	x29, sp
	.cfi_def_cfa w29, 16
	.cfi_offset w30, -8
	.cfi_offset w29, -16
	bl	__errno_location
	ldr	w0, [x0]
	.cfi_def_cfa wsp, 16
	ldp	x29, x30, [sp], #16
	.cfi_def_cfa_offset 0
	.cfi_restore w30
	.cfi_restore w29
	ret
.Lerror_func_end0:
	.size	rattle_errno, .Lerror_func_end0-rattle_errno
	.cfi_endproc

	.section	".note.GNU-stack","",@progbits
