	.file	"rattle"
	.section	.rodata.cst16,"aM",@progbits,16
	.p2align	4, 0x0
.LCPI0_0:
	.xword	1
	.xword	3
.LCPI0_1:
	.xword	1
	.xword	4
	.section	".text.jpeg_header_state::frame","ax",@progbits
	.p2align	2
	.type	"jpeg_header_state::frame",@function
"jpeg_header_state::frame":
	stp	x29, x30, [sp, #-96]!
	str	x28, [sp, #16]
	mov	x29, sp
	stp	x26, x25, [sp, #32]
	stp	x24, x23, [sp, #48]
	stp	x22, x21, [sp, #64]
	stp	x20, x19, [sp, #80]
	sub	sp, sp, #576
	movi	v0.2d, #0000000000000000
	ldr	x8, [x3, #136]
	ldr	x19, [x3, #272]
	add	x20, sp, #160
	stp	q0, q0, [x20]
	stp	q0, q0, [x20, #32]
	stp	q0, q0, [x20, #64]
	cbz	x8, .LBB0_2
	adrp	x8, .LCPI0_0
	stp	q0, q0, [x0, #32]
	ldr	q1, [x8, :lo12:.LCPI0_0]
	stp	q1, q0, [x0]
	b	.LBB0_21
.LBB0_2:
	cmp	x2, #6
	b.lo	.LBB0_19
	ldrb	w8, [x1]
	cmp	w8, #8
	b.ne	.LBB0_19
	ldrb	w25, [x1, #5]
	sub	w8, w25, #1
	and	w8, w8, #0xff
	cmp	w8, #4
	b.hs	.LBB0_19
	add	x8, x25, x25, lsl #1
	add	x8, x8, #6
	cmp	x2, x8
	b.ne	.LBB0_23
	mov	x26, x0
	add	x0, sp, #264
	mov	x22, x3
	mov	x21, x4
	mov	x23, x1
	mov	x24, x2
	bl	"jpeg_header_rules::frame_of"
	ldr	x9, [sp, #264]
	mov	x8, x26
	cbz	x9, .LBB0_119
	ldr	x9, [sp, #272]
	cbz	x9, .LBB0_119
	cbz	w25, .LBB0_26
	mov	x9, x24
	sub	w9, w9, #5
	and	w10, w9, #0xff
	mov	w9, #171
	mul	w9, w10, w9
	cmp	w10, #3
	lsr	w9, w9, #9
	b.lo	.LBB0_25
	ldrb	w10, [x23, #7]
	lsr	x11, x10, #4
	sub	x11, x11, #1
	cmp	x11, #3
	b.hi	.LBB0_24
	and	x10, x10, #0xf
	sub	x10, x10, #1
	cmp	x10, #3
	b.hi	.LBB0_24
	cmp	w25, #1
	b.eq	.LBB0_26
	mov	x10, x24
	sub	w10, w10, #8
	and	w10, w10, #0xff
	cmp	w10, #3
	b.lo	.LBB0_25
	ldrb	w10, [x23, #10]
	lsr	x11, x10, #4
	sub	x11, x11, #1
	cmp	x11, #3
	b.hi	.LBB0_88
	and	x10, x10, #0xf
	sub	x10, x10, #1
	cmp	x10, #3
	b.hi	.LBB0_88
	cmp	w25, #2
	b.eq	.LBB0_26
	sub	w8, w24, #11
	and	w8, w8, #0xff
	cmp	w8, #3
	b.hs	.LBB0_120
	mov	x8, x26
	b	.LBB0_25
.LBB0_19:
	adrp	x8, .LCPI0_1
	ldr	q1, [x8, :lo12:.LCPI0_1]
.LBB0_20:
	stp	q1, q0, [x0]
	stp	q0, q0, [x0, #32]
.LBB0_21:
	stp	q0, q0, [x0, #64]
	stp	q0, q0, [x0, #96]
	stp	q0, q0, [x0, #128]
	stp	q0, q0, [x0, #160]
	stp	q0, q0, [x0, #192]
	stp	q0, q0, [x0, #224]
	stp	q0, q0, [x0, #256]
	stp	q0, q0, [x0, #288]
	stp	q0, q0, [x0, #320]
	stp	q0, q0, [x0, #352]
.LBB0_22:
	add	sp, sp, #576
	ldp	x20, x19, [sp, #80]
	ldr	x28, [sp, #16]
	ldp	x22, x21, [sp, #64]
	ldp	x24, x23, [sp, #48]
	ldp	x26, x25, [sp, #32]
	ldp	x29, x30, [sp], #96
	ret
.LBB0_23:
	adrp	x8, .LCPI0_0
	ldr	q1, [x8, :lo12:.LCPI0_0]
	b	.LBB0_20
.LBB0_24:
	mov	w9, wzr
.LBB0_25:
	cmp	w9, w25
	b.lo	.LBB0_119
.LBB0_26:
	ldr	x9, [sp, #280]
	mov	x10, xzr
	cbz	x9, .LBB0_34
	ldr	x11, [sp, #384]
	cmp	x11, #3
	b.hi	.LBB0_34
	cmp	x9, #1
	mov	w10, #1
	b.eq	.LBB0_34
	ldr	x11, [sp, #392]
	cmp	x11, #3
	b.hi	.LBB0_34
	cmp	x9, #2
	mov	w10, #2
	b.eq	.LBB0_34
	ldr	x11, [sp, #400]
	cmp	x11, #3
	b.hi	.LBB0_34
	cmp	x9, #3
	mov	w10, #3
	b.eq	.LBB0_34
	ldr	x11, [sp, #408]
	cmp	x11, #4
	b.lo	.LBB0_35
.LBB0_34:
	cmp	x10, x9
	b.lo	.LBB0_119
.LBB0_35:
	add	x9, sp, #105
	ldr	x10, [sp, #408]
	mov	w11, #4
	ldur	q0, [x9, #255]
	add	x9, sp, #121
	mov	x2, x24
	ldur	q1, [x9, #255]
	add	x9, sp, #137
	stur	x10, [x29, #-16]
	ldur	q2, [x9, #255]
	add	x9, sp, #41
	mov	x1, x23
	stp	q0, q1, [x20, #352]
	ldur	q0, [x9, #255]
	add	x9, sp, #57
	ldur	q1, [x9, #255]
	add	x9, sp, #73
	str	q2, [x20, #384]
	ldur	q2, [x9, #255]
	add	x9, sp, #89
	stp	q0, q1, [x20, #288]
	ldur	q0, [x9, #255]
	add	x9, sp, #25
	ldur	q1, [x9, #255]
	add	x9, sp, #9
	stp	q2, q0, [x20, #320]
	ldur	q0, [x9, #255]
	stp	q0, q1, [x20, #256]
	ldur	x9, [x29, #-144]
	cmp	x9, #4
	csel	x10, x9, x11, lo
	cbz	x9, .LBB0_108
	sub	x11, x10, #1
	sub	x13, x29, #160
	cmp	x11, #4
	b.lo	.LBB0_47
	ldur	x14, [x29, #-72]
	mov	x17, xzr
	and	x12, x11, #0xfffffffffffffffc
	add	x15, x13, #120
	sub	x16, x10, #1
	b	.LBB0_41
.LBB0_38:
	orr	x17, x17, #0x1
.LBB0_39:
	cmp	x17, x18
	b.lo	.LBB0_119
.LBB0_40:
	sub	x16, x16, #4
	add	x15, x15, #32
	mov	x17, x18
	cmp	x16, #3
	b.ls	.LBB0_48
.LBB0_41:
	cmn	x17, #4
	add	x18, x17, #4
	b.eq	.LBB0_40
	ldur	x0, [x15, #-24]
	cmp	x0, x14
	b.eq	.LBB0_39
	ldur	x0, [x15, #-16]
	cmp	x0, x14
	b.eq	.LBB0_38
	ldur	x0, [x15, #-8]
	cmp	x0, x14
	b.ne	.LBB0_46
	orr	x17, x17, #0x2
	b	.LBB0_39
.LBB0_46:
	ldr	x0, [x15]
	add	x17, x17, #3
	cmp	x0, x14
	csel	x17, x17, x18, eq
	b	.LBB0_39
.LBB0_47:
	mov	x12, xzr
.LBB0_48:
	cmp	x12, x11
	b.hs	.LBB0_53
	ldur	x14, [x29, #-72]
	add	x13, x13, #96
.LBB0_50:
	ldr	x15, [x13, x12, lsl #3]
	cmp	x15, x14
	b.eq	.LBB0_52
	add	x12, x12, #1
	cmp	x11, x12
	b.ne	.LBB0_50
	b	.LBB0_53
.LBB0_52:
	cmp	x12, x11
	b.lo	.LBB0_119
.LBB0_53:
	cmp	x9, #1
	b.eq	.LBB0_108
	sub	x11, x10, #2
	sub	x13, x29, #160
	cmp	x11, #4
	b.lo	.LBB0_65
	ldur	x14, [x29, #-64]
	mov	x17, xzr
	and	x12, x11, #0xfffffffffffffffc
	add	x15, x13, #128
	sub	x16, x10, #2
	b	.LBB0_59
.LBB0_56:
	orr	x17, x17, #0x1
.LBB0_57:
	cmp	x17, x18
	b.lo	.LBB0_119
.LBB0_58:
	sub	x16, x16, #4
	add	x15, x15, #32
	mov	x17, x18
	cmp	x16, #3
	b.ls	.LBB0_66
.LBB0_59:
	cmn	x17, #4
	add	x18, x17, #4
	b.eq	.LBB0_58
	ldur	x0, [x15, #-24]
	cmp	x0, x14
	b.eq	.LBB0_57
	ldur	x0, [x15, #-16]
	cmp	x0, x14
	b.eq	.LBB0_56
	ldur	x0, [x15, #-8]
	cmp	x0, x14
	b.ne	.LBB0_64
	orr	x17, x17, #0x2
	b	.LBB0_57
.LBB0_64:
	ldr	x0, [x15]
	add	x17, x17, #3
	cmp	x0, x14
	csel	x17, x17, x18, eq
	b	.LBB0_57
.LBB0_65:
	mov	x12, xzr
.LBB0_66:
	cmp	x12, x11
	b.hs	.LBB0_71
	ldur	x14, [x29, #-64]
	add	x13, x13, #104
.LBB0_68:
	ldr	x15, [x13, x12, lsl #3]
	cmp	x15, x14
	b.eq	.LBB0_70
	add	x12, x12, #1
	cmp	x11, x12
	b.ne	.LBB0_68
	b	.LBB0_71
.LBB0_70:
	cmp	x12, x11
	b.lo	.LBB0_119
.LBB0_71:
	cmp	x9, #2
	b.eq	.LBB0_108
	sub	x11, x10, #3
	sub	x13, x29, #160
	cmp	x11, #4
	b.lo	.LBB0_83
	ldur	x14, [x29, #-56]
	mov	x17, xzr
	and	x12, x11, #0xfffffffffffffffc
	add	x15, x13, #136
	sub	x16, x10, #3
	b	.LBB0_77
.LBB0_74:
	orr	x17, x17, #0x1
.LBB0_75:
	cmp	x17, x18
	b.lo	.LBB0_119
.LBB0_76:
	sub	x16, x16, #4
	add	x15, x15, #32
	mov	x17, x18
	cmp	x16, #3
	b.ls	.LBB0_84
.LBB0_77:
	cmn	x17, #4
	add	x18, x17, #4
	b.eq	.LBB0_76
	ldur	x0, [x15, #-24]
	cmp	x0, x14
	b.eq	.LBB0_75
	ldur	x0, [x15, #-16]
	cmp	x0, x14
	b.eq	.LBB0_74
	ldur	x0, [x15, #-8]
	cmp	x0, x14
	b.ne	.LBB0_82
	orr	x17, x17, #0x2
	b	.LBB0_75
.LBB0_82:
	ldr	x0, [x15]
	add	x17, x17, #3
	cmp	x0, x14
	csel	x17, x17, x18, eq
	b	.LBB0_75
.LBB0_83:
	mov	x12, xzr
.LBB0_84:
	cmp	x12, x11
	b.hs	.LBB0_90
	ldur	x14, [x29, #-56]
	add	x13, x13, #112
.LBB0_86:
	ldr	x15, [x13, x12, lsl #3]
	cmp	x15, x14
	b.eq	.LBB0_89
	add	x12, x12, #1
	cmp	x11, x12
	b.ne	.LBB0_86
	b	.LBB0_90
.LBB0_88:
	mov	w9, #1
	b	.LBB0_25
.LBB0_89:
	cmp	x12, x11
	b.lo	.LBB0_119
.LBB0_90:
	cmp	x9, #3
	b.eq	.LBB0_108
	sub	x9, x10, #4
	sub	x11, x29, #160
	cmp	x9, #4
	b.lo	.LBB0_102
	ldur	x12, [x29, #-48]
	mov	x15, xzr
	and	x10, x9, #0xfffffffffffffffc
	add	x13, x11, #144
	mov	x14, x9
	b	.LBB0_96
.LBB0_93:
	orr	x15, x15, #0x1
.LBB0_94:
	cmp	x15, x16
	b.lo	.LBB0_119
.LBB0_95:
	sub	x14, x14, #4
	add	x13, x13, #32
	mov	x15, x16
	cmp	x14, #3
	b.ls	.LBB0_103
.LBB0_96:
	cmn	x15, #4
	add	x16, x15, #4
	b.eq	.LBB0_95
	ldur	x17, [x13, #-24]
	cmp	x17, x12
	b.eq	.LBB0_94
	ldur	x17, [x13, #-16]
	cmp	x17, x12
	b.eq	.LBB0_93
	ldur	x17, [x13, #-8]
	cmp	x17, x12
	b.ne	.LBB0_101
	orr	x15, x15, #0x2
	b	.LBB0_94
.LBB0_101:
	ldr	x17, [x13]
	add	x15, x15, #3
	cmp	x17, x12
	csel	x15, x15, x16, eq
	b	.LBB0_94
.LBB0_102:
	mov	x10, xzr
.LBB0_103:
	cmp	x10, x9
	b.hs	.LBB0_108
	ldur	x12, [x29, #-48]
	add	x11, x11, #120
.LBB0_105:
	ldr	x13, [x11, x10, lsl #3]
	cmp	x13, x12
	b.eq	.LBB0_107
	add	x10, x10, #1
	cmp	x9, x10
	b.ne	.LBB0_105
	b	.LBB0_108
.LBB0_107:
	cmp	x10, x9
	b.lo	.LBB0_119
.LBB0_108:
	ldr	x10, [sp, #280]
	sub	x9, x10, #1
	cmp	x9, #3
	b.hi	.LBB0_119
	ldr	x9, [sp, #288]
	ldr	x11, [sp, #320]
	sub	x12, x9, #1
	sub	x13, x11, #1
	orr	x12, x13, x12
	cmp	x12, #3
	b.hi	.LBB0_119
	mul	x9, x11, x9
	cmp	x10, #1
	b.ne	.LBB0_113
.LBB0_111:
	cmp	x9, #11
	b.hs	.LBB0_119
	add	x0, sp, #8
	mov	x23, x8
	bl	"jpeg_header_rules::frame_of"
	ldur	q0, [x22, #56]
	ldur	q1, [x22, #72]
	add	x8, x23, #136
	ldur	q2, [x22, #24]
	ldur	q3, [x22, #40]
	ldur	q4, [x22, #88]
	stp	q0, q1, [x20, #32]
	ldur	q5, [x22, #104]
	stur	q0, [x23, #72]
	ldur	q0, [sp, #24]
	stur	q1, [x23, #88]
	ldur	q1, [sp, #8]
	stur	q0, [x23, #152]
	ldur	q0, [sp, #88]
	stp	q2, q3, [x20]
	stur	q0, [x23, #216]
	ldur	q0, [sp, #56]
	stur	q2, [x23, #40]
	ldur	q2, [sp, #72]
	stur	q0, [x23, #184]
	ldur	q0, [sp, #136]
	stur	q1, [x23, #136]
	ldur	q1, [sp, #40]
	str	q0, [x8, #128]
	movi	v0.2d, #0000000000000000
	ldr	x8, [sp, #152]
	stur	q2, [x23, #200]
	ldur	q2, [sp, #104]
	stur	q1, [x23, #168]
	ldur	q1, [sp, #120]
	stp	x8, x19, [x23, #280]
	add	x8, x23, #296
	stp	q4, q5, [x20, #64]
	stp	xzr, xzr, [x23]
	stp	xzr, xzr, [x23, #24]
	str	x21, [x23, #16]
	stur	q5, [x23, #120]
	stur	q4, [x23, #104]
	stur	q3, [x23, #56]
	stur	q1, [x23, #248]
	stur	q2, [x23, #232]
	stp	q0, q0, [x8]
	stp	q0, q0, [x8, #32]
	str	q0, [x8, #64]
	str	xzr, [x23, #376]
	b	.LBB0_22
.LBB0_113:
	ldr	x11, [sp, #296]
	ldr	x12, [sp, #328]
	sub	x13, x11, #1
	sub	x14, x12, #1
	orr	x13, x14, x13
	cmp	x13, #3
	b.hi	.LBB0_119
	madd	x9, x12, x11, x9
	cmp	x10, #2
	b.eq	.LBB0_111
	ldr	x11, [sp, #304]
	ldr	x12, [sp, #336]
	sub	x13, x11, #1
	sub	x14, x12, #1
	orr	x13, x14, x13
	cmp	x13, #3
	b.hi	.LBB0_119
	madd	x9, x12, x11, x9
	cmp	x10, #3
	b.eq	.LBB0_111
	ldr	x10, [sp, #312]
	ldr	x11, [sp, #344]
	sub	x12, x10, #1
	sub	x13, x11, #1
	orr	x12, x13, x12
	cmp	x12, #3
	b.hi	.LBB0_119
	madd	x9, x11, x10, x9
	b	.LBB0_111
.LBB0_119:
	movi	v0.2d, #0000000000000000
	adrp	x9, .LCPI0_1
	ldr	q1, [x9, :lo12:.LCPI0_1]
	stp	q1, q0, [x8]
	stp	q0, q0, [x8, #32]
	stp	q0, q0, [x8, #64]
	stp	q0, q0, [x8, #96]
	stp	q0, q0, [x8, #128]
	stp	q0, q0, [x8, #160]
	stp	q0, q0, [x8, #192]
	stp	q0, q0, [x8, #224]
	stp	q0, q0, [x8, #256]
	stp	q0, q0, [x8, #288]
	stp	q0, q0, [x8, #320]
	stp	q0, q0, [x8, #352]
	b	.LBB0_22
.LBB0_120:
	ldrb	w8, [x23, #13]
	lsr	x10, x8, #4
	sub	x10, x10, #1
	cmp	x10, #3
	b.hi	.LBB0_128
	and	x8, x8, #0xf
	sub	x8, x8, #1
	cmp	x8, #3
	b.hi	.LBB0_128
	cmp	w25, #3
	mov	x8, x26
	b.eq	.LBB0_26
	sub	w10, w24, #14
	and	w10, w10, #0xff
	cmp	w10, #3
	b.lo	.LBB0_25
	ldrb	w8, [x23, #16]
	lsr	x10, x8, #4
	sub	x10, x10, #1
	cmp	x10, #3
	b.hi	.LBB0_129
	and	x8, x8, #0xf
	sub	x8, x8, #1
	cmp	x8, #3
	b.hi	.LBB0_129
	cmp	w25, #4
	mov	x8, x26
	b.eq	.LBB0_26
	sub	w10, w24, #17
	and	w10, w10, #0xff
	cmp	w10, #3
	mov	w10, #4
	csel	w9, w9, w10, lo
	b	.LBB0_25
.LBB0_128:
	mov	w9, #2
	mov	x8, x26
	b	.LBB0_25
.LBB0_129:
	mov	w9, #3
	mov	x8, x26
	b	.LBB0_25
.Lfunc_end0:
	.size	"jpeg_header_state::frame", .Lfunc_end0-"jpeg_header_state::frame"

	.section	".text.jpeg_header_rules::frame_of","ax",@progbits
	.p2align	2
	.type	"jpeg_header_rules::frame_of",@function
"jpeg_header_rules::frame_of":
	ldrb	w8, [x1, #5]
	cbz	w8, .LBB1_5
	cmp	x2, #8
	b.lo	.LBB1_6
	ldrb	w18, [x1, #7]
	cmp	w8, #1
	b.eq	.LBB1_7
.LBB1_3:
	cmp	x2, #11
	b.lo	.LBB1_23
	ldrb	w17, [x1, #10]
	mov	x3, xzr
	cmp	w8, #3
	mov	w13, wzr
	b.hs	.LBB1_24
	b	.LBB1_9
.LBB1_5:
	mov	w13, wzr
	mov	x18, xzr
	b	.LBB1_8
.LBB1_6:
	mov	x18, xzr
	cmp	w8, #1
	b.ne	.LBB1_3
.LBB1_7:
	mov	w13, wzr
.LBB1_8:
	mov	x17, xzr
	mov	x3, xzr
.LBB1_9:
	str	x23, [sp, #-48]!
	ldrb	w9, [x1, #3]
	ldrb	w10, [x1, #4]
	cmp	w8, #1
	ldrb	w11, [x1, #1]
	ldrb	w12, [x1, #2]
	stp	x22, x21, [sp, #16]
	stp	x20, x19, [sp, #32]
	b.ne	.LBB1_14
	cmp	x2, #7
	b.lo	.LBB1_19
	ldrb	w3, [x1, #6]
	mov	x18, xzr
	mov	x15, xzr
	mov	x17, xzr
	mov	x14, xzr
	mov	x13, xzr
	mov	x16, xzr
	mov	x4, xzr
	mov	w6, #1
	mov	w5, #1
.LBB1_12:
	cmp	x2, #9
	mov	x7, xzr
	b.lo	.LBB1_20
	mov	w19, wzr
	b	.LBB1_38
.LBB1_14:
	mov	w15, w13
	lsr	x14, x17, #4
	lsr	x5, x18, #4
	lsr	x13, x15, #4
	lsr	x16, x3, #4
	mov	w21, wzr
	mov	x7, xzr
	and	x15, x15, #0xf
	and	x17, x17, #0xf
	and	x6, x18, #0xf
	and	x18, x3, #0xf
	cbz	w8, .LBB1_18
	cmp	x2, #6
	b.ls	.LBB1_18
	ldrb	w3, [x1, #6]
	cmp	x2, #10
	b.lo	.LBB1_33
	ldrb	w4, [x1, #9]
	cmp	w8, #3
	b.hs	.LBB1_34
	b	.LBB1_12
.LBB1_18:
	mov	x4, x7
	mov	x3, x7
	mov	x19, x7
	mov	x20, x7
	mov	x22, x7
	mov	x23, x7
	b	.LBB1_40
.LBB1_19:
	mov	x7, xzr
	mov	x4, xzr
	mov	x3, xzr
	mov	x19, xzr
	mov	x16, xzr
	mov	x13, xzr
	mov	x14, xzr
	mov	x17, xzr
	mov	x15, xzr
	mov	x18, xzr
	mov	w21, wzr
	mov	x20, xzr
	mov	x22, xzr
	mov	x23, xzr
	mov	w5, #1
	mov	w6, #1
	b	.LBB1_40
.LBB1_20:
	mov	x19, x7
	mov	x20, x7
	cmp	w8, #1
	b.eq	.LBB1_39
.LBB1_21:
	cmp	x2, #12
	b.lo	.LBB1_28
	ldrb	w22, [x1, #11]
	mov	x23, xzr
	cmp	w8, #3
	mov	w21, wzr
	b.hs	.LBB1_29
	b	.LBB1_40
.LBB1_23:
	mov	x17, xzr
	mov	x3, xzr
	cmp	w8, #3
	mov	w13, wzr
	b.lo	.LBB1_9
.LBB1_24:
	cmp	x2, #14
	b.lo	.LBB1_9
	ldrb	w13, [x1, #13]
	cmp	w8, #3
	mov	x3, xzr
	b.eq	.LBB1_9
	cmp	x2, #17
	b.lo	.LBB1_9
	ldrb	w3, [x1, #16]
	b	.LBB1_9
.LBB1_28:
	mov	x22, xzr
	mov	x23, xzr
	cmp	w8, #3
	mov	w21, wzr
	b.lo	.LBB1_40
.LBB1_29:
	cmp	x2, #15
	b.lo	.LBB1_40
	ldrb	w21, [x1, #14]
	cmp	w8, #3
	mov	x23, xzr
	b.eq	.LBB1_40
	cmp	x2, #18
	b.lo	.LBB1_40
	ldrb	w23, [x1, #17]
	b	.LBB1_40
.LBB1_33:
	mov	x4, xzr
	cmp	w8, #3
	b.lo	.LBB1_12
.LBB1_34:
	cmp	x2, #13
	b.lo	.LBB1_12
	ldrb	w19, [x1, #12]
	cmp	w8, #3
	mov	x7, xzr
	b.eq	.LBB1_38
	cmp	x2, #16
	b.lo	.LBB1_38
	ldrb	w7, [x1, #15]
.LBB1_38:
	ldrb	w20, [x1, #8]
	mov	w19, w19
	cmp	w8, #1
	b.ne	.LBB1_21
.LBB1_39:
	mov	w21, wzr
	mov	x22, xzr
	mov	x23, xzr
.LBB1_40:
	stp	x8, x5, [x0, #16]
	mov	w8, w21
	orr	x9, x10, x9, lsl #8
	orr	x10, x12, x11, lsl #8
	stp	x4, x19, [x0, #96]
	stp	x7, x20, [x0, #112]
	ldp	x20, x19, [sp, #32]
	stp	x22, x8, [x0, #128]
	ldp	x22, x21, [sp, #16]
	stp	x9, x10, [x0]
	stp	x14, x13, [x0, #32]
	stp	x16, x6, [x0, #48]
	stp	x17, x15, [x0, #64]
	stp	x18, x3, [x0, #80]
	str	x23, [x0, #144]
	ldr	x23, [sp], #48
	ret
.Lfunc_end1:
	.size	"jpeg_header_rules::frame_of", .Lfunc_end1-"jpeg_header_rules::frame_of"

	.section	.rodata.cst16,"aM",@progbits,16
	.p2align	4, 0x0
.LCPI2_0:
	.xword	1
	.xword	3
.LCPI2_1:
	.xword	1
	.xword	4
.LCPI2_2:
	.xword	0
	.xword	1
	.section	".text.jpeg_header_state::scan","ax",@progbits
	.p2align	2
	.type	"jpeg_header_state::scan",@function
"jpeg_header_state::scan":
	str	x30, [sp, #-96]!
	stp	x28, x27, [sp, #16]
	stp	x26, x25, [sp, #32]
	stp	x24, x23, [sp, #48]
	stp	x22, x21, [sp, #64]
	stp	x20, x19, [sp, #80]
	sub	sp, sp, #576
	ldr	x9, [x3, #136]
	cbz	x9, .LBB2_76
	ldr	x10, [x3, #120]
	mov	w11, #65534
	sub	x8, x10, #1
	cmp	x8, x11
	b.hi	.LBB2_33
	ldr	x11, [x3, #128]
	mov	w12, #65534
	sub	x8, x11, #1
	cmp	x8, x12
	b.hi	.LBB2_33
	cmp	x9, #4
	b.hi	.LBB2_33
	ldr	x16, [x3, #144]
	ldr	x17, [x3, #176]
	sub	x8, x16, #1
	sub	x12, x17, #1
	orr	x8, x12, x8
	cmp	x8, #3
	b.hi	.LBB2_33
	mul	x5, x17, x16
	ldp	x13, x14, [x3, #208]
	ldp	x15, x12, [x3, #224]
	ldr	x8, [x3, #272]
	cmp	x9, #1
	b.ne	.LBB2_21
.LBB2_6:
	cmp	x5, #10
	b.hi	.LBB2_33
	cbz	x2, .LBB2_33
	ldrb	w18, [x1]
	cmp	x9, x18
	b.ne	.LBB2_33
	lsl	x6, x9, #1
	add	x6, x6, #4
	cmp	x2, x6
	b.ne	.LBB2_33
	add	x6, x1, x2
	ldurb	w7, [x6, #-2]
	cmp	w7, #63
	b.ne	.LBB2_33
	ldurb	w7, [x6, #-3]
	ldurb	w6, [x6, #-1]
	orr	w6, w6, w7
	cbnz	w6, .LBB2_33
	cbz	w18, .LBB2_34
	ldrb	w6, [x1, #1]
	cmp	x13, x6
	b.ne	.LBB2_27
	cmp	w18, #1
	b.eq	.LBB2_29
	ldrb	w6, [x1, #3]
	cmp	x14, x6
	b.ne	.LBB2_55
	cmp	w18, #2
	b.eq	.LBB2_29
	ldrb	w6, [x1, #5]
	cmp	x15, x6
	b.ne	.LBB2_79
	cmp	w18, #3
	b.eq	.LBB2_29
	cmp	x2, #8
	b.lo	.LBB2_80
	ldrb	w6, [x1, #7]
	b	.LBB2_81
.LBB2_21:
	ldr	x6, [x3, #152]
	ldr	x18, [x3, #184]
	sub	x7, x6, #1
	sub	x19, x18, #1
	orr	x7, x19, x7
	cmp	x7, #3
	b.hi	.LBB2_33
	madd	x5, x18, x6, x5
	cmp	x6, x16
	csel	x16, x6, x16, hi
	cmp	x18, x17
	csel	x17, x18, x17, hi
	cmp	x9, #2
	b.eq	.LBB2_6
	ldr	x6, [x3, #160]
	ldr	x18, [x3, #192]
	sub	x7, x6, #1
	sub	x19, x18, #1
	orr	x7, x19, x7
	cmp	x7, #3
	b.hi	.LBB2_33
	madd	x5, x18, x6, x5
	cmp	x6, x16
	csel	x16, x6, x16, hi
	cmp	x18, x17
	csel	x17, x18, x17, hi
	cmp	x9, #3
	b.eq	.LBB2_6
	ldr	x6, [x3, #168]
	ldr	x18, [x3, #200]
	sub	x7, x6, #1
	sub	x19, x18, #1
	orr	x7, x19, x7
	cmp	x7, #3
	b.hi	.LBB2_33
	madd	x5, x18, x6, x5
	cmp	x6, x16
	csel	x16, x6, x16, hi
	cmp	x18, x17
	csel	x17, x18, x17, hi
	b	.LBB2_6
.LBB2_27:
	mov	x18, xzr
.LBB2_28:
	cmp	x18, x9
	b.lo	.LBB2_76
.LBB2_29:
	mov	w18, #2
	mov	x6, x9
	b	.LBB2_31
.LBB2_30:
	subs	x6, x6, #1
	add	x18, x18, #2
	b.eq	.LBB2_34
.LBB2_31:
	cmp	x18, x2
	b.hs	.LBB2_30
	ldrb	w7, [x1, x18]
	tst	w7, #0xcccccccc
	b.eq	.LBB2_30
.LBB2_33:
	adrp	x8, .LCPI2_1
	movi	v0.2d, #0000000000000000
	ldr	q1, [x8, :lo12:.LCPI2_1]
	b	.LBB2_77
.LBB2_34:
	ldrb	w26, [x1, #2]
	cmp	x9, #1
	b.ne	.LBB2_36
	mov	w24, wzr
	mov	w2, wzr
	mov	x18, xzr
	b	.LBB2_41
.LBB2_36:
	ldrb	w2, [x1, #4]
	cmp	x9, #3
	b.lo	.LBB2_39
	ldrb	w24, [x1, #6]
	cmp	x9, #3
	b.ne	.LBB2_40
	mov	x18, xzr
	b	.LBB2_41
.LBB2_39:
	mov	w24, wzr
	mov	x18, xzr
	b	.LBB2_41
.LBB2_40:
	ldrb	w18, [x1, #8]
.LBB2_41:
	lsr	x6, x10, #16
	mov	x1, xzr
	mov	w25, w2
	cbnz	x6, .LBB2_44
	sub	x2, x16, #1
	cmp	x2, #3
	b.hi	.LBB2_44
	lsl	w16, w16, #3
	and	w1, w10, #0xffff
	and	w2, w16, #0xfff8
	udiv	w1, w1, w2
	msub	w16, w1, w16, w10
	tst	w16, #0xffff
	cinc	x16, x1, ne
	mul	x1, x16, x5
.LBB2_44:
	lsr	x5, x11, #16
	mov	x16, xzr
	add	x2, sp, #208
	cbnz	x5, .LBB2_47
	sub	x5, x17, #1
	cmp	x5, #3
	b.hi	.LBB2_47
	lsl	w16, w17, #3
	and	w17, w11, #0xffff
	and	w5, w16, #0xfff8
	udiv	w17, w17, w5
	msub	w16, w17, w16, w11
	tst	w16, #0xffff
	cinc	x16, x17, ne
	mul	x16, x16, x1
.LBB2_47:
	ldp	q0, q1, [x3, #240]
	mov	w20, w24
	lsr	x5, x20, #4
	and	x21, x20, #0xf
	mov	w20, #3136
	lsr	x17, x26, #4
	lsr	x1, x25, #4
	lsr	x6, x18, #4
	stur	q0, [x2, #120]
	ldur	q0, [x3, #56]
	lsl	x23, x16, #6
	stur	q1, [x2, #136]
	ldur	q1, [x3, #72]
	and	x7, x26, #0xf
	stur	q0, [x2, #184]
	ldur	q0, [x3, #88]
	and	x19, x25, #0xf
	stur	q1, [x2, #200]
	ldur	q1, [x3, #104]
	and	x22, x18, #0xf
	stur	q0, [x2, #216]
	ldur	q0, [x3, #24]
	stur	q1, [x2, #232]
	ldur	q1, [x3, #40]
	stur	q0, [x2, #152]
	ldr	x27, [sp, #392]
	stur	q1, [x2, #168]
	mul	x2, x11, x10
	ldr	x28, [sp, #360]
	cmp	x27, #0
	ldr	x27, [sp, #328]
	stp	x17, x1, [sp, #456]
	str	x1, [sp, #8]
	add	x1, sp, #208
	ccmp	x28, #0, #4, ne
	add	x30, x1, #152
	add	x28, x1, #184
	add	x1, x1, #216
	cmp	x27, #3
	stp	x5, x6, [sp, #472]
	mul	x2, x2, x9
	stp	x7, x19, [sp, #488]
	stp	x21, x22, [sp, #504]
	str	x8, [sp, #520]
	madd	x20, x16, x20, x2
	str	x4, [sp, #528]
	str	x16, [sp, #536]
	str	x23, [sp, #544]
	str	x2, [sp, #552]
	str	x1, [sp, #584]
	str	x20, [sp, #560]
	str	xzr, [sp, #568]
	b.hi	.LBB2_76
	ldr	x1, [x30, x27, lsl #3]
	cbz	x1, .LBB2_76
	cmp	w26, #63
	b.hi	.LBB2_76
	ldr	x1, [x28, x17, lsl #3]
	cbz	x1, .LBB2_76
	cmp	x7, #3
	b.hi	.LBB2_76
	ldr	x1, [sp, #584]
	ldr	x1, [x1, x7, lsl #3]
	cbz	x1, .LBB2_76
	cmp	x9, #1
	b.ne	.LBB2_56
.LBB2_54:
	ldp	q0, q1, [x3, #144]
	adrp	x18, .LCPI2_2
	stp	q0, q1, [sp, #144]
	ldp	q0, q2, [x3, #176]
	stp	q0, q2, [sp, #176]
	ldp	q1, q0, [x3, #240]
	ldur	q2, [x3, #56]
	stp	q1, q0, [sp, #112]
	ldur	q0, [x3, #72]
	ldur	q1, [x3, #88]
	stp	q2, q0, [sp, #48]
	ldur	q0, [x3, #104]
	ldur	q2, [x3, #24]
	stp	q1, q0, [sp, #80]
	ldur	q1, [x3, #40]
	ldr	q0, [x18, :lo12:.LCPI2_2]
	str	x9, [x0, #32]
	ldr	x9, [sp, #8]
	stp	q2, q1, [sp, #16]
	str	q0, [x0]
	ldp	q1, q0, [sp, #176]
	stp	x10, x11, [x0, #16]
	stp	x13, x14, [x0, #104]
	stur	q0, [x0, #88]
	stur	q1, [x0, #72]
	ldp	q1, q0, [sp, #144]
	stp	x15, x12, [x0, #120]
	stp	x17, x9, [x0, #264]
	stur	q0, [x0, #56]
	stur	q1, [x0, #40]
	ldp	q1, q0, [sp, #112]
	stp	x5, x6, [x0, #280]
	stp	x7, x19, [x0, #296]
	stur	q0, [x0, #152]
	ldp	q2, q0, [sp, #16]
	stur	q1, [x0, #136]
	stp	x21, x22, [x0, #312]
	stur	q0, [x0, #184]
	ldp	q1, q0, [sp, #80]
	stur	q2, [x0, #168]
	stp	x8, x4, [x0, #328]
	stur	q0, [x0, #248]
	ldp	q2, q0, [sp, #48]
	stur	q1, [x0, #232]
	stp	x16, x23, [x0, #344]
	stur	q0, [x0, #216]
	stur	q2, [x0, #200]
	stp	x2, x20, [x0, #360]
	str	xzr, [x0, #376]
	b	.LBB2_78
.LBB2_55:
	mov	w18, #1
	b	.LBB2_28
.LBB2_56:
	ldr	x26, [sp, #336]
	cmp	x26, #3
	b.hi	.LBB2_76
	ldr	x1, [x30, x26, lsl #3]
	cbz	x1, .LBB2_76
	cmp	w25, #63
	b.hi	.LBB2_76
	ldr	x1, [sp, #8]
	ldr	x1, [x28, x1, lsl #3]
	cbz	x1, .LBB2_76
	cmp	x19, #3
	b.hi	.LBB2_76
	ldr	x1, [sp, #584]
	ldr	x1, [x1, x19, lsl #3]
	cbz	x1, .LBB2_76
	cmp	x9, #2
	b.eq	.LBB2_54
	ldr	x25, [sp, #344]
	cmp	x25, #3
	b.hi	.LBB2_76
	ldr	x1, [x30, x25, lsl #3]
	cbz	x1, .LBB2_76
	cmp	w24, #63
	b.hi	.LBB2_76
	ldr	x1, [x28, x5, lsl #3]
	cbz	x1, .LBB2_76
	cmp	x21, #3
	b.hi	.LBB2_76
	ldr	x1, [sp, #584]
	ldr	x1, [x1, x21, lsl #3]
	cbz	x1, .LBB2_76
	cmp	x9, #3
	b.eq	.LBB2_54
	ldr	x24, [sp, #352]
	cmp	x24, #3
	b.hi	.LBB2_76
	ldr	x1, [x30, x24, lsl #3]
	cbz	x1, .LBB2_76
	cmp	x18, #63
	b.hi	.LBB2_76
	ldr	x18, [x28, x6, lsl #3]
	cbz	x18, .LBB2_76
	cmp	x22, #3
	b.hi	.LBB2_76
	ldr	x18, [sp, #584]
	ldr	x18, [x18, x22, lsl #3]
	cbnz	x18, .LBB2_54
.LBB2_76:
	movi	v0.2d, #0000000000000000
	adrp	x8, .LCPI2_0
	ldr	q1, [x8, :lo12:.LCPI2_0]
.LBB2_77:
	stp	q1, q0, [x0]
	stp	q0, q0, [x0, #32]
	stp	q0, q0, [x0, #64]
	stp	q0, q0, [x0, #96]
	stp	q0, q0, [x0, #128]
	stp	q0, q0, [x0, #160]
	stp	q0, q0, [x0, #192]
	stp	q0, q0, [x0, #224]
	stp	q0, q0, [x0, #256]
	stp	q0, q0, [x0, #288]
	stp	q0, q0, [x0, #320]
	stp	q0, q0, [x0, #352]
.LBB2_78:
	add	sp, sp, #576
	ldp	x20, x19, [sp, #80]
	ldp	x22, x21, [sp, #64]
	ldp	x24, x23, [sp, #48]
	ldp	x26, x25, [sp, #32]
	ldp	x28, x27, [sp, #16]
	ldr	x30, [sp], #96
	ret
.LBB2_79:
	mov	w18, #2
	b	.LBB2_28
.LBB2_80:
	mov	x6, xzr
.LBB2_81:
	cmp	x6, x12
	b.ne	.LBB2_87
	cmp	w18, #4
	b.eq	.LBB2_29
	mov	w18, #4
	mov	w6, #9
	b	.LBB2_85
.LBB2_84:
	add	x18, x18, #1
	add	x6, x6, #2
	cmp	x9, x18
	b.eq	.LBB2_29
.LBB2_85:
	cmp	x6, x2
	b.hs	.LBB2_84
	ldrb	w7, [x1, x6]
	cbz	w7, .LBB2_84
	b	.LBB2_28
.LBB2_87:
	mov	w18, #3
	b	.LBB2_28
.Lfunc_end2:
	.size	"jpeg_header_state::scan", .Lfunc_end2-"jpeg_header_state::scan"

	.section	".text.jpeg_engine::PlainEngine::block","ax",@progbits
	.p2align	2
	.type	"jpeg_engine::PlainEngine::block",@function
"jpeg_engine::PlainEngine::block":
	sub	sp, sp, #112
	ldur	w8, [x3, #10]
	ldrh	w10, [x3, #14]
	movi	v0.2d, #0000000000000000
	ldrh	w15, [x3, #8]
	ldr	x16, [x3]
	sxtw	x14, w4
	str	w8, [sp, #48]
	add	x8, x1, x2, lsl #3
	ldr	x12, [x1]
	strh	w10, [sp, #52]
	ldp	x13, x10, [x1, #8]
	ldr	x3, [x8, #24]
	lsr	w1, w15, #8
	mov	x9, xzr
	ldr	x11, [x8, #56]
	mov	w8, #1
	stp	x20, x19, [sp, #96]
	str	wzr, [sp, #8]
	strh	wzr, [sp, #12]
	str	wzr, [sp, #24]
	strh	wzr, [sp, #28]
	str	wzr, [sp, #16]
	strh	wzr, [sp, #20]
	stp	q0, q0, [x5]
	stp	q0, q0, [x5, #32]
	stp	q0, q0, [x5, #64]
	stp	q0, q0, [x5, #96]
.LBB3_1:
	subs	x4, x10, x3
	b.ls	.LBB3_58
	cmp	x4, #16
	mov	w6, #16
	mov	x17, xzr
	add	x2, x12, x3
	add	x18, x3, #16
	csel	x3, x4, x6, lo
	b	.LBB3_5
.LBB3_3:
	and	w4, w15, #0xff
	strh	wzr, [sp, #92]
	lsr	w4, w4, w1
	and	w4, w4, #0x1
	mov	w6, w4
	ldrb	w4, [x2], #1
	orr	x6, x6, x17, lsl #1
	str	wzr, [sp, #88]
	subs	x17, x6, x4
	b.lo	.LBB3_15
.LBB3_4:
	subs	x3, x3, #1
	add	x18, x18, x4
	b.eq	.LBB3_58
.LBB3_5:
	tst	w1, #0xff
	b.eq	.LBB3_8
	and	w4, w1, #0xff
	sub	w1, w1, #1
	cmp	w4, #8
	b.ls	.LBB3_3
	mov	w4, wzr
	b	.LBB3_14
.LBB3_8:
	cmp	x13, x16
	b.ls	.LBB3_59
	ldrb	w15, [x12, x16]
	add	x6, x16, #1
	cmp	w15, #255
	b.ne	.LBB3_13
	cmp	x13, x6
	b.ls	.LBB3_59
	ldrb	w1, [x12, x6]
	cbnz	w1, .LBB3_60
	add	x6, x16, #2
.LBB3_13:
	lsr	w4, w15, #7
	mov	w1, #7
	mov	x16, x6
.LBB3_14:
	strh	wzr, [sp, #92]
	mov	w6, w4
	ldrb	w4, [x2], #1
	orr	x6, x6, x17, lsl #1
	str	wzr, [sp, #88]
	subs	x17, x6, x4
	b.hs	.LBB3_4
.LBB3_15:
	add	x17, x6, x18
	cmp	x17, x10
	b.hs	.LBB3_21
	ldr	w18, [sp, #88]
	ldrh	w2, [sp, #92]
	ldrb	w3, [x12, x17]
	str	w18, [sp, #72]
	strh	w2, [sp, #76]
	cbz	x9, .LBB3_24
	cbz	w3, .LBB3_22
	cmp	w3, #240
	b.ne	.LBB3_39
	cmp	x9, #49
	b.hs	.LBB3_65
	ldr	w17, [sp, #72]
	ldrh	w18, [sp, #76]
	bfi	w15, w1, #8, #24
	str	wzr, [sp, #56]
	mov	w3, #1
	b	.LBB3_23
.LBB3_21:
	ldr	w17, [sp, #88]
	ldrh	w18, [sp, #92]
	str	w17, [sp, #72]
	strh	w18, [sp, #76]
	cbz	x9, .LBB3_29
.LBB3_22:
	ldr	w17, [sp, #72]
	ldrh	w18, [sp, #76]
	bfi	w15, w1, #8, #24
	mov	w3, wzr
	str	wzr, [sp, #56]
.LBB3_23:
	str	w17, [sp, #64]
	strh	w18, [sp, #68]
	mov	w17, w17
	and	w1, w18, #0xffff
	mov	w18, wzr
	ldr	w2, [sp, #56]
	mov	x6, xzr
	strh	wzr, [sp, #60]
	str	w17, [sp, #40]
	and	w17, wzr, #0xffff
	strh	w1, [sp, #44]
	mov	w1, w15
	mov	w15, wzr
	strh	w17, [sp, #36]
	mov	x17, x16
	str	w2, [sp, #32]
	b	.LBB3_35
.LBB3_24:
	cmp	w3, #12
	b.hs	.LBB3_65
	and	x18, x1, #0xff
	add	x17, xzr, x9
	cmp	x3, x18
	b.ls	.LBB3_42
.LBB3_26:
	cmp	x13, x16
	b.ls	.LBB3_59
	ldrb	w1, [x12, x16]
	add	x2, x16, #1
	cmp	x1, #255
	b.eq	.LBB3_44
	mov	x16, x2
	b	.LBB3_47
.LBB3_29:
	mov	x17, xzr
	mov	x3, xzr
	mov	x2, xzr
	and	x18, x1, #0xff
	sub	x18, x18, xzr
	lsl	x1, xzr, xzr
	cmp	x18, #8
	b.hs	.LBB3_31
.LBB3_30:
	mov	w4, w15
	mov	x6, #-1
	and	x4, x4, #0xff
	lsl	x2, x6, x2
	lsr	x4, x4, x18
	bic	x2, x4, x2
	add	x1, x2, x1
.LBB3_31:
	mov	w2, #1
	lsl	x2, x2, x3
	sub	w3, w1, w2
	cmp	x2, x1, lsl #1
	csinc	w1, w1, w3, ls
	cbnz	x17, .LBB3_33
	add	x1, x14, w1, sxth
	add	x2, x1, #2048
	cmp	x2, #4095
	b.hi	.LBB3_43
.LBB3_33:
	mov	w2, wzr
	mov	w3, #2
	mov	w4, #1
	strh	wzr, [sp, #92]
.LBB3_34:
	str	wzr, [sp, #88]
	str	wzr, [sp, #80]
	and	w20, wzr, #0xffff
	ldrh	w19, [sp, #92]
	strh	wzr, [sp, #84]
	str	wzr, [sp, #64]
	str	wzr, [sp, #40]
	mov	x6, x16
	str	wzr, [sp, #56]
	strh	w19, [sp, #44]
	strh	w20, [sp, #36]
	str	wzr, [sp, #32]
	cbz	w4, .LBB3_61
.LBB3_35:
	cmp	w3, #1
	b.eq	.LBB3_38
	cmp	w3, #2
	b.ne	.LBB3_63
	ldr	w9, [sp, #32]
	ldrh	w16, [sp, #36]
	add	x8, x17, #1
	strh	w1, [x5, x17, lsl #1]
	mov	x17, x6
	str	w9, [sp, #48]
	mov	x9, x8
	strh	w16, [sp, #52]
	cmp	x8, #64
	mov	x3, x11
	mov	w1, w18
	mov	x16, x17
	b.lo	.LBB3_1
	b	.LBB3_64
.LBB3_38:
	ldr	w15, [sp, #40]
	ldrh	w16, [sp, #44]
	ubfx	w18, w1, #8, #8
	add	x9, x9, #16
	str	w15, [sp, #48]
	mov	w15, w1
	strh	w16, [sp, #52]
	cmp	x9, #64
	mov	x3, x11
	mov	w1, w18
	mov	x16, x17
	b.lo	.LBB3_1
	b	.LBB3_64
.LBB3_39:
	and	x18, x3, #0xf
	mov	w2, #3
	sub	x17, x18, #1
	cmp	x17, #9
	b.hi	.LBB3_61
	lsr	x17, x3, #4
	add	x3, x17, x9
	cmp	x3, #64
	b.hs	.LBB3_61
	mov	x3, x18
	and	x18, x1, #0xff
	add	x17, x17, x9
	cmp	x3, x18
	b.hi	.LBB3_26
.LBB3_42:
	mov	x2, x3
	sub	x18, x18, x3
	lsl	x1, xzr, x3
	cmp	x18, #8
	b.lo	.LBB3_30
	b	.LBB3_31
.LBB3_43:
	mov	x16, xzr
	mov	w15, wzr
	mov	w18, wzr
	mov	w4, wzr
	mov	w3, wzr
	mov	w1, wzr
	strh	wzr, [sp, #92]
	mov	w2, #3
	b	.LBB3_34
.LBB3_44:
	cmp	x13, x2
	b.ls	.LBB3_59
	ldrb	w2, [x12, x2]
	cbnz	w2, .LBB3_60
	add	x16, x16, #2
.LBB3_47:
	mov	x2, #-1
	lsr	x4, x1, #7
	lsl	x2, x2, x18
	mvn	x18, x18
	bic	w15, w15, w2
	add	x2, x3, x18
	and	x15, x15, #0xff
	cmp	x2, #8
	orr	x4, x4, x15, lsl #1
	b.lo	.LBB3_56
	b	.LBB3_51
.LBB3_49:
	mov	x16, x18
.LBB3_50:
	ubfiz	x18, x1, #1, #7
	sub	x2, x2, #8
	mov	w1, w15
	cmp	x2, #7
	orr	x18, x18, x4, lsl #8
	orr	x4, x18, x15, lsr #7
	b.ls	.LBB3_57
.LBB3_51:
	cmp	x13, x16
	b.ls	.LBB3_59
	ldrb	w15, [x12, x16]
	add	x18, x16, #1
	cmp	x15, #255
	b.ne	.LBB3_49
	cmp	x13, x18
	b.ls	.LBB3_59
	ldrb	w18, [x12, x18]
	cbnz	w18, .LBB3_60
	add	x16, x16, #2
	b	.LBB3_50
.LBB3_56:
	mov	w18, #7
	mov	w15, w1
	sub	x18, x18, x2
	lsl	x1, x4, x2
	cmp	x18, #8
	b.hs	.LBB3_31
	b	.LBB3_30
.LBB3_57:
	mov	w18, #7
	sub	x18, x18, x2
	lsl	x1, x4, x2
	cmp	x18, #8
	b.lo	.LBB3_30
	b	.LBB3_31
.LBB3_58:
	mov	w2, #2
	b	.LBB3_61
.LBB3_59:
	mov	w2, wzr
	b	.LBB3_61
.LBB3_60:
	mov	w2, #1
.LBB3_61:
	movi	v0.2d, #0000000000000000
	mov	x8, xzr
	mov	w9, wzr
	mov	w10, wzr
	mov	x17, xzr
	str	wzr, [sp, #24]
	mov	w11, #1
	strh	wzr, [sp, #28]
	stp	q0, q0, [x5]
	stp	q0, q0, [x5, #32]
	stp	q0, q0, [x5, #64]
	stp	q0, q0, [x5, #96]
.LBB3_62:
	ldr	w12, [sp, #24]
	ldrh	w13, [sp, #28]
	strb	w11, [x0]
	ldp	x20, x19, [sp, #96]
	strb	w2, [x0, #1]
	str	w12, [sp, #8]
	strh	w13, [sp, #12]
	str	x17, [x0, #8]
	strh	w10, [x0, #16]
	stur	w12, [x0, #18]
	strh	w13, [x0, #22]
	stp	w9, wzr, [x0, #24]
	str	x8, [x0, #32]
	add	sp, sp, #112
	ret
.LBB3_63:
	ldr	w9, [sp, #40]
	ldrh	w10, [sp, #44]
	ubfx	w18, w1, #8, #8
	mov	w15, w1
	str	w9, [sp, #48]
	strh	w10, [sp, #52]
.LBB3_64:
	and	w10, w15, #0xff
	ldr	w12, [sp, #48]
	ldrh	w13, [sp, #52]
	ldrsh	w9, [x5]
	orr	w10, w10, w18, lsl #8
	mov	w2, wzr
	mov	w11, wzr
	str	w12, [sp, #16]
	strh	w13, [sp, #20]
	str	w12, [sp, #24]
	strh	w13, [sp, #28]
	b	.LBB3_62
.LBB3_65:
	mov	w2, #3
	b	.LBB3_61
.Lfunc_end3:
	.size	"jpeg_engine::PlainEngine::block", .Lfunc_end3-"jpeg_engine::PlainEngine::block"

	.section	".text.jpeg_write_scan::run::<#c44e4da361dd472c>","ax",@progbits
	.p2align	2
	.type	"jpeg_write_scan::run::<#c44e4da361dd472c>",@function
"jpeg_write_scan::run::<#c44e4da361dd472c>":
	sub	sp, sp, #416
	ldr	x8, [x1, #128]
	stp	x29, x30, [sp, #320]
	add	x29, sp, #320
	stp	x28, x27, [sp, #336]
	stp	x26, x25, [sp, #352]
	stp	x24, x23, [sp, #368]
	stp	x22, x21, [sp, #384]
	stp	x20, x19, [sp, #400]
	str	x2, [sp, #56]
	cbz	x8, .LBB4_121
	ldr	x9, [x1, #144]
	ldr	x17, [x1, #16]
	mov	x21, x4
	mov	x6, x1
	udiv	x10, x9, x8
	msub	x8, x10, x8, x9
	cmp	x8, #0
	cinc	x18, x10, ne
	cbz	x18, .LBB4_88
	sub	x13, x29, #48
	str	x0, [sp, #48]
	mov	x0, xzr
	mov	x20, xzr
	mov	x19, xzr
	mov	x27, xzr
	mov	x9, xzr
	mov	x10, xzr
	mov	x12, xzr
	mov	x11, xzr
	mov	x8, xzr
	add	x5, x13, #16
	mov	w24, #1
	mov	w4, #8
	str	x18, [sp, #8]
	str	x3, [sp, #64]
	b	.LBB4_5
.LBB4_3:
	mov	x17, x12
.LBB4_4:
	add	x0, x0, #1
	lsr	x11, x8, #8
	and	x12, x8, #0xffffffffffff0000
	cmp	x0, x18
	b.hs	.LBB4_106
.LBB4_5:
	movi	v0.2d, #0000000000000000
	ubfiz	x14, x11, #8, #8
	ldr	x11, [x6, #144]
	and	x13, x8, #0xff
	stur	xzr, [x29, #-16]
	orr	x14, x14, x12
	cmp	x11, x27
	str	xzr, [sp, #128]
	orr	x8, x14, x13
	stp	q0, q0, [x29, #-48]
	stp	q0, q0, [sp, #96]
	b.ls	.LBB4_4
	cbz	x0, .LBB4_9
	ldr	x15, [x6, #136]
	cbz	x15, .LBB4_9
	udiv	x12, x0, x15
	msub	x16, x12, x15, x0
	cbz	x16, .LBB4_57
.LBB4_9:
	stp	x17, x8, [x29, #-48]
	mov	x12, x17
	stp	x10, x9, [x29, #-32]
	stur	x27, [x29, #-16]
.LBB4_10:
	ldr	x13, [x6, #128]
	subs	x11, x11, x27
	csel	x11, xzr, x11, lo
	cmp	x11, x13
	csel	x7, x11, x13, lo
	cbz	x7, .LBB4_3
	ldr	x30, [x6, #120]
	mov	x25, xzr
	add	x8, x7, x27
	stp	x27, x17, [sp, #32]
	stp	x8, x0, [sp, #16]
	str	x7, [sp, #72]
	b	.LBB4_14
.LBB4_12:
	ldp	x7, x25, [sp, #72]
	mov	x6, x27
	ldr	x3, [sp, #64]
	ldr	x27, [sp, #88]
	mov	w24, wzr
	mov	x19, xzr
	mov	x20, xzr
	mov	x4, xzr
	mov	x5, x28
	mov	x30, x26
.LBB4_13:
	add	x9, sp, #96
	add	x25, x25, #1
	lsr	x30, x30, #2
	ldur	q0, [x9, #8]
	cmp	x25, x7
	add	x27, x27, #1
	str	w8, [x5, x22, lsl #2]
	stur	q0, [x29, #-48]
	b.eq	.LBB4_56
.LBB4_14:
	and	x8, x30, #0x3
	mov	w23, w24
	stp	x25, x27, [sp, #80]
	ldr	w24, [x5, x8, lsl #2]
	mov	x25, x4
	mov	x28, x5
	add	x0, sp, #96
	and	x2, x30, #0x3
	sub	x3, x29, #48
	add	x5, sp, #144
	mov	x1, x6
	mov	w4, w24
	and	x22, x30, #0x3
	mov	x26, x30
	mov	x27, x6
	bl	"jpeg_engine::PlainEngine::block"
	ldrb	w8, [sp, #96]
	cbnz	w8, .LBB4_87
	ldr	w8, [sp, #120]
	cmp	w23, #1
	b.ne	.LBB4_12
	ldp	x11, x3, [sp, #56]
	mov	x15, x25
	ldp	x7, x25, [sp, #72]
	sxtw	x9, w24
	ldr	x10, [sp, #128]
	mov	x6, x27
	ldr	x27, [sp, #88]
	add	x11, x11, x22, lsl #11
	mov	x13, xzr
	mov	x12, xzr
	mov	x16, x19
	mov	x14, x20
	mov	x5, x28
	mov	x30, x26
	b	.LBB4_19
.LBB4_17:
	mov	x1, x16
	mov	x0, x2
.LBB4_18:
	lsl	x16, x17, x0
	lsl	x14, x14, x0
	sub	x15, x15, x0
	bic	x16, x18, x16
	add	x14, x16, x14
	mov	x16, x1
.LBB4_19:
	cmp	x10, x13
	b.ls	.LBB4_26
	cbz	x13, .LBB4_53
	cmp	x13, #63
	b.hi	.LBB4_25
	add	x17, sp, #144
	mov	w0, #64
	mov	x18, xzr
	add	x17, x17, x13, lsl #1
	sub	x0, x0, x13
.LBB4_23:
	ldrh	w1, [x17, x18, lsl #1]
	cbnz	w1, .LBB4_27
	add	x18, x18, #1
	cmp	x0, x18
	b.ne	.LBB4_23
.LBB4_25:
	mov	w17, #64
	subs	x17, x17, x13
	csel	x18, xzr, x17, lo
	add	x17, x18, x13
	add	x13, x18, x12
	cmp	x17, #64
	b.hs	.LBB4_28
	b	.LBB4_29
.LBB4_26:
	mov	w17, #64
	sub	x18, x17, x13
.LBB4_27:
	add	x17, x18, x13
	add	x13, x18, x12
	cmp	x17, #64
	b.lo	.LBB4_29
.LBB4_28:
	cbz	x13, .LBB4_54
.LBB4_29:
	cmp	x17, #63
	b.ls	.LBB4_31
	mov	x1, xzr
	mov	x0, xzr
	mov	x18, xzr
	mov	x12, xzr
	b	.LBB4_33
.LBB4_31:
	subs	x12, x13, #16
	b.lo	.LBB4_34
	mov	x0, xzr
	mov	x18, xzr
	mov	w1, #960
.LBB4_33:
	mov	x13, x17
	cmp	x17, #0
	mov	w17, #1024
	mov	x19, xzr
	mov	w24, wzr
	csel	x17, xzr, x17, eq
	cbnz	x15, .LBB4_35
	b	.LBB4_55
.LBB4_34:
	add	x18, sp, #144
	cmp	x17, #0
	mov	w1, #64
	ldrsh	x18, [x18, x17, lsl #1]
	csel	x0, x9, xzr, eq
	mov	x12, xzr
	subs	x0, x18, x0
	cneg	x2, x0, mi
	clz	x18, x2
	sub	x18, x1, x18
	mov	w1, #12
	cmp	x18, #12
	csel	x18, x18, x1, lo
	mov	x1, #-1
	lsl	x1, x1, x18
	lsl	x19, x18, #2
	mvn	x1, x1
	subs	x1, x1, x2
	csel	x4, xzr, x1, lo
	cmp	x0, #0
	orr	x1, x19, x13, lsl #6
	csel	x0, x4, x2, mi
	add	x13, x17, #1
	cmp	x17, #0
	mov	w17, #1024
	mov	x19, xzr
	mov	w24, wzr
	csel	x17, xzr, x17, eq
	cbz	x15, .LBB4_55
.LBB4_35:
	mov	w2, #8
	sub	x2, x2, x15
	lsr	x2, x14, x2
	cbnz	x2, .LBB4_55
	add	x17, x11, x17
	mov	x20, x19
	mov	x4, x19
	ldr	w2, [x17, x1]
	lsr	x1, x2, #16
	sub	x17, x1, #1
	cmp	x17, #15
	b.hi	.LBB4_13
	mov	x17, #-1
	and	x2, x2, #0xffff
	lsl	x19, x17, x18
	lsl	x4, x2, x18
	add	x2, x1, x18
	bic	x18, x0, x19
	subs	x0, x2, x15
	add	x18, x4, x18
	b.lo	.LBB4_17
	lsr	x1, x18, x0
	lsl	x2, x17, x15
	lsl	x14, x14, x15
	cmp	x16, x21
	bic	w15, w1, w2
	add	w14, w15, w14
	b.hs	.LBB4_43
	strb	w14, [x3, x16]
	adds	x15, x16, #1
	mov	w2, #255
	csinv	x1, x15, xzr, lo
	bics	wzr, w2, w14
	b.ne	.LBB4_44
.LBB4_40:
	cmp	x1, x21
	b.hs	.LBB4_42
	strb	wzr, [x3, x1]
.LBB4_42:
	adds	x14, x16, #2
	csinv	x1, x14, xzr, lo
	cmp	x0, #8
	b.hs	.LBB4_47
	b	.LBB4_45
.LBB4_43:
	adds	x15, x16, #1
	mov	w2, #255
	csinv	x1, x15, xzr, lo
	bics	wzr, w2, w14
	b.eq	.LBB4_40
.LBB4_44:
	cmp	x0, #8
	b.hs	.LBB4_47
.LBB4_45:
	mov	x14, xzr
	mov	w15, #8
	b	.LBB4_18
.LBB4_46:
	adds	x14, x1, #2
	csinv	x1, x14, xzr, lo
	cmp	x0, #7
	b.ls	.LBB4_45
.LBB4_47:
	sub	x0, x0, #8
	cmp	x1, x21
	lsr	x14, x18, x0
	b.hs	.LBB4_49
	strb	w14, [x3, x1]
.LBB4_49:
	adds	x15, x1, #1
	mov	w16, #255
	csinv	x15, x15, xzr, lo
	bics	wzr, w16, w14
	b.eq	.LBB4_51
	mov	x1, x15
	cmp	x0, #7
	b.hi	.LBB4_47
	b	.LBB4_45
.LBB4_51:
	cmp	x15, x21
	b.hs	.LBB4_46
	strb	wzr, [x3, x15]
	b	.LBB4_46
.LBB4_53:
	add	x17, xzr, x13
	add	x13, xzr, x12
	cmp	x17, #64
	b.hs	.LBB4_28
	b	.LBB4_29
.LBB4_54:
	mov	w24, #1
	mov	x19, x16
	mov	x20, x14
	mov	x4, x15
	b	.LBB4_13
.LBB4_55:
	mov	x20, x19
	mov	x4, x19
	b	.LBB4_13
.LBB4_56:
	ldp	x17, x8, [x29, #-48]
	ldr	x0, [sp, #24]
	ldp	x10, x9, [x29, #-32]
	ldp	x18, x27, [sp, #8]
	b	.LBB4_4
.LBB4_57:
	sub	x8, x15, #1
	cmp	x8, x0
	b.hs	.LBB4_59
	sub	w9, w12, #1
	mov	w10, #208
	bfxil	x10, x9, #0, #3
	b	.LBB4_60
.LBB4_59:
	mov	w10, #208
.LBB4_60:
	ubfx	x9, x14, #8, #8
	cmp	w9, #8
	mov	w9, #3
	b.hi	.LBB4_95
	lsr	x14, x14, #8
	mov	x15, #-1
	lsl	x14, x15, x14
	orr	x13, x14, x13
	cmn	x13, #1
	b.ne	.LBB4_95
	ldr	x13, [x6, #8]
	subs	x14, x17, x13
	b.hs	.LBB4_95
	ldr	x9, [x6]
	mov	x15, xzr
.LBB4_64:
	ldrb	w16, [x9, x17]
	cmp	x16, #255
	b.ne	.LBB4_66
	sub	x15, x15, #1
	add	x9, x9, #1
	cmp	x14, x15
	b.ne	.LBB4_64
	b	.LBB4_94
.LBB4_66:
	mov	w9, #3
	cbz	x15, .LBB4_95
	sub	x14, x17, x15
	cmp	x13, x14
	b.ls	.LBB4_95
	cmp	x10, x16
	b.ne	.LBB4_95
	sub	w9, w12, #1
	mov	w10, #-48
	cmp	x8, x0
	bfxil	w10, w9, #0, #3
	mov	w9, #-48
	sub	x13, x29, #48
	add	x12, x14, #1
	mov	x8, xzr
	stp	xzr, xzr, [x13, #16]
	csel	w9, w10, w9, lo
	cmp	w24, #1
	stur	xzr, [x13, #8]
	stur	x12, [x29, #-48]
	stur	x27, [x29, #-16]
	b.ne	.LBB4_75
	cbz	x4, .LBB4_76
	mov	w10, #8
	sub	x10, x10, x4
	lsr	x10, x20, x10
	cbnz	x10, .LBB4_76
	cmp	x4, #8
	b.ne	.LBB4_77
	cmp	x19, x21
	b.hs	.LBB4_81
.LBB4_74:
	mov	w8, #255
	strb	w8, [x3, x19]
	adds	x8, x19, #1
	csinv	x8, x8, xzr, lo
	cmp	x8, x21
	b.lo	.LBB4_82
	b	.LBB4_83
.LBB4_75:
	mov	x9, xzr
	mov	x10, xzr
	mov	w24, wzr
	mov	x19, xzr
	mov	x20, xzr
	mov	x4, xzr
	b	.LBB4_10
.LBB4_76:
	mov	x9, x8
	mov	x10, x8
	b	.LBB4_10
.LBB4_77:
	add	w8, w20, #1
	cmp	x19, x21
	lsl	x8, x8, x4
	b.hs	.LBB4_79
	sub	w10, w8, #1
	strb	w10, [x3, x19]
.LBB4_79:
	adds	x10, x19, #1
	csinv	x10, x10, xzr, lo
	tst	w8, #0xff
	b.eq	.LBB4_84
	mov	x19, x10
	cmp	x10, x21
	b.lo	.LBB4_74
.LBB4_81:
	adds	x8, x19, #1
	csinv	x8, x8, xzr, lo
	cmp	x8, x21
	b.hs	.LBB4_83
.LBB4_82:
	strb	w9, [x3, x8]
.LBB4_83:
	adds	x13, x19, #2
	ldr	x11, [x6, #144]
	mov	x8, xzr
	mov	x9, xzr
	mov	x10, xzr
	mov	x20, xzr
	csinv	x19, x13, xzr, lo
	mov	w24, #1
	mov	w4, #8
	b	.LBB4_10
.LBB4_84:
	cmp	x10, x21
	b.hs	.LBB4_86
	strb	wzr, [x3, x10]
.LBB4_86:
	adds	x8, x19, #2
	csinv	x19, x8, xzr, lo
	cmp	x19, x21
	b.hs	.LBB4_81
	b	.LBB4_74
.LBB4_87:
	ldp	x10, x17, [sp, #32]
	ldr	x27, [sp, #88]
	ldur	x8, [x29, #-48]
	ldrb	w9, [sp, #97]
	cmp	x27, x10
	csel	x17, x17, x8, eq
	b	.LBB4_95
.LBB4_88:
	mov	x10, xzr
	mov	w9, wzr
	mov	x27, xzr
	mov	x19, xzr
	mov	x20, xzr
	mov	w8, #1
	mov	w4, #8
	cmp	w9, #8
	b.hi	.LBB4_107
.LBB4_89:
	mov	x11, #-1
	lsl	x9, x11, x9
	orr	x9, x9, x10
	cmn	x9, #1
	b.ne	.LBB4_107
	ldr	x10, [x6, #8]
	subs	x9, x10, x17
	b.ls	.LBB4_107
	ldr	x12, [x6]
	mov	x11, xzr
	mov	x13, x17
.LBB4_92:
	ldrb	w14, [x12, x13]
	cmp	w14, #255
	b.ne	.LBB4_96
	sub	x9, x9, #1
	add	x13, x13, #1
	sub	x11, x11, #1
	cbnz	x9, .LBB4_92
	b	.LBB4_107
.LBB4_94:
	mov	w9, #3
.LBB4_95:
	mov	w8, #1
	ldr	x10, [sp, #48]
	dup	v0.2d, x8
	strb	w9, [x10, #16]
	strb	wzr, [x10, #23]
	sturh	wzr, [x10, #21]
	stur	wzr, [x10, #17]
	str	q0, [x10]
	stp	x27, x17, [x10, #24]
	b	.LBB4_108
.LBB4_96:
	cbz	x11, .LBB4_107
	cmp	x10, x13
	b.ls	.LBB4_107
	cmp	w14, #217
	b.ne	.LBB4_107
	cmp	x9, #1
	b.ne	.LBB4_107
	cbz	w8, .LBB4_109
	mov	x8, xzr
	cbz	x4, .LBB4_117
	mov	w9, #8
	sub	x9, x9, x4
	lsr	x9, x20, x9
	cbnz	x9, .LBB4_117
	cmp	x4, #8
	b.ne	.LBB4_110
	cmp	x19, x21
	b.hs	.LBB4_114
.LBB4_105:
	mov	w8, #255
	strb	w8, [x3, x19]
	adds	x8, x19, #1
	csinv	x8, x8, xzr, lo
	cmp	x8, x21
	b.lo	.LBB4_115
	b	.LBB4_116
.LBB4_106:
	ubfx	w9, w8, #8, #8
	cmp	w24, #1
	ldr	x0, [sp, #48]
	and	x10, x8, #0xff
	cset	w8, eq
	cmp	w9, #8
	b.ls	.LBB4_89
.LBB4_107:
	mov	w8, #1
	strb	wzr, [x0, #23]
	dup	v0.2d, x8
	mov	w8, #3
	sturh	wzr, [x0, #21]
	stur	wzr, [x0, #17]
	strb	w8, [x0, #16]
	str	q0, [x0]
	stp	x27, x17, [x0, #24]
.LBB4_108:
	ldp	x20, x19, [sp, #400]
	ldp	x22, x21, [sp, #384]
	ldp	x24, x23, [sp, #368]
	ldp	x26, x25, [sp, #352]
	ldp	x28, x27, [sp, #336]
	ldp	x29, x30, [sp, #320]
	add	sp, sp, #416
	ret
.LBB4_109:
	mov	x19, xzr
	mov	w8, #1
	b	.LBB4_117
.LBB4_110:
	add	w8, w20, #1
	cmp	x19, x21
	lsl	x8, x8, x4
	b.hs	.LBB4_112
	sub	w9, w8, #1
	strb	w9, [x3, x19]
.LBB4_112:
	adds	x9, x19, #1
	csinv	x9, x9, xzr, lo
	tst	w8, #0xff
	b.eq	.LBB4_118
	mov	x19, x9
	cmp	x9, x21
	b.lo	.LBB4_105
.LBB4_114:
	adds	x8, x19, #1
	csinv	x8, x8, xzr, lo
	cmp	x8, x21
	b.hs	.LBB4_116
.LBB4_115:
	mov	w9, #217
	strb	w9, [x3, x8]
.LBB4_116:
	adds	x9, x19, #2
	mov	x8, xzr
	csinv	x19, x9, xzr, lo
.LBB4_117:
	stp	x8, x19, [x0]
	stp	xzr, xzr, [x0, #24]
	str	xzr, [x0, #16]
	b	.LBB4_108
.LBB4_118:
	cmp	x9, x21
	b.hs	.LBB4_120
	strb	wzr, [x3, x9]
.LBB4_120:
	adds	x8, x19, #2
	csinv	x19, x8, xzr, lo
	cmp	x19, x21
	b.hs	.LBB4_114
	b	.LBB4_105
.LBB4_121:
	brk	#0x1
.Lfunc_end4:
	.size	"jpeg_write_scan::run::<#c44e4da361dd472c>", .Lfunc_end4-"jpeg_write_scan::run::<#c44e4da361dd472c>"

	.section	.rodata.cst16,"aM",@progbits,16
	.p2align	4, 0x0
.LCPI5_0:
	.byte	1
	.byte	2
	.byte	4
	.byte	8
	.byte	16
	.byte	32
	.byte	64
	.byte	128
	.byte	1
	.byte	2
	.byte	4
	.byte	8
	.byte	16
	.byte	32
	.byte	64
	.byte	128
.LCPI5_1:
	.xword	1
	.xword	3
.LCPI5_2:
	.xword	1
	.xword	4
	.section	.text.tillsparrow_settle,"ax",@progbits
	.globl	tillsparrow_settle
	.p2align	2
	.type	tillsparrow_settle,@function
tillsparrow_settle:
	stp	x29, x30, [sp, #-96]!
	sub	x9, sp, #6, lsl #12
	stp	x28, x27, [sp, #16]
	mov	x29, sp
	stp	x26, x25, [sp, #32]
	stp	x24, x23, [sp, #48]
	stp	x22, x21, [sp, #64]
	stp	x20, x19, [sp, #80]
.LBB5_1:
	sub	sp, sp, #3072
	cmp	sp, x9
	str	xzr, [sp]
	b.ne	.LBB5_1
	sub	sp, sp, #1440
	movi	v0.2d, #0000000000000000
	cmp	x0, #0
	mov	w9, #4096
	add	x19, sp, #4, lsl #12
	csel	x11, x9, xzr, eq
	cmp	x6, #0
	mov	x28, x6
	add	x19, x19, #1184
	add	x12, x0, x11
	csel	x15, x9, xzr, eq
	str	xzr, [sp]
	stp	q0, q0, [sp, #256]
	stp	q0, q0, [sp, #288]
	stp	q0, q0, [sp, #320]
	stp	q0, q0, [sp, #352]
	stp	q0, q0, [sp, #384]
	stp	q0, q0, [sp, #416]
	stp	q0, q0, [sp, #448]
	stp	q0, q0, [sp, #480]
	stp	q0, q0, [sp, #512]
	stp	q0, q0, [sp, #544]
	stp	q0, q0, [sp, #576]
	stp	q0, q0, [sp, #608]
	stp	q0, q0, [sp, #640]
	stp	q0, q0, [sp, #672]
	stp	q0, q0, [sp, #704]
	stp	q0, q0, [sp, #736]
	stp	q0, q0, [sp, #768]
	stp	x12, x7, [sp, #208]
	tbnz	x1, #63, .LBB5_141
	cmp	x2, x1
	b.lo	.LBB5_141
	lsl	x9, x1, #1
	cmp	x5, x9
	b.ls	.LBB5_142
	movi	v16.2d, #0000000000000000
	mvn	x9, x9
	cmp	x1, #2
	add	x5, x5, x9
	stp	q16, q16, [sp, #800]
	stp	q16, q16, [sp, #832]
	stp	q16, q16, [sp, #864]
	stp	q16, q16, [sp, #896]
	b.lo	.LBB5_143
	ldrb	w9, [x12]
	cmp	w9, #255
	b.ne	.LBB5_143
	ldrb	w9, [x12, #1]
	cmp	w9, #216
	b.ne	.LBB5_143
	str	x11, [sp, #144]
	add	x11, sp, #4, lsl #12
	movi	v17.2d, #0000000000000000
	add	x11, x11, #1184
	mov	x7, xzr
	add	x12, x11, #88
	mov	x6, xzr
	mov	x22, xzr
	stp	x4, x12, [sp, #24]
	add	x12, x11, #56
	mov	x2, xzr
	str	x12, [sp]
	add	x12, x11, #24
	mov	x4, xzr
	mov	x16, xzr
	mov	x24, xzr
	mov	x30, xzr
	mov	x17, xzr
	mov	x20, xzr
	mov	x27, xzr
	mov	x9, xzr
	mov	w26, wzr
	mov	x18, xzr
	str	x12, [sp, #48]
	add	x12, x11, #296
	add	x11, x11, #40
	mov	w21, #2
	str	x15, [sp, #128]
	stp	xzr, xzr, [sp, #192]
	stp	xzr, xzr, [sp, #176]
	str	xzr, [sp, #168]
	stp	q17, q17, [x29, #-256]
	str	q17, [sp, #17536]
	str	q17, [sp, #17552]
	stp	q17, q17, [sp, #928]
	stp	q17, q17, [sp, #960]
	stp	x11, x12, [sp, #8]
.LBB5_9:
	and	w11, w26, #0xff
	str	q17, [sp, #1152]
	cmp	w11, #2
	str	q17, [sp, #1168]
	stp	q17, q17, [sp, #992]
	stp	q17, q17, [x29, #-208]
	stp	q17, q17, [x29, #-160]
	b.eq	.LBB5_17
	cmp	w11, #1
	b.ne	.LBB5_20
	subs	x11, x18, x21
	b.lo	.LBB5_18
	b.eq	.LBB5_25
	cmp	x11, #65
	b.lo	.LBB5_18
	ldr	x10, [sp, #208]
	add	x11, x10, x21
	ldrb	w13, [x11]
	cmp	w13, #3
	b.hi	.LBB5_18
	ldur	q0, [x11, #17]
	ldur	q1, [x11, #33]
	mov	x26, x21
	ldur	q2, [x11, #49]
	ldur	q3, [x11, #1]
	adrp	x11, .LCPI5_0
	cmeq	v1.16b, v1.16b, #0
	cmeq	v0.16b, v0.16b, #0
	ldr	q4, [x11, :lo12:.LCPI5_0]
	cmeq	v3.16b, v3.16b, #0
	cmeq	v2.16b, v2.16b, #0
	and	v1.16b, v1.16b, v4.16b
	and	v0.16b, v0.16b, v4.16b
	and	v3.16b, v3.16b, v4.16b
	and	v2.16b, v2.16b, v4.16b
	ext	v4.16b, v1.16b, v1.16b, #8
	ext	v7.16b, v0.16b, v0.16b, #8
	ext	v5.16b, v3.16b, v3.16b, #8
	ext	v6.16b, v2.16b, v2.16b, #8
	zip1	v1.16b, v1.16b, v4.16b
	zip1	v0.16b, v0.16b, v7.16b
	zip1	v3.16b, v3.16b, v5.16b
	zip1	v2.16b, v2.16b, v6.16b
	addv	h1, v1.8h
	addv	h0, v0.8h
	addv	h3, v3.8h
	addv	h2, v2.8h
	fmov	w11, s1
	fmov	w21, s0
	fmov	w12, s3
	fmov	w14, s2
	orr	w11, w12, w11
	orr	w12, w21, w14
	orr	w11, w11, w12
	tst	w11, #0xffff
	b.ne	.LBB5_18
	mov	w14, #1
	stur	w9, [x19, #9]
	ldr	x15, [sp, #32]
	strb	w14, [x19, #8]
	lsr	x14, x9, #48
	lsr	x9, x9, #32
	ldp	q0, q1, [x29, #-256]
	ldr	x10, [sp, #48]
	sturh	w9, [x19, #13]
	ldr	x9, [sp, #168]
	strb	w14, [x19, #15]
	add	x14, sp, #4, lsl #12
	mov	w12, wzr
	str	x9, [sp, #17592]
	ldr	x9, [sp, #200]
	add	x14, x14, #1184
	stp	q0, q1, [x15]
	ldr	q0, [sp, #17536]
	ldr	q1, [sp, #17552]
	str	x9, [sp, #17816]
	ldr	x9, [sp, #184]
	mov	w11, wzr
	stur	q0, [x14, #152]
	add	x21, x26, #65
	stur	q1, [x14, #168]
	ldp	q0, q1, [sp, #960]
	str	x9, [sp, #17824]
	ldr	x9, [sp, #176]
	str	x24, [sp, #17600]
	stur	q0, [x14, #184]
	stur	q1, [x14, #200]
	ldp	q0, q1, [sp, #928]
	str	x9, [sp, #17832]
	ldr	x9, [sp, #192]
	str	x16, [sp, #17608]
	str	x4, [sp, #17616]
	str	x2, [sp, #17624]
	str	x22, [sp, #17632]
	str	x6, [sp, #17640]
	str	x7, [sp, #17648]
	str	x30, [sp, #17688]
	str	x17, [sp, #17696]
	str	x20, [sp, #17704]
	str	x27, [sp, #17712]
	stur	q0, [x14, #216]
	stur	q1, [x14, #232]
	str	x9, [sp, #17840]
	add	x9, x26, #1
	ldr	x26, [sp, #17576]
	str	x9, [x10, x13, lsl #3]
	ldp	q0, q1, [x15]
	ldr	x10, [sp, #17816]
	ldr	x9, [sp, #17840]
	ldr	x24, [sp, #17600]
	ldr	x16, [sp, #17608]
	stp	x9, x10, [sp, #192]
	ldr	x10, [sp, #17824]
	ldr	x4, [sp, #17616]
	str	q1, [sp, #1168]
	ldur	q1, [x14, #168]
	ldr	x2, [sp, #17624]
	str	q0, [sp, #1152]
	ldur	q0, [x14, #152]
	ldr	x22, [sp, #17632]
	ldr	x9, [sp, #17592]
	ldr	x6, [sp, #17640]
	stp	q0, q1, [sp, #992]
	ldur	q1, [x14, #200]
	ldur	q0, [x14, #184]
	str	x10, [sp, #184]
	ldr	x10, [sp, #17832]
	ldr	x7, [sp, #17648]
	stp	q0, q1, [x29, #-160]
	ldur	q1, [x14, #216]
	ldur	q0, [x14, #232]
	ldr	x30, [sp, #17688]
	ldr	x17, [sp, #17696]
	ldr	x20, [sp, #17704]
	ldr	x27, [sp, #17712]
	stp	x9, x10, [sp, #168]
	stp	q1, q0, [x29, #-208]
	b	.LBB5_26
.LBB5_17:
	subs	x26, x18, x21
	b.hs	.LBB5_24
.LBB5_18:
	movi	v0.2d, #0000000000000000
	mov	x7, xzr
	mov	x6, xzr
	mov	x22, xzr
	mov	x2, xzr
	mov	x4, xzr
	mov	x16, xzr
	mov	x24, xzr
	mov	x30, xzr
	mov	x17, xzr
	mov	x20, xzr
	mov	x27, xzr
	stp	xzr, xzr, [sp, #192]
	mov	x21, xzr
	mov	x26, xzr
	stp	xzr, xzr, [sp, #176]
	mov	x18, xzr
	mov	w11, #3
	str	xzr, [sp, #168]
	mov	w12, #1
	str	q0, [sp, #1168]
.LBB5_19:
	str	q0, [sp, #1152]
	stp	q0, q0, [sp, #992]
	stp	q0, q0, [x29, #-208]
	stp	q0, q0, [x29, #-160]
	b	.LBB5_26
.LBB5_20:
	ldp	q0, q1, [x29, #-256]
	add	x13, sp, #2, lsl #12
	add	x12, sp, #2, lsl #12
	add	x13, x13, #1152
	lsr	x11, x9, #48
	add	x12, x12, #1152
	str	x21, [sp, #9344]
	stur	q0, [x13, #88]
	ldr	q0, [sp, #17536]
	stur	q1, [x13, #104]
	ldr	q1, [sp, #17552]
	stur	w9, [x12, #9]
	lsr	x9, x9, #32
	stur	q0, [x13, #152]
	stur	q1, [x13, #168]
	ldp	q0, q1, [sp, #960]
	sturh	w9, [x12, #13]
	ldr	x9, [sp, #200]
	strb	wzr, [x12, #8]
	str	x9, [sp, #9592]
	ldr	x9, [sp, #184]
	stur	q0, [x13, #184]
	stur	q1, [x13, #200]
	ldp	q0, q1, [sp, #928]
	str	x9, [sp, #9600]
	ldp	x26, x9, [sp, #168]
	strb	w11, [x12, #15]
	stur	q0, [x13, #216]
	movi	v0.2d, #0000000000000000
	str	x9, [sp, #9608]
	ldr	x9, [sp, #192]
	str	x18, [sp, #9360]
	str	x9, [sp, #9616]
	sub	x9, x1, x21
	cmp	x9, #2
	str	x26, [sp, #9368]
	str	x24, [sp, #9376]
	str	x16, [sp, #9384]
	str	x4, [sp, #9392]
	str	x2, [sp, #9400]
	str	x22, [sp, #9408]
	str	x6, [sp, #9416]
	str	x7, [sp, #9424]
	str	x30, [sp, #9464]
	str	x17, [sp, #9472]
	str	x20, [sp, #9480]
	str	x27, [sp, #9488]
	stur	q1, [x13, #232]
	str	q0, [sp, #17568]
	str	q0, [sp, #17584]
	str	q0, [sp, #17600]
	str	q0, [sp, #17616]
	str	q0, [sp, #17632]
	str	q0, [sp, #17648]
	str	q0, [sp, #17664]
	str	q0, [sp, #17680]
	str	q0, [sp, #17696]
	str	q0, [sp, #17712]
	str	q0, [sp, #17728]
	str	q0, [sp, #17744]
	str	q0, [sp, #17760]
	str	q0, [sp, #17776]
	str	q0, [sp, #17792]
	str	q0, [sp, #17808]
	str	q0, [sp, #17824]
	str	q0, [sp, #17840]
	str	q0, [sp, #17856]
	str	q0, [sp, #17872]
	str	q0, [sp, #17888]
	str	q0, [sp, #17904]
	str	q0, [sp, #17920]
	str	q0, [sp, #17936]
	b.lo	.LBB5_22
	ldr	x10, [sp, #208]
	ldrb	w11, [x10, x21]
	cmp	w11, #255
	b.eq	.LBB5_33
.LBB5_22:
	mov	x7, xzr
	mov	x6, xzr
	mov	x22, xzr
	mov	x2, xzr
	mov	x4, xzr
	mov	x16, xzr
	mov	x24, xzr
	mov	x30, xzr
	mov	x17, xzr
	mov	x20, xzr
	mov	x27, xzr
	stp	xzr, xzr, [sp, #192]
	stp	xzr, xzr, [sp, #176]
	mov	x25, xzr
	mov	x10, xzr
	stp	xzr, xzr, [sp, #232]
	mov	x23, xzr
	mov	w9, wzr
	str	xzr, [sp, #248]
	mov	w13, wzr
	mov	x14, xzr
	str	xzr, [sp, #224]
	mov	x21, xzr
	mov	x26, xzr
	str	xzr, [sp, #168]
	mov	x18, xzr
	mov	w11, #3
.LBB5_23:
	str	q0, [sp, #1168]
	mov	w12, #1
	str	q0, [sp, #1152]
	stp	q0, q0, [sp, #992]
	stp	q0, q0, [x29, #-208]
	stp	q0, q0, [x29, #-160]
	b	.LBB5_27
.LBB5_24:
	b.ne	.LBB5_30
.LBB5_25:
	ldp	q0, q1, [x29, #-256]
	mov	w12, wzr
	ldr	q2, [sp, #17536]
	mov	w11, wzr
	mov	x26, xzr
	mov	x18, xzr
	str	q0, [sp, #1152]
	ldr	q0, [sp, #17552]
	str	q1, [sp, #1168]
	stp	q2, q0, [sp, #992]
	ldp	q1, q0, [sp, #960]
	stp	q1, q0, [x29, #-160]
	ldp	q0, q2, [sp, #928]
	stp	q0, q2, [x29, #-208]
.LBB5_26:
	mov	x25, xzr
	mov	x10, xzr
	mov	x23, xzr
	mov	w9, wzr
	mov	w13, wzr
	mov	x14, xzr
	stp	xzr, xzr, [sp, #232]
	str	xzr, [sp, #248]
	str	xzr, [sp, #224]
.LBB5_27:
	ldr	q0, [sp, #1152]
	ldr	q1, [sp, #1168]
	stp	q0, q1, [sp, #896]
	ldp	q0, q2, [sp, #992]
	stp	q0, q2, [sp, #864]
	ldp	q1, q0, [x29, #-160]
	stp	q1, q0, [sp, #832]
	ldp	q0, q2, [x29, #-208]
	stp	q0, q2, [sp, #800]
	cbnz	w12, .LBB5_281
	cbnz	w11, .LBB5_282
	ldp	q0, q1, [sp, #896]
	lsr	x9, x26, #8
	stp	q0, q1, [x29, #-256]
	ldp	q0, q2, [sp, #864]
	str	q0, [sp, #17536]
	ldp	q1, q0, [sp, #832]
	str	q2, [sp, #17552]
	stp	q1, q0, [sp, #960]
	ldp	q0, q2, [sp, #800]
	stp	q0, q2, [sp, #928]
	b	.LBB5_9
.LBB5_30:
	ldr	x10, [sp, #208]
	cmp	x26, #2
	str	x18, [sp, #248]
	str	x30, [sp, #136]
	add	x13, x10, x21
	stp	x20, x17, [sp, #72]
	ldrb	w19, [x13]
	stp	x27, x7, [sp, #88]
	stp	x4, x6, [sp, #104]
	stp	x2, x21, [sp, #56]
	stp	x24, x22, [sp, #152]
	str	x16, [sp, #120]
	b.lo	.LBB5_36
	ldrb	w25, [x13, #1]
	cmp	x26, #2
	b.ne	.LBB5_64
	mov	x10, x28
	mov	x24, xzr
	mov	x22, xzr
	mov	x21, xzr
	mov	x16, xzr
	mov	x18, xzr
	mov	x17, xzr
	mov	x6, xzr
	b	.LBB5_37
.LBB5_33:
	ldr	x10, [sp, #208]
	mov	x14, x21
	add	x21, x21, #1
	ldrb	w12, [x10, x21]
	cmp	w12, #217
	b.eq	.LBB5_22
	cmp	w12, #255
	b.ne	.LBB5_67
	ldp	q0, q1, [x29, #-256]
	mov	x25, xzr
	ldr	q2, [sp, #17536]
	stp	xzr, xzr, [sp, #232]
	mov	x10, xzr
	str	xzr, [sp, #248]
	mov	x23, xzr
	mov	w9, wzr
	str	q0, [sp, #1152]
	ldr	q0, [sp, #17552]
	mov	w13, wzr
	str	q1, [sp, #1168]
	mov	x14, xzr
	mov	w12, wzr
	stp	q2, q0, [sp, #992]
	ldp	q1, q0, [sp, #960]
	str	xzr, [sp, #224]
	mov	w11, wzr
	mov	x26, xzr
	mov	x18, xzr
	stp	q1, q0, [x29, #-160]
	ldp	q0, q2, [sp, #928]
	stp	q0, q2, [x29, #-208]
	b	.LBB5_27
.LBB5_36:
	mov	x10, x28
	mov	x24, xzr
	mov	x22, xzr
	mov	x21, xzr
	mov	x16, xzr
	mov	x18, xzr
	mov	x17, xzr
	mov	x6, xzr
	mov	x25, xzr
.LBB5_37:
	mov	x4, xzr
	mov	x7, xzr
	mov	x2, xzr
	mov	x23, xzr
	mov	x27, xzr
	mov	x30, xzr
	mov	x11, xzr
	mov	x12, xzr
.LBB5_38:
	cmp	x26, #17
	b.lo	.LBB5_137
	mov	w20, #236
	and	w20, w19, w20
	cbnz	w20, .LBB5_137
	add	x20, x22, x24
	add	x28, x21, x16
	add	x14, x18, x17
	add	x15, x25, x4
	add	x20, x20, x28
	add	x28, x23, x27
	add	x14, x14, x6
	add	x15, x15, x7
	add	x28, x28, x30
	add	x14, x20, x14
	add	x15, x15, x2
	add	x20, x28, x11
	add	x14, x14, x15
	add	x15, x20, x12
	add	x20, x14, x15
	sub	x14, x20, #1
	cmp	x14, #255
	b.hi	.LBB5_137
	add	x28, x20, #17
	cmp	x28, x26
	b.hi	.LBB5_137
	ldrb	w20, [x13, #1]
	cmp	w20, #1
	b.hi	.LBB5_137
	ldrb	w14, [x13, #2]
	add	x20, x14, x20, lsl #1
	cmp	x20, #3
	b.hi	.LBB5_137
	ldrb	w14, [x13, #3]
	add	x20, x14, x20, lsl #1
	cmp	x20, #7
	b.hi	.LBB5_137
	ldrb	w14, [x13, #4]
	add	x20, x14, x20, lsl #1
	cmp	x20, #15
	b.hi	.LBB5_137
	ldrb	w14, [x13, #5]
	add	x20, x14, x20, lsl #1
	cmp	x20, #31
	b.hi	.LBB5_137
	ldrb	w14, [x13, #6]
	add	x20, x14, x20, lsl #1
	cmp	x20, #63
	b.hi	.LBB5_137
	ldrb	w14, [x13, #7]
	add	x20, x14, x20, lsl #1
	cmp	x20, #127
	b.hi	.LBB5_137
	ldrb	w14, [x13, #8]
	add	x20, x14, x20, lsl #1
	cmp	x20, #255
	b.hi	.LBB5_137
	ldrb	w14, [x13, #9]
	add	x20, x14, x20, lsl #1
	cmp	x20, #511
	b.hi	.LBB5_137
	ldrb	w14, [x13, #10]
	add	x20, x14, x20, lsl #1
	cmp	x20, #1023
	b.hi	.LBB5_137
	ldrb	w14, [x13, #11]
	add	x20, x14, x20, lsl #1
	cmp	x20, #2047
	b.hi	.LBB5_137
	ldrb	w14, [x13, #12]
	add	x20, x14, x20, lsl #1
	cmp	x20, #4095
	b.hi	.LBB5_137
	ldrb	w14, [x13, #13]
	add	x20, x14, x20, lsl #1
	lsr	x14, x20, #13
	cbnz	x14, .LBB5_137
	ldrb	w14, [x13, #14]
	add	x20, x14, x20, lsl #1
	lsr	x14, x20, #14
	cbnz	x14, .LBB5_137
	ldrb	w14, [x13, #15]
	add	x20, x14, x20, lsl #1
	lsr	x14, x20, #15
	cbnz	x14, .LBB5_137
	ldrb	w14, [x13, #16]
	add	x14, x14, x20, lsl #1
	lsr	x14, x14, #16
	cbnz	x14, .LBB5_137
	add	x12, x12, x22
	add	x14, x24, x21
	add	x15, x16, x18
	add	x18, x6, x25
	add	x2, x2, x23
	movi	v0.2d, #0000000000000000
	add	x12, x12, x14
	add	x14, x15, x17
	add	x15, x18, x4
	add	x17, x2, x27
	add	x12, x12, x14
	add	x14, x15, x7
	add	x15, x17, x30
	add	x12, x12, x14
	mov	x20, x10
	add	x11, x15, x11
	cmp	w19, #16
	add	x13, x13, #17
	add	x11, x12, x11
	str	q0, [sp, #9584]
	str	q0, [sp, #9568]
	str	q0, [sp, #9552]
	str	q0, [sp, #9536]
	str	q0, [sp, #9520]
	str	q0, [sp, #9504]
	str	q0, [sp, #9488]
	str	q0, [sp, #9472]
	str	q0, [sp, #9456]
	str	q0, [sp, #9440]
	str	q0, [sp, #9424]
	str	q0, [sp, #9408]
	str	q0, [sp, #9392]
	str	q0, [sp, #9376]
	str	q0, [sp, #9360]
	str	q0, [sp, #9344]
	b.hs	.LBB5_132
.LBB5_59:
	ldrb	w12, [x13], #1
	cmp	x12, #11
	b.hi	.LBB5_136
	add	x14, sp, #2, lsl #12
	add	x14, x14, #1152
	ldrb	w14, [x14, x12]
	tbnz	w14, #0, .LBB5_136
	add	x14, sp, #2, lsl #12
	subs	x11, x11, #1
	mov	w15, #1
	add	x14, x14, #1152
	strb	w15, [x14, x12]
	b.ne	.LBB5_59
.LBB5_62:
	ldp	q0, q1, [x29, #-256]
	add	x12, sp, #4, lsl #12
	ldr	x11, [sp, #32]
	add	x12, x12, #1184
	add	x13, sp, #4, lsl #12
	stur	w9, [x12, #9]
	add	x13, x13, #1184
	ldr	q2, [sp, #17536]
	stp	q0, q1, [x11]
	mov	w11, #2
	ldr	q0, [sp, #17552]
	strb	w11, [x12, #8]
	lsr	x11, x9, #48
	lsr	x9, x9, #32
	stur	q0, [x13, #168]
	ldp	q1, q0, [sp, #960]
	sturh	w9, [x12, #13]
	ldr	x9, [sp, #168]
	cmp	w19, #15
	strb	w11, [x12, #15]
	str	x9, [sp, #17592]
	ldr	x9, [sp, #152]
	stur	q1, [x13, #184]
	str	x9, [sp, #17600]
	ldr	x9, [sp, #120]
	stur	q0, [x13, #200]
	ldp	q1, q0, [sp, #928]
	str	x9, [sp, #17608]
	ldr	x9, [sp, #104]
	stur	q2, [x13, #152]
	str	x9, [sp, #17616]
	ldr	x9, [sp, #56]
	stur	q1, [x13, #216]
	str	x9, [sp, #17624]
	ldr	x9, [sp, #160]
	stur	q0, [x13, #232]
	str	x9, [sp, #17632]
	ldr	x9, [sp, #112]
	str	x9, [sp, #17640]
	ldr	x9, [sp, #96]
	str	x9, [sp, #17648]
	ldr	x9, [sp, #136]
	str	x9, [sp, #17688]
	ldr	x9, [sp, #80]
	str	x9, [sp, #17696]
	ldp	x11, x9, [sp, #64]
	str	x9, [sp, #17704]
	ldr	x9, [sp, #88]
	add	x11, x11, #1
	str	x9, [sp, #17712]
	ldp	x12, x9, [sp, #192]
	str	x9, [sp, #17816]
	ldr	x9, [sp, #184]
	str	x12, [sp, #17840]
	str	x9, [sp, #17824]
	ldr	x9, [sp, #176]
	str	x9, [sp, #17832]
	lsl	x9, x19, #3
	b.hi	.LBB5_139
	ldr	x10, [sp]
	str	x11, [x10, x9]
	ldr	x9, [sp, #17688]
	str	x9, [sp, #136]
	ldr	x9, [sp, #17696]
	str	x9, [sp, #80]
	ldr	x9, [sp, #17704]
	str	x9, [sp, #72]
	ldr	x9, [sp, #17712]
	str	x9, [sp, #88]
	ldr	x9, [sp, #17816]
	str	x9, [sp, #200]
	ldr	x9, [sp, #17824]
	str	x9, [sp, #184]
	ldr	x9, [sp, #17840]
	str	x9, [sp, #192]
	ldr	x9, [sp, #17832]
	str	x9, [sp, #176]
	b	.LBB5_140
.LBB5_64:
	ldrb	w14, [x13, #2]
	cmp	x26, #4
	b.lo	.LBB5_79
	ldrb	w15, [x13, #3]
	cmp	x26, #4
	b.ne	.LBB5_80
	mov	x10, x28
	mov	x24, xzr
	mov	x22, xzr
	mov	x21, xzr
	mov	x16, xzr
	mov	x18, xzr
	mov	x17, xzr
	mov	x7, xzr
	mov	x2, xzr
	mov	x23, xzr
	mov	x27, xzr
	mov	x30, xzr
	mov	x11, xzr
	mov	x12, xzr
	mov	x4, x14
	mov	x6, x15
	b	.LBB5_38
.LBB5_67:
	cmp	x9, #4
	b.lo	.LBB5_78
	add	x9, x14, #2
	cmp	x9, x1
	b.hs	.LBB5_78
	ldrb	w11, [x10, x9]
	add	x13, x14, #3
	cmp	x13, x1
	lsl	x11, x11, #8
	b.hs	.LBB5_71
	ldrb	w13, [x10, x13]
	orr	x11, x11, x13
.LBB5_71:
	cmp	x11, #2
	b.lo	.LBB5_78
	add	x9, x11, x9
	cmp	x1, x9
	b.lo	.LBB5_78
	add	x11, x14, #4
	mov	x18, x2
	cmp	w12, #218
	sub	x2, x9, x11
	b.le	.LBB5_91
	cmp	w12, #219
	b.eq	.LBB5_95
	cmp	w12, #221
	b.eq	.LBB5_97
	cmp	w12, #254
	b.ne	.LBB5_101
.LBB5_77:
	ldp	q0, q1, [x29, #-256]
	add	x11, sp, #4, lsl #12
	add	x11, x11, #1184
	str	x9, [sp, #17584]
	ldr	x9, [sp, #200]
	ldr	x12, [sp, #48]
	str	xzr, [sp, #17576]
	stur	q0, [x11, #104]
	ldr	q0, [sp, #17552]
	stur	q1, [x11, #120]
	ldr	q1, [sp, #17536]
	stur	q0, [x11, #184]
	stur	q1, [x11, #168]
	ldp	q1, q0, [sp, #960]
	str	x9, [sp, #17832]
	ldr	x9, [sp, #184]
	str	xzr, [sp, #17568]
	stur	q0, [x11, #216]
	stur	q1, [x11, #200]
	ldp	q0, q1, [sp, #928]
	str	x9, [sp, #17840]
	ldr	x9, [sp, #176]
	stp	xzr, xzr, [x12]
	stur	q0, [x11, #232]
	movi	v0.2d, #0000000000000000
	str	x9, [sp, #17848]
	ldr	x9, [sp, #192]
	str	x26, [sp, #17608]
	str	x9, [sp, #17856]
	ldr	x9, [sp, #16]
	str	x24, [sp, #17616]
	str	x16, [sp, #17624]
	str	x4, [sp, #17632]
	str	x18, [sp, #17640]
	str	x22, [sp, #17648]
	str	x6, [sp, #17656]
	str	x7, [sp, #17664]
	str	x30, [sp, #17704]
	str	x17, [sp, #17712]
	str	x20, [sp, #17720]
	stur	q1, [x11, #248]
	str	x27, [sp, #17728]
	str	xzr, [x9, #80]
	stp	q0, q0, [x9, #16]
	stp	q0, q0, [x9, #48]
	str	q0, [x9]
	b	.LBB5_111
.LBB5_78:
	mov	x7, xzr
	mov	x6, xzr
	mov	x22, xzr
	mov	x2, xzr
	mov	x4, xzr
	mov	x16, xzr
	mov	x24, xzr
	mov	x30, xzr
	mov	x17, xzr
	mov	x20, xzr
	mov	x27, xzr
	stp	xzr, xzr, [sp, #192]
	stp	xzr, xzr, [sp, #176]
	mov	x25, xzr
	mov	x10, xzr
	stp	xzr, xzr, [sp, #232]
	mov	x23, xzr
	mov	w9, wzr
	str	xzr, [sp, #248]
	mov	w13, wzr
	mov	x14, xzr
	str	xzr, [sp, #224]
	mov	x21, xzr
	mov	x26, xzr
	str	xzr, [sp, #168]
	mov	x18, xzr
	mov	w11, #2
	b	.LBB5_23
.LBB5_79:
	mov	x10, x28
	mov	x24, xzr
	mov	x22, xzr
	mov	x21, xzr
	mov	x16, xzr
	mov	x18, xzr
	mov	x17, xzr
	mov	x6, xzr
	mov	x7, xzr
	mov	x2, xzr
	mov	x23, xzr
	mov	x27, xzr
	mov	x30, xzr
	mov	x11, xzr
	mov	x12, xzr
	mov	x4, x14
	b	.LBB5_38
.LBB5_80:
	ldrb	w10, [x13, #4]
	cmp	x26, #6
	str	x10, [sp, #240]
	b.lo	.LBB5_83
	ldrb	w17, [x13, #5]
	cmp	x26, #6
	b.ne	.LBB5_88
	mov	x10, x28
	mov	x24, xzr
	mov	x22, xzr
	mov	x21, xzr
	mov	x16, xzr
	mov	x18, xzr
	b	.LBB5_84
.LBB5_83:
	mov	x10, x28
	mov	x24, xzr
	mov	x22, xzr
	mov	x21, xzr
	mov	x16, xzr
	mov	x18, xzr
	mov	x17, xzr
.LBB5_84:
	mov	x2, xzr
.LBB5_85:
	mov	x23, xzr
.LBB5_86:
	mov	x27, xzr
	mov	x30, xzr
	mov	x11, xzr
	mov	x12, xzr
.LBB5_87:
	ldr	x7, [sp, #240]
	mov	x4, x14
	mov	x6, x15
	b	.LBB5_38
.LBB5_88:
	ldrb	w2, [x13, #6]
	cmp	x26, #8
	b.lo	.LBB5_94
	ldrb	w18, [x13, #7]
	cmp	x26, #8
	b.ne	.LBB5_103
	mov	x10, x28
	mov	x24, xzr
	mov	x22, xzr
	mov	x21, xzr
	mov	x16, xzr
	b	.LBB5_85
.LBB5_91:
	cmp	w12, #196
	b.eq	.LBB5_99
	cmp	w12, #218
	b.ne	.LBB5_101
	ldr	x10, [sp, #208]
	str	x0, [sp, #40]
	add	x0, sp, #4, lsl #12
	mov	x21, x3
	add	x3, sp, #2, lsl #12
	add	x0, x0, #1184
	mov	x20, x1
	add	x1, x10, x11
	add	x3, x3, #1152
	mov	x4, x9
	mov	x24, x8
	mov	x27, x5
	bl	"jpeg_header_state::scan"
	add	x19, sp, #4, lsl #12
	ldr	x0, [sp, #40]
	movi	v17.2d, #0000000000000000
	movi	v16.2d, #0000000000000000
	add	x19, x19, #1184
	mov	x3, x21
	mov	x1, x20
	mov	x5, x27
	mov	x8, x24
	b	.LBB5_111
.LBB5_94:
	mov	x10, x28
	mov	x24, xzr
	mov	x22, xzr
	mov	x21, xzr
	mov	x16, xzr
	mov	x18, xzr
	b	.LBB5_85
.LBB5_95:
	cmp	x9, x11
	b.eq	.LBB5_100
	ldr	q0, [sp, #17536]
	ldr	q1, [sp, #17552]
	add	x13, sp, #4, lsl #12
	add	x13, x13, #1184
	ldr	x12, [sp, #200]
	str	x30, [sp, #17704]
	stur	q0, [x13, #168]
	stur	q1, [x13, #184]
	ldp	q0, q1, [sp, #960]
	str	x12, [sp, #17832]
	ldp	x10, x12, [sp, #176]
	str	x17, [sp, #17712]
	stur	q0, [x13, #200]
	stur	q1, [x13, #216]
	ldp	q0, q1, [sp, #928]
	str	x12, [sp, #17840]
	ldr	x12, [sp, #16]
	str	x10, [sp, #17848]
	mov	w10, #1
	stur	q0, [x13, #232]
	stur	q1, [x13, #248]
	ldp	q1, q0, [x29, #-256]
	str	x20, [sp, #17720]
	str	x27, [sp, #17728]
	b	.LBB5_109
.LBB5_97:
	cmp	x2, #2
	b.ne	.LBB5_106
	ldp	q0, q1, [x29, #-256]
	add	x12, sp, #4, lsl #12
	add	x12, x12, #1184
	str	x26, [sp, #17608]
	str	x24, [sp, #17616]
	stur	q0, [x12, #104]
	ldr	q0, [sp, #17552]
	stur	q1, [x12, #120]
	ldr	q1, [sp, #17536]
	stur	q0, [x12, #184]
	stur	q1, [x12, #168]
	ldp	q1, q0, [sp, #960]
	str	x16, [sp, #17624]
	str	x4, [sp, #17632]
	stur	q0, [x12, #216]
	stur	q1, [x12, #200]
	ldp	q1, q0, [sp, #928]
	str	x18, [sp, #17640]
	str	x22, [sp, #17648]
	stur	q0, [x12, #248]
	movi	v0.2d, #0000000000000000
	stur	q1, [x12, #232]
	ldr	x12, [sp, #200]
	str	x6, [sp, #17656]
	str	x12, [sp, #17832]
	ldp	x10, x12, [sp, #176]
	str	x7, [sp, #17664]
	str	x30, [sp, #17704]
	str	x10, [sp, #17848]
	ldr	x10, [sp, #48]
	str	x12, [sp, #17840]
	ldr	x12, [sp, #16]
	str	q0, [x10]
	ldr	x10, [sp, #208]
	str	x17, [sp, #17712]
	ldrh	w10, [x10, x11]
	str	x20, [sp, #17720]
	str	x27, [sp, #17728]
	rev16	w10, w10
	stp	q0, q0, [x12]
	stp	q0, q0, [x12, #32]
	str	q0, [x12, #64]
	str	xzr, [x12, #80]
	b	.LBB5_107
.LBB5_99:
	cmp	x9, x11
	b.ne	.LBB5_108
.LBB5_100:
	ldp	x14, x13, [sp, #8]
	adrp	x12, .LCPI5_1
	mov	x11, xzr
	mov	x10, xzr
	mov	x9, xzr
	str	xzr, [sp, #192]
	stp	q0, q0, [x13, #16]
	stp	q0, q0, [x13, #48]
	str	q0, [x13]
	stp	q0, q0, [x14]
	stp	q0, q0, [x14, #32]
	stp	q0, q0, [x14, #64]
	stp	q0, q0, [x14, #96]
	stp	q0, q0, [x14, #128]
	stp	q0, q0, [x14, #160]
	stp	q0, q0, [x14, #192]
	str	q0, [x14, #224]
	ldr	q0, [x12, :lo12:.LCPI5_1]
	str	xzr, [x13, #80]
	str	xzr, [x14, #240]
	b	.LBB5_110
.LBB5_101:
	cmp	w12, #192
	b.hs	.LBB5_112
.LBB5_102:
	adrp	x9, .LCPI5_2
	ldr	q0, [x9, :lo12:.LCPI5_2]
	add	x9, sp, #4, lsl #12
	add	x9, x9, #1184
	stp	xzr, xzr, [x9, #24]
	str	q0, [sp, #17568]
	stur	xzr, [x9, #16]
	b	.LBB5_111
.LBB5_103:
	ldrb	w23, [x13, #8]
	cmp	x26, #10
	b.lo	.LBB5_114
	ldrb	w16, [x13, #9]
	cmp	x26, #10
	b.ne	.LBB5_116
	mov	x24, xzr
	mov	x22, xzr
	mov	x21, xzr
	mov	x27, xzr
	b	.LBB5_120
.LBB5_106:
	ldr	x13, [sp, #16]
	ldr	x12, [sp, #48]
	adrp	x11, .LCPI5_1
	mov	x9, xzr
	mov	x10, xzr
	stp	q0, q0, [x13, #16]
	stp	q0, q0, [x13, #48]
	str	q0, [x13]
	stp	q0, q0, [x12]
	stp	q0, q0, [x12, #32]
	stp	q0, q0, [x12, #64]
	stp	q0, q0, [x12, #96]
	stp	q0, q0, [x12, #128]
	stp	q0, q0, [x12, #160]
	stp	q0, q0, [x12, #192]
	stp	q0, q0, [x12, #224]
	ldr	q0, [x11, :lo12:.LCPI5_1]
	str	xzr, [x13, #80]
	str	xzr, [x12, #256]
.LBB5_107:
	str	q0, [sp, #17568]
	str	x9, [sp, #17584]
	str	x10, [sp, #17856]
	b	.LBB5_111
.LBB5_108:
	ldr	q0, [sp, #17536]
	ldr	q1, [sp, #17552]
	add	x13, sp, #4, lsl #12
	add	x13, x13, #1184
	ldr	x12, [sp, #200]
	str	x30, [sp, #17704]
	stur	q0, [x13, #168]
	stur	q1, [x13, #184]
	ldp	q0, q1, [sp, #960]
	str	x12, [sp, #17832]
	ldp	x10, x12, [sp, #176]
	str	x17, [sp, #17712]
	stur	q0, [x13, #200]
	stur	q1, [x13, #216]
	ldp	q0, q1, [sp, #928]
	str	x12, [sp, #17840]
	ldr	x12, [sp, #16]
	str	x20, [sp, #17720]
	stur	q0, [x13, #232]
	stur	q1, [x13, #248]
	ldp	q1, q0, [x29, #-256]
	str	x27, [sp, #17728]
	str	x10, [sp, #17848]
	mov	w10, #2
.LBB5_109:
	stur	q0, [x13, #120]
	movi	v0.2d, #0000000000000000
	str	x26, [sp, #17608]
	str	x24, [sp, #17616]
	str	x16, [sp, #17624]
	str	x4, [sp, #17632]
	stur	q1, [x13, #104]
	str	x18, [sp, #17640]
	str	x22, [sp, #17648]
	str	x6, [sp, #17656]
	str	x7, [sp, #17664]
	stp	q0, q0, [x12]
	stp	q0, q0, [x12, #32]
	str	q0, [x12, #64]
	str	xzr, [x12, #80]
.LBB5_110:
	str	x9, [sp, #17600]
	ldr	x9, [sp, #192]
	str	q0, [sp, #17568]
	str	x11, [sp, #17584]
	str	x10, [sp, #17592]
	str	x9, [sp, #17856]
.LBB5_111:
	add	x9, sp, #4, lsl #12
	ldr	x10, [sp, #17864]
	ldr	x13, [sp, #17856]
	add	x9, x9, #1184
	ldrb	w12, [x19]
	ldrb	w11, [x19, #8]
	ldur	q0, [x9, #104]
	ldur	q1, [x9, #120]
	ldur	q2, [x9, #168]
	str	x10, [sp, #240]
	ldr	x10, [sp, #17872]
	ldr	x21, [sp, #17584]
	str	q0, [sp, #1152]
	ldur	q0, [x9, #184]
	ldr	x26, [sp, #17592]
	str	q1, [sp, #1168]
	ldur	q1, [x9, #200]
	ldr	x18, [sp, #17600]
	stp	q2, q0, [sp, #992]
	ldur	q0, [x9, #216]
	ldur	q2, [x9, #232]
	str	x10, [sp, #232]
	ldr	x10, [sp, #17880]
	ldr	x24, [sp, #17616]
	stp	q1, q0, [x29, #-160]
	ldur	q0, [x9, #248]
	ldr	x9, [sp, #17608]
	str	x10, [sp, #248]
	ldr	x10, [sp, #24]
	ldr	x16, [sp, #17624]
	str	x9, [sp, #168]
	ldr	x9, [sp, #17832]
	ldr	x4, [sp, #17632]
	stp	x13, x9, [sp, #192]
	ldr	x13, [sp, #17928]
	ldr	x2, [sp, #17640]
	ldr	x9, [sp, #17840]
	ldr	x22, [sp, #17648]
	ldr	x6, [sp, #17656]
	ldr	x7, [sp, #17664]
	ldr	x30, [sp, #17704]
	str	x9, [sp, #184]
	ldr	x9, [sp, #17848]
	ldr	x17, [sp, #17712]
	ldr	x20, [sp, #17720]
	ldr	x27, [sp, #17728]
	ldr	x25, [sp, #17896]
	str	x9, [sp, #176]
	ldr	x9, [sp, #17920]
	ldr	x23, [sp, #17912]
	ldr	x14, [sp, #17936]
	stp	q2, q0, [x29, #-208]
	cmp	x10, x9
	ldr	x9, [sp, #17888]
	str	x9, [sp, #224]
	cset	w9, lo
	cmp	x10, x13
	cset	w13, lo
	ldr	x10, [sp, #17904]
	b	.LBB5_27
.LBB5_112:
	ldr	x10, [sp, #208]
	stp	x24, x22, [sp, #152]
	mov	x14, x20
	str	x27, [sp, #88]
	mov	x20, x3
	mov	x21, x1
	mov	x24, x0
	mov	x26, x5
	mov	x27, x8
	cmp	w12, #194
	str	x16, [sp, #120]
	str	x4, [sp, #104]
	b.hs	.LBB5_115
	add	x0, sp, #4, lsl #12
	add	x3, sp, #2, lsl #12
	add	x1, x10, x11
	add	x0, x0, #1184
	add	x3, x3, #1152
	mov	x4, x9
	bl	"jpeg_header_state::frame"
	add	x19, sp, #4, lsl #12
	mov	x8, x27
	mov	x5, x26
	mov	x0, x24
	mov	x1, x21
	mov	x3, x20
	add	x19, x19, #1184
	movi	v16.2d, #0000000000000000
	movi	v17.2d, #0000000000000000
	b	.LBB5_111
.LBB5_114:
	mov	x10, x28
	mov	x24, xzr
	mov	x22, xzr
	mov	x21, xzr
	mov	x16, xzr
	b	.LBB5_86
.LBB5_115:
	movi	v16.2d, #0000000000000000
	movi	v17.2d, #0000000000000000
	and	w8, w12, #0xf0
	mov	x0, x24
	ldp	x24, x22, [sp, #152]
	cmp	w8, #224
	mov	x8, x27
	mov	x5, x26
	add	x19, sp, #4, lsl #12
	ldr	x27, [sp, #88]
	ldr	x4, [sp, #104]
	ldr	x16, [sp, #120]
	ldr	x26, [sp, #168]
	mov	x1, x21
	mov	x3, x20
	add	x19, x19, #1184
	mov	x20, x14
	b.eq	.LBB5_77
	b	.LBB5_102
.LBB5_116:
	ldrb	w27, [x13, #10]
	cmp	x26, #12
	b.lo	.LBB5_119
	ldrb	w21, [x13, #11]
	cmp	x26, #12
	b.ne	.LBB5_124
	mov	x24, xzr
	mov	x22, xzr
	b	.LBB5_120
.LBB5_119:
	mov	x24, xzr
	mov	x22, xzr
	mov	x21, xzr
.LBB5_120:
	mov	x30, xzr
.LBB5_121:
	mov	x11, xzr
.LBB5_122:
	mov	x12, xzr
.LBB5_123:
	movi	v16.2d, #0000000000000000
	movi	v17.2d, #0000000000000000
	mov	x10, x28
	b	.LBB5_87
.LBB5_124:
	ldrb	w30, [x13, #12]
	cmp	x26, #14
	b.lo	.LBB5_127
	ldrb	w22, [x13, #13]
	cmp	x26, #14
	b.ne	.LBB5_128
	mov	x24, xzr
	b	.LBB5_121
.LBB5_127:
	mov	x24, xzr
	mov	x22, xzr
	b	.LBB5_121
.LBB5_128:
	ldrb	w11, [x13, #14]
	cmp	x26, #16
	b.lo	.LBB5_138
	ldrb	w24, [x13, #15]
	cmp	x26, #16
	b.eq	.LBB5_122
	ldrb	w12, [x13, #16]
	b	.LBB5_123
.LBB5_131:
	add	x14, sp, #2, lsl #12
	subs	x11, x11, #1
	mov	w15, #1
	add	x14, x14, #1152
	strb	w15, [x14, x12]
	b.eq	.LBB5_62
.LBB5_132:
	ldrb	w12, [x13], #1
	add	x14, sp, #2, lsl #12
	add	x14, x14, #1152
	ldrb	w14, [x14, x12]
	tbnz	w14, #0, .LBB5_136
	cbz	w12, .LBB5_131
	cmp	w12, #240
	b.eq	.LBB5_131
	and	x14, x12, #0xf
	sub	x14, x14, #1
	cmp	x14, #9
	b.ls	.LBB5_131
.LBB5_136:
	movi	v16.2d, #0000000000000000
	movi	v17.2d, #0000000000000000
	mov	x10, x20
.LBB5_137:
	movi	v0.2d, #0000000000000000
	add	x19, sp, #4, lsl #12
	mov	x7, xzr
	mov	x6, xzr
	mov	x22, xzr
	mov	x2, xzr
	mov	x4, xzr
	mov	x16, xzr
	mov	x24, xzr
	mov	x30, xzr
	mov	x17, xzr
	mov	x20, xzr
	mov	x27, xzr
	stp	xzr, xzr, [sp, #192]
	mov	x21, xzr
	stp	xzr, xzr, [sp, #176]
	mov	x26, xzr
	mov	x18, xzr
	str	xzr, [sp, #168]
	mov	w11, #3
	mov	w12, #1
	str	q0, [sp, #1168]
	add	x19, x19, #1184
	mov	x28, x10
	b	.LBB5_19
.LBB5_138:
	mov	x24, xzr
	b	.LBB5_122
.LBB5_139:
	ldr	x12, [sp, #32]
	and	x9, x9, #0x18
	str	x11, [x12, x9]
.LBB5_140:
	ldr	x9, [sp, #32]
	add	x13, sp, #4, lsl #12
	ldr	x21, [sp, #64]
	add	x13, x13, #1184
	movi	v16.2d, #0000000000000000
	movi	v17.2d, #0000000000000000
	ldp	q0, q1, [x9]
	add	x21, x28, x21
	mov	x28, x20
	ldp	x20, x17, [sp, #72]
	ldr	x26, [sp, #17576]
	ldr	x24, [sp, #17600]
	ldr	x16, [sp, #17608]
	str	q0, [sp, #1152]
	ldur	q0, [x13, #152]
	ldr	x4, [sp, #17616]
	str	q1, [sp, #1168]
	ldur	q1, [x13, #168]
	add	x19, sp, #4, lsl #12
	ldr	x2, [sp, #17624]
	ldr	x22, [sp, #17632]
	mov	w12, wzr
	stp	q0, q1, [sp, #992]
	ldur	q0, [x13, #200]
	mov	w11, wzr
	ldur	q1, [x13, #184]
	ldr	x6, [sp, #17640]
	add	x19, x19, #1184
	ldr	x7, [sp, #17648]
	ldr	x18, [sp, #248]
	ldr	x30, [sp, #136]
	stp	q1, q0, [x29, #-160]
	ldur	q0, [x13, #232]
	ldur	q1, [x13, #216]
	ldr	x27, [sp, #88]
	stp	q1, q0, [x29, #-208]
	b	.LBB5_26
.LBB5_141:
	mov	x16, xzr
	mov	x4, xzr
	mov	x2, xzr
	mov	x22, xzr
	mov	x6, xzr
	mov	x7, xzr
	mov	x24, xzr
	mov	x30, xzr
	mov	x17, xzr
	mov	x20, xzr
	mov	x27, xzr
	mov	x14, xzr
	mov	x13, xzr
	mov	x3, xzr
	stp	xzr, xzr, [sp, #232]
	str	xzr, [sp, #248]
	mov	x25, xzr
	mov	x10, xzr
	str	xzr, [sp, #224]
	mov	x23, xzr
	mov	w9, wzr
	mov	x19, xzr
	mov	x21, xzr
	mov	x26, xzr
	mov	x18, xzr
	mov	x12, xzr
	stp	q0, q0, [sp, #256]
	stp	q0, q0, [sp, #288]
	stp	q0, q0, [sp, #320]
	stp	q0, q0, [sp, #352]
	b	.LBB5_145
.LBB5_142:
	mov	x16, xzr
	mov	x4, xzr
	mov	x2, xzr
	mov	x22, xzr
	mov	x6, xzr
	mov	x7, xzr
	mov	x24, xzr
	mov	x30, xzr
	mov	x17, xzr
	mov	x20, xzr
	mov	x27, xzr
	mov	x14, xzr
	mov	x13, xzr
	mov	x3, xzr
	stp	xzr, xzr, [sp, #232]
	str	xzr, [sp, #248]
	mov	x25, xzr
	mov	x10, xzr
	str	xzr, [sp, #224]
	mov	x23, xzr
	mov	w9, wzr
	mov	x21, xzr
	mov	x26, xzr
	mov	x18, xzr
	mov	x12, xzr
	stp	q0, q0, [sp, #256]
	mov	w19, #1
	stp	q0, q0, [sp, #288]
	stp	q0, q0, [sp, #320]
	stp	q0, q0, [sp, #352]
	b	.LBB5_145
.LBB5_143:
	mov	x21, xzr
	mov	x26, xzr
	mov	x18, xzr
	mov	w19, #3
.LBB5_144:
	mov	x16, xzr
	mov	x4, xzr
	mov	x2, xzr
	mov	x22, xzr
	mov	x6, xzr
	mov	x7, xzr
	mov	x24, xzr
	mov	x30, xzr
	mov	x17, xzr
	mov	x20, xzr
	mov	x27, xzr
	mov	x14, xzr
	mov	x13, xzr
	mov	x3, xzr
	mov	x25, xzr
	mov	x10, xzr
	mov	x23, xzr
	mov	w9, wzr
	mov	x12, xzr
	stp	xzr, xzr, [sp, #232]
	str	xzr, [sp, #248]
	str	xzr, [sp, #224]
	stp	q16, q16, [sp, #256]
	stp	q16, q16, [sp, #288]
	stp	q16, q16, [sp, #320]
	stp	q16, q16, [sp, #352]
.LBB5_145:
	movi	v0.2d, #0000000000000000
	str	q0, [sp, #17568]
	str	q0, [sp, #17584]
	str	q0, [sp, #9344]
	str	q0, [sp, #9360]
	str	q0, [sp, #1152]
	str	q0, [sp, #1168]
	stp	q0, q0, [sp, #992]
	cbz	w9, .LBB5_147
	ldp	q0, q1, [sp, #352]
	str	q0, [sp, #17568]
	ldp	q0, q2, [sp, #320]
	str	q1, [sp, #17584]
	str	q0, [sp, #9344]
	ldp	q1, q0, [sp, #288]
	str	q2, [sp, #9360]
	str	q0, [sp, #1168]
	ldp	q0, q2, [sp, #256]
	str	q1, [sp, #1152]
	stp	q0, q2, [sp, #992]
	b	.LBB5_148
.LBB5_147:
	mov	x24, xzr
	mov	x16, xzr
	mov	x4, xzr
	mov	x2, xzr
	mov	x22, xzr
	mov	x6, xzr
	mov	x7, xzr
	mov	x30, xzr
	mov	x17, xzr
	mov	x20, xzr
	mov	x27, xzr
	mov	x14, xzr
	mov	x13, xzr
	mov	x3, xzr
	mov	x12, xzr
	mov	x25, xzr
	mov	x10, xzr
	mov	x23, xzr
	and	x19, x19, #0xff
	stp	xzr, xzr, [sp, #232]
	str	xzr, [sp, #248]
	str	xzr, [sp, #224]
.LBB5_148:
	ldr	q0, [sp, #17568]
	ldr	q1, [sp, #17584]
	ldr	q2, [sp, #9360]
	stp	q0, q1, [sp, #480]
	ldr	q0, [sp, #9344]
	ldr	q1, [sp, #1152]
	stp	q0, q2, [sp, #448]
	ldr	q0, [sp, #1168]
	stp	q1, q0, [sp, #416]
	ldp	q0, q2, [sp, #992]
	stp	q0, q2, [sp, #384]
	cbz	w9, .LBB5_158
	ldp	q0, q1, [sp, #480]
	stp	q0, q1, [sp, #512]
	stp	q0, q1, [sp, #928]
	tbnz	x1, #63, .LBB5_159
	mov	x9, x10
	stp	x25, x21, [sp, #56]
	stp	x0, x28, [sp, #40]
	ldp	q0, q1, [sp, #480]
	ldr	x10, [sp, #216]
	add	x0, sp, #2, lsl #12
	stp	x1, x8, [sp, #152]
	add	x0, x0, #1152
	mov	w1, wzr
	mov	x25, x2
	cmp	x10, x9
	mov	w2, #8192
	stp	x3, x13, [sp, #176]
	mov	x28, x14
	stp	x12, x9, [sp, #192]
	mov	x21, x30
	str	x11, [sp, #144]
	stp	x6, x16, [sp, #112]
	stp	x7, x4, [sp, #96]
	stp	x17, x27, [sp, #80]
	csel	x27, x10, x9, lo
	str	x20, [sp, #72]
	mov	x20, x18
	str	x15, [sp, #128]
	stp	q0, q1, [sp, #960]
	str	q0, [sp, #17536]
	str	q1, [sp, #17552]
	str	x5, [sp, #168]
	bl	memset
	add	x0, sp, #1152
	mov	w1, wzr
	mov	w2, #8192
	bl	memset
	movi	v0.2d, #0000000000000000
	ldp	x9, x8, [sp, #152]
	ldr	x5, [sp, #168]
	lsr	x10, x23, #32
	str	x23, [sp, #136]
	str	xzr, [sp, #1136]
	stp	q0, q0, [sp, #992]
	str	q0, [sp, #1024]
	str	q0, [sp, #1040]
	str	q0, [sp, #1056]
	str	q0, [sp, #1072]
	str	q0, [sp, #1088]
	str	q0, [sp, #1104]
	str	q0, [sp, #1120]
	cbnz	x10, .LBB5_166
	ldr	x10, [sp, #200]
	subs	x12, x9, x10
	b.lo	.LBB5_166
	sub	x9, x26, #1
	cmp	x9, #3
	b.hi	.LBB5_166
	sub	x9, x20, #1
	sub	x10, x25, #1
	mov	x1, x25
	orr	x9, x10, x9
	mov	x14, x20
	cmp	x9, #3
	b.hi	.LBB5_166
	mul	x11, x1, x14
	cmp	x26, #1
	b.ne	.LBB5_160
.LBB5_155:
	cmp	x11, #10
	b.hi	.LBB5_166
	ldp	q0, q1, [sp, #416]
	cmp	x28, #3
	stp	x12, x11, [sp, #24]
	str	q0, [sp, #17568]
	str	q1, [sp, #17584]
	b.hi	.LBB5_184
	add	x8, sp, #4, lsl #12
	add	x8, x8, #1184
	ldr	x20, [x8, x28, lsl #3]
	b	.LBB5_185
.LBB5_158:
	and	x9, x19, #0xff
	b	.LBB5_168
.LBB5_159:
	mov	x9, xzr
	mov	w21, wzr
	mov	x26, xzr
	mov	x18, xzr
	b	.LBB5_168
.LBB5_160:
	sub	x9, x24, #1
	sub	x10, x22, #1
	orr	x9, x10, x9
	cmp	x9, #3
	b.hi	.LBB5_166
	madd	x11, x22, x24, x11
	cmp	x26, #2
	b.eq	.LBB5_155
	ldp	x10, x9, [sp, #112]
	sub	x9, x9, #1
	sub	x10, x10, #1
	orr	x9, x10, x9
	cmp	x9, #3
	b.hi	.LBB5_166
	ldp	x9, x10, [sp, #112]
	cmp	x26, #3
	madd	x11, x9, x10, x11
	b.eq	.LBB5_155
	ldp	x10, x9, [sp, #96]
	sub	x9, x9, #1
	sub	x10, x10, #1
	orr	x9, x10, x9
	cmp	x9, #3
	b.hi	.LBB5_166
	ldp	x9, x10, [sp, #96]
	madd	x11, x9, x10, x11
	b	.LBB5_155
.LBB5_166:
	mov	x26, xzr
	mov	x18, xzr
	mov	w21, #3
.LBB5_167:
	mov	w9, #10
.LBB5_168:
	adrp	x13, .LJTI5_0
	add	x13, x13, :lo12:.LJTI5_0
	cmp	x9, #10
	adr	x14, .LBB5_169
	ldrb	w15, [x13, x9]
	add	x14, x14, x15, lsl #2
	csel	x11, x26, xzr, eq
	csel	x10, x18, xzr, eq
	mov	w12, #1
	br	x14
.LBB5_169:
	mov	x9, xzr
	mov	w12, #2
	b	.LBB5_182
.LBB5_170:
	mov	x9, xzr
	mov	w12, #9
	b	.LBB5_182
.LBB5_171:
	mov	x9, xzr
	mov	w12, #3
	b	.LBB5_182
.LBB5_172:
	mov	x9, xzr
	mov	w12, #7
	b	.LBB5_182
.LBB5_173:
	mov	x9, xzr
	mov	w12, #5
	b	.LBB5_182
.LBB5_174:
	mov	x9, xzr
	mov	w12, #6
	b	.LBB5_182
.LBB5_175:
	and	w9, w21, #0xff
	cmp	w9, #1
	b.gt	.LBB5_179
	cbnz	w9, .LBB5_183
	mov	w9, w21
	mov	w12, #3
	and	x9, x9, #0xff
	b	.LBB5_182
.LBB5_178:
	mov	x9, xzr
	mov	w12, #8
	b	.LBB5_182
.LBB5_179:
	cmp	w9, #2
	b.ne	.LBB5_181
	mov	x9, xzr
	mov	w12, #11
	b	.LBB5_182
.LBB5_181:
	mov	x9, xzr
	mov	w12, #4
.LBB5_182:
	stp	x12, x5, [x8]
	stp	x11, x10, [x8, #16]
	str	x9, [x8, #32]
	add	sp, sp, #6, lsl #12
	add	sp, sp, #1440
	ldp	x20, x19, [sp, #80]
	ldp	x22, x21, [sp, #64]
	ldp	x24, x23, [sp, #48]
	ldp	x26, x25, [sp, #32]
	ldp	x28, x27, [sp, #16]
	ldp	x29, x30, [sp], #96
	ret
.LBB5_183:
	mov	x9, xzr
	mov	w12, #10
	b	.LBB5_182
.LBB5_184:
	mov	x20, xzr
.LBB5_185:
	ldp	x18, x16, [sp, #72]
	add	x13, sp, #4, lsl #12
	ldr	x23, [sp, #184]
	ldr	x8, [sp, #48]
	add	x13, x13, #1184
	ldr	x9, [sp, #216]
	ldr	x12, [sp, #240]
	mov	x15, x21
	ldr	x3, [sp, #88]
	ldr	x4, [sp, #104]
	cmp	x23, #3
	b.hi	.LBB5_187
	add	x10, sp, #4, lsl #12
	add	x10, x10, #1184
	ldr	x30, [x10, x23, lsl #3]
	b	.LBB5_188
.LBB5_187:
	mov	x30, xzr
.LBB5_188:
	ldp	x0, x5, [sp, #112]
	mov	x6, x24
	ldr	x11, [sp, #176]
	ldr	x17, [sp, #96]
	mov	x2, x22
	ldr	x7, [sp, #64]
	ldr	x23, [sp, #208]
	cmp	x11, #3
	b.hi	.LBB5_190
	add	x10, sp, #4, lsl #12
	add	x10, x10, #1184
	ldr	x22, [x10, x11, lsl #3]
	b	.LBB5_191
.LBB5_190:
	mov	x22, xzr
.LBB5_191:
	ldr	x11, [sp, #192]
	cmp	x11, #3
	b.hi	.LBB5_193
	add	x10, sp, #4, lsl #12
	add	x10, x10, #1184
	ldr	x10, [x10, x11, lsl #3]
	str	x10, [sp, #240]
	b	.LBB5_194
.LBB5_193:
	str	xzr, [sp, #240]
.LBB5_194:
	ldp	q0, q1, [sp, #384]
	cmp	x12, #3
	ldr	x11, [sp, #248]
	str	q0, [sp, #17568]
	str	q1, [sp, #17584]
	b.hi	.LBB5_196
	add	x10, sp, #4, lsl #12
	add	x10, x10, #1184
	ldr	x24, [x10, x12, lsl #3]
	b	.LBB5_197
.LBB5_196:
	mov	x24, xzr
.LBB5_197:
	ldr	x12, [sp, #232]
	cmp	x12, #3
	b.hi	.LBB5_199
	add	x10, sp, #4, lsl #12
	add	x10, x10, #1184
	ldr	x25, [x10, x12, lsl #3]
	b	.LBB5_200
.LBB5_199:
	mov	x25, xzr
.LBB5_200:
	cmp	x11, #3
	b.hi	.LBB5_202
	add	x10, sp, #4, lsl #12
	add	x10, x10, #1184
	ldr	x10, [x10, x11, lsl #3]
	str	x10, [sp, #248]
	b	.LBB5_203
.LBB5_202:
	str	xzr, [sp, #248]
.LBB5_203:
	ldr	x11, [sp, #224]
	cmp	x11, #3
	b.hi	.LBB5_205
	add	x10, sp, #4, lsl #12
	add	x10, x10, #1184
	ldr	x10, [x10, x11, lsl #3]
	str	x10, [sp, #232]
	b	.LBB5_206
.LBB5_205:
	str	xzr, [sp, #232]
.LBB5_206:
	ldp	q0, q1, [sp, #448]
	cmp	x15, #3
	str	q0, [sp, #17568]
	str	q1, [sp, #17584]
	b.hi	.LBB5_208
	add	x10, sp, #4, lsl #12
	add	x10, x10, #1184
	ldr	x10, [x10, x15, lsl #3]
	str	x10, [sp, #176]
	b	.LBB5_209
.LBB5_208:
	str	xzr, [sp, #176]
.LBB5_209:
	cmp	x16, #3
	b.hi	.LBB5_211
	add	x10, sp, #4, lsl #12
	add	x10, x10, #1184
	ldr	x10, [x10, x16, lsl #3]
	str	x10, [sp, #120]
	b	.LBB5_212
.LBB5_211:
	str	xzr, [sp, #120]
.LBB5_212:
	cmp	x18, #3
	b.hi	.LBB5_214
	add	x10, sp, #4, lsl #12
	add	x10, x10, #1184
	ldr	x10, [x10, x18, lsl #3]
	str	x10, [sp, #96]
	b	.LBB5_215
.LBB5_214:
	str	xzr, [sp, #96]
.LBB5_215:
	ldr	x10, [sp, #128]
	cmp	x3, #3
	sub	x21, x9, x27
	str	x27, [sp, #16]
	b.hi	.LBB5_217
	add	x9, sp, #4, lsl #12
	add	x9, x9, #1184
	ldr	x9, [x9, x3, lsl #3]
	str	x9, [sp, #80]
	b	.LBB5_218
.LBB5_217:
	str	xzr, [sp, #80]
.LBB5_218:
	ldp	q0, q1, [sp, #480]
	add	x8, x8, x10
	mov	x9, xzr
	str	x8, [sp, #64]
	mov	w8, #9
	str	x19, [sp, #17568]
	stur	q0, [x13, #88]
	str	x7, [sp, #17576]
	str	x26, [sp, #17584]
	str	x14, [sp, #17592]
	str	x6, [sp, #17600]
	str	x5, [sp, #17608]
	str	x4, [sp, #17616]
	str	x1, [sp, #17624]
	str	x2, [sp, #17632]
	str	x0, [sp, #17640]
	stur	q1, [x13, #104]
	str	x17, [sp, #17648]
	str	x15, [sp, #17688]
	str	x16, [sp, #17696]
	str	x18, [sp, #17704]
	str	x3, [sp, #17712]
.LBB5_219:
	add	x10, sp, #4, lsl #12
	add	x10, x10, #1184
	add	x10, x10, x9, lsl #3
	ldr	x11, [x10, #24]
	ldr	x10, [x10, #56]
	mul	x10, x10, x11
	subs	x8, x8, x10
	b.lo	.LBB5_222
	add	x9, x9, #1
	cmp	x26, x9
	b.ne	.LBB5_219
	mov	x9, x26
.LBB5_222:
	ldp	q0, q1, [sp, #480]
	ubfiz	x9, x9, #2, #2
	mov	x10, xzr
	mov	w8, #8
	str	x19, [sp, #17568]
	str	x7, [sp, #17576]
	stur	q0, [x13, #88]
	str	x26, [sp, #17584]
	str	x14, [sp, #17592]
	str	x6, [sp, #17600]
	str	x5, [sp, #17608]
	str	x4, [sp, #17616]
	str	x1, [sp, #17624]
	str	x2, [sp, #17632]
	str	x0, [sp, #17640]
	stur	q1, [x13, #104]
	str	x17, [sp, #17648]
	str	x15, [sp, #17688]
	str	x16, [sp, #17696]
	str	x18, [sp, #17704]
	str	x3, [sp, #17712]
.LBB5_223:
	add	x11, sp, #4, lsl #12
	add	x11, x11, #1184
	add	x11, x11, x10, lsl #3
	ldr	x12, [x11, #24]
	ldr	x11, [x11, #56]
	mul	x11, x11, x12
	subs	x8, x8, x11
	b.lo	.LBB5_226
	add	x10, x10, #1
	cmp	x26, x10
	b.ne	.LBB5_223
	mov	x10, x26
.LBB5_226:
	ldp	q0, q1, [sp, #480]
	and	x10, x10, #0x3
	mov	x8, xzr
	orr	x10, x10, x9
	mov	w9, #7
	str	x19, [sp, #17568]
	stur	q0, [x13, #88]
	str	x7, [sp, #17576]
	str	x26, [sp, #17584]
	str	x14, [sp, #17592]
	str	x6, [sp, #17600]
	str	x5, [sp, #17608]
	str	x4, [sp, #17616]
	str	x1, [sp, #17624]
	str	x2, [sp, #17632]
	str	x0, [sp, #17640]
	stur	q1, [x13, #104]
	str	x17, [sp, #17648]
	str	x15, [sp, #17688]
	str	x16, [sp, #17696]
	str	x18, [sp, #17704]
	str	x3, [sp, #17712]
.LBB5_227:
	add	x11, sp, #4, lsl #12
	add	x11, x11, #1184
	add	x11, x11, x8, lsl #3
	ldr	x12, [x11, #24]
	ldr	x11, [x11, #56]
	mul	x11, x11, x12
	subs	x9, x9, x11
	b.lo	.LBB5_230
	add	x8, x8, #1
	cmp	x26, x8
	b.ne	.LBB5_227
	mov	x8, x26
.LBB5_230:
	lsl	x10, x10, #4
	ldp	q0, q1, [sp, #480]
	mov	x9, xzr
	str	x19, [sp, #17568]
	bfi	x10, x8, #2, #2
	mov	w8, #6
	str	x7, [sp, #17576]
	stur	q0, [x13, #88]
	str	x26, [sp, #17584]
	str	x14, [sp, #17592]
	str	x6, [sp, #17600]
	str	x5, [sp, #17608]
	str	x4, [sp, #17616]
	str	x1, [sp, #17624]
	str	x2, [sp, #17632]
	str	x0, [sp, #17640]
	str	x17, [sp, #17648]
	stur	q1, [x13, #104]
	str	x15, [sp, #17688]
	str	x16, [sp, #17696]
	str	x18, [sp, #17704]
	str	x3, [sp, #17712]
.LBB5_231:
	add	x11, sp, #4, lsl #12
	add	x11, x11, #1184
	add	x11, x11, x9, lsl #3
	ldr	x12, [x11, #24]
	ldr	x11, [x11, #56]
	mul	x11, x11, x12
	subs	x8, x8, x11
	b.lo	.LBB5_234
	add	x9, x9, #1
	cmp	x26, x9
	b.ne	.LBB5_231
	mov	x9, x26
.LBB5_234:
	ldp	q0, q1, [sp, #480]
	and	x9, x9, #0x3
	mov	x8, xzr
	orr	x10, x9, x10
	mov	w9, #5
	str	x19, [sp, #17568]
	stur	q0, [x13, #88]
	str	x7, [sp, #17576]
	str	x26, [sp, #17584]
	str	x14, [sp, #17592]
	str	x6, [sp, #17600]
	str	x5, [sp, #17608]
	str	x4, [sp, #17616]
	str	x1, [sp, #17624]
	str	x2, [sp, #17632]
	str	x0, [sp, #17640]
	stur	q1, [x13, #104]
	str	x17, [sp, #17648]
	str	x15, [sp, #17688]
	str	x16, [sp, #17696]
	str	x18, [sp, #17704]
	str	x3, [sp, #17712]
.LBB5_235:
	add	x11, sp, #4, lsl #12
	add	x11, x11, #1184
	add	x11, x11, x8, lsl #3
	ldr	x12, [x11, #24]
	ldr	x11, [x11, #56]
	mul	x11, x11, x12
	subs	x9, x9, x11
	b.lo	.LBB5_238
	add	x8, x8, #1
	cmp	x26, x8
	b.ne	.LBB5_235
	mov	x8, x26
.LBB5_238:
	lsl	x10, x10, #4
	ldp	q0, q1, [sp, #480]
	mov	x9, xzr
	str	x19, [sp, #17568]
	bfi	x10, x8, #2, #2
	mov	w8, #4
	str	x7, [sp, #17576]
	stur	q0, [x13, #88]
	str	x26, [sp, #17584]
	str	x14, [sp, #17592]
	str	x6, [sp, #17600]
	str	x5, [sp, #17608]
	str	x4, [sp, #17616]
	str	x1, [sp, #17624]
	str	x2, [sp, #17632]
	str	x0, [sp, #17640]
	str	x17, [sp, #17648]
	stur	q1, [x13, #104]
	str	x15, [sp, #17688]
	str	x16, [sp, #17696]
	str	x18, [sp, #17704]
	str	x3, [sp, #17712]
.LBB5_239:
	add	x11, sp, #4, lsl #12
	add	x11, x11, #1184
	add	x11, x11, x9, lsl #3
	ldr	x12, [x11, #24]
	ldr	x11, [x11, #56]
	mul	x11, x11, x12
	subs	x8, x8, x11
	b.lo	.LBB5_242
	add	x9, x9, #1
	cmp	x26, x9
	b.ne	.LBB5_239
	mov	x9, x26
.LBB5_242:
	ldp	q0, q1, [sp, #512]
	and	x9, x9, #0x3
	mov	x8, xzr
	orr	x10, x9, x10
	mov	w9, #3
	str	x19, [sp, #17568]
	stur	q0, [x13, #88]
	str	x7, [sp, #17576]
	str	x26, [sp, #17584]
	str	x14, [sp, #17592]
	str	x6, [sp, #17600]
	str	x5, [sp, #17608]
	str	x4, [sp, #17616]
	str	x1, [sp, #17624]
	str	x2, [sp, #17632]
	str	x0, [sp, #17640]
	stur	q1, [x13, #104]
	str	x17, [sp, #17648]
	str	x15, [sp, #17688]
	str	x16, [sp, #17696]
	str	x18, [sp, #17704]
	str	x3, [sp, #17712]
.LBB5_243:
	add	x11, sp, #4, lsl #12
	add	x11, x11, #1184
	add	x11, x11, x8, lsl #3
	ldr	x12, [x11, #24]
	ldr	x11, [x11, #56]
	mul	x11, x11, x12
	subs	x9, x9, x11
	b.lo	.LBB5_246
	add	x8, x8, #1
	cmp	x26, x8
	b.ne	.LBB5_243
	mov	x8, x26
.LBB5_246:
	lsl	x10, x10, #4
	ldp	q0, q1, [sp, #928]
	mov	x9, xzr
	str	x19, [sp, #17568]
	bfi	x10, x8, #2, #2
	mov	w8, #2
	str	x7, [sp, #17576]
	stur	q0, [x13, #88]
	str	x26, [sp, #17584]
	str	x14, [sp, #17592]
	str	x6, [sp, #17600]
	str	x5, [sp, #17608]
	str	x4, [sp, #17616]
	str	x1, [sp, #17624]
	str	x2, [sp, #17632]
	str	x0, [sp, #17640]
	str	x17, [sp, #17648]
	stur	q1, [x13, #104]
	str	x15, [sp, #17688]
	str	x16, [sp, #17696]
	str	x18, [sp, #17704]
	str	x3, [sp, #17712]
.LBB5_247:
	add	x11, sp, #4, lsl #12
	add	x11, x11, #1184
	add	x11, x11, x9, lsl #3
	ldr	x12, [x11, #24]
	ldr	x11, [x11, #56]
	mul	x11, x11, x12
	subs	x8, x8, x11
	b.lo	.LBB5_250
	add	x9, x9, #1
	cmp	x26, x9
	b.ne	.LBB5_247
	mov	x9, x26
.LBB5_250:
	ldp	q0, q1, [sp, #960]
	and	x9, x9, #0x3
	mov	x8, xzr
	orr	x9, x9, x10
	mov	w10, #1
	str	x19, [sp, #17568]
	stur	q0, [x13, #88]
	str	x7, [sp, #17576]
	str	x26, [sp, #17584]
	str	x14, [sp, #17592]
	str	x6, [sp, #17600]
	str	x5, [sp, #17608]
	str	x4, [sp, #17616]
	str	x1, [sp, #17624]
	str	x2, [sp, #17632]
	str	x0, [sp, #17640]
	stur	q1, [x13, #104]
	str	x17, [sp, #17648]
	str	x15, [sp, #17688]
	str	x16, [sp, #17696]
	str	x18, [sp, #17704]
	str	x3, [sp, #17712]
.LBB5_251:
	add	x11, sp, #4, lsl #12
	add	x11, x11, #1184
	add	x11, x11, x8, lsl #3
	ldr	x12, [x11, #24]
	ldr	x11, [x11, #56]
	mul	x11, x11, x12
	subs	x10, x10, x11
	b.lo	.LBB5_254
	add	x8, x8, #1
	cmp	x26, x8
	b.ne	.LBB5_251
	mov	x8, x26
.LBB5_254:
	ldr	q0, [sp, #17536]
	ldr	q1, [sp, #17552]
	mov	x10, xzr
	str	x19, [sp, #17568]
	stur	q0, [x13, #88]
	str	x7, [sp, #17576]
	str	x26, [sp, #17584]
	str	x14, [sp, #17592]
	str	x6, [sp, #17600]
	str	x5, [sp, #17608]
	str	x4, [sp, #17616]
	str	x1, [sp, #17624]
	str	x2, [sp, #17632]
	str	x0, [sp, #17640]
	stur	q1, [x13, #104]
	str	x17, [sp, #17648]
	str	x15, [sp, #17688]
	str	x16, [sp, #17696]
	str	x18, [sp, #17704]
	str	x3, [sp, #17712]
	str	x21, [sp, #224]
.LBB5_255:
	add	x11, sp, #4, lsl #12
	add	x11, x11, #1184
	add	x11, x11, x10, lsl #3
	ldr	x12, [x11, #24]
	ldr	x11, [x11, #56]
	mul	x11, x11, x12
	cbnz	x11, .LBB5_258
	add	x10, x10, #1
	cmp	x26, x10
	b.ne	.LBB5_255
	mov	x10, x26
.LBB5_258:
	stp	x24, x20, [sp, #184]
	add	x0, sp, #4, lsl #12
	mov	w1, wzr
	stp	x20, x24, [x29, #-160]
	lsl	x24, x9, #4
	add	x0, x0, #1184
	mov	w2, #8192
	mov	x27, x30
	stp	x30, x25, [x29, #-144]
	bfi	x24, x8, #2, #2
	ldr	x8, [sp, #248]
	mov	x28, x25
	mov	x25, x22
	stp	x22, x8, [x29, #-128]
	ldr	x8, [sp, #240]
	bfxil	x24, x10, #0, #2
	stur	x8, [x29, #-112]
	ldr	x8, [sp, #232]
	stur	x8, [x29, #-104]
	bl	memset
	ldr	x8, [sp, #200]
	subs	x21, x8, #16
	b.hs	.LBB5_270
.LBB5_259:
	add	x1, sp, #4, lsl #12
	add	x0, sp, #1152
	mov	w2, #8192
	add	x1, x1, #1184
	bl	memcpy
	add	x0, sp, #2, lsl #12
	add	x1, sp, #1152
	mov	w2, #8192
	add	x0, x0, #1152
	bl	memcpy
	ldr	x8, [sp, #200]
	str	x28, [sp, #1056]
	movi	v0.2d, #0000000000000000
	ldr	x9, [sp, #152]
	ldr	x16, [sp, #32]
	str	x23, [sp, #992]
	str	x8, [sp, #1008]
	ldr	x8, [sp, #192]
	str	x9, [sp, #1000]
	str	x8, [sp, #1016]
	ldr	x8, [sp, #240]
	str	x27, [sp, #1024]
	str	x8, [sp, #1040]
	ldr	x8, [sp, #184]
	str	x25, [sp, #1032]
	str	x8, [sp, #1048]
	ldr	x8, [sp, #248]
	str	x24, [sp, #1112]
	str	x8, [sp, #1064]
	ldp	x28, x8, [sp, #224]
	str	x16, [sp, #1120]
	stur	xzr, [x29, #-224]
	str	x8, [sp, #1072]
	ldr	x8, [sp, #176]
	stp	q0, q0, [x29, #-256]
	str	x8, [sp, #1080]
	ldr	x8, [sp, #120]
	str	x8, [sp, #1088]
	ldr	x8, [sp, #96]
	str	x8, [sp, #1096]
	ldr	x8, [sp, #80]
	str	x8, [sp, #1104]
	ldr	x8, [sp, #56]
	str	x8, [sp, #1128]
	ldp	x8, x19, [sp, #136]
	cmp	x8, x28, lsr #2
	str	x8, [sp, #1136]
	b.hi	.LBB5_265
	lsr	x8, x28, #1
	ldr	x10, [sp, #136]
	sub	x8, x8, x10, lsl #1
	ldr	x10, [sp, #24]
	cmp	x10, x8
	b.hi	.LBB5_265
	cmp	x26, #4
	b.hi	.LBB5_265
	mov	w8, #1
	add	x10, sp, #2, lsl #12
	add	x27, sp, #992
	orr	x8, x8, x26, lsl #1
	add	x10, x10, #1152
.LBB5_263:
	subs	x8, x8, #1
	b.eq	.LBB5_290
	ldr	w11, [x10]
	add	x10, x10, #1024
	cbnz	w11, .LBB5_263
.LBB5_265:
	add	x0, sp, #4, lsl #12
	add	x1, sp, #992
	add	x2, sp, #1152
	add	x0, x0, #1184
	sub	x3, x29, #17
	mov	x4, xzr
	str	xzr, [sp, #17600]
	str	q0, [sp, #17584]
	str	q0, [sp, #17568]
	bl	"jpeg_write_scan::run::<#c44e4da361dd472c>"
	add	x9, sp, #4, lsl #12
	ldr	x10, [sp, #17576]
	add	x9, x9, #1184
	ldrb	w8, [x9]
	cbz	w8, .LBB5_287
	ldrb	w21, [x9, #16]
	ldr	x26, [sp, #17592]
	ldr	x18, [sp, #17600]
.LBB5_267:
	ldp	x8, x5, [sp, #160]
.LBB5_268:
	tst	x10, #0xff
	b.ne	.LBB5_167
	mov	w21, wzr
	mov	x26, xzr
	mov	x18, xzr
	mov	w9, #9
	b	.LBB5_168
.LBB5_270:
	mov	x22, xzr
	b	.LBB5_272
.LBB5_271:
	add	x22, x22, #1
	cmp	x22, #8
	b.eq	.LBB5_259
.LBB5_272:
	add	x9, sp, #4, lsl #12
	sub	x8, x29, #160
	mov	w1, wzr
	add	x9, x9, #1184
	ldr	x19, [x8, x22, lsl #3]
	mov	w2, #1024
	add	x20, x9, x22, lsl #10
	mov	x0, x20
	bl	memset
	cmp	x19, x21
	b.hi	.LBB5_271
	mov	x13, xzr
	add	x8, x19, #16
	add	x9, x23, x19
	mov	w10, #1
	b	.LBB5_275
.LBB5_274:
	add	x10, x10, #1
	mov	x13, x11
	cmp	x10, #17
	b.eq	.LBB5_271
.LBB5_275:
	add	x11, x9, x10
	ldurb	w14, [x11, #-1]
	lsl	x11, x13, #1
	cbz	w14, .LBB5_274
	mov	x12, #-1
	ldr	x16, [sp, #200]
	add	w13, w14, w13, lsl #1
	lsl	x15, x12, x10
	lsl	x12, x10, #16
	cmp	x8, x16
	mvn	x14, x15
	csel	x15, x8, x16, hi
	b	.LBB5_278
.LBB5_277:
	add	x11, x11, #1
	and	w16, w13, #0xff
	add	x8, x8, #1
	cmp	w16, w11, uxtb
	b.eq	.LBB5_274
.LBB5_278:
	cmp	x15, x8
	b.eq	.LBB5_271
	ldrb	w16, [x23, x8]
	ldr	w17, [x20, x16, lsl #2]
	cbnz	w17, .LBB5_277
	and	w17, w11, w14
	add	w17, w17, w12
	str	w17, [x20, x16, lsl #2]
	b	.LBB5_277
.LBB5_281:
	mov	w19, w11
	ldr	x15, [sp, #128]
	ldr	x11, [sp, #144]
	b	.LBB5_144
.LBB5_282:
	ldp	q0, q1, [sp, #896]
	cmp	x3, x21
	stp	q0, q1, [sp, #640]
	ldp	q0, q2, [sp, #864]
	stp	q0, q2, [sp, #608]
	ldp	q1, q0, [sp, #832]
	stp	q1, q0, [sp, #576]
	ldp	q0, q2, [sp, #800]
	stp	q0, q2, [sp, #544]
	b.lo	.LBB5_284
	cmp	x3, x26
	orr	w9, w9, w13
	cset	w11, lo
	orr	w9, w11, w9
	tbz	w9, #0, .LBB5_315
.LBB5_284:
	movi	v0.2d, #0000000000000000
	mov	x7, xzr
	mov	x6, xzr
	mov	x22, xzr
	mov	x2, xzr
	mov	x4, xzr
	mov	x16, xzr
	mov	x24, xzr
	mov	x30, xzr
	mov	x17, xzr
	mov	x20, xzr
	mov	x27, xzr
	mov	x14, xzr
	mov	x13, xzr
	mov	x3, xzr
	stp	xzr, xzr, [sp, #232]
	mov	x25, xzr
	mov	x10, xzr
	str	xzr, [sp, #248]
	mov	x23, xzr
	mov	x18, xzr
	str	xzr, [sp, #224]
	mov	x11, xzr
	mov	x12, xzr
	mov	w9, wzr
	mov	x26, xzr
	stp	q0, q0, [sp, #672]
	stp	q0, q0, [sp, #704]
	mov	w21, #5
.LBB5_285:
	stp	q0, q0, [sp, #736]
	stp	q0, q0, [sp, #768]
.LBB5_286:
	ldp	q0, q1, [sp, #768]
	mov	x19, x21
	mov	x21, x26
	mov	x26, x18
	mov	x18, x11
	ldr	x15, [sp, #128]
	ldr	x11, [sp, #144]
	stp	q0, q1, [sp, #352]
	ldp	q0, q2, [sp, #736]
	stp	q0, q2, [sp, #320]
	ldp	q1, q0, [sp, #704]
	stp	q1, q0, [sp, #288]
	ldp	q0, q2, [sp, #672]
	stp	q0, q2, [sp, #256]
	b	.LBB5_145
.LBB5_287:
	ldp	x8, x5, [sp, #160]
	cmp	x28, x10
	ldr	x20, [sp, #200]
	b.lo	.LBB5_325
.LBB5_288:
	ldr	x8, [sp, #64]
	ldr	x9, [sp, #16]
	sub	x0, x29, #256
	add	x1, sp, #992
	add	x2, sp, #1152
	mov	x4, x28
	add	x3, x8, x9
	bl	"jpeg_write_scan::run::<#c44e4da361dd472c>"
	sub	x9, x29, #256
	ldur	x10, [x29, #-248]
	ldrb	w8, [x9]
	cbz	w8, .LBB5_324
	ldp	x26, x18, [x29, #-232]
	ldrb	w21, [x9, #16]
	b	.LBB5_267
.LBB5_290:
	cbz	x16, .LBB5_349
	ldr	x10, [sp, #136]
	udiv	x8, x10, x16
	msub	x10, x8, x16, x10
	cmp	x10, #0
	cinc	x17, x8, ne
	ldp	x8, x5, [sp, #160]
	cbz	x17, .LBB5_317
	movi	v2.2d, #0000000000000000
	movi	v0.2d, #0000000000000000
	ldr	x13, [sp, #56]
	add	x15, sp, #4, lsl #12
	ldr	x18, [sp, #200]
	mov	x0, xzr
	sub	x13, x13, #1
	mov	x26, xzr
	mov	x11, xzr
	mov	x12, xzr
	mov	x10, xzr
	add	x15, x15, #1184
	stp	x13, x17, [sp, #184]
	neg	x13, x9
	str	x13, [sp, #176]
	b	.LBB5_295
.LBB5_293:
	movi	v2.2d, #0000000000000000
	ldp	x26, x0, [sp, #232]
	ldp	x8, x5, [sp, #160]
	add	x15, sp, #4, lsl #12
	ldp	x19, x9, [sp, #144]
	mov	x18, x20
	ldr	q0, [sp, #896]
	ldr	x16, [sp, #32]
	add	x15, x15, #1184
	ldr	x17, [sp, #192]
.LBB5_294:
	add	x0, x0, #1
	lsr	x12, x10, #8
	and	x11, x10, #0xffffffffffff0000
	cmp	x0, x17
	b.hs	.LBB5_341
.LBB5_295:
	ldur	q1, [x27, #72]
	ldr	x13, [sp, #200]
	ubfiz	x12, x12, #8, #8
	ldr	x14, [sp, #56]
	stp	q2, q2, [x29, #-208]
	stur	q1, [x15, #72]
	ldur	q1, [x27, #88]
	str	x13, [sp, #17584]
	ldur	x13, [x27, #120]
	stur	q1, [x15, #88]
	ldur	q1, [x27, #104]
	stur	x13, [x15, #120]
	orr	x13, x12, x11
	ldr	x11, [sp, #136]
	stur	q1, [x15, #104]
	ldur	q1, [x27, #24]
	and	x12, x10, #0xff
	cmp	x11, x26
	orr	x10, x13, x12
	stur	xzr, [x29, #-176]
	stur	q1, [x15, #24]
	ldur	q1, [x27, #40]
	str	x23, [sp, #17568]
	stur	q1, [x15, #40]
	ldur	q1, [x27, #56]
	str	x9, [sp, #17576]
	stur	q1, [x15, #56]
	str	x16, [sp, #17696]
	str	x14, [sp, #17704]
	str	x11, [sp, #17712]
	b.ls	.LBB5_294
	ldr	x11, [sp, #40]
	cbz	x14, .LBB5_305
	cbz	x0, .LBB5_305
	ldr	x15, [sp, #56]
	mov	x20, x18
	udiv	x14, x0, x15
	msub	x15, x14, x15, x0
	cbnz	x15, .LBB5_306
	sub	w10, w14, #1
	mov	w14, #208
	ldr	x1, [sp, #184]
	ubfx	x15, x13, #8, #8
	bfxil	x14, x10, #0, #3
	mov	w10, #208
	cmp	x1, x0
	mov	w21, #3
	csel	x10, x14, x10, lo
	cmp	w15, #8
	b.hi	.LBB5_314
	lsr	x13, x13, #8
	mov	x14, #-1
	lsl	x13, x14, x13
	ldr	x14, [sp, #144]
	orr	x12, x13, x12
	cmn	x12, #1
	b.ne	.LBB5_314
	cmp	x18, x9
	b.hs	.LBB5_314
	ldr	x13, [sp, #176]
	mov	x12, xzr
	add	x11, x11, x14
	add	x13, x13, x18
.LBB5_303:
	ldrb	w14, [x11, x18]
	cmp	x14, #255
	b.ne	.LBB5_309
	sub	x12, x12, #1
	add	x11, x11, #1
	cmp	x13, x12
	b.ne	.LBB5_303
	b	.LBB5_323
.LBB5_305:
	mov	x20, x18
.LBB5_306:
	ldr	x8, [sp, #136]
	ldr	x21, [sp, #17688]
	mov	x25, xzr
	stp	x0, x18, [sp, #240]
	subs	x8, x8, x26
	str	q0, [sp, #896]
	csel	x8, xzr, x8, lo
	cmp	x8, x16
	csel	x8, x8, x16, lo
	add	x9, x8, x26
	neg	x19, x8
	str	x9, [sp, #232]
.LBB5_307:
	add	x8, sp, #896
	add	x1, sp, #4, lsl #12
	sub	x0, x29, #208
	bfi	x8, x21, #2, #2
	add	x1, x1, #1184
	and	x2, x21, #0x3
	add	x3, sp, #864
	sub	x5, x29, #160
	str	x20, [sp, #864]
	ldr	w4, [x8]
	and	x24, x21, #0x3
	str	x10, [sp, #872]
	add	x22, sp, #896
	bl	"jpeg_engine::PlainEngine::block"
	sub	x9, x29, #256
	ldrb	w8, [x9, #48]
	cbnz	w8, .LBB5_313
	ldp	x10, x8, [x29, #-192]
	orr	x9, x22, x24, lsl #2
	sub	x25, x25, #1
	ldur	x20, [x29, #-200]
	lsr	x21, x21, #2
	cmp	x19, x25
	str	w8, [x9]
	b.ne	.LBB5_307
	b	.LBB5_293
.LBB5_309:
	mov	w21, #3
	cbz	x12, .LBB5_314
	sub	x11, x18, x12
	cmp	x9, x11
	b.ls	.LBB5_314
	cmp	x10, x14
	b.ne	.LBB5_314
	movi	v0.2d, #0000000000000000
	mov	x10, xzr
	add	x20, x11, #1
	b	.LBB5_306
.LBB5_313:
	ldr	x18, [sp, #248]
	ldp	x8, x5, [sp, #160]
	ldrb	w21, [x9, #49]
	cmp	x25, #0
	sub	x26, x26, x25
	csel	x18, x18, x20, eq
.LBB5_314:
	mov	w10, #1
	b	.LBB5_268
.LBB5_315:
	subs	x11, x5, x14
	b.hs	.LBB5_334
	movi	v0.2d, #0000000000000000
	mov	x7, xzr
	mov	x6, xzr
	mov	x22, xzr
	mov	x2, xzr
	mov	x4, xzr
	mov	x16, xzr
	mov	x24, xzr
	mov	x30, xzr
	mov	x17, xzr
	mov	x20, xzr
	mov	x27, xzr
	mov	x14, xzr
	mov	x13, xzr
	mov	x3, xzr
	mov	x25, xzr
	mov	x10, xzr
	mov	x23, xzr
	mov	x18, xzr
	mov	x11, xzr
	mov	x12, xzr
	mov	w9, wzr
	mov	x26, xzr
	mov	w21, #6
	stp	xzr, xzr, [sp, #232]
	str	xzr, [sp, #248]
	str	xzr, [sp, #224]
	stp	q0, q0, [sp, #672]
	stp	q0, q0, [sp, #704]
	b	.LBB5_285
.LBB5_317:
	ldr	x18, [sp, #200]
	mov	x12, xzr
	mov	w11, wzr
	mov	x26, xzr
	cmp	w11, #8
	mov	w21, #3
	mov	w10, #1
	b.hi	.LBB5_268
.LBB5_318:
	mov	x13, #-1
	lsl	x11, x13, x11
	orr	x11, x11, x12
	cmn	x11, #1
	b.ne	.LBB5_268
	cmp	x18, x9
	b.hs	.LBB5_268
	mov	x12, xzr
	mov	x11, x9
.LBB5_321:
	ldrb	w13, [x23, x18]
	cmp	w13, #255
	b.ne	.LBB5_335
	sub	x11, x11, #1
	add	x23, x23, #1
	sub	x12, x12, #1
	cmp	x18, x11
	b.ne	.LBB5_321
.LBB5_323:
	mov	w21, #3
	mov	w10, #1
	b	.LBB5_268
.LBB5_324:
	ldp	x8, x5, [sp, #160]
.LBB5_325:
	add	x9, x10, x20
	ldr	x10, [sp, #216]
	cmp	x10, x9
	ldp	x10, x11, [sp, #40]
	b.hs	.LBB5_327
	mov	x10, xzr
	mov	x11, xzr
	mov	w12, #7
	b	.LBB5_182
.LBB5_327:
	cbz	x20, .LBB5_333
	cmp	x20, #8
	b.lo	.LBB5_330
	ldr	x12, [sp, #128]
	add	x13, x19, x10
	add	x12, x12, x11
	sub	x12, x12, x13
	cmp	x12, #32
	b.hs	.LBB5_339
.LBB5_330:
	mov	x12, xzr
.LBB5_331:
	ldr	x13, [sp, #128]
	add	x14, x19, x12
	add	x10, x10, x14
	add	x13, x13, x12
	sub	x12, x20, x12
	add	x11, x11, x13
.LBB5_332:
	ldrb	w13, [x10], #1
	subs	x12, x12, #1
	strb	w13, [x11], #1
	b.ne	.LBB5_332
.LBB5_333:
	mov	x10, xzr
	mov	x11, xzr
	mov	x12, xzr
	b	.LBB5_182
.LBB5_334:
	ldp	q0, q1, [sp, #640]
	mov	x5, x11
	ldp	x13, x12, [sp, #184]
	mov	w9, #1
	ldp	x11, x3, [sp, #168]
	ldr	x14, [sp, #200]
	stp	q0, q1, [sp, #768]
	ldp	q0, q2, [sp, #608]
	stp	q0, q2, [sp, #736]
	ldp	q1, q0, [sp, #576]
	stp	q1, q0, [sp, #704]
	ldp	q0, q2, [sp, #544]
	stp	q0, q2, [sp, #672]
	b	.LBB5_286
.LBB5_335:
	mov	w21, #3
	mov	w10, #1
	cbz	x12, .LBB5_268
	sub	x12, x18, x12
	cmp	x9, x12
	b.ls	.LBB5_268
	cmp	w13, #217
	mov	w21, #3
	mov	w10, #1
	b.ne	.LBB5_268
	add	x9, x18, #1
	ldr	x20, [sp, #200]
	cmp	x9, x11
	b.eq	.LBB5_288
	b	.LBB5_268
.LBB5_339:
	cmp	x20, #32
	b.hs	.LBB5_342
	mov	x12, xzr
	b	.LBB5_346
.LBB5_341:
	ubfx	w11, w10, #8, #8
	and	x12, x10, #0xff
	cmp	w11, #8
	mov	w21, #3
	mov	w10, #1
	b.ls	.LBB5_318
	b	.LBB5_268
.LBB5_342:
	ldr	x14, [sp, #128]
	add	x15, x19, x10
	and	x13, x20, #0x18
	and	x12, x20, #0xffffffffffffffe0
	add	x15, x15, #16
	and	x16, x20, #0xffffffffffffffe0
	add	x14, x14, x11
	add	x14, x14, #16
.LBB5_343:
	ldp	q0, q1, [x15, #-16]
	subs	x16, x16, #32
	add	x15, x15, #32
	stp	q0, q1, [x14, #-16]
	add	x14, x14, #32
	b.ne	.LBB5_343
	cmp	x20, x12
	b.eq	.LBB5_333
	cbz	x13, .LBB5_331
.LBB5_346:
	ldr	x14, [sp, #128]
	mov	x13, x12
	and	x12, x20, #0xfffffffffffffff8
	add	x15, x19, x13
	add	x14, x14, x13
	sub	x13, x13, x12
	add	x15, x10, x15
	add	x14, x11, x14
.LBB5_347:
	ldr	d0, [x15], #8
	adds	x13, x13, #8
	str	d0, [x14], #8
	b.ne	.LBB5_347
	cmp	x20, x12
	b.eq	.LBB5_333
	b	.LBB5_331
.LBB5_349:
	brk	#0x1
.Lfunc_end5:
	.size	tillsparrow_settle, .Lfunc_end5-tillsparrow_settle
	.section	.rodata.tillsparrow_settle,"a",@progbits
.LJTI5_0:
	.byte	(.LBB5_182-.LBB5_169)>>2
	.byte	(.LBB5_169-.LBB5_169)>>2
	.byte	(.LBB5_171-.LBB5_169)>>2
	.byte	(.LBB5_181-.LBB5_169)>>2
	.byte	(.LBB5_173-.LBB5_169)>>2
	.byte	(.LBB5_174-.LBB5_169)>>2
	.byte	(.LBB5_169-.LBB5_169)>>2
	.byte	(.LBB5_172-.LBB5_169)>>2
	.byte	(.LBB5_178-.LBB5_169)>>2
	.byte	(.LBB5_170-.LBB5_169)>>2
	.byte	(.LBB5_175-.LBB5_169)>>2

	.ident	"rattle logic=dac8208d650f15bf3e2dc313a14fa4c783a3acf887bdfab66e1714b038d9e11b"
	.section	".note.GNU-stack","",@progbits
