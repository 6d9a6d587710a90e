	.file	"rattle"
	.section	".text.std_io::io::error::Error::from_raw_os_error","ax",@progbits
	.p2align	2
	.type	"std_io::io::error::Error::from_raw_os_error",@function
"std_io::io::error::Error::from_raw_os_error":
	tbnz	w1, #31, .LBB0_4
	sub	w8, w1, #1
	cmp	w8, #121
	b.hi	.LBB0_4
	adrp	x9, .LJTI0_0
	add	x9, x9, :lo12:.LJTI0_0
	adr	x10, .LBB0_3
	ldrb	w11, [x9, x8]
	add	x10, x10, x11, lsl #2
	mov	w8, #1
	br	x10
.LBB0_3:
	mov	w8, #36
	b	.LBB0_5
.LBB0_4:
	mov	w8, #41
.LBB0_5:
	movi	v0.2d, #0000000000000000
	strb	wzr, [x0]
	strb	w8, [x0, #1]
	strh	wzr, [x0, #2]
	str	w1, [x0, #4]
	stur	q0, [x0, #8]
	stur	q0, [x0, #24]
	stur	q0, [x0, #40]
	stur	q0, [x0, #56]
	stur	q0, [x0, #72]
	ret
.LBB0_6:
	mov	w8, #4
	b	.LBB0_5
.LBB0_7:
	mov	w8, #7
	b	.LBB0_5
.LBB0_8:
	mov	w8, #26
	b	.LBB0_5
.LBB0_9:
	mov	w8, #39
	b	.LBB0_5
.LBB0_10:
	mov	w8, #9
	b	.LBB0_5
.LBB0_11:
	mov	w8, #8
	b	.LBB0_5
.LBB0_12:
	mov	w8, #30
	b	.LBB0_5
.LBB0_13:
	mov	w8, #25
	b	.LBB0_5
.LBB0_14:
	mov	w8, #32
	b	.LBB0_5
.LBB0_15:
	mov	w8, #33
	b	.LBB0_5
.LBB0_16:
	mov	w8, #22
	b	.LBB0_5
.LBB0_17:
	mov	w8, #31
	b	.LBB0_5
.LBB0_18:
	mov	w8, #29
	b	.LBB0_5
.LBB0_19:
	mov	w8, #18
	b	.LBB0_5
.LBB0_20:
	mov	w8, #10
	b	.LBB0_5
.LBB0_21:
	mov	w8, #28
	b	.LBB0_5
.LBB0_22:
	mov	w8, #14
	b	.LBB0_5
.LBB0_23:
	mov	w8, #12
	b	.LBB0_5
.LBB0_24:
	mov	w8, #5
	b	.LBB0_5
.LBB0_25:
	mov	w8, #3
	b	.LBB0_5
.LBB0_26:
	mov	w8, wzr
	b	.LBB0_5
.LBB0_27:
	mov	w8, #13
	b	.LBB0_5
.LBB0_28:
	mov	w8, #38
	b	.LBB0_5
.LBB0_29:
	mov	w8, #11
	b	.LBB0_5
.LBB0_30:
	mov	w8, #35
	b	.LBB0_5
.LBB0_31:
	mov	w8, #34
	b	.LBB0_5
.LBB0_32:
	mov	w8, #20
	b	.LBB0_5
.LBB0_33:
	mov	w8, #15
	b	.LBB0_5
.LBB0_34:
	mov	w8, #19
	b	.LBB0_5
.LBB0_35:
	mov	w8, #16
	b	.LBB0_5
.LBB0_36:
	mov	w8, #6
	b	.LBB0_5
.LBB0_37:
	mov	w8, #27
	b	.LBB0_5
.LBB0_38:
	mov	w8, #24
	b	.LBB0_5
.LBB0_39:
	mov	w8, #2
	b	.LBB0_5
.LBB0_40:
	mov	w8, #17
	b	.LBB0_5
.Lfunc_end0:
	.size	"std_io::io::error::Error::from_raw_os_error", .Lfunc_end0-"std_io::io::error::Error::from_raw_os_error"
	.section	".rodata.std_io::io::error::Error::from_raw_os_error","a",@progbits
.LJTI0_0:
	.byte	(.LBB0_5-.LBB0_3)>>2
	.byte	(.LBB0_26-.LBB0_3)>>2
	.byte	(.LBB0_4-.LBB0_3)>>2
	.byte	(.LBB0_30-.LBB0_3)>>2
	.byte	(.LBB0_4-.LBB0_3)>>2
	.byte	(.LBB0_4-.LBB0_3)>>2
	.byte	(.LBB0_31-.LBB0_3)>>2
	.byte	(.LBB0_4-.LBB0_3)>>2
	.byte	(.LBB0_4-.LBB0_3)>>2
	.byte	(.LBB0_4-.LBB0_3)>>2
	.byte	(.LBB0_27-.LBB0_3)>>2
	.byte	(.LBB0_28-.LBB0_3)>>2
	.byte	(.LBB0_5-.LBB0_3)>>2
	.byte	(.LBB0_4-.LBB0_3)>>2
	.byte	(.LBB0_4-.LBB0_3)>>2
	.byte	(.LBB0_21-.LBB0_3)>>2
	.byte	(.LBB0_23-.LBB0_3)>>2
	.byte	(.LBB0_17-.LBB0_3)>>2
	.byte	(.LBB0_4-.LBB0_3)>>2
	.byte	(.LBB0_22-.LBB0_3)>>2
	.byte	(.LBB0_33-.LBB0_3)>>2
	.byte	(.LBB0_32-.LBB0_3)>>2
	.byte	(.LBB0_4-.LBB0_3)>>2
	.byte	(.LBB0_4-.LBB0_3)>>2
	.byte	(.LBB0_4-.LBB0_3)>>2
	.byte	(.LBB0_18-.LBB0_3)>>2
	.byte	(.LBB0_37-.LBB0_3)>>2
	.byte	(.LBB0_38-.LBB0_3)>>2
	.byte	(.LBB0_13-.LBB0_3)>>2
	.byte	(.LBB0_40-.LBB0_3)>>2
	.byte	(.LBB0_14-.LBB0_3)>>2
	.byte	(.LBB0_29-.LBB0_3)>>2
	.byte	(.LBB0_4-.LBB0_3)>>2
	.byte	(.LBB0_4-.LBB0_3)>>2
	.byte	(.LBB0_12-.LBB0_3)>>2
	.byte	(.LBB0_15-.LBB0_3)>>2
	.byte	(.LBB0_4-.LBB0_3)>>2
	.byte	(.LBB0_3-.LBB0_3)>>2
	.byte	(.LBB0_35-.LBB0_3)>>2
	.byte	(.LBB0_19-.LBB0_3)>>2
	.byte	(.LBB0_4-.LBB0_3)>>2
	.byte	(.LBB0_4-.LBB0_3)>>2
	.byte	(.LBB0_4-.LBB0_3)>>2
	.byte	(.LBB0_4-.LBB0_3)>>2
	.byte	(.LBB0_4-.LBB0_3)>>2
	.byte	(.LBB0_4-.LBB0_3)>>2
	.byte	(.LBB0_4-.LBB0_3)>>2
	.byte	(.LBB0_4-.LBB0_3)>>2
	.byte	(.LBB0_4-.LBB0_3)>>2
	.byte	(.LBB0_4-.LBB0_3)>>2
	.byte	(.LBB0_4-.LBB0_3)>>2
	.byte	(.LBB0_4-.LBB0_3)>>2
	.byte	(.LBB0_4-.LBB0_3)>>2
	.byte	(.LBB0_4-.LBB0_3)>>2
	.byte	(.LBB0_4-.LBB0_3)>>2
	.byte	(.LBB0_4-.LBB0_3)>>2
	.byte	(.LBB0_4-.LBB0_3)>>2
	.byte	(.LBB0_4-.LBB0_3)>>2
	.byte	(.LBB0_4-.LBB0_3)>>2
	.byte	(.LBB0_4-.LBB0_3)>>2
	.byte	(.LBB0_4-.LBB0_3)>>2
	.byte	(.LBB0_4-.LBB0_3)>>2
	.byte	(.LBB0_4-.LBB0_3)>>2
	.byte	(.LBB0_4-.LBB0_3)>>2
	.byte	(.LBB0_4-.LBB0_3)>>2
	.byte	(.LBB0_4-.LBB0_3)>>2
	.byte	(.LBB0_4-.LBB0_3)>>2
	.byte	(.LBB0_4-.LBB0_3)>>2
	.byte	(.LBB0_4-.LBB0_3)>>2
	.byte	(.LBB0_4-.LBB0_3)>>2
	.byte	(.LBB0_4-.LBB0_3)>>2
	.byte	(.LBB0_4-.LBB0_3)>>2
	.byte	(.LBB0_4-.LBB0_3)>>2
	.byte	(.LBB0_4-.LBB0_3)>>2
	.byte	(.LBB0_4-.LBB0_3)>>2
	.byte	(.LBB0_4-.LBB0_3)>>2
	.byte	(.LBB0_4-.LBB0_3)>>2
	.byte	(.LBB0_4-.LBB0_3)>>2
	.byte	(.LBB0_4-.LBB0_3)>>2
	.byte	(.LBB0_4-.LBB0_3)>>2
	.byte	(.LBB0_4-.LBB0_3)>>2
	.byte	(.LBB0_4-.LBB0_3)>>2
	.byte	(.LBB0_4-.LBB0_3)>>2
	.byte	(.LBB0_4-.LBB0_3)>>2
	.byte	(.LBB0_4-.LBB0_3)>>2
	.byte	(.LBB0_4-.LBB0_3)>>2
	.byte	(.LBB0_4-.LBB0_3)>>2
	.byte	(.LBB0_4-.LBB0_3)>>2
	.byte	(.LBB0_4-.LBB0_3)>>2
	.byte	(.LBB0_4-.LBB0_3)>>2
	.byte	(.LBB0_4-.LBB0_3)>>2
	.byte	(.LBB0_4-.LBB0_3)>>2
	.byte	(.LBB0_4-.LBB0_3)>>2
	.byte	(.LBB0_4-.LBB0_3)>>2
	.byte	(.LBB0_3-.LBB0_3)>>2
	.byte	(.LBB0_4-.LBB0_3)>>2
	.byte	(.LBB0_4-.LBB0_3)>>2
	.byte	(.LBB0_11-.LBB0_3)>>2
	.byte	(.LBB0_10-.LBB0_3)>>2
	.byte	(.LBB0_20-.LBB0_3)>>2
	.byte	(.LBB0_24-.LBB0_3)>>2
	.byte	(.LBB0_4-.LBB0_3)>>2
	.byte	(.LBB0_36-.LBB0_3)>>2
	.byte	(.LBB0_25-.LBB0_3)>>2
	.byte	(.LBB0_4-.LBB0_3)>>2
	.byte	(.LBB0_4-.LBB0_3)>>2
	.byte	(.LBB0_7-.LBB0_3)>>2
	.byte	(.LBB0_4-.LBB0_3)>>2
	.byte	(.LBB0_4-.LBB0_3)>>2
	.byte	(.LBB0_16-.LBB0_3)>>2
	.byte	(.LBB0_39-.LBB0_3)>>2
	.byte	(.LBB0_4-.LBB0_3)>>2
	.byte	(.LBB0_6-.LBB0_3)>>2
	.byte	(.LBB0_4-.LBB0_3)>>2
	.byte	(.LBB0_9-.LBB0_3)>>2
	.byte	(.LBB0_34-.LBB0_3)>>2
	.byte	(.LBB0_4-.LBB0_3)>>2
	.byte	(.LBB0_4-.LBB0_3)>>2
	.byte	(.LBB0_4-.LBB0_3)>>2
	.byte	(.LBB0_4-.LBB0_3)>>2
	.byte	(.LBB0_4-.LBB0_3)>>2
	.byte	(.LBB0_8-.LBB0_3)>>2

	.section	.rodata.cst16,"aM",@progbits,16
	.p2align	4, 0x0
.LCPI1_0:
	.xword	1
	.xword	3
.LCPI1_1:
	.xword	1
	.xword	4
	.section	".text.jpeg_header_state::frame","ax",@progbits
	.p2align	2
	.type	"jpeg_header_state::frame",@function
"jpeg_header_state::frame":
	stp	x29, x30, [sp, #-96]!
	str	x28, [sp, #16]
	mov	x29, sp
	stp	x26, x25, [sp, #32]
	stp	x24, x23, [sp, #48]
	stp	x22, x21, [sp, #64]
	stp	x20, x19, [sp, #80]
	sub	sp, sp, #576
	movi	v0.2d, #0000000000000000
	ldr	x8, [x3, #136]
	ldr	x19, [x3, #272]
	add	x20, sp, #160
	stp	q0, q0, [x20]
	stp	q0, q0, [x20, #32]
	stp	q0, q0, [x20, #64]
	cbz	x8, .LBB1_2
	adrp	x8, .LCPI1_0
	stp	q0, q0, [x0, #32]
	ldr	q1, [x8, :lo12:.LCPI1_0]
	stp	q1, q0, [x0]
	b	.LBB1_21
.LBB1_2:
	cmp	x2, #6
	b.lo	.LBB1_19
	ldrb	w8, [x1]
	cmp	w8, #8
	b.ne	.LBB1_19
	ldrb	w25, [x1, #5]
	sub	w8, w25, #1
	and	w8, w8, #0xff
	cmp	w8, #4
	b.hs	.LBB1_19
	add	x8, x25, x25, lsl #1
	add	x8, x8, #6
	cmp	x2, x8
	b.ne	.LBB1_23
	mov	x26, x0
	add	x0, sp, #264
	mov	x22, x3
	mov	x21, x4
	mov	x23, x1
	mov	x24, x2
	bl	"jpeg_header_rules::frame_of"
	ldr	x9, [sp, #264]
	mov	x8, x26
	cbz	x9, .LBB1_119
	ldr	x9, [sp, #272]
	cbz	x9, .LBB1_119
	cbz	w25, .LBB1_26
	mov	x9, x24
	sub	w9, w9, #5
	and	w10, w9, #0xff
	mov	w9, #171
	mul	w9, w10, w9
	cmp	w10, #3
	lsr	w9, w9, #9
	b.lo	.LBB1_25
	ldrb	w10, [x23, #7]
	lsr	x11, x10, #4
	sub	x11, x11, #1
	cmp	x11, #3
	b.hi	.LBB1_24
	and	x10, x10, #0xf
	sub	x10, x10, #1
	cmp	x10, #3
	b.hi	.LBB1_24
	cmp	w25, #1
	b.eq	.LBB1_26
	mov	x10, x24
	sub	w10, w10, #8
	and	w10, w10, #0xff
	cmp	w10, #3
	b.lo	.LBB1_25
	ldrb	w10, [x23, #10]
	lsr	x11, x10, #4
	sub	x11, x11, #1
	cmp	x11, #3
	b.hi	.LBB1_88
	and	x10, x10, #0xf
	sub	x10, x10, #1
	cmp	x10, #3
	b.hi	.LBB1_88
	cmp	w25, #2
	b.eq	.LBB1_26
	sub	w8, w24, #11
	and	w8, w8, #0xff
	cmp	w8, #3
	b.hs	.LBB1_120
	mov	x8, x26
	b	.LBB1_25
.LBB1_19:
	adrp	x8, .LCPI1_1
	ldr	q1, [x8, :lo12:.LCPI1_1]
.LBB1_20:
	stp	q1, q0, [x0]
	stp	q0, q0, [x0, #32]
.LBB1_21:
	stp	q0, q0, [x0, #64]
	stp	q0, q0, [x0, #96]
	stp	q0, q0, [x0, #128]
	stp	q0, q0, [x0, #160]
	stp	q0, q0, [x0, #192]
	stp	q0, q0, [x0, #224]
	stp	q0, q0, [x0, #256]
	stp	q0, q0, [x0, #288]
	stp	q0, q0, [x0, #320]
	stp	q0, q0, [x0, #352]
.LBB1_22:
	add	sp, sp, #576
	ldp	x20, x19, [sp, #80]
	ldr	x28, [sp, #16]
	ldp	x22, x21, [sp, #64]
	ldp	x24, x23, [sp, #48]
	ldp	x26, x25, [sp, #32]
	ldp	x29, x30, [sp], #96
	ret
.LBB1_23:
	adrp	x8, .LCPI1_0
	ldr	q1, [x8, :lo12:.LCPI1_0]
	b	.LBB1_20
.LBB1_24:
	mov	w9, wzr
.LBB1_25:
	cmp	w9, w25
	b.lo	.LBB1_119
.LBB1_26:
	ldr	x9, [sp, #280]
	mov	x10, xzr
	cbz	x9, .LBB1_34
	ldr	x11, [sp, #384]
	cmp	x11, #3
	b.hi	.LBB1_34
	cmp	x9, #1
	mov	w10, #1
	b.eq	.LBB1_34
	ldr	x11, [sp, #392]
	cmp	x11, #3
	b.hi	.LBB1_34
	cmp	x9, #2
	mov	w10, #2
	b.eq	.LBB1_34
	ldr	x11, [sp, #400]
	cmp	x11, #3
	b.hi	.LBB1_34
	cmp	x9, #3
	mov	w10, #3
	b.eq	.LBB1_34
	ldr	x11, [sp, #408]
	cmp	x11, #4
	b.lo	.LBB1_35
.LBB1_34:
	cmp	x10, x9
	b.lo	.LBB1_119
.LBB1_35:
	add	x9, sp, #105
	ldr	x10, [sp, #408]
	mov	w11, #4
	ldur	q0, [x9, #255]
	add	x9, sp, #121
	mov	x2, x24
	ldur	q1, [x9, #255]
	add	x9, sp, #137
	stur	x10, [x29, #-16]
	ldur	q2, [x9, #255]
	add	x9, sp, #41
	mov	x1, x23
	stp	q0, q1, [x20, #352]
	ldur	q0, [x9, #255]
	add	x9, sp, #57
	ldur	q1, [x9, #255]
	add	x9, sp, #73
	str	q2, [x20, #384]
	ldur	q2, [x9, #255]
	add	x9, sp, #89
	stp	q0, q1, [x20, #288]
	ldur	q0, [x9, #255]
	add	x9, sp, #25
	ldur	q1, [x9, #255]
	add	x9, sp, #9
	stp	q2, q0, [x20, #320]
	ldur	q0, [x9, #255]
	stp	q0, q1, [x20, #256]
	ldur	x9, [x29, #-144]
	cmp	x9, #4
	csel	x10, x9, x11, lo
	cbz	x9, .LBB1_108
	sub	x11, x10, #1
	sub	x13, x29, #160
	cmp	x11, #4
	b.lo	.LBB1_47
	ldur	x14, [x29, #-72]
	mov	x17, xzr
	and	x12, x11, #0xfffffffffffffffc
	add	x15, x13, #120
	sub	x16, x10, #1
	b	.LBB1_41
.LBB1_38:
	orr	x17, x17, #0x1
.LBB1_39:
	cmp	x17, x18
	b.lo	.LBB1_119
.LBB1_40:
	sub	x16, x16, #4
	add	x15, x15, #32
	mov	x17, x18
	cmp	x16, #3
	b.ls	.LBB1_48
.LBB1_41:
	cmn	x17, #4
	add	x18, x17, #4
	b.eq	.LBB1_40
	ldur	x0, [x15, #-24]
	cmp	x0, x14
	b.eq	.LBB1_39
	ldur	x0, [x15, #-16]
	cmp	x0, x14
	b.eq	.LBB1_38
	ldur	x0, [x15, #-8]
	cmp	x0, x14
	b.ne	.LBB1_46
	orr	x17, x17, #0x2
	b	.LBB1_39
.LBB1_46:
	ldr	x0, [x15]
	add	x17, x17, #3
	cmp	x0, x14
	csel	x17, x17, x18, eq
	b	.LBB1_39
.LBB1_47:
	mov	x12, xzr
.LBB1_48:
	cmp	x12, x11
	b.hs	.LBB1_53
	ldur	x14, [x29, #-72]
	add	x13, x13, #96
.LBB1_50:
	ldr	x15, [x13, x12, lsl #3]
	cmp	x15, x14
	b.eq	.LBB1_52
	add	x12, x12, #1
	cmp	x11, x12
	b.ne	.LBB1_50
	b	.LBB1_53
.LBB1_52:
	cmp	x12, x11
	b.lo	.LBB1_119
.LBB1_53:
	cmp	x9, #1
	b.eq	.LBB1_108
	sub	x11, x10, #2
	sub	x13, x29, #160
	cmp	x11, #4
	b.lo	.LBB1_65
	ldur	x14, [x29, #-64]
	mov	x17, xzr
	and	x12, x11, #0xfffffffffffffffc
	add	x15, x13, #128
	sub	x16, x10, #2
	b	.LBB1_59
.LBB1_56:
	orr	x17, x17, #0x1
.LBB1_57:
	cmp	x17, x18
	b.lo	.LBB1_119
.LBB1_58:
	sub	x16, x16, #4
	add	x15, x15, #32
	mov	x17, x18
	cmp	x16, #3
	b.ls	.LBB1_66
.LBB1_59:
	cmn	x17, #4
	add	x18, x17, #4
	b.eq	.LBB1_58
	ldur	x0, [x15, #-24]
	cmp	x0, x14
	b.eq	.LBB1_57
	ldur	x0, [x15, #-16]
	cmp	x0, x14
	b.eq	.LBB1_56
	ldur	x0, [x15, #-8]
	cmp	x0, x14
	b.ne	.LBB1_64
	orr	x17, x17, #0x2
	b	.LBB1_57
.LBB1_64:
	ldr	x0, [x15]
	add	x17, x17, #3
	cmp	x0, x14
	csel	x17, x17, x18, eq
	b	.LBB1_57
.LBB1_65:
	mov	x12, xzr
.LBB1_66:
	cmp	x12, x11
	b.hs	.LBB1_71
	ldur	x14, [x29, #-64]
	add	x13, x13, #104
.LBB1_68:
	ldr	x15, [x13, x12, lsl #3]
	cmp	x15, x14
	b.eq	.LBB1_70
	add	x12, x12, #1
	cmp	x11, x12
	b.ne	.LBB1_68
	b	.LBB1_71
.LBB1_70:
	cmp	x12, x11
	b.lo	.LBB1_119
.LBB1_71:
	cmp	x9, #2
	b.eq	.LBB1_108
	sub	x11, x10, #3
	sub	x13, x29, #160
	cmp	x11, #4
	b.lo	.LBB1_83
	ldur	x14, [x29, #-56]
	mov	x17, xzr
	and	x12, x11, #0xfffffffffffffffc
	add	x15, x13, #136
	sub	x16, x10, #3
	b	.LBB1_77
.LBB1_74:
	orr	x17, x17, #0x1
.LBB1_75:
	cmp	x17, x18
	b.lo	.LBB1_119
.LBB1_76:
	sub	x16, x16, #4
	add	x15, x15, #32
	mov	x17, x18
	cmp	x16, #3
	b.ls	.LBB1_84
.LBB1_77:
	cmn	x17, #4
	add	x18, x17, #4
	b.eq	.LBB1_76
	ldur	x0, [x15, #-24]
	cmp	x0, x14
	b.eq	.LBB1_75
	ldur	x0, [x15, #-16]
	cmp	x0, x14
	b.eq	.LBB1_74
	ldur	x0, [x15, #-8]
	cmp	x0, x14
	b.ne	.LBB1_82
	orr	x17, x17, #0x2
	b	.LBB1_75
.LBB1_82:
	ldr	x0, [x15]
	add	x17, x17, #3
	cmp	x0, x14
	csel	x17, x17, x18, eq
	b	.LBB1_75
.LBB1_83:
	mov	x12, xzr
.LBB1_84:
	cmp	x12, x11
	b.hs	.LBB1_90
	ldur	x14, [x29, #-56]
	add	x13, x13, #112
.LBB1_86:
	ldr	x15, [x13, x12, lsl #3]
	cmp	x15, x14
	b.eq	.LBB1_89
	add	x12, x12, #1
	cmp	x11, x12
	b.ne	.LBB1_86
	b	.LBB1_90
.LBB1_88:
	mov	w9, #1
	b	.LBB1_25
.LBB1_89:
	cmp	x12, x11
	b.lo	.LBB1_119
.LBB1_90:
	cmp	x9, #3
	b.eq	.LBB1_108
	sub	x9, x10, #4
	sub	x11, x29, #160
	cmp	x9, #4
	b.lo	.LBB1_102
	ldur	x12, [x29, #-48]
	mov	x15, xzr
	and	x10, x9, #0xfffffffffffffffc
	add	x13, x11, #144
	mov	x14, x9
	b	.LBB1_96
.LBB1_93:
	orr	x15, x15, #0x1
.LBB1_94:
	cmp	x15, x16
	b.lo	.LBB1_119
.LBB1_95:
	sub	x14, x14, #4
	add	x13, x13, #32
	mov	x15, x16
	cmp	x14, #3
	b.ls	.LBB1_103
.LBB1_96:
	cmn	x15, #4
	add	x16, x15, #4
	b.eq	.LBB1_95
	ldur	x17, [x13, #-24]
	cmp	x17, x12
	b.eq	.LBB1_94
	ldur	x17, [x13, #-16]
	cmp	x17, x12
	b.eq	.LBB1_93
	ldur	x17, [x13, #-8]
	cmp	x17, x12
	b.ne	.LBB1_101
	orr	x15, x15, #0x2
	b	.LBB1_94
.LBB1_101:
	ldr	x17, [x13]
	add	x15, x15, #3
	cmp	x17, x12
	csel	x15, x15, x16, eq
	b	.LBB1_94
.LBB1_102:
	mov	x10, xzr
.LBB1_103:
	cmp	x10, x9
	b.hs	.LBB1_108
	ldur	x12, [x29, #-48]
	add	x11, x11, #120
.LBB1_105:
	ldr	x13, [x11, x10, lsl #3]
	cmp	x13, x12
	b.eq	.LBB1_107
	add	x10, x10, #1
	cmp	x9, x10
	b.ne	.LBB1_105
	b	.LBB1_108
.LBB1_107:
	cmp	x10, x9
	b.lo	.LBB1_119
.LBB1_108:
	ldr	x10, [sp, #280]
	sub	x9, x10, #1
	cmp	x9, #3
	b.hi	.LBB1_119
	ldr	x9, [sp, #288]
	ldr	x11, [sp, #320]
	sub	x12, x9, #1
	sub	x13, x11, #1
	orr	x12, x13, x12
	cmp	x12, #3
	b.hi	.LBB1_119
	mul	x9, x11, x9
	cmp	x10, #1
	b.ne	.LBB1_113
.LBB1_111:
	cmp	x9, #11
	b.hs	.LBB1_119
	add	x0, sp, #8
	mov	x23, x8
	bl	"jpeg_header_rules::frame_of"
	ldur	q0, [x22, #56]
	ldur	q1, [x22, #72]
	add	x8, x23, #136
	ldur	q2, [x22, #24]
	ldur	q3, [x22, #40]
	ldur	q4, [x22, #88]
	stp	q0, q1, [x20, #32]
	ldur	q5, [x22, #104]
	stur	q0, [x23, #72]
	ldur	q0, [sp, #24]
	stur	q1, [x23, #88]
	ldur	q1, [sp, #8]
	stur	q0, [x23, #152]
	ldur	q0, [sp, #88]
	stp	q2, q3, [x20]
	stur	q0, [x23, #216]
	ldur	q0, [sp, #56]
	stur	q2, [x23, #40]
	ldur	q2, [sp, #72]
	stur	q0, [x23, #184]
	ldur	q0, [sp, #136]
	stur	q1, [x23, #136]
	ldur	q1, [sp, #40]
	str	q0, [x8, #128]
	movi	v0.2d, #0000000000000000
	ldr	x8, [sp, #152]
	stur	q2, [x23, #200]
	ldur	q2, [sp, #104]
	stur	q1, [x23, #168]
	ldur	q1, [sp, #120]
	stp	x8, x19, [x23, #280]
	add	x8, x23, #296
	stp	q4, q5, [x20, #64]
	stp	xzr, xzr, [x23]
	stp	xzr, xzr, [x23, #24]
	str	x21, [x23, #16]
	stur	q5, [x23, #120]
	stur	q4, [x23, #104]
	stur	q3, [x23, #56]
	stur	q1, [x23, #248]
	stur	q2, [x23, #232]
	stp	q0, q0, [x8]
	stp	q0, q0, [x8, #32]
	str	q0, [x8, #64]
	str	xzr, [x23, #376]
	b	.LBB1_22
.LBB1_113:
	ldr	x11, [sp, #296]
	ldr	x12, [sp, #328]
	sub	x13, x11, #1
	sub	x14, x12, #1
	orr	x13, x14, x13
	cmp	x13, #3
	b.hi	.LBB1_119
	madd	x9, x12, x11, x9
	cmp	x10, #2
	b.eq	.LBB1_111
	ldr	x11, [sp, #304]
	ldr	x12, [sp, #336]
	sub	x13, x11, #1
	sub	x14, x12, #1
	orr	x13, x14, x13
	cmp	x13, #3
	b.hi	.LBB1_119
	madd	x9, x12, x11, x9
	cmp	x10, #3
	b.eq	.LBB1_111
	ldr	x10, [sp, #312]
	ldr	x11, [sp, #344]
	sub	x12, x10, #1
	sub	x13, x11, #1
	orr	x12, x13, x12
	cmp	x12, #3
	b.hi	.LBB1_119
	madd	x9, x11, x10, x9
	b	.LBB1_111
.LBB1_119:
	movi	v0.2d, #0000000000000000
	adrp	x9, .LCPI1_1
	ldr	q1, [x9, :lo12:.LCPI1_1]
	stp	q1, q0, [x8]
	stp	q0, q0, [x8, #32]
	stp	q0, q0, [x8, #64]
	stp	q0, q0, [x8, #96]
	stp	q0, q0, [x8, #128]
	stp	q0, q0, [x8, #160]
	stp	q0, q0, [x8, #192]
	stp	q0, q0, [x8, #224]
	stp	q0, q0, [x8, #256]
	stp	q0, q0, [x8, #288]
	stp	q0, q0, [x8, #320]
	stp	q0, q0, [x8, #352]
	b	.LBB1_22
.LBB1_120:
	ldrb	w8, [x23, #13]
	lsr	x10, x8, #4
	sub	x10, x10, #1
	cmp	x10, #3
	b.hi	.LBB1_128
	and	x8, x8, #0xf
	sub	x8, x8, #1
	cmp	x8, #3
	b.hi	.LBB1_128
	cmp	w25, #3
	mov	x8, x26
	b.eq	.LBB1_26
	sub	w10, w24, #14
	and	w10, w10, #0xff
	cmp	w10, #3
	b.lo	.LBB1_25
	ldrb	w8, [x23, #16]
	lsr	x10, x8, #4
	sub	x10, x10, #1
	cmp	x10, #3
	b.hi	.LBB1_129
	and	x8, x8, #0xf
	sub	x8, x8, #1
	cmp	x8, #3
	b.hi	.LBB1_129
	cmp	w25, #4
	mov	x8, x26
	b.eq	.LBB1_26
	sub	w10, w24, #17
	and	w10, w10, #0xff
	cmp	w10, #3
	mov	w10, #4
	csel	w9, w9, w10, lo
	b	.LBB1_25
.LBB1_128:
	mov	w9, #2
	mov	x8, x26
	b	.LBB1_25
.LBB1_129:
	mov	w9, #3
	mov	x8, x26
	b	.LBB1_25
.Lfunc_end1:
	.size	"jpeg_header_state::frame", .Lfunc_end1-"jpeg_header_state::frame"

	.section	".text.jpeg_header_rules::frame_of","ax",@progbits
	.p2align	2
	.type	"jpeg_header_rules::frame_of",@function
"jpeg_header_rules::frame_of":
	ldrb	w8, [x1, #5]
	cbz	w8, .LBB2_5
	cmp	x2, #8
	b.lo	.LBB2_6
	ldrb	w18, [x1, #7]
	cmp	w8, #1
	b.eq	.LBB2_7
.LBB2_3:
	cmp	x2, #11
	b.lo	.LBB2_23
	ldrb	w17, [x1, #10]
	mov	x3, xzr
	cmp	w8, #3
	mov	w13, wzr
	b.hs	.LBB2_24
	b	.LBB2_9
.LBB2_5:
	mov	w13, wzr
	mov	x18, xzr
	b	.LBB2_8
.LBB2_6:
	mov	x18, xzr
	cmp	w8, #1
	b.ne	.LBB2_3
.LBB2_7:
	mov	w13, wzr
.LBB2_8:
	mov	x17, xzr
	mov	x3, xzr
.LBB2_9:
	str	x23, [sp, #-48]!
	ldrb	w9, [x1, #3]
	ldrb	w10, [x1, #4]
	cmp	w8, #1
	ldrb	w11, [x1, #1]
	ldrb	w12, [x1, #2]
	stp	x22, x21, [sp, #16]
	stp	x20, x19, [sp, #32]
	b.ne	.LBB2_14
	cmp	x2, #7
	b.lo	.LBB2_19
	ldrb	w3, [x1, #6]
	mov	x18, xzr
	mov	x15, xzr
	mov	x17, xzr
	mov	x14, xzr
	mov	x13, xzr
	mov	x16, xzr
	mov	x4, xzr
	mov	w6, #1
	mov	w5, #1
.LBB2_12:
	cmp	x2, #9
	mov	x7, xzr
	b.lo	.LBB2_20
	mov	w19, wzr
	b	.LBB2_38
.LBB2_14:
	mov	w15, w13
	lsr	x14, x17, #4
	lsr	x5, x18, #4
	lsr	x13, x15, #4
	lsr	x16, x3, #4
	mov	w21, wzr
	mov	x7, xzr
	and	x15, x15, #0xf
	and	x17, x17, #0xf
	and	x6, x18, #0xf
	and	x18, x3, #0xf
	cbz	w8, .LBB2_18
	cmp	x2, #6
	b.ls	.LBB2_18
	ldrb	w3, [x1, #6]
	cmp	x2, #10
	b.lo	.LBB2_33
	ldrb	w4, [x1, #9]
	cmp	w8, #3
	b.hs	.LBB2_34
	b	.LBB2_12
.LBB2_18:
	mov	x4, x7
	mov	x3, x7
	mov	x19, x7
	mov	x20, x7
	mov	x22, x7
	mov	x23, x7
	b	.LBB2_40
.LBB2_19:
	mov	x7, xzr
	mov	x4, xzr
	mov	x3, xzr
	mov	x19, xzr
	mov	x16, xzr
	mov	x13, xzr
	mov	x14, xzr
	mov	x17, xzr
	mov	x15, xzr
	mov	x18, xzr
	mov	w21, wzr
	mov	x20, xzr
	mov	x22, xzr
	mov	x23, xzr
	mov	w5, #1
	mov	w6, #1
	b	.LBB2_40
.LBB2_20:
	mov	x19, x7
	mov	x20, x7
	cmp	w8, #1
	b.eq	.LBB2_39
.LBB2_21:
	cmp	x2, #12
	b.lo	.LBB2_28
	ldrb	w22, [x1, #11]
	mov	x23, xzr
	cmp	w8, #3
	mov	w21, wzr
	b.hs	.LBB2_29
	b	.LBB2_40
.LBB2_23:
	mov	x17, xzr
	mov	x3, xzr
	cmp	w8, #3
	mov	w13, wzr
	b.lo	.LBB2_9
.LBB2_24:
	cmp	x2, #14
	b.lo	.LBB2_9
	ldrb	w13, [x1, #13]
	cmp	w8, #3
	mov	x3, xzr
	b.eq	.LBB2_9
	cmp	x2, #17
	b.lo	.LBB2_9
	ldrb	w3, [x1, #16]
	b	.LBB2_9
.LBB2_28:
	mov	x22, xzr
	mov	x23, xzr
	cmp	w8, #3
	mov	w21, wzr
	b.lo	.LBB2_40
.LBB2_29:
	cmp	x2, #15
	b.lo	.LBB2_40
	ldrb	w21, [x1, #14]
	cmp	w8, #3
	mov	x23, xzr
	b.eq	.LBB2_40
	cmp	x2, #18
	b.lo	.LBB2_40
	ldrb	w23, [x1, #17]
	b	.LBB2_40
.LBB2_33:
	mov	x4, xzr
	cmp	w8, #3
	b.lo	.LBB2_12
.LBB2_34:
	cmp	x2, #13
	b.lo	.LBB2_12
	ldrb	w19, [x1, #12]
	cmp	w8, #3
	mov	x7, xzr
	b.eq	.LBB2_38
	cmp	x2, #16
	b.lo	.LBB2_38
	ldrb	w7, [x1, #15]
.LBB2_38:
	ldrb	w20, [x1, #8]
	mov	w19, w19
	cmp	w8, #1
	b.ne	.LBB2_21
.LBB2_39:
	mov	w21, wzr
	mov	x22, xzr
	mov	x23, xzr
.LBB2_40:
	stp	x8, x5, [x0, #16]
	mov	w8, w21
	orr	x9, x10, x9, lsl #8
	orr	x10, x12, x11, lsl #8
	stp	x4, x19, [x0, #96]
	stp	x7, x20, [x0, #112]
	ldp	x20, x19, [sp, #32]
	stp	x22, x8, [x0, #128]
	ldp	x22, x21, [sp, #16]
	stp	x9, x10, [x0]
	stp	x14, x13, [x0, #32]
	stp	x16, x6, [x0, #48]
	stp	x17, x15, [x0, #64]
	stp	x18, x3, [x0, #80]
	str	x23, [x0, #144]
	ldr	x23, [sp], #48
	ret
.Lfunc_end2:
	.size	"jpeg_header_rules::frame_of", .Lfunc_end2-"jpeg_header_rules::frame_of"

	.section	.rodata.cst16,"aM",@progbits,16
	.p2align	4, 0x0
.LCPI3_0:
	.xword	1
	.xword	3
.LCPI3_1:
	.xword	1
	.xword	4
.LCPI3_2:
	.xword	0
	.xword	1
	.section	".text.jpeg_header_state::scan","ax",@progbits
	.p2align	2
	.type	"jpeg_header_state::scan",@function
"jpeg_header_state::scan":
	str	x30, [sp, #-96]!
	stp	x28, x27, [sp, #16]
	stp	x26, x25, [sp, #32]
	stp	x24, x23, [sp, #48]
	stp	x22, x21, [sp, #64]
	stp	x20, x19, [sp, #80]
	sub	sp, sp, #576
	ldr	x9, [x3, #136]
	cbz	x9, .LBB3_76
	ldr	x10, [x3, #120]
	mov	w11, #65534
	sub	x8, x10, #1
	cmp	x8, x11
	b.hi	.LBB3_33
	ldr	x11, [x3, #128]
	mov	w12, #65534
	sub	x8, x11, #1
	cmp	x8, x12
	b.hi	.LBB3_33
	cmp	x9, #4
	b.hi	.LBB3_33
	ldr	x16, [x3, #144]
	ldr	x17, [x3, #176]
	sub	x8, x16, #1
	sub	x12, x17, #1
	orr	x8, x12, x8
	cmp	x8, #3
	b.hi	.LBB3_33
	mul	x5, x17, x16
	ldp	x13, x14, [x3, #208]
	ldp	x15, x12, [x3, #224]
	ldr	x8, [x3, #272]
	cmp	x9, #1
	b.ne	.LBB3_21
.LBB3_6:
	cmp	x5, #10
	b.hi	.LBB3_33
	cbz	x2, .LBB3_33
	ldrb	w18, [x1]
	cmp	x9, x18
	b.ne	.LBB3_33
	lsl	x6, x9, #1
	add	x6, x6, #4
	cmp	x2, x6
	b.ne	.LBB3_33
	add	x6, x1, x2
	ldurb	w7, [x6, #-2]
	cmp	w7, #63
	b.ne	.LBB3_33
	ldurb	w7, [x6, #-3]
	ldurb	w6, [x6, #-1]
	orr	w6, w6, w7
	cbnz	w6, .LBB3_33
	cbz	w18, .LBB3_34
	ldrb	w6, [x1, #1]
	cmp	x13, x6
	b.ne	.LBB3_27
	cmp	w18, #1
	b.eq	.LBB3_29
	ldrb	w6, [x1, #3]
	cmp	x14, x6
	b.ne	.LBB3_55
	cmp	w18, #2
	b.eq	.LBB3_29
	ldrb	w6, [x1, #5]
	cmp	x15, x6
	b.ne	.LBB3_79
	cmp	w18, #3
	b.eq	.LBB3_29
	cmp	x2, #8
	b.lo	.LBB3_80
	ldrb	w6, [x1, #7]
	b	.LBB3_81
.LBB3_21:
	ldr	x6, [x3, #152]
	ldr	x18, [x3, #184]
	sub	x7, x6, #1
	sub	x19, x18, #1
	orr	x7, x19, x7
	cmp	x7, #3
	b.hi	.LBB3_33
	madd	x5, x18, x6, x5
	cmp	x6, x16
	csel	x16, x6, x16, hi
	cmp	x18, x17
	csel	x17, x18, x17, hi
	cmp	x9, #2
	b.eq	.LBB3_6
	ldr	x6, [x3, #160]
	ldr	x18, [x3, #192]
	sub	x7, x6, #1
	sub	x19, x18, #1
	orr	x7, x19, x7
	cmp	x7, #3
	b.hi	.LBB3_33
	madd	x5, x18, x6, x5
	cmp	x6, x16
	csel	x16, x6, x16, hi
	cmp	x18, x17
	csel	x17, x18, x17, hi
	cmp	x9, #3
	b.eq	.LBB3_6
	ldr	x6, [x3, #168]
	ldr	x18, [x3, #200]
	sub	x7, x6, #1
	sub	x19, x18, #1
	orr	x7, x19, x7
	cmp	x7, #3
	b.hi	.LBB3_33
	madd	x5, x18, x6, x5
	cmp	x6, x16
	csel	x16, x6, x16, hi
	cmp	x18, x17
	csel	x17, x18, x17, hi
	b	.LBB3_6
.LBB3_27:
	mov	x18, xzr
.LBB3_28:
	cmp	x18, x9
	b.lo	.LBB3_76
.LBB3_29:
	mov	w18, #2
	mov	x6, x9
	b	.LBB3_31
.LBB3_30:
	subs	x6, x6, #1
	add	x18, x18, #2
	b.eq	.LBB3_34
.LBB3_31:
	cmp	x18, x2
	b.hs	.LBB3_30
	ldrb	w7, [x1, x18]
	tst	w7, #0xcccccccc
	b.eq	.LBB3_30
.LBB3_33:
	adrp	x8, .LCPI3_1
	movi	v0.2d, #0000000000000000
	ldr	q1, [x8, :lo12:.LCPI3_1]
	b	.LBB3_77
.LBB3_34:
	ldrb	w26, [x1, #2]
	cmp	x9, #1
	b.ne	.LBB3_36
	mov	w24, wzr
	mov	w2, wzr
	mov	x18, xzr
	b	.LBB3_41
.LBB3_36:
	ldrb	w2, [x1, #4]
	cmp	x9, #3
	b.lo	.LBB3_39
	ldrb	w24, [x1, #6]
	cmp	x9, #3
	b.ne	.LBB3_40
	mov	x18, xzr
	b	.LBB3_41
.LBB3_39:
	mov	w24, wzr
	mov	x18, xzr
	b	.LBB3_41
.LBB3_40:
	ldrb	w18, [x1, #8]
.LBB3_41:
	lsr	x6, x10, #16
	mov	x1, xzr
	mov	w25, w2
	cbnz	x6, .LBB3_44
	sub	x2, x16, #1
	cmp	x2, #3
	b.hi	.LBB3_44
	lsl	w16, w16, #3
	and	w1, w10, #0xffff
	and	w2, w16, #0xfff8
	udiv	w1, w1, w2
	msub	w16, w1, w16, w10
	tst	w16, #0xffff
	cinc	x16, x1, ne
	mul	x1, x16, x5
.LBB3_44:
	lsr	x5, x11, #16
	mov	x16, xzr
	add	x2, sp, #208
	cbnz	x5, .LBB3_47
	sub	x5, x17, #1
	cmp	x5, #3
	b.hi	.LBB3_47
	lsl	w16, w17, #3
	and	w17, w11, #0xffff
	and	w5, w16, #0xfff8
	udiv	w17, w17, w5
	msub	w16, w17, w16, w11
	tst	w16, #0xffff
	cinc	x16, x17, ne
	mul	x16, x16, x1
.LBB3_47:
	ldp	q0, q1, [x3, #240]
	mov	w20, w24
	lsr	x5, x20, #4
	and	x21, x20, #0xf
	mov	w20, #3136
	lsr	x17, x26, #4
	lsr	x1, x25, #4
	lsr	x6, x18, #4
	stur	q0, [x2, #120]
	ldur	q0, [x3, #56]
	lsl	x23, x16, #6
	stur	q1, [x2, #136]
	ldur	q1, [x3, #72]
	and	x7, x26, #0xf
	stur	q0, [x2, #184]
	ldur	q0, [x3, #88]
	and	x19, x25, #0xf
	stur	q1, [x2, #200]
	ldur	q1, [x3, #104]
	and	x22, x18, #0xf
	stur	q0, [x2, #216]
	ldur	q0, [x3, #24]
	stur	q1, [x2, #232]
	ldur	q1, [x3, #40]
	stur	q0, [x2, #152]
	ldr	x27, [sp, #392]
	stur	q1, [x2, #168]
	mul	x2, x11, x10
	ldr	x28, [sp, #360]
	cmp	x27, #0
	ldr	x27, [sp, #328]
	stp	x17, x1, [sp, #456]
	str	x1, [sp, #8]
	add	x1, sp, #208
	ccmp	x28, #0, #4, ne
	add	x30, x1, #152
	add	x28, x1, #184
	add	x1, x1, #216
	cmp	x27, #3
	stp	x5, x6, [sp, #472]
	mul	x2, x2, x9
	stp	x7, x19, [sp, #488]
	stp	x21, x22, [sp, #504]
	str	x8, [sp, #520]
	madd	x20, x16, x20, x2
	str	x4, [sp, #528]
	str	x16, [sp, #536]
	str	x23, [sp, #544]
	str	x2, [sp, #552]
	str	x1, [sp, #584]
	str	x20, [sp, #560]
	str	xzr, [sp, #568]
	b.hi	.LBB3_76
	ldr	x1, [x30, x27, lsl #3]
	cbz	x1, .LBB3_76
	cmp	w26, #63
	b.hi	.LBB3_76
	ldr	x1, [x28, x17, lsl #3]
	cbz	x1, .LBB3_76
	cmp	x7, #3
	b.hi	.LBB3_76
	ldr	x1, [sp, #584]
	ldr	x1, [x1, x7, lsl #3]
	cbz	x1, .LBB3_76
	cmp	x9, #1
	b.ne	.LBB3_56
.LBB3_54:
	ldp	q0, q1, [x3, #144]
	adrp	x18, .LCPI3_2
	stp	q0, q1, [sp, #144]
	ldp	q0, q2, [x3, #176]
	stp	q0, q2, [sp, #176]
	ldp	q1, q0, [x3, #240]
	ldur	q2, [x3, #56]
	stp	q1, q0, [sp, #112]
	ldur	q0, [x3, #72]
	ldur	q1, [x3, #88]
	stp	q2, q0, [sp, #48]
	ldur	q0, [x3, #104]
	ldur	q2, [x3, #24]
	stp	q1, q0, [sp, #80]
	ldur	q1, [x3, #40]
	ldr	q0, [x18, :lo12:.LCPI3_2]
	str	x9, [x0, #32]
	ldr	x9, [sp, #8]
	stp	q2, q1, [sp, #16]
	str	q0, [x0]
	ldp	q1, q0, [sp, #176]
	stp	x10, x11, [x0, #16]
	stp	x13, x14, [x0, #104]
	stur	q0, [x0, #88]
	stur	q1, [x0, #72]
	ldp	q1, q0, [sp, #144]
	stp	x15, x12, [x0, #120]
	stp	x17, x9, [x0, #264]
	stur	q0, [x0, #56]
	stur	q1, [x0, #40]
	ldp	q1, q0, [sp, #112]
	stp	x5, x6, [x0, #280]
	stp	x7, x19, [x0, #296]
	stur	q0, [x0, #152]
	ldp	q2, q0, [sp, #16]
	stur	q1, [x0, #136]
	stp	x21, x22, [x0, #312]
	stur	q0, [x0, #184]
	ldp	q1, q0, [sp, #80]
	stur	q2, [x0, #168]
	stp	x8, x4, [x0, #328]
	stur	q0, [x0, #248]
	ldp	q2, q0, [sp, #48]
	stur	q1, [x0, #232]
	stp	x16, x23, [x0, #344]
	stur	q0, [x0, #216]
	stur	q2, [x0, #200]
	stp	x2, x20, [x0, #360]
	str	xzr, [x0, #376]
	b	.LBB3_78
.LBB3_55:
	mov	w18, #1
	b	.LBB3_28
.LBB3_56:
	ldr	x26, [sp, #336]
	cmp	x26, #3
	b.hi	.LBB3_76
	ldr	x1, [x30, x26, lsl #3]
	cbz	x1, .LBB3_76
	cmp	w25, #63
	b.hi	.LBB3_76
	ldr	x1, [sp, #8]
	ldr	x1, [x28, x1, lsl #3]
	cbz	x1, .LBB3_76
	cmp	x19, #3
	b.hi	.LBB3_76
	ldr	x1, [sp, #584]
	ldr	x1, [x1, x19, lsl #3]
	cbz	x1, .LBB3_76
	cmp	x9, #2
	b.eq	.LBB3_54
	ldr	x25, [sp, #344]
	cmp	x25, #3
	b.hi	.LBB3_76
	ldr	x1, [x30, x25, lsl #3]
	cbz	x1, .LBB3_76
	cmp	w24, #63
	b.hi	.LBB3_76
	ldr	x1, [x28, x5, lsl #3]
	cbz	x1, .LBB3_76
	cmp	x21, #3
	b.hi	.LBB3_76
	ldr	x1, [sp, #584]
	ldr	x1, [x1, x21, lsl #3]
	cbz	x1, .LBB3_76
	cmp	x9, #3
	b.eq	.LBB3_54
	ldr	x24, [sp, #352]
	cmp	x24, #3
	b.hi	.LBB3_76
	ldr	x1, [x30, x24, lsl #3]
	cbz	x1, .LBB3_76
	cmp	x18, #63
	b.hi	.LBB3_76
	ldr	x18, [x28, x6, lsl #3]
	cbz	x18, .LBB3_76
	cmp	x22, #3
	b.hi	.LBB3_76
	ldr	x18, [sp, #584]
	ldr	x18, [x18, x22, lsl #3]
	cbnz	x18, .LBB3_54
.LBB3_76:
	movi	v0.2d, #0000000000000000
	adrp	x8, .LCPI3_0
	ldr	q1, [x8, :lo12:.LCPI3_0]
.LBB3_77:
	stp	q1, q0, [x0]
	stp	q0, q0, [x0, #32]
	stp	q0, q0, [x0, #64]
	stp	q0, q0, [x0, #96]
	stp	q0, q0, [x0, #128]
	stp	q0, q0, [x0, #160]
	stp	q0, q0, [x0, #192]
	stp	q0, q0, [x0, #224]
	stp	q0, q0, [x0, #256]
	stp	q0, q0, [x0, #288]
	stp	q0, q0, [x0, #320]
	stp	q0, q0, [x0, #352]
.LBB3_78:
	add	sp, sp, #576
	ldp	x20, x19, [sp, #80]
	ldp	x22, x21, [sp, #64]
	ldp	x24, x23, [sp, #48]
	ldp	x26, x25, [sp, #32]
	ldp	x28, x27, [sp, #16]
	ldr	x30, [sp], #96
	ret
.LBB3_79:
	mov	w18, #2
	b	.LBB3_28
.LBB3_80:
	mov	x6, xzr
.LBB3_81:
	cmp	x6, x12
	b.ne	.LBB3_87
	cmp	w18, #4
	b.eq	.LBB3_29
	mov	w18, #4
	mov	w6, #9
	b	.LBB3_85
.LBB3_84:
	add	x18, x18, #1
	add	x6, x6, #2
	cmp	x9, x18
	b.eq	.LBB3_29
.LBB3_85:
	cmp	x6, x2
	b.hs	.LBB3_84
	ldrb	w7, [x1, x6]
	cbz	w7, .LBB3_84
	b	.LBB3_28
.LBB3_87:
	mov	w18, #3
	b	.LBB3_28
.Lfunc_end3:
	.size	"jpeg_header_state::scan", .Lfunc_end3-"jpeg_header_state::scan"

	.section	".text.jpeg_engine::PlainEngine::block","ax",@progbits
	.p2align	2
	.type	"jpeg_engine::PlainEngine::block",@function
"jpeg_engine::PlainEngine::block":
	sub	sp, sp, #112
	ldur	w8, [x3, #10]
	ldrh	w10, [x3, #14]
	movi	v0.2d, #0000000000000000
	ldrh	w15, [x3, #8]
	ldr	x16, [x3]
	sxtw	x14, w4
	str	w8, [sp, #48]
	add	x8, x1, x2, lsl #3
	ldr	x12, [x1]
	strh	w10, [sp, #52]
	ldp	x13, x10, [x1, #8]
	ldr	x3, [x8, #24]
	lsr	w1, w15, #8
	mov	x9, xzr
	ldr	x11, [x8, #56]
	mov	w8, #1
	stp	x20, x19, [sp, #96]
	str	wzr, [sp, #8]
	strh	wzr, [sp, #12]
	str	wzr, [sp, #24]
	strh	wzr, [sp, #28]
	str	wzr, [sp, #16]
	strh	wzr, [sp, #20]
	stp	q0, q0, [x5]
	stp	q0, q0, [x5, #32]
	stp	q0, q0, [x5, #64]
	stp	q0, q0, [x5, #96]
.LBB4_1:
	subs	x4, x10, x3
	b.ls	.LBB4_58
	cmp	x4, #16
	mov	w6, #16
	mov	x17, xzr
	add	x2, x12, x3
	add	x18, x3, #16
	csel	x3, x4, x6, lo
	b	.LBB4_5
.LBB4_3:
	and	w4, w15, #0xff
	strh	wzr, [sp, #92]
	lsr	w4, w4, w1
	and	w4, w4, #0x1
	mov	w6, w4
	ldrb	w4, [x2], #1
	orr	x6, x6, x17, lsl #1
	str	wzr, [sp, #88]
	subs	x17, x6, x4
	b.lo	.LBB4_15
.LBB4_4:
	subs	x3, x3, #1
	add	x18, x18, x4
	b.eq	.LBB4_58
.LBB4_5:
	tst	w1, #0xff
	b.eq	.LBB4_8
	and	w4, w1, #0xff
	sub	w1, w1, #1
	cmp	w4, #8
	b.ls	.LBB4_3
	mov	w4, wzr
	b	.LBB4_14
.LBB4_8:
	cmp	x13, x16
	b.ls	.LBB4_59
	ldrb	w15, [x12, x16]
	add	x6, x16, #1
	cmp	w15, #255
	b.ne	.LBB4_13
	cmp	x13, x6
	b.ls	.LBB4_59
	ldrb	w1, [x12, x6]
	cbnz	w1, .LBB4_60
	add	x6, x16, #2
.LBB4_13:
	lsr	w4, w15, #7
	mov	w1, #7
	mov	x16, x6
.LBB4_14:
	strh	wzr, [sp, #92]
	mov	w6, w4
	ldrb	w4, [x2], #1
	orr	x6, x6, x17, lsl #1
	str	wzr, [sp, #88]
	subs	x17, x6, x4
	b.hs	.LBB4_4
.LBB4_15:
	add	x17, x6, x18
	cmp	x17, x10
	b.hs	.LBB4_21
	ldr	w18, [sp, #88]
	ldrh	w2, [sp, #92]
	ldrb	w3, [x12, x17]
	str	w18, [sp, #72]
	strh	w2, [sp, #76]
	cbz	x9, .LBB4_24
	cbz	w3, .LBB4_22
	cmp	w3, #240
	b.ne	.LBB4_39
	cmp	x9, #49
	b.hs	.LBB4_65
	ldr	w17, [sp, #72]
	ldrh	w18, [sp, #76]
	bfi	w15, w1, #8, #24
	str	wzr, [sp, #56]
	mov	w3, #1
	b	.LBB4_23
.LBB4_21:
	ldr	w17, [sp, #88]
	ldrh	w18, [sp, #92]
	str	w17, [sp, #72]
	strh	w18, [sp, #76]
	cbz	x9, .LBB4_29
.LBB4_22:
	ldr	w17, [sp, #72]
	ldrh	w18, [sp, #76]
	bfi	w15, w1, #8, #24
	mov	w3, wzr
	str	wzr, [sp, #56]
.LBB4_23:
	str	w17, [sp, #64]
	strh	w18, [sp, #68]
	mov	w17, w17
	and	w1, w18, #0xffff
	mov	w18, wzr
	ldr	w2, [sp, #56]
	mov	x6, xzr
	strh	wzr, [sp, #60]
	str	w17, [sp, #40]
	and	w17, wzr, #0xffff
	strh	w1, [sp, #44]
	mov	w1, w15
	mov	w15, wzr
	strh	w17, [sp, #36]
	mov	x17, x16
	str	w2, [sp, #32]
	b	.LBB4_35
.LBB4_24:
	cmp	w3, #12
	b.hs	.LBB4_65
	and	x18, x1, #0xff
	add	x17, xzr, x9
	cmp	x3, x18
	b.ls	.LBB4_42
.LBB4_26:
	cmp	x13, x16
	b.ls	.LBB4_59
	ldrb	w1, [x12, x16]
	add	x2, x16, #1
	cmp	x1, #255
	b.eq	.LBB4_44
	mov	x16, x2
	b	.LBB4_47
.LBB4_29:
	mov	x17, xzr
	mov	x3, xzr
	mov	x2, xzr
	and	x18, x1, #0xff
	sub	x18, x18, xzr
	lsl	x1, xzr, xzr
	cmp	x18, #8
	b.hs	.LBB4_31
.LBB4_30:
	mov	w4, w15
	mov	x6, #-1
	and	x4, x4, #0xff
	lsl	x2, x6, x2
	lsr	x4, x4, x18
	bic	x2, x4, x2
	add	x1, x2, x1
.LBB4_31:
	mov	w2, #1
	lsl	x2, x2, x3
	sub	w3, w1, w2
	cmp	x2, x1, lsl #1
	csinc	w1, w1, w3, ls
	cbnz	x17, .LBB4_33
	add	x1, x14, w1, sxth
	add	x2, x1, #2048
	cmp	x2, #4095
	b.hi	.LBB4_43
.LBB4_33:
	mov	w2, wzr
	mov	w3, #2
	mov	w4, #1
	strh	wzr, [sp, #92]
.LBB4_34:
	str	wzr, [sp, #88]
	str	wzr, [sp, #80]
	and	w20, wzr, #0xffff
	ldrh	w19, [sp, #92]
	strh	wzr, [sp, #84]
	str	wzr, [sp, #64]
	str	wzr, [sp, #40]
	mov	x6, x16
	str	wzr, [sp, #56]
	strh	w19, [sp, #44]
	strh	w20, [sp, #36]
	str	wzr, [sp, #32]
	cbz	w4, .LBB4_61
.LBB4_35:
	cmp	w3, #1
	b.eq	.LBB4_38
	cmp	w3, #2
	b.ne	.LBB4_63
	ldr	w9, [sp, #32]
	ldrh	w16, [sp, #36]
	add	x8, x17, #1
	strh	w1, [x5, x17, lsl #1]
	mov	x17, x6
	str	w9, [sp, #48]
	mov	x9, x8
	strh	w16, [sp, #52]
	cmp	x8, #64
	mov	x3, x11
	mov	w1, w18
	mov	x16, x17
	b.lo	.LBB4_1
	b	.LBB4_64
.LBB4_38:
	ldr	w15, [sp, #40]
	ldrh	w16, [sp, #44]
	ubfx	w18, w1, #8, #8
	add	x9, x9, #16
	str	w15, [sp, #48]
	mov	w15, w1
	strh	w16, [sp, #52]
	cmp	x9, #64
	mov	x3, x11
	mov	w1, w18
	mov	x16, x17
	b.lo	.LBB4_1
	b	.LBB4_64
.LBB4_39:
	and	x18, x3, #0xf
	mov	w2, #3
	sub	x17, x18, #1
	cmp	x17, #9
	b.hi	.LBB4_61
	lsr	x17, x3, #4
	add	x3, x17, x9
	cmp	x3, #64
	b.hs	.LBB4_61
	mov	x3, x18
	and	x18, x1, #0xff
	add	x17, x17, x9
	cmp	x3, x18
	b.hi	.LBB4_26
.LBB4_42:
	mov	x2, x3
	sub	x18, x18, x3
	lsl	x1, xzr, x3
	cmp	x18, #8
	b.lo	.LBB4_30
	b	.LBB4_31
.LBB4_43:
	mov	x16, xzr
	mov	w15, wzr
	mov	w18, wzr
	mov	w4, wzr
	mov	w3, wzr
	mov	w1, wzr
	strh	wzr, [sp, #92]
	mov	w2, #3
	b	.LBB4_34
.LBB4_44:
	cmp	x13, x2
	b.ls	.LBB4_59
	ldrb	w2, [x12, x2]
	cbnz	w2, .LBB4_60
	add	x16, x16, #2
.LBB4_47:
	mov	x2, #-1
	lsr	x4, x1, #7
	lsl	x2, x2, x18
	mvn	x18, x18
	bic	w15, w15, w2
	add	x2, x3, x18
	and	x15, x15, #0xff
	cmp	x2, #8
	orr	x4, x4, x15, lsl #1
	b.lo	.LBB4_56
	b	.LBB4_51
.LBB4_49:
	mov	x16, x18
.LBB4_50:
	ubfiz	x18, x1, #1, #7
	sub	x2, x2, #8
	mov	w1, w15
	cmp	x2, #7
	orr	x18, x18, x4, lsl #8
	orr	x4, x18, x15, lsr #7
	b.ls	.LBB4_57
.LBB4_51:
	cmp	x13, x16
	b.ls	.LBB4_59
	ldrb	w15, [x12, x16]
	add	x18, x16, #1
	cmp	x15, #255
	b.ne	.LBB4_49
	cmp	x13, x18
	b.ls	.LBB4_59
	ldrb	w18, [x12, x18]
	cbnz	w18, .LBB4_60
	add	x16, x16, #2
	b	.LBB4_50
.LBB4_56:
	mov	w18, #7
	mov	w15, w1
	sub	x18, x18, x2
	lsl	x1, x4, x2
	cmp	x18, #8
	b.hs	.LBB4_31
	b	.LBB4_30
.LBB4_57:
	mov	w18, #7
	sub	x18, x18, x2
	lsl	x1, x4, x2
	cmp	x18, #8
	b.lo	.LBB4_30
	b	.LBB4_31
.LBB4_58:
	mov	w2, #2
	b	.LBB4_61
.LBB4_59:
	mov	w2, wzr
	b	.LBB4_61
.LBB4_60:
	mov	w2, #1
.LBB4_61:
	movi	v0.2d, #0000000000000000
	mov	x8, xzr
	mov	w9, wzr
	mov	w10, wzr
	mov	x17, xzr
	str	wzr, [sp, #24]
	mov	w11, #1
	strh	wzr, [sp, #28]
	stp	q0, q0, [x5]
	stp	q0, q0, [x5, #32]
	stp	q0, q0, [x5, #64]
	stp	q0, q0, [x5, #96]
.LBB4_62:
	ldr	w12, [sp, #24]
	ldrh	w13, [sp, #28]
	strb	w11, [x0]
	ldp	x20, x19, [sp, #96]
	strb	w2, [x0, #1]
	str	w12, [sp, #8]
	strh	w13, [sp, #12]
	str	x17, [x0, #8]
	strh	w10, [x0, #16]
	stur	w12, [x0, #18]
	strh	w13, [x0, #22]
	stp	w9, wzr, [x0, #24]
	str	x8, [x0, #32]
	add	sp, sp, #112
	ret
.LBB4_63:
	ldr	w9, [sp, #40]
	ldrh	w10, [sp, #44]
	ubfx	w18, w1, #8, #8
	mov	w15, w1
	str	w9, [sp, #48]
	strh	w10, [sp, #52]
.LBB4_64:
	and	w10, w15, #0xff
	ldr	w12, [sp, #48]
	ldrh	w13, [sp, #52]
	ldrsh	w9, [x5]
	orr	w10, w10, w18, lsl #8
	mov	w2, wzr
	mov	w11, wzr
	str	w12, [sp, #16]
	strh	w13, [sp, #20]
	str	w12, [sp, #24]
	strh	w13, [sp, #28]
	b	.LBB4_62
.LBB4_65:
	mov	w2, #3
	b	.LBB4_61
.Lfunc_end4:
	.size	"jpeg_engine::PlainEngine::block", .Lfunc_end4-"jpeg_engine::PlainEngine::block"

	.section	".text.jpeg_write_scan::run::<#c44e4da361dd472c>","ax",@progbits
	.p2align	2
	.type	"jpeg_write_scan::run::<#c44e4da361dd472c>",@function
"jpeg_write_scan::run::<#c44e4da361dd472c>":
	sub	sp, sp, #416
	ldr	x8, [x1, #128]
	stp	x29, x30, [sp, #320]
	add	x29, sp, #320
	stp	x28, x27, [sp, #336]
	stp	x26, x25, [sp, #352]
	stp	x24, x23, [sp, #368]
	stp	x22, x21, [sp, #384]
	stp	x20, x19, [sp, #400]
	str	x2, [sp, #56]
	cbz	x8, .LBB5_121
	ldr	x9, [x1, #144]
	ldr	x17, [x1, #16]
	mov	x21, x4
	mov	x6, x1
	udiv	x10, x9, x8
	msub	x8, x10, x8, x9
	cmp	x8, #0
	cinc	x18, x10, ne
	cbz	x18, .LBB5_88
	sub	x13, x29, #48
	str	x0, [sp, #48]
	mov	x0, xzr
	mov	x20, xzr
	mov	x19, xzr
	mov	x27, xzr
	mov	x9, xzr
	mov	x10, xzr
	mov	x12, xzr
	mov	x11, xzr
	mov	x8, xzr
	add	x5, x13, #16
	mov	w24, #1
	mov	w4, #8
	str	x18, [sp, #8]
	str	x3, [sp, #64]
	b	.LBB5_5
.LBB5_3:
	mov	x17, x12
.LBB5_4:
	add	x0, x0, #1
	lsr	x11, x8, #8
	and	x12, x8, #0xffffffffffff0000
	cmp	x0, x18
	b.hs	.LBB5_106
.LBB5_5:
	movi	v0.2d, #0000000000000000
	ubfiz	x14, x11, #8, #8
	ldr	x11, [x6, #144]
	and	x13, x8, #0xff
	stur	xzr, [x29, #-16]
	orr	x14, x14, x12
	cmp	x11, x27
	str	xzr, [sp, #128]
	orr	x8, x14, x13
	stp	q0, q0, [x29, #-48]
	stp	q0, q0, [sp, #96]
	b.ls	.LBB5_4
	cbz	x0, .LBB5_9
	ldr	x15, [x6, #136]
	cbz	x15, .LBB5_9
	udiv	x12, x0, x15
	msub	x16, x12, x15, x0
	cbz	x16, .LBB5_57
.LBB5_9:
	stp	x17, x8, [x29, #-48]
	mov	x12, x17
	stp	x10, x9, [x29, #-32]
	stur	x27, [x29, #-16]
.LBB5_10:
	ldr	x13, [x6, #128]
	subs	x11, x11, x27
	csel	x11, xzr, x11, lo
	cmp	x11, x13
	csel	x7, x11, x13, lo
	cbz	x7, .LBB5_3
	ldr	x30, [x6, #120]
	mov	x25, xzr
	add	x8, x7, x27
	stp	x27, x17, [sp, #32]
	stp	x8, x0, [sp, #16]
	str	x7, [sp, #72]
	b	.LBB5_14
.LBB5_12:
	ldp	x7, x25, [sp, #72]
	mov	x6, x27
	ldr	x3, [sp, #64]
	ldr	x27, [sp, #88]
	mov	w24, wzr
	mov	x19, xzr
	mov	x20, xzr
	mov	x4, xzr
	mov	x5, x28
	mov	x30, x26
.LBB5_13:
	add	x9, sp, #96
	add	x25, x25, #1
	lsr	x30, x30, #2
	ldur	q0, [x9, #8]
	cmp	x25, x7
	add	x27, x27, #1
	str	w8, [x5, x22, lsl #2]
	stur	q0, [x29, #-48]
	b.eq	.LBB5_56
.LBB5_14:
	and	x8, x30, #0x3
	mov	w23, w24
	stp	x25, x27, [sp, #80]
	ldr	w24, [x5, x8, lsl #2]
	mov	x25, x4
	mov	x28, x5
	add	x0, sp, #96
	and	x2, x30, #0x3
	sub	x3, x29, #48
	add	x5, sp, #144
	mov	x1, x6
	mov	w4, w24
	and	x22, x30, #0x3
	mov	x26, x30
	mov	x27, x6
	bl	"jpeg_engine::PlainEngine::block"
	ldrb	w8, [sp, #96]
	cbnz	w8, .LBB5_87
	ldr	w8, [sp, #120]
	cmp	w23, #1
	b.ne	.LBB5_12
	ldp	x11, x3, [sp, #56]
	mov	x15, x25
	ldp	x7, x25, [sp, #72]
	sxtw	x9, w24
	ldr	x10, [sp, #128]
	mov	x6, x27
	ldr	x27, [sp, #88]
	add	x11, x11, x22, lsl #11
	mov	x13, xzr
	mov	x12, xzr
	mov	x16, x19
	mov	x14, x20
	mov	x5, x28
	mov	x30, x26
	b	.LBB5_19
.LBB5_17:
	mov	x1, x16
	mov	x0, x2
.LBB5_18:
	lsl	x16, x17, x0
	lsl	x14, x14, x0
	sub	x15, x15, x0
	bic	x16, x18, x16
	add	x14, x16, x14
	mov	x16, x1
.LBB5_19:
	cmp	x10, x13
	b.ls	.LBB5_26
	cbz	x13, .LBB5_53
	cmp	x13, #63
	b.hi	.LBB5_25
	add	x17, sp, #144
	mov	w0, #64
	mov	x18, xzr
	add	x17, x17, x13, lsl #1
	sub	x0, x0, x13
.LBB5_23:
	ldrh	w1, [x17, x18, lsl #1]
	cbnz	w1, .LBB5_27
	add	x18, x18, #1
	cmp	x0, x18
	b.ne	.LBB5_23
.LBB5_25:
	mov	w17, #64
	subs	x17, x17, x13
	csel	x18, xzr, x17, lo
	add	x17, x18, x13
	add	x13, x18, x12
	cmp	x17, #64
	b.hs	.LBB5_28
	b	.LBB5_29
.LBB5_26:
	mov	w17, #64
	sub	x18, x17, x13
.LBB5_27:
	add	x17, x18, x13
	add	x13, x18, x12
	cmp	x17, #64
	b.lo	.LBB5_29
.LBB5_28:
	cbz	x13, .LBB5_54
.LBB5_29:
	cmp	x17, #63
	b.ls	.LBB5_31
	mov	x1, xzr
	mov	x0, xzr
	mov	x18, xzr
	mov	x12, xzr
	b	.LBB5_33
.LBB5_31:
	subs	x12, x13, #16
	b.lo	.LBB5_34
	mov	x0, xzr
	mov	x18, xzr
	mov	w1, #960
.LBB5_33:
	mov	x13, x17
	cmp	x17, #0
	mov	w17, #1024
	mov	x19, xzr
	mov	w24, wzr
	csel	x17, xzr, x17, eq
	cbnz	x15, .LBB5_35
	b	.LBB5_55
.LBB5_34:
	add	x18, sp, #144
	cmp	x17, #0
	mov	w1, #64
	ldrsh	x18, [x18, x17, lsl #1]
	csel	x0, x9, xzr, eq
	mov	x12, xzr
	subs	x0, x18, x0
	cneg	x2, x0, mi
	clz	x18, x2
	sub	x18, x1, x18
	mov	w1, #12
	cmp	x18, #12
	csel	x18, x18, x1, lo
	mov	x1, #-1
	lsl	x1, x1, x18
	lsl	x19, x18, #2
	mvn	x1, x1
	subs	x1, x1, x2
	csel	x4, xzr, x1, lo
	cmp	x0, #0
	orr	x1, x19, x13, lsl #6
	csel	x0, x4, x2, mi
	add	x13, x17, #1
	cmp	x17, #0
	mov	w17, #1024
	mov	x19, xzr
	mov	w24, wzr
	csel	x17, xzr, x17, eq
	cbz	x15, .LBB5_55
.LBB5_35:
	mov	w2, #8
	sub	x2, x2, x15
	lsr	x2, x14, x2
	cbnz	x2, .LBB5_55
	add	x17, x11, x17
	mov	x20, x19
	mov	x4, x19
	ldr	w2, [x17, x1]
	lsr	x1, x2, #16
	sub	x17, x1, #1
	cmp	x17, #15
	b.hi	.LBB5_13
	mov	x17, #-1
	and	x2, x2, #0xffff
	lsl	x19, x17, x18
	lsl	x4, x2, x18
	add	x2, x1, x18
	bic	x18, x0, x19
	subs	x0, x2, x15
	add	x18, x4, x18
	b.lo	.LBB5_17
	lsr	x1, x18, x0
	lsl	x2, x17, x15
	lsl	x14, x14, x15
	cmp	x16, x21
	bic	w15, w1, w2
	add	w14, w15, w14
	b.hs	.LBB5_43
	strb	w14, [x3, x16]
	adds	x15, x16, #1
	mov	w2, #255
	csinv	x1, x15, xzr, lo
	bics	wzr, w2, w14
	b.ne	.LBB5_44
.LBB5_40:
	cmp	x1, x21
	b.hs	.LBB5_42
	strb	wzr, [x3, x1]
.LBB5_42:
	adds	x14, x16, #2
	csinv	x1, x14, xzr, lo
	cmp	x0, #8
	b.hs	.LBB5_47
	b	.LBB5_45
.LBB5_43:
	adds	x15, x16, #1
	mov	w2, #255
	csinv	x1, x15, xzr, lo
	bics	wzr, w2, w14
	b.eq	.LBB5_40
.LBB5_44:
	cmp	x0, #8
	b.hs	.LBB5_47
.LBB5_45:
	mov	x14, xzr
	mov	w15, #8
	b	.LBB5_18
.LBB5_46:
	adds	x14, x1, #2
	csinv	x1, x14, xzr, lo
	cmp	x0, #7
	b.ls	.LBB5_45
.LBB5_47:
	sub	x0, x0, #8
	cmp	x1, x21
	lsr	x14, x18, x0
	b.hs	.LBB5_49
	strb	w14, [x3, x1]
.LBB5_49:
	adds	x15, x1, #1
	mov	w16, #255
	csinv	x15, x15, xzr, lo
	bics	wzr, w16, w14
	b.eq	.LBB5_51
	mov	x1, x15
	cmp	x0, #7
	b.hi	.LBB5_47
	b	.LBB5_45
.LBB5_51:
	cmp	x15, x21
	b.hs	.LBB5_46
	strb	wzr, [x3, x15]
	b	.LBB5_46
.LBB5_53:
	add	x17, xzr, x13
	add	x13, xzr, x12
	cmp	x17, #64
	b.hs	.LBB5_28
	b	.LBB5_29
.LBB5_54:
	mov	w24, #1
	mov	x19, x16
	mov	x20, x14
	mov	x4, x15
	b	.LBB5_13
.LBB5_55:
	mov	x20, x19
	mov	x4, x19
	b	.LBB5_13
.LBB5_56:
	ldp	x17, x8, [x29, #-48]
	ldr	x0, [sp, #24]
	ldp	x10, x9, [x29, #-32]
	ldp	x18, x27, [sp, #8]
	b	.LBB5_4
.LBB5_57:
	sub	x8, x15, #1
	cmp	x8, x0
	b.hs	.LBB5_59
	sub	w9, w12, #1
	mov	w10, #208
	bfxil	x10, x9, #0, #3
	b	.LBB5_60
.LBB5_59:
	mov	w10, #208
.LBB5_60:
	ubfx	x9, x14, #8, #8
	cmp	w9, #8
	mov	w9, #3
	b.hi	.LBB5_95
	lsr	x14, x14, #8
	mov	x15, #-1
	lsl	x14, x15, x14
	orr	x13, x14, x13
	cmn	x13, #1
	b.ne	.LBB5_95
	ldr	x13, [x6, #8]
	subs	x14, x17, x13
	b.hs	.LBB5_95
	ldr	x9, [x6]
	mov	x15, xzr
.LBB5_64:
	ldrb	w16, [x9, x17]
	cmp	x16, #255
	b.ne	.LBB5_66
	sub	x15, x15, #1
	add	x9, x9, #1
	cmp	x14, x15
	b.ne	.LBB5_64
	b	.LBB5_94
.LBB5_66:
	mov	w9, #3
	cbz	x15, .LBB5_95
	sub	x14, x17, x15
	cmp	x13, x14
	b.ls	.LBB5_95
	cmp	x10, x16
	b.ne	.LBB5_95
	sub	w9, w12, #1
	mov	w10, #-48
	cmp	x8, x0
	bfxil	w10, w9, #0, #3
	mov	w9, #-48
	sub	x13, x29, #48
	add	x12, x14, #1
	mov	x8, xzr
	stp	xzr, xzr, [x13, #16]
	csel	w9, w10, w9, lo
	cmp	w24, #1
	stur	xzr, [x13, #8]
	stur	x12, [x29, #-48]
	stur	x27, [x29, #-16]
	b.ne	.LBB5_75
	cbz	x4, .LBB5_76
	mov	w10, #8
	sub	x10, x10, x4
	lsr	x10, x20, x10
	cbnz	x10, .LBB5_76
	cmp	x4, #8
	b.ne	.LBB5_77
	cmp	x19, x21
	b.hs	.LBB5_81
.LBB5_74:
	mov	w8, #255
	strb	w8, [x3, x19]
	adds	x8, x19, #1
	csinv	x8, x8, xzr, lo
	cmp	x8, x21
	b.lo	.LBB5_82
	b	.LBB5_83
.LBB5_75:
	mov	x9, xzr
	mov	x10, xzr
	mov	w24, wzr
	mov	x19, xzr
	mov	x20, xzr
	mov	x4, xzr
	b	.LBB5_10
.LBB5_76:
	mov	x9, x8
	mov	x10, x8
	b	.LBB5_10
.LBB5_77:
	add	w8, w20, #1
	cmp	x19, x21
	lsl	x8, x8, x4
	b.hs	.LBB5_79
	sub	w10, w8, #1
	strb	w10, [x3, x19]
.LBB5_79:
	adds	x10, x19, #1
	csinv	x10, x10, xzr, lo
	tst	w8, #0xff
	b.eq	.LBB5_84
	mov	x19, x10
	cmp	x10, x21
	b.lo	.LBB5_74
.LBB5_81:
	adds	x8, x19, #1
	csinv	x8, x8, xzr, lo
	cmp	x8, x21
	b.hs	.LBB5_83
.LBB5_82:
	strb	w9, [x3, x8]
.LBB5_83:
	adds	x13, x19, #2
	ldr	x11, [x6, #144]
	mov	x8, xzr
	mov	x9, xzr
	mov	x10, xzr
	mov	x20, xzr
	csinv	x19, x13, xzr, lo
	mov	w24, #1
	mov	w4, #8
	b	.LBB5_10
.LBB5_84:
	cmp	x10, x21
	b.hs	.LBB5_86
	strb	wzr, [x3, x10]
.LBB5_86:
	adds	x8, x19, #2
	csinv	x19, x8, xzr, lo
	cmp	x19, x21
	b.hs	.LBB5_81
	b	.LBB5_74
.LBB5_87:
	ldp	x10, x17, [sp, #32]
	ldr	x27, [sp, #88]
	ldur	x8, [x29, #-48]
	ldrb	w9, [sp, #97]
	cmp	x27, x10
	csel	x17, x17, x8, eq
	b	.LBB5_95
.LBB5_88:
	mov	x10, xzr
	mov	w9, wzr
	mov	x27, xzr
	mov	x19, xzr
	mov	x20, xzr
	mov	w8, #1
	mov	w4, #8
	cmp	w9, #8
	b.hi	.LBB5_107
.LBB5_89:
	mov	x11, #-1
	lsl	x9, x11, x9
	orr	x9, x9, x10
	cmn	x9, #1
	b.ne	.LBB5_107
	ldr	x10, [x6, #8]
	subs	x9, x10, x17
	b.ls	.LBB5_107
	ldr	x12, [x6]
	mov	x11, xzr
	mov	x13, x17
.LBB5_92:
	ldrb	w14, [x12, x13]
	cmp	w14, #255
	b.ne	.LBB5_96
	sub	x9, x9, #1
	add	x13, x13, #1
	sub	x11, x11, #1
	cbnz	x9, .LBB5_92
	b	.LBB5_107
.LBB5_94:
	mov	w9, #3
.LBB5_95:
	mov	w8, #1
	ldr	x10, [sp, #48]
	dup	v0.2d, x8
	strb	w9, [x10, #16]
	strb	wzr, [x10, #23]
	sturh	wzr, [x10, #21]
	stur	wzr, [x10, #17]
	str	q0, [x10]
	stp	x27, x17, [x10, #24]
	b	.LBB5_108
.LBB5_96:
	cbz	x11, .LBB5_107
	cmp	x10, x13
	b.ls	.LBB5_107
	cmp	w14, #217
	b.ne	.LBB5_107
	cmp	x9, #1
	b.ne	.LBB5_107
	cbz	w8, .LBB5_109
	mov	x8, xzr
	cbz	x4, .LBB5_117
	mov	w9, #8
	sub	x9, x9, x4
	lsr	x9, x20, x9
	cbnz	x9, .LBB5_117
	cmp	x4, #8
	b.ne	.LBB5_110
	cmp	x19, x21
	b.hs	.LBB5_114
.LBB5_105:
	mov	w8, #255
	strb	w8, [x3, x19]
	adds	x8, x19, #1
	csinv	x8, x8, xzr, lo
	cmp	x8, x21
	b.lo	.LBB5_115
	b	.LBB5_116
.LBB5_106:
	ubfx	w9, w8, #8, #8
	cmp	w24, #1
	ldr	x0, [sp, #48]
	and	x10, x8, #0xff
	cset	w8, eq
	cmp	w9, #8
	b.ls	.LBB5_89
.LBB5_107:
	mov	w8, #1
	strb	wzr, [x0, #23]
	dup	v0.2d, x8
	mov	w8, #3
	sturh	wzr, [x0, #21]
	stur	wzr, [x0, #17]
	strb	w8, [x0, #16]
	str	q0, [x0]
	stp	x27, x17, [x0, #24]
.LBB5_108:
	ldp	x20, x19, [sp, #400]
	ldp	x22, x21, [sp, #384]
	ldp	x24, x23, [sp, #368]
	ldp	x26, x25, [sp, #352]
	ldp	x28, x27, [sp, #336]
	ldp	x29, x30, [sp, #320]
	add	sp, sp, #416
	ret
.LBB5_109:
	mov	x19, xzr
	mov	w8, #1
	b	.LBB5_117
.LBB5_110:
	add	w8, w20, #1
	cmp	x19, x21
	lsl	x8, x8, x4
	b.hs	.LBB5_112
	sub	w9, w8, #1
	strb	w9, [x3, x19]
.LBB5_112:
	adds	x9, x19, #1
	csinv	x9, x9, xzr, lo
	tst	w8, #0xff
	b.eq	.LBB5_118
	mov	x19, x9
	cmp	x9, x21
	b.lo	.LBB5_105
.LBB5_114:
	adds	x8, x19, #1
	csinv	x8, x8, xzr, lo
	cmp	x8, x21
	b.hs	.LBB5_116
.LBB5_115:
	mov	w9, #217
	strb	w9, [x3, x8]
.LBB5_116:
	adds	x9, x19, #2
	mov	x8, xzr
	csinv	x19, x9, xzr, lo
.LBB5_117:
	stp	x8, x19, [x0]
	stp	xzr, xzr, [x0, #24]
	str	xzr, [x0, #16]
	b	.LBB5_108
.LBB5_118:
	cmp	x9, x21
	b.hs	.LBB5_120
	strb	wzr, [x3, x9]
.LBB5_120:
	adds	x8, x19, #2
	csinv	x19, x8, xzr, lo
	cmp	x19, x21
	b.hs	.LBB5_114
	b	.LBB5_105
.LBB5_121:
	brk	#0x1
.Lfunc_end5:
	.size	"jpeg_write_scan::run::<#c44e4da361dd472c>", .Lfunc_end5-"jpeg_write_scan::run::<#c44e4da361dd472c>"

	.section	".text.core::fmt::type_impls::writers::RefMutWrite::write_str::<#18b16ec19ae6b37c>","ax",@progbits
	.p2align	2
	.type	"core::fmt::type_impls::writers::RefMutWrite::write_str::<#18b16ec19ae6b37c>",@function
"core::fmt::type_impls::writers::RefMutWrite::write_str::<#18b16ec19ae6b37c>":
	ldrb	w8, [x0, #72]
	tbz	w8, #0, .LBB6_2
	mov	w0, #1
	ret
.LBB6_2:
	sub	sp, sp, #80
	stp	x20, x19, [sp, #64]
	ldr	x20, [x0, #64]
	stp	x29, x30, [sp, #32]
	add	x29, sp, #32
	cmp	x20, #64
	str	x21, [sp, #48]
	b.hi	.LBB6_27
	mov	w8, #64
	sub	x8, x8, x20
	cmp	x2, x8
	b.ls	.LBB6_8
	cmp	x20, #62
	b.lo	.LBB6_14
	mov	x19, x0
	add	x0, sp, #8
	mov	x2, x20
	mov	x1, x19
	stp	xzr, xzr, [sp, #8]
	str	xzr, [sp, #24]
	bl	"core::str::utf8::from_utf8"
	ldrb	w8, [sp, #8]
	ldp	x10, x9, [sp, #16]
	adrp	x11, .Lstatic.2
	add	x11, x11, :lo12:.Lstatic.2
	mov	x0, x19
	cmp	w8, #0
	csel	x8, x9, xzr, eq
	csel	x9, x10, x11, eq
	cmp	x8, #62
	b.lo	.LBB6_21
	ldrsb	w8, [x9, #61]
	cmn	w8, #65
	b.le	.LBB6_32
	mov	w8, #61
	b	.LBB6_21
.LBB6_8:
	add	x8, x0, x20
	sub	x8, x8, x1
	cmp	x8, x2
	b.hs	.LBB6_23
	cmp	x2, #8
	b.lo	.LBB6_11
	add	x8, x20, x0
	sub	x8, x8, x1
	cmp	x8, #32
	b.hs	.LBB6_34
.LBB6_11:
	mov	x8, xzr
.LBB6_12:
	add	x10, x8, x20
	sub	x9, x2, x8
	add	x8, x1, x8
	add	x10, x0, x10
.LBB6_13:
	ldrb	w11, [x8], #1
	subs	x9, x9, #1
	strb	w11, [x10], #1
	b.ne	.LBB6_13
	b	.LBB6_24
.LBB6_14:
	cmp	x20, #61
	b.eq	.LBB6_18
	mov	w8, #61
	sub	x19, x8, x20
.LBB6_16:
	ldrsb	w8, [x1, x19]
	cmn	w8, #65
	b.gt	.LBB6_28
	subs	x19, x19, #1
	b.ne	.LBB6_16
.LBB6_18:
	mov	x19, xzr
	mov	x21, x0
	add	x8, x0, x20
.LBB6_19:
	mov	x0, x8
	mov	x2, x19
	bl	memmove
	mov	x0, x21
.LBB6_20:
	add	x8, x19, x20
.LBB6_21:
	add	x9, x0, x8
	adrp	x10, .Lstatic.12
	add	x10, x10, :lo12:.Lstatic.12
	sub	x10, x9, x10
	str	x8, [x0, #64]
	sub	x10, x10, #16
	cmp	x10, #2
	b.hi	.LBB6_25
	mov	w10, #11822
	mov	w11, #46
	strh	w10, [x9]
	strb	w11, [x9, #2]
	b	.LBB6_26
.LBB6_23:
	mov	x21, x0
	add	x0, x0, x20
	mov	x19, x2
	bl	memmove
	mov	x2, x19
	mov	x0, x21
.LBB6_24:
	add	x9, x20, x2
	str	x9, [x0, #64]
	mov	w0, wzr
	ldp	x20, x19, [sp, #64]
	ldr	x21, [sp, #48]
	ldp	x29, x30, [sp, #32]
	add	sp, sp, #80
	ret
.LBB6_25:
	mov	w10, #46
	mov	w11, #11822
	strb	w10, [x9, #2]
	strh	w11, [x9]
.LBB6_26:
	add	x8, x8, #3
	mov	w9, #1
	str	x8, [x0, #64]
	strb	w9, [x0, #72]
.LBB6_27:
	mov	w0, #1
	ldp	x20, x19, [sp, #64]
	ldr	x21, [sp, #48]
	ldp	x29, x30, [sp, #32]
	add	sp, sp, #80
	ret
.LBB6_28:
	add	x8, x0, x20
	sub	x9, x8, x1
	cmp	x9, x19
	b.hs	.LBB6_36
	cmp	x19, #8
	b.lo	.LBB6_31
	add	x9, x20, x0
	sub	x9, x9, x1
	cmp	x9, #32
	b.hs	.LBB6_48
.LBB6_31:
	mov	x9, xzr
	b	.LBB6_169
.LBB6_32:
	ldrsb	w8, [x9, #60]
	cmn	w8, #65
	b.le	.LBB6_37
	mov	w8, #60
	b	.LBB6_21
.LBB6_34:
	cmp	x2, #32
	b.hs	.LBB6_39
	mov	x8, xzr
	b	.LBB6_43
.LBB6_36:
	mov	x21, x0
	b	.LBB6_19
.LBB6_37:
	ldrsb	w8, [x9, #59]
	cmn	w8, #65
	b.le	.LBB6_46
	mov	w8, #59
	b	.LBB6_21
.LBB6_39:
	add	x11, x20, x0
	and	x9, x2, #0x18
	and	x8, x2, #0xffffffffffffffe0
	add	x10, x1, #16
	add	x11, x11, #16
	and	x12, x2, #0xffffffffffffffe0
.LBB6_40:
	ldp	q0, q1, [x10, #-16]
	subs	x12, x12, #32
	add	x10, x10, #32
	stp	q0, q1, [x11, #-16]
	add	x11, x11, #32
	b.ne	.LBB6_40
	cmp	x2, x8
	b.eq	.LBB6_24
	cbz	x9, .LBB6_12
.LBB6_43:
	mov	x10, x8
	and	x8, x2, #0xfffffffffffffff8
	add	x11, x10, x20
	sub	x9, x10, x8
	add	x10, x1, x10
	add	x11, x0, x11
.LBB6_44:
	ldr	d0, [x10], #8
	adds	x9, x9, #8
	str	d0, [x11], #8
	b.ne	.LBB6_44
	cmp	x2, x8
	b.eq	.LBB6_24
	b	.LBB6_12
.LBB6_46:
	ldrsb	w8, [x9, #58]
	cmn	w8, #65
	b.le	.LBB6_50
	mov	w8, #58
	b	.LBB6_21
.LBB6_48:
	cmp	x19, #32
	b.hs	.LBB6_52
	mov	x9, xzr
	b	.LBB6_56
.LBB6_50:
	ldrsb	w8, [x9, #57]
	cmn	w8, #65
	b.le	.LBB6_58
	mov	w8, #57
	b	.LBB6_21
.LBB6_52:
	add	x12, x20, x0
	and	x10, x19, #0x18
	and	x9, x19, #0xffffffffffffffe0
	add	x11, x1, #16
	add	x12, x12, #16
	and	x13, x19, #0xffffffffffffffe0
.LBB6_53:
	ldp	q0, q1, [x11, #-16]
	subs	x13, x13, #32
	add	x11, x11, #32
	stp	q0, q1, [x12, #-16]
	add	x12, x12, #32
	b.ne	.LBB6_53
	cmp	x19, x9
	b.eq	.LBB6_20
	cbz	x10, .LBB6_169
.LBB6_56:
	mov	x11, x9
	and	x9, x19, #0xfffffffffffffff8
	add	x12, x11, x20
	sub	x10, x11, x9
	add	x11, x1, x11
	add	x12, x0, x12
.LBB6_57:
	ldr	d0, [x11], #8
	adds	x10, x10, #8
	str	d0, [x12], #8
	b.ne	.LBB6_57
	b	.LBB6_170
.LBB6_58:
	ldrsb	w8, [x9, #56]
	cmn	w8, #65
	b.le	.LBB6_60
	mov	w8, #56
	b	.LBB6_21
.LBB6_60:
	ldrsb	w8, [x9, #55]
	cmn	w8, #65
	b.le	.LBB6_62
	mov	w8, #55
	b	.LBB6_21
.LBB6_62:
	ldrsb	w8, [x9, #54]
	cmn	w8, #65
	b.le	.LBB6_64
	mov	w8, #54
	b	.LBB6_21
.LBB6_64:
	ldrsb	w8, [x9, #53]
	cmn	w8, #65
	b.le	.LBB6_66
	mov	w8, #53
	b	.LBB6_21
.LBB6_66:
	ldrsb	w8, [x9, #52]
	cmn	w8, #65
	b.le	.LBB6_68
	mov	w8, #52
	mov	x0, x19
	b	.LBB6_21
.LBB6_68:
	ldrsb	w8, [x9, #51]
	cmn	w8, #65
	b.le	.LBB6_70
	mov	w8, #51
	mov	x0, x19
	b	.LBB6_21
.LBB6_70:
	ldrsb	w8, [x9, #50]
	cmn	w8, #65
	b.le	.LBB6_72
	mov	w8, #50
	mov	x0, x19
	b	.LBB6_21
.LBB6_72:
	ldrsb	w8, [x9, #49]
	cmn	w8, #65
	b.le	.LBB6_74
	mov	w8, #49
	mov	x0, x19
	b	.LBB6_21
.LBB6_74:
	ldrsb	w8, [x9, #48]
	cmn	w8, #65
	b.le	.LBB6_76
	mov	w8, #48
	mov	x0, x19
	b	.LBB6_21
.LBB6_76:
	ldrsb	w8, [x9, #47]
	cmn	w8, #65
	b.le	.LBB6_78
	mov	w8, #47
	mov	x0, x19
	b	.LBB6_21
.LBB6_78:
	ldrsb	w8, [x9, #46]
	cmn	w8, #65
	b.le	.LBB6_80
	mov	w8, #46
	mov	x0, x19
	b	.LBB6_21
.LBB6_80:
	ldrsb	w8, [x9, #45]
	cmn	w8, #65
	b.le	.LBB6_82
	mov	w8, #45
	mov	x0, x19
	b	.LBB6_21
.LBB6_82:
	ldrsb	w8, [x9, #44]
	cmn	w8, #65
	b.le	.LBB6_84
	mov	w8, #44
	mov	x0, x19
	b	.LBB6_21
.LBB6_84:
	ldrsb	w8, [x9, #43]
	cmn	w8, #65
	b.le	.LBB6_86
	mov	w8, #43
	mov	x0, x19
	b	.LBB6_21
.LBB6_86:
	ldrsb	w8, [x9, #42]
	cmn	w8, #65
	b.le	.LBB6_88
	mov	w8, #42
	mov	x0, x19
	b	.LBB6_21
.LBB6_88:
	ldrsb	w8, [x9, #41]
	cmn	w8, #65
	b.le	.LBB6_90
	mov	w8, #41
	mov	x0, x19
	b	.LBB6_21
.LBB6_90:
	ldrsb	w8, [x9, #40]
	cmn	w8, #65
	b.le	.LBB6_92
	mov	w8, #40
	mov	x0, x19
	b	.LBB6_21
.LBB6_92:
	ldrsb	w8, [x9, #39]
	cmn	w8, #65
	b.le	.LBB6_94
	mov	w8, #39
	mov	x0, x19
	b	.LBB6_21
.LBB6_94:
	ldrsb	w8, [x9, #38]
	cmn	w8, #65
	b.le	.LBB6_96
	mov	w8, #38
	mov	x0, x19
	b	.LBB6_21
.LBB6_96:
	ldrsb	w8, [x9, #37]
	cmn	w8, #65
	b.le	.LBB6_98
	mov	w8, #37
	mov	x0, x19
	b	.LBB6_21
.LBB6_98:
	ldrsb	w8, [x9, #36]
	cmn	w8, #65
	b.le	.LBB6_100
	mov	w8, #36
	mov	x0, x19
	b	.LBB6_21
.LBB6_100:
	ldrsb	w8, [x9, #35]
	cmn	w8, #65
	b.le	.LBB6_102
	mov	w8, #35
	mov	x0, x19
	b	.LBB6_21
.LBB6_102:
	ldrsb	w8, [x9, #34]
	cmn	w8, #65
	b.le	.LBB6_104
	mov	w8, #34
	mov	x0, x19
	b	.LBB6_21
.LBB6_104:
	ldrsb	w8, [x9, #33]
	cmn	w8, #65
	b.le	.LBB6_106
	mov	w8, #33
	mov	x0, x19
	b	.LBB6_21
.LBB6_106:
	ldrsb	w8, [x9, #32]
	cmn	w8, #65
	b.le	.LBB6_108
	mov	w8, #32
	mov	x0, x19
	b	.LBB6_21
.LBB6_108:
	ldrsb	w8, [x9, #31]
	cmn	w8, #65
	b.le	.LBB6_110
	mov	w8, #31
	mov	x0, x19
	b	.LBB6_21
.LBB6_110:
	ldrsb	w8, [x9, #30]
	cmn	w8, #65
	b.le	.LBB6_112
	mov	w8, #30
	mov	x0, x19
	b	.LBB6_21
.LBB6_112:
	ldrsb	w8, [x9, #29]
	cmn	w8, #65
	b.le	.LBB6_114
	mov	w8, #29
	mov	x0, x19
	b	.LBB6_21
.LBB6_114:
	ldrsb	w8, [x9, #28]
	cmn	w8, #65
	b.le	.LBB6_116
	mov	w8, #28
	mov	x0, x19
	b	.LBB6_21
.LBB6_116:
	ldrsb	w8, [x9, #27]
	cmn	w8, #65
	b.le	.LBB6_118
	mov	w8, #27
	mov	x0, x19
	b	.LBB6_21
.LBB6_118:
	ldrsb	w8, [x9, #26]
	cmn	w8, #65
	b.le	.LBB6_120
	mov	w8, #26
	mov	x0, x19
	b	.LBB6_21
.LBB6_120:
	ldrsb	w8, [x9, #25]
	cmn	w8, #65
	b.le	.LBB6_122
	mov	w8, #25
	mov	x0, x19
	b	.LBB6_21
.LBB6_122:
	ldrsb	w8, [x9, #24]
	cmn	w8, #65
	b.le	.LBB6_124
	mov	w8, #24
	mov	x0, x19
	b	.LBB6_21
.LBB6_124:
	ldrsb	w8, [x9, #23]
	cmn	w8, #65
	b.le	.LBB6_126
	mov	w8, #23
	mov	x0, x19
	b	.LBB6_21
.LBB6_126:
	ldrsb	w8, [x9, #22]
	cmn	w8, #65
	b.le	.LBB6_128
	mov	w8, #22
	mov	x0, x19
	b	.LBB6_21
.LBB6_128:
	ldrsb	w8, [x9, #21]
	cmn	w8, #65
	b.le	.LBB6_130
	mov	w8, #21
	mov	x0, x19
	b	.LBB6_21
.LBB6_130:
	ldrsb	w8, [x9, #20]
	cmn	w8, #65
	b.le	.LBB6_132
	mov	w8, #20
	mov	x0, x19
	b	.LBB6_21
.LBB6_132:
	ldrsb	w8, [x9, #19]
	cmn	w8, #65
	b.le	.LBB6_134
	mov	w8, #19
	mov	x0, x19
	b	.LBB6_21
.LBB6_134:
	ldrsb	w8, [x9, #18]
	cmn	w8, #65
	b.le	.LBB6_136
	mov	w8, #18
	mov	x0, x19
	b	.LBB6_21
.LBB6_136:
	ldrsb	w8, [x9, #17]
	cmn	w8, #65
	b.le	.LBB6_138
	mov	w8, #17
	mov	x0, x19
	b	.LBB6_21
.LBB6_138:
	ldrsb	w8, [x9, #16]
	cmn	w8, #65
	b.le	.LBB6_140
	mov	w8, #16
	mov	x0, x19
	b	.LBB6_21
.LBB6_140:
	ldrsb	w8, [x9, #15]
	cmn	w8, #65
	b.le	.LBB6_142
	mov	w8, #15
	mov	x0, x19
	b	.LBB6_21
.LBB6_142:
	ldrsb	w8, [x9, #14]
	cmn	w8, #65
	b.le	.LBB6_144
	mov	w8, #14
	mov	x0, x19
	b	.LBB6_21
.LBB6_144:
	ldrsb	w8, [x9, #13]
	cmn	w8, #65
	b.le	.LBB6_146
	mov	w8, #13
	mov	x0, x19
	b	.LBB6_21
.LBB6_146:
	ldrsb	w8, [x9, #12]
	cmn	w8, #65
	b.le	.LBB6_148
	mov	w8, #12
	mov	x0, x19
	b	.LBB6_21
.LBB6_148:
	ldrsb	w8, [x9, #11]
	cmn	w8, #65
	b.le	.LBB6_150
	mov	w8, #11
	mov	x0, x19
	b	.LBB6_21
.LBB6_150:
	ldrsb	w8, [x9, #10]
	cmn	w8, #65
	b.le	.LBB6_152
	mov	w8, #10
	mov	x0, x19
	b	.LBB6_21
.LBB6_152:
	ldrsb	w8, [x9, #9]
	cmn	w8, #65
	b.le	.LBB6_154
	mov	w8, #9
	mov	x0, x19
	b	.LBB6_21
.LBB6_154:
	ldrsb	w8, [x9, #8]
	cmn	w8, #65
	b.le	.LBB6_156
	mov	w8, #8
	mov	x0, x19
	b	.LBB6_21
.LBB6_156:
	ldrsb	w8, [x9, #7]
	cmn	w8, #65
	b.le	.LBB6_158
	mov	w8, #7
	mov	x0, x19
	b	.LBB6_21
.LBB6_158:
	ldrsb	w8, [x9, #6]
	cmn	w8, #65
	b.le	.LBB6_160
	mov	w8, #6
	mov	x0, x19
	b	.LBB6_21
.LBB6_160:
	ldrsb	w8, [x9, #5]
	cmn	w8, #65
	b.le	.LBB6_162
	mov	w8, #5
	mov	x0, x19
	b	.LBB6_21
.LBB6_162:
	ldrsb	w8, [x9, #4]
	cmn	w8, #65
	b.le	.LBB6_164
	mov	w8, #4
	mov	x0, x19
	b	.LBB6_21
.LBB6_164:
	ldrsb	w8, [x9, #3]
	cmn	w8, #65
	b.le	.LBB6_166
	mov	w8, #3
	mov	x0, x19
	b	.LBB6_21
.LBB6_166:
	ldrsb	w8, [x9, #2]
	cmn	w8, #65
	b.le	.LBB6_168
	mov	w8, #2
	mov	x0, x19
	b	.LBB6_21
.LBB6_168:
	ldrsb	w8, [x9, #1]
	mov	x0, x19
	cmn	w8, #65
	cset	w8, gt
	b	.LBB6_21
.LBB6_169:
	ldrb	w10, [x1, x9]
	strb	w10, [x8, x9]
	add	x9, x9, #1
.LBB6_170:
	cmp	x19, x9
	b.ne	.LBB6_169
	b	.LBB6_20
.Lfunc_end6:
	.size	"core::fmt::type_impls::writers::RefMutWrite::write_str::<#18b16ec19ae6b37c>", .Lfunc_end6-"core::fmt::type_impls::writers::RefMutWrite::write_str::<#18b16ec19ae6b37c>"

	.section	".text.core::str::utf8::from_utf8","ax",@progbits
	.p2align	2
	.type	"core::str::utf8::from_utf8",@function
"core::str::utf8::from_utf8":
	sub	sp, sp, #64
	stp	x22, x21, [sp, #32]
	mov	x21, x1
	stp	x20, x19, [sp, #48]
	mov	x20, x2
	mov	x19, x0
	stp	x29, x30, [sp, #16]
	add	x29, sp, #16
	cbz	x2, .LBB7_51
	mov	x9, xzr
	sub	x22, x20, #8
	b	.LBB7_6
.LBB7_2:
	and	w11, w11, #0xff
	tbnz	w11, #7, .LBB7_23
.LBB7_3:
	mov	w12, #1
.LBB7_4:
	add	x8, x12, x9
.LBB7_5:
	cmp	x8, x20
	mov	x9, x8
	b.hs	.LBB7_51
.LBB7_6:
	add	x8, x21, x9
	sub	x10, x20, x9
	ldrsb	w11, [x8]
	cmp	x10, #2
	b.lo	.LBB7_2
	tbnz	w11, #31, .LBB7_2
	ldrsb	w11, [x8, #1]
	tbnz	w11, #31, .LBB7_3
	cmp	x10, #7
	stp	x21, x20, [sp]
	b.hi	.LBB7_28
	ldrsb	w8, [x21, x9]
	tbnz	w8, #31, .LBB7_43
	add	x8, x9, #1
	cmp	x8, x20
	b.eq	.LBB7_51
	ldrsb	w10, [x21, x8]
	tbnz	w10, #31, .LBB7_5
	add	x8, x9, #2
	cmp	x8, x20
	b.eq	.LBB7_51
	ldrsb	w10, [x21, x8]
	tbnz	w10, #31, .LBB7_5
	add	x8, x9, #3
	cmp	x8, x20
	b.eq	.LBB7_51
	ldrsb	w10, [x21, x8]
	tbnz	w10, #31, .LBB7_5
	add	x8, x9, #4
	cmp	x8, x20
	b.eq	.LBB7_51
	ldrsb	w10, [x21, x8]
	tbnz	w10, #31, .LBB7_5
	add	x8, x9, #5
	cmp	x8, x20
	b.eq	.LBB7_51
	ldrsb	w10, [x21, x8]
	tbnz	w10, #31, .LBB7_5
	add	x8, x9, #6
	cmp	x8, x20
	b.eq	.LBB7_51
	ldrsb	w9, [x21, x8]
	tbnz	w9, #31, .LBB7_5
	b	.LBB7_51
.LBB7_23:
	cmp	w11, #194
	b.lo	.LBB7_59
	cmp	w11, #223
	b.hi	.LBB7_36
	cmp	x10, #2
	b.lo	.LBB7_58
	ldrsb	w12, [x8, #1]
	cmn	w12, #65
	b.gt	.LBB7_55
	mov	w12, #2
	b	.LBB7_4
.LBB7_28:
	ldr	x8, [x8]
	mov	w10, #8
	ands	x8, x8, #0x8080808080808080
	rbit	x8, x8
	clz	x8, x8
	lsr	x8, x8, #3
	csel	x8, x10, x8, eq
	add	x8, x8, x9
	add	x9, x9, #8
	cmp	x8, x9
	b.lo	.LBB7_5
	sub	x9, x20, x8
	cmp	x9, #32
	b.lo	.LBB7_32
.LBB7_30:
	add	x9, x21, x8
	ldp	q1, q0, [x9]
	orr	v0.16b, v1.16b, v0.16b
	ext	v1.16b, v0.16b, v0.16b, #8
	orr	v0.8b, v0.8b, v1.8b
	fmov	x9, d0
	tst	x9, #0x8080808080808080
	b.ne	.LBB7_32
	mov	x0, sp
	add	x1, x8, #32
	mov	x2, x20
	bl	"core::slice::words::skip_far::<#52f9edcae2f82f51>"
	sub	x9, x20, x0
	mov	x8, x0
	cmp	x9, #31
	b.hi	.LBB7_30
.LBB7_32:
	sub	x9, x20, x8
.LBB7_33:
	cmp	x9, #9
	b.lo	.LBB7_50
	ldr	x10, [x21, x8]
	mov	w11, #8
	sub	x9, x9, #8
	ands	x10, x10, #0x8080808080808080
	rbit	x10, x10
	clz	x10, x10
	lsr	x10, x10, #3
	csel	x10, x11, x10, eq
	add	x11, x10, x8
	add	x8, x8, #8
	cmp	x11, x8
	b.hs	.LBB7_33
	add	x8, x10, x8
	sub	x8, x8, #8
	b	.LBB7_5
.LBB7_36:
	cmp	w11, #239
	b.hi	.LBB7_44
	cmp	x10, #3
	b.lo	.LBB7_53
	ldrsb	w12, [x8, #1]
	cmn	w12, #65
	b.gt	.LBB7_55
	ldrsb	w13, [x8, #2]
	cmn	w13, #65
	b.gt	.LBB7_55
	and	w13, w12, #0xff
	mov	w14, #-14464
	add	w13, w13, w11, lsl #6
	add	w13, w13, w14
	cmp	w13, #32
	b.lo	.LBB7_55
	cmp	w13, #896
	mov	w12, #3
	csel	x14, xzr, x12, lo
	cmp	w13, #864
	b.lo	.LBB7_4
	mov	x12, x14
	b	.LBB7_49
.LBB7_43:
	mov	x8, x9
	b	.LBB7_5
.LBB7_44:
	cmp	x10, #4
	b.lo	.LBB7_52
	ldrsb	w12, [x8, #1]
	cmn	w12, #65
	b.gt	.LBB7_52
	ldrsb	w13, [x8, #2]
	cmn	w13, #65
	b.gt	.LBB7_52
	ldrsb	w13, [x8, #3]
	cmn	w13, #65
	b.gt	.LBB7_52
	and	w12, w12, #0xff
	mov	w13, #-15488
	add	w12, w12, w11, lsl #6
	add	w13, w12, w13
	mov	w12, #4
	cmp	w13, #272
	csel	x12, x12, xzr, lo
	cmp	w13, #16
	b.lo	.LBB7_52
.LBB7_49:
	cbnz	x12, .LBB7_4
	b	.LBB7_52
.LBB7_50:
	ldr	x8, [x21, x22]
	mov	w9, #8
	ands	x8, x8, #0x8080808080808080
	rbit	x8, x8
	clz	x8, x8
	lsr	x8, x8, #3
	csel	x8, x9, x8, eq
	add	x8, x8, x22
	b	.LBB7_5
.LBB7_51:
	stp	xzr, x21, [x19]
	str	x20, [x19, #16]
	ldp	x20, x19, [sp, #48]
	ldp	x22, x21, [sp, #32]
	ldp	x29, x30, [sp, #16]
	add	sp, sp, #64
	ret
.LBB7_52:
	cmp	w11, #244
	b.hi	.LBB7_59
.LBB7_53:
	cmp	x10, #2
	b.lo	.LBB7_58
	ldrb	w12, [x8, #1]
.LBB7_55:
	cmp	w11, #240
	mov	w13, #-128
	mov	w14, #-112
	mov	w15, #-96
	csel	w13, w14, w13, eq
	cmp	w11, #224
	mov	w14, #-65
	csel	w13, w15, w13, eq
	mov	w15, #-113
	cmp	w11, #244
	and	w16, w13, #0xf0
	csel	w13, w15, w14, eq
	cmp	w11, #237
	mov	w11, #-97
	csel	w13, w11, w13, eq
	cmp	w16, w12, uxtb
	mov	w11, #257
	b.hi	.LBB7_60
	and	w12, w12, #0xff
	cmp	w12, w13, uxtb
	b.hi	.LBB7_60
	cmp	x10, #2
	b.ne	.LBB7_61
.LBB7_58:
	mov	x11, xzr
	b	.LBB7_60
.LBB7_59:
	mov	w11, #257
.LBB7_60:
	mov	w8, #1
	str	x11, [x19, #16]
	stp	x8, x9, [x19]
	ldp	x20, x19, [sp, #48]
	ldp	x22, x21, [sp, #32]
	ldp	x29, x30, [sp, #16]
	add	sp, sp, #64
	ret
.LBB7_61:
	ldrsb	w8, [x8, #2]
	cmn	w8, #65
	b.gt	.LBB7_63
	cmp	x10, #3
	mov	w8, #769
	csel	x11, x8, xzr, hi
	b	.LBB7_60
.LBB7_63:
	mov	w11, #513
	b	.LBB7_60
.Lfunc_end7:
	.size	"core::str::utf8::from_utf8", .Lfunc_end7-"core::str::utf8::from_utf8"

	.section	".text.core::slice::words::skip_far::<#52f9edcae2f82f51>","ax",@progbits
	.p2align	2
	.type	"core::slice::words::skip_far::<#52f9edcae2f82f51>",@function
"core::slice::words::skip_far::<#52f9edcae2f82f51>":
	sub	x8, x2, x1
	cmp	x8, #64
	b.lo	.LBB8_4
	ldr	x9, [x0]
.LBB8_2:
	add	x10, x9, x1
	ldp	q0, q1, [x10, #32]
	ldp	q2, q3, [x10]
	orr	v1.16b, v3.16b, v1.16b
	orr	v0.16b, v2.16b, v0.16b
	orr	v0.16b, v0.16b, v1.16b
	ext	v1.16b, v0.16b, v0.16b, #8
	orr	v0.8b, v0.8b, v1.8b
	fmov	x10, d0
	tst	x10, #0x8080808080808080
	b.ne	.LBB8_4
	sub	x8, x8, #64
	add	x1, x1, #64
	cmp	x8, #63
	b.hi	.LBB8_2
.LBB8_4:
	mov	x0, x1
	ret
.Lfunc_end8:
	.size	"core::slice::words::skip_far::<#52f9edcae2f82f51>", .Lfunc_end8-"core::slice::words::skip_far::<#52f9edcae2f82f51>"

	.section	.rodata.cst16,"aM",@progbits,16
	.p2align	4, 0x0
.LCPI9_0:
	.xword	3327647951695996518
	.xword	3327647950551526958
.LCPI9_1:
	.xword	2334399978102268015
	.xword	8458358670138239095
.LCPI9_2:
	.xword	1840898
	.xword	8367798494427701606
.LCPI9_3:
	.byte	0
	.byte	1
	.byte	2
	.byte	3
	.byte	4
	.byte	5
	.byte	6
	.byte	7
	.byte	8
	.byte	9
	.byte	10
	.byte	11
	.byte	12
	.byte	13
	.byte	14
	.byte	15
.LCPI9_4:
	.byte	16
	.byte	17
	.byte	18
	.byte	19
	.byte	20
	.byte	21
	.byte	22
	.byte	23
	.byte	24
	.byte	25
	.byte	26
	.byte	27
	.byte	28
	.byte	29
	.byte	30
	.byte	31
	.section	.rodata.cst8,"aM",@progbits,8
	.p2align	3, 0x0
.LCPI9_5:
	.byte	32
	.byte	33
	.byte	34
	.byte	35
	.byte	36
	.byte	37
	.byte	38
	.byte	39
	.section	".text.std::io::stdio::StdoutWrite::write_all","ax",@progbits
	.p2align	2
	.type	"std::io::stdio::StdoutWrite::write_all",@function
"std::io::stdio::StdoutWrite::write_all":
	sub	sp, sp, #256
	stp	x24, x23, [sp, #208]
	mov	w23, #1
	stp	x22, x21, [sp, #224]
	mov	x21, x1
	add	x22, sp, #96
	stp	x20, x19, [sp, #240]
	mov	x20, x2
	mov	x19, x0
	stp	x29, x30, [sp, #192]
	add	x29, sp, #192
	b	.LBB9_2
.LBB9_1:
	adds	x23, x23, #1
	b.hs	.LBB9_10
.LBB9_2:
	cbz	x20, .LBB9_9
	mov	w0, #1
	mov	x1, x21
	mov	x2, x20
	bl	write
	tbnz	x0, #63, .LBB9_6
	cbz	x0, .LBB9_11
	cmp	x0, x20
	csel	x8, x0, x20, lo
	add	x21, x21, x8
	sub	x20, x20, x8
	b	.LBB9_1
.LBB9_6:
	bl	rattle_errno
	mov	w1, w0
	add	x0, sp, #96
	add	x24, sp, #96
	bl	"std_io::io::error::Error::from_raw_os_error"
	ldur	q0, [x22, #56]
	ldur	q1, [x22, #72]
	adrp	x8, .LCPI9_3
	ldr	x9, [sp, #96]
	ldr	q3, [x8, :lo12:.LCPI9_3]
	adrp	x8, .LCPI9_4
	stp	q0, q1, [sp, #64]
	ldp	q0, q1, [sp, #96]
	ubfx	w10, w9, #8, #8
	ldr	q4, [x8, :lo12:.LCPI9_4]
	adrp	x8, .LCPI9_5
	ldr	q2, [sp, #128]
	ldr	d5, [x8, :lo12:.LCPI9_5]
	mov	w11, #40
	ldr	x8, [sp, #144]
	cmp	w10, #41
	stp	q3, q4, [sp, #96]
	str	d5, [sp, #128]
	strb	w11, [sp, #136]
	b.hs	.LBB9_8
	ubfx	x9, x9, #8, #6
	ldrb	w9, [x24, x9]
	cmp	w9, #35
	b.eq	.LBB9_1
.LBB9_8:
	ldp	q3, q4, [sp, #64]
	mov	w9, #1
	stp	q3, q4, [sp]
	b	.LBB9_12
.LBB9_9:
	movi	v0.2d, #0000000000000000
	mov	w9, wzr
	mov	x8, xzr
	movi	v1.2d, #0000000000000000
	movi	v2.2d, #0000000000000000
	stp	q0, q0, [sp]
	b	.LBB9_12
.LBB9_10:
	adrp	x2, .Lstatic.16
	add	x2, x2, :lo12:.Lstatic.16
	add	x0, sp, #96
	mov	w1, #22
	mov	w3, #43
	bl	"std_io::io::error::Error::from_static_message"
	ldp	q0, q1, [sp, #96]
	mov	w9, #1
	ldur	q3, [x22, #72]
	ldur	q4, [x22, #56]
	ldr	q2, [sp, #128]
	ldr	x8, [sp, #144]
	stp	q4, q3, [sp]
	stp	q4, q3, [sp, #32]
	b	.LBB9_12
.LBB9_11:
	movi	v3.16b, #46
	adrp	x8, .LCPI9_0
	adrp	x9, .LCPI9_1
	adrp	x10, .LCPI9_2
	ldr	q2, [x8, :lo12:.LCPI9_0]
	ldr	q1, [x9, :lo12:.LCPI9_1]
	ldr	q0, [x10, :lo12:.LCPI9_2]
	mov	x8, #1012762419733073422
	mov	w9, #1
	orr	x8, x8, #0x2222222222222222
	stp	q3, q3, [sp]
.LBB9_12:
	stur	q0, [x19, #8]
	ldp	x22, x21, [sp, #224]
	stur	q1, [x19, #24]
	ldp	q0, q1, [sp]
	strb	w9, [x19]
	ldp	x24, x23, [sp, #208]
	stur	q2, [x19, #40]
	ldp	x29, x30, [sp, #192]
	str	x8, [x19, #56]
	stp	q0, q1, [x19, #64]
	ldp	x20, x19, [sp, #240]
	add	sp, sp, #256
	ret
.Lfunc_end9:
	.size	"std::io::stdio::StdoutWrite::write_all", .Lfunc_end9-"std::io::stdio::StdoutWrite::write_all"

	.section	".text.std_io::io::error::Error::from_static_message","ax",@progbits
	.p2align	2
	.type	"std_io::io::error::Error::from_static_message",@function
"std_io::io::error::Error::from_static_message":
	sub	sp, sp, #192
	ldr	x8, [x2]
	cmp	x3, #15
	stp	x28, x27, [sp, #112]
	stp	x26, x25, [sp, #128]
	stp	x30, x8, [sp, #96]
	ldr	w8, [x2, #8]
	stp	x24, x23, [sp, #144]
	str	x8, [sp, #64]
	ldrb	w8, [x2, #12]
	stp	x22, x21, [sp, #160]
	str	x8, [sp, #56]
	ldrb	w8, [x2, #13]
	stp	x20, x19, [sp, #176]
	str	x8, [sp, #72]
	ldrb	w8, [x2, #14]
	str	w1, [sp, #92]
	str	x8, [sp, #80]
	b.ne	.LBB10_2
	mov	x17, #12947848928690176
	mov	x14, #197568495616
	mov	w15, #46
	mov	x22, #50577534877696
	mov	x2, #3314649325744685056
	mov	w16, #3014656
	mov	w25, #771751936
	mov	w21, #11776
	mov	w8, #11776
	mov	x9, #3314649325744685056
	mov	x11, #50577534877696
	mov	w12, #771751936
	mov	w20, #11776
	mov	x7, #3314649325744685056
	mov	x6, #50577534877696
	mov	w4, #771751936
	mov	w18, #11776
	mov	x13, #3314649325744685056
	b	.LBB10_6
.LBB10_2:
	ldrb	w8, [x2, #15]
	cmp	x3, #17
	lsl	x13, x8, #56
	b.lo	.LBB10_5
	ldrb	w15, [x2, #16]
	cmp	x3, #17
	b.ne	.LBB10_16
	mov	w5, #46
	mov	x17, #12947848928690176
	mov	x14, #197568495616
	mov	x22, #50577534877696
	mov	x2, #3314649325744685056
	mov	w16, #3014656
	mov	w25, #771751936
	mov	w21, #11776
	mov	w8, #11776
	mov	x9, #3314649325744685056
	mov	x11, #50577534877696
	mov	w12, #771751936
	mov	w20, #11776
	mov	x7, #3314649325744685056
	mov	x6, #50577534877696
	mov	w4, #771751936
	mov	w18, #11776
	b	.LBB10_7
.LBB10_5:
	mov	x17, #12947848928690176
	mov	x14, #197568495616
	mov	w15, #46
	mov	x22, #50577534877696
	mov	x2, #3314649325744685056
	mov	w16, #3014656
	mov	w25, #771751936
	mov	w21, #11776
	mov	w8, #11776
	mov	x9, #3314649325744685056
	mov	x11, #50577534877696
	mov	w12, #771751936
	mov	w20, #11776
	mov	x7, #3314649325744685056
	mov	x6, #50577534877696
	mov	w4, #771751936
	mov	w18, #11776
.LBB10_6:
	mov	w5, #46
.LBB10_7:
	mov	w19, #3014656
.LBB10_8:
	mov	x30, #197568495616
.LBB10_9:
	mov	x28, #12947848928690176
.LBB10_10:
	mov	w10, #46
.LBB10_11:
	mov	w23, #3014656
.LBB10_12:
	mov	x24, #197568495616
.LBB10_13:
	mov	x26, #12947848928690176
.LBB10_14:
	mov	w27, #46
	mov	w1, #3014656
.LBB10_15:
	orr	x2, x22, x2
	orr	x8, x25, x8
	mov	w10, w10
	orr	x2, x2, x8
	orr	x10, x10, x23
	orr	x9, x11, x9
	orr	x10, x2, x10
	orr	x11, x12, x20
	mov	w15, w15
	ldp	x2, x12, [sp, #56]
	orr	x15, x15, x16
	mov	w5, w5
	orr	x9, x9, x11
	orr	x11, x6, x7
	orr	x18, x4, x18
	orr	x14, x14, x17
	orr	x12, x12, x2, lsl #32
	mov	w2, #2
	orr	x11, x11, x18
	strb	w2, [x0]
	ldp	x2, x16, [sp, #72]
	orr	x11, x11, x15
	orr	x11, x11, x14
	movi	v0.16b, #46
	orr	x1, x21, x1
	orr	x12, x12, x2, lsl #40
	ldr	w2, [sp, #92]
	mov	w8, w27
	orr	x8, x1, x8
	orr	x1, x24, x26
	strb	w3, [x0, #2]
	orr	x12, x12, x16, lsl #48
	strb	w2, [x0, #1]
	orr	x2, x5, x19
	orr	x9, x9, x2
	ldp	x20, x19, [sp, #176]
	orr	x12, x12, x13
	ldr	x13, [sp, #104]
	orr	x10, x10, x1
	ldp	x22, x21, [sp, #160]
	strb	wzr, [x0, #3]
	stp	x13, x12, [x0, #8]
	orr	x13, x30, x28
	ldr	x30, [sp, #96]
	orr	x9, x9, x13
	ldp	x24, x23, [sp, #144]
	stp	x11, x9, [x0, #24]
	mov	x11, #771751936
	movk	x11, #11822, lsl #32
	ldp	x26, x25, [sp, #128]
	movk	x11, #11822, lsl #48
	ldp	x28, x27, [sp, #112]
	orr	x8, x8, x11
	str	wzr, [x0, #4]
	stp	x10, x8, [x0, #40]
	stur	q0, [x0, #56]
	stur	q0, [x0, #72]
	add	sp, sp, #192
	ret
.LBB10_16:
	ldrb	w8, [x2, #17]
	cmp	x3, #19
	lsl	x18, x8, #8
	b.lo	.LBB10_19
	ldrb	w8, [x2, #18]
	cmp	x3, #19
	lsl	x16, x8, #16
	b.ne	.LBB10_20
	mov	w5, #46
	mov	x17, #12947848928690176
	mov	x14, #197568495616
	mov	x22, #50577534877696
	mov	x2, #3314649325744685056
	mov	w19, #3014656
	mov	w25, #771751936
	mov	w21, #11776
	mov	w8, #11776
	mov	x9, #3314649325744685056
	mov	x11, #50577534877696
	mov	w12, #771751936
	mov	w20, #11776
	mov	x7, #3314649325744685056
	mov	x6, #50577534877696
	mov	w4, #771751936
	b	.LBB10_8
.LBB10_19:
	mov	w5, #46
	mov	x17, #12947848928690176
	mov	x14, #197568495616
	mov	x22, #50577534877696
	mov	x2, #3314649325744685056
	mov	w16, #3014656
	mov	w25, #771751936
	mov	w21, #11776
	mov	w8, #11776
	mov	x9, #3314649325744685056
	mov	x11, #50577534877696
	mov	w12, #771751936
	mov	w20, #11776
	mov	x7, #3314649325744685056
	mov	x6, #50577534877696
	mov	w4, #771751936
	b	.LBB10_7
.LBB10_20:
	ldrb	w8, [x2, #19]
	cmp	x3, #21
	lsl	x4, x8, #24
	b.lo	.LBB10_23
	ldrb	w8, [x2, #20]
	cmp	x3, #21
	lsl	x14, x8, #32
	b.ne	.LBB10_24
	mov	x30, #197568495616
	mov	w5, #46
	mov	x17, #12947848928690176
	mov	x22, #50577534877696
	mov	x2, #3314649325744685056
	mov	w19, #3014656
	mov	w25, #771751936
	mov	w21, #11776
	mov	w8, #11776
	mov	x9, #3314649325744685056
	mov	x11, #50577534877696
	mov	w12, #771751936
	mov	w20, #11776
	mov	x7, #3314649325744685056
	mov	x6, #50577534877696
	b	.LBB10_9
.LBB10_23:
	mov	w5, #46
	mov	x17, #12947848928690176
	mov	x14, #197568495616
	mov	x22, #50577534877696
	mov	x2, #3314649325744685056
	mov	w19, #3014656
	mov	w25, #771751936
	mov	w21, #11776
	mov	w8, #11776
	mov	x9, #3314649325744685056
	mov	x11, #50577534877696
	mov	w12, #771751936
	mov	w20, #11776
	mov	x7, #3314649325744685056
	mov	x6, #50577534877696
	b	.LBB10_8
.LBB10_24:
	ldrb	w8, [x2, #21]
	cmp	x3, #23
	lsl	x6, x8, #40
	b.lo	.LBB10_27
	ldrb	w8, [x2, #22]
	cmp	x3, #23
	lsl	x17, x8, #48
	b.ne	.LBB10_28
	mov	x28, #12947848928690176
	mov	x30, #197568495616
	mov	w5, #46
	mov	x22, #50577534877696
	mov	x2, #3314649325744685056
	mov	w19, #3014656
	mov	w25, #771751936
	mov	w21, #11776
	mov	w8, #11776
	mov	x9, #3314649325744685056
	mov	x11, #50577534877696
	mov	w12, #771751936
	mov	w20, #11776
	mov	x7, #3314649325744685056
	b	.LBB10_10
.LBB10_27:
	mov	x30, #197568495616
	mov	w5, #46
	mov	x17, #12947848928690176
	mov	x22, #50577534877696
	mov	x2, #3314649325744685056
	mov	w19, #3014656
	mov	w25, #771751936
	mov	w21, #11776
	mov	w8, #11776
	mov	x9, #3314649325744685056
	mov	x11, #50577534877696
	mov	w12, #771751936
	mov	w20, #11776
	mov	x7, #3314649325744685056
	b	.LBB10_9
.LBB10_28:
	ldrb	w8, [x2, #23]
	cmp	x3, #25
	lsl	x7, x8, #56
	b.lo	.LBB10_31
	ldrb	w5, [x2, #24]
	cmp	x3, #25
	b.ne	.LBB10_32
	mov	w10, #46
	mov	x28, #12947848928690176
	mov	x30, #197568495616
	mov	x22, #50577534877696
	mov	x2, #3314649325744685056
	mov	w19, #3014656
	mov	w25, #771751936
	mov	w21, #11776
	mov	w8, #11776
	mov	x9, #3314649325744685056
	mov	x11, #50577534877696
	mov	w12, #771751936
	mov	w20, #11776
	b	.LBB10_11
.LBB10_31:
	mov	x28, #12947848928690176
	mov	x30, #197568495616
	mov	w5, #46
	mov	x22, #50577534877696
	mov	x2, #3314649325744685056
	mov	w19, #3014656
	mov	w25, #771751936
	mov	w21, #11776
	mov	w8, #11776
	mov	x9, #3314649325744685056
	mov	x11, #50577534877696
	mov	w12, #771751936
	mov	w20, #11776
	b	.LBB10_10
.LBB10_32:
	ldrb	w8, [x2, #25]
	cmp	x3, #27
	lsl	x20, x8, #8
	b.lo	.LBB10_35
	ldrb	w8, [x2, #26]
	cmp	x3, #27
	lsl	x19, x8, #16
	b.ne	.LBB10_36
	mov	w10, #46
	mov	x28, #12947848928690176
	mov	x30, #197568495616
	mov	x22, #50577534877696
	mov	x2, #3314649325744685056
	mov	w23, #3014656
	mov	w25, #771751936
	mov	w21, #11776
	mov	w8, #11776
	mov	x9, #3314649325744685056
	mov	x11, #50577534877696
	mov	w12, #771751936
	b	.LBB10_12
.LBB10_35:
	mov	w10, #46
	mov	x28, #12947848928690176
	mov	x30, #197568495616
	mov	x22, #50577534877696
	mov	x2, #3314649325744685056
	mov	w19, #3014656
	mov	w25, #771751936
	mov	w21, #11776
	mov	w8, #11776
	mov	x9, #3314649325744685056
	mov	x11, #50577534877696
	mov	w12, #771751936
	b	.LBB10_11
.LBB10_36:
	ldrb	w8, [x2, #27]
	cmp	x3, #29
	lsl	x8, x8, #24
	str	x8, [sp, #48]
	b.lo	.LBB10_39
	ldrb	w8, [x2, #28]
	cmp	x3, #29
	lsl	x8, x8, #32
	str	x8, [sp, #40]
	b.ne	.LBB10_40
	ldp	x30, x12, [sp, #40]
	mov	x24, #197568495616
	mov	w10, #46
	mov	x28, #12947848928690176
	mov	x22, #50577534877696
	mov	x2, #3314649325744685056
	mov	w23, #3014656
	mov	w25, #771751936
	mov	w21, #11776
	mov	w8, #11776
	mov	x9, #3314649325744685056
	mov	x11, #50577534877696
	b	.LBB10_13
.LBB10_39:
	ldr	x12, [sp, #48]
	mov	w10, #46
	mov	x28, #12947848928690176
	mov	x30, #197568495616
	mov	x22, #50577534877696
	mov	x2, #3314649325744685056
	mov	w23, #3014656
	mov	w25, #771751936
	mov	w21, #11776
	mov	w8, #11776
	mov	x9, #3314649325744685056
	mov	x11, #50577534877696
	b	.LBB10_12
.LBB10_40:
	ldrb	w8, [x2, #29]
	cmp	x3, #31
	lsl	x8, x8, #40
	str	x8, [sp, #32]
	b.lo	.LBB10_43
	ldrb	w8, [x2, #30]
	cmp	x3, #31
	lsl	x8, x8, #48
	str	x8, [sp, #24]
	b.ne	.LBB10_45
	ldr	x30, [sp, #40]
	ldr	x28, [sp, #24]
	mov	x26, #12947848928690176
	mov	x24, #197568495616
	mov	w10, #46
	mov	x22, #50577534877696
	mov	x2, #3314649325744685056
	mov	w23, #3014656
	mov	w25, #771751936
	mov	w21, #11776
	mov	w8, #11776
	mov	x9, #3314649325744685056
	b	.LBB10_44
.LBB10_43:
	ldr	x30, [sp, #40]
	mov	x24, #197568495616
	mov	w10, #46
	mov	x28, #12947848928690176
	mov	x22, #50577534877696
	mov	x2, #3314649325744685056
	mov	w23, #3014656
	mov	w25, #771751936
	mov	w21, #11776
	mov	w8, #11776
	mov	x9, #3314649325744685056
	mov	x26, #12947848928690176
.LBB10_44:
	mov	w27, #46
	mov	w1, #3014656
	ldr	x12, [sp, #48]
	ldr	x11, [sp, #32]
	b	.LBB10_15
.LBB10_45:
	ldrb	w8, [x2, #31]
	cmp	x3, #33
	lsl	x8, x8, #56
	str	x8, [sp, #16]
	b.lo	.LBB10_48
	ldrb	w8, [x2, #32]
	cmp	x3, #33
	str	w8, [sp, #12]
	b.ne	.LBB10_49
	mov	w27, #46
	mov	x26, #12947848928690176
	mov	x24, #197568495616
	mov	x22, #50577534877696
	mov	x2, #3314649325744685056
	mov	w23, #3014656
	mov	w25, #771751936
	mov	w21, #11776
	mov	w8, #11776
	b	.LBB10_53
.LBB10_48:
	ldp	x30, x12, [sp, #40]
	mov	x26, #12947848928690176
	ldp	x28, x11, [sp, #24]
	mov	x24, #197568495616
	ldr	x9, [sp, #16]
	mov	w10, #46
	mov	x22, #50577534877696
	mov	x2, #3314649325744685056
	mov	w23, #3014656
	mov	w25, #771751936
	mov	w21, #11776
	mov	w8, #11776
	b	.LBB10_14
.LBB10_49:
	ldrb	w8, [x2, #33]
	cmp	x3, #35
	lsl	x8, x8, #8
	b.lo	.LBB10_52
	ldrb	w9, [x2, #34]
	cmp	x3, #35
	lsl	x23, x9, #16
	b.ne	.LBB10_56
	mov	w27, #46
	mov	x26, #12947848928690176
	mov	x24, #197568495616
	mov	x22, #50577534877696
	mov	x2, #3314649325744685056
	mov	w1, #3014656
	mov	w25, #771751936
	mov	w21, #11776
	b	.LBB10_54
.LBB10_52:
	mov	w27, #46
	mov	x26, #12947848928690176
	mov	x24, #197568495616
	mov	x22, #50577534877696
	mov	x2, #3314649325744685056
	mov	w23, #3014656
	mov	w25, #771751936
	mov	w21, #11776
.LBB10_53:
	mov	w1, #3014656
.LBB10_54:
	ldp	x30, x12, [sp, #40]
.LBB10_55:
	ldp	x28, x11, [sp, #24]
	ldr	x9, [sp, #16]
	ldr	w10, [sp, #12]
	b	.LBB10_15
.LBB10_56:
	ldrb	w9, [x2, #35]
	cmp	x3, #37
	lsl	x25, x9, #24
	b.lo	.LBB10_59
	ldrb	w9, [x2, #36]
	cmp	x3, #37
	lsl	x24, x9, #32
	b.ne	.LBB10_62
	mov	w27, #46
	mov	x26, #12947848928690176
	b	.LBB10_60
.LBB10_59:
	mov	w27, #46
	mov	x26, #12947848928690176
	mov	x24, #197568495616
.LBB10_60:
	mov	x22, #50577534877696
.LBB10_61:
	mov	x2, #3314649325744685056
	mov	w1, #3014656
	mov	w21, #11776
	b	.LBB10_54
.LBB10_62:
	ldrb	w9, [x2, #37]
	cmp	x3, #39
	lsl	x22, x9, #40
	b.lo	.LBB10_65
	ldrb	w9, [x2, #38]
	cmp	x3, #39
	lsl	x26, x9, #48
	b.ne	.LBB10_66
	mov	w27, #46
	b	.LBB10_61
.LBB10_65:
	mov	w27, #46
	mov	x26, #12947848928690176
	b	.LBB10_61
.LBB10_66:
	ldrb	w9, [x2, #39]
	cmp	x3, #41
	lsl	x9, x9, #56
	b.lo	.LBB10_70
	ldrb	w27, [x2, #40]
	cmp	x3, #41
	b.eq	.LBB10_71
	ldrb	w10, [x2, #41]
	cmp	x3, #43
	lsl	x21, x10, #8
	b.lo	.LBB10_73
	ldrb	w10, [x2, #42]
	lsl	x1, x10, #16
	b	.LBB10_72
.LBB10_70:
	mov	w27, #46
.LBB10_71:
	mov	w1, #3014656
	mov	w21, #11776
.LBB10_72:
	ldp	x30, x12, [sp, #40]
	mov	x2, x9
	b	.LBB10_55
.LBB10_73:
	mov	w1, #3014656
	b	.LBB10_72
.Lfunc_end10:
	.size	"std_io::io::error::Error::from_static_message", .Lfunc_end10-"std_io::io::error::Error::from_static_message"

	.section	.rodata.cst16,"aM",@progbits,16
	.p2align	4, 0x0
.LCPI11_0:
	.xword	8458358670138239095
	.xword	3327647951695996518
.LCPI11_1:
	.xword	8367798494427701606
	.xword	2334399978102268015
	.section	.rodata.cst8,"aM",@progbits,8
	.p2align	3, 0x0
.LCPI11_2:
	.hword	2
	.hword	23
	.hword	28
	.hword	0
.LCPI11_3:
	.hword	0
	.hword	35
	.hword	0
	.hword	0
	.section	".text.std_io::io::buffer::Buffer::flush","ax",@progbits
	.p2align	2
	.type	"std_io::io::buffer::Buffer::flush",@function
"std_io::io::buffer::Buffer::flush":
	sub	sp, sp, #208
	stp	x22, x21, [sp, #176]
	ldr	x22, [x0, #1032]
	stp	x29, x30, [sp, #128]
	add	x29, sp, #128
	cmp	x22, #1025
	str	x25, [sp, #144]
	stp	x24, x23, [sp, #160]
	stp	x20, x19, [sp, #192]
	str	xzr, [x0, #1032]
	b.lo	.LBB11_2
	mov	w0, wzr
	b	.LBB11_15
.LBB11_2:
	mov	x24, x0
	mov	x19, x0
	mov	x23, xzr
	ldr	w20, [x24], #4
	add	x25, x22, #64
	b	.LBB11_5
.LBB11_3:
	bl	rattle_errno
	cmp	w0, #4
	b.ne	.LBB11_13
	subs	x25, x25, #1
	b.eq	.LBB11_9
.LBB11_5:
	subs	x21, x22, x23
	b.ls	.LBB11_11
	add	x1, x24, x23
	mov	w0, w20
	mov	x2, x21
	bl	write
	tbnz	x0, #63, .LBB11_3
	cbz	x0, .LBB11_12
	cmp	x0, x21
	csel	x8, x0, x21, lo
	add	x23, x8, x23
	subs	x25, x25, #1
	b.ne	.LBB11_5
.LBB11_9:
	cmp	x22, x23
	b.ls	.LBB11_11
	movi	v1.2d, #0000000000000000
	movi	v2.2d, #0000000000000000
	adrp	x8, .LCPI11_3
	movi	v0.2d, #0000000000000000
	ldr	d3, [x8, :lo12:.LCPI11_3]
	mov	w8, #4
	stp	q1, q1, [sp]
	b	.LBB11_14
.LBB11_11:
	mov	w0, #1
	b	.LBB11_15
.LBB11_12:
	movi	v0.16b, #46
	adrp	x9, .LCPI11_0
	adrp	x10, .LCPI11_1
	adrp	x11, .LCPI11_2
	ldr	q2, [x9, :lo12:.LCPI11_0]
	ldr	q1, [x10, :lo12:.LCPI11_1]
	ldr	d3, [x11, :lo12:.LCPI11_2]
	mov	w8, wzr
	stp	q0, q0, [sp]
	b	.LBB11_14
.LBB11_13:
	mov	w1, w0
	add	x0, sp, #40
	bl	"std_io::io::error::Error::from_raw_os_error"
	ldr	s0, [sp, #40]
	ldp	q4, q5, [sp, #96]
	ldp	q1, q2, [sp, #48]
	ldr	w8, [sp, #44]
	ushll	v3.8h, v0.8b, #0
	ldur	q0, [sp, #80]
	stp	q4, q5, [sp]
.LBB11_14:
	uzp1	v3.8b, v3.8b, v0.8b
	str	q1, [x19, #1056]
	mov	w0, wzr
	str	q0, [x19, #1088]
	ldp	q1, q0, [sp]
	str	w8, [x19, #1052]
	mov	w8, #1
	str	q2, [x19, #1072]
	str	x8, [x19, #1040]
	str	s3, [x19, #1048]
	str	q1, [x19, #1104]
	str	q0, [x19, #1120]
.LBB11_15:
	ldp	x20, x19, [sp, #192]
	ldr	x25, [sp, #144]
	ldp	x22, x21, [sp, #176]
	ldp	x24, x23, [sp, #160]
	ldp	x29, x30, [sp, #128]
	add	sp, sp, #208
	ret
.Lfunc_end11:
	.size	"std_io::io::buffer::Buffer::flush", .Lfunc_end11-"std_io::io::buffer::Buffer::flush"

	.section	".text.unlikely.core::fmt::formatter::Formatter::write_indented::<#bf264aed5fa78656>","ax",@progbits
	.p2align	2
	.type	"core::fmt::formatter::Formatter::write_indented::<#bf264aed5fa78656>",@function
"core::fmt::formatter::Formatter::write_indented::<#bf264aed5fa78656>":
	stp	x29, x30, [sp, #-80]!
	str	x25, [sp, #16]
	mov	x29, sp
	stp	x24, x23, [sp, #32]
	stp	x22, x21, [sp, #48]
	stp	x20, x19, [sp, #64]
	cbz	x2, .LBB12_16
	mov	x21, x2
	mov	x20, x1
	mov	x19, x0
	mov	x8, xzr
	mov	x24, xzr
	b	.LBB12_4
.LBB12_2:
	mov	w23, #1
	add	x1, x20, x25
	mov	x0, x19
	mov	x2, x22
	strb	w23, [x19, #1168]
	bl	"core::fmt::formatter::Formatter::write_raw::<#bf264aed5fa78656>"
	and	w9, w0, #0xff
	mov	x8, x24
	tbnz	w9, #0, .LBB12_18
.LBB12_3:
	cmp	x24, x21
	b.eq	.LBB12_10
.LBB12_4:
	ldrb	w10, [x20, x24]
	mov	x9, x24
	add	x24, x24, #1
	cmp	w10, #10
	b.ne	.LBB12_3
	subs	x22, x24, x8
	csel	x25, xzr, x8, lo
	cmp	x8, x9
	mov	x8, x24
	b.hi	.LBB12_3
	ldrb	w8, [x19, #1168]
	cmp	w8, #1
	b.ne	.LBB12_2
	ldr	x23, [x19, #1160]
	cbz	x23, .LBB12_2
.LBB12_8:
	adrp	x1, .Lstatic.13
	add	x1, x1, :lo12:.Lstatic.13
	mov	x0, x19
	mov	w2, #4
	bl	"core::fmt::formatter::Formatter::write_raw::<#bf264aed5fa78656>"
	and	w8, w0, #0xff
	tbnz	w8, #0, .LBB12_17
	subs	x23, x23, #1
	b.ne	.LBB12_8
	b	.LBB12_2
.LBB12_10:
	cmp	x8, x21
	csel	x22, xzr, x8, hi
	subs	x8, x21, x8
	csel	x21, xzr, x8, lo
	b.ls	.LBB12_16
	ldrb	w8, [x19, #1168]
	cmp	w8, #1
	b.ne	.LBB12_15
	ldr	x23, [x19, #1160]
	cbz	x23, .LBB12_15
.LBB12_13:
	adrp	x1, .Lstatic.13
	add	x1, x1, :lo12:.Lstatic.13
	mov	x0, x19
	mov	w2, #4
	bl	"core::fmt::formatter::Formatter::write_raw::<#bf264aed5fa78656>"
	and	w8, w0, #0xff
	tbnz	w8, #0, .LBB12_17
	subs	x23, x23, #1
	b.ne	.LBB12_13
.LBB12_15:
	add	x1, x20, x22
	mov	x0, x19
	mov	x2, x21
	strb	wzr, [x19, #1168]
	ldp	x20, x19, [sp, #64]
	ldp	x22, x21, [sp, #48]
	ldr	x25, [sp, #16]
	ldp	x24, x23, [sp, #32]
	ldp	x29, x30, [sp], #80
	b	"core::fmt::formatter::Formatter::write_raw::<#bf264aed5fa78656>"
.LBB12_16:
	mov	w23, wzr
	b	.LBB12_18
.LBB12_17:
	mov	w23, #1
.LBB12_18:
	mov	w0, w23
	ldp	x20, x19, [sp, #64]
	ldp	x22, x21, [sp, #48]
	ldr	x25, [sp, #16]
	ldp	x24, x23, [sp, #32]
	ldp	x29, x30, [sp], #80
	ret
.Lfunc_end12:
	.size	"core::fmt::formatter::Formatter::write_indented::<#bf264aed5fa78656>", .Lfunc_end12-"core::fmt::formatter::Formatter::write_indented::<#bf264aed5fa78656>"

	.section	".text.core::fmt::formatter::Formatter::write_raw::<#bf264aed5fa78656>","ax",@progbits
	.p2align	2
	.type	"core::fmt::formatter::Formatter::write_raw::<#bf264aed5fa78656>",@function
"core::fmt::formatter::Formatter::write_raw::<#bf264aed5fa78656>":
	cbz	x2, .LBB13_21
	stp	x29, x30, [sp, #-64]!
	stp	x22, x21, [sp, #32]
	mov	x21, x0
	mov	x8, xzr
	stp	x20, x19, [sp, #48]
	mov	x19, x2
	mov	x20, x1
	str	x23, [sp, #16]
	mov	x29, sp
	b	.LBB13_4
.LBB13_2:
	mov	w10, #1
.LBB13_3:
	add	x8, x10, x8
	cmp	x8, x19
	b.hs	.LBB13_22
.LBB13_4:
	ldrsb	w9, [x20, x8]
	tbz	w9, #31, .LBB13_2
	add	x10, x8, #1
	cmp	x19, x10
	b.ls	.LBB13_29
	ldrsb	w10, [x20, x10]
	tbz	w10, #31, .LBB13_29
	and	w9, w9, #0xff
	cmn	w10, #64
	mov	w11, #-64
	csel	w10, w10, w11, lo
	cmp	w9, #194
	mov	w0, #1
	b.lo	.LBB13_28
	and	w10, w10, #0x7f
	cmp	w10, #63
	b.hi	.LBB13_28
	cmp	w9, #224
	b.hs	.LBB13_11
	mov	w10, #2
	b	.LBB13_3
.LBB13_11:
	add	x11, x8, #2
	cmp	x19, x11
	b.ls	.LBB13_28
	ldrsb	w11, [x20, x11]
	cmn	w11, #65
	b.gt	.LBB13_28
	cmp	w9, #239
	b.hi	.LBB13_17
	lsl	w11, w9, #12
	add	w10, w11, w10, lsl #6
	sub	w10, w10, #224, lsl #12
	cmp	w10, #2048
	b.lo	.LBB13_28
	lsr	w10, w10, #11
	cmp	w10, #27
	mov	w10, #3
	b.lo	.LBB13_3
	cmp	w9, #238
	b.hs	.LBB13_3
	b	.LBB13_28
.LBB13_17:
	add	x11, x8, #3
	cmp	x19, x11
	b.ls	.LBB13_28
	ldrsb	w11, [x20, x11]
	cmn	w11, #65
	b.gt	.LBB13_28
	lsl	w9, w9, #18
	add	w9, w9, w10, lsl #12
	mov	w10, #-62980096
	add	w9, w9, w10
	lsr	w9, w9, #20
	cbnz	w9, .LBB13_28
	mov	w10, #4
	b	.LBB13_3
.LBB13_21:
	mov	w0, wzr
	ret
.LBB13_22:
	ldr	x8, [x21, #1032]
	add	x22, x21, #4
	b	.LBB13_24
.LBB13_23:
	sub	x19, x19, #1
	strb	w23, [x22, x8]
	add	x8, x8, #1
	str	x8, [x21, #1032]
	cbz	x19, .LBB13_30
.LBB13_24:
	ldrb	w23, [x20], #1
	cmp	x8, #1024
	b.lo	.LBB13_23
	mov	x0, x21
	bl	"std_io::io::buffer::Buffer::flush"
	cbz	w0, .LBB13_29
	ldr	x8, [x21, #1032]
	cmp	x8, #1023
	b.ls	.LBB13_23
	mov	w0, #1
.LBB13_28:
	ldp	x20, x19, [sp, #48]
	ldr	x23, [sp, #16]
	ldp	x22, x21, [sp, #32]
	ldp	x29, x30, [sp], #64
	ret
.LBB13_29:
	mov	w0, #1
	ldp	x20, x19, [sp, #48]
	ldr	x23, [sp, #16]
	ldp	x22, x21, [sp, #32]
	ldp	x29, x30, [sp], #64
	ret
.LBB13_30:
	mov	w0, wzr
	ldp	x20, x19, [sp, #48]
	ldr	x23, [sp, #16]
	ldp	x22, x21, [sp, #32]
	ldp	x29, x30, [sp], #64
	ret
.Lfunc_end13:
	.size	"core::fmt::formatter::Formatter::write_raw::<#bf264aed5fa78656>", .Lfunc_end13-"core::fmt::formatter::Formatter::write_raw::<#bf264aed5fa78656>"

	.section	.rodata.cst16,"aM",@progbits,16
	.p2align	4, 0x0
.LCPI14_0:
	.byte	1
	.byte	2
	.byte	4
	.byte	8
	.byte	16
	.byte	32
	.byte	64
	.byte	128
	.byte	1
	.byte	2
	.byte	4
	.byte	8
	.byte	16
	.byte	32
	.byte	64
	.byte	128
.LCPI14_1:
	.xword	1
	.xword	3
.LCPI14_2:
	.xword	1
	.xword	4
	.section	.text.main,"ax",@progbits
	.globl	main
	.p2align	2
	.type	main,@function
main:
	stp	x29, x30, [sp, #-96]!
	sub	x9, sp, #86, lsl #12
	stp	x28, x27, [sp, #16]
	mov	x29, sp
	sub	x9, x9, #1024
	stp	x26, x25, [sp, #32]
	stp	x24, x23, [sp, #48]
	stp	x22, x21, [sp, #64]
	stp	x20, x19, [sp, #80]
.LBB14_1:
	sub	sp, sp, #3072
	cmp	sp, x9
	str	xzr, [sp]
	b.ne	.LBB14_1
	sub	sp, sp, #384
	add	x25, sp, #82, lsl #12
	add	x26, sp, #80, lsl #12
	add	x22, sp, #16, lsl #12
	mov	w0, #13
	mov	w1, #1
	sub	x27, x29, #256
	add	x25, x25, #1120
	add	x26, x26, #224
	add	x22, x22, #224
	mov	w19, #65537
	bl	__sysv_signal
	add	x0, sp, #208
	mov	w1, wzr
	mov	w2, #65537
	add	x20, sp, #208
	bl	memset
	mov	x28, xzr
.LBB14_3:
	add	x1, x20, x28
	sub	x2, x19, x28
	mov	w0, wzr
	sub	x21, x19, x28
	bl	read
	tbnz	x0, #63, .LBB14_8
	cbz	x0, .LBB14_6
	cmp	x0, x21
	csel	x8, x0, x21, lo
	add	x28, x8, x28
	cmp	x28, x19
	b.lo	.LBB14_3
.LBB14_6:
	str	x0, [sp, #144]
	add	x0, sp, #16, lsl #12
	mov	w1, wzr
	add	x0, x0, #224
	mov	w2, #262144
	bl	memset
	movi	v0.2d, #0000000000000000
	cmp	x28, #16, lsl #12
	stp	q0, q0, [x26]
	stp	q0, q0, [x26, #32]
	stp	q0, q0, [x26, #64]
	stp	q0, q0, [x26, #96]
	stp	q0, q0, [x26, #128]
	stp	q0, q0, [x26, #160]
	stp	q0, q0, [x26, #192]
	stp	q0, q0, [x26, #224]
	stp	q0, q0, [x26, #256]
	stp	q0, q0, [x26, #288]
	stp	q0, q0, [x26, #320]
	stp	q0, q0, [x26, #352]
	stp	q0, q0, [x26, #384]
	stp	q0, q0, [x26, #416]
	stp	q0, q0, [x26, #448]
	stp	q0, q0, [x26, #480]
	stp	q0, q0, [x26, #512]
	b.ls	.LBB14_9
	add	x15, sp, #84, lsl #12
	mov	x4, xzr
	stp	xzr, xzr, [sp, #168]
	stp	xzr, xzr, [sp, #192]
	mov	x19, xzr
	mov	x10, xzr
	mov	x18, xzr
	mov	x3, xzr
	mov	x7, xzr
	mov	x17, xzr
	mov	x2, xzr
	str	xzr, [sp, #184]
	mov	x14, xzr
	mov	x23, xzr
	str	xzr, [sp, #136]
	mov	x6, xzr
	mov	x0, xzr
	mov	x30, xzr
	mov	x8, xzr
	mov	x11, xzr
	mov	w9, wzr
	mov	x21, xzr
	mov	x16, xzr
	mov	x24, xzr
	mov	x5, xzr
	mov	x20, xzr
	stp	q0, q0, [x26]
	stp	q0, q0, [x26, #32]
	add	x15, x15, #1152
	b	.LBB14_145
.LBB14_8:
	str	x0, [sp, #144]
	bl	rattle_errno
	b	.LBB14_196
.LBB14_9:
	add	x15, sp, #84, lsl #12
	mov	x16, xzr
	cmp	x28, #2
	mov	w21, #3
	add	x15, x15, #1152
	stp	q0, q0, [x26, #544]
	stp	q0, q0, [x26, #576]
	stp	q0, q0, [x26, #608]
	stp	q0, q0, [x26, #640]
	b.lo	.LBB14_143
	ldrb	w8, [sp, #208]
	cmp	w8, #255
	b.ne	.LBB14_143
	ldrb	w8, [sp, #209]
	mov	x24, x16
	mov	x5, x16
	cmp	w8, #216
	b.ne	.LBB14_144
	mvn	x10, x28
	add	x11, sp, #84, lsl #12
	movi	v16.2d, #0000000000000000
	lsl	x10, x10, #1
	add	x11, x11, #1152
	mov	x19, xzr
	mov	x4, xzr
	mov	x18, xzr
	mov	x3, xzr
	str	x10, [sp, #32]
	add	x10, x11, #88
	mov	x7, xzr
	str	x10, [sp, #40]
	add	x10, x11, #56
	mov	x17, xzr
	str	x10, [sp, #8]
	add	x10, x11, #24
	mov	x2, xzr
	str	x10, [sp, #104]
	add	x10, x11, #296
	mov	x14, xzr
	mov	x9, xzr
	mov	w24, wzr
	mov	x5, xzr
	mov	x20, xzr
	str	x10, [sp, #24]
	add	x10, x11, #40
	mov	w16, #2
	stp	xzr, xzr, [sp, #160]
	stp	xzr, xzr, [sp, #192]
	stp	xzr, xzr, [sp, #176]
	str	xzr, [sp, #152]
	str	q16, [x15, #8208]
	str	q16, [x15, #8192]
	str	q16, [x25, #8192]
	str	q16, [x25, #8208]
	stp	q16, q16, [x26, #672]
	stp	q16, q16, [x26, #704]
	str	x10, [sp, #16]
.LBB14_13:
	and	w10, w24, #0xff
	stp	q16, q16, [x26, #736]
	cmp	w10, #2
	stp	q16, q16, [x26, #896]
	stp	q16, q16, [x27, #48]
	stp	q16, q16, [x27, #96]
	b.eq	.LBB14_21
	cmp	w10, #1
	b.ne	.LBB14_24
	subs	x10, x5, x16
	b.lo	.LBB14_22
	b.eq	.LBB14_28
	cmp	x10, #65
	b.lo	.LBB14_22
	add	x10, sp, #208
	add	x10, x10, x16
	ldrb	w12, [x10]
	cmp	w12, #3
	b.hi	.LBB14_22
	ldur	q0, [x10, #17]
	ldur	q1, [x10, #33]
	mov	x21, x14
	ldur	q2, [x10, #49]
	ldur	q3, [x10, #1]
	adrp	x10, .LCPI14_0
	cmeq	v1.16b, v1.16b, #0
	cmeq	v0.16b, v0.16b, #0
	ldr	q4, [x10, :lo12:.LCPI14_0]
	cmeq	v3.16b, v3.16b, #0
	cmeq	v2.16b, v2.16b, #0
	and	v1.16b, v1.16b, v4.16b
	and	v0.16b, v0.16b, v4.16b
	and	v3.16b, v3.16b, v4.16b
	and	v2.16b, v2.16b, v4.16b
	ext	v4.16b, v1.16b, v1.16b, #8
	ext	v7.16b, v0.16b, v0.16b, #8
	ext	v5.16b, v3.16b, v3.16b, #8
	ext	v6.16b, v2.16b, v2.16b, #8
	zip1	v1.16b, v1.16b, v4.16b
	zip1	v0.16b, v0.16b, v7.16b
	zip1	v3.16b, v3.16b, v5.16b
	zip1	v2.16b, v2.16b, v6.16b
	addv	h1, v1.8h
	addv	h0, v0.8h
	addv	h3, v3.8h
	addv	h2, v2.8h
	fmov	w10, s1
	fmov	w14, s0
	fmov	w11, s3
	fmov	w13, s2
	orr	w10, w11, w10
	orr	w11, w14, w13
	orr	w10, w10, w11
	tst	w10, #0xffff
	b.ne	.LBB14_22
	ldr	x8, [sp, #152]
	mov	w13, #1
	stur	w9, [x15, #9]
	strb	w13, [x15, #8]
	lsr	x13, x9, #48
	lsr	x9, x9, #32
	stp	x8, x18, [x15, #24]
	ldr	x8, [sp, #168]
	ldr	q0, [x15, #8192]
	strb	w13, [x15, #15]
	ldr	q1, [x15, #8208]
	ldr	x13, [sp, #40]
	stp	x4, x8, [x15, #40]
	mov	w11, wzr
	mov	w10, wzr
	ldr	x8, [sp, #200]
	sturh	w9, [x15, #13]
	add	x9, sp, #84, lsl #12
	stp	q0, q1, [x13]
	ldr	q0, [x25, #8192]
	ldr	q1, [x25, #8208]
	stp	x8, x19, [x15, #56]
	add	x9, x9, #1152
	ldr	x8, [sp, #192]
	stur	q0, [x9, #152]
	ldr	x14, [sp, #104]
	ldr	x24, [x15, #8]
	str	x8, [x15, #72]
	ldr	x8, [sp, #160]
	stur	q1, [x9, #168]
	ldp	q0, q1, [x26, #704]
	str	x8, [x15, #80]
	ldr	x8, [sp, #184]
	stp	x3, x7, [x15, #120]
	stur	q0, [x9, #184]
	stur	q1, [x9, #200]
	ldp	q0, q1, [x26, #672]
	stp	x8, x21, [x15, #248]
	ldr	x8, [sp, #176]
	stp	x17, x2, [x15, #136]
	stur	q0, [x9, #216]
	stur	q1, [x9, #232]
	stp	x8, x20, [x15, #264]
	add	x8, x16, #1
	add	x16, x16, #65
	str	x8, [x14, x12, lsl #3]
	ldp	x8, x18, [x15, #24]
	ldp	q0, q1, [x13]
	ldp	x12, x14, [x15, #248]
	str	x8, [sp, #152]
	ldp	x4, x8, [x15, #40]
	stp	q0, q1, [x26, #896]
	ldur	q1, [x9, #168]
	ldur	q0, [x9, #152]
	str	x12, [sp, #184]
	ldp	x12, x20, [x15, #264]
	stp	x8, x12, [sp, #168]
	ldp	x8, x19, [x15, #56]
	stp	q0, q1, [x26, #736]
	ldur	q1, [x9, #200]
	ldur	q0, [x9, #184]
	ldp	x3, x7, [x15, #120]
	str	x8, [sp, #200]
	ldr	x8, [x15, #72]
	stp	q0, q1, [x27, #96]
	ldur	q1, [x9, #216]
	ldur	q0, [x9, #232]
	str	x8, [sp, #192]
	ldr	x8, [x15, #80]
	stp	q1, q0, [x27, #48]
	ldp	x17, x2, [x15, #136]
	str	x8, [sp, #160]
	b	.LBB14_29
.LBB14_21:
	str	x5, [sp, #136]
	subs	x5, x5, x16
	b.hs	.LBB14_27
.LBB14_22:
	movi	v0.2d, #0000000000000000
	stp	xzr, xzr, [sp, #160]
	mov	x19, xzr
	stp	xzr, xzr, [sp, #192]
	mov	x4, xzr
	mov	x18, xzr
	mov	x3, xzr
	mov	x7, xzr
	mov	x17, xzr
	mov	x2, xzr
	stp	xzr, xzr, [sp, #176]
	mov	x14, xzr
	str	xzr, [sp, #152]
	mov	x16, xzr
	mov	x24, xzr
	mov	x5, xzr
	mov	x20, xzr
	stp	q0, q0, [x26, #736]
	stp	q0, q0, [x26, #896]
	mov	w10, #3
	mov	w11, #1
.LBB14_23:
	stp	q0, q0, [x27, #48]
	stp	q0, q0, [x27, #96]
	b	.LBB14_29
.LBB14_24:
	ldr	q0, [x15, #8192]
	ldr	q1, [x15, #8208]
	add	x11, sp, #82, lsl #12
	add	x11, x11, #1120
	ldr	x8, [sp, #152]
	lsr	x10, x9, #48
	stur	q0, [x11, #88]
	ldr	q0, [x25, #8192]
	stur	q1, [x11, #104]
	ldr	q1, [x25, #8208]
	stp	x5, x8, [x25, #16]
	ldr	x8, [sp, #168]
	stur	q0, [x11, #152]
	stur	q1, [x11, #168]
	ldp	q0, q1, [x26, #704]
	stur	w9, [x25, #9]
	lsr	x9, x9, #32
	str	x8, [x25, #48]
	ldr	x8, [sp, #200]
	stur	q0, [x11, #184]
	stur	q1, [x11, #200]
	ldp	q0, q1, [x26, #672]
	sturh	w9, [x25, #13]
	stp	x8, x19, [x25, #56]
	ldp	x9, x8, [sp, #184]
	stur	q0, [x11, #216]
	movi	v0.2d, #0000000000000000
	str	x16, [x26, #9088]
	stp	x9, x14, [x25, #248]
	ldr	x9, [sp, #176]
	str	x8, [x25, #72]
	ldr	x8, [sp, #160]
	stp	x9, x20, [x25, #264]
	sub	x9, x28, x16
	cmp	x9, #2
	strb	wzr, [x25, #8]
	strb	w10, [x25, #15]
	stp	x18, x4, [x25, #32]
	str	x8, [x25, #80]
	stp	x3, x7, [x25, #120]
	stp	x17, x2, [x25, #136]
	stur	q1, [x11, #232]
	str	q0, [x25, #8224]
	str	q0, [x25, #8240]
	str	q0, [x25, #8256]
	str	q0, [x25, #8272]
	str	q0, [x25, #8288]
	str	q0, [x25, #8304]
	str	q0, [x25, #8320]
	str	q0, [x25, #8336]
	str	q0, [x25, #8352]
	str	q0, [x25, #8368]
	str	q0, [x25, #8384]
	str	q0, [x25, #8400]
	str	q0, [x25, #8416]
	str	q0, [x25, #8432]
	str	q0, [x25, #8448]
	str	q0, [x25, #8464]
	str	q0, [x25, #8480]
	str	q0, [x25, #8496]
	str	q0, [x25, #8512]
	str	q0, [x25, #8528]
	str	q0, [x25, #8544]
	str	q0, [x25, #8560]
	str	q0, [x25, #8576]
	str	q0, [x25, #8592]
	b.lo	.LBB14_26
	add	x10, sp, #208
	ldrb	w11, [x10, x16]
	cmp	w11, #255
	b.eq	.LBB14_36
.LBB14_26:
	stp	xzr, xzr, [sp, #160]
	mov	x19, xzr
	mov	x4, xzr
	stp	xzr, xzr, [sp, #192]
	mov	x18, xzr
	mov	x3, xzr
	mov	x7, xzr
	mov	x17, xzr
	mov	x2, xzr
	stp	xzr, xzr, [sp, #176]
	mov	x14, xzr
	mov	x23, xzr
	mov	x21, xzr
	mov	x6, xzr
	mov	x0, xzr
	mov	x30, xzr
	mov	x8, xzr
	mov	x1, xzr
	mov	w9, wzr
	mov	w12, wzr
	mov	w13, wzr
	str	xzr, [sp, #152]
	mov	x16, xzr
	mov	x24, xzr
	mov	x5, xzr
	mov	x20, xzr
	stp	q0, q0, [x26, #736]
	stp	q0, q0, [x26, #896]
	mov	w10, #3
	mov	w11, #1
	stp	q0, q0, [x27, #48]
	stp	q0, q0, [x27, #96]
	b	.LBB14_30
.LBB14_27:
	b.ne	.LBB14_33
.LBB14_28:
	ldr	q0, [x15, #8192]
	ldr	q1, [x15, #8208]
	mov	w11, wzr
	ldr	q2, [x25, #8192]
	mov	w10, wzr
	mov	x24, xzr
	stp	q0, q1, [x26, #896]
	ldr	q0, [x25, #8208]
	mov	x5, xzr
	stp	q2, q0, [x26, #736]
	ldp	q1, q0, [x26, #704]
	stp	q1, q0, [x27, #96]
	ldp	q0, q2, [x26, #672]
	stp	q0, q2, [x27, #48]
.LBB14_29:
	mov	x23, xzr
	mov	x21, xzr
	mov	x6, xzr
	mov	x0, xzr
	mov	x30, xzr
	mov	x8, xzr
	mov	x1, xzr
	mov	w9, wzr
	mov	w12, wzr
	mov	w13, wzr
.LBB14_30:
	ldp	q0, q1, [x26, #896]
	stp	q0, q1, [x26, #640]
	ldp	q0, q2, [x26, #736]
	stp	q0, q2, [x26, #608]
	ldp	q1, q0, [x27, #96]
	stp	q1, q0, [x26, #576]
	ldp	q0, q2, [x27, #48]
	stp	q0, q2, [x26, #544]
	cbnz	w11, .LBB14_142
	cbnz	w10, .LBB14_147
	ldp	q0, q1, [x26, #640]
	lsr	x9, x24, #8
	str	q0, [x15, #8192]
	ldp	q0, q2, [x26, #608]
	str	q1, [x15, #8208]
	str	q0, [x25, #8192]
	ldp	q0, q1, [x26, #576]
	str	q2, [x25, #8208]
	stp	q0, q1, [x26, #704]
	ldp	q0, q2, [x26, #544]
	stp	q0, q2, [x26, #672]
	b	.LBB14_13
.LBB14_33:
	add	x10, sp, #208
	cmp	x5, #2
	stp	x7, x3, [sp, #72]
	add	x12, x10, x16
	stp	x4, x19, [sp, #88]
	ldrb	w10, [x12]
	stp	x2, x17, [sp, #56]
	stp	x16, x18, [sp, #120]
	str	x20, [sp, #48]
	str	x14, [sp, #112]
	b.lo	.LBB14_39
	ldrb	w11, [x12, #1]
	cmp	x5, #2
	b.ne	.LBB14_70
	mov	x3, xzr
	mov	x2, xzr
	mov	x1, xzr
	mov	x0, xzr
	mov	x8, xzr
	mov	x16, xzr
	mov	x14, xzr
	b	.LBB14_40
.LBB14_36:
	str	x14, [sp, #112]
	add	x14, x16, #1
	ldrb	w11, [x10, x14]
	cmp	w11, #217
	b.eq	.LBB14_26
	cmp	w11, #255
	b.ne	.LBB14_73
	ldr	q0, [x15, #8192]
	ldr	q1, [x15, #8208]
	mov	x16, x14
	ldr	q2, [x25, #8192]
	ldr	x14, [sp, #112]
	mov	x23, xzr
	stp	q0, q1, [x26, #896]
	ldr	q0, [x25, #8208]
	mov	x21, xzr
	mov	x6, xzr
	mov	x0, xzr
	mov	x30, xzr
	stp	q2, q0, [x26, #736]
	ldp	q1, q0, [x26, #704]
	mov	x8, xzr
	mov	x1, xzr
	mov	w9, wzr
	mov	w12, wzr
	mov	w13, wzr
	mov	w11, wzr
	stp	q1, q0, [x27, #96]
	ldp	q0, q2, [x26, #672]
	mov	w10, wzr
	mov	x24, xzr
	mov	x5, xzr
	stp	q0, q2, [x27, #48]
	b	.LBB14_30
.LBB14_39:
	mov	x3, xzr
	mov	x2, xzr
	mov	x1, xzr
	mov	x0, xzr
	mov	x8, xzr
	mov	x16, xzr
	mov	x14, xzr
	mov	x11, xzr
.LBB14_40:
	mov	x13, xzr
.LBB14_41:
	mov	x15, xzr
.LBB14_42:
	mov	x18, xzr
.LBB14_43:
	mov	x4, xzr
.LBB14_44:
	mov	x6, xzr
	mov	x19, xzr
	mov	x20, xzr
	mov	x21, xzr
	cmp	x5, #17
	b.lo	.LBB14_139
.LBB14_45:
	mov	w7, #236
	and	w7, w10, w7
	cbnz	w7, .LBB14_139
	add	x7, x2, x3
	add	x23, x1, x0
	add	x24, x8, x16
	add	x30, x11, x13
	add	x7, x7, x23
	add	x23, x4, x6
	add	x24, x24, x14
	add	x30, x30, x15
	add	x23, x23, x19
	add	x7, x7, x24
	add	x24, x30, x18
	add	x23, x23, x20
	add	x7, x7, x24
	add	x23, x23, x21
	add	x7, x7, x23
	sub	x23, x7, #1
	cmp	x23, #255
	b.hi	.LBB14_139
	add	x7, x7, #17
	cmp	x7, x5
	b.hi	.LBB14_139
	ldrb	w5, [x12, #1]
	cmp	w5, #1
	b.hi	.LBB14_139
	ldrb	w23, [x12, #2]
	add	x5, x23, x5, lsl #1
	cmp	x5, #3
	b.hi	.LBB14_139
	ldrb	w23, [x12, #3]
	add	x5, x23, x5, lsl #1
	cmp	x5, #7
	b.hi	.LBB14_139
	ldrb	w23, [x12, #4]
	add	x5, x23, x5, lsl #1
	cmp	x5, #15
	b.hi	.LBB14_139
	ldrb	w23, [x12, #5]
	add	x5, x23, x5, lsl #1
	cmp	x5, #31
	b.hi	.LBB14_139
	ldrb	w23, [x12, #6]
	add	x5, x23, x5, lsl #1
	cmp	x5, #63
	b.hi	.LBB14_139
	ldrb	w23, [x12, #7]
	add	x5, x23, x5, lsl #1
	cmp	x5, #127
	b.hi	.LBB14_139
	ldrb	w23, [x12, #8]
	add	x5, x23, x5, lsl #1
	cmp	x5, #255
	b.hi	.LBB14_139
	ldrb	w23, [x12, #9]
	add	x5, x23, x5, lsl #1
	cmp	x5, #511
	b.hi	.LBB14_139
	ldrb	w23, [x12, #10]
	add	x5, x23, x5, lsl #1
	cmp	x5, #1023
	b.hi	.LBB14_139
	ldrb	w23, [x12, #11]
	add	x5, x23, x5, lsl #1
	cmp	x5, #2047
	b.hi	.LBB14_139
	ldrb	w23, [x12, #12]
	add	x5, x23, x5, lsl #1
	cmp	x5, #4095
	b.hi	.LBB14_139
	ldrb	w23, [x12, #13]
	add	x5, x23, x5, lsl #1
	lsr	x23, x5, #13
	cbnz	x23, .LBB14_139
	ldrb	w23, [x12, #14]
	add	x5, x23, x5, lsl #1
	lsr	x23, x5, #14
	cbnz	x23, .LBB14_139
	ldrb	w23, [x12, #15]
	add	x5, x23, x5, lsl #1
	lsr	x23, x5, #15
	cbnz	x23, .LBB14_139
	ldrb	w23, [x12, #16]
	add	x5, x23, x5, lsl #1
	lsr	x5, x5, #16
	cbnz	x5, .LBB14_139
	add	x2, x21, x2
	add	x1, x3, x1
	add	x17, x0, x8
	add	x11, x14, x11
	add	x14, x18, x4
	movi	v0.2d, #0000000000000000
	add	x18, x2, x1
	add	x16, x17, x16
	add	x11, x11, x13
	add	x13, x14, x6
	add	x14, x18, x16
	add	x11, x11, x15
	add	x13, x13, x19
	add	x11, x14, x11
	cmp	w10, #16
	add	x13, x13, x20
	add	x12, x12, #17
	stp	q0, q0, [x25]
	add	x11, x11, x13
	stp	q0, q0, [x25, #32]
	stp	q0, q0, [x25, #64]
	stp	q0, q0, [x25, #96]
	stp	q0, q0, [x25, #128]
	stp	q0, q0, [x25, #160]
	stp	q0, q0, [x25, #192]
	stp	q0, q0, [x25, #224]
	b.hs	.LBB14_133
.LBB14_65:
	ldrb	w13, [x12], #1
	cmp	x13, #11
	b.hi	.LBB14_137
	add	x14, sp, #82, lsl #12
	add	x14, x14, #1120
	ldrb	w14, [x14, x13]
	tbnz	w14, #0, .LBB14_137
	add	x14, sp, #82, lsl #12
	subs	x11, x11, #1
	mov	w15, #1
	add	x14, x14, #1120
	strb	w15, [x14, x13]
	b.ne	.LBB14_65
.LBB14_68:
	add	x12, sp, #84, lsl #12
	ldr	x11, [sp, #40]
	ldr	x8, [sp, #152]
	add	x12, x12, #1152
	add	x13, sp, #84, lsl #12
	cmp	w10, #15
	ldr	q0, [x12, #8192]
	ldr	q1, [x12, #8208]
	stur	w9, [x12, #9]
	add	x13, x13, #1152
	ldr	q2, [x25, #8192]
	stp	q0, q1, [x11]
	mov	w11, #2
	ldr	q0, [x25, #8208]
	strb	w11, [x12, #8]
	lsr	x11, x9, #48
	lsr	x9, x9, #32
	stur	q0, [x13, #168]
	ldp	q1, q0, [x26, #704]
	sturh	w9, [x12, #13]
	ldr	x9, [sp, #128]
	strb	w11, [x12, #15]
	stp	x8, x9, [x12, #24]
	ldr	x9, [sp, #88]
	stur	q1, [x13, #184]
	str	x9, [x12, #40]
	ldr	x9, [sp, #168]
	stur	q0, [x13, #200]
	ldp	q1, q0, [x26, #672]
	str	x9, [x12, #48]
	ldr	x9, [sp, #200]
	stur	q2, [x13, #152]
	str	x9, [x12, #56]
	ldr	x9, [sp, #96]
	stur	q1, [x13, #216]
	str	x9, [x12, #64]
	ldr	x9, [sp, #192]
	stur	q0, [x13, #232]
	str	x9, [x12, #72]
	ldr	x9, [sp, #160]
	str	x9, [x12, #80]
	ldr	x9, [sp, #80]
	str	x9, [x12, #120]
	ldr	x9, [sp, #72]
	str	x9, [x12, #128]
	ldr	x9, [sp, #64]
	str	x9, [x12, #136]
	ldp	x11, x9, [sp, #48]
	str	x9, [x12, #144]
	ldr	x9, [sp, #184]
	str	x9, [x12, #248]
	ldr	x9, [sp, #112]
	str	x9, [x12, #256]
	ldr	x9, [sp, #176]
	stp	x9, x11, [x12, #264]
	lsl	x9, x10, #3
	ldr	x10, [sp, #120]
	add	x10, x10, #1
	b.hi	.LBB14_140
	ldr	x11, [sp, #8]
	str	x10, [x11, x9]
	add	x9, sp, #84, lsl #12
	add	x9, x9, #1152
	ldr	x10, [x9, #120]
	str	x10, [sp, #80]
	ldr	x10, [x9, #128]
	str	x10, [sp, #72]
	ldr	x10, [x9, #136]
	str	x10, [sp, #64]
	ldr	x10, [x9, #144]
	str	x10, [sp, #56]
	ldr	x10, [x9, #248]
	str	x10, [sp, #184]
	ldr	x10, [x9, #256]
	str	x10, [sp, #112]
	ldp	x9, x10, [x9, #264]
	str	x10, [sp, #48]
	str	x9, [sp, #176]
	b	.LBB14_141
.LBB14_70:
	ldrb	w13, [x12, #2]
	cmp	x5, #4
	b.lo	.LBB14_85
	ldrb	w14, [x12, #3]
	cmp	x5, #4
	b.ne	.LBB14_86
	mov	x3, xzr
	mov	x2, xzr
	mov	x1, xzr
	mov	x0, xzr
	mov	x8, xzr
	mov	x16, xzr
	b	.LBB14_41
.LBB14_73:
	cmp	x9, #4
	b.lo	.LBB14_84
	add	x9, x16, #2
	mov	x5, x16
	cmp	x9, x28
	b.hs	.LBB14_84
	add	x12, sp, #208
	add	x13, x5, #3
	mov	x16, x4
	ldrb	w10, [x12, x9]
	mov	x14, x2
	cmp	x13, x28
	lsl	x10, x10, #8
	b.hs	.LBB14_77
	ldrb	w12, [x12, x13]
	orr	x10, x10, x12
.LBB14_77:
	cmp	x10, #2
	b.lo	.LBB14_84
	add	x4, x10, x9
	cmp	x28, x4
	b.lo	.LBB14_84
	add	x9, x5, #4
	cmp	w11, #218
	add	x10, sp, #208
	sub	x2, x4, x9
	b.le	.LBB14_93
	ldp	x13, x12, [sp, #176]
	cmp	w11, #219
	ldr	x8, [sp, #152]
	b.eq	.LBB14_98
	cmp	w11, #221
	b.eq	.LBB14_100
	cmp	w11, #254
	b.ne	.LBB14_104
.LBB14_83:
	ldr	q0, [x15, #8192]
	ldr	q1, [x15, #8208]
	add	x9, sp, #84, lsl #12
	add	x9, x9, #1152
	str	x8, [x25, #8264]
	ldr	x8, [sp, #168]
	stur	q0, [x9, #104]
	ldr	q0, [x25, #8208]
	stur	q1, [x9, #120]
	ldr	q1, [x25, #8192]
	stur	q0, [x9, #184]
	stur	q1, [x9, #168]
	ldp	q1, q0, [x26, #704]
	str	x8, [x25, #8288]
	ldr	x8, [sp, #200]
	str	xzr, [x25, #8232]
	str	x8, [x25, #8296]
	ldr	x8, [sp, #192]
	stur	q0, [x9, #216]
	stur	q1, [x9, #200]
	ldp	q0, q1, [x26, #672]
	str	x8, [x25, #8312]
	ldr	x8, [sp, #160]
	str	xzr, [x25, #8224]
	stur	q0, [x9, #232]
	movi	v0.2d, #0000000000000000
	str	x8, [x25, #8320]
	ldp	x10, x8, [sp, #104]
	str	x4, [x25, #8240]
	str	x8, [x25, #8496]
	ldr	x8, [sp, #24]
	stp	xzr, xzr, [x10]
	str	x18, [x25, #8272]
	str	x16, [x25, #8280]
	str	x19, [x25, #8304]
	str	x3, [x25, #8360]
	str	x7, [x25, #8368]
	str	x17, [x25, #8376]
	str	x14, [x25, #8384]
	stur	q1, [x9, #248]
	str	x12, [x25, #8488]
	str	x13, [x25, #8504]
	str	x20, [x25, #8512]
	str	xzr, [x8, #80]
	stp	q0, q0, [x8, #16]
	stp	q0, q0, [x8, #48]
	str	q0, [x8]
	b	.LBB14_114
.LBB14_84:
	stp	xzr, xzr, [sp, #160]
	mov	x19, xzr
	mov	x4, xzr
	stp	xzr, xzr, [sp, #192]
	mov	x18, xzr
	mov	x3, xzr
	mov	x7, xzr
	mov	x17, xzr
	mov	x2, xzr
	stp	xzr, xzr, [sp, #176]
	mov	x14, xzr
	mov	x23, xzr
	mov	x21, xzr
	mov	x6, xzr
	mov	x0, xzr
	mov	x30, xzr
	mov	x8, xzr
	mov	x1, xzr
	mov	w9, wzr
	mov	w12, wzr
	mov	w13, wzr
	str	xzr, [sp, #152]
	mov	x16, xzr
	mov	x24, xzr
	mov	x5, xzr
	mov	x20, xzr
	stp	q0, q0, [x26, #736]
	stp	q0, q0, [x26, #896]
	mov	w10, #2
	mov	w11, #1
	stp	q0, q0, [x27, #48]
	stp	q0, q0, [x27, #96]
	b	.LBB14_30
.LBB14_85:
	mov	x3, xzr
	mov	x2, xzr
	mov	x1, xzr
	mov	x0, xzr
	mov	x8, xzr
	mov	x16, xzr
	mov	x14, xzr
	b	.LBB14_41
.LBB14_86:
	ldrb	w15, [x12, #4]
	cmp	x5, #6
	b.lo	.LBB14_89
	ldrb	w16, [x12, #5]
	cmp	x5, #6
	b.ne	.LBB14_90
	mov	x3, xzr
	mov	x2, xzr
	mov	x1, xzr
	mov	x0, xzr
	mov	x8, xzr
	b	.LBB14_42
.LBB14_89:
	mov	x3, xzr
	mov	x2, xzr
	mov	x1, xzr
	mov	x0, xzr
	mov	x8, xzr
	mov	x16, xzr
	b	.LBB14_42
.LBB14_90:
	ldrb	w18, [x12, #6]
	cmp	x5, #8
	b.lo	.LBB14_97
	ldrb	w8, [x12, #7]
	cmp	x5, #8
	b.ne	.LBB14_106
	mov	x3, xzr
	mov	x2, xzr
	mov	x1, xzr
	mov	x0, xzr
	b	.LBB14_43
.LBB14_93:
	ldp	x13, x12, [sp, #176]
	cmp	w11, #196
	ldr	x8, [sp, #152]
	b.eq	.LBB14_102
	cmp	w11, #218
	b.ne	.LBB14_104
	add	x0, sp, #84, lsl #12
	add	x3, sp, #82, lsl #12
	add	x1, x10, x9
	add	x0, x0, #1152
	add	x3, x3, #1120
	bl	"jpeg_header_state::scan"
.LBB14_96:
	add	x15, sp, #84, lsl #12
	movi	v16.2d, #0000000000000000
	add	x15, x15, #1152
	b	.LBB14_114
.LBB14_97:
	mov	x3, xzr
	mov	x2, xzr
	mov	x1, xzr
	mov	x0, xzr
	mov	x8, xzr
	b	.LBB14_43
.LBB14_98:
	cmp	x4, x9
	b.eq	.LBB14_103
	ldr	q0, [x25, #8192]
	ldr	q1, [x25, #8208]
	add	x11, sp, #84, lsl #12
	add	x11, x11, #1152
	str	x8, [x25, #8264]
	ldr	x8, [sp, #168]
	stur	q0, [x11, #168]
	ldr	x10, [sp, #112]
	stur	q1, [x11, #184]
	ldp	q0, q1, [x26, #704]
	str	x8, [x25, #8288]
	ldr	x8, [sp, #200]
	str	x10, [x25, #8496]
	ldr	x10, [sp, #24]
	stur	q0, [x11, #200]
	stur	q1, [x11, #216]
	ldp	q0, q1, [x26, #672]
	str	x8, [x25, #8296]
	ldr	x8, [sp, #192]
	str	x3, [x25, #8360]
	stur	q0, [x11, #232]
	ldr	q0, [x15, #8208]
	str	x8, [x25, #8312]
	ldr	x8, [sp, #160]
	stur	q0, [x11, #120]
	ldr	q0, [x15, #8192]
	str	x8, [x25, #8320]
	mov	w8, #1
	stur	q0, [x11, #104]
	movi	v0.2d, #0000000000000000
	str	x7, [x25, #8368]
	str	x17, [x25, #8376]
	str	x14, [x25, #8384]
	stur	q1, [x11, #248]
	str	x12, [x25, #8488]
	str	x13, [x25, #8504]
	str	x18, [x25, #8272]
	str	x16, [x25, #8280]
	str	x19, [x25, #8304]
	b	.LBB14_112
.LBB14_100:
	cmp	x2, #2
	b.ne	.LBB14_109
	ldr	q0, [x15, #8192]
	ldr	q1, [x15, #8208]
	add	x11, sp, #84, lsl #12
	add	x11, x11, #1152
	str	x8, [x25, #8264]
	ldr	x8, [sp, #168]
	stur	q0, [x11, #104]
	ldr	q0, [x25, #8208]
	stur	q1, [x11, #120]
	ldr	q1, [x25, #8192]
	stur	q0, [x11, #184]
	stur	q1, [x11, #168]
	ldp	q1, q0, [x26, #704]
	str	x8, [x25, #8288]
	ldr	x8, [sp, #200]
	str	x18, [x25, #8272]
	str	x8, [x25, #8296]
	ldr	x8, [sp, #192]
	stur	q0, [x11, #216]
	stur	q1, [x11, #200]
	ldp	q1, q0, [x26, #672]
	str	x8, [x25, #8312]
	ldr	x8, [sp, #160]
	str	x16, [x25, #8280]
	stur	q0, [x11, #248]
	movi	v0.2d, #0000000000000000
	str	x8, [x25, #8320]
	ldr	x8, [sp, #112]
	stur	q1, [x11, #232]
	ldr	x11, [sp, #24]
	str	x8, [x25, #8496]
	ldr	x8, [sp, #104]
	str	x19, [x25, #8304]
	str	q0, [x8]
	ldrh	w8, [x10, x9]
	str	x3, [x25, #8360]
	rev16	w8, w8
	str	x7, [x25, #8368]
	str	x17, [x25, #8376]
	str	x14, [x25, #8384]
	str	x12, [x25, #8488]
	str	x13, [x25, #8504]
	stp	q0, q0, [x11]
	stp	q0, q0, [x11, #32]
	str	q0, [x11, #64]
	str	xzr, [x11, #80]
	b	.LBB14_110
.LBB14_102:
	cmp	x4, x9
	b.ne	.LBB14_111
.LBB14_103:
	ldp	x12, x11, [sp, #16]
	adrp	x10, .LCPI14_1
	mov	x9, xzr
	mov	x8, xzr
	mov	x4, xzr
	mov	x20, xzr
	stp	q0, q0, [x11, #16]
	stp	q0, q0, [x11, #48]
	str	q0, [x11]
	stp	q0, q0, [x12]
	stp	q0, q0, [x12, #32]
	stp	q0, q0, [x12, #64]
	stp	q0, q0, [x12, #96]
	stp	q0, q0, [x12, #128]
	stp	q0, q0, [x12, #160]
	stp	q0, q0, [x12, #192]
	str	q0, [x12, #224]
	ldr	q0, [x10, :lo12:.LCPI14_1]
	str	xzr, [x11, #80]
	str	xzr, [x12, #240]
	b	.LBB14_113
.LBB14_104:
	cmp	w11, #192
	b.hs	.LBB14_115
.LBB14_105:
	adrp	x8, .LCPI14_2
	ldr	q0, [x8, :lo12:.LCPI14_2]
	add	x8, sp, #84, lsl #12
	add	x8, x8, #1152
	stp	xzr, xzr, [x8, #24]
	str	q0, [x25, #8224]
	stur	xzr, [x8, #16]
	b	.LBB14_114
.LBB14_106:
	ldrb	w4, [x12, #8]
	cmp	x5, #10
	b.lo	.LBB14_117
	ldrb	w0, [x12, #9]
	cmp	x5, #10
	b.ne	.LBB14_119
	mov	x3, xzr
	mov	x2, xzr
	mov	x1, xzr
	b	.LBB14_44
.LBB14_109:
	ldr	x11, [sp, #24]
	ldr	x10, [sp, #104]
	adrp	x9, .LCPI14_1
	mov	x4, xzr
	mov	x8, xzr
	stp	q0, q0, [x11, #16]
	stp	q0, q0, [x11, #48]
	str	q0, [x11]
	stp	q0, q0, [x10]
	stp	q0, q0, [x10, #32]
	stp	q0, q0, [x10, #64]
	stp	q0, q0, [x10, #96]
	stp	q0, q0, [x10, #128]
	stp	q0, q0, [x10, #160]
	stp	q0, q0, [x10, #192]
	stp	q0, q0, [x10, #224]
	ldr	q0, [x9, :lo12:.LCPI14_1]
	str	xzr, [x11, #80]
	str	xzr, [x10, #256]
.LBB14_110:
	str	q0, [x25, #8224]
	str	x4, [x25, #8240]
	str	x8, [x25, #8512]
	b	.LBB14_114
.LBB14_111:
	ldr	q0, [x25, #8192]
	ldr	q1, [x25, #8208]
	add	x11, sp, #84, lsl #12
	add	x11, x11, #1152
	str	x8, [x25, #8264]
	ldr	x8, [sp, #168]
	stur	q0, [x11, #168]
	ldr	x10, [sp, #112]
	stur	q1, [x11, #184]
	ldp	q0, q1, [x26, #704]
	str	x8, [x25, #8288]
	ldr	x8, [sp, #200]
	str	x10, [x25, #8496]
	ldr	x10, [sp, #24]
	stur	q0, [x11, #200]
	stur	q1, [x11, #216]
	ldp	q0, q1, [x26, #672]
	str	x8, [x25, #8296]
	ldr	x8, [sp, #192]
	str	x3, [x25, #8360]
	stur	q0, [x11, #232]
	ldr	q0, [x15, #8208]
	str	x8, [x25, #8312]
	ldr	x8, [sp, #160]
	stur	q0, [x11, #120]
	ldr	q0, [x15, #8192]
	str	x7, [x25, #8368]
	stur	q0, [x11, #104]
	movi	v0.2d, #0000000000000000
	str	x17, [x25, #8376]
	str	x14, [x25, #8384]
	stur	q1, [x11, #248]
	str	x12, [x25, #8488]
	str	x13, [x25, #8504]
	str	x18, [x25, #8272]
	str	x16, [x25, #8280]
	str	x19, [x25, #8304]
	str	x8, [x25, #8320]
	mov	w8, #2
.LBB14_112:
	stp	q0, q0, [x10]
	stp	q0, q0, [x10, #32]
	str	q0, [x10, #64]
	str	xzr, [x10, #80]
.LBB14_113:
	str	q0, [x25, #8224]
	str	x9, [x25, #8240]
	str	x8, [x25, #8248]
	str	x4, [x25, #8256]
	str	x20, [x25, #8512]
.LBB14_114:
	add	x8, sp, #84, lsl #12
	ldp	x1, x9, [x15, #344]
	add	x8, x8, #1152
	ldp	x12, x14, [x15, #264]
	ldur	q0, [x8, #104]
	ldur	q1, [x8, #120]
	ldur	q2, [x8, #168]
	cmp	x9, #16, lsl #12
	ldp	x9, x20, [x15, #280]
	stp	q0, q1, [x26, #896]
	ldur	q0, [x8, #184]
	ldur	q1, [x8, #200]
	stp	x9, x12, [sp, #176]
	ldr	x13, [sp, #32]
	ldrb	w11, [x15]
	stp	q2, q0, [x26, #736]
	ldur	q0, [x8, #216]
	ldur	q2, [x8, #232]
	cset	w9, hi
	ldrb	w10, [x15, #8]
	stp	q1, q0, [x27, #96]
	ldur	q0, [x8, #248]
	stp	q2, q0, [x27, #48]
	ldp	x5, x8, [x15, #32]
	ldp	x16, x24, [x15, #16]
	ldp	x18, x4, [x15, #48]
	str	x8, [sp, #152]
	ldr	x8, [x15, #64]
	ldp	x3, x7, [x15, #136]
	str	x8, [sp, #168]
	ldp	x8, x19, [x15, #72]
	ldp	x17, x2, [x15, #152]
	ldp	x23, x21, [x15, #296]
	str	x8, [sp, #200]
	ldr	x8, [x15, #88]
	ldp	x6, x0, [x15, #312]
	str	x8, [sp, #192]
	ldr	x8, [x15, #96]
	str	x8, [sp, #160]
	ldp	x12, x8, [x15, #360]
	cmp	x12, #16, lsl #12
	cset	w12, hi
	cmp	x13, x8
	ldp	x30, x8, [x15, #328]
	cset	w13, lo
	b	.LBB14_30
.LBB14_115:
	cmp	w11, #194
	b.hs	.LBB14_118
	add	x0, sp, #84, lsl #12
	add	x3, sp, #82, lsl #12
	add	x1, x10, x9
	add	x0, x0, #1152
	add	x3, x3, #1120
	bl	"jpeg_header_state::frame"
	b	.LBB14_96
.LBB14_117:
	mov	x3, xzr
	mov	x2, xzr
	mov	x1, xzr
	mov	x0, xzr
	b	.LBB14_44
.LBB14_118:
	and	w9, w11, #0xf0
	cmp	w9, #224
	b.eq	.LBB14_83
	b	.LBB14_105
.LBB14_119:
	ldrb	w6, [x12, #10]
	cmp	x5, #12
	b.lo	.LBB14_122
	ldrb	w1, [x12, #11]
	cmp	x5, #12
	b.ne	.LBB14_123
	mov	x3, xzr
	mov	x2, xzr
	mov	x19, xzr
	mov	x20, xzr
	mov	x21, xzr
	cmp	x5, #17
	b.hs	.LBB14_45
	b	.LBB14_139
.LBB14_122:
	mov	x3, xzr
	mov	x2, xzr
	mov	x1, xzr
	mov	x19, xzr
	mov	x20, xzr
	mov	x21, xzr
	cmp	x5, #17
	b.hs	.LBB14_45
	b	.LBB14_139
.LBB14_123:
	ldrb	w19, [x12, #12]
	cmp	x5, #14
	b.lo	.LBB14_126
	ldrb	w2, [x12, #13]
	cmp	x5, #14
	b.ne	.LBB14_129
	mov	x3, xzr
	b	.LBB14_127
.LBB14_126:
	mov	x3, xzr
	mov	x2, xzr
.LBB14_127:
	mov	x20, xzr
.LBB14_128:
	mov	x21, xzr
	movi	v16.2d, #0000000000000000
	cmp	x5, #17
	b.hs	.LBB14_45
	b	.LBB14_139
.LBB14_129:
	ldrb	w20, [x12, #14]
	cmp	x5, #16
	b.lo	.LBB14_138
	ldrb	w3, [x12, #15]
	cmp	x5, #16
	b.eq	.LBB14_128
	ldrb	w21, [x12, #16]
	movi	v16.2d, #0000000000000000
	cmp	x5, #17
	b.hs	.LBB14_45
	b	.LBB14_139
.LBB14_132:
	add	x14, sp, #82, lsl #12
	subs	x11, x11, #1
	mov	w15, #1
	add	x14, x14, #1120
	strb	w15, [x14, x13]
	b.eq	.LBB14_68
.LBB14_133:
	ldrb	w13, [x12], #1
	add	x14, sp, #82, lsl #12
	add	x14, x14, #1120
	ldrb	w14, [x14, x13]
	tbnz	w14, #0, .LBB14_137
	cbz	w13, .LBB14_132
	cmp	w13, #240
	b.eq	.LBB14_132
	and	x14, x13, #0xf
	sub	x14, x14, #1
	cmp	x14, #9
	b.ls	.LBB14_132
.LBB14_137:
	movi	v16.2d, #0000000000000000
	b	.LBB14_139
.LBB14_138:
	mov	x3, xzr
	mov	x21, xzr
	movi	v16.2d, #0000000000000000
	cmp	x5, #17
	b.hs	.LBB14_45
.LBB14_139:
	movi	v0.2d, #0000000000000000
	add	x15, sp, #84, lsl #12
	stp	xzr, xzr, [sp, #160]
	stp	xzr, xzr, [sp, #192]
	mov	x19, xzr
	mov	x4, xzr
	mov	x18, xzr
	mov	x3, xzr
	mov	x7, xzr
	mov	x17, xzr
	mov	x2, xzr
	stp	xzr, xzr, [sp, #176]
	mov	x14, xzr
	str	xzr, [sp, #152]
	mov	x16, xzr
	mov	x24, xzr
	mov	x5, xzr
	mov	x20, xzr
	stp	q0, q0, [x26, #736]
	mov	w10, #3
	mov	w11, #1
	stp	q0, q0, [x26, #896]
	add	x15, x15, #1152
	b	.LBB14_23
.LBB14_140:
	ldr	x11, [sp, #40]
	and	x9, x9, #0x18
	str	x10, [x11, x9]
.LBB14_141:
	ldr	x9, [sp, #40]
	add	x15, sp, #84, lsl #12
	movi	v16.2d, #0000000000000000
	add	x15, x15, #1152
	ldp	x14, x16, [sp, #112]
	ldp	q0, q1, [x9]
	ldr	x8, [x15, #48]
	add	x9, sp, #84, lsl #12
	ldp	x18, x4, [x15, #32]
	add	x9, x9, #1152
	str	x8, [sp, #168]
	add	x16, x7, x16
	ldp	x8, x19, [x15, #56]
	ldur	q2, [x9, #152]
	stp	q0, q1, [x26, #896]
	ldur	q0, [x9, #168]
	mov	w11, wzr
	ldur	q1, [x9, #200]
	ldp	x7, x3, [sp, #72]
	stp	q2, q0, [x26, #736]
	mov	w10, wzr
	ldur	q0, [x9, #184]
	str	x8, [sp, #200]
	ldr	x8, [x15, #72]
	ldr	x24, [x15, #8]
	ldur	q2, [x9, #232]
	stp	q0, q1, [x27, #96]
	ldur	q0, [x9, #216]
	str	x8, [sp, #192]
	ldr	x8, [x15, #80]
	ldr	x5, [sp, #136]
	ldr	x20, [sp, #48]
	stp	q0, q2, [x27, #48]
	str	x8, [sp, #160]
	ldp	x2, x17, [sp, #56]
	b	.LBB14_29
.LBB14_142:
	mov	w21, w10
	b	.LBB14_144
.LBB14_143:
	mov	x24, x16
	mov	x5, x16
.LBB14_144:
	movi	v0.2d, #0000000000000000
	mov	x4, xzr
	mov	x19, xzr
	mov	x10, xzr
	mov	x18, xzr
	mov	x3, xzr
	mov	x7, xzr
	mov	x17, xzr
	mov	x2, xzr
	mov	x14, xzr
	mov	x23, xzr
	mov	x6, xzr
	mov	x0, xzr
	mov	x30, xzr
	mov	x8, xzr
	mov	x11, xzr
	mov	w9, wzr
	mov	x20, xzr
	stp	xzr, xzr, [sp, #168]
	stp	xzr, xzr, [sp, #192]
	str	xzr, [sp, #184]
	str	xzr, [sp, #136]
	stp	q0, q0, [x26]
	stp	q0, q0, [x26, #32]
.LBB14_145:
	stp	q0, q0, [x26, #64]
	stp	q0, q0, [x26, #96]
	movi	v0.2d, #0000000000000000
	stp	q0, q0, [x15]
	stp	q0, q0, [x25]
	stp	q0, q0, [x26, #736]
	stp	q0, q0, [x26, #896]
	cbz	w9, .LBB14_152
.LBB14_146:
	ldp	q0, q1, [x26, #96]
	stp	q0, q1, [x15]
	ldp	q0, q2, [x26, #64]
	stp	q0, q2, [x25]
	ldp	q1, q0, [x26, #32]
	stp	q1, q0, [x26, #896]
	ldp	q0, q2, [x26]
	stp	q0, q2, [x26, #736]
	b	.LBB14_153
.LBB14_147:
	ldp	q0, q1, [x26, #640]
	lsr	x10, x16, #16
	stp	q0, q1, [x26, #384]
	ldp	q0, q2, [x26, #608]
	stp	q0, q2, [x26, #352]
	ldp	q1, q0, [x26, #576]
	stp	q1, q0, [x26, #320]
	ldp	q0, q1, [x26, #544]
	stp	q0, q1, [x26, #288]
	cbnz	x10, .LBB14_149
	tst	x24, #0xffffffffffff0000
	orr	w9, w9, w12
	cset	w10, ne
	orr	w9, w10, w9
	tbz	w9, #0, .LBB14_217
.LBB14_149:
	movi	v0.2d, #0000000000000000
	stp	xzr, xzr, [sp, #160]
	mov	x19, xzr
	stp	xzr, xzr, [sp, #192]
	mov	x4, xzr
	mov	x18, xzr
	mov	x3, xzr
	mov	x7, xzr
	mov	x17, xzr
	mov	x2, xzr
	stp	xzr, xzr, [sp, #176]
	mov	x14, xzr
	mov	x23, xzr
	str	xzr, [sp, #136]
	mov	x6, xzr
	mov	x0, xzr
	mov	x30, xzr
	mov	x8, xzr
	mov	x11, xzr
	mov	x5, xzr
	mov	x10, xzr
	mov	x20, xzr
	mov	w9, wzr
	mov	x24, xzr
	stp	q0, q0, [x26, #416]
	mov	w16, #5
.LBB14_150:
	stp	q0, q0, [x26, #448]
	stp	q0, q0, [x26, #480]
	stp	q0, q0, [x26, #512]
.LBB14_151:
	ldp	q0, q1, [x26, #512]
	mov	x21, x16
	mov	x16, x24
	mov	x24, x5
	mov	x5, x10
	ldr	x10, [sp, #160]
	stp	q0, q1, [x26, #96]
	ldp	q0, q2, [x26, #480]
	stp	q0, q2, [x26, #64]
	ldp	q1, q0, [x26, #448]
	stp	q1, q0, [x26, #32]
	ldp	q0, q2, [x26, #416]
	stp	q0, q2, [x26]
	movi	v0.2d, #0000000000000000
	stp	q0, q0, [x15]
	stp	q0, q0, [x25]
	stp	q0, q0, [x26, #736]
	stp	q0, q0, [x26, #896]
	cbnz	w9, .LBB14_146
.LBB14_152:
	mov	x18, xzr
	mov	x4, xzr
	mov	x19, xzr
	mov	x10, xzr
	mov	x3, xzr
	mov	x7, xzr
	mov	x17, xzr
	mov	x2, xzr
	mov	x14, xzr
	mov	x20, xzr
	mov	x23, xzr
	mov	x6, xzr
	mov	x0, xzr
	mov	x30, xzr
	mov	x8, xzr
	mov	x11, xzr
	and	x21, x21, #0xff
	stp	xzr, xzr, [sp, #168]
	stp	xzr, xzr, [sp, #192]
	str	xzr, [sp, #184]
	str	xzr, [sp, #136]
.LBB14_153:
	ldp	q0, q1, [x15]
	stp	q0, q1, [x26, #224]
	ldp	q0, q2, [x25]
	stp	q0, q2, [x26, #192]
	ldp	q1, q0, [x26, #896]
	stp	q1, q0, [x26, #160]
	ldp	q0, q2, [x26, #736]
	stp	q0, q2, [x26, #128]
	cbz	w9, .LBB14_162
	ldp	q0, q1, [x26, #224]
	stp	x0, x30, [sp, #24]
	cmp	x8, #64, lsl #12
	add	x0, sp, #82, lsl #12
	stp	x4, x19, [sp, #88]
	mov	w9, #262144
	add	x0, x0, #1120
	stp	x20, x2, [sp, #48]
	csel	x9, x8, x9, lo
	mov	w1, wzr
	mov	w2, #8192
	mov	x19, x6
	stp	x14, x16, [sp, #112]
	str	x18, [sp, #128]
	mov	x20, x5
	stp	x17, x7, [sp, #64]
	str	x3, [sp, #80]
	stp	x8, x10, [sp, #152]
	stp	q0, q1, [x26, #256]
	stp	q0, q1, [x26, #672]
	stp	q0, q1, [x26, #704]
	str	q0, [x25, #8192]
	str	x9, [sp, #40]
	str	q1, [x25, #8208]
	str	x11, [sp, #104]
	bl	memset
	add	x0, sp, #80, lsl #12
	mov	w1, wzr
	mov	w2, #8192
	add	x0, x0, #1120
	bl	memset
	movi	v0.2d, #0000000000000000
	ldr	x8, [sp, #104]
	ldr	x9, [sp, #152]
	ldr	x0, [sp, #200]
	add	x13, sp, #84, lsl #12
	str	xzr, [x26, #880]
	lsr	x8, x8, #32
	add	x13, x13, #1152
	stp	q0, q0, [x26, #736]
	stp	q0, q0, [x26, #768]
	stp	q0, q0, [x26, #800]
	stp	q0, q0, [x26, #832]
	str	q0, [x26, #864]
	cbnz	x8, .LBB14_169
	subs	x12, x28, x9
	b.lo	.LBB14_169
	sub	x8, x24, #1
	cmp	x8, #3
	b.hi	.LBB14_169
	sub	x8, x20, #1
	sub	x9, x0, #1
	mov	x5, x20
	orr	x8, x9, x8
	cmp	x8, #3
	b.hi	.LBB14_169
	mul	x10, x0, x5
	cmp	x24, #1
	b.ne	.LBB14_163
.LBB14_159:
	cmp	x10, #10
	b.hi	.LBB14_169
	ldp	q0, q1, [x26, #160]
	ldr	x9, [sp, #184]
	str	x10, [sp, #16]
	ldr	x10, [sp, #112]
	cmp	x9, #3
	stp	q0, q1, [x13]
	b.hi	.LBB14_220
	add	x8, sp, #84, lsl #12
	add	x8, x8, #1152
	ldr	x20, [x8, x9, lsl #3]
	b	.LBB14_221
.LBB14_162:
	mov	x23, x21
	b	.LBB14_170
.LBB14_163:
	ldr	x8, [sp, #128]
	ldr	x9, [sp, #96]
	sub	x8, x8, #1
	sub	x9, x9, #1
	orr	x8, x9, x8
	cmp	x8, #3
	b.hi	.LBB14_169
	ldr	x8, [sp, #96]
	ldr	x9, [sp, #128]
	cmp	x24, #2
	madd	x10, x8, x9, x10
	b.eq	.LBB14_159
	ldr	x8, [sp, #88]
	ldr	x9, [sp, #192]
	sub	x8, x8, #1
	sub	x9, x9, #1
	orr	x8, x9, x8
	cmp	x8, #3
	b.hi	.LBB14_169
	ldr	x8, [sp, #192]
	ldr	x9, [sp, #88]
	cmp	x24, #3
	madd	x10, x8, x9, x10
	b.eq	.LBB14_159
	ldp	x9, x8, [sp, #160]
	sub	x8, x8, #1
	sub	x9, x9, #1
	orr	x8, x9, x8
	cmp	x8, #3
	b.hi	.LBB14_169
	ldp	x8, x9, [sp, #160]
	madd	x10, x8, x9, x10
	b	.LBB14_159
.LBB14_169:
	mov	w16, #3
	mov	w23, #10
.LBB14_170:
	movi	v0.2d, #0000000000000000
	add	x9, sp, #84, lsl #12
	and	w8, w23, #0xff
	add	x9, x9, #1152
	cmp	w8, #4
	add	x20, x9, #23
	add	x19, x9, #22
	stp	q0, q0, [x25]
	stp	q0, q0, [x25, #32]
	stp	q0, q0, [x25, #64]
	stp	q0, q0, [x26, #896]
	stp	q0, q0, [x26, #928]
	str	q0, [x26, #960]
	b.le	.LBB14_174
	cmp	w8, #6
	b.le	.LBB14_178
	sub	w8, w8, #7
	cmp	w8, #3
	b.hs	.LBB14_184
	mov	w21, wzr
	b	.LBB14_187
.LBB14_174:
	cmp	w8, #1
	b.le	.LBB14_180
	cmp	w8, #2
	b.eq	.LBB14_186
	cmp	w8, #3
	b.ne	.LBB14_183
.LBB14_177:
	mov	w21, wzr
	mov	w23, #4
	b	.LBB14_187
.LBB14_178:
	cmp	w8, #5
	b.ne	.LBB14_182
	mov	w21, wzr
	mov	w23, #6
	b	.LBB14_187
.LBB14_180:
	cbnz	w8, .LBB14_182
	mov	w21, wzr
	mov	w23, #1
	b	.LBB14_187
.LBB14_182:
	mov	w21, wzr
	mov	w23, #2
	b	.LBB14_187
.LBB14_183:
	mov	w21, wzr
	mov	w23, #5
	b	.LBB14_187
.LBB14_184:
	and	w8, w16, #0xff
	cmp	w8, #1
	b.gt	.LBB14_215
	cbnz	w8, .LBB14_219
.LBB14_186:
	mov	w21, wzr
	mov	w23, #3
.LBB14_187:
	add	x0, sp, #80, lsl #12
	adrp	x1, .Lstatic.3
	add	x1, x1, :lo12:.Lstatic.3
	add	x0, x0, #1120
	mov	w2, #8
	bl	"core::fmt::type_impls::writers::RefMutWrite::write_str::<#18b16ec19ae6b37c>"
	and	w8, w0, #0xff
	tbnz	w8, #0, .LBB14_196
	add	x10, sp, #84, lsl #12
	add	x10, x10, #1152
	stp	xzr, xzr, [x10]
	stur	xzr, [x10, #15]
	cbz	w21, .LBB14_190
	mov	w9, #49
	add	w8, w23, #38
	mov	w2, #2
	strb	w9, [x10, #22]
	b	.LBB14_191
.LBB14_190:
	orr	w8, w23, #0x30
	mov	w2, #1
	mov	x19, x20
.LBB14_191:
	add	x0, sp, #80, lsl #12
	strb	w8, [x10, #23]
	mov	w8, #45
	add	x0, x0, #1120
	mov	x1, x19
	sturb	w8, [x19, #-1]
	bl	"core::fmt::type_impls::writers::RefMutWrite::write_str::<#18b16ec19ae6b37c>"
	and	w8, w0, #0xff
	tbnz	w8, #0, .LBB14_196
	add	x0, sp, #80, lsl #12
	adrp	x1, .Lstatic.4
	add	x1, x1, :lo12:.Lstatic.4
	add	x0, x0, #1120
	mov	w2, #1
	bl	"core::fmt::type_impls::writers::RefMutWrite::write_str::<#18b16ec19ae6b37c>"
	and	w8, w0, #0xff
	tbnz	w8, #0, .LBB14_196
	ldr	x8, [x26, #960]
	mov	w9, #64
	mov	x20, xzr
	cmp	x8, #64
	csel	x2, x8, x9, lo
.LBB14_194:
	add	x19, sp, #84, lsl #12
	add	x0, sp, #84, lsl #12
	add	x1, sp, #80, lsl #12
	add	x19, x19, #1152
	add	x0, x0, #1152
	add	x1, x1, #1120
	stp	xzr, xzr, [x19]
	str	xzr, [x19, #16]
	bl	"core::str::utf8::from_utf8"
	ldrb	w8, [x19]
	ldp	x9, x10, [x19, #8]
	adrp	x11, .Lstatic.2
	add	x11, x11, :lo12:.Lstatic.2
	add	x0, sp, #82, lsl #12
	cmp	w8, #0
	add	x0, x0, #1120
	csel	x1, x9, x11, eq
	csel	x2, x10, xzr, eq
	bl	"std::io::stdio::StdoutWrite::write_all"
	ldrb	w8, [x25]
	cbnz	w8, .LBB14_196
	movi	v0.2d, #0000000000000000
	add	x19, sp, #84, lsl #12
	add	x0, sp, #84, lsl #12
	add	x1, sp, #16, lsl #12
	add	x19, x19, #1152
	add	x0, x0, #1152
	add	x1, x1, #224
	mov	x2, x20
	stp	q0, q0, [x19]
	stp	q0, q0, [x19, #32]
	stp	q0, q0, [x19, #64]
	bl	"std::io::stdio::StdoutWrite::write_all"
	ldrb	w8, [x19]
	cmp	w8, #1
	b.ne	.LBB14_213
.LBB14_196:
	add	x20, sp, #16, lsl #12
	mov	w8, #2
	mov	w1, wzr
	add	x20, x20, #224
	mov	w2, #1132
	str	w8, [x22]
	orr	x0, x20, #0x4
	orr	x19, x20, #0x4
	bl	memset
	movi	v0.2d, #0000000000000000
	mov	w8, #32
	add	x21, x20, #1140
	str	wzr, [x22, #1148]
	add	x9, x20, #1160
	mov	x10, #-1
	str	w8, [x22, #1136]
	add	x20, x20, #1136
	str	xzr, [x21]
	str	q0, [x9]
	ldr	q0, [x22, #1136]
	str	w8, [x22, #1136]
	ldr	x8, [sp, #144]
	str	x10, [x22, #1152]
	str	q0, [sp, #208]
	str	x10, [sp, #224]
	str	xzr, [x21]
	str	wzr, [x22, #1148]
	tbnz	x8, #63, .LBB14_202
	mov	x23, xzr
	mov	x8, xzr
	b	.LBB14_199
.LBB14_198:
	add	x23, x23, #1
	strb	w24, [x19, x8]
	add	x8, x8, #1
	cmp	x23, #41
	str	x8, [x22, #1032]
	b.eq	.LBB14_207
.LBB14_199:
	adrp	x9, .Lstatic.18
	add	x9, x9, :lo12:.Lstatic.18
	cmp	x8, #1024
	ldrb	w24, [x9, x23]
	b.lo	.LBB14_198
	add	x0, sp, #16, lsl #12
	add	x0, x0, #224
	bl	"std_io::io::buffer::Buffer::flush"
	cbz	w0, .LBB14_212
	ldr	x8, [x22, #1032]
	cmp	x8, #1023
	b.ls	.LBB14_198
	b	.LBB14_212
.LBB14_202:
	mov	x23, xzr
	mov	x8, xzr
	b	.LBB14_204
.LBB14_203:
	add	x23, x23, #1
	strb	w24, [x19, x8]
	add	x8, x8, #1
	cmp	x23, #37
	str	x8, [x22, #1032]
	b.eq	.LBB14_207
.LBB14_204:
	adrp	x9, .Lstatic.17
	add	x9, x9, :lo12:.Lstatic.17
	cmp	x8, #1024
	ldrb	w24, [x9, x23]
	b.lo	.LBB14_203
	add	x0, sp, #16, lsl #12
	add	x0, x0, #224
	bl	"std_io::io::buffer::Buffer::flush"
	cbz	w0, .LBB14_212
	ldr	x8, [x22, #1032]
	cmp	x8, #1023
	b.ls	.LBB14_203
	b	.LBB14_212
.LBB14_207:
	ldr	q0, [sp, #208]
	ldr	x9, [sp, #224]
	mov	w10, #32
	str	q0, [x20]
	str	x9, [x20, #16]
	ldr	q0, [x20]
	str	w10, [x22, #1136]
	ldr	x10, [x22, #1160]
	str	x9, [sp, #224]
	mov	x9, #-1
	str	xzr, [x21]
	str	q0, [sp, #208]
	str	wzr, [x21, #8]
	str	x9, [x22, #1152]
	cbnz	x10, .LBB14_214
	cmp	x8, #1024
	b.lo	.LBB14_211
	add	x0, sp, #16, lsl #12
	add	x0, x0, #224
	bl	"std_io::io::buffer::Buffer::flush"
	cbz	w0, .LBB14_212
	ldr	x8, [x22, #1032]
	cmp	x8, #1023
	b.hi	.LBB14_212
.LBB14_211:
	mov	w9, #10
	strb	w9, [x19, x8]
	add	x8, x8, #1
	str	x8, [x22, #1032]
.LBB14_212:
	ldr	x8, [sp, #224]
	ldr	q0, [sp, #208]
	mov	x1, x19
	mov	w2, #1132
	str	x8, [x20, #16]
	ldr	w8, [x22]
	str	q0, [x20]
	str	w8, [sp, #208]
	add	x8, sp, #208
	orr	x0, x8, #0x4
	bl	memcpy
	add	x0, sp, #208
	bl	"std_io::io::buffer::Buffer::flush"
.LBB14_213:
	mov	w0, wzr
	add	sp, sp, #86, lsl #12
	add	sp, sp, #1408
	ldp	x20, x19, [sp, #80]
	ldp	x22, x21, [sp, #64]
	ldp	x24, x23, [sp, #48]
	ldp	x26, x25, [sp, #32]
	ldp	x28, x27, [sp, #16]
	ldp	x29, x30, [sp], #96
	ret
.LBB14_214:
	add	x0, sp, #16, lsl #12
	adrp	x1, .Lstatic.4
	add	x1, x1, :lo12:.Lstatic.4
	add	x0, x0, #224
	mov	w2, #1
	bl	"core::fmt::formatter::Formatter::write_indented::<#bf264aed5fa78656>"
	b	.LBB14_212
.LBB14_215:
	cmp	w8, #2
	b.ne	.LBB14_177
	mov	w23, #11
	mov	w21, #1
	b	.LBB14_187
.LBB14_217:
	tbz	w13, #0, .LBB14_314
	movi	v0.2d, #0000000000000000
	mov	x19, xzr
	mov	x4, xzr
	mov	x18, xzr
	mov	x3, xzr
	mov	x7, xzr
	mov	x17, xzr
	mov	x2, xzr
	mov	x14, xzr
	mov	x23, xzr
	mov	x6, xzr
	mov	x0, xzr
	mov	x30, xzr
	mov	x8, xzr
	mov	x11, xzr
	mov	x5, xzr
	mov	x10, xzr
	mov	x20, xzr
	mov	w9, wzr
	mov	x24, xzr
	mov	w16, #6
	stp	xzr, xzr, [sp, #160]
	stp	xzr, xzr, [sp, #192]
	stp	xzr, xzr, [sp, #176]
	str	xzr, [sp, #136]
	stp	q0, q0, [x26, #416]
	b	.LBB14_150
.LBB14_219:
	mov	w23, #10
	mov	w21, #1
	b	.LBB14_187
.LBB14_220:
	mov	x20, xzr
.LBB14_221:
	ldp	x18, x15, [sp, #72]
	cmp	x10, #3
	ldp	x3, x2, [sp, #56]
	ldr	x9, [sp, #48]
	ldr	x11, [sp, #24]
	b.hi	.LBB14_223
	add	x8, sp, #84, lsl #12
	add	x8, x8, #1152
	ldr	x30, [x8, x10, lsl #3]
	b	.LBB14_224
.LBB14_223:
	mov	x30, xzr
.LBB14_224:
	ldp	x14, x1, [sp, #160]
	ldr	x10, [sp, #176]
	ldp	x4, x17, [sp, #88]
	ldr	x16, [sp, #192]
	cmp	x10, #3
	b.hi	.LBB14_226
	add	x8, sp, #84, lsl #12
	add	x8, x8, #1152
	ldr	x8, [x8, x10, lsl #3]
	str	x8, [sp, #192]
	b	.LBB14_227
.LBB14_226:
	str	xzr, [sp, #192]
.LBB14_227:
	cmp	x9, #3
	b.hi	.LBB14_229
	add	x8, sp, #84, lsl #12
	add	x8, x8, #1152
	ldr	x8, [x8, x9, lsl #3]
	str	x8, [sp, #184]
	b	.LBB14_230
.LBB14_229:
	str	xzr, [sp, #184]
.LBB14_230:
	ldp	q0, q1, [x26, #128]
	cmp	x23, #3
	stp	q0, q1, [x13]
	b.hi	.LBB14_232
	add	x8, sp, #84, lsl #12
	add	x8, x8, #1152
	ldr	x23, [x8, x23, lsl #3]
	b	.LBB14_233
.LBB14_232:
	mov	x23, xzr
.LBB14_233:
	ldr	x9, [sp, #136]
	mov	x6, x21
	cmp	x9, #3
	b.hi	.LBB14_235
	add	x8, sp, #84, lsl #12
	add	x8, x8, #1152
	ldr	x21, [x8, x9, lsl #3]
	b	.LBB14_236
.LBB14_235:
	mov	x21, xzr
.LBB14_236:
	mov	w9, #262144
	cmp	x19, #3
	b.hi	.LBB14_238
	add	x8, sp, #84, lsl #12
	add	x8, x8, #1152
	ldr	x19, [x8, x19, lsl #3]
	b	.LBB14_239
.LBB14_238:
	mov	x19, xzr
.LBB14_239:
	cmp	x11, #3
	b.hi	.LBB14_241
	add	x8, sp, #84, lsl #12
	add	x8, x8, #1152
	ldr	x8, [x8, x11, lsl #3]
	str	x8, [sp, #176]
	b	.LBB14_242
.LBB14_241:
	str	xzr, [sp, #176]
.LBB14_242:
	ldp	q0, q1, [x26, #192]
	cmp	x15, #3
	stp	q0, q1, [x13]
	b.hi	.LBB14_244
	add	x8, sp, #84, lsl #12
	add	x8, x8, #1152
	ldr	x8, [x8, x15, lsl #3]
	str	x8, [sp, #112]
	b	.LBB14_245
.LBB14_244:
	str	xzr, [sp, #112]
.LBB14_245:
	cmp	x18, #3
	b.hi	.LBB14_247
	add	x8, sp, #84, lsl #12
	add	x8, x8, #1152
	ldr	x8, [x8, x18, lsl #3]
	str	x8, [sp, #96]
	b	.LBB14_248
.LBB14_247:
	str	xzr, [sp, #96]
.LBB14_248:
	cmp	x2, #3
	str	x12, [sp, #8]
	b.hi	.LBB14_250
	add	x8, sp, #84, lsl #12
	add	x8, x8, #1152
	ldr	x8, [x8, x2, lsl #3]
	str	x8, [sp, #88]
	b	.LBB14_251
.LBB14_250:
	str	xzr, [sp, #88]
.LBB14_251:
	ldr	x8, [sp, #40]
	cmp	x3, #3
	sub	x7, x9, x8
	b.hi	.LBB14_253
	add	x8, sp, #84, lsl #12
	add	x8, x8, #1152
	ldr	x8, [x8, x3, lsl #3]
	str	x8, [sp, #80]
	b	.LBB14_254
.LBB14_253:
	str	xzr, [sp, #80]
.LBB14_254:
	ldr	x9, [sp, #120]
	ldp	q0, q1, [x26, #224]
	mov	x8, xzr
	stp	x24, x5, [x13, #16]
	stp	x6, x9, [x13]
	ldr	x9, [sp, #128]
	stur	q0, [x13, #88]
	stp	x9, x4, [x13, #32]
	mov	w9, #9
	stp	x1, x0, [x13, #48]
	stp	x17, x16, [x13, #64]
	str	x14, [x13, #80]
	stur	q1, [x13, #104]
	stp	x15, x18, [x13, #120]
	stp	x2, x3, [x13, #136]
.LBB14_255:
	add	x10, sp, #84, lsl #12
	add	x10, x10, #1152
	add	x10, x10, x8, lsl #3
	ldr	x11, [x10, #24]
	ldr	x10, [x10, #56]
	mul	x10, x10, x11
	subs	x9, x9, x10
	b.lo	.LBB14_258
	add	x8, x8, #1
	cmp	x24, x8
	b.ne	.LBB14_255
	mov	x8, x24
.LBB14_258:
	ldr	x10, [sp, #120]
	ldp	q0, q1, [x26, #224]
	mov	x9, xzr
	stp	x24, x5, [x13, #16]
	stp	x6, x10, [x13]
	ldr	x10, [sp, #128]
	stur	q0, [x13, #88]
	stp	x10, x4, [x13, #32]
	ubfiz	x10, x8, #2, #2
	mov	w8, #8
	stp	x1, x0, [x13, #48]
	stp	x17, x16, [x13, #64]
	str	x14, [x13, #80]
	stur	q1, [x13, #104]
	stp	x15, x18, [x13, #120]
	stp	x2, x3, [x13, #136]
.LBB14_259:
	add	x11, sp, #84, lsl #12
	add	x11, x11, #1152
	add	x11, x11, x9, lsl #3
	ldr	x12, [x11, #24]
	ldr	x11, [x11, #56]
	mul	x11, x11, x12
	subs	x8, x8, x11
	b.lo	.LBB14_262
	add	x9, x9, #1
	cmp	x24, x9
	b.ne	.LBB14_259
	mov	x9, x24
.LBB14_262:
	ldr	x11, [sp, #120]
	ldp	q0, q1, [x26, #224]
	and	x9, x9, #0x3
	mov	x8, xzr
	stp	x24, x5, [x13, #16]
	stp	x6, x11, [x13]
	ldr	x11, [sp, #128]
	orr	x10, x9, x10
	mov	w9, #7
	stur	q0, [x13, #88]
	stp	x11, x4, [x13, #32]
	stp	x1, x0, [x13, #48]
	stp	x17, x16, [x13, #64]
	str	x14, [x13, #80]
	stur	q1, [x13, #104]
	stp	x15, x18, [x13, #120]
	stp	x2, x3, [x13, #136]
.LBB14_263:
	add	x11, sp, #84, lsl #12
	add	x11, x11, #1152
	add	x11, x11, x8, lsl #3
	ldr	x12, [x11, #24]
	ldr	x11, [x11, #56]
	mul	x11, x11, x12
	subs	x9, x9, x11
	b.lo	.LBB14_266
	add	x8, x8, #1
	cmp	x24, x8
	b.ne	.LBB14_263
	mov	x8, x24
.LBB14_266:
	ldr	x11, [sp, #120]
	lsl	x10, x10, #4
	mov	x9, xzr
	ldp	q0, q1, [x26, #224]
	stp	x24, x5, [x13, #16]
	stp	x6, x11, [x13]
	ldr	x11, [sp, #128]
	bfi	x10, x8, #2, #2
	mov	w8, #6
	stp	x1, x0, [x13, #48]
	stur	q0, [x13, #88]
	stp	x11, x4, [x13, #32]
	stp	x17, x16, [x13, #64]
	str	x14, [x13, #80]
	stur	q1, [x13, #104]
	stp	x15, x18, [x13, #120]
	stp	x2, x3, [x13, #136]
.LBB14_267:
	add	x11, sp, #84, lsl #12
	add	x11, x11, #1152
	add	x11, x11, x9, lsl #3
	ldr	x12, [x11, #24]
	ldr	x11, [x11, #56]
	mul	x11, x11, x12
	subs	x8, x8, x11
	b.lo	.LBB14_270
	add	x9, x9, #1
	cmp	x24, x9
	b.ne	.LBB14_267
	mov	x9, x24
.LBB14_270:
	ldr	x11, [sp, #120]
	ldp	q0, q1, [x26, #224]
	and	x9, x9, #0x3
	mov	x8, xzr
	stp	x24, x5, [x13, #16]
	stp	x6, x11, [x13]
	ldr	x11, [sp, #128]
	orr	x10, x9, x10
	mov	w9, #5
	stur	q0, [x13, #88]
	stp	x11, x4, [x13, #32]
	stp	x1, x0, [x13, #48]
	stp	x17, x16, [x13, #64]
	str	x14, [x13, #80]
	stur	q1, [x13, #104]
	stp	x15, x18, [x13, #120]
	stp	x2, x3, [x13, #136]
.LBB14_271:
	add	x11, sp, #84, lsl #12
	add	x11, x11, #1152
	add	x11, x11, x8, lsl #3
	ldr	x12, [x11, #24]
	ldr	x11, [x11, #56]
	mul	x11, x11, x12
	subs	x9, x9, x11
	b.lo	.LBB14_274
	add	x8, x8, #1
	cmp	x24, x8
	b.ne	.LBB14_271
	mov	x8, x24
.LBB14_274:
	ldr	x11, [sp, #120]
	lsl	x10, x10, #4
	mov	x9, xzr
	ldp	q0, q1, [x26, #224]
	stp	x24, x5, [x13, #16]
	stp	x6, x11, [x13]
	ldr	x11, [sp, #128]
	bfi	x10, x8, #2, #2
	mov	w8, #4
	stp	x1, x0, [x13, #48]
	stur	q0, [x13, #88]
	stp	x11, x4, [x13, #32]
	stp	x17, x16, [x13, #64]
	str	x14, [x13, #80]
	stur	q1, [x13, #104]
	stp	x15, x18, [x13, #120]
	stp	x2, x3, [x13, #136]
.LBB14_275:
	add	x11, sp, #84, lsl #12
	add	x11, x11, #1152
	add	x11, x11, x9, lsl #3
	ldr	x12, [x11, #24]
	ldr	x11, [x11, #56]
	mul	x11, x11, x12
	subs	x8, x8, x11
	b.lo	.LBB14_278
	add	x9, x9, #1
	cmp	x24, x9
	b.ne	.LBB14_275
	mov	x9, x24
.LBB14_278:
	ldr	x11, [sp, #120]
	ldp	q0, q1, [x26, #256]
	and	x9, x9, #0x3
	mov	x8, xzr
	stp	x24, x5, [x13, #16]
	stp	x6, x11, [x13]
	ldr	x11, [sp, #128]
	orr	x10, x9, x10
	mov	w9, #3
	stur	q0, [x13, #88]
	stp	x11, x4, [x13, #32]
	stp	x1, x0, [x13, #48]
	stp	x17, x16, [x13, #64]
	str	x14, [x13, #80]
	stur	q1, [x13, #104]
	stp	x15, x18, [x13, #120]
	stp	x2, x3, [x13, #136]
.LBB14_279:
	add	x11, sp, #84, lsl #12
	add	x11, x11, #1152
	add	x11, x11, x8, lsl #3
	ldr	x12, [x11, #24]
	ldr	x11, [x11, #56]
	mul	x11, x11, x12
	subs	x9, x9, x11
	b.lo	.LBB14_282
	add	x8, x8, #1
	cmp	x24, x8
	b.ne	.LBB14_279
	mov	x8, x24
.LBB14_282:
	ldr	x11, [sp, #120]
	lsl	x10, x10, #4
	mov	x9, xzr
	ldp	q0, q1, [x26, #672]
	stp	x24, x5, [x13, #16]
	stp	x6, x11, [x13]
	ldr	x11, [sp, #128]
	bfi	x10, x8, #2, #2
	mov	w8, #2
	stp	x1, x0, [x13, #48]
	stur	q0, [x13, #88]
	stp	x11, x4, [x13, #32]
	stp	x17, x16, [x13, #64]
	str	x14, [x13, #80]
	stur	q1, [x13, #104]
	stp	x15, x18, [x13, #120]
	stp	x2, x3, [x13, #136]
.LBB14_283:
	add	x11, sp, #84, lsl #12
	add	x11, x11, #1152
	add	x11, x11, x9, lsl #3
	ldr	x12, [x11, #24]
	ldr	x11, [x11, #56]
	mul	x11, x11, x12
	subs	x8, x8, x11
	b.lo	.LBB14_286
	add	x9, x9, #1
	cmp	x24, x9
	b.ne	.LBB14_283
	mov	x9, x24
.LBB14_286:
	ldr	x11, [sp, #120]
	ldp	q0, q1, [x26, #704]
	and	x9, x9, #0x3
	mov	x8, xzr
	stp	x24, x5, [x13, #16]
	stp	x6, x11, [x13]
	ldr	x11, [sp, #128]
	orr	x9, x9, x10
	mov	w10, #1
	stur	q0, [x13, #88]
	stp	x11, x4, [x13, #32]
	stp	x1, x0, [x13, #48]
	stp	x17, x16, [x13, #64]
	str	x14, [x13, #80]
	stur	q1, [x13, #104]
	stp	x15, x18, [x13, #120]
	stp	x2, x3, [x13, #136]
.LBB14_287:
	add	x11, sp, #84, lsl #12
	add	x11, x11, #1152
	add	x11, x11, x8, lsl #3
	ldr	x12, [x11, #24]
	ldr	x11, [x11, #56]
	mul	x11, x11, x12
	subs	x10, x10, x11
	b.lo	.LBB14_290
	add	x8, x8, #1
	cmp	x24, x8
	b.ne	.LBB14_287
	mov	x8, x24
.LBB14_290:
	ldr	x11, [sp, #120]
	ldr	q0, [x25, #8192]
	mov	x10, xzr
	stp	x24, x5, [x13, #16]
	stp	x6, x11, [x13]
	ldr	x11, [sp, #128]
	stur	q0, [x13, #88]
	ldr	q0, [x25, #8208]
	stp	x11, x4, [x13, #32]
	stp	x1, x0, [x13, #48]
	stp	x17, x16, [x13, #64]
	str	x14, [x13, #80]
	stur	q0, [x13, #104]
	stp	x15, x18, [x13, #120]
	stp	x2, x3, [x13, #136]
	str	x7, [sp, #168]
.LBB14_291:
	add	x11, sp, #84, lsl #12
	add	x11, x11, #1152
	add	x11, x11, x10, lsl #3
	ldr	x12, [x11, #24]
	ldr	x11, [x11, #56]
	mul	x11, x11, x12
	cbnz	x11, .LBB14_294
	add	x10, x10, #1
	cmp	x24, x10
	b.ne	.LBB14_291
	mov	x10, x24
.LBB14_294:
	lsl	x9, x9, #4
	add	x0, sp, #84, lsl #12
	mov	w1, wzr
	add	x0, x0, #1152
	mov	w2, #8192
	str	x20, [sp, #200]
	bfi	x9, x8, #2, #2
	ldr	x8, [sp, #192]
	stp	x20, x23, [x27, #96]
	stp	x21, x23, [sp, #128]
	stp	x8, x19, [x27, #128]
	ldr	x8, [sp, #184]
	bfxil	x9, x10, #0, #2
	str	x30, [sp, #160]
	str	x8, [x27, #144]
	ldr	x8, [sp, #176]
	stp	x30, x21, [x27, #112]
	str	x19, [sp, #120]
	str	x9, [sp, #72]
	str	x8, [x27, #152]
	bl	memset
	ldr	x8, [sp, #152]
	subs	x23, x8, #16
	b.hs	.LBB14_303
.LBB14_295:
	add	x0, sp, #80, lsl #12
	add	x1, sp, #84, lsl #12
	mov	w2, #8192
	add	x0, x0, #1120
	add	x1, x1, #1152
	bl	memcpy
	add	x0, sp, #82, lsl #12
	add	x1, sp, #80, lsl #12
	mov	w2, #8192
	add	x0, x0, #1120
	add	x1, x1, #1120
	bl	memcpy
	add	x8, sp, #208
	movi	v0.2d, #0000000000000000
	str	x8, [x26, #736]
	ldr	x8, [sp, #200]
	ldr	x12, [sp, #152]
	ldr	x15, [sp, #16]
	ldr	x13, [sp, #32]
	add	x14, sp, #84, lsl #12
	str	x8, [x26, #760]
	ldp	x8, x19, [sp, #160]
	add	x14, x14, #1152
	str	x28, [x26, #744]
	str	x8, [x26, #768]
	ldr	x8, [sp, #192]
	str	x12, [x26, #752]
	str	x8, [x26, #776]
	ldr	x8, [sp, #184]
	str	x15, [x26, #864]
	str	x8, [x26, #784]
	ldr	x8, [sp, #136]
	str	x13, [x26, #872]
	str	x8, [x26, #792]
	ldr	x8, [sp, #128]
	str	xzr, [x14, #8224]
	str	x8, [x26, #800]
	ldr	x8, [sp, #120]
	str	q0, [x14, #8208]
	str	x8, [x26, #808]
	ldr	x8, [sp, #176]
	str	q0, [x14, #8192]
	str	x8, [x26, #816]
	ldp	x11, x8, [sp, #104]
	str	x8, [x26, #824]
	ldr	x8, [sp, #96]
	cmp	x11, x19, lsr #2
	str	x11, [x26, #880]
	str	x8, [x26, #832]
	ldr	x8, [sp, #88]
	str	x8, [x26, #840]
	ldr	x8, [sp, #80]
	str	x8, [x26, #848]
	ldr	x8, [sp, #72]
	str	x8, [x26, #856]
	b.hi	.LBB14_301
	lsr	x8, x19, #1
	ldr	x9, [sp, #8]
	sub	x8, x8, x11, lsl #1
	cmp	x9, x8
	b.hi	.LBB14_301
	cmp	x24, #4
	b.hi	.LBB14_301
	mov	w8, #1
	add	x16, sp, #80, lsl #12
	add	x9, sp, #82, lsl #12
	orr	x8, x8, x24, lsl #1
	add	x16, x16, #960
	add	x9, x9, #1120
.LBB14_299:
	subs	x8, x8, #1
	b.eq	.LBB14_318
	ldr	w10, [x9]
	add	x9, x9, #1024
	cbnz	w10, .LBB14_299
.LBB14_301:
	add	x0, sp, #84, lsl #12
	add	x1, sp, #80, lsl #12
	add	x2, sp, #80, lsl #12
	add	x0, x0, #1152
	add	x1, x1, #960
	add	x2, x2, #1120
	sub	x3, x29, #17
	mov	x4, xzr
	str	xzr, [x14, #32]
	stp	q0, q0, [x14]
	bl	"jpeg_write_scan::run::<#c44e4da361dd472c>"
	add	x9, sp, #84, lsl #12
	add	x9, x9, #1152
	ldrb	w8, [x9]
	ldr	x10, [x9, #8]
	cbz	w8, .LBB14_315
	ldrb	w9, [x9, #16]
	b	.LBB14_354
.LBB14_303:
	mov	x19, xzr
	b	.LBB14_305
.LBB14_304:
	add	x19, x19, #1
	cmp	x19, #8
	b.eq	.LBB14_295
.LBB14_305:
	add	x9, sp, #84, lsl #12
	sub	x8, x29, #160
	mov	w1, wzr
	add	x9, x9, #1152
	ldr	x20, [x8, x19, lsl #3]
	mov	w2, #1024
	add	x21, x9, x19, lsl #10
	mov	x0, x21
	bl	memset
	cmp	x20, x23
	b.hi	.LBB14_304
	add	x9, sp, #208
	mov	x13, xzr
	add	x8, x20, #16
	add	x9, x9, x20
	mov	w10, #1
	b	.LBB14_308
.LBB14_307:
	add	x10, x10, #1
	mov	x13, x11
	cmp	x10, #17
	b.eq	.LBB14_304
.LBB14_308:
	add	x11, x9, x10
	ldurb	w14, [x11, #-1]
	lsl	x11, x13, #1
	cbz	w14, .LBB14_307
	mov	x12, #-1
	ldr	x16, [sp, #152]
	add	w13, w14, w13, lsl #1
	lsl	x15, x12, x10
	lsl	x12, x10, #16
	cmp	x8, x16
	mvn	x14, x15
	csel	x15, x8, x16, hi
	b	.LBB14_311
.LBB14_310:
	add	x11, x11, #1
	and	w16, w13, #0xff
	add	x8, x8, #1
	cmp	w16, w11, uxtb
	b.eq	.LBB14_307
.LBB14_311:
	cmp	x15, x8
	b.eq	.LBB14_304
	add	x16, sp, #208
	ldrb	w16, [x16, x8]
	ldr	w17, [x21, x16, lsl #2]
	cbnz	w17, .LBB14_310
	and	w17, w11, w14
	add	w17, w17, w12
	str	w17, [x21, x16, lsl #2]
	b	.LBB14_310
.LBB14_314:
	ldp	q0, q1, [x26, #384]
	mov	w9, #1
	ldr	x10, [sp, #152]
	str	x21, [sp, #136]
	mov	x11, x1
	stp	q0, q1, [x26, #512]
	ldp	q0, q2, [x26, #352]
	stp	q0, q2, [x26, #480]
	ldp	q1, q0, [x26, #320]
	stp	q1, q0, [x26, #448]
	ldp	q0, q2, [x26, #288]
	stp	q0, q2, [x26, #416]
	b	.LBB14_151
.LBB14_315:
	cmp	x19, x10
	b.lo	.LBB14_321
.LBB14_316:
	ldr	x8, [sp, #40]
	add	x9, sp, #16, lsl #12
	add	x1, sp, #80, lsl #12
	add	x2, sp, #80, lsl #12
	add	x9, x9, #224
	sub	x0, x29, #256
	add	x1, x1, #960
	add	x2, x2, #1120
	add	x3, x9, x8
	mov	x4, x19
	bl	"jpeg_write_scan::run::<#c44e4da361dd472c>"
	ldrb	w8, [x27]
	ldr	x10, [x27, #8]
	cbz	w8, .LBB14_321
	ldrb	w9, [x27, #16]
	b	.LBB14_354
.LBB14_318:
	cbz	x15, .LBB14_360
	udiv	x8, x11, x15
	msub	x9, x8, x15, x11
	cmp	x9, #0
	cinc	x17, x8, ne
	cbz	x17, .LBB14_346
	movi	v2.2d, #0000000000000000
	movi	v0.2d, #0000000000000000
	add	x0, sp, #84, lsl #12
	sub	x8, x13, #1
	mov	x21, xzr
	mov	x18, xzr
	mov	x10, xzr
	mov	x11, xzr
	mov	x9, xzr
	add	x0, x0, #1152
	stp	x8, x17, [sp, #184]
	mov	x8, x12
	b	.LBB14_325
.LBB14_321:
	ldr	x2, [sp, #152]
	add	x20, x10, x2
	cmp	x20, #64, lsl #12
	b.ls	.LBB14_343
	movi	v0.2d, #0000000000000000
	add	x8, sp, #84, lsl #12
	mov	w21, wzr
	add	x8, x8, #1152
	mov	w23, #7
	add	x20, x8, #23
	add	x19, x8, #22
	stp	q0, q0, [x25]
	stp	q0, q0, [x25, #32]
	stp	q0, q0, [x25, #64]
	stp	q0, q0, [x26, #896]
	stp	q0, q0, [x26, #928]
	str	q0, [x26, #960]
	b	.LBB14_187
.LBB14_323:
	movi	v2.2d, #0000000000000000
	ldp	x17, x18, [sp, #192]
	ldr	q0, [x26, #640]
	add	x14, sp, #84, lsl #12
	ldr	x13, [sp, #32]
	ldr	x15, [sp, #16]
	add	x16, sp, #80, lsl #12
	add	x0, sp, #84, lsl #12
	add	x14, x14, #1152
	add	x16, x16, #960
	add	x0, x0, #1152
.LBB14_324:
	add	x21, x21, #1
	lsr	x11, x9, #8
	and	x10, x9, #0xffffffffffff0000
	cmp	x21, x17
	b.hs	.LBB14_359
.LBB14_325:
	ldur	q1, [x16, #72]
	add	x12, sp, #208
	ubfiz	x11, x11, #8, #8
	stp	x12, x28, [x14]
	ldr	x12, [sp, #152]
	stur	q1, [x0, #72]
	ldur	q1, [x16, #88]
	str	x12, [x14, #16]
	ldur	x12, [x16, #120]
	stur	q1, [x0, #88]
	ldur	q1, [x16, #104]
	stur	x12, [x0, #120]
	orr	x12, x11, x10
	ldr	x10, [sp, #104]
	stur	q1, [x0, #104]
	ldur	q1, [x16, #24]
	and	x11, x9, #0xff
	cmp	x10, x18
	orr	x9, x12, x11
	stp	q2, q2, [x27, #48]
	stur	q1, [x0, #24]
	ldur	q1, [x16, #40]
	str	xzr, [x27, #80]
	stur	q1, [x0, #40]
	ldur	q1, [x16, #56]
	stp	x15, x13, [x14, #128]
	stur	q1, [x0, #56]
	str	x10, [x14, #144]
	b.ls	.LBB14_324
	cbz	x13, .LBB14_339
	cbz	x21, .LBB14_339
	udiv	x10, x21, x13
	msub	x13, x10, x13, x21
	cbnz	x13, .LBB14_339
	sub	w9, w10, #1
	mov	w10, #208
	ldr	x16, [sp, #184]
	ubfx	x13, x12, #8, #8
	bfxil	x10, x9, #0, #3
	mov	w9, #208
	cmp	x16, x21
	csel	x10, x10, x9, lo
	cmp	w13, #8
	mov	w9, #3
	b.hi	.LBB14_353
	lsr	x12, x12, #8
	mov	x13, #-1
	lsl	x12, x13, x12
	orr	x11, x12, x11
	cmn	x11, #1
	b.ne	.LBB14_353
	cmp	x8, x28
	b.hs	.LBB14_353
	neg	x9, x28
	mov	x11, xzr
	add	x12, sp, #208
	add	x9, x9, x8
.LBB14_333:
	ldrb	w13, [x12, x8]
	cmp	x13, #255
	b.ne	.LBB14_335
	sub	x11, x11, #1
	add	x12, x12, #1
	cmp	x9, x11
	b.ne	.LBB14_333
	b	.LBB14_352
.LBB14_335:
	mov	w9, #3
	cbz	x11, .LBB14_353
	sub	x8, x8, x11
	cmp	x28, x8
	b.ls	.LBB14_353
	cmp	x10, x13
	b.ne	.LBB14_353
	movi	v0.2d, #0000000000000000
	mov	x9, xzr
	add	x8, x8, #1
.LBB14_339:
	ldr	x10, [sp, #104]
	ldr	x23, [x14, #120]
	str	q0, [x26, #640]
	subs	x10, x10, x18
	csel	x10, xzr, x10, lo
	cmp	x10, x15
	csel	x20, x10, x15, lo
	add	x18, x20, x18
	str	x18, [sp, #200]
.LBB14_340:
	add	x10, sp, #80, lsl #12
	add	x1, sp, #84, lsl #12
	add	x3, sp, #80, lsl #12
	add	x10, x10, #864
	add	x24, sp, #80, lsl #12
	sub	x0, x29, #208
	bfi	x10, x23, #2, #2
	add	x1, x1, #1152
	and	x2, x23, #0x3
	add	x3, x3, #832
	sub	x5, x29, #160
	str	x8, [x26, #608]
	ldr	w4, [x10]
	and	x19, x23, #0x3
	str	x9, [x26, #616]
	add	x24, x24, #864
	bl	"jpeg_engine::PlainEngine::block"
	ldrb	w8, [x27, #48]
	cbnz	w8, .LBB14_342
	ldp	x9, x10, [x27, #64]
	orr	x11, x24, x19, lsl #2
	ldr	x8, [x27, #56]
	lsr	x23, x23, #2
	subs	x20, x20, #1
	str	w10, [x11]
	b.ne	.LBB14_340
	b	.LBB14_323
.LBB14_342:
	ldrb	w9, [x27, #49]
	b	.LBB14_353
.LBB14_343:
	cbz	x2, .LBB14_345
	add	x0, sp, #16, lsl #12
	add	x1, sp, #208
	add	x0, x0, #224
	bl	memcpy
.LBB14_345:
	movi	v0.2d, #0000000000000000
	mov	x2, xzr
	stp	q0, q0, [x25]
	stp	q0, q0, [x25, #32]
	stp	q0, q0, [x25, #64]
	stp	q0, q0, [x26, #896]
	stp	q0, q0, [x26, #928]
	str	q0, [x26, #960]
	b	.LBB14_194
.LBB14_346:
	mov	x8, x12
	mov	x12, xzr
	mov	w11, wzr
	cmp	w11, #8
	mov	w9, #3
	mov	w10, #1
	b.hi	.LBB14_354
.LBB14_347:
	mov	x13, #-1
	lsl	x11, x13, x11
	orr	x11, x11, x12
	cmn	x11, #1
	b.ne	.LBB14_354
	subs	x11, x28, x8
	b.ls	.LBB14_354
	mov	x12, xzr
.LBB14_350:
	add	x9, sp, #208
	ldrb	w13, [x9, x8]
	cmp	w13, #255
	b.ne	.LBB14_355
	sub	x11, x11, #1
	add	x8, x8, #1
	sub	x12, x12, #1
	cbnz	x11, .LBB14_350
.LBB14_352:
	mov	w9, #3
.LBB14_353:
	mov	w10, #1
.LBB14_354:
	tst	x10, #0xff
	mov	w8, #9
	cinc	x23, x8, ne
	csel	w16, wzr, w9, eq
	b	.LBB14_170
.LBB14_355:
	mov	w9, #3
	mov	w10, #1
	cbz	x12, .LBB14_354
	cmp	x28, x8
	b.ls	.LBB14_354
	cmp	w13, #217
	mov	w10, #1
	b.ne	.LBB14_354
	cmp	x11, #1
	b.eq	.LBB14_316
	b	.LBB14_354
.LBB14_359:
	ubfx	w11, w9, #8, #8
	ldr	x19, [sp, #168]
	and	x12, x9, #0xff
	cmp	w11, #8
	mov	w9, #3
	mov	w10, #1
	b.ls	.LBB14_347
	b	.LBB14_354
.LBB14_360:
	brk	#0x1
.Lfunc_end14:
	.size	main, .Lfunc_end14-main

	.type	.Lstatic.2,@object
	.section	.rodata..Lstatic.2,"a",@progbits
.Lstatic.2:
	.size	.Lstatic.2, 0

	.type	.Lstatic.3,@object
	.section	.rodata.cst8,"aM",@progbits,8
.Lstatic.3:
	.ascii	"refused "
	.size	.Lstatic.3, 8

	.type	.Lstatic.4,@object
	.section	.rodata..Lstatic.4,"a",@progbits
.Lstatic.4:
	.byte	10
	.size	.Lstatic.4, 1

	.type	.Lstatic.12,@object
	.section	.data.rel.ro..Lstatic.12,"aw",@progbits
	.p2align	3, 0x0
.Lstatic.12:
	.xword	.Lstatic.12+16
	.asciz	"\003\000\000\000\000\000\000\000...\000\000\000\000"
	.size	.Lstatic.12, 24

	.type	.Lstatic.13,@object
	.section	.rodata.cst4,"aM",@progbits,4
.Lstatic.13:
	.zero	4,32
	.size	.Lstatic.13, 4

	.type	.Lstatic.16,@object
	.section	.rodata..Lstatic.16,"a",@progbits
.Lstatic.16:
	.ascii	"gave up reading or writing after 2^64 tries"
	.size	.Lstatic.16, 43

	.type	.Lstatic.17,@object
	.section	.rodata..Lstatic.17,"a",@progbits
.Lstatic.17:
	.ascii	"tillsparrow: the input cannot be read"
	.size	.Lstatic.17, 37

	.type	.Lstatic.18,@object
	.section	.rodata..Lstatic.18,"a",@progbits
.Lstatic.18:
	.ascii	"tillsparrow: the output cannot be written"
	.size	.Lstatic.18, 41

	.ident	"rattle logic=dac8208d650f15bf3e2dc313a14fa4c783a3acf887bdfab66e1714b038d9e11b"
	.section	".note.GNU-stack","",@progbits
	.text
	.globl	rattle_errno
	.p2align	2
	.type	rattle_errno,@function
rattle_errno:
	.cfi_startproc
	stp	x29, x30, [sp, #-16]!
	.cfi_def_cfa_offset 16
	mov	x29, sp
	.cfi_def_cfa w29, 16
	.cfi_offset w30, -8
	.cfi_offset w29, -16
	bl	__errno_location
	ldr	w0, [x0]
	.cfi_def_cfa wsp, 16
	ldp	x29, x30, [sp], #16
	.cfi_def_cfa_offset 0
	.cfi_restore w30
	.cfi_restore w29
	ret
.Lerror_func_end0:
	.size	rattle_errno, .Lerror_func_end0-rattle_errno
	.cfi_endproc

	.section	".note.GNU-stack","",@progbits
