	.file	"rattle"
	.section	".text.std_io::io::error::Error::from_raw_os_error","ax",@progbits
	.p2align	4
	.type	"std_io::io::error::Error::from_raw_os_error",@function
"std_io::io::error::Error::from_raw_os_error":
	movb	$41, %al
	testl	%esi, %esi
	js	.LBB0_40
	leal	-1(%rsi), %ecx
	cmpl	$121, %ecx
	ja	.LBB0_40
	leaq	.LJTI0_0(%rip), %rdx
	movslq	(%rdx,%rcx,4), %rcx
	addq	%rdx, %rcx
	jmpq	*%rcx
.LBB0_3:
	movb	$1, %al
	jmp	.LBB0_40
.LBB0_24:
	movb	$36, %al
	jmp	.LBB0_40
.LBB0_36:
	movb	$4, %al
	jmp	.LBB0_40
.LBB0_33:
	movb	$7, %al
	jmp	.LBB0_40
.LBB0_39:
	movb	$26, %al
	jmp	.LBB0_40
.LBB0_37:
	movb	$39, %al
	jmp	.LBB0_40
.LBB0_28:
	movb	$9, %al
	jmp	.LBB0_40
.LBB0_27:
	movb	$8, %al
	jmp	.LBB0_40
.LBB0_22:
	movb	$30, %al
	jmp	.LBB0_40
.LBB0_18:
	movb	$25, %al
	jmp	.LBB0_40
.LBB0_20:
	movb	$32, %al
	jmp	.LBB0_40
.LBB0_23:
	movb	$33, %al
	jmp	.LBB0_40
.LBB0_34:
	movb	$22, %al
	jmp	.LBB0_40
.LBB0_11:
	movb	$31, %al
	jmp	.LBB0_40
.LBB0_15:
	movb	$29, %al
	jmp	.LBB0_40
.LBB0_26:
	movb	$18, %al
	jmp	.LBB0_40
.LBB0_29:
	movb	$10, %al
	jmp	.LBB0_40
.LBB0_9:
	movb	$28, %al
	jmp	.LBB0_40
.LBB0_12:
	movb	$14, %al
	jmp	.LBB0_40
.LBB0_10:
	movb	$12, %al
	jmp	.LBB0_40
.LBB0_30:
	movb	$5, %al
	jmp	.LBB0_40
.LBB0_32:
	movb	$3, %al
	jmp	.LBB0_40
.LBB0_4:
	xorl	%eax, %eax
	jmp	.LBB0_40
.LBB0_7:
	movb	$13, %al
	jmp	.LBB0_40
.LBB0_8:
	movb	$38, %al
	jmp	.LBB0_40
.LBB0_21:
	movb	$11, %al
	jmp	.LBB0_40
.LBB0_5:
	movb	$35, %al
	jmp	.LBB0_40
.LBB0_6:
	movb	$34, %al
	jmp	.LBB0_40
.LBB0_14:
	movb	$20, %al
	jmp	.LBB0_40
.LBB0_13:
	movb	$15, %al
	jmp	.LBB0_40
.LBB0_38:
	movb	$19, %al
	jmp	.LBB0_40
.LBB0_25:
	movb	$16, %al
	jmp	.LBB0_40
.LBB0_31:
	movb	$6, %al
	jmp	.LBB0_40
.LBB0_16:
	movb	$27, %al
	jmp	.LBB0_40
.LBB0_17:
	movb	$24, %al
	jmp	.LBB0_40
.LBB0_35:
	movb	$2, %al
	jmp	.LBB0_40
.LBB0_19:
	movb	$17, %al
.LBB0_40:
	movb	$0, (%rdi)
	movb	%al, 1(%rdi)
	movw	$0, 2(%rdi)
	movl	%esi, 4(%rdi)
	xorps	%xmm0, %xmm0
	movups	%xmm0, 8(%rdi)
	movups	%xmm0, 24(%rdi)
	movups	%xmm0, 40(%rdi)
	movups	%xmm0, 56(%rdi)
	movups	%xmm0, 72(%rdi)
	retq
.Lfunc_end0:
	.size	"std_io::io::error::Error::from_raw_os_error", .Lfunc_end0-"std_io::io::error::Error::from_raw_os_error"
	.section	".rodata.std_io::io::error::Error::from_raw_os_error","a",@progbits
	.p2align	2, 0x0
.LJTI0_0:
	.long	.LBB0_3-.LJTI0_0
	.long	.LBB0_4-.LJTI0_0
	.long	.LBB0_40-.LJTI0_0
	.long	.LBB0_5-.LJTI0_0
	.long	.LBB0_40-.LJTI0_0
	.long	.LBB0_40-.LJTI0_0
	.long	.LBB0_6-.LJTI0_0
	.long	.LBB0_40-.LJTI0_0
	.long	.LBB0_40-.LJTI0_0
	.long	.LBB0_40-.LJTI0_0
	.long	.LBB0_7-.LJTI0_0
	.long	.LBB0_8-.LJTI0_0
	.long	.LBB0_3-.LJTI0_0
	.long	.LBB0_40-.LJTI0_0
	.long	.LBB0_40-.LJTI0_0
	.long	.LBB0_9-.LJTI0_0
	.long	.LBB0_10-.LJTI0_0
	.long	.LBB0_11-.LJTI0_0
	.long	.LBB0_40-.LJTI0_0
	.long	.LBB0_12-.LJTI0_0
	.long	.LBB0_13-.LJTI0_0
	.long	.LBB0_14-.LJTI0_0
	.long	.LBB0_40-.LJTI0_0
	.long	.LBB0_40-.LJTI0_0
	.long	.LBB0_40-.LJTI0_0
	.long	.LBB0_15-.LJTI0_0
	.long	.LBB0_16-.LJTI0_0
	.long	.LBB0_17-.LJTI0_0
	.long	.LBB0_18-.LJTI0_0
	.long	.LBB0_19-.LJTI0_0
	.long	.LBB0_20-.LJTI0_0
	.long	.LBB0_21-.LJTI0_0
	.long	.LBB0_40-.LJTI0_0
	.long	.LBB0_40-.LJTI0_0
	.long	.LBB0_22-.LJTI0_0
	.long	.LBB0_23-.LJTI0_0
	.long	.LBB0_40-.LJTI0_0
	.long	.LBB0_24-.LJTI0_0
	.long	.LBB0_25-.LJTI0_0
	.long	.LBB0_26-.LJTI0_0
	.long	.LBB0_40-.LJTI0_0
	.long	.LBB0_40-.LJTI0_0
	.long	.LBB0_40-.LJTI0_0
	.long	.LBB0_40-.LJTI0_0
	.long	.LBB0_40-.LJTI0_0
	.long	.LBB0_40-.LJTI0_0
	.long	.LBB0_40-.LJTI0_0
	.long	.LBB0_40-.LJTI0_0
	.long	.LBB0_40-.LJTI0_0
	.long	.LBB0_40-.LJTI0_0
	.long	.LBB0_40-.LJTI0_0
	.long	.LBB0_40-.LJTI0_0
	.long	.LBB0_40-.LJTI0_0
	.long	.LBB0_40-.LJTI0_0
	.long	.LBB0_40-.LJTI0_0
	.long	.LBB0_40-.LJTI0_0
	.long	.LBB0_40-.LJTI0_0
	.long	.LBB0_40-.LJTI0_0
	.long	.LBB0_40-.LJTI0_0
	.long	.LBB0_40-.LJTI0_0
	.long	.LBB0_40-.LJTI0_0
	.long	.LBB0_40-.LJTI0_0
	.long	.LBB0_40-.LJTI0_0
	.long	.LBB0_40-.LJTI0_0
	.long	.LBB0_40-.LJTI0_0
	.long	.LBB0_40-.LJTI0_0
	.long	.LBB0_40-.LJTI0_0
	.long	.LBB0_40-.LJTI0_0
	.long	.LBB0_40-.LJTI0_0
	.long	.LBB0_40-.LJTI0_0
	.long	.LBB0_40-.LJTI0_0
	.long	.LBB0_40-.LJTI0_0
	.long	.LBB0_40-.LJTI0_0
	.long	.LBB0_40-.LJTI0_0
	.long	.LBB0_40-.LJTI0_0
	.long	.LBB0_40-.LJTI0_0
	.long	.LBB0_40-.LJTI0_0
	.long	.LBB0_40-.LJTI0_0
	.long	.LBB0_40-.LJTI0_0
	.long	.LBB0_40-.LJTI0_0
	.long	.LBB0_40-.LJTI0_0
	.long	.LBB0_40-.LJTI0_0
	.long	.LBB0_40-.LJTI0_0
	.long	.LBB0_40-.LJTI0_0
	.long	.LBB0_40-.LJTI0_0
	.long	.LBB0_40-.LJTI0_0
	.long	.LBB0_40-.LJTI0_0
	.long	.LBB0_40-.LJTI0_0
	.long	.LBB0_40-.LJTI0_0
	.long	.LBB0_40-.LJTI0_0
	.long	.LBB0_40-.LJTI0_0
	.long	.LBB0_40-.LJTI0_0
	.long	.LBB0_40-.LJTI0_0
	.long	.LBB0_40-.LJTI0_0
	.long	.LBB0_24-.LJTI0_0
	.long	.LBB0_40-.LJTI0_0
	.long	.LBB0_40-.LJTI0_0
	.long	.LBB0_27-.LJTI0_0
	.long	.LBB0_28-.LJTI0_0
	.long	.LBB0_29-.LJTI0_0
	.long	.LBB0_30-.LJTI0_0
	.long	.LBB0_40-.LJTI0_0
	.long	.LBB0_31-.LJTI0_0
	.long	.LBB0_32-.LJTI0_0
	.long	.LBB0_40-.LJTI0_0
	.long	.LBB0_40-.LJTI0_0
	.long	.LBB0_33-.LJTI0_0
	.long	.LBB0_40-.LJTI0_0
	.long	.LBB0_40-.LJTI0_0
	.long	.LBB0_34-.LJTI0_0
	.long	.LBB0_35-.LJTI0_0
	.long	.LBB0_40-.LJTI0_0
	.long	.LBB0_36-.LJTI0_0
	.long	.LBB0_40-.LJTI0_0
	.long	.LBB0_37-.LJTI0_0
	.long	.LBB0_38-.LJTI0_0
	.long	.LBB0_40-.LJTI0_0
	.long	.LBB0_40-.LJTI0_0
	.long	.LBB0_40-.LJTI0_0
	.long	.LBB0_40-.LJTI0_0
	.long	.LBB0_40-.LJTI0_0
	.long	.LBB0_39-.LJTI0_0

	.section	.rodata.cst16,"aM",@progbits,16
	.p2align	4, 0x0
.LCPI1_0:
	.quad	1
	.quad	3
	.section	".text.jpeg_header::header","ax",@progbits
	.p2align	4
	.type	"jpeg_header::header",@function
"jpeg_header::header":
	pushq	%rbp
	pushq	%r15
	pushq	%r14
	pushq	%r13
	pushq	%r12
	pushq	%rbx
	subq	$1976, %rsp
	movq	%rdi, %rbx
	pxor	%xmm0, %xmm0
	movdqa	%xmm0, 1808(%rsp)
	movdqa	%xmm0, 1792(%rsp)
	movdqa	%xmm0, 1776(%rsp)
	movdqa	%xmm0, 1760(%rsp)
	movdqa	%xmm0, 1744(%rsp)
	movdqa	%xmm0, 1728(%rsp)
	movdqa	%xmm0, 1712(%rsp)
	movdqa	%xmm0, 1696(%rsp)
	movdqa	%xmm0, 1680(%rsp)
	movdqa	%xmm0, 1664(%rsp)
	movdqa	%xmm0, 1648(%rsp)
	movdqa	%xmm0, 1632(%rsp)
	movdqa	%xmm0, 1616(%rsp)
	movdqa	%xmm0, 1600(%rsp)
	movdqa	%xmm0, 1584(%rsp)
	movdqa	%xmm0, 240(%rsp)
	movdqa	%xmm0, 256(%rsp)
	movdqa	%xmm0, 272(%rsp)
	movdqa	%xmm0, 288(%rsp)
	movdqa	%xmm0, 304(%rsp)
	movq	$0, 320(%rsp)
	movdqa	%xmm0, 880(%rsp)
	movdqa	%xmm0, 864(%rsp)
	movdqa	%xmm0, 848(%rsp)
	movdqa	%xmm0, 832(%rsp)
	movdqa	%xmm0, 816(%rsp)
	movdqa	%xmm0, 800(%rsp)
	movdqa	%xmm0, 784(%rsp)
	movdqa	%xmm0, 768(%rsp)
	movdqa	%xmm0, 752(%rsp)
	movq	$0, 896(%rsp)
	movdqa	%xmm0, 560(%rsp)
	movdqa	%xmm0, 576(%rsp)
	movdqa	%xmm0, 592(%rsp)
	movdqa	%xmm0, 608(%rsp)
	movdqa	%xmm0, 624(%rsp)
	movq	$0, 640(%rsp)
	movdqa	%xmm0, 1824(%rsp)
	movdqa	%xmm0, 1840(%rsp)
	movdqa	%xmm0, 1856(%rsp)
	movdqa	%xmm0, 1872(%rsp)
	movdqa	%xmm0, 1888(%rsp)
	movdqa	%xmm0, 1904(%rsp)
	movdqa	%xmm0, 1920(%rsp)
	movdqa	%xmm0, 1936(%rsp)
	movdqa	%xmm0, 1952(%rsp)
	movq	$0, 1968(%rsp)
	movdqa	%xmm0, 720(%rsp)
	movdqa	%xmm0, 704(%rsp)
	movdqa	%xmm0, 688(%rsp)
	movdqa	%xmm0, 672(%rsp)
	movdqa	%xmm0, 656(%rsp)
	movq	$0, 736(%rsp)
	cmpq	$2, %rdx
	jb	.LBB1_130
	cmpb	$-1, (%rsi)
	jne	.LBB1_130
	cmpb	$-40, 1(%rsi)
	jne	.LBB1_130
	movq	%rsi, 360(%rsp)
	movq	%rdx, 648(%rsp)
	movl	%ecx, 556(%rsp)
	movdqa	%xmm0, 304(%rsp)
	movdqa	%xmm0, 288(%rsp)
	movdqa	%xmm0, 272(%rsp)
	movdqa	%xmm0, 256(%rsp)
	movdqa	%xmm0, 240(%rsp)
	movq	$0, 320(%rsp)
	movdqa	%xmm0, 752(%rsp)
	movdqa	%xmm0, 768(%rsp)
	movdqa	%xmm0, 784(%rsp)
	movdqa	%xmm0, 800(%rsp)
	movdqa	%xmm0, 816(%rsp)
	movdqa	%xmm0, 832(%rsp)
	movdqa	%xmm0, 848(%rsp)
	movdqa	%xmm0, 864(%rsp)
	movdqa	%xmm0, 880(%rsp)
	movq	$0, 896(%rsp)
	movl	$2, %ebp
	xorl	%r14d, %r14d
	movq	$0, 8(%rsp)
	xorl	%r13d, %r13d
	xorl	%r15d, %r15d
	movq	$0, 24(%rsp)
	.p2align	4
.LBB1_4:
	pxor	%xmm0, %xmm0
	movdqa	%xmm0, 144(%rsp)
	movdqa	%xmm0, 160(%rsp)
	movdqa	%xmm0, 176(%rsp)
	movdqa	%xmm0, 192(%rsp)
	movdqa	%xmm0, 208(%rsp)
	movq	$0, 224(%rsp)
	movdqa	%xmm0, 384(%rsp)
	movdqa	%xmm0, 400(%rsp)
	movdqa	%xmm0, 416(%rsp)
	movdqa	%xmm0, 432(%rsp)
	movdqa	%xmm0, 448(%rsp)
	movdqa	%xmm0, 464(%rsp)
	movdqa	%xmm0, 480(%rsp)
	movdqa	%xmm0, 496(%rsp)
	movdqa	%xmm0, 512(%rsp)
	movq	$0, 528(%rsp)
	movdqa	%xmm0, 48(%rsp)
	movdqa	%xmm0, 64(%rsp)
	movdqa	%xmm0, 80(%rsp)
	movdqa	%xmm0, 96(%rsp)
	movdqa	%xmm0, 112(%rsp)
	movq	$0, 128(%rsp)
	cmpb	$2, %r13b
	je	.LBB1_12
	movzbl	%r13b, %eax
	cmpl	$1, %eax
	jne	.LBB1_15
	movq	%r15, %rax
	subq	%rbp, %rax
	jb	.LBB1_18
	je	.LBB1_14
	cmpq	$65, %rax
	jb	.LBB1_17
	movq	360(%rsp), %rax
	movzbl	(%rax,%rbp), %r12d
	cmpq	$3, %r12
	ja	.LBB1_17
	movq	360(%rsp), %rax
	movdqu	1(%rax,%rbp), %xmm0
	movdqu	17(%rax,%rbp), %xmm1
	movdqu	33(%rax,%rbp), %xmm2
	movdqu	49(%rax,%rbp), %xmm3
	pxor	%xmm4, %xmm4
	pcmpeqb	%xmm4, %xmm2
	pcmpeqb	%xmm4, %xmm0
	por	%xmm2, %xmm0
	pcmpeqb	%xmm4, %xmm3
	pcmpeqb	%xmm4, %xmm1
	por	%xmm3, %xmm1
	por	%xmm0, %xmm1
	pmovmskb	%xmm1, %eax
	testl	%eax, %eax
	jne	.LBB1_17
	movb	$1, 920(%rsp)
	movl	%r14d, 921(%rsp)
	movq	%r14, %rax
	shrq	$48, %rax
	movb	%al, 927(%rsp)
	shrq	$32, %r14
	movw	%r14w, 925(%rsp)
	movq	8(%rsp), %rax
	movq	%rax, 936(%rsp)
	movaps	240(%rsp), %xmm0
	movaps	256(%rsp), %xmm1
	movaps	272(%rsp), %xmm2
	movaps	288(%rsp), %xmm3
	leaq	944(%rsp), %r14
	movups	%xmm1, 16(%r14)
	movups	%xmm2, 32(%r14)
	movups	%xmm3, 48(%r14)
	movaps	304(%rsp), %xmm1
	movups	%xmm1, 64(%r14)
	movq	320(%rsp), %rax
	movq	%rax, 80(%r14)
	movups	%xmm0, (%r14)
	leaq	752(%rsp), %rsi
	movl	$152, %edx
	leaq	1032(%rsp), %rdi
	callq	memcpy@PLT
	movq	24(%rsp), %rax
	movq	%rax, 1184(%rsp)
	leaq	65(%rbp), %rax
	movq	%rax, 352(%rsp)
	incq	%rbp
	movq	%rbp, 936(%rsp,%r12,8)
	movq	920(%rsp), %r13
	movq	936(%rsp), %rax
	movq	%rax, 8(%rsp)
	movq	1184(%rsp), %rax
	movq	%rax, 24(%rsp)
	movq	80(%r14), %rax
	movq	%rax, 224(%rsp)
	movups	64(%r14), %xmm0
	movaps	%xmm0, 208(%rsp)
	movdqu	(%r14), %xmm0
	movdqu	16(%r14), %xmm1
	movdqu	32(%r14), %xmm2
	movdqu	48(%r14), %xmm3
	movdqa	%xmm3, 192(%rsp)
	movdqa	%xmm2, 176(%rsp)
	movdqa	%xmm1, 160(%rsp)
	movdqa	%xmm0, 144(%rsp)
	leaq	384(%rsp), %rdi
	movl	$152, %edx
	leaq	1032(%rsp), %rsi
	callq	memcpy@PLT
	pxor	%xmm0, %xmm0
	movdqa	%xmm0, 48(%rsp)
	movdqa	%xmm0, 64(%rsp)
	movdqa	%xmm0, 80(%rsp)
	movdqa	%xmm0, 96(%rsp)
	movdqa	%xmm0, 112(%rsp)
	movq	$0, 128(%rsp)
	xorl	%r14d, %r14d
	xorl	%r12d, %r12d
	movq	352(%rsp), %rbp
	jmp	.LBB1_20
	.p2align	4
.LBB1_12:
	movq	%r15, %rcx
	subq	%rbp, %rcx
	jb	.LBB1_18
	jne	.LBB1_23
.LBB1_14:
	movq	320(%rsp), %rax
	movq	%rax, 224(%rsp)
	movaps	304(%rsp), %xmm0
	movaps	%xmm0, 208(%rsp)
	movdqa	240(%rsp), %xmm0
	movdqa	256(%rsp), %xmm1
	movdqa	272(%rsp), %xmm2
	movdqa	288(%rsp), %xmm3
	movdqa	%xmm3, 192(%rsp)
	movdqa	%xmm2, 176(%rsp)
	movdqa	%xmm1, 160(%rsp)
	movdqa	%xmm0, 144(%rsp)
	leaq	384(%rsp), %rdi
	leaq	752(%rsp), %rsi
	movl	$152, %edx
	callq	memcpy@PLT
	pxor	%xmm0, %xmm0
	movdqa	%xmm0, 48(%rsp)
	movdqa	%xmm0, 64(%rsp)
	movdqa	%xmm0, 80(%rsp)
	movdqa	%xmm0, 96(%rsp)
	movdqa	%xmm0, 112(%rsp)
	movq	$0, 128(%rsp)
	xorl	%r14d, %r14d
	xorl	%r12d, %r12d
	xorl	%r13d, %r13d
	xorl	%r15d, %r15d
	jmp	.LBB1_20
	.p2align	4
.LBB1_15:
	movq	%rbp, 1296(%rsp)
	movb	$0, 1304(%rsp)
	movl	%r14d, 1305(%rsp)
	movq	%r14, %rax
	shrq	$48, %rax
	movb	%al, 1311(%rsp)
	shrq	$32, %r14
	movw	%r14w, 1309(%rsp)
	movq	%r15, 1312(%rsp)
	movq	8(%rsp), %rax
	movq	%rax, 1320(%rsp)
	movdqa	240(%rsp), %xmm0
	movaps	256(%rsp), %xmm1
	movdqa	272(%rsp), %xmm2
	movdqa	288(%rsp), %xmm3
	leaq	1328(%rsp), %rcx
	movups	%xmm1, 16(%rcx)
	movdqu	%xmm2, 32(%rcx)
	movdqu	%xmm3, 48(%rcx)
	movdqa	304(%rsp), %xmm1
	movdqu	%xmm1, 64(%rcx)
	movq	320(%rsp), %rax
	movq	%rax, 80(%rcx)
	movdqu	%xmm0, (%rcx)
	leaq	752(%rsp), %rsi
	movl	$152, %edx
	leaq	1416(%rsp), %rdi
	callq	memcpy@PLT
	movq	24(%rsp), %r15
	movq	%r15, 1568(%rsp)
	leaq	912(%rsp), %rdi
	movl	$384, %edx
	xorl	%esi, %esi
	callq	memset@PLT
	movq	648(%rsp), %rsi
	movq	%rsi, %rcx
	subq	%rbp, %rcx
	cmpq	$2, %rcx
	jb	.LBB1_17
	movq	360(%rsp), %rax
	cmpb	$-1, (%rax,%rbp)
	je	.LBB1_26
.LBB1_17:
	pxor	%xmm0, %xmm0
.LBB1_18:
	movdqa	%xmm0, 208(%rsp)
	movdqa	%xmm0, 192(%rsp)
	movdqa	%xmm0, 176(%rsp)
	movdqa	%xmm0, 160(%rsp)
	movdqa	%xmm0, 144(%rsp)
	movq	$0, 224(%rsp)
	movdqa	%xmm0, 384(%rsp)
	movdqa	%xmm0, 400(%rsp)
	movdqa	%xmm0, 416(%rsp)
	movdqa	%xmm0, 432(%rsp)
	movdqa	%xmm0, 448(%rsp)
	movdqa	%xmm0, 464(%rsp)
	movdqa	%xmm0, 480(%rsp)
	movdqa	%xmm0, 496(%rsp)
	movdqa	%xmm0, 512(%rsp)
	movq	$0, 528(%rsp)
	movdqa	%xmm0, 48(%rsp)
	movdqa	%xmm0, 64(%rsp)
	movdqa	%xmm0, 80(%rsp)
	movdqa	%xmm0, 96(%rsp)
	movdqa	%xmm0, 112(%rsp)
	movq	$0, 128(%rsp)
	movb	$3, %r12b
.LBB1_19:
	movb	$1, %r14b
	movq	$0, 8(%rsp)
	xorl	%ebp, %ebp
	xorl	%r13d, %r13d
	xorl	%r15d, %r15d
	movq	$0, 24(%rsp)
.LBB1_20:
	movq	224(%rsp), %rax
	movq	%rax, 640(%rsp)
	movaps	208(%rsp), %xmm0
	movaps	%xmm0, 624(%rsp)
	movaps	144(%rsp), %xmm0
	movaps	160(%rsp), %xmm1
	movaps	176(%rsp), %xmm2
	movaps	192(%rsp), %xmm3
	movaps	%xmm3, 608(%rsp)
	movaps	%xmm2, 592(%rsp)
	movaps	%xmm1, 576(%rsp)
	movaps	%xmm0, 560(%rsp)
	leaq	1824(%rsp), %rdi
	leaq	384(%rsp), %rsi
	movl	$152, %edx
	callq	memcpy@PLT
	movaps	48(%rsp), %xmm0
	movaps	64(%rsp), %xmm1
	movaps	80(%rsp), %xmm2
	movaps	96(%rsp), %xmm3
	movaps	%xmm0, 656(%rsp)
	movaps	%xmm1, 672(%rsp)
	movaps	%xmm2, 688(%rsp)
	movaps	%xmm3, 704(%rsp)
	movaps	112(%rsp), %xmm0
	movaps	%xmm0, 720(%rsp)
	movq	128(%rsp), %rax
	movq	%rax, 736(%rsp)
	testb	%r14b, %r14b
	jne	.LBB1_132
	testb	%r12b, %r12b
	jne	.LBB1_133
	movq	%r13, %r14
	shrq	$8, %r14
	movq	640(%rsp), %rax
	movq	%rax, 320(%rsp)
	movaps	624(%rsp), %xmm0
	movaps	%xmm0, 304(%rsp)
	movdqa	560(%rsp), %xmm0
	movaps	576(%rsp), %xmm1
	movaps	592(%rsp), %xmm2
	movaps	608(%rsp), %xmm3
	movaps	%xmm3, 288(%rsp)
	movaps	%xmm2, 272(%rsp)
	movaps	%xmm1, 256(%rsp)
	movdqa	%xmm0, 240(%rsp)
	leaq	752(%rsp), %rdi
	leaq	1824(%rsp), %rsi
	movl	$152, %edx
	callq	memcpy@PLT
	jmp	.LBB1_4
.LBB1_23:
	movq	360(%rsp), %rax
	addq	%rbp, %rax
	movzbl	(%rax), %edx
	movq	%rdx, 352(%rsp)
	cmpq	$2, %rcx
	jb	.LBB1_29
	movzbl	1(%rax), %edx
	movq	%rdx, 376(%rsp)
	jne	.LBB1_65
	movq	$0, 16(%rsp)
	xorl	%edi, %edi
	xorl	%esi, %esi
	movq	$0, 32(%rsp)
	movq	$0, 40(%rsp)
	movq	$0, 336(%rsp)
	movq	$0, 368(%rsp)
	jmp	.LBB1_30
.LBB1_26:
	movq	360(%rsp), %rdi
	movzbl	1(%rdi,%rbp), %eax
	cmpl	$217, %eax
	je	.LBB1_17
	cmpl	$255, %eax
	jne	.LBB1_68
	incq	%rbp
	jmp	.LBB1_14
.LBB1_29:
	movq	$0, 16(%rsp)
	xorl	%edi, %edi
	xorl	%esi, %esi
	movq	$0, 32(%rsp)
	movq	$0, 40(%rsp)
	movq	$0, 336(%rsp)
	movq	$0, 368(%rsp)
	movq	$0, 376(%rsp)
.LBB1_30:
	movq	$0, 544(%rsp)
.LBB1_31:
	movq	$0, 344(%rsp)
.LBB1_32:
	xorl	%r8d, %r8d
.LBB1_33:
	xorl	%r13d, %r13d
.LBB1_34:
	xorl	%r10d, %r10d
.LBB1_35:
	xorl	%r12d, %r12d
.LBB1_36:
	xorl	%r11d, %r11d
.LBB1_37:
	xorl	%r9d, %r9d
	cmpq	$17, %rcx
	jb	.LBB1_17
.LBB1_39:
	movq	352(%rsp), %rdx
	andb	$-20, %dl
	jne	.LBB1_17
	movzbl	%r10b, %edx
	movzbl	%r13b, %r10d
	addq	%rdx, %r10
	movzbl	%r12b, %edx
	addq	%rdx, %r10
	movzbl	%r11b, %edx
	addq	%rdx, %r10
	movzbl	544(%rsp), %edx
	movzbl	376(%rsp), %r12d
	addq	%rdx, %r12
	movzbl	344(%rsp), %edx
	addq	%rdx, %r12
	movzbl	%r8b, %edx
	addq	%rdx, %r12
	movzbl	336(%rsp), %edx
	movzbl	40(%rsp), %r8d
	addq	%rdx, %r8
	movzbl	368(%rsp), %edx
	addq	%rdx, %r8
	movzbl	32(%rsp), %edx
	movzbl	%sil, %esi
	addq	%rdx, %rsi
	movzbl	%dil, %edx
	movzbl	16(%rsp), %edi
	leaq	(%rdx,%rdi), %r11
	addq	%rsi, %r11
	addq	%r8, %r11
	addq	%r12, %r11
	addq	%r10, %r11
	leaq	(%r9,%r11), %r13
	decq	%r13
	cmpq	$255, %r13
	ja	.LBB1_17
	leaq	(%r9,%r11), %r13
	addq	$17, %r13
	cmpq	%rcx, %r13
	ja	.LBB1_17
	movzbl	1(%rax), %ecx
	cmpq	$1, %rcx
	ja	.LBB1_17
	movzbl	2(%rax), %r11d
	leaq	(%r11,%rcx,2), %rcx
	cmpq	$3, %rcx
	ja	.LBB1_17
	movzbl	3(%rax), %r11d
	leaq	(%r11,%rcx,2), %rcx
	cmpq	$7, %rcx
	ja	.LBB1_17
	movzbl	4(%rax), %r11d
	leaq	(%r11,%rcx,2), %rcx
	cmpq	$15, %rcx
	ja	.LBB1_17
	movzbl	5(%rax), %r11d
	leaq	(%r11,%rcx,2), %rcx
	cmpq	$31, %rcx
	ja	.LBB1_17
	movzbl	6(%rax), %r11d
	leaq	(%r11,%rcx,2), %rcx
	cmpq	$63, %rcx
	ja	.LBB1_17
	movzbl	7(%rax), %r11d
	leaq	(%r11,%rcx,2), %rcx
	cmpq	$127, %rcx
	ja	.LBB1_17
	movzbl	8(%rax), %r11d
	leaq	(%r11,%rcx,2), %rcx
	cmpq	$255, %rcx
	ja	.LBB1_17
	movzbl	9(%rax), %r11d
	leaq	(%r11,%rcx,2), %rcx
	cmpq	$511, %rcx
	ja	.LBB1_17
	movzbl	10(%rax), %r11d
	leaq	(%r11,%rcx,2), %rcx
	cmpq	$1023, %rcx
	ja	.LBB1_17
	movzbl	11(%rax), %r11d
	leaq	(%r11,%rcx,2), %rcx
	cmpq	$2047, %rcx
	ja	.LBB1_17
	movzbl	12(%rax), %r11d
	leaq	(%r11,%rcx,2), %rcx
	cmpq	$4095, %rcx
	ja	.LBB1_17
	movzbl	13(%rax), %r11d
	leaq	(%r11,%rcx,2), %rcx
	cmpq	$8191, %rcx
	ja	.LBB1_17
	movzbl	14(%rax), %r11d
	leaq	(%r11,%rcx,2), %rcx
	cmpq	$16383, %rcx
	ja	.LBB1_17
	movzbl	15(%rax), %r11d
	leaq	(%r11,%rcx,2), %rcx
	cmpq	$32767, %rcx
	ja	.LBB1_17
	movzbl	16(%rax), %r11d
	leaq	(%r11,%rcx,2), %rcx
	cmpq	$65535, %rcx
	ja	.LBB1_17
	addq	$17, %rax
	movdqa	%xmm0, 1536(%rsp)
	movdqa	%xmm0, 1520(%rsp)
	movdqa	%xmm0, 1504(%rsp)
	movdqa	%xmm0, 1488(%rsp)
	movdqa	%xmm0, 1472(%rsp)
	movdqa	%xmm0, 1456(%rsp)
	movdqa	%xmm0, 1440(%rsp)
	movdqa	%xmm0, 1424(%rsp)
	movdqa	%xmm0, 1408(%rsp)
	movdqa	%xmm0, 1392(%rsp)
	movdqa	%xmm0, 1376(%rsp)
	movdqa	%xmm0, 1360(%rsp)
	movdqa	%xmm0, 1344(%rsp)
	movdqa	%xmm0, 1328(%rsp)
	movdqa	%xmm0, 1312(%rsp)
	movdqa	%xmm0, 1296(%rsp)
	cmpb	$16, 352(%rsp)
	jae	.LBB1_122
	addq	%rdi, %r9
	addq	%rsi, %r9
	addq	%r8, %r9
	addq	%r12, %r9
	addq	%rdx, %r10
	addq	%r9, %r10
	xorl	%ecx, %ecx
.LBB1_60:
	movzbl	(%rax,%rcx), %edx
	cmpq	$11, %rdx
	ja	.LBB1_17
	cmpb	$0, 1296(%rsp,%rdx)
	jne	.LBB1_17
	movb	$1, 1296(%rsp,%rdx)
	incq	%rcx
	cmpq	%rcx, %r10
	jne	.LBB1_60
.LBB1_63:
	movq	352(%rsp), %r12
	movb	%r12b, 376(%rsp)
	movb	$2, 920(%rsp)
	movl	%r14d, 921(%rsp)
	movq	%r14, %rax
	shrq	$48, %rax
	movb	%al, 927(%rsp)
	shrq	$32, %r14
	movw	%r14w, 925(%rsp)
	movq	8(%rsp), %rax
	movq	%rax, 936(%rsp)
	movaps	240(%rsp), %xmm0
	movaps	256(%rsp), %xmm1
	movaps	272(%rsp), %xmm2
	movaps	288(%rsp), %xmm3
	leaq	944(%rsp), %rcx
	movups	%xmm1, 16(%rcx)
	movups	%xmm2, 32(%rcx)
	movups	%xmm3, 48(%rcx)
	movaps	304(%rsp), %xmm1
	movups	%xmm1, 64(%rcx)
	movq	320(%rsp), %rax
	movq	%rax, 80(%rcx)
	movups	%xmm0, (%rcx)
	leaq	752(%rsp), %rsi
	movl	$152, %edx
	leaq	1032(%rsp), %rdi
	callq	memcpy@PLT
	leaq	1(%rbp), %rax
	shll	$3, %r12d
	movq	24(%rsp), %rcx
	movq	%rcx, 1184(%rsp)
	cmpb	$15, 376(%rsp)
	ja	.LBB1_128
	movq	%rax, 968(%rsp,%r12)
	movq	1184(%rsp), %rax
	movq	%rax, 24(%rsp)
	jmp	.LBB1_129
.LBB1_65:
	movzbl	2(%rax), %edx
	movq	%rdx, 544(%rsp)
	cmpq	$4, %rcx
	jb	.LBB1_78
	movzbl	3(%rax), %edx
	movq	%rdx, 368(%rsp)
	jne	.LBB1_79
	movq	$0, 16(%rsp)
	xorl	%edi, %edi
	xorl	%esi, %esi
	movq	$0, 32(%rsp)
	movq	$0, 40(%rsp)
	movq	$0, 336(%rsp)
	jmp	.LBB1_31
.LBB1_68:
	cmpq	$4, %rcx
	jb	.LBB1_77
	leaq	2(%rbp), %rcx
	cmpq	%rsi, %rcx
	jae	.LBB1_77
	movzbl	2(%rdi,%rbp), %r12d
	shll	$8, %r12d
	leaq	3(%rbp), %rdx
	cmpq	%rsi, %rdx
	jae	.LBB1_72
	movzbl	(%rdi,%rdx), %edx
	orq	%rdx, %r12
.LBB1_72:
	cmpq	$2, %r12
	jb	.LBB1_77
	addq	%rcx, %r12
	cmpq	%r12, %rsi
	jb	.LBB1_77
	leaq	(%rdi,%rbp), %rsi
	addq	$4, %rsi
	addq	$4, %rbp
	movq	%r12, %rdx
	subq	%rbp, %rdx
	leal	-218(%rax), %ecx
	cmpl	$36, %ecx
	ja	.LBB1_87
	leaq	.LJTI1_0(%rip), %rdi
	movslq	(%rdi,%rcx,4), %rcx
	addq	%rdi, %rcx
	jmpq	*%rcx
.LBB1_76:
	movzbl	556(%rsp), %ecx
	leaq	912(%rsp), %rdi
	leaq	1296(%rsp), %r8
	movq	%r12, %r9
	callq	"jpeg_header_state::scan"
	jmp	.LBB1_108
.LBB1_77:
	pxor	%xmm0, %xmm0
	movdqa	%xmm0, 208(%rsp)
	movdqa	%xmm0, 192(%rsp)
	movdqa	%xmm0, 176(%rsp)
	movdqa	%xmm0, 160(%rsp)
	movdqa	%xmm0, 144(%rsp)
	movq	$0, 224(%rsp)
	movdqa	%xmm0, 384(%rsp)
	movdqa	%xmm0, 400(%rsp)
	movdqa	%xmm0, 416(%rsp)
	movdqa	%xmm0, 432(%rsp)
	movdqa	%xmm0, 448(%rsp)
	movdqa	%xmm0, 464(%rsp)
	movdqa	%xmm0, 480(%rsp)
	movdqa	%xmm0, 496(%rsp)
	movdqa	%xmm0, 512(%rsp)
	movq	$0, 528(%rsp)
	movdqa	%xmm0, 48(%rsp)
	movdqa	%xmm0, 64(%rsp)
	movdqa	%xmm0, 80(%rsp)
	movdqa	%xmm0, 96(%rsp)
	movdqa	%xmm0, 112(%rsp)
	movq	$0, 128(%rsp)
	movb	$2, %r12b
	jmp	.LBB1_19
.LBB1_78:
	movq	$0, 16(%rsp)
	xorl	%edi, %edi
	xorl	%esi, %esi
	movq	$0, 32(%rsp)
	movq	$0, 40(%rsp)
	movq	$0, 336(%rsp)
	movq	$0, 368(%rsp)
	jmp	.LBB1_31
.LBB1_79:
	movzbl	4(%rax), %edx
	movq	%rdx, 344(%rsp)
	cmpq	$6, %rcx
	jb	.LBB1_82
	movzbl	5(%rax), %edx
	movq	%rdx, 336(%rsp)
	jne	.LBB1_83
	movq	$0, 16(%rsp)
	xorl	%edi, %edi
	xorl	%esi, %esi
	movq	$0, 32(%rsp)
	movq	$0, 40(%rsp)
	jmp	.LBB1_32
.LBB1_82:
	movq	$0, 16(%rsp)
	xorl	%edi, %edi
	xorl	%esi, %esi
	movq	$0, 32(%rsp)
	movq	$0, 40(%rsp)
	movq	$0, 336(%rsp)
	jmp	.LBB1_32
.LBB1_83:
	movzbl	6(%rax), %r8d
	cmpq	$8, %rcx
	jb	.LBB1_86
	movzbl	7(%rax), %edx
	movq	%rdx, 40(%rsp)
	jne	.LBB1_96
	movq	$0, 16(%rsp)
	xorl	%edi, %edi
	xorl	%esi, %esi
	movq	$0, 32(%rsp)
	jmp	.LBB1_33
.LBB1_86:
	movq	$0, 16(%rsp)
	xorl	%edi, %edi
	xorl	%esi, %esi
	movq	$0, 32(%rsp)
	movq	$0, 40(%rsp)
	jmp	.LBB1_33
.LBB1_87:
	cmpl	$196, %eax
	jne	.LBB1_90
	cmpq	%rbp, %r12
	je	.LBB1_93
	leaq	752(%rsp), %rsi
	movl	$152, %edx
	leaq	1048(%rsp), %rdi
	callq	memcpy@PLT
	movq	8(%rsp), %rax
	movq	%rax, 952(%rsp)
	movaps	240(%rsp), %xmm0
	movdqa	256(%rsp), %xmm1
	movdqa	272(%rsp), %xmm2
	movdqa	288(%rsp), %xmm3
	leaq	944(%rsp), %rcx
	movups	%xmm0, 16(%rcx)
	movdqu	%xmm1, 32(%rcx)
	movdqu	%xmm2, 48(%rcx)
	movdqu	%xmm3, 64(%rcx)
	movdqa	304(%rsp), %xmm0
	movdqu	%xmm0, 80(%rcx)
	movq	320(%rsp), %rax
	movq	%rax, 96(%rcx)
	pxor	%xmm0, %xmm0
	movdqu	%xmm0, 328(%rcx)
	movdqu	%xmm0, 312(%rcx)
	movdqu	%xmm0, 296(%rcx)
	movdqu	%xmm0, 280(%rcx)
	movdqu	%xmm0, 264(%rcx)
	movq	$0, 344(%rcx)
	movl	$2, %eax
	jmp	.LBB1_102
.LBB1_90:
	cmpb	$-64, %al
	jae	.LBB1_99
.LBB1_91:
	movq	$1, 912(%rsp)
	movq	$4, 920(%rsp)
	pxor	%xmm0, %xmm0
	leaq	944(%rsp), %rax
	movdqa	%xmm0, -16(%rax)
	movq	$0, (%rax)
	jmp	.LBB1_108
.LBB1_92:
	cmpq	%rbp, %r12
	jne	.LBB1_101
.LBB1_93:
	pxor	%xmm0, %xmm0
	leaq	944(%rsp), %rax
	movdqu	%xmm0, 328(%rax)
	movdqu	%xmm0, 312(%rax)
	movdqu	%xmm0, 296(%rax)
	movdqu	%xmm0, 280(%rax)
	movdqu	%xmm0, 264(%rax)
	movq	$0, 344(%rax)
	movdqu	%xmm0, 232(%rax)
	movdqu	%xmm0, 216(%rax)
	movdqu	%xmm0, 200(%rax)
	movdqu	%xmm0, 184(%rax)
	movdqu	%xmm0, 168(%rax)
	movdqu	%xmm0, 152(%rax)
	movdqu	%xmm0, 136(%rax)
	movdqu	%xmm0, 120(%rax)
	movdqu	%xmm0, 104(%rax)
	movdqu	%xmm0, 88(%rax)
	movdqu	%xmm0, 72(%rax)
	movdqu	%xmm0, 56(%rax)
	movdqu	%xmm0, 40(%rax)
	movdqu	%xmm0, 24(%rax)
	movdqu	%xmm0, 8(%rax)
	movq	$0, 248(%rax)
	movdqa	.LCPI1_0(%rip), %xmm0
	xorl	%ebp, %ebp
	xorl	%eax, %eax
	xorl	%r12d, %r12d
	xorl	%r15d, %r15d
	jmp	.LBB1_102
.LBB1_94:
	cmpq	$2, %rdx
	jne	.LBB1_103
	movzwl	(%rsi), %eax
	rolw	$8, %ax
	movzwl	%ax, %r14d
	movq	8(%rsp), %rax
	movq	%rax, 952(%rsp)
	movq	320(%rsp), %rax
	leaq	944(%rsp), %r15
	movq	%rax, 96(%r15)
	movaps	304(%rsp), %xmm0
	movups	%xmm0, 80(%r15)
	movdqa	240(%rsp), %xmm0
	movdqa	256(%rsp), %xmm1
	movdqa	272(%rsp), %xmm2
	movdqa	288(%rsp), %xmm3
	movdqu	%xmm3, 64(%r15)
	movdqu	%xmm2, 48(%r15)
	movdqu	%xmm1, 32(%r15)
	movdqu	%xmm0, 16(%r15)
	leaq	752(%rsp), %rsi
	movl	$152, %edx
	leaq	1048(%rsp), %rdi
	callq	memcpy@PLT
	pxor	%xmm0, %xmm0
	leaq	936(%rsp), %rax
	movdqu	%xmm0, (%rax)
	movdqu	%xmm0, 264(%r15)
	movdqu	%xmm0, 280(%r15)
	movdqu	%xmm0, 296(%r15)
	movdqu	%xmm0, 312(%r15)
	movdqu	%xmm0, 328(%r15)
	movq	$0, 344(%r15)
	jmp	.LBB1_104
.LBB1_96:
	movzbl	8(%rax), %r13d
	cmpq	$10, %rcx
	jb	.LBB1_105
	movzbl	9(%rax), %edx
	movq	%rdx, 32(%rsp)
	jne	.LBB1_109
	movq	$0, 16(%rsp)
	xorl	%edi, %edi
	xorl	%esi, %esi
	jmp	.LBB1_34
.LBB1_99:
	cmpb	$-62, %al
	jae	.LBB1_106
	leaq	912(%rsp), %rdi
	leaq	1296(%rsp), %rcx
	movq	%r12, %r8
	callq	"jpeg_header_state::frame"
	jmp	.LBB1_108
.LBB1_101:
	leaq	752(%rsp), %rsi
	movl	$152, %edx
	leaq	1048(%rsp), %rdi
	callq	memcpy@PLT
	movq	8(%rsp), %rax
	movq	%rax, 952(%rsp)
	movaps	240(%rsp), %xmm0
	movdqa	256(%rsp), %xmm1
	movdqa	272(%rsp), %xmm2
	movdqa	288(%rsp), %xmm3
	leaq	944(%rsp), %rcx
	movups	%xmm0, 16(%rcx)
	movdqu	%xmm1, 32(%rcx)
	movdqu	%xmm2, 48(%rcx)
	movdqu	%xmm3, 64(%rcx)
	movdqa	304(%rsp), %xmm0
	movdqu	%xmm0, 80(%rcx)
	movq	320(%rsp), %rax
	movq	%rax, 96(%rcx)
	pxor	%xmm0, %xmm0
	movdqu	%xmm0, 328(%rcx)
	movdqu	%xmm0, 312(%rcx)
	movdqu	%xmm0, 296(%rcx)
	movdqu	%xmm0, 280(%rcx)
	movdqu	%xmm0, 264(%rcx)
	movq	$0, 344(%rcx)
	movl	$1, %eax
.LBB1_102:
	movdqa	%xmm0, 912(%rsp)
	movq	%rbp, 928(%rsp)
	movq	%rax, 936(%rsp)
	movq	%r12, 944(%rsp)
	movq	%r15, 1200(%rsp)
	jmp	.LBB1_108
.LBB1_103:
	pxor	%xmm0, %xmm0
	leaq	944(%rsp), %rax
	movdqu	%xmm0, 328(%rax)
	movdqu	%xmm0, 312(%rax)
	movdqu	%xmm0, 296(%rax)
	movdqu	%xmm0, 280(%rax)
	movdqu	%xmm0, 264(%rax)
	movq	$0, 344(%rax)
	xorl	%r12d, %r12d
	movl	$264, %edx
	leaq	936(%rsp), %rdi
	xorl	%esi, %esi
	callq	memset@PLT
	movdqa	.LCPI1_0(%rip), %xmm0
	xorl	%r14d, %r14d
.LBB1_104:
	movdqa	%xmm0, 912(%rsp)
	movq	%r12, 928(%rsp)
	movq	%r14, 1200(%rsp)
	jmp	.LBB1_108
.LBB1_105:
	movq	$0, 16(%rsp)
	xorl	%edi, %edi
	xorl	%esi, %esi
	movq	$0, 32(%rsp)
	jmp	.LBB1_34
.LBB1_106:
	andb	$-16, %al
	cmpb	$-32, %al
	jne	.LBB1_91
.LBB1_107:
	pxor	%xmm0, %xmm0
	movdqa	%xmm0, 912(%rsp)
	movq	%r12, 928(%rsp)
	leaq	936(%rsp), %rax
	movdqu	%xmm0, (%rax)
	movq	8(%rsp), %rax
	movq	%rax, 952(%rsp)
	movq	320(%rsp), %rax
	leaq	944(%rsp), %r14
	movq	%rax, 96(%r14)
	movaps	304(%rsp), %xmm0
	movups	%xmm0, 80(%r14)
	movdqa	240(%rsp), %xmm0
	movdqa	256(%rsp), %xmm1
	movdqa	272(%rsp), %xmm2
	movdqa	288(%rsp), %xmm3
	movdqu	%xmm3, 64(%r14)
	movdqu	%xmm2, 48(%r14)
	movdqu	%xmm1, 32(%r14)
	movdqu	%xmm0, 16(%r14)
	leaq	752(%rsp), %rsi
	movl	$152, %edx
	leaq	1048(%rsp), %rdi
	callq	memcpy@PLT
	movq	%r15, 1200(%rsp)
	pxor	%xmm0, %xmm0
	movdqu	%xmm0, 264(%r14)
	movdqu	%xmm0, 280(%r14)
	movdqu	%xmm0, 296(%r14)
	movdqu	%xmm0, 312(%r14)
	movdqu	%xmm0, 328(%r14)
	movq	$0, 344(%r14)
.LBB1_108:
	movzbl	912(%rsp), %r14d
	movzbl	920(%rsp), %r12d
	movq	928(%rsp), %rbp
	movq	936(%rsp), %r13
	movq	944(%rsp), %r15
	movq	1200(%rsp), %rax
	movq	%rax, 24(%rsp)
	movq	952(%rsp), %rax
	movq	%rax, 8(%rsp)
	leaq	944(%rsp), %rax
	movups	16(%rax), %xmm0
	movups	32(%rax), %xmm1
	movups	48(%rax), %xmm2
	movups	64(%rax), %xmm3
	movaps	%xmm0, 144(%rsp)
	movaps	%xmm1, 160(%rsp)
	movaps	%xmm2, 176(%rsp)
	movaps	%xmm3, 192(%rsp)
	movups	80(%rax), %xmm0
	movaps	%xmm0, 208(%rsp)
	movq	96(%rax), %rax
	movq	%rax, 224(%rsp)
	leaq	384(%rsp), %rdi
	movl	$152, %edx
	leaq	1048(%rsp), %rsi
	callq	memcpy@PLT
	leaq	944(%rsp), %rax
	movups	264(%rax), %xmm0
	movdqu	280(%rax), %xmm1
	movdqu	296(%rax), %xmm2
	movdqu	312(%rax), %xmm3
	movaps	%xmm0, 48(%rsp)
	movdqa	%xmm1, 64(%rsp)
	movdqa	%xmm2, 80(%rsp)
	movdqa	%xmm3, 96(%rsp)
	movdqu	328(%rax), %xmm0
	movdqa	%xmm0, 112(%rsp)
	movq	344(%rax), %rax
	movq	%rax, 128(%rsp)
	jmp	.LBB1_20
.LBB1_109:
	movzbl	10(%rax), %r10d
	cmpq	$12, %rcx
	jb	.LBB1_112
	movzbl	11(%rax), %esi
	jne	.LBB1_113
	movq	$0, 16(%rsp)
	xorl	%edi, %edi
	jmp	.LBB1_35
.LBB1_112:
	movq	$0, 16(%rsp)
	xorl	%edi, %edi
	xorl	%esi, %esi
	jmp	.LBB1_35
.LBB1_113:
	movzbl	12(%rax), %r12d
	cmpq	$14, %rcx
	jb	.LBB1_116
	movzbl	13(%rax), %edi
	jne	.LBB1_117
	movq	$0, 16(%rsp)
	jmp	.LBB1_36
.LBB1_116:
	movq	$0, 16(%rsp)
	xorl	%edi, %edi
	jmp	.LBB1_36
.LBB1_117:
	movzbl	14(%rax), %r11d
	cmpq	$16, %rcx
	jb	.LBB1_120
	movzbl	15(%rax), %edx
	movq	%rdx, 16(%rsp)
	je	.LBB1_37
	movzbl	16(%rax), %r9d
	cmpq	$17, %rcx
	jae	.LBB1_39
	jmp	.LBB1_17
.LBB1_120:
	movq	$0, 16(%rsp)
	xorl	%r9d, %r9d
	cmpq	$17, %rcx
	jae	.LBB1_39
	jmp	.LBB1_17
.LBB1_122:
	addq	%rdi, %r9
	addq	%rsi, %r9
	addq	%r8, %r9
	addq	%r12, %r9
	addq	%rdx, %r10
	addq	%r9, %r10
	xorl	%ecx, %ecx
	jmp	.LBB1_124
.LBB1_123:
	movb	$1, 1296(%rsp,%rdx)
	incq	%rcx
	cmpq	%rcx, %r10
	je	.LBB1_63
.LBB1_124:
	movzbl	(%rax,%rcx), %edx
	cmpb	$0, 1296(%rsp,%rdx)
	jne	.LBB1_17
	testq	%rdx, %rdx
	je	.LBB1_123
	cmpl	$240, %edx
	je	.LBB1_123
	movl	%edx, %esi
	andl	$15, %esi
	decl	%esi
	cmpl	$9, %esi
	jbe	.LBB1_123
	jmp	.LBB1_17
.LBB1_128:
	andl	$24, %r12d
	movq	%rax, 1000(%rsp,%r12)
.LBB1_129:
	addq	%r13, %rbp
	movq	920(%rsp), %r13
	leaq	944(%rsp), %rax
	movups	(%rax), %xmm0
	movdqu	16(%rax), %xmm1
	movdqu	32(%rax), %xmm2
	movdqu	48(%rax), %xmm3
	movaps	%xmm0, 144(%rsp)
	movdqa	%xmm1, 160(%rsp)
	movdqa	%xmm2, 176(%rsp)
	movdqa	%xmm3, 192(%rsp)
	movdqu	64(%rax), %xmm0
	movdqa	%xmm0, 208(%rsp)
	movq	80(%rax), %rax
	movq	%rax, 224(%rsp)
	leaq	384(%rsp), %rdi
	movl	$152, %edx
	leaq	1032(%rsp), %rsi
	callq	memcpy@PLT
	pxor	%xmm0, %xmm0
	movdqa	%xmm0, 48(%rsp)
	movdqa	%xmm0, 64(%rsp)
	movdqa	%xmm0, 80(%rsp)
	movdqa	%xmm0, 96(%rsp)
	movdqa	%xmm0, 112(%rsp)
	movq	$0, 128(%rsp)
	xorl	%r14d, %r14d
	xorl	%r12d, %r12d
	jmp	.LBB1_20
.LBB1_130:
	movq	$1, (%rbx)
	movq	$3, 8(%rbx)
	addq	$16, %rbx
	movl	$360, %edx
.LBB1_131:
	movq	%rbx, %rdi
	xorl	%esi, %esi
	addq	$1976, %rsp
	popq	%rbx
	popq	%r12
	popq	%r13
	popq	%r14
	popq	%r15
	popq	%rbp
	jmp	memset@PLT
.LBB1_132:
	movzbl	%r12b, %eax
	movq	$1, (%rbx)
	movq	%rax, 8(%rbx)
	movq	%rbp, 16(%rbx)
	movq	%r13, 24(%rbx)
	movq	%r15, 32(%rbx)
	addq	$40, %rbx
	movl	$336, %edx
	jmp	.LBB1_131
.LBB1_133:
	movq	640(%rsp), %rax
	movq	%rax, 1664(%rsp)
	movaps	624(%rsp), %xmm0
	movaps	%xmm0, 1648(%rsp)
	movaps	560(%rsp), %xmm0
	movaps	576(%rsp), %xmm1
	movaps	592(%rsp), %xmm2
	movaps	608(%rsp), %xmm3
	movaps	%xmm3, 1632(%rsp)
	movaps	%xmm2, 1616(%rsp)
	movaps	%xmm1, 1600(%rsp)
	movaps	%xmm0, 1584(%rsp)
	leaq	1672(%rsp), %rdi
	leaq	1824(%rsp), %rsi
	movl	$152, %edx
	callq	memcpy@PLT
	movq	$0, (%rbx)
	movq	%rbp, 8(%rbx)
	movq	%r13, 16(%rbx)
	movq	%r15, 24(%rbx)
	movq	8(%rsp), %rax
	movq	%rax, 32(%rbx)
	leaq	40(%rbx), %rdi
	leaq	1584(%rsp), %rsi
	movl	$240, %edx
	callq	memcpy@PLT
	movq	24(%rsp), %rax
	movq	%rax, 280(%rbx)
	movaps	656(%rsp), %xmm0
	movaps	672(%rsp), %xmm1
	movaps	688(%rsp), %xmm2
	movaps	704(%rsp), %xmm3
	movups	%xmm0, 288(%rbx)
	movups	%xmm1, 304(%rbx)
	movups	%xmm2, 320(%rbx)
	movups	%xmm3, 336(%rbx)
	movaps	720(%rsp), %xmm0
	movups	%xmm0, 352(%rbx)
	movq	736(%rsp), %rax
	movq	%rax, 368(%rbx)
	addq	$1976, %rsp
	popq	%rbx
	popq	%r12
	popq	%r13
	popq	%r14
	popq	%r15
	popq	%rbp
	retq
.Lfunc_end1:
	.size	"jpeg_header::header", .Lfunc_end1-"jpeg_header::header"
	.section	".rodata.jpeg_header::header","a",@progbits
	.p2align	2, 0x0
.LJTI1_0:
	.long	.LBB1_76-.LJTI1_0
	.long	.LBB1_92-.LJTI1_0
	.long	.LBB1_90-.LJTI1_0
	.long	.LBB1_94-.LJTI1_0
	.long	.LBB1_90-.LJTI1_0
	.long	.LBB1_90-.LJTI1_0
	.long	.LBB1_90-.LJTI1_0
	.long	.LBB1_90-.LJTI1_0
	.long	.LBB1_90-.LJTI1_0
	.long	.LBB1_90-.LJTI1_0
	.long	.LBB1_90-.LJTI1_0
	.long	.LBB1_90-.LJTI1_0
	.long	.LBB1_90-.LJTI1_0
	.long	.LBB1_90-.LJTI1_0
	.long	.LBB1_90-.LJTI1_0
	.long	.LBB1_90-.LJTI1_0
	.long	.LBB1_90-.LJTI1_0
	.long	.LBB1_90-.LJTI1_0
	.long	.LBB1_90-.LJTI1_0
	.long	.LBB1_90-.LJTI1_0
	.long	.LBB1_90-.LJTI1_0
	.long	.LBB1_90-.LJTI1_0
	.long	.LBB1_90-.LJTI1_0
	.long	.LBB1_90-.LJTI1_0
	.long	.LBB1_90-.LJTI1_0
	.long	.LBB1_90-.LJTI1_0
	.long	.LBB1_90-.LJTI1_0
	.long	.LBB1_90-.LJTI1_0
	.long	.LBB1_90-.LJTI1_0
	.long	.LBB1_90-.LJTI1_0
	.long	.LBB1_90-.LJTI1_0
	.long	.LBB1_90-.LJTI1_0
	.long	.LBB1_90-.LJTI1_0
	.long	.LBB1_90-.LJTI1_0
	.long	.LBB1_90-.LJTI1_0
	.long	.LBB1_90-.LJTI1_0
	.long	.LBB1_107-.LJTI1_0

	.section	".text.jpeg_header_state::frame","ax",@progbits
	.p2align	4
	.type	"jpeg_header_state::frame",@function
"jpeg_header_state::frame":
	pushq	%rbp
	pushq	%r15
	pushq	%r14
	pushq	%r13
	pushq	%r12
	pushq	%rbx
	subq	$568, %rsp
	movq	272(%rcx), %r14
	xorps	%xmm0, %xmm0
	cmpq	$0, 136(%rcx)
	movaps	%xmm0, 240(%rsp)
	movaps	%xmm0, 224(%rsp)
	movaps	%xmm0, 208(%rsp)
	movaps	%xmm0, 192(%rsp)
	movaps	%xmm0, 176(%rsp)
	movaps	%xmm0, 160(%rsp)
	je	.LBB2_2
.LBB2_1:
	movq	$1, (%rdi)
	movq	$3, 8(%rdi)
	jmp	.LBB2_106
.LBB2_2:
	cmpq	$6, %rdx
	jb	.LBB2_105
	cmpb	$8, (%rsi)
	jne	.LBB2_105
	movzbl	5(%rsi), %r15d
	leal	-1(%r15), %eax
	cmpb	$4, %al
	jae	.LBB2_105
	leaq	(%r15,%r15,2), %rax
	addq	$6, %rax
	cmpq	%rax, %rdx
	jne	.LBB2_1
	movq	%rcx, %r12
	movq	%r8, (%rsp)
	movq	%rdi, %rbx
	leaq	264(%rsp), %rdi
	movq	%rsi, %r13
	movq	%rdx, %rbp
	callq	"jpeg_header_rules::frame_of"
	cmpq	$0, 264(%rsp)
	je	.LBB2_104
	cmpq	$0, 272(%rsp)
	je	.LBB2_104
	testq	%r15, %r15
	je	.LBB2_19
	leal	-5(%rbp), %eax
	movzbl	%al, %ecx
	imull	$171, %ecx, %eax
	shrl	$9, %eax
	cmpb	$3, %cl
	jae	.LBB2_11
.LBB2_10:
	movl	%eax, %ecx
	jmp	.LBB2_18
.LBB2_11:
	movzbl	7(%r13), %ecx
	movl	%ecx, %edx
	shrl	$4, %edx
	decl	%edx
	cmpl	$3, %edx
	ja	.LBB2_17
	andl	$15, %ecx
	decl	%ecx
	cmpl	$3, %ecx
	ja	.LBB2_17
	cmpl	$1, %r15d
	je	.LBB2_19
	leal	-8(%rbp), %ecx
	cmpb	$3, %cl
	jb	.LBB2_10
	movzbl	10(%r13), %edx
	movl	%edx, %esi
	shrl	$4, %esi
	decl	%esi
	movb	$1, %cl
	cmpl	$3, %esi
	ja	.LBB2_18
	andl	$15, %edx
	decl	%edx
	cmpl	$3, %edx
	ja	.LBB2_18
	cmpl	$2, %r15d
	je	.LBB2_19
	leal	-11(%rbp), %ecx
	cmpb	$3, %cl
	jb	.LBB2_10
	movzbl	13(%r13), %edx
	movl	%edx, %esi
	shrl	$4, %esi
	decl	%esi
	movb	$2, %cl
	cmpl	$3, %esi
	ja	.LBB2_18
	andl	$15, %edx
	decl	%edx
	cmpl	$3, %edx
	ja	.LBB2_18
	cmpl	$3, %r15d
	je	.LBB2_19
	leal	-14(%rbp), %ecx
	cmpb	$3, %cl
	jb	.LBB2_10
	movzbl	16(%r13), %edx
	movl	%edx, %esi
	shrl	$4, %esi
	decl	%esi
	movb	$3, %cl
	cmpl	$3, %esi
	ja	.LBB2_18
	andl	$15, %edx
	decl	%edx
	cmpl	$3, %edx
	ja	.LBB2_18
	cmpl	$4, %r15d
	je	.LBB2_19
	leal	-17(%rbp), %ecx
	cmpb	$3, %cl
	movzbl	%al, %eax
	movl	$4, %ecx
	cmovbl	%eax, %ecx
	jmp	.LBB2_18
.LBB2_17:
	xorl	%ecx, %ecx
.LBB2_18:
	cmpb	%r15b, %cl
	jb	.LBB2_104
.LBB2_19:
	movq	280(%rsp), %rax
	testq	%rax, %rax
	je	.LBB2_22
	cmpq	$3, 384(%rsp)
	ja	.LBB2_104
	cmpq	$1, %rax
	jne	.LBB2_39
.LBB2_22:
	leaq	8(%rsp), %rdi
	leaq	264(%rsp), %rsi
	movl	$152, %edx
	callq	memcpy@PLT
	movq	24(%rsp), %rcx
	cmpq	$4, %rcx
	movl	$4, %eax
	cmovbq	%rcx, %rax
	testq	%rcx, %rcx
	movq	%rbx, %rdi
	movq	%rbp, %rdx
	movq	%r13, %rsi
	je	.LBB2_107
	leaq	-1(%rax), %r8
	cmpq	$4, %r8
	jb	.LBB2_34
	movq	96(%rsp), %r10
	xorl	%r15d, %r15d
	movq	%r8, %r11
	xorl	%r9d, %r9d
	jmp	.LBB2_28
.LBB2_25:
	orq	$1, %r15
.LBB2_26:
	cmpq	%r9, %r15
	jb	.LBB2_104
.LBB2_27:
	addq	$-4, %r11
	movq	%r9, %r15
	cmpq	$3, %r11
	jbe	.LBB2_35
.LBB2_28:
	subq	$-4, %r9
	je	.LBB2_27
	cmpq	%r10, 72(%rsp,%r9,8)
	je	.LBB2_26
	cmpq	%r10, 80(%rsp,%r9,8)
	je	.LBB2_25
	cmpq	%r10, 88(%rsp,%r9,8)
	jne	.LBB2_33
	orq	$2, %r15
	jmp	.LBB2_26
.LBB2_33:
	addq	$3, %r15
	cmpq	%r10, 96(%rsp,%r9,8)
	cmovneq	%r9, %r15
	jmp	.LBB2_26
.LBB2_34:
	xorl	%r9d, %r9d
.LBB2_35:
	cmpq	%r8, %r9
	jae	.LBB2_45
	movq	96(%rsp), %r10
.LBB2_37:
	cmpq	%r10, 104(%rsp,%r9,8)
	je	.LBB2_44
	incq	%r9
	cmpq	%r9, %r8
	jne	.LBB2_37
	jmp	.LBB2_45
.LBB2_39:
	cmpq	$3, 392(%rsp)
	ja	.LBB2_104
	cmpq	$2, %rax
	je	.LBB2_22
	cmpq	$3, 400(%rsp)
	ja	.LBB2_104
	cmpq	$3, %rax
	je	.LBB2_22
	cmpq	$3, 408(%rsp)
	ja	.LBB2_104
	jmp	.LBB2_22
.LBB2_44:
	cmpq	%r8, %r9
	jb	.LBB2_104
.LBB2_45:
	cmpq	$1, %rcx
	je	.LBB2_107
	leaq	-2(%rax), %r8
	cmpq	$4, %r8
	jb	.LBB2_57
	movq	104(%rsp), %r10
	xorl	%r15d, %r15d
	movq	%r8, %r11
	xorl	%r9d, %r9d
	jmp	.LBB2_51
.LBB2_48:
	orq	$1, %r15
.LBB2_49:
	cmpq	%r9, %r15
	jb	.LBB2_104
.LBB2_50:
	addq	$-4, %r11
	movq	%r9, %r15
	cmpq	$3, %r11
	jbe	.LBB2_58
.LBB2_51:
	subq	$-4, %r9
	je	.LBB2_50
	cmpq	%r10, 80(%rsp,%r9,8)
	je	.LBB2_49
	cmpq	%r10, 88(%rsp,%r9,8)
	je	.LBB2_48
	cmpq	%r10, 96(%rsp,%r9,8)
	jne	.LBB2_56
	orq	$2, %r15
	jmp	.LBB2_49
.LBB2_56:
	addq	$3, %r15
	cmpq	%r10, 104(%rsp,%r9,8)
	cmovneq	%r9, %r15
	jmp	.LBB2_49
.LBB2_57:
	xorl	%r9d, %r9d
.LBB2_58:
	cmpq	%r8, %r9
	jae	.LBB2_63
	movq	104(%rsp), %r10
.LBB2_60:
	cmpq	%r10, 112(%rsp,%r9,8)
	je	.LBB2_62
	incq	%r9
	cmpq	%r9, %r8
	jne	.LBB2_60
	jmp	.LBB2_63
.LBB2_62:
	cmpq	%r8, %r9
	jb	.LBB2_104
.LBB2_63:
	cmpq	$2, %rcx
	je	.LBB2_107
	leaq	-3(%rax), %r8
	cmpq	$4, %r8
	jb	.LBB2_80
	movq	112(%rsp), %r10
	xorl	%r15d, %r15d
	movq	%r8, %r11
	xorl	%r9d, %r9d
	jmp	.LBB2_69
.LBB2_66:
	orq	$1, %r15
.LBB2_67:
	cmpq	%r9, %r15
	jb	.LBB2_104
.LBB2_68:
	addq	$-4, %r11
	movq	%r9, %r15
	cmpq	$3, %r11
	jbe	.LBB2_81
.LBB2_69:
	subq	$-4, %r9
	je	.LBB2_68
	cmpq	%r10, 88(%rsp,%r9,8)
	je	.LBB2_67
	cmpq	%r10, 96(%rsp,%r9,8)
	je	.LBB2_66
	cmpq	%r10, 104(%rsp,%r9,8)
	jne	.LBB2_74
	orq	$2, %r15
	jmp	.LBB2_67
.LBB2_74:
	addq	$3, %r15
	cmpq	%r10, 112(%rsp,%r9,8)
	cmovneq	%r9, %r15
	jmp	.LBB2_67
.LBB2_80:
	xorl	%r9d, %r9d
.LBB2_81:
	cmpq	%r8, %r9
	jae	.LBB2_86
	movq	112(%rsp), %r10
.LBB2_83:
	cmpq	%r10, 120(%rsp,%r9,8)
	je	.LBB2_85
	incq	%r9
	cmpq	%r9, %r8
	jne	.LBB2_83
	jmp	.LBB2_86
.LBB2_85:
	cmpq	%r8, %r9
	jb	.LBB2_104
.LBB2_86:
	cmpq	$3, %rcx
	je	.LBB2_107
	addq	$-4, %rax
	cmpq	$4, %rax
	jb	.LBB2_98
	movq	120(%rsp), %r8
	xorl	%r10d, %r10d
	movq	%rax, %r9
	xorl	%ecx, %ecx
	jmp	.LBB2_92
.LBB2_89:
	orq	$1, %r10
.LBB2_90:
	cmpq	%rcx, %r10
	jb	.LBB2_104
.LBB2_91:
	addq	$-4, %r9
	movq	%rcx, %r10
	cmpq	$3, %r9
	jbe	.LBB2_99
.LBB2_92:
	subq	$-4, %rcx
	je	.LBB2_91
	cmpq	%r8, 96(%rsp,%rcx,8)
	je	.LBB2_90
	cmpq	%r8, 104(%rsp,%rcx,8)
	je	.LBB2_89
	cmpq	%r8, 112(%rsp,%rcx,8)
	jne	.LBB2_97
	orq	$2, %r10
	jmp	.LBB2_90
.LBB2_97:
	addq	$3, %r10
	cmpq	%r8, 120(%rsp,%rcx,8)
	cmovneq	%rcx, %r10
	jmp	.LBB2_90
.LBB2_98:
	xorl	%ecx, %ecx
.LBB2_99:
	cmpq	%rax, %rcx
	jae	.LBB2_107
	movq	120(%rsp), %r8
.LBB2_101:
	cmpq	%r8, 128(%rsp,%rcx,8)
	je	.LBB2_103
	incq	%rcx
	cmpq	%rcx, %rax
	jne	.LBB2_101
	jmp	.LBB2_107
.LBB2_103:
	cmpq	%rax, %rcx
	jae	.LBB2_107
.LBB2_104:
	movq	%rbx, %rdi
.LBB2_105:
	movq	$1, (%rdi)
	movq	$4, 8(%rdi)
.LBB2_106:
	addq	$16, %rdi
	movl	$368, %edx
	xorl	%esi, %esi
	addq	$568, %rsp
	popq	%rbx
	popq	%r12
	popq	%r13
	popq	%r14
	popq	%r15
	popq	%rbp
	jmp	memset@PLT
.LBB2_107:
	movq	280(%rsp), %rcx
	leaq	-1(%rcx), %rax
	cmpq	$3, %rax
	ja	.LBB2_105
	movq	288(%rsp), %r8
	movq	320(%rsp), %rax
	leaq	-1(%r8), %r9
	leaq	-1(%rax), %r10
	orq	%r9, %r10
	cmpq	$3, %r10
	ja	.LBB2_105
	imulq	%r8, %rax
	cmpq	$1, %rcx
	jne	.LBB2_112
.LBB2_110:
	cmpq	$11, %rax
	jae	.LBB2_105
	leaq	416(%rsp), %rbx
	movq	%rdi, %r15
	movq	%rbx, %rdi
	callq	"jpeg_header_rules::frame_of"
	movups	104(%r12), %xmm0
	movaps	%xmm0, 240(%rsp)
	movups	88(%r12), %xmm0
	movaps	%xmm0, 224(%rsp)
	movups	24(%r12), %xmm0
	movups	40(%r12), %xmm1
	movups	56(%r12), %xmm2
	movups	72(%r12), %xmm3
	movaps	%xmm3, 208(%rsp)
	movaps	%xmm2, 192(%rsp)
	movaps	%xmm1, 176(%rsp)
	movaps	%xmm0, 160(%rsp)
	xorps	%xmm0, %xmm0
	movups	%xmm0, (%r15)
	movq	(%rsp), %rax
	movq	%rax, 16(%r15)
	movups	%xmm0, 24(%r15)
	movaps	160(%rsp), %xmm0
	movaps	176(%rsp), %xmm1
	movaps	192(%rsp), %xmm2
	movaps	208(%rsp), %xmm3
	movups	%xmm0, 40(%r15)
	movups	%xmm1, 56(%r15)
	movups	%xmm2, 72(%r15)
	movups	%xmm3, 88(%r15)
	movaps	224(%rsp), %xmm0
	movups	%xmm0, 104(%r15)
	movaps	240(%rsp), %xmm0
	movups	%xmm0, 120(%r15)
	leaq	136(%r15), %rdi
	movl	$152, %edx
	movq	%rbx, %rsi
	callq	memcpy@PLT
	movq	%r14, 288(%r15)
	xorps	%xmm0, %xmm0
	movups	%xmm0, 296(%r15)
	movups	%xmm0, 312(%r15)
	movups	%xmm0, 328(%r15)
	movups	%xmm0, 344(%r15)
	movups	%xmm0, 360(%r15)
	movq	$0, 376(%r15)
	addq	$568, %rsp
	popq	%rbx
	popq	%r12
	popq	%r13
	popq	%r14
	popq	%r15
	popq	%rbp
	retq
.LBB2_112:
	movq	296(%rsp), %r9
	movq	328(%rsp), %r8
	leaq	-1(%r9), %r10
	leaq	-1(%r8), %r11
	orq	%r10, %r11
	cmpq	$3, %r11
	ja	.LBB2_105
	imulq	%r9, %r8
	addq	%r8, %rax
	cmpq	$2, %rcx
	je	.LBB2_110
	movq	304(%rsp), %rsi
	movq	336(%rsp), %rdx
	leaq	-1(%rsi), %r8
	leaq	-1(%rdx), %r9
	orq	%r8, %r9
	cmpq	$3, %r9
	ja	.LBB2_105
	imulq	%rsi, %rdx
	addq	%rdx, %rax
	cmpq	$3, %rcx
	jne	.LBB2_117
	movq	%rbx, %rdi
	movq	%rbp, %rdx
	movq	%r13, %rsi
	jmp	.LBB2_110
.LBB2_117:
	movq	312(%rsp), %r8
	movq	344(%rsp), %rcx
	leaq	-1(%r8), %rdx
	leaq	-1(%rcx), %rsi
	orq	%rdx, %rsi
	cmpq	$3, %rsi
	movq	%rbx, %rdi
	ja	.LBB2_105
	movq	%rbp, %rdx
	movq	%r13, %rsi
	imulq	%r8, %rcx
	addq	%rcx, %rax
	jmp	.LBB2_110
.Lfunc_end2:
	.size	"jpeg_header_state::frame", .Lfunc_end2-"jpeg_header_state::frame"

	.section	".text.jpeg_header_rules::frame_of","ax",@progbits
	.p2align	4
	.type	"jpeg_header_rules::frame_of",@function
"jpeg_header_rules::frame_of":
	pushq	%rbp
	pushq	%r15
	pushq	%r14
	pushq	%r13
	pushq	%r12
	pushq	%rbx
	movzbl	5(%rsi), %eax
	testq	%rax, %rax
	je	.LBB3_5
	cmpq	$8, %rdx
	jb	.LBB3_6
	movzbl	7(%rsi), %r12d
	cmpl	$1, %eax
	je	.LBB3_7
.LBB3_3:
	cmpq	$11, %rdx
	jb	.LBB3_18
	movzbl	10(%rsi), %ecx
	jmp	.LBB3_19
.LBB3_5:
	xorl	%r11d, %r11d
	xorl	%r12d, %r12d
	jmp	.LBB3_8
.LBB3_6:
	xorl	%r12d, %r12d
	cmpl	$1, %eax
	jne	.LBB3_3
.LBB3_7:
	xorl	%r11d, %r11d
.LBB3_8:
	xorl	%ecx, %ecx
.LBB3_9:
	xorl	%r9d, %r9d
.LBB3_10:
	movzbl	3(%rsi), %r10d
	movzbl	4(%rsi), %ebx
	movq	%rbx, -8(%rsp)
	movzbl	1(%rsi), %ebx
	movzbl	2(%rsi), %r14d
	movq	%r14, -16(%rsp)
	cmpl	$1, %eax
	jne	.LBB3_13
	cmpq	$7, %rdx
	jb	.LBB3_16
	movzbl	6(%rsi), %ecx
	movq	%rcx, -72(%rsp)
	movl	$1, %ecx
	movq	%rcx, -40(%rsp)
	xorl	%r9d, %r9d
	movq	$0, -56(%rsp)
	movq	$0, -48(%rsp)
	movl	$1, %r11d
	movq	$0, -24(%rsp)
	movq	$0, -80(%rsp)
	movq	$0, -32(%rsp)
	xorl	%ecx, %ecx
	jmp	.LBB3_27
.LBB3_13:
	movzbl	%r11b, %r8d
	movl	%r8d, %r11d
	shrl	$4, %r11d
	movq	%r11, -80(%rsp)
	movl	%ecx, %r11d
	shrl	$4, %r11d
	movq	%r11, -24(%rsp)
	movl	%r12d, %r11d
	shrl	$4, %r11d
	movl	%r9d, %r14d
	shrl	$4, %r14d
	movq	%r14, -32(%rsp)
	testq	%rax, %rax
	setne	%bpl
	andl	$15, %r8d
	movq	%r8, -56(%rsp)
	andl	$15, %ecx
	movq	%rcx, -48(%rsp)
	andl	$15, %r12d
	andl	$15, %r9d
	cmpq	$7, %rdx
	setae	%r14b
	testb	%r14b, %bpl
	movq	%r12, -40(%rsp)
	je	.LBB3_17
	movzbl	6(%rsi), %ecx
	cmpq	$10, %rdx
	movq	%rcx, -72(%rsp)
	jb	.LBB3_23
	movzbl	9(%rsi), %ecx
	jmp	.LBB3_24
.LBB3_16:
	movl	$1, %r11d
	xorl	%r15d, %r15d
	xorl	%r8d, %r8d
	xorl	%ecx, %ecx
	xorl	%r14d, %r14d
	movq	$0, -32(%rsp)
	xorl	%esi, %esi
	movq	$0, -24(%rsp)
	movl	$1, %edx
	movq	%rdx, -40(%rsp)
	movq	$0, -48(%rsp)
	movq	$0, -56(%rsp)
	xorl	%r9d, %r9d
	xorl	%r13d, %r13d
	xorl	%r12d, %r12d
	xorl	%ebp, %ebp
	xorl	%edx, %edx
	jmp	.LBB3_44
.LBB3_17:
	xorl	%r15d, %r15d
	xorl	%r8d, %r8d
	xorl	%ecx, %ecx
	xorl	%r14d, %r14d
	xorl	%r13d, %r13d
	xorl	%r12d, %r12d
	xorl	%ebp, %ebp
	xorl	%edx, %edx
	movq	-80(%rsp), %rsi
	jmp	.LBB3_44
.LBB3_18:
	xorl	%ecx, %ecx
.LBB3_19:
	cmpb	$3, %al
	setae	%r9b
	cmpq	$14, %rdx
	setae	%r10b
	andb	%r9b, %r10b
	cmpb	$1, %r10b
	jne	.LBB3_22
	movzbl	13(%rsi), %r11d
	cmpl	$3, %eax
	setne	%r9b
	cmpq	$17, %rdx
	setae	%r10b
	andb	%r9b, %r10b
	cmpb	$1, %r10b
	jne	.LBB3_9
	movzbl	16(%rsi), %r9d
	jmp	.LBB3_10
.LBB3_22:
	xorl	%r11d, %r11d
	jmp	.LBB3_9
.LBB3_23:
	xorl	%ecx, %ecx
.LBB3_24:
	cmpb	$3, %al
	setae	%bpl
	cmpq	$13, %rdx
	setae	%r14b
	andb	%bpl, %r14b
	cmpb	$1, %r14b
	jne	.LBB3_27
	movzbl	12(%rsi), %r13d
	cmpl	$3, %eax
	setne	%bpl
	cmpq	$16, %rdx
	setae	%r14b
	andb	%bpl, %r14b
	cmpb	$1, %r14b
	jne	.LBB3_31
	movzbl	15(%rsi), %r15d
	jmp	.LBB3_32
.LBB3_27:
	xorl	%r15d, %r15d
	movl	$0, %r13d
	movl	$0, %r14d
	movl	$0, %r12d
	cmpq	$9, %rdx
	jae	.LBB3_32
	cmpl	$1, %eax
	jne	.LBB3_33
.LBB3_29:
	xorl	%r13d, %r13d
	xorl	%ebp, %ebp
	xorl	%edx, %edx
	jmp	.LBB3_40
.LBB3_31:
	xorl	%r15d, %r15d
.LBB3_32:
	movzbl	%r13b, %r14d
	movzbl	8(%rsi), %r12d
	cmpl	$1, %eax
	je	.LBB3_29
.LBB3_33:
	cmpq	$12, %rdx
	movq	%r11, -64(%rsp)
	jb	.LBB3_35
	movzbl	11(%rsi), %ebp
	jmp	.LBB3_36
.LBB3_35:
	xorl	%ebp, %ebp
.LBB3_36:
	cmpb	$3, %al
	setae	%r13b
	cmpq	$15, %rdx
	setae	%r11b
	andb	%r13b, %r11b
	cmpb	$1, %r11b
	jne	.LBB3_39
	movq	%rcx, %r8
	movzbl	14(%rsi), %r13d
	cmpl	$3, %eax
	setne	%r11b
	cmpq	$18, %rdx
	setae	%dl
	andb	%r11b, %dl
	cmpb	$1, %dl
	jne	.LBB3_41
	movzbl	17(%rsi), %edx
	jmp	.LBB3_42
.LBB3_39:
	xorl	%r13d, %r13d
	xorl	%edx, %edx
	movq	-64(%rsp), %r11
.LBB3_40:
	movq	-80(%rsp), %rsi
	movq	%rcx, %r8
	jmp	.LBB3_43
.LBB3_41:
	xorl	%edx, %edx
.LBB3_42:
	movq	-64(%rsp), %r11
	movq	-80(%rsp), %rsi
.LBB3_43:
	movq	-72(%rsp), %rcx
.LBB3_44:
	shll	$8, %ebx
	addq	-16(%rsp), %rbx
	shll	$8, %r10d
	addq	-8(%rsp), %r10
	movq	%r10, (%rdi)
	movq	%rbx, 8(%rdi)
	movq	%rax, 16(%rdi)
	movq	%r11, 24(%rdi)
	movq	-24(%rsp), %rax
	movq	%rax, 32(%rdi)
	movq	%rsi, 40(%rdi)
	movq	-32(%rsp), %rax
	movq	%rax, 48(%rdi)
	movq	-40(%rsp), %rax
	movq	%rax, 56(%rdi)
	movq	-48(%rsp), %rax
	movq	%rax, 64(%rdi)
	movq	-56(%rsp), %rax
	movq	%rax, 72(%rdi)
	movq	%r9, 80(%rdi)
	movq	%rcx, 88(%rdi)
	movq	%r8, 96(%rdi)
	movq	%r14, 104(%rdi)
	movq	%r15, 112(%rdi)
	movq	%r12, 120(%rdi)
	movq	%rbp, 128(%rdi)
	movzbl	%r13b, %eax
	movq	%rax, 136(%rdi)
	movq	%rdx, 144(%rdi)
	popq	%rbx
	popq	%r12
	popq	%r13
	popq	%r14
	popq	%r15
	popq	%rbp
	retq
.Lfunc_end3:
	.size	"jpeg_header_rules::frame_of", .Lfunc_end3-"jpeg_header_rules::frame_of"

	.section	".text.jpeg_header_state::scan","ax",@progbits
	.p2align	4
	.type	"jpeg_header_state::scan",@function
"jpeg_header_state::scan":
	pushq	%rbp
	pushq	%r15
	pushq	%r14
	pushq	%r13
	pushq	%r12
	pushq	%rbx
	subq	$616, %rsp
	movq	120(%r8), %r11
	movq	128(%r8), %r10
	movq	136(%r8), %rbp
	movq	208(%r8), %rax
	movq	216(%r8), %r14
	movq	224(%r8), %r15
	movq	232(%r8), %r12
	movq	272(%r8), %rbx
	xorps	%xmm0, %xmm0
	movaps	%xmm0, 192(%rsp)
	movaps	%xmm0, 176(%rsp)
	movaps	%xmm0, 160(%rsp)
	movaps	%xmm0, 144(%rsp)
	movaps	%xmm0, 112(%rsp)
	movaps	%xmm0, 128(%rsp)
	movaps	%xmm0, 16(%rsp)
	movaps	%xmm0, 32(%rsp)
	movaps	%xmm0, 48(%rsp)
	movaps	%xmm0, 64(%rsp)
	movaps	%xmm0, 80(%rsp)
	movaps	%xmm0, 96(%rsp)
	movl	$0, -64(%rsp)
	movl	$0, -61(%rsp)
	testq	%rbp, %rbp
	je	.LBB4_1
	movq	%r12, -16(%rsp)
	movq	%r15, -8(%rsp)
	movq	%r14, (%rsp)
	movq	%rax, 8(%rsp)
	movq	%r9, %r13
	leaq	-1(%r11), %rax
	cmpq	$65535, %rax
	setb	%al
	leaq	-1(%r10), %r9
	cmpq	$65535, %r9
	setb	%r9b
	andb	%al, %r9b
	cmpb	$1, %r9b
	jne	.LBB4_82
	cmpq	$4, %rbp
	ja	.LBB4_82
	movq	144(%r8), %r12
	movq	176(%r8), %r9
	leaq	-1(%r12), %rax
	movq	%r9, -128(%rsp)
	decq	%r9
	orq	%rax, %r9
	cmpq	$3, %r9
	ja	.LBB4_82
	movq	-128(%rsp), %r15
	imulq	%r12, %r15
	cmpq	$1, %rbp
	jne	.LBB4_7
.LBB4_13:
	cmpq	$10, %r15
	ja	.LBB4_82
	testq	%rdx, %rdx
	je	.LBB4_82
	movzbl	(%rsi), %eax
	cmpq	%rax, %rbp
	jne	.LBB4_82
	leaq	4(,%rbp,2), %r9
	cmpq	%r9, %rdx
	jne	.LBB4_82
	cmpb	$63, -2(%rsi,%rdx)
	jne	.LBB4_82
	movzbl	-1(%rsi,%rdx), %r9d
	orb	-3(%rsi,%rdx), %r9b
	jne	.LBB4_82
	testb	%al, %al
	je	.LBB4_43
	movzbl	1(%rsi), %r9d
	cmpq	%r9, 8(%rsp)
	jne	.LBB4_1
	movq	%rbx, %r14
	cmpb	$1, %al
	jne	.LBB4_22
.LBB4_39:
	movl	$2, %eax
	movq	%rbp, %r9
	movq	%r14, %rbx
	jmp	.LBB4_40
.LBB4_7:
	movq	152(%r8), %r9
	movq	184(%r8), %rax
	movq	%rbx, -96(%rsp)
	leaq	-1(%r9), %rbx
	movl	%ecx, -120(%rsp)
	movq	%r13, -112(%rsp)
	leaq	-1(%rax), %r13
	orq	%rbx, %r13
	movq	-96(%rsp), %rbx
	cmpq	$3, %r13
	movq	-112(%rsp), %r13
	movl	-120(%rsp), %ecx
	ja	.LBB4_82
	cmpq	%r12, %r9
	cmovaq	%r9, %r12
	movq	%r15, %r14
	movq	-128(%rsp), %r15
	cmpq	%r15, %rax
	cmovaq	%rax, %r15
	movq	%r15, -128(%rsp)
	movq	%r14, %r15
	imulq	%r9, %rax
	addq	%rax, %r15
	cmpq	$2, %rbp
	je	.LBB4_13
	movq	160(%r8), %r9
	movq	192(%r8), %rax
	leaq	-1(%r9), %rbx
	leaq	-1(%rax), %r13
	orq	%rbx, %r13
	movq	-96(%rsp), %rbx
	cmpq	$3, %r13
	movq	-112(%rsp), %r13
	movl	-120(%rsp), %ecx
	ja	.LBB4_82
	cmpq	%r12, %r9
	cmovaq	%r9, %r12
	movq	%r15, %r14
	movq	-128(%rsp), %r15
	cmpq	%r15, %rax
	cmovaq	%rax, %r15
	movq	%r15, -128(%rsp)
	movq	%r14, %r15
	imulq	%r9, %rax
	addq	%rax, %r15
	cmpq	$3, %rbp
	je	.LBB4_13
	movq	168(%r8), %r9
	movq	200(%r8), %rax
	leaq	-1(%r9), %rbx
	leaq	-1(%rax), %r13
	orq	%rbx, %r13
	movq	-96(%rsp), %rbx
	cmpq	$3, %r13
	movq	-112(%rsp), %r13
	movl	-120(%rsp), %ecx
	ja	.LBB4_82
	cmpq	%r12, %r9
	cmovaq	%r9, %r12
	movq	-128(%rsp), %r14
	cmpq	%r14, %rax
	cmovaq	%rax, %r14
	movq	%r14, -128(%rsp)
	imulq	%r9, %rax
	addq	%rax, %r15
	jmp	.LBB4_13
.LBB4_42:
	addq	$2, %rax
	decq	%r9
	je	.LBB4_43
.LBB4_40:
	cmpq	%rdx, %rax
	jae	.LBB4_42
	testb	$-52, (%rsi,%rax)
	je	.LBB4_42
.LBB4_82:
	movq	$1, (%rdi)
	movq	$4, 8(%rdi)
	jmp	.LBB4_2
.LBB4_43:
	movq	%r15, %r9
	cmpq	$1, %rbp
	jne	.LBB4_45
	xorl	%r14d, %r14d
	xorl	%eax, %eax
	movq	$0, -104(%rsp)
	movq	%r13, %r15
	jmp	.LBB4_50
.LBB4_45:
	movzbl	4(%rsi), %eax
	cmpq	$3, %rbp
	movq	%r13, %r15
	jb	.LBB4_46
	movzbl	6(%rsi), %r14d
	jne	.LBB4_49
	movq	$0, -104(%rsp)
	jmp	.LBB4_50
.LBB4_22:
	movzbl	3(%rsi), %r9d
	cmpq	%r9, (%rsp)
	jne	.LBB4_1
	cmpb	$3, %al
	setb	%bl
	cmpb	$2, %al
	je	.LBB4_27
	movzbl	5(%rsi), %r9d
	cmpq	%r9, -8(%rsp)
	jne	.LBB4_27
	movq	%r13, -112(%rsp)
	movl	%ecx, -120(%rsp)
	cmpb	$4, %al
	setb	%bl
	cmpb	$3, %al
	jne	.LBB4_28
	movl	-120(%rsp), %ecx
	movq	-112(%rsp), %r13
	jmp	.LBB4_27
.LBB4_46:
	xorl	%r14d, %r14d
	movq	$0, -104(%rsp)
	jmp	.LBB4_50
.LBB4_49:
	movzbl	8(%rsi), %edx
	movq	%rdx, -104(%rsp)
.LBB4_50:
	movzbl	2(%rsi), %edx
	movq	%rdx, -120(%rsp)
	movzbl	%al, %r13d
	xorl	%esi, %esi
	cmpq	$65535, %r11
	ja	.LBB4_53
	leaq	-1(%r12), %rax
	cmpq	$3, %rax
	ja	.LBB4_53
	shll	$3, %r12d
	movl	%r11d, %eax
	xorl	%edx, %edx
	divw	%r12w
	movzwl	%ax, %esi
	cmpw	$1, %dx
	sbbq	$-1, %rsi
	imulq	%r9, %rsi
.LBB4_53:
	xorl	%r12d, %r12d
	cmpq	$65535, %r10
	movq	%rbx, -96(%rsp)
	movq	%r15, -112(%rsp)
	ja	.LBB4_56
	movq	-128(%rsp), %r9
	leaq	-1(%r9), %rdx
	cmpq	$3, %rdx
	ja	.LBB4_56
	shll	$3, %r9d
	movl	%r10d, %eax
	xorl	%edx, %edx
	divw	%r9w
	movzwl	%ax, %r12d
	cmpw	$1, %dx
	sbbq	$-1, %r12
	imulq	%rsi, %r12
.LBB4_56:
	movq	%r14, -40(%rsp)
	movzbl	%r14b, %eax
	movq	%r10, %rdx
	imulq	%r11, %rdx
	imulq	%rbp, %rdx
	movq	%rdx, -24(%rsp)
	movl	%eax, %esi
	movq	%rax, %r15
	shrl	$4, %esi
	movq	%rsi, -72(%rsp)
	movl	%r13d, %ebx
	shrl	$4, %ebx
	movq	-120(%rsp), %r9
	movl	%r9d, %r14d
	shrl	$4, %r14d
	movq	-104(%rsp), %rax
	movl	%eax, %esi
	shrl	$4, %esi
	movq	%rsi, -80(%rsp)
	andl	$15, %r15d
	movq	%r15, -128(%rsp)
	movq	%r13, -32(%rsp)
	andl	$15, %r13d
	movq	%r13, 240(%rsp)
	andl	$15, %r9d
	andl	$15, %eax
	movq	%rax, 232(%rsp)
	movq	%r12, %r13
	shlq	$6, %r13
	imulq	$3136, %r12, %r15
	addq	%rdx, %r15
	leaq	240(%r8), %rsi
	movups	(%rsi), %xmm0
	movups	16(%rsi), %xmm1
	movups	%xmm1, 384(%rsp)
	movups	%xmm0, 368(%rsp)
	movups	24(%r8), %xmm0
	movups	40(%r8), %xmm1
	movups	56(%r8), %xmm2
	movups	72(%r8), %xmm3
	movups	%xmm0, 400(%rsp)
	movups	%xmm1, 416(%rsp)
	movups	%xmm2, 432(%rsp)
	movups	%xmm3, 448(%rsp)
	movups	88(%r8), %xmm0
	movups	%xmm0, 464(%rsp)
	movups	104(%r8), %xmm0
	movups	%xmm0, 480(%rsp)
	movq	%r14, -48(%rsp)
	movq	%r14, 496(%rsp)
	movq	-80(%rsp), %r14
	movq	%rbx, -56(%rsp)
	movq	%rbx, 504(%rsp)
	movq	-128(%rsp), %rbx
	movq	-72(%rsp), %rax
	movq	240(%rsp), %rdx
	movq	%rax, 512(%rsp)
	movq	%r14, 520(%rsp)
	movq	%r9, -88(%rsp)
	movq	%r9, 528(%rsp)
	movq	%rdx, %r14
	movq	%rdx, 536(%rsp)
	movq	232(%rsp), %rdx
	movq	%rbx, 544(%rsp)
	movq	%rdx, 552(%rsp)
	movq	-96(%rsp), %rsi
	movq	%rsi, 560(%rsp)
	movq	-112(%rsp), %rsi
	movq	%rsi, 568(%rsp)
	movq	%r12, 224(%rsp)
	movq	%r12, 576(%rsp)
	movq	%r13, %r12
	movq	%r13, 584(%rsp)
	movq	-24(%rsp), %rax
	movq	%rax, 592(%rsp)
	movq	%r15, 216(%rsp)
	movq	%r15, 600(%rsp)
	movb	%cl, 608(%rsp)
	movl	$0, 612(%rsp)
	movl	$0, 609(%rsp)
	cmpq	$0, 400(%rsp)
	sete	%sil
	cmpq	$0, 432(%rsp)
	sete	%r9b
	orb	%sil, %r9b
	movq	368(%rsp), %rsi
	cmpq	$3, %rsi
	ja	.LBB4_80
	cmpq	$0, 400(%rsp,%rsi,8)
	sete	%sil
	cmpb	$64, -120(%rsp)
	setae	%r9b
	orb	%sil, %r9b
	jne	.LBB4_80
	movq	-48(%rsp), %rsi
	cmpq	$0, 432(%rsp,%rsi,8)
	setne	%sil
	cmpq	$4, -88(%rsp)
	setb	%r9b
	andb	%sil, %r9b
	cmpb	$1, %r9b
	jne	.LBB4_80
	movq	-88(%rsp), %rax
	cmpq	$0, 464(%rsp,%rax,8)
	je	.LBB4_80
	cmpq	$1, %rbp
	jne	.LBB4_61
.LBB4_79:
	leaq	144(%r8), %rsi
	movups	(%rsi), %xmm0
	movups	16(%rsi), %xmm1
	movups	32(%rsi), %xmm2
	movups	48(%rsi), %xmm3
	movaps	%xmm3, 192(%rsp)
	movaps	%xmm2, 176(%rsp)
	movaps	%xmm1, 160(%rsp)
	movaps	%xmm0, 144(%rsp)
	leaq	240(%r8), %rsi
	movups	(%rsi), %xmm0
	movups	16(%rsi), %xmm1
	addq	$24, %r8
	movaps	%xmm0, 112(%rsp)
	movaps	%xmm1, 128(%rsp)
	movups	(%r8), %xmm0
	movups	16(%r8), %xmm1
	movups	32(%r8), %xmm2
	movups	48(%r8), %xmm3
	movaps	%xmm0, 16(%rsp)
	movaps	%xmm1, 32(%rsp)
	movaps	%xmm2, 48(%rsp)
	movaps	%xmm3, 64(%rsp)
	movups	64(%r8), %xmm0
	movaps	%xmm0, 80(%rsp)
	movups	80(%r8), %xmm0
	movaps	%xmm0, 96(%rsp)
	movq	$0, (%rdi)
	movq	$1, 8(%rdi)
	movq	%r11, 16(%rdi)
	movq	%r10, 24(%rdi)
	movq	%rbp, 32(%rdi)
	movaps	144(%rsp), %xmm0
	movaps	160(%rsp), %xmm1
	movaps	176(%rsp), %xmm2
	movaps	192(%rsp), %xmm3
	movups	%xmm0, 40(%rdi)
	movups	%xmm1, 56(%rdi)
	movups	%xmm2, 72(%rdi)
	movups	%xmm3, 88(%rdi)
	movq	8(%rsp), %rsi
	movq	%rsi, 104(%rdi)
	movq	(%rsp), %rsi
	movq	%rsi, 112(%rdi)
	movq	-8(%rsp), %rsi
	movq	%rsi, 120(%rdi)
	movq	-16(%rsp), %rsi
	movq	%rsi, 128(%rdi)
	movaps	112(%rsp), %xmm0
	movaps	128(%rsp), %xmm1
	movups	%xmm0, 136(%rdi)
	movups	%xmm1, 152(%rdi)
	movaps	16(%rsp), %xmm0
	movaps	32(%rsp), %xmm1
	movaps	48(%rsp), %xmm2
	movaps	64(%rsp), %xmm3
	movups	%xmm0, 168(%rdi)
	movups	%xmm1, 184(%rdi)
	movups	%xmm2, 200(%rdi)
	movups	%xmm3, 216(%rdi)
	movaps	80(%rsp), %xmm0
	movups	%xmm0, 232(%rdi)
	movaps	96(%rsp), %xmm0
	movups	%xmm0, 248(%rdi)
	movq	-48(%rsp), %rsi
	movq	%rsi, 264(%rdi)
	movq	-56(%rsp), %rsi
	movq	%rsi, 272(%rdi)
	movq	-72(%rsp), %rax
	movq	%rax, 280(%rdi)
	movq	-80(%rsp), %rax
	movq	%rax, 288(%rdi)
	movq	-88(%rsp), %rax
	movq	%rax, 296(%rdi)
	movq	%r14, 304(%rdi)
	movq	-128(%rsp), %rax
	movq	%rax, 312(%rdi)
	movq	%rdx, 320(%rdi)
	movq	-96(%rsp), %rsi
	movq	%rsi, 328(%rdi)
	movq	-112(%rsp), %rsi
	movq	%rsi, 336(%rdi)
	movq	224(%rsp), %rax
	movq	%rax, 344(%rdi)
	movq	%r12, 352(%rdi)
	movq	-24(%rsp), %rax
	movq	%rax, 360(%rdi)
	movq	216(%rsp), %rax
	movq	%rax, 368(%rdi)
	movb	%cl, 376(%rdi)
	movl	$0, 380(%rdi)
	movl	$0, 377(%rdi)
	jmp	.LBB4_81
.LBB4_61:
	movq	376(%rsp), %rsi
	cmpq	$3, %rsi
	ja	.LBB4_80
	cmpq	$0, 400(%rsp,%rsi,8)
	je	.LBB4_80
	cmpb	$63, -32(%rsp)
	ja	.LBB4_80
	movq	-56(%rsp), %rsi
	cmpq	$0, 432(%rsp,%rsi,8)
	je	.LBB4_80
	cmpl	$3, %r14d
	ja	.LBB4_80
	cmpq	$0, 464(%rsp,%r14,8)
	je	.LBB4_80
	cmpq	$2, %rbp
	je	.LBB4_79
	movq	384(%rsp), %rsi
	cmpq	$3, %rsi
	ja	.LBB4_80
	cmpq	$0, 400(%rsp,%rsi,8)
	sete	%sil
	cmpb	$64, -40(%rsp)
	setae	%r9b
	orb	%sil, %r9b
	jne	.LBB4_80
	movq	-72(%rsp), %rax
	cmpq	$0, 432(%rsp,%rax,8)
	je	.LBB4_80
	cmpl	$3, -128(%rsp)
	ja	.LBB4_80
	movq	-128(%rsp), %rax
	cmpq	$0, 464(%rsp,%rax,8)
	je	.LBB4_80
	cmpq	$3, %rbp
	je	.LBB4_79
	movq	392(%rsp), %rsi
	cmpq	$3, %rsi
	ja	.LBB4_80
	cmpq	$0, 400(%rsp,%rsi,8)
	setne	%sil
	cmpq	$64, -104(%rsp)
	setb	%r9b
	andb	%sil, %r9b
	cmpb	$1, %r9b
	jne	.LBB4_80
	movq	-80(%rsp), %rax
	cmpq	$0, 432(%rsp,%rax,8)
	je	.LBB4_80
	cmpl	$3, %edx
	ja	.LBB4_80
	cmpq	$0, 464(%rsp,%rdx,8)
	jne	.LBB4_79
.LBB4_80:
	movq	$1, (%rdi)
	movq	$3, 8(%rdi)
	xorps	%xmm0, %xmm0
	movups	%xmm0, 16(%rdi)
	movq	$0, 32(%rdi)
	movaps	144(%rsp), %xmm1
	movaps	160(%rsp), %xmm2
	movaps	176(%rsp), %xmm3
	movaps	192(%rsp), %xmm4
	movups	%xmm1, 40(%rdi)
	movups	%xmm2, 56(%rdi)
	movups	%xmm3, 72(%rdi)
	movups	%xmm4, 88(%rdi)
	movups	%xmm0, 120(%rdi)
	movups	%xmm0, 104(%rdi)
	movaps	112(%rsp), %xmm1
	movaps	128(%rsp), %xmm2
	movups	%xmm1, 136(%rdi)
	movups	%xmm2, 152(%rdi)
	movaps	16(%rsp), %xmm1
	movaps	32(%rsp), %xmm2
	movaps	48(%rsp), %xmm3
	movaps	64(%rsp), %xmm4
	movups	%xmm1, 168(%rdi)
	movups	%xmm2, 184(%rdi)
	movups	%xmm3, 200(%rdi)
	movups	%xmm4, 216(%rdi)
	movaps	80(%rsp), %xmm1
	movups	%xmm1, 232(%rdi)
	movaps	96(%rsp), %xmm1
	movups	%xmm1, 248(%rdi)
	movups	%xmm0, 264(%rdi)
	movups	%xmm0, 280(%rdi)
	movups	%xmm0, 296(%rdi)
	movups	%xmm0, 312(%rdi)
	movups	%xmm0, 328(%rdi)
	movups	%xmm0, 344(%rdi)
	movups	%xmm0, 360(%rdi)
	movb	$0, 376(%rdi)
	movl	-64(%rsp), %eax
	movl	-61(%rsp), %ecx
	movl	%eax, 377(%rdi)
	movl	%ecx, 380(%rdi)
.LBB4_81:
	addq	$616, %rsp
	popq	%rbx
	popq	%r12
	popq	%r13
	popq	%r14
	popq	%r15
	popq	%rbp
	retq
.LBB4_28:
	cmpq	$8, %rdx
	jb	.LBB4_29
	movzbl	7(%rsi), %r9d
	jmp	.LBB4_31
.LBB4_29:
	xorl	%r9d, %r9d
.LBB4_31:
	cmpq	-16(%rsp), %r9
	movl	-120(%rsp), %ecx
	movq	-112(%rsp), %r13
	jne	.LBB4_27
	movl	$4, %r9d
	cmpb	$4, %al
	je	.LBB4_38
	movq	%rbp, %rbx
	negq	%rbx
	movq	$-4, %r9
	movl	$9, %eax
	movl	-120(%rsp), %ecx
	movq	-112(%rsp), %r13
	jmp	.LBB4_34
.LBB4_27:
	testb	%bl, %bl
	jne	.LBB4_39
.LBB4_1:
	movq	$1, (%rdi)
	movq	$3, 8(%rdi)
.LBB4_2:
	addq	$16, %rdi
	movl	$368, %edx
	xorl	%esi, %esi
	addq	$616, %rsp
	popq	%rbx
	popq	%r12
	popq	%r13
	popq	%r14
	popq	%r15
	popq	%rbp
	jmp	memset@PLT
.LBB4_36:
	decq	%r9
	addq	$2, %rax
	cmpq	%r9, %rbx
	je	.LBB4_39
.LBB4_34:
	cmpq	%rdx, %rax
	jae	.LBB4_36
	cmpb	$0, (%rsi,%rax)
	je	.LBB4_36
	negq	%r9
.LBB4_38:
	cmpq	%rbp, %r9
	movl	-120(%rsp), %ecx
	movq	-112(%rsp), %r13
	jae	.LBB4_39
	jmp	.LBB4_1
.Lfunc_end4:
	.size	"jpeg_header_state::scan", .Lfunc_end4-"jpeg_header_state::scan"

	.section	".text.jpeg_scan_plan::Plan::of","ax",@progbits
	.p2align	4
	.type	"jpeg_scan_plan::Plan::of",@function
"jpeg_scan_plan::Plan::of":
	pushq	%rbp
	pushq	%r15
	pushq	%r14
	pushq	%r13
	pushq	%r12
	pushq	%rbx
	subq	$120, %rsp
	movq	320(%rdx), %rcx
	cmpq	%rcx, %rsi
	jb	.LBB5_1
	movq	16(%rdx), %r10
	leaq	-1(%r10), %rax
	cmpq	$3, %rax
	ja	.LBB5_1
	movq	24(%rdx), %r11
	movq	56(%rdx), %r14
	leaq	-1(%r11), %rsi
	leaq	-1(%r14), %r8
	orq	%rsi, %r8
	cmpq	$3, %r8
	ja	.LBB5_1
	movq	120(%rdx), %r12
	movq	128(%rdx), %r13
	movq	136(%rdx), %rax
	movq	%rax, -120(%rsp)
	movq	144(%rdx), %rax
	movq	%rax, -128(%rsp)
	movq	248(%rdx), %r9
	movq	256(%rdx), %r8
	movq	264(%rdx), %rsi
	movq	272(%rdx), %rbp
	movq	280(%rdx), %rax
	movq	%rax, 40(%rsp)
	movq	288(%rdx), %rax
	movq	%rax, 48(%rsp)
	movq	296(%rdx), %rax
	movq	%rax, 56(%rsp)
	movq	304(%rdx), %rax
	movq	%rax, 64(%rsp)
	movq	312(%rdx), %rax
	movq	%rax, 112(%rsp)
	imulq	%r11, %r14
	movq	328(%rdx), %rax
	movq	%rax, 104(%rsp)
	cmpq	$1, %r10
	jne	.LBB5_6
.LBB5_12:
	cmpq	$10, %r14
	ja	.LBB5_1
	leaq	184(%rdx), %rax
	movups	(%rax), %xmm0
	movups	16(%rax), %xmm1
	movaps	%xmm1, -96(%rsp)
	movaps	%xmm0, -112(%rsp)
	cmpq	$3, %r9
	ja	.LBB5_14
	movq	-112(%rsp,%r9,8), %rax
	movq	%rax, 96(%rsp)
	jmp	.LBB5_16
.LBB5_6:
	movq	32(%rdx), %rbx
	movq	64(%rdx), %r11
	leaq	-1(%rbx), %r15
	leaq	-1(%r11), %rax
	orq	%r15, %rax
	cmpq	$3, %rax
	ja	.LBB5_1
	imulq	%rbx, %r11
	addq	%r11, %r14
	cmpq	$2, %r10
	je	.LBB5_12
	movq	40(%rdx), %rbx
	movq	72(%rdx), %r11
	leaq	-1(%rbx), %r15
	movq	%r14, %rax
	leaq	-1(%r11), %r14
	orq	%r15, %r14
	cmpq	$3, %r14
	ja	.LBB5_1
	movq	%rax, %r14
	imulq	%rbx, %r11
	addq	%r11, %r14
	cmpq	$3, %r10
	je	.LBB5_12
	movq	48(%rdx), %r11
	movq	80(%rdx), %r10
	leaq	-1(%r11), %rax
	leaq	-1(%r10), %rbx
	orq	%rax, %rbx
	cmpq	$3, %rbx
	ja	.LBB5_1
	imulq	%r11, %r10
	addq	%r10, %r14
	jmp	.LBB5_12
.LBB5_1:
	xorps	%xmm0, %xmm0
	movups	%xmm0, 128(%rdi)
	movups	%xmm0, 112(%rdi)
	movups	%xmm0, 96(%rdi)
	movups	%xmm0, 80(%rdi)
	movups	%xmm0, 64(%rdi)
	movups	%xmm0, 48(%rdi)
	movups	%xmm0, 32(%rdi)
	movups	%xmm0, 16(%rdi)
	movups	%xmm0, (%rdi)
.LBB5_2:
	addq	$120, %rsp
	popq	%rbx
	popq	%r12
	popq	%r13
	popq	%r14
	popq	%r15
	popq	%rbp
	retq
.LBB5_14:
	movq	$0, 96(%rsp)
.LBB5_16:
	movq	%r12, %r11
	movq	%r13, %rbx
	movq	-120(%rsp), %r9
	cmpq	$3, %r8
	ja	.LBB5_17
	movq	-112(%rsp,%r8,8), %rax
	movq	%rax, 88(%rsp)
	cmpq	$3, %rsi
	jbe	.LBB5_21
.LBB5_20:
	movq	$0, 80(%rsp)
	leaq	216(%rdx), %rsi
	cmpq	$3, %rbp
	jbe	.LBB5_24
.LBB5_23:
	movq	$0, 72(%rsp)
	jmp	.LBB5_25
.LBB5_17:
	movq	$0, 88(%rsp)
	cmpq	$3, %rsi
	ja	.LBB5_20
.LBB5_21:
	movq	-112(%rsp,%rsi,8), %rax
	movq	%rax, 80(%rsp)
	leaq	216(%rdx), %rsi
	cmpq	$3, %rbp
	ja	.LBB5_23
.LBB5_24:
	movq	-112(%rsp,%rbp,8), %rax
	movq	%rax, 72(%rsp)
.LBB5_25:
	movq	40(%rsp), %rax
	movups	(%rsi), %xmm0
	movups	16(%rsi), %xmm1
	movaps	%xmm1, -96(%rsp)
	movaps	%xmm0, -112(%rsp)
	cmpq	$3, %rax
	ja	.LBB5_26
	movq	-112(%rsp,%rax,8), %rax
	movq	%rax, 40(%rsp)
	movq	48(%rsp), %rax
	cmpq	$3, %rax
	jbe	.LBB5_30
.LBB5_29:
	movq	$0, 48(%rsp)
	movq	56(%rsp), %rax
	cmpq	$3, %rax
	jbe	.LBB5_33
.LBB5_32:
	movq	$0, 56(%rsp)
	movq	64(%rsp), %rax
	leaq	152(%rdx), %rsi
	cmpq	$3, %rax
	jbe	.LBB5_36
.LBB5_35:
	movq	$0, 64(%rsp)
	jmp	.LBB5_37
.LBB5_26:
	movq	$0, 40(%rsp)
	movq	48(%rsp), %rax
	cmpq	$3, %rax
	ja	.LBB5_29
.LBB5_30:
	movq	-112(%rsp,%rax,8), %rax
	movq	%rax, 48(%rsp)
	movq	56(%rsp), %rax
	cmpq	$3, %rax
	ja	.LBB5_32
.LBB5_33:
	movq	-112(%rsp,%rax,8), %rax
	movq	%rax, 56(%rsp)
	movq	64(%rsp), %rax
	leaq	152(%rdx), %rsi
	cmpq	$3, %rax
	ja	.LBB5_35
.LBB5_36:
	movq	-112(%rsp,%rax,8), %rax
	movq	%rax, 64(%rsp)
.LBB5_37:
	movups	(%rsi), %xmm0
	movups	16(%rsi), %xmm1
	movaps	%xmm1, -96(%rsp)
	movaps	%xmm0, -112(%rsp)
	cmpq	$3, %r11
	ja	.LBB5_38
	movq	-112(%rsp,%r11,8), %r13
	movq	-128(%rsp), %rsi
	cmpq	$3, %rbx
	jbe	.LBB5_42
.LBB5_41:
	xorl	%ebp, %ebp
	movq	%r14, %r10
	cmpq	$3, %r9
	jbe	.LBB5_45
.LBB5_44:
	xorl	%r14d, %r14d
	cmpq	$3, %rsi
	jbe	.LBB5_48
.LBB5_47:
	xorl	%r15d, %r15d
	jmp	.LBB5_49
.LBB5_38:
	xorl	%r13d, %r13d
	movq	-128(%rsp), %rsi
	cmpq	$3, %rbx
	ja	.LBB5_41
.LBB5_42:
	movq	-112(%rsp,%rbx,8), %rbp
	movq	%r14, %r10
	cmpq	$3, %r9
	ja	.LBB5_44
.LBB5_45:
	movq	-112(%rsp,%r9,8), %r14
	cmpq	$3, %rsi
	ja	.LBB5_47
.LBB5_48:
	movq	-112(%rsp,%rsi,8), %r15
.LBB5_49:
	movq	112(%rdx), %rax
	movq	%rax, (%rsp)
	movups	96(%rdx), %xmm0
	movaps	%xmm0, -16(%rsp)
	movups	80(%rdx), %xmm0
	movaps	%xmm0, -32(%rsp)
	movups	64(%rdx), %xmm0
	movaps	%xmm0, -48(%rsp)
	movups	(%rdx), %xmm0
	movups	16(%rdx), %xmm1
	movups	32(%rdx), %xmm2
	movups	48(%rdx), %xmm3
	movaps	%xmm3, -64(%rsp)
	movaps	%xmm2, -80(%rsp)
	movaps	%xmm1, -96(%rsp)
	movaps	%xmm0, -112(%rsp)
	movq	%r11, 8(%rsp)
	movq	%rbx, 16(%rsp)
	movq	%r9, 24(%rsp)
	movq	%rsi, 32(%rsp)
	movq	-96(%rsp), %rsi
	testq	%rsi, %rsi
	je	.LBB5_50
	movl	$9, %r8d
	xorl	%r12d, %r12d
	.p2align	4
.LBB5_52:
	movq	-56(%rsp,%r12,8), %rax
	imulq	-88(%rsp,%r12,8), %rax
	subq	%rax, %r8
	jb	.LBB5_55
	incq	%r12
	cmpq	%r12, %rsi
	jne	.LBB5_52
	movq	%rsi, %r12
.LBB5_55:
	shll	$2, %r12d
	andl	$12, %r12d
	jmp	.LBB5_56
.LBB5_50:
	xorl	%r12d, %r12d
.LBB5_56:
	movq	-128(%rsp), %rsi
	movq	112(%rdx), %rax
	movq	%rax, (%rsp)
	movups	96(%rdx), %xmm0
	movaps	%xmm0, -16(%rsp)
	movups	80(%rdx), %xmm0
	movaps	%xmm0, -32(%rsp)
	movups	64(%rdx), %xmm0
	movaps	%xmm0, -48(%rsp)
	movups	(%rdx), %xmm0
	movups	16(%rdx), %xmm1
	movups	32(%rdx), %xmm2
	movups	48(%rdx), %xmm3
	movaps	%xmm3, -64(%rsp)
	movaps	%xmm2, -80(%rsp)
	movaps	%xmm1, -96(%rsp)
	movaps	%xmm0, -112(%rsp)
	movq	%r11, 8(%rsp)
	movq	%rbx, 16(%rsp)
	movq	%r9, 24(%rsp)
	movq	%rsi, 32(%rsp)
	movq	-96(%rsp), %r8
	testq	%r8, %r8
	je	.LBB5_62
	movl	$8, %r9d
	xorl	%esi, %esi
	.p2align	4
.LBB5_58:
	movq	-56(%rsp,%rsi,8), %rax
	imulq	-88(%rsp,%rsi,8), %rax
	subq	%rax, %r9
	jb	.LBB5_61
	incq	%rsi
	cmpq	%rsi, %r8
	jne	.LBB5_58
	movq	%r8, %rsi
.LBB5_61:
	andl	$3, %esi
	orq	%rsi, %r12
	movq	-120(%rsp), %r9
	movq	-128(%rsp), %rsi
.LBB5_62:
	shll	$2, %r12d
	movq	112(%rdx), %rax
	movq	%rax, (%rsp)
	movups	96(%rdx), %xmm0
	movaps	%xmm0, -16(%rsp)
	movups	80(%rdx), %xmm0
	movaps	%xmm0, -32(%rsp)
	movups	64(%rdx), %xmm0
	movaps	%xmm0, -48(%rsp)
	movups	(%rdx), %xmm0
	movups	16(%rdx), %xmm1
	movups	32(%rdx), %xmm2
	movups	48(%rdx), %xmm3
	movaps	%xmm3, -64(%rsp)
	movaps	%xmm2, -80(%rsp)
	movaps	%xmm1, -96(%rsp)
	movaps	%xmm0, -112(%rsp)
	movq	%r11, 8(%rsp)
	movq	%rbx, 16(%rsp)
	movq	%r9, 24(%rsp)
	movq	%rsi, 32(%rsp)
	movq	-96(%rsp), %r8
	testq	%r8, %r8
	je	.LBB5_68
	movl	$7, %r9d
	xorl	%esi, %esi
	.p2align	4
.LBB5_64:
	movq	-56(%rsp,%rsi,8), %rax
	imulq	-88(%rsp,%rsi,8), %rax
	subq	%rax, %r9
	jb	.LBB5_67
	incq	%rsi
	cmpq	%rsi, %r8
	jne	.LBB5_64
	movq	%r8, %rsi
.LBB5_67:
	andl	$3, %esi
	orq	%rsi, %r12
	movq	-120(%rsp), %r9
	movq	-128(%rsp), %rsi
.LBB5_68:
	shll	$2, %r12d
	movq	112(%rdx), %rax
	movq	%rax, (%rsp)
	movups	96(%rdx), %xmm0
	movaps	%xmm0, -16(%rsp)
	movups	80(%rdx), %xmm0
	movaps	%xmm0, -32(%rsp)
	movups	64(%rdx), %xmm0
	movaps	%xmm0, -48(%rsp)
	movups	(%rdx), %xmm0
	movups	16(%rdx), %xmm1
	movups	32(%rdx), %xmm2
	movups	48(%rdx), %xmm3
	movaps	%xmm3, -64(%rsp)
	movaps	%xmm2, -80(%rsp)
	movaps	%xmm1, -96(%rsp)
	movaps	%xmm0, -112(%rsp)
	movq	%r11, 8(%rsp)
	movq	%rbx, 16(%rsp)
	movq	%r9, 24(%rsp)
	movq	%rsi, 32(%rsp)
	movq	-96(%rsp), %r8
	testq	%r8, %r8
	je	.LBB5_74
	movl	$6, %r9d
	xorl	%esi, %esi
	.p2align	4
.LBB5_70:
	movq	-56(%rsp,%rsi,8), %rax
	imulq	-88(%rsp,%rsi,8), %rax
	subq	%rax, %r9
	jb	.LBB5_73
	incq	%rsi
	cmpq	%rsi, %r8
	jne	.LBB5_70
	movq	%r8, %rsi
.LBB5_73:
	andl	$3, %esi
	orq	%rsi, %r12
	movq	-120(%rsp), %r9
	movq	-128(%rsp), %rsi
.LBB5_74:
	shll	$2, %r12d
	movq	112(%rdx), %rax
	movq	%rax, (%rsp)
	movups	96(%rdx), %xmm0
	movaps	%xmm0, -16(%rsp)
	movups	80(%rdx), %xmm0
	movaps	%xmm0, -32(%rsp)
	movups	64(%rdx), %xmm0
	movaps	%xmm0, -48(%rsp)
	movups	(%rdx), %xmm0
	movups	16(%rdx), %xmm1
	movups	32(%rdx), %xmm2
	movups	48(%rdx), %xmm3
	movaps	%xmm3, -64(%rsp)
	movaps	%xmm2, -80(%rsp)
	movaps	%xmm1, -96(%rsp)
	movaps	%xmm0, -112(%rsp)
	movq	%r11, 8(%rsp)
	movq	%rbx, 16(%rsp)
	movq	%r9, 24(%rsp)
	movq	%rsi, 32(%rsp)
	movq	-96(%rsp), %r8
	testq	%r8, %r8
	je	.LBB5_80
	movl	$5, %r9d
	xorl	%esi, %esi
	.p2align	4
.LBB5_76:
	movq	-56(%rsp,%rsi,8), %rax
	imulq	-88(%rsp,%rsi,8), %rax
	subq	%rax, %r9
	jb	.LBB5_79
	incq	%rsi
	cmpq	%rsi, %r8
	jne	.LBB5_76
	movq	%r8, %rsi
.LBB5_79:
	andl	$3, %esi
	orq	%rsi, %r12
	movq	-120(%rsp), %r9
	movq	-128(%rsp), %rsi
.LBB5_80:
	shll	$2, %r12d
	movq	112(%rdx), %rax
	movq	%rax, (%rsp)
	movups	96(%rdx), %xmm0
	movaps	%xmm0, -16(%rsp)
	movups	80(%rdx), %xmm0
	movaps	%xmm0, -32(%rsp)
	movups	64(%rdx), %xmm0
	movaps	%xmm0, -48(%rsp)
	movups	(%rdx), %xmm0
	movups	16(%rdx), %xmm1
	movups	32(%rdx), %xmm2
	movups	48(%rdx), %xmm3
	movaps	%xmm3, -64(%rsp)
	movaps	%xmm2, -80(%rsp)
	movaps	%xmm1, -96(%rsp)
	movaps	%xmm0, -112(%rsp)
	movq	%r11, 8(%rsp)
	movq	%rbx, 16(%rsp)
	movq	%r9, 24(%rsp)
	movq	%rsi, 32(%rsp)
	movq	-96(%rsp), %r8
	testq	%r8, %r8
	je	.LBB5_86
	movl	$4, %r9d
	xorl	%esi, %esi
	.p2align	4
.LBB5_82:
	movq	-56(%rsp,%rsi,8), %rax
	imulq	-88(%rsp,%rsi,8), %rax
	subq	%rax, %r9
	jb	.LBB5_85
	incq	%rsi
	cmpq	%rsi, %r8
	jne	.LBB5_82
	movq	%r8, %rsi
.LBB5_85:
	andl	$3, %esi
	orq	%rsi, %r12
	movq	-120(%rsp), %r9
	movq	-128(%rsp), %rsi
.LBB5_86:
	shll	$2, %r12d
	movq	112(%rdx), %rax
	movq	%rax, (%rsp)
	movups	96(%rdx), %xmm0
	movaps	%xmm0, -16(%rsp)
	movups	80(%rdx), %xmm0
	movaps	%xmm0, -32(%rsp)
	movups	64(%rdx), %xmm0
	movaps	%xmm0, -48(%rsp)
	movups	(%rdx), %xmm0
	movups	16(%rdx), %xmm1
	movups	32(%rdx), %xmm2
	movups	48(%rdx), %xmm3
	movaps	%xmm3, -64(%rsp)
	movaps	%xmm2, -80(%rsp)
	movaps	%xmm1, -96(%rsp)
	movaps	%xmm0, -112(%rsp)
	movq	%r11, 8(%rsp)
	movq	%rbx, 16(%rsp)
	movq	%r9, 24(%rsp)
	movq	%rsi, 32(%rsp)
	movq	-96(%rsp), %r8
	testq	%r8, %r8
	je	.LBB5_92
	movl	$3, %r9d
	xorl	%esi, %esi
	.p2align	4
.LBB5_88:
	movq	-56(%rsp,%rsi,8), %rax
	imulq	-88(%rsp,%rsi,8), %rax
	subq	%rax, %r9
	jb	.LBB5_91
	incq	%rsi
	cmpq	%rsi, %r8
	jne	.LBB5_88
	movq	%r8, %rsi
.LBB5_91:
	andl	$3, %esi
	orq	%rsi, %r12
	movq	-120(%rsp), %r9
	movq	-128(%rsp), %rsi
.LBB5_92:
	shll	$2, %r12d
	movq	112(%rdx), %rax
	movq	%rax, (%rsp)
	movups	96(%rdx), %xmm0
	movaps	%xmm0, -16(%rsp)
	movups	80(%rdx), %xmm0
	movaps	%xmm0, -32(%rsp)
	movups	64(%rdx), %xmm0
	movaps	%xmm0, -48(%rsp)
	movups	(%rdx), %xmm0
	movups	16(%rdx), %xmm1
	movups	32(%rdx), %xmm2
	movups	48(%rdx), %xmm3
	movaps	%xmm3, -64(%rsp)
	movaps	%xmm2, -80(%rsp)
	movaps	%xmm1, -96(%rsp)
	movaps	%xmm0, -112(%rsp)
	movq	%r11, 8(%rsp)
	movq	%rbx, 16(%rsp)
	movq	%r9, 24(%rsp)
	movq	%rsi, 32(%rsp)
	movq	-96(%rsp), %r8
	testq	%r8, %r8
	je	.LBB5_98
	movl	$2, %r9d
	xorl	%esi, %esi
	.p2align	4
.LBB5_94:
	movq	-56(%rsp,%rsi,8), %rax
	imulq	-88(%rsp,%rsi,8), %rax
	subq	%rax, %r9
	jb	.LBB5_97
	incq	%rsi
	cmpq	%rsi, %r8
	jne	.LBB5_94
	movq	%r8, %rsi
.LBB5_97:
	andl	$3, %esi
	orq	%rsi, %r12
	movq	-120(%rsp), %r9
	movq	-128(%rsp), %rsi
.LBB5_98:
	shll	$2, %r12d
	movq	112(%rdx), %rax
	movq	%rax, (%rsp)
	movups	96(%rdx), %xmm0
	movaps	%xmm0, -16(%rsp)
	movups	80(%rdx), %xmm0
	movaps	%xmm0, -32(%rsp)
	movups	64(%rdx), %xmm0
	movaps	%xmm0, -48(%rsp)
	movups	(%rdx), %xmm0
	movups	16(%rdx), %xmm1
	movups	32(%rdx), %xmm2
	movups	48(%rdx), %xmm3
	movaps	%xmm3, -64(%rsp)
	movaps	%xmm2, -80(%rsp)
	movaps	%xmm1, -96(%rsp)
	movaps	%xmm0, -112(%rsp)
	movq	%r11, 8(%rsp)
	movq	%rbx, 16(%rsp)
	movq	%r9, 24(%rsp)
	movq	%rsi, 32(%rsp)
	movq	-96(%rsp), %r8
	testq	%r8, %r8
	je	.LBB5_104
	movl	$1, %r9d
	xorl	%esi, %esi
	.p2align	4
.LBB5_100:
	movq	-56(%rsp,%rsi,8), %rax
	imulq	-88(%rsp,%rsi,8), %rax
	subq	%rax, %r9
	jb	.LBB5_103
	incq	%rsi
	cmpq	%rsi, %r8
	jne	.LBB5_100
	movq	%r8, %rsi
.LBB5_103:
	andl	$3, %esi
	orq	%rsi, %r12
	movq	-120(%rsp), %r9
	movq	-128(%rsp), %rsi
.LBB5_104:
	movq	112(%rdx), %rax
	movq	%rax, (%rsp)
	movups	96(%rdx), %xmm0
	movaps	%xmm0, -16(%rsp)
	movups	80(%rdx), %xmm0
	movaps	%xmm0, -32(%rsp)
	movups	64(%rdx), %xmm0
	movaps	%xmm0, -48(%rsp)
	movups	(%rdx), %xmm0
	movups	16(%rdx), %xmm1
	movups	32(%rdx), %xmm2
	movups	48(%rdx), %xmm3
	movaps	%xmm3, -64(%rsp)
	movaps	%xmm2, -80(%rsp)
	movaps	%xmm1, -96(%rsp)
	movaps	%xmm0, -112(%rsp)
	movq	%r11, 8(%rsp)
	movq	%rbx, 16(%rsp)
	movq	%r9, 24(%rsp)
	movq	%rsi, 32(%rsp)
	movq	-96(%rsp), %rsi
	xorl	%edx, %edx
	testq	%rsi, %rsi
	je	.LBB5_109
	.p2align	4
.LBB5_105:
	movq	-56(%rsp,%rdx,8), %rax
	imulq	-88(%rsp,%rdx,8), %rax
	testq	%rax, %rax
	jne	.LBB5_108
	incq	%rdx
	cmpq	%rdx, %rsi
	jne	.LBB5_105
	movq	%rsi, %rdx
.LBB5_108:
	andl	$3, %edx
.LBB5_109:
	leaq	(%rdx,%r12,4), %rax
	movq	$1, (%rdi)
	movq	%rcx, 8(%rdi)
	movq	96(%rsp), %rcx
	movq	%rcx, 16(%rdi)
	movq	88(%rsp), %rcx
	movq	%rcx, 24(%rdi)
	movq	80(%rsp), %rcx
	movq	%rcx, 32(%rdi)
	movq	72(%rsp), %rcx
	movq	%rcx, 40(%rdi)
	movq	40(%rsp), %rcx
	movq	%rcx, 48(%rdi)
	movq	48(%rsp), %rcx
	movq	%rcx, 56(%rdi)
	movq	56(%rsp), %rcx
	movq	%rcx, 64(%rdi)
	movq	64(%rsp), %rcx
	movq	%rcx, 72(%rdi)
	movq	%r13, 80(%rdi)
	movq	%rbp, 88(%rdi)
	movq	%r14, 96(%rdi)
	movq	%r15, 104(%rdi)
	movq	%rax, 112(%rdi)
	movq	%r10, 120(%rdi)
	movq	112(%rsp), %rax
	movq	%rax, 128(%rdi)
	movq	104(%rsp), %rax
	movq	%rax, 136(%rdi)
	jmp	.LBB5_2
.Lfunc_end5:
	.size	"jpeg_scan_plan::Plan::of", .Lfunc_end5-"jpeg_scan_plan::Plan::of"

	.section	.rodata.cst16,"aM",@progbits,16
	.p2align	4, 0x0
.LCPI6_0:
	.byte	0
	.byte	1
	.byte	8
	.byte	16
	.byte	9
	.byte	2
	.byte	3
	.byte	10
	.byte	17
	.byte	24
	.byte	32
	.byte	25
	.byte	18
	.byte	11
	.byte	4
	.byte	5
.LCPI6_1:
	.byte	12
	.byte	19
	.byte	26
	.byte	33
	.byte	40
	.byte	48
	.byte	41
	.byte	34
	.byte	27
	.byte	20
	.byte	13
	.byte	6
	.byte	7
	.byte	14
	.byte	21
	.byte	28
.LCPI6_2:
	.byte	35
	.byte	42
	.byte	49
	.byte	56
	.byte	57
	.byte	50
	.byte	43
	.byte	36
	.byte	29
	.byte	22
	.byte	15
	.byte	23
	.byte	30
	.byte	37
	.byte	44
	.byte	51
.LCPI6_3:
	.byte	58
	.byte	59
	.byte	52
	.byte	45
	.byte	38
	.byte	31
	.byte	39
	.byte	46
	.byte	53
	.byte	60
	.byte	61
	.byte	54
	.byte	47
	.byte	55
	.byte	62
	.byte	63
	.section	".text.jpeg_scan::run::<#c44e4da361dd472c>","ax",@progbits
	.p2align	4
	.type	"jpeg_scan::run::<#c44e4da361dd472c>",@function
"jpeg_scan::run::<#c44e4da361dd472c>":
	pushq	%rbp
	pushq	%r15
	pushq	%r14
	pushq	%r13
	pushq	%r12
	pushq	%rbx
	subq	$1464, %rsp
	movq	(%rsi), %rax
	movq	%rax, 24(%rsp)
	movq	8(%rsi), %rax
	movq	%rax, 40(%rsp)
	movq	16(%rsi), %r13
	movq	128(%rsi), %r10
	movq	136(%rsi), %r15
	movq	144(%rsi), %rbp
	movq	120(%rsi), %rax
	movq	%rax, 592(%rsp)
	movups	104(%rsi), %xmm0
	movaps	%xmm0, 576(%rsp)
	movups	88(%rsi), %xmm0
	movaps	%xmm0, 560(%rsp)
	movups	72(%rsi), %xmm0
	movaps	%xmm0, 544(%rsp)
	movups	56(%rsi), %xmm0
	movaps	%xmm0, 528(%rsp)
	movups	40(%rsi), %xmm0
	movaps	%xmm0, 512(%rsp)
	movdqu	24(%rsi), %xmm0
	movdqa	%xmm0, 496(%rsp)
	testq	%r10, %r10
	je	.LBB6_134
	movl	%edx, %ebx
	movq	%rbp, %rax
	orq	%r10, %rax
	shrq	$32, %rax
	je	.LBB6_3
	movq	%rbp, %rax
	xorl	%edx, %edx
	divq	%r10
	jmp	.LBB6_4
.LBB6_3:
	movl	%ebp, %eax
	xorl	%edx, %edx
	divl	%r10d
.LBB6_4:
	xorl	%esi, %esi
	testq	%rdx, %rdx
	setne	%sil
	addq	%rax, %rsi
	movq	%rsi, 488(%rsp)
	je	.LBB6_108
	movq	%rcx, 440(%rsp)
	leaq	624(%rsp), %rdx
	leaq	-1(%r15), %rax
	movq	%rax, 464(%rsp)
	shrq	$6, %r8
	movq	%r8, 448(%rsp)
	movq	40(%rsp), %rcx
	movq	%rcx, %rax
	negq	%rax
	movq	%rax, 456(%rsp)
	pxor	%xmm0, %xmm0
	movq	$0, 96(%rsp)
	movq	$0, 72(%rsp)
	xorl	%r11d, %r11d
	xorl	%eax, %eax
	xorl	%r14d, %r14d
	movq	%r13, %r12
	movq	%r10, 64(%rsp)
	movq	%rbp, 32(%rsp)
.LBB6_6:
	shll	$8, %eax
	movzwl	%ax, %esi
	movzbl	%r14b, %r9d
	leaq	(%rsi,%r9), %r14
	movq	24(%rsp), %rax
	movq	%rax, 600(%rsp)
	movq	%rcx, 608(%rsp)
	movq	%r13, 616(%rsp)
	movq	592(%rsp), %rax
	movq	%rax, 96(%rdx)
	movaps	576(%rsp), %xmm1
	movups	%xmm1, 80(%rdx)
	movaps	560(%rsp), %xmm1
	movups	%xmm1, 64(%rdx)
	movdqa	496(%rsp), %xmm1
	movaps	512(%rsp), %xmm2
	movaps	528(%rsp), %xmm3
	movaps	544(%rsp), %xmm4
	movups	%xmm4, 48(%rdx)
	movups	%xmm3, 32(%rdx)
	movups	%xmm2, 16(%rdx)
	movdqu	%xmm1, (%rdx)
	movq	%r10, 728(%rsp)
	movq	%r15, 736(%rsp)
	movq	%rbp, 744(%rsp)
	cmpq	%r11, %rbp
	jbe	.LBB6_106
	testq	%r15, %r15
	sete	%dl
	movq	72(%rsp), %rax
	testq	%rax, %rax
	sete	%cl
	orb	%dl, %cl
	movl	%ebx, 52(%rsp)
	movq	%r15, 432(%rsp)
	jne	.LBB6_10
	movq	%rax, %rcx
	orq	%r15, %rcx
	shrq	$32, %rcx
	movq	40(%rsp), %rbp
	je	.LBB6_11
	xorl	%edx, %edx
	divq	%r15
	movq	96(%rsp), %rdx
	jmp	.LBB6_12
	.p2align	4
.LBB6_10:
	movq	%r12, %r15
	movq	32(%rsp), %rcx
	movq	24(%rsp), %rbx
	movq	40(%rsp), %rbp
	jmp	.LBB6_22
.LBB6_11:
	xorl	%edx, %edx
	divl	%r15d
.LBB6_12:
	movq	32(%rsp), %rcx
	movq	%r12, %r15
	testq	%rdx, %rdx
	movq	24(%rsp), %rbx
	jne	.LBB6_22
	shrl	$8, %esi
	decl	%eax
	andl	$7, %eax
	orq	$208, %rax
	movq	72(%rsp), %rcx
	cmpq	%rcx, 464(%rsp)
	movl	$208, %r10d
	cmovbq	%rax, %r10
	movq	$-1, %rax
	movl	%esi, %ecx
	shlq	%cl, %rax
	orq	%r9, %rax
	movb	$3, %dl
	cmpq	$-1, %rax
	jne	.LBB6_123
	cmpq	%rbp, %r12
	jae	.LBB6_123
	movq	456(%rsp), %rax
	leaq	(%rax,%r12), %rcx
	xorl	%eax, %eax
	movq	%rbx, %rsi
	.p2align	4
.LBB6_16:
	movzbl	(%rsi,%r12), %r8d
	cmpq	$255, %r8
	jne	.LBB6_18
	decq	%rax
	incq	%rsi
	cmpq	%rax, %rcx
	jne	.LBB6_16
	jmp	.LBB6_123
.LBB6_18:
	testq	%rax, %rax
	je	.LBB6_123
	movq	%r12, %r15
	subq	%rax, %r15
	cmpq	%r15, %rbp
	jbe	.LBB6_123
	cmpl	%r8d, %r10d
	jne	.LBB6_123
	incq	%r15
	pxor	%xmm0, %xmm0
	xorl	%r14d, %r14d
	movq	64(%rsp), %r10
	movq	32(%rsp), %rcx
	.p2align	4
.LBB6_22:
	movq	%r12, 472(%rsp)
	movq	%rdi, 120(%rsp)
	movdqa	%xmm0, 128(%rsp)
	xorl	%eax, %eax
	subq	%r11, %rcx
	cmovbq	%rax, %rcx
	cmpq	%r10, %rcx
	cmovaeq	%r10, %rcx
	movq	%rcx, 416(%rsp)
	movq	720(%rsp), %rdi
	movq	%r11, 480(%rsp)
	movq	%r13, 56(%rsp)
.LBB6_23:
	movq	%rax, 80(%rsp)
	movq	%r11, 88(%rsp)
	movq	%r15, (%rsp)
	movq	%rdi, 424(%rsp)
	andl	$3, %edi
	movq	%rdi, 112(%rsp)
	movl	%edi, %ecx
	movslq	128(%rsp,%rcx,4), %rax
	movq	%rax, 8(%rsp)
	movq	624(%rsp,%rcx,8), %rax
	movq	656(%rsp,%rcx,8), %rcx
	movq	%rcx, 16(%rsp)
	pxor	%xmm0, %xmm0
	movdqa	%xmm0, 816(%rsp)
	movdqa	%xmm0, 832(%rsp)
	movdqa	%xmm0, 848(%rsp)
	movdqa	%xmm0, 864(%rsp)
	movdqa	%xmm0, 880(%rsp)
	movdqa	%xmm0, 896(%rsp)
	movdqa	%xmm0, 912(%rsp)
	movdqa	%xmm0, 928(%rsp)
	movl	%r14d, %r12d
	shrl	$8, %r12d
	movl	$1, %esi
	xorl	%r9d, %r9d
.LBB6_24:
	movb	$2, %dl
	movq	%r13, %rcx
	subq	%rax, %rcx
	jbe	.LBB6_122
	leaq	(%rbx,%rax), %r11
	addq	$16, %rax
	cmpq	$16, %rcx
	movl	$16, %r13d
	cmovbq	%rcx, %r13
	xorl	%r10d, %r10d
	xorl	%r8d, %r8d
	.p2align	4
.LBB6_26:
	testb	%r12b, %r12b
	je	.LBB6_28
	decb	%r12b
	movzbl	%r14b, %ecx
	movzbl	%r12b, %edi
	btl	%edi, %ecx
	setb	%cl
	jmp	.LBB6_35
	.p2align	4
.LBB6_28:
	cmpq	%r15, %rbp
	jbe	.LBB6_114
	movzbl	(%rbx,%r15), %r14d
	leaq	1(%r15), %rcx
	cmpb	$-1, %r14b
	je	.LBB6_31
	movq	%rcx, %r15
	jmp	.LBB6_34
.LBB6_31:
	cmpq	%rcx, %rbp
	jbe	.LBB6_114
	cmpb	$0, (%rbx,%rcx)
	jne	.LBB6_121
	addq	$2, %r15
.LBB6_34:
	movl	%r14d, %ecx
	shrb	$7, %cl
	movb	$7, %r12b
.LBB6_35:
	movzbl	(%r11,%r8), %edi
	movzbl	%cl, %ecx
	leaq	(%rcx,%r10,2), %rcx
	movq	%rcx, %r10
	subq	%rdi, %r10
	jb	.LBB6_37
	addq	%rdi, %rax
	incq	%r8
	cmpq	%r8, %r13
	jne	.LBB6_26
	jmp	.LBB6_122
	.p2align	4
.LBB6_37:
	addq	%rax, %rcx
	movq	56(%rsp), %r13
	cmpq	%r13, %rcx
	jae	.LBB6_47
	movzbl	(%rbx,%rcx), %ecx
	testq	%r9, %r9
	movq	64(%rsp), %r10
	leaq	624(%rsp), %rdx
	je	.LBB6_49
	cmpq	$240, %rcx
	je	.LBB6_52
	testl	%ecx, %ecx
	je	.LBB6_74
	movl	%ecx, %eax
	andl	$15, %eax
	leal	-1(%rax), %edi
	movb	$3, %dl
	cmpl	$9, %edi
	ja	.LBB6_122
	shrl	$4, %ecx
	leaq	(%rcx,%r9), %rdi
	movq	%rcx, %r8
	cmpq	$64, %rdi
	jae	.LBB6_122
	addq	%r9, %r8
	movzbl	%r12b, %r12d
	cmpl	%r12d, %eax
	jbe	.LBB6_51
.LBB6_44:
	movq	$-1, %rdx
	movl	%r12d, %ecx
	shlq	%cl, %rdx
	cmpq	%r15, %rbp
	jbe	.LBB6_114
	movzbl	(%rbx,%r15), %r13d
	leaq	1(%r15), %rcx
	cmpq	$255, %r13
	je	.LBB6_54
	movq	%r8, %rsi
	jmp	.LBB6_57
.LBB6_47:
	testq	%r9, %r9
	movq	64(%rsp), %r10
	jne	.LBB6_73
	movzbl	%r12b, %r12d
	xorl	%esi, %esi
	xorl	%eax, %eax
	xorl	%r9d, %r9d
	xorl	%edx, %edx
	jmp	.LBB6_68
.LBB6_49:
	cmpb	$11, %cl
	ja	.LBB6_131
	xorl	%r8d, %r8d
	movq	%rcx, %rax
	addq	%r9, %r8
	movzbl	%r12b, %r12d
	cmpl	%r12d, %eax
	ja	.LBB6_44
.LBB6_51:
	movq	%r8, %rsi
	xorl	%r9d, %r9d
	movq	%rax, %rdx
	jmp	.LBB6_68
.LBB6_52:
	cmpq	$49, %r9
	jae	.LBB6_131
	addq	$16, %r9
	movq	16(%rsp), %rax
	cmpq	$64, %r9
	jb	.LBB6_24
	jmp	.LBB6_74
.LBB6_54:
	cmpq	%rcx, %rbp
	jbe	.LBB6_114
	cmpb	$0, (%rbx,%rcx)
	jne	.LBB6_121
	movq	%r8, %rsi
	addq	$2, %r15
	movq	%r15, %rcx
.LBB6_57:
	notl	%edx
	movzbl	%r14b, %edi
	andl	%edx, %edi
	movl	%r13d, %edx
	shrl	$7, %edx
	leal	(%rdx,%rdi,2), %r9d
	notq	%r12
	movq	%r12, %rdx
	addq	%rax, %rdx
	movl	$7, %r12d
	cmpq	$8, %rdx
	jae	.LBB6_61
	movq	%rcx, %r15
	movl	%r13d, %r14d
	jmp	.LBB6_67
.LBB6_59:
	movq	%rdi, %rcx
.LBB6_60:
	movl	%r14d, %edi
	shrl	$7, %edi
	shlq	$8, %r9
	addb	%r13b, %r13b
	movzbl	%r13b, %r8d
	orq	%r8, %r9
	orq	%rdi, %r9
	addq	$-8, %rdx
	movl	%r14d, %r13d
	cmpq	$7, %rdx
	jbe	.LBB6_66
.LBB6_61:
	cmpq	%rcx, %rbp
	jbe	.LBB6_114
	movzbl	(%rbx,%rcx), %r14d
	leaq	1(%rcx), %rdi
	cmpq	$255, %r14
	jne	.LBB6_59
	cmpq	%rdi, %rbp
	jbe	.LBB6_114
	cmpb	$0, (%rbx,%rdi)
	jne	.LBB6_121
	addq	$2, %rcx
	jmp	.LBB6_60
.LBB6_66:
	movq	%rcx, %r15
.LBB6_67:
	movq	56(%rsp), %r13
	.p2align	4
.LBB6_68:
	subl	%edx, %r12d
	movzbl	%r14b, %edi
	movl	%r12d, %ecx
	shrq	%cl, %rdi
	movq	$-1, %r8
	movl	%edx, %ecx
	shlq	%cl, %r8
	shlq	%cl, %r9
	notl	%r8d
	andl	%r8d, %edi
	addq	%rdi, %r9
	movl	$1, %edx
	movl	%eax, %ecx
	shlq	%cl, %rdx
	leaq	(%r9,%r9), %rcx
	movl	%r9d, %eax
	subl	%edx, %eax
	incl	%eax
	cmpq	%rdx, %rcx
	cmovael	%r9d, %eax
	testq	%rsi, %rsi
	movq	%rsi, %r9
	je	.LBB6_70
	leaq	624(%rsp), %rdx
	jmp	.LBB6_72
.LBB6_70:
	movswq	%ax, %rax
	movq	8(%rsp), %rsi
	leaq	(%rax,%rsi), %rcx
	addq	$2048, %rcx
	cmpq	$4095, %rcx
	leaq	624(%rsp), %rdx
	ja	.LBB6_131
	addq	%rsi, %rax
.LBB6_72:
	movw	%ax, 816(%rsp,%r9,2)
	incq	%r9
	movq	%r9, %rsi
	movq	16(%rsp), %rax
	cmpq	$64, %r9
	jb	.LBB6_24
	jmp	.LBB6_74
.LBB6_73:
	leaq	624(%rsp), %rdx
.LBB6_74:
	movq	448(%rsp), %rbx
	movq	88(%rsp), %r11
	cmpq	%r11, %rbx
	setbe	%al
	movswl	816(%rsp), %r8d
	movl	52(%rsp), %ecx
	xorb	$1, %cl
	orb	%al, %cl
	movq	80(%rsp), %rcx
	jne	.LBB6_104
	movq	112(%rsp), %rax
	movq	688(%rsp,%rax,8), %rcx
	movq	%r11, %rdi
	shlq	$6, %rdi
	cmpq	%rcx, %r13
	movq	%rcx, %rax
	cmovbq	%r13, %rax
	movq	24(%rsp), %rdx
	addq	%rax, %rdx
	movq	%r13, %r9
	subq	%rax, %r9
	cmpq	$64, %r9
	movl	$64, %eax
	cmovaeq	%rax, %r9
	movq	%r9, (%rsp)
	movq	440(%rsp), %rax
	addq	%rax, %rdi
	cmpq	$1, %rsi
	jne	.LBB6_78
	xorl	%eax, %eax
	cmpq	%rcx, %r13
	jbe	.LBB6_90
	movzbl	(%rdx), %ecx
	jmp	.LBB6_91
.LBB6_78:
	movq	%rsi, %rax
	movq	%rdx, %r13
	movq	%rdi, 400(%rsp)
	movl	%r8d, 108(%rsp)
	pxor	%xmm0, %xmm0
	movdqa	%xmm0, 384(%rsp)
	movdqa	%xmm0, 368(%rsp)
	movdqa	%xmm0, 352(%rsp)
	movdqa	%xmm0, 336(%rsp)
	movdqa	%xmm0, 320(%rsp)
	movdqa	%xmm0, 304(%rsp)
	movdqa	%xmm0, 288(%rsp)
	movdqa	%xmm0, 272(%rsp)
	movdqa	%xmm0, 256(%rsp)
	movdqa	%xmm0, 240(%rsp)
	movdqa	%xmm0, 224(%rsp)
	movdqa	%xmm0, 208(%rsp)
	movdqa	%xmm0, 192(%rsp)
	movdqa	%xmm0, 176(%rsp)
	movdqa	%xmm0, 160(%rsp)
	movdqa	%xmm0, 144(%rsp)
	leaq	952(%rsp), %rdi
	movl	$512, %edx
	xorl	%esi, %esi
	movq	%rax, %rbx
	callq	memset@PLT
	movaps	.LCPI6_0(%rip), %xmm0
	movaps	%xmm0, 752(%rsp)
	movaps	.LCPI6_1(%rip), %xmm0
	movaps	%xmm0, 768(%rsp)
	movaps	.LCPI6_2(%rip), %xmm0
	movaps	%xmm0, 784(%rsp)
	movdqa	.LCPI6_3(%rip), %xmm0
	movdqa	%xmm0, 800(%rsp)
	cmpq	$64, %rbx
	movl	$64, %r11d
	cmovbq	%rbx, %r11
	testq	%rbx, %rbx
	movq	(%rsp), %r10
	je	.LBB6_94
	movl	%r11d, %ecx
	andl	$126, %ecx
	xorl	%edx, %edx
	movq	%r13, %r9
	jmp	.LBB6_82
.LBB6_80:
	movzbl	1(%r9,%rax), %esi
.LBB6_81:
	movzbl	753(%rsp,%rax), %edi
	movswq	818(%rsp,%rax,2), %r8
	imulq	%rsi, %r8
	movq	%r8, 952(%rsp,%rdi,8)
	incq	%rdx
	cmpq	%rcx, %rdx
	je	.LBB6_87
.LBB6_82:
	movq	%rdx, %rax
	cmpq	%r10, %rdx
	jae	.LBB6_84
	movzbl	(%r9,%rax), %edx
	jmp	.LBB6_85
.LBB6_84:
	xorl	%edx, %edx
.LBB6_85:
	movzbl	752(%rsp,%rax), %esi
	movswq	816(%rsp,%rax,2), %rdi
	imulq	%rdx, %rdi
	movq	%rdi, 952(%rsp,%rsi,8)
	leaq	1(%rax), %rdx
	cmpq	%r10, %rdx
	jb	.LBB6_80
	xorl	%esi, %esi
	jmp	.LBB6_81
.LBB6_87:
	testb	$1, %r11b
	je	.LBB6_94
	leaq	2(%rax), %rcx
	cmpq	%r10, %rcx
	jae	.LBB6_92
	movzbl	(%r13,%rcx), %ecx
	jmp	.LBB6_93
.LBB6_90:
	xorl	%ecx, %ecx
.LBB6_91:
	movslq	%r8d, %rdx
	imulq	%rcx, %rdx
	imulq	$134212225, %rdx, %rcx
	movabsq	$137975824384, %rdx
	addq	%rdx, %rcx
	shrq	$30, %rcx
	testl	%ecx, %ecx
	cmovgl	%ecx, %eax
	cmpl	$255, %eax
	movl	$255, %ecx
	cmovll	%eax, %ecx
	movd	%ecx, %xmm0
	punpcklbw	%xmm0, %xmm0
	pshuflw	$0, %xmm0, %xmm0
	pshufd	$68, %xmm0, %xmm0
	movdqu	%xmm0, 48(%rdi)
	movdqu	%xmm0, 32(%rdi)
	movdqu	%xmm0, 16(%rdi)
	movdqu	%xmm0, (%rdi)
	leaq	624(%rsp), %rdx
	movq	80(%rsp), %rcx
	jmp	.LBB6_104
.LBB6_92:
	xorl	%ecx, %ecx
.LBB6_93:
	movzbl	754(%rsp,%rax), %edx
	movswq	820(%rsp,%rax,2), %rax
	imulq	%rcx, %rax
	movq	%rax, 952(%rsp,%rdx,8)
.LBB6_94:
	xorl	%eax, %eax
	jmp	.LBB6_97
.LBB6_95:
	leaq	(%r9,%rsi), %rdx
	imulq	$11585, %rdx, %rdx
	subq	%r9, %rsi
	imulq	$11585, %rsi, %rsi
	imulq	$15137, %rcx, %r9
	imulq	$6270, %rdi, %r13
	addq	%r9, %r13
	imulq	$6270, %rcx, %rcx
	imulq	$-15137, %rdi, %rdi
	addq	%rcx, %rdi
	leaq	(%rdx,%r13), %rcx
	movq	%rcx, (%rsp)
	leaq	(%rdi,%rsi), %rcx
	movq	%rcx, 16(%rsp)
	subq	%rdi, %rsi
	subq	%r13, %rdx
	imulq	$16069, %r11, %rcx
	imulq	$13623, %r10, %r13
	addq	%rcx, %r13
	imulq	$9102, %rbx, %rcx
	imulq	$3196, %r8, %rdi
	addq	%rcx, %rdi
	addq	%r13, %rdi
	imulq	$13623, %r11, %rcx
	imulq	$-3196, %r10, %r13
	addq	%rcx, %r13
	imulq	$-16069, %rbx, %r9
	imulq	$-9102, %r8, %rcx
	addq	%r9, %rcx
	addq	%r13, %rcx
	imulq	$9102, %r11, %r9
	imulq	$-16069, %r10, %r13
	addq	%r9, %r13
	imulq	$3196, %rbx, %r9
	movq	%rbx, 8(%rsp)
	movq	%rbp, %rbx
	movq	%r11, %rbp
	imulq	$13623, %r8, %r11
	addq	%r9, %r11
	addq	%r13, %r11
	imulq	$3196, %rbp, %r9
	movq	%rbx, %rbp
	imulq	$-9102, %r10, %r10
	addq	%r9, %r10
	imulq	$13623, 8(%rsp), %r9
	imulq	$-16069, %r8, %r13
	addq	%r9, %r13
	addq	%r10, %r13
	movq	(%rsp), %rbx
	leaq	(%rdi,%rbx), %r8
	movq	16(%rsp), %r9
	leaq	(%rcx,%r9), %r10
	movq	%r10, 8(%rsp)
	leaq	(%r11,%rsi), %r10
	movq	%r10, 408(%rsp)
	leaq	(%rdx,%r13), %r10
	subq	%r13, %rdx
	subq	%r11, %rsi
	movq	%r9, %r11
	movq	408(%rsp), %r9
	subq	%rcx, %r11
	movq	%rbx, %rcx
	movq	%r11, %rbx
	subq	%rdi, %rcx
	movq	8(%rsp), %rdi
.LBB6_96:
	movq	%r8, 952(%rsp,%rax)
	movq	%rdi, 960(%rsp,%rax)
	movq	%r9, 968(%rsp,%rax)
	movq	%r10, 976(%rsp,%rax)
	movq	%rdx, 984(%rsp,%rax)
	movq	%rsi, 992(%rsp,%rax)
	movq	%rbx, 1000(%rsp,%rax)
	movq	%rcx, 1008(%rsp,%rax)
	addq	$64, %rax
	cmpq	$512, %rax
	je	.LBB6_99
.LBB6_97:
	movq	952(%rsp,%rax), %rsi
	movq	960(%rsp,%rax), %r11
	movq	968(%rsp,%rax), %rcx
	movq	976(%rsp,%rax), %r10
	movq	984(%rsp,%rax), %r9
	movq	992(%rsp,%rax), %rbx
	movq	1000(%rsp,%rax), %rdi
	movq	1008(%rsp,%rax), %r8
	movq	%rcx, %rdx
	orq	%r11, %rdx
	movq	%r10, %r13
	orq	%r9, %r13
	orq	%rdx, %r13
	movq	%rbx, %rdx
	orq	%rdi, %rdx
	orq	%r13, %rdx
	orq	%r8, %rdx
	jne	.LBB6_95
	imulq	$11585, %rsi, %r8
	movq	%r8, %rdi
	movq	%r8, %r9
	movq	%r8, %r10
	movq	%r8, %rdx
	movq	%r8, %rsi
	movq	%r8, %rbx
	movq	%r8, %rcx
	jmp	.LBB6_96
.LBB6_99:
	pxor	%xmm0, %xmm0
	movdqa	%xmm0, 384(%rsp)
	movdqa	%xmm0, 368(%rsp)
	movdqa	%xmm0, 352(%rsp)
	movdqa	%xmm0, 336(%rsp)
	movdqa	%xmm0, 320(%rsp)
	movdqa	%xmm0, 304(%rsp)
	movdqa	%xmm0, 288(%rsp)
	movdqa	%xmm0, 272(%rsp)
	movdqa	%xmm0, 256(%rsp)
	movdqa	%xmm0, 240(%rsp)
	movdqa	%xmm0, 224(%rsp)
	movdqa	%xmm0, 208(%rsp)
	movdqa	%xmm0, 192(%rsp)
	movdqa	%xmm0, 176(%rsp)
	movdqa	%xmm0, 160(%rsp)
	movdqa	%xmm0, 144(%rsp)
	movl	$56, %eax
	jmp	.LBB6_101
.LBB6_102:
	imulq	$11585, %rcx, %rcx
	imulq	$15137, %rdi, %rdx
	imulq	$6270, %rdi, %rsi
	movq	%rsi, (%rsp)
	movq	%rcx, %rdi
	subq	%rsi, %rdi
	movq	%rcx, %r10
	subq	%rdx, %r10
	imulq	$16069, %rbx, %r8
	imulq	$13623, %r13, %rsi
	addq	%r8, %rsi
	movq	%rsi, 16(%rsp)
	imulq	$13623, %rbx, %r8
	imulq	$-3196, %r13, %r9
	addq	%r8, %r9
	imulq	$9102, %rbx, %r11
	imulq	$-16069, %r13, %r8
	addq	%r11, %r8
	imulq	$3196, %rbx, %rsi
	imulq	$-9102, %r13, %r11
	addq	%rsi, %r11
	movabsq	$137975824384, %r13
	addq	%r13, %rcx
	addq	%rcx, %rdx
	movq	16(%rsp), %rbx
	leaq	(%rbx,%rdx), %rsi
	shrq	$30, %rsi
	movl	%esi, -80(%rsp,%rax,4)
	addq	(%rsp), %rcx
	leaq	(%r9,%rcx), %rsi
	shrq	$30, %rsi
	movl	%esi, -48(%rsp,%rax,4)
	addq	%r13, %rdi
	leaq	(%rdi,%r8), %rsi
	shrq	$30, %rsi
	movl	%esi, -16(%rsp,%rax,4)
	addq	%r13, %r10
	leaq	(%r10,%r11), %rsi
	shrq	$30, %rsi
	movl	%esi, 16(%rsp,%rax,4)
	subq	%r11, %r10
	shrq	$30, %r10
	movl	%r10d, 48(%rsp,%rax,4)
	subq	%r8, %rdi
	shrq	$30, %rdi
	movl	%edi, 80(%rsp,%rax,4)
	subq	%r9, %rcx
	shrq	$30, %rcx
	movl	%ecx, 112(%rsp,%rax,4)
	subq	%rbx, %rdx
	shrq	$30, %rdx
	movl	%edx, 144(%rsp,%rax,4)
	incq	%rax
	cmpq	$64, %rax
	je	.LBB6_103
.LBB6_101:
	movq	504(%rsp,%rax,8), %rcx
	movq	568(%rsp,%rax,8), %rbx
	movq	632(%rsp,%rax,8), %rdi
	movq	696(%rsp,%rax,8), %r13
	movq	760(%rsp,%rax,8), %rsi
	movq	824(%rsp,%rax,8), %r11
	movq	888(%rsp,%rax,8), %r8
	movq	952(%rsp,%rax,8), %rdx
	movq	%r11, %r9
	orq	%rsi, %r9
	orq	%r8, %r9
	orq	%rdx, %r9
	je	.LBB6_102
	leaq	(%rsi,%rcx), %r9
	imulq	$11585, %r9, %r10
	subq	%rsi, %rcx
	imulq	$11585, %rcx, %rsi
	imulq	$15137, %rdi, %r9
	imulq	$6270, %r8, %rcx
	addq	%r9, %rcx
	imulq	$6270, %rdi, %rdi
	imulq	$-15137, %r8, %r8
	addq	%rdi, %r8
	leaq	(%rcx,%r10), %rdi
	movq	%rdi, (%rsp)
	leaq	(%r8,%rsi), %r9
	subq	%r8, %rsi
	subq	%rcx, %r10
	imulq	$16069, %rbx, %rcx
	imulq	$13623, %r13, %r8
	addq	%rcx, %r8
	imulq	$9102, %r11, %rcx
	imulq	$3196, %rdx, %rdi
	addq	%rcx, %rdi
	addq	%r8, %rdi
	movq	%rdi, 16(%rsp)
	imulq	$13623, %rbx, %rcx
	imulq	$-3196, %r13, %r8
	addq	%rcx, %r8
	imulq	$-16069, %r11, %rdi
	imulq	$-9102, %rdx, %rcx
	addq	%rdi, %rcx
	addq	%r8, %rcx
	imulq	$9102, %rbx, %r8
	imulq	$-16069, %r13, %rdi
	addq	%r8, %rdi
	imulq	$3196, %r11, %r8
	movq	%r8, 8(%rsp)
	imulq	$13623, %rdx, %r8
	addq	8(%rsp), %r8
	addq	%rdi, %r8
	imulq	$3196, %rbx, %rdi
	imulq	$-9102, %r13, %r13
	addq	%rdi, %r13
	imulq	$13623, %r11, %rdi
	imulq	$-16069, %rdx, %rdx
	addq	%rdi, %rdx
	addq	%r13, %rdx
	movabsq	$137975824384, %r11
	movq	(%rsp), %rbx
	leaq	(%rbx,%r11), %rdi
	movq	16(%rsp), %r13
	addq	%r13, %rdi
	shrq	$30, %rdi
	movl	%edi, -80(%rsp,%rax,4)
	leaq	(%r9,%r11), %rdi
	addq	%rcx, %rdi
	shrq	$30, %rdi
	movl	%edi, -48(%rsp,%rax,4)
	leaq	(%rsi,%r11), %rdi
	addq	%r8, %rdi
	shrq	$30, %rdi
	movl	%edi, -16(%rsp,%rax,4)
	leaq	(%r10,%r11), %rdi
	addq	%rdx, %rdi
	shrq	$30, %rdi
	movl	%edi, 16(%rsp,%rax,4)
	subq	%rdx, %r10
	addq	%r11, %r10
	shrq	$30, %r10
	movl	%r10d, 48(%rsp,%rax,4)
	subq	%r8, %rsi
	addq	%r11, %rsi
	shrq	$30, %rsi
	movl	%esi, 80(%rsp,%rax,4)
	subq	%rcx, %r9
	addq	%r11, %r9
	shrq	$30, %r9
	movl	%r9d, 112(%rsp,%rax,4)
	subq	%r13, %rbx
	addq	%r11, %rbx
	shrq	$30, %rbx
	movl	%ebx, 144(%rsp,%rax,4)
	incq	%rax
	cmpq	$64, %rax
	jne	.LBB6_101
.LBB6_103:
	movdqa	144(%rsp), %xmm0
	movdqa	160(%rsp), %xmm1
	packssdw	%xmm0, %xmm0
	packuswb	%xmm0, %xmm0
	packssdw	%xmm1, %xmm1
	packuswb	%xmm1, %xmm1
	movq	400(%rsp), %rax
	movd	%xmm0, (%rax)
	movd	%xmm1, 4(%rax)
	movdqa	176(%rsp), %xmm0
	movdqa	192(%rsp), %xmm1
	packssdw	%xmm0, %xmm0
	packuswb	%xmm0, %xmm0
	packssdw	%xmm1, %xmm1
	packuswb	%xmm1, %xmm1
	movd	%xmm0, 8(%rax)
	movd	%xmm1, 12(%rax)
	movdqa	208(%rsp), %xmm0
	movdqa	224(%rsp), %xmm1
	packssdw	%xmm0, %xmm0
	packuswb	%xmm0, %xmm0
	packssdw	%xmm1, %xmm1
	packuswb	%xmm1, %xmm1
	movd	%xmm0, 16(%rax)
	movd	%xmm1, 20(%rax)
	movdqa	240(%rsp), %xmm0
	movdqa	256(%rsp), %xmm1
	packssdw	%xmm0, %xmm0
	packuswb	%xmm0, %xmm0
	packssdw	%xmm1, %xmm1
	packuswb	%xmm1, %xmm1
	movd	%xmm0, 24(%rax)
	movd	%xmm1, 28(%rax)
	movdqa	272(%rsp), %xmm0
	movdqa	288(%rsp), %xmm1
	packssdw	%xmm0, %xmm0
	packuswb	%xmm0, %xmm0
	packssdw	%xmm1, %xmm1
	packuswb	%xmm1, %xmm1
	movd	%xmm0, 32(%rax)
	movd	%xmm1, 36(%rax)
	movdqa	304(%rsp), %xmm0
	movdqa	320(%rsp), %xmm1
	packssdw	%xmm0, %xmm0
	packuswb	%xmm0, %xmm0
	packssdw	%xmm1, %xmm1
	packuswb	%xmm1, %xmm1
	movd	%xmm0, 40(%rax)
	movd	%xmm1, 44(%rax)
	movdqa	336(%rsp), %xmm0
	movdqa	352(%rsp), %xmm1
	packssdw	%xmm0, %xmm0
	packuswb	%xmm0, %xmm0
	packssdw	%xmm1, %xmm1
	packuswb	%xmm1, %xmm1
	movd	%xmm0, 48(%rax)
	movd	%xmm1, 52(%rax)
	movdqa	368(%rsp), %xmm0
	movdqa	384(%rsp), %xmm1
	packssdw	%xmm0, %xmm0
	packuswb	%xmm0, %xmm0
	packssdw	%xmm1, %xmm1
	packuswb	%xmm1, %xmm1
	movd	%xmm0, 56(%rax)
	movd	%xmm1, 60(%rax)
	movq	56(%rsp), %r13
	movq	64(%rsp), %r10
	leaq	624(%rsp), %rdx
	movq	88(%rsp), %r11
	movq	80(%rsp), %rcx
	movl	108(%rsp), %r8d
.LBB6_104:
	movzbl	%r12b, %eax
	shll	$8, %eax
	movzbl	%r14b, %r14d
	orq	%rax, %r14
	movq	112(%rsp), %rax
	movl	%r8d, 128(%rsp,%rax,4)
	incq	%r11
	movq	424(%rsp), %rdi
	shrq	$2, %rdi
	incq	%rcx
	cmpq	416(%rsp), %rcx
	movq	24(%rsp), %rbx
	movq	%rcx, %rax
	jne	.LBB6_23
	movdqa	128(%rsp), %xmm0
	movq	%r15, %r12
	movq	120(%rsp), %rdi
	movl	52(%rsp), %ebx
	movq	432(%rsp), %r15
	.p2align	4
.LBB6_106:
	movl	%r14d, %eax
	shrl	$8, %eax
	movq	96(%rsp), %rcx
	incq	%rcx
	xorl	%esi, %esi
	cmpq	%r15, %rcx
	cmovneq	%rcx, %rsi
	movq	%rsi, 96(%rsp)
	movq	72(%rsp), %rsi
	incq	%rsi
	movq	%rsi, 72(%rsp)
	cmpq	488(%rsp), %rsi
	movq	32(%rsp), %rbp
	movq	40(%rsp), %rcx
	jb	.LBB6_6
	movzbl	%r14b, %edx
	movq	%r12, %r13
	jmp	.LBB6_109
.LBB6_108:
	xorl	%edx, %edx
	xorl	%eax, %eax
	xorl	%r11d, %r11d
.LBB6_109:
	movq	$-1, %rsi
	movl	%eax, %ecx
	shlq	%cl, %rsi
	orq	%rdx, %rsi
	cmpq	$-1, %rsi
	movq	24(%rsp), %rsi
	movq	40(%rsp), %r8
	jne	.LBB6_119
	cmpq	%r8, %r13
	jae	.LBB6_119
	xorl	%ecx, %ecx
	movq	%r13, %rax
	.p2align	4
.LBB6_112:
	movzbl	(%rsi,%rax), %edx
	cmpb	$-1, %dl
	jne	.LBB6_115
	incq	%rax
	decq	%rcx
	cmpq	%rax, %r8
	jne	.LBB6_112
	jmp	.LBB6_119
.LBB6_114:
	xorl	%edx, %edx
	jmp	.LBB6_122
.LBB6_115:
	testq	%rcx, %rcx
	je	.LBB6_119
	cmpq	%rax, %r8
	jbe	.LBB6_119
	cmpb	$-39, %dl
	sete	%cl
	decq	%r8
	cmpq	%rax, %r8
	sete	%al
	testb	%al, %cl
	je	.LBB6_119
	movb	$0, (%rdi)
	pxor	%xmm0, %xmm0
	movdqu	%xmm0, 8(%rdi)
	movq	$0, 24(%rdi)
	jmp	.LBB6_124
.LBB6_119:
	movb	$1, (%rdi)
	movb	$3, 8(%rdi)
	movb	$0, 15(%rdi)
	movw	$0, 13(%rdi)
	movl	$0, 9(%rdi)
	movq	%r11, 16(%rdi)
	movq	%r13, 24(%rdi)
	jmp	.LBB6_124
.LBB6_121:
	movb	$1, %dl
.LBB6_122:
	movq	88(%rsp), %r11
	cmpq	480(%rsp), %r11
	movq	472(%rsp), %r12
	cmovneq	(%rsp), %r12
	movq	120(%rsp), %rdi
.LBB6_123:
	movb	$1, (%rdi)
	movb	%dl, 8(%rdi)
	movb	$0, 15(%rdi)
	movw	$0, 13(%rdi)
	movl	$0, 9(%rdi)
	movq	%r11, 16(%rdi)
	movq	%r12, 24(%rdi)
.LBB6_124:
	addq	$1464, %rsp
	popq	%rbx
	popq	%r12
	popq	%r13
	popq	%r14
	popq	%r15
	popq	%rbp
	retq
.LBB6_131:
	movb	$3, %dl
	jmp	.LBB6_122
.LBB6_134:
	ud2
.Lfunc_end6:
	.size	"jpeg_scan::run::<#c44e4da361dd472c>", .Lfunc_end6-"jpeg_scan::run::<#c44e4da361dd472c>"

	.section	".text.core::fmt::type_impls::writers::RefMutWrite::write_str::<#18b16ec19ae6b37c>","ax",@progbits
	.p2align	4
	.type	"core::fmt::type_impls::writers::RefMutWrite::write_str::<#18b16ec19ae6b37c>",@function
"core::fmt::type_impls::writers::RefMutWrite::write_str::<#18b16ec19ae6b37c>":
	movb	$1, %al
	cmpb	$0, 72(%rdi)
	jne	.LBB7_104
	pushq	%r15
	pushq	%r14
	pushq	%rbx
	subq	$32, %rsp
	movq	64(%rdi), %r14
	cmpq	$64, %r14
	ja	.LBB7_103
	movl	$64, %ecx
	subq	%r14, %rcx
	cmpq	%rcx, %rdx
	jbe	.LBB7_66
	cmpq	$62, %r14
	jb	.LBB7_69
	xorps	%xmm0, %xmm0
	movaps	%xmm0, (%rsp)
	movq	$0, 16(%rsp)
	movq	%rsp, %rax
	movq	%rdi, %rbx
	movq	%rax, %rdi
	movq	%rbx, %rsi
	movq	%r14, %rdx
	callq	"core::str::utf8::from_utf8"
	movb	$1, %al
	movq	%rbx, %rdi
	xorl	%ebx, %ebx
	cmpb	$0, (%rsp)
	leaq	.Lstatic.2(%rip), %rcx
	cmoveq	8(%rsp), %rcx
	cmoveq	16(%rsp), %rbx
	cmpq	$62, %rbx
	jb	.LBB7_76
	movl	$61, %ebx
	cmpb	$-65, 61(%rcx)
	jg	.LBB7_76
	movl	$60, %ebx
	cmpb	$-65, 60(%rcx)
	jg	.LBB7_76
	movl	$59, %ebx
	cmpb	$-65, 59(%rcx)
	jg	.LBB7_76
	movl	$58, %ebx
	cmpb	$-65, 58(%rcx)
	jg	.LBB7_76
	movl	$57, %ebx
	cmpb	$-65, 57(%rcx)
	jg	.LBB7_76
	movl	$56, %ebx
	cmpb	$-65, 56(%rcx)
	jg	.LBB7_76
	movl	$55, %ebx
	cmpb	$-65, 55(%rcx)
	jg	.LBB7_76
	movl	$54, %ebx
	cmpb	$-65, 54(%rcx)
	jg	.LBB7_76
	movl	$53, %ebx
	cmpb	$-65, 53(%rcx)
	jg	.LBB7_76
	movl	$52, %ebx
	cmpb	$-65, 52(%rcx)
	jg	.LBB7_76
	movl	$51, %ebx
	cmpb	$-65, 51(%rcx)
	jg	.LBB7_76
	movl	$50, %ebx
	cmpb	$-65, 50(%rcx)
	jg	.LBB7_76
	movl	$49, %ebx
	cmpb	$-65, 49(%rcx)
	jg	.LBB7_76
	movl	$48, %ebx
	cmpb	$-65, 48(%rcx)
	jg	.LBB7_76
	movl	$47, %ebx
	cmpb	$-65, 47(%rcx)
	jg	.LBB7_76
	movl	$46, %ebx
	cmpb	$-65, 46(%rcx)
	jg	.LBB7_76
	movl	$45, %ebx
	cmpb	$-65, 45(%rcx)
	jg	.LBB7_76
	movl	$44, %ebx
	cmpb	$-65, 44(%rcx)
	jg	.LBB7_76
	movl	$43, %ebx
	cmpb	$-65, 43(%rcx)
	jg	.LBB7_76
	movl	$42, %ebx
	cmpb	$-65, 42(%rcx)
	jg	.LBB7_76
	movl	$41, %ebx
	cmpb	$-65, 41(%rcx)
	jg	.LBB7_76
	movl	$40, %ebx
	cmpb	$-65, 40(%rcx)
	jg	.LBB7_76
	movl	$39, %ebx
	cmpb	$-65, 39(%rcx)
	jg	.LBB7_76
	movl	$38, %ebx
	cmpb	$-65, 38(%rcx)
	jg	.LBB7_76
	movl	$37, %ebx
	cmpb	$-65, 37(%rcx)
	jg	.LBB7_76
	movl	$36, %ebx
	cmpb	$-65, 36(%rcx)
	jg	.LBB7_76
	movl	$35, %ebx
	cmpb	$-65, 35(%rcx)
	jg	.LBB7_76
	movl	$34, %ebx
	cmpb	$-65, 34(%rcx)
	jg	.LBB7_76
	movl	$33, %ebx
	cmpb	$-65, 33(%rcx)
	jg	.LBB7_76
	movl	$32, %ebx
	cmpb	$-65, 32(%rcx)
	jg	.LBB7_76
	movl	$31, %ebx
	cmpb	$-65, 31(%rcx)
	jg	.LBB7_76
	movl	$30, %ebx
	cmpb	$-65, 30(%rcx)
	jg	.LBB7_76
	movl	$29, %ebx
	cmpb	$-65, 29(%rcx)
	jg	.LBB7_76
	movl	$28, %ebx
	cmpb	$-65, 28(%rcx)
	jg	.LBB7_76
	movl	$27, %ebx
	cmpb	$-65, 27(%rcx)
	jg	.LBB7_76
	movl	$26, %ebx
	cmpb	$-65, 26(%rcx)
	jg	.LBB7_76
	movl	$25, %ebx
	cmpb	$-65, 25(%rcx)
	jg	.LBB7_76
	movl	$24, %ebx
	cmpb	$-65, 24(%rcx)
	jg	.LBB7_76
	movl	$23, %ebx
	cmpb	$-65, 23(%rcx)
	jg	.LBB7_76
	movl	$22, %ebx
	cmpb	$-65, 22(%rcx)
	jg	.LBB7_76
	movl	$21, %ebx
	cmpb	$-65, 21(%rcx)
	jg	.LBB7_76
	movl	$20, %ebx
	cmpb	$-65, 20(%rcx)
	jg	.LBB7_76
	movl	$19, %ebx
	cmpb	$-65, 19(%rcx)
	jg	.LBB7_76
	movl	$18, %ebx
	cmpb	$-65, 18(%rcx)
	jg	.LBB7_76
	movl	$17, %ebx
	cmpb	$-65, 17(%rcx)
	jg	.LBB7_76
	movl	$16, %ebx
	cmpb	$-65, 16(%rcx)
	jg	.LBB7_76
	movl	$15, %ebx
	cmpb	$-65, 15(%rcx)
	jg	.LBB7_76
	movl	$14, %ebx
	cmpb	$-65, 14(%rcx)
	jg	.LBB7_76
	movl	$13, %ebx
	cmpb	$-65, 13(%rcx)
	jg	.LBB7_76
	movl	$12, %ebx
	cmpb	$-65, 12(%rcx)
	jg	.LBB7_76
	movl	$11, %ebx
	cmpb	$-65, 11(%rcx)
	jg	.LBB7_76
	movl	$10, %ebx
	cmpb	$-65, 10(%rcx)
	jg	.LBB7_76
	movl	$9, %ebx
	cmpb	$-65, 9(%rcx)
	jg	.LBB7_76
	movl	$8, %ebx
	cmpb	$-65, 8(%rcx)
	jg	.LBB7_76
	movl	$7, %ebx
	cmpb	$-65, 7(%rcx)
	jg	.LBB7_76
	movl	$6, %ebx
	cmpb	$-65, 6(%rcx)
	jg	.LBB7_76
	movl	$5, %ebx
	cmpb	$-65, 5(%rcx)
	jg	.LBB7_76
	movl	$4, %ebx
	cmpb	$-65, 4(%rcx)
	jg	.LBB7_76
	movl	$3, %ebx
	cmpb	$-65, 3(%rcx)
	jg	.LBB7_76
	movl	$2, %ebx
	cmpb	$-65, 2(%rcx)
	jg	.LBB7_76
	xorl	%ebx, %ebx
	cmpb	$-64, 1(%rcx)
	setge	%bl
	jmp	.LBB7_76
.LBB7_66:
	leaq	(%rdi,%r14), %rax
	movq	%rax, %rcx
	subq	%rsi, %rcx
	cmpq	%rdx, %rcx
	jae	.LBB7_78
	cmpq	$4, %rdx
	jb	.LBB7_68
	cmpq	$32, %rcx
	jae	.LBB7_86
.LBB7_68:
	xorl	%ecx, %ecx
.LBB7_96:
	movq	%rdx, %r9
	movq	%rcx, %r8
	andq	$3, %r9
	je	.LBB7_99
	movq	%rcx, %r8
	.p2align	4
.LBB7_98:
	movzbl	(%rsi,%r8), %r10d
	movb	%r10b, (%rax,%r8)
	incq	%r8
	decq	%r9
	jne	.LBB7_98
.LBB7_99:
	subq	%rdx, %rcx
	cmpq	$-4, %rcx
	ja	.LBB7_102
	leaq	(%r14,%rdi), %rax
	addq	$3, %rax
	.p2align	4
.LBB7_101:
	movzbl	(%rsi,%r8), %ecx
	movb	%cl, -3(%rax,%r8)
	movzbl	1(%rsi,%r8), %ecx
	movb	%cl, -2(%rax,%r8)
	movzbl	2(%rsi,%r8), %ecx
	movb	%cl, -1(%rax,%r8)
	movzbl	3(%rsi,%r8), %ecx
	movb	%cl, (%rax,%r8)
	addq	$4, %r8
	cmpq	%r8, %rdx
	jne	.LBB7_101
	jmp	.LBB7_102
.LBB7_69:
	cmpq	$61, %r14
	je	.LBB7_73
	movl	%r14d, %r8d
	xorb	$1, %r8b
	movl	$58, %edx
	subq	%r14, %rdx
	.p2align	4
.LBB7_71:
	cmpb	$-65, 3(%rsi,%rdx)
	jg	.LBB7_83
	addb	$3, %r8b
	decq	%rdx
	cmpq	$-3, %rdx
	jne	.LBB7_71
.LBB7_73:
	movq	%rdi, %r15
	leaq	(%rdi,%r14), %rcx
	xorl	%ebx, %ebx
.LBB7_74:
	movq	%rcx, %rdi
	movq	%rbx, %rdx
	callq	memmove@PLT
	movq	%r15, %rdi
	movb	$1, %al
.LBB7_75:
	addq	%r14, %rbx
.LBB7_76:
	movq	%rbx, 64(%rdi)
	leaq	(%rdi,%rbx), %rcx
	leaq	.Lstatic.12(%rip), %rdx
	movq	%rcx, %rsi
	subq	%rdx, %rsi
	addq	$-16, %rsi
	cmpq	$2, %rsi
	ja	.LBB7_79
	movw	$11822, (%rcx)
	movb	$46, 2(%rcx)
	jmp	.LBB7_80
.LBB7_78:
	movq	%rdi, %r15
	movq	%rax, %rdi
	movq	%rdx, %rbx
	callq	memmove@PLT
	movq	%rbx, %rdx
	movq	%r15, %rdi
.LBB7_102:
	addq	%rdx, %r14
	movq	%r14, 64(%rdi)
	xorl	%eax, %eax
	jmp	.LBB7_103
.LBB7_79:
	movb	$46, 2(%rcx)
	movw	$11822, (%rcx)
.LBB7_80:
	addq	$3, %rbx
	movq	%rbx, 64(%rdi)
	movb	$1, 72(%rdi)
.LBB7_103:
	addq	$32, %rsp
	popq	%rbx
	popq	%r14
	popq	%r15
.LBB7_104:
	retq
.LBB7_83:
	leaq	(%rdi,%r14), %rcx
	movq	%rcx, %r9
	subq	%rsi, %r9
	leaq	3(%rdx), %rbx
	cmpq	%rbx, %r9
	jae	.LBB7_88
	cmpq	$4, %rbx
	jb	.LBB7_85
	leaq	(%rdi,%r14), %r9
	subq	%rsi, %r9
	cmpq	$32, %r9
	jae	.LBB7_107
.LBB7_85:
	xorl	%r9d, %r9d
.LBB7_116:
	movq	%r9, %r10
	testb	$3, %bl
	je	.LBB7_119
	movzbl	%r8b, %r8d
	andl	$3, %r8d
	movq	%r9, %r10
.LBB7_118:
	movzbl	(%rsi,%r10), %r11d
	movb	%r11b, (%rcx,%r10)
	incq	%r10
	decq	%r8
	jne	.LBB7_118
.LBB7_119:
	subq	%rdx, %r9
	cmpq	$3, %r9
	jb	.LBB7_75
	leaq	(%r14,%rdi), %rcx
	addq	$3, %rcx
.LBB7_121:
	movzbl	(%rsi,%r10), %edx
	movb	%dl, -3(%rcx,%r10)
	movzbl	1(%rsi,%r10), %edx
	movb	%dl, -2(%rcx,%r10)
	movzbl	2(%rsi,%r10), %edx
	movb	%dl, -1(%rcx,%r10)
	movzbl	3(%rsi,%r10), %edx
	movb	%dl, (%rcx,%r10)
	addq	$4, %r10
	cmpq	%r10, %rbx
	jne	.LBB7_121
	jmp	.LBB7_75
.LBB7_86:
	cmpq	$32, %rdx
	jae	.LBB7_89
	xorl	%ecx, %ecx
	jmp	.LBB7_93
.LBB7_88:
	movq	%rdi, %r15
	jmp	.LBB7_74
.LBB7_89:
	movq	%rdx, %rcx
	andq	$-32, %rcx
	leaq	(%r14,%rdi), %r8
	addq	$16, %r8
	xorl	%r9d, %r9d
	.p2align	4
.LBB7_90:
	movups	(%rsi,%r9), %xmm0
	movups	16(%rsi,%r9), %xmm1
	movups	%xmm0, -16(%r8,%r9)
	movups	%xmm1, (%r8,%r9)
	addq	$32, %r9
	cmpq	%r9, %rcx
	jne	.LBB7_90
	cmpq	%rcx, %rdx
	je	.LBB7_102
	testb	$28, %dl
	je	.LBB7_96
.LBB7_93:
	movq	%rcx, %r8
	movq	%rdx, %rcx
	andq	$-4, %rcx
	.p2align	4
.LBB7_94:
	movl	(%rsi,%r8), %r9d
	movl	%r9d, (%rax,%r8)
	addq	$4, %r8
	cmpq	%r8, %rcx
	jne	.LBB7_94
	cmpq	%rcx, %rdx
	je	.LBB7_102
	jmp	.LBB7_96
.LBB7_107:
	cmpq	$32, %rbx
	jae	.LBB7_109
	xorl	%r9d, %r9d
	jmp	.LBB7_113
.LBB7_109:
	movq	%rbx, %r9
	andq	$-32, %r9
	leaq	(%r14,%rdi), %r10
	addq	$16, %r10
	xorl	%r11d, %r11d
.LBB7_110:
	movups	(%rsi,%r11), %xmm0
	movups	16(%rsi,%r11), %xmm1
	movups	%xmm0, -16(%r10,%r11)
	movups	%xmm1, (%r10,%r11)
	addq	$32, %r11
	cmpq	%r11, %r9
	jne	.LBB7_110
	cmpq	%r9, %rbx
	je	.LBB7_75
	testb	$28, %bl
	je	.LBB7_116
.LBB7_113:
	movq	%r9, %r10
	movq	%rbx, %r9
	andq	$-4, %r9
.LBB7_114:
	movl	(%rsi,%r10), %r11d
	movl	%r11d, (%rcx,%r10)
	addq	$4, %r10
	cmpq	%r10, %r9
	jne	.LBB7_114
	cmpq	%r9, %rbx
	je	.LBB7_75
	jmp	.LBB7_116
.Lfunc_end7:
	.size	"core::fmt::type_impls::writers::RefMutWrite::write_str::<#18b16ec19ae6b37c>", .Lfunc_end7-"core::fmt::type_impls::writers::RefMutWrite::write_str::<#18b16ec19ae6b37c>"

	.section	".text.core::str::utf8::from_utf8","ax",@progbits
	.p2align	4
	.type	"core::str::utf8::from_utf8",@function
"core::str::utf8::from_utf8":
	pushq	%r15
	pushq	%r14
	pushq	%r13
	pushq	%r12
	pushq	%rbx
	subq	$16, %rsp
	movq	%rdx, %r15
	movq	%rsi, %r14
	movq	%rdi, %rbx
	testq	%rdx, %rdx
	je	.LBB8_57
	movabsq	$-9187201950435737472, %r12
	leaq	-8(%r15), %r13
	xorl	%ecx, %ecx
	jmp	.LBB8_5
.LBB8_25:
	movl	$1, %edi
.LBB8_3:
	addq	%rcx, %rdi
.LBB8_4:
	movq	%rdi, %rcx
	cmpq	%r15, %rdi
	jae	.LBB8_57
.LBB8_5:
	movzbl	(%r14,%rcx), %esi
	testb	%sil, %sil
	sets	%dl
	movq	%r15, %rax
	subq	%rcx, %rax
	cmpq	$2, %rax
	setb	%dil
	orb	%dl, %dil
	jne	.LBB8_2
	cmpb	$0, 1(%r14,%rcx)
	js	.LBB8_25
	movq	%r14, (%rsp)
	movq	%r15, 8(%rsp)
	cmpq	$7, %rax
	ja	.LBB8_26
	cmpb	$0, (%r14,%rcx)
	js	.LBB8_36
	leaq	1(%rcx), %rdi
	cmpq	%r15, %rdi
	je	.LBB8_57
	cmpb	$0, (%r14,%rdi)
	js	.LBB8_4
	leaq	2(%rcx), %rdi
	cmpq	%r15, %rdi
	je	.LBB8_57
	cmpb	$0, (%r14,%rdi)
	js	.LBB8_4
	leaq	3(%rcx), %rdi
	cmpq	%r15, %rdi
	je	.LBB8_57
	cmpb	$0, (%r14,%rdi)
	js	.LBB8_4
	leaq	4(%rcx), %rdi
	cmpq	%r15, %rdi
	je	.LBB8_57
	cmpb	$0, (%r14,%rdi)
	js	.LBB8_4
	leaq	5(%rcx), %rdi
	cmpq	%r15, %rdi
	je	.LBB8_57
	cmpb	$0, (%r14,%rdi)
	js	.LBB8_4
	addq	$6, %rcx
	cmpq	%r15, %rcx
	je	.LBB8_57
	cmpb	$0, (%r14,%rcx)
	movq	%rcx, %rdi
	js	.LBB8_4
	jmp	.LBB8_57
	.p2align	4
.LBB8_2:
	movl	$1, %edi
	testb	%sil, %sil
	jns	.LBB8_3
	movl	$257, %edx
	cmpb	$-62, %sil
	jb	.LBB8_66
	cmpb	$-33, %sil
	ja	.LBB8_29
	cmpq	$2, %rax
	jb	.LBB8_58
	movzbl	1(%r14,%rcx), %r8d
	movl	$2, %edi
	cmpb	$-65, %r8b
	jle	.LBB8_3
	jmp	.LBB8_60
.LBB8_26:
	movq	(%r14,%rcx), %rax
	andq	%r12, %rax
	je	.LBB8_37
	rep		bsfq	%rax, %rax
	shrl	$3, %eax
	addq	%rcx, %rax
	addq	$8, %rcx
	movq	%rax, %rdi
	cmpq	%rcx, %rax
	jb	.LBB8_4
	movq	%r15, %rcx
	subq	%rax, %rcx
	cmpq	$32, %rcx
	jae	.LBB8_38
	jmp	.LBB8_40
.LBB8_29:
	cmpb	$-17, %sil
	ja	.LBB8_48
	cmpq	$3, %rax
	jb	.LBB8_55
	movzbl	1(%r14,%rcx), %r8d
	cmpb	$-65, %r8b
	jg	.LBB8_60
	cmpb	$-65, 2(%r14,%rcx)
	jg	.LBB8_60
	movzbl	%r8b, %edi
	movl	%esi, %r9d
	shll	$6, %r9d
	addl	%edi, %r9d
	addl	$-14464, %r9d
	cmpl	$32, %r9d
	jb	.LBB8_60
	xorl	%r8d, %r8d
	cmpl	$896, %r9d
	setae	%r10b
	movl	$3, %edi
	cmpl	$864, %r9d
	jb	.LBB8_3
	movb	%r10b, %r8b
	leaq	(%r8,%r8,2), %rdi
	testq	%rdi, %rdi
	jne	.LBB8_3
	jmp	.LBB8_54
.LBB8_36:
	movq	%rcx, %rdi
	jmp	.LBB8_4
.LBB8_37:
	addq	$8, %rcx
	movq	%rcx, %rax
	movq	%r15, %rcx
	subq	%rax, %rcx
	cmpq	$32, %rcx
	jb	.LBB8_40
	.p2align	4
.LBB8_38:
	movdqu	(%r14,%rax), %xmm0
	movdqu	16(%r14,%rax), %xmm1
	por	%xmm0, %xmm1
	pshufd	$238, %xmm1, %xmm0
	por	%xmm1, %xmm0
	movq	%xmm0, %rcx
	testq	%r12, %rcx
	jne	.LBB8_40
	addq	$32, %rax
	movq	%rsp, %rdi
	movq	%rax, %rsi
	movq	%r15, %rdx
	callq	"core::slice::words::skip_far::<#52f9edcae2f82f51>"
	movq	%r15, %rcx
	subq	%rax, %rcx
	cmpq	$31, %rcx
	ja	.LBB8_38
.LBB8_40:
	movq	%r15, %rcx
	subq	%rax, %rcx
	jmp	.LBB8_43
	.p2align	4
.LBB8_41:
	rep		bsfq	%rdx, %rdi
	shrl	$3, %edi
	addq	%rax, %rdi
	addq	$8, %rax
	addq	$-8, %rcx
	cmpq	%rax, %rdi
	jb	.LBB8_4
.LBB8_43:
	cmpq	$9, %rcx
	jb	.LBB8_46
	movq	(%r14,%rax), %rdx
	andq	%r12, %rdx
	jne	.LBB8_41
	leaq	8(%rax), %rdi
	addq	$8, %rax
	addq	$-8, %rcx
	cmpq	%rax, %rdi
	jae	.LBB8_43
	jmp	.LBB8_4
.LBB8_46:
	movq	(%r14,%r13), %rax
	andq	%r12, %rax
	je	.LBB8_57
	rep		bsfq	%rax, %rdi
	shrl	$3, %edi
	addq	%r13, %rdi
	jmp	.LBB8_4
.LBB8_48:
	cmpq	$4, %rax
	jb	.LBB8_54
	movzbl	1(%r14,%rcx), %edi
	cmpb	$-65, %dil
	jg	.LBB8_54
	cmpb	$-65, 2(%r14,%rcx)
	jg	.LBB8_54
	cmpb	$-65, 3(%r14,%rcx)
	jg	.LBB8_54
	movl	%esi, %r8d
	shll	$6, %r8d
	leal	(%r8,%rdi), %r9d
	addl	$-15488, %r9d
	xorl	%edi, %edi
	cmpl	$272, %r9d
	setb	%r8b
	cmpl	$16, %r9d
	jb	.LBB8_54
	movb	%r8b, %dil
	shll	$2, %edi
	testq	%rdi, %rdi
	jne	.LBB8_3
.LBB8_54:
	cmpb	$-12, %sil
	ja	.LBB8_66
.LBB8_55:
	cmpq	$2, %rax
	jb	.LBB8_58
	movzbl	1(%r14,%rcx), %r8d
.LBB8_60:
	cmpl	$240, %esi
	sete	%dil
	shlb	$4, %dil
	orb	$-128, %dil
	cmpl	$224, %esi
	movzbl	%dil, %edi
	movl	$160, %r9d
	cmovnel	%edi, %r9d
	cmpl	$244, %esi
	movl	$143, %edi
	movl	$191, %r10d
	cmovel	%edi, %r10d
	cmpl	$237, %esi
	movl	$159, %esi
	cmovnel	%r10d, %esi
	cmpb	%r8b, %r9b
	ja	.LBB8_66
	cmpb	%sil, %r8b
	ja	.LBB8_66
	cmpq	$2, %rax
	jne	.LBB8_64
.LBB8_58:
	xorl	%edx, %edx
.LBB8_66:
	movq	$1, (%rbx)
	movq	%rcx, 8(%rbx)
	movq	%rdx, 16(%rbx)
	jmp	.LBB8_67
.LBB8_57:
	movq	$0, (%rbx)
	movq	%r14, 8(%rbx)
	movq	%r15, 16(%rbx)
.LBB8_67:
	addq	$16, %rsp
	popq	%rbx
	popq	%r12
	popq	%r13
	popq	%r14
	popq	%r15
	retq
.LBB8_64:
	movl	$513, %edx
	cmpb	$-65, 2(%r14,%rcx)
	jg	.LBB8_66
	xorl	%esi, %esi
	cmpq	$4, %rax
	movl	$769, %edx
	cmovbq	%rsi, %rdx
	jmp	.LBB8_66
.Lfunc_end8:
	.size	"core::str::utf8::from_utf8", .Lfunc_end8-"core::str::utf8::from_utf8"

	.section	".text.core::slice::words::skip_far::<#52f9edcae2f82f51>","ax",@progbits
	.p2align	4
	.type	"core::slice::words::skip_far::<#52f9edcae2f82f51>",@function
"core::slice::words::skip_far::<#52f9edcae2f82f51>":
	movq	%rsi, %rax
	subq	%rsi, %rdx
	cmpq	$64, %rdx
	jb	.LBB9_4
	movq	(%rdi), %rcx
	.p2align	4
.LBB9_2:
	movdqu	(%rcx,%rax), %xmm0
	movdqu	16(%rcx,%rax), %xmm1
	movdqu	32(%rcx,%rax), %xmm2
	por	%xmm0, %xmm2
	movdqu	48(%rcx,%rax), %xmm0
	por	%xmm1, %xmm0
	por	%xmm2, %xmm0
	pshufd	$238, %xmm0, %xmm1
	por	%xmm0, %xmm1
	movq	%xmm1, %rsi
	movabsq	$-9187201950435737472, %rdi
	testq	%rdi, %rsi
	jne	.LBB9_4
	addq	$64, %rax
	addq	$-64, %rdx
	cmpq	$63, %rdx
	ja	.LBB9_2
.LBB9_4:
	retq
.Lfunc_end9:
	.size	"core::slice::words::skip_far::<#52f9edcae2f82f51>", .Lfunc_end9-"core::slice::words::skip_far::<#52f9edcae2f82f51>"

	.section	.rodata.cst16,"aM",@progbits,16
	.p2align	4, 0x0
.LCPI10_0:
	.zero	16,46
.LCPI10_1:
	.quad	3327647951695996518
	.quad	3327647950551526958
.LCPI10_2:
	.quad	2334399978102268015
	.quad	8458358670138239095
.LCPI10_3:
	.quad	1840898
	.quad	8367798494427701606
.LCPI10_4:
	.byte	0
	.byte	1
	.byte	2
	.byte	3
	.byte	4
	.byte	5
	.byte	6
	.byte	7
	.byte	8
	.byte	9
	.byte	10
	.byte	11
	.byte	12
	.byte	13
	.byte	14
	.byte	15
.LCPI10_5:
	.byte	16
	.byte	17
	.byte	18
	.byte	19
	.byte	20
	.byte	21
	.byte	22
	.byte	23
	.byte	24
	.byte	25
	.byte	26
	.byte	27
	.byte	28
	.byte	29
	.byte	30
	.byte	31
	.section	".text.std::io::stdio::StdoutWrite::write_all","ax",@progbits
	.p2align	4
	.type	"std::io::stdio::StdoutWrite::write_all",@function
"std::io::stdio::StdoutWrite::write_all":
	pushq	%r15
	pushq	%r14
	pushq	%r13
	pushq	%r12
	pushq	%rbx
	subq	$192, %rsp
	movq	%rdx, %r14
	movq	%rsi, %r15
	movq	%rdi, %rbx
	movl	$1, %r12d
	leaq	88(%rsp), %r13
	jmp	.LBB10_1
	.p2align	4
.LBB10_10:
	incq	%r12
	je	.LBB10_11
.LBB10_1:
	testq	%r14, %r14
	je	.LBB10_2
	movl	$1, %edi
	movq	%r15, %rsi
	movq	%r14, %rdx
	callq	write@PLT
	testq	%rax, %rax
	js	.LBB10_6
	je	.LBB10_5
	cmpq	%r14, %rax
	cmovaeq	%r14, %rax
	addq	%rax, %r15
	subq	%rax, %r14
	jmp	.LBB10_10
	.p2align	4
.LBB10_6:
	callq	rattle_errno@PLT
	leaq	32(%rsp), %rdi
	movl	%eax, %esi
	callq	"std_io::io::error::Error::from_raw_os_error"
	movaps	32(%rsp), %xmm0
	movaps	48(%rsp), %xmm1
	movaps	64(%rsp), %xmm2
	movq	32(%rsp), %rcx
	movq	80(%rsp), %rax
	movups	(%r13), %xmm3
	movups	16(%r13), %xmm4
	movaps	%xmm3, 128(%rsp)
	movaps	%xmm4, 144(%rsp)
	shrq	$8, %rcx
	movaps	.LCPI10_4(%rip), %xmm3
	movaps	%xmm3, 32(%rsp)
	movaps	.LCPI10_5(%rip), %xmm3
	movaps	%xmm3, 48(%rsp)
	movabsq	$2820983053732684064, %rdx
	movq	%rdx, 64(%rsp)
	movb	$40, 72(%rsp)
	cmpb	$41, %cl
	jae	.LBB10_8
	andl	$63, %ecx
	cmpb	$35, 32(%rsp,%rcx)
	je	.LBB10_10
.LBB10_8:
	movaps	128(%rsp), %xmm3
	movaps	144(%rsp), %xmm4
	movaps	%xmm4, 16(%rsp)
	movaps	%xmm3, (%rsp)
	jmp	.LBB10_12
.LBB10_2:
	xorps	%xmm0, %xmm0
	movaps	%xmm0, 16(%rsp)
	movaps	%xmm0, (%rsp)
	xorl	%ecx, %ecx
	xorl	%eax, %eax
	xorps	%xmm1, %xmm1
	xorps	%xmm2, %xmm2
	jmp	.LBB10_13
.LBB10_11:
	leaq	.Lstatic.16(%rip), %rdx
	leaq	32(%rsp), %rdi
	movl	$43, %ecx
	movl	$22, %esi
	callq	"std_io::io::error::Error::from_static_message"
	movaps	32(%rsp), %xmm0
	movaps	48(%rsp), %xmm1
	movaps	64(%rsp), %xmm2
	movq	80(%rsp), %rax
	movups	104(%rsp), %xmm3
	movaps	%xmm3, 176(%rsp)
	movups	88(%rsp), %xmm4
	movaps	%xmm4, 160(%rsp)
	movaps	%xmm4, (%rsp)
	movaps	%xmm3, 16(%rsp)
	jmp	.LBB10_12
.LBB10_5:
	movaps	.LCPI10_0(%rip), %xmm0
	movaps	%xmm0, 16(%rsp)
	movaps	%xmm0, (%rsp)
	movaps	.LCPI10_1(%rip), %xmm2
	movaps	.LCPI10_2(%rip), %xmm1
	movaps	.LCPI10_3(%rip), %xmm0
	movabsq	$3327647950551526958, %rax
.LBB10_12:
	movb	$1, %cl
.LBB10_13:
	movb	%cl, (%rbx)
	movups	%xmm0, 8(%rbx)
	movups	%xmm1, 24(%rbx)
	movups	%xmm2, 40(%rbx)
	movq	%rax, 56(%rbx)
	movaps	(%rsp), %xmm0
	movaps	16(%rsp), %xmm1
	movups	%xmm0, 64(%rbx)
	movups	%xmm1, 80(%rbx)
	addq	$192, %rsp
	popq	%rbx
	popq	%r12
	popq	%r13
	popq	%r14
	popq	%r15
	retq
.Lfunc_end10:
	.size	"std::io::stdio::StdoutWrite::write_all", .Lfunc_end10-"std::io::stdio::StdoutWrite::write_all"

	.section	.rodata.cst16,"aM",@progbits,16
	.p2align	4, 0x0
.LCPI11_0:
	.zero	16,46
	.section	".text.std_io::io::error::Error::from_static_message","ax",@progbits
	.p2align	4
	.type	"std_io::io::error::Error::from_static_message",@function
"std_io::io::error::Error::from_static_message":
	pushq	%rbp
	pushq	%r15
	pushq	%r14
	pushq	%r13
	pushq	%r12
	pushq	%rbx
	subq	$80, %rsp
	movl	%esi, 12(%rsp)
	movabsq	$3314649325744685056, %rbx
	movabsq	$12947848928690176, %r14
	movabsq	$50577534877696, %r11
	movabsq	$197568495616, %r10
	movq	(%rdx), %rsi
	movq	%rsi, 72(%rsp)
	movl	8(%rdx), %esi
	movq	%rsi, 64(%rsp)
	movzbl	12(%rdx), %r15d
	movzbl	13(%rdx), %esi
	movq	%rsi, 48(%rsp)
	movzbl	14(%rdx), %esi
	movq	%rsi, 56(%rsp)
	movl	$3014656, %esi
	movq	%rsi, 24(%rsp)
	movb	$46, -105(%rsp)
	movl	$771751936, %esi
	movq	%rsi, 40(%rsp)
	movl	$11776, %esi
	movq	%rsi, 32(%rsp)
	cmpq	$15, %rcx
	movq	%rcx, -32(%rsp)
	jne	.LBB11_2
	movl	$11776, %eax
	movq	%rax, -96(%rsp)
	movq	%rbx, %r8
	movq	%r11, -56(%rsp)
	movl	$771751936, %ebp
	movq	%rax, -40(%rsp)
	movq	%rbx, %r9
	movq	%r11, -24(%rsp)
	movl	$771751936, %esi
	movq	%rbx, 16(%rsp)
	movb	$46, -121(%rsp)
	movl	$3014656, %eax
	movq	%rax, (%rsp)
	movq	%r10, %r12
	movq	%r14, %rcx
	movb	$46, -122(%rsp)
	movq	%rax, -48(%rsp)
	movb	$46, -123(%rsp)
	movq	%r10, %r13
	movq	%r14, %rax
	movl	$3014656, %edx
	movq	%rdx, -104(%rsp)
	movl	$11776, %edx
	jmp	.LBB11_21
.LBB11_2:
	movq	%r15, -80(%rsp)
	movzbl	15(%rdx), %r11d
	shlq	$56, %r11
	cmpq	$17, %rcx
	movq	%r11, 16(%rsp)
	jb	.LBB11_5
	movzbl	16(%rdx), %r12d
	movb	%r12b, -121(%rsp)
	jne	.LBB11_8
	movl	$11776, %eax
	movq	%rax, -96(%rsp)
	movq	%rbx, %r8
	movabsq	$50577534877696, %r11
	movq	%r11, -56(%rsp)
	movl	$771751936, %ebp
	movq	%rax, -40(%rsp)
	movq	%rbx, %r9
	movq	%r11, -24(%rsp)
	movl	$771751936, %esi
	movl	$11776, %edx
	jmp	.LBB11_6
.LBB11_5:
	movl	$11776, %eax
	movq	%rax, -96(%rsp)
	movq	%rbx, %r8
	movabsq	$50577534877696, %r11
	movq	%r11, -56(%rsp)
	movl	$771751936, %ebp
	movq	%rax, -40(%rsp)
	movq	%rbx, %r9
	movq	%r11, -24(%rsp)
	movl	$771751936, %esi
	movl	$11776, %edx
	movb	$46, -121(%rsp)
.LBB11_6:
	movl	$3014656, %eax
	movq	%rax, (%rsp)
	movq	%r10, %r12
	movb	$46, -122(%rsp)
	movq	%rax, -48(%rsp)
	movq	%r10, %r13
	movb	$46, -123(%rsp)
	movq	%r14, %rax
	movl	$3014656, %ecx
	movq	%rcx, -104(%rsp)
	movq	%r14, %rcx
.LBB11_7:
	movq	-80(%rsp), %r15
	jmp	.LBB11_21
.LBB11_8:
	movzbl	17(%rdx), %esi
	shll	$8, %esi
	movq	%rsi, -120(%rsp)
	cmpq	$19, %rcx
	movq	-80(%rsp), %r15
	jb	.LBB11_11
	movzbl	18(%rdx), %r13d
	shll	$16, %r13d
	cmpq	$19, %rcx
	movq	%r13, (%rsp)
	jne	.LBB11_12
	movl	$11776, %eax
	movq	%rax, -96(%rsp)
	movq	%rbx, %r8
	movabsq	$50577534877696, %r11
	movq	%r11, -56(%rsp)
	movl	$771751936, %ebp
	movq	%rax, -40(%rsp)
	movq	%rbx, %r9
	movq	%r11, -24(%rsp)
	movl	$771751936, %esi
	jmp	.LBB11_16
.LBB11_11:
	movl	$11776, %eax
	movq	%rax, -96(%rsp)
	movq	%rbx, %r8
	movabsq	$50577534877696, %r11
	movq	%r11, -56(%rsp)
	movl	$771751936, %ebp
	movq	%rax, -40(%rsp)
	movq	%rbx, %r9
	movq	%r11, -24(%rsp)
	movl	$771751936, %esi
	movl	$3014656, %eax
	movq	%rax, (%rsp)
	movq	%r10, %r12
	movb	$46, -122(%rsp)
	jmp	.LBB11_18
.LBB11_12:
	movzbl	19(%rdx), %esi
	shll	$24, %esi
	cmpq	$21, %rcx
	jb	.LBB11_15
	movzbl	20(%rdx), %r12d
	shlq	$32, %r12
	cmpq	$21, %rcx
	jne	.LBB11_22
	movl	$11776, %eax
	movq	%rax, -96(%rsp)
	movq	%rbx, %r8
	movabsq	$50577534877696, %r11
	movq	%r11, -56(%rsp)
	movl	$771751936, %ebp
	movq	%rax, -40(%rsp)
	movq	%rbx, %r9
	movq	%r11, -24(%rsp)
	jmp	.LBB11_17
.LBB11_15:
	movl	$11776, %eax
	movq	%rax, -96(%rsp)
	movq	%rbx, %r8
	movabsq	$50577534877696, %r11
	movq	%r11, -56(%rsp)
	movl	$771751936, %ebp
	movq	%rax, -40(%rsp)
	movq	%rbx, %r9
	movq	%r11, -24(%rsp)
.LBB11_16:
	movq	%r10, %r12
.LBB11_17:
	movb	$46, -122(%rsp)
	movl	$3014656, %eax
.LBB11_18:
	movq	%rax, -48(%rsp)
.LBB11_19:
	movq	%r10, %r13
	movq	%r14, %rax
	movb	$46, -123(%rsp)
	movl	$3014656, %ecx
	movq	%rcx, -104(%rsp)
	movq	%r14, %rcx
.LBB11_20:
	movq	-120(%rsp), %rdx
.LBB11_21:
	orq	%rcx, %r12
	orq	%rdx, %rsi
	orq	-24(%rsp), %r9
	orq	%rsi, %r9
	orq	%rax, %r13
	orq	-40(%rsp), %rbp
	orq	-56(%rsp), %r8
	orq	%rbp, %r8
	orq	%r14, %r10
	movq	40(%rsp), %rdx
	orq	-96(%rsp), %rdx
	orq	%r11, %rbx
	orq	%rdx, %rbx
	movq	32(%rsp), %rsi
	orq	24(%rsp), %rsi
	shlq	$32, %r15
	addq	64(%rsp), %r15
	movq	48(%rsp), %rcx
	shlq	$40, %rcx
	orq	%rcx, %r15
	movq	56(%rsp), %rcx
	shlq	$48, %rcx
	orq	%rcx, %r15
	orq	16(%rsp), %r15
	movzbl	-105(%rsp), %edx
	orq	%rsi, %rdx
	movzbl	-123(%rsp), %ecx
	orq	-104(%rsp), %rcx
	orq	%rbx, %rcx
	orq	%r10, %rcx
	movzbl	-122(%rsp), %eax
	orq	-48(%rsp), %rax
	orq	%r8, %rax
	orq	%r13, %rax
	movzbl	-121(%rsp), %esi
	orq	(%rsp), %rsi
	orq	%r9, %rsi
	orq	%r12, %rsi
	movabsq	$3327647950548500480, %r9
	orq	%rdx, %r9
	movb	$2, (%rdi)
	movl	12(%rsp), %edx
	movb	%dl, 1(%rdi)
	movq	-32(%rsp), %rdx
	movb	%dl, 2(%rdi)
	movb	$0, 3(%rdi)
	movl	$0, 4(%rdi)
	movq	72(%rsp), %rdx
	movq	%rdx, 8(%rdi)
	movq	%r15, 16(%rdi)
	movq	%rsi, 24(%rdi)
	movq	%rax, 32(%rdi)
	movq	%rcx, 40(%rdi)
	movq	%r9, 48(%rdi)
	movaps	.LCPI11_0(%rip), %xmm0
	movups	%xmm0, 56(%rdi)
	movups	%xmm0, 72(%rdi)
	addq	$80, %rsp
	popq	%rbx
	popq	%r12
	popq	%r13
	popq	%r14
	popq	%r15
	popq	%rbp
	retq
.LBB11_22:
	movzbl	21(%rdx), %r10d
	shlq	$40, %r10
	cmpq	$23, %rcx
	movq	%r10, -24(%rsp)
	jb	.LBB11_25
	movzbl	22(%rdx), %eax
	shlq	$48, %rax
	cmpq	$23, %rcx
	jne	.LBB11_26
	movl	$11776, %ecx
	movq	%rcx, -96(%rsp)
	movq	%rbx, %r8
	movabsq	$50577534877696, %r11
	movq	%r11, -56(%rsp)
	movl	$771751936, %ebp
	movq	%rax, %rdx
	movl	$11776, %eax
	movq	%rax, -40(%rsp)
	movq	%rbx, %r9
	jmp	.LBB11_30
.LBB11_25:
	movl	$11776, %eax
	movq	%rax, -96(%rsp)
	movq	%rbx, %r8
	movabsq	$50577534877696, %r11
	movq	%r11, -56(%rsp)
	movl	$771751936, %ebp
	movq	%rax, -40(%rsp)
	movq	%rbx, %r9
	movb	$46, -122(%rsp)
	movl	$3014656, %eax
	movq	%rax, -48(%rsp)
	movabsq	$197568495616, %r10
	jmp	.LBB11_19
.LBB11_26:
	movzbl	23(%rdx), %r9d
	shlq	$56, %r9
	cmpq	$25, %rcx
	jb	.LBB11_29
	movq	%rax, -88(%rsp)
	movzbl	24(%rdx), %r8d
	movb	%r8b, -122(%rsp)
	jne	.LBB11_31
	movl	$11776, %eax
	movq	%rax, -96(%rsp)
	movq	%rbx, %r8
	movabsq	$50577534877696, %r11
	movq	%r11, -56(%rsp)
	movl	$771751936, %ebp
	movq	%rax, -40(%rsp)
	jmp	.LBB11_35
.LBB11_29:
	movl	$11776, %ecx
	movq	%rcx, -96(%rsp)
	movq	%rbx, %r8
	movabsq	$50577534877696, %r11
	movq	%r11, -56(%rsp)
	movl	$771751936, %ebp
	movq	%rax, %rdx
	movl	$11776, %eax
	movq	%rax, -40(%rsp)
.LBB11_30:
	movb	$46, -122(%rsp)
	movl	$3014656, %eax
	movq	%rax, -48(%rsp)
	movabsq	$197568495616, %r10
	movq	%r10, %r13
	movq	%r14, %rax
	movb	$46, -123(%rsp)
	movl	$3014656, %ecx
	movq	%rcx, -104(%rsp)
	movq	%rdx, %rcx
	jmp	.LBB11_20
.LBB11_31:
	movzbl	25(%rdx), %eax
	shll	$8, %eax
	cmpq	$27, %rcx
	movq	%rax, -40(%rsp)
	jb	.LBB11_34
	movq	%rsi, -72(%rsp)
	movzbl	26(%rdx), %esi
	shll	$16, %esi
	cmpq	$27, %rcx
	movq	%rsi, -48(%rsp)
	jne	.LBB11_36
	movl	$11776, %ecx
	movq	%rcx, -96(%rsp)
	movq	%rbx, %r8
	movabsq	$50577534877696, %r11
	movq	%r11, -56(%rsp)
	movl	$771751936, %ebp
	movabsq	$197568495616, %r10
	movq	%r10, %r13
	movq	%r14, %rax
	movb	$46, -123(%rsp)
	movl	$3014656, %ecx
	movq	%rcx, -104(%rsp)
	movq	-120(%rsp), %rdx
	movq	-72(%rsp), %rsi
	movq	-88(%rsp), %rcx
	jmp	.LBB11_21
.LBB11_34:
	movl	$11776, %ecx
	movq	%rcx, -96(%rsp)
	movq	%rbx, %r8
	movabsq	$50577534877696, %r11
	movq	%r11, -56(%rsp)
	movl	$771751936, %ebp
.LBB11_35:
	movl	$3014656, %eax
	movq	%rax, -48(%rsp)
	movabsq	$197568495616, %r10
	movq	%r10, %r13
	movq	%r14, %rax
	movb	$46, -123(%rsp)
	movl	$3014656, %ecx
	movq	%rcx, -104(%rsp)
	movq	-120(%rsp), %rdx
	movq	-88(%rsp), %rcx
	jmp	.LBB11_21
.LBB11_36:
	movzbl	27(%rdx), %eax
	shll	$24, %eax
	movq	%rax, -64(%rsp)
	cmpq	$29, %rcx
	jb	.LBB11_39
	movzbl	28(%rdx), %r13d
	shlq	$32, %r13
	cmpq	$29, %rcx
	jne	.LBB11_40
	movl	$11776, %eax
	movq	%rax, -96(%rsp)
	movq	%rbx, %r8
	movabsq	$50577534877696, %r11
	movq	%r11, -56(%rsp)
	movq	%r14, %rax
	movb	$46, -123(%rsp)
	movl	$3014656, %ecx
	movq	%rcx, -104(%rsp)
	jmp	.LBB11_47
.LBB11_39:
	movl	$11776, %eax
	movq	%rax, -96(%rsp)
	movq	%rbx, %r8
	movabsq	$50577534877696, %r11
	movq	%r11, -56(%rsp)
	movabsq	$197568495616, %r10
	movq	%r10, %r13
	movq	%r14, %rax
	movb	$46, -123(%rsp)
	movl	$3014656, %ecx
	movq	%rcx, -104(%rsp)
	movq	-120(%rsp), %rdx
	movq	-72(%rsp), %rsi
	movq	-64(%rsp), %rbp
	movq	-88(%rsp), %rcx
	jmp	.LBB11_21
.LBB11_40:
	movzbl	29(%rdx), %ecx
	shlq	$40, %rcx
	movq	%rcx, -56(%rsp)
	cmpq	$31, -32(%rsp)
	jb	.LBB11_43
	movzbl	30(%rdx), %eax
	shlq	$48, %rax
	cmpq	$31, -32(%rsp)
	jne	.LBB11_49
	movl	$11776, %ecx
	movq	%rcx, -96(%rsp)
	movq	%rbx, %r8
	jmp	.LBB11_44
.LBB11_43:
	movl	$11776, %eax
	movq	%rax, -96(%rsp)
	movq	%rbx, %r8
	movq	%r14, %rax
.LBB11_44:
	movb	$46, -123(%rsp)
.LBB11_45:
	movl	$3014656, %ecx
	movq	%rcx, -104(%rsp)
.LBB11_46:
	movabsq	$50577534877696, %r11
.LBB11_47:
	movq	-120(%rsp), %rdx
	movq	-72(%rsp), %rsi
	movabsq	$197568495616, %r10
.LBB11_48:
	movq	-64(%rsp), %rbp
	movq	-88(%rsp), %rcx
	jmp	.LBB11_7
.LBB11_49:
	movzbl	31(%rdx), %r8d
	shlq	$56, %r8
	cmpq	$33, -32(%rsp)
	jb	.LBB11_52
	movzbl	32(%rdx), %ecx
	movb	%cl, -123(%rsp)
	jne	.LBB11_53
	movl	$11776, %ecx
	movq	%rcx, -96(%rsp)
	jmp	.LBB11_45
.LBB11_52:
	movl	$11776, %ecx
	movq	%rcx, -96(%rsp)
	jmp	.LBB11_44
.LBB11_53:
	movzbl	33(%rdx), %ecx
	shll	$8, %ecx
	movq	%rcx, -96(%rsp)
	cmpq	$35, -32(%rsp)
	jb	.LBB11_45
	movzbl	34(%rdx), %ecx
	shll	$16, %ecx
	movq	%rcx, -104(%rsp)
	cmpq	$35, -32(%rsp)
	je	.LBB11_46
	movzbl	35(%rdx), %ecx
	shll	$24, %ecx
	movq	%rcx, 40(%rsp)
	cmpq	$37, -32(%rsp)
	jb	.LBB11_46
	movzbl	36(%rdx), %r10d
	shlq	$32, %r10
	cmpq	$37, -32(%rsp)
	jne	.LBB11_58
	movabsq	$50577534877696, %r11
	jmp	.LBB11_66
.LBB11_58:
	movzbl	37(%rdx), %ecx
	shlq	$40, %rcx
	movq	%rcx, -16(%rsp)
	cmpq	$39, -32(%rsp)
	jb	.LBB11_65
	movzbl	38(%rdx), %ecx
	shlq	$48, %rcx
	movq	%rcx, -8(%rsp)
	cmpq	$39, -32(%rsp)
	je	.LBB11_64
	movzbl	39(%rdx), %ebx
	shlq	$56, %rbx
	cmpq	$41, -32(%rsp)
	jb	.LBB11_64
	movzbl	40(%rdx), %ecx
	movb	%cl, -105(%rsp)
	je	.LBB11_64
	movzbl	41(%rdx), %ecx
	shll	$8, %ecx
	movq	%rcx, 32(%rsp)
	cmpq	$43, -32(%rsp)
	jb	.LBB11_64
	movzbl	42(%rdx), %ecx
	shll	$16, %ecx
	movq	%rcx, 24(%rsp)
.LBB11_64:
	movq	-16(%rsp), %r11
	movq	-8(%rsp), %r14
	jmp	.LBB11_66
.LBB11_65:
	movq	-16(%rsp), %r11
.LBB11_66:
	movq	-120(%rsp), %rdx
	movq	-72(%rsp), %rsi
	jmp	.LBB11_48
.Lfunc_end11:
	.size	"std_io::io::error::Error::from_static_message", .Lfunc_end11-"std_io::io::error::Error::from_static_message"

	.section	.rodata.cst16,"aM",@progbits,16
	.p2align	4, 0x0
.LCPI12_0:
	.zero	16,46
.LCPI12_1:
	.quad	8458358670138239095
	.quad	3327647951695996518
.LCPI12_2:
	.quad	8367798494427701606
	.quad	2334399978102268015
.LCPI12_3:
	.byte	2
	.byte	23
	.byte	28
	.byte	0
	.zero	1
	.zero	1
	.zero	1
	.zero	1
	.zero	1
	.zero	1
	.zero	1
	.zero	1
	.zero	1
	.zero	1
	.zero	1
	.zero	1
.LCPI12_4:
	.byte	0
	.byte	35
	.byte	0
	.byte	0
	.zero	1
	.zero	1
	.zero	1
	.zero	1
	.zero	1
	.zero	1
	.zero	1
	.zero	1
	.zero	1
	.zero	1
	.zero	1
	.zero	1
.LCPI12_5:
	.byte	0
	.byte	35
	.byte	0
	.byte	0
	.byte	0
	.byte	0
	.byte	0
	.byte	0
	.byte	0
	.byte	0
	.byte	0
	.byte	0
	.byte	0
	.byte	0
	.byte	0
	.byte	0
.LCPI12_6:
	.byte	2
	.byte	23
	.byte	28
	.byte	0
	.byte	0
	.byte	0
	.byte	0
	.byte	0
	.byte	0
	.byte	0
	.byte	0
	.byte	0
	.byte	0
	.byte	0
	.byte	0
	.byte	0
	.section	".text.std_io::io::buffer::Buffer::flush","ax",@progbits
	.p2align	4
	.type	"std_io::io::buffer::Buffer::flush",@function
"std_io::io::buffer::Buffer::flush":
	pushq	%rbp
	pushq	%r15
	pushq	%r14
	pushq	%r13
	pushq	%r12
	pushq	%rbx
	subq	$120, %rsp
	movq	1032(%rdi), %r15
	movq	$0, 1032(%rdi)
	cmpq	$1025, %r15
	jae	.LBB12_15
	movq	%rdi, %rbx
	movl	(%rdi), %ebp
	movq	$-64, %r12
	xorl	%r13d, %r13d
	jmp	.LBB12_4
	.p2align	4
.LBB12_2:
	callq	rattle_errno@PLT
	cmpl	$4, %eax
	jne	.LBB12_13
	incq	%r12
	cmpq	%r12, %r15
	je	.LBB12_8
.LBB12_4:
	movq	%r15, %r14
	subq	%r13, %r14
	jbe	.LBB12_10
	leaq	4(%rbx), %rax
	leaq	(%rax,%r13), %rsi
	movl	%ebp, %edi
	movq	%r14, %rdx
	callq	write@PLT
	testq	%rax, %rax
	js	.LBB12_2
	je	.LBB12_11
	cmpq	%r14, %rax
	cmovbq	%rax, %r14
	addq	%r14, %r13
	incq	%r12
	cmpq	%r12, %r15
	jne	.LBB12_4
.LBB12_8:
	cmpq	%r13, %r15
	jbe	.LBB12_10
	xorps	%xmm0, %xmm0
	movaps	%xmm0, 16(%rsp)
	movaps	%xmm0, (%rsp)
	movss	.LCPI12_5(%rip), %xmm1
	movl	$4, %eax
	xorps	%xmm3, %xmm3
	xorps	%xmm2, %xmm2
	jmp	.LBB12_14
.LBB12_10:
	movb	$1, %al
	jmp	.LBB12_16
.LBB12_11:
	movaps	.LCPI12_0(%rip), %xmm2
	movaps	%xmm2, 16(%rsp)
	movaps	%xmm2, (%rsp)
	movaps	.LCPI12_1(%rip), %xmm3
	movaps	.LCPI12_2(%rip), %xmm0
	movss	.LCPI12_6(%rip), %xmm1
	xorl	%eax, %eax
	jmp	.LBB12_14
.LBB12_13:
	leaq	32(%rsp), %rdi
	movl	%eax, %esi
	callq	"std_io::io::error::Error::from_raw_os_error"
	movsd	32(%rsp), %xmm1
	movl	36(%rsp), %eax
	movups	40(%rsp), %xmm0
	movups	56(%rsp), %xmm3
	movups	72(%rsp), %xmm2
	movups	88(%rsp), %xmm4
	movaps	%xmm4, (%rsp)
	movups	104(%rsp), %xmm4
	movaps	%xmm4, 16(%rsp)
.LBB12_14:
	movq	$1, 1040(%rbx)
	movss	%xmm1, 1048(%rbx)
	movl	%eax, 1052(%rbx)
	movups	%xmm0, 1056(%rbx)
	movups	%xmm3, 1072(%rbx)
	movups	%xmm2, 1088(%rbx)
	movaps	(%rsp), %xmm0
	movaps	16(%rsp), %xmm1
	movups	%xmm0, 1104(%rbx)
	movups	%xmm1, 1120(%rbx)
.LBB12_15:
	xorl	%eax, %eax
.LBB12_16:
	addq	$120, %rsp
	popq	%rbx
	popq	%r12
	popq	%r13
	popq	%r14
	popq	%r15
	popq	%rbp
	retq
.Lfunc_end12:
	.size	"std_io::io::buffer::Buffer::flush", .Lfunc_end12-"std_io::io::buffer::Buffer::flush"

	.section	".text.unlikely.core::fmt::formatter::Formatter::write_indented::<#bf264aed5fa78656>","ax",@progbits
	.p2align	4
	.type	"core::fmt::formatter::Formatter::write_indented::<#bf264aed5fa78656>",@function
"core::fmt::formatter::Formatter::write_indented::<#bf264aed5fa78656>":
	pushq	%rbp
	pushq	%r15
	pushq	%r14
	pushq	%r13
	pushq	%r12
	pushq	%rbx
	pushq	%rax
	testq	%rdx, %rdx
	je	.LBB13_1
	movq	%rsi, %r14
	movq	%rdi, %r15
	xorl	%ecx, %ecx
	xorl	%ebp, %ebp
	movq	%rdx, (%rsp)
	jmp	.LBB13_3
	.p2align	4
.LBB13_7:
	addq	%r14, %r13
	movb	$1, 1168(%r15)
	movq	%r15, %rdi
	movq	%r13, %rsi
	movq	%r12, %rdx
	callq	"core::fmt::formatter::Formatter::write_raw::<#bf264aed5fa78656>"
	movq	%rbp, %rcx
	testb	%al, %al
	movq	(%rsp), %rdx
	jne	.LBB13_17
.LBB13_8:
	cmpq	%rdx, %rbp
	je	.LBB13_9
.LBB13_3:
	movq	%rbp, %rax
	incq	%rbp
	cmpb	$10, (%r14,%rax)
	jne	.LBB13_8
	xorl	%r13d, %r13d
	movq	%rbp, %r12
	subq	%rcx, %r12
	cmovaeq	%rcx, %r13
	cmpq	%rax, %rcx
	movq	%rbp, %rcx
	ja	.LBB13_8
	cmpb	$1, 1168(%r15)
	jne	.LBB13_7
	movq	1160(%r15), %rbx
	testq	%rbx, %rbx
	je	.LBB13_7
	.p2align	4
.LBB13_14:
	leaq	.Lstatic.13(%rip), %rsi
	movl	$4, %edx
	movq	%r15, %rdi
	callq	"core::fmt::formatter::Formatter::write_raw::<#bf264aed5fa78656>"
	testb	%al, %al
	jne	.LBB13_17
	decq	%rbx
	jne	.LBB13_14
	jmp	.LBB13_7
.LBB13_1:
	xorl	%eax, %eax
	jmp	.LBB13_18
.LBB13_9:
	xorl	%eax, %eax
	cmpq	%rdx, %rcx
	movq	%rcx, %r12
	cmovaq	%rax, %r12
	subq	%rcx, %rdx
	cmovbq	%rax, %rdx
	jbe	.LBB13_18
	movq	%rdx, %r13
	cmpb	$1, 1168(%r15)
	jne	.LBB13_12
	movq	1160(%r15), %rbx
	testq	%rbx, %rbx
	je	.LBB13_12
	.p2align	4
.LBB13_16:
	leaq	.Lstatic.13(%rip), %rsi
	movl	$4, %edx
	movq	%r15, %rdi
	callq	"core::fmt::formatter::Formatter::write_raw::<#bf264aed5fa78656>"
	testb	%al, %al
	jne	.LBB13_17
	decq	%rbx
	jne	.LBB13_16
.LBB13_12:
	addq	%r12, %r14
	movb	$0, 1168(%r15)
	movq	%r15, %rdi
	movq	%r14, %rsi
	movq	%r13, %rdx
	addq	$8, %rsp
	popq	%rbx
	popq	%r12
	popq	%r13
	popq	%r14
	popq	%r15
	popq	%rbp
	jmp	"core::fmt::formatter::Formatter::write_raw::<#bf264aed5fa78656>"
.LBB13_17:
	movb	$1, %al
.LBB13_18:
	addq	$8, %rsp
	popq	%rbx
	popq	%r12
	popq	%r13
	popq	%r14
	popq	%r15
	popq	%rbp
	retq
.Lfunc_end13:
	.size	"core::fmt::formatter::Formatter::write_indented::<#bf264aed5fa78656>", .Lfunc_end13-"core::fmt::formatter::Formatter::write_indented::<#bf264aed5fa78656>"

	.section	".text.core::fmt::formatter::Formatter::write_raw::<#bf264aed5fa78656>","ax",@progbits
	.p2align	4
	.type	"core::fmt::formatter::Formatter::write_raw::<#bf264aed5fa78656>",@function
"core::fmt::formatter::Formatter::write_raw::<#bf264aed5fa78656>":
	testq	%rdx, %rdx
	je	.LBB14_1
	pushq	%rbp
	pushq	%r15
	pushq	%r14
	pushq	%r12
	pushq	%rbx
	movq	%rdx, %rbx
	movq	%rsi, %r14
	movq	%rdi, %r15
	xorl	%ecx, %ecx
	jmp	.LBB14_4
	.p2align	4
.LBB14_19:
	addq	%rdi, %rcx
	cmpq	%rbx, %rcx
	jae	.LBB14_20
.LBB14_4:
	movzbl	(%r14,%rcx), %edx
	movl	$1, %edi
	testb	%dl, %dl
	jns	.LBB14_19
	leaq	1(%rcx), %rsi
	movb	$1, %al
	cmpq	%rsi, %rbx
	jbe	.LBB14_26
	movzbl	(%r14,%rsi), %esi
	testb	%sil, %sil
	jns	.LBB14_26
	movzbl	%sil, %edi
	cmpb	$-64, %sil
	movl	$192, %esi
	cmovbl	%edi, %esi
	cmpb	$-62, %dl
	jb	.LBB14_26
	movl	%esi, %edi
	andb	$127, %dil
	cmpb	$63, %dil
	ja	.LBB14_26
	movl	$2, %edi
	cmpb	$-32, %dl
	jb	.LBB14_19
	leaq	2(%rcx), %rdi
	cmpq	%rdi, %rbx
	jbe	.LBB14_26
	cmpb	$-65, (%r14,%rdi)
	jg	.LBB14_26
	andl	$127, %esi
	cmpb	$-17, %dl
	ja	.LBB14_16
	movl	%edx, %edi
	shll	$12, %edi
	shll	$6, %esi
	addl	%edi, %esi
	addl	$-917504, %esi
	cmpl	$2048, %esi
	jb	.LBB14_26
	movl	$3, %edi
	cmpl	$55296, %esi
	jb	.LBB14_19
	cmpb	$-18, %dl
	jae	.LBB14_19
	jmp	.LBB14_26
.LBB14_16:
	leaq	3(%rcx), %rdi
	cmpq	%rdi, %rbx
	jbe	.LBB14_26
	cmpb	$-65, (%r14,%rdi)
	jg	.LBB14_26
	shll	$18, %edx
	shll	$12, %esi
	addl	%esi, %edx
	addl	$-62980096, %edx
	movl	$4, %edi
	cmpl	$1048575, %edx
	jbe	.LBB14_19
	jmp	.LBB14_26
.LBB14_1:
	xorl	%eax, %eax
	retq
.LBB14_20:
	movq	1032(%r15), %rcx
	xorl	%r12d, %r12d
	jmp	.LBB14_21
	.p2align	4
.LBB14_24:
	movb	%bpl, 4(%r15,%rcx)
	incq	%rcx
	movq	%rcx, 1032(%r15)
	incq	%r12
	cmpq	%r12, %rbx
	je	.LBB14_25
.LBB14_21:
	movzbl	(%r14,%r12), %ebp
	cmpq	$1024, %rcx
	jb	.LBB14_24
	movq	%r15, %rdi
	callq	"std_io::io::buffer::Buffer::flush"
	movl	%eax, %ecx
	movb	$1, %al
	testb	%cl, %cl
	je	.LBB14_26
	movq	1032(%r15), %rcx
	cmpq	$1023, %rcx
	jbe	.LBB14_24
	jmp	.LBB14_26
.LBB14_25:
	xorl	%eax, %eax
.LBB14_26:
	popq	%rbx
	popq	%r12
	popq	%r14
	popq	%r15
	popq	%rbp
	retq
.Lfunc_end14:
	.size	"core::fmt::formatter::Formatter::write_raw::<#bf264aed5fa78656>", .Lfunc_end14-"core::fmt::formatter::Formatter::write_raw::<#bf264aed5fa78656>"

	.section	.rodata.cst16,"aM",@progbits,16
	.p2align	4, 0x0
.LCPI15_0:
	.long	4294967168
	.long	4294967168
	.long	4294967168
	.long	4294967168
.LCPI15_1:
	.short	26345
	.short	0
	.short	26345
	.short	0
	.short	26345
	.short	0
	.short	26345
	.short	0
.LCPI15_2:
	.short	42982
	.short	18734
	.short	42982
	.short	18734
	.short	42982
	.short	18734
	.short	42982
	.short	18734
.LCPI15_3:
	.long	521728
	.long	521728
	.long	521728
	.long	521728
.LCPI15_4:
	.long	128
	.long	128
	.long	128
	.long	128
.LCPI15_5:
	.short	50594
	.short	0
	.short	50594
	.short	0
	.short	50594
	.short	0
	.short	50594
	.short	0
.LCPI15_6:
	.long	32768
	.long	32768
	.long	32768
	.long	32768
.LCPI15_7:
	.byte	255
	.byte	255
	.byte	0
	.byte	255
	.byte	255
	.byte	0
	.byte	255
	.byte	255
	.byte	0
	.byte	255
	.byte	255
	.byte	0
	.byte	255
	.byte	255
	.byte	0
	.byte	255
.LCPI15_8:
	.byte	255
	.byte	0
	.byte	255
	.byte	255
	.byte	0
	.byte	255
	.byte	255
	.byte	0
	.byte	255
	.byte	255
	.byte	0
	.byte	255
	.byte	255
	.byte	0
	.byte	255
	.byte	255
.LCPI15_9:
	.byte	0
	.byte	255
	.byte	255
	.byte	0
	.byte	255
	.byte	255
	.byte	0
	.byte	255
	.byte	255
	.byte	0
	.byte	255
	.byte	255
	.byte	0
	.byte	255
	.byte	255
	.byte	0
.LCPI15_10:
	.byte	255
	.byte	255
	.byte	0
	.byte	255
	.byte	255
	.byte	0
	.byte	255
	.byte	255
	.byte	0
	.byte	255
	.byte	255
	.byte	0
	.byte	255
	.byte	255
	.byte	255
	.byte	255
.LCPI15_11:
	.short	18734
	.short	42982
	.short	18734
	.short	42982
	.short	18734
	.short	42982
	.short	18734
	.short	42982
.LCPI15_12:
	.short	128
	.short	128
	.short	128
	.short	128
	.short	128
	.short	128
	.short	128
	.short	128
.LCPI15_13:
	.short	65535
	.short	65535
	.short	0
	.short	65535
	.short	65535
	.short	0
	.short	65535
	.short	65535
.LCPI15_14:
	.byte	255
	.byte	0
	.byte	255
	.byte	255
	.byte	0
	.byte	255
	.byte	255
	.byte	0
	.byte	255
	.byte	255
	.byte	255
	.byte	255
	.byte	255
	.byte	255
	.byte	255
	.byte	255
	.section	.text.main,"ax",@progbits
	.globl	main
	.p2align	4
	.type	main,@function
main:
	pushq	%rbp
	pushq	%r15
	pushq	%r14
	pushq	%r13
	pushq	%r12
	pushq	%rbx
	movq	%rsp, %r11
	subq	$196608, %r11
.LBB15_1:
	subq	$3072, %rsp
	movq	$0, (%rsp)
	cmpq	%r11, %rsp
	jne	.LBB15_1
	subq	$2056, %rsp
	movl	$1, %esi
	movl	$13, %edi
	callq	__sysv_signal@PLT
	leaq	67576(%rsp), %rdi
	xorl	%r13d, %r13d
	movl	$65537, %edx
	xorl	%esi, %esi
	callq	memset@PLT
	.p2align	4
.LBB15_3:
	leaq	(%rsp,%r13), %rsi
	addq	$67576, %rsi
	movl	$65537, %ebx
	subq	%r13, %rbx
	xorl	%edi, %edi
	movq	%rbx, %rdx
	callq	read@PLT
	testq	%rax, %rax
	js	.LBB15_578
	je	.LBB15_6
	cmpq	%rbx, %rax
	cmovbq	%rax, %rbx
	addq	%rbx, %r13
	cmpq	$65537, %r13
	jb	.LBB15_3
.LBB15_6:
	movq	%rax, 1768(%rsp)
	leaq	133120(%rsp), %rbx
	xorl	%r12d, %r12d
	movl	$65536, %edx
	movq	%rbx, %rdi
	xorl	%esi, %esi
	callq	memset@PLT
	leaq	2040(%rsp), %rdi
	movl	$65536, %edx
	xorl	%esi, %esi
	callq	memset@PLT
	leaq	1104(%rsp), %rdi
	movl	$376, %edx
	xorl	%esi, %esi
	callq	memset@PLT
	cmpq	$65536, %r13
	jbe	.LBB15_8
	xorl	%eax, %eax
	movq	%r12, %r15
	jmp	.LBB15_13
.LBB15_578:
	movq	%rax, 1768(%rsp)
	callq	rattle_errno@PLT
	jmp	.LBB15_560
.LBB15_8:
	leaq	1104(%rsp), %rdi
	leaq	67576(%rsp), %rbp
	movq	%rbp, %rsi
	movq	%r13, %rdx
	movl	$1, %ecx
	callq	"jpeg_header::header"
	movq	1112(%rsp), %r12
	cmpb	$0, 1104(%rsp)
	je	.LBB15_9
	movq	1120(%rsp), %rax
	movq	%r12, %r15
	jmp	.LBB15_13
.LBB15_9:
	movl	$5, %r15d
	cmpq	$65535, %r12
	ja	.LBB15_12
	movq	%rbx, 392(%rsp)
	movq	1120(%rsp), %rsi
	movq	1448(%rsp), %rdi
	movq	1456(%rsp), %rdx
	cmpq	$65536, %rsi
	setae	%al
	cmpq	$65537, %rdi
	setae	%cl
	orb	%al, %cl
	movq	%rdx, 1760(%rsp)
	cmpq	$65537, %rdx
	setae	%al
	orb	%cl, %al
	jne	.LBB15_12
	movq	%r13, %rax
	notq	%rax
	addq	%rax, %rax
	movq	1464(%rsp), %rcx
	movl	$6, %r15d
	cmpq	%rcx, %rax
	jae	.LBB15_16
.LBB15_12:
	xorl	%eax, %eax
.LBB15_13:
	pxor	%xmm0, %xmm0
	movdqa	%xmm0, 528(%rsp)
	movdqa	%xmm0, 512(%rsp)
	movdqa	%xmm0, 496(%rsp)
	movdqa	%xmm0, 480(%rsp)
	movdqa	%xmm0, 464(%rsp)
	movdqa	%xmm0, 448(%rsp)
	movdqa	%xmm0, 816(%rsp)
	movdqa	%xmm0, 832(%rsp)
	movdqa	%xmm0, 848(%rsp)
	movdqa	%xmm0, 864(%rsp)
	movdqa	%xmm0, 880(%rsp)
	leaq	1127(%rsp), %r12
	leaq	1126(%rsp), %rbx
	movzbl	%r15b, %ecx
	leaq	.LJTI15_0(%rip), %rdx
	movslq	(%rdx,%rcx,4), %rcx
	addq	%rdx, %rcx
	jmpq	*%rcx
.LBB15_527:
	movb	$2, %r15b
	jmp	.LBB15_535
.LBB15_530:
	movb	$6, %r15b
	jmp	.LBB15_535
.LBB15_528:
	movb	$3, %r15b
	jmp	.LBB15_535
.LBB15_531:
	movb	$3, %r15b
	xorl	%ebp, %ebp
	movzbl	%al, %eax
	leaq	.LJTI15_1(%rip), %rcx
	movslq	(%rcx,%rax,4), %rax
	addq	%rcx, %rax
	jmpq	*%rax
.LBB15_532:
	movb	$10, %r15b
	movb	$1, %bpl
	jmp	.LBB15_536
.LBB15_529:
	movb	$5, %r15b
	jmp	.LBB15_535
.LBB15_526:
	movb	$1, %r15b
	jmp	.LBB15_535
.LBB15_16:
	movq	1128(%rsp), %rax
	movq	%rax, 64(%rsp)
	movq	1472(%rsp), %rdx
	movq	%rdx, 184(%rsp)
	movq	1136(%rsp), %rdx
	movq	%rdi, 1536(%rsp)
	movq	1144(%rsp), %rdi
	movq	1152(%rsp), %r8
	movq	1160(%rsp), %r9
	movq	1168(%rsp), %r10
	movq	1176(%rsp), %r11
	movq	1184(%rsp), %r15
	movq	1192(%rsp), %rbx
	movq	1200(%rsp), %r14
	movq	%r14, 1096(%rsp)
	movq	1208(%rsp), %rax
	movq	%rax, 1752(%rsp)
	movq	1216(%rsp), %rax
	movq	%rax, 1088(%rsp)
	movq	%rcx, 1824(%rsp)
	movq	1224(%rsp), %rcx
	movq	1232(%rsp), %r14
	movq	1240(%rsp), %rax
	movq	%rax, 1080(%rsp)
	movq	1248(%rsp), %rax
	movq	%rax, 1072(%rsp)
	movq	1256(%rsp), %rax
	movq	%rax, 1064(%rsp)
	movq	1264(%rsp), %rax
	movq	%rax, 1808(%rsp)
	movq	1272(%rsp), %rax
	movq	%rax, 8(%rsp)
	movq	1280(%rsp), %rax
	movq	%rax, 24(%rsp)
	movq	1288(%rsp), %rax
	movq	%rax, 216(%rsp)
	movq	1296(%rsp), %rax
	movq	%rax, 288(%rsp)
	movq	1304(%rsp), %rax
	movq	%rax, 208(%rsp)
	movq	1312(%rsp), %rax
	movq	%rax, 384(%rsp)
	movq	1320(%rsp), %rax
	movq	%rax, 112(%rsp)
	movq	1328(%rsp), %rax
	movq	%rax, 280(%rsp)
	movq	1336(%rsp), %rax
	movq	%rax, 376(%rsp)
	movq	1344(%rsp), %rax
	movq	%rax, 1032(%rsp)
	movq	1352(%rsp), %rax
	movq	%rax, 256(%rsp)
	movq	1360(%rsp), %rax
	movq	%rax, 240(%rsp)
	movq	1368(%rsp), %rax
	movq	%rax, 1024(%rsp)
	movq	1376(%rsp), %rax
	movq	%rax, 320(%rsp)
	movq	1384(%rsp), %rax
	movq	%rax, 224(%rsp)
	movq	1392(%rsp), %rax
	movq	%rax, 352(%rsp)
	movq	1400(%rsp), %rax
	movq	%rax, 304(%rsp)
	movq	1408(%rsp), %rax
	movq	%rax, 336(%rsp)
	movq	1416(%rsp), %rax
	movq	%rax, 432(%rsp)
	movq	1424(%rsp), %rax
	movq	%rax, 416(%rsp)
	movq	1432(%rsp), %rax
	movq	%rax, 976(%rsp)
	movq	1440(%rsp), %rax
	movq	%rax, 400(%rsp)
	movq	%r12, 32(%rsp)
	movq	%r12, 1104(%rsp)
	movq	%rsi, 96(%rsp)
	movq	%rsi, 1112(%rsp)
	movq	64(%rsp), %rax
	movq	%rax, 1120(%rsp)
	movq	%rdx, 16(%rsp)
	movq	%rdx, 1128(%rsp)
	movq	%rdi, 40(%rsp)
	movq	%rdi, 1136(%rsp)
	movq	%r8, 48(%rsp)
	movq	%r8, 1144(%rsp)
	movq	%r9, 104(%rsp)
	movq	%r9, 1152(%rsp)
	movq	%r10, 200(%rsp)
	movq	%r10, 1160(%rsp)
	movq	%r11, 1016(%rsp)
	movq	%r11, 1168(%rsp)
	movq	%r15, 1008(%rsp)
	movq	%r15, 1176(%rsp)
	movq	%rbx, 1000(%rsp)
	movq	%rbx, 1184(%rsp)
	movq	1752(%rsp), %rbx
	movq	1096(%rsp), %rax
	movq	%rax, 1192(%rsp)
	movq	%rbx, 1200(%rsp)
	movq	1088(%rsp), %rax
	movq	%rax, 1208(%rsp)
	movq	1808(%rsp), %r12
	movq	%rcx, 1520(%rsp)
	movq	%rcx, 1216(%rsp)
	movq	%r14, 1512(%rsp)
	movq	%r14, 1224(%rsp)
	movq	1080(%rsp), %rax
	movq	%rax, 1232(%rsp)
	movq	1072(%rsp), %rax
	movq	%rax, 1240(%rsp)
	movq	1064(%rsp), %rax
	movq	%rax, 1248(%rsp)
	movq	%r12, 1256(%rsp)
	movq	8(%rsp), %rax
	movq	%rax, 1264(%rsp)
	movq	24(%rsp), %rax
	movq	%rax, 1272(%rsp)
	movq	216(%rsp), %rax
	movq	%rax, 1280(%rsp)
	movq	288(%rsp), %rax
	movq	%rax, 1288(%rsp)
	movq	208(%rsp), %rax
	movq	%rax, 1296(%rsp)
	movq	384(%rsp), %rax
	movq	%rax, 1304(%rsp)
	movq	112(%rsp), %rax
	movq	%rax, 1312(%rsp)
	movq	280(%rsp), %rax
	movq	%rax, 1320(%rsp)
	movq	376(%rsp), %rax
	movq	%rax, 1328(%rsp)
	movq	1032(%rsp), %rax
	movq	%rax, 1336(%rsp)
	movq	256(%rsp), %rax
	movq	%rax, 1344(%rsp)
	movq	240(%rsp), %rax
	movq	%rax, 1352(%rsp)
	movq	1024(%rsp), %rax
	movq	%rax, 1360(%rsp)
	movq	320(%rsp), %rax
	movq	%rax, 1368(%rsp)
	movq	224(%rsp), %rax
	movq	%rax, 1376(%rsp)
	movq	352(%rsp), %rax
	movq	%rax, 1384(%rsp)
	movq	304(%rsp), %rax
	movq	%rax, 1392(%rsp)
	movq	336(%rsp), %rax
	movq	%rax, 1400(%rsp)
	movq	432(%rsp), %rax
	movq	%rax, 1408(%rsp)
	movq	416(%rsp), %rax
	movq	%rax, 1416(%rsp)
	movq	976(%rsp), %rax
	movq	%rax, 1424(%rsp)
	movq	400(%rsp), %rax
	movq	%rax, 1432(%rsp)
	movq	1536(%rsp), %rax
	movq	%rax, 1440(%rsp)
	movq	1760(%rsp), %r15
	movq	%r15, 1448(%rsp)
	movq	1824(%rsp), %rax
	movq	%rax, %r14
	movq	%rax, 1456(%rsp)
	movq	184(%rsp), %rax
	movq	%rax, 1464(%rsp)
	pxor	%xmm0, %xmm0
	movdqa	%xmm0, 944(%rsp)
	movdqa	%xmm0, 928(%rsp)
	movdqa	%xmm0, 912(%rsp)
	movdqa	%xmm0, 896(%rsp)
	movdqa	%xmm0, 880(%rsp)
	movdqa	%xmm0, 864(%rsp)
	movdqa	%xmm0, 848(%rsp)
	movdqa	%xmm0, 832(%rsp)
	movdqa	%xmm0, 816(%rsp)
	leaq	816(%rsp), %rdi
	leaq	1104(%rsp), %rdx
	movq	%r13, %rsi
	callq	"jpeg_scan_plan::Plan::of"
	cmpb	$1, 816(%rsp)
	jne	.LBB15_17
	movzbl	824(%rsp), %eax
	movq	%rbp, 448(%rsp)
	movq	%r13, 456(%rsp)
	movb	%al, 464(%rsp)
	movups	825(%rsp), %xmm0
	movups	%xmm0, 465(%rsp)
	movq	840(%rsp), %rax
	movq	%rax, 480(%rsp)
	movaps	848(%rsp), %xmm0
	movups	%xmm0, 488(%rsp)
	movaps	864(%rsp), %xmm0
	movups	%xmm0, 504(%rsp)
	movaps	880(%rsp), %xmm0
	movups	%xmm0, 520(%rsp)
	movaps	896(%rsp), %xmm0
	movups	%xmm0, 536(%rsp)
	movaps	912(%rsp), %xmm0
	movups	%xmm0, 552(%rsp)
	movaps	928(%rsp), %xmm0
	movups	%xmm0, 568(%rsp)
	movdqa	944(%rsp), %xmm0
	movdqu	%xmm0, 584(%rsp)
	pxor	%xmm0, %xmm0
	movdqa	%xmm0, 1568(%rsp)
	movdqa	%xmm0, 1552(%rsp)
	leaq	1552(%rsp), %rdi
	leaq	448(%rsp), %rsi
	leaq	303(%rsp), %rcx
	xorl	%edx, %edx
	xorl	%r8d, %r8d
	callq	"jpeg_scan::run::<#c44e4da361dd472c>"
	cmpb	$0, 1552(%rsp)
	je	.LBB15_21
	movzbl	1560(%rsp), %eax
	jmp	.LBB15_20
.LBB15_17:
	movb	$3, %al
.LBB15_20:
	movzbl	%al, %eax
	pxor	%xmm0, %xmm0
	movdqa	%xmm0, 528(%rsp)
	movdqa	%xmm0, 512(%rsp)
	movdqa	%xmm0, 496(%rsp)
	movdqa	%xmm0, 480(%rsp)
	movdqa	%xmm0, 464(%rsp)
	movdqa	%xmm0, 448(%rsp)
	movdqa	%xmm0, 816(%rsp)
	movdqa	%xmm0, 832(%rsp)
	movdqa	%xmm0, 848(%rsp)
	movdqa	%xmm0, 864(%rsp)
	movdqa	%xmm0, 880(%rsp)
	leaq	1127(%rsp), %r12
	leaq	1126(%rsp), %rbx
	movb	$3, %r15b
	xorl	%ebp, %ebp
	movzbl	%al, %eax
	leaq	.LJTI15_1(%rip), %rcx
	movslq	(%rcx,%rax,4), %rax
	addq	%rcx, %rax
	jmpq	*%rax
.LBB15_533:
	movb	$11, %r15b
	movb	$1, %bpl
	jmp	.LBB15_536
.LBB15_534:
	movb	$4, %r15b
.LBB15_535:
	xorl	%ebp, %ebp
.LBB15_536:
	leaq	.Lstatic.3(%rip), %rsi
	leaq	816(%rsp), %rdi
	movl	$8, %edx
	callq	"core::fmt::type_impls::writers::RefMutWrite::write_str::<#18b16ec19ae6b37c>"
	testb	%al, %al
	jne	.LBB15_560
	pxor	%xmm0, %xmm0
	movdqa	%xmm0, 1104(%rsp)
	movq	$0, 1119(%rsp)
	testb	%bpl, %bpl
	je	.LBB15_539
	addb	$38, %r15b
	movb	$49, 1126(%rsp)
	movl	$2, %edx
	jmp	.LBB15_540
.LBB15_539:
	orb	$48, %r15b
	movl	$1, %edx
	movq	%r12, %rbx
.LBB15_540:
	movb	%r15b, 1127(%rsp)
	movb	$45, -1(%rbx)
	leaq	816(%rsp), %rdi
	movq	%rbx, %rsi
	callq	"core::fmt::type_impls::writers::RefMutWrite::write_str::<#18b16ec19ae6b37c>"
	testb	%al, %al
	jne	.LBB15_560
	leaq	.Lstatic.4(%rip), %rsi
	leaq	816(%rsp), %rdi
	movl	$1, %edx
	callq	"core::fmt::type_impls::writers::RefMutWrite::write_str::<#18b16ec19ae6b37c>"
	xorl	%ebx, %ebx
	testb	%al, %al
	jne	.LBB15_560
.LBB15_558:
	pxor	%xmm0, %xmm0
	movdqa	%xmm0, 1104(%rsp)
	movq	$0, 1120(%rsp)
	movq	880(%rsp), %rax
	cmpq	$64, %rax
	movl	$64, %edx
	cmovbq	%rax, %rdx
	leaq	1104(%rsp), %rdi
	leaq	816(%rsp), %rsi
	callq	"core::str::utf8::from_utf8"
	xorl	%edx, %edx
	cmpb	$0, 1104(%rsp)
	leaq	.Lstatic.2(%rip), %rsi
	cmoveq	1112(%rsp), %rsi
	cmoveq	1120(%rsp), %rdx
	leaq	448(%rsp), %rdi
	callq	"std::io::stdio::StdoutWrite::write_all"
	cmpb	$0, 448(%rsp)
	jne	.LBB15_560
	pxor	%xmm0, %xmm0
	movdqa	%xmm0, 1184(%rsp)
	movdqa	%xmm0, 1168(%rsp)
	movdqa	%xmm0, 1152(%rsp)
	movdqa	%xmm0, 1136(%rsp)
	movdqa	%xmm0, 1120(%rsp)
	movdqa	%xmm0, 1104(%rsp)
	leaq	1104(%rsp), %rdi
	leaq	133120(%rsp), %rsi
	movq	%rbx, %rdx
	callq	"std::io::stdio::StdoutWrite::write_all"
	cmpb	$1, 1104(%rsp)
	jne	.LBB15_577
.LBB15_560:
	movl	$2, 67576(%rsp)
	leaq	67580(%rsp), %rbx
	movl	$1132, %edx
	movq	%rbx, %rdi
	xorl	%esi, %esi
	callq	memset@PLT
	movl	$32, 68712(%rsp)
	movq	$0, 68716(%rsp)
	movl	$0, 68724(%rsp)
	movq	$-1, 68728(%rsp)
	pxor	%xmm0, %xmm0
	movdqu	%xmm0, 68736(%rsp)
	movl	68712(%rsp), %eax
	movl	%eax, 133120(%rsp)
	movq	68716(%rsp), %rax
	movq	%rax, 133124(%rsp)
	movl	68724(%rsp), %eax
	movl	%eax, 133132(%rsp)
	movq	$-1, 133136(%rsp)
	movl	$32, 68712(%rsp)
	movq	$0, 68716(%rsp)
	movl	$0, 68724(%rsp)
	cmpq	$0, 1768(%rsp)
	js	.LBB15_566
	xorl	%ecx, %ecx
	xorl	%r14d, %r14d
	jmp	.LBB15_562
	.p2align	4
.LBB15_565:
	movb	%bpl, 67580(%rsp,%rcx)
	incq	%rcx
	movq	%rcx, 68608(%rsp)
	incq	%r14
	cmpq	$41, %r14
	je	.LBB15_571
.LBB15_562:
	leaq	.Lstatic.18(%rip), %rax
	movzbl	(%r14,%rax), %ebp
	cmpq	$1024, %rcx
	jb	.LBB15_565
	leaq	67576(%rsp), %rdi
	callq	"std_io::io::buffer::Buffer::flush"
	testb	%al, %al
	je	.LBB15_576
	movq	68608(%rsp), %rcx
	cmpq	$1023, %rcx
	jbe	.LBB15_565
	jmp	.LBB15_576
.LBB15_566:
	xorl	%ecx, %ecx
	xorl	%r14d, %r14d
	jmp	.LBB15_567
	.p2align	4
.LBB15_570:
	movb	%bpl, 67580(%rsp,%rcx)
	incq	%rcx
	movq	%rcx, 68608(%rsp)
	incq	%r14
	cmpq	$37, %r14
	je	.LBB15_571
.LBB15_567:
	leaq	.Lstatic.17(%rip), %rax
	movzbl	(%r14,%rax), %ebp
	cmpq	$1024, %rcx
	jb	.LBB15_570
	leaq	67576(%rsp), %rdi
	callq	"std_io::io::buffer::Buffer::flush"
	testb	%al, %al
	je	.LBB15_576
	movq	68608(%rsp), %rcx
	cmpq	$1023, %rcx
	jbe	.LBB15_570
	jmp	.LBB15_576
.LBB15_571:
	leaq	68716(%rsp), %rax
	movq	133136(%rsp), %rdx
	movq	%rdx, 1148(%rbx)
	movaps	133120(%rsp), %xmm0
	movups	%xmm0, 1132(%rbx)
	movq	1148(%rbx), %rdx
	movq	%rdx, 133136(%rsp)
	movdqu	1132(%rbx), %xmm0
	movdqa	%xmm0, 133120(%rsp)
	movl	$32, 68712(%rsp)
	movl	$0, 8(%rax)
	movq	$0, (%rax)
	movq	$-1, 68728(%rsp)
	cmpq	$0, 68736(%rsp)
	jne	.LBB15_575
	cmpq	$1024, %rcx
	jb	.LBB15_574
	leaq	67576(%rsp), %rdi
	callq	"std_io::io::buffer::Buffer::flush"
	movq	68608(%rsp), %rcx
	cmpq	$1024, %rcx
	setb	%dl
	andb	%al, %dl
	cmpb	$1, %dl
	jne	.LBB15_576
.LBB15_574:
	movb	$10, 67580(%rsp,%rcx)
	incq	%rcx
	movq	%rcx, 68608(%rsp)
.LBB15_576:
	movq	133136(%rsp), %rax
	movq	%rax, 1148(%rbx)
	movdqa	133120(%rsp), %xmm0
	movdqu	%xmm0, 1132(%rbx)
	movl	67576(%rsp), %eax
	movl	%eax, 133120(%rsp)
	leaq	133124(%rsp), %rdi
	movl	$1132, %edx
	movq	%rbx, %rsi
	callq	memcpy@PLT
	leaq	133120(%rsp), %rdi
	callq	"std_io::io::buffer::Buffer::flush"
.LBB15_577:
	xorl	%eax, %eax
	addq	$198664, %rsp
	popq	%rbx
	popq	%r12
	popq	%r13
	popq	%r14
	popq	%r15
	popq	%rbp
	retq
.LBB15_575:
	leaq	.Lstatic.4(%rip), %rsi
	leaq	67576(%rsp), %rdi
	movl	$1, %edx
	callq	"core::fmt::formatter::Formatter::write_indented::<#bf264aed5fa78656>"
	jmp	.LBB15_576
.LBB15_21:
	movq	64(%rsp), %rax
	cmpq	$2, %rax
	je	.LBB15_525
	cmpq	$4, %rax
	jne	.LBB15_23
.LBB15_525:
	pxor	%xmm0, %xmm0
	movdqa	%xmm0, 528(%rsp)
	movdqa	%xmm0, 512(%rsp)
	movdqa	%xmm0, 496(%rsp)
	movdqa	%xmm0, 480(%rsp)
	movdqa	%xmm0, 464(%rsp)
	movdqa	%xmm0, 448(%rsp)
	movdqa	%xmm0, 816(%rsp)
	movdqa	%xmm0, 832(%rsp)
	movdqa	%xmm0, 848(%rsp)
	movdqa	%xmm0, 864(%rsp)
	movdqa	%xmm0, 880(%rsp)
	leaq	1127(%rsp), %r12
	movb	$5, %r15b
	leaq	1126(%rsp), %rbx
	jmp	.LBB15_535
.LBB15_23:
	leaq	1104(%rsp), %rbp
	movl	$376, %edx
	movq	%rbp, %rdi
	xorl	%esi, %esi
	callq	memset@PLT
	movq	184(%rsp), %rax
	movl	%eax, %ecx
	andl	$1, %ecx
	leaq	67576(%rsp), %rsi
	movq	%rbp, %rdi
	movq	%r13, %rdx
	callq	"jpeg_header::header"
	cmpb	$0, 1104(%rsp)
	je	.LBB15_24
.LBB15_523:
	pxor	%xmm0, %xmm0
	movdqa	%xmm0, 528(%rsp)
	movdqa	%xmm0, 512(%rsp)
	movdqa	%xmm0, 496(%rsp)
	movdqa	%xmm0, 480(%rsp)
	movdqa	%xmm0, 464(%rsp)
	movdqa	%xmm0, 448(%rsp)
	movdqa	%xmm0, 816(%rsp)
	movdqa	%xmm0, 832(%rsp)
	movdqa	%xmm0, 848(%rsp)
	movdqa	%xmm0, 864(%rsp)
	movdqa	%xmm0, 880(%rsp)
	leaq	1127(%rsp), %r12
	movb	$8, %r15b
	leaq	1126(%rsp), %rbx
	jmp	.LBB15_535
.LBB15_24:
	cmpq	%r14, 1464(%rsp)
	jne	.LBB15_523
	movq	184(%rsp), %rax
	cmpb	%al, 1472(%rsp)
	jne	.LBB15_523
	movq	32(%rsp), %rax
	cmpq	%rax, 1112(%rsp)
	jne	.LBB15_523
	movq	96(%rsp), %rax
	cmpq	%rax, 1120(%rsp)
	jne	.LBB15_523
	movq	64(%rsp), %rax
	cmpq	%rax, 1128(%rsp)
	jne	.LBB15_523
	movq	16(%rsp), %rax
	cmpq	%rax, 1136(%rsp)
	jne	.LBB15_523
	movq	40(%rsp), %rax
	cmpq	%rax, 1144(%rsp)
	jne	.LBB15_523
	movq	48(%rsp), %rax
	cmpq	%rax, 1152(%rsp)
	jne	.LBB15_523
	movq	104(%rsp), %rax
	cmpq	%rax, 1160(%rsp)
	jne	.LBB15_523
	movq	200(%rsp), %rax
	cmpq	%rax, 1168(%rsp)
	jne	.LBB15_523
	movq	1016(%rsp), %rax
	cmpq	%rax, 1176(%rsp)
	jne	.LBB15_523
	movq	1008(%rsp), %rax
	cmpq	%rax, 1184(%rsp)
	jne	.LBB15_523
	movq	1000(%rsp), %rax
	cmpq	%rax, 1192(%rsp)
	jne	.LBB15_523
	movq	1096(%rsp), %rax
	cmpq	%rax, 1200(%rsp)
	jne	.LBB15_523
	cmpq	%rbx, 1208(%rsp)
	jne	.LBB15_523
	movq	1088(%rsp), %rax
	cmpq	%rax, 1216(%rsp)
	jne	.LBB15_523
	movq	1520(%rsp), %rax
	cmpq	%rax, 1224(%rsp)
	jne	.LBB15_523
	movq	1512(%rsp), %rax
	cmpq	%rax, 1232(%rsp)
	jne	.LBB15_523
	movq	1080(%rsp), %rax
	cmpq	%rax, 1240(%rsp)
	jne	.LBB15_523
	movq	1072(%rsp), %rax
	cmpq	%rax, 1248(%rsp)
	jne	.LBB15_523
	movq	1064(%rsp), %rax
	cmpq	%rax, 1256(%rsp)
	jne	.LBB15_523
	cmpq	%r12, 1264(%rsp)
	jne	.LBB15_523
	movq	8(%rsp), %rax
	cmpq	%rax, 1272(%rsp)
	jne	.LBB15_523
	movq	24(%rsp), %rax
	cmpq	%rax, 1280(%rsp)
	jne	.LBB15_523
	movq	216(%rsp), %rax
	cmpq	%rax, 1288(%rsp)
	jne	.LBB15_523
	movq	288(%rsp), %rax
	cmpq	%rax, 1296(%rsp)
	jne	.LBB15_523
	movq	208(%rsp), %rax
	cmpq	%rax, 1304(%rsp)
	jne	.LBB15_523
	movq	384(%rsp), %rax
	cmpq	%rax, 1312(%rsp)
	jne	.LBB15_523
	movq	112(%rsp), %rax
	cmpq	%rax, 1320(%rsp)
	jne	.LBB15_523
	movq	280(%rsp), %rax
	cmpq	%rax, 1328(%rsp)
	jne	.LBB15_523
	movq	376(%rsp), %rax
	cmpq	%rax, 1336(%rsp)
	jne	.LBB15_523
	movq	1032(%rsp), %rax
	cmpq	%rax, 1344(%rsp)
	jne	.LBB15_523
	movq	256(%rsp), %rax
	cmpq	%rax, 1352(%rsp)
	jne	.LBB15_523
	movq	240(%rsp), %rax
	cmpq	%rax, 1360(%rsp)
	jne	.LBB15_523
	movq	1024(%rsp), %rax
	cmpq	%rax, 1368(%rsp)
	jne	.LBB15_523
	movq	320(%rsp), %rax
	cmpq	%rax, 1376(%rsp)
	jne	.LBB15_523
	movq	224(%rsp), %rax
	cmpq	%rax, 1384(%rsp)
	jne	.LBB15_523
	movq	352(%rsp), %rax
	cmpq	%rax, 1392(%rsp)
	jne	.LBB15_523
	movq	304(%rsp), %rax
	cmpq	%rax, 1400(%rsp)
	jne	.LBB15_523
	movq	336(%rsp), %rax
	cmpq	%rax, 1408(%rsp)
	jne	.LBB15_523
	movq	432(%rsp), %rax
	cmpq	%rax, 1416(%rsp)
	jne	.LBB15_523
	movq	416(%rsp), %rax
	cmpq	%rax, 1424(%rsp)
	jne	.LBB15_523
	movq	976(%rsp), %rax
	cmpq	%rax, 1432(%rsp)
	jne	.LBB15_523
	movq	400(%rsp), %rax
	cmpq	%rax, 1440(%rsp)
	jne	.LBB15_523
	movq	1536(%rsp), %rax
	cmpq	%rax, 1448(%rsp)
	jne	.LBB15_523
	cmpq	%r15, 1456(%rsp)
	jne	.LBB15_523
	movq	32(%rsp), %rax
	movq	%rax, 448(%rsp)
	movq	96(%rsp), %rax
	movq	%rax, 456(%rsp)
	movq	64(%rsp), %rax
	movq	%rax, 464(%rsp)
	movq	16(%rsp), %rax
	movq	%rax, 472(%rsp)
	movq	40(%rsp), %rax
	movq	%rax, 480(%rsp)
	movq	48(%rsp), %rax
	movq	%rax, 488(%rsp)
	movq	104(%rsp), %rax
	movq	%rax, 496(%rsp)
	movq	200(%rsp), %rax
	movq	%rax, 504(%rsp)
	movq	1016(%rsp), %rax
	movq	%rax, 512(%rsp)
	movq	1008(%rsp), %rax
	movq	%rax, 520(%rsp)
	movq	1000(%rsp), %rax
	movq	%rax, 528(%rsp)
	movq	1096(%rsp), %rax
	movq	%rax, 536(%rsp)
	movq	%rbx, 544(%rsp)
	movq	1088(%rsp), %rax
	movq	%rax, 552(%rsp)
	movq	1520(%rsp), %rax
	movq	%rax, 560(%rsp)
	movq	1512(%rsp), %rax
	movq	%rax, 568(%rsp)
	movq	1080(%rsp), %rax
	movq	%rax, 576(%rsp)
	movq	1072(%rsp), %rax
	movq	%rax, 584(%rsp)
	movq	1064(%rsp), %rax
	movq	%rax, 592(%rsp)
	movq	%r12, 600(%rsp)
	movq	8(%rsp), %rax
	movq	%rax, 608(%rsp)
	movq	24(%rsp), %rax
	movq	%rax, 616(%rsp)
	movq	216(%rsp), %rax
	movq	%rax, 624(%rsp)
	movq	288(%rsp), %rax
	movq	%rax, 632(%rsp)
	movq	208(%rsp), %rax
	movq	%rax, 640(%rsp)
	movq	384(%rsp), %rax
	movq	%rax, 648(%rsp)
	movq	112(%rsp), %rax
	movq	%rax, 656(%rsp)
	movq	280(%rsp), %rax
	movq	%rax, 664(%rsp)
	movq	376(%rsp), %rax
	movq	%rax, 672(%rsp)
	movq	1032(%rsp), %rax
	movq	%rax, 680(%rsp)
	movq	256(%rsp), %rax
	movq	%rax, 688(%rsp)
	movq	240(%rsp), %rax
	movq	%rax, 696(%rsp)
	movq	1024(%rsp), %rax
	movq	%rax, 704(%rsp)
	movq	320(%rsp), %rax
	movq	%rax, 712(%rsp)
	movq	224(%rsp), %rax
	movq	%rax, 720(%rsp)
	movq	352(%rsp), %rax
	movq	%rax, 728(%rsp)
	movq	304(%rsp), %rax
	movq	%rax, 736(%rsp)
	movq	336(%rsp), %rax
	movq	%rax, 744(%rsp)
	movq	432(%rsp), %rax
	movq	%rax, 752(%rsp)
	movq	416(%rsp), %rax
	movq	%rax, 760(%rsp)
	movq	976(%rsp), %rax
	movq	%rax, 768(%rsp)
	movq	400(%rsp), %rax
	movq	%rax, 776(%rsp)
	movq	1536(%rsp), %rax
	movq	%rax, 784(%rsp)
	movq	%r15, 792(%rsp)
	movq	%r14, 800(%rsp)
	movq	184(%rsp), %rax
	movq	%rax, 808(%rsp)
	pxor	%xmm0, %xmm0
	movdqa	%xmm0, 1680(%rsp)
	movdqa	%xmm0, 1664(%rsp)
	movdqa	%xmm0, 1648(%rsp)
	movdqa	%xmm0, 1632(%rsp)
	movdqa	%xmm0, 1616(%rsp)
	movdqa	%xmm0, 1600(%rsp)
	movdqa	%xmm0, 1584(%rsp)
	movdqa	%xmm0, 1568(%rsp)
	movdqa	%xmm0, 1552(%rsp)
	leaq	1552(%rsp), %rdi
	leaq	448(%rsp), %rdx
	movq	%r13, %rsi
	callq	"jpeg_scan_plan::Plan::of"
	cmpb	$1, 1552(%rsp)
	jne	.LBB15_523
	movzbl	1560(%rsp), %ebp
	movq	1688(%rsp), %r15
	pxor	%xmm0, %xmm0
	movdqa	%xmm0, 1776(%rsp)
	movdqa	%xmm0, 1792(%rsp)
	movdqa	%xmm0, 2000(%rsp)
	movdqa	%xmm0, 2016(%rsp)
	leaq	67576(%rsp), %rax
	movq	%rax, 816(%rsp)
	movq	%r13, 824(%rsp)
	movb	%bpl, 832(%rsp)
	movups	1561(%rsp), %xmm0
	movups	%xmm0, 833(%rsp)
	movq	1576(%rsp), %rax
	movq	%rax, 848(%rsp)
	movaps	1584(%rsp), %xmm0
	movups	%xmm0, 856(%rsp)
	movaps	1600(%rsp), %xmm0
	movups	%xmm0, 872(%rsp)
	movaps	1616(%rsp), %xmm0
	movups	%xmm0, 888(%rsp)
	movaps	1632(%rsp), %xmm0
	movups	%xmm0, 904(%rsp)
	movaps	1648(%rsp), %xmm0
	movups	%xmm0, 920(%rsp)
	movdqa	1664(%rsp), %xmm0
	movdqu	%xmm0, 936(%rsp)
	movq	1680(%rsp), %rax
	movq	%rax, 952(%rsp)
	movq	%r15, 960(%rsp)
	leaq	2000(%rsp), %rdi
	leaq	816(%rsp), %rsi
	leaq	2040(%rsp), %rcx
	movl	$65536, %r8d
	xorl	%edx, %edx
	callq	"jpeg_scan::run::<#c44e4da361dd472c>"
	cmpb	$0, 2000(%rsp)
	jne	.LBB15_523
	cmpq	$1025, %r15
	jae	.LBB15_74
	leaq	1584(%rsp), %rax
	leaq	833(%rsp), %rcx
	leaq	67576(%rsp), %rdx
	movq	%rdx, 816(%rsp)
	movq	%r13, 824(%rsp)
	movb	%bpl, 832(%rsp)
	leaq	1561(%rsp), %rsi
	movq	15(%rsi), %rdx
	movq	%rdx, 15(%rcx)
	movups	(%rsi), %xmm0
	movups	%xmm0, (%rcx)
	movq	96(%rax), %rdx
	movq	%rdx, 119(%rcx)
	movups	80(%rax), %xmm0
	movups	%xmm0, 103(%rcx)
	movups	64(%rax), %xmm0
	movups	%xmm0, 87(%rcx)
	movdqu	(%rax), %xmm0
	movdqu	16(%rax), %xmm1
	movdqu	32(%rax), %xmm2
	movdqu	48(%rax), %xmm3
	movdqu	%xmm3, 71(%rcx)
	movdqu	%xmm2, 55(%rcx)
	movdqu	%xmm1, 39(%rcx)
	movdqu	%xmm0, 23(%rcx)
	movq	%r15, 960(%rsp)
	leaq	1776(%rsp), %rdi
	leaq	816(%rsp), %rsi
	leaq	2040(%rsp), %rcx
	movl	$65536, %r8d
	movl	$1, %edx
	callq	"jpeg_scan::run::<#c44e4da361dd472c>"
	cmpb	$0, 1776(%rsp)
	jne	.LBB15_523
.LBB15_74:
	movq	64(%rsp), %rax
	decq	%rax
	cmpq	$3, %rax
	ja	.LBB15_519
	movq	16(%rsp), %rax
	leaq	-1(%rax), %rcx
	movq	200(%rsp), %rax
	decq	%rax
	movq	%rcx, 1056(%rsp)
	orq	%rcx, %rax
	cmpq	$3, %rax
	ja	.LBB15_519
	movq	200(%rsp), %rax
	imulq	16(%rsp), %rax
	cmpq	$1, 64(%rsp)
	jne	.LBB15_78
	movq	16(%rsp), %rcx
	movq	%rcx, 8(%rsp)
	movq	200(%rsp), %rcx
	movq	%rcx, 56(%rsp)
	movq	%rax, 192(%rsp)
.LBB15_84:
	cmpq	$10, 192(%rsp)
	ja	.LBB15_519
	movq	64(%rsp), %rax
	imulq	32(%rsp), %rax
	movq	%rax, 1744(%rsp)
	imulq	96(%rsp), %rax
	cmpq	$65536, %rax
	ja	.LBB15_519
	movq	8(%rsp), %rax
	decq	%rax
	movq	%rax, 1896(%rsp)
	cmpq	$3, %rax
	ja	.LBB15_87
	movq	8(%rsp), %rax
	leal	(,%rax,8), %ecx
	movq	32(%rsp), %rax
	xorl	%edx, %edx
	divw	%cx
	movzwl	%ax, %ecx
	cmpw	$1, %dx
	sbbq	$-1, %rcx
	jmp	.LBB15_89
.LBB15_78:
	movq	40(%rsp), %rcx
	decq	%rcx
	movq	1016(%rsp), %rdx
	decq	%rdx
	orq	%rcx, %rdx
	cmpq	$3, %rdx
	ja	.LBB15_519
	movq	16(%rsp), %rcx
	movq	40(%rsp), %rdx
	cmpq	%rcx, %rdx
	cmovaq	%rdx, %rcx
	movq	%rcx, 8(%rsp)
	movq	200(%rsp), %rcx
	movq	1016(%rsp), %rsi
	cmpq	%rcx, %rsi
	cmovaq	%rsi, %rcx
	movq	%rcx, 56(%rsp)
	imulq	%rdx, %rsi
	addq	%rax, %rsi
	movq	%rsi, 192(%rsp)
	cmpq	$2, 64(%rsp)
	je	.LBB15_84
	movq	48(%rsp), %rax
	decq	%rax
	movq	1008(%rsp), %rcx
	decq	%rcx
	orq	%rax, %rcx
	cmpq	$3, %rcx
	ja	.LBB15_519
	movq	48(%rsp), %rcx
	movq	8(%rsp), %rax
	cmpq	%rax, %rcx
	cmovaq	%rcx, %rax
	movq	%rax, 8(%rsp)
	movq	1008(%rsp), %rax
	movq	56(%rsp), %rdx
	cmpq	%rdx, %rax
	cmovaq	%rax, %rdx
	movq	%rdx, 56(%rsp)
	imulq	%rcx, %rax
	addq	%rax, 192(%rsp)
	cmpq	$3, 64(%rsp)
	je	.LBB15_84
	movq	104(%rsp), %rax
	decq	%rax
	movq	1000(%rsp), %rcx
	decq	%rcx
	orq	%rax, %rcx
	cmpq	$3, %rcx
	ja	.LBB15_519
	movq	104(%rsp), %rcx
	movq	8(%rsp), %rax
	cmpq	%rax, %rcx
	cmovaq	%rcx, %rax
	movq	%rax, 8(%rsp)
	movq	1000(%rsp), %rax
	movq	56(%rsp), %rdx
	cmpq	%rdx, %rax
	cmovaq	%rax, %rdx
	movq	%rdx, 56(%rsp)
	imulq	%rcx, %rax
	addq	%rax, 192(%rsp)
	jmp	.LBB15_84
.LBB15_87:
	xorl	%ecx, %ecx
.LBB15_89:
	movq	56(%rsp), %rax
	decq	%rax
	cmpq	$3, %rax
	ja	.LBB15_90
	movq	56(%rsp), %rax
	leal	(,%rax,8), %esi
	movq	96(%rsp), %rax
	xorl	%edx, %edx
	divw	%si
	movzwl	%ax, %eax
	cmpw	$1, %dx
	sbbq	$-1, %rax
	jmp	.LBB15_92
.LBB15_90:
	xorl	%eax, %eax
.LBB15_92:
	imulq	%rax, %rcx
	movq	192(%rsp), %rax
	shlq	$6, %rax
	movq	%rax, 112(%rsp)
	imulq	%rax, %rcx
	cmpq	1536(%rsp), %rcx
	seta	%al
	cmpq	$0, 96(%rsp)
	sete	%cl
	orb	%al, %cl
	je	.LBB15_93
.LBB15_519:
	pxor	%xmm0, %xmm0
	movdqa	%xmm0, 528(%rsp)
	movdqa	%xmm0, 512(%rsp)
	movdqa	%xmm0, 496(%rsp)
	movdqa	%xmm0, 480(%rsp)
	movdqa	%xmm0, 464(%rsp)
	movdqa	%xmm0, 448(%rsp)
	movdqa	%xmm0, 816(%rsp)
	movdqa	%xmm0, 832(%rsp)
	movdqa	%xmm0, 848(%rsp)
	movdqa	%xmm0, 864(%rsp)
	movdqa	%xmm0, 880(%rsp)
	cmpq	$1, 64(%rsp)
	leaq	.Lstatic.5(%rip), %rax
	leaq	.Lstatic.6(%rip), %rsi
	cmoveq	%rax, %rsi
	leaq	816(%rsp), %rdi
	movl	$2, %edx
	callq	"core::fmt::type_impls::writers::RefMutWrite::write_str::<#18b16ec19ae6b37c>"
	testb	%al, %al
	jne	.LBB15_560
	leaq	.Lstatic.4(%rip), %rsi
	leaq	816(%rsp), %rdi
	movl	$1, %edx
	callq	"core::fmt::type_impls::writers::RefMutWrite::write_str::<#18b16ec19ae6b37c>"
	testb	%al, %al
	jne	.LBB15_560
	pxor	%xmm0, %xmm0
	movdqa	%xmm0, 1104(%rsp)
	movq	$0, 1120(%rsp)
	movl	$24, %ecx
	movabsq	$2951479051793528259, %rbx
	cmpq	$100, 32(%rsp)
	jb	.LBB15_522
	movq	32(%rsp), %r8
.LBB15_543:
	movq	%r8, %rax
	shrq	$2, %rax
	mulq	%rbx
	shrq	$2, %rdx
	imull	$100, %edx, %eax
	movl	%r8d, %esi
	subl	%eax, %esi
	movzbl	%sil, %eax
	imull	$205, %eax, %esi
	shrl	$11, %esi
	leal	(%rsi,%rsi), %edi
	leal	(%rdi,%rdi,4), %edi
	subb	%dil, %al
	orb	$48, %al
	movb	%al, 1103(%rsp,%rcx)
	orb	$48, %sil
	movb	%sil, 1102(%rsp,%rcx)
	addq	$-2, %rcx
	cmpq	$9999, %r8
	movq	%rdx, %r8
	ja	.LBB15_543
	jmp	.LBB15_544
.LBB15_522:
	movq	32(%rsp), %rdx
.LBB15_544:
	cmpq	$10, %rdx
	jb	.LBB15_546
	movzbl	%dl, %eax
	imull	$205, %eax, %eax
	shrl	$11, %eax
	leal	(%rax,%rax), %esi
	leal	(%rsi,%rsi,4), %esi
	subb	%sil, %dl
	orb	$48, %dl
	movb	%dl, 1103(%rsp,%rcx)
	orb	$48, %al
	movb	%al, 1102(%rsp,%rcx)
	addq	$-2, %rcx
	jmp	.LBB15_547
.LBB15_546:
	orb	$48, %dl
	movb	%dl, 1103(%rsp,%rcx)
	decq	%rcx
.LBB15_547:
	leaq	(%rsp,%rcx), %rsi
	addq	$1104, %rsi
	movb	$45, 1103(%rsp,%rcx)
	movl	$24, %edx
	subq	%rcx, %rdx
	leaq	816(%rsp), %rdi
	callq	"core::fmt::type_impls::writers::RefMutWrite::write_str::<#18b16ec19ae6b37c>"
	testb	%al, %al
	jne	.LBB15_560
	leaq	.Lstatic.7(%rip), %rsi
	leaq	816(%rsp), %rdi
	movl	$1, %edx
	callq	"core::fmt::type_impls::writers::RefMutWrite::write_str::<#18b16ec19ae6b37c>"
	testb	%al, %al
	jne	.LBB15_560
	pxor	%xmm0, %xmm0
	movdqa	%xmm0, 1104(%rsp)
	movq	$0, 1120(%rsp)
	movl	$24, %ecx
	cmpq	$100, 96(%rsp)
	jb	.LBB15_550
.LBB15_551:
	movq	96(%rsp), %r8
	movq	%r8, %rax
	shrq	$2, %rax
	mulq	%rbx
	shrq	$2, %rdx
	imull	$100, %edx, %eax
	movl	%r8d, %esi
	subl	%eax, %esi
	movzbl	%sil, %eax
	imull	$205, %eax, %esi
	shrl	$11, %esi
	leal	(%rsi,%rsi), %edi
	leal	(%rdi,%rdi,4), %edi
	subb	%dil, %al
	orb	$48, %al
	movb	%al, 1103(%rsp,%rcx)
	orb	$48, %sil
	movb	%sil, 1102(%rsp,%rcx)
	addq	$-2, %rcx
	cmpq	$9999, %r8
	movq	%rdx, 96(%rsp)
	ja	.LBB15_551
	jmp	.LBB15_552
.LBB15_550:
	movq	96(%rsp), %rdx
.LBB15_552:
	cmpq	$10, %rdx
	jb	.LBB15_554
	movzbl	%dl, %eax
	imull	$205, %eax, %eax
	shrl	$11, %eax
	leal	(%rax,%rax), %esi
	leal	(%rsi,%rsi,4), %esi
	subb	%sil, %dl
	orb	$48, %dl
	movb	%dl, 1103(%rsp,%rcx)
	orb	$48, %al
	movb	%al, 1102(%rsp,%rcx)
	addq	$-2, %rcx
	jmp	.LBB15_555
.LBB15_554:
	orb	$48, %dl
	movb	%dl, 1103(%rsp,%rcx)
	decq	%rcx
.LBB15_555:
	leaq	(%rsp,%rcx), %rsi
	addq	$1104, %rsi
	movb	$45, 1103(%rsp,%rcx)
	movl	$24, %edx
	subq	%rcx, %rdx
	leaq	816(%rsp), %rdi
	callq	"core::fmt::type_impls::writers::RefMutWrite::write_str::<#18b16ec19ae6b37c>"
	testb	%al, %al
	movq	1760(%rsp), %rbx
	jne	.LBB15_560
	leaq	.Lstatic.8(%rip), %rsi
	leaq	816(%rsp), %rdi
	movl	$5, %edx
	callq	"core::fmt::type_impls::writers::RefMutWrite::write_str::<#18b16ec19ae6b37c>"
	testb	%al, %al
	jne	.LBB15_560
	jmp	.LBB15_558
.LBB15_93:
	movq	64(%rsp), %rdx
	movq	%rdx, %rax
	xorq	$1, %rax
	movq	8(%rsp), %r10
	movq	%r10, %rcx
	xorq	$1, %rcx
	orq	%rax, %rcx
	sete	79(%rsp)
	movq	%rdx, %rax
	xorq	$3, %rax
	movq	16(%rsp), %rdi
	movq	%rdi, %rcx
	xorq	%r10, %rcx
	movq	40(%rsp), %r8
	movq	%r8, %rdx
	xorq	$1, %rdx
	orq	%rcx, %rdx
	movq	48(%rsp), %r9
	movq	%r9, %rcx
	xorq	$1, %rcx
	orq	%rdx, %rcx
	leaq	(,%r10,8), %r11
	leaq	(%r10,%r10), %rdx
	leaq	(%r10,%r10,2), %rsi
	addq	%rsp, %rsi
	addq	$448, %rsi
	movq	%rsi, 168(%rsp)
	leaq	(%r10,%r10,4), %rsi
	leaq	448(%rsp,%rsi), %rsi
	movq	%rsi, 160(%rsp)
	leaq	(%rdx,%rdx,2), %rdx
	leaq	448(%rsp,%rdx), %rdx
	movq	%rdx, 152(%rsp)
	movq	%r11, 24(%rsp)
	movq	%r11, %rdx
	subq	%r10, %rdx
	addq	%rsp, %rdx
	addq	$448, %rdx
	movq	%rdx, 144(%rsp)
	movq	32(%rsp), %rdx
	leaq	7(%rdx), %rsi
	shrq	$3, %rsi
	imulq	192(%rsp), %rsi
	movq	%rsi, 1888(%rsp)
	orq	%rax, %rcx
	sete	78(%rsp)
	movl	%edi, %esi
	andl	$3, %esi
	movq	%rdi, %rax
	andq	$-4, %rax
	movq	%rax, 1040(%rsp)
	movl	%r8d, %r11d
	andl	$3, %r11d
	movq	%r8, %rax
	andq	$-4, %rax
	movq	%rax, 1488(%rsp)
	movl	%r9d, %ebx
	andl	$3, %ebx
	movq	%r9, %rax
	andq	$-4, %rax
	movq	%rax, 1704(%rsp)
	movq	104(%rsp), %rax
	movl	%eax, %r15d
	andl	$3, %r15d
	movq	%rax, %rcx
	andq	$-4, %rcx
	movq	%rcx, 1848(%rsp)
	movq	56(%rsp), %rcx
	leaq	(,%rcx,8), %rcx
	movq	%rcx, 176(%rsp)
	leal	(,%r10,8), %ecx
	movl	%ecx, 1532(%rsp)
	leaq	448(%rsp,%r10), %rcx
	movq	%rcx, 136(%rsp)
	leaq	448(%rsp,%r10,2), %rcx
	movq	%rcx, 128(%rsp)
	leaq	448(%rsp,%r10,4), %rcx
	movq	%rcx, 120(%rsp)
	leaq	(%rdx,%rdx,2), %rcx
	movq	%rcx, 1712(%rsp)
	leaq	(%rdi,%rdi), %rcx
	movq	%rcx, 208(%rsp)
	movq	%rsi, 1880(%rsp)
	leal	(,%rsi,8), %ecx
	movq	%rcx, 216(%rsp)
	leaq	(%r8,%r8), %rcx
	movq	%rcx, 280(%rsp)
	movq	%r11, 1872(%rsp)
	leal	(,%r11,8), %ecx
	movq	%rcx, 288(%rsp)
	leaq	(%r9,%r9), %rcx
	movq	%rcx, 376(%rsp)
	movq	%rbx, 1864(%rsp)
	leal	(,%rbx,8), %ecx
	movq	%rcx, 384(%rsp)
	leaq	133122(%rsp), %rcx
	leaq	133121(%rsp), %rdx
	movq	%rdx, 1728(%rsp)
	leaq	(%rax,%rax), %rax
	movq	%rax, 1024(%rsp)
	movq	%r15, 1856(%rsp)
	leal	(,%r15,8), %eax
	movq	%rax, 1032(%rsp)
	leaq	133123(%rsp), %rax
	movq	%rax, 1736(%rsp)
	movq	$0, 1496(%rsp)
	leaq	133120(%rsp), %rax
	movq	%rax, 80(%rsp)
	movq	%rcx, 992(%rsp)
	movq	%rcx, 1720(%rsp)
	movq	$0, 1504(%rsp)
	movq	$0, 88(%rsp)
	jmp	.LBB15_94
.LBB15_518:
	movq	1496(%rsp), %rdx
	incq	%rdx
	xorl	%eax, %eax
	movq	176(%rsp), %rcx
	cmpq	%rcx, %rdx
	cmoveq	%rax, %rdx
	movq	%rdx, 1496(%rsp)
	movq	1504(%rsp), %rdx
	incq	%rdx
	cmpq	%rcx, %rdx
	cmoveq	%rax, %rdx
	movq	%rdx, 1504(%rsp)
	movq	88(%rsp), %rcx
	incq	%rcx
	movq	1744(%rsp), %rax
	addq	%rax, 1720(%rsp)
	addq	%rax, 392(%rsp)
	addq	%rax, 1728(%rsp)
	addq	%rax, 1736(%rsp)
	movq	1712(%rsp), %rax
	addq	%rax, 992(%rsp)
	addq	%rax, 80(%rsp)
	movq	%rcx, 88(%rsp)
	cmpq	96(%rsp), %rcx
	je	.LBB15_519
.LBB15_94:
	cmpb	$0, 79(%rsp)
	je	.LBB15_108
	cmpq	$0, 176(%rsp)
	je	.LBB15_512
	cmpq	$0, 56(%rsp)
	je	.LBB15_512
	cmpq	$0, 32(%rsp)
	je	.LBB15_518
	movq	88(%rsp), %rax
	orq	176(%rsp), %rax
	shrq	$32, %rax
	je	.LBB15_99
	movq	88(%rsp), %rax
	xorl	%edx, %edx
	divq	176(%rsp)
	movq	%rax, %rcx
	movq	1496(%rsp), %rdx
	jmp	.LBB15_101
.LBB15_108:
	movq	200(%rsp), %rax
	movq	%rax, 504(%rsp)
	movq	1016(%rsp), %rax
	movq	%rax, 512(%rsp)
	movq	1008(%rsp), %rax
	movq	%rax, 520(%rsp)
	movq	1000(%rsp), %rax
	movq	%rax, 528(%rsp)
	movq	1096(%rsp), %rax
	movq	%rax, 536(%rsp)
	movq	1752(%rsp), %rax
	movq	%rax, 544(%rsp)
	movq	1088(%rsp), %rax
	movq	%rax, 552(%rsp)
	movq	1520(%rsp), %rax
	movq	%rax, 560(%rsp)
	movq	1512(%rsp), %rax
	movq	%rax, 568(%rsp)
	movq	1080(%rsp), %rax
	movq	%rax, 576(%rsp)
	movq	1072(%rsp), %rax
	movq	%rax, 584(%rsp)
	movq	1064(%rsp), %rax
	movq	%rax, 592(%rsp)
	movq	32(%rsp), %rax
	movq	%rax, 448(%rsp)
	movq	96(%rsp), %rax
	movq	%rax, 456(%rsp)
	movq	64(%rsp), %rax
	movq	%rax, 464(%rsp)
	movq	16(%rsp), %rax
	movq	%rax, 472(%rsp)
	movq	40(%rsp), %rax
	movq	%rax, 480(%rsp)
	movq	48(%rsp), %rax
	movq	%rax, 488(%rsp)
	movq	104(%rsp), %rax
	movq	%rax, 496(%rsp)
	movq	8(%rsp), %rax
	movq	%rax, 600(%rsp)
	movq	56(%rsp), %rax
	movq	%rax, 608(%rsp)
	movq	192(%rsp), %rax
	movq	%rax, 616(%rsp)
	cmpq	$0, 176(%rsp)
	je	.LBB15_512
	movq	88(%rsp), %rax
	orq	176(%rsp), %rax
	shrq	$32, %rax
	je	.LBB15_110
	movq	88(%rsp), %rax
	xorl	%edx, %edx
	divq	176(%rsp)
	movq	%rax, %rcx
	movq	1504(%rsp), %rsi
	jmp	.LBB15_112
.LBB15_110:
	movq	88(%rsp), %rax
	xorl	%edx, %edx
	divl	176(%rsp)
	movl	%edx, %esi
	movl	%eax, %ecx
.LBB15_112:
	cmpq	$3, 1896(%rsp)
	ja	.LBB15_113
	movq	32(%rsp), %rax
	xorl	%edx, %edx
	divw	1532(%rsp)
	movzwl	%ax, %eax
	cmpw	$1, %dx
	sbbq	$-1, %rax
	imulq	192(%rsp), %rax
	jmp	.LBB15_115
.LBB15_113:
	xorl	%eax, %eax
.LBB15_115:
	pxor	%xmm0, %xmm0
	movdqa	%xmm0, 832(%rsp)
	movdqa	%xmm0, 816(%rsp)
	cmpq	$0, 56(%rsp)
	je	.LBB15_512
	movq	1744(%rsp), %rdi
	imulq	88(%rsp), %rdi
	leaq	(%rsp,%rdi), %rdx
	addq	$133121, %rdx
	movq	%rdx, 1912(%rsp)
	imulq	%rax, %rcx
	xorl	%r8d, %r8d
	movq	64(%rsp), %r11
	movq	56(%rsp), %rbx
	jmp	.LBB15_117
.LBB15_119:
	xorl	%edx, %edx
	divq	%rbx
.LBB15_120:
	movq	%rax, %rdx
	shrq	$3, %rdx
	imulq	%r10, %rdx
	addq	%rcx, %rdx
	shlq	$6, %rdx
	andl	$7, %eax
	leaq	(%rdx,%rax,8), %rax
	movq	%rax, 816(%rsp,%r8,8)
	imulq	%r10, %r9
	addq	%r9, %rcx
	incq	%r8
	cmpq	%r8, %r11
	je	.LBB15_121
.LBB15_117:
	movq	472(%rsp,%r8,8), %r10
	movq	504(%rsp,%r8,8), %r9
	movq	%r9, %rax
	imulq	%rsi, %rax
	movq	%rax, %rdx
	orq	%rbx, %rdx
	shrq	$32, %rdx
	jne	.LBB15_119
	xorl	%edx, %edx
	divl	%ebx
	jmp	.LBB15_120
.LBB15_121:
	movq	816(%rsp), %rbx
	movq	824(%rsp), %r13
	movq	832(%rsp), %rax
	movq	%rax, 1048(%rsp)
	cmpb	$0, 78(%rsp)
	je	.LBB15_122
	cmpq	$0, 32(%rsp)
	je	.LBB15_518
	movq	1712(%rsp), %rax
	imulq	88(%rsp), %rax
	addq	%rsp, %rax
	addq	$133120, %rax
	movq	%rax, 400(%rsp)
	leaq	2040(%rsp,%rbx), %r12
	leaq	(%rsp,%r13), %rdx
	addq	$2040, %rdx
	movq	1048(%rsp), %rax
	leaq	(%rsp,%rax), %rsi
	addq	$2040, %rsi
	cmpq	$1, 16(%rsp)
	je	.LBB15_140
	cmpq	$2, 16(%rsp)
	je	.LBB15_169
	cmpq	$3, 16(%rsp)
	jne	.LBB15_226
	xorl	%edi, %edi
	xorl	%r8d, %r8d
	movq	32(%rsp), %r9
	jmp	.LBB15_136
.LBB15_122:
	movq	32(%rsp), %rbp
	testq	%rbp, %rbp
	je	.LBB15_518
	movq	840(%rsp), %rdx
	leaq	(%rsp,%rdi), %rax
	addq	$133120, %rax
	movq	%rax, 976(%rsp)
	leaq	2232(%rsp), %rax
	leaq	(%rax,%rbx), %rcx
	movq	%rcx, 224(%rsp)
	leaq	2040(%rsp,%rbx), %rcx
	movq	%rcx, 240(%rsp)
	leaq	(%rax,%r13), %rcx
	movq	%rcx, 304(%rsp)
	leaq	2040(%rsp,%r13), %rcx
	movq	%rcx, 320(%rsp)
	movq	1048(%rsp), %rcx
	leaq	(%rax,%rcx), %rsi
	movq	%rsi, 336(%rsp)
	leaq	2040(%rsp,%rcx), %rcx
	movq	%rcx, 352(%rsp)
	addq	%rdx, %rax
	movq	%rax, 416(%rsp)
	movq	%rdx, 1904(%rsp)
	leaq	(%rsp,%rdx), %rax
	addq	$2040, %rax
	movq	%rax, 432(%rsp)
	xorl	%esi, %esi
	xorl	%edx, %edx
	jmp	.LBB15_124
.LBB15_511:
	xorl	%eax, %eax
.LBB15_516:
	movzbl	448(%rsp,%rax), %ecx
	movb	%cl, (%rdi,%rax,4)
	movzbl	480(%rsp,%rax), %ecx
	movb	%cl, 1(%rdi,%rax,4)
	movzbl	512(%rsp,%rax), %ecx
	movb	%cl, 2(%rdi,%rax,4)
	movzbl	544(%rsp,%rax), %ecx
	movb	%cl, 3(%rdi,%rax,4)
.LBB15_517:
	movq	112(%rsp), %rax
	movq	%r15, %rdx
	addq	%rax, %rdx
	movq	%r12, %rsi
	addq	%rbp, %rsi
	addq	%rax, 224(%rsp)
	addq	%rax, 240(%rsp)
	addq	%rax, 304(%rsp)
	addq	%rax, 320(%rsp)
	addq	%rax, 336(%rsp)
	addq	%rax, 352(%rsp)
	addq	%rax, 416(%rsp)
	addq	%rax, 432(%rsp)
	movq	32(%rsp), %rbp
	cmpq	%rbp, %rsi
	jae	.LBB15_518
.LBB15_124:
	subq	%rsi, %rbp
	movq	24(%rsp), %rax
	cmpq	%rbp, %rax
	cmovbq	%rax, %rbp
	movq	%rsi, %r12
	movq	64(%rsp), %rcx
	imulq	%rcx, %rsi
	movq	976(%rsp), %rax
	leaq	(%rax,%rsi), %rdi
	movq	%rdx, %r15
	leaq	(%rdx,%rbx), %rax
	cmpq	$3, %rcx
	je	.LBB15_335
	cmpq	$2, %rcx
	je	.LBB15_274
	cmpq	$1, 64(%rsp)
	jne	.LBB15_425
	pxor	%xmm0, %xmm0
	movdqa	%xmm0, 464(%rsp)
	movdqa	%xmm0, 448(%rsp)
	movq	8(%rsp), %rcx
	cmpq	%rcx, 16(%rsp)
	jne	.LBB15_260
	cmpq	$0, 16(%rsp)
	je	.LBB15_272
	cmpq	$3, 1056(%rsp)
	jae	.LBB15_255
	xorl	%eax, %eax
	jmp	.LBB15_258
.LBB15_274:
	pxor	%xmm0, %xmm0
	movdqa	%xmm0, 496(%rsp)
	movdqa	%xmm0, 480(%rsp)
	movdqa	%xmm0, 464(%rsp)
	movdqa	%xmm0, 448(%rsp)
	movq	8(%rsp), %rcx
	cmpq	%rcx, 16(%rsp)
	jne	.LBB15_283
	cmpq	$0, 16(%rsp)
	je	.LBB15_295
	cmpq	$3, 1056(%rsp)
	jae	.LBB15_278
	xorl	%eax, %eax
	jmp	.LBB15_281
.LBB15_335:
	pxor	%xmm0, %xmm0
	movdqa	%xmm0, 528(%rsp)
	movdqa	%xmm0, 512(%rsp)
	movdqa	%xmm0, 496(%rsp)
	movdqa	%xmm0, 480(%rsp)
	movdqa	%xmm0, 464(%rsp)
	movdqa	%xmm0, 448(%rsp)
	movq	8(%rsp), %rcx
	cmpq	%rcx, 16(%rsp)
	jne	.LBB15_344
	cmpq	$0, 16(%rsp)
	je	.LBB15_356
	cmpq	$3, 1056(%rsp)
	jae	.LBB15_339
	xorl	%eax, %eax
	jmp	.LBB15_342
.LBB15_425:
	pxor	%xmm0, %xmm0
	movdqa	%xmm0, 560(%rsp)
	movdqa	%xmm0, 544(%rsp)
	movdqa	%xmm0, 528(%rsp)
	movdqa	%xmm0, 512(%rsp)
	movdqa	%xmm0, 496(%rsp)
	movdqa	%xmm0, 480(%rsp)
	movdqa	%xmm0, 464(%rsp)
	movdqa	%xmm0, 448(%rsp)
	movq	8(%rsp), %rcx
	cmpq	%rcx, 16(%rsp)
	jne	.LBB15_434
	cmpq	$0, 16(%rsp)
	je	.LBB15_446
	cmpq	$3, 1056(%rsp)
	jae	.LBB15_429
	xorl	%eax, %eax
	jmp	.LBB15_432
.LBB15_283:
	cmpq	$1, 16(%rsp)
	jne	.LBB15_285
	movzbl	2040(%rsp,%rax), %ecx
	imull	$16843009, %ecx, %ecx
	movl	%ecx, 448(%rsp)
	movzbl	2041(%rsp,%rax), %ecx
	imull	$16843009, %ecx, %ecx
	movq	136(%rsp), %rdx
	movl	%ecx, (%rdx)
	movzbl	2042(%rsp,%rax), %ecx
	imull	$16843009, %ecx, %ecx
	movq	128(%rsp), %rdx
	movl	%ecx, (%rdx)
	movzbl	2043(%rsp,%rax), %ecx
	imull	$16843009, %ecx, %ecx
	movq	168(%rsp), %rdx
	movl	%ecx, (%rdx)
	movzbl	2044(%rsp,%rax), %ecx
	imull	$16843009, %ecx, %ecx
	movq	120(%rsp), %rdx
	movl	%ecx, (%rdx)
	movzbl	2045(%rsp,%rax), %ecx
	imull	$16843009, %ecx, %ecx
	movq	160(%rsp), %rdx
	movl	%ecx, (%rdx)
	movzbl	2046(%rsp,%rax), %ecx
	imull	$16843009, %ecx, %ecx
	movq	152(%rsp), %rdx
	movl	%ecx, (%rdx)
	movzbl	2047(%rsp,%rax), %eax
	imull	$16843009, %eax, %eax
	movq	144(%rsp), %rcx
	movl	%eax, (%rcx)
	jmp	.LBB15_295
.LBB15_344:
	cmpq	$1, 16(%rsp)
	jne	.LBB15_346
	movzbl	2040(%rsp,%rax), %ecx
	imull	$16843009, %ecx, %ecx
	movl	%ecx, 448(%rsp)
	movzbl	2041(%rsp,%rax), %ecx
	imull	$16843009, %ecx, %ecx
	movq	136(%rsp), %rdx
	movl	%ecx, (%rdx)
	movzbl	2042(%rsp,%rax), %ecx
	imull	$16843009, %ecx, %ecx
	movq	128(%rsp), %rdx
	movl	%ecx, (%rdx)
	movzbl	2043(%rsp,%rax), %ecx
	imull	$16843009, %ecx, %ecx
	movq	168(%rsp), %rdx
	movl	%ecx, (%rdx)
	movzbl	2044(%rsp,%rax), %ecx
	imull	$16843009, %ecx, %ecx
	movq	120(%rsp), %rdx
	movl	%ecx, (%rdx)
	movzbl	2045(%rsp,%rax), %ecx
	imull	$16843009, %ecx, %ecx
	movq	160(%rsp), %rdx
	movl	%ecx, (%rdx)
	movzbl	2046(%rsp,%rax), %ecx
	imull	$16843009, %ecx, %ecx
	movq	152(%rsp), %rdx
	movl	%ecx, (%rdx)
	movzbl	2047(%rsp,%rax), %eax
	imull	$16843009, %eax, %eax
	movq	144(%rsp), %rcx
	movl	%eax, (%rcx)
	jmp	.LBB15_356
.LBB15_260:
	cmpq	$1, 16(%rsp)
	jne	.LBB15_262
	movzbl	2040(%rsp,%rax), %ecx
	imull	$16843009, %ecx, %ecx
	movl	%ecx, 448(%rsp)
	movzbl	2041(%rsp,%rax), %ecx
	imull	$16843009, %ecx, %ecx
	movq	136(%rsp), %rdx
	movl	%ecx, (%rdx)
	movzbl	2042(%rsp,%rax), %ecx
	imull	$16843009, %ecx, %ecx
	movq	128(%rsp), %rdx
	movl	%ecx, (%rdx)
	movzbl	2043(%rsp,%rax), %ecx
	imull	$16843009, %ecx, %ecx
	movq	168(%rsp), %rdx
	movl	%ecx, (%rdx)
	movzbl	2044(%rsp,%rax), %ecx
	imull	$16843009, %ecx, %ecx
	movq	120(%rsp), %rdx
	movl	%ecx, (%rdx)
	movzbl	2045(%rsp,%rax), %ecx
	imull	$16843009, %ecx, %ecx
	movq	160(%rsp), %rdx
	movl	%ecx, (%rdx)
	movzbl	2046(%rsp,%rax), %ecx
	imull	$16843009, %ecx, %ecx
	movq	152(%rsp), %rdx
	movl	%ecx, (%rdx)
	movzbl	2047(%rsp,%rax), %eax
	imull	$16843009, %eax, %eax
	movq	144(%rsp), %rcx
	movl	%eax, (%rcx)
	jmp	.LBB15_272
.LBB15_434:
	cmpq	$1, 16(%rsp)
	jne	.LBB15_436
	movzbl	2040(%rsp,%rax), %ecx
	imull	$16843009, %ecx, %ecx
	movl	%ecx, 448(%rsp)
	movzbl	2041(%rsp,%rax), %ecx
	imull	$16843009, %ecx, %ecx
	movq	136(%rsp), %rdx
	movl	%ecx, (%rdx)
	movzbl	2042(%rsp,%rax), %ecx
	imull	$16843009, %ecx, %ecx
	movq	128(%rsp), %rdx
	movl	%ecx, (%rdx)
	movzbl	2043(%rsp,%rax), %ecx
	imull	$16843009, %ecx, %ecx
	movq	168(%rsp), %rdx
	movl	%ecx, (%rdx)
	movzbl	2044(%rsp,%rax), %ecx
	imull	$16843009, %ecx, %ecx
	movq	120(%rsp), %rdx
	movl	%ecx, (%rdx)
	movzbl	2045(%rsp,%rax), %ecx
	imull	$16843009, %ecx, %ecx
	movq	160(%rsp), %rdx
	movl	%ecx, (%rdx)
	movzbl	2046(%rsp,%rax), %ecx
	imull	$16843009, %ecx, %ecx
	movq	152(%rsp), %rdx
	movl	%ecx, (%rdx)
	movzbl	2047(%rsp,%rax), %eax
	imull	$16843009, %eax, %eax
	movq	144(%rsp), %rcx
	movl	%eax, (%rcx)
	jmp	.LBB15_446
.LBB15_285:
	cmpq	$0, 24(%rsp)
	je	.LBB15_295
	cmpq	$0, 8(%rsp)
	je	.LBB15_512
	xorl	%ecx, %ecx
	leaq	(%rsp,%rax), %r8
	addq	$2040, %r8
	xorl	%r9d, %r9d
	jmp	.LBB15_288
.LBB15_293:
	xorl	%edx, %edx
	divq	%r10
.LBB15_294:
	movq	%rax, %rdx
	andq	$-8, %rdx
	andl	$7, %eax
	leaq	(%r8,%rdx,8), %rdx
	movzbl	(%rax,%rdx), %eax
	movb	%al, 449(%rsp,%r9)
	addq	$2, %r9
	addq	208(%rsp), %rcx
	cmpq	%r9, 24(%rsp)
	je	.LBB15_295
.LBB15_288:
	movq	%rcx, %rax
	movq	8(%rsp), %r10
	orq	%r10, %rax
	shrq	$32, %rax
	je	.LBB15_289
	movq	%rcx, %rax
	xorl	%edx, %edx
	divq	%r10
	jmp	.LBB15_291
.LBB15_289:
	movl	%ecx, %eax
	xorl	%edx, %edx
	divl	%r10d
.LBB15_291:
	movq	%rax, %rdx
	andq	$-8, %rdx
	andl	$7, %eax
	leaq	(%r8,%rdx,8), %rdx
	movzbl	(%rax,%rdx), %eax
	movb	%al, 448(%rsp,%r9)
	movq	16(%rsp), %rax
	addq	%rcx, %rax
	movq	%rax, %rdx
	orq	%r10, %rdx
	shrq	$32, %rdx
	jne	.LBB15_293
	xorl	%edx, %edx
	divl	%r10d
	jmp	.LBB15_294
.LBB15_346:
	cmpq	$0, 24(%rsp)
	je	.LBB15_356
	cmpq	$0, 8(%rsp)
	je	.LBB15_512
	xorl	%ecx, %ecx
	leaq	(%rsp,%rax), %r8
	addq	$2040, %r8
	xorl	%r9d, %r9d
	jmp	.LBB15_349
.LBB15_354:
	xorl	%edx, %edx
	divq	%r10
.LBB15_355:
	movq	%rax, %rdx
	andq	$-8, %rdx
	andl	$7, %eax
	leaq	(%r8,%rdx,8), %rdx
	movzbl	(%rax,%rdx), %eax
	movb	%al, 449(%rsp,%r9)
	addq	$2, %r9
	addq	208(%rsp), %rcx
	cmpq	%r9, 24(%rsp)
	je	.LBB15_356
.LBB15_349:
	movq	%rcx, %rax
	movq	8(%rsp), %r10
	orq	%r10, %rax
	shrq	$32, %rax
	je	.LBB15_350
	movq	%rcx, %rax
	xorl	%edx, %edx
	divq	%r10
	jmp	.LBB15_352
.LBB15_350:
	movl	%ecx, %eax
	xorl	%edx, %edx
	divl	%r10d
.LBB15_352:
	movq	%rax, %rdx
	andq	$-8, %rdx
	andl	$7, %eax
	leaq	(%r8,%rdx,8), %rdx
	movzbl	(%rax,%rdx), %eax
	movb	%al, 448(%rsp,%r9)
	movq	16(%rsp), %rax
	addq	%rcx, %rax
	movq	%rax, %rdx
	orq	%r10, %rdx
	shrq	$32, %rdx
	jne	.LBB15_354
	xorl	%edx, %edx
	divl	%r10d
	jmp	.LBB15_355
.LBB15_262:
	cmpq	$0, 24(%rsp)
	je	.LBB15_272
	cmpq	$0, 8(%rsp)
	je	.LBB15_512
	xorl	%ecx, %ecx
	leaq	(%rsp,%rax), %rsi
	addq	$2040, %rsi
	xorl	%r8d, %r8d
	jmp	.LBB15_265
.LBB15_270:
	xorl	%edx, %edx
	divq	%r9
.LBB15_271:
	movq	%rax, %rdx
	andq	$-8, %rdx
	andl	$7, %eax
	leaq	(%rsi,%rdx,8), %rdx
	movzbl	(%rax,%rdx), %eax
	movb	%al, 449(%rsp,%r8)
	addq	$2, %r8
	addq	208(%rsp), %rcx
	cmpq	%r8, 24(%rsp)
	je	.LBB15_272
.LBB15_265:
	movq	%rcx, %rax
	movq	8(%rsp), %r9
	orq	%r9, %rax
	shrq	$32, %rax
	je	.LBB15_266
	movq	%rcx, %rax
	xorl	%edx, %edx
	divq	%r9
	jmp	.LBB15_268
.LBB15_266:
	movl	%ecx, %eax
	xorl	%edx, %edx
	divl	%r9d
.LBB15_268:
	movq	%rax, %rdx
	andq	$-8, %rdx
	andl	$7, %eax
	leaq	(%rsi,%rdx,8), %rdx
	movzbl	(%rax,%rdx), %eax
	movb	%al, 448(%rsp,%r8)
	movq	16(%rsp), %rax
	addq	%rcx, %rax
	movq	%rax, %rdx
	orq	%r9, %rdx
	shrq	$32, %rdx
	jne	.LBB15_270
	xorl	%edx, %edx
	divl	%r9d
	jmp	.LBB15_271
.LBB15_436:
	cmpq	$0, 24(%rsp)
	je	.LBB15_446
	cmpq	$0, 8(%rsp)
	je	.LBB15_512
	xorl	%ecx, %ecx
	leaq	(%rsp,%rax), %r8
	addq	$2040, %r8
	xorl	%r9d, %r9d
	jmp	.LBB15_439
.LBB15_444:
	xorl	%edx, %edx
	divq	%r10
.LBB15_445:
	movq	%rax, %rdx
	andq	$-8, %rdx
	andl	$7, %eax
	leaq	(%r8,%rdx,8), %rdx
	movzbl	(%rax,%rdx), %eax
	movb	%al, 449(%rsp,%r9)
	addq	$2, %r9
	addq	208(%rsp), %rcx
	cmpq	%r9, 24(%rsp)
	je	.LBB15_446
.LBB15_439:
	movq	%rcx, %rax
	movq	8(%rsp), %r10
	orq	%r10, %rax
	shrq	$32, %rax
	je	.LBB15_440
	movq	%rcx, %rax
	xorl	%edx, %edx
	divq	%r10
	jmp	.LBB15_442
.LBB15_440:
	movl	%ecx, %eax
	xorl	%edx, %edx
	divl	%r10d
.LBB15_442:
	movq	%rax, %rdx
	andq	$-8, %rdx
	andl	$7, %eax
	leaq	(%r8,%rdx,8), %rdx
	movzbl	(%rax,%rdx), %eax
	movb	%al, 448(%rsp,%r9)
	movq	16(%rsp), %rax
	addq	%rcx, %rax
	movq	%rax, %rdx
	orq	%r10, %rdx
	shrq	$32, %rdx
	jne	.LBB15_444
	xorl	%edx, %edx
	divl	%r10d
	jmp	.LBB15_445
.LBB15_278:
	xorl	%eax, %eax
	movq	224(%rsp), %rcx
	movq	1040(%rsp), %r8
.LBB15_279:
	movq	-192(%rcx), %rdx
	movq	%rdx, 448(%rsp,%rax,8)
	movq	-128(%rcx), %rdx
	movq	%rdx, 456(%rsp,%rax,8)
	movq	-64(%rcx), %rdx
	movq	%rdx, 464(%rsp,%rax,8)
	movq	(%rcx), %rdx
	movq	%rdx, 472(%rsp,%rax,8)
	addq	$4, %rax
	addq	$256, %rcx
	cmpq	%rax, %r8
	jne	.LBB15_279
	testb	$3, 16(%rsp)
	je	.LBB15_295
.LBB15_281:
	leaq	(%rsp,%rax,8), %rcx
	addq	$448, %rcx
	shlq	$6, %rax
	addq	240(%rsp), %rax
	xorl	%edx, %edx
.LBB15_282:
	movq	(%rax,%rdx,8), %r8
	movq	%r8, (%rcx,%rdx)
	addq	$8, %rdx
	cmpq	%rdx, 216(%rsp)
	jne	.LBB15_282
.LBB15_295:
	movq	8(%rsp), %rax
	cmpq	%rax, 40(%rsp)
	jne	.LBB15_304
	cmpq	$0, 40(%rsp)
	je	.LBB15_316
	cmpq	$4, 40(%rsp)
	jae	.LBB15_299
	xorl	%eax, %eax
	jmp	.LBB15_302
.LBB15_304:
	leaq	(%r15,%r13), %rax
	cmpq	$1, 40(%rsp)
	jne	.LBB15_306
	movzbl	2040(%rsp,%rax), %ecx
	imull	$16843009, %ecx, %ecx
	leaq	480(%rsp), %rdx
	movl	%ecx, (%rdx)
	movzbl	2041(%rsp,%rax), %ecx
	imull	$16843009, %ecx, %ecx
	movq	136(%rsp), %rdx
	movl	%ecx, 32(%rdx)
	movzbl	2042(%rsp,%rax), %ecx
	imull	$16843009, %ecx, %ecx
	movq	128(%rsp), %rdx
	movl	%ecx, 32(%rdx)
	movzbl	2043(%rsp,%rax), %ecx
	imull	$16843009, %ecx, %ecx
	movq	168(%rsp), %rdx
	movl	%ecx, 32(%rdx)
	movzbl	2044(%rsp,%rax), %ecx
	imull	$16843009, %ecx, %ecx
	movq	120(%rsp), %rdx
	movl	%ecx, 32(%rdx)
	movzbl	2045(%rsp,%rax), %ecx
	imull	$16843009, %ecx, %ecx
	movq	160(%rsp), %rdx
	movl	%ecx, 32(%rdx)
	movzbl	2046(%rsp,%rax), %ecx
	imull	$16843009, %ecx, %ecx
	movq	152(%rsp), %rdx
	movl	%ecx, 32(%rdx)
	movzbl	2047(%rsp,%rax), %eax
	imull	$16843009, %eax, %eax
	movq	144(%rsp), %rcx
	movl	%eax, 32(%rcx)
	jmp	.LBB15_316
.LBB15_306:
	cmpq	$0, 24(%rsp)
	je	.LBB15_316
	cmpq	$0, 8(%rsp)
	je	.LBB15_512
	xorl	%ecx, %ecx
	leaq	(%rsp,%rax), %r8
	addq	$2040, %r8
	xorl	%r9d, %r9d
	jmp	.LBB15_309
.LBB15_314:
	xorl	%edx, %edx
	divq	%r10
.LBB15_315:
	movq	%rax, %rdx
	andq	$-8, %rdx
	andl	$7, %eax
	leaq	(%r8,%rdx,8), %rdx
	movzbl	(%rax,%rdx), %eax
	movb	%al, 481(%rsp,%r9)
	addq	$2, %r9
	addq	280(%rsp), %rcx
	cmpq	%r9, 24(%rsp)
	je	.LBB15_316
.LBB15_309:
	movq	%rcx, %rax
	movq	8(%rsp), %r10
	orq	%r10, %rax
	shrq	$32, %rax
	je	.LBB15_310
	movq	%rcx, %rax
	xorl	%edx, %edx
	divq	%r10
	jmp	.LBB15_312
.LBB15_310:
	movl	%ecx, %eax
	xorl	%edx, %edx
	divl	%r10d
.LBB15_312:
	movq	%rax, %rdx
	andq	$-8, %rdx
	andl	$7, %eax
	leaq	(%r8,%rdx,8), %rdx
	movzbl	(%rax,%rdx), %eax
	movb	%al, 480(%rsp,%r9)
	movq	40(%rsp), %rax
	addq	%rcx, %rax
	movq	%rax, %rdx
	orq	%r10, %rdx
	shrq	$32, %rdx
	jne	.LBB15_314
	xorl	%edx, %edx
	divl	%r10d
	jmp	.LBB15_315
.LBB15_339:
	xorl	%eax, %eax
	movq	224(%rsp), %rcx
	movq	1040(%rsp), %r8
.LBB15_340:
	movq	-192(%rcx), %rdx
	movq	%rdx, 448(%rsp,%rax,8)
	movq	-128(%rcx), %rdx
	movq	%rdx, 456(%rsp,%rax,8)
	movq	-64(%rcx), %rdx
	movq	%rdx, 464(%rsp,%rax,8)
	movq	(%rcx), %rdx
	movq	%rdx, 472(%rsp,%rax,8)
	addq	$4, %rax
	addq	$256, %rcx
	cmpq	%rax, %r8
	jne	.LBB15_340
	cmpq	$0, 1880(%rsp)
	je	.LBB15_356
.LBB15_342:
	leaq	(%rsp,%rax,8), %rcx
	addq	$448, %rcx
	shlq	$6, %rax
	addq	240(%rsp), %rax
	xorl	%edx, %edx
.LBB15_343:
	movq	(%rax,%rdx,8), %r8
	movq	%r8, (%rcx,%rdx)
	addq	$8, %rdx
	cmpq	%rdx, 216(%rsp)
	jne	.LBB15_343
.LBB15_356:
	movq	8(%rsp), %rax
	cmpq	%rax, 40(%rsp)
	jne	.LBB15_365
	cmpq	$0, 40(%rsp)
	je	.LBB15_377
	cmpq	$4, 40(%rsp)
	jae	.LBB15_360
	xorl	%eax, %eax
	jmp	.LBB15_363
.LBB15_365:
	leaq	(%r15,%r13), %rax
	cmpq	$1, 40(%rsp)
	jne	.LBB15_367
	movzbl	2040(%rsp,%rax), %ecx
	imull	$16843009, %ecx, %ecx
	leaq	480(%rsp), %rdx
	movl	%ecx, (%rdx)
	movzbl	2041(%rsp,%rax), %ecx
	imull	$16843009, %ecx, %ecx
	movq	136(%rsp), %rdx
	movl	%ecx, 32(%rdx)
	movzbl	2042(%rsp,%rax), %ecx
	imull	$16843009, %ecx, %ecx
	movq	128(%rsp), %rdx
	movl	%ecx, 32(%rdx)
	movzbl	2043(%rsp,%rax), %ecx
	imull	$16843009, %ecx, %ecx
	movq	168(%rsp), %rdx
	movl	%ecx, 32(%rdx)
	movzbl	2044(%rsp,%rax), %ecx
	imull	$16843009, %ecx, %ecx
	movq	120(%rsp), %rdx
	movl	%ecx, 32(%rdx)
	movzbl	2045(%rsp,%rax), %ecx
	imull	$16843009, %ecx, %ecx
	movq	160(%rsp), %rdx
	movl	%ecx, 32(%rdx)
	movzbl	2046(%rsp,%rax), %ecx
	imull	$16843009, %ecx, %ecx
	movq	152(%rsp), %rdx
	movl	%ecx, 32(%rdx)
	movzbl	2047(%rsp,%rax), %eax
	imull	$16843009, %eax, %eax
	movq	144(%rsp), %rcx
	movl	%eax, 32(%rcx)
	jmp	.LBB15_377
.LBB15_367:
	cmpq	$0, 24(%rsp)
	je	.LBB15_377
	cmpq	$0, 8(%rsp)
	je	.LBB15_512
	xorl	%ecx, %ecx
	leaq	(%rsp,%rax), %r8
	addq	$2040, %r8
	xorl	%r9d, %r9d
	jmp	.LBB15_370
.LBB15_375:
	xorl	%edx, %edx
	divq	%r10
.LBB15_376:
	movq	%rax, %rdx
	andq	$-8, %rdx
	andl	$7, %eax
	leaq	(%r8,%rdx,8), %rdx
	movzbl	(%rax,%rdx), %eax
	movb	%al, 481(%rsp,%r9)
	addq	$2, %r9
	addq	280(%rsp), %rcx
	cmpq	%r9, 24(%rsp)
	je	.LBB15_377
.LBB15_370:
	movq	%rcx, %rax
	movq	8(%rsp), %r10
	orq	%r10, %rax
	shrq	$32, %rax
	je	.LBB15_371
	movq	%rcx, %rax
	xorl	%edx, %edx
	divq	%r10
	jmp	.LBB15_373
.LBB15_371:
	movl	%ecx, %eax
	xorl	%edx, %edx
	divl	%r10d
.LBB15_373:
	movq	%rax, %rdx
	andq	$-8, %rdx
	andl	$7, %eax
	leaq	(%r8,%rdx,8), %rdx
	movzbl	(%rax,%rdx), %eax
	movb	%al, 480(%rsp,%r9)
	movq	40(%rsp), %rax
	addq	%rcx, %rax
	movq	%rax, %rdx
	orq	%r10, %rdx
	shrq	$32, %rdx
	jne	.LBB15_375
	xorl	%edx, %edx
	divl	%r10d
	jmp	.LBB15_376
.LBB15_255:
	xorl	%eax, %eax
	movq	224(%rsp), %rcx
	movq	1040(%rsp), %rsi
.LBB15_256:
	movq	-192(%rcx), %rdx
	movq	%rdx, 448(%rsp,%rax,8)
	movq	-128(%rcx), %rdx
	movq	%rdx, 456(%rsp,%rax,8)
	movq	-64(%rcx), %rdx
	movq	%rdx, 464(%rsp,%rax,8)
	movq	(%rcx), %rdx
	movq	%rdx, 472(%rsp,%rax,8)
	addq	$4, %rax
	addq	$256, %rcx
	cmpq	%rax, %rsi
	jne	.LBB15_256
	testb	$3, 16(%rsp)
	je	.LBB15_272
.LBB15_258:
	leaq	(%rsp,%rax,8), %rcx
	addq	$448, %rcx
	shlq	$6, %rax
	addq	240(%rsp), %rax
	xorl	%edx, %edx
.LBB15_259:
	movq	(%rax,%rdx,8), %rsi
	movq	%rsi, (%rcx,%rdx)
	addq	$8, %rdx
	cmpq	%rdx, 216(%rsp)
	jne	.LBB15_259
.LBB15_272:
	testq	%rbp, %rbp
	je	.LBB15_517
	leaq	448(%rsp), %rsi
	movq	%rbp, %rdx
	callq	memcpy@PLT
	jmp	.LBB15_517
.LBB15_429:
	xorl	%eax, %eax
	movq	224(%rsp), %rcx
	movq	1040(%rsp), %r8
.LBB15_430:
	movq	-192(%rcx), %rdx
	movq	%rdx, 448(%rsp,%rax,8)
	movq	-128(%rcx), %rdx
	movq	%rdx, 456(%rsp,%rax,8)
	movq	-64(%rcx), %rdx
	movq	%rdx, 464(%rsp,%rax,8)
	movq	(%rcx), %rdx
	movq	%rdx, 472(%rsp,%rax,8)
	addq	$4, %rax
	addq	$256, %rcx
	cmpq	%rax, %r8
	jne	.LBB15_430
	testb	$3, 16(%rsp)
	je	.LBB15_446
.LBB15_432:
	leaq	(%rsp,%rax,8), %rcx
	addq	$448, %rcx
	shlq	$6, %rax
	addq	240(%rsp), %rax
	xorl	%edx, %edx
.LBB15_433:
	movq	(%rax,%rdx,8), %r8
	movq	%r8, (%rcx,%rdx)
	addq	$8, %rdx
	cmpq	%rdx, 216(%rsp)
	jne	.LBB15_433
.LBB15_446:
	movq	8(%rsp), %rax
	cmpq	%rax, 40(%rsp)
	jne	.LBB15_455
	cmpq	$0, 40(%rsp)
	je	.LBB15_467
	cmpq	$4, 40(%rsp)
	jae	.LBB15_450
	xorl	%eax, %eax
	jmp	.LBB15_453
.LBB15_455:
	leaq	(%r15,%r13), %rax
	cmpq	$1, 40(%rsp)
	jne	.LBB15_457
	movzbl	2040(%rsp,%rax), %ecx
	imull	$16843009, %ecx, %ecx
	leaq	480(%rsp), %rdx
	movl	%ecx, (%rdx)
	movzbl	2041(%rsp,%rax), %ecx
	imull	$16843009, %ecx, %ecx
	movq	136(%rsp), %rdx
	movl	%ecx, 32(%rdx)
	movzbl	2042(%rsp,%rax), %ecx
	imull	$16843009, %ecx, %ecx
	movq	128(%rsp), %rdx
	movl	%ecx, 32(%rdx)
	movzbl	2043(%rsp,%rax), %ecx
	imull	$16843009, %ecx, %ecx
	movq	168(%rsp), %rdx
	movl	%ecx, 32(%rdx)
	movzbl	2044(%rsp,%rax), %ecx
	imull	$16843009, %ecx, %ecx
	movq	120(%rsp), %rdx
	movl	%ecx, 32(%rdx)
	movzbl	2045(%rsp,%rax), %ecx
	imull	$16843009, %ecx, %ecx
	movq	160(%rsp), %rdx
	movl	%ecx, 32(%rdx)
	movzbl	2046(%rsp,%rax), %ecx
	imull	$16843009, %ecx, %ecx
	movq	152(%rsp), %rdx
	movl	%ecx, 32(%rdx)
	movzbl	2047(%rsp,%rax), %eax
	imull	$16843009, %eax, %eax
	movq	144(%rsp), %rcx
	movl	%eax, 32(%rcx)
	jmp	.LBB15_467
.LBB15_457:
	cmpq	$0, 24(%rsp)
	je	.LBB15_467
	cmpq	$0, 8(%rsp)
	je	.LBB15_512
	xorl	%ecx, %ecx
	leaq	(%rsp,%rax), %r8
	addq	$2040, %r8
	xorl	%r9d, %r9d
	jmp	.LBB15_460
.LBB15_465:
	xorl	%edx, %edx
	divq	%r10
.LBB15_466:
	movq	%rax, %rdx
	andq	$-8, %rdx
	andl	$7, %eax
	leaq	(%r8,%rdx,8), %rdx
	movzbl	(%rax,%rdx), %eax
	movb	%al, 481(%rsp,%r9)
	addq	$2, %r9
	addq	280(%rsp), %rcx
	cmpq	%r9, 24(%rsp)
	je	.LBB15_467
.LBB15_460:
	movq	%rcx, %rax
	movq	8(%rsp), %r10
	orq	%r10, %rax
	shrq	$32, %rax
	je	.LBB15_461
	movq	%rcx, %rax
	xorl	%edx, %edx
	divq	%r10
	jmp	.LBB15_463
.LBB15_461:
	movl	%ecx, %eax
	xorl	%edx, %edx
	divl	%r10d
.LBB15_463:
	movq	%rax, %rdx
	andq	$-8, %rdx
	andl	$7, %eax
	leaq	(%r8,%rdx,8), %rdx
	movzbl	(%rax,%rdx), %eax
	movb	%al, 480(%rsp,%r9)
	movq	40(%rsp), %rax
	addq	%rcx, %rax
	movq	%rax, %rdx
	orq	%r10, %rdx
	shrq	$32, %rdx
	jne	.LBB15_465
	xorl	%edx, %edx
	divl	%r10d
	jmp	.LBB15_466
.LBB15_299:
	xorl	%eax, %eax
	movq	304(%rsp), %rcx
	movq	1488(%rsp), %r8
.LBB15_300:
	movq	-192(%rcx), %rdx
	movq	%rdx, 480(%rsp,%rax,8)
	movq	-128(%rcx), %rdx
	movq	%rdx, 488(%rsp,%rax,8)
	movq	-64(%rcx), %rdx
	movq	%rdx, 496(%rsp,%rax,8)
	movq	(%rcx), %rdx
	movq	%rdx, 504(%rsp,%rax,8)
	addq	$4, %rax
	addq	$256, %rcx
	cmpq	%rax, %r8
	jne	.LBB15_300
	testb	$3, 40(%rsp)
	je	.LBB15_316
.LBB15_302:
	leaq	480(%rsp), %rcx
	leaq	(%rcx,%rax,8), %rcx
	shlq	$6, %rax
	addq	320(%rsp), %rax
	xorl	%edx, %edx
.LBB15_303:
	movq	(%rax,%rdx,8), %r8
	movq	%r8, (%rcx,%rdx)
	addq	$8, %rdx
	cmpq	%rdx, 288(%rsp)
	jne	.LBB15_303
.LBB15_316:
	testq	%rbp, %rbp
	je	.LBB15_517
	cmpq	$4, %rbp
	jae	.LBB15_319
	xorl	%eax, %eax
.LBB15_330:
	movq	%rax, %rcx
	orq	$1, %rcx
	testb	$1, %bpl
	je	.LBB15_332
	movzbl	448(%rsp,%rax), %edx
	movb	%dl, (%rdi,%rax,2)
	movzbl	480(%rsp,%rax), %edx
	movb	%dl, 1(%rdi,%rax,2)
	movq	%rcx, %rax
.LBB15_332:
	cmpq	%rcx, %rbp
	je	.LBB15_517
	addq	1728(%rsp), %rsi
.LBB15_334:
	movzbl	448(%rsp,%rax), %ecx
	movb	%cl, -1(%rsi,%rax,2)
	movzbl	480(%rsp,%rax), %ecx
	movb	%cl, (%rsi,%rax,2)
	movzbl	449(%rsp,%rax), %ecx
	movb	%cl, 1(%rsi,%rax,2)
	movzbl	481(%rsp,%rax), %ecx
	movb	%cl, 2(%rsi,%rax,2)
	addq	$2, %rax
	cmpq	%rax, %rbp
	jne	.LBB15_334
	jmp	.LBB15_517
.LBB15_319:
	leaq	(%rdi,%rbp,2), %rcx
	addq	$-2, %rcx
	xorl	%eax, %eax
	cmpq	%rdi, %rcx
	jb	.LBB15_330
	movq	1912(%rsp), %rcx
	addq	%rsi, %rcx
	leaq	(%rcx,%rbp,2), %rdx
	addq	$-2, %rdx
	cmpq	%rcx, %rdx
	jb	.LBB15_330
	cmpq	$16, %rbp
	jae	.LBB15_323
	xorl	%eax, %eax
	jmp	.LBB15_327
.LBB15_360:
	xorl	%eax, %eax
	movq	304(%rsp), %rcx
	movq	1488(%rsp), %r8
.LBB15_361:
	movq	-192(%rcx), %rdx
	movq	%rdx, 480(%rsp,%rax,8)
	movq	-128(%rcx), %rdx
	movq	%rdx, 488(%rsp,%rax,8)
	movq	-64(%rcx), %rdx
	movq	%rdx, 496(%rsp,%rax,8)
	movq	(%rcx), %rdx
	movq	%rdx, 504(%rsp,%rax,8)
	addq	$4, %rax
	addq	$256, %rcx
	cmpq	%rax, %r8
	jne	.LBB15_361
	cmpq	$0, 1872(%rsp)
	je	.LBB15_377
.LBB15_363:
	leaq	480(%rsp), %rcx
	leaq	(%rcx,%rax,8), %rcx
	shlq	$6, %rax
	addq	320(%rsp), %rax
	xorl	%edx, %edx
.LBB15_364:
	movq	(%rax,%rdx,8), %r8
	movq	%r8, (%rcx,%rdx)
	addq	$8, %rdx
	cmpq	%rdx, 288(%rsp)
	jne	.LBB15_364
.LBB15_377:
	movq	8(%rsp), %rax
	cmpq	%rax, 48(%rsp)
	jne	.LBB15_386
	cmpq	$0, 48(%rsp)
	je	.LBB15_398
	cmpq	$4, 48(%rsp)
	jae	.LBB15_381
	xorl	%eax, %eax
	jmp	.LBB15_384
.LBB15_386:
	movq	1048(%rsp), %rax
	addq	%r15, %rax
	cmpq	$1, 48(%rsp)
	jne	.LBB15_388
	movzbl	2040(%rsp,%rax), %ecx
	imull	$16843009, %ecx, %ecx
	leaq	512(%rsp), %rdx
	movl	%ecx, (%rdx)
	movzbl	2041(%rsp,%rax), %ecx
	imull	$16843009, %ecx, %ecx
	movq	136(%rsp), %rdx
	movl	%ecx, 64(%rdx)
	movzbl	2042(%rsp,%rax), %ecx
	imull	$16843009, %ecx, %ecx
	movq	128(%rsp), %rdx
	movl	%ecx, 64(%rdx)
	movzbl	2043(%rsp,%rax), %ecx
	imull	$16843009, %ecx, %ecx
	movq	168(%rsp), %rdx
	movl	%ecx, 64(%rdx)
	movzbl	2044(%rsp,%rax), %ecx
	imull	$16843009, %ecx, %ecx
	movq	120(%rsp), %rdx
	movl	%ecx, 64(%rdx)
	movzbl	2045(%rsp,%rax), %ecx
	imull	$16843009, %ecx, %ecx
	movq	160(%rsp), %rdx
	movl	%ecx, 64(%rdx)
	movzbl	2046(%rsp,%rax), %ecx
	imull	$16843009, %ecx, %ecx
	movq	152(%rsp), %rdx
	movl	%ecx, 64(%rdx)
	movzbl	2047(%rsp,%rax), %eax
	imull	$16843009, %eax, %eax
	movq	144(%rsp), %rcx
	movl	%eax, 64(%rcx)
	jmp	.LBB15_398
.LBB15_388:
	cmpq	$0, 24(%rsp)
	je	.LBB15_398
	cmpq	$0, 8(%rsp)
	je	.LBB15_512
	xorl	%ecx, %ecx
	leaq	(%rsp,%rax), %r8
	addq	$2040, %r8
	xorl	%r9d, %r9d
	jmp	.LBB15_391
.LBB15_396:
	xorl	%edx, %edx
	divq	%r10
.LBB15_397:
	movq	%rax, %rdx
	andq	$-8, %rdx
	andl	$7, %eax
	leaq	(%r8,%rdx,8), %rdx
	movzbl	(%rax,%rdx), %eax
	movb	%al, 513(%rsp,%r9)
	addq	$2, %r9
	addq	376(%rsp), %rcx
	cmpq	%r9, 24(%rsp)
	je	.LBB15_398
.LBB15_391:
	movq	%rcx, %rax
	movq	8(%rsp), %r10
	orq	%r10, %rax
	shrq	$32, %rax
	je	.LBB15_392
	movq	%rcx, %rax
	xorl	%edx, %edx
	divq	%r10
	jmp	.LBB15_394
.LBB15_392:
	movl	%ecx, %eax
	xorl	%edx, %edx
	divl	%r10d
.LBB15_394:
	movq	%rax, %rdx
	andq	$-8, %rdx
	andl	$7, %eax
	leaq	(%r8,%rdx,8), %rdx
	movzbl	(%rax,%rdx), %eax
	movb	%al, 512(%rsp,%r9)
	movq	48(%rsp), %rax
	addq	%rcx, %rax
	movq	%rax, %rdx
	orq	%r10, %rdx
	shrq	$32, %rdx
	jne	.LBB15_396
	xorl	%edx, %edx
	divl	%r10d
	jmp	.LBB15_397
.LBB15_450:
	xorl	%eax, %eax
	movq	304(%rsp), %rcx
	movq	1488(%rsp), %r8
.LBB15_451:
	movq	-192(%rcx), %rdx
	movq	%rdx, 480(%rsp,%rax,8)
	movq	-128(%rcx), %rdx
	movq	%rdx, 488(%rsp,%rax,8)
	movq	-64(%rcx), %rdx
	movq	%rdx, 496(%rsp,%rax,8)
	movq	(%rcx), %rdx
	movq	%rdx, 504(%rsp,%rax,8)
	addq	$4, %rax
	addq	$256, %rcx
	cmpq	%rax, %r8
	jne	.LBB15_451
	testb	$3, 40(%rsp)
	je	.LBB15_467
.LBB15_453:
	leaq	480(%rsp), %rcx
	leaq	(%rcx,%rax,8), %rcx
	shlq	$6, %rax
	addq	320(%rsp), %rax
	xorl	%edx, %edx
.LBB15_454:
	movq	(%rax,%rdx,8), %r8
	movq	%r8, (%rcx,%rdx)
	addq	$8, %rdx
	cmpq	%rdx, 288(%rsp)
	jne	.LBB15_454
.LBB15_467:
	movq	8(%rsp), %rax
	cmpq	%rax, 48(%rsp)
	jne	.LBB15_476
	cmpq	$0, 48(%rsp)
	je	.LBB15_488
	cmpq	$4, 48(%rsp)
	jae	.LBB15_471
	xorl	%eax, %eax
	jmp	.LBB15_474
.LBB15_476:
	movq	1048(%rsp), %rax
	addq	%r15, %rax
	cmpq	$1, 48(%rsp)
	jne	.LBB15_478
	movzbl	2040(%rsp,%rax), %ecx
	imull	$16843009, %ecx, %ecx
	leaq	512(%rsp), %rdx
	movl	%ecx, (%rdx)
	movzbl	2041(%rsp,%rax), %ecx
	imull	$16843009, %ecx, %ecx
	movq	136(%rsp), %rdx
	movl	%ecx, 64(%rdx)
	movzbl	2042(%rsp,%rax), %ecx
	imull	$16843009, %ecx, %ecx
	movq	128(%rsp), %rdx
	movl	%ecx, 64(%rdx)
	movzbl	2043(%rsp,%rax), %ecx
	imull	$16843009, %ecx, %ecx
	movq	168(%rsp), %rdx
	movl	%ecx, 64(%rdx)
	movzbl	2044(%rsp,%rax), %ecx
	imull	$16843009, %ecx, %ecx
	movq	120(%rsp), %rdx
	movl	%ecx, 64(%rdx)
	movzbl	2045(%rsp,%rax), %ecx
	imull	$16843009, %ecx, %ecx
	movq	160(%rsp), %rdx
	movl	%ecx, 64(%rdx)
	movzbl	2046(%rsp,%rax), %ecx
	imull	$16843009, %ecx, %ecx
	movq	152(%rsp), %rdx
	movl	%ecx, 64(%rdx)
	movzbl	2047(%rsp,%rax), %eax
	imull	$16843009, %eax, %eax
	movq	144(%rsp), %rcx
	movl	%eax, 64(%rcx)
	jmp	.LBB15_488
.LBB15_478:
	cmpq	$0, 24(%rsp)
	je	.LBB15_488
	cmpq	$0, 8(%rsp)
	je	.LBB15_512
	xorl	%ecx, %ecx
	leaq	(%rsp,%rax), %r8
	addq	$2040, %r8
	xorl	%r9d, %r9d
	jmp	.LBB15_481
.LBB15_486:
	xorl	%edx, %edx
	divq	%r10
.LBB15_487:
	movq	%rax, %rdx
	andq	$-8, %rdx
	andl	$7, %eax
	leaq	(%r8,%rdx,8), %rdx
	movzbl	(%rax,%rdx), %eax
	movb	%al, 513(%rsp,%r9)
	addq	$2, %r9
	addq	376(%rsp), %rcx
	cmpq	%r9, 24(%rsp)
	je	.LBB15_488
.LBB15_481:
	movq	%rcx, %rax
	movq	8(%rsp), %r10
	orq	%r10, %rax
	shrq	$32, %rax
	je	.LBB15_482
	movq	%rcx, %rax
	xorl	%edx, %edx
	divq	%r10
	jmp	.LBB15_484
.LBB15_482:
	movl	%ecx, %eax
	xorl	%edx, %edx
	divl	%r10d
.LBB15_484:
	movq	%rax, %rdx
	andq	$-8, %rdx
	andl	$7, %eax
	leaq	(%r8,%rdx,8), %rdx
	movzbl	(%rax,%rdx), %eax
	movb	%al, 512(%rsp,%r9)
	movq	48(%rsp), %rax
	addq	%rcx, %rax
	movq	%rax, %rdx
	orq	%r10, %rdx
	shrq	$32, %rdx
	jne	.LBB15_486
	xorl	%edx, %edx
	divl	%r10d
	jmp	.LBB15_487
.LBB15_381:
	xorl	%eax, %eax
	movq	336(%rsp), %rcx
	movq	1704(%rsp), %r8
.LBB15_382:
	movq	-192(%rcx), %rdx
	movq	%rdx, 512(%rsp,%rax,8)
	movq	-128(%rcx), %rdx
	movq	%rdx, 520(%rsp,%rax,8)
	movq	-64(%rcx), %rdx
	movq	%rdx, 528(%rsp,%rax,8)
	movq	(%rcx), %rdx
	movq	%rdx, 536(%rsp,%rax,8)
	addq	$4, %rax
	addq	$256, %rcx
	cmpq	%rax, %r8
	jne	.LBB15_382
	cmpq	$0, 1864(%rsp)
	je	.LBB15_398
.LBB15_384:
	leaq	512(%rsp), %rcx
	leaq	(%rcx,%rax,8), %rcx
	shlq	$6, %rax
	addq	352(%rsp), %rax
	xorl	%edx, %edx
.LBB15_385:
	movq	(%rax,%rdx,8), %r8
	movq	%r8, (%rcx,%rdx)
	addq	$8, %rdx
	cmpq	%rdx, 384(%rsp)
	jne	.LBB15_385
.LBB15_398:
	leaq	-1(%rbp), %rax
	cmpq	$31, %rax
	ja	.LBB15_517
	testb	$1, 184(%rsp)
	je	.LBB15_400
	cmpq	$4, %rbp
	jae	.LBB15_404
	xorl	%eax, %eax
	jmp	.LBB15_413
.LBB15_400:
	testq	%rax, %rax
	je	.LBB15_401
	movl	%ebp, %ecx
	andl	$62, %ecx
	addq	1720(%rsp), %rsi
	xorl	%eax, %eax
.LBB15_422:
	movzbl	448(%rsp,%rax), %edx
	movzbl	480(%rsp,%rax), %r8d
	movzbl	512(%rsp,%rax), %r9d
	movb	%dl, -2(%rsi)
	movb	%r8b, -1(%rsi)
	movb	%r9b, (%rsi)
	movzbl	449(%rsp,%rax), %edx
	movzbl	481(%rsp,%rax), %r8d
	movzbl	513(%rsp,%rax), %r9d
	movb	%dl, 1(%rsi)
	movb	%r8b, 2(%rsi)
	movb	%r9b, 3(%rsi)
	addq	$2, %rax
	addq	$6, %rsi
	cmpq	%rax, %rcx
	jne	.LBB15_422
	testb	$1, %bpl
	je	.LBB15_517
	jmp	.LBB15_424
.LBB15_471:
	xorl	%eax, %eax
	movq	336(%rsp), %rcx
	movq	1704(%rsp), %r8
.LBB15_472:
	movq	-192(%rcx), %rdx
	movq	%rdx, 512(%rsp,%rax,8)
	movq	-128(%rcx), %rdx
	movq	%rdx, 520(%rsp,%rax,8)
	movq	-64(%rcx), %rdx
	movq	%rdx, 528(%rsp,%rax,8)
	movq	(%rcx), %rdx
	movq	%rdx, 536(%rsp,%rax,8)
	addq	$4, %rax
	addq	$256, %rcx
	cmpq	%rax, %r8
	jne	.LBB15_472
	testb	$3, 48(%rsp)
	je	.LBB15_488
.LBB15_474:
	leaq	512(%rsp), %rcx
	leaq	(%rcx,%rax,8), %rcx
	shlq	$6, %rax
	addq	352(%rsp), %rax
	xorl	%edx, %edx
.LBB15_475:
	movq	(%rax,%rdx,8), %r8
	movq	%r8, (%rcx,%rdx)
	addq	$8, %rdx
	cmpq	%rdx, 384(%rsp)
	jne	.LBB15_475
.LBB15_488:
	movq	8(%rsp), %rax
	cmpq	%rax, 104(%rsp)
	jne	.LBB15_497
	cmpq	$0, 104(%rsp)
	je	.LBB15_509
	cmpq	$4, 104(%rsp)
	jae	.LBB15_492
	xorl	%eax, %eax
	jmp	.LBB15_495
.LBB15_497:
	movq	1904(%rsp), %rax
	addq	%r15, %rax
	cmpq	$1, 104(%rsp)
	jne	.LBB15_499
	movzbl	2040(%rsp,%rax), %ecx
	imull	$16843009, %ecx, %ecx
	leaq	544(%rsp), %rdx
	movl	%ecx, (%rdx)
	movzbl	2041(%rsp,%rax), %ecx
	imull	$16843009, %ecx, %ecx
	movq	136(%rsp), %rdx
	movl	%ecx, 96(%rdx)
	movzbl	2042(%rsp,%rax), %ecx
	imull	$16843009, %ecx, %ecx
	movq	128(%rsp), %rdx
	movl	%ecx, 96(%rdx)
	movzbl	2043(%rsp,%rax), %ecx
	imull	$16843009, %ecx, %ecx
	movq	168(%rsp), %rdx
	movl	%ecx, 96(%rdx)
	movzbl	2044(%rsp,%rax), %ecx
	imull	$16843009, %ecx, %ecx
	movq	120(%rsp), %rdx
	movl	%ecx, 96(%rdx)
	movzbl	2045(%rsp,%rax), %ecx
	imull	$16843009, %ecx, %ecx
	movq	160(%rsp), %rdx
	movl	%ecx, 96(%rdx)
	movzbl	2046(%rsp,%rax), %ecx
	imull	$16843009, %ecx, %ecx
	movq	152(%rsp), %rdx
	movl	%ecx, 96(%rdx)
	movzbl	2047(%rsp,%rax), %eax
	imull	$16843009, %eax, %eax
	movq	144(%rsp), %rcx
	movl	%eax, 96(%rcx)
	jmp	.LBB15_509
.LBB15_499:
	cmpq	$0, 24(%rsp)
	je	.LBB15_509
	cmpq	$0, 8(%rsp)
	je	.LBB15_512
	xorl	%ecx, %ecx
	leaq	(%rsp,%rax), %r8
	addq	$2040, %r8
	xorl	%r9d, %r9d
	jmp	.LBB15_502
.LBB15_507:
	xorl	%edx, %edx
	divq	%r10
.LBB15_508:
	movq	%rax, %rdx
	andq	$-8, %rdx
	andl	$7, %eax
	leaq	(%r8,%rdx,8), %rdx
	movzbl	(%rax,%rdx), %eax
	movb	%al, 545(%rsp,%r9)
	addq	$2, %r9
	addq	1024(%rsp), %rcx
	cmpq	%r9, 24(%rsp)
	je	.LBB15_509
.LBB15_502:
	movq	%rcx, %rax
	movq	8(%rsp), %r10
	orq	%r10, %rax
	shrq	$32, %rax
	je	.LBB15_503
	movq	%rcx, %rax
	xorl	%edx, %edx
	divq	%r10
	jmp	.LBB15_505
.LBB15_503:
	movl	%ecx, %eax
	xorl	%edx, %edx
	divl	%r10d
.LBB15_505:
	movq	%rax, %rdx
	andq	$-8, %rdx
	andl	$7, %eax
	leaq	(%r8,%rdx,8), %rdx
	movzbl	(%rax,%rdx), %eax
	movb	%al, 544(%rsp,%r9)
	movq	104(%rsp), %rax
	addq	%rcx, %rax
	movq	%rax, %rdx
	orq	%r10, %rdx
	shrq	$32, %rdx
	jne	.LBB15_507
	xorl	%edx, %edx
	divl	%r10d
	jmp	.LBB15_508
.LBB15_492:
	xorl	%eax, %eax
	movq	416(%rsp), %rcx
	movq	1848(%rsp), %r8
.LBB15_493:
	movq	-192(%rcx), %rdx
	movq	%rdx, 544(%rsp,%rax,8)
	movq	-128(%rcx), %rdx
	movq	%rdx, 552(%rsp,%rax,8)
	movq	-64(%rcx), %rdx
	movq	%rdx, 560(%rsp,%rax,8)
	movq	(%rcx), %rdx
	movq	%rdx, 568(%rsp,%rax,8)
	addq	$4, %rax
	addq	$256, %rcx
	cmpq	%rax, %r8
	jne	.LBB15_493
	cmpq	$0, 1856(%rsp)
	je	.LBB15_509
.LBB15_495:
	leaq	544(%rsp), %rcx
	leaq	(%rcx,%rax,8), %rcx
	shlq	$6, %rax
	addq	432(%rsp), %rax
	xorl	%edx, %edx
.LBB15_496:
	movq	(%rax,%rdx,8), %r8
	movq	%r8, (%rcx,%rdx)
	addq	$8, %rdx
	cmpq	%rdx, 1032(%rsp)
	jne	.LBB15_496
.LBB15_509:
	testq	%rbp, %rbp
	je	.LBB15_517
	cmpq	$1, %rbp
	je	.LBB15_511
	movl	%ebp, %ecx
	andl	$65534, %ecx
	addq	1736(%rsp), %rsi
	xorl	%eax, %eax
.LBB15_514:
	movzbl	448(%rsp,%rax), %edx
	movb	%dl, -3(%rsi,%rax,4)
	movzbl	480(%rsp,%rax), %edx
	movb	%dl, -2(%rsi,%rax,4)
	movzbl	512(%rsp,%rax), %edx
	movb	%dl, -1(%rsi,%rax,4)
	movzbl	544(%rsp,%rax), %edx
	movb	%dl, (%rsi,%rax,4)
	movzbl	449(%rsp,%rax), %edx
	movb	%dl, 1(%rsi,%rax,4)
	movzbl	481(%rsp,%rax), %edx
	movb	%dl, 2(%rsi,%rax,4)
	movzbl	513(%rsp,%rax), %edx
	movb	%dl, 3(%rsi,%rax,4)
	movzbl	545(%rsp,%rax), %edx
	movb	%dl, 4(%rsi,%rax,4)
	addq	$2, %rax
	cmpq	%rax, %rcx
	jne	.LBB15_514
	testb	$1, %bpl
	jne	.LBB15_516
	jmp	.LBB15_517
.LBB15_404:
	cmpq	$16, %rbp
	jae	.LBB15_406
	xorl	%eax, %eax
	jmp	.LBB15_410
.LBB15_401:
	xorl	%eax, %eax
.LBB15_424:
	movzbl	448(%rsp,%rax), %ecx
	movzbl	480(%rsp,%rax), %edx
	movzbl	512(%rsp,%rax), %esi
	leaq	(%rax,%rax,2), %rax
	movb	%cl, (%rdi,%rax)
	movb	%dl, 1(%rdi,%rax)
	movb	%sil, 2(%rdi,%rax)
	jmp	.LBB15_517
.LBB15_323:
	movl	%ebp, %eax
	andl	$65520, %eax
	movq	392(%rsp), %rcx
	addq	%rsi, %rcx
	xorl	%edx, %edx
.LBB15_324:
	movq	448(%rsp,%rdx), %xmm0
	movq	456(%rsp,%rdx), %xmm1
	movq	480(%rsp,%rdx), %xmm2
	punpcklbw	%xmm2, %xmm0
	movq	488(%rsp,%rdx), %xmm2
	punpcklbw	%xmm2, %xmm1
	movdqu	%xmm0, (%rcx,%rdx,2)
	movdqu	%xmm1, 16(%rcx,%rdx,2)
	addq	$16, %rdx
	cmpq	%rdx, %rax
	jne	.LBB15_324
	cmpq	%rax, %rbp
	je	.LBB15_517
	testb	$12, %bpl
	je	.LBB15_330
.LBB15_327:
	movq	%rax, %rcx
	movl	%ebp, %eax
	andl	$65532, %eax
	movq	392(%rsp), %rdx
	addq	%rsi, %rdx
.LBB15_328:
	movd	448(%rsp,%rcx), %xmm0
	movd	480(%rsp,%rcx), %xmm1
	punpcklbw	%xmm1, %xmm0
	movq	%xmm0, (%rdx,%rcx,2)
	addq	$4, %rcx
	cmpq	%rcx, %rax
	jne	.LBB15_328
	cmpq	%rax, %rbp
	je	.LBB15_517
	jmp	.LBB15_330
.LBB15_406:
	movl	%ebp, %eax
	andl	$48, %eax
	movq	392(%rsp), %rcx
	addq	%rsi, %rcx
	xorl	%edx, %edx
.LBB15_407:
	movdqu	448(%rsp,%rdx), %xmm7
	movdqu	480(%rsp,%rdx), %xmm2
	movdqu	512(%rsp,%rdx), %xmm12
	pxor	%xmm0, %xmm0
	movdqa	%xmm12, %xmm9
	punpckhbw	%xmm0, %xmm9
	movdqa	%xmm9, %xmm5
	punpcklwd	%xmm0, %xmm5
	punpckhwd	%xmm0, %xmm9
	punpcklbw	%xmm0, %xmm12
	movdqa	%xmm12, %xmm10
	punpcklwd	%xmm0, %xmm10
	punpckhwd	%xmm0, %xmm12
	movdqa	%xmm7, %xmm3
	punpcklbw	%xmm0, %xmm3
	movdqa	%xmm3, %xmm1
	punpckhwd	%xmm0, %xmm1
	movdqa	%xmm1, %xmm8
	movdqa	%xmm1, 1952(%rsp)
	punpcklwd	%xmm0, %xmm3
	movdqa	%xmm3, %xmm15
	movdqa	%xmm3, 1920(%rsp)
	punpckhbw	%xmm0, %xmm7
	movdqa	%xmm7, %xmm1
	punpckhwd	%xmm0, %xmm1
	movdqa	%xmm1, 256(%rsp)
	punpcklwd	%xmm0, %xmm7
	movdqa	%xmm2, %xmm1
	punpckhbw	%xmm0, %xmm1
	movdqa	%xmm1, %xmm3
	punpcklwd	%xmm0, %xmm3
	punpckhwd	%xmm0, %xmm1
	punpcklbw	%xmm0, %xmm2
	movdqa	%xmm2, %xmm13
	punpcklwd	%xmm0, %xmm13
	punpckhwd	%xmm0, %xmm2
	pshuflw	$232, %xmm12, %xmm0
	pshufhw	$232, %xmm0, %xmm0
	pshufd	$232, %xmm0, %xmm0
	pshuflw	$232, %xmm2, %xmm4
	pshufhw	$232, %xmm4, %xmm4
	pshufd	$232, %xmm4, %xmm4
	punpcklwd	%xmm0, %xmm4
	movdqa	%xmm4, %xmm6
	pshuflw	$232, %xmm10, %xmm0
	pshufhw	$232, %xmm0, %xmm0
	pshufd	$232, %xmm0, %xmm0
	pshuflw	$232, %xmm13, %xmm4
	pshufhw	$232, %xmm4, %xmm4
	pshufd	$232, %xmm4, %xmm4
	punpcklwd	%xmm0, %xmm4
	movdqa	%xmm4, %xmm11
	pshuflw	$232, %xmm9, %xmm0
	pshufhw	$232, %xmm0, %xmm0
	pshufd	$232, %xmm0, %xmm0
	pshuflw	$232, %xmm1, %xmm4
	pshufhw	$232, %xmm4, %xmm4
	pshufd	$232, %xmm4, %xmm4
	punpcklwd	%xmm0, %xmm4
	movdqa	%xmm4, %xmm14
	pshuflw	$232, %xmm5, %xmm0
	pshufhw	$232, %xmm0, %xmm0
	pshufd	$232, %xmm0, %xmm0
	pshuflw	$232, %xmm3, %xmm4
	pshufhw	$232, %xmm4, %xmm4
	pshufd	$232, %xmm4, %xmm4
	punpcklwd	%xmm0, %xmm4
	movdqa	.LCPI15_2(%rip), %xmm0
	pmaddwd	%xmm0, %xmm6
	pmaddwd	%xmm0, %xmm11
	pmaddwd	%xmm0, %xmm14
	pmaddwd	%xmm0, %xmm4
	movdqa	.LCPI15_3(%rip), %xmm0
	paddd	%xmm0, %xmm4
	movdqa	%xmm4, 400(%rsp)
	paddd	%xmm0, %xmm14
	movdqa	%xmm14, 1536(%rsp)
	paddd	%xmm0, %xmm11
	movdqa	%xmm11, 1824(%rsp)
	paddd	%xmm0, %xmm6
	movdqa	%xmm6, 1984(%rsp)
	movdqa	%xmm8, %xmm0
	psubd	%xmm12, %xmm0
	movdqa	%xmm0, 1968(%rsp)
	movdqa	.LCPI15_0(%rip), %xmm0
	paddd	%xmm0, %xmm12
	movdqa	%xmm12, 1936(%rsp)
	movdqa	%xmm15, %xmm4
	psubd	%xmm10, %xmm4
	movdqa	%xmm10, %xmm15
	paddd	%xmm0, %xmm15
	movdqa	256(%rsp), %xmm6
	psubd	%xmm9, %xmm6
	movdqa	%xmm6, 1808(%rsp)
	movdqa	%xmm9, %xmm12
	paddd	%xmm0, %xmm12
	movdqa	%xmm7, %xmm8
	psubd	%xmm5, %xmm8
	movdqa	%xmm5, %xmm9
	paddd	%xmm0, %xmm9
	paddd	%xmm0, %xmm3
	paddd	%xmm0, %xmm1
	paddd	%xmm0, %xmm13
	paddd	%xmm0, %xmm2
	movdqa	%xmm3, %xmm6
	movdqa	.LCPI15_5(%rip), %xmm5
	pmaddwd	%xmm5, %xmm3
	movdqa	%xmm1, %xmm14
	pmaddwd	%xmm5, %xmm1
	movdqa	%xmm13, %xmm11
	pmaddwd	%xmm5, %xmm13
	movdqa	%xmm2, %xmm0
	pmaddwd	%xmm5, %xmm2
	movdqa	%xmm9, %xmm10
	paddd	%xmm7, %xmm9
	paddd	%xmm6, %xmm6
	paddd	%xmm7, %xmm6
	movdqa	.LCPI15_6(%rip), %xmm5
	paddd	%xmm5, %xmm3
	psrad	$16, %xmm3
	paddd	%xmm3, %xmm6
	movdqa	%xmm12, %xmm7
	movdqa	256(%rsp), %xmm3
	paddd	%xmm3, %xmm12
	paddd	%xmm14, %xmm14
	paddd	%xmm3, %xmm14
	paddd	%xmm5, %xmm1
	psrad	$16, %xmm1
	paddd	%xmm1, %xmm14
	packssdw	%xmm14, %xmm6
	movdqa	%xmm15, %xmm3
	movdqa	1920(%rsp), %xmm1
	paddd	%xmm1, %xmm15
	paddd	%xmm11, %xmm11
	paddd	%xmm1, %xmm11
	paddd	%xmm5, %xmm13
	psrad	$16, %xmm13
	paddd	%xmm13, %xmm11
	movdqa	.LCPI15_1(%rip), %xmm1
	pmaddwd	%xmm1, %xmm10
	pmaddwd	%xmm1, %xmm7
	pmaddwd	%xmm1, %xmm3
	movdqa	1936(%rsp), %xmm14
	pmaddwd	%xmm14, %xmm1
	movdqa	1952(%rsp), %xmm13
	paddd	%xmm13, %xmm14
	paddd	%xmm0, %xmm0
	paddd	%xmm13, %xmm0
	paddd	%xmm5, %xmm2
	psrad	$16, %xmm2
	paddd	%xmm2, %xmm0
	packssdw	%xmm0, %xmm11
	paddd	%xmm5, %xmm1
	paddd	%xmm5, %xmm3
	paddd	%xmm5, %xmm7
	paddd	%xmm5, %xmm10
	psrad	$16, %xmm10
	paddd	%xmm9, %xmm10
	psrad	$16, %xmm7
	paddd	%xmm12, %xmm7
	packssdw	%xmm7, %xmm10
	psrad	$16, %xmm3
	paddd	%xmm15, %xmm3
	psrad	$16, %xmm1
	paddd	%xmm14, %xmm1
	packssdw	%xmm1, %xmm3
	movdqa	.LCPI15_4(%rip), %xmm0
	movdqa	1984(%rsp), %xmm1
	psrad	$16, %xmm1
	movdqa	1968(%rsp), %xmm2
	paddd	%xmm0, %xmm2
	paddd	%xmm1, %xmm2
	movdqa	1824(%rsp), %xmm1
	psrad	$16, %xmm1
	paddd	%xmm0, %xmm4
	paddd	%xmm1, %xmm4
	packssdw	%xmm2, %xmm4
	movdqa	400(%rsp), %xmm2
	psrad	$16, %xmm2
	movdqa	1536(%rsp), %xmm1
	psrad	$16, %xmm1
	movdqa	1808(%rsp), %xmm5
	paddd	%xmm0, %xmm5
	paddd	%xmm1, %xmm5
	movdqa	%xmm11, %xmm1
	packuswb	%xmm6, %xmm1
	paddd	%xmm0, %xmm8
	paddd	%xmm2, %xmm8
	packssdw	%xmm5, %xmm8
	packuswb	%xmm8, %xmm4
	movdqa	%xmm3, %xmm2
	packuswb	%xmm10, %xmm2
	pshufd	$230, %xmm4, %xmm0
	punpcklbw	%xmm0, %xmm0
	pshufd	$78, %xmm0, %xmm0
	pshuflw	$233, %xmm0, %xmm0
	pshufhw	$148, %xmm0, %xmm5
	movdqa	.LCPI15_7(%rip), %xmm0
	pand	%xmm0, %xmm5
	pshuflw	$255, %xmm2, %xmm2
	pshufhw	$96, %xmm2, %xmm2
	movdqa	%xmm0, %xmm7
	pandn	%xmm2, %xmm7
	por	%xmm5, %xmm7
	movdqa	.LCPI15_8(%rip), %xmm2
	pshuflw	$246, %xmm1, %xmm1
	pshufhw	$0, %xmm1, %xmm5
	movdqa	%xmm2, %xmm1
	pandn	%xmm5, %xmm1
	pand	%xmm2, %xmm7
	por	%xmm7, %xmm1
	movdqa	%xmm4, %xmm5
	punpcklbw	%xmm4, %xmm5
	pshufd	$148, %xmm5, %xmm5
	pshuflw	$148, %xmm5, %xmm5
	packuswb	%xmm3, %xmm3
	pshuflw	$96, %xmm3, %xmm3
	pshufhw	$165, %xmm3, %xmm3
	pand	%xmm2, %xmm3
	pandn	%xmm5, %xmm2
	por	%xmm3, %xmm2
	packuswb	%xmm11, %xmm11
	pshuflw	$0, %xmm11, %xmm3
	pshufhw	$165, %xmm3, %xmm3
	movdqa	%xmm0, %xmm5
	pandn	%xmm3, %xmm5
	pand	%xmm0, %xmm2
	por	%xmm2, %xmm5
	punpckhbw	%xmm4, %xmm4
	pshufd	$233, %xmm4, %xmm2
	pshufhw	$233, %xmm2, %xmm2
	packuswb	%xmm10, %xmm10
	pshuflw	$165, %xmm10, %xmm3
	pshufhw	$255, %xmm3, %xmm3
	pand	%xmm0, %xmm3
	pandn	%xmm2, %xmm0
	por	%xmm3, %xmm0
	movdqa	.LCPI15_9(%rip), %xmm2
	pand	%xmm2, %xmm0
	packuswb	%xmm6, %xmm6
	pshuflw	$165, %xmm6, %xmm3
	pshufhw	$246, %xmm3, %xmm3
	pandn	%xmm3, %xmm2
	por	%xmm0, %xmm2
	movdqu	%xmm2, 32(%rcx)
	movdqu	%xmm5, (%rcx)
	movdqu	%xmm1, 16(%rcx)
	addq	$16, %rdx
	addq	$48, %rcx
	cmpq	%rdx, %rax
	jne	.LBB15_407
	cmpq	%rax, %rbp
	je	.LBB15_517
	testb	$12, %bpl
	je	.LBB15_413
.LBB15_410:
	movq	%rax, %rcx
	movl	%ebp, %eax
	andl	$60, %eax
	leaq	(%rcx,%rcx,2), %rdx
	addq	%rsi, %rdx
	addq	392(%rsp), %rdx
.LBB15_411:
	movd	448(%rsp,%rcx), %xmm2
	movd	480(%rsp,%rcx), %xmm1
	movd	512(%rsp,%rcx), %xmm5
	pxor	%xmm0, %xmm0
	punpcklbw	%xmm0, %xmm5
	punpcklwd	%xmm0, %xmm5
	movdqa	.LCPI15_0(%rip), %xmm4
	punpcklbw	%xmm0, %xmm2
	punpcklwd	%xmm0, %xmm2
	pshuflw	$232, %xmm5, %xmm6
	movdqa	%xmm2, %xmm7
	psubd	%xmm5, %xmm7
	paddd	%xmm4, %xmm5
	movdqa	.LCPI15_1(%rip), %xmm3
	pmaddwd	%xmm5, %xmm3
	punpcklbw	%xmm0, %xmm1
	punpcklwd	%xmm0, %xmm1
	pshufhw	$232, %xmm6, %xmm6
	pshufd	$232, %xmm6, %xmm8
	pshuflw	$232, %xmm1, %xmm6
	pshufhw	$232, %xmm6, %xmm6
	pshufd	$232, %xmm6, %xmm6
	punpcklwd	%xmm8, %xmm6
	pmaddwd	.LCPI15_2(%rip), %xmm6
	paddd	%xmm2, %xmm5
	paddd	.LCPI15_3(%rip), %xmm6
	psrad	$16, %xmm6
	paddd	%xmm7, %xmm6
	paddd	%xmm4, %xmm1
	movdqa	%xmm1, %xmm4
	paddd	%xmm4, %xmm4
	pmaddwd	.LCPI15_5(%rip), %xmm1
	movdqa	.LCPI15_6(%rip), %xmm7
	paddd	%xmm7, %xmm1
	psrad	$16, %xmm1
	paddd	%xmm2, %xmm4
	paddd	%xmm1, %xmm4
	packssdw	%xmm4, %xmm4
	packuswb	%xmm4, %xmm4
	paddd	%xmm7, %xmm3
	psrad	$16, %xmm3
	paddd	%xmm5, %xmm3
	paddd	.LCPI15_4(%rip), %xmm6
	packssdw	%xmm6, %xmm3
	packuswb	%xmm3, %xmm3
	punpcklbw	%xmm0, %xmm3
	pshufd	$231, %xmm3, %xmm0
	pshuflw	$220, %xmm0, %xmm0
	pshufhw	$198, %xmm3, %xmm1
	pshufd	$108, %xmm1, %xmm1
	pshuflw	$104, %xmm1, %xmm1
	pshufhw	$37, %xmm1, %xmm1
	packuswb	%xmm0, %xmm1
	movdqa	.LCPI15_10(%rip), %xmm0
	pand	%xmm0, %xmm1
	pshuflw	$80, %xmm4, %xmm2
	pshufd	$208, %xmm2, %xmm2
	pandn	%xmm2, %xmm0
	por	%xmm1, %xmm0
	movq	%xmm0, (%rdx)
	pshufd	$238, %xmm0, %xmm0
	movd	%xmm0, 8(%rdx)
	addq	$4, %rcx
	addq	$12, %rdx
	cmpq	%rcx, %rax
	jne	.LBB15_411
	cmpq	%rax, %rbp
	je	.LBB15_517
.LBB15_413:
	leaq	(%rax,%rax,2), %rcx
	addq	%rcx, %rsi
	addq	392(%rsp), %rsi
	jmp	.LBB15_414
.LBB15_420:
	movb	%cl, 2(%rsi)
	incq	%rax
	addq	$3, %rsi
	cmpq	%rax, %rbp
	je	.LBB15_517
.LBB15_414:
	movzbl	448(%rsp,%rax), %edx
	movzbl	512(%rsp,%rax), %edi
	leal	(%rdi,%rdx), %ecx
	imull	$26345, %edi, %r8d
	addl	$-3339392, %r8d
	sarl	$16, %r8d
	leal	(%r8,%rcx), %r9d
	addl	$-128, %r9d
	xorl	%ecx, %ecx
	testl	%r9d, %r9d
	cmovlel	%ecx, %r9d
	cmpl	$255, %r9d
	jl	.LBB15_416
	movl	$255, %r9d
.LBB15_416:
	movzbl	480(%rsp,%rax), %r8d
	movb	%r9b, (%rsi)
	imull	$18734, %edi, %r9d
	imull	$-22554, %r8d, %r10d
	addl	%r10d, %r9d
	addl	$521728, %r9d
	sarl	$16, %r9d
	movl	%edx, %r10d
	subl	%edi, %r10d
	leal	(%r10,%r9), %edi
	addl	$128, %edi
	testl	%edi, %edi
	cmovlel	%ecx, %edi
	cmpl	$255, %edi
	jl	.LBB15_418
	movl	$255, %edi
.LBB15_418:
	movb	%dil, 1(%rsi)
	leal	(%rdx,%r8,2), %edx
	imull	$-14942, %r8d, %edi
	addl	$1945344, %edi
	sarl	$16, %edi
	addl	%edi, %edx
	addl	$-256, %edx
	testl	%edx, %edx
	cmovgl	%edx, %ecx
	cmpl	$255, %ecx
	jl	.LBB15_420
	movl	$255, %ecx
	jmp	.LBB15_420
.LBB15_99:
	movq	88(%rsp), %rax
	xorl	%edx, %edx
	divl	176(%rsp)
	movl	%eax, %ecx
.LBB15_101:
	imulq	200(%rsp), %rdx
	movq	%rdx, %rax
	orq	56(%rsp), %rax
	shrq	$32, %rax
	je	.LBB15_102
	movq	%rdx, %rax
	xorl	%edx, %edx
	divq	56(%rsp)
	jmp	.LBB15_104
.LBB15_139:
	xorl	%r10d, %r10d
.LBB15_224:
	addq	400(%rsp), %r11
	movzbl	448(%rsp,%r10), %eax
	movzbl	816(%rsp,%r10), %ecx
	movzbl	1552(%rsp,%r10), %ebx
	leaq	(%r10,%r10,2), %r10
	movb	%al, (%r11,%r10)
	movb	%cl, 1(%r11,%r10)
	movb	%bl, 2(%r11,%r10)
.LBB15_225:
	addq	112(%rsp), %rdi
	addq	%r9, %r8
	movq	32(%rsp), %r9
	cmpq	%r9, %r8
	jae	.LBB15_518
.LBB15_136:
	subq	%r8, %r9
	movq	24(%rsp), %rax
	cmpq	%r9, %rax
	cmovbq	%rax, %r9
	movq	$0, 472(%rsp)
	leaq	841(%rsp), %r10
	movl	$0, 3(%r10)
	movl	$0, (%r10)
	leaq	1577(%rsp), %r11
	movl	$0, 3(%r11)
	movl	$0, (%r11)
	movq	64(%r12,%rdi), %xmm0
	movq	(%r12,%rdi), %xmm1
	punpcklqdq	%xmm0, %xmm1
	movdqa	%xmm1, 448(%rsp)
	movq	128(%r12,%rdi), %rax
	movq	%rax, 464(%rsp)
	movzbl	(%rdx,%rdi), %eax
	movb	%al, 818(%rsp)
	movl	%eax, %ecx
	shll	$8, %ecx
	orl	%eax, %ecx
	movw	%cx, 816(%rsp)
	movzbl	1(%rdx,%rdi), %eax
	movb	%al, -20(%r10)
	movl	%eax, %ecx
	shll	$8, %ecx
	orl	%eax, %ecx
	movw	%cx, -22(%r10)
	movzbl	2(%rdx,%rdi), %eax
	movb	%al, -17(%r10)
	movl	%eax, %ecx
	shll	$8, %ecx
	orl	%eax, %ecx
	movw	%cx, -19(%r10)
	movzbl	3(%rdx,%rdi), %eax
	movb	%al, -14(%r10)
	movl	%eax, %ecx
	shll	$8, %ecx
	orl	%eax, %ecx
	movw	%cx, -16(%r10)
	movzbl	4(%rdx,%rdi), %eax
	movb	%al, -11(%r10)
	movl	%eax, %ecx
	shll	$8, %ecx
	orl	%eax, %ecx
	movw	%cx, -13(%r10)
	movzbl	5(%rdx,%rdi), %eax
	movb	%al, -8(%r10)
	movl	%eax, %ecx
	shll	$8, %ecx
	orl	%eax, %ecx
	movw	%cx, -10(%r10)
	movzbl	6(%rdx,%rdi), %eax
	movb	%al, -5(%r10)
	movl	%eax, %ecx
	shll	$8, %ecx
	orl	%eax, %ecx
	movw	%cx, -7(%r10)
	movzbl	7(%rdx,%rdi), %eax
	imull	$16843009, %eax, %eax
	movl	%eax, -4(%r10)
	movzbl	(%rsi,%rdi), %eax
	movb	%al, 1554(%rsp)
	movl	%eax, %ecx
	shll	$8, %ecx
	orl	%eax, %ecx
	movw	%cx, 1552(%rsp)
	movzbl	1(%rsi,%rdi), %eax
	movb	%al, -20(%r11)
	movl	%eax, %ecx
	shll	$8, %ecx
	orl	%eax, %ecx
	movw	%cx, -22(%r11)
	movzbl	2(%rsi,%rdi), %eax
	movb	%al, -17(%r11)
	movl	%eax, %ecx
	shll	$8, %ecx
	orl	%eax, %ecx
	movw	%cx, -19(%r11)
	movzbl	3(%rsi,%rdi), %eax
	leaq	1561(%rsp), %r10
	movb	%al, 2(%r10)
	movl	%eax, %ecx
	shll	$8, %ecx
	orl	%eax, %ecx
	movw	%cx, (%r10)
	movzbl	4(%rsi,%rdi), %eax
	movb	%al, -11(%r11)
	movl	%eax, %ecx
	shll	$8, %ecx
	orl	%eax, %ecx
	movw	%cx, -13(%r11)
	movzbl	5(%rsi,%rdi), %eax
	movb	%al, -8(%r11)
	movl	%eax, %ecx
	shll	$8, %ecx
	orl	%eax, %ecx
	movw	%cx, -10(%r11)
	movzbl	6(%rsi,%rdi), %eax
	movb	%al, -5(%r11)
	movl	%eax, %ecx
	shll	$8, %ecx
	orl	%eax, %ecx
	movw	%cx, -7(%r11)
	movzbl	7(%rsi,%rdi), %eax
	imull	$16843009, %eax, %eax
	movl	%eax, -4(%r11)
	leaq	-1(%r9), %rax
	cmpq	$31, %rax
	ja	.LBB15_225
	leaq	(%r8,%r8,2), %r11
	testb	$1, 184(%rsp)
	je	.LBB15_138
	cmpq	$4, %r9
	jae	.LBB15_204
	xorl	%r10d, %r10d
	jmp	.LBB15_213
.LBB15_138:
	testq	%rax, %rax
	je	.LBB15_139
	movl	%r9d, %ebx
	andl	$62, %ebx
	movq	992(%rsp), %rax
	leaq	(%rax,%r11), %r15
	xorl	%r10d, %r10d
.LBB15_222:
	movzbl	448(%rsp,%r10), %eax
	movzbl	816(%rsp,%r10), %ecx
	movzbl	1552(%rsp,%r10), %ebp
	movb	%al, -2(%r15)
	movb	%cl, -1(%r15)
	movb	%bpl, (%r15)
	movzbl	449(%rsp,%r10), %eax
	movzbl	817(%rsp,%r10), %ecx
	movzbl	1553(%rsp,%r10), %ebp
	movb	%al, 1(%r15)
	movb	%cl, 2(%r15)
	movb	%bpl, 3(%r15)
	addq	$2, %r10
	addq	$6, %r15
	cmpq	%r10, %rbx
	jne	.LBB15_222
	testb	$1, %r9b
	jne	.LBB15_224
	jmp	.LBB15_225
.LBB15_204:
	cmpq	$16, %r9
	jae	.LBB15_206
	xorl	%r10d, %r10d
	jmp	.LBB15_210
.LBB15_206:
	movl	%r9d, %r10d
	andl	$48, %r10d
	movq	80(%rsp), %rax
	leaq	(%rax,%r11), %rbx
	xorl	%ebp, %ebp
.LBB15_207:
	movdqa	448(%rsp,%rbp), %xmm7
	movdqu	816(%rsp,%rbp), %xmm2
	movdqu	1552(%rsp,%rbp), %xmm12
	pxor	%xmm0, %xmm0
	movdqa	%xmm12, %xmm9
	punpckhbw	%xmm0, %xmm9
	movdqa	%xmm9, %xmm5
	punpcklwd	%xmm0, %xmm5
	punpckhwd	%xmm0, %xmm9
	punpcklbw	%xmm0, %xmm12
	movdqa	%xmm12, %xmm10
	punpcklwd	%xmm0, %xmm10
	punpckhwd	%xmm0, %xmm12
	movdqa	%xmm7, %xmm3
	punpcklbw	%xmm0, %xmm3
	movdqa	%xmm3, %xmm1
	punpckhwd	%xmm0, %xmm1
	movdqa	%xmm1, %xmm8
	movdqa	%xmm1, 432(%rsp)
	punpcklwd	%xmm0, %xmm3
	movdqa	%xmm3, %xmm15
	movdqa	%xmm3, 976(%rsp)
	punpckhbw	%xmm0, %xmm7
	movdqa	%xmm7, %xmm1
	punpckhwd	%xmm0, %xmm1
	movdqa	%xmm1, 256(%rsp)
	punpcklwd	%xmm0, %xmm7
	movdqa	%xmm2, %xmm1
	punpckhbw	%xmm0, %xmm1
	movdqa	%xmm1, %xmm3
	punpcklwd	%xmm0, %xmm3
	punpckhwd	%xmm0, %xmm1
	punpcklbw	%xmm0, %xmm2
	movdqa	%xmm2, %xmm13
	punpcklwd	%xmm0, %xmm13
	punpckhwd	%xmm0, %xmm2
	pshuflw	$232, %xmm12, %xmm0
	pshufhw	$232, %xmm0, %xmm0
	pshufd	$232, %xmm0, %xmm0
	pshuflw	$232, %xmm2, %xmm4
	pshufhw	$232, %xmm4, %xmm4
	pshufd	$232, %xmm4, %xmm4
	punpcklwd	%xmm0, %xmm4
	movdqa	%xmm4, %xmm6
	pshuflw	$232, %xmm10, %xmm0
	pshufhw	$232, %xmm0, %xmm0
	pshufd	$232, %xmm0, %xmm0
	pshuflw	$232, %xmm13, %xmm4
	pshufhw	$232, %xmm4, %xmm4
	pshufd	$232, %xmm4, %xmm4
	punpcklwd	%xmm0, %xmm4
	movdqa	%xmm4, %xmm11
	pshuflw	$232, %xmm9, %xmm0
	pshufhw	$232, %xmm0, %xmm0
	pshufd	$232, %xmm0, %xmm0
	pshuflw	$232, %xmm1, %xmm4
	pshufhw	$232, %xmm4, %xmm4
	pshufd	$232, %xmm4, %xmm4
	punpcklwd	%xmm0, %xmm4
	movdqa	%xmm4, %xmm14
	pshuflw	$232, %xmm5, %xmm0
	pshufhw	$232, %xmm0, %xmm0
	pshufd	$232, %xmm0, %xmm0
	pshuflw	$232, %xmm3, %xmm4
	pshufhw	$232, %xmm4, %xmm4
	pshufd	$232, %xmm4, %xmm4
	punpcklwd	%xmm0, %xmm4
	movdqa	.LCPI15_2(%rip), %xmm0
	pmaddwd	%xmm0, %xmm6
	pmaddwd	%xmm0, %xmm11
	pmaddwd	%xmm0, %xmm14
	pmaddwd	%xmm0, %xmm4
	movdqa	.LCPI15_3(%rip), %xmm0
	paddd	%xmm0, %xmm4
	movdqa	%xmm4, 240(%rsp)
	paddd	%xmm0, %xmm14
	movdqa	%xmm14, 320(%rsp)
	paddd	%xmm0, %xmm11
	movdqa	%xmm11, 224(%rsp)
	paddd	%xmm0, %xmm6
	movdqa	%xmm6, 304(%rsp)
	movdqa	%xmm8, %xmm0
	psubd	%xmm12, %xmm0
	movdqa	%xmm0, 336(%rsp)
	movdqa	.LCPI15_0(%rip), %xmm0
	paddd	%xmm0, %xmm12
	movdqa	%xmm12, 416(%rsp)
	movdqa	%xmm15, %xmm4
	psubd	%xmm10, %xmm4
	movdqa	%xmm10, %xmm15
	paddd	%xmm0, %xmm15
	movdqa	256(%rsp), %xmm6
	psubd	%xmm9, %xmm6
	movdqa	%xmm6, 352(%rsp)
	movdqa	%xmm9, %xmm12
	paddd	%xmm0, %xmm12
	movdqa	%xmm7, %xmm8
	psubd	%xmm5, %xmm8
	movdqa	%xmm5, %xmm9
	paddd	%xmm0, %xmm9
	paddd	%xmm0, %xmm3
	paddd	%xmm0, %xmm1
	paddd	%xmm0, %xmm13
	paddd	%xmm0, %xmm2
	movdqa	%xmm3, %xmm6
	movdqa	.LCPI15_5(%rip), %xmm5
	pmaddwd	%xmm5, %xmm3
	movdqa	%xmm1, %xmm14
	pmaddwd	%xmm5, %xmm1
	movdqa	%xmm13, %xmm11
	pmaddwd	%xmm5, %xmm13
	movdqa	%xmm2, %xmm0
	pmaddwd	%xmm5, %xmm2
	movdqa	%xmm9, %xmm10
	paddd	%xmm7, %xmm9
	paddd	%xmm6, %xmm6
	paddd	%xmm7, %xmm6
	movdqa	.LCPI15_6(%rip), %xmm5
	paddd	%xmm5, %xmm3
	psrad	$16, %xmm3
	paddd	%xmm3, %xmm6
	movdqa	%xmm12, %xmm7
	movdqa	256(%rsp), %xmm3
	paddd	%xmm3, %xmm12
	paddd	%xmm14, %xmm14
	paddd	%xmm3, %xmm14
	paddd	%xmm5, %xmm1
	psrad	$16, %xmm1
	paddd	%xmm1, %xmm14
	packssdw	%xmm14, %xmm6
	movdqa	%xmm15, %xmm3
	movdqa	976(%rsp), %xmm1
	paddd	%xmm1, %xmm15
	paddd	%xmm11, %xmm11
	paddd	%xmm1, %xmm11
	paddd	%xmm5, %xmm13
	psrad	$16, %xmm13
	paddd	%xmm13, %xmm11
	movdqa	.LCPI15_1(%rip), %xmm1
	pmaddwd	%xmm1, %xmm10
	pmaddwd	%xmm1, %xmm7
	pmaddwd	%xmm1, %xmm3
	movdqa	416(%rsp), %xmm14
	pmaddwd	%xmm14, %xmm1
	movdqa	432(%rsp), %xmm13
	paddd	%xmm13, %xmm14
	paddd	%xmm0, %xmm0
	paddd	%xmm13, %xmm0
	paddd	%xmm5, %xmm2
	psrad	$16, %xmm2
	paddd	%xmm2, %xmm0
	packssdw	%xmm0, %xmm11
	paddd	%xmm5, %xmm1
	paddd	%xmm5, %xmm3
	paddd	%xmm5, %xmm7
	paddd	%xmm5, %xmm10
	psrad	$16, %xmm10
	paddd	%xmm9, %xmm10
	psrad	$16, %xmm7
	paddd	%xmm12, %xmm7
	packssdw	%xmm7, %xmm10
	psrad	$16, %xmm3
	paddd	%xmm15, %xmm3
	psrad	$16, %xmm1
	paddd	%xmm14, %xmm1
	packssdw	%xmm1, %xmm3
	movdqa	.LCPI15_4(%rip), %xmm0
	movdqa	304(%rsp), %xmm1
	psrad	$16, %xmm1
	movdqa	336(%rsp), %xmm2
	paddd	%xmm0, %xmm2
	paddd	%xmm1, %xmm2
	movdqa	224(%rsp), %xmm1
	psrad	$16, %xmm1
	paddd	%xmm0, %xmm4
	paddd	%xmm1, %xmm4
	packssdw	%xmm2, %xmm4
	movdqa	240(%rsp), %xmm2
	psrad	$16, %xmm2
	movdqa	320(%rsp), %xmm1
	psrad	$16, %xmm1
	movdqa	352(%rsp), %xmm5
	paddd	%xmm0, %xmm5
	paddd	%xmm1, %xmm5
	movdqa	%xmm11, %xmm1
	packuswb	%xmm6, %xmm1
	paddd	%xmm0, %xmm8
	paddd	%xmm2, %xmm8
	packssdw	%xmm5, %xmm8
	packuswb	%xmm8, %xmm4
	movdqa	%xmm3, %xmm2
	packuswb	%xmm10, %xmm2
	pshufd	$230, %xmm4, %xmm0
	punpcklbw	%xmm0, %xmm0
	pshufd	$78, %xmm0, %xmm0
	pshuflw	$233, %xmm0, %xmm0
	pshufhw	$148, %xmm0, %xmm5
	movdqa	.LCPI15_7(%rip), %xmm0
	pand	%xmm0, %xmm5
	pshuflw	$255, %xmm2, %xmm2
	pshufhw	$96, %xmm2, %xmm2
	movdqa	%xmm0, %xmm7
	pandn	%xmm2, %xmm7
	por	%xmm5, %xmm7
	movdqa	.LCPI15_8(%rip), %xmm2
	pshuflw	$246, %xmm1, %xmm1
	pshufhw	$0, %xmm1, %xmm5
	movdqa	%xmm2, %xmm1
	pandn	%xmm5, %xmm1
	pand	%xmm2, %xmm7
	por	%xmm7, %xmm1
	movdqa	%xmm4, %xmm5
	punpcklbw	%xmm4, %xmm5
	pshufd	$148, %xmm5, %xmm5
	pshuflw	$148, %xmm5, %xmm5
	packuswb	%xmm3, %xmm3
	pshuflw	$96, %xmm3, %xmm3
	pshufhw	$165, %xmm3, %xmm3
	pand	%xmm2, %xmm3
	pandn	%xmm5, %xmm2
	por	%xmm3, %xmm2
	packuswb	%xmm11, %xmm11
	pshuflw	$0, %xmm11, %xmm3
	pshufhw	$165, %xmm3, %xmm3
	movdqa	%xmm0, %xmm5
	pandn	%xmm3, %xmm5
	pand	%xmm0, %xmm2
	por	%xmm2, %xmm5
	punpckhbw	%xmm4, %xmm4
	pshufd	$233, %xmm4, %xmm2
	pshufhw	$233, %xmm2, %xmm2
	packuswb	%xmm10, %xmm10
	pshuflw	$165, %xmm10, %xmm3
	pshufhw	$255, %xmm3, %xmm3
	pand	%xmm0, %xmm3
	pandn	%xmm2, %xmm0
	por	%xmm3, %xmm0
	movdqa	.LCPI15_9(%rip), %xmm2
	pand	%xmm2, %xmm0
	packuswb	%xmm6, %xmm6
	pshuflw	$165, %xmm6, %xmm3
	pshufhw	$246, %xmm3, %xmm3
	pandn	%xmm3, %xmm2
	por	%xmm0, %xmm2
	movdqu	%xmm2, 32(%rbx)
	movdqu	%xmm5, (%rbx)
	movdqu	%xmm1, 16(%rbx)
	addq	$16, %rbp
	addq	$48, %rbx
	cmpq	%rbp, %r10
	jne	.LBB15_207
	cmpq	%r10, %r9
	je	.LBB15_225
	testb	$12, %r9b
	je	.LBB15_213
.LBB15_210:
	movq	%r10, %rbx
	movl	%r9d, %r10d
	andl	$60, %r10d
	leaq	(%rbx,%rbx,2), %r15
	movq	80(%rsp), %rax
	addq	%r11, %rax
	addq	%rax, %r15
.LBB15_211:
	movd	448(%rsp,%rbx), %xmm2
	movd	816(%rsp,%rbx), %xmm1
	movd	1552(%rsp,%rbx), %xmm5
	pxor	%xmm0, %xmm0
	punpcklbw	%xmm0, %xmm5
	punpcklwd	%xmm0, %xmm5
	movdqa	.LCPI15_0(%rip), %xmm4
	punpcklbw	%xmm0, %xmm2
	punpcklwd	%xmm0, %xmm2
	pshuflw	$232, %xmm5, %xmm6
	movdqa	%xmm2, %xmm7
	psubd	%xmm5, %xmm7
	paddd	%xmm4, %xmm5
	movdqa	.LCPI15_1(%rip), %xmm3
	pmaddwd	%xmm5, %xmm3
	punpcklbw	%xmm0, %xmm1
	punpcklwd	%xmm0, %xmm1
	pshufhw	$232, %xmm6, %xmm6
	pshufd	$232, %xmm6, %xmm8
	pshuflw	$232, %xmm1, %xmm6
	pshufhw	$232, %xmm6, %xmm6
	pshufd	$232, %xmm6, %xmm6
	punpcklwd	%xmm8, %xmm6
	pmaddwd	.LCPI15_2(%rip), %xmm6
	paddd	%xmm2, %xmm5
	paddd	.LCPI15_3(%rip), %xmm6
	psrad	$16, %xmm6
	paddd	%xmm7, %xmm6
	paddd	%xmm4, %xmm1
	movdqa	%xmm1, %xmm4
	paddd	%xmm4, %xmm4
	pmaddwd	.LCPI15_5(%rip), %xmm1
	movdqa	.LCPI15_6(%rip), %xmm7
	paddd	%xmm7, %xmm1
	psrad	$16, %xmm1
	paddd	%xmm2, %xmm4
	paddd	%xmm1, %xmm4
	packssdw	%xmm4, %xmm4
	packuswb	%xmm4, %xmm4
	paddd	%xmm7, %xmm3
	psrad	$16, %xmm3
	paddd	%xmm5, %xmm3
	paddd	.LCPI15_4(%rip), %xmm6
	packssdw	%xmm6, %xmm3
	packuswb	%xmm3, %xmm3
	punpcklbw	%xmm0, %xmm3
	pshufd	$231, %xmm3, %xmm0
	pshuflw	$220, %xmm0, %xmm0
	pshufhw	$198, %xmm3, %xmm1
	pshufd	$108, %xmm1, %xmm1
	pshuflw	$104, %xmm1, %xmm1
	pshufhw	$37, %xmm1, %xmm1
	packuswb	%xmm0, %xmm1
	movdqa	.LCPI15_10(%rip), %xmm0
	pand	%xmm0, %xmm1
	pshuflw	$80, %xmm4, %xmm2
	pshufd	$208, %xmm2, %xmm2
	pandn	%xmm2, %xmm0
	por	%xmm1, %xmm0
	movq	%xmm0, (%r15)
	pshufd	$238, %xmm0, %xmm0
	movd	%xmm0, 8(%r15)
	addq	$4, %rbx
	addq	$12, %r15
	cmpq	%rbx, %r10
	jne	.LBB15_211
	cmpq	%r10, %r9
	je	.LBB15_225
.LBB15_213:
	leaq	(%r10,%r10,2), %rbx
	addq	%r11, %rbx
	addq	80(%rsp), %rbx
	jmp	.LBB15_214
.LBB15_220:
	movb	%r11b, 2(%rbx)
	incq	%r10
	addq	$3, %rbx
	cmpq	%r10, %r9
	je	.LBB15_225
.LBB15_214:
	movzbl	448(%rsp,%r10), %r15d
	movzbl	1552(%rsp,%r10), %ebp
	leal	(%r15,%rbp), %eax
	imull	$26345, %ebp, %ecx
	addl	$-3339392, %ecx
	sarl	$16, %ecx
	addl	%ecx, %eax
	addl	$-128, %eax
	xorl	%r11d, %r11d
	testl	%eax, %eax
	cmovlel	%r11d, %eax
	cmpl	$255, %eax
	jl	.LBB15_216
	movl	$255, %eax
.LBB15_216:
	movzbl	816(%rsp,%r10), %r13d
	movb	%al, (%rbx)
	imull	$18734, %ebp, %eax
	imull	$-22554, %r13d, %ecx
	addl	%ecx, %eax
	addl	$521728, %eax
	sarl	$16, %eax
	movl	%r15d, %ecx
	subl	%ebp, %ecx
	addl	%ecx, %eax
	addl	$128, %eax
	testl	%eax, %eax
	cmovlel	%r11d, %eax
	cmpl	$255, %eax
	jl	.LBB15_218
	movl	$255, %eax
.LBB15_218:
	movb	%al, 1(%rbx)
	leal	(%r15,%r13,2), %eax
	imull	$-14942, %r13d, %ecx
	addl	$1945344, %ecx
	sarl	$16, %ecx
	addl	%ecx, %eax
	addl	$-256, %eax
	testl	%eax, %eax
	cmovgl	%eax, %r11d
	cmpl	$255, %r11d
	jl	.LBB15_220
	movl	$255, %r11d
	jmp	.LBB15_220
.LBB15_102:
	movl	%edx, %eax
	xorl	%edx, %edx
	divl	56(%rsp)
.LBB15_104:
	movq	%rax, %rdx
	shrq	$3, %rdx
	imulq	16(%rsp), %rdx
	imulq	1888(%rsp), %rcx
	addq	%rdx, %rcx
	shlq	$6, %rcx
	andl	$7, %eax
	movq	88(%rsp), %rdx
	movq	32(%rsp), %r12
	imulq	%r12, %rdx
	leaq	(%rsp,%rdx), %r14
	addq	$133120, %r14
	addq	%rsp, %rcx
	addq	$2040, %rcx
	leaq	(%rcx,%rax,8), %r15
	xorl	%r13d, %r13d
	xorl	%ebx, %ebx
	jmp	.LBB15_105
.LBB15_107:
	addq	112(%rsp), %r13
	addq	%rbp, %rbx
	cmpq	%r12, %rbx
	jae	.LBB15_518
.LBB15_105:
	movq	%r12, %rax
	subq	%rbx, %rax
	cmpq	$8, %rax
	movl	$8, %ebp
	cmovbq	%rax, %rbp
	cmpq	%rbx, %r12
	je	.LBB15_107
	leaq	(%r14,%rbx), %rdi
	leaq	(%r15,%r13), %rsi
	movq	%rbp, %rdx
	callq	memcpy@PLT
	jmp	.LBB15_107
.LBB15_140:
	xorl	%edi, %edi
	xorl	%r8d, %r8d
	movq	32(%rsp), %r9
	jmp	.LBB15_141
.LBB15_144:
	xorl	%r11d, %r11d
.LBB15_167:
	addq	400(%rsp), %r10
	movzbl	448(%rsp,%r11), %eax
	movzbl	816(%rsp,%r11), %ecx
	movzbl	1552(%rsp,%r11), %ebx
	leaq	(%r11,%r11,2), %r11
	movb	%al, (%r10,%r11)
	movb	%cl, 1(%r10,%r11)
	movb	%bl, 2(%r10,%r11)
.LBB15_168:
	addq	112(%rsp), %rdi
	addq	%r9, %r8
	movq	32(%rsp), %r9
	cmpq	%r9, %r8
	jae	.LBB15_518
.LBB15_141:
	subq	%r8, %r9
	movq	24(%rsp), %rax
	cmpq	%r9, %rax
	cmovbq	%rax, %r9
	pxor	%xmm0, %xmm0
	leaq	512(%rsp), %rax
	movdqu	%xmm0, -56(%rax)
	movq	$0, -40(%rax)
	leaq	841(%rsp), %rax
	movdqu	%xmm0, -17(%rax)
	movq	$0, -1(%rax)
	leaq	1577(%rsp), %rax
	movdqu	%xmm0, -17(%rax)
	movq	$0, -1(%rax)
	movq	(%r12,%rdi), %rax
	movq	%rax, 448(%rsp)
	movq	(%rdx,%rdi), %rax
	movq	%rax, 816(%rsp)
	movq	(%rsi,%rdi), %rax
	movq	%rax, 1552(%rsp)
	leaq	-1(%r9), %rax
	cmpq	$31, %rax
	ja	.LBB15_168
	leaq	(%r8,%r8,2), %r10
	testb	$1, 184(%rsp)
	je	.LBB15_143
	cmpq	$4, %r9
	jae	.LBB15_147
	xorl	%r11d, %r11d
	jmp	.LBB15_156
.LBB15_143:
	testq	%rax, %rax
	je	.LBB15_144
	movl	%r9d, %ebx
	andl	$62, %ebx
	movq	992(%rsp), %rax
	leaq	(%rax,%r10), %r15
	xorl	%r11d, %r11d
.LBB15_165:
	movzbl	448(%rsp,%r11), %eax
	movzbl	816(%rsp,%r11), %ebp
	movzbl	1552(%rsp,%r11), %r13d
	movb	%al, -2(%r15)
	movb	%bpl, -1(%r15)
	movb	%r13b, (%r15)
	movzbl	449(%rsp,%r11), %eax
	movzbl	817(%rsp,%r11), %ebp
	movzbl	1553(%rsp,%r11), %r13d
	movb	%al, 1(%r15)
	movb	%bpl, 2(%r15)
	movb	%r13b, 3(%r15)
	addq	$2, %r11
	addq	$6, %r15
	cmpq	%r11, %rbx
	jne	.LBB15_165
	testb	$1, %r9b
	jne	.LBB15_167
	jmp	.LBB15_168
.LBB15_147:
	cmpq	$16, %r9
	jae	.LBB15_149
	xorl	%r11d, %r11d
	jmp	.LBB15_153
.LBB15_149:
	movl	%r9d, %r11d
	andl	$48, %r11d
	movq	80(%rsp), %rax
	leaq	(%rax,%r10), %rbx
	xorl	%ebp, %ebp
.LBB15_150:
	movdqu	448(%rsp,%rbp), %xmm7
	movdqu	816(%rsp,%rbp), %xmm2
	movdqu	1552(%rsp,%rbp), %xmm12
	pxor	%xmm0, %xmm0
	movdqa	%xmm12, %xmm9
	punpckhbw	%xmm0, %xmm9
	movdqa	%xmm9, %xmm5
	punpcklwd	%xmm0, %xmm5
	punpckhwd	%xmm0, %xmm9
	punpcklbw	%xmm0, %xmm12
	movdqa	%xmm12, %xmm10
	punpcklwd	%xmm0, %xmm10
	punpckhwd	%xmm0, %xmm12
	movdqa	%xmm7, %xmm3
	punpcklbw	%xmm0, %xmm3
	movdqa	%xmm3, %xmm1
	punpckhwd	%xmm0, %xmm1
	movdqa	%xmm1, %xmm8
	movdqa	%xmm1, 432(%rsp)
	punpcklwd	%xmm0, %xmm3
	movdqa	%xmm3, %xmm15
	movdqa	%xmm3, 976(%rsp)
	punpckhbw	%xmm0, %xmm7
	movdqa	%xmm7, %xmm1
	punpckhwd	%xmm0, %xmm1
	movdqa	%xmm1, 256(%rsp)
	punpcklwd	%xmm0, %xmm7
	movdqa	%xmm2, %xmm1
	punpckhbw	%xmm0, %xmm1
	movdqa	%xmm1, %xmm3
	punpcklwd	%xmm0, %xmm3
	punpckhwd	%xmm0, %xmm1
	punpcklbw	%xmm0, %xmm2
	movdqa	%xmm2, %xmm13
	punpcklwd	%xmm0, %xmm13
	punpckhwd	%xmm0, %xmm2
	pshuflw	$232, %xmm12, %xmm0
	pshufhw	$232, %xmm0, %xmm0
	pshufd	$232, %xmm0, %xmm0
	pshuflw	$232, %xmm2, %xmm4
	pshufhw	$232, %xmm4, %xmm4
	pshufd	$232, %xmm4, %xmm4
	punpcklwd	%xmm0, %xmm4
	movdqa	%xmm4, %xmm6
	pshuflw	$232, %xmm10, %xmm0
	pshufhw	$232, %xmm0, %xmm0
	pshufd	$232, %xmm0, %xmm0
	pshuflw	$232, %xmm13, %xmm4
	pshufhw	$232, %xmm4, %xmm4
	pshufd	$232, %xmm4, %xmm4
	punpcklwd	%xmm0, %xmm4
	movdqa	%xmm4, %xmm11
	pshuflw	$232, %xmm9, %xmm0
	pshufhw	$232, %xmm0, %xmm0
	pshufd	$232, %xmm0, %xmm0
	pshuflw	$232, %xmm1, %xmm4
	pshufhw	$232, %xmm4, %xmm4
	pshufd	$232, %xmm4, %xmm4
	punpcklwd	%xmm0, %xmm4
	movdqa	%xmm4, %xmm14
	pshuflw	$232, %xmm5, %xmm0
	pshufhw	$232, %xmm0, %xmm0
	pshufd	$232, %xmm0, %xmm0
	pshuflw	$232, %xmm3, %xmm4
	pshufhw	$232, %xmm4, %xmm4
	pshufd	$232, %xmm4, %xmm4
	punpcklwd	%xmm0, %xmm4
	movdqa	.LCPI15_2(%rip), %xmm0
	pmaddwd	%xmm0, %xmm6
	pmaddwd	%xmm0, %xmm11
	pmaddwd	%xmm0, %xmm14
	pmaddwd	%xmm0, %xmm4
	movdqa	.LCPI15_3(%rip), %xmm0
	paddd	%xmm0, %xmm4
	movdqa	%xmm4, 240(%rsp)
	paddd	%xmm0, %xmm14
	movdqa	%xmm14, 320(%rsp)
	paddd	%xmm0, %xmm11
	movdqa	%xmm11, 224(%rsp)
	paddd	%xmm0, %xmm6
	movdqa	%xmm6, 304(%rsp)
	movdqa	%xmm8, %xmm0
	psubd	%xmm12, %xmm0
	movdqa	%xmm0, 336(%rsp)
	movdqa	.LCPI15_0(%rip), %xmm0
	paddd	%xmm0, %xmm12
	movdqa	%xmm12, 416(%rsp)
	movdqa	%xmm15, %xmm4
	psubd	%xmm10, %xmm4
	movdqa	%xmm10, %xmm15
	paddd	%xmm0, %xmm15
	movdqa	256(%rsp), %xmm6
	psubd	%xmm9, %xmm6
	movdqa	%xmm6, 352(%rsp)
	movdqa	%xmm9, %xmm12
	paddd	%xmm0, %xmm12
	movdqa	%xmm7, %xmm8
	psubd	%xmm5, %xmm8
	movdqa	%xmm5, %xmm9
	paddd	%xmm0, %xmm9
	paddd	%xmm0, %xmm3
	paddd	%xmm0, %xmm1
	paddd	%xmm0, %xmm13
	paddd	%xmm0, %xmm2
	movdqa	%xmm3, %xmm6
	movdqa	.LCPI15_5(%rip), %xmm5
	pmaddwd	%xmm5, %xmm3
	movdqa	%xmm1, %xmm14
	pmaddwd	%xmm5, %xmm1
	movdqa	%xmm13, %xmm11
	pmaddwd	%xmm5, %xmm13
	movdqa	%xmm2, %xmm0
	pmaddwd	%xmm5, %xmm2
	movdqa	%xmm9, %xmm10
	paddd	%xmm7, %xmm9
	paddd	%xmm6, %xmm6
	paddd	%xmm7, %xmm6
	movdqa	.LCPI15_6(%rip), %xmm5
	paddd	%xmm5, %xmm3
	psrad	$16, %xmm3
	paddd	%xmm3, %xmm6
	movdqa	%xmm12, %xmm7
	movdqa	256(%rsp), %xmm3
	paddd	%xmm3, %xmm12
	paddd	%xmm14, %xmm14
	paddd	%xmm3, %xmm14
	paddd	%xmm5, %xmm1
	psrad	$16, %xmm1
	paddd	%xmm1, %xmm14
	packssdw	%xmm14, %xmm6
	movdqa	%xmm15, %xmm3
	movdqa	976(%rsp), %xmm1
	paddd	%xmm1, %xmm15
	paddd	%xmm11, %xmm11
	paddd	%xmm1, %xmm11
	paddd	%xmm5, %xmm13
	psrad	$16, %xmm13
	paddd	%xmm13, %xmm11
	movdqa	.LCPI15_1(%rip), %xmm1
	pmaddwd	%xmm1, %xmm10
	pmaddwd	%xmm1, %xmm7
	pmaddwd	%xmm1, %xmm3
	movdqa	416(%rsp), %xmm14
	pmaddwd	%xmm14, %xmm1
	movdqa	432(%rsp), %xmm13
	paddd	%xmm13, %xmm14
	paddd	%xmm0, %xmm0
	paddd	%xmm13, %xmm0
	paddd	%xmm5, %xmm2
	psrad	$16, %xmm2
	paddd	%xmm2, %xmm0
	packssdw	%xmm0, %xmm11
	paddd	%xmm5, %xmm1
	paddd	%xmm5, %xmm3
	paddd	%xmm5, %xmm7
	paddd	%xmm5, %xmm10
	psrad	$16, %xmm10
	paddd	%xmm9, %xmm10
	psrad	$16, %xmm7
	paddd	%xmm12, %xmm7
	packssdw	%xmm7, %xmm10
	psrad	$16, %xmm3
	paddd	%xmm15, %xmm3
	psrad	$16, %xmm1
	paddd	%xmm14, %xmm1
	packssdw	%xmm1, %xmm3
	movdqa	.LCPI15_4(%rip), %xmm0
	movdqa	304(%rsp), %xmm1
	psrad	$16, %xmm1
	movdqa	336(%rsp), %xmm2
	paddd	%xmm0, %xmm2
	paddd	%xmm1, %xmm2
	movdqa	224(%rsp), %xmm1
	psrad	$16, %xmm1
	paddd	%xmm0, %xmm4
	paddd	%xmm1, %xmm4
	packssdw	%xmm2, %xmm4
	movdqa	240(%rsp), %xmm2
	psrad	$16, %xmm2
	movdqa	320(%rsp), %xmm1
	psrad	$16, %xmm1
	movdqa	352(%rsp), %xmm5
	paddd	%xmm0, %xmm5
	paddd	%xmm1, %xmm5
	movdqa	%xmm11, %xmm1
	packuswb	%xmm6, %xmm1
	paddd	%xmm0, %xmm8
	paddd	%xmm2, %xmm8
	packssdw	%xmm5, %xmm8
	packuswb	%xmm8, %xmm4
	movdqa	%xmm3, %xmm2
	packuswb	%xmm10, %xmm2
	pshufd	$230, %xmm4, %xmm0
	punpcklbw	%xmm0, %xmm0
	pshufd	$78, %xmm0, %xmm0
	pshuflw	$233, %xmm0, %xmm0
	pshufhw	$148, %xmm0, %xmm5
	movdqa	.LCPI15_7(%rip), %xmm0
	pand	%xmm0, %xmm5
	pshuflw	$255, %xmm2, %xmm2
	pshufhw	$96, %xmm2, %xmm2
	movdqa	%xmm0, %xmm7
	pandn	%xmm2, %xmm7
	por	%xmm5, %xmm7
	movdqa	.LCPI15_8(%rip), %xmm2
	pshuflw	$246, %xmm1, %xmm1
	pshufhw	$0, %xmm1, %xmm5
	movdqa	%xmm2, %xmm1
	pandn	%xmm5, %xmm1
	pand	%xmm2, %xmm7
	por	%xmm7, %xmm1
	movdqa	%xmm4, %xmm5
	punpcklbw	%xmm4, %xmm5
	pshufd	$148, %xmm5, %xmm5
	pshuflw	$148, %xmm5, %xmm5
	packuswb	%xmm3, %xmm3
	pshuflw	$96, %xmm3, %xmm3
	pshufhw	$165, %xmm3, %xmm3
	pand	%xmm2, %xmm3
	pandn	%xmm5, %xmm2
	por	%xmm3, %xmm2
	packuswb	%xmm11, %xmm11
	pshuflw	$0, %xmm11, %xmm3
	pshufhw	$165, %xmm3, %xmm3
	movdqa	%xmm0, %xmm5
	pandn	%xmm3, %xmm5
	pand	%xmm0, %xmm2
	por	%xmm2, %xmm5
	punpckhbw	%xmm4, %xmm4
	pshufd	$233, %xmm4, %xmm2
	pshufhw	$233, %xmm2, %xmm2
	packuswb	%xmm10, %xmm10
	pshuflw	$165, %xmm10, %xmm3
	pshufhw	$255, %xmm3, %xmm3
	pand	%xmm0, %xmm3
	pandn	%xmm2, %xmm0
	por	%xmm3, %xmm0
	movdqa	.LCPI15_9(%rip), %xmm2
	pand	%xmm2, %xmm0
	packuswb	%xmm6, %xmm6
	pshuflw	$165, %xmm6, %xmm3
	pshufhw	$246, %xmm3, %xmm3
	pandn	%xmm3, %xmm2
	por	%xmm0, %xmm2
	movdqu	%xmm2, 32(%rbx)
	movdqu	%xmm5, (%rbx)
	movdqu	%xmm1, 16(%rbx)
	addq	$16, %rbp
	addq	$48, %rbx
	cmpq	%rbp, %r11
	jne	.LBB15_150
	cmpq	%r11, %r9
	je	.LBB15_168
	testb	$12, %r9b
	je	.LBB15_156
.LBB15_153:
	movq	%r11, %rbx
	movl	%r9d, %r11d
	andl	$60, %r11d
	leaq	(%rbx,%rbx,2), %r15
	movq	80(%rsp), %rax
	addq	%r10, %rax
	addq	%rax, %r15
.LBB15_154:
	movd	448(%rsp,%rbx), %xmm2
	movd	816(%rsp,%rbx), %xmm1
	movd	1552(%rsp,%rbx), %xmm5
	pxor	%xmm0, %xmm0
	punpcklbw	%xmm0, %xmm5
	punpcklwd	%xmm0, %xmm5
	movdqa	.LCPI15_0(%rip), %xmm4
	punpcklbw	%xmm0, %xmm2
	punpcklwd	%xmm0, %xmm2
	pshuflw	$232, %xmm5, %xmm6
	movdqa	%xmm2, %xmm7
	psubd	%xmm5, %xmm7
	paddd	%xmm4, %xmm5
	movdqa	.LCPI15_1(%rip), %xmm3
	pmaddwd	%xmm5, %xmm3
	punpcklbw	%xmm0, %xmm1
	punpcklwd	%xmm0, %xmm1
	pshufhw	$232, %xmm6, %xmm6
	pshufd	$232, %xmm6, %xmm8
	pshuflw	$232, %xmm1, %xmm6
	pshufhw	$232, %xmm6, %xmm6
	pshufd	$232, %xmm6, %xmm6
	punpcklwd	%xmm8, %xmm6
	pmaddwd	.LCPI15_2(%rip), %xmm6
	paddd	%xmm2, %xmm5
	paddd	.LCPI15_3(%rip), %xmm6
	psrad	$16, %xmm6
	paddd	%xmm7, %xmm6
	paddd	%xmm4, %xmm1
	movdqa	%xmm1, %xmm4
	paddd	%xmm4, %xmm4
	pmaddwd	.LCPI15_5(%rip), %xmm1
	movdqa	.LCPI15_6(%rip), %xmm7
	paddd	%xmm7, %xmm1
	psrad	$16, %xmm1
	paddd	%xmm2, %xmm4
	paddd	%xmm1, %xmm4
	packssdw	%xmm4, %xmm4
	packuswb	%xmm4, %xmm4
	paddd	%xmm7, %xmm3
	psrad	$16, %xmm3
	paddd	%xmm5, %xmm3
	paddd	.LCPI15_4(%rip), %xmm6
	packssdw	%xmm6, %xmm3
	packuswb	%xmm3, %xmm3
	punpcklbw	%xmm0, %xmm3
	pshufd	$231, %xmm3, %xmm0
	pshuflw	$220, %xmm0, %xmm0
	pshufhw	$198, %xmm3, %xmm1
	pshufd	$108, %xmm1, %xmm1
	pshuflw	$104, %xmm1, %xmm1
	pshufhw	$37, %xmm1, %xmm1
	packuswb	%xmm0, %xmm1
	movdqa	.LCPI15_10(%rip), %xmm0
	pand	%xmm0, %xmm1
	pshuflw	$80, %xmm4, %xmm2
	pshufd	$208, %xmm2, %xmm2
	pandn	%xmm2, %xmm0
	por	%xmm1, %xmm0
	movq	%xmm0, (%r15)
	pshufd	$238, %xmm0, %xmm0
	movd	%xmm0, 8(%r15)
	addq	$4, %rbx
	addq	$12, %r15
	cmpq	%rbx, %r11
	jne	.LBB15_154
	cmpq	%r11, %r9
	je	.LBB15_168
.LBB15_156:
	leaq	(%r11,%r11,2), %rax
	addq	80(%rsp), %r10
	addq	%rax, %r10
	jmp	.LBB15_157
.LBB15_163:
	movb	%bl, 2(%r10)
	incq	%r11
	addq	$3, %r10
	cmpq	%r11, %r9
	je	.LBB15_168
.LBB15_157:
	movzbl	448(%rsp,%r11), %r15d
	movzbl	1552(%rsp,%r11), %ebp
	leal	(%r15,%rbp), %eax
	imull	$26345, %ebp, %ebx
	addl	$-3339392, %ebx
	sarl	$16, %ebx
	addl	%ebx, %eax
	addl	$-128, %eax
	xorl	%ebx, %ebx
	testl	%eax, %eax
	cmovlel	%ebx, %eax
	cmpl	$255, %eax
	jl	.LBB15_159
	movl	$255, %eax
.LBB15_159:
	movzbl	816(%rsp,%r11), %r13d
	movb	%al, (%r10)
	imull	$18734, %ebp, %eax
	imull	$-22554, %r13d, %ecx
	addl	%ecx, %eax
	addl	$521728, %eax
	sarl	$16, %eax
	movl	%r15d, %ecx
	subl	%ebp, %ecx
	addl	%ecx, %eax
	addl	$128, %eax
	testl	%eax, %eax
	cmovlel	%ebx, %eax
	cmpl	$255, %eax
	jl	.LBB15_161
	movl	$255, %eax
.LBB15_161:
	movb	%al, 1(%r10)
	leal	(%r15,%r13,2), %eax
	imull	$-14942, %r13d, %ecx
	addl	$1945344, %ecx
	sarl	$16, %ecx
	addl	%ecx, %eax
	addl	$-256, %eax
	testl	%eax, %eax
	cmovgl	%eax, %ebx
	cmpl	$255, %ebx
	jl	.LBB15_163
	movl	$255, %ebx
	jmp	.LBB15_163
.LBB15_169:
	testb	$1, 184(%rsp)
	je	.LBB15_170
	xorl	%edi, %edi
	xorl	%r8d, %r8d
	movq	32(%rsp), %r9
	jmp	.LBB15_175
.LBB15_196:
	addq	112(%rsp), %rdi
	addq	%r9, %r8
	movq	32(%rsp), %r9
	cmpq	%r9, %r8
	jae	.LBB15_518
.LBB15_175:
	subq	%r8, %r9
	movq	24(%rsp), %rax
	cmpq	%r9, %rax
	cmovbq	%rax, %r9
	pxor	%xmm0, %xmm0
	leaq	1792(%rsp), %rax
	movdqa	%xmm0, (%rax)
	movq	64(%r12,%rdi), %xmm1
	movq	(%r12,%rdi), %xmm2
	punpcklqdq	%xmm1, %xmm2
	movdqa	%xmm2, 1776(%rsp)
	cmpq	$16, %r9
	ja	.LBB15_196
	movd	(%rsi,%rdi), %xmm1
	punpcklbw	%xmm0, %xmm1
	punpcklwd	%xmm0, %xmm1
	movdqa	.LCPI15_0(%rip), %xmm2
	movd	(%rdx,%rdi), %xmm4
	punpcklbw	%xmm0, %xmm4
	punpcklwd	%xmm0, %xmm4
	pshuflw	$232, %xmm1, %xmm3
	pshufhw	$232, %xmm3, %xmm3
	pshufd	$232, %xmm3, %xmm3
	pshuflw	$232, %xmm4, %xmm5
	pshufhw	$232, %xmm5, %xmm5
	pshufd	$232, %xmm5, %xmm5
	punpcklwd	%xmm5, %xmm3
	movdqa	.LCPI15_11(%rip), %xmm8
	pmaddwd	%xmm8, %xmm3
	movdqa	.LCPI15_3(%rip), %xmm9
	paddd	%xmm9, %xmm3
	psrld	$16, %xmm3
	psubd	%xmm1, %xmm3
	paddd	%xmm2, %xmm1
	movdqa	.LCPI15_1(%rip), %xmm7
	movdqa	%xmm1, %xmm6
	pmaddwd	%xmm7, %xmm6
	movdqa	.LCPI15_6(%rip), %xmm5
	paddd	%xmm5, %xmm6
	psrld	$16, %xmm6
	paddd	%xmm1, %xmm6
	pshuflw	$160, %xmm6, %xmm1
	pshufhw	$160, %xmm1, %xmm1
	movdqa	%xmm1, 448(%rsp)
	movd	4(%rsi,%rdi), %xmm10
	punpcklbw	%xmm0, %xmm10
	punpcklwd	%xmm0, %xmm10
	movd	4(%rdx,%rdi), %xmm6
	punpcklbw	%xmm0, %xmm6
	punpcklwd	%xmm0, %xmm6
	pshuflw	$232, %xmm10, %xmm0
	pshufhw	$232, %xmm0, %xmm0
	pshufd	$232, %xmm0, %xmm11
	pshuflw	$232, %xmm6, %xmm0
	pshufhw	$232, %xmm0, %xmm0
	pshufd	$232, %xmm0, %xmm0
	punpcklwd	%xmm0, %xmm11
	pmaddwd	%xmm8, %xmm11
	paddd	%xmm9, %xmm11
	psrld	$16, %xmm11
	psubd	%xmm10, %xmm11
	paddd	%xmm2, %xmm10
	pmaddwd	%xmm10, %xmm7
	paddd	%xmm5, %xmm7
	psrld	$16, %xmm7
	paddd	%xmm10, %xmm7
	pshuflw	$160, %xmm7, %xmm0
	pshufhw	$160, %xmm0, %xmm0
	movdqa	%xmm0, 464(%rsp)
	pshuflw	$160, %xmm3, %xmm3
	pshufhw	$160, %xmm3, %xmm8
	movdqa	.LCPI15_12(%rip), %xmm7
	paddw	%xmm7, %xmm8
	movdqa	%xmm8, 816(%rsp)
	pshuflw	$160, %xmm11, %xmm3
	pshufhw	$160, %xmm3, %xmm3
	paddw	%xmm7, %xmm3
	movdqa	%xmm3, 832(%rsp)
	paddd	%xmm2, %xmm4
	movdqa	%xmm4, %xmm7
	paddd	%xmm7, %xmm7
	movdqa	.LCPI15_5(%rip), %xmm9
	pmaddwd	%xmm9, %xmm4
	paddd	%xmm5, %xmm4
	psrld	$16, %xmm4
	paddd	%xmm7, %xmm4
	pshuflw	$160, %xmm4, %xmm4
	pshufhw	$160, %xmm4, %xmm7
	movdqa	%xmm7, 1552(%rsp)
	paddd	%xmm2, %xmm6
	movdqa	%xmm6, %xmm2
	paddd	%xmm2, %xmm2
	pmaddwd	%xmm9, %xmm6
	paddd	%xmm5, %xmm6
	psrld	$16, %xmm6
	paddd	%xmm2, %xmm6
	pshuflw	$160, %xmm6, %xmm2
	pshufhw	$160, %xmm2, %xmm2
	movdqa	%xmm2, 1568(%rsp)
	testq	%r9, %r9
	je	.LBB15_196
	leaq	(%r8,%r8,2), %r10
	cmpq	$8, %r9
	jae	.LBB15_179
	xorl	%r11d, %r11d
	jmp	.LBB15_182
.LBB15_179:
	movl	%r9d, %r11d
	andl	$24, %r11d
	movq	1776(%rsp), %xmm4
	pxor	%xmm5, %xmm5
	punpcklbw	%xmm5, %xmm4
	paddw	%xmm4, %xmm7
	movdqa	%xmm7, %xmm9
	packuswb	%xmm9, %xmm9
	paddw	%xmm4, %xmm8
	paddw	%xmm4, %xmm1
	packuswb	%xmm8, %xmm1
	movdqa	%xmm1, %xmm8
	punpcklbw	%xmm5, %xmm8
	pshufd	$165, %xmm8, %xmm4
	movdqa	.LCPI15_13(%rip), %xmm6
	pand	%xmm6, %xmm4
	punpckhbw	%xmm5, %xmm1
	pshuflw	$255, %xmm1, %xmm10
	pshufhw	$0, %xmm10, %xmm10
	movdqa	%xmm6, %xmm11
	pandn	%xmm10, %xmm11
	por	%xmm4, %xmm11
	movdqa	%xmm8, %xmm4
	punpcklwd	%xmm1, %xmm4
	pshufd	$100, %xmm4, %xmm4
	pshuflw	$164, %xmm4, %xmm4
	pshufhw	$71, %xmm4, %xmm10
	packuswb	%xmm11, %xmm10
	movdqa	.LCPI15_7(%rip), %xmm4
	pand	%xmm4, %xmm10
	packuswb	%xmm7, %xmm7
	pshuflw	$0, %xmm7, %xmm7
	pshufhw	$165, %xmm7, %xmm7
	movdqa	%xmm4, %xmm11
	pandn	%xmm7, %xmm11
	por	%xmm10, %xmm11
	punpckhwd	%xmm8, %xmm1
	pshufd	$246, %xmm1, %xmm1
	pshuflw	$22, %xmm1, %xmm7
	packuswb	%xmm7, %xmm7
	movdqa	.LCPI15_14(%rip), %xmm1
	pand	%xmm1, %xmm7
	pshuflw	$246, %xmm9, %xmm8
	movdqa	%xmm1, %xmm9
	pandn	%xmm8, %xmm9
	por	%xmm7, %xmm9
	movq	400(%rsp), %rax
	movq	%xmm9, 16(%rax,%r10)
	movdqu	%xmm11, (%rax,%r10)
	cmpq	$8, %r11
	je	.LBB15_181
	movq	1784(%rsp), %xmm8
	punpcklbw	%xmm5, %xmm8
	paddw	%xmm8, %xmm2
	movdqa	%xmm2, %xmm7
	packuswb	%xmm7, %xmm7
	paddw	%xmm8, %xmm3
	paddw	%xmm8, %xmm0
	packuswb	%xmm3, %xmm0
	movdqa	%xmm0, %xmm3
	punpcklbw	%xmm5, %xmm3
	pshufd	$165, %xmm3, %xmm8
	pand	%xmm6, %xmm8
	punpckhbw	%xmm5, %xmm0
	pshuflw	$255, %xmm0, %xmm5
	pshufhw	$0, %xmm5, %xmm5
	pandn	%xmm5, %xmm6
	por	%xmm8, %xmm6
	movdqa	%xmm3, %xmm5
	punpcklwd	%xmm0, %xmm5
	pshufd	$100, %xmm5, %xmm5
	pshuflw	$164, %xmm5, %xmm5
	pshufhw	$71, %xmm5, %xmm5
	packuswb	%xmm6, %xmm5
	pand	%xmm4, %xmm5
	packuswb	%xmm2, %xmm2
	pshuflw	$0, %xmm2, %xmm2
	pshufhw	$165, %xmm2, %xmm2
	pandn	%xmm2, %xmm4
	por	%xmm5, %xmm4
	punpckhwd	%xmm3, %xmm0
	pshufd	$246, %xmm0, %xmm0
	pshuflw	$22, %xmm0, %xmm0
	packuswb	%xmm0, %xmm0
	pand	%xmm1, %xmm0
	pshuflw	$246, %xmm7, %xmm2
	pandn	%xmm2, %xmm1
	por	%xmm0, %xmm1
	movq	400(%rsp), %rax
	movq	%xmm1, 40(%rax,%r10)
	movdqu	%xmm4, 24(%rax,%r10)
.LBB15_181:
	cmpq	%r11, %r9
	je	.LBB15_196
.LBB15_182:
	leaq	(%r11,%r11,2), %rax
	addq	80(%rsp), %r10
	addq	%rax, %r10
	jmp	.LBB15_183
.LBB15_195:
	movb	%bl, 2(%r10)
	incq	%r11
	addq	$3, %r10
	cmpq	%r11, %r9
	je	.LBB15_196
.LBB15_183:
	movzbl	1776(%rsp,%r11), %ebp
	movzwl	448(%rsp,%r11,2), %r15d
	addw	%bp, %r15w
	xorl	%ebx, %ebx
	testw	%r15w, %r15w
	jg	.LBB15_185
	xorl	%r15d, %r15d
.LBB15_185:
	movswl	%r15w, %eax
	cmpl	$255, %eax
	jl	.LBB15_187
	movl	$255, %r15d
.LBB15_187:
	movb	%r15b, (%r10)
	movzwl	816(%rsp,%r11,2), %r15d
	addw	%bp, %r15w
	testw	%r15w, %r15w
	jle	.LBB15_188
	movswl	%r15w, %eax
	cmpl	$255, %eax
	jge	.LBB15_190
.LBB15_191:
	movb	%r15b, 1(%r10)
	addw	1552(%rsp,%r11,2), %bp
	testw	%bp, %bp
	jg	.LBB15_192
.LBB15_193:
	movswl	%bx, %eax
	cmpl	$255, %eax
	jl	.LBB15_195
	jmp	.LBB15_194
.LBB15_188:
	xorl	%r15d, %r15d
	movswl	%r15w, %eax
	cmpl	$255, %eax
	jl	.LBB15_191
.LBB15_190:
	movl	$255, %r15d
	movb	%r15b, 1(%r10)
	addw	1552(%rsp,%r11,2), %bp
	testw	%bp, %bp
	jle	.LBB15_193
.LBB15_192:
	movl	%ebp, %ebx
	movswl	%bx, %eax
	cmpl	$255, %eax
	jl	.LBB15_195
.LBB15_194:
	movl	$255, %ebx
	jmp	.LBB15_195
.LBB15_226:
	xorl	%edi, %edi
	xorl	%r8d, %r8d
	movq	32(%rsp), %r9
	jmp	.LBB15_227
.LBB15_230:
	xorl	%r10d, %r10d
.LBB15_253:
	addq	400(%rsp), %r11
	movzbl	448(%rsp,%r10), %eax
	movzbl	816(%rsp,%r10), %ecx
	movzbl	1552(%rsp,%r10), %ebx
	leaq	(%r10,%r10,2), %r10
	movb	%al, (%r11,%r10)
	movb	%cl, 1(%r11,%r10)
	movb	%bl, 2(%r11,%r10)
.LBB15_254:
	addq	112(%rsp), %rdi
	addq	%r9, %r8
	movq	32(%rsp), %r9
	cmpq	%r9, %r8
	jae	.LBB15_518
.LBB15_227:
	subq	%r8, %r9
	movq	24(%rsp), %rax
	cmpq	%r9, %rax
	cmovbq	%rax, %r9
	movsd	64(%r12,%rdi), %xmm0
	movsd	(%r12,%rdi), %xmm1
	movlhps	%xmm0, %xmm1
	movaps	%xmm1, 448(%rsp)
	movq	192(%r12,%rdi), %xmm0
	movq	128(%r12,%rdi), %xmm1
	punpcklqdq	%xmm0, %xmm1
	movdqa	%xmm1, 464(%rsp)
	movzbl	(%rdx,%rdi), %eax
	imull	$16843009, %eax, %eax
	movl	%eax, 816(%rsp)
	movzbl	1(%rdx,%rdi), %eax
	imull	$16843009, %eax, %eax
	leaq	841(%rsp), %rcx
	movl	%eax, -21(%rcx)
	movzbl	2(%rdx,%rdi), %eax
	imull	$16843009, %eax, %eax
	movl	%eax, -17(%rcx)
	movzbl	3(%rdx,%rdi), %eax
	imull	$16843009, %eax, %eax
	movl	%eax, -13(%rcx)
	movzbl	4(%rdx,%rdi), %eax
	imull	$16843009, %eax, %eax
	movl	%eax, -9(%rcx)
	movzbl	5(%rdx,%rdi), %eax
	imull	$16843009, %eax, %eax
	movl	%eax, -5(%rcx)
	movzbl	6(%rdx,%rdi), %eax
	imull	$16843009, %eax, %eax
	movl	%eax, -1(%rcx)
	movzbl	7(%rdx,%rdi), %eax
	imull	$16843009, %eax, %eax
	movl	%eax, 3(%rcx)
	movzbl	(%rsi,%rdi), %eax
	imull	$16843009, %eax, %eax
	movl	%eax, 1552(%rsp)
	movzbl	1(%rsi,%rdi), %eax
	imull	$16843009, %eax, %eax
	leaq	1577(%rsp), %rcx
	movl	%eax, -21(%rcx)
	movzbl	2(%rsi,%rdi), %eax
	imull	$16843009, %eax, %eax
	movl	%eax, -17(%rcx)
	movzbl	3(%rsi,%rdi), %eax
	imull	$16843009, %eax, %eax
	movl	%eax, -13(%rcx)
	movzbl	4(%rsi,%rdi), %eax
	imull	$16843009, %eax, %eax
	movl	%eax, -9(%rcx)
	movzbl	5(%rsi,%rdi), %eax
	imull	$16843009, %eax, %eax
	movl	%eax, -5(%rcx)
	movzbl	6(%rsi,%rdi), %eax
	imull	$16843009, %eax, %eax
	movl	%eax, -1(%rcx)
	movzbl	7(%rsi,%rdi), %eax
	imull	$16843009, %eax, %eax
	movl	%eax, 3(%rcx)
	leaq	-1(%r9), %rax
	cmpq	$31, %rax
	ja	.LBB15_254
	leaq	(%r8,%r8,2), %r11
	testb	$1, 184(%rsp)
	je	.LBB15_229
	cmpq	$4, %r9
	jae	.LBB15_233
	xorl	%r10d, %r10d
	jmp	.LBB15_242
.LBB15_229:
	testq	%rax, %rax
	je	.LBB15_230
	movl	%r9d, %ebx
	andl	$62, %ebx
	movq	992(%rsp), %rax
	leaq	(%rax,%r11), %r15
	xorl	%r10d, %r10d
.LBB15_251:
	movzbl	448(%rsp,%r10), %eax
	movzbl	816(%rsp,%r10), %ecx
	movzbl	1552(%rsp,%r10), %ebp
	movb	%al, -2(%r15)
	movb	%cl, -1(%r15)
	movb	%bpl, (%r15)
	movzbl	449(%rsp,%r10), %eax
	movzbl	817(%rsp,%r10), %ecx
	movzbl	1553(%rsp,%r10), %ebp
	movb	%al, 1(%r15)
	movb	%cl, 2(%r15)
	movb	%bpl, 3(%r15)
	addq	$2, %r10
	addq	$6, %r15
	cmpq	%r10, %rbx
	jne	.LBB15_251
	testb	$1, %r9b
	jne	.LBB15_253
	jmp	.LBB15_254
.LBB15_233:
	cmpq	$16, %r9
	jae	.LBB15_235
	xorl	%r10d, %r10d
	jmp	.LBB15_239
.LBB15_235:
	movl	%r9d, %r10d
	andl	$48, %r10d
	movq	80(%rsp), %rax
	leaq	(%rax,%r11), %rbx
	xorl	%ebp, %ebp
.LBB15_236:
	movdqa	448(%rsp,%rbp), %xmm7
	movdqu	816(%rsp,%rbp), %xmm2
	movdqu	1552(%rsp,%rbp), %xmm12
	pxor	%xmm0, %xmm0
	movdqa	%xmm12, %xmm9
	punpckhbw	%xmm0, %xmm9
	movdqa	%xmm9, %xmm5
	punpcklwd	%xmm0, %xmm5
	punpckhwd	%xmm0, %xmm9
	punpcklbw	%xmm0, %xmm12
	movdqa	%xmm12, %xmm10
	punpcklwd	%xmm0, %xmm10
	punpckhwd	%xmm0, %xmm12
	movdqa	%xmm7, %xmm3
	punpcklbw	%xmm0, %xmm3
	movdqa	%xmm3, %xmm1
	punpckhwd	%xmm0, %xmm1
	movdqa	%xmm1, %xmm8
	movdqa	%xmm1, 432(%rsp)
	punpcklwd	%xmm0, %xmm3
	movdqa	%xmm3, %xmm15
	movdqa	%xmm3, 976(%rsp)
	punpckhbw	%xmm0, %xmm7
	movdqa	%xmm7, %xmm1
	punpckhwd	%xmm0, %xmm1
	movdqa	%xmm1, 256(%rsp)
	punpcklwd	%xmm0, %xmm7
	movdqa	%xmm2, %xmm1
	punpckhbw	%xmm0, %xmm1
	movdqa	%xmm1, %xmm3
	punpcklwd	%xmm0, %xmm3
	punpckhwd	%xmm0, %xmm1
	punpcklbw	%xmm0, %xmm2
	movdqa	%xmm2, %xmm13
	punpcklwd	%xmm0, %xmm13
	punpckhwd	%xmm0, %xmm2
	pshuflw	$232, %xmm12, %xmm0
	pshufhw	$232, %xmm0, %xmm0
	pshufd	$232, %xmm0, %xmm0
	pshuflw	$232, %xmm2, %xmm4
	pshufhw	$232, %xmm4, %xmm4
	pshufd	$232, %xmm4, %xmm4
	punpcklwd	%xmm0, %xmm4
	movdqa	%xmm4, %xmm6
	pshuflw	$232, %xmm10, %xmm0
	pshufhw	$232, %xmm0, %xmm0
	pshufd	$232, %xmm0, %xmm0
	pshuflw	$232, %xmm13, %xmm4
	pshufhw	$232, %xmm4, %xmm4
	pshufd	$232, %xmm4, %xmm4
	punpcklwd	%xmm0, %xmm4
	movdqa	%xmm4, %xmm11
	pshuflw	$232, %xmm9, %xmm0
	pshufhw	$232, %xmm0, %xmm0
	pshufd	$232, %xmm0, %xmm0
	pshuflw	$232, %xmm1, %xmm4
	pshufhw	$232, %xmm4, %xmm4
	pshufd	$232, %xmm4, %xmm4
	punpcklwd	%xmm0, %xmm4
	movdqa	%xmm4, %xmm14
	pshuflw	$232, %xmm5, %xmm0
	pshufhw	$232, %xmm0, %xmm0
	pshufd	$232, %xmm0, %xmm0
	pshuflw	$232, %xmm3, %xmm4
	pshufhw	$232, %xmm4, %xmm4
	pshufd	$232, %xmm4, %xmm4
	punpcklwd	%xmm0, %xmm4
	movdqa	.LCPI15_2(%rip), %xmm0
	pmaddwd	%xmm0, %xmm6
	pmaddwd	%xmm0, %xmm11
	pmaddwd	%xmm0, %xmm14
	pmaddwd	%xmm0, %xmm4
	movdqa	.LCPI15_3(%rip), %xmm0
	paddd	%xmm0, %xmm4
	movdqa	%xmm4, 240(%rsp)
	paddd	%xmm0, %xmm14
	movdqa	%xmm14, 320(%rsp)
	paddd	%xmm0, %xmm11
	movdqa	%xmm11, 224(%rsp)
	paddd	%xmm0, %xmm6
	movdqa	%xmm6, 304(%rsp)
	movdqa	%xmm8, %xmm0
	psubd	%xmm12, %xmm0
	movdqa	%xmm0, 336(%rsp)
	movdqa	.LCPI15_0(%rip), %xmm0
	paddd	%xmm0, %xmm12
	movdqa	%xmm12, 416(%rsp)
	movdqa	%xmm15, %xmm4
	psubd	%xmm10, %xmm4
	movdqa	%xmm10, %xmm15
	paddd	%xmm0, %xmm15
	movdqa	256(%rsp), %xmm6
	psubd	%xmm9, %xmm6
	movdqa	%xmm6, 352(%rsp)
	movdqa	%xmm9, %xmm12
	paddd	%xmm0, %xmm12
	movdqa	%xmm7, %xmm8
	psubd	%xmm5, %xmm8
	movdqa	%xmm5, %xmm9
	paddd	%xmm0, %xmm9
	paddd	%xmm0, %xmm3
	paddd	%xmm0, %xmm1
	paddd	%xmm0, %xmm13
	paddd	%xmm0, %xmm2
	movdqa	%xmm3, %xmm6
	movdqa	.LCPI15_5(%rip), %xmm5
	pmaddwd	%xmm5, %xmm3
	movdqa	%xmm1, %xmm14
	pmaddwd	%xmm5, %xmm1
	movdqa	%xmm13, %xmm11
	pmaddwd	%xmm5, %xmm13
	movdqa	%xmm2, %xmm0
	pmaddwd	%xmm5, %xmm2
	movdqa	%xmm9, %xmm10
	paddd	%xmm7, %xmm9
	paddd	%xmm6, %xmm6
	paddd	%xmm7, %xmm6
	movdqa	.LCPI15_6(%rip), %xmm5
	paddd	%xmm5, %xmm3
	psrad	$16, %xmm3
	paddd	%xmm3, %xmm6
	movdqa	%xmm12, %xmm7
	movdqa	256(%rsp), %xmm3
	paddd	%xmm3, %xmm12
	paddd	%xmm14, %xmm14
	paddd	%xmm3, %xmm14
	paddd	%xmm5, %xmm1
	psrad	$16, %xmm1
	paddd	%xmm1, %xmm14
	packssdw	%xmm14, %xmm6
	movdqa	%xmm15, %xmm3
	movdqa	976(%rsp), %xmm1
	paddd	%xmm1, %xmm15
	paddd	%xmm11, %xmm11
	paddd	%xmm1, %xmm11
	paddd	%xmm5, %xmm13
	psrad	$16, %xmm13
	paddd	%xmm13, %xmm11
	movdqa	.LCPI15_1(%rip), %xmm1
	pmaddwd	%xmm1, %xmm10
	pmaddwd	%xmm1, %xmm7
	pmaddwd	%xmm1, %xmm3
	movdqa	416(%rsp), %xmm14
	pmaddwd	%xmm14, %xmm1
	movdqa	432(%rsp), %xmm13
	paddd	%xmm13, %xmm14
	paddd	%xmm0, %xmm0
	paddd	%xmm13, %xmm0
	paddd	%xmm5, %xmm2
	psrad	$16, %xmm2
	paddd	%xmm2, %xmm0
	packssdw	%xmm0, %xmm11
	paddd	%xmm5, %xmm1
	paddd	%xmm5, %xmm3
	paddd	%xmm5, %xmm7
	paddd	%xmm5, %xmm10
	psrad	$16, %xmm10
	paddd	%xmm9, %xmm10
	psrad	$16, %xmm7
	paddd	%xmm12, %xmm7
	packssdw	%xmm7, %xmm10
	psrad	$16, %xmm3
	paddd	%xmm15, %xmm3
	psrad	$16, %xmm1
	paddd	%xmm14, %xmm1
	packssdw	%xmm1, %xmm3
	movdqa	.LCPI15_4(%rip), %xmm0
	movdqa	304(%rsp), %xmm1
	psrad	$16, %xmm1
	movdqa	336(%rsp), %xmm2
	paddd	%xmm0, %xmm2
	paddd	%xmm1, %xmm2
	movdqa	224(%rsp), %xmm1
	psrad	$16, %xmm1
	paddd	%xmm0, %xmm4
	paddd	%xmm1, %xmm4
	packssdw	%xmm2, %xmm4
	movdqa	240(%rsp), %xmm2
	psrad	$16, %xmm2
	movdqa	320(%rsp), %xmm1
	psrad	$16, %xmm1
	movdqa	352(%rsp), %xmm5
	paddd	%xmm0, %xmm5
	paddd	%xmm1, %xmm5
	movdqa	%xmm11, %xmm1
	packuswb	%xmm6, %xmm1
	paddd	%xmm0, %xmm8
	paddd	%xmm2, %xmm8
	packssdw	%xmm5, %xmm8
	packuswb	%xmm8, %xmm4
	movdqa	%xmm3, %xmm2
	packuswb	%xmm10, %xmm2
	pshufd	$230, %xmm4, %xmm0
	punpcklbw	%xmm0, %xmm0
	pshufd	$78, %xmm0, %xmm0
	pshuflw	$233, %xmm0, %xmm0
	pshufhw	$148, %xmm0, %xmm5
	movdqa	.LCPI15_7(%rip), %xmm0
	pand	%xmm0, %xmm5
	pshuflw	$255, %xmm2, %xmm2
	pshufhw	$96, %xmm2, %xmm2
	movdqa	%xmm0, %xmm7
	pandn	%xmm2, %xmm7
	por	%xmm5, %xmm7
	movdqa	.LCPI15_8(%rip), %xmm2
	pshuflw	$246, %xmm1, %xmm1
	pshufhw	$0, %xmm1, %xmm5
	movdqa	%xmm2, %xmm1
	pandn	%xmm5, %xmm1
	pand	%xmm2, %xmm7
	por	%xmm7, %xmm1
	movdqa	%xmm4, %xmm5
	punpcklbw	%xmm4, %xmm5
	pshufd	$148, %xmm5, %xmm5
	pshuflw	$148, %xmm5, %xmm5
	packuswb	%xmm3, %xmm3
	pshuflw	$96, %xmm3, %xmm3
	pshufhw	$165, %xmm3, %xmm3
	pand	%xmm2, %xmm3
	pandn	%xmm5, %xmm2
	por	%xmm3, %xmm2
	packuswb	%xmm11, %xmm11
	pshuflw	$0, %xmm11, %xmm3
	pshufhw	$165, %xmm3, %xmm3
	movdqa	%xmm0, %xmm5
	pandn	%xmm3, %xmm5
	pand	%xmm0, %xmm2
	por	%xmm2, %xmm5
	punpckhbw	%xmm4, %xmm4
	pshufd	$233, %xmm4, %xmm2
	pshufhw	$233, %xmm2, %xmm2
	packuswb	%xmm10, %xmm10
	pshuflw	$165, %xmm10, %xmm3
	pshufhw	$255, %xmm3, %xmm3
	pand	%xmm0, %xmm3
	pandn	%xmm2, %xmm0
	por	%xmm3, %xmm0
	movdqa	.LCPI15_9(%rip), %xmm2
	pand	%xmm2, %xmm0
	packuswb	%xmm6, %xmm6
	pshuflw	$165, %xmm6, %xmm3
	pshufhw	$246, %xmm3, %xmm3
	pandn	%xmm3, %xmm2
	por	%xmm0, %xmm2
	movdqu	%xmm2, 32(%rbx)
	movdqu	%xmm5, (%rbx)
	movdqu	%xmm1, 16(%rbx)
	addq	$16, %rbp
	addq	$48, %rbx
	cmpq	%rbp, %r10
	jne	.LBB15_236
	cmpq	%r10, %r9
	je	.LBB15_254
	testb	$12, %r9b
	je	.LBB15_242
.LBB15_239:
	movq	%r10, %rbx
	movl	%r9d, %r10d
	andl	$60, %r10d
	leaq	(%rbx,%rbx,2), %r15
	movq	80(%rsp), %rax
	addq	%r11, %rax
	addq	%rax, %r15
.LBB15_240:
	movd	448(%rsp,%rbx), %xmm2
	movd	816(%rsp,%rbx), %xmm1
	movd	1552(%rsp,%rbx), %xmm5
	pxor	%xmm0, %xmm0
	punpcklbw	%xmm0, %xmm5
	punpcklwd	%xmm0, %xmm5
	movdqa	.LCPI15_0(%rip), %xmm4
	punpcklbw	%xmm0, %xmm2
	punpcklwd	%xmm0, %xmm2
	pshuflw	$232, %xmm5, %xmm6
	movdqa	%xmm2, %xmm7
	psubd	%xmm5, %xmm7
	paddd	%xmm4, %xmm5
	movdqa	.LCPI15_1(%rip), %xmm3
	pmaddwd	%xmm5, %xmm3
	punpcklbw	%xmm0, %xmm1
	punpcklwd	%xmm0, %xmm1
	pshufhw	$232, %xmm6, %xmm6
	pshufd	$232, %xmm6, %xmm8
	pshuflw	$232, %xmm1, %xmm6
	pshufhw	$232, %xmm6, %xmm6
	pshufd	$232, %xmm6, %xmm6
	punpcklwd	%xmm8, %xmm6
	pmaddwd	.LCPI15_2(%rip), %xmm6
	paddd	%xmm2, %xmm5
	paddd	.LCPI15_3(%rip), %xmm6
	psrad	$16, %xmm6
	paddd	%xmm7, %xmm6
	paddd	%xmm4, %xmm1
	movdqa	%xmm1, %xmm4
	paddd	%xmm4, %xmm4
	pmaddwd	.LCPI15_5(%rip), %xmm1
	movdqa	.LCPI15_6(%rip), %xmm7
	paddd	%xmm7, %xmm1
	psrad	$16, %xmm1
	paddd	%xmm2, %xmm4
	paddd	%xmm1, %xmm4
	packssdw	%xmm4, %xmm4
	packuswb	%xmm4, %xmm4
	paddd	%xmm7, %xmm3
	psrad	$16, %xmm3
	paddd	%xmm5, %xmm3
	paddd	.LCPI15_4(%rip), %xmm6
	packssdw	%xmm6, %xmm3
	packuswb	%xmm3, %xmm3
	punpcklbw	%xmm0, %xmm3
	pshufd	$231, %xmm3, %xmm0
	pshuflw	$220, %xmm0, %xmm0
	pshufhw	$198, %xmm3, %xmm1
	pshufd	$108, %xmm1, %xmm1
	pshuflw	$104, %xmm1, %xmm1
	pshufhw	$37, %xmm1, %xmm1
	packuswb	%xmm0, %xmm1
	movdqa	.LCPI15_10(%rip), %xmm0
	pand	%xmm0, %xmm1
	pshuflw	$80, %xmm4, %xmm2
	pshufd	$208, %xmm2, %xmm2
	pandn	%xmm2, %xmm0
	por	%xmm1, %xmm0
	movq	%xmm0, (%r15)
	pshufd	$238, %xmm0, %xmm0
	movd	%xmm0, 8(%r15)
	addq	$4, %rbx
	addq	$12, %r15
	cmpq	%rbx, %r10
	jne	.LBB15_240
	cmpq	%r10, %r9
	je	.LBB15_254
.LBB15_242:
	leaq	(%r10,%r10,2), %rbx
	addq	%r11, %rbx
	addq	80(%rsp), %rbx
	jmp	.LBB15_243
.LBB15_249:
	movb	%r11b, 2(%rbx)
	incq	%r10
	addq	$3, %rbx
	cmpq	%r10, %r9
	je	.LBB15_254
.LBB15_243:
	movzbl	448(%rsp,%r10), %r15d
	movzbl	1552(%rsp,%r10), %ebp
	leal	(%r15,%rbp), %eax
	imull	$26345, %ebp, %ecx
	addl	$-3339392, %ecx
	sarl	$16, %ecx
	addl	%ecx, %eax
	addl	$-128, %eax
	xorl	%r11d, %r11d
	testl	%eax, %eax
	cmovlel	%r11d, %eax
	cmpl	$255, %eax
	jl	.LBB15_245
	movl	$255, %eax
.LBB15_245:
	movzbl	816(%rsp,%r10), %r13d
	movb	%al, (%rbx)
	imull	$18734, %ebp, %eax
	imull	$-22554, %r13d, %ecx
	addl	%ecx, %eax
	addl	$521728, %eax
	sarl	$16, %eax
	movl	%r15d, %ecx
	subl	%ebp, %ecx
	addl	%ecx, %eax
	addl	$128, %eax
	testl	%eax, %eax
	cmovlel	%r11d, %eax
	cmpl	$255, %eax
	jl	.LBB15_247
	movl	$255, %eax
.LBB15_247:
	movb	%al, 1(%rbx)
	leal	(%r15,%r13,2), %eax
	imull	$-14942, %r13d, %ecx
	addl	$1945344, %ecx
	sarl	$16, %ecx
	addl	%ecx, %eax
	addl	$-256, %eax
	testl	%eax, %eax
	cmovgl	%eax, %r11d
	cmpl	$255, %r11d
	jl	.LBB15_249
	movl	$255, %r11d
	jmp	.LBB15_249
.LBB15_170:
	xorl	%edi, %edi
	xorl	%r8d, %r8d
	movq	32(%rsp), %r9
	jmp	.LBB15_171
.LBB15_173:
	xorl	%r11d, %r11d
.LBB15_200:
	addq	400(%rsp), %r10
	movzbl	448(%rsp,%r11), %eax
	movzbl	816(%rsp,%r11), %ecx
	movzbl	1552(%rsp,%r11), %ebx
	leaq	(%r11,%r11,2), %r11
	movb	%al, (%r10,%r11)
	movb	%cl, 1(%r10,%r11)
	movb	%bl, 2(%r10,%r11)
.LBB15_201:
	addq	112(%rsp), %rdi
	addq	%r9, %r8
	movq	32(%rsp), %r9
	cmpq	%r9, %r8
	jae	.LBB15_518
.LBB15_171:
	subq	%r8, %r9
	movq	24(%rsp), %rax
	cmpq	%r9, %rax
	cmovbq	%rax, %r9
	pxor	%xmm0, %xmm0
	leaq	512(%rsp), %rax
	movdqa	%xmm0, -48(%rax)
	leaq	841(%rsp), %r10
	movq	$0, -1(%r10)
	movq	$0, -7(%r10)
	leaq	1577(%rsp), %r11
	movq	$0, -1(%r11)
	movq	$0, -7(%r11)
	movq	64(%r12,%rdi), %xmm0
	movq	(%r12,%rdi), %xmm1
	punpcklqdq	%xmm0, %xmm1
	movdqa	%xmm1, 448(%rsp)
	movzbl	(%rdx,%rdi), %eax
	movl	%eax, %ecx
	shll	$8, %ecx
	orl	%eax, %ecx
	movw	%cx, 816(%rsp)
	movzbl	1(%rdx,%rdi), %eax
	movl	%eax, %ecx
	shll	$8, %ecx
	orl	%eax, %ecx
	movw	%cx, -23(%r10)
	movzbl	2(%rdx,%rdi), %eax
	movl	%eax, %ecx
	shll	$8, %ecx
	orl	%eax, %ecx
	movw	%cx, -21(%r10)
	movzbl	3(%rdx,%rdi), %eax
	movl	%eax, %ecx
	shll	$8, %ecx
	orl	%eax, %ecx
	movw	%cx, -19(%r10)
	movzbl	4(%rdx,%rdi), %eax
	movl	%eax, %ecx
	shll	$8, %ecx
	orl	%eax, %ecx
	movw	%cx, -17(%r10)
	movzbl	5(%rdx,%rdi), %eax
	movl	%eax, %ecx
	shll	$8, %ecx
	orl	%eax, %ecx
	movw	%cx, -15(%r10)
	movzbl	6(%rdx,%rdi), %eax
	movl	%eax, %ecx
	shll	$8, %ecx
	orl	%eax, %ecx
	movw	%cx, -13(%r10)
	movzbl	7(%rdx,%rdi), %eax
	imull	$16843009, %eax, %eax
	movl	%eax, -11(%r10)
	movzbl	(%rsi,%rdi), %eax
	movl	%eax, %ecx
	shll	$8, %ecx
	orl	%eax, %ecx
	movw	%cx, 1552(%rsp)
	movzbl	1(%rsi,%rdi), %eax
	movl	%eax, %ecx
	shll	$8, %ecx
	orl	%eax, %ecx
	movw	%cx, -23(%r11)
	movzbl	2(%rsi,%rdi), %eax
	movl	%eax, %ecx
	shll	$8, %ecx
	orl	%eax, %ecx
	movw	%cx, -21(%r11)
	movzbl	3(%rsi,%rdi), %eax
	movl	%eax, %ecx
	shll	$8, %ecx
	orl	%eax, %ecx
	movw	%cx, -19(%r11)
	movzbl	4(%rsi,%rdi), %eax
	movl	%eax, %ecx
	shll	$8, %ecx
	orl	%eax, %ecx
	movw	%cx, -17(%r11)
	movzbl	5(%rsi,%rdi), %eax
	movl	%eax, %ecx
	shll	$8, %ecx
	orl	%eax, %ecx
	movw	%cx, -15(%r11)
	movzbl	6(%rsi,%rdi), %eax
	movl	%eax, %ecx
	shll	$8, %ecx
	orl	%eax, %ecx
	movw	%cx, -13(%r11)
	movzbl	7(%rsi,%rdi), %eax
	imull	$16843009, %eax, %eax
	movl	%eax, -11(%r11)
	leaq	-1(%r9), %rax
	cmpq	$31, %rax
	ja	.LBB15_201
	leaq	(%r8,%r8,2), %r10
	testq	%rax, %rax
	je	.LBB15_173
	movl	%r9d, %ebx
	andl	$62, %ebx
	movq	992(%rsp), %rax
	leaq	(%rax,%r10), %r15
	xorl	%r11d, %r11d
.LBB15_198:
	movzbl	448(%rsp,%r11), %eax
	movzbl	816(%rsp,%r11), %ecx
	movzbl	1552(%rsp,%r11), %ebp
	movb	%al, -2(%r15)
	movb	%cl, -1(%r15)
	movb	%bpl, (%r15)
	movzbl	449(%rsp,%r11), %eax
	movzbl	817(%rsp,%r11), %ecx
	movzbl	1553(%rsp,%r11), %ebp
	movb	%al, 1(%r15)
	movb	%cl, 2(%r15)
	movb	%bpl, 3(%r15)
	addq	$2, %r11
	addq	$6, %r15
	cmpq	%r11, %rbx
	jne	.LBB15_198
	testb	$1, %r9b
	jne	.LBB15_200
	jmp	.LBB15_201
.LBB15_512:
	ud2
.Lfunc_end15:
	.size	main, .Lfunc_end15-main
	.section	.rodata.main,"a",@progbits
	.p2align	2, 0x0
.LJTI15_0:
	.long	.LBB15_526-.LJTI15_0
	.long	.LBB15_527-.LJTI15_0
	.long	.LBB15_528-.LJTI15_0
	.long	.LBB15_534-.LJTI15_0
	.long	.LBB15_529-.LJTI15_0
	.long	.LBB15_530-.LJTI15_0
	.long	.LBB15_527-.LJTI15_0
	.long	.LBB15_535-.LJTI15_0
	.long	.LBB15_535-.LJTI15_0
	.long	.LBB15_535-.LJTI15_0
	.long	.LBB15_531-.LJTI15_0
.LJTI15_1:
	.long	.LBB15_536-.LJTI15_1
	.long	.LBB15_532-.LJTI15_1
	.long	.LBB15_533-.LJTI15_1
	.long	.LBB15_534-.LJTI15_1

	.type	.Lstatic.2,@object
	.section	.rodata..Lstatic.2,"a",@progbits
.Lstatic.2:
	.size	.Lstatic.2, 0

	.type	.Lstatic.3,@object
	.section	.rodata.cst8,"aM",@progbits,8
.Lstatic.3:
	.ascii	"refused "
	.size	.Lstatic.3, 8

	.type	.Lstatic.4,@object
	.section	.rodata..Lstatic.4,"a",@progbits
.Lstatic.4:
	.byte	10
	.size	.Lstatic.4, 1

	.type	.Lstatic.5,@object
	.section	.rodata..Lstatic.5,"a",@progbits
.Lstatic.5:
	.ascii	"P5"
	.size	.Lstatic.5, 2

	.type	.Lstatic.6,@object
	.section	.rodata..Lstatic.6,"a",@progbits
.Lstatic.6:
	.ascii	"P6"
	.size	.Lstatic.6, 2

	.type	.Lstatic.7,@object
	.section	.rodata..Lstatic.7,"a",@progbits
.Lstatic.7:
	.byte	32
	.size	.Lstatic.7, 1

	.type	.Lstatic.8,@object
	.section	.rodata..Lstatic.8,"a",@progbits
.Lstatic.8:
	.ascii	"\n255\n"
	.size	.Lstatic.8, 5

	.type	.Lstatic.12,@object
	.section	.data.rel.ro..Lstatic.12,"aw",@progbits
	.p2align	3, 0x0
.Lstatic.12:
	.quad	.Lstatic.12+16
	.asciz	"\003\000\000\000\000\000\000\000...\000\000\000\000"
	.size	.Lstatic.12, 24

	.type	.Lstatic.13,@object
	.section	.rodata.cst4,"aM",@progbits,4
.Lstatic.13:
	.zero	4,32
	.size	.Lstatic.13, 4

	.type	.Lstatic.16,@object
	.section	.rodata..Lstatic.16,"a",@progbits
.Lstatic.16:
	.ascii	"gave up reading or writing after 2^64 tries"
	.size	.Lstatic.16, 43

	.type	.Lstatic.17,@object
	.section	.rodata..Lstatic.17,"a",@progbits
.Lstatic.17:
	.ascii	"tillsparrow: the input cannot be read"
	.size	.Lstatic.17, 37

	.type	.Lstatic.18,@object
	.section	.rodata..Lstatic.18,"a",@progbits
.Lstatic.18:
	.ascii	"tillsparrow: the output cannot be written"
	.size	.Lstatic.18, 41

	.ident	"rattle logic=dac8208d650f15bf3e2dc313a14fa4c783a3acf887bdfab66e1714b038d9e11b"
	.section	".note.GNU-stack","",@progbits
	.text
	.globl	rattle_errno
	.p2align	4
	.type	rattle_errno,@function
rattle_errno:
	.cfi_startproc
	pushq	%rax
	.cfi_def_cfa_offset 16
	callq	__errno_location@PLT
	movl	(%rax), %eax
	popq	%rcx
	.cfi_def_cfa_offset 8
	retq
.Lerror_func_end0:
	.size	rattle_errno, .Lerror_func_end0-rattle_errno
	.cfi_endproc

	.section	".note.GNU-stack","",@progbits
