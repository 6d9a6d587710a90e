	.file	"rattle"
	.section	".text.jpeg_header::header","ax",@progbits
	.p2align	4
	.type	"jpeg_header::header",@function
"jpeg_header::header":
	pushq	%rbp
	pushq	%r15
	pushq	%r14
	pushq	%r13
	pushq	%r12
	pushq	%rbx
	subq	$664, %rsp
	movl	%ecx, %ebp
	movq	%rdx, %r14
	movq	%rsi, %r15
	movq	%rdi, %rbx
	movq	%rsp, %rdi
	movl	$384, %edx
	xorl	%esi, %esi
	callq	memset@PLT
	cmpq	$2, %r14
	jb	.LBB0_3
	cmpb	$-1, (%r15)
	jne	.LBB0_3
	cmpb	$-40, 1(%r15)
	jne	.LBB0_3
	movq	$2, 384(%rsp)
	leaq	392(%rsp), %rdi
	movl	$272, %edx
	xorl	%esi, %esi
	callq	memset@PLT
	movzbl	%bpl, %ebp
	movq	%rsp, %rdi
	leaq	384(%rsp), %r8
	movq	%r15, %rsi
	movq	%r14, %rdx
	movl	%ebp, %ecx
	callq	"jpeg_header::step"
	movzbl	8(%rsp), %eax
	cmpb	$0, (%rsp)
	jne	.LBB0_9
	leaq	48(%rsp), %r12
	leaq	416(%rsp), %r13
	.p2align	4
.LBB0_7:
	movq	16(%rsp), %rdi
	movq	24(%rsp), %rsi
	movq	32(%rsp), %rdx
	movq	40(%rsp), %rcx
	testb	%al, %al
	jne	.LBB0_10
	movq	%rdi, 384(%rsp)
	movq	%rsi, 392(%rsp)
	movq	%rdx, 400(%rsp)
	movq	%rcx, 408(%rsp)
	movl	$248, %edx
	movq	%r13, %rdi
	movq	%r12, %rsi
	callq	memcpy@PLT
	movq	%rsp, %rdi
	leaq	384(%rsp), %r8
	movq	%r15, %rsi
	movq	%r14, %rdx
	movl	%ebp, %ecx
	callq	"jpeg_header::step"
	movzbl	8(%rsp), %eax
	cmpb	$0, (%rsp)
	je	.LBB0_7
.LBB0_9:
	movq	32(%rsp), %rcx
	movzbl	%al, %eax
	movq	$1, (%rbx)
	movq	%rax, 8(%rbx)
	movups	16(%rsp), %xmm0
	movups	%xmm0, 16(%rbx)
	movq	%rcx, 32(%rbx)
	addq	$40, %rbx
	movl	$336, %edx
	jmp	.LBB0_4
.LBB0_3:
	movq	$1, (%rbx)
	movq	$3, 8(%rbx)
	addq	$16, %rbx
	movl	$360, %edx
.LBB0_4:
	movq	%rbx, %rdi
	xorl	%esi, %esi
	addq	$664, %rsp
	popq	%rbx
	popq	%r12
	popq	%r13
	popq	%r14
	popq	%r15
	popq	%rbp
	jmp	memset@PLT
.LBB0_10:
	movq	$0, (%rbx)
	movq	%rdi, 8(%rbx)
	movq	%rsi, 16(%rbx)
	movq	%rdx, 24(%rbx)
	movq	%rcx, 32(%rbx)
	addq	$40, %rbx
	movl	$336, %edx
	movq	%rbx, %rdi
	movq	%r12, %rsi
	callq	memcpy@PLT
	addq	$664, %rsp
	popq	%rbx
	popq	%r12
	popq	%r13
	popq	%r14
	popq	%r15
	popq	%rbp
	retq
.Lfunc_end0:
	.size	"jpeg_header::header", .Lfunc_end0-"jpeg_header::header"

	.section	.rodata.cst16,"aM",@progbits,16
	.p2align	4, 0x0
.LCPI1_0:
	.quad	1
	.quad	3
	.section	".text.jpeg_header::step","ax",@progbits
	.p2align	4
	.type	"jpeg_header::step",@function
"jpeg_header::step":
	pushq	%rbp
	pushq	%r15
	pushq	%r14
	pushq	%r13
	pushq	%r12
	pushq	%rbx
	subq	$1128, %rsp
	movq	%rdi, %rbx
	movq	(%r8), %r9
	movq	16(%r8), %r15
	movzbl	8(%r8), %edi
	leaq	9(%r8), %rax
	leaq	24(%r8), %rbp
	leaq	120(%r8), %r10
	movq	272(%r8), %r14
	pxor	%xmm0, %xmm0
	movdqa	%xmm0, 240(%rsp)
	movdqa	%xmm0, 224(%rsp)
	movdqa	%xmm0, 208(%rsp)
	movdqa	%xmm0, 192(%rsp)
	movdqa	%xmm0, 176(%rsp)
	movdqa	%xmm0, 160(%rsp)
	movdqa	%xmm0, 288(%rsp)
	movdqa	%xmm0, 304(%rsp)
	movdqa	%xmm0, 320(%rsp)
	movdqa	%xmm0, 336(%rsp)
	movdqa	%xmm0, 352(%rsp)
	movdqa	%xmm0, 368(%rsp)
	movdqa	%xmm0, 384(%rsp)
	movdqa	%xmm0, 400(%rsp)
	movdqa	%xmm0, 416(%rsp)
	movq	$0, 432(%rsp)
	movdqa	%xmm0, 48(%rsp)
	movdqa	%xmm0, 64(%rsp)
	movdqa	%xmm0, 80(%rsp)
	movdqa	%xmm0, 96(%rsp)
	movdqa	%xmm0, 112(%rsp)
	movq	$0, 128(%rsp)
	cmpl	$2, %edi
	je	.LBB1_6
	cmpl	$1, %edi
	jne	.LBB1_9
	movq	%r15, %rcx
	subq	%r9, %rcx
	jb	.LBB1_18
	jne	.LBB1_14
	movups	80(%rbp), %xmm0
	movaps	%xmm0, 240(%rsp)
	movups	64(%rbp), %xmm0
	movaps	%xmm0, 224(%rsp)
	movdqu	(%rbp), %xmm0
	movdqu	16(%rbp), %xmm1
	movdqu	32(%rbp), %xmm2
	movdqu	48(%rbp), %xmm3
	movdqa	%xmm3, 208(%rsp)
	movdqa	%xmm2, 192(%rsp)
	movdqa	%xmm1, 176(%rsp)
	movdqa	%xmm0, 160(%rsp)
	leaq	288(%rsp), %rdi
	movl	$152, %edx
	movq	%r10, %rsi
	movq	%r9, %r15
	callq	memcpy@PLT
	movq	%r15, %rdx
	pxor	%xmm0, %xmm0
	movdqa	%xmm0, 48(%rsp)
	movdqa	%xmm0, 64(%rsp)
	movdqa	%xmm0, 80(%rsp)
	movdqa	%xmm0, 96(%rsp)
	movdqa	%xmm0, 112(%rsp)
	movq	$0, 128(%rsp)
	movq	%r14, %r13
.LBB1_5:
	xorl	%r14d, %r14d
	xorl	%r12d, %r12d
	xorl	%ebp, %ebp
	xorl	%r15d, %r15d
	jmp	.LBB1_124
.LBB1_6:
	movq	%r15, %rcx
	subq	%r9, %rcx
	jb	.LBB1_122
	movq	%r14, 152(%rsp)
	jne	.LBB1_20
	movups	80(%rbp), %xmm0
	movaps	%xmm0, 240(%rsp)
	movups	64(%rbp), %xmm0
	movaps	%xmm0, 224(%rsp)
	movdqu	(%rbp), %xmm0
	movdqu	16(%rbp), %xmm1
	movdqu	32(%rbp), %xmm2
	movdqu	48(%rbp), %xmm3
	movdqa	%xmm3, 208(%rsp)
	movdqa	%xmm2, 192(%rsp)
	movdqa	%xmm1, 176(%rsp)
	movdqa	%xmm0, 160(%rsp)
	leaq	288(%rsp), %rdi
	movl	$152, %edx
	movq	%r10, %rsi
	movq	%r9, %r14
	callq	memcpy@PLT
	movq	%r14, %rdx
	pxor	%xmm0, %xmm0
	movdqa	%xmm0, 48(%rsp)
	movdqa	%xmm0, 64(%rsp)
	movdqa	%xmm0, 80(%rsp)
	movdqa	%xmm0, 96(%rsp)
	movdqa	%xmm0, 112(%rsp)
	movq	$0, 128(%rsp)
	xorl	%r14d, %r14d
	xorl	%r12d, %r12d
	xorl	%ebp, %ebp
	xorl	%r15d, %r15d
	jmp	.LBB1_123
.LBB1_9:
	movl	%ecx, 40(%rsp)
	movq	%r14, %r13
	movq	%rdx, %r12
	movq	%rsi, %r14
	movq	%r9, 848(%rsp)
	movb	$0, 856(%rsp)
	movl	(%rax), %ecx
	movl	3(%rax), %eax
	movl	%ecx, 857(%rsp)
	movl	%eax, 860(%rsp)
	movq	%r15, 864(%rsp)
	movups	(%rbp), %xmm0
	movdqu	16(%rbp), %xmm1
	movdqu	32(%rbp), %xmm2
	movdqu	48(%rbp), %xmm3
	movups	%xmm0, 872(%rsp)
	movdqu	%xmm1, 888(%rsp)
	movdqu	%xmm2, 904(%rsp)
	movdqu	%xmm3, 920(%rsp)
	movups	64(%rbp), %xmm0
	movups	%xmm0, 936(%rsp)
	movq	%rbp, 144(%rsp)
	movdqu	80(%rbp), %xmm0
	movdqu	%xmm0, 952(%rsp)
	leaq	968(%rsp), %rdi
	movl	$152, %edx
	movq	%r10, %rbp
	movq	%r10, %rsi
	movq	%r9, %r15
	callq	memcpy@PLT
	movq	%r13, 1120(%rsp)
	leaq	448(%rsp), %rdi
	movl	$384, %edx
	xorl	%esi, %esi
	callq	memset@PLT
	movq	%r12, %rsi
	subq	%r15, %rsi
	cmpq	$2, %rsi
	jb	.LBB1_17
	movq	%r15, %r8
	cmpb	$-1, (%r14,%r15)
	jne	.LBB1_17
	movzbl	1(%r14,%r8), %eax
	cmpl	$217, %eax
	je	.LBB1_17
	cmpl	$255, %eax
	jne	.LBB1_60
	incq	%r8
	movq	144(%rsp), %rax
	movups	80(%rax), %xmm0
	movaps	%xmm0, 240(%rsp)
	movups	64(%rax), %xmm0
	movaps	%xmm0, 224(%rsp)
	movdqu	(%rax), %xmm0
	movdqu	16(%rax), %xmm1
	movdqu	32(%rax), %xmm2
	movdqu	48(%rax), %xmm3
	movdqa	%xmm3, 208(%rsp)
	movdqa	%xmm2, 192(%rsp)
	movdqa	%xmm1, 176(%rsp)
	movdqa	%xmm0, 160(%rsp)
	leaq	288(%rsp), %rdi
	movl	$152, %edx
	movq	%rbp, %rsi
	movq	%r8, %r14
	callq	memcpy@PLT
	movq	%r14, %rdx
	pxor	%xmm0, %xmm0
	movdqa	%xmm0, 48(%rsp)
	movdqa	%xmm0, 64(%rsp)
	movdqa	%xmm0, 80(%rsp)
	movdqa	%xmm0, 96(%rsp)
	movdqa	%xmm0, 112(%rsp)
	movq	$0, 128(%rsp)
	jmp	.LBB1_5
.LBB1_14:
	cmpq	$65, %rcx
	jb	.LBB1_17
	movzbl	(%rsi,%r9), %r12d
	cmpq	$3, %r12
	ja	.LBB1_17
	movdqu	1(%rsi,%r9), %xmm0
	movdqu	17(%rsi,%r9), %xmm1
	movdqu	33(%rsi,%r9), %xmm2
	movdqu	49(%rsi,%r9), %xmm3
	pxor	%xmm4, %xmm4
	pcmpeqb	%xmm4, %xmm2
	pcmpeqb	%xmm4, %xmm0
	por	%xmm2, %xmm0
	pcmpeqb	%xmm4, %xmm3
	pcmpeqb	%xmm4, %xmm1
	por	%xmm3, %xmm1
	por	%xmm0, %xmm1
	pmovmskb	%xmm1, %ecx
	testl	%ecx, %ecx
	je	.LBB1_67
.LBB1_17:
	pxor	%xmm0, %xmm0
.LBB1_18:
	movdqa	%xmm0, 240(%rsp)
	movdqa	%xmm0, 224(%rsp)
	movdqa	%xmm0, 208(%rsp)
	movdqa	%xmm0, 192(%rsp)
	movdqa	%xmm0, 176(%rsp)
	movdqa	%xmm0, 160(%rsp)
	movdqa	%xmm0, 288(%rsp)
	movdqa	%xmm0, 304(%rsp)
	movdqa	%xmm0, 320(%rsp)
	movdqa	%xmm0, 336(%rsp)
	movdqa	%xmm0, 352(%rsp)
	movdqa	%xmm0, 368(%rsp)
	movdqa	%xmm0, 384(%rsp)
	movdqa	%xmm0, 400(%rsp)
	movdqa	%xmm0, 416(%rsp)
	movq	$0, 432(%rsp)
	movdqa	%xmm0, 48(%rsp)
	movdqa	%xmm0, 64(%rsp)
	movdqa	%xmm0, 80(%rsp)
	movdqa	%xmm0, 96(%rsp)
	movdqa	%xmm0, 112(%rsp)
	movq	$0, 128(%rsp)
	movb	$3, %r12b
.LBB1_19:
	movb	$1, %r14b
	xorl	%edx, %edx
	xorl	%ebp, %ebp
	xorl	%r15d, %r15d
	xorl	%r13d, %r13d
	jmp	.LBB1_124
.LBB1_20:
	addq	%r9, %rsi
	movzbl	(%rsi), %edx
	movq	%rdx, 144(%rsp)
	cmpq	$2, %rcx
	movq	%r9, 280(%rsp)
	movq	%r10, 840(%rsp)
	jb	.LBB1_23
	movzbl	1(%rsi), %r11d
	jne	.LBB1_57
	movq	$0, (%rsp)
	xorl	%r9d, %r9d
	movq	$0, 8(%rsp)
	movq	$0, 24(%rsp)
	movq	$0, 32(%rsp)
	movq	$0, 264(%rsp)
	movq	$0, 40(%rsp)
	jmp	.LBB1_24
.LBB1_23:
	movq	$0, (%rsp)
	xorl	%r9d, %r9d
	movq	$0, 8(%rsp)
	movq	$0, 24(%rsp)
	movq	$0, 32(%rsp)
	movq	$0, 264(%rsp)
	movq	$0, 40(%rsp)
	xorl	%r11d, %r11d
.LBB1_24:
	movq	$0, 832(%rsp)
.LBB1_25:
	movq	$0, 272(%rsp)
.LBB1_26:
	xorl	%r10d, %r10d
.LBB1_27:
	xorl	%edx, %edx
.LBB1_28:
	xorl	%edi, %edi
.LBB1_29:
	xorl	%r8d, %r8d
	xorl	%r12d, %r12d
	xorl	%r13d, %r13d
.LBB1_30:
	cmpq	$17, %rcx
	jb	.LBB1_121
	movq	144(%rsp), %r14
	andb	$-20, %r14b
	jne	.LBB1_121
	movzbl	%dil, %edi
	movzbl	%dl, %edx
	addq	%rdi, %rdx
	movzbl	%r8b, %edi
	addq	%rdi, %rdx
	movzbl	%r12b, %edi
	addq	%rdi, %rdx
	movzbl	832(%rsp), %r8d
	movzbl	%r11b, %edi
	addq	%r8, %rdi
	movzbl	272(%rsp), %r8d
	addq	%r8, %rdi
	movzbl	%r10b, %r8d
	addq	%r8, %rdi
	movzbl	264(%rsp), %r10d
	movzbl	32(%rsp), %r8d
	addq	%r10, %r8
	movzbl	40(%rsp), %r10d
	addq	%r10, %r8
	movzbl	24(%rsp), %r14d
	movzbl	8(%rsp), %r10d
	addq	%r14, %r10
	movzbl	%r9b, %r9d
	movzbl	(%rsp), %r12d
	leaq	(%r9,%r12), %r14
	addq	%r10, %r14
	addq	%r8, %r14
	addq	%rdi, %r14
	addq	%rdx, %r14
	leaq	(%r14,%r13), %r11
	decq	%r11
	cmpq	$255, %r11
	ja	.LBB1_121
	addq	%r13, %r14
	addq	$17, %r14
	cmpq	%rcx, %r14
	ja	.LBB1_121
	movzbl	1(%rsi), %ecx
	cmpq	$1, %rcx
	ja	.LBB1_121
	movzbl	2(%rsi), %r11d
	leaq	(%r11,%rcx,2), %rcx
	cmpq	$3, %rcx
	ja	.LBB1_121
	movzbl	3(%rsi), %r11d
	leaq	(%r11,%rcx,2), %rcx
	cmpq	$7, %rcx
	ja	.LBB1_121
	movzbl	4(%rsi), %r11d
	leaq	(%r11,%rcx,2), %rcx
	cmpq	$15, %rcx
	ja	.LBB1_121
	movzbl	5(%rsi), %r11d
	leaq	(%r11,%rcx,2), %rcx
	cmpq	$31, %rcx
	ja	.LBB1_121
	movzbl	6(%rsi), %r11d
	leaq	(%r11,%rcx,2), %rcx
	cmpq	$63, %rcx
	ja	.LBB1_121
	movzbl	7(%rsi), %r11d
	leaq	(%r11,%rcx,2), %rcx
	cmpq	$127, %rcx
	ja	.LBB1_121
	movzbl	8(%rsi), %r11d
	leaq	(%r11,%rcx,2), %rcx
	cmpq	$255, %rcx
	ja	.LBB1_121
	movzbl	9(%rsi), %r11d
	leaq	(%r11,%rcx,2), %rcx
	cmpq	$511, %rcx
	ja	.LBB1_121
	movzbl	10(%rsi), %r11d
	leaq	(%r11,%rcx,2), %rcx
	cmpq	$1023, %rcx
	ja	.LBB1_121
	movzbl	11(%rsi), %r11d
	leaq	(%r11,%rcx,2), %rcx
	cmpq	$2047, %rcx
	ja	.LBB1_121
	movzbl	12(%rsi), %r11d
	leaq	(%r11,%rcx,2), %rcx
	cmpq	$4095, %rcx
	ja	.LBB1_121
	movzbl	13(%rsi), %r11d
	leaq	(%r11,%rcx,2), %rcx
	cmpq	$8191, %rcx
	ja	.LBB1_121
	movzbl	14(%rsi), %r11d
	leaq	(%r11,%rcx,2), %rcx
	cmpq	$16383, %rcx
	ja	.LBB1_121
	movzbl	15(%rsi), %r11d
	leaq	(%r11,%rcx,2), %rcx
	cmpq	$32767, %rcx
	ja	.LBB1_121
	movzbl	16(%rsi), %r11d
	leaq	(%r11,%rcx,2), %rcx
	cmpq	$65535, %rcx
	ja	.LBB1_121
	movq	%r14, 40(%rsp)
	addq	$17, %rsi
	movdqa	%xmm0, 688(%rsp)
	movdqa	%xmm0, 672(%rsp)
	movdqa	%xmm0, 656(%rsp)
	movdqa	%xmm0, 640(%rsp)
	movdqa	%xmm0, 624(%rsp)
	movdqa	%xmm0, 608(%rsp)
	movdqa	%xmm0, 592(%rsp)
	movdqa	%xmm0, 576(%rsp)
	movdqa	%xmm0, 560(%rsp)
	movdqa	%xmm0, 544(%rsp)
	movdqa	%xmm0, 528(%rsp)
	movdqa	%xmm0, 512(%rsp)
	movdqa	%xmm0, 496(%rsp)
	movdqa	%xmm0, 480(%rsp)
	movdqa	%xmm0, 464(%rsp)
	movdqa	%xmm0, 448(%rsp)
	cmpb	$16, 144(%rsp)
	jae	.LBB1_115
	addq	%r12, %r13
	addq	%r10, %r13
	addq	%r8, %r13
	addq	%rdi, %r13
	addq	%r9, %rdx
	addq	%r13, %rdx
	xorl	%ecx, %ecx
.LBB1_52:
	movzbl	(%rsi,%rcx), %edi
	cmpq	$11, %rdi
	ja	.LBB1_121
	cmpb	$0, 448(%rsp,%rdi)
	jne	.LBB1_121
	movb	$1, 448(%rsp,%rdi)
	incq	%rcx
	cmpq	%rcx, %rdx
	jne	.LBB1_52
.LBB1_55:
	movq	144(%rsp), %r13
	movl	%r13d, %r14d
	movb	$2, 456(%rsp)
	movl	(%rax), %ecx
	movl	3(%rax), %eax
	movl	%ecx, 457(%rsp)
	movl	%eax, 460(%rsp)
	movups	(%rbp), %xmm0
	movups	16(%rbp), %xmm1
	movups	32(%rbp), %xmm2
	movups	48(%rbp), %xmm3
	movups	%xmm0, 472(%rsp)
	movups	%xmm1, 488(%rsp)
	movups	%xmm2, 504(%rsp)
	movups	%xmm3, 520(%rsp)
	movups	64(%rbp), %xmm0
	movups	%xmm0, 536(%rsp)
	movups	80(%rbp), %xmm0
	movups	%xmm0, 552(%rsp)
	leaq	568(%rsp), %r12
	movl	$152, %edx
	movq	%r12, %rdi
	movq	840(%rsp), %rsi
	callq	memcpy@PLT
	movq	280(%rsp), %rax
	incq	%rax
	shll	$3, %r13d
	movq	%r13, %rdx
	movq	152(%rsp), %rcx
	movq	%rcx, 720(%rsp)
	cmpb	$15, %r14b
	ja	.LBB1_125
	movq	%rax, 504(%rsp,%rdx)
	movq	720(%rsp), %rax
	movq	%rax, 152(%rsp)
	jmp	.LBB1_126
.LBB1_57:
	movzbl	2(%rsi), %edx
	movq	%rdx, 832(%rsp)
	cmpq	$4, %rcx
	jb	.LBB1_66
	movzbl	3(%rsi), %edx
	movq	%rdx, 40(%rsp)
	jne	.LBB1_68
	movq	$0, (%rsp)
	xorl	%r9d, %r9d
	movq	$0, 8(%rsp)
	movq	$0, 24(%rsp)
	movq	$0, 32(%rsp)
	movq	$0, 264(%rsp)
	jmp	.LBB1_25
.LBB1_60:
	cmpq	$4, %rsi
	jb	.LBB1_65
	leaq	2(%r8), %r15
	cmpq	%r12, %r15
	jae	.LBB1_65
	movzbl	2(%r14,%r8), %esi
	shll	$8, %esi
	leaq	3(%r8), %rdi
	cmpq	%r12, %rdi
	jae	.LBB1_64
	movzbl	(%r14,%rdi), %edi
	orq	%rdi, %rsi
.LBB1_64:
	addq	%rsi, %r15
	cmpq	$2, %rsi
	setb	%sil
	cmpq	%r15, %r12
	setb	%dl
	orb	%sil, %dl
	je	.LBB1_72
.LBB1_65:
	pxor	%xmm0, %xmm0
	movdqa	%xmm0, 240(%rsp)
	movdqa	%xmm0, 224(%rsp)
	movdqa	%xmm0, 208(%rsp)
	movdqa	%xmm0, 192(%rsp)
	movdqa	%xmm0, 176(%rsp)
	movdqa	%xmm0, 160(%rsp)
	movdqa	%xmm0, 288(%rsp)
	movdqa	%xmm0, 304(%rsp)
	movdqa	%xmm0, 320(%rsp)
	movdqa	%xmm0, 336(%rsp)
	movdqa	%xmm0, 352(%rsp)
	movdqa	%xmm0, 368(%rsp)
	movdqa	%xmm0, 384(%rsp)
	movdqa	%xmm0, 400(%rsp)
	movdqa	%xmm0, 416(%rsp)
	movq	$0, 432(%rsp)
	movdqa	%xmm0, 48(%rsp)
	movdqa	%xmm0, 64(%rsp)
	movdqa	%xmm0, 80(%rsp)
	movdqa	%xmm0, 96(%rsp)
	movdqa	%xmm0, 112(%rsp)
	movq	$0, 128(%rsp)
	movb	$2, %r12b
	jmp	.LBB1_19
.LBB1_66:
	movq	$0, (%rsp)
	xorl	%r9d, %r9d
	movq	$0, 8(%rsp)
	movq	$0, 24(%rsp)
	movq	$0, 32(%rsp)
	movq	$0, 264(%rsp)
	movq	$0, 40(%rsp)
	jmp	.LBB1_25
.LBB1_67:
	movb	$1, 456(%rsp)
	movl	(%rax), %ecx
	movl	3(%rax), %eax
	movl	%ecx, 457(%rsp)
	movl	%eax, 460(%rsp)
	movups	(%rbp), %xmm0
	movdqu	16(%rbp), %xmm1
	movdqu	32(%rbp), %xmm2
	movdqu	48(%rbp), %xmm3
	movups	%xmm0, 472(%rsp)
	movdqu	%xmm1, 488(%rsp)
	movdqu	%xmm2, 504(%rsp)
	movdqu	%xmm3, 520(%rsp)
	movups	64(%rbp), %xmm0
	movups	%xmm0, 536(%rsp)
	movups	80(%rbp), %xmm0
	movups	%xmm0, 552(%rsp)
	leaq	568(%rsp), %rdi
	movl	$152, %edx
	movq	%r10, %rsi
	movq	%r9, %r13
	callq	memcpy@PLT
	movq	%r14, 720(%rsp)
	leaq	65(%r13), %rax
	movq	%rax, 152(%rsp)
	incq	%r13
	movq	%r13, 472(%rsp,%r12,8)
	movq	456(%rsp), %rbp
	movq	720(%rsp), %r13
	movups	472(%rsp), %xmm0
	movaps	%xmm0, 160(%rsp)
	movups	488(%rsp), %xmm0
	movaps	%xmm0, 176(%rsp)
	movups	504(%rsp), %xmm0
	movaps	%xmm0, 192(%rsp)
	movups	520(%rsp), %xmm0
	movaps	%xmm0, 208(%rsp)
	movups	536(%rsp), %xmm0
	movaps	%xmm0, 224(%rsp)
	movdqu	552(%rsp), %xmm0
	movdqa	%xmm0, 240(%rsp)
	leaq	288(%rsp), %rdi
	movl	$152, %edx
	leaq	568(%rsp), %rsi
	callq	memcpy@PLT
	pxor	%xmm0, %xmm0
	movdqa	%xmm0, 48(%rsp)
	movdqa	%xmm0, 64(%rsp)
	movdqa	%xmm0, 80(%rsp)
	movdqa	%xmm0, 96(%rsp)
	movdqa	%xmm0, 112(%rsp)
	movq	$0, 128(%rsp)
	xorl	%r14d, %r14d
	xorl	%r12d, %r12d
	movq	152(%rsp), %rdx
	jmp	.LBB1_124
.LBB1_68:
	movzbl	4(%rsi), %edx
	movq	%rdx, 272(%rsp)
	cmpq	$6, %rcx
	jb	.LBB1_71
	movzbl	5(%rsi), %edx
	movq	%rdx, 264(%rsp)
	jne	.LBB1_75
	movq	$0, (%rsp)
	xorl	%r9d, %r9d
	movq	$0, 8(%rsp)
	movq	$0, 24(%rsp)
	movq	$0, 32(%rsp)
	jmp	.LBB1_26
.LBB1_71:
	movq	$0, (%rsp)
	xorl	%r9d, %r9d
	movq	$0, 8(%rsp)
	movq	$0, 24(%rsp)
	movq	$0, 32(%rsp)
	movq	$0, 264(%rsp)
	jmp	.LBB1_26
.LBB1_72:
	leaq	(%r14,%r8), %rsi
	addq	$4, %rsi
	addq	$4, %r8
	movq	%r15, %rdx
	subq	%r8, %rdx
	leal	-218(%rax), %ecx
	cmpl	$36, %ecx
	ja	.LBB1_79
	leaq	.LJTI1_0(%rip), %rdi
	movslq	(%rdi,%rcx,4), %rcx
	addq	%rdi, %rcx
	movq	144(%rsp), %r12
	jmpq	*%rcx
.LBB1_74:
	movzbl	40(%rsp), %ecx
	leaq	448(%rsp), %rdi
	leaq	848(%rsp), %r8
	movq	%r15, %r9
	callq	"jpeg_header_state::scan"
	jmp	.LBB1_100
.LBB1_75:
	movzbl	6(%rsi), %r10d
	cmpq	$8, %rcx
	jb	.LBB1_78
	movzbl	7(%rsi), %edx
	movq	%rdx, 32(%rsp)
	jne	.LBB1_88
	movq	$0, (%rsp)
	xorl	%r9d, %r9d
	movq	$0, 8(%rsp)
	movq	$0, 24(%rsp)
	jmp	.LBB1_27
.LBB1_78:
	movq	$0, (%rsp)
	xorl	%r9d, %r9d
	movq	$0, 8(%rsp)
	movq	$0, 24(%rsp)
	movq	$0, 32(%rsp)
	jmp	.LBB1_27
.LBB1_79:
	cmpl	$196, %eax
	movq	144(%rsp), %r12
	jne	.LBB1_82
	cmpq	%r8, %r15
	je	.LBB1_85
	leaq	584(%rsp), %rdi
	movl	$152, %edx
	movq	%rbp, %rsi
	movq	%r8, %r14
	callq	memcpy@PLT
	movq	%r14, %rcx
	movups	(%r12), %xmm0
	movdqu	16(%r12), %xmm1
	movdqu	32(%r12), %xmm2
	movdqu	48(%r12), %xmm3
	movups	%xmm0, 488(%rsp)
	movdqu	%xmm1, 504(%rsp)
	movdqu	%xmm2, 520(%rsp)
	movdqu	%xmm3, 536(%rsp)
	movups	64(%r12), %xmm0
	movups	%xmm0, 552(%rsp)
	movdqu	80(%r12), %xmm0
	movdqu	%xmm0, 568(%rsp)
	pxor	%xmm0, %xmm0
	movdqu	%xmm0, 808(%rsp)
	movdqu	%xmm0, 792(%rsp)
	movdqu	%xmm0, 776(%rsp)
	movdqu	%xmm0, 760(%rsp)
	movdqu	%xmm0, 744(%rsp)
	movq	$0, 824(%rsp)
	movl	$2, %eax
	jmp	.LBB1_94
.LBB1_82:
	cmpb	$-64, %al
	jae	.LBB1_91
.LBB1_83:
	movq	$1, 448(%rsp)
	movq	$4, 456(%rsp)
	pxor	%xmm0, %xmm0
	movdqa	%xmm0, 464(%rsp)
	movq	$0, 480(%rsp)
	jmp	.LBB1_100
.LBB1_84:
	cmpq	%r8, %r15
	jne	.LBB1_93
.LBB1_85:
	pxor	%xmm0, %xmm0
	movdqu	%xmm0, 808(%rsp)
	movdqu	%xmm0, 792(%rsp)
	movdqu	%xmm0, 776(%rsp)
	movdqu	%xmm0, 760(%rsp)
	movdqu	%xmm0, 744(%rsp)
	movq	$0, 824(%rsp)
	movdqu	%xmm0, 488(%rsp)
	movdqu	%xmm0, 504(%rsp)
	movdqu	%xmm0, 520(%rsp)
	movdqu	%xmm0, 536(%rsp)
	movdqu	%xmm0, 552(%rsp)
	movdqu	%xmm0, 568(%rsp)
	movdqu	%xmm0, 584(%rsp)
	movdqu	%xmm0, 600(%rsp)
	movdqu	%xmm0, 616(%rsp)
	movdqu	%xmm0, 632(%rsp)
	movdqu	%xmm0, 648(%rsp)
	movdqu	%xmm0, 664(%rsp)
	movdqu	%xmm0, 680(%rsp)
	movdqu	%xmm0, 696(%rsp)
	movdqu	%xmm0, 712(%rsp)
	movq	$0, 728(%rsp)
	movdqa	.LCPI1_0(%rip), %xmm0
	xorl	%ecx, %ecx
	xorl	%eax, %eax
	xorl	%r15d, %r15d
	xorl	%r13d, %r13d
	jmp	.LBB1_94
.LBB1_86:
	cmpq	$2, %rdx
	jne	.LBB1_95
	movzwl	(%rsi), %eax
	rolw	$8, %ax
	movzwl	%ax, %r14d
	movups	80(%r12), %xmm0
	movups	%xmm0, 568(%rsp)
	movups	64(%r12), %xmm0
	movups	%xmm0, 552(%rsp)
	movdqu	(%r12), %xmm0
	movdqu	16(%r12), %xmm1
	movdqu	32(%r12), %xmm2
	movdqu	48(%r12), %xmm3
	movdqu	%xmm3, 536(%rsp)
	movdqu	%xmm2, 520(%rsp)
	movdqu	%xmm1, 504(%rsp)
	movdqu	%xmm0, 488(%rsp)
	leaq	584(%rsp), %rdi
	movl	$152, %edx
	movq	%rbp, %rsi
	callq	memcpy@PLT
	pxor	%xmm0, %xmm0
	movdqu	%xmm0, 472(%rsp)
	movdqu	%xmm0, 744(%rsp)
	movdqu	%xmm0, 760(%rsp)
	movdqu	%xmm0, 776(%rsp)
	movdqu	%xmm0, 792(%rsp)
	movdqu	%xmm0, 808(%rsp)
	movq	$0, 824(%rsp)
	jmp	.LBB1_96
.LBB1_88:
	movzbl	8(%rsi), %edx
	cmpq	$10, %rcx
	jb	.LBB1_97
	movzbl	9(%rsi), %edi
	movq	%rdi, 24(%rsp)
	jne	.LBB1_101
	movq	$0, (%rsp)
	xorl	%r9d, %r9d
	movq	$0, 8(%rsp)
	jmp	.LBB1_28
.LBB1_91:
	cmpb	$-62, %al
	jae	.LBB1_98
	leaq	448(%rsp), %rdi
	leaq	848(%rsp), %rcx
	movq	%r15, %r8
	callq	"jpeg_header_state::frame"
	jmp	.LBB1_100
.LBB1_93:
	leaq	584(%rsp), %rdi
	movl	$152, %edx
	movq	%rbp, %rsi
	movq	%r8, %r14
	callq	memcpy@PLT
	movq	%r14, %rcx
	movups	(%r12), %xmm0
	movdqu	16(%r12), %xmm1
	movdqu	32(%r12), %xmm2
	movdqu	48(%r12), %xmm3
	movups	%xmm0, 488(%rsp)
	movdqu	%xmm1, 504(%rsp)
	movdqu	%xmm2, 520(%rsp)
	movdqu	%xmm3, 536(%rsp)
	movups	64(%r12), %xmm0
	movups	%xmm0, 552(%rsp)
	movdqu	80(%r12), %xmm0
	movdqu	%xmm0, 568(%rsp)
	pxor	%xmm0, %xmm0
	movdqu	%xmm0, 808(%rsp)
	movdqu	%xmm0, 792(%rsp)
	movdqu	%xmm0, 776(%rsp)
	movdqu	%xmm0, 760(%rsp)
	movdqu	%xmm0, 744(%rsp)
	movq	$0, 824(%rsp)
	movl	$1, %eax
.LBB1_94:
	movdqa	%xmm0, 448(%rsp)
	movq	%rcx, 464(%rsp)
	movq	%rax, 472(%rsp)
	movq	%r15, 480(%rsp)
	movq	%r13, 736(%rsp)
	jmp	.LBB1_100
.LBB1_95:
	leaq	472(%rsp), %rdi
	pxor	%xmm0, %xmm0
	movdqu	%xmm0, 808(%rsp)
	movdqu	%xmm0, 792(%rsp)
	movdqu	%xmm0, 776(%rsp)
	movdqu	%xmm0, 760(%rsp)
	movdqu	%xmm0, 744(%rsp)
	movq	$0, 824(%rsp)
	xorl	%r15d, %r15d
	movl	$264, %edx
	xorl	%esi, %esi
	callq	memset@PLT
	movdqa	.LCPI1_0(%rip), %xmm0
	xorl	%r14d, %r14d
.LBB1_96:
	movdqa	%xmm0, 448(%rsp)
	movq	%r15, 464(%rsp)
	movq	%r14, 736(%rsp)
	jmp	.LBB1_100
.LBB1_97:
	movq	$0, (%rsp)
	xorl	%r9d, %r9d
	movq	$0, 8(%rsp)
	movq	$0, 24(%rsp)
	jmp	.LBB1_28
.LBB1_98:
	andb	$-16, %al
	cmpb	$-32, %al
	jne	.LBB1_83
.LBB1_99:
	pxor	%xmm0, %xmm0
	movdqa	%xmm0, 448(%rsp)
	movq	%r15, 464(%rsp)
	movdqu	%xmm0, 472(%rsp)
	movups	(%r12), %xmm0
	movdqu	16(%r12), %xmm1
	movdqu	32(%r12), %xmm2
	movdqu	48(%r12), %xmm3
	movups	%xmm0, 488(%rsp)
	movdqu	%xmm1, 504(%rsp)
	movdqu	%xmm2, 520(%rsp)
	movdqu	%xmm3, 536(%rsp)
	movups	64(%r12), %xmm0
	movups	%xmm0, 552(%rsp)
	movdqu	80(%r12), %xmm0
	movdqu	%xmm0, 568(%rsp)
	leaq	584(%rsp), %rdi
	movl	$152, %edx
	movq	%rbp, %rsi
	callq	memcpy@PLT
	movq	%r13, 736(%rsp)
	pxor	%xmm0, %xmm0
	movdqu	%xmm0, 744(%rsp)
	movdqu	%xmm0, 760(%rsp)
	movdqu	%xmm0, 776(%rsp)
	movdqu	%xmm0, 792(%rsp)
	movdqu	%xmm0, 808(%rsp)
	movq	$0, 824(%rsp)
.LBB1_100:
	movzbl	448(%rsp), %r14d
	movzbl	456(%rsp), %r12d
	movq	464(%rsp), %rax
	movq	%rax, 280(%rsp)
	movq	472(%rsp), %rbp
	movq	480(%rsp), %r15
	leaq	584(%rsp), %rsi
	movq	736(%rsp), %r13
	movups	488(%rsp), %xmm0
	movaps	%xmm0, 160(%rsp)
	movups	504(%rsp), %xmm0
	movaps	%xmm0, 176(%rsp)
	movups	520(%rsp), %xmm0
	movaps	%xmm0, 192(%rsp)
	movups	536(%rsp), %xmm0
	movaps	%xmm0, 208(%rsp)
	movups	552(%rsp), %xmm0
	movaps	%xmm0, 224(%rsp)
	movups	568(%rsp), %xmm0
	movaps	%xmm0, 240(%rsp)
	leaq	288(%rsp), %rdi
	movl	$152, %edx
	callq	memcpy@PLT
	movq	280(%rsp), %rdx
	movups	744(%rsp), %xmm0
	movdqu	760(%rsp), %xmm1
	movdqu	776(%rsp), %xmm2
	movdqu	792(%rsp), %xmm3
	movaps	%xmm0, 48(%rsp)
	movdqa	%xmm1, 64(%rsp)
	movdqa	%xmm2, 80(%rsp)
	movdqa	%xmm3, 96(%rsp)
	movdqu	808(%rsp), %xmm0
	movdqa	%xmm0, 112(%rsp)
	movq	824(%rsp), %rax
	movq	%rax, 128(%rsp)
	jmp	.LBB1_124
.LBB1_101:
	movzbl	10(%rsi), %edi
	cmpq	$12, %rcx
	jb	.LBB1_104
	movq	%rsi, 16(%rsp)
	movzbl	11(%rsi), %esi
	movq	%rsi, 8(%rsp)
	jne	.LBB1_105
	movq	$0, (%rsp)
	xorl	%r9d, %r9d
	xorl	%r8d, %r8d
	jmp	.LBB1_109
.LBB1_104:
	movq	$0, (%rsp)
	xorl	%r9d, %r9d
	movq	$0, 8(%rsp)
	jmp	.LBB1_29
.LBB1_105:
	movq	16(%rsp), %rsi
	movzbl	12(%rsi), %r8d
	cmpq	$14, %rcx
	jb	.LBB1_108
	movq	16(%rsp), %rsi
	movzbl	13(%rsi), %r9d
	jne	.LBB1_111
	movq	$0, (%rsp)
	jmp	.LBB1_109
.LBB1_108:
	movq	$0, (%rsp)
	xorl	%r9d, %r9d
.LBB1_109:
	xorl	%r12d, %r12d
.LBB1_110:
	xorl	%r13d, %r13d
	movq	16(%rsp), %rsi
	jmp	.LBB1_30
.LBB1_111:
	movq	16(%rsp), %rsi
	movzbl	14(%rsi), %r12d
	cmpq	$16, %rcx
	jb	.LBB1_114
	movq	16(%rsp), %rsi
	movzbl	15(%rsi), %esi
	movq	%rsi, (%rsp)
	je	.LBB1_110
	movq	16(%rsp), %rsi
	movzbl	16(%rsi), %r13d
	jmp	.LBB1_30
.LBB1_114:
	movq	$0, (%rsp)
	jmp	.LBB1_110
.LBB1_115:
	addq	%r12, %r13
	addq	%r10, %r13
	addq	%r8, %r13
	addq	%rdi, %r13
	addq	%r9, %rdx
	addq	%r13, %rdx
	xorl	%ecx, %ecx
	jmp	.LBB1_117
.LBB1_116:
	movb	$1, 448(%rsp,%rdi)
	incq	%rcx
	cmpq	%rcx, %rdx
	je	.LBB1_55
.LBB1_117:
	movzbl	(%rsi,%rcx), %edi
	cmpb	$0, 448(%rsp,%rdi)
	jne	.LBB1_121
	testq	%rdi, %rdi
	je	.LBB1_116
	cmpl	$240, %edi
	je	.LBB1_116
	movl	%edi, %r8d
	andl	$15, %r8d
	decl	%r8d
	cmpl	$9, %r8d
	jbe	.LBB1_116
.LBB1_121:
	pxor	%xmm0, %xmm0
.LBB1_122:
	movdqa	%xmm0, 240(%rsp)
	movdqa	%xmm0, 224(%rsp)
	movdqa	%xmm0, 208(%rsp)
	movdqa	%xmm0, 192(%rsp)
	movdqa	%xmm0, 176(%rsp)
	movdqa	%xmm0, 160(%rsp)
	movdqa	%xmm0, 288(%rsp)
	movdqa	%xmm0, 304(%rsp)
	movdqa	%xmm0, 320(%rsp)
	movdqa	%xmm0, 336(%rsp)
	movdqa	%xmm0, 352(%rsp)
	movdqa	%xmm0, 368(%rsp)
	movdqa	%xmm0, 384(%rsp)
	movdqa	%xmm0, 400(%rsp)
	movdqa	%xmm0, 416(%rsp)
	movq	$0, 432(%rsp)
	movdqa	%xmm0, 48(%rsp)
	movdqa	%xmm0, 64(%rsp)
	movdqa	%xmm0, 80(%rsp)
	movdqa	%xmm0, 96(%rsp)
	movdqa	%xmm0, 112(%rsp)
	movq	$0, 128(%rsp)
	movb	$3, %r12b
	movb	$1, %r14b
	xorl	%edx, %edx
	xorl	%ebp, %ebp
	xorl	%r15d, %r15d
	movq	$0, 152(%rsp)
.LBB1_123:
	movq	152(%rsp), %r13
.LBB1_124:
	movzbl	%r14b, %eax
	movzbl	%r12b, %ecx
	movq	%rax, (%rbx)
	movq	%rcx, 8(%rbx)
	movq	%rdx, 16(%rbx)
	movq	%rbp, 24(%rbx)
	movq	%r15, 32(%rbx)
	movaps	160(%rsp), %xmm0
	movaps	176(%rsp), %xmm1
	movaps	192(%rsp), %xmm2
	movaps	208(%rsp), %xmm3
	movups	%xmm0, 40(%rbx)
	movups	%xmm1, 56(%rbx)
	movups	%xmm2, 72(%rbx)
	movups	%xmm3, 88(%rbx)
	movaps	224(%rsp), %xmm0
	movups	%xmm0, 104(%rbx)
	movaps	240(%rsp), %xmm0
	movups	%xmm0, 120(%rbx)
	leaq	136(%rbx), %rdi
	leaq	288(%rsp), %rsi
	movl	$152, %edx
	callq	memcpy@PLT
	movq	%r13, 288(%rbx)
	movaps	48(%rsp), %xmm0
	movaps	64(%rsp), %xmm1
	movaps	80(%rsp), %xmm2
	movaps	96(%rsp), %xmm3
	movups	%xmm0, 296(%rbx)
	movups	%xmm1, 312(%rbx)
	movups	%xmm2, 328(%rbx)
	movups	%xmm3, 344(%rbx)
	movaps	112(%rsp), %xmm0
	movups	%xmm0, 360(%rbx)
	movq	128(%rsp), %rax
	movq	%rax, 376(%rbx)
	addq	$1128, %rsp
	popq	%rbx
	popq	%r12
	popq	%r13
	popq	%r14
	popq	%r15
	popq	%rbp
	retq
.LBB1_125:
	andl	$24, %edx
	movq	%rax, 536(%rsp,%rdx)
.LBB1_126:
	movq	280(%rsp), %r13
	addq	40(%rsp), %r13
	movq	456(%rsp), %rbp
	movups	-96(%r12), %xmm0
	movdqu	-80(%r12), %xmm1
	movdqu	-64(%r12), %xmm2
	movdqu	-48(%r12), %xmm3
	movaps	%xmm0, 160(%rsp)
	movdqa	%xmm1, 176(%rsp)
	movdqa	%xmm2, 192(%rsp)
	movdqa	%xmm3, 208(%rsp)
	movups	-32(%r12), %xmm0
	movaps	%xmm0, 224(%rsp)
	movdqu	-16(%r12), %xmm0
	movdqa	%xmm0, 240(%rsp)
	leaq	288(%rsp), %rdi
	movl	$152, %edx
	movq	%r12, %rsi
	callq	memcpy@PLT
	movq	%r13, %rdx
	pxor	%xmm0, %xmm0
	movdqa	%xmm0, 48(%rsp)
	movdqa	%xmm0, 64(%rsp)
	movdqa	%xmm0, 80(%rsp)
	movdqa	%xmm0, 96(%rsp)
	movdqa	%xmm0, 112(%rsp)
	movq	$0, 128(%rsp)
	xorl	%r14d, %r14d
	xorl	%r12d, %r12d
	jmp	.LBB1_123
.Lfunc_end1:
	.size	"jpeg_header::step", .Lfunc_end1-"jpeg_header::step"
	.section	".rodata.jpeg_header::step","a",@progbits
	.p2align	2, 0x0
.LJTI1_0:
	.long	.LBB1_74-.LJTI1_0
	.long	.LBB1_84-.LJTI1_0
	.long	.LBB1_82-.LJTI1_0
	.long	.LBB1_86-.LJTI1_0
	.long	.LBB1_82-.LJTI1_0
	.long	.LBB1_82-.LJTI1_0
	.long	.LBB1_82-.LJTI1_0
	.long	.LBB1_82-.LJTI1_0
	.long	.LBB1_82-.LJTI1_0
	.long	.LBB1_82-.LJTI1_0
	.long	.LBB1_82-.LJTI1_0
	.long	.LBB1_82-.LJTI1_0
	.long	.LBB1_82-.LJTI1_0
	.long	.LBB1_82-.LJTI1_0
	.long	.LBB1_82-.LJTI1_0
	.long	.LBB1_82-.LJTI1_0
	.long	.LBB1_82-.LJTI1_0
	.long	.LBB1_82-.LJTI1_0
	.long	.LBB1_82-.LJTI1_0
	.long	.LBB1_82-.LJTI1_0
	.long	.LBB1_82-.LJTI1_0
	.long	.LBB1_82-.LJTI1_0
	.long	.LBB1_82-.LJTI1_0
	.long	.LBB1_82-.LJTI1_0
	.long	.LBB1_82-.LJTI1_0
	.long	.LBB1_82-.LJTI1_0
	.long	.LBB1_82-.LJTI1_0
	.long	.LBB1_82-.LJTI1_0
	.long	.LBB1_82-.LJTI1_0
	.long	.LBB1_82-.LJTI1_0
	.long	.LBB1_82-.LJTI1_0
	.long	.LBB1_82-.LJTI1_0
	.long	.LBB1_82-.LJTI1_0
	.long	.LBB1_82-.LJTI1_0
	.long	.LBB1_82-.LJTI1_0
	.long	.LBB1_82-.LJTI1_0
	.long	.LBB1_99-.LJTI1_0

	.section	".text.jpeg_header_state::frame","ax",@progbits
	.p2align	4
	.type	"jpeg_header_state::frame",@function
"jpeg_header_state::frame":
	pushq	%rbp
	pushq	%r15
	pushq	%r14
	pushq	%r13
	pushq	%r12
	pushq	%rbx
	subq	$568, %rsp
	movq	272(%rcx), %r14
	xorps	%xmm0, %xmm0
	cmpq	$0, 136(%rcx)
	movaps	%xmm0, 240(%rsp)
	movaps	%xmm0, 224(%rsp)
	movaps	%xmm0, 208(%rsp)
	movaps	%xmm0, 192(%rsp)
	movaps	%xmm0, 176(%rsp)
	movaps	%xmm0, 160(%rsp)
	je	.LBB2_2
.LBB2_1:
	movq	$1, (%rdi)
	movq	$3, 8(%rdi)
	jmp	.LBB2_106
.LBB2_2:
	cmpq	$6, %rdx
	jb	.LBB2_105
	cmpb	$8, (%rsi)
	jne	.LBB2_105
	movzbl	5(%rsi), %r15d
	leal	-1(%r15), %eax
	cmpb	$4, %al
	jae	.LBB2_105
	leaq	(%r15,%r15,2), %rax
	addq	$6, %rax
	cmpq	%rax, %rdx
	jne	.LBB2_1
	movq	%rcx, %r12
	movq	%r8, (%rsp)
	movq	%rdi, %rbx
	leaq	264(%rsp), %rdi
	movq	%rsi, %r13
	movq	%rdx, %rbp
	callq	"jpeg_header_rules::frame_of"
	cmpq	$0, 264(%rsp)
	je	.LBB2_104
	cmpq	$0, 272(%rsp)
	je	.LBB2_104
	testq	%r15, %r15
	je	.LBB2_19
	leal	-5(%rbp), %eax
	movzbl	%al, %ecx
	imull	$171, %ecx, %eax
	shrl	$9, %eax
	cmpb	$3, %cl
	jae	.LBB2_11
.LBB2_10:
	movl	%eax, %ecx
	jmp	.LBB2_18
.LBB2_11:
	movzbl	7(%r13), %ecx
	movl	%ecx, %edx
	shrl	$4, %edx
	decl	%edx
	cmpl	$3, %edx
	ja	.LBB2_17
	andl	$15, %ecx
	decl	%ecx
	cmpl	$3, %ecx
	ja	.LBB2_17
	cmpl	$1, %r15d
	je	.LBB2_19
	leal	-8(%rbp), %ecx
	cmpb	$3, %cl
	jb	.LBB2_10
	movzbl	10(%r13), %edx
	movl	%edx, %esi
	shrl	$4, %esi
	decl	%esi
	movb	$1, %cl
	cmpl	$3, %esi
	ja	.LBB2_18
	andl	$15, %edx
	decl	%edx
	cmpl	$3, %edx
	ja	.LBB2_18
	cmpl	$2, %r15d
	je	.LBB2_19
	leal	-11(%rbp), %ecx
	cmpb	$3, %cl
	jb	.LBB2_10
	movzbl	13(%r13), %edx
	movl	%edx, %esi
	shrl	$4, %esi
	decl	%esi
	movb	$2, %cl
	cmpl	$3, %esi
	ja	.LBB2_18
	andl	$15, %edx
	decl	%edx
	cmpl	$3, %edx
	ja	.LBB2_18
	cmpl	$3, %r15d
	je	.LBB2_19
	leal	-14(%rbp), %ecx
	cmpb	$3, %cl
	jb	.LBB2_10
	movzbl	16(%r13), %edx
	movl	%edx, %esi
	shrl	$4, %esi
	decl	%esi
	movb	$3, %cl
	cmpl	$3, %esi
	ja	.LBB2_18
	andl	$15, %edx
	decl	%edx
	cmpl	$3, %edx
	ja	.LBB2_18
	cmpl	$4, %r15d
	je	.LBB2_19
	leal	-17(%rbp), %ecx
	cmpb	$3, %cl
	movzbl	%al, %eax
	movl	$4, %ecx
	cmovbl	%eax, %ecx
	jmp	.LBB2_18
.LBB2_17:
	xorl	%ecx, %ecx
.LBB2_18:
	cmpb	%r15b, %cl
	jb	.LBB2_104
.LBB2_19:
	movq	280(%rsp), %rax
	testq	%rax, %rax
	je	.LBB2_22
	cmpq	$3, 384(%rsp)
	ja	.LBB2_104
	cmpq	$1, %rax
	jne	.LBB2_39
.LBB2_22:
	leaq	8(%rsp), %rdi
	leaq	264(%rsp), %rsi
	movl	$152, %edx
	callq	memcpy@PLT
	movq	24(%rsp), %rcx
	cmpq	$4, %rcx
	movl	$4, %eax
	cmovbq	%rcx, %rax
	testq	%rcx, %rcx
	movq	%rbx, %rdi
	movq	%rbp, %rdx
	movq	%r13, %rsi
	je	.LBB2_107
	leaq	-1(%rax), %r8
	cmpq	$4, %r8
	jb	.LBB2_34
	movq	96(%rsp), %r10
	xorl	%r15d, %r15d
	movq	%r8, %r11
	xorl	%r9d, %r9d
	jmp	.LBB2_28
.LBB2_25:
	orq	$1, %r15
.LBB2_26:
	cmpq	%r9, %r15
	jb	.LBB2_104
.LBB2_27:
	addq	$-4, %r11
	movq	%r9, %r15
	cmpq	$3, %r11
	jbe	.LBB2_35
.LBB2_28:
	subq	$-4, %r9
	je	.LBB2_27
	cmpq	%r10, 72(%rsp,%r9,8)
	je	.LBB2_26
	cmpq	%r10, 80(%rsp,%r9,8)
	je	.LBB2_25
	cmpq	%r10, 88(%rsp,%r9,8)
	jne	.LBB2_33
	orq	$2, %r15
	jmp	.LBB2_26
.LBB2_33:
	addq	$3, %r15
	cmpq	%r10, 96(%rsp,%r9,8)
	cmovneq	%r9, %r15
	jmp	.LBB2_26
.LBB2_34:
	xorl	%r9d, %r9d
.LBB2_35:
	cmpq	%r8, %r9
	jae	.LBB2_45
	movq	96(%rsp), %r10
.LBB2_37:
	cmpq	%r10, 104(%rsp,%r9,8)
	je	.LBB2_44
	incq	%r9
	cmpq	%r9, %r8
	jne	.LBB2_37
	jmp	.LBB2_45
.LBB2_39:
	cmpq	$3, 392(%rsp)
	ja	.LBB2_104
	cmpq	$2, %rax
	je	.LBB2_22
	cmpq	$3, 400(%rsp)
	ja	.LBB2_104
	cmpq	$3, %rax
	je	.LBB2_22
	cmpq	$3, 408(%rsp)
	ja	.LBB2_104
	jmp	.LBB2_22
.LBB2_44:
	cmpq	%r8, %r9
	jb	.LBB2_104
.LBB2_45:
	cmpq	$1, %rcx
	je	.LBB2_107
	leaq	-2(%rax), %r8
	cmpq	$4, %r8
	jb	.LBB2_57
	movq	104(%rsp), %r10
	xorl	%r15d, %r15d
	movq	%r8, %r11
	xorl	%r9d, %r9d
	jmp	.LBB2_51
.LBB2_48:
	orq	$1, %r15
.LBB2_49:
	cmpq	%r9, %r15
	jb	.LBB2_104
.LBB2_50:
	addq	$-4, %r11
	movq	%r9, %r15
	cmpq	$3, %r11
	jbe	.LBB2_58
.LBB2_51:
	subq	$-4, %r9
	je	.LBB2_50
	cmpq	%r10, 80(%rsp,%r9,8)
	je	.LBB2_49
	cmpq	%r10, 88(%rsp,%r9,8)
	je	.LBB2_48
	cmpq	%r10, 96(%rsp,%r9,8)
	jne	.LBB2_56
	orq	$2, %r15
	jmp	.LBB2_49
.LBB2_56:
	addq	$3, %r15
	cmpq	%r10, 104(%rsp,%r9,8)
	cmovneq	%r9, %r15
	jmp	.LBB2_49
.LBB2_57:
	xorl	%r9d, %r9d
.LBB2_58:
	cmpq	%r8, %r9
	jae	.LBB2_63
	movq	104(%rsp), %r10
.LBB2_60:
	cmpq	%r10, 112(%rsp,%r9,8)
	je	.LBB2_62
	incq	%r9
	cmpq	%r9, %r8
	jne	.LBB2_60
	jmp	.LBB2_63
.LBB2_62:
	cmpq	%r8, %r9
	jb	.LBB2_104
.LBB2_63:
	cmpq	$2, %rcx
	je	.LBB2_107
	leaq	-3(%rax), %r8
	cmpq	$4, %r8
	jb	.LBB2_80
	movq	112(%rsp), %r10
	xorl	%r15d, %r15d
	movq	%r8, %r11
	xorl	%r9d, %r9d
	jmp	.LBB2_69
.LBB2_66:
	orq	$1, %r15
.LBB2_67:
	cmpq	%r9, %r15
	jb	.LBB2_104
.LBB2_68:
	addq	$-4, %r11
	movq	%r9, %r15
	cmpq	$3, %r11
	jbe	.LBB2_81
.LBB2_69:
	subq	$-4, %r9
	je	.LBB2_68
	cmpq	%r10, 88(%rsp,%r9,8)
	je	.LBB2_67
	cmpq	%r10, 96(%rsp,%r9,8)
	je	.LBB2_66
	cmpq	%r10, 104(%rsp,%r9,8)
	jne	.LBB2_74
	orq	$2, %r15
	jmp	.LBB2_67
.LBB2_74:
	addq	$3, %r15
	cmpq	%r10, 112(%rsp,%r9,8)
	cmovneq	%r9, %r15
	jmp	.LBB2_67
.LBB2_80:
	xorl	%r9d, %r9d
.LBB2_81:
	cmpq	%r8, %r9
	jae	.LBB2_86
	movq	112(%rsp), %r10
.LBB2_83:
	cmpq	%r10, 120(%rsp,%r9,8)
	je	.LBB2_85
	incq	%r9
	cmpq	%r9, %r8
	jne	.LBB2_83
	jmp	.LBB2_86
.LBB2_85:
	cmpq	%r8, %r9
	jb	.LBB2_104
.LBB2_86:
	cmpq	$3, %rcx
	je	.LBB2_107
	addq	$-4, %rax
	cmpq	$4, %rax
	jb	.LBB2_98
	movq	120(%rsp), %r8
	xorl	%r10d, %r10d
	movq	%rax, %r9
	xorl	%ecx, %ecx
	jmp	.LBB2_92
.LBB2_89:
	orq	$1, %r10
.LBB2_90:
	cmpq	%rcx, %r10
	jb	.LBB2_104
.LBB2_91:
	addq	$-4, %r9
	movq	%rcx, %r10
	cmpq	$3, %r9
	jbe	.LBB2_99
.LBB2_92:
	subq	$-4, %rcx
	je	.LBB2_91
	cmpq	%r8, 96(%rsp,%rcx,8)
	je	.LBB2_90
	cmpq	%r8, 104(%rsp,%rcx,8)
	je	.LBB2_89
	cmpq	%r8, 112(%rsp,%rcx,8)
	jne	.LBB2_97
	orq	$2, %r10
	jmp	.LBB2_90
.LBB2_97:
	addq	$3, %r10
	cmpq	%r8, 120(%rsp,%rcx,8)
	cmovneq	%rcx, %r10
	jmp	.LBB2_90
.LBB2_98:
	xorl	%ecx, %ecx
.LBB2_99:
	cmpq	%rax, %rcx
	jae	.LBB2_107
	movq	120(%rsp), %r8
.LBB2_101:
	cmpq	%r8, 128(%rsp,%rcx,8)
	je	.LBB2_103
	incq	%rcx
	cmpq	%rcx, %rax
	jne	.LBB2_101
	jmp	.LBB2_107
.LBB2_103:
	cmpq	%rax, %rcx
	jae	.LBB2_107
.LBB2_104:
	movq	%rbx, %rdi
.LBB2_105:
	movq	$1, (%rdi)
	movq	$4, 8(%rdi)
.LBB2_106:
	addq	$16, %rdi
	movl	$368, %edx
	xorl	%esi, %esi
	addq	$568, %rsp
	popq	%rbx
	popq	%r12
	popq	%r13
	popq	%r14
	popq	%r15
	popq	%rbp
	jmp	memset@PLT
.LBB2_107:
	movq	280(%rsp), %rcx
	leaq	-1(%rcx), %rax
	cmpq	$3, %rax
	ja	.LBB2_105
	movq	288(%rsp), %r8
	movq	320(%rsp), %rax
	leaq	-1(%r8), %r9
	leaq	-1(%rax), %r10
	orq	%r9, %r10
	cmpq	$3, %r10
	ja	.LBB2_105
	imulq	%r8, %rax
	cmpq	$1, %rcx
	jne	.LBB2_112
.LBB2_110:
	cmpq	$11, %rax
	jae	.LBB2_105
	leaq	416(%rsp), %rbx
	movq	%rdi, %r15
	movq	%rbx, %rdi
	callq	"jpeg_header_rules::frame_of"
	movups	104(%r12), %xmm0
	movaps	%xmm0, 240(%rsp)
	movups	88(%r12), %xmm0
	movaps	%xmm0, 224(%rsp)
	movups	24(%r12), %xmm0
	movups	40(%r12), %xmm1
	movups	56(%r12), %xmm2
	movups	72(%r12), %xmm3
	movaps	%xmm3, 208(%rsp)
	movaps	%xmm2, 192(%rsp)
	movaps	%xmm1, 176(%rsp)
	movaps	%xmm0, 160(%rsp)
	xorps	%xmm0, %xmm0
	movups	%xmm0, (%r15)
	movq	(%rsp), %rax
	movq	%rax, 16(%r15)
	movups	%xmm0, 24(%r15)
	movaps	160(%rsp), %xmm0
	movaps	176(%rsp), %xmm1
	movaps	192(%rsp), %xmm2
	movaps	208(%rsp), %xmm3
	movups	%xmm0, 40(%r15)
	movups	%xmm1, 56(%r15)
	movups	%xmm2, 72(%r15)
	movups	%xmm3, 88(%r15)
	movaps	224(%rsp), %xmm0
	movups	%xmm0, 104(%r15)
	movaps	240(%rsp), %xmm0
	movups	%xmm0, 120(%r15)
	leaq	136(%r15), %rdi
	movl	$152, %edx
	movq	%rbx, %rsi
	callq	memcpy@PLT
	movq	%r14, 288(%r15)
	xorps	%xmm0, %xmm0
	movups	%xmm0, 296(%r15)
	movups	%xmm0, 312(%r15)
	movups	%xmm0, 328(%r15)
	movups	%xmm0, 344(%r15)
	movups	%xmm0, 360(%r15)
	movq	$0, 376(%r15)
	addq	$568, %rsp
	popq	%rbx
	popq	%r12
	popq	%r13
	popq	%r14
	popq	%r15
	popq	%rbp
	retq
.LBB2_112:
	movq	296(%rsp), %r9
	movq	328(%rsp), %r8
	leaq	-1(%r9), %r10
	leaq	-1(%r8), %r11
	orq	%r10, %r11
	cmpq	$3, %r11
	ja	.LBB2_105
	imulq	%r9, %r8
	addq	%r8, %rax
	cmpq	$2, %rcx
	je	.LBB2_110
	movq	304(%rsp), %rsi
	movq	336(%rsp), %rdx
	leaq	-1(%rsi), %r8
	leaq	-1(%rdx), %r9
	orq	%r8, %r9
	cmpq	$3, %r9
	ja	.LBB2_105
	imulq	%rsi, %rdx
	addq	%rdx, %rax
	cmpq	$3, %rcx
	jne	.LBB2_117
	movq	%rbx, %rdi
	movq	%rbp, %rdx
	movq	%r13, %rsi
	jmp	.LBB2_110
.LBB2_117:
	movq	312(%rsp), %r8
	movq	344(%rsp), %rcx
	leaq	-1(%r8), %rdx
	leaq	-1(%rcx), %rsi
	orq	%rdx, %rsi
	cmpq	$3, %rsi
	movq	%rbx, %rdi
	ja	.LBB2_105
	movq	%rbp, %rdx
	movq	%r13, %rsi
	imulq	%r8, %rcx
	addq	%rcx, %rax
	jmp	.LBB2_110
.Lfunc_end2:
	.size	"jpeg_header_state::frame", .Lfunc_end2-"jpeg_header_state::frame"

	.section	".text.jpeg_header_rules::frame_of","ax",@progbits
	.p2align	4
	.type	"jpeg_header_rules::frame_of",@function
"jpeg_header_rules::frame_of":
	pushq	%rbp
	pushq	%r15
	pushq	%r14
	pushq	%r13
	pushq	%r12
	pushq	%rbx
	movzbl	5(%rsi), %eax
	testq	%rax, %rax
	je	.LBB3_5
	cmpq	$8, %rdx
	jb	.LBB3_6
	movzbl	7(%rsi), %r12d
	cmpl	$1, %eax
	je	.LBB3_7
.LBB3_3:
	cmpq	$11, %rdx
	jb	.LBB3_18
	movzbl	10(%rsi), %ecx
	jmp	.LBB3_19
.LBB3_5:
	xorl	%r11d, %r11d
	xorl	%r12d, %r12d
	jmp	.LBB3_8
.LBB3_6:
	xorl	%r12d, %r12d
	cmpl	$1, %eax
	jne	.LBB3_3
.LBB3_7:
	xorl	%r11d, %r11d
.LBB3_8:
	xorl	%ecx, %ecx
.LBB3_9:
	xorl	%r9d, %r9d
.LBB3_10:
	movzbl	3(%rsi), %r10d
	movzbl	4(%rsi), %ebx
	movq	%rbx, -8(%rsp)
	movzbl	1(%rsi), %ebx
	movzbl	2(%rsi), %r14d
	movq	%r14, -16(%rsp)
	cmpl	$1, %eax
	jne	.LBB3_13
	cmpq	$7, %rdx
	jb	.LBB3_16
	movzbl	6(%rsi), %ecx
	movq	%rcx, -72(%rsp)
	movl	$1, %ecx
	movq	%rcx, -40(%rsp)
	xorl	%r9d, %r9d
	movq	$0, -56(%rsp)
	movq	$0, -48(%rsp)
	movl	$1, %r11d
	movq	$0, -24(%rsp)
	movq	$0, -80(%rsp)
	movq	$0, -32(%rsp)
	xorl	%ecx, %ecx
	jmp	.LBB3_27
.LBB3_13:
	movzbl	%r11b, %r8d
	movl	%r8d, %r11d
	shrl	$4, %r11d
	movq	%r11, -80(%rsp)
	movl	%ecx, %r11d
	shrl	$4, %r11d
	movq	%r11, -24(%rsp)
	movl	%r12d, %r11d
	shrl	$4, %r11d
	movl	%r9d, %r14d
	shrl	$4, %r14d
	movq	%r14, -32(%rsp)
	testq	%rax, %rax
	setne	%bpl
	andl	$15, %r8d
	movq	%r8, -56(%rsp)
	andl	$15, %ecx
	movq	%rcx, -48(%rsp)
	andl	$15, %r12d
	andl	$15, %r9d
	cmpq	$7, %rdx
	setae	%r14b
	testb	%r14b, %bpl
	movq	%r12, -40(%rsp)
	je	.LBB3_17
	movzbl	6(%rsi), %ecx
	cmpq	$10, %rdx
	movq	%rcx, -72(%rsp)
	jb	.LBB3_23
	movzbl	9(%rsi), %ecx
	jmp	.LBB3_24
.LBB3_16:
	movl	$1, %r11d
	xorl	%r15d, %r15d
	xorl	%r8d, %r8d
	xorl	%ecx, %ecx
	xorl	%r14d, %r14d
	movq	$0, -32(%rsp)
	xorl	%esi, %esi
	movq	$0, -24(%rsp)
	movl	$1, %edx
	movq	%rdx, -40(%rsp)
	movq	$0, -48(%rsp)
	movq	$0, -56(%rsp)
	xorl	%r9d, %r9d
	xorl	%r13d, %r13d
	xorl	%r12d, %r12d
	xorl	%ebp, %ebp
	xorl	%edx, %edx
	jmp	.LBB3_44
.LBB3_17:
	xorl	%r15d, %r15d
	xorl	%r8d, %r8d
	xorl	%ecx, %ecx
	xorl	%r14d, %r14d
	xorl	%r13d, %r13d
	xorl	%r12d, %r12d
	xorl	%ebp, %ebp
	xorl	%edx, %edx
	movq	-80(%rsp), %rsi
	jmp	.LBB3_44
.LBB3_18:
	xorl	%ecx, %ecx
.LBB3_19:
	cmpb	$3, %al
	setae	%r9b
	cmpq	$14, %rdx
	setae	%r10b
	andb	%r9b, %r10b
	cmpb	$1, %r10b
	jne	.LBB3_22
	movzbl	13(%rsi), %r11d
	cmpl	$3, %eax
	setne	%r9b
	cmpq	$17, %rdx
	setae	%r10b
	andb	%r9b, %r10b
	cmpb	$1, %r10b
	jne	.LBB3_9
	movzbl	16(%rsi), %r9d
	jmp	.LBB3_10
.LBB3_22:
	xorl	%r11d, %r11d
	jmp	.LBB3_9
.LBB3_23:
	xorl	%ecx, %ecx
.LBB3_24:
	cmpb	$3, %al
	setae	%bpl
	cmpq	$13, %rdx
	setae	%r14b
	andb	%bpl, %r14b
	cmpb	$1, %r14b
	jne	.LBB3_27
	movzbl	12(%rsi), %r13d
	cmpl	$3, %eax
	setne	%bpl
	cmpq	$16, %rdx
	setae	%r14b
	andb	%bpl, %r14b
	cmpb	$1, %r14b
	jne	.LBB3_31
	movzbl	15(%rsi), %r15d
	jmp	.LBB3_32
.LBB3_27:
	xorl	%r15d, %r15d
	movl	$0, %r13d
	movl	$0, %r14d
	movl	$0, %r12d
	cmpq	$9, %rdx
	jae	.LBB3_32
	cmpl	$1, %eax
	jne	.LBB3_33
.LBB3_29:
	xorl	%r13d, %r13d
	xorl	%ebp, %ebp
	xorl	%edx, %edx
	jmp	.LBB3_40
.LBB3_31:
	xorl	%r15d, %r15d
.LBB3_32:
	movzbl	%r13b, %r14d
	movzbl	8(%rsi), %r12d
	cmpl	$1, %eax
	je	.LBB3_29
.LBB3_33:
	cmpq	$12, %rdx
	movq	%r11, -64(%rsp)
	jb	.LBB3_35
	movzbl	11(%rsi), %ebp
	jmp	.LBB3_36
.LBB3_35:
	xorl	%ebp, %ebp
.LBB3_36:
	cmpb	$3, %al
	setae	%r13b
	cmpq	$15, %rdx
	setae	%r11b
	andb	%r13b, %r11b
	cmpb	$1, %r11b
	jne	.LBB3_39
	movq	%rcx, %r8
	movzbl	14(%rsi), %r13d
	cmpl	$3, %eax
	setne	%r11b
	cmpq	$18, %rdx
	setae	%dl
	andb	%r11b, %dl
	cmpb	$1, %dl
	jne	.LBB3_41
	movzbl	17(%rsi), %edx
	jmp	.LBB3_42
.LBB3_39:
	xorl	%r13d, %r13d
	xorl	%edx, %edx
	movq	-64(%rsp), %r11
.LBB3_40:
	movq	-80(%rsp), %rsi
	movq	%rcx, %r8
	jmp	.LBB3_43
.LBB3_41:
	xorl	%edx, %edx
.LBB3_42:
	movq	-64(%rsp), %r11
	movq	-80(%rsp), %rsi
.LBB3_43:
	movq	-72(%rsp), %rcx
.LBB3_44:
	shll	$8, %ebx
	addq	-16(%rsp), %rbx
	shll	$8, %r10d
	addq	-8(%rsp), %r10
	movq	%r10, (%rdi)
	movq	%rbx, 8(%rdi)
	movq	%rax, 16(%rdi)
	movq	%r11, 24(%rdi)
	movq	-24(%rsp), %rax
	movq	%rax, 32(%rdi)
	movq	%rsi, 40(%rdi)
	movq	-32(%rsp), %rax
	movq	%rax, 48(%rdi)
	movq	-40(%rsp), %rax
	movq	%rax, 56(%rdi)
	movq	-48(%rsp), %rax
	movq	%rax, 64(%rdi)
	movq	-56(%rsp), %rax
	movq	%rax, 72(%rdi)
	movq	%r9, 80(%rdi)
	movq	%rcx, 88(%rdi)
	movq	%r8, 96(%rdi)
	movq	%r14, 104(%rdi)
	movq	%r15, 112(%rdi)
	movq	%r12, 120(%rdi)
	movq	%rbp, 128(%rdi)
	movzbl	%r13b, %eax
	movq	%rax, 136(%rdi)
	movq	%rdx, 144(%rdi)
	popq	%rbx
	popq	%r12
	popq	%r13
	popq	%r14
	popq	%r15
	popq	%rbp
	retq
.Lfunc_end3:
	.size	"jpeg_header_rules::frame_of", .Lfunc_end3-"jpeg_header_rules::frame_of"

	.section	".text.jpeg_header_state::scan","ax",@progbits
	.p2align	4
	.type	"jpeg_header_state::scan",@function
"jpeg_header_state::scan":
	pushq	%rbp
	pushq	%r15
	pushq	%r14
	pushq	%r13
	pushq	%r12
	pushq	%rbx
	subq	$616, %rsp
	movq	120(%r8), %r11
	movq	128(%r8), %r10
	movq	136(%r8), %rbp
	movq	208(%r8), %rax
	movq	216(%r8), %r14
	movq	224(%r8), %r15
	movq	232(%r8), %r12
	movq	272(%r8), %rbx
	xorps	%xmm0, %xmm0
	movaps	%xmm0, 192(%rsp)
	movaps	%xmm0, 176(%rsp)
	movaps	%xmm0, 160(%rsp)
	movaps	%xmm0, 144(%rsp)
	movaps	%xmm0, 112(%rsp)
	movaps	%xmm0, 128(%rsp)
	movaps	%xmm0, 16(%rsp)
	movaps	%xmm0, 32(%rsp)
	movaps	%xmm0, 48(%rsp)
	movaps	%xmm0, 64(%rsp)
	movaps	%xmm0, 80(%rsp)
	movaps	%xmm0, 96(%rsp)
	movl	$0, -64(%rsp)
	movl	$0, -61(%rsp)
	testq	%rbp, %rbp
	je	.LBB4_1
	movq	%r12, -16(%rsp)
	movq	%r15, -8(%rsp)
	movq	%r14, (%rsp)
	movq	%rax, 8(%rsp)
	movq	%r9, %r13
	leaq	-1(%r11), %rax
	cmpq	$65535, %rax
	setb	%al
	leaq	-1(%r10), %r9
	cmpq	$65535, %r9
	setb	%r9b
	andb	%al, %r9b
	cmpb	$1, %r9b
	jne	.LBB4_82
	cmpq	$4, %rbp
	ja	.LBB4_82
	movq	144(%r8), %r12
	movq	176(%r8), %r9
	leaq	-1(%r12), %rax
	movq	%r9, -128(%rsp)
	decq	%r9
	orq	%rax, %r9
	cmpq	$3, %r9
	ja	.LBB4_82
	movq	-128(%rsp), %r15
	imulq	%r12, %r15
	cmpq	$1, %rbp
	jne	.LBB4_7
.LBB4_13:
	cmpq	$10, %r15
	ja	.LBB4_82
	testq	%rdx, %rdx
	je	.LBB4_82
	movzbl	(%rsi), %eax
	cmpq	%rax, %rbp
	jne	.LBB4_82
	leaq	4(,%rbp,2), %r9
	cmpq	%r9, %rdx
	jne	.LBB4_82
	cmpb	$63, -2(%rsi,%rdx)
	jne	.LBB4_82
	movzbl	-1(%rsi,%rdx), %r9d
	orb	-3(%rsi,%rdx), %r9b
	jne	.LBB4_82
	testb	%al, %al
	je	.LBB4_43
	movzbl	1(%rsi), %r9d
	cmpq	%r9, 8(%rsp)
	jne	.LBB4_1
	movq	%rbx, %r14
	cmpb	$1, %al
	jne	.LBB4_22
.LBB4_39:
	movl	$2, %eax
	movq	%rbp, %r9
	movq	%r14, %rbx
	jmp	.LBB4_40
.LBB4_7:
	movq	152(%r8), %r9
	movq	184(%r8), %rax
	movq	%rbx, -96(%rsp)
	leaq	-1(%r9), %rbx
	movl	%ecx, -120(%rsp)
	movq	%r13, -112(%rsp)
	leaq	-1(%rax), %r13
	orq	%rbx, %r13
	movq	-96(%rsp), %rbx
	cmpq	$3, %r13
	movq	-112(%rsp), %r13
	movl	-120(%rsp), %ecx
	ja	.LBB4_82
	cmpq	%r12, %r9
	cmovaq	%r9, %r12
	movq	%r15, %r14
	movq	-128(%rsp), %r15
	cmpq	%r15, %rax
	cmovaq	%rax, %r15
	movq	%r15, -128(%rsp)
	movq	%r14, %r15
	imulq	%r9, %rax
	addq	%rax, %r15
	cmpq	$2, %rbp
	je	.LBB4_13
	movq	160(%r8), %r9
	movq	192(%r8), %rax
	leaq	-1(%r9), %rbx
	leaq	-1(%rax), %r13
	orq	%rbx, %r13
	movq	-96(%rsp), %rbx
	cmpq	$3, %r13
	movq	-112(%rsp), %r13
	movl	-120(%rsp), %ecx
	ja	.LBB4_82
	cmpq	%r12, %r9
	cmovaq	%r9, %r12
	movq	%r15, %r14
	movq	-128(%rsp), %r15
	cmpq	%r15, %rax
	cmovaq	%rax, %r15
	movq	%r15, -128(%rsp)
	movq	%r14, %r15
	imulq	%r9, %rax
	addq	%rax, %r15
	cmpq	$3, %rbp
	je	.LBB4_13
	movq	168(%r8), %r9
	movq	200(%r8), %rax
	leaq	-1(%r9), %rbx
	leaq	-1(%rax), %r13
	orq	%rbx, %r13
	movq	-96(%rsp), %rbx
	cmpq	$3, %r13
	movq	-112(%rsp), %r13
	movl	-120(%rsp), %ecx
	ja	.LBB4_82
	cmpq	%r12, %r9
	cmovaq	%r9, %r12
	movq	-128(%rsp), %r14
	cmpq	%r14, %rax
	cmovaq	%rax, %r14
	movq	%r14, -128(%rsp)
	imulq	%r9, %rax
	addq	%rax, %r15
	jmp	.LBB4_13
.LBB4_42:
	addq	$2, %rax
	decq	%r9
	je	.LBB4_43
.LBB4_40:
	cmpq	%rdx, %rax
	jae	.LBB4_42
	testb	$-52, (%rsi,%rax)
	je	.LBB4_42
.LBB4_82:
	movq	$1, (%rdi)
	movq	$4, 8(%rdi)
	jmp	.LBB4_2
.LBB4_43:
	movq	%r15, %r9
	cmpq	$1, %rbp
	jne	.LBB4_45
	xorl	%r14d, %r14d
	xorl	%eax, %eax
	movq	$0, -104(%rsp)
	movq	%r13, %r15
	jmp	.LBB4_50
.LBB4_45:
	movzbl	4(%rsi), %eax
	cmpq	$3, %rbp
	movq	%r13, %r15
	jb	.LBB4_46
	movzbl	6(%rsi), %r14d
	jne	.LBB4_49
	movq	$0, -104(%rsp)
	jmp	.LBB4_50
.LBB4_22:
	movzbl	3(%rsi), %r9d
	cmpq	%r9, (%rsp)
	jne	.LBB4_1
	cmpb	$3, %al
	setb	%bl
	cmpb	$2, %al
	je	.LBB4_27
	movzbl	5(%rsi), %r9d
	cmpq	%r9, -8(%rsp)
	jne	.LBB4_27
	movq	%r13, -112(%rsp)
	movl	%ecx, -120(%rsp)
	cmpb	$4, %al
	setb	%bl
	cmpb	$3, %al
	jne	.LBB4_28
	movl	-120(%rsp), %ecx
	movq	-112(%rsp), %r13
	jmp	.LBB4_27
.LBB4_46:
	xorl	%r14d, %r14d
	movq	$0, -104(%rsp)
	jmp	.LBB4_50
.LBB4_49:
	movzbl	8(%rsi), %edx
	movq	%rdx, -104(%rsp)
.LBB4_50:
	movzbl	2(%rsi), %edx
	movq	%rdx, -120(%rsp)
	movzbl	%al, %r13d
	xorl	%esi, %esi
	cmpq	$65535, %r11
	ja	.LBB4_53
	leaq	-1(%r12), %rax
	cmpq	$3, %rax
	ja	.LBB4_53
	shll	$3, %r12d
	movl	%r11d, %eax
	xorl	%edx, %edx
	divw	%r12w
	movzwl	%ax, %esi
	cmpw	$1, %dx
	sbbq	$-1, %rsi
	imulq	%r9, %rsi
.LBB4_53:
	xorl	%r12d, %r12d
	cmpq	$65535, %r10
	movq	%rbx, -96(%rsp)
	movq	%r15, -112(%rsp)
	ja	.LBB4_56
	movq	-128(%rsp), %r9
	leaq	-1(%r9), %rdx
	cmpq	$3, %rdx
	ja	.LBB4_56
	shll	$3, %r9d
	movl	%r10d, %eax
	xorl	%edx, %edx
	divw	%r9w
	movzwl	%ax, %r12d
	cmpw	$1, %dx
	sbbq	$-1, %r12
	imulq	%rsi, %r12
.LBB4_56:
	movq	%r14, -40(%rsp)
	movzbl	%r14b, %eax
	movq	%r10, %rdx
	imulq	%r11, %rdx
	imulq	%rbp, %rdx
	movq	%rdx, -24(%rsp)
	movl	%eax, %esi
	movq	%rax, %r15
	shrl	$4, %esi
	movq	%rsi, -72(%rsp)
	movl	%r13d, %ebx
	shrl	$4, %ebx
	movq	-120(%rsp), %r9
	movl	%r9d, %r14d
	shrl	$4, %r14d
	movq	-104(%rsp), %rax
	movl	%eax, %esi
	shrl	$4, %esi
	movq	%rsi, -80(%rsp)
	andl	$15, %r15d
	movq	%r15, -128(%rsp)
	movq	%r13, -32(%rsp)
	andl	$15, %r13d
	movq	%r13, 240(%rsp)
	andl	$15, %r9d
	andl	$15, %eax
	movq	%rax, 232(%rsp)
	movq	%r12, %r13
	shlq	$6, %r13
	imulq	$3136, %r12, %r15
	addq	%rdx, %r15
	leaq	240(%r8), %rsi
	movups	(%rsi), %xmm0
	movups	16(%rsi), %xmm1
	movups	%xmm1, 384(%rsp)
	movups	%xmm0, 368(%rsp)
	movups	24(%r8), %xmm0
	movups	40(%r8), %xmm1
	movups	56(%r8), %xmm2
	movups	72(%r8), %xmm3
	movups	%xmm0, 400(%rsp)
	movups	%xmm1, 416(%rsp)
	movups	%xmm2, 432(%rsp)
	movups	%xmm3, 448(%rsp)
	movups	88(%r8), %xmm0
	movups	%xmm0, 464(%rsp)
	movups	104(%r8), %xmm0
	movups	%xmm0, 480(%rsp)
	movq	%r14, -48(%rsp)
	movq	%r14, 496(%rsp)
	movq	-80(%rsp), %r14
	movq	%rbx, -56(%rsp)
	movq	%rbx, 504(%rsp)
	movq	-128(%rsp), %rbx
	movq	-72(%rsp), %rax
	movq	240(%rsp), %rdx
	movq	%rax, 512(%rsp)
	movq	%r14, 520(%rsp)
	movq	%r9, -88(%rsp)
	movq	%r9, 528(%rsp)
	movq	%rdx, %r14
	movq	%rdx, 536(%rsp)
	movq	232(%rsp), %rdx
	movq	%rbx, 544(%rsp)
	movq	%rdx, 552(%rsp)
	movq	-96(%rsp), %rsi
	movq	%rsi, 560(%rsp)
	movq	-112(%rsp), %rsi
	movq	%rsi, 568(%rsp)
	movq	%r12, 224(%rsp)
	movq	%r12, 576(%rsp)
	movq	%r13, %r12
	movq	%r13, 584(%rsp)
	movq	-24(%rsp), %rax
	movq	%rax, 592(%rsp)
	movq	%r15, 216(%rsp)
	movq	%r15, 600(%rsp)
	movb	%cl, 608(%rsp)
	movl	$0, 612(%rsp)
	movl	$0, 609(%rsp)
	cmpq	$0, 400(%rsp)
	sete	%sil
	cmpq	$0, 432(%rsp)
	sete	%r9b
	orb	%sil, %r9b
	movq	368(%rsp), %rsi
	cmpq	$3, %rsi
	ja	.LBB4_80
	cmpq	$0, 400(%rsp,%rsi,8)
	sete	%sil
	cmpb	$64, -120(%rsp)
	setae	%r9b
	orb	%sil, %r9b
	jne	.LBB4_80
	movq	-48(%rsp), %rsi
	cmpq	$0, 432(%rsp,%rsi,8)
	setne	%sil
	cmpq	$4, -88(%rsp)
	setb	%r9b
	andb	%sil, %r9b
	cmpb	$1, %r9b
	jne	.LBB4_80
	movq	-88(%rsp), %rax
	cmpq	$0, 464(%rsp,%rax,8)
	je	.LBB4_80
	cmpq	$1, %rbp
	jne	.LBB4_61
.LBB4_79:
	leaq	144(%r8), %rsi
	movups	(%rsi), %xmm0
	movups	16(%rsi), %xmm1
	movups	32(%rsi), %xmm2
	movups	48(%rsi), %xmm3
	movaps	%xmm3, 192(%rsp)
	movaps	%xmm2, 176(%rsp)
	movaps	%xmm1, 160(%rsp)
	movaps	%xmm0, 144(%rsp)
	leaq	240(%r8), %rsi
	movups	(%rsi), %xmm0
	movups	16(%rsi), %xmm1
	addq	$24, %r8
	movaps	%xmm0, 112(%rsp)
	movaps	%xmm1, 128(%rsp)
	movups	(%r8), %xmm0
	movups	16(%r8), %xmm1
	movups	32(%r8), %xmm2
	movups	48(%r8), %xmm3
	movaps	%xmm0, 16(%rsp)
	movaps	%xmm1, 32(%rsp)
	movaps	%xmm2, 48(%rsp)
	movaps	%xmm3, 64(%rsp)
	movups	64(%r8), %xmm0
	movaps	%xmm0, 80(%rsp)
	movups	80(%r8), %xmm0
	movaps	%xmm0, 96(%rsp)
	movq	$0, (%rdi)
	movq	$1, 8(%rdi)
	movq	%r11, 16(%rdi)
	movq	%r10, 24(%rdi)
	movq	%rbp, 32(%rdi)
	movaps	144(%rsp), %xmm0
	movaps	160(%rsp), %xmm1
	movaps	176(%rsp), %xmm2
	movaps	192(%rsp), %xmm3
	movups	%xmm0, 40(%rdi)
	movups	%xmm1, 56(%rdi)
	movups	%xmm2, 72(%rdi)
	movups	%xmm3, 88(%rdi)
	movq	8(%rsp), %rsi
	movq	%rsi, 104(%rdi)
	movq	(%rsp), %rsi
	movq	%rsi, 112(%rdi)
	movq	-8(%rsp), %rsi
	movq	%rsi, 120(%rdi)
	movq	-16(%rsp), %rsi
	movq	%rsi, 128(%rdi)
	movaps	112(%rsp), %xmm0
	movaps	128(%rsp), %xmm1
	movups	%xmm0, 136(%rdi)
	movups	%xmm1, 152(%rdi)
	movaps	16(%rsp), %xmm0
	movaps	32(%rsp), %xmm1
	movaps	48(%rsp), %xmm2
	movaps	64(%rsp), %xmm3
	movups	%xmm0, 168(%rdi)
	movups	%xmm1, 184(%rdi)
	movups	%xmm2, 200(%rdi)
	movups	%xmm3, 216(%rdi)
	movaps	80(%rsp), %xmm0
	movups	%xmm0, 232(%rdi)
	movaps	96(%rsp), %xmm0
	movups	%xmm0, 248(%rdi)
	movq	-48(%rsp), %rsi
	movq	%rsi, 264(%rdi)
	movq	-56(%rsp), %rsi
	movq	%rsi, 272(%rdi)
	movq	-72(%rsp), %rax
	movq	%rax, 280(%rdi)
	movq	-80(%rsp), %rax
	movq	%rax, 288(%rdi)
	movq	-88(%rsp), %rax
	movq	%rax, 296(%rdi)
	movq	%r14, 304(%rdi)
	movq	-128(%rsp), %rax
	movq	%rax, 312(%rdi)
	movq	%rdx, 320(%rdi)
	movq	-96(%rsp), %rsi
	movq	%rsi, 328(%rdi)
	movq	-112(%rsp), %rsi
	movq	%rsi, 336(%rdi)
	movq	224(%rsp), %rax
	movq	%rax, 344(%rdi)
	movq	%r12, 352(%rdi)
	movq	-24(%rsp), %rax
	movq	%rax, 360(%rdi)
	movq	216(%rsp), %rax
	movq	%rax, 368(%rdi)
	movb	%cl, 376(%rdi)
	movl	$0, 380(%rdi)
	movl	$0, 377(%rdi)
	jmp	.LBB4_81
.LBB4_61:
	movq	376(%rsp), %rsi
	cmpq	$3, %rsi
	ja	.LBB4_80
	cmpq	$0, 400(%rsp,%rsi,8)
	je	.LBB4_80
	cmpb	$63, -32(%rsp)
	ja	.LBB4_80
	movq	-56(%rsp), %rsi
	cmpq	$0, 432(%rsp,%rsi,8)
	je	.LBB4_80
	cmpl	$3, %r14d
	ja	.LBB4_80
	cmpq	$0, 464(%rsp,%r14,8)
	je	.LBB4_80
	cmpq	$2, %rbp
	je	.LBB4_79
	movq	384(%rsp), %rsi
	cmpq	$3, %rsi
	ja	.LBB4_80
	cmpq	$0, 400(%rsp,%rsi,8)
	sete	%sil
	cmpb	$64, -40(%rsp)
	setae	%r9b
	orb	%sil, %r9b
	jne	.LBB4_80
	movq	-72(%rsp), %rax
	cmpq	$0, 432(%rsp,%rax,8)
	je	.LBB4_80
	cmpl	$3, -128(%rsp)
	ja	.LBB4_80
	movq	-128(%rsp), %rax
	cmpq	$0, 464(%rsp,%rax,8)
	je	.LBB4_80
	cmpq	$3, %rbp
	je	.LBB4_79
	movq	392(%rsp), %rsi
	cmpq	$3, %rsi
	ja	.LBB4_80
	cmpq	$0, 400(%rsp,%rsi,8)
	setne	%sil
	cmpq	$64, -104(%rsp)
	setb	%r9b
	andb	%sil, %r9b
	cmpb	$1, %r9b
	jne	.LBB4_80
	movq	-80(%rsp), %rax
	cmpq	$0, 432(%rsp,%rax,8)
	je	.LBB4_80
	cmpl	$3, %edx
	ja	.LBB4_80
	cmpq	$0, 464(%rsp,%rdx,8)
	jne	.LBB4_79
.LBB4_80:
	movq	$1, (%rdi)
	movq	$3, 8(%rdi)
	xorps	%xmm0, %xmm0
	movups	%xmm0, 16(%rdi)
	movq	$0, 32(%rdi)
	movaps	144(%rsp), %xmm1
	movaps	160(%rsp), %xmm2
	movaps	176(%rsp), %xmm3
	movaps	192(%rsp), %xmm4
	movups	%xmm1, 40(%rdi)
	movups	%xmm2, 56(%rdi)
	movups	%xmm3, 72(%rdi)
	movups	%xmm4, 88(%rdi)
	movups	%xmm0, 120(%rdi)
	movups	%xmm0, 104(%rdi)
	movaps	112(%rsp), %xmm1
	movaps	128(%rsp), %xmm2
	movups	%xmm1, 136(%rdi)
	movups	%xmm2, 152(%rdi)
	movaps	16(%rsp), %xmm1
	movaps	32(%rsp), %xmm2
	movaps	48(%rsp), %xmm3
	movaps	64(%rsp), %xmm4
	movups	%xmm1, 168(%rdi)
	movups	%xmm2, 184(%rdi)
	movups	%xmm3, 200(%rdi)
	movups	%xmm4, 216(%rdi)
	movaps	80(%rsp), %xmm1
	movups	%xmm1, 232(%rdi)
	movaps	96(%rsp), %xmm1
	movups	%xmm1, 248(%rdi)
	movups	%xmm0, 264(%rdi)
	movups	%xmm0, 280(%rdi)
	movups	%xmm0, 296(%rdi)
	movups	%xmm0, 312(%rdi)
	movups	%xmm0, 328(%rdi)
	movups	%xmm0, 344(%rdi)
	movups	%xmm0, 360(%rdi)
	movb	$0, 376(%rdi)
	movl	-64(%rsp), %eax
	movl	-61(%rsp), %ecx
	movl	%eax, 377(%rdi)
	movl	%ecx, 380(%rdi)
.LBB4_81:
	addq	$616, %rsp
	popq	%rbx
	popq	%r12
	popq	%r13
	popq	%r14
	popq	%r15
	popq	%rbp
	retq
.LBB4_28:
	cmpq	$8, %rdx
	jb	.LBB4_29
	movzbl	7(%rsi), %r9d
	jmp	.LBB4_31
.LBB4_29:
	xorl	%r9d, %r9d
.LBB4_31:
	cmpq	-16(%rsp), %r9
	movl	-120(%rsp), %ecx
	movq	-112(%rsp), %r13
	jne	.LBB4_27
	movl	$4, %r9d
	cmpb	$4, %al
	je	.LBB4_38
	movq	%rbp, %rbx
	negq	%rbx
	movq	$-4, %r9
	movl	$9, %eax
	movl	-120(%rsp), %ecx
	movq	-112(%rsp), %r13
	jmp	.LBB4_34
.LBB4_27:
	testb	%bl, %bl
	jne	.LBB4_39
.LBB4_1:
	movq	$1, (%rdi)
	movq	$3, 8(%rdi)
.LBB4_2:
	addq	$16, %rdi
	movl	$368, %edx
	xorl	%esi, %esi
	addq	$616, %rsp
	popq	%rbx
	popq	%r12
	popq	%r13
	popq	%r14
	popq	%r15
	popq	%rbp
	jmp	memset@PLT
.LBB4_36:
	decq	%r9
	addq	$2, %rax
	cmpq	%r9, %rbx
	je	.LBB4_39
.LBB4_34:
	cmpq	%rdx, %rax
	jae	.LBB4_36
	cmpb	$0, (%rsi,%rax)
	je	.LBB4_36
	negq	%r9
.LBB4_38:
	cmpq	%rbp, %r9
	movl	-120(%rsp), %ecx
	movq	-112(%rsp), %r13
	jae	.LBB4_39
	jmp	.LBB4_1
.Lfunc_end4:
	.size	"jpeg_header_state::scan", .Lfunc_end4-"jpeg_header_state::scan"

	.section	".text.jpeg_scan_plan::Plan::of","ax",@progbits
	.p2align	4
	.type	"jpeg_scan_plan::Plan::of",@function
"jpeg_scan_plan::Plan::of":
	pushq	%rbp
	pushq	%r15
	pushq	%r14
	pushq	%r13
	pushq	%r12
	pushq	%rbx
	subq	$120, %rsp
	movq	320(%rdx), %rcx
	cmpq	%rcx, %rsi
	jb	.LBB5_1
	movq	16(%rdx), %r10
	leaq	-1(%r10), %rax
	cmpq	$3, %rax
	ja	.LBB5_1
	movq	24(%rdx), %r11
	movq	56(%rdx), %r14
	leaq	-1(%r11), %rsi
	leaq	-1(%r14), %r8
	orq	%rsi, %r8
	cmpq	$3, %r8
	ja	.LBB5_1
	movq	120(%rdx), %r12
	movq	128(%rdx), %r13
	movq	136(%rdx), %rax
	movq	%rax, -120(%rsp)
	movq	144(%rdx), %rax
	movq	%rax, -128(%rsp)
	movq	248(%rdx), %r9
	movq	256(%rdx), %r8
	movq	264(%rdx), %rsi
	movq	272(%rdx), %rbp
	movq	280(%rdx), %rax
	movq	%rax, 40(%rsp)
	movq	288(%rdx), %rax
	movq	%rax, 48(%rsp)
	movq	296(%rdx), %rax
	movq	%rax, 56(%rsp)
	movq	304(%rdx), %rax
	movq	%rax, 64(%rsp)
	movq	312(%rdx), %rax
	movq	%rax, 112(%rsp)
	imulq	%r11, %r14
	movq	328(%rdx), %rax
	movq	%rax, 104(%rsp)
	cmpq	$1, %r10
	jne	.LBB5_6
.LBB5_12:
	cmpq	$10, %r14
	ja	.LBB5_1
	leaq	184(%rdx), %rax
	movups	(%rax), %xmm0
	movups	16(%rax), %xmm1
	movaps	%xmm1, -96(%rsp)
	movaps	%xmm0, -112(%rsp)
	cmpq	$3, %r9
	ja	.LBB5_14
	movq	-112(%rsp,%r9,8), %rax
	movq	%rax, 96(%rsp)
	jmp	.LBB5_16
.LBB5_6:
	movq	32(%rdx), %rbx
	movq	64(%rdx), %r11
	leaq	-1(%rbx), %r15
	leaq	-1(%r11), %rax
	orq	%r15, %rax
	cmpq	$3, %rax
	ja	.LBB5_1
	imulq	%rbx, %r11
	addq	%r11, %r14
	cmpq	$2, %r10
	je	.LBB5_12
	movq	40(%rdx), %rbx
	movq	72(%rdx), %r11
	leaq	-1(%rbx), %r15
	movq	%r14, %rax
	leaq	-1(%r11), %r14
	orq	%r15, %r14
	cmpq	$3, %r14
	ja	.LBB5_1
	movq	%rax, %r14
	imulq	%rbx, %r11
	addq	%r11, %r14
	cmpq	$3, %r10
	je	.LBB5_12
	movq	48(%rdx), %r11
	movq	80(%rdx), %r10
	leaq	-1(%r11), %rax
	leaq	-1(%r10), %rbx
	orq	%rax, %rbx
	cmpq	$3, %rbx
	ja	.LBB5_1
	imulq	%r11, %r10
	addq	%r10, %r14
	jmp	.LBB5_12
.LBB5_1:
	xorps	%xmm0, %xmm0
	movups	%xmm0, 128(%rdi)
	movups	%xmm0, 112(%rdi)
	movups	%xmm0, 96(%rdi)
	movups	%xmm0, 80(%rdi)
	movups	%xmm0, 64(%rdi)
	movups	%xmm0, 48(%rdi)
	movups	%xmm0, 32(%rdi)
	movups	%xmm0, 16(%rdi)
	movups	%xmm0, (%rdi)
.LBB5_2:
	addq	$120, %rsp
	popq	%rbx
	popq	%r12
	popq	%r13
	popq	%r14
	popq	%r15
	popq	%rbp
	retq
.LBB5_14:
	movq	$0, 96(%rsp)
.LBB5_16:
	movq	%r12, %r11
	movq	%r13, %rbx
	movq	-120(%rsp), %r9
	cmpq	$3, %r8
	ja	.LBB5_17
	movq	-112(%rsp,%r8,8), %rax
	movq	%rax, 88(%rsp)
	cmpq	$3, %rsi
	jbe	.LBB5_21
.LBB5_20:
	movq	$0, 80(%rsp)
	leaq	216(%rdx), %rsi
	cmpq	$3, %rbp
	jbe	.LBB5_24
.LBB5_23:
	movq	$0, 72(%rsp)
	jmp	.LBB5_25
.LBB5_17:
	movq	$0, 88(%rsp)
	cmpq	$3, %rsi
	ja	.LBB5_20
.LBB5_21:
	movq	-112(%rsp,%rsi,8), %rax
	movq	%rax, 80(%rsp)
	leaq	216(%rdx), %rsi
	cmpq	$3, %rbp
	ja	.LBB5_23
.LBB5_24:
	movq	-112(%rsp,%rbp,8), %rax
	movq	%rax, 72(%rsp)
.LBB5_25:
	movq	40(%rsp), %rax
	movups	(%rsi), %xmm0
	movups	16(%rsi), %xmm1
	movaps	%xmm1, -96(%rsp)
	movaps	%xmm0, -112(%rsp)
	cmpq	$3, %rax
	ja	.LBB5_26
	movq	-112(%rsp,%rax,8), %rax
	movq	%rax, 40(%rsp)
	movq	48(%rsp), %rax
	cmpq	$3, %rax
	jbe	.LBB5_30
.LBB5_29:
	movq	$0, 48(%rsp)
	movq	56(%rsp), %rax
	cmpq	$3, %rax
	jbe	.LBB5_33
.LBB5_32:
	movq	$0, 56(%rsp)
	movq	64(%rsp), %rax
	leaq	152(%rdx), %rsi
	cmpq	$3, %rax
	jbe	.LBB5_36
.LBB5_35:
	movq	$0, 64(%rsp)
	jmp	.LBB5_37
.LBB5_26:
	movq	$0, 40(%rsp)
	movq	48(%rsp), %rax
	cmpq	$3, %rax
	ja	.LBB5_29
.LBB5_30:
	movq	-112(%rsp,%rax,8), %rax
	movq	%rax, 48(%rsp)
	movq	56(%rsp), %rax
	cmpq	$3, %rax
	ja	.LBB5_32
.LBB5_33:
	movq	-112(%rsp,%rax,8), %rax
	movq	%rax, 56(%rsp)
	movq	64(%rsp), %rax
	leaq	152(%rdx), %rsi
	cmpq	$3, %rax
	ja	.LBB5_35
.LBB5_36:
	movq	-112(%rsp,%rax,8), %rax
	movq	%rax, 64(%rsp)
.LBB5_37:
	movups	(%rsi), %xmm0
	movups	16(%rsi), %xmm1
	movaps	%xmm1, -96(%rsp)
	movaps	%xmm0, -112(%rsp)
	cmpq	$3, %r11
	ja	.LBB5_38
	movq	-112(%rsp,%r11,8), %r13
	movq	-128(%rsp), %rsi
	cmpq	$3, %rbx
	jbe	.LBB5_42
.LBB5_41:
	xorl	%ebp, %ebp
	movq	%r14, %r10
	cmpq	$3, %r9
	jbe	.LBB5_45
.LBB5_44:
	xorl	%r14d, %r14d
	cmpq	$3, %rsi
	jbe	.LBB5_48
.LBB5_47:
	xorl	%r15d, %r15d
	jmp	.LBB5_49
.LBB5_38:
	xorl	%r13d, %r13d
	movq	-128(%rsp), %rsi
	cmpq	$3, %rbx
	ja	.LBB5_41
.LBB5_42:
	movq	-112(%rsp,%rbx,8), %rbp
	movq	%r14, %r10
	cmpq	$3, %r9
	ja	.LBB5_44
.LBB5_45:
	movq	-112(%rsp,%r9,8), %r14
	cmpq	$3, %rsi
	ja	.LBB5_47
.LBB5_48:
	movq	-112(%rsp,%rsi,8), %r15
.LBB5_49:
	movq	112(%rdx), %rax
	movq	%rax, (%rsp)
	movups	96(%rdx), %xmm0
	movaps	%xmm0, -16(%rsp)
	movups	80(%rdx), %xmm0
	movaps	%xmm0, -32(%rsp)
	movups	64(%rdx), %xmm0
	movaps	%xmm0, -48(%rsp)
	movups	(%rdx), %xmm0
	movups	16(%rdx), %xmm1
	movups	32(%rdx), %xmm2
	movups	48(%rdx), %xmm3
	movaps	%xmm3, -64(%rsp)
	movaps	%xmm2, -80(%rsp)
	movaps	%xmm1, -96(%rsp)
	movaps	%xmm0, -112(%rsp)
	movq	%r11, 8(%rsp)
	movq	%rbx, 16(%rsp)
	movq	%r9, 24(%rsp)
	movq	%rsi, 32(%rsp)
	movq	-96(%rsp), %rsi
	testq	%rsi, %rsi
	je	.LBB5_50
	movl	$9, %r8d
	xorl	%r12d, %r12d
	.p2align	4
.LBB5_52:
	movq	-56(%rsp,%r12,8), %rax
	imulq	-88(%rsp,%r12,8), %rax
	subq	%rax, %r8
	jb	.LBB5_55
	incq	%r12
	cmpq	%r12, %rsi
	jne	.LBB5_52
	movq	%rsi, %r12
.LBB5_55:
	shll	$2, %r12d
	andl	$12, %r12d
	jmp	.LBB5_56
.LBB5_50:
	xorl	%r12d, %r12d
.LBB5_56:
	movq	-128(%rsp), %rsi
	movq	112(%rdx), %rax
	movq	%rax, (%rsp)
	movups	96(%rdx), %xmm0
	movaps	%xmm0, -16(%rsp)
	movups	80(%rdx), %xmm0
	movaps	%xmm0, -32(%rsp)
	movups	64(%rdx), %xmm0
	movaps	%xmm0, -48(%rsp)
	movups	(%rdx), %xmm0
	movups	16(%rdx), %xmm1
	movups	32(%rdx), %xmm2
	movups	48(%rdx), %xmm3
	movaps	%xmm3, -64(%rsp)
	movaps	%xmm2, -80(%rsp)
	movaps	%xmm1, -96(%rsp)
	movaps	%xmm0, -112(%rsp)
	movq	%r11, 8(%rsp)
	movq	%rbx, 16(%rsp)
	movq	%r9, 24(%rsp)
	movq	%rsi, 32(%rsp)
	movq	-96(%rsp), %r8
	testq	%r8, %r8
	je	.LBB5_62
	movl	$8, %r9d
	xorl	%esi, %esi
	.p2align	4
.LBB5_58:
	movq	-56(%rsp,%rsi,8), %rax
	imulq	-88(%rsp,%rsi,8), %rax
	subq	%rax, %r9
	jb	.LBB5_61
	incq	%rsi
	cmpq	%rsi, %r8
	jne	.LBB5_58
	movq	%r8, %rsi
.LBB5_61:
	andl	$3, %esi
	orq	%rsi, %r12
	movq	-120(%rsp), %r9
	movq	-128(%rsp), %rsi
.LBB5_62:
	shll	$2, %r12d
	movq	112(%rdx), %rax
	movq	%rax, (%rsp)
	movups	96(%rdx), %xmm0
	movaps	%xmm0, -16(%rsp)
	movups	80(%rdx), %xmm0
	movaps	%xmm0, -32(%rsp)
	movups	64(%rdx), %xmm0
	movaps	%xmm0, -48(%rsp)
	movups	(%rdx), %xmm0
	movups	16(%rdx), %xmm1
	movups	32(%rdx), %xmm2
	movups	48(%rdx), %xmm3
	movaps	%xmm3, -64(%rsp)
	movaps	%xmm2, -80(%rsp)
	movaps	%xmm1, -96(%rsp)
	movaps	%xmm0, -112(%rsp)
	movq	%r11, 8(%rsp)
	movq	%rbx, 16(%rsp)
	movq	%r9, 24(%rsp)
	movq	%rsi, 32(%rsp)
	movq	-96(%rsp), %r8
	testq	%r8, %r8
	je	.LBB5_68
	movl	$7, %r9d
	xorl	%esi, %esi
	.p2align	4
.LBB5_64:
	movq	-56(%rsp,%rsi,8), %rax
	imulq	-88(%rsp,%rsi,8), %rax
	subq	%rax, %r9
	jb	.LBB5_67
	incq	%rsi
	cmpq	%rsi, %r8
	jne	.LBB5_64
	movq	%r8, %rsi
.LBB5_67:
	andl	$3, %esi
	orq	%rsi, %r12
	movq	-120(%rsp), %r9
	movq	-128(%rsp), %rsi
.LBB5_68:
	shll	$2, %r12d
	movq	112(%rdx), %rax
	movq	%rax, (%rsp)
	movups	96(%rdx), %xmm0
	movaps	%xmm0, -16(%rsp)
	movups	80(%rdx), %xmm0
	movaps	%xmm0, -32(%rsp)
	movups	64(%rdx), %xmm0
	movaps	%xmm0, -48(%rsp)
	movups	(%rdx), %xmm0
	movups	16(%rdx), %xmm1
	movups	32(%rdx), %xmm2
	movups	48(%rdx), %xmm3
	movaps	%xmm3, -64(%rsp)
	movaps	%xmm2, -80(%rsp)
	movaps	%xmm1, -96(%rsp)
	movaps	%xmm0, -112(%rsp)
	movq	%r11, 8(%rsp)
	movq	%rbx, 16(%rsp)
	movq	%r9, 24(%rsp)
	movq	%rsi, 32(%rsp)
	movq	-96(%rsp), %r8
	testq	%r8, %r8
	je	.LBB5_74
	movl	$6, %r9d
	xorl	%esi, %esi
	.p2align	4
.LBB5_70:
	movq	-56(%rsp,%rsi,8), %rax
	imulq	-88(%rsp,%rsi,8), %rax
	subq	%rax, %r9
	jb	.LBB5_73
	incq	%rsi
	cmpq	%rsi, %r8
	jne	.LBB5_70
	movq	%r8, %rsi
.LBB5_73:
	andl	$3, %esi
	orq	%rsi, %r12
	movq	-120(%rsp), %r9
	movq	-128(%rsp), %rsi
.LBB5_74:
	shll	$2, %r12d
	movq	112(%rdx), %rax
	movq	%rax, (%rsp)
	movups	96(%rdx), %xmm0
	movaps	%xmm0, -16(%rsp)
	movups	80(%rdx), %xmm0
	movaps	%xmm0, -32(%rsp)
	movups	64(%rdx), %xmm0
	movaps	%xmm0, -48(%rsp)
	movups	(%rdx), %xmm0
	movups	16(%rdx), %xmm1
	movups	32(%rdx), %xmm2
	movups	48(%rdx), %xmm3
	movaps	%xmm3, -64(%rsp)
	movaps	%xmm2, -80(%rsp)
	movaps	%xmm1, -96(%rsp)
	movaps	%xmm0, -112(%rsp)
	movq	%r11, 8(%rsp)
	movq	%rbx, 16(%rsp)
	movq	%r9, 24(%rsp)
	movq	%rsi, 32(%rsp)
	movq	-96(%rsp), %r8
	testq	%r8, %r8
	je	.LBB5_80
	movl	$5, %r9d
	xorl	%esi, %esi
	.p2align	4
.LBB5_76:
	movq	-56(%rsp,%rsi,8), %rax
	imulq	-88(%rsp,%rsi,8), %rax
	subq	%rax, %r9
	jb	.LBB5_79
	incq	%rsi
	cmpq	%rsi, %r8
	jne	.LBB5_76
	movq	%r8, %rsi
.LBB5_79:
	andl	$3, %esi
	orq	%rsi, %r12
	movq	-120(%rsp), %r9
	movq	-128(%rsp), %rsi
.LBB5_80:
	shll	$2, %r12d
	movq	112(%rdx), %rax
	movq	%rax, (%rsp)
	movups	96(%rdx), %xmm0
	movaps	%xmm0, -16(%rsp)
	movups	80(%rdx), %xmm0
	movaps	%xmm0, -32(%rsp)
	movups	64(%rdx), %xmm0
	movaps	%xmm0, -48(%rsp)
	movups	(%rdx), %xmm0
	movups	16(%rdx), %xmm1
	movups	32(%rdx), %xmm2
	movups	48(%rdx), %xmm3
	movaps	%xmm3, -64(%rsp)
	movaps	%xmm2, -80(%rsp)
	movaps	%xmm1, -96(%rsp)
	movaps	%xmm0, -112(%rsp)
	movq	%r11, 8(%rsp)
	movq	%rbx, 16(%rsp)
	movq	%r9, 24(%rsp)
	movq	%rsi, 32(%rsp)
	movq	-96(%rsp), %r8
	testq	%r8, %r8
	je	.LBB5_86
	movl	$4, %r9d
	xorl	%esi, %esi
	.p2align	4
.LBB5_82:
	movq	-56(%rsp,%rsi,8), %rax
	imulq	-88(%rsp,%rsi,8), %rax
	subq	%rax, %r9
	jb	.LBB5_85
	incq	%rsi
	cmpq	%rsi, %r8
	jne	.LBB5_82
	movq	%r8, %rsi
.LBB5_85:
	andl	$3, %esi
	orq	%rsi, %r12
	movq	-120(%rsp), %r9
	movq	-128(%rsp), %rsi
.LBB5_86:
	shll	$2, %r12d
	movq	112(%rdx), %rax
	movq	%rax, (%rsp)
	movups	96(%rdx), %xmm0
	movaps	%xmm0, -16(%rsp)
	movups	80(%rdx), %xmm0
	movaps	%xmm0, -32(%rsp)
	movups	64(%rdx), %xmm0
	movaps	%xmm0, -48(%rsp)
	movups	(%rdx), %xmm0
	movups	16(%rdx), %xmm1
	movups	32(%rdx), %xmm2
	movups	48(%rdx), %xmm3
	movaps	%xmm3, -64(%rsp)
	movaps	%xmm2, -80(%rsp)
	movaps	%xmm1, -96(%rsp)
	movaps	%xmm0, -112(%rsp)
	movq	%r11, 8(%rsp)
	movq	%rbx, 16(%rsp)
	movq	%r9, 24(%rsp)
	movq	%rsi, 32(%rsp)
	movq	-96(%rsp), %r8
	testq	%r8, %r8
	je	.LBB5_92
	movl	$3, %r9d
	xorl	%esi, %esi
	.p2align	4
.LBB5_88:
	movq	-56(%rsp,%rsi,8), %rax
	imulq	-88(%rsp,%rsi,8), %rax
	subq	%rax, %r9
	jb	.LBB5_91
	incq	%rsi
	cmpq	%rsi, %r8
	jne	.LBB5_88
	movq	%r8, %rsi
.LBB5_91:
	andl	$3, %esi
	orq	%rsi, %r12
	movq	-120(%rsp), %r9
	movq	-128(%rsp), %rsi
.LBB5_92:
	shll	$2, %r12d
	movq	112(%rdx), %rax
	movq	%rax, (%rsp)
	movups	96(%rdx), %xmm0
	movaps	%xmm0, -16(%rsp)
	movups	80(%rdx), %xmm0
	movaps	%xmm0, -32(%rsp)
	movups	64(%rdx), %xmm0
	movaps	%xmm0, -48(%rsp)
	movups	(%rdx), %xmm0
	movups	16(%rdx), %xmm1
	movups	32(%rdx), %xmm2
	movups	48(%rdx), %xmm3
	movaps	%xmm3, -64(%rsp)
	movaps	%xmm2, -80(%rsp)
	movaps	%xmm1, -96(%rsp)
	movaps	%xmm0, -112(%rsp)
	movq	%r11, 8(%rsp)
	movq	%rbx, 16(%rsp)
	movq	%r9, 24(%rsp)
	movq	%rsi, 32(%rsp)
	movq	-96(%rsp), %r8
	testq	%r8, %r8
	je	.LBB5_98
	movl	$2, %r9d
	xorl	%esi, %esi
	.p2align	4
.LBB5_94:
	movq	-56(%rsp,%rsi,8), %rax
	imulq	-88(%rsp,%rsi,8), %rax
	subq	%rax, %r9
	jb	.LBB5_97
	incq	%rsi
	cmpq	%rsi, %r8
	jne	.LBB5_94
	movq	%r8, %rsi
.LBB5_97:
	andl	$3, %esi
	orq	%rsi, %r12
	movq	-120(%rsp), %r9
	movq	-128(%rsp), %rsi
.LBB5_98:
	shll	$2, %r12d
	movq	112(%rdx), %rax
	movq	%rax, (%rsp)
	movups	96(%rdx), %xmm0
	movaps	%xmm0, -16(%rsp)
	movups	80(%rdx), %xmm0
	movaps	%xmm0, -32(%rsp)
	movups	64(%rdx), %xmm0
	movaps	%xmm0, -48(%rsp)
	movups	(%rdx), %xmm0
	movups	16(%rdx), %xmm1
	movups	32(%rdx), %xmm2
	movups	48(%rdx), %xmm3
	movaps	%xmm3, -64(%rsp)
	movaps	%xmm2, -80(%rsp)
	movaps	%xmm1, -96(%rsp)
	movaps	%xmm0, -112(%rsp)
	movq	%r11, 8(%rsp)
	movq	%rbx, 16(%rsp)
	movq	%r9, 24(%rsp)
	movq	%rsi, 32(%rsp)
	movq	-96(%rsp), %r8
	testq	%r8, %r8
	je	.LBB5_104
	movl	$1, %r9d
	xorl	%esi, %esi
	.p2align	4
.LBB5_100:
	movq	-56(%rsp,%rsi,8), %rax
	imulq	-88(%rsp,%rsi,8), %rax
	subq	%rax, %r9
	jb	.LBB5_103
	incq	%rsi
	cmpq	%rsi, %r8
	jne	.LBB5_100
	movq	%r8, %rsi
.LBB5_103:
	andl	$3, %esi
	orq	%rsi, %r12
	movq	-120(%rsp), %r9
	movq	-128(%rsp), %rsi
.LBB5_104:
	movq	112(%rdx), %rax
	movq	%rax, (%rsp)
	movups	96(%rdx), %xmm0
	movaps	%xmm0, -16(%rsp)
	movups	80(%rdx), %xmm0
	movaps	%xmm0, -32(%rsp)
	movups	64(%rdx), %xmm0
	movaps	%xmm0, -48(%rsp)
	movups	(%rdx), %xmm0
	movups	16(%rdx), %xmm1
	movups	32(%rdx), %xmm2
	movups	48(%rdx), %xmm3
	movaps	%xmm3, -64(%rsp)
	movaps	%xmm2, -80(%rsp)
	movaps	%xmm1, -96(%rsp)
	movaps	%xmm0, -112(%rsp)
	movq	%r11, 8(%rsp)
	movq	%rbx, 16(%rsp)
	movq	%r9, 24(%rsp)
	movq	%rsi, 32(%rsp)
	movq	-96(%rsp), %rsi
	xorl	%edx, %edx
	testq	%rsi, %rsi
	je	.LBB5_109
	.p2align	4
.LBB5_105:
	movq	-56(%rsp,%rdx,8), %rax
	imulq	-88(%rsp,%rdx,8), %rax
	testq	%rax, %rax
	jne	.LBB5_108
	incq	%rdx
	cmpq	%rdx, %rsi
	jne	.LBB5_105
	movq	%rsi, %rdx
.LBB5_108:
	andl	$3, %edx
.LBB5_109:
	leaq	(%rdx,%r12,4), %rax
	movq	$1, (%rdi)
	movq	%rcx, 8(%rdi)
	movq	96(%rsp), %rcx
	movq	%rcx, 16(%rdi)
	movq	88(%rsp), %rcx
	movq	%rcx, 24(%rdi)
	movq	80(%rsp), %rcx
	movq	%rcx, 32(%rdi)
	movq	72(%rsp), %rcx
	movq	%rcx, 40(%rdi)
	movq	40(%rsp), %rcx
	movq	%rcx, 48(%rdi)
	movq	48(%rsp), %rcx
	movq	%rcx, 56(%rdi)
	movq	56(%rsp), %rcx
	movq	%rcx, 64(%rdi)
	movq	64(%rsp), %rcx
	movq	%rcx, 72(%rdi)
	movq	%r13, 80(%rdi)
	movq	%rbp, 88(%rdi)
	movq	%r14, 96(%rdi)
	movq	%r15, 104(%rdi)
	movq	%rax, 112(%rdi)
	movq	%r10, 120(%rdi)
	movq	112(%rsp), %rax
	movq	%rax, 128(%rdi)
	movq	104(%rsp), %rax
	movq	%rax, 136(%rdi)
	jmp	.LBB5_2
.Lfunc_end5:
	.size	"jpeg_scan_plan::Plan::of", .Lfunc_end5-"jpeg_scan_plan::Plan::of"

	.section	.rodata.cst16,"aM",@progbits,16
	.p2align	4, 0x0
.LCPI6_0:
	.byte	0
	.byte	1
	.byte	8
	.byte	16
	.byte	9
	.byte	2
	.byte	3
	.byte	10
	.byte	17
	.byte	24
	.byte	32
	.byte	25
	.byte	18
	.byte	11
	.byte	4
	.byte	5
.LCPI6_1:
	.byte	12
	.byte	19
	.byte	26
	.byte	33
	.byte	40
	.byte	48
	.byte	41
	.byte	34
	.byte	27
	.byte	20
	.byte	13
	.byte	6
	.byte	7
	.byte	14
	.byte	21
	.byte	28
.LCPI6_2:
	.byte	35
	.byte	42
	.byte	49
	.byte	56
	.byte	57
	.byte	50
	.byte	43
	.byte	36
	.byte	29
	.byte	22
	.byte	15
	.byte	23
	.byte	30
	.byte	37
	.byte	44
	.byte	51
.LCPI6_3:
	.byte	58
	.byte	59
	.byte	52
	.byte	45
	.byte	38
	.byte	31
	.byte	39
	.byte	46
	.byte	53
	.byte	60
	.byte	61
	.byte	54
	.byte	47
	.byte	55
	.byte	62
	.byte	63
	.section	".text.jpeg_scan::run::<#c44e4da361dd472c>","ax",@progbits
	.p2align	4
	.type	"jpeg_scan::run::<#c44e4da361dd472c>",@function
"jpeg_scan::run::<#c44e4da361dd472c>":
	pushq	%rbp
	pushq	%r15
	pushq	%r14
	pushq	%r13
	pushq	%r12
	pushq	%rbx
	subq	$1464, %rsp
	movq	(%rsi), %rax
	movq	%rax, 24(%rsp)
	movq	8(%rsi), %rax
	movq	%rax, 40(%rsp)
	movq	16(%rsi), %r13
	movq	128(%rsi), %r10
	movq	136(%rsi), %r15
	movq	144(%rsi), %rbp
	movq	120(%rsi), %rax
	movq	%rax, 592(%rsp)
	movups	104(%rsi), %xmm0
	movaps	%xmm0, 576(%rsp)
	movups	88(%rsi), %xmm0
	movaps	%xmm0, 560(%rsp)
	movups	72(%rsi), %xmm0
	movaps	%xmm0, 544(%rsp)
	movups	56(%rsi), %xmm0
	movaps	%xmm0, 528(%rsp)
	movups	40(%rsi), %xmm0
	movaps	%xmm0, 512(%rsp)
	movdqu	24(%rsi), %xmm0
	movdqa	%xmm0, 496(%rsp)
	testq	%r10, %r10
	je	.LBB6_134
	movl	%edx, %ebx
	movq	%rbp, %rax
	orq	%r10, %rax
	shrq	$32, %rax
	je	.LBB6_3
	movq	%rbp, %rax
	xorl	%edx, %edx
	divq	%r10
	jmp	.LBB6_4
.LBB6_3:
	movl	%ebp, %eax
	xorl	%edx, %edx
	divl	%r10d
.LBB6_4:
	xorl	%esi, %esi
	testq	%rdx, %rdx
	setne	%sil
	addq	%rax, %rsi
	movq	%rsi, 488(%rsp)
	je	.LBB6_108
	movq	%rcx, 440(%rsp)
	leaq	624(%rsp), %rdx
	leaq	-1(%r15), %rax
	movq	%rax, 464(%rsp)
	shrq	$6, %r8
	movq	%r8, 448(%rsp)
	movq	40(%rsp), %rcx
	movq	%rcx, %rax
	negq	%rax
	movq	%rax, 456(%rsp)
	pxor	%xmm0, %xmm0
	movq	$0, 96(%rsp)
	movq	$0, 72(%rsp)
	xorl	%r11d, %r11d
	xorl	%eax, %eax
	xorl	%r14d, %r14d
	movq	%r13, %r12
	movq	%r10, 64(%rsp)
	movq	%rbp, 32(%rsp)
.LBB6_6:
	shll	$8, %eax
	movzwl	%ax, %esi
	movzbl	%r14b, %r9d
	leaq	(%rsi,%r9), %r14
	movq	24(%rsp), %rax
	movq	%rax, 600(%rsp)
	movq	%rcx, 608(%rsp)
	movq	%r13, 616(%rsp)
	movq	592(%rsp), %rax
	movq	%rax, 96(%rdx)
	movaps	576(%rsp), %xmm1
	movups	%xmm1, 80(%rdx)
	movaps	560(%rsp), %xmm1
	movups	%xmm1, 64(%rdx)
	movdqa	496(%rsp), %xmm1
	movaps	512(%rsp), %xmm2
	movaps	528(%rsp), %xmm3
	movaps	544(%rsp), %xmm4
	movups	%xmm4, 48(%rdx)
	movups	%xmm3, 32(%rdx)
	movups	%xmm2, 16(%rdx)
	movdqu	%xmm1, (%rdx)
	movq	%r10, 728(%rsp)
	movq	%r15, 736(%rsp)
	movq	%rbp, 744(%rsp)
	cmpq	%r11, %rbp
	jbe	.LBB6_106
	testq	%r15, %r15
	sete	%dl
	movq	72(%rsp), %rax
	testq	%rax, %rax
	sete	%cl
	orb	%dl, %cl
	movl	%ebx, 52(%rsp)
	movq	%r15, 432(%rsp)
	jne	.LBB6_10
	movq	%rax, %rcx
	orq	%r15, %rcx
	shrq	$32, %rcx
	movq	40(%rsp), %rbp
	je	.LBB6_11
	xorl	%edx, %edx
	divq	%r15
	movq	96(%rsp), %rdx
	jmp	.LBB6_12
	.p2align	4
.LBB6_10:
	movq	%r12, %r15
	movq	32(%rsp), %rcx
	movq	24(%rsp), %rbx
	movq	40(%rsp), %rbp
	jmp	.LBB6_22
.LBB6_11:
	xorl	%edx, %edx
	divl	%r15d
.LBB6_12:
	movq	32(%rsp), %rcx
	movq	%r12, %r15
	testq	%rdx, %rdx
	movq	24(%rsp), %rbx
	jne	.LBB6_22
	shrl	$8, %esi
	decl	%eax
	andl	$7, %eax
	orq	$208, %rax
	movq	72(%rsp), %rcx
	cmpq	%rcx, 464(%rsp)
	movl	$208, %r10d
	cmovbq	%rax, %r10
	movq	$-1, %rax
	movl	%esi, %ecx
	shlq	%cl, %rax
	orq	%r9, %rax
	movb	$3, %dl
	cmpq	$-1, %rax
	jne	.LBB6_123
	cmpq	%rbp, %r12
	jae	.LBB6_123
	movq	456(%rsp), %rax
	leaq	(%rax,%r12), %rcx
	xorl	%eax, %eax
	movq	%rbx, %rsi
	.p2align	4
.LBB6_16:
	movzbl	(%rsi,%r12), %r8d
	cmpq	$255, %r8
	jne	.LBB6_18
	decq	%rax
	incq	%rsi
	cmpq	%rax, %rcx
	jne	.LBB6_16
	jmp	.LBB6_123
.LBB6_18:
	testq	%rax, %rax
	je	.LBB6_123
	movq	%r12, %r15
	subq	%rax, %r15
	cmpq	%r15, %rbp
	jbe	.LBB6_123
	cmpl	%r8d, %r10d
	jne	.LBB6_123
	incq	%r15
	pxor	%xmm0, %xmm0
	xorl	%r14d, %r14d
	movq	64(%rsp), %r10
	movq	32(%rsp), %rcx
	.p2align	4
.LBB6_22:
	movq	%r12, 472(%rsp)
	movq	%rdi, 120(%rsp)
	movdqa	%xmm0, 128(%rsp)
	xorl	%eax, %eax
	subq	%r11, %rcx
	cmovbq	%rax, %rcx
	cmpq	%r10, %rcx
	cmovaeq	%r10, %rcx
	movq	%rcx, 416(%rsp)
	movq	720(%rsp), %rdi
	movq	%r11, 480(%rsp)
	movq	%r13, 56(%rsp)
.LBB6_23:
	movq	%rax, 80(%rsp)
	movq	%r11, 88(%rsp)
	movq	%r15, (%rsp)
	movq	%rdi, 424(%rsp)
	andl	$3, %edi
	movq	%rdi, 112(%rsp)
	movl	%edi, %ecx
	movslq	128(%rsp,%rcx,4), %rax
	movq	%rax, 8(%rsp)
	movq	624(%rsp,%rcx,8), %rax
	movq	656(%rsp,%rcx,8), %rcx
	movq	%rcx, 16(%rsp)
	pxor	%xmm0, %xmm0
	movdqa	%xmm0, 816(%rsp)
	movdqa	%xmm0, 832(%rsp)
	movdqa	%xmm0, 848(%rsp)
	movdqa	%xmm0, 864(%rsp)
	movdqa	%xmm0, 880(%rsp)
	movdqa	%xmm0, 896(%rsp)
	movdqa	%xmm0, 912(%rsp)
	movdqa	%xmm0, 928(%rsp)
	movl	%r14d, %r12d
	shrl	$8, %r12d
	movl	$1, %esi
	xorl	%r9d, %r9d
.LBB6_24:
	movb	$2, %dl
	movq	%r13, %rcx
	subq	%rax, %rcx
	jbe	.LBB6_122
	leaq	(%rbx,%rax), %r11
	addq	$16, %rax
	cmpq	$16, %rcx
	movl	$16, %r13d
	cmovbq	%rcx, %r13
	xorl	%r10d, %r10d
	xorl	%r8d, %r8d
	.p2align	4
.LBB6_26:
	testb	%r12b, %r12b
	je	.LBB6_28
	decb	%r12b
	movzbl	%r14b, %ecx
	movzbl	%r12b, %edi
	btl	%edi, %ecx
	setb	%cl
	jmp	.LBB6_35
	.p2align	4
.LBB6_28:
	cmpq	%r15, %rbp
	jbe	.LBB6_114
	movzbl	(%rbx,%r15), %r14d
	leaq	1(%r15), %rcx
	cmpb	$-1, %r14b
	je	.LBB6_31
	movq	%rcx, %r15
	jmp	.LBB6_34
.LBB6_31:
	cmpq	%rcx, %rbp
	jbe	.LBB6_114
	cmpb	$0, (%rbx,%rcx)
	jne	.LBB6_121
	addq	$2, %r15
.LBB6_34:
	movl	%r14d, %ecx
	shrb	$7, %cl
	movb	$7, %r12b
.LBB6_35:
	movzbl	(%r11,%r8), %edi
	movzbl	%cl, %ecx
	leaq	(%rcx,%r10,2), %rcx
	movq	%rcx, %r10
	subq	%rdi, %r10
	jb	.LBB6_37
	addq	%rdi, %rax
	incq	%r8
	cmpq	%r8, %r13
	jne	.LBB6_26
	jmp	.LBB6_122
	.p2align	4
.LBB6_37:
	addq	%rax, %rcx
	movq	56(%rsp), %r13
	cmpq	%r13, %rcx
	jae	.LBB6_47
	movzbl	(%rbx,%rcx), %ecx
	testq	%r9, %r9
	movq	64(%rsp), %r10
	leaq	624(%rsp), %rdx
	je	.LBB6_49
	cmpq	$240, %rcx
	je	.LBB6_52
	testl	%ecx, %ecx
	je	.LBB6_74
	movl	%ecx, %eax
	andl	$15, %eax
	leal	-1(%rax), %edi
	movb	$3, %dl
	cmpl	$9, %edi
	ja	.LBB6_122
	shrl	$4, %ecx
	leaq	(%rcx,%r9), %rdi
	movq	%rcx, %r8
	cmpq	$64, %rdi
	jae	.LBB6_122
	addq	%r9, %r8
	movzbl	%r12b, %r12d
	cmpl	%r12d, %eax
	jbe	.LBB6_51
.LBB6_44:
	movq	$-1, %rdx
	movl	%r12d, %ecx
	shlq	%cl, %rdx
	cmpq	%r15, %rbp
	jbe	.LBB6_114
	movzbl	(%rbx,%r15), %r13d
	leaq	1(%r15), %rcx
	cmpq	$255, %r13
	je	.LBB6_54
	movq	%r8, %rsi
	jmp	.LBB6_57
.LBB6_47:
	testq	%r9, %r9
	movq	64(%rsp), %r10
	jne	.LBB6_73
	movzbl	%r12b, %r12d
	xorl	%esi, %esi
	xorl	%eax, %eax
	xorl	%r9d, %r9d
	xorl	%edx, %edx
	jmp	.LBB6_68
.LBB6_49:
	cmpb	$11, %cl
	ja	.LBB6_131
	xorl	%r8d, %r8d
	movq	%rcx, %rax
	addq	%r9, %r8
	movzbl	%r12b, %r12d
	cmpl	%r12d, %eax
	ja	.LBB6_44
.LBB6_51:
	movq	%r8, %rsi
	xorl	%r9d, %r9d
	movq	%rax, %rdx
	jmp	.LBB6_68
.LBB6_52:
	cmpq	$49, %r9
	jae	.LBB6_131
	addq	$16, %r9
	movq	16(%rsp), %rax
	cmpq	$64, %r9
	jb	.LBB6_24
	jmp	.LBB6_74
.LBB6_54:
	cmpq	%rcx, %rbp
	jbe	.LBB6_114
	cmpb	$0, (%rbx,%rcx)
	jne	.LBB6_121
	movq	%r8, %rsi
	addq	$2, %r15
	movq	%r15, %rcx
.LBB6_57:
	notl	%edx
	movzbl	%r14b, %edi
	andl	%edx, %edi
	movl	%r13d, %edx
	shrl	$7, %edx
	leal	(%rdx,%rdi,2), %r9d
	notq	%r12
	movq	%r12, %rdx
	addq	%rax, %rdx
	movl	$7, %r12d
	cmpq	$8, %rdx
	jae	.LBB6_61
	movq	%rcx, %r15
	movl	%r13d, %r14d
	jmp	.LBB6_67
.LBB6_59:
	movq	%rdi, %rcx
.LBB6_60:
	movl	%r14d, %edi
	shrl	$7, %edi
	shlq	$8, %r9
	addb	%r13b, %r13b
	movzbl	%r13b, %r8d
	orq	%r8, %r9
	orq	%rdi, %r9
	addq	$-8, %rdx
	movl	%r14d, %r13d
	cmpq	$7, %rdx
	jbe	.LBB6_66
.LBB6_61:
	cmpq	%rcx, %rbp
	jbe	.LBB6_114
	movzbl	(%rbx,%rcx), %r14d
	leaq	1(%rcx), %rdi
	cmpq	$255, %r14
	jne	.LBB6_59
	cmpq	%rdi, %rbp
	jbe	.LBB6_114
	cmpb	$0, (%rbx,%rdi)
	jne	.LBB6_121
	addq	$2, %rcx
	jmp	.LBB6_60
.LBB6_66:
	movq	%rcx, %r15
.LBB6_67:
	movq	56(%rsp), %r13
	.p2align	4
.LBB6_68:
	subl	%edx, %r12d
	movzbl	%r14b, %edi
	movl	%r12d, %ecx
	shrq	%cl, %rdi
	movq	$-1, %r8
	movl	%edx, %ecx
	shlq	%cl, %r8
	shlq	%cl, %r9
	notl	%r8d
	andl	%r8d, %edi
	addq	%rdi, %r9
	movl	$1, %edx
	movl	%eax, %ecx
	shlq	%cl, %rdx
	leaq	(%r9,%r9), %rcx
	movl	%r9d, %eax
	subl	%edx, %eax
	incl	%eax
	cmpq	%rdx, %rcx
	cmovael	%r9d, %eax
	testq	%rsi, %rsi
	movq	%rsi, %r9
	je	.LBB6_70
	leaq	624(%rsp), %rdx
	jmp	.LBB6_72
.LBB6_70:
	movswq	%ax, %rax
	movq	8(%rsp), %rsi
	leaq	(%rax,%rsi), %rcx
	addq	$2048, %rcx
	cmpq	$4095, %rcx
	leaq	624(%rsp), %rdx
	ja	.LBB6_131
	addq	%rsi, %rax
.LBB6_72:
	movw	%ax, 816(%rsp,%r9,2)
	incq	%r9
	movq	%r9, %rsi
	movq	16(%rsp), %rax
	cmpq	$64, %r9
	jb	.LBB6_24
	jmp	.LBB6_74
.LBB6_73:
	leaq	624(%rsp), %rdx
.LBB6_74:
	movq	448(%rsp), %rbx
	movq	88(%rsp), %r11
	cmpq	%r11, %rbx
	setbe	%al
	movswl	816(%rsp), %r8d
	movl	52(%rsp), %ecx
	xorb	$1, %cl
	orb	%al, %cl
	movq	80(%rsp), %rcx
	jne	.LBB6_104
	movq	112(%rsp), %rax
	movq	688(%rsp,%rax,8), %rcx
	movq	%r11, %rdi
	shlq	$6, %rdi
	cmpq	%rcx, %r13
	movq	%rcx, %rax
	cmovbq	%r13, %rax
	movq	24(%rsp), %rdx
	addq	%rax, %rdx
	movq	%r13, %r9
	subq	%rax, %r9
	cmpq	$64, %r9
	movl	$64, %eax
	cmovaeq	%rax, %r9
	movq	%r9, (%rsp)
	movq	440(%rsp), %rax
	addq	%rax, %rdi
	cmpq	$1, %rsi
	jne	.LBB6_78
	xorl	%eax, %eax
	cmpq	%rcx, %r13
	jbe	.LBB6_90
	movzbl	(%rdx), %ecx
	jmp	.LBB6_91
.LBB6_78:
	movq	%rsi, %rax
	movq	%rdx, %r13
	movq	%rdi, 400(%rsp)
	movl	%r8d, 108(%rsp)
	pxor	%xmm0, %xmm0
	movdqa	%xmm0, 384(%rsp)
	movdqa	%xmm0, 368(%rsp)
	movdqa	%xmm0, 352(%rsp)
	movdqa	%xmm0, 336(%rsp)
	movdqa	%xmm0, 320(%rsp)
	movdqa	%xmm0, 304(%rsp)
	movdqa	%xmm0, 288(%rsp)
	movdqa	%xmm0, 272(%rsp)
	movdqa	%xmm0, 256(%rsp)
	movdqa	%xmm0, 240(%rsp)
	movdqa	%xmm0, 224(%rsp)
	movdqa	%xmm0, 208(%rsp)
	movdqa	%xmm0, 192(%rsp)
	movdqa	%xmm0, 176(%rsp)
	movdqa	%xmm0, 160(%rsp)
	movdqa	%xmm0, 144(%rsp)
	leaq	952(%rsp), %rdi
	movl	$512, %edx
	xorl	%esi, %esi
	movq	%rax, %rbx
	callq	memset@PLT
	movaps	.LCPI6_0(%rip), %xmm0
	movaps	%xmm0, 752(%rsp)
	movaps	.LCPI6_1(%rip), %xmm0
	movaps	%xmm0, 768(%rsp)
	movaps	.LCPI6_2(%rip), %xmm0
	movaps	%xmm0, 784(%rsp)
	movdqa	.LCPI6_3(%rip), %xmm0
	movdqa	%xmm0, 800(%rsp)
	cmpq	$64, %rbx
	movl	$64, %r11d
	cmovbq	%rbx, %r11
	testq	%rbx, %rbx
	movq	(%rsp), %r10
	je	.LBB6_94
	movl	%r11d, %ecx
	andl	$126, %ecx
	xorl	%edx, %edx
	movq	%r13, %r9
	jmp	.LBB6_82
.LBB6_80:
	movzbl	1(%r9,%rax), %esi
.LBB6_81:
	movzbl	753(%rsp,%rax), %edi
	movswq	818(%rsp,%rax,2), %r8
	imulq	%rsi, %r8
	movq	%r8, 952(%rsp,%rdi,8)
	incq	%rdx
	cmpq	%rcx, %rdx
	je	.LBB6_87
.LBB6_82:
	movq	%rdx, %rax
	cmpq	%r10, %rdx
	jae	.LBB6_84
	movzbl	(%r9,%rax), %edx
	jmp	.LBB6_85
.LBB6_84:
	xorl	%edx, %edx
.LBB6_85:
	movzbl	752(%rsp,%rax), %esi
	movswq	816(%rsp,%rax,2), %rdi
	imulq	%rdx, %rdi
	movq	%rdi, 952(%rsp,%rsi,8)
	leaq	1(%rax), %rdx
	cmpq	%r10, %rdx
	jb	.LBB6_80
	xorl	%esi, %esi
	jmp	.LBB6_81
.LBB6_87:
	testb	$1, %r11b
	je	.LBB6_94
	leaq	2(%rax), %rcx
	cmpq	%r10, %rcx
	jae	.LBB6_92
	movzbl	(%r13,%rcx), %ecx
	jmp	.LBB6_93
.LBB6_90:
	xorl	%ecx, %ecx
.LBB6_91:
	movslq	%r8d, %rdx
	imulq	%rcx, %rdx
	imulq	$134212225, %rdx, %rcx
	movabsq	$137975824384, %rdx
	addq	%rdx, %rcx
	shrq	$30, %rcx
	testl	%ecx, %ecx
	cmovgl	%ecx, %eax
	cmpl	$255, %eax
	movl	$255, %ecx
	cmovll	%eax, %ecx
	movd	%ecx, %xmm0
	punpcklbw	%xmm0, %xmm0
	pshuflw	$0, %xmm0, %xmm0
	pshufd	$68, %xmm0, %xmm0
	movdqu	%xmm0, 48(%rdi)
	movdqu	%xmm0, 32(%rdi)
	movdqu	%xmm0, 16(%rdi)
	movdqu	%xmm0, (%rdi)
	leaq	624(%rsp), %rdx
	movq	80(%rsp), %rcx
	jmp	.LBB6_104
.LBB6_92:
	xorl	%ecx, %ecx
.LBB6_93:
	movzbl	754(%rsp,%rax), %edx
	movswq	820(%rsp,%rax,2), %rax
	imulq	%rcx, %rax
	movq	%rax, 952(%rsp,%rdx,8)
.LBB6_94:
	xorl	%eax, %eax
	jmp	.LBB6_97
.LBB6_95:
	leaq	(%r9,%rsi), %rdx
	imulq	$11585, %rdx, %rdx
	subq	%r9, %rsi
	imulq	$11585, %rsi, %rsi
	imulq	$15137, %rcx, %r9
	imulq	$6270, %rdi, %r13
	addq	%r9, %r13
	imulq	$6270, %rcx, %rcx
	imulq	$-15137, %rdi, %rdi
	addq	%rcx, %rdi
	leaq	(%rdx,%r13), %rcx
	movq	%rcx, (%rsp)
	leaq	(%rdi,%rsi), %rcx
	movq	%rcx, 16(%rsp)
	subq	%rdi, %rsi
	subq	%r13, %rdx
	imulq	$16069, %r11, %rcx
	imulq	$13623, %r10, %r13
	addq	%rcx, %r13
	imulq	$9102, %rbx, %rcx
	imulq	$3196, %r8, %rdi
	addq	%rcx, %rdi
	addq	%r13, %rdi
	imulq	$13623, %r11, %rcx
	imulq	$-3196, %r10, %r13
	addq	%rcx, %r13
	imulq	$-16069, %rbx, %r9
	imulq	$-9102, %r8, %rcx
	addq	%r9, %rcx
	addq	%r13, %rcx
	imulq	$9102, %r11, %r9
	imulq	$-16069, %r10, %r13
	addq	%r9, %r13
	imulq	$3196, %rbx, %r9
	movq	%rbx, 8(%rsp)
	movq	%rbp, %rbx
	movq	%r11, %rbp
	imulq	$13623, %r8, %r11
	addq	%r9, %r11
	addq	%r13, %r11
	imulq	$3196, %rbp, %r9
	movq	%rbx, %rbp
	imulq	$-9102, %r10, %r10
	addq	%r9, %r10
	imulq	$13623, 8(%rsp), %r9
	imulq	$-16069, %r8, %r13
	addq	%r9, %r13
	addq	%r10, %r13
	movq	(%rsp), %rbx
	leaq	(%rdi,%rbx), %r8
	movq	16(%rsp), %r9
	leaq	(%rcx,%r9), %r10
	movq	%r10, 8(%rsp)
	leaq	(%r11,%rsi), %r10
	movq	%r10, 408(%rsp)
	leaq	(%rdx,%r13), %r10
	subq	%r13, %rdx
	subq	%r11, %rsi
	movq	%r9, %r11
	movq	408(%rsp), %r9
	subq	%rcx, %r11
	movq	%rbx, %rcx
	movq	%r11, %rbx
	subq	%rdi, %rcx
	movq	8(%rsp), %rdi
.LBB6_96:
	movq	%r8, 952(%rsp,%rax)
	movq	%rdi, 960(%rsp,%rax)
	movq	%r9, 968(%rsp,%rax)
	movq	%r10, 976(%rsp,%rax)
	movq	%rdx, 984(%rsp,%rax)
	movq	%rsi, 992(%rsp,%rax)
	movq	%rbx, 1000(%rsp,%rax)
	movq	%rcx, 1008(%rsp,%rax)
	addq	$64, %rax
	cmpq	$512, %rax
	je	.LBB6_99
.LBB6_97:
	movq	952(%rsp,%rax), %rsi
	movq	960(%rsp,%rax), %r11
	movq	968(%rsp,%rax), %rcx
	movq	976(%rsp,%rax), %r10
	movq	984(%rsp,%rax), %r9
	movq	992(%rsp,%rax), %rbx
	movq	1000(%rsp,%rax), %rdi
	movq	1008(%rsp,%rax), %r8
	movq	%rcx, %rdx
	orq	%r11, %rdx
	movq	%r10, %r13
	orq	%r9, %r13
	orq	%rdx, %r13
	movq	%rbx, %rdx
	orq	%rdi, %rdx
	orq	%r13, %rdx
	orq	%r8, %rdx
	jne	.LBB6_95
	imulq	$11585, %rsi, %r8
	movq	%r8, %rdi
	movq	%r8, %r9
	movq	%r8, %r10
	movq	%r8, %rdx
	movq	%r8, %rsi
	movq	%r8, %rbx
	movq	%r8, %rcx
	jmp	.LBB6_96
.LBB6_99:
	pxor	%xmm0, %xmm0
	movdqa	%xmm0, 384(%rsp)
	movdqa	%xmm0, 368(%rsp)
	movdqa	%xmm0, 352(%rsp)
	movdqa	%xmm0, 336(%rsp)
	movdqa	%xmm0, 320(%rsp)
	movdqa	%xmm0, 304(%rsp)
	movdqa	%xmm0, 288(%rsp)
	movdqa	%xmm0, 272(%rsp)
	movdqa	%xmm0, 256(%rsp)
	movdqa	%xmm0, 240(%rsp)
	movdqa	%xmm0, 224(%rsp)
	movdqa	%xmm0, 208(%rsp)
	movdqa	%xmm0, 192(%rsp)
	movdqa	%xmm0, 176(%rsp)
	movdqa	%xmm0, 160(%rsp)
	movdqa	%xmm0, 144(%rsp)
	movl	$56, %eax
	jmp	.LBB6_101
.LBB6_102:
	imulq	$11585, %rcx, %rcx
	imulq	$15137, %rdi, %rdx
	imulq	$6270, %rdi, %rsi
	movq	%rsi, (%rsp)
	movq	%rcx, %rdi
	subq	%rsi, %rdi
	movq	%rcx, %r10
	subq	%rdx, %r10
	imulq	$16069, %rbx, %r8
	imulq	$13623, %r13, %rsi
	addq	%r8, %rsi
	movq	%rsi, 16(%rsp)
	imulq	$13623, %rbx, %r8
	imulq	$-3196, %r13, %r9
	addq	%r8, %r9
	imulq	$9102, %rbx, %r11
	imulq	$-16069, %r13, %r8
	addq	%r11, %r8
	imulq	$3196, %rbx, %rsi
	imulq	$-9102, %r13, %r11
	addq	%rsi, %r11
	movabsq	$137975824384, %r13
	addq	%r13, %rcx
	addq	%rcx, %rdx
	movq	16(%rsp), %rbx
	leaq	(%rbx,%rdx), %rsi
	shrq	$30, %rsi
	movl	%esi, -80(%rsp,%rax,4)
	addq	(%rsp), %rcx
	leaq	(%r9,%rcx), %rsi
	shrq	$30, %rsi
	movl	%esi, -48(%rsp,%rax,4)
	addq	%r13, %rdi
	leaq	(%rdi,%r8), %rsi
	shrq	$30, %rsi
	movl	%esi, -16(%rsp,%rax,4)
	addq	%r13, %r10
	leaq	(%r10,%r11), %rsi
	shrq	$30, %rsi
	movl	%esi, 16(%rsp,%rax,4)
	subq	%r11, %r10
	shrq	$30, %r10
	movl	%r10d, 48(%rsp,%rax,4)
	subq	%r8, %rdi
	shrq	$30, %rdi
	movl	%edi, 80(%rsp,%rax,4)
	subq	%r9, %rcx
	shrq	$30, %rcx
	movl	%ecx, 112(%rsp,%rax,4)
	subq	%rbx, %rdx
	shrq	$30, %rdx
	movl	%edx, 144(%rsp,%rax,4)
	incq	%rax
	cmpq	$64, %rax
	je	.LBB6_103
.LBB6_101:
	movq	504(%rsp,%rax,8), %rcx
	movq	568(%rsp,%rax,8), %rbx
	movq	632(%rsp,%rax,8), %rdi
	movq	696(%rsp,%rax,8), %r13
	movq	760(%rsp,%rax,8), %rsi
	movq	824(%rsp,%rax,8), %r11
	movq	888(%rsp,%rax,8), %r8
	movq	952(%rsp,%rax,8), %rdx
	movq	%r11, %r9
	orq	%rsi, %r9
	orq	%r8, %r9
	orq	%rdx, %r9
	je	.LBB6_102
	leaq	(%rsi,%rcx), %r9
	imulq	$11585, %r9, %r10
	subq	%rsi, %rcx
	imulq	$11585, %rcx, %rsi
	imulq	$15137, %rdi, %r9
	imulq	$6270, %r8, %rcx
	addq	%r9, %rcx
	imulq	$6270, %rdi, %rdi
	imulq	$-15137, %r8, %r8
	addq	%rdi, %r8
	leaq	(%rcx,%r10), %rdi
	movq	%rdi, (%rsp)
	leaq	(%r8,%rsi), %r9
	subq	%r8, %rsi
	subq	%rcx, %r10
	imulq	$16069, %rbx, %rcx
	imulq	$13623, %r13, %r8
	addq	%rcx, %r8
	imulq	$9102, %r11, %rcx
	imulq	$3196, %rdx, %rdi
	addq	%rcx, %rdi
	addq	%r8, %rdi
	movq	%rdi, 16(%rsp)
	imulq	$13623, %rbx, %rcx
	imulq	$-3196, %r13, %r8
	addq	%rcx, %r8
	imulq	$-16069, %r11, %rdi
	imulq	$-9102, %rdx, %rcx
	addq	%rdi, %rcx
	addq	%r8, %rcx
	imulq	$9102, %rbx, %r8
	imulq	$-16069, %r13, %rdi
	addq	%r8, %rdi
	imulq	$3196, %r11, %r8
	movq	%r8, 8(%rsp)
	imulq	$13623, %rdx, %r8
	addq	8(%rsp), %r8
	addq	%rdi, %r8
	imulq	$3196, %rbx, %rdi
	imulq	$-9102, %r13, %r13
	addq	%rdi, %r13
	imulq	$13623, %r11, %rdi
	imulq	$-16069, %rdx, %rdx
	addq	%rdi, %rdx
	addq	%r13, %rdx
	movabsq	$137975824384, %r11
	movq	(%rsp), %rbx
	leaq	(%rbx,%r11), %rdi
	movq	16(%rsp), %r13
	addq	%r13, %rdi
	shrq	$30, %rdi
	movl	%edi, -80(%rsp,%rax,4)
	leaq	(%r9,%r11), %rdi
	addq	%rcx, %rdi
	shrq	$30, %rdi
	movl	%edi, -48(%rsp,%rax,4)
	leaq	(%rsi,%r11), %rdi
	addq	%r8, %rdi
	shrq	$30, %rdi
	movl	%edi, -16(%rsp,%rax,4)
	leaq	(%r10,%r11), %rdi
	addq	%rdx, %rdi
	shrq	$30, %rdi
	movl	%edi, 16(%rsp,%rax,4)
	subq	%rdx, %r10
	addq	%r11, %r10
	shrq	$30, %r10
	movl	%r10d, 48(%rsp,%rax,4)
	subq	%r8, %rsi
	addq	%r11, %rsi
	shrq	$30, %rsi
	movl	%esi, 80(%rsp,%rax,4)
	subq	%rcx, %r9
	addq	%r11, %r9
	shrq	$30, %r9
	movl	%r9d, 112(%rsp,%rax,4)
	subq	%r13, %rbx
	addq	%r11, %rbx
	shrq	$30, %rbx
	movl	%ebx, 144(%rsp,%rax,4)
	incq	%rax
	cmpq	$64, %rax
	jne	.LBB6_101
.LBB6_103:
	movdqa	144(%rsp), %xmm0
	movdqa	160(%rsp), %xmm1
	packssdw	%xmm0, %xmm0
	packuswb	%xmm0, %xmm0
	packssdw	%xmm1, %xmm1
	packuswb	%xmm1, %xmm1
	movq	400(%rsp), %rax
	movd	%xmm0, (%rax)
	movd	%xmm1, 4(%rax)
	movdqa	176(%rsp), %xmm0
	movdqa	192(%rsp), %xmm1
	packssdw	%xmm0, %xmm0
	packuswb	%xmm0, %xmm0
	packssdw	%xmm1, %xmm1
	packuswb	%xmm1, %xmm1
	movd	%xmm0, 8(%rax)
	movd	%xmm1, 12(%rax)
	movdqa	208(%rsp), %xmm0
	movdqa	224(%rsp), %xmm1
	packssdw	%xmm0, %xmm0
	packuswb	%xmm0, %xmm0
	packssdw	%xmm1, %xmm1
	packuswb	%xmm1, %xmm1
	movd	%xmm0, 16(%rax)
	movd	%xmm1, 20(%rax)
	movdqa	240(%rsp), %xmm0
	movdqa	256(%rsp), %xmm1
	packssdw	%xmm0, %xmm0
	packuswb	%xmm0, %xmm0
	packssdw	%xmm1, %xmm1
	packuswb	%xmm1, %xmm1
	movd	%xmm0, 24(%rax)
	movd	%xmm1, 28(%rax)
	movdqa	272(%rsp), %xmm0
	movdqa	288(%rsp), %xmm1
	packssdw	%xmm0, %xmm0
	packuswb	%xmm0, %xmm0
	packssdw	%xmm1, %xmm1
	packuswb	%xmm1, %xmm1
	movd	%xmm0, 32(%rax)
	movd	%xmm1, 36(%rax)
	movdqa	304(%rsp), %xmm0
	movdqa	320(%rsp), %xmm1
	packssdw	%xmm0, %xmm0
	packuswb	%xmm0, %xmm0
	packssdw	%xmm1, %xmm1
	packuswb	%xmm1, %xmm1
	movd	%xmm0, 40(%rax)
	movd	%xmm1, 44(%rax)
	movdqa	336(%rsp), %xmm0
	movdqa	352(%rsp), %xmm1
	packssdw	%xmm0, %xmm0
	packuswb	%xmm0, %xmm0
	packssdw	%xmm1, %xmm1
	packuswb	%xmm1, %xmm1
	movd	%xmm0, 48(%rax)
	movd	%xmm1, 52(%rax)
	movdqa	368(%rsp), %xmm0
	movdqa	384(%rsp), %xmm1
	packssdw	%xmm0, %xmm0
	packuswb	%xmm0, %xmm0
	packssdw	%xmm1, %xmm1
	packuswb	%xmm1, %xmm1
	movd	%xmm0, 56(%rax)
	movd	%xmm1, 60(%rax)
	movq	56(%rsp), %r13
	movq	64(%rsp), %r10
	leaq	624(%rsp), %rdx
	movq	88(%rsp), %r11
	movq	80(%rsp), %rcx
	movl	108(%rsp), %r8d
.LBB6_104:
	movzbl	%r12b, %eax
	shll	$8, %eax
	movzbl	%r14b, %r14d
	orq	%rax, %r14
	movq	112(%rsp), %rax
	movl	%r8d, 128(%rsp,%rax,4)
	incq	%r11
	movq	424(%rsp), %rdi
	shrq	$2, %rdi
	incq	%rcx
	cmpq	416(%rsp), %rcx
	movq	24(%rsp), %rbx
	movq	%rcx, %rax
	jne	.LBB6_23
	movdqa	128(%rsp), %xmm0
	movq	%r15, %r12
	movq	120(%rsp), %rdi
	movl	52(%rsp), %ebx
	movq	432(%rsp), %r15
	.p2align	4
.LBB6_106:
	movl	%r14d, %eax
	shrl	$8, %eax
	movq	96(%rsp), %rcx
	incq	%rcx
	xorl	%esi, %esi
	cmpq	%r15, %rcx
	cmovneq	%rcx, %rsi
	movq	%rsi, 96(%rsp)
	movq	72(%rsp), %rsi
	incq	%rsi
	movq	%rsi, 72(%rsp)
	cmpq	488(%rsp), %rsi
	movq	32(%rsp), %rbp
	movq	40(%rsp), %rcx
	jb	.LBB6_6
	movzbl	%r14b, %edx
	movq	%r12, %r13
	jmp	.LBB6_109
.LBB6_108:
	xorl	%edx, %edx
	xorl	%eax, %eax
	xorl	%r11d, %r11d
.LBB6_109:
	movq	$-1, %rsi
	movl	%eax, %ecx
	shlq	%cl, %rsi
	orq	%rdx, %rsi
	cmpq	$-1, %rsi
	movq	24(%rsp), %rsi
	movq	40(%rsp), %r8
	jne	.LBB6_119
	cmpq	%r8, %r13
	jae	.LBB6_119
	xorl	%ecx, %ecx
	movq	%r13, %rax
	.p2align	4
.LBB6_112:
	movzbl	(%rsi,%rax), %edx
	cmpb	$-1, %dl
	jne	.LBB6_115
	incq	%rax
	decq	%rcx
	cmpq	%rax, %r8
	jne	.LBB6_112
	jmp	.LBB6_119
.LBB6_114:
	xorl	%edx, %edx
	jmp	.LBB6_122
.LBB6_115:
	testq	%rcx, %rcx
	je	.LBB6_119
	cmpq	%rax, %r8
	jbe	.LBB6_119
	cmpb	$-39, %dl
	sete	%cl
	decq	%r8
	cmpq	%rax, %r8
	sete	%al
	testb	%al, %cl
	je	.LBB6_119
	movb	$0, (%rdi)
	pxor	%xmm0, %xmm0
	movdqu	%xmm0, 8(%rdi)
	movq	$0, 24(%rdi)
	jmp	.LBB6_124
.LBB6_119:
	movb	$1, (%rdi)
	movb	$3, 8(%rdi)
	movb	$0, 15(%rdi)
	movw	$0, 13(%rdi)
	movl	$0, 9(%rdi)
	movq	%r11, 16(%rdi)
	movq	%r13, 24(%rdi)
	jmp	.LBB6_124
.LBB6_121:
	movb	$1, %dl
.LBB6_122:
	movq	88(%rsp), %r11
	cmpq	480(%rsp), %r11
	movq	472(%rsp), %r12
	cmovneq	(%rsp), %r12
	movq	120(%rsp), %rdi
.LBB6_123:
	movb	$1, (%rdi)
	movb	%dl, 8(%rdi)
	movb	$0, 15(%rdi)
	movw	$0, 13(%rdi)
	movl	$0, 9(%rdi)
	movq	%r11, 16(%rdi)
	movq	%r12, 24(%rdi)
.LBB6_124:
	addq	$1464, %rsp
	popq	%rbx
	popq	%r12
	popq	%r13
	popq	%r14
	popq	%r15
	popq	%rbp
	retq
.LBB6_131:
	movb	$3, %dl
	jmp	.LBB6_122
.LBB6_134:
	ud2
.Lfunc_end6:
	.size	"jpeg_scan::run::<#c44e4da361dd472c>", .Lfunc_end6-"jpeg_scan::run::<#c44e4da361dd472c>"

	.section	".text.jpeg_header::comment","ax",@progbits
	.p2align	4
	.type	"jpeg_header::comment",@function
"jpeg_header::comment":
	pushq	%rbp
	pushq	%r15
	pushq	%r14
	pushq	%r13
	pushq	%r12
	pushq	%rbx
	subq	$664, %rsp
	movq	%rcx, %r12
	movq	%rdx, %r15
	movq	%rsi, %r14
	movq	%rdi, %rbx
	leaq	280(%rsp), %rdi
	movl	$384, %edx
	xorl	%esi, %esi
	callq	memset@PLT
	cmpq	$2, %r15
	jb	.LBB7_3
	cmpb	$-1, (%r14)
	jne	.LBB7_3
	cmpb	$-40, 1(%r14)
	jne	.LBB7_3
	movq	$2, (%rsp)
	leaq	8(%rsp), %rdi
	movl	$272, %edx
	xorl	%esi, %esi
	callq	memset@PLT
	leaq	280(%rsp), %rdi
	movq	%rsp, %r8
	movq	%r14, %rsi
	movq	%r15, %rdx
	xorl	%ecx, %ecx
	callq	"jpeg_header::step"
	movzbl	288(%rsp), %eax
	orb	280(%rsp), %al
	jne	.LBB7_3
	leaq	296(%rsp), %r13
	jmp	.LBB7_7
	.p2align	4
.LBB7_16:
	movq	%rsp, %rbp
	movl	$280, %edx
	movq	%rbp, %rdi
	movq	%r13, %rsi
	callq	memcpy@PLT
	leaq	280(%rsp), %rdi
	movq	%r14, %rsi
	movq	%r15, %rdx
	xorl	%ecx, %ecx
	movq	%rbp, %r8
	callq	"jpeg_header::step"
	movzbl	288(%rsp), %eax
	orb	280(%rsp), %al
	jne	.LBB7_3
.LBB7_7:
	cmpb	$0, 8(%rsp)
	jne	.LBB7_16
	movq	(%rsp), %rax
	leaq	1(%rax), %rcx
	cmpq	%r15, %rcx
	jae	.LBB7_16
	cmpb	$-2, (%r14,%rcx)
	jne	.LBB7_16
	subq	$1, %r12
	jae	.LBB7_16
	leaq	2(%rax), %rcx
	cmpq	%r15, %rcx
	jae	.LBB7_12
	movzbl	2(%r14,%rax), %ecx
	shll	$8, %ecx
	leaq	3(%rax), %rdx
	cmpq	%r15, %rdx
	jae	.LBB7_15
	movzbl	(%r14,%rdx), %edx
	orq	%rdx, %rcx
	jmp	.LBB7_15
.LBB7_3:
	xorps	%xmm0, %xmm0
	movups	%xmm0, (%rbx)
	movq	$0, 16(%rbx)
.LBB7_4:
	addq	$664, %rsp
	popq	%rbx
	popq	%r12
	popq	%r13
	popq	%r14
	popq	%r15
	popq	%rbp
	retq
.LBB7_12:
	xorl	%ecx, %ecx
.LBB7_15:
	addq	$4, %rax
	addq	$-2, %rcx
	movq	$1, (%rbx)
	movq	%rax, 8(%rbx)
	movq	%rcx, 16(%rbx)
	jmp	.LBB7_4
.Lfunc_end7:
	.size	"jpeg_header::comment", .Lfunc_end7-"jpeg_header::comment"

	.section	".text.jpeg::inspect","ax",@progbits
	.p2align	4
	.type	"jpeg::inspect",@function
"jpeg::inspect":
	pushq	%rbp
	pushq	%r15
	pushq	%r14
	pushq	%r13
	pushq	%r12
	pushq	%rbx
	subq	$2440, %rsp
	movq	%r9, %r14
	movl	%ecx, %ebp
	movq	%rdx, %r15
	movq	%rsi, %r13
	movq	%rdi, %rbx
	movq	(%r8), %r12
	movq	8(%r8), %rax
	movq	%rax, 16(%rsp)
	movq	16(%r8), %rax
	movq	%rax, 8(%rsp)
	xorps	%xmm0, %xmm0
	movaps	%xmm0, 48(%rsp)
	leaq	2136(%rsp), %rdi
	movl	$304, %edx
	xorl	%esi, %esi
	callq	memset@PLT
	movl	$0, 40(%rsp)
	movl	$0, 43(%rsp)
	xorps	%xmm0, %xmm0
	movaps	%xmm0, 112(%rsp)
	movaps	%xmm0, 96(%rsp)
	leaq	1832(%rsp), %rdi
	movl	$304, %edx
	xorl	%esi, %esi
	callq	memset@PLT
	xorps	%xmm0, %xmm0
	movaps	%xmm0, 128(%rsp)
	leaq	160(%rsp), %rdi
	movl	$320, %edx
	xorl	%esi, %esi
	callq	memset@PLT
	leaq	488(%rsp), %rdi
	movl	$376, %edx
	xorl	%esi, %esi
	callq	memset@PLT
	testq	%r15, %r15
	js	.LBB8_2
	cmpq	%r15, %r12
	jb	.LBB8_2
	leaq	(%r15,%r15), %rax
	cmpq	%rax, %r14
	jbe	.LBB8_16
	notq	%rax
	addq	%rax, %r14
	movzbl	%bpl, %ecx
	leaq	488(%rsp), %rdi
	movq	%r13, %rsi
	movq	%r15, %rdx
	callq	"jpeg_header::header"
	movq	496(%rsp), %rcx
	cmpb	$0, 488(%rsp)
	je	.LBB8_5
	movq	504(%rsp), %rax
	movq	%rax, 16(%rsp)
	movzbl	%cl, %eax
	movq	%rax, 8(%rsp)
	movups	512(%rsp), %xmm0
	movaps	%xmm0, 160(%rsp)
	leaq	176(%rsp), %rdi
	movl	$304, %edx
	xorl	%esi, %esi
	callq	memset@PLT
	leaq	1512(%rsp), %rdi
	leaq	160(%rsp), %rsi
	movl	$320, %edx
	callq	memcpy@PLT
	jmp	.LBB8_17
.LBB8_2:
	xorps	%xmm0, %xmm0
	movaps	%xmm0, 160(%rsp)
	leaq	1512(%rsp), %rdi
	leaq	160(%rsp), %rsi
	movl	$320, %edx
	callq	memcpy@PLT
	movq	$0, 16(%rsp)
	movq	$0, 8(%rsp)
	jmp	.LBB8_17
.LBB8_16:
	leaq	1512(%rsp), %rdi
	movq	$0, 16(%rsp)
	movl	$320, %edx
	xorl	%esi, %esi
	callq	memset@PLT
	movl	$1, %eax
	movq	%rax, 8(%rsp)
	jmp	.LBB8_17
.LBB8_5:
	movq	%r13, 32(%rsp)
	leaq	528(%rsp), %rsi
	movq	504(%rsp), %r13
	movq	832(%rsp), %r12
	movq	840(%rsp), %rbp
	movq	848(%rsp), %rax
	movq	%rax, 80(%rsp)
	movq	856(%rsp), %rax
	movq	%rax, 152(%rsp)
	movups	512(%rsp), %xmm0
	movaps	%xmm0, 1184(%rsp)
	leaq	1200(%rsp), %rdi
	movq	%rcx, 88(%rsp)
	movl	$304, %edx
	callq	memcpy@PLT
	leaq	880(%rsp), %rdi
	movl	$304, %edx
	xorl	%esi, %esi
	callq	memset@PLT
	movq	88(%rsp), %rdx
	movq	16(%rsp), %rax
	cmpq	%rdx, %rax
	jb	.LBB8_7
	cmpq	%r13, %rax
	setb	%al
	movq	8(%rsp), %rsi
	cmpq	%r12, %rsi
	setb	%cl
	orb	%al, %cl
	cmpq	%rbp, %rsi
	setb	%al
	orb	%cl, %al
	cmpb	$1, %al
	jne	.LBB8_8
.LBB8_7:
	xorps	%xmm0, %xmm0
	movaps	%xmm0, 864(%rsp)
	leaq	160(%rsp), %rdi
	leaq	864(%rsp), %rsi
	movl	$320, %edx
	callq	memcpy@PLT
	movl	$5, %eax
.LBB8_10:
	movq	%rax, 8(%rsp)
	leaq	1512(%rsp), %rdi
	leaq	160(%rsp), %rsi
	movl	$320, %edx
	callq	memcpy@PLT
	movq	$0, 16(%rsp)
.LBB8_17:
	movups	1512(%rsp), %xmm0
	movaps	%xmm0, 48(%rsp)
.LBB8_18:
	movaps	48(%rsp), %xmm0
	movaps	%xmm0, 112(%rsp)
	xorps	%xmm0, %xmm0
	movaps	%xmm0, 96(%rsp)
	leaq	1832(%rsp), %rdi
	xorl	%r13d, %r13d
	movl	$304, %edx
	xorl	%esi, %esi
	callq	memset@PLT
	movb	$1, %al
	xorl	%edx, %edx
	movq	$0, 32(%rsp)
	xorl	%r12d, %r12d
	xorl	%r15d, %r15d
	xorl	%ebp, %ebp
.LBB8_19:
	movb	%al, (%rbx)
	movl	40(%rsp), %eax
	movl	43(%rsp), %ecx
	movl	%eax, 1(%rbx)
	movl	%ecx, 4(%rbx)
	movq	8(%rsp), %rax
	movq	%rax, 8(%rbx)
	movq	16(%rsp), %rax
	movq	%rax, 16(%rbx)
	movaps	112(%rsp), %xmm0
	movups	%xmm0, 24(%rbx)
	movq	%r14, 40(%rbx)
	movq	%r13, 48(%rbx)
	movq	%rdx, 56(%rbx)
	movaps	96(%rsp), %xmm0
	movups	%xmm0, 64(%rbx)
	leaq	80(%rbx), %rdi
	leaq	1832(%rsp), %rsi
	movl	$304, %edx
	callq	memcpy@PLT
	movq	32(%rsp), %rax
	movq	%rax, 384(%rbx)
	movq	%r12, 392(%rbx)
	movq	%r15, 400(%rbx)
	movq	%rbp, 408(%rbx)
	addq	$2440, %rsp
	popq	%rbx
	popq	%r12
	popq	%r13
	popq	%r14
	popq	%r15
	popq	%rbp
	retq
.LBB8_8:
	movq	%r13, 72(%rsp)
	movq	%r14, %rax
	movq	80(%rsp), %rcx
	subq	%rcx, %rax
	movq	%rax, 64(%rsp)
	jae	.LBB8_11
	leaq	160(%rsp), %rdi
	movl	$320, %edx
	xorl	%esi, %esi
	callq	memset@PLT
	movl	$6, %eax
	jmp	.LBB8_10
.LBB8_11:
	leaq	1512(%rsp), %rdi
	leaq	1184(%rsp), %rsi
	movq	%rdx, %r13
	movl	$320, %edx
	movq	%rcx, %r14
	callq	memcpy@PLT
	leaq	1528(%rsp), %rsi
	movq	%r13, 488(%rsp)
	movq	72(%rsp), %rax
	movq	%rax, 496(%rsp)
	movups	1512(%rsp), %xmm0
	movups	%xmm0, 504(%rsp)
	leaq	520(%rsp), %rdi
	movl	$304, %edx
	callq	memcpy@PLT
	movq	%r12, %r13
	movq	%r12, 824(%rsp)
	movq	%rbp, %r12
	movq	%rbp, 832(%rsp)
	movq	%r14, 840(%rsp)
	movq	152(%rsp), %rbp
	movq	%rbp, 848(%rsp)
	xorps	%xmm0, %xmm0
	movaps	%xmm0, 160(%rsp)
	movaps	%xmm0, 176(%rsp)
	movaps	%xmm0, 192(%rsp)
	movaps	%xmm0, 208(%rsp)
	movaps	%xmm0, 224(%rsp)
	movaps	%xmm0, 240(%rsp)
	movaps	%xmm0, 256(%rsp)
	movaps	%xmm0, 272(%rsp)
	movaps	%xmm0, 288(%rsp)
	leaq	160(%rsp), %rdi
	leaq	488(%rsp), %rdx
	movq	%r15, %rsi
	callq	"jpeg_scan_plan::Plan::of"
	cmpb	$1, 160(%rsp)
	jne	.LBB8_12
	movzbl	168(%rsp), %eax
	movq	32(%rsp), %rcx
	movq	%rcx, 864(%rsp)
	movq	%r15, 872(%rsp)
	movb	%al, 880(%rsp)
	movups	169(%rsp), %xmm0
	movups	%xmm0, 881(%rsp)
	movq	184(%rsp), %rax
	movq	%rax, 896(%rsp)
	movaps	192(%rsp), %xmm0
	movups	%xmm0, 904(%rsp)
	movaps	208(%rsp), %xmm0
	movups	%xmm0, 920(%rsp)
	movaps	224(%rsp), %xmm0
	movups	%xmm0, 936(%rsp)
	movaps	240(%rsp), %xmm0
	movups	%xmm0, 952(%rsp)
	movaps	256(%rsp), %xmm0
	movups	%xmm0, 968(%rsp)
	movaps	272(%rsp), %xmm0
	movups	%xmm0, 984(%rsp)
	movaps	288(%rsp), %xmm0
	movups	%xmm0, 1000(%rsp)
	xorps	%xmm0, %xmm0
	movaps	%xmm0, 1200(%rsp)
	movaps	%xmm0, 1184(%rsp)
	leaq	1184(%rsp), %rdi
	leaq	864(%rsp), %rsi
	leaq	31(%rsp), %rcx
	xorl	%edx, %edx
	xorl	%r8d, %r8d
	callq	"jpeg_scan::run::<#c44e4da361dd472c>"
	movzbl	1192(%rsp), %eax
	movzbl	1199(%rsp), %esi
	movzwl	1197(%rsp), %edx
	movl	1193(%rsp), %ecx
	movaps	1200(%rsp), %xmm0
	movaps	%xmm0, 128(%rsp)
	cmpb	$0, 1184(%rsp)
	je	.LBB8_21
	shll	$16, %esi
	orl	%esi, %edx
	shlq	$32, %rdx
	orq	%rdx, %rcx
	jmp	.LBB8_13
.LBB8_12:
	xorps	%xmm0, %xmm0
	movaps	%xmm0, 128(%rsp)
	movb	$3, %al
	xorl	%ecx, %ecx
.LBB8_13:
	shlq	$8, %rcx
	movzbl	%al, %eax
	orq	%rcx, %rax
	movq	%rax, 16(%rsp)
	movaps	128(%rsp), %xmm0
	movaps	%xmm0, 48(%rsp)
	movl	$10, %eax
	movq	%rax, 8(%rsp)
	movq	64(%rsp), %r14
	jmp	.LBB8_18
.LBB8_21:
	movups	1512(%rsp), %xmm0
	movaps	%xmm0, 48(%rsp)
	leaq	2136(%rsp), %r15
	movl	$304, %edx
	movq	%r15, %rdi
	leaq	1528(%rsp), %rsi
	callq	memcpy@PLT
	xorps	%xmm0, %xmm0
	movaps	%xmm0, 112(%rsp)
	movaps	48(%rsp), %xmm0
	movaps	%xmm0, 96(%rsp)
	leaq	1832(%rsp), %rdi
	movl	$304, %edx
	movq	%r15, %rsi
	callq	memcpy@PLT
	xorl	%eax, %eax
	movq	$0, 16(%rsp)
	movq	%r13, 32(%rsp)
	movq	88(%rsp), %r13
	movq	$0, 8(%rsp)
	movq	64(%rsp), %r14
	movq	80(%rsp), %r15
	movq	72(%rsp), %rdx
	jmp	.LBB8_19
.Lfunc_end8:
	.size	"jpeg::inspect", .Lfunc_end8-"jpeg::inspect"

	.section	.text.tillsparrow_comment,"ax",@progbits
	.globl	tillsparrow_comment
	.p2align	4
	.type	tillsparrow_comment,@function
tillsparrow_comment:
	pushq	%r15
	pushq	%r14
	pushq	%r12
	pushq	%rbx
	subq	$760, %rsp
	movq	%rdx, %rbx
	movq	%rsi, %r14
	xorl	%r15d, %r15d
	testq	%rdi, %rdi
	sete	%r15b
	shll	$12, %r15d
	addq	%rdi, %r15
	xorps	%xmm0, %xmm0
	movaps	%xmm0, 16(%rsp)
	movq	$0, 32(%rsp)
	leaq	384(%rsp), %r12
	movl	$376, %edx
	movq	%r12, %rdi
	xorl	%esi, %esi
	callq	memset@PLT
	movq	%r12, %rdi
	movq	%r15, %rsi
	movq	%r14, %rdx
	xorl	%ecx, %ecx
	callq	"jpeg_header::header"
	cmpb	$0, 384(%rsp)
	jne	.LBB9_1
	leaq	392(%rsp), %rdx
	xorps	%xmm0, %xmm0
	movaps	%xmm0, 176(%rsp)
	movaps	%xmm0, 160(%rsp)
	movaps	%xmm0, 144(%rsp)
	movaps	%xmm0, 128(%rsp)
	movaps	%xmm0, 112(%rsp)
	movaps	%xmm0, 96(%rsp)
	movaps	%xmm0, 80(%rsp)
	movaps	%xmm0, 64(%rsp)
	movaps	%xmm0, 48(%rsp)
	leaq	48(%rsp), %rdi
	movq	%r14, %rsi
	callq	"jpeg_scan_plan::Plan::of"
	cmpb	$1, 48(%rsp)
	jne	.LBB9_1
	movzbl	56(%rsp), %eax
	movq	%r15, 232(%rsp)
	movq	%r14, 240(%rsp)
	movb	%al, 248(%rsp)
	movups	57(%rsp), %xmm0
	movups	%xmm0, 249(%rsp)
	movq	72(%rsp), %rax
	movq	%rax, 264(%rsp)
	movaps	80(%rsp), %xmm0
	movups	%xmm0, 272(%rsp)
	movaps	96(%rsp), %xmm0
	movups	%xmm0, 288(%rsp)
	movaps	112(%rsp), %xmm0
	movups	%xmm0, 304(%rsp)
	movaps	128(%rsp), %xmm0
	movups	%xmm0, 320(%rsp)
	movaps	144(%rsp), %xmm0
	movups	%xmm0, 336(%rsp)
	movaps	160(%rsp), %xmm0
	movups	%xmm0, 352(%rsp)
	movaps	176(%rsp), %xmm0
	movups	%xmm0, 368(%rsp)
	xorps	%xmm0, %xmm0
	movaps	%xmm0, 208(%rsp)
	movaps	%xmm0, 192(%rsp)
	leaq	192(%rsp), %rdi
	leaq	232(%rsp), %rsi
	leaq	15(%rsp), %rcx
	xorl	%edx, %edx
	xorl	%r8d, %r8d
	callq	"jpeg_scan::run::<#c44e4da361dd472c>"
	xorl	%eax, %eax
	cmpb	$0, 192(%rsp)
	movl	$0, %edx
	jne	.LBB9_6
	leaq	16(%rsp), %rdi
	movq	%r15, %rsi
	movq	%r14, %rdx
	movq	%rbx, %rcx
	callq	"jpeg_header::comment"
	cmpb	$1, 16(%rsp)
	jne	.LBB9_1
	movq	24(%rsp), %rax
	movq	32(%rsp), %rdx
	jmp	.LBB9_6
.LBB9_1:
	xorl	%eax, %eax
	xorl	%edx, %edx
.LBB9_6:
	addq	$760, %rsp
	popq	%rbx
	popq	%r12
	popq	%r14
	popq	%r15
	retq
.Lfunc_end9:
	.size	tillsparrow_comment, .Lfunc_end9-tillsparrow_comment

	.section	.rodata.cst16,"aM",@progbits,16
	.p2align	4, 0x0
.LCPI10_0:
	.long	4294967168
	.long	4294967168
	.long	4294967168
	.long	4294967168
.LCPI10_1:
	.short	26345
	.short	0
	.short	26345
	.short	0
	.short	26345
	.short	0
	.short	26345
	.short	0
.LCPI10_2:
	.short	42982
	.short	18734
	.short	42982
	.short	18734
	.short	42982
	.short	18734
	.short	42982
	.short	18734
.LCPI10_3:
	.long	521728
	.long	521728
	.long	521728
	.long	521728
.LCPI10_4:
	.long	128
	.long	128
	.long	128
	.long	128
.LCPI10_5:
	.short	50594
	.short	0
	.short	50594
	.short	0
	.short	50594
	.short	0
	.short	50594
	.short	0
.LCPI10_6:
	.long	32768
	.long	32768
	.long	32768
	.long	32768
.LCPI10_7:
	.byte	255
	.byte	255
	.byte	0
	.byte	255
	.byte	255
	.byte	0
	.byte	255
	.byte	255
	.byte	0
	.byte	255
	.byte	255
	.byte	0
	.byte	255
	.byte	255
	.byte	0
	.byte	255
.LCPI10_8:
	.byte	255
	.byte	0
	.byte	255
	.byte	255
	.byte	0
	.byte	255
	.byte	255
	.byte	0
	.byte	255
	.byte	255
	.byte	0
	.byte	255
	.byte	255
	.byte	0
	.byte	255
	.byte	255
.LCPI10_9:
	.byte	0
	.byte	255
	.byte	255
	.byte	0
	.byte	255
	.byte	255
	.byte	0
	.byte	255
	.byte	255
	.byte	0
	.byte	255
	.byte	255
	.byte	0
	.byte	255
	.byte	255
	.byte	0
.LCPI10_10:
	.byte	255
	.byte	255
	.byte	0
	.byte	255
	.byte	255
	.byte	0
	.byte	255
	.byte	255
	.byte	0
	.byte	255
	.byte	255
	.byte	0
	.byte	255
	.byte	255
	.byte	255
	.byte	255
.LCPI10_11:
	.short	18734
	.short	42982
	.short	18734
	.short	42982
	.short	18734
	.short	42982
	.short	18734
	.short	42982
.LCPI10_12:
	.short	128
	.short	128
	.short	128
	.short	128
	.short	128
	.short	128
	.short	128
	.short	128
.LCPI10_13:
	.short	65535
	.short	65535
	.short	0
	.short	65535
	.short	65535
	.short	0
	.short	65535
	.short	65535
.LCPI10_14:
	.byte	255
	.byte	0
	.byte	255
	.byte	255
	.byte	0
	.byte	255
	.byte	255
	.byte	0
	.byte	255
	.byte	255
	.byte	255
	.byte	255
	.byte	255
	.byte	255
	.byte	255
	.byte	255
	.section	.text.tillsparrow_decode,"ax",@progbits
	.globl	tillsparrow_decode
	.p2align	4
	.type	tillsparrow_decode,@function
tillsparrow_decode:
	pushq	%rbp
	pushq	%r15
	pushq	%r14
	pushq	%r13
	pushq	%r12
	pushq	%rbx
	subq	$1976, %rsp
	xorl	%r11d, %r11d
	testq	%rdi, %rdi
	sete	%bpl
	testq	%rdx, %rdx
	sete	296(%rsp)
	testq	%r8, %r8
	sete	760(%rsp)
	movq	2368(%rsp), %rbx
	movq	2376(%rsp), %r12
	movq	2392(%rsp), %r13
	cmpq	$1, %r13
	sete	120(%rsp)
	ja	.LBB10_1
	movq	2048(%rsp), %r15
	jmp	.LBB10_3
.LBB10_1:
	xorl	%r15d, %r15d
.LBB10_3:
	movq	2400(%rsp), %r10
	cmpq	%r12, %rcx
	setb	%al
	cmpq	%rbx, %r9
	setb	%r14b
	orb	%al, %r14b
	movl	$7, %eax
	jne	.LBB10_513
	movl	$2, %eax
	testq	%rsi, %rsi
	js	.LBB10_513
	leaq	(%rsi,%rsi), %r14
	cmpq	%r14, %r10
	jbe	.LBB10_513
	movq	%rbx, 200(%rsp)
	movq	2384(%rsp), %rbx
	notq	%r14
	addq	%r10, %r14
	movq	%rbx, 752(%rsp)
	subq	%rbx, %r14
	jb	.LBB10_513
	movq	%r14, 192(%rsp)
	movq	%r15, 168(%rsp)
	movq	%r9, 1360(%rsp)
	movq	%rcx, 40(%rsp)
	movq	%r8, 1328(%rsp)
	movq	%rdx, 728(%rsp)
	movb	%bpl, %r11b
	shll	$12, %r11d
	addq	%r11, %rdi
	movq	2032(%rsp), %rax
	movq	%rax, (%rsp)
	movq	2040(%rsp), %rax
	movq	%rax, 184(%rsp)
	movq	2056(%rsp), %rax
	movq	%rax, 64(%rsp)
	movq	2064(%rsp), %rax
	movq	%rax, 160(%rsp)
	movq	2072(%rsp), %rax
	movq	%rax, 16(%rsp)
	movq	2080(%rsp), %rax
	movq	%rax, 144(%rsp)
	movq	2088(%rsp), %rax
	movq	%rax, 176(%rsp)
	movq	2096(%rsp), %rax
	movq	%rax, 824(%rsp)
	movq	2104(%rsp), %rax
	movq	%rax, 816(%rsp)
	movq	2112(%rsp), %rax
	movq	%rax, 808(%rsp)
	movq	2120(%rsp), %rax
	movq	%rax, 928(%rsp)
	movq	2128(%rsp), %rax
	movq	%rax, 920(%rsp)
	movq	2136(%rsp), %rax
	movq	%rax, 912(%rsp)
	movq	2144(%rsp), %rax
	movq	%rax, 904(%rsp)
	xorl	%ebp, %ebp
	cmpq	$1, %r13
	sete	%bpl
	movq	2152(%rsp), %rax
	movq	%rax, 896(%rsp)
	movq	2160(%rsp), %rax
	movq	%rax, 888(%rsp)
	movq	2168(%rsp), %rax
	movq	%rax, 880(%rsp)
	movq	2176(%rsp), %rax
	movq	%rax, 872(%rsp)
	movq	2184(%rsp), %rax
	movq	%rax, 224(%rsp)
	movq	2192(%rsp), %rax
	movq	%rax, 832(%rsp)
	movq	2200(%rsp), %rax
	movq	%rax, 256(%rsp)
	movq	2208(%rsp), %rax
	movq	%rax, 208(%rsp)
	movq	2216(%rsp), %rax
	movq	%rax, 304(%rsp)
	movq	2224(%rsp), %rax
	movq	%rax, 240(%rsp)
	movq	2232(%rsp), %rax
	movq	%rax, 704(%rsp)
	movq	2240(%rsp), %rax
	movq	%rax, 688(%rsp)
	movq	2248(%rsp), %rax
	movq	%rax, 1456(%rsp)
	movq	2256(%rsp), %rax
	movq	%rax, 1440(%rsp)
	movq	2264(%rsp), %rax
	movq	%rax, 1424(%rsp)
	movq	2272(%rsp), %rax
	movq	%rax, 1408(%rsp)
	movq	2280(%rsp), %rax
	movq	%rax, 744(%rsp)
	movq	2288(%rsp), %rax
	movq	%rax, 72(%rsp)
	movq	2296(%rsp), %rax
	movq	%rax, 840(%rsp)
	movq	2304(%rsp), %rax
	movq	%rax, 96(%rsp)
	movq	2312(%rsp), %rax
	movq	%rax, 128(%rsp)
	movq	2320(%rsp), %rax
	movq	%rax, 32(%rsp)
	movq	2328(%rsp), %rax
	movq	%rax, 152(%rsp)
	movq	2336(%rsp), %rax
	movq	%rax, 48(%rsp)
	movq	2344(%rsp), %rax
	movq	%rax, 288(%rsp)
	movq	2352(%rsp), %rax
	movq	%rax, 768(%rsp)
	movq	2360(%rsp), %rbx
	leaq	1560(%rsp), %r15
	movl	$376, %edx
	movq	%r13, 736(%rsp)
	movq	%rdi, %r13
	movq	%r15, %rdi
	movq	%rsi, %r14
	xorl	%esi, %esi
	callq	memset@PLT
	movq	%r15, %rdi
	movq	%r13, 1344(%rsp)
	movq	%r13, %rsi
	movq	%r14, 1248(%rsp)
	movq	%r14, %rdx
	movl	%ebp, %ecx
	callq	"jpeg_header::header"
	cmpb	$0, 1560(%rsp)
	je	.LBB10_8
.LBB10_514:
	movl	$8, %eax
	movq	192(%rsp), %r10
.LBB10_513:
	movq	%r10, %rdx
	addq	$1976, %rsp
	popq	%rbx
	popq	%r12
	popq	%r13
	popq	%r14
	popq	%r15
	popq	%rbp
	retq
.LBB10_8:
	movq	1408(%rsp), %r14
	movq	1424(%rsp), %r15
	movq	1440(%rsp), %rbp
	movq	1456(%rsp), %r13
	movq	%rbx, 24(%rsp)
	movq	752(%rsp), %rax
	cmpq	%rax, 1920(%rsp)
	movq	(%rsp), %rcx
	movq	184(%rsp), %rbx
	movq	64(%rsp), %rdx
	movq	16(%rsp), %rsi
	movq	144(%rsp), %rdi
	movq	176(%rsp), %r8
	movq	824(%rsp), %r9
	movq	816(%rsp), %r10
	movq	808(%rsp), %r11
	jne	.LBB10_514
	movzbl	120(%rsp), %eax
	cmpb	%al, 1928(%rsp)
	jne	.LBB10_514
	cmpq	%rcx, 1568(%rsp)
	jne	.LBB10_514
	cmpq	%rbx, 1576(%rsp)
	jne	.LBB10_514
	movq	168(%rsp), %rax
	cmpq	%rax, 1584(%rsp)
	jne	.LBB10_514
	cmpq	%rdx, 1592(%rsp)
	jne	.LBB10_514
	movq	160(%rsp), %rax
	cmpq	%rax, 1600(%rsp)
	jne	.LBB10_514
	cmpq	%rsi, 1608(%rsp)
	jne	.LBB10_514
	cmpq	%rdi, 1616(%rsp)
	jne	.LBB10_514
	cmpq	%r8, 1624(%rsp)
	jne	.LBB10_514
	cmpq	%r9, 1632(%rsp)
	jne	.LBB10_514
	cmpq	%r10, 1640(%rsp)
	jne	.LBB10_514
	cmpq	%r11, 1648(%rsp)
	jne	.LBB10_514
	movq	928(%rsp), %rax
	cmpq	%rax, 1656(%rsp)
	jne	.LBB10_514
	movq	920(%rsp), %rax
	cmpq	%rax, 1664(%rsp)
	jne	.LBB10_514
	movq	912(%rsp), %rax
	cmpq	%rax, 1672(%rsp)
	jne	.LBB10_514
	movq	904(%rsp), %rax
	cmpq	%rax, 1680(%rsp)
	jne	.LBB10_514
	movq	896(%rsp), %rax
	cmpq	%rax, 1688(%rsp)
	jne	.LBB10_514
	movq	888(%rsp), %rax
	cmpq	%rax, 1696(%rsp)
	jne	.LBB10_514
	movq	880(%rsp), %rax
	cmpq	%rax, 1704(%rsp)
	jne	.LBB10_514
	movq	872(%rsp), %rax
	cmpq	%rax, 1712(%rsp)
	jne	.LBB10_514
	cmpq	%r13, 1720(%rsp)
	jne	.LBB10_514
	cmpq	%rbp, 1728(%rsp)
	jne	.LBB10_514
	cmpq	%r15, 1736(%rsp)
	jne	.LBB10_514
	cmpq	%r14, 1744(%rsp)
	jne	.LBB10_514
	movq	744(%rsp), %rax
	cmpq	%rax, 1752(%rsp)
	jne	.LBB10_514
	movq	72(%rsp), %rax
	cmpq	%rax, 1760(%rsp)
	jne	.LBB10_514
	movq	840(%rsp), %rax
	cmpq	%rax, 1768(%rsp)
	jne	.LBB10_514
	movq	96(%rsp), %rax
	cmpq	%rax, 1776(%rsp)
	jne	.LBB10_514
	movq	128(%rsp), %rax
	cmpq	%rax, 1784(%rsp)
	jne	.LBB10_514
	movq	32(%rsp), %rax
	cmpq	%rax, 1792(%rsp)
	jne	.LBB10_514
	movq	152(%rsp), %rax
	cmpq	%rax, 1800(%rsp)
	jne	.LBB10_514
	movq	48(%rsp), %rax
	cmpq	%rax, 1808(%rsp)
	jne	.LBB10_514
	movq	224(%rsp), %rax
	cmpq	%rax, 1816(%rsp)
	jne	.LBB10_514
	movq	832(%rsp), %rax
	cmpq	%rax, 1824(%rsp)
	jne	.LBB10_514
	movq	256(%rsp), %rax
	cmpq	%rax, 1832(%rsp)
	jne	.LBB10_514
	movq	208(%rsp), %rax
	cmpq	%rax, 1840(%rsp)
	jne	.LBB10_514
	movq	304(%rsp), %rax
	cmpq	%rax, 1848(%rsp)
	jne	.LBB10_514
	movq	240(%rsp), %rax
	cmpq	%rax, 1856(%rsp)
	jne	.LBB10_514
	movq	704(%rsp), %rax
	cmpq	%rax, 1864(%rsp)
	jne	.LBB10_514
	movq	688(%rsp), %rax
	cmpq	%rax, 1872(%rsp)
	jne	.LBB10_514
	movq	288(%rsp), %rax
	cmpq	%rax, 1880(%rsp)
	jne	.LBB10_514
	movq	768(%rsp), %rax
	cmpq	%rax, 1888(%rsp)
	jne	.LBB10_514
	movq	24(%rsp), %rax
	cmpq	%rax, 1896(%rsp)
	jne	.LBB10_514
	movq	200(%rsp), %rax
	cmpq	%rax, 1904(%rsp)
	jne	.LBB10_514
	cmpq	%r12, 1912(%rsp)
	jne	.LBB10_514
	movq	%rcx, 320(%rsp)
	movq	%rbx, 328(%rsp)
	movq	168(%rsp), %rax
	movq	%rax, 336(%rsp)
	movq	%rdx, 344(%rsp)
	movq	160(%rsp), %rax
	movq	%rax, 352(%rsp)
	movq	%rsi, 360(%rsp)
	movq	%rdi, 368(%rsp)
	movq	%r8, 376(%rsp)
	movq	%r9, 384(%rsp)
	movq	%r10, 392(%rsp)
	movq	%r11, 400(%rsp)
	movq	928(%rsp), %rax
	movq	%rax, 408(%rsp)
	movq	920(%rsp), %rax
	movq	%rax, 416(%rsp)
	movq	912(%rsp), %rax
	movq	%rax, 424(%rsp)
	movq	904(%rsp), %rax
	movq	%rax, 432(%rsp)
	movq	896(%rsp), %rax
	movq	%rax, 440(%rsp)
	movq	888(%rsp), %rax
	movq	%rax, 448(%rsp)
	movq	880(%rsp), %rax
	movq	%rax, 456(%rsp)
	movq	872(%rsp), %rax
	movq	%rax, 464(%rsp)
	movq	%r13, 472(%rsp)
	movq	%rbp, 480(%rsp)
	movq	%r15, 488(%rsp)
	movq	%r14, 496(%rsp)
	movq	744(%rsp), %rax
	movq	%rax, 504(%rsp)
	movq	72(%rsp), %rax
	movq	%rax, 512(%rsp)
	movq	840(%rsp), %rax
	movq	%rax, 520(%rsp)
	movq	96(%rsp), %rax
	movq	%rax, 528(%rsp)
	movq	128(%rsp), %rax
	movq	%rax, 536(%rsp)
	movq	32(%rsp), %rax
	movq	%rax, 544(%rsp)
	movq	152(%rsp), %rax
	movq	%rax, 552(%rsp)
	movq	48(%rsp), %rax
	movq	%rax, 560(%rsp)
	movq	224(%rsp), %rax
	movq	%rax, 568(%rsp)
	movq	832(%rsp), %rax
	movq	%rax, 576(%rsp)
	movq	256(%rsp), %rax
	movq	%rax, 584(%rsp)
	movq	208(%rsp), %rax
	movq	%rax, 592(%rsp)
	movq	304(%rsp), %rax
	movq	%rax, 600(%rsp)
	movq	240(%rsp), %rax
	movq	%rax, 608(%rsp)
	movq	704(%rsp), %rax
	movq	%rax, 616(%rsp)
	movq	688(%rsp), %rax
	movq	%rax, 624(%rsp)
	movq	288(%rsp), %rax
	movq	%rax, 632(%rsp)
	movq	768(%rsp), %rax
	movq	%rax, 640(%rsp)
	movq	24(%rsp), %rax
	movq	%rax, 648(%rsp)
	movq	200(%rsp), %rax
	movq	%rax, 656(%rsp)
	movq	%r12, 664(%rsp)
	movq	752(%rsp), %rax
	movq	%rax, 672(%rsp)
	movzbl	120(%rsp), %eax
	movb	%al, 680(%rsp)
	movl	$0, 684(%rsp)
	movl	$0, 681(%rsp)
	pxor	%xmm0, %xmm0
	movdqa	%xmm0, 944(%rsp)
	movdqa	%xmm0, 960(%rsp)
	movdqa	%xmm0, 976(%rsp)
	movdqa	%xmm0, 992(%rsp)
	movdqa	%xmm0, 1008(%rsp)
	movdqa	%xmm0, 1024(%rsp)
	movdqa	%xmm0, 1040(%rsp)
	movdqa	%xmm0, 1056(%rsp)
	movdqa	%xmm0, 1072(%rsp)
	leaq	944(%rsp), %rdi
	leaq	320(%rsp), %rdx
	movq	1248(%rsp), %rsi
	callq	"jpeg_scan_plan::Plan::of"
	cmpb	$1, 944(%rsp)
	jne	.LBB10_514
	xorl	%r12d, %r12d
	movzbl	760(%rsp), %eax
	movb	%al, %r12b
	shll	$12, %r12d
	movq	1328(%rsp), %rax
	leaq	(%rax,%r12), %rbx
	movzbl	952(%rsp), %ebp
	movq	1080(%rsp), %r14
	pxor	%xmm0, %xmm0
	movdqa	%xmm0, 1376(%rsp)
	movdqa	%xmm0, 1392(%rsp)
	movdqa	%xmm0, 1936(%rsp)
	movdqa	%xmm0, 1952(%rsp)
	movq	1344(%rsp), %rax
	movq	%rax, 1088(%rsp)
	movq	1248(%rsp), %rax
	movq	%rax, 1096(%rsp)
	movb	%bpl, 1104(%rsp)
	movups	953(%rsp), %xmm0
	movups	%xmm0, 1105(%rsp)
	movq	968(%rsp), %rax
	movq	%rax, 1120(%rsp)
	movaps	976(%rsp), %xmm0
	movups	%xmm0, 1128(%rsp)
	movaps	992(%rsp), %xmm0
	movups	%xmm0, 1144(%rsp)
	movaps	1008(%rsp), %xmm0
	movups	%xmm0, 1160(%rsp)
	movaps	1024(%rsp), %xmm0
	movups	%xmm0, 1176(%rsp)
	movaps	1040(%rsp), %xmm0
	movups	%xmm0, 1192(%rsp)
	movdqa	1056(%rsp), %xmm0
	movdqu	%xmm0, 1208(%rsp)
	movq	1072(%rsp), %rax
	movq	%rax, 1224(%rsp)
	movq	%r14, 1232(%rsp)
	leaq	1936(%rsp), %rdi
	leaq	1088(%rsp), %rsi
	xorl	%edx, %edx
	movq	%rbx, %rcx
	movq	1360(%rsp), %r8
	callq	"jpeg_scan::run::<#c44e4da361dd472c>"
	cmpb	$0, 1936(%rsp)
	jne	.LBB10_514
	movq	%r12, 120(%rsp)
	leaq	953(%rsp), %rsi
	movq	1360(%rsp), %r8
	movq	%r8, %rax
	shrq	$6, %rax
	cmpq	%r14, %rax
	jae	.LBB10_58
	movq	(%rsp), %rdi
	movq	16(%rsp), %r8
	jmp	.LBB10_59
.LBB10_58:
	leaq	976(%rsp), %rax
	leaq	1105(%rsp), %rcx
	movq	1344(%rsp), %rdx
	movq	%rdx, 1088(%rsp)
	movq	1248(%rsp), %rdx
	movq	%rdx, 1096(%rsp)
	movb	%bpl, 1104(%rsp)
	movq	15(%rsi), %rdx
	movq	%rdx, 15(%rcx)
	movups	(%rsi), %xmm0
	movups	%xmm0, (%rcx)
	movq	96(%rax), %rdx
	movq	%rdx, 119(%rcx)
	movups	80(%rax), %xmm0
	movups	%xmm0, 103(%rcx)
	movups	64(%rax), %xmm0
	movups	%xmm0, 87(%rcx)
	movdqu	(%rax), %xmm0
	movdqu	16(%rax), %xmm1
	movdqu	32(%rax), %xmm2
	movdqu	48(%rax), %xmm3
	movdqu	%xmm3, 71(%rcx)
	movdqu	%xmm2, 55(%rcx)
	movdqu	%xmm1, 39(%rcx)
	movdqu	%xmm0, 23(%rcx)
	movq	%r14, 1232(%rsp)
	leaq	1376(%rsp), %rdi
	leaq	1088(%rsp), %rsi
	movl	$1, %edx
	movq	%rbx, %rcx
	callq	"jpeg_scan::run::<#c44e4da361dd472c>"
	cmpb	$0, 1376(%rsp)
	movq	(%rsp), %rdi
	movq	16(%rsp), %r8
	jne	.LBB10_514
.LBB10_59:
	movq	%rbx, 152(%rsp)
	cmpq	$65535, %rdi
	movq	168(%rsp), %rsi
	movq	192(%rsp), %r14
	ja	.LBB10_512
	cmpq	$65535, 184(%rsp)
	ja	.LBB10_512
	leaq	-1(%rsi), %rax
	cmpq	$3, %rax
	ja	.LBB10_512
	movq	64(%rsp), %rax
	leaq	-1(%rax), %rcx
	movq	176(%rsp), %rax
	decq	%rax
	movq	%rcx, 800(%rsp)
	orq	%rcx, %rax
	cmpq	$3, %rax
	ja	.LBB10_512
	movq	176(%rsp), %rcx
	movq	%rcx, %rax
	movq	64(%rsp), %rbp
	imulq	%rbp, %rax
	cmpq	$1, %rsi
	jne	.LBB10_65
	movq	%rcx, %rdx
	movq	%rax, %r9
.LBB10_72:
	movq	%r9, 856(%rsp)
	cmpq	$10, %r9
	ja	.LBB10_512
	movq	%rsi, %rax
	imulq	%rdi, %rax
	movq	%rax, 1320(%rsp)
	imulq	184(%rsp), %rax
	cmpq	40(%rsp), %rax
	ja	.LBB10_512
	movq	%rdx, 272(%rsp)
	leaq	-1(%rbp), %rax
	cmpq	$3, %rax
	ja	.LBB10_75
	leal	(,%rbp,8), %ecx
	movq	(%rsp), %rax
	xorl	%edx, %edx
	divw	%cx
	movzwl	%ax, %ecx
	cmpw	$1, %dx
	sbbq	$-1, %rcx
	jmp	.LBB10_77
.LBB10_65:
	movq	160(%rsp), %rcx
	decq	%rcx
	movq	824(%rsp), %rdx
	decq	%rdx
	orq	%rcx, %rdx
	cmpq	$3, %rdx
	ja	.LBB10_512
	movq	64(%rsp), %rbp
	movq	160(%rsp), %rcx
	cmpq	%rbp, %rcx
	cmovaq	%rcx, %rbp
	movq	176(%rsp), %rdx
	movq	824(%rsp), %r9
	cmpq	%rdx, %r9
	cmovaq	%r9, %rdx
	imulq	%rcx, %r9
	addq	%rax, %r9
	cmpq	$2, %rsi
	je	.LBB10_72
	leaq	-1(%r8), %rax
	movq	816(%rsp), %rcx
	decq	%rcx
	orq	%rax, %rcx
	cmpq	$3, %rcx
	ja	.LBB10_512
	cmpq	%rbp, %r8
	cmovaq	%r8, %rbp
	movq	816(%rsp), %rax
	cmpq	%rdx, %rax
	cmovaq	%rax, %rdx
	imulq	%r8, %rax
	addq	%rax, %r9
	cmpq	$3, %rsi
	jne	.LBB10_70
	movq	168(%rsp), %rsi
	movq	192(%rsp), %r14
	movq	(%rsp), %rdi
	jmp	.LBB10_72
.LBB10_75:
	xorl	%ecx, %ecx
.LBB10_77:
	movq	272(%rsp), %rax
	decq	%rax
	cmpq	$3, %rax
	ja	.LBB10_78
	movq	272(%rsp), %rax
	leal	(,%rax,8), %esi
	movq	184(%rsp), %rax
	xorl	%edx, %edx
	divw	%si
	movzwl	%ax, %eax
	cmpw	$1, %dx
	sbbq	$-1, %rax
	jmp	.LBB10_80
.LBB10_78:
	xorl	%eax, %eax
.LBB10_80:
	imulq	%rax, %rcx
	movq	856(%rsp), %r13
	shlq	$6, %r13
	imulq	%r13, %rcx
	cmpq	200(%rsp), %rcx
	seta	%al
	cmpq	$0, 184(%rsp)
	sete	%cl
	orb	%al, %cl
	movq	736(%rsp), %r12
	movq	168(%rsp), %r10
	movq	192(%rsp), %r14
	movq	(%rsp), %r11
	movq	272(%rsp), %rbx
	je	.LBB10_81
.LBB10_512:
	xorl	%eax, %eax
	movq	%r14, %r10
	jmp	.LBB10_513
.LBB10_81:
	xorl	%eax, %eax
	movzbl	296(%rsp), %ecx
	movb	%cl, %al
	shll	$12, %eax
	movq	728(%rsp), %r8
	leaq	(%r8,%rax), %rcx
	movq	%rcx, 784(%rsp)
	movq	%r10, %rcx
	xorq	$1, %rcx
	movq	%rbp, %rdx
	xorq	$1, %rdx
	orq	%rcx, %rdx
	sete	15(%rsp)
	movq	%r10, %rcx
	xorq	$3, %rcx
	movq	64(%rsp), %r14
	movq	%r14, %rdx
	xorq	%rbp, %rdx
	movq	160(%rsp), %r9
	movq	%r9, %rsi
	xorq	$1, %rsi
	orq	%rdx, %rsi
	movq	16(%rsp), %rdx
	xorq	$1, %rdx
	orq	%rsi, %rdx
	leaq	(,%rbp,8), %r15
	leaq	(,%rbp,2), %rsi
	leaq	(,%rbp,2), %rdi
	addq	%rbp, %rdi
	leaq	320(%rsp,%rdi), %rdi
	movq	%rdi, 40(%rsp)
	leaq	(%rbp,%rbp,4), %rdi
	leaq	320(%rsp,%rdi), %rdi
	movq	%rdi, 24(%rsp)
	leaq	(%rsi,%rsi,2), %rsi
	addq	%rsp, %rsi
	addq	$320, %rsi
	movq	%rsi, 88(%rsp)
	movq	%r15, %rsi
	subq	%rbp, %rsi
	addq	%rsp, %rsi
	addq	$320, %rsi
	movq	%rsi, 80(%rsp)
	leaq	7(%r11), %rsi
	shrq	$3, %rsi
	imulq	856(%rsp), %rsi
	movq	%rsi, 1528(%rsp)
	orq	%rcx, %rdx
	sete	14(%rsp)
	movq	%r8, %rsi
	leaq	(%r8,%rax), %rcx
	incq	%rcx
	movq	%rcx, 1272(%rsp)
	movl	%r14d, %r8d
	andl	$3, %r8d
	movq	%r14, %rcx
	andq	$-4, %rcx
	movq	%rcx, 792(%rsp)
	movq	1328(%rsp), %rcx
	movq	120(%rsp), %rdx
	addq	%rdx, %rcx
	addq	$192, %rcx
	movq	%rcx, 1480(%rsp)
	leaq	2(%rsi,%rax), %rdi
	addq	%rsi, %rax
	addq	$3, %rax
	movq	%rax, 1312(%rsp)
	movl	%r9d, %r15d
	andl	$3, %r15d
	movq	%r9, %rax
	andq	$-4, %rax
	movq	%rax, 848(%rsp)
	movq	16(%rsp), %rax
	andl	$3, %eax
	movq	16(%rsp), %rcx
	andq	$-4, %rcx
	movq	%rcx, 1264(%rsp)
	movq	144(%rsp), %rsi
	movl	%esi, %edx
	andl	$3, %edx
	movq	%rsi, %rcx
	andq	$-4, %rcx
	movq	%rcx, 1488(%rsp)
	leal	(,%rbp,8), %ecx
	movl	%ecx, 940(%rsp)
	leaq	(%r11,%r11,2), %rcx
	movq	%rcx, 1280(%rsp)
	leaq	(%r14,%r14), %rcx
	movq	%rcx, 296(%rsp)
	movq	16(%rsp), %rcx
	movq	%r8, 1520(%rsp)
	leal	(,%r8,8), %r8d
	movq	%r8, 120(%rsp)
	leaq	(,%rbx,8), %r8
	leaq	(%r9,%r9), %r9
	movq	%r9, 200(%rsp)
	movq	%r15, 1512(%rsp)
	leal	(,%r15,8), %r9d
	movq	%r9, 760(%rsp)
	leaq	(%rcx,%rcx), %r9
	movq	%r9, 744(%rsp)
	movq	%rax, 1504(%rsp)
	leal	(,%rax,8), %eax
	movq	%rax, 752(%rsp)
	leaq	(%rsi,%rsi), %rax
	movq	%rax, 832(%rsp)
	movq	%rdx, 1496(%rsp)
	leal	(,%rdx,8), %eax
	movq	%rax, 840(%rsp)
	movq	$0, 864(%rsp)
	movq	784(%rsp), %rax
	movq	%rax, 56(%rsp)
	movq	1272(%rsp), %rdx
	movq	%rdx, 1304(%rsp)
	movq	%rax, 280(%rsp)
	movq	%rdi, 720(%rsp)
	movq	%rdi, 1288(%rsp)
	xorl	%r9d, %r9d
	xorl	%r15d, %r15d
	movq	%r13, 288(%rsp)
	movq	%r8, 1296(%rsp)
	jmp	.LBB10_82
.LBB10_511:
	movq	864(%rsp), %rcx
	incq	%rcx
	xorl	%eax, %eax
	movq	1296(%rsp), %r8
	cmpq	%r8, %rcx
	cmoveq	%rax, %rcx
	movq	%rcx, 864(%rsp)
	movq	1552(%rsp), %r9
	incq	%r9
	cmpq	%r8, %r9
	cmoveq	%rax, %r9
	movq	728(%rsp), %r15
	incq	%r15
	movq	1320(%rsp), %rax
	addq	%rax, 1288(%rsp)
	addq	%rax, 280(%rsp)
	addq	%rax, 1304(%rsp)
	addq	%rax, 1312(%rsp)
	movq	1280(%rsp), %rax
	addq	%rax, 720(%rsp)
	addq	%rax, 56(%rsp)
	cmpq	184(%rsp), %r15
	movq	168(%rsp), %r10
	movq	192(%rsp), %r14
	movq	16(%rsp), %rcx
	movq	272(%rsp), %rbx
	je	.LBB10_512
.LBB10_82:
	cmpb	$0, 15(%rsp)
	movq	%r15, 728(%rsp)
	movq	%r9, 1552(%rsp)
	je	.LBB10_103
	testq	%r8, %r8
	je	.LBB10_505
	testq	%rbx, %rbx
	movq	64(%rsp), %rsi
	je	.LBB10_505
	testq	%r11, %r11
	je	.LBB10_511
	movq	728(%rsp), %r8
	movq	%r8, %rax
	movq	1296(%rsp), %rcx
	orq	%rcx, %rax
	shrq	$32, %rax
	je	.LBB10_87
	movq	%r8, %rax
	xorl	%edx, %edx
	divq	%rcx
	movq	%rax, %rcx
	movq	864(%rsp), %rdx
	jmp	.LBB10_89
.LBB10_103:
	movq	176(%rsp), %rax
	movq	%rax, 376(%rsp)
	movq	824(%rsp), %rax
	movq	%rax, 384(%rsp)
	movq	816(%rsp), %rax
	movq	%rax, 392(%rsp)
	movq	808(%rsp), %rax
	movq	%rax, 400(%rsp)
	movq	928(%rsp), %rax
	movq	%rax, 408(%rsp)
	movq	920(%rsp), %rax
	movq	%rax, 416(%rsp)
	movq	912(%rsp), %rax
	movq	%rax, 424(%rsp)
	movq	904(%rsp), %rax
	movq	%rax, 432(%rsp)
	movq	896(%rsp), %rax
	movq	%rax, 440(%rsp)
	movq	888(%rsp), %rax
	movq	%rax, 448(%rsp)
	movq	880(%rsp), %rax
	movq	%rax, 456(%rsp)
	movq	872(%rsp), %rax
	movq	%rax, 464(%rsp)
	movq	%r11, 320(%rsp)
	movq	184(%rsp), %rax
	movq	%rax, 328(%rsp)
	movq	%r10, 336(%rsp)
	movq	64(%rsp), %rax
	movq	%rax, 344(%rsp)
	movq	160(%rsp), %rax
	movq	%rax, 352(%rsp)
	movq	%rcx, 360(%rsp)
	movq	144(%rsp), %rax
	movq	%rax, 368(%rsp)
	movq	%rbp, 472(%rsp)
	movq	%rbx, 480(%rsp)
	movq	856(%rsp), %rdi
	movq	%rdi, 488(%rsp)
	testq	%r8, %r8
	je	.LBB10_505
	movq	%r15, %rax
	orq	%r8, %rax
	shrq	$32, %rax
	je	.LBB10_105
	movq	%r15, %rax
	xorl	%edx, %edx
	divq	%r8
	movq	%rax, %rcx
	movq	%r9, %rsi
	jmp	.LBB10_107
.LBB10_105:
	movl	%r15d, %eax
	xorl	%edx, %edx
	divl	%r8d
	movl	%edx, %esi
	movl	%eax, %ecx
.LBB10_107:
	leaq	-1(%rbp), %rax
	cmpq	$3, %rax
	ja	.LBB10_108
	movl	%r11d, %eax
	xorl	%edx, %edx
	divw	940(%rsp)
	movzwl	%ax, %eax
	cmpw	$1, %dx
	sbbq	$-1, %rax
	imulq	%rdi, %rax
	jmp	.LBB10_110
.LBB10_108:
	xorl	%eax, %eax
.LBB10_110:
	pxor	%xmm0, %xmm0
	movdqa	%xmm0, 1104(%rsp)
	movdqa	%xmm0, 1088(%rsp)
	testq	%rbx, %rbx
	je	.LBB10_505
	movq	1320(%rsp), %rdi
	imulq	%r15, %rdi
	movq	1272(%rsp), %rdx
	movq	%rdi, 304(%rsp)
	addq	%rdi, %rdx
	movq	%rdx, 1544(%rsp)
	imulq	%rax, %rcx
	xorl	%edi, %edi
	jmp	.LBB10_112
.LBB10_114:
	xorl	%edx, %edx
	divq	%rbx
.LBB10_115:
	movq	%rax, %rdx
	shrq	$3, %rdx
	imulq	%r9, %rdx
	addq	%rcx, %rdx
	shlq	$6, %rdx
	andl	$7, %eax
	leaq	(%rdx,%rax,8), %rax
	movq	%rax, 1088(%rsp,%rdi,8)
	imulq	%r9, %r8
	addq	%r8, %rcx
	incq	%rdi
	cmpq	%rdi, %r10
	je	.LBB10_116
.LBB10_112:
	movq	344(%rsp,%rdi,8), %r9
	movq	376(%rsp,%rdi,8), %r8
	movq	%r8, %rax
	imulq	%rsi, %rax
	movq	%rax, %rdx
	orq	%rbx, %rdx
	shrq	$32, %rdx
	jne	.LBB10_114
	xorl	%edx, %edx
	divl	%ebx
	jmp	.LBB10_115
.LBB10_116:
	movq	1088(%rsp), %rax
	movq	%rax, 72(%rsp)
	movq	1096(%rsp), %rax
	movq	%rax, 32(%rsp)
	movq	1104(%rsp), %rax
	movq	%rax, 48(%rsp)
	cmpb	$0, 14(%rsp)
	je	.LBB10_117
	testq	%r11, %r11
	movq	64(%rsp), %rcx
	je	.LBB10_511
	movq	1280(%rsp), %rax
	imulq	728(%rsp), %rax
	addq	784(%rsp), %rax
	movq	152(%rsp), %rdx
	addq	%rdx, 72(%rsp)
	addq	%rdx, 32(%rsp)
	addq	%rdx, 48(%rsp)
	cmpq	$1, %rcx
	je	.LBB10_135
	cmpq	$2, %rcx
	je	.LBB10_164
	cmpq	$3, %rcx
	jne	.LBB10_221
	xorl	%ecx, %ecx
	xorl	%edx, %edx
	jmp	.LBB10_131
.LBB10_117:
	testq	%r11, %r11
	movq	64(%rsp), %r10
	je	.LBB10_511
	movq	1112(%rsp), %rsi
	movq	304(%rsp), %rax
	addq	784(%rsp), %rax
	movq	%rax, 304(%rsp)
	movq	1480(%rsp), %rcx
	movq	72(%rsp), %rdx
	leaq	(%rcx,%rdx), %rax
	movq	%rax, 208(%rsp)
	movq	152(%rsp), %rax
	addq	%rax, %rdx
	movq	%rdx, 224(%rsp)
	movq	32(%rsp), %rdx
	leaq	(%rcx,%rdx), %rdi
	movq	%rdi, 240(%rsp)
	leaq	(%rax,%rdx), %rdx
	movq	%rdx, 256(%rsp)
	movq	48(%rsp), %rdx
	leaq	(%rcx,%rdx), %rbx
	leaq	(%rax,%rdx), %r9
	addq	%rsi, %rcx
	movq	%rcx, 688(%rsp)
	movq	%rsi, 1536(%rsp)
	addq	%rsi, %rax
	movq	%rax, 704(%rsp)
	xorl	%r15d, %r15d
	xorl	%r14d, %r14d
	jmp	.LBB10_119
.LBB10_87:
	movl	%r8d, %eax
	xorl	%edx, %edx
	divl	%ecx
	movl	%eax, %ecx
.LBB10_89:
	movq	176(%rsp), %rax
	movq	272(%rsp), %rdi
	imulq	%rax, %rdx
	movq	%rdx, %rax
	orq	%rdi, %rax
	shrq	$32, %rax
	je	.LBB10_90
	movq	%rdx, %rax
	xorl	%edx, %edx
	divq	%rdi
	jmp	.LBB10_92
.LBB10_90:
	movl	%edx, %eax
	xorl	%edx, %edx
	divl	%edi
.LBB10_92:
	movq	%rax, %rdx
	shrq	$3, %rdx
	imulq	%rsi, %rdx
	imulq	1528(%rsp), %rcx
	addq	%rdx, %rcx
	shlq	$6, %rcx
	andl	$7, %eax
	movq	%r8, %rdx
	imulq	%r11, %rdx
	addq	784(%rsp), %rdx
	addq	152(%rsp), %rcx
	leaq	(%rcx,%rax,8), %rax
	xorl	%ecx, %ecx
	xorl	%esi, %esi
	jmp	.LBB10_93
.LBB10_102:
	addq	%r13, %rcx
	addq	%rdi, %rsi
	cmpq	%r11, %rsi
	jae	.LBB10_511
.LBB10_93:
	movq	%r11, %r8
	subq	%rsi, %r8
	cmpq	$8, %r8
	movl	$8, %edi
	cmovbq	%r8, %rdi
	movq	%r11, %r8
	subq	%rsi, %r8
	je	.LBB10_102
	movzbl	(%rax,%rcx), %r9d
	movb	%r9b, (%rdx,%rsi)
	cmpq	$1, %r8
	je	.LBB10_102
	movzbl	1(%rax,%rcx), %r9d
	movb	%r9b, 1(%rdx,%rsi)
	cmpq	$2, %r8
	je	.LBB10_102
	movzbl	2(%rax,%rcx), %r9d
	movb	%r9b, 2(%rdx,%rsi)
	cmpq	$3, %r8
	je	.LBB10_102
	movzbl	3(%rax,%rcx), %r9d
	movb	%r9b, 3(%rdx,%rsi)
	cmpq	$4, %r8
	je	.LBB10_102
	movzbl	4(%rax,%rcx), %r9d
	movb	%r9b, 4(%rdx,%rsi)
	cmpq	$5, %r8
	je	.LBB10_102
	movzbl	5(%rax,%rcx), %r9d
	movb	%r9b, 5(%rdx,%rsi)
	cmpq	$6, %r8
	je	.LBB10_102
	movzbl	6(%rax,%rcx), %r9d
	movb	%r9b, 6(%rdx,%rsi)
	cmpq	$7, %r8
	je	.LBB10_102
	movzbl	7(%rax,%rcx), %r8d
	movb	%r8b, 7(%rdx,%rsi)
	jmp	.LBB10_102
.LBB10_134:
	xorl	%edi, %edi
.LBB10_219:
	addq	%rax, %r8
	movzbl	320(%rsp,%rdi), %r9d
	movzbl	1088(%rsp,%rdi), %r10d
	movzbl	944(%rsp,%rdi), %r11d
	leaq	(%rdi,%rdi,2), %rdi
	movb	%r9b, (%r8,%rdi)
	movb	%r10b, 1(%r8,%rdi)
	movb	%r11b, 2(%r8,%rdi)
.LBB10_220:
	addq	%r13, %rcx
	addq	%rsi, %rdx
	movq	(%rsp), %r11
	cmpq	%r11, %rdx
	jae	.LBB10_511
.LBB10_131:
	movq	%r11, %rsi
	subq	%rdx, %rsi
	leaq	(,%rbp,8), %rdi
	cmpq	%rsi, %rdi
	cmovbq	%rdi, %rsi
	movq	$0, 344(%rsp)
	leaq	1113(%rsp), %r9
	movl	$0, 3(%r9)
	movl	$0, (%r9)
	leaq	969(%rsp), %r10
	movl	$0, 3(%r10)
	movl	$0, (%r10)
	movq	72(%rsp), %rdi
	movq	64(%rdi,%rcx), %xmm0
	movq	(%rdi,%rcx), %xmm1
	punpcklqdq	%xmm0, %xmm1
	movdqa	%xmm1, 320(%rsp)
	movq	128(%rdi,%rcx), %rdi
	movq	%rdi, 336(%rsp)
	movq	32(%rsp), %r11
	movzbl	(%r11,%rcx), %edi
	movb	%dil, 1090(%rsp)
	movl	%edi, %r8d
	shll	$8, %r8d
	orl	%edi, %r8d
	movw	%r8w, 1088(%rsp)
	movzbl	1(%r11,%rcx), %edi
	movb	%dil, -20(%r9)
	movl	%edi, %r8d
	shll	$8, %r8d
	orl	%edi, %r8d
	movw	%r8w, -22(%r9)
	movzbl	2(%r11,%rcx), %edi
	movb	%dil, -17(%r9)
	movl	%edi, %r8d
	shll	$8, %r8d
	orl	%edi, %r8d
	movw	%r8w, -19(%r9)
	movzbl	3(%r11,%rcx), %edi
	movb	%dil, -14(%r9)
	movl	%edi, %r8d
	shll	$8, %r8d
	orl	%edi, %r8d
	movw	%r8w, -16(%r9)
	movzbl	4(%r11,%rcx), %edi
	movb	%dil, -11(%r9)
	movl	%edi, %r8d
	shll	$8, %r8d
	orl	%edi, %r8d
	movw	%r8w, -13(%r9)
	movzbl	5(%r11,%rcx), %edi
	movb	%dil, -8(%r9)
	movl	%edi, %r8d
	shll	$8, %r8d
	orl	%edi, %r8d
	movw	%r8w, -10(%r9)
	movzbl	6(%r11,%rcx), %edi
	movb	%dil, -5(%r9)
	movl	%edi, %r8d
	shll	$8, %r8d
	orl	%edi, %r8d
	movw	%r8w, -7(%r9)
	movzbl	7(%r11,%rcx), %edi
	imull	$16843009, %edi, %edi
	movl	%edi, -4(%r9)
	movq	48(%rsp), %r11
	movzbl	(%r11,%rcx), %edi
	movb	%dil, 946(%rsp)
	movl	%edi, %r8d
	shll	$8, %r8d
	orl	%edi, %r8d
	movw	%r8w, 944(%rsp)
	movzbl	1(%r11,%rcx), %edi
	movb	%dil, -20(%r10)
	movl	%edi, %r8d
	shll	$8, %r8d
	orl	%edi, %r8d
	movw	%r8w, -22(%r10)
	movzbl	2(%r11,%rcx), %edi
	movb	%dil, -17(%r10)
	movl	%edi, %r8d
	shll	$8, %r8d
	orl	%edi, %r8d
	movw	%r8w, -19(%r10)
	movzbl	3(%r11,%rcx), %edi
	leaq	953(%rsp), %r9
	movb	%dil, 2(%r9)
	movl	%edi, %r8d
	shll	$8, %r8d
	orl	%edi, %r8d
	movw	%r8w, (%r9)
	movzbl	4(%r11,%rcx), %edi
	movb	%dil, -11(%r10)
	movl	%edi, %r8d
	shll	$8, %r8d
	orl	%edi, %r8d
	movw	%r8w, -13(%r10)
	movzbl	5(%r11,%rcx), %edi
	movb	%dil, -8(%r10)
	movl	%edi, %r8d
	shll	$8, %r8d
	orl	%edi, %r8d
	movw	%r8w, -10(%r10)
	movzbl	6(%r11,%rcx), %edi
	movb	%dil, -5(%r10)
	movl	%edi, %r8d
	shll	$8, %r8d
	orl	%edi, %r8d
	movw	%r8w, -7(%r10)
	movzbl	7(%r11,%rcx), %edi
	imull	$16843009, %edi, %edi
	movl	%edi, -4(%r10)
	leaq	-1(%rsi), %rdi
	cmpq	$31, %rdi
	ja	.LBB10_220
	leaq	(%rdx,%rdx,2), %r8
	cmpq	$1, %r12
	jne	.LBB10_133
	cmpq	$4, %rsi
	jae	.LBB10_199
	xorl	%edi, %edi
	jmp	.LBB10_208
.LBB10_133:
	testq	%rdi, %rdi
	je	.LBB10_134
	movl	%esi, %r9d
	andl	$62, %r9d
	movq	720(%rsp), %rdi
	leaq	(%rdi,%r8), %r10
	xorl	%edi, %edi
.LBB10_217:
	movzbl	320(%rsp,%rdi), %r11d
	movzbl	1088(%rsp,%rdi), %ebx
	movzbl	944(%rsp,%rdi), %r14d
	movb	%r11b, -2(%r10)
	movb	%bl, -1(%r10)
	movb	%r14b, (%r10)
	movzbl	321(%rsp,%rdi), %r11d
	movzbl	1089(%rsp,%rdi), %ebx
	movzbl	945(%rsp,%rdi), %r14d
	movb	%r11b, 1(%r10)
	movb	%bl, 2(%r10)
	movb	%r14b, 3(%r10)
	addq	$2, %rdi
	addq	$6, %r10
	cmpq	%rdi, %r9
	jne	.LBB10_217
	testb	$1, %sil
	jne	.LBB10_219
	jmp	.LBB10_220
.LBB10_199:
	cmpq	$16, %rsi
	jae	.LBB10_201
	xorl	%edi, %edi
	jmp	.LBB10_205
.LBB10_201:
	movl	%esi, %edi
	andl	$48, %edi
	movq	56(%rsp), %r9
	addq	%r8, %r9
	xorl	%r10d, %r10d
.LBB10_202:
	movdqa	320(%rsp,%r10), %xmm7
	movdqu	1088(%rsp,%r10), %xmm2
	movdqu	944(%rsp,%r10), %xmm12
	pxor	%xmm0, %xmm0
	movdqa	%xmm12, %xmm9
	punpckhbw	%xmm0, %xmm9
	movdqa	%xmm9, %xmm5
	punpcklwd	%xmm0, %xmm5
	punpckhwd	%xmm0, %xmm9
	punpcklbw	%xmm0, %xmm12
	movdqa	%xmm12, %xmm10
	punpcklwd	%xmm0, %xmm10
	punpckhwd	%xmm0, %xmm12
	movdqa	%xmm7, %xmm3
	punpcklbw	%xmm0, %xmm3
	movdqa	%xmm3, %xmm1
	punpckhwd	%xmm0, %xmm1
	movdqa	%xmm1, %xmm8
	movdqa	%xmm1, 704(%rsp)
	punpcklwd	%xmm0, %xmm3
	movdqa	%xmm3, %xmm15
	movdqa	%xmm3, 768(%rsp)
	punpckhbw	%xmm0, %xmm7
	movdqa	%xmm7, %xmm1
	punpckhwd	%xmm0, %xmm1
	movdqa	%xmm1, 96(%rsp)
	punpcklwd	%xmm0, %xmm7
	movdqa	%xmm2, %xmm1
	punpckhbw	%xmm0, %xmm1
	movdqa	%xmm1, %xmm3
	punpcklwd	%xmm0, %xmm3
	punpckhwd	%xmm0, %xmm1
	punpcklbw	%xmm0, %xmm2
	movdqa	%xmm2, %xmm13
	punpcklwd	%xmm0, %xmm13
	punpckhwd	%xmm0, %xmm2
	pshuflw	$232, %xmm12, %xmm0
	pshufhw	$232, %xmm0, %xmm0
	pshufd	$232, %xmm0, %xmm0
	pshuflw	$232, %xmm2, %xmm4
	pshufhw	$232, %xmm4, %xmm4
	pshufd	$232, %xmm4, %xmm4
	punpcklwd	%xmm0, %xmm4
	movdqa	%xmm4, %xmm6
	pshuflw	$232, %xmm10, %xmm0
	pshufhw	$232, %xmm0, %xmm0
	pshufd	$232, %xmm0, %xmm0
	pshuflw	$232, %xmm13, %xmm4
	pshufhw	$232, %xmm4, %xmm4
	pshufd	$232, %xmm4, %xmm4
	punpcklwd	%xmm0, %xmm4
	movdqa	%xmm4, %xmm11
	pshuflw	$232, %xmm9, %xmm0
	pshufhw	$232, %xmm0, %xmm0
	pshufd	$232, %xmm0, %xmm0
	pshuflw	$232, %xmm1, %xmm4
	pshufhw	$232, %xmm4, %xmm4
	pshufd	$232, %xmm4, %xmm4
	punpcklwd	%xmm0, %xmm4
	movdqa	%xmm4, %xmm14
	pshuflw	$232, %xmm5, %xmm0
	pshufhw	$232, %xmm0, %xmm0
	pshufd	$232, %xmm0, %xmm0
	pshuflw	$232, %xmm3, %xmm4
	pshufhw	$232, %xmm4, %xmm4
	pshufd	$232, %xmm4, %xmm4
	punpcklwd	%xmm0, %xmm4
	movdqa	.LCPI10_2(%rip), %xmm0
	pmaddwd	%xmm0, %xmm6
	pmaddwd	%xmm0, %xmm11
	pmaddwd	%xmm0, %xmm14
	pmaddwd	%xmm0, %xmm4
	movdqa	.LCPI10_3(%rip), %xmm0
	paddd	%xmm0, %xmm4
	movdqa	%xmm4, 128(%rsp)
	paddd	%xmm0, %xmm14
	movdqa	%xmm14, 224(%rsp)
	paddd	%xmm0, %xmm11
	movdqa	%xmm11, 256(%rsp)
	paddd	%xmm0, %xmm6
	movdqa	%xmm6, 304(%rsp)
	movdqa	%xmm8, %xmm0
	psubd	%xmm12, %xmm0
	movdqa	%xmm0, 240(%rsp)
	movdqa	.LCPI10_0(%rip), %xmm0
	paddd	%xmm0, %xmm12
	movdqa	%xmm12, 688(%rsp)
	movdqa	%xmm15, %xmm4
	psubd	%xmm10, %xmm4
	movdqa	%xmm10, %xmm15
	paddd	%xmm0, %xmm15
	movdqa	96(%rsp), %xmm6
	psubd	%xmm9, %xmm6
	movdqa	%xmm6, 208(%rsp)
	movdqa	%xmm9, %xmm12
	paddd	%xmm0, %xmm12
	movdqa	%xmm7, %xmm8
	psubd	%xmm5, %xmm8
	movdqa	%xmm5, %xmm9
	paddd	%xmm0, %xmm9
	paddd	%xmm0, %xmm3
	paddd	%xmm0, %xmm1
	paddd	%xmm0, %xmm13
	paddd	%xmm0, %xmm2
	movdqa	%xmm3, %xmm6
	movdqa	.LCPI10_5(%rip), %xmm5
	pmaddwd	%xmm5, %xmm3
	movdqa	%xmm1, %xmm14
	pmaddwd	%xmm5, %xmm1
	movdqa	%xmm13, %xmm11
	pmaddwd	%xmm5, %xmm13
	movdqa	%xmm2, %xmm0
	pmaddwd	%xmm5, %xmm2
	movdqa	%xmm9, %xmm10
	paddd	%xmm7, %xmm9
	paddd	%xmm6, %xmm6
	paddd	%xmm7, %xmm6
	movdqa	.LCPI10_6(%rip), %xmm5
	paddd	%xmm5, %xmm3
	psrad	$16, %xmm3
	paddd	%xmm3, %xmm6
	movdqa	%xmm12, %xmm7
	movdqa	96(%rsp), %xmm3
	paddd	%xmm3, %xmm12
	paddd	%xmm14, %xmm14
	paddd	%xmm3, %xmm14
	paddd	%xmm5, %xmm1
	psrad	$16, %xmm1
	paddd	%xmm1, %xmm14
	packssdw	%xmm14, %xmm6
	movdqa	%xmm15, %xmm3
	movdqa	768(%rsp), %xmm1
	paddd	%xmm1, %xmm15
	paddd	%xmm11, %xmm11
	paddd	%xmm1, %xmm11
	paddd	%xmm5, %xmm13
	psrad	$16, %xmm13
	paddd	%xmm13, %xmm11
	movdqa	.LCPI10_1(%rip), %xmm1
	pmaddwd	%xmm1, %xmm10
	pmaddwd	%xmm1, %xmm7
	pmaddwd	%xmm1, %xmm3
	movdqa	688(%rsp), %xmm14
	pmaddwd	%xmm14, %xmm1
	movdqa	704(%rsp), %xmm13
	paddd	%xmm13, %xmm14
	paddd	%xmm0, %xmm0
	paddd	%xmm13, %xmm0
	paddd	%xmm5, %xmm2
	psrad	$16, %xmm2
	paddd	%xmm2, %xmm0
	packssdw	%xmm0, %xmm11
	paddd	%xmm5, %xmm1
	paddd	%xmm5, %xmm3
	paddd	%xmm5, %xmm7
	paddd	%xmm5, %xmm10
	psrad	$16, %xmm10
	paddd	%xmm9, %xmm10
	psrad	$16, %xmm7
	paddd	%xmm12, %xmm7
	packssdw	%xmm7, %xmm10
	psrad	$16, %xmm3
	paddd	%xmm15, %xmm3
	psrad	$16, %xmm1
	paddd	%xmm14, %xmm1
	packssdw	%xmm1, %xmm3
	movdqa	.LCPI10_4(%rip), %xmm0
	movdqa	304(%rsp), %xmm1
	psrad	$16, %xmm1
	movdqa	240(%rsp), %xmm2
	paddd	%xmm0, %xmm2
	paddd	%xmm1, %xmm2
	movdqa	256(%rsp), %xmm1
	psrad	$16, %xmm1
	paddd	%xmm0, %xmm4
	paddd	%xmm1, %xmm4
	packssdw	%xmm2, %xmm4
	movdqa	128(%rsp), %xmm2
	psrad	$16, %xmm2
	movdqa	224(%rsp), %xmm1
	psrad	$16, %xmm1
	movdqa	208(%rsp), %xmm5
	paddd	%xmm0, %xmm5
	paddd	%xmm1, %xmm5
	movdqa	%xmm11, %xmm1
	packuswb	%xmm6, %xmm1
	paddd	%xmm0, %xmm8
	paddd	%xmm2, %xmm8
	packssdw	%xmm5, %xmm8
	packuswb	%xmm8, %xmm4
	movdqa	%xmm3, %xmm2
	packuswb	%xmm10, %xmm2
	pshufd	$230, %xmm4, %xmm0
	punpcklbw	%xmm0, %xmm0
	pshufd	$78, %xmm0, %xmm0
	pshuflw	$233, %xmm0, %xmm0
	pshufhw	$148, %xmm0, %xmm5
	movdqa	.LCPI10_7(%rip), %xmm0
	pand	%xmm0, %xmm5
	pshuflw	$255, %xmm2, %xmm2
	pshufhw	$96, %xmm2, %xmm2
	movdqa	%xmm0, %xmm7
	pandn	%xmm2, %xmm7
	por	%xmm5, %xmm7
	movdqa	.LCPI10_8(%rip), %xmm2
	pshuflw	$246, %xmm1, %xmm1
	pshufhw	$0, %xmm1, %xmm5
	movdqa	%xmm2, %xmm1
	pandn	%xmm5, %xmm1
	pand	%xmm2, %xmm7
	por	%xmm7, %xmm1
	movdqa	%xmm4, %xmm5
	punpcklbw	%xmm4, %xmm5
	pshufd	$148, %xmm5, %xmm5
	pshuflw	$148, %xmm5, %xmm5
	packuswb	%xmm3, %xmm3
	pshuflw	$96, %xmm3, %xmm3
	pshufhw	$165, %xmm3, %xmm3
	pand	%xmm2, %xmm3
	pandn	%xmm5, %xmm2
	por	%xmm3, %xmm2
	packuswb	%xmm11, %xmm11
	pshuflw	$0, %xmm11, %xmm3
	pshufhw	$165, %xmm3, %xmm3
	movdqa	%xmm0, %xmm5
	pandn	%xmm3, %xmm5
	pand	%xmm0, %xmm2
	por	%xmm2, %xmm5
	punpckhbw	%xmm4, %xmm4
	pshufd	$233, %xmm4, %xmm2
	pshufhw	$233, %xmm2, %xmm2
	packuswb	%xmm10, %xmm10
	pshuflw	$165, %xmm10, %xmm3
	pshufhw	$255, %xmm3, %xmm3
	pand	%xmm0, %xmm3
	pandn	%xmm2, %xmm0
	por	%xmm3, %xmm0
	movdqa	.LCPI10_9(%rip), %xmm2
	pand	%xmm2, %xmm0
	packuswb	%xmm6, %xmm6
	pshuflw	$165, %xmm6, %xmm3
	pshufhw	$246, %xmm3, %xmm3
	pandn	%xmm3, %xmm2
	por	%xmm0, %xmm2
	movdqu	%xmm2, 32(%r9)
	movdqu	%xmm5, (%r9)
	movdqu	%xmm1, 16(%r9)
	addq	$16, %r10
	addq	$48, %r9
	cmpq	%r10, %rdi
	jne	.LBB10_202
	cmpq	%rdi, %rsi
	je	.LBB10_220
	testb	$12, %sil
	je	.LBB10_208
.LBB10_205:
	movq	%rdi, %r9
	movl	%esi, %edi
	andl	$60, %edi
	leaq	(%r9,%r9,2), %r10
	movq	56(%rsp), %r11
	addq	%r8, %r11
	addq	%r11, %r10
.LBB10_206:
	movd	320(%rsp,%r9), %xmm2
	movd	1088(%rsp,%r9), %xmm1
	movd	944(%rsp,%r9), %xmm5
	pxor	%xmm0, %xmm0
	punpcklbw	%xmm0, %xmm5
	punpcklwd	%xmm0, %xmm5
	movdqa	.LCPI10_0(%rip), %xmm4
	punpcklbw	%xmm0, %xmm2
	punpcklwd	%xmm0, %xmm2
	pshuflw	$232, %xmm5, %xmm6
	movdqa	%xmm2, %xmm7
	psubd	%xmm5, %xmm7
	paddd	%xmm4, %xmm5
	movdqa	.LCPI10_1(%rip), %xmm3
	pmaddwd	%xmm5, %xmm3
	punpcklbw	%xmm0, %xmm1
	punpcklwd	%xmm0, %xmm1
	pshufhw	$232, %xmm6, %xmm6
	pshufd	$232, %xmm6, %xmm8
	pshuflw	$232, %xmm1, %xmm6
	pshufhw	$232, %xmm6, %xmm6
	pshufd	$232, %xmm6, %xmm6
	punpcklwd	%xmm8, %xmm6
	pmaddwd	.LCPI10_2(%rip), %xmm6
	paddd	%xmm2, %xmm5
	paddd	.LCPI10_3(%rip), %xmm6
	psrad	$16, %xmm6
	paddd	%xmm7, %xmm6
	paddd	%xmm4, %xmm1
	movdqa	%xmm1, %xmm4
	paddd	%xmm4, %xmm4
	pmaddwd	.LCPI10_5(%rip), %xmm1
	movdqa	.LCPI10_6(%rip), %xmm7
	paddd	%xmm7, %xmm1
	psrad	$16, %xmm1
	paddd	%xmm2, %xmm4
	paddd	%xmm1, %xmm4
	packssdw	%xmm4, %xmm4
	packuswb	%xmm4, %xmm4
	paddd	%xmm7, %xmm3
	psrad	$16, %xmm3
	paddd	%xmm5, %xmm3
	paddd	.LCPI10_4(%rip), %xmm6
	packssdw	%xmm6, %xmm3
	packuswb	%xmm3, %xmm3
	punpcklbw	%xmm0, %xmm3
	pshufd	$231, %xmm3, %xmm0
	pshuflw	$220, %xmm0, %xmm0
	pshufhw	$198, %xmm3, %xmm1
	pshufd	$108, %xmm1, %xmm1
	pshuflw	$104, %xmm1, %xmm1
	pshufhw	$37, %xmm1, %xmm1
	packuswb	%xmm0, %xmm1
	movdqa	.LCPI10_10(%rip), %xmm0
	pand	%xmm0, %xmm1
	pshuflw	$80, %xmm4, %xmm2
	pshufd	$208, %xmm2, %xmm2
	pandn	%xmm2, %xmm0
	por	%xmm1, %xmm0
	movq	%xmm0, (%r10)
	pshufd	$238, %xmm0, %xmm0
	movd	%xmm0, 8(%r10)
	addq	$4, %r9
	addq	$12, %r10
	cmpq	%r9, %rdi
	jne	.LBB10_206
	cmpq	%rdi, %rsi
	je	.LBB10_220
.LBB10_208:
	leaq	(%rdi,%rdi,2), %r9
	addq	%r8, %r9
	addq	56(%rsp), %r9
	jmp	.LBB10_209
.LBB10_215:
	movb	%r8b, 2(%r9)
	incq	%rdi
	addq	$3, %r9
	cmpq	%rdi, %rsi
	je	.LBB10_220
.LBB10_209:
	movzbl	320(%rsp,%rdi), %r10d
	movzbl	944(%rsp,%rdi), %r11d
	leal	(%r11,%r10), %r8d
	imull	$26345, %r11d, %ebx
	addl	$-3339392, %ebx
	sarl	$16, %ebx
	leal	(%rbx,%r8), %r14d
	addl	$-128, %r14d
	xorl	%r8d, %r8d
	testl	%r14d, %r14d
	cmovlel	%r8d, %r14d
	cmpl	$255, %r14d
	jl	.LBB10_211
	movl	$255, %r14d
.LBB10_211:
	movzbl	1088(%rsp,%rdi), %ebx
	movb	%r14b, (%r9)
	imull	$18734, %r11d, %r14d
	imull	$-22554, %ebx, %r15d
	addl	%r15d, %r14d
	addl	$521728, %r14d
	sarl	$16, %r14d
	movl	%r10d, %r15d
	subl	%r11d, %r15d
	leal	(%r15,%r14), %r11d
	addl	$128, %r11d
	testl	%r11d, %r11d
	cmovlel	%r8d, %r11d
	cmpl	$255, %r11d
	jl	.LBB10_213
	movl	$255, %r11d
.LBB10_213:
	movb	%r11b, 1(%r9)
	leal	(%r10,%rbx,2), %r10d
	imull	$-14942, %ebx, %r11d
	addl	$1945344, %r11d
	sarl	$16, %r11d
	addl	%r11d, %r10d
	addl	$-256, %r10d
	testl	%r10d, %r10d
	cmovgl	%r10d, %r8d
	cmpl	$255, %r8d
	jl	.LBB10_215
	movl	$255, %r8d
	jmp	.LBB10_215
.LBB10_395:
	xorl	%eax, %eax
.LBB10_418:
	movzbl	320(%rsp,%rax), %ecx
	movzbl	352(%rsp,%rax), %edx
	movzbl	384(%rsp,%rax), %esi
	leaq	(%rax,%rax,2), %rax
	movq	128(%rsp), %rdi
	movb	%cl, (%rdi,%rax)
	movb	%dl, 1(%rdi,%rax)
	movb	%sil, 2(%rdi,%rax)
.LBB10_419:
	movq	96(%rsp), %r9
.LBB10_510:
	movq	288(%rsp), %rax
	addq	%rax, %r14
	addq	%r13, %r15
	movq	%rax, %r13
	addq	%rax, 208(%rsp)
	addq	%rax, 224(%rsp)
	addq	%rax, 240(%rsp)
	addq	%rax, 256(%rsp)
	addq	%rax, %rbx
	addq	%rax, %r9
	addq	%rax, 688(%rsp)
	addq	%rax, 704(%rsp)
	cmpq	%r11, %r15
	movq	736(%rsp), %r12
	jae	.LBB10_511
.LBB10_119:
	movq	%rbx, %rdi
	movq	%r11, %r13
	subq	%r15, %r13
	leaq	(,%rbp,8), %rax
	cmpq	%r13, %rax
	cmovbq	%rax, %r13
	movq	%r15, %rsi
	movq	168(%rsp), %rax
	imulq	%rax, %rsi
	movq	304(%rsp), %rcx
	addq	%rsi, %rcx
	movq	%rcx, 128(%rsp)
	movq	72(%rsp), %rcx
	leaq	(%r14,%rcx), %r8
	cmpq	$3, %rax
	je	.LBB10_330
	cmpq	$2, %rax
	movq	160(%rsp), %rbx
	movq	152(%rsp), %r12
	pxor	%xmm0, %xmm0
	je	.LBB10_270
	cmpq	$1, %rax
	jne	.LBB10_420
	movdqa	%xmm0, 336(%rsp)
	movdqa	%xmm0, 320(%rsp)
	cmpq	%rbp, %r10
	jne	.LBB10_255
	testq	%r10, %r10
	movq	%rdi, %rbx
	je	.LBB10_267
	cmpq	$3, 800(%rsp)
	jae	.LBB10_250
	xorl	%eax, %eax
	jmp	.LBB10_253
.LBB10_270:
	movdqa	%xmm0, 368(%rsp)
	movdqa	%xmm0, 352(%rsp)
	movdqa	%xmm0, 336(%rsp)
	movdqa	%xmm0, 320(%rsp)
	cmpq	%rbp, %r10
	movq	%r9, 96(%rsp)
	jne	.LBB10_279
	testq	%r10, %r10
	je	.LBB10_291
	cmpq	$3, 800(%rsp)
	jae	.LBB10_274
	xorl	%eax, %eax
	jmp	.LBB10_277
.LBB10_330:
	pxor	%xmm0, %xmm0
	movdqa	%xmm0, 400(%rsp)
	movdqa	%xmm0, 384(%rsp)
	movdqa	%xmm0, 368(%rsp)
	movdqa	%xmm0, 352(%rsp)
	movdqa	%xmm0, 336(%rsp)
	movdqa	%xmm0, 320(%rsp)
	cmpq	%rbp, %r10
	movq	160(%rsp), %rbx
	movq	152(%rsp), %r12
	movq	%r9, 96(%rsp)
	jne	.LBB10_339
	testq	%r10, %r10
	je	.LBB10_351
	cmpq	$3, 800(%rsp)
	jae	.LBB10_334
	xorl	%eax, %eax
	jmp	.LBB10_337
.LBB10_420:
	movdqa	%xmm0, 432(%rsp)
	movdqa	%xmm0, 416(%rsp)
	movdqa	%xmm0, 400(%rsp)
	movdqa	%xmm0, 384(%rsp)
	movdqa	%xmm0, 368(%rsp)
	movdqa	%xmm0, 352(%rsp)
	movdqa	%xmm0, 336(%rsp)
	movdqa	%xmm0, 320(%rsp)
	cmpq	%rbp, %r10
	movq	%r9, 96(%rsp)
	jne	.LBB10_429
	testq	%r10, %r10
	je	.LBB10_441
	cmpq	$3, 800(%rsp)
	jae	.LBB10_424
	xorl	%eax, %eax
	jmp	.LBB10_427
.LBB10_279:
	cmpq	$1, %r10
	jne	.LBB10_281
	movzbl	(%r12,%r8), %eax
	imull	$16843009, %eax, %eax
	movl	%eax, 320(%rsp)
	movzbl	1(%r12,%r8), %eax
	imull	$16843009, %eax, %eax
	leaq	(%rsp,%rbp), %rcx
	addq	$320, %rcx
	movl	%eax, (%rcx)
	movzbl	2(%r12,%r8), %eax
	imull	$16843009, %eax, %eax
	leaq	(%rsp,%rbp,2), %rcx
	addq	$320, %rcx
	movl	%eax, (%rcx)
	movzbl	3(%r12,%r8), %eax
	imull	$16843009, %eax, %eax
	movq	40(%rsp), %rcx
	movl	%eax, (%rcx)
	movzbl	4(%r12,%r8), %eax
	imull	$16843009, %eax, %eax
	leaq	(%rsp,%rbp,4), %rcx
	addq	$320, %rcx
	movl	%eax, (%rcx)
	movzbl	5(%r12,%r8), %eax
	imull	$16843009, %eax, %eax
	movq	24(%rsp), %rcx
	movl	%eax, (%rcx)
	movzbl	6(%r12,%r8), %eax
	imull	$16843009, %eax, %eax
	movq	88(%rsp), %rcx
	movl	%eax, (%rcx)
	movzbl	7(%r12,%r8), %eax
	imull	$16843009, %eax, %eax
	movq	80(%rsp), %rcx
	movl	%eax, (%rcx)
	jmp	.LBB10_291
.LBB10_339:
	cmpq	$1, %r10
	jne	.LBB10_341
	movzbl	(%r12,%r8), %eax
	imull	$16843009, %eax, %eax
	movl	%eax, 320(%rsp)
	movzbl	1(%r12,%r8), %eax
	imull	$16843009, %eax, %eax
	leaq	(%rsp,%rbp), %rcx
	addq	$320, %rcx
	movl	%eax, (%rcx)
	movzbl	2(%r12,%r8), %eax
	imull	$16843009, %eax, %eax
	leaq	(%rsp,%rbp,2), %rcx
	addq	$320, %rcx
	movl	%eax, (%rcx)
	movzbl	3(%r12,%r8), %eax
	imull	$16843009, %eax, %eax
	movq	40(%rsp), %rcx
	movl	%eax, (%rcx)
	movzbl	4(%r12,%r8), %eax
	imull	$16843009, %eax, %eax
	leaq	(%rsp,%rbp,4), %rcx
	addq	$320, %rcx
	movl	%eax, (%rcx)
	movzbl	5(%r12,%r8), %eax
	imull	$16843009, %eax, %eax
	movq	24(%rsp), %rcx
	movl	%eax, (%rcx)
	movzbl	6(%r12,%r8), %eax
	imull	$16843009, %eax, %eax
	movq	88(%rsp), %rcx
	movl	%eax, (%rcx)
	movzbl	7(%r12,%r8), %eax
	imull	$16843009, %eax, %eax
	movq	80(%rsp), %rcx
	movl	%eax, (%rcx)
	jmp	.LBB10_351
.LBB10_255:
	cmpq	$1, %r10
	movq	%rdi, %rbx
	jne	.LBB10_257
	movzbl	(%r12,%r8), %eax
	imull	$16843009, %eax, %eax
	movl	%eax, 320(%rsp)
	movzbl	1(%r12,%r8), %eax
	imull	$16843009, %eax, %eax
	leaq	(%rsp,%rbp), %rcx
	addq	$320, %rcx
	movl	%eax, (%rcx)
	movzbl	2(%r12,%r8), %eax
	imull	$16843009, %eax, %eax
	leaq	(%rsp,%rbp,2), %rcx
	addq	$320, %rcx
	movl	%eax, (%rcx)
	movzbl	3(%r12,%r8), %eax
	imull	$16843009, %eax, %eax
	movq	40(%rsp), %rcx
	movl	%eax, (%rcx)
	movzbl	4(%r12,%r8), %eax
	imull	$16843009, %eax, %eax
	leaq	(%rsp,%rbp,4), %rcx
	addq	$320, %rcx
	movl	%eax, (%rcx)
	movzbl	5(%r12,%r8), %eax
	imull	$16843009, %eax, %eax
	movq	24(%rsp), %rcx
	movl	%eax, (%rcx)
	movzbl	6(%r12,%r8), %eax
	imull	$16843009, %eax, %eax
	movq	88(%rsp), %rcx
	movl	%eax, (%rcx)
	movzbl	7(%r12,%r8), %eax
	imull	$16843009, %eax, %eax
	movq	80(%rsp), %rcx
	movl	%eax, (%rcx)
	jmp	.LBB10_267
.LBB10_429:
	cmpq	$1, %r10
	jne	.LBB10_431
	movzbl	(%r12,%r8), %eax
	imull	$16843009, %eax, %eax
	movl	%eax, 320(%rsp)
	movzbl	1(%r12,%r8), %eax
	imull	$16843009, %eax, %eax
	leaq	(%rsp,%rbp), %rcx
	addq	$320, %rcx
	movl	%eax, (%rcx)
	movzbl	2(%r12,%r8), %eax
	imull	$16843009, %eax, %eax
	leaq	(%rsp,%rbp,2), %rcx
	addq	$320, %rcx
	movl	%eax, (%rcx)
	movzbl	3(%r12,%r8), %eax
	imull	$16843009, %eax, %eax
	movq	40(%rsp), %rcx
	movl	%eax, (%rcx)
	movzbl	4(%r12,%r8), %eax
	imull	$16843009, %eax, %eax
	leaq	(%rsp,%rbp,4), %rcx
	addq	$320, %rcx
	movl	%eax, (%rcx)
	movzbl	5(%r12,%r8), %eax
	imull	$16843009, %eax, %eax
	movq	24(%rsp), %rcx
	movl	%eax, (%rcx)
	movzbl	6(%r12,%r8), %eax
	imull	$16843009, %eax, %eax
	movq	88(%rsp), %rcx
	movl	%eax, (%rcx)
	movzbl	7(%r12,%r8), %eax
	imull	$16843009, %eax, %eax
	movq	80(%rsp), %rcx
	movl	%eax, (%rcx)
	jmp	.LBB10_441
.LBB10_281:
	leaq	(,%rbp,8), %rax
	testq	%rax, %rax
	je	.LBB10_291
	testq	%rbp, %rbp
	je	.LBB10_505
	addq	%r12, %r8
	xorl	%ecx, %ecx
	xorl	%r9d, %r9d
	jmp	.LBB10_284
.LBB10_289:
	xorl	%edx, %edx
	divq	%rbp
.LBB10_290:
	movq	%rax, %rdx
	andq	$-8, %rdx
	andl	$7, %eax
	leaq	(%r8,%rdx,8), %rdx
	movzbl	(%rax,%rdx), %eax
	movb	%al, 321(%rsp,%r9)
	addq	$2, %r9
	addq	296(%rsp), %rcx
	leaq	(,%rbp,8), %rax
	cmpq	%r9, %rax
	je	.LBB10_291
.LBB10_284:
	movq	%rcx, %rax
	orq	%rbp, %rax
	shrq	$32, %rax
	je	.LBB10_285
	movq	%rcx, %rax
	xorl	%edx, %edx
	divq	%rbp
	jmp	.LBB10_287
.LBB10_285:
	movl	%ecx, %eax
	xorl	%edx, %edx
	divl	%ebp
.LBB10_287:
	movq	%rax, %rdx
	andq	$-8, %rdx
	andl	$7, %eax
	leaq	(%r8,%rdx,8), %rdx
	movzbl	(%rax,%rdx), %eax
	movb	%al, 320(%rsp,%r9)
	leaq	(%r10,%rcx), %rax
	movq	%rax, %rdx
	orq	%rbp, %rdx
	shrq	$32, %rdx
	jne	.LBB10_289
	xorl	%edx, %edx
	divl	%ebp
	jmp	.LBB10_290
.LBB10_341:
	leaq	(,%rbp,8), %rax
	testq	%rax, %rax
	je	.LBB10_351
	testq	%rbp, %rbp
	je	.LBB10_505
	addq	%r12, %r8
	xorl	%ecx, %ecx
	xorl	%r9d, %r9d
	jmp	.LBB10_344
.LBB10_349:
	xorl	%edx, %edx
	divq	%rbp
.LBB10_350:
	movq	%rax, %rdx
	andq	$-8, %rdx
	andl	$7, %eax
	leaq	(%r8,%rdx,8), %rdx
	movzbl	(%rax,%rdx), %eax
	movb	%al, 321(%rsp,%r9)
	addq	$2, %r9
	addq	296(%rsp), %rcx
	leaq	(,%rbp,8), %rax
	cmpq	%r9, %rax
	je	.LBB10_351
.LBB10_344:
	movq	%rcx, %rax
	orq	%rbp, %rax
	shrq	$32, %rax
	je	.LBB10_345
	movq	%rcx, %rax
	xorl	%edx, %edx
	divq	%rbp
	jmp	.LBB10_347
.LBB10_345:
	movl	%ecx, %eax
	xorl	%edx, %edx
	divl	%ebp
.LBB10_347:
	movq	%rax, %rdx
	andq	$-8, %rdx
	andl	$7, %eax
	leaq	(%r8,%rdx,8), %rdx
	movzbl	(%rax,%rdx), %eax
	movb	%al, 320(%rsp,%r9)
	leaq	(%r10,%rcx), %rax
	movq	%rax, %rdx
	orq	%rbp, %rdx
	shrq	$32, %rdx
	jne	.LBB10_349
	xorl	%edx, %edx
	divl	%ebp
	jmp	.LBB10_350
.LBB10_257:
	leaq	(,%rbp,8), %rax
	testq	%rax, %rax
	je	.LBB10_267
	testq	%rbp, %rbp
	je	.LBB10_505
	addq	%r12, %r8
	xorl	%ecx, %ecx
	xorl	%esi, %esi
	jmp	.LBB10_260
.LBB10_265:
	xorl	%edx, %edx
	divq	%rbp
.LBB10_266:
	movq	%rax, %rdx
	andq	$-8, %rdx
	andl	$7, %eax
	leaq	(%r8,%rdx,8), %rdx
	movzbl	(%rax,%rdx), %eax
	movb	%al, 321(%rsp,%rsi)
	addq	$2, %rsi
	addq	296(%rsp), %rcx
	leaq	(,%rbp,8), %rax
	cmpq	%rsi, %rax
	je	.LBB10_267
.LBB10_260:
	movq	%rcx, %rax
	orq	%rbp, %rax
	shrq	$32, %rax
	je	.LBB10_261
	movq	%rcx, %rax
	xorl	%edx, %edx
	divq	%rbp
	jmp	.LBB10_263
.LBB10_261:
	movl	%ecx, %eax
	xorl	%edx, %edx
	divl	%ebp
.LBB10_263:
	movq	%rax, %rdx
	andq	$-8, %rdx
	andl	$7, %eax
	leaq	(%r8,%rdx,8), %rdx
	movzbl	(%rax,%rdx), %eax
	movb	%al, 320(%rsp,%rsi)
	leaq	(%r10,%rcx), %rax
	movq	%rax, %rdx
	orq	%rbp, %rdx
	shrq	$32, %rdx
	jne	.LBB10_265
	xorl	%edx, %edx
	divl	%ebp
	jmp	.LBB10_266
.LBB10_431:
	leaq	(,%rbp,8), %rax
	testq	%rax, %rax
	je	.LBB10_441
	testq	%rbp, %rbp
	je	.LBB10_505
	addq	%r12, %r8
	xorl	%ecx, %ecx
	xorl	%r9d, %r9d
	jmp	.LBB10_434
.LBB10_439:
	xorl	%edx, %edx
	divq	%rbp
.LBB10_440:
	movq	%rax, %rdx
	andq	$-8, %rdx
	andl	$7, %eax
	leaq	(%r8,%rdx,8), %rdx
	movzbl	(%rax,%rdx), %eax
	movb	%al, 321(%rsp,%r9)
	addq	$2, %r9
	addq	296(%rsp), %rcx
	leaq	(,%rbp,8), %rax
	cmpq	%r9, %rax
	je	.LBB10_441
.LBB10_434:
	movq	%rcx, %rax
	orq	%rbp, %rax
	shrq	$32, %rax
	je	.LBB10_435
	movq	%rcx, %rax
	xorl	%edx, %edx
	divq	%rbp
	jmp	.LBB10_437
.LBB10_435:
	movl	%ecx, %eax
	xorl	%edx, %edx
	divl	%ebp
.LBB10_437:
	movq	%rax, %rdx
	andq	$-8, %rdx
	andl	$7, %eax
	leaq	(%r8,%rdx,8), %rdx
	movzbl	(%rax,%rdx), %eax
	movb	%al, 320(%rsp,%r9)
	leaq	(%r10,%rcx), %rax
	movq	%rax, %rdx
	orq	%rbp, %rdx
	shrq	$32, %rdx
	jne	.LBB10_439
	xorl	%edx, %edx
	divl	%ebp
	jmp	.LBB10_440
.LBB10_274:
	xorl	%eax, %eax
	movq	208(%rsp), %rcx
	movq	792(%rsp), %r8
.LBB10_275:
	movq	-192(%rcx), %rdx
	movq	%rdx, 320(%rsp,%rax,8)
	movq	-128(%rcx), %rdx
	movq	%rdx, 328(%rsp,%rax,8)
	movq	-64(%rcx), %rdx
	movq	%rdx, 336(%rsp,%rax,8)
	movq	(%rcx), %rdx
	movq	%rdx, 344(%rsp,%rax,8)
	addq	$4, %rax
	addq	$256, %rcx
	cmpq	%rax, %r8
	jne	.LBB10_275
	testb	$3, %r10b
	je	.LBB10_291
.LBB10_277:
	leaq	(%rsp,%rax,8), %rcx
	addq	$320, %rcx
	shlq	$6, %rax
	addq	224(%rsp), %rax
	xorl	%edx, %edx
.LBB10_278:
	movq	(%rax,%rdx,8), %r8
	movq	%r8, (%rcx,%rdx)
	addq	$8, %rdx
	cmpq	%rdx, 120(%rsp)
	jne	.LBB10_278
.LBB10_291:
	cmpq	%rbp, %rbx
	jne	.LBB10_299
	testq	%rbx, %rbx
	je	.LBB10_311
	xorl	%eax, %eax
	cmpq	$4, %rbx
	jb	.LBB10_297
	movq	240(%rsp), %rcx
	movq	848(%rsp), %r8
.LBB10_295:
	movq	-192(%rcx), %rdx
	movq	%rdx, 352(%rsp,%rax,8)
	movq	-128(%rcx), %rdx
	movq	%rdx, 360(%rsp,%rax,8)
	movq	-64(%rcx), %rdx
	movq	%rdx, 368(%rsp,%rax,8)
	movq	(%rcx), %rdx
	movq	%rdx, 376(%rsp,%rax,8)
	addq	$4, %rax
	addq	$256, %rcx
	cmpq	%rax, %r8
	jne	.LBB10_295
	testb	$3, %bl
	je	.LBB10_311
.LBB10_297:
	leaq	352(%rsp), %rcx
	leaq	(%rcx,%rax,8), %rcx
	shlq	$6, %rax
	addq	256(%rsp), %rax
	xorl	%edx, %edx
.LBB10_298:
	movq	(%rax,%rdx,8), %r8
	movq	%r8, (%rcx,%rdx)
	addq	$8, %rdx
	cmpq	%rdx, 760(%rsp)
	jne	.LBB10_298
	jmp	.LBB10_311
.LBB10_299:
	movq	32(%rsp), %rax
	leaq	(%r14,%rax), %r8
	cmpq	$1, %rbx
	jne	.LBB10_301
	movzbl	(%r12,%r8), %eax
	imull	$16843009, %eax, %eax
	leaq	352(%rsp), %rcx
	movl	%eax, (%rcx)
	movzbl	1(%r12,%r8), %eax
	imull	$16843009, %eax, %eax
	leaq	(%rsp,%rbp), %rcx
	addq	$320, %rcx
	movl	%eax, 32(%rcx)
	movzbl	2(%r12,%r8), %eax
	imull	$16843009, %eax, %eax
	leaq	(%rsp,%rbp,2), %rcx
	addq	$320, %rcx
	movl	%eax, 32(%rcx)
	movzbl	3(%r12,%r8), %eax
	imull	$16843009, %eax, %eax
	movq	40(%rsp), %rcx
	movl	%eax, 32(%rcx)
	movzbl	4(%r12,%r8), %eax
	imull	$16843009, %eax, %eax
	leaq	(%rsp,%rbp,4), %rcx
	addq	$320, %rcx
	movl	%eax, 32(%rcx)
	movzbl	5(%r12,%r8), %eax
	imull	$16843009, %eax, %eax
	movq	24(%rsp), %rcx
	movl	%eax, 32(%rcx)
	movzbl	6(%r12,%r8), %eax
	imull	$16843009, %eax, %eax
	movq	88(%rsp), %rcx
	movl	%eax, 32(%rcx)
	movzbl	7(%r12,%r8), %eax
	imull	$16843009, %eax, %eax
	movq	80(%rsp), %rcx
	movl	%eax, 32(%rcx)
	jmp	.LBB10_311
.LBB10_301:
	leaq	(,%rbp,8), %rax
	testq	%rax, %rax
	je	.LBB10_311
	testq	%rbp, %rbp
	je	.LBB10_505
	addq	%r12, %r8
	xorl	%ecx, %ecx
	xorl	%r9d, %r9d
	jmp	.LBB10_304
.LBB10_309:
	xorl	%edx, %edx
	divq	%rbp
.LBB10_310:
	movq	%rax, %rdx
	andq	$-8, %rdx
	andl	$7, %eax
	leaq	(%r8,%rdx,8), %rdx
	movzbl	(%rax,%rdx), %eax
	movb	%al, 353(%rsp,%r9)
	addq	$2, %r9
	addq	200(%rsp), %rcx
	leaq	(,%rbp,8), %rax
	cmpq	%r9, %rax
	je	.LBB10_311
.LBB10_304:
	movq	%rcx, %rax
	orq	%rbp, %rax
	shrq	$32, %rax
	je	.LBB10_305
	movq	%rcx, %rax
	xorl	%edx, %edx
	divq	%rbp
	jmp	.LBB10_307
.LBB10_305:
	movl	%ecx, %eax
	xorl	%edx, %edx
	divl	%ebp
.LBB10_307:
	movq	%rax, %rdx
	andq	$-8, %rdx
	andl	$7, %eax
	leaq	(%r8,%rdx,8), %rdx
	movzbl	(%rax,%rdx), %eax
	movb	%al, 352(%rsp,%r9)
	leaq	(%rbx,%rcx), %rax
	movq	%rax, %rdx
	orq	%rbp, %rdx
	shrq	$32, %rdx
	jne	.LBB10_309
	xorl	%edx, %edx
	divl	%ebp
	jmp	.LBB10_310
.LBB10_311:
	testq	%r13, %r13
	movq	%rdi, %rbx
	movq	96(%rsp), %r9
	je	.LBB10_510
	cmpq	$4, %r13
	jae	.LBB10_314
	xorl	%eax, %eax
.LBB10_325:
	movq	%rax, %rcx
	orq	$1, %rcx
	testb	$1, %r13b
	je	.LBB10_327
	movzbl	320(%rsp,%rax), %edx
	movq	128(%rsp), %rdi
	movb	%dl, (%rdi,%rax,2)
	movzbl	352(%rsp,%rax), %edx
	movb	%dl, 1(%rdi,%rax,2)
	movq	%rcx, %rax
.LBB10_327:
	cmpq	%rcx, %r13
	je	.LBB10_510
	addq	1304(%rsp), %rsi
.LBB10_329:
	movzbl	320(%rsp,%rax), %ecx
	movb	%cl, -1(%rsi,%rax,2)
	movzbl	352(%rsp,%rax), %ecx
	movb	%cl, (%rsi,%rax,2)
	movzbl	321(%rsp,%rax), %ecx
	movb	%cl, 1(%rsi,%rax,2)
	movzbl	353(%rsp,%rax), %ecx
	movb	%cl, 2(%rsi,%rax,2)
	addq	$2, %rax
	cmpq	%rax, %r13
	jne	.LBB10_329
	jmp	.LBB10_510
.LBB10_314:
	movq	128(%rsp), %rdx
	leaq	(%rdx,%r13,2), %rcx
	addq	$-2, %rcx
	xorl	%eax, %eax
	cmpq	%rdx, %rcx
	jb	.LBB10_325
	movq	1544(%rsp), %rcx
	addq	%rsi, %rcx
	leaq	(%rcx,%r13,2), %rdx
	addq	$-2, %rdx
	cmpq	%rcx, %rdx
	jb	.LBB10_325
	cmpq	$16, %r13
	jae	.LBB10_318
	xorl	%eax, %eax
	jmp	.LBB10_322
.LBB10_334:
	xorl	%eax, %eax
	movq	208(%rsp), %rcx
	movq	792(%rsp), %r8
.LBB10_335:
	movq	-192(%rcx), %rdx
	movq	%rdx, 320(%rsp,%rax,8)
	movq	-128(%rcx), %rdx
	movq	%rdx, 328(%rsp,%rax,8)
	movq	-64(%rcx), %rdx
	movq	%rdx, 336(%rsp,%rax,8)
	movq	(%rcx), %rdx
	movq	%rdx, 344(%rsp,%rax,8)
	addq	$4, %rax
	addq	$256, %rcx
	cmpq	%rax, %r8
	jne	.LBB10_335
	cmpq	$0, 1520(%rsp)
	je	.LBB10_351
.LBB10_337:
	leaq	(%rsp,%rax,8), %rcx
	addq	$320, %rcx
	shlq	$6, %rax
	addq	224(%rsp), %rax
	xorl	%edx, %edx
.LBB10_338:
	movq	(%rax,%rdx,8), %r8
	movq	%r8, (%rcx,%rdx)
	addq	$8, %rdx
	cmpq	%rdx, 120(%rsp)
	jne	.LBB10_338
.LBB10_351:
	cmpq	%rbp, %rbx
	jne	.LBB10_359
	testq	%rbx, %rbx
	je	.LBB10_371
	xorl	%eax, %eax
	cmpq	$4, %rbx
	jb	.LBB10_357
	movq	240(%rsp), %rcx
	movq	848(%rsp), %r8
.LBB10_355:
	movq	-192(%rcx), %rdx
	movq	%rdx, 352(%rsp,%rax,8)
	movq	-128(%rcx), %rdx
	movq	%rdx, 360(%rsp,%rax,8)
	movq	-64(%rcx), %rdx
	movq	%rdx, 368(%rsp,%rax,8)
	movq	(%rcx), %rdx
	movq	%rdx, 376(%rsp,%rax,8)
	addq	$4, %rax
	addq	$256, %rcx
	cmpq	%rax, %r8
	jne	.LBB10_355
	cmpq	$0, 1512(%rsp)
	je	.LBB10_371
.LBB10_357:
	leaq	352(%rsp), %rcx
	leaq	(%rcx,%rax,8), %rcx
	shlq	$6, %rax
	addq	256(%rsp), %rax
	xorl	%edx, %edx
.LBB10_358:
	movq	(%rax,%rdx,8), %r8
	movq	%r8, (%rcx,%rdx)
	addq	$8, %rdx
	cmpq	%rdx, 760(%rsp)
	jne	.LBB10_358
	jmp	.LBB10_371
.LBB10_359:
	movq	32(%rsp), %rax
	leaq	(%r14,%rax), %r8
	cmpq	$1, %rbx
	jne	.LBB10_361
	movzbl	(%r12,%r8), %eax
	imull	$16843009, %eax, %eax
	leaq	352(%rsp), %rcx
	movl	%eax, (%rcx)
	movzbl	1(%r12,%r8), %eax
	imull	$16843009, %eax, %eax
	leaq	(%rsp,%rbp), %rcx
	addq	$320, %rcx
	movl	%eax, 32(%rcx)
	movzbl	2(%r12,%r8), %eax
	imull	$16843009, %eax, %eax
	leaq	(%rsp,%rbp,2), %rcx
	addq	$320, %rcx
	movl	%eax, 32(%rcx)
	movzbl	3(%r12,%r8), %eax
	imull	$16843009, %eax, %eax
	movq	40(%rsp), %rcx
	movl	%eax, 32(%rcx)
	movzbl	4(%r12,%r8), %eax
	imull	$16843009, %eax, %eax
	leaq	(%rsp,%rbp,4), %rcx
	addq	$320, %rcx
	movl	%eax, 32(%rcx)
	movzbl	5(%r12,%r8), %eax
	imull	$16843009, %eax, %eax
	movq	24(%rsp), %rcx
	movl	%eax, 32(%rcx)
	movzbl	6(%r12,%r8), %eax
	imull	$16843009, %eax, %eax
	movq	88(%rsp), %rcx
	movl	%eax, 32(%rcx)
	movzbl	7(%r12,%r8), %eax
	imull	$16843009, %eax, %eax
	movq	80(%rsp), %rcx
	movl	%eax, 32(%rcx)
	jmp	.LBB10_371
.LBB10_361:
	leaq	(,%rbp,8), %rax
	testq	%rax, %rax
	je	.LBB10_371
	testq	%rbp, %rbp
	je	.LBB10_505
	addq	%r12, %r8
	xorl	%ecx, %ecx
	xorl	%r9d, %r9d
	jmp	.LBB10_364
.LBB10_369:
	xorl	%edx, %edx
	divq	%rbp
.LBB10_370:
	movq	%rax, %rdx
	andq	$-8, %rdx
	andl	$7, %eax
	leaq	(%r8,%rdx,8), %rdx
	movzbl	(%rax,%rdx), %eax
	movb	%al, 353(%rsp,%r9)
	addq	$2, %r9
	addq	200(%rsp), %rcx
	leaq	(,%rbp,8), %rax
	cmpq	%r9, %rax
	je	.LBB10_371
.LBB10_364:
	movq	%rcx, %rax
	orq	%rbp, %rax
	shrq	$32, %rax
	je	.LBB10_365
	movq	%rcx, %rax
	xorl	%edx, %edx
	divq	%rbp
	jmp	.LBB10_367
.LBB10_365:
	movl	%ecx, %eax
	xorl	%edx, %edx
	divl	%ebp
.LBB10_367:
	movq	%rax, %rdx
	andq	$-8, %rdx
	andl	$7, %eax
	leaq	(%r8,%rdx,8), %rdx
	movzbl	(%rax,%rdx), %eax
	movb	%al, 352(%rsp,%r9)
	leaq	(%rbx,%rcx), %rax
	movq	%rax, %rdx
	orq	%rbp, %rdx
	shrq	$32, %rdx
	jne	.LBB10_369
	xorl	%edx, %edx
	divl	%ebp
	jmp	.LBB10_370
.LBB10_371:
	movq	16(%rsp), %rax
	cmpq	%rbp, %rax
	jne	.LBB10_380
	testq	%rax, %rax
	movq	%rdi, %rbx
	je	.LBB10_392
	cmpq	$4, 16(%rsp)
	jae	.LBB10_375
	xorl	%eax, %eax
	jmp	.LBB10_378
.LBB10_380:
	movq	48(%rsp), %rcx
	leaq	(%r14,%rcx), %r8
	cmpq	$1, %rax
	movq	%rdi, %rbx
	jne	.LBB10_382
	movzbl	(%r12,%r8), %eax
	imull	$16843009, %eax, %eax
	leaq	384(%rsp), %rcx
	movl	%eax, (%rcx)
	movzbl	1(%r12,%r8), %eax
	imull	$16843009, %eax, %eax
	leaq	(%rsp,%rbp), %rcx
	addq	$320, %rcx
	movl	%eax, 64(%rcx)
	movzbl	2(%r12,%r8), %eax
	imull	$16843009, %eax, %eax
	leaq	(%rsp,%rbp,2), %rcx
	addq	$320, %rcx
	movl	%eax, 64(%rcx)
	movzbl	3(%r12,%r8), %eax
	imull	$16843009, %eax, %eax
	movq	40(%rsp), %rcx
	movl	%eax, 64(%rcx)
	movzbl	4(%r12,%r8), %eax
	imull	$16843009, %eax, %eax
	leaq	(%rsp,%rbp,4), %rcx
	addq	$320, %rcx
	movl	%eax, 64(%rcx)
	movzbl	5(%r12,%r8), %eax
	imull	$16843009, %eax, %eax
	movq	24(%rsp), %rcx
	movl	%eax, 64(%rcx)
	movzbl	6(%r12,%r8), %eax
	imull	$16843009, %eax, %eax
	movq	88(%rsp), %rcx
	movl	%eax, 64(%rcx)
	movzbl	7(%r12,%r8), %eax
	imull	$16843009, %eax, %eax
	movq	80(%rsp), %rcx
	movl	%eax, 64(%rcx)
	jmp	.LBB10_392
.LBB10_382:
	leaq	(,%rbp,8), %rax
	testq	%rax, %rax
	je	.LBB10_392
	testq	%rbp, %rbp
	je	.LBB10_505
	addq	%r12, %r8
	xorl	%ecx, %ecx
	xorl	%r9d, %r9d
	jmp	.LBB10_385
.LBB10_390:
	xorl	%edx, %edx
	divq	%rbp
.LBB10_391:
	movq	%rax, %rdx
	andq	$-8, %rdx
	andl	$7, %eax
	leaq	(%r8,%rdx,8), %rdx
	movzbl	(%rax,%rdx), %eax
	movb	%al, 385(%rsp,%r9)
	addq	$2, %r9
	addq	744(%rsp), %rcx
	leaq	(,%rbp,8), %rax
	cmpq	%r9, %rax
	je	.LBB10_392
.LBB10_385:
	movq	%rcx, %rax
	orq	%rbp, %rax
	shrq	$32, %rax
	je	.LBB10_386
	movq	%rcx, %rax
	xorl	%edx, %edx
	divq	%rbp
	jmp	.LBB10_388
.LBB10_386:
	movl	%ecx, %eax
	xorl	%edx, %edx
	divl	%ebp
.LBB10_388:
	movq	%rax, %rdx
	andq	$-8, %rdx
	andl	$7, %eax
	leaq	(%r8,%rdx,8), %rdx
	movzbl	(%rax,%rdx), %eax
	movb	%al, 384(%rsp,%r9)
	movq	16(%rsp), %rax
	addq	%rcx, %rax
	movq	%rax, %rdx
	orq	%rbp, %rdx
	shrq	$32, %rdx
	jne	.LBB10_390
	xorl	%edx, %edx
	divl	%ebp
	jmp	.LBB10_391
.LBB10_250:
	xorl	%eax, %eax
	movq	208(%rsp), %rcx
	movq	792(%rsp), %rsi
.LBB10_251:
	movq	-192(%rcx), %rdx
	movq	%rdx, 320(%rsp,%rax,8)
	movq	-128(%rcx), %rdx
	movq	%rdx, 328(%rsp,%rax,8)
	movq	-64(%rcx), %rdx
	movq	%rdx, 336(%rsp,%rax,8)
	movq	(%rcx), %rdx
	movq	%rdx, 344(%rsp,%rax,8)
	addq	$4, %rax
	addq	$256, %rcx
	cmpq	%rax, %rsi
	jne	.LBB10_251
	testb	$3, %r10b
	je	.LBB10_267
.LBB10_253:
	leaq	(%rsp,%rax,8), %rcx
	addq	$320, %rcx
	shlq	$6, %rax
	addq	224(%rsp), %rax
	xorl	%edx, %edx
.LBB10_254:
	movq	(%rax,%rdx,8), %rsi
	movq	%rsi, (%rcx,%rdx)
	addq	$8, %rdx
	cmpq	%rdx, 120(%rsp)
	jne	.LBB10_254
.LBB10_267:
	testq	%r13, %r13
	je	.LBB10_269
	leaq	320(%rsp), %rsi
	movq	128(%rsp), %rdi
	movq	%r13, %rdx
	movq	%r9, %r12
	callq	memcpy@PLT
	movq	%r12, %r9
	movq	64(%rsp), %r10
.LBB10_269:
	movq	(%rsp), %r11
	jmp	.LBB10_510
.LBB10_424:
	xorl	%eax, %eax
	movq	208(%rsp), %rcx
	movq	792(%rsp), %r8
.LBB10_425:
	movq	-192(%rcx), %rdx
	movq	%rdx, 320(%rsp,%rax,8)
	movq	-128(%rcx), %rdx
	movq	%rdx, 328(%rsp,%rax,8)
	movq	-64(%rcx), %rdx
	movq	%rdx, 336(%rsp,%rax,8)
	movq	(%rcx), %rdx
	movq	%rdx, 344(%rsp,%rax,8)
	addq	$4, %rax
	addq	$256, %rcx
	cmpq	%rax, %r8
	jne	.LBB10_425
	testb	$3, %r10b
	je	.LBB10_441
.LBB10_427:
	leaq	(%rsp,%rax,8), %rcx
	addq	$320, %rcx
	shlq	$6, %rax
	addq	224(%rsp), %rax
	xorl	%edx, %edx
.LBB10_428:
	movq	(%rax,%rdx,8), %r8
	movq	%r8, (%rcx,%rdx)
	addq	$8, %rdx
	cmpq	%rdx, 120(%rsp)
	jne	.LBB10_428
.LBB10_441:
	cmpq	%rbp, %rbx
	jne	.LBB10_449
	testq	%rbx, %rbx
	je	.LBB10_461
	xorl	%eax, %eax
	cmpq	$4, %rbx
	jb	.LBB10_447
	movq	240(%rsp), %rcx
	movq	848(%rsp), %r8
.LBB10_445:
	movq	-192(%rcx), %rdx
	movq	%rdx, 352(%rsp,%rax,8)
	movq	-128(%rcx), %rdx
	movq	%rdx, 360(%rsp,%rax,8)
	movq	-64(%rcx), %rdx
	movq	%rdx, 368(%rsp,%rax,8)
	movq	(%rcx), %rdx
	movq	%rdx, 376(%rsp,%rax,8)
	addq	$4, %rax
	addq	$256, %rcx
	cmpq	%rax, %r8
	jne	.LBB10_445
	testb	$3, %bl
	je	.LBB10_461
.LBB10_447:
	leaq	352(%rsp), %rcx
	leaq	(%rcx,%rax,8), %rcx
	shlq	$6, %rax
	addq	256(%rsp), %rax
	xorl	%edx, %edx
.LBB10_448:
	movq	(%rax,%rdx,8), %r8
	movq	%r8, (%rcx,%rdx)
	addq	$8, %rdx
	cmpq	%rdx, 760(%rsp)
	jne	.LBB10_448
	jmp	.LBB10_461
.LBB10_449:
	movq	32(%rsp), %rax
	leaq	(%r14,%rax), %r8
	cmpq	$1, %rbx
	jne	.LBB10_451
	movzbl	(%r12,%r8), %eax
	imull	$16843009, %eax, %eax
	leaq	352(%rsp), %rcx
	movl	%eax, (%rcx)
	movzbl	1(%r12,%r8), %eax
	imull	$16843009, %eax, %eax
	leaq	(%rsp,%rbp), %rcx
	addq	$320, %rcx
	movl	%eax, 32(%rcx)
	movzbl	2(%r12,%r8), %eax
	imull	$16843009, %eax, %eax
	leaq	(%rsp,%rbp,2), %rcx
	addq	$320, %rcx
	movl	%eax, 32(%rcx)
	movzbl	3(%r12,%r8), %eax
	imull	$16843009, %eax, %eax
	movq	40(%rsp), %rcx
	movl	%eax, 32(%rcx)
	movzbl	4(%r12,%r8), %eax
	imull	$16843009, %eax, %eax
	leaq	(%rsp,%rbp,4), %rcx
	addq	$320, %rcx
	movl	%eax, 32(%rcx)
	movzbl	5(%r12,%r8), %eax
	imull	$16843009, %eax, %eax
	movq	24(%rsp), %rcx
	movl	%eax, 32(%rcx)
	movzbl	6(%r12,%r8), %eax
	imull	$16843009, %eax, %eax
	movq	88(%rsp), %rcx
	movl	%eax, 32(%rcx)
	movzbl	7(%r12,%r8), %eax
	imull	$16843009, %eax, %eax
	movq	80(%rsp), %rcx
	movl	%eax, 32(%rcx)
	jmp	.LBB10_461
.LBB10_451:
	leaq	(,%rbp,8), %rax
	testq	%rax, %rax
	je	.LBB10_461
	testq	%rbp, %rbp
	je	.LBB10_505
	addq	%r12, %r8
	xorl	%ecx, %ecx
	xorl	%r9d, %r9d
	jmp	.LBB10_454
.LBB10_459:
	xorl	%edx, %edx
	divq	%rbp
.LBB10_460:
	movq	%rax, %rdx
	andq	$-8, %rdx
	andl	$7, %eax
	leaq	(%r8,%rdx,8), %rdx
	movzbl	(%rax,%rdx), %eax
	movb	%al, 353(%rsp,%r9)
	addq	$2, %r9
	addq	200(%rsp), %rcx
	leaq	(,%rbp,8), %rax
	cmpq	%r9, %rax
	je	.LBB10_461
.LBB10_454:
	movq	%rcx, %rax
	orq	%rbp, %rax
	shrq	$32, %rax
	je	.LBB10_455
	movq	%rcx, %rax
	xorl	%edx, %edx
	divq	%rbp
	jmp	.LBB10_457
.LBB10_455:
	movl	%ecx, %eax
	xorl	%edx, %edx
	divl	%ebp
.LBB10_457:
	movq	%rax, %rdx
	andq	$-8, %rdx
	andl	$7, %eax
	leaq	(%r8,%rdx,8), %rdx
	movzbl	(%rax,%rdx), %eax
	movb	%al, 352(%rsp,%r9)
	leaq	(%rbx,%rcx), %rax
	movq	%rax, %rdx
	orq	%rbp, %rdx
	shrq	$32, %rdx
	jne	.LBB10_459
	xorl	%edx, %edx
	divl	%ebp
	jmp	.LBB10_460
.LBB10_461:
	movq	16(%rsp), %rax
	cmpq	%rbp, %rax
	jne	.LBB10_469
	testq	%rax, %rax
	movq	%rdi, %rbx
	je	.LBB10_481
	movq	16(%rsp), %r8
	xorl	%eax, %eax
	cmpq	$4, %r8
	jb	.LBB10_467
	movq	%rbx, %rcx
	movq	1264(%rsp), %r9
.LBB10_465:
	movq	-192(%rcx), %rdx
	movq	%rdx, 384(%rsp,%rax,8)
	movq	-128(%rcx), %rdx
	movq	%rdx, 392(%rsp,%rax,8)
	movq	-64(%rcx), %rdx
	movq	%rdx, 400(%rsp,%rax,8)
	movq	(%rcx), %rdx
	movq	%rdx, 408(%rsp,%rax,8)
	addq	$4, %rax
	addq	$256, %rcx
	cmpq	%rax, %r9
	jne	.LBB10_465
	testb	$3, %r8b
	je	.LBB10_481
.LBB10_467:
	leaq	384(%rsp), %rcx
	leaq	(%rcx,%rax,8), %rcx
	shlq	$6, %rax
	addq	96(%rsp), %rax
	xorl	%edx, %edx
.LBB10_468:
	movq	(%rax,%rdx,8), %r8
	movq	%r8, (%rcx,%rdx)
	addq	$8, %rdx
	cmpq	%rdx, 752(%rsp)
	jne	.LBB10_468
	jmp	.LBB10_481
.LBB10_469:
	movq	48(%rsp), %rcx
	leaq	(%r14,%rcx), %r8
	cmpq	$1, %rax
	movq	%rdi, %rbx
	jne	.LBB10_471
	movzbl	(%r12,%r8), %eax
	imull	$16843009, %eax, %eax
	leaq	384(%rsp), %rcx
	movl	%eax, (%rcx)
	movzbl	1(%r12,%r8), %eax
	imull	$16843009, %eax, %eax
	leaq	(%rsp,%rbp), %rcx
	addq	$320, %rcx
	movl	%eax, 64(%rcx)
	movzbl	2(%r12,%r8), %eax
	imull	$16843009, %eax, %eax
	leaq	(%rsp,%rbp,2), %rcx
	addq	$320, %rcx
	movl	%eax, 64(%rcx)
	movzbl	3(%r12,%r8), %eax
	imull	$16843009, %eax, %eax
	movq	40(%rsp), %rcx
	movl	%eax, 64(%rcx)
	movzbl	4(%r12,%r8), %eax
	imull	$16843009, %eax, %eax
	leaq	(%rsp,%rbp,4), %rcx
	addq	$320, %rcx
	movl	%eax, 64(%rcx)
	movzbl	5(%r12,%r8), %eax
	imull	$16843009, %eax, %eax
	movq	24(%rsp), %rcx
	movl	%eax, 64(%rcx)
	movzbl	6(%r12,%r8), %eax
	imull	$16843009, %eax, %eax
	movq	88(%rsp), %rcx
	movl	%eax, 64(%rcx)
	movzbl	7(%r12,%r8), %eax
	imull	$16843009, %eax, %eax
	movq	80(%rsp), %rcx
	movl	%eax, 64(%rcx)
	jmp	.LBB10_481
.LBB10_471:
	leaq	(,%rbp,8), %rax
	testq	%rax, %rax
	je	.LBB10_481
	testq	%rbp, %rbp
	je	.LBB10_505
	addq	%r12, %r8
	xorl	%ecx, %ecx
	xorl	%r9d, %r9d
	jmp	.LBB10_474
.LBB10_479:
	xorl	%edx, %edx
	divq	%rbp
.LBB10_480:
	movq	%rax, %rdx
	andq	$-8, %rdx
	andl	$7, %eax
	leaq	(%r8,%rdx,8), %rdx
	movzbl	(%rax,%rdx), %eax
	movb	%al, 385(%rsp,%r9)
	addq	$2, %r9
	addq	744(%rsp), %rcx
	leaq	(,%rbp,8), %rax
	cmpq	%r9, %rax
	je	.LBB10_481
.LBB10_474:
	movq	%rcx, %rax
	orq	%rbp, %rax
	shrq	$32, %rax
	je	.LBB10_475
	movq	%rcx, %rax
	xorl	%edx, %edx
	divq	%rbp
	jmp	.LBB10_477
.LBB10_475:
	movl	%ecx, %eax
	xorl	%edx, %edx
	divl	%ebp
.LBB10_477:
	movq	%rax, %rdx
	andq	$-8, %rdx
	andl	$7, %eax
	leaq	(%r8,%rdx,8), %rdx
	movzbl	(%rax,%rdx), %eax
	movb	%al, 384(%rsp,%r9)
	movq	16(%rsp), %rax
	addq	%rcx, %rax
	movq	%rax, %rdx
	orq	%rbp, %rdx
	shrq	$32, %rdx
	jne	.LBB10_479
	xorl	%edx, %edx
	divl	%ebp
	jmp	.LBB10_480
.LBB10_481:
	movq	144(%rsp), %rax
	cmpq	%rbp, %rax
	jne	.LBB10_490
	testq	%rax, %rax
	je	.LBB10_502
	cmpq	$4, 144(%rsp)
	jae	.LBB10_485
	xorl	%eax, %eax
	jmp	.LBB10_488
.LBB10_490:
	movq	1536(%rsp), %rcx
	leaq	(%r14,%rcx), %r8
	cmpq	$1, %rax
	jne	.LBB10_492
	movzbl	(%r12,%r8), %eax
	imull	$16843009, %eax, %eax
	leaq	416(%rsp), %rcx
	movl	%eax, (%rcx)
	movzbl	1(%r12,%r8), %eax
	imull	$16843009, %eax, %eax
	leaq	(%rsp,%rbp), %rcx
	addq	$320, %rcx
	movl	%eax, 96(%rcx)
	movzbl	2(%r12,%r8), %eax
	imull	$16843009, %eax, %eax
	leaq	(%rsp,%rbp,2), %rcx
	addq	$320, %rcx
	movl	%eax, 96(%rcx)
	movzbl	3(%r12,%r8), %eax
	imull	$16843009, %eax, %eax
	movq	40(%rsp), %rcx
	movl	%eax, 96(%rcx)
	movzbl	4(%r12,%r8), %eax
	imull	$16843009, %eax, %eax
	leaq	(%rsp,%rbp,4), %rcx
	addq	$320, %rcx
	movl	%eax, 96(%rcx)
	movzbl	5(%r12,%r8), %eax
	imull	$16843009, %eax, %eax
	movq	24(%rsp), %rcx
	movl	%eax, 96(%rcx)
	movzbl	6(%r12,%r8), %eax
	imull	$16843009, %eax, %eax
	movq	88(%rsp), %rcx
	movl	%eax, 96(%rcx)
	movzbl	7(%r12,%r8), %eax
	imull	$16843009, %eax, %eax
	movq	80(%rsp), %rcx
	movl	%eax, 96(%rcx)
	jmp	.LBB10_502
.LBB10_492:
	leaq	(,%rbp,8), %rax
	testq	%rax, %rax
	je	.LBB10_502
	testq	%rbp, %rbp
	je	.LBB10_505
	addq	%r12, %r8
	xorl	%ecx, %ecx
	xorl	%r9d, %r9d
	jmp	.LBB10_495
.LBB10_500:
	xorl	%edx, %edx
	divq	%rbp
.LBB10_501:
	movq	%rax, %rdx
	andq	$-8, %rdx
	andl	$7, %eax
	leaq	(%r8,%rdx,8), %rdx
	movzbl	(%rax,%rdx), %eax
	movb	%al, 417(%rsp,%r9)
	addq	$2, %r9
	addq	832(%rsp), %rcx
	leaq	(,%rbp,8), %rax
	cmpq	%r9, %rax
	je	.LBB10_502
.LBB10_495:
	movq	%rcx, %rax
	orq	%rbp, %rax
	shrq	$32, %rax
	je	.LBB10_496
	movq	%rcx, %rax
	xorl	%edx, %edx
	divq	%rbp
	jmp	.LBB10_498
.LBB10_496:
	movl	%ecx, %eax
	xorl	%edx, %edx
	divl	%ebp
.LBB10_498:
	movq	%rax, %rdx
	andq	$-8, %rdx
	andl	$7, %eax
	leaq	(%r8,%rdx,8), %rdx
	movzbl	(%rax,%rdx), %eax
	movb	%al, 416(%rsp,%r9)
	movq	144(%rsp), %rax
	addq	%rcx, %rax
	movq	%rax, %rdx
	orq	%rbp, %rdx
	shrq	$32, %rdx
	jne	.LBB10_500
	xorl	%edx, %edx
	divl	%ebp
	jmp	.LBB10_501
.LBB10_375:
	xorl	%eax, %eax
	movq	%rbx, %rcx
	movq	1264(%rsp), %r8
.LBB10_376:
	movq	-192(%rcx), %rdx
	movq	%rdx, 384(%rsp,%rax,8)
	movq	-128(%rcx), %rdx
	movq	%rdx, 392(%rsp,%rax,8)
	movq	-64(%rcx), %rdx
	movq	%rdx, 400(%rsp,%rax,8)
	movq	(%rcx), %rdx
	movq	%rdx, 408(%rsp,%rax,8)
	addq	$4, %rax
	addq	$256, %rcx
	cmpq	%rax, %r8
	jne	.LBB10_376
	cmpq	$0, 1504(%rsp)
	je	.LBB10_392
.LBB10_378:
	leaq	384(%rsp), %rcx
	leaq	(%rcx,%rax,8), %rcx
	shlq	$6, %rax
	addq	96(%rsp), %rax
	xorl	%edx, %edx
.LBB10_379:
	movq	(%rax,%rdx,8), %r8
	movq	%r8, (%rcx,%rdx)
	addq	$8, %rdx
	cmpq	%rdx, 752(%rsp)
	jne	.LBB10_379
.LBB10_392:
	leaq	-1(%r13), %rax
	cmpq	$31, %rax
	ja	.LBB10_419
	cmpq	$1, 736(%rsp)
	jne	.LBB10_394
	cmpq	$4, %r13
	jae	.LBB10_398
	xorl	%eax, %eax
	jmp	.LBB10_407
.LBB10_394:
	testq	%rax, %rax
	je	.LBB10_395
	movl	%r13d, %ecx
	andl	$62, %ecx
	addq	1288(%rsp), %rsi
	xorl	%eax, %eax
.LBB10_416:
	movzbl	320(%rsp,%rax), %edx
	movzbl	352(%rsp,%rax), %r8d
	movzbl	384(%rsp,%rax), %r9d
	movb	%dl, -2(%rsi)
	movb	%r8b, -1(%rsi)
	movb	%r9b, (%rsi)
	movzbl	321(%rsp,%rax), %edx
	movzbl	353(%rsp,%rax), %r8d
	movzbl	385(%rsp,%rax), %r9d
	movb	%dl, 1(%rsi)
	movb	%r8b, 2(%rsi)
	movb	%r9b, 3(%rsi)
	addq	$2, %rax
	addq	$6, %rsi
	cmpq	%rax, %rcx
	jne	.LBB10_416
	testb	$1, %r13b
	jne	.LBB10_418
	jmp	.LBB10_419
.LBB10_485:
	xorl	%eax, %eax
	movq	688(%rsp), %rcx
	movq	1488(%rsp), %r8
.LBB10_486:
	movq	-192(%rcx), %rdx
	movq	%rdx, 416(%rsp,%rax,8)
	movq	-128(%rcx), %rdx
	movq	%rdx, 424(%rsp,%rax,8)
	movq	-64(%rcx), %rdx
	movq	%rdx, 432(%rsp,%rax,8)
	movq	(%rcx), %rdx
	movq	%rdx, 440(%rsp,%rax,8)
	addq	$4, %rax
	addq	$256, %rcx
	cmpq	%rax, %r8
	jne	.LBB10_486
	cmpq	$0, 1496(%rsp)
	je	.LBB10_502
.LBB10_488:
	leaq	416(%rsp), %rcx
	leaq	(%rcx,%rax,8), %rcx
	shlq	$6, %rax
	addq	704(%rsp), %rax
	xorl	%edx, %edx
.LBB10_489:
	movq	(%rax,%rdx,8), %r8
	movq	%r8, (%rcx,%rdx)
	addq	$8, %rdx
	cmpq	%rdx, 840(%rsp)
	jne	.LBB10_489
.LBB10_502:
	testq	%r13, %r13
	movq	96(%rsp), %r9
	je	.LBB10_510
	cmpq	$1, %r13
	jne	.LBB10_506
	xorl	%eax, %eax
	jmp	.LBB10_509
.LBB10_506:
	movl	%r13d, %ecx
	andl	$65534, %ecx
	addq	1312(%rsp), %rsi
	xorl	%eax, %eax
.LBB10_507:
	movzbl	320(%rsp,%rax), %edx
	movb	%dl, -3(%rsi,%rax,4)
	movzbl	352(%rsp,%rax), %edx
	movb	%dl, -2(%rsi,%rax,4)
	movzbl	384(%rsp,%rax), %edx
	movb	%dl, -1(%rsi,%rax,4)
	movzbl	416(%rsp,%rax), %edx
	movb	%dl, (%rsi,%rax,4)
	movzbl	321(%rsp,%rax), %edx
	movb	%dl, 1(%rsi,%rax,4)
	movzbl	353(%rsp,%rax), %edx
	movb	%dl, 2(%rsi,%rax,4)
	movzbl	385(%rsp,%rax), %edx
	movb	%dl, 3(%rsi,%rax,4)
	movzbl	417(%rsp,%rax), %edx
	movb	%dl, 4(%rsi,%rax,4)
	addq	$2, %rax
	cmpq	%rax, %rcx
	jne	.LBB10_507
	testb	$1, %r13b
	je	.LBB10_510
.LBB10_509:
	movzbl	320(%rsp,%rax), %ecx
	movq	128(%rsp), %rdx
	movb	%cl, (%rdx,%rax,4)
	movzbl	352(%rsp,%rax), %ecx
	movb	%cl, 1(%rdx,%rax,4)
	movzbl	384(%rsp,%rax), %ecx
	movb	%cl, 2(%rdx,%rax,4)
	movzbl	416(%rsp,%rax), %ecx
	movb	%cl, 3(%rdx,%rax,4)
	jmp	.LBB10_510
.LBB10_398:
	cmpq	$16, %r13
	jae	.LBB10_400
	xorl	%eax, %eax
	jmp	.LBB10_404
.LBB10_318:
	movl	%r13d, %eax
	andl	$65520, %eax
	movq	280(%rsp), %rcx
	addq	%rsi, %rcx
	xorl	%edx, %edx
.LBB10_319:
	movq	320(%rsp,%rdx), %xmm0
	movq	328(%rsp,%rdx), %xmm1
	movq	352(%rsp,%rdx), %xmm2
	punpcklbw	%xmm2, %xmm0
	movq	360(%rsp,%rdx), %xmm2
	punpcklbw	%xmm2, %xmm1
	movdqu	%xmm0, (%rcx,%rdx,2)
	movdqu	%xmm1, 16(%rcx,%rdx,2)
	addq	$16, %rdx
	cmpq	%rdx, %rax
	jne	.LBB10_319
	cmpq	%rax, %r13
	je	.LBB10_510
	testb	$12, %r13b
	je	.LBB10_325
.LBB10_322:
	movq	%rax, %rcx
	movl	%r13d, %eax
	andl	$65532, %eax
	movq	280(%rsp), %rdx
	addq	%rsi, %rdx
.LBB10_323:
	movd	320(%rsp,%rcx), %xmm0
	movd	352(%rsp,%rcx), %xmm1
	punpcklbw	%xmm1, %xmm0
	movq	%xmm0, (%rdx,%rcx,2)
	addq	$4, %rcx
	cmpq	%rcx, %rax
	jne	.LBB10_323
	cmpq	%rax, %r13
	je	.LBB10_510
	jmp	.LBB10_325
.LBB10_400:
	movl	%r13d, %eax
	andl	$48, %eax
	movq	280(%rsp), %rcx
	addq	%rsi, %rcx
	xorl	%edx, %edx
.LBB10_401:
	movdqu	320(%rsp,%rdx), %xmm7
	movdqu	352(%rsp,%rdx), %xmm2
	movdqu	384(%rsp,%rdx), %xmm12
	pxor	%xmm0, %xmm0
	movdqa	%xmm12, %xmm9
	punpckhbw	%xmm0, %xmm9
	movdqa	%xmm9, %xmm5
	punpcklwd	%xmm0, %xmm5
	punpckhwd	%xmm0, %xmm9
	punpcklbw	%xmm0, %xmm12
	movdqa	%xmm12, %xmm10
	punpcklwd	%xmm0, %xmm10
	punpckhwd	%xmm0, %xmm12
	movdqa	%xmm7, %xmm3
	punpcklbw	%xmm0, %xmm3
	movdqa	%xmm3, %xmm1
	punpckhwd	%xmm0, %xmm1
	movdqa	%xmm1, %xmm8
	movdqa	%xmm1, 1360(%rsp)
	punpcklwd	%xmm0, %xmm3
	movdqa	%xmm3, %xmm15
	movdqa	%xmm3, 1328(%rsp)
	punpckhbw	%xmm0, %xmm7
	movdqa	%xmm7, %xmm1
	punpckhwd	%xmm0, %xmm1
	movdqa	%xmm1, 128(%rsp)
	punpcklwd	%xmm0, %xmm7
	movdqa	%xmm2, %xmm1
	punpckhbw	%xmm0, %xmm1
	movdqa	%xmm1, %xmm3
	punpcklwd	%xmm0, %xmm3
	punpckhwd	%xmm0, %xmm1
	punpcklbw	%xmm0, %xmm2
	movdqa	%xmm2, %xmm13
	punpcklwd	%xmm0, %xmm13
	punpckhwd	%xmm0, %xmm2
	pshuflw	$232, %xmm12, %xmm0
	pshufhw	$232, %xmm0, %xmm0
	pshufd	$232, %xmm0, %xmm0
	pshuflw	$232, %xmm2, %xmm4
	pshufhw	$232, %xmm4, %xmm4
	pshufd	$232, %xmm4, %xmm4
	punpcklwd	%xmm0, %xmm4
	movdqa	%xmm4, %xmm6
	pshuflw	$232, %xmm10, %xmm0
	pshufhw	$232, %xmm0, %xmm0
	pshufd	$232, %xmm0, %xmm0
	pshuflw	$232, %xmm13, %xmm4
	pshufhw	$232, %xmm4, %xmm4
	pshufd	$232, %xmm4, %xmm4
	punpcklwd	%xmm0, %xmm4
	movdqa	%xmm4, %xmm11
	pshuflw	$232, %xmm9, %xmm0
	pshufhw	$232, %xmm0, %xmm0
	pshufd	$232, %xmm0, %xmm0
	pshuflw	$232, %xmm1, %xmm4
	pshufhw	$232, %xmm4, %xmm4
	pshufd	$232, %xmm4, %xmm4
	punpcklwd	%xmm0, %xmm4
	movdqa	%xmm4, %xmm14
	pshuflw	$232, %xmm5, %xmm0
	pshufhw	$232, %xmm0, %xmm0
	pshufd	$232, %xmm0, %xmm0
	pshuflw	$232, %xmm3, %xmm4
	pshufhw	$232, %xmm4, %xmm4
	pshufd	$232, %xmm4, %xmm4
	punpcklwd	%xmm0, %xmm4
	movdqa	.LCPI10_2(%rip), %xmm0
	pmaddwd	%xmm0, %xmm6
	pmaddwd	%xmm0, %xmm11
	pmaddwd	%xmm0, %xmm14
	pmaddwd	%xmm0, %xmm4
	movdqa	.LCPI10_3(%rip), %xmm0
	paddd	%xmm0, %xmm4
	movdqa	%xmm4, 768(%rsp)
	paddd	%xmm0, %xmm14
	movdqa	%xmm14, 1456(%rsp)
	paddd	%xmm0, %xmm11
	movdqa	%xmm11, 1440(%rsp)
	paddd	%xmm0, %xmm6
	movdqa	%xmm6, 1408(%rsp)
	movdqa	%xmm8, %xmm0
	psubd	%xmm12, %xmm0
	movdqa	%xmm0, 1248(%rsp)
	movdqa	.LCPI10_0(%rip), %xmm0
	paddd	%xmm0, %xmm12
	movdqa	%xmm12, 1344(%rsp)
	movdqa	%xmm15, %xmm4
	psubd	%xmm10, %xmm4
	movdqa	%xmm10, %xmm15
	paddd	%xmm0, %xmm15
	movdqa	128(%rsp), %xmm6
	psubd	%xmm9, %xmm6
	movdqa	%xmm6, 1424(%rsp)
	movdqa	%xmm9, %xmm12
	paddd	%xmm0, %xmm12
	movdqa	%xmm7, %xmm8
	psubd	%xmm5, %xmm8
	movdqa	%xmm5, %xmm9
	paddd	%xmm0, %xmm9
	paddd	%xmm0, %xmm3
	paddd	%xmm0, %xmm1
	paddd	%xmm0, %xmm13
	paddd	%xmm0, %xmm2
	movdqa	%xmm3, %xmm6
	movdqa	.LCPI10_5(%rip), %xmm5
	pmaddwd	%xmm5, %xmm3
	movdqa	%xmm1, %xmm14
	pmaddwd	%xmm5, %xmm1
	movdqa	%xmm13, %xmm11
	pmaddwd	%xmm5, %xmm13
	movdqa	%xmm2, %xmm0
	pmaddwd	%xmm5, %xmm2
	movdqa	%xmm9, %xmm10
	paddd	%xmm7, %xmm9
	paddd	%xmm6, %xmm6
	paddd	%xmm7, %xmm6
	movdqa	.LCPI10_6(%rip), %xmm5
	paddd	%xmm5, %xmm3
	psrad	$16, %xmm3
	paddd	%xmm3, %xmm6
	movdqa	%xmm12, %xmm7
	movdqa	128(%rsp), %xmm3
	paddd	%xmm3, %xmm12
	paddd	%xmm14, %xmm14
	paddd	%xmm3, %xmm14
	paddd	%xmm5, %xmm1
	psrad	$16, %xmm1
	paddd	%xmm1, %xmm14
	packssdw	%xmm14, %xmm6
	movdqa	%xmm15, %xmm3
	movdqa	1328(%rsp), %xmm1
	paddd	%xmm1, %xmm15
	paddd	%xmm11, %xmm11
	paddd	%xmm1, %xmm11
	paddd	%xmm5, %xmm13
	psrad	$16, %xmm13
	paddd	%xmm13, %xmm11
	movdqa	.LCPI10_1(%rip), %xmm1
	pmaddwd	%xmm1, %xmm10
	pmaddwd	%xmm1, %xmm7
	pmaddwd	%xmm1, %xmm3
	movdqa	1344(%rsp), %xmm14
	pmaddwd	%xmm14, %xmm1
	movdqa	1360(%rsp), %xmm13
	paddd	%xmm13, %xmm14
	paddd	%xmm0, %xmm0
	paddd	%xmm13, %xmm0
	paddd	%xmm5, %xmm2
	psrad	$16, %xmm2
	paddd	%xmm2, %xmm0
	packssdw	%xmm0, %xmm11
	paddd	%xmm5, %xmm1
	paddd	%xmm5, %xmm3
	paddd	%xmm5, %xmm7
	paddd	%xmm5, %xmm10
	psrad	$16, %xmm10
	paddd	%xmm9, %xmm10
	psrad	$16, %xmm7
	paddd	%xmm12, %xmm7
	packssdw	%xmm7, %xmm10
	psrad	$16, %xmm3
	paddd	%xmm15, %xmm3
	psrad	$16, %xmm1
	paddd	%xmm14, %xmm1
	packssdw	%xmm1, %xmm3
	movdqa	.LCPI10_4(%rip), %xmm0
	movdqa	1408(%rsp), %xmm1
	psrad	$16, %xmm1
	movdqa	1248(%rsp), %xmm2
	paddd	%xmm0, %xmm2
	paddd	%xmm1, %xmm2
	movdqa	1440(%rsp), %xmm1
	psrad	$16, %xmm1
	paddd	%xmm0, %xmm4
	paddd	%xmm1, %xmm4
	packssdw	%xmm2, %xmm4
	movdqa	768(%rsp), %xmm2
	psrad	$16, %xmm2
	movdqa	1456(%rsp), %xmm1
	psrad	$16, %xmm1
	movdqa	1424(%rsp), %xmm5
	paddd	%xmm0, %xmm5
	paddd	%xmm1, %xmm5
	movdqa	%xmm11, %xmm1
	packuswb	%xmm6, %xmm1
	paddd	%xmm0, %xmm8
	paddd	%xmm2, %xmm8
	packssdw	%xmm5, %xmm8
	packuswb	%xmm8, %xmm4
	movdqa	%xmm3, %xmm2
	packuswb	%xmm10, %xmm2
	pshufd	$230, %xmm4, %xmm0
	punpcklbw	%xmm0, %xmm0
	pshufd	$78, %xmm0, %xmm0
	pshuflw	$233, %xmm0, %xmm0
	pshufhw	$148, %xmm0, %xmm5
	movdqa	.LCPI10_7(%rip), %xmm0
	pand	%xmm0, %xmm5
	pshuflw	$255, %xmm2, %xmm2
	pshufhw	$96, %xmm2, %xmm2
	movdqa	%xmm0, %xmm7
	pandn	%xmm2, %xmm7
	por	%xmm5, %xmm7
	movdqa	.LCPI10_8(%rip), %xmm2
	pshuflw	$246, %xmm1, %xmm1
	pshufhw	$0, %xmm1, %xmm5
	movdqa	%xmm2, %xmm1
	pandn	%xmm5, %xmm1
	pand	%xmm2, %xmm7
	por	%xmm7, %xmm1
	movdqa	%xmm4, %xmm5
	punpcklbw	%xmm4, %xmm5
	pshufd	$148, %xmm5, %xmm5
	pshuflw	$148, %xmm5, %xmm5
	packuswb	%xmm3, %xmm3
	pshuflw	$96, %xmm3, %xmm3
	pshufhw	$165, %xmm3, %xmm3
	pand	%xmm2, %xmm3
	pandn	%xmm5, %xmm2
	por	%xmm3, %xmm2
	packuswb	%xmm11, %xmm11
	pshuflw	$0, %xmm11, %xmm3
	pshufhw	$165, %xmm3, %xmm3
	movdqa	%xmm0, %xmm5
	pandn	%xmm3, %xmm5
	pand	%xmm0, %xmm2
	por	%xmm2, %xmm5
	punpckhbw	%xmm4, %xmm4
	pshufd	$233, %xmm4, %xmm2
	pshufhw	$233, %xmm2, %xmm2
	packuswb	%xmm10, %xmm10
	pshuflw	$165, %xmm10, %xmm3
	pshufhw	$255, %xmm3, %xmm3
	pand	%xmm0, %xmm3
	pandn	%xmm2, %xmm0
	por	%xmm3, %xmm0
	movdqa	.LCPI10_9(%rip), %xmm2
	pand	%xmm2, %xmm0
	packuswb	%xmm6, %xmm6
	pshuflw	$165, %xmm6, %xmm3
	pshufhw	$246, %xmm3, %xmm3
	pandn	%xmm3, %xmm2
	por	%xmm0, %xmm2
	movdqu	%xmm2, 32(%rcx)
	movdqu	%xmm5, (%rcx)
	movdqu	%xmm1, 16(%rcx)
	addq	$16, %rdx
	addq	$48, %rcx
	cmpq	%rdx, %rax
	jne	.LBB10_401
	cmpq	%rax, %r13
	je	.LBB10_419
	testb	$12, %r13b
	je	.LBB10_407
.LBB10_404:
	movq	%rax, %rcx
	movl	%r13d, %eax
	andl	$60, %eax
	leaq	(%rcx,%rcx,2), %rdx
	addq	%rsi, %rdx
	addq	280(%rsp), %rdx
.LBB10_405:
	movd	320(%rsp,%rcx), %xmm2
	movd	352(%rsp,%rcx), %xmm1
	movd	384(%rsp,%rcx), %xmm5
	pxor	%xmm0, %xmm0
	punpcklbw	%xmm0, %xmm5
	punpcklwd	%xmm0, %xmm5
	movdqa	.LCPI10_0(%rip), %xmm4
	punpcklbw	%xmm0, %xmm2
	punpcklwd	%xmm0, %xmm2
	pshuflw	$232, %xmm5, %xmm6
	movdqa	%xmm2, %xmm7
	psubd	%xmm5, %xmm7
	paddd	%xmm4, %xmm5
	movdqa	.LCPI10_1(%rip), %xmm3
	pmaddwd	%xmm5, %xmm3
	punpcklbw	%xmm0, %xmm1
	punpcklwd	%xmm0, %xmm1
	pshufhw	$232, %xmm6, %xmm6
	pshufd	$232, %xmm6, %xmm8
	pshuflw	$232, %xmm1, %xmm6
	pshufhw	$232, %xmm6, %xmm6
	pshufd	$232, %xmm6, %xmm6
	punpcklwd	%xmm8, %xmm6
	pmaddwd	.LCPI10_2(%rip), %xmm6
	paddd	%xmm2, %xmm5
	paddd	.LCPI10_3(%rip), %xmm6
	psrad	$16, %xmm6
	paddd	%xmm7, %xmm6
	paddd	%xmm4, %xmm1
	movdqa	%xmm1, %xmm4
	paddd	%xmm4, %xmm4
	pmaddwd	.LCPI10_5(%rip), %xmm1
	movdqa	.LCPI10_6(%rip), %xmm7
	paddd	%xmm7, %xmm1
	psrad	$16, %xmm1
	paddd	%xmm2, %xmm4
	paddd	%xmm1, %xmm4
	packssdw	%xmm4, %xmm4
	packuswb	%xmm4, %xmm4
	paddd	%xmm7, %xmm3
	psrad	$16, %xmm3
	paddd	%xmm5, %xmm3
	paddd	.LCPI10_4(%rip), %xmm6
	packssdw	%xmm6, %xmm3
	packuswb	%xmm3, %xmm3
	punpcklbw	%xmm0, %xmm3
	pshufd	$231, %xmm3, %xmm0
	pshuflw	$220, %xmm0, %xmm0
	pshufhw	$198, %xmm3, %xmm1
	pshufd	$108, %xmm1, %xmm1
	pshuflw	$104, %xmm1, %xmm1
	pshufhw	$37, %xmm1, %xmm1
	packuswb	%xmm0, %xmm1
	movdqa	.LCPI10_10(%rip), %xmm0
	pand	%xmm0, %xmm1
	pshuflw	$80, %xmm4, %xmm2
	pshufd	$208, %xmm2, %xmm2
	pandn	%xmm2, %xmm0
	por	%xmm1, %xmm0
	movq	%xmm0, (%rdx)
	pshufd	$238, %xmm0, %xmm0
	movd	%xmm0, 8(%rdx)
	addq	$4, %rcx
	addq	$12, %rdx
	cmpq	%rcx, %rax
	jne	.LBB10_405
	cmpq	%rax, %r13
	je	.LBB10_419
.LBB10_407:
	leaq	(%rax,%rax,2), %rcx
	addq	%rcx, %rsi
	addq	280(%rsp), %rsi
	jmp	.LBB10_408
.LBB10_414:
	movb	%cl, 2(%rsi)
	incq	%rax
	addq	$3, %rsi
	cmpq	%rax, %r13
	je	.LBB10_419
.LBB10_408:
	movzbl	320(%rsp,%rax), %edx
	movzbl	384(%rsp,%rax), %edi
	leal	(%rdi,%rdx), %ecx
	imull	$26345, %edi, %r8d
	addl	$-3339392, %r8d
	sarl	$16, %r8d
	leal	(%r8,%rcx), %r9d
	addl	$-128, %r9d
	xorl	%ecx, %ecx
	testl	%r9d, %r9d
	cmovlel	%ecx, %r9d
	cmpl	$255, %r9d
	jl	.LBB10_410
	movl	$255, %r9d
.LBB10_410:
	movzbl	352(%rsp,%rax), %r8d
	movb	%r9b, (%rsi)
	imull	$18734, %edi, %r9d
	imull	$-22554, %r8d, %r10d
	addl	%r10d, %r9d
	addl	$521728, %r9d
	sarl	$16, %r9d
	movl	%edx, %r10d
	subl	%edi, %r10d
	leal	(%r10,%r9), %edi
	addl	$128, %edi
	testl	%edi, %edi
	cmovlel	%ecx, %edi
	cmpl	$255, %edi
	jl	.LBB10_412
	movl	$255, %edi
.LBB10_412:
	movb	%dil, 1(%rsi)
	leal	(%rdx,%r8,2), %edx
	imull	$-14942, %r8d, %edi
	addl	$1945344, %edi
	sarl	$16, %edi
	addl	%edi, %edx
	addl	$-256, %edx
	testl	%edx, %edx
	cmovgl	%edx, %ecx
	cmpl	$255, %ecx
	movq	64(%rsp), %r10
	jl	.LBB10_414
	movl	$255, %ecx
	jmp	.LBB10_414
.LBB10_164:
	xorl	%ecx, %ecx
	xorl	%edx, %edx
	cmpq	$1, %r12
	jne	.LBB10_165
	movq	736(%rsp), %r12
	movq	(%rsp), %r11
	movq	288(%rsp), %r13
	jmp	.LBB10_170
.LBB10_191:
	addq	%r13, %rcx
	addq	%rsi, %rdx
	cmpq	%r11, %rdx
	jae	.LBB10_511
.LBB10_170:
	movq	%r11, %rsi
	subq	%rdx, %rsi
	leaq	(,%rbp,8), %rdi
	cmpq	%rsi, %rdi
	cmovbq	%rdi, %rsi
	pxor	%xmm2, %xmm2
	leaq	1392(%rsp), %rdi
	movdqa	%xmm2, (%rdi)
	movq	72(%rsp), %rdi
	movq	64(%rdi,%rcx), %xmm0
	movq	(%rdi,%rcx), %xmm1
	punpcklqdq	%xmm0, %xmm1
	movdqa	%xmm1, 1376(%rsp)
	cmpq	$16, %rsi
	ja	.LBB10_191
	movq	48(%rsp), %rdi
	movd	(%rdi,%rcx), %xmm5
	punpcklbw	%xmm2, %xmm5
	punpcklwd	%xmm2, %xmm5
	movdqa	.LCPI10_0(%rip), %xmm3
	movdqa	%xmm5, %xmm0
	paddd	%xmm3, %xmm0
	movdqa	.LCPI10_1(%rip), %xmm6
	movdqa	%xmm0, %xmm1
	pmaddwd	%xmm6, %xmm1
	movdqa	.LCPI10_6(%rip), %xmm4
	paddd	%xmm4, %xmm1
	psrld	$16, %xmm1
	paddd	%xmm0, %xmm1
	pshuflw	$160, %xmm1, %xmm0
	pshufhw	$160, %xmm0, %xmm1
	movdqa	%xmm1, 320(%rsp)
	movd	4(%rdi,%rcx), %xmm7
	punpcklbw	%xmm2, %xmm7
	punpcklwd	%xmm2, %xmm7
	movdqa	%xmm7, %xmm0
	paddd	%xmm3, %xmm0
	pmaddwd	%xmm0, %xmm6
	paddd	%xmm4, %xmm6
	psrld	$16, %xmm6
	paddd	%xmm0, %xmm6
	pshuflw	$160, %xmm6, %xmm0
	pshufhw	$160, %xmm0, %xmm0
	movdqa	%xmm0, 336(%rsp)
	movq	32(%rsp), %rdi
	movd	(%rdi,%rcx), %xmm6
	punpcklbw	%xmm2, %xmm6
	punpcklwd	%xmm2, %xmm6
	pshuflw	$232, %xmm5, %xmm8
	pshufhw	$232, %xmm8, %xmm8
	pshufd	$232, %xmm8, %xmm8
	pshuflw	$232, %xmm6, %xmm9
	pshufhw	$232, %xmm9, %xmm9
	pshufd	$232, %xmm9, %xmm9
	punpcklwd	%xmm9, %xmm8
	movdqa	.LCPI10_11(%rip), %xmm9
	pmaddwd	%xmm9, %xmm8
	movdqa	.LCPI10_3(%rip), %xmm10
	paddd	%xmm10, %xmm8
	psrld	$16, %xmm8
	psubd	%xmm5, %xmm8
	pshuflw	$160, %xmm8, %xmm5
	pshufhw	$160, %xmm5, %xmm5
	movdqa	.LCPI10_12(%rip), %xmm11
	paddw	%xmm11, %xmm5
	movdqa	%xmm5, 1088(%rsp)
	movd	4(%rdi,%rcx), %xmm8
	punpcklbw	%xmm2, %xmm8
	punpcklwd	%xmm2, %xmm8
	pshuflw	$232, %xmm7, %xmm2
	pshufhw	$232, %xmm2, %xmm2
	pshufd	$232, %xmm2, %xmm2
	pshuflw	$232, %xmm8, %xmm12
	pshufhw	$232, %xmm12, %xmm12
	pshufd	$232, %xmm12, %xmm12
	punpcklwd	%xmm12, %xmm2
	pmaddwd	%xmm9, %xmm2
	paddd	%xmm10, %xmm2
	psrld	$16, %xmm2
	psubd	%xmm7, %xmm2
	pshuflw	$160, %xmm2, %xmm2
	pshufhw	$160, %xmm2, %xmm2
	paddw	%xmm11, %xmm2
	movdqa	%xmm2, 1104(%rsp)
	paddd	%xmm3, %xmm6
	movdqa	%xmm6, %xmm7
	paddd	%xmm7, %xmm7
	movdqa	.LCPI10_5(%rip), %xmm9
	pmaddwd	%xmm9, %xmm6
	paddd	%xmm4, %xmm6
	psrld	$16, %xmm6
	paddd	%xmm7, %xmm6
	pshuflw	$160, %xmm6, %xmm6
	pshufhw	$160, %xmm6, %xmm7
	movdqa	%xmm7, 944(%rsp)
	paddd	%xmm3, %xmm8
	movdqa	%xmm8, %xmm3
	paddd	%xmm3, %xmm3
	pmaddwd	%xmm9, %xmm8
	paddd	%xmm4, %xmm8
	psrld	$16, %xmm8
	paddd	%xmm3, %xmm8
	pshuflw	$160, %xmm8, %xmm3
	pshufhw	$160, %xmm3, %xmm3
	movdqa	%xmm3, 960(%rsp)
	testq	%rsi, %rsi
	je	.LBB10_191
	leaq	(%rdx,%rdx,2), %rdi
	cmpq	$8, %rsi
	jae	.LBB10_174
	xorl	%r8d, %r8d
	jmp	.LBB10_177
.LBB10_174:
	movl	%esi, %r8d
	andl	$24, %r8d
	movq	1376(%rsp), %xmm4
	pxor	%xmm6, %xmm6
	punpcklbw	%xmm6, %xmm4
	paddw	%xmm4, %xmm7
	movdqa	%xmm7, %xmm8
	packuswb	%xmm8, %xmm8
	paddw	%xmm4, %xmm5
	paddw	%xmm4, %xmm1
	packuswb	%xmm5, %xmm1
	movdqa	%xmm1, %xmm9
	punpcklbw	%xmm6, %xmm9
	pshufd	$165, %xmm9, %xmm4
	movdqa	.LCPI10_13(%rip), %xmm5
	pand	%xmm5, %xmm4
	punpckhbw	%xmm6, %xmm1
	pshuflw	$255, %xmm1, %xmm10
	pshufhw	$0, %xmm10, %xmm10
	movdqa	%xmm5, %xmm11
	pandn	%xmm10, %xmm11
	por	%xmm4, %xmm11
	movdqa	%xmm9, %xmm4
	punpcklwd	%xmm1, %xmm4
	pshufd	$100, %xmm4, %xmm4
	pshuflw	$164, %xmm4, %xmm4
	pshufhw	$71, %xmm4, %xmm10
	packuswb	%xmm11, %xmm10
	movdqa	.LCPI10_7(%rip), %xmm4
	pand	%xmm4, %xmm10
	packuswb	%xmm7, %xmm7
	pshuflw	$0, %xmm7, %xmm7
	pshufhw	$165, %xmm7, %xmm7
	movdqa	%xmm4, %xmm11
	pandn	%xmm7, %xmm11
	por	%xmm10, %xmm11
	punpckhwd	%xmm9, %xmm1
	pshufd	$246, %xmm1, %xmm1
	pshuflw	$22, %xmm1, %xmm7
	packuswb	%xmm7, %xmm7
	movdqa	.LCPI10_14(%rip), %xmm1
	pand	%xmm1, %xmm7
	pshuflw	$246, %xmm8, %xmm8
	movdqa	%xmm1, %xmm9
	pandn	%xmm8, %xmm9
	por	%xmm7, %xmm9
	movq	%xmm9, 16(%rax,%rdi)
	movdqu	%xmm11, (%rax,%rdi)
	cmpq	$8, %r8
	je	.LBB10_176
	movq	1384(%rsp), %xmm8
	punpcklbw	%xmm6, %xmm8
	paddw	%xmm8, %xmm3
	movdqa	%xmm3, %xmm7
	packuswb	%xmm7, %xmm7
	paddw	%xmm8, %xmm2
	paddw	%xmm8, %xmm0
	packuswb	%xmm2, %xmm0
	movdqa	%xmm0, %xmm2
	punpcklbw	%xmm6, %xmm2
	pshufd	$165, %xmm2, %xmm8
	pand	%xmm5, %xmm8
	punpckhbw	%xmm6, %xmm0
	pshuflw	$255, %xmm0, %xmm6
	pshufhw	$0, %xmm6, %xmm6
	pandn	%xmm6, %xmm5
	por	%xmm8, %xmm5
	movdqa	%xmm2, %xmm6
	punpcklwd	%xmm0, %xmm6
	pshufd	$100, %xmm6, %xmm6
	pshuflw	$164, %xmm6, %xmm6
	pshufhw	$71, %xmm6, %xmm6
	packuswb	%xmm5, %xmm6
	pand	%xmm4, %xmm6
	packuswb	%xmm3, %xmm3
	pshuflw	$0, %xmm3, %xmm3
	pshufhw	$165, %xmm3, %xmm3
	pandn	%xmm3, %xmm4
	por	%xmm6, %xmm4
	punpckhwd	%xmm2, %xmm0
	pshufd	$246, %xmm0, %xmm0
	pshuflw	$22, %xmm0, %xmm0
	packuswb	%xmm0, %xmm0
	pand	%xmm1, %xmm0
	pshuflw	$246, %xmm7, %xmm2
	pandn	%xmm2, %xmm1
	por	%xmm0, %xmm1
	movq	%xmm1, 40(%rax,%rdi)
	movdqu	%xmm4, 24(%rax,%rdi)
.LBB10_176:
	cmpq	%r8, %rsi
	je	.LBB10_191
.LBB10_177:
	leaq	(%r8,%r8,2), %r9
	addq	56(%rsp), %rdi
	addq	%r9, %rdi
	jmp	.LBB10_178
.LBB10_190:
	movb	%r9b, 2(%rdi)
	incq	%r8
	addq	$3, %rdi
	cmpq	%r8, %rsi
	je	.LBB10_191
.LBB10_178:
	movzbl	1376(%rsp,%r8), %r10d
	movzwl	320(%rsp,%r8,2), %r11d
	addw	%r10w, %r11w
	xorl	%r9d, %r9d
	testw	%r11w, %r11w
	jg	.LBB10_180
	xorl	%r11d, %r11d
.LBB10_180:
	movswl	%r11w, %ebx
	cmpl	$255, %ebx
	jl	.LBB10_182
	movl	$255, %r11d
.LBB10_182:
	movb	%r11b, (%rdi)
	movzwl	1088(%rsp,%r8,2), %r11d
	addw	%r10w, %r11w
	testw	%r11w, %r11w
	jle	.LBB10_183
	movswl	%r11w, %ebx
	cmpl	$255, %ebx
	jge	.LBB10_185
.LBB10_186:
	movb	%r11b, 1(%rdi)
	addw	944(%rsp,%r8,2), %r10w
	testw	%r10w, %r10w
	jg	.LBB10_187
.LBB10_188:
	movq	(%rsp), %r11
	movswl	%r9w, %r10d
	cmpl	$255, %r10d
	jl	.LBB10_190
	jmp	.LBB10_189
.LBB10_183:
	xorl	%r11d, %r11d
	movswl	%r11w, %ebx
	cmpl	$255, %ebx
	jl	.LBB10_186
.LBB10_185:
	movl	$255, %r11d
	movb	%r11b, 1(%rdi)
	addw	944(%rsp,%r8,2), %r10w
	testw	%r10w, %r10w
	jle	.LBB10_188
.LBB10_187:
	movl	%r10d, %r9d
	movq	(%rsp), %r11
	movswl	%r9w, %r10d
	cmpl	$255, %r10d
	jl	.LBB10_190
.LBB10_189:
	movl	$255, %r9d
	jmp	.LBB10_190
.LBB10_135:
	xorl	%ecx, %ecx
	xorl	%edx, %edx
	jmp	.LBB10_136
.LBB10_139:
	xorl	%r8d, %r8d
.LBB10_162:
	addq	%rax, %rdi
	movzbl	320(%rsp,%r8), %r9d
	movzbl	1088(%rsp,%r8), %r10d
	movzbl	944(%rsp,%r8), %r11d
	leaq	(%r8,%r8,2), %r8
	movb	%r9b, (%rdi,%r8)
	movb	%r10b, 1(%rdi,%r8)
	movb	%r11b, 2(%rdi,%r8)
.LBB10_163:
	addq	%r13, %rcx
	addq	%rsi, %rdx
	movq	(%rsp), %r11
	cmpq	%r11, %rdx
	jae	.LBB10_511
.LBB10_136:
	movq	%r11, %rsi
	subq	%rdx, %rsi
	leaq	(,%rbp,8), %rdi
	cmpq	%rsi, %rdi
	cmovbq	%rdi, %rsi
	pxor	%xmm0, %xmm0
	leaq	384(%rsp), %rdi
	movdqu	%xmm0, -56(%rdi)
	movq	$0, -40(%rdi)
	leaq	1113(%rsp), %rdi
	movdqu	%xmm0, -17(%rdi)
	movq	$0, -1(%rdi)
	leaq	969(%rsp), %rdi
	movdqu	%xmm0, -17(%rdi)
	movq	$0, -1(%rdi)
	movq	72(%rsp), %rdi
	movq	(%rdi,%rcx), %rdi
	movq	%rdi, 320(%rsp)
	movq	32(%rsp), %rdi
	movq	(%rdi,%rcx), %rdi
	movq	%rdi, 1088(%rsp)
	movq	48(%rsp), %rdi
	movq	(%rdi,%rcx), %rdi
	movq	%rdi, 944(%rsp)
	leaq	-1(%rsi), %r8
	cmpq	$31, %r8
	ja	.LBB10_163
	leaq	(%rdx,%rdx,2), %rdi
	cmpq	$1, %r12
	jne	.LBB10_138
	cmpq	$4, %rsi
	jae	.LBB10_142
	xorl	%r8d, %r8d
	jmp	.LBB10_151
.LBB10_138:
	testq	%r8, %r8
	je	.LBB10_139
	movl	%esi, %r9d
	andl	$62, %r9d
	movq	720(%rsp), %r8
	leaq	(%r8,%rdi), %r10
	xorl	%r8d, %r8d
.LBB10_160:
	movzbl	320(%rsp,%r8), %r11d
	movzbl	1088(%rsp,%r8), %ebx
	movzbl	944(%rsp,%r8), %r14d
	movb	%r11b, -2(%r10)
	movb	%bl, -1(%r10)
	movb	%r14b, (%r10)
	movzbl	321(%rsp,%r8), %r11d
	movzbl	1089(%rsp,%r8), %ebx
	movzbl	945(%rsp,%r8), %r14d
	movb	%r11b, 1(%r10)
	movb	%bl, 2(%r10)
	movb	%r14b, 3(%r10)
	addq	$2, %r8
	addq	$6, %r10
	cmpq	%r8, %r9
	jne	.LBB10_160
	testb	$1, %sil
	jne	.LBB10_162
	jmp	.LBB10_163
.LBB10_142:
	cmpq	$16, %rsi
	jae	.LBB10_144
	xorl	%r8d, %r8d
	jmp	.LBB10_148
.LBB10_144:
	movl	%esi, %r8d
	andl	$48, %r8d
	movq	56(%rsp), %r9
	addq	%rdi, %r9
	xorl	%r10d, %r10d
.LBB10_145:
	movdqu	320(%rsp,%r10), %xmm7
	movdqu	1088(%rsp,%r10), %xmm2
	movdqu	944(%rsp,%r10), %xmm12
	pxor	%xmm0, %xmm0
	movdqa	%xmm12, %xmm9
	punpckhbw	%xmm0, %xmm9
	movdqa	%xmm9, %xmm5
	punpcklwd	%xmm0, %xmm5
	punpckhwd	%xmm0, %xmm9
	punpcklbw	%xmm0, %xmm12
	movdqa	%xmm12, %xmm10
	punpcklwd	%xmm0, %xmm10
	punpckhwd	%xmm0, %xmm12
	movdqa	%xmm7, %xmm3
	punpcklbw	%xmm0, %xmm3
	movdqa	%xmm3, %xmm1
	punpckhwd	%xmm0, %xmm1
	movdqa	%xmm1, %xmm8
	movdqa	%xmm1, 704(%rsp)
	punpcklwd	%xmm0, %xmm3
	movdqa	%xmm3, %xmm15
	movdqa	%xmm3, 768(%rsp)
	punpckhbw	%xmm0, %xmm7
	movdqa	%xmm7, %xmm1
	punpckhwd	%xmm0, %xmm1
	movdqa	%xmm1, 96(%rsp)
	punpcklwd	%xmm0, %xmm7
	movdqa	%xmm2, %xmm1
	punpckhbw	%xmm0, %xmm1
	movdqa	%xmm1, %xmm3
	punpcklwd	%xmm0, %xmm3
	punpckhwd	%xmm0, %xmm1
	punpcklbw	%xmm0, %xmm2
	movdqa	%xmm2, %xmm13
	punpcklwd	%xmm0, %xmm13
	punpckhwd	%xmm0, %xmm2
	pshuflw	$232, %xmm12, %xmm0
	pshufhw	$232, %xmm0, %xmm0
	pshufd	$232, %xmm0, %xmm0
	pshuflw	$232, %xmm2, %xmm4
	pshufhw	$232, %xmm4, %xmm4
	pshufd	$232, %xmm4, %xmm4
	punpcklwd	%xmm0, %xmm4
	movdqa	%xmm4, %xmm6
	pshuflw	$232, %xmm10, %xmm0
	pshufhw	$232, %xmm0, %xmm0
	pshufd	$232, %xmm0, %xmm0
	pshuflw	$232, %xmm13, %xmm4
	pshufhw	$232, %xmm4, %xmm4
	pshufd	$232, %xmm4, %xmm4
	punpcklwd	%xmm0, %xmm4
	movdqa	%xmm4, %xmm11
	pshuflw	$232, %xmm9, %xmm0
	pshufhw	$232, %xmm0, %xmm0
	pshufd	$232, %xmm0, %xmm0
	pshuflw	$232, %xmm1, %xmm4
	pshufhw	$232, %xmm4, %xmm4
	pshufd	$232, %xmm4, %xmm4
	punpcklwd	%xmm0, %xmm4
	movdqa	%xmm4, %xmm14
	pshuflw	$232, %xmm5, %xmm0
	pshufhw	$232, %xmm0, %xmm0
	pshufd	$232, %xmm0, %xmm0
	pshuflw	$232, %xmm3, %xmm4
	pshufhw	$232, %xmm4, %xmm4
	pshufd	$232, %xmm4, %xmm4
	punpcklwd	%xmm0, %xmm4
	movdqa	.LCPI10_2(%rip), %xmm0
	pmaddwd	%xmm0, %xmm6
	pmaddwd	%xmm0, %xmm11
	pmaddwd	%xmm0, %xmm14
	pmaddwd	%xmm0, %xmm4
	movdqa	.LCPI10_3(%rip), %xmm0
	paddd	%xmm0, %xmm4
	movdqa	%xmm4, 128(%rsp)
	paddd	%xmm0, %xmm14
	movdqa	%xmm14, 224(%rsp)
	paddd	%xmm0, %xmm11
	movdqa	%xmm11, 256(%rsp)
	paddd	%xmm0, %xmm6
	movdqa	%xmm6, 304(%rsp)
	movdqa	%xmm8, %xmm0
	psubd	%xmm12, %xmm0
	movdqa	%xmm0, 240(%rsp)
	movdqa	.LCPI10_0(%rip), %xmm0
	paddd	%xmm0, %xmm12
	movdqa	%xmm12, 688(%rsp)
	movdqa	%xmm15, %xmm4
	psubd	%xmm10, %xmm4
	movdqa	%xmm10, %xmm15
	paddd	%xmm0, %xmm15
	movdqa	96(%rsp), %xmm6
	psubd	%xmm9, %xmm6
	movdqa	%xmm6, 208(%rsp)
	movdqa	%xmm9, %xmm12
	paddd	%xmm0, %xmm12
	movdqa	%xmm7, %xmm8
	psubd	%xmm5, %xmm8
	movdqa	%xmm5, %xmm9
	paddd	%xmm0, %xmm9
	paddd	%xmm0, %xmm3
	paddd	%xmm0, %xmm1
	paddd	%xmm0, %xmm13
	paddd	%xmm0, %xmm2
	movdqa	%xmm3, %xmm6
	movdqa	.LCPI10_5(%rip), %xmm5
	pmaddwd	%xmm5, %xmm3
	movdqa	%xmm1, %xmm14
	pmaddwd	%xmm5, %xmm1
	movdqa	%xmm13, %xmm11
	pmaddwd	%xmm5, %xmm13
	movdqa	%xmm2, %xmm0
	pmaddwd	%xmm5, %xmm2
	movdqa	%xmm9, %xmm10
	paddd	%xmm7, %xmm9
	paddd	%xmm6, %xmm6
	paddd	%xmm7, %xmm6
	movdqa	.LCPI10_6(%rip), %xmm5
	paddd	%xmm5, %xmm3
	psrad	$16, %xmm3
	paddd	%xmm3, %xmm6
	movdqa	%xmm12, %xmm7
	movdqa	96(%rsp), %xmm3
	paddd	%xmm3, %xmm12
	paddd	%xmm14, %xmm14
	paddd	%xmm3, %xmm14
	paddd	%xmm5, %xmm1
	psrad	$16, %xmm1
	paddd	%xmm1, %xmm14
	packssdw	%xmm14, %xmm6
	movdqa	%xmm15, %xmm3
	movdqa	768(%rsp), %xmm1
	paddd	%xmm1, %xmm15
	paddd	%xmm11, %xmm11
	paddd	%xmm1, %xmm11
	paddd	%xmm5, %xmm13
	psrad	$16, %xmm13
	paddd	%xmm13, %xmm11
	movdqa	.LCPI10_1(%rip), %xmm1
	pmaddwd	%xmm1, %xmm10
	pmaddwd	%xmm1, %xmm7
	pmaddwd	%xmm1, %xmm3
	movdqa	688(%rsp), %xmm14
	pmaddwd	%xmm14, %xmm1
	movdqa	704(%rsp), %xmm13
	paddd	%xmm13, %xmm14
	paddd	%xmm0, %xmm0
	paddd	%xmm13, %xmm0
	paddd	%xmm5, %xmm2
	psrad	$16, %xmm2
	paddd	%xmm2, %xmm0
	packssdw	%xmm0, %xmm11
	paddd	%xmm5, %xmm1
	paddd	%xmm5, %xmm3
	paddd	%xmm5, %xmm7
	paddd	%xmm5, %xmm10
	psrad	$16, %xmm10
	paddd	%xmm9, %xmm10
	psrad	$16, %xmm7
	paddd	%xmm12, %xmm7
	packssdw	%xmm7, %xmm10
	psrad	$16, %xmm3
	paddd	%xmm15, %xmm3
	psrad	$16, %xmm1
	paddd	%xmm14, %xmm1
	packssdw	%xmm1, %xmm3
	movdqa	.LCPI10_4(%rip), %xmm0
	movdqa	304(%rsp), %xmm1
	psrad	$16, %xmm1
	movdqa	240(%rsp), %xmm2
	paddd	%xmm0, %xmm2
	paddd	%xmm1, %xmm2
	movdqa	256(%rsp), %xmm1
	psrad	$16, %xmm1
	paddd	%xmm0, %xmm4
	paddd	%xmm1, %xmm4
	packssdw	%xmm2, %xmm4
	movdqa	128(%rsp), %xmm2
	psrad	$16, %xmm2
	movdqa	224(%rsp), %xmm1
	psrad	$16, %xmm1
	movdqa	208(%rsp), %xmm5
	paddd	%xmm0, %xmm5
	paddd	%xmm1, %xmm5
	movdqa	%xmm11, %xmm1
	packuswb	%xmm6, %xmm1
	paddd	%xmm0, %xmm8
	paddd	%xmm2, %xmm8
	packssdw	%xmm5, %xmm8
	packuswb	%xmm8, %xmm4
	movdqa	%xmm3, %xmm2
	packuswb	%xmm10, %xmm2
	pshufd	$230, %xmm4, %xmm0
	punpcklbw	%xmm0, %xmm0
	pshufd	$78, %xmm0, %xmm0
	pshuflw	$233, %xmm0, %xmm0
	pshufhw	$148, %xmm0, %xmm5
	movdqa	.LCPI10_7(%rip), %xmm0
	pand	%xmm0, %xmm5
	pshuflw	$255, %xmm2, %xmm2
	pshufhw	$96, %xmm2, %xmm2
	movdqa	%xmm0, %xmm7
	pandn	%xmm2, %xmm7
	por	%xmm5, %xmm7
	movdqa	.LCPI10_8(%rip), %xmm2
	pshuflw	$246, %xmm1, %xmm1
	pshufhw	$0, %xmm1, %xmm5
	movdqa	%xmm2, %xmm1
	pandn	%xmm5, %xmm1
	pand	%xmm2, %xmm7
	por	%xmm7, %xmm1
	movdqa	%xmm4, %xmm5
	punpcklbw	%xmm4, %xmm5
	pshufd	$148, %xmm5, %xmm5
	pshuflw	$148, %xmm5, %xmm5
	packuswb	%xmm3, %xmm3
	pshuflw	$96, %xmm3, %xmm3
	pshufhw	$165, %xmm3, %xmm3
	pand	%xmm2, %xmm3
	pandn	%xmm5, %xmm2
	por	%xmm3, %xmm2
	packuswb	%xmm11, %xmm11
	pshuflw	$0, %xmm11, %xmm3
	pshufhw	$165, %xmm3, %xmm3
	movdqa	%xmm0, %xmm5
	pandn	%xmm3, %xmm5
	pand	%xmm0, %xmm2
	por	%xmm2, %xmm5
	punpckhbw	%xmm4, %xmm4
	pshufd	$233, %xmm4, %xmm2
	pshufhw	$233, %xmm2, %xmm2
	packuswb	%xmm10, %xmm10
	pshuflw	$165, %xmm10, %xmm3
	pshufhw	$255, %xmm3, %xmm3
	pand	%xmm0, %xmm3
	pandn	%xmm2, %xmm0
	por	%xmm3, %xmm0
	movdqa	.LCPI10_9(%rip), %xmm2
	pand	%xmm2, %xmm0
	packuswb	%xmm6, %xmm6
	pshuflw	$165, %xmm6, %xmm3
	pshufhw	$246, %xmm3, %xmm3
	pandn	%xmm3, %xmm2
	por	%xmm0, %xmm2
	movdqu	%xmm2, 32(%r9)
	movdqu	%xmm5, (%r9)
	movdqu	%xmm1, 16(%r9)
	addq	$16, %r10
	addq	$48, %r9
	cmpq	%r10, %r8
	jne	.LBB10_145
	cmpq	%r8, %rsi
	je	.LBB10_163
	testb	$12, %sil
	je	.LBB10_151
.LBB10_148:
	movq	%r8, %r9
	movl	%esi, %r8d
	andl	$60, %r8d
	leaq	(%r9,%r9,2), %r10
	movq	56(%rsp), %r11
	addq	%rdi, %r11
	addq	%r11, %r10
.LBB10_149:
	movd	320(%rsp,%r9), %xmm2
	movd	1088(%rsp,%r9), %xmm1
	movd	944(%rsp,%r9), %xmm5
	pxor	%xmm0, %xmm0
	punpcklbw	%xmm0, %xmm5
	punpcklwd	%xmm0, %xmm5
	movdqa	.LCPI10_0(%rip), %xmm4
	punpcklbw	%xmm0, %xmm2
	punpcklwd	%xmm0, %xmm2
	pshuflw	$232, %xmm5, %xmm6
	movdqa	%xmm2, %xmm7
	psubd	%xmm5, %xmm7
	paddd	%xmm4, %xmm5
	movdqa	.LCPI10_1(%rip), %xmm3
	pmaddwd	%xmm5, %xmm3
	punpcklbw	%xmm0, %xmm1
	punpcklwd	%xmm0, %xmm1
	pshufhw	$232, %xmm6, %xmm6
	pshufd	$232, %xmm6, %xmm8
	pshuflw	$232, %xmm1, %xmm6
	pshufhw	$232, %xmm6, %xmm6
	pshufd	$232, %xmm6, %xmm6
	punpcklwd	%xmm8, %xmm6
	pmaddwd	.LCPI10_2(%rip), %xmm6
	paddd	%xmm2, %xmm5
	paddd	.LCPI10_3(%rip), %xmm6
	psrad	$16, %xmm6
	paddd	%xmm7, %xmm6
	paddd	%xmm4, %xmm1
	movdqa	%xmm1, %xmm4
	paddd	%xmm4, %xmm4
	pmaddwd	.LCPI10_5(%rip), %xmm1
	movdqa	.LCPI10_6(%rip), %xmm7
	paddd	%xmm7, %xmm1
	psrad	$16, %xmm1
	paddd	%xmm2, %xmm4
	paddd	%xmm1, %xmm4
	packssdw	%xmm4, %xmm4
	packuswb	%xmm4, %xmm4
	paddd	%xmm7, %xmm3
	psrad	$16, %xmm3
	paddd	%xmm5, %xmm3
	paddd	.LCPI10_4(%rip), %xmm6
	packssdw	%xmm6, %xmm3
	packuswb	%xmm3, %xmm3
	punpcklbw	%xmm0, %xmm3
	pshufd	$231, %xmm3, %xmm0
	pshuflw	$220, %xmm0, %xmm0
	pshufhw	$198, %xmm3, %xmm1
	pshufd	$108, %xmm1, %xmm1
	pshuflw	$104, %xmm1, %xmm1
	pshufhw	$37, %xmm1, %xmm1
	packuswb	%xmm0, %xmm1
	movdqa	.LCPI10_10(%rip), %xmm0
	pand	%xmm0, %xmm1
	pshuflw	$80, %xmm4, %xmm2
	pshufd	$208, %xmm2, %xmm2
	pandn	%xmm2, %xmm0
	por	%xmm1, %xmm0
	movq	%xmm0, (%r10)
	pshufd	$238, %xmm0, %xmm0
	movd	%xmm0, 8(%r10)
	addq	$4, %r9
	addq	$12, %r10
	cmpq	%r9, %r8
	jne	.LBB10_149
	cmpq	%r8, %rsi
	je	.LBB10_163
.LBB10_151:
	leaq	(%r8,%r8,2), %r9
	addq	56(%rsp), %rdi
	addq	%r9, %rdi
	jmp	.LBB10_152
.LBB10_158:
	movb	%r9b, 2(%rdi)
	incq	%r8
	addq	$3, %rdi
	cmpq	%r8, %rsi
	je	.LBB10_163
.LBB10_152:
	movzbl	320(%rsp,%r8), %r10d
	movzbl	944(%rsp,%r8), %r11d
	leal	(%r11,%r10), %r9d
	imull	$26345, %r11d, %ebx
	addl	$-3339392, %ebx
	sarl	$16, %ebx
	leal	(%rbx,%r9), %r14d
	addl	$-128, %r14d
	xorl	%r9d, %r9d
	testl	%r14d, %r14d
	cmovlel	%r9d, %r14d
	cmpl	$255, %r14d
	jl	.LBB10_154
	movl	$255, %r14d
.LBB10_154:
	movzbl	1088(%rsp,%r8), %ebx
	movb	%r14b, (%rdi)
	imull	$18734, %r11d, %r14d
	imull	$-22554, %ebx, %r15d
	addl	%r15d, %r14d
	addl	$521728, %r14d
	sarl	$16, %r14d
	movl	%r10d, %r15d
	subl	%r11d, %r15d
	leal	(%r15,%r14), %r11d
	addl	$128, %r11d
	testl	%r11d, %r11d
	cmovlel	%r9d, %r11d
	cmpl	$255, %r11d
	jl	.LBB10_156
	movl	$255, %r11d
.LBB10_156:
	movb	%r11b, 1(%rdi)
	leal	(%r10,%rbx,2), %r10d
	imull	$-14942, %ebx, %r11d
	addl	$1945344, %r11d
	sarl	$16, %r11d
	addl	%r11d, %r10d
	addl	$-256, %r10d
	testl	%r10d, %r10d
	cmovgl	%r10d, %r9d
	cmpl	$255, %r9d
	jl	.LBB10_158
	movl	$255, %r9d
	jmp	.LBB10_158
.LBB10_221:
	xorl	%ecx, %ecx
	xorl	%edx, %edx
	jmp	.LBB10_222
.LBB10_225:
	xorl	%edi, %edi
.LBB10_248:
	addq	%rax, %r8
	movzbl	320(%rsp,%rdi), %r9d
	movzbl	1088(%rsp,%rdi), %r10d
	movzbl	944(%rsp,%rdi), %r11d
	leaq	(%rdi,%rdi,2), %rdi
	movb	%r9b, (%r8,%rdi)
	movb	%r10b, 1(%r8,%rdi)
	movb	%r11b, 2(%r8,%rdi)
.LBB10_249:
	addq	%r13, %rcx
	addq	%rsi, %rdx
	movq	(%rsp), %r11
	cmpq	%r11, %rdx
	jae	.LBB10_511
.LBB10_222:
	movq	%r11, %rsi
	subq	%rdx, %rsi
	leaq	(,%rbp,8), %rdi
	cmpq	%rsi, %rdi
	cmovbq	%rdi, %rsi
	movq	72(%rsp), %rdi
	movsd	64(%rdi,%rcx), %xmm0
	movsd	(%rdi,%rcx), %xmm1
	movlhps	%xmm0, %xmm1
	movaps	%xmm1, 320(%rsp)
	movq	192(%rdi,%rcx), %xmm0
	movq	128(%rdi,%rcx), %xmm1
	punpcklqdq	%xmm0, %xmm1
	movdqa	%xmm1, 336(%rsp)
	movq	32(%rsp), %r9
	movzbl	(%r9,%rcx), %edi
	imull	$16843009, %edi, %edi
	movl	%edi, 1088(%rsp)
	movzbl	1(%r9,%rcx), %edi
	imull	$16843009, %edi, %edi
	leaq	1113(%rsp), %r8
	movl	%edi, -21(%r8)
	movzbl	2(%r9,%rcx), %edi
	imull	$16843009, %edi, %edi
	movl	%edi, -17(%r8)
	movzbl	3(%r9,%rcx), %edi
	imull	$16843009, %edi, %edi
	movl	%edi, -13(%r8)
	movzbl	4(%r9,%rcx), %edi
	imull	$16843009, %edi, %edi
	movl	%edi, -9(%r8)
	movzbl	5(%r9,%rcx), %edi
	imull	$16843009, %edi, %edi
	movl	%edi, -5(%r8)
	movzbl	6(%r9,%rcx), %edi
	imull	$16843009, %edi, %edi
	movl	%edi, -1(%r8)
	movzbl	7(%r9,%rcx), %edi
	imull	$16843009, %edi, %edi
	movl	%edi, 3(%r8)
	movq	48(%rsp), %r9
	movzbl	(%r9,%rcx), %edi
	imull	$16843009, %edi, %edi
	movl	%edi, 944(%rsp)
	movzbl	1(%r9,%rcx), %edi
	imull	$16843009, %edi, %edi
	leaq	969(%rsp), %r8
	movl	%edi, -21(%r8)
	movzbl	2(%r9,%rcx), %edi
	imull	$16843009, %edi, %edi
	movl	%edi, -17(%r8)
	movzbl	3(%r9,%rcx), %edi
	imull	$16843009, %edi, %edi
	movl	%edi, -13(%r8)
	movzbl	4(%r9,%rcx), %edi
	imull	$16843009, %edi, %edi
	movl	%edi, -9(%r8)
	movzbl	5(%r9,%rcx), %edi
	imull	$16843009, %edi, %edi
	movl	%edi, -5(%r8)
	movzbl	6(%r9,%rcx), %edi
	imull	$16843009, %edi, %edi
	movl	%edi, -1(%r8)
	movzbl	7(%r9,%rcx), %edi
	imull	$16843009, %edi, %edi
	movl	%edi, 3(%r8)
	leaq	-1(%rsi), %rdi
	cmpq	$31, %rdi
	ja	.LBB10_249
	leaq	(%rdx,%rdx,2), %r8
	cmpq	$1, %r12
	jne	.LBB10_224
	cmpq	$4, %rsi
	jae	.LBB10_228
	xorl	%edi, %edi
	jmp	.LBB10_237
.LBB10_224:
	testq	%rdi, %rdi
	je	.LBB10_225
	movl	%esi, %r9d
	andl	$62, %r9d
	movq	720(%rsp), %rdi
	leaq	(%rdi,%r8), %r10
	xorl	%edi, %edi
.LBB10_246:
	movzbl	320(%rsp,%rdi), %r11d
	movzbl	1088(%rsp,%rdi), %ebx
	movzbl	944(%rsp,%rdi), %r14d
	movb	%r11b, -2(%r10)
	movb	%bl, -1(%r10)
	movb	%r14b, (%r10)
	movzbl	321(%rsp,%rdi), %r11d
	movzbl	1089(%rsp,%rdi), %ebx
	movzbl	945(%rsp,%rdi), %r14d
	movb	%r11b, 1(%r10)
	movb	%bl, 2(%r10)
	movb	%r14b, 3(%r10)
	addq	$2, %rdi
	addq	$6, %r10
	cmpq	%rdi, %r9
	jne	.LBB10_246
	testb	$1, %sil
	jne	.LBB10_248
	jmp	.LBB10_249
.LBB10_228:
	cmpq	$16, %rsi
	jae	.LBB10_230
	xorl	%edi, %edi
	jmp	.LBB10_234
.LBB10_230:
	movl	%esi, %edi
	andl	$48, %edi
	movq	56(%rsp), %r9
	addq	%r8, %r9
	xorl	%r10d, %r10d
.LBB10_231:
	movdqa	320(%rsp,%r10), %xmm7
	movdqu	1088(%rsp,%r10), %xmm2
	movdqu	944(%rsp,%r10), %xmm12
	pxor	%xmm0, %xmm0
	movdqa	%xmm12, %xmm9
	punpckhbw	%xmm0, %xmm9
	movdqa	%xmm9, %xmm5
	punpcklwd	%xmm0, %xmm5
	punpckhwd	%xmm0, %xmm9
	punpcklbw	%xmm0, %xmm12
	movdqa	%xmm12, %xmm10
	punpcklwd	%xmm0, %xmm10
	punpckhwd	%xmm0, %xmm12
	movdqa	%xmm7, %xmm3
	punpcklbw	%xmm0, %xmm3
	movdqa	%xmm3, %xmm1
	punpckhwd	%xmm0, %xmm1
	movdqa	%xmm1, %xmm8
	movdqa	%xmm1, 704(%rsp)
	punpcklwd	%xmm0, %xmm3
	movdqa	%xmm3, %xmm15
	movdqa	%xmm3, 768(%rsp)
	punpckhbw	%xmm0, %xmm7
	movdqa	%xmm7, %xmm1
	punpckhwd	%xmm0, %xmm1
	movdqa	%xmm1, 96(%rsp)
	punpcklwd	%xmm0, %xmm7
	movdqa	%xmm2, %xmm1
	punpckhbw	%xmm0, %xmm1
	movdqa	%xmm1, %xmm3
	punpcklwd	%xmm0, %xmm3
	punpckhwd	%xmm0, %xmm1
	punpcklbw	%xmm0, %xmm2
	movdqa	%xmm2, %xmm13
	punpcklwd	%xmm0, %xmm13
	punpckhwd	%xmm0, %xmm2
	pshuflw	$232, %xmm12, %xmm0
	pshufhw	$232, %xmm0, %xmm0
	pshufd	$232, %xmm0, %xmm0
	pshuflw	$232, %xmm2, %xmm4
	pshufhw	$232, %xmm4, %xmm4
	pshufd	$232, %xmm4, %xmm4
	punpcklwd	%xmm0, %xmm4
	movdqa	%xmm4, %xmm6
	pshuflw	$232, %xmm10, %xmm0
	pshufhw	$232, %xmm0, %xmm0
	pshufd	$232, %xmm0, %xmm0
	pshuflw	$232, %xmm13, %xmm4
	pshufhw	$232, %xmm4, %xmm4
	pshufd	$232, %xmm4, %xmm4
	punpcklwd	%xmm0, %xmm4
	movdqa	%xmm4, %xmm11
	pshuflw	$232, %xmm9, %xmm0
	pshufhw	$232, %xmm0, %xmm0
	pshufd	$232, %xmm0, %xmm0
	pshuflw	$232, %xmm1, %xmm4
	pshufhw	$232, %xmm4, %xmm4
	pshufd	$232, %xmm4, %xmm4
	punpcklwd	%xmm0, %xmm4
	movdqa	%xmm4, %xmm14
	pshuflw	$232, %xmm5, %xmm0
	pshufhw	$232, %xmm0, %xmm0
	pshufd	$232, %xmm0, %xmm0
	pshuflw	$232, %xmm3, %xmm4
	pshufhw	$232, %xmm4, %xmm4
	pshufd	$232, %xmm4, %xmm4
	punpcklwd	%xmm0, %xmm4
	movdqa	.LCPI10_2(%rip), %xmm0
	pmaddwd	%xmm0, %xmm6
	pmaddwd	%xmm0, %xmm11
	pmaddwd	%xmm0, %xmm14
	pmaddwd	%xmm0, %xmm4
	movdqa	.LCPI10_3(%rip), %xmm0
	paddd	%xmm0, %xmm4
	movdqa	%xmm4, 128(%rsp)
	paddd	%xmm0, %xmm14
	movdqa	%xmm14, 224(%rsp)
	paddd	%xmm0, %xmm11
	movdqa	%xmm11, 256(%rsp)
	paddd	%xmm0, %xmm6
	movdqa	%xmm6, 304(%rsp)
	movdqa	%xmm8, %xmm0
	psubd	%xmm12, %xmm0
	movdqa	%xmm0, 240(%rsp)
	movdqa	.LCPI10_0(%rip), %xmm0
	paddd	%xmm0, %xmm12
	movdqa	%xmm12, 688(%rsp)
	movdqa	%xmm15, %xmm4
	psubd	%xmm10, %xmm4
	movdqa	%xmm10, %xmm15
	paddd	%xmm0, %xmm15
	movdqa	96(%rsp), %xmm6
	psubd	%xmm9, %xmm6
	movdqa	%xmm6, 208(%rsp)
	movdqa	%xmm9, %xmm12
	paddd	%xmm0, %xmm12
	movdqa	%xmm7, %xmm8
	psubd	%xmm5, %xmm8
	movdqa	%xmm5, %xmm9
	paddd	%xmm0, %xmm9
	paddd	%xmm0, %xmm3
	paddd	%xmm0, %xmm1
	paddd	%xmm0, %xmm13
	paddd	%xmm0, %xmm2
	movdqa	%xmm3, %xmm6
	movdqa	.LCPI10_5(%rip), %xmm5
	pmaddwd	%xmm5, %xmm3
	movdqa	%xmm1, %xmm14
	pmaddwd	%xmm5, %xmm1
	movdqa	%xmm13, %xmm11
	pmaddwd	%xmm5, %xmm13
	movdqa	%xmm2, %xmm0
	pmaddwd	%xmm5, %xmm2
	movdqa	%xmm9, %xmm10
	paddd	%xmm7, %xmm9
	paddd	%xmm6, %xmm6
	paddd	%xmm7, %xmm6
	movdqa	.LCPI10_6(%rip), %xmm5
	paddd	%xmm5, %xmm3
	psrad	$16, %xmm3
	paddd	%xmm3, %xmm6
	movdqa	%xmm12, %xmm7
	movdqa	96(%rsp), %xmm3
	paddd	%xmm3, %xmm12
	paddd	%xmm14, %xmm14
	paddd	%xmm3, %xmm14
	paddd	%xmm5, %xmm1
	psrad	$16, %xmm1
	paddd	%xmm1, %xmm14
	packssdw	%xmm14, %xmm6
	movdqa	%xmm15, %xmm3
	movdqa	768(%rsp), %xmm1
	paddd	%xmm1, %xmm15
	paddd	%xmm11, %xmm11
	paddd	%xmm1, %xmm11
	paddd	%xmm5, %xmm13
	psrad	$16, %xmm13
	paddd	%xmm13, %xmm11
	movdqa	.LCPI10_1(%rip), %xmm1
	pmaddwd	%xmm1, %xmm10
	pmaddwd	%xmm1, %xmm7
	pmaddwd	%xmm1, %xmm3
	movdqa	688(%rsp), %xmm14
	pmaddwd	%xmm14, %xmm1
	movdqa	704(%rsp), %xmm13
	paddd	%xmm13, %xmm14
	paddd	%xmm0, %xmm0
	paddd	%xmm13, %xmm0
	paddd	%xmm5, %xmm2
	psrad	$16, %xmm2
	paddd	%xmm2, %xmm0
	packssdw	%xmm0, %xmm11
	paddd	%xmm5, %xmm1
	paddd	%xmm5, %xmm3
	paddd	%xmm5, %xmm7
	paddd	%xmm5, %xmm10
	psrad	$16, %xmm10
	paddd	%xmm9, %xmm10
	psrad	$16, %xmm7
	paddd	%xmm12, %xmm7
	packssdw	%xmm7, %xmm10
	psrad	$16, %xmm3
	paddd	%xmm15, %xmm3
	psrad	$16, %xmm1
	paddd	%xmm14, %xmm1
	packssdw	%xmm1, %xmm3
	movdqa	.LCPI10_4(%rip), %xmm0
	movdqa	304(%rsp), %xmm1
	psrad	$16, %xmm1
	movdqa	240(%rsp), %xmm2
	paddd	%xmm0, %xmm2
	paddd	%xmm1, %xmm2
	movdqa	256(%rsp), %xmm1
	psrad	$16, %xmm1
	paddd	%xmm0, %xmm4
	paddd	%xmm1, %xmm4
	packssdw	%xmm2, %xmm4
	movdqa	128(%rsp), %xmm2
	psrad	$16, %xmm2
	movdqa	224(%rsp), %xmm1
	psrad	$16, %xmm1
	movdqa	208(%rsp), %xmm5
	paddd	%xmm0, %xmm5
	paddd	%xmm1, %xmm5
	movdqa	%xmm11, %xmm1
	packuswb	%xmm6, %xmm1
	paddd	%xmm0, %xmm8
	paddd	%xmm2, %xmm8
	packssdw	%xmm5, %xmm8
	packuswb	%xmm8, %xmm4
	movdqa	%xmm3, %xmm2
	packuswb	%xmm10, %xmm2
	pshufd	$230, %xmm4, %xmm0
	punpcklbw	%xmm0, %xmm0
	pshufd	$78, %xmm0, %xmm0
	pshuflw	$233, %xmm0, %xmm0
	pshufhw	$148, %xmm0, %xmm5
	movdqa	.LCPI10_7(%rip), %xmm0
	pand	%xmm0, %xmm5
	pshuflw	$255, %xmm2, %xmm2
	pshufhw	$96, %xmm2, %xmm2
	movdqa	%xmm0, %xmm7
	pandn	%xmm2, %xmm7
	por	%xmm5, %xmm7
	movdqa	.LCPI10_8(%rip), %xmm2
	pshuflw	$246, %xmm1, %xmm1
	pshufhw	$0, %xmm1, %xmm5
	movdqa	%xmm2, %xmm1
	pandn	%xmm5, %xmm1
	pand	%xmm2, %xmm7
	por	%xmm7, %xmm1
	movdqa	%xmm4, %xmm5
	punpcklbw	%xmm4, %xmm5
	pshufd	$148, %xmm5, %xmm5
	pshuflw	$148, %xmm5, %xmm5
	packuswb	%xmm3, %xmm3
	pshuflw	$96, %xmm3, %xmm3
	pshufhw	$165, %xmm3, %xmm3
	pand	%xmm2, %xmm3
	pandn	%xmm5, %xmm2
	por	%xmm3, %xmm2
	packuswb	%xmm11, %xmm11
	pshuflw	$0, %xmm11, %xmm3
	pshufhw	$165, %xmm3, %xmm3
	movdqa	%xmm0, %xmm5
	pandn	%xmm3, %xmm5
	pand	%xmm0, %xmm2
	por	%xmm2, %xmm5
	punpckhbw	%xmm4, %xmm4
	pshufd	$233, %xmm4, %xmm2
	pshufhw	$233, %xmm2, %xmm2
	packuswb	%xmm10, %xmm10
	pshuflw	$165, %xmm10, %xmm3
	pshufhw	$255, %xmm3, %xmm3
	pand	%xmm0, %xmm3
	pandn	%xmm2, %xmm0
	por	%xmm3, %xmm0
	movdqa	.LCPI10_9(%rip), %xmm2
	pand	%xmm2, %xmm0
	packuswb	%xmm6, %xmm6
	pshuflw	$165, %xmm6, %xmm3
	pshufhw	$246, %xmm3, %xmm3
	pandn	%xmm3, %xmm2
	por	%xmm0, %xmm2
	movdqu	%xmm2, 32(%r9)
	movdqu	%xmm5, (%r9)
	movdqu	%xmm1, 16(%r9)
	addq	$16, %r10
	addq	$48, %r9
	cmpq	%r10, %rdi
	jne	.LBB10_231
	cmpq	%rdi, %rsi
	je	.LBB10_249
	testb	$12, %sil
	je	.LBB10_237
.LBB10_234:
	movq	%rdi, %r9
	movl	%esi, %edi
	andl	$60, %edi
	leaq	(%r9,%r9,2), %r10
	movq	56(%rsp), %r11
	addq	%r8, %r11
	addq	%r11, %r10
.LBB10_235:
	movd	320(%rsp,%r9), %xmm2
	movd	1088(%rsp,%r9), %xmm1
	movd	944(%rsp,%r9), %xmm5
	pxor	%xmm0, %xmm0
	punpcklbw	%xmm0, %xmm5
	punpcklwd	%xmm0, %xmm5
	movdqa	.LCPI10_0(%rip), %xmm4
	punpcklbw	%xmm0, %xmm2
	punpcklwd	%xmm0, %xmm2
	pshuflw	$232, %xmm5, %xmm6
	movdqa	%xmm2, %xmm7
	psubd	%xmm5, %xmm7
	paddd	%xmm4, %xmm5
	movdqa	.LCPI10_1(%rip), %xmm3
	pmaddwd	%xmm5, %xmm3
	punpcklbw	%xmm0, %xmm1
	punpcklwd	%xmm0, %xmm1
	pshufhw	$232, %xmm6, %xmm6
	pshufd	$232, %xmm6, %xmm8
	pshuflw	$232, %xmm1, %xmm6
	pshufhw	$232, %xmm6, %xmm6
	pshufd	$232, %xmm6, %xmm6
	punpcklwd	%xmm8, %xmm6
	pmaddwd	.LCPI10_2(%rip), %xmm6
	paddd	%xmm2, %xmm5
	paddd	.LCPI10_3(%rip), %xmm6
	psrad	$16, %xmm6
	paddd	%xmm7, %xmm6
	paddd	%xmm4, %xmm1
	movdqa	%xmm1, %xmm4
	paddd	%xmm4, %xmm4
	pmaddwd	.LCPI10_5(%rip), %xmm1
	movdqa	.LCPI10_6(%rip), %xmm7
	paddd	%xmm7, %xmm1
	psrad	$16, %xmm1
	paddd	%xmm2, %xmm4
	paddd	%xmm1, %xmm4
	packssdw	%xmm4, %xmm4
	packuswb	%xmm4, %xmm4
	paddd	%xmm7, %xmm3
	psrad	$16, %xmm3
	paddd	%xmm5, %xmm3
	paddd	.LCPI10_4(%rip), %xmm6
	packssdw	%xmm6, %xmm3
	packuswb	%xmm3, %xmm3
	punpcklbw	%xmm0, %xmm3
	pshufd	$231, %xmm3, %xmm0
	pshuflw	$220, %xmm0, %xmm0
	pshufhw	$198, %xmm3, %xmm1
	pshufd	$108, %xmm1, %xmm1
	pshuflw	$104, %xmm1, %xmm1
	pshufhw	$37, %xmm1, %xmm1
	packuswb	%xmm0, %xmm1
	movdqa	.LCPI10_10(%rip), %xmm0
	pand	%xmm0, %xmm1
	pshuflw	$80, %xmm4, %xmm2
	pshufd	$208, %xmm2, %xmm2
	pandn	%xmm2, %xmm0
	por	%xmm1, %xmm0
	movq	%xmm0, (%r10)
	pshufd	$238, %xmm0, %xmm0
	movd	%xmm0, 8(%r10)
	addq	$4, %r9
	addq	$12, %r10
	cmpq	%r9, %rdi
	jne	.LBB10_235
	cmpq	%rdi, %rsi
	je	.LBB10_249
.LBB10_237:
	leaq	(%rdi,%rdi,2), %r9
	addq	%r8, %r9
	addq	56(%rsp), %r9
	jmp	.LBB10_238
.LBB10_244:
	movb	%r8b, 2(%r9)
	incq	%rdi
	addq	$3, %r9
	cmpq	%rdi, %rsi
	je	.LBB10_249
.LBB10_238:
	movzbl	320(%rsp,%rdi), %r10d
	movzbl	944(%rsp,%rdi), %r11d
	leal	(%r11,%r10), %r8d
	imull	$26345, %r11d, %ebx
	addl	$-3339392, %ebx
	sarl	$16, %ebx
	leal	(%rbx,%r8), %r14d
	addl	$-128, %r14d
	xorl	%r8d, %r8d
	testl	%r14d, %r14d
	cmovlel	%r8d, %r14d
	cmpl	$255, %r14d
	jl	.LBB10_240
	movl	$255, %r14d
.LBB10_240:
	movzbl	1088(%rsp,%rdi), %ebx
	movb	%r14b, (%r9)
	imull	$18734, %r11d, %r14d
	imull	$-22554, %ebx, %r15d
	addl	%r15d, %r14d
	addl	$521728, %r14d
	sarl	$16, %r14d
	movl	%r10d, %r15d
	subl	%r11d, %r15d
	leal	(%r15,%r14), %r11d
	addl	$128, %r11d
	testl	%r11d, %r11d
	cmovlel	%r8d, %r11d
	cmpl	$255, %r11d
	jl	.LBB10_242
	movl	$255, %r11d
.LBB10_242:
	movb	%r11b, 1(%r9)
	leal	(%r10,%rbx,2), %r10d
	imull	$-14942, %ebx, %r11d
	addl	$1945344, %r11d
	sarl	$16, %r11d
	addl	%r11d, %r10d
	addl	$-256, %r10d
	testl	%r10d, %r10d
	cmovgl	%r10d, %r8d
	cmpl	$255, %r8d
	jl	.LBB10_244
	movl	$255, %r8d
	jmp	.LBB10_244
.LBB10_165:
	movq	736(%rsp), %r12
	movq	(%rsp), %r11
	movq	288(%rsp), %r13
	jmp	.LBB10_166
.LBB10_168:
	xorl	%r8d, %r8d
.LBB10_195:
	addq	%rax, %rdi
	movzbl	320(%rsp,%r8), %r9d
	movzbl	1088(%rsp,%r8), %r10d
	movzbl	944(%rsp,%r8), %r11d
	leaq	(%r8,%r8,2), %r8
	movb	%r9b, (%rdi,%r8)
	movb	%r10b, 1(%rdi,%r8)
	movb	%r11b, 2(%rdi,%r8)
	movq	(%rsp), %r11
.LBB10_196:
	addq	%r13, %rcx
	addq	%rsi, %rdx
	cmpq	%r11, %rdx
	jae	.LBB10_511
.LBB10_166:
	movq	%r11, %rsi
	subq	%rdx, %rsi
	leaq	(,%rbp,8), %rdi
	cmpq	%rsi, %rdi
	cmovbq	%rdi, %rsi
	pxor	%xmm0, %xmm0
	leaq	384(%rsp), %rdi
	movdqa	%xmm0, -48(%rdi)
	leaq	1113(%rsp), %r9
	movq	$0, -1(%r9)
	movq	$0, -7(%r9)
	leaq	969(%rsp), %r10
	movq	$0, -1(%r10)
	movq	$0, -7(%r10)
	movq	72(%rsp), %rdi
	movq	64(%rdi,%rcx), %xmm0
	movq	(%rdi,%rcx), %xmm1
	punpcklqdq	%xmm0, %xmm1
	movdqa	%xmm1, 320(%rsp)
	movq	32(%rsp), %rbx
	movzbl	(%rbx,%rcx), %edi
	movl	%edi, %r8d
	shll	$8, %r8d
	orl	%edi, %r8d
	movw	%r8w, 1088(%rsp)
	movzbl	1(%rbx,%rcx), %edi
	movl	%edi, %r8d
	shll	$8, %r8d
	orl	%edi, %r8d
	movw	%r8w, -23(%r9)
	movzbl	2(%rbx,%rcx), %edi
	movl	%edi, %r8d
	shll	$8, %r8d
	orl	%edi, %r8d
	movw	%r8w, -21(%r9)
	movzbl	3(%rbx,%rcx), %edi
	movl	%edi, %r8d
	shll	$8, %r8d
	orl	%edi, %r8d
	movw	%r8w, -19(%r9)
	movzbl	4(%rbx,%rcx), %edi
	movl	%edi, %r8d
	shll	$8, %r8d
	orl	%edi, %r8d
	movw	%r8w, -17(%r9)
	movzbl	5(%rbx,%rcx), %edi
	movl	%edi, %r8d
	shll	$8, %r8d
	orl	%edi, %r8d
	movw	%r8w, -15(%r9)
	movzbl	6(%rbx,%rcx), %edi
	movl	%edi, %r8d
	shll	$8, %r8d
	orl	%edi, %r8d
	movw	%r8w, -13(%r9)
	movzbl	7(%rbx,%rcx), %edi
	imull	$16843009, %edi, %edi
	movl	%edi, -11(%r9)
	movq	48(%rsp), %r9
	movzbl	(%r9,%rcx), %edi
	movl	%edi, %r8d
	shll	$8, %r8d
	orl	%edi, %r8d
	movw	%r8w, 944(%rsp)
	movzbl	1(%r9,%rcx), %edi
	movl	%edi, %r8d
	shll	$8, %r8d
	orl	%edi, %r8d
	movw	%r8w, -23(%r10)
	movzbl	2(%r9,%rcx), %edi
	movl	%edi, %r8d
	shll	$8, %r8d
	orl	%edi, %r8d
	movw	%r8w, -21(%r10)
	movzbl	3(%r9,%rcx), %edi
	movl	%edi, %r8d
	shll	$8, %r8d
	orl	%edi, %r8d
	movw	%r8w, -19(%r10)
	movzbl	4(%r9,%rcx), %edi
	movl	%edi, %r8d
	shll	$8, %r8d
	orl	%edi, %r8d
	movw	%r8w, -17(%r10)
	movzbl	5(%r9,%rcx), %edi
	movl	%edi, %r8d
	shll	$8, %r8d
	orl	%edi, %r8d
	movw	%r8w, -15(%r10)
	movzbl	6(%r9,%rcx), %edi
	movl	%edi, %r8d
	shll	$8, %r8d
	orl	%edi, %r8d
	movw	%r8w, -13(%r10)
	movzbl	7(%r9,%rcx), %edi
	imull	$16843009, %edi, %edi
	movl	%edi, -11(%r10)
	leaq	-1(%rsi), %r8
	cmpq	$31, %r8
	ja	.LBB10_196
	leaq	(%rdx,%rdx,2), %rdi
	testq	%r8, %r8
	je	.LBB10_168
	movl	%esi, %r9d
	andl	$62, %r9d
	movq	720(%rsp), %r8
	leaq	(%r8,%rdi), %r10
	xorl	%r8d, %r8d
.LBB10_193:
	movzbl	320(%rsp,%r8), %r11d
	movzbl	1088(%rsp,%r8), %ebx
	movzbl	944(%rsp,%r8), %r14d
	movb	%r11b, -2(%r10)
	movb	%bl, -1(%r10)
	movb	%r14b, (%r10)
	movzbl	321(%rsp,%r8), %r11d
	movzbl	1089(%rsp,%r8), %ebx
	movzbl	945(%rsp,%r8), %r14d
	movb	%r11b, 1(%r10)
	movb	%bl, 2(%r10)
	movb	%r14b, 3(%r10)
	addq	$2, %r8
	addq	$6, %r10
	cmpq	%r8, %r9
	jne	.LBB10_193
	testb	$1, %sil
	movq	(%rsp), %r11
	jne	.LBB10_195
	jmp	.LBB10_196
.LBB10_70:
	movq	144(%rsp), %rax
	decq	%rax
	movq	808(%rsp), %rcx
	decq	%rcx
	orq	%rax, %rcx
	cmpq	$3, %rcx
	movq	168(%rsp), %rsi
	movq	192(%rsp), %r14
	movq	(%rsp), %rdi
	ja	.LBB10_512
	movq	144(%rsp), %rcx
	cmpq	%rbp, %rcx
	cmovaq	%rcx, %rbp
	movq	808(%rsp), %rax
	cmpq	%rdx, %rax
	cmovaq	%rax, %rdx
	imulq	%rcx, %rax
	addq	%rax, %r9
	jmp	.LBB10_72
.LBB10_505:
	ud2
.Lfunc_end10:
	.size	tillsparrow_decode, .Lfunc_end10-tillsparrow_decode

	.section	.text.tillsparrow_has_comment,"ax",@progbits
	.globl	tillsparrow_has_comment
	.p2align	4
	.type	tillsparrow_has_comment,@function
tillsparrow_has_comment:
	pushq	%r15
	pushq	%r14
	pushq	%r13
	pushq	%r12
	pushq	%rbx
	subq	$464, %rsp
	movq	%rcx, %r14
	movq	%rdx, %r15
	movq	%rdi, %rbx
	movq	520(%rsp), %rax
	movq	512(%rsp), %rcx
	xorl	%r12d, %r12d
	testq	%rsi, %rsi
	sete	%r12b
	shll	$12, %r12d
	addq	%rsi, %r12
	movq	%r8, 24(%rsp)
	movq	%r9, 32(%rsp)
	movq	%rcx, 40(%rsp)
	leaq	48(%rsp), %rdi
	leaq	24(%rsp), %r8
	movq	%r12, %rsi
	xorl	%ecx, %ecx
	movq	%rax, %r9
	callq	"jpeg::inspect"
	movzbl	56(%rsp), %edx
	cmpb	$0, 48(%rsp)
	movq	88(%rsp), %r13
	xorps	%xmm0, %xmm0
	movaps	%xmm0, (%rsp)
	movq	$0, 16(%rsp)
	je	.LBB11_1
	cmpl	$10, %edx
	jne	.LBB11_3
	movq	72(%rsp), %rcx
	movq	80(%rsp), %rax
	jmp	.LBB11_5
.LBB11_1:
	movq	%rsp, %rdi
	movq	%r12, %rsi
	movq	%r15, %rdx
	movq	%r14, %rcx
	callq	"jpeg_header::comment"
	movzbl	(%rsp), %edx
	andl	$1, %edx
	xorl	%eax, %eax
	xorl	%ecx, %ecx
	xorl	%esi, %esi
	jmp	.LBB11_20
.LBB11_3:
	xorl	%ecx, %ecx
	xorl	%eax, %eax
.LBB11_5:
	movl	%edx, %esi
	leaq	.LJTI11_0(%rip), %rdi
	movslq	(%rdi,%rsi,4), %rsi
	addq	%rdi, %rsi
	jmpq	*%rsi
.LBB11_7:
	movl	$2, %esi
	jmp	.LBB11_19
.LBB11_13:
	movl	$9, %esi
	jmp	.LBB11_19
.LBB11_6:
	movl	$1, %esi
	jmp	.LBB11_20
.LBB11_8:
	movl	$3, %esi
	jmp	.LBB11_19
.LBB11_11:
	movl	$7, %esi
	jmp	.LBB11_19
.LBB11_9:
	movl	$5, %esi
	jmp	.LBB11_19
.LBB11_10:
	movl	$6, %esi
	jmp	.LBB11_19
.LBB11_14:
	movq	64(%rsp), %rdx
	movzbl	%dl, %edx
	leaq	.LJTI11_1(%rip), %rsi
	movslq	(%rsi,%rdx,4), %rdi
	addq	%rsi, %rdi
	jmpq	*%rdi
.LBB11_15:
	movl	$3, %esi
	jmp	.LBB11_20
.LBB11_18:
	movl	$4, %esi
	jmp	.LBB11_19
.LBB11_12:
	movl	$8, %esi
.LBB11_19:
	xorl	%edx, %edx
.LBB11_20:
	movq	%rsi, (%rbx)
	movq	%r13, 8(%rbx)
	movq	%rcx, 16(%rbx)
	movq	%rax, 24(%rbx)
	movq	%rdx, 32(%rbx)
	movq	%rbx, %rax
	addq	$464, %rsp
	popq	%rbx
	popq	%r12
	popq	%r13
	popq	%r14
	popq	%r15
	retq
.LBB11_16:
	movl	$10, %esi
	jmp	.LBB11_19
.LBB11_17:
	movl	$11, %esi
	jmp	.LBB11_19
.Lfunc_end11:
	.size	tillsparrow_has_comment, .Lfunc_end11-tillsparrow_has_comment
	.section	.rodata.tillsparrow_has_comment,"a",@progbits
	.p2align	2, 0x0
.LJTI11_0:
	.long	.LBB11_6-.LJTI11_0
	.long	.LBB11_7-.LJTI11_0
	.long	.LBB11_8-.LJTI11_0
	.long	.LBB11_18-.LJTI11_0
	.long	.LBB11_9-.LJTI11_0
	.long	.LBB11_10-.LJTI11_0
	.long	.LBB11_7-.LJTI11_0
	.long	.LBB11_11-.LJTI11_0
	.long	.LBB11_12-.LJTI11_0
	.long	.LBB11_13-.LJTI11_0
	.long	.LBB11_14-.LJTI11_0
.LJTI11_1:
	.long	.LBB11_15-.LJTI11_1
	.long	.LBB11_16-.LJTI11_1
	.long	.LBB11_17-.LJTI11_1
	.long	.LBB11_18-.LJTI11_1

	.section	.text.tillsparrow_inspect,"ax",@progbits
	.globl	tillsparrow_inspect
	.p2align	4
	.type	tillsparrow_inspect,@function
tillsparrow_inspect:
	pushq	%rbx
	subq	$448, %rsp
	movq	%rdi, %rbx
	movq	472(%rsp), %rax
	movq	464(%rsp), %rdi
	xorl	%r10d, %r10d
	testq	%rsi, %rsi
	sete	%r10b
	shll	$12, %r10d
	addq	%r10, %rsi
	movq	%r8, 8(%rsp)
	movq	%r9, 16(%rsp)
	movq	%rdi, 24(%rsp)
	andl	$1, %ecx
	leaq	32(%rsp), %rdi
	leaq	8(%rsp), %r8
	movq	%rax, %r9
	callq	"jpeg::inspect"
	movq	72(%rsp), %rdx
	movups	80(%rsp), %xmm3
	movq	96(%rsp), %rcx
	movups	392(%rsp), %xmm0
	movups	408(%rsp), %xmm1
	movups	424(%rsp), %xmm2
	movzbl	440(%rsp), %eax
	cmpb	$0, 32(%rsp)
	je	.LBB12_3
	movzbl	40(%rsp), %r8d
	cmpq	$10, %r8
	jne	.LBB12_4
	movq	56(%rsp), %rdi
	movq	64(%rsp), %rsi
	leaq	.LJTI12_0(%rip), %r9
	movslq	(%r9,%r8,4), %r8
	addq	%r9, %r8
	jmpq	*%r8
.LBB12_3:
	xorl	%esi, %esi
	xorl	%edi, %edi
	xorl	%r8d, %r8d
	jmp	.LBB12_16
.LBB12_4:
	xorl	%edi, %edi
	xorl	%esi, %esi
	leaq	.LJTI12_0(%rip), %r9
	movslq	(%r9,%r8,4), %r8
	addq	%r9, %r8
	jmpq	*%r8
.LBB12_5:
	movl	$2, %r8d
	jmp	.LBB12_16
.LBB12_6:
	movl	$9, %r8d
	jmp	.LBB12_16
.LBB12_7:
	movl	$1, %r8d
	jmp	.LBB12_16
.LBB12_9:
	movl	$7, %r8d
	jmp	.LBB12_16
.LBB12_10:
	movl	$5, %r8d
	jmp	.LBB12_16
.LBB12_11:
	movl	$6, %r8d
	jmp	.LBB12_16
.LBB12_12:
	movzbl	48(%rsp), %r8d
	leaq	.LJTI12_1(%rip), %r9
	movslq	(%r9,%r8,4), %r8
	addq	%r9, %r8
	jmpq	*%r8
.LBB12_8:
	movl	$3, %r8d
	jmp	.LBB12_16
.LBB12_14:
	movl	$4, %r8d
	jmp	.LBB12_16
.LBB12_15:
	movl	$8, %r8d
.LBB12_16:
	andl	$1, %eax
	movq	%r8, (%rbx)
	movq	%rdx, 8(%rbx)
	movq	%rdi, 16(%rbx)
	movq	%rsi, 24(%rbx)
	movups	%xmm3, 32(%rbx)
	movq	%rcx, 48(%rbx)
	movups	104(%rsp), %xmm3
	movups	120(%rsp), %xmm4
	movups	%xmm4, 72(%rbx)
	movups	%xmm3, 56(%rbx)
	movups	136(%rsp), %xmm3
	movups	152(%rsp), %xmm4
	movups	%xmm4, 104(%rbx)
	movups	%xmm3, 88(%rbx)
	movups	168(%rsp), %xmm3
	movups	184(%rsp), %xmm4
	movups	%xmm4, 136(%rbx)
	movups	%xmm3, 120(%rbx)
	movups	200(%rsp), %xmm3
	movups	216(%rsp), %xmm4
	movups	%xmm4, 168(%rbx)
	movups	%xmm3, 152(%rbx)
	movups	328(%rsp), %xmm3
	movups	344(%rsp), %xmm4
	movups	%xmm4, 200(%rbx)
	movups	%xmm3, 184(%rbx)
	movups	360(%rsp), %xmm3
	movups	376(%rsp), %xmm4
	movups	%xmm4, 232(%rbx)
	movups	%xmm3, 216(%rbx)
	movups	232(%rsp), %xmm3
	movups	248(%rsp), %xmm4
	movups	%xmm4, 264(%rbx)
	movups	%xmm3, 248(%rbx)
	movups	264(%rsp), %xmm3
	movups	280(%rsp), %xmm4
	movups	%xmm4, 296(%rbx)
	movups	%xmm3, 280(%rbx)
	movups	296(%rsp), %xmm3
	movups	312(%rsp), %xmm4
	movups	%xmm4, 328(%rbx)
	movups	%xmm3, 312(%rbx)
	movups	%xmm0, 344(%rbx)
	movups	%xmm1, 360(%rbx)
	movups	%xmm2, 376(%rbx)
	movq	%rax, 392(%rbx)
	movq	%rbx, %rax
	addq	$448, %rsp
	popq	%rbx
	retq
.LBB12_17:
	movl	$10, %r8d
	jmp	.LBB12_16
.LBB12_18:
	movl	$11, %r8d
	jmp	.LBB12_16
.Lfunc_end12:
	.size	tillsparrow_inspect, .Lfunc_end12-tillsparrow_inspect
	.section	.rodata.tillsparrow_inspect,"a",@progbits
	.p2align	2, 0x0
.LJTI12_0:
	.long	.LBB12_7-.LJTI12_0
	.long	.LBB12_5-.LJTI12_0
	.long	.LBB12_8-.LJTI12_0
	.long	.LBB12_14-.LJTI12_0
	.long	.LBB12_10-.LJTI12_0
	.long	.LBB12_11-.LJTI12_0
	.long	.LBB12_5-.LJTI12_0
	.long	.LBB12_9-.LJTI12_0
	.long	.LBB12_15-.LJTI12_0
	.long	.LBB12_6-.LJTI12_0
	.long	.LBB12_12-.LJTI12_0
.LJTI12_1:
	.long	.LBB12_8-.LJTI12_1
	.long	.LBB12_17-.LJTI12_1
	.long	.LBB12_18-.LJTI12_1
	.long	.LBB12_14-.LJTI12_1

	.ident	"rattle logic=dac8208d650f15bf3e2dc313a14fa4c783a3acf887bdfab66e1714b038d9e11b"
	.section	".note.GNU-stack","",@progbits
