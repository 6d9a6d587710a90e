	.file	"rattle"
	.section	".text.jpeg_header_state::frame","ax",@progbits
	.p2align	4
	.type	"jpeg_header_state::frame",@function
"jpeg_header_state::frame":
	pushq	%rbp
	pushq	%r15
	pushq	%r14
	pushq	%r13
	pushq	%r12
	pushq	%rbx
	subq	$568, %rsp
	movq	272(%rcx), %r14
	xorps	%xmm0, %xmm0
	cmpq	$0, 136(%rcx)
	movaps	%xmm0, 240(%rsp)
	movaps	%xmm0, 224(%rsp)
	movaps	%xmm0, 208(%rsp)
	movaps	%xmm0, 192(%rsp)
	movaps	%xmm0, 176(%rsp)
	movaps	%xmm0, 160(%rsp)
	je	.LBB0_2
.LBB0_1:
	movq	$1, (%rdi)
	movq	$3, 8(%rdi)
	jmp	.LBB0_106
.LBB0_2:
	cmpq	$6, %rdx
	jb	.LBB0_105
	cmpb	$8, (%rsi)
	jne	.LBB0_105
	movzbl	5(%rsi), %r15d
	leal	-1(%r15), %eax
	cmpb	$4, %al
	jae	.LBB0_105
	leaq	(%r15,%r15,2), %rax
	addq	$6, %rax
	cmpq	%rax, %rdx
	jne	.LBB0_1
	movq	%rcx, %r12
	movq	%r8, (%rsp)
	movq	%rdi, %rbx
	leaq	264(%rsp), %rdi
	movq	%rsi, %r13
	movq	%rdx, %rbp
	callq	"jpeg_header_rules::frame_of"
	cmpq	$0, 264(%rsp)
	je	.LBB0_104
	cmpq	$0, 272(%rsp)
	je	.LBB0_104
	testq	%r15, %r15
	je	.LBB0_19
	leal	-5(%rbp), %eax
	movzbl	%al, %ecx
	imull	$171, %ecx, %eax
	shrl	$9, %eax
	cmpb	$3, %cl
	jae	.LBB0_11
.LBB0_10:
	movl	%eax, %ecx
	jmp	.LBB0_18
.LBB0_11:
	movzbl	7(%r13), %ecx
	movl	%ecx, %edx
	shrl	$4, %edx
	decl	%edx
	cmpl	$3, %edx
	ja	.LBB0_17
	andl	$15, %ecx
	decl	%ecx
	cmpl	$3, %ecx
	ja	.LBB0_17
	cmpl	$1, %r15d
	je	.LBB0_19
	leal	-8(%rbp), %ecx
	cmpb	$3, %cl
	jb	.LBB0_10
	movzbl	10(%r13), %edx
	movl	%edx, %esi
	shrl	$4, %esi
	decl	%esi
	movb	$1, %cl
	cmpl	$3, %esi
	ja	.LBB0_18
	andl	$15, %edx
	decl	%edx
	cmpl	$3, %edx
	ja	.LBB0_18
	cmpl	$2, %r15d
	je	.LBB0_19
	leal	-11(%rbp), %ecx
	cmpb	$3, %cl
	jb	.LBB0_10
	movzbl	13(%r13), %edx
	movl	%edx, %esi
	shrl	$4, %esi
	decl	%esi
	movb	$2, %cl
	cmpl	$3, %esi
	ja	.LBB0_18
	andl	$15, %edx
	decl	%edx
	cmpl	$3, %edx
	ja	.LBB0_18
	cmpl	$3, %r15d
	je	.LBB0_19
	leal	-14(%rbp), %ecx
	cmpb	$3, %cl
	jb	.LBB0_10
	movzbl	16(%r13), %edx
	movl	%edx, %esi
	shrl	$4, %esi
	decl	%esi
	movb	$3, %cl
	cmpl	$3, %esi
	ja	.LBB0_18
	andl	$15, %edx
	decl	%edx
	cmpl	$3, %edx
	ja	.LBB0_18
	cmpl	$4, %r15d
	je	.LBB0_19
	leal	-17(%rbp), %ecx
	cmpb	$3, %cl
	movzbl	%al, %eax
	movl	$4, %ecx
	cmovbl	%eax, %ecx
	jmp	.LBB0_18
.LBB0_17:
	xorl	%ecx, %ecx
.LBB0_18:
	cmpb	%r15b, %cl
	jb	.LBB0_104
.LBB0_19:
	movq	280(%rsp), %rax
	testq	%rax, %rax
	je	.LBB0_22
	cmpq	$3, 384(%rsp)
	ja	.LBB0_104
	cmpq	$1, %rax
	jne	.LBB0_39
.LBB0_22:
	leaq	8(%rsp), %rdi
	leaq	264(%rsp), %rsi
	movl	$152, %edx
	callq	memcpy@PLT
	movq	24(%rsp), %rcx
	cmpq	$4, %rcx
	movl	$4, %eax
	cmovbq	%rcx, %rax
	testq	%rcx, %rcx
	movq	%rbx, %rdi
	movq	%rbp, %rdx
	movq	%r13, %rsi
	je	.LBB0_107
	leaq	-1(%rax), %r8
	cmpq	$4, %r8
	jb	.LBB0_34
	movq	96(%rsp), %r10
	xorl	%r15d, %r15d
	movq	%r8, %r11
	xorl	%r9d, %r9d
	jmp	.LBB0_28
.LBB0_25:
	orq	$1, %r15
.LBB0_26:
	cmpq	%r9, %r15
	jb	.LBB0_104
.LBB0_27:
	addq	$-4, %r11
	movq	%r9, %r15
	cmpq	$3, %r11
	jbe	.LBB0_35
.LBB0_28:
	subq	$-4, %r9
	je	.LBB0_27
	cmpq	%r10, 72(%rsp,%r9,8)
	je	.LBB0_26
	cmpq	%r10, 80(%rsp,%r9,8)
	je	.LBB0_25
	cmpq	%r10, 88(%rsp,%r9,8)
	jne	.LBB0_33
	orq	$2, %r15
	jmp	.LBB0_26
.LBB0_33:
	addq	$3, %r15
	cmpq	%r10, 96(%rsp,%r9,8)
	cmovneq	%r9, %r15
	jmp	.LBB0_26
.LBB0_34:
	xorl	%r9d, %r9d
.LBB0_35:
	cmpq	%r8, %r9
	jae	.LBB0_45
	movq	96(%rsp), %r10
.LBB0_37:
	cmpq	%r10, 104(%rsp,%r9,8)
	je	.LBB0_44
	incq	%r9
	cmpq	%r9, %r8
	jne	.LBB0_37
	jmp	.LBB0_45
.LBB0_39:
	cmpq	$3, 392(%rsp)
	ja	.LBB0_104
	cmpq	$2, %rax
	je	.LBB0_22
	cmpq	$3, 400(%rsp)
	ja	.LBB0_104
	cmpq	$3, %rax
	je	.LBB0_22
	cmpq	$3, 408(%rsp)
	ja	.LBB0_104
	jmp	.LBB0_22
.LBB0_44:
	cmpq	%r8, %r9
	jb	.LBB0_104
.LBB0_45:
	cmpq	$1, %rcx
	je	.LBB0_107
	leaq	-2(%rax), %r8
	cmpq	$4, %r8
	jb	.LBB0_57
	movq	104(%rsp), %r10
	xorl	%r15d, %r15d
	movq	%r8, %r11
	xorl	%r9d, %r9d
	jmp	.LBB0_51
.LBB0_48:
	orq	$1, %r15
.LBB0_49:
	cmpq	%r9, %r15
	jb	.LBB0_104
.LBB0_50:
	addq	$-4, %r11
	movq	%r9, %r15
	cmpq	$3, %r11
	jbe	.LBB0_58
.LBB0_51:
	subq	$-4, %r9
	je	.LBB0_50
	cmpq	%r10, 80(%rsp,%r9,8)
	je	.LBB0_49
	cmpq	%r10, 88(%rsp,%r9,8)
	je	.LBB0_48
	cmpq	%r10, 96(%rsp,%r9,8)
	jne	.LBB0_56
	orq	$2, %r15
	jmp	.LBB0_49
.LBB0_56:
	addq	$3, %r15
	cmpq	%r10, 104(%rsp,%r9,8)
	cmovneq	%r9, %r15
	jmp	.LBB0_49
.LBB0_57:
	xorl	%r9d, %r9d
.LBB0_58:
	cmpq	%r8, %r9
	jae	.LBB0_63
	movq	104(%rsp), %r10
.LBB0_60:
	cmpq	%r10, 112(%rsp,%r9,8)
	je	.LBB0_62
	incq	%r9
	cmpq	%r9, %r8
	jne	.LBB0_60
	jmp	.LBB0_63
.LBB0_62:
	cmpq	%r8, %r9
	jb	.LBB0_104
.LBB0_63:
	cmpq	$2, %rcx
	je	.LBB0_107
	leaq	-3(%rax), %r8
	cmpq	$4, %r8
	jb	.LBB0_80
	movq	112(%rsp), %r10
	xorl	%r15d, %r15d
	movq	%r8, %r11
	xorl	%r9d, %r9d
	jmp	.LBB0_69
.LBB0_66:
	orq	$1, %r15
.LBB0_67:
	cmpq	%r9, %r15
	jb	.LBB0_104
.LBB0_68:
	addq	$-4, %r11
	movq	%r9, %r15
	cmpq	$3, %r11
	jbe	.LBB0_81
.LBB0_69:
	subq	$-4, %r9
	je	.LBB0_68
	cmpq	%r10, 88(%rsp,%r9,8)
	je	.LBB0_67
	cmpq	%r10, 96(%rsp,%r9,8)
	je	.LBB0_66
	cmpq	%r10, 104(%rsp,%r9,8)
	jne	.LBB0_74
	orq	$2, %r15
	jmp	.LBB0_67
.LBB0_74:
	addq	$3, %r15
	cmpq	%r10, 112(%rsp,%r9,8)
	cmovneq	%r9, %r15
	jmp	.LBB0_67
.LBB0_80:
	xorl	%r9d, %r9d
.LBB0_81:
	cmpq	%r8, %r9
	jae	.LBB0_86
	movq	112(%rsp), %r10
.LBB0_83:
	cmpq	%r10, 120(%rsp,%r9,8)
	je	.LBB0_85
	incq	%r9
	cmpq	%r9, %r8
	jne	.LBB0_83
	jmp	.LBB0_86
.LBB0_85:
	cmpq	%r8, %r9
	jb	.LBB0_104
.LBB0_86:
	cmpq	$3, %rcx
	je	.LBB0_107
	addq	$-4, %rax
	cmpq	$4, %rax
	jb	.LBB0_98
	movq	120(%rsp), %r8
	xorl	%r10d, %r10d
	movq	%rax, %r9
	xorl	%ecx, %ecx
	jmp	.LBB0_92
.LBB0_89:
	orq	$1, %r10
.LBB0_90:
	cmpq	%rcx, %r10
	jb	.LBB0_104
.LBB0_91:
	addq	$-4, %r9
	movq	%rcx, %r10
	cmpq	$3, %r9
	jbe	.LBB0_99
.LBB0_92:
	subq	$-4, %rcx
	je	.LBB0_91
	cmpq	%r8, 96(%rsp,%rcx,8)
	je	.LBB0_90
	cmpq	%r8, 104(%rsp,%rcx,8)
	je	.LBB0_89
	cmpq	%r8, 112(%rsp,%rcx,8)
	jne	.LBB0_97
	orq	$2, %r10
	jmp	.LBB0_90
.LBB0_97:
	addq	$3, %r10
	cmpq	%r8, 120(%rsp,%rcx,8)
	cmovneq	%rcx, %r10
	jmp	.LBB0_90
.LBB0_98:
	xorl	%ecx, %ecx
.LBB0_99:
	cmpq	%rax, %rcx
	jae	.LBB0_107
	movq	120(%rsp), %r8
.LBB0_101:
	cmpq	%r8, 128(%rsp,%rcx,8)
	je	.LBB0_103
	incq	%rcx
	cmpq	%rcx, %rax
	jne	.LBB0_101
	jmp	.LBB0_107
.LBB0_103:
	cmpq	%rax, %rcx
	jae	.LBB0_107
.LBB0_104:
	movq	%rbx, %rdi
.LBB0_105:
	movq	$1, (%rdi)
	movq	$4, 8(%rdi)
.LBB0_106:
	addq	$16, %rdi
	movl	$368, %edx
	xorl	%esi, %esi
	addq	$568, %rsp
	popq	%rbx
	popq	%r12
	popq	%r13
	popq	%r14
	popq	%r15
	popq	%rbp
	jmp	memset@PLT
.LBB0_107:
	movq	280(%rsp), %rcx
	leaq	-1(%rcx), %rax
	cmpq	$3, %rax
	ja	.LBB0_105
	movq	288(%rsp), %r8
	movq	320(%rsp), %rax
	leaq	-1(%r8), %r9
	leaq	-1(%rax), %r10
	orq	%r9, %r10
	cmpq	$3, %r10
	ja	.LBB0_105
	imulq	%r8, %rax
	cmpq	$1, %rcx
	jne	.LBB0_112
.LBB0_110:
	cmpq	$11, %rax
	jae	.LBB0_105
	leaq	416(%rsp), %rbx
	movq	%rdi, %r15
	movq	%rbx, %rdi
	callq	"jpeg_header_rules::frame_of"
	movups	104(%r12), %xmm0
	movaps	%xmm0, 240(%rsp)
	movups	88(%r12), %xmm0
	movaps	%xmm0, 224(%rsp)
	movups	24(%r12), %xmm0
	movups	40(%r12), %xmm1
	movups	56(%r12), %xmm2
	movups	72(%r12), %xmm3
	movaps	%xmm3, 208(%rsp)
	movaps	%xmm2, 192(%rsp)
	movaps	%xmm1, 176(%rsp)
	movaps	%xmm0, 160(%rsp)
	xorps	%xmm0, %xmm0
	movups	%xmm0, (%r15)
	movq	(%rsp), %rax
	movq	%rax, 16(%r15)
	movups	%xmm0, 24(%r15)
	movaps	160(%rsp), %xmm0
	movaps	176(%rsp), %xmm1
	movaps	192(%rsp), %xmm2
	movaps	208(%rsp), %xmm3
	movups	%xmm0, 40(%r15)
	movups	%xmm1, 56(%r15)
	movups	%xmm2, 72(%r15)
	movups	%xmm3, 88(%r15)
	movaps	224(%rsp), %xmm0
	movups	%xmm0, 104(%r15)
	movaps	240(%rsp), %xmm0
	movups	%xmm0, 120(%r15)
	leaq	136(%r15), %rdi
	movl	$152, %edx
	movq	%rbx, %rsi
	callq	memcpy@PLT
	movq	%r14, 288(%r15)
	xorps	%xmm0, %xmm0
	movups	%xmm0, 296(%r15)
	movups	%xmm0, 312(%r15)
	movups	%xmm0, 328(%r15)
	movups	%xmm0, 344(%r15)
	movups	%xmm0, 360(%r15)
	movq	$0, 376(%r15)
	addq	$568, %rsp
	popq	%rbx
	popq	%r12
	popq	%r13
	popq	%r14
	popq	%r15
	popq	%rbp
	retq
.LBB0_112:
	movq	296(%rsp), %r9
	movq	328(%rsp), %r8
	leaq	-1(%r9), %r10
	leaq	-1(%r8), %r11
	orq	%r10, %r11
	cmpq	$3, %r11
	ja	.LBB0_105
	imulq	%r9, %r8
	addq	%r8, %rax
	cmpq	$2, %rcx
	je	.LBB0_110
	movq	304(%rsp), %rsi
	movq	336(%rsp), %rdx
	leaq	-1(%rsi), %r8
	leaq	-1(%rdx), %r9
	orq	%r8, %r9
	cmpq	$3, %r9
	ja	.LBB0_105
	imulq	%rsi, %rdx
	addq	%rdx, %rax
	cmpq	$3, %rcx
	jne	.LBB0_117
	movq	%rbx, %rdi
	movq	%rbp, %rdx
	movq	%r13, %rsi
	jmp	.LBB0_110
.LBB0_117:
	movq	312(%rsp), %r8
	movq	344(%rsp), %rcx
	leaq	-1(%r8), %rdx
	leaq	-1(%rcx), %rsi
	orq	%rdx, %rsi
	cmpq	$3, %rsi
	movq	%rbx, %rdi
	ja	.LBB0_105
	movq	%rbp, %rdx
	movq	%r13, %rsi
	imulq	%r8, %rcx
	addq	%rcx, %rax
	jmp	.LBB0_110
.Lfunc_end0:
	.size	"jpeg_header_state::frame", .Lfunc_end0-"jpeg_header_state::frame"

	.section	".text.jpeg_header_rules::frame_of","ax",@progbits
	.p2align	4
	.type	"jpeg_header_rules::frame_of",@function
"jpeg_header_rules::frame_of":
	pushq	%rbp
	pushq	%r15
	pushq	%r14
	pushq	%r13
	pushq	%r12
	pushq	%rbx
	movzbl	5(%rsi), %eax
	testq	%rax, %rax
	je	.LBB1_5
	cmpq	$8, %rdx
	jb	.LBB1_6
	movzbl	7(%rsi), %r12d
	cmpl	$1, %eax
	je	.LBB1_7
.LBB1_3:
	cmpq	$11, %rdx
	jb	.LBB1_18
	movzbl	10(%rsi), %ecx
	jmp	.LBB1_19
.LBB1_5:
	xorl	%r11d, %r11d
	xorl	%r12d, %r12d
	jmp	.LBB1_8
.LBB1_6:
	xorl	%r12d, %r12d
	cmpl	$1, %eax
	jne	.LBB1_3
.LBB1_7:
	xorl	%r11d, %r11d
.LBB1_8:
	xorl	%ecx, %ecx
.LBB1_9:
	xorl	%r9d, %r9d
.LBB1_10:
	movzbl	3(%rsi), %r10d
	movzbl	4(%rsi), %ebx
	movq	%rbx, -8(%rsp)
	movzbl	1(%rsi), %ebx
	movzbl	2(%rsi), %r14d
	movq	%r14, -16(%rsp)
	cmpl	$1, %eax
	jne	.LBB1_13
	cmpq	$7, %rdx
	jb	.LBB1_16
	movzbl	6(%rsi), %ecx
	movq	%rcx, -72(%rsp)
	movl	$1, %ecx
	movq	%rcx, -40(%rsp)
	xorl	%r9d, %r9d
	movq	$0, -56(%rsp)
	movq	$0, -48(%rsp)
	movl	$1, %r11d
	movq	$0, -24(%rsp)
	movq	$0, -80(%rsp)
	movq	$0, -32(%rsp)
	xorl	%ecx, %ecx
	jmp	.LBB1_27
.LBB1_13:
	movzbl	%r11b, %r8d
	movl	%r8d, %r11d
	shrl	$4, %r11d
	movq	%r11, -80(%rsp)
	movl	%ecx, %r11d
	shrl	$4, %r11d
	movq	%r11, -24(%rsp)
	movl	%r12d, %r11d
	shrl	$4, %r11d
	movl	%r9d, %r14d
	shrl	$4, %r14d
	movq	%r14, -32(%rsp)
	testq	%rax, %rax
	setne	%bpl
	andl	$15, %r8d
	movq	%r8, -56(%rsp)
	andl	$15, %ecx
	movq	%rcx, -48(%rsp)
	andl	$15, %r12d
	andl	$15, %r9d
	cmpq	$7, %rdx
	setae	%r14b
	testb	%r14b, %bpl
	movq	%r12, -40(%rsp)
	je	.LBB1_17
	movzbl	6(%rsi), %ecx
	cmpq	$10, %rdx
	movq	%rcx, -72(%rsp)
	jb	.LBB1_23
	movzbl	9(%rsi), %ecx
	jmp	.LBB1_24
.LBB1_16:
	movl	$1, %r11d
	xorl	%r15d, %r15d
	xorl	%r8d, %r8d
	xorl	%ecx, %ecx
	xorl	%r14d, %r14d
	movq	$0, -32(%rsp)
	xorl	%esi, %esi
	movq	$0, -24(%rsp)
	movl	$1, %edx
	movq	%rdx, -40(%rsp)
	movq	$0, -48(%rsp)
	movq	$0, -56(%rsp)
	xorl	%r9d, %r9d
	xorl	%r13d, %r13d
	xorl	%r12d, %r12d
	xorl	%ebp, %ebp
	xorl	%edx, %edx
	jmp	.LBB1_44
.LBB1_17:
	xorl	%r15d, %r15d
	xorl	%r8d, %r8d
	xorl	%ecx, %ecx
	xorl	%r14d, %r14d
	xorl	%r13d, %r13d
	xorl	%r12d, %r12d
	xorl	%ebp, %ebp
	xorl	%edx, %edx
	movq	-80(%rsp), %rsi
	jmp	.LBB1_44
.LBB1_18:
	xorl	%ecx, %ecx
.LBB1_19:
	cmpb	$3, %al
	setae	%r9b
	cmpq	$14, %rdx
	setae	%r10b
	andb	%r9b, %r10b
	cmpb	$1, %r10b
	jne	.LBB1_22
	movzbl	13(%rsi), %r11d
	cmpl	$3, %eax
	setne	%r9b
	cmpq	$17, %rdx
	setae	%r10b
	andb	%r9b, %r10b
	cmpb	$1, %r10b
	jne	.LBB1_9
	movzbl	16(%rsi), %r9d
	jmp	.LBB1_10
.LBB1_22:
	xorl	%r11d, %r11d
	jmp	.LBB1_9
.LBB1_23:
	xorl	%ecx, %ecx
.LBB1_24:
	cmpb	$3, %al
	setae	%bpl
	cmpq	$13, %rdx
	setae	%r14b
	andb	%bpl, %r14b
	cmpb	$1, %r14b
	jne	.LBB1_27
	movzbl	12(%rsi), %r13d
	cmpl	$3, %eax
	setne	%bpl
	cmpq	$16, %rdx
	setae	%r14b
	andb	%bpl, %r14b
	cmpb	$1, %r14b
	jne	.LBB1_31
	movzbl	15(%rsi), %r15d
	jmp	.LBB1_32
.LBB1_27:
	xorl	%r15d, %r15d
	movl	$0, %r13d
	movl	$0, %r14d
	movl	$0, %r12d
	cmpq	$9, %rdx
	jae	.LBB1_32
	cmpl	$1, %eax
	jne	.LBB1_33
.LBB1_29:
	xorl	%r13d, %r13d
	xorl	%ebp, %ebp
	xorl	%edx, %edx
	jmp	.LBB1_40
.LBB1_31:
	xorl	%r15d, %r15d
.LBB1_32:
	movzbl	%r13b, %r14d
	movzbl	8(%rsi), %r12d
	cmpl	$1, %eax
	je	.LBB1_29
.LBB1_33:
	cmpq	$12, %rdx
	movq	%r11, -64(%rsp)
	jb	.LBB1_35
	movzbl	11(%rsi), %ebp
	jmp	.LBB1_36
.LBB1_35:
	xorl	%ebp, %ebp
.LBB1_36:
	cmpb	$3, %al
	setae	%r13b
	cmpq	$15, %rdx
	setae	%r11b
	andb	%r13b, %r11b
	cmpb	$1, %r11b
	jne	.LBB1_39
	movq	%rcx, %r8
	movzbl	14(%rsi), %r13d
	cmpl	$3, %eax
	setne	%r11b
	cmpq	$18, %rdx
	setae	%dl
	andb	%r11b, %dl
	cmpb	$1, %dl
	jne	.LBB1_41
	movzbl	17(%rsi), %edx
	jmp	.LBB1_42
.LBB1_39:
	xorl	%r13d, %r13d
	xorl	%edx, %edx
	movq	-64(%rsp), %r11
.LBB1_40:
	movq	-80(%rsp), %rsi
	movq	%rcx, %r8
	jmp	.LBB1_43
.LBB1_41:
	xorl	%edx, %edx
.LBB1_42:
	movq	-64(%rsp), %r11
	movq	-80(%rsp), %rsi
.LBB1_43:
	movq	-72(%rsp), %rcx
.LBB1_44:
	shll	$8, %ebx
	addq	-16(%rsp), %rbx
	shll	$8, %r10d
	addq	-8(%rsp), %r10
	movq	%r10, (%rdi)
	movq	%rbx, 8(%rdi)
	movq	%rax, 16(%rdi)
	movq	%r11, 24(%rdi)
	movq	-24(%rsp), %rax
	movq	%rax, 32(%rdi)
	movq	%rsi, 40(%rdi)
	movq	-32(%rsp), %rax
	movq	%rax, 48(%rdi)
	movq	-40(%rsp), %rax
	movq	%rax, 56(%rdi)
	movq	-48(%rsp), %rax
	movq	%rax, 64(%rdi)
	movq	-56(%rsp), %rax
	movq	%rax, 72(%rdi)
	movq	%r9, 80(%rdi)
	movq	%rcx, 88(%rdi)
	movq	%r8, 96(%rdi)
	movq	%r14, 104(%rdi)
	movq	%r15, 112(%rdi)
	movq	%r12, 120(%rdi)
	movq	%rbp, 128(%rdi)
	movzbl	%r13b, %eax
	movq	%rax, 136(%rdi)
	movq	%rdx, 144(%rdi)
	popq	%rbx
	popq	%r12
	popq	%r13
	popq	%r14
	popq	%r15
	popq	%rbp
	retq
.Lfunc_end1:
	.size	"jpeg_header_rules::frame_of", .Lfunc_end1-"jpeg_header_rules::frame_of"

	.section	".text.jpeg_header_state::scan","ax",@progbits
	.p2align	4
	.type	"jpeg_header_state::scan",@function
"jpeg_header_state::scan":
	pushq	%rbp
	pushq	%r15
	pushq	%r14
	pushq	%r13
	pushq	%r12
	pushq	%rbx
	subq	$600, %rsp
	movq	136(%rcx), %r11
	testq	%r11, %r11
	je	.LBB2_1
	movq	120(%rcx), %r10
	movq	128(%rcx), %r9
	leaq	-1(%r10), %rax
	cmpq	$65535, %rax
	setb	%al
	leaq	-1(%r9), %rbx
	cmpq	$65535, %rbx
	setb	%bl
	andb	%al, %bl
	cmpb	$1, %bl
	jne	.LBB2_44
	cmpq	$4, %r11
	ja	.LBB2_44
	movq	144(%rcx), %rbx
	movq	176(%rcx), %rbp
	leaq	-1(%rbx), %rax
	leaq	-1(%rbp), %r14
	orq	%rax, %r14
	cmpq	$3, %r14
	ja	.LBB2_44
	movq	208(%rcx), %rax
	movq	%rax, -8(%rsp)
	movq	216(%rcx), %rax
	movq	%rax, -16(%rsp)
	movq	224(%rcx), %rax
	movq	%rax, -24(%rsp)
	movq	232(%rcx), %rax
	movq	%rax, -32(%rsp)
	movq	272(%rcx), %rax
	movq	%rax, 24(%rsp)
	movq	%rbp, %r13
	imulq	%rbx, %r13
	cmpq	$1, %r11
	jne	.LBB2_7
.LBB2_13:
	cmpq	$10, %r13
	ja	.LBB2_44
	testq	%rdx, %rdx
	je	.LBB2_44
	movzbl	(%rsi), %eax
	cmpq	%rax, %r11
	jne	.LBB2_44
	leaq	4(,%r11,2), %r14
	cmpq	%r14, %rdx
	jne	.LBB2_44
	cmpb	$63, -2(%rsi,%rdx)
	jne	.LBB2_44
	movzbl	-1(%rsi,%rdx), %r14d
	orb	-3(%rsi,%rdx), %r14b
	jne	.LBB2_44
	testb	%al, %al
	je	.LBB2_41
	movzbl	1(%rsi), %r14d
	cmpq	%r14, -8(%rsp)
	jne	.LBB2_1
	cmpb	$1, %al
	jne	.LBB2_22
.LBB2_37:
	movl	$2, %eax
	movq	%r11, %r12
	jmp	.LBB2_38
.LBB2_7:
	movq	152(%rcx), %r12
	movq	184(%rcx), %rax
	leaq	-1(%r12), %r15
	leaq	-1(%rax), %r14
	orq	%r15, %r14
	cmpq	$3, %r14
	ja	.LBB2_44
	cmpq	%rbx, %r12
	cmovaq	%r12, %rbx
	cmpq	%rbp, %rax
	cmovaq	%rax, %rbp
	imulq	%r12, %rax
	addq	%rax, %r13
	cmpq	$2, %r11
	je	.LBB2_13
	movq	160(%rcx), %r12
	movq	192(%rcx), %rax
	leaq	-1(%r12), %r14
	leaq	-1(%rax), %r15
	orq	%r14, %r15
	cmpq	$3, %r15
	ja	.LBB2_44
	cmpq	%rbx, %r12
	cmovaq	%r12, %rbx
	cmpq	%rbp, %rax
	cmovaq	%rax, %rbp
	imulq	%r12, %rax
	addq	%rax, %r13
	cmpq	$3, %r11
	je	.LBB2_13
	movq	168(%rcx), %r12
	movq	200(%rcx), %rax
	leaq	-1(%r12), %r14
	leaq	-1(%rax), %r15
	orq	%r14, %r15
	cmpq	$3, %r15
	ja	.LBB2_44
	cmpq	%rbx, %r12
	cmovaq	%r12, %rbx
	cmpq	%rbp, %rax
	cmovaq	%rax, %rbp
	imulq	%r12, %rax
	addq	%rax, %r13
	jmp	.LBB2_13
.LBB2_40:
	addq	$2, %rax
	decq	%r12
	je	.LBB2_41
.LBB2_38:
	cmpq	%rdx, %rax
	jae	.LBB2_40
	testb	$-52, (%rsi,%rax)
	je	.LBB2_40
.LBB2_44:
	movq	$1, (%rdi)
	movq	$4, 8(%rdi)
	jmp	.LBB2_2
.LBB2_41:
	cmpq	$1, %r11
	jne	.LBB2_45
	xorl	%r14d, %r14d
	xorl	%eax, %eax
	xorl	%r12d, %r12d
	jmp	.LBB2_50
.LBB2_45:
	movzbl	4(%rsi), %eax
	cmpq	$3, %r11
	jb	.LBB2_46
	movzbl	6(%rsi), %r14d
	jne	.LBB2_49
	xorl	%r12d, %r12d
	jmp	.LBB2_50
.LBB2_22:
	movzbl	3(%rsi), %r14d
	cmpq	%r14, -16(%rsp)
	jne	.LBB2_1
	cmpb	$3, %al
	setb	%r15b
	cmpb	$2, %al
	je	.LBB2_43
	movzbl	5(%rsi), %r14d
	cmpq	%r14, -24(%rsp)
	jne	.LBB2_43
	cmpb	$4, %al
	setb	%r15b
	cmpb	$3, %al
	je	.LBB2_43
	cmpq	$8, %rdx
	jb	.LBB2_27
	movzbl	7(%rsi), %r12d
	jmp	.LBB2_29
.LBB2_46:
	xorl	%r14d, %r14d
	xorl	%r12d, %r12d
	jmp	.LBB2_50
.LBB2_49:
	movzbl	8(%rsi), %r12d
.LBB2_50:
	movzbl	2(%rsi), %edx
	movq	%rdx, -64(%rsp)
	movzbl	%al, %r15d
	xorl	%esi, %esi
	cmpq	$65535, %r10
	ja	.LBB2_53
	leaq	-1(%rbx), %rax
	cmpq	$3, %rax
	ja	.LBB2_53
	shll	$3, %ebx
	movl	%r10d, %eax
	xorl	%edx, %edx
	divw	%bx
	movzwl	%ax, %esi
	cmpw	$1, %dx
	sbbq	$-1, %rsi
	imulq	%r13, %rsi
.LBB2_53:
	xorl	%ebx, %ebx
	cmpq	$65535, %r9
	ja	.LBB2_56
	leaq	-1(%rbp), %rdx
	cmpq	$3, %rdx
	ja	.LBB2_56
	shll	$3, %ebp
	movl	%r9d, %eax
	xorl	%edx, %edx
	divw	%bp
	movzwl	%ax, %ebx
	cmpw	$1, %dx
	sbbq	$-1, %rbx
	imulq	%rsi, %rbx
.LBB2_56:
	movq	%r14, -48(%rsp)
	movzbl	%r14b, %eax
	movq	%r9, %rdx
	imulq	%r10, %rdx
	imulq	%r11, %rdx
	movl	%eax, %r14d
	movq	%rax, %rsi
	shrl	$4, %r14d
	movq	%r14, -88(%rsp)
	movl	%r15d, %ebp
	shrl	$4, %ebp
	movq	-64(%rsp), %rax
	movl	%eax, %r14d
	shrl	$4, %r14d
	movl	%r12d, %r13d
	shrl	$4, %r13d
	movq	%r13, -96(%rsp)
	andl	$15, %esi
	movq	%rsi, 16(%rsp)
	movq	%r15, -40(%rsp)
	movl	%r15d, %esi
	andl	$15, %esi
	movq	%rsi, -120(%rsp)
	andl	$15, %eax
	movq	%r12, -56(%rsp)
	andl	$15, %r12d
	movq	%rbx, %r15
	shlq	$6, %r15
	imulq	$3136, %rbx, %r13
	addq	%rdx, %r13
	leaq	240(%rcx), %rsi
	movups	(%rsi), %xmm0
	movups	16(%rsi), %xmm1
	movups	%xmm1, 168(%rsp)
	movups	%xmm0, 152(%rsp)
	movups	24(%rcx), %xmm0
	movups	40(%rcx), %xmm1
	movups	56(%rcx), %xmm2
	movups	72(%rcx), %xmm3
	movups	%xmm0, 184(%rsp)
	movups	%xmm1, 200(%rsp)
	movups	%xmm2, 216(%rsp)
	movups	%xmm3, 232(%rsp)
	movups	88(%rcx), %xmm0
	movups	%xmm0, 248(%rsp)
	movups	104(%rcx), %xmm0
	movups	%xmm0, 264(%rsp)
	movq	%r14, -72(%rsp)
	movq	%r14, 280(%rsp)
	movq	%rbp, -80(%rsp)
	movq	%rbp, 288(%rsp)
	movq	-96(%rsp), %r14
	movq	-88(%rsp), %rsi
	movq	%rsi, 296(%rsp)
	movq	%r14, 304(%rsp)
	movq	%rax, -104(%rsp)
	movq	%rax, 312(%rsp)
	movq	-120(%rsp), %rax
	movq	%rax, 320(%rsp)
	movq	16(%rsp), %rbp
	movq	%rbp, 328(%rsp)
	movq	%r12, -112(%rsp)
	movq	%r12, 336(%rsp)
	movq	24(%rsp), %rax
	movq	%rax, 344(%rsp)
	movq	%r8, 352(%rsp)
	movq	%rbx, (%rsp)
	movq	%rbx, 360(%rsp)
	movq	%r15, 8(%rsp)
	movq	%r15, 368(%rsp)
	movq	%rdx, %rbx
	movq	%rdx, 376(%rsp)
	movq	%r13, 384(%rsp)
	movq	$0, 392(%rsp)
	cmpq	$0, 184(%rsp)
	sete	%sil
	cmpq	$0, 216(%rsp)
	sete	%r14b
	orb	%sil, %r14b
	movq	152(%rsp), %rsi
	je	.LBB2_57
	cmpq	$3, %rsi
	ja	.LBB2_1
	cmpq	$0, 184(%rsp,%rsi,8)
	sete	%sil
	cmpb	$64, -64(%rsp)
	setae	%r14b
	orb	%sil, %r14b
	jne	.LBB2_1
	movq	-72(%rsp), %rsi
	cmpq	$0, 216(%rsp,%rsi,8)
	setne	%sil
	cmpq	$4, -104(%rsp)
	setb	%r14b
	andb	%sil, %r14b
	cmpb	$1, %r14b
	jne	.LBB2_1
	movq	%rax, %rdx
	movq	-104(%rsp), %rax
	cmpq	$0, 248(%rsp,%rax,8)
	je	.LBB2_1
	movq	%rdx, %rax
	cmpq	$1, %r11
	je	.LBB2_80
	movq	160(%rsp), %rsi
	cmpq	$3, %rsi
	ja	.LBB2_1
	cmpq	$0, 184(%rsp,%rsi,8)
	je	.LBB2_1
	cmpb	$63, -40(%rsp)
	ja	.LBB2_1
	movq	-80(%rsp), %rsi
	cmpq	$0, 216(%rsp,%rsi,8)
	je	.LBB2_1
	cmpl	$3, -120(%rsp)
	ja	.LBB2_1
	movq	-120(%rsp), %rax
	cmpq	$0, 248(%rsp,%rax,8)
	je	.LBB2_1
	movq	%rdx, %rax
	cmpq	$2, %r11
	je	.LBB2_80
	movq	168(%rsp), %rsi
	cmpq	$3, %rsi
	ja	.LBB2_1
	cmpq	$0, 184(%rsp,%rsi,8)
	sete	%sil
	cmpb	$64, -48(%rsp)
	setae	%r14b
	orb	%sil, %r14b
	jne	.LBB2_1
	movq	-88(%rsp), %rax
	cmpq	$0, 216(%rsp,%rax,8)
	je	.LBB2_1
	cmpl	$3, %ebp
	ja	.LBB2_1
	cmpq	$0, 248(%rsp,%rbp,8)
	je	.LBB2_1
	movq	%rdx, %rax
	cmpq	$3, %r11
	je	.LBB2_80
	movq	176(%rsp), %rsi
	cmpq	$3, %rsi
	ja	.LBB2_1
	cmpq	$0, 184(%rsp,%rsi,8)
	setne	%sil
	cmpq	$64, -56(%rsp)
	setb	%r14b
	andb	%sil, %r14b
	cmpb	$1, %r14b
	jne	.LBB2_1
	movq	-96(%rsp), %rax
	cmpq	$0, 216(%rsp,%rax,8)
	je	.LBB2_1
	cmpl	$3, -112(%rsp)
	ja	.LBB2_1
	movq	-112(%rsp), %rax
	cmpq	$0, 248(%rsp,%rax,8)
	jne	.LBB2_104
	jmp	.LBB2_1
.LBB2_57:
	cmpq	$3, %rsi
	ja	.LBB2_1
	cmpq	$0, 184(%rsp,%rsi,8)
	sete	%sil
	cmpb	$64, -64(%rsp)
	setae	%r14b
	orb	%sil, %r14b
	jne	.LBB2_1
	movq	-72(%rsp), %rsi
	cmpq	$0, 216(%rsp,%rsi,8)
	setne	%sil
	cmpq	$4, -104(%rsp)
	setb	%r14b
	andb	%sil, %r14b
	cmpb	$1, %r14b
	jne	.LBB2_1
	movq	%rax, %rdx
	movq	-104(%rsp), %rax
	cmpq	$0, 248(%rsp,%rax,8)
	je	.LBB2_1
	movq	%rdx, %rax
	cmpq	$1, %r11
	jne	.LBB2_62
.LBB2_80:
	movq	%rax, %rdx
.LBB2_104:
	leaq	144(%rcx), %rsi
	movups	(%rsi), %xmm0
	movups	16(%rsi), %xmm1
	movups	32(%rsi), %xmm2
	movups	48(%rsi), %xmm3
	movaps	%xmm3, 576(%rsp)
	movaps	%xmm2, 560(%rsp)
	movaps	%xmm1, 544(%rsp)
	movaps	%xmm0, 528(%rsp)
	leaq	240(%rcx), %rsi
	movups	(%rsi), %xmm0
	movups	16(%rsi), %xmm1
	addq	$24, %rcx
	movaps	%xmm0, 496(%rsp)
	movaps	%xmm1, 512(%rsp)
	movups	(%rcx), %xmm0
	movups	16(%rcx), %xmm1
	movups	32(%rcx), %xmm2
	movups	48(%rcx), %xmm3
	movaps	%xmm0, 400(%rsp)
	movaps	%xmm1, 416(%rsp)
	movaps	%xmm2, 432(%rsp)
	movaps	%xmm3, 448(%rsp)
	movups	64(%rcx), %xmm0
	movaps	%xmm0, 464(%rsp)
	movups	80(%rcx), %xmm0
	movaps	%xmm0, 480(%rsp)
	movq	$0, (%rdi)
	movq	$1, 8(%rdi)
	movq	%r10, 16(%rdi)
	movq	%r9, 24(%rdi)
	movq	%r11, 32(%rdi)
	movaps	528(%rsp), %xmm0
	movaps	544(%rsp), %xmm1
	movaps	560(%rsp), %xmm2
	movaps	576(%rsp), %xmm3
	movups	%xmm0, 40(%rdi)
	movups	%xmm1, 56(%rdi)
	movups	%xmm2, 72(%rdi)
	movups	%xmm3, 88(%rdi)
	movq	-8(%rsp), %rcx
	movq	%rcx, 104(%rdi)
	movq	-16(%rsp), %rcx
	movq	%rcx, 112(%rdi)
	movq	-24(%rsp), %rcx
	movq	%rcx, 120(%rdi)
	movq	-32(%rsp), %rcx
	movq	%rcx, 128(%rdi)
	movaps	496(%rsp), %xmm0
	movaps	512(%rsp), %xmm1
	movups	%xmm0, 136(%rdi)
	movups	%xmm1, 152(%rdi)
	movaps	400(%rsp), %xmm0
	movaps	416(%rsp), %xmm1
	movaps	432(%rsp), %xmm2
	movaps	448(%rsp), %xmm3
	movups	%xmm0, 168(%rdi)
	movups	%xmm1, 184(%rdi)
	movups	%xmm2, 200(%rdi)
	movups	%xmm3, 216(%rdi)
	movaps	464(%rsp), %xmm0
	movups	%xmm0, 232(%rdi)
	movaps	480(%rsp), %xmm0
	movups	%xmm0, 248(%rdi)
	movq	-72(%rsp), %rcx
	movq	%rcx, 264(%rdi)
	movq	-80(%rsp), %rcx
	movq	%rcx, 272(%rdi)
	movq	-88(%rsp), %rax
	movq	%rax, 280(%rdi)
	movq	-96(%rsp), %rax
	movq	%rax, 288(%rdi)
	movq	-104(%rsp), %rax
	movq	%rax, 296(%rdi)
	movq	-120(%rsp), %rax
	movq	%rax, 304(%rdi)
	movq	%rbp, 312(%rdi)
	movq	-112(%rsp), %rax
	movq	%rax, 320(%rdi)
	movq	%rdx, 328(%rdi)
	movq	%r8, 336(%rdi)
	movq	(%rsp), %rax
	movq	%rax, 344(%rdi)
	movq	8(%rsp), %rax
	movq	%rax, 352(%rdi)
	movq	%rbx, 360(%rdi)
	movq	%r13, 368(%rdi)
	movq	$0, 376(%rdi)
	addq	$600, %rsp
	popq	%rbx
	popq	%r12
	popq	%r13
	popq	%r14
	popq	%r15
	popq	%rbp
	retq
.LBB2_62:
	movq	160(%rsp), %rsi
	cmpq	$3, %rsi
	ja	.LBB2_1
	cmpq	$0, 184(%rsp,%rsi,8)
	je	.LBB2_1
	cmpb	$63, -40(%rsp)
	ja	.LBB2_1
	movq	-80(%rsp), %rsi
	cmpq	$0, 216(%rsp,%rsi,8)
	je	.LBB2_1
	cmpl	$3, -120(%rsp)
	ja	.LBB2_1
	movq	-120(%rsp), %rax
	cmpq	$0, 248(%rsp,%rax,8)
	je	.LBB2_1
	movq	%rdx, %rax
	cmpq	$2, %r11
	je	.LBB2_80
	movq	168(%rsp), %rsi
	cmpq	$3, %rsi
	ja	.LBB2_1
	cmpq	$0, 184(%rsp,%rsi,8)
	sete	%sil
	cmpb	$64, -48(%rsp)
	setae	%r14b
	orb	%sil, %r14b
	jne	.LBB2_1
	movq	-88(%rsp), %rax
	cmpq	$0, 216(%rsp,%rax,8)
	je	.LBB2_1
	cmpl	$3, %ebp
	ja	.LBB2_1
	cmpq	$0, 248(%rsp,%rbp,8)
	je	.LBB2_1
	movq	%rdx, %rax
	cmpq	$3, %r11
	je	.LBB2_80
	movq	176(%rsp), %rsi
	cmpq	$3, %rsi
	ja	.LBB2_1
	cmpq	$0, 184(%rsp,%rsi,8)
	setne	%sil
	cmpq	$64, -56(%rsp)
	setb	%r14b
	andb	%sil, %r14b
	cmpb	$1, %r14b
	jne	.LBB2_1
	movq	-96(%rsp), %rax
	cmpq	$0, 216(%rsp,%rax,8)
	je	.LBB2_1
	cmpl	$3, -112(%rsp)
	ja	.LBB2_1
	movq	-112(%rsp), %rax
	cmpq	$0, 248(%rsp,%rax,8)
	movq	%rdx, %rax
	jne	.LBB2_80
	jmp	.LBB2_1
.LBB2_27:
	xorl	%r12d, %r12d
.LBB2_29:
	cmpq	-32(%rsp), %r12
	jne	.LBB2_43
	movl	$4, %r14d
	cmpb	$4, %al
	je	.LBB2_36
	movq	%r11, %r15
	negq	%r15
	movq	$-4, %r14
	movl	$9, %eax
	jmp	.LBB2_32
.LBB2_43:
	testb	%r15b, %r15b
	jne	.LBB2_37
.LBB2_1:
	movq	$1, (%rdi)
	movq	$3, 8(%rdi)
.LBB2_2:
	addq	$16, %rdi
	movl	$368, %edx
	xorl	%esi, %esi
	addq	$600, %rsp
	popq	%rbx
	popq	%r12
	popq	%r13
	popq	%r14
	popq	%r15
	popq	%rbp
	jmp	memset@PLT
.LBB2_34:
	decq	%r14
	addq	$2, %rax
	cmpq	%r14, %r15
	je	.LBB2_37
.LBB2_32:
	cmpq	%rdx, %rax
	jae	.LBB2_34
	cmpb	$0, (%rsi,%rax)
	je	.LBB2_34
	negq	%r14
.LBB2_36:
	cmpq	%r11, %r14
	jae	.LBB2_37
	jmp	.LBB2_1
.Lfunc_end2:
	.size	"jpeg_header_state::scan", .Lfunc_end2-"jpeg_header_state::scan"

	.section	".text.jpeg_engine::PlainEngine::block","ax",@progbits
	.p2align	4
	.type	"jpeg_engine::PlainEngine::block",@function
"jpeg_engine::PlainEngine::block":
	pushq	%rbp
	pushq	%r15
	pushq	%r14
	pushq	%r13
	pushq	%r12
	pushq	%rbx
	pushq	%rax
	movq	(%rcx), %rbp
	movzwl	8(%rcx), %r13d
	movzwl	14(%rcx), %eax
	movw	%ax, -116(%rsp)
	movl	10(%rcx), %eax
	movl	%eax, -120(%rsp)
	movl	$0, -80(%rsp)
	movw	$0, -76(%rsp)
	movq	(%rsi), %r10
	movq	8(%rsi), %r11
	movq	16(%rsi), %rbx
	movq	24(%rsi,%rdx,8), %r14
	movq	56(%rsi,%rdx,8), %rax
	movq	%rax, (%rsp)
	movl	$0, -112(%rsp)
	movw	$0, -108(%rsp)
	movl	$0, -48(%rsp)
	movw	$0, -44(%rsp)
	xorps	%xmm0, %xmm0
	movups	%xmm0, 112(%r9)
	movups	%xmm0, 96(%r9)
	movups	%xmm0, 80(%r9)
	movups	%xmm0, 64(%r9)
	movups	%xmm0, 48(%r9)
	movups	%xmm0, 32(%r9)
	movups	%xmm0, 16(%r9)
	movups	%xmm0, (%r9)
	movl	%r13d, %eax
	shrl	$8, %eax
	movslq	%r8d, %rcx
	movq	%rcx, -8(%rsp)
	movl	$1, %ecx
	movq	%rcx, -24(%rsp)
	xorl	%r15d, %r15d
	movq	%rbx, -16(%rsp)
.LBB3_1:
	movb	$2, %cl
	movq	%rbx, %r8
	subq	%r14, %r8
	jbe	.LBB3_60
	movq	%r15, -32(%rsp)
	leaq	(%r10,%r14), %rdx
	addq	$16, %r14
	cmpq	$16, %r8
	movl	$16, %esi
	cmovbq	%r8, %rsi
	xorl	%r8d, %r8d
	xorl	%ebx, %ebx
	.p2align	4
.LBB3_3:
	testb	%al, %al
	je	.LBB3_6
	leal	-1(%rax), %r12d
	cmpb	$8, %al
	ja	.LBB3_9
	movzbl	%r12b, %eax
	movzbl	%r13b, %r15d
	btl	%eax, %r15d
	setb	%r15b
	movw	$0, -124(%rsp)
	movl	$0, -128(%rsp)
	movl	%r12d, %eax
	jmp	.LBB3_14
	.p2align	4
.LBB3_6:
	cmpq	%rbp, %r11
	jbe	.LBB3_59
	movzbl	(%r10,%rbp), %r13d
	leaq	1(%rbp), %rax
	cmpb	$-1, %r13b
	je	.LBB3_10
	movq	%rax, %rbp
	jmp	.LBB3_13
	.p2align	4
.LBB3_9:
	movw	$0, -124(%rsp)
	movl	$0, -128(%rsp)
	xorl	%r15d, %r15d
	movl	%r12d, %eax
	jmp	.LBB3_14
.LBB3_10:
	cmpq	%rax, %r11
	jbe	.LBB3_59
	cmpb	$0, (%r10,%rax)
	jne	.LBB3_62
	addq	$2, %rbp
.LBB3_13:
	movl	%r13d, %r15d
	shrb	$7, %r15b
	movw	$0, -124(%rsp)
	movl	$0, -128(%rsp)
	movb	$7, %al
.LBB3_14:
	movzbl	(%rdx,%rbx), %r12d
	movzbl	%r15b, %r15d
	leaq	(%r15,%r8,2), %r15
	movq	%r15, %r8
	subq	%r12, %r8
	jb	.LBB3_16
	addq	%r12, %r14
	incq	%rbx
	cmpq	%rbx, %rsi
	jne	.LBB3_3
	jmp	.LBB3_60
	.p2align	4
.LBB3_16:
	addq	%r14, %r15
	movq	-16(%rsp), %rbx
	cmpq	%rbx, %r15
	jae	.LBB3_22
	movzbl	(%r10,%r15), %esi
	movzwl	-124(%rsp), %ecx
	movw	%cx, -92(%rsp)
	movl	-128(%rsp), %ecx
	movl	%ecx, -96(%rsp)
	movq	-32(%rsp), %r15
	testq	%r15, %r15
	je	.LBB3_25
	testq	%rsi, %rsi
	je	.LBB3_23
	cmpl	$240, %esi
	jne	.LBB3_28
	cmpq	$49, %r15
	jae	.LBB3_67
	movzbl	%al, %eax
	shll	$8, %eax
	movzbl	%r13b, %edx
	orl	%eax, %edx
	movzwl	-92(%rsp), %eax
	movw	%ax, -52(%rsp)
	movl	-96(%rsp), %eax
	movl	%eax, -56(%rsp)
	movl	$0, -64(%rsp)
	movw	$0, -60(%rsp)
	movb	$1, %sil
	jmp	.LBB3_24
.LBB3_22:
	movzwl	-124(%rsp), %ecx
	movw	%cx, -92(%rsp)
	movl	-128(%rsp), %ecx
	movl	%ecx, -96(%rsp)
	movq	-32(%rsp), %r15
	testq	%r15, %r15
	je	.LBB3_27
.LBB3_23:
	movzbl	%al, %eax
	shll	$8, %eax
	movzbl	%r13b, %edx
	orl	%eax, %edx
	movzwl	-92(%rsp), %eax
	movw	%ax, -52(%rsp)
	movl	-96(%rsp), %eax
	movl	%eax, -56(%rsp)
	movl	$0, -64(%rsp)
	movw	$0, -60(%rsp)
	xorl	%esi, %esi
.LBB3_24:
	movzwl	-52(%rsp), %eax
	movw	%ax, -100(%rsp)
	movl	-56(%rsp), %eax
	movl	%eax, -104(%rsp)
	movl	-64(%rsp), %eax
	movl	%eax, -72(%rsp)
	movzwl	-60(%rsp), %eax
	movw	%ax, -68(%rsp)
	xorl	%eax, %eax
	xorl	%r13d, %r13d
	xorl	%r14d, %r14d
	movq	%rbp, %r8
	jmp	.LBB3_54
.LBB3_25:
	cmpb	$12, %sil
	jae	.LBB3_67
	xorl	%r8d, %r8d
	movq	%rsi, %rdx
	jmp	.LBB3_30
.LBB3_27:
	movzbl	%al, %eax
	xorl	%r8d, %r8d
	xorl	%edx, %edx
	xorl	%r14d, %r14d
	xorl	%ecx, %ecx
	subq	%rcx, %rax
	cmpq	$8, %rax
	jb	.LBB3_48
.LBB3_46:
	shlq	%cl, %r14
	jmp	.LBB3_49
.LBB3_28:
	movl	%esi, %edx
	andl	$15, %edx
	leal	-1(%rdx), %r8d
	movb	$3, %cl
	cmpl	$9, %r8d
	ja	.LBB3_60
	shrl	$4, %esi
	leaq	(%rsi,%r15), %rbx
	movq	%rsi, %r8
	cmpq	$64, %rbx
	jae	.LBB3_60
.LBB3_30:
	addq	%r15, %r8
	movzbl	%al, %eax
	cmpl	%eax, %edx
	jbe	.LBB3_45
	movq	$-1, %r14
	movl	%eax, %ecx
	shlq	%cl, %r14
	cmpq	%rbp, %r11
	jbe	.LBB3_59
	movzbl	(%r10,%rbp), %ebx
	leaq	1(%rbp), %rsi
	cmpq	$255, %rbx
	jne	.LBB3_36
	cmpq	%rsi, %r11
	jbe	.LBB3_59
	cmpb	$0, (%r10,%rsi)
	jne	.LBB3_62
	addq	$2, %rbp
	movq	%rbp, %rsi
.LBB3_36:
	notl	%r14d
	movzbl	%r13b, %ecx
	andl	%r14d, %ecx
	movl	%ebx, %r14d
	shrl	$7, %r14d
	leal	(%r14,%rcx,2), %r14d
	notq	%rax
	movq	%rax, %rcx
	addq	%rdx, %rcx
	movl	$7, %eax
	cmpq	$8, %rcx
	jae	.LBB3_40
	movq	%rsi, %rbp
	movl	%ebx, %r13d
	subq	%rcx, %rax
	cmpq	$8, %rax
	jae	.LBB3_46
	jmp	.LBB3_48
	.p2align	4
.LBB3_38:
	movq	%r15, %rsi
.LBB3_39:
	movl	%r13d, %r15d
	shrl	$7, %r15d
	shlq	$8, %r14
	addb	%bl, %bl
	movzbl	%bl, %ebx
	orq	%rbx, %r14
	orq	%r15, %r14
	addq	$-8, %rcx
	movl	%r13d, %ebx
	cmpq	$7, %rcx
	jbe	.LBB3_47
.LBB3_40:
	cmpq	%rsi, %r11
	jbe	.LBB3_59
	movzbl	(%r10,%rsi), %r13d
	leaq	1(%rsi), %r15
	cmpq	$255, %r13
	jne	.LBB3_38
	cmpq	%r15, %r11
	jbe	.LBB3_59
	cmpb	$0, (%r10,%r15)
	jne	.LBB3_62
	addq	$2, %rsi
	jmp	.LBB3_39
.LBB3_45:
	xorl	%r14d, %r14d
	movq	%rdx, %rcx
	subq	%rcx, %rax
	cmpq	$8, %rax
	jae	.LBB3_46
.LBB3_48:
	movzbl	%r13b, %ebx
	movq	%rcx, %rsi
	movl	%eax, %ecx
	shrq	%cl, %rbx
	movq	$-1, %r15
	movl	%esi, %ecx
	shlq	%cl, %r15
	notl	%r15d
	andl	%r15d, %ebx
	shlq	%cl, %r14
	addq	%rbx, %r14
.LBB3_49:
	movl	$1, %esi
	movl	%edx, %ecx
	shlq	%cl, %rsi
	leaq	(%r14,%r14), %rcx
	movl	%r14d, %edx
	subl	%esi, %edx
	incl	%edx
	cmpq	%rsi, %rcx
	cmovael	%r14d, %edx
	testq	%r8, %r8
	jne	.LBB3_52
	movswq	%dx, %rdx
	movq	-8(%rsp), %rsi
	leaq	(%rdx,%rsi), %rcx
	addq	$2048, %rcx
	cmpq	$4095, %rcx
	ja	.LBB3_58
	addq	%rsi, %rdx
.LBB3_52:
	movw	$0, -124(%rsp)
	movl	$0, -128(%rsp)
	movl	$0, -88(%rsp)
	movw	$0, -84(%rsp)
	movb	$2, %sil
	movb	$1, %cl
	movq	%rcx, -40(%rsp)
	xorl	%ecx, %ecx
.LBB3_53:
	movzwl	-124(%rsp), %r14d
	movl	-128(%rsp), %r15d
	movzwl	-84(%rsp), %r12d
	movl	-88(%rsp), %ebx
	movl	%r15d, -104(%rsp)
	movw	%r14w, -100(%rsp)
	movl	%ebx, -72(%rsp)
	movw	%r12w, -68(%rsp)
	movq	%rbp, %r14
	cmpb	$0, -40(%rsp)
	movq	-16(%rsp), %rbx
	movq	-32(%rsp), %r15
	je	.LBB3_60
.LBB3_54:
	cmpb	$1, %sil
	je	.LBB3_57
	movzbl	%sil, %ecx
	cmpl	$2, %ecx
	jne	.LBB3_63
	movw	%dx, (%r9,%r8,2)
	movq	%r8, %rdx
	incq	%rdx
	movzwl	-68(%rsp), %ecx
	movw	%cx, -116(%rsp)
	movl	-72(%rsp), %ecx
	movl	%ecx, -120(%rsp)
	movq	%r14, %r8
	movq	%rdx, -24(%rsp)
	movq	%rdx, %r15
	movq	(%rsp), %r14
	movq	%r8, %rbp
	cmpq	$64, %r15
	jb	.LBB3_1
	jmp	.LBB3_64
.LBB3_57:
	movl	%edx, %eax
	shrl	$8, %eax
	movzwl	-100(%rsp), %ecx
	movw	%cx, -116(%rsp)
	movl	-104(%rsp), %ecx
	movl	%ecx, -120(%rsp)
	addq	$16, %r15
	movl	%edx, %r13d
	movq	(%rsp), %r14
	movq	%r8, %rbp
	cmpq	$64, %r15
	jb	.LBB3_1
	jmp	.LBB3_64
.LBB3_58:
	movw	$0, -124(%rsp)
	movl	$0, -128(%rsp)
	movl	$0, -88(%rsp)
	movw	$0, -84(%rsp)
	movb	$3, %cl
	xorl	%ebp, %ebp
	xorl	%r13d, %r13d
	xorl	%eax, %eax
	movq	$0, -40(%rsp)
	xorl	%esi, %esi
	xorl	%edx, %edx
	jmp	.LBB3_53
.LBB3_47:
	movq	%rsi, %rbp
	subq	%rcx, %rax
	cmpq	$8, %rax
	jae	.LBB3_46
	jmp	.LBB3_48
.LBB3_59:
	xorl	%ecx, %ecx
	jmp	.LBB3_60
.LBB3_62:
	movb	$1, %cl
.LBB3_60:
	movl	$0, -112(%rsp)
	movw	$0, -108(%rsp)
	xorps	%xmm0, %xmm0
	movups	%xmm0, 112(%r9)
	movups	%xmm0, 96(%r9)
	movups	%xmm0, 80(%r9)
	movups	%xmm0, 64(%r9)
	movups	%xmm0, 48(%r9)
	movups	%xmm0, 32(%r9)
	movups	%xmm0, 16(%r9)
	movups	%xmm0, (%r9)
	movb	$1, %sil
	xorl	%r10d, %r10d
	xorl	%edx, %edx
	xorl	%eax, %eax
	xorl	%r8d, %r8d
.LBB3_61:
	movzwl	-108(%rsp), %r9d
	movw	%r9w, -76(%rsp)
	movl	-112(%rsp), %r9d
	movl	%r9d, -80(%rsp)
	movb	%sil, (%rdi)
	movb	%cl, 1(%rdi)
	movq	%r8, 8(%rdi)
	movw	%ax, 16(%rdi)
	movl	-80(%rsp), %eax
	movl	%eax, 18(%rdi)
	movzwl	-76(%rsp), %eax
	movw	%ax, 22(%rdi)
	movl	%edx, 24(%rdi)
	movl	$0, 28(%rdi)
	movq	%r10, 32(%rdi)
	addq	$8, %rsp
	popq	%rbx
	popq	%r12
	popq	%r13
	popq	%r14
	popq	%r15
	popq	%rbp
	retq
.LBB3_63:
	movl	%edx, %eax
	shrl	$8, %eax
	movzwl	-100(%rsp), %ecx
	movw	%cx, -116(%rsp)
	movl	-104(%rsp), %ecx
	movl	%ecx, -120(%rsp)
	movl	%edx, %r13d
.LBB3_64:
	movswl	(%r9), %edx
	movzbl	%al, %ecx
	shll	$8, %ecx
	movzbl	%r13b, %eax
	orl	%ecx, %eax
	movzwl	-116(%rsp), %ecx
	movw	%cx, -44(%rsp)
	movl	-120(%rsp), %esi
	movl	%esi, -48(%rsp)
	movl	%esi, -112(%rsp)
	movw	%cx, -108(%rsp)
	xorl	%ecx, %ecx
	xorl	%esi, %esi
	movq	-24(%rsp), %r10
	jmp	.LBB3_61
.LBB3_67:
	movb	$3, %cl
	jmp	.LBB3_60
.Lfunc_end3:
	.size	"jpeg_engine::PlainEngine::block", .Lfunc_end3-"jpeg_engine::PlainEngine::block"

	.section	".text.jpeg_write_scan::run::<#c44e4da361dd472c>","ax",@progbits
	.p2align	4
	.type	"jpeg_write_scan::run::<#c44e4da361dd472c>",@function
"jpeg_write_scan::run::<#c44e4da361dd472c>":
	pushq	%rbp
	pushq	%r15
	pushq	%r14
	pushq	%r13
	pushq	%r12
	pushq	%rbx
	subq	$360, %rsp
	movq	%rcx, %rbp
	movq	%rdx, 152(%rsp)
	movq	128(%rsi), %rcx
	testq	%rcx, %rcx
	je	.LBB4_142
	movq	%r8, %r15
	movq	16(%rsi), %r10
	movq	144(%rsi), %rax
	movq	%rax, %rdx
	orq	%rcx, %rdx
	shrq	$32, %rdx
	je	.LBB4_2
	xorl	%edx, %edx
	divq	%rcx
	jmp	.LBB4_4
.LBB4_2:
	xorl	%edx, %edx
	divl	%ecx
.LBB4_4:
	xorl	%ecx, %ecx
	testq	%rdx, %rdx
	setne	%cl
	addq	%rax, %rcx
	movq	%rcx, 144(%rsp)
	je	.LBB4_5
	movq	%rdi, (%rsp)
	movl	$8, %ebx
	movb	$1, %r12b
	xorl	%edx, %edx
	xorl	%r13d, %r13d
	xorl	%r14d, %r14d
	xorl	%r11d, %r11d
	movq	$0, 32(%rsp)
	movq	$0, 16(%rsp)
	xorl	%eax, %eax
	xorl	%ecx, %ecx
	xorl	%edi, %edi
	movq	%rsi, 112(%rsp)
	movq	%rbp, 24(%rsp)
.LBB4_7:
	movq	%r10, 40(%rsp)
	shll	$8, %ecx
	movzwl	%cx, %ecx
	orq	%rax, %rcx
	movzbl	%dil, %ebp
	movq	%rcx, %rdi
	orq	%rbp, %rdi
	xorps	%xmm0, %xmm0
	movaps	%xmm0, 64(%rsp)
	movaps	%xmm0, 80(%rsp)
	movq	$0, 96(%rsp)
	movaps	%xmm0, 192(%rsp)
	movaps	%xmm0, 208(%rsp)
	movq	$0, 224(%rsp)
	movq	144(%rsi), %rax
	cmpq	%r11, %rax
	jbe	.LBB4_8
	movq	%rax, 56(%rsp)
	movq	136(%rsi), %r9
	testq	%rdx, %rdx
	setne	%al
	testq	%r9, %r9
	movq	%rdx, %r8
	setne	%dl
	testb	%dl, %al
	movq	%r11, 8(%rsp)
	movq	%r8, 48(%rsp)
	je	.LBB4_10
	movq	(%rsi), %r10
	movq	8(%rsi), %r11
	movq	%r8, %rsi
	orq	%r9, %rsi
	shrq	$32, %rsi
	je	.LBB4_12
	movq	%r8, %rax
	xorl	%edx, %edx
	divq	%r9
	testq	%rdx, %rdx
	je	.LBB4_16
.LBB4_15:
	movq	40(%rsp), %r10
	movq	%r10, 64(%rsp)
	movq	%rdi, 72(%rsp)
	movq	16(%rsp), %rax
	movq	%rax, 80(%rsp)
	movq	32(%rsp), %rax
	movq	%rax, 88(%rsp)
	movq	8(%rsp), %r11
	movq	%r11, 96(%rsp)
	movq	112(%rsp), %rsi
	movq	48(%rsp), %rdx
	jmp	.LBB4_34
	.p2align	4
.LBB4_8:
	movq	40(%rsp), %r10
	jmp	.LBB4_72
	.p2align	4
.LBB4_10:
	movq	40(%rsp), %r10
	movq	%r10, 64(%rsp)
	movq	%rdi, 72(%rsp)
	movq	16(%rsp), %rax
	movq	%rax, 80(%rsp)
	movq	32(%rsp), %rax
	movq	%rax, 88(%rsp)
	movq	%r11, 96(%rsp)
	movq	%r8, %rdx
.LBB4_34:
	movq	24(%rsp), %rbp
	movq	56(%rsp), %r9
.LBB4_53:
	movq	128(%rsi), %rax
	xorl	%ecx, %ecx
	subq	%r11, %r9
	cmovaeq	%r9, %rcx
	cmpq	%rax, %rcx
	cmovaeq	%rax, %rcx
	testq	%rcx, %rcx
	je	.LBB4_73
	movq	120(%rsi), %rdx
	leaq	(%rcx,%r11), %rax
	movq	%rax, 136(%rsp)
	xorl	%edi, %edi
	movq	%rcx, 160(%rsp)
	jmp	.LBB4_55
	.p2align	4
.LBB4_69:
	movb	$1, %r12b
	movq	%rbp, %r14
	movq	%r9, %r13
	movq	%rax, %rbx
.LBB4_70:
	leaq	200(%rsp), %rax
	movups	(%rax), %xmm0
	movaps	%xmm0, 64(%rsp)
	movq	16(%rsp), %rax
	movl	124(%rsp), %ecx
	movl	%ecx, 80(%rsp,%rax,4)
	movq	128(%rsp), %r11
	incq	%r11
	movq	176(%rsp), %rdx
	shrq	$2, %rdx
	movq	168(%rsp), %rdi
	incq	%rdi
	movq	160(%rsp), %rcx
	cmpq	%rcx, %rdi
	movq	112(%rsp), %rsi
	je	.LBB4_71
.LBB4_55:
	movq	%rdi, 168(%rsp)
	movq	%r11, 128(%rsp)
	movq	%rdx, 176(%rsp)
	andl	$3, %edx
	movl	%edx, %eax
	movl	80(%rsp,%rax,4), %ebp
	leaq	192(%rsp), %rdi
	leaq	64(%rsp), %rcx
	leaq	232(%rsp), %r9
	movq	%rdx, 16(%rsp)
	movl	%ebp, %r8d
	callq	"jpeg_engine::PlainEngine::block"
	cmpb	$0, 192(%rsp)
	jne	.LBB4_108
	movl	216(%rsp), %eax
	movl	%eax, 124(%rsp)
	cmpb	$1, %r12b
	jne	.LBB4_57
	movslq	%ebp, %rax
	movq	%rax, 184(%rsp)
	movq	224(%rsp), %rax
	movq	%rax, 56(%rsp)
	movq	16(%rsp), %rax
	shll	$11, %eax
	addq	152(%rsp), %rax
	movq	%rax, 32(%rsp)
	xorl	%r12d, %r12d
	movq	%r14, %rbp
	movq	%r13, %r9
	movq	%rbx, %rax
	xorl	%r10d, %r10d
	jmp	.LBB4_59
	.p2align	4
.LBB4_106:
	xorl	%r9d, %r9d
.LBB4_107:
	movl	%edx, %ecx
	shlq	%cl, %r9
	shlq	%cl, %rbx
	notq	%rbx
	andq	%rbx, %rsi
	addq	%rsi, %r9
	subq	%rdx, %rax
	movq	%r12, %rbp
	movq	%rdi, %r12
.LBB4_59:
	cmpq	%r12, 56(%rsp)
	jbe	.LBB4_60
	testq	%r12, %r12
	je	.LBB4_62
	cmpq	$63, %r12
	ja	.LBB4_67
	movl	$64, %edx
	subq	%r12, %rdx
	leaq	(%rsp,%r12,2), %rsi
	addq	$232, %rsi
	xorl	%ecx, %ecx
	.p2align	4
.LBB4_65:
	cmpw	$0, (%rsi,%rcx,2)
	jne	.LBB4_68
	incq	%rcx
	cmpq	%rcx, %rdx
	jne	.LBB4_65
.LBB4_67:
	xorl	%ecx, %ecx
	movl	$64, %edx
	subq	%r12, %rdx
	cmovaeq	%rdx, %rcx
	jmp	.LBB4_68
	.p2align	4
.LBB4_60:
	movl	$64, %ecx
	subq	%r12, %rcx
	jmp	.LBB4_68
.LBB4_62:
	xorl	%ecx, %ecx
	.p2align	4
.LBB4_68:
	addq	%rcx, %r12
	cmpq	$64, %r12
	setae	%dl
	addq	%rcx, %r10
	sete	%cl
	testb	%cl, %dl
	jne	.LBB4_69
	cmpq	$63, %r12
	jbe	.LBB4_78
	xorl	%ebx, %ebx
	xorl	%esi, %esi
	xorl	%edx, %edx
	movq	%r12, %rdi
	jmp	.LBB4_83
	.p2align	4
.LBB4_78:
	cmpq	$16, %r10
	jb	.LBB4_80
	addq	$-16, %r10
	movl	$960, %ebx
	xorl	%esi, %esi
	xorl	%edx, %edx
	movq	%r12, %rdi
	jmp	.LBB4_84
	.p2align	4
.LBB4_80:
	xorl	%ecx, %ecx
	testq	%r12, %r12
	cmoveq	184(%rsp), %rcx
	movswq	232(%rsp,%r12,2), %rdi
	movq	%rdi, %rdx
	subq	%rcx, %rdx
	movq	%rcx, %rsi
	subq	%rdi, %rsi
	cmovlq	%rdx, %rsi
	movl	$127, %r8d
	bsrq	%rsi, %r8
	xorq	$-64, %r8
	addq	$65, %r8
	cmpq	$12, %r8
	movl	$12, %edx
	cmovbq	%r8, %rdx
	cmpq	%rcx, %rdi
	jns	.LBB4_82
	movq	$-1, %rdi
	movl	%edx, %ecx
	shlq	%cl, %rdi
	notq	%rdi
	xorl	%ecx, %ecx
	subq	%rsi, %rdi
	cmovaeq	%rdi, %rcx
	movq	%rcx, %rsi
.LBB4_82:
	leaq	1(%r12), %rdi
	shlq	$6, %r10
	leaq	(%r10,%rdx,4), %rbx
.LBB4_83:
	xorl	%r10d, %r10d
.LBB4_84:
	xorl	%r8d, %r8d
	testq	%r12, %r12
	setne	%r13b
	movb	$8, %cl
	subb	%al, %cl
	movq	%r9, %r11
	shrq	%cl, %r11
	xorl	%r14d, %r14d
	movl	$0, %r12d
	testq	%rax, %rax
	je	.LBB4_85
	testq	%r11, %r11
	jne	.LBB4_85
	movb	%r13b, %r8b
	shll	$10, %r8d
	addq	32(%rsp), %r8
	movl	(%rbx,%r8), %ecx
	movl	%ecx, %r8d
	shrl	$16, %r8d
	leaq	-1(%r8), %r11
	movl	$0, %r13d
	movl	$0, %ebx
	cmpl	$15, %r11d
	ja	.LBB4_70
	movzwl	%cx, %r11d
	movl	%edx, %ecx
	shlq	%cl, %r11
	movq	$-1, %r12
	shlq	%cl, %r12
	movq	$-1, %rbx
	notq	%r12
	andq	%r12, %rsi
	addq	%r11, %rsi
	addq	%rdx, %r8
	movq	%r8, %rdx
	subq	%rax, %rdx
	jae	.LBB4_90
	movq	%rbp, %r12
	movq	%r8, %rdx
	jmp	.LBB4_107
	.p2align	4
.LBB4_90:
	movl	%eax, %ecx
	shlq	%cl, %r9
	movq	%rsi, %r8
	movl	%edx, %ecx
	shrq	%cl, %r8
	movq	$-1, %r11
	movl	%eax, %ecx
	shlq	%cl, %r11
	notl	%r11d
	andl	%r11d, %r8d
	addl	%r8d, %r9d
	cmpq	%r15, %rbp
	jae	.LBB4_92
	movq	24(%rsp), %rax
	movb	%r9b, (%rax,%rbp)
.LBB4_92:
	movq	%rbp, %rax
	incq	%rax
	movq	$-1, %r12
	cmovneq	%rax, %r12
	cmpb	$-1, %r9b
	je	.LBB4_93
	movl	$8, %eax
	cmpq	$8, %rdx
	jb	.LBB4_106
	jmp	.LBB4_97
.LBB4_93:
	cmpq	%r15, %r12
	jae	.LBB4_95
	movq	24(%rsp), %rax
	movb	$0, (%rax,%r12)
.LBB4_95:
	addq	$2, %rbp
	movq	$-1, %r12
	cmovaeq	%rbp, %r12
	movl	$8, %eax
	cmpq	$8, %rdx
	jb	.LBB4_106
.LBB4_97:
	movq	24(%rsp), %r11
	jmp	.LBB4_98
	.p2align	4
.LBB4_104:
	movq	%r12, %rcx
	addq	$2, %rcx
	movq	$-1, %r12
	cmovaeq	%rcx, %r12
	cmpq	$7, %rdx
	jbe	.LBB4_106
.LBB4_98:
	addq	$-8, %rdx
	movq	%rsi, %r8
	movl	%edx, %ecx
	shrq	%cl, %r8
	cmpq	%r15, %r12
	jae	.LBB4_100
	movb	%r8b, (%r11,%r12)
.LBB4_100:
	movq	%r12, %r9
	incq	%r9
	movq	$-1, %rcx
	cmovneq	%r9, %rcx
	cmpb	$-1, %r8b
	je	.LBB4_102
	movq	%rcx, %r12
	cmpq	$7, %rdx
	ja	.LBB4_98
	jmp	.LBB4_106
	.p2align	4
.LBB4_102:
	cmpq	%r15, %rcx
	jae	.LBB4_104
	movb	$0, (%r11,%rcx)
	jmp	.LBB4_104
	.p2align	4
.LBB4_57:
	xorl	%r12d, %r12d
	xorl	%r14d, %r14d
.LBB4_85:
	xorl	%r13d, %r13d
	xorl	%ebx, %ebx
	jmp	.LBB4_70
.LBB4_71:
	movq	64(%rsp), %r10
	movq	72(%rsp), %rdi
	movq	80(%rsp), %rax
	movq	%rax, 16(%rsp)
	movq	88(%rsp), %rax
	movq	%rax, 32(%rsp)
	movq	136(%rsp), %r11
	movq	48(%rsp), %rdx
.LBB4_72:
	movq	24(%rsp), %rbp
.LBB4_73:
	movq	%rdi, %rcx
	shrq	$8, %rcx
	movq	%rdi, %rax
	andq	$-65536, %rax
	incq	%rdx
	cmpq	144(%rsp), %rdx
	jb	.LBB4_7
	jmp	.LBB4_74
.LBB4_12:
	movl	%r8d, %eax
	xorl	%edx, %edx
	divl	%r9d
	testq	%rdx, %rdx
	jne	.LBB4_15
.LBB4_16:
	leaq	-1(%r9), %rdi
	movl	$208, %edx
	cmpq	48(%rsp), %rdi
	jae	.LBB4_21
	movq	%rax, %r8
	testq	%rsi, %rsi
	je	.LBB4_18
	movq	48(%rsp), %rax
	xorl	%edx, %edx
	divq	%r9
	movq	%rax, %rdx
	jmp	.LBB4_20
.LBB4_18:
	movq	48(%rsp), %rax
	xorl	%edx, %edx
	divl	%r9d
	movl	%eax, %edx
.LBB4_20:
	decl	%edx
	andl	$7, %edx
	orq	$208, %rdx
	movq	%r8, %rax
.LBB4_21:
	shrq	$8, %rcx
	movb	$3, %r8b
	cmpb	$8, %cl
	ja	.LBB4_22
	andb	$15, %cl
	movl	$-1, %r9d
	shll	%cl, %r9d
	orl	%r9d, %ebp
	cmpl	$-1, %ebp
	jne	.LBB4_22
	movq	40(%rsp), %rbp
	movq	%rbp, %r9
	subq	%r11, %r9
	jae	.LBB4_25
	movq	%r11, %rsi
	xorl	%ecx, %ecx
	.p2align	4
.LBB4_27:
	movzbl	(%r10,%rbp), %r11d
	cmpq	$255, %r11
	jne	.LBB4_29
	decq	%rcx
	incq	%r10
	cmpq	%rcx, %r9
	jne	.LBB4_27
	jmp	.LBB4_25
.LBB4_29:
	testq	%rcx, %rcx
	je	.LBB4_25
	movq	%rbp, %r10
	subq	%rcx, %r10
	cmpq	%r10, %rsi
	jbe	.LBB4_25
	cmpl	%r11d, %edx
	jne	.LBB4_25
	incq	%r10
	decb	%al
	andb	$7, %al
	orb	$-48, %al
	movq	48(%rsp), %rdx
	cmpq	%rdx, %rdi
	movq	%r10, 64(%rsp)
	xorps	%xmm0, %xmm0
	leaq	72(%rsp), %rcx
	movups	%xmm0, (%rcx)
	movq	$0, 16(%rcx)
	movq	8(%rsp), %r11
	movq	%r11, 96(%rsp)
	movzbl	%al, %ecx
	movl	$208, %eax
	cmovbl	%ecx, %eax
	cmpb	$1, %r12b
	jne	.LBB4_33
	movq	%r11, %r8
	movq	%rdx, %r11
	movb	$8, %cl
	subb	%bl, %cl
	movq	%r13, %rdx
	shrq	%cl, %rdx
	xorl	%edi, %edi
	movb	$1, %r12b
	testq	%rbx, %rbx
	movq	112(%rsp), %rsi
	movq	24(%rsp), %rbp
	movq	56(%rsp), %r9
	je	.LBB4_36
	testq	%rdx, %rdx
	jne	.LBB4_36
	cmpq	$8, %rbx
	jne	.LBB4_40
	movq	%r14, %rdx
	jmp	.LBB4_47
.LBB4_33:
	xorl	%edi, %edi
	movq	$0, 32(%rsp)
	movq	$0, 16(%rsp)
	xorl	%r12d, %r12d
	xorl	%r14d, %r14d
	xorl	%r13d, %r13d
	xorl	%ebx, %ebx
	movq	112(%rsp), %rsi
	jmp	.LBB4_34
.LBB4_36:
	movq	$0, 32(%rsp)
	movq	$0, 16(%rsp)
	jmp	.LBB4_52
.LBB4_40:
	incl	%r13d
	movl	%ebx, %ecx
	shlq	%cl, %r13
	movq	%r14, %rdx
	cmpq	%r15, %r14
	jae	.LBB4_42
	leal	-1(%r13), %ecx
	movb	%cl, (%rbp,%rdx)
.LBB4_42:
	incq	%rdx
	movq	$-1, %rcx
	cmovneq	%rdx, %rcx
	testb	%r13b, %r13b
	je	.LBB4_44
	movq	%rcx, %rdx
	jmp	.LBB4_47
.LBB4_44:
	cmpq	%r15, %rcx
	jae	.LBB4_46
	movb	$0, (%rbp,%rcx)
.LBB4_46:
	movq	%r14, %rdx
	addq	$2, %rdx
	movq	$-1, %rcx
	cmovbq	%rcx, %rdx
.LBB4_47:
	cmpq	%r15, %rdx
	jae	.LBB4_49
	movb	$-1, (%rbp,%rdx)
.LBB4_49:
	movq	%rdx, %r14
	incq	%rdx
	movq	$-1, %rcx
	cmoveq	%rcx, %rdx
	cmpq	%r15, %rdx
	jae	.LBB4_51
	movb	%al, (%rbp,%rdx)
.LBB4_51:
	addq	$2, %r14
	cmovbq	%rcx, %r14
	movq	144(%rsi), %r9
	movl	$8, %ebx
	xorl	%edi, %edi
	movq	$0, 32(%rsp)
	movq	$0, 16(%rsp)
	xorl	%r13d, %r13d
.LBB4_52:
	movq	%r11, %rdx
	movq	%r8, %r11
	jmp	.LBB4_53
.LBB4_108:
	movq	128(%rsp), %rcx
	cmpq	8(%rsp), %rcx
	movq	40(%rsp), %rbp
	je	.LBB4_110
	movq	64(%rsp), %rbp
.LBB4_110:
	movzbl	193(%rsp), %r8d
	jmp	.LBB4_111
.LBB4_5:
	xorl	%r13d, %r13d
	movl	$8, %ebx
	movb	$1, %al
	xorl	%r14d, %r14d
	xorl	%r11d, %r11d
	xorl	%ecx, %ecx
	xorl	%edx, %edx
.LBB4_115:
	movq	$-1, %r9
	shlq	%cl, %r9
	orq	%rdx, %r9
	cmpq	$-1, %r9
	jne	.LBB4_123
	movq	8(%rsi), %rcx
	cmpq	%rcx, %r10
	jae	.LBB4_123
	movq	(%rsi), %r9
	xorl	%esi, %esi
	movq	%rcx, %rdx
	.p2align	4
.LBB4_118:
	movzbl	(%r9,%r10), %r8d
	cmpb	$-1, %r8b
	jne	.LBB4_120
	decq	%rdx
	decq	%rsi
	incq	%r9
	cmpq	%rdx, %r10
	jne	.LBB4_118
	jmp	.LBB4_123
.LBB4_25:
	movq	8(%rsp), %rcx
.LBB4_111:
	movq	(%rsp), %rax
.LBB4_112:
	movq	$1, (%rax)
	movq	$1, 8(%rax)
	movb	%r8b, 16(%rax)
	movb	$0, 23(%rax)
	movw	$0, 21(%rax)
	movl	$0, 17(%rax)
	movq	%rcx, 24(%rax)
	movq	%rbp, 32(%rax)
	jmp	.LBB4_113
.LBB4_120:
	testq	%rsi, %rsi
	je	.LBB4_123
	movq	%r10, %r9
	subq	%rsi, %r9
	cmpq	%r9, %rcx
	jbe	.LBB4_123
	cmpb	$-39, %r8b
	sete	%cl
	leaq	1(%r10), %rsi
	cmpq	%rdx, %rsi
	sete	%dl
	testb	%dl, %cl
	je	.LBB4_123
	testb	%al, %al
	je	.LBB4_125
	movb	$8, %cl
	subb	%bl, %cl
	movq	%r13, %rdx
	shrq	%cl, %rdx
	xorl	%eax, %eax
	testq	%rbx, %rbx
	je	.LBB4_141
	testq	%rdx, %rdx
	jne	.LBB4_141
	cmpq	$8, %rbx
	je	.LBB4_136
	incl	%r13d
	movl	%ebx, %ecx
	shlq	%cl, %r13
	cmpq	%r15, %r14
	jae	.LBB4_131
	leal	-1(%r13), %eax
	movb	%al, (%rbp,%r14)
.LBB4_131:
	movq	%r14, %rcx
	incq	%rcx
	movq	$-1, %rax
	cmovneq	%rcx, %rax
	testb	%r13b, %r13b
	je	.LBB4_133
	movq	%rax, %r14
	jmp	.LBB4_136
.LBB4_74:
	cmpb	$1, %r12b
	sete	%al
	cmpb	$8, %cl
	ja	.LBB4_75
	movzbl	%dil, %edx
	movq	(%rsp), %rdi
	jmp	.LBB4_115
.LBB4_75:
	movq	(%rsp), %rdi
.LBB4_123:
	movq	$1, (%rdi)
	movq	$1, 8(%rdi)
	movb	$3, 16(%rdi)
	movb	$0, 23(%rdi)
	movw	$0, 21(%rdi)
	movl	$0, 17(%rdi)
	movq	%r11, 24(%rdi)
	movq	%r10, 32(%rdi)
.LBB4_113:
	addq	$360, %rsp
	popq	%rbx
	popq	%r12
	popq	%r13
	popq	%r14
	popq	%r15
	popq	%rbp
	retq
.LBB4_125:
	movl	$1, %eax
	xorl	%r14d, %r14d
	jmp	.LBB4_141
.LBB4_22:
	movq	8(%rsp), %rcx
	movq	(%rsp), %rax
	movq	40(%rsp), %rbp
	jmp	.LBB4_112
.LBB4_133:
	cmpq	%r15, %rax
	jae	.LBB4_135
	movb	$0, (%rbp,%rax)
.LBB4_135:
	addq	$2, %r14
	movq	$-1, %rax
	cmovbq	%rax, %r14
.LBB4_136:
	cmpq	%r15, %r14
	jae	.LBB4_138
	movb	$-1, (%rbp,%r14)
.LBB4_138:
	movq	%r14, %rcx
	incq	%rcx
	movq	$-1, %rax
	cmoveq	%rax, %rcx
	cmpq	%r15, %rcx
	jae	.LBB4_140
	movb	$-39, (%rbp,%rcx)
.LBB4_140:
	addq	$2, %r14
	cmovbq	%rax, %r14
	xorl	%eax, %eax
.LBB4_141:
	movq	%rax, (%rdi)
	movq	%r14, 8(%rdi)
	xorps	%xmm0, %xmm0
	movups	%xmm0, 16(%rdi)
	movq	$0, 32(%rdi)
	jmp	.LBB4_113
.LBB4_142:
	ud2
.Lfunc_end4:
	.size	"jpeg_write_scan::run::<#c44e4da361dd472c>", .Lfunc_end4-"jpeg_write_scan::run::<#c44e4da361dd472c>"

	.section	.rodata.cst16,"aM",@progbits,16
	.p2align	4, 0x0
.LCPI5_0:
	.quad	1
	.quad	3
	.section	.text.tillsparrow_settle,"ax",@progbits
	.globl	tillsparrow_settle
	.p2align	4
	.type	tillsparrow_settle,@function
tillsparrow_settle:
	pushq	%rbp
	pushq	%r15
	pushq	%r14
	pushq	%r13
	pushq	%r12
	pushq	%rbx
	movq	%rsp, %r11
	subq	$24576, %r11
.LBB5_1:
	subq	$3072, %rsp
	movq	$0, (%rsp)
	cmpq	%r11, %rsp
	jne	.LBB5_1
	subq	$1528, %rsp
	movq	%rdi, %r15
	movq	%rdx, %rdi
	movq	26168(%rsp), %rax
	movq	26160(%rsp), %rbx
	xorl	%r10d, %r10d
	testq	%rsi, %rsi
	sete	%r10b
	shll	$12, %r10d
	leaq	(%rsi,%r10), %rdx
	movq	%rdx, 168(%rsp)
	testq	%rax, %rax
	sete	%r11b
	pxor	%xmm0, %xmm0
	movdqa	%xmm0, 1360(%rsp)
	movdqa	%xmm0, 1376(%rsp)
	movdqa	%xmm0, 480(%rsp)
	movdqa	%xmm0, 496(%rsp)
	movdqa	%xmm0, 1328(%rsp)
	movdqa	%xmm0, 1344(%rsp)
	movdqa	%xmm0, 1296(%rsp)
	movdqa	%xmm0, 1312(%rsp)
	movdqa	%xmm0, 1264(%rsp)
	movdqa	%xmm0, 1280(%rsp)
	movdqa	%xmm0, 768(%rsp)
	movdqa	%xmm0, 784(%rsp)
	movdqa	%xmm0, 752(%rsp)
	movdqa	%xmm0, 736(%rsp)
	movdqa	%xmm0, 720(%rsp)
	movdqa	%xmm0, 704(%rsp)
	movdqa	%xmm0, 688(%rsp)
	movdqa	%xmm0, 672(%rsp)
	movdqa	%xmm0, 1008(%rsp)
	movdqa	%xmm0, 1024(%rsp)
	movdqa	%xmm0, 976(%rsp)
	movdqa	%xmm0, 992(%rsp)
	movdqa	%xmm0, 944(%rsp)
	movdqa	%xmm0, 960(%rsp)
	movdqa	%xmm0, 912(%rsp)
	movdqa	%xmm0, 928(%rsp)
	movdqa	%xmm0, 1488(%rsp)
	movdqa	%xmm0, 1504(%rsp)
	movdqa	%xmm0, 1456(%rsp)
	movdqa	%xmm0, 1472(%rsp)
	movdqa	%xmm0, 1424(%rsp)
	movdqa	%xmm0, 1440(%rsp)
	movdqa	%xmm0, 1408(%rsp)
	movdqa	%xmm0, 1392(%rsp)
	cmpq	%rdi, %rcx
	setae	%al
	testq	%rdi, %rdi
	setns	%cl
	testb	%al, %cl
	jne	.LBB5_4
	movq	%rbx, %r8
	movdqa	%xmm0, 784(%rsp)
	movdqa	%xmm0, 768(%rsp)
	movdqa	%xmm0, 736(%rsp)
	movdqa	%xmm0, 752(%rsp)
	movdqa	%xmm0, 704(%rsp)
	movdqa	%xmm0, 720(%rsp)
	movdqa	%xmm0, 672(%rsp)
	movdqa	%xmm0, 688(%rsp)
	movq	$0, 64(%rsp)
	movq	$0, 8(%rsp)
	movq	$0, 56(%rsp)
	movq	$0, 48(%rsp)
	xorl	%edx, %edx
	xorl	%ecx, %ecx
	movq	$0, 40(%rsp)
	movq	$0, 232(%rsp)
	movq	$0, 128(%rsp)
	movq	$0, 192(%rsp)
	movq	$0, 176(%rsp)
	movq	$0, 240(%rsp)
	movq	$0, 224(%rsp)
	movq	$0, 104(%rsp)
	xorl	%r13d, %r13d
	xorl	%ebx, %ebx
	movq	$0, 88(%rsp)
	movq	$0, 112(%rsp)
	movq	$0, 160(%rsp)
	movq	$0, 256(%rsp)
	movq	$0, 96(%rsp)
	xorl	%eax, %eax
	movq	$0, 16(%rsp)
	jmp	.LBB5_141
.LBB5_4:
	leaq	(%rdi,%rdi), %rax
	cmpq	%rax, %rbx
	jbe	.LBB5_140
	notq	%rax
	addq	%rax, %rbx
	xorps	%xmm5, %xmm5
	movaps	%xmm5, 800(%rsp)
	movaps	%xmm5, 816(%rsp)
	movaps	%xmm5, 880(%rsp)
	movaps	%xmm5, 896(%rsp)
	movaps	%xmm5, 1200(%rsp)
	movaps	%xmm5, 1216(%rsp)
	movaps	%xmm5, 1168(%rsp)
	movaps	%xmm5, 1184(%rsp)
	movl	$3, %eax
	movq	%rax, 16(%rsp)
	cmpq	$2, %rdi
	jb	.LBB5_142
	leaq	(%rsi,%r10), %rax
	cmpb	$-1, (%rax)
	jne	.LBB5_142
	cmpb	$-40, 1(%rax)
	jne	.LBB5_142
	xorps	%xmm6, %xmm6
	movaps	%xmm6, 448(%rsp)
	movaps	%xmm6, 432(%rsp)
	movaps	%xmm6, 400(%rsp)
	movaps	%xmm6, 416(%rsp)
	movaps	%xmm6, 368(%rsp)
	movaps	%xmm6, 384(%rsp)
	movaps	%xmm6, 336(%rsp)
	movaps	%xmm6, 352(%rsp)
	movl	$2, %eax
	movq	%rax, 80(%rsp)
	xorl	%edx, %edx
	movq	$0, 32(%rsp)
	movq	$0, 48(%rsp)
	movq	$0, 56(%rsp)
	movq	$0, 8(%rsp)
	movq	$0, 64(%rsp)
	movq	$0, 40(%rsp)
	xorl	%r13d, %r13d
	xorl	%eax, %eax
	movq	$0, 16(%rsp)
	pxor	%xmm7, %xmm7
	pxor	%xmm9, %xmm9
	pxor	%xmm8, %xmm8
	pxor	%xmm10, %xmm10
	xorl	%r12d, %r12d
	movq	$0, 120(%rsp)
	xorl	%ebp, %ebp
	movq	%r9, 160(%rsp)
	movq	%rbx, 144(%rsp)
	movq	%r15, 72(%rsp)
	movq	%r10, 216(%rsp)
	movq	%rdi, 152(%rsp)
	movb	%r11b, 248(%rsp)
	.p2align	4
.LBB5_9:
	movaps	%xmm6, 17904(%rsp)
	movaps	%xmm6, 17920(%rsp)
	movaps	%xmm6, 512(%rsp)
	movaps	%xmm6, 528(%rsp)
	movaps	%xmm6, 1040(%rsp)
	movaps	%xmm6, 1056(%rsp)
	movaps	%xmm6, 288(%rsp)
	movaps	%xmm6, 304(%rsp)
	cmpb	$2, %r12b
	je	.LBB5_17
	movzbl	%r12b, %ecx
	cmpl	$1, %ecx
	movq	80(%rsp), %r9
	jne	.LBB5_19
	movq	120(%rsp), %rcx
	subq	%r9, %rcx
	jb	.LBB5_18
	movq	%rdx, 24(%rsp)
	je	.LBB5_23
	cmpq	$65, %rcx
	jb	.LBB5_18
	movq	168(%rsp), %rcx
	movzbl	(%rcx,%r9), %ecx
	cmpq	$3, %rcx
	ja	.LBB5_18
	movq	168(%rsp), %rdx
	movdqu	1(%rdx,%r9), %xmm0
	movdqu	17(%rdx,%r9), %xmm1
	movdqu	33(%rdx,%r9), %xmm2
	movdqu	49(%rdx,%r9), %xmm3
	pxor	%xmm4, %xmm4
	pcmpeqb	%xmm4, %xmm2
	pcmpeqb	%xmm4, %xmm0
	por	%xmm2, %xmm0
	pcmpeqb	%xmm4, %xmm3
	pcmpeqb	%xmm4, %xmm1
	por	%xmm3, %xmm1
	por	%xmm0, %xmm1
	pmovmskb	%xmm1, %edx
	testl	%edx, %edx
	jne	.LBB5_18
	movb	$1, 1528(%rsp)
	movl	%eax, 1529(%rsp)
	movq	%rax, %rdx
	shrq	$48, %rdx
	movb	%dl, 1535(%rsp)
	shrq	$32, %rax
	movw	%ax, 1533(%rsp)
	movq	16(%rsp), %rax
	movq	%rax, 1544(%rsp)
	movq	40(%rsp), %rax
	movq	%rax, 1552(%rsp)
	movq	64(%rsp), %rax
	movq	%rax, 1560(%rsp)
	movq	8(%rsp), %rax
	movq	%rax, 1568(%rsp)
	movq	56(%rsp), %rax
	movq	%rax, 1576(%rsp)
	movq	48(%rsp), %rax
	movq	%rax, 1584(%rsp)
	movq	32(%rsp), %rax
	movq	%rax, 1592(%rsp)
	movq	24(%rsp), %rax
	movq	%rax, 1600(%rsp)
	movaps	432(%rsp), %xmm0
	movaps	448(%rsp), %xmm1
	leaq	1608(%rsp), %r11
	movups	%xmm1, 16(%r11)
	movups	%xmm0, (%r11)
	movdqu	%xmm7, 1640(%rsp)
	movdqu	%xmm9, 1656(%rsp)
	movaps	400(%rsp), %xmm0
	movaps	416(%rsp), %xmm1
	leaq	1544(%rsp), %rdi
	movups	%xmm1, 144(%rdi)
	movups	%xmm0, 128(%rdi)
	movaps	368(%rsp), %xmm0
	movaps	384(%rsp), %xmm1
	movups	%xmm1, 176(%rdi)
	movups	%xmm0, 160(%rdi)
	movaps	336(%rsp), %xmm0
	movaps	352(%rsp), %xmm1
	movups	%xmm1, 208(%rdi)
	movups	%xmm0, 192(%rdi)
	movdqu	%xmm8, 1768(%rsp)
	movdqu	%xmm10, 1784(%rsp)
	leaq	65(%r9), %rdx
	incq	%r9
	movq	%r9, 1544(%rsp,%rcx,8)
	movq	1528(%rsp), %r12
	movq	1544(%rsp), %rax
	movq	%rax, 16(%rsp)
	movq	1552(%rsp), %rax
	movq	%rax, 40(%rsp)
	movq	1560(%rsp), %rax
	movq	%rax, 64(%rsp)
	movq	1568(%rsp), %rax
	movq	%rax, 8(%rsp)
	movq	1576(%rsp), %rax
	movq	%rax, 56(%rsp)
	movq	1584(%rsp), %rax
	movq	%rax, 48(%rsp)
	movq	1592(%rsp), %rax
	movq	%rax, 32(%rsp)
	movq	1600(%rsp), %rax
	movq	%rax, 24(%rsp)
	movups	(%r11), %xmm0
	movups	16(%r11), %xmm1
	movaps	%xmm1, 17920(%rsp)
	movaps	%xmm0, 17904(%rsp)
	movdqu	1640(%rsp), %xmm7
	movdqu	1656(%rsp), %xmm9
	movups	128(%rdi), %xmm0
	movups	144(%rdi), %xmm1
	movaps	%xmm0, 512(%rsp)
	movaps	%xmm1, 528(%rsp)
	movups	160(%rdi), %xmm0
	movups	176(%rdi), %xmm1
	movaps	%xmm0, 1040(%rsp)
	movaps	%xmm1, 1056(%rsp)
	movdqu	192(%rdi), %xmm0
	movdqu	208(%rdi), %xmm1
	movdqa	%xmm1, 304(%rsp)
	movdqa	%xmm0, 288(%rsp)
	movdqu	1768(%rsp), %xmm8
	movdqu	1784(%rsp), %xmm10
	xorl	%eax, %eax
	xorl	%ecx, %ecx
	movq	%rdx, 80(%rsp)
	jmp	.LBB5_118
.LBB5_17:
	movq	%rdx, 24(%rsp)
	movq	120(%rsp), %rdi
	movq	80(%rsp), %rdx
	subq	%rdx, %rdi
	jae	.LBB5_22
.LBB5_18:
	pxor	%xmm7, %xmm7
	movdqa	%xmm7, 17920(%rsp)
	movdqa	%xmm7, 17904(%rsp)
	movdqa	%xmm7, 512(%rsp)
	movdqa	%xmm7, 528(%rsp)
	movdqa	%xmm7, 1040(%rsp)
	movdqa	%xmm7, 1056(%rsp)
	movdqa	%xmm7, 288(%rsp)
	movdqa	%xmm7, 304(%rsp)
	movb	$3, %cl
	movb	$1, %al
	movq	$0, 24(%rsp)
	movq	$0, 32(%rsp)
	movq	$0, 48(%rsp)
	movq	$0, 56(%rsp)
	movq	$0, 8(%rsp)
	movq	$0, 64(%rsp)
	movq	$0, 40(%rsp)
	movq	$0, 16(%rsp)
	movq	$0, 80(%rsp)
	xorl	%r12d, %r12d
	movq	$0, 120(%rsp)
	pxor	%xmm9, %xmm9
	pxor	%xmm8, %xmm8
	pxor	%xmm10, %xmm10
	jmp	.LBB5_118
.LBB5_19:
	movq	%r8, %rbx
	movq	%rsi, %r15
	movq	%r9, 9712(%rsp)
	movb	$0, 9720(%rsp)
	movl	%eax, 9721(%rsp)
	movq	%rax, %rcx
	shrq	$48, %rcx
	movb	%cl, 9727(%rsp)
	shrq	$32, %rax
	movw	%ax, 9725(%rsp)
	movq	120(%rsp), %rax
	movq	%rax, 9728(%rsp)
	movq	16(%rsp), %rax
	movq	%rax, 9736(%rsp)
	movq	40(%rsp), %rax
	movq	%rax, 9744(%rsp)
	movq	64(%rsp), %rax
	movq	%rax, 9752(%rsp)
	movq	8(%rsp), %rax
	movq	%rax, 9760(%rsp)
	movq	56(%rsp), %rax
	movq	%rax, 9768(%rsp)
	movq	48(%rsp), %rax
	movq	%rax, 9776(%rsp)
	movq	32(%rsp), %rax
	movq	%rax, 9784(%rsp)
	movq	%rdx, 24(%rsp)
	movq	%rdx, 9792(%rsp)
	movaps	432(%rsp), %xmm0
	movaps	448(%rsp), %xmm1
	leaq	9864(%rsp), %rax
	movups	%xmm1, -48(%rax)
	movups	%xmm0, -64(%rax)
	movdqa	%xmm7, 256(%rsp)
	movdqu	%xmm7, 9832(%rsp)
	movdqa	%xmm9, 192(%rsp)
	movdqu	%xmm9, 9848(%rsp)
	movaps	400(%rsp), %xmm0
	movaps	416(%rsp), %xmm1
	movups	%xmm1, 16(%rax)
	movups	%xmm0, (%rax)
	movaps	368(%rsp), %xmm0
	movaps	384(%rsp), %xmm1
	movups	%xmm1, 48(%rax)
	movups	%xmm0, 32(%rax)
	movdqa	336(%rsp), %xmm0
	movdqa	352(%rsp), %xmm1
	movdqu	%xmm1, 80(%rax)
	movdqu	%xmm0, 64(%rax)
	movdqa	%xmm8, 128(%rsp)
	movdqu	%xmm8, 9960(%rsp)
	movdqa	%xmm10, 176(%rsp)
	movdqu	%xmm10, 9976(%rsp)
	leaq	1520(%rsp), %rdi
	movl	$384, %edx
	xorl	%esi, %esi
	callq	memset@PLT
	movq	80(%rsp), %rdx
	movq	152(%rsp), %rax
	subq	%rdx, %rax
	cmpq	$2, %rax
	jb	.LBB5_21
	movq	168(%rsp), %rcx
	cmpb	$-1, (%rcx,%rdx)
	je	.LBB5_27
.LBB5_21:
	pxor	%xmm0, %xmm0
	movdqa	%xmm0, 17920(%rsp)
	movdqa	%xmm0, 17904(%rsp)
	movdqa	%xmm0, 512(%rsp)
	movdqa	%xmm0, 528(%rsp)
	movdqa	%xmm0, 1040(%rsp)
	movdqa	%xmm0, 1056(%rsp)
	movdqa	%xmm0, 288(%rsp)
	movdqa	%xmm0, 304(%rsp)
	pxor	%xmm7, %xmm7
	movb	$3, %cl
	movb	$1, %al
	movq	$0, 24(%rsp)
	movq	$0, 32(%rsp)
	movq	$0, 48(%rsp)
	movq	$0, 56(%rsp)
	movq	$0, 8(%rsp)
	movq	$0, 64(%rsp)
	movq	$0, 40(%rsp)
	xorl	%ebp, %ebp
	movq	$0, 88(%rsp)
	movq	$0, 112(%rsp)
	xorl	%r14d, %r14d
	pxor	%xmm9, %xmm9
	pxor	%xmm8, %xmm8
	pxor	%xmm10, %xmm10
	movq	$0, 96(%rsp)
	xorl	%edx, %edx
	xorl	%r9d, %r9d
	xorl	%edi, %edi
	movq	$0, 16(%rsp)
	movq	$0, 80(%rsp)
	xorl	%r12d, %r12d
	movq	$0, 120(%rsp)
	movq	%r15, %rsi
	xorl	%r13d, %r13d
	xorl	%r11d, %r11d
	movq	%rbx, %r8
	movq	72(%rsp), %r15
	movq	216(%rsp), %r10
	xorps	%xmm5, %xmm5
	xorps	%xmm6, %xmm6
	jmp	.LBB5_119
.LBB5_22:
	jne	.LBB5_24
.LBB5_23:
	movaps	432(%rsp), %xmm0
	movaps	448(%rsp), %xmm1
	movaps	%xmm1, 17920(%rsp)
	movaps	%xmm0, 17904(%rsp)
	movaps	400(%rsp), %xmm0
	movaps	416(%rsp), %xmm1
	movaps	%xmm0, 512(%rsp)
	movaps	%xmm1, 528(%rsp)
	movaps	368(%rsp), %xmm0
	movaps	384(%rsp), %xmm1
	movaps	%xmm0, 1040(%rsp)
	movaps	%xmm1, 1056(%rsp)
	movdqa	336(%rsp), %xmm0
	movdqa	352(%rsp), %xmm1
	movdqa	%xmm0, 288(%rsp)
	movdqa	%xmm1, 304(%rsp)
	xorl	%eax, %eax
	xorl	%ecx, %ecx
	xorl	%r12d, %r12d
	movq	$0, 120(%rsp)
	jmp	.LBB5_118
.LBB5_24:
	movq	168(%rsp), %rcx
	addq	%rcx, %rdx
	movzbl	(%rdx), %ecx
	movq	%rcx, 96(%rsp)
	cmpq	$2, %rdi
	jb	.LBB5_30
	movzbl	1(%rdx), %ecx
	movq	%rcx, 88(%rsp)
	jne	.LBB5_62
	movq	$0, 128(%rsp)
	xorl	%ecx, %ecx
	xorl	%ebp, %ebp
	movq	$0, 104(%rsp)
	movq	$0, 176(%rsp)
	movq	$0, 192(%rsp)
	movq	$0, 112(%rsp)
	jmp	.LBB5_31
.LBB5_27:
	movq	168(%rsp), %rcx
	movzbl	1(%rcx,%rdx), %ecx
	cmpl	$217, %ecx
	movq	%r15, %rsi
	movq	%rbx, %r8
	movq	160(%rsp), %rdi
	movq	216(%rsp), %r10
	xorps	%xmm5, %xmm5
	je	.LBB5_65
	cmpl	$255, %ecx
	xorps	%xmm6, %xmm6
	jne	.LBB5_66
	incq	%rdx
	movq	%rdx, 80(%rsp)
	movaps	432(%rsp), %xmm0
	movaps	448(%rsp), %xmm1
	movaps	%xmm1, 17920(%rsp)
	movaps	%xmm0, 17904(%rsp)
	movaps	400(%rsp), %xmm0
	movaps	416(%rsp), %xmm1
	movaps	%xmm0, 512(%rsp)
	movaps	%xmm1, 528(%rsp)
	movaps	368(%rsp), %xmm0
	movaps	384(%rsp), %xmm1
	movaps	%xmm0, 1040(%rsp)
	movaps	%xmm1, 1056(%rsp)
	movdqa	336(%rsp), %xmm0
	movdqa	352(%rsp), %xmm1
	movdqa	%xmm0, 288(%rsp)
	movdqa	%xmm1, 304(%rsp)
	xorl	%ebp, %ebp
	xorl	%r13d, %r13d
	movq	$0, 88(%rsp)
	movq	$0, 112(%rsp)
	xorl	%r11d, %r11d
	xorl	%r14d, %r14d
	movq	$0, 96(%rsp)
	xorl	%edx, %edx
	xorl	%r9d, %r9d
	xorl	%edi, %edi
	xorl	%eax, %eax
	xorl	%ecx, %ecx
	xorl	%r12d, %r12d
	movq	$0, 120(%rsp)
	movq	72(%rsp), %r15
	movdqa	256(%rsp), %xmm7
	movdqa	128(%rsp), %xmm8
	movdqa	192(%rsp), %xmm9
	movdqa	176(%rsp), %xmm10
	jmp	.LBB5_119
.LBB5_30:
	movq	$0, 128(%rsp)
	xorl	%ecx, %ecx
	xorl	%ebp, %ebp
	movq	$0, 104(%rsp)
	movq	$0, 176(%rsp)
	movq	$0, 192(%rsp)
	movq	$0, 112(%rsp)
	movq	$0, 88(%rsp)
.LBB5_31:
	movq	$0, 256(%rsp)
.LBB5_32:
	xorl	%r13d, %r13d
.LBB5_33:
	xorl	%r9d, %r9d
.LBB5_34:
	xorl	%r11d, %r11d
.LBB5_35:
	xorl	%ebx, %ebx
	xorl	%r14d, %r14d
	xorl	%r15d, %r15d
	xorl	%r10d, %r10d
	cmpq	$17, %rdi
	jb	.LBB5_117
.LBB5_36:
	movq	96(%rsp), %r12
	andb	$-20, %r12b
	jne	.LBB5_117
	movzbl	%bl, %ebx
	movzbl	%r11b, %r11d
	addq	%rbx, %r11
	movzbl	%r14b, %ebx
	addq	%rbx, %r11
	movzbl	%r15b, %ebx
	addq	%rbx, %r11
	movzbl	256(%rsp), %r14d
	movzbl	88(%rsp), %ebx
	addq	%r14, %rbx
	movzbl	%r13b, %r14d
	addq	%r14, %rbx
	movzbl	%r9b, %r9d
	addq	%r9, %rbx
	movzbl	192(%rsp), %r14d
	movzbl	176(%rsp), %r9d
	addq	%r14, %r9
	movzbl	112(%rsp), %r14d
	addq	%r14, %r9
	movzbl	104(%rsp), %r14d
	movzbl	%bpl, %r15d
	addq	%r14, %r15
	movzbl	%cl, %r14d
	movzbl	128(%rsp), %r12d
	leaq	(%r14,%r12), %rcx
	addq	%r15, %rcx
	addq	%r9, %rcx
	addq	%rbx, %rcx
	addq	%r11, %rcx
	leaq	(%r10,%rcx), %r13
	decq	%r13
	cmpq	$255, %r13
	ja	.LBB5_117
	addq	%r10, %rcx
	addq	$17, %rcx
	cmpq	%rdi, %rcx
	ja	.LBB5_117
	movzbl	1(%rdx), %edi
	cmpq	$1, %rdi
	ja	.LBB5_117
	movzbl	2(%rdx), %r13d
	leaq	(,%rdi,2), %rdi
	addq	%r13, %rdi
	cmpq	$3, %rdi
	ja	.LBB5_117
	movzbl	3(%rdx), %r13d
	leaq	(,%rdi,2), %rdi
	addq	%r13, %rdi
	cmpq	$7, %rdi
	ja	.LBB5_117
	movzbl	4(%rdx), %r13d
	leaq	(,%rdi,2), %rdi
	addq	%r13, %rdi
	cmpq	$15, %rdi
	ja	.LBB5_117
	movzbl	5(%rdx), %r13d
	leaq	(,%rdi,2), %rdi
	addq	%r13, %rdi
	cmpq	$31, %rdi
	ja	.LBB5_117
	movzbl	6(%rdx), %r13d
	leaq	(,%rdi,2), %rdi
	addq	%r13, %rdi
	cmpq	$63, %rdi
	ja	.LBB5_117
	movzbl	7(%rdx), %r13d
	leaq	(,%rdi,2), %rdi
	addq	%r13, %rdi
	cmpq	$127, %rdi
	ja	.LBB5_117
	movzbl	8(%rdx), %r13d
	leaq	(,%rdi,2), %rdi
	addq	%r13, %rdi
	cmpq	$255, %rdi
	ja	.LBB5_117
	movzbl	9(%rdx), %r13d
	leaq	(,%rdi,2), %rdi
	addq	%r13, %rdi
	cmpq	$511, %rdi
	ja	.LBB5_117
	movzbl	10(%rdx), %r13d
	leaq	(,%rdi,2), %rdi
	addq	%r13, %rdi
	cmpq	$1023, %rdi
	ja	.LBB5_117
	movzbl	11(%rdx), %r13d
	leaq	(,%rdi,2), %rdi
	addq	%r13, %rdi
	cmpq	$2047, %rdi
	ja	.LBB5_117
	movzbl	12(%rdx), %r13d
	leaq	(,%rdi,2), %rdi
	addq	%r13, %rdi
	cmpq	$4095, %rdi
	ja	.LBB5_117
	movzbl	13(%rdx), %r13d
	leaq	(,%rdi,2), %rdi
	addq	%r13, %rdi
	cmpq	$8191, %rdi
	ja	.LBB5_117
	movzbl	14(%rdx), %r13d
	leaq	(,%rdi,2), %rdi
	addq	%r13, %rdi
	cmpq	$16383, %rdi
	ja	.LBB5_117
	movzbl	15(%rdx), %r13d
	leaq	(,%rdi,2), %rdi
	addq	%r13, %rdi
	cmpq	$32767, %rdi
	ja	.LBB5_117
	movzbl	16(%rdx), %r13d
	leaq	(,%rdi,2), %rdi
	addq	%r13, %rdi
	cmpq	$65535, %rdi
	ja	.LBB5_117
	addq	$17, %rdx
	pxor	%xmm0, %xmm0
	movdqa	%xmm0, 9952(%rsp)
	movdqa	%xmm0, 9936(%rsp)
	movdqa	%xmm0, 9920(%rsp)
	movdqa	%xmm0, 9904(%rsp)
	movdqa	%xmm0, 9888(%rsp)
	movdqa	%xmm0, 9872(%rsp)
	movdqa	%xmm0, 9856(%rsp)
	movdqa	%xmm0, 9840(%rsp)
	movdqa	%xmm0, 9824(%rsp)
	movdqa	%xmm0, 9808(%rsp)
	movdqa	%xmm0, 9792(%rsp)
	movdqa	%xmm0, 9776(%rsp)
	movdqa	%xmm0, 9760(%rsp)
	movdqa	%xmm0, 9744(%rsp)
	movdqa	%xmm0, 9728(%rsp)
	movdqa	%xmm0, 9712(%rsp)
	cmpb	$16, 96(%rsp)
	jae	.LBB5_131
	addq	%r12, %r10
	addq	%r15, %r10
	addq	%r9, %r10
	addq	%rbx, %r10
	addq	%r14, %r11
	addq	%r10, %r11
	xorl	%edi, %edi
.LBB5_57:
	movzbl	(%rdx,%rdi), %r9d
	cmpq	$11, %r9
	ja	.LBB5_137
	cmpb	$0, 9712(%rsp,%r9)
	jne	.LBB5_137
	movb	$1, 9712(%rsp,%r9)
	incq	%rdi
	cmpq	%rdi, %r11
	jne	.LBB5_57
.LBB5_60:
	movq	%rax, %rdx
	shrq	$48, %rdx
	movb	$2, 1528(%rsp)
	movb	%dl, 1535(%rsp)
	movl	%eax, 1529(%rsp)
	shrq	$32, %rax
	movw	%ax, 1533(%rsp)
	movq	16(%rsp), %rax
	movq	%rax, 1544(%rsp)
	movq	40(%rsp), %rax
	movq	%rax, 1552(%rsp)
	movq	64(%rsp), %rax
	movq	%rax, 1560(%rsp)
	movq	8(%rsp), %rax
	movq	%rax, 1568(%rsp)
	movq	56(%rsp), %rax
	movq	%rax, 1576(%rsp)
	movq	48(%rsp), %rax
	movq	%rax, 1584(%rsp)
	movq	32(%rsp), %rax
	movq	%rax, 1592(%rsp)
	movq	96(%rsp), %r9
	movl	%r9d, %edx
	movq	24(%rsp), %rax
	movq	%rax, 1600(%rsp)
	movq	80(%rsp), %rax
	incq	%rax
	shll	$3, %r9d
	movaps	432(%rsp), %xmm0
	movaps	448(%rsp), %xmm1
	leaq	1608(%rsp), %rdi
	movups	%xmm1, 16(%rdi)
	movups	%xmm0, (%rdi)
	movdqu	%xmm7, 1640(%rsp)
	movdqu	%xmm9, 1656(%rsp)
	movaps	400(%rsp), %xmm0
	movaps	416(%rsp), %xmm1
	leaq	1544(%rsp), %rdi
	movups	%xmm1, 144(%rdi)
	movups	%xmm0, 128(%rdi)
	movaps	368(%rsp), %xmm0
	movaps	384(%rsp), %xmm1
	movups	%xmm1, 176(%rdi)
	movups	%xmm0, 160(%rdi)
	movaps	336(%rsp), %xmm0
	movaps	352(%rsp), %xmm1
	movups	%xmm1, 208(%rdi)
	movups	%xmm0, 192(%rdi)
	movdqu	%xmm8, 1768(%rsp)
	movdqu	%xmm10, 1784(%rsp)
	cmpb	$15, %dl
	ja	.LBB5_138
	movq	%rax, 1576(%rsp,%r9)
	movdqu	1640(%rsp), %xmm7
	movdqu	1656(%rsp), %xmm9
	movdqu	1768(%rsp), %xmm8
	movdqu	1784(%rsp), %xmm10
	jmp	.LBB5_139
.LBB5_62:
	movzbl	2(%rdx), %r14d
	cmpq	$4, %rdi
	movq	%r14, 256(%rsp)
	jb	.LBB5_76
	movzbl	3(%rdx), %ebx
	movq	%rbx, 112(%rsp)
	jne	.LBB5_77
	movq	$0, 128(%rsp)
	xorl	%ecx, %ecx
	xorl	%ebp, %ebp
	movq	$0, 104(%rsp)
	movq	$0, 176(%rsp)
	movq	$0, 192(%rsp)
	jmp	.LBB5_32
.LBB5_65:
	pxor	%xmm0, %xmm0
	movdqa	%xmm0, 17920(%rsp)
	movdqa	%xmm0, 17904(%rsp)
	movdqa	%xmm0, 512(%rsp)
	movdqa	%xmm0, 528(%rsp)
	movdqa	%xmm0, 1040(%rsp)
	movdqa	%xmm0, 1056(%rsp)
	movdqa	%xmm0, 288(%rsp)
	movdqa	%xmm0, 304(%rsp)
	pxor	%xmm7, %xmm7
	movb	$3, %cl
	movb	$1, %al
	movq	$0, 24(%rsp)
	movq	$0, 32(%rsp)
	movq	$0, 48(%rsp)
	movq	$0, 56(%rsp)
	movq	$0, 8(%rsp)
	movq	$0, 64(%rsp)
	movq	$0, 40(%rsp)
	xorl	%ebp, %ebp
	xorl	%r13d, %r13d
	movq	$0, 88(%rsp)
	movq	$0, 112(%rsp)
	xorl	%r11d, %r11d
	xorl	%r14d, %r14d
	pxor	%xmm9, %xmm9
	pxor	%xmm8, %xmm8
	pxor	%xmm10, %xmm10
	movq	$0, 96(%rsp)
	xorl	%edx, %edx
	xorl	%r9d, %r9d
	xorl	%edi, %edi
	movq	$0, 16(%rsp)
	movq	$0, 80(%rsp)
	xorl	%r12d, %r12d
	movq	$0, 120(%rsp)
	movq	72(%rsp), %r15
	xorps	%xmm6, %xmm6
	jmp	.LBB5_119
.LBB5_66:
	cmpq	$4, %rax
	movdqa	256(%rsp), %xmm3
	movdqa	128(%rsp), %xmm4
	movdqa	192(%rsp), %xmm7
	movdqa	176(%rsp), %xmm8
	jb	.LBB5_75
	leaq	2(%rdx), %rax
	cmpq	152(%rsp), %rax
	jae	.LBB5_75
	movq	168(%rsp), %r9
	movzbl	2(%r9,%rdx), %r12d
	shll	$8, %r12d
	addq	$3, %rdx
	cmpq	152(%rsp), %rdx
	jae	.LBB5_70
	movzbl	(%r9,%rdx), %edx
	orq	%rdx, %r12
.LBB5_70:
	cmpq	$2, %r12
	movq	80(%rsp), %r9
	jb	.LBB5_75
	addq	%rax, %r12
	cmpq	%r12, 152(%rsp)
	jb	.LBB5_75
	movq	168(%rsp), %rax
	addq	%r9, %rax
	addq	$4, %rax
	movq	%rax, 96(%rsp)
	addq	$4, %r9
	movq	%r12, %rdx
	movq	%r9, %rax
	subq	%r9, %rdx
	leal	-218(%rcx), %r9d
	cmpl	$36, %r9d
	ja	.LBB5_85
	leaq	.LJTI5_0(%rip), %r10
	movslq	(%r10,%r9,4), %r9
	addq	%r10, %r9
	jmpq	*%r9
.LBB5_74:
	leaq	1520(%rsp), %rdi
	leaq	9712(%rsp), %rcx
	movq	96(%rsp), %rsi
	movq	%r12, %r8
	callq	"jpeg_header_state::scan"
	xorps	%xmm6, %xmm6
	xorps	%xmm5, %xmm5
	movq	160(%rsp), %rdi
	movq	%rbx, %r8
	movq	%r15, %rsi
	jmp	.LBB5_107
.LBB5_75:
	pxor	%xmm0, %xmm0
	movdqa	%xmm0, 17920(%rsp)
	movdqa	%xmm0, 17904(%rsp)
	movdqa	%xmm0, 512(%rsp)
	movdqa	%xmm0, 528(%rsp)
	movdqa	%xmm0, 1040(%rsp)
	movdqa	%xmm0, 1056(%rsp)
	movdqa	%xmm0, 288(%rsp)
	movdqa	%xmm0, 304(%rsp)
	pxor	%xmm7, %xmm7
	movb	$2, %cl
	movb	$1, %al
	movq	$0, 24(%rsp)
	movq	$0, 32(%rsp)
	movq	$0, 48(%rsp)
	movq	$0, 56(%rsp)
	movq	$0, 8(%rsp)
	movq	$0, 64(%rsp)
	movq	$0, 40(%rsp)
	xorl	%ebp, %ebp
	xorl	%r13d, %r13d
	movq	$0, 88(%rsp)
	movq	$0, 112(%rsp)
	xorl	%r11d, %r11d
	xorl	%r14d, %r14d
	pxor	%xmm9, %xmm9
	pxor	%xmm8, %xmm8
	pxor	%xmm10, %xmm10
	movq	$0, 96(%rsp)
	xorl	%edx, %edx
	xorl	%r9d, %r9d
	xorl	%edi, %edi
	movq	$0, 16(%rsp)
	movq	$0, 80(%rsp)
	xorl	%r12d, %r12d
	movq	$0, 120(%rsp)
	movq	72(%rsp), %r15
	jmp	.LBB5_119
.LBB5_76:
	movq	$0, 128(%rsp)
	xorl	%ecx, %ecx
	xorl	%ebp, %ebp
	movq	$0, 104(%rsp)
	movq	$0, 176(%rsp)
	movq	$0, 192(%rsp)
	movq	$0, 112(%rsp)
	jmp	.LBB5_32
.LBB5_77:
	movzbl	4(%rdx), %r13d
	cmpq	$6, %rdi
	jb	.LBB5_80
	movzbl	5(%rdx), %r12d
	movq	%r12, 192(%rsp)
	jne	.LBB5_81
	movq	$0, 128(%rsp)
	xorl	%ecx, %ecx
	xorl	%ebp, %ebp
	movq	$0, 104(%rsp)
	movq	$0, 176(%rsp)
	jmp	.LBB5_33
.LBB5_80:
	movq	$0, 128(%rsp)
	xorl	%ecx, %ecx
	xorl	%ebp, %ebp
	movq	$0, 104(%rsp)
	movq	$0, 176(%rsp)
	movq	$0, 192(%rsp)
	jmp	.LBB5_33
.LBB5_81:
	movzbl	6(%rdx), %r9d
	cmpq	$8, %rdi
	jb	.LBB5_84
	movzbl	7(%rdx), %ebp
	movq	%rbp, 176(%rsp)
	jne	.LBB5_94
	movq	$0, 128(%rsp)
	xorl	%ecx, %ecx
	xorl	%ebp, %ebp
	movq	$0, 104(%rsp)
	jmp	.LBB5_34
.LBB5_84:
	movq	$0, 128(%rsp)
	xorl	%ecx, %ecx
	xorl	%ebp, %ebp
	movq	$0, 104(%rsp)
	movq	$0, 176(%rsp)
	jmp	.LBB5_34
.LBB5_85:
	cmpl	$196, %ecx
	jne	.LBB5_88
	cmpq	%rax, %r12
	movq	216(%rsp), %r10
	je	.LBB5_91
	movq	%rax, %rcx
	movdqu	%xmm3, 1656(%rsp)
	movdqu	%xmm7, 1672(%rsp)
	movaps	400(%rsp), %xmm0
	movaps	416(%rsp), %xmm1
	leaq	1544(%rsp), %rdx
	movups	%xmm1, 160(%rdx)
	movups	%xmm0, 144(%rdx)
	movaps	368(%rsp), %xmm0
	movaps	384(%rsp), %xmm1
	movups	%xmm1, 192(%rdx)
	movups	%xmm0, 176(%rdx)
	movaps	336(%rsp), %xmm0
	movaps	352(%rsp), %xmm1
	movups	%xmm1, 224(%rdx)
	movups	%xmm0, 208(%rdx)
	movdqu	%xmm4, 1784(%rsp)
	movq	%r13, 1800(%rsp)
	movq	16(%rsp), %rax
	movq	%rax, 1560(%rsp)
	movq	40(%rsp), %rax
	movq	%rax, 1568(%rsp)
	movq	64(%rsp), %rax
	movq	%rax, 1576(%rsp)
	movq	8(%rsp), %rax
	movq	%rax, 1584(%rsp)
	movq	56(%rsp), %rax
	movq	%rax, 1592(%rsp)
	movq	48(%rsp), %rax
	movq	%rax, 1600(%rsp)
	movq	32(%rsp), %rax
	movq	%rax, 1608(%rsp)
	movq	24(%rsp), %rax
	movq	%rax, 1616(%rsp)
	movdqa	432(%rsp), %xmm0
	movdqa	448(%rsp), %xmm1
	leaq	1624(%rsp), %rax
	movdqu	%xmm1, 16(%rax)
	movdqu	%xmm0, (%rax)
	pxor	%xmm0, %xmm0
	movdqu	%xmm0, 336(%rdx)
	movdqu	%xmm0, 320(%rdx)
	movdqu	%xmm0, 304(%rdx)
	movdqu	%xmm0, 288(%rdx)
	movdqu	%xmm0, 272(%rdx)
	movq	$0, 352(%rdx)
	movl	$2, %eax
	jmp	.LBB5_100
.LBB5_88:
	cmpb	$-64, %cl
	jae	.LBB5_97
.LBB5_89:
	movq	$1, 1520(%rsp)
	movq	$4, 1528(%rsp)
	pxor	%xmm0, %xmm0
	leaq	1544(%rsp), %rax
	movdqa	%xmm0, -8(%rax)
	movq	$0, 8(%rax)
	jmp	.LBB5_107
.LBB5_90:
	cmpq	%rax, %r12
	movq	216(%rsp), %r10
	jne	.LBB5_99
.LBB5_91:
	pxor	%xmm0, %xmm0
	leaq	1544(%rsp), %rax
	movdqu	%xmm0, 336(%rax)
	movdqu	%xmm0, 320(%rax)
	movdqu	%xmm0, 304(%rax)
	movdqu	%xmm0, 288(%rax)
	movdqu	%xmm0, 272(%rax)
	movq	$0, 352(%rax)
	movdqu	%xmm0, 240(%rax)
	movdqu	%xmm0, 224(%rax)
	movdqu	%xmm0, 208(%rax)
	movdqu	%xmm0, 192(%rax)
	movdqu	%xmm0, 176(%rax)
	movdqu	%xmm0, 160(%rax)
	movdqu	%xmm0, 144(%rax)
	movdqu	%xmm0, 128(%rax)
	movdqu	%xmm0, 112(%rax)
	movdqu	%xmm0, 96(%rax)
	movdqu	%xmm0, 80(%rax)
	movdqu	%xmm0, 64(%rax)
	movdqu	%xmm0, 48(%rax)
	movdqu	%xmm0, 32(%rax)
	movdqu	%xmm0, 16(%rax)
	movq	$0, 256(%rax)
	movdqa	.LCPI5_0(%rip), %xmm0
	xorl	%ecx, %ecx
	xorl	%eax, %eax
	xorl	%r12d, %r12d
	xorl	%ebp, %ebp
	jmp	.LBB5_100
.LBB5_92:
	cmpq	$2, %rdx
	jne	.LBB5_101
	movq	96(%rsp), %rax
	movzwl	(%rax), %eax
	rolw	$8, %ax
	movzwl	%ax, %eax
	movq	16(%rsp), %rcx
	movq	%rcx, 1560(%rsp)
	movq	40(%rsp), %rcx
	movq	%rcx, 1568(%rsp)
	movq	64(%rsp), %rcx
	movq	%rcx, 1576(%rsp)
	movq	8(%rsp), %rcx
	movq	%rcx, 1584(%rsp)
	movq	56(%rsp), %rcx
	movq	%rcx, 1592(%rsp)
	movq	48(%rsp), %rcx
	movq	%rcx, 1600(%rsp)
	movq	32(%rsp), %rcx
	movq	%rcx, 1608(%rsp)
	movq	24(%rsp), %rcx
	movq	%rcx, 1616(%rsp)
	movaps	432(%rsp), %xmm0
	movaps	448(%rsp), %xmm1
	leaq	1624(%rsp), %rcx
	movups	%xmm1, 16(%rcx)
	movups	%xmm0, (%rcx)
	movdqu	%xmm3, 1656(%rsp)
	movdqu	%xmm7, 1672(%rsp)
	movaps	400(%rsp), %xmm0
	movaps	416(%rsp), %xmm1
	leaq	1544(%rsp), %rcx
	movups	%xmm1, 160(%rcx)
	movups	%xmm0, 144(%rcx)
	movaps	368(%rsp), %xmm0
	movaps	384(%rsp), %xmm1
	movups	%xmm1, 192(%rcx)
	movups	%xmm0, 176(%rcx)
	movdqa	336(%rsp), %xmm0
	movdqa	352(%rsp), %xmm1
	movdqu	%xmm1, 224(%rcx)
	movdqu	%xmm0, 208(%rcx)
	movdqu	%xmm4, 1784(%rsp)
	movq	%r13, 1800(%rsp)
	pxor	%xmm0, %xmm0
	movdqu	%xmm0, (%rcx)
	movdqu	%xmm0, 336(%rcx)
	movdqu	%xmm0, 320(%rcx)
	movdqu	%xmm0, 304(%rcx)
	movdqu	%xmm0, 288(%rcx)
	movdqu	%xmm0, 272(%rcx)
	movq	$0, 352(%rcx)
	jmp	.LBB5_102
.LBB5_94:
	movzbl	8(%rdx), %r11d
	cmpq	$10, %rdi
	jb	.LBB5_104
	movzbl	9(%rdx), %ecx
	movq	%rcx, 104(%rsp)
	jne	.LBB5_109
	movq	$0, 128(%rsp)
	xorl	%ecx, %ecx
	xorl	%ebp, %ebp
	xorl	%ebx, %ebx
	jmp	.LBB5_113
.LBB5_97:
	cmpb	$-62, %cl
	jae	.LBB5_105
	leaq	1520(%rsp), %rdi
	leaq	9712(%rsp), %rcx
	movq	96(%rsp), %rsi
	movq	%r12, %r8
	callq	"jpeg_header_state::frame"
	jmp	.LBB5_103
.LBB5_99:
	movq	%rax, %rcx
	movdqu	%xmm3, 1656(%rsp)
	movdqu	%xmm7, 1672(%rsp)
	movaps	400(%rsp), %xmm0
	movaps	416(%rsp), %xmm1
	leaq	1544(%rsp), %rdx
	movups	%xmm1, 160(%rdx)
	movups	%xmm0, 144(%rdx)
	movaps	368(%rsp), %xmm0
	movaps	384(%rsp), %xmm1
	movups	%xmm1, 192(%rdx)
	movups	%xmm0, 176(%rdx)
	movaps	336(%rsp), %xmm0
	movaps	352(%rsp), %xmm1
	movups	%xmm1, 224(%rdx)
	movups	%xmm0, 208(%rdx)
	movdqu	%xmm4, 1784(%rsp)
	movq	%r13, 1800(%rsp)
	movq	16(%rsp), %rax
	movq	%rax, 1560(%rsp)
	movq	40(%rsp), %rax
	movq	%rax, 1568(%rsp)
	movq	64(%rsp), %rax
	movq	%rax, 1576(%rsp)
	movq	8(%rsp), %rax
	movq	%rax, 1584(%rsp)
	movq	56(%rsp), %rax
	movq	%rax, 1592(%rsp)
	movq	48(%rsp), %rax
	movq	%rax, 1600(%rsp)
	movq	32(%rsp), %rax
	movq	%rax, 1608(%rsp)
	movq	24(%rsp), %rax
	movq	%rax, 1616(%rsp)
	movdqa	432(%rsp), %xmm0
	movdqa	448(%rsp), %xmm1
	leaq	1624(%rsp), %rax
	movdqu	%xmm1, 16(%rax)
	movdqu	%xmm0, (%rax)
	pxor	%xmm0, %xmm0
	movdqu	%xmm0, 336(%rdx)
	movdqu	%xmm0, 320(%rdx)
	movdqu	%xmm0, 304(%rdx)
	movdqu	%xmm0, 288(%rdx)
	movdqu	%xmm0, 272(%rdx)
	movq	$0, 352(%rdx)
	movl	$1, %eax
.LBB5_100:
	movq	72(%rsp), %r15
	movdqa	%xmm0, 1520(%rsp)
	movq	%rcx, 1536(%rsp)
	movq	%rax, 1544(%rsp)
	movq	%r12, 1552(%rsp)
	movq	%rbp, 1808(%rsp)
	jmp	.LBB5_108
.LBB5_101:
	pxor	%xmm0, %xmm0
	leaq	1544(%rsp), %rdi
	movdqu	%xmm0, 336(%rdi)
	movdqu	%xmm0, 320(%rdi)
	movdqu	%xmm0, 304(%rdi)
	movdqu	%xmm0, 288(%rdi)
	movdqu	%xmm0, 272(%rdi)
	movq	$0, 352(%rdi)
	xorl	%r12d, %r12d
	movl	$264, %edx
	xorl	%esi, %esi
	callq	memset@PLT
	movdqa	.LCPI5_0(%rip), %xmm0
	xorl	%eax, %eax
.LBB5_102:
	movdqa	%xmm0, 1520(%rsp)
	movq	%r12, 1536(%rsp)
	movq	%rax, 1808(%rsp)
.LBB5_103:
	movq	%r15, %rsi
	movq	%rbx, %r8
	movq	160(%rsp), %rdi
	movq	72(%rsp), %r15
	movq	216(%rsp), %r10
	xorps	%xmm5, %xmm5
	xorps	%xmm6, %xmm6
	jmp	.LBB5_108
.LBB5_104:
	movq	$0, 128(%rsp)
	xorl	%ecx, %ecx
	xorl	%ebp, %ebp
	movq	$0, 104(%rsp)
	jmp	.LBB5_35
.LBB5_105:
	andb	$-16, %cl
	cmpb	$-32, %cl
	movq	%r15, %rsi
	movq	%rbx, %r8
	movq	160(%rsp), %rdi
	jne	.LBB5_89
.LBB5_106:
	pxor	%xmm0, %xmm0
	movdqa	%xmm0, 1520(%rsp)
	movq	%r12, 1536(%rsp)
	leaq	1544(%rsp), %rcx
	movdqu	%xmm0, (%rcx)
	movq	16(%rsp), %rax
	movq	%rax, 1560(%rsp)
	movq	40(%rsp), %rax
	movq	%rax, 1568(%rsp)
	movq	64(%rsp), %rax
	movq	%rax, 1576(%rsp)
	movq	8(%rsp), %rax
	movq	%rax, 1584(%rsp)
	movq	56(%rsp), %rax
	movq	%rax, 1592(%rsp)
	movq	48(%rsp), %rax
	movq	%rax, 1600(%rsp)
	movq	32(%rsp), %rax
	movq	%rax, 1608(%rsp)
	movq	24(%rsp), %rax
	movq	%rax, 1616(%rsp)
	movaps	432(%rsp), %xmm1
	movaps	448(%rsp), %xmm2
	leaq	1624(%rsp), %rax
	movups	%xmm2, 16(%rax)
	movups	%xmm1, (%rax)
	movdqu	%xmm3, 1656(%rsp)
	movdqu	%xmm7, 1672(%rsp)
	movaps	400(%rsp), %xmm1
	movaps	416(%rsp), %xmm2
	movups	%xmm2, 160(%rcx)
	movups	%xmm1, 144(%rcx)
	movaps	368(%rsp), %xmm1
	movaps	384(%rsp), %xmm2
	movups	%xmm2, 192(%rcx)
	movups	%xmm1, 176(%rcx)
	movdqa	336(%rsp), %xmm1
	movdqa	352(%rsp), %xmm2
	movdqu	%xmm2, 224(%rcx)
	movdqu	%xmm1, 208(%rcx)
	movdqu	%xmm4, 1784(%rsp)
	movdqu	%xmm8, 1800(%rsp)
	movdqu	%xmm0, 336(%rcx)
	movdqu	%xmm0, 320(%rcx)
	movdqu	%xmm0, 304(%rcx)
	movdqu	%xmm0, 288(%rcx)
	movdqu	%xmm0, 272(%rcx)
	movq	$0, 352(%rcx)
.LBB5_107:
	movq	72(%rsp), %r15
	movq	216(%rsp), %r10
.LBB5_108:
	movzbl	1520(%rsp), %eax
	movzbl	1528(%rsp), %ecx
	movq	1536(%rsp), %rdx
	movq	%rdx, 80(%rsp)
	movq	1544(%rsp), %r12
	movq	1552(%rsp), %rdx
	movq	%rdx, 120(%rsp)
	movq	1560(%rsp), %rdx
	movq	%rdx, 16(%rsp)
	movq	1568(%rsp), %rdx
	movq	%rdx, 40(%rsp)
	movq	1576(%rsp), %rdx
	movq	%rdx, 64(%rsp)
	movq	1584(%rsp), %rdx
	movq	%rdx, 8(%rsp)
	movq	1592(%rsp), %rdx
	movq	%rdx, 56(%rsp)
	movq	1600(%rsp), %rdx
	movq	%rdx, 48(%rsp)
	movq	1608(%rsp), %rdx
	movq	%rdx, 32(%rsp)
	movq	1616(%rsp), %rdx
	movq	%rdx, 24(%rsp)
	leaq	1624(%rsp), %rdx
	movups	(%rdx), %xmm0
	movups	16(%rdx), %xmm1
	movaps	%xmm0, 17904(%rsp)
	movaps	%xmm1, 17920(%rsp)
	movdqu	1656(%rsp), %xmm7
	movdqu	1672(%rsp), %xmm9
	movdqu	1784(%rsp), %xmm8
	movdqu	1800(%rsp), %xmm10
	leaq	1544(%rsp), %rdx
	movups	144(%rdx), %xmm0
	movups	160(%rdx), %xmm1
	movaps	%xmm1, 528(%rsp)
	movaps	%xmm0, 512(%rsp)
	movups	176(%rdx), %xmm0
	movups	192(%rdx), %xmm1
	movaps	%xmm0, 1040(%rsp)
	movaps	%xmm1, 1056(%rsp)
	movdqu	208(%rdx), %xmm0
	movdqu	224(%rdx), %xmm1
	movdqa	%xmm0, 288(%rsp)
	movdqa	%xmm1, 304(%rsp)
	cmpq	1872(%rsp), %rdi
	movq	1816(%rsp), %rbp
	setb	%dl
	cmpq	1880(%rsp), %rdi
	movq	1824(%rsp), %r13
	movq	1832(%rsp), %rdi
	movq	%rdi, 88(%rsp)
	movq	1840(%rsp), %rdi
	movq	%rdi, 112(%rsp)
	movq	1848(%rsp), %r11
	movq	1856(%rsp), %r14
	movq	1864(%rsp), %rdi
	movq	%rdi, 96(%rsp)
	movq	1888(%rsp), %rdi
	setb	%r9b
	jmp	.LBB5_119
.LBB5_109:
	movzbl	10(%rdx), %ebx
	cmpq	$12, %rdi
	jb	.LBB5_112
	movzbl	11(%rdx), %ebp
	jne	.LBB5_122
	movq	$0, 128(%rsp)
	xorl	%ecx, %ecx
	jmp	.LBB5_113
.LBB5_112:
	movq	$0, 128(%rsp)
	xorl	%ecx, %ecx
	xorl	%ebp, %ebp
.LBB5_113:
	xorl	%r14d, %r14d
.LBB5_114:
	xorl	%r15d, %r15d
.LBB5_115:
	xorl	%r10d, %r10d
	xorps	%xmm5, %xmm5
	xorps	%xmm6, %xmm6
	cmpq	$17, %rdi
	jae	.LBB5_36
.LBB5_117:
	pxor	%xmm7, %xmm7
	movdqa	%xmm7, 17920(%rsp)
	movdqa	%xmm7, 17904(%rsp)
	movdqa	%xmm7, 512(%rsp)
	movdqa	%xmm7, 528(%rsp)
	movdqa	%xmm7, 1040(%rsp)
	movdqa	%xmm7, 1056(%rsp)
	movdqa	%xmm7, 288(%rsp)
	movdqa	%xmm7, 304(%rsp)
	movb	$3, %cl
	movb	$1, %al
	movq	$0, 24(%rsp)
	movq	$0, 32(%rsp)
	movq	$0, 48(%rsp)
	movq	$0, 56(%rsp)
	movq	$0, 8(%rsp)
	movq	$0, 64(%rsp)
	movq	$0, 40(%rsp)
	movq	$0, 16(%rsp)
	movq	$0, 80(%rsp)
	xorl	%r12d, %r12d
	movq	$0, 120(%rsp)
	pxor	%xmm9, %xmm9
	pxor	%xmm8, %xmm8
	pxor	%xmm10, %xmm10
	movq	72(%rsp), %r15
	movq	216(%rsp), %r10
	.p2align	4
.LBB5_118:
	xorl	%ebp, %ebp
	xorl	%r13d, %r13d
	movq	$0, 88(%rsp)
	movq	$0, 112(%rsp)
	xorl	%r11d, %r11d
	xorl	%r14d, %r14d
	movq	$0, 96(%rsp)
	xorl	%edx, %edx
	xorl	%r9d, %r9d
	xorl	%edi, %edi
.LBB5_119:
	movaps	17904(%rsp), %xmm0
	movaps	17920(%rsp), %xmm1
	movaps	%xmm1, 816(%rsp)
	movaps	%xmm0, 800(%rsp)
	movaps	512(%rsp), %xmm0
	movaps	528(%rsp), %xmm1
	movaps	%xmm0, 880(%rsp)
	movaps	%xmm1, 896(%rsp)
	movaps	1040(%rsp), %xmm0
	movaps	1056(%rsp), %xmm1
	movaps	%xmm0, 1200(%rsp)
	movaps	%xmm1, 1216(%rsp)
	movaps	288(%rsp), %xmm0
	movaps	304(%rsp), %xmm1
	movaps	%xmm0, 1168(%rsp)
	movaps	%xmm1, 1184(%rsp)
	testb	%al, %al
	jne	.LBB5_279
	movq	%r13, %rbx
	movq	%rbp, %r13
	pshufd	$238, %xmm10, %xmm0
	movq	%xmm0, %rbp
	movq	%xmm10, %rax
	testb	%cl, %cl
	jne	.LBB5_280
	movq	%rax, %r13
	movq	%r12, %rax
	shrq	$8, %rax
	movaps	800(%rsp), %xmm0
	movaps	816(%rsp), %xmm1
	movaps	%xmm1, 448(%rsp)
	movaps	%xmm0, 432(%rsp)
	movaps	880(%rsp), %xmm0
	movaps	896(%rsp), %xmm1
	movaps	%xmm0, 400(%rsp)
	movaps	%xmm1, 416(%rsp)
	movaps	1200(%rsp), %xmm0
	movaps	1216(%rsp), %xmm1
	movaps	%xmm0, 368(%rsp)
	movaps	%xmm1, 384(%rsp)
	movdqa	1168(%rsp), %xmm0
	movaps	1184(%rsp), %xmm1
	movdqa	%xmm0, 336(%rsp)
	movaps	%xmm1, 352(%rsp)
	movq	24(%rsp), %rdx
	jmp	.LBB5_9
.LBB5_122:
	movzbl	12(%rdx), %r14d
	cmpq	$14, %rdi
	jb	.LBB5_125
	movzbl	13(%rdx), %ecx
	jne	.LBB5_126
	movq	$0, 128(%rsp)
	jmp	.LBB5_114
.LBB5_125:
	movq	$0, 128(%rsp)
	xorl	%ecx, %ecx
	jmp	.LBB5_114
.LBB5_126:
	movzbl	14(%rdx), %r15d
	cmpq	$16, %rdi
	jb	.LBB5_129
	movzbl	15(%rdx), %r10d
	movq	%r10, 128(%rsp)
	je	.LBB5_115
	movzbl	16(%rdx), %r10d
	xorps	%xmm5, %xmm5
	xorps	%xmm6, %xmm6
	cmpq	$17, %rdi
	jae	.LBB5_36
	jmp	.LBB5_117
.LBB5_129:
	movq	$0, 128(%rsp)
	jmp	.LBB5_115
.LBB5_131:
	addq	%r12, %r10
	addq	%r15, %r10
	addq	%r9, %r10
	addq	%rbx, %r10
	addq	%r14, %r11
	addq	%r10, %r11
	xorl	%edi, %edi
	jmp	.LBB5_133
.LBB5_132:
	movb	$1, 9712(%rsp,%r9)
	incq	%rdi
	cmpq	%rdi, %r11
	je	.LBB5_60
.LBB5_133:
	movzbl	(%rdx,%rdi), %r9d
	cmpb	$0, 9712(%rsp,%r9)
	jne	.LBB5_137
	testq	%r9, %r9
	je	.LBB5_132
	cmpl	$240, %r9d
	je	.LBB5_132
	movl	%r9d, %r10d
	andl	$15, %r10d
	decl	%r10d
	cmpl	$9, %r10d
	jbe	.LBB5_132
.LBB5_137:
	xorps	%xmm5, %xmm5
	xorps	%xmm6, %xmm6
	jmp	.LBB5_117
.LBB5_138:
	andl	$24, %r9d
	movq	%rax, 1608(%rsp,%r9)
.LBB5_139:
	addq	%rcx, 80(%rsp)
	movq	1528(%rsp), %r12
	movq	1552(%rsp), %rax
	movq	%rax, 40(%rsp)
	movq	1560(%rsp), %rax
	movq	%rax, 64(%rsp)
	movq	1568(%rsp), %rax
	movq	%rax, 8(%rsp)
	movq	1576(%rsp), %rax
	movq	%rax, 56(%rsp)
	movq	1584(%rsp), %rax
	movq	%rax, 48(%rsp)
	movq	1592(%rsp), %rax
	movq	%rax, 32(%rsp)
	movq	1600(%rsp), %rax
	movq	%rax, 24(%rsp)
	leaq	1608(%rsp), %rax
	movups	(%rax), %xmm0
	movups	16(%rax), %xmm1
	movaps	%xmm1, 17920(%rsp)
	movaps	%xmm0, 17904(%rsp)
	leaq	1544(%rsp), %rax
	movups	128(%rax), %xmm0
	movups	144(%rax), %xmm1
	movaps	%xmm1, 528(%rsp)
	movaps	%xmm0, 512(%rsp)
	movups	160(%rax), %xmm0
	movups	176(%rax), %xmm1
	movaps	%xmm0, 1040(%rsp)
	movaps	%xmm1, 1056(%rsp)
	movdqu	192(%rax), %xmm0
	movdqu	208(%rax), %xmm1
	movdqa	%xmm0, 288(%rsp)
	movdqa	%xmm1, 304(%rsp)
	xorl	%eax, %eax
	xorl	%ecx, %ecx
	movq	72(%rsp), %r15
	movq	216(%rsp), %r10
	xorps	%xmm5, %xmm5
	xorps	%xmm6, %xmm6
	jmp	.LBB5_118
.LBB5_140:
	movq	%rbx, %r8
	movdqa	%xmm0, 784(%rsp)
	movdqa	%xmm0, 768(%rsp)
	movdqa	%xmm0, 736(%rsp)
	movdqa	%xmm0, 752(%rsp)
	movdqa	%xmm0, 704(%rsp)
	movdqa	%xmm0, 720(%rsp)
	movdqa	%xmm0, 672(%rsp)
	movdqa	%xmm0, 688(%rsp)
	movl	$1, %eax
	movq	%rax, 16(%rsp)
	movq	$0, 64(%rsp)
	movq	$0, 8(%rsp)
	movq	$0, 56(%rsp)
	movq	$0, 48(%rsp)
	xorl	%edx, %edx
	xorl	%ecx, %ecx
	movq	$0, 40(%rsp)
	movq	$0, 232(%rsp)
	movq	$0, 128(%rsp)
	movq	$0, 192(%rsp)
	movq	$0, 176(%rsp)
	movq	$0, 240(%rsp)
	movq	$0, 224(%rsp)
	movq	$0, 104(%rsp)
	xorl	%r13d, %r13d
	xorl	%ebx, %ebx
	movq	$0, 88(%rsp)
	movq	$0, 112(%rsp)
	movq	$0, 160(%rsp)
	movq	$0, 256(%rsp)
	movq	$0, 96(%rsp)
	xorl	%eax, %eax
.LBB5_141:
	xorl	%r14d, %r14d
	xorl	%r12d, %r12d
	xorl	%r9d, %r9d
	jmp	.LBB5_144
.LBB5_142:
	movq	%rbx, %r8
	xorl	%r14d, %r14d
	xorl	%r12d, %r12d
	xorl	%r9d, %r9d
.LBB5_143:
	movaps	%xmm5, 768(%rsp)
	movaps	%xmm5, 784(%rsp)
	movaps	%xmm5, 736(%rsp)
	movaps	%xmm5, 752(%rsp)
	movaps	%xmm5, 704(%rsp)
	movaps	%xmm5, 720(%rsp)
	movaps	%xmm5, 672(%rsp)
	movaps	%xmm5, 688(%rsp)
	movq	$0, 64(%rsp)
	movq	$0, 8(%rsp)
	movq	$0, 56(%rsp)
	movq	$0, 48(%rsp)
	xorl	%edx, %edx
	xorl	%ecx, %ecx
	movq	$0, 40(%rsp)
	movq	$0, 232(%rsp)
	movq	$0, 128(%rsp)
	movq	$0, 192(%rsp)
	movq	$0, 176(%rsp)
	movq	$0, 240(%rsp)
	movq	$0, 224(%rsp)
	movq	$0, 104(%rsp)
	xorl	%r13d, %r13d
	xorl	%ebx, %ebx
	movq	$0, 88(%rsp)
	movq	$0, 112(%rsp)
	movq	$0, 160(%rsp)
	movq	$0, 256(%rsp)
	movq	$0, 96(%rsp)
	xorl	%eax, %eax
.LBB5_144:
	xorl	%ebp, %ebp
.LBB5_145:
	pxor	%xmm0, %xmm0
	movdqa	%xmm0, 1520(%rsp)
	movdqa	%xmm0, 1536(%rsp)
	movdqa	%xmm0, 9712(%rsp)
	movdqa	%xmm0, 9728(%rsp)
	movdqa	%xmm0, 17904(%rsp)
	movdqa	%xmm0, 17920(%rsp)
	movdqa	%xmm0, 512(%rsp)
	movdqa	%xmm0, 528(%rsp)
	testb	%al, %al
	je	.LBB5_147
	movaps	768(%rsp), %xmm0
	movaps	784(%rsp), %xmm1
	movaps	%xmm1, 1536(%rsp)
	movaps	%xmm0, 1520(%rsp)
	movaps	736(%rsp), %xmm0
	movaps	752(%rsp), %xmm1
	movaps	%xmm0, 9712(%rsp)
	movaps	%xmm1, 9728(%rsp)
	movaps	704(%rsp), %xmm0
	movaps	720(%rsp), %xmm1
	movaps	%xmm0, 17904(%rsp)
	movaps	%xmm1, 17920(%rsp)
	movdqa	672(%rsp), %xmm0
	movaps	688(%rsp), %xmm1
	movdqa	%xmm0, 512(%rsp)
	movaps	%xmm1, 528(%rsp)
	jmp	.LBB5_148
.LBB5_147:
	movq	16(%rsp), %rcx
	movzbl	%cl, %ecx
	movq	%rcx, 16(%rsp)
	movq	$0, 40(%rsp)
	movq	$0, 64(%rsp)
	movq	$0, 8(%rsp)
	movq	$0, 56(%rsp)
	movq	$0, 48(%rsp)
	xorl	%edx, %edx
	xorl	%ecx, %ecx
	movq	$0, 232(%rsp)
	movq	$0, 128(%rsp)
	movq	$0, 192(%rsp)
	movq	$0, 176(%rsp)
	movq	$0, 240(%rsp)
	movq	$0, 224(%rsp)
	movq	$0, 104(%rsp)
	xorl	%ebp, %ebp
	xorl	%r13d, %r13d
	xorl	%ebx, %ebx
	movq	$0, 88(%rsp)
	movq	$0, 112(%rsp)
	movq	$0, 160(%rsp)
	movq	$0, 256(%rsp)
	movq	$0, 96(%rsp)
.LBB5_148:
	movaps	1520(%rsp), %xmm0
	movaps	1536(%rsp), %xmm1
	movaps	%xmm1, 496(%rsp)
	movaps	%xmm0, 480(%rsp)
	movaps	9712(%rsp), %xmm0
	movaps	9728(%rsp), %xmm1
	movaps	%xmm0, 1328(%rsp)
	movaps	%xmm1, 1344(%rsp)
	movaps	17904(%rsp), %xmm0
	movaps	17920(%rsp), %xmm1
	movaps	%xmm0, 1296(%rsp)
	movaps	%xmm1, 1312(%rsp)
	movaps	512(%rsp), %xmm0
	movaps	528(%rsp), %xmm1
	movaps	%xmm0, 1264(%rsp)
	movaps	%xmm1, 1280(%rsp)
	testb	%al, %al
	je	.LBB5_158
	movaps	480(%rsp), %xmm0
	movaps	496(%rsp), %xmm1
	movaps	%xmm1, 1376(%rsp)
	movaps	%xmm0, 1360(%rsp)
	movaps	%xmm1, 352(%rsp)
	movaps	%xmm0, 336(%rsp)
	testq	%rdi, %rdi
	js	.LBB5_159
	movq	%rdx, 32(%rsp)
	movq	%rcx, 24(%rsp)
	movb	%r11b, 248(%rsp)
	movq	%r14, 80(%rsp)
	movq	%r10, 216(%rsp)
	movq	%r15, 72(%rsp)
	movq	%rsi, 1256(%rsp)
	movq	26176(%rsp), %rax
	movaps	480(%rsp), %xmm0
	movaps	496(%rsp), %xmm1
	movaps	%xmm1, 384(%rsp)
	movaps	%xmm0, 368(%rsp)
	movq	256(%rsp), %r14
	cmpq	%r14, %rax
	movq	%r14, %rcx
	cmovbq	%rax, %rcx
	movq	%rcx, 120(%rsp)
	movaps	%xmm0, 400(%rsp)
	movaps	%xmm1, 416(%rsp)
	movq	%rdi, 152(%rsp)
	leaq	9712(%rsp), %rdi
	movl	$8192, %edx
	xorl	%esi, %esi
	movq	%r8, 144(%rsp)
	movq	%r9, %r15
	callq	memset@PLT
	leaq	17904(%rsp), %rdi
	movl	$8192, %edx
	xorl	%esi, %esi
	callq	memset@PLT
	movq	152(%rsp), %rcx
	movq	144(%rsp), %r11
	xorps	%xmm0, %xmm0
	movaps	%xmm0, 512(%rsp)
	movaps	%xmm0, 528(%rsp)
	movaps	%xmm0, 544(%rsp)
	movaps	%xmm0, 560(%rsp)
	movaps	%xmm0, 576(%rsp)
	movaps	%xmm0, 592(%rsp)
	movaps	%xmm0, 608(%rsp)
	movaps	%xmm0, 624(%rsp)
	movaps	%xmm0, 640(%rsp)
	movq	$0, 656(%rsp)
	movq	96(%rsp), %rax
	shrq	$32, %rax
	movq	56(%rsp), %r10
	jne	.LBB5_167
	movq	%rcx, %rdx
	subq	%r14, %rdx
	jb	.LBB5_167
	leaq	-1(%r12), %rax
	cmpq	$3, %rax
	ja	.LBB5_167
	movq	%r15, %r8
	leaq	-1(%r15), %rax
	leaq	-1(%r10), %rcx
	orq	%rax, %rcx
	cmpq	$3, %rcx
	ja	.LBB5_167
	movq	%r10, %rsi
	imulq	%r8, %rsi
	cmpq	$1, %r12
	jne	.LBB5_161
.LBB5_155:
	cmpq	$10, %rsi
	ja	.LBB5_167
	movq	%rdx, 1248(%rsp)
	movaps	1296(%rsp), %xmm0
	movaps	1312(%rsp), %xmm1
	movaps	%xmm1, 1536(%rsp)
	movaps	%xmm0, 1520(%rsp)
	movq	240(%rsp), %rax
	cmpq	$3, %rax
	ja	.LBB5_169
	movq	1520(%rsp,%rax,8), %rax
	movq	%rax, 240(%rsp)
	jmp	.LBB5_170
.LBB5_158:
	movzbl	16(%rsp), %eax
	xorl	%ecx, %ecx
	cmpq	$10, %rax
	cmovneq	%rcx, %r12
	cmovneq	%rcx, %r9
	movl	$1, %ecx
	leaq	.LJTI5_1(%rip), %rdx
	movslq	(%rdx,%rax,4), %rsi
	addq	%rdx, %rsi
	movq	%r8, %r11
	jmpq	*%rsi
.LBB5_159:
	xorl	%eax, %eax
	xorl	%r14d, %r14d
	xorl	%r12d, %r12d
	xorl	%r9d, %r9d
	movq	%r8, %r11
.LBB5_160:
	xorl	%ecx, %ecx
	cmpq	$10, %rax
	cmovneq	%rcx, %r12
	cmovneq	%rcx, %r9
	movl	$1, %ecx
	leaq	.LJTI5_1(%rip), %rdx
	movslq	(%rdx,%rax,4), %rsi
	addq	%rdx, %rsi
	jmpq	*%rsi
.LBB5_161:
	movq	40(%rsp), %rax
	decq	%rax
	movq	48(%rsp), %rcx
	decq	%rcx
	orq	%rax, %rcx
	cmpq	$3, %rcx
	ja	.LBB5_167
	movq	48(%rsp), %rax
	imulq	40(%rsp), %rax
	addq	%rax, %rsi
	cmpq	$2, %r12
	je	.LBB5_155
	movq	64(%rsp), %rax
	decq	%rax
	movq	32(%rsp), %rcx
	decq	%rcx
	orq	%rax, %rcx
	cmpq	$3, %rcx
	ja	.LBB5_167
	movq	32(%rsp), %rax
	imulq	64(%rsp), %rax
	addq	%rax, %rsi
	cmpq	$3, %r12
	je	.LBB5_155
	movq	8(%rsp), %rax
	decq	%rax
	movq	24(%rsp), %rcx
	decq	%rcx
	orq	%rax, %rcx
	cmpq	$3, %rcx
	ja	.LBB5_167
	movq	24(%rsp), %rax
	imulq	8(%rsp), %rax
	addq	%rax, %rsi
	jmp	.LBB5_155
.LBB5_167:
	movl	$10, %edx
	xorl	%eax, %eax
	xorl	%r9d, %r9d
	cmpq	$10, %rdx
	movl	$0, %r12d
	cmoveq	%rax, %r12
	movb	$3, %r14b
	cmoveq	%rax, %r9
	movl	$1, %ecx
	movl	$10, %eax
	leaq	.LJTI5_1(%rip), %rsi
	movslq	(%rsi,%rdx,4), %rdx
	addq	%rsi, %rdx
	movq	72(%rsp), %r15
	jmpq	*%rdx
.LBB5_168:
	movl	$2, %ecx
	jmp	.LBB5_264
.LBB5_169:
	movq	$0, 240(%rsp)
.LBB5_170:
	xorl	%ecx, %ecx
	movq	80(%rsp), %rdi
	movzbl	248(%rsp), %edx
	movq	128(%rsp), %rax
	movq	224(%rsp), %r9
	cmpq	$3, %r9
	ja	.LBB5_172
	movq	1520(%rsp,%r9,8), %r9
	movq	%r9, 224(%rsp)
	jmp	.LBB5_173
.LBB5_172:
	movq	$0, 224(%rsp)
.LBB5_173:
	movq	48(%rsp), %r9
	movq	40(%rsp), %r15
	movq	104(%rsp), %r11
	cmpq	$3, %r11
	ja	.LBB5_175
	movq	1520(%rsp,%r11,8), %r11
	jmp	.LBB5_176
.LBB5_175:
	xorl	%r11d, %r11d
.LBB5_176:
	cmpq	$3, %rbp
	ja	.LBB5_178
	movq	1520(%rsp,%rbp,8), %rbp
	movq	%rbp, 48(%rsp)
	jmp	.LBB5_179
.LBB5_178:
	movq	$0, 48(%rsp)
.LBB5_179:
	movq	232(%rsp), %rbp
	movaps	1264(%rsp), %xmm0
	movaps	1280(%rsp), %xmm1
	movaps	%xmm1, 1536(%rsp)
	movaps	%xmm0, 1520(%rsp)
	cmpq	$3, %r13
	ja	.LBB5_181
	movq	1520(%rsp,%r13,8), %r13
	movq	%r13, 40(%rsp)
	jmp	.LBB5_182
.LBB5_181:
	movq	$0, 40(%rsp)
.LBB5_182:
	movq	88(%rsp), %r13
	cmpq	$3, %rbx
	ja	.LBB5_184
	movq	1520(%rsp,%rbx,8), %rbx
	movq	%rbx, 88(%rsp)
	jmp	.LBB5_185
.LBB5_184:
	movq	$0, 88(%rsp)
.LBB5_185:
	cmpq	$3, %r13
	ja	.LBB5_187
	movq	1520(%rsp,%r13,8), %rbx
	movq	%rbx, 104(%rsp)
	jmp	.LBB5_188
.LBB5_187:
	movq	$0, 104(%rsp)
.LBB5_188:
	movq	112(%rsp), %rbx
	cmpq	$3, %rbx
	ja	.LBB5_190
	movq	1520(%rsp,%rbx,8), %rbx
	movq	%rbx, 112(%rsp)
	jmp	.LBB5_191
.LBB5_190:
	movq	$0, 112(%rsp)
.LBB5_191:
	movb	%dl, %cl
	movaps	1328(%rsp), %xmm0
	movaps	1344(%rsp), %xmm1
	movaps	%xmm1, 1536(%rsp)
	movaps	%xmm0, 1520(%rsp)
	cmpq	$3, %rbp
	ja	.LBB5_193
	movq	1520(%rsp,%rbp,8), %rdx
	movq	%rdx, 248(%rsp)
	jmp	.LBB5_194
.LBB5_193:
	movq	$0, 248(%rsp)
.LBB5_194:
	movq	24(%rsp), %rdx
	shll	$12, %ecx
	cmpq	$3, %rax
	ja	.LBB5_196
	movq	1520(%rsp,%rax,8), %rax
	movq	%rax, 872(%rsp)
	jmp	.LBB5_197
.LBB5_196:
	movq	$0, 872(%rsp)
.LBB5_197:
	movq	192(%rsp), %r13
	cmpq	$3, %r13
	ja	.LBB5_199
	movq	1520(%rsp,%r13,8), %rax
	movq	%rax, 864(%rsp)
	jmp	.LBB5_200
.LBB5_199:
	movq	$0, 864(%rsp)
.LBB5_200:
	movq	26168(%rsp), %rax
	leaq	(%rax,%rcx), %r13
	movq	176(%rsp), %rax
	cmpq	$3, %rax
	movq	%rcx, 840(%rsp)
	ja	.LBB5_202
	movq	1520(%rsp,%rax,8), %rcx
	movq	%rcx, 856(%rsp)
	jmp	.LBB5_203
.LBB5_202:
	movq	$0, 856(%rsp)
.LBB5_203:
	movq	%rax, %rcx
	movq	120(%rsp), %rbx
	leaq	(%rbx,%r13), %rax
	movq	%rax, 1240(%rsp)
	movq	26176(%rsp), %rax
	subq	%rbx, %rax
	movq	%rax, 80(%rsp)
	movq	16(%rsp), %rax
	movq	%rax, 1520(%rsp)
	movq	%rdi, 1528(%rsp)
	movq	%r12, 1536(%rsp)
	movq	%r8, 1544(%rsp)
	movq	%r15, 1552(%rsp)
	movq	64(%rsp), %rbx
	movq	%rbx, 1560(%rsp)
	movq	8(%rsp), %rax
	movq	%rax, 1568(%rsp)
	movq	%r10, 1576(%rsp)
	movq	%r9, 1584(%rsp)
	movq	32(%rsp), %rax
	movq	%rax, 1592(%rsp)
	movq	%rdx, 1600(%rsp)
	movaps	480(%rsp), %xmm0
	movaps	496(%rsp), %xmm1
	movups	%xmm0, 1608(%rsp)
	movups	%xmm1, 1624(%rsp)
	movq	%rbp, 1640(%rsp)
	movq	128(%rsp), %rax
	movq	%rax, 1648(%rsp)
	movq	192(%rsp), %rax
	movq	%rax, 1656(%rsp)
	movq	%rcx, 1664(%rsp)
	movl	$9, %eax
	xorl	%ecx, %ecx
	movq	%rsi, 232(%rsp)
	.p2align	4
.LBB5_204:
	movq	1576(%rsp,%rcx,8), %rdx
	imulq	1544(%rsp,%rcx,8), %rdx
	subq	%rdx, %rax
	jb	.LBB5_207
	incq	%rcx
	cmpq	%rcx, %r12
	jne	.LBB5_204
	movq	%r12, %rcx
.LBB5_207:
	movq	24(%rsp), %rax
	shll	$2, %ecx
	andl	$12, %ecx
	movq	16(%rsp), %rdx
	movq	%rdx, 1520(%rsp)
	movq	%rdi, 1528(%rsp)
	movq	%r12, 1536(%rsp)
	movq	%r8, 1544(%rsp)
	movq	%r15, 1552(%rsp)
	movq	%rbx, 1560(%rsp)
	movq	8(%rsp), %rdx
	movq	%rdx, 1568(%rsp)
	movq	%r10, 1576(%rsp)
	movq	%r9, 1584(%rsp)
	movq	32(%rsp), %rdx
	movq	%rdx, 1592(%rsp)
	movq	%rax, 1600(%rsp)
	movaps	480(%rsp), %xmm0
	movaps	496(%rsp), %xmm1
	movups	%xmm0, 1608(%rsp)
	movups	%xmm1, 1624(%rsp)
	movq	%rbp, 1640(%rsp)
	movq	128(%rsp), %rax
	movq	%rax, 1648(%rsp)
	movq	192(%rsp), %rax
	movq	%rax, 1656(%rsp)
	movq	176(%rsp), %rax
	movq	%rax, 1664(%rsp)
	movl	$8, %edx
	xorl	%eax, %eax
	.p2align	4
.LBB5_208:
	movq	1576(%rsp,%rax,8), %rsi
	imulq	1544(%rsp,%rax,8), %rsi
	subq	%rsi, %rdx
	jb	.LBB5_211
	incq	%rax
	cmpq	%rax, %r12
	jne	.LBB5_208
	movq	%r12, %rax
.LBB5_211:
	andl	$3, %eax
	orq	%rcx, %rax
	movq	16(%rsp), %rcx
	movq	%rcx, 1520(%rsp)
	movq	%rdi, 1528(%rsp)
	movq	%r12, 1536(%rsp)
	movq	%r8, 1544(%rsp)
	movq	%r15, 1552(%rsp)
	movq	%rbx, 1560(%rsp)
	movq	8(%rsp), %rcx
	movq	%rcx, 1568(%rsp)
	movq	%r10, 1576(%rsp)
	movq	%r9, 1584(%rsp)
	movq	32(%rsp), %rcx
	movq	%rcx, 1592(%rsp)
	movq	24(%rsp), %rcx
	movq	%rcx, 1600(%rsp)
	movaps	480(%rsp), %xmm0
	movaps	496(%rsp), %xmm1
	movups	%xmm0, 1608(%rsp)
	movups	%xmm1, 1624(%rsp)
	movq	%rbp, 1640(%rsp)
	movq	128(%rsp), %rcx
	movq	%rcx, 1648(%rsp)
	movq	192(%rsp), %rcx
	movq	%rcx, 1656(%rsp)
	movq	176(%rsp), %rcx
	movq	%rcx, 1664(%rsp)
	movl	$7, %edx
	xorl	%ecx, %ecx
	.p2align	4
.LBB5_212:
	movq	1576(%rsp,%rcx,8), %rsi
	imulq	1544(%rsp,%rcx,8), %rsi
	subq	%rsi, %rdx
	jb	.LBB5_215
	incq	%rcx
	cmpq	%rcx, %r12
	jne	.LBB5_212
	movq	%r12, %rcx
.LBB5_215:
	shll	$4, %eax
	andl	$3, %ecx
	leal	(%rax,%rcx,4), %ecx
	movq	16(%rsp), %rax
	movq	%rax, 1520(%rsp)
	movq	%rdi, 1528(%rsp)
	movq	%r12, 1536(%rsp)
	movq	%r8, 1544(%rsp)
	movq	%r15, 1552(%rsp)
	movq	%rbx, 1560(%rsp)
	movq	8(%rsp), %rax
	movq	%rax, 1568(%rsp)
	movq	%r10, 1576(%rsp)
	movq	%r9, 1584(%rsp)
	movq	32(%rsp), %rax
	movq	%rax, 1592(%rsp)
	movq	24(%rsp), %rax
	movq	%rax, 1600(%rsp)
	movaps	480(%rsp), %xmm0
	movaps	496(%rsp), %xmm1
	movups	%xmm0, 1608(%rsp)
	movups	%xmm1, 1624(%rsp)
	movq	%rbp, 1640(%rsp)
	movq	128(%rsp), %rax
	movq	%rax, 1648(%rsp)
	movq	192(%rsp), %rax
	movq	%rax, 1656(%rsp)
	movq	176(%rsp), %rax
	movq	%rax, 1664(%rsp)
	movl	$6, %edx
	xorl	%eax, %eax
	.p2align	4
.LBB5_216:
	movq	1576(%rsp,%rax,8), %rsi
	imulq	1544(%rsp,%rax,8), %rsi
	subq	%rsi, %rdx
	jb	.LBB5_219
	incq	%rax
	cmpq	%rax, %r12
	jne	.LBB5_216
	movq	%r12, %rax
.LBB5_219:
	andl	$3, %eax
	orq	%rcx, %rax
	movq	16(%rsp), %rcx
	movq	%rcx, 1520(%rsp)
	movq	%rdi, 1528(%rsp)
	movq	%r12, 1536(%rsp)
	movq	%r8, 1544(%rsp)
	movq	%r15, 1552(%rsp)
	movq	%rbx, 1560(%rsp)
	movq	8(%rsp), %rcx
	movq	%rcx, 1568(%rsp)
	movq	%r10, 1576(%rsp)
	movq	%r9, 1584(%rsp)
	movq	32(%rsp), %rcx
	movq	%rcx, 1592(%rsp)
	movq	24(%rsp), %rcx
	movq	%rcx, 1600(%rsp)
	movaps	480(%rsp), %xmm0
	movaps	496(%rsp), %xmm1
	movups	%xmm0, 1608(%rsp)
	movups	%xmm1, 1624(%rsp)
	movq	%rbp, 1640(%rsp)
	movq	128(%rsp), %rcx
	movq	%rcx, 1648(%rsp)
	movq	192(%rsp), %rcx
	movq	%rcx, 1656(%rsp)
	movq	176(%rsp), %rcx
	movq	%rcx, 1664(%rsp)
	movl	$5, %edx
	xorl	%ecx, %ecx
	.p2align	4
.LBB5_220:
	movq	1576(%rsp,%rcx,8), %rsi
	imulq	1544(%rsp,%rcx,8), %rsi
	subq	%rsi, %rdx
	jb	.LBB5_223
	incq	%rcx
	cmpq	%rcx, %r12
	jne	.LBB5_220
	movq	%r12, %rcx
.LBB5_223:
	shll	$4, %eax
	andl	$3, %ecx
	leal	(%rax,%rcx,4), %ecx
	movq	16(%rsp), %rax
	movq	%rax, 1520(%rsp)
	movq	%rdi, 1528(%rsp)
	movq	%r12, 1536(%rsp)
	movq	%r8, 1544(%rsp)
	movq	%r15, 1552(%rsp)
	movq	%rbx, 1560(%rsp)
	movq	8(%rsp), %rax
	movq	%rax, 1568(%rsp)
	movq	%r10, 1576(%rsp)
	movq	%r9, 1584(%rsp)
	movq	32(%rsp), %rax
	movq	%rax, 1592(%rsp)
	movq	24(%rsp), %rax
	movq	%rax, 1600(%rsp)
	movaps	480(%rsp), %xmm0
	movaps	496(%rsp), %xmm1
	movups	%xmm0, 1608(%rsp)
	movups	%xmm1, 1624(%rsp)
	movq	%rbp, 1640(%rsp)
	movq	128(%rsp), %rax
	movq	%rax, 1648(%rsp)
	movq	192(%rsp), %rax
	movq	%rax, 1656(%rsp)
	movq	176(%rsp), %rax
	movq	%rax, 1664(%rsp)
	movl	$4, %edx
	xorl	%eax, %eax
	.p2align	4
.LBB5_224:
	movq	1576(%rsp,%rax,8), %rsi
	imulq	1544(%rsp,%rax,8), %rsi
	subq	%rsi, %rdx
	jb	.LBB5_227
	incq	%rax
	cmpq	%rax, %r12
	jne	.LBB5_224
	movq	%r12, %rax
.LBB5_227:
	andl	$3, %eax
	orq	%rcx, %rax
	movq	16(%rsp), %rcx
	movq	%rcx, 1520(%rsp)
	movq	%rdi, 1528(%rsp)
	movq	%r12, 1536(%rsp)
	movq	%r8, 1544(%rsp)
	movq	%r15, 1552(%rsp)
	movq	%rbx, 1560(%rsp)
	movq	8(%rsp), %rcx
	movq	%rcx, 1568(%rsp)
	movq	%r10, 1576(%rsp)
	movq	%r9, 1584(%rsp)
	movq	32(%rsp), %rcx
	movq	%rcx, 1592(%rsp)
	movq	24(%rsp), %rcx
	movq	%rcx, 1600(%rsp)
	movaps	1360(%rsp), %xmm0
	movaps	1376(%rsp), %xmm1
	movups	%xmm0, 1608(%rsp)
	movups	%xmm1, 1624(%rsp)
	movq	%rbp, 1640(%rsp)
	movq	128(%rsp), %rcx
	movq	%rcx, 1648(%rsp)
	movq	192(%rsp), %rcx
	movq	%rcx, 1656(%rsp)
	movq	176(%rsp), %rcx
	movq	%rcx, 1664(%rsp)
	movl	$3, %edx
	xorl	%ecx, %ecx
	.p2align	4
.LBB5_228:
	movq	1576(%rsp,%rcx,8), %rsi
	imulq	1544(%rsp,%rcx,8), %rsi
	subq	%rsi, %rdx
	jb	.LBB5_231
	incq	%rcx
	cmpq	%rcx, %r12
	jne	.LBB5_228
	movq	%r12, %rcx
.LBB5_231:
	shll	$4, %eax
	andl	$3, %ecx
	leal	(%rax,%rcx,4), %ecx
	movq	16(%rsp), %rax
	movq	%rax, 1520(%rsp)
	movq	%rdi, 1528(%rsp)
	movq	%r12, 1536(%rsp)
	movq	%r8, 1544(%rsp)
	movq	%r15, 1552(%rsp)
	movq	%rbx, 1560(%rsp)
	movq	8(%rsp), %rax
	movq	%rax, 1568(%rsp)
	movq	%r10, 1576(%rsp)
	movq	%r9, 1584(%rsp)
	movq	32(%rsp), %rax
	movq	%rax, 1592(%rsp)
	movq	24(%rsp), %rax
	movq	%rax, 1600(%rsp)
	movaps	336(%rsp), %xmm0
	movaps	352(%rsp), %xmm1
	movups	%xmm0, 1608(%rsp)
	movups	%xmm1, 1624(%rsp)
	movq	%rbp, 1640(%rsp)
	movq	128(%rsp), %rax
	movq	%rax, 1648(%rsp)
	movq	192(%rsp), %rax
	movq	%rax, 1656(%rsp)
	movq	176(%rsp), %rax
	movq	%rax, 1664(%rsp)
	movl	$2, %edx
	xorl	%eax, %eax
	.p2align	4
.LBB5_232:
	movq	1576(%rsp,%rax,8), %rsi
	imulq	1544(%rsp,%rax,8), %rsi
	subq	%rsi, %rdx
	jb	.LBB5_235
	incq	%rax
	cmpq	%rax, %r12
	jne	.LBB5_232
	movq	%r12, %rax
.LBB5_235:
	andl	$3, %eax
	orq	%rcx, %rax
	movq	16(%rsp), %rcx
	movq	%rcx, 1520(%rsp)
	movq	%rdi, 1528(%rsp)
	movq	%r12, 1536(%rsp)
	movq	%r8, 1544(%rsp)
	movq	%r15, 1552(%rsp)
	movq	%rbx, 1560(%rsp)
	movq	8(%rsp), %rcx
	movq	%rcx, 1568(%rsp)
	movq	%r10, 1576(%rsp)
	movq	%r9, 1584(%rsp)
	movq	32(%rsp), %rcx
	movq	%rcx, 1592(%rsp)
	movq	24(%rsp), %rcx
	movq	%rcx, 1600(%rsp)
	movaps	368(%rsp), %xmm0
	movaps	384(%rsp), %xmm1
	movups	%xmm0, 1608(%rsp)
	movups	%xmm1, 1624(%rsp)
	movq	%rbp, 1640(%rsp)
	movq	128(%rsp), %rcx
	movq	%rcx, 1648(%rsp)
	movq	192(%rsp), %rcx
	movq	%rcx, 1656(%rsp)
	movq	176(%rsp), %rcx
	movq	%rcx, 1664(%rsp)
	movl	$1, %edx
	xorl	%ecx, %ecx
	.p2align	4
.LBB5_236:
	movq	1576(%rsp,%rcx,8), %rsi
	imulq	1544(%rsp,%rcx,8), %rsi
	subq	%rsi, %rdx
	jb	.LBB5_239
	incq	%rcx
	cmpq	%rcx, %r12
	jne	.LBB5_236
	movq	%r12, %rcx
.LBB5_239:
	movq	16(%rsp), %rdx
	movq	%rdx, 1520(%rsp)
	movq	%rdi, 1528(%rsp)
	movq	%r12, 1536(%rsp)
	movq	%r8, 1544(%rsp)
	movq	%r15, 1552(%rsp)
	movq	%rbx, 1560(%rsp)
	movq	8(%rsp), %rdx
	movq	%rdx, 1568(%rsp)
	movq	%r10, 1576(%rsp)
	movq	%r9, 1584(%rsp)
	movq	32(%rsp), %rdx
	movq	%rdx, 1592(%rsp)
	movq	24(%rsp), %rdx
	movq	%rdx, 1600(%rsp)
	movaps	400(%rsp), %xmm0
	movaps	416(%rsp), %xmm1
	movups	%xmm0, 1608(%rsp)
	movups	%xmm1, 1624(%rsp)
	movq	%rbp, 1640(%rsp)
	movq	128(%rsp), %rdx
	movq	%rdx, 1648(%rsp)
	movq	192(%rsp), %rdx
	movq	%rdx, 1656(%rsp)
	movq	176(%rsp), %rdx
	movq	%rdx, 1664(%rsp)
	xorl	%edx, %edx
	.p2align	4
.LBB5_240:
	movq	1576(%rsp,%rdx,8), %rsi
	imulq	1544(%rsp,%rdx,8), %rsi
	testq	%rsi, %rsi
	jne	.LBB5_243
	incq	%rdx
	cmpq	%rdx, %r12
	jne	.LBB5_240
	movq	%r12, %rdx
.LBB5_243:
	movq	%r13, 848(%rsp)
	andl	$3, %edx
	shll	$4, %eax
	andl	$3, %ecx
	leal	(%rax,%rcx,4), %eax
	orq	%rdx, %rax
	movq	%rax, 56(%rsp)
	movq	240(%rsp), %rax
	movq	%rax, 1040(%rsp)
	movq	40(%rsp), %rax
	movq	%rax, 1048(%rsp)
	movq	224(%rsp), %rax
	movq	%rax, 1056(%rsp)
	movq	88(%rsp), %rax
	movq	%rax, 1064(%rsp)
	movq	%r11, 16(%rsp)
	movq	%r11, 1072(%rsp)
	movq	104(%rsp), %rax
	movq	%rax, 1080(%rsp)
	movq	48(%rsp), %rax
	movq	%rax, 1088(%rsp)
	movq	112(%rsp), %rax
	movq	%rax, 1096(%rsp)
	leaq	1520(%rsp), %rdi
	movl	$8192, %edx
	xorl	%esi, %esi
	callq	memset@PLT
	movq	%r14, %r15
	subq	$16, %r15
	jae	.LBB5_268
.LBB5_244:
	leaq	17904(%rsp), %r15
	leaq	1520(%rsp), %rsi
	movl	$8192, %edx
	movq	%r15, %rdi
	callq	memcpy@PLT
	leaq	9712(%rsp), %rbp
	movl	$8192, %edx
	movq	%rbp, %rdi
	movq	%r15, %rsi
	callq	memcpy@PLT
	movq	168(%rsp), %rax
	movq	%rax, 512(%rsp)
	movq	152(%rsp), %rdi
	movq	%rdi, 520(%rsp)
	movq	%r14, 528(%rsp)
	movq	240(%rsp), %rax
	movq	%rax, 536(%rsp)
	movq	224(%rsp), %rax
	movq	%rax, 544(%rsp)
	movq	16(%rsp), %rax
	movq	%rax, 552(%rsp)
	movq	48(%rsp), %rax
	movq	%rax, 560(%rsp)
	movq	40(%rsp), %rax
	movq	%rax, 568(%rsp)
	movq	88(%rsp), %rax
	movq	%rax, 576(%rsp)
	movq	104(%rsp), %rax
	movq	%rax, 584(%rsp)
	movq	112(%rsp), %rax
	movq	%rax, 592(%rsp)
	movq	248(%rsp), %rax
	movq	%rax, 600(%rsp)
	movq	872(%rsp), %rax
	movq	%rax, 608(%rsp)
	movq	864(%rsp), %rax
	movq	%rax, 616(%rsp)
	movq	856(%rsp), %rax
	movq	%rax, 624(%rsp)
	movq	56(%rsp), %rax
	movq	%rax, 632(%rsp)
	movq	232(%rsp), %rsi
	movq	%rsi, 640(%rsp)
	movq	160(%rsp), %r8
	movq	%r8, 648(%rsp)
	movq	96(%rsp), %r10
	movq	%r10, 656(%rsp)
	xorps	%xmm0, %xmm0
	movaps	%xmm0, 448(%rsp)
	movaps	%xmm0, 432(%rsp)
	movq	$0, 464(%rsp)
	movq	80(%rsp), %r13
	movq	%r13, %rax
	shrq	$2, %rax
	cmpq	%rax, %r10
	movq	72(%rsp), %r15
	ja	.LBB5_250
	movq	%r13, %rax
	shrq	%rax
	subq	%r10, %rax
	subq	%r10, %rax
	cmpq	%rax, 1248(%rsp)
	ja	.LBB5_250
	cmpq	$4, %r12
	ja	.LBB5_250
	leaq	1(,%r12,2), %rax
	.p2align	4
.LBB5_248:
	decq	%rax
	je	.LBB5_289
	cmpl	$0, (%rbp)
	leaq	1024(%rbp), %rbp
	jne	.LBB5_248
.LBB5_250:
	movaps	%xmm0, 1536(%rsp)
	movaps	%xmm0, 1520(%rsp)
	movq	$0, 1552(%rsp)
	leaq	1520(%rsp), %rdi
	leaq	512(%rsp), %rsi
	leaq	17904(%rsp), %rdx
	leaq	287(%rsp), %rcx
	xorl	%r8d, %r8d
	callq	"jpeg_write_scan::run::<#c44e4da361dd472c>"
	movq	1528(%rsp), %rax
	cmpb	$0, 1520(%rsp)
	je	.LBB5_286
	movzbl	1536(%rsp), %r14d
	movq	1544(%rsp), %r12
	movq	1552(%rsp), %r9
.LBB5_252:
	movq	144(%rsp), %r11
.LBB5_253:
	testb	%al, %al
	je	.LBB5_285
	movl	$10, %edx
	xorl	%eax, %eax
	cmpq	$10, %rdx
	cmovneq	%rax, %r12
	cmovneq	%rax, %r9
	movl	$1, %ecx
	movl	$10, %eax
	leaq	.LJTI5_1(%rip), %rsi
	movslq	(%rsi,%rdx,4), %rdx
	addq	%rsi, %rdx
	jmpq	*%rdx
.LBB5_255:
	movl	$3, %ecx
	jmp	.LBB5_264
.LBB5_256:
	movl	$9, %ecx
	jmp	.LBB5_264
.LBB5_257:
	movl	$7, %ecx
	jmp	.LBB5_264
.LBB5_258:
	movl	$5, %ecx
	jmp	.LBB5_264
.LBB5_259:
	movl	$6, %ecx
	jmp	.LBB5_264
.LBB5_260:
	movzbl	%r14b, %eax
	leaq	.LJTI5_2(%rip), %rcx
	movslq	(%rcx,%rax,4), %rdx
	addq	%rcx, %rdx
	jmpq	*%rdx
.LBB5_261:
	movl	$3, %ecx
	jmp	.LBB5_265
.LBB5_262:
	movl	$4, %ecx
	jmp	.LBB5_264
.LBB5_263:
	movl	$8, %ecx
.LBB5_264:
	xorl	%eax, %eax
.LBB5_265:
	movq	%rcx, (%r15)
	movq	%r11, 8(%r15)
	movq	%r12, 16(%r15)
	movq	%r9, 24(%r15)
	movq	%rax, 32(%r15)
	movq	%r15, %rax
	addq	$26104, %rsp
	popq	%rbx
	popq	%r12
	popq	%r13
	popq	%r14
	popq	%r15
	popq	%rbp
	retq
.LBB5_266:
	movl	$10, %ecx
	jmp	.LBB5_264
.LBB5_267:
	movl	$11, %ecx
	jmp	.LBB5_264
.LBB5_268:
	xorl	%r13d, %r13d
	jmp	.LBB5_270
	.p2align	4
.LBB5_269:
	incq	%r13
	cmpq	$8, %r13
	je	.LBB5_244
.LBB5_270:
	movq	1040(%rsp,%r13,8), %rbx
	movq	%r13, %rax
	shlq	$10, %rax
	leaq	(%rsp,%rax), %rbp
	addq	$1520, %rbp
	movl	$1024, %edx
	movq	%rbp, %rdi
	xorl	%esi, %esi
	callq	memset@PLT
	cmpq	%r15, %rbx
	movq	168(%rsp), %r11
	ja	.LBB5_269
	leaq	(%r11,%rbx), %rax
	addq	$16, %rbx
	movl	$1, %ecx
	xorl	%edx, %edx
	jmp	.LBB5_273
	.p2align	4
.LBB5_272:
	incq	%rcx
	cmpq	$17, %rcx
	je	.LBB5_269
.LBB5_273:
	addq	%rdx, %rdx
	movzbl	-1(%rax,%rcx), %esi
	testb	%sil, %sil
	je	.LBB5_272
	movq	%rcx, %rdi
	shlq	$16, %rdi
	movq	$-1, %r8
	shlq	%cl, %r8
	notq	%r8
	jmp	.LBB5_276
	.p2align	4
.LBB5_275:
	incq	%rbx
	incq	%rdx
	decb	%sil
	je	.LBB5_272
.LBB5_276:
	cmpq	%rbx, %r14
	jbe	.LBB5_269
	movzbl	(%r11,%rbx), %r9d
	cmpl	$0, (%rbp,%r9,4)
	jne	.LBB5_275
	movl	%edx, %r10d
	andl	%r8d, %r10d
	addl	%edi, %r10d
	movl	%r10d, (%rbp,%r9,4)
	jmp	.LBB5_275
.LBB5_279:
	movzbl	%cl, %eax
	movq	%rax, 16(%rsp)
	movq	152(%rsp), %rdi
	movq	80(%rsp), %r14
	movq	120(%rsp), %r9
	movzbl	248(%rsp), %r11d
	movq	144(%rsp), %r8
	jmp	.LBB5_143
.LBB5_280:
	movaps	800(%rsp), %xmm0
	movaps	816(%rsp), %xmm1
	movaps	%xmm1, 1504(%rsp)
	movaps	%xmm0, 1488(%rsp)
	movaps	880(%rsp), %xmm0
	movaps	896(%rsp), %xmm1
	movaps	%xmm0, 1456(%rsp)
	movaps	%xmm1, 1472(%rsp)
	movaps	1200(%rsp), %xmm0
	movaps	1216(%rsp), %xmm1
	movaps	%xmm0, 1424(%rsp)
	movaps	%xmm1, 1440(%rsp)
	movdqa	1168(%rsp), %xmm0
	movaps	1184(%rsp), %xmm1
	movdqa	%xmm0, 1392(%rsp)
	movaps	%xmm1, 1408(%rsp)
	cmpq	80(%rsp), %r8
	jb	.LBB5_282
	cmpq	%r12, %r8
	movq	%rax, 104(%rsp)
	setb	%al
	orb	%r9b, %dl
	orb	%al, %dl
	testb	$1, %dl
	je	.LBB5_292
.LBB5_282:
	pxor	%xmm0, %xmm0
	movdqa	%xmm0, 1024(%rsp)
	movdqa	%xmm0, 1008(%rsp)
	movdqa	%xmm0, 976(%rsp)
	movdqa	%xmm0, 992(%rsp)
	movdqa	%xmm0, 944(%rsp)
	movdqa	%xmm0, 960(%rsp)
	movdqa	%xmm0, 912(%rsp)
	movdqa	%xmm0, 928(%rsp)
	movl	$5, %ecx
.LBB5_283:
	movq	$0, 24(%rsp)
	movq	$0, 32(%rsp)
	movq	$0, 48(%rsp)
	movq	$0, 56(%rsp)
	movq	$0, 8(%rsp)
	movq	$0, 64(%rsp)
	movq	$0, 40(%rsp)
	movq	$0, 232(%rsp)
	movq	$0, 128(%rsp)
	movq	$0, 192(%rsp)
	movq	$0, 176(%rsp)
	movq	$0, 240(%rsp)
	movq	$0, 224(%rsp)
	movq	$0, 104(%rsp)
	xorl	%r13d, %r13d
	xorl	%ebx, %ebx
	movq	$0, 88(%rsp)
	movq	$0, 112(%rsp)
	movq	$0, 160(%rsp)
	movq	$0, 256(%rsp)
	movq	$0, 96(%rsp)
	xorl	%edx, %edx
	xorl	%r9d, %r9d
	xorl	%ebp, %ebp
	xorl	%eax, %eax
	xorl	%r12d, %r12d
	movq	152(%rsp), %rdi
	movq	144(%rsp), %r8
.LBB5_284:
	movaps	1008(%rsp), %xmm0
	movaps	1024(%rsp), %xmm1
	movaps	%xmm1, 784(%rsp)
	movaps	%xmm0, 768(%rsp)
	movaps	976(%rsp), %xmm0
	movaps	992(%rsp), %xmm1
	movaps	%xmm0, 736(%rsp)
	movaps	%xmm1, 752(%rsp)
	movaps	944(%rsp), %xmm0
	movaps	960(%rsp), %xmm1
	movaps	%xmm0, 704(%rsp)
	movaps	%xmm1, 720(%rsp)
	movaps	912(%rsp), %xmm0
	movaps	928(%rsp), %xmm1
	movaps	%xmm0, 672(%rsp)
	movaps	%xmm1, 688(%rsp)
	movq	%rcx, 16(%rsp)
	movq	%r12, %r14
	movq	%rdx, %r12
	movq	24(%rsp), %rcx
	movq	32(%rsp), %rdx
	movzbl	248(%rsp), %r11d
	jmp	.LBB5_145
.LBB5_285:
	movl	$9, %eax
	xorl	%r14d, %r14d
	xorl	%r12d, %r12d
	xorl	%r9d, %r9d
	jmp	.LBB5_160
.LBB5_286:
	cmpq	%rax, %r13
	movq	144(%rsp), %r11
	movq	848(%rsp), %rbx
	jb	.LBB5_328
.LBB5_287:
	leaq	432(%rsp), %rdi
	leaq	512(%rsp), %rsi
	leaq	17904(%rsp), %rdx
	movq	1240(%rsp), %rcx
	movq	%r13, %r8
	callq	"jpeg_write_scan::run::<#c44e4da361dd472c>"
	movq	440(%rsp), %rax
	cmpb	$0, 432(%rsp)
	je	.LBB5_327
	movzbl	448(%rsp), %r14d
	movq	456(%rsp), %r12
	movq	464(%rsp), %r9
	jmp	.LBB5_252
.LBB5_289:
	testq	%rsi, %rsi
	je	.LBB5_363
	movq	%r10, %rax
	orq	%rsi, %rax
	shrq	$32, %rax
	movq	144(%rsp), %r11
	je	.LBB5_294
	movq	%r10, %rax
	xorl	%edx, %edx
	divq	%rsi
	jmp	.LBB5_295
.LBB5_292:
	movq	144(%rsp), %r8
	subq	%rdi, %r8
	jae	.LBB5_326
	pxor	%xmm0, %xmm0
	movdqa	%xmm0, 1024(%rsp)
	movdqa	%xmm0, 1008(%rsp)
	movdqa	%xmm0, 976(%rsp)
	movdqa	%xmm0, 992(%rsp)
	movdqa	%xmm0, 944(%rsp)
	movdqa	%xmm0, 960(%rsp)
	movdqa	%xmm0, 912(%rsp)
	movdqa	%xmm0, 928(%rsp)
	movl	$6, %ecx
	jmp	.LBB5_283
.LBB5_294:
	movl	%r10d, %eax
	xorl	%edx, %edx
	divl	%esi
.LBB5_295:
	xorl	%ebp, %ebp
	testq	%rdx, %rdx
	setne	%bpl
	addq	%rax, %rbp
	je	.LBB5_320
	leaq	-1(%r8), %rax
	movq	%rax, 64(%rsp)
	negq	%rdi
	movq	%rdi, 88(%rsp)
	xorps	%xmm5, %xmm5
	movq	$0, 8(%rsp)
	movq	$0, 56(%rsp)
	xorl	%r12d, %r12d
	xorl	%eax, %eax
	xorl	%ecx, %ecx
	xorl	%esi, %esi
	movq	%r14, %r9
	xorps	%xmm0, %xmm0
	movq	%rbp, 40(%rsp)
	jmp	.LBB5_299
.LBB5_297:
	movaps	800(%rsp), %xmm0
	movq	%rbx, %r9
	movq	48(%rsp), %r12
	movq	72(%rsp), %r15
	movq	144(%rsp), %r11
	movq	160(%rsp), %r8
	movq	96(%rsp), %r10
	movq	80(%rsp), %r13
	movq	40(%rsp), %rbp
	xorps	%xmm5, %xmm5
.LBB5_298:
	movq	%rsi, %rcx
	shrq	$8, %rcx
	movq	%rsi, %rax
	andq	$-65536, %rax
	movq	8(%rsp), %rdx
	incq	%rdx
	xorl	%edi, %edi
	cmpq	%r8, %rdx
	cmovneq	%rdx, %rdi
	movq	%rdi, 8(%rsp)
	movq	56(%rsp), %rdi
	incq	%rdi
	movq	%rdi, 56(%rsp)
	cmpq	%rbp, %rdi
	jae	.LBB5_342
.LBB5_299:
	shll	$8, %ecx
	movzwl	%cx, %ecx
	orq	%rax, %rcx
	movzbl	%sil, %edi
	movq	%rcx, %rsi
	orq	%rdi, %rsi
	movaps	%xmm5, 288(%rsp)
	movaps	%xmm5, 304(%rsp)
	movq	$0, 320(%rsp)
	movq	168(%rsp), %rax
	movq	%rax, 1520(%rsp)
	movq	152(%rsp), %rax
	movq	%rax, 1528(%rsp)
	movq	%r14, 1536(%rsp)
	leaq	536(%rsp), %rdx
	movq	96(%rdx), %rax
	leaq	1544(%rsp), %rbx
	movq	%rax, 96(%rbx)
	movups	80(%rdx), %xmm1
	movups	%xmm1, 80(%rbx)
	movups	64(%rdx), %xmm1
	movups	%xmm1, 64(%rbx)
	movups	(%rdx), %xmm1
	movdqu	16(%rdx), %xmm2
	movdqu	32(%rdx), %xmm3
	movdqu	48(%rdx), %xmm4
	movdqu	%xmm4, 48(%rbx)
	movdqu	%xmm3, 32(%rbx)
	movdqu	%xmm2, 16(%rbx)
	movups	%xmm1, (%rbx)
	movq	232(%rsp), %rax
	movq	%rax, 1648(%rsp)
	movq	%r8, 1656(%rsp)
	movq	%r10, 1664(%rsp)
	cmpq	%r12, %r10
	jbe	.LBB5_298
	testq	%r8, %r8
	sete	%al
	movq	56(%rsp), %r11
	testq	%r11, %r11
	sete	%dl
	orb	%al, %dl
	jne	.LBB5_303
	movq	%r11, %rax
	orq	%r8, %rax
	shrq	$32, %rax
	je	.LBB5_304
	movq	%r11, %rax
	xorl	%edx, %edx
	divq	%r8
	movq	8(%rsp), %rdx
	jmp	.LBB5_305
.LBB5_303:
	movq	%r9, %rbx
	jmp	.LBB5_316
.LBB5_304:
	movl	%r11d, %eax
	xorl	%edx, %edx
	divl	%r8d
.LBB5_305:
	movq	%r9, %rbx
	testq	%rdx, %rdx
	jne	.LBB5_316
	shrq	$8, %rcx
	decl	%eax
	andl	$7, %eax
	orq	$208, %rax
	cmpq	%r11, 64(%rsp)
	movl	$208, %edx
	cmovbq	%rax, %rdx
	cmpb	$8, %cl
	ja	.LBB5_359
	andb	$15, %cl
	movl	$-1, %eax
	shll	%cl, %eax
	orl	%eax, %edi
	cmpl	$-1, %edi
	movq	72(%rsp), %r15
	movq	144(%rsp), %r11
	jne	.LBB5_361
	cmpq	152(%rsp), %r9
	jae	.LBB5_361
	movq	88(%rsp), %rax
	leaq	(%rax,%r9), %rcx
	xorl	%eax, %eax
	movq	168(%rsp), %rsi
.LBB5_310:
	movzbl	(%rsi,%r9), %edi
	cmpq	$255, %rdi
	jne	.LBB5_312
	decq	%rax
	incq	%rsi
	cmpq	%rax, %rcx
	jne	.LBB5_310
	jmp	.LBB5_361
.LBB5_312:
	testq	%rax, %rax
	je	.LBB5_362
	movq	%r9, %rbx
	subq	%rax, %rbx
	cmpq	%rbx, 152(%rsp)
	jbe	.LBB5_362
	cmpl	%edi, %edx
	jne	.LBB5_359
	incq	%rbx
	xorps	%xmm0, %xmm0
	xorl	%esi, %esi
.LBB5_316:
	movq	%r9, 120(%rsp)
	xorl	%ebp, %ebp
	subq	%r12, %r10
	cmovbq	%rbp, %r10
	movq	232(%rsp), %rax
	cmpq	%rax, %r10
	cmovaeq	%rax, %r10
	movaps	%xmm0, 800(%rsp)
	movq	1640(%rsp), %r13
	leaq	(%r10,%r12), %rax
	movq	%rax, 48(%rsp)
	negq	%r10
	movq	%r10, 16(%rsp)
.LBB5_317:
	movl	%r13d, %r15d
	andl	$3, %r15d
	movq	%rbx, 880(%rsp)
	movq	%rsi, 888(%rsp)
	movl	%r15d, %eax
	movl	800(%rsp,%rax,4), %r8d
	leaq	288(%rsp), %rdi
	leaq	1520(%rsp), %rsi
	leaq	880(%rsp), %rcx
	leaq	1040(%rsp), %r9
	movq	%r15, %rdx
	callq	"jpeg_engine::PlainEngine::block"
	cmpb	$0, 288(%rsp)
	jne	.LBB5_319
	movl	312(%rsp), %eax
	movq	296(%rsp), %rbx
	movq	304(%rsp), %rsi
	movl	%eax, 800(%rsp,%r15,4)
	shrq	$2, %r13
	decq	%rbp
	cmpq	%rbp, 16(%rsp)
	jne	.LBB5_317
	jmp	.LBB5_297
.LBB5_319:
	movzbl	289(%rsp), %r14d
	testq	%rbp, %rbp
	movq	120(%rsp), %r9
	cmovneq	%rbx, %r9
	subq	%rbp, %r12
	movq	72(%rsp), %r15
	movq	144(%rsp), %r11
	movl	$1, %eax
	jmp	.LBB5_253
.LBB5_320:
	xorl	%r12d, %r12d
	xorl	%ecx, %ecx
	xorl	%eax, %eax
	movq	%r14, %r9
.LBB5_321:
	movq	$-1, %rdx
	shlq	%cl, %rdx
	orq	%rax, %rdx
	movl	$1, %eax
	movb	$3, %r14b
	cmpq	$-1, %rdx
	movq	848(%rsp), %rbx
	jne	.LBB5_253
	cmpq	%rdi, %r9
	jae	.LBB5_253
	xorl	%edx, %edx
	movq	168(%rsp), %rsi
	movq	%rdi, %rcx
.LBB5_324:
	movzbl	(%rsi,%r9), %edi
	cmpb	$-1, %dil
	jne	.LBB5_335
	decq	%rcx
	decq	%rdx
	incq	%rsi
	cmpq	%rcx, %r9
	jne	.LBB5_324
	jmp	.LBB5_253
.LBB5_326:
	movq	%r14, 256(%rsp)
	movq	%r11, 160(%rsp)
	movaps	1488(%rsp), %xmm0
	movaps	1504(%rsp), %xmm1
	movaps	%xmm1, 1024(%rsp)
	movaps	%xmm0, 1008(%rsp)
	movaps	1456(%rsp), %xmm0
	movaps	1472(%rsp), %xmm1
	movaps	%xmm0, 976(%rsp)
	movaps	%xmm1, 992(%rsp)
	movaps	1424(%rsp), %xmm0
	movaps	1440(%rsp), %xmm1
	movaps	%xmm0, 944(%rsp)
	movaps	%xmm1, 960(%rsp)
	movaps	1392(%rsp), %xmm0
	movaps	1408(%rsp), %xmm1
	movaps	%xmm0, 912(%rsp)
	movaps	%xmm1, 928(%rsp)
	movq	%xmm7, 232(%rsp)
	pshufd	$238, %xmm7, %xmm0
	movq	%xmm0, 128(%rsp)
	movq	%xmm9, 192(%rsp)
	pshufd	$238, %xmm9, %xmm0
	movq	%xmm0, 176(%rsp)
	movq	%xmm8, 240(%rsp)
	pshufd	$238, %xmm8, %xmm0
	movq	%xmm0, 224(%rsp)
	movb	$1, %al
	movq	152(%rsp), %rdi
	movq	80(%rsp), %rcx
	movq	120(%rsp), %rdx
	movq	16(%rsp), %r9
	jmp	.LBB5_284
.LBB5_327:
	movq	144(%rsp), %r11
.LBB5_328:
	movq	256(%rsp), %r14
	addq	%r14, %rax
	cmpq	%rax, 26176(%rsp)
	movq	1256(%rsp), %rcx
	movq	26168(%rsp), %r9
	movq	216(%rsp), %r10
	jae	.LBB5_330
	movl	$7, %ecx
	xorl	%r9d, %r9d
	xorl	%r12d, %r12d
	jmp	.LBB5_265
.LBB5_330:
	testq	%r14, %r14
	je	.LBB5_357
	cmpq	$4, %r14
	jb	.LBB5_332
	movq	%rbx, %rsi
	subq	%rcx, %rsi
	subq	%r10, %rsi
	cmpq	$32, %rsi
	jae	.LBB5_340
.LBB5_332:
	xorl	%edx, %edx
.LBB5_351:
	movq	%r14, %rdi
	movq	%rdx, %rsi
	andq	$3, %rdi
	movq	168(%rsp), %r14
	je	.LBB5_354
	movq	%rdx, %rsi
.LBB5_353:
	movzbl	(%r14,%rsi), %r8d
	movb	%r8b, (%rbx,%rsi)
	incq	%rsi
	decq	%rdi
	jne	.LBB5_353
.LBB5_354:
	movq	256(%rsp), %r8
	subq	%r8, %rdx
	cmpq	$-4, %rdx
	ja	.LBB5_357
	movq	840(%rsp), %rdx
	addq	%r9, %rdx
	addq	$3, %rdx
	addq	%r10, %rcx
	addq	$3, %rcx
.LBB5_356:
	movzbl	-3(%rcx,%rsi), %edi
	movb	%dil, -3(%rdx,%rsi)
	movzbl	-2(%rcx,%rsi), %edi
	movb	%dil, -2(%rdx,%rsi)
	movzbl	-1(%rcx,%rsi), %edi
	movb	%dil, -1(%rdx,%rsi)
	movzbl	(%rcx,%rsi), %edi
	movb	%dil, (%rdx,%rsi)
	addq	$4, %rsi
	cmpq	%rsi, %r8
	jne	.LBB5_356
.LBB5_357:
	xorl	%r9d, %r9d
	xorl	%r12d, %r12d
	xorl	%ecx, %ecx
	jmp	.LBB5_265
.LBB5_335:
	testq	%rdx, %rdx
	je	.LBB5_253
	movq	%r9, %rsi
	subq	%rdx, %rsi
	cmpq	%rsi, 152(%rsp)
	jbe	.LBB5_253
	cmpb	$-39, %dil
	jne	.LBB5_253
	leaq	1(%r9), %rdx
	cmpq	%rcx, %rdx
	je	.LBB5_287
	jmp	.LBB5_253
.LBB5_361:
	movb	$3, %r14b
	movl	$1, %eax
	jmp	.LBB5_253
.LBB5_340:
	cmpq	$32, %r14
	jae	.LBB5_344
	xorl	%edx, %edx
	jmp	.LBB5_348
.LBB5_342:
	cmpb	$8, %cl
	ja	.LBB5_358
	movzbl	%sil, %eax
	movq	152(%rsp), %rdi
	jmp	.LBB5_321
.LBB5_344:
	movq	%r14, %rdx
	andq	$-32, %rdx
	movq	840(%rsp), %rsi
	addq	%r9, %rsi
	addq	$16, %rsi
	leaq	(%r10,%rcx), %rdi
	addq	$16, %rdi
	xorl	%r8d, %r8d
.LBB5_345:
	movups	-16(%rdi,%r8), %xmm0
	movups	(%rdi,%r8), %xmm1
	movups	%xmm0, -16(%rsi,%r8)
	movups	%xmm1, (%rsi,%r8)
	addq	$32, %r8
	cmpq	%r8, %rdx
	jne	.LBB5_345
	cmpq	%rdx, %r14
	je	.LBB5_357
	testb	$28, %r14b
	je	.LBB5_351
.LBB5_348:
	movq	%rdx, %rsi
	movq	%r14, %rdx
	andq	$-4, %rdx
	movq	168(%rsp), %r8
.LBB5_349:
	movl	(%r8,%rsi), %edi
	movl	%edi, (%rbx,%rsi)
	addq	$4, %rsi
	cmpq	%rsi, %rdx
	jne	.LBB5_349
	cmpq	%rdx, %r14
	je	.LBB5_357
	jmp	.LBB5_351
.LBB5_358:
	movl	$1, %eax
	movb	$3, %r14b
	jmp	.LBB5_253
.LBB5_359:
	movq	72(%rsp), %r15
	movq	144(%rsp), %r11
	movb	$3, %r14b
	movl	$1, %eax
	jmp	.LBB5_253
.LBB5_362:
	movq	72(%rsp), %r15
	movb	$3, %r14b
	movl	$1, %eax
	jmp	.LBB5_253
.LBB5_363:
	ud2
.Lfunc_end5:
	.size	tillsparrow_settle, .Lfunc_end5-tillsparrow_settle
	.section	.rodata.tillsparrow_settle,"a",@progbits
	.p2align	2, 0x0
.LJTI5_0:
	.long	.LBB5_74-.LJTI5_0
	.long	.LBB5_90-.LJTI5_0
	.long	.LBB5_88-.LJTI5_0
	.long	.LBB5_92-.LJTI5_0
	.long	.LBB5_88-.LJTI5_0
	.long	.LBB5_88-.LJTI5_0
	.long	.LBB5_88-.LJTI5_0
	.long	.LBB5_88-.LJTI5_0
	.long	.LBB5_88-.LJTI5_0
	.long	.LBB5_88-.LJTI5_0
	.long	.LBB5_88-.LJTI5_0
	.long	.LBB5_88-.LJTI5_0
	.long	.LBB5_88-.LJTI5_0
	.long	.LBB5_88-.LJTI5_0
	.long	.LBB5_88-.LJTI5_0
	.long	.LBB5_88-.LJTI5_0
	.long	.LBB5_88-.LJTI5_0
	.long	.LBB5_88-.LJTI5_0
	.long	.LBB5_88-.LJTI5_0
	.long	.LBB5_88-.LJTI5_0
	.long	.LBB5_88-.LJTI5_0
	.long	.LBB5_88-.LJTI5_0
	.long	.LBB5_88-.LJTI5_0
	.long	.LBB5_88-.LJTI5_0
	.long	.LBB5_88-.LJTI5_0
	.long	.LBB5_88-.LJTI5_0
	.long	.LBB5_88-.LJTI5_0
	.long	.LBB5_88-.LJTI5_0
	.long	.LBB5_88-.LJTI5_0
	.long	.LBB5_88-.LJTI5_0
	.long	.LBB5_88-.LJTI5_0
	.long	.LBB5_88-.LJTI5_0
	.long	.LBB5_88-.LJTI5_0
	.long	.LBB5_88-.LJTI5_0
	.long	.LBB5_88-.LJTI5_0
	.long	.LBB5_88-.LJTI5_0
	.long	.LBB5_106-.LJTI5_0
.LJTI5_1:
	.long	.LBB5_265-.LJTI5_1
	.long	.LBB5_168-.LJTI5_1
	.long	.LBB5_255-.LJTI5_1
	.long	.LBB5_262-.LJTI5_1
	.long	.LBB5_258-.LJTI5_1
	.long	.LBB5_259-.LJTI5_1
	.long	.LBB5_168-.LJTI5_1
	.long	.LBB5_257-.LJTI5_1
	.long	.LBB5_263-.LJTI5_1
	.long	.LBB5_256-.LJTI5_1
	.long	.LBB5_260-.LJTI5_1
.LJTI5_2:
	.long	.LBB5_261-.LJTI5_2
	.long	.LBB5_266-.LJTI5_2
	.long	.LBB5_267-.LJTI5_2
	.long	.LBB5_262-.LJTI5_2

	.ident	"rattle logic=dac8208d650f15bf3e2dc313a14fa4c783a3acf887bdfab66e1714b038d9e11b"
	.section	".note.GNU-stack","",@progbits
