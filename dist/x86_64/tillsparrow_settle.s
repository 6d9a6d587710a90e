	.file	"rattle"
	.section	".text.std_io::io::error::Error::from_raw_os_error","ax",@progbits
	.p2align	4
	.type	"std_io::io::error::Error::from_raw_os_error",@function
"std_io::io::error::Error::from_raw_os_error":
	movb	$41, %al
	testl	%esi, %esi
	js	.LBB0_40
	leal	-1(%rsi), %ecx
	cmpl	$121, %ecx
	ja	.LBB0_40
	leaq	.LJTI0_0(%rip), %rdx
	movslq	(%rdx,%rcx,4), %rcx
	addq	%rdx, %rcx
	jmpq	*%rcx
.LBB0_3:
	movb	$1, %al
	jmp	.LBB0_40
.LBB0_24:
	movb	$36, %al
	jmp	.LBB0_40
.LBB0_36:
	movb	$4, %al
	jmp	.LBB0_40
.LBB0_33:
	movb	$7, %al
	jmp	.LBB0_40
.LBB0_39:
	movb	$26, %al
	jmp	.LBB0_40
.LBB0_37:
	movb	$39, %al
	jmp	.LBB0_40
.LBB0_28:
	movb	$9, %al
	jmp	.LBB0_40
.LBB0_27:
	movb	$8, %al
	jmp	.LBB0_40
.LBB0_22:
	movb	$30, %al
	jmp	.LBB0_40
.LBB0_18:
	movb	$25, %al
	jmp	.LBB0_40
.LBB0_20:
	movb	$32, %al
	jmp	.LBB0_40
.LBB0_23:
	movb	$33, %al
	jmp	.LBB0_40
.LBB0_34:
	movb	$22, %al
	jmp	.LBB0_40
.LBB0_11:
	movb	$31, %al
	jmp	.LBB0_40
.LBB0_15:
	movb	$29, %al
	jmp	.LBB0_40
.LBB0_26:
	movb	$18, %al
	jmp	.LBB0_40
.LBB0_29:
	movb	$10, %al
	jmp	.LBB0_40
.LBB0_9:
	movb	$28, %al
	jmp	.LBB0_40
.LBB0_12:
	movb	$14, %al
	jmp	.LBB0_40
.LBB0_10:
	movb	$12, %al
	jmp	.LBB0_40
.LBB0_30:
	movb	$5, %al
	jmp	.LBB0_40
.LBB0_32:
	movb	$3, %al
	jmp	.LBB0_40
.LBB0_4:
	xorl	%eax, %eax
	jmp	.LBB0_40
.LBB0_7:
	movb	$13, %al
	jmp	.LBB0_40
.LBB0_8:
	movb	$38, %al
	jmp	.LBB0_40
.LBB0_21:
	movb	$11, %al
	jmp	.LBB0_40
.LBB0_5:
	movb	$35, %al
	jmp	.LBB0_40
.LBB0_6:
	movb	$34, %al
	jmp	.LBB0_40
.LBB0_14:
	movb	$20, %al
	jmp	.LBB0_40
.LBB0_13:
	movb	$15, %al
	jmp	.LBB0_40
.LBB0_38:
	movb	$19, %al
	jmp	.LBB0_40
.LBB0_25:
	movb	$16, %al
	jmp	.LBB0_40
.LBB0_31:
	movb	$6, %al
	jmp	.LBB0_40
.LBB0_16:
	movb	$27, %al
	jmp	.LBB0_40
.LBB0_17:
	movb	$24, %al
	jmp	.LBB0_40
.LBB0_35:
	movb	$2, %al
	jmp	.LBB0_40
.LBB0_19:
	movb	$17, %al
.LBB0_40:
	movb	$0, (%rdi)
	movb	%al, 1(%rdi)
	movw	$0, 2(%rdi)
	movl	%esi, 4(%rdi)
	xorps	%xmm0, %xmm0
	movups	%xmm0, 8(%rdi)
	movups	%xmm0, 24(%rdi)
	movups	%xmm0, 40(%rdi)
	movups	%xmm0, 56(%rdi)
	movups	%xmm0, 72(%rdi)
	retq
.Lfunc_end0:
	.size	"std_io::io::error::Error::from_raw_os_error", .Lfunc_end0-"std_io::io::error::Error::from_raw_os_error"
	.section	".rodata.std_io::io::error::Error::from_raw_os_error","a",@progbits
	.p2align	2, 0x0
.LJTI0_0:
	.long	.LBB0_3-.LJTI0_0
	.long	.LBB0_4-.LJTI0_0
	.long	.LBB0_40-.LJTI0_0
	.long	.LBB0_5-.LJTI0_0
	.long	.LBB0_40-.LJTI0_0
	.long	.LBB0_40-.LJTI0_0
	.long	.LBB0_6-.LJTI0_0
	.long	.LBB0_40-.LJTI0_0
	.long	.LBB0_40-.LJTI0_0
	.long	.LBB0_40-.LJTI0_0
	.long	.LBB0_7-.LJTI0_0
	.long	.LBB0_8-.LJTI0_0
	.long	.LBB0_3-.LJTI0_0
	.long	.LBB0_40-.LJTI0_0
	.long	.LBB0_40-.LJTI0_0
	.long	.LBB0_9-.LJTI0_0
	.long	.LBB0_10-.LJTI0_0
	.long	.LBB0_11-.LJTI0_0
	.long	.LBB0_40-.LJTI0_0
	.long	.LBB0_12-.LJTI0_0
	.long	.LBB0_13-.LJTI0_0
	.long	.LBB0_14-.LJTI0_0
	.long	.LBB0_40-.LJTI0_0
	.long	.LBB0_40-.LJTI0_0
	.long	.LBB0_40-.LJTI0_0
	.long	.LBB0_15-.LJTI0_0
	.long	.LBB0_16-.LJTI0_0
	.long	.LBB0_17-.LJTI0_0
	.long	.LBB0_18-.LJTI0_0
	.long	.LBB0_19-.LJTI0_0
	.long	.LBB0_20-.LJTI0_0
	.long	.LBB0_21-.LJTI0_0
	.long	.LBB0_40-.LJTI0_0
	.long	.LBB0_40-.LJTI0_0
	.long	.LBB0_22-.LJTI0_0
	.long	.LBB0_23-.LJTI0_0
	.long	.LBB0_40-.LJTI0_0
	.long	.LBB0_24-.LJTI0_0
	.long	.LBB0_25-.LJTI0_0
	.long	.LBB0_26-.LJTI0_0
	.long	.LBB0_40-.LJTI0_0
	.long	.LBB0_40-.LJTI0_0
	.long	.LBB0_40-.LJTI0_0
	.long	.LBB0_40-.LJTI0_0
	.long	.LBB0_40-.LJTI0_0
	.long	.LBB0_40-.LJTI0_0
	.long	.LBB0_40-.LJTI0_0
	.long	.LBB0_40-.LJTI0_0
	.long	.LBB0_40-.LJTI0_0
	.long	.LBB0_40-.LJTI0_0
	.long	.LBB0_40-.LJTI0_0
	.long	.LBB0_40-.LJTI0_0
	.long	.LBB0_40-.LJTI0_0
	.long	.LBB0_40-.LJTI0_0
	.long	.LBB0_40-.LJTI0_0
	.long	.LBB0_40-.LJTI0_0
	.long	.LBB0_40-.LJTI0_0
	.long	.LBB0_40-.LJTI0_0
	.long	.LBB0_40-.LJTI0_0
	.long	.LBB0_40-.LJTI0_0
	.long	.LBB0_40-.LJTI0_0
	.long	.LBB0_40-.LJTI0_0
	.long	.LBB0_40-.LJTI0_0
	.long	.LBB0_40-.LJTI0_0
	.long	.LBB0_40-.LJTI0_0
	.long	.LBB0_40-.LJTI0_0
	.long	.LBB0_40-.LJTI0_0
	.long	.LBB0_40-.LJTI0_0
	.long	.LBB0_40-.LJTI0_0
	.long	.LBB0_40-.LJTI0_0
	.long	.LBB0_40-.LJTI0_0
	.long	.LBB0_40-.LJTI0_0
	.long	.LBB0_40-.LJTI0_0
	.long	.LBB0_40-.LJTI0_0
	.long	.LBB0_40-.LJTI0_0
	.long	.LBB0_40-.LJTI0_0
	.long	.LBB0_40-.LJTI0_0
	.long	.LBB0_40-.LJTI0_0
	.long	.LBB0_40-.LJTI0_0
	.long	.LBB0_40-.LJTI0_0
	.long	.LBB0_40-.LJTI0_0
	.long	.LBB0_40-.LJTI0_0
	.long	.LBB0_40-.LJTI0_0
	.long	.LBB0_40-.LJTI0_0
	.long	.LBB0_40-.LJTI0_0
	.long	.LBB0_40-.LJTI0_0
	.long	.LBB0_40-.LJTI0_0
	.long	.LBB0_40-.LJTI0_0
	.long	.LBB0_40-.LJTI0_0
	.long	.LBB0_40-.LJTI0_0
	.long	.LBB0_40-.LJTI0_0
	.long	.LBB0_40-.LJTI0_0
	.long	.LBB0_40-.LJTI0_0
	.long	.LBB0_40-.LJTI0_0
	.long	.LBB0_24-.LJTI0_0
	.long	.LBB0_40-.LJTI0_0
	.long	.LBB0_40-.LJTI0_0
	.long	.LBB0_27-.LJTI0_0
	.long	.LBB0_28-.LJTI0_0
	.long	.LBB0_29-.LJTI0_0
	.long	.LBB0_30-.LJTI0_0
	.long	.LBB0_40-.LJTI0_0
	.long	.LBB0_31-.LJTI0_0
	.long	.LBB0_32-.LJTI0_0
	.long	.LBB0_40-.LJTI0_0
	.long	.LBB0_40-.LJTI0_0
	.long	.LBB0_33-.LJTI0_0
	.long	.LBB0_40-.LJTI0_0
	.long	.LBB0_40-.LJTI0_0
	.long	.LBB0_34-.LJTI0_0
	.long	.LBB0_35-.LJTI0_0
	.long	.LBB0_40-.LJTI0_0
	.long	.LBB0_36-.LJTI0_0
	.long	.LBB0_40-.LJTI0_0
	.long	.LBB0_37-.LJTI0_0
	.long	.LBB0_38-.LJTI0_0
	.long	.LBB0_40-.LJTI0_0
	.long	.LBB0_40-.LJTI0_0
	.long	.LBB0_40-.LJTI0_0
	.long	.LBB0_40-.LJTI0_0
	.long	.LBB0_40-.LJTI0_0
	.long	.LBB0_39-.LJTI0_0

	.section	".text.jpeg_header_state::frame","ax",@progbits
	.p2align	4
	.type	"jpeg_header_state::frame",@function
"jpeg_header_state::frame":
	pushq	%rbp
	pushq	%r15
	pushq	%r14
	pushq	%r13
	pushq	%r12
	pushq	%rbx
	subq	$568, %rsp
	movq	272(%rcx), %r14
	xorps	%xmm0, %xmm0
	cmpq	$0, 136(%rcx)
	movaps	%xmm0, 240(%rsp)
	movaps	%xmm0, 224(%rsp)
	movaps	%xmm0, 208(%rsp)
	movaps	%xmm0, 192(%rsp)
	movaps	%xmm0, 176(%rsp)
	movaps	%xmm0, 160(%rsp)
	je	.LBB1_2
.LBB1_1:
	movq	$1, (%rdi)
	movq	$3, 8(%rdi)
	jmp	.LBB1_106
.LBB1_2:
	cmpq	$6, %rdx
	jb	.LBB1_105
	cmpb	$8, (%rsi)
	jne	.LBB1_105
	movzbl	5(%rsi), %r15d
	leal	-1(%r15), %eax
	cmpb	$4, %al
	jae	.LBB1_105
	leaq	(%r15,%r15,2), %rax
	addq	$6, %rax
	cmpq	%rax, %rdx
	jne	.LBB1_1
	movq	%rcx, %r12
	movq	%r8, (%rsp)
	movq	%rdi, %rbx
	leaq	264(%rsp), %rdi
	movq	%rsi, %r13
	movq	%rdx, %rbp
	callq	"jpeg_header_rules::frame_of"
	cmpq	$0, 264(%rsp)
	je	.LBB1_104
	cmpq	$0, 272(%rsp)
	je	.LBB1_104
	testq	%r15, %r15
	je	.LBB1_19
	leal	-5(%rbp), %eax
	movzbl	%al, %ecx
	imull	$171, %ecx, %eax
	shrl	$9, %eax
	cmpb	$3, %cl
	jae	.LBB1_11
.LBB1_10:
	movl	%eax, %ecx
	jmp	.LBB1_18
.LBB1_11:
	movzbl	7(%r13), %ecx
	movl	%ecx, %edx
	shrl	$4, %edx
	decl	%edx
	cmpl	$3, %edx
	ja	.LBB1_17
	andl	$15, %ecx
	decl	%ecx
	cmpl	$3, %ecx
	ja	.LBB1_17
	cmpl	$1, %r15d
	je	.LBB1_19
	leal	-8(%rbp), %ecx
	cmpb	$3, %cl
	jb	.LBB1_10
	movzbl	10(%r13), %edx
	movl	%edx, %esi
	shrl	$4, %esi
	decl	%esi
	movb	$1, %cl
	cmpl	$3, %esi
	ja	.LBB1_18
	andl	$15, %edx
	decl	%edx
	cmpl	$3, %edx
	ja	.LBB1_18
	cmpl	$2, %r15d
	je	.LBB1_19
	leal	-11(%rbp), %ecx
	cmpb	$3, %cl
	jb	.LBB1_10
	movzbl	13(%r13), %edx
	movl	%edx, %esi
	shrl	$4, %esi
	decl	%esi
	movb	$2, %cl
	cmpl	$3, %esi
	ja	.LBB1_18
	andl	$15, %edx
	decl	%edx
	cmpl	$3, %edx
	ja	.LBB1_18
	cmpl	$3, %r15d
	je	.LBB1_19
	leal	-14(%rbp), %ecx
	cmpb	$3, %cl
	jb	.LBB1_10
	movzbl	16(%r13), %edx
	movl	%edx, %esi
	shrl	$4, %esi
	decl	%esi
	movb	$3, %cl
	cmpl	$3, %esi
	ja	.LBB1_18
	andl	$15, %edx
	decl	%edx
	cmpl	$3, %edx
	ja	.LBB1_18
	cmpl	$4, %r15d
	je	.LBB1_19
	leal	-17(%rbp), %ecx
	cmpb	$3, %cl
	movzbl	%al, %eax
	movl	$4, %ecx
	cmovbl	%eax, %ecx
	jmp	.LBB1_18
.LBB1_17:
	xorl	%ecx, %ecx
.LBB1_18:
	cmpb	%r15b, %cl
	jb	.LBB1_104
.LBB1_19:
	movq	280(%rsp), %rax
	testq	%rax, %rax
	je	.LBB1_22
	cmpq	$3, 384(%rsp)
	ja	.LBB1_104
	cmpq	$1, %rax
	jne	.LBB1_39
.LBB1_22:
	leaq	8(%rsp), %rdi
	leaq	264(%rsp), %rsi
	movl	$152, %edx
	callq	memcpy@PLT
	movq	24(%rsp), %rcx
	cmpq	$4, %rcx
	movl	$4, %eax
	cmovbq	%rcx, %rax
	testq	%rcx, %rcx
	movq	%rbx, %rdi
	movq	%rbp, %rdx
	movq	%r13, %rsi
	je	.LBB1_107
	leaq	-1(%rax), %r8
	cmpq	$4, %r8
	jb	.LBB1_34
	movq	96(%rsp), %r10
	xorl	%r15d, %r15d
	movq	%r8, %r11
	xorl	%r9d, %r9d
	jmp	.LBB1_28
.LBB1_25:
	orq	$1, %r15
.LBB1_26:
	cmpq	%r9, %r15
	jb	.LBB1_104
.LBB1_27:
	addq	$-4, %r11
	movq	%r9, %r15
	cmpq	$3, %r11
	jbe	.LBB1_35
.LBB1_28:
	subq	$-4, %r9
	je	.LBB1_27
	cmpq	%r10, 72(%rsp,%r9,8)
	je	.LBB1_26
	cmpq	%r10, 80(%rsp,%r9,8)
	je	.LBB1_25
	cmpq	%r10, 88(%rsp,%r9,8)
	jne	.LBB1_33
	orq	$2, %r15
	jmp	.LBB1_26
.LBB1_33:
	addq	$3, %r15
	cmpq	%r10, 96(%rsp,%r9,8)
	cmovneq	%r9, %r15
	jmp	.LBB1_26
.LBB1_34:
	xorl	%r9d, %r9d
.LBB1_35:
	cmpq	%r8, %r9
	jae	.LBB1_45
	movq	96(%rsp), %r10
.LBB1_37:
	cmpq	%r10, 104(%rsp,%r9,8)
	je	.LBB1_44
	incq	%r9
	cmpq	%r9, %r8
	jne	.LBB1_37
	jmp	.LBB1_45
.LBB1_39:
	cmpq	$3, 392(%rsp)
	ja	.LBB1_104
	cmpq	$2, %rax
	je	.LBB1_22
	cmpq	$3, 400(%rsp)
	ja	.LBB1_104
	cmpq	$3, %rax
	je	.LBB1_22
	cmpq	$3, 408(%rsp)
	ja	.LBB1_104
	jmp	.LBB1_22
.LBB1_44:
	cmpq	%r8, %r9
	jb	.LBB1_104
.LBB1_45:
	cmpq	$1, %rcx
	je	.LBB1_107
	leaq	-2(%rax), %r8
	cmpq	$4, %r8
	jb	.LBB1_57
	movq	104(%rsp), %r10
	xorl	%r15d, %r15d
	movq	%r8, %r11
	xorl	%r9d, %r9d
	jmp	.LBB1_51
.LBB1_48:
	orq	$1, %r15
.LBB1_49:
	cmpq	%r9, %r15
	jb	.LBB1_104
.LBB1_50:
	addq	$-4, %r11
	movq	%r9, %r15
	cmpq	$3, %r11
	jbe	.LBB1_58
.LBB1_51:
	subq	$-4, %r9
	je	.LBB1_50
	cmpq	%r10, 80(%rsp,%r9,8)
	je	.LBB1_49
	cmpq	%r10, 88(%rsp,%r9,8)
	je	.LBB1_48
	cmpq	%r10, 96(%rsp,%r9,8)
	jne	.LBB1_56
	orq	$2, %r15
	jmp	.LBB1_49
.LBB1_56:
	addq	$3, %r15
	cmpq	%r10, 104(%rsp,%r9,8)
	cmovneq	%r9, %r15
	jmp	.LBB1_49
.LBB1_57:
	xorl	%r9d, %r9d
.LBB1_58:
	cmpq	%r8, %r9
	jae	.LBB1_63
	movq	104(%rsp), %r10
.LBB1_60:
	cmpq	%r10, 112(%rsp,%r9,8)
	je	.LBB1_62
	incq	%r9
	cmpq	%r9, %r8
	jne	.LBB1_60
	jmp	.LBB1_63
.LBB1_62:
	cmpq	%r8, %r9
	jb	.LBB1_104
.LBB1_63:
	cmpq	$2, %rcx
	je	.LBB1_107
	leaq	-3(%rax), %r8
	cmpq	$4, %r8
	jb	.LBB1_80
	movq	112(%rsp), %r10
	xorl	%r15d, %r15d
	movq	%r8, %r11
	xorl	%r9d, %r9d
	jmp	.LBB1_69
.LBB1_66:
	orq	$1, %r15
.LBB1_67:
	cmpq	%r9, %r15
	jb	.LBB1_104
.LBB1_68:
	addq	$-4, %r11
	movq	%r9, %r15
	cmpq	$3, %r11
	jbe	.LBB1_81
.LBB1_69:
	subq	$-4, %r9
	je	.LBB1_68
	cmpq	%r10, 88(%rsp,%r9,8)
	je	.LBB1_67
	cmpq	%r10, 96(%rsp,%r9,8)
	je	.LBB1_66
	cmpq	%r10, 104(%rsp,%r9,8)
	jne	.LBB1_74
	orq	$2, %r15
	jmp	.LBB1_67
.LBB1_74:
	addq	$3, %r15
	cmpq	%r10, 112(%rsp,%r9,8)
	cmovneq	%r9, %r15
	jmp	.LBB1_67
.LBB1_80:
	xorl	%r9d, %r9d
.LBB1_81:
	cmpq	%r8, %r9
	jae	.LBB1_86
	movq	112(%rsp), %r10
.LBB1_83:
	cmpq	%r10, 120(%rsp,%r9,8)
	je	.LBB1_85
	incq	%r9
	cmpq	%r9, %r8
	jne	.LBB1_83
	jmp	.LBB1_86
.LBB1_85:
	cmpq	%r8, %r9
	jb	.LBB1_104
.LBB1_86:
	cmpq	$3, %rcx
	je	.LBB1_107
	addq	$-4, %rax
	cmpq	$4, %rax
	jb	.LBB1_98
	movq	120(%rsp), %r8
	xorl	%r10d, %r10d
	movq	%rax, %r9
	xorl	%ecx, %ecx
	jmp	.LBB1_92
.LBB1_89:
	orq	$1, %r10
.LBB1_90:
	cmpq	%rcx, %r10
	jb	.LBB1_104
.LBB1_91:
	addq	$-4, %r9
	movq	%rcx, %r10
	cmpq	$3, %r9
	jbe	.LBB1_99
.LBB1_92:
	subq	$-4, %rcx
	je	.LBB1_91
	cmpq	%r8, 96(%rsp,%rcx,8)
	je	.LBB1_90
	cmpq	%r8, 104(%rsp,%rcx,8)
	je	.LBB1_89
	cmpq	%r8, 112(%rsp,%rcx,8)
	jne	.LBB1_97
	orq	$2, %r10
	jmp	.LBB1_90
.LBB1_97:
	addq	$3, %r10
	cmpq	%r8, 120(%rsp,%rcx,8)
	cmovneq	%rcx, %r10
	jmp	.LBB1_90
.LBB1_98:
	xorl	%ecx, %ecx
.LBB1_99:
	cmpq	%rax, %rcx
	jae	.LBB1_107
	movq	120(%rsp), %r8
.LBB1_101:
	cmpq	%r8, 128(%rsp,%rcx,8)
	je	.LBB1_103
	incq	%rcx
	cmpq	%rcx, %rax
	jne	.LBB1_101
	jmp	.LBB1_107
.LBB1_103:
	cmpq	%rax, %rcx
	jae	.LBB1_107
.LBB1_104:
	movq	%rbx, %rdi
.LBB1_105:
	movq	$1, (%rdi)
	movq	$4, 8(%rdi)
.LBB1_106:
	addq	$16, %rdi
	movl	$368, %edx
	xorl	%esi, %esi
	addq	$568, %rsp
	popq	%rbx
	popq	%r12
	popq	%r13
	popq	%r14
	popq	%r15
	popq	%rbp
	jmp	memset@PLT
.LBB1_107:
	movq	280(%rsp), %rcx
	leaq	-1(%rcx), %rax
	cmpq	$3, %rax
	ja	.LBB1_105
	movq	288(%rsp), %r8
	movq	320(%rsp), %rax
	leaq	-1(%r8), %r9
	leaq	-1(%rax), %r10
	orq	%r9, %r10
	cmpq	$3, %r10
	ja	.LBB1_105
	imulq	%r8, %rax
	cmpq	$1, %rcx
	jne	.LBB1_112
.LBB1_110:
	cmpq	$11, %rax
	jae	.LBB1_105
	leaq	416(%rsp), %rbx
	movq	%rdi, %r15
	movq	%rbx, %rdi
	callq	"jpeg_header_rules::frame_of"
	movups	104(%r12), %xmm0
	movaps	%xmm0, 240(%rsp)
	movups	88(%r12), %xmm0
	movaps	%xmm0, 224(%rsp)
	movups	24(%r12), %xmm0
	movups	40(%r12), %xmm1
	movups	56(%r12), %xmm2
	movups	72(%r12), %xmm3
	movaps	%xmm3, 208(%rsp)
	movaps	%xmm2, 192(%rsp)
	movaps	%xmm1, 176(%rsp)
	movaps	%xmm0, 160(%rsp)
	xorps	%xmm0, %xmm0
	movups	%xmm0, (%r15)
	movq	(%rsp), %rax
	movq	%rax, 16(%r15)
	movups	%xmm0, 24(%r15)
	movaps	160(%rsp), %xmm0
	movaps	176(%rsp), %xmm1
	movaps	192(%rsp), %xmm2
	movaps	208(%rsp), %xmm3
	movups	%xmm0, 40(%r15)
	movups	%xmm1, 56(%r15)
	movups	%xmm2, 72(%r15)
	movups	%xmm3, 88(%r15)
	movaps	224(%rsp), %xmm0
	movups	%xmm0, 104(%r15)
	movaps	240(%rsp), %xmm0
	movups	%xmm0, 120(%r15)
	leaq	136(%r15), %rdi
	movl	$152, %edx
	movq	%rbx, %rsi
	callq	memcpy@PLT
	movq	%r14, 288(%r15)
	xorps	%xmm0, %xmm0
	movups	%xmm0, 296(%r15)
	movups	%xmm0, 312(%r15)
	movups	%xmm0, 328(%r15)
	movups	%xmm0, 344(%r15)
	movups	%xmm0, 360(%r15)
	movq	$0, 376(%r15)
	addq	$568, %rsp
	popq	%rbx
	popq	%r12
	popq	%r13
	popq	%r14
	popq	%r15
	popq	%rbp
	retq
.LBB1_112:
	movq	296(%rsp), %r9
	movq	328(%rsp), %r8
	leaq	-1(%r9), %r10
	leaq	-1(%r8), %r11
	orq	%r10, %r11
	cmpq	$3, %r11
	ja	.LBB1_105
	imulq	%r9, %r8
	addq	%r8, %rax
	cmpq	$2, %rcx
	je	.LBB1_110
	movq	304(%rsp), %rsi
	movq	336(%rsp), %rdx
	leaq	-1(%rsi), %r8
	leaq	-1(%rdx), %r9
	orq	%r8, %r9
	cmpq	$3, %r9
	ja	.LBB1_105
	imulq	%rsi, %rdx
	addq	%rdx, %rax
	cmpq	$3, %rcx
	jne	.LBB1_117
	movq	%rbx, %rdi
	movq	%rbp, %rdx
	movq	%r13, %rsi
	jmp	.LBB1_110
.LBB1_117:
	movq	312(%rsp), %r8
	movq	344(%rsp), %rcx
	leaq	-1(%r8), %rdx
	leaq	-1(%rcx), %rsi
	orq	%rdx, %rsi
	cmpq	$3, %rsi
	movq	%rbx, %rdi
	ja	.LBB1_105
	movq	%rbp, %rdx
	movq	%r13, %rsi
	imulq	%r8, %rcx
	addq	%rcx, %rax
	jmp	.LBB1_110
.Lfunc_end1:
	.size	"jpeg_header_state::frame", .Lfunc_end1-"jpeg_header_state::frame"

	.section	".text.jpeg_header_rules::frame_of","ax",@progbits
	.p2align	4
	.type	"jpeg_header_rules::frame_of",@function
"jpeg_header_rules::frame_of":
	pushq	%rbp
	pushq	%r15
	pushq	%r14
	pushq	%r13
	pushq	%r12
	pushq	%rbx
	movzbl	5(%rsi), %eax
	testq	%rax, %rax
	je	.LBB2_5
	cmpq	$8, %rdx
	jb	.LBB2_6
	movzbl	7(%rsi), %r12d
	cmpl	$1, %eax
	je	.LBB2_7
.LBB2_3:
	cmpq	$11, %rdx
	jb	.LBB2_18
	movzbl	10(%rsi), %ecx
	jmp	.LBB2_19
.LBB2_5:
	xorl	%r11d, %r11d
	xorl	%r12d, %r12d
	jmp	.LBB2_8
.LBB2_6:
	xorl	%r12d, %r12d
	cmpl	$1, %eax
	jne	.LBB2_3
.LBB2_7:
	xorl	%r11d, %r11d
.LBB2_8:
	xorl	%ecx, %ecx
.LBB2_9:
	xorl	%r9d, %r9d
.LBB2_10:
	movzbl	3(%rsi), %r10d
	movzbl	4(%rsi), %ebx
	movq	%rbx, -8(%rsp)
	movzbl	1(%rsi), %ebx
	movzbl	2(%rsi), %r14d
	movq	%r14, -16(%rsp)
	cmpl	$1, %eax
	jne	.LBB2_13
	cmpq	$7, %rdx
	jb	.LBB2_16
	movzbl	6(%rsi), %ecx
	movq	%rcx, -72(%rsp)
	movl	$1, %ecx
	movq	%rcx, -40(%rsp)
	xorl	%r9d, %r9d
	movq	$0, -56(%rsp)
	movq	$0, -48(%rsp)
	movl	$1, %r11d
	movq	$0, -24(%rsp)
	movq	$0, -80(%rsp)
	movq	$0, -32(%rsp)
	xorl	%ecx, %ecx
	jmp	.LBB2_27
.LBB2_13:
	movzbl	%r11b, %r8d
	movl	%r8d, %r11d
	shrl	$4, %r11d
	movq	%r11, -80(%rsp)
	movl	%ecx, %r11d
	shrl	$4, %r11d
	movq	%r11, -24(%rsp)
	movl	%r12d, %r11d
	shrl	$4, %r11d
	movl	%r9d, %r14d
	shrl	$4, %r14d
	movq	%r14, -32(%rsp)
	testq	%rax, %rax
	setne	%bpl
	andl	$15, %r8d
	movq	%r8, -56(%rsp)
	andl	$15, %ecx
	movq	%rcx, -48(%rsp)
	andl	$15, %r12d
	andl	$15, %r9d
	cmpq	$7, %rdx
	setae	%r14b
	testb	%r14b, %bpl
	movq	%r12, -40(%rsp)
	je	.LBB2_17
	movzbl	6(%rsi), %ecx
	cmpq	$10, %rdx
	movq	%rcx, -72(%rsp)
	jb	.LBB2_23
	movzbl	9(%rsi), %ecx
	jmp	.LBB2_24
.LBB2_16:
	movl	$1, %r11d
	xorl	%r15d, %r15d
	xorl	%r8d, %r8d
	xorl	%ecx, %ecx
	xorl	%r14d, %r14d
	movq	$0, -32(%rsp)
	xorl	%esi, %esi
	movq	$0, -24(%rsp)
	movl	$1, %edx
	movq	%rdx, -40(%rsp)
	movq	$0, -48(%rsp)
	movq	$0, -56(%rsp)
	xorl	%r9d, %r9d
	xorl	%r13d, %r13d
	xorl	%r12d, %r12d
	xorl	%ebp, %ebp
	xorl	%edx, %edx
	jmp	.LBB2_44
.LBB2_17:
	xorl	%r15d, %r15d
	xorl	%r8d, %r8d
	xorl	%ecx, %ecx
	xorl	%r14d, %r14d
	xorl	%r13d, %r13d
	xorl	%r12d, %r12d
	xorl	%ebp, %ebp
	xorl	%edx, %edx
	movq	-80(%rsp), %rsi
	jmp	.LBB2_44
.LBB2_18:
	xorl	%ecx, %ecx
.LBB2_19:
	cmpb	$3, %al
	setae	%r9b
	cmpq	$14, %rdx
	setae	%r10b
	andb	%r9b, %r10b
	cmpb	$1, %r10b
	jne	.LBB2_22
	movzbl	13(%rsi), %r11d
	cmpl	$3, %eax
	setne	%r9b
	cmpq	$17, %rdx
	setae	%r10b
	andb	%r9b, %r10b
	cmpb	$1, %r10b
	jne	.LBB2_9
	movzbl	16(%rsi), %r9d
	jmp	.LBB2_10
.LBB2_22:
	xorl	%r11d, %r11d
	jmp	.LBB2_9
.LBB2_23:
	xorl	%ecx, %ecx
.LBB2_24:
	cmpb	$3, %al
	setae	%bpl
	cmpq	$13, %rdx
	setae	%r14b
	andb	%bpl, %r14b
	cmpb	$1, %r14b
	jne	.LBB2_27
	movzbl	12(%rsi), %r13d
	cmpl	$3, %eax
	setne	%bpl
	cmpq	$16, %rdx
	setae	%r14b
	andb	%bpl, %r14b
	cmpb	$1, %r14b
	jne	.LBB2_31
	movzbl	15(%rsi), %r15d
	jmp	.LBB2_32
.LBB2_27:
	xorl	%r15d, %r15d
	movl	$0, %r13d
	movl	$0, %r14d
	movl	$0, %r12d
	cmpq	$9, %rdx
	jae	.LBB2_32
	cmpl	$1, %eax
	jne	.LBB2_33
.LBB2_29:
	xorl	%r13d, %r13d
	xorl	%ebp, %ebp
	xorl	%edx, %edx
	jmp	.LBB2_40
.LBB2_31:
	xorl	%r15d, %r15d
.LBB2_32:
	movzbl	%r13b, %r14d
	movzbl	8(%rsi), %r12d
	cmpl	$1, %eax
	je	.LBB2_29
.LBB2_33:
	cmpq	$12, %rdx
	movq	%r11, -64(%rsp)
	jb	.LBB2_35
	movzbl	11(%rsi), %ebp
	jmp	.LBB2_36
.LBB2_35:
	xorl	%ebp, %ebp
.LBB2_36:
	cmpb	$3, %al
	setae	%r13b
	cmpq	$15, %rdx
	setae	%r11b
	andb	%r13b, %r11b
	cmpb	$1, %r11b
	jne	.LBB2_39
	movq	%rcx, %r8
	movzbl	14(%rsi), %r13d
	cmpl	$3, %eax
	setne	%r11b
	cmpq	$18, %rdx
	setae	%dl
	andb	%r11b, %dl
	cmpb	$1, %dl
	jne	.LBB2_41
	movzbl	17(%rsi), %edx
	jmp	.LBB2_42
.LBB2_39:
	xorl	%r13d, %r13d
	xorl	%edx, %edx
	movq	-64(%rsp), %r11
.LBB2_40:
	movq	-80(%rsp), %rsi
	movq	%rcx, %r8
	jmp	.LBB2_43
.LBB2_41:
	xorl	%edx, %edx
.LBB2_42:
	movq	-64(%rsp), %r11
	movq	-80(%rsp), %rsi
.LBB2_43:
	movq	-72(%rsp), %rcx
.LBB2_44:
	shll	$8, %ebx
	addq	-16(%rsp), %rbx
	shll	$8, %r10d
	addq	-8(%rsp), %r10
	movq	%r10, (%rdi)
	movq	%rbx, 8(%rdi)
	movq	%rax, 16(%rdi)
	movq	%r11, 24(%rdi)
	movq	-24(%rsp), %rax
	movq	%rax, 32(%rdi)
	movq	%rsi, 40(%rdi)
	movq	-32(%rsp), %rax
	movq	%rax, 48(%rdi)
	movq	-40(%rsp), %rax
	movq	%rax, 56(%rdi)
	movq	-48(%rsp), %rax
	movq	%rax, 64(%rdi)
	movq	-56(%rsp), %rax
	movq	%rax, 72(%rdi)
	movq	%r9, 80(%rdi)
	movq	%rcx, 88(%rdi)
	movq	%r8, 96(%rdi)
	movq	%r14, 104(%rdi)
	movq	%r15, 112(%rdi)
	movq	%r12, 120(%rdi)
	movq	%rbp, 128(%rdi)
	movzbl	%r13b, %eax
	movq	%rax, 136(%rdi)
	movq	%rdx, 144(%rdi)
	popq	%rbx
	popq	%r12
	popq	%r13
	popq	%r14
	popq	%r15
	popq	%rbp
	retq
.Lfunc_end2:
	.size	"jpeg_header_rules::frame_of", .Lfunc_end2-"jpeg_header_rules::frame_of"

	.section	".text.jpeg_header_state::scan","ax",@progbits
	.p2align	4
	.type	"jpeg_header_state::scan",@function
"jpeg_header_state::scan":
	pushq	%rbp
	pushq	%r15
	pushq	%r14
	pushq	%r13
	pushq	%r12
	pushq	%rbx
	subq	$600, %rsp
	movq	136(%rcx), %r11
	testq	%r11, %r11
	je	.LBB3_1
	movq	120(%rcx), %r10
	movq	128(%rcx), %r9
	leaq	-1(%r10), %rax
	cmpq	$65535, %rax
	setb	%al
	leaq	-1(%r9), %rbx
	cmpq	$65535, %rbx
	setb	%bl
	andb	%al, %bl
	cmpb	$1, %bl
	jne	.LBB3_44
	cmpq	$4, %r11
	ja	.LBB3_44
	movq	144(%rcx), %rbx
	movq	176(%rcx), %rbp
	leaq	-1(%rbx), %rax
	leaq	-1(%rbp), %r14
	orq	%rax, %r14
	cmpq	$3, %r14
	ja	.LBB3_44
	movq	208(%rcx), %rax
	movq	%rax, -8(%rsp)
	movq	216(%rcx), %rax
	movq	%rax, -16(%rsp)
	movq	224(%rcx), %rax
	movq	%rax, -24(%rsp)
	movq	232(%rcx), %rax
	movq	%rax, -32(%rsp)
	movq	272(%rcx), %rax
	movq	%rax, 24(%rsp)
	movq	%rbp, %r13
	imulq	%rbx, %r13
	cmpq	$1, %r11
	jne	.LBB3_7
.LBB3_13:
	cmpq	$10, %r13
	ja	.LBB3_44
	testq	%rdx, %rdx
	je	.LBB3_44
	movzbl	(%rsi), %eax
	cmpq	%rax, %r11
	jne	.LBB3_44
	leaq	4(,%r11,2), %r14
	cmpq	%r14, %rdx
	jne	.LBB3_44
	cmpb	$63, -2(%rsi,%rdx)
	jne	.LBB3_44
	movzbl	-1(%rsi,%rdx), %r14d
	orb	-3(%rsi,%rdx), %r14b
	jne	.LBB3_44
	testb	%al, %al
	je	.LBB3_41
	movzbl	1(%rsi), %r14d
	cmpq	%r14, -8(%rsp)
	jne	.LBB3_1
	cmpb	$1, %al
	jne	.LBB3_22
.LBB3_37:
	movl	$2, %eax
	movq	%r11, %r12
	jmp	.LBB3_38
.LBB3_7:
	movq	152(%rcx), %r12
	movq	184(%rcx), %rax
	leaq	-1(%r12), %r15
	leaq	-1(%rax), %r14
	orq	%r15, %r14
	cmpq	$3, %r14
	ja	.LBB3_44
	cmpq	%rbx, %r12
	cmovaq	%r12, %rbx
	cmpq	%rbp, %rax
	cmovaq	%rax, %rbp
	imulq	%r12, %rax
	addq	%rax, %r13
	cmpq	$2, %r11
	je	.LBB3_13
	movq	160(%rcx), %r12
	movq	192(%rcx), %rax
	leaq	-1(%r12), %r14
	leaq	-1(%rax), %r15
	orq	%r14, %r15
	cmpq	$3, %r15
	ja	.LBB3_44
	cmpq	%rbx, %r12
	cmovaq	%r12, %rbx
	cmpq	%rbp, %rax
	cmovaq	%rax, %rbp
	imulq	%r12, %rax
	addq	%rax, %r13
	cmpq	$3, %r11
	je	.LBB3_13
	movq	168(%rcx), %r12
	movq	200(%rcx), %rax
	leaq	-1(%r12), %r14
	leaq	-1(%rax), %r15
	orq	%r14, %r15
	cmpq	$3, %r15
	ja	.LBB3_44
	cmpq	%rbx, %r12
	cmovaq	%r12, %rbx
	cmpq	%rbp, %rax
	cmovaq	%rax, %rbp
	imulq	%r12, %rax
	addq	%rax, %r13
	jmp	.LBB3_13
.LBB3_40:
	addq	$2, %rax
	decq	%r12
	je	.LBB3_41
.LBB3_38:
	cmpq	%rdx, %rax
	jae	.LBB3_40
	testb	$-52, (%rsi,%rax)
	je	.LBB3_40
.LBB3_44:
	movq	$1, (%rdi)
	movq	$4, 8(%rdi)
	jmp	.LBB3_2
.LBB3_41:
	cmpq	$1, %r11
	jne	.LBB3_45
	xorl	%r14d, %r14d
	xorl	%eax, %eax
	xorl	%r12d, %r12d
	jmp	.LBB3_50
.LBB3_45:
	movzbl	4(%rsi), %eax
	cmpq	$3, %r11
	jb	.LBB3_46
	movzbl	6(%rsi), %r14d
	jne	.LBB3_49
	xorl	%r12d, %r12d
	jmp	.LBB3_50
.LBB3_22:
	movzbl	3(%rsi), %r14d
	cmpq	%r14, -16(%rsp)
	jne	.LBB3_1
	cmpb	$3, %al
	setb	%r15b
	cmpb	$2, %al
	je	.LBB3_43
	movzbl	5(%rsi), %r14d
	cmpq	%r14, -24(%rsp)
	jne	.LBB3_43
	cmpb	$4, %al
	setb	%r15b
	cmpb	$3, %al
	je	.LBB3_43
	cmpq	$8, %rdx
	jb	.LBB3_27
	movzbl	7(%rsi), %r12d
	jmp	.LBB3_29
.LBB3_46:
	xorl	%r14d, %r14d
	xorl	%r12d, %r12d
	jmp	.LBB3_50
.LBB3_49:
	movzbl	8(%rsi), %r12d
.LBB3_50:
	movzbl	2(%rsi), %edx
	movq	%rdx, -64(%rsp)
	movzbl	%al, %r15d
	xorl	%esi, %esi
	cmpq	$65535, %r10
	ja	.LBB3_53
	leaq	-1(%rbx), %rax
	cmpq	$3, %rax
	ja	.LBB3_53
	shll	$3, %ebx
	movl	%r10d, %eax
	xorl	%edx, %edx
	divw	%bx
	movzwl	%ax, %esi
	cmpw	$1, %dx
	sbbq	$-1, %rsi
	imulq	%r13, %rsi
.LBB3_53:
	xorl	%ebx, %ebx
	cmpq	$65535, %r9
	ja	.LBB3_56
	leaq	-1(%rbp), %rdx
	cmpq	$3, %rdx
	ja	.LBB3_56
	shll	$3, %ebp
	movl	%r9d, %eax
	xorl	%edx, %edx
	divw	%bp
	movzwl	%ax, %ebx
	cmpw	$1, %dx
	sbbq	$-1, %rbx
	imulq	%rsi, %rbx
.LBB3_56:
	movq	%r14, -48(%rsp)
	movzbl	%r14b, %eax
	movq	%r9, %rdx
	imulq	%r10, %rdx
	imulq	%r11, %rdx
	movl	%eax, %r14d
	movq	%rax, %rsi
	shrl	$4, %r14d
	movq	%r14, -88(%rsp)
	movl	%r15d, %ebp
	shrl	$4, %ebp
	movq	-64(%rsp), %rax
	movl	%eax, %r14d
	shrl	$4, %r14d
	movl	%r12d, %r13d
	shrl	$4, %r13d
	movq	%r13, -96(%rsp)
	andl	$15, %esi
	movq	%rsi, 16(%rsp)
	movq	%r15, -40(%rsp)
	movl	%r15d, %esi
	andl	$15, %esi
	movq	%rsi, -120(%rsp)
	andl	$15, %eax
	movq	%r12, -56(%rsp)
	andl	$15, %r12d
	movq	%rbx, %r15
	shlq	$6, %r15
	imulq	$3136, %rbx, %r13
	addq	%rdx, %r13
	leaq	240(%rcx), %rsi
	movups	(%rsi), %xmm0
	movups	16(%rsi), %xmm1
	movups	%xmm1, 168(%rsp)
	movups	%xmm0, 152(%rsp)
	movups	24(%rcx), %xmm0
	movups	40(%rcx), %xmm1
	movups	56(%rcx), %xmm2
	movups	72(%rcx), %xmm3
	movups	%xmm0, 184(%rsp)
	movups	%xmm1, 200(%rsp)
	movups	%xmm2, 216(%rsp)
	movups	%xmm3, 232(%rsp)
	movups	88(%rcx), %xmm0
	movups	%xmm0, 248(%rsp)
	movups	104(%rcx), %xmm0
	movups	%xmm0, 264(%rsp)
	movq	%r14, -72(%rsp)
	movq	%r14, 280(%rsp)
	movq	%rbp, -80(%rsp)
	movq	%rbp, 288(%rsp)
	movq	-96(%rsp), %r14
	movq	-88(%rsp), %rsi
	movq	%rsi, 296(%rsp)
	movq	%r14, 304(%rsp)
	movq	%rax, -104(%rsp)
	movq	%rax, 312(%rsp)
	movq	-120(%rsp), %rax
	movq	%rax, 320(%rsp)
	movq	16(%rsp), %rbp
	movq	%rbp, 328(%rsp)
	movq	%r12, -112(%rsp)
	movq	%r12, 336(%rsp)
	movq	24(%rsp), %rax
	movq	%rax, 344(%rsp)
	movq	%r8, 352(%rsp)
	movq	%rbx, (%rsp)
	movq	%rbx, 360(%rsp)
	movq	%r15, 8(%rsp)
	movq	%r15, 368(%rsp)
	movq	%rdx, %rbx
	movq	%rdx, 376(%rsp)
	movq	%r13, 384(%rsp)
	movq	$0, 392(%rsp)
	cmpq	$0, 184(%rsp)
	sete	%sil
	cmpq	$0, 216(%rsp)
	sete	%r14b
	orb	%sil, %r14b
	movq	152(%rsp), %rsi
	je	.LBB3_57
	cmpq	$3, %rsi
	ja	.LBB3_1
	cmpq	$0, 184(%rsp,%rsi,8)
	sete	%sil
	cmpb	$64, -64(%rsp)
	setae	%r14b
	orb	%sil, %r14b
	jne	.LBB3_1
	movq	-72(%rsp), %rsi
	cmpq	$0, 216(%rsp,%rsi,8)
	setne	%sil
	cmpq	$4, -104(%rsp)
	setb	%r14b
	andb	%sil, %r14b
	cmpb	$1, %r14b
	jne	.LBB3_1
	movq	%rax, %rdx
	movq	-104(%rsp), %rax
	cmpq	$0, 248(%rsp,%rax,8)
	je	.LBB3_1
	movq	%rdx, %rax
	cmpq	$1, %r11
	je	.LBB3_80
	movq	160(%rsp), %rsi
	cmpq	$3, %rsi
	ja	.LBB3_1
	cmpq	$0, 184(%rsp,%rsi,8)
	je	.LBB3_1
	cmpb	$63, -40(%rsp)
	ja	.LBB3_1
	movq	-80(%rsp), %rsi
	cmpq	$0, 216(%rsp,%rsi,8)
	je	.LBB3_1
	cmpl	$3, -120(%rsp)
	ja	.LBB3_1
	movq	-120(%rsp), %rax
	cmpq	$0, 248(%rsp,%rax,8)
	je	.LBB3_1
	movq	%rdx, %rax
	cmpq	$2, %r11
	je	.LBB3_80
	movq	168(%rsp), %rsi
	cmpq	$3, %rsi
	ja	.LBB3_1
	cmpq	$0, 184(%rsp,%rsi,8)
	sete	%sil
	cmpb	$64, -48(%rsp)
	setae	%r14b
	orb	%sil, %r14b
	jne	.LBB3_1
	movq	-88(%rsp), %rax
	cmpq	$0, 216(%rsp,%rax,8)
	je	.LBB3_1
	cmpl	$3, %ebp
	ja	.LBB3_1
	cmpq	$0, 248(%rsp,%rbp,8)
	je	.LBB3_1
	movq	%rdx, %rax
	cmpq	$3, %r11
	je	.LBB3_80
	movq	176(%rsp), %rsi
	cmpq	$3, %rsi
	ja	.LBB3_1
	cmpq	$0, 184(%rsp,%rsi,8)
	setne	%sil
	cmpq	$64, -56(%rsp)
	setb	%r14b
	andb	%sil, %r14b
	cmpb	$1, %r14b
	jne	.LBB3_1
	movq	-96(%rsp), %rax
	cmpq	$0, 216(%rsp,%rax,8)
	je	.LBB3_1
	cmpl	$3, -112(%rsp)
	ja	.LBB3_1
	movq	-112(%rsp), %rax
	cmpq	$0, 248(%rsp,%rax,8)
	jne	.LBB3_104
	jmp	.LBB3_1
.LBB3_57:
	cmpq	$3, %rsi
	ja	.LBB3_1
	cmpq	$0, 184(%rsp,%rsi,8)
	sete	%sil
	cmpb	$64, -64(%rsp)
	setae	%r14b
	orb	%sil, %r14b
	jne	.LBB3_1
	movq	-72(%rsp), %rsi
	cmpq	$0, 216(%rsp,%rsi,8)
	setne	%sil
	cmpq	$4, -104(%rsp)
	setb	%r14b
	andb	%sil, %r14b
	cmpb	$1, %r14b
	jne	.LBB3_1
	movq	%rax, %rdx
	movq	-104(%rsp), %rax
	cmpq	$0, 248(%rsp,%rax,8)
	je	.LBB3_1
	movq	%rdx, %rax
	cmpq	$1, %r11
	jne	.LBB3_62
.LBB3_80:
	movq	%rax, %rdx
.LBB3_104:
	leaq	144(%rcx), %rsi
	movups	(%rsi), %xmm0
	movups	16(%rsi), %xmm1
	movups	32(%rsi), %xmm2
	movups	48(%rsi), %xmm3
	movaps	%xmm3, 576(%rsp)
	movaps	%xmm2, 560(%rsp)
	movaps	%xmm1, 544(%rsp)
	movaps	%xmm0, 528(%rsp)
	leaq	240(%rcx), %rsi
	movups	(%rsi), %xmm0
	movups	16(%rsi), %xmm1
	addq	$24, %rcx
	movaps	%xmm0, 496(%rsp)
	movaps	%xmm1, 512(%rsp)
	movups	(%rcx), %xmm0
	movups	16(%rcx), %xmm1
	movups	32(%rcx), %xmm2
	movups	48(%rcx), %xmm3
	movaps	%xmm0, 400(%rsp)
	movaps	%xmm1, 416(%rsp)
	movaps	%xmm2, 432(%rsp)
	movaps	%xmm3, 448(%rsp)
	movups	64(%rcx), %xmm0
	movaps	%xmm0, 464(%rsp)
	movups	80(%rcx), %xmm0
	movaps	%xmm0, 480(%rsp)
	movq	$0, (%rdi)
	movq	$1, 8(%rdi)
	movq	%r10, 16(%rdi)
	movq	%r9, 24(%rdi)
	movq	%r11, 32(%rdi)
	movaps	528(%rsp), %xmm0
	movaps	544(%rsp), %xmm1
	movaps	560(%rsp), %xmm2
	movaps	576(%rsp), %xmm3
	movups	%xmm0, 40(%rdi)
	movups	%xmm1, 56(%rdi)
	movups	%xmm2, 72(%rdi)
	movups	%xmm3, 88(%rdi)
	movq	-8(%rsp), %rcx
	movq	%rcx, 104(%rdi)
	movq	-16(%rsp), %rcx
	movq	%rcx, 112(%rdi)
	movq	-24(%rsp), %rcx
	movq	%rcx, 120(%rdi)
	movq	-32(%rsp), %rcx
	movq	%rcx, 128(%rdi)
	movaps	496(%rsp), %xmm0
	movaps	512(%rsp), %xmm1
	movups	%xmm0, 136(%rdi)
	movups	%xmm1, 152(%rdi)
	movaps	400(%rsp), %xmm0
	movaps	416(%rsp), %xmm1
	movaps	432(%rsp), %xmm2
	movaps	448(%rsp), %xmm3
	movups	%xmm0, 168(%rdi)
	movups	%xmm1, 184(%rdi)
	movups	%xmm2, 200(%rdi)
	movups	%xmm3, 216(%rdi)
	movaps	464(%rsp), %xmm0
	movups	%xmm0, 232(%rdi)
	movaps	480(%rsp), %xmm0
	movups	%xmm0, 248(%rdi)
	movq	-72(%rsp), %rcx
	movq	%rcx, 264(%rdi)
	movq	-80(%rsp), %rcx
	movq	%rcx, 272(%rdi)
	movq	-88(%rsp), %rax
	movq	%rax, 280(%rdi)
	movq	-96(%rsp), %rax
	movq	%rax, 288(%rdi)
	movq	-104(%rsp), %rax
	movq	%rax, 296(%rdi)
	movq	-120(%rsp), %rax
	movq	%rax, 304(%rdi)
	movq	%rbp, 312(%rdi)
	movq	-112(%rsp), %rax
	movq	%rax, 320(%rdi)
	movq	%rdx, 328(%rdi)
	movq	%r8, 336(%rdi)
	movq	(%rsp), %rax
	movq	%rax, 344(%rdi)
	movq	8(%rsp), %rax
	movq	%rax, 352(%rdi)
	movq	%rbx, 360(%rdi)
	movq	%r13, 368(%rdi)
	movq	$0, 376(%rdi)
	addq	$600, %rsp
	popq	%rbx
	popq	%r12
	popq	%r13
	popq	%r14
	popq	%r15
	popq	%rbp
	retq
.LBB3_62:
	movq	160(%rsp), %rsi
	cmpq	$3, %rsi
	ja	.LBB3_1
	cmpq	$0, 184(%rsp,%rsi,8)
	je	.LBB3_1
	cmpb	$63, -40(%rsp)
	ja	.LBB3_1
	movq	-80(%rsp), %rsi
	cmpq	$0, 216(%rsp,%rsi,8)
	je	.LBB3_1
	cmpl	$3, -120(%rsp)
	ja	.LBB3_1
	movq	-120(%rsp), %rax
	cmpq	$0, 248(%rsp,%rax,8)
	je	.LBB3_1
	movq	%rdx, %rax
	cmpq	$2, %r11
	je	.LBB3_80
	movq	168(%rsp), %rsi
	cmpq	$3, %rsi
	ja	.LBB3_1
	cmpq	$0, 184(%rsp,%rsi,8)
	sete	%sil
	cmpb	$64, -48(%rsp)
	setae	%r14b
	orb	%sil, %r14b
	jne	.LBB3_1
	movq	-88(%rsp), %rax
	cmpq	$0, 216(%rsp,%rax,8)
	je	.LBB3_1
	cmpl	$3, %ebp
	ja	.LBB3_1
	cmpq	$0, 248(%rsp,%rbp,8)
	je	.LBB3_1
	movq	%rdx, %rax
	cmpq	$3, %r11
	je	.LBB3_80
	movq	176(%rsp), %rsi
	cmpq	$3, %rsi
	ja	.LBB3_1
	cmpq	$0, 184(%rsp,%rsi,8)
	setne	%sil
	cmpq	$64, -56(%rsp)
	setb	%r14b
	andb	%sil, %r14b
	cmpb	$1, %r14b
	jne	.LBB3_1
	movq	-96(%rsp), %rax
	cmpq	$0, 216(%rsp,%rax,8)
	je	.LBB3_1
	cmpl	$3, -112(%rsp)
	ja	.LBB3_1
	movq	-112(%rsp), %rax
	cmpq	$0, 248(%rsp,%rax,8)
	movq	%rdx, %rax
	jne	.LBB3_80
	jmp	.LBB3_1
.LBB3_27:
	xorl	%r12d, %r12d
.LBB3_29:
	cmpq	-32(%rsp), %r12
	jne	.LBB3_43
	movl	$4, %r14d
	cmpb	$4, %al
	je	.LBB3_36
	movq	%r11, %r15
	negq	%r15
	movq	$-4, %r14
	movl	$9, %eax
	jmp	.LBB3_32
.LBB3_43:
	testb	%r15b, %r15b
	jne	.LBB3_37
.LBB3_1:
	movq	$1, (%rdi)
	movq	$3, 8(%rdi)
.LBB3_2:
	addq	$16, %rdi
	movl	$368, %edx
	xorl	%esi, %esi
	addq	$600, %rsp
	popq	%rbx
	popq	%r12
	popq	%r13
	popq	%r14
	popq	%r15
	popq	%rbp
	jmp	memset@PLT
.LBB3_34:
	decq	%r14
	addq	$2, %rax
	cmpq	%r14, %r15
	je	.LBB3_37
.LBB3_32:
	cmpq	%rdx, %rax
	jae	.LBB3_34
	cmpb	$0, (%rsi,%rax)
	je	.LBB3_34
	negq	%r14
.LBB3_36:
	cmpq	%r11, %r14
	jae	.LBB3_37
	jmp	.LBB3_1
.Lfunc_end3:
	.size	"jpeg_header_state::scan", .Lfunc_end3-"jpeg_header_state::scan"

	.section	".text.jpeg_engine::PlainEngine::block","ax",@progbits
	.p2align	4
	.type	"jpeg_engine::PlainEngine::block",@function
"jpeg_engine::PlainEngine::block":
	pushq	%rbp
	pushq	%r15
	pushq	%r14
	pushq	%r13
	pushq	%r12
	pushq	%rbx
	pushq	%rax
	movq	(%rcx), %rbp
	movzwl	8(%rcx), %r13d
	movzwl	14(%rcx), %eax
	movw	%ax, -116(%rsp)
	movl	10(%rcx), %eax
	movl	%eax, -120(%rsp)
	movl	$0, -80(%rsp)
	movw	$0, -76(%rsp)
	movq	(%rsi), %r10
	movq	8(%rsi), %r11
	movq	16(%rsi), %rbx
	movq	24(%rsi,%rdx,8), %r14
	movq	56(%rsi,%rdx,8), %rax
	movq	%rax, (%rsp)
	movl	$0, -112(%rsp)
	movw	$0, -108(%rsp)
	movl	$0, -48(%rsp)
	movw	$0, -44(%rsp)
	xorps	%xmm0, %xmm0
	movups	%xmm0, 112(%r9)
	movups	%xmm0, 96(%r9)
	movups	%xmm0, 80(%r9)
	movups	%xmm0, 64(%r9)
	movups	%xmm0, 48(%r9)
	movups	%xmm0, 32(%r9)
	movups	%xmm0, 16(%r9)
	movups	%xmm0, (%r9)
	movl	%r13d, %eax
	shrl	$8, %eax
	movslq	%r8d, %rcx
	movq	%rcx, -8(%rsp)
	movl	$1, %ecx
	movq	%rcx, -24(%rsp)
	xorl	%r15d, %r15d
	movq	%rbx, -16(%rsp)
.LBB4_1:
	movb	$2, %cl
	movq	%rbx, %r8
	subq	%r14, %r8
	jbe	.LBB4_60
	movq	%r15, -32(%rsp)
	leaq	(%r10,%r14), %rdx
	addq	$16, %r14
	cmpq	$16, %r8
	movl	$16, %esi
	cmovbq	%r8, %rsi
	xorl	%r8d, %r8d
	xorl	%ebx, %ebx
	.p2align	4
.LBB4_3:
	testb	%al, %al
	je	.LBB4_6
	leal	-1(%rax), %r12d
	cmpb	$8, %al
	ja	.LBB4_9
	movzbl	%r12b, %eax
	movzbl	%r13b, %r15d
	btl	%eax, %r15d
	setb	%r15b
	movw	$0, -124(%rsp)
	movl	$0, -128(%rsp)
	movl	%r12d, %eax
	jmp	.LBB4_14
	.p2align	4
.LBB4_6:
	cmpq	%rbp, %r11
	jbe	.LBB4_59
	movzbl	(%r10,%rbp), %r13d
	leaq	1(%rbp), %rax
	cmpb	$-1, %r13b
	je	.LBB4_10
	movq	%rax, %rbp
	jmp	.LBB4_13
	.p2align	4
.LBB4_9:
	movw	$0, -124(%rsp)
	movl	$0, -128(%rsp)
	xorl	%r15d, %r15d
	movl	%r12d, %eax
	jmp	.LBB4_14
.LBB4_10:
	cmpq	%rax, %r11
	jbe	.LBB4_59
	cmpb	$0, (%r10,%rax)
	jne	.LBB4_62
	addq	$2, %rbp
.LBB4_13:
	movl	%r13d, %r15d
	shrb	$7, %r15b
	movw	$0, -124(%rsp)
	movl	$0, -128(%rsp)
	movb	$7, %al
.LBB4_14:
	movzbl	(%rdx,%rbx), %r12d
	movzbl	%r15b, %r15d
	leaq	(%r15,%r8,2), %r15
	movq	%r15, %r8
	subq	%r12, %r8
	jb	.LBB4_16
	addq	%r12, %r14
	incq	%rbx
	cmpq	%rbx, %rsi
	jne	.LBB4_3
	jmp	.LBB4_60
	.p2align	4
.LBB4_16:
	addq	%r14, %r15
	movq	-16(%rsp), %rbx
	cmpq	%rbx, %r15
	jae	.LBB4_22
	movzbl	(%r10,%r15), %esi
	movzwl	-124(%rsp), %ecx
	movw	%cx, -92(%rsp)
	movl	-128(%rsp), %ecx
	movl	%ecx, -96(%rsp)
	movq	-32(%rsp), %r15
	testq	%r15, %r15
	je	.LBB4_25
	testq	%rsi, %rsi
	je	.LBB4_23
	cmpl	$240, %esi
	jne	.LBB4_28
	cmpq	$49, %r15
	jae	.LBB4_67
	movzbl	%al, %eax
	shll	$8, %eax
	movzbl	%r13b, %edx
	orl	%eax, %edx
	movzwl	-92(%rsp), %eax
	movw	%ax, -52(%rsp)
	movl	-96(%rsp), %eax
	movl	%eax, -56(%rsp)
	movl	$0, -64(%rsp)
	movw	$0, -60(%rsp)
	movb	$1, %sil
	jmp	.LBB4_24
.LBB4_22:
	movzwl	-124(%rsp), %ecx
	movw	%cx, -92(%rsp)
	movl	-128(%rsp), %ecx
	movl	%ecx, -96(%rsp)
	movq	-32(%rsp), %r15
	testq	%r15, %r15
	je	.LBB4_27
.LBB4_23:
	movzbl	%al, %eax
	shll	$8, %eax
	movzbl	%r13b, %edx
	orl	%eax, %edx
	movzwl	-92(%rsp), %eax
	movw	%ax, -52(%rsp)
	movl	-96(%rsp), %eax
	movl	%eax, -56(%rsp)
	movl	$0, -64(%rsp)
	movw	$0, -60(%rsp)
	xorl	%esi, %esi
.LBB4_24:
	movzwl	-52(%rsp), %eax
	movw	%ax, -100(%rsp)
	movl	-56(%rsp), %eax
	movl	%eax, -104(%rsp)
	movl	-64(%rsp), %eax
	movl	%eax, -72(%rsp)
	movzwl	-60(%rsp), %eax
	movw	%ax, -68(%rsp)
	xorl	%eax, %eax
	xorl	%r13d, %r13d
	xorl	%r14d, %r14d
	movq	%rbp, %r8
	jmp	.LBB4_54
.LBB4_25:
	cmpb	$12, %sil
	jae	.LBB4_67
	xorl	%r8d, %r8d
	movq	%rsi, %rdx
	jmp	.LBB4_30
.LBB4_27:
	movzbl	%al, %eax
	xorl	%r8d, %r8d
	xorl	%edx, %edx
	xorl	%r14d, %r14d
	xorl	%ecx, %ecx
	subq	%rcx, %rax
	cmpq	$8, %rax
	jb	.LBB4_48
.LBB4_46:
	shlq	%cl, %r14
	jmp	.LBB4_49
.LBB4_28:
	movl	%esi, %edx
	andl	$15, %edx
	leal	-1(%rdx), %r8d
	movb	$3, %cl
	cmpl	$9, %r8d
	ja	.LBB4_60
	shrl	$4, %esi
	leaq	(%rsi,%r15), %rbx
	movq	%rsi, %r8
	cmpq	$64, %rbx
	jae	.LBB4_60
.LBB4_30:
	addq	%r15, %r8
	movzbl	%al, %eax
	cmpl	%eax, %edx
	jbe	.LBB4_45
	movq	$-1, %r14
	movl	%eax, %ecx
	shlq	%cl, %r14
	cmpq	%rbp, %r11
	jbe	.LBB4_59
	movzbl	(%r10,%rbp), %ebx
	leaq	1(%rbp), %rsi
	cmpq	$255, %rbx
	jne	.LBB4_36
	cmpq	%rsi, %r11
	jbe	.LBB4_59
	cmpb	$0, (%r10,%rsi)
	jne	.LBB4_62
	addq	$2, %rbp
	movq	%rbp, %rsi
.LBB4_36:
	notl	%r14d
	movzbl	%r13b, %ecx
	andl	%r14d, %ecx
	movl	%ebx, %r14d
	shrl	$7, %r14d
	leal	(%r14,%rcx,2), %r14d
	notq	%rax
	movq	%rax, %rcx
	addq	%rdx, %rcx
	movl	$7, %eax
	cmpq	$8, %rcx
	jae	.LBB4_40
	movq	%rsi, %rbp
	movl	%ebx, %r13d
	subq	%rcx, %rax
	cmpq	$8, %rax
	jae	.LBB4_46
	jmp	.LBB4_48
	.p2align	4
.LBB4_38:
	movq	%r15, %rsi
.LBB4_39:
	movl	%r13d, %r15d
	shrl	$7, %r15d
	shlq	$8, %r14
	addb	%bl, %bl
	movzbl	%bl, %ebx
	orq	%rbx, %r14
	orq	%r15, %r14
	addq	$-8, %rcx
	movl	%r13d, %ebx
	cmpq	$7, %rcx
	jbe	.LBB4_47
.LBB4_40:
	cmpq	%rsi, %r11
	jbe	.LBB4_59
	movzbl	(%r10,%rsi), %r13d
	leaq	1(%rsi), %r15
	cmpq	$255, %r13
	jne	.LBB4_38
	cmpq	%r15, %r11
	jbe	.LBB4_59
	cmpb	$0, (%r10,%r15)
	jne	.LBB4_62
	addq	$2, %rsi
	jmp	.LBB4_39
.LBB4_45:
	xorl	%r14d, %r14d
	movq	%rdx, %rcx
	subq	%rcx, %rax
	cmpq	$8, %rax
	jae	.LBB4_46
.LBB4_48:
	movzbl	%r13b, %ebx
	movq	%rcx, %rsi
	movl	%eax, %ecx
	shrq	%cl, %rbx
	movq	$-1, %r15
	movl	%esi, %ecx
	shlq	%cl, %r15
	notl	%r15d
	andl	%r15d, %ebx
	shlq	%cl, %r14
	addq	%rbx, %r14
.LBB4_49:
	movl	$1, %esi
	movl	%edx, %ecx
	shlq	%cl, %rsi
	leaq	(%r14,%r14), %rcx
	movl	%r14d, %edx
	subl	%esi, %edx
	incl	%edx
	cmpq	%rsi, %rcx
	cmovael	%r14d, %edx
	testq	%r8, %r8
	jne	.LBB4_52
	movswq	%dx, %rdx
	movq	-8(%rsp), %rsi
	leaq	(%rdx,%rsi), %rcx
	addq	$2048, %rcx
	cmpq	$4095, %rcx
	ja	.LBB4_58
	addq	%rsi, %rdx
.LBB4_52:
	movw	$0, -124(%rsp)
	movl	$0, -128(%rsp)
	movl	$0, -88(%rsp)
	movw	$0, -84(%rsp)
	movb	$2, %sil
	movb	$1, %cl
	movq	%rcx, -40(%rsp)
	xorl	%ecx, %ecx
.LBB4_53:
	movzwl	-124(%rsp), %r14d
	movl	-128(%rsp), %r15d
	movzwl	-84(%rsp), %r12d
	movl	-88(%rsp), %ebx
	movl	%r15d, -104(%rsp)
	movw	%r14w, -100(%rsp)
	movl	%ebx, -72(%rsp)
	movw	%r12w, -68(%rsp)
	movq	%rbp, %r14
	cmpb	$0, -40(%rsp)
	movq	-16(%rsp), %rbx
	movq	-32(%rsp), %r15
	je	.LBB4_60
.LBB4_54:
	cmpb	$1, %sil
	je	.LBB4_57
	movzbl	%sil, %ecx
	cmpl	$2, %ecx
	jne	.LBB4_63
	movw	%dx, (%r9,%r8,2)
	movq	%r8, %rdx
	incq	%rdx
	movzwl	-68(%rsp), %ecx
	movw	%cx, -116(%rsp)
	movl	-72(%rsp), %ecx
	movl	%ecx, -120(%rsp)
	movq	%r14, %r8
	movq	%rdx, -24(%rsp)
	movq	%rdx, %r15
	movq	(%rsp), %r14
	movq	%r8, %rbp
	cmpq	$64, %r15
	jb	.LBB4_1
	jmp	.LBB4_64
.LBB4_57:
	movl	%edx, %eax
	shrl	$8, %eax
	movzwl	-100(%rsp), %ecx
	movw	%cx, -116(%rsp)
	movl	-104(%rsp), %ecx
	movl	%ecx, -120(%rsp)
	addq	$16, %r15
	movl	%edx, %r13d
	movq	(%rsp), %r14
	movq	%r8, %rbp
	cmpq	$64, %r15
	jb	.LBB4_1
	jmp	.LBB4_64
.LBB4_58:
	movw	$0, -124(%rsp)
	movl	$0, -128(%rsp)
	movl	$0, -88(%rsp)
	movw	$0, -84(%rsp)
	movb	$3, %cl
	xorl	%ebp, %ebp
	xorl	%r13d, %r13d
	xorl	%eax, %eax
	movq	$0, -40(%rsp)
	xorl	%esi, %esi
	xorl	%edx, %edx
	jmp	.LBB4_53
.LBB4_47:
	movq	%rsi, %rbp
	subq	%rcx, %rax
	cmpq	$8, %rax
	jae	.LBB4_46
	jmp	.LBB4_48
.LBB4_59:
	xorl	%ecx, %ecx
	jmp	.LBB4_60
.LBB4_62:
	movb	$1, %cl
.LBB4_60:
	movl	$0, -112(%rsp)
	movw	$0, -108(%rsp)
	xorps	%xmm0, %xmm0
	movups	%xmm0, 112(%r9)
	movups	%xmm0, 96(%r9)
	movups	%xmm0, 80(%r9)
	movups	%xmm0, 64(%r9)
	movups	%xmm0, 48(%r9)
	movups	%xmm0, 32(%r9)
	movups	%xmm0, 16(%r9)
	movups	%xmm0, (%r9)
	movb	$1, %sil
	xorl	%r10d, %r10d
	xorl	%edx, %edx
	xorl	%eax, %eax
	xorl	%r8d, %r8d
.LBB4_61:
	movzwl	-108(%rsp), %r9d
	movw	%r9w, -76(%rsp)
	movl	-112(%rsp), %r9d
	movl	%r9d, -80(%rsp)
	movb	%sil, (%rdi)
	movb	%cl, 1(%rdi)
	movq	%r8, 8(%rdi)
	movw	%ax, 16(%rdi)
	movl	-80(%rsp), %eax
	movl	%eax, 18(%rdi)
	movzwl	-76(%rsp), %eax
	movw	%ax, 22(%rdi)
	movl	%edx, 24(%rdi)
	movl	$0, 28(%rdi)
	movq	%r10, 32(%rdi)
	addq	$8, %rsp
	popq	%rbx
	popq	%r12
	popq	%r13
	popq	%r14
	popq	%r15
	popq	%rbp
	retq
.LBB4_63:
	movl	%edx, %eax
	shrl	$8, %eax
	movzwl	-100(%rsp), %ecx
	movw	%cx, -116(%rsp)
	movl	-104(%rsp), %ecx
	movl	%ecx, -120(%rsp)
	movl	%edx, %r13d
.LBB4_64:
	movswl	(%r9), %edx
	movzbl	%al, %ecx
	shll	$8, %ecx
	movzbl	%r13b, %eax
	orl	%ecx, %eax
	movzwl	-116(%rsp), %ecx
	movw	%cx, -44(%rsp)
	movl	-120(%rsp), %esi
	movl	%esi, -48(%rsp)
	movl	%esi, -112(%rsp)
	movw	%cx, -108(%rsp)
	xorl	%ecx, %ecx
	xorl	%esi, %esi
	movq	-24(%rsp), %r10
	jmp	.LBB4_61
.LBB4_67:
	movb	$3, %cl
	jmp	.LBB4_60
.Lfunc_end4:
	.size	"jpeg_engine::PlainEngine::block", .Lfunc_end4-"jpeg_engine::PlainEngine::block"

	.section	".text.jpeg_write_scan::run::<#c44e4da361dd472c>","ax",@progbits
	.p2align	4
	.type	"jpeg_write_scan::run::<#c44e4da361dd472c>",@function
"jpeg_write_scan::run::<#c44e4da361dd472c>":
	pushq	%rbp
	pushq	%r15
	pushq	%r14
	pushq	%r13
	pushq	%r12
	pushq	%rbx
	subq	$360, %rsp
	movq	%rcx, %rbp
	movq	%rdx, 152(%rsp)
	movq	128(%rsi), %rcx
	testq	%rcx, %rcx
	je	.LBB5_142
	movq	%r8, %r15
	movq	16(%rsi), %r10
	movq	144(%rsi), %rax
	movq	%rax, %rdx
	orq	%rcx, %rdx
	shrq	$32, %rdx
	je	.LBB5_2
	xorl	%edx, %edx
	divq	%rcx
	jmp	.LBB5_4
.LBB5_2:
	xorl	%edx, %edx
	divl	%ecx
.LBB5_4:
	xorl	%ecx, %ecx
	testq	%rdx, %rdx
	setne	%cl
	addq	%rax, %rcx
	movq	%rcx, 144(%rsp)
	je	.LBB5_5
	movq	%rdi, (%rsp)
	movl	$8, %ebx
	movb	$1, %r12b
	xorl	%edx, %edx
	xorl	%r13d, %r13d
	xorl	%r14d, %r14d
	xorl	%r11d, %r11d
	movq	$0, 32(%rsp)
	movq	$0, 16(%rsp)
	xorl	%eax, %eax
	xorl	%ecx, %ecx
	xorl	%edi, %edi
	movq	%rsi, 112(%rsp)
	movq	%rbp, 24(%rsp)
.LBB5_7:
	movq	%r10, 40(%rsp)
	shll	$8, %ecx
	movzwl	%cx, %ecx
	orq	%rax, %rcx
	movzbl	%dil, %ebp
	movq	%rcx, %rdi
	orq	%rbp, %rdi
	xorps	%xmm0, %xmm0
	movaps	%xmm0, 64(%rsp)
	movaps	%xmm0, 80(%rsp)
	movq	$0, 96(%rsp)
	movaps	%xmm0, 192(%rsp)
	movaps	%xmm0, 208(%rsp)
	movq	$0, 224(%rsp)
	movq	144(%rsi), %rax
	cmpq	%r11, %rax
	jbe	.LBB5_8
	movq	%rax, 56(%rsp)
	movq	136(%rsi), %r9
	testq	%rdx, %rdx
	setne	%al
	testq	%r9, %r9
	movq	%rdx, %r8
	setne	%dl
	testb	%dl, %al
	movq	%r11, 8(%rsp)
	movq	%r8, 48(%rsp)
	je	.LBB5_10
	movq	(%rsi), %r10
	movq	8(%rsi), %r11
	movq	%r8, %rsi
	orq	%r9, %rsi
	shrq	$32, %rsi
	je	.LBB5_12
	movq	%r8, %rax
	xorl	%edx, %edx
	divq	%r9
	testq	%rdx, %rdx
	je	.LBB5_16
.LBB5_15:
	movq	40(%rsp), %r10
	movq	%r10, 64(%rsp)
	movq	%rdi, 72(%rsp)
	movq	16(%rsp), %rax
	movq	%rax, 80(%rsp)
	movq	32(%rsp), %rax
	movq	%rax, 88(%rsp)
	movq	8(%rsp), %r11
	movq	%r11, 96(%rsp)
	movq	112(%rsp), %rsi
	movq	48(%rsp), %rdx
	jmp	.LBB5_34
	.p2align	4
.LBB5_8:
	movq	40(%rsp), %r10
	jmp	.LBB5_72
	.p2align	4
.LBB5_10:
	movq	40(%rsp), %r10
	movq	%r10, 64(%rsp)
	movq	%rdi, 72(%rsp)
	movq	16(%rsp), %rax
	movq	%rax, 80(%rsp)
	movq	32(%rsp), %rax
	movq	%rax, 88(%rsp)
	movq	%r11, 96(%rsp)
	movq	%r8, %rdx
.LBB5_34:
	movq	24(%rsp), %rbp
	movq	56(%rsp), %r9
.LBB5_53:
	movq	128(%rsi), %rax
	xorl	%ecx, %ecx
	subq	%r11, %r9
	cmovaeq	%r9, %rcx
	cmpq	%rax, %rcx
	cmovaeq	%rax, %rcx
	testq	%rcx, %rcx
	je	.LBB5_73
	movq	120(%rsi), %rdx
	leaq	(%rcx,%r11), %rax
	movq	%rax, 136(%rsp)
	xorl	%edi, %edi
	movq	%rcx, 160(%rsp)
	jmp	.LBB5_55
	.p2align	4
.LBB5_69:
	movb	$1, %r12b
	movq	%rbp, %r14
	movq	%r9, %r13
	movq	%rax, %rbx
.LBB5_70:
	leaq	200(%rsp), %rax
	movups	(%rax), %xmm0
	movaps	%xmm0, 64(%rsp)
	movq	16(%rsp), %rax
	movl	124(%rsp), %ecx
	movl	%ecx, 80(%rsp,%rax,4)
	movq	128(%rsp), %r11
	incq	%r11
	movq	176(%rsp), %rdx
	shrq	$2, %rdx
	movq	168(%rsp), %rdi
	incq	%rdi
	movq	160(%rsp), %rcx
	cmpq	%rcx, %rdi
	movq	112(%rsp), %rsi
	je	.LBB5_71
.LBB5_55:
	movq	%rdi, 168(%rsp)
	movq	%r11, 128(%rsp)
	movq	%rdx, 176(%rsp)
	andl	$3, %edx
	movl	%edx, %eax
	movl	80(%rsp,%rax,4), %ebp
	leaq	192(%rsp), %rdi
	leaq	64(%rsp), %rcx
	leaq	232(%rsp), %r9
	movq	%rdx, 16(%rsp)
	movl	%ebp, %r8d
	callq	"jpeg_engine::PlainEngine::block"
	cmpb	$0, 192(%rsp)
	jne	.LBB5_108
	movl	216(%rsp), %eax
	movl	%eax, 124(%rsp)
	cmpb	$1, %r12b
	jne	.LBB5_57
	movslq	%ebp, %rax
	movq	%rax, 184(%rsp)
	movq	224(%rsp), %rax
	movq	%rax, 56(%rsp)
	movq	16(%rsp), %rax
	shll	$11, %eax
	addq	152(%rsp), %rax
	movq	%rax, 32(%rsp)
	xorl	%r12d, %r12d
	movq	%r14, %rbp
	movq	%r13, %r9
	movq	%rbx, %rax
	xorl	%r10d, %r10d
	jmp	.LBB5_59
	.p2align	4
.LBB5_106:
	xorl	%r9d, %r9d
.LBB5_107:
	movl	%edx, %ecx
	shlq	%cl, %r9
	shlq	%cl, %rbx
	notq	%rbx
	andq	%rbx, %rsi
	addq	%rsi, %r9
	subq	%rdx, %rax
	movq	%r12, %rbp
	movq	%rdi, %r12
.LBB5_59:
	cmpq	%r12, 56(%rsp)
	jbe	.LBB5_60
	testq	%r12, %r12
	je	.LBB5_62
	cmpq	$63, %r12
	ja	.LBB5_67
	movl	$64, %edx
	subq	%r12, %rdx
	leaq	(%rsp,%r12,2), %rsi
	addq	$232, %rsi
	xorl	%ecx, %ecx
	.p2align	4
.LBB5_65:
	cmpw	$0, (%rsi,%rcx,2)
	jne	.LBB5_68
	incq	%rcx
	cmpq	%rcx, %rdx
	jne	.LBB5_65
.LBB5_67:
	xorl	%ecx, %ecx
	movl	$64, %edx
	subq	%r12, %rdx
	cmovaeq	%rdx, %rcx
	jmp	.LBB5_68
	.p2align	4
.LBB5_60:
	movl	$64, %ecx
	subq	%r12, %rcx
	jmp	.LBB5_68
.LBB5_62:
	xorl	%ecx, %ecx
	.p2align	4
.LBB5_68:
	addq	%rcx, %r12
	cmpq	$64, %r12
	setae	%dl
	addq	%rcx, %r10
	sete	%cl
	testb	%cl, %dl
	jne	.LBB5_69
	cmpq	$63, %r12
	jbe	.LBB5_78
	xorl	%ebx, %ebx
	xorl	%esi, %esi
	xorl	%edx, %edx
	movq	%r12, %rdi
	jmp	.LBB5_83
	.p2align	4
.LBB5_78:
	cmpq	$16, %r10
	jb	.LBB5_80
	addq	$-16, %r10
	movl	$960, %ebx
	xorl	%esi, %esi
	xorl	%edx, %edx
	movq	%r12, %rdi
	jmp	.LBB5_84
	.p2align	4
.LBB5_80:
	xorl	%ecx, %ecx
	testq	%r12, %r12
	cmoveq	184(%rsp), %rcx
	movswq	232(%rsp,%r12,2), %rdi
	movq	%rdi, %rdx
	subq	%rcx, %rdx
	movq	%rcx, %rsi
	subq	%rdi, %rsi
	cmovlq	%rdx, %rsi
	movl	$127, %r8d
	bsrq	%rsi, %r8
	xorq	$-64, %r8
	addq	$65, %r8
	cmpq	$12, %r8
	movl	$12, %edx
	cmovbq	%r8, %rdx
	cmpq	%rcx, %rdi
	jns	.LBB5_82
	movq	$-1, %rdi
	movl	%edx, %ecx
	shlq	%cl, %rdi
	notq	%rdi
	xorl	%ecx, %ecx
	subq	%rsi, %rdi
	cmovaeq	%rdi, %rcx
	movq	%rcx, %rsi
.LBB5_82:
	leaq	1(%r12), %rdi
	shlq	$6, %r10
	leaq	(%r10,%rdx,4), %rbx
.LBB5_83:
	xorl	%r10d, %r10d
.LBB5_84:
	xorl	%r8d, %r8d
	testq	%r12, %r12
	setne	%r13b
	movb	$8, %cl
	subb	%al, %cl
	movq	%r9, %r11
	shrq	%cl, %r11
	xorl	%r14d, %r14d
	movl	$0, %r12d
	testq	%rax, %rax
	je	.LBB5_85
	testq	%r11, %r11
	jne	.LBB5_85
	movb	%r13b, %r8b
	shll	$10, %r8d
	addq	32(%rsp), %r8
	movl	(%rbx,%r8), %ecx
	movl	%ecx, %r8d
	shrl	$16, %r8d
	leaq	-1(%r8), %r11
	movl	$0, %r13d
	movl	$0, %ebx
	cmpl	$15, %r11d
	ja	.LBB5_70
	movzwl	%cx, %r11d
	movl	%edx, %ecx
	shlq	%cl, %r11
	movq	$-1, %r12
	shlq	%cl, %r12
	movq	$-1, %rbx
	notq	%r12
	andq	%r12, %rsi
	addq	%r11, %rsi
	addq	%rdx, %r8
	movq	%r8, %rdx
	subq	%rax, %rdx
	jae	.LBB5_90
	movq	%rbp, %r12
	movq	%r8, %rdx
	jmp	.LBB5_107
	.p2align	4
.LBB5_90:
	movl	%eax, %ecx
	shlq	%cl, %r9
	movq	%rsi, %r8
	movl	%edx, %ecx
	shrq	%cl, %r8
	movq	$-1, %r11
	movl	%eax, %ecx
	shlq	%cl, %r11
	notl	%r11d
	andl	%r11d, %r8d
	addl	%r8d, %r9d
	cmpq	%r15, %rbp
	jae	.LBB5_92
	movq	24(%rsp), %rax
	movb	%r9b, (%rax,%rbp)
.LBB5_92:
	movq	%rbp, %rax
	incq	%rax
	movq	$-1, %r12
	cmovneq	%rax, %r12
	cmpb	$-1, %r9b
	je	.LBB5_93
	movl	$8, %eax
	cmpq	$8, %rdx
	jb	.LBB5_106
	jmp	.LBB5_97
.LBB5_93:
	cmpq	%r15, %r12
	jae	.LBB5_95
	movq	24(%rsp), %rax
	movb	$0, (%rax,%r12)
.LBB5_95:
	addq	$2, %rbp
	movq	$-1, %r12
	cmovaeq	%rbp, %r12
	movl	$8, %eax
	cmpq	$8, %rdx
	jb	.LBB5_106
.LBB5_97:
	movq	24(%rsp), %r11
	jmp	.LBB5_98
	.p2align	4
.LBB5_104:
	movq	%r12, %rcx
	addq	$2, %rcx
	movq	$-1, %r12
	cmovaeq	%rcx, %r12
	cmpq	$7, %rdx
	jbe	.LBB5_106
.LBB5_98:
	addq	$-8, %rdx
	movq	%rsi, %r8
	movl	%edx, %ecx
	shrq	%cl, %r8
	cmpq	%r15, %r12
	jae	.LBB5_100
	movb	%r8b, (%r11,%r12)
.LBB5_100:
	movq	%r12, %r9
	incq	%r9
	movq	$-1, %rcx
	cmovneq	%r9, %rcx
	cmpb	$-1, %r8b
	je	.LBB5_102
	movq	%rcx, %r12
	cmpq	$7, %rdx
	ja	.LBB5_98
	jmp	.LBB5_106
	.p2align	4
.LBB5_102:
	cmpq	%r15, %rcx
	jae	.LBB5_104
	movb	$0, (%r11,%rcx)
	jmp	.LBB5_104
	.p2align	4
.LBB5_57:
	xorl	%r12d, %r12d
	xorl	%r14d, %r14d
.LBB5_85:
	xorl	%r13d, %r13d
	xorl	%ebx, %ebx
	jmp	.LBB5_70
.LBB5_71:
	movq	64(%rsp), %r10
	movq	72(%rsp), %rdi
	movq	80(%rsp), %rax
	movq	%rax, 16(%rsp)
	movq	88(%rsp), %rax
	movq	%rax, 32(%rsp)
	movq	136(%rsp), %r11
	movq	48(%rsp), %rdx
.LBB5_72:
	movq	24(%rsp), %rbp
.LBB5_73:
	movq	%rdi, %rcx
	shrq	$8, %rcx
	movq	%rdi, %rax
	andq	$-65536, %rax
	incq	%rdx
	cmpq	144(%rsp), %rdx
	jb	.LBB5_7
	jmp	.LBB5_74
.LBB5_12:
	movl	%r8d, %eax
	xorl	%edx, %edx
	divl	%r9d
	testq	%rdx, %rdx
	jne	.LBB5_15
.LBB5_16:
	leaq	-1(%r9), %rdi
	movl	$208, %edx
	cmpq	48(%rsp), %rdi
	jae	.LBB5_21
	movq	%rax, %r8
	testq	%rsi, %rsi
	je	.LBB5_18
	movq	48(%rsp), %rax
	xorl	%edx, %edx
	divq	%r9
	movq	%rax, %rdx
	jmp	.LBB5_20
.LBB5_18:
	movq	48(%rsp), %rax
	xorl	%edx, %edx
	divl	%r9d
	movl	%eax, %edx
.LBB5_20:
	decl	%edx
	andl	$7, %edx
	orq	$208, %rdx
	movq	%r8, %rax
.LBB5_21:
	shrq	$8, %rcx
	movb	$3, %r8b
	cmpb	$8, %cl
	ja	.LBB5_22
	andb	$15, %cl
	movl	$-1, %r9d
	shll	%cl, %r9d
	orl	%r9d, %ebp
	cmpl	$-1, %ebp
	jne	.LBB5_22
	movq	40(%rsp), %rbp
	movq	%rbp, %r9
	subq	%r11, %r9
	jae	.LBB5_25
	movq	%r11, %rsi
	xorl	%ecx, %ecx
	.p2align	4
.LBB5_27:
	movzbl	(%r10,%rbp), %r11d
	cmpq	$255, %r11
	jne	.LBB5_29
	decq	%rcx
	incq	%r10
	cmpq	%rcx, %r9
	jne	.LBB5_27
	jmp	.LBB5_25
.LBB5_29:
	testq	%rcx, %rcx
	je	.LBB5_25
	movq	%rbp, %r10
	subq	%rcx, %r10
	cmpq	%r10, %rsi
	jbe	.LBB5_25
	cmpl	%r11d, %edx
	jne	.LBB5_25
	incq	%r10
	decb	%al
	andb	$7, %al
	orb	$-48, %al
	movq	48(%rsp), %rdx
	cmpq	%rdx, %rdi
	movq	%r10, 64(%rsp)
	xorps	%xmm0, %xmm0
	leaq	72(%rsp), %rcx
	movups	%xmm0, (%rcx)
	movq	$0, 16(%rcx)
	movq	8(%rsp), %r11
	movq	%r11, 96(%rsp)
	movzbl	%al, %ecx
	movl	$208, %eax
	cmovbl	%ecx, %eax
	cmpb	$1, %r12b
	jne	.LBB5_33
	movq	%r11, %r8
	movq	%rdx, %r11
	movb	$8, %cl
	subb	%bl, %cl
	movq	%r13, %rdx
	shrq	%cl, %rdx
	xorl	%edi, %edi
	movb	$1, %r12b
	testq	%rbx, %rbx
	movq	112(%rsp), %rsi
	movq	24(%rsp), %rbp
	movq	56(%rsp), %r9
	je	.LBB5_36
	testq	%rdx, %rdx
	jne	.LBB5_36
	cmpq	$8, %rbx
	jne	.LBB5_40
	movq	%r14, %rdx
	jmp	.LBB5_47
.LBB5_33:
	xorl	%edi, %edi
	movq	$0, 32(%rsp)
	movq	$0, 16(%rsp)
	xorl	%r12d, %r12d
	xorl	%r14d, %r14d
	xorl	%r13d, %r13d
	xorl	%ebx, %ebx
	movq	112(%rsp), %rsi
	jmp	.LBB5_34
.LBB5_36:
	movq	$0, 32(%rsp)
	movq	$0, 16(%rsp)
	jmp	.LBB5_52
.LBB5_40:
	incl	%r13d
	movl	%ebx, %ecx
	shlq	%cl, %r13
	movq	%r14, %rdx
	cmpq	%r15, %r14
	jae	.LBB5_42
	leal	-1(%r13), %ecx
	movb	%cl, (%rbp,%rdx)
.LBB5_42:
	incq	%rdx
	movq	$-1, %rcx
	cmovneq	%rdx, %rcx
	testb	%r13b, %r13b
	je	.LBB5_44
	movq	%rcx, %rdx
	jmp	.LBB5_47
.LBB5_44:
	cmpq	%r15, %rcx
	jae	.LBB5_46
	movb	$0, (%rbp,%rcx)
.LBB5_46:
	movq	%r14, %rdx
	addq	$2, %rdx
	movq	$-1, %rcx
	cmovbq	%rcx, %rdx
.LBB5_47:
	cmpq	%r15, %rdx
	jae	.LBB5_49
	movb	$-1, (%rbp,%rdx)
.LBB5_49:
	movq	%rdx, %r14
	incq	%rdx
	movq	$-1, %rcx
	cmoveq	%rcx, %rdx
	cmpq	%r15, %rdx
	jae	.LBB5_51
	movb	%al, (%rbp,%rdx)
.LBB5_51:
	addq	$2, %r14
	cmovbq	%rcx, %r14
	movq	144(%rsi), %r9
	movl	$8, %ebx
	xorl	%edi, %edi
	movq	$0, 32(%rsp)
	movq	$0, 16(%rsp)
	xorl	%r13d, %r13d
.LBB5_52:
	movq	%r11, %rdx
	movq	%r8, %r11
	jmp	.LBB5_53
.LBB5_108:
	movq	128(%rsp), %rcx
	cmpq	8(%rsp), %rcx
	movq	40(%rsp), %rbp
	je	.LBB5_110
	movq	64(%rsp), %rbp
.LBB5_110:
	movzbl	193(%rsp), %r8d
	jmp	.LBB5_111
.LBB5_5:
	xorl	%r13d, %r13d
	movl	$8, %ebx
	movb	$1, %al
	xorl	%r14d, %r14d
	xorl	%r11d, %r11d
	xorl	%ecx, %ecx
	xorl	%edx, %edx
.LBB5_115:
	movq	$-1, %r9
	shlq	%cl, %r9
	orq	%rdx, %r9
	cmpq	$-1, %r9
	jne	.LBB5_123
	movq	8(%rsi), %rcx
	cmpq	%rcx, %r10
	jae	.LBB5_123
	movq	(%rsi), %r9
	xorl	%esi, %esi
	movq	%rcx, %rdx
	.p2align	4
.LBB5_118:
	movzbl	(%r9,%r10), %r8d
	cmpb	$-1, %r8b
	jne	.LBB5_120
	decq	%rdx
	decq	%rsi
	incq	%r9
	cmpq	%rdx, %r10
	jne	.LBB5_118
	jmp	.LBB5_123
.LBB5_25:
	movq	8(%rsp), %rcx
.LBB5_111:
	movq	(%rsp), %rax
.LBB5_112:
	movq	$1, (%rax)
	movq	$1, 8(%rax)
	movb	%r8b, 16(%rax)
	movb	$0, 23(%rax)
	movw	$0, 21(%rax)
	movl	$0, 17(%rax)
	movq	%rcx, 24(%rax)
	movq	%rbp, 32(%rax)
	jmp	.LBB5_113
.LBB5_120:
	testq	%rsi, %rsi
	je	.LBB5_123
	movq	%r10, %r9
	subq	%rsi, %r9
	cmpq	%r9, %rcx
	jbe	.LBB5_123
	cmpb	$-39, %r8b
	sete	%cl
	leaq	1(%r10), %rsi
	cmpq	%rdx, %rsi
	sete	%dl
	testb	%dl, %cl
	je	.LBB5_123
	testb	%al, %al
	je	.LBB5_125
	movb	$8, %cl
	subb	%bl, %cl
	movq	%r13, %rdx
	shrq	%cl, %rdx
	xorl	%eax, %eax
	testq	%rbx, %rbx
	je	.LBB5_141
	testq	%rdx, %rdx
	jne	.LBB5_141
	cmpq	$8, %rbx
	je	.LBB5_136
	incl	%r13d
	movl	%ebx, %ecx
	shlq	%cl, %r13
	cmpq	%r15, %r14
	jae	.LBB5_131
	leal	-1(%r13), %eax
	movb	%al, (%rbp,%r14)
.LBB5_131:
	movq	%r14, %rcx
	incq	%rcx
	movq	$-1, %rax
	cmovneq	%rcx, %rax
	testb	%r13b, %r13b
	je	.LBB5_133
	movq	%rax, %r14
	jmp	.LBB5_136
.LBB5_74:
	cmpb	$1, %r12b
	sete	%al
	cmpb	$8, %cl
	ja	.LBB5_75
	movzbl	%dil, %edx
	movq	(%rsp), %rdi
	jmp	.LBB5_115
.LBB5_75:
	movq	(%rsp), %rdi
.LBB5_123:
	movq	$1, (%rdi)
	movq	$1, 8(%rdi)
	movb	$3, 16(%rdi)
	movb	$0, 23(%rdi)
	movw	$0, 21(%rdi)
	movl	$0, 17(%rdi)
	movq	%r11, 24(%rdi)
	movq	%r10, 32(%rdi)
.LBB5_113:
	addq	$360, %rsp
	popq	%rbx
	popq	%r12
	popq	%r13
	popq	%r14
	popq	%r15
	popq	%rbp
	retq
.LBB5_125:
	movl	$1, %eax
	xorl	%r14d, %r14d
	jmp	.LBB5_141
.LBB5_22:
	movq	8(%rsp), %rcx
	movq	(%rsp), %rax
	movq	40(%rsp), %rbp
	jmp	.LBB5_112
.LBB5_133:
	cmpq	%r15, %rax
	jae	.LBB5_135
	movb	$0, (%rbp,%rax)
.LBB5_135:
	addq	$2, %r14
	movq	$-1, %rax
	cmovbq	%rax, %r14
.LBB5_136:
	cmpq	%r15, %r14
	jae	.LBB5_138
	movb	$-1, (%rbp,%r14)
.LBB5_138:
	movq	%r14, %rcx
	incq	%rcx
	movq	$-1, %rax
	cmoveq	%rax, %rcx
	cmpq	%r15, %rcx
	jae	.LBB5_140
	movb	$-39, (%rbp,%rcx)
.LBB5_140:
	addq	$2, %r14
	cmovbq	%rax, %r14
	xorl	%eax, %eax
.LBB5_141:
	movq	%rax, (%rdi)
	movq	%r14, 8(%rdi)
	xorps	%xmm0, %xmm0
	movups	%xmm0, 16(%rdi)
	movq	$0, 32(%rdi)
	jmp	.LBB5_113
.LBB5_142:
	ud2
.Lfunc_end5:
	.size	"jpeg_write_scan::run::<#c44e4da361dd472c>", .Lfunc_end5-"jpeg_write_scan::run::<#c44e4da361dd472c>"

	.section	".text.core::fmt::type_impls::writers::RefMutWrite::write_str::<#18b16ec19ae6b37c>","ax",@progbits
	.p2align	4
	.type	"core::fmt::type_impls::writers::RefMutWrite::write_str::<#18b16ec19ae6b37c>",@function
"core::fmt::type_impls::writers::RefMutWrite::write_str::<#18b16ec19ae6b37c>":
	movb	$1, %al
	cmpb	$0, 72(%rdi)
	jne	.LBB6_104
	pushq	%r15
	pushq	%r14
	pushq	%rbx
	subq	$32, %rsp
	movq	64(%rdi), %r14
	cmpq	$64, %r14
	ja	.LBB6_103
	movl	$64, %ecx
	subq	%r14, %rcx
	cmpq	%rcx, %rdx
	jbe	.LBB6_66
	cmpq	$62, %r14
	jb	.LBB6_69
	xorps	%xmm0, %xmm0
	movaps	%xmm0, (%rsp)
	movq	$0, 16(%rsp)
	movq	%rsp, %rax
	movq	%rdi, %rbx
	movq	%rax, %rdi
	movq	%rbx, %rsi
	movq	%r14, %rdx
	callq	"core::str::utf8::from_utf8"
	movb	$1, %al
	movq	%rbx, %rdi
	xorl	%ebx, %ebx
	cmpb	$0, (%rsp)
	leaq	.Lstatic.2(%rip), %rcx
	cmoveq	8(%rsp), %rcx
	cmoveq	16(%rsp), %rbx
	cmpq	$62, %rbx
	jb	.LBB6_76
	movl	$61, %ebx
	cmpb	$-65, 61(%rcx)
	jg	.LBB6_76
	movl	$60, %ebx
	cmpb	$-65, 60(%rcx)
	jg	.LBB6_76
	movl	$59, %ebx
	cmpb	$-65, 59(%rcx)
	jg	.LBB6_76
	movl	$58, %ebx
	cmpb	$-65, 58(%rcx)
	jg	.LBB6_76
	movl	$57, %ebx
	cmpb	$-65, 57(%rcx)
	jg	.LBB6_76
	movl	$56, %ebx
	cmpb	$-65, 56(%rcx)
	jg	.LBB6_76
	movl	$55, %ebx
	cmpb	$-65, 55(%rcx)
	jg	.LBB6_76
	movl	$54, %ebx
	cmpb	$-65, 54(%rcx)
	jg	.LBB6_76
	movl	$53, %ebx
	cmpb	$-65, 53(%rcx)
	jg	.LBB6_76
	movl	$52, %ebx
	cmpb	$-65, 52(%rcx)
	jg	.LBB6_76
	movl	$51, %ebx
	cmpb	$-65, 51(%rcx)
	jg	.LBB6_76
	movl	$50, %ebx
	cmpb	$-65, 50(%rcx)
	jg	.LBB6_76
	movl	$49, %ebx
	cmpb	$-65, 49(%rcx)
	jg	.LBB6_76
	movl	$48, %ebx
	cmpb	$-65, 48(%rcx)
	jg	.LBB6_76
	movl	$47, %ebx
	cmpb	$-65, 47(%rcx)
	jg	.LBB6_76
	movl	$46, %ebx
	cmpb	$-65, 46(%rcx)
	jg	.LBB6_76
	movl	$45, %ebx
	cmpb	$-65, 45(%rcx)
	jg	.LBB6_76
	movl	$44, %ebx
	cmpb	$-65, 44(%rcx)
	jg	.LBB6_76
	movl	$43, %ebx
	cmpb	$-65, 43(%rcx)
	jg	.LBB6_76
	movl	$42, %ebx
	cmpb	$-65, 42(%rcx)
	jg	.LBB6_76
	movl	$41, %ebx
	cmpb	$-65, 41(%rcx)
	jg	.LBB6_76
	movl	$40, %ebx
	cmpb	$-65, 40(%rcx)
	jg	.LBB6_76
	movl	$39, %ebx
	cmpb	$-65, 39(%rcx)
	jg	.LBB6_76
	movl	$38, %ebx
	cmpb	$-65, 38(%rcx)
	jg	.LBB6_76
	movl	$37, %ebx
	cmpb	$-65, 37(%rcx)
	jg	.LBB6_76
	movl	$36, %ebx
	cmpb	$-65, 36(%rcx)
	jg	.LBB6_76
	movl	$35, %ebx
	cmpb	$-65, 35(%rcx)
	jg	.LBB6_76
	movl	$34, %ebx
	cmpb	$-65, 34(%rcx)
	jg	.LBB6_76
	movl	$33, %ebx
	cmpb	$-65, 33(%rcx)
	jg	.LBB6_76
	movl	$32, %ebx
	cmpb	$-65, 32(%rcx)
	jg	.LBB6_76
	movl	$31, %ebx
	cmpb	$-65, 31(%rcx)
	jg	.LBB6_76
	movl	$30, %ebx
	cmpb	$-65, 30(%rcx)
	jg	.LBB6_76
	movl	$29, %ebx
	cmpb	$-65, 29(%rcx)
	jg	.LBB6_76
	movl	$28, %ebx
	cmpb	$-65, 28(%rcx)
	jg	.LBB6_76
	movl	$27, %ebx
	cmpb	$-65, 27(%rcx)
	jg	.LBB6_76
	movl	$26, %ebx
	cmpb	$-65, 26(%rcx)
	jg	.LBB6_76
	movl	$25, %ebx
	cmpb	$-65, 25(%rcx)
	jg	.LBB6_76
	movl	$24, %ebx
	cmpb	$-65, 24(%rcx)
	jg	.LBB6_76
	movl	$23, %ebx
	cmpb	$-65, 23(%rcx)
	jg	.LBB6_76
	movl	$22, %ebx
	cmpb	$-65, 22(%rcx)
	jg	.LBB6_76
	movl	$21, %ebx
	cmpb	$-65, 21(%rcx)
	jg	.LBB6_76
	movl	$20, %ebx
	cmpb	$-65, 20(%rcx)
	jg	.LBB6_76
	movl	$19, %ebx
	cmpb	$-65, 19(%rcx)
	jg	.LBB6_76
	movl	$18, %ebx
	cmpb	$-65, 18(%rcx)
	jg	.LBB6_76
	movl	$17, %ebx
	cmpb	$-65, 17(%rcx)
	jg	.LBB6_76
	movl	$16, %ebx
	cmpb	$-65, 16(%rcx)
	jg	.LBB6_76
	movl	$15, %ebx
	cmpb	$-65, 15(%rcx)
	jg	.LBB6_76
	movl	$14, %ebx
	cmpb	$-65, 14(%rcx)
	jg	.LBB6_76
	movl	$13, %ebx
	cmpb	$-65, 13(%rcx)
	jg	.LBB6_76
	movl	$12, %ebx
	cmpb	$-65, 12(%rcx)
	jg	.LBB6_76
	movl	$11, %ebx
	cmpb	$-65, 11(%rcx)
	jg	.LBB6_76
	movl	$10, %ebx
	cmpb	$-65, 10(%rcx)
	jg	.LBB6_76
	movl	$9, %ebx
	cmpb	$-65, 9(%rcx)
	jg	.LBB6_76
	movl	$8, %ebx
	cmpb	$-65, 8(%rcx)
	jg	.LBB6_76
	movl	$7, %ebx
	cmpb	$-65, 7(%rcx)
	jg	.LBB6_76
	movl	$6, %ebx
	cmpb	$-65, 6(%rcx)
	jg	.LBB6_76
	movl	$5, %ebx
	cmpb	$-65, 5(%rcx)
	jg	.LBB6_76
	movl	$4, %ebx
	cmpb	$-65, 4(%rcx)
	jg	.LBB6_76
	movl	$3, %ebx
	cmpb	$-65, 3(%rcx)
	jg	.LBB6_76
	movl	$2, %ebx
	cmpb	$-65, 2(%rcx)
	jg	.LBB6_76
	xorl	%ebx, %ebx
	cmpb	$-64, 1(%rcx)
	setge	%bl
	jmp	.LBB6_76
.LBB6_66:
	leaq	(%rdi,%r14), %rax
	movq	%rax, %rcx
	subq	%rsi, %rcx
	cmpq	%rdx, %rcx
	jae	.LBB6_78
	cmpq	$4, %rdx
	jb	.LBB6_68
	cmpq	$32, %rcx
	jae	.LBB6_86
.LBB6_68:
	xorl	%ecx, %ecx
.LBB6_96:
	movq	%rdx, %r9
	movq	%rcx, %r8
	andq	$3, %r9
	je	.LBB6_99
	movq	%rcx, %r8
	.p2align	4
.LBB6_98:
	movzbl	(%rsi,%r8), %r10d
	movb	%r10b, (%rax,%r8)
	incq	%r8
	decq	%r9
	jne	.LBB6_98
.LBB6_99:
	subq	%rdx, %rcx
	cmpq	$-4, %rcx
	ja	.LBB6_102
	leaq	(%r14,%rdi), %rax
	addq	$3, %rax
	.p2align	4
.LBB6_101:
	movzbl	(%rsi,%r8), %ecx
	movb	%cl, -3(%rax,%r8)
	movzbl	1(%rsi,%r8), %ecx
	movb	%cl, -2(%rax,%r8)
	movzbl	2(%rsi,%r8), %ecx
	movb	%cl, -1(%rax,%r8)
	movzbl	3(%rsi,%r8), %ecx
	movb	%cl, (%rax,%r8)
	addq	$4, %r8
	cmpq	%r8, %rdx
	jne	.LBB6_101
	jmp	.LBB6_102
.LBB6_69:
	cmpq	$61, %r14
	je	.LBB6_73
	movl	%r14d, %r8d
	xorb	$1, %r8b
	movl	$58, %edx
	subq	%r14, %rdx
	.p2align	4
.LBB6_71:
	cmpb	$-65, 3(%rsi,%rdx)
	jg	.LBB6_83
	addb	$3, %r8b
	decq	%rdx
	cmpq	$-3, %rdx
	jne	.LBB6_71
.LBB6_73:
	movq	%rdi, %r15
	leaq	(%rdi,%r14), %rcx
	xorl	%ebx, %ebx
.LBB6_74:
	movq	%rcx, %rdi
	movq	%rbx, %rdx
	callq	memmove@PLT
	movq	%r15, %rdi
	movb	$1, %al
.LBB6_75:
	addq	%r14, %rbx
.LBB6_76:
	movq	%rbx, 64(%rdi)
	leaq	(%rdi,%rbx), %rcx
	leaq	.Lstatic.12(%rip), %rdx
	movq	%rcx, %rsi
	subq	%rdx, %rsi
	addq	$-16, %rsi
	cmpq	$2, %rsi
	ja	.LBB6_79
	movw	$11822, (%rcx)
	movb	$46, 2(%rcx)
	jmp	.LBB6_80
.LBB6_78:
	movq	%rdi, %r15
	movq	%rax, %rdi
	movq	%rdx, %rbx
	callq	memmove@PLT
	movq	%rbx, %rdx
	movq	%r15, %rdi
.LBB6_102:
	addq	%rdx, %r14
	movq	%r14, 64(%rdi)
	xorl	%eax, %eax
	jmp	.LBB6_103
.LBB6_79:
	movb	$46, 2(%rcx)
	movw	$11822, (%rcx)
.LBB6_80:
	addq	$3, %rbx
	movq	%rbx, 64(%rdi)
	movb	$1, 72(%rdi)
.LBB6_103:
	addq	$32, %rsp
	popq	%rbx
	popq	%r14
	popq	%r15
.LBB6_104:
	retq
.LBB6_83:
	leaq	(%rdi,%r14), %rcx
	movq	%rcx, %r9
	subq	%rsi, %r9
	leaq	3(%rdx), %rbx
	cmpq	%rbx, %r9
	jae	.LBB6_88
	cmpq	$4, %rbx
	jb	.LBB6_85
	leaq	(%rdi,%r14), %r9
	subq	%rsi, %r9
	cmpq	$32, %r9
	jae	.LBB6_107
.LBB6_85:
	xorl	%r9d, %r9d
.LBB6_116:
	movq	%r9, %r10
	testb	$3, %bl
	je	.LBB6_119
	movzbl	%r8b, %r8d
	andl	$3, %r8d
	movq	%r9, %r10
.LBB6_118:
	movzbl	(%rsi,%r10), %r11d
	movb	%r11b, (%rcx,%r10)
	incq	%r10
	decq	%r8
	jne	.LBB6_118
.LBB6_119:
	subq	%rdx, %r9
	cmpq	$3, %r9
	jb	.LBB6_75
	leaq	(%r14,%rdi), %rcx
	addq	$3, %rcx
.LBB6_121:
	movzbl	(%rsi,%r10), %edx
	movb	%dl, -3(%rcx,%r10)
	movzbl	1(%rsi,%r10), %edx
	movb	%dl, -2(%rcx,%r10)
	movzbl	2(%rsi,%r10), %edx
	movb	%dl, -1(%rcx,%r10)
	movzbl	3(%rsi,%r10), %edx
	movb	%dl, (%rcx,%r10)
	addq	$4, %r10
	cmpq	%r10, %rbx
	jne	.LBB6_121
	jmp	.LBB6_75
.LBB6_86:
	cmpq	$32, %rdx
	jae	.LBB6_89
	xorl	%ecx, %ecx
	jmp	.LBB6_93
.LBB6_88:
	movq	%rdi, %r15
	jmp	.LBB6_74
.LBB6_89:
	movq	%rdx, %rcx
	andq	$-32, %rcx
	leaq	(%r14,%rdi), %r8
	addq	$16, %r8
	xorl	%r9d, %r9d
	.p2align	4
.LBB6_90:
	movups	(%rsi,%r9), %xmm0
	movups	16(%rsi,%r9), %xmm1
	movups	%xmm0, -16(%r8,%r9)
	movups	%xmm1, (%r8,%r9)
	addq	$32, %r9
	cmpq	%r9, %rcx
	jne	.LBB6_90
	cmpq	%rcx, %rdx
	je	.LBB6_102
	testb	$28, %dl
	je	.LBB6_96
.LBB6_93:
	movq	%rcx, %r8
	movq	%rdx, %rcx
	andq	$-4, %rcx
	.p2align	4
.LBB6_94:
	movl	(%rsi,%r8), %r9d
	movl	%r9d, (%rax,%r8)
	addq	$4, %r8
	cmpq	%r8, %rcx
	jne	.LBB6_94
	cmpq	%rcx, %rdx
	je	.LBB6_102
	jmp	.LBB6_96
.LBB6_107:
	cmpq	$32, %rbx
	jae	.LBB6_109
	xorl	%r9d, %r9d
	jmp	.LBB6_113
.LBB6_109:
	movq	%rbx, %r9
	andq	$-32, %r9
	leaq	(%r14,%rdi), %r10
	addq	$16, %r10
	xorl	%r11d, %r11d
.LBB6_110:
	movups	(%rsi,%r11), %xmm0
	movups	16(%rsi,%r11), %xmm1
	movups	%xmm0, -16(%r10,%r11)
	movups	%xmm1, (%r10,%r11)
	addq	$32, %r11
	cmpq	%r11, %r9
	jne	.LBB6_110
	cmpq	%r9, %rbx
	je	.LBB6_75
	testb	$28, %bl
	je	.LBB6_116
.LBB6_113:
	movq	%r9, %r10
	movq	%rbx, %r9
	andq	$-4, %r9
.LBB6_114:
	movl	(%rsi,%r10), %r11d
	movl	%r11d, (%rcx,%r10)
	addq	$4, %r10
	cmpq	%r10, %r9
	jne	.LBB6_114
	cmpq	%r9, %rbx
	je	.LBB6_75
	jmp	.LBB6_116
.Lfunc_end6:
	.size	"core::fmt::type_impls::writers::RefMutWrite::write_str::<#18b16ec19ae6b37c>", .Lfunc_end6-"core::fmt::type_impls::writers::RefMutWrite::write_str::<#18b16ec19ae6b37c>"

	.section	".text.core::str::utf8::from_utf8","ax",@progbits
	.p2align	4
	.type	"core::str::utf8::from_utf8",@function
"core::str::utf8::from_utf8":
	pushq	%r15
	pushq	%r14
	pushq	%r13
	pushq	%r12
	pushq	%rbx
	subq	$16, %rsp
	movq	%rdx, %r15
	movq	%rsi, %r14
	movq	%rdi, %rbx
	testq	%rdx, %rdx
	je	.LBB7_57
	movabsq	$-9187201950435737472, %r12
	leaq	-8(%r15), %r13
	xorl	%ecx, %ecx
	jmp	.LBB7_5
.LBB7_25:
	movl	$1, %edi
.LBB7_3:
	addq	%rcx, %rdi
.LBB7_4:
	movq	%rdi, %rcx
	cmpq	%r15, %rdi
	jae	.LBB7_57
.LBB7_5:
	movzbl	(%r14,%rcx), %esi
	testb	%sil, %sil
	sets	%dl
	movq	%r15, %rax
	subq	%rcx, %rax
	cmpq	$2, %rax
	setb	%dil
	orb	%dl, %dil
	jne	.LBB7_2
	cmpb	$0, 1(%r14,%rcx)
	js	.LBB7_25
	movq	%r14, (%rsp)
	movq	%r15, 8(%rsp)
	cmpq	$7, %rax
	ja	.LBB7_26
	cmpb	$0, (%r14,%rcx)
	js	.LBB7_36
	leaq	1(%rcx), %rdi
	cmpq	%r15, %rdi
	je	.LBB7_57
	cmpb	$0, (%r14,%rdi)
	js	.LBB7_4
	leaq	2(%rcx), %rdi
	cmpq	%r15, %rdi
	je	.LBB7_57
	cmpb	$0, (%r14,%rdi)
	js	.LBB7_4
	leaq	3(%rcx), %rdi
	cmpq	%r15, %rdi
	je	.LBB7_57
	cmpb	$0, (%r14,%rdi)
	js	.LBB7_4
	leaq	4(%rcx), %rdi
	cmpq	%r15, %rdi
	je	.LBB7_57
	cmpb	$0, (%r14,%rdi)
	js	.LBB7_4
	leaq	5(%rcx), %rdi
	cmpq	%r15, %rdi
	je	.LBB7_57
	cmpb	$0, (%r14,%rdi)
	js	.LBB7_4
	addq	$6, %rcx
	cmpq	%r15, %rcx
	je	.LBB7_57
	cmpb	$0, (%r14,%rcx)
	movq	%rcx, %rdi
	js	.LBB7_4
	jmp	.LBB7_57
	.p2align	4
.LBB7_2:
	movl	$1, %edi
	testb	%sil, %sil
	jns	.LBB7_3
	movl	$257, %edx
	cmpb	$-62, %sil
	jb	.LBB7_66
	cmpb	$-33, %sil
	ja	.LBB7_29
	cmpq	$2, %rax
	jb	.LBB7_58
	movzbl	1(%r14,%rcx), %r8d
	movl	$2, %edi
	cmpb	$-65, %r8b
	jle	.LBB7_3
	jmp	.LBB7_60
.LBB7_26:
	movq	(%r14,%rcx), %rax
	andq	%r12, %rax
	je	.LBB7_37
	rep		bsfq	%rax, %rax
	shrl	$3, %eax
	addq	%rcx, %rax
	addq	$8, %rcx
	movq	%rax, %rdi
	cmpq	%rcx, %rax
	jb	.LBB7_4
	movq	%r15, %rcx
	subq	%rax, %rcx
	cmpq	$32, %rcx
	jae	.LBB7_38
	jmp	.LBB7_40
.LBB7_29:
	cmpb	$-17, %sil
	ja	.LBB7_48
	cmpq	$3, %rax
	jb	.LBB7_55
	movzbl	1(%r14,%rcx), %r8d
	cmpb	$-65, %r8b
	jg	.LBB7_60
	cmpb	$-65, 2(%r14,%rcx)
	jg	.LBB7_60
	movzbl	%r8b, %edi
	movl	%esi, %r9d
	shll	$6, %r9d
	addl	%edi, %r9d
	addl	$-14464, %r9d
	cmpl	$32, %r9d
	jb	.LBB7_60
	xorl	%r8d, %r8d
	cmpl	$896, %r9d
	setae	%r10b
	movl	$3, %edi
	cmpl	$864, %r9d
	jb	.LBB7_3
	movb	%r10b, %r8b
	leaq	(%r8,%r8,2), %rdi
	testq	%rdi, %rdi
	jne	.LBB7_3
	jmp	.LBB7_54
.LBB7_36:
	movq	%rcx, %rdi
	jmp	.LBB7_4
.LBB7_37:
	addq	$8, %rcx
	movq	%rcx, %rax
	movq	%r15, %rcx
	subq	%rax, %rcx
	cmpq	$32, %rcx
	jb	.LBB7_40
	.p2align	4
.LBB7_38:
	movdqu	(%r14,%rax), %xmm0
	movdqu	16(%r14,%rax), %xmm1
	por	%xmm0, %xmm1
	pshufd	$238, %xmm1, %xmm0
	por	%xmm1, %xmm0
	movq	%xmm0, %rcx
	testq	%r12, %rcx
	jne	.LBB7_40
	addq	$32, %rax
	movq	%rsp, %rdi
	movq	%rax, %rsi
	movq	%r15, %rdx
	callq	"core::slice::words::skip_far::<#52f9edcae2f82f51>"
	movq	%r15, %rcx
	subq	%rax, %rcx
	cmpq	$31, %rcx
	ja	.LBB7_38
.LBB7_40:
	movq	%r15, %rcx
	subq	%rax, %rcx
	jmp	.LBB7_43
	.p2align	4
.LBB7_41:
	rep		bsfq	%rdx, %rdi
	shrl	$3, %edi
	addq	%rax, %rdi
	addq	$8, %rax
	addq	$-8, %rcx
	cmpq	%rax, %rdi
	jb	.LBB7_4
.LBB7_43:
	cmpq	$9, %rcx
	jb	.LBB7_46
	movq	(%r14,%rax), %rdx
	andq	%r12, %rdx
	jne	.LBB7_41
	leaq	8(%rax), %rdi
	addq	$8, %rax
	addq	$-8, %rcx
	cmpq	%rax, %rdi
	jae	.LBB7_43
	jmp	.LBB7_4
.LBB7_46:
	movq	(%r14,%r13), %rax
	andq	%r12, %rax
	je	.LBB7_57
	rep		bsfq	%rax, %rdi
	shrl	$3, %edi
	addq	%r13, %rdi
	jmp	.LBB7_4
.LBB7_48:
	cmpq	$4, %rax
	jb	.LBB7_54
	movzbl	1(%r14,%rcx), %edi
	cmpb	$-65, %dil
	jg	.LBB7_54
	cmpb	$-65, 2(%r14,%rcx)
	jg	.LBB7_54
	cmpb	$-65, 3(%r14,%rcx)
	jg	.LBB7_54
	movl	%esi, %r8d
	shll	$6, %r8d
	leal	(%r8,%rdi), %r9d
	addl	$-15488, %r9d
	xorl	%edi, %edi
	cmpl	$272, %r9d
	setb	%r8b
	cmpl	$16, %r9d
	jb	.LBB7_54
	movb	%r8b, %dil
	shll	$2, %edi
	testq	%rdi, %rdi
	jne	.LBB7_3
.LBB7_54:
	cmpb	$-12, %sil
	ja	.LBB7_66
.LBB7_55:
	cmpq	$2, %rax
	jb	.LBB7_58
	movzbl	1(%r14,%rcx), %r8d
.LBB7_60:
	cmpl	$240, %esi
	sete	%dil
	shlb	$4, %dil
	orb	$-128, %dil
	cmpl	$224, %esi
	movzbl	%dil, %edi
	movl	$160, %r9d
	cmovnel	%edi, %r9d
	cmpl	$244, %esi
	movl	$143, %edi
	movl	$191, %r10d
	cmovel	%edi, %r10d
	cmpl	$237, %esi
	movl	$159, %esi
	cmovnel	%r10d, %esi
	cmpb	%r8b, %r9b
	ja	.LBB7_66
	cmpb	%sil, %r8b
	ja	.LBB7_66
	cmpq	$2, %rax
	jne	.LBB7_64
.LBB7_58:
	xorl	%edx, %edx
.LBB7_66:
	movq	$1, (%rbx)
	movq	%rcx, 8(%rbx)
	movq	%rdx, 16(%rbx)
	jmp	.LBB7_67
.LBB7_57:
	movq	$0, (%rbx)
	movq	%r14, 8(%rbx)
	movq	%r15, 16(%rbx)
.LBB7_67:
	addq	$16, %rsp
	popq	%rbx
	popq	%r12
	popq	%r13
	popq	%r14
	popq	%r15
	retq
.LBB7_64:
	movl	$513, %edx
	cmpb	$-65, 2(%r14,%rcx)
	jg	.LBB7_66
	xorl	%esi, %esi
	cmpq	$4, %rax
	movl	$769, %edx
	cmovbq	%rsi, %rdx
	jmp	.LBB7_66
.Lfunc_end7:
	.size	"core::str::utf8::from_utf8", .Lfunc_end7-"core::str::utf8::from_utf8"

	.section	".text.core::slice::words::skip_far::<#52f9edcae2f82f51>","ax",@progbits
	.p2align	4
	.type	"core::slice::words::skip_far::<#52f9edcae2f82f51>",@function
"core::slice::words::skip_far::<#52f9edcae2f82f51>":
	movq	%rsi, %rax
	subq	%rsi, %rdx
	cmpq	$64, %rdx
	jb	.LBB8_4
	movq	(%rdi), %rcx
	.p2align	4
.LBB8_2:
	movdqu	(%rcx,%rax), %xmm0
	movdqu	16(%rcx,%rax), %xmm1
	movdqu	32(%rcx,%rax), %xmm2
	por	%xmm0, %xmm2
	movdqu	48(%rcx,%rax), %xmm0
	por	%xmm1, %xmm0
	por	%xmm2, %xmm0
	pshufd	$238, %xmm0, %xmm1
	por	%xmm0, %xmm1
	movq	%xmm1, %rsi
	movabsq	$-9187201950435737472, %rdi
	testq	%rdi, %rsi
	jne	.LBB8_4
	addq	$64, %rax
	addq	$-64, %rdx
	cmpq	$63, %rdx
	ja	.LBB8_2
.LBB8_4:
	retq
.Lfunc_end8:
	.size	"core::slice::words::skip_far::<#52f9edcae2f82f51>", .Lfunc_end8-"core::slice::words::skip_far::<#52f9edcae2f82f51>"

	.section	.rodata.cst16,"aM",@progbits,16
	.p2align	4, 0x0
.LCPI9_0:
	.zero	16,46
.LCPI9_1:
	.quad	3327647951695996518
	.quad	3327647950551526958
.LCPI9_2:
	.quad	2334399978102268015
	.quad	8458358670138239095
.LCPI9_3:
	.quad	1840898
	.quad	8367798494427701606
.LCPI9_4:
	.byte	0
	.byte	1
	.byte	2
	.byte	3
	.byte	4
	.byte	5
	.byte	6
	.byte	7
	.byte	8
	.byte	9
	.byte	10
	.byte	11
	.byte	12
	.byte	13
	.byte	14
	.byte	15
.LCPI9_5:
	.byte	16
	.byte	17
	.byte	18
	.byte	19
	.byte	20
	.byte	21
	.byte	22
	.byte	23
	.byte	24
	.byte	25
	.byte	26
	.byte	27
	.byte	28
	.byte	29
	.byte	30
	.byte	31
	.section	".text.std::io::stdio::StdoutWrite::write_all","ax",@progbits
	.p2align	4
	.type	"std::io::stdio::StdoutWrite::write_all",@function
"std::io::stdio::StdoutWrite::write_all":
	pushq	%r15
	pushq	%r14
	pushq	%r13
	pushq	%r12
	pushq	%rbx
	subq	$192, %rsp
	movq	%rdx, %r14
	movq	%rsi, %r15
	movq	%rdi, %rbx
	movl	$1, %r12d
	leaq	88(%rsp), %r13
	jmp	.LBB9_1
	.p2align	4
.LBB9_10:
	incq	%r12
	je	.LBB9_11
.LBB9_1:
	testq	%r14, %r14
	je	.LBB9_2
	movl	$1, %edi
	movq	%r15, %rsi
	movq	%r14, %rdx
	callq	write@PLT
	testq	%rax, %rax
	js	.LBB9_6
	je	.LBB9_5
	cmpq	%r14, %rax
	cmovaeq	%r14, %rax
	addq	%rax, %r15
	subq	%rax, %r14
	jmp	.LBB9_10
	.p2align	4
.LBB9_6:
	callq	rattle_errno@PLT
	leaq	32(%rsp), %rdi
	movl	%eax, %esi
	callq	"std_io::io::error::Error::from_raw_os_error"
	movaps	32(%rsp), %xmm0
	movaps	48(%rsp), %xmm1
	movaps	64(%rsp), %xmm2
	movq	32(%rsp), %rcx
	movq	80(%rsp), %rax
	movups	(%r13), %xmm3
	movups	16(%r13), %xmm4
	movaps	%xmm3, 128(%rsp)
	movaps	%xmm4, 144(%rsp)
	shrq	$8, %rcx
	movaps	.LCPI9_4(%rip), %xmm3
	movaps	%xmm3, 32(%rsp)
	movaps	.LCPI9_5(%rip), %xmm3
	movaps	%xmm3, 48(%rsp)
	movabsq	$2820983053732684064, %rdx
	movq	%rdx, 64(%rsp)
	movb	$40, 72(%rsp)
	cmpb	$41, %cl
	jae	.LBB9_8
	andl	$63, %ecx
	cmpb	$35, 32(%rsp,%rcx)
	je	.LBB9_10
.LBB9_8:
	movaps	128(%rsp), %xmm3
	movaps	144(%rsp), %xmm4
	movaps	%xmm4, 16(%rsp)
	movaps	%xmm3, (%rsp)
	jmp	.LBB9_12
.LBB9_2:
	xorps	%xmm0, %xmm0
	movaps	%xmm0, 16(%rsp)
	movaps	%xmm0, (%rsp)
	xorl	%ecx, %ecx
	xorl	%eax, %eax
	xorps	%xmm1, %xmm1
	xorps	%xmm2, %xmm2
	jmp	.LBB9_13
.LBB9_11:
	leaq	.Lstatic.16(%rip), %rdx
	leaq	32(%rsp), %rdi
	movl	$43, %ecx
	movl	$22, %esi
	callq	"std_io::io::error::Error::from_static_message"
	movaps	32(%rsp), %xmm0
	movaps	48(%rsp), %xmm1
	movaps	64(%rsp), %xmm2
	movq	80(%rsp), %rax
	movups	104(%rsp), %xmm3
	movaps	%xmm3, 176(%rsp)
	movups	88(%rsp), %xmm4
	movaps	%xmm4, 160(%rsp)
	movaps	%xmm4, (%rsp)
	movaps	%xmm3, 16(%rsp)
	jmp	.LBB9_12
.LBB9_5:
	movaps	.LCPI9_0(%rip), %xmm0
	movaps	%xmm0, 16(%rsp)
	movaps	%xmm0, (%rsp)
	movaps	.LCPI9_1(%rip), %xmm2
	movaps	.LCPI9_2(%rip), %xmm1
	movaps	.LCPI9_3(%rip), %xmm0
	movabsq	$3327647950551526958, %rax
.LBB9_12:
	movb	$1, %cl
.LBB9_13:
	movb	%cl, (%rbx)
	movups	%xmm0, 8(%rbx)
	movups	%xmm1, 24(%rbx)
	movups	%xmm2, 40(%rbx)
	movq	%rax, 56(%rbx)
	movaps	(%rsp), %xmm0
	movaps	16(%rsp), %xmm1
	movups	%xmm0, 64(%rbx)
	movups	%xmm1, 80(%rbx)
	addq	$192, %rsp
	popq	%rbx
	popq	%r12
	popq	%r13
	popq	%r14
	popq	%r15
	retq
.Lfunc_end9:
	.size	"std::io::stdio::StdoutWrite::write_all", .Lfunc_end9-"std::io::stdio::StdoutWrite::write_all"

	.section	.rodata.cst16,"aM",@progbits,16
	.p2align	4, 0x0
.LCPI10_0:
	.zero	16,46
	.section	".text.std_io::io::error::Error::from_static_message","ax",@progbits
	.p2align	4
	.type	"std_io::io::error::Error::from_static_message",@function
"std_io::io::error::Error::from_static_message":
	pushq	%rbp
	pushq	%r15
	pushq	%r14
	pushq	%r13
	pushq	%r12
	pushq	%rbx
	subq	$80, %rsp
	movl	%esi, 12(%rsp)
	movabsq	$3314649325744685056, %rbx
	movabsq	$12947848928690176, %r14
	movabsq	$50577534877696, %r11
	movabsq	$197568495616, %r10
	movq	(%rdx), %rsi
	movq	%rsi, 72(%rsp)
	movl	8(%rdx), %esi
	movq	%rsi, 64(%rsp)
	movzbl	12(%rdx), %r15d
	movzbl	13(%rdx), %esi
	movq	%rsi, 48(%rsp)
	movzbl	14(%rdx), %esi
	movq	%rsi, 56(%rsp)
	movl	$3014656, %esi
	movq	%rsi, 24(%rsp)
	movb	$46, -105(%rsp)
	movl	$771751936, %esi
	movq	%rsi, 40(%rsp)
	movl	$11776, %esi
	movq	%rsi, 32(%rsp)
	cmpq	$15, %rcx
	movq	%rcx, -32(%rsp)
	jne	.LBB10_2
	movl	$11776, %eax
	movq	%rax, -96(%rsp)
	movq	%rbx, %r8
	movq	%r11, -56(%rsp)
	movl	$771751936, %ebp
	movq	%rax, -40(%rsp)
	movq	%rbx, %r9
	movq	%r11, -24(%rsp)
	movl	$771751936, %esi
	movq	%rbx, 16(%rsp)
	movb	$46, -121(%rsp)
	movl	$3014656, %eax
	movq	%rax, (%rsp)
	movq	%r10, %r12
	movq	%r14, %rcx
	movb	$46, -122(%rsp)
	movq	%rax, -48(%rsp)
	movb	$46, -123(%rsp)
	movq	%r10, %r13
	movq	%r14, %rax
	movl	$3014656, %edx
	movq	%rdx, -104(%rsp)
	movl	$11776, %edx
	jmp	.LBB10_21
.LBB10_2:
	movq	%r15, -80(%rsp)
	movzbl	15(%rdx), %r11d
	shlq	$56, %r11
	cmpq	$17, %rcx
	movq	%r11, 16(%rsp)
	jb	.LBB10_5
	movzbl	16(%rdx), %r12d
	movb	%r12b, -121(%rsp)
	jne	.LBB10_8
	movl	$11776, %eax
	movq	%rax, -96(%rsp)
	movq	%rbx, %r8
	movabsq	$50577534877696, %r11
	movq	%r11, -56(%rsp)
	movl	$771751936, %ebp
	movq	%rax, -40(%rsp)
	movq	%rbx, %r9
	movq	%r11, -24(%rsp)
	movl	$771751936, %esi
	movl	$11776, %edx
	jmp	.LBB10_6
.LBB10_5:
	movl	$11776, %eax
	movq	%rax, -96(%rsp)
	movq	%rbx, %r8
	movabsq	$50577534877696, %r11
	movq	%r11, -56(%rsp)
	movl	$771751936, %ebp
	movq	%rax, -40(%rsp)
	movq	%rbx, %r9
	movq	%r11, -24(%rsp)
	movl	$771751936, %esi
	movl	$11776, %edx
	movb	$46, -121(%rsp)
.LBB10_6:
	movl	$3014656, %eax
	movq	%rax, (%rsp)
	movq	%r10, %r12
	movb	$46, -122(%rsp)
	movq	%rax, -48(%rsp)
	movq	%r10, %r13
	movb	$46, -123(%rsp)
	movq	%r14, %rax
	movl	$3014656, %ecx
	movq	%rcx, -104(%rsp)
	movq	%r14, %rcx
.LBB10_7:
	movq	-80(%rsp), %r15
	jmp	.LBB10_21
.LBB10_8:
	movzbl	17(%rdx), %esi
	shll	$8, %esi
	movq	%rsi, -120(%rsp)
	cmpq	$19, %rcx
	movq	-80(%rsp), %r15
	jb	.LBB10_11
	movzbl	18(%rdx), %r13d
	shll	$16, %r13d
	cmpq	$19, %rcx
	movq	%r13, (%rsp)
	jne	.LBB10_12
	movl	$11776, %eax
	movq	%rax, -96(%rsp)
	movq	%rbx, %r8
	movabsq	$50577534877696, %r11
	movq	%r11, -56(%rsp)
	movl	$771751936, %ebp
	movq	%rax, -40(%rsp)
	movq	%rbx, %r9
	movq	%r11, -24(%rsp)
	movl	$771751936, %esi
	jmp	.LBB10_16
.LBB10_11:
	movl	$11776, %eax
	movq	%rax, -96(%rsp)
	movq	%rbx, %r8
	movabsq	$50577534877696, %r11
	movq	%r11, -56(%rsp)
	movl	$771751936, %ebp
	movq	%rax, -40(%rsp)
	movq	%rbx, %r9
	movq	%r11, -24(%rsp)
	movl	$771751936, %esi
	movl	$3014656, %eax
	movq	%rax, (%rsp)
	movq	%r10, %r12
	movb	$46, -122(%rsp)
	jmp	.LBB10_18
.LBB10_12:
	movzbl	19(%rdx), %esi
	shll	$24, %esi
	cmpq	$21, %rcx
	jb	.LBB10_15
	movzbl	20(%rdx), %r12d
	shlq	$32, %r12
	cmpq	$21, %rcx
	jne	.LBB10_22
	movl	$11776, %eax
	movq	%rax, -96(%rsp)
	movq	%rbx, %r8
	movabsq	$50577534877696, %r11
	movq	%r11, -56(%rsp)
	movl	$771751936, %ebp
	movq	%rax, -40(%rsp)
	movq	%rbx, %r9
	movq	%r11, -24(%rsp)
	jmp	.LBB10_17
.LBB10_15:
	movl	$11776, %eax
	movq	%rax, -96(%rsp)
	movq	%rbx, %r8
	movabsq	$50577534877696, %r11
	movq	%r11, -56(%rsp)
	movl	$771751936, %ebp
	movq	%rax, -40(%rsp)
	movq	%rbx, %r9
	movq	%r11, -24(%rsp)
.LBB10_16:
	movq	%r10, %r12
.LBB10_17:
	movb	$46, -122(%rsp)
	movl	$3014656, %eax
.LBB10_18:
	movq	%rax, -48(%rsp)
.LBB10_19:
	movq	%r10, %r13
	movq	%r14, %rax
	movb	$46, -123(%rsp)
	movl	$3014656, %ecx
	movq	%rcx, -104(%rsp)
	movq	%r14, %rcx
.LBB10_20:
	movq	-120(%rsp), %rdx
.LBB10_21:
	orq	%rcx, %r12
	orq	%rdx, %rsi
	orq	-24(%rsp), %r9
	orq	%rsi, %r9
	orq	%rax, %r13
	orq	-40(%rsp), %rbp
	orq	-56(%rsp), %r8
	orq	%rbp, %r8
	orq	%r14, %r10
	movq	40(%rsp), %rdx
	orq	-96(%rsp), %rdx
	orq	%r11, %rbx
	orq	%rdx, %rbx
	movq	32(%rsp), %rsi
	orq	24(%rsp), %rsi
	shlq	$32, %r15
	addq	64(%rsp), %r15
	movq	48(%rsp), %rcx
	shlq	$40, %rcx
	orq	%rcx, %r15
	movq	56(%rsp), %rcx
	shlq	$48, %rcx
	orq	%rcx, %r15
	orq	16(%rsp), %r15
	movzbl	-105(%rsp), %edx
	orq	%rsi, %rdx
	movzbl	-123(%rsp), %ecx
	orq	-104(%rsp), %rcx
	orq	%rbx, %rcx
	orq	%r10, %rcx
	movzbl	-122(%rsp), %eax
	orq	-48(%rsp), %rax
	orq	%r8, %rax
	orq	%r13, %rax
	movzbl	-121(%rsp), %esi
	orq	(%rsp), %rsi
	orq	%r9, %rsi
	orq	%r12, %rsi
	movabsq	$3327647950548500480, %r9
	orq	%rdx, %r9
	movb	$2, (%rdi)
	movl	12(%rsp), %edx
	movb	%dl, 1(%rdi)
	movq	-32(%rsp), %rdx
	movb	%dl, 2(%rdi)
	movb	$0, 3(%rdi)
	movl	$0, 4(%rdi)
	movq	72(%rsp), %rdx
	movq	%rdx, 8(%rdi)
	movq	%r15, 16(%rdi)
	movq	%rsi, 24(%rdi)
	movq	%rax, 32(%rdi)
	movq	%rcx, 40(%rdi)
	movq	%r9, 48(%rdi)
	movaps	.LCPI10_0(%rip), %xmm0
	movups	%xmm0, 56(%rdi)
	movups	%xmm0, 72(%rdi)
	addq	$80, %rsp
	popq	%rbx
	popq	%r12
	popq	%r13
	popq	%r14
	popq	%r15
	popq	%rbp
	retq
.LBB10_22:
	movzbl	21(%rdx), %r10d
	shlq	$40, %r10
	cmpq	$23, %rcx
	movq	%r10, -24(%rsp)
	jb	.LBB10_25
	movzbl	22(%rdx), %eax
	shlq	$48, %rax
	cmpq	$23, %rcx
	jne	.LBB10_26
	movl	$11776, %ecx
	movq	%rcx, -96(%rsp)
	movq	%rbx, %r8
	movabsq	$50577534877696, %r11
	movq	%r11, -56(%rsp)
	movl	$771751936, %ebp
	movq	%rax, %rdx
	movl	$11776, %eax
	movq	%rax, -40(%rsp)
	movq	%rbx, %r9
	jmp	.LBB10_30
.LBB10_25:
	movl	$11776, %eax
	movq	%rax, -96(%rsp)
	movq	%rbx, %r8
	movabsq	$50577534877696, %r11
	movq	%r11, -56(%rsp)
	movl	$771751936, %ebp
	movq	%rax, -40(%rsp)
	movq	%rbx, %r9
	movb	$46, -122(%rsp)
	movl	$3014656, %eax
	movq	%rax, -48(%rsp)
	movabsq	$197568495616, %r10
	jmp	.LBB10_19
.LBB10_26:
	movzbl	23(%rdx), %r9d
	shlq	$56, %r9
	cmpq	$25, %rcx
	jb	.LBB10_29
	movq	%rax, -88(%rsp)
	movzbl	24(%rdx), %r8d
	movb	%r8b, -122(%rsp)
	jne	.LBB10_31
	movl	$11776, %eax
	movq	%rax, -96(%rsp)
	movq	%rbx, %r8
	movabsq	$50577534877696, %r11
	movq	%r11, -56(%rsp)
	movl	$771751936, %ebp
	movq	%rax, -40(%rsp)
	jmp	.LBB10_35
.LBB10_29:
	movl	$11776, %ecx
	movq	%rcx, -96(%rsp)
	movq	%rbx, %r8
	movabsq	$50577534877696, %r11
	movq	%r11, -56(%rsp)
	movl	$771751936, %ebp
	movq	%rax, %rdx
	movl	$11776, %eax
	movq	%rax, -40(%rsp)
.LBB10_30:
	movb	$46, -122(%rsp)
	movl	$3014656, %eax
	movq	%rax, -48(%rsp)
	movabsq	$197568495616, %r10
	movq	%r10, %r13
	movq	%r14, %rax
	movb	$46, -123(%rsp)
	movl	$3014656, %ecx
	movq	%rcx, -104(%rsp)
	movq	%rdx, %rcx
	jmp	.LBB10_20
.LBB10_31:
	movzbl	25(%rdx), %eax
	shll	$8, %eax
	cmpq	$27, %rcx
	movq	%rax, -40(%rsp)
	jb	.LBB10_34
	movq	%rsi, -72(%rsp)
	movzbl	26(%rdx), %esi
	shll	$16, %esi
	cmpq	$27, %rcx
	movq	%rsi, -48(%rsp)
	jne	.LBB10_36
	movl	$11776, %ecx
	movq	%rcx, -96(%rsp)
	movq	%rbx, %r8
	movabsq	$50577534877696, %r11
	movq	%r11, -56(%rsp)
	movl	$771751936, %ebp
	movabsq	$197568495616, %r10
	movq	%r10, %r13
	movq	%r14, %rax
	movb	$46, -123(%rsp)
	movl	$3014656, %ecx
	movq	%rcx, -104(%rsp)
	movq	-120(%rsp), %rdx
	movq	-72(%rsp), %rsi
	movq	-88(%rsp), %rcx
	jmp	.LBB10_21
.LBB10_34:
	movl	$11776, %ecx
	movq	%rcx, -96(%rsp)
	movq	%rbx, %r8
	movabsq	$50577534877696, %r11
	movq	%r11, -56(%rsp)
	movl	$771751936, %ebp
.LBB10_35:
	movl	$3014656, %eax
	movq	%rax, -48(%rsp)
	movabsq	$197568495616, %r10
	movq	%r10, %r13
	movq	%r14, %rax
	movb	$46, -123(%rsp)
	movl	$3014656, %ecx
	movq	%rcx, -104(%rsp)
	movq	-120(%rsp), %rdx
	movq	-88(%rsp), %rcx
	jmp	.LBB10_21
.LBB10_36:
	movzbl	27(%rdx), %eax
	shll	$24, %eax
	movq	%rax, -64(%rsp)
	cmpq	$29, %rcx
	jb	.LBB10_39
	movzbl	28(%rdx), %r13d
	shlq	$32, %r13
	cmpq	$29, %rcx
	jne	.LBB10_40
	movl	$11776, %eax
	movq	%rax, -96(%rsp)
	movq	%rbx, %r8
	movabsq	$50577534877696, %r11
	movq	%r11, -56(%rsp)
	movq	%r14, %rax
	movb	$46, -123(%rsp)
	movl	$3014656, %ecx
	movq	%rcx, -104(%rsp)
	jmp	.LBB10_47
.LBB10_39:
	movl	$11776, %eax
	movq	%rax, -96(%rsp)
	movq	%rbx, %r8
	movabsq	$50577534877696, %r11
	movq	%r11, -56(%rsp)
	movabsq	$197568495616, %r10
	movq	%r10, %r13
	movq	%r14, %rax
	movb	$46, -123(%rsp)
	movl	$3014656, %ecx
	movq	%rcx, -104(%rsp)
	movq	-120(%rsp), %rdx
	movq	-72(%rsp), %rsi
	movq	-64(%rsp), %rbp
	movq	-88(%rsp), %rcx
	jmp	.LBB10_21
.LBB10_40:
	movzbl	29(%rdx), %ecx
	shlq	$40, %rcx
	movq	%rcx, -56(%rsp)
	cmpq	$31, -32(%rsp)
	jb	.LBB10_43
	movzbl	30(%rdx), %eax
	shlq	$48, %rax
	cmpq	$31, -32(%rsp)
	jne	.LBB10_49
	movl	$11776, %ecx
	movq	%rcx, -96(%rsp)
	movq	%rbx, %r8
	jmp	.LBB10_44
.LBB10_43:
	movl	$11776, %eax
	movq	%rax, -96(%rsp)
	movq	%rbx, %r8
	movq	%r14, %rax
.LBB10_44:
	movb	$46, -123(%rsp)
.LBB10_45:
	movl	$3014656, %ecx
	movq	%rcx, -104(%rsp)
.LBB10_46:
	movabsq	$50577534877696, %r11
.LBB10_47:
	movq	-120(%rsp), %rdx
	movq	-72(%rsp), %rsi
	movabsq	$197568495616, %r10
.LBB10_48:
	movq	-64(%rsp), %rbp
	movq	-88(%rsp), %rcx
	jmp	.LBB10_7
.LBB10_49:
	movzbl	31(%rdx), %r8d
	shlq	$56, %r8
	cmpq	$33, -32(%rsp)
	jb	.LBB10_52
	movzbl	32(%rdx), %ecx
	movb	%cl, -123(%rsp)
	jne	.LBB10_53
	movl	$11776, %ecx
	movq	%rcx, -96(%rsp)
	jmp	.LBB10_45
.LBB10_52:
	movl	$11776, %ecx
	movq	%rcx, -96(%rsp)
	jmp	.LBB10_44
.LBB10_53:
	movzbl	33(%rdx), %ecx
	shll	$8, %ecx
	movq	%rcx, -96(%rsp)
	cmpq	$35, -32(%rsp)
	jb	.LBB10_45
	movzbl	34(%rdx), %ecx
	shll	$16, %ecx
	movq	%rcx, -104(%rsp)
	cmpq	$35, -32(%rsp)
	je	.LBB10_46
	movzbl	35(%rdx), %ecx
	shll	$24, %ecx
	movq	%rcx, 40(%rsp)
	cmpq	$37, -32(%rsp)
	jb	.LBB10_46
	movzbl	36(%rdx), %r10d
	shlq	$32, %r10
	cmpq	$37, -32(%rsp)
	jne	.LBB10_58
	movabsq	$50577534877696, %r11
	jmp	.LBB10_66
.LBB10_58:
	movzbl	37(%rdx), %ecx
	shlq	$40, %rcx
	movq	%rcx, -16(%rsp)
	cmpq	$39, -32(%rsp)
	jb	.LBB10_65
	movzbl	38(%rdx), %ecx
	shlq	$48, %rcx
	movq	%rcx, -8(%rsp)
	cmpq	$39, -32(%rsp)
	je	.LBB10_64
	movzbl	39(%rdx), %ebx
	shlq	$56, %rbx
	cmpq	$41, -32(%rsp)
	jb	.LBB10_64
	movzbl	40(%rdx), %ecx
	movb	%cl, -105(%rsp)
	je	.LBB10_64
	movzbl	41(%rdx), %ecx
	shll	$8, %ecx
	movq	%rcx, 32(%rsp)
	cmpq	$43, -32(%rsp)
	jb	.LBB10_64
	movzbl	42(%rdx), %ecx
	shll	$16, %ecx
	movq	%rcx, 24(%rsp)
.LBB10_64:
	movq	-16(%rsp), %r11
	movq	-8(%rsp), %r14
	jmp	.LBB10_66
.LBB10_65:
	movq	-16(%rsp), %r11
.LBB10_66:
	movq	-120(%rsp), %rdx
	movq	-72(%rsp), %rsi
	jmp	.LBB10_48
.Lfunc_end10:
	.size	"std_io::io::error::Error::from_static_message", .Lfunc_end10-"std_io::io::error::Error::from_static_message"

	.section	.rodata.cst16,"aM",@progbits,16
	.p2align	4, 0x0
.LCPI11_0:
	.zero	16,46
.LCPI11_1:
	.quad	8458358670138239095
	.quad	3327647951695996518
.LCPI11_2:
	.quad	8367798494427701606
	.quad	2334399978102268015
.LCPI11_3:
	.byte	2
	.byte	23
	.byte	28
	.byte	0
	.zero	1
	.zero	1
	.zero	1
	.zero	1
	.zero	1
	.zero	1
	.zero	1
	.zero	1
	.zero	1
	.zero	1
	.zero	1
	.zero	1
.LCPI11_4:
	.byte	0
	.byte	35
	.byte	0
	.byte	0
	.zero	1
	.zero	1
	.zero	1
	.zero	1
	.zero	1
	.zero	1
	.zero	1
	.zero	1
	.zero	1
	.zero	1
	.zero	1
	.zero	1
.LCPI11_5:
	.byte	0
	.byte	35
	.byte	0
	.byte	0
	.byte	0
	.byte	0
	.byte	0
	.byte	0
	.byte	0
	.byte	0
	.byte	0
	.byte	0
	.byte	0
	.byte	0
	.byte	0
	.byte	0
.LCPI11_6:
	.byte	2
	.byte	23
	.byte	28
	.byte	0
	.byte	0
	.byte	0
	.byte	0
	.byte	0
	.byte	0
	.byte	0
	.byte	0
	.byte	0
	.byte	0
	.byte	0
	.byte	0
	.byte	0
	.section	".text.std_io::io::buffer::Buffer::flush","ax",@progbits
	.p2align	4
	.type	"std_io::io::buffer::Buffer::flush",@function
"std_io::io::buffer::Buffer::flush":
	pushq	%rbp
	pushq	%r15
	pushq	%r14
	pushq	%r13
	pushq	%r12
	pushq	%rbx
	subq	$120, %rsp
	movq	1032(%rdi), %r15
	movq	$0, 1032(%rdi)
	cmpq	$1025, %r15
	jae	.LBB11_15
	movq	%rdi, %rbx
	movl	(%rdi), %ebp
	movq	$-64, %r12
	xorl	%r13d, %r13d
	jmp	.LBB11_4
	.p2align	4
.LBB11_2:
	callq	rattle_errno@PLT
	cmpl	$4, %eax
	jne	.LBB11_13
	incq	%r12
	cmpq	%r12, %r15
	je	.LBB11_8
.LBB11_4:
	movq	%r15, %r14
	subq	%r13, %r14
	jbe	.LBB11_10
	leaq	4(%rbx), %rax
	leaq	(%rax,%r13), %rsi
	movl	%ebp, %edi
	movq	%r14, %rdx
	callq	write@PLT
	testq	%rax, %rax
	js	.LBB11_2
	je	.LBB11_11
	cmpq	%r14, %rax
	cmovbq	%rax, %r14
	addq	%r14, %r13
	incq	%r12
	cmpq	%r12, %r15
	jne	.LBB11_4
.LBB11_8:
	cmpq	%r13, %r15
	jbe	.LBB11_10
	xorps	%xmm0, %xmm0
	movaps	%xmm0, 16(%rsp)
	movaps	%xmm0, (%rsp)
	movss	.LCPI11_5(%rip), %xmm1
	movl	$4, %eax
	xorps	%xmm3, %xmm3
	xorps	%xmm2, %xmm2
	jmp	.LBB11_14
.LBB11_10:
	movb	$1, %al
	jmp	.LBB11_16
.LBB11_11:
	movaps	.LCPI11_0(%rip), %xmm2
	movaps	%xmm2, 16(%rsp)
	movaps	%xmm2, (%rsp)
	movaps	.LCPI11_1(%rip), %xmm3
	movaps	.LCPI11_2(%rip), %xmm0
	movss	.LCPI11_6(%rip), %xmm1
	xorl	%eax, %eax
	jmp	.LBB11_14
.LBB11_13:
	leaq	32(%rsp), %rdi
	movl	%eax, %esi
	callq	"std_io::io::error::Error::from_raw_os_error"
	movsd	32(%rsp), %xmm1
	movl	36(%rsp), %eax
	movups	40(%rsp), %xmm0
	movups	56(%rsp), %xmm3
	movups	72(%rsp), %xmm2
	movups	88(%rsp), %xmm4
	movaps	%xmm4, (%rsp)
	movups	104(%rsp), %xmm4
	movaps	%xmm4, 16(%rsp)
.LBB11_14:
	movq	$1, 1040(%rbx)
	movss	%xmm1, 1048(%rbx)
	movl	%eax, 1052(%rbx)
	movups	%xmm0, 1056(%rbx)
	movups	%xmm3, 1072(%rbx)
	movups	%xmm2, 1088(%rbx)
	movaps	(%rsp), %xmm0
	movaps	16(%rsp), %xmm1
	movups	%xmm0, 1104(%rbx)
	movups	%xmm1, 1120(%rbx)
.LBB11_15:
	xorl	%eax, %eax
.LBB11_16:
	addq	$120, %rsp
	popq	%rbx
	popq	%r12
	popq	%r13
	popq	%r14
	popq	%r15
	popq	%rbp
	retq
.Lfunc_end11:
	.size	"std_io::io::buffer::Buffer::flush", .Lfunc_end11-"std_io::io::buffer::Buffer::flush"

	.section	".text.unlikely.core::fmt::formatter::Formatter::write_indented::<#bf264aed5fa78656>","ax",@progbits
	.p2align	4
	.type	"core::fmt::formatter::Formatter::write_indented::<#bf264aed5fa78656>",@function
"core::fmt::formatter::Formatter::write_indented::<#bf264aed5fa78656>":
	pushq	%rbp
	pushq	%r15
	pushq	%r14
	pushq	%r13
	pushq	%r12
	pushq	%rbx
	pushq	%rax
	testq	%rdx, %rdx
	je	.LBB12_1
	movq	%rsi, %r14
	movq	%rdi, %r15
	xorl	%ecx, %ecx
	xorl	%ebp, %ebp
	movq	%rdx, (%rsp)
	jmp	.LBB12_3
	.p2align	4
.LBB12_7:
	addq	%r14, %r13
	movb	$1, 1168(%r15)
	movq	%r15, %rdi
	movq	%r13, %rsi
	movq	%r12, %rdx
	callq	"core::fmt::formatter::Formatter::write_raw::<#bf264aed5fa78656>"
	movq	%rbp, %rcx
	testb	%al, %al
	movq	(%rsp), %rdx
	jne	.LBB12_17
.LBB12_8:
	cmpq	%rdx, %rbp
	je	.LBB12_9
.LBB12_3:
	movq	%rbp, %rax
	incq	%rbp
	cmpb	$10, (%r14,%rax)
	jne	.LBB12_8
	xorl	%r13d, %r13d
	movq	%rbp, %r12
	subq	%rcx, %r12
	cmovaeq	%rcx, %r13
	cmpq	%rax, %rcx
	movq	%rbp, %rcx
	ja	.LBB12_8
	cmpb	$1, 1168(%r15)
	jne	.LBB12_7
	movq	1160(%r15), %rbx
	testq	%rbx, %rbx
	je	.LBB12_7
	.p2align	4
.LBB12_14:
	leaq	.Lstatic.13(%rip), %rsi
	movl	$4, %edx
	movq	%r15, %rdi
	callq	"core::fmt::formatter::Formatter::write_raw::<#bf264aed5fa78656>"
	testb	%al, %al
	jne	.LBB12_17
	decq	%rbx
	jne	.LBB12_14
	jmp	.LBB12_7
.LBB12_1:
	xorl	%eax, %eax
	jmp	.LBB12_18
.LBB12_9:
	xorl	%eax, %eax
	cmpq	%rdx, %rcx
	movq	%rcx, %r12
	cmovaq	%rax, %r12
	subq	%rcx, %rdx
	cmovbq	%rax, %rdx
	jbe	.LBB12_18
	movq	%rdx, %r13
	cmpb	$1, 1168(%r15)
	jne	.LBB12_12
	movq	1160(%r15), %rbx
	testq	%rbx, %rbx
	je	.LBB12_12
	.p2align	4
.LBB12_16:
	leaq	.Lstatic.13(%rip), %rsi
	movl	$4, %edx
	movq	%r15, %rdi
	callq	"core::fmt::formatter::Formatter::write_raw::<#bf264aed5fa78656>"
	testb	%al, %al
	jne	.LBB12_17
	decq	%rbx
	jne	.LBB12_16
.LBB12_12:
	addq	%r12, %r14
	movb	$0, 1168(%r15)
	movq	%r15, %rdi
	movq	%r14, %rsi
	movq	%r13, %rdx
	addq	$8, %rsp
	popq	%rbx
	popq	%r12
	popq	%r13
	popq	%r14
	popq	%r15
	popq	%rbp
	jmp	"core::fmt::formatter::Formatter::write_raw::<#bf264aed5fa78656>"
.LBB12_17:
	movb	$1, %al
.LBB12_18:
	addq	$8, %rsp
	popq	%rbx
	popq	%r12
	popq	%r13
	popq	%r14
	popq	%r15
	popq	%rbp
	retq
.Lfunc_end12:
	.size	"core::fmt::formatter::Formatter::write_indented::<#bf264aed5fa78656>", .Lfunc_end12-"core::fmt::formatter::Formatter::write_indented::<#bf264aed5fa78656>"

	.section	".text.core::fmt::formatter::Formatter::write_raw::<#bf264aed5fa78656>","ax",@progbits
	.p2align	4
	.type	"core::fmt::formatter::Formatter::write_raw::<#bf264aed5fa78656>",@function
"core::fmt::formatter::Formatter::write_raw::<#bf264aed5fa78656>":
	testq	%rdx, %rdx
	je	.LBB13_1
	pushq	%rbp
	pushq	%r15
	pushq	%r14
	pushq	%r12
	pushq	%rbx
	movq	%rdx, %rbx
	movq	%rsi, %r14
	movq	%rdi, %r15
	xorl	%ecx, %ecx
	jmp	.LBB13_4
	.p2align	4
.LBB13_19:
	addq	%rdi, %rcx
	cmpq	%rbx, %rcx
	jae	.LBB13_20
.LBB13_4:
	movzbl	(%r14,%rcx), %edx
	movl	$1, %edi
	testb	%dl, %dl
	jns	.LBB13_19
	leaq	1(%rcx), %rsi
	movb	$1, %al
	cmpq	%rsi, %rbx
	jbe	.LBB13_26
	movzbl	(%r14,%rsi), %esi
	testb	%sil, %sil
	jns	.LBB13_26
	movzbl	%sil, %edi
	cmpb	$-64, %sil
	movl	$192, %esi
	cmovbl	%edi, %esi
	cmpb	$-62, %dl
	jb	.LBB13_26
	movl	%esi, %edi
	andb	$127, %dil
	cmpb	$63, %dil
	ja	.LBB13_26
	movl	$2, %edi
	cmpb	$-32, %dl
	jb	.LBB13_19
	leaq	2(%rcx), %rdi
	cmpq	%rdi, %rbx
	jbe	.LBB13_26
	cmpb	$-65, (%r14,%rdi)
	jg	.LBB13_26
	andl	$127, %esi
	cmpb	$-17, %dl
	ja	.LBB13_16
	movl	%edx, %edi
	shll	$12, %edi
	shll	$6, %esi
	addl	%edi, %esi
	addl	$-917504, %esi
	cmpl	$2048, %esi
	jb	.LBB13_26
	movl	$3, %edi
	cmpl	$55296, %esi
	jb	.LBB13_19
	cmpb	$-18, %dl
	jae	.LBB13_19
	jmp	.LBB13_26
.LBB13_16:
	leaq	3(%rcx), %rdi
	cmpq	%rdi, %rbx
	jbe	.LBB13_26
	cmpb	$-65, (%r14,%rdi)
	jg	.LBB13_26
	shll	$18, %edx
	shll	$12, %esi
	addl	%esi, %edx
	addl	$-62980096, %edx
	movl	$4, %edi
	cmpl	$1048575, %edx
	jbe	.LBB13_19
	jmp	.LBB13_26
.LBB13_1:
	xorl	%eax, %eax
	retq
.LBB13_20:
	movq	1032(%r15), %rcx
	xorl	%r12d, %r12d
	jmp	.LBB13_21
	.p2align	4
.LBB13_24:
	movb	%bpl, 4(%r15,%rcx)
	incq	%rcx
	movq	%rcx, 1032(%r15)
	incq	%r12
	cmpq	%r12, %rbx
	je	.LBB13_25
.LBB13_21:
	movzbl	(%r14,%r12), %ebp
	cmpq	$1024, %rcx
	jb	.LBB13_24
	movq	%r15, %rdi
	callq	"std_io::io::buffer::Buffer::flush"
	movl	%eax, %ecx
	movb	$1, %al
	testb	%cl, %cl
	je	.LBB13_26
	movq	1032(%r15), %rcx
	cmpq	$1023, %rcx
	jbe	.LBB13_24
	jmp	.LBB13_26
.LBB13_25:
	xorl	%eax, %eax
.LBB13_26:
	popq	%rbx
	popq	%r12
	popq	%r14
	popq	%r15
	popq	%rbp
	retq
.Lfunc_end13:
	.size	"core::fmt::formatter::Formatter::write_raw::<#bf264aed5fa78656>", .Lfunc_end13-"core::fmt::formatter::Formatter::write_raw::<#bf264aed5fa78656>"

	.section	.rodata.cst16,"aM",@progbits,16
	.p2align	4, 0x0
.LCPI14_0:
	.quad	1
	.quad	3
	.section	.text.main,"ax",@progbits
	.globl	main
	.p2align	4
	.type	main,@function
main:
	pushq	%rbp
	pushq	%r15
	pushq	%r14
	pushq	%r13
	pushq	%r12
	pushq	%rbx
	movq	%rsp, %r11
	subq	$353280, %r11
.LBB14_1:
	subq	$3072, %rsp
	movq	$0, (%rsp)
	cmpq	%r11, %rsp
	jne	.LBB14_1
	subq	$424, %rsp
	movl	$1, %esi
	movl	$13, %edi
	callq	__sysv_signal@PLT
	leaq	26016(%rsp), %rdi
	xorl	%ebx, %ebx
	movl	$65537, %edx
	xorl	%esi, %esi
	callq	memset@PLT
	.p2align	4
.LBB14_3:
	leaq	(%rsp,%rbx), %rsi
	addq	$26016, %rsi
	movl	$65537, %r14d
	subq	%rbx, %r14
	xorl	%edi, %edi
	movq	%r14, %rdx
	callq	read@PLT
	testq	%rax, %rax
	js	.LBB14_8
	je	.LBB14_6
	cmpq	%r14, %rax
	cmovbq	%rax, %r14
	addq	%r14, %rbx
	cmpq	$65537, %rbx
	jb	.LBB14_3
.LBB14_6:
	movq	%rax, 664(%rsp)
	leaq	91560(%rsp), %rdi
	movl	$262144, %edx
	xorl	%esi, %esi
	callq	memset@PLT
	pxor	%xmm0, %xmm0
	movdqa	%xmm0, 1280(%rsp)
	movdqa	%xmm0, 1296(%rsp)
	movdqa	%xmm0, 400(%rsp)
	movdqa	%xmm0, 416(%rsp)
	movdqa	%xmm0, 1248(%rsp)
	movdqa	%xmm0, 1264(%rsp)
	movdqa	%xmm0, 1216(%rsp)
	movdqa	%xmm0, 1232(%rsp)
	movdqa	%xmm0, 1184(%rsp)
	movdqa	%xmm0, 1200(%rsp)
	movdqa	%xmm0, 800(%rsp)
	movdqa	%xmm0, 816(%rsp)
	movdqa	%xmm0, 784(%rsp)
	movdqa	%xmm0, 768(%rsp)
	movdqa	%xmm0, 752(%rsp)
	movdqa	%xmm0, 736(%rsp)
	movdqa	%xmm0, 720(%rsp)
	movdqa	%xmm0, 704(%rsp)
	movdqa	%xmm0, 928(%rsp)
	movdqa	%xmm0, 944(%rsp)
	movdqa	%xmm0, 896(%rsp)
	movdqa	%xmm0, 912(%rsp)
	movdqa	%xmm0, 864(%rsp)
	movdqa	%xmm0, 880(%rsp)
	movdqa	%xmm0, 832(%rsp)
	movdqa	%xmm0, 848(%rsp)
	movdqa	%xmm0, 1408(%rsp)
	movdqa	%xmm0, 1424(%rsp)
	movdqa	%xmm0, 1376(%rsp)
	movdqa	%xmm0, 1392(%rsp)
	movdqa	%xmm0, 1344(%rsp)
	movdqa	%xmm0, 1360(%rsp)
	movdqa	%xmm0, 1328(%rsp)
	movdqa	%xmm0, 1312(%rsp)
	cmpq	$65537, %rbx
	jb	.LBB14_9
	movdqa	%xmm0, 816(%rsp)
	movdqa	%xmm0, 800(%rsp)
	movdqa	%xmm0, 768(%rsp)
	movdqa	%xmm0, 784(%rsp)
	movdqa	%xmm0, 736(%rsp)
	movdqa	%xmm0, 752(%rsp)
	movdqa	%xmm0, 704(%rsp)
	movdqa	%xmm0, 720(%rsp)
	movq	$0, 8(%rsp)
	movq	$0, 32(%rsp)
	movq	$0, 40(%rsp)
	xorl	%r11d, %r11d
	xorl	%edi, %edi
	xorl	%esi, %esi
	movq	$0, 16(%rsp)
	movq	$0, 112(%rsp)
	movq	$0, 176(%rsp)
	movq	$0, 160(%rsp)
	xorl	%edx, %edx
	movq	$0, 136(%rsp)
	movq	$0, 144(%rsp)
	movq	$0, 80(%rsp)
	xorl	%r13d, %r13d
	xorl	%r12d, %r12d
	xorl	%r14d, %r14d
	xorl	%r15d, %r15d
	xorl	%r8d, %r8d
	movq	$0, 88(%rsp)
	xorl	%r10d, %r10d
	xorl	%eax, %eax
	movq	$0, 64(%rsp)
	xorl	%r9d, %r9d
	movq	$0, 24(%rsp)
	xorl	%ecx, %ecx
	jmp	.LBB14_143
.LBB14_8:
	movq	%rax, 664(%rsp)
	callq	rattle_errno@PLT
	jmp	.LBB14_187
.LBB14_9:
	movdqa	%xmm0, 608(%rsp)
	movdqa	%xmm0, 624(%rsp)
	movdqa	%xmm0, 672(%rsp)
	movdqa	%xmm0, 688(%rsp)
	movdqa	%xmm0, 1120(%rsp)
	movdqa	%xmm0, 1136(%rsp)
	movdqa	%xmm0, 1088(%rsp)
	movdqa	%xmm0, 1104(%rsp)
	xorl	%r9d, %r9d
	movl	$3, %edx
	cmpq	$2, %rbx
	jb	.LBB14_141
	cmpb	$-1, 26016(%rsp)
	jne	.LBB14_141
	cmpb	$-40, 26017(%rsp)
	movl	$0, %eax
	movq	%rax, 24(%rsp)
	movl	$0, %ecx
	jne	.LBB14_142
	movq	%rbx, %rax
	notq	%rax
	addq	%rax, %rax
	movq	%rax, 136(%rsp)
	xorps	%xmm5, %xmm5
	movaps	%xmm5, 368(%rsp)
	movaps	%xmm5, 352(%rsp)
	movaps	%xmm5, 320(%rsp)
	movaps	%xmm5, 336(%rsp)
	movaps	%xmm5, 288(%rsp)
	movaps	%xmm5, 304(%rsp)
	movaps	%xmm5, 256(%rsp)
	movaps	%xmm5, 272(%rsp)
	movl	$2, %r9d
	movq	$0, 72(%rsp)
	movq	$0, 56(%rsp)
	xorl	%r11d, %r11d
	movq	$0, 40(%rsp)
	movq	$0, 32(%rsp)
	movq	$0, 8(%rsp)
	movq	$0, 16(%rsp)
	movq	$0, 80(%rsp)
	xorl	%eax, %eax
	pxor	%xmm6, %xmm6
	pxor	%xmm8, %xmm8
	pxor	%xmm7, %xmm7
	pxor	%xmm9, %xmm9
	movq	$0, 64(%rsp)
	xorl	%ecx, %ecx
	xorl	%edi, %edi
	xorl	%ebp, %ebp
	.p2align	4
.LBB14_13:
	movaps	%xmm5, 17824(%rsp)
	movaps	%xmm5, 17840(%rsp)
	movaps	%xmm5, 448(%rsp)
	movaps	%xmm5, 464(%rsp)
	movaps	%xmm5, 960(%rsp)
	movaps	%xmm5, 976(%rsp)
	movaps	%xmm5, 208(%rsp)
	movaps	%xmm5, 224(%rsp)
	cmpb	$2, %cl
	je	.LBB14_21
	movzbl	%cl, %ecx
	cmpl	$1, %ecx
	jne	.LBB14_23
	movq	%rdi, %rcx
	subq	%r9, %rcx
	jb	.LBB14_22
	je	.LBB14_27
	cmpq	$65, %rcx
	jb	.LBB14_22
	movzbl	26016(%rsp,%r9), %ecx
	cmpq	$3, %rcx
	ja	.LBB14_22
	movdqu	26017(%rsp,%r9), %xmm0
	movdqu	26033(%rsp,%r9), %xmm1
	movdqu	26049(%rsp,%r9), %xmm2
	movdqu	26065(%rsp,%r9), %xmm3
	pxor	%xmm4, %xmm4
	pcmpeqb	%xmm4, %xmm2
	pcmpeqb	%xmm4, %xmm0
	por	%xmm2, %xmm0
	pcmpeqb	%xmm4, %xmm3
	pcmpeqb	%xmm4, %xmm1
	por	%xmm3, %xmm1
	por	%xmm0, %xmm1
	pmovmskb	%xmm1, %edx
	testl	%edx, %edx
	jne	.LBB14_22
	movq	%rdi, 48(%rsp)
	movb	$1, 1448(%rsp)
	movl	%eax, 1449(%rsp)
	movq	%rax, %rdx
	shrq	$48, %rdx
	movb	%dl, 1455(%rsp)
	shrq	$32, %rax
	movw	%ax, 1453(%rsp)
	movq	64(%rsp), %rax
	movq	%rax, 1464(%rsp)
	movq	16(%rsp), %rax
	movq	%rax, 1472(%rsp)
	movq	8(%rsp), %rax
	movq	%rax, 1480(%rsp)
	movq	32(%rsp), %rax
	movq	%rax, 1488(%rsp)
	movq	40(%rsp), %rax
	movq	%rax, 1496(%rsp)
	movq	%r11, 1504(%rsp)
	movq	56(%rsp), %rax
	movq	%rax, 1512(%rsp)
	movq	72(%rsp), %rax
	movq	%rax, 1520(%rsp)
	movaps	352(%rsp), %xmm0
	movaps	368(%rsp), %xmm1
	leaq	1528(%rsp), %rdi
	movups	%xmm1, 16(%rdi)
	movups	%xmm0, (%rdi)
	movdqu	%xmm6, 1560(%rsp)
	movdqu	%xmm8, 1576(%rsp)
	movaps	320(%rsp), %xmm0
	movaps	336(%rsp), %xmm1
	leaq	1464(%rsp), %rsi
	movups	%xmm1, 144(%rsi)
	movups	%xmm0, 128(%rsi)
	movaps	288(%rsp), %xmm0
	movaps	304(%rsp), %xmm1
	movups	%xmm1, 176(%rsi)
	movups	%xmm0, 160(%rsi)
	movaps	256(%rsp), %xmm0
	movaps	272(%rsp), %xmm1
	movups	%xmm1, 208(%rsi)
	movups	%xmm0, 192(%rsi)
	movdqu	%xmm7, 1688(%rsp)
	movdqu	%xmm9, 1704(%rsp)
	leaq	65(%r9), %rdx
	incq	%r9
	movq	%r9, 1464(%rsp,%rcx,8)
	movq	1448(%rsp), %rax
	movq	%rax, 24(%rsp)
	movq	1464(%rsp), %rax
	movq	%rax, 64(%rsp)
	movq	1472(%rsp), %rax
	movq	%rax, 16(%rsp)
	movq	1480(%rsp), %rax
	movq	%rax, 8(%rsp)
	movq	1488(%rsp), %rax
	movq	%rax, 32(%rsp)
	movq	1496(%rsp), %rax
	movq	%rax, 40(%rsp)
	movq	1504(%rsp), %r11
	movq	1512(%rsp), %rax
	movq	%rax, 56(%rsp)
	movq	1520(%rsp), %rax
	movq	%rax, 72(%rsp)
	movups	(%rdi), %xmm0
	movups	16(%rdi), %xmm1
	movaps	%xmm1, 17840(%rsp)
	movaps	%xmm0, 17824(%rsp)
	movdqu	1560(%rsp), %xmm6
	movdqu	1576(%rsp), %xmm8
	movups	128(%rsi), %xmm0
	movups	144(%rsi), %xmm1
	movaps	%xmm0, 448(%rsp)
	movaps	%xmm1, 464(%rsp)
	movups	160(%rsi), %xmm0
	movups	176(%rsi), %xmm1
	movaps	%xmm0, 960(%rsp)
	movaps	%xmm1, 976(%rsp)
	movdqu	192(%rsi), %xmm0
	movdqu	208(%rsi), %xmm1
	movdqa	%xmm1, 224(%rsp)
	movdqa	%xmm0, 208(%rsp)
	movdqu	1688(%rsp), %xmm7
	movdqu	1704(%rsp), %xmm9
	xorl	%eax, %eax
	xorl	%ecx, %ecx
	movq	%rdx, %r9
	jmp	.LBB14_28
	.p2align	4
.LBB14_21:
	movq	%rdi, %rsi
	subq	%r9, %rsi
	jae	.LBB14_26
.LBB14_22:
	pxor	%xmm6, %xmm6
	movdqa	%xmm6, 17840(%rsp)
	movdqa	%xmm6, 17824(%rsp)
	movdqa	%xmm6, 448(%rsp)
	movdqa	%xmm6, 464(%rsp)
	movdqa	%xmm6, 960(%rsp)
	movdqa	%xmm6, 976(%rsp)
	movdqa	%xmm6, 208(%rsp)
	movdqa	%xmm6, 224(%rsp)
	movb	$3, %cl
	movb	$1, %al
	movq	$0, 72(%rsp)
	movq	$0, 56(%rsp)
	xorl	%r11d, %r11d
	movq	$0, 40(%rsp)
	movq	$0, 32(%rsp)
	movq	$0, 8(%rsp)
	movq	$0, 16(%rsp)
	movq	$0, 64(%rsp)
	xorl	%r9d, %r9d
	movq	$0, 24(%rsp)
	movq	$0, 48(%rsp)
	pxor	%xmm8, %xmm8
	pxor	%xmm7, %xmm7
	pxor	%xmm9, %xmm9
	jmp	.LBB14_28
	.p2align	4
.LBB14_23:
	movq	%r9, 9632(%rsp)
	movb	$0, 9640(%rsp)
	movl	%eax, 9641(%rsp)
	movq	%rax, %rcx
	shrq	$48, %rcx
	movb	%cl, 9647(%rsp)
	shrq	$32, %rax
	movw	%ax, 9645(%rsp)
	movq	%rdi, 9648(%rsp)
	movq	64(%rsp), %rax
	movq	%rax, 9656(%rsp)
	movq	16(%rsp), %rax
	movq	%rax, 9664(%rsp)
	movq	8(%rsp), %rax
	movq	%rax, 9672(%rsp)
	movq	32(%rsp), %rax
	movq	%rax, 9680(%rsp)
	movq	40(%rsp), %rax
	movq	%rax, 9688(%rsp)
	movq	%r11, 104(%rsp)
	movq	%r11, 9696(%rsp)
	movq	56(%rsp), %rax
	movq	%rax, 9704(%rsp)
	movq	72(%rsp), %rax
	movq	%rax, %r15
	movq	%rax, 9712(%rsp)
	movaps	352(%rsp), %xmm0
	movaps	368(%rsp), %xmm1
	leaq	9784(%rsp), %rax
	movups	%xmm1, -48(%rax)
	movups	%xmm0, -64(%rax)
	movdqa	%xmm6, 112(%rsp)
	movdqu	%xmm6, 9752(%rsp)
	movdqa	%xmm8, 160(%rsp)
	movdqu	%xmm8, 9768(%rsp)
	movaps	320(%rsp), %xmm0
	movaps	336(%rsp), %xmm1
	movups	%xmm1, 16(%rax)
	movups	%xmm0, (%rax)
	movaps	288(%rsp), %xmm0
	movaps	304(%rsp), %xmm1
	movups	%xmm1, 48(%rax)
	movups	%xmm0, 32(%rax)
	movdqa	256(%rsp), %xmm0
	movdqa	272(%rsp), %xmm1
	movdqu	%xmm1, 80(%rax)
	movdqu	%xmm0, 64(%rax)
	movdqa	%xmm7, 176(%rsp)
	movdqu	%xmm7, 9880(%rsp)
	movdqa	%xmm9, 144(%rsp)
	movdqu	%xmm9, 9896(%rsp)
	leaq	1440(%rsp), %rdi
	movl	$384, %edx
	xorl	%esi, %esi
	movq	%r9, %r14
	callq	memset@PLT
	movq	%rbx, %rcx
	subq	%r14, %rcx
	cmpq	$2, %rcx
	jb	.LBB14_25
	movq	%r14, %r9
	cmpb	$-1, 26016(%rsp,%r14)
	je	.LBB14_35
.LBB14_25:
	pxor	%xmm0, %xmm0
	movdqa	%xmm0, 17840(%rsp)
	movdqa	%xmm0, 17824(%rsp)
	movdqa	%xmm0, 448(%rsp)
	movdqa	%xmm0, 464(%rsp)
	movdqa	%xmm0, 960(%rsp)
	movdqa	%xmm0, 976(%rsp)
	movdqa	%xmm0, 208(%rsp)
	movdqa	%xmm0, 224(%rsp)
	pxor	%xmm6, %xmm6
	movb	$3, %cl
	movb	$1, %al
	movq	$0, 72(%rsp)
	movq	$0, 56(%rsp)
	xorl	%r11d, %r11d
	movq	$0, 40(%rsp)
	movq	$0, 32(%rsp)
	movq	$0, 8(%rsp)
	movq	$0, 16(%rsp)
	xorl	%r13d, %r13d
	xorl	%r12d, %r12d
	xorl	%r14d, %r14d
	xorl	%r15d, %r15d
	xorl	%r8d, %r8d
	movq	$0, 88(%rsp)
	pxor	%xmm8, %xmm8
	pxor	%xmm7, %xmm7
	pxor	%xmm9, %xmm9
	xorl	%r10d, %r10d
	xorl	%edx, %edx
	xorl	%esi, %esi
	xorl	%edi, %edi
	movq	$0, 64(%rsp)
	xorl	%r9d, %r9d
	movq	$0, 24(%rsp)
	movq	$0, 48(%rsp)
	xorps	%xmm5, %xmm5
	jmp	.LBB14_29
.LBB14_26:
	jne	.LBB14_32
.LBB14_27:
	movaps	352(%rsp), %xmm0
	movaps	368(%rsp), %xmm1
	movaps	%xmm1, 17840(%rsp)
	movaps	%xmm0, 17824(%rsp)
	movaps	320(%rsp), %xmm0
	movaps	336(%rsp), %xmm1
	movaps	%xmm0, 448(%rsp)
	movaps	%xmm1, 464(%rsp)
	movaps	288(%rsp), %xmm0
	movaps	304(%rsp), %xmm1
	movaps	%xmm0, 960(%rsp)
	movaps	%xmm1, 976(%rsp)
	movdqa	256(%rsp), %xmm0
	movdqa	272(%rsp), %xmm1
	movdqa	%xmm0, 208(%rsp)
	movdqa	%xmm1, 224(%rsp)
	xorl	%eax, %eax
	xorl	%ecx, %ecx
	movq	$0, 24(%rsp)
	movq	$0, 48(%rsp)
.LBB14_28:
	xorl	%r13d, %r13d
	xorl	%r12d, %r12d
	xorl	%r14d, %r14d
	xorl	%r15d, %r15d
	xorl	%r8d, %r8d
	movq	$0, 88(%rsp)
	xorl	%r10d, %r10d
	xorl	%edx, %edx
	xorl	%esi, %esi
	xorl	%edi, %edi
.LBB14_29:
	movaps	17824(%rsp), %xmm0
	movaps	17840(%rsp), %xmm1
	movaps	%xmm1, 624(%rsp)
	movaps	%xmm0, 608(%rsp)
	movaps	448(%rsp), %xmm0
	movaps	464(%rsp), %xmm1
	movaps	%xmm0, 672(%rsp)
	movaps	%xmm1, 688(%rsp)
	movaps	960(%rsp), %xmm0
	movaps	976(%rsp), %xmm1
	movaps	%xmm0, 1120(%rsp)
	movaps	%xmm1, 1136(%rsp)
	movdqa	208(%rsp), %xmm0
	movaps	224(%rsp), %xmm1
	movdqa	%xmm0, 1088(%rsp)
	movaps	%xmm1, 1104(%rsp)
	testb	%al, %al
	jne	.LBB14_140
	pshufd	$238, %xmm9, %xmm0
	movq	%xmm0, %rbp
	movq	%xmm9, 80(%rsp)
	testb	%cl, %cl
	jne	.LBB14_157
	movq	24(%rsp), %rcx
	movq	%rcx, %rax
	shrq	$8, %rax
	movaps	608(%rsp), %xmm0
	movaps	624(%rsp), %xmm1
	movaps	%xmm1, 368(%rsp)
	movaps	%xmm0, 352(%rsp)
	movaps	672(%rsp), %xmm0
	movaps	688(%rsp), %xmm1
	movaps	%xmm0, 320(%rsp)
	movaps	%xmm1, 336(%rsp)
	movaps	1120(%rsp), %xmm0
	movaps	1136(%rsp), %xmm1
	movaps	%xmm0, 288(%rsp)
	movaps	%xmm1, 304(%rsp)
	movdqa	1088(%rsp), %xmm0
	movaps	1104(%rsp), %xmm1
	movdqa	%xmm0, 256(%rsp)
	movaps	%xmm1, 272(%rsp)
	movq	48(%rsp), %rdi
	jmp	.LBB14_13
.LBB14_32:
	leaq	(%rsp,%r9), %rdx
	addq	$26016, %rdx
	movzbl	(%rdx), %ecx
	movq	%rcx, 24(%rsp)
	cmpq	$2, %rsi
	movq	%r9, 192(%rsp)
	movq	%r11, 104(%rsp)
	movq	%rdi, 48(%rsp)
	jb	.LBB14_38
	movzbl	1(%rdx), %r10d
	movq	%r10, 88(%rsp)
	jne	.LBB14_71
	movq	$0, 112(%rsp)
	xorl	%ebp, %ebp
	xorl	%r15d, %r15d
	movq	$0, 144(%rsp)
	xorl	%r13d, %r13d
	movq	$0, 160(%rsp)
	movq	$0, 176(%rsp)
	jmp	.LBB14_39
.LBB14_35:
	movzbl	26017(%rsp,%r9), %eax
	cmpl	$217, %eax
	je	.LBB14_25
	cmpl	$255, %eax
	xorps	%xmm5, %xmm5
	jne	.LBB14_74
	incq	%r9
	movaps	352(%rsp), %xmm0
	movaps	368(%rsp), %xmm1
	movaps	%xmm1, 17840(%rsp)
	movaps	%xmm0, 17824(%rsp)
	movaps	320(%rsp), %xmm0
	movaps	336(%rsp), %xmm1
	movaps	%xmm0, 448(%rsp)
	movaps	%xmm1, 464(%rsp)
	movaps	288(%rsp), %xmm0
	movaps	304(%rsp), %xmm1
	movaps	%xmm0, 960(%rsp)
	movaps	%xmm1, 976(%rsp)
	movdqa	256(%rsp), %xmm0
	movdqa	272(%rsp), %xmm1
	movdqa	%xmm0, 208(%rsp)
	movdqa	%xmm1, 224(%rsp)
	xorl	%r13d, %r13d
	xorl	%r12d, %r12d
	xorl	%r14d, %r14d
	xorl	%r15d, %r15d
	xorl	%r8d, %r8d
	movq	$0, 88(%rsp)
	xorl	%r10d, %r10d
	xorl	%edx, %edx
	xorl	%esi, %esi
	xorl	%edi, %edi
	xorl	%eax, %eax
	xorl	%ecx, %ecx
	movq	$0, 24(%rsp)
	movq	$0, 48(%rsp)
	movq	104(%rsp), %r11
	movdqa	112(%rsp), %xmm6
	movdqa	176(%rsp), %xmm7
	movdqa	160(%rsp), %xmm8
	movdqa	144(%rsp), %xmm9
	jmp	.LBB14_29
.LBB14_38:
	movq	$0, 112(%rsp)
	xorl	%ebp, %ebp
	xorl	%r15d, %r15d
	movq	$0, 144(%rsp)
	xorl	%r13d, %r13d
	movq	$0, 160(%rsp)
	movq	$0, 176(%rsp)
	movq	$0, 88(%rsp)
.LBB14_39:
	movq	$0, 80(%rsp)
.LBB14_40:
	xorl	%r12d, %r12d
.LBB14_41:
	xorl	%ecx, %ecx
.LBB14_42:
	xorl	%r8d, %r8d
.LBB14_43:
	xorl	%r9d, %r9d
.LBB14_44:
	xorl	%r10d, %r10d
	xorl	%r11d, %r11d
	xorl	%edi, %edi
	cmpq	$17, %rsi
	jb	.LBB14_22
.LBB14_45:
	movq	24(%rsp), %r14
	andb	$-20, %r14b
	jne	.LBB14_22
	movzbl	%r9b, %r9d
	movzbl	%r8b, %r8d
	addq	%r9, %r8
	movzbl	%r10b, %r9d
	addq	%r9, %r8
	movzbl	%r11b, %r9d
	addq	%r9, %r8
	movzbl	80(%rsp), %r10d
	movzbl	88(%rsp), %r9d
	addq	%r10, %r9
	movzbl	%r12b, %r10d
	addq	%r10, %r9
	movzbl	%cl, %ecx
	addq	%rcx, %r9
	movzbl	160(%rsp), %ecx
	movzbl	%r13b, %r10d
	addq	%rcx, %r10
	movzbl	176(%rsp), %ecx
	addq	%rcx, %r10
	movzbl	144(%rsp), %ecx
	movzbl	%r15b, %r14d
	addq	%rcx, %r14
	movzbl	%bpl, %r11d
	movzbl	112(%rsp), %r15d
	leaq	(%r11,%r15), %rcx
	addq	%r14, %rcx
	addq	%r10, %rcx
	addq	%r9, %rcx
	addq	%r8, %rcx
	leaq	(%rdi,%rcx), %r12
	decq	%r12
	cmpq	$255, %r12
	ja	.LBB14_22
	addq	%rdi, %rcx
	addq	$17, %rcx
	cmpq	%rsi, %rcx
	ja	.LBB14_22
	movzbl	1(%rdx), %esi
	cmpq	$1, %rsi
	ja	.LBB14_22
	movzbl	2(%rdx), %r12d
	leaq	(%r12,%rsi,2), %rsi
	cmpq	$3, %rsi
	ja	.LBB14_22
	movzbl	3(%rdx), %r12d
	leaq	(%r12,%rsi,2), %rsi
	cmpq	$7, %rsi
	ja	.LBB14_22
	movzbl	4(%rdx), %r12d
	leaq	(%r12,%rsi,2), %rsi
	cmpq	$15, %rsi
	ja	.LBB14_22
	movzbl	5(%rdx), %r12d
	leaq	(%r12,%rsi,2), %rsi
	cmpq	$31, %rsi
	ja	.LBB14_22
	movzbl	6(%rdx), %r12d
	leaq	(%r12,%rsi,2), %rsi
	cmpq	$63, %rsi
	ja	.LBB14_22
	movzbl	7(%rdx), %r12d
	leaq	(%r12,%rsi,2), %rsi
	cmpq	$127, %rsi
	ja	.LBB14_22
	movzbl	8(%rdx), %r12d
	leaq	(%r12,%rsi,2), %rsi
	cmpq	$255, %rsi
	ja	.LBB14_22
	movzbl	9(%rdx), %r12d
	leaq	(%r12,%rsi,2), %rsi
	cmpq	$511, %rsi
	ja	.LBB14_22
	movzbl	10(%rdx), %r12d
	leaq	(%r12,%rsi,2), %rsi
	cmpq	$1023, %rsi
	ja	.LBB14_22
	movzbl	11(%rdx), %r12d
	leaq	(%r12,%rsi,2), %rsi
	cmpq	$2047, %rsi
	ja	.LBB14_22
	movzbl	12(%rdx), %r12d
	leaq	(%r12,%rsi,2), %rsi
	cmpq	$4095, %rsi
	ja	.LBB14_22
	movzbl	13(%rdx), %r12d
	leaq	(%r12,%rsi,2), %rsi
	cmpq	$8191, %rsi
	ja	.LBB14_22
	movzbl	14(%rdx), %r12d
	leaq	(%r12,%rsi,2), %rsi
	cmpq	$16383, %rsi
	ja	.LBB14_22
	movzbl	15(%rdx), %r12d
	leaq	(%r12,%rsi,2), %rsi
	cmpq	$32767, %rsi
	ja	.LBB14_22
	movzbl	16(%rdx), %r12d
	leaq	(%r12,%rsi,2), %rsi
	cmpq	$65535, %rsi
	ja	.LBB14_22
	addq	$17, %rdx
	pxor	%xmm0, %xmm0
	movdqa	%xmm0, 9872(%rsp)
	movdqa	%xmm0, 9856(%rsp)
	movdqa	%xmm0, 9840(%rsp)
	movdqa	%xmm0, 9824(%rsp)
	movdqa	%xmm0, 9808(%rsp)
	movdqa	%xmm0, 9792(%rsp)
	movdqa	%xmm0, 9776(%rsp)
	movdqa	%xmm0, 9760(%rsp)
	movdqa	%xmm0, 9744(%rsp)
	movdqa	%xmm0, 9728(%rsp)
	movdqa	%xmm0, 9712(%rsp)
	movdqa	%xmm0, 9696(%rsp)
	movdqa	%xmm0, 9680(%rsp)
	movdqa	%xmm0, 9664(%rsp)
	movdqa	%xmm0, 9648(%rsp)
	movdqa	%xmm0, 9632(%rsp)
	cmpb	$16, 24(%rsp)
	jae	.LBB14_131
	addq	%r15, %rdi
	addq	%r14, %rdi
	addq	%r10, %rdi
	addq	%r9, %rdi
	addq	%r11, %r8
	addq	%rdi, %r8
	xorl	%esi, %esi
.LBB14_66:
	movzbl	(%rdx,%rsi), %edi
	cmpq	$11, %rdi
	ja	.LBB14_137
	cmpb	$0, 9632(%rsp,%rdi)
	jne	.LBB14_137
	movb	$1, 9632(%rsp,%rdi)
	incq	%rsi
	cmpq	%rsi, %r8
	jne	.LBB14_66
.LBB14_69:
	movq	%rax, %rdx
	shrq	$48, %rdx
	movb	$2, 1448(%rsp)
	movb	%dl, 1455(%rsp)
	movl	%eax, 1449(%rsp)
	shrq	$32, %rax
	movw	%ax, 1453(%rsp)
	movq	64(%rsp), %rax
	movq	%rax, 1464(%rsp)
	movq	16(%rsp), %rax
	movq	%rax, 1472(%rsp)
	movq	8(%rsp), %rax
	movq	%rax, 1480(%rsp)
	movq	32(%rsp), %rax
	movq	%rax, 1488(%rsp)
	movq	40(%rsp), %rax
	movq	%rax, 1496(%rsp)
	movq	104(%rsp), %rax
	movq	%rax, 1504(%rsp)
	movq	56(%rsp), %rax
	movq	%rax, 1512(%rsp)
	movq	24(%rsp), %rdi
	movl	%edi, %edx
	movq	72(%rsp), %rax
	movq	%rax, 1520(%rsp)
	movq	192(%rsp), %rax
	incq	%rax
	shll	$3, %edi
	movaps	352(%rsp), %xmm0
	movaps	368(%rsp), %xmm1
	leaq	1528(%rsp), %rsi
	movups	%xmm1, 16(%rsi)
	movups	%xmm0, (%rsi)
	movdqu	%xmm6, 1560(%rsp)
	movdqu	%xmm8, 1576(%rsp)
	movaps	320(%rsp), %xmm0
	movaps	336(%rsp), %xmm1
	leaq	1464(%rsp), %rsi
	movups	%xmm1, 144(%rsi)
	movups	%xmm0, 128(%rsi)
	movaps	288(%rsp), %xmm0
	movaps	304(%rsp), %xmm1
	movups	%xmm1, 176(%rsi)
	movups	%xmm0, 160(%rsi)
	movaps	256(%rsp), %xmm0
	movaps	272(%rsp), %xmm1
	movups	%xmm1, 208(%rsi)
	movups	%xmm0, 192(%rsi)
	movdqu	%xmm7, 1688(%rsp)
	movdqu	%xmm9, 1704(%rsp)
	cmpb	$15, %dl
	ja	.LBB14_138
	movq	%rax, 1496(%rsp,%rdi)
	movdqu	1560(%rsp), %xmm6
	movdqu	1576(%rsp), %xmm8
	movdqu	1688(%rsp), %xmm7
	movdqu	1704(%rsp), %xmm9
	jmp	.LBB14_139
.LBB14_71:
	movzbl	2(%rdx), %r14d
	cmpq	$4, %rsi
	movq	%r14, 80(%rsp)
	jb	.LBB14_84
	movzbl	3(%rdx), %r15d
	movq	%r15, 176(%rsp)
	jne	.LBB14_85
	movq	$0, 112(%rsp)
	xorl	%ebp, %ebp
	xorl	%r15d, %r15d
	movq	$0, 144(%rsp)
	xorl	%r13d, %r13d
	movq	$0, 160(%rsp)
	jmp	.LBB14_40
.LBB14_74:
	cmpq	$4, %rcx
	movq	104(%rsp), %r10
	movdqa	112(%rsp), %xmm3
	movdqa	176(%rsp), %xmm4
	movdqa	160(%rsp), %xmm6
	movdqa	144(%rsp), %xmm7
	jb	.LBB14_83
	leaq	2(%r9), %rcx
	cmpq	%rbx, %rcx
	jae	.LBB14_83
	movq	%r15, %r8
	movzbl	26018(%rsp,%r9), %r15d
	shll	$8, %r15d
	leaq	3(%r9), %rdx
	cmpq	%rbx, %rdx
	jae	.LBB14_78
	movzbl	26016(%rsp,%rdx), %edx
	orq	%rdx, %r15
.LBB14_78:
	cmpq	$2, %r15
	jb	.LBB14_83
	addq	%rcx, %r15
	cmpq	%r15, %rbx
	jb	.LBB14_83
	leaq	(%rsp,%r9), %rsi
	addq	$26020, %rsi
	addq	$4, %r9
	movq	%r15, %rdx
	subq	%r9, %rdx
	leal	-218(%rax), %ecx
	cmpl	$36, %ecx
	ja	.LBB14_93
	leaq	.LJTI14_0(%rip), %rdi
	movslq	(%rdi,%rcx,4), %rcx
	addq	%rdi, %rcx
	jmpq	*%rcx
.LBB14_82:
	leaq	1440(%rsp), %rdi
	leaq	9632(%rsp), %rcx
	movq	%r15, %r8
	callq	"jpeg_header_state::scan"
	xorps	%xmm5, %xmm5
	jmp	.LBB14_114
.LBB14_83:
	pxor	%xmm0, %xmm0
	movdqa	%xmm0, 17840(%rsp)
	movdqa	%xmm0, 17824(%rsp)
	movdqa	%xmm0, 448(%rsp)
	movdqa	%xmm0, 464(%rsp)
	movdqa	%xmm0, 960(%rsp)
	movdqa	%xmm0, 976(%rsp)
	movdqa	%xmm0, 208(%rsp)
	movdqa	%xmm0, 224(%rsp)
	pxor	%xmm6, %xmm6
	movb	$2, %cl
	movb	$1, %al
	movq	$0, 72(%rsp)
	movq	$0, 56(%rsp)
	xorl	%r11d, %r11d
	movq	$0, 40(%rsp)
	movq	$0, 32(%rsp)
	movq	$0, 8(%rsp)
	movq	$0, 16(%rsp)
	xorl	%r13d, %r13d
	xorl	%r12d, %r12d
	xorl	%r14d, %r14d
	xorl	%r15d, %r15d
	xorl	%r8d, %r8d
	movq	$0, 88(%rsp)
	pxor	%xmm8, %xmm8
	pxor	%xmm7, %xmm7
	pxor	%xmm9, %xmm9
	xorl	%r10d, %r10d
	xorl	%edx, %edx
	xorl	%esi, %esi
	xorl	%edi, %edi
	movq	$0, 64(%rsp)
	xorl	%r9d, %r9d
	movq	$0, 24(%rsp)
	movq	$0, 48(%rsp)
	jmp	.LBB14_29
.LBB14_84:
	movq	$0, 112(%rsp)
	xorl	%ebp, %ebp
	xorl	%r15d, %r15d
	movq	$0, 144(%rsp)
	xorl	%r13d, %r13d
	movq	$0, 160(%rsp)
	movq	$0, 176(%rsp)
	jmp	.LBB14_40
.LBB14_85:
	movzbl	4(%rdx), %r12d
	cmpq	$6, %rsi
	jb	.LBB14_88
	movzbl	5(%rdx), %ebp
	movq	%rbp, 160(%rsp)
	jne	.LBB14_89
	movq	$0, 112(%rsp)
	xorl	%ebp, %ebp
	xorl	%r15d, %r15d
	movq	$0, 144(%rsp)
	xorl	%r13d, %r13d
	jmp	.LBB14_41
.LBB14_88:
	movq	$0, 112(%rsp)
	xorl	%ebp, %ebp
	xorl	%r15d, %r15d
	movq	$0, 144(%rsp)
	xorl	%r13d, %r13d
	movq	$0, 160(%rsp)
	jmp	.LBB14_41
.LBB14_89:
	movzbl	6(%rdx), %ecx
	cmpq	$8, %rsi
	jb	.LBB14_92
	movzbl	7(%rdx), %r13d
	jne	.LBB14_102
	movq	$0, 112(%rsp)
	xorl	%ebp, %ebp
	xorl	%r15d, %r15d
	movq	$0, 144(%rsp)
	jmp	.LBB14_42
.LBB14_92:
	movq	$0, 112(%rsp)
	xorl	%ebp, %ebp
	xorl	%r15d, %r15d
	movq	$0, 144(%rsp)
	xorl	%r13d, %r13d
	jmp	.LBB14_42
.LBB14_93:
	cmpl	$196, %eax
	jne	.LBB14_96
	cmpq	%r9, %r15
	je	.LBB14_99
	movdqu	%xmm3, 1576(%rsp)
	movdqu	%xmm6, 1592(%rsp)
	movaps	320(%rsp), %xmm0
	movaps	336(%rsp), %xmm1
	leaq	1464(%rsp), %rcx
	movups	%xmm1, 160(%rcx)
	movups	%xmm0, 144(%rcx)
	movaps	288(%rsp), %xmm0
	movaps	304(%rsp), %xmm1
	movups	%xmm1, 192(%rcx)
	movups	%xmm0, 176(%rcx)
	movaps	256(%rsp), %xmm0
	movaps	272(%rsp), %xmm1
	movups	%xmm1, 224(%rcx)
	movups	%xmm0, 208(%rcx)
	movdqu	%xmm4, 1704(%rsp)
	movq	80(%rsp), %rax
	movq	%rax, 1720(%rsp)
	movq	64(%rsp), %rax
	movq	%rax, 1480(%rsp)
	movq	16(%rsp), %rax
	movq	%rax, 1488(%rsp)
	movq	8(%rsp), %rax
	movq	%rax, 1496(%rsp)
	movq	32(%rsp), %rax
	movq	%rax, 1504(%rsp)
	movq	40(%rsp), %rax
	movq	%rax, 1512(%rsp)
	movq	%r10, 1520(%rsp)
	movq	56(%rsp), %rax
	movq	%rax, 1528(%rsp)
	movq	%r8, 1536(%rsp)
	movdqa	352(%rsp), %xmm0
	movdqa	368(%rsp), %xmm1
	leaq	1544(%rsp), %rax
	movdqu	%xmm1, 16(%rax)
	movdqu	%xmm0, (%rax)
	pxor	%xmm0, %xmm0
	movdqu	%xmm0, 336(%rcx)
	movdqu	%xmm0, 320(%rcx)
	movdqu	%xmm0, 304(%rcx)
	movdqu	%xmm0, 288(%rcx)
	movdqu	%xmm0, 272(%rcx)
	movq	$0, 352(%rcx)
	movl	$2, %eax
	jmp	.LBB14_108
.LBB14_96:
	cmpb	$-64, %al
	jae	.LBB14_105
.LBB14_97:
	movq	$1, 1440(%rsp)
	movq	$4, 1448(%rsp)
	pxor	%xmm0, %xmm0
	leaq	1464(%rsp), %rax
	movdqa	%xmm0, -8(%rax)
	movq	$0, 8(%rax)
	jmp	.LBB14_114
.LBB14_98:
	cmpq	%r9, %r15
	jne	.LBB14_107
.LBB14_99:
	pxor	%xmm0, %xmm0
	leaq	1464(%rsp), %rax
	movdqu	%xmm0, 336(%rax)
	movdqu	%xmm0, 320(%rax)
	movdqu	%xmm0, 304(%rax)
	movdqu	%xmm0, 288(%rax)
	movdqu	%xmm0, 272(%rax)
	movq	$0, 352(%rax)
	movdqu	%xmm0, 240(%rax)
	movdqu	%xmm0, 224(%rax)
	movdqu	%xmm0, 208(%rax)
	movdqu	%xmm0, 192(%rax)
	movdqu	%xmm0, 176(%rax)
	movdqu	%xmm0, 160(%rax)
	movdqu	%xmm0, 144(%rax)
	movdqu	%xmm0, 128(%rax)
	movdqu	%xmm0, 112(%rax)
	movdqu	%xmm0, 96(%rax)
	movdqu	%xmm0, 80(%rax)
	movdqu	%xmm0, 64(%rax)
	movdqu	%xmm0, 48(%rax)
	movdqu	%xmm0, 32(%rax)
	movdqu	%xmm0, 16(%rax)
	movq	$0, 256(%rax)
	movdqa	.LCPI14_0(%rip), %xmm0
	xorl	%r9d, %r9d
	xorl	%eax, %eax
	xorl	%r15d, %r15d
	xorl	%ebp, %ebp
	jmp	.LBB14_108
.LBB14_100:
	cmpq	$2, %rdx
	jne	.LBB14_109
	movzwl	(%rsi), %eax
	rolw	$8, %ax
	movzwl	%ax, %eax
	movq	64(%rsp), %rcx
	movq	%rcx, 1480(%rsp)
	movq	16(%rsp), %rcx
	movq	%rcx, 1488(%rsp)
	movq	8(%rsp), %rcx
	movq	%rcx, 1496(%rsp)
	movq	32(%rsp), %rcx
	movq	%rcx, 1504(%rsp)
	movq	40(%rsp), %rcx
	movq	%rcx, 1512(%rsp)
	movq	%r10, 1520(%rsp)
	movq	56(%rsp), %rcx
	movq	%rcx, 1528(%rsp)
	movq	%r8, 1536(%rsp)
	movaps	352(%rsp), %xmm0
	movaps	368(%rsp), %xmm1
	leaq	1544(%rsp), %rcx
	movups	%xmm1, 16(%rcx)
	movups	%xmm0, (%rcx)
	movdqu	%xmm3, 1576(%rsp)
	movdqu	%xmm6, 1592(%rsp)
	movaps	320(%rsp), %xmm0
	movaps	336(%rsp), %xmm1
	leaq	1464(%rsp), %rcx
	movups	%xmm1, 160(%rcx)
	movups	%xmm0, 144(%rcx)
	movaps	288(%rsp), %xmm0
	movaps	304(%rsp), %xmm1
	movups	%xmm1, 192(%rcx)
	movups	%xmm0, 176(%rcx)
	movdqa	256(%rsp), %xmm0
	movdqa	272(%rsp), %xmm1
	movdqu	%xmm1, 224(%rcx)
	movdqu	%xmm0, 208(%rcx)
	movdqu	%xmm4, 1704(%rsp)
	movq	80(%rsp), %rdx
	movq	%rdx, 1720(%rsp)
	pxor	%xmm0, %xmm0
	movdqu	%xmm0, (%rcx)
	movdqu	%xmm0, 336(%rcx)
	movdqu	%xmm0, 320(%rcx)
	movdqu	%xmm0, 304(%rcx)
	movdqu	%xmm0, 288(%rcx)
	movdqu	%xmm0, 272(%rcx)
	movq	$0, 352(%rcx)
	jmp	.LBB14_110
.LBB14_102:
	movzbl	8(%rdx), %r8d
	cmpq	$10, %rsi
	jb	.LBB14_111
	movzbl	9(%rdx), %r9d
	movq	%r9, 144(%rsp)
	jne	.LBB14_115
	movq	$0, 112(%rsp)
	xorl	%ebp, %ebp
	xorl	%r15d, %r15d
	jmp	.LBB14_43
.LBB14_105:
	cmpb	$-62, %al
	jae	.LBB14_112
	leaq	1440(%rsp), %rdi
	leaq	9632(%rsp), %rcx
	movq	%r15, %r8
	callq	"jpeg_header_state::frame"
	xorps	%xmm5, %xmm5
	jmp	.LBB14_114
.LBB14_107:
	movdqu	%xmm3, 1576(%rsp)
	movdqu	%xmm6, 1592(%rsp)
	movaps	320(%rsp), %xmm0
	movaps	336(%rsp), %xmm1
	leaq	1464(%rsp), %rcx
	movups	%xmm1, 160(%rcx)
	movups	%xmm0, 144(%rcx)
	movaps	288(%rsp), %xmm0
	movaps	304(%rsp), %xmm1
	movups	%xmm1, 192(%rcx)
	movups	%xmm0, 176(%rcx)
	movaps	256(%rsp), %xmm0
	movaps	272(%rsp), %xmm1
	movups	%xmm1, 224(%rcx)
	movups	%xmm0, 208(%rcx)
	movdqu	%xmm4, 1704(%rsp)
	movq	80(%rsp), %rax
	movq	%rax, 1720(%rsp)
	movq	64(%rsp), %rax
	movq	%rax, 1480(%rsp)
	movq	16(%rsp), %rax
	movq	%rax, 1488(%rsp)
	movq	8(%rsp), %rax
	movq	%rax, 1496(%rsp)
	movq	32(%rsp), %rax
	movq	%rax, 1504(%rsp)
	movq	40(%rsp), %rax
	movq	%rax, 1512(%rsp)
	movq	%r10, 1520(%rsp)
	movq	56(%rsp), %rax
	movq	%rax, 1528(%rsp)
	movq	%r8, 1536(%rsp)
	movdqa	352(%rsp), %xmm0
	movdqa	368(%rsp), %xmm1
	leaq	1544(%rsp), %rax
	movdqu	%xmm1, 16(%rax)
	movdqu	%xmm0, (%rax)
	pxor	%xmm0, %xmm0
	movdqu	%xmm0, 336(%rcx)
	movdqu	%xmm0, 320(%rcx)
	movdqu	%xmm0, 304(%rcx)
	movdqu	%xmm0, 288(%rcx)
	movdqu	%xmm0, 272(%rcx)
	movq	$0, 352(%rcx)
	movl	$1, %eax
.LBB14_108:
	movdqa	%xmm0, 1440(%rsp)
	movq	%r9, 1456(%rsp)
	movq	%rax, 1464(%rsp)
	movq	%r15, 1472(%rsp)
	movq	%rbp, 1728(%rsp)
	jmp	.LBB14_114
.LBB14_109:
	pxor	%xmm0, %xmm0
	leaq	1464(%rsp), %rdi
	movdqu	%xmm0, 336(%rdi)
	movdqu	%xmm0, 320(%rdi)
	movdqu	%xmm0, 304(%rdi)
	movdqu	%xmm0, 288(%rdi)
	movdqu	%xmm0, 272(%rdi)
	movq	$0, 352(%rdi)
	xorl	%r15d, %r15d
	movl	$264, %edx
	xorl	%esi, %esi
	callq	memset@PLT
	xorps	%xmm5, %xmm5
	movdqa	.LCPI14_0(%rip), %xmm0
	xorl	%eax, %eax
.LBB14_110:
	movdqa	%xmm0, 1440(%rsp)
	movq	%r15, 1456(%rsp)
	movq	%rax, 1728(%rsp)
	jmp	.LBB14_114
.LBB14_111:
	movq	$0, 112(%rsp)
	xorl	%ebp, %ebp
	xorl	%r15d, %r15d
	movq	$0, 144(%rsp)
	jmp	.LBB14_43
.LBB14_112:
	andb	$-16, %al
	cmpb	$-32, %al
	jne	.LBB14_97
.LBB14_113:
	pxor	%xmm0, %xmm0
	movdqa	%xmm0, 1440(%rsp)
	movq	%r15, 1456(%rsp)
	leaq	1464(%rsp), %rcx
	movdqu	%xmm0, (%rcx)
	movq	64(%rsp), %rax
	movq	%rax, 1480(%rsp)
	movq	16(%rsp), %rax
	movq	%rax, 1488(%rsp)
	movq	8(%rsp), %rax
	movq	%rax, 1496(%rsp)
	movq	32(%rsp), %rax
	movq	%rax, 1504(%rsp)
	movq	40(%rsp), %rax
	movq	%rax, 1512(%rsp)
	movq	%r10, 1520(%rsp)
	movq	56(%rsp), %rax
	movq	%rax, 1528(%rsp)
	movq	%r8, 1536(%rsp)
	movaps	352(%rsp), %xmm1
	movaps	368(%rsp), %xmm2
	leaq	1544(%rsp), %rax
	movups	%xmm2, 16(%rax)
	movups	%xmm1, (%rax)
	movdqu	%xmm3, 1576(%rsp)
	movdqu	%xmm6, 1592(%rsp)
	movaps	320(%rsp), %xmm1
	movaps	336(%rsp), %xmm2
	movups	%xmm2, 160(%rcx)
	movups	%xmm1, 144(%rcx)
	movaps	288(%rsp), %xmm1
	movaps	304(%rsp), %xmm2
	movups	%xmm2, 192(%rcx)
	movups	%xmm1, 176(%rcx)
	movdqa	256(%rsp), %xmm1
	movdqa	272(%rsp), %xmm2
	movdqu	%xmm2, 224(%rcx)
	movdqu	%xmm1, 208(%rcx)
	movdqu	%xmm4, 1704(%rsp)
	movdqu	%xmm7, 1720(%rsp)
	movdqu	%xmm0, 336(%rcx)
	movdqu	%xmm0, 320(%rcx)
	movdqu	%xmm0, 304(%rcx)
	movdqu	%xmm0, 288(%rcx)
	movdqu	%xmm0, 272(%rcx)
	movq	$0, 352(%rcx)
.LBB14_114:
	movzbl	1440(%rsp), %eax
	movzbl	1448(%rsp), %ecx
	movq	1456(%rsp), %r9
	movq	1464(%rsp), %rdx
	movq	%rdx, 24(%rsp)
	movq	1472(%rsp), %rdx
	movq	%rdx, 48(%rsp)
	movq	1480(%rsp), %rdx
	movq	%rdx, 64(%rsp)
	movq	1488(%rsp), %rdx
	movq	%rdx, 16(%rsp)
	movq	1496(%rsp), %rdx
	movq	%rdx, 8(%rsp)
	movq	1504(%rsp), %rdx
	movq	%rdx, 32(%rsp)
	movq	1512(%rsp), %rdx
	movq	%rdx, 40(%rsp)
	movq	1520(%rsp), %r11
	movq	1528(%rsp), %rdx
	movq	%rdx, 56(%rsp)
	movq	1536(%rsp), %rdx
	movq	%rdx, 72(%rsp)
	leaq	1544(%rsp), %rdx
	movups	(%rdx), %xmm0
	movups	16(%rdx), %xmm1
	movaps	%xmm0, 17824(%rsp)
	movaps	%xmm1, 17840(%rsp)
	movdqu	1576(%rsp), %xmm6
	movdqu	1592(%rsp), %xmm8
	movdqu	1704(%rsp), %xmm7
	movdqu	1720(%rsp), %xmm9
	leaq	1464(%rsp), %rdx
	movups	144(%rdx), %xmm0
	movups	160(%rdx), %xmm1
	movaps	%xmm1, 464(%rsp)
	movaps	%xmm0, 448(%rsp)
	movups	176(%rdx), %xmm0
	movups	192(%rdx), %xmm1
	movaps	%xmm0, 960(%rsp)
	movaps	%xmm1, 976(%rsp)
	movdqu	208(%rdx), %xmm0
	movdqu	224(%rdx), %xmm1
	cmpq	$65537, 1792(%rsp)
	movdqa	%xmm0, 208(%rsp)
	setae	%dl
	cmpq	$65537, 1800(%rsp)
	movdqa	%xmm1, 224(%rsp)
	setae	%sil
	movq	136(%rsp), %rdi
	cmpq	1808(%rsp), %rdi
	movq	1736(%rsp), %r13
	movq	1744(%rsp), %r12
	movq	1752(%rsp), %r14
	movq	1760(%rsp), %r15
	movq	1768(%rsp), %r8
	movq	1776(%rsp), %rdi
	movq	%rdi, 88(%rsp)
	movq	1784(%rsp), %r10
	setb	%dil
	jmp	.LBB14_29
.LBB14_115:
	movzbl	10(%rdx), %r9d
	cmpq	$12, %rsi
	jb	.LBB14_118
	movzbl	11(%rdx), %r15d
	jne	.LBB14_119
	movq	$0, 112(%rsp)
	xorl	%ebp, %ebp
	jmp	.LBB14_44
.LBB14_118:
	movq	$0, 112(%rsp)
	xorl	%ebp, %ebp
	xorl	%r15d, %r15d
	jmp	.LBB14_44
.LBB14_119:
	movzbl	12(%rdx), %r10d
	cmpq	$14, %rsi
	jb	.LBB14_122
	movzbl	13(%rdx), %ebp
	jne	.LBB14_126
	movq	$0, 112(%rsp)
	jmp	.LBB14_123
.LBB14_122:
	movq	$0, 112(%rsp)
	xorl	%ebp, %ebp
.LBB14_123:
	xorl	%r11d, %r11d
.LBB14_124:
	xorl	%edi, %edi
	xorps	%xmm5, %xmm5
	cmpq	$17, %rsi
	jae	.LBB14_45
	jmp	.LBB14_22
.LBB14_126:
	movzbl	14(%rdx), %r11d
	cmpq	$16, %rsi
	jb	.LBB14_129
	movzbl	15(%rdx), %edi
	movq	%rdi, 112(%rsp)
	je	.LBB14_124
	movzbl	16(%rdx), %edi
	xorps	%xmm5, %xmm5
	cmpq	$17, %rsi
	jae	.LBB14_45
	jmp	.LBB14_22
.LBB14_129:
	movq	$0, 112(%rsp)
	jmp	.LBB14_124
.LBB14_131:
	addq	%r15, %rdi
	addq	%r14, %rdi
	addq	%r10, %rdi
	addq	%r9, %rdi
	addq	%r11, %r8
	addq	%rdi, %r8
	xorl	%esi, %esi
	jmp	.LBB14_133
.LBB14_132:
	movb	$1, 9632(%rsp,%rdi)
	incq	%rsi
	cmpq	%rsi, %r8
	je	.LBB14_69
.LBB14_133:
	movzbl	(%rdx,%rsi), %edi
	cmpb	$0, 9632(%rsp,%rdi)
	jne	.LBB14_137
	testq	%rdi, %rdi
	je	.LBB14_132
	cmpl	$240, %edi
	je	.LBB14_132
	movl	%edi, %r9d
	andl	$15, %r9d
	decl	%r9d
	cmpl	$9, %r9d
	jbe	.LBB14_132
.LBB14_137:
	xorps	%xmm5, %xmm5
	jmp	.LBB14_22
.LBB14_138:
	andl	$24, %edi
	movq	%rax, 1528(%rsp,%rdi)
.LBB14_139:
	movq	192(%rsp), %r9
	addq	%rcx, %r9
	movq	1448(%rsp), %rax
	movq	%rax, 24(%rsp)
	movq	1472(%rsp), %rax
	movq	%rax, 16(%rsp)
	movq	1480(%rsp), %rax
	movq	%rax, 8(%rsp)
	movq	1488(%rsp), %rax
	movq	%rax, 32(%rsp)
	movq	1496(%rsp), %rax
	movq	%rax, 40(%rsp)
	movq	1504(%rsp), %r11
	movq	1512(%rsp), %rax
	movq	%rax, 56(%rsp)
	movq	1520(%rsp), %rax
	movq	%rax, 72(%rsp)
	leaq	1528(%rsp), %rax
	movups	(%rax), %xmm0
	movups	16(%rax), %xmm1
	movaps	%xmm1, 17840(%rsp)
	movaps	%xmm0, 17824(%rsp)
	leaq	1464(%rsp), %rax
	movups	128(%rax), %xmm0
	movups	144(%rax), %xmm1
	movaps	%xmm1, 464(%rsp)
	movaps	%xmm0, 448(%rsp)
	movups	160(%rax), %xmm0
	movups	176(%rax), %xmm1
	movaps	%xmm0, 960(%rsp)
	movaps	%xmm1, 976(%rsp)
	movdqu	192(%rax), %xmm0
	movdqu	208(%rax), %xmm1
	movdqa	%xmm0, 208(%rsp)
	movdqa	%xmm1, 224(%rsp)
	xorl	%eax, %eax
	xorl	%ecx, %ecx
	xorps	%xmm5, %xmm5
	jmp	.LBB14_28
.LBB14_140:
	movzbl	%cl, %edx
	movq	48(%rsp), %rcx
	jmp	.LBB14_142
.LBB14_141:
	movq	$0, 24(%rsp)
	xorl	%ecx, %ecx
.LBB14_142:
	movq	%rdx, 64(%rsp)
	pxor	%xmm0, %xmm0
	movdqa	%xmm0, 800(%rsp)
	movdqa	%xmm0, 816(%rsp)
	movdqa	%xmm0, 768(%rsp)
	movdqa	%xmm0, 784(%rsp)
	movdqa	%xmm0, 736(%rsp)
	movdqa	%xmm0, 752(%rsp)
	movdqa	%xmm0, 704(%rsp)
	movdqa	%xmm0, 720(%rsp)
	movq	$0, 8(%rsp)
	movq	$0, 32(%rsp)
	movq	$0, 40(%rsp)
	xorl	%r11d, %r11d
	xorl	%edi, %edi
	xorl	%esi, %esi
	movq	$0, 16(%rsp)
	movq	$0, 112(%rsp)
	movq	$0, 176(%rsp)
	movq	$0, 160(%rsp)
	xorl	%edx, %edx
	movq	$0, 136(%rsp)
	movq	$0, 144(%rsp)
	movq	$0, 80(%rsp)
	xorl	%r13d, %r13d
	xorl	%r12d, %r12d
	xorl	%r14d, %r14d
	xorl	%r15d, %r15d
	xorl	%r8d, %r8d
	movq	$0, 88(%rsp)
	xorl	%r10d, %r10d
	xorl	%eax, %eax
.LBB14_143:
	xorl	%ebp, %ebp
.LBB14_144:
	pxor	%xmm0, %xmm0
	movdqa	%xmm0, 1440(%rsp)
	movdqa	%xmm0, 1456(%rsp)
	movdqa	%xmm0, 9632(%rsp)
	movdqa	%xmm0, 9648(%rsp)
	movdqa	%xmm0, 17824(%rsp)
	movdqa	%xmm0, 17840(%rsp)
	movdqa	%xmm0, 448(%rsp)
	movdqa	%xmm0, 464(%rsp)
	testb	%al, %al
	je	.LBB14_146
	movaps	800(%rsp), %xmm0
	movaps	816(%rsp), %xmm1
	movaps	%xmm1, 1456(%rsp)
	movaps	%xmm0, 1440(%rsp)
	movaps	768(%rsp), %xmm0
	movaps	784(%rsp), %xmm1
	movaps	%xmm0, 9632(%rsp)
	movaps	%xmm1, 9648(%rsp)
	movaps	736(%rsp), %xmm0
	movaps	752(%rsp), %xmm1
	movaps	%xmm0, 17824(%rsp)
	movaps	%xmm1, 17840(%rsp)
	movdqa	704(%rsp), %xmm0
	movaps	720(%rsp), %xmm1
	movdqa	%xmm0, 448(%rsp)
	movaps	%xmm1, 464(%rsp)
	jmp	.LBB14_147
.LBB14_146:
	movq	64(%rsp), %rdx
	movzbl	%dl, %edx
	movq	%rdx, 64(%rsp)
	movq	$0, 16(%rsp)
	movq	$0, 8(%rsp)
	movq	$0, 32(%rsp)
	movq	$0, 40(%rsp)
	xorl	%r11d, %r11d
	xorl	%edi, %edi
	xorl	%esi, %esi
	movq	$0, 112(%rsp)
	movq	$0, 176(%rsp)
	movq	$0, 160(%rsp)
	xorl	%edx, %edx
	movq	$0, 136(%rsp)
	movq	$0, 144(%rsp)
	movq	$0, 80(%rsp)
	xorl	%ebp, %ebp
	xorl	%r13d, %r13d
	xorl	%r12d, %r12d
	xorl	%r14d, %r14d
	xorl	%r15d, %r15d
	xorl	%r8d, %r8d
	movq	$0, 88(%rsp)
	xorl	%r10d, %r10d
.LBB14_147:
	movaps	1440(%rsp), %xmm0
	movaps	1456(%rsp), %xmm1
	movaps	%xmm1, 416(%rsp)
	movaps	%xmm0, 400(%rsp)
	movaps	9632(%rsp), %xmm0
	movaps	9648(%rsp), %xmm1
	movaps	%xmm0, 1248(%rsp)
	movaps	%xmm1, 1264(%rsp)
	movaps	17824(%rsp), %xmm0
	movaps	17840(%rsp), %xmm1
	movaps	%xmm0, 1216(%rsp)
	movaps	%xmm1, 1232(%rsp)
	movaps	448(%rsp), %xmm0
	movaps	464(%rsp), %xmm1
	movaps	%xmm0, 1184(%rsp)
	movaps	%xmm1, 1200(%rsp)
	testb	%al, %al
	je	.LBB14_156
	movq	%rdx, 96(%rsp)
	movq	%rdi, 56(%rsp)
	movq	%r8, 440(%rsp)
	movq	%r11, 104(%rsp)
	movq	%rsi, 72(%rsp)
	movq	%r9, 192(%rsp)
	movaps	400(%rsp), %xmm0
	movaps	416(%rsp), %xmm1
	movaps	%xmm1, 1296(%rsp)
	movaps	%xmm0, 1280(%rsp)
	movaps	%xmm1, 272(%rsp)
	movaps	%xmm0, 256(%rsp)
	movaps	%xmm1, 304(%rsp)
	movaps	%xmm0, 288(%rsp)
	movq	88(%rsp), %rax
	cmpq	$262144, %rax
	movl	$262144, %edx
	cmovbq	%rax, %rdx
	movq	%rdx, 1176(%rsp)
	movaps	%xmm0, 320(%rsp)
	movaps	%xmm1, 336(%rsp)
	movq	%rcx, 48(%rsp)
	movq	%r10, 392(%rsp)
	leaq	9632(%rsp), %rdi
	movl	$8192, %edx
	xorl	%esi, %esi
	callq	memset@PLT
	leaq	17824(%rsp), %rdi
	movl	$8192, %edx
	xorl	%esi, %esi
	callq	memset@PLT
	movq	48(%rsp), %rsi
	movq	40(%rsp), %rdx
	xorps	%xmm0, %xmm0
	movaps	%xmm0, 448(%rsp)
	movaps	%xmm0, 464(%rsp)
	movaps	%xmm0, 480(%rsp)
	movaps	%xmm0, 496(%rsp)
	movaps	%xmm0, 512(%rsp)
	movaps	%xmm0, 528(%rsp)
	movaps	%xmm0, 544(%rsp)
	movaps	%xmm0, 560(%rsp)
	movaps	%xmm0, 576(%rsp)
	movq	$0, 592(%rsp)
	movq	392(%rsp), %rax
	shrq	$32, %rax
	jne	.LBB14_168
	movq	%rbx, %rdi
	subq	88(%rsp), %rdi
	jb	.LBB14_168
	movq	24(%rsp), %rax
	decq	%rax
	cmpq	$3, %rax
	ja	.LBB14_168
	leaq	-1(%rsi), %rax
	leaq	-1(%rdx), %rcx
	orq	%rax, %rcx
	cmpq	$3, %rcx
	ja	.LBB14_168
	movq	%rdx, %r10
	imulq	%rsi, %r10
	cmpq	$1, 24(%rsp)
	jne	.LBB14_162
.LBB14_153:
	cmpq	$10, %r10
	ja	.LBB14_168
	movq	%rdi, 1168(%rsp)
	movaps	1216(%rsp), %xmm0
	movaps	1232(%rsp), %xmm1
	movaps	%xmm1, 1456(%rsp)
	movaps	%xmm0, 1440(%rsp)
	movq	136(%rsp), %rax
	cmpq	$3, %rax
	ja	.LBB14_209
	movq	1440(%rsp,%rax,8), %rax
	movq	%rax, 136(%rsp)
	jmp	.LBB14_210
.LBB14_156:
	movq	64(%rsp), %r15
	jmp	.LBB14_169
.LBB14_157:
	movaps	608(%rsp), %xmm0
	movaps	624(%rsp), %xmm1
	movaps	%xmm1, 1424(%rsp)
	movaps	%xmm0, 1408(%rsp)
	movaps	672(%rsp), %xmm0
	movaps	688(%rsp), %xmm1
	movaps	%xmm0, 1376(%rsp)
	movaps	%xmm1, 1392(%rsp)
	movaps	1120(%rsp), %xmm0
	movaps	1136(%rsp), %xmm1
	movaps	%xmm0, 1344(%rsp)
	movaps	%xmm1, 1360(%rsp)
	movdqa	1088(%rsp), %xmm0
	movaps	1104(%rsp), %xmm1
	movdqa	%xmm0, 1312(%rsp)
	movaps	%xmm1, 1328(%rsp)
	cmpq	$65535, %r9
	ja	.LBB14_159
	cmpq	$65536, 24(%rsp)
	setae	%al
	orb	%sil, %dl
	orb	%al, %dl
	testb	$1, %dl
	je	.LBB14_205
.LBB14_159:
	pxor	%xmm0, %xmm0
	movdqa	%xmm0, 944(%rsp)
	movdqa	%xmm0, 928(%rsp)
	movdqa	%xmm0, 896(%rsp)
	movdqa	%xmm0, 912(%rsp)
	movdqa	%xmm0, 864(%rsp)
	movdqa	%xmm0, 880(%rsp)
	movdqa	%xmm0, 832(%rsp)
	movdqa	%xmm0, 848(%rsp)
	movl	$5, %r9d
.LBB14_160:
	xorl	%esi, %esi
	xorl	%edi, %edi
	xorl	%r11d, %r11d
	movq	$0, 40(%rsp)
	movq	$0, 32(%rsp)
	movq	$0, 8(%rsp)
	movq	$0, 16(%rsp)
	movq	$0, 112(%rsp)
	movq	$0, 176(%rsp)
	movq	$0, 160(%rsp)
	movq	$0, 96(%rsp)
	movq	$0, 136(%rsp)
	movq	$0, 144(%rsp)
	movq	$0, 80(%rsp)
	xorl	%r13d, %r13d
	xorl	%r12d, %r12d
	xorl	%r14d, %r14d
	xorl	%r15d, %r15d
	xorl	%r8d, %r8d
	movq	$0, 88(%rsp)
	xorl	%r10d, %r10d
	movq	$0, 48(%rsp)
	xorl	%edx, %edx
	xorl	%ebp, %ebp
	xorl	%eax, %eax
	xorl	%ecx, %ecx
.LBB14_161:
	movaps	928(%rsp), %xmm0
	movaps	944(%rsp), %xmm1
	movaps	%xmm1, 816(%rsp)
	movaps	%xmm0, 800(%rsp)
	movaps	896(%rsp), %xmm0
	movaps	912(%rsp), %xmm1
	movaps	%xmm0, 768(%rsp)
	movaps	%xmm1, 784(%rsp)
	movaps	864(%rsp), %xmm0
	movaps	880(%rsp), %xmm1
	movaps	%xmm0, 736(%rsp)
	movaps	%xmm1, 752(%rsp)
	movaps	832(%rsp), %xmm0
	movaps	848(%rsp), %xmm1
	movaps	%xmm0, 704(%rsp)
	movaps	%xmm1, 720(%rsp)
	movq	%r9, 64(%rsp)
	movq	%rcx, %r9
	movq	48(%rsp), %rcx
	movq	%rcx, 24(%rsp)
	movq	%rdx, %rcx
	movq	96(%rsp), %rdx
	jmp	.LBB14_144
.LBB14_162:
	movq	16(%rsp), %rax
	decq	%rax
	movq	104(%rsp), %rcx
	decq	%rcx
	orq	%rax, %rcx
	cmpq	$3, %rcx
	ja	.LBB14_168
	movq	104(%rsp), %rax
	imulq	16(%rsp), %rax
	addq	%rax, %r10
	cmpq	$2, 24(%rsp)
	je	.LBB14_153
	movq	8(%rsp), %rax
	decq	%rax
	movq	56(%rsp), %rcx
	decq	%rcx
	orq	%rax, %rcx
	cmpq	$3, %rcx
	ja	.LBB14_168
	movq	56(%rsp), %rax
	imulq	8(%rsp), %rax
	addq	%rax, %r10
	cmpq	$3, 24(%rsp)
	je	.LBB14_153
	movq	32(%rsp), %rax
	decq	%rax
	movq	72(%rsp), %rcx
	decq	%rcx
	orq	%rax, %rcx
	cmpq	$3, %rcx
	ja	.LBB14_168
	movq	72(%rsp), %rax
	imulq	32(%rsp), %rax
	addq	%rax, %r10
	jmp	.LBB14_153
.LBB14_168:
	movb	$3, %r9b
	movl	$10, %r15d
.LBB14_169:
	xorps	%xmm0, %xmm0
	movaps	%xmm0, 9712(%rsp)
	movaps	%xmm0, 9696(%rsp)
	movaps	%xmm0, 9680(%rsp)
	movaps	%xmm0, 9664(%rsp)
	movaps	%xmm0, 9648(%rsp)
	movaps	%xmm0, 9632(%rsp)
	movaps	%xmm0, 17824(%rsp)
	movaps	%xmm0, 17840(%rsp)
	movaps	%xmm0, 17856(%rsp)
	movaps	%xmm0, 17872(%rsp)
	movaps	%xmm0, 17888(%rsp)
	leaq	1463(%rsp), %r14
	leaq	1462(%rsp), %rbx
	movzbl	%r15b, %eax
	leaq	.LJTI14_1(%rip), %rcx
	movslq	(%rcx,%rax,4), %rax
	addq	%rcx, %rax
	jmpq	*%rax
.LBB14_170:
	movb	$2, %r15b
	jmp	.LBB14_177
.LBB14_171:
	movb	$6, %r15b
	jmp	.LBB14_177
.LBB14_172:
	movzbl	%r9b, %eax
	leaq	.LJTI14_2(%rip), %rcx
	movslq	(%rcx,%rax,4), %rax
	addq	%rcx, %rax
	jmpq	*%rax
.LBB14_173:
	movb	$3, %r15b
	jmp	.LBB14_177
.LBB14_174:
	movb	$4, %r15b
	jmp	.LBB14_177
.LBB14_175:
	movb	$5, %r15b
	jmp	.LBB14_177
.LBB14_176:
	movb	$1, %r15b
.LBB14_177:
	xorl	%ebp, %ebp
.LBB14_178:
	leaq	.Lstatic.3(%rip), %rsi
	leaq	17824(%rsp), %rdi
	movl	$8, %edx
	callq	"core::fmt::type_impls::writers::RefMutWrite::write_str::<#18b16ec19ae6b37c>"
	testb	%al, %al
	jne	.LBB14_187
	xorps	%xmm0, %xmm0
	movaps	%xmm0, 1440(%rsp)
	movq	$0, 1455(%rsp)
	testb	%bpl, %bpl
	je	.LBB14_181
	addb	$38, %r15b
	movb	$49, 1462(%rsp)
	movl	$2, %edx
	jmp	.LBB14_182
.LBB14_181:
	orb	$48, %r15b
	movl	$1, %edx
	movq	%r14, %rbx
.LBB14_182:
	movb	%r15b, 1463(%rsp)
	movb	$45, -1(%rbx)
	leaq	17824(%rsp), %rdi
	movq	%rbx, %rsi
	callq	"core::fmt::type_impls::writers::RefMutWrite::write_str::<#18b16ec19ae6b37c>"
	testb	%al, %al
	jne	.LBB14_187
	leaq	.Lstatic.4(%rip), %rsi
	leaq	17824(%rsp), %rdi
	movl	$1, %edx
	callq	"core::fmt::type_impls::writers::RefMutWrite::write_str::<#18b16ec19ae6b37c>"
	testb	%al, %al
	jne	.LBB14_187
	movq	17888(%rsp), %rax
	cmpq	$64, %rax
	movl	$64, %edx
	cmovbq	%rax, %rdx
	xorl	%r12d, %r12d
.LBB14_185:
	xorps	%xmm0, %xmm0
	movaps	%xmm0, 1440(%rsp)
	movq	$0, 1456(%rsp)
	leaq	1440(%rsp), %rdi
	leaq	17824(%rsp), %rsi
	callq	"core::str::utf8::from_utf8"
	xorl	%edx, %edx
	cmpb	$0, 1440(%rsp)
	leaq	.Lstatic.2(%rip), %rsi
	cmoveq	1448(%rsp), %rsi
	cmoveq	1456(%rsp), %rdx
	leaq	9632(%rsp), %rdi
	callq	"std::io::stdio::StdoutWrite::write_all"
	cmpb	$0, 9632(%rsp)
	jne	.LBB14_187
	xorps	%xmm0, %xmm0
	movaps	%xmm0, 1520(%rsp)
	movaps	%xmm0, 1504(%rsp)
	movaps	%xmm0, 1488(%rsp)
	movaps	%xmm0, 1472(%rsp)
	movaps	%xmm0, 1456(%rsp)
	movaps	%xmm0, 1440(%rsp)
	leaq	1440(%rsp), %rdi
	leaq	91560(%rsp), %rsi
	movq	%r12, %rdx
	callq	"std::io::stdio::StdoutWrite::write_all"
	cmpb	$1, 1440(%rsp)
	jne	.LBB14_203
.LBB14_187:
	movl	$2, 91560(%rsp)
	leaq	91564(%rsp), %rbx
	movl	$1132, %edx
	movq	%rbx, %rdi
	xorl	%esi, %esi
	callq	memset@PLT
	movl	$32, 92696(%rsp)
	movq	$0, 92700(%rsp)
	movl	$0, 92708(%rsp)
	movq	$-1, 92712(%rsp)
	xorps	%xmm0, %xmm0
	movups	%xmm0, 92720(%rsp)
	movl	92696(%rsp), %eax
	movl	%eax, 26016(%rsp)
	movq	92700(%rsp), %rax
	movq	%rax, 26020(%rsp)
	movl	92708(%rsp), %eax
	movl	%eax, 26028(%rsp)
	movq	$-1, 26032(%rsp)
	movl	$32, 92696(%rsp)
	movq	$0, 92700(%rsp)
	movl	$0, 92708(%rsp)
	cmpq	$0, 664(%rsp)
	js	.LBB14_193
	xorl	%ecx, %ecx
	xorl	%r14d, %r14d
	jmp	.LBB14_190
	.p2align	4
.LBB14_189:
	movb	%bpl, 91564(%rsp,%rcx)
	incq	%rcx
	movq	%rcx, 92592(%rsp)
	incq	%r14
	cmpq	$41, %r14
	je	.LBB14_198
.LBB14_190:
	leaq	.Lstatic.18(%rip), %rax
	movzbl	(%r14,%rax), %ebp
	cmpq	$1024, %rcx
	jb	.LBB14_189
	leaq	91560(%rsp), %rdi
	callq	"std_io::io::buffer::Buffer::flush"
	testb	%al, %al
	je	.LBB14_202
	movq	92592(%rsp), %rcx
	cmpq	$1023, %rcx
	jbe	.LBB14_189
	jmp	.LBB14_202
.LBB14_193:
	xorl	%ecx, %ecx
	xorl	%r14d, %r14d
	jmp	.LBB14_195
	.p2align	4
.LBB14_194:
	movb	%bpl, 91564(%rsp,%rcx)
	incq	%rcx
	movq	%rcx, 92592(%rsp)
	incq	%r14
	cmpq	$37, %r14
	je	.LBB14_198
.LBB14_195:
	leaq	.Lstatic.17(%rip), %rax
	movzbl	(%r14,%rax), %ebp
	cmpq	$1024, %rcx
	jb	.LBB14_194
	leaq	91560(%rsp), %rdi
	callq	"std_io::io::buffer::Buffer::flush"
	testb	%al, %al
	je	.LBB14_202
	movq	92592(%rsp), %rcx
	cmpq	$1023, %rcx
	jbe	.LBB14_194
	jmp	.LBB14_202
.LBB14_198:
	leaq	92700(%rsp), %rax
	movq	26032(%rsp), %rdx
	movq	%rdx, 1148(%rbx)
	movaps	26016(%rsp), %xmm0
	movups	%xmm0, 1132(%rbx)
	movq	1148(%rbx), %rdx
	movq	%rdx, 26032(%rsp)
	movups	1132(%rbx), %xmm0
	movaps	%xmm0, 26016(%rsp)
	movl	$32, 92696(%rsp)
	movl	$0, 8(%rax)
	movq	$0, (%rax)
	movq	$-1, 92712(%rsp)
	cmpq	$0, 92720(%rsp)
	jne	.LBB14_204
	cmpq	$1024, %rcx
	jb	.LBB14_201
	leaq	91560(%rsp), %rdi
	callq	"std_io::io::buffer::Buffer::flush"
	movq	92592(%rsp), %rcx
	cmpq	$1024, %rcx
	setb	%dl
	andb	%al, %dl
	cmpb	$1, %dl
	jne	.LBB14_202
.LBB14_201:
	movb	$10, 91564(%rsp,%rcx)
	incq	%rcx
	movq	%rcx, 92592(%rsp)
.LBB14_202:
	movq	26032(%rsp), %rax
	movq	%rax, 1148(%rbx)
	movaps	26016(%rsp), %xmm0
	movups	%xmm0, 1132(%rbx)
	movl	91560(%rsp), %eax
	movl	%eax, 26016(%rsp)
	leaq	26020(%rsp), %rdi
	movl	$1132, %edx
	movq	%rbx, %rsi
	callq	memcpy@PLT
	leaq	26016(%rsp), %rdi
	callq	"std_io::io::buffer::Buffer::flush"
.LBB14_203:
	xorl	%eax, %eax
	addq	$353704, %rsp
	popq	%rbx
	popq	%r12
	popq	%r13
	popq	%r14
	popq	%r15
	popq	%rbp
	retq
.LBB14_204:
	leaq	.Lstatic.4(%rip), %rsi
	leaq	91560(%rsp), %rdi
	movl	$1, %edx
	callq	"core::fmt::formatter::Formatter::write_indented::<#bf264aed5fa78656>"
	jmp	.LBB14_202
.LBB14_205:
	testb	%dil, %dil
	je	.LBB14_303
	pxor	%xmm0, %xmm0
	movdqa	%xmm0, 944(%rsp)
	movdqa	%xmm0, 928(%rsp)
	movdqa	%xmm0, 896(%rsp)
	movdqa	%xmm0, 912(%rsp)
	movdqa	%xmm0, 864(%rsp)
	movdqa	%xmm0, 880(%rsp)
	movdqa	%xmm0, 832(%rsp)
	movdqa	%xmm0, 848(%rsp)
	movl	$6, %r9d
	jmp	.LBB14_160
.LBB14_207:
	movb	$10, %r15b
	movb	$1, %bpl
	jmp	.LBB14_178
.LBB14_208:
	movb	$11, %r15b
	movb	$1, %bpl
	jmp	.LBB14_178
.LBB14_209:
	movq	$0, 136(%rsp)
.LBB14_210:
	movq	192(%rsp), %rsi
	movq	96(%rsp), %rcx
	movq	80(%rsp), %rdx
	movq	144(%rsp), %rax
	cmpq	$3, %rax
	ja	.LBB14_212
	movq	1440(%rsp,%rax,8), %rax
	movq	%rax, 80(%rsp)
	jmp	.LBB14_213
.LBB14_212:
	movq	$0, 80(%rsp)
.LBB14_213:
	movq	104(%rsp), %r9
	cmpq	$3, %rdx
	ja	.LBB14_215
	movq	1440(%rsp,%rdx,8), %rax
	movq	%rax, 104(%rsp)
	jmp	.LBB14_216
.LBB14_215:
	movq	$0, 104(%rsp)
.LBB14_216:
	movq	64(%rsp), %r11
	movq	176(%rsp), %rdi
	cmpq	$3, %rbp
	movq	112(%rsp), %r8
	ja	.LBB14_218
	movq	1440(%rsp,%rbp,8), %rax
	movq	%rax, 64(%rsp)
	jmp	.LBB14_219
.LBB14_218:
	movq	$0, 64(%rsp)
.LBB14_219:
	movq	160(%rsp), %rbp
	movaps	1184(%rsp), %xmm0
	movaps	1200(%rsp), %xmm1
	movaps	%xmm1, 1456(%rsp)
	movaps	%xmm0, 1440(%rsp)
	cmpq	$3, %r13
	ja	.LBB14_221
	movq	1440(%rsp,%r13,8), %rax
	movq	%rax, 176(%rsp)
	jmp	.LBB14_222
.LBB14_221:
	movq	$0, 176(%rsp)
.LBB14_222:
	movq	24(%rsp), %r13
	cmpq	$3, %r12
	ja	.LBB14_224
	movq	1440(%rsp,%r12,8), %rax
	movq	%rax, 24(%rsp)
	jmp	.LBB14_225
.LBB14_224:
	movq	$0, 24(%rsp)
.LBB14_225:
	cmpq	$3, %r14
	ja	.LBB14_227
	movq	1440(%rsp,%r14,8), %rax
	movq	%rax, 160(%rsp)
	jmp	.LBB14_228
.LBB14_227:
	movq	$0, 160(%rsp)
.LBB14_228:
	movl	$262144, %r14d
	cmpq	$3, %r15
	ja	.LBB14_230
	movq	1440(%rsp,%r15,8), %r12
	jmp	.LBB14_231
.LBB14_230:
	xorl	%r12d, %r12d
.LBB14_231:
	movq	%rsi, %r15
	movaps	1248(%rsp), %xmm0
	movaps	1264(%rsp), %xmm1
	movaps	%xmm1, 1456(%rsp)
	movaps	%xmm0, 1440(%rsp)
	cmpq	$3, %r8
	ja	.LBB14_233
	movq	1440(%rsp,%r8,8), %rax
	movq	%rax, 192(%rsp)
	jmp	.LBB14_234
.LBB14_233:
	movq	$0, 192(%rsp)
.LBB14_234:
	cmpq	$3, %rdi
	ja	.LBB14_236
	movq	1440(%rsp,%rdi,8), %rax
	movq	%rax, 656(%rsp)
	jmp	.LBB14_237
.LBB14_236:
	movq	$0, 656(%rsp)
.LBB14_237:
	cmpq	$3, %rbp
	ja	.LBB14_239
	movq	1440(%rsp,%rbp,8), %rax
	movq	%rax, 648(%rsp)
	jmp	.LBB14_240
.LBB14_239:
	movq	$0, 648(%rsp)
.LBB14_240:
	cmpq	$3, %rcx
	ja	.LBB14_242
	movq	1440(%rsp,%rcx,8), %rax
	movq	%rax, 640(%rsp)
	jmp	.LBB14_243
.LBB14_242:
	movq	$0, 640(%rsp)
.LBB14_243:
	movq	1176(%rsp), %rdx
	leaq	(%rsp,%rdx), %rax
	addq	$91560, %rax
	movq	%rax, 1160(%rsp)
	subq	%rdx, %r14
	movq	%r11, 1440(%rsp)
	movq	%r15, 1448(%rsp)
	movq	%r13, 1456(%rsp)
	movq	48(%rsp), %rax
	movq	%rax, 1464(%rsp)
	movq	16(%rsp), %rax
	movq	%rax, 1472(%rsp)
	movq	8(%rsp), %rax
	movq	%rax, 1480(%rsp)
	movq	32(%rsp), %rax
	movq	%rax, 1488(%rsp)
	movq	40(%rsp), %rax
	movq	%rax, 1496(%rsp)
	movq	%r9, 1504(%rsp)
	movq	56(%rsp), %rax
	movq	%rax, 1512(%rsp)
	movq	72(%rsp), %rax
	movq	%rax, 1520(%rsp)
	movaps	400(%rsp), %xmm0
	movaps	416(%rsp), %xmm1
	movups	%xmm0, 1528(%rsp)
	movups	%xmm1, 1544(%rsp)
	movq	%r8, 1560(%rsp)
	movq	%rdi, 1568(%rsp)
	movq	%rbp, 1576(%rsp)
	movq	%rcx, 1584(%rsp)
	movl	$9, %eax
	xorl	%ecx, %ecx
	.p2align	4
.LBB14_244:
	movq	1496(%rsp,%rcx,8), %rdx
	imulq	1464(%rsp,%rcx,8), %rdx
	subq	%rdx, %rax
	jb	.LBB14_247
	incq	%rcx
	cmpq	%rcx, %r13
	jne	.LBB14_244
	movq	%r13, %rcx
.LBB14_247:
	movq	96(%rsp), %rdx
	shll	$2, %ecx
	andl	$12, %ecx
	movq	%r11, 1440(%rsp)
	movq	%r15, 1448(%rsp)
	movq	%r13, 1456(%rsp)
	movq	48(%rsp), %rax
	movq	%rax, 1464(%rsp)
	movq	16(%rsp), %rax
	movq	%rax, 1472(%rsp)
	movq	8(%rsp), %rax
	movq	%rax, 1480(%rsp)
	movq	32(%rsp), %rax
	movq	%rax, 1488(%rsp)
	movq	40(%rsp), %rax
	movq	%rax, 1496(%rsp)
	movq	%r9, 1504(%rsp)
	movq	56(%rsp), %rax
	movq	%rax, 1512(%rsp)
	movq	72(%rsp), %rax
	movq	%rax, 1520(%rsp)
	movaps	400(%rsp), %xmm0
	movaps	416(%rsp), %xmm1
	movups	%xmm0, 1528(%rsp)
	movups	%xmm1, 1544(%rsp)
	movq	%r8, 1560(%rsp)
	movq	%rdi, 1568(%rsp)
	movq	%rbp, 1576(%rsp)
	movq	%rdx, 1584(%rsp)
	movl	$8, %edx
	xorl	%eax, %eax
	.p2align	4
.LBB14_248:
	movq	1496(%rsp,%rax,8), %rsi
	imulq	1464(%rsp,%rax,8), %rsi
	subq	%rsi, %rdx
	jb	.LBB14_251
	incq	%rax
	cmpq	%rax, %r13
	jne	.LBB14_248
	movq	%r13, %rax
.LBB14_251:
	andl	$3, %eax
	orq	%rcx, %rax
	movq	%r11, 1440(%rsp)
	movq	%r15, 1448(%rsp)
	movq	%r13, 1456(%rsp)
	movq	48(%rsp), %rcx
	movq	%rcx, 1464(%rsp)
	movq	16(%rsp), %rcx
	movq	%rcx, 1472(%rsp)
	movq	8(%rsp), %rcx
	movq	%rcx, 1480(%rsp)
	movq	32(%rsp), %rcx
	movq	%rcx, 1488(%rsp)
	movq	40(%rsp), %rcx
	movq	%rcx, 1496(%rsp)
	movq	%r9, 1504(%rsp)
	movq	56(%rsp), %rcx
	movq	%rcx, 1512(%rsp)
	movq	72(%rsp), %rcx
	movq	%rcx, 1520(%rsp)
	movaps	400(%rsp), %xmm0
	movaps	416(%rsp), %xmm1
	movups	%xmm0, 1528(%rsp)
	movups	%xmm1, 1544(%rsp)
	movq	%r8, 1560(%rsp)
	movq	%rdi, 1568(%rsp)
	movq	%rbp, 1576(%rsp)
	movq	96(%rsp), %rcx
	movq	%rcx, 1584(%rsp)
	movl	$7, %edx
	xorl	%ecx, %ecx
	.p2align	4
.LBB14_252:
	movq	1496(%rsp,%rcx,8), %rsi
	imulq	1464(%rsp,%rcx,8), %rsi
	subq	%rsi, %rdx
	jb	.LBB14_255
	incq	%rcx
	cmpq	%rcx, %r13
	jne	.LBB14_252
	movq	%r13, %rcx
.LBB14_255:
	shll	$4, %eax
	andl	$3, %ecx
	leal	(%rax,%rcx,4), %ecx
	movq	%r11, 1440(%rsp)
	movq	%r15, 1448(%rsp)
	movq	%r13, 1456(%rsp)
	movq	48(%rsp), %rax
	movq	%rax, 1464(%rsp)
	movq	16(%rsp), %rax
	movq	%rax, 1472(%rsp)
	movq	8(%rsp), %rax
	movq	%rax, 1480(%rsp)
	movq	32(%rsp), %rax
	movq	%rax, 1488(%rsp)
	movq	40(%rsp), %rax
	movq	%rax, 1496(%rsp)
	movq	%r9, 1504(%rsp)
	movq	56(%rsp), %rax
	movq	%rax, 1512(%rsp)
	movq	72(%rsp), %rax
	movq	%rax, 1520(%rsp)
	movaps	400(%rsp), %xmm0
	movaps	416(%rsp), %xmm1
	movups	%xmm0, 1528(%rsp)
	movups	%xmm1, 1544(%rsp)
	movq	%r8, 1560(%rsp)
	movq	%rdi, 1568(%rsp)
	movq	%rbp, 1576(%rsp)
	movq	96(%rsp), %rax
	movq	%rax, 1584(%rsp)
	movl	$6, %edx
	xorl	%eax, %eax
	.p2align	4
.LBB14_256:
	movq	1496(%rsp,%rax,8), %rsi
	imulq	1464(%rsp,%rax,8), %rsi
	subq	%rsi, %rdx
	jb	.LBB14_259
	incq	%rax
	cmpq	%rax, %r13
	jne	.LBB14_256
	movq	%r13, %rax
.LBB14_259:
	andl	$3, %eax
	orq	%rcx, %rax
	movq	%r11, 1440(%rsp)
	movq	%r15, 1448(%rsp)
	movq	%r13, 1456(%rsp)
	movq	48(%rsp), %rcx
	movq	%rcx, 1464(%rsp)
	movq	16(%rsp), %rcx
	movq	%rcx, 1472(%rsp)
	movq	8(%rsp), %rcx
	movq	%rcx, 1480(%rsp)
	movq	32(%rsp), %rcx
	movq	%rcx, 1488(%rsp)
	movq	40(%rsp), %rcx
	movq	%rcx, 1496(%rsp)
	movq	%r9, 1504(%rsp)
	movq	56(%rsp), %rcx
	movq	%rcx, 1512(%rsp)
	movq	72(%rsp), %rcx
	movq	%rcx, 1520(%rsp)
	movaps	400(%rsp), %xmm0
	movaps	416(%rsp), %xmm1
	movups	%xmm0, 1528(%rsp)
	movups	%xmm1, 1544(%rsp)
	movq	%r8, 1560(%rsp)
	movq	%rdi, 1568(%rsp)
	movq	%rbp, 1576(%rsp)
	movq	96(%rsp), %rcx
	movq	%rcx, 1584(%rsp)
	movl	$5, %edx
	xorl	%ecx, %ecx
	.p2align	4
.LBB14_260:
	movq	1496(%rsp,%rcx,8), %rsi
	imulq	1464(%rsp,%rcx,8), %rsi
	subq	%rsi, %rdx
	jb	.LBB14_263
	incq	%rcx
	cmpq	%rcx, %r13
	jne	.LBB14_260
	movq	%r13, %rcx
.LBB14_263:
	shll	$4, %eax
	andl	$3, %ecx
	leal	(%rax,%rcx,4), %ecx
	movq	%r11, 1440(%rsp)
	movq	%r15, 1448(%rsp)
	movq	%r13, 1456(%rsp)
	movq	48(%rsp), %rax
	movq	%rax, 1464(%rsp)
	movq	16(%rsp), %rax
	movq	%rax, 1472(%rsp)
	movq	8(%rsp), %rax
	movq	%rax, 1480(%rsp)
	movq	32(%rsp), %rax
	movq	%rax, 1488(%rsp)
	movq	40(%rsp), %rax
	movq	%rax, 1496(%rsp)
	movq	%r9, 1504(%rsp)
	movq	56(%rsp), %rax
	movq	%rax, 1512(%rsp)
	movq	72(%rsp), %rax
	movq	%rax, 1520(%rsp)
	movaps	400(%rsp), %xmm0
	movaps	416(%rsp), %xmm1
	movups	%xmm0, 1528(%rsp)
	movups	%xmm1, 1544(%rsp)
	movq	%r8, 1560(%rsp)
	movq	%rdi, 1568(%rsp)
	movq	%rbp, 1576(%rsp)
	movq	96(%rsp), %rax
	movq	%rax, 1584(%rsp)
	movl	$4, %edx
	xorl	%eax, %eax
	.p2align	4
.LBB14_264:
	movq	1496(%rsp,%rax,8), %rsi
	imulq	1464(%rsp,%rax,8), %rsi
	subq	%rsi, %rdx
	jb	.LBB14_267
	incq	%rax
	cmpq	%rax, %r13
	jne	.LBB14_264
	movq	%r13, %rax
.LBB14_267:
	andl	$3, %eax
	orq	%rcx, %rax
	movq	%r11, 1440(%rsp)
	movq	%r15, 1448(%rsp)
	movq	%r13, 1456(%rsp)
	movq	48(%rsp), %rcx
	movq	%rcx, 1464(%rsp)
	movq	16(%rsp), %rcx
	movq	%rcx, 1472(%rsp)
	movq	8(%rsp), %rcx
	movq	%rcx, 1480(%rsp)
	movq	32(%rsp), %rcx
	movq	%rcx, 1488(%rsp)
	movq	40(%rsp), %rcx
	movq	%rcx, 1496(%rsp)
	movq	%r9, 1504(%rsp)
	movq	56(%rsp), %rcx
	movq	%rcx, 1512(%rsp)
	movq	72(%rsp), %rcx
	movq	%rcx, 1520(%rsp)
	movaps	1280(%rsp), %xmm0
	movaps	1296(%rsp), %xmm1
	movups	%xmm0, 1528(%rsp)
	movups	%xmm1, 1544(%rsp)
	movq	%r8, 1560(%rsp)
	movq	%rdi, 1568(%rsp)
	movq	%rbp, 1576(%rsp)
	movq	96(%rsp), %rcx
	movq	%rcx, 1584(%rsp)
	movl	$3, %edx
	xorl	%ecx, %ecx
	.p2align	4
.LBB14_268:
	movq	1496(%rsp,%rcx,8), %rsi
	imulq	1464(%rsp,%rcx,8), %rsi
	subq	%rsi, %rdx
	jb	.LBB14_271
	incq	%rcx
	cmpq	%rcx, %r13
	jne	.LBB14_268
	movq	%r13, %rcx
.LBB14_271:
	shll	$4, %eax
	andl	$3, %ecx
	leal	(%rax,%rcx,4), %ecx
	movq	%r11, 1440(%rsp)
	movq	%r15, 1448(%rsp)
	movq	%r13, 1456(%rsp)
	movq	48(%rsp), %rax
	movq	%rax, 1464(%rsp)
	movq	16(%rsp), %rax
	movq	%rax, 1472(%rsp)
	movq	8(%rsp), %rax
	movq	%rax, 1480(%rsp)
	movq	32(%rsp), %rax
	movq	%rax, 1488(%rsp)
	movq	40(%rsp), %rax
	movq	%rax, 1496(%rsp)
	movq	%r9, 1504(%rsp)
	movq	56(%rsp), %rax
	movq	%rax, 1512(%rsp)
	movq	72(%rsp), %rax
	movq	%rax, 1520(%rsp)
	movaps	256(%rsp), %xmm0
	movaps	272(%rsp), %xmm1
	movups	%xmm0, 1528(%rsp)
	movups	%xmm1, 1544(%rsp)
	movq	%r8, 1560(%rsp)
	movq	%rdi, 1568(%rsp)
	movq	%rbp, 1576(%rsp)
	movq	96(%rsp), %rax
	movq	%rax, 1584(%rsp)
	movl	$2, %edx
	xorl	%eax, %eax
	.p2align	4
.LBB14_272:
	movq	1496(%rsp,%rax,8), %rsi
	imulq	1464(%rsp,%rax,8), %rsi
	subq	%rsi, %rdx
	jb	.LBB14_275
	incq	%rax
	cmpq	%rax, %r13
	jne	.LBB14_272
	movq	%r13, %rax
.LBB14_275:
	andl	$3, %eax
	orq	%rcx, %rax
	movq	%r11, 1440(%rsp)
	movq	%r15, 1448(%rsp)
	movq	%r13, 1456(%rsp)
	movq	48(%rsp), %rcx
	movq	%rcx, 1464(%rsp)
	movq	16(%rsp), %rcx
	movq	%rcx, 1472(%rsp)
	movq	8(%rsp), %rcx
	movq	%rcx, 1480(%rsp)
	movq	32(%rsp), %rcx
	movq	%rcx, 1488(%rsp)
	movq	40(%rsp), %rcx
	movq	%rcx, 1496(%rsp)
	movq	%r9, 1504(%rsp)
	movq	56(%rsp), %rcx
	movq	%rcx, 1512(%rsp)
	movq	72(%rsp), %rcx
	movq	%rcx, 1520(%rsp)
	movaps	288(%rsp), %xmm0
	movaps	304(%rsp), %xmm1
	movups	%xmm0, 1528(%rsp)
	movups	%xmm1, 1544(%rsp)
	movq	%r8, 1560(%rsp)
	movq	%rdi, 1568(%rsp)
	movq	%rbp, 1576(%rsp)
	movq	96(%rsp), %rcx
	movq	%rcx, 1584(%rsp)
	movl	$1, %edx
	xorl	%ecx, %ecx
	.p2align	4
.LBB14_276:
	movq	1496(%rsp,%rcx,8), %rsi
	imulq	1464(%rsp,%rcx,8), %rsi
	subq	%rsi, %rdx
	jb	.LBB14_279
	incq	%rcx
	cmpq	%rcx, %r13
	jne	.LBB14_276
	movq	%r13, %rcx
.LBB14_279:
	movq	%r11, 1440(%rsp)
	movq	%r15, 1448(%rsp)
	movq	%r13, 1456(%rsp)
	movq	48(%rsp), %rdx
	movq	%rdx, 1464(%rsp)
	movq	16(%rsp), %rdx
	movq	%rdx, 1472(%rsp)
	movq	8(%rsp), %rdx
	movq	%rdx, 1480(%rsp)
	movq	32(%rsp), %rdx
	movq	%rdx, 1488(%rsp)
	movq	40(%rsp), %rdx
	movq	%rdx, 1496(%rsp)
	movq	%r9, 1504(%rsp)
	movq	56(%rsp), %rdx
	movq	%rdx, 1512(%rsp)
	movq	72(%rsp), %rdx
	movq	%rdx, 1520(%rsp)
	movaps	320(%rsp), %xmm0
	movaps	336(%rsp), %xmm1
	movups	%xmm0, 1528(%rsp)
	movups	%xmm1, 1544(%rsp)
	movq	%r8, 1560(%rsp)
	movq	%rdi, 1568(%rsp)
	movq	%rbp, 1576(%rsp)
	movq	96(%rsp), %rdx
	movq	%rdx, 1584(%rsp)
	xorl	%edx, %edx
	movq	88(%rsp), %r15
	movq	%r10, 40(%rsp)
	movq	%r14, 144(%rsp)
	.p2align	4
.LBB14_280:
	movq	1496(%rsp,%rdx,8), %rsi
	imulq	1464(%rsp,%rdx,8), %rsi
	testq	%rsi, %rsi
	jne	.LBB14_283
	incq	%rdx
	cmpq	%rdx, %r13
	jne	.LBB14_280
	movq	%r13, %rdx
.LBB14_283:
	andl	$3, %edx
	shll	$4, %eax
	andl	$3, %ecx
	leal	(%rax,%rcx,4), %eax
	orq	%rdx, %rax
	movq	%rax, 8(%rsp)
	movq	136(%rsp), %rax
	movq	%rax, 960(%rsp)
	movq	176(%rsp), %rax
	movq	%rax, 968(%rsp)
	movq	80(%rsp), %rax
	movq	%rax, 976(%rsp)
	movq	24(%rsp), %rax
	movq	%rax, 984(%rsp)
	movq	104(%rsp), %rax
	movq	%rax, 992(%rsp)
	movq	160(%rsp), %rax
	movq	%rax, 1000(%rsp)
	movq	64(%rsp), %rax
	movq	%rax, 1008(%rsp)
	movq	%r12, 16(%rsp)
	movq	%r12, 1016(%rsp)
	leaq	1440(%rsp), %rdi
	movl	$8192, %edx
	xorl	%esi, %esi
	callq	memset@PLT
	movq	%r15, %rax
	subq	$16, %rax
	movq	%rax, 48(%rsp)
	jae	.LBB14_292
.LBB14_284:
	leaq	17824(%rsp), %r14
	leaq	1440(%rsp), %rsi
	movl	$8192, %edx
	movq	%r14, %rdi
	callq	memcpy@PLT
	leaq	9632(%rsp), %rbp
	movl	$8192, %edx
	movq	%rbp, %rdi
	movq	%r14, %rsi
	callq	memcpy@PLT
	leaq	26016(%rsp), %r9
	movq	%r9, 448(%rsp)
	movq	%rbx, 456(%rsp)
	movq	%r15, 464(%rsp)
	movq	136(%rsp), %rax
	movq	%rax, 472(%rsp)
	movq	80(%rsp), %rax
	movq	%rax, 480(%rsp)
	movq	104(%rsp), %rax
	movq	%rax, 488(%rsp)
	movq	64(%rsp), %rax
	movq	%rax, 496(%rsp)
	movq	176(%rsp), %rax
	movq	%rax, 504(%rsp)
	movq	24(%rsp), %rax
	movq	%rax, 512(%rsp)
	movq	160(%rsp), %rax
	movq	%rax, 520(%rsp)
	movq	16(%rsp), %rax
	movq	%rax, 528(%rsp)
	movq	192(%rsp), %rax
	movq	%rax, 536(%rsp)
	movq	656(%rsp), %rax
	movq	%rax, 544(%rsp)
	movq	648(%rsp), %rax
	movq	%rax, 552(%rsp)
	movq	640(%rsp), %rax
	movq	%rax, 560(%rsp)
	movq	8(%rsp), %rax
	movq	%rax, 568(%rsp)
	movq	40(%rsp), %r11
	movq	%r11, 576(%rsp)
	movq	440(%rsp), %rax
	movq	%rax, 584(%rsp)
	movq	392(%rsp), %rax
	movq	%rax, 592(%rsp)
	xorps	%xmm0, %xmm0
	movaps	%xmm0, 368(%rsp)
	movaps	%xmm0, 352(%rsp)
	movq	$0, 384(%rsp)
	movq	144(%rsp), %r14
	movl	%r14d, %ecx
	shrl	$2, %ecx
	cmpq	%rcx, %rax
	ja	.LBB14_290
	movl	%r14d, %edx
	shrl	%edx
	subq	%rax, %rdx
	subq	%rax, %rdx
	cmpq	%rdx, 1168(%rsp)
	ja	.LBB14_290
	cmpq	$4, %r13
	ja	.LBB14_290
	leaq	472(%rsp), %r10
	leaq	1(,%r13,2), %rcx
	.p2align	4
.LBB14_288:
	decq	%rcx
	je	.LBB14_307
	cmpl	$0, (%rbp)
	leaq	1024(%rbp), %rbp
	jne	.LBB14_288
.LBB14_290:
	movaps	%xmm0, 1456(%rsp)
	movaps	%xmm0, 1440(%rsp)
	movq	$0, 1472(%rsp)
	leaq	1440(%rsp), %rdi
	leaq	448(%rsp), %rsi
	leaq	17824(%rsp), %rdx
	leaq	207(%rsp), %rcx
	xorl	%r8d, %r8d
	callq	"jpeg_write_scan::run::<#c44e4da361dd472c>"
	movq	1448(%rsp), %r12
	cmpb	$0, 1440(%rsp)
	je	.LBB14_304
	movzbl	1456(%rsp), %eax
	jmp	.LBB14_343
.LBB14_292:
	xorl	%r14d, %r14d
	jmp	.LBB14_294
	.p2align	4
.LBB14_293:
	incq	%r14
	cmpq	$8, %r14
	je	.LBB14_284
.LBB14_294:
	movq	960(%rsp,%r14,8), %r12
	movq	%r14, %rax
	shlq	$10, %rax
	leaq	(%rsp,%rax), %rbp
	addq	$1440, %rbp
	movl	$1024, %edx
	movq	%rbp, %rdi
	xorl	%esi, %esi
	callq	memset@PLT
	cmpq	48(%rsp), %r12
	ja	.LBB14_293
	leaq	(%rsp,%r12), %rax
	addq	$26016, %rax
	addq	$16, %r12
	movl	$1, %ecx
	xorl	%edx, %edx
	jmp	.LBB14_297
	.p2align	4
.LBB14_296:
	incq	%rcx
	cmpq	$17, %rcx
	je	.LBB14_293
.LBB14_297:
	addq	%rdx, %rdx
	movzbl	-1(%rax,%rcx), %esi
	testb	%sil, %sil
	je	.LBB14_296
	movq	%rcx, %rdi
	shlq	$16, %rdi
	movq	$-1, %r8
	shlq	%cl, %r8
	notq	%r8
	jmp	.LBB14_300
	.p2align	4
.LBB14_299:
	incq	%r12
	incq	%rdx
	decb	%sil
	je	.LBB14_296
.LBB14_300:
	cmpq	%r12, %r15
	jbe	.LBB14_293
	movzbl	26016(%rsp,%r12), %r9d
	cmpl	$0, (%rbp,%r9,4)
	jne	.LBB14_299
	movl	%edx, %r10d
	andl	%r8d, %r10d
	addl	%edi, %r10d
	movl	%r10d, (%rbp,%r9,4)
	jmp	.LBB14_299
.LBB14_303:
	movaps	1408(%rsp), %xmm0
	movaps	1424(%rsp), %xmm1
	movaps	%xmm1, 944(%rsp)
	movaps	%xmm0, 928(%rsp)
	movaps	1376(%rsp), %xmm0
	movaps	1392(%rsp), %xmm1
	movaps	%xmm0, 896(%rsp)
	movaps	%xmm1, 912(%rsp)
	movaps	1344(%rsp), %xmm0
	movaps	1360(%rsp), %xmm1
	movaps	%xmm0, 864(%rsp)
	movaps	%xmm1, 880(%rsp)
	movaps	1312(%rsp), %xmm0
	movaps	1328(%rsp), %xmm1
	movaps	%xmm0, 832(%rsp)
	movaps	%xmm1, 848(%rsp)
	movq	%xmm6, 112(%rsp)
	pshufd	$238, %xmm6, %xmm0
	movq	%xmm0, 176(%rsp)
	movq	%xmm8, 160(%rsp)
	pshufd	$238, %xmm8, %xmm0
	movq	%xmm0, 96(%rsp)
	movq	%xmm7, 136(%rsp)
	pshufd	$238, %xmm7, %xmm0
	movq	%xmm0, 144(%rsp)
	movb	$1, %al
	movq	64(%rsp), %rdx
	movq	72(%rsp), %rsi
	movq	56(%rsp), %rdi
	movq	24(%rsp), %rcx
	jmp	.LBB14_161
.LBB14_304:
	cmpq	%r12, %r14
	jb	.LBB14_310
.LBB14_305:
	leaq	352(%rsp), %rdi
	leaq	448(%rsp), %rsi
	leaq	17824(%rsp), %rdx
	movq	1160(%rsp), %rcx
	movq	%r14, %r8
	callq	"jpeg_write_scan::run::<#c44e4da361dd472c>"
	movq	360(%rsp), %r12
	cmpb	$0, 352(%rsp)
	je	.LBB14_310
	movzbl	368(%rsp), %eax
	jmp	.LBB14_343
.LBB14_307:
	testq	%r11, %r11
	je	.LBB14_357
	movq	%rax, %rcx
	orq	%r11, %rcx
	shrq	$32, %rcx
	je	.LBB14_315
	xorl	%edx, %edx
	divq	%r11
	jmp	.LBB14_316
.LBB14_310:
	addq	%r15, %r12
	cmpq	$262144, %r12
	jbe	.LBB14_312
	xorps	%xmm0, %xmm0
	movaps	%xmm0, 9712(%rsp)
	movaps	%xmm0, 9696(%rsp)
	movaps	%xmm0, 9680(%rsp)
	movaps	%xmm0, 9664(%rsp)
	movaps	%xmm0, 9648(%rsp)
	movaps	%xmm0, 9632(%rsp)
	movaps	%xmm0, 17824(%rsp)
	movaps	%xmm0, 17840(%rsp)
	movaps	%xmm0, 17856(%rsp)
	movaps	%xmm0, 17872(%rsp)
	movaps	%xmm0, 17888(%rsp)
	leaq	1463(%rsp), %r14
	movb	$7, %r15b
	leaq	1462(%rsp), %rbx
	jmp	.LBB14_177
.LBB14_312:
	testq	%r15, %r15
	je	.LBB14_314
	leaq	91560(%rsp), %rdi
	leaq	26016(%rsp), %rsi
	movq	%r15, %rdx
	callq	memcpy@PLT
.LBB14_314:
	xorps	%xmm0, %xmm0
	movaps	%xmm0, 9712(%rsp)
	movaps	%xmm0, 9696(%rsp)
	movaps	%xmm0, 9680(%rsp)
	movaps	%xmm0, 9664(%rsp)
	movaps	%xmm0, 9648(%rsp)
	movaps	%xmm0, 9632(%rsp)
	movaps	%xmm0, 17824(%rsp)
	movaps	%xmm0, 17840(%rsp)
	movaps	%xmm0, 17856(%rsp)
	movaps	%xmm0, 17872(%rsp)
	movaps	%xmm0, 17888(%rsp)
	xorl	%edx, %edx
	jmp	.LBB14_185
.LBB14_315:
	xorl	%edx, %edx
	divl	%r11d
.LBB14_316:
	xorl	%r12d, %r12d
	testq	%rdx, %rdx
	setne	%r12b
	addq	%rax, %r12
	je	.LBB14_344
	leaq	1464(%rsp), %r13
	movq	440(%rsp), %rdx
	leaq	-1(%rdx), %rax
	movq	%rax, 8(%rsp)
	movq	%rbx, %rax
	negq	%rax
	movq	%rax, 32(%rsp)
	xorps	%xmm5, %xmm5
	xorl	%r14d, %r14d
	xorl	%ebp, %ebp
	movq	$0, 48(%rsp)
	xorl	%eax, %eax
	xorl	%ecx, %ecx
	xorl	%edi, %edi
	movq	%r15, %rsi
	xorps	%xmm0, %xmm0
	movq	%r12, 16(%rsp)
	jmp	.LBB14_320
.LBB14_318:
	movaps	608(%rsp), %xmm0
	leaq	26016(%rsp), %r9
	movq	40(%rsp), %r11
	leaq	472(%rsp), %r10
	movq	16(%rsp), %r12
	leaq	1464(%rsp), %r13
	xorps	%xmm5, %xmm5
	movq	24(%rsp), %rbp
.LBB14_319:
	movq	%rdi, %rcx
	shrq	$8, %rcx
	movq	%rdi, %rax
	andq	$-65536, %rax
	movq	%r14, %rdx
	incq	%rdx
	xorl	%r14d, %r14d
	movq	440(%rsp), %r8
	cmpq	%r8, %rdx
	cmovneq	%rdx, %r14
	movq	%r8, %rdx
	incq	%rbp
	cmpq	%r12, %rbp
	jae	.LBB14_354
.LBB14_320:
	shll	$8, %ecx
	movzwl	%cx, %ecx
	orq	%rax, %rcx
	movzbl	%dil, %r8d
	movq	%rcx, %rdi
	orq	%r8, %rdi
	movaps	%xmm5, 208(%rsp)
	movaps	%xmm5, 224(%rsp)
	movq	$0, 240(%rsp)
	movq	%r9, 1440(%rsp)
	movq	%rbx, 1448(%rsp)
	movq	%r15, 1456(%rsp)
	movq	96(%r10), %rax
	movq	%rax, 96(%r13)
	movups	80(%r10), %xmm1
	movups	%xmm1, 80(%r13)
	movups	64(%r10), %xmm1
	movups	%xmm1, 64(%r13)
	movups	(%r10), %xmm1
	movdqu	16(%r10), %xmm2
	movdqu	32(%r10), %xmm3
	movdqu	48(%r10), %xmm4
	movdqu	%xmm4, 48(%r13)
	movdqu	%xmm3, 32(%r13)
	movdqu	%xmm2, 16(%r13)
	movups	%xmm1, (%r13)
	movq	%r11, 1568(%rsp)
	movq	%rdx, 1576(%rsp)
	movq	392(%rsp), %rax
	movq	%rax, 1584(%rsp)
	cmpq	48(%rsp), %rax
	jbe	.LBB14_319
	testq	%rdx, %rdx
	sete	%al
	testq	%rbp, %rbp
	movq	%rdx, %r10
	sete	%dl
	orb	%al, %dl
	jne	.LBB14_324
	movq	%rbp, %rax
	orq	%r10, %rax
	shrq	$32, %rax
	je	.LBB14_325
	movq	%rbp, %rax
	xorl	%edx, %edx
	divq	%r10
	movq	%r14, %rdx
	jmp	.LBB14_326
.LBB14_325:
	movl	%ebp, %eax
	xorl	%edx, %edx
	divl	%r10d
.LBB14_326:
	testq	%rdx, %rdx
	je	.LBB14_328
.LBB14_324:
	movq	%rbp, 24(%rsp)
.LBB14_338:
	movaps	%xmm0, 608(%rsp)
	xorl	%r12d, %r12d
	movq	392(%rsp), %rax
	movq	48(%rsp), %rcx
	subq	%rcx, %rax
	cmovaeq	%rax, %r12
	cmpq	%r11, %r12
	cmovaeq	%r11, %r12
	movq	1560(%rsp), %rbp
	addq	%r12, %rcx
	movq	%rcx, 48(%rsp)
.LBB14_339:
	movl	%ebp, %r13d
	andl	$3, %r13d
	movq	%rsi, 672(%rsp)
	movq	%rdi, 680(%rsp)
	movl	%r13d, %eax
	movl	608(%rsp,%rax,4), %r8d
	leaq	208(%rsp), %rdi
	leaq	1440(%rsp), %rsi
	leaq	672(%rsp), %rcx
	leaq	960(%rsp), %r9
	movq	%r13, %rdx
	callq	"jpeg_engine::PlainEngine::block"
	cmpb	$0, 208(%rsp)
	jne	.LBB14_341
	movl	232(%rsp), %eax
	movq	216(%rsp), %rsi
	movq	224(%rsp), %rdi
	movl	%eax, 608(%rsp,%r13,4)
	shrq	$2, %rbp
	decq	%r12
	jne	.LBB14_339
	jmp	.LBB14_318
.LBB14_328:
	shrq	$8, %rcx
	decl	%eax
	andl	$7, %eax
	orq	$208, %rax
	cmpq	%rbp, 8(%rsp)
	movl	$208, %edx
	cmovbq	%rax, %rdx
	movb	$3, %al
	cmpb	$8, %cl
	ja	.LBB14_342
	andb	$15, %cl
	movl	$-1, %edi
	shll	%cl, %edi
	orl	%edi, %r8d
	cmpl	$-1, %r8d
	jne	.LBB14_342
	cmpq	%rbx, %rsi
	jae	.LBB14_342
	movq	32(%rsp), %rcx
	leaq	(%rcx,%rsi), %rdi
	xorl	%ecx, %ecx
	movq	%r9, %r8
.LBB14_332:
	movzbl	(%r8,%rsi), %r9d
	cmpq	$255, %r9
	jne	.LBB14_334
	decq	%rcx
	incq	%r8
	cmpq	%rcx, %rdi
	jne	.LBB14_332
	jmp	.LBB14_342
.LBB14_334:
	testq	%rcx, %rcx
	je	.LBB14_342
	subq	%rcx, %rsi
	cmpq	%rsi, %rbx
	jbe	.LBB14_342
	cmpl	%r9d, %edx
	jne	.LBB14_342
	movq	%rbp, 24(%rsp)
	incq	%rsi
	xorps	%xmm0, %xmm0
	xorl	%edi, %edi
	jmp	.LBB14_338
.LBB14_341:
	movzbl	209(%rsp), %eax
.LBB14_342:
	movl	$1, %r12d
.LBB14_343:
	xorl	%ecx, %ecx
	testb	%r12b, %r12b
	movl	$0, %r15d
	setne	%r15b
	movzbl	%al, %r9d
	cmovel	%ecx, %r9d
	addq	$9, %r15
	jmp	.LBB14_169
.LBB14_344:
	xorl	%ecx, %ecx
	xorl	%eax, %eax
	movq	%r15, %rsi
.LBB14_345:
	movq	$-1, %rdx
	shlq	%cl, %rdx
	orq	%rax, %rdx
	movl	$1, %r12d
	movb	$3, %al
	cmpq	$-1, %rdx
	jne	.LBB14_343
	cmpq	%rbx, %rsi
	jae	.LBB14_343
	xorl	%ecx, %ecx
.LBB14_348:
	movzbl	26016(%rsp,%rsi), %edx
	cmpb	$-1, %dl
	jne	.LBB14_350
	incq	%rsi
	decq	%rcx
	cmpq	%rsi, %rbx
	jne	.LBB14_348
	jmp	.LBB14_343
.LBB14_350:
	testq	%rcx, %rcx
	je	.LBB14_343
	cmpq	%rsi, %rbx
	jbe	.LBB14_343
	cmpb	$-39, %dl
	jne	.LBB14_343
	decq	%rbx
	cmpq	%rsi, %rbx
	je	.LBB14_305
	jmp	.LBB14_343
.LBB14_354:
	cmpb	$8, %cl
	ja	.LBB14_356
	movzbl	%dil, %eax
	movq	144(%rsp), %r14
	jmp	.LBB14_345
.LBB14_356:
	movl	$1, %r12d
	movb	$3, %al
	jmp	.LBB14_343
.LBB14_357:
	ud2
.Lfunc_end14:
	.size	main, .Lfunc_end14-main
	.section	.rodata.main,"a",@progbits
	.p2align	2, 0x0
.LJTI14_0:
	.long	.LBB14_82-.LJTI14_0
	.long	.LBB14_98-.LJTI14_0
	.long	.LBB14_96-.LJTI14_0
	.long	.LBB14_100-.LJTI14_0
	.long	.LBB14_96-.LJTI14_0
	.long	.LBB14_96-.LJTI14_0
	.long	.LBB14_96-.LJTI14_0
	.long	.LBB14_96-.LJTI14_0
	.long	.LBB14_96-.LJTI14_0
	.long	.LBB14_96-.LJTI14_0
	.long	.LBB14_96-.LJTI14_0
	.long	.LBB14_96-.LJTI14_0
	.long	.LBB14_96-.LJTI14_0
	.long	.LBB14_96-.LJTI14_0
	.long	.LBB14_96-.LJTI14_0
	.long	.LBB14_96-.LJTI14_0
	.long	.LBB14_96-.LJTI14_0
	.long	.LBB14_96-.LJTI14_0
	.long	.LBB14_96-.LJTI14_0
	.long	.LBB14_96-.LJTI14_0
	.long	.LBB14_96-.LJTI14_0
	.long	.LBB14_96-.LJTI14_0
	.long	.LBB14_96-.LJTI14_0
	.long	.LBB14_96-.LJTI14_0
	.long	.LBB14_96-.LJTI14_0
	.long	.LBB14_96-.LJTI14_0
	.long	.LBB14_96-.LJTI14_0
	.long	.LBB14_96-.LJTI14_0
	.long	.LBB14_96-.LJTI14_0
	.long	.LBB14_96-.LJTI14_0
	.long	.LBB14_96-.LJTI14_0
	.long	.LBB14_96-.LJTI14_0
	.long	.LBB14_96-.LJTI14_0
	.long	.LBB14_96-.LJTI14_0
	.long	.LBB14_96-.LJTI14_0
	.long	.LBB14_96-.LJTI14_0
	.long	.LBB14_113-.LJTI14_0
.LJTI14_1:
	.long	.LBB14_176-.LJTI14_1
	.long	.LBB14_170-.LJTI14_1
	.long	.LBB14_173-.LJTI14_1
	.long	.LBB14_174-.LJTI14_1
	.long	.LBB14_175-.LJTI14_1
	.long	.LBB14_171-.LJTI14_1
	.long	.LBB14_170-.LJTI14_1
	.long	.LBB14_177-.LJTI14_1
	.long	.LBB14_177-.LJTI14_1
	.long	.LBB14_177-.LJTI14_1
	.long	.LBB14_172-.LJTI14_1
.LJTI14_2:
	.long	.LBB14_173-.LJTI14_2
	.long	.LBB14_207-.LJTI14_2
	.long	.LBB14_208-.LJTI14_2
	.long	.LBB14_174-.LJTI14_2

	.type	.Lstatic.2,@object
	.section	.rodata..Lstatic.2,"a",@progbits
.Lstatic.2:
	.size	.Lstatic.2, 0

	.type	.Lstatic.3,@object
	.section	.rodata.cst8,"aM",@progbits,8
.Lstatic.3:
	.ascii	"refused "
	.size	.Lstatic.3, 8

	.type	.Lstatic.4,@object
	.section	.rodata..Lstatic.4,"a",@progbits
.Lstatic.4:
	.byte	10
	.size	.Lstatic.4, 1

	.type	.Lstatic.12,@object
	.section	.data.rel.ro..Lstatic.12,"aw",@progbits
	.p2align	3, 0x0
.Lstatic.12:
	.quad	.Lstatic.12+16
	.asciz	"\003\000\000\000\000\000\000\000...\000\000\000\000"
	.size	.Lstatic.12, 24

	.type	.Lstatic.13,@object
	.section	.rodata.cst4,"aM",@progbits,4
.Lstatic.13:
	.zero	4,32
	.size	.Lstatic.13, 4

	.type	.Lstatic.16,@object
	.section	.rodata..Lstatic.16,"a",@progbits
.Lstatic.16:
	.ascii	"gave up reading or writing after 2^64 tries"
	.size	.Lstatic.16, 43

	.type	.Lstatic.17,@object
	.section	.rodata..Lstatic.17,"a",@progbits
.Lstatic.17:
	.ascii	"tillsparrow: the input cannot be read"
	.size	.Lstatic.17, 37

	.type	.Lstatic.18,@object
	.section	.rodata..Lstatic.18,"a",@progbits
.Lstatic.18:
	.ascii	"tillsparrow: the output cannot be written"
	.size	.Lstatic.18, 41

	.ident	"rattle logic=dac8208d650f15bf3e2dc313a14fa4c783a3acf887bdfab66e1714b038d9e11b"
	.section	".note.GNU-stack","",@progbits
	.text
	.globl	rattle_errno
	.p2align	4
	.type	rattle_errno,@function
rattle_errno:
	.cfi_startproc
	pushq	%rax
	.cfi_def_cfa_offset 16
	callq	__errno_location@PLT
	movl	(%rax), %eax
	popq	%rcx
	.cfi_def_cfa_offset 8
	retq
.Lerror_func_end0:
	.size	rattle_errno, .Lerror_func_end0-rattle_errno
	.cfi_endproc

	.section	".note.GNU-stack","",@progbits
