	.file	"rattle"
	.section	".text.sq_digits::decimal::push_long::<=63>","ax",@progbits
	.p2align	4
	.type	"sq_digits::decimal::push_long::<=63>",@function
"sq_digits::decimal::push_long::<=63>":
	movabsq	$999999999999999, %rax
	cmpq	%rax, %rsi
	ja	"sq_digits::decimal::push_longest::<=63>"
	movabsq	$4835703278458516699, %rcx
	movq	%rsi, %rax
	mulq	%rcx
	shrq	$18, %rdx
	movq	%rsi, %rax
	shrq	$12, %rax
	movq	64(%rdi), %rcx
	cmpq	$244140624, %rax
	ja	.LBB0_3
	movl	%edx, %eax
	imulq	$274877907, %rax, %r8
	movq	%rsi, %r9
	shrq	$11, %r9
	xorl	%eax, %eax
	cmpq	$48828125, %r9
	setb	%al
	movq	%rsi, %r9
	shrq	$10, %r9
	cmpq	$9765625, %r9
	adcq	$0, %rax
	shrq	$36, %r8
	andl	$-4, %r8d
	leaq	.Lstatic.22(%rip), %r9
	addq	%r9, %r8
	movl	(%rax,%r8), %r8d
	movl	%r8d, (%rdi,%rcx)
	xorq	$3, %rax
	leaq	(%rcx,%rax), %r8
	imulq	$274877907, %rdx, %r10
	shrq	$38, %r10
	imull	$1000, %r10d, %r10d
	subl	%r10d, %edx
	movl	(%r9,%rdx,4), %edx
	movl	%edx, (%rdi,%r8)
	leaq	(%rcx,%rax), %r8
	addq	$3, %r8
	jmp	.LBB0_4
.LBB0_3:
	pushq	%rbx
	movl	%edx, %eax
	imulq	$1125899907, %rax, %rax
	movabsq	$100000000000000, %r9
	xorl	%r8d, %r8d
	cmpq	%r9, %rsi
	setb	%r8b
	movq	%rsi, %r9
	shrq	$13, %r9
	cmpq	$1220703125, %r9
	adcq	$0, %r8
	shrq	$48, %rax
	andl	$-4, %eax
	leaq	.Lstatic.22(%rip), %r9
	addq	%r9, %rax
	movl	(%r8,%rax), %eax
	movl	%eax, (%rdi,%rcx)
	xorq	$3, %r8
	leaq	(%rcx,%r8), %r10
	movq	%r10, 64(%rdi)
	movq	%rsi, %rax
	shrq	$9, %rax
	movabsq	$19342813113834067, %r11
	movq	%rdx, %rbx
	mulq	%r11
	shrq	$11, %rdx
	imulq	$274877907, %rdx, %rax
	shrq	$38, %rax
	imull	$1000, %eax, %eax
	subl	%eax, %edx
	movzwl	(%r9,%rdx,4), %eax
	movw	%ax, (%rdi,%r10)
	movzbl	2(%r9,%rdx,4), %eax
	movb	%al, 2(%rdi,%r10)
	imulq	$274877907, %rbx, %rax
	shrq	$38, %rax
	imull	$1000, %eax, %eax
	subl	%eax, %ebx
	movl	(%r9,%rbx,4), %eax
	movl	%eax, 3(%rdi,%r10)
	addq	%rcx, %r8
	addq	$6, %r8
	popq	%rbx
.LBB0_4:
	movq	%rsi, %rax
	shrq	$3, %rax
	movabsq	$2361183241434822607, %rcx
	mulq	%rcx
	movq	%rdx, %rcx
	shrq	$4, %rcx
	movabsq	$18446744073709552, %rdx
	movq	%rcx, %rax
	mulq	%rdx
	imull	$1000, %edx, %eax
	imull	$1000, %ecx, %edx
	subl	%eax, %ecx
	leaq	.Lstatic.22(%rip), %rax
	movzwl	(%rax,%rcx,4), %r9d
	movw	%r9w, (%rdi,%r8)
	movzbl	2(%rax,%rcx,4), %ecx
	movb	%cl, 2(%rdi,%r8)
	subl	%edx, %esi
	movl	(%rax,%rsi,4), %eax
	movl	%eax, 3(%rdi,%r8)
	addq	$6, %r8
	movq	%r8, 64(%rdi)
	retq
.Lfunc_end0:
	.size	"sq_digits::decimal::push_long::<=63>", .Lfunc_end0-"sq_digits::decimal::push_long::<=63>"

	.section	".text.unlikely.sq_digits::decimal::push_longest::<=63>","ax",@progbits
	.p2align	4
	.type	"sq_digits::decimal::push_longest::<=63>",@function
"sq_digits::decimal::push_longest::<=63>":
	pushq	%r15
	pushq	%r14
	pushq	%rbx
	subq	$48, %rsp
	movq	%rsi, %rdx
	xorps	%xmm0, %xmm0
	movaps	%xmm0, 16(%rsp)
	movaps	%xmm0, (%rsp)
	movq	$0, 32(%rsp)
	xorl	%esi, %esi
	.p2align	4
.LBB1_1:
	movq	%rdx, %rcx
	movabsq	$3777893186295716171, %rdx
	movq	%rcx, %rax
	mulq	%rdx
	shrq	$11, %rdx
	imull	$10000, %edx, %eax
	movl	%ecx, %r8d
	subl	%eax, %r8d
	imull	$5243, %r8d, %r9d
	shrl	$19, %r9d
	imull	$100, %r9d, %eax
	subl	%eax, %r8d
	movzwl	%r8w, %r8d
	leaq	.Lstatic.23(%rip), %rax
	movzwl	(%rax,%r8,2), %r8d
	movw	%r8w, 38(%rsp,%rsi)
	movzwl	(%rax,%r9,2), %r8d
	movw	%r8w, 36(%rsp,%rsi)
	addq	$-4, %rsi
	cmpq	$99999999, %rcx
	ja	.LBB1_1
	cmpq	$999999, %rcx
	ja	.LBB1_6
	cmpq	$99999, %rcx
	ja	.LBB1_5
	orb	$48, %dl
	movb	%dl, 39(%rsp,%rsi)
	addq	$39, %rsi
	jmp	.LBB1_8
.LBB1_6:
	movl	%edx, %r8d
	shrl	$2, %r8d
	movzwl	%r8w, %r8d
	imull	$5243, %r8d, %r8d
	shrl	$17, %r8d
	imull	$100, %r8d, %r9d
	subl	%r9d, %edx
	movzwl	%dx, %edx
	movzwl	(%rax,%rdx,2), %edx
	movw	%dx, 38(%rsp,%rsi)
	cmpq	$9999999, %rcx
	ja	.LBB1_9
	orb	$48, %r8b
	movb	%r8b, 37(%rsp,%rsi)
	addq	$37, %rsi
	jmp	.LBB1_8
.LBB1_5:
	movzwl	(%rax,%rdx,2), %eax
	movw	%ax, 38(%rsp,%rsi)
	addq	$38, %rsi
.LBB1_8:
	movl	$40, %ebx
	subq	%rsi, %rbx
	leaq	64(%rdi), %r14
	movq	64(%rdi), %r15
.LBB1_11:
	addq	%rsp, %rsi
	addq	%r15, %rdi
	movq	%rbx, %rdx
	callq	memcpy@PLT
.LBB1_12:
	addq	%rbx, %r15
	movq	%r15, (%r14)
	addq	$48, %rsp
	popq	%rbx
	popq	%r14
	popq	%r15
	retq
.LBB1_9:
	leaq	64(%rdi), %r14
	movq	%rsi, %rbx
	movzwl	%r8w, %ecx
	movzwl	(%rax,%rcx,2), %eax
	movw	%ax, 36(%rsp,%rsi)
	movq	64(%rdi), %r15
	subq	$4, %rbx
	jne	.LBB1_10
	xorl	%ebx, %ebx
	jmp	.LBB1_12
.LBB1_10:
	addq	$36, %rsi
	negq	%rbx
	jmp	.LBB1_11
.Lfunc_end1:
	.size	"sq_digits::decimal::push_longest::<=63>", .Lfunc_end1-"sq_digits::decimal::push_longest::<=63>"

	.section	".text.squitter_c::texts::push_named","ax",@progbits
	.p2align	4
	.type	"squitter_c::texts::push_named",@function
"squitter_c::texts::push_named":
	pushq	%rbx
	movzbl	(%rsi), %r9d
	leal	(,%r9,8), %eax
	leaq	".Lswitch.table.sq_text::faults::push_fault::<=512>"(%rip), %rcx
	movq	(%rax,%rcx), %rcx
	leaq	".Lswitch.table.sq_text::faults::push_fault::<=512>.358"(%rip), %rsi
	movq	(%rax,%rsi), %rsi
	movq	64(%rdi), %rax
	leaq	-1(%rcx), %r8
	cmpq	$3, %r8
	jae	.LBB2_2
	xorl	%r8d, %r8d
	jmp	.LBB2_6
.LBB2_2:
	movq	%rcx, %r10
	andq	$-4, %r10
	leaq	(%rax,%rdi), %r11
	addq	$3, %r11
	xorl	%r8d, %r8d
	.p2align	4
.LBB2_3:
	movzbl	(%rsi,%r8), %ebx
	movb	%bl, -3(%r11,%r8)
	movzbl	1(%rsi,%r8), %ebx
	movb	%bl, -2(%r11,%r8)
	movzbl	2(%rsi,%r8), %ebx
	movb	%bl, -1(%r11,%r8)
	movzbl	3(%rsi,%r8), %ebx
	movb	%bl, (%r11,%r8)
	addq	$4, %r8
	cmpq	%r8, %r10
	jne	.LBB2_3
	cmpl	$2, %r9d
	je	.LBB2_8
	cmpl	$8, %r9d
	je	.LBB2_8
.LBB2_6:
	movl	%ecx, %r9d
	andl	$3, %r9d
	leaq	(%rdi,%r8), %r10
	addq	%rax, %r10
	addq	%r8, %rsi
	xorl	%r8d, %r8d
	.p2align	4
.LBB2_7:
	movzbl	(%rsi,%r8), %r11d
	movb	%r11b, (%r10,%r8)
	incq	%r8
	cmpq	%r8, %r9
	jne	.LBB2_7
.LBB2_8:
	addq	%rcx, %rax
	movq	%rax, 64(%rdi)
	cmpq	$999999999, %rdx
	ja	.LBB2_13
	cmpq	$999999, %rdx
	ja	.LBB2_12
	xorl	%ecx, %ecx
	cmpq	$999, %rdx
	ja	.LBB2_14
	cmpq	$100, %rdx
	setb	%cl
	cmpq	$10, %rdx
	adcq	$0, %rcx
	leaq	.Lstatic.22(%rip), %rsi
	leaq	(%rsi,%rdx,4), %rdx
	movl	(%rcx,%rdx), %edx
	movl	%edx, (%rdi,%rax)
	xorq	$3, %rcx
	addq	%rax, %rcx
	movq	%rcx, 64(%rdi)
	popq	%rbx
	retq
.LBB2_13:
	movq	%rdx, %rsi
	popq	%rbx
	jmp	"sq_digits::decimal::push_long::<=63>"
.LBB2_12:
	imulq	$1125899907, %rdx, %rsi
	xorl	%ecx, %ecx
	cmpq	$100000000, %rdx
	setb	%cl
	cmpq	$10000000, %rdx
	adcq	$0, %rcx
	shrq	$48, %rsi
	andl	$32764, %esi
	leaq	.Lstatic.22(%rip), %r8
	addq	%r8, %rsi
	movl	(%rcx,%rsi), %esi
	movl	%esi, (%rdi,%rax)
	xorq	$3, %rcx
	leaq	(%rax,%rcx), %rsi
	imulq	$274877907, %rdx, %r9
	shrq	$38, %r9
	imulq	$68719477, %r9, %r10
	shrq	$36, %r10
	imull	$1000, %r10d, %r10d
	imull	$1000, %r9d, %r11d
	subl	%r10d, %r9d
	movzwl	(%r8,%r9,4), %r10d
	movw	%r10w, (%rdi,%rsi)
	movzbl	2(%r8,%r9,4), %r9d
	movb	%r9b, 2(%rdi,%rsi)
	subl	%r11d, %edx
	movl	(%r8,%rdx,4), %edx
	movl	%edx, 3(%rdi,%rsi)
	addq	%rcx, %rax
	addq	$6, %rax
	movq	%rax, 64(%rdi)
	popq	%rbx
	retq
.LBB2_14:
	cmpq	$100000, %rdx
	setb	%cl
	cmpq	$10000, %rdx
	adcq	$0, %rcx
	leaq	.Lstatic.22(%rip), %rsi
	imulq	$274877907, %rdx, %r8
	shrq	$38, %r8
	leaq	(%rsi,%r8,4), %r9
	movl	(%rcx,%r9), %r9d
	movl	%r9d, (%rdi,%rax)
	xorq	$3, %rcx
	leaq	(%rax,%rcx), %r9
	imull	$1000, %r8d, %r8d
	subl	%r8d, %edx
	movl	(%rsi,%rdx,4), %edx
	movl	%edx, (%rdi,%r9)
	addq	%rcx, %rax
	addq	$3, %rax
	movq	%rax, 64(%rdi)
	popq	%rbx
	retq
.Lfunc_end2:
	.size	"squitter_c::texts::push_named", .Lfunc_end2-"squitter_c::texts::push_named"

	.section	".text.unlikely.sq_angle::quotients::divided","ax",@progbits
	.p2align	4
	.type	"sq_angle::quotients::divided",@function
"sq_angle::quotients::divided":
	xorl	%eax, %eax
	testq	%rsi, %rsi
	cmoveq	%rdi, %rax
	jne	.LBB3_6
	testq	%rdx, %rdx
	je	.LBB3_9
	movq	%rax, %rsi
	movq	%rdx, %rcx
	orq	%rdx, %rsi
	shrq	$32, %rsi
	je	.LBB3_3
	xorl	%edx, %edx
	divq	%rcx
	xorl	%edx, %edx
	retq
.LBB3_6:
	testq	%rdx, %rdx
	je	.LBB3_9
	pushq	%rax
	xorl	%ecx, %ecx
	callq	__udivti3@PLT
	addq	$8, %rsp
	retq
.LBB3_3:
	xorl	%edx, %edx
	divl	%ecx
	xorl	%edx, %edx
	retq
.LBB3_9:
	ud2
.Lfunc_end3:
	.size	"sq_angle::quotients::divided", .Lfunc_end3-"sq_angle::quotients::divided"

	.section	".text.core::slice::words::skip_far::<#52f9edcae2f82f51>","ax",@progbits
	.p2align	4
	.type	"core::slice::words::skip_far::<#52f9edcae2f82f51>",@function
"core::slice::words::skip_far::<#52f9edcae2f82f51>":
	movq	%rsi, %rax
	subq	%rsi, %rdx
	cmpq	$64, %rdx
	jb	.LBB4_4
	movq	(%rdi), %rcx
	.p2align	4
.LBB4_2:
	movdqu	(%rcx,%rax), %xmm0
	movdqu	16(%rcx,%rax), %xmm1
	movdqu	32(%rcx,%rax), %xmm2
	por	%xmm0, %xmm2
	movdqu	48(%rcx,%rax), %xmm0
	por	%xmm1, %xmm0
	por	%xmm2, %xmm0
	pshufd	$238, %xmm0, %xmm1
	por	%xmm0, %xmm1
	movq	%xmm1, %rsi
	movabsq	$-9187201950435737472, %rdi
	testq	%rdi, %rsi
	jne	.LBB4_4
	addq	$64, %rax
	addq	$-64, %rdx
	cmpq	$63, %rdx
	ja	.LBB4_2
.LBB4_4:
	retq
.Lfunc_end4:
	.size	"core::slice::words::skip_far::<#52f9edcae2f82f51>", .Lfunc_end4-"core::slice::words::skip_far::<#52f9edcae2f82f51>"

	.section	.rodata.cst16,"aM",@progbits,16
	.p2align	4, 0x0
.LCPI5_0:
	.zero	16,127
	.section	".text.core::slice::words::skip_far::<#d9bf6fcacf29a880>","ax",@progbits
	.p2align	4
	.type	"core::slice::words::skip_far::<#d9bf6fcacf29a880>",@function
"core::slice::words::skip_far::<#d9bf6fcacf29a880>":
	movq	%rsi, %rax
	subq	%rsi, %rdx
	cmpq	$64, %rdx
	jb	.LBB5_4
	movabsq	$-9187201950435737472, %rcx
	movq	(%rdi), %rsi
	movzbl	16(%rdi), %edi
	movabsq	$72340172838076673, %r8
	imulq	%rdi, %r8
	movq	%r8, %xmm0
	pshufd	$68, %xmm0, %xmm0
	.p2align	4
.LBB5_2:
	movdqu	(%rsi,%rax), %xmm2
	movdqu	16(%rsi,%rax), %xmm3
	movdqu	32(%rsi,%rax), %xmm1
	movdqu	48(%rsi,%rax), %xmm4
	pxor	%xmm0, %xmm1
	pxor	%xmm0, %xmm2
	pxor	%xmm0, %xmm4
	pxor	%xmm0, %xmm3
	movdqa	.LCPI5_0(%rip), %xmm5
	movdqa	%xmm3, %xmm6
	pand	%xmm5, %xmm6
	movdqa	%xmm4, %xmm7
	pand	%xmm5, %xmm7
	movdqa	%xmm2, %xmm8
	pand	%xmm5, %xmm8
	movdqa	%xmm1, %xmm9
	pand	%xmm5, %xmm9
	paddq	%xmm5, %xmm9
	paddq	%xmm5, %xmm8
	paddq	%xmm5, %xmm7
	paddq	%xmm5, %xmm6
	por	%xmm3, %xmm6
	por	%xmm4, %xmm7
	pand	%xmm6, %xmm7
	por	%xmm2, %xmm8
	por	%xmm1, %xmm9
	pand	%xmm8, %xmm9
	pand	%xmm7, %xmm9
	pshufd	$238, %xmm9, %xmm1
	pand	%xmm9, %xmm1
	movq	%xmm1, %rdi
	notq	%rdi
	testq	%rdi, %rcx
	jne	.LBB5_4
	addq	$64, %rax
	addq	$-64, %rdx
	cmpq	$63, %rdx
	ja	.LBB5_2
.LBB5_4:
	retq
.Lfunc_end5:
	.size	"core::slice::words::skip_far::<#d9bf6fcacf29a880>", .Lfunc_end5-"core::slice::words::skip_far::<#d9bf6fcacf29a880>"

	.section	".text.sq_cpr::encoding::nearest::<17'sq_cpr::span::Air,21'sq_cpr::span::AirSpan{}>","ax",@progbits
	.p2align	4
	.type	"sq_cpr::encoding::nearest::<17'sq_cpr::span::Air,21'sq_cpr::span::AirSpan{}>",@function
"sq_cpr::encoding::nearest::<17'sq_cpr::span::Air,21'sq_cpr::span::AirSpan{}>":
	pushq	%rbp
	pushq	%r15
	pushq	%r14
	pushq	%r13
	pushq	%r12
	pushq	%rbx
	pushq	%rax
	movl	%edx, %ebp
	movq	%rsi, %r12
	movq	%rdi, %rbx
	movb	$60, %al
	subb	%bpl, %al
	imulq	$360, 8(%rsi), %rsi
	movzbl	%al, %r13d
	movq	%r13, %rax
	imulq	(%r12)
	shldq	$18, %rax, %rdx
	shlq	$18, %rax
	addq	%rsi, %rax
	adcq	$0, %rdx
	leaq	(%rsi,%rsi), %r8
	movabsq	$-9223372036854775808, %r14
	movq	%rax, %rcx
	addq	%r14, %rcx
	movq	%rdx, %rcx
	adcq	$0, %rcx
	movq	%rsi, %rdi
	shrq	$62, %rdi
	jne	.LBB6_9
	testq	%rcx, %rcx
	jne	.LBB6_9
	testq	%rax, %rax
	js	.LBB6_6
	testq	%rsi, %rsi
	je	.LBB6_40
	movq	%rax, %rcx
	orq	%r8, %rcx
	shrq	$32, %rcx
	je	.LBB6_5
	xorl	%edx, %edx
	divq	%r8
	jmp	.LBB6_15
.LBB6_9:
	movq	%rsi, %rcx
	shrq	$63, %rcx
	testq	%rdx, %rdx
	js	.LBB6_12
	testq	%rsi, %rsi
	je	.LBB6_40
	movq	%rax, %rdi
	movq	%rdx, %rsi
	movq	%r8, %rdx
	callq	__udivti3@PLT
.LBB6_15:
	movq	%rax, %r15
	jmp	.LBB6_16
.LBB6_12:
	testq	%rsi, %rsi
	je	.LBB6_40
	notq	%rax
	notq	%rdx
	movq	%rax, %rdi
	movq	%rdx, %rsi
	movq	%r8, %rdx
	callq	__udivti3@PLT
	jmp	.LBB6_8
.LBB6_6:
	testq	%rsi, %rsi
	je	.LBB6_40
	notq	%rax
	xorl	%edx, %edx
	divq	%r8
.LBB6_8:
	movq	%rax, %r15
	notq	%r15
	jmp	.LBB6_16
.LBB6_5:
	xorl	%edx, %edx
	divl	%r8d
	movl	%eax, %r15d
.LBB6_16:
	movslq	%r15d, %rax
	imulq	$360, %rax, %rcx
	movq	%rcx, %rax
	negq	%rax
	cmovsq	%rcx, %rax
	imulq	$47185920, %r13, %rcx
	cmpq	%rax, %rcx
	jb	.LBB6_40
	imulq	$11796480, %r13, %rcx
	cmpq	%rcx, %rax
	ja	.LBB6_40
	movabsq	$4611686018427387904, %rcx
	movl	%r13d, %edx
	shll	$17, %edx
	imulq	$100000000, %rax, %rax
	addq	%rdx, %rax
	decq	%rax
	shrq	$17, %rax
	leaq	.Lstatic.40(%rip), %rdx
	mulq	(%rdx,%r13,8)
	shldq	$16, %rax, %rdx
	movq	%rdx, %rax
	shrq	$25, %rax
	leaq	.Lstatic.41(%rip), %rsi
	movzbl	(%rax,%rsi), %eax
	leaq	.Lstatic.42(%rip), %rsi
	cmpq	%rdx, (%rsi,%rax,8)
	setb	%dl
	xorb	$59, %dl
	movq	%rbp, (%rsp)
	addl	%ebp, %eax
	subb	%al, %dl
	movzbl	%dl, %eax
	cmpb	$2, %al
	movl	$1, %ebp
	cmovael	%eax, %ebp
	movzbl	%bpl, %r13d
	movq	%r13, %rax
	imulq	16(%r12)
	imulq	$360, 24(%r12), %rsi
	shldq	$18, %rax, %rdx
	shlq	$18, %rax
	addq	%rsi, %rax
	adcq	$0, %rdx
	leaq	(%rsi,%rsi), %r8
	addq	%rax, %r14
	movq	%rdx, %rdi
	adcq	$0, %rdi
	cmpq	%rcx, %rsi
	jae	.LBB6_26
	testq	%rdi, %rdi
	jne	.LBB6_26
	testq	%rax, %rax
	js	.LBB6_24
	testq	%rsi, %rsi
	je	.LBB6_40
	movq	%rax, %rcx
	orq	%r8, %rcx
	shrq	$32, %rcx
	je	.LBB6_23
	xorl	%edx, %edx
	divq	%r8
	jmp	.LBB6_32
.LBB6_26:
	movq	%rsi, %rcx
	shrq	$63, %rcx
	testq	%rdx, %rdx
	js	.LBB6_29
	testq	%rsi, %rsi
	je	.LBB6_40
	movq	%rax, %rdi
	movq	%rdx, %rsi
	movq	%r8, %rdx
	callq	__udivti3@PLT
	jmp	.LBB6_32
.LBB6_29:
	testq	%rsi, %rsi
	je	.LBB6_40
	notq	%rax
	notq	%rdx
	movq	%rax, %rdi
	movq	%rdx, %rsi
	movq	%r8, %rdx
	callq	__udivti3@PLT
	notq	%rax
	jmp	.LBB6_32
.LBB6_24:
	testq	%rsi, %rsi
	je	.LBB6_40
	notq	%rax
	xorl	%edx, %edx
	divq	%r8
	notq	%rax
	jmp	.LBB6_32
.LBB6_23:
	xorl	%edx, %edx
	divl	%r8d
.LBB6_32:
	shll	$17, %r13d
	movq	%rax, %rdx
	sarq	$63, %rdx
	andl	%r13d, %edx
	addq	%rax, %rdx
	js	.LBB6_34
	cmpq	%r13, %rdx
	jl	.LBB6_39
.LBB6_34:
	testq	%rax, %rax
	js	.LBB6_35
	movq	%rax, %rcx
	shrq	$32, %rcx
	je	.LBB6_37
	xorl	%edx, %edx
	divq	%r13
	cmpl	%edx, %r13d
	ja	.LBB6_41
	jmp	.LBB6_40
.LBB6_35:
	notq	%rax
	xorl	%edx, %edx
	divq	%r13
	notq	%rdx
	addq	%r13, %rdx
.LBB6_39:
	cmpl	%edx, %r13d
	jbe	.LBB6_40
.LBB6_41:
	movq	(%rsp), %rax
	movb	%al, (%rbx)
	movw	$0, 1(%rbx)
	movb	$0, 3(%rbx)
	movl	%r15d, 4(%rbx)
	movb	%bpl, 8(%rbx)
	movw	$0, 9(%rbx)
	movb	$0, 11(%rbx)
	movl	%edx, 12(%rbx)
	addq	$8, %rsp
	popq	%rbx
	popq	%r12
	popq	%r13
	popq	%r14
	popq	%r15
	popq	%rbp
	retq
.LBB6_37:
	xorl	%edx, %edx
	divl	%r13d
	cmpl	%edx, %r13d
	ja	.LBB6_41
.LBB6_40:
	ud2
.Lfunc_end6:
	.size	"sq_cpr::encoding::nearest::<17'sq_cpr::span::Air,21'sq_cpr::span::AirSpan{}>", .Lfunc_end6-"sq_cpr::encoding::nearest::<17'sq_cpr::span::Air,21'sq_cpr::span::AirSpan{}>"

	.section	".text.sq_zones::zones::zone_count","ax",@progbits
	.p2align	4
	.type	"sq_zones::zones::zone_count",@function
"sq_zones::zones::zone_count":
	movq	%rdi, %rax
	negq	%rax
	cmovsq	%rdi, %rax
	movl	$100000000, %ecx
	mulq	%rcx
	movq	%rax, %rcx
	leaq	-1(%rsi), %rax
	addq	%rcx, %rax
	adcq	$0, %rdx
	testq	$-16646145, %rsi
	jne	.LBB7_3
	movq	%rax, %rcx
	shrq	$56, %rcx
	orq	%rdx, %rcx
	jne	.LBB7_3
	shrq	$17, %rax
	shrq	$14, %rsi
	leaq	.Lstatic.40(%rip), %rcx
	mulq	(%rsi,%rcx)
	shldq	$16, %rax, %rdx
.LBB7_4:
	movq	%rdx, %rax
	shrq	$25, %rax
	leaq	.Lstatic.41(%rip), %rcx
	movzbl	(%rax,%rcx), %ecx
	leaq	.Lstatic.42(%rip), %rax
	cmpq	%rdx, (%rax,%rcx,8)
	adcb	$-1, %cl
	movb	$58, %al
	subb	%cl, %al
	retq
.LBB7_3:
	pushq	%rax
	movq	%rax, %rdi
	movq	%rsi, %rax
	movq	%rdx, %rsi
	movq	%rax, %rdx
	callq	"sq_angle::quotients::divided"
	movq	%rax, %rdx
	addq	$8, %rsp
	jmp	.LBB7_4
.Lfunc_end7:
	.size	"sq_zones::zones::zone_count", .Lfunc_end7-"sq_zones::zones::zone_count"

	.section	".text.sq_cpr::index::on_circle","ax",@progbits
	.p2align	4
	.type	"sq_cpr::index::on_circle",@function
"sq_cpr::index::on_circle":
	movzbl	%sil, %eax
	movl	%edx, %ecx
	imulq	%rax, %rcx
	shlq	$17, %rcx
	movq	%rdi, %rax
	sarq	$63, %rax
	andq	%rcx, %rax
	addq	%rdi, %rax
	setns	%dl
	cmpq	%rcx, %rax
	setl	%r8b
	andb	%dl, %r8b
	cmpb	$1, %r8b
	je	.LBB8_9
	testq	%rdi, %rdi
	js	.LBB8_2
	testb	%sil, %sil
	je	.LBB8_7
	movq	%rdi, %rax
	shrq	$32, %rax
	je	.LBB8_6
	movq	%rdi, %rax
	xorl	%edx, %edx
	divq	%rcx
	movq	%rdx, %rax
.LBB8_9:
	retq
.LBB8_2:
	testb	%sil, %sil
	je	.LBB8_7
	notq	%rdi
	movq	%rdi, %rax
	xorl	%edx, %edx
	divq	%rcx
	movq	%rdx, %rax
	notq	%rax
	addq	%rcx, %rax
	retq
.LBB8_6:
	movl	%edi, %eax
	xorl	%edx, %edx
	divl	%ecx
	movl	%edx, %eax
	retq
.LBB8_7:
	ud2
.Lfunc_end8:
	.size	"sq_cpr::index::on_circle", .Lfunc_end8-"sq_cpr::index::on_circle"

	.section	".text.sq_message::write::write_frame","ax",@progbits
	.p2align	4
	.type	"sq_message::write::write_frame",@function
"sq_message::write::write_frame":
	movzbl	(%rsi), %ecx
	movl	4(%rsi), %edx
	movzbl	8(%rsi), %eax
	cmpl	$2, %eax
	je	.LBB9_5
	cmpl	$1, %eax
	jne	.LBB9_2
	movzbl	24(%rsi), %eax
	shll	$16, %eax
	movzbl	25(%rsi), %r8d
	shll	$9, %r8d
	addl	%eax, %r8d
	movzbl	26(%rsi), %eax
	shll	$8, %eax
	orl	%r8d, %eax
	movzbl	27(%rsi), %r8d
	leal	(%rax,%r8,2), %eax
	movzbl	28(%rsi), %r8d
	jmp	.LBB9_3
.LBB9_5:
	movq	16(%rsi), %rax
	jmp	.LBB9_6
.LBB9_2:
	movzbl	24(%rsi), %eax
	shll	$16, %eax
	movzbl	25(%rsi), %r8d
	shll	$14, %r8d
	addl	%eax, %r8d
	movzbl	26(%rsi), %eax
	shll	$13, %eax
	orl	%r8d, %eax
	movzwl	28(%rsi), %r8d
	leal	(%rax,%r8,2), %eax
	movzbl	30(%rsi), %r8d
.LBB9_3:
	orl	%eax, %r8d
	shlq	$35, %r8
	movzbl	12(%rsi), %r9d
	movl	16(%rsi), %eax
	movl	20(%rsi), %esi
	shlq	$34, %r9
	shlq	$17, %rax
	addq	%r9, %rax
	addq	%rsi, %rax
	addq	%r8, %rax
.LBB9_6:
	pushq	%rbp
	pushq	%rbx
	shll	$24, %ecx
	addl	%ecx, %edx
	addl	$-2013265920, %edx
	shlq	$16, %rdx
	movq	%rax, %rcx
	shrq	$40, %rcx
	addq	%rdx, %rcx
	movq	%rcx, %r9
	shrq	$8, %r9
	movq	%rcx, %r11
	shrq	$48, %r11
	leaq	.Lstatic.43(%rip), %r10
	movq	%rcx, %rdx
	shrq	$38, %rdx
	andl	$1020, %edx
	leaq	.Lstatic.44(%rip), %rsi
	movl	(%rdx,%rsi), %edx
	movq	%rcx, %rbx
	shrq	$30, %rbx
	andl	$1020, %ebx
	leaq	.Lstatic.45(%rip), %r8
	xorl	(%r10,%r11,4), %edx
	xorl	(%rbx,%r8), %edx
	xorl	%r9d, %edx
	movq	%rax, %rbx
	shrq	$24, %rbx
	movzbl	%dh, %ebp
	movzbl	%dl, %r9d
	shrl	$14, %edx
	andl	$1020, %edx
	xorl	(%rdx,%r10), %ebx
	xorl	(%rsi,%rbp,4), %ebx
	xorl	(%r8,%r9,4), %ebx
	movq	%rax, %r9
	movzbl	%bh, %edx
	movzbl	%bl, %r11d
	shrl	$14, %ebx
	andl	$1020, %ebx
	xorl	(%rbx,%r10), %eax
	xorl	(%rsi,%rdx,4), %eax
	xorl	(%r8,%r11,4), %eax
	shlq	$24, %r9
	movl	%eax, %edx
	shrl	$14, %edx
	andl	$1020, %edx
	movzbl	%ah, %ebx
	movl	(%rsi,%rbx,4), %esi
	xorl	(%rdx,%r10), %esi
	movzbl	%al, %eax
	xorl	(%r8,%rax,4), %esi
	movq	%rsi, %rax
	xorq	%r9, %rax
	shldq	$16, %r9, %rcx
	shrq	$16, %rax
	bswapq	%rcx
	rolw	$8, %si
	bswapl	%eax
	movq	%rcx, (%rdi)
	movl	%eax, 8(%rdi)
	movw	%si, 12(%rdi)
	popq	%rbx
	popq	%rbp
	retq
.Lfunc_end9:
	.size	"sq_message::write::write_frame", .Lfunc_end9-"sq_message::write::write_frame"

	.section	".text.sq_cpr::encoding::nearest::<#9b749bce0116a0b1>","ax",@progbits
	.p2align	4
	.type	"sq_cpr::encoding::nearest::<#9b749bce0116a0b1>",@function
"sq_cpr::encoding::nearest::<#9b749bce0116a0b1>":
	pushq	%rbp
	pushq	%r15
	pushq	%r14
	pushq	%r13
	pushq	%r12
	pushq	%rbx
	pushq	%rax
	movl	%edx, %ebp
	movq	%rsi, %r12
	movq	%rdi, %rbx
	movb	$60, %al
	subb	%bpl, %al
	imulq	$90, 8(%rsi), %rsi
	movzbl	%al, %r13d
	movq	%r13, %rax
	imulq	(%r12)
	shldq	$18, %rax, %rdx
	shlq	$18, %rax
	addq	%rsi, %rax
	adcq	$0, %rdx
	leaq	(%rsi,%rsi), %r8
	movabsq	$-9223372036854775808, %r14
	movq	%rax, %rcx
	addq	%r14, %rcx
	movq	%rdx, %rcx
	adcq	$0, %rcx
	movq	%rsi, %rdi
	shrq	$62, %rdi
	jne	.LBB10_9
	testq	%rcx, %rcx
	jne	.LBB10_9
	testq	%rax, %rax
	js	.LBB10_6
	testq	%rsi, %rsi
	je	.LBB10_40
	movq	%rax, %rcx
	orq	%r8, %rcx
	shrq	$32, %rcx
	je	.LBB10_5
	xorl	%edx, %edx
	divq	%r8
	jmp	.LBB10_15
.LBB10_9:
	movq	%rsi, %rcx
	shrq	$63, %rcx
	testq	%rdx, %rdx
	js	.LBB10_12
	testq	%rsi, %rsi
	je	.LBB10_40
	movq	%rax, %rdi
	movq	%rdx, %rsi
	movq	%r8, %rdx
	callq	__udivti3@PLT
.LBB10_15:
	movq	%rax, %r15
	jmp	.LBB10_16
.LBB10_12:
	testq	%rsi, %rsi
	je	.LBB10_40
	notq	%rax
	notq	%rdx
	movq	%rax, %rdi
	movq	%rdx, %rsi
	movq	%r8, %rdx
	callq	__udivti3@PLT
	jmp	.LBB10_8
.LBB10_6:
	testq	%rsi, %rsi
	je	.LBB10_40
	notq	%rax
	xorl	%edx, %edx
	divq	%r8
.LBB10_8:
	movq	%rax, %r15
	notq	%r15
	jmp	.LBB10_16
.LBB10_5:
	xorl	%edx, %edx
	divl	%r8d
	movl	%eax, %r15d
.LBB10_16:
	movslq	%r15d, %rax
	imulq	$90, %rax, %rcx
	movq	%rcx, %rax
	negq	%rax
	cmovsq	%rcx, %rax
	imulq	$47185920, %r13, %rcx
	cmpq	%rax, %rcx
	jb	.LBB10_40
	imulq	$11796480, %r13, %rcx
	cmpq	%rcx, %rax
	ja	.LBB10_40
	movabsq	$4611686018427387904, %rcx
	movl	%r13d, %edx
	shll	$17, %edx
	imulq	$100000000, %rax, %rax
	addq	%rdx, %rax
	decq	%rax
	shrq	$17, %rax
	leaq	.Lstatic.40(%rip), %rdx
	mulq	(%rdx,%r13,8)
	shldq	$16, %rax, %rdx
	movq	%rdx, %rax
	shrq	$25, %rax
	leaq	.Lstatic.41(%rip), %rsi
	movzbl	(%rax,%rsi), %eax
	leaq	.Lstatic.42(%rip), %rsi
	cmpq	%rdx, (%rsi,%rax,8)
	setb	%dl
	xorb	$59, %dl
	movq	%rbp, (%rsp)
	addl	%ebp, %eax
	subb	%al, %dl
	movzbl	%dl, %eax
	cmpb	$2, %al
	movl	$1, %ebp
	cmovael	%eax, %ebp
	movzbl	%bpl, %r13d
	movq	%r13, %rax
	imulq	16(%r12)
	imulq	$90, 24(%r12), %rsi
	shldq	$18, %rax, %rdx
	shlq	$18, %rax
	addq	%rsi, %rax
	adcq	$0, %rdx
	leaq	(%rsi,%rsi), %r8
	addq	%rax, %r14
	movq	%rdx, %rdi
	adcq	$0, %rdi
	cmpq	%rcx, %rsi
	jae	.LBB10_26
	testq	%rdi, %rdi
	jne	.LBB10_26
	testq	%rax, %rax
	js	.LBB10_24
	testq	%rsi, %rsi
	je	.LBB10_40
	movq	%rax, %rcx
	orq	%r8, %rcx
	shrq	$32, %rcx
	je	.LBB10_23
	xorl	%edx, %edx
	divq	%r8
	jmp	.LBB10_32
.LBB10_26:
	movq	%rsi, %rcx
	shrq	$63, %rcx
	testq	%rdx, %rdx
	js	.LBB10_29
	testq	%rsi, %rsi
	je	.LBB10_40
	movq	%rax, %rdi
	movq	%rdx, %rsi
	movq	%r8, %rdx
	callq	__udivti3@PLT
	jmp	.LBB10_32
.LBB10_29:
	testq	%rsi, %rsi
	je	.LBB10_40
	notq	%rax
	notq	%rdx
	movq	%rax, %rdi
	movq	%rdx, %rsi
	movq	%r8, %rdx
	callq	__udivti3@PLT
	notq	%rax
	jmp	.LBB10_32
.LBB10_24:
	testq	%rsi, %rsi
	je	.LBB10_40
	notq	%rax
	xorl	%edx, %edx
	divq	%r8
	notq	%rax
	jmp	.LBB10_32
.LBB10_23:
	xorl	%edx, %edx
	divl	%r8d
.LBB10_32:
	shll	$19, %r13d
	movq	%rax, %rdx
	sarq	$63, %rdx
	andl	%r13d, %edx
	addq	%rax, %rdx
	js	.LBB10_34
	cmpq	%r13, %rdx
	jl	.LBB10_39
.LBB10_34:
	testq	%rax, %rax
	js	.LBB10_35
	movq	%rax, %rcx
	shrq	$32, %rcx
	je	.LBB10_37
	xorl	%edx, %edx
	divq	%r13
	cmpl	%edx, %r13d
	ja	.LBB10_41
	jmp	.LBB10_40
.LBB10_35:
	notq	%rax
	xorl	%edx, %edx
	divq	%r13
	notq	%rdx
	addq	%r13, %rdx
.LBB10_39:
	cmpl	%edx, %r13d
	jbe	.LBB10_40
.LBB10_41:
	movq	(%rsp), %rax
	movb	%al, (%rbx)
	movw	$0, 1(%rbx)
	movb	$0, 3(%rbx)
	movl	%r15d, 4(%rbx)
	movb	%bpl, 8(%rbx)
	movw	$0, 9(%rbx)
	movb	$0, 11(%rbx)
	movl	%edx, 12(%rbx)
	addq	$8, %rsp
	popq	%rbx
	popq	%r12
	popq	%r13
	popq	%r14
	popq	%r15
	popq	%rbp
	retq
.LBB10_37:
	xorl	%edx, %edx
	divl	%r13d
	cmpl	%edx, %r13d
	ja	.LBB10_41
.LBB10_40:
	ud2
.Lfunc_end10:
	.size	"sq_cpr::encoding::nearest::<#9b749bce0116a0b1>", .Lfunc_end10-"sq_cpr::encoding::nearest::<#9b749bce0116a0b1>"

	.section	".text.sq_feed::avr::Avr::item_of","ax",@progbits
	.p2align	4
	.type	"sq_feed::avr::Avr::item_of",@function
"sq_feed::avr::Avr::item_of":
	pushq	%rbp
	pushq	%r15
	pushq	%r14
	pushq	%rbx
	subq	$40, %rsp
	movl	$0, -104(%rsp)
	movq	$0, -112(%rsp)
	movq	$0, -48(%rsp)
	movl	$0, -40(%rsp)
	cmpb	$1, 64(%rsi)
	jne	.LBB11_3
	movw	$1, (%rdi)
	xorps	%xmm0, %xmm0
	movups	%xmm0, 8(%rdi)
	movups	%xmm0, 23(%rdi)
	jmp	.LBB11_2
.LBB11_3:
	movq	56(%rsi), %r10
	movzbl	%dl, %eax
	leaq	".Lswitch.table.sq_feed::reader::Reader::find"(%rip), %rcx
	movq	(%rcx,%rax,8), %r8
	leaq	4(%r8), %rcx
	cmpq	%rcx, %r10
	jne	.LBB11_9
	xorl	%ecx, %ecx
	jmp	.LBB11_5
.LBB11_9:
	leaq	14(%r8), %r9
	movb	$1, %cl
	cmpq	%r9, %r10
	je	.LBB11_5
	addq	$28, %r8
	movb	$2, %cl
	cmpq	%r8, %r10
	jne	.LBB11_11
.LBB11_5:
	leaq	-25(%rsp), %r9
	leaq	-26(%rsp), %r8
	xorps	%xmm0, %xmm0
	movaps	%xmm0, -80(%rsp)
	movq	$0, -64(%rsp)
	shrq	%r10
	xorl	%r11d, %r11d
	.p2align	4
.LBB11_6:
	movzbl	8(%rsi,%r11,2), %ebx
	movzbl	9(%rsi,%r11,2), %ebp
	xorl	%r14d, %r14d
	cmpb	$58, %bl
	setae	%r14b
	leal	(%r14,%r14,8), %r14d
	addb	%bl, %r14b
	shlb	$4, %r14b
	cmpb	$71, %bpl
	setb	%bl
	shlb	$5, %bl
	addb	$-87, %bl
	cmpb	$58, %bpl
	movzbl	%bl, %ebx
	movl	$208, %r15d
	cmovael	%ebx, %r15d
	addb	%bpl, %r14b
	addb	%r15b, %r14b
	movb	%r14b, -80(%rsp,%r11)
	incq	%r11
	movq	%r11, -56(%rsp)
	cmpq	%r11, %r10
	jne	.LBB11_6
	movaps	-80(%rsp), %xmm0
	movaps	-64(%rsp), %xmm1
	movaps	%xmm1, 16(%rsp)
	movaps	%xmm0, (%rsp)
	movaps	%xmm1, -16(%rsp)
	movaps	%xmm0, -32(%rsp)
	movq	-8(%rsp), %rsi
	testb	%dl, %dl
	je	.LBB11_8
	cmpl	$2, %eax
	jne	.LBB11_13
	movl	-32(%rsp), %edx
	movl	-30(%rsp), %eax
	shll	$16, %edx
	shlq	$32, %rax
	orq	%rdx, %rax
	bswapq	%rax
	movq	$-7, %r10
	movl	$1, %edx
	movq	%r9, %r8
	jmp	.LBB11_15
.LBB11_8:
	leaq	-32(%rsp), %r8
	movq	%rax, %rdx
	movq	%rax, %r10
	jmp	.LBB11_15
.LBB11_13:
	movl	-32(%rsp), %edx
	movl	-30(%rsp), %eax
	shll	$16, %edx
	shlq	$32, %rax
	orq	%rdx, %rax
	bswapq	%rax
	movq	$-6, %r10
	movl	$1, %edx
.LBB11_15:
	addq	%rsi, %r10
	movl	$0, -72(%rsp)
	movq	$0, -80(%rsp)
	cmpb	$2, %cl
	je	.LBB11_24
	movzbl	%cl, %esi
	cmpl	$1, %esi
	jne	.LBB11_17
	cmpq	$7, %r10
	jne	.LBB11_22
	movzwl	(%r8), %esi
	movzbl	6(%r8), %r9d
	movb	%r9b, -116(%rsp)
	movl	2(%r8), %r8d
	movl	%r8d, -120(%rsp)
	jmp	.LBB11_23
.LBB11_24:
	cmpq	$14, %r10
	jne	.LBB11_26
	movzwl	(%r8), %esi
	movl	10(%r8), %r9d
	movl	%r9d, -88(%rsp)
	movq	2(%r8), %r8
	movq	%r8, -96(%rsp)
	jmp	.LBB11_27
.LBB11_17:
	cmpq	$2, %r10
	jne	.LBB11_18
	movzwl	(%r8), %esi
	jmp	.LBB11_28
.LBB11_22:
	movb	$0, -116(%rsp)
	movl	$0, -120(%rsp)
	xorl	%esi, %esi
.LBB11_23:
	movzbl	-116(%rsp), %r8d
	movb	%r8b, -76(%rsp)
	movl	-120(%rsp), %r8d
	movl	%r8d, -80(%rsp)
	jmp	.LBB11_28
.LBB11_26:
	movl	$0, -88(%rsp)
	movq	$0, -96(%rsp)
	xorl	%esi, %esi
.LBB11_27:
	movl	-88(%rsp), %r8d
	movl	%r8d, -72(%rsp)
	movq	-96(%rsp), %r8
	movq	%r8, -80(%rsp)
	jmp	.LBB11_28
.LBB11_18:
	xorl	%esi, %esi
.LBB11_28:
	movl	-72(%rsp), %r8d
	movl	%r8d, -40(%rsp)
	movq	-80(%rsp), %r9
	movq	%r9, -48(%rsp)
	movq	%r9, -112(%rsp)
	movl	%r8d, -104(%rsp)
	xorl	%r8d, %r8d
.LBB11_29:
	movb	%r8b, (%rdi)
	movb	$0, 1(%rdi)
	movq	%rdx, 8(%rdi)
	movq	%rax, 16(%rdi)
	movb	%cl, 24(%rdi)
	movw	%si, 25(%rdi)
	movq	-112(%rsp), %rax
	movq	%rax, 27(%rdi)
	movl	-104(%rsp), %eax
	movl	%eax, 35(%rdi)
.LBB11_2:
	addq	$40, %rsp
	popq	%rbx
	popq	%r14
	popq	%r15
	popq	%rbp
	retq
.LBB11_11:
	movb	$1, %r8b
	xorl	%esi, %esi
	xorl	%edx, %edx
	xorl	%eax, %eax
	xorl	%ecx, %ecx
	jmp	.LBB11_29
.Lfunc_end11:
	.size	"sq_feed::avr::Avr::item_of", .Lfunc_end11-"sq_feed::avr::Avr::item_of"

	.section	".text.sq_feed::ear::Ear::hear","ax",@progbits
	.p2align	4
	.type	"sq_feed::ear::Ear::hear",@function
"sq_feed::ear::Ear::hear":
	pushq	%rbp
	pushq	%r15
	pushq	%r14
	pushq	%rbx
	subq	$72, %rsp
	movq	%rcx, %r8
	movq	%rdx, %rcx
	movzbl	(%rsi), %eax
	leaq	.LJTI12_0(%rip), %rdx
	movslq	(%rdx,%rax,4), %rax
	addq	%rdx, %rax
	jmpq	*%rax
.LBB12_1:
	movzbl	24(%rsi), %r10d
	testl	%r10d, %r10d
	je	.LBB12_13
	movzbl	169(%rdi), %r9d
	movzbl	8(%rsi), %edx
	movq	%rsi, %r11
	movq	16(%rsi), %rsi
	cmpl	$2, %r10d
	jne	.LBB12_14
	movzbl	25(%r11), %ebx
	testb	%bl, %bl
	js	.LBB12_17
	movb	$5, %bl
	xorl	%eax, %eax
	jmp	.LBB12_21
.LBB12_5:
	movq	176(%rdi), %rax
	cmpq	$-1, %rax
	je	.LBB12_26
	incq	%rax
	movq	%rax, 176(%rdi)
	incq	208(%rdi)
	jmp	.LBB12_26
.LBB12_7:
	movq	176(%rdi), %rax
	cmpq	$-1, %rax
	je	.LBB12_9
	incq	%rax
	movq	%rax, 176(%rdi)
	incq	216(%rdi)
.LBB12_9:
	movzbl	1(%rsi), %eax
	movb	$1, 432(%rdi)
	movb	%al, 433(%rdi)
	jmp	.LBB12_26
.LBB12_10:
	movq	176(%rdi), %rax
	cmpq	$-1, %rax
	je	.LBB12_26
	incq	%rax
	movq	%rax, 176(%rdi)
.LBB12_12:
	incq	216(%rdi)
	jmp	.LBB12_26
.LBB12_13:
	movb	$2, %bl
	movl	%r10d, %eax
	jmp	.LBB12_21
.LBB12_14:
	movzbl	25(%r11), %ebx
	xorl	%eax, %eax
	testb	%bl, %bl
	js	.LBB12_19
	shrb	$3, %bl
	cmpl	$1, %edx
	sete	%bpl
	movabsq	$280376761925972, %r14
	cmpq	%r14, %rsi
	sete	%r14b
	movzbl	%bl, %ebx
	testb	%r9b, %r9b
	cmovnel	%eax, %ebx
	testb	%r14b, %bpl
	cmovnel	%eax, %ebx
	jne	.LBB12_16
	xorb	$1, %r9b
	movl	%ebx, %eax
	movb	$1, %bl
	testb	%r9b, %r9b
	je	.LBB12_29
	jmp	.LBB12_21
.LBB12_17:
	cmpl	$1, %edx
	sete	%bpl
	movabsq	$280376761925972, %rax
	cmpq	%rax, %rsi
	sete	%r14b
	xorl	%eax, %eax
	testb	%r14b, %bpl
	je	.LBB12_28
.LBB12_16:
	movb	$3, %bl
	jmp	.LBB12_21
.LBB12_19:
	movb	$5, %bl
	jmp	.LBB12_21
.LBB12_28:
	shrb	$3, %bl
	cmpb	$17, %bl
	sete	%bpl
	orb	%r9b, %bpl
	movl	%ebp, %r9d
	xorb	$1, %r9b
	movzbl	%bl, %ebx
	testb	%bpl, %bpl
	cmovnel	%eax, %ebx
	movl	%ebx, %eax
	movb	$1, %bl
	testb	%r9b, %r9b
	je	.LBB12_29
.LBB12_21:
	movq	176(%rdi), %rcx
	cmpq	$-1, %rcx
	je	.LBB12_26
	incq	%rcx
	movq	%rcx, 176(%rdi)
	movzbl	%bl, %ecx
	decl	%ecx
	leaq	.LJTI12_1(%rip), %rdx
	movslq	(%rdx,%rcx,4), %rcx
	addq	%rdx, %rcx
	jmpq	*%rcx
.LBB12_23:
	movzbl	%al, %eax
	cmpb	$24, %al
	movl	$24, %ecx
	cmovbl	%eax, %ecx
	movzbl	%cl, %eax
	incq	232(%rdi,%rax,8)
	jmp	.LBB12_26
.LBB12_24:
	incq	200(%rdi)
	jmp	.LBB12_26
.LBB12_25:
	incq	192(%rdi)
.LBB12_26:
	xorl	%edx, %edx
	xorl	%eax, %eax
.LBB12_27:
	addq	$72, %rsp
	popq	%rbx
	popq	%r14
	popq	%r15
	popq	%rbp
	retq
.LBB12_29:
	cmpl	$2, %edx
	je	.LBB12_37
	cmpl	$1, %edx
	jne	.LBB12_33
	testq	%rsi, %rsi
	je	.LBB12_33
	cmpb	$1, 25(%rdi)
	jne	.LBB12_49
.LBB12_33:
	movq	176(%rdi), %rax
	cmpq	$-1, %rax
	je	.LBB12_35
	incq	%rax
	movq	%rax, 176(%rdi)
	incq	184(%rdi)
.LBB12_35:
	movq	48(%rdi), %rdx
	cmpb	$1, 24(%rdi)
	jne	.LBB12_58
	xorl	%eax, %eax
	movq	%rcx, %rsi
	subq	56(%rdi), %rsi
	cmovaeq	%rsi, %rax
	addq	%rdx, %rax
	movq	$-1, %rdx
	cmovaeq	%rax, %rdx
	jmp	.LBB12_58
.LBB12_37:
	movq	$0, 48(%rsp)
	movzbl	64(%rdi), %eax
	cmpb	$2, %al
	jne	.LBB12_59
	cmpb	$0, 96(%rdi)
	jne	.LBB12_59
	movq	152(%rdi), %r9
	addq	%rsi, %r9
	movq	$-1, %rdx
	cmovaeq	%r9, %rdx
	movq	48(%rdi), %r9
	movq	%r9, %rbx
	subq	%rdx, %rbx
	jbe	.LBB12_41
	movq	40(%rdi), %r14
	cmpq	$1001, %r14
	movl	$1000, %r15d
	cmovaeq	%r14, %r15
	cmpq	%r15, %rbx
	jbe	.LBB12_44
	jmp	.LBB12_59
.LBB12_41:
	movq	%rdx, %rbx
	subq	%r9, %rbx
	cmpq	32(%rdi), %rbx
	jbe	.LBB12_44
	cmpb	$1, 24(%rdi)
	jne	.LBB12_59
	xorl	%ebx, %ebx
	movq	%rcx, %r14
	subq	56(%rdi), %r14
	cmovaeq	%r14, %rbx
	addq	%r9, %rbx
	movq	$-1, %r14
	cmovaeq	%rbx, %r14
	movq	%rdx, %rbx
	subq	%r14, %rbx
	subq	%rdx, %r14
	cmovbq	%rbx, %r14
	cmpq	32(%rdi), %r14
	ja	.LBB12_59
.LBB12_44:
	movq	176(%rdi), %rax
	cmpq	$-1, %rax
	je	.LBB12_46
	incq	%rax
	movq	%rax, 176(%rdi)
	incq	184(%rdi)
.LBB12_46:
	cmpq	%rdx, %r9
	jbe	.LBB12_58
	xorl	%eax, %eax
	subq	40(%rdi), %r9
	cmovaeq	%r9, %rax
	cmpq	%rdx, %rax
	cmovaq	%rax, %rdx
	movb	$1, %al
	jmp	.LBB12_27
.LBB12_49:
	cmpb	$2, 64(%rdi)
	jne	.LBB12_61
	cmpb	$0, 96(%rdi)
	jne	.LBB12_61
	cmpb	$1, 16(%rdi)
	jne	.LBB12_61
	movq	%rsi, %r9
	subq	(%rdi), %r9
	movabsq	$281474976710655, %rbx
	andq	%rbx, %r9
	movq	%r9, %rax
	shrq	$47, %rax
	jne	.LBB12_61
	addq	8(%rdi), %r9
	movq	$-1, %r14
	cmovbq	%r14, %r9
	movabsq	$-5853766786057164379, %rdx
	movq	%r9, %rax
	mulq	%rdx
	shrq	$13, %rdx
	addq	152(%rdi), %rdx
	cmovbq	%r14, %rdx
	movq	%rdx, %rax
	subq	48(%rdi), %rax
	jb	.LBB12_61
	cmpq	32(%rdi), %rax
	ja	.LBB12_61
	movq	176(%rdi), %rax
	cmpq	$-1, %rax
	je	.LBB12_57
	incq	%rax
	movq	%rax, 176(%rdi)
	incq	184(%rdi)
.LBB12_57:
	andq	%rbx, %rsi
	movq	%rsi, (%rdi)
	movq	%r9, 8(%rdi)
.LBB12_58:
	movq	%rdx, 48(%rdi)
	movq	%rcx, 56(%rdi)
	movb	$1, %al
	jmp	.LBB12_27
.LBB12_59:
	cmpb	$2, %r10b
	jne	.LBB12_63
	movzwl	25(%r11), %edx
	movl	35(%r11), %r9d
	movl	%r9d, 16(%rsp)
	movq	27(%r11), %r9
	jmp	.LBB12_64
.LBB12_61:
	cmpb	$2, %r10b
	jne	.LBB12_67
	movzwl	25(%r11), %eax
	movl	35(%r11), %edx
	movl	%edx, 16(%rsp)
	movq	27(%r11), %rdx
	jmp	.LBB12_68
.LBB12_63:
	movzwl	25(%r11), %edx
	movl	$0, 28(%rsp)
	movl	$0, 25(%rsp)
	movl	27(%r11), %r9d
	movl	%r9d, 20(%rsp)
	movzbl	31(%r11), %r9d
	movb	%r9b, 24(%rsp)
	movl	28(%rsp), %r9d
	movl	%r9d, 16(%rsp)
	movq	20(%rsp), %r9
.LBB12_64:
	movq	%r9, 8(%rsp)
	movl	16(%rsp), %r9d
	movl	%r9d, 64(%rsp)
	movq	8(%rsp), %r9
	movq	%r9, 56(%rsp)
	testb	%al, %al
	jne	.LBB12_66
	movb	$1, 168(%rdi)
.LBB12_66:
	movq	%rsi, 32(%rsp)
	movw	%dx, 40(%rsp)
	movq	56(%rsp), %rax
	movq	%rax, 42(%rsp)
	movl	64(%rsp), %eax
	movl	%eax, 50(%rsp)
	leaq	32(%rsp), %rsi
	movq	%rcx, %rdx
	movq	%r8, %rcx
	callq	"sq_feed::ear::Ear::hear_jump"
	jmp	.LBB12_69
.LBB12_67:
	movzwl	25(%r11), %eax
	movl	$0, 28(%rsp)
	movl	$0, 25(%rsp)
	movl	27(%r11), %edx
	movl	%edx, 20(%rsp)
	movzbl	31(%r11), %edx
	movb	%dl, 24(%rsp)
	movl	28(%rsp), %edx
	movl	%edx, 16(%rsp)
	movq	20(%rsp), %rdx
.LBB12_68:
	movq	%rdx, 8(%rsp)
	movw	%ax, 32(%rsp)
	movq	8(%rsp), %rax
	movq	%rax, 34(%rsp)
	movl	16(%rsp), %eax
	movl	%eax, 42(%rsp)
	leaq	32(%rsp), %rdx
	callq	"sq_feed::ear::Ear::hear_clock_jump"
.LBB12_69:
	xorl	%eax, %eax
	xorl	%edx, %edx
	jmp	.LBB12_27
.LBB12_70:
	ud2
.Lfunc_end12:
	.size	"sq_feed::ear::Ear::hear", .Lfunc_end12-"sq_feed::ear::Ear::hear"
	.section	".rodata.sq_feed::ear::Ear::hear","a",@progbits
	.p2align	2, 0x0
.LJTI12_0:
	.long	.LBB12_1-.LJTI12_0
	.long	.LBB12_10-.LJTI12_0
	.long	.LBB12_5-.LJTI12_0
	.long	.LBB12_7-.LJTI12_0
.LJTI12_1:
	.long	.LBB12_23-.LJTI12_1
	.long	.LBB12_25-.LJTI12_1
	.long	.LBB12_24-.LJTI12_1
	.long	.LBB12_70-.LJTI12_1
	.long	.LBB12_12-.LJTI12_1

	.section	".text.unlikely.sq_feed::ear::Ear::hear_clock_jump","ax",@progbits
	.p2align	4
	.type	"sq_feed::ear::Ear::hear_clock_jump",@function
"sq_feed::ear::Ear::hear_clock_jump":
	pushq	%rbp
	pushq	%r15
	pushq	%r14
	pushq	%r13
	pushq	%r12
	pushq	%rbx
	subq	$536, %rsp
	movq	%r8, %rbx
	movq	%rcx, %r14
	movq	%rdx, %rcx
	movq	%rsi, %r12
	movq	%rdi, %r15
	movabsq	$281474976710655, %rbp
	movabsq	$140737488355328, %r8
	xorps	%xmm0, %xmm0
	movaps	%xmm0, 512(%rsp)
	movaps	%xmm0, 496(%rsp)
	movaps	%xmm0, 480(%rsp)
	movaps	%xmm0, 464(%rsp)
	movaps	%xmm0, 448(%rsp)
	movaps	%xmm0, 432(%rsp)
	movaps	%xmm0, 416(%rsp)
	movq	$0, 40(%rsp)
	movq	$0, 46(%rsp)
	movaps	%xmm0, 320(%rsp)
	movaps	%xmm0, 336(%rsp)
	movaps	%xmm0, 352(%rsp)
	movaps	%xmm0, 368(%rsp)
	movq	$0, 384(%rsp)
	movl	$0, 8(%rsp)
	movl	$0, 11(%rsp)
	movzbl	16(%rdi), %edi
	cmpb	$1, %dil
	jne	.LBB13_4
	movq	%r12, %rax
	subq	(%r15), %rax
	andq	%rbp, %rax
	movq	8(%r15), %rdx
	cmpq	%r8, %rax
	jae	.LBB13_3
	addq	%rdx, %rax
	movq	$-1, %r13
	cmovaeq	%rax, %r13
	jmp	.LBB13_12
.LBB13_4:
	movq	48(%r15), %rax
	cmpb	$0, 24(%r15)
	je	.LBB13_5
	movq	32(%r15), %rdx
	movq	56(%r15), %rsi
	xorl	%r9d, %r9d
	movq	%rax, %r10
	subq	%rsi, %r10
	cmovaeq	%r10, %r9
	cmpq	%r9, %rdx
	jb	.LBB13_10
	xorl	%r9d, %r9d
	movq	%r14, %rdx
	subq	%rsi, %rdx
	cmovaeq	%rdx, %r9
	addq	%rax, %r9
	movq	$-1, %rdx
	cmovaeq	%r9, %rdx
	jmp	.LBB13_11
.LBB13_3:
	movq	%rbp, %rsi
	subq	%rax, %rsi
	incq	%rsi
	xorl	%r13d, %r13d
	subq	%rsi, %rdx
	cmovaeq	%rdx, %r13
	jmp	.LBB13_12
.LBB13_5:
	testq	%rax, %rax
	je	.LBB13_6
	movq	32(%r15), %rdx
.LBB13_10:
	addq	%rax, %rdx
	movq	$-1, %rax
	cmovbq	%rax, %rdx
	incq	%rdx
	cmoveq	%rax, %rdx
.LBB13_11:
	imulq	$12000, %rdx, %rax
	movabsq	$1537228672809130, %rsi
	cmpq	%rsi, %rdx
	movq	$-1, %r13
	cmovbq	%rax, %r13
.LBB13_12:
	movabsq	$-5853766786057164379, %rdx
	movq	%r13, %rax
	mulq	%rdx
	movq	%rdx, %r10
	shrq	$13, %r10
	movq	%r10, 392(%rsp)
	movq	(%rcx), %rax
	movq	6(%rcx), %rdx
	movq	%rax, 400(%rsp)
	movq	%rdx, 406(%rsp)
	movw	$0, 414(%rsp)
	movaps	%xmm0, 192(%rsp)
	movaps	%xmm0, 208(%rsp)
	movaps	%xmm0, 224(%rsp)
	movaps	%xmm0, 240(%rsp)
	movaps	%xmm0, 256(%rsp)
	movaps	%xmm0, 272(%rsp)
	movaps	%xmm0, 288(%rsp)
	testb	%dil, %dil
	je	.LBB13_13
	movq	%r12, %rax
	subq	(%r15), %rax
	andq	%rbp, %rax
	movq	%rbp, %rdx
	subq	%rax, %rdx
	incq	%rdx
	xorl	%edi, %edi
	cmpq	%r8, %rax
	cmovaeq	%rdx, %rdi
	movabsq	$1537228672809130, %rdx
	movq	%rdi, %rax
	mulq	%rdx
	movq	40(%r15), %r8
	cmpq	$1001, %r8
	movl	$1000, %eax
	cmovaeq	%r8, %rax
	leaq	64(%r15), %rsi
	cmpq	%rdi, 8(%r15)
	movq	%r12, 312(%rsp)
	jae	.LBB13_17
	cmpq	%rax, %rdx
	jbe	.LBB13_17
	leaq	192(%rsp), %rdi
	leaq	392(%rsp), %r8
	movq	%r15, %rdx
	movq	%r14, %rcx
	movq	%rsi, %r12
	callq	"sq_feed::dates::Dates::lengthen"
	movq	%r12, %rsi
	jmp	.LBB13_22
.LBB13_13:
	movq	(%rcx), %rax
	movq	6(%rcx), %rcx
	movq	%rcx, 62(%rsp)
	movq	%rax, 56(%rsp)
	movzbl	96(%r15), %ecx
	shlb	$3, %cl
	movl	$33685760, %eax
	shrl	%cl, %eax
	cmpb	$1, 64(%r15)
	sete	%cl
	addb	%al, %cl
	movl	$0, 19(%rsp)
	movl	$0, 16(%rsp)
	movq	$2, 64(%r15)
	movups	%xmm0, 72(%r15)
	movups	%xmm0, 88(%r15)
	movups	%xmm0, 104(%r15)
	movups	%xmm0, 120(%r15)
	movups	%xmm0, 136(%r15)
	movq	$0, 152(%r15)
	movaps	%xmm0, 128(%rsp)
	movaps	%xmm0, 112(%rsp)
	movaps	%xmm0, 96(%rsp)
	movaps	%xmm0, 80(%rsp)
	movq	$0, 144(%rsp)
	movq	56(%rsp), %rax
	movq	62(%rsp), %rdx
	movq	%rax, 24(%rsp)
	movq	%rdx, 30(%rsp)
	movl	$1, %eax
	movb	$1, %dil
	xorl	%edx, %edx
	jmp	.LBB13_23
.LBB13_17:
	movq	%r10, 56(%rsp)
	movq	(%rcx), %rax
	movq	6(%rcx), %rdx
	movq	%rax, 64(%rsp)
	movq	%rdx, 70(%rsp)
	movw	$0, 78(%rsp)
	movaps	%xmm0, 80(%rsp)
	movaps	%xmm0, 96(%rsp)
	movaps	%xmm0, 112(%rsp)
	movaps	%xmm0, 128(%rsp)
	movaps	%xmm0, 144(%rsp)
	movaps	%xmm0, 160(%rsp)
	movaps	%xmm0, 176(%rsp)
	movzbl	(%rsi), %eax
	cmpl	$2, %eax
	je	.LBB13_20
	cmpl	$1, %eax
	jne	.LBB13_19
.LBB13_20:
	leaq	80(%rsp), %rdi
	leaq	56(%rsp), %r8
	movq	%r15, %rdx
	movq	%r14, %rcx
	movq	%rsi, %r12
	callq	"sq_feed::dates::Dates::judge_later"
	movq	%r12, %rsi
	jmp	.LBB13_21
.LBB13_6:
	movq	%r12, %r13
	andq	%rbp, %r13
	jmp	.LBB13_12
.LBB13_19:
	movq	(%rcx), %rax
	movq	6(%rcx), %rcx
	movq	%rcx, 30(%rsp)
	movq	%rax, 24(%rsp)
	movq	$1, 64(%r15)
	movq	%r10, 72(%r15)
	movq	24(%rsp), %rax
	movq	30(%rsp), %rcx
	movq	%rax, 80(%r15)
	movq	%rcx, 86(%r15)
	movw	$0, 94(%r15)
.LBB13_21:
	movaps	176(%rsp), %xmm0
	movaps	%xmm0, 288(%rsp)
	movaps	160(%rsp), %xmm0
	movaps	%xmm0, 272(%rsp)
	movaps	144(%rsp), %xmm0
	movaps	%xmm0, 256(%rsp)
	movaps	80(%rsp), %xmm0
	movaps	96(%rsp), %xmm1
	movaps	112(%rsp), %xmm2
	movaps	128(%rsp), %xmm3
	movaps	%xmm3, 240(%rsp)
	movaps	%xmm2, 224(%rsp)
	movaps	%xmm1, 208(%rsp)
	movaps	%xmm0, 192(%rsp)
.LBB13_22:
	movq	192(%rsp), %r10
	movq	200(%rsp), %rax
	movq	%rax, 24(%rsp)
	movq	206(%rsp), %rax
	movq	%rax, 30(%rsp)
	movzwl	214(%rsp), %edx
	movups	216(%rsp), %xmm0
	movaps	%xmm0, 80(%rsp)
	movups	232(%rsp), %xmm0
	movaps	%xmm0, 96(%rsp)
	movups	248(%rsp), %xmm0
	movaps	%xmm0, 112(%rsp)
	movups	264(%rsp), %xmm0
	movaps	%xmm0, 128(%rsp)
	movq	280(%rsp), %rax
	movq	%rax, 144(%rsp)
	movq	288(%rsp), %rax
	movzbl	296(%rsp), %ecx
	movl	297(%rsp), %edi
	movl	300(%rsp), %r8d
	movl	%r8d, 19(%rsp)
	movl	%edi, 16(%rsp)
	cmpb	$2, (%rsi)
	sete	%dil
	movq	312(%rsp), %r12
.LBB13_23:
	movq	24(%rsp), %r8
	movq	30(%rsp), %r9
	movq	%r9, 46(%rsp)
	movq	%r8, 40(%rsp)
	movaps	80(%rsp), %xmm0
	movaps	96(%rsp), %xmm1
	movaps	112(%rsp), %xmm2
	movaps	128(%rsp), %xmm3
	movaps	%xmm0, 320(%rsp)
	movaps	%xmm1, 336(%rsp)
	movaps	%xmm2, 352(%rsp)
	movaps	%xmm3, 368(%rsp)
	movq	144(%rsp), %r8
	movq	%r8, 384(%rsp)
	movl	16(%rsp), %r8d
	movl	19(%rsp), %r9d
	movl	%r8d, 8(%rsp)
	movl	%r9d, 11(%rsp)
	movq	%r10, 416(%rsp)
	movq	40(%rsp), %rsi
	movq	46(%rsp), %r8
	movq	%r8, 430(%rsp)
	movq	%rsi, 424(%rsp)
	movw	%dx, 438(%rsp)
	movq	384(%rsp), %rdx
	movq	%rdx, 504(%rsp)
	movaps	320(%rsp), %xmm0
	movaps	336(%rsp), %xmm1
	movaps	352(%rsp), %xmm2
	movaps	368(%rsp), %xmm3
	movups	%xmm3, 488(%rsp)
	movups	%xmm2, 472(%rsp)
	movups	%xmm1, 456(%rsp)
	movups	%xmm0, 440(%rsp)
	movq	%rax, 512(%rsp)
	movb	%cl, 520(%rsp)
	movl	8(%rsp), %edx
	movl	11(%rsp), %esi
	movl	%edx, 521(%rsp)
	movl	%esi, 524(%rsp)
	testb	%dil, %dil
	je	.LBB13_26
	cmpb	$0, 96(%r15)
	jne	.LBB13_26
	andq	%rbp, %r12
	movq	%r12, (%r15)
	movq	%r13, 8(%r15)
	movb	$1, 16(%r15)
.LBB13_26:
	movzbl	%al, %edx
	movzbl	%cl, %ecx
	leaq	(%rdx,%rcx), %rsi
	addq	176(%r15), %rsi
	jb	.LBB13_28
	movq	%rsi, 176(%r15)
	addq	%rdx, 184(%r15)
	addq	%rcx, 224(%r15)
.LBB13_28:
	testq	%rax, %rax
	je	.LBB13_34
	leaq	416(%rsp), %rcx
	jmp	.LBB13_30
	.p2align	4
.LBB13_32:
	xorl	%edi, %edi
	subq	40(%r15), %rsi
	cmovaeq	%rsi, %rdi
	cmpq	%rdx, %rdi
	cmovaq	%rdi, %rdx
.LBB13_33:
	decq	%rax
	movq	96(%rbx), %rsi
	leaq	(%rsi,%rsi,2), %rdi
	movq	%rdx, (%rbx,%rdi,8)
	movq	8(%rcx), %rdx
	movq	14(%rcx), %r8
	movq	%rdx, 8(%rbx,%rdi,8)
	movq	%r8, 14(%rbx,%rdi,8)
	movw	$0, 22(%rbx,%rdi,8)
	incq	%rsi
	movq	%rsi, 96(%rbx)
	addq	$24, %rcx
	testq	%rax, %rax
	je	.LBB13_34
.LBB13_30:
	movq	48(%r15), %rsi
	movq	152(%r15), %rdi
	addq	(%rcx), %rdi
	movq	$-1, %rdx
	cmovaeq	%rdi, %rdx
	cmpq	%rdx, %rsi
	ja	.LBB13_32
	movq	%rdx, 48(%r15)
	movq	%r14, 56(%r15)
	jmp	.LBB13_33
.LBB13_34:
	addq	$536, %rsp
	popq	%rbx
	popq	%r12
	popq	%r13
	popq	%r14
	popq	%r15
	popq	%rbp
	retq
.Lfunc_end13:
	.size	"sq_feed::ear::Ear::hear_clock_jump", .Lfunc_end13-"sq_feed::ear::Ear::hear_clock_jump"

	.section	".text.sq_feed::dates::Dates::lengthen","ax",@progbits
	.p2align	4
	.type	"sq_feed::dates::Dates::lengthen",@function
"sq_feed::dates::Dates::lengthen":
	pushq	%rbp
	pushq	%r15
	pushq	%r14
	pushq	%r13
	pushq	%r12
	pushq	%rbx
	subq	$616, %rsp
	movq	%rdi, %rbx
	movq	16(%r8), %rax
	movq	%rax, 160(%rsp)
	movups	(%r8), %xmm0
	movaps	%xmm0, 144(%rsp)
	xorps	%xmm0, %xmm0
	movaps	%xmm0, 32(%rsp)
	movaps	%xmm0, 48(%rsp)
	movaps	%xmm0, 64(%rsp)
	movaps	%xmm0, 80(%rsp)
	movaps	%xmm0, 96(%rsp)
	movaps	%xmm0, 112(%rsp)
	movaps	%xmm0, 128(%rsp)
	movaps	%xmm0, 224(%rsp)
	movaps	%xmm0, 240(%rsp)
	movaps	%xmm0, 256(%rsp)
	movaps	%xmm0, 272(%rsp)
	movaps	%xmm0, 288(%rsp)
	movaps	%xmm0, 304(%rsp)
	movaps	%xmm0, 320(%rsp)
	movzbl	32(%rsi), %eax
	leaq	.LJTI14_0(%rip), %rdi
	movslq	(%rdi,%rax,4), %rax
	addq	%rdi, %rax
	jmpq	*%rax
.LBB14_1:
	movq	16(%r8), %rax
	movq	%rax, 352(%rsp)
	movups	(%r8), %xmm1
	movaps	%xmm1, 336(%rsp)
	movq	$1, 32(%rsi)
	movaps	336(%rsp), %xmm1
	movups	%xmm1, 40(%rsi)
	movq	352(%rsp), %rax
	movq	%rax, 56(%rsi)
	movups	%xmm0, 64(%rsi)
	movq	$0, 80(%rsi)
	movaps	%xmm0, 128(%rsp)
	movaps	%xmm0, 112(%rsp)
	movaps	%xmm0, 96(%rsp)
	movaps	%xmm0, 80(%rsp)
	movaps	%xmm0, 64(%rsp)
	movaps	%xmm0, 48(%rsp)
	movaps	%xmm0, 32(%rsp)
	jmp	.LBB14_39
.LBB14_18:
	leaq	40(%rsi), %rdi
	movq	56(%rsi), %rax
	movq	%rax, 544(%rsp)
	movups	40(%rsi), %xmm0
	movaps	%xmm0, 528(%rsp)
	movq	64(%rsi), %rax
	movq	88(%rsi), %r11
	movq	144(%rsp), %r14
	movq	%r11, %r10
	addq	%r14, %r10
	movq	$-1, %r9
	cmovbq	%r9, %r10
	movq	%r11, %r13
	addq	%rax, %r13
	cmovbq	%r9, %r13
	movq	%r13, %r9
	subq	%r10, %r9
	jbe	.LBB14_19
	movq	40(%rdx), %r10
	cmpq	$1001, %r10
	movl	$1000, %r11d
	cmovaeq	%r10, %r11
	cmpq	%r11, %r9
	jbe	.LBB14_32
.LBB14_36:
	movq	%rax, 592(%rsp)
	leaq	72(%rsi), %rax
	movups	(%rax), %xmm0
	movups	%xmm0, 600(%rsp)
	leaq	224(%rsp), %rdi
	leaq	528(%rsp), %rcx
	leaq	592(%rsp), %r8
	leaq	144(%rsp), %r9
	callq	"sq_feed::dates::Dates::replace"
	jmp	.LBB14_37
.LBB14_38:
	movq	56(%rsi), %rax
	movq	%rax, 512(%rsp)
	movups	40(%rsi), %xmm0
	movaps	%xmm0, 496(%rsp)
	movups	64(%rsi), %xmm0
	movaps	%xmm0, 464(%rsp)
	movq	80(%rsi), %rax
	movq	%rax, 480(%rsp)
	leaq	32(%rsp), %rdi
	leaq	496(%rsp), %rcx
	leaq	464(%rsp), %r8
	leaq	144(%rsp), %r9
	callq	"sq_feed::dates::Dates::replace"
	jmp	.LBB14_39
.LBB14_2:
	leaq	48(%rsi), %rax
	movq	144(%rsp), %rcx
	movq	88(%rsi), %r9
	movq	%r9, %rdi
	addq	%rcx, %rdi
	movq	$-1, %r11
	cmovbq	%r11, %rdi
	movq	40(%rsi), %r10
	addq	%r9, %r10
	cmovbq	%r11, %r10
	movq	%r10, %r11
	subq	%rdi, %r11
	jbe	.LBB14_3
	movq	40(%rdx), %rdx
	cmpq	$1001, %rdx
	movl	$1000, %edi
	cmovaeq	%rdx, %rdi
	cmpq	%rdi, %r11
	jbe	.LBB14_14
.LBB14_16:
	movups	(%rax), %xmm0
	movaps	%xmm0, 336(%rsp)
	movups	8(%r8), %xmm0
	movaps	%xmm0, (%rsp)
	movl	$3, %edx
	jmp	.LBB14_17
.LBB14_19:
	movq	%r10, %r15
	subq	%r13, %r15
	movq	32(%rdx), %r12
	cmpq	%r12, %r15
	jbe	.LBB14_30
	movzbl	(%rsi), %ebp
	cmpl	$2, %ebp
	je	.LBB14_23
	cmpl	$1, %ebp
	jne	.LBB14_23
	movq	8(%rsi), %rdi
	addq	%r11, %rdi
	movq	$-1, %r9
	cmovaeq	%rdi, %r9
	leaq	40(%rsi), %rdi
	cmpq	%r13, %r9
	ja	.LBB14_25
	jmp	.LBB14_30
.LBB14_3:
	movq	%rdi, %r11
	subq	%r10, %r11
	cmpq	32(%rdx), %r11
	jbe	.LBB14_14
	movzbl	(%rsi), %r11d
	cmpl	$2, %r11d
	je	.LBB14_7
	cmpl	$1, %r11d
	jne	.LBB14_7
	movq	8(%rsi), %r15
	addq	%r9, %r15
	movq	$-1, %r14
	cmovaeq	%r15, %r14
	cmpq	%r10, %r14
	ja	.LBB14_9
	jmp	.LBB14_14
.LBB14_32:
	leaq	72(%rsi), %r9
	movups	(%r9), %xmm0
	movaps	%xmm0, 448(%rsp)
	movups	(%rdi), %xmm1
	movaps	%xmm1, (%rsp)
	movq	16(%rdi), %rdi
	movq	%rdi, 16(%rsp)
	movups	8(%r8), %xmm1
	movaps	%xmm1, 176(%rsp)
	movq	%rax, 200(%rsp)
	movups	%xmm0, 208(%rsp)
	leaq	336(%rsp), %rdi
	movq	%rsp, %r8
	leaq	200(%rsp), %r9
	callq	"sq_feed::dates::Dates::confirm"
	jmp	.LBB14_33
.LBB14_23:
	movq	48(%rdx), %r9
	cmpq	%r13, %r9
	jbe	.LBB14_30
.LBB14_25:
	cmpl	$2, %ebp
	je	.LBB14_28
	cmpl	$1, %ebp
	jne	.LBB14_28
	addq	8(%rsi), %r11
	movq	$-1, %r9
	cmovaeq	%r11, %r9
	jmp	.LBB14_29
.LBB14_7:
	movq	48(%rdx), %r14
	cmpq	%r10, %r14
	jbe	.LBB14_14
.LBB14_9:
	cmpl	$2, %r11d
	je	.LBB14_12
	cmpl	$1, %r11d
	jne	.LBB14_12
	addq	8(%rsi), %r9
	movq	$-1, %rdx
	cmovaeq	%r9, %rdx
	jmp	.LBB14_13
.LBB14_28:
	movq	48(%rdx), %r9
.LBB14_29:
	cmpq	%r9, %r10
	jae	.LBB14_36
.LBB14_30:
	leaq	72(%rsi), %r9
	movups	(%r9), %xmm0
	movaps	%xmm0, 448(%rsp)
	movups	(%rdi), %xmm1
	movaps	%xmm1, (%rsp)
	movq	16(%rdi), %rdi
	movq	%rdi, 16(%rsp)
	movups	8(%r8), %xmm1
	movaps	%xmm1, 176(%rsp)
	movq	%rax, 200(%rsp)
	movups	%xmm0, 208(%rsp)
	leaq	336(%rsp), %rdi
	movq	%rsp, %r8
	leaq	200(%rsp), %r9
	movq	%rsi, %r13
	callq	"sq_feed::dates::Dates::confirm"
	cmpq	%r12, %r15
	jbe	.LBB14_33
	leaq	64(%r13), %rax
	movq	$1, 32(%r13)
	movq	%r14, 40(%r13)
	movaps	176(%rsp), %xmm0
	movups	%xmm0, 48(%r13)
	xorps	%xmm0, %xmm0
	movups	%xmm0, (%rax)
	movq	$0, 16(%rax)
	jmp	.LBB14_34
.LBB14_33:
	movq	432(%rsp), %rax
	leaq	(%rax,%rax,2), %rcx
	movq	%r14, 336(%rsp,%rcx,8)
	movaps	176(%rsp), %xmm0
	movups	%xmm0, 344(%rsp,%rcx,8)
	incq	%rax
	movq	%rax, 432(%rsp)
.LBB14_34:
	movq	432(%rsp), %rax
	movq	%rax, 320(%rsp)
	movq	440(%rsp), %rax
	movq	%rax, 328(%rsp)
	movups	416(%rsp), %xmm0
	movaps	%xmm0, 304(%rsp)
	movups	400(%rsp), %xmm0
	movaps	%xmm0, 288(%rsp)
	movups	336(%rsp), %xmm0
	movups	352(%rsp), %xmm1
	movups	368(%rsp), %xmm2
	movups	384(%rsp), %xmm3
	movaps	%xmm3, 272(%rsp)
	movaps	%xmm2, 256(%rsp)
	movaps	%xmm1, 240(%rsp)
	movaps	%xmm0, 224(%rsp)
.LBB14_37:
	movq	320(%rsp), %rax
	movq	%rax, 128(%rsp)
	movq	328(%rsp), %rax
	movq	%rax, 136(%rsp)
	movaps	304(%rsp), %xmm0
	movaps	%xmm0, 112(%rsp)
	movaps	288(%rsp), %xmm0
	movaps	%xmm0, 96(%rsp)
	movaps	224(%rsp), %xmm0
	movaps	240(%rsp), %xmm1
	movaps	256(%rsp), %xmm2
	movaps	272(%rsp), %xmm3
	movaps	%xmm3, 80(%rsp)
	movaps	%xmm2, 64(%rsp)
	movaps	%xmm1, 48(%rsp)
	movaps	%xmm0, 32(%rsp)
	jmp	.LBB14_39
.LBB14_12:
	movq	48(%rdx), %rdx
.LBB14_13:
	cmpq	%rdx, %rdi
	jae	.LBB14_16
.LBB14_14:
	movups	(%rax), %xmm0
	movaps	%xmm0, 336(%rsp)
	movups	8(%r8), %xmm0
	movaps	%xmm0, (%rsp)
	movl	$2, %edx
.LBB14_17:
	movaps	336(%rsp), %xmm0
	movaps	%xmm0, 576(%rsp)
	movaps	(%rsp), %xmm0
	movaps	%xmm0, 560(%rsp)
	movq	%rdx, 32(%rsi)
	movaps	576(%rsp), %xmm0
	movups	%xmm0, (%rax)
	movq	%rcx, 64(%rsi)
	movaps	560(%rsp), %xmm0
	movups	%xmm0, 72(%rsi)
	xorps	%xmm0, %xmm0
	movaps	%xmm0, 32(%rsp)
	movaps	%xmm0, 48(%rsp)
	movaps	%xmm0, 64(%rsp)
	movaps	%xmm0, 80(%rsp)
	movaps	%xmm0, 96(%rsp)
	movaps	%xmm0, 112(%rsp)
	movaps	%xmm0, 128(%rsp)
.LBB14_39:
	movq	128(%rsp), %rax
	movq	%rax, 96(%rbx)
	movq	136(%rsp), %rax
	movq	%rax, 104(%rbx)
	movaps	112(%rsp), %xmm0
	movups	%xmm0, 80(%rbx)
	movaps	96(%rsp), %xmm0
	movups	%xmm0, 64(%rbx)
	movaps	32(%rsp), %xmm0
	movaps	48(%rsp), %xmm1
	movaps	64(%rsp), %xmm2
	movaps	80(%rsp), %xmm3
	movups	%xmm3, 48(%rbx)
	movups	%xmm2, 32(%rbx)
	movups	%xmm1, 16(%rbx)
	movups	%xmm0, (%rbx)
	addq	$616, %rsp
	popq	%rbx
	popq	%r12
	popq	%r13
	popq	%r14
	popq	%r15
	popq	%rbp
	retq
.Lfunc_end14:
	.size	"sq_feed::dates::Dates::lengthen", .Lfunc_end14-"sq_feed::dates::Dates::lengthen"
	.section	".rodata.sq_feed::dates::Dates::lengthen","a",@progbits
	.p2align	2, 0x0
.LJTI14_0:
	.long	.LBB14_1-.LJTI14_0
	.long	.LBB14_2-.LJTI14_0
	.long	.LBB14_18-.LJTI14_0
	.long	.LBB14_38-.LJTI14_0

	.section	".text.sq_feed::dates::Dates::confirm","ax",@progbits
	.p2align	4
	.type	"sq_feed::dates::Dates::confirm",@function
"sq_feed::dates::Dates::confirm":
	pushq	%r14
	pushq	%rbx
	subq	$40, %rsp
	movq	(%r8), %rax
	movq	16(%r9), %r10
	movq	%r10, (%rsp)
	movups	(%r9), %xmm0
	movaps	%xmm0, -16(%rsp)
	movups	8(%r8), %xmm0
	movaps	%xmm0, 16(%rsp)
	xorps	%xmm0, %xmm0
	movaps	%xmm0, -128(%rsp)
	movaps	%xmm0, -112(%rsp)
	movaps	%xmm0, -96(%rsp)
	movaps	%xmm0, -80(%rsp)
	movaps	%xmm0, -64(%rsp)
	movaps	%xmm0, -48(%rsp)
	movaps	%xmm0, -32(%rsp)
	movzbl	(%rsi), %r11d
	movq	88(%rsi), %r8
	cmpb	$1, %r11b
	jne	.LBB15_1
	movq	8(%rsi), %r10
	addq	%r8, %r10
	movq	$-1, %rbx
	cmovbq	%rbx, %r10
	movq	%r8, %r9
	addq	%rax, %r9
	cmovbq	%rbx, %r9
	cmpq	%r9, %r10
	jbe	.LBB15_9
	movq	48(%rdx), %r10
	jmp	.LBB15_2
.LBB15_1:
	movq	48(%rdx), %r10
	movq	%r8, %rbx
	addq	%rax, %rbx
	movq	$-1, %r9
	cmovaeq	%rbx, %r9
	cmpq	%r9, %r10
	jbe	.LBB15_10
.LBB15_2:
	cmpb	$1, %r11b
	sete	-24(%rsp)
	cmpq	%r10, %r9
	jae	.LBB15_15
	cmpb	$1, 16(%rdx)
	jne	.LBB15_13
	cmpb	$0, 24(%rdx)
	je	.LBB15_5
	movq	32(%rdx), %r11
	movq	56(%rdx), %rdx
	xorl	%ebx, %ebx
	movq	%r10, %r14
	subq	%rdx, %r14
	cmovaeq	%r14, %rbx
	cmpq	%rbx, %r11
	jb	.LBB15_6
	xorl	%ebx, %ebx
	subq	%rdx, %rcx
	cmovaeq	%rcx, %rbx
	addq	%r10, %rbx
	movq	$-1, %r11
	cmovaeq	%rbx, %r11
	jmp	.LBB15_14
.LBB15_9:
	movq	-32(%rsp), %rcx
	leaq	(%rcx,%rcx,2), %rdx
	movq	24(%rsi), %r8
	movq	%r8, -112(%rsp,%rdx,8)
	movups	8(%rsi), %xmm0
	movups	%xmm0, -128(%rsp,%rdx,8)
	incq	%rcx
	movq	%rcx, -32(%rsp)
.LBB15_10:
	movq	$2, (%rsi)
	xorps	%xmm0, %xmm0
	jmp	.LBB15_16
.LBB15_13:
	addq	32(%rdx), %r10
	movq	$-1, %rcx
	cmovbq	%rcx, %r10
	incq	%r10
	cmoveq	%rcx, %r10
	movq	%r10, %r11
	jmp	.LBB15_14
.LBB15_5:
	movq	32(%rdx), %r11
.LBB15_6:
	addq	%r10, %r11
	movq	$-1, %rcx
	cmovbq	%rcx, %r11
	incq	%r11
	cmoveq	%rcx, %r11
.LBB15_14:
	xorl	%ecx, %ecx
	subq	%r9, %r11
	cmovaeq	%r11, %rcx
	addq	%r8, %rcx
	movq	$-1, %rdx
	cmovbq	%rdx, %rcx
	movq	%rcx, 88(%rsi)
	movq	96(%rsi), %rcx
	incq	%rcx
	cmoveq	%rdx, %rcx
	movq	%rcx, 96(%rsi)
.LBB15_15:
	movq	$2, (%rsi)
.LBB15_16:
	movups	%xmm0, 8(%rsi)
	movq	$0, 24(%rsi)
	movups	%xmm0, 64(%rsi)
	movups	%xmm0, 48(%rsi)
	movups	%xmm0, 32(%rsi)
	movq	$0, 80(%rsi)
	movq	-32(%rsp), %rcx
	leaq	(%rcx,%rcx,2), %rdx
	movq	%rax, -128(%rsp,%rdx,8)
	movaps	16(%rsp), %xmm0
	movups	%xmm0, -120(%rsp,%rdx,8)
	movaps	-16(%rsp), %xmm0
	movups	%xmm0, -104(%rsp,%rdx,8)
	movq	(%rsp), %rax
	movq	%rax, -88(%rsp,%rdx,8)
	addq	$2, %rcx
	movq	%rcx, -32(%rsp)
	movaps	-48(%rsp), %xmm0
	movups	%xmm0, 80(%rdi)
	movaps	-64(%rsp), %xmm0
	movups	%xmm0, 64(%rdi)
	movaps	-128(%rsp), %xmm0
	movaps	-112(%rsp), %xmm1
	movaps	-96(%rsp), %xmm2
	movaps	-80(%rsp), %xmm3
	movups	%xmm3, 48(%rdi)
	movups	%xmm2, 32(%rdi)
	movups	%xmm1, 16(%rdi)
	movups	%xmm0, (%rdi)
	movq	-32(%rsp), %rax
	movq	%rax, 96(%rdi)
	movq	-24(%rsp), %rax
	movq	%rax, 104(%rdi)
	addq	$40, %rsp
	popq	%rbx
	popq	%r14
	retq
.Lfunc_end15:
	.size	"sq_feed::dates::Dates::confirm", .Lfunc_end15-"sq_feed::dates::Dates::confirm"

	.section	".text.sq_feed::dates::Dates::replace","ax",@progbits
	.p2align	4
	.type	"sq_feed::dates::Dates::replace",@function
"sq_feed::dates::Dates::replace":
	pushq	%rbp
	pushq	%r15
	pushq	%r14
	pushq	%r13
	pushq	%r12
	pushq	%rbx
	movq	(%rcx), %r14
	movq	(%r8), %rbp
	movq	(%r9), %rax
	addq	$8, %r9
	movq	88(%rsi), %rbx
	movq	%rbx, %r12
	addq	%r14, %r12
	movq	$-1, %r15
	cmovbq	%r15, %r12
	movq	%rbx, %r11
	addq	%rax, %r11
	cmovbq	%r15, %r11
	movq	%r12, %r15
	subq	%r11, %r15
	jbe	.LBB16_1
	movq	40(%rdx), %r12
	cmpq	$1001, %r12
	movl	$1000, %r13d
	cmovaeq	%r12, %r13
	cmpq	%r13, %r15
	jbe	.LBB16_24
.LBB16_26:
	addq	$8, %r8
	movq	%rbx, %r10
	movq	%rbp, %r15
	addq	%rbp, %r10
	movq	$-1, %rcx
	cmovaeq	%r10, %rcx
	movq	%rcx, %r14
	subq	%r11, %r14
	jbe	.LBB16_27
	movq	40(%rdx), %rcx
	cmpq	$1001, %rcx
	movl	$1000, %edx
	cmovaeq	%rcx, %rdx
	cmpq	%rdx, %r14
	jbe	.LBB16_38
.LBB16_40:
	movups	(%r8), %xmm0
	movaps	%xmm0, -24(%rsp)
	movups	(%r9), %xmm0
	movaps	%xmm0, -40(%rsp)
	movl	$3, %ecx
	jmp	.LBB16_41
.LBB16_1:
	movq	%r11, %r13
	subq	%r12, %r13
	movq	32(%rdx), %r15
	cmpq	%r15, %r13
	jbe	.LBB16_24
	movzbl	(%rsi), %r10d
	cmpl	$2, %r10d
	movl	%r10d, -76(%rsp)
	je	.LBB16_5
	cmpl	$1, %r10d
	jne	.LBB16_5
	movq	8(%rsi), %r10
	addq	%rbx, %r10
	movq	$-1, %r13
	cmovaeq	%r10, %r13
	movl	-76(%rsp), %r10d
	cmpq	%r12, %r13
	ja	.LBB16_7
	jmp	.LBB16_12
.LBB16_27:
	movq	%r11, %r10
	subq	%rcx, %r10
	cmpq	32(%rdx), %r10
	jbe	.LBB16_38
	movzbl	(%rsi), %ebp
	cmpl	$2, %ebp
	je	.LBB16_31
	cmpl	$1, %ebp
	jne	.LBB16_31
	movq	8(%rsi), %r10
	addq	%rbx, %r10
	movq	$-1, %r14
	cmovaeq	%r10, %r14
	cmpq	%rcx, %r14
	ja	.LBB16_33
	jmp	.LBB16_38
.LBB16_5:
	movq	48(%rdx), %r13
	cmpq	%r12, %r13
	jbe	.LBB16_12
.LBB16_7:
	cmpl	$2, %r10d
	je	.LBB16_10
	cmpl	$1, %r10d
	jne	.LBB16_10
	movq	8(%rsi), %r10
	addq	%rbx, %r10
	movq	$-1, %r12
	cmovaeq	%r10, %r12
	cmpq	%r12, %r11
	jae	.LBB16_26
	jmp	.LBB16_12
.LBB16_10:
	movq	48(%rdx), %r12
	cmpq	%r12, %r11
	jae	.LBB16_26
.LBB16_12:
	movq	%rbx, %r10
	addq	%rbp, %r10
	movq	$-1, %r12
	cmovaeq	%r10, %r12
	movq	%r12, %r13
	subq	%r11, %r13
	jbe	.LBB16_13
	movq	40(%rdx), %r10
	cmpq	$1001, %r10
	movl	$1000, %r15d
	cmovaeq	%r10, %r15
	cmpq	%r15, %r13
	jbe	.LBB16_26
.LBB16_24:
	addq	$8, %rcx
	movups	(%rcx), %xmm0
	movaps	%xmm0, -56(%rsp)
	movups	(%r9), %xmm0
	movaps	%xmm0, -72(%rsp)
	movl	$2, %ecx
	jmp	.LBB16_42
.LBB16_13:
	movq	%r11, %r10
	subq	%r12, %r10
	cmpq	%r15, %r10
	movl	-76(%rsp), %r10d
	jbe	.LBB16_26
	cmpl	$2, %r10d
	je	.LBB16_17
	cmpl	$1, %r10d
	jne	.LBB16_17
	movq	8(%rsi), %r10
	addq	%rbx, %r10
	movq	$-1, %r15
	cmovaeq	%r10, %r15
	movl	-76(%rsp), %r10d
	jmp	.LBB16_18
.LBB16_31:
	movq	48(%rdx), %r14
	cmpq	%rcx, %r14
	jbe	.LBB16_38
.LBB16_33:
	cmpl	$2, %ebp
	je	.LBB16_36
	cmpl	$1, %ebp
	jne	.LBB16_36
	addq	8(%rsi), %rbx
	movq	$-1, %rcx
	cmovaeq	%rbx, %rcx
	jmp	.LBB16_37
.LBB16_36:
	movq	48(%rdx), %rcx
.LBB16_37:
	cmpq	%rcx, %r11
	jae	.LBB16_40
.LBB16_38:
	movups	(%r8), %xmm0
	movaps	%xmm0, -24(%rsp)
	movups	(%r9), %xmm0
	movaps	%xmm0, -40(%rsp)
	movl	$2, %ecx
.LBB16_41:
	movaps	-24(%rsp), %xmm0
	movaps	%xmm0, -56(%rsp)
	movaps	-40(%rsp), %xmm0
	movaps	%xmm0, -72(%rsp)
	movq	%r15, %r14
.LBB16_42:
	movq	%rcx, 32(%rsi)
	movq	%r14, 40(%rsi)
	movaps	-56(%rsp), %xmm0
	movups	%xmm0, 48(%rsi)
	movq	%rax, 64(%rsi)
	movaps	-72(%rsp), %xmm0
	movups	%xmm0, 72(%rsi)
	xorps	%xmm0, %xmm0
	movups	%xmm0, 80(%rdi)
	movups	%xmm0, 64(%rdi)
	movups	%xmm0, 48(%rdi)
	movups	%xmm0, 32(%rdi)
	movups	%xmm0, 16(%rdi)
	movups	%xmm0, (%rdi)
	movq	$0, 96(%rdi)
	movb	$1, 104(%rdi)
	movl	$0, 105(%rdi)
	movl	$0, 108(%rdi)
	popq	%rbx
	popq	%r12
	popq	%r13
	popq	%r14
	popq	%r15
	popq	%rbp
	retq
.LBB16_17:
	movq	48(%rdx), %r15
.LBB16_18:
	cmpq	%r12, %r15
	jbe	.LBB16_26
	cmpl	$2, %r10d
	je	.LBB16_22
	cmpl	$1, %r10d
	jne	.LBB16_22
	movq	8(%rsi), %r10
	addq	%rbx, %r10
	movq	$-1, %r15
	cmovaeq	%r10, %r15
	jmp	.LBB16_23
.LBB16_22:
	movq	48(%rdx), %r15
.LBB16_23:
	cmpq	%r15, %r11
	jb	.LBB16_26
	jmp	.LBB16_24
.Lfunc_end16:
	.size	"sq_feed::dates::Dates::replace", .Lfunc_end16-"sq_feed::dates::Dates::replace"

	.section	".text.sq_feed::dates::Dates::judge_later","ax",@progbits
	.p2align	4
	.type	"sq_feed::dates::Dates::judge_later",@function
"sq_feed::dates::Dates::judge_later":
	pushq	%rbx
	subq	$256, %rsp
	movq	%rdi, %rbx
	movq	16(%r8), %rax
	movq	%rax, 16(%rsp)
	movups	(%r8), %xmm0
	movaps	%xmm0, (%rsp)
	xorps	%xmm0, %xmm0
	movaps	%xmm0, 144(%rsp)
	movaps	%xmm0, 160(%rsp)
	movaps	%xmm0, 176(%rsp)
	movaps	%xmm0, 192(%rsp)
	movaps	%xmm0, 208(%rsp)
	movaps	%xmm0, 224(%rsp)
	movaps	%xmm0, 240(%rsp)
	movq	88(%rsi), %r8
	movq	(%rsp), %rax
	addq	%r8, %rax
	movq	$-1, %rdi
	cmovaeq	%rax, %rdi
	movzbl	(%rsi), %eax
	cmpl	$2, %eax
	je	.LBB17_3
	cmpl	$1, %eax
	jne	.LBB17_3
	addq	8(%rsi), %r8
	movq	$-1, %r9
	cmovaeq	%r8, %r9
	movq	%r9, %r8
	subq	%rdi, %r8
	ja	.LBB17_6
.LBB17_5:
	movq	%rdi, %r8
	subq	%r9, %r8
	cmpq	32(%rdx), %r8
	ja	.LBB17_7
	jmp	.LBB17_11
.LBB17_3:
	movq	48(%rdx), %r9
	movq	%r9, %r8
	subq	%rdi, %r8
	jbe	.LBB17_5
.LBB17_6:
	movq	40(%rdx), %r9
	cmpq	$1001, %r9
	movl	$1000, %r10d
	cmovaeq	%r9, %r10
	cmpq	%r10, %r8
	jbe	.LBB17_11
.LBB17_7:
	cmpb	$2, %al
	jne	.LBB17_16
	cmpb	$1, 24(%rdx)
	jne	.LBB17_16
	movq	48(%rdx), %r8
	cmpq	%rdi, %r8
	ja	.LBB17_16
	xorl	%r9d, %r9d
	movq	%rcx, %r10
	subq	56(%rdx), %r10
	cmovaeq	%r10, %r9
	addq	%r8, %r9
	movq	$-1, %r8
	cmovaeq	%r9, %r8
	movq	%rdi, %r9
	subq	%r8, %r9
	subq	%rdi, %r8
	cmovbq	%r9, %r8
	cmpq	32(%rdx), %r8
	jbe	.LBB17_11
.LBB17_16:
	leaq	144(%rsp), %rdi
	movq	%rsp, %r8
	callq	"sq_feed::dates::Dates::lengthen"
	movaps	240(%rsp), %xmm0
	movups	%xmm0, 96(%rbx)
	movaps	224(%rsp), %xmm0
	movups	%xmm0, 80(%rbx)
	movaps	208(%rsp), %xmm0
	movups	%xmm0, 64(%rbx)
	movaps	144(%rsp), %xmm0
	movaps	160(%rsp), %xmm1
	movaps	176(%rsp), %xmm2
	movaps	192(%rsp), %xmm3
	movups	%xmm3, 48(%rbx)
	movups	%xmm2, 32(%rbx)
	movups	%xmm1, 16(%rbx)
	movups	%xmm0, (%rbx)
	addq	$256, %rsp
	popq	%rbx
	retq
.LBB17_11:
	movzbl	32(%rsi), %ecx
	shlb	$3, %cl
	movl	$33685760, %edx
	shrl	%cl, %edx
	movaps	%xmm0, 112(%rsp)
	movaps	%xmm0, 96(%rsp)
	movaps	%xmm0, 80(%rsp)
	movaps	%xmm0, 64(%rsp)
	movaps	%xmm0, 48(%rsp)
	movaps	%xmm0, 32(%rsp)
	movq	$0, 128(%rsp)
	movb	%dl, 136(%rsp)
	movl	$0, 137(%rsp)
	movl	$0, 140(%rsp)
	cmpb	$1, %al
	jne	.LBB17_12
	movq	128(%rsp), %rax
	leaq	(%rax,%rax,2), %rcx
	movq	24(%rsi), %rdx
	movq	%rdx, 48(%rsp,%rcx,8)
	movups	8(%rsi), %xmm0
	movups	%xmm0, 32(%rsp,%rcx,8)
	incq	%rax
	jmp	.LBB17_14
.LBB17_12:
	movq	128(%rsp), %rax
.LBB17_14:
	movq	$2, (%rsi)
	leaq	(%rax,%rax,2), %rcx
	xorps	%xmm0, %xmm0
	movups	%xmm0, 8(%rsi)
	movups	%xmm0, 24(%rsi)
	movups	%xmm0, 40(%rsi)
	movups	%xmm0, 56(%rsi)
	movups	%xmm0, 72(%rsi)
	movq	16(%rsp), %rdx
	movq	%rdx, 48(%rsp,%rcx,8)
	movaps	(%rsp), %xmm0
	movups	%xmm0, 32(%rsp,%rcx,8)
	incq	%rax
	movq	%rax, 128(%rsp)
	movaps	112(%rsp), %xmm0
	movups	%xmm0, 80(%rbx)
	movaps	96(%rsp), %xmm0
	movups	%xmm0, 64(%rbx)
	movaps	32(%rsp), %xmm0
	movaps	48(%rsp), %xmm1
	movaps	64(%rsp), %xmm2
	movaps	80(%rsp), %xmm3
	movups	%xmm3, 48(%rbx)
	movups	%xmm2, 32(%rbx)
	movups	%xmm1, 16(%rbx)
	movups	%xmm0, (%rbx)
	movq	128(%rsp), %rax
	movq	%rax, 96(%rbx)
	movq	136(%rsp), %rax
	movq	%rax, 104(%rbx)
	addq	$256, %rsp
	popq	%rbx
	retq
.Lfunc_end17:
	.size	"sq_feed::dates::Dates::judge_later", .Lfunc_end17-"sq_feed::dates::Dates::judge_later"

	.section	".text.unlikely.sq_feed::ear::Ear::hear_jump","ax",@progbits
	.p2align	4
	.type	"sq_feed::ear::Ear::hear_jump",@function
"sq_feed::ear::Ear::hear_jump":
	pushq	%r15
	pushq	%r14
	pushq	%rbx
	subq	$400, %rsp
	movq	%rcx, %rbx
	movq	%rdx, %r14
	movq	%rsi, %rax
	movq	%rdi, %r15
	leaq	64(%rdi), %rsi
	movups	(%rax), %xmm0
	movaps	%xmm0, 32(%rsp)
	movq	16(%rax), %rcx
	movq	%rcx, 48(%rsp)
	xorps	%xmm0, %xmm0
	movaps	%xmm0, 64(%rsp)
	movaps	%xmm0, 80(%rsp)
	movaps	%xmm0, 96(%rsp)
	movaps	%xmm0, 112(%rsp)
	movaps	%xmm0, 128(%rsp)
	movaps	%xmm0, 144(%rsp)
	movaps	%xmm0, 160(%rsp)
	movzbl	64(%rdi), %ecx
	cmpl	$2, %ecx
	je	.LBB18_3
	cmpl	$1, %ecx
	jne	.LBB18_2
.LBB18_3:
	leaq	64(%rsp), %rdi
	leaq	32(%rsp), %r8
	movq	%r15, %rdx
	movq	%r14, %rcx
	callq	"sq_feed::dates::Dates::judge_later"
	jmp	.LBB18_4
.LBB18_2:
	movq	16(%rax), %rcx
	movq	%rcx, 16(%rsp)
	movups	(%rax), %xmm0
	movaps	%xmm0, (%rsp)
	movq	$1, 64(%r15)
	movaps	(%rsp), %xmm0
	movups	%xmm0, 72(%r15)
	movq	16(%rsp), %rax
	movq	%rax, 88(%r15)
.LBB18_4:
	movaps	160(%rsp), %xmm0
	movaps	%xmm0, 384(%rsp)
	movaps	144(%rsp), %xmm1
	movaps	%xmm1, 368(%rsp)
	movaps	128(%rsp), %xmm2
	movaps	%xmm2, 352(%rsp)
	movaps	64(%rsp), %xmm3
	movaps	80(%rsp), %xmm4
	movaps	96(%rsp), %xmm5
	movaps	112(%rsp), %xmm6
	movaps	%xmm6, 336(%rsp)
	movaps	%xmm5, 320(%rsp)
	movaps	%xmm4, 304(%rsp)
	movaps	%xmm3, 288(%rsp)
	movaps	%xmm0, 272(%rsp)
	movaps	%xmm1, 256(%rsp)
	movaps	%xmm2, 240(%rsp)
	movaps	%xmm6, 224(%rsp)
	movaps	%xmm5, 208(%rsp)
	movaps	%xmm4, 192(%rsp)
	movaps	%xmm3, 176(%rsp)
	movq	272(%rsp), %rax
	movzbl	280(%rsp), %ecx
	movzbl	%al, %edx
	leaq	(%rdx,%rcx), %rsi
	addq	176(%r15), %rsi
	jb	.LBB18_6
	movq	%rsi, 176(%r15)
	addq	%rdx, 184(%r15)
	addq	%rcx, 224(%r15)
.LBB18_6:
	testq	%rax, %rax
	je	.LBB18_12
	leaq	176(%rsp), %rcx
	jmp	.LBB18_8
	.p2align	4
.LBB18_10:
	xorl	%edi, %edi
	subq	40(%r15), %rsi
	cmovaeq	%rsi, %rdi
	cmpq	%rdx, %rdi
	cmovaq	%rdi, %rdx
.LBB18_11:
	decq	%rax
	movq	96(%rbx), %rsi
	leaq	(%rsi,%rsi,2), %rdi
	movq	%rdx, (%rbx,%rdi,8)
	movq	8(%rcx), %rdx
	movq	14(%rcx), %r8
	movq	%rdx, 8(%rbx,%rdi,8)
	movq	%r8, 14(%rbx,%rdi,8)
	movw	$0, 22(%rbx,%rdi,8)
	incq	%rsi
	movq	%rsi, 96(%rbx)
	addq	$24, %rcx
	testq	%rax, %rax
	je	.LBB18_12
.LBB18_8:
	movq	48(%r15), %rsi
	movq	152(%r15), %rdi
	addq	(%rcx), %rdi
	movq	$-1, %rdx
	cmovaeq	%rdi, %rdx
	cmpq	%rdx, %rsi
	ja	.LBB18_10
	movq	%rdx, 48(%r15)
	movq	%r14, 56(%r15)
	jmp	.LBB18_11
.LBB18_12:
	addq	$400, %rsp
	popq	%rbx
	popq	%r14
	popq	%r15
	retq
.Lfunc_end18:
	.size	"sq_feed::ear::Ear::hear_jump", .Lfunc_end18-"sq_feed::ear::Ear::hear_jump"

	.section	".text.sq_feed::ear::Ear::end","ax",@progbits
	.p2align	4
	.type	"sq_feed::ear::Ear::end",@function
"sq_feed::ear::Ear::end":
	pushq	%r14
	pushq	%rbx
	subq	$344, %rsp
	movq	%rsi, %rbx
	movq	%rdi, %r14
	leaq	64(%rdi), %rsi
	xorps	%xmm0, %xmm0
	movaps	%xmm0, 96(%rsp)
	movaps	%xmm0, 80(%rsp)
	movaps	%xmm0, 64(%rsp)
	movaps	%xmm0, 48(%rsp)
	movaps	%xmm0, 32(%rsp)
	movaps	%xmm0, 16(%rsp)
	movaps	%xmm0, (%rsp)
	movzbl	64(%rdi), %eax
	cmpl	$2, %eax
	je	.LBB19_3
	cmpl	$1, %eax
	jne	.LBB19_2
.LBB19_3:
	movq	%rsp, %rdi
	movq	%r14, %rdx
	callq	"sq_feed::dates::Dates::end_run"
	jmp	.LBB19_4
.LBB19_2:
	movzbl	96(%r14), %ecx
	shlb	$3, %cl
	movl	$33685760, %eax
	shrl	%cl, %eax
	movups	%xmm0, 112(%r14)
	movups	%xmm0, 128(%r14)
	movups	%xmm0, 96(%r14)
	movq	$0, 144(%r14)
	movaps	%xmm0, 80(%rsp)
	movaps	%xmm0, 64(%rsp)
	movaps	%xmm0, 48(%rsp)
	movaps	%xmm0, 32(%rsp)
	movaps	%xmm0, 16(%rsp)
	movaps	%xmm0, (%rsp)
	movq	$0, 96(%rsp)
	movb	%al, 104(%rsp)
	movl	$0, 105(%rsp)
	movl	$0, 108(%rsp)
.LBB19_4:
	movaps	96(%rsp), %xmm0
	movaps	%xmm0, 320(%rsp)
	movaps	80(%rsp), %xmm1
	movaps	%xmm1, 304(%rsp)
	movaps	64(%rsp), %xmm2
	movaps	%xmm2, 288(%rsp)
	movaps	(%rsp), %xmm3
	movaps	16(%rsp), %xmm4
	movaps	32(%rsp), %xmm5
	movaps	48(%rsp), %xmm6
	movaps	%xmm6, 272(%rsp)
	movaps	%xmm5, 256(%rsp)
	movaps	%xmm4, 240(%rsp)
	movaps	%xmm3, 224(%rsp)
	movaps	%xmm0, 208(%rsp)
	movaps	%xmm1, 192(%rsp)
	movaps	%xmm2, 176(%rsp)
	movaps	%xmm6, 160(%rsp)
	movaps	%xmm5, 144(%rsp)
	movaps	%xmm4, 128(%rsp)
	movaps	%xmm3, 112(%rsp)
	movq	208(%rsp), %rax
	movzbl	216(%rsp), %ecx
	movzbl	%al, %edx
	leaq	(%rdx,%rcx), %rsi
	addq	176(%r14), %rsi
	jb	.LBB19_6
	movq	%rsi, 176(%r14)
	addq	%rdx, 184(%r14)
	addq	%rcx, 224(%r14)
.LBB19_6:
	testq	%rax, %rax
	je	.LBB19_12
	movq	56(%r14), %rcx
	leaq	112(%rsp), %rdx
	jmp	.LBB19_8
	.p2align	4
.LBB19_10:
	xorl	%r8d, %r8d
	subq	40(%r14), %rdi
	cmovaeq	%rdi, %r8
	cmpq	%rsi, %r8
	cmovaq	%r8, %rsi
.LBB19_11:
	decq	%rax
	movq	96(%rbx), %rdi
	leaq	(%rdi,%rdi,2), %r8
	movq	%rsi, (%rbx,%r8,8)
	movq	8(%rdx), %rsi
	movq	14(%rdx), %r9
	movq	%rsi, 8(%rbx,%r8,8)
	movq	%r9, 14(%rbx,%r8,8)
	movw	$0, 22(%rbx,%r8,8)
	incq	%rdi
	movq	%rdi, 96(%rbx)
	addq	$24, %rdx
	testq	%rax, %rax
	je	.LBB19_12
.LBB19_8:
	movq	48(%r14), %rdi
	movq	152(%r14), %r8
	addq	(%rdx), %r8
	movq	$-1, %rsi
	cmovaeq	%r8, %rsi
	cmpq	%rsi, %rdi
	ja	.LBB19_10
	movq	%rsi, 48(%r14)
	movq	%rcx, 56(%r14)
	jmp	.LBB19_11
.LBB19_12:
	addq	$344, %rsp
	popq	%rbx
	popq	%r14
	retq
.Lfunc_end19:
	.size	"sq_feed::ear::Ear::end", .Lfunc_end19-"sq_feed::ear::Ear::end"

	.section	".text.sq_feed::dates::Dates::end_run","ax",@progbits
	.p2align	4
	.type	"sq_feed::dates::Dates::end_run",@function
"sq_feed::dates::Dates::end_run":
	pushq	%rbx
	subq	$416, %rsp
	movzbl	32(%rsi), %eax
	leaq	.LJTI20_0(%rip), %rcx
	movslq	(%rcx,%rax,4), %rax
	addq	%rcx, %rax
	jmpq	*%rax
.LBB20_1:
	xorps	%xmm0, %xmm0
	movaps	%xmm0, 112(%rsp)
	movaps	%xmm0, 96(%rsp)
	movaps	%xmm0, 80(%rsp)
	movaps	%xmm0, 64(%rsp)
	movaps	%xmm0, 48(%rsp)
	movaps	%xmm0, 32(%rsp)
	cmpb	$1, (%rsi)
	jne	.LBB20_2
	movq	24(%rsi), %rax
	movq	%rax, 48(%rsp)
	movups	8(%rsi), %xmm1
	movaps	%xmm1, 32(%rsp)
	movl	$1, %eax
	jmp	.LBB20_4
.LBB20_19:
	movq	56(%rsi), %rax
	movq	%rax, 400(%rsp)
	movups	40(%rsi), %xmm0
	movaps	%xmm0, 384(%rsp)
	movups	64(%rsi), %xmm0
	movaps	%xmm0, 352(%rsp)
	movq	80(%rsi), %rax
	movq	%rax, 368(%rsp)
	movq	56(%rdx), %rcx
	leaq	144(%rsp), %rax
	leaq	384(%rsp), %r8
	leaq	352(%rsp), %r9
	movq	%rdi, %rbx
	movq	%rax, %rdi
	callq	"sq_feed::dates::Dates::confirm"
	movq	%rbx, %rdi
	jmp	.LBB20_25
.LBB20_20:
	xorps	%xmm0, %xmm0
	movaps	%xmm0, 32(%rsp)
	movaps	%xmm0, 48(%rsp)
	movaps	%xmm0, 64(%rsp)
	movaps	%xmm0, 80(%rsp)
	movaps	%xmm0, 96(%rsp)
	movaps	%xmm0, 112(%rsp)
	movl	$0, 16(%rsp)
	movl	$0, 19(%rsp)
	cmpb	$1, (%rsi)
	jne	.LBB20_21
	movq	24(%rsi), %rax
	movq	%rax, 48(%rsp)
	movups	8(%rsi), %xmm1
	movaps	%xmm1, 32(%rsp)
	movl	$1, %eax
	jmp	.LBB20_23
.LBB20_5:
	movq	40(%rsi), %rcx
	movzbl	(%rsi), %eax
	cmpl	$2, %eax
	je	.LBB20_8
	cmpl	$1, %eax
	jne	.LBB20_8
	movq	88(%rsi), %r8
	addq	8(%rsi), %r8
	movq	$-1, %rdx
	cmovaeq	%r8, %rdx
	jmp	.LBB20_9
.LBB20_8:
	movq	48(%rdx), %rdx
.LBB20_9:
	movq	88(%rsi), %r8
	addq	%rcx, %r8
	movq	$-1, %r9
	cmovaeq	%r8, %r9
	cmpq	%r9, %rdx
	jbe	.LBB20_10
	xorps	%xmm0, %xmm0
	movaps	%xmm0, 32(%rsp)
	movaps	%xmm0, 48(%rsp)
	movaps	%xmm0, 64(%rsp)
	movaps	%xmm0, 80(%rsp)
	movaps	%xmm0, 96(%rsp)
	movaps	%xmm0, 112(%rsp)
	movl	$0, 16(%rsp)
	movl	$0, 19(%rsp)
	cmpb	$1, %al
	jne	.LBB20_15
	movq	24(%rsi), %rax
	movq	%rax, 48(%rsp)
	movups	8(%rsi), %xmm1
	movaps	%xmm1, 32(%rsp)
	movl	$1, %eax
	jmp	.LBB20_17
.LBB20_21:
	xorl	%eax, %eax
.LBB20_23:
	movq	$2, (%rsi)
	movups	%xmm0, 8(%rsi)
	movups	%xmm0, 24(%rsi)
	movups	%xmm0, 40(%rsi)
	movups	%xmm0, 56(%rsi)
	movups	%xmm0, 72(%rsi)
	movaps	112(%rsp), %xmm0
	movaps	%xmm0, 224(%rsp)
	movaps	96(%rsp), %xmm0
	movaps	%xmm0, 208(%rsp)
	movaps	32(%rsp), %xmm0
	movq	48(%rsp), %rcx
	movq	56(%rsp), %rdx
	movaps	64(%rsp), %xmm1
	movaps	80(%rsp), %xmm2
	movaps	%xmm2, 192(%rsp)
	movaps	%xmm1, 176(%rsp)
	movq	%rcx, 160(%rsp)
	movq	%rdx, 168(%rsp)
	movaps	%xmm0, 144(%rsp)
	movq	%rax, 240(%rsp)
	movb	$2, 248(%rsp)
	movl	16(%rsp), %eax
	movl	19(%rsp), %ecx
	jmp	.LBB20_24
.LBB20_2:
	xorl	%eax, %eax
.LBB20_4:
	movq	$2, (%rsi)
	movups	%xmm0, 8(%rsi)
	movups	%xmm0, 24(%rsi)
	movups	%xmm0, 40(%rsi)
	movups	%xmm0, 56(%rsi)
	movups	%xmm0, 72(%rsi)
	movaps	112(%rsp), %xmm0
	movaps	%xmm0, 224(%rsp)
	movaps	96(%rsp), %xmm0
	movaps	%xmm0, 208(%rsp)
	movaps	32(%rsp), %xmm0
	movq	48(%rsp), %rcx
	movq	56(%rsp), %rdx
	movaps	64(%rsp), %xmm1
	movaps	80(%rsp), %xmm2
	movaps	%xmm2, 192(%rsp)
	movaps	%xmm1, 176(%rsp)
	movq	%rcx, 160(%rsp)
	movq	%rdx, 168(%rsp)
	movaps	%xmm0, 144(%rsp)
	movq	%rax, 240(%rsp)
	movq	$0, 248(%rsp)
	jmp	.LBB20_25
.LBB20_10:
	leaq	48(%rsi), %rdx
	movups	(%rdx), %xmm0
	movaps	%xmm0, 16(%rsp)
	xorps	%xmm0, %xmm0
	movaps	%xmm0, 32(%rsp)
	movaps	%xmm0, 48(%rsp)
	movaps	%xmm0, 64(%rsp)
	movaps	%xmm0, 80(%rsp)
	movaps	%xmm0, 96(%rsp)
	movaps	%xmm0, 112(%rsp)
	movaps	%xmm0, 128(%rsp)
	cmpb	$1, %al
	jne	.LBB20_11
	movq	24(%rsi), %rax
	movq	%rax, 48(%rsp)
	movups	8(%rsi), %xmm1
	movaps	%xmm1, 32(%rsp)
	movl	$1, %eax
	jmp	.LBB20_13
.LBB20_15:
	xorl	%eax, %eax
.LBB20_17:
	movq	$2, (%rsi)
	movups	%xmm0, 8(%rsi)
	movups	%xmm0, 24(%rsi)
	movups	%xmm0, 40(%rsi)
	movups	%xmm0, 56(%rsi)
	movups	%xmm0, 72(%rsi)
	movaps	112(%rsp), %xmm0
	movaps	%xmm0, 336(%rsp)
	movaps	96(%rsp), %xmm0
	movaps	%xmm0, 320(%rsp)
	movaps	32(%rsp), %xmm0
	movq	48(%rsp), %rcx
	movq	56(%rsp), %rdx
	movaps	64(%rsp), %xmm1
	movaps	80(%rsp), %xmm2
	movaps	%xmm2, 304(%rsp)
	movaps	%xmm1, 288(%rsp)
	movq	%rcx, 272(%rsp)
	movq	%rdx, 280(%rsp)
	movaps	%xmm0, 256(%rsp)
	movl	16(%rsp), %ecx
	movl	19(%rsp), %edx
	movl	%ecx, 8(%rsp)
	movl	%edx, 11(%rsp)
	movb	$1, %cl
	jmp	.LBB20_18
.LBB20_11:
	xorl	%eax, %eax
.LBB20_13:
	movq	$2, (%rsi)
	movups	%xmm0, 8(%rsi)
	movups	%xmm0, 24(%rsi)
	movups	%xmm0, 40(%rsi)
	movups	%xmm0, 56(%rsi)
	movups	%xmm0, 72(%rsi)
	leaq	(%rax,%rax,2), %rdx
	movq	%rcx, 32(%rsp,%rdx,8)
	movaps	16(%rsp), %xmm0
	movups	%xmm0, 40(%rsp,%rdx,8)
	incq	%rax
	movaps	32(%rsp), %xmm0
	movq	48(%rsp), %rcx
	movq	56(%rsp), %rdx
	movaps	64(%rsp), %xmm1
	movaps	80(%rsp), %xmm2
	movaps	%xmm0, 256(%rsp)
	movq	%rcx, 272(%rsp)
	movq	%rdx, 280(%rsp)
	movaps	%xmm1, 288(%rsp)
	movaps	%xmm2, 304(%rsp)
	movaps	96(%rsp), %xmm0
	movaps	%xmm0, 320(%rsp)
	movaps	112(%rsp), %xmm0
	movaps	%xmm0, 336(%rsp)
	movzbl	136(%rsp), %ecx
	movl	137(%rsp), %edx
	movl	%edx, 8(%rsp)
	movl	140(%rsp), %edx
	movl	%edx, 11(%rsp)
.LBB20_18:
	movaps	336(%rsp), %xmm0
	movaps	%xmm0, 224(%rsp)
	movaps	320(%rsp), %xmm0
	movaps	%xmm0, 208(%rsp)
	movaps	256(%rsp), %xmm0
	movq	272(%rsp), %rdx
	movq	280(%rsp), %rsi
	movaps	288(%rsp), %xmm1
	movaps	304(%rsp), %xmm2
	movaps	%xmm2, 192(%rsp)
	movaps	%xmm1, 176(%rsp)
	movq	%rdx, 160(%rsp)
	movq	%rsi, 168(%rsp)
	movaps	%xmm0, 144(%rsp)
	movq	%rax, 240(%rsp)
	movb	%cl, 248(%rsp)
	movl	8(%rsp), %eax
	movl	11(%rsp), %ecx
.LBB20_24:
	movl	%eax, 249(%rsp)
	movl	%ecx, 252(%rsp)
.LBB20_25:
	movq	240(%rsp), %rax
	movq	%rax, 96(%rdi)
	movzbl	248(%rsp), %eax
	movb	%al, 104(%rdi)
	movl	249(%rsp), %eax
	movl	%eax, 105(%rdi)
	movzwl	253(%rsp), %eax
	movw	%ax, 109(%rdi)
	movzbl	255(%rsp), %eax
	movb	%al, 111(%rdi)
	movaps	224(%rsp), %xmm0
	movups	%xmm0, 80(%rdi)
	movaps	208(%rsp), %xmm0
	movups	%xmm0, 64(%rdi)
	movaps	144(%rsp), %xmm0
	movaps	160(%rsp), %xmm1
	movaps	176(%rsp), %xmm2
	movaps	192(%rsp), %xmm3
	movups	%xmm3, 48(%rdi)
	movups	%xmm2, 32(%rdi)
	movups	%xmm1, 16(%rdi)
	movups	%xmm0, (%rdi)
	addq	$416, %rsp
	popq	%rbx
	retq
.Lfunc_end20:
	.size	"sq_feed::dates::Dates::end_run", .Lfunc_end20-"sq_feed::dates::Dates::end_run"
	.section	".rodata.sq_feed::dates::Dates::end_run","a",@progbits
	.p2align	2, 0x0
.LJTI20_0:
	.long	.LBB20_1-.LJTI20_0
	.long	.LBB20_5-.LJTI20_0
	.long	.LBB20_19-.LJTI20_0
	.long	.LBB20_20-.LJTI20_0

	.section	".text.sq_feed::feed::Feed::close","ax",@progbits
	.p2align	4
	.type	"sq_feed::feed::Feed::close",@function
"sq_feed::feed::Feed::close":
	pushq	%rbp
	pushq	%r15
	pushq	%r14
	pushq	%r13
	pushq	%r12
	pushq	%rbx
	subq	$3072, %rsp
	movq	$0, (%rsp)
	subq	$3072, %rsp
	movq	$0, (%rsp)
	subq	$3072, %rsp
	movq	$0, (%rsp)
	subq	$3072, %rsp
	movq	$0, (%rsp)
	subq	$3072, %rsp
	movq	$0, (%rsp)
	subq	$1768, %rsp
	movq	%rdi, %rbx
	movzbl	2(%rdi), %eax
	leaq	.LJTI21_0(%rip), %rcx
	movslq	(%rcx,%rax,4), %rax
	addq	%rcx, %rax
	jmpq	*%rax
.LBB21_1:
	movq	16448(%rbx), %rdx
	movq	16456(%rbx), %rax
	leaq	(%rbx,%rax), %rsi
	addq	$64, %rsi
	subq	%rax, %rdx
	movl	$1, %edi
	callq	"sq_feed::signs::line_sign"
	cmpb	$1, 8(%rbx)
	movzbl	%dl, %ecx
	jne	.LBB21_3
	movzbl	9(%rbx), %edx
	decb	%dl
	cmpb	$1, %dl
	ja	.LBB21_4
.LBB21_3:
	movw	$1, %dx
	cmpb	$0, 56(%rbx)
	jne	.LBB21_8
.LBB21_4:
	cmpq	$0, 16448(%rbx)
	je	.LBB21_5
	movw	$257, %dx
	cmpb	$0, 16464(%rbx)
	jne	.LBB21_8
	cmpb	$2, %al
	movl	$11, %esi
	cmovel	%ecx, %esi
	cmpb	$1, 16465(%rbx)
	movzbl	16466(%rbx), %edx
	cmovnel	%esi, %edx
	shll	$8, %edx
	orl	$2, %edx
	jmp	.LBB21_8
.LBB21_14:
	movq	16448(%rbx), %rax
	movq	%rax, 16472(%rbx)
.LBB21_15:
	movw	$3, 2(%rbx)
	jmp	.LBB21_18
.LBB21_5:
	xorl	%edx, %edx
.LBB21_8:
	shll	$8, %ecx
	incl	%ecx
	cmpb	$1, %al
	cmovel	%ecx, %edx
	movzbl	%dh, %eax
	cmpb	$2, %dl
	je	.LBB21_13
	movzbl	%dl, %ecx
	cmpl	$1, %ecx
	jne	.LBB21_10
	movw	$3, 2(%rbx)
	xorl	%ecx, %ecx
	cmpw	$2, %ax
	sete	%cl
	leal	(%rcx,%rcx), %edx
	movb	%al, 16480(%rbx)
	xorps	%xmm0, %xmm0
	movups	%xmm0, 16481(%rbx)
	movups	%xmm0, 16497(%rbx)
	movups	%xmm0, 16513(%rbx)
	movups	%xmm0, 16529(%rbx)
	movups	%xmm0, 16545(%rbx)
	movups	%xmm0, 16561(%rbx)
	movups	%xmm0, 16577(%rbx)
	movups	%xmm0, 16592(%rbx)
	movq	%rcx, 16608(%rbx)
	movq	$0, 16616(%rbx)
	movq	%rdx, 16624(%rbx)
	leaq	16632(%rbx), %rdi
	movl	$528, %edx
	xorl	%esi, %esi
	callq	memset@PLT
	movq	$0, 16472(%rbx)
	jmp	.LBB21_18
.LBB21_10:
	movzbl	(%rbx), %ebp
	movzbl	1(%rbx), %r15d
	movzbl	%r15b, %r13d
	leaq	660(%rsp), %rdi
	movl	$16468, %edx
	xorl	%esi, %esi
	callq	memset@PLT
	cmpb	$1, %bpl
	jne	.LBB21_16
	xorl	%r14d, %r14d
	cmpb	$2, %r15b
	sete	%r14b
	leal	(%r14,%r14), %r12d
	movzwl	%r13w, %r13d
	shll	$8, %r13d
	incl	%r13d
	leaq	664(%rsp), %rdi
	movl	$16464, %edx
	xorl	%esi, %esi
	callq	memset@PLT
	xorps	%xmm0, %xmm0
	movaps	%xmm0, (%rsp)
	movaps	%xmm0, 16(%rsp)
	movaps	%xmm0, 32(%rsp)
	movups	%xmm0, 41(%rsp)
	movaps	%xmm0, 64(%rsp)
	movaps	%xmm0, 80(%rsp)
	movaps	%xmm0, 96(%rsp)
	movups	%xmm0, 110(%rsp)
	leaq	128(%rsp), %rdi
	movl	$528, %edx
	xorl	%esi, %esi
	callq	memset@PLT
	jmp	.LBB21_17
.LBB21_16:
	movzwl	%r13w, %r13d
	shll	$8, %r13d
	leaq	664(%rsp), %rdi
	xorl	%r14d, %r14d
	movl	$16464, %edx
	xorl	%esi, %esi
	callq	memset@PLT
	xorps	%xmm0, %xmm0
	movaps	%xmm0, (%rsp)
	movaps	%xmm0, 16(%rsp)
	movaps	%xmm0, 32(%rsp)
	movups	%xmm0, 41(%rsp)
	movaps	%xmm0, 64(%rsp)
	movaps	%xmm0, 80(%rsp)
	movaps	%xmm0, 96(%rsp)
	movups	%xmm0, 110(%rsp)
	leaq	128(%rsp), %rdi
	movl	$528, %edx
	xorl	%esi, %esi
	callq	memset@PLT
	movb	$3, %r15b
	xorl	%r12d, %r12d
.LBB21_17:
	movw	%r13w, (%rbx)
	movb	%bpl, 2(%rbx)
	movb	$0, 3(%rbx)
	leaq	4(%rbx), %rdi
	leaq	660(%rsp), %rsi
	movl	$16468, %edx
	callq	memcpy@PLT
	movq	$0, 16472(%rbx)
	movb	%r15b, 16480(%rbx)
	movaps	(%rsp), %xmm0
	movaps	16(%rsp), %xmm1
	movaps	32(%rsp), %xmm2
	movups	%xmm0, 16481(%rbx)
	movups	%xmm1, 16497(%rbx)
	movups	%xmm2, 16513(%rbx)
	movups	41(%rsp), %xmm0
	movups	%xmm0, 16522(%rbx)
	movaps	64(%rsp), %xmm0
	movaps	80(%rsp), %xmm1
	movaps	96(%rsp), %xmm2
	movups	%xmm1, 16554(%rbx)
	movups	%xmm2, 16570(%rbx)
	movups	%xmm0, 16538(%rbx)
	movups	110(%rsp), %xmm0
	movups	%xmm0, 16584(%rbx)
	movq	$0, 16600(%rbx)
	movq	%r14, 16608(%rbx)
	movq	$0, 16616(%rbx)
	movq	%r12, 16624(%rbx)
	addq	$16632, %rbx
	leaq	128(%rsp), %rsi
	movl	$528, %edx
	movq	%rbx, %rdi
	callq	memcpy@PLT
	jmp	.LBB21_18
.LBB21_13:
	movb	$4, 2(%rbx)
	movb	%al, 3(%rbx)
.LBB21_18:
	addq	$17128, %rsp
	popq	%rbx
	popq	%r12
	popq	%r13
	popq	%r14
	popq	%r15
	popq	%rbp
	retq
.Lfunc_end21:
	.size	"sq_feed::feed::Feed::close", .Lfunc_end21-"sq_feed::feed::Feed::close"
	.section	".rodata.sq_feed::feed::Feed::close","a",@progbits
	.p2align	2, 0x0
.LJTI21_0:
	.long	.LBB21_1-.LJTI21_0
	.long	.LBB21_14-.LJTI21_0
	.long	.LBB21_15-.LJTI21_0
	.long	.LBB21_18-.LJTI21_0
	.long	.LBB21_18-.LJTI21_0
	.long	.LBB21_10-.LJTI21_0

	.section	.rodata.cst16,"aM",@progbits,16
	.p2align	4, 0x0
.LCPI22_0:
	.zero	16,198
.LCPI22_1:
	.zero	16,6
.LCPI22_2:
	.zero	16,16
.LCPI22_3:
	.zero	16,223
.LCPI22_4:
	.zero	16,64
.LCPI22_5:
	.zero	16,10
.LCPI22_6:
	.zero	16,191
.LCPI22_7:
	.zero	1
	.zero	1
	.zero	1
	.zero	1
	.zero	1
	.zero	1
	.byte	44
	.byte	44
	.zero	1
	.zero	1
	.zero	1
	.zero	1
	.zero	1
	.zero	1
	.zero	1
	.zero	1
.LCPI22_8:
	.zero	16,59
.LCPI22_9:
	.zero	16,9
.LCPI22_10:
	.zero	16,44
	.section	".text.sq_feed::signs::line_sign","ax",@progbits
	.p2align	4
	.type	"sq_feed::signs::line_sign",@function
"sq_feed::signs::line_sign":
	pushq	%rbp
	pushq	%r15
	pushq	%r14
	pushq	%r13
	pushq	%r12
	pushq	%rbx
	subq	$120, %rsp
	movq	%rdx, %r12
	movq	%rsi, %r14
	movl	%edi, %ebp
	pxor	%xmm0, %xmm0
	movdqu	%xmm0, 24(%rsp)
	movq	$0, 16(%rsp)
	movdqa	%xmm0, 48(%rsp)
	movdqa	%xmm0, 64(%rsp)
	movdqa	%xmm0, 80(%rsp)
	cmpq	$513, %rdx
	jb	.LBB22_2
	movb	$1, 3(%rsp)
	movw	$1, %bx
	movb	$1, %al
	jmp	.LBB22_7
.LBB22_2:
	leaq	48(%rsp), %rdi
	leaq	16(%rsp), %rsi
	movq	%r14, %rdx
	movq	%r12, %rcx
	callq	"sq_feed::rows::row_read"
	movzbl	48(%rsp), %eax
	xorb	$2, %al
	orb	56(%rsp), %al
	setne	%r15b
	movl	$769, %eax
	movl	$1, %ebx
	cmovel	%eax, %ebx
	movq	$1, 16(%rsp)
	movq	$0, 24(%rsp)
	movq	$2, 32(%rsp)
	pxor	%xmm0, %xmm0
	movdqa	%xmm0, 48(%rsp)
	movdqa	%xmm0, 64(%rsp)
	movdqa	%xmm0, 80(%rsp)
	leaq	48(%rsp), %rdi
	leaq	16(%rsp), %rsi
	movq	%r14, %rdx
	movq	%r12, %rcx
	callq	"sq_feed::rows::row_read"
	movzbl	48(%rsp), %eax
	testl	%eax, %eax
	movb	%r15b, 3(%rsp)
	je	.LBB22_5
	cmpl	$1, %eax
	jne	.LBB22_6
	movw	$513, %r13w
	movl	$0, 12(%rsp)
	jmp	.LBB22_8
.LBB22_5:
	movw	$1, %r13w
	movb	$1, %al
	movl	%eax, 12(%rsp)
	jmp	.LBB22_8
.LBB22_6:
	movzbl	56(%rsp), %eax
.LBB22_7:
	xorl	%r13d, %r13d
	testb	%al, %al
	setne	%al
	movl	%eax, 12(%rsp)
	sete	%r13b
	shll	$9, %r13d
	incl	%r13d
.LBB22_8:
	movq	%r14, %rdi
	movq	%r12, %rsi
	callq	"sq_feed::signs::is_framed_line"
	testb	%al, %al
	je	.LBB22_24
	testb	%bpl, %bpl
	jne	.LBB22_10
	movq	%r12, %rdx
	movq	%r14, %rsi
	cmpq	$3, %r12
	jb	.LBB22_16
	cmpb	$-17, (%r14)
	movq	%r14, %rsi
	movq	%r12, %rdx
	jne	.LBB22_17
	cmpb	$-69, 1(%r14)
	movq	%r14, %rsi
	movq	%r12, %rdx
	jne	.LBB22_17
	cmpb	$-65, 2(%r14)
	movq	%r14, %rsi
	movq	%r12, %rdx
	jne	.LBB22_17
	leaq	3(%r14), %rsi
	leaq	-3(%r12), %rdx
.LBB22_16:
	testq	%rdx, %rdx
	je	.LBB22_21
.LBB22_17:
	xorl	%eax, %eax
	cmpb	$13, -1(%rsi,%rdx)
	sete	%al
	subq	%rax, %rdx
	pxor	%xmm0, %xmm0
	movdqa	%xmm0, 48(%rsp)
	cmpq	$28, %rdx
	jne	.LBB22_20
	movdqa	.LCPI22_0(%rip), %xmm2
	movdqu	(%rsi), %xmm1
	movdqu	12(%rsi), %xmm0
	movdqa	%xmm1, %xmm4
	paddb	%xmm2, %xmm4
	movdqa	.LCPI22_1(%rip), %xmm5
	psubusb	%xmm5, %xmm4
	movdqa	.LCPI22_2(%rip), %xmm3
	paddb	%xmm3, %xmm4
	movdqa	.LCPI22_3(%rip), %xmm6
	pand	%xmm6, %xmm1
	movdqa	.LCPI22_4(%rip), %xmm7
	movdqa	%xmm7, %xmm8
	psubb	%xmm1, %xmm8
	movdqa	.LCPI22_5(%rip), %xmm9
	pminub	%xmm9, %xmm8
	movdqa	.LCPI22_6(%rip), %xmm10
	paddb	%xmm10, %xmm1
	paddb	%xmm8, %xmm1
	pminub	%xmm4, %xmm1
	paddb	%xmm0, %xmm2
	psubusb	%xmm5, %xmm2
	paddb	%xmm3, %xmm2
	pand	%xmm6, %xmm0
	psubb	%xmm0, %xmm7
	pminub	%xmm9, %xmm7
	paddb	%xmm10, %xmm0
	paddb	%xmm7, %xmm0
	pminub	%xmm2, %xmm0
	por	%xmm1, %xmm0
	pmaxub	%xmm0, %xmm3
	pcmpeqb	%xmm0, %xmm3
	pmovmskb	%xmm3, %eax
	testl	%eax, %eax
	je	.LBB22_10
	leaq	48(%rsp), %rdi
	movl	$28, %edx
	callq	"sq_feed::avr::frame_of_any"
	cmpb	$0, 48(%rsp)
	jne	.LBB22_22
	jmp	.LBB22_24
.LBB22_20:
	leaq	48(%rsp), %rdi
	callq	"sq_feed::avr::frame_of_any"
	cmpb	$0, 48(%rsp)
	jne	.LBB22_22
	jmp	.LBB22_24
.LBB22_21:
	pxor	%xmm0, %xmm0
	movdqa	%xmm0, 48(%rsp)
	xorl	%edx, %edx
	leaq	48(%rsp), %rdi
	callq	"sq_feed::avr::frame_of_any"
	cmpb	$0, 48(%rsp)
	je	.LBB22_24
.LBB22_22:
	cmpb	$0, 49(%rsp)
	je	.LBB22_24
.LBB22_10:
	xorl	%ebp, %ebp
	cmpq	$3, %r12
	jae	.LBB22_25
	jmp	.LBB22_30
.LBB22_24:
	movb	$1, %bpl
	cmpq	$3, %r12
	jb	.LBB22_30
.LBB22_25:
	cmpb	$-17, (%r14)
	jne	.LBB22_29
	cmpb	$-69, 1(%r14)
	jne	.LBB22_29
	cmpb	$-65, 2(%r14)
	jne	.LBB22_29
	addq	$3, %r14
	addq	$-3, %r12
.LBB22_29:
	cmpq	$4, %r12
	jae	.LBB22_44
.LBB22_30:
	movq	%r12, %r15
	testq	%r12, %r12
	je	.LBB22_33
	cmpq	$3, %r15
	jne	.LBB22_50
	movzbl	(%r14), %eax
	movl	$3, %r12d
	movb	$1, %dl
	cmpb	$73, %al
	je	.LBB22_47
	jmp	.LBB22_51
.LBB22_33:
	movl	%ebp, 4(%rsp)
	movb	$1, %al
	movl	%eax, 8(%rsp)
	movq	%r15, %r12
.LBB22_34:
	leaq	.Lstatic.46(%rip), %rdi
	movl	$6, %esi
	movq	%r14, %rdx
	movq	%r12, %rcx
	callq	"sq_feed::cells::column_of"
	movl	%eax, %ebp
	cmpb	$1, %al
	jne	.LBB22_38
	leaq	.Lstatic.47(%rip), %rdi
	movl	$4, %esi
	movq	%r14, %rdx
	movq	%r12, %rcx
	callq	"sq_feed::cells::column_of"
	cmpb	$1, %al
	je	.LBB22_38
	leaq	.Lstatic.48(%rip), %rdi
	movl	$7, %esi
	movq	%r14, %rdx
	movq	%r12, %rcx
	callq	"sq_feed::cells::column_of"
	cmpb	$1, %al
	je	.LBB22_38
	leaq	.Lstatic.49(%rip), %rdi
	movl	$9, %esi
	movq	%r14, %rdx
	movq	%r12, %rcx
	callq	"sq_feed::cells::column_of"
	cmpb	$1, %al
	jne	.LBB22_154
.LBB22_38:
	leaq	.Lstatic.47(%rip), %rdi
	movl	$4, %esi
	movq	%r14, %rdx
	movq	%r12, %rcx
	callq	"sq_feed::cells::column_of"
	cmpb	$1, %al
	je	.LBB22_41
	leaq	.Lstatic.48(%rip), %rdi
	movl	$7, %esi
	movq	%r14, %rdx
	movq	%r12, %rcx
	callq	"sq_feed::cells::column_of"
	cmpb	$1, %al
	je	.LBB22_41
	leaq	.Lstatic.49(%rip), %rdi
	movl	$9, %esi
	movq	%r14, %rdx
	movq	%r12, %rcx
	callq	"sq_feed::cells::column_of"
	cmpb	$1, %al
	jne	.LBB22_54
.LBB22_41:
	leaq	.Lstatic.57(%rip), %rdi
	movl	$6, %esi
	movq	%r14, %rdx
	movq	%r12, %rcx
	callq	"sq_feed::cells::column_of"
	cmpb	$1, %bpl
	je	.LBB22_54
	testb	$1, %al
	je	.LBB22_54
	movw	$2048, %cx
	jmp	.LBB22_155
.LBB22_44:
	movl	(%r14), %eax
	cmpl	$742871885, %eax
	je	.LBB22_63
	movd	%eax, %xmm0
	movdqa	%xmm0, %xmm1
	psllq	$24, %xmm1
	pcmpeqb	.LCPI22_7(%rip), %xmm1
	movzbl	(%r14), %eax
	movdqa	%xmm0, 96(%rsp)
	pcmpeqd	%xmm0, %xmm0
	pxor	%xmm1, %xmm0
	movl	%eax, %ecx
	xorb	$83, %cl
	movzbl	97(%rsp), %edx
	movzbl	98(%rsp), %esi
	xorb	$69, %dl
	orb	%cl, %dl
	xorb	$76, %sil
	orb	%dl, %sil
	setne	%cl
	pextrw	$3, %xmm0, %edx
	orb	%cl, %dl
	testb	$1, %dl
	je	.LBB22_74
	xorl	%edx, %edx
	cmpb	$73, %al
	jne	.LBB22_51
.LBB22_47:
	cmpb	$68, 1(%r14)
	jne	.LBB22_51
	movzbl	2(%r14), %ecx
	cmpb	$44, %cl
	sete	%al
	orb	%al, %dl
	je	.LBB22_78
	movw	$2, %dx
	cmpb	$44, %cl
	jne	.LBB22_95
	jmp	.LBB22_157
.LBB22_50:
	movzbl	(%r14), %eax
	jmp	.LBB22_53
.LBB22_51:
	testb	%dl, %dl
	je	.LBB22_62
.LBB22_52:
	movq	%r12, %r15
.LBB22_53:
	movw	$1026, %dx
	movq	%r15, %r12
	cmpb	$123, %al
	jne	.LBB22_95
	jmp	.LBB22_157
.LBB22_54:
	pxor	%xmm0, %xmm0
	movdqa	%xmm0, 48(%rsp)
	movq	$0, 64(%rsp)
	leaq	48(%rsp), %rdi
	movl	$2, %esi
	movq	%r14, %rdx
	movq	%r12, %rcx
	callq	"sq_feed::cells::cell_of"
	cmpb	$1, 48(%rsp)
	jne	.LBB22_65
	movq	56(%rsp), %rdi
	movq	64(%rsp), %rcx
	movabsq	$4294981120, %rdx
	testq	%rcx, %rcx
	movl	4(%rsp), %ebp
	je	.LBB22_134
	xorl	%eax, %eax
	.p2align	4
.LBB22_57:
	movzbl	(%rdi,%rax), %esi
	cmpq	$32, %rsi
	ja	.LBB22_61
	btq	%rsi, %rdx
	jae	.LBB22_61
	incq	%rax
	cmpq	%rax, %rcx
	jne	.LBB22_57
	movq	%rcx, %rax
.LBB22_61:
	leaq	(%rdi,%rax), %rsi
	cmpq	%rax, %rcx
	jne	.LBB22_135
	jmp	.LBB22_139
.LBB22_62:
	movzbl	1(%r14), %edx
	movzbl	2(%r14), %ecx
	jmp	.LBB22_79
.LBB22_63:
	leaq	.Lstatic.51(%rip), %rdx
	movl	$4, %esi
	movq	%r14, %rdi
	callq	"core::cmp::slices::groups_equal::<i8,31'core::cmp::numbers::U8PartialEq{}>"
	movw	$2, %dx
	testb	%al, %al
	jne	.LBB22_157
	movb	$83, %dl
	movb	$71, %cl
	movb	$77, %al
	jmp	.LBB22_79
.LBB22_65:
	movl	4(%rsp), %ebp
.LBB22_66:
	cmpb	$0, 8(%rsp)
	jne	.LBB22_70
	xorl	%eax, %eax
	.p2align	4
.LBB22_68:
	movdqu	(%r14,%rax), %xmm0
	pcmpeqb	.LCPI22_10(%rip), %xmm0
	pmovmskb	%xmm0, %ecx
	orl	$65536, %ecx
	rep		bsfl	%ecx, %ecx
	cmpw	$15, %cx
	jbe	.LBB22_126
	addq	$16, %rax
	decq	%r15
	jne	.LBB22_68
.LBB22_70:
	cmpq	$15, %r12
	ja	.LBB22_76
	xorl	%edx, %edx
	testq	%r12, %r12
	je	.LBB22_77
	.p2align	4
.LBB22_72:
	cmpb	$44, (%r14,%rdx)
	je	.LBB22_77
	incq	%rdx
	xorl	%eax, %eax
	movl	$0, %ecx
	cmpq	%rdx, %r12
	jne	.LBB22_72
	jmp	.LBB22_156
.LBB22_74:
	leaq	.Lstatic.52(%rip), %rdx
	movl	$4, %esi
	movq	%r14, %rdi
	callq	"core::cmp::slices::groups_equal::<i8,31'core::cmp::numbers::U8PartialEq{}>"
	movw	$2, %dx
	testb	%al, %al
	jne	.LBB22_157
	movb	$69, %dl
	movb	$76, %cl
	movb	$83, %al
	jmp	.LBB22_79
.LBB22_76:
	movdqu	-16(%r14,%r12), %xmm0
	pcmpeqb	.LCPI22_10(%rip), %xmm0
	pmovmskb	%xmm0, %eax
	orl	$65536, %eax
	rep		bsfl	%eax, %eax
	cmpw	$16, %ax
	leaq	-16(%r12,%rax), %rdx
	cmovaeq	%r12, %rdx
.LBB22_77:
	cmpq	%r12, %rdx
	jb	.LBB22_127
	jmp	.LBB22_132
.LBB22_78:
	movb	$68, %dl
	movb	$73, %al
.LBB22_79:
	movzbl	3(%r14), %esi
	cmpb	$44, %sil
	jne	.LBB22_84
	cmpb	$82, %cl
	jne	.LBB22_84
	cmpb	$65, %al
	jne	.LBB22_84
	cmpb	$73, %dl
	jne	.LBB22_84
	leaq	.Lstatic.54(%rip), %rdx
	jmp	.LBB22_94
.LBB22_84:
	cmpb	$44, %sil
	jne	.LBB22_89
	cmpb	$65, %cl
	jne	.LBB22_89
	cmpb	$83, %al
	jne	.LBB22_89
	cmpb	$84, %dl
	jne	.LBB22_89
	leaq	.Lstatic.55(%rip), %rdx
	jmp	.LBB22_94
.LBB22_89:
	cmpb	$44, %sil
	jne	.LBB22_52
	cmpb	$75, %cl
	jne	.LBB22_52
	cmpb	$67, %al
	jne	.LBB22_52
	cmpb	$76, %dl
	jne	.LBB22_52
	leaq	.Lstatic.56(%rip), %rdx
.LBB22_94:
	movl	$4, %esi
	movq	%r14, %rdi
	callq	"core::cmp::slices::groups_equal::<i8,31'core::cmp::numbers::U8PartialEq{}>"
	movw	$2, %dx
	testb	%al, %al
	jne	.LBB22_157
.LBB22_95:
	cmpq	$512, %r12
	ja	.LBB22_132
	movq	%r12, %r15
	shrq	$4, %r15
	sete	%al
	movl	%eax, 8(%rsp)
	movl	%ebp, 4(%rsp)
	je	.LBB22_100
	xorl	%ecx, %ecx
	movq	%r15, %rax
	.p2align	4
.LBB22_98:
	movdqu	(%r14,%rcx), %xmm0
	pcmpeqb	.LCPI22_8(%rip), %xmm0
	pmovmskb	%xmm0, %edx
	orl	$65536, %edx
	rep		bsfl	%edx, %edx
	cmpw	$15, %dx
	jbe	.LBB22_106
	addq	$16, %rcx
	decq	%rax
	jne	.LBB22_98
.LBB22_100:
	cmpq	$15, %r12
	ja	.LBB22_104
	xorl	%eax, %eax
	.p2align	4
.LBB22_102:
	cmpb	$59, (%r14,%rax)
	je	.LBB22_105
	incq	%rax
	cmpq	%rax, %r12
	jne	.LBB22_102
	jmp	.LBB22_115
.LBB22_104:
	movdqu	-16(%r14,%r12), %xmm0
	pcmpeqb	.LCPI22_8(%rip), %xmm0
	pmovmskb	%xmm0, %eax
	orl	$65536, %eax
	rep		bsfl	%eax, %eax
	cmpw	$16, %ax
	leaq	-16(%r12,%rax), %rax
	cmovaeq	%r12, %rax
.LBB22_105:
	cmpq	%r12, %rax
	jae	.LBB22_115
	jmp	.LBB22_107
.LBB22_106:
	movzwl	%dx, %eax
	addq	%rcx, %rax
	movl	$0, 8(%rsp)
	cmpq	%r12, %rax
	jae	.LBB22_115
.LBB22_107:
	xorl	%ebp, %ebp
	xorl	%eax, %eax
	jmp	.LBB22_110
	.p2align	4
.LBB22_108:
	leaq	1(%rbp), %rax
.LBB22_109:
	incq	%rbp
	cmpq	%rbp, %r12
	je	.LBB22_113
.LBB22_110:
	cmpb	$59, (%r14,%rbp)
	jne	.LBB22_109
	leaq	(%r14,%rax), %rdi
	movq	%rbp, %rsi
	subq	%rax, %rsi
	callq	"sq_feed::tables::is_frame_cell"
	testb	%al, %al
	je	.LBB22_108
	movw	$1280, %cx
	jmp	.LBB22_155
.LBB22_113:
	leaq	(%r14,%rax), %rdi
	movq	%r12, %rsi
	subq	%rax, %rsi
	callq	"sq_feed::tables::is_frame_cell"
	testb	%al, %al
	movl	4(%rsp), %ebp
	je	.LBB22_115
	movw	$1280, %cx
	movb	$1, %al
	jmp	.LBB22_156
.LBB22_115:
	cmpb	$0, 8(%rsp)
	jne	.LBB22_119
	xorl	%ecx, %ecx
	movq	%r15, %rax
	.p2align	4
.LBB22_117:
	movdqu	(%r14,%rcx), %xmm0
	pcmpeqb	.LCPI22_9(%rip), %xmm0
	pmovmskb	%xmm0, %edx
	orl	$65536, %edx
	rep		bsfl	%edx, %edx
	cmpw	$15, %dx
	jbe	.LBB22_145
	addq	$16, %rcx
	decq	%rax
	jne	.LBB22_117
.LBB22_119:
	cmpq	$15, %r12
	ja	.LBB22_124
	testq	%r12, %r12
	je	.LBB22_159
	xorl	%eax, %eax
	.p2align	4
.LBB22_122:
	cmpb	$9, (%r14,%rax)
	je	.LBB22_146
	incq	%rax
	cmpq	%rax, %r12
	jne	.LBB22_122
	jmp	.LBB22_34
.LBB22_124:
	movdqu	-16(%r14,%r12), %xmm0
	pcmpeqb	.LCPI22_9(%rip), %xmm0
	pmovmskb	%xmm0, %eax
	orl	$65536, %eax
	rep		bsfl	%eax, %eax
	cmpw	$16, %ax
	leaq	-16(%r12,%rax), %rax
	cmovaeq	%r12, %rax
	cmpq	%r12, %rax
	jae	.LBB22_34
	jmp	.LBB22_147
.LBB22_126:
	movzwl	%cx, %edx
	addq	%rax, %rdx
	cmpq	%r12, %rdx
	jae	.LBB22_132
.LBB22_127:
	xorl	%r15d, %r15d
	xorl	%eax, %eax
	jmp	.LBB22_129
	.p2align	4
.LBB22_128:
	incq	%r15
	cmpq	%r15, %r12
	je	.LBB22_133
.LBB22_129:
	cmpb	$44, (%r14,%r15)
	jne	.LBB22_128
	leaq	(%r14,%rax), %rdi
	movq	%r15, %rsi
	subq	%rax, %rsi
	callq	"sq_feed::tables::is_frame_cell"
	testb	%al, %al
	jne	.LBB22_158
	leaq	1(%r15), %rax
	jmp	.LBB22_128
.LBB22_132:
	xorl	%eax, %eax
	xorl	%ecx, %ecx
	jmp	.LBB22_156
.LBB22_133:
	addq	%rax, %r14
	subq	%rax, %r12
	movq	%r14, %rdi
	movq	%r12, %rsi
	callq	"sq_feed::tables::is_frame_cell"
	xorl	%edx, %edx
	testb	%al, %al
	movl	$2560, %ecx
	cmovel	%edx, %ecx
	jmp	.LBB22_156
.LBB22_134:
	xorl	%eax, %eax
	leaq	(%rdi,%rax), %rsi
	cmpq	%rax, %rcx
	je	.LBB22_139
.LBB22_135:
	movq	%rax, %r8
	negq	%r8
	leaq	(%rcx,%rdi), %r9
	decq	%r9
	negq	%rcx
	.p2align	4
.LBB22_136:
	movzbl	(%r9), %edi
	cmpq	$32, %rdi
	ja	.LBB22_161
	btq	%rdi, %rdx
	jae	.LBB22_161
	incq	%rcx
	decq	%r9
	cmpq	%rcx, %r8
	jne	.LBB22_136
.LBB22_139:
	xorl	%ecx, %ecx
.LBB22_140:
	pxor	%xmm0, %xmm0
	movdqa	%xmm0, 16(%rsp)
	movq	%rcx, %rdx
.LBB22_141:
	leaq	16(%rsp), %rdi
	callq	"sq_feed::avr::frame_of_any"
	cmpb	$0, 16(%rsp)
	je	.LBB22_66
.LBB22_143:
	cmpb	$0, 17(%rsp)
	je	.LBB22_66
.LBB22_144:
	movw	$2304, %cx
	movb	$1, %al
	jmp	.LBB22_156
.LBB22_145:
	movzwl	%dx, %eax
	addq	%rcx, %rax
	movl	$0, 8(%rsp)
.LBB22_146:
	cmpq	%r12, %rax
	jae	.LBB22_34
.LBB22_147:
	xorl	%ebp, %ebp
	xorl	%eax, %eax
	jmp	.LBB22_149
	.p2align	4
.LBB22_148:
	incq	%rbp
	cmpq	%rbp, %r12
	je	.LBB22_152
.LBB22_149:
	cmpb	$9, (%r14,%rbp)
	jne	.LBB22_148
	leaq	(%r14,%rax), %rdi
	movq	%rbp, %rsi
	subq	%rax, %rsi
	callq	"sq_feed::tables::is_frame_cell"
	testb	%al, %al
	jne	.LBB22_153
	leaq	1(%rbp), %rax
	jmp	.LBB22_148
.LBB22_152:
	leaq	(%r14,%rax), %rdi
	movq	%r12, %rsi
	subq	%rax, %rsi
	callq	"sq_feed::tables::is_frame_cell"
	testb	%al, %al
	je	.LBB22_34
.LBB22_153:
	movw	$1536, %cx
	jmp	.LBB22_155
.LBB22_154:
	movw	$1792, %cx
.LBB22_155:
	movb	$1, %al
	movl	4(%rsp), %ebp
.LBB22_156:
	leal	(%rax,%rax), %edx
	movzbl	%dl, %esi
	xorl	%edx, %edx
	testb	%al, %al
	cmovnel	%ecx, %edx
	orl	%esi, %edx
.LBB22_157:
	testb	%bpl, %bpl
	movl	$257, %eax
	cmovnel	%edx, %eax
	cmpb	$0, 12(%rsp)
	cmovnel	%eax, %r13d
	cmpb	$0, 3(%rsp)
	cmovnel	%r13d, %ebx
	movl	%ebx, %edx
	shrl	$8, %edx
	movl	%ebx, %eax
	addq	$120, %rsp
	popq	%rbx
	popq	%r12
	popq	%r13
	popq	%r14
	popq	%r15
	popq	%rbp
	retq
.LBB22_158:
	movw	$2560, %cx
	movb	$1, %al
	jmp	.LBB22_156
.LBB22_159:
	xorl	%r15d, %r15d
	xorl	%r12d, %r12d
	xorl	%eax, %eax
	cmpq	%r12, %rax
	jae	.LBB22_34
	jmp	.LBB22_147
.LBB22_161:
	addq	%rcx, %rax
	movq	%rax, %rdx
	negq	%rdx
	movl	$1, %ecx
	cmpq	$2, %rdx
	jb	.LBB22_140
	movzbl	(%rsi), %ecx
	xorb	$34, %cl
	xorb	$34, %dil
	movq	$-2, %r8
	subq	%rax, %r8
	xorl	%eax, %eax
	orb	%cl, %dil
	sete	%al
	cmoveq	%r8, %rdx
	addq	%rax, %rsi
	pxor	%xmm0, %xmm0
	movdqa	%xmm0, 16(%rsp)
	cmpq	$28, %rdx
	jne	.LBB22_141
	movdqa	.LCPI22_0(%rip), %xmm2
	movdqu	(%rsi), %xmm1
	movdqu	12(%rsi), %xmm0
	movdqa	%xmm1, %xmm4
	paddb	%xmm2, %xmm4
	movdqa	.LCPI22_1(%rip), %xmm5
	psubusb	%xmm5, %xmm4
	movdqa	.LCPI22_2(%rip), %xmm3
	paddb	%xmm3, %xmm4
	movdqa	.LCPI22_3(%rip), %xmm6
	pand	%xmm6, %xmm1
	movdqa	.LCPI22_4(%rip), %xmm7
	movdqa	%xmm7, %xmm8
	psubb	%xmm1, %xmm8
	movdqa	.LCPI22_5(%rip), %xmm9
	pminub	%xmm9, %xmm8
	movdqa	.LCPI22_6(%rip), %xmm10
	paddb	%xmm10, %xmm1
	paddb	%xmm8, %xmm1
	pminub	%xmm4, %xmm1
	paddb	%xmm0, %xmm2
	psubusb	%xmm5, %xmm2
	paddb	%xmm3, %xmm2
	pand	%xmm6, %xmm0
	psubb	%xmm0, %xmm7
	pminub	%xmm9, %xmm7
	paddb	%xmm10, %xmm0
	paddb	%xmm7, %xmm0
	pminub	%xmm2, %xmm0
	por	%xmm1, %xmm0
	pmaxub	%xmm0, %xmm3
	pcmpeqb	%xmm0, %xmm3
	pmovmskb	%xmm3, %eax
	testl	%eax, %eax
	je	.LBB22_144
	leaq	16(%rsp), %rdi
	movl	$28, %edx
	callq	"sq_feed::avr::frame_of_any"
	cmpb	$0, 16(%rsp)
	jne	.LBB22_143
	jmp	.LBB22_66
.Lfunc_end22:
	.size	"sq_feed::signs::line_sign", .Lfunc_end22-"sq_feed::signs::line_sign"

	.section	.rodata.cst16,"aM",@progbits,16
	.p2align	4, 0x0
.LCPI23_0:
	.zero	16,46
.LCPI23_1:
	.byte	208
	.byte	208
	.zero	1
	.zero	1
	.zero	1
	.zero	1
	.zero	1
	.zero	1
	.zero	1
	.zero	1
	.zero	1
	.zero	1
	.zero	1
	.zero	1
	.zero	1
	.zero	1
.LCPI23_2:
	.short	100
	.short	10
	.zero	2
	.zero	2
	.zero	2
	.zero	2
	.zero	2
	.zero	2
.LCPI23_3:
	.zero	16,198
.LCPI23_4:
	.zero	16,6
.LCPI23_5:
	.zero	16,16
.LCPI23_6:
	.zero	16,223
.LCPI23_7:
	.zero	16,64
.LCPI23_8:
	.zero	16,10
.LCPI23_9:
	.zero	16,191
.LCPI23_10:
	.short	255
	.short	255
	.short	255
	.short	255
	.short	255
	.short	255
	.short	255
	.short	255
.LCPI23_11:
	.zero	16,240
.LCPI23_12:
	.zero	16,32
	.section	".text.sq_feed::rows::row_read","ax",@progbits
	.p2align	4
	.type	"sq_feed::rows::row_read",@function
"sq_feed::rows::row_read":
	pushq	%rbp
	pushq	%r15
	pushq	%r14
	pushq	%r13
	pushq	%r12
	pushq	%rbx
	subq	$280, %rsp
	movq	%rcx, %r14
	movq	%rdx, %r15
	movq	%rsi, %rax
	movq	%rdi, %rbx
	movzbl	(%rsi), %ecx
	movq	8(%rsi), %rsi
	movq	16(%rax), %rdx
	movq	$0, 102(%rsp)
	movq	$0, 96(%rsp)
	movq	$0, 80(%rsp)
	movq	$0, 86(%rsp)
	movq	$0, 200(%rsp)
	movq	$0, 206(%rsp)
	movq	$0, 152(%rsp)
	movq	$0, 158(%rsp)
	movq	$0, 64(%rsp)
	movq	$0, 70(%rsp)
	movq	$0, 136(%rsp)
	movq	$0, 142(%rsp)
	movq	$0, 184(%rsp)
	movq	$0, 190(%rsp)
	testq	%r14, %r14
	je	.LBB23_27
	xorl	%eax, %eax
	cmpb	$13, -1(%r15,%r14)
	sete	%al
	subq	%rax, %r14
	cmpq	$3, %r14
	jb	.LBB23_6
	cmpb	$-17, (%r15)
	jne	.LBB23_7
	cmpb	$-69, 1(%r15)
	jne	.LBB23_7
	cmpb	$-65, 2(%r15)
	jne	.LBB23_7
	addq	$3, %r15
	addq	$-3, %r14
.LBB23_6:
	testq	%r14, %r14
	je	.LBB23_27
.LBB23_7:
	testb	%cl, %cl
	je	.LBB23_28
	movq	%rdx, 128(%rsp)
	movq	$0, 118(%rsp)
	movq	$0, 112(%rsp)
	pxor	%xmm0, %xmm0
	movdqa	%xmm0, (%rsp)
	movq	$0, 16(%rsp)
	movq	%rsp, %rdi
	movq	%r15, %rdx
	movq	%r14, %rcx
	callq	"sq_feed::cells::cell_of"
	cmpb	$1, (%rsp)
	jne	.LBB23_68
	movq	8(%rsp), %rdx
	movq	16(%rsp), %rcx
	movabsq	$4294981120, %r13
	xorl	%eax, %eax
	testq	%rcx, %rcx
	je	.LBB23_14
	.p2align	4
.LBB23_10:
	movzbl	(%rdx,%rax), %esi
	cmpq	$32, %rsi
	ja	.LBB23_14
	btq	%rsi, %r13
	jae	.LBB23_14
	incq	%rax
	cmpq	%rax, %rcx
	jne	.LBB23_10
	movq	%rcx, %rax
.LBB23_14:
	leaq	(%rdx,%rax), %rsi
	cmpq	%rax, %rcx
	movq	%rbx, 216(%rsp)
	je	.LBB23_19
	movq	%rax, %r8
	negq	%r8
	leaq	(%rcx,%rdx), %rdi
	decq	%rdi
	negq	%rcx
	.p2align	4
.LBB23_16:
	movzbl	(%rdi), %edx
	cmpq	$32, %rdx
	ja	.LBB23_78
	btq	%rdx, %r13
	jae	.LBB23_78
	incq	%rcx
	decq	%rdi
	cmpq	%rcx, %r8
	jne	.LBB23_16
.LBB23_19:
	xorl	%r12d, %r12d
	xorl	%ebp, %ebp
.LBB23_20:
	movl	$12, %edi
	movq	%rbp, %rdx
	movq	%rsi, %rbx
	callq	"sq_feed::cells::number_of"
	movq	%rbx, %r9
	cmpb	$1, %al
	movq	216(%rsp), %rbx
	jne	.LBB23_68
	incq	%rbp
	cmpq	%rbp, %r12
	cmovbq	%r12, %rbp
	jbe	.LBB23_50
	movq	%r12, %rcx
	subq	%rbp, %rcx
	movq	%rbp, %rsi
	.p2align	4
.LBB23_23:
	movzbl	(%r9,%rsi), %edi
	addb	$-48, %dil
	cmpb	$10, %dil
	jae	.LBB23_68
	incq	%rsi
	cmpq	%rsi, %r12
	jne	.LBB23_23
	cmpq	$1, %rcx
	jne	.LBB23_94
	movzbl	(%r9,%rbp), %ecx
	addb	$-48, %cl
	movzbl	%cl, %ecx
	imulq	$100, %rcx, %r12
	jmp	.LBB23_51
.LBB23_27:
	pxor	%xmm0, %xmm0
	movdqu	%xmm0, 31(%rbx)
	movdqu	%xmm0, 16(%rbx)
	movdqu	%xmm0, (%rbx)
	jmp	.LBB23_105
.LBB23_28:
	movq	%r14, %rax
	shrq	$4, %rax
	je	.LBB23_32
	xorl	%ecx, %ecx
	.p2align	4
.LBB23_30:
	movdqu	(%r15,%rcx), %xmm0
	pcmpeqb	.LCPI23_12(%rip), %xmm0
	pmovmskb	%xmm0, %edx
	orl	$65536, %edx
	rep		bsfl	%edx, %edx
	cmpw	$15, %dx
	jbe	.LBB23_38
	addq	$16, %rcx
	decq	%rax
	jne	.LBB23_30
.LBB23_32:
	cmpq	$15, %r14
	ja	.LBB23_37
	xorl	%r13d, %r13d
	.p2align	4
.LBB23_34:
	cmpb	$32, (%r15,%r13)
	je	.LBB23_39
	incq	%r13
	cmpq	%r13, %r14
	jne	.LBB23_34
	movq	%r14, %r13
	jmp	.LBB23_39
.LBB23_37:
	movdqu	-16(%r15,%r14), %xmm0
	pcmpeqb	.LCPI23_12(%rip), %xmm0
	pmovmskb	%xmm0, %eax
	orl	$65536, %eax
	rep		bsfl	%eax, %eax
	cmpw	$16, %ax
	leaq	-16(%r14,%rax), %r13
	cmovaeq	%r14, %r13
	jmp	.LBB23_39
.LBB23_38:
	movzwl	%dx, %r13d
	addq	%rcx, %r13
.LBB23_39:
	movl	$20, %edi
	movq	%r15, %rsi
	movq	%r13, %rdx
	callq	"sq_feed::cells::number_of"
	cmpb	$1, %al
	jne	.LBB23_102
	movq	%rdx, %r12
	incq	%r13
	cmpq	%r13, %r14
	movq	%r13, %rax
	cmovbq	%r14, %rax
	leaq	(%r15,%rax), %rsi
	movq	%r14, %rdx
	subq	%rax, %rdx
	movq	$0, 32(%rsp)
	movq	$0, 38(%rsp)
	movq	$0, 48(%rsp)
	movq	$0, 54(%rsp)
	cmpq	%r13, %r14
	jbe	.LBB23_45
	cmpb	$42, (%rsi)
	movzbl	-1(%r15,%r14), %eax
	jne	.LBB23_76
	cmpb	$59, %al
	jne	.LBB23_90
	leaq	1(%rsi), %rax
	cmpq	$1, %rdx
	jne	.LBB23_96
	pxor	%xmm0, %xmm0
	movdqa	%xmm0, (%rsp)
	xorl	%edx, %edx
	jmp	.LBB23_99
.LBB23_45:
	pxor	%xmm0, %xmm0
	movdqa	%xmm0, (%rsp)
.LBB23_46:
	movq	%rsp, %rdi
.LBB23_47:
	callq	"sq_feed::avr::frame_of_any"
	movzbl	(%rsp), %ecx
	movzbl	1(%rsp), %eax
	movq	2(%rsp), %rdx
	movq	%rdx, 48(%rsp)
	movq	8(%rsp), %rdx
	movq	%rdx, 54(%rsp)
.LBB23_48:
	movq	48(%rsp), %rdx
	movq	54(%rsp), %rsi
	movq	%rsi, 174(%rsp)
	movq	%rdx, 168(%rsp)
	cmpb	$1, %cl
	jne	.LBB23_102
.LBB23_49:
	movq	168(%rsp), %rcx
	movq	174(%rsp), %rdx
	movq	%rdx, 86(%rsp)
	movq	%rcx, 80(%rsp)
	movl	$2, %edx
	xorl	%r13d, %r13d
	jmp	.LBB23_103
.LBB23_50:
	xorl	%r12d, %r12d
.LBB23_51:
	movq	128(%rsp), %rsi
.LBB23_52:
	imulq	$1000, %rdx, %rcx
	xorl	%ebp, %ebp
	testb	$1, %al
	cmovneq	%rcx, %rbp
	pxor	%xmm0, %xmm0
	movdqa	%xmm0, (%rsp)
	movq	$0, 16(%rsp)
	movq	%rsp, %rdi
	movq	%r15, %rdx
	movq	%r14, %rcx
	callq	"sq_feed::cells::cell_of"
	cmpb	$1, (%rsp)
	jne	.LBB23_68
	movq	8(%rsp), %rdx
	movq	16(%rsp), %rcx
	xorl	%eax, %eax
	testq	%rcx, %rcx
	je	.LBB23_58
	.p2align	4
.LBB23_54:
	movzbl	(%rdx,%rax), %esi
	cmpq	$32, %rsi
	ja	.LBB23_58
	btq	%rsi, %r13
	jae	.LBB23_58
	incq	%rax
	cmpq	%rax, %rcx
	jne	.LBB23_54
	movq	%rcx, %rax
.LBB23_58:
	leaq	(%rdx,%rax), %rsi
	cmpq	%rax, %rcx
	je	.LBB23_63
	movq	%rax, %r8
	negq	%r8
	addq	%rcx, %rdx
	decq	%rdx
	negq	%rcx
	.p2align	4
.LBB23_60:
	movzbl	(%rdx), %edi
	cmpq	$32, %rdi
	ja	.LBB23_109
	btq	%rdi, %r13
	jae	.LBB23_109
	incq	%rcx
	decq	%rdx
	cmpq	%rcx, %r8
	jne	.LBB23_60
.LBB23_63:
	xorl	%ecx, %ecx
.LBB23_64:
	pxor	%xmm0, %xmm0
	movdqa	%xmm0, 32(%rsp)
	movq	%rcx, %rdx
.LBB23_65:
	leaq	32(%rsp), %rdi
.LBB23_66:
	callq	"sq_feed::avr::frame_of_any"
	movzbl	32(%rsp), %ecx
	movzbl	33(%rsp), %eax
	movq	34(%rsp), %rdx
	movq	%rdx, 48(%rsp)
	movq	40(%rsp), %rdx
	movq	%rdx, 54(%rsp)
	movq	48(%rsp), %rdx
	movq	54(%rsp), %rsi
	movq	%rdx, 112(%rsp)
	movq	%rsi, 118(%rsp)
	cmpb	$1, %cl
	jne	.LBB23_68
.LBB23_67:
	addq	%rbp, %r12
	movq	112(%rsp), %rcx
	movq	118(%rsp), %rdx
	movq	%rdx, 158(%rsp)
	movq	%rcx, 152(%rsp)
	movq	152(%rsp), %rcx
	movq	158(%rsp), %rdx
	movq	%rcx, 64(%rsp)
	movq	%rdx, 70(%rsp)
	movl	$2, %esi
	xorl	%ecx, %ecx
	xorl	%r13d, %r13d
	xorl	%edi, %edi
	movl	$2, %edx
	jmp	.LBB23_75
.LBB23_68:
	leaq	.Lstatic.47(%rip), %rdi
	movl	$4, %esi
	movq	%r15, %rdx
	movq	%r14, %rcx
	callq	"sq_feed::cells::column_of"
	cmpb	$1, %al
	je	.LBB23_71
	leaq	.Lstatic.48(%rip), %rdi
	movl	$7, %esi
	movq	%r15, %rdx
	movq	%r14, %rcx
	callq	"sq_feed::cells::column_of"
	cmpb	$1, %al
	je	.LBB23_71
	leaq	.Lstatic.49(%rip), %rdi
	movl	$9, %esi
	movq	%r15, %rdx
	movq	%r14, %rcx
	callq	"sq_feed::cells::column_of"
	cmpb	$1, %al
	jne	.LBB23_73
.LBB23_71:
	movq	%rdx, %r13
	leaq	.Lstatic.46(%rip), %rdi
	movl	$6, %esi
	movq	%r15, %rdx
	movq	%r14, %rcx
	callq	"sq_feed::cells::column_of"
	cmpb	$1, %al
	jne	.LBB23_73
	movl	%r13d, %edi
	shrl	$8, %edi
	movq	%r13, %rcx
	shrq	$16, %rcx
	movl	$1, %esi
	jmp	.LBB23_74
.LBB23_73:
	movq	184(%rsp), %rax
	movq	190(%rsp), %rcx
	movq	%rcx, 142(%rsp)
	movq	%rax, 136(%rsp)
	movb	$1, %r13b
	movl	$2, %esi
	xorl	%ecx, %ecx
	xorl	%edi, %edi
	xorl	%edx, %edx
.LBB23_74:
	movq	136(%rsp), %rax
	movq	142(%rsp), %r8
	movq	%r8, 70(%rsp)
	movq	%rax, 64(%rsp)
	xorl	%r12d, %r12d
	xorl	%eax, %eax
.LBB23_75:
	movq	64(%rsp), %r8
	movq	70(%rsp), %r9
	movq	%r9, 102(%rsp)
	movq	%r8, 96(%rsp)
	jmp	.LBB23_104
.LBB23_76:
	cmpb	$59, %al
	jne	.LBB23_91
	xorl	%ecx, %ecx
	xorl	%eax, %eax
	jmp	.LBB23_48
.LBB23_78:
	addq	%rcx, %rax
	movq	%rax, %r12
	negq	%r12
	movl	$1, %ecx
	cmpq	$2, %r12
	jb	.LBB23_86
	movzbl	(%rsi), %ecx
	xorb	$34, %cl
	xorb	$34, %dl
	movq	$-2, %rdi
	subq	%rax, %rdi
	xorl	%eax, %eax
	orb	%cl, %dl
	cmoveq	%rdi, %r12
	sete	%al
	addq	%rax, %rsi
	movq	%r12, %rax
	shrq	$4, %rax
	je	.LBB23_83
	xorl	%ecx, %ecx
.LBB23_81:
	movdqu	(%rsi,%rcx), %xmm0
	pcmpeqb	.LCPI23_0(%rip), %xmm0
	pmovmskb	%xmm0, %edx
	orl	$65536, %edx
	rep		bsfl	%edx, %edx
	cmpw	$15, %dx
	jbe	.LBB23_114
	addq	$16, %rcx
	decq	%rax
	jne	.LBB23_81
.LBB23_83:
	cmpq	$15, %r12
	ja	.LBB23_113
	testq	%r12, %r12
	je	.LBB23_19
	movq	%r12, %rcx
.LBB23_86:
	xorl	%ebp, %ebp
.LBB23_87:
	cmpb	$46, (%rsi,%rbp)
	je	.LBB23_107
	incq	%rbp
	cmpq	%rbp, %rcx
	jne	.LBB23_87
	movq	%rcx, %r12
	movq	%rcx, %rbp
	jmp	.LBB23_20
.LBB23_90:
	xorl	%ecx, %ecx
	xorl	%eax, %eax
	jmp	.LBB23_101
.LBB23_91:
	pxor	%xmm0, %xmm0
	movdqa	%xmm0, (%rsp)
	cmpq	$28, %rdx
	jne	.LBB23_46
	movdqa	.LCPI23_3(%rip), %xmm2
	movdqu	(%rsi), %xmm1
	movdqu	12(%rsi), %xmm0
	movdqa	%xmm1, %xmm4
	paddb	%xmm2, %xmm4
	movdqa	.LCPI23_4(%rip), %xmm5
	psubusb	%xmm5, %xmm4
	movdqa	.LCPI23_5(%rip), %xmm3
	paddb	%xmm3, %xmm4
	movdqa	.LCPI23_6(%rip), %xmm6
	pand	%xmm6, %xmm1
	movdqa	.LCPI23_7(%rip), %xmm7
	movdqa	%xmm7, %xmm8
	psubb	%xmm1, %xmm8
	movdqa	.LCPI23_8(%rip), %xmm9
	pminub	%xmm9, %xmm8
	movdqa	.LCPI23_9(%rip), %xmm10
	paddb	%xmm10, %xmm1
	paddb	%xmm8, %xmm1
	pminub	%xmm4, %xmm1
	paddb	%xmm0, %xmm2
	psubusb	%xmm5, %xmm2
	paddb	%xmm3, %xmm2
	pand	%xmm6, %xmm0
	psubb	%xmm0, %xmm7
	pminub	%xmm9, %xmm7
	paddb	%xmm10, %xmm0
	paddb	%xmm7, %xmm0
	pminub	%xmm2, %xmm0
	movdqa	%xmm0, %xmm2
	por	%xmm1, %xmm2
	pmaxub	%xmm2, %xmm3
	pcmpeqb	%xmm2, %xmm3
	pmovmskb	%xmm3, %eax
	testl	%eax, %eax
	je	.LBB23_115
	movq	%rsp, %rdi
	movl	$28, %edx
	jmp	.LBB23_47
.LBB23_94:
	cmpq	$2, %rcx
	movq	128(%rsp), %rsi
	ja	.LBB23_108
	movzwl	(%r9,%rbp), %ecx
	movd	%ecx, %xmm0
	paddb	.LCPI23_1(%rip), %xmm0
	pxor	%xmm1, %xmm1
	punpcklbw	%xmm1, %xmm0
	pmullw	.LCPI23_2(%rip), %xmm0
	movd	%xmm0, %ecx
	pextrw	$1, %xmm0, %edi
	addl	%ecx, %edi
	movzwl	%di, %r12d
	jmp	.LBB23_52
.LBB23_96:
	addq	$-2, %rdx
	pxor	%xmm0, %xmm0
	movdqa	%xmm0, (%rsp)
	cmpq	$28, %rdx
	jne	.LBB23_99
	movdqa	.LCPI23_3(%rip), %xmm2
	movdqu	1(%rsi), %xmm1
	movdqu	13(%rsi), %xmm0
	movdqa	%xmm1, %xmm4
	paddb	%xmm2, %xmm4
	movdqa	.LCPI23_4(%rip), %xmm5
	psubusb	%xmm5, %xmm4
	movdqa	.LCPI23_5(%rip), %xmm3
	paddb	%xmm3, %xmm4
	movdqa	.LCPI23_6(%rip), %xmm6
	pand	%xmm6, %xmm1
	movdqa	.LCPI23_7(%rip), %xmm7
	movdqa	%xmm7, %xmm8
	psubb	%xmm1, %xmm8
	movdqa	.LCPI23_8(%rip), %xmm9
	pminub	%xmm9, %xmm8
	movdqa	.LCPI23_9(%rip), %xmm10
	paddb	%xmm10, %xmm1
	paddb	%xmm8, %xmm1
	pminub	%xmm4, %xmm1
	paddb	%xmm0, %xmm2
	psubusb	%xmm5, %xmm2
	paddb	%xmm3, %xmm2
	pand	%xmm6, %xmm0
	psubb	%xmm0, %xmm7
	pminub	%xmm9, %xmm7
	paddb	%xmm10, %xmm0
	paddb	%xmm7, %xmm0
	pminub	%xmm2, %xmm0
	movdqa	%xmm0, %xmm2
	por	%xmm1, %xmm2
	pmaxub	%xmm2, %xmm3
	pcmpeqb	%xmm2, %xmm3
	pmovmskb	%xmm3, %ecx
	testl	%ecx, %ecx
	je	.LBB23_116
	movq	%rsp, %rdi
	movl	$28, %edx
	jmp	.LBB23_100
.LBB23_99:
	movq	%rsp, %rdi
.LBB23_100:
	movq	%rax, %rsi
	callq	"sq_feed::avr::frame_of_any"
	movzbl	(%rsp), %ecx
	movzbl	1(%rsp), %eax
	movq	2(%rsp), %rdx
	movq	%rdx, 32(%rsp)
	movq	8(%rsp), %rdx
	movq	%rdx, 38(%rsp)
.LBB23_101:
	movq	32(%rsp), %rdx
	movq	38(%rsp), %rsi
	movq	%rsi, 174(%rsp)
	movq	%rdx, 168(%rsp)
	cmpb	$1, %cl
	je	.LBB23_49
.LBB23_102:
	movq	200(%rsp), %rax
	movq	206(%rsp), %rcx
	movq	%rcx, 86(%rsp)
	movq	%rax, 80(%rsp)
	movb	$1, %r13b
	xorl	%edx, %edx
	xorl	%r12d, %r12d
	xorl	%eax, %eax
.LBB23_103:
	movq	80(%rsp), %rcx
	movq	86(%rsp), %rsi
	movq	%rsi, 102(%rsp)
	movq	%rcx, 96(%rsp)
	movl	$2, %esi
	xorl	%ecx, %ecx
	xorl	%edi, %edi
.LBB23_104:
	movq	%rsi, (%rbx)
	movb	%r13b, 8(%rbx)
	movb	%dil, 9(%rbx)
	movl	%ecx, 10(%rbx)
	shrq	$32, %rcx
	movw	%cx, 14(%rbx)
	movq	%rdx, 16(%rbx)
	movq	%r12, 24(%rbx)
	movb	%al, 32(%rbx)
	movq	96(%rsp), %rax
	movq	102(%rsp), %rcx
	movq	%rax, 33(%rbx)
	movq	%rcx, 39(%rbx)
.LBB23_105:
	addq	$280, %rsp
	popq	%rbx
	popq	%r12
	popq	%r13
	popq	%r14
	popq	%r15
	popq	%rbp
	retq
.LBB23_107:
	movq	%rcx, %r12
	jmp	.LBB23_20
.LBB23_108:
	movzbl	(%r9,%rbp), %ecx
	movzbl	1(%r9,%rbp), %r8d
	movzbl	2(%r9,%rbp), %edi
	imulq	$100, %rcx, %rcx
	leaq	(%r8,%r8,4), %r8
	leaq	(%rcx,%r8,2), %rcx
	leaq	(%rdi,%rcx), %r12
	addq	$-5328, %r12
	jmp	.LBB23_52
.LBB23_109:
	addq	%rcx, %rax
	movq	%rax, %rdx
	negq	%rdx
	movl	$1, %ecx
	cmpq	$2, %rdx
	jb	.LBB23_64
	movzbl	(%rsi), %ecx
	xorb	$34, %cl
	xorb	$34, %dil
	movq	$-2, %r8
	subq	%rax, %r8
	xorl	%eax, %eax
	orb	%cl, %dil
	sete	%al
	cmoveq	%r8, %rdx
	addq	%rax, %rsi
	pxor	%xmm0, %xmm0
	movdqa	%xmm0, 32(%rsp)
	cmpq	$28, %rdx
	jne	.LBB23_65
	movdqa	.LCPI23_3(%rip), %xmm2
	movdqu	(%rsi), %xmm1
	movdqu	12(%rsi), %xmm0
	movdqa	%xmm1, %xmm4
	paddb	%xmm2, %xmm4
	movdqa	.LCPI23_4(%rip), %xmm5
	psubusb	%xmm5, %xmm4
	movdqa	.LCPI23_5(%rip), %xmm3
	paddb	%xmm3, %xmm4
	movdqa	.LCPI23_6(%rip), %xmm6
	pand	%xmm6, %xmm1
	movdqa	.LCPI23_7(%rip), %xmm7
	movdqa	%xmm7, %xmm8
	psubb	%xmm1, %xmm8
	movdqa	.LCPI23_8(%rip), %xmm9
	pminub	%xmm9, %xmm8
	movdqa	.LCPI23_9(%rip), %xmm10
	paddb	%xmm10, %xmm1
	paddb	%xmm8, %xmm1
	pminub	%xmm4, %xmm1
	paddb	%xmm0, %xmm2
	psubusb	%xmm5, %xmm2
	paddb	%xmm3, %xmm2
	pand	%xmm6, %xmm0
	psubb	%xmm0, %xmm7
	pminub	%xmm9, %xmm7
	paddb	%xmm10, %xmm0
	paddb	%xmm7, %xmm0
	pminub	%xmm2, %xmm0
	movdqa	%xmm0, %xmm2
	por	%xmm1, %xmm2
	pmaxub	%xmm2, %xmm3
	pcmpeqb	%xmm2, %xmm3
	pmovmskb	%xmm3, %eax
	testl	%eax, %eax
	je	.LBB23_118
	leaq	32(%rsp), %rdi
	movl	$28, %edx
	jmp	.LBB23_66
.LBB23_113:
	movdqu	-16(%rsi,%r12), %xmm0
	pcmpeqb	.LCPI23_0(%rip), %xmm0
	pmovmskb	%xmm0, %eax
	orl	$65536, %eax
	rep		bsfl	%eax, %eax
	cmpw	$16, %ax
	leaq	-16(%r12,%rax), %rbp
	cmovaeq	%r12, %rbp
	jmp	.LBB23_20
.LBB23_114:
	movzwl	%dx, %ebp
	addq	%rcx, %rbp
	jmp	.LBB23_20
.LBB23_115:
	movdqa	.LCPI23_10(%rip), %xmm3
	movdqa	%xmm1, %xmm2
	pand	%xmm3, %xmm2
	packuswb	%xmm2, %xmm2
	psrlw	$8, %xmm1
	packuswb	%xmm1, %xmm1
	psllw	$4, %xmm2
	movdqa	.LCPI23_11(%rip), %xmm4
	pand	%xmm4, %xmm2
	por	%xmm1, %xmm2
	pand	%xmm0, %xmm3
	packuswb	%xmm3, %xmm3
	psrlw	$8, %xmm0
	packuswb	%xmm0, %xmm0
	psllw	$4, %xmm3
	pand	%xmm4, %xmm3
	por	%xmm0, %xmm3
	movdqa	%xmm3, 240(%rsp)
	movzwl	246(%rsp), %eax
	movq	%xmm2, 2(%rsp)
	psrlq	$16, %xmm3
	movd	%xmm3, 10(%rsp)
	movw	%ax, 14(%rsp)
	movq	%xmm2, 48(%rsp)
	movq	8(%rsp), %rax
	movq	%rax, 54(%rsp)
	movb	$2, %al
	movb	$1, %cl
	jmp	.LBB23_48
.LBB23_116:
	movdqa	.LCPI23_10(%rip), %xmm3
	movdqa	%xmm1, %xmm2
	pand	%xmm3, %xmm2
	packuswb	%xmm2, %xmm2
	psrlw	$8, %xmm1
	packuswb	%xmm1, %xmm1
	psllw	$4, %xmm2
	movdqa	.LCPI23_11(%rip), %xmm4
	pand	%xmm4, %xmm2
	por	%xmm1, %xmm2
	pand	%xmm0, %xmm3
	packuswb	%xmm3, %xmm3
	psrlw	$8, %xmm0
	packuswb	%xmm0, %xmm0
	psllw	$4, %xmm3
	pand	%xmm4, %xmm3
	por	%xmm0, %xmm3
	movdqa	%xmm3, 224(%rsp)
	movzwl	230(%rsp), %eax
	movq	%xmm2, 2(%rsp)
	psrlq	$16, %xmm3
	movd	%xmm3, 10(%rsp)
	movw	%ax, 14(%rsp)
	movq	%xmm2, 32(%rsp)
	movq	8(%rsp), %rax
	movq	%rax, 38(%rsp)
	movb	$2, %al
	movb	$1, %cl
	jmp	.LBB23_101
.LBB23_118:
	movdqa	.LCPI23_10(%rip), %xmm3
	movdqa	%xmm1, %xmm2
	pand	%xmm3, %xmm2
	packuswb	%xmm2, %xmm2
	psrlw	$8, %xmm1
	packuswb	%xmm1, %xmm1
	psllw	$4, %xmm2
	movdqa	.LCPI23_11(%rip), %xmm4
	pand	%xmm4, %xmm2
	por	%xmm1, %xmm2
	pand	%xmm0, %xmm3
	packuswb	%xmm3, %xmm3
	psrlw	$8, %xmm0
	packuswb	%xmm0, %xmm0
	psllw	$4, %xmm3
	pand	%xmm4, %xmm3
	por	%xmm0, %xmm3
	movdqa	%xmm3, 256(%rsp)
	movzwl	262(%rsp), %eax
	movq	%xmm2, 34(%rsp)
	psrlq	$16, %xmm3
	movd	%xmm3, 42(%rsp)
	movw	%ax, 46(%rsp)
	movq	%xmm2, 48(%rsp)
	movq	40(%rsp), %rax
	movq	%rax, 54(%rsp)
	movq	48(%rsp), %rax
	movq	54(%rsp), %rcx
	movq	%rax, 112(%rsp)
	movq	%rcx, 118(%rsp)
	movb	$2, %al
	jmp	.LBB23_67
.Lfunc_end23:
	.size	"sq_feed::rows::row_read", .Lfunc_end23-"sq_feed::rows::row_read"

	.section	".text.sq_feed::cells::number_of","ax",@progbits
	.p2align	4
	.type	"sq_feed::cells::number_of",@function
"sq_feed::cells::number_of":
	leaq	-1(%rdx), %rcx
	cmpq	%rdi, %rcx
	jae	.LBB24_1
	movq	%rdx, %rax
	cmpq	$19, %rdx
	ja	.LBB24_8
	xorl	%edx, %edx
	xorl	%ecx, %ecx
	.p2align	4
.LBB24_5:
	movzbl	(%rsi,%rcx), %edi
	addb	$-48, %dil
	cmpb	$9, %dil
	ja	.LBB24_1
	leaq	(%rdx,%rdx,4), %rdx
	movzbl	%dil, %edi
	leaq	(%rdi,%rdx,2), %rdx
	incq	%rcx
	cmpq	%rcx, %rax
	jne	.LBB24_5
	movb	$1, %al
	retq
.LBB24_8:
	movzbl	(%rsi), %edx
	addb	$-48, %dl
	cmpb	$10, %dl
	jae	.LBB24_1
	movzbl	1(%rsi), %ecx
	addb	$-48, %cl
	cmpb	$9, %cl
	ja	.LBB24_1
	movzbl	2(%rsi), %r8d
	addb	$-48, %r8b
	cmpb	$9, %r8b
	ja	.LBB24_1
	movzbl	3(%rsi), %edi
	addb	$-48, %dil
	cmpb	$9, %dil
	ja	.LBB24_1
	movzbl	4(%rsi), %r9d
	addb	$-48, %r9b
	cmpb	$9, %r9b
	ja	.LBB24_1
	movzbl	5(%rsi), %r10d
	addb	$-48, %r10b
	cmpb	$9, %r10b
	ja	.LBB24_1
	movzbl	6(%rsi), %r11d
	addb	$-48, %r11b
	cmpb	$9, %r11b
	ja	.LBB24_1
	pushq	%rbp
	pushq	%r15
	pushq	%r14
	pushq	%r13
	pushq	%r12
	pushq	%rbx
	movzbl	7(%rsi), %ebx
	addb	$-48, %bl
	cmpb	$9, %bl
	ja	.LBB24_16
	movzbl	8(%rsi), %ebp
	addb	$-48, %bpl
	cmpb	$9, %bpl
	ja	.LBB24_16
	movzbl	9(%rsi), %r14d
	addb	$-48, %r14b
	cmpb	$9, %r14b
	ja	.LBB24_16
	movzbl	10(%rsi), %r15d
	addb	$-48, %r15b
	cmpb	$9, %r15b
	ja	.LBB24_16
	movzbl	11(%rsi), %r13d
	addb	$-48, %r13b
	cmpb	$9, %r13b
	ja	.LBB24_16
	movzbl	12(%rsi), %r12d
	addb	$-48, %r12b
	cmpb	$9, %r12b
	ja	.LBB24_16
	movzbl	13(%rsi), %eax
	addb	$-48, %al
	movb	%al, -25(%rsp)
	cmpb	$9, %al
	ja	.LBB24_16
	movzbl	14(%rsi), %eax
	addb	$-48, %al
	movb	%al, -26(%rsp)
	cmpb	$9, %al
	ja	.LBB24_16
	movzbl	15(%rsi), %eax
	addb	$-48, %al
	movb	%al, -27(%rsp)
	cmpb	$9, %al
	ja	.LBB24_16
	movzbl	16(%rsi), %eax
	addb	$-48, %al
	movb	%al, -28(%rsp)
	cmpb	$9, %al
	ja	.LBB24_16
	movzbl	17(%rsi), %eax
	addb	$-48, %al
	movb	%al, -29(%rsp)
	cmpb	$9, %al
	ja	.LBB24_16
	movzbl	18(%rsi), %eax
	addb	$-48, %al
	cmpb	$9, %al
	ja	.LBB24_16
	movzbl	19(%rsi), %esi
	addb	$-48, %sil
	movb	%sil, -30(%rsp)
	cmpb	$9, %sil
	ja	.LBB24_16
	movzbl	%al, %esi
	movq	%rsi, -8(%rsp)
	movzbl	%dl, %edx
	addl	%edx, %edx
	leal	(%rdx,%rdx,4), %edx
	addb	%cl, %dl
	movzbl	%r8b, %ecx
	movzbl	%dil, %edi
	movzbl	%r9b, %r8d
	movzbl	%r10b, %eax
	movzbl	%r11b, %esi
	movq	%rsi, -16(%rsp)
	movzbl	%bl, %esi
	movq	%rsi, -24(%rsp)
	movzbl	%bpl, %r9d
	movzbl	%r14b, %r10d
	movzbl	%r15b, %r11d
	movzbl	%r13b, %ebx
	movzbl	%dl, %edx
	leaq	(%rdx,%rdx,4), %rdx
	leaq	(%rcx,%rdx,2), %rdx
	movzbl	%r12b, %ecx
	movzbl	-25(%rsp), %esi
	leaq	(%rdx,%rdx,4), %rdx
	movl	%edx, %edx
	leaq	(%rdi,%rdx,2), %r14
	movzbl	-26(%rsp), %edx
	movzbl	-27(%rsp), %edi
	leaq	(%r14,%r14,4), %r14
	leaq	(%r8,%r14,2), %r8
	movzbl	-28(%rsp), %r14d
	movzbl	-29(%rsp), %r15d
	leaq	(%r8,%r8,4), %r8
	leaq	(%rax,%r8,2), %r8
	leaq	(%r8,%r8,4), %r8
	movq	-16(%rsp), %rax
	leaq	(%rax,%r8,2), %r8
	leaq	(%r8,%r8,4), %r8
	movq	-24(%rsp), %rax
	leaq	(%rax,%r8,2), %r8
	leaq	(%r8,%r8,4), %r8
	leaq	(%r9,%r8,2), %r8
	leaq	(%r8,%r8,4), %r8
	leaq	(%r10,%r8,2), %r8
	leaq	(%r8,%r8,4), %r8
	leaq	(%r11,%r8,2), %r8
	leaq	(%r8,%r8,4), %r8
	leaq	(%rbx,%r8,2), %r8
	leaq	(%r8,%r8,4), %r8
	leaq	(%rcx,%r8,2), %rcx
	leaq	(%rcx,%rcx,4), %rcx
	leaq	(%rsi,%rcx,2), %rax
	leaq	(%rax,%rax,4), %rax
	leaq	(%rdx,%rax,2), %rax
	leaq	(%rax,%rax,4), %rax
	leaq	(%rdi,%rax,2), %rax
	leaq	(%rax,%rax,4), %rax
	leaq	(%r14,%rax,2), %rax
	leaq	(%rax,%rax,4), %rax
	leaq	(%r15,%rax,2), %rax
	leaq	(%rax,%rax,4), %rax
	movq	-8(%rsp), %rcx
	leaq	(%rcx,%rax,2), %rax
	movabsq	$1844674407370955161, %rcx
	cmpq	%rcx, %rax
	jbe	.LBB24_30
.LBB24_16:
	xorl	%edx, %edx
	xorl	%eax, %eax
.LBB24_31:
	popq	%rbx
	popq	%r12
	popq	%r13
	popq	%r14
	popq	%r15
	popq	%rbp
	retq
.LBB24_1:
	xorl	%edx, %edx
	xorl	%eax, %eax
	retq
.LBB24_30:
	addq	%rax, %rax
	leaq	(%rax,%rax,4), %rax
	movzbl	-30(%rsp), %ecx
	leaq	(%rax,%rcx), %rsi
	notq	%rcx
	xorl	%edx, %edx
	cmpq	%rcx, %rax
	setbe	%al
	cmovbeq	%rsi, %rdx
	jmp	.LBB24_31
.Lfunc_end24:
	.size	"sq_feed::cells::number_of", .Lfunc_end24-"sq_feed::cells::number_of"

	.section	.rodata.cst16,"aM",@progbits,16
	.p2align	4, 0x0
.LCPI25_0:
	.zero	16,58
.LCPI25_1:
	.zero	16,9
.LCPI25_2:
	.zero	16,240
.LCPI25_3:
	.zero	16,57
.LCPI25_4:
	.zero	16,70
.LCPI25_5:
	.zero	16,169
.LCPI25_6:
	.zero	16,201
.LCPI25_7:
	.zero	16,208
.LCPI25_8:
	.byte	58
	.byte	58
	.byte	58
	.byte	58
	.zero	1
	.zero	1
	.zero	1
	.zero	1
	.zero	1
	.zero	1
	.zero	1
	.zero	1
	.zero	1
	.zero	1
	.zero	1
	.zero	1
.LCPI25_9:
	.byte	9
	.byte	9
	.byte	9
	.byte	9
	.byte	0
	.byte	0
	.byte	0
	.byte	0
	.byte	0
	.byte	0
	.byte	0
	.byte	0
	.byte	0
	.byte	0
	.byte	0
	.byte	0
.LCPI25_10:
	.byte	71
	.byte	71
	.byte	71
	.byte	71
	.zero	1
	.zero	1
	.zero	1
	.zero	1
	.zero	1
	.zero	1
	.zero	1
	.zero	1
	.zero	1
	.zero	1
	.zero	1
	.zero	1
.LCPI25_11:
	.byte	169
	.byte	169
	.byte	169
	.byte	169
	.zero	1
	.zero	1
	.zero	1
	.zero	1
	.zero	1
	.zero	1
	.zero	1
	.zero	1
	.zero	1
	.zero	1
	.zero	1
	.zero	1
.LCPI25_12:
	.byte	201
	.byte	201
	.byte	201
	.byte	201
	.zero	1
	.zero	1
	.zero	1
	.zero	1
	.zero	1
	.zero	1
	.zero	1
	.zero	1
	.zero	1
	.zero	1
	.zero	1
	.zero	1
.LCPI25_13:
	.byte	208
	.byte	208
	.byte	208
	.byte	208
	.zero	1
	.zero	1
	.zero	1
	.zero	1
	.zero	1
	.zero	1
	.zero	1
	.zero	1
	.zero	1
	.zero	1
	.zero	1
	.zero	1
	.section	".text.sq_feed::avr::frame_of_any","ax",@progbits
	.p2align	4
	.type	"sq_feed::avr::frame_of_any",@function
"sq_feed::avr::frame_of_any":
	movl	$0, -40(%rsp)
	movq	$0, -48(%rsp)
	cmpq	$42, %rdx
	jbe	.LBB25_1
.LBB25_40:
	xorps	%xmm0, %xmm0
	movups	%xmm0, (%rdi)
	retq
.LBB25_1:
	testq	%rdx, %rdx
	je	.LBB25_2
	xorl	%eax, %eax
	jmp	.LBB25_4
	.p2align	4
.LBB25_8:
	incq	%rax
	cmpq	%rax, %rdx
	je	.LBB25_9
.LBB25_4:
	movzbl	(%rsi,%rax), %ecx
	cmpb	$48, %cl
	jb	.LBB25_40
	cmpb	$58, %cl
	jb	.LBB25_8
	cmpb	$65, %cl
	jb	.LBB25_40
	cmpb	$71, %cl
	setae	%r8b
	addb	$-97, %cl
	cmpb	$6, %cl
	setae	%cl
	testb	%cl, %r8b
	je	.LBB25_8
	jmp	.LBB25_40
.LBB25_2:
	xorl	%ecx, %ecx
	xorl	%r8d, %r8d
	xorl	%eax, %eax
	jmp	.LBB25_39
.LBB25_9:
	xorl	%ecx, %ecx
	cmpq	$4, %rdx
	je	.LBB25_10
	cmpq	$28, %rdx
	je	.LBB25_14
	movl	$0, %r8d
	movl	$0, %eax
	cmpq	$14, %rdx
	jne	.LBB25_39
	movb	$1, %al
	jmp	.LBB25_15
.LBB25_14:
	movb	$2, %al
	jmp	.LBB25_15
.LBB25_10:
	xorl	%eax, %eax
.LBB25_15:
	pxor	%xmm0, %xmm0
	movdqa	%xmm0, -104(%rsp)
	movq	$0, -88(%rsp)
	movq	%rdx, %rcx
	shrq	%rcx
	cmpq	$8, %rdx
	jae	.LBB25_18
	xorl	%r8d, %r8d
	jmp	.LBB25_17
.LBB25_18:
	cmpq	$32, %rdx
	jae	.LBB25_20
	xorl	%r8d, %r8d
	jmp	.LBB25_24
.LBB25_20:
	movl	%ecx, %r8d
	andl	$16, %r8d
	xorl	%r9d, %r9d
	.p2align	4
.LBB25_21:
	movzbl	30(%rsi,%r9,2), %r10d
	movd	%r10d, %xmm0
	movzbl	28(%rsi,%r9,2), %r10d
	movd	%r10d, %xmm1
	punpcklbw	%xmm0, %xmm1
	movzbl	26(%rsi,%r9,2), %r10d
	movd	%r10d, %xmm0
	movzbl	24(%rsi,%r9,2), %r10d
	movd	%r10d, %xmm2
	punpcklbw	%xmm0, %xmm2
	punpcklwd	%xmm1, %xmm2
	movzbl	22(%rsi,%r9,2), %r10d
	movd	%r10d, %xmm0
	movzbl	20(%rsi,%r9,2), %r10d
	movd	%r10d, %xmm1
	punpcklbw	%xmm0, %xmm1
	movzbl	18(%rsi,%r9,2), %r10d
	movd	%r10d, %xmm3
	movzbl	16(%rsi,%r9,2), %r10d
	movd	%r10d, %xmm0
	punpcklbw	%xmm3, %xmm0
	punpcklwd	%xmm1, %xmm0
	punpckldq	%xmm2, %xmm0
	movzbl	14(%rsi,%r9,2), %r10d
	movd	%r10d, %xmm1
	movzbl	12(%rsi,%r9,2), %r10d
	movd	%r10d, %xmm2
	punpcklbw	%xmm1, %xmm2
	movzbl	10(%rsi,%r9,2), %r10d
	movd	%r10d, %xmm1
	movzbl	8(%rsi,%r9,2), %r10d
	movd	%r10d, %xmm3
	punpcklbw	%xmm1, %xmm3
	punpcklwd	%xmm2, %xmm3
	movzbl	6(%rsi,%r9,2), %r10d
	movd	%r10d, %xmm1
	movzbl	4(%rsi,%r9,2), %r10d
	movd	%r10d, %xmm2
	punpcklbw	%xmm1, %xmm2
	movzbl	2(%rsi,%r9,2), %r10d
	movd	%r10d, %xmm1
	movzbl	(%rsi,%r9,2), %r10d
	movd	%r10d, %xmm4
	punpcklbw	%xmm1, %xmm4
	punpcklwd	%xmm2, %xmm4
	punpckldq	%xmm3, %xmm4
	punpcklqdq	%xmm0, %xmm4
	movdqa	.LCPI25_0(%rip), %xmm0
	pmaxub	%xmm4, %xmm0
	pcmpeqb	%xmm4, %xmm0
	pand	.LCPI25_1(%rip), %xmm0
	paddb	%xmm4, %xmm0
	psllw	$4, %xmm0
	pand	.LCPI25_2(%rip), %xmm0
	movzbl	31(%rsi,%r9,2), %r10d
	movd	%r10d, %xmm1
	movzbl	29(%rsi,%r9,2), %r10d
	movd	%r10d, %xmm2
	punpcklbw	%xmm1, %xmm2
	movzbl	27(%rsi,%r9,2), %r10d
	movd	%r10d, %xmm1
	movzbl	25(%rsi,%r9,2), %r10d
	movd	%r10d, %xmm3
	punpcklbw	%xmm1, %xmm3
	punpcklwd	%xmm2, %xmm3
	movzbl	23(%rsi,%r9,2), %r10d
	movd	%r10d, %xmm1
	movzbl	21(%rsi,%r9,2), %r10d
	movd	%r10d, %xmm2
	punpcklbw	%xmm1, %xmm2
	movzbl	19(%rsi,%r9,2), %r10d
	movd	%r10d, %xmm4
	movzbl	17(%rsi,%r9,2), %r10d
	movd	%r10d, %xmm1
	punpcklbw	%xmm4, %xmm1
	punpcklwd	%xmm2, %xmm1
	punpckldq	%xmm3, %xmm1
	movzbl	15(%rsi,%r9,2), %r10d
	movd	%r10d, %xmm2
	movzbl	13(%rsi,%r9,2), %r10d
	movd	%r10d, %xmm3
	punpcklbw	%xmm2, %xmm3
	movzbl	11(%rsi,%r9,2), %r10d
	movd	%r10d, %xmm2
	movzbl	9(%rsi,%r9,2), %r10d
	movd	%r10d, %xmm4
	punpcklbw	%xmm2, %xmm4
	punpcklwd	%xmm3, %xmm4
	movzbl	7(%rsi,%r9,2), %r10d
	movd	%r10d, %xmm2
	movzbl	5(%rsi,%r9,2), %r10d
	movd	%r10d, %xmm3
	punpcklbw	%xmm2, %xmm3
	movzbl	3(%rsi,%r9,2), %r10d
	movd	%r10d, %xmm5
	movzbl	1(%rsi,%r9,2), %r10d
	movd	%r10d, %xmm2
	punpcklbw	%xmm5, %xmm2
	punpcklwd	%xmm3, %xmm2
	punpckldq	%xmm4, %xmm2
	punpcklqdq	%xmm1, %xmm2
	movdqa	.LCPI25_3(%rip), %xmm1
	pminub	%xmm2, %xmm1
	movdqa	.LCPI25_4(%rip), %xmm3
	pminub	%xmm2, %xmm3
	pcmpeqb	%xmm2, %xmm3
	movdqa	%xmm3, %xmm4
	pandn	.LCPI25_5(%rip), %xmm4
	pand	.LCPI25_6(%rip), %xmm3
	pcmpeqb	%xmm2, %xmm1
	por	%xmm4, %xmm3
	movdqa	%xmm1, %xmm4
	pandn	%xmm3, %xmm4
	pand	.LCPI25_7(%rip), %xmm1
	por	%xmm4, %xmm1
	paddb	%xmm2, %xmm1
	paddb	%xmm0, %xmm1
	movdqu	%xmm1, -104(%rsp,%r9)
	addq	$16, %r9
	cmpq	%r9, %r8
	jne	.LBB25_21
	cmpq	%r8, %rcx
	je	.LBB25_27
	testb	$24, %dl
	je	.LBB25_17
.LBB25_24:
	movq	%r8, %rdx
	movl	%ecx, %r8d
	andl	$28, %r8d
	.p2align	4
.LBB25_25:
	movzbl	(%rsi,%rdx,2), %r9d
	movzbl	2(%rsi,%rdx,2), %r10d
	movzbl	4(%rsi,%rdx,2), %r11d
	shll	$8, %r10d
	orl	%r9d, %r10d
	shll	$16, %r11d
	orl	%r10d, %r11d
	movzbl	6(%rsi,%rdx,2), %r9d
	shll	$24, %r9d
	orl	%r11d, %r9d
	movd	%r9d, %xmm2
	movdqa	.LCPI25_8(%rip), %xmm0
	movdqa	%xmm2, %xmm1
	pmaxub	%xmm0, %xmm1
	pcmpeqb	%xmm2, %xmm1
	pand	.LCPI25_9(%rip), %xmm1
	paddb	%xmm2, %xmm1
	psllw	$4, %xmm1
	pand	.LCPI25_2(%rip), %xmm1
	movzbl	1(%rsi,%rdx,2), %r9d
	movzbl	3(%rsi,%rdx,2), %r10d
	movzbl	5(%rsi,%rdx,2), %r11d
	shll	$8, %r10d
	orl	%r9d, %r10d
	shll	$16, %r11d
	orl	%r10d, %r11d
	movzbl	7(%rsi,%rdx,2), %r9d
	shll	$24, %r9d
	orl	%r11d, %r9d
	movd	%r9d, %xmm2
	pmaxub	%xmm2, %xmm0
	pcmpeqb	%xmm2, %xmm0
	movdqa	.LCPI25_10(%rip), %xmm3
	pmaxub	%xmm2, %xmm3
	pcmpeqb	%xmm2, %xmm3
	movdqa	.LCPI25_11(%rip), %xmm4
	pand	%xmm3, %xmm4
	pandn	.LCPI25_12(%rip), %xmm3
	por	%xmm4, %xmm3
	pand	%xmm0, %xmm3
	pandn	.LCPI25_13(%rip), %xmm0
	por	%xmm3, %xmm0
	paddb	%xmm2, %xmm0
	paddb	%xmm1, %xmm0
	movd	%xmm0, -104(%rsp,%rdx)
	addq	$4, %rdx
	cmpq	%rdx, %r8
	jne	.LBB25_25
	jmp	.LBB25_26
.LBB25_17:
	movzbl	(%rsi,%r8,2), %edx
	movzbl	1(%rsi,%r8,2), %r9d
	xorl	%r10d, %r10d
	cmpb	$58, %dl
	setae	%r10b
	leal	(%r10,%r10,8), %r10d
	addb	%dl, %r10b
	shlb	$4, %r10b
	cmpb	$71, %r9b
	setb	%dl
	shlb	$5, %dl
	addb	$-87, %dl
	cmpb	$58, %r9b
	movzbl	%dl, %edx
	movl	$208, %r11d
	cmovael	%edx, %r11d
	addb	%r9b, %r10b
	addb	%r11b, %r10b
	movb	%r10b, -104(%rsp,%r8)
	incq	%r8
.LBB25_26:
	cmpq	%r8, %rcx
	jne	.LBB25_17
.LBB25_27:
	movzwl	-104(%rsp), %r8d
	movq	-102(%rsp), %rdx
	movq	%rdx, -64(%rsp)
	movl	-94(%rsp), %edx
	movl	%edx, -56(%rsp)
	movl	$0, -96(%rsp)
	movq	$0, -104(%rsp)
	cmpb	$2, %al
	je	.LBB25_34
	movzbl	%al, %edx
	cmpl	$1, %edx
	jne	.LBB25_29
	cmpq	$7, %rcx
	jne	.LBB25_32
	movzbl	-60(%rsp), %ecx
	movb	%cl, -108(%rsp)
	movl	-64(%rsp), %ecx
	movl	%ecx, -112(%rsp)
	jmp	.LBB25_33
.LBB25_34:
	cmpq	$14, %rcx
	jne	.LBB25_36
	movl	-56(%rsp), %ecx
	movl	%ecx, -24(%rsp)
	movq	-64(%rsp), %rcx
	movq	%rcx, -32(%rsp)
	jmp	.LBB25_37
.LBB25_29:
	xorl	%edx, %edx
	cmpq	$2, %rcx
	cmovnel	%edx, %r8d
	jmp	.LBB25_38
.LBB25_32:
	movb	$0, -108(%rsp)
	movl	$0, -112(%rsp)
	xorl	%r8d, %r8d
.LBB25_33:
	movzbl	-108(%rsp), %ecx
	movb	%cl, -100(%rsp)
	movl	-112(%rsp), %ecx
	movl	%ecx, -104(%rsp)
	jmp	.LBB25_38
.LBB25_36:
	movl	$0, -24(%rsp)
	movq	$0, -32(%rsp)
	xorl	%r8d, %r8d
.LBB25_37:
	movl	-24(%rsp), %ecx
	movl	%ecx, -96(%rsp)
	movq	-32(%rsp), %rcx
	movq	%rcx, -104(%rsp)
.LBB25_38:
	movl	-96(%rsp), %ecx
	movl	%ecx, -8(%rsp)
	movq	-104(%rsp), %rdx
	movq	%rdx, -16(%rsp)
	movq	%rdx, -48(%rsp)
	movl	%ecx, -40(%rsp)
	movb	$1, %cl
.LBB25_39:
	movb	%cl, (%rdi)
	movb	%al, 1(%rdi)
	movw	%r8w, 2(%rdi)
	movq	-48(%rsp), %rax
	movq	%rax, 4(%rdi)
	movl	-40(%rsp), %eax
	movl	%eax, 12(%rdi)
	retq
.Lfunc_end25:
	.size	"sq_feed::avr::frame_of_any", .Lfunc_end25-"sq_feed::avr::frame_of_any"

	.section	.rodata.cst16,"aM",@progbits,16
	.p2align	4, 0x0
.LCPI26_0:
	.zero	16,44
	.section	".text.sq_feed::cells::cell_of","ax",@progbits
	.p2align	4
	.type	"sq_feed::cells::cell_of",@function
"sq_feed::cells::cell_of":
	testq	%rsi, %rsi
	je	.LBB26_23
	xorl	%eax, %eax
	.p2align	4
.LBB26_2:
	testq	%rcx, %rcx
	je	.LBB26_8
	cmpb	$34, (%rdx)
	jne	.LBB26_9
	xorl	%r9d, %r9d
	xorl	%r8d, %r8d
	.p2align	4
.LBB26_5:
	movzbl	(%rdx,%r8), %r10d
	cmpb	$44, %r10b
	setne	%r11b
	orb	%r9b, %r11b
	testb	$1, %r11b
	je	.LBB26_19
	cmpb	$34, %r10b
	sete	%r10b
	xorb	%r10b, %r9b
	incq	%r8
	cmpq	%r8, %rcx
	jne	.LBB26_5
	jmp	.LBB26_7
	.p2align	4
.LBB26_8:
	xorl	%r8d, %r8d
	cmpq	%r8, %rcx
	ja	.LBB26_20
	jmp	.LBB26_22
	.p2align	4
.LBB26_9:
	movq	%rcx, %r8
	shrq	$4, %r8
	je	.LBB26_13
	xorl	%r9d, %r9d
	.p2align	4
.LBB26_11:
	movdqu	(%rdx,%r9), %xmm0
	pcmpeqb	.LCPI26_0(%rip), %xmm0
	pmovmskb	%xmm0, %r10d
	orl	$65536, %r10d
	rep		bsfl	%r10d, %r10d
	cmpw	$15, %r10w
	jbe	.LBB26_21
	addq	$16, %r9
	decq	%r8
	jne	.LBB26_11
.LBB26_13:
	cmpq	$15, %rcx
	ja	.LBB26_18
	xorl	%r8d, %r8d
	.p2align	4
.LBB26_15:
	cmpb	$44, (%rdx,%r8)
	je	.LBB26_19
	incq	%r8
	cmpq	%r8, %rcx
	jne	.LBB26_15
.LBB26_7:
	movq	%rcx, %r8
	cmpq	%r8, %rcx
	ja	.LBB26_20
	jmp	.LBB26_22
.LBB26_18:
	movdqu	-16(%rdx,%rcx), %xmm0
	pcmpeqb	.LCPI26_0(%rip), %xmm0
	pmovmskb	%xmm0, %r8d
	orl	$65536, %r8d
	rep		bsfl	%r8d, %r8d
	cmpw	$16, %r8w
	leaq	-16(%rcx,%r8), %r8
	cmovaeq	%rcx, %r8
	.p2align	4
.LBB26_19:
	cmpq	%r8, %rcx
	jbe	.LBB26_22
.LBB26_20:
	addq	%r8, %rdx
	incq	%rdx
	incq	%r8
	subq	%r8, %rcx
	incq	%rax
	cmpq	%rsi, %rax
	jne	.LBB26_2
	jmp	.LBB26_23
.LBB26_21:
	movzwl	%r10w, %r8d
	addq	%r9, %r8
	cmpq	%r8, %rcx
	ja	.LBB26_20
.LBB26_22:
	pxor	%xmm0, %xmm0
	movdqu	%xmm0, (%rdi)
	movq	$0, 16(%rdi)
	retq
.LBB26_23:
	testq	%rcx, %rcx
	je	.LBB26_30
	cmpb	$34, (%rdx)
	jne	.LBB26_31
	xorl	%esi, %esi
	xorl	%eax, %eax
	.p2align	4
.LBB26_26:
	movzbl	(%rdx,%rax), %r8d
	cmpb	$44, %r8b
	setne	%r9b
	orb	%sil, %r9b
	testb	$1, %r9b
	je	.LBB26_29
	cmpb	$34, %r8b
	sete	%r8b
	xorb	%r8b, %sil
	incq	%rax
	cmpq	%rax, %rcx
	jne	.LBB26_26
	movq	%rcx, %rax
.LBB26_29:
	movq	$1, (%rdi)
	movq	%rdx, 8(%rdi)
	movq	%rax, 16(%rdi)
	retq
.LBB26_30:
	xorl	%eax, %eax
	movq	$1, (%rdi)
	movq	%rdx, 8(%rdi)
	movq	%rax, 16(%rdi)
	retq
.LBB26_31:
	movq	%rcx, %rax
	shrq	$4, %rax
	je	.LBB26_35
	xorl	%esi, %esi
	.p2align	4
.LBB26_33:
	movdqu	(%rdx,%rsi), %xmm0
	pcmpeqb	.LCPI26_0(%rip), %xmm0
	pmovmskb	%xmm0, %r8d
	orl	$65536, %r8d
	rep		bsfl	%r8d, %r8d
	cmpw	$15, %r8w
	jbe	.LBB26_41
	addq	$16, %rsi
	decq	%rax
	jne	.LBB26_33
.LBB26_35:
	cmpq	$15, %rcx
	ja	.LBB26_40
	xorl	%eax, %eax
	.p2align	4
.LBB26_37:
	cmpb	$44, (%rdx,%rax)
	je	.LBB26_29
	incq	%rax
	cmpq	%rax, %rcx
	jne	.LBB26_37
	movq	%rcx, %rax
	movq	$1, (%rdi)
	movq	%rdx, 8(%rdi)
	movq	%rax, 16(%rdi)
	retq
.LBB26_40:
	movdqu	-16(%rdx,%rcx), %xmm0
	pcmpeqb	.LCPI26_0(%rip), %xmm0
	pmovmskb	%xmm0, %eax
	orl	$65536, %eax
	rep		bsfl	%eax, %eax
	cmpw	$16, %ax
	leaq	-16(%rcx,%rax), %rax
	cmovaeq	%rcx, %rax
	movq	$1, (%rdi)
	movq	%rdx, 8(%rdi)
	movq	%rax, 16(%rdi)
	retq
.LBB26_41:
	movzwl	%r8w, %eax
	addq	%rsi, %rax
	movq	$1, (%rdi)
	movq	%rdx, 8(%rdi)
	movq	%rax, 16(%rdi)
	retq
.Lfunc_end26:
	.size	"sq_feed::cells::cell_of", .Lfunc_end26-"sq_feed::cells::cell_of"

	.section	.rodata.cst16,"aM",@progbits,16
	.p2align	4, 0x0
.LCPI27_0:
	.byte	208
	.byte	208
	.zero	1
	.zero	1
	.zero	1
	.zero	1
	.zero	1
	.zero	1
	.zero	1
	.zero	1
	.zero	1
	.zero	1
	.zero	1
	.zero	1
	.zero	1
	.zero	1
.LCPI27_1:
	.short	100
	.short	10
	.zero	2
	.zero	2
	.zero	2
	.zero	2
	.zero	2
	.zero	2
	.section	".text.sq_feed::cells::thousandths","ax",@progbits
	.p2align	4
	.type	"sq_feed::cells::thousandths",@function
"sq_feed::cells::thousandths":
	movq	%rsi, %rax
	testq	%rsi, %rsi
	je	.LBB27_6
	cmpq	$1, %rax
	jne	.LBB27_3
	movzbl	(%rdi), %eax
	addb	$-48, %al
	movzbl	%al, %eax
	imulq	$100, %rax, %rax
	retq
.LBB27_3:
	cmpq	$2, %rax
	ja	.LBB27_5
	movzwl	(%rdi), %eax
	movd	%eax, %xmm0
	paddb	.LCPI27_0(%rip), %xmm0
	pxor	%xmm1, %xmm1
	punpcklbw	%xmm1, %xmm0
	pmullw	.LCPI27_1(%rip), %xmm0
	movd	%xmm0, %eax
	pextrw	$1, %xmm0, %ecx
	addl	%eax, %ecx
	movzwl	%cx, %eax
	retq
.LBB27_5:
	movzbl	(%rdi), %eax
	movzbl	1(%rdi), %ecx
	movzbl	2(%rdi), %edx
	imulq	$100, %rax, %rax
	leaq	(%rcx,%rcx,4), %rcx
	leaq	(%rax,%rcx,2), %rax
	addq	%rdx, %rax
	addq	$-5328, %rax
.LBB27_6:
	retq
.Lfunc_end27:
	.size	"sq_feed::cells::thousandths", .Lfunc_end27-"sq_feed::cells::thousandths"

	.section	.rodata.cst16,"aM",@progbits,16
	.p2align	4, 0x0
.LCPI28_0:
	.zero	16,44
	.section	".text.sq_feed::cells::column_of","ax",@progbits
	.p2align	4
	.type	"sq_feed::cells::column_of",@function
"sq_feed::cells::column_of":
	cmpq	$-1, %rcx
	je	.LBB28_42
	pushq	%rbp
	pushq	%r15
	pushq	%r14
	pushq	%r13
	pushq	%r12
	pushq	%rbx
	movq	%rdx, %rax
	xorl	%edx, %edx
	movq	%rcx, %r8
	.p2align	4
.LBB28_2:
	movabsq	$4294981120, %r10
	testq	%r8, %r8
	je	.LBB28_27
	cmpb	$34, (%rax)
	jne	.LBB28_8
	xorl	%r11d, %r11d
	xorl	%r9d, %r9d
	.p2align	4
.LBB28_5:
	movzbl	(%rax,%r9), %ebx
	cmpb	$44, %bl
	setne	%bpl
	orb	%r11b, %bpl
	testb	$1, %bpl
	je	.LBB28_19
	cmpb	$34, %bl
	sete	%bl
	xorb	%bl, %r11b
	incq	%r9
	cmpq	%r9, %r8
	jne	.LBB28_5
	jmp	.LBB28_7
	.p2align	4
.LBB28_8:
	movq	%r8, %r9
	shrq	$4, %r9
	je	.LBB28_12
	xorl	%r11d, %r11d
	.p2align	4
.LBB28_10:
	movdqu	(%rax,%r11), %xmm0
	pcmpeqb	.LCPI28_0(%rip), %xmm0
	pmovmskb	%xmm0, %ebx
	orl	$65536, %ebx
	rep		bsfl	%ebx, %ebx
	cmpw	$15, %bx
	jbe	.LBB28_26
	addq	$16, %r11
	decq	%r9
	jne	.LBB28_10
.LBB28_12:
	cmpq	$15, %r8
	ja	.LBB28_17
	xorl	%r9d, %r9d
	.p2align	4
.LBB28_14:
	cmpb	$44, (%rax,%r9)
	je	.LBB28_19
	incq	%r9
	cmpq	%r9, %r8
	jne	.LBB28_14
.LBB28_7:
	movq	%r8, %r9
	jmp	.LBB28_20
.LBB28_17:
	movdqu	-16(%rax,%r8), %xmm0
	pcmpeqb	.LCPI28_0(%rip), %xmm0
	pmovmskb	%xmm0, %r9d
	orl	$65536, %r9d
	rep		bsfl	%r9d, %r11d
	movq	%r8, %r9
	cmpw	$15, %r11w
	ja	.LBB28_20
	leaq	(%r8,%r11), %r9
	addq	$-16, %r9
	.p2align	4
.LBB28_19:
	testq	%r9, %r9
	je	.LBB28_27
.LBB28_20:
	xorl	%ebx, %ebx
	.p2align	4
.LBB28_21:
	movzbl	(%rax,%rbx), %r11d
	cmpq	$32, %r11
	ja	.LBB28_25
	btq	%r11, %r10
	jae	.LBB28_25
	incq	%rbx
	cmpq	%rbx, %r9
	jne	.LBB28_21
	movq	%r9, %rbx
.LBB28_25:
	cmpq	%rbx, %r9
	jne	.LBB28_28
	jmp	.LBB28_32
.LBB28_26:
	movzwl	%bx, %r9d
	addq	%r11, %r9
	testq	%r9, %r9
	jne	.LBB28_20
	.p2align	4
.LBB28_27:
	xorl	%r9d, %r9d
	xorl	%ebx, %ebx
	cmpq	%rbx, %r9
	je	.LBB28_32
.LBB28_28:
	leaq	(%rax,%rbx), %r11
	movq	%r9, %r14
	negq	%r14
	movq	%rbx, %r12
	negq	%r12
	leaq	(%rax,%r9), %r13
	decq	%r13
	.p2align	4
.LBB28_29:
	movzbl	(%r13), %r15d
	cmpq	$32, %r15
	ja	.LBB28_34
	btq	%r15, %r10
	jae	.LBB28_34
	incq	%r14
	decq	%r13
	cmpq	%r14, %r12
	jne	.LBB28_29
.LBB28_32:
	cmpq	%r9, %r8
	jbe	.LBB28_40
	addq	%r9, %rax
	incq	%rax
	incq	%r9
	subq	%r9, %r8
	cmpq	%rcx, %rdx
	leaq	1(%rdx), %rdx
	jne	.LBB28_2
	jmp	.LBB28_40
.LBB28_34:
	addq	%r14, %rbx
	movq	%rbx, %r10
	negq	%r10
	cmpq	$2, %r10
	jb	.LBB28_32
	movzbl	(%r11), %ebp
	xorb	$34, %bpl
	xorb	$34, %r15b
	movq	$-2, %r14
	subq	%rbx, %r14
	xorl	%ebx, %ebx
	orb	%bpl, %r15b
	sete	%bpl
	cmoveq	%r14, %r10
	cmpq	%rsi, %r10
	jne	.LBB28_32
	movb	%bpl, %bl
	addq	%rbx, %r11
	xorl	%r10d, %r10d
	.p2align	4
.LBB28_37:
	movzbl	(%r11,%r10), %ebx
	leal	-65(%rbx), %ebp
	leal	32(%rbx), %r14d
	cmpb	$26, %bpl
	movzbl	%r14b, %ebp
	cmovael	%ebx, %ebp
	movzbl	(%rdi,%r10), %ebx
	leal	-65(%rbx), %r14d
	leal	32(%rbx), %r15d
	cmpb	$26, %r14b
	movzbl	%r15b, %r14d
	cmovael	%ebx, %r14d
	cmpb	%r14b, %bpl
	jne	.LBB28_32
	incq	%r10
	cmpq	%r10, %rsi
	jne	.LBB28_37
	movb	$1, %al
	jmp	.LBB28_41
.LBB28_40:
	xorl	%edx, %edx
	xorl	%eax, %eax
.LBB28_41:
	popq	%rbx
	popq	%r12
	popq	%r13
	popq	%r14
	popq	%r15
	popq	%rbp
	retq
.LBB28_42:
	xorl	%edx, %edx
	xorl	%eax, %eax
	retq
.Lfunc_end28:
	.size	"sq_feed::cells::column_of", .Lfunc_end28-"sq_feed::cells::column_of"

	.section	.rodata.cst16,"aM",@progbits,16
	.p2align	4, 0x0
.LCPI29_0:
	.zero	16,59
	.section	".text.sq_feed::signs::is_framed_line","ax",@progbits
	.p2align	4
	.type	"sq_feed::signs::is_framed_line",@function
"sq_feed::signs::is_framed_line":
	pushq	%rbp
	pushq	%r15
	pushq	%r14
	pushq	%r13
	pushq	%r12
	pushq	%rbx
	subq	$152, %rsp
	movq	%rsi, %rbx
	movq	%rdi, %r14
	movq	%rsi, %rax
	shrq	$4, %rax
	je	.LBB29_4
	xorl	%ecx, %ecx
	.p2align	4
.LBB29_2:
	movdqu	(%r14,%rcx), %xmm0
	pcmpeqb	.LCPI29_0(%rip), %xmm0
	pmovmskb	%xmm0, %edx
	orl	$65536, %edx
	rep		bsfl	%edx, %edx
	cmpw	$15, %dx
	jbe	.LBB29_11
	addq	$16, %rcx
	decq	%rax
	jne	.LBB29_2
.LBB29_4:
	cmpq	$15, %rbx
	ja	.LBB29_9
	xorl	%r13d, %r13d
	testq	%rbx, %rbx
	je	.LBB29_10
	.p2align	4
.LBB29_6:
	cmpb	$59, (%r14,%r13)
	je	.LBB29_10
	incq	%r13
	cmpq	%r13, %rbx
	jne	.LBB29_6
	pxor	%xmm0, %xmm0
	movdqa	%xmm0, 64(%rsp)
	movdqa	%xmm0, 48(%rsp)
	movdqa	%xmm0, 32(%rsp)
	movdqa	%xmm0, 16(%rsp)
	movq	$0, 80(%rsp)
	jmp	.LBB29_22
.LBB29_9:
	movdqu	-16(%r14,%rbx), %xmm0
	pcmpeqb	.LCPI29_0(%rip), %xmm0
	pmovmskb	%xmm0, %eax
	orl	$65536, %eax
	rep		bsfl	%eax, %eax
	cmpw	$16, %ax
	leaq	-16(%rbx,%rax), %r13
	cmovaeq	%rbx, %r13
.LBB29_10:
	movq	%rbx, %rbp
	subq	%r13, %rbp
	ja	.LBB29_12
	jmp	.LBB29_21
.LBB29_11:
	movzwl	%dx, %r13d
	addq	%rcx, %r13
	movq	%rbx, %rbp
	subq	%r13, %rbp
	jbe	.LBB29_21
.LBB29_12:
	leaq	1(%r13), %rax
	leaq	(%r14,%r13), %rcx
	incq	%rcx
	movq	%rcx, 8(%rsp)
	movq	%rbx, %rcx
	subq	%rax, %rcx
	movq	%rcx, 144(%rsp)
	jne	.LBB29_14
	xorl	%esi, %esi
	jmp	.LBB29_19
.LBB29_14:
	addq	%r14, %r13
	movl	$1, %r15d
	xorl	%esi, %esi
	xorl	%r12d, %r12d
	jmp	.LBB29_16
	.p2align	4
.LBB29_15:
	incq	%r12
	incq	%r15
	cmpq	%r15, %rbp
	je	.LBB29_19
.LBB29_16:
	cmpb	$59, (%r13,%r15)
	jne	.LBB29_15
	movq	8(%rsp), %rax
	leaq	(%rax,%rsi), %rdi
	notq	%rsi
	addq	%r15, %rsi
	callq	"sq_feed::tables::is_frame_cell"
	testb	%al, %al
	jne	.LBB29_54
	incq	%r12
	movq	%r15, %rsi
	incq	%r15
	cmpq	%r15, %rbp
	jne	.LBB29_16
.LBB29_19:
	movq	8(%rsp), %rdi
	addq	%rsi, %rdi
	movq	144(%rsp), %rax
	subq	%rsi, %rax
	movq	%rax, %rsi
	callq	"sq_feed::tables::is_frame_cell"
	testb	%al, %al
	jne	.LBB29_54
.LBB29_21:
	pxor	%xmm0, %xmm0
	movdqa	%xmm0, 64(%rsp)
	movdqa	%xmm0, 48(%rsp)
	movdqa	%xmm0, 32(%rsp)
	movdqa	%xmm0, 16(%rsp)
	movq	$0, 80(%rsp)
	testq	%rbx, %rbx
	je	.LBB29_48
.LBB29_22:
	xorl	%r15d, %r15d
	jmp	.LBB29_25
.LBB29_23:
	movb	$1, 80(%rsp)
	.p2align	4
.LBB29_24:
	incq	%r15
	cmpq	%r15, %rbx
	je	.LBB29_45
.LBB29_25:
	movzbl	(%r14,%r15), %eax
	pxor	%xmm0, %xmm0
	movdqa	%xmm0, 128(%rsp)
	movdqa	%xmm0, 112(%rsp)
	movdqa	%xmm0, 96(%rsp)
	movzbl	%al, %ecx
	leal	-10(%rcx), %edx
	cmpl	$54, %edx
	ja	.LBB29_28
	leaq	.LJTI29_0(%rip), %rcx
	movslq	(%rcx,%rdx,4), %rdx
	addq	%rcx, %rdx
	jmpq	*%rdx
.LBB29_27:
	movb	$1, %cl
	xorl	%eax, %eax
	jmp	.LBB29_40
	.p2align	4
.LBB29_28:
	addl	$-187, %ecx
	cmpl	$52, %ecx
	ja	.LBB29_32
	movabsq	$4503599627370513, %rdx
	btq	%rcx, %rdx
	jae	.LBB29_32
.LBB29_30:
	movb	$2, %al
	jmp	.LBB29_39
.LBB29_31:
	xorl	%eax, %eax
	jmp	.LBB29_39
.LBB29_32:
	testb	$1, 80(%rsp)
	jne	.LBB29_24
	cmpb	$48, %al
	jb	.LBB29_23
	cmpb	$58, %al
	jae	.LBB29_43
.LBB29_35:
	movq	72(%rsp), %rcx
	cmpq	$41, %rcx
	ja	.LBB29_23
	movb	%al, 24(%rsp,%rcx)
	incq	%rcx
	movq	%rcx, 72(%rsp)
	jmp	.LBB29_24
.LBB29_37:
	movb	$2, %cl
	xorl	%eax, %eax
	jmp	.LBB29_40
.LBB29_38:
	movb	$1, %al
	.p2align	4
.LBB29_39:
	xorl	%ecx, %ecx
.LBB29_40:
	movzbl	%al, %edx
	movzbl	%cl, %ecx
	leaq	96(%rsp), %rdi
	leaq	16(%rsp), %rsi
	callq	"sq_feed::avr::Avr::close"
	cmpb	$0, 96(%rsp)
	je	.LBB29_24
	cmpb	$0, 104(%rsp)
	jne	.LBB29_24
	cmpb	$0, 128(%rsp)
	je	.LBB29_24
	jmp	.LBB29_47
.LBB29_43:
	cmpb	$65, %al
	jb	.LBB29_23
	cmpb	$71, %al
	setb	%cl
	leal	-97(%rax), %edx
	cmpb	$6, %dl
	setb	%dl
	orb	%cl, %dl
	je	.LBB29_23
	jmp	.LBB29_35
.LBB29_45:
	cmpb	$1, 16(%rsp)
	je	.LBB29_54
	cmpq	$0, 72(%rsp)
	setne	%al
	jmp	.LBB29_50
.LBB29_47:
	movb	$1, %al
	jmp	.LBB29_55
.LBB29_48:
	xorl	%eax, %eax
.LBB29_50:
	pxor	%xmm0, %xmm0
	movdqa	%xmm0, 112(%rsp)
	movdqa	%xmm0, 96(%rsp)
	movq	$0, 128(%rsp)
	testb	$1, 80(%rsp)
	jne	.LBB29_53
	testb	%al, %al
	jne	.LBB29_53
.LBB29_54:
	xorl	%eax, %eax
	jmp	.LBB29_55
.LBB29_53:
	leaq	96(%rsp), %rdi
	leaq	16(%rsp), %rsi
	xorl	%edx, %edx
	callq	"sq_feed::avr::Avr::item_of"
	cmpb	$0, 96(%rsp)
	sete	%cl
	cmpb	$0, 120(%rsp)
	setne	%al
	andb	%cl, %al
.LBB29_55:
	addq	$152, %rsp
	popq	%rbx
	popq	%r12
	popq	%r13
	popq	%r14
	popq	%r15
	popq	%rbp
	retq
.Lfunc_end29:
	.size	"sq_feed::signs::is_framed_line", .Lfunc_end29-"sq_feed::signs::is_framed_line"
	.section	".rodata.sq_feed::signs::is_framed_line","a",@progbits
	.p2align	2, 0x0
.LJTI29_0:
	.long	.LBB29_30-.LJTI29_0
	.long	.LBB29_32-.LJTI29_0
	.long	.LBB29_32-.LJTI29_0
	.long	.LBB29_30-.LJTI29_0
	.long	.LBB29_32-.LJTI29_0
	.long	.LBB29_32-.LJTI29_0
	.long	.LBB29_32-.LJTI29_0
	.long	.LBB29_32-.LJTI29_0
	.long	.LBB29_32-.LJTI29_0
	.long	.LBB29_32-.LJTI29_0
	.long	.LBB29_32-.LJTI29_0
	.long	.LBB29_32-.LJTI29_0
	.long	.LBB29_32-.LJTI29_0
	.long	.LBB29_32-.LJTI29_0
	.long	.LBB29_32-.LJTI29_0
	.long	.LBB29_32-.LJTI29_0
	.long	.LBB29_32-.LJTI29_0
	.long	.LBB29_32-.LJTI29_0
	.long	.LBB29_32-.LJTI29_0
	.long	.LBB29_32-.LJTI29_0
	.long	.LBB29_32-.LJTI29_0
	.long	.LBB29_32-.LJTI29_0
	.long	.LBB29_32-.LJTI29_0
	.long	.LBB29_32-.LJTI29_0
	.long	.LBB29_32-.LJTI29_0
	.long	.LBB29_32-.LJTI29_0
	.long	.LBB29_32-.LJTI29_0
	.long	.LBB29_27-.LJTI29_0
	.long	.LBB29_32-.LJTI29_0
	.long	.LBB29_32-.LJTI29_0
	.long	.LBB29_32-.LJTI29_0
	.long	.LBB29_32-.LJTI29_0
	.long	.LBB29_31-.LJTI29_0
	.long	.LBB29_32-.LJTI29_0
	.long	.LBB29_32-.LJTI29_0
	.long	.LBB29_32-.LJTI29_0
	.long	.LBB29_32-.LJTI29_0
	.long	.LBB29_32-.LJTI29_0
	.long	.LBB29_32-.LJTI29_0
	.long	.LBB29_32-.LJTI29_0
	.long	.LBB29_32-.LJTI29_0
	.long	.LBB29_32-.LJTI29_0
	.long	.LBB29_32-.LJTI29_0
	.long	.LBB29_32-.LJTI29_0
	.long	.LBB29_32-.LJTI29_0
	.long	.LBB29_32-.LJTI29_0
	.long	.LBB29_32-.LJTI29_0
	.long	.LBB29_32-.LJTI29_0
	.long	.LBB29_31-.LJTI29_0
	.long	.LBB29_38-.LJTI29_0
	.long	.LBB29_37-.LJTI29_0
	.long	.LBB29_32-.LJTI29_0
	.long	.LBB29_32-.LJTI29_0
	.long	.LBB29_32-.LJTI29_0
	.long	.LBB29_27-.LJTI29_0

	.section	.rodata.cst16,"aM",@progbits,16
	.p2align	4, 0x0
.LCPI30_0:
	.zero	16,198
.LCPI30_1:
	.zero	16,6
.LCPI30_2:
	.zero	16,16
.LCPI30_3:
	.zero	16,223
.LCPI30_4:
	.zero	16,64
.LCPI30_5:
	.zero	16,10
.LCPI30_6:
	.zero	16,191
	.section	".text.sq_feed::tables::is_frame_cell","ax",@progbits
	.p2align	4
	.type	"sq_feed::tables::is_frame_cell",@function
"sq_feed::tables::is_frame_cell":
	subq	$24, %rsp
	movabsq	$4294981120, %rcx
	xorl	%edx, %edx
	testq	%rsi, %rsi
	je	.LBB30_5
	.p2align	4
.LBB30_1:
	movzbl	(%rdi,%rdx), %eax
	cmpq	$32, %rax
	ja	.LBB30_5
	btq	%rax, %rcx
	jae	.LBB30_5
	incq	%rdx
	cmpq	%rdx, %rsi
	jne	.LBB30_1
	movq	%rsi, %rdx
.LBB30_5:
	cmpq	%rdx, %rsi
	je	.LBB30_10
	leaq	(%rdi,%rdx), %rax
	movq	%rsi, %r8
	negq	%r8
	movq	%rdx, %r10
	negq	%r10
	leaq	(%rsi,%rdi), %r11
	decq	%r11
	.p2align	4
.LBB30_7:
	movzbl	(%r11), %r9d
	cmpq	$32, %r9
	ja	.LBB30_25
	btq	%r9, %rcx
	jae	.LBB30_25
	incq	%r8
	decq	%r11
	cmpq	%r8, %r10
	jne	.LBB30_7
.LBB30_10:
	xorl	%r8d, %r8d
	testq	%rsi, %rsi
	je	.LBB30_15
	.p2align	4
.LBB30_11:
	movzbl	(%rdi,%r8), %eax
	cmpq	$32, %rax
	ja	.LBB30_15
	btq	%rax, %rcx
	jae	.LBB30_15
	incq	%r8
	cmpq	%r8, %rsi
	jne	.LBB30_11
	movq	%rsi, %r8
.LBB30_15:
	leaq	(%rdi,%r8), %rax
	cmpq	%r8, %rsi
	je	.LBB30_20
	movq	%r8, %rdx
	negq	%rdx
	leaq	(%rsi,%rdi), %r9
	decq	%r9
	negq	%rsi
	.p2align	4
.LBB30_17:
	movzbl	(%r9), %edi
	cmpq	$32, %rdi
	ja	.LBB30_33
	btq	%rdi, %rcx
	jae	.LBB30_33
	incq	%rsi
	decq	%r9
	cmpq	%rsi, %rdx
	jne	.LBB30_17
.LBB30_20:
	xorl	%ecx, %ecx
.LBB30_21:
	pxor	%xmm0, %xmm0
	movdqa	%xmm0, (%rsp)
	movq	%rcx, %rdx
.LBB30_22:
	movq	%rsp, %rdi
.LBB30_23:
	movq	%rax, %rsi
	callq	"sq_feed::avr::frame_of_any"
	cmpb	$0, (%rsp)
	setne	%cl
	cmpb	$0, 1(%rsp)
	setne	%al
	andb	%cl, %al
.LBB30_24:
	addq	$24, %rsp
	retq
.LBB30_25:
	addq	%r8, %rdx
	movq	%rdx, %r8
	negq	%r8
	cmpq	$2, %r8
	jb	.LBB30_10
	movzbl	(%rax), %r10d
	xorb	$34, %r10b
	xorb	$34, %r9b
	movq	$-2, %r11
	subq	%rdx, %r11
	xorl	%edx, %edx
	orb	%r10b, %r9b
	sete	%r9b
	cmoveq	%r11, %r8
	cmpq	$6, %r8
	jne	.LBB30_10
	movb	%r9b, %dl
	movzbl	(%rax,%rdx), %r8d
	leal	-65(%r8), %r9d
	leal	32(%r8), %r10d
	cmpb	$26, %r9b
	movzbl	%r10b, %r9d
	cmovael	%r8d, %r9d
	cmpb	$114, %r9b
	jne	.LBB30_10
	movzbl	1(%rax,%rdx), %r8d
	leal	-65(%r8), %r9d
	leal	32(%r8), %r10d
	cmpb	$26, %r9b
	movzbl	%r10b, %r9d
	cmovael	%r8d, %r9d
	cmpb	$97, %r9b
	jne	.LBB30_10
	movzbl	2(%rax,%rdx), %r8d
	leal	-65(%r8), %r9d
	leal	32(%r8), %r10d
	cmpb	$26, %r9b
	movzbl	%r10b, %r9d
	cmovael	%r8d, %r9d
	cmpb	$119, %r9b
	jne	.LBB30_10
	movzbl	3(%rax,%rdx), %r8d
	leal	-65(%r8), %r9d
	leal	32(%r8), %r10d
	cmpb	$26, %r9b
	movzbl	%r10b, %r9d
	cmovael	%r8d, %r9d
	cmpb	$109, %r9b
	jne	.LBB30_10
	movzbl	4(%rax,%rdx), %r8d
	leal	-65(%r8), %r9d
	leal	32(%r8), %r10d
	cmpb	$26, %r9b
	movzbl	%r10b, %r9d
	cmovael	%r8d, %r9d
	cmpb	$115, %r9b
	jne	.LBB30_10
	movzbl	5(%rax,%rdx), %eax
	leal	-65(%rax), %edx
	leal	32(%rax), %r8d
	cmpb	$26, %dl
	movzbl	%r8b, %edx
	cmovael	%eax, %edx
	movb	$1, %al
	cmpb	$103, %dl
	jne	.LBB30_10
	jmp	.LBB30_24
.LBB30_33:
	addq	%rsi, %r8
	movq	%r8, %rdx
	negq	%rdx
	movl	$1, %ecx
	cmpq	$2, %rdx
	jb	.LBB30_21
	movzbl	(%rax), %ecx
	xorb	$34, %cl
	xorb	$34, %dil
	movq	$-2, %rsi
	subq	%r8, %rsi
	xorl	%r8d, %r8d
	orb	%cl, %dil
	sete	%r8b
	cmoveq	%rsi, %rdx
	addq	%r8, %rax
	pxor	%xmm0, %xmm0
	movdqa	%xmm0, (%rsp)
	cmpq	$28, %rdx
	jne	.LBB30_22
	movdqa	.LCPI30_0(%rip), %xmm2
	movdqu	(%rax), %xmm1
	movdqu	12(%rax), %xmm0
	movdqa	%xmm1, %xmm4
	paddb	%xmm2, %xmm4
	movdqa	.LCPI30_1(%rip), %xmm5
	psubusb	%xmm5, %xmm4
	movdqa	.LCPI30_2(%rip), %xmm3
	paddb	%xmm3, %xmm4
	movdqa	.LCPI30_3(%rip), %xmm6
	pand	%xmm6, %xmm1
	movdqa	.LCPI30_4(%rip), %xmm7
	movdqa	%xmm7, %xmm8
	psubb	%xmm1, %xmm8
	movdqa	.LCPI30_5(%rip), %xmm9
	pminub	%xmm9, %xmm8
	movdqa	.LCPI30_6(%rip), %xmm10
	paddb	%xmm10, %xmm1
	paddb	%xmm8, %xmm1
	pminub	%xmm4, %xmm1
	paddb	%xmm0, %xmm2
	psubusb	%xmm5, %xmm2
	paddb	%xmm3, %xmm2
	pand	%xmm6, %xmm0
	psubb	%xmm0, %xmm7
	pminub	%xmm9, %xmm7
	paddb	%xmm10, %xmm0
	paddb	%xmm7, %xmm0
	pminub	%xmm2, %xmm0
	por	%xmm1, %xmm0
	pmaxub	%xmm0, %xmm3
	pcmpeqb	%xmm0, %xmm3
	pmovmskb	%xmm3, %ecx
	testl	%ecx, %ecx
	je	.LBB30_38
	movq	%rsp, %rdi
	movl	$28, %edx
	jmp	.LBB30_23
.LBB30_38:
	movb	$1, %al
	addq	$24, %rsp
	retq
.Lfunc_end30:
	.size	"sq_feed::tables::is_frame_cell", .Lfunc_end30-"sq_feed::tables::is_frame_cell"

	.section	".text.sq_feed::avr::Avr::close","ax",@progbits
	.p2align	4
	.type	"sq_feed::avr::Avr::close",@function
"sq_feed::avr::Avr::close":
	pushq	%rbp
	pushq	%r15
	pushq	%r14
	pushq	%rbx
	subq	$136, %rsp
	movq	$0, 38(%rsp)
	movq	$0, 32(%rsp)
	xorps	%xmm0, %xmm0
	movaps	%xmm0, 96(%rsp)
	movaps	%xmm0, 112(%rsp)
	movq	$0, 128(%rsp)
	cmpb	$1, (%rsi)
	jne	.LBB31_6
	testb	%dl, %dl
	je	.LBB31_4
	movzbl	%dl, %eax
	cmpl	$2, %eax
	jne	.LBB31_3
.LBB31_4:
	movq	$0, 6(%rsp)
	movq	$0, (%rsp)
	movb	$1, %al
	xorl	%r8d, %r8d
	xorl	%r11d, %r11d
	xorl	%r9d, %r9d
	xorl	%r10d, %r10d
	jmp	.LBB31_5
.LBB31_6:
	testb	%dl, %dl
	je	.LBB31_14
	movzbl	%dl, %eax
	cmpl	$2, %eax
	jne	.LBB31_8
	movq	$0, (%rsp)
	movq	$0, 6(%rsp)
	movaps	%xmm0, 48(%rsp)
	movaps	%xmm0, 64(%rsp)
	movq	$0, 80(%rsp)
	cmpb	$0, 64(%rsi)
	jne	.LBB31_12
	cmpq	$0, 56(%rsi)
	je	.LBB31_11
.LBB31_12:
	leaq	48(%rsp), %rax
	movq	%rdi, %r14
	movq	%rax, %rdi
	movq	%rsi, %rbx
	movl	%edx, %ebp
	xorl	%edx, %edx
	movl	%ecx, %r15d
	callq	"sq_feed::avr::Avr::item_of"
	movl	%ebp, %edx
	movl	%r15d, %ecx
	movq	%rbx, %rsi
	movq	%r14, %rdi
	movzbl	48(%rsp), %eax
	movzbl	49(%rsp), %r8d
	movzbl	56(%rsp), %r11d
	movq	64(%rsp), %r9
	movzbl	72(%rsp), %r10d
	movq	73(%rsp), %rbx
	movq	%rbx, (%rsp)
	movq	79(%rsp), %rbx
	movq	%rbx, 6(%rsp)
	movb	$1, %bl
.LBB31_13:
	movq	(%rsp), %r14
	movq	6(%rsp), %r15
	movq	%r15, 22(%rsp)
	movq	%r14, 16(%rsp)
	jmp	.LBB31_19
.LBB31_14:
	cmpb	$0, 64(%rsi)
	jne	.LBB31_17
	cmpq	$0, 56(%rsi)
	je	.LBB31_16
.LBB31_17:
	movb	$1, %al
.LBB31_18:
	movq	$0, 22(%rsp)
	movq	$0, 16(%rsp)
	xorl	%r8d, %r8d
	xorl	%r11d, %r11d
	xorl	%r9d, %r9d
	xorl	%r10d, %r10d
	movl	%eax, %ebx
	jmp	.LBB31_19
.LBB31_3:
	movl	%edx, %ebp
	movl	%ecx, %r14d
	movq	%rdi, %r15
	movzbl	1(%rsi), %edx
	leaq	96(%rsp), %rdi
	movq	%rsi, %rbx
	callq	"sq_feed::avr::Avr::item_of"
	movq	%rbx, %rsi
	movzbl	96(%rsp), %eax
	movzbl	97(%rsp), %r8d
	movzbl	104(%rsp), %r11d
	movq	112(%rsp), %r9
	movzbl	120(%rsp), %r10d
	movq	121(%rsp), %rcx
	movq	%rcx, (%rsp)
	movq	127(%rsp), %rcx
	movq	%rcx, 6(%rsp)
	movq	%r15, %rdi
	movl	%r14d, %ecx
	movl	%ebp, %edx
.LBB31_5:
	movq	(%rsp), %rbx
	movq	6(%rsp), %r14
	movq	%r14, 54(%rsp)
	movq	%rbx, 48(%rsp)
	movl	$1, %ebx
	jmp	.LBB31_20
.LBB31_8:
	movq	$0, 22(%rsp)
	movq	$0, 16(%rsp)
	movb	$1, %al
	xorl	%r8d, %r8d
	xorl	%r11d, %r11d
	xorl	%r9d, %r9d
	xorl	%r10d, %r10d
	movb	$1, %bl
.LBB31_19:
	movq	16(%rsp), %r14
	movq	22(%rsp), %r15
	movq	%r15, 54(%rsp)
	movq	%r14, 48(%rsp)
	movzbl	%bl, %ebx
.LBB31_20:
	movzbl	%r11b, %r11d
	movq	48(%rsp), %r14
	movq	54(%rsp), %r15
	movq	%r15, 38(%rsp)
	xorl	%ebp, %ebp
	testb	%dl, %dl
	movzbl	%cl, %ecx
	cmovnel	%ebp, %ecx
	movq	%r14, 32(%rsp)
	sete	(%rsi)
	movb	%cl, 1(%rsi)
	xorps	%xmm0, %xmm0
	movups	%xmm0, 8(%rsi)
	movups	%xmm0, 24(%rsi)
	movups	%xmm0, 40(%rsi)
	movups	%xmm0, 49(%rsi)
	movq	%rbx, (%rdi)
	movb	%al, 8(%rdi)
	movb	%r8b, 9(%rdi)
	movq	%r11, 16(%rdi)
	movq	%r9, 24(%rdi)
	movb	%r10b, 32(%rdi)
	movq	32(%rsp), %rax
	movq	38(%rsp), %rcx
	movq	%rax, 33(%rdi)
	movq	%rcx, 39(%rdi)
	addq	$136, %rsp
	popq	%rbx
	popq	%r14
	popq	%r15
	popq	%rbp
	retq
.LBB31_11:
	xorl	%ebx, %ebx
	xorl	%eax, %eax
	xorl	%r8d, %r8d
	xorl	%r11d, %r11d
	xorl	%r9d, %r9d
	xorl	%r10d, %r10d
	jmp	.LBB31_13
.LBB31_16:
	xorl	%eax, %eax
	jmp	.LBB31_18
.Lfunc_end31:
	.size	"sq_feed::avr::Avr::close", .Lfunc_end31-"sq_feed::avr::Avr::close"

	.section	".text.core::cmp::slices::groups_equal::<i8,31'core::cmp::numbers::U8PartialEq{}>","ax",@progbits
	.p2align	4
	.type	"core::cmp::slices::groups_equal::<i8,31'core::cmp::numbers::U8PartialEq{}>",@function
"core::cmp::slices::groups_equal::<i8,31'core::cmp::numbers::U8PartialEq{}>":
	cmpq	$8, %rsi
	ja	.LBB32_2
	movd	-4(%rdi,%rsi), %xmm0
	movd	(%rdi), %xmm1
	punpckldq	%xmm0, %xmm1
	movd	-4(%rdx,%rsi), %xmm0
	movd	(%rdx), %xmm2
	punpckldq	%xmm0, %xmm2
	movq	%xmm1, %rax
	movq	%xmm2, %rcx
	cmpq	%rcx, %rax
	jmp	.LBB32_17
.LBB32_2:
	cmpq	$32, %rsi
	ja	.LBB32_4
	leaq	-8(%rsi), %rax
	cmpq	$8, %rax
	movl	$8, %ecx
	cmovbq	%rax, %rcx
	cmpq	$16, %rax
	movl	$16, %r8d
	cmovbq	%rax, %r8
	movq	(%rdi,%rcx), %xmm0
	movq	(%rdi), %xmm1
	punpcklqdq	%xmm0, %xmm1
	movq	(%rdi,%r8), %xmm0
	movq	-8(%rdi,%rsi), %xmm2
	punpcklqdq	%xmm2, %xmm0
	movq	(%rdx,%rcx), %xmm2
	movq	(%rdx), %xmm3
	punpcklqdq	%xmm2, %xmm3
	pcmpeqb	%xmm1, %xmm3
	movq	(%rdx,%r8), %xmm1
	movq	-8(%rdx,%rsi), %xmm2
	punpcklqdq	%xmm2, %xmm1
	pcmpeqb	%xmm0, %xmm1
	pand	%xmm3, %xmm1
	pmovmskb	%xmm1, %eax
	jmp	.LBB32_16
.LBB32_4:
	cmpq	$65, %rsi
	jae	.LBB32_5
	movdqu	(%rdi), %xmm0
	movdqu	16(%rdi), %xmm1
	movdqu	(%rdx), %xmm2
	pcmpeqb	%xmm0, %xmm2
	movdqu	16(%rdx), %xmm0
	pcmpeqb	%xmm1, %xmm0
	movdqu	-32(%rdi,%rsi), %xmm1
	movdqu	-16(%rdi,%rsi), %xmm3
	movdqu	-32(%rdx,%rsi), %xmm4
	pcmpeqb	%xmm1, %xmm4
	pand	%xmm2, %xmm4
	movdqu	-16(%rdx,%rsi), %xmm1
	pcmpeqb	%xmm3, %xmm1
	pand	%xmm0, %xmm1
	pand	%xmm4, %xmm1
	pmovmskb	%xmm1, %eax
	jmp	.LBB32_16
.LBB32_5:
	xorl	%eax, %eax
	movq	%rsi, %rcx
	.p2align	4
.LBB32_6:
	movdqu	(%rdi,%rax), %xmm0
	movdqu	16(%rdi,%rax), %xmm1
	movdqu	32(%rdi,%rax), %xmm2
	movdqu	48(%rdi,%rax), %xmm3
	movdqu	(%rdx,%rax), %xmm4
	pcmpeqb	%xmm0, %xmm4
	movdqu	16(%rdx,%rax), %xmm0
	pcmpeqb	%xmm1, %xmm0
	movdqu	32(%rdx,%rax), %xmm1
	pcmpeqb	%xmm2, %xmm1
	pand	%xmm4, %xmm1
	movdqu	48(%rdx,%rax), %xmm2
	pcmpeqb	%xmm3, %xmm2
	pand	%xmm0, %xmm2
	pand	%xmm1, %xmm2
	pmovmskb	%xmm2, %r8d
	cmpl	$65535, %r8d
	jne	.LBB32_8
	addq	$64, %rax
	addq	$-64, %rcx
	cmpq	$63, %rcx
	ja	.LBB32_6
.LBB32_8:
	cmpq	$32, %rcx
	jb	.LBB32_15
	movq	%rsi, %rcx
	subq	%rax, %rcx
	.p2align	4
.LBB32_10:
	movdqu	(%rdi,%rax), %xmm0
	movdqu	16(%rdi,%rax), %xmm1
	movdqu	(%rdx,%rax), %xmm2
	pcmpeqb	%xmm0, %xmm2
	movdqu	16(%rdx,%rax), %xmm0
	pcmpeqb	%xmm1, %xmm0
	pand	%xmm2, %xmm0
	pmovmskb	%xmm0, %r8d
	xorl	$65535, %r8d
	jne	.LBB32_14
	addq	$32, %rax
	addq	$-32, %rcx
	cmpq	$32, %rcx
	jae	.LBB32_10
	jmp	.LBB32_15
.LBB32_14:
	movb	$1, %al
	cmpq	$31, %rcx
	ja	.LBB32_18
.LBB32_15:
	movdqu	-32(%rdi,%rsi), %xmm0
	movdqu	-16(%rdi,%rsi), %xmm1
	movdqu	-32(%rdx,%rsi), %xmm2
	pcmpeqb	%xmm0, %xmm2
	movdqu	-16(%rdx,%rsi), %xmm0
	pcmpeqb	%xmm1, %xmm0
	pand	%xmm2, %xmm0
	pmovmskb	%xmm0, %eax
.LBB32_16:
	xorl	$65535, %eax
.LBB32_17:
	setne	%al
.LBB32_18:
	xorb	$1, %al
	retq
.Lfunc_end32:
	.size	"core::cmp::slices::groups_equal::<i8,31'core::cmp::numbers::U8PartialEq{}>", .Lfunc_end32-"core::cmp::slices::groups_equal::<i8,31'core::cmp::numbers::U8PartialEq{}>"

	.section	.rodata.cst16,"aM",@progbits,16
	.p2align	4, 0x0
.LCPI33_0:
	.zero	16,26
.LCPI33_1:
	.zero	16,10
.LCPI33_2:
	.zero	16,198
.LCPI33_3:
	.zero	16,6
.LCPI33_4:
	.zero	16,16
.LCPI33_5:
	.zero	16,223
.LCPI33_6:
	.zero	16,64
.LCPI33_7:
	.zero	16,191
.LCPI33_8:
	.short	255
	.short	255
	.short	255
	.short	255
	.short	255
	.short	255
	.short	255
	.short	255
.LCPI33_9:
	.zero	16,240
.LCPI33_10:
	.zero	16,245
.LCPI33_11:
	.zero	16,44
.LCPI33_12:
	.byte	255
	.byte	255
	.byte	255
	.byte	255
	.byte	255
	.byte	0
	.byte	0
	.byte	0
	.byte	0
	.byte	0
	.byte	0
	.byte	0
	.byte	0
	.byte	0
	.byte	0
	.byte	0
	.section	".text.squitter_c::feed_take::take_by","ax",@progbits
	.p2align	4
	.type	"squitter_c::feed_take::take_by",@function
"squitter_c::feed_take::take_by":
	pushq	%rbp
	pushq	%r15
	pushq	%r14
	pushq	%r13
	pushq	%r12
	pushq	%rbx
	subq	$424, %rsp
	movq	%r9, %r13
	movq	%r8, 264(%rsp)
	movq	%rcx, 8(%rsp)
	movq	%rdx, 280(%rsp)
	movq	%rsi, 272(%rsp)
	movq	%rdi, %rbp
	movq	488(%rsp), %rax
	cmpq	%r9, %rax
	cmovbq	%rax, %r13
	pxor	%xmm0, %xmm0
	movdqa	%xmm0, 32(%rsp)
	movq	$0, 48(%rsp)
	movq	$0, 200(%rsp)
	xorl	%r15d, %r15d
	movq	%r13, 120(%rsp)
	jmp	.LBB33_3
.LBB33_1:
	leaq	32(%rsp), %rsi
	movq	%rbp, %rdi
	callq	"sq_feed::feed::Feed::step_ready"
.LBB33_2:
	movq	32(%rsp), %rax
	movq	264(%rsp), %rcx
	movq	200(%rsp), %rdi
	movq	%rax, (%rcx,%rdi,8)
	movq	%rdi, %rcx
	shlq	$4, %rcx
	subq	%rdi, %rcx
	subq	%rdi, %rcx
	leaq	40(%rsp), %rdx
	movq	(%rdx), %rax
	movq	6(%rdx), %rdx
	movq	480(%rsp), %rsi
	movq	%rdx, 6(%rsi,%rcx)
	movq	%rax, (%rsi,%rcx)
	incq	%rdi
	movq	%rdi, 200(%rsp)
	.p2align	4
.LBB33_3:
	movq	280(%rsp), %rbx
	movb	$1, %al
	subq	%r15, %rbx
	jne	.LBB33_6
	movzbl	2(%rbp), %ecx
	addb	$-2, %cl
	cmpb	$3, %cl
	jb	.LBB33_6
	cmpq	$0, 17696(%rbp)
	setne	%al
	.p2align	4
.LBB33_6:
	testb	%al, %al
	je	.LBB33_319
	cmpq	%r13, 200(%rsp)
	jae	.LBB33_319
	cmpq	$0, 17696(%rbp)
	jne	.LBB33_1
	movq	272(%rsp), %rax
	leaq	(%rax,%r15), %r12
	cmpb	$1, 2(%rbp)
	jne	.LBB33_117
	movzbl	16480(%rbp), %eax
	testl	%eax, %eax
	je	.LBB33_21
	movq	$0, 16(%rsp)
	movl	$0, 24(%rsp)
	movl	%eax, %eax
	leaq	.LJTI33_1(%rip), %rcx
	movslq	(%rcx,%rax,4), %rax
	addq	%rcx, %rax
	jmpq	*%rax
.LBB33_12:
	cmpb	$1, 16536(%rbp)
	je	.LBB33_117
	cmpb	$0, 16600(%rbp)
	jne	.LBB33_117
	testq	%rbx, %rbx
	je	.LBB33_117
	cmpq	$0, 16592(%rbp)
	jne	.LBB33_117
	movzbl	(%r12), %edx
	cmpl	$13, %edx
	je	.LBB33_18
	cmpl	$10, %edx
	jne	.LBB33_44
.LBB33_18:
	cmpq	$1, %rbx
	je	.LBB33_117
	movzbl	1(%r12), %eax
	cmpb	$10, %al
	sete	%cl
	cmpb	$13, %al
	sete	%al
	orb	%cl, %al
	movzbl	%al, %r14d
	incq	%r14
	movq	%rbx, %rcx
	subq	%r14, %rcx
	je	.LBB33_117
	leaq	(%r12,%r14), %rax
	movzbl	(%r12,%r14), %edx
	jmp	.LBB33_45
.LBB33_21:
	cmpb	$1, 16488(%rbp)
	je	.LBB33_23
	cmpb	$0, 16528(%rbp)
	je	.LBB33_24
.LBB33_23:
	movq	$0, 16(%rsp)
	movl	$0, 24(%rsp)
	jmp	.LBB33_117
.LBB33_24:
	cmpq	$2, %rbx
	jb	.LBB33_30
	cmpb	$26, (%r12)
	jne	.LBB33_30
	movzbl	1(%r12), %ecx
	cmpl	$51, %ecx
	je	.LBB33_67
	cmpl	$50, %ecx
	je	.LBB33_63
	cmpl	$49, %ecx
	jne	.LBB33_69
	movl	$9, %ecx
	movb	$1, %dl
	leaq	2(%rcx), %r14
	cmpq	%r14, %rbx
	jae	.LBB33_64
	jmp	.LBB33_68
.LBB33_30:
	movl	$0, 136(%rsp)
	movq	$0, 128(%rsp)
	movl	136(%rsp), %ecx
	movq	128(%rsp), %rdx
	movq	%rdx, 16(%rsp)
	movl	%ecx, 24(%rsp)
	movl	%eax, %eax
	leaq	.LJTI33_1(%rip), %rcx
	movslq	(%rcx,%rax,4), %rax
	addq	%rcx, %rax
	jmpq	*%rax
.LBB33_31:
	cmpb	$0, 17152(%rbp)
	jne	.LBB33_115
	cmpq	$0, 17144(%rbp)
	jne	.LBB33_115
	cmpb	$1, 16608(%rbp)
	jne	.LBB33_35
	leaq	16616(%rbp), %rax
	cmpq	$0, (%rax)
	je	.LBB33_51
.LBB33_35:
	pxor	%xmm0, %xmm0
	movdqa	%xmm0, 64(%rsp)
	movdqa	%xmm0, 80(%rsp)
	movdqa	%xmm0, 96(%rsp)
	cmpq	$512, %rbx
	movl	$512, %ecx
	cmovbq	%rbx, %rcx
	movl	%ecx, %eax
	shrl	$4, %eax
	je	.LBB33_39
	shll	$4, %eax
	xorl	%edx, %edx
	.p2align	4
.LBB33_37:
	movdqu	(%r12,%rdx), %xmm0
	pcmpeqb	.LCPI33_1(%rip), %xmm0
	pmovmskb	%xmm0, %esi
	orl	$65536, %esi
	rep		bsfl	%esi, %esi
	cmpw	$15, %si
	jbe	.LBB33_114
	addq	$16, %rdx
	cmpq	%rdx, %rax
	jne	.LBB33_37
.LBB33_39:
	cmpq	$15, %rbx
	ja	.LBB33_93
	testq	%rbx, %rbx
	je	.LBB33_115
	xorl	%r13d, %r13d
	.p2align	4
.LBB33_42:
	cmpb	$10, (%r12,%r13)
	je	.LBB33_94
	incq	%r13
	pxor	%xmm6, %xmm6
	xorl	%eax, %eax
	movl	$0, %edi
	movl	$0, %esi
	movl	$0, %r11d
	movl	$0, %r14d
	pxor	%xmm1, %xmm1
	pxor	%xmm0, %xmm0
	cmpq	%r13, %rcx
	jne	.LBB33_42
	jmp	.LBB33_98
.LBB33_44:
	xorl	%r14d, %r14d
	movq	%rbx, %rcx
	movq	%r12, %rax
.LBB33_45:
	movzbl	%dl, %edx
	addl	$-37, %edx
	cmpl	$27, %edx
	ja	.LBB33_117
	leaq	.LJTI33_2(%rip), %rsi
	movslq	(%rsi,%rdx,4), %rdx
	addq	%rsi, %rdx
	jmpq	*%rdx
.LBB33_47:
	cmpq	$42, %rcx
	jb	.LBB33_117
	cmpb	$59, 41(%rax)
	jne	.LBB33_117
	movdqa	.LCPI33_2(%rip), %xmm4
	movdqu	1(%rax), %xmm3
	movdqu	17(%rax), %xmm2
	movdqu	25(%rax), %xmm1
	movdqa	%xmm3, %xmm10
	paddb	%xmm4, %xmm10
	movdqa	.LCPI33_3(%rip), %xmm6
	psubusb	%xmm6, %xmm10
	movdqa	.LCPI33_4(%rip), %xmm0
	paddb	%xmm0, %xmm10
	movdqa	.LCPI33_5(%rip), %xmm7
	pand	%xmm7, %xmm3
	movdqa	.LCPI33_6(%rip), %xmm5
	movdqa	%xmm5, %xmm11
	psubb	%xmm3, %xmm11
	movdqa	.LCPI33_1(%rip), %xmm8
	pminub	%xmm8, %xmm11
	movdqa	.LCPI33_7(%rip), %xmm9
	paddb	%xmm9, %xmm3
	paddb	%xmm11, %xmm3
	pminub	%xmm10, %xmm3
	movdqa	%xmm2, %xmm10
	paddb	%xmm4, %xmm10
	psubusb	%xmm6, %xmm10
	paddb	%xmm0, %xmm10
	pand	%xmm7, %xmm2
	movdqa	%xmm5, %xmm11
	psubb	%xmm2, %xmm11
	pminub	%xmm8, %xmm11
	paddb	%xmm9, %xmm2
	paddb	%xmm11, %xmm2
	pminub	%xmm10, %xmm2
	paddb	%xmm1, %xmm4
	psubusb	%xmm6, %xmm4
	paddb	%xmm0, %xmm4
	pand	%xmm7, %xmm1
	psubb	%xmm1, %xmm5
	pminub	%xmm8, %xmm5
	paddb	%xmm9, %xmm1
	paddb	%xmm5, %xmm1
	pminub	%xmm4, %xmm1
	movdqa	%xmm2, %xmm4
	por	%xmm3, %xmm4
	movdqa	%xmm4, %xmm5
	pmaxub	%xmm0, %xmm5
	pcmpeqb	%xmm4, %xmm5
	pmaxub	%xmm1, %xmm0
	pcmpeqb	%xmm1, %xmm0
	por	%xmm5, %xmm0
	pmovmskb	%xmm0, %eax
	testl	%eax, %eax
	jne	.LBB33_117
	movdqa	.LCPI33_8(%rip), %xmm4
	movdqa	%xmm3, %xmm0
	pand	%xmm4, %xmm0
	packuswb	%xmm0, %xmm0
	psrlw	$8, %xmm3
	packuswb	%xmm3, %xmm3
	psllw	$4, %xmm0
	movdqa	.LCPI33_9(%rip), %xmm5
	pand	%xmm5, %xmm0
	por	%xmm3, %xmm0
	movdqa	%xmm2, %xmm6
	pand	%xmm4, %xmm6
	packuswb	%xmm6, %xmm6
	psrlw	$8, %xmm2
	packuswb	%xmm2, %xmm2
	psllw	$4, %xmm6
	pand	%xmm5, %xmm6
	por	%xmm2, %xmm6
	pand	%xmm1, %xmm4
	packuswb	%xmm4, %xmm4
	movdqa	%xmm0, %xmm2
	psrlq	$16, %xmm2
	movd	%xmm2, %eax
	shlq	$32, %rax
	movdqa	%xmm0, %xmm2
	pslldq	$14, %xmm2
	psrldq	$14, %xmm2
	psllq	$16, %xmm2
	pxor	%xmm3, %xmm3
	movq	%xmm2, %rsi
	orq	%rax, %rsi
	bswapq	%rsi
	punpckhbw	%xmm3, %xmm1
	pshuflw	$231, %xmm1, %xmm1
	pshufhw	$231, %xmm1, %xmm1
	pshufd	$232, %xmm1, %xmm1
	pshuflw	$177, %xmm1, %xmm1
	packuswb	%xmm1, %xmm1
	pshufd	$85, %xmm4, %xmm2
	psllw	$4, %xmm2
	pand	.LCPI33_9(%rip), %xmm2
	por	%xmm1, %xmm2
	movdqa	%xmm2, %xmm1
	psrlq	$48, %xmm0
	movb	$1, %dil
	addq	$42, %r14
	jmp	.LBB33_100
.LBB33_51:
	cmpq	$73, %rbx
	jb	.LBB33_35
	cmpq	$2, 16624(%rbp)
	jne	.LBB33_35
	movdqu	(%r12), %xmm0
	movdqa	%xmm0, 160(%rsp)
	cmpb	$46, 170(%rsp)
	jne	.LBB33_35
	paddb	.LCPI33_2(%rip), %xmm0
	movdqa	.LCPI33_10(%rip), %xmm1
	pminub	%xmm0, %xmm1
	pcmpeqb	%xmm0, %xmm1
	pmovmskb	%xmm1, %eax
	andl	$2047, %eax
	movzwl	%ax, %eax
	cmpl	$1024, %eax
	jne	.LBB33_35
	movdqu	11(%r12), %xmm0
	paddb	.LCPI33_2(%rip), %xmm0
	movdqa	.LCPI33_10(%rip), %xmm1
	pminub	%xmm0, %xmm1
	pcmpeqb	%xmm0, %xmm1
	pmovmskb	%xmm1, %eax
	testl	%eax, %eax
	je	.LBB33_35
	leaq	11(%r12), %rdi
	rep		bsfl	%eax, %r13d
	cmpb	$44, (%rdi,%r13)
	jne	.LBB33_35
	leaq	(%rdi,%r13), %rdx
	cmpb	$34, 1(%rdx)
	je	.LBB33_35
	incq	%rdx
	movdqu	(%rdx), %xmm0
	movdqa	.LCPI33_11(%rip), %xmm1
	pcmpeqb	%xmm0, %xmm1
	pmovmskb	%xmm1, %eax
	testl	%eax, %eax
	je	.LBB33_35
	pcmpeqb	.LCPI33_1(%rip), %xmm0
	rep		bsfl	%eax, %eax
	pmovmskb	%xmm0, %ecx
	orl	$65536, %ecx
	rep		bsfl	%ecx, %ecx
	xorl	%r14d, %r14d
	cmpw	%ax, %cx
	cmovael	%eax, %r14d
	jb	.LBB33_35
	movzbl	160(%rsp), %ecx
	movzbl	161(%rsp), %eax
	movzbl	162(%rsp), %r11d
	movzbl	163(%rsp), %r10d
	movzbl	164(%rsp), %r9d
	movzbl	165(%rsp), %r8d
	movzbl	166(%rsp), %esi
	movb	%sil, 31(%rsp)
	movzbl	167(%rsp), %esi
	movb	%sil, 240(%rsp)
	movzbl	168(%rsp), %esi
	movb	%sil, 176(%rsp)
	movzbl	169(%rsp), %esi
	movb	%sil, 224(%rsp)
	movzbl	29(%rdx,%r14), %esi
	cmpl	$10, %esi
	je	.LBB33_272
	cmpl	$13, %esi
	jne	.LBB33_35
	movl	$2, %esi
	cmpb	$10, 30(%rdx,%r14)
	jne	.LBB33_35
	jmp	.LBB33_273
.LBB33_63:
	xorl	%edx, %edx
	movl	$14, %ecx
	leaq	2(%rcx), %r14
	cmpq	%r14, %rbx
	jb	.LBB33_68
.LBB33_64:
	xorl	%esi, %esi
	.p2align	4
.LBB33_65:
	cmpq	%rsi, %rcx
	je	.LBB33_74
	cmpb	$26, 2(%r12,%rsi)
	leaq	1(%rsi), %rsi
	jne	.LBB33_65
	jmp	.LBB33_79
.LBB33_67:
	cmpq	$23, %rbx
	jae	.LBB33_77
.LBB33_68:
	movl	$0, 136(%rsp)
	movq	$0, 128(%rsp)
	movl	136(%rsp), %ecx
	movq	128(%rsp), %rdx
	movq	%rdx, 16(%rsp)
	movl	%ecx, 24(%rsp)
	movl	%eax, %eax
	leaq	.LJTI33_1(%rip), %rcx
	movslq	(%rcx,%rax,4), %rax
	addq	%rcx, %rax
	jmpq	*%rax
.LBB33_69:
	movl	$0, 136(%rsp)
	movq	$0, 128(%rsp)
	movl	136(%rsp), %ecx
	movq	128(%rsp), %rdx
	movq	%rdx, 16(%rsp)
	movl	%ecx, 24(%rsp)
	movl	%eax, %eax
	leaq	.LJTI33_1(%rip), %rcx
	movslq	(%rcx,%rax,4), %rax
	addq	%rcx, %rax
	jmpq	*%rax
.LBB33_70:
	cmpq	$30, %rcx
	jb	.LBB33_117
	cmpb	$59, 29(%rax)
	jne	.LBB33_117
	movdqa	.LCPI33_2(%rip), %xmm0
	movdqu	1(%rax), %xmm2
	movdqu	13(%rax), %xmm1
	movdqa	%xmm2, %xmm4
	paddb	%xmm0, %xmm4
	movdqa	.LCPI33_3(%rip), %xmm5
	psubusb	%xmm5, %xmm4
	movdqa	.LCPI33_4(%rip), %xmm3
	paddb	%xmm3, %xmm4
	movdqa	.LCPI33_5(%rip), %xmm6
	pand	%xmm6, %xmm2
	movdqa	.LCPI33_6(%rip), %xmm7
	movdqa	%xmm7, %xmm8
	psubb	%xmm2, %xmm8
	movdqa	.LCPI33_1(%rip), %xmm9
	pminub	%xmm9, %xmm8
	movdqa	.LCPI33_7(%rip), %xmm10
	paddb	%xmm10, %xmm2
	paddb	%xmm8, %xmm2
	pminub	%xmm4, %xmm2
	paddb	%xmm1, %xmm0
	psubusb	%xmm5, %xmm0
	paddb	%xmm3, %xmm0
	pand	%xmm6, %xmm1
	psubb	%xmm1, %xmm7
	pminub	%xmm9, %xmm7
	paddb	%xmm10, %xmm1
	paddb	%xmm7, %xmm1
	pminub	%xmm0, %xmm1
	movdqa	%xmm1, %xmm0
	por	%xmm2, %xmm0
	pmaxub	%xmm0, %xmm3
	pcmpeqb	%xmm0, %xmm3
	pmovmskb	%xmm3, %eax
	testl	%eax, %eax
	jne	.LBB33_117
	movdqa	.LCPI33_8(%rip), %xmm3
	movdqa	%xmm2, %xmm0
	pand	%xmm3, %xmm0
	packuswb	%xmm0, %xmm0
	psrlw	$8, %xmm2
	packuswb	%xmm2, %xmm2
	psllw	$4, %xmm0
	movdqa	.LCPI33_9(%rip), %xmm4
	pand	%xmm4, %xmm0
	por	%xmm2, %xmm0
	pand	%xmm1, %xmm3
	packuswb	%xmm3, %xmm3
	psrlw	$8, %xmm1
	packuswb	%xmm1, %xmm1
	psllw	$4, %xmm3
	pand	%xmm4, %xmm3
	por	%xmm1, %xmm3
	movdqa	%xmm0, %xmm1
	punpcklwd	%xmm3, %xmm1
	pshufhw	$232, %xmm1, %xmm1
	pshufd	$230, %xmm1, %xmm1
	pshuflw	$210, %xmm1, %xmm6
	pshufd	$85, %xmm3, %xmm1
	xorl	%edi, %edi
	addq	$30, %r14
	xorl	%esi, %esi
	jmp	.LBB33_100
.LBB33_74:
	movzwl	2(%r12), %eax
	shll	$16, %eax
	movl	4(%r12), %esi
	shlq	$32, %rsi
	orq	%rax, %rsi
	bswapq	%rsi
	addq	$-7, %rcx
	movl	$0, 72(%rsp)
	movq	$0, 64(%rsp)
	testb	%dl, %dl
	je	.LBB33_141
	movb	$1, %al
	cmpl	$2, %ecx
	jne	.LBB33_193
	movzwl	9(%r12), %edi
	movl	$11, %r14d
	xorl	%r8d, %r8d
	jmp	.LBB33_204
.LBB33_77:
	movdqu	2(%r12), %xmm0
	movdqa	.LCPI33_0(%rip), %xmm1
	pcmpeqb	%xmm0, %xmm1
	pmovmskb	%xmm1, %ecx
	testl	%ecx, %ecx
	jne	.LBB33_79
	movdqu	7(%r12), %xmm1
	movdqa	.LCPI33_0(%rip), %xmm2
	pcmpeqb	%xmm1, %xmm2
	pmovmskb	%xmm2, %ecx
	testl	%ecx, %ecx
	je	.LBB33_202
.LBB33_79:
	movl	$0, 136(%rsp)
	movq	$0, 128(%rsp)
	movl	136(%rsp), %ecx
	movq	128(%rsp), %rdx
	movq	%rdx, 16(%rsp)
	movl	%ecx, 24(%rsp)
	movl	%eax, %eax
	leaq	.LJTI33_1(%rip), %rcx
	movslq	(%rcx,%rax,4), %rax
	addq	%rcx, %rax
	jmpq	*%rax
.LBB33_80:
	pxor	%xmm0, %xmm0
	movdqa	%xmm0, 64(%rsp)
	movdqa	%xmm0, 80(%rsp)
	movdqa	%xmm0, 96(%rsp)
	cmpb	$0, 17152(%rbp)
	je	.LBB33_82
	xorl	%eax, %eax
	xorl	%edi, %edi
	xorl	%esi, %esi
	xorl	%r11d, %r11d
	xorl	%r14d, %r14d
	pxor	%xmm6, %xmm6
	pxor	%xmm1, %xmm1
	testb	%al, %al
	movq	120(%rsp), %r13
	jne	.LBB33_99
	jmp	.LBB33_117
.LBB33_82:
	cmpq	$0, 17144(%rbp)
	je	.LBB33_84
	pxor	%xmm6, %xmm6
	xorl	%eax, %eax
	xorl	%edi, %edi
	xorl	%esi, %esi
	xorl	%r11d, %r11d
	xorl	%r14d, %r14d
	pxor	%xmm1, %xmm1
	testb	%al, %al
	movq	120(%rsp), %r13
	jne	.LBB33_99
	jmp	.LBB33_117
.LBB33_84:
	cmpq	$512, %rbx
	movl	$512, %ecx
	cmovbq	%rbx, %rcx
	movl	%ecx, %eax
	shrl	$4, %eax
	je	.LBB33_88
	shll	$4, %eax
	xorl	%edx, %edx
	.p2align	4
.LBB33_86:
	movdqu	(%r12,%rdx), %xmm0
	pcmpeqb	.LCPI33_1(%rip), %xmm0
	pmovmskb	%xmm0, %esi
	orl	$65536, %esi
	rep		bsfl	%esi, %esi
	cmpw	$15, %si
	jbe	.LBB33_114
	addq	$16, %rdx
	cmpq	%rdx, %rax
	jne	.LBB33_86
.LBB33_88:
	cmpq	$15, %rbx
	ja	.LBB33_93
	testq	%rbx, %rbx
	je	.LBB33_115
	xorl	%r13d, %r13d
	.p2align	4
.LBB33_91:
	cmpb	$10, (%r12,%r13)
	je	.LBB33_94
	incq	%r13
	pxor	%xmm6, %xmm6
	xorl	%eax, %eax
	movl	$0, %edi
	movl	$0, %esi
	movl	$0, %r11d
	movl	$0, %r14d
	pxor	%xmm1, %xmm1
	pxor	%xmm0, %xmm0
	cmpq	%r13, %rcx
	jne	.LBB33_91
	jmp	.LBB33_98
.LBB33_93:
	movdqu	-16(%r12,%rcx), %xmm0
	pcmpeqb	.LCPI33_1(%rip), %xmm0
	pmovmskb	%xmm0, %eax
	orl	$65536, %eax
	rep		bsfl	%eax, %eax
	cmpw	$16, %ax
	leaq	-16(%rcx,%rax), %r13
	cmovaeq	%rcx, %r13
.LBB33_94:
	cmpq	%r13, %rcx
	jbe	.LBB33_115
.LBB33_95:
	movzbl	16608(%rbp), %eax
	movq	%rax, 128(%rsp)
	leaq	16616(%rbp), %rax
	movdqu	(%rax), %xmm0
	leaq	136(%rsp), %rax
	movdqu	%xmm0, (%rax)
	leaq	64(%rsp), %rdi
	leaq	128(%rsp), %rsi
	movq	%r12, %rdx
	movq	%r13, %rcx
	callq	"sq_feed::rows::row_read"
	xorl	%esi, %esi
	cmpb	$2, 64(%rsp)
	pxor	%xmm6, %xmm6
	movl	$0, %eax
	jne	.LBB33_140
	cmpb	$0, 72(%rsp)
	movl	$0, %edi
	movl	$0, %r11d
	movl	$0, %r14d
	pxor	%xmm1, %xmm1
	pxor	%xmm0, %xmm0
	jne	.LBB33_98
	movzbl	80(%rsp), %edi
	movq	88(%rsp), %rsi
	movzbl	96(%rsp), %r11d
	movzwl	97(%rsp), %eax
	movd	%eax, %xmm0
	movq	99(%rsp), %xmm6
	movd	107(%rsp), %xmm1
	incq	%r13
	movb	$1, %al
	movq	%r13, %r14
.LBB33_98:
	testb	%al, %al
	movq	120(%rsp), %r13
	je	.LBB33_117
.LBB33_99:
	cmpb	$2, %r11b
	jne	.LBB33_107
.LBB33_100:
	movd	%xmm0, %ebx
	movl	%ebx, %eax
	andb	$-8, %al
	cmpb	$-120, %al
	jne	.LBB33_111
	testb	%dil, %dil
	je	.LBB33_127
	movzbl	%dil, %eax
	movb	$17, %r8b
	cmpl	$2, %eax
	jne	.LBB33_128
	cmpb	$2, 17224(%rbp)
	jne	.LBB33_146
	cmpb	$0, 17256(%rbp)
	jne	.LBB33_146
	movq	17312(%rbp), %rax
	addq	%rsi, %rax
	movq	$-1, %rdx
	cmovaeq	%rax, %rdx
	movq	17208(%rbp), %rax
	movq	%rax, %rcx
	subq	%rdx, %rcx
	jbe	.LBB33_143
	movq	17200(%rbp), %r9
	cmpq	$1001, %r9
	movl	$1000, %r10d
	cmovaeq	%r9, %r10
	cmpq	%r10, %rcx
	ja	.LBB33_146
	jmp	.LBB33_264
.LBB33_107:
	testb	%r11b, %r11b
	je	.LBB33_113
	movd	%xmm0, %ebx
	xorl	%r8d, %r8d
	testb	%bl, %bl
	js	.LBB33_112
	movzbl	17329(%rbp), %ecx
	movl	%ebx, %eax
	shrb	$3, %al
	cmpb	$1, %dil
	sete	%dl
	movabsq	$280376761925972, %r9
	cmpq	%r9, %rsi
	sete	%r9b
	movzbl	%al, %eax
	testb	%cl, %cl
	cmovnel	%r8d, %eax
	testb	%r9b, %dl
	cmovnel	%r8d, %eax
	je	.LBB33_119
	movb	$3, %dl
	xorl	%eax, %eax
	movq	17336(%rbp), %rcx
	cmpq	$-1, %rcx
	jne	.LBB33_121
	jmp	.LBB33_182
.LBB33_111:
	testb	%bl, %bl
	js	.LBB33_126
.LBB33_112:
	movb	$5, %dl
	xorl	%eax, %eax
	movq	17336(%rbp), %rcx
	cmpq	$-1, %rcx
	jne	.LBB33_121
	jmp	.LBB33_182
.LBB33_113:
	movb	$2, %dl
	xorl	%eax, %eax
	movq	17336(%rbp), %rcx
	cmpq	$-1, %rcx
	jne	.LBB33_121
	jmp	.LBB33_182
.LBB33_114:
	movzwl	%si, %r13d
	addq	%rdx, %r13
	cmpq	%r13, %rcx
	ja	.LBB33_95
.LBB33_115:
	pxor	%xmm6, %xmm6
	xorl	%eax, %eax
	xorl	%edi, %edi
	xorl	%esi, %esi
	xorl	%r11d, %r11d
.LBB33_116:
	xorl	%r14d, %r14d
	pxor	%xmm1, %xmm1
	pxor	%xmm0, %xmm0
	testb	%al, %al
	movq	120(%rsp), %r13
	jne	.LBB33_99
	.p2align	4
.LBB33_117:
	leaq	32(%rsp), %r8
	movq	%rbp, %rdi
	movq	%r12, %rsi
	movq	%rbx, %rdx
	movq	8(%rsp), %rcx
	callq	"sq_feed::feed::Feed::step_other"
	movq	%rax, %r14
.LBB33_118:
	addq	%r14, %r15
	cmpb	$1, %dl
	jne	.LBB33_3
	jmp	.LBB33_2
.LBB33_119:
	xorb	$1, %cl
	movl	%ebx, %r12d
	shrl	$8, %r12d
	movb	$1, %dl
	testb	%cl, %cl
	jne	.LBB33_120
.LBB33_150:
	cmpb	$2, %dil
	movdqa	%xmm6, 224(%rsp)
	je	.LBB33_158
	movzbl	%dil, %eax
	cmpl	$1, %eax
	movq	8(%rsp), %r10
	jne	.LBB33_154
	testq	%rsi, %rsi
	je	.LBB33_154
	cmpb	$1, 17185(%rbp)
	jne	.LBB33_171
.LBB33_154:
	movq	17336(%rbp), %rax
	cmpq	$-1, %rax
	je	.LBB33_156
	incq	%rax
	movq	%rax, 17336(%rbp)
	incq	17344(%rbp)
.LBB33_156:
	movq	17208(%rbp), %rdx
	cmpb	$1, 17184(%rbp)
	jne	.LBB33_180
	xorl	%eax, %eax
	movq	%r10, %rcx
	subq	17216(%rbp), %rcx
	cmovaeq	%rcx, %rax
	addq	%rdx, %rax
	movq	$-1, %rdx
	cmovaeq	%rax, %rdx
	jmp	.LBB33_180
.LBB33_126:
	movl	%ebx, %r8d
	shrb	$3, %r8b
	jmp	.LBB33_146
.LBB33_127:
	movb	$17, %r8b
	jmp	.LBB33_149
.LBB33_128:
	testq	%rsi, %rsi
	je	.LBB33_146
	movabsq	$280376761925972, %rax
	cmpq	%rax, %rsi
	je	.LBB33_146
	cmpb	$0, 17185(%rbp)
	jne	.LBB33_146
	cmpb	$2, 17224(%rbp)
	jne	.LBB33_146
	cmpb	$0, 17256(%rbp)
	jne	.LBB33_146
	cmpb	$1, 17176(%rbp)
	jne	.LBB33_146
	movq	%rsi, %rcx
	subq	17160(%rbp), %rcx
	movabsq	$281474976710655, %r9
	andq	%r9, %rcx
	movq	%rcx, %rax
	shrq	$47, %rax
	jne	.LBB33_146
	addq	17168(%rbp), %rcx
	movq	$-1, %r10
	cmovbq	%r10, %rcx
	movabsq	$-5853766786057164379, %rdx
	movq	%rcx, %rax
	mulq	%rdx
	shrq	$13, %rdx
	addq	17312(%rbp), %rdx
	cmovbq	%r10, %rdx
	movq	%rdx, %rax
	subq	17208(%rbp), %rax
	jb	.LBB33_146
	cmpq	17192(%rbp), %rax
	ja	.LBB33_146
	movq	17336(%rbp), %rax
	cmpq	$-1, %rax
	je	.LBB33_139
	incq	%rax
	movq	%rax, 17336(%rbp)
	incq	17344(%rbp)
.LBB33_139:
	andq	%r9, %rsi
	movq	%rsi, 17160(%rbp)
	movq	%rcx, 17168(%rbp)
	movq	%rdx, 17208(%rbp)
	movq	8(%rsp), %rax
	movq	%rax, 17216(%rbp)
	movq	120(%rsp), %r13
	jmp	.LBB33_269
.LBB33_158:
	movq	%r11, 176(%rsp)
	movq	$0, 80(%rsp)
	movzbl	17224(%rbp), %eax
	cmpb	$2, %al
	movq	8(%rsp), %r11
	leaq	17600(%rbp), %rcx
	jne	.LBB33_185
	cmpb	$0, 17256(%rbp)
	jne	.LBB33_185
	movq	17312(%rbp), %rdi
	addq	%rsi, %rdi
	movq	$-1, %rdx
	cmovaeq	%rdi, %rdx
	movq	17208(%rbp), %r13
	movq	%r13, %rdi
	subq	%rdx, %rdi
	jbe	.LBB33_162
	movq	17200(%rbp), %r9
	cmpq	$1001, %r9
	movl	$1000, %r10d
	cmovaeq	%r9, %r10
	cmpq	%r10, %rdi
	jbe	.LBB33_165
	jmp	.LBB33_185
.LBB33_140:
	movl	$0, %edi
	movl	$0, %r11d
	jmp	.LBB33_116
.LBB33_162:
	movq	%rdx, %r9
	subq	%r13, %r9
	movq	17192(%rbp), %rdi
	cmpq	%rdi, %r9
	jbe	.LBB33_165
	cmpb	$1, 17184(%rbp)
	jne	.LBB33_185
	xorl	%r9d, %r9d
	movq	%r11, %r10
	subq	17216(%rbp), %r10
	cmovaeq	%r10, %r9
	addq	%r13, %r9
	movq	$-1, %r10
	cmovaeq	%r9, %r10
	movq	%rdx, %r9
	subq	%r10, %r9
	subq	%rdx, %r10
	cmovbq	%r9, %r10
	cmpq	%rdi, %r10
	ja	.LBB33_185
.LBB33_165:
	movq	17336(%rbp), %rax
	cmpq	$-1, %rax
	je	.LBB33_167
	incq	%rax
	movq	%rax, 17336(%rbp)
	incq	17344(%rbp)
.LBB33_167:
	cmpq	%rdx, %r13
	jbe	.LBB33_169
	xorl	%eax, %eax
	subq	17200(%rbp), %r13
	cmovaeq	%r13, %rax
	cmpq	%rdx, %rax
	cmovaq	%rax, %rdx
	jmp	.LBB33_170
.LBB33_169:
	movq	%rdx, 17208(%rbp)
	movq	%r11, 17216(%rbp)
.LBB33_170:
	movq	176(%rsp), %r11
	movb	$1, %r13b
	cmpb	$1, %r13b
	jne	.LBB33_181
.LBB33_199:
	movq	%rdx, 32(%rsp)
	testb	%r11b, %r11b
	movq	120(%rsp), %r13
	je	.LBB33_230
	movzbl	%r11b, %eax
	cmpl	$2, %eax
	jne	.LBB33_231
	movdqa	224(%rsp), %xmm0
	jmp	.LBB33_233
.LBB33_171:
	cmpb	$2, 17224(%rbp)
	jne	.LBB33_187
	cmpb	$0, 17256(%rbp)
	jne	.LBB33_187
	cmpb	$1, 17176(%rbp)
	jne	.LBB33_187
	movq	%rsi, %rcx
	subq	17160(%rbp), %rcx
	movabsq	$281474976710655, %rdi
	andq	%rdi, %rcx
	movq	%rcx, %rax
	shrq	$47, %rax
	jne	.LBB33_187
	addq	17168(%rbp), %rcx
	movq	$-1, %r9
	cmovbq	%r9, %rcx
	movabsq	$-5853766786057164379, %rdx
	movq	%rcx, %rax
	mulq	%rdx
	shrq	$13, %rdx
	addq	17312(%rbp), %rdx
	cmovbq	%r9, %rdx
	movq	%rdx, %rax
	subq	17208(%rbp), %rax
	jb	.LBB33_187
	cmpq	17192(%rbp), %rax
	ja	.LBB33_187
	movq	17336(%rbp), %rax
	cmpq	$-1, %rax
	je	.LBB33_179
	incq	%rax
	movq	%rax, 17336(%rbp)
	incq	17344(%rbp)
.LBB33_179:
	andq	%rdi, %rsi
	movq	%rsi, 17160(%rbp)
	movq	%rcx, 17168(%rbp)
.LBB33_180:
	movq	%rdx, 17208(%rbp)
	movq	%r10, 17216(%rbp)
	movb	$1, %r13b
	cmpb	$1, %r13b
	je	.LBB33_199
.LBB33_181:
	movq	120(%rsp), %r13
	jmp	.LBB33_182
.LBB33_185:
	movdqa	%xmm1, 368(%rsp)
	movzbl	369(%rsp), %edx
	xorl	%edi, %edi
	testb	%r8b, %r8b
	cmovnel	%edx, %edi
	movdqa	%xmm1, 240(%rsp)
	jne	.LBB33_189
	pxor	%xmm0, %xmm0
	pxor	%xmm1, %xmm1
	jmp	.LBB33_190
.LBB33_141:
	cmpl	$7, %ecx
	jne	.LBB33_194
	movzwl	9(%r12), %edi
	movzbl	15(%r12), %eax
	movb	%al, 156(%rsp)
	movl	11(%r12), %eax
	movl	%eax, 152(%rsp)
	jmp	.LBB33_195
.LBB33_143:
	movq	%rdx, %r9
	subq	%rax, %r9
	movq	17192(%rbp), %rcx
	cmpq	%rcx, %r9
	jbe	.LBB33_264
	cmpb	$1, 17184(%rbp)
	jne	.LBB33_146
	xorl	%r9d, %r9d
	movq	8(%rsp), %r10
	subq	17216(%rbp), %r10
	cmovaeq	%r10, %r9
	addq	%rax, %r9
	movq	$-1, %r10
	cmovaeq	%r9, %r10
	movq	%rdx, %r9
	subq	%r10, %r9
	subq	%rdx, %r10
	cmovbq	%r9, %r10
	cmpq	%rcx, %r10
	jbe	.LBB33_264
.LBB33_146:
	cmpb	$1, %dil
	jne	.LBB33_149
	movabsq	$280376761925972, %rax
	cmpq	%rax, %rsi
	jne	.LBB33_149
	xorl	%eax, %eax
	movb	$3, %dl
	movq	17336(%rbp), %rcx
	cmpq	$-1, %rcx
	jne	.LBB33_121
	jmp	.LBB33_182
.LBB33_149:
	cmpb	$17, %r8b
	sete	%dl
	orb	17329(%rbp), %dl
	movl	%edx, %ecx
	xorb	$1, %cl
	movzbl	%r8b, %r8d
	xorl	%eax, %eax
	testb	%dl, %dl
	cmovel	%r8d, %eax
	movl	%ebx, %r12d
	shrl	$8, %r12d
	movb	$2, %r11b
	movb	$1, %r8b
	movb	$1, %dl
	testb	%cl, %cl
	je	.LBB33_150
.LBB33_120:
	movq	17336(%rbp), %rcx
	cmpq	$-1, %rcx
	je	.LBB33_182
.LBB33_121:
	incq	%rcx
	movq	%rcx, 17336(%rbp)
	movzbl	%dl, %ecx
	decl	%ecx
	leaq	.LJTI33_3(%rip), %rdx
	movslq	(%rdx,%rcx,4), %rcx
	addq	%rdx, %rcx
	jmpq	*%rcx
.LBB33_122:
	movzbl	%al, %eax
	cmpb	$24, %al
	movl	$24, %ecx
	cmovbl	%eax, %ecx
	movzbl	%cl, %eax
	incq	17392(%rbp,%rax,8)
	jmp	.LBB33_182
.LBB33_123:
	incq	17360(%rbp)
	jmp	.LBB33_182
.LBB33_124:
	incq	17376(%rbp)
	jmp	.LBB33_182
.LBB33_125:
	incq	17352(%rbp)
.LBB33_182:
	pxor	%xmm0, %xmm0
	movdqa	%xmm0, 64(%rsp)
	movq	$0, 80(%rsp)
	movq	17696(%rbp), %rbx
	testq	%rbx, %rbx
	je	.LBB33_184
	leaq	64(%rsp), %rdi
	leaq	17600(%rbp), %rsi
	callq	"arrayvec::array_vec::ArrayVec::remove::<#86edd032541158b8>"
	movq	80(%rsp), %rax
	movq	%rax, 48(%rsp)
	movdqa	64(%rsp), %xmm0
	movdqa	%xmm0, 32(%rsp)
.LBB33_184:
	testq	%rbx, %rbx
	setne	%dl
	jmp	.LBB33_118
.LBB33_187:
	movdqa	%xmm1, 320(%rsp)
	movdqa	%xmm6, 336(%rsp)
	movzbl	321(%rsp), %eax
	xorl	%r13d, %r13d
	testb	%r8b, %r8b
	cmovel	%r13d, %eax
	movdqa	%xmm1, 240(%rsp)
	movq	%r11, 176(%rsp)
	jne	.LBB33_196
	pxor	%xmm0, %xmm0
	pxor	%xmm1, %xmm1
	jmp	.LBB33_197
.LBB33_189:
	movdqa	%xmm1, %xmm2
	pshufd	$85, %xmm6, %xmm1
	movdqa	%xmm2, %xmm0
	punpckldq	%xmm1, %xmm0
	movdqa	%xmm0, %xmm1
	psrlq	$40, %xmm1
	psllq	$24, %xmm0
	por	%xmm1, %xmm0
	movdqa	%xmm2, %xmm1
	psrld	$16, %xmm1
.LBB33_190:
	testb	%al, %al
	jne	.LBB33_192
	movb	$1, 17328(%rbp)
.LBB33_192:
	movq	%rsi, 64(%rsp)
	movb	%bl, 72(%rsp)
	movb	%r12b, 73(%rsp)
	movd	%xmm6, 74(%rsp)
	movdqa	%xmm6, 352(%rsp)
	movzbl	356(%rsp), %eax
	movb	%al, 78(%rsp)
	movd	%xmm0, 79(%rsp)
	movb	%dil, 83(%rsp)
	movd	%xmm1, %eax
	movb	%al, 84(%rsp)
	movb	%ah, 85(%rsp)
	leaq	17160(%rbp), %rdi
	leaq	64(%rsp), %rsi
	movq	%r11, %rdx
	callq	"sq_feed::ear::Ear::hear_jump"
	xorl	%r13d, %r13d
	jmp	.LBB33_198
.LBB33_193:
	xorl	%r8d, %r8d
	xorl	%edi, %edi
	jmp	.LBB33_204
.LBB33_194:
	movb	$0, 156(%rsp)
	movl	$0, 152(%rsp)
	xorl	%edi, %edi
.LBB33_195:
	movzbl	156(%rsp), %eax
	movb	%al, 68(%rsp)
	movl	152(%rsp), %eax
	movl	%eax, 64(%rsp)
	xorl	%r8d, %r8d
	jmp	.LBB33_203
.LBB33_196:
	movdqa	%xmm1, %xmm2
	pshufd	$85, %xmm6, %xmm1
	movdqa	%xmm2, %xmm0
	punpckldq	%xmm1, %xmm0
	movdqa	%xmm0, %xmm1
	psrlq	$40, %xmm1
	psllq	$24, %xmm0
	por	%xmm1, %xmm0
	movdqa	%xmm2, %xmm1
	psrld	$16, %xmm1
.LBB33_197:
	movzbl	340(%rsp), %ecx
	movb	%bl, 64(%rsp)
	movb	%r12b, 65(%rsp)
	movd	%xmm6, 66(%rsp)
	movb	%cl, 70(%rsp)
	movd	%xmm0, 71(%rsp)
	movb	%al, 75(%rsp)
	movd	%xmm1, %eax
	movb	%al, 76(%rsp)
	movb	%ah, 77(%rsp)
	leaq	17160(%rbp), %rdi
	leaq	64(%rsp), %rdx
	movq	8(%rsp), %rcx
	leaq	17600(%rbp), %r8
	callq	"sq_feed::ear::Ear::hear_clock_jump"
.LBB33_198:
	xorl	%edx, %edx
	movdqa	240(%rsp), %xmm1
	movq	176(%rsp), %r11
	cmpb	$1, %r13b
	jne	.LBB33_181
	jmp	.LBB33_199
.LBB33_202:
	pextrw	$1, %xmm1, %edi
	movq	%xmm0, %rsi
	movdqa	%xmm0, 400(%rsp)
	movzbl	401(%rsp), %eax
	shll	$24, %eax
	andq	$-65281, %rsi
	shlq	$16, %rsi
	orq	%rax, %rsi
	bswapq	%rsi
	movl	19(%r12), %eax
	movl	%eax, 72(%rsp)
	movq	11(%r12), %rax
	movq	%rax, 64(%rsp)
	movl	$23, %r14d
	movb	$1, %r8b
.LBB33_203:
	xorl	%eax, %eax
.LBB33_204:
	movl	72(%rsp), %ecx
	movq	64(%rsp), %rdx
	movq	%rdx, 16(%rsp)
	movl	%ecx, 24(%rsp)
	testb	%r8b, %r8b
	je	.LBB33_218
	movl	%edi, %eax
	andb	$-8, %al
	cmpb	$-120, %al
	jne	.LBB33_220
	movb	$17, %r9b
	testq	%rsi, %rsi
	je	.LBB33_226
	movabsq	$280376761925972, %rax
	cmpq	%rax, %rsi
	je	.LBB33_226
	cmpb	$0, 17185(%rbp)
	jne	.LBB33_226
	cmpb	$2, 17224(%rbp)
	jne	.LBB33_226
	cmpb	$0, 17256(%rbp)
	jne	.LBB33_226
	cmpb	$1, 17176(%rbp)
	jne	.LBB33_226
	movq	%rsi, %rcx
	subq	17160(%rbp), %rcx
	movabsq	$281474976710655, %r10
	andq	%r10, %rcx
	movq	%rcx, %rax
	shrq	$47, %rax
	jne	.LBB33_226
	addq	17168(%rbp), %rcx
	movq	$-1, %r11
	cmovbq	%r11, %rcx
	movabsq	$-5853766786057164379, %rdx
	movq	%rcx, %rax
	mulq	%rdx
	shrq	$13, %rdx
	addq	17312(%rbp), %rdx
	cmovbq	%r11, %rdx
	movq	%rdx, %rax
	subq	17208(%rbp), %rax
	jb	.LBB33_226
	cmpq	17192(%rbp), %rax
	ja	.LBB33_226
	movq	17336(%rbp), %rax
	cmpq	$-1, %rax
	je	.LBB33_217
	incq	%rax
	movq	%rax, 17336(%rbp)
	incq	17344(%rbp)
.LBB33_217:
	andq	%r10, %rsi
	movq	%rsi, 17160(%rbp)
	movq	%rcx, 17168(%rbp)
	movq	%rdx, 17208(%rbp)
	movq	8(%rsp), %rax
	movq	%rax, 17216(%rbp)
	movq	%rdx, 32(%rsp)
	movw	%di, 40(%rsp)
	movl	24(%rsp), %eax
	leaq	40(%rsp), %rcx
	movl	%eax, 10(%rcx)
	movq	16(%rsp), %rax
	movq	%rax, 2(%rcx)
	movw	$0, 54(%rsp)
	movb	$1, %dl
	movq	120(%rsp), %r13
	jmp	.LBB33_118
.LBB33_218:
	testb	%al, %al
	je	.LBB33_222
	movb	$2, %cl
	xorl	%eax, %eax
	jmp	.LBB33_236
.LBB33_220:
	testb	%dil, %dil
	js	.LBB33_225
	movb	$5, %cl
	xorl	%eax, %eax
	jmp	.LBB33_236
.LBB33_222:
	xorl	%eax, %eax
	testb	%dil, %dil
	js	.LBB33_229
	movzbl	17329(%rbp), %edx
	movl	%edi, %ecx
	shrb	$3, %cl
	movzbl	%cl, %ecx
	testb	%dl, %dl
	cmovnel	%eax, %ecx
	movabsq	$280376761925972, %r9
	cmpq	%r9, %rsi
	cmovel	%eax, %ecx
	je	.LBB33_227
	xorb	$1, %dl
	movl	%ecx, %eax
	jmp	.LBB33_235
.LBB33_225:
	movl	%edi, %r9d
	shrb	$3, %r9b
.LBB33_226:
	xorl	%eax, %eax
	movabsq	$280376761925972, %rcx
	cmpq	%rcx, %rsi
	jne	.LBB33_228
.LBB33_227:
	movb	$3, %cl
	jmp	.LBB33_236
.LBB33_228:
	cmpb	$17, %r9b
	sete	%cl
	orb	17329(%rbp), %cl
	movl	%ecx, %edx
	xorb	$1, %dl
	movzbl	%r9b, %r9d
	testb	%cl, %cl
	cmovnel	%eax, %r9d
	movl	%r9d, %eax
.LBB33_235:
	movb	$1, %cl
	testb	%dl, %dl
	jne	.LBB33_236
	testq	%rsi, %rsi
	je	.LBB33_245
	cmpb	$1, 17185(%rbp)
	jne	.LBB33_251
.LBB33_245:
	movq	17336(%rbp), %rax
	cmpq	$-1, %rax
	je	.LBB33_247
	incq	%rax
	movq	%rax, 17336(%rbp)
	incq	17344(%rbp)
.LBB33_247:
	movq	17208(%rbp), %rdx
	cmpb	$1, 17184(%rbp)
	jne	.LBB33_249
	xorl	%eax, %eax
	movq	8(%rsp), %rsi
	movq	%rsi, %rcx
	subq	17216(%rbp), %rcx
	cmovaeq	%rcx, %rax
	addq	%rdx, %rax
	movq	$-1, %rdx
	cmovaeq	%rax, %rdx
	jmp	.LBB33_250
.LBB33_229:
	movb	$5, %cl
.LBB33_236:
	movq	17336(%rbp), %rdx
	cmpq	$-1, %rdx
	je	.LBB33_239
	incq	%rdx
	movq	%rdx, 17336(%rbp)
	movzbl	%cl, %ecx
	decl	%ecx
	leaq	.LJTI33_0(%rip), %rdx
	movslq	(%rdx,%rcx,4), %rcx
	addq	%rdx, %rcx
	jmpq	*%rcx
.LBB33_238:
	movzbl	%al, %eax
	cmpb	$24, %al
	movl	$24, %ecx
	cmovbl	%eax, %ecx
	movzbl	%cl, %eax
	incq	17392(%rbp,%rax,8)
.LBB33_239:
	xorl	%edx, %edx
	jmp	.LBB33_118
.LBB33_240:
	incq	17376(%rbp)
	xorl	%edx, %edx
	jmp	.LBB33_118
.LBB33_241:
	incq	17352(%rbp)
	xorl	%edx, %edx
	jmp	.LBB33_118
.LBB33_242:
	incq	17360(%rbp)
	xorl	%edx, %edx
	jmp	.LBB33_118
.LBB33_230:
	pxor	%xmm0, %xmm0
	jmp	.LBB33_232
.LBB33_231:
	movdqa	224(%rsp), %xmm0
	pand	.LCPI33_12(%rip), %xmm0
.LBB33_232:
	pxor	%xmm1, %xmm1
.LBB33_233:
	movb	%bl, 40(%rsp)
	movb	%r12b, 41(%rsp)
	movq	%xmm0, 42(%rsp)
	movd	%xmm1, 50(%rsp)
	addq	%r14, %r15
	jmp	.LBB33_2
.LBB33_249:
	movq	8(%rsp), %rsi
.LBB33_250:
	movq	%rdx, 17208(%rbp)
	movq	%rsi, 17216(%rbp)
	jmp	.LBB33_260
.LBB33_251:
	cmpb	$2, 17224(%rbp)
	jne	.LBB33_270
	cmpb	$0, 17256(%rbp)
	jne	.LBB33_270
	cmpb	$1, 17176(%rbp)
	jne	.LBB33_270
	movq	%rsi, %rcx
	subq	17160(%rbp), %rcx
	movabsq	$281474976710655, %r9
	andq	%r9, %rcx
	movq	%rcx, %rax
	shrq	$47, %rax
	jne	.LBB33_270
	addq	17168(%rbp), %rcx
	movq	$-1, %r10
	cmovbq	%r10, %rcx
	movabsq	$-5853766786057164379, %rdx
	movq	%rcx, %rax
	mulq	%rdx
	shrq	$13, %rdx
	addq	17312(%rbp), %rdx
	cmovbq	%r10, %rdx
	movq	%rdx, %rax
	subq	17208(%rbp), %rax
	jb	.LBB33_270
	cmpq	17192(%rbp), %rax
	ja	.LBB33_270
	movq	17336(%rbp), %rax
	cmpq	$-1, %rax
	je	.LBB33_259
	incq	%rax
	movq	%rax, 17336(%rbp)
	incq	17344(%rbp)
.LBB33_259:
	andq	%r9, %rsi
	movq	%rsi, 17160(%rbp)
	movq	%rcx, 17168(%rbp)
	movq	%rdx, 17208(%rbp)
	movq	8(%rsp), %rax
	movq	%rax, 17216(%rbp)
.LBB33_260:
	movq	%rdx, 32(%rsp)
	testb	%r8b, %r8b
	je	.LBB33_262
	movl	24(%rsp), %eax
	movl	%eax, 136(%rsp)
	movq	16(%rsp), %rax
	jmp	.LBB33_263
.LBB33_262:
	leaq	66(%rsp), %rax
	movl	$0, 6(%rax)
	movl	$0, 3(%rax)
	movzbl	20(%rsp), %eax
	movb	%al, 68(%rsp)
	movl	16(%rsp), %eax
	movl	%eax, 64(%rsp)
	movl	72(%rsp), %eax
	movl	%eax, 136(%rsp)
	movq	64(%rsp), %rax
.LBB33_263:
	movq	%rax, 128(%rsp)
	movl	136(%rsp), %eax
	movl	%eax, 312(%rsp)
	movq	128(%rsp), %rcx
	movq	%rcx, 304(%rsp)
	movw	%di, 40(%rsp)
	leaq	40(%rsp), %rdx
	movl	%eax, 10(%rdx)
	movq	%rcx, 2(%rdx)
	movb	$1, %dl
	jmp	.LBB33_118
.LBB33_264:
	movq	17336(%rbp), %rcx
	cmpq	$-1, %rcx
	je	.LBB33_266
	incq	%rcx
	movq	%rcx, 17336(%rbp)
	incq	17344(%rbp)
.LBB33_266:
	cmpq	%rdx, %rax
	jbe	.LBB33_268
	xorl	%ecx, %ecx
	subq	17200(%rbp), %rax
	cmovaeq	%rax, %rcx
	cmpq	%rdx, %rcx
	cmovaq	%rcx, %rdx
	jmp	.LBB33_269
.LBB33_268:
	movq	%rdx, 17208(%rbp)
	movq	8(%rsp), %rax
	movq	%rax, 17216(%rbp)
.LBB33_269:
	movq	%rdx, 32(%rsp)
	movb	%bl, 40(%rsp)
	movb	%bh, 41(%rsp)
	movq	%xmm6, 42(%rsp)
	movd	%xmm1, 50(%rsp)
	movw	$0, 54(%rsp)
	addq	%r14, %r15
	jmp	.LBB33_2
.LBB33_270:
	testb	%r8b, %r8b
	je	.LBB33_279
	movl	24(%rsp), %eax
	movl	%eax, 216(%rsp)
	movq	16(%rsp), %rax
	jmp	.LBB33_280
.LBB33_272:
	movl	$1, %esi
.LBB33_273:
	movdqa	.LCPI33_2(%rip), %xmm0
	movdqu	1(%rdx,%r14), %xmm10
	movdqu	13(%rdx,%r14), %xmm9
	movdqa	%xmm10, %xmm2
	paddb	%xmm0, %xmm2
	movdqa	.LCPI33_3(%rip), %xmm3
	psubusb	%xmm3, %xmm2
	movdqa	.LCPI33_4(%rip), %xmm1
	paddb	%xmm1, %xmm2
	movdqa	.LCPI33_5(%rip), %xmm4
	pand	%xmm4, %xmm10
	movdqa	.LCPI33_6(%rip), %xmm5
	movdqa	%xmm5, %xmm6
	psubb	%xmm10, %xmm6
	movdqa	.LCPI33_1(%rip), %xmm7
	pminub	%xmm7, %xmm6
	movdqa	.LCPI33_7(%rip), %xmm8
	paddb	%xmm8, %xmm10
	paddb	%xmm6, %xmm10
	pminub	%xmm2, %xmm10
	paddb	%xmm9, %xmm0
	psubusb	%xmm3, %xmm0
	paddb	%xmm1, %xmm0
	pand	%xmm4, %xmm9
	psubb	%xmm9, %xmm5
	pminub	%xmm7, %xmm5
	paddb	%xmm8, %xmm9
	paddb	%xmm5, %xmm9
	pminub	%xmm0, %xmm9
	movdqa	%xmm9, %xmm0
	por	%xmm10, %xmm0
	pmaxub	%xmm0, %xmm1
	pcmpeqb	%xmm0, %xmm1
	pmovmskb	%xmm1, %edx
	testl	%edx, %edx
	jne	.LBB33_35
	movzbl	%cl, %ecx
	leaq	(%rcx,%rcx,4), %rcx
	movzbl	%al, %eax
	leaq	(%rax,%rcx,2), %rax
	leaq	(%rax,%rax,4), %rax
	movl	%eax, %eax
	movzbl	%r11b, %ecx
	leaq	(%rcx,%rax,2), %rax
	leaq	(%rax,%rax,4), %rax
	movzbl	%r10b, %ecx
	leaq	(%rcx,%rax,2), %rax
	leaq	(%rax,%rax,4), %rax
	movzbl	%r9b, %ecx
	leaq	(%rcx,%rax,2), %rax
	leaq	(%rax,%rax,4), %rax
	movzbl	%r8b, %ecx
	leaq	(%rcx,%rax,2), %rax
	leaq	(%rax,%rax,4), %rax
	movzbl	31(%rsp), %ecx
	leaq	(%rcx,%rax,2), %rax
	leaq	(%rax,%rax,4), %rax
	movzbl	240(%rsp), %ecx
	leaq	(%rcx,%rax,2), %rax
	leaq	(%rax,%rax,4), %rax
	movzbl	176(%rsp), %ecx
	leaq	(%rcx,%rax,2), %rax
	leaq	(%rax,%rax,4), %rax
	movzbl	224(%rsp), %ecx
	leaq	(%rcx,%rax,2), %rax
	imulq	$1000, %rax, %rbx
	movq	%rsi, %r12
	movq	%r13, %rsi
	movdqa	%xmm9, 224(%rsp)
	movdqa	%xmm10, 176(%rsp)
	callq	"sq_feed::cells::thousandths"
	movdqa	.LCPI33_8(%rip), %xmm0
	movdqa	176(%rsp), %xmm2
	movdqa	%xmm2, %xmm1
	pand	%xmm0, %xmm1
	packuswb	%xmm1, %xmm1
	psrlw	$8, %xmm2
	packuswb	%xmm2, %xmm2
	movdqa	%xmm2, %xmm3
	psllw	$4, %xmm1
	movdqa	.LCPI33_9(%rip), %xmm2
	pand	%xmm2, %xmm1
	por	%xmm3, %xmm1
	movdqa	%xmm1, 384(%rsp)
	movzbl	384(%rsp), %edi
	movdqa	224(%rsp), %xmm3
	pand	%xmm3, %xmm0
	packuswb	%xmm0, %xmm0
	psrlw	$8, %xmm3
	packuswb	%xmm3, %xmm3
	psllw	$4, %xmm0
	pand	%xmm2, %xmm0
	por	%xmm3, %xmm0
	movdqa	%xmm0, 288(%rsp)
	movzbl	294(%rsp), %edx
	movzbl	295(%rsp), %ecx
	movabsq	$-53333333328000, %rsi
	addq	%rax, %rsi
	addq	%rbx, %rsi
	addq	%r13, %r14
	addq	%r12, %r14
	addq	$41, %r14
	movl	%edi, %eax
	andb	$-8, %al
	cmpb	$-120, %al
	jne	.LBB33_283
	cmpb	$2, 17224(%rbp)
	jne	.LBB33_289
	cmpb	$0, 17256(%rbp)
	jne	.LBB33_289
	movq	17312(%rbp), %r8
	addq	%rsi, %r8
	movq	$-1, %rax
	cmovaeq	%r8, %rax
	movq	17208(%rbp), %r8
	movq	%r8, %r9
	subq	%rax, %r9
	jbe	.LBB33_286
	movq	17200(%rbp), %r10
	cmpq	$1001, %r10
	movl	$1000, %r11d
	cmovaeq	%r10, %r11
	cmpq	%r11, %r9
	ja	.LBB33_289
	jmp	.LBB33_313
.LBB33_279:
	leaq	136(%rsp), %rax
	movl	$0, (%rax)
	movl	$0, -3(%rax)
	movzbl	20(%rsp), %eax
	movb	%al, 132(%rsp)
	movl	16(%rsp), %eax
	movl	%eax, 128(%rsp)
	movl	136(%rsp), %eax
	movl	%eax, 216(%rsp)
	movq	128(%rsp), %rax
.LBB33_280:
	movq	%rax, 208(%rsp)
	movw	%di, 64(%rsp)
	movl	216(%rsp), %eax
	leaq	66(%rsp), %rcx
	movl	%eax, 8(%rcx)
	movq	208(%rsp), %rax
	movq	%rax, (%rcx)
	leaq	17160(%rbp), %rdi
	leaq	64(%rsp), %rdx
	movq	8(%rsp), %rcx
	leaq	17600(%rbp), %rbx
	movq	%rbx, %r8
	callq	"sq_feed::ear::Ear::hear_clock_jump"
	cmpq	$0, 17696(%rbp)
	pxor	%xmm0, %xmm0
	movdqa	%xmm0, 64(%rsp)
	movq	$0, 80(%rsp)
	je	.LBB33_239
	leaq	64(%rsp), %rdi
	movq	%rbx, %rsi
	callq	"arrayvec::array_vec::ArrayVec::remove::<#86edd032541158b8>"
	movq	80(%rsp), %rax
	movq	%rax, 48(%rsp)
	movdqa	64(%rsp), %xmm0
	movdqa	%xmm0, 32(%rsp)
	movb	$1, %dl
	jmp	.LBB33_118
.LBB33_283:
	testb	%dil, %dil
	js	.LBB33_289
	movq	17336(%rbp), %rax
	cmpq	$-1, %rax
	movq	120(%rsp), %r13
	je	.LBB33_239
	incq	%rax
	movq	%rax, 17336(%rbp)
	incq	17376(%rbp)
	xorl	%edx, %edx
	jmp	.LBB33_118
.LBB33_286:
	movq	%rax, %r10
	subq	%r8, %r10
	movq	17192(%rbp), %r9
	cmpq	%r9, %r10
	jbe	.LBB33_313
	cmpb	$1, 17184(%rbp)
	jne	.LBB33_289
	xorl	%r10d, %r10d
	movq	8(%rsp), %r11
	subq	17216(%rbp), %r11
	cmovaeq	%r11, %r10
	addq	%r8, %r10
	movq	$-1, %r11
	cmovaeq	%r10, %r11
	movq	%rax, %r10
	subq	%r11, %r10
	subq	%rax, %r11
	cmovbq	%r10, %r11
	cmpq	%r9, %r11
	jbe	.LBB33_313
.LBB33_289:
	shrb	$3, %dil
	cmpb	$17, %dil
	je	.LBB33_293
	cmpb	$0, 17329(%rbp)
	jne	.LBB33_293
	movq	17336(%rbp), %rax
	cmpq	$-1, %rax
	movq	120(%rsp), %r13
	je	.LBB33_239
	incq	%rax
	movq	%rax, 17336(%rbp)
	movzbl	%dil, %eax
	cmpb	$24, %dil
	movl	$24, %ecx
	cmovbl	%eax, %ecx
	movzbl	%cl, %eax
	incq	17392(%rbp,%rax,8)
	xorl	%edx, %edx
	jmp	.LBB33_118
.LBB33_293:
	movq	$0, 80(%rsp)
	movzbl	17224(%rbp), %eax
	psrlq	$16, %xmm0
	cmpl	$2, %eax
	jne	.LBB33_311
	cmpb	$0, 17256(%rbp)
	jne	.LBB33_301
	movq	17312(%rbp), %rdi
	addq	%rsi, %rdi
	movq	$-1, %rax
	cmovaeq	%rdi, %rax
	movq	17208(%rbp), %rdi
	movq	%rdi, %r8
	subq	%rax, %r8
	jbe	.LBB33_298
	movq	17200(%rbp), %r9
	cmpq	$1001, %r9
	movl	$1000, %r10d
	cmovaeq	%r9, %r10
	cmpq	%r10, %r8
	ja	.LBB33_301
	jmp	.LBB33_303
.LBB33_298:
	movq	%rax, %r9
	subq	%rdi, %r9
	movq	17192(%rbp), %r8
	cmpq	%r8, %r9
	jbe	.LBB33_303
	cmpb	$1, 17184(%rbp)
	jne	.LBB33_301
	xorl	%r9d, %r9d
	movq	8(%rsp), %r10
	subq	17216(%rbp), %r10
	cmovaeq	%r10, %r9
	addq	%rdi, %r9
	movq	$-1, %r10
	cmovaeq	%r9, %r10
	movq	%rax, %r9
	subq	%r10, %r9
	subq	%rax, %r10
	cmovbq	%r9, %r10
	cmpq	%r8, %r10
	jbe	.LBB33_303
.LBB33_301:
	movq	%rsi, 64(%rsp)
	movq	%xmm1, 72(%rsp)
	movd	%xmm0, 80(%rsp)
	movb	%dl, 84(%rsp)
	movb	%cl, 85(%rsp)
	leaq	17160(%rbp), %rdi
	leaq	64(%rsp), %rsi
	movq	8(%rsp), %rdx
	leaq	17600(%rbp), %rcx
	callq	"sq_feed::ear::Ear::hear_jump"
	cmpq	$0, 17696(%rbp)
	pxor	%xmm0, %xmm0
	movdqa	%xmm0, 64(%rsp)
	movq	$0, 80(%rsp)
	je	.LBB33_307
	leaq	64(%rsp), %rdi
	leaq	17600(%rbp), %rsi
	callq	"arrayvec::array_vec::ArrayVec::remove::<#86edd032541158b8>"
	movq	80(%rsp), %rax
	movq	%rax, 48(%rsp)
	movdqa	64(%rsp), %xmm0
	movdqa	%xmm0, 32(%rsp)
	movb	$1, %dl
	movq	120(%rsp), %r13
	jmp	.LBB33_118
.LBB33_303:
	movq	17336(%rbp), %rsi
	cmpq	$-1, %rsi
	je	.LBB33_305
	incq	%rsi
	movq	%rsi, 17336(%rbp)
	incq	17344(%rbp)
.LBB33_305:
	cmpq	%rax, %rdi
	jbe	.LBB33_308
	xorl	%esi, %esi
	subq	17200(%rbp), %rdi
	cmovaeq	%rdi, %rsi
	cmpq	%rax, %rsi
	cmovaq	%rsi, %rax
	jmp	.LBB33_309
.LBB33_307:
	xorl	%edx, %edx
	movq	120(%rsp), %r13
	jmp	.LBB33_118
.LBB33_308:
	movq	%rax, 17208(%rbp)
	movq	8(%rsp), %rsi
	movq	%rsi, 17216(%rbp)
.LBB33_309:
	movq	%rax, 32(%rsp)
	movq	%xmm1, 40(%rsp)
	movd	%xmm0, 48(%rsp)
	movb	%dl, 52(%rsp)
	movb	%cl, 53(%rsp)
.LBB33_310:
	addq	%r14, %r15
	movq	120(%rsp), %r13
	jmp	.LBB33_2
.LBB33_311:
	testl	%eax, %eax
	jne	.LBB33_301
	movb	$1, 17328(%rbp)
	jmp	.LBB33_301
.LBB33_313:
	movq	17336(%rbp), %rsi
	cmpq	$-1, %rsi
	je	.LBB33_315
	incq	%rsi
	movq	%rsi, 17336(%rbp)
	incq	17344(%rbp)
.LBB33_315:
	cmpq	%rax, %r8
	jbe	.LBB33_317
	xorl	%esi, %esi
	subq	17200(%rbp), %r8
	cmovaeq	%r8, %rsi
	cmpq	%rax, %rsi
	cmovaq	%rsi, %rax
	jmp	.LBB33_318
.LBB33_317:
	movq	%rax, 17208(%rbp)
	movq	8(%rsp), %rsi
	movq	%rsi, 17216(%rbp)
.LBB33_318:
	movq	%rax, 32(%rsp)
	movq	%xmm1, 40(%rsp)
	psrlq	$16, %xmm0
	movd	%xmm0, 48(%rsp)
	movb	%dl, 52(%rsp)
	movb	%cl, 53(%rsp)
	movw	$0, 54(%rsp)
	jmp	.LBB33_310
.LBB33_319:
	movq	%r15, %rax
	movq	200(%rsp), %rdx
	addq	$424, %rsp
	popq	%rbx
	popq	%r12
	popq	%r13
	popq	%r14
	popq	%r15
	popq	%rbp
	retq
.LBB33_320:
	ud2
.Lfunc_end33:
	.size	"squitter_c::feed_take::take_by", .Lfunc_end33-"squitter_c::feed_take::take_by"
	.section	".rodata.squitter_c::feed_take::take_by","a",@progbits
	.p2align	2, 0x0
.LJTI33_0:
	.long	.LBB33_238-.LJTI33_0
	.long	.LBB33_241-.LJTI33_0
	.long	.LBB33_242-.LJTI33_0
	.long	.LBB33_320-.LJTI33_0
	.long	.LBB33_240-.LJTI33_0
.LJTI33_1:
	.long	.LBB33_117-.LJTI33_1
	.long	.LBB33_12-.LJTI33_1
	.long	.LBB33_31-.LJTI33_1
	.long	.LBB33_80-.LJTI33_1
.LJTI33_2:
	.long	.LBB33_47-.LJTI33_2
	.long	.LBB33_117-.LJTI33_2
	.long	.LBB33_117-.LJTI33_2
	.long	.LBB33_117-.LJTI33_2
	.long	.LBB33_117-.LJTI33_2
	.long	.LBB33_70-.LJTI33_2
	.long	.LBB33_117-.LJTI33_2
	.long	.LBB33_117-.LJTI33_2
	.long	.LBB33_117-.LJTI33_2
	.long	.LBB33_117-.LJTI33_2
	.long	.LBB33_117-.LJTI33_2
	.long	.LBB33_117-.LJTI33_2
	.long	.LBB33_117-.LJTI33_2
	.long	.LBB33_117-.LJTI33_2
	.long	.LBB33_117-.LJTI33_2
	.long	.LBB33_117-.LJTI33_2
	.long	.LBB33_117-.LJTI33_2
	.long	.LBB33_117-.LJTI33_2
	.long	.LBB33_117-.LJTI33_2
	.long	.LBB33_117-.LJTI33_2
	.long	.LBB33_117-.LJTI33_2
	.long	.LBB33_70-.LJTI33_2
	.long	.LBB33_117-.LJTI33_2
	.long	.LBB33_117-.LJTI33_2
	.long	.LBB33_117-.LJTI33_2
	.long	.LBB33_117-.LJTI33_2
	.long	.LBB33_117-.LJTI33_2
	.long	.LBB33_47-.LJTI33_2
.LJTI33_3:
	.long	.LBB33_122-.LJTI33_3
	.long	.LBB33_125-.LJTI33_3
	.long	.LBB33_123-.LJTI33_3
	.long	.LBB33_320-.LJTI33_3
	.long	.LBB33_124-.LJTI33_3

	.section	".text.unlikely.sq_feed::feed::Feed::step_ready","ax",@progbits
	.p2align	4
	.type	"sq_feed::feed::Feed::step_ready",@function
"sq_feed::feed::Feed::step_ready":
	pushq	%rbx
	subq	$32, %rsp
	movq	%rsi, %rbx
	xorps	%xmm0, %xmm0
	movaps	%xmm0, (%rsp)
	movq	$0, 16(%rsp)
	leaq	17600(%rdi), %rsi
	movq	%rsp, %rdi
	callq	"arrayvec::array_vec::ArrayVec::remove::<#86edd032541158b8>"
	movq	16(%rsp), %rax
	movq	%rax, 16(%rbx)
	movaps	(%rsp), %xmm0
	movups	%xmm0, (%rbx)
	addq	$32, %rsp
	popq	%rbx
	retq
.Lfunc_end34:
	.size	"sq_feed::feed::Feed::step_ready", .Lfunc_end34-"sq_feed::feed::Feed::step_ready"

	.section	".text.arrayvec::array_vec::ArrayVec::remove::<#86edd032541158b8>","ax",@progbits
	.p2align	4
	.type	"arrayvec::array_vec::ArrayVec::remove::<#86edd032541158b8>",@function
"arrayvec::array_vec::ArrayVec::remove::<#86edd032541158b8>":
	pushq	%r15
	pushq	%r14
	pushq	%rbx
	subq	$64, %rsp
	movq	96(%rsi), %rdx
	cmpq	$1, %rdx
	jne	.LBB35_2
	xorl	%eax, %eax
	jmp	.LBB35_12
.LBB35_2:
	leaq	-1(%rdx), %rbx
	movq	16(%rsi), %rax
	movq	%rax, 48(%rsp)
	movups	(%rsi), %xmm0
	movaps	%xmm0, 32(%rsp)
	movq	%rbx, %r8
	movq	%rsi, %rax
	cmpq	$86, %rbx
	jb	.LBB35_7
	movq	$-1, %rcx
	movq	%rsi, %rax
	.p2align	4
.LBB35_4:
	movq	40(%rax), %r8
	movq	%r8, 16(%rax)
	movups	24(%rax), %xmm0
	movups	%xmm0, (%rax)
	movups	48(%rax), %xmm0
	movups	%xmm0, 24(%rax)
	movq	64(%rax), %r8
	movq	%r8, 40(%rax)
	movups	72(%rax), %xmm0
	movups	%xmm0, 48(%rax)
	movq	88(%rax), %r8
	movq	%r8, 64(%rax)
	movups	96(%rax), %xmm0
	movups	%xmm0, 72(%rax)
	movq	112(%rax), %r8
	movq	%r8, 88(%rax)
	movq	136(%rax), %r8
	movq	%r8, 112(%rax)
	movups	120(%rax), %xmm0
	movups	%xmm0, 96(%rax)
	movq	160(%rax), %r8
	movq	%r8, 136(%rax)
	movups	144(%rax), %xmm0
	movups	%xmm0, 120(%rax)
	movq	184(%rax), %r8
	movq	%r8, 160(%rax)
	movups	168(%rax), %xmm0
	movups	%xmm0, 144(%rax)
	movq	208(%rax), %r8
	movq	%r8, 184(%rax)
	movups	192(%rax), %xmm0
	movups	%xmm0, 168(%rax)
	movq	232(%rax), %r8
	movq	%r8, 208(%rax)
	movups	216(%rax), %xmm0
	movups	%xmm0, 192(%rax)
	movq	256(%rax), %r8
	movq	%r8, 232(%rax)
	movups	240(%rax), %xmm0
	movups	%xmm0, 216(%rax)
	movq	280(%rax), %r8
	movq	%r8, 256(%rax)
	movups	264(%rax), %xmm0
	movups	%xmm0, 240(%rax)
	movq	304(%rax), %r8
	movq	%r8, 280(%rax)
	movups	288(%rax), %xmm0
	movups	%xmm0, 264(%rax)
	movq	328(%rax), %r8
	movq	%r8, 304(%rax)
	movups	312(%rax), %xmm0
	movups	%xmm0, 288(%rax)
	movq	352(%rax), %r8
	movq	%r8, 328(%rax)
	movups	336(%rax), %xmm0
	movups	%xmm0, 312(%rax)
	movq	376(%rax), %r8
	movq	%r8, 352(%rax)
	movups	360(%rax), %xmm0
	movups	%xmm0, 336(%rax)
	movq	400(%rax), %r8
	movq	%r8, 376(%rax)
	movups	384(%rax), %xmm0
	movups	%xmm0, 360(%rax)
	movq	424(%rax), %r8
	movq	%r8, 400(%rax)
	movups	408(%rax), %xmm0
	movups	%xmm0, 384(%rax)
	movq	448(%rax), %r8
	movq	%r8, 424(%rax)
	movups	432(%rax), %xmm0
	movups	%xmm0, 408(%rax)
	movq	472(%rax), %r8
	movq	%r8, 448(%rax)
	movups	456(%rax), %xmm0
	movups	%xmm0, 432(%rax)
	movq	496(%rax), %r8
	movq	%r8, 472(%rax)
	movups	480(%rax), %xmm0
	movups	%xmm0, 456(%rax)
	movq	520(%rax), %r8
	movq	%r8, 496(%rax)
	movups	504(%rax), %xmm0
	movups	%xmm0, 480(%rax)
	movq	544(%rax), %r8
	movq	%r8, 520(%rax)
	movups	528(%rax), %xmm0
	movups	%xmm0, 504(%rax)
	movq	568(%rax), %r8
	movq	%r8, 544(%rax)
	movups	552(%rax), %xmm0
	movups	%xmm0, 528(%rax)
	movq	592(%rax), %r8
	movq	%r8, 568(%rax)
	movups	576(%rax), %xmm0
	movups	%xmm0, 552(%rax)
	movq	616(%rax), %r8
	movq	%r8, 592(%rax)
	movups	600(%rax), %xmm0
	movups	%xmm0, 576(%rax)
	movq	640(%rax), %r8
	movq	%r8, 616(%rax)
	movups	624(%rax), %xmm0
	movups	%xmm0, 600(%rax)
	movq	664(%rax), %r8
	movq	%r8, 640(%rax)
	movups	648(%rax), %xmm0
	movups	%xmm0, 624(%rax)
	movq	688(%rax), %r8
	movq	%r8, 664(%rax)
	movups	672(%rax), %xmm0
	movups	%xmm0, 648(%rax)
	movq	712(%rax), %r8
	movq	%r8, 688(%rax)
	movups	696(%rax), %xmm0
	movups	%xmm0, 672(%rax)
	movq	736(%rax), %r8
	movq	%r8, 712(%rax)
	movups	720(%rax), %xmm0
	movups	%xmm0, 696(%rax)
	movq	760(%rax), %r8
	movq	%r8, 736(%rax)
	movups	744(%rax), %xmm0
	movups	%xmm0, 720(%rax)
	movq	784(%rax), %r8
	movq	%r8, 760(%rax)
	movups	768(%rax), %xmm0
	movups	%xmm0, 744(%rax)
	movq	808(%rax), %r8
	movq	%r8, 784(%rax)
	movups	792(%rax), %xmm0
	movups	%xmm0, 768(%rax)
	movq	832(%rax), %r8
	movq	%r8, 808(%rax)
	movups	816(%rax), %xmm0
	movups	%xmm0, 792(%rax)
	movq	856(%rax), %r8
	movq	%r8, 832(%rax)
	movups	840(%rax), %xmm0
	movups	%xmm0, 816(%rax)
	movq	880(%rax), %r8
	movq	%r8, 856(%rax)
	movups	864(%rax), %xmm0
	movups	%xmm0, 840(%rax)
	movq	904(%rax), %r8
	movq	%r8, 880(%rax)
	movups	888(%rax), %xmm0
	movups	%xmm0, 864(%rax)
	movq	928(%rax), %r8
	movq	%r8, 904(%rax)
	movups	912(%rax), %xmm0
	movups	%xmm0, 888(%rax)
	movq	952(%rax), %r8
	movq	%r8, 928(%rax)
	movups	936(%rax), %xmm0
	movups	%xmm0, 912(%rax)
	movq	976(%rax), %r8
	movq	%r8, 952(%rax)
	movups	960(%rax), %xmm0
	movups	%xmm0, 936(%rax)
	movq	1000(%rax), %r8
	movq	%r8, 976(%rax)
	movups	984(%rax), %xmm0
	movups	%xmm0, 960(%rax)
	movq	1024(%rax), %r8
	movq	%r8, 1000(%rax)
	movups	1008(%rax), %xmm0
	movups	%xmm0, 984(%rax)
	movq	1048(%rax), %r8
	movq	%r8, 1024(%rax)
	movups	1032(%rax), %xmm0
	movups	%xmm0, 1008(%rax)
	movq	1072(%rax), %r8
	movq	%r8, 1048(%rax)
	movups	1056(%rax), %xmm0
	movups	%xmm0, 1032(%rax)
	movq	1096(%rax), %r8
	movq	%r8, 1072(%rax)
	movups	1080(%rax), %xmm0
	movups	%xmm0, 1056(%rax)
	movq	1120(%rax), %r8
	movq	%r8, 1096(%rax)
	movups	1104(%rax), %xmm0
	movups	%xmm0, 1080(%rax)
	movq	1144(%rax), %r8
	movq	%r8, 1120(%rax)
	movups	1128(%rax), %xmm0
	movups	%xmm0, 1104(%rax)
	movq	1168(%rax), %r8
	movq	%r8, 1144(%rax)
	movups	1152(%rax), %xmm0
	movups	%xmm0, 1128(%rax)
	movq	1192(%rax), %r8
	movq	%r8, 1168(%rax)
	movups	1176(%rax), %xmm0
	movups	%xmm0, 1152(%rax)
	movq	1216(%rax), %r8
	movq	%r8, 1192(%rax)
	movups	1200(%rax), %xmm0
	movups	%xmm0, 1176(%rax)
	movq	1240(%rax), %r8
	movq	%r8, 1216(%rax)
	movups	1224(%rax), %xmm0
	movups	%xmm0, 1200(%rax)
	movq	1264(%rax), %r8
	movq	%r8, 1240(%rax)
	movups	1248(%rax), %xmm0
	movups	%xmm0, 1224(%rax)
	movq	1288(%rax), %r8
	movq	%r8, 1264(%rax)
	movups	1272(%rax), %xmm0
	movups	%xmm0, 1248(%rax)
	movq	1312(%rax), %r8
	movq	%r8, 1288(%rax)
	movups	1296(%rax), %xmm0
	movups	%xmm0, 1272(%rax)
	movq	1336(%rax), %r8
	movq	%r8, 1312(%rax)
	movups	1320(%rax), %xmm0
	movups	%xmm0, 1296(%rax)
	movq	1360(%rax), %r8
	movq	%r8, 1336(%rax)
	movups	1344(%rax), %xmm0
	movups	%xmm0, 1320(%rax)
	movq	1384(%rax), %r8
	movq	%r8, 1360(%rax)
	movups	1368(%rax), %xmm0
	movups	%xmm0, 1344(%rax)
	movq	1408(%rax), %r8
	movq	%r8, 1384(%rax)
	movups	1392(%rax), %xmm0
	movups	%xmm0, 1368(%rax)
	movq	1432(%rax), %r8
	movq	%r8, 1408(%rax)
	movups	1416(%rax), %xmm0
	movups	%xmm0, 1392(%rax)
	movq	1456(%rax), %r8
	movq	%r8, 1432(%rax)
	movups	1440(%rax), %xmm0
	movups	%xmm0, 1416(%rax)
	movq	1480(%rax), %r8
	movq	%r8, 1456(%rax)
	movups	1464(%rax), %xmm0
	movups	%xmm0, 1440(%rax)
	movq	1504(%rax), %r8
	movq	%r8, 1480(%rax)
	movups	1488(%rax), %xmm0
	movups	%xmm0, 1464(%rax)
	movq	1528(%rax), %r8
	movq	%r8, 1504(%rax)
	movups	1512(%rax), %xmm0
	movups	%xmm0, 1488(%rax)
	movq	1552(%rax), %r8
	movq	%r8, 1528(%rax)
	movups	1536(%rax), %xmm0
	movups	%xmm0, 1512(%rax)
	movq	1576(%rax), %r8
	movq	%r8, 1552(%rax)
	movups	1560(%rax), %xmm0
	movups	%xmm0, 1536(%rax)
	movq	1600(%rax), %r8
	movq	%r8, 1576(%rax)
	movups	1584(%rax), %xmm0
	movups	%xmm0, 1560(%rax)
	movq	1624(%rax), %r8
	movq	%r8, 1600(%rax)
	movups	1608(%rax), %xmm0
	movups	%xmm0, 1584(%rax)
	movq	1648(%rax), %r8
	movq	%r8, 1624(%rax)
	movups	1632(%rax), %xmm0
	movups	%xmm0, 1608(%rax)
	movq	1672(%rax), %r8
	movq	%r8, 1648(%rax)
	movups	1656(%rax), %xmm0
	movups	%xmm0, 1632(%rax)
	movq	1696(%rax), %r8
	movq	%r8, 1672(%rax)
	movups	1680(%rax), %xmm0
	movups	%xmm0, 1656(%rax)
	movq	1720(%rax), %r8
	movq	%r8, 1696(%rax)
	movups	1704(%rax), %xmm0
	movups	%xmm0, 1680(%rax)
	movq	1744(%rax), %r8
	movq	%r8, 1720(%rax)
	movups	1728(%rax), %xmm0
	movups	%xmm0, 1704(%rax)
	movq	1768(%rax), %r8
	movq	%r8, 1744(%rax)
	movups	1752(%rax), %xmm0
	movups	%xmm0, 1728(%rax)
	movq	1792(%rax), %r8
	movq	%r8, 1768(%rax)
	movups	1776(%rax), %xmm0
	movups	%xmm0, 1752(%rax)
	movq	1816(%rax), %r8
	movq	%r8, 1792(%rax)
	movups	1800(%rax), %xmm0
	movups	%xmm0, 1776(%rax)
	movq	1840(%rax), %r8
	movq	%r8, 1816(%rax)
	movups	1824(%rax), %xmm0
	movups	%xmm0, 1800(%rax)
	movq	1864(%rax), %r8
	movq	%r8, 1840(%rax)
	movups	1848(%rax), %xmm0
	movups	%xmm0, 1824(%rax)
	movq	1888(%rax), %r8
	movq	%r8, 1864(%rax)
	movups	1872(%rax), %xmm0
	movups	%xmm0, 1848(%rax)
	movq	1912(%rax), %r8
	movq	%r8, 1888(%rax)
	movups	1896(%rax), %xmm0
	movups	%xmm0, 1872(%rax)
	movq	1936(%rax), %r8
	movq	%r8, 1912(%rax)
	movups	1920(%rax), %xmm0
	movups	%xmm0, 1896(%rax)
	movq	1960(%rax), %r8
	movq	%r8, 1936(%rax)
	movups	1944(%rax), %xmm0
	movups	%xmm0, 1920(%rax)
	movq	1984(%rax), %r8
	movq	%r8, 1960(%rax)
	movups	1968(%rax), %xmm0
	movups	%xmm0, 1944(%rax)
	movq	2008(%rax), %r8
	movq	%r8, 1984(%rax)
	movups	1992(%rax), %xmm0
	movups	%xmm0, 1968(%rax)
	movq	2032(%rax), %r8
	movq	%r8, 2008(%rax)
	movups	2016(%rax), %xmm0
	movups	%xmm0, 1992(%rax)
	movq	2056(%rax), %r8
	movq	%r8, 2032(%rax)
	movups	2040(%rax), %xmm0
	movups	%xmm0, 2016(%rax)
	addq	$2040, %rax
	leaq	(%rdx,%rcx), %r8
	addq	$-85, %r8
	addq	$-85, %rcx
	cmpq	$85, %r8
	ja	.LBB35_4
	testq	%rcx, %rcx
	je	.LBB35_8
	addq	%rcx, %rdx
	movq	%rdx, %r8
	je	.LBB35_11
.LBB35_7:
	leaq	24(%rax), %rcx
	shlq	$3, %r8
	leaq	(%r8,%r8,2), %rdx
	movq	%rdi, %r14
	movq	%rax, %rdi
	movq	%rsi, %r15
	movq	%rcx, %rsi
	callq	memmove@PLT
	movq	%r15, %rsi
	movq	%r14, %rdi
.LBB35_11:
	leaq	(%rbx,%rbx,2), %rax
	movq	48(%rsp), %rcx
	movq	%rcx, 16(%rsi,%rax,8)
	movaps	32(%rsp), %xmm0
	movups	%xmm0, (%rsi,%rax,8)
	movq	96(%rsi), %rax
	decq	%rax
.LBB35_12:
	movq	%rax, 96(%rsi)
	leaq	(%rax,%rax,2), %rax
	movq	16(%rsi,%rax,8), %rcx
	movq	%rcx, 16(%rsp)
	movups	(%rsi,%rax,8), %xmm0
	movaps	%xmm0, (%rsp)
	xorps	%xmm0, %xmm0
	movups	%xmm0, (%rsi,%rax,8)
	movq	$0, 16(%rsi,%rax,8)
	movq	16(%rsp), %rax
	movq	%rax, 16(%rdi)
	movaps	(%rsp), %xmm0
	movups	%xmm0, (%rdi)
	addq	$64, %rsp
	popq	%rbx
	popq	%r14
	popq	%r15
	retq
.LBB35_8:
	testq	%rdx, %rdx
	je	.LBB35_11
	addq	%rdx, %rcx
	leaq	(%rdx,%rdx,2), %rax
	leaq	(%rsi,%rax,8), %rax
	addq	$-24, %rax
	.p2align	4
.LBB35_10:
	movq	16(%rax), %rdx
	movq	%rdx, -8(%rax)
	movups	(%rax), %xmm0
	movups	%xmm0, -24(%rax)
	addq	$-24, %rax
	decq	%rcx
	jne	.LBB35_10
	jmp	.LBB35_11
.Lfunc_end35:
	.size	"arrayvec::array_vec::ArrayVec::remove::<#86edd032541158b8>", .Lfunc_end35-"arrayvec::array_vec::ArrayVec::remove::<#86edd032541158b8>"

	.section	".text.sq_feed::feed::Feed::step_other","ax",@progbits
	.p2align	4
	.type	"sq_feed::feed::Feed::step_other",@function
"sq_feed::feed::Feed::step_other":
	pushq	%rbp
	pushq	%r15
	pushq	%r14
	pushq	%r13
	pushq	%r12
	pushq	%rbx
	subq	$3072, %rsp
	movq	$0, (%rsp)
	subq	$3072, %rsp
	movq	$0, (%rsp)
	subq	$3072, %rsp
	movq	$0, (%rsp)
	subq	$3072, %rsp
	movq	$0, (%rsp)
	subq	$3072, %rsp
	movq	$0, (%rsp)
	subq	$2008, %rsp
	movq	%r8, %rbx
	movq	%rcx, %r13
	movq	%rdx, %rcx
	movq	%rsi, %rdx
	movq	%rdi, %r14
	xorps	%xmm0, %xmm0
	movaps	%xmm0, 112(%rsp)
	movaps	%xmm0, 96(%rsp)
	movq	$0, 128(%rsp)
	movq	$0, 80(%rsp)
	movq	$0, 86(%rsp)
	movaps	%xmm0, 16(%rsp)
	movaps	%xmm0, 32(%rsp)
	movaps	%xmm0, 48(%rsp)
	movq	$0, 64(%rsp)
	movups	%xmm0, 200(%rsp)
	movups	%xmm0, 216(%rsp)
	movq	$0, 232(%rsp)
	movaps	%xmm0, 144(%rsp)
	movaps	%xmm0, 160(%rsp)
	movaps	%xmm0, 176(%rsp)
	movzbl	2(%rdi), %eax
	leaq	.LJTI36_0(%rip), %rsi
	movslq	(%rsi,%rax,4), %rax
	addq	%rsi, %rax
	jmpq	*%rax
.LBB36_6:
	leaq	16(%rsp), %rdi
	movq	%r14, %rsi
	callq	"sq_feed::reader::Reader::find"
	jmp	.LBB36_14
.LBB36_9:
	movq	%r13, 136(%rsp)
	movzbl	3(%r14), %eax
	movb	%al, 15(%rsp)
	movzbl	(%r14), %r12d
	movzbl	1(%r14), %ebp
	movzbl	%bpl, %r15d
	leaq	896(%rsp), %rdi
	movl	$16468, %edx
	xorl	%esi, %esi
	callq	memset@PLT
	movb	%r12b, 14(%rsp)
	cmpb	$1, %r12b
	jne	.LBB36_11
	xorl	%r12d, %r12d
	cmpb	$2, %bpl
	sete	%r12b
	leal	(%r12,%r12), %eax
	movzwl	%r15w, %r13d
	movq	%rax, %r15
	shll	$8, %r13d
	incl	%r13d
	leaq	900(%rsp), %rdi
	movl	$16464, %edx
	xorl	%esi, %esi
	callq	memset@PLT
	xorps	%xmm0, %xmm0
	movaps	%xmm0, 240(%rsp)
	movaps	%xmm0, 256(%rsp)
	movaps	%xmm0, 272(%rsp)
	movups	%xmm0, 281(%rsp)
	movaps	%xmm0, 304(%rsp)
	movaps	%xmm0, 320(%rsp)
	movaps	%xmm0, 336(%rsp)
	movups	%xmm0, 350(%rsp)
	leaq	368(%rsp), %rdi
	movl	$528, %edx
	xorl	%esi, %esi
	callq	memset@PLT
	jmp	.LBB36_12
.LBB36_7:
	leaq	192(%rsp), %rdi
	movq	%r14, %rsi
	callq	"sq_feed::reader::Reader::replay"
	movq	$0, 16(%rsp)
	movzbl	192(%rsp), %eax
	movq	%rax, 24(%rsp)
	movzwl	200(%rsp), %eax
	movw	%ax, 32(%rsp)
	movzbl	208(%rsp), %eax
	movq	%rax, 40(%rsp)
	movq	216(%rsp), %rax
	movq	%rax, 48(%rsp)
	movzbl	224(%rsp), %eax
	movb	%al, 56(%rsp)
	movq	225(%rsp), %rax
	movq	%rax, 57(%rsp)
	movq	231(%rsp), %rax
	movq	%rax, 63(%rsp)
	jmp	.LBB36_14
.LBB36_8:
	leaq	144(%rsp), %rdi
	movq	%r14, %rsi
	callq	"sq_feed::reader::Reader::end"
	movq	$0, 16(%rsp)
	movzbl	144(%rsp), %eax
	movq	%rax, 24(%rsp)
	movzwl	152(%rsp), %eax
	movw	%ax, 32(%rsp)
	movzbl	160(%rsp), %eax
	movq	%rax, 40(%rsp)
	movq	168(%rsp), %rax
	movq	%rax, 48(%rsp)
	movzbl	176(%rsp), %eax
	movb	%al, 56(%rsp)
	movq	177(%rsp), %rax
	movq	%rax, 57(%rsp)
	movq	183(%rsp), %rax
	movq	%rax, 63(%rsp)
	jmp	.LBB36_14
.LBB36_1:
	movaps	%xmm0, 928(%rsp)
	movaps	%xmm0, 912(%rsp)
	movaps	%xmm0, 896(%rsp)
	movq	$0, 944(%rsp)
	movzbl	16480(%r14), %eax
	leaq	.LJTI36_1(%rip), %rsi
	movslq	(%rsi,%rax,4), %rax
	addq	%rsi, %rax
	jmpq	*%rax
.LBB36_4:
	leaq	16608(%r14), %rsi
	leaq	896(%rsp), %rdi
	callq	"sq_feed::rows::Rows::take"
	jmp	.LBB36_5
.LBB36_13:
	movq	%rcx, 16(%rsp)
	movb	$0, 32(%rsp)
	movups	%xmm0, 40(%rsp)
	movups	%xmm0, 55(%rsp)
	jmp	.LBB36_14
.LBB36_11:
	movzwl	%r15w, %r13d
	shll	$8, %r13d
	leaq	900(%rsp), %rdi
	xorl	%r12d, %r12d
	movl	$16464, %edx
	xorl	%esi, %esi
	callq	memset@PLT
	xorps	%xmm0, %xmm0
	movaps	%xmm0, 240(%rsp)
	movaps	%xmm0, 256(%rsp)
	movaps	%xmm0, 272(%rsp)
	movups	%xmm0, 281(%rsp)
	movaps	%xmm0, 304(%rsp)
	movaps	%xmm0, 320(%rsp)
	movaps	%xmm0, 336(%rsp)
	movups	%xmm0, 350(%rsp)
	leaq	368(%rsp), %rdi
	movl	$528, %edx
	xorl	%esi, %esi
	callq	memset@PLT
	movb	$3, %bpl
	xorl	%r15d, %r15d
.LBB36_12:
	movw	%r13w, (%r14)
	movzbl	14(%rsp), %eax
	movb	%al, 2(%r14)
	movb	$0, 3(%r14)
	leaq	4(%r14), %rdi
	leaq	896(%rsp), %rsi
	movl	$16468, %edx
	callq	memcpy@PLT
	movq	$0, 16472(%r14)
	movb	%bpl, 16480(%r14)
	movaps	240(%rsp), %xmm0
	movaps	256(%rsp), %xmm1
	movaps	272(%rsp), %xmm2
	movups	%xmm0, 16481(%r14)
	movups	%xmm1, 16497(%r14)
	movups	%xmm2, 16513(%r14)
	movups	281(%rsp), %xmm0
	movups	%xmm0, 16522(%r14)
	movaps	304(%rsp), %xmm0
	movaps	320(%rsp), %xmm1
	movaps	336(%rsp), %xmm2
	movups	%xmm1, 16554(%r14)
	movups	%xmm2, 16570(%r14)
	movups	%xmm0, 16538(%r14)
	movups	350(%rsp), %xmm0
	movups	%xmm0, 16584(%r14)
	movq	$0, 16600(%r14)
	movq	%r12, 16608(%r14)
	movq	$0, 16616(%r14)
	movq	%r15, 16624(%r14)
	leaq	16632(%r14), %rdi
	leaq	368(%rsp), %rsi
	movl	$528, %edx
	callq	memcpy@PLT
	movq	$0, 16(%rsp)
	movq	$1, 24(%rsp)
	movb	$3, 32(%rsp)
	movzbl	15(%rsp), %eax
	movb	%al, 33(%rsp)
	xorps	%xmm0, %xmm0
	movups	%xmm0, 40(%rsp)
	movups	%xmm0, 55(%rsp)
	movq	136(%rsp), %r13
	jmp	.LBB36_14
.LBB36_2:
	leaq	16488(%r14), %rsi
	leaq	896(%rsp), %rdi
	callq	"sq_feed::beast::Beast::take"
	jmp	.LBB36_5
.LBB36_3:
	leaq	16536(%r14), %rsi
	leaq	896(%rsp), %rdi
	callq	"sq_feed::avr::Avr::take"
.LBB36_5:
	movq	944(%rsp), %rax
	movq	%rax, 64(%rsp)
	movaps	896(%rsp), %xmm0
	movaps	912(%rsp), %xmm1
	movaps	928(%rsp), %xmm2
	movaps	%xmm2, 48(%rsp)
	movaps	%xmm1, 32(%rsp)
	movaps	%xmm0, 16(%rsp)
.LBB36_14:
	movq	16(%rsp), %r12
	movzbl	24(%rsp), %esi
	movzbl	32(%rsp), %r15d
	movzbl	33(%rsp), %eax
	movzbl	40(%rsp), %ecx
	movq	48(%rsp), %rdx
	movzbl	56(%rsp), %ebp
	movq	57(%rsp), %rdi
	movq	%rdi, 80(%rsp)
	movq	63(%rsp), %rdi
	movq	%rdi, 86(%rsp)
	cmpb	$1, %sil
	jne	.LBB36_15
	movb	%r15b, 96(%rsp)
	movb	%al, 97(%rsp)
	movq	%rcx, 104(%rsp)
	movq	%rdx, 112(%rsp)
	movb	%bpl, 120(%rsp)
	movq	80(%rsp), %rax
	movq	86(%rsp), %rcx
	movq	%rax, 121(%rsp)
	movq	%rcx, 127(%rsp)
	leaq	17160(%r14), %rdi
	movq	%r13, %rdx
	leaq	17600(%r14), %r13
	leaq	96(%rsp), %rsi
	movq	%r13, %rcx
	callq	"sq_feed::ear::Ear::hear"
	cmpb	$1, %al
	jne	.LBB36_25
	movzbl	%r15b, %eax
	movq	%rdx, (%rbx)
	movl	%eax, %eax
	leaq	.LJTI36_2(%rip), %rcx
	movslq	(%rcx,%rax,4), %rax
	addq	%rcx, %rax
	jmpq	*%rax
.LBB36_23:
	movl	$0, 904(%rsp)
	movq	$0, 896(%rsp)
	xorl	%eax, %eax
.LBB36_24:
	movw	%ax, 8(%rbx)
	movq	896(%rsp), %rax
	movq	%rax, 10(%rbx)
	movl	904(%rsp), %eax
	movl	%eax, 18(%rbx)
	movb	$1, %dl
	jmp	.LBB36_28
.LBB36_15:
	xorl	%edx, %edx
	jmp	.LBB36_28
.LBB36_25:
	xorps	%xmm0, %xmm0
	movaps	%xmm0, 896(%rsp)
	movq	$0, 912(%rsp)
	movq	17696(%r14), %r14
	testq	%r14, %r14
	je	.LBB36_27
	leaq	896(%rsp), %rdi
	movq	%r13, %rsi
	callq	"arrayvec::array_vec::ArrayVec::remove::<#86edd032541158b8>"
	movq	912(%rsp), %rax
	movq	%rax, 16(%rbx)
	movaps	896(%rsp), %xmm0
	movups	%xmm0, (%rbx)
.LBB36_27:
	testq	%r14, %r14
	setne	%dl
.LBB36_28:
	movq	%r12, %rax
	addq	$17368, %rsp
	popq	%rbx
	popq	%r12
	popq	%r13
	popq	%r14
	popq	%r15
	popq	%rbp
	retq
.LBB36_18:
	movzbl	%bpl, %eax
	testl	%eax, %eax
	je	.LBB36_22
	cmpl	$1, %eax
	jne	.LBB36_20
	movzwl	121(%rsp), %eax
	movl	$0, 901(%rsp)
	movl	$0, 904(%rsp)
	movl	82(%rsp), %ecx
	movl	%ecx, 896(%rsp)
	movzbl	86(%rsp), %ecx
	movb	%cl, 900(%rsp)
	jmp	.LBB36_24
.LBB36_22:
	movl	$0, 904(%rsp)
	movq	$0, 896(%rsp)
	movzwl	121(%rsp), %eax
	jmp	.LBB36_24
.LBB36_20:
	movzwl	121(%rsp), %eax
	movq	82(%rsp), %rcx
	movq	%rcx, 896(%rsp)
	movl	90(%rsp), %ecx
	movl	%ecx, 904(%rsp)
	jmp	.LBB36_24
.Lfunc_end36:
	.size	"sq_feed::feed::Feed::step_other", .Lfunc_end36-"sq_feed::feed::Feed::step_other"
	.section	".rodata.sq_feed::feed::Feed::step_other","a",@progbits
	.p2align	2, 0x0
.LJTI36_0:
	.long	.LBB36_6-.LJTI36_0
	.long	.LBB36_1-.LJTI36_0
	.long	.LBB36_7-.LJTI36_0
	.long	.LBB36_8-.LJTI36_0
	.long	.LBB36_9-.LJTI36_0
	.long	.LBB36_13-.LJTI36_0
.LJTI36_1:
	.long	.LBB36_2-.LJTI36_1
	.long	.LBB36_3-.LJTI36_1
	.long	.LBB36_4-.LJTI36_1
	.long	.LBB36_4-.LJTI36_1
.LJTI36_2:
	.long	.LBB36_18-.LJTI36_2
	.long	.LBB36_23-.LJTI36_2
	.long	.LBB36_23-.LJTI36_2
	.long	.LBB36_23-.LJTI36_2

	.section	.rodata.cst16,"aM",@progbits,16
	.p2align	4, 0x0
.LCPI37_0:
	.zero	16,26
	.section	".text.sq_feed::beast::Beast::take","ax",@progbits
	.p2align	4
	.type	"sq_feed::beast::Beast::take",@function
"sq_feed::beast::Beast::take":
	pushq	%rbx
	subq	$192, %rsp
	movq	%rdi, %rbx
	pxor	%xmm0, %xmm0
	movdqa	%xmm0, 80(%rsp)
	movdqa	%xmm0, 64(%rsp)
	movdqa	%xmm0, 48(%rsp)
	movq	$0, 96(%rsp)
	cmpb	$1, (%rsi)
	je	.LBB37_5
	cmpb	$0, 40(%rsi)
	jne	.LBB37_5
	cmpq	$2, %rcx
	jb	.LBB37_4
	cmpb	$26, (%rdx)
	jne	.LBB37_4
	movzbl	1(%rdx), %eax
	cmpl	$51, %eax
	je	.LBB37_15
	cmpl	$50, %eax
	je	.LBB37_8
	cmpl	$49, %eax
	jne	.LBB37_4
	movl	$9, %r8d
	xorl	%eax, %eax
	jmp	.LBB37_11
.LBB37_8:
	movl	$14, %r8d
	movb	$1, %al
.LBB37_11:
	leaq	2(%r8), %rdi
	cmpq	%rdi, %rcx
	jb	.LBB37_4
	xorl	%r9d, %r9d
	.p2align	4
.LBB37_13:
	cmpq	%r9, %r8
	je	.LBB37_19
	cmpb	$26, 2(%rdx,%r9)
	leaq	1(%r9), %r9
	jne	.LBB37_13
	jmp	.LBB37_4
.LBB37_15:
	cmpq	$23, %rcx
	jb	.LBB37_4
	movdqu	2(%rdx), %xmm0
	movdqa	.LCPI37_0(%rip), %xmm1
	pcmpeqb	%xmm0, %xmm1
	pmovmskb	%xmm1, %eax
	testl	%eax, %eax
	jne	.LBB37_4
	movdqa	%xmm0, 144(%rsp)
	movdqu	7(%rdx), %xmm1
	pcmpeqb	.LCPI37_0(%rip), %xmm1
	pmovmskb	%xmm1, %eax
	testl	%eax, %eax
	je	.LBB37_18
.LBB37_4:
	movl	$0, 24(%rsp)
	movq	$0, 16(%rsp)
.LBB37_5:
	leaq	48(%rsp), %rdi
	callq	"sq_feed::beast::Beast::take_bytes"
	movq	96(%rsp), %rax
	movq	%rax, 48(%rbx)
	movaps	48(%rsp), %xmm0
	movaps	64(%rsp), %xmm1
	movaps	80(%rsp), %xmm2
	movups	%xmm2, 32(%rbx)
	movups	%xmm1, 16(%rbx)
	movups	%xmm0, (%rbx)
	addq	$192, %rsp
	popq	%rbx
	retq
.LBB37_19:
	movzbl	2(%rdx), %ecx
	movzbl	3(%rdx), %r9d
	movl	4(%rdx), %esi
	addq	$-7, %r8
.LBB37_20:
	shlq	$32, %rsi
	movzbl	%r9b, %r9d
	shll	$24, %r9d
	movzbl	%cl, %ecx
	shll	$16, %ecx
	orl	%r9d, %ecx
	orq	%rsi, %rcx
	bswapq	%rcx
	movq	$0, 32(%rsp)
	movl	$0, 40(%rsp)
	cmpb	$2, %al
	je	.LBB37_28
	movzbl	%al, %esi
	cmpl	$1, %esi
	jne	.LBB37_22
	cmpl	$7, %r8d
	jne	.LBB37_26
	movzwl	9(%rdx), %esi
	movzbl	15(%rdx), %r8d
	movb	%r8b, 4(%rsp)
	movl	11(%rdx), %edx
	movl	%edx, (%rsp)
	jmp	.LBB37_27
.LBB37_28:
	cmpl	$14, %r8d
	jne	.LBB37_30
	movzwl	9(%rdx), %esi
	movl	19(%rdx), %r8d
	movl	%r8d, 8(%rsp)
	movq	11(%rdx), %rdx
	movq	%rdx, (%rsp)
	jmp	.LBB37_31
.LBB37_22:
	cmpl	$2, %r8d
	jne	.LBB37_23
	movzwl	9(%rdx), %esi
	jmp	.LBB37_33
.LBB37_26:
	movb	$0, 4(%rsp)
	movl	$0, (%rsp)
	xorl	%esi, %esi
.LBB37_27:
	movzbl	4(%rsp), %edx
	movb	%dl, 132(%rsp)
	movl	(%rsp), %r8d
	movl	%r8d, 128(%rsp)
	movl	%r8d, 32(%rsp)
	movb	%dl, 36(%rsp)
	jmp	.LBB37_33
.LBB37_30:
	movl	$0, 8(%rsp)
	movq	$0, (%rsp)
	xorl	%esi, %esi
.LBB37_31:
	movl	8(%rsp), %edx
	movl	%edx, 136(%rsp)
	movq	(%rsp), %r8
	movq	%r8, 128(%rsp)
	movq	%r8, 32(%rsp)
	movl	%edx, 40(%rsp)
	jmp	.LBB37_33
.LBB37_23:
	xorl	%esi, %esi
.LBB37_33:
	movq	32(%rsp), %rdx
	movl	40(%rsp), %r8d
	movl	%r8d, 120(%rsp)
	movq	%rdx, 112(%rsp)
	movq	%rdi, 48(%rsp)
	movq	$1, 56(%rsp)
	movw	$0, 64(%rsp)
	movq	$1, 72(%rsp)
	movq	%rcx, 80(%rsp)
	movb	%al, 88(%rsp)
	movw	%si, 89(%rsp)
	movl	120(%rsp), %eax
	movl	%eax, 99(%rsp)
	movq	112(%rsp), %rax
	movq	%rax, 91(%rsp)
	movzwl	64(%rsp), %eax
	movw	%ax, 16(%rbx)
	movl	66(%rsp), %eax
	movl	%eax, 18(%rbx)
	movzwl	70(%rsp), %eax
	movw	%ax, 22(%rbx)
	movq	72(%rsp), %rax
	movq	%rax, 24(%rbx)
	movaps	48(%rsp), %xmm0
	movups	%xmm0, (%rbx)
	movq	96(%rsp), %rax
	movq	%rax, 48(%rbx)
	movq	80(%rsp), %rax
	movq	%rax, 32(%rbx)
	movzbl	88(%rsp), %eax
	movb	%al, 40(%rbx)
	movzwl	89(%rsp), %eax
	movw	%ax, 41(%rbx)
	movl	91(%rsp), %eax
	movl	%eax, 43(%rbx)
	movzbl	95(%rsp), %eax
	movb	%al, 47(%rbx)
	addq	$192, %rsp
	popq	%rbx
	retq
.LBB37_18:
	movq	%xmm0, %rsi
	shrq	$16, %rsi
	movzbl	144(%rsp), %ecx
	movzbl	145(%rsp), %r9d
	movb	$2, %al
	movl	$14, %r8d
	movl	$23, %edi
	jmp	.LBB37_20
.Lfunc_end37:
	.size	"sq_feed::beast::Beast::take", .Lfunc_end37-"sq_feed::beast::Beast::take"

	.section	.rodata.cst16,"aM",@progbits,16
	.p2align	4, 0x0
.LCPI38_0:
	.zero	16,26
	.section	".text.sq_feed::beast::Beast::take_bytes","ax",@progbits
	.p2align	4
	.type	"sq_feed::beast::Beast::take_bytes",@function
"sq_feed::beast::Beast::take_bytes":
	pushq	%rbp
	pushq	%r15
	pushq	%r14
	pushq	%r13
	pushq	%r12
	pushq	%rbx
	subq	$72, %rsp
	movq	%rcx, %r14
	movq	%rdi, 8(%rsp)
	pxor	%xmm0, %xmm0
	movdqa	%xmm0, 48(%rsp)
	movdqa	%xmm0, 32(%rsp)
	movdqa	%xmm0, 16(%rsp)
	testq	%rcx, %rcx
	je	.LBB38_49
	movq	%rdx, %r15
	movq	%rsi, %r12
	xorl	%ebp, %ebp
	jmp	.LBB38_3
	.p2align	4
.LBB38_2:
	movq	%r13, %rbp
	cmpq	%r14, %r13
	jae	.LBB38_49
.LBB38_3:
	cmpb	$0, 40(%r12)
	jne	.LBB38_8
	cmpb	$1, (%r12)
	jne	.LBB38_8
	cmpb	$0, 1(%r12)
	jne	.LBB38_8
	leaq	(%r15,%rbp), %rsi
	movq	%r14, %rcx
	subq	%rbp, %rcx
	movzbl	2(%r12), %edx
	leaq	".Lswitch.table.sq_feed::beast::Beast::take_byte.350"(%rip), %rdi
	movq	32(%r12), %rbx
	movq	%rbx, %rax
	notq	%rax
	addq	(%rdi,%rdx,8), %rax
	cmpq	%rcx, %rax
	cmovaeq	%rcx, %rax
	movq	%rax, %rcx
	shrq	$4, %rcx
	je	.LBB38_16
	xorl	%edx, %edx
	.p2align	4
.LBB38_14:
	movdqu	(%rsi,%rdx), %xmm0
	pcmpeqb	.LCPI38_0(%rip), %xmm0
	pmovmskb	%xmm0, %edi
	orl	$65536, %edi
	rep		bsfl	%edi, %edi
	cmpw	$15, %di
	jbe	.LBB38_25
	addq	$16, %rdx
	decq	%rcx
	jne	.LBB38_14
.LBB38_16:
	cmpq	$15, %rax
	ja	.LBB38_22
	testq	%rax, %rax
	je	.LBB38_29
	xorl	%r13d, %r13d
	.p2align	4
.LBB38_19:
	cmpb	$26, (%rsi,%r13)
	je	.LBB38_23
	incq	%r13
	cmpq	%r13, %rax
	jne	.LBB38_19
	movq	%rax, %r13
	movl	$21, %eax
	subq	%rbx, %rax
	cmpq	%r13, %rax
	jb	.LBB38_8
	jmp	.LBB38_26
.LBB38_22:
	movdqu	-16(%rsi,%rax), %xmm0
	pcmpeqb	.LCPI38_0(%rip), %xmm0
	pmovmskb	%xmm0, %ecx
	orl	$65536, %ecx
	rep		bsfl	%ecx, %ecx
	cmpw	$16, %cx
	leaq	-16(%rax,%rcx), %r13
	cmovaeq	%rax, %r13
.LBB38_23:
	movl	$21, %eax
	subq	%rbx, %rax
	cmpq	%r13, %rax
	jae	.LBB38_26
	.p2align	4
.LBB38_8:
	xorl	%r13d, %r13d
	addq	%rbp, %r13
	cmpq	%r14, %r13
	jae	.LBB38_2
.LBB38_10:
	movzbl	(%r15,%r13), %edx
	leaq	16(%rsp), %rdi
	movq	%r12, %rsi
	callq	"sq_feed::beast::Beast::take_byte"
	cmpb	$1, 16(%rsp)
	je	.LBB38_50
	incq	%r13
	jmp	.LBB38_2
.LBB38_25:
	movzwl	%di, %r13d
	addq	%rdx, %r13
	movl	$21, %eax
	subq	%rbx, %rax
	cmpq	%r13, %rax
	jb	.LBB38_8
.LBB38_26:
	leaq	8(%r12), %rax
	leaq	(%rax,%rbx), %rdi
	movq	%rdi, %rax
	subq	%rsi, %rax
	cmpq	%r13, %rax
	jae	.LBB38_30
	cmpq	$4, %r13
	jb	.LBB38_28
	leaq	8(%r12), %rax
	addq	%rbx, %rax
	subq	%rsi, %rax
	cmpq	$32, %rax
	jae	.LBB38_33
.LBB38_28:
	xorl	%eax, %eax
.LBB38_42:
	movq	%r13, %rdx
	movq	%rax, %rcx
	andq	$3, %rdx
	je	.LBB38_45
	movq	%rax, %rcx
	.p2align	4
.LBB38_44:
	movzbl	(%rsi,%rcx), %r8d
	movb	%r8b, (%rdi,%rcx)
	incq	%rcx
	decq	%rdx
	jne	.LBB38_44
.LBB38_45:
	subq	%r13, %rax
	cmpq	$-4, %rax
	ja	.LBB38_48
	leaq	3(%r15), %rax
	addq	%rbp, %rax
	leaq	11(%r12), %rdx
	addq	%rbx, %rdx
	.p2align	4
.LBB38_47:
	movzbl	-3(%rax,%rcx), %esi
	movb	%sil, -3(%rdx,%rcx)
	movzbl	-2(%rax,%rcx), %esi
	movb	%sil, -2(%rdx,%rcx)
	movzbl	-1(%rax,%rcx), %esi
	movb	%sil, -1(%rdx,%rcx)
	movzbl	(%rax,%rcx), %esi
	movb	%sil, (%rdx,%rcx)
	addq	$4, %rcx
	cmpq	%rcx, %r13
	jne	.LBB38_47
	jmp	.LBB38_48
.LBB38_29:
	leaq	8(%r12), %rax
	leaq	(%rax,%rbx), %rdi
	xorl	%r13d, %r13d
.LBB38_30:
	movq	%r13, %rdx
	callq	memmove@PLT
.LBB38_48:
	addq	%r13, %rbx
	movq	%rbx, 32(%r12)
	addq	%rbp, %r13
	cmpq	%r14, %r13
	jae	.LBB38_2
	jmp	.LBB38_10
.LBB38_33:
	cmpq	$32, %r13
	jae	.LBB38_35
	xorl	%eax, %eax
	jmp	.LBB38_39
.LBB38_35:
	movq	%r13, %rax
	andq	$-32, %rax
	leaq	16(%r15), %rcx
	addq	%rbp, %rcx
	leaq	24(%r12), %rdx
	addq	%rbx, %rdx
	xorl	%r8d, %r8d
	.p2align	4
.LBB38_36:
	movdqu	-16(%rcx,%r8), %xmm0
	movups	(%rcx,%r8), %xmm1
	movdqu	%xmm0, -16(%rdx,%r8)
	movups	%xmm1, (%rdx,%r8)
	addq	$32, %r8
	cmpq	%r8, %rax
	jne	.LBB38_36
	cmpq	%rax, %r13
	je	.LBB38_48
	testb	$28, %r13b
	je	.LBB38_42
.LBB38_39:
	movq	%rax, %rcx
	movq	%r13, %rax
	andq	$-4, %rax
	.p2align	4
.LBB38_40:
	movl	(%rsi,%rcx), %edx
	movl	%edx, (%rdi,%rcx)
	addq	$4, %rcx
	cmpq	%rcx, %rax
	jne	.LBB38_40
	cmpq	%rax, %r13
	je	.LBB38_48
	jmp	.LBB38_42
.LBB38_49:
	movq	8(%rsp), %rax
	movq	%r14, (%rax)
	pxor	%xmm0, %xmm0
	movdqu	%xmm0, 8(%rax)
	movdqu	%xmm0, 24(%rax)
	movdqu	%xmm0, 40(%rax)
	jmp	.LBB38_51
.LBB38_50:
	movzwl	24(%rsp), %eax
	movzbl	32(%rsp), %ecx
	movq	40(%rsp), %rdx
	movzbl	48(%rsp), %esi
	incq	%r13
	movq	8(%rsp), %rdi
	movq	%r13, (%rdi)
	movq	$1, 8(%rdi)
	movw	%ax, 16(%rdi)
	movl	$0, 18(%rdi)
	movw	$0, 22(%rdi)
	movq	%rcx, 24(%rdi)
	movq	%rdx, 32(%rdi)
	movb	%sil, 40(%rdi)
	movq	49(%rsp), %rax
	movq	55(%rsp), %rcx
	movq	%rcx, 47(%rdi)
	movq	%rax, 41(%rdi)
	movb	$0, 55(%rdi)
.LBB38_51:
	addq	$72, %rsp
	popq	%rbx
	popq	%r12
	popq	%r13
	popq	%r14
	popq	%r15
	popq	%rbp
	retq
.Lfunc_end38:
	.size	"sq_feed::beast::Beast::take_bytes", .Lfunc_end38-"sq_feed::beast::Beast::take_bytes"

	.section	".text.sq_feed::beast::Beast::take_byte","ax",@progbits
	.p2align	4
	.type	"sq_feed::beast::Beast::take_byte",@function
"sq_feed::beast::Beast::take_byte":
	cmpb	$1, 40(%rsi)
	jne	.LBB39_9
	movb	$0, 40(%rsi)
	cmpb	$26, %dl
	jne	.LBB39_11
	cmpb	$1, (%rsi)
	jne	.LBB39_18
	movzbl	1(%rsi), %eax
	leaq	.LJTI39_2(%rip), %rcx
	movslq	(%rcx,%rax,4), %rax
	addq	%rcx, %rax
	jmpq	*%rax
.LBB39_4:
	movzbl	2(%rsi), %eax
	movzbl	%al, %r8d
	movq	32(%rsi), %rdx
	movb	$26, 8(%rsi,%rdx)
	leaq	1(%rdx), %rcx
	movq	%rcx, 32(%rsi)
	leaq	".Lswitch.table.sq_feed::beast::Beast::take_byte.350"(%rip), %r9
	cmpq	(%r9,%r8,8), %rcx
	jb	.LBB39_17
	movzbl	8(%rsi), %ecx
	movl	10(%rsi), %r9d
	shlq	$32, %r9
	movzbl	9(%rsi), %r10d
	shll	$24, %r10d
	shll	$16, %ecx
	orl	%r10d, %ecx
	orq	%r9, %rcx
	addq	$-6, %rdx
	movq	$0, -64(%rsp)
	movl	$0, -56(%rsp)
	cmpl	$2, %r8d
	je	.LBB39_36
	cmpl	$1, %r8d
	jne	.LBB39_42
	cmpq	$7, %rdx
	jne	.LBB39_34
.LBB39_8:
	movzwl	15(%rsi), %edx
	movzbl	21(%rsi), %r8d
	movb	%r8b, -92(%rsp)
	movl	17(%rsi), %r8d
	movl	%r8d, -96(%rsp)
	jmp	.LBB39_35
.LBB39_9:
	cmpb	$26, %dl
	jne	.LBB39_15
	movb	$1, 40(%rsi)
	movq	$0, (%rdi)
	movw	$0, 8(%rdi)
	xorps	%xmm0, %xmm0
	movups	%xmm0, 16(%rdi)
	movups	%xmm0, 31(%rdi)
	retq
.LBB39_11:
	cmpb	$1, (%rsi)
	jne	.LBB39_21
	movzbl	1(%rsi), %ecx
	shll	$3, %ecx
	movl	$16908289, %eax
	shrl	%cl, %eax
	leaq	".Lswitch.table.sq_feed::reader::Reader::end"(%rip), %r8
	movq	(%rcx,%r8), %rcx
	movzbl	%dl, %r8d
	leal	-49(%r8), %edx
	cmpl	$3, %edx
	ja	.LBB39_22
.LBB39_13:
	leaq	.LJTI39_1(%rip), %r8
	movslq	(%r8,%rdx,4), %rdx
	addq	%r8, %rdx
	jmpq	*%rdx
.LBB39_14:
	xorl	%edx, %edx
	jmp	.LBB39_27
.LBB39_15:
	cmpb	$1, (%rsi)
	jne	.LBB39_18
	movzbl	1(%rsi), %eax
	leaq	.LJTI39_0(%rip), %rcx
	movslq	(%rcx,%rax,4), %rax
	addq	%rcx, %rax
	jmpq	*%rax
.LBB39_17:
	movl	$0, -72(%rsp)
	movq	$0, -80(%rsp)
	xorl	%edx, %edx
	xorl	%esi, %esi
	xorl	%r8d, %r8d
	jmp	.LBB39_19
.LBB39_18:
	movw	$257, (%rsi)
	movb	$0, 2(%rsi)
	movl	$0, -72(%rsp)
	movq	$0, -80(%rsp)
	movb	$1, %r8b
	movl	$1, %esi
	xorl	%edx, %edx
.LBB39_19:
	xorl	%r9d, %r9d
	xorl	%ecx, %ecx
	xorl	%eax, %eax
.LBB39_20:
	movq	%rsi, (%rdi)
	movb	%r8b, 8(%rdi)
	movb	$0, 9(%rdi)
	movq	%r9, 16(%rdi)
	movq	%rcx, 24(%rdi)
	movb	%al, 32(%rdi)
	movw	%dx, 33(%rdi)
	movq	-80(%rsp), %rax
	movq	%rax, 35(%rdi)
	movl	-72(%rsp), %eax
	movl	%eax, 43(%rdi)
	retq
.LBB39_21:
	xorl	%eax, %eax
	xorl	%ecx, %ecx
	movzbl	%dl, %r8d
	leal	-49(%r8), %edx
	cmpl	$3, %edx
	jbe	.LBB39_13
.LBB39_22:
	cmpl	$227, %r8d
	jne	.LBB39_24
	movb	$2, %dl
	jmp	.LBB39_27
.LBB39_24:
	movb	$3, %dl
	jmp	.LBB39_27
.LBB39_25:
	movb	$2, %r8b
	xorl	%edx, %edx
	jmp	.LBB39_28
.LBB39_26:
	movb	$1, %dl
.LBB39_27:
	xorl	%r8d, %r8d
.LBB39_28:
	movb	$1, (%rsi)
	movb	%dl, 1(%rsi)
	movb	%r8b, 2(%rsi)
	xorps	%xmm0, %xmm0
	movups	%xmm0, 8(%rsi)
	movups	%xmm0, 24(%rsi)
	movq	%rcx, (%rdi)
	movb	%al, 8(%rdi)
	movb	$0, 9(%rdi)
	movups	%xmm0, 16(%rdi)
	movups	%xmm0, 31(%rdi)
	retq
.LBB39_29:
	movb	$1, %r8b
	xorl	%edx, %edx
	jmp	.LBB39_28
.LBB39_30:
	movzbl	2(%rsi), %eax
	movzbl	%al, %r9d
	movq	32(%rsi), %r8
	movb	%dl, 8(%rsi,%r8)
	leaq	1(%r8), %rcx
	movq	%rcx, 32(%rsi)
	leaq	".Lswitch.table.sq_feed::beast::Beast::take_byte.350"(%rip), %rdx
	cmpq	(%rdx,%r9,8), %rcx
	jb	.LBB39_17
	movzbl	8(%rsi), %ecx
	movl	10(%rsi), %edx
	shlq	$32, %rdx
	movzbl	9(%rsi), %r10d
	shll	$24, %r10d
	shll	$16, %ecx
	orl	%r10d, %ecx
	orq	%rdx, %rcx
	addq	$-6, %r8
	movq	$0, -64(%rsp)
	movl	$0, -56(%rsp)
	cmpl	$2, %r9d
	je	.LBB39_38
	cmpl	$1, %r9d
	jne	.LBB39_44
	cmpq	$7, %r8
	je	.LBB39_8
.LBB39_34:
	movb	$0, -92(%rsp)
	movl	$0, -96(%rsp)
	xorl	%edx, %edx
.LBB39_35:
	movzbl	-92(%rsp), %r8d
	movb	%r8b, -44(%rsp)
	movl	-96(%rsp), %r9d
	movl	%r9d, -48(%rsp)
	movl	%r9d, -64(%rsp)
	movb	%r8b, -60(%rsp)
	jmp	.LBB39_41
.LBB39_36:
	cmpq	$14, %rdx
	jne	.LBB39_39
.LBB39_37:
	movzwl	15(%rsi), %edx
	movl	25(%rsi), %r8d
	movl	%r8d, -88(%rsp)
	movq	17(%rsi), %r8
	movq	%r8, -96(%rsp)
	jmp	.LBB39_40
.LBB39_38:
	cmpq	$14, %r8
	je	.LBB39_37
.LBB39_39:
	movl	$0, -88(%rsp)
	movq	$0, -96(%rsp)
	xorl	%edx, %edx
.LBB39_40:
	movl	-88(%rsp), %r8d
	movl	%r8d, -40(%rsp)
	movq	-96(%rsp), %r9
	movq	%r9, -48(%rsp)
	movq	%r9, -64(%rsp)
	movl	%r8d, -56(%rsp)
	jmp	.LBB39_41
.LBB39_42:
	cmpq	$2, %rdx
	jne	.LBB39_47
.LBB39_43:
	movzwl	15(%rsi), %edx
	jmp	.LBB39_41
.LBB39_44:
	cmpq	$2, %r8
	je	.LBB39_43
.LBB39_47:
	xorl	%edx, %edx
.LBB39_41:
	bswapq	%rcx
	movl	-56(%rsp), %r8d
	movq	-64(%rsp), %r9
	movq	%r9, -96(%rsp)
	movl	%r8d, -88(%rsp)
	movw	$0, (%rsi)
	movb	$0, 2(%rsi)
	movl	-88(%rsp), %esi
	movl	%esi, -72(%rsp)
	movq	-96(%rsp), %rsi
	movq	%rsi, -80(%rsp)
	movl	$1, %esi
	xorl	%r8d, %r8d
	movl	$1, %r9d
	jmp	.LBB39_20
.Lfunc_end39:
	.size	"sq_feed::beast::Beast::take_byte", .Lfunc_end39-"sq_feed::beast::Beast::take_byte"
	.section	".rodata.sq_feed::beast::Beast::take_byte","a",@progbits
	.p2align	2, 0x0
.LJTI39_0:
	.long	.LBB39_30-.LJTI39_0
	.long	.LBB39_17-.LJTI39_0
	.long	.LBB39_17-.LJTI39_0
	.long	.LBB39_17-.LJTI39_0
.LJTI39_1:
	.long	.LBB39_14-.LJTI39_1
	.long	.LBB39_29-.LJTI39_1
	.long	.LBB39_25-.LJTI39_1
	.long	.LBB39_26-.LJTI39_1
.LJTI39_2:
	.long	.LBB39_4-.LJTI39_2
	.long	.LBB39_17-.LJTI39_2
	.long	.LBB39_17-.LJTI39_2
	.long	.LBB39_17-.LJTI39_2

	.section	.rodata.cst16,"aM",@progbits,16
	.p2align	4, 0x0
.LCPI40_0:
	.zero	16,198
.LCPI40_1:
	.zero	16,6
.LCPI40_2:
	.zero	16,16
.LCPI40_3:
	.zero	16,223
.LCPI40_4:
	.zero	16,64
.LCPI40_5:
	.zero	16,10
.LCPI40_6:
	.zero	16,191
.LCPI40_7:
	.short	255
	.short	255
	.short	255
	.short	255
	.short	255
	.short	255
	.short	255
	.short	255
.LCPI40_8:
	.zero	16,240
	.section	".text.sq_feed::avr::Avr::take","ax",@progbits
	.p2align	4
	.type	"sq_feed::avr::Avr::take",@function
"sq_feed::avr::Avr::take":
	pushq	%rbx
	subq	$64, %rsp
	movq	%rdi, %rbx
	pxor	%xmm0, %xmm0
	movdqa	%xmm0, 32(%rsp)
	movdqa	%xmm0, 16(%rsp)
	movdqa	%xmm0, (%rsp)
	movq	$0, 48(%rsp)
	cmpb	$1, (%rsi)
	je	.LBB40_21
	cmpb	$0, 64(%rsi)
	jne	.LBB40_21
	cmpq	$0, 56(%rsi)
	setne	%al
	testq	%rcx, %rcx
	sete	%dil
	orb	%al, %dil
	jne	.LBB40_21
	movzbl	(%rdx), %r9d
	cmpl	$13, %r9d
	je	.LBB40_6
	cmpl	$10, %r9d
	jne	.LBB40_5
.LBB40_6:
	cmpq	$1, %rcx
	je	.LBB40_21
	movzbl	1(%rdx), %eax
	cmpb	$10, %al
	sete	%dil
	cmpb	$13, %al
	sete	%al
	orb	%dil, %al
	movzbl	%al, %eax
	incq	%rax
	movq	%rcx, %r8
	subq	%rax, %r8
	je	.LBB40_21
	leaq	(%rdx,%rax), %rdi
	movzbl	(%rdx,%rax), %r9d
	jmp	.LBB40_9
.LBB40_5:
	xorl	%eax, %eax
	movq	%rcx, %r8
	movq	%rdx, %rdi
.LBB40_9:
	movzbl	%r9b, %r9d
	addl	$-37, %r9d
	cmpl	$27, %r9d
	ja	.LBB40_21
	leaq	.LJTI40_0(%rip), %r10
	movslq	(%r10,%r9,4), %r9
	addq	%r10, %r9
	jmpq	*%r9
.LBB40_15:
	cmpq	$42, %r8
	jb	.LBB40_21
	cmpb	$59, 41(%rdi)
	jne	.LBB40_21
	movdqa	.LCPI40_0(%rip), %xmm4
	movdqu	1(%rdi), %xmm2
	movdqu	17(%rdi), %xmm1
	movdqu	25(%rdi), %xmm0
	movdqa	%xmm2, %xmm10
	paddb	%xmm4, %xmm10
	movdqa	.LCPI40_1(%rip), %xmm6
	psubusb	%xmm6, %xmm10
	movdqa	.LCPI40_2(%rip), %xmm3
	paddb	%xmm3, %xmm10
	movdqa	.LCPI40_3(%rip), %xmm7
	pand	%xmm7, %xmm2
	movdqa	.LCPI40_4(%rip), %xmm5
	movdqa	%xmm5, %xmm11
	psubb	%xmm2, %xmm11
	movdqa	.LCPI40_5(%rip), %xmm8
	pminub	%xmm8, %xmm11
	movdqa	.LCPI40_6(%rip), %xmm9
	paddb	%xmm9, %xmm2
	paddb	%xmm11, %xmm2
	pminub	%xmm10, %xmm2
	movdqa	%xmm1, %xmm10
	paddb	%xmm4, %xmm10
	psubusb	%xmm6, %xmm10
	paddb	%xmm3, %xmm10
	pand	%xmm7, %xmm1
	movdqa	%xmm5, %xmm11
	psubb	%xmm1, %xmm11
	pminub	%xmm8, %xmm11
	paddb	%xmm9, %xmm1
	paddb	%xmm11, %xmm1
	pminub	%xmm10, %xmm1
	paddb	%xmm0, %xmm4
	psubusb	%xmm6, %xmm4
	paddb	%xmm3, %xmm4
	pand	%xmm7, %xmm0
	psubb	%xmm0, %xmm5
	pminub	%xmm8, %xmm5
	paddb	%xmm9, %xmm0
	paddb	%xmm5, %xmm0
	pminub	%xmm4, %xmm0
	movdqa	%xmm1, %xmm4
	por	%xmm2, %xmm4
	movdqa	%xmm4, %xmm5
	pmaxub	%xmm3, %xmm5
	pcmpeqb	%xmm4, %xmm5
	pmaxub	%xmm0, %xmm3
	pcmpeqb	%xmm0, %xmm3
	por	%xmm5, %xmm3
	pmovmskb	%xmm3, %edi
	testl	%edi, %edi
	jne	.LBB40_21
	movdqa	.LCPI40_7(%rip), %xmm3
	movdqa	%xmm2, %xmm4
	pand	%xmm3, %xmm4
	packuswb	%xmm4, %xmm4
	psrlw	$8, %xmm2
	packuswb	%xmm2, %xmm2
	psllw	$4, %xmm4
	movdqa	.LCPI40_8(%rip), %xmm5
	pand	%xmm5, %xmm4
	por	%xmm2, %xmm4
	movdqa	%xmm1, %xmm2
	pand	%xmm3, %xmm2
	packuswb	%xmm2, %xmm2
	psrlw	$8, %xmm1
	packuswb	%xmm1, %xmm1
	psllw	$4, %xmm2
	pand	%xmm5, %xmm2
	por	%xmm1, %xmm2
	pand	%xmm0, %xmm3
	packuswb	%xmm3, %xmm3
	movdqa	%xmm4, %xmm1
	psrlq	$16, %xmm1
	movd	%xmm1, %esi
	pextrw	$3, %xmm4, %ecx
	shlq	$32, %rsi
	pslldq	$14, %xmm4
	psrldq	$14, %xmm4
	psllq	$16, %xmm4
	pxor	%xmm1, %xmm1
	movq	%xmm4, %rdx
	orq	%rsi, %rdx
	bswapq	%rdx
	punpckhbw	%xmm1, %xmm0
	pshuflw	$231, %xmm0, %xmm0
	pshufhw	$231, %xmm0, %xmm0
	pshufd	$232, %xmm0, %xmm0
	pshuflw	$177, %xmm0, %xmm1
	pshufd	$85, %xmm3, %xmm0
	psllw	$4, %xmm0
	pand	.LCPI40_8(%rip), %xmm0
	packuswb	%xmm1, %xmm1
	por	%xmm1, %xmm0
	movl	$42, %edi
	movl	$1, %esi
	jmp	.LBB40_19
.LBB40_11:
	cmpq	$30, %r8
	jb	.LBB40_21
	cmpb	$59, 29(%rdi)
	jne	.LBB40_21
	movdqa	.LCPI40_0(%rip), %xmm2
	movdqu	1(%rdi), %xmm1
	movdqu	13(%rdi), %xmm0
	movdqa	%xmm1, %xmm4
	paddb	%xmm2, %xmm4
	movdqa	.LCPI40_1(%rip), %xmm5
	psubusb	%xmm5, %xmm4
	movdqa	.LCPI40_2(%rip), %xmm3
	paddb	%xmm3, %xmm4
	movdqa	.LCPI40_3(%rip), %xmm6
	pand	%xmm6, %xmm1
	movdqa	.LCPI40_4(%rip), %xmm7
	movdqa	%xmm7, %xmm8
	psubb	%xmm1, %xmm8
	movdqa	.LCPI40_5(%rip), %xmm9
	pminub	%xmm9, %xmm8
	movdqa	.LCPI40_6(%rip), %xmm10
	paddb	%xmm10, %xmm1
	paddb	%xmm8, %xmm1
	pminub	%xmm4, %xmm1
	paddb	%xmm0, %xmm2
	psubusb	%xmm5, %xmm2
	paddb	%xmm3, %xmm2
	pand	%xmm6, %xmm0
	psubb	%xmm0, %xmm7
	pminub	%xmm9, %xmm7
	paddb	%xmm10, %xmm0
	paddb	%xmm7, %xmm0
	pminub	%xmm2, %xmm0
	movdqa	%xmm0, %xmm2
	por	%xmm1, %xmm2
	pmaxub	%xmm2, %xmm3
	pcmpeqb	%xmm2, %xmm3
	pmovmskb	%xmm3, %edi
	testl	%edi, %edi
	je	.LBB40_14
.LBB40_21:
	movq	%rsp, %rdi
	callq	"sq_feed::avr::Avr::take_bytes"
	movq	48(%rsp), %rax
	movq	%rax, 48(%rbx)
	movaps	(%rsp), %xmm0
	movaps	16(%rsp), %xmm1
	movaps	32(%rsp), %xmm2
	movups	%xmm2, 32(%rbx)
	movups	%xmm1, 16(%rbx)
	movups	%xmm0, (%rbx)
	addq	$64, %rsp
	popq	%rbx
	retq
.LBB40_14:
	movdqa	.LCPI40_7(%rip), %xmm3
	movdqa	%xmm1, %xmm2
	pand	%xmm3, %xmm2
	packuswb	%xmm2, %xmm2
	psrlw	$8, %xmm1
	packuswb	%xmm1, %xmm1
	psllw	$4, %xmm2
	movdqa	.LCPI40_8(%rip), %xmm4
	pand	%xmm4, %xmm2
	por	%xmm1, %xmm2
	pand	%xmm0, %xmm3
	packuswb	%xmm3, %xmm3
	psrlw	$8, %xmm0
	packuswb	%xmm0, %xmm0
	psllw	$4, %xmm3
	pand	%xmm4, %xmm3
	por	%xmm0, %xmm3
	movd	%xmm2, %ecx
	punpcklwd	%xmm3, %xmm2
	pshufhw	$232, %xmm2, %xmm0
	pshufd	$230, %xmm0, %xmm0
	pshuflw	$210, %xmm0, %xmm2
	pshufd	$85, %xmm3, %xmm0
	movl	$30, %edi
	xorl	%esi, %esi
	xorl	%edx, %edx
.LBB40_19:
	addq	%rax, %rdi
	movq	%rdi, (%rsp)
	movq	$1, 8(%rsp)
	movb	$0, 17(%rsp)
	movq	%rsi, 24(%rsp)
	movq	%rdx, 32(%rsp)
	movb	$2, 40(%rsp)
	movw	%cx, 41(%rsp)
	movq	%xmm2, 43(%rsp)
	movd	%xmm0, 51(%rsp)
	movzbl	16(%rsp), %eax
	movb	%al, 16(%rbx)
	movzbl	17(%rsp), %eax
	movb	%al, 17(%rbx)
	movl	18(%rsp), %eax
	movl	%eax, 18(%rbx)
	movzwl	22(%rsp), %eax
	movw	%ax, 22(%rbx)
	movq	24(%rsp), %rax
	movq	%rax, 24(%rbx)
	movq	32(%rsp), %rax
	movq	%rax, 32(%rbx)
	movzbl	40(%rsp), %eax
	movb	%al, 40(%rbx)
	movzwl	41(%rsp), %eax
	movw	%ax, 41(%rbx)
	movl	43(%rsp), %eax
	movl	%eax, 43(%rbx)
	movzbl	47(%rsp), %eax
	movb	%al, 47(%rbx)
	movq	48(%rsp), %rax
	movq	%rax, 48(%rbx)
	movaps	(%rsp), %xmm0
	movups	%xmm0, (%rbx)
	addq	$64, %rsp
	popq	%rbx
	retq
.Lfunc_end40:
	.size	"sq_feed::avr::Avr::take", .Lfunc_end40-"sq_feed::avr::Avr::take"
	.section	".rodata.sq_feed::avr::Avr::take","a",@progbits
	.p2align	2, 0x0
.LJTI40_0:
	.long	.LBB40_15-.LJTI40_0
	.long	.LBB40_21-.LJTI40_0
	.long	.LBB40_21-.LJTI40_0
	.long	.LBB40_21-.LJTI40_0
	.long	.LBB40_21-.LJTI40_0
	.long	.LBB40_11-.LJTI40_0
	.long	.LBB40_21-.LJTI40_0
	.long	.LBB40_21-.LJTI40_0
	.long	.LBB40_21-.LJTI40_0
	.long	.LBB40_21-.LJTI40_0
	.long	.LBB40_21-.LJTI40_0
	.long	.LBB40_21-.LJTI40_0
	.long	.LBB40_21-.LJTI40_0
	.long	.LBB40_21-.LJTI40_0
	.long	.LBB40_21-.LJTI40_0
	.long	.LBB40_21-.LJTI40_0
	.long	.LBB40_21-.LJTI40_0
	.long	.LBB40_21-.LJTI40_0
	.long	.LBB40_21-.LJTI40_0
	.long	.LBB40_21-.LJTI40_0
	.long	.LBB40_21-.LJTI40_0
	.long	.LBB40_11-.LJTI40_0
	.long	.LBB40_21-.LJTI40_0
	.long	.LBB40_21-.LJTI40_0
	.long	.LBB40_21-.LJTI40_0
	.long	.LBB40_21-.LJTI40_0
	.long	.LBB40_21-.LJTI40_0
	.long	.LBB40_15-.LJTI40_0

	.section	".text.sq_feed::avr::Avr::take_bytes","ax",@progbits
	.p2align	4
	.type	"sq_feed::avr::Avr::take_bytes",@function
"sq_feed::avr::Avr::take_bytes":
	pushq	%rbp
	pushq	%r15
	pushq	%r14
	pushq	%r13
	pushq	%r12
	pushq	%rbx
	subq	$88, %rsp
	movq	%rdi, %rbx
	movq	%rcx, 24(%rsp)
	testq	%rcx, %rcx
	je	.LBB41_24
	movq	%rdx, %r15
	movq	%rsi, %r12
	leaq	65(%rsp), %r13
	movq	24(%rsp), %r14
	negq	%r14
	movl	$1, %ebp
	jmp	.LBB41_2
.LBB41_22:
	movb	$1, 64(%r12)
.LBB41_23:
	movq	$0, 14(%rsp)
	movq	$0, 8(%rsp)
	leaq	(%r14,%rbp), %rax
	incq	%rax
	incq	%rbp
	cmpq	$1, %rax
	je	.LBB41_24
	.p2align	4
.LBB41_2:
	movzbl	-1(%r15,%rbp), %eax
	xorps	%xmm0, %xmm0
	movaps	%xmm0, 64(%rsp)
	movaps	%xmm0, 48(%rsp)
	movaps	%xmm0, 32(%rsp)
	movzbl	%al, %ecx
	leal	-10(%rcx), %edx
	cmpl	$54, %edx
	ja	.LBB41_5
	leaq	.LJTI41_0(%rip), %rcx
	movslq	(%rcx,%rdx,4), %rdx
	addq	%rcx, %rdx
	jmpq	*%rdx
.LBB41_4:
	movb	$1, %cl
	jmp	.LBB41_15
	.p2align	4
.LBB41_5:
	addl	$-187, %ecx
	cmpl	$52, %ecx
	ja	.LBB41_9
	movabsq	$4503599627370513, %rdx
	btq	%rcx, %rdx
	jae	.LBB41_9
.LBB41_7:
	movb	$2, %al
	jmp	.LBB41_17
.LBB41_8:
	xorl	%eax, %eax
	jmp	.LBB41_17
.LBB41_9:
	cmpb	$0, 64(%r12)
	jne	.LBB41_23
	cmpb	$48, %al
	jb	.LBB41_22
	cmpb	$58, %al
	jae	.LBB41_20
.LBB41_12:
	movq	56(%r12), %rcx
	cmpq	$41, %rcx
	ja	.LBB41_22
	movb	%al, 8(%r12,%rcx)
	incq	%rcx
	movq	%rcx, 56(%r12)
	jmp	.LBB41_23
.LBB41_14:
	movb	$2, %cl
.LBB41_15:
	xorl	%eax, %eax
	jmp	.LBB41_18
.LBB41_16:
	movb	$1, %al
	.p2align	4
.LBB41_17:
	xorl	%ecx, %ecx
.LBB41_18:
	movzbl	%al, %edx
	movzbl	%cl, %ecx
	leaq	32(%rsp), %rdi
	movq	%r12, %rsi
	callq	"sq_feed::avr::Avr::close"
	movzbl	40(%rsp), %esi
	cmpb	$1, 32(%rsp)
	movzbl	41(%rsp), %edi
	movzbl	48(%rsp), %eax
	movq	56(%rsp), %rcx
	movzbl	64(%rsp), %edx
	movq	(%r13), %r8
	movq	6(%r13), %r9
	movq	%r8, 8(%rsp)
	movq	%r9, 14(%rsp)
	je	.LBB41_25
	leaq	(%r14,%rbp), %rax
	incq	%rax
	incq	%rbp
	cmpq	$1, %rax
	jne	.LBB41_2
	jmp	.LBB41_24
.LBB41_20:
	cmpb	$65, %al
	jb	.LBB41_22
	cmpb	$71, %al
	setb	%cl
	leal	-97(%rax), %edx
	cmpb	$6, %dl
	setb	%dl
	orb	%cl, %dl
	jne	.LBB41_12
	jmp	.LBB41_22
.LBB41_24:
	movq	24(%rsp), %rax
	movq	%rax, (%rbx)
	xorps	%xmm0, %xmm0
	movups	%xmm0, 8(%rbx)
	movups	%xmm0, 24(%rbx)
	movups	%xmm0, 40(%rbx)
	jmp	.LBB41_26
.LBB41_25:
	movq	%rbp, (%rbx)
	movq	$1, 8(%rbx)
	movb	%sil, 16(%rbx)
	movb	%dil, 17(%rbx)
	movl	$0, 18(%rbx)
	movw	$0, 22(%rbx)
	movq	%rax, 24(%rbx)
	movq	%rcx, 32(%rbx)
	movb	%dl, 40(%rbx)
	movq	8(%rsp), %rax
	movq	14(%rsp), %rcx
	movq	%rax, 41(%rbx)
	movq	%rcx, 47(%rbx)
	movb	$0, 55(%rbx)
.LBB41_26:
	addq	$88, %rsp
	popq	%rbx
	popq	%r12
	popq	%r13
	popq	%r14
	popq	%r15
	popq	%rbp
	retq
.Lfunc_end41:
	.size	"sq_feed::avr::Avr::take_bytes", .Lfunc_end41-"sq_feed::avr::Avr::take_bytes"
	.section	".rodata.sq_feed::avr::Avr::take_bytes","a",@progbits
	.p2align	2, 0x0
.LJTI41_0:
	.long	.LBB41_7-.LJTI41_0
	.long	.LBB41_9-.LJTI41_0
	.long	.LBB41_9-.LJTI41_0
	.long	.LBB41_7-.LJTI41_0
	.long	.LBB41_9-.LJTI41_0
	.long	.LBB41_9-.LJTI41_0
	.long	.LBB41_9-.LJTI41_0
	.long	.LBB41_9-.LJTI41_0
	.long	.LBB41_9-.LJTI41_0
	.long	.LBB41_9-.LJTI41_0
	.long	.LBB41_9-.LJTI41_0
	.long	.LBB41_9-.LJTI41_0
	.long	.LBB41_9-.LJTI41_0
	.long	.LBB41_9-.LJTI41_0
	.long	.LBB41_9-.LJTI41_0
	.long	.LBB41_9-.LJTI41_0
	.long	.LBB41_9-.LJTI41_0
	.long	.LBB41_9-.LJTI41_0
	.long	.LBB41_9-.LJTI41_0
	.long	.LBB41_9-.LJTI41_0
	.long	.LBB41_9-.LJTI41_0
	.long	.LBB41_9-.LJTI41_0
	.long	.LBB41_9-.LJTI41_0
	.long	.LBB41_9-.LJTI41_0
	.long	.LBB41_9-.LJTI41_0
	.long	.LBB41_9-.LJTI41_0
	.long	.LBB41_9-.LJTI41_0
	.long	.LBB41_4-.LJTI41_0
	.long	.LBB41_9-.LJTI41_0
	.long	.LBB41_9-.LJTI41_0
	.long	.LBB41_9-.LJTI41_0
	.long	.LBB41_9-.LJTI41_0
	.long	.LBB41_8-.LJTI41_0
	.long	.LBB41_9-.LJTI41_0
	.long	.LBB41_9-.LJTI41_0
	.long	.LBB41_9-.LJTI41_0
	.long	.LBB41_9-.LJTI41_0
	.long	.LBB41_9-.LJTI41_0
	.long	.LBB41_9-.LJTI41_0
	.long	.LBB41_9-.LJTI41_0
	.long	.LBB41_9-.LJTI41_0
	.long	.LBB41_9-.LJTI41_0
	.long	.LBB41_9-.LJTI41_0
	.long	.LBB41_9-.LJTI41_0
	.long	.LBB41_9-.LJTI41_0
	.long	.LBB41_9-.LJTI41_0
	.long	.LBB41_9-.LJTI41_0
	.long	.LBB41_9-.LJTI41_0
	.long	.LBB41_8-.LJTI41_0
	.long	.LBB41_16-.LJTI41_0
	.long	.LBB41_14-.LJTI41_0
	.long	.LBB41_9-.LJTI41_0
	.long	.LBB41_9-.LJTI41_0
	.long	.LBB41_9-.LJTI41_0
	.long	.LBB41_4-.LJTI41_0

	.section	.rodata.cst16,"aM",@progbits,16
	.p2align	4, 0x0
.LCPI42_0:
	.zero	16,10
	.section	".text.sq_feed::rows::Rows::take","ax",@progbits
	.p2align	4
	.type	"sq_feed::rows::Rows::take",@function
"sq_feed::rows::Rows::take":
	pushq	%r15
	pushq	%r14
	pushq	%r13
	pushq	%r12
	pushq	%rbx
	subq	$160, %rsp
	movq	%rdi, %rbx
	pxor	%xmm0, %xmm0
	movdqa	%xmm0, 32(%rsp)
	movdqa	%xmm0, 16(%rsp)
	movdqa	%xmm0, (%rsp)
	movq	$0, 48(%rsp)
	movdqa	%xmm0, 80(%rsp)
	movdqa	%xmm0, 96(%rsp)
	movdqa	%xmm0, 112(%rsp)
	cmpb	$0, 544(%rsi)
	jne	.LBB42_17
	cmpq	$0, 536(%rsi)
	je	.LBB42_2
.LBB42_17:
	movq	%rsp, %rdi
	callq	"sq_feed::rows::Rows::take_bytes"
	movq	48(%rsp), %rax
	movq	%rax, 48(%rbx)
	movaps	(%rsp), %xmm0
	movaps	16(%rsp), %xmm1
	movaps	32(%rsp), %xmm2
	movups	%xmm2, 32(%rbx)
	movups	%xmm1, 16(%rbx)
	movups	%xmm0, (%rbx)
.LBB42_19:
	addq	$160, %rsp
	popq	%rbx
	popq	%r12
	popq	%r13
	popq	%r14
	popq	%r15
	retq
.LBB42_2:
	cmpq	$512, %rcx
	movl	$512, %eax
	cmovbq	%rcx, %rax
	movl	%eax, %edi
	shrl	$4, %edi
	je	.LBB42_7
	shll	$4, %edi
	xorl	%r8d, %r8d
	.p2align	4
.LBB42_5:
	movdqu	(%rdx,%r8), %xmm0
	pcmpeqb	.LCPI42_0(%rip), %xmm0
	pmovmskb	%xmm0, %r9d
	orl	$65536, %r9d
	rep		bsfl	%r9d, %r9d
	cmpw	$15, %r9w
	jbe	.LBB42_6
	addq	$16, %r8
	cmpq	%r8, %rdi
	jne	.LBB42_5
.LBB42_7:
	cmpq	$15, %rcx
	ja	.LBB42_12
	testq	%rcx, %rcx
	je	.LBB42_17
	xorl	%r14d, %r14d
	.p2align	4
.LBB42_10:
	cmpb	$10, (%rdx,%r14)
	je	.LBB42_13
	incq	%r14
	cmpq	%r14, %rax
	jne	.LBB42_10
	jmp	.LBB42_17
.LBB42_12:
	movdqu	-16(%rdx,%rax), %xmm0
	pcmpeqb	.LCPI42_0(%rip), %xmm0
	pmovmskb	%xmm0, %edi
	orl	$65536, %edi
	rep		bsfl	%edi, %edi
	cmpw	$16, %di
	leaq	-16(%rax,%rdi), %r14
	cmovaeq	%rax, %r14
.LBB42_13:
	cmpq	%r14, %rax
	jbe	.LBB42_17
	jmp	.LBB42_14
.LBB42_6:
	movzwl	%r9w, %r14d
	addq	%r8, %r14
	cmpq	%r14, %rax
	jbe	.LBB42_17
.LBB42_14:
	movq	%rcx, %r15
	movzbl	(%rsi), %eax
	movq	%rax, 136(%rsp)
	movq	%rsi, %r12
	movdqu	8(%rsi), %xmm0
	movdqu	%xmm0, 144(%rsp)
	leaq	80(%rsp), %rdi
	leaq	136(%rsp), %rsi
	movq	%rdx, %r13
	movq	%r14, %rcx
	callq	"sq_feed::rows::row_read"
	cmpb	$2, 80(%rsp)
	jne	.LBB42_16
	cmpb	$0, 88(%rsp)
	jne	.LBB42_16
	movzbl	96(%rsp), %eax
	movq	104(%rsp), %rcx
	movzbl	112(%rsp), %edx
	incq	%r14
	movq	119(%rsp), %rsi
	movq	%rsi, 70(%rsp)
	movq	113(%rsp), %rsi
	movq	%rsi, 64(%rsp)
	movq	%r14, (%rsp)
	movq	$1, 8(%rsp)
	movw	$0, 16(%rsp)
	movq	%rax, 24(%rsp)
	movq	%rcx, 32(%rsp)
	movb	%dl, 40(%rsp)
	movq	64(%rsp), %rax
	movq	70(%rsp), %rcx
	movq	%rcx, 47(%rsp)
	movq	%rax, 41(%rsp)
	movzwl	16(%rsp), %eax
	movw	%ax, 16(%rbx)
	movl	18(%rsp), %eax
	movl	%eax, 18(%rbx)
	movzwl	22(%rsp), %eax
	movw	%ax, 22(%rbx)
	movq	24(%rsp), %rax
	movq	%rax, 24(%rbx)
	movq	(%rsp), %rax
	movq	%rax, (%rbx)
	movq	8(%rsp), %rax
	movq	%rax, 8(%rbx)
	movaps	32(%rsp), %xmm0
	movups	%xmm0, 32(%rbx)
	movq	48(%rsp), %rax
	movq	%rax, 48(%rbx)
	jmp	.LBB42_19
.LBB42_16:
	movq	%r15, %rcx
	movq	%r13, %rdx
	movq	%r12, %rsi
	jmp	.LBB42_17
.Lfunc_end42:
	.size	"sq_feed::rows::Rows::take", .Lfunc_end42-"sq_feed::rows::Rows::take"

	.section	".text.sq_feed::rows::Rows::take_bytes","ax",@progbits
	.p2align	4
	.type	"sq_feed::rows::Rows::take_bytes",@function
"sq_feed::rows::Rows::take_bytes":
	pushq	%rbp
	pushq	%r15
	pushq	%r14
	pushq	%r13
	pushq	%r12
	pushq	%rbx
	subq	$216, %rsp
	movq	%rdi, 72(%rsp)
	movw	$0, 20(%rsp)
	movl	$0, 16(%rsp)
	movq	%rcx, 80(%rsp)
	testq	%rcx, %rcx
	je	.LBB43_16
	movq	%rsi, %r13
	leaq	24(%rsi), %rax
	movq	%rax, 104(%rsp)
	movq	80(%rsp), %rsi
	negq	%rsi
	movl	$1, %ebp
	movq	%rdx, 136(%rsp)
	movq	%rsi, 128(%rsp)
	jmp	.LBB43_2
	.p2align	4
.LBB43_14:
	movq	$0, 32(%rsp)
	movq	$0, 38(%rsp)
	movq	136(%rsp), %rdx
	movq	128(%rsp), %rsi
	leaq	(%rsi,%rbp), %rax
	incq	%rax
	incq	%rbp
	cmpq	$1, %rax
	je	.LBB43_16
.LBB43_2:
	movzbl	-1(%rdx,%rbp), %eax
	cmpb	$10, %al
	jne	.LBB43_9
	xorps	%xmm0, %xmm0
	movaps	%xmm0, 144(%rsp)
	movaps	%xmm0, 160(%rsp)
	movaps	%xmm0, 176(%rsp)
	cmpb	$1, 544(%r13)
	je	.LBB43_4
	movzbl	(%r13), %eax
	movq	%rax, 192(%rsp)
	leaq	8(%r13), %rax
	movups	(%rax), %xmm0
	leaq	200(%rsp), %rax
	movups	%xmm0, (%rax)
	movq	536(%r13), %rcx
	leaq	144(%rsp), %rdi
	leaq	192(%rsp), %rsi
	leaq	24(%r13), %r15
	movq	%r15, %rdx
	callq	"sq_feed::rows::row_read"
	movzbl	144(%rsp), %ebx
	movq	168(%rsp), %rax
	movq	%rax, 120(%rsp)
	movzbl	176(%rsp), %eax
	movq	%rax, 112(%rsp)
	movzbl	152(%rsp), %r14d
	movzbl	153(%rsp), %r12d
	movzbl	160(%rsp), %eax
	movb	%al, 15(%rsp)
	leaq	177(%rsp), %rdx
	movl	-23(%rdx), %eax
	movl	%eax, 24(%rsp)
	movzwl	-19(%rdx), %eax
	movw	%ax, 28(%rsp)
	movl	-16(%rdx), %eax
	movl	-13(%rdx), %ecx
	movl	%eax, 48(%rsp)
	movl	%ecx, 51(%rsp)
	movq	(%rdx), %rax
	movq	6(%rdx), %rcx
	movq	%rax, 56(%rsp)
	movq	%rcx, 62(%rsp)
	movl	$521, %edx
	movq	%r15, %rdi
	xorl	%esi, %esi
	callq	memset@PLT
	testl	%ebx, %ebx
	je	.LBB43_14
	cmpl	$1, %ebx
	jne	.LBB43_7
	movq	$1, (%r13)
	movb	%r14b, 8(%r13)
	movb	%r12b, 9(%r13)
	movzwl	28(%rsp), %eax
	leaq	10(%r13), %rcx
	movw	%ax, 4(%rcx)
	movl	24(%rsp), %eax
	movl	%eax, (%rcx)
	movzbl	15(%rsp), %eax
	movb	%al, 16(%r13)
	movl	48(%rsp), %eax
	movl	51(%rsp), %ecx
	leaq	17(%r13), %rdx
	movl	%ecx, 3(%rdx)
	movl	%eax, (%rdx)
	jmp	.LBB43_14
	.p2align	4
.LBB43_9:
	movq	536(%r13), %rcx
	cmpq	$511, %rcx
	ja	.LBB43_11
	movb	%al, 24(%r13,%rcx)
	incq	%rcx
	movq	%rcx, 536(%r13)
	jmp	.LBB43_12
	.p2align	4
.LBB43_11:
	movb	$1, 544(%r13)
.LBB43_12:
	movq	$0, 38(%rsp)
	movq	$0, 32(%rsp)
	leaq	(%rsi,%rbp), %rax
	incq	%rax
	incq	%rbp
	cmpq	$1, %rax
	jne	.LBB43_2
.LBB43_16:
	movq	72(%rsp), %rax
	movq	80(%rsp), %rcx
	movq	%rcx, (%rax)
	xorps	%xmm0, %xmm0
	movups	%xmm0, 8(%rax)
	movups	%xmm0, 24(%rax)
	movups	%xmm0, 40(%rax)
	jmp	.LBB43_17
.LBB43_4:
	movq	$0, 62(%rsp)
	movq	$0, 56(%rsp)
	xorl	%ebx, %ebx
	movl	$521, %edx
	movq	104(%rsp), %rdi
	xorl	%esi, %esi
	callq	memset@PLT
	movb	$1, %r14b
	xorl	%esi, %esi
	xorl	%r12d, %r12d
	xorl	%eax, %eax
	jmp	.LBB43_8
.LBB43_7:
	movzbl	15(%rsp), %eax
	movq	120(%rsp), %rbx
	movq	112(%rsp), %rsi
.LBB43_8:
	movq	56(%rsp), %rcx
	movq	62(%rsp), %rdx
	movq	%rdx, 94(%rsp)
	movq	%rcx, 88(%rsp)
	movq	88(%rsp), %rcx
	movq	94(%rsp), %rdx
	movq	%rcx, 32(%rsp)
	movq	%rdx, 38(%rsp)
	movq	72(%rsp), %rdx
	movq	%rbp, (%rdx)
	movq	$1, 8(%rdx)
	movb	%r14b, 16(%rdx)
	movb	%r12b, 17(%rdx)
	movl	16(%rsp), %ecx
	movl	%ecx, 18(%rdx)
	movzwl	20(%rsp), %ecx
	movw	%cx, 22(%rdx)
	movq	%rax, 24(%rdx)
	movq	%rbx, 32(%rdx)
	movb	%sil, 40(%rdx)
	movq	32(%rsp), %rax
	movq	38(%rsp), %rcx
	movq	%rax, 41(%rdx)
	movq	%rcx, 47(%rdx)
	movb	$0, 55(%rdx)
.LBB43_17:
	addq	$216, %rsp
	popq	%rbx
	popq	%r12
	popq	%r13
	popq	%r14
	popq	%r15
	popq	%rbp
	retq
.Lfunc_end43:
	.size	"sq_feed::rows::Rows::take_bytes", .Lfunc_end43-"sq_feed::rows::Rows::take_bytes"

	.section	".text.sq_feed::reader::Reader::find","ax",@progbits
	.p2align	4
	.type	"sq_feed::reader::Reader::find",@function
"sq_feed::reader::Reader::find":
	pushq	%rbp
	pushq	%r15
	pushq	%r14
	pushq	%r13
	pushq	%r12
	pushq	%rbx
	subq	$120, %rsp
	movq	%rdx, 56(%rsp)
	movq	%rdi, 40(%rsp)
	movq	$0, 14(%rsp)
	movq	$0, 8(%rsp)
	testq	%rcx, %rcx
	je	.LBB44_80
	movq	%rsi, %r14
	leaq	8(%rsi), %rbx
	xorl	%r15d, %r15d
	movq	%rcx, 48(%rsp)
	.p2align	4
.LBB44_2:
	movq	56(%rsp), %rax
	movzbl	(%rax,%r15), %r13d
	movb	%r13b, 7(%rsp)
	xorps	%xmm0, %xmm0
	movaps	%xmm0, 96(%rsp)
	movaps	%xmm0, 80(%rsp)
	movaps	%xmm0, 64(%rsp)
	movq	$0, 112(%rsp)
	leaq	64(%rsp), %rdi
	leaq	7(%rsp), %rdx
	movl	$1, %ecx
	movq	%rbx, %rsi
	callq	"sq_feed::beast::Beast::take_bytes"
	cmpb	$1, 72(%rsp)
	jne	.LBB44_7
	movzbl	80(%rsp), %ecx
	movzbl	56(%r14), %eax
	movl	%ecx, %ecx
	leaq	.LJTI44_0(%rip), %rdx
	movslq	(%rdx,%rcx,4), %rcx
	addq	%rdx, %rcx
	jmpq	*%rcx
.LBB44_4:
	xorl	%eax, %eax
	jmp	.LBB44_6
.LBB44_5:
	cmpb	$2, %al
	adcb	$0, %al
.LBB44_6:
	movb	%al, 56(%r14)
.LBB44_7:
	cmpb	$1, (%rbx)
	jne	.LBB44_10
	movzbl	9(%r14), %eax
	leaq	.LJTI44_1(%rip), %rcx
	movslq	(%rcx,%rax,4), %rax
	addq	%rcx, %rax
	jmpq	*%rax
.LBB44_9:
	xorl	%r8d, %r8d
	jmp	.LBB44_11
	.p2align	4
.LBB44_10:
	movzbl	56(%r14), %r8d
.LBB44_11:
	movzbl	%r13b, %eax
	movq	16448(%r14), %rbx
	movb	%r13b, 64(%r14,%rbx)
	incq	%rbx
	movq	%rbx, 16448(%r14)
	movq	16456(%r14), %rdi
	leaq	64(%r14), %rcx
	leaq	(%rcx,%rdi), %r9
	movq	%rbx, %rdx
	subq	%rdi, %rdx
	cmpl	$10, %eax
	je	.LBB44_31
	cmpl	$59, %eax
	jne	.LBB44_33
	leaq	-1(%rdx), %rax
	cmpq	$3, %rax
	jb	.LBB44_18
	movzbl	(%r9), %ecx
	cmpb	$-17, %cl
	jne	.LBB44_20
	cmpb	$-69, 1(%r9)
	jne	.LBB44_34
	cmpb	$-65, 2(%r9)
	jne	.LBB44_34
	addq	$3, %r9
	addq	$-4, %rdx
	movq	%rdx, %rax
.LBB44_18:
	testq	%rax, %rax
	je	.LBB44_34
	movzbl	(%r9), %ecx
.LBB44_20:
	movzbl	%cl, %ecx
	xorl	%r12d, %r12d
	addl	$-37, %ecx
	cmpl	$27, %ecx
	ja	.LBB44_35
	leaq	.LJTI44_2(%rip), %rdx
	movslq	(%rdx,%rcx,4), %rcx
	addq	%rdx, %rcx
	xorl	%ebp, %ebp
	jmpq	*%rcx
.LBB44_22:
	movl	$1, %r12d
.LBB44_23:
	leaq	-1(%rax), %rcx
	cmpq	$42, %rcx
	ja	.LBB44_34
.LBB44_24:
	testq	%rcx, %rcx
	je	.LBB44_52
	movl	$1, %ecx
	jmp	.LBB44_27
	.p2align	4
.LBB44_26:
	incq	%rcx
	cmpq	%rcx, %rax
	je	.LBB44_52
.LBB44_27:
	movzbl	(%r9,%rcx), %edx
	cmpb	$48, %dl
	jb	.LBB44_34
	cmpb	$58, %dl
	jb	.LBB44_26
	cmpb	$65, %dl
	jb	.LBB44_34
	cmpb	$71, %dl
	setae	%sil
	addb	$-97, %dl
	cmpb	$6, %dl
	setae	%dl
	testb	%dl, %sil
	je	.LBB44_26
	jmp	.LBB44_34
	.p2align	4
.LBB44_31:
	movzbl	16464(%r14), %edi
	decq	%rdx
	movq	%r9, %rsi
	movl	%r8d, %ebx
	callq	"sq_feed::signs::line_sign"
	cmpb	$1, %bl
	ja	.LBB44_84
	movl	%eax, %r12d
	movl	%edx, %ebp
	movq	16448(%r14), %rbx
	jmp	.LBB44_38
	.p2align	4
.LBB44_33:
	testq	%rdi, %rdi
	je	.LBB44_47
.LBB44_34:
	xorl	%r12d, %r12d
.LBB44_35:
	xorl	%ebp, %ebp
.LBB44_36:
	cmpb	$1, %r8b
	ja	.LBB44_84
	cmpb	$10, %r13b
	jne	.LBB44_41
.LBB44_38:
	movb	$1, %al
	cmpb	$0, 16464(%r14)
	jne	.LBB44_40
	movq	16456(%r14), %rsi
	leaq	64(%r14), %rax
	leaq	(%rax,%rsi), %rdi
	notq	%rsi
	addq	%rbx, %rsi
	callq	"sq_feed::signs::is_framed_line"
.LBB44_40:
	movb	%al, 16464(%r14)
	movq	%rbx, 16456(%r14)
	movq	%rbx, %rdi
.LBB44_41:
	xorl	%r13d, %r13d
	cmpb	$2, %r12b
	sete	%al
	movzbl	%bpl, %ebp
	movl	$0, %ecx
	cmovel	%ebp, %ecx
	cmpb	$1, 16465(%r14)
	sete	%dl
	movzbl	16466(%r14), %esi
	cmovnel	%ecx, %esi
	orb	%al, %dl
	movb	%dl, 16465(%r14)
	movb	%sil, 16466(%r14)
	cmpq	$16384, %rbx
	jne	.LBB44_45
	leaq	64(%r14), %rax
	leaq	(%rax,%rdi), %rsi
	movl	$16384, %edx
	subq	%rdi, %rdx
	movl	$1, %edi
	callq	"sq_feed::signs::line_sign"
	movw	$257, %r13w
	cmpb	$0, 16464(%r14)
	movzbl	%dl, %ecx
	jne	.LBB44_44
	cmpb	$2, %al
	movl	$11, %edx
	cmovel	%ecx, %edx
	cmpb	$1, 16465(%r14)
	movzbl	16466(%r14), %r13d
	cmovnel	%edx, %r13d
	shll	$8, %r13d
	orl	$2, %r13d
.LBB44_44:
	shll	$8, %ecx
	incl	%ecx
	cmpb	$1, %al
	cmovel	%ecx, %r13d
.LBB44_45:
	shll	$8, %ebp
	incl	%ebp
	cmpb	$1, %r12b
	cmovel	%ebp, %r13d
	testb	%r13b, %r13b
	jne	.LBB44_81
	incq	%r15
	movq	48(%rsp), %rcx
	cmpq	%rcx, %r15
	leaq	8(%r14), %rbx
	jne	.LBB44_2
	jmp	.LBB44_80
.LBB44_47:
	leaq	-2(%rdx), %rax
	cmpq	$3, %rax
	ja	.LBB44_53
	leaq	.LJTI44_3(%rip), %rcx
	movslq	(%rcx,%rax,4), %rax
	addq	%rcx, %rax
	jmpq	*%rax
.LBB44_49:
	cmpb	$26, (%r9)
	jne	.LBB44_34
	movzbl	1(%r9), %eax
	movb	$1, %r12b
	xorl	%ebp, %ebp
	leal	-49(%rax), %ecx
	cmpl	$4, %ecx
	jb	.LBB44_36
	cmpl	$227, %eax
	jne	.LBB44_34
	jmp	.LBB44_36
.LBB44_52:
	leaq	".Lswitch.table.sq_feed::reader::Reader::find"(%rip), %rcx
	movq	(%rcx,%r12,8), %rcx
	leaq	5(%rcx), %rdx
	cmpq	%rdx, %rax
	sete	%dl
	leaq	15(%rcx), %rsi
	cmpq	%rsi, %rax
	sete	%sil
	orb	%dl, %sil
	addq	$29, %rcx
	cmpq	%rcx, %rax
	sete	%r12b
	orb	%sil, %r12b
	movl	%r12d, %ebp
	jmp	.LBB44_36
.LBB44_53:
	cmpq	$262, %rdx
	jne	.LBB44_34
	cmpl	$1635021685, 257(%r9)
	jne	.LBB44_34
	addq	$257, %r9
	leaq	.Lstatic.66(%rip), %rdx
	movl	$5, %esi
	movq	%rdi, %r12
	movq	%r9, %rdi
	movl	%r8d, %ebp
	callq	"core::cmp::slices::groups_equal::<i8,31'core::cmp::numbers::U8PartialEq{}>"
	movl	%ebp, %r8d
	movq	%r12, %rdi
	testb	%al, %al
	je	.LBB44_34
	movb	$1, %bpl
	movb	$2, %r12b
	jmp	.LBB44_36
.LBB44_57:
	movl	$2, %r12d
	leaq	-1(%rax), %rcx
	cmpq	$42, %rcx
	jbe	.LBB44_24
	jmp	.LBB44_34
.LBB44_58:
	movzbl	(%r9), %esi
	movl	%esi, %eax
	xorb	$40, %al
	movzbl	1(%r9), %edx
	movzbl	2(%r9), %r10d
	movl	%edx, %ecx
	xorb	$-75, %cl
	orb	%al, %cl
	movl	%r10d, %eax
	xorb	$47, %al
	orb	%cl, %al
	movzbl	3(%r9), %r11d
	movl	%r11d, %ecx
	xorb	$-3, %cl
	orb	%al, %cl
	jne	.LBB44_60
	movb	%dl, 6(%rsp)
	leaq	.Lstatic.61(%rip), %rdx
	movl	%esi, 28(%rsp)
	movl	$4, %esi
	movq	%rdi, 32(%rsp)
	movq	%r9, %rdi
	movl	%r8d, 24(%rsp)
	movq	%r9, %r12
	movb	%r10b, 5(%rsp)
	movl	%r11d, %ebp
	callq	"core::cmp::slices::groups_equal::<i8,31'core::cmp::numbers::U8PartialEq{}>"
	movl	%ebp, %r11d
	movzbl	5(%rsp), %r10d
	movl	28(%rsp), %esi
	movzbl	6(%rsp), %edx
	movq	%r12, %r9
	movl	24(%rsp), %r8d
	movq	32(%rsp), %rdi
	movb	$2, %r12b
	movb	$2, %bpl
	testb	%al, %al
	jne	.LBB44_36
.LBB44_60:
	cmpl	$80, %esi
	jne	.LBB44_72
	cmpb	$75, %dl
	jne	.LBB44_72
	cmpb	$3, %r10b
	jne	.LBB44_72
	cmpb	$4, %r11b
	jne	.LBB44_72
	leaq	.Lstatic.62(%rip), %rdx
	movl	$4, %esi
	jmp	.LBB44_67
.LBB44_65:
	cmpl	$1484404733, (%r9)
	jne	.LBB44_34
	leaq	.Lstatic.60(%rip), %rdx
	movl	$5, %esi
.LBB44_67:
	movq	%rdi, %r12
	movq	%r9, %rdi
	movl	%r8d, %ebp
	callq	"core::cmp::slices::groups_equal::<i8,31'core::cmp::numbers::U8PartialEq{}>"
	movl	%ebp, %r8d
	movq	%r12, %rdi
	movb	$2, %r12b
	movb	$2, %bpl
	testb	%al, %al
	je	.LBB44_34
	jmp	.LBB44_36
.LBB44_68:
	movzbl	(%r9), %eax
	cmpl	$31, %eax
	je	.LBB44_75
	cmpl	$66, %eax
	jne	.LBB44_34
	cmpb	$90, 1(%r9)
	jne	.LBB44_34
	movb	$2, %r12b
	cmpb	$104, 2(%r9)
	jmp	.LBB44_77
.LBB44_72:
	cmpl	$254, %esi
	je	.LBB44_78
	cmpl	$255, %esi
	jne	.LBB44_34
	xorb	$-2, %dl
	orb	%r11b, %dl
	jne	.LBB44_34
	jmp	.LBB44_79
.LBB44_75:
	cmpb	$-117, 1(%r9)
	jne	.LBB44_34
	movb	$2, %r12b
	cmpb	$8, 2(%r9)
.LBB44_77:
	movb	$2, %bpl
	jne	.LBB44_34
	jmp	.LBB44_36
.LBB44_78:
	notb	%dl
	orb	%r10b, %dl
	jne	.LBB44_34
.LBB44_79:
	movb	$3, %bpl
	movb	$2, %r12b
	jmp	.LBB44_36
.LBB44_80:
	movq	$0, 14(%rsp)
	movq	$0, 8(%rsp)
	xorl	%r13d, %r13d
	jmp	.LBB44_86
.LBB44_81:
	movzbl	%r13b, %eax
	shrl	$8, %r13d
	cmpl	$2, %eax
	jne	.LBB44_85
	incq	%r15
	movw	$5, 2(%r14)
	movq	$0, 14(%rsp)
	movq	$0, 8(%rsp)
	movl	$1, %esi
	movb	$3, %al
	movq	%r15, %rcx
	jmp	.LBB44_87
.LBB44_84:
	xorl	%r13d, %r13d
.LBB44_85:
	incq	%r15
	movw	$2, 2(%r14)
	xorl	%eax, %eax
	cmpb	$2, %r13b
	sete	%al
	leal	(%rax,%rax), %ecx
	movb	%r13b, 16480(%r14)
	xorps	%xmm0, %xmm0
	movups	%xmm0, 16481(%r14)
	movups	%xmm0, 16497(%r14)
	movups	%xmm0, 16513(%r14)
	movups	%xmm0, 16529(%r14)
	movups	%xmm0, 16545(%r14)
	movups	%xmm0, 16561(%r14)
	movups	%xmm0, 16577(%r14)
	movups	%xmm0, 16592(%r14)
	movq	%rax, 16608(%r14)
	movq	$0, 16616(%r14)
	movq	%rcx, 16624(%r14)
	leaq	16632(%r14), %rdi
	xorl	%r13d, %r13d
	movl	$528, %edx
	xorl	%esi, %esi
	callq	memset@PLT
	movq	$0, 16472(%r14)
	movq	$0, 8(%rsp)
	movq	$0, 14(%rsp)
	movq	%r15, %rcx
.LBB44_86:
	xorl	%eax, %eax
	xorl	%esi, %esi
.LBB44_87:
	movq	40(%rsp), %rdx
	movq	%rcx, (%rdx)
	movq	%rsi, 8(%rdx)
	movb	%al, 16(%rdx)
	movb	%r13b, 17(%rdx)
	xorps	%xmm0, %xmm0
	movups	%xmm0, 18(%rdx)
	movq	$0, 33(%rdx)
	movq	8(%rsp), %rax
	movq	14(%rsp), %rcx
	movq	%rax, 41(%rdx)
	movq	%rcx, 47(%rdx)
	movb	$0, 55(%rdx)
	addq	$120, %rsp
	popq	%rbx
	popq	%r12
	popq	%r13
	popq	%r14
	popq	%r15
	popq	%rbp
	retq
.Lfunc_end44:
	.size	"sq_feed::reader::Reader::find", .Lfunc_end44-"sq_feed::reader::Reader::find"
	.section	".rodata.sq_feed::reader::Reader::find","a",@progbits
	.p2align	2, 0x0
.LJTI44_0:
	.long	.LBB44_5-.LJTI44_0
	.long	.LBB44_4-.LJTI44_0
	.long	.LBB44_6-.LJTI44_0
	.long	.LBB44_4-.LJTI44_0
.LJTI44_1:
	.long	.LBB44_9-.LJTI44_1
	.long	.LBB44_10-.LJTI44_1
	.long	.LBB44_10-.LJTI44_1
	.long	.LBB44_9-.LJTI44_1
.LJTI44_2:
	.long	.LBB44_22-.LJTI44_2
	.long	.LBB44_36-.LJTI44_2
	.long	.LBB44_36-.LJTI44_2
	.long	.LBB44_36-.LJTI44_2
	.long	.LBB44_36-.LJTI44_2
	.long	.LBB44_23-.LJTI44_2
	.long	.LBB44_36-.LJTI44_2
	.long	.LBB44_36-.LJTI44_2
	.long	.LBB44_36-.LJTI44_2
	.long	.LBB44_36-.LJTI44_2
	.long	.LBB44_36-.LJTI44_2
	.long	.LBB44_36-.LJTI44_2
	.long	.LBB44_36-.LJTI44_2
	.long	.LBB44_36-.LJTI44_2
	.long	.LBB44_36-.LJTI44_2
	.long	.LBB44_36-.LJTI44_2
	.long	.LBB44_36-.LJTI44_2
	.long	.LBB44_36-.LJTI44_2
	.long	.LBB44_36-.LJTI44_2
	.long	.LBB44_36-.LJTI44_2
	.long	.LBB44_36-.LJTI44_2
	.long	.LBB44_23-.LJTI44_2
	.long	.LBB44_36-.LJTI44_2
	.long	.LBB44_57-.LJTI44_2
	.long	.LBB44_36-.LJTI44_2
	.long	.LBB44_36-.LJTI44_2
	.long	.LBB44_36-.LJTI44_2
	.long	.LBB44_22-.LJTI44_2
.LJTI44_3:
	.long	.LBB44_49-.LJTI44_3
	.long	.LBB44_68-.LJTI44_3
	.long	.LBB44_58-.LJTI44_3
	.long	.LBB44_65-.LJTI44_3

	.section	".text.sq_feed::reader::Reader::replay","ax",@progbits
	.p2align	4
	.type	"sq_feed::reader::Reader::replay",@function
"sq_feed::reader::Reader::replay":
	pushq	%rbx
	subq	$48, %rsp
	movq	%rdi, %rbx
	xorps	%xmm0, %xmm0
	movaps	%xmm0, 32(%rsp)
	movaps	%xmm0, 16(%rsp)
	movaps	%xmm0, (%rsp)
	movq	16472(%rsi), %rax
	cmpq	16448(%rsi), %rax
	jne	.LBB45_2
	movw	$1, 2(%rsi)
	movq	$0, 39(%rbx)
	movq	$0, 33(%rbx)
	xorl	%eax, %eax
	xorl	%ecx, %ecx
	xorl	%edx, %edx
	xorl	%esi, %esi
	xorl	%edi, %edi
	xorl	%r8d, %r8d
	jmp	.LBB45_3
.LBB45_2:
	movq	%rsp, %rdi
	callq	"sq_feed::reader::Reader::read_held"
	movzbl	(%rsp), %eax
	movzbl	8(%rsp), %ecx
	movzbl	9(%rsp), %edx
	movzbl	16(%rsp), %esi
	movq	24(%rsp), %rdi
	movzbl	32(%rsp), %r8d
	movq	39(%rsp), %r9
	movq	%r9, 39(%rbx)
	movq	33(%rsp), %r9
	movq	%r9, 33(%rbx)
.LBB45_3:
	movq	%rax, (%rbx)
	movb	%cl, 8(%rbx)
	movb	%dl, 9(%rbx)
	movq	%rsi, 16(%rbx)
	movq	%rdi, 24(%rbx)
	movb	%r8b, 32(%rbx)
	addq	$48, %rsp
	popq	%rbx
	retq
.Lfunc_end45:
	.size	"sq_feed::reader::Reader::replay", .Lfunc_end45-"sq_feed::reader::Reader::replay"

	.section	".text.sq_feed::reader::Reader::read_held","ax",@progbits
	.p2align	4
	.type	"sq_feed::reader::Reader::read_held",@function
"sq_feed::reader::Reader::read_held":
	pushq	%r14
	pushq	%rbx
	subq	$72, %rsp
	movq	%rsi, %r14
	movq	%rdi, %rbx
	movq	16448(%rsi), %rcx
	movq	16472(%rsi), %rax
	leaq	(%rsi,%rax), %rdx
	addq	$64, %rdx
	subq	%rax, %rcx
	xorps	%xmm0, %xmm0
	movaps	%xmm0, 32(%rsp)
	movaps	%xmm0, 16(%rsp)
	movaps	%xmm0, (%rsp)
	movq	$0, 48(%rsp)
	movzbl	16480(%rsi), %eax
	leaq	.LJTI46_0(%rip), %rsi
	movslq	(%rsi,%rax,4), %rax
	addq	%rsi, %rax
	jmpq	*%rax
.LBB46_3:
	leaq	16608(%r14), %rsi
	movq	%rsp, %rdi
	callq	"sq_feed::rows::Rows::take"
	jmp	.LBB46_4
.LBB46_1:
	leaq	16488(%r14), %rsi
	movq	%rsp, %rdi
	callq	"sq_feed::beast::Beast::take"
	jmp	.LBB46_4
.LBB46_2:
	leaq	16536(%r14), %rsi
	movq	%rsp, %rdi
	callq	"sq_feed::avr::Avr::take"
.LBB46_4:
	movq	(%rsp), %rax
	movzbl	8(%rsp), %ecx
	movzwl	16(%rsp), %edx
	movzbl	24(%rsp), %esi
	movq	32(%rsp), %rdi
	movzbl	40(%rsp), %r8d
	movq	41(%rsp), %r9
	movq	%r9, 56(%rsp)
	movq	47(%rsp), %r9
	movq	%r9, 62(%rsp)
	addq	%rax, 16472(%r14)
	movq	%rcx, (%rbx)
	movw	%dx, 8(%rbx)
	movq	%rsi, 16(%rbx)
	movq	%rdi, 24(%rbx)
	movb	%r8b, 32(%rbx)
	movq	56(%rsp), %rax
	movq	62(%rsp), %rcx
	movq	%rax, 33(%rbx)
	movq	%rcx, 39(%rbx)
	addq	$72, %rsp
	popq	%rbx
	popq	%r14
	retq
.Lfunc_end46:
	.size	"sq_feed::reader::Reader::read_held", .Lfunc_end46-"sq_feed::reader::Reader::read_held"
	.section	".rodata.sq_feed::reader::Reader::read_held","a",@progbits
	.p2align	2, 0x0
.LJTI46_0:
	.long	.LBB46_1-.LJTI46_0
	.long	.LBB46_2-.LJTI46_0
	.long	.LBB46_3-.LJTI46_0
	.long	.LBB46_3-.LJTI46_0

	.section	".text.sq_feed::reader::Reader::end","ax",@progbits
	.p2align	4
	.type	"sq_feed::reader::Reader::end",@function
"sq_feed::reader::Reader::end":
	pushq	%rbp
	pushq	%r15
	pushq	%r14
	pushq	%r13
	pushq	%r12
	pushq	%rbx
	subq	$3072, %rsp
	movq	$0, (%rsp)
	subq	$3072, %rsp
	movq	$0, (%rsp)
	subq	$3072, %rsp
	movq	$0, (%rsp)
	subq	$3072, %rsp
	movq	$0, (%rsp)
	subq	$3072, %rsp
	movq	$0, (%rsp)
	subq	$1992, %rsp
	movq	%rsi, %r14
	movq	%rdi, %rbx
	xorps	%xmm0, %xmm0
	movaps	%xmm0, 176(%rsp)
	movaps	%xmm0, 160(%rsp)
	movaps	%xmm0, 144(%rsp)
	movq	16472(%rsi), %rax
	cmpq	16448(%rsi), %rax
	jae	.LBB47_3
	leaq	144(%rsp), %rdi
	movq	%r14, %rsi
	callq	"sq_feed::reader::Reader::read_held"
	movzbl	144(%rsp), %eax
	movq	%rax, (%rbx)
	movzbl	152(%rsp), %eax
	movb	%al, 8(%rbx)
	movzbl	153(%rsp), %eax
	movb	%al, 9(%rbx)
	movzbl	160(%rsp), %eax
	movq	%rax, 16(%rbx)
	movq	168(%rsp), %rax
	movq	%rax, 24(%rbx)
	movzbl	176(%rsp), %eax
	movb	%al, 32(%rbx)
	movq	177(%rsp), %rax
	movq	183(%rsp), %rcx
	jmp	.LBB47_2
.LBB47_3:
	movzbl	16480(%r14), %eax
	leaq	.LJTI47_0(%rip), %rcx
	movslq	(%rcx,%rax,4), %rax
	addq	%rcx, %rax
	jmpq	*%rax
.LBB47_16:
	movq	$0, 8(%rsp)
	movq	$0, 14(%rsp)
	movaps	%xmm0, 80(%rsp)
	movaps	%xmm0, 96(%rsp)
	movaps	%xmm0, 112(%rsp)
	cmpb	$1, 17152(%r14)
	jne	.LBB47_19
	movq	$0, 46(%rsp)
	movq	$0, 40(%rsp)
	movb	$1, %dl
	xorl	%esi, %esi
	xorl	%r8d, %r8d
	xorl	%edi, %edi
	xorl	%eax, %eax
	jmp	.LBB47_18
.LBB47_4:
	cmpb	$1, 16488(%r14)
	jne	.LBB47_5
	movzbl	16489(%r14), %ecx
	shll	$3, %ecx
	movl	$16908289, %eax
	shrl	%cl, %eax
	movq	%rax, 32(%rsp)
	leaq	".Lswitch.table.sq_feed::reader::Reader::end"(%rip), %rax
	movq	(%rcx,%rax), %rax
	movq	%rax, 24(%rsp)
	jmp	.LBB47_7
.LBB47_9:
	cmpb	$1, 16536(%r14)
	jne	.LBB47_11
	movq	$0, 14(%rsp)
	movq	$0, 8(%rsp)
	movl	$1, %eax
	movq	%rax, 24(%rsp)
	movb	$1, %al
	movq	%rax, 32(%rsp)
	jmp	.LBB47_8
.LBB47_19:
	movzbl	16608(%r14), %eax
	movq	%rax, 200(%rsp)
	movups	16616(%r14), %xmm0
	movups	%xmm0, 208(%rsp)
	leaq	16632(%r14), %rdx
	movq	17144(%r14), %rcx
	leaq	80(%rsp), %rdi
	leaq	200(%rsp), %rsi
	callq	"sq_feed::rows::row_read"
	movq	104(%rsp), %rsi
	movzbl	112(%rsp), %r8d
	movzbl	88(%rsp), %edx
	cmpb	$2, 80(%rsp)
	movzbl	89(%rsp), %edi
	movzbl	96(%rsp), %eax
	movq	113(%rsp), %rcx
	movq	%rcx, 40(%rsp)
	movq	119(%rsp), %rcx
	movq	%rcx, 46(%rsp)
	jne	.LBB47_20
.LBB47_18:
	movq	%rdx, 32(%rsp)
	movq	40(%rsp), %rcx
	movq	46(%rsp), %rdx
	movq	%rdx, 14(%rsp)
	movq	%rcx, 8(%rsp)
	movl	$1, %ecx
	movq	%rcx, 24(%rsp)
	jmp	.LBB47_21
.LBB47_5:
	movq	$0, 32(%rsp)
	movq	$0, 24(%rsp)
.LBB47_7:
	movq	$0, 14(%rsp)
	movq	$0, 8(%rsp)
.LBB47_8:
	movq	$0, 64(%rsp)
	xorl	%eax, %eax
	movq	$0, 72(%rsp)
	movq	$0, 56(%rsp)
	jmp	.LBB47_22
.LBB47_11:
	movq	$0, 8(%rsp)
	movq	$0, 14(%rsp)
	movaps	%xmm0, 80(%rsp)
	movaps	%xmm0, 96(%rsp)
	movq	$0, 112(%rsp)
	cmpb	$0, 16600(%r14)
	jne	.LBB47_14
	cmpq	$0, 16592(%r14)
	je	.LBB47_13
.LBB47_14:
	leaq	16536(%r14), %rsi
	leaq	80(%rsp), %rdi
	xorl	%edx, %edx
	callq	"sq_feed::avr::Avr::item_of"
	movzbl	80(%rsp), %eax
	movq	%rax, 32(%rsp)
	movzbl	81(%rsp), %esi
	movzbl	88(%rsp), %eax
	movq	96(%rsp), %rdx
	movzbl	104(%rsp), %edi
	movq	105(%rsp), %rcx
	movq	%rcx, 8(%rsp)
	movq	111(%rsp), %rcx
	movq	%rcx, 14(%rsp)
	movl	$1, %ecx
	movq	%rcx, 24(%rsp)
.LBB47_15:
	movq	%rdi, 56(%rsp)
	movq	%rsi, 64(%rsp)
	movq	%rdx, 72(%rsp)
	jmp	.LBB47_22
.LBB47_20:
	movq	$0, 24(%rsp)
	movq	$0, 32(%rsp)
	xorl	%edi, %edi
	xorl	%eax, %eax
	xorl	%esi, %esi
	xorl	%r8d, %r8d
.LBB47_21:
	movq	%r8, 56(%rsp)
	movq	%rdi, 64(%rsp)
	movq	%rsi, 72(%rsp)
.LBB47_22:
	movzbl	%al, %eax
	movq	%rax, 192(%rsp)
	movzbl	(%r14), %ebp
	movzbl	1(%r14), %r15d
	movzbl	%r15b, %r12d
	leaq	884(%rsp), %rdi
	movl	$16468, %edx
	xorl	%esi, %esi
	callq	memset@PLT
	cmpb	$1, %bpl
	jne	.LBB47_24
	xorl	%r13d, %r13d
	cmpb	$2, %r15b
	sete	%r13b
	leal	(,%r13,2), %eax
	movq	%rax, 136(%rsp)
	movzwl	%r12w, %r12d
	shll	$8, %r12d
	incl	%r12d
	leaq	888(%rsp), %rdi
	movl	$16464, %edx
	xorl	%esi, %esi
	callq	memset@PLT
	xorps	%xmm0, %xmm0
	movaps	%xmm0, 224(%rsp)
	movaps	%xmm0, 240(%rsp)
	movaps	%xmm0, 256(%rsp)
	movups	%xmm0, 265(%rsp)
	movaps	%xmm0, 288(%rsp)
	movaps	%xmm0, 304(%rsp)
	movaps	%xmm0, 320(%rsp)
	movups	%xmm0, 334(%rsp)
	leaq	352(%rsp), %rdi
	movl	$528, %edx
	xorl	%esi, %esi
	callq	memset@PLT
	jmp	.LBB47_25
.LBB47_24:
	movzwl	%r12w, %r12d
	shll	$8, %r12d
	leaq	888(%rsp), %rdi
	xorl	%r13d, %r13d
	movl	$16464, %edx
	xorl	%esi, %esi
	callq	memset@PLT
	xorps	%xmm0, %xmm0
	movaps	%xmm0, 224(%rsp)
	movaps	%xmm0, 240(%rsp)
	movaps	%xmm0, 256(%rsp)
	movups	%xmm0, 265(%rsp)
	movaps	%xmm0, 288(%rsp)
	movaps	%xmm0, 304(%rsp)
	movaps	%xmm0, 320(%rsp)
	movups	%xmm0, 334(%rsp)
	leaq	352(%rsp), %rdi
	movl	$528, %edx
	xorl	%esi, %esi
	callq	memset@PLT
	movb	$3, %r15b
	movq	$0, 136(%rsp)
.LBB47_25:
	movw	%r12w, (%r14)
	movb	%bpl, 2(%r14)
	movb	$0, 3(%r14)
	leaq	4(%r14), %rdi
	leaq	884(%rsp), %rsi
	movl	$16468, %edx
	callq	memcpy@PLT
	movq	$0, 16472(%r14)
	movb	%r15b, 16480(%r14)
	movaps	224(%rsp), %xmm0
	movaps	240(%rsp), %xmm1
	movaps	256(%rsp), %xmm2
	movups	%xmm0, 16481(%r14)
	movups	%xmm1, 16497(%r14)
	movups	%xmm2, 16513(%r14)
	movups	265(%rsp), %xmm0
	movups	%xmm0, 16522(%r14)
	movaps	288(%rsp), %xmm0
	movaps	304(%rsp), %xmm1
	movaps	320(%rsp), %xmm2
	movups	%xmm1, 16554(%r14)
	movups	%xmm2, 16570(%r14)
	movups	%xmm0, 16538(%r14)
	movups	334(%rsp), %xmm0
	movups	%xmm0, 16584(%r14)
	movq	$0, 16600(%r14)
	movq	%r13, 16608(%r14)
	movq	$0, 16616(%r14)
	movq	136(%rsp), %rax
	movq	%rax, 16624(%r14)
	addq	$16632, %r14
	leaq	352(%rsp), %rsi
	movl	$528, %edx
	movq	%r14, %rdi
	callq	memcpy@PLT
	movq	24(%rsp), %rax
	movq	%rax, (%rbx)
	movq	32(%rsp), %rax
	movb	%al, 8(%rbx)
	movq	64(%rsp), %rax
	movb	%al, 9(%rbx)
	movq	192(%rsp), %rax
	movq	%rax, 16(%rbx)
	movq	72(%rsp), %rax
	movq	%rax, 24(%rbx)
	movq	56(%rsp), %rax
	movb	%al, 32(%rbx)
	movq	8(%rsp), %rax
	movq	14(%rsp), %rcx
.LBB47_2:
	movq	%rax, 33(%rbx)
	movq	%rcx, 39(%rbx)
	addq	$17352, %rsp
	popq	%rbx
	popq	%r12
	popq	%r13
	popq	%r14
	popq	%r15
	popq	%rbp
	retq
.LBB47_13:
	movq	$0, 24(%rsp)
	movq	$0, 32(%rsp)
	xorl	%esi, %esi
	xorl	%eax, %eax
	xorl	%edx, %edx
	xorl	%edi, %edi
	jmp	.LBB47_15
.Lfunc_end47:
	.size	"sq_feed::reader::Reader::end", .Lfunc_end47-"sq_feed::reader::Reader::end"
	.section	".rodata.sq_feed::reader::Reader::end","a",@progbits
	.p2align	2, 0x0
.LJTI47_0:
	.long	.LBB47_4-.LJTI47_0
	.long	.LBB47_9-.LJTI47_0
	.long	.LBB47_16-.LJTI47_0
	.long	.LBB47_16-.LJTI47_0

	.section	.rodata.cst16,"aM",@progbits,16
	.p2align	4, 0x0
.LCPI48_0:
	.zero	16,26
.LCPI48_1:
	.zero	16,10
.LCPI48_2:
	.zero	16,198
.LCPI48_3:
	.zero	16,6
.LCPI48_4:
	.zero	16,16
.LCPI48_5:
	.zero	16,223
.LCPI48_6:
	.zero	16,64
.LCPI48_7:
	.zero	16,191
.LCPI48_8:
	.short	255
	.short	255
	.short	255
	.short	255
	.short	255
	.short	255
	.short	255
	.short	255
.LCPI48_9:
	.zero	16,240
.LCPI48_10:
	.zero	16,245
.LCPI48_11:
	.zero	16,44
.LCPI48_12:
	.byte	255
	.byte	255
	.byte	255
	.byte	255
	.byte	255
	.byte	0
	.byte	0
	.byte	0
	.byte	0
	.byte	0
	.byte	0
	.byte	0
	.byte	0
	.byte	0
	.byte	0
	.byte	0
	.section	".text.squitter_c::feed_text::take_by","ax",@progbits
	.p2align	4
	.type	"squitter_c::feed_text::take_by",@function
"squitter_c::feed_text::take_by":
	pushq	%rbp
	pushq	%r15
	pushq	%r14
	pushq	%r13
	pushq	%r12
	pushq	%rbx
	subq	$936, %rsp
	movq	%r9, %r12
	movq	%r8, 264(%rsp)
	movq	%rcx, 8(%rsp)
	movq	%rdx, 280(%rsp)
	movq	%rsi, 272(%rsp)
	movq	%rdi, %rbx
	pxor	%xmm0, %xmm0
	movdqa	%xmm0, 32(%rsp)
	movq	$0, 48(%rsp)
	leaq	416(%rsp), %rdi
	xorl	%r14d, %r14d
	movl	$520, %edx
	xorl	%esi, %esi
	callq	memset@PLT
	movq	$0, 200(%rsp)
	movq	%r12, 120(%rsp)
	.p2align	4
.LBB48_1:
	movq	280(%rsp), %r13
	subq	%r14, %r13
	jne	.LBB48_4
	movzbl	2(%rbx), %eax
	addb	$-2, %al
	cmpb	$3, %al
	jb	.LBB48_4
	cmpq	$0, 17696(%rbx)
	je	.LBB48_325
	.p2align	4
.LBB48_4:
	movq	928(%rsp), %r15
	movq	200(%rsp), %rax
	addq	%r15, %rax
	movq	%r12, %rcx
	subq	%rax, %rcx
	cmpq	$50, %rcx
	jb	.LBB48_326
	cmpq	$0, 17696(%rbx)
	jne	.LBB48_21
	movq	272(%rsp), %rax
	leaq	(%rax,%r14), %rbp
	cmpb	$1, 2(%rbx)
	jne	.LBB48_115
	movzbl	16480(%rbx), %eax
	testl	%eax, %eax
	je	.LBB48_18
	movq	$0, 16(%rsp)
	movl	$0, 24(%rsp)
	movl	%eax, %eax
	leaq	.LJTI48_1(%rip), %rcx
	movslq	(%rcx,%rax,4), %rax
	addq	%rcx, %rax
	jmpq	*%rax
.LBB48_9:
	cmpb	$1, 16536(%rbx)
	je	.LBB48_115
	cmpb	$0, 16600(%rbx)
	jne	.LBB48_115
	testq	%r13, %r13
	je	.LBB48_115
	cmpq	$0, 16592(%rbx)
	jne	.LBB48_115
	movzbl	(%rbp), %edx
	cmpl	$13, %edx
	je	.LBB48_15
	cmpl	$10, %edx
	jne	.LBB48_42
.LBB48_15:
	cmpq	$1, %r13
	je	.LBB48_115
	movzbl	1(%rbp), %eax
	cmpb	$10, %al
	sete	%cl
	cmpb	$13, %al
	sete	%al
	orb	%cl, %al
	movzbl	%al, %r15d
	incq	%r15
	movq	%r13, %rcx
	subq	%r15, %rcx
	je	.LBB48_115
	leaq	(%r15,%rbp), %rax
	movzbl	(%rbp,%r15), %edx
	jmp	.LBB48_43
.LBB48_18:
	cmpb	$1, 16488(%rbx)
	je	.LBB48_20
	cmpb	$0, 16528(%rbx)
	je	.LBB48_22
.LBB48_20:
	movq	$0, 16(%rsp)
	movl	$0, 24(%rsp)
	jmp	.LBB48_115
.LBB48_21:
	leaq	32(%rsp), %rsi
	movq	%rbx, %rdi
	callq	"sq_feed::feed::Feed::step_ready"
	jmp	.LBB48_117
.LBB48_22:
	cmpq	$2, %r13
	jb	.LBB48_28
	cmpb	$26, (%rbp)
	jne	.LBB48_28
	movzbl	1(%rbp), %ecx
	cmpl	$51, %ecx
	je	.LBB48_65
	cmpl	$50, %ecx
	je	.LBB48_61
	cmpl	$49, %ecx
	jne	.LBB48_67
	movl	$9, %ecx
	movb	$1, %dl
	leaq	2(%rcx), %r15
	cmpq	%r15, %r13
	jae	.LBB48_62
	jmp	.LBB48_66
.LBB48_28:
	movl	$0, 136(%rsp)
	movq	$0, 128(%rsp)
	movl	136(%rsp), %ecx
	movq	128(%rsp), %rdx
	movq	%rdx, 16(%rsp)
	movl	%ecx, 24(%rsp)
	movl	%eax, %eax
	leaq	.LJTI48_1(%rip), %rcx
	movslq	(%rcx,%rax,4), %rax
	addq	%rcx, %rax
	jmpq	*%rax
.LBB48_29:
	cmpb	$0, 17152(%rbx)
	jne	.LBB48_113
	cmpq	$0, 17144(%rbx)
	jne	.LBB48_113
	cmpb	$1, 16608(%rbx)
	jne	.LBB48_33
	leaq	16616(%rbx), %rax
	cmpq	$0, (%rax)
	je	.LBB48_49
.LBB48_33:
	pxor	%xmm0, %xmm0
	movdqa	%xmm0, 64(%rsp)
	movdqa	%xmm0, 80(%rsp)
	movdqa	%xmm0, 96(%rsp)
	cmpq	$512, %r13
	movl	$512, %ecx
	cmovbq	%r13, %rcx
	movl	%ecx, %eax
	shrl	$4, %eax
	je	.LBB48_37
	shll	$4, %eax
	xorl	%edx, %edx
	.p2align	4
.LBB48_35:
	movdqu	(%rbp,%rdx), %xmm0
	pcmpeqb	.LCPI48_1(%rip), %xmm0
	pmovmskb	%xmm0, %esi
	orl	$65536, %esi
	rep		bsfl	%esi, %esi
	cmpw	$15, %si
	jbe	.LBB48_112
	addq	$16, %rdx
	cmpq	%rdx, %rax
	jne	.LBB48_35
.LBB48_37:
	cmpq	$15, %r13
	ja	.LBB48_91
	testq	%r13, %r13
	je	.LBB48_113
	xorl	%r12d, %r12d
	.p2align	4
.LBB48_40:
	cmpb	$10, (%rbp,%r12)
	je	.LBB48_92
	incq	%r12
	pxor	%xmm6, %xmm6
	xorl	%eax, %eax
	movl	$0, %edi
	movl	$0, %esi
	movl	$0, %r11d
	movl	$0, %r15d
	pxor	%xmm1, %xmm1
	pxor	%xmm0, %xmm0
	cmpq	%r12, %rcx
	jne	.LBB48_40
	jmp	.LBB48_96
.LBB48_42:
	xorl	%r15d, %r15d
	movq	%r13, %rcx
	movq	%rbp, %rax
.LBB48_43:
	movzbl	%dl, %edx
	addl	$-37, %edx
	cmpl	$27, %edx
	ja	.LBB48_115
	leaq	.LJTI48_2(%rip), %rsi
	movslq	(%rsi,%rdx,4), %rdx
	addq	%rsi, %rdx
	jmpq	*%rdx
.LBB48_45:
	cmpq	$42, %rcx
	jb	.LBB48_115
	cmpb	$59, 41(%rax)
	jne	.LBB48_115
	movdqa	.LCPI48_2(%rip), %xmm4
	movdqu	1(%rax), %xmm3
	movdqu	17(%rax), %xmm2
	movdqu	25(%rax), %xmm1
	movdqa	%xmm3, %xmm10
	paddb	%xmm4, %xmm10
	movdqa	.LCPI48_3(%rip), %xmm6
	psubusb	%xmm6, %xmm10
	movdqa	.LCPI48_4(%rip), %xmm0
	paddb	%xmm0, %xmm10
	movdqa	.LCPI48_5(%rip), %xmm7
	pand	%xmm7, %xmm3
	movdqa	.LCPI48_6(%rip), %xmm5
	movdqa	%xmm5, %xmm11
	psubb	%xmm3, %xmm11
	movdqa	.LCPI48_1(%rip), %xmm8
	pminub	%xmm8, %xmm11
	movdqa	.LCPI48_7(%rip), %xmm9
	paddb	%xmm9, %xmm3
	paddb	%xmm11, %xmm3
	pminub	%xmm10, %xmm3
	movdqa	%xmm2, %xmm10
	paddb	%xmm4, %xmm10
	psubusb	%xmm6, %xmm10
	paddb	%xmm0, %xmm10
	pand	%xmm7, %xmm2
	movdqa	%xmm5, %xmm11
	psubb	%xmm2, %xmm11
	pminub	%xmm8, %xmm11
	paddb	%xmm9, %xmm2
	paddb	%xmm11, %xmm2
	pminub	%xmm10, %xmm2
	paddb	%xmm1, %xmm4
	psubusb	%xmm6, %xmm4
	paddb	%xmm0, %xmm4
	pand	%xmm7, %xmm1
	psubb	%xmm1, %xmm5
	pminub	%xmm8, %xmm5
	paddb	%xmm9, %xmm1
	paddb	%xmm5, %xmm1
	pminub	%xmm4, %xmm1
	movdqa	%xmm2, %xmm4
	por	%xmm3, %xmm4
	movdqa	%xmm4, %xmm5
	pmaxub	%xmm0, %xmm5
	pcmpeqb	%xmm4, %xmm5
	pmaxub	%xmm1, %xmm0
	pcmpeqb	%xmm1, %xmm0
	por	%xmm5, %xmm0
	pmovmskb	%xmm0, %eax
	testl	%eax, %eax
	jne	.LBB48_115
	movdqa	.LCPI48_8(%rip), %xmm4
	movdqa	%xmm3, %xmm0
	pand	%xmm4, %xmm0
	packuswb	%xmm0, %xmm0
	psrlw	$8, %xmm3
	packuswb	%xmm3, %xmm3
	psllw	$4, %xmm0
	movdqa	.LCPI48_9(%rip), %xmm5
	pand	%xmm5, %xmm0
	por	%xmm3, %xmm0
	movdqa	%xmm2, %xmm6
	pand	%xmm4, %xmm6
	packuswb	%xmm6, %xmm6
	psrlw	$8, %xmm2
	packuswb	%xmm2, %xmm2
	psllw	$4, %xmm6
	pand	%xmm5, %xmm6
	por	%xmm2, %xmm6
	pand	%xmm1, %xmm4
	packuswb	%xmm4, %xmm4
	movdqa	%xmm0, %xmm2
	psrlq	$16, %xmm2
	movd	%xmm2, %eax
	shlq	$32, %rax
	movdqa	%xmm0, %xmm2
	pslldq	$14, %xmm2
	psrldq	$14, %xmm2
	psllq	$16, %xmm2
	pxor	%xmm3, %xmm3
	movq	%xmm2, %rsi
	orq	%rax, %rsi
	bswapq	%rsi
	punpckhbw	%xmm3, %xmm1
	pshuflw	$231, %xmm1, %xmm1
	pshufhw	$231, %xmm1, %xmm1
	pshufd	$232, %xmm1, %xmm1
	pshuflw	$177, %xmm1, %xmm1
	packuswb	%xmm1, %xmm1
	pshufd	$85, %xmm4, %xmm2
	psllw	$4, %xmm2
	pand	.LCPI48_9(%rip), %xmm2
	por	%xmm1, %xmm2
	movdqa	%xmm2, %xmm1
	psrlq	$48, %xmm0
	movb	$1, %dil
	addq	$42, %r15
	jmp	.LBB48_98
.LBB48_49:
	cmpq	$73, %r13
	jb	.LBB48_33
	cmpq	$2, 16624(%rbx)
	jne	.LBB48_33
	movdqu	(%rbp), %xmm0
	movdqa	%xmm0, 160(%rsp)
	cmpb	$46, 170(%rsp)
	jne	.LBB48_33
	paddb	.LCPI48_2(%rip), %xmm0
	movdqa	.LCPI48_10(%rip), %xmm1
	pminub	%xmm0, %xmm1
	pcmpeqb	%xmm0, %xmm1
	pmovmskb	%xmm1, %eax
	andl	$2047, %eax
	movzwl	%ax, %eax
	cmpl	$1024, %eax
	jne	.LBB48_33
	movdqu	11(%rbp), %xmm0
	paddb	.LCPI48_2(%rip), %xmm0
	movdqa	.LCPI48_10(%rip), %xmm1
	pminub	%xmm0, %xmm1
	pcmpeqb	%xmm0, %xmm1
	pmovmskb	%xmm1, %eax
	testl	%eax, %eax
	je	.LBB48_33
	leaq	11(%rbp), %rdi
	rep		bsfl	%eax, %r12d
	cmpb	$44, (%rdi,%r12)
	jne	.LBB48_33
	leaq	(%rdi,%r12), %rdx
	cmpb	$34, 1(%rdx)
	je	.LBB48_33
	incq	%rdx
	movdqu	(%rdx), %xmm0
	movdqa	.LCPI48_11(%rip), %xmm1
	pcmpeqb	%xmm0, %xmm1
	pmovmskb	%xmm1, %eax
	testl	%eax, %eax
	je	.LBB48_33
	pcmpeqb	.LCPI48_1(%rip), %xmm0
	rep		bsfl	%eax, %eax
	pmovmskb	%xmm0, %ecx
	orl	$65536, %ecx
	rep		bsfl	%ecx, %ecx
	xorl	%r15d, %r15d
	cmpw	%ax, %cx
	cmovael	%eax, %r15d
	jb	.LBB48_33
	movzbl	160(%rsp), %ecx
	movzbl	161(%rsp), %eax
	movzbl	162(%rsp), %r11d
	movzbl	163(%rsp), %r10d
	movzbl	164(%rsp), %r9d
	movzbl	165(%rsp), %r8d
	movzbl	166(%rsp), %esi
	movb	%sil, 31(%rsp)
	movzbl	167(%rsp), %esi
	movb	%sil, 240(%rsp)
	movzbl	168(%rsp), %esi
	movb	%sil, 176(%rsp)
	movzbl	169(%rsp), %esi
	movb	%sil, 224(%rsp)
	movzbl	29(%rdx,%r15), %esi
	cmpl	$10, %esi
	je	.LBB48_279
	cmpl	$13, %esi
	jne	.LBB48_33
	movl	$2, %esi
	cmpb	$10, 30(%rdx,%r15)
	jne	.LBB48_33
	jmp	.LBB48_280
.LBB48_61:
	xorl	%edx, %edx
	movl	$14, %ecx
	leaq	2(%rcx), %r15
	cmpq	%r15, %r13
	jb	.LBB48_66
.LBB48_62:
	xorl	%esi, %esi
	.p2align	4
.LBB48_63:
	cmpq	%rsi, %rcx
	je	.LBB48_72
	cmpb	$26, 2(%rbp,%rsi)
	leaq	1(%rsi), %rsi
	jne	.LBB48_63
	jmp	.LBB48_77
.LBB48_65:
	cmpq	$23, %r13
	jae	.LBB48_75
.LBB48_66:
	movl	$0, 136(%rsp)
	movq	$0, 128(%rsp)
	movl	136(%rsp), %ecx
	movq	128(%rsp), %rdx
	movq	%rdx, 16(%rsp)
	movl	%ecx, 24(%rsp)
	movl	%eax, %eax
	leaq	.LJTI48_1(%rip), %rcx
	movslq	(%rcx,%rax,4), %rax
	addq	%rcx, %rax
	jmpq	*%rax
.LBB48_67:
	movl	$0, 136(%rsp)
	movq	$0, 128(%rsp)
	movl	136(%rsp), %ecx
	movq	128(%rsp), %rdx
	movq	%rdx, 16(%rsp)
	movl	%ecx, 24(%rsp)
	movl	%eax, %eax
	leaq	.LJTI48_1(%rip), %rcx
	movslq	(%rcx,%rax,4), %rax
	addq	%rcx, %rax
	jmpq	*%rax
.LBB48_68:
	cmpq	$30, %rcx
	jb	.LBB48_115
	cmpb	$59, 29(%rax)
	jne	.LBB48_115
	movdqa	.LCPI48_2(%rip), %xmm0
	movdqu	1(%rax), %xmm2
	movdqu	13(%rax), %xmm1
	movdqa	%xmm2, %xmm4
	paddb	%xmm0, %xmm4
	movdqa	.LCPI48_3(%rip), %xmm5
	psubusb	%xmm5, %xmm4
	movdqa	.LCPI48_4(%rip), %xmm3
	paddb	%xmm3, %xmm4
	movdqa	.LCPI48_5(%rip), %xmm6
	pand	%xmm6, %xmm2
	movdqa	.LCPI48_6(%rip), %xmm7
	movdqa	%xmm7, %xmm8
	psubb	%xmm2, %xmm8
	movdqa	.LCPI48_1(%rip), %xmm9
	pminub	%xmm9, %xmm8
	movdqa	.LCPI48_7(%rip), %xmm10
	paddb	%xmm10, %xmm2
	paddb	%xmm8, %xmm2
	pminub	%xmm4, %xmm2
	paddb	%xmm1, %xmm0
	psubusb	%xmm5, %xmm0
	paddb	%xmm3, %xmm0
	pand	%xmm6, %xmm1
	psubb	%xmm1, %xmm7
	pminub	%xmm9, %xmm7
	paddb	%xmm10, %xmm1
	paddb	%xmm7, %xmm1
	pminub	%xmm0, %xmm1
	movdqa	%xmm1, %xmm0
	por	%xmm2, %xmm0
	pmaxub	%xmm0, %xmm3
	pcmpeqb	%xmm0, %xmm3
	pmovmskb	%xmm3, %eax
	testl	%eax, %eax
	jne	.LBB48_115
	movdqa	.LCPI48_8(%rip), %xmm3
	movdqa	%xmm2, %xmm0
	pand	%xmm3, %xmm0
	packuswb	%xmm0, %xmm0
	psrlw	$8, %xmm2
	packuswb	%xmm2, %xmm2
	psllw	$4, %xmm0
	movdqa	.LCPI48_9(%rip), %xmm4
	pand	%xmm4, %xmm0
	por	%xmm2, %xmm0
	pand	%xmm1, %xmm3
	packuswb	%xmm3, %xmm3
	psrlw	$8, %xmm1
	packuswb	%xmm1, %xmm1
	psllw	$4, %xmm3
	pand	%xmm4, %xmm3
	por	%xmm1, %xmm3
	movdqa	%xmm0, %xmm1
	punpcklwd	%xmm3, %xmm1
	pshufhw	$232, %xmm1, %xmm1
	pshufd	$230, %xmm1, %xmm1
	pshuflw	$210, %xmm1, %xmm6
	pshufd	$85, %xmm3, %xmm1
	xorl	%edi, %edi
	addq	$30, %r15
	xorl	%esi, %esi
	jmp	.LBB48_98
.LBB48_72:
	movzwl	2(%rbp), %eax
	shll	$16, %eax
	movl	4(%rbp), %esi
	shlq	$32, %rsi
	orq	%rax, %rsi
	bswapq	%rsi
	addq	$-7, %rcx
	movl	$0, 72(%rsp)
	movq	$0, 64(%rsp)
	testb	%dl, %dl
	je	.LBB48_143
	movb	$1, %al
	cmpl	$2, %ecx
	jne	.LBB48_206
	movzwl	9(%rbp), %edi
	movl	$11, %r15d
	xorl	%r8d, %r8d
	jmp	.LBB48_221
.LBB48_75:
	movdqu	2(%rbp), %xmm0
	movdqa	.LCPI48_0(%rip), %xmm1
	pcmpeqb	%xmm0, %xmm1
	pmovmskb	%xmm1, %ecx
	testl	%ecx, %ecx
	jne	.LBB48_77
	movdqu	7(%rbp), %xmm1
	movdqa	.LCPI48_0(%rip), %xmm2
	pcmpeqb	%xmm1, %xmm2
	pmovmskb	%xmm2, %ecx
	testl	%ecx, %ecx
	je	.LBB48_219
.LBB48_77:
	movl	$0, 136(%rsp)
	movq	$0, 128(%rsp)
	movl	136(%rsp), %ecx
	movq	128(%rsp), %rdx
	movq	%rdx, 16(%rsp)
	movl	%ecx, 24(%rsp)
	movl	%eax, %eax
	leaq	.LJTI48_1(%rip), %rcx
	movslq	(%rcx,%rax,4), %rax
	addq	%rcx, %rax
	jmpq	*%rax
.LBB48_78:
	pxor	%xmm0, %xmm0
	movdqa	%xmm0, 64(%rsp)
	movdqa	%xmm0, 80(%rsp)
	movdqa	%xmm0, 96(%rsp)
	cmpb	$0, 17152(%rbx)
	je	.LBB48_80
	xorl	%eax, %eax
	xorl	%edi, %edi
	xorl	%esi, %esi
	xorl	%r11d, %r11d
	xorl	%r15d, %r15d
	pxor	%xmm6, %xmm6
	pxor	%xmm1, %xmm1
	testb	%al, %al
	movq	120(%rsp), %r12
	jne	.LBB48_97
	jmp	.LBB48_115
.LBB48_80:
	cmpq	$0, 17144(%rbx)
	je	.LBB48_82
	pxor	%xmm6, %xmm6
	xorl	%eax, %eax
	xorl	%edi, %edi
	xorl	%esi, %esi
	xorl	%r11d, %r11d
	xorl	%r15d, %r15d
	pxor	%xmm1, %xmm1
	testb	%al, %al
	movq	120(%rsp), %r12
	jne	.LBB48_97
	jmp	.LBB48_115
.LBB48_82:
	cmpq	$512, %r13
	movl	$512, %ecx
	cmovbq	%r13, %rcx
	movl	%ecx, %eax
	shrl	$4, %eax
	je	.LBB48_86
	shll	$4, %eax
	xorl	%edx, %edx
	.p2align	4
.LBB48_84:
	movdqu	(%rbp,%rdx), %xmm0
	pcmpeqb	.LCPI48_1(%rip), %xmm0
	pmovmskb	%xmm0, %esi
	orl	$65536, %esi
	rep		bsfl	%esi, %esi
	cmpw	$15, %si
	jbe	.LBB48_112
	addq	$16, %rdx
	cmpq	%rdx, %rax
	jne	.LBB48_84
.LBB48_86:
	cmpq	$15, %r13
	ja	.LBB48_91
	testq	%r13, %r13
	je	.LBB48_113
	xorl	%r12d, %r12d
	.p2align	4
.LBB48_89:
	cmpb	$10, (%rbp,%r12)
	je	.LBB48_92
	incq	%r12
	pxor	%xmm6, %xmm6
	xorl	%eax, %eax
	movl	$0, %edi
	movl	$0, %esi
	movl	$0, %r11d
	movl	$0, %r15d
	pxor	%xmm1, %xmm1
	pxor	%xmm0, %xmm0
	cmpq	%r12, %rcx
	jne	.LBB48_89
	jmp	.LBB48_96
.LBB48_91:
	movdqu	-16(%rbp,%rcx), %xmm0
	pcmpeqb	.LCPI48_1(%rip), %xmm0
	pmovmskb	%xmm0, %eax
	orl	$65536, %eax
	rep		bsfl	%eax, %eax
	cmpw	$16, %ax
	leaq	-16(%rcx,%rax), %r12
	cmovaeq	%rcx, %r12
.LBB48_92:
	cmpq	%r12, %rcx
	jbe	.LBB48_113
.LBB48_93:
	movzbl	16608(%rbx), %eax
	movq	%rax, 128(%rsp)
	leaq	16616(%rbx), %rax
	movdqu	(%rax), %xmm0
	leaq	136(%rsp), %rax
	movdqu	%xmm0, (%rax)
	leaq	64(%rsp), %rdi
	leaq	128(%rsp), %rsi
	movq	%rbp, %rdx
	movq	%r12, %rcx
	callq	"sq_feed::rows::row_read"
	xorl	%esi, %esi
	cmpb	$2, 64(%rsp)
	pxor	%xmm6, %xmm6
	movl	$0, %eax
	jne	.LBB48_142
	cmpb	$0, 72(%rsp)
	movl	$0, %edi
	movl	$0, %r11d
	movl	$0, %r15d
	pxor	%xmm1, %xmm1
	pxor	%xmm0, %xmm0
	jne	.LBB48_96
	movzbl	80(%rsp), %edi
	movq	88(%rsp), %rsi
	movzbl	96(%rsp), %r11d
	movzwl	97(%rsp), %eax
	movd	%eax, %xmm0
	movq	99(%rsp), %xmm6
	movd	107(%rsp), %xmm1
	incq	%r12
	movb	$1, %al
	movq	%r12, %r15
.LBB48_96:
	testb	%al, %al
	movq	120(%rsp), %r12
	je	.LBB48_115
.LBB48_97:
	cmpb	$2, %r11b
	jne	.LBB48_105
.LBB48_98:
	movd	%xmm0, %ecx
	movl	%ecx, %eax
	andb	$-8, %al
	cmpb	$-120, %al
	jne	.LBB48_109
	testb	%dil, %dil
	je	.LBB48_129
	movzbl	%dil, %eax
	movl	%ecx, %ebp
	movb	$17, %r8b
	cmpl	$2, %eax
	jne	.LBB48_130
	cmpb	$2, 17224(%rbx)
	jne	.LBB48_148
	cmpb	$0, 17256(%rbx)
	jne	.LBB48_148
	movq	17312(%rbx), %rax
	addq	%rsi, %rax
	movq	$-1, %rdx
	cmovaeq	%rax, %rdx
	movq	17208(%rbx), %rax
	movq	%rax, %rcx
	subq	%rdx, %rcx
	jbe	.LBB48_145
	movq	17200(%rbx), %r9
	cmpq	$1001, %r9
	movl	$1000, %r10d
	cmovaeq	%r9, %r10
	cmpq	%r10, %rcx
	ja	.LBB48_148
	jmp	.LBB48_192
.LBB48_105:
	testb	%r11b, %r11b
	je	.LBB48_111
	movd	%xmm0, %ebp
	xorl	%r8d, %r8d
	testb	%bpl, %bpl
	leaq	17600(%rbx), %rcx
	js	.LBB48_110
	movzbl	17329(%rbx), %r10d
	movl	%ebp, %eax
	shrb	$3, %al
	cmpb	$1, %dil
	sete	%dl
	movabsq	$280376761925972, %r9
	cmpq	%r9, %rsi
	sete	%r9b
	movzbl	%al, %eax
	testb	%r10b, %r10b
	cmovnel	%r8d, %eax
	testb	%r9b, %dl
	cmovnel	%r8d, %eax
	je	.LBB48_121
	movb	$3, %dl
	xorl	%eax, %eax
	movq	17336(%rbx), %rcx
	cmpq	$-1, %rcx
	jne	.LBB48_123
	jmp	.LBB48_189
.LBB48_109:
	testb	%cl, %cl
	js	.LBB48_128
.LBB48_110:
	movb	$5, %dl
	xorl	%eax, %eax
	movq	17336(%rbx), %rcx
	cmpq	$-1, %rcx
	jne	.LBB48_123
	jmp	.LBB48_189
.LBB48_111:
	movb	$2, %dl
	xorl	%eax, %eax
	movq	17336(%rbx), %rcx
	cmpq	$-1, %rcx
	jne	.LBB48_123
	jmp	.LBB48_189
.LBB48_112:
	movzwl	%si, %r12d
	addq	%rdx, %r12
	cmpq	%r12, %rcx
	ja	.LBB48_93
.LBB48_113:
	pxor	%xmm6, %xmm6
	xorl	%eax, %eax
	xorl	%edi, %edi
	xorl	%esi, %esi
	xorl	%r11d, %r11d
.LBB48_114:
	xorl	%r15d, %r15d
	pxor	%xmm1, %xmm1
	pxor	%xmm0, %xmm0
	testb	%al, %al
	movq	120(%rsp), %r12
	jne	.LBB48_97
	.p2align	4
.LBB48_115:
	leaq	32(%rsp), %r8
	movq	%rbx, %rdi
	movq	%rbp, %rsi
	movq	%r13, %rdx
	movq	8(%rsp), %rcx
	callq	"sq_feed::feed::Feed::step_other"
	movq	%rax, %r15
.LBB48_116:
	addq	%r15, %r14
	cmpb	$1, %dl
	jne	.LBB48_1
.LBB48_117:
	movq	928(%rsp), %r15
	leaq	50(%r15), %rax
	cmpq	$512, %rax
	ja	.LBB48_120
	movq	32(%rsp), %rsi
	leaq	416(%rsp), %rdi
.LBB48_119:
	leaq	40(%rsp), %rdx
	callq	"sq_feed::lines::push_log_line::<=512>"
	jmp	.LBB48_1
.LBB48_120:
	movq	264(%rsp), %rax
	movq	200(%rsp), %r13
	leaq	(%rax,%r13), %rdi
	leaq	416(%rsp), %r12
	movq	%r12, %rsi
	movq	%r15, %rdx
	callq	memcpy@PLT
	addq	%r15, %r13
	movq	%r13, 200(%rsp)
	movq	$0, 928(%rsp)
	movq	32(%rsp), %rsi
	movq	%r12, %rdi
	movq	120(%rsp), %r12
	jmp	.LBB48_119
.LBB48_121:
	xorb	$1, %r10b
	movl	%ebp, %r13d
	shrl	$8, %ebp
	movb	$1, %dl
	testb	%r10b, %r10b
	jne	.LBB48_122
.LBB48_153:
	cmpb	$2, %dil
	movdqa	%xmm6, 224(%rsp)
	je	.LBB48_161
	movzbl	%dil, %eax
	cmpl	$1, %eax
	jne	.LBB48_165
	testq	%rsi, %rsi
	je	.LBB48_157
	cmpb	$1, 17185(%rbx)
	jne	.LBB48_180
.LBB48_157:
	movq	17336(%rbx), %rax
	cmpq	$-1, %rax
	je	.LBB48_159
	incq	%rax
	movq	%rax, 17336(%rbx)
	incq	17344(%rbx)
.LBB48_159:
	movq	17208(%rbx), %rdx
	cmpb	$1, 17184(%rbx)
	je	.LBB48_168
.LBB48_169:
	movq	8(%rsp), %rsi
	jmp	.LBB48_170
.LBB48_128:
	movl	%ecx, %ebp
	movl	%ecx, %r8d
	shrb	$3, %r8b
	jmp	.LBB48_148
.LBB48_129:
	movl	%ecx, %ebp
	movb	$17, %r8b
	jmp	.LBB48_151
.LBB48_130:
	testq	%rsi, %rsi
	je	.LBB48_148
	movabsq	$280376761925972, %rax
	cmpq	%rax, %rsi
	je	.LBB48_148
	cmpb	$0, 17185(%rbx)
	jne	.LBB48_148
	cmpb	$2, 17224(%rbx)
	jne	.LBB48_148
	cmpb	$0, 17256(%rbx)
	jne	.LBB48_148
	cmpb	$1, 17176(%rbx)
	jne	.LBB48_148
	movq	%rsi, %rcx
	subq	17160(%rbx), %rcx
	movabsq	$281474976710655, %r9
	andq	%r9, %rcx
	movq	%rcx, %rax
	shrq	$47, %rax
	jne	.LBB48_148
	addq	17168(%rbx), %rcx
	movq	$-1, %r10
	cmovbq	%r10, %rcx
	movabsq	$-5853766786057164379, %rdx
	movq	%rcx, %rax
	mulq	%rdx
	shrq	$13, %rdx
	addq	17312(%rbx), %rdx
	cmovbq	%r10, %rdx
	movq	%rdx, %rax
	subq	17208(%rbx), %rax
	jb	.LBB48_148
	cmpq	17192(%rbx), %rax
	ja	.LBB48_148
	movq	17336(%rbx), %rax
	cmpq	$-1, %rax
	je	.LBB48_141
	incq	%rax
	movq	%rax, 17336(%rbx)
	incq	17344(%rbx)
.LBB48_141:
	andq	%r9, %rsi
	movq	%rsi, 17160(%rbx)
	movq	%rcx, 17168(%rbx)
	jmp	.LBB48_200
.LBB48_161:
	movq	%r11, 176(%rsp)
	movq	$0, 80(%rsp)
	movzbl	17224(%rbx), %eax
	cmpb	$2, %al
	jne	.LBB48_196
	cmpb	$0, 17256(%rbx)
	jne	.LBB48_196
	movq	17312(%rbx), %rdi
	addq	%rsi, %rdi
	movq	$-1, %rdx
	cmovaeq	%rdi, %rdx
	movq	17208(%rbx), %r11
	movq	%r11, %rdi
	subq	%rdx, %rdi
	jbe	.LBB48_171
	movq	17200(%rbx), %r9
	cmpq	$1001, %r9
	movl	$1000, %r10d
	cmovaeq	%r9, %r10
	cmpq	%r10, %rdi
	jbe	.LBB48_174
	jmp	.LBB48_196
.LBB48_165:
	movq	17336(%rbx), %rax
	cmpq	$-1, %rax
	je	.LBB48_167
	incq	%rax
	movq	%rax, 17336(%rbx)
	incq	17344(%rbx)
.LBB48_167:
	movq	17208(%rbx), %rdx
	cmpb	$1, 17184(%rbx)
	jne	.LBB48_169
.LBB48_168:
	xorl	%eax, %eax
	movq	8(%rsp), %rsi
	movq	%rsi, %rcx
	subq	17216(%rbx), %rcx
	cmovaeq	%rcx, %rax
	addq	%rdx, %rax
	movq	$-1, %rdx
	cmovaeq	%rax, %rdx
.LBB48_170:
	movq	%rdx, 17208(%rbx)
	movq	%rsi, 17216(%rbx)
	movb	$1, %r12b
	cmpb	$1, %r12b
	jne	.LBB48_189
	jmp	.LBB48_212
.LBB48_142:
	movl	$0, %edi
	movl	$0, %r11d
	jmp	.LBB48_114
.LBB48_171:
	movq	%rdx, %r9
	subq	%r11, %r9
	movq	17192(%rbx), %rdi
	cmpq	%rdi, %r9
	jbe	.LBB48_174
	cmpb	$1, 17184(%rbx)
	jne	.LBB48_196
	xorl	%r9d, %r9d
	movq	8(%rsp), %r10
	subq	17216(%rbx), %r10
	cmovaeq	%r10, %r9
	addq	%r11, %r9
	movq	$-1, %r10
	cmovaeq	%r9, %r10
	movq	%rdx, %r9
	subq	%r10, %r9
	subq	%rdx, %r10
	cmovbq	%r9, %r10
	cmpq	%rdi, %r10
	ja	.LBB48_196
.LBB48_174:
	movq	17336(%rbx), %rax
	cmpq	$-1, %rax
	je	.LBB48_176
	incq	%rax
	movq	%rax, 17336(%rbx)
	incq	17344(%rbx)
.LBB48_176:
	cmpq	%rdx, %r11
	jbe	.LBB48_178
	xorl	%eax, %eax
	subq	17200(%rbx), %r11
	cmovaeq	%r11, %rax
	cmpq	%rdx, %rax
	cmovaq	%rax, %rdx
	jmp	.LBB48_179
.LBB48_178:
	movq	%rdx, 17208(%rbx)
	movq	8(%rsp), %rax
	movq	%rax, 17216(%rbx)
.LBB48_179:
	movq	176(%rsp), %r11
	movb	$1, %r12b
	cmpb	$1, %r12b
	jne	.LBB48_189
	jmp	.LBB48_212
.LBB48_180:
	cmpb	$2, 17224(%rbx)
	jne	.LBB48_198
	cmpb	$0, 17256(%rbx)
	jne	.LBB48_198
	cmpb	$1, 17176(%rbx)
	jne	.LBB48_198
	movq	%rsi, %rcx
	subq	17160(%rbx), %rcx
	movabsq	$281474976710655, %rdi
	andq	%rdi, %rcx
	movq	%rcx, %rax
	shrq	$47, %rax
	jne	.LBB48_198
	addq	17168(%rbx), %rcx
	movq	$-1, %r9
	cmovbq	%r9, %rcx
	movabsq	$-5853766786057164379, %rdx
	movq	%rcx, %rax
	mulq	%rdx
	shrq	$13, %rdx
	addq	17312(%rbx), %rdx
	cmovbq	%r9, %rdx
	movq	%rdx, %rax
	subq	17208(%rbx), %rax
	jb	.LBB48_198
	cmpq	17192(%rbx), %rax
	ja	.LBB48_198
	movq	17336(%rbx), %rax
	cmpq	$-1, %rax
	je	.LBB48_188
	incq	%rax
	movq	%rax, 17336(%rbx)
	incq	17344(%rbx)
.LBB48_188:
	andq	%rdi, %rsi
	movq	%rsi, 17160(%rbx)
	movq	%rcx, 17168(%rbx)
	movq	%rdx, 17208(%rbx)
	movq	8(%rsp), %rax
	movq	%rax, 17216(%rbx)
	movb	$1, %r12b
	cmpb	$1, %r12b
	je	.LBB48_212
	jmp	.LBB48_189
.LBB48_196:
	movdqa	%xmm1, 368(%rsp)
	movzbl	369(%rsp), %edx
	xorl	%edi, %edi
	testb	%r8b, %r8b
	cmovnel	%edx, %edi
	movdqa	%xmm1, 240(%rsp)
	jne	.LBB48_202
	pxor	%xmm0, %xmm0
	pxor	%xmm1, %xmm1
	jmp	.LBB48_203
.LBB48_143:
	cmpl	$7, %ecx
	jne	.LBB48_207
	movzwl	9(%rbp), %edi
	movzbl	15(%rbp), %eax
	movb	%al, 156(%rsp)
	movl	11(%rbp), %eax
	movl	%eax, 152(%rsp)
	jmp	.LBB48_208
.LBB48_145:
	movq	%rdx, %r9
	subq	%rax, %r9
	movq	17192(%rbx), %rcx
	cmpq	%rcx, %r9
	jbe	.LBB48_192
	cmpb	$1, 17184(%rbx)
	jne	.LBB48_148
	xorl	%r9d, %r9d
	movq	8(%rsp), %r10
	subq	17216(%rbx), %r10
	cmovaeq	%r10, %r9
	addq	%rax, %r9
	movq	$-1, %r10
	cmovaeq	%r9, %r10
	movq	%rdx, %r9
	subq	%r10, %r9
	subq	%rdx, %r10
	cmovbq	%r9, %r10
	cmpq	%rcx, %r10
	jbe	.LBB48_192
.LBB48_148:
	cmpb	$1, %dil
	jne	.LBB48_151
	movabsq	$280376761925972, %rax
	cmpq	%rax, %rsi
	leaq	17600(%rbx), %rcx
	jne	.LBB48_152
	xorl	%eax, %eax
	movb	$3, %dl
	movq	17336(%rbx), %rcx
	cmpq	$-1, %rcx
	jne	.LBB48_123
	jmp	.LBB48_189
.LBB48_151:
	leaq	17600(%rbx), %rcx
.LBB48_152:
	cmpb	$17, %r8b
	sete	%dl
	orb	17329(%rbx), %dl
	movl	%edx, %r10d
	xorb	$1, %r10b
	movzbl	%r8b, %r8d
	xorl	%eax, %eax
	testb	%dl, %dl
	cmovel	%r8d, %eax
	movl	%ebp, %r13d
	shrl	$8, %ebp
	movb	$2, %r11b
	movb	$1, %r8b
	movb	$1, %dl
	testb	%r10b, %r10b
	je	.LBB48_153
.LBB48_122:
	movq	17336(%rbx), %rcx
	cmpq	$-1, %rcx
	je	.LBB48_189
.LBB48_123:
	incq	%rcx
	movq	%rcx, 17336(%rbx)
	movzbl	%dl, %ecx
	decl	%ecx
	leaq	.LJTI48_3(%rip), %rdx
	movslq	(%rdx,%rcx,4), %rcx
	addq	%rdx, %rcx
	jmpq	*%rcx
.LBB48_124:
	movzbl	%al, %eax
	cmpb	$24, %al
	movl	$24, %ecx
	cmovbl	%eax, %ecx
	movzbl	%cl, %eax
	incq	17392(%rbx,%rax,8)
	jmp	.LBB48_189
.LBB48_125:
	incq	17360(%rbx)
	jmp	.LBB48_189
.LBB48_126:
	incq	17376(%rbx)
	jmp	.LBB48_189
.LBB48_127:
	incq	17352(%rbx)
.LBB48_189:
	pxor	%xmm0, %xmm0
	movdqa	%xmm0, 64(%rsp)
	movq	$0, 80(%rsp)
	movq	17696(%rbx), %r12
	testq	%r12, %r12
	je	.LBB48_191
	leaq	64(%rsp), %rdi
	leaq	17600(%rbx), %rsi
	callq	"arrayvec::array_vec::ArrayVec::remove::<#86edd032541158b8>"
	movq	80(%rsp), %rax
	movq	%rax, 48(%rsp)
	movdqa	64(%rsp), %xmm0
	movdqa	%xmm0, 32(%rsp)
.LBB48_191:
	testq	%r12, %r12
	setne	%dl
	movq	120(%rsp), %r12
	jmp	.LBB48_116
.LBB48_192:
	movq	17336(%rbx), %rcx
	cmpq	$-1, %rcx
	je	.LBB48_194
	incq	%rcx
	movq	%rcx, 17336(%rbx)
	incq	17344(%rbx)
.LBB48_194:
	cmpq	%rdx, %rax
	jbe	.LBB48_200
	xorl	%ecx, %ecx
	subq	17200(%rbx), %rax
	cmovaeq	%rax, %rcx
	cmpq	%rdx, %rcx
	cmovaq	%rcx, %rdx
	jmp	.LBB48_201
.LBB48_198:
	movdqa	%xmm1, 320(%rsp)
	movdqa	%xmm6, 336(%rsp)
	movzbl	321(%rsp), %eax
	xorl	%r12d, %r12d
	testb	%r8b, %r8b
	cmovel	%r12d, %eax
	movdqa	%xmm1, 240(%rsp)
	movq	%r11, 176(%rsp)
	jne	.LBB48_209
	pxor	%xmm0, %xmm0
	pxor	%xmm1, %xmm1
	jmp	.LBB48_210
.LBB48_200:
	movq	%rdx, 17208(%rbx)
	movq	8(%rsp), %rax
	movq	%rax, 17216(%rbx)
.LBB48_201:
	movq	%rdx, 32(%rsp)
	movl	%ebp, %eax
	movb	%al, 40(%rsp)
	movb	%ah, 41(%rsp)
	movq	%xmm6, 42(%rsp)
	movd	%xmm1, 50(%rsp)
	movw	$0, 54(%rsp)
	addq	%r15, %r14
	jmp	.LBB48_117
.LBB48_202:
	movdqa	%xmm1, %xmm2
	pshufd	$85, %xmm6, %xmm1
	movdqa	%xmm2, %xmm0
	punpckldq	%xmm1, %xmm0
	movdqa	%xmm0, %xmm1
	psrlq	$40, %xmm1
	psllq	$24, %xmm0
	por	%xmm1, %xmm0
	movdqa	%xmm2, %xmm1
	psrld	$16, %xmm1
.LBB48_203:
	movq	8(%rsp), %rdx
	testb	%al, %al
	jne	.LBB48_205
	movb	$1, 17328(%rbx)
.LBB48_205:
	movq	%rsi, 64(%rsp)
	movl	%r13d, %eax
	movb	%al, 72(%rsp)
	movb	%bpl, 73(%rsp)
	movd	%xmm6, 74(%rsp)
	movdqa	%xmm6, 352(%rsp)
	movzbl	356(%rsp), %eax
	movb	%al, 78(%rsp)
	movd	%xmm0, 79(%rsp)
	movb	%dil, 83(%rsp)
	movd	%xmm1, %eax
	movb	%al, 84(%rsp)
	movb	%ah, 85(%rsp)
	leaq	17160(%rbx), %rdi
	leaq	64(%rsp), %rsi
	callq	"sq_feed::ear::Ear::hear_jump"
	xorl	%r12d, %r12d
	jmp	.LBB48_211
.LBB48_206:
	xorl	%r8d, %r8d
	xorl	%edi, %edi
	jmp	.LBB48_221
.LBB48_207:
	movb	$0, 156(%rsp)
	movl	$0, 152(%rsp)
	xorl	%edi, %edi
.LBB48_208:
	movzbl	156(%rsp), %eax
	movb	%al, 68(%rsp)
	movl	152(%rsp), %eax
	movl	%eax, 64(%rsp)
	xorl	%r8d, %r8d
	jmp	.LBB48_220
.LBB48_209:
	movdqa	%xmm1, %xmm2
	pshufd	$85, %xmm6, %xmm1
	movdqa	%xmm2, %xmm0
	punpckldq	%xmm1, %xmm0
	movdqa	%xmm0, %xmm1
	psrlq	$40, %xmm1
	psllq	$24, %xmm0
	por	%xmm1, %xmm0
	movdqa	%xmm2, %xmm1
	psrld	$16, %xmm1
.LBB48_210:
	movl	%r13d, %edx
	movzbl	340(%rsp), %ecx
	movb	%dl, 64(%rsp)
	movb	%bpl, 65(%rsp)
	movd	%xmm6, 66(%rsp)
	movb	%cl, 70(%rsp)
	movd	%xmm0, 71(%rsp)
	movb	%al, 75(%rsp)
	movd	%xmm1, %eax
	movb	%al, 76(%rsp)
	movb	%ah, 77(%rsp)
	leaq	17160(%rbx), %rdi
	leaq	64(%rsp), %rdx
	movq	8(%rsp), %rcx
	leaq	17600(%rbx), %r8
	callq	"sq_feed::ear::Ear::hear_clock_jump"
.LBB48_211:
	xorl	%edx, %edx
	movdqa	240(%rsp), %xmm1
	movq	176(%rsp), %r11
	cmpb	$1, %r12b
	jne	.LBB48_189
.LBB48_212:
	movq	%rdx, 32(%rsp)
	testb	%r11b, %r11b
	movq	120(%rsp), %r12
	je	.LBB48_215
	movzbl	%r11b, %eax
	cmpl	$2, %eax
	jne	.LBB48_216
	movdqa	224(%rsp), %xmm0
	jmp	.LBB48_218
.LBB48_215:
	pxor	%xmm0, %xmm0
	jmp	.LBB48_217
.LBB48_216:
	movdqa	224(%rsp), %xmm0
	pand	.LCPI48_12(%rip), %xmm0
.LBB48_217:
	pxor	%xmm1, %xmm1
.LBB48_218:
	movb	%r13b, 40(%rsp)
	movb	%bpl, 41(%rsp)
	movq	%xmm0, 42(%rsp)
	movd	%xmm1, 50(%rsp)
	addq	%r15, %r14
	jmp	.LBB48_117
.LBB48_219:
	pextrw	$1, %xmm1, %edi
	movq	%xmm0, %rsi
	movdqa	%xmm0, 400(%rsp)
	movzbl	401(%rsp), %eax
	shll	$24, %eax
	andq	$-65281, %rsi
	shlq	$16, %rsi
	orq	%rax, %rsi
	bswapq	%rsi
	movl	19(%rbp), %eax
	movl	%eax, 72(%rsp)
	movq	11(%rbp), %rax
	movq	%rax, 64(%rsp)
	movl	$23, %r15d
	movb	$1, %r8b
.LBB48_220:
	xorl	%eax, %eax
.LBB48_221:
	movl	72(%rsp), %ecx
	movq	64(%rsp), %rdx
	movq	%rdx, 16(%rsp)
	movl	%ecx, 24(%rsp)
	testb	%r8b, %r8b
	je	.LBB48_235
	movl	%edi, %eax
	andb	$-8, %al
	cmpb	$-120, %al
	jne	.LBB48_237
	movb	$17, %r9b
	testq	%rsi, %rsi
	je	.LBB48_243
	movabsq	$280376761925972, %rax
	cmpq	%rax, %rsi
	je	.LBB48_243
	cmpb	$0, 17185(%rbx)
	jne	.LBB48_243
	cmpb	$2, 17224(%rbx)
	jne	.LBB48_243
	cmpb	$0, 17256(%rbx)
	jne	.LBB48_243
	cmpb	$1, 17176(%rbx)
	jne	.LBB48_243
	movq	%rsi, %rcx
	subq	17160(%rbx), %rcx
	movabsq	$281474976710655, %r10
	andq	%r10, %rcx
	movq	%rcx, %rax
	shrq	$47, %rax
	jne	.LBB48_243
	addq	17168(%rbx), %rcx
	movq	$-1, %r11
	cmovbq	%r11, %rcx
	movabsq	$-5853766786057164379, %rdx
	movq	%rcx, %rax
	mulq	%rdx
	shrq	$13, %rdx
	addq	17312(%rbx), %rdx
	cmovbq	%r11, %rdx
	movq	%rdx, %rax
	subq	17208(%rbx), %rax
	jb	.LBB48_243
	cmpq	17192(%rbx), %rax
	ja	.LBB48_243
	movq	17336(%rbx), %rax
	cmpq	$-1, %rax
	je	.LBB48_234
	incq	%rax
	movq	%rax, 17336(%rbx)
	incq	17344(%rbx)
.LBB48_234:
	andq	%r10, %rsi
	movq	%rsi, 17160(%rbx)
	movq	%rcx, 17168(%rbx)
	movq	%rdx, 17208(%rbx)
	movq	8(%rsp), %rax
	movq	%rax, 17216(%rbx)
	movq	%rdx, 32(%rsp)
	movw	%di, 40(%rsp)
	movl	24(%rsp), %eax
	leaq	40(%rsp), %rcx
	movl	%eax, 10(%rcx)
	movq	16(%rsp), %rax
	movq	%rax, 2(%rcx)
	movw	$0, 54(%rsp)
	movb	$1, %dl
	movq	120(%rsp), %r12
	jmp	.LBB48_116
.LBB48_235:
	testb	%al, %al
	je	.LBB48_239
	movb	$2, %cl
	xorl	%eax, %eax
	jmp	.LBB48_249
.LBB48_237:
	testb	%dil, %dil
	js	.LBB48_242
	movb	$5, %cl
	xorl	%eax, %eax
	jmp	.LBB48_249
.LBB48_239:
	xorl	%eax, %eax
	testb	%dil, %dil
	js	.LBB48_246
	movzbl	17329(%rbx), %edx
	movl	%edi, %ecx
	shrb	$3, %cl
	movzbl	%cl, %ecx
	testb	%dl, %dl
	cmovnel	%eax, %ecx
	movabsq	$280376761925972, %r9
	cmpq	%r9, %rsi
	cmovel	%eax, %ecx
	je	.LBB48_244
	xorb	$1, %dl
	movl	%ecx, %eax
	jmp	.LBB48_248
.LBB48_242:
	movl	%edi, %r9d
	shrb	$3, %r9b
.LBB48_243:
	xorl	%eax, %eax
	movabsq	$280376761925972, %rcx
	cmpq	%rcx, %rsi
	jne	.LBB48_245
.LBB48_244:
	movb	$3, %cl
	jmp	.LBB48_249
.LBB48_245:
	cmpb	$17, %r9b
	sete	%cl
	orb	17329(%rbx), %cl
	movl	%ecx, %edx
	xorb	$1, %dl
	movzbl	%r9b, %r9d
	testb	%cl, %cl
	cmovnel	%eax, %r9d
	movl	%r9d, %eax
.LBB48_248:
	movb	$1, %cl
	testb	%dl, %dl
	jne	.LBB48_249
	testq	%rsi, %rsi
	je	.LBB48_258
	cmpb	$1, 17185(%rbx)
	jne	.LBB48_264
.LBB48_258:
	movq	17336(%rbx), %rax
	cmpq	$-1, %rax
	je	.LBB48_260
	incq	%rax
	movq	%rax, 17336(%rbx)
	incq	17344(%rbx)
.LBB48_260:
	movq	17208(%rbx), %rdx
	cmpb	$1, 17184(%rbx)
	jne	.LBB48_262
	xorl	%eax, %eax
	movq	8(%rsp), %rsi
	movq	%rsi, %rcx
	subq	17216(%rbx), %rcx
	cmovaeq	%rcx, %rax
	addq	%rdx, %rax
	movq	$-1, %rdx
	cmovaeq	%rax, %rdx
	jmp	.LBB48_263
.LBB48_246:
	movb	$5, %cl
.LBB48_249:
	movq	17336(%rbx), %rdx
	cmpq	$-1, %rdx
	je	.LBB48_252
	incq	%rdx
	movq	%rdx, 17336(%rbx)
	movzbl	%cl, %ecx
	decl	%ecx
	leaq	.LJTI48_0(%rip), %rdx
	movslq	(%rdx,%rcx,4), %rcx
	addq	%rdx, %rcx
	jmpq	*%rcx
.LBB48_251:
	movzbl	%al, %eax
	cmpb	$24, %al
	movl	$24, %ecx
	cmovbl	%eax, %ecx
	movzbl	%cl, %eax
	incq	17392(%rbx,%rax,8)
.LBB48_252:
	xorl	%edx, %edx
	jmp	.LBB48_116
.LBB48_253:
	incq	17376(%rbx)
	xorl	%edx, %edx
	jmp	.LBB48_116
.LBB48_254:
	incq	17352(%rbx)
	xorl	%edx, %edx
	jmp	.LBB48_116
.LBB48_255:
	incq	17360(%rbx)
	xorl	%edx, %edx
	jmp	.LBB48_116
.LBB48_262:
	movq	8(%rsp), %rsi
.LBB48_263:
	movq	%rdx, 17208(%rbx)
	movq	%rsi, 17216(%rbx)
	jmp	.LBB48_273
.LBB48_264:
	cmpb	$2, 17224(%rbx)
	jne	.LBB48_277
	cmpb	$0, 17256(%rbx)
	jne	.LBB48_277
	cmpb	$1, 17176(%rbx)
	jne	.LBB48_277
	movq	%rsi, %rcx
	subq	17160(%rbx), %rcx
	movabsq	$281474976710655, %r9
	andq	%r9, %rcx
	movq	%rcx, %rax
	shrq	$47, %rax
	jne	.LBB48_277
	addq	17168(%rbx), %rcx
	movq	$-1, %r10
	cmovbq	%r10, %rcx
	movabsq	$-5853766786057164379, %rdx
	movq	%rcx, %rax
	mulq	%rdx
	shrq	$13, %rdx
	addq	17312(%rbx), %rdx
	cmovbq	%r10, %rdx
	movq	%rdx, %rax
	subq	17208(%rbx), %rax
	jb	.LBB48_277
	cmpq	17192(%rbx), %rax
	ja	.LBB48_277
	movq	17336(%rbx), %rax
	cmpq	$-1, %rax
	je	.LBB48_272
	incq	%rax
	movq	%rax, 17336(%rbx)
	incq	17344(%rbx)
.LBB48_272:
	andq	%r9, %rsi
	movq	%rsi, 17160(%rbx)
	movq	%rcx, 17168(%rbx)
	movq	%rdx, 17208(%rbx)
	movq	8(%rsp), %rax
	movq	%rax, 17216(%rbx)
.LBB48_273:
	movq	%rdx, 32(%rsp)
	testb	%r8b, %r8b
	je	.LBB48_275
	movl	24(%rsp), %eax
	movl	%eax, 136(%rsp)
	movq	16(%rsp), %rax
	jmp	.LBB48_276
.LBB48_275:
	leaq	66(%rsp), %rax
	movl	$0, 6(%rax)
	movl	$0, 3(%rax)
	movzbl	20(%rsp), %eax
	movb	%al, 68(%rsp)
	movl	16(%rsp), %eax
	movl	%eax, 64(%rsp)
	movl	72(%rsp), %eax
	movl	%eax, 136(%rsp)
	movq	64(%rsp), %rax
.LBB48_276:
	movq	%rax, 128(%rsp)
	movl	136(%rsp), %eax
	movl	%eax, 312(%rsp)
	movq	128(%rsp), %rcx
	movq	%rcx, 304(%rsp)
	movw	%di, 40(%rsp)
	leaq	40(%rsp), %rdx
	movl	%eax, 10(%rdx)
	movq	%rcx, 2(%rdx)
	movb	$1, %dl
	jmp	.LBB48_116
.LBB48_277:
	testb	%r8b, %r8b
	je	.LBB48_286
	movl	24(%rsp), %eax
	movl	%eax, 216(%rsp)
	movq	16(%rsp), %rax
	jmp	.LBB48_287
.LBB48_279:
	movl	$1, %esi
.LBB48_280:
	movdqa	.LCPI48_2(%rip), %xmm0
	movdqu	1(%rdx,%r15), %xmm10
	movdqu	13(%rdx,%r15), %xmm9
	movdqa	%xmm10, %xmm2
	paddb	%xmm0, %xmm2
	movdqa	.LCPI48_3(%rip), %xmm3
	psubusb	%xmm3, %xmm2
	movdqa	.LCPI48_4(%rip), %xmm1
	paddb	%xmm1, %xmm2
	movdqa	.LCPI48_5(%rip), %xmm4
	pand	%xmm4, %xmm10
	movdqa	.LCPI48_6(%rip), %xmm5
	movdqa	%xmm5, %xmm6
	psubb	%xmm10, %xmm6
	movdqa	.LCPI48_1(%rip), %xmm7
	pminub	%xmm7, %xmm6
	movdqa	.LCPI48_7(%rip), %xmm8
	paddb	%xmm8, %xmm10
	paddb	%xmm6, %xmm10
	pminub	%xmm2, %xmm10
	paddb	%xmm9, %xmm0
	psubusb	%xmm3, %xmm0
	paddb	%xmm1, %xmm0
	pand	%xmm4, %xmm9
	psubb	%xmm9, %xmm5
	pminub	%xmm7, %xmm5
	paddb	%xmm8, %xmm9
	paddb	%xmm5, %xmm9
	pminub	%xmm0, %xmm9
	movdqa	%xmm9, %xmm0
	por	%xmm10, %xmm0
	pmaxub	%xmm0, %xmm1
	pcmpeqb	%xmm0, %xmm1
	pmovmskb	%xmm1, %edx
	testl	%edx, %edx
	jne	.LBB48_33
	movzbl	%cl, %ecx
	leaq	(%rcx,%rcx,4), %rcx
	movzbl	%al, %eax
	leaq	(%rax,%rcx,2), %rax
	leaq	(%rax,%rax,4), %rax
	movl	%eax, %eax
	movzbl	%r11b, %ecx
	leaq	(%rcx,%rax,2), %rax
	leaq	(%rax,%rax,4), %rax
	movzbl	%r10b, %ecx
	leaq	(%rcx,%rax,2), %rax
	leaq	(%rax,%rax,4), %rax
	movzbl	%r9b, %ecx
	leaq	(%rcx,%rax,2), %rax
	leaq	(%rax,%rax,4), %rax
	movzbl	%r8b, %ecx
	leaq	(%rcx,%rax,2), %rax
	leaq	(%rax,%rax,4), %rax
	movzbl	31(%rsp), %ecx
	leaq	(%rcx,%rax,2), %rax
	leaq	(%rax,%rax,4), %rax
	movzbl	240(%rsp), %ecx
	leaq	(%rcx,%rax,2), %rax
	leaq	(%rax,%rax,4), %rax
	movzbl	176(%rsp), %ecx
	leaq	(%rcx,%rax,2), %rax
	leaq	(%rax,%rax,4), %rax
	movzbl	224(%rsp), %ecx
	leaq	(%rcx,%rax,2), %rax
	imulq	$1000, %rax, %r13
	movq	%rsi, %rbp
	movq	%r12, %rsi
	movdqa	%xmm9, 224(%rsp)
	movdqa	%xmm10, 176(%rsp)
	callq	"sq_feed::cells::thousandths"
	movdqa	.LCPI48_8(%rip), %xmm0
	movdqa	176(%rsp), %xmm2
	movdqa	%xmm2, %xmm1
	pand	%xmm0, %xmm1
	packuswb	%xmm1, %xmm1
	psrlw	$8, %xmm2
	packuswb	%xmm2, %xmm2
	movdqa	%xmm2, %xmm3
	psllw	$4, %xmm1
	movdqa	.LCPI48_9(%rip), %xmm2
	pand	%xmm2, %xmm1
	por	%xmm3, %xmm1
	movdqa	%xmm1, 384(%rsp)
	movzbl	384(%rsp), %edi
	movdqa	224(%rsp), %xmm3
	pand	%xmm3, %xmm0
	packuswb	%xmm0, %xmm0
	psrlw	$8, %xmm3
	packuswb	%xmm3, %xmm3
	psllw	$4, %xmm0
	pand	%xmm2, %xmm0
	por	%xmm3, %xmm0
	movdqa	%xmm0, 288(%rsp)
	movzbl	294(%rsp), %edx
	movzbl	295(%rsp), %ecx
	movabsq	$-53333333328000, %rsi
	addq	%rax, %rsi
	addq	%r13, %rsi
	addq	%r12, %r15
	addq	%rbp, %r15
	addq	$41, %r15
	movl	%edi, %eax
	andb	$-8, %al
	cmpb	$-120, %al
	jne	.LBB48_290
	cmpb	$2, 17224(%rbx)
	jne	.LBB48_296
	cmpb	$0, 17256(%rbx)
	jne	.LBB48_296
	movq	17312(%rbx), %r8
	addq	%rsi, %r8
	movq	$-1, %rax
	cmovaeq	%r8, %rax
	movq	17208(%rbx), %r8
	movq	%r8, %r9
	subq	%rax, %r9
	jbe	.LBB48_293
	movq	17200(%rbx), %r10
	cmpq	$1001, %r10
	movl	$1000, %r11d
	cmovaeq	%r10, %r11
	cmpq	%r11, %r9
	ja	.LBB48_296
	jmp	.LBB48_314
.LBB48_286:
	leaq	136(%rsp), %rax
	movl	$0, (%rax)
	movl	$0, -3(%rax)
	movzbl	20(%rsp), %eax
	movb	%al, 132(%rsp)
	movl	16(%rsp), %eax
	movl	%eax, 128(%rsp)
	movl	136(%rsp), %eax
	movl	%eax, 216(%rsp)
	movq	128(%rsp), %rax
.LBB48_287:
	movq	%rax, 208(%rsp)
	movw	%di, 64(%rsp)
	movl	216(%rsp), %eax
	leaq	66(%rsp), %rcx
	movl	%eax, 8(%rcx)
	movq	208(%rsp), %rax
	movq	%rax, (%rcx)
	leaq	17160(%rbx), %rdi
	leaq	64(%rsp), %rdx
	movq	8(%rsp), %rcx
	leaq	17600(%rbx), %r13
	movq	%r13, %r8
	callq	"sq_feed::ear::Ear::hear_clock_jump"
	cmpq	$0, 17696(%rbx)
	pxor	%xmm0, %xmm0
	movdqa	%xmm0, 64(%rsp)
	movq	$0, 80(%rsp)
	je	.LBB48_252
	leaq	64(%rsp), %rdi
	movq	%r13, %rsi
	callq	"arrayvec::array_vec::ArrayVec::remove::<#86edd032541158b8>"
	movq	80(%rsp), %rax
	movq	%rax, 48(%rsp)
	movdqa	64(%rsp), %xmm0
	movdqa	%xmm0, 32(%rsp)
	movb	$1, %dl
	jmp	.LBB48_116
.LBB48_290:
	testb	%dil, %dil
	js	.LBB48_296
	movq	17336(%rbx), %rax
	cmpq	$-1, %rax
	je	.LBB48_322
	incq	%rax
	movq	%rax, 17336(%rbx)
	incq	17376(%rbx)
	xorl	%edx, %edx
	movq	120(%rsp), %r12
	jmp	.LBB48_116
.LBB48_293:
	movq	%rax, %r10
	subq	%r8, %r10
	movq	17192(%rbx), %r9
	cmpq	%r9, %r10
	jbe	.LBB48_314
	cmpb	$1, 17184(%rbx)
	jne	.LBB48_296
	xorl	%r10d, %r10d
	movq	8(%rsp), %r11
	subq	17216(%rbx), %r11
	cmovaeq	%r11, %r10
	addq	%r8, %r10
	movq	$-1, %r11
	cmovaeq	%r10, %r11
	movq	%rax, %r10
	subq	%r11, %r10
	subq	%rax, %r11
	cmovbq	%r10, %r11
	cmpq	%r9, %r11
	jbe	.LBB48_314
.LBB48_296:
	shrb	$3, %dil
	cmpb	$17, %dil
	je	.LBB48_300
	cmpb	$0, 17329(%rbx)
	jne	.LBB48_300
	movq	17336(%rbx), %rax
	cmpq	$-1, %rax
	je	.LBB48_322
	incq	%rax
	movq	%rax, 17336(%rbx)
	movzbl	%dil, %eax
	cmpb	$24, %dil
	movl	$24, %ecx
	cmovbl	%eax, %ecx
	movzbl	%cl, %eax
	incq	17392(%rbx,%rax,8)
	xorl	%edx, %edx
	movq	120(%rsp), %r12
	jmp	.LBB48_116
.LBB48_300:
	movq	$0, 80(%rsp)
	movzbl	17224(%rbx), %eax
	psrlq	$16, %xmm0
	cmpl	$2, %eax
	jne	.LBB48_318
	cmpb	$0, 17256(%rbx)
	jne	.LBB48_320
	movq	17312(%rbx), %rdi
	addq	%rsi, %rdi
	movq	$-1, %rax
	cmovaeq	%rdi, %rax
	movq	17208(%rbx), %rdi
	movq	%rdi, %r8
	subq	%rax, %r8
	jbe	.LBB48_304
	movq	17200(%rbx), %r9
	cmpq	$1001, %r9
	movl	$1000, %r10d
	cmovaeq	%r9, %r10
	cmpq	%r10, %r8
	jbe	.LBB48_307
	jmp	.LBB48_320
.LBB48_304:
	movq	%rax, %r9
	subq	%rdi, %r9
	movq	17192(%rbx), %r8
	cmpq	%r8, %r9
	jbe	.LBB48_307
	cmpb	$1, 17184(%rbx)
	jne	.LBB48_320
	xorl	%r9d, %r9d
	movq	8(%rsp), %r10
	subq	17216(%rbx), %r10
	cmovaeq	%r10, %r9
	addq	%rdi, %r9
	movq	$-1, %r10
	cmovaeq	%r9, %r10
	movq	%rax, %r9
	subq	%r10, %r9
	subq	%rax, %r10
	cmovbq	%r9, %r10
	cmpq	%r8, %r10
	ja	.LBB48_320
.LBB48_307:
	movq	17336(%rbx), %rsi
	cmpq	$-1, %rsi
	je	.LBB48_309
	incq	%rsi
	movq	%rsi, 17336(%rbx)
	incq	17344(%rbx)
.LBB48_309:
	cmpq	%rax, %rdi
	jbe	.LBB48_311
	xorl	%esi, %esi
	subq	17200(%rbx), %rdi
	cmovaeq	%rdi, %rsi
	cmpq	%rax, %rsi
	cmovaq	%rsi, %rax
	jmp	.LBB48_312
.LBB48_311:
	movq	%rax, 17208(%rbx)
	movq	8(%rsp), %rsi
	movq	%rsi, 17216(%rbx)
.LBB48_312:
	movq	%rax, 32(%rsp)
	movq	%xmm1, 40(%rsp)
	movd	%xmm0, 48(%rsp)
	movb	%dl, 52(%rsp)
	movb	%cl, 53(%rsp)
.LBB48_313:
	addq	%r15, %r14
	movq	120(%rsp), %r12
	jmp	.LBB48_117
.LBB48_314:
	movq	17336(%rbx), %rsi
	cmpq	$-1, %rsi
	je	.LBB48_316
	incq	%rsi
	movq	%rsi, 17336(%rbx)
	incq	17344(%rbx)
.LBB48_316:
	cmpq	%rax, %r8
	jbe	.LBB48_323
	xorl	%esi, %esi
	subq	17200(%rbx), %r8
	cmovaeq	%r8, %rsi
	cmpq	%rax, %rsi
	cmovaq	%rsi, %rax
	jmp	.LBB48_324
.LBB48_318:
	testl	%eax, %eax
	jne	.LBB48_320
	movb	$1, 17328(%rbx)
.LBB48_320:
	movq	%rsi, 64(%rsp)
	movq	%xmm1, 72(%rsp)
	movd	%xmm0, 80(%rsp)
	movb	%dl, 84(%rsp)
	movb	%cl, 85(%rsp)
	leaq	17160(%rbx), %rdi
	leaq	64(%rsp), %rsi
	movq	8(%rsp), %rdx
	leaq	17600(%rbx), %rcx
	callq	"sq_feed::ear::Ear::hear_jump"
	cmpq	$0, 17696(%rbx)
	pxor	%xmm0, %xmm0
	movdqa	%xmm0, 64(%rsp)
	movq	$0, 80(%rsp)
	je	.LBB48_322
	leaq	64(%rsp), %rdi
	leaq	17600(%rbx), %rsi
	callq	"arrayvec::array_vec::ArrayVec::remove::<#86edd032541158b8>"
	movq	80(%rsp), %rax
	movq	%rax, 48(%rsp)
	movdqa	64(%rsp), %xmm0
	movdqa	%xmm0, 32(%rsp)
	movb	$1, %dl
	movq	120(%rsp), %r12
	jmp	.LBB48_116
.LBB48_322:
	xorl	%edx, %edx
	movq	120(%rsp), %r12
	jmp	.LBB48_116
.LBB48_323:
	movq	%rax, 17208(%rbx)
	movq	8(%rsp), %rsi
	movq	%rsi, 17216(%rbx)
.LBB48_324:
	movq	%rax, 32(%rsp)
	movq	%xmm1, 40(%rsp)
	psrlq	$16, %xmm0
	movd	%xmm0, 48(%rsp)
	movb	%dl, 52(%rsp)
	movb	%cl, 53(%rsp)
	movw	$0, 54(%rsp)
	jmp	.LBB48_313
.LBB48_325:
	movq	928(%rsp), %r15
.LBB48_326:
	movq	264(%rsp), %rdi
	movq	200(%rsp), %rbx
	addq	%rbx, %rdi
	leaq	416(%rsp), %rsi
	movq	%r15, %rdx
	callq	memcpy@PLT
	addq	%rbx, %r15
	movq	%r14, %rax
	movq	%r15, %rdx
	addq	$936, %rsp
	popq	%rbx
	popq	%r12
	popq	%r13
	popq	%r14
	popq	%r15
	popq	%rbp
	retq
.LBB48_327:
	ud2
.Lfunc_end48:
	.size	"squitter_c::feed_text::take_by", .Lfunc_end48-"squitter_c::feed_text::take_by"
	.section	".rodata.squitter_c::feed_text::take_by","a",@progbits
	.p2align	2, 0x0
.LJTI48_0:
	.long	.LBB48_251-.LJTI48_0
	.long	.LBB48_254-.LJTI48_0
	.long	.LBB48_255-.LJTI48_0
	.long	.LBB48_327-.LJTI48_0
	.long	.LBB48_253-.LJTI48_0
.LJTI48_1:
	.long	.LBB48_115-.LJTI48_1
	.long	.LBB48_9-.LJTI48_1
	.long	.LBB48_29-.LJTI48_1
	.long	.LBB48_78-.LJTI48_1
.LJTI48_2:
	.long	.LBB48_45-.LJTI48_2
	.long	.LBB48_115-.LJTI48_2
	.long	.LBB48_115-.LJTI48_2
	.long	.LBB48_115-.LJTI48_2
	.long	.LBB48_115-.LJTI48_2
	.long	.LBB48_68-.LJTI48_2
	.long	.LBB48_115-.LJTI48_2
	.long	.LBB48_115-.LJTI48_2
	.long	.LBB48_115-.LJTI48_2
	.long	.LBB48_115-.LJTI48_2
	.long	.LBB48_115-.LJTI48_2
	.long	.LBB48_115-.LJTI48_2
	.long	.LBB48_115-.LJTI48_2
	.long	.LBB48_115-.LJTI48_2
	.long	.LBB48_115-.LJTI48_2
	.long	.LBB48_115-.LJTI48_2
	.long	.LBB48_115-.LJTI48_2
	.long	.LBB48_115-.LJTI48_2
	.long	.LBB48_115-.LJTI48_2
	.long	.LBB48_115-.LJTI48_2
	.long	.LBB48_115-.LJTI48_2
	.long	.LBB48_68-.LJTI48_2
	.long	.LBB48_115-.LJTI48_2
	.long	.LBB48_115-.LJTI48_2
	.long	.LBB48_115-.LJTI48_2
	.long	.LBB48_115-.LJTI48_2
	.long	.LBB48_115-.LJTI48_2
	.long	.LBB48_45-.LJTI48_2
.LJTI48_3:
	.long	.LBB48_124-.LJTI48_3
	.long	.LBB48_127-.LJTI48_3
	.long	.LBB48_125-.LJTI48_3
	.long	.LBB48_327-.LJTI48_3
	.long	.LBB48_126-.LJTI48_3

	.section	".text.sq_feed::lines::push_log_line::<=512>","ax",@progbits
	.p2align	4
	.type	"sq_feed::lines::push_log_line::<=512>",@function
"sq_feed::lines::push_log_line::<=512>":
	pushq	%rbp
	pushq	%r15
	pushq	%r14
	pushq	%r13
	pushq	%r12
	pushq	%rbx
	pushq	%rax
	movq	%rdx, %rbx
	cmpq	$999999999, %rsi
	ja	.LBB49_6
	cmpq	$999999, %rsi
	ja	.LBB49_5
	xorl	%eax, %eax
	cmpq	$999, %rsi
	ja	.LBB49_4
	cmpq	$100, %rsi
	setb	%al
	cmpq	$10, %rsi
	adcq	$0, %rax
	leaq	.Lstatic.22(%rip), %rcx
	leaq	(%rcx,%rsi,4), %rcx
	movq	512(%rdi), %rdx
	movl	(%rax,%rcx), %ecx
	movl	%ecx, (%rdi,%rdx)
	xorq	$3, %rax
	addq	%rdx, %rax
	movq	%rax, 512(%rdi)
	movzbl	(%rbx), %eax
	testb	%al, %al
	jns	.LBB49_9
	jmp	.LBB49_8
.LBB49_6:
	movq	%rdi, %r14
	callq	"sq_digits::decimal::push_long::<=512>"
	movq	%r14, %rdi
	movzbl	(%rbx), %eax
	testb	%al, %al
	jns	.LBB49_9
	jmp	.LBB49_8
.LBB49_5:
	imulq	$1125899907, %rsi, %rcx
	xorl	%eax, %eax
	cmpq	$100000000, %rsi
	setb	%al
	cmpq	$10000000, %rsi
	adcq	$0, %rax
	shrq	$48, %rcx
	andl	$32764, %ecx
	leaq	.Lstatic.22(%rip), %rdx
	addq	%rdx, %rcx
	movq	512(%rdi), %r8
	movl	(%rax,%rcx), %ecx
	movl	%ecx, (%rdi,%r8)
	xorq	$3, %rax
	leaq	(%r8,%rax), %rcx
	imulq	$274877907, %rsi, %r9
	shrq	$38, %r9
	imulq	$68719477, %r9, %r10
	shrq	$36, %r10
	imull	$1000, %r10d, %r10d
	imull	$1000, %r9d, %r11d
	subl	%r10d, %r9d
	movzwl	(%rdx,%r9,4), %r10d
	movw	%r10w, (%rdi,%rcx)
	movzbl	2(%rdx,%r9,4), %r9d
	movb	%r9b, 2(%rdi,%rcx)
	subl	%r11d, %esi
	movl	(%rdx,%rsi,4), %edx
	movl	%edx, 3(%rdi,%rcx)
	addq	%r8, %rax
	addq	$6, %rax
	movq	%rax, 512(%rdi)
	movzbl	(%rbx), %eax
	testb	%al, %al
	js	.LBB49_8
.LBB49_9:
	movq	%rbx, %rsi
	addq	$8, %rsp
	popq	%rbx
	popq	%r12
	popq	%r13
	popq	%r14
	popq	%r15
	popq	%rbp
	jmp	"sq_feed::lines::push_short_tail::<=512>"
.LBB49_4:
	cmpq	$100000, %rsi
	setb	%al
	cmpq	$10000, %rsi
	adcq	$0, %rax
	leaq	.Lstatic.22(%rip), %rcx
	imulq	$274877907, %rsi, %rdx
	shrq	$38, %rdx
	leaq	(%rcx,%rdx,4), %r8
	movq	512(%rdi), %r9
	movl	(%rax,%r8), %r8d
	movl	%r8d, (%rdi,%r9)
	xorq	$3, %rax
	leaq	(%r9,%rax), %r8
	imull	$1000, %edx, %edx
	subl	%edx, %esi
	movl	(%rcx,%rsi,4), %ecx
	movl	%ecx, (%rdi,%r8)
	addq	%r9, %rax
	addq	$3, %rax
	movq	%rax, 512(%rdi)
	movzbl	(%rbx), %eax
	testb	%al, %al
	jns	.LBB49_9
.LBB49_8:
	leaq	.Lstatic.67(%rip), %rcx
	movzwl	(%rcx,%rax,2), %eax
	movw	%ax, 6(%rsp)
	movzbl	1(%rbx), %edx
	movzwl	(%rcx,%rdx,2), %eax
	movw	%ax, 4(%rsp)
	movzbl	2(%rbx), %esi
	movzwl	(%rcx,%rsi,2), %esi
	movzbl	3(%rbx), %r8d
	movzwl	(%rcx,%r8,2), %r8d
	movzbl	4(%rbx), %r9d
	movzwl	(%rcx,%r9,2), %r9d
	movzbl	5(%rbx), %r10d
	movzwl	(%rcx,%r10,2), %r10d
	movzbl	6(%rbx), %r11d
	movzwl	(%rcx,%r11,2), %r11d
	movzbl	7(%rbx), %r14d
	movzwl	(%rcx,%r14,2), %ebp
	movzbl	8(%rbx), %r14d
	movzwl	(%rcx,%r14,2), %r14d
	movzbl	9(%rbx), %r15d
	movzwl	(%rcx,%r15,2), %r15d
	movzbl	10(%rbx), %r12d
	movzwl	(%rcx,%r12,2), %r12d
	movzbl	11(%rbx), %r13d
	movzwl	(%rcx,%r13,2), %r13d
	movzbl	12(%rbx), %eax
	movzwl	(%rcx,%rax,2), %eax
	movzbl	13(%rbx), %ebx
	movzwl	(%rcx,%rbx,2), %ecx
	movq	512(%rdi), %rbx
	movb	$32, (%rdi,%rbx)
	movzwl	6(%rsp), %edx
	movw	%dx, 1(%rdi,%rbx)
	movzwl	4(%rsp), %edx
	movw	%dx, 3(%rdi,%rbx)
	movw	%si, 5(%rdi,%rbx)
	movw	%r8w, 7(%rdi,%rbx)
	movw	%r9w, 9(%rdi,%rbx)
	movw	%r10w, 11(%rdi,%rbx)
	movw	%r11w, 13(%rdi,%rbx)
	movw	%bp, 15(%rdi,%rbx)
	movw	%r14w, 17(%rdi,%rbx)
	movw	%r15w, 19(%rdi,%rbx)
	movw	%r12w, 21(%rdi,%rbx)
	movw	%r13w, 23(%rdi,%rbx)
	movw	%ax, 25(%rdi,%rbx)
	movw	%cx, 27(%rdi,%rbx)
	movb	$10, 29(%rdi,%rbx)
	addq	$30, %rbx
	movq	%rbx, 512(%rdi)
	addq	$8, %rsp
	popq	%rbx
	popq	%r12
	popq	%r13
	popq	%r14
	popq	%r15
	popq	%rbp
	retq
.Lfunc_end49:
	.size	"sq_feed::lines::push_log_line::<=512>", .Lfunc_end49-"sq_feed::lines::push_log_line::<=512>"

	.section	".text.sq_digits::decimal::push_long::<=512>","ax",@progbits
	.p2align	4
	.type	"sq_digits::decimal::push_long::<=512>",@function
"sq_digits::decimal::push_long::<=512>":
	movabsq	$999999999999999, %rax
	cmpq	%rax, %rsi
	ja	"sq_digits::decimal::push_longest::<=512>"
	movabsq	$4835703278458516699, %rcx
	movq	%rsi, %rax
	mulq	%rcx
	shrq	$18, %rdx
	movq	%rsi, %rax
	shrq	$12, %rax
	movq	512(%rdi), %rcx
	cmpq	$244140624, %rax
	ja	.LBB50_3
	movl	%edx, %eax
	imulq	$274877907, %rax, %r8
	movq	%rsi, %r9
	shrq	$11, %r9
	xorl	%eax, %eax
	cmpq	$48828125, %r9
	setb	%al
	movq	%rsi, %r9
	shrq	$10, %r9
	cmpq	$9765625, %r9
	adcq	$0, %rax
	shrq	$36, %r8
	andl	$-4, %r8d
	leaq	.Lstatic.22(%rip), %r9
	addq	%r9, %r8
	movl	(%rax,%r8), %r8d
	movl	%r8d, (%rdi,%rcx)
	xorq	$3, %rax
	leaq	(%rcx,%rax), %r8
	imulq	$274877907, %rdx, %r10
	shrq	$38, %r10
	imull	$1000, %r10d, %r10d
	subl	%r10d, %edx
	movl	(%r9,%rdx,4), %edx
	movl	%edx, (%rdi,%r8)
	leaq	(%rcx,%rax), %r8
	addq	$3, %r8
	jmp	.LBB50_4
.LBB50_3:
	pushq	%rbx
	movl	%edx, %eax
	imulq	$1125899907, %rax, %rax
	movabsq	$100000000000000, %r9
	xorl	%r8d, %r8d
	cmpq	%r9, %rsi
	setb	%r8b
	movq	%rsi, %r9
	shrq	$13, %r9
	cmpq	$1220703125, %r9
	adcq	$0, %r8
	shrq	$48, %rax
	andl	$-4, %eax
	leaq	.Lstatic.22(%rip), %r9
	addq	%r9, %rax
	movl	(%r8,%rax), %eax
	movl	%eax, (%rdi,%rcx)
	xorq	$3, %r8
	leaq	(%rcx,%r8), %r10
	movq	%r10, 512(%rdi)
	movq	%rsi, %rax
	shrq	$9, %rax
	movabsq	$19342813113834067, %r11
	movq	%rdx, %rbx
	mulq	%r11
	shrq	$11, %rdx
	imulq	$274877907, %rdx, %rax
	shrq	$38, %rax
	imull	$1000, %eax, %eax
	subl	%eax, %edx
	movzwl	(%r9,%rdx,4), %eax
	movw	%ax, (%rdi,%r10)
	movzbl	2(%r9,%rdx,4), %eax
	movb	%al, 2(%rdi,%r10)
	imulq	$274877907, %rbx, %rax
	shrq	$38, %rax
	imull	$1000, %eax, %eax
	subl	%eax, %ebx
	movl	(%r9,%rbx,4), %eax
	movl	%eax, 3(%rdi,%r10)
	addq	%rcx, %r8
	addq	$6, %r8
	popq	%rbx
.LBB50_4:
	movq	%rsi, %rax
	shrq	$3, %rax
	movabsq	$2361183241434822607, %rcx
	mulq	%rcx
	movq	%rdx, %rcx
	shrq	$4, %rcx
	movabsq	$18446744073709552, %rdx
	movq	%rcx, %rax
	mulq	%rdx
	imull	$1000, %edx, %eax
	imull	$1000, %ecx, %edx
	subl	%eax, %ecx
	leaq	.Lstatic.22(%rip), %rax
	movzwl	(%rax,%rcx,4), %r9d
	movw	%r9w, (%rdi,%r8)
	movzbl	2(%rax,%rcx,4), %ecx
	movb	%cl, 2(%rdi,%r8)
	subl	%edx, %esi
	movl	(%rax,%rsi,4), %eax
	movl	%eax, 3(%rdi,%r8)
	addq	$6, %r8
	movq	%r8, 512(%rdi)
	retq
.Lfunc_end50:
	.size	"sq_digits::decimal::push_long::<=512>", .Lfunc_end50-"sq_digits::decimal::push_long::<=512>"

	.section	".text.unlikely.sq_digits::decimal::push_longest::<=512>","ax",@progbits
	.p2align	4
	.type	"sq_digits::decimal::push_longest::<=512>",@function
"sq_digits::decimal::push_longest::<=512>":
	pushq	%r15
	pushq	%r14
	pushq	%rbx
	subq	$48, %rsp
	movq	%rsi, %rdx
	xorps	%xmm0, %xmm0
	movaps	%xmm0, 16(%rsp)
	movaps	%xmm0, (%rsp)
	movq	$0, 32(%rsp)
	xorl	%esi, %esi
	.p2align	4
.LBB51_1:
	movq	%rdx, %rcx
	movabsq	$3777893186295716171, %rdx
	movq	%rcx, %rax
	mulq	%rdx
	shrq	$11, %rdx
	imull	$10000, %edx, %eax
	movl	%ecx, %r8d
	subl	%eax, %r8d
	imull	$5243, %r8d, %r9d
	shrl	$19, %r9d
	imull	$100, %r9d, %eax
	subl	%eax, %r8d
	movzwl	%r8w, %r8d
	leaq	.Lstatic.23(%rip), %rax
	movzwl	(%rax,%r8,2), %r8d
	movw	%r8w, 38(%rsp,%rsi)
	movzwl	(%rax,%r9,2), %r8d
	movw	%r8w, 36(%rsp,%rsi)
	addq	$-4, %rsi
	cmpq	$99999999, %rcx
	ja	.LBB51_1
	cmpq	$999999, %rcx
	ja	.LBB51_6
	cmpq	$99999, %rcx
	ja	.LBB51_5
	orb	$48, %dl
	movb	%dl, 39(%rsp,%rsi)
	addq	$39, %rsi
	jmp	.LBB51_8
.LBB51_6:
	movl	%edx, %r8d
	shrl	$2, %r8d
	movzwl	%r8w, %r8d
	imull	$5243, %r8d, %r8d
	shrl	$17, %r8d
	imull	$100, %r8d, %r9d
	subl	%r9d, %edx
	movzwl	%dx, %edx
	movzwl	(%rax,%rdx,2), %edx
	movw	%dx, 38(%rsp,%rsi)
	cmpq	$9999999, %rcx
	ja	.LBB51_9
	orb	$48, %r8b
	movb	%r8b, 37(%rsp,%rsi)
	addq	$37, %rsi
	jmp	.LBB51_8
.LBB51_5:
	movzwl	(%rax,%rdx,2), %eax
	movw	%ax, 38(%rsp,%rsi)
	addq	$38, %rsi
.LBB51_8:
	movl	$40, %ebx
	subq	%rsi, %rbx
	leaq	512(%rdi), %r14
	movq	512(%rdi), %r15
.LBB51_11:
	addq	%rsp, %rsi
	addq	%r15, %rdi
	movq	%rbx, %rdx
	callq	memcpy@PLT
.LBB51_12:
	addq	%rbx, %r15
	movq	%r15, (%r14)
	addq	$48, %rsp
	popq	%rbx
	popq	%r14
	popq	%r15
	retq
.LBB51_9:
	leaq	512(%rdi), %r14
	movq	%rsi, %rbx
	movzwl	%r8w, %ecx
	movzwl	(%rax,%rcx,2), %eax
	movw	%ax, 36(%rsp,%rsi)
	movq	512(%rdi), %r15
	subq	$4, %rbx
	jne	.LBB51_10
	xorl	%ebx, %ebx
	jmp	.LBB51_12
.LBB51_10:
	addq	$36, %rsi
	negq	%rbx
	jmp	.LBB51_11
.Lfunc_end51:
	.size	"sq_digits::decimal::push_longest::<=512>", .Lfunc_end51-"sq_digits::decimal::push_longest::<=512>"

	.section	".text.sq_feed::lines::push_short_tail::<=512>","ax",@progbits
	.p2align	4
	.type	"sq_feed::lines::push_short_tail::<=512>",@function
"sq_feed::lines::push_short_tail::<=512>":
	movzbl	(%rsi), %eax
	leaq	.Lstatic.67(%rip), %rcx
	movzwl	(%rcx,%rax,2), %eax
	movzbl	1(%rsi), %edx
	movzwl	(%rcx,%rdx,2), %edx
	movzbl	2(%rsi), %r8d
	movzwl	(%rcx,%r8,2), %r8d
	movzbl	3(%rsi), %r9d
	movzwl	(%rcx,%r9,2), %r9d
	movzbl	4(%rsi), %r10d
	movzwl	(%rcx,%r10,2), %r10d
	movzbl	5(%rsi), %r11d
	movzwl	(%rcx,%r11,2), %r11d
	movzbl	6(%rsi), %esi
	movzwl	(%rcx,%rsi,2), %ecx
	movq	512(%rdi), %rsi
	movb	$32, (%rdi,%rsi)
	movw	%ax, 1(%rdi,%rsi)
	movw	%dx, 3(%rdi,%rsi)
	movw	%r8w, 5(%rdi,%rsi)
	movw	%r9w, 7(%rdi,%rsi)
	movw	%r10w, 9(%rdi,%rsi)
	movw	%r11w, 11(%rdi,%rsi)
	movw	%cx, 13(%rdi,%rsi)
	movb	$10, 15(%rdi,%rsi)
	addq	$16, %rsi
	movq	%rsi, 512(%rdi)
	retq
.Lfunc_end52:
	.size	"sq_feed::lines::push_short_tail::<=512>", .Lfunc_end52-"sq_feed::lines::push_short_tail::<=512>"

	.section	.rodata.cst16,"aM",@progbits,16
	.p2align	4, 0x0
.LCPI53_0:
	.long	1
	.long	0
	.long	0
	.long	0
.LCPI53_1:
	.zero	16,198
.LCPI53_2:
	.zero	16,6
.LCPI53_3:
	.zero	16,16
.LCPI53_4:
	.zero	16,223
.LCPI53_5:
	.zero	16,64
.LCPI53_6:
	.zero	16,10
.LCPI53_7:
	.zero	16,191
.LCPI53_8:
	.short	255
	.short	255
	.short	255
	.short	255
	.short	255
	.short	255
	.short	255
	.short	255
.LCPI53_9:
	.zero	16,240
	.section	.rodata.cst4,"aM",@progbits,4
	.p2align	2, 0x0
.LCPI53_10:
	.long	1
	.section	".text.sq_text::frame_text::read_text","ax",@progbits
	.p2align	4
	.type	"sq_text::frame_text::read_text",@function
"sq_text::frame_text::read_text":
	movd	.LCPI53_10(%rip), %xmm0
	movl	$2, %eax
	testq	%rdx, %rdx
	je	.LBB53_36
	cmpq	$1, %rdx
	jne	.LBB53_4
	movzbl	(%rsi), %ecx
	cmpl	$42, %ecx
	je	.LBB53_8
	movl	$1, %edx
	cmpl	$59, %ecx
	je	.LBB53_8
	jmp	.LBB53_36
.LBB53_4:
	cmpb	$42, (%rsi)
	movzbl	-1(%rsi,%rdx), %ecx
	jne	.LBB53_7
	cmpb	$59, %cl
	jne	.LBB53_8
	incq	%rsi
	addq	$-2, %rdx
	jmp	.LBB53_9
.LBB53_7:
	cmpb	$59, %cl
	jne	.LBB53_9
.LBB53_8:
	movb	$1, (%rdi)
	movq	$0, 16(%rdi)
	movq	$0, 1(%rdi)
	movq	$0, 7(%rdi)
	retq
.LBB53_9:
	cmpq	$14, %rdx
	je	.LBB53_30
	cmpq	$28, %rdx
	jne	.LBB53_36
	movdqa	.LCPI53_1(%rip), %xmm3
	movdqu	(%rsi), %xmm2
	movdqu	12(%rsi), %xmm1
	movdqa	%xmm2, %xmm5
	paddb	%xmm3, %xmm5
	movdqa	.LCPI53_2(%rip), %xmm6
	psubusb	%xmm6, %xmm5
	movdqa	.LCPI53_3(%rip), %xmm4
	paddb	%xmm4, %xmm5
	movdqa	.LCPI53_4(%rip), %xmm7
	pand	%xmm7, %xmm2
	movdqa	.LCPI53_5(%rip), %xmm8
	movdqa	%xmm8, %xmm9
	psubb	%xmm2, %xmm9
	movdqa	.LCPI53_6(%rip), %xmm10
	pminub	%xmm10, %xmm9
	movdqa	.LCPI53_7(%rip), %xmm11
	paddb	%xmm11, %xmm2
	paddb	%xmm9, %xmm2
	pminub	%xmm5, %xmm2
	paddb	%xmm1, %xmm3
	psubusb	%xmm6, %xmm3
	paddb	%xmm4, %xmm3
	pand	%xmm7, %xmm1
	psubb	%xmm1, %xmm8
	pminub	%xmm10, %xmm8
	paddb	%xmm11, %xmm1
	paddb	%xmm8, %xmm1
	pminub	%xmm3, %xmm1
	movdqa	%xmm1, %xmm3
	por	%xmm2, %xmm3
	pmaxub	%xmm3, %xmm4
	pcmpeqb	%xmm3, %xmm4
	pmovmskb	%xmm4, %eax
	testl	%eax, %eax
	je	.LBB53_31
	movq	$0, -50(%rsp)
	movq	$0, -56(%rsp)
	movl	$1, %edx
	leaq	-56(%rsp), %rax
	jmp	.LBB53_15
.LBB53_13:
	addb	$-48, %r8b
.LBB53_14:
	shlb	$4, %cl
	addb	%r8b, %cl
	movb	%cl, (%rax)
	addq	$2, %rdx
	incq	%rax
	cmpq	$29, %rdx
	je	.LBB53_34
.LBB53_15:
	movzbl	-1(%rsi,%rdx), %ecx
	cmpb	$48, %cl
	jb	.LBB53_32
	movzbl	(%rsi,%rdx), %r8d
	cmpb	$57, %cl
	ja	.LBB53_18
	addb	$-48, %cl
	jmp	.LBB53_23
.LBB53_18:
	cmpb	$65, %cl
	jb	.LBB53_32
	cmpb	$70, %cl
	ja	.LBB53_21
	addb	$-55, %cl
	jmp	.LBB53_23
.LBB53_21:
	leal	-97(%rcx), %r9d
	cmpb	$5, %r9b
	ja	.LBB53_32
	addb	$-87, %cl
.LBB53_23:
	cmpb	$48, %r8b
	jb	.LBB53_33
	cmpb	$57, %r8b
	jbe	.LBB53_13
	cmpb	$65, %r8b
	jb	.LBB53_33
	cmpb	$70, %r8b
	ja	.LBB53_28
	addb	$-55, %r8b
	jmp	.LBB53_14
.LBB53_28:
	leal	-97(%r8), %r9d
	cmpb	$5, %r9b
	ja	.LBB53_33
	addb	$-87, %r8b
	jmp	.LBB53_14
.LBB53_30:
	movl	$1, %eax
	jmp	.LBB53_35
.LBB53_31:
	movdqa	.LCPI53_8(%rip), %xmm3
	movdqa	%xmm2, %xmm0
	pand	%xmm3, %xmm0
	packuswb	%xmm0, %xmm0
	psrlw	$8, %xmm2
	packuswb	%xmm2, %xmm2
	psllw	$4, %xmm0
	movdqa	.LCPI53_9(%rip), %xmm4
	pand	%xmm4, %xmm0
	por	%xmm2, %xmm0
	movdqa	%xmm0, -24(%rsp)
	movzbl	-17(%rsp), %edx
	pand	%xmm1, %xmm3
	packuswb	%xmm3, %xmm3
	psrlw	$8, %xmm1
	packuswb	%xmm1, %xmm1
	psllw	$4, %xmm3
	pand	%xmm4, %xmm3
	por	%xmm1, %xmm3
	movdqa	%xmm3, -40(%rsp)
	movzbl	-38(%rsp), %esi
	movzbl	-37(%rsp), %r8d
	movzbl	-35(%rsp), %r9d
	movzbl	-34(%rsp), %ecx
	movzbl	-33(%rsp), %eax
	shll	$8, %esi
	orq	%rdx, %rsi
	shll	$16, %r8d
	orq	%rsi, %r8
	movl	-36(%rsp), %edx
	shll	$24, %edx
	orq	%r8, %rdx
	shlq	$32, %r9
	orq	%rdx, %r9
	shlq	$40, %rcx
	orq	%r9, %rcx
	shlq	$48, %rax
	orq	%rcx, %rax
	psllq	$8, %xmm0
	jmp	.LBB53_35
.LBB53_32:
	decq	%rdx
.LBB53_33:
	incq	%rdx
	movl	$3, %eax
	jmp	.LBB53_36
.LBB53_34:
	movzbl	-43(%rsp), %eax
	shll	$16, %eax
	movzwl	-45(%rsp), %ecx
	orl	%eax, %ecx
	shlq	$32, %rcx
	movl	-49(%rsp), %eax
	movl	-56(%rsp), %edx
	movl	-52(%rsp), %esi
	shldl	$8, %edx, %esi
	movzbl	%dl, %r8d
	shll	$8, %edx
	movl	%edx, %r9d
	andl	$16711680, %r9d
	shll	$8, %r8d
	orl	%r9d, %r8d
	andl	$-16777216, %edx
	orl	%r8d, %edx
	movd	%edx, %xmm0
	pinsrw	$2, %esi, %xmm0
	orq	%rcx, %rax
	pinsrw	$3, -51(%rsp), %xmm0
.LBB53_35:
	xorl	%edx, %edx
.LBB53_36:
	movq	%xmm0, (%rdi)
	movl	%eax, 8(%rdi)
	movq	%rax, %rcx
	shrq	$48, %rcx
	movb	%cl, 14(%rdi)
	shrq	$32, %rax
	movw	%ax, 12(%rdi)
	movq	%rdx, 16(%rdi)
	retq
.Lfunc_end53:
	.size	"sq_text::frame_text::read_text", .Lfunc_end53-"sq_text::frame_text::read_text"

	.section	".text.squitter_c::decode::near","ax",@progbits
	.p2align	4
	.type	"squitter_c::decode::near",@function
"squitter_c::decode::near":
	pushq	%rbp
	pushq	%r14
	pushq	%rbx
	subq	$96, %rsp
	movabsq	$-1000000000001, %r10
	movq	$0, 32(%rsp)
	xorps	%xmm0, %xmm0
	movaps	%xmm0, (%rsp)
	movq	$0, 16(%rsp)
	movq	8(%rdx), %rax
	leaq	(%rax,%r10), %rcx
	leaq	1(%r10), %r11
	cmpq	%r11, %rcx
	jb	.LBB54_25
	movq	(%rdx), %rcx
	movq	%rcx, %r9
	negq	%r9
	cmovsq	%rcx, %r9
	imulq	$360, %rax, %r8
	cmpq	%r9, %r8
	jb	.LBB54_25
	movq	24(%rdx), %r8
	addq	%r8, %r10
	cmpq	%r11, %r10
	jb	.LBB54_25
	movq	16(%rdx), %rdx
	movq	%rdx, %r10
	negq	%r10
	cmovsq	%rdx, %r10
	imulq	$360, %r8, %r11
	cmpq	%r10, %r11
	jae	.LBB54_4
.LBB54_25:
	movq	$1, (%rdi)
	movb	$3, 8(%rdi)
	movups	%xmm0, 9(%rdi)
.LBB54_11:
	movq	$0, 24(%rdi)
.LBB54_12:
	addq	$96, %rsp
	popq	%rbx
	popq	%r14
	popq	%rbp
	retq
.LBB54_4:
	imulq	$90, %rax, %r11
	cmpq	%r11, %r9
	ja	.LBB54_25
	imulq	$180, %r8, %r9
	cmpq	%r9, %r10
	ja	.LBB54_25
	movq	%rcx, 64(%rsp)
	movq	%rax, 72(%rsp)
	movq	%rdx, 80(%rsp)
	movq	%r8, 88(%rsp)
	movq	(%rsi), %rax
	bswapq	%rax
	movq	%rax, %rcx
	shrq	$59, %rcx
	cmpq	$17, %rcx
	jne	.LBB54_7
	movq	%rax, %rcx
	shlq	$48, %rcx
	movl	10(%rsi), %edx
	shlq	$32, %rdx
	movzbl	9(%rsi), %r8d
	shll	$24, %r8d
	orq	%rdx, %r8
	movzbl	8(%rsi), %edx
	shll	$16, %edx
	orq	%r8, %rdx
	bswapq	%rdx
	movq	%rax, %rbx
	shrq	$24, %rbx
	movq	%rax, %r9
	shrq	$54, %r9
	andl	$572, %r9d
	leaq	.Lstatic.44(%rip), %rsi
	movq	%rax, %r10
	shrq	$46, %r10
	andl	$1020, %r10d
	leaq	.Lstatic.45(%rip), %r8
	xorl	(%r9,%rsi), %ebx
	xorl	(%r10,%r8), %ebx
	movzbl	%bh, %ebp
	movzbl	%bl, %r10d
	shrl	$14, %ebx
	andl	$1020, %ebx
	leaq	.Lstatic.43(%rip), %r9
	movl	(%rbx,%r9), %ebx
	xorl	%eax, %ebx
	xorl	(%rsi,%rbp,4), %ebx
	orq	%rdx, %rcx
	xorl	(%r8,%r10,4), %ebx
	movq	%rcx, %r10
	movzbl	%bh, %ebp
	movzbl	%bl, %r11d
	movl	%ebx, %r14d
	shrl	$14, %r14d
	andl	$1020, %r14d
	movl	(%rsi,%rbp,4), %ebx
	xorl	(%r14,%r9), %ebx
	shrq	$24, %r10
	xorl	(%r8,%r11,4), %ebx
	xorl	%r10d, %ebx
	andl	$16777215, %edx
	movzbl	%bh, %ebp
	movzbl	%bl, %r10d
	movl	%ebx, %r11d
	shrl	$14, %r11d
	andl	$1020, %r11d
	xorl	(%rsi,%rbp,4), %edx
	movl	(%r11,%r9), %esi
	xorl	(%r8,%r10,4), %edx
	cmpl	%edx, %esi
	jne	.LBB54_9
	movq	%rax, %r10
	shrq	$16, %r10
	movq	%r10, %r8
	shldq	$40, %rcx, %r8
	movq	%rax, %rdx
	shrq	$56, %rdx
	andb	$7, %dl
	movq	%rax, %rsi
	shrq	$32, %rsi
	andl	$16777215, %esi
	movabsq	$72057594037927935, %r11
	andq	%r8, %r11
	movq	%r11, %r9
	shrq	$51, %r9
	movl	$2, %ebp
	cmpq	$5, %r9
	jae	.LBB54_15
.LBB54_14:
	movq	%rdi, %rbx
	xorl	%edi, %edi
	xorl	%eax, %eax
	jmp	.LBB54_21
.LBB54_7:
	movl	$6, %eax
	xorl	%edx, %edx
	jmp	.LBB54_10
.LBB54_9:
	xorl	%esi, %edx
	shlq	$32, %rdx
	movl	$7, %eax
	xorl	%ecx, %ecx
.LBB54_10:
	shll	$8, %ecx
	orq	%rax, %rcx
	orq	%rdx, %rcx
	movl	$1, (%rdi)
	movq	$0, 4(%rdi)
	movl	$0, 12(%rdi)
	movq	%rcx, 16(%rdi)
	jmp	.LBB54_11
.LBB54_15:
	cmpl	$8, %r9d
	ja	.LBB54_17
	movq	%rdi, %rbx
	movq	%rcx, %rdi
	shrq	$58, %rdi
	andl	$1, %edi
	movq	%rcx, %r11
	shrq	$41, %r11
	andl	$131071, %r11d
	shldq	$28, %rcx, %r10
	shrq	$27, %rcx
	movabsq	$4294967296, %r14
	andq	%rcx, %r14
	andl	$2130706432, %r10d
	movl	%eax, %ecx
	shrl	$3, %ecx
	andl	$65536, %ecx
	shrl	$12, %eax
	andl	$32512, %eax
	orl	%ecx, %eax
	orq	%r10, %rax
	orq	%r14, %rax
	orq	%r9, %rax
	andl	$131071, %r8d
	shlq	$32, %r8
	orq	%r11, %r8
	movl	$1, %ebp
	jmp	.LBB54_20
.LBB54_17:
	cmpl	$19, %r9d
	jb	.LBB54_19
	cmpl	$19, %r9d
	setne	%bl
	cmpl	$23, %r9d
	setb	%r14b
	andb	%bl, %r14b
	cmpb	$1, %r14b
	jne	.LBB54_14
.LBB54_19:
	movq	%rdi, %rbx
	movq	%rcx, %rdi
	shrq	$58, %rdi
	andl	$1, %edi
	movq	%rcx, %r11
	shrq	$41, %r11
	shldq	$36, %rcx, %r10
	andl	$131071, %r11d
	shrq	$11, %rcx
	movabsq	$281474976710656, %r14
	andq	%rcx, %r14
	movabsq	$17587891077120, %rcx
	andq	%r10, %rcx
	movl	%eax, %r10d
	shrl	$8, %r10d
	andl	$65536, %r10d
	shrl	$17, %eax
	andl	$768, %eax
	orl	%r10d, %eax
	orq	%rcx, %rax
	orq	%r14, %rax
	orq	%r9, %rax
	andl	$131071, %r8d
	shlq	$32, %r8
	orq	%r11, %r8
	xorl	%ebp, %ebp
.LBB54_20:
	movq	%r8, %r11
.LBB54_21:
	movb	%dl, 32(%rsp)
	movl	%esi, 36(%rsp)
	movl	%ebp, 40(%rsp)
	movl	%edi, 44(%rsp)
	movq	%r11, 48(%rsp)
	movq	%rax, 56(%rsp)
	movq	%rsp, %rdi
	leaq	32(%rsp), %rsi
	leaq	64(%rsp), %rdx
	callq	"sq_message::place::place_local"
	movzbl	(%rsp), %eax
	testl	%eax, %eax
	je	.LBB54_22
	movzbl	1(%rsp), %ecx
	movzbl	2(%rsp), %edx
	movb	$1, %sil
	xorl	%edi, %edi
	movzbl	3(%rsp), %r8d
	xorl	%r9d, %r9d
	xorl	%r10d, %r10d
	jmp	.LBB54_24
.LBB54_22:
	movzbl	4(%rsp), %r10d
	movzbl	8(%rsp), %esi
	movzbl	9(%rsp), %ecx
	movzbl	10(%rsp), %edx
	movzbl	11(%rsp), %r8d
	movl	12(%rsp), %edi
	movq	16(%rsp), %r9
.LBB54_24:
	movl	%eax, (%rbx)
	movl	%r10d, 4(%rbx)
	movb	%sil, 8(%rbx)
	movb	%cl, 9(%rbx)
	movb	%dl, 10(%rbx)
	movb	%r8b, 11(%rbx)
	movl	%edi, 12(%rbx)
	movq	%r9, 16(%rbx)
	movq	$0, 24(%rbx)
	jmp	.LBB54_12
.Lfunc_end54:
	.size	"squitter_c::decode::near", .Lfunc_end54-"squitter_c::decode::near"

	.section	".text.sq_message::place::place_local","ax",@progbits
	.p2align	4
	.type	"sq_message::place::place_local",@function
"sq_message::place::place_local":
	pushq	%rbp
	pushq	%r15
	pushq	%r14
	pushq	%r13
	pushq	%r12
	pushq	%rbx
	pushq	%rax
	movb	$0, 6(%rsp)
	movw	$0, 4(%rsp)
	movw	$0, (%rsp)
	movb	$0, 2(%rsp)
	movzbl	8(%rsi), %eax
	cmpl	$2, %eax
	je	.LBB55_6
	movq	%rdx, %rbx
	cmpl	$1, %eax
	jne	.LBB55_9
	movl	16(%rsi), %r12d
	movl	20(%rsi), %r14d
	movzbl	12(%rsi), %r13d
	movl	$60, %r15d
	subq	%r13, %r15
	movq	(%rbx), %r11
	testq	%r11, %r11
	je	.LBB55_13
	movl	%r12d, %edx
	imulq	$90, 8(%rbx), %r9
	movq	%r9, %r10
	shrq	$47, %r10
	movq	%r9, %rbp
	movl	%r15d, %ecx
	shll	$17, %ecx
	movq	%r9, %rax
	mulq	%rdx
	movq	%rdx, %rsi
	movq	%rax, %r8
	movq	%rcx, %rax
	imulq	%r11
	shlq	$17, %rbp
	subq	%rax, %r8
	sbbq	%rdx, %rsi
	shldq	$1, %r8, %rsi
	addq	%r8, %r8
	addq	%rbp, %r8
	adcq	%r10, %rsi
	addq	$-1, %r8
	adcq	$-1, %rsi
	movq	%r9, %rcx
	shrq	$46, %rcx
	shlq	$18, %r9
	testq	%rsi, %rsi
	js	.LBB55_49
	xorl	%eax, %eax
	cmpq	%r9, %r8
	movq	%rsi, %rdx
	sbbq	%rcx, %rdx
	jae	.LBB55_49
.LBB55_5:
	subl	%eax, %r12d
	jmp	.LBB55_14
.LBB55_6:
	xorl	%r13d, %r13d
	movb	$1, %al
	xorl	%r12d, %r12d
	xorl	%ebp, %ebp
	xorl	%edx, %edx
.LBB55_7:
	xorl	%ecx, %ecx
.LBB55_8:
	movb	%al, (%rdi)
	movw	$0, 1(%rdi)
	movb	$0, 3(%rdi)
	movl	%ecx, 4(%rdi)
	movb	%r13b, 8(%rdi)
	movzwl	4(%rsp), %eax
	movw	%ax, 9(%rdi)
	movzbl	6(%rsp), %eax
	movb	%al, 11(%rdi)
	movl	%r12d, 12(%rdi)
	movb	%bpl, 16(%rdi)
	movzwl	(%rsp), %eax
	movw	%ax, 17(%rdi)
	movzbl	2(%rsp), %eax
	movb	%al, 19(%rdi)
	movl	%edx, 20(%rdi)
	jmp	.LBB55_26
.LBB55_9:
	movl	16(%rsi), %r12d
	movl	20(%rsi), %r14d
	movzbl	12(%rsi), %r13d
	movl	$60, %r15d
	subq	%r13, %r15
	movq	(%rbx), %r11
	testq	%r11, %r11
	je	.LBB55_23
	movl	%r12d, %edx
	imulq	$360, 8(%rbx), %r9
	movq	%r9, %r10
	shrq	$47, %r10
	movq	%r9, %rbp
	movl	%r15d, %ecx
	shll	$17, %ecx
	movq	%r9, %rax
	mulq	%rdx
	movq	%rdx, %rsi
	movq	%rax, %r8
	movq	%rcx, %rax
	imulq	%r11
	shlq	$17, %rbp
	subq	%rax, %r8
	sbbq	%rdx, %rsi
	shldq	$1, %r8, %rsi
	addq	%r8, %r8
	addq	%rbp, %r8
	adcq	%r10, %rsi
	addq	$-1, %r8
	adcq	$-1, %rsi
	movq	%r9, %rcx
	shrq	$46, %rcx
	shlq	$18, %r9
	testq	%rsi, %rsi
	js	.LBB55_50
	xorl	%eax, %eax
	cmpq	%r9, %r8
	movq	%rsi, %rdx
	sbbq	%rcx, %rdx
	jae	.LBB55_50
.LBB55_12:
	subl	%eax, %r12d
	jmp	.LBB55_24
.LBB55_13:
	cmpl	$65537, %r12d
	jae	.LBB55_51
.LBB55_14:
	cmpb	$60, %r13b
	je	.LBB55_25
	movzbl	%r15b, %r8d
	movslq	%r12d, %rax
	imulq	$90, %rax, %rcx
	movq	%rcx, %rax
	negq	%rax
	cmovsq	%rcx, %rax
	imulq	$47185920, %r8, %rcx
	cmpq	%rax, %rcx
	jb	.LBB55_25
	imulq	$11796480, %r8, %rcx
	cmpq	%rcx, %rax
	ja	.LBB55_25
	movl	%r8d, %ecx
	shll	$17, %ecx
	movl	$100000000, %edx
	mulq	%rdx
	movq	%rax, %rsi
	leaq	-1(%rcx), %rax
	addq	%rsi, %rax
	adcq	$0, %rdx
	movq	%rdx, %rsi
	shldq	$8, %rax, %rsi
	jne	.LBB55_55
	shrq	$17, %rax
	leaq	.Lstatic.40(%rip), %rcx
	mulq	(%rcx,%r8,8)
	shldq	$16, %rax, %rdx
.LBB55_19:
	movq	%rdx, %rax
	shrq	$25, %rax
	leaq	.Lstatic.41(%rip), %rcx
	movzbl	(%rax,%rcx), %eax
	leaq	.Lstatic.42(%rip), %rcx
	cmpq	(%rcx,%rax,8), %rdx
	seta	%cl
	xorb	$59, %cl
	addl	%r13d, %eax
	subb	%al, %cl
	movzbl	%cl, %eax
	cmpb	$2, %al
	movl	$1, %ebp
	cmovael	%eax, %ebp
	movq	16(%rbx), %r10
	movzbl	%bpl, %r15d
	testq	%r10, %r10
	je	.LBB55_35
	movl	%r14d, %edx
	imulq	$90, 24(%rbx), %r9
	movq	%r9, %rcx
	shrq	$47, %rcx
	movq	%r9, %r11
	movq	%r9, %rax
	mulq	%rdx
	movq	%rax, %r8
	movq	%rdx, %rsi
	shlq	$17, %r11
	movq	%r15, %rax
	imulq	%r10
	shldq	$17, %rax, %rdx
	shlq	$17, %rax
	subq	%rax, %r8
	sbbq	%rdx, %rsi
	shldq	$1, %r8, %rsi
	addq	%r8, %r8
	addq	%r11, %r8
	adcq	%rcx, %rsi
	addq	$-1, %r8
	adcq	$-1, %rsi
	movq	%r9, %rcx
	shrq	$46, %rcx
	shlq	$18, %r9
	testq	%rsi, %rsi
	js	.LBB55_57
	xorl	%eax, %eax
	cmpq	%r9, %r8
	movq	%rsi, %rdx
	sbbq	%rcx, %rdx
	jae	.LBB55_57
.LBB55_22:
	subl	%eax, %r14d
	jmp	.LBB55_36
.LBB55_23:
	cmpl	$65537, %r12d
	jae	.LBB55_53
.LBB55_24:
	cmpb	$60, %r13b
	jne	.LBB55_27
.LBB55_25:
	movw	$1281, (%rdi)
	xorps	%xmm0, %xmm0
	movups	%xmm0, 2(%rdi)
	movq	$0, 16(%rdi)
.LBB55_26:
	addq	$8, %rsp
	popq	%rbx
	popq	%r12
	popq	%r13
	popq	%r14
	popq	%r15
	popq	%rbp
	retq
.LBB55_27:
	movzbl	%r15b, %r8d
	movslq	%r12d, %rax
	imulq	$360, %rax, %rcx
	movq	%rcx, %rax
	negq	%rax
	cmovsq	%rcx, %rax
	imulq	$47185920, %r8, %rcx
	cmpq	%rax, %rcx
	jb	.LBB55_25
	imulq	$11796480, %r8, %rcx
	cmpq	%rcx, %rax
	ja	.LBB55_25
	movl	%r8d, %ecx
	shll	$17, %ecx
	movl	$100000000, %edx
	mulq	%rdx
	movq	%rax, %rsi
	leaq	-1(%rcx), %rax
	addq	%rsi, %rax
	adcq	$0, %rdx
	movq	%rdx, %rsi
	shldq	$8, %rax, %rsi
	jne	.LBB55_56
	shrq	$17, %rax
	leaq	.Lstatic.40(%rip), %rcx
	mulq	(%rcx,%r8,8)
	shldq	$16, %rax, %rdx
.LBB55_31:
	movq	%rdx, %rax
	shrq	$25, %rax
	leaq	.Lstatic.41(%rip), %rcx
	movzbl	(%rax,%rcx), %eax
	leaq	.Lstatic.42(%rip), %rcx
	cmpq	(%rcx,%rax,8), %rdx
	seta	%cl
	xorb	$59, %cl
	addl	%r13d, %eax
	subb	%al, %cl
	movzbl	%cl, %eax
	cmpb	$2, %al
	movl	$1, %ebp
	cmovael	%eax, %ebp
	movq	16(%rbx), %r10
	movzbl	%bpl, %r15d
	testq	%r10, %r10
	je	.LBB55_40
	movl	%r14d, %edx
	imulq	$360, 24(%rbx), %r9
	movq	%r9, %rcx
	shrq	$47, %rcx
	movq	%r9, %r11
	movq	%r9, %rax
	mulq	%rdx
	movq	%rax, %r8
	movq	%rdx, %rsi
	shlq	$17, %r11
	movq	%r15, %rax
	imulq	%r10
	shldq	$17, %rax, %rdx
	shlq	$17, %rax
	subq	%rax, %r8
	sbbq	%rdx, %rsi
	shldq	$1, %r8, %rsi
	addq	%r8, %r8
	addq	%r11, %r8
	adcq	%rcx, %rsi
	addq	$-1, %r8
	adcq	$-1, %rsi
	movq	%r9, %rcx
	shrq	$46, %rcx
	shlq	$18, %r9
	testq	%rsi, %rsi
	js	.LBB55_58
	xorl	%eax, %eax
	cmpq	%r9, %r8
	movq	%rsi, %rdx
	sbbq	%rcx, %rdx
	jae	.LBB55_58
.LBB55_34:
	subl	%eax, %r14d
	jmp	.LBB55_41
.LBB55_35:
	cmpl	$65537, %r14d
	jae	.LBB55_59
.LBB55_36:
	movslq	%r14d, %rax
	shll	$19, %r15d
	xorl	%edx, %edx
	testl	%eax, %eax
	cmovsq	%r15, %rdx
	addq	%rax, %rdx
	js	.LBB55_38
	cmpq	%r15, %rdx
	jl	.LBB55_46
.LBB55_38:
	testl	%r14d, %r14d
	js	.LBB55_45
	movl	%r14d, %eax
	xorl	%edx, %edx
	divl	%r15d
	jmp	.LBB55_46
.LBB55_40:
	cmpl	$65537, %r14d
	jae	.LBB55_61
.LBB55_41:
	movslq	%r14d, %rax
	shll	$17, %r15d
	xorl	%edx, %edx
	testl	%eax, %eax
	cmovsq	%r15, %rdx
	addq	%rax, %rdx
	js	.LBB55_43
	cmpq	%r15, %rdx
	jl	.LBB55_48
.LBB55_43:
	testl	%r14d, %r14d
	js	.LBB55_47
	movl	%r14d, %eax
	xorl	%edx, %edx
	divl	%r15d
	jmp	.LBB55_48
.LBB55_45:
	notl	%r14d
	movl	%r14d, %eax
	xorl	%edx, %edx
	divl	%r15d
	notl	%edx
	addq	%r15, %rdx
.LBB55_46:
	movb	$0, 6(%rsp)
	movw	$0, 4(%rsp)
	movw	$0, (%rsp)
	movb	$0, 2(%rsp)
	movl	$1, %ecx
	xorl	%eax, %eax
	jmp	.LBB55_8
.LBB55_47:
	notl	%r14d
	movl	%r14d, %eax
	xorl	%edx, %edx
	divl	%r15d
	notl	%edx
	addq	%r15, %rdx
.LBB55_48:
	movb	$0, 6(%rsp)
	movw	$0, 4(%rsp)
	movw	$0, (%rsp)
	movb	$0, 2(%rsp)
	xorl	%eax, %eax
	jmp	.LBB55_7
.LBB55_49:
	movq	%rdi, %rbp
	movq	%r8, %rdi
	movq	%r9, %rdx
	callq	"sq_cpr::index::far_quotient"
	jmp	.LBB55_52
.LBB55_50:
	movq	%rdi, %rbp
	movq	%r8, %rdi
	movq	%r9, %rdx
	callq	"sq_cpr::index::far_quotient"
	jmp	.LBB55_54
.LBB55_51:
	leaq	131071(,%r12,2), %rax
	movl	$262144, %esi
	movq	%rdi, %rbp
	movq	%rax, %rdi
	callq	"sq_cpr::index::rare_quotient"
.LBB55_52:
	movq	%rbp, %rdi
	shll	$17, %eax
	jmp	.LBB55_5
.LBB55_53:
	leaq	131071(,%r12,2), %rax
	movl	$262144, %esi
	movq	%rdi, %rbp
	movq	%rax, %rdi
	callq	"sq_cpr::index::rare_quotient"
.LBB55_54:
	movq	%rbp, %rdi
	shll	$17, %eax
	jmp	.LBB55_12
.LBB55_55:
	movq	%rdi, %r15
	movq	%rax, %rdi
	movq	%rdx, %rsi
	movq	%rcx, %rdx
	callq	"sq_angle::quotients::divided"
	movq	%r15, %rdi
	movq	%rax, %rdx
	jmp	.LBB55_19
.LBB55_56:
	movq	%rdi, %r15
	movq	%rax, %rdi
	movq	%rdx, %rsi
	movq	%rcx, %rdx
	callq	"sq_angle::quotients::divided"
	movq	%r15, %rdi
	movq	%rax, %rdx
	jmp	.LBB55_31
.LBB55_57:
	movq	%rdi, %rbx
	movq	%r8, %rdi
	movq	%r9, %rdx
	callq	"sq_cpr::index::far_quotient"
	jmp	.LBB55_60
.LBB55_58:
	movq	%rdi, %rbx
	movq	%r8, %rdi
	movq	%r9, %rdx
	callq	"sq_cpr::index::far_quotient"
	jmp	.LBB55_62
.LBB55_59:
	leaq	131071(,%r14,2), %rax
	movl	$262144, %esi
	movq	%rdi, %rbx
	movq	%rax, %rdi
	callq	"sq_cpr::index::rare_quotient"
.LBB55_60:
	movq	%rbx, %rdi
	shll	$17, %eax
	jmp	.LBB55_22
.LBB55_61:
	leaq	131071(,%r14,2), %rax
	movl	$262144, %esi
	movq	%rdi, %rbx
	movq	%rax, %rdi
	callq	"sq_cpr::index::rare_quotient"
.LBB55_62:
	movq	%rbx, %rdi
	shll	$17, %eax
	jmp	.LBB55_34
.Lfunc_end55:
	.size	"sq_message::place::place_local", .Lfunc_end55-"sq_message::place::place_local"

	.section	".text.sq_cpr::index::index_within","ax",@progbits
	.p2align	4
	.type	"sq_cpr::index::index_within",@function
"sq_cpr::index::index_within":
	pushq	%r15
	pushq	%r14
	pushq	%rbx
	movq	%rdi, %rbx
	testq	%r8, %r8
	je	.LBB56_1
	movq	%r9, %r11
	movl	%edx, %r10d
	movq	%rbx, %r15
	movzbl	%sil, %r14d
	shll	$17, %r14d
	movl	%ecx, %eax
	imulq	%rax, %r11
	movq	%r11, %rax
	mulq	%r14
	movq	%rax, %rcx
	movq	%rdx, %r9
	sarq	$63, %r15
	imulq	%r11, %r15
	movq	%r11, %rax
	mulq	%rbx
	movq	%rax, %rdi
	movq	%rdx, %rsi
	addq	%r15, %rsi
	movzbl	%r10b, %eax
	imulq	%r8
	shldq	$17, %rax, %rdx
	shlq	$17, %rax
	subq	%rax, %rdi
	sbbq	%rdx, %rsi
	shldq	$1, %rdi, %rsi
	addq	%rdi, %rdi
	addq	%rcx, %rdi
	adcq	%r9, %rsi
	addq	$-1, %rdi
	adcq	$-1, %rsi
	shldq	$1, %rcx, %r9
	addq	%rcx, %rcx
	testq	%rsi, %rsi
	js	.LBB56_7
	cmpq	%rcx, %rdi
	movq	%rsi, %rax
	sbbq	%r9, %rax
	jae	.LBB56_7
	xorl	%eax, %eax
.LBB56_8:
	subl	%eax, %ebx
	jmp	.LBB56_9
.LBB56_1:
	movzbl	%sil, %esi
	movl	%esi, %r14d
	shll	$17, %r14d
	leaq	(%r14,%rbx,2), %rdi
	shll	$18, %esi
	decq	%rdi
	js	.LBB56_3
	cmpq	%rsi, %rdi
	jae	.LBB56_3
.LBB56_9:
	movl	%ebx, %eax
	popq	%rbx
	popq	%r14
	popq	%r15
	retq
.LBB56_7:
	movq	%rcx, %rdx
	movq	%r9, %rcx
	callq	"sq_cpr::index::far_quotient"
	mulq	%r14
	jmp	.LBB56_8
.LBB56_3:
	callq	"sq_cpr::index::rare_quotient"
	imulq	%r14, %rax
	subq	%rax, %rbx
	jmp	.LBB56_9
.Lfunc_end56:
	.size	"sq_cpr::index::index_within", .Lfunc_end56-"sq_cpr::index::index_within"

	.section	".text.unlikely.sq_cpr::index::rare_quotient","ax",@progbits
	.p2align	4
	.type	"sq_cpr::index::rare_quotient",@function
"sq_cpr::index::rare_quotient":
	testq	%rdi, %rdi
	js	.LBB57_4
	testq	%rsi, %rsi
	je	.LBB57_6
	movq	%rdi, %rax
	shrq	$32, %rax
	je	.LBB57_3
	movq	%rdi, %rax
	xorl	%edx, %edx
	divq	%rsi
	retq
.LBB57_4:
	testq	%rsi, %rsi
	je	.LBB57_6
	notq	%rdi
	movq	%rdi, %rax
	xorl	%edx, %edx
	divq	%rsi
	notq	%rax
	retq
.LBB57_3:
	movl	%edi, %eax
	xorl	%edx, %edx
	divl	%esi
	retq
.LBB57_6:
	ud2
.Lfunc_end57:
	.size	"sq_cpr::index::rare_quotient", .Lfunc_end57-"sq_cpr::index::rare_quotient"

	.section	".text.unlikely.sq_cpr::index::far_quotient","ax",@progbits
	.p2align	4
	.type	"sq_cpr::index::far_quotient",@function
"sq_cpr::index::far_quotient":
	pushq	%rax
	movabsq	$-9223372036854775808, %rax
	movq	%rdi, %r8
	addq	%rax, %r8
	movq	%rsi, %r8
	adcq	$0, %r8
	sete	%r8b
	cmpq	%rax, %rdx
	movq	%rcx, %rax
	sbbq	$0, %rax
	setb	%al
	andb	%r8b, %al
	cmpb	$1, %al
	jne	.LBB58_9
	testq	%rdi, %rdi
	js	.LBB58_5
	orq	%rdx, %rcx
	je	.LBB58_15
	movq	%rdi, %rax
	movq	%rdx, %rcx
	orq	%rdx, %rax
	shrq	$32, %rax
	je	.LBB58_4
	movq	%rdi, %rax
	xorl	%edx, %edx
	divq	%rcx
	movq	%rax, %rdx
	sarq	$63, %rdx
	popq	%rcx
	retq
.LBB58_9:
	movq	%rdx, %rax
	testq	%rsi, %rsi
	js	.LBB58_12
	orq	%rcx, %rax
	je	.LBB58_15
	callq	__udivti3@PLT
	popq	%rcx
	retq
.LBB58_5:
	movq	%rdx, %rax
	orq	%rcx, %rax
	je	.LBB58_15
	notq	%rdi
	movq	%rdi, %rax
	movq	%rdx, %rcx
	xorl	%edx, %edx
	divq	%rcx
	notq	%rax
	movq	%rax, %rdx
	sarq	$63, %rdx
	popq	%rcx
	retq
.LBB58_12:
	orq	%rcx, %rax
	je	.LBB58_15
	notq	%rdi
	notq	%rsi
	callq	__udivti3@PLT
	notq	%rdx
	notq	%rax
	popq	%rcx
	retq
.LBB58_4:
	movl	%edi, %eax
	xorl	%edx, %edx
	divl	%ecx
	movq	%rax, %rdx
	sarq	$63, %rdx
	popq	%rcx
	retq
.LBB58_15:
	ud2
.Lfunc_end58:
	.size	"sq_cpr::index::far_quotient", .Lfunc_end58-"sq_cpr::index::far_quotient"

	.section	".text.squitter_c::decode::give","ax",@progbits
	.p2align	4
	.type	"squitter_c::decode::give",@function
"squitter_c::decode::give":
	pushq	%r15
	pushq	%r14
	pushq	%rbx
	subq	$64, %rsp
	movq	%rdx, %r14
	movq	%rdi, %rbx
	movzbl	4(%rsi), %r11d
	movzbl	8(%rsi), %ecx
	movzbl	9(%rsi), %r8d
	movzbl	10(%rsi), %r9d
	movzbl	11(%rsi), %r10d
	movslq	12(%rsi), %r15
	movq	16(%rsi), %rdx
	movq	24(%rsi), %rdi
	xorps	%xmm0, %xmm0
	cmpb	$0, (%rsi)
	movaps	%xmm0, 16(%rsp)
	movaps	%xmm0, (%rsp)
	je	.LBB59_4
	xorl	%eax, %eax
	leaq	.LJTI59_0(%rip), %rsi
	movslq	(%rsi,%rcx,4), %rcx
	addq	%rsi, %rcx
	jmpq	*%rcx
.LBB59_2:
	xorl	%eax, %eax
	movzbl	%dl, %ecx
	leaq	.LJTI59_2(%rip), %rsi
	movslq	(%rsi,%rcx,4), %rcx
	addq	%rsi, %rcx
	jmpq	*%rcx
.LBB59_3:
	xorl	%eax, %eax
	movl	$40, %ecx
	jmp	.LBB59_8
.LBB59_4:
	movq	%rdx, %rdi
	shrq	$32, %rdi
	movzbl	%dl, %eax
	imulq	$23592960, %rax, %r8
	imulq	$-47185920, %rax, %rdx
	testb	%r11b, %r11b
	je	.LBB59_6
	imulq	$90, %r15, %rsi
	imulq	$90, %rdi, %rdi
	jmp	.LBB59_7
.LBB59_6:
	imulq	$360, %r15, %rsi
	imulq	$360, %rdi, %rdi
.LBB59_7:
	xorl	%r9d, %r9d
	cmpq	%r8, %rdi
	cmovbq	%r9, %rdx
	addq	%rdi, %rdx
	shll	$17, %eax
	movl	$60, %edi
	subl	%ecx, %edi
	shll	$17, %edi
	movq	%rsi, 32(%rsp)
	movq	%rdi, 40(%rsp)
	movq	%rdx, 48(%rsp)
	movq	%rax, 56(%rsp)
	movq	%rsp, %rdi
	leaq	32(%rsp), %rsi
	callq	"squitter_c::plain::plain_position"
	movaps	(%rsp), %xmm0
	movaps	16(%rsp), %xmm1
	movups	%xmm1, 16(%r14)
	movups	%xmm0, (%r14)
	xorl	%ecx, %ecx
	xorl	%eax, %eax
.LBB59_8:
	xorl	%edi, %edi
.LBB59_9:
	movl	%ecx, (%rbx)
	movl	%eax, 4(%rbx)
	movq	%rdi, 8(%rbx)
	addq	$64, %rsp
	popq	%rbx
	popq	%r14
	popq	%r15
	retq
.LBB59_10:
	movl	$50, %ecx
.LBB59_11:
	movq	%rdx, %rdi
	jmp	.LBB59_9
.LBB59_12:
	xorl	%eax, %eax
	movl	$46, %ecx
	jmp	.LBB59_8
.LBB59_13:
	xorl	%eax, %eax
	movl	$21, %ecx
	jmp	.LBB59_8
.LBB59_14:
	xorl	%eax, %eax
	movl	$48, %ecx
	jmp	.LBB59_8
.LBB59_15:
	xorl	%eax, %eax
	movl	$44, %ecx
	jmp	.LBB59_8
.LBB59_16:
	addl	$30, %r8d
	xorl	%eax, %eax
	movl	%r8d, %ecx
	jmp	.LBB59_8
.LBB59_17:
	movl	$20, %ecx
	jmp	.LBB59_8
.LBB59_18:
	xorl	%eax, %eax
	movl	$24, %ecx
	jmp	.LBB59_8
.LBB59_19:
	movl	%r8d, %edi
	leaq	.LJTI59_1(%rip), %rax
	movslq	(%rax,%rdi,4), %rcx
	addq	%rax, %rcx
	jmpq	*%rcx
.LBB59_20:
	movl	$10, %ecx
	movl	%r8d, %eax
	jmp	.LBB59_9
.LBB59_21:
	xorl	%eax, %eax
	movl	$22, %ecx
	jmp	.LBB59_8
.LBB59_22:
	xorl	%eax, %eax
	movl	$49, %ecx
	jmp	.LBB59_8
.LBB59_23:
	xorl	%eax, %eax
	movl	$23, %ecx
	jmp	.LBB59_8
.LBB59_24:
	xorl	%eax, %eax
	movl	$45, %ecx
	jmp	.LBB59_8
.LBB59_25:
	xorl	%eax, %eax
	movl	$25, %ecx
	jmp	.LBB59_8
.LBB59_26:
	xorl	%eax, %eax
	movl	$14, %ecx
	jmp	.LBB59_8
.LBB59_27:
	xorl	%eax, %eax
	movl	$12, %ecx
	jmp	.LBB59_8
.LBB59_28:
	xorl	%eax, %eax
	movl	$13, %ecx
	jmp	.LBB59_8
.LBB59_29:
	xorl	%eax, %eax
	movl	$11, %ecx
	jmp	.LBB59_8
.LBB59_30:
	xorl	%eax, %eax
	movl	$15, %ecx
	jmp	.LBB59_8
.LBB59_31:
	movl	$16, %ecx
	movl	%r10d, %eax
	movq	%r9, %rdi
	jmp	.LBB59_9
.LBB59_32:
	movl	$3, %ecx
	jmp	.LBB59_9
.LBB59_33:
	xorl	%eax, %eax
	movl	$43, %ecx
	jmp	.LBB59_8
.LBB59_34:
	movl	$1, %ecx
	jmp	.LBB59_8
.LBB59_35:
	xorl	%eax, %eax
	movl	$2, %ecx
	jmp	.LBB59_8
.LBB59_36:
	shrq	$32, %rdx
	movl	$6, %ecx
	jmp	.LBB59_11
.LBB59_37:
	xorl	%eax, %eax
	movl	$41, %ecx
	jmp	.LBB59_8
.LBB59_38:
	movl	$4, %ecx
	jmp	.LBB59_9
.LBB59_39:
	movzbl	%dh, %edi
	movl	$5, %ecx
	jmp	.LBB59_9
.LBB59_40:
	movl	$42, %ecx
	jmp	.LBB59_9
.Lfunc_end59:
	.size	"squitter_c::decode::give", .Lfunc_end59-"squitter_c::decode::give"
	.section	".rodata.squitter_c::decode::give","a",@progbits
	.p2align	2, 0x0
.LJTI59_0:
	.long	.LBB59_2-.LJTI59_0
	.long	.LBB59_19-.LJTI59_0
	.long	.LBB59_16-.LJTI59_0
	.long	.LBB59_17-.LJTI59_0
	.long	.LBB59_13-.LJTI59_0
	.long	.LBB59_21-.LJTI59_0
	.long	.LBB59_23-.LJTI59_0
	.long	.LBB59_18-.LJTI59_0
	.long	.LBB59_25-.LJTI59_0
	.long	.LBB59_15-.LJTI59_0
	.long	.LBB59_24-.LJTI59_0
	.long	.LBB59_12-.LJTI59_0
	.long	.LBB59_14-.LJTI59_0
	.long	.LBB59_22-.LJTI59_0
	.long	.LBB59_10-.LJTI59_0
.LJTI59_1:
	.long	.LBB59_20-.LJTI59_1
	.long	.LBB59_29-.LJTI59_1
	.long	.LBB59_27-.LJTI59_1
	.long	.LBB59_28-.LJTI59_1
	.long	.LBB59_26-.LJTI59_1
	.long	.LBB59_30-.LJTI59_1
	.long	.LBB59_31-.LJTI59_1
.LJTI59_2:
	.long	.LBB59_3-.LJTI59_2
	.long	.LBB59_37-.LJTI59_2
	.long	.LBB59_34-.LJTI59_2
	.long	.LBB59_35-.LJTI59_2
	.long	.LBB59_32-.LJTI59_2
	.long	.LBB59_38-.LJTI59_2
	.long	.LBB59_39-.LJTI59_2
	.long	.LBB59_36-.LJTI59_2
	.long	.LBB59_40-.LJTI59_2
	.long	.LBB59_33-.LJTI59_2

	.section	".text.squitter_c::plain::plain_position","ax",@progbits
	.p2align	4
	.type	"squitter_c::plain::plain_position",@function
"squitter_c::plain::plain_position":
	pushq	%r15
	pushq	%r14
	pushq	%r12
	pushq	%rbx
	movq	(%rsi), %rbx
	movq	8(%rsi), %r10
	movq	%rbx, %r8
	negq	%r8
	cmovsq	%rbx, %r8
	movl	$64, %r9d
	movl	$64, %ecx
	rep		bsfq	%r10, %rcx
	rep		bsfq	%rbx, %r9
	cmpl	%ecx, %r9d
	cmovael	%ecx, %r9d
	testq	%r10, %r10
	je	.LBB60_31
	movq	%r10, %r14
	shrq	%cl, %r14
	movq	%r8, %rax
	movl	%r9d, %ecx
	shrq	%cl, %rax
	movq	%rax, %rcx
	orq	%r14, %rcx
	shrq	$32, %rcx
	je	.LBB60_2
	xorl	%edx, %edx
	divq	%r14
	testq	%rdx, %rdx
	je	.LBB60_5
.LBB60_6:
	movq	%r14, %r11
	.p2align	4
.LBB60_7:
	rep		bsfq	%rdx, %rcx
	shrq	%cl, %rdx
	movq	%rdx, %rax
	subq	%r14, %rax
	cmovbq	%rdx, %r11
	subq	%rdx, %r14
	cmovbq	%rax, %r14
	testq	%r14, %r14
	movq	%r14, %rdx
	movq	%r11, %r14
	jne	.LBB60_7
	movl	%r9d, %ecx
	shlq	%cl, %r11
	cmpq	$1, %r11
	jne	.LBB60_9
	jmp	.LBB60_16
.LBB60_2:
	xorl	%edx, %edx
	divl	%r14d
	testq	%rdx, %rdx
	jne	.LBB60_6
.LBB60_5:
	movq	%r14, %r11
	movl	%r9d, %ecx
	shlq	%cl, %r11
	cmpq	$1, %r11
	je	.LBB60_16
.LBB60_9:
	testq	%r11, %r11
	je	.LBB60_31
	movq	%r8, %rax
	orq	%r11, %rax
	shrq	$32, %rax
	je	.LBB60_11
	movq	%r8, %rax
	xorl	%edx, %edx
	divq	%r11
	movq	%rax, %r8
	movq	%r10, %rax
	orq	%r11, %rax
	shrq	$32, %rax
	je	.LBB60_14
.LBB60_15:
	movq	%r10, %rax
	xorl	%edx, %edx
	divq	%r11
	movq	%rax, %r10
	jmp	.LBB60_16
.LBB60_11:
	movl	%r8d, %eax
	xorl	%edx, %edx
	divl	%r11d
	movl	%eax, %r8d
	movq	%r10, %rax
	orq	%r11, %rax
	shrq	$32, %rax
	jne	.LBB60_15
.LBB60_14:
	movl	%r10d, %eax
	xorl	%edx, %edx
	divl	%r11d
	movl	%eax, %r10d
.LBB60_16:
	movq	16(%rsi), %r14
	movq	24(%rsi), %r9
	movq	%r14, %rsi
	negq	%rsi
	cmovsq	%r14, %rsi
	movl	$64, %r11d
	movl	$64, %ecx
	rep		bsfq	%r9, %rcx
	rep		bsfq	%r14, %r11
	cmpl	%ecx, %r11d
	cmovael	%ecx, %r11d
	testq	%r9, %r9
	je	.LBB60_31
	movq	%r9, %r12
	shrq	%cl, %r12
	movq	%rsi, %rax
	movl	%r11d, %ecx
	shrq	%cl, %rax
	movq	%rax, %rcx
	orq	%r12, %rcx
	shrq	$32, %rcx
	je	.LBB60_18
	xorl	%edx, %edx
	divq	%r12
	testq	%rdx, %rdx
	je	.LBB60_21
.LBB60_22:
	movq	%r12, %r15
	.p2align	4
.LBB60_23:
	rep		bsfq	%rdx, %rcx
	shrq	%cl, %rdx
	movq	%rdx, %rax
	subq	%r12, %rax
	cmovbq	%rdx, %r15
	subq	%rdx, %r12
	cmovbq	%rax, %r12
	testq	%r12, %r12
	movq	%r12, %rdx
	movq	%r15, %r12
	jne	.LBB60_23
	movl	%r11d, %ecx
	shlq	%cl, %r15
	cmpq	$1, %r15
	jne	.LBB60_25
	jmp	.LBB60_33
.LBB60_18:
	xorl	%edx, %edx
	divl	%r12d
	testq	%rdx, %rdx
	jne	.LBB60_22
.LBB60_21:
	movq	%r12, %r15
	movl	%r11d, %ecx
	shlq	%cl, %r15
	cmpq	$1, %r15
	je	.LBB60_33
.LBB60_25:
	testq	%r15, %r15
	je	.LBB60_31
	movq	%rsi, %rax
	orq	%r15, %rax
	shrq	$32, %rax
	je	.LBB60_27
	movq	%rsi, %rax
	xorl	%edx, %edx
	divq	%r15
	movq	%rax, %rsi
	movq	%r9, %rax
	orq	%r15, %rax
	shrq	$32, %rax
	je	.LBB60_30
.LBB60_32:
	movq	%r9, %rax
	xorl	%edx, %edx
	divq	%r15
	movq	%rax, %r9
	jmp	.LBB60_33
.LBB60_27:
	movl	%esi, %eax
	xorl	%edx, %edx
	divl	%r15d
	movl	%eax, %esi
	movq	%r9, %rax
	orq	%r15, %rax
	shrq	$32, %rax
	jne	.LBB60_32
.LBB60_30:
	movl	%r9d, %eax
	xorl	%edx, %edx
	divl	%r15d
	movl	%eax, %r9d
.LBB60_33:
	movq	%r8, %rax
	negq	%rax
	testq	%rbx, %rbx
	cmovnsq	%r8, %rax
	movq	%rsi, %rcx
	negq	%rcx
	testq	%r14, %r14
	cmovnsq	%rsi, %rcx
	movq	%rax, (%rdi)
	movq	%r10, 8(%rdi)
	movq	%rcx, 16(%rdi)
	movq	%r9, 24(%rdi)
	popq	%rbx
	popq	%r12
	popq	%r14
	popq	%r15
	retq
.LBB60_31:
	ud2
.Lfunc_end60:
	.size	"squitter_c::plain::plain_position", .Lfunc_end60-"squitter_c::plain::plain_position"

	.section	".text.unlikely.std_alloc::vec::Vec::grow_amortized::<#90923cc7d49729f9>","ax",@progbits
	.p2align	4
	.type	"std_alloc::vec::Vec::grow_amortized::<#90923cc7d49729f9>",@function
"std_alloc::vec::Vec::grow_amortized::<#90923cc7d49729f9>":
	movq	8(%rdi), %rax
	addq	%rax, %rsi
	jae	.LBB61_1
	xorl	%eax, %eax
	retq
.LBB61_1:
	pushq	%rbp
	pushq	%r15
	pushq	%r14
	pushq	%rbx
	pushq	%rax
	movq	16(%rdi), %r9
	cmpq	$5, %rsi
	movl	$4, %r14d
	cmovaeq	%rsi, %r14
	movq	%r9, %rcx
	shrq	$62, %rcx
	leaq	(%r9,%r9), %r8
	cmpq	%r8, %r14
	cmovaq	%r14, %r8
	testq	%rcx, %rcx
	cmoveq	%r8, %r14
	movabsq	$384307168202282325, %rcx
	cmpq	%rcx, %r14
	ja	.LBB61_22
	movq	(%rdi), %rsi
	movq	24(%rdi), %rcx
	movzbl	(%rcx), %r10d
	movq	8(%rcx), %rdx
	movq	16(%rcx), %rbx
	xorps	%xmm0, %xmm0
	movups	%xmm0, (%rcx)
	movq	$0, 16(%rcx)
	movb	$1, %bpl
	testq	%r9, %r9
	je	.LBB61_9
	cmpb	$1, %r10b
	jne	.LBB61_12
	leaq	(%r14,%r14,2), %r8
	leaq	15(,%r8,8), %r8
	andq	$-16, %r8
	movq	%rdx, %r9
	subq	%r8, %r9
	jb	.LBB61_11
	movq	%rdi, %r15
	addq	%rbx, %r8
	movq	$1, (%rcx)
	movq	%r9, 8(%rcx)
	movq	%r8, 16(%rcx)
	xorl	%ebp, %ebp
	leaq	(,%rax,8), %rcx
	leaq	(%rcx,%rcx,2), %rdx
	movq	%rbx, %rcx
	subq	%rsi, %rcx
	cmpq	%rdx, %rcx
	jae	.LBB61_14
	testq	%rax, %rax
	je	.LBB61_15
	movl	%eax, %ecx
	andl	$7, %ecx
	cmpq	$8, %rax
	jae	.LBB61_16
	xorl	%edx, %edx
	movq	%r15, %rdi
	jmp	.LBB61_19
.LBB61_9:
	cmpb	$1, %r10b
	jne	.LBB61_12
	leaq	(%r8,%r8,2), %rax
	leaq	15(,%rax,8), %rax
	andq	$-16, %rax
	movq	%rdx, %rsi
	subq	%rax, %rsi
	jae	.LBB61_13
.LBB61_11:
	movq	$1, (%rcx)
	movq	%rdx, 8(%rcx)
	movq	%rbx, 16(%rcx)
.LBB61_12:
	xorl	%ebx, %ebx
.LBB61_21:
	testb	%bpl, %bpl
	je	.LBB61_23
.LBB61_22:
	xorl	%eax, %eax
.LBB61_24:
	addq	$8, %rsp
	popq	%rbx
	popq	%r14
	popq	%r15
	popq	%rbp
	retq
.LBB61_23:
	movq	%rbx, (%rdi)
	movq	%r14, 16(%rdi)
	movb	$1, %al
	jmp	.LBB61_24
.LBB61_13:
	addq	%rbx, %rax
	movq	$1, (%rcx)
	movq	%rsi, 8(%rcx)
	movq	%rax, 16(%rcx)
	xorl	%ebp, %ebp
	jmp	.LBB61_21
.LBB61_14:
	movq	%rbx, %rdi
	callq	memmove@PLT
.LBB61_15:
	movq	%r15, %rdi
	jmp	.LBB61_21
.LBB61_16:
	andq	$-8, %rax
	xorl	%edx, %edx
	xorl	%edi, %edi
.LBB61_17:
	movups	(%rsi,%rdi), %xmm0
	movq	16(%rsi,%rdi), %r8
	movq	%r8, 16(%rbx,%rdi)
	movups	%xmm0, (%rbx,%rdi)
	movups	24(%rsi,%rdi), %xmm0
	movq	40(%rsi,%rdi), %r8
	movq	%r8, 40(%rbx,%rdi)
	movups	%xmm0, 24(%rbx,%rdi)
	movups	48(%rsi,%rdi), %xmm0
	movq	64(%rsi,%rdi), %r8
	movq	%r8, 64(%rbx,%rdi)
	movups	%xmm0, 48(%rbx,%rdi)
	movups	72(%rsi,%rdi), %xmm0
	movq	88(%rsi,%rdi), %r8
	movq	%r8, 88(%rbx,%rdi)
	movups	%xmm0, 72(%rbx,%rdi)
	movups	96(%rsi,%rdi), %xmm0
	movq	112(%rsi,%rdi), %r8
	movq	%r8, 112(%rbx,%rdi)
	movups	%xmm0, 96(%rbx,%rdi)
	movups	120(%rsi,%rdi), %xmm0
	movq	136(%rsi,%rdi), %r8
	movq	%r8, 136(%rbx,%rdi)
	movups	%xmm0, 120(%rbx,%rdi)
	movups	144(%rsi,%rdi), %xmm0
	movq	160(%rsi,%rdi), %r8
	movq	%r8, 160(%rbx,%rdi)
	movups	%xmm0, 144(%rbx,%rdi)
	movups	168(%rsi,%rdi), %xmm0
	movq	184(%rsi,%rdi), %r8
	movq	%r8, 184(%rbx,%rdi)
	movups	%xmm0, 168(%rbx,%rdi)
	addq	$8, %rdx
	addq	$192, %rdi
	cmpq	%rdx, %rax
	jne	.LBB61_17
	testq	%rcx, %rcx
	movq	%r15, %rdi
	je	.LBB61_21
.LBB61_19:
	shlq	$3, %rdx
	leaq	(%rdx,%rdx,2), %rax
	addq	%rax, %rsi
	addq	%rbx, %rax
	shll	$3, %ecx
	leaq	(%rcx,%rcx,2), %rcx
	xorl	%edx, %edx
	.p2align	4
.LBB61_20:
	movups	(%rsi,%rdx), %xmm0
	movq	16(%rsi,%rdx), %r8
	movq	%r8, 16(%rax,%rdx)
	movups	%xmm0, (%rax,%rdx)
	addq	$24, %rdx
	cmpq	%rdx, %rcx
	jne	.LBB61_20
	jmp	.LBB61_21
.Lfunc_end61:
	.size	"std_alloc::vec::Vec::grow_amortized::<#90923cc7d49729f9>", .Lfunc_end61-"std_alloc::vec::Vec::grow_amortized::<#90923cc7d49729f9>"

	.section	".text.unlikely.sq_feed::order::move_to_front::<#bd73a11ec42be588>","ax",@progbits
	.p2align	4
	.type	"sq_feed::order::move_to_front::<#bd73a11ec42be588>",@function
"sq_feed::order::move_to_front::<#bd73a11ec42be588>":
	movq	8(%rdi), %r8
	movq	%r8, %rax
	subq	%rsi, %rax
	jne	.LBB62_1
	cmpq	%rax, %rsi
	ja	.LBB62_10
.LBB62_11:
	retq
.LBB62_1:
	pushq	%rbx
	movq	(%rdi), %rdx
	movl	%eax, %ecx
	andl	$3, %ecx
	movq	%rsi, %r9
	subq	%r8, %r9
	cmpq	$-4, %r9
	jbe	.LBB62_3
	xorl	%r8d, %r8d
	jmp	.LBB62_6
.LBB62_3:
	movq	%rax, %r9
	andq	$-4, %r9
	leaq	(,%rsi,8), %r8
	leaq	(%r8,%r8,2), %r10
	xorl	%r8d, %r8d
	movq	%rdx, %r11
	.p2align	4
.LBB62_4:
	movups	(%r11,%r10), %xmm0
	movq	16(%r11,%r10), %rbx
	movq	%rbx, 16(%r11)
	movups	%xmm0, (%r11)
	movups	24(%r11,%r10), %xmm0
	movq	40(%r11,%r10), %rbx
	movq	%rbx, 40(%r11)
	movups	%xmm0, 24(%r11)
	movups	48(%r11,%r10), %xmm0
	movq	64(%r11,%r10), %rbx
	movq	%rbx, 64(%r11)
	movups	%xmm0, 48(%r11)
	movups	72(%r11,%r10), %xmm0
	movq	88(%r11,%r10), %rbx
	movq	%rbx, 88(%r11)
	movups	%xmm0, 72(%r11)
	addq	$4, %r8
	addq	$96, %r11
	cmpq	%r8, %r9
	jne	.LBB62_4
	testq	%rcx, %rcx
	je	.LBB62_8
.LBB62_6:
	leaq	(%r8,%r8,2), %r8
	leaq	(%rdx,%r8,8), %rdx
	leaq	(%rsi,%rsi,2), %rsi
	leaq	(%rdx,%rsi,8), %rsi
	shll	$3, %ecx
	leaq	(%rcx,%rcx,2), %rcx
	xorl	%r8d, %r8d
	.p2align	4
.LBB62_7:
	movups	(%rsi,%r8), %xmm0
	movq	16(%rsi,%r8), %r9
	movq	%r9, 16(%rdx,%r8)
	movups	%xmm0, (%rdx,%r8)
	addq	$24, %r8
	cmpq	%r8, %rcx
	jne	.LBB62_7
.LBB62_8:
	movq	8(%rdi), %rsi
	popq	%rbx
	cmpq	%rax, %rsi
	jbe	.LBB62_11
.LBB62_10:
	movq	%rax, 8(%rdi)
	retq
.Lfunc_end62:
	.size	"sq_feed::order::move_to_front::<#bd73a11ec42be588>", .Lfunc_end62-"sq_feed::order::move_to_front::<#bd73a11ec42be588>"

	.section	".text.unlikely.sq_feed::order::insert_within::<#bd73a11ec42be588>","ax",@progbits
	.p2align	4
	.type	"sq_feed::order::insert_within::<#bd73a11ec42be588>",@function
"sq_feed::order::insert_within::<#bd73a11ec42be588>":
	pushq	%r14
	pushq	%rbx
	subq	$56, %rsp
	movq	16(%rdx), %rax
	movq	%rax, 48(%rsp)
	movups	(%rdx), %xmm0
	movaps	%xmm0, 32(%rsp)
	movq	8(%rdi), %rax
	movq	16(%rdi), %rcx
	cmpq	%rcx, %rax
	jae	.LBB63_2
	movq	16(%rdx), %rax
	movq	%rax, 16(%rsp)
	movups	(%rdx), %xmm0
	movaps	%xmm0, (%rsp)
	movq	%rsp, %rdx
	jmp	.LBB63_5
.LBB63_2:
	je	.LBB63_3
.LBB63_4:
	leaq	32(%rsp), %rdx
.LBB63_5:
	callq	"std_alloc::vec::Vec::put_at::<#90923cc7d49729f9>"
	xorl	%eax, %eax
.LBB63_6:
	addq	$56, %rsp
	popq	%rbx
	popq	%r14
	retq
.LBB63_3:
	movq	%rsi, %r14
	movl	$1, %esi
	movq	%rdi, %rbx
	callq	"std_alloc::vec::Vec::grow_amortized::<#90923cc7d49729f9>"
	movq	%rbx, %rdi
	movq	%r14, %rsi
	movl	%eax, %ecx
	movb	$1, %al
	testb	%cl, %cl
	jne	.LBB63_4
	jmp	.LBB63_6
.Lfunc_end63:
	.size	"sq_feed::order::insert_within::<#bd73a11ec42be588>", .Lfunc_end63-"sq_feed::order::insert_within::<#bd73a11ec42be588>"

	.section	.rodata.cst16,"aM",@progbits,16
	.p2align	4, 0x0
.LCPI64_0:
	.long	1
	.long	0
	.long	0
	.long	0
	.section	".text.std_alloc::vec::Vec::put_at::<#90923cc7d49729f9>","ax",@progbits
	.p2align	4
	.type	"std_alloc::vec::Vec::put_at::<#90923cc7d49729f9>",@function
"std_alloc::vec::Vec::put_at::<#90923cc7d49729f9>":
	pushq	%r14
	pushq	%rbx
	movq	16(%rdx), %rax
	movq	%rax, -8(%rsp)
	movups	(%rdx), %xmm0
	movaps	%xmm0, -24(%rsp)
	movq	(%rdi), %rax
	movq	8(%rdi), %rcx
	movdqu	8(%rdi), %xmm0
	xorps	%xmm1, %xmm1
	movups	%xmm1, 8(%rdi)
	movq	%rsi, %r10
	incq	%r10
	je	.LBB64_1
	cmpq	%rsi, %rcx
	je	.LBB64_29
	movq	%rcx, %rdx
	subq	%rsi, %rdx
	leaq	(%rsi,%rsi,2), %r8
	leaq	(%rax,%r8,8), %r8
	leaq	(%r10,%r10,2), %r9
	leaq	(%rax,%r9,8), %r9
	cmpq	%r10, %rcx
	jne	.LBB64_25
	xorl	%ecx, %ecx
	jmp	.LBB64_28
.LBB64_1:
	leaq	1(%rcx), %rdx
	cmpq	$86, %rdx
	jb	.LBB64_30
	xorl	%r11d, %r11d
	movq	%rax, %r9
	jmp	.LBB64_3
	.p2align	4
.LBB64_7:
	leaq	(%r8,%r8,2), %r10
	leaq	(%rax,%r10,8), %r10
	movq	-8(%r10), %r11
	movq	%r11, 16(%r10)
	movups	-24(%r10), %xmm1
	movups	%xmm1, (%r10)
	movq	-8(%r10), %r11
	movq	%r11, 40(%r10)
	movups	-24(%r10), %xmm1
	movups	%xmm1, 24(%r10)
	movq	-8(%r10), %r11
	movq	%r11, 64(%r10)
	movups	-24(%r10), %xmm1
	movups	%xmm1, 48(%r10)
	movq	-8(%r10), %r11
	movq	%r11, 88(%r10)
	movups	-24(%r10), %xmm1
	movups	%xmm1, 72(%r10)
	movq	-8(%r10), %r11
	movq	%r11, 112(%r10)
	movups	-24(%r10), %xmm1
	movups	%xmm1, 96(%r10)
	movups	-24(%r10), %xmm1
	movups	%xmm1, 120(%r10)
	movq	-8(%r10), %r11
	movq	%r11, 136(%r10)
	movups	-24(%r10), %xmm1
	movups	%xmm1, 144(%r10)
	movq	-8(%r10), %r11
	movq	%r11, 160(%r10)
	movq	-8(%r10), %r11
	movq	%r11, 184(%r10)
	movups	-24(%r10), %xmm1
	movups	%xmm1, 168(%r10)
	movups	-24(%r10), %xmm1
	movups	%xmm1, 192(%r10)
	movq	-8(%r10), %r11
	movq	%r11, 208(%r10)
	movups	-24(%r10), %xmm1
	movups	%xmm1, 216(%r10)
	movq	-8(%r10), %r11
	movq	%r11, 232(%r10)
	movq	-8(%r10), %r11
	movq	%r11, 256(%r10)
	movups	-24(%r10), %xmm1
	movups	%xmm1, 240(%r10)
	movq	-8(%r10), %r11
	movq	%r11, 280(%r10)
	movups	-24(%r10), %xmm1
	movups	%xmm1, 264(%r10)
	movups	-24(%r10), %xmm1
	movups	%xmm1, 288(%r10)
	movq	-8(%r10), %r11
	movq	%r11, 304(%r10)
	movups	-24(%r10), %xmm1
	movups	%xmm1, 312(%r10)
	movq	-8(%r10), %r11
	movq	%r11, 328(%r10)
	movups	-24(%r10), %xmm1
	movups	%xmm1, 336(%r10)
	movq	-8(%r10), %r11
	movq	%r11, 352(%r10)
	movq	-8(%r10), %r11
	movq	%r11, 376(%r10)
	movups	-24(%r10), %xmm1
	movups	%xmm1, 360(%r10)
	movups	-24(%r10), %xmm1
	movups	%xmm1, 384(%r10)
	movq	-8(%r10), %r11
	movq	%r11, 400(%r10)
	movups	-24(%r10), %xmm1
	movups	%xmm1, 408(%r10)
	movq	-8(%r10), %r11
	movq	%r11, 424(%r10)
	movups	-24(%r10), %xmm1
	movups	%xmm1, 432(%r10)
	movq	-8(%r10), %r11
	movq	%r11, 448(%r10)
	movq	-8(%r10), %r11
	movq	%r11, 472(%r10)
	movups	-24(%r10), %xmm1
	movups	%xmm1, 456(%r10)
	movups	-24(%r10), %xmm1
	movups	%xmm1, 480(%r10)
	movq	-8(%r10), %r11
	movq	%r11, 496(%r10)
	movups	-24(%r10), %xmm1
	movups	%xmm1, 504(%r10)
	movq	-8(%r10), %r11
	movq	%r11, 520(%r10)
	movups	-24(%r10), %xmm1
	movups	%xmm1, 528(%r10)
	movq	-8(%r10), %r11
	movq	%r11, 544(%r10)
	movq	-8(%r10), %r11
	movq	%r11, 568(%r10)
	movups	-24(%r10), %xmm1
	movups	%xmm1, 552(%r10)
	movups	-24(%r10), %xmm1
	movups	%xmm1, 576(%r10)
	movq	-8(%r10), %r11
	movq	%r11, 592(%r10)
	movups	-24(%r10), %xmm1
	movups	%xmm1, 600(%r10)
	movq	-8(%r10), %r11
	movq	%r11, 616(%r10)
	movups	-24(%r10), %xmm1
	movups	%xmm1, 624(%r10)
	movq	-8(%r10), %r11
	movq	%r11, 640(%r10)
	movq	-8(%r10), %r11
	movq	%r11, 664(%r10)
	movups	-24(%r10), %xmm1
	movups	%xmm1, 648(%r10)
	movups	-24(%r10), %xmm1
	movups	%xmm1, 672(%r10)
	movq	-8(%r10), %r11
	movq	%r11, 688(%r10)
	movups	-24(%r10), %xmm1
	movups	%xmm1, 696(%r10)
	movq	-8(%r10), %r11
	movq	%r11, 712(%r10)
	movups	-24(%r10), %xmm1
	movups	%xmm1, 720(%r10)
	movq	-8(%r10), %r11
	movq	%r11, 736(%r10)
	movq	-8(%r10), %r11
	movq	%r11, 760(%r10)
	movups	-24(%r10), %xmm1
	movups	%xmm1, 744(%r10)
	movups	-24(%r10), %xmm1
	movups	%xmm1, 768(%r10)
	movq	-8(%r10), %r11
	movq	%r11, 784(%r10)
	movups	-24(%r10), %xmm1
	movups	%xmm1, 792(%r10)
	movq	-8(%r10), %r11
	movq	%r11, 808(%r10)
	movups	-24(%r10), %xmm1
	movups	%xmm1, 816(%r10)
	movq	-8(%r10), %r11
	movq	%r11, 832(%r10)
	movq	-8(%r10), %r11
	movq	%r11, 856(%r10)
	movups	-24(%r10), %xmm1
	movups	%xmm1, 840(%r10)
	movups	-24(%r10), %xmm1
	movups	%xmm1, 864(%r10)
	movq	-8(%r10), %r11
	movq	%r11, 880(%r10)
	movups	-24(%r10), %xmm1
	movups	%xmm1, 888(%r10)
	movq	-8(%r10), %r11
	movq	%r11, 904(%r10)
	movups	-24(%r10), %xmm1
	movups	%xmm1, 912(%r10)
	movq	-8(%r10), %r11
	movq	%r11, 928(%r10)
	movq	-8(%r10), %r11
	movq	%r11, 952(%r10)
	movups	-24(%r10), %xmm1
	movups	%xmm1, 936(%r10)
	movups	-24(%r10), %xmm1
	movups	%xmm1, 960(%r10)
	movq	-8(%r10), %r11
	movq	%r11, 976(%r10)
	movups	-24(%r10), %xmm1
	movups	%xmm1, 984(%r10)
	movq	-8(%r10), %r11
	movq	%r11, 1000(%r10)
	movups	-24(%r10), %xmm1
	movups	%xmm1, 1008(%r10)
	movq	-8(%r10), %r11
	movq	%r11, 1024(%r10)
	movq	-8(%r10), %r11
	movq	%r11, 1048(%r10)
	movups	-24(%r10), %xmm1
	movups	%xmm1, 1032(%r10)
	movups	-24(%r10), %xmm1
	movups	%xmm1, 1056(%r10)
	movq	-8(%r10), %r11
	movq	%r11, 1072(%r10)
	movups	-24(%r10), %xmm1
	movups	%xmm1, 1080(%r10)
	movq	-8(%r10), %r11
	movq	%r11, 1096(%r10)
	movups	-24(%r10), %xmm1
	movups	%xmm1, 1104(%r10)
	movq	-8(%r10), %r11
	movq	%r11, 1120(%r10)
	movq	-8(%r10), %r11
	movq	%r11, 1144(%r10)
	movups	-24(%r10), %xmm1
	movups	%xmm1, 1128(%r10)
	movups	-24(%r10), %xmm1
	movups	%xmm1, 1152(%r10)
	movq	-8(%r10), %r11
	movq	%r11, 1168(%r10)
	movups	-24(%r10), %xmm1
	movups	%xmm1, 1176(%r10)
	movq	-8(%r10), %r11
	movq	%r11, 1192(%r10)
	movups	-24(%r10), %xmm1
	movups	%xmm1, 1200(%r10)
	movq	-8(%r10), %r11
	movq	%r11, 1216(%r10)
	movq	-8(%r10), %r11
	movq	%r11, 1240(%r10)
	movups	-24(%r10), %xmm1
	movups	%xmm1, 1224(%r10)
	movups	-24(%r10), %xmm1
	movups	%xmm1, 1248(%r10)
	movq	-8(%r10), %r11
	movq	%r11, 1264(%r10)
	movups	-24(%r10), %xmm1
	movups	%xmm1, 1272(%r10)
	movq	-8(%r10), %r11
	movq	%r11, 1288(%r10)
	movups	-24(%r10), %xmm1
	movups	%xmm1, 1296(%r10)
	movq	-8(%r10), %r11
	movq	%r11, 1312(%r10)
	movq	-8(%r10), %r11
	movq	%r11, 1336(%r10)
	movups	-24(%r10), %xmm1
	movups	%xmm1, 1320(%r10)
	movups	-24(%r10), %xmm1
	movups	%xmm1, 1344(%r10)
	movq	-8(%r10), %r11
	movq	%r11, 1360(%r10)
	movups	-24(%r10), %xmm1
	movups	%xmm1, 1368(%r10)
	movq	-8(%r10), %r11
	movq	%r11, 1384(%r10)
	movups	-24(%r10), %xmm1
	movups	%xmm1, 1392(%r10)
	movq	-8(%r10), %r11
	movq	%r11, 1408(%r10)
	movq	-8(%r10), %r11
	movq	%r11, 1432(%r10)
	movups	-24(%r10), %xmm1
	movups	%xmm1, 1416(%r10)
	movups	-24(%r10), %xmm1
	movups	%xmm1, 1440(%r10)
	movq	-8(%r10), %r11
	movq	%r11, 1456(%r10)
	movups	-24(%r10), %xmm1
	movups	%xmm1, 1464(%r10)
	movq	-8(%r10), %r11
	movq	%r11, 1480(%r10)
	movups	-24(%r10), %xmm1
	movups	%xmm1, 1488(%r10)
	movq	-8(%r10), %r11
	movq	%r11, 1504(%r10)
	movq	-8(%r10), %r11
	movq	%r11, 1528(%r10)
	movups	-24(%r10), %xmm1
	movups	%xmm1, 1512(%r10)
	movups	-24(%r10), %xmm1
	movups	%xmm1, 1536(%r10)
	movq	-8(%r10), %r11
	movq	%r11, 1552(%r10)
	movups	-24(%r10), %xmm1
	movups	%xmm1, 1560(%r10)
	movq	-8(%r10), %r11
	movq	%r11, 1576(%r10)
	movups	-24(%r10), %xmm1
	movups	%xmm1, 1584(%r10)
	movq	-8(%r10), %r11
	movq	%r11, 1600(%r10)
	movq	-8(%r10), %r11
	movq	%r11, 1624(%r10)
	movups	-24(%r10), %xmm1
	movups	%xmm1, 1608(%r10)
	movups	-24(%r10), %xmm1
	movups	%xmm1, 1632(%r10)
	movq	-8(%r10), %r11
	movq	%r11, 1648(%r10)
	movups	-24(%r10), %xmm1
	movups	%xmm1, 1656(%r10)
	movq	-8(%r10), %r11
	movq	%r11, 1672(%r10)
	movups	-24(%r10), %xmm1
	movups	%xmm1, 1680(%r10)
	movq	-8(%r10), %r11
	movq	%r11, 1696(%r10)
	movq	-8(%r10), %r11
	movq	%r11, 1720(%r10)
	movups	-24(%r10), %xmm1
	movups	%xmm1, 1704(%r10)
	movups	-24(%r10), %xmm1
	movups	%xmm1, 1728(%r10)
	movq	-8(%r10), %r11
	movq	%r11, 1744(%r10)
	movups	-24(%r10), %xmm1
	movups	%xmm1, 1752(%r10)
	movq	-8(%r10), %r11
	movq	%r11, 1768(%r10)
	movups	-24(%r10), %xmm1
	movups	%xmm1, 1776(%r10)
	movq	-8(%r10), %r11
	movq	%r11, 1792(%r10)
	movq	-8(%r10), %r11
	movq	%r11, 1816(%r10)
	movups	-24(%r10), %xmm1
	movups	%xmm1, 1800(%r10)
	movups	-24(%r10), %xmm1
	movups	%xmm1, 1824(%r10)
	movq	-8(%r10), %r11
	movq	%r11, 1840(%r10)
	movups	-24(%r10), %xmm1
	movups	%xmm1, 1848(%r10)
	movq	-8(%r10), %r11
	movq	%r11, 1864(%r10)
	movups	-24(%r10), %xmm1
	movups	%xmm1, 1872(%r10)
	movq	-8(%r10), %r11
	movq	%r11, 1888(%r10)
	movq	-8(%r10), %r11
	movq	%r11, 1912(%r10)
	movups	-24(%r10), %xmm1
	movups	%xmm1, 1896(%r10)
	movups	-24(%r10), %xmm1
	movups	%xmm1, 1920(%r10)
	movq	-8(%r10), %r11
	movq	%r11, 1936(%r10)
	movups	-24(%r10), %xmm1
	movups	%xmm1, 1944(%r10)
	movq	-8(%r10), %r11
	movq	%r11, 1960(%r10)
	movups	-24(%r10), %xmm1
	movups	%xmm1, 1968(%r10)
	movq	-8(%r10), %r11
	movq	%r11, 1984(%r10)
	movq	-8(%r10), %r11
	movq	%r11, 2008(%r10)
	movups	-24(%r10), %xmm1
	movups	%xmm1, 1992(%r10)
	movups	-24(%r10), %xmm1
	movups	%xmm1, 2016(%r10)
	movq	-8(%r10), %r11
	movq	%r11, 2032(%r10)
.LBB64_8:
	leaq	85(%r8), %r11
	movq	%rdx, %r10
	subq	%r11, %r10
	addq	$2040, %r9
	cmpq	$85, %r10
	jbe	.LBB64_9
.LBB64_3:
	movq	%r11, %r8
	testq	%r11, %r11
	je	.LBB64_7
	movl	$2016, %r10d
	.p2align	4
.LBB64_5:
	movq	-8(%r9,%r10), %r11
	movq	%r11, 16(%r9,%r10)
	movups	-24(%r9,%r10), %xmm1
	movups	%xmm1, (%r9,%r10)
	testq	%r10, %r10
	je	.LBB64_8
	movq	-32(%r9,%r10), %r11
	movq	%r11, -8(%r9,%r10)
	movups	-48(%r9,%r10), %xmm1
	movups	%xmm1, -24(%r9,%r10)
	addq	$-48, %r10
	jmp	.LBB64_5
.LBB64_30:
	shlq	$3, %r10
	leaq	(%r10,%r10,2), %rcx
	movq	%rdx, %r10
	testq	%rdx, %rdx
	jne	.LBB64_12
	jmp	.LBB64_29
.LBB64_9:
	testq	%r11, %r11
	je	.LBB64_10
	cmpq	%r11, %rdx
	je	.LBB64_29
	leaq	(%rcx,%rcx,2), %rdx
	subq	%r8, %rcx
	addq	$-84, %rcx
	leaq	(%rax,%rdx,8), %rdx
	.p2align	4
.LBB64_21:
	movq	-8(%rdx), %r8
	movq	%r8, 16(%rdx)
	movups	-24(%rdx), %xmm1
	movups	%xmm1, (%rdx)
	addq	$-24, %rdx
	decq	%rcx
	jne	.LBB64_21
	jmp	.LBB64_29
.LBB64_25:
	movq	%rdx, %r10
	andq	$-2, %r10
	leaq	(%rcx,%rcx,2), %rcx
	leaq	(%rax,%rcx,8), %r11
	xorl	%ecx, %ecx
	.p2align	4
.LBB64_26:
	movq	-8(%r11), %rbx
	movq	%rbx, 16(%r11)
	movups	-24(%r11), %xmm1
	movups	%xmm1, (%r11)
	movabsq	$2305843009213693950, %rbx
	xorq	%rcx, %rbx
	addq	%rdx, %rbx
	shlq	$3, %rbx
	leaq	(%rbx,%rbx,2), %rbx
	movq	16(%r8,%rbx), %r14
	movq	%r14, 16(%r9,%rbx)
	movups	(%r8,%rbx), %xmm1
	movups	%xmm1, (%r9,%rbx)
	addq	$2, %rcx
	addq	$-48, %r11
	cmpq	%rcx, %r10
	jne	.LBB64_26
	testb	$1, %dl
	je	.LBB64_29
.LBB64_28:
	notq	%rcx
	addq	%rcx, %rdx
	shlq	$3, %rdx
	leaq	(%rdx,%rdx,2), %rcx
	movq	16(%r8,%rcx), %rdx
	movq	%rdx, 16(%r9,%rcx)
	movups	(%r8,%rcx), %xmm1
	movups	%xmm1, (%r9,%rcx)
	jmp	.LBB64_29
.LBB64_10:
	shlq	$3, %r11
	leaq	(%r11,%r11,2), %rcx
	testq	%rdx, %rdx
	je	.LBB64_29
.LBB64_12:
	leaq	-1(%r10), %r8
	movl	%r10d, %edx
	andl	$3, %edx
	cmpq	$3, %r8
	jae	.LBB64_14
	xorl	%r8d, %r8d
	jmp	.LBB64_17
.LBB64_14:
	andl	$124, %r10d
	leaq	(%rax,%rcx), %r9
	xorl	%r8d, %r8d
	.p2align	4
.LBB64_15:
	movq	-8(%r9), %r11
	movq	%r11, 16(%r9)
	movups	-24(%r9), %xmm1
	movups	%xmm1, (%r9)
	movups	%xmm1, 24(%r9)
	movq	%r11, 40(%r9)
	movups	%xmm1, 48(%r9)
	movq	%r11, 64(%r9)
	movups	%xmm1, 72(%r9)
	movq	%r11, 88(%r9)
	addq	$4, %r8
	addq	$96, %r9
	cmpq	%r8, %r10
	jne	.LBB64_15
	testq	%rdx, %rdx
	je	.LBB64_29
.LBB64_17:
	leaq	(%r8,%r8,2), %r8
	leaq	(%rcx,%r8,8), %rcx
	addq	%rax, %rcx
	shll	$3, %edx
	leaq	(%rdx,%rdx,2), %rdx
	xorl	%r8d, %r8d
	.p2align	4
.LBB64_18:
	movq	-8(%rcx,%r8), %r9
	movq	%r9, 16(%rcx,%r8)
	movups	-24(%rcx,%r8), %xmm1
	movups	%xmm1, (%rcx,%r8)
	addq	$24, %r8
	cmpq	%r8, %rdx
	jne	.LBB64_18
.LBB64_29:
	leaq	(%rsi,%rsi,2), %rcx
	movq	-8(%rsp), %rdx
	movq	%rdx, 16(%rax,%rcx,8)
	movaps	-24(%rsp), %xmm1
	movups	%xmm1, (%rax,%rcx,8)
	movq	%rax, (%rdi)
	paddq	.LCPI64_0(%rip), %xmm0
	movdqu	%xmm0, 8(%rdi)
	popq	%rbx
	popq	%r14
	retq
.Lfunc_end64:
	.size	"std_alloc::vec::Vec::put_at::<#90923cc7d49729f9>", .Lfunc_end64-"std_alloc::vec::Vec::put_at::<#90923cc7d49729f9>"

	.section	".text.squitter_c::decode::of_two","ax",@progbits
	.p2align	4
	.type	"squitter_c::decode::of_two",@function
"squitter_c::decode::of_two":
	pushq	%rbp
	pushq	%r15
	pushq	%r14
	pushq	%r13
	pushq	%r12
	pushq	%rbx
	subq	$168, %rsp
	movl	%ecx, %r11d
	movq	$0, 136(%rsp)
	movq	$0, 104(%rsp)
	movq	(%rsi), %r13
	bswapq	%r13
	movq	%r13, %rcx
	shrq	$59, %rcx
	cmpq	$17, %rcx
	jne	.LBB65_1
	movq	%r13, %r15
	shlq	$48, %r15
	movl	10(%rsi), %eax
	shlq	$32, %rax
	movzbl	9(%rsi), %ecx
	shll	$24, %ecx
	orq	%rax, %rcx
	movzbl	8(%rsi), %eax
	shll	$16, %eax
	orq	%rcx, %rax
	bswapq	%rax
	movq	%r13, %rcx
	shrq	$24, %rcx
	movq	%r13, %rsi
	shrq	$54, %rsi
	andl	$572, %esi
	leaq	.Lstatic.44(%rip), %rbx
	movq	%r13, %r9
	shrq	$46, %r9
	andl	$1020, %r9d
	leaq	.Lstatic.45(%rip), %r14
	xorl	(%rsi,%rbx), %ecx
	xorl	(%r9,%r14), %ecx
	movzbl	%ch, %esi
	movzbl	%cl, %r9d
	shrl	$14, %ecx
	andl	$1020, %ecx
	leaq	.Lstatic.43(%rip), %r12
	movl	(%rcx,%r12), %ecx
	xorl	%r13d, %ecx
	xorl	(%rbx,%rsi,4), %ecx
	orq	%rax, %r15
	xorl	(%r14,%r9,4), %ecx
	movq	%r15, %rsi
	movzbl	%ch, %ebp
	movzbl	%cl, %r10d
	movl	%ecx, %r9d
	shrl	$14, %r9d
	andl	$1020, %r9d
	movl	(%rbx,%rbp,4), %ecx
	xorl	(%r9,%r12), %ecx
	shrq	$24, %rsi
	xorl	(%r14,%r10,4), %ecx
	xorl	%esi, %ecx
	andl	$16777215, %eax
	movzbl	%ch, %esi
	movzbl	%cl, %r9d
	shrl	$14, %ecx
	andl	$1020, %ecx
	xorl	(%rbx,%rsi,4), %eax
	movl	(%rcx,%r12), %ecx
	xorl	(%r14,%r9,4), %eax
	cmpl	%eax, %ecx
	jne	.LBB65_3
	movl	%r11d, 68(%rsp)
	movq	%r8, 80(%rsp)
	movq	%r13, %r10
	shrq	$16, %r10
	movq	%r10, %r9
	shldq	$40, %r15, %r9
	movabsq	$72057594037927935, %rcx
	movq	%r13, %rbp
	shrq	$56, %rbp
	andb	$7, %bpl
	movq	%r13, %rax
	shrq	$32, %rax
	andl	$16777215, %eax
	movq	%r9, %r8
	andq	%rcx, %r8
	movq	%r8, %r11
	shrq	$51, %r11
	movl	$2, %ecx
	cmpq	$5, %r11
	jae	.LBB65_8
	movb	$1, %sil
	movl	%esi, 24(%rsp)
.LBB65_12:
	xorl	%r11d, %r11d
	xorl	%esi, %esi
	xorl	%r13d, %r13d
	jmp	.LBB65_15
.LBB65_1:
	movl	$6, %edx
	xorl	%eax, %eax
	jmp	.LBB65_4
.LBB65_3:
	xorl	%ecx, %eax
	shlq	$32, %rax
	movl	$7, %edx
	xorl	%ecx, %ecx
.LBB65_4:
	shll	$8, %ecx
	orq	%rdx, %rcx
	orq	%rax, %rcx
.LBB65_5:
	movl	$1, (%rdi)
	movq	$0, 4(%rdi)
	movl	$0, 12(%rdi)
	movq	%rcx, 16(%rdi)
.LBB65_55:
	movq	$0, 24(%rdi)
	addq	$168, %rsp
	popq	%rbx
	popq	%r12
	popq	%r13
	popq	%r14
	popq	%r15
	popq	%rbp
	retq
.LBB65_8:
	cmpl	$8, %r11d
	ja	.LBB65_10
	movq	%r15, %rsi
	shrq	$58, %rsi
	andl	$1, %esi
	movq	%r15, %rcx
	shrq	$41, %rcx
	andl	$131071, %ecx
	shldq	$28, %r15, %r10
	shrq	$27, %r15
	movabsq	$4294967296, %r8
	andq	%r15, %r8
	andl	$2130706432, %r10d
	movl	%r13d, %r15d
	shrl	$3, %r15d
	andl	$65536, %r15d
	shrl	$12, %r13d
	andl	$32512, %r13d
	orl	%r15d, %r13d
	orq	%r10, %r13
	orq	%r8, %r13
	orq	%r11, %r13
	andl	$131071, %r9d
	shlq	$32, %r9
	orq	%rcx, %r9
	movl	$1, %ecx
	movl	$0, 24(%rsp)
	xorl	%r11d, %r11d
	jmp	.LBB65_14
.LBB65_10:
	movb	$1, %sil
	movl	%esi, 24(%rsp)
	cmpl	$19, %r11d
	jb	.LBB65_13
	cmpl	$19, %r11d
	setne	72(%rsp)
	cmpl	$23, %r11d
	setb	%sil
	andb	72(%rsp), %sil
	cmpb	$1, %sil
	jne	.LBB65_12
.LBB65_13:
	movq	%r15, %rsi
	shrq	$58, %rsi
	andl	$1, %esi
	movq	%r15, %rcx
	shrq	$41, %rcx
	andl	$131071, %ecx
	shldq	$36, %r15, %r10
	shrq	$11, %r15
	movabsq	$281474976710656, %r8
	andq	%r15, %r8
	movabsq	$17587891077120, %r15
	andq	%r10, %r15
	movl	%r13d, %r10d
	shrl	$8, %r10d
	andl	$65536, %r10d
	shrl	$17, %r13d
	andl	$768, %r13d
	orl	%r10d, %r13d
	orq	%r15, %r13
	orq	%r8, %r13
	orq	%r11, %r13
	andl	$131071, %r9d
	shlq	$32, %r9
	orq	%rcx, %r9
	movl	$0, 24(%rsp)
	movb	$1, %r11b
	xorl	%ecx, %ecx
.LBB65_14:
	movq	%r9, %r8
.LBB65_15:
	movb	%bpl, 136(%rsp)
	movl	%eax, 140(%rsp)
	movl	%ecx, 144(%rsp)
	movl	%esi, 148(%rsp)
	movq	%r8, 152(%rsp)
	movq	%r13, 160(%rsp)
	movq	(%rdx), %r13
	bswapq	%r13
	movq	%r13, %rcx
	shrq	$59, %rcx
	cmpq	$17, %rcx
	jne	.LBB65_16
	movq	%rsi, 96(%rsp)
	movq	%rax, 72(%rsp)
	movq	%r13, %rbp
	shlq	$48, %rbp
	movl	10(%rdx), %ecx
	shlq	$32, %rcx
	movzbl	9(%rdx), %r9d
	shll	$24, %r9d
	orq	%rcx, %r9
	movzbl	8(%rdx), %edx
	shll	$16, %edx
	orq	%r9, %rdx
	bswapq	%rdx
	movq	%r13, %rcx
	shrq	$24, %rcx
	movq	%r13, %r9
	shrq	$54, %r9
	andl	$572, %r9d
	movq	%r13, %r10
	shrq	$46, %r10
	xorl	(%r9,%rbx), %ecx
	andl	$1020, %r10d
	xorl	(%r10,%r14), %ecx
	movzbl	%ch, %esi
	movzbl	%cl, %r9d
	shrl	$14, %ecx
	andl	$1020, %ecx
	movl	(%rcx,%r12), %ecx
	xorl	%r13d, %ecx
	xorl	(%rbx,%rsi,4), %ecx
	orq	%rdx, %rbp
	xorl	(%r14,%r9,4), %ecx
	movq	%rbp, %rsi
	movzbl	%ch, %eax
	movzbl	%cl, %r9d
	movl	%ecx, %r10d
	shrl	$14, %r10d
	andl	$1020, %r10d
	movl	(%rbx,%rax,4), %ecx
	xorl	(%r10,%r12), %ecx
	shrq	$24, %rsi
	xorl	(%r14,%r9,4), %ecx
	xorl	%esi, %ecx
	andl	$16777215, %edx
	movzbl	%ch, %eax
	movzbl	%cl, %esi
	shrl	$14, %ecx
	andl	$1020, %ecx
	xorl	(%rbx,%rax,4), %edx
	movl	(%rcx,%r12), %ecx
	xorl	(%r14,%rsi,4), %edx
	cmpl	%edx, %ecx
	jne	.LBB65_18
	movq	%r11, 88(%rsp)
	movabsq	$11258999068426240, %rax
	movq	%r13, %r9
	shrq	$16, %r9
	movq	%r9, %r14
	shldq	$40, %rbp, %r14
	movq	%r13, %rbx
	shrq	$56, %rbx
	andb	$7, %bl
	movq	%r13, %rdx
	shrq	$32, %rdx
	andl	$16777215, %edx
	movabsq	$72057594037927935, %rsi
	andq	%r14, %rsi
	movl	$2, %r15d
	movb	$1, %r11b
	cmpq	%rax, %rsi
	jae	.LBB65_22
.LBB65_21:
	xorl	%r9d, %r9d
	xorl	%ecx, %ecx
	xorl	%r12d, %r12d
	xorl	%r13d, %r13d
	jmp	.LBB65_28
.LBB65_16:
	xorl	%edx, %edx
	movl	$6, %eax
	jmp	.LBB65_19
.LBB65_18:
	xorl	%ecx, %edx
	shlq	$32, %rdx
	movl	$7, %eax
	xorl	%ecx, %ecx
.LBB65_19:
	shll	$8, %ecx
	orq	%rax, %rcx
	orq	%rdx, %rcx
	jmp	.LBB65_5
.LBB65_22:
	movq	%rsi, %r10
	shrq	$51, %r10
	cmpl	$8, %r10d
	ja	.LBB65_24
	movq	%rbp, %r12
	shrq	$58, %r12
	andl	$1, %r12d
	movq	%rbp, %rcx
	shrq	$41, %rcx
	andl	$131071, %ecx
	shldq	$28, %rbp, %r9
	shrq	$27, %rbp
	movabsq	$4294967296, %rax
	andq	%rbp, %rax
	andl	$2130706432, %r9d
	movl	%r13d, %esi
	shrl	$3, %esi
	andl	$65536, %esi
	shrl	$12, %r13d
	andl	$32512, %r13d
	orl	%esi, %r13d
	orq	%r9, %r13
	orq	%rax, %r13
	orq	%r10, %r13
	andl	$131071, %r14d
	shlq	$32, %r14
	orq	%rcx, %r14
	movl	$1, %r15d
	movb	$1, %r9b
	xorl	%r11d, %r11d
	xorl	%ecx, %ecx
	jmp	.LBB65_27
.LBB65_24:
	cmpl	$19, %r10d
	jb	.LBB65_26
	cmpl	$19, %r10d
	setne	%al
	cmpl	$23, %r10d
	setb	%cl
	andb	%al, %cl
	cmpb	$1, %cl
	jne	.LBB65_21
.LBB65_26:
	movq	%rbp, %r12
	shrq	$58, %r12
	andl	$1, %r12d
	movq	%rbp, %rcx
	shrq	$41, %rcx
	andl	$131071, %ecx
	shldq	$36, %rbp, %r9
	shrq	$11, %rbp
	movabsq	$281474976710656, %rax
	andq	%rbp, %rax
	movabsq	$17587891077120, %rsi
	andq	%r9, %rsi
	movl	%r13d, %r9d
	shrl	$8, %r9d
	andl	$65536, %r9d
	shrl	$17, %r13d
	andl	$768, %r13d
	orl	%r9d, %r13d
	orq	%rsi, %r13
	orq	%rax, %r13
	orq	%r10, %r13
	andl	$131071, %r14d
	shlq	$32, %r14
	orq	%rcx, %r14
	xorl	%r11d, %r11d
	movb	$1, %cl
	xorl	%r9d, %r9d
	xorl	%r15d, %r15d
.LBB65_27:
	movq	%r14, %rsi
.LBB65_28:
	movb	%bl, 104(%rsp)
	movl	%edx, 108(%rsp)
	movl	%r15d, 112(%rsp)
	movl	%r12d, 116(%rsp)
	movq	%rsi, %r14
	movq	%rsi, 120(%rsp)
	movq	%r13, 128(%rsp)
	xorps	%xmm0, %xmm0
	movaps	%xmm0, 32(%rsp)
	movq	$0, 48(%rsp)
	xorl	%ebx, %ebx
	movl	24(%rsp), %eax
	orb	%r11b, %al
	movl	$0, %r10d
	movq	72(%rsp), %rax
	movq	96(%rsp), %rsi
	jne	.LBB65_49
	movb	$1, %r10b
	cmpl	%edx, %eax
	jne	.LBB65_49
	cmpb	$0, 88(%rsp)
	je	.LBB65_46
	testb	%cl, %cl
	je	.LBB65_48
	cmpl	%r12d, %esi
	jne	.LBB65_34
	movups	%xmm0, 34(%rsp)
	movq	$0, 48(%rsp)
	movb	$1, %al
	movb	$3, %r10b
	xorl	%ebx, %ebx
	xorl	%r12d, %r12d
	xorl	%esi, %esi
	xorl	%edx, %edx
	xorl	%ecx, %ecx
	jmp	.LBB65_51
.LBB65_46:
	testb	%r9b, %r9b
	je	.LBB65_48
	leaq	148(%rsp), %rsi
	leaq	116(%rsp), %rdx
	movzbl	68(%rsp), %ecx
	leaq	32(%rsp), %rax
	movq	%rdi, %rbx
	movq	%rax, %rdi
	movq	80(%rsp), %r8
	callq	"sq_message::place::ground_pair"
	movq	%rbx, %rdi
	movzbl	32(%rsp), %eax
	movzbl	33(%rsp), %r10d
	movzbl	34(%rsp), %ecx
	movzbl	35(%rsp), %edx
	movzbl	36(%rsp), %esi
	movzbl	40(%rsp), %r12d
	movl	44(%rsp), %ebx
.LBB65_51:
	testb	%al, %al
	je	.LBB65_53
	movb	$1, %r12b
	xorl	%ebx, %ebx
	xorl	%r8d, %r8d
	xorl	%esi, %esi
	jmp	.LBB65_54
.LBB65_48:
	movb	$2, %r10b
	xorl	%ebx, %ebx
.LBB65_49:
	movb	$1, %al
	xorl	%r8d, %r8d
	xorl	%esi, %esi
	movb	$1, %r12b
	xorl	%ecx, %ecx
	xorl	%edx, %edx
.LBB65_54:
	movzbl	%al, %eax
	movl	%eax, (%rdi)
	movl	%esi, 4(%rdi)
	movb	%r12b, 8(%rdi)
	movb	%r10b, 9(%rdi)
	movb	%cl, 10(%rdi)
	movb	%dl, 11(%rdi)
	movl	%ebx, 12(%rdi)
	movq	%r8, 16(%rdi)
	jmp	.LBB65_55
.LBB65_53:
	movzbl	41(%rsp), %r10d
	movzbl	42(%rsp), %ecx
	movzbl	43(%rsp), %edx
	movq	48(%rsp), %r8
	xorl	%eax, %eax
	jmp	.LBB65_54
.LBB65_34:
	movq	%rdi, 24(%rsp)
	movq	%r8, %r13
	shrq	$32, %r13
	movq	%r14, %rdx
	movq	%r14, %rbp
	shrq	$32, %rbp
	testl	%r12d, %r12d
	movq	%r8, %rax
	cmoveq	%r14, %rax
	movq	%r13, %rcx
	cmoveq	%rbp, %rcx
	movq	%rcx, 80(%rsp)
	cmoveq	%r8, %rdx
	cmovneq	%rbp, %r13
	movl	%eax, %eax
	imulq	$59, %rax, %rcx
	movl	%edx, %edx
	imulq	$-60, %rdx, %rsi
	addq	%rsi, %rcx
	addq	$7929856, %rcx
	andq	$-131072, %rcx
	leaq	(%rcx,%rax), %rdi
	addq	$-7864320, %rdi
	leaq	(%rcx,%rdx), %r15
	addq	$-7864320, %r15
	xorl	%r14d, %r14d
	movl	$1, %r9d
	movl	$60, %esi
	movl	$60, %edx
	movl	$360, %ecx
	xorl	%r8d, %r8d
	callq	"sq_cpr::index::index_within"
	movl	%eax, %ebx
	movl	$1, %r9d
	movq	%r15, %rdi
	movl	$59, %esi
	movl	$59, %edx
	movl	$360, %ecx
	xorl	%r8d, %r8d
	callq	"sq_cpr::index::index_within"
	movslq	%ebx, %rcx
	imulq	$360, %rcx, %rdi
	movq	%rdi, %rcx
	negq	%rcx
	cmovsq	%rdi, %rcx
	cmpq	$707788800, %rcx
	ja	.LBB65_56
	movslq	%eax, %rcx
	imulq	$360, %rcx, %r14
	movq	%r14, %rcx
	negq	%rcx
	cmovsq	%r14, %rcx
	cmpq	$695992321, %rcx
	jae	.LBB65_57
	movl	%eax, 68(%rsp)
	movl	$7864320, %esi
	callq	"sq_zones::zones::zone_count"
	movl	%eax, %r15d
	movl	$7733248, %esi
	movq	%r14, %rdi
	callq	"sq_zones::zones::zone_count"
	cmpb	%al, %r15b
	jne	.LBB65_37
	leal	-1(%r15), %eax
	movzbl	%al, %eax
	cmpb	$2, %al
	movl	$1, %ecx
	cmovael	%eax, %ecx
	movl	%ecx, 72(%rsp)
	movzbl	%cl, %esi
	movq	80(%rsp), %rcx
	imulq	%rsi, %rcx
	movzbl	%r15b, %eax
	imulq	%rax, %r13
	subq	%r13, %rcx
	addq	$7929856, %rcx
	andq	$-131072, %rcx
	leaq	(%rcx,%rbp), %rdi
	addq	$-7864320, %rdi
	testl	%r12d, %r12d
	je	.LBB65_41
	movl	$1, %edx
	callq	"sq_cpr::index::on_circle"
	movl	%eax, %r14d
	movl	68(%rsp), %eax
	movl	%eax, %ebx
	movl	72(%rsp), %eax
	movl	%eax, %r15d
	jmp	.LBB65_43
.LBB65_56:
	movb	$0, 14(%rsp)
	movw	$0, 12(%rsp)
	movw	$0, 8(%rsp)
	movb	$0, 10(%rsp)
	movb	$1, %dl
	xorl	%eax, %eax
	xorl	%r15d, %r15d
	xorl	%esi, %esi
	jmp	.LBB65_39
.LBB65_57:
	movb	$0, 14(%rsp)
	movw	$0, 12(%rsp)
	movw	$0, 8(%rsp)
	movb	$0, 10(%rsp)
	xorl	%eax, %eax
	movb	$1, %dl
	xorl	%r15d, %r15d
	jmp	.LBB65_38
.LBB65_37:
	movb	$0, 14(%rsp)
	movw	$0, 12(%rsp)
	movw	$0, 8(%rsp)
	movb	$0, 10(%rsp)
	xorl	%edx, %edx
.LBB65_38:
	xorl	%esi, %esi
	xorl	%r14d, %r14d
.LBB65_39:
	xorl	%ecx, %ecx
	xorl	%ebx, %ebx
	xorl	%r12d, %r12d
.LBB65_44:
	movq	24(%rsp), %rdi
	movzbl	14(%rsp), %r8d
	movb	%r8b, 22(%rsp)
	movzwl	12(%rsp), %r8d
	movw	%r8w, 20(%rsp)
	movzwl	8(%rsp), %r8d
	movw	%r8w, 16(%rsp)
	movzbl	10(%rsp), %r8d
	movb	%r8b, 18(%rsp)
	testb	%sil, %sil
	je	.LBB65_50
	movzbl	22(%rsp), %eax
	movb	%al, 43(%rsp)
	movzwl	20(%rsp), %eax
	movw	%ax, 41(%rsp)
	movb	%cl, 48(%rsp)
	movzwl	16(%rsp), %eax
	movw	%ax, 49(%rsp)
	movzbl	18(%rsp), %eax
	movb	%al, 51(%rsp)
	movl	%r14d, 52(%rsp)
	xorl	%esi, %esi
	xorl	%edx, %edx
	xorl	%ecx, %ecx
	xorl	%r10d, %r10d
	xorl	%eax, %eax
	jmp	.LBB65_51
.LBB65_50:
	movb	$6, %r10b
	subb	%dl, %r10b
	movzbl	%r15b, %ecx
	xorl	%ebx, %ebx
	testb	%dl, %dl
	cmovnel	%ebx, %ecx
	movzbl	%al, %edx
	cmovnel	%ebx, %edx
	xorps	%xmm0, %xmm0
	movups	%xmm0, 36(%rsp)
	movl	$0, 52(%rsp)
	movb	$1, %al
	xorl	%r12d, %r12d
	xorl	%esi, %esi
	jmp	.LBB65_51
.LBB65_41:
	movl	%eax, %esi
	movl	$1, %edx
	callq	"sq_cpr::index::on_circle"
	movl	%eax, %r14d
.LBB65_43:
	movl	%r15d, %ecx
	movb	$0, 14(%rsp)
	movw	$0, 12(%rsp)
	movw	$0, 8(%rsp)
	movb	$0, 10(%rsp)
	movb	$1, %dl
	xorl	%eax, %eax
	xorl	%r15d, %r15d
	movb	$1, %sil
	jmp	.LBB65_44
.Lfunc_end65:
	.size	"squitter_c::decode::of_two", .Lfunc_end65-"squitter_c::decode::of_two"

	.section	".text.sq_message::place::ground_pair","ax",@progbits
	.p2align	4
	.type	"sq_message::place::ground_pair",@function
"sq_message::place::ground_pair":
	pushq	%rbp
	pushq	%r15
	pushq	%r14
	pushq	%r13
	pushq	%r12
	pushq	%rbx
	subq	$56, %rsp
	movb	$0, 14(%rsp)
	movw	$0, 12(%rsp)
	movw	$0, 8(%rsp)
	movb	$0, 10(%rsp)
	movzbl	(%rdx), %ebp
	cmpb	%bpl, (%rsi)
	jne	.LBB66_4
	movw	$769, (%rdi)
	jmp	.LBB66_2
.LBB66_4:
	cmpb	$1, %cl
	jne	.LBB66_46
	movl	4(%rsi), %eax
	movl	8(%rsi), %r9d
	movl	4(%rdx), %ecx
	testb	%bpl, %bpl
	movl	%eax, %esi
	cmovel	%ecx, %esi
	movl	8(%rdx), %edx
	movl	%r9d, %r10d
	cmovel	%edx, %r10d
	movl	%r10d, 36(%rsp)
	cmovel	%eax, %ecx
	movq	%rdx, 48(%rsp)
	cmovnel	%edx, %r9d
	movl	%r9d, 40(%rsp)
	movq	(%r8), %r12
	imulq	$59, %rsi, %rax
	imulq	$-60, %rcx, %rdx
	addq	%rdx, %rax
	addq	$7929856, %rax
	andq	$-131072, %rax
	leaq	(%rax,%rsi), %r15
	addq	$-7864320, %r15
	leaq	(%rax,%rcx), %r13
	addq	$-7864320, %r13
	testq	%r12, %r12
	je	.LBB66_6
	movq	%r13, 16(%rsp)
	movl	%ebp, 44(%rsp)
	movq	%r15, %rcx
	sarq	$63, %rcx
	imulq	$90, 8(%r8), %rbx
	movl	$7864320, %edx
	movq	%rbx, %rax
	mulq	%rdx
	movq	%rax, %r9
	movq	%rdx, %r10
	imulq	%rbx, %rcx
	movq	%rbx, %rax
	movq	%r15, 24(%rsp)
	mulq	%r15
	movq	%rax, %r11
	movq	%rdx, %r15
	addq	%rcx, %r15
	movq	%r12, %r13
	sarq	$63, %r13
	movq	$-7864320, %rcx
	movq	%r12, %rax
	mulq	%rcx
	movq	%rax, %rcx
	movq	%r12, %r14
	shlq	$63, %r14
	subq	%r12, %r14
	addq	%r14, %rdx
	imulq	$-7864320, %r13, %rsi
	addq	%rdx, %rsi
	addq	%r11, %rcx
	adcq	%r15, %rsi
	shldq	$1, %rcx, %rsi
	addq	%rcx, %rcx
	addq	%r9, %rcx
	adcq	%r10, %rsi
	addq	$-1, %rcx
	adcq	$-1, %rsi
	movl	$15728640, %edx
	movq	%rbx, %rax
	mulq	%rdx
	testq	%rsi, %rsi
	js	.LBB66_13
	cmpq	%rax, %rcx
	movq	%rsi, %r9
	sbbq	%rdx, %r9
	jae	.LBB66_13
	xorl	%r15d, %r15d
.LBB66_14:
	movq	16(%rsp), %rsi
	movq	%rsi, %rbp
	movl	$7733248, %ecx
	movq	%rbx, %rax
	mulq	%rcx
	movq	%rax, %r10
	movq	%rdx, %r9
	sarq	$63, %rbp
	movq	%rbx, %rax
	mulq	%rsi
	movq	%rax, %r11
	imulq	%rbx, %rbp
	addq	%rdx, %rbp
	movq	%r12, %rax
	movq	$-7733248, %r12
	mulq	%r12
	movq	%rax, %rcx
	addq	%r14, %rdx
	imulq	$-7733248, %r13, %rsi
	addq	%rdx, %rsi
	addq	%r11, %rcx
	adcq	%rbp, %rsi
	shldq	$1, %rcx, %rsi
	addq	%rcx, %rcx
	addq	%r10, %rcx
	adcq	%r9, %rsi
	addq	$-1, %rcx
	adcq	$-1, %rsi
	movl	$15466496, %edx
	movq	%rbx, %rax
	mulq	%rdx
	testq	%rsi, %rsi
	js	.LBB66_17
	cmpq	%rax, %rcx
	movq	%rsi, %r9
	sbbq	%rdx, %r9
	jae	.LBB66_17
	xorl	%eax, %eax
.LBB66_18:
	addl	24(%rsp), %r15d
	addl	16(%rsp), %eax
	movl	%eax, %r13d
	movl	44(%rsp), %ebp
	jmp	.LBB66_19
.LBB66_46:
	movw	$1025, (%rdi)
.LBB66_2:
	xorps	%xmm0, %xmm0
	movups	%xmm0, 2(%rdi)
	movq	$0, 16(%rdi)
.LBB66_3:
	addq	$56, %rsp
	popq	%rbx
	popq	%r12
	popq	%r13
	popq	%r14
	popq	%r15
	popq	%rbp
	retq
.LBB66_6:
	leaq	7864319(,%r15,2), %rax
	cmpq	$15728640, %rax
	jae	.LBB66_7
	leaq	7733247(,%r13,2), %rax
	cmpq	$15466496, %rax
	jae	.LBB66_9
.LBB66_19:
	movslq	%r15d, %rax
	imulq	$90, %rax, %rcx
	movq	%rcx, %rax
	negq	%rax
	cmovsq	%rcx, %rax
	cmpq	$707788800, %rax
	ja	.LBB66_44
	movslq	%r13d, %rcx
	imulq	$90, %rcx, %rcx
	movq	%rcx, %r9
	negq	%r9
	cmovsq	%rcx, %r9
	cmpq	$695992321, %r9
	jae	.LBB66_44
	imulq	$100000000, %rax, %rax
	addq	$7864319, %rax
	shrq	$17, %rax
	movabsq	$4691249611845, %rcx
	mulq	%rcx
	shldq	$16, %rax, %rdx
	movq	%rdx, %rax
	shrq	$25, %rax
	leaq	.Lstatic.41(%rip), %r10
	movzbl	(%rax,%r10), %esi
	leaq	.Lstatic.42(%rip), %r11
	cmpq	%rdx, (%r11,%rsi,8)
	adcb	$-1, %sil
	movb	$58, %cl
	subb	%sil, %cl
	negb	%sil
	imulq	$100000000, %r9, %rax
	addq	$7733247, %rax
	shrq	$17, %rax
	movabsq	$4770762317130, %rdx
	mulq	%rdx
	shldq	$16, %rax, %rdx
	movq	%rdx, %rax
	shrq	$25, %rax
	movzbl	(%rax,%r10), %eax
	cmpq	%rdx, (%r11,%rax,8)
	adcb	$-1, %al
	negb	%al
	cmpb	%al, %sil
	jne	.LBB66_22
	movq	%r15, 24(%rsp)
	addb	$57, %sil
	movzbl	%sil, %eax
	cmpb	$2, %al
	movl	$1, %r14d
	cmovael	%eax, %r14d
	movzbl	%r14b, %eax
	movl	36(%rsp), %edx
	imulq	%rax, %rdx
	movzbl	%cl, %eax
	movl	40(%rsp), %ecx
	imulq	%rax, %rcx
	subq	%rcx, %rdx
	addq	$7929856, %rdx
	andq	$-131072, %rdx
	testb	%bpl, %bpl
	movq	16(%r8), %r10
	movq	48(%rsp), %rcx
	leaq	-7864320(%rcx,%rdx), %rbx
	cmovel	%eax, %r14d
	testq	%r10, %r10
	je	.LBB66_24
	movq	%rbx, %r11
	movzbl	%r14b, %r15d
	movl	%r15d, %r12d
	imulq	$90, 24(%r8), %rsi
	shll	$17, %r12d
	movq	%rsi, %rax
	mulq	%r12
	movq	%rax, %rcx
	movq	%rdx, %r8
	sarq	$63, %r11
	imulq	%rsi, %r11
	movq	%rsi, %rax
	mulq	%rbx
	movq	%rdx, %rsi
	movq	%rax, %r9
	movq	%r10, %rax
	imulq	%r12
	addq	%r11, %rsi
	subq	%rax, %r9
	sbbq	%rdx, %rsi
	shldq	$1, %r9, %rsi
	addq	%r9, %r9
	addq	%rcx, %r9
	adcq	%r8, %rsi
	addq	$-1, %r9
	adcq	$-1, %rsi
	shldq	$1, %rcx, %r8
	addq	%rcx, %rcx
	testq	%rsi, %rsi
	js	.LBB66_30
	cmpq	%rcx, %r9
	movq	%rsi, %rax
	sbbq	%r8, %rax
	jae	.LBB66_30
	xorl	%r12d, %r12d
.LBB66_31:
	subq	%r12, %rbx
	jmp	.LBB66_32
.LBB66_44:
	movb	$0, 6(%rsp)
	movw	$0, 4(%rsp)
	movw	$0, (%rsp)
	movb	$0, 2(%rsp)
	movb	$1, %sil
	xorl	%ebp, %ebp
	xorl	%r13d, %r13d
	xorl	%r14d, %r14d
	xorl	%edx, %edx
	xorl	%r8d, %r8d
	xorl	%ecx, %ecx
.LBB66_40:
	xorl	%eax, %eax
.LBB66_41:
	movzbl	6(%rsp), %r9d
	movb	%r9b, 14(%rsp)
	movzwl	4(%rsp), %r9d
	movw	%r9w, 12(%rsp)
	movzwl	(%rsp), %r9d
	movw	%r9w, 8(%rsp)
	movzbl	2(%rsp), %r9d
	movb	%r9b, 10(%rsp)
	testb	%r8b, %r8b
	je	.LBB66_43
	movabsq	$4294967296, %rax
	movq	%rax, (%rdi)
	movb	%bpl, 8(%rdi)
	movzwl	12(%rsp), %eax
	movw	%ax, 9(%rdi)
	movzbl	14(%rsp), %eax
	movb	%al, 11(%rdi)
	movl	%r13d, 12(%rdi)
	movb	%r14b, 16(%rdi)
	movzwl	8(%rsp), %eax
	movw	%ax, 17(%rdi)
	movzbl	10(%rsp), %eax
	movb	%al, 19(%rdi)
	movl	%edx, 20(%rdi)
	jmp	.LBB66_3
.LBB66_43:
	movb	$6, %dl
	subb	%sil, %dl
	movzbl	%cl, %ecx
	xorl	%r8d, %r8d
	testb	%sil, %sil
	cmovnel	%r8d, %ecx
	movzbl	%al, %eax
	cmovnel	%r8d, %eax
	movb	$1, (%rdi)
	movb	%dl, 1(%rdi)
	movb	%cl, 2(%rdi)
	movb	%al, 3(%rdi)
	xorps	%xmm0, %xmm0
	movups	%xmm0, 4(%rdi)
	movl	$0, 20(%rdi)
	jmp	.LBB66_3
.LBB66_22:
	addb	$58, %al
	movb	$0, 6(%rsp)
	movw	$0, 4(%rsp)
	movw	$0, (%rsp)
	movb	$0, 2(%rsp)
	xorl	%ebp, %ebp
	xorl	%r13d, %r13d
	xorl	%r14d, %r14d
	xorl	%edx, %edx
	xorl	%r8d, %r8d
	xorl	%esi, %esi
	jmp	.LBB66_41
.LBB66_24:
	movzbl	%r14b, %r15d
	movl	%r15d, %r12d
	shll	$17, %r12d
	leaq	(%r12,%rbx,2), %rax
	movl	%r15d, %esi
	shll	$18, %esi
	decq	%rax
	js	.LBB66_26
	cmpq	%rsi, %rax
	jae	.LBB66_26
.LBB66_32:
	movslq	%ebx, %rax
	shll	$19, %r15d
	movq	%rax, %rdx
	sarq	$63, %rdx
	andl	%r15d, %edx
	addq	%rax, %rdx
	js	.LBB66_34
	cmpq	%r15, %rdx
	jl	.LBB66_39
.LBB66_34:
	testq	%rax, %rax
	js	.LBB66_35
	testb	%r14b, %r14b
	je	.LBB66_45
	movl	%ebx, %eax
	xorl	%edx, %edx
	divl	%r15d
	jmp	.LBB66_39
.LBB66_13:
	movq	%rdi, %r15
	movq	%rcx, %rdi
	movq	%rdx, %rcx
	movq	%rax, %rdx
	movq	%r8, %rbp
	callq	"sq_cpr::index::far_quotient"
	movq	%rbp, %r8
	movq	%r15, %rdi
	movq	$-7864320, %rcx
	mulq	%rcx
	movq	%rax, %r15
	jmp	.LBB66_14
.LBB66_17:
	movq	%rdi, %rbx
	movq	%rcx, %rdi
	movq	%rdx, %rcx
	movq	%rax, %rdx
	movq	%r8, %r14
	callq	"sq_cpr::index::far_quotient"
	movq	%r14, %r8
	movq	%rbx, %rdi
	mulq	%r12
	jmp	.LBB66_18
.LBB66_35:
	testb	%r14b, %r14b
	je	.LBB66_45
	notl	%ebx
	movl	%ebx, %eax
	xorl	%edx, %edx
	divl	%r15d
	notl	%edx
	addq	%r15, %rdx
.LBB66_39:
	testb	%bpl, %bpl
	cmovel	24(%rsp), %r13d
	movb	$0, 6(%rsp)
	movw	$0, 4(%rsp)
	movw	$0, (%rsp)
	movb	$0, 2(%rsp)
	movb	$1, %r8b
	xorl	%ecx, %ecx
	movb	$1, %sil
	jmp	.LBB66_40
.LBB66_7:
	movl	$15728640, %esi
	movq	%rdi, %rbx
	movq	%rax, %rdi
	movq	%r8, %r14
	callq	"sq_cpr::index::rare_quotient"
	movq	%r14, %r8
	movq	%rbx, %rdi
	imulq	$-7864320, %rax, %rax
	addq	%rax, %r15
	leaq	7733247(,%r13,2), %rax
	cmpq	$15466496, %rax
	jb	.LBB66_19
.LBB66_9:
	movl	$15466496, %esi
	movq	%rdi, %rbx
	movq	%rax, %rdi
	movq	%r8, %r14
	callq	"sq_cpr::index::rare_quotient"
	movq	%r14, %r8
	movq	%rbx, %rdi
	imulq	$-7733248, %rax, %rax
	addq	%rax, %r13
	jmp	.LBB66_19
.LBB66_30:
	movq	%r13, 16(%rsp)
	movq	%rdi, %r13
	movq	%r9, %rdi
	movq	%rcx, %rdx
	movq	%r8, %rcx
	callq	"sq_cpr::index::far_quotient"
	movq	%r13, %rdi
	movq	16(%rsp), %r13
	imulq	%rax, %r12
	jmp	.LBB66_31
.LBB66_26:
	movq	%r13, 16(%rsp)
	movq	%rdi, %r13
	movq	%rax, %rdi
	callq	"sq_cpr::index::rare_quotient"
	movq	%r13, %rdi
	movq	16(%rsp), %r13
	imulq	%r12, %rax
	subq	%rax, %rbx
	jmp	.LBB66_32
.LBB66_45:
	ud2
.Lfunc_end66:
	.size	"sq_message::place::ground_pair", .Lfunc_end66-"sq_message::place::ground_pair"

	.section	".text.squitter_c::decode::squitter_pair_at","ax",@progbits
	.p2align	4
	.type	"squitter_c::decode::squitter_pair_at",@function
"squitter_c::decode::squitter_pair_at":
	pushq	%r14
	pushq	%rbx
	subq	$120, %rsp
	movq	%r8, %r14
	movq	%rdi, %rbx
	movabsq	$-1000000000001, %r10
	xorps	%xmm0, %xmm0
	movaps	%xmm0, 64(%rsp)
	movaps	%xmm0, (%rsp)
	movaps	%xmm0, 16(%rsp)
	movaps	%xmm0, 32(%rsp)
	movaps	%xmm0, 48(%rsp)
	movq	8(%rcx), %rax
	leaq	(%rax,%r10), %rdi
	leaq	1(%r10), %r11
	cmpq	%r11, %rdi
	jb	.LBB67_7
	movq	(%rcx), %rdi
	movq	%rdi, %r9
	negq	%r9
	cmovsq	%rdi, %r9
	imulq	$360, %rax, %r8
	cmpq	%r9, %r8
	jb	.LBB67_7
	movq	24(%rcx), %r8
	addq	%r8, %r10
	cmpq	%r11, %r10
	jb	.LBB67_7
	movq	16(%rcx), %rcx
	movq	%rcx, %r10
	negq	%r10
	cmovsq	%rcx, %r10
	imulq	$360, %r8, %r11
	cmpq	%r10, %r11
	jae	.LBB67_4
.LBB67_7:
	movb	$3, 40(%rsp)
	movaps	%xmm0, 48(%rsp)
	movq	$1, (%rsp)
	movzbl	40(%rsp), %eax
	movb	%al, 8(%rsp)
	movq	41(%rsp), %rax
	movq	%rax, 9(%rsp)
	movl	49(%rsp), %eax
	movl	%eax, 17(%rsp)
	movzwl	53(%rsp), %eax
	movw	%ax, 21(%rsp)
	movzbl	55(%rsp), %eax
	movb	%al, 23(%rsp)
	movq	$0, 24(%rsp)
.LBB67_8:
	leaq	64(%rsp), %rdi
	movq	%rsp, %rsi
	movq	%r14, %rdx
	callq	"squitter_c::decode::give"
	movaps	64(%rsp), %xmm0
	movups	%xmm0, (%rbx)
	addq	$120, %rsp
	popq	%rbx
	popq	%r14
	retq
.LBB67_4:
	imulq	$90, %rax, %r11
	cmpq	%r11, %r9
	ja	.LBB67_7
	imulq	$180, %r8, %r9
	cmpq	%r9, %r10
	ja	.LBB67_7
	movq	%rdi, 88(%rsp)
	movq	%rax, 96(%rsp)
	movq	%rcx, 104(%rsp)
	movq	%r8, 112(%rsp)
	leaq	32(%rsp), %rdi
	leaq	88(%rsp), %r8
	movl	$1, %ecx
	callq	"squitter_c::decode::of_two"
	movzbl	32(%rsp), %eax
	movl	%eax, (%rsp)
	movzbl	36(%rsp), %eax
	movl	%eax, 4(%rsp)
	movups	40(%rsp), %xmm0
	movups	%xmm0, 8(%rsp)
	movq	56(%rsp), %rax
	movq	%rax, 24(%rsp)
	jmp	.LBB67_8
.Lfunc_end67:
	.size	"squitter_c::decode::squitter_pair_at", .Lfunc_end67-"squitter_c::decode::squitter_pair_at"

	.section	".text.squitter_c::e7::both","ax",@progbits
	.p2align	4
	.type	"squitter_c::e7::both",@function
"squitter_c::e7::both":
	pushq	%r15
	pushq	%r14
	pushq	%rbx
	movq	(%rdi), %r14
	movq	%r14, %rax
	negq	%rax
	cmovsq	%r14, %rax
	movl	$20000000, %ecx
	mulq	%rcx
	movq	8(%rdi), %rsi
	addq	%rsi, %rax
	adcq	$0, %rdx
	leaq	(%rsi,%rsi), %rcx
	testw	%si, %si
	jne	.LBB68_4
	cmpq	$16777215, %rcx
	ja	.LBB68_4
	movq	%rax, %rsi
	shrq	$56, %rsi
	orq	%rdx, %rsi
	jne	.LBB68_4
	shrq	$17, %rax
	shrq	$14, %rcx
	leaq	.Lstatic.40(%rip), %rdx
	mulq	(%rcx,%rdx)
	movq	%rax, %rbx
	shll	$16, %edx
	shrq	$48, %rbx
	orl	%edx, %ebx
.LBB68_5:
	movq	16(%rdi), %r15
	movq	%r15, %rax
	negq	%rax
	cmovsq	%r15, %rax
	movl	$20000000, %ecx
	mulq	%rcx
	movq	24(%rdi), %rsi
	addq	%rsi, %rax
	adcq	$0, %rdx
	leaq	(%rsi,%rsi), %rcx
	testw	%si, %si
	jne	.LBB68_9
	cmpq	$16777215, %rcx
	ja	.LBB68_9
	movq	%rax, %rsi
	shrq	$56, %rsi
	orq	%rdx, %rsi
	jne	.LBB68_9
	shrq	$17, %rax
	shrq	$14, %rcx
	leaq	.Lstatic.40(%rip), %rdx
	mulq	(%rcx,%rdx)
	shll	$16, %edx
	shrq	$48, %rax
	orl	%edx, %eax
.LBB68_10:
	movl	%ebx, %ecx
	negl	%ecx
	testq	%r14, %r14
	cmovnsl	%ebx, %ecx
	movl	%eax, %edx
	negl	%edx
	testq	%r15, %r15
	cmovnsl	%eax, %edx
	movl	%ecx, %eax
	popq	%rbx
	popq	%r14
	popq	%r15
	retq
.LBB68_4:
	movq	%rdi, %rbx
	movq	%rax, %rdi
	movq	%rdx, %rsi
	movq	%rcx, %rdx
	callq	"sq_angle::quotients::divided"
	movq	%rbx, %rdi
	movq	%rax, %rbx
	jmp	.LBB68_5
.LBB68_9:
	movq	%rax, %rdi
	movq	%rdx, %rsi
	movq	%rcx, %rdx
	callq	"sq_angle::quotients::divided"
	jmp	.LBB68_10
.Lfunc_end68:
	.size	"squitter_c::e7::both", .Lfunc_end68-"squitter_c::e7::both"

	.section	".text.squitter_c::read::squitter_read_frame","ax",@progbits
	.p2align	4
	.type	"squitter_c::read::squitter_read_frame",@function
"squitter_c::read::squitter_read_frame":
	movq	(%rsi), %rcx
	bswapq	%rcx
	movq	%rcx, %r10
	shrq	$59, %r10
	movl	$5, %r9d
	cmpq	$17, %r10
	jne	.LBB69_17
	pushq	%rbp
	pushq	%r15
	pushq	%r14
	pushq	%r13
	pushq	%r12
	pushq	%rbx
	movq	%rcx, %r8
	shlq	$48, %r8
	movl	10(%rsi), %eax
	shlq	$32, %rax
	movzbl	9(%rsi), %r9d
	shll	$24, %r9d
	orq	%rax, %r9
	movzbl	8(%rsi), %r10d
	shll	$16, %r10d
	orq	%r9, %r10
	bswapq	%r10
	movq	%rcx, %r15
	shrq	$24, %r15
	movq	%rcx, %rax
	shrq	$54, %rax
	andl	$572, %eax
	leaq	.Lstatic.44(%rip), %r9
	movq	%rcx, %rsi
	shrq	$46, %rsi
	andl	$1020, %esi
	leaq	.Lstatic.45(%rip), %r11
	movl	(%rax,%r9), %eax
	xorl	%r15d, %eax
	xorl	(%rsi,%r11), %eax
	movzbl	%ah, %esi
	movzbl	%al, %r14d
	shrl	$14, %eax
	andl	$1020, %eax
	leaq	.Lstatic.43(%rip), %rbx
	movl	(%rax,%rbx), %eax
	xorl	%ecx, %eax
	xorl	(%r9,%rsi,4), %eax
	orq	%r10, %r8
	xorl	(%r11,%r14,4), %eax
	movq	%r8, %rsi
	movzbl	%ah, %ebp
	movzbl	%al, %r14d
	movl	%eax, %r12d
	shrl	$14, %r12d
	andl	$1020, %r12d
	movl	(%r9,%rbp,4), %eax
	xorl	(%r12,%rbx), %eax
	shrq	$24, %rsi
	xorl	(%r11,%r14,4), %eax
	xorl	%esi, %eax
	andl	$16777215, %r10d
	movzbl	%ah, %ebp
	movzbl	%al, %r14d
	shrl	$14, %eax
	andl	$1020, %eax
	xorl	(%r9,%rbp,4), %r10d
	movl	(%rax,%rbx), %eax
	xorl	(%r11,%r14,4), %r10d
	cmpl	%r10d, %eax
	jne	.LBB69_2
	movq	%rcx, %r12
	shrq	$16, %r12
	movq	%r12, %rax
	shldq	$40, %r8, %rax
	movq	%rcx, %r9
	shrq	$56, %r9
	andb	$7, %r9b
	movq	%r9, -8(%rsp)
	movq	%rcx, %r9
	shrq	$32, %r9
	andl	$16777215, %r9d
	movq	%r9, -24(%rsp)
	movabsq	$72057594037927935, %r13
	andq	%rax, %r13
	movq	%r13, %r10
	shrq	$51, %r10
	xorl	%r9d, %r9d
	cmpq	$5, %r10
	movq	%r10, -16(%rsp)
	jae	.LBB69_5
.LBB69_4:
	xorl	%r10d, %r10d
	xorl	%esi, %esi
	xorl	%eax, %eax
	xorl	%r11d, %r11d
	xorl	%ebx, %ebx
	movq	$0, -48(%rsp)
	movq	$0, -40(%rsp)
	xorl	%r8d, %r8d
	xorl	%ecx, %ecx
	xorl	%r15d, %r15d
	xorl	%r14d, %r14d
	xorl	%ebp, %ebp
	xorl	%r12d, %r12d
	jmp	.LBB69_15
.LBB69_2:
	xorl	%eax, %r10d
	movl	$6, %r9d
	jmp	.LBB69_16
.LBB69_5:
	cmpl	$8, %r10d
	ja	.LBB69_7
	movq	%r8, %rax
	shrq	$58, %rax
	andb	$1, %al
	movq	%rax, -40(%rsp)
	movq	%r8, %r10
	shrq	$41, %r10
	movq	%r8, %r15
	shrq	$59, %r15
	movl	%ecx, %ebp
	shrl	$19, %ebp
	shrl	$20, %ecx
	andl	$131071, %esi
	andl	$131071, %r10d
	movl	%ecx, %r14d
	andb	$127, %r14b
	andb	$1, %bpl
	shrq	$60, %r8
	shll	$4, %r12d
	orl	%r8d, %r12d
	andb	$127, %r12b
	andb	$1, %r15b
	movb	$2, %al
	movq	%rax, -48(%rsp)
	xorl	%r13d, %r13d
	xorl	%eax, %eax
	xorl	%r11d, %r11d
	xorl	%ebx, %ebx
	movl	%r15d, %r8d
	xorl	%ecx, %ecx
	xorl	%r15d, %r15d
	jmp	.LBB69_15
.LBB69_7:
	cmpl	$19, %r10d
	jb	.LBB69_9
	cmpl	$19, %r10d
	setne	%al
	cmpl	$23, %r10d
	setb	%bpl
	andb	%al, %bpl
	cmpb	$1, %bpl
	jne	.LBB69_4
.LBB69_9:
	movq	%r8, %rax
	shrq	$58, %rax
	movq	%rax, %r14
	movq	%r8, %r10
	shrq	$41, %r10
	shldq	$36, %r8, %r12
	shrq	$59, %r8
	movabsq	$17587891077120, %rax
	andq	%r12, %rax
	shrq	$25, %rcx
	movq	%rax, %r12
	shrq	$32, %r12
	shrq	$53, %r13
	movb	$2, %bl
	xorl	%r11d, %r11d
	cmpl	$4, %r13d
	movq	%r12, -32(%rsp)
	ja	.LBB69_14
	xorl	%r11d, %r11d
	testq	%rax, %rax
	je	.LBB69_11
	movzwl	%r12w, %eax
	testb	$16, %al
	je	.LBB69_14
	movl	%eax, %ebp
	shrl	%ebp
	andl	$-16, %ebp
	andl	$15, %eax
	orl	%ebp, %eax
	leal	(%rax,%rax,4), %eax
	leal	(%rax,%rax,4), %eax
	movzwl	%ax, %r11d
	addl	$-1000, %r11d
	movb	$1, %bl
	jmp	.LBB69_14
.LBB69_11:
	xorl	%ebx, %ebx
.LBB69_14:
	andb	$1, %r14b
	movq	%r14, -40(%rsp)
	andl	$131071, %esi
	andl	$131071, %r10d
	andb	$3, %cl
	andb	$1, %r15b
	andb	$1, %r8b
	movb	$1, %al
	movq	%rax, -48(%rsp)
	xorl	%r13d, %r13d
	xorl	%r14d, %r14d
	xorl	%ebp, %ebp
	xorl	%r12d, %r12d
	movl	%r11d, %eax
	movq	-32(%rsp), %r11
.LBB69_15:
	movq	%r13, (%rdx)
	movq	-24(%rsp), %r13
	movl	%r13d, 8(%rdx)
	movl	%r10d, 12(%rdx)
	movl	%esi, 16(%rdx)
	movl	%eax, 20(%rdx)
	movw	%r11w, 24(%rdx)
	movb	%bl, 26(%rdx)
	movq	-48(%rsp), %rax
	movb	%al, 27(%rdx)
	movq	-8(%rsp), %rsi
	movb	%sil, 28(%rdx)
	movq	-16(%rsp), %rsi
	movb	%sil, 29(%rdx)
	movq	-40(%rsp), %rax
	movb	%al, 30(%rdx)
	movb	%r8b, 31(%rdx)
	movb	%cl, 32(%rdx)
	movb	%r15b, 33(%rdx)
	movb	%r14b, 34(%rdx)
	movb	%bpl, 35(%rdx)
	movb	%r12b, 36(%rdx)
	movw	$0, 37(%rdx)
	movb	$0, 39(%rdx)
	xorl	%r10d, %r10d
.LBB69_16:
	popq	%rbx
	popq	%r12
	popq	%r13
	popq	%r14
	popq	%r15
	popq	%rbp
.LBB69_17:
	movl	%r9d, (%rdi)
	movl	$0, 4(%rdi)
	movq	%r10, 8(%rdi)
	retq
.Lfunc_end69:
	.size	"squitter_c::read::squitter_read_frame", .Lfunc_end69-"squitter_c::read::squitter_read_frame"

	.section	.rodata.cst16,"aM",@progbits,16
	.p2align	4, 0x0
.LCPI70_0:
	.byte	0
	.byte	0
	.byte	0
	.byte	0
	.byte	255
	.byte	0
	.byte	255
	.byte	0
	.byte	0
	.byte	0
	.byte	0
	.byte	255
	.byte	0
	.byte	255
	.byte	0
	.byte	0
	.section	".text.unlikely.sq_text::reading::read_any","ax",@progbits
	.p2align	4
	.type	"sq_text::reading::read_any",@function
"sq_text::reading::read_any":
	pushq	%rbp
	pushq	%r15
	pushq	%r14
	pushq	%r12
	pushq	%rbx
	subq	$32, %rsp
	movq	%rdi, %rbx
	pxor	%xmm0, %xmm0
	movdqa	%xmm0, (%rsp)
	movq	$0, 16(%rsp)
	movq	%rsp, %rdi
	callq	"sq_text::frame_text::read_text"
	movzbl	14(%rsp), %eax
	shll	$16, %eax
	movzwl	12(%rsp), %ecx
	orl	%eax, %ecx
	shlq	$32, %rcx
	movl	8(%rsp), %edx
	orq	%rcx, %rdx
	cmpb	$0, (%rsp)
	je	.LBB70_1
	movq	16(%rsp), %rsi
	movzbl	%dl, %eax
	leaq	.LJTI70_0(%rip), %rcx
	movslq	(%rcx,%rax,4), %rdx
	addq	%rcx, %rdx
	jmpq	*%rdx
.LBB70_16:
	movb	$2, %cl
	jmp	.LBB70_21
.LBB70_1:
	movzbl	1(%rsp), %ecx
	movzbl	2(%rsp), %eax
	movzbl	3(%rsp), %esi
	movzbl	5(%rsp), %edi
	movzbl	6(%rsp), %r8d
	movzbl	7(%rsp), %r9d
	movq	%rdx, %r10
	shlq	$56, %r10
	shlq	$48, %r9
	orq	%r10, %r9
	shlq	$40, %r8
	orq	%r9, %r8
	shlq	$32, %rdi
	orq	%r8, %rdi
	movl	4(%rsp), %r8d
	shll	$24, %r8d
	orq	%rdi, %r8
	shll	$16, %esi
	orq	%r8, %rsi
	shll	$8, %eax
	orq	%rsi, %rax
	orq	%rcx, %rax
	bswapq	%rax
	movq	%rax, %rcx
	shrq	$59, %rcx
	cmpq	$17, %rcx
	jne	.LBB70_2
	movq	%rax, %r15
	shlq	$48, %r15
	movq	%rdx, %xmm0
	shlq	$8, %rdx
	movabsq	$-72057594037927936, %rcx
	andq	%rdx, %rcx
	pshufd	$68, %xmm0, %xmm0
	psllq	$8, %xmm0
	andl	$16711680, %edx
	pand	.LCPI70_0(%rip), %xmm0
	pshufd	$238, %xmm0, %xmm1
	por	%xmm0, %xmm1
	movq	%xmm1, %rsi
	orq	%rdx, %rsi
	movabsq	$72057594037927935, %r12
	andq	%r12, %rsi
	orq	%rcx, %rsi
	bswapq	%rsi
	orq	%rsi, %r15
	movq	%rax, %rcx
	shrq	$24, %rcx
	movq	%rax, %rdx
	shrq	$54, %rdx
	andl	$572, %edx
	leaq	.Lstatic.44(%rip), %rdi
	movq	%rax, %r9
	shrq	$46, %r9
	andl	$1020, %r9d
	leaq	.Lstatic.45(%rip), %r8
	xorl	(%rdx,%rdi), %ecx
	xorl	(%r9,%r8), %ecx
	movzbl	%ch, %ebp
	movzbl	%cl, %r10d
	shrl	$14, %ecx
	andl	$1020, %ecx
	leaq	.Lstatic.43(%rip), %r9
	movl	(%rcx,%r9), %edx
	xorl	%eax, %edx
	xorl	(%rdi,%rbp,4), %edx
	xorl	(%r8,%r10,4), %edx
	movq	%r15, %rcx
	shrq	$24, %rcx
	movzbl	%dh, %ebp
	movl	%edx, %r10d
	shrl	$14, %r10d
	andl	$1020, %r10d
	xorl	(%r10,%r9), %ecx
	xorl	(%rdi,%rbp,4), %ecx
	movzbl	%dl, %edx
	xorl	(%r8,%rdx,4), %ecx
	andl	$16777215, %esi
	movzbl	%ch, %edx
	movzbl	%cl, %r10d
	shrl	$14, %ecx
	andl	$1020, %ecx
	movl	(%rcx,%r9), %ecx
	xorl	(%rdi,%rdx,4), %esi
	xorl	(%r8,%r10,4), %esi
	movl	%esi, %edx
	xorl	%ecx, %edx
	jne	.LBB70_5
	movq	%rax, %r11
	shrq	$16, %r11
	movq	%r11, %r8
	shldq	$40, %r15, %r8
	movq	%rax, %rsi
	shrq	$56, %rsi
	andb	$7, %sil
	movq	%rax, %rdi
	shrq	$32, %rdi
	andl	$16777215, %edi
	andq	%r8, %r12
	movq	%r12, %r10
	shrq	$51, %r10
	movl	$2, %r14d
	cmpq	$5, %r10
	jae	.LBB70_8
.LBB70_7:
	xorl	%r9d, %r9d
	xorl	%eax, %eax
	jmp	.LBB70_14
.LBB70_2:
	movb	$6, %al
	xorl	%esi, %esi
	jmp	.LBB70_3
.LBB70_18:
	movb	$4, %cl
	jmp	.LBB70_20
.LBB70_19:
	movb	$5, %cl
.LBB70_20:
	movq	%rsi, %rax
	jmp	.LBB70_21
.LBB70_17:
	movb	$3, %cl
	xorl	%eax, %eax
.LBB70_21:
	movq	$1, (%rbx)
	movb	%cl, 8(%rbx)
	movb	$0, 9(%rbx)
	movl	$0, 12(%rbx)
	movq	%rax, 16(%rbx)
	pxor	%xmm0, %xmm0
	movdqu	%xmm0, 24(%rbx)
	jmp	.LBB70_22
.LBB70_5:
	xorl	%ecx, %esi
	movb	$7, %al
	xorl	%ecx, %ecx
.LBB70_3:
	movq	$1, (%rbx)
	movb	%al, 8(%rbx)
	movb	%cl, 9(%rbx)
	movl	%esi, 12(%rbx)
	pxor	%xmm0, %xmm0
	movdqu	%xmm0, 16(%rbx)
	movq	$0, 32(%rbx)
	jmp	.LBB70_22
.LBB70_8:
	cmpl	$8, %r10d
	ja	.LBB70_10
	movq	%r15, %r9
	shrq	$58, %r9
	andl	$1, %r9d
	movq	%r15, %rdx
	shrq	$41, %rdx
	andl	$131071, %edx
	shldq	$28, %r15, %r11
	shrq	$27, %r15
	movabsq	$4294967296, %rcx
	andq	%r15, %rcx
	andl	$2130706432, %r11d
	movl	%eax, %ebp
	shrl	$3, %ebp
	andl	$65536, %ebp
	shrl	$12, %eax
	andl	$32512, %eax
	orl	%ebp, %eax
	orq	%r11, %rax
	orq	%rcx, %rax
	orq	%r10, %rax
	andl	$131071, %r8d
	shlq	$32, %r8
	orq	%rdx, %r8
	movl	$1, %r14d
	jmp	.LBB70_13
.LBB70_10:
	cmpl	$19, %r10d
	jb	.LBB70_12
	cmpl	$19, %r10d
	setne	%cl
	cmpl	$23, %r10d
	setb	%dl
	andb	%cl, %dl
	cmpb	$1, %dl
	jne	.LBB70_7
.LBB70_12:
	movq	%r15, %r9
	shrq	$58, %r9
	andl	$1, %r9d
	movq	%r15, %rdx
	shrq	$41, %rdx
	shldq	$36, %r15, %r11
	andl	$131071, %edx
	shrq	$11, %r15
	movabsq	$281474976710656, %rcx
	andq	%r15, %rcx
	movabsq	$17587891077120, %r14
	andq	%r11, %r14
	movl	%eax, %r11d
	shrl	$8, %r11d
	andl	$65536, %r11d
	shrl	$17, %eax
	andl	$768, %eax
	orl	%r11d, %eax
	orq	%r14, %rax
	orq	%rcx, %rax
	orq	%r10, %rax
	andl	$131071, %r8d
	shlq	$32, %r8
	orq	%rdx, %r8
	xorl	%r14d, %r14d
.LBB70_13:
	movq	%r8, %r12
.LBB70_14:
	movq	$0, (%rbx)
	movb	%sil, 8(%rbx)
	movb	$0, 9(%rbx)
	movl	%edi, 12(%rbx)
	shlq	$32, %r9
	orq	%r14, %r9
	movq	%r9, 16(%rbx)
	movq	%r12, 24(%rbx)
	movq	%rax, 32(%rbx)
.LBB70_22:
	addq	$32, %rsp
	popq	%rbx
	popq	%r12
	popq	%r14
	popq	%r15
	popq	%rbp
	retq
.Lfunc_end70:
	.size	"sq_text::reading::read_any", .Lfunc_end70-"sq_text::reading::read_any"
	.section	".rodata.unlikely.sq_text::reading::read_any","a",@progbits
	.p2align	2, 0x0
.LJTI70_0:
	.long	.LBB70_16-.LJTI70_0
	.long	.LBB70_17-.LJTI70_0
	.long	.LBB70_18-.LJTI70_0
	.long	.LBB70_19-.LJTI70_0

	.section	".text.squitter_c::tracker_new::make","ax",@progbits
	.p2align	4
	.type	"squitter_c::tracker_new::make",@function
"squitter_c::tracker_new::make":
	pushq	%rbp
	pushq	%r15
	pushq	%r14
	pushq	%r13
	pushq	%r12
	pushq	%rbx
	subq	$712, %rsp
	movl	%r8d, %ebp
	movq	%rcx, %r14
	movq	%rdi, %r15
	movq	768(%rsp), %rax
	movzbl	(%rax), %ebx
	movq	8(%rax), %r10
	movq	32(%rax), %rcx
	movq	%rcx, 480(%rsp)
	movups	16(%rax), %xmm0
	movaps	%xmm0, 464(%rsp)
	xorps	%xmm0, %xmm0
	movaps	%xmm0, 112(%rsp)
	movups	%xmm0, (%rsi)
	testl	%r8d, %r8d
	je	.LBB71_17
	movq	%rsi, %r8
	movl	%ebp, %r13d
	leaq	1(%r13), %r12
	leaq	2(,%r13,2), %rsi
	movl	$1, %eax
	.p2align	4
.LBB71_2:
	movq	%rax, %rcx
	leaq	(%rax,%rax,8), %rdi
	addq	%rax, %rax
	cmpq	%rsi, %rdi
	jb	.LBB71_2
	movb	$1, %al
	cmpq	$1024, %rdx
	jb	.LBB71_21
	imulq	$2848, %rcx, %rcx
	leaq	(%rcx,%r12,8), %rcx
	addq	$1280, %rcx
	cmpq	%rcx, %rdx
	jb	.LBB71_21
	cmpq	$1088, %rdx
	jb	.LBB71_21
	movq	%r10, 152(%rsp)
	movq	%r9, 160(%rsp)
	movq	%r8, 168(%rsp)
	movq	%r15, 72(%rsp)
	leaq	1024(%r14), %r15
	addq	$-1088, %rdx
	leaq	1088(%r14), %rax
	movq	$1, 1024(%r14)
	movq	%rdx, 1032(%r14)
	movq	%rax, 1040(%r14)
	xorps	%xmm0, %xmm0
	movaps	%xmm0, 80(%rsp)
	movq	$0, 96(%rsp)
	movaps	%xmm0, 688(%rsp)
	movaps	%xmm0, 672(%rsp)
	movaps	%xmm0, 656(%rsp)
	movaps	%xmm0, 640(%rsp)
	movaps	%xmm0, 624(%rsp)
	movaps	%xmm0, 608(%rsp)
	movaps	%xmm0, 432(%rsp)
	movaps	%xmm0, 416(%rsp)
	movaps	%xmm0, 400(%rsp)
	movaps	%xmm0, 48(%rsp)
	movaps	%xmm0, 32(%rsp)
	movaps	%xmm0, 16(%rsp)
	movaps	%xmm0, 448(%rsp)
	leaq	8(%rsp), %rax
	movq	%rax, 176(%rsp)
	movups	%xmm0, 184(%rsp)
	movq	%r15, 200(%rsp)
	movq	%rax, 208(%rsp)
	movups	%xmm0, 216(%rsp)
	movq	%r15, 232(%rsp)
	movq	%rax, 240(%rsp)
	movups	%xmm0, 248(%rsp)
	movq	%r15, 264(%rsp)
	movq	%rax, 272(%rsp)
	movups	%xmm0, 280(%rsp)
	movq	%r15, 296(%rsp)
	movq	$0, 304(%rsp)
	movabsq	$2611923443488327891, %rax
	movq	%rax, 312(%rsp)
	leaq	176(%rsp), %rdi
	callq	"indexmap::map::IndexMap::grow::<#4ad524c54542ea2c>"
	testb	%al, %al
	jne	.LBB71_10
	leaq	184(%rsp), %rax
	movq	176(%rsp), %rcx
	movups	(%rax), %xmm0
	movaps	%xmm0, 48(%rsp)
	movups	200(%rsp), %xmm1
	movups	32(%rax), %xmm0
	movaps	%xmm0, 32(%rsp)
	movups	232(%rsp), %xmm2
	movups	64(%rax), %xmm0
	movaps	%xmm0, 16(%rsp)
	movups	264(%rsp), %xmm3
	movups	96(%rax), %xmm0
	movaps	%xmm0, 448(%rsp)
	movq	296(%rsp), %r9
	movups	304(%rsp), %xmm0
	movzbl	1024(%r14), %edi
	movq	1032(%r14), %rax
	movq	1040(%r14), %rsi
	xorps	%xmm4, %xmm4
	movups	%xmm4, (%r15)
	movq	$0, 16(%r15)
	cmpb	$1, %dil
	jne	.LBB71_10
	leaq	(,%r12,8), %rdi
	addq	$15, %rdi
	andq	$-16, %rdi
	movq	%rax, %r8
	subq	%rdi, %r8
	jae	.LBB71_16
	movq	$1, 1024(%r14)
	movq	%rax, 1032(%r14)
	movq	%rsi, 1040(%r14)
.LBB71_10:
	movaps	80(%rsp), %xmm0
	movaps	%xmm0, 128(%rsp)
	movq	96(%rsp), %rax
	movq	%rax, 144(%rsp)
	movaps	688(%rsp), %xmm0
	movaps	%xmm0, 384(%rsp)
	movaps	672(%rsp), %xmm0
	movaps	%xmm0, 368(%rsp)
	movaps	656(%rsp), %xmm0
	movaps	%xmm0, 352(%rsp)
	movaps	640(%rsp), %xmm0
	movaps	%xmm0, 336(%rsp)
	movaps	624(%rsp), %xmm0
	movaps	%xmm0, 320(%rsp)
	xorps	%xmm0, %xmm0
	movl	$1, %eax
	xorl	%r10d, %r10d
	xorl	%edi, %edi
	xorl	%edx, %edx
	xorl	%ebx, %ebx
	xorl	%ecx, %ecx
	xorl	%r9d, %r9d
	xorl	%esi, %esi
	xorl	%r12d, %r12d
	xorl	%r15d, %r15d
	xorps	%xmm1, %xmm1
	xorps	%xmm2, %xmm2
	xorps	%xmm3, %xmm3
.LBB71_11:
	xorps	%xmm4, %xmm4
	movaps	%xmm4, 176(%rsp)
	movaps	%xmm4, 192(%rsp)
	movq	$0, 208(%rsp)
	movaps	%xmm4, 80(%rsp)
	movaps	%xmm4, 48(%rsp)
	movaps	%xmm4, 32(%rsp)
	movaps	%xmm4, 16(%rsp)
	testb	%dil, %dil
	je	.LBB71_13
	movq	144(%rsp), %r8
	movq	%r8, 192(%rsp)
	movaps	128(%rsp), %xmm4
	movaps	%xmm4, 176(%rsp)
	movaps	384(%rsp), %xmm4
	movups	%xmm4, 200(%rsp)
	movaps	368(%rsp), %xmm4
	movaps	%xmm4, 80(%rsp)
	movaps	352(%rsp), %xmm4
	movaps	%xmm4, 48(%rsp)
	movaps	336(%rsp), %xmm4
	movaps	%xmm4, 32(%rsp)
	movaps	320(%rsp), %xmm4
	movaps	%xmm4, 16(%rsp)
	jmp	.LBB71_14
.LBB71_13:
	movzbl	%al, %eax
	xorl	%ebx, %ebx
	xorl	%r10d, %r10d
	xorl	%ecx, %ecx
	xorl	%r9d, %r9d
	xorl	%esi, %esi
	xorl	%r12d, %r12d
	xorl	%r15d, %r15d
	xorps	%xmm0, %xmm0
	xorps	%xmm1, %xmm1
	xorps	%xmm2, %xmm2
	xorps	%xmm3, %xmm3
.LBB71_14:
	movq	208(%rsp), %r8
	movq	%r8, 528(%rsp)
	movaps	176(%rsp), %xmm4
	movaps	192(%rsp), %xmm5
	movaps	%xmm5, 512(%rsp)
	movaps	%xmm4, 496(%rsp)
	movaps	80(%rsp), %xmm4
	movaps	%xmm4, 592(%rsp)
	movaps	48(%rsp), %xmm4
	movaps	%xmm4, 576(%rsp)
	movaps	32(%rsp), %xmm4
	movaps	%xmm4, 560(%rsp)
	movaps	16(%rsp), %xmm4
	movaps	%xmm4, 544(%rsp)
	testb	%dil, %dil
	je	.LBB71_19
	movq	%rax, (%r14)
	movq	%rdx, 8(%r14)
	movq	%rbx, 16(%r14)
	movq	%r10, 24(%r14)
	movaps	496(%rsp), %xmm4
	movaps	512(%rsp), %xmm5
	movups	%xmm4, 32(%r14)
	movups	%xmm5, 48(%r14)
	movq	528(%rsp), %rax
	movq	%rax, 64(%r14)
	movq	%rcx, 72(%r14)
	movaps	592(%rsp), %xmm4
	movups	%xmm4, 80(%r14)
	movups	%xmm1, 96(%r14)
	movaps	576(%rsp), %xmm1
	movups	%xmm1, 112(%r14)
	movups	%xmm2, 128(%r14)
	movaps	560(%rsp), %xmm1
	movups	%xmm1, 144(%r14)
	movups	%xmm3, 160(%r14)
	movaps	544(%rsp), %xmm1
	movups	%xmm1, 176(%r14)
	movq	%r9, 192(%r14)
	movups	%xmm0, 200(%r14)
	movq	%rsi, 216(%r14)
	movq	$0, 224(%r14)
	movq	%r12, 232(%r14)
	movq	%r15, 240(%r14)
	xorps	%xmm0, %xmm0
	movups	%xmm0, 408(%r14)
	movups	%xmm0, 392(%r14)
	movups	%xmm0, 376(%r14)
	movups	%xmm0, 360(%r14)
	movups	%xmm0, 344(%r14)
	movups	%xmm0, 328(%r14)
	movups	%xmm0, 312(%r14)
	movups	%xmm0, 296(%r14)
	movups	%xmm0, 280(%r14)
	movups	%xmm0, 264(%r14)
	movups	%xmm0, 248(%r14)
	movq	$65, 424(%r14)
	movq	$65, 432(%r14)
	movups	%xmm0, 440(%r14)
	movq	168(%rsp), %rax
	movq	$1, (%rax)
	movq	%r14, 8(%rax)
	movaps	%xmm0, 112(%rsp)
	movq	72(%rsp), %r15
	jmp	.LBB71_23
.LBB71_16:
	andl	$-256, %r13d
	movzbl	%bpl, %eax
	orq	%r13, %rax
	addq	%rsi, %rdi
	movq	$1, 1024(%r14)
	movq	%r8, 1032(%r14)
	movq	%rdi, 1040(%r14)
	movaps	48(%rsp), %xmm4
	movaps	%xmm4, 608(%rsp)
	movaps	32(%rsp), %xmm5
	movaps	%xmm5, 432(%rsp)
	movaps	16(%rsp), %xmm5
	movaps	%xmm5, 416(%rsp)
	movaps	448(%rsp), %xmm5
	movaps	%xmm5, 400(%rsp)
	movaps	464(%rsp), %xmm5
	movaps	%xmm5, 128(%rsp)
	movq	480(%rsp), %rdi
	movq	%rdi, 144(%rsp)
	xorps	%xmm5, %xmm5
	movaps	%xmm5, 384(%rsp)
	movaps	%xmm4, 368(%rsp)
	movaps	432(%rsp), %xmm4
	movaps	%xmm4, 352(%rsp)
	movaps	416(%rsp), %xmm4
	movaps	%xmm4, 336(%rsp)
	movaps	400(%rsp), %xmm4
	movaps	%xmm4, 320(%rsp)
	movb	$1, %dil
	movq	160(%rsp), %rdx
	movq	152(%rsp), %r10
	jmp	.LBB71_11
.LBB71_17:
	xorl	%eax, %eax
.LBB71_21:
	xorl	%edx, %edx
	jmp	.LBB71_22
.LBB71_19:
	movq	72(%rsp), %r15
.LBB71_22:
	movzbl	%al, %esi
	leaq	112(%rsp), %rdi
	callq	"squitter_c::tracker_hear::fault_of_tracker"
.LBB71_23:
	movaps	112(%rsp), %xmm0
	movups	%xmm0, (%r15)
	addq	$712, %rsp
	popq	%rbx
	popq	%r12
	popq	%r13
	popq	%r14
	popq	%r15
	popq	%rbp
	retq
.Lfunc_end71:
	.size	"squitter_c::tracker_new::make", .Lfunc_end71-"squitter_c::tracker_new::make"

	.section	".text.indexmap::map::IndexMap::grow::<#4ad524c54542ea2c>","ax",@progbits
	.p2align	4
	.type	"indexmap::map::IndexMap::grow::<#4ad524c54542ea2c>",@function
"indexmap::map::IndexMap::grow::<#4ad524c54542ea2c>":
	pushq	%rbp
	pushq	%r15
	pushq	%r14
	pushq	%r13
	pushq	%r12
	pushq	%rbx
	subq	$40, %rsp
	movq	%rdi, %rbx
	movq	128(%rdi), %r12
	cmpq	%r12, %rsi
	jbe	.LBB72_3
	leaq	64(%rbx), %rdi
	callq	"indexmap::index_table::IndexTable::reserve_rehash::<#6813f35f51a2c4fa>"
	movl	%eax, %ecx
	movb	$1, %al
	testb	%cl, %cl
	jne	.LBB72_56
	movq	128(%rbx), %r12
.LBB72_3:
	movq	8(%rbx), %rcx
	movq	16(%rbx), %r8
	movq	%r8, %rax
	subq	%rcx, %rax
	cmpq	%rax, %r12
	jbe	.LBB72_31
	movq	%rcx, %r15
	movb	$1, %al
	addq	%r12, %r15
	jb	.LBB72_56
	movq	%r15, %rdx
	shrq	$61, %rdx
	jne	.LBB72_56
	movq	(%rbx), %rsi
	movq	24(%rbx), %rdx
	movzbl	(%rdx), %r9d
	movq	8(%rdx), %rdi
	movq	16(%rdx), %r14
	xorps	%xmm0, %xmm0
	movups	%xmm0, (%rdx)
	movq	$0, 16(%rdx)
	movb	$1, %bpl
	testq	%r8, %r8
	je	.LBB72_16
	cmpb	$1, %r9b
	jne	.LBB72_19
	leaq	(,%r15,4), %r9
	cmpq	$17, %r9
	movl	$16, %r8d
	cmovaeq	%r9, %r8
	addq	$15, %r8
	andq	$-16, %r8
	movq	%rdi, %r9
	subq	%r8, %r9
	jb	.LBB72_18
	addq	%r14, %r8
	movq	$1, (%rdx)
	movq	%r9, 8(%rdx)
	movq	%r8, 16(%rdx)
	xorl	%ebp, %ebp
	leaq	(,%rcx,4), %rdx
	movq	%r14, %rax
	subq	%rsi, %rax
	cmpq	%rdx, %rax
	jae	.LBB72_21
	testq	%rcx, %rcx
	je	.LBB72_22
	xorl	%edx, %edx
	cmpq	$8, %rcx
	jb	.LBB72_23
	cmpq	$32, %rax
	movb	$1, %al
	jb	.LBB72_24
	movq	%rcx, %rdx
	andq	$-8, %rdx
	xorl	%edi, %edi
.LBB72_14:
	movups	(%rsi,%rdi,4), %xmm0
	movups	16(%rsi,%rdi,4), %xmm1
	movups	%xmm0, (%r14,%rdi,4)
	movups	%xmm1, 16(%r14,%rdi,4)
	addq	$8, %rdi
	cmpq	%rdi, %rdx
	jne	.LBB72_14
	cmpq	%rdx, %rcx
	jne	.LBB72_24
	jmp	.LBB72_29
.LBB72_16:
	cmpb	$1, %r9b
	jne	.LBB72_19
	leaq	(,%r15,4), %rsi
	cmpq	$17, %rsi
	movl	$16, %ecx
	cmovaeq	%rsi, %rcx
	addq	$15, %rcx
	andq	$-16, %rcx
	movq	%rdi, %rsi
	subq	%rcx, %rsi
	jae	.LBB72_20
.LBB72_18:
	movq	$1, (%rdx)
	movq	%rdi, 8(%rdx)
	movq	%r14, 16(%rdx)
.LBB72_19:
	xorl	%r14d, %r14d
.LBB72_29:
	testb	%bpl, %bpl
	jne	.LBB72_56
	movq	%r14, (%rbx)
	movq	%r15, 16(%rbx)
.LBB72_31:
	movq	40(%rbx), %r13
	movq	48(%rbx), %r8
	movq	%r8, %rax
	subq	%r13, %rax
	cmpq	%rax, %r12
	jbe	.LBB72_55
	movb	$1, %al
	addq	%r13, %r12
	jb	.LBB72_56
	movabsq	$31160040665049918, %rcx
	cmpq	%rcx, %r12
	ja	.LBB72_56
	movq	32(%rbx), %rsi
	movq	56(%rbx), %rcx
	movzbl	(%rcx), %edi
	movq	8(%rcx), %rdx
	movq	16(%rcx), %r14
	xorps	%xmm0, %xmm0
	movups	%xmm0, (%rcx)
	movq	$0, 16(%rcx)
	movb	$1, %bpl
	testq	%r8, %r8
	je	.LBB72_41
	cmpb	$1, %dil
	jne	.LBB72_44
	imulq	$296, %r12, %r8
	cmpq	$17, %r8
	movl	$16, %edi
	cmovaeq	%r8, %rdi
	addq	$15, %rdi
	movabsq	$9223372036854775792, %r8
	andq	%rdi, %r8
	movq	%rdx, %rdi
	subq	%r8, %rdi
	jb	.LBB72_43
	addq	%r14, %r8
	movq	$1, (%rcx)
	movq	%rdi, 8(%rcx)
	movq	%r8, 16(%rcx)
	xorl	%ebp, %ebp
	imulq	$296, %r13, %rdx
	movq	%r14, %rax
	subq	%rsi, %rax
	cmpq	%rdx, %rax
	jae	.LBB72_46
	testq	%r13, %r13
	je	.LBB72_47
	movq	%rsi, 16(%rsp)
	movq	%r14, 8(%rsp)
	movl	%r13d, %eax
	andl	$7, %eax
	cmpq	$8, %r13
	jae	.LBB72_48
	xorl	%ecx, %ecx
	jmp	.LBB72_51
.LBB72_41:
	cmpb	$1, %dil
	jne	.LBB72_44
	imulq	$296, %r12, %rsi
	cmpq	$17, %rsi
	movl	$16, %edi
	cmovaeq	%rsi, %rdi
	addq	$15, %rdi
	movabsq	$9223372036854775792, %rsi
	andq	%rdi, %rsi
	movq	%rdx, %rdi
	subq	%rsi, %rdi
	jae	.LBB72_45
.LBB72_43:
	movq	$1, (%rcx)
	movq	%rdx, 8(%rcx)
	movq	%r14, 16(%rcx)
.LBB72_44:
	xorl	%r14d, %r14d
	testb	%bpl, %bpl
	jne	.LBB72_56
.LBB72_54:
	movq	%r14, 32(%rbx)
	movq	%r12, 48(%rbx)
.LBB72_55:
	xorl	%eax, %eax
.LBB72_56:
	addq	$40, %rsp
	popq	%rbx
	popq	%r12
	popq	%r13
	popq	%r14
	popq	%r15
	popq	%rbp
	retq
.LBB72_20:
	addq	%r14, %rcx
	movq	$1, (%rdx)
	movq	%rsi, 8(%rdx)
	movq	%rcx, 16(%rdx)
	xorl	%ebp, %ebp
	jmp	.LBB72_29
.LBB72_21:
	movq	%r14, %rdi
	callq	memmove@PLT
.LBB72_22:
	movb	$1, %al
	jmp	.LBB72_29
.LBB72_45:
	addq	%r14, %rsi
	movq	$1, (%rcx)
	movq	%rdi, 8(%rcx)
	movq	%rsi, 16(%rcx)
	xorl	%ebp, %ebp
	testb	%bpl, %bpl
	jne	.LBB72_56
	jmp	.LBB72_54
.LBB72_46:
	movq	%r14, %rdi
	callq	memmove@PLT
.LBB72_47:
	movb	$1, %al
	testb	%bpl, %bpl
	jne	.LBB72_56
	jmp	.LBB72_54
.LBB72_48:
	movq	%rax, 24(%rsp)
	andq	$-8, %r13
	xorl	%ecx, %ecx
	xorl	%r14d, %r14d
	movq	8(%rsp), %r15
	movq	16(%rsp), %rbp
.LBB72_49:
	movq	%rcx, 32(%rsp)
	leaq	(%r15,%r14), %rdi
	leaq	(%r14,%rbp), %rsi
	movl	$296, %edx
	callq	memmove@PLT
	leaq	(%r15,%r14), %rdi
	addq	$296, %rdi
	leaq	(%r14,%rbp), %rsi
	addq	$296, %rsi
	movl	$296, %edx
	callq	memmove@PLT
	leaq	(%r15,%r14), %rdi
	addq	$592, %rdi
	leaq	(%r14,%rbp), %rsi
	addq	$592, %rsi
	movl	$296, %edx
	callq	memmove@PLT
	leaq	(%r15,%r14), %rdi
	addq	$888, %rdi
	leaq	(%r14,%rbp), %rsi
	addq	$888, %rsi
	movl	$296, %edx
	callq	memmove@PLT
	leaq	(%r15,%r14), %rdi
	addq	$1184, %rdi
	leaq	(%r14,%rbp), %rsi
	addq	$1184, %rsi
	movl	$296, %edx
	callq	memmove@PLT
	leaq	(%r15,%r14), %rdi
	addq	$1480, %rdi
	leaq	(%r14,%rbp), %rsi
	addq	$1480, %rsi
	movl	$296, %edx
	callq	memmove@PLT
	leaq	(%r15,%r14), %rdi
	addq	$1776, %rdi
	leaq	(%r14,%rbp), %rsi
	addq	$1776, %rsi
	movl	$296, %edx
	callq	memmove@PLT
	leaq	(%r15,%r14), %rdi
	addq	$2072, %rdi
	leaq	(%r14,%rbp), %rsi
	addq	$2072, %rsi
	movl	$296, %edx
	callq	memmove@PLT
	movq	32(%rsp), %rcx
	addq	$8, %rcx
	addq	$2368, %r14
	cmpq	%rcx, %r13
	jne	.LBB72_49
	movq	24(%rsp), %rax
	testq	%rax, %rax
	movl	$0, %ebp
	je	.LBB72_57
.LBB72_51:
	imulq	$296, %rcx, %r14
	movq	16(%rsp), %r15
	addq	%r14, %r15
	addq	8(%rsp), %r14
	imulq	$296, %rax, %r13
	xorl	%ebp, %ebp
.LBB72_52:
	leaq	(%r14,%rbp), %rdi
	leaq	(%r15,%rbp), %rsi
	movl	$296, %edx
	callq	memmove@PLT
	addq	$296, %rbp
	cmpq	%rbp, %r13
	jne	.LBB72_52
	movb	$1, %al
	movq	8(%rsp), %r14
	xorl	%ebp, %ebp
	testb	%bpl, %bpl
	jne	.LBB72_56
	jmp	.LBB72_54
.LBB72_23:
	movb	$1, %al
.LBB72_24:
	movq	%rcx, %r8
	movq	%rdx, %rdi
	andq	$3, %r8
	je	.LBB72_27
	movq	%rdx, %rdi
.LBB72_26:
	movl	(%rsi,%rdi,4), %r9d
	movl	%r9d, (%r14,%rdi,4)
	incq	%rdi
	decq	%r8
	jne	.LBB72_26
.LBB72_27:
	subq	%rcx, %rdx
	cmpq	$-4, %rdx
	ja	.LBB72_29
.LBB72_28:
	movl	(%rsi,%rdi,4), %edx
	movl	%edx, (%r14,%rdi,4)
	movl	4(%rsi,%rdi,4), %edx
	movl	%edx, 4(%r14,%rdi,4)
	movl	8(%rsi,%rdi,4), %edx
	movl	%edx, 8(%r14,%rdi,4)
	movl	12(%rsi,%rdi,4), %edx
	movl	%edx, 12(%r14,%rdi,4)
	addq	$4, %rdi
	cmpq	%rdi, %rcx
	jne	.LBB72_28
	jmp	.LBB72_29
.LBB72_57:
	movb	$1, %al
	movq	8(%rsp), %r14
	testb	%bpl, %bpl
	jne	.LBB72_56
	jmp	.LBB72_54
.Lfunc_end72:
	.size	"indexmap::map::IndexMap::grow::<#4ad524c54542ea2c>", .Lfunc_end72-"indexmap::map::IndexMap::grow::<#4ad524c54542ea2c>"

	.section	".text.indexmap::index_table::IndexTable::reserve_rehash::<#6813f35f51a2c4fa>","ax",@progbits
	.p2align	4
	.type	"indexmap::index_table::IndexTable::reserve_rehash::<#6813f35f51a2c4fa>",@function
"indexmap::index_table::IndexTable::reserve_rehash::<#6813f35f51a2c4fa>":
	pushq	%rbp
	pushq	%r15
	pushq	%r14
	pushq	%r13
	pushq	%r12
	pushq	%rbx
	subq	$24, %rsp
	movl	$4294967295, %r15d
	movq	40(%rdi), %r13
	movl	$4294967295, %ecx
	subq	%r13, %rcx
	addq	$-1879048191, %rcx
	movb	$1, %al
	cmpq	%rsi, %rcx
	jb	.LBB73_53
	movq	8(%rdi), %rbp
	leaq	(,%rbp,8), %r14
	addq	%rbp, %r14
	addq	%r13, %rsi
	movq	%r14, %rcx
	shrq	%rcx
	cmpq	%rcx, %rsi
	seta	%cl
	cmpq	$268435456, %rbp
	setne	%dl
	testb	%cl, %dl
	jne	.LBB73_10
	movq	(%rdi), %rbx
	movq	32(%rdi), %r12
	testq	%rbp, %rbp
	je	.LBB73_4
	movq	%rbp, %rdx
	shlq	$6, %rdx
	movq	%rdi, %r15
	movq	%rbx, %rdi
	xorl	%esi, %esi
	callq	memset@PLT
	movq	%r15, %rdi
	movl	$4294967295, %r15d
.LBB73_4:
	testq	%r13, %r13
	je	.LBB73_24
	addq	%rbp, %r15
	decq	%rbp
	xorl	%eax, %eax
	jmp	.LBB73_7
	.p2align	4
.LBB73_6:
	rep		bsfl	%r10d, %r8d
	movb	%cl, (%r9,%r8)
	movl	%eax, 16(%r9,%r8,4)
	shll	$4, %esi
	orl	%r8d, %esi
	movl	%edx, (%r12,%rax,8)
	movl	%esi, 4(%r12,%rax,8)
	incq	%rax
	cmpq	%r13, %rax
	je	.LBB73_24
.LBB73_7:
	movl	(%r12,%rax,8), %edx
	movl	%r15d, %esi
	andl	%edx, %esi
	movl	%edx, %ecx
	shrl	$24, %ecx
	cmpb	$1, %cl
	adcl	$0, %ecx
	movl	$1, %r8d
	shll	%cl, %r8d
	.p2align	4
.LBB73_8:
	movq	%rsi, %r10
	shlq	$6, %r10
	leaq	(%rbx,%r10), %r9
	movdqu	(%rbx,%r10), %xmm0
	pxor	%xmm1, %xmm1
	pcmpeqb	%xmm0, %xmm1
	pmovmskb	%xmm1, %r10d
	andl	$4095, %r10d
	jne	.LBB73_6
	orl	%r8d, 12(%r9)
	incq	%rsi
	andq	%rbp, %rsi
	jmp	.LBB73_8
.LBB73_10:
	incq	%r14
	cmpq	%rsi, %r14
	cmovbeq	%rsi, %r14
	movl	$1, %ecx
	.p2align	4
.LBB73_11:
	movq	%rcx, %rbx
	leaq	(%rcx,%rcx,8), %r12
	addq	%rcx, %rcx
	cmpq	%r14, %r12
	jb	.LBB73_11
	movq	%r12, %r10
	subq	%r13, %r10
	movq	48(%rdi), %r8
	movq	%r8, %rcx
	subq	%r13, %rcx
	cmpq	%rcx, %r10
	jbe	.LBB73_34
	movq	%r13, %rcx
	notq	%rcx
	cmpq	%rcx, %r10
	seta	%cl
	movq	%r12, %rdx
	shrq	$60, %rdx
	setne	%dl
	orb	%cl, %dl
	jne	.LBB73_53
	movq	32(%rdi), %rsi
	movq	56(%rdi), %rcx
	movzbl	(%rcx), %r9d
	movq	8(%rcx), %rdx
	movq	16(%rcx), %r14
	pxor	%xmm0, %xmm0
	movdqu	%xmm0, (%rcx)
	movq	$0, 16(%rcx)
	movb	$1, %bpl
	testq	%r8, %r8
	je	.LBB73_25
	cmpb	$1, %r9b
	jne	.LBB73_28
	leaq	(,%rbx,8), %r8
	leaq	(%r8,%r8,8), %r9
	cmpq	$17, %r9
	movl	$16, %r8d
	cmovaeq	%r9, %r8
	addq	$15, %r8
	andq	$-16, %r8
	movq	%rdx, %r9
	subq	%r8, %r9
	jb	.LBB73_27
	movq	%r10, 8(%rsp)
	movq	%rdi, 16(%rsp)
	addq	%r14, %r8
	movq	$1, (%rcx)
	movq	%r9, 8(%rcx)
	movq	%r8, 16(%rcx)
	xorl	%ebp, %ebp
	leaq	(,%r13,8), %rdx
	movq	%r14, %rax
	subq	%rsi, %rax
	cmpq	%rdx, %rax
	jae	.LBB73_30
	testq	%r13, %r13
	je	.LBB73_31
	xorl	%ecx, %ecx
	cmpq	$4, %r13
	jb	.LBB73_69
	cmpq	$32, %rax
	movq	16(%rsp), %rdi
	movb	$1, %al
	movq	8(%rsp), %r10
	jb	.LBB73_70
	movq	%r13, %rcx
	andq	$-4, %rcx
	xorl	%edx, %edx
.LBB73_22:
	movdqu	(%rsi,%rdx,8), %xmm0
	movdqu	16(%rsi,%rdx,8), %xmm1
	movdqu	%xmm0, (%r14,%rdx,8)
	movdqu	%xmm1, 16(%r14,%rdx,8)
	addq	$4, %rdx
	cmpq	%rdx, %rcx
	jne	.LBB73_22
	cmpq	%rcx, %r13
	je	.LBB73_32
	jmp	.LBB73_70
.LBB73_24:
	subq	%r13, %r14
	movq	%r14, 64(%rdi)
	jmp	.LBB73_52
.LBB73_25:
	cmpb	$1, %r9b
	jne	.LBB73_28
	leaq	(,%rbx,8), %rsi
	leaq	(%rsi,%rsi,8), %r8
	cmpq	$17, %r8
	movl	$16, %esi
	cmovaeq	%r8, %rsi
	addq	$15, %rsi
	andq	$-16, %rsi
	movq	%rdx, %r8
	subq	%rsi, %r8
	jae	.LBB73_29
.LBB73_27:
	movq	$1, (%rcx)
	movq	%rdx, 8(%rcx)
	movq	%r14, 16(%rcx)
.LBB73_28:
	xorl	%r14d, %r14d
.LBB73_32:
	testb	%bpl, %bpl
	jne	.LBB73_53
	movq	%r14, 32(%rdi)
	movq	%r12, 48(%rdi)
	movq	8(%rdi), %rbp
.LBB73_34:
	xorl	%r13d, %r13d
	movq	%rbx, %rcx
	subq	%rbp, %rcx
	cmovaeq	%rcx, %r13
	movq	16(%rdi), %r8
	movq	%r8, %rcx
	subq	%rbp, %rcx
	cmpq	%rcx, %r13
	jbe	.LBB73_44
	addq	%rbp, %r13
	jb	.LBB73_53
	movq	%r13, %rcx
	shrq	$57, %rcx
	jne	.LBB73_53
	movq	(%rdi), %rsi
	movq	24(%rdi), %rcx
	movzbl	(%rcx), %r9d
	movq	8(%rcx), %rdx
	movq	16(%rcx), %r14
	pxor	%xmm0, %xmm0
	movdqu	%xmm0, (%rcx)
	movq	$0, 16(%rcx)
	movb	$1, %r12b
	testq	%r8, %r8
	je	.LBB73_60
	cmpb	$1, %r9b
	jne	.LBB73_63
	movq	%r13, %r9
	shlq	$6, %r9
	cmpq	$17, %r9
	movl	$16, %r8d
	cmovaeq	%r9, %r8
	movq	%rdx, %r9
	subq	%r8, %r9
	jb	.LBB73_62
	movq	%r10, 8(%rsp)
	movq	%rdi, 16(%rsp)
	addq	%r14, %r8
	movq	$1, (%rcx)
	movq	%r9, 8(%rcx)
	movq	%r8, 16(%rcx)
	xorl	%r12d, %r12d
	movq	%rbp, %rdx
	shlq	$6, %rdx
	movq	%r14, %rax
	subq	%rsi, %rax
	cmpq	%rdx, %rax
	jae	.LBB73_67
	testq	%rbp, %rbp
	je	.LBB73_68
	movl	%ebp, %ecx
	andl	$7, %ecx
	cmpq	$8, %rbp
	jae	.LBB73_75
	xorl	%edx, %edx
	movq	16(%rsp), %rdi
	movb	$1, %al
	movq	8(%rsp), %r10
	jmp	.LBB73_78
.LBB73_44:
	movq	%r8, %r13
	testq	%rbp, %rbp
	je	.LBB73_46
.LBB73_45:
	movq	$0, 8(%rdi)
.LBB73_46:
	movq	%r10, %rbp
	testq	%rbx, %rbx
	je	.LBB73_54
	cmpq	%r13, %rbx
	ja	.LBB73_64
	xorl	%eax, %eax
	leaq	(%rax,%rbx), %r12
	movq	(%rdi), %r14
	cmpq	%r12, %rax
	jae	.LBB73_50
.LBB73_49:
	shlq	$6, %rax
	addq	%r14, %rax
	shlq	$6, %rbx
	movq	%rdi, %r15
	movq	%rax, %rdi
	xorl	%esi, %esi
	movq	%rbx, %rdx
	callq	memset@PLT
	movq	%r15, %rdi
	movl	$4294967295, %r15d
.LBB73_50:
	movq	%r14, (%rdi)
	movq	%r12, 8(%rdi)
	movq	%r13, 16(%rdi)
	movq	40(%rdi), %rax
	testq	%rax, %rax
	jne	.LBB73_55
	jmp	.LBB73_51
.LBB73_54:
	movq	(%rdi), %r14
	xorl	%r12d, %r12d
	movq	40(%rdi), %rax
	testq	%rax, %rax
	je	.LBB73_51
.LBB73_55:
	movq	32(%rdi), %rdx
	addq	%r12, %r15
	decq	%r12
	xorl	%esi, %esi
	jmp	.LBB73_57
	.p2align	4
.LBB73_56:
	rep		bsfl	%ebx, %r10d
	movb	%cl, (%r11,%r10)
	movl	%esi, 16(%r11,%r10,4)
	shll	$4, %r9d
	orl	%r10d, %r9d
	movl	%r8d, (%rdx,%rsi,8)
	movl	%r9d, 4(%rdx,%rsi,8)
	incq	%rsi
	cmpq	%rax, %rsi
	je	.LBB73_51
.LBB73_57:
	movl	(%rdx,%rsi,8), %r8d
	movl	%r15d, %r9d
	andl	%r8d, %r9d
	movl	%r8d, %ecx
	shrl	$24, %ecx
	cmpb	$1, %cl
	adcl	$0, %ecx
	movl	$1, %r10d
	shll	%cl, %r10d
	.p2align	4
.LBB73_58:
	movq	%r9, %rbx
	shlq	$6, %rbx
	leaq	(%r14,%rbx), %r11
	movdqu	(%r14,%rbx), %xmm0
	pxor	%xmm1, %xmm1
	pcmpeqb	%xmm0, %xmm1
	pmovmskb	%xmm1, %ebx
	andl	$4095, %ebx
	jne	.LBB73_56
	orl	%r10d, 12(%r11)
	incq	%r9
	andq	%r12, %r9
	jmp	.LBB73_58
.LBB73_51:
	movq	%rbp, 64(%rdi)
.LBB73_52:
	xorl	%eax, %eax
.LBB73_53:
	addq	$24, %rsp
	popq	%rbx
	popq	%r12
	popq	%r13
	popq	%r14
	popq	%r15
	popq	%rbp
	retq
.LBB73_60:
	cmpb	$1, %r9b
	jne	.LBB73_63
	movq	%r13, %r8
	shlq	$6, %r8
	cmpq	$17, %r8
	movl	$16, %esi
	cmovaeq	%r8, %rsi
	movq	%rdx, %r8
	subq	%rsi, %r8
	jae	.LBB73_66
.LBB73_62:
	movq	$1, (%rcx)
	movq	%rdx, 8(%rcx)
	movq	%r14, 16(%rcx)
.LBB73_63:
	xorl	%r14d, %r14d
.LBB73_80:
	testb	%r12b, %r12b
	jne	.LBB73_53
	movq	%r14, (%rdi)
	movq	%r13, 16(%rdi)
	movq	8(%rdi), %rbp
	testq	%rbp, %rbp
	jne	.LBB73_45
	jmp	.LBB73_46
.LBB73_29:
	addq	%r14, %rsi
	movq	$1, (%rcx)
	movq	%r8, 8(%rcx)
	movq	%rsi, 16(%rcx)
	xorl	%ebp, %ebp
	jmp	.LBB73_32
.LBB73_30:
	movq	%r14, %rdi
	callq	memmove@PLT
.LBB73_31:
	movq	16(%rsp), %rdi
	movb	$1, %al
	movq	8(%rsp), %r10
	jmp	.LBB73_32
.LBB73_64:
	movq	%rdi, %r14
	movq	%rbx, %rsi
	callq	"std_alloc::vec::Vec::grow_amortized::<#9cb2eb1b073929cc>"
	testb	%al, %al
	je	.LBB73_82
	movq	%r14, %rdi
	movq	8(%r14), %rax
	movq	16(%r14), %r13
	leaq	(%rax,%rbx), %r12
	movq	(%rdi), %r14
	cmpq	%r12, %rax
	jb	.LBB73_49
	jmp	.LBB73_50
.LBB73_66:
	addq	%r14, %rsi
	movq	$1, (%rcx)
	movq	%r8, 8(%rcx)
	movq	%rsi, 16(%rcx)
	xorl	%r12d, %r12d
	jmp	.LBB73_80
.LBB73_67:
	movq	%r14, %rdi
	callq	memmove@PLT
.LBB73_68:
	movq	16(%rsp), %rdi
	movb	$1, %al
	movq	8(%rsp), %r10
	jmp	.LBB73_80
.LBB73_69:
	movq	16(%rsp), %rdi
	movb	$1, %al
	movq	8(%rsp), %r10
.LBB73_70:
	movq	%r13, %r8
	movq	%rcx, %rdx
	andq	$3, %r8
	je	.LBB73_73
	movq	%rcx, %rdx
.LBB73_72:
	movq	(%rsi,%rdx,8), %r9
	movq	%r9, (%r14,%rdx,8)
	incq	%rdx
	decq	%r8
	jne	.LBB73_72
.LBB73_73:
	subq	%r13, %rcx
	cmpq	$-4, %rcx
	ja	.LBB73_32
.LBB73_74:
	movq	(%rsi,%rdx,8), %rcx
	movq	%rcx, (%r14,%rdx,8)
	movq	8(%rsi,%rdx,8), %rcx
	movq	%rcx, 8(%r14,%rdx,8)
	movq	16(%rsi,%rdx,8), %rcx
	movq	%rcx, 16(%r14,%rdx,8)
	movq	24(%rsi,%rdx,8), %rcx
	movq	%rcx, 24(%r14,%rdx,8)
	addq	$4, %rdx
	cmpq	%rdx, %r13
	jne	.LBB73_74
	jmp	.LBB73_32
.LBB73_75:
	andq	$-8, %rbp
	movl	$448, %eax
	xorl	%edx, %edx
.LBB73_76:
	movups	-448(%rsi,%rax), %xmm0
	movups	-432(%rsi,%rax), %xmm1
	movups	-416(%rsi,%rax), %xmm2
	movups	-400(%rsi,%rax), %xmm3
	movups	%xmm3, -400(%r14,%rax)
	movups	%xmm2, -416(%r14,%rax)
	movups	%xmm1, -432(%r14,%rax)
	movups	%xmm0, -448(%r14,%rax)
	movups	-384(%rsi,%rax), %xmm0
	movups	-368(%rsi,%rax), %xmm1
	movups	-352(%rsi,%rax), %xmm2
	movups	-336(%rsi,%rax), %xmm3
	movups	%xmm3, -336(%r14,%rax)
	movups	%xmm2, -352(%r14,%rax)
	movups	%xmm1, -368(%r14,%rax)
	movups	%xmm0, -384(%r14,%rax)
	movups	-320(%rsi,%rax), %xmm0
	movups	-304(%rsi,%rax), %xmm1
	movups	-288(%rsi,%rax), %xmm2
	movups	-272(%rsi,%rax), %xmm3
	movups	%xmm3, -272(%r14,%rax)
	movups	%xmm2, -288(%r14,%rax)
	movups	%xmm1, -304(%r14,%rax)
	movups	%xmm0, -320(%r14,%rax)
	movups	-256(%rsi,%rax), %xmm0
	movups	-240(%rsi,%rax), %xmm1
	movups	-224(%rsi,%rax), %xmm2
	movups	-208(%rsi,%rax), %xmm3
	movups	%xmm3, -208(%r14,%rax)
	movups	%xmm2, -224(%r14,%rax)
	movups	%xmm1, -240(%r14,%rax)
	movups	%xmm0, -256(%r14,%rax)
	movups	-192(%rsi,%rax), %xmm0
	movups	-176(%rsi,%rax), %xmm1
	movups	-160(%rsi,%rax), %xmm2
	movups	-144(%rsi,%rax), %xmm3
	movups	%xmm3, -144(%r14,%rax)
	movups	%xmm2, -160(%r14,%rax)
	movups	%xmm1, -176(%r14,%rax)
	movups	%xmm0, -192(%r14,%rax)
	movups	-128(%rsi,%rax), %xmm0
	movups	-112(%rsi,%rax), %xmm1
	movups	-96(%rsi,%rax), %xmm2
	movups	-80(%rsi,%rax), %xmm3
	movups	%xmm3, -80(%r14,%rax)
	movups	%xmm2, -96(%r14,%rax)
	movups	%xmm1, -112(%r14,%rax)
	movups	%xmm0, -128(%r14,%rax)
	movups	-64(%rsi,%rax), %xmm0
	movups	-48(%rsi,%rax), %xmm1
	movups	-32(%rsi,%rax), %xmm2
	movups	-16(%rsi,%rax), %xmm3
	movups	%xmm3, -16(%r14,%rax)
	movups	%xmm2, -32(%r14,%rax)
	movups	%xmm1, -48(%r14,%rax)
	movups	%xmm0, -64(%r14,%rax)
	movdqu	(%rsi,%rax), %xmm0
	movdqu	16(%rsi,%rax), %xmm1
	movups	32(%rsi,%rax), %xmm2
	movups	48(%rsi,%rax), %xmm3
	movups	%xmm3, 48(%r14,%rax)
	movups	%xmm2, 32(%r14,%rax)
	movdqu	%xmm1, 16(%r14,%rax)
	movdqu	%xmm0, (%r14,%rax)
	addq	$8, %rdx
	addq	$512, %rax
	cmpq	%rdx, %rbp
	jne	.LBB73_76
	testq	%rcx, %rcx
	movq	16(%rsp), %rdi
	movb	$1, %al
	movq	8(%rsp), %r10
	je	.LBB73_80
.LBB73_78:
	shlq	$6, %rdx
	addq	%rdx, %rsi
	addq	%r14, %rdx
	shll	$6, %ecx
	xorl	%r8d, %r8d
.LBB73_79:
	movdqu	(%rsi,%r8), %xmm0
	movdqu	16(%rsi,%r8), %xmm1
	movups	32(%rsi,%r8), %xmm2
	movups	48(%rsi,%r8), %xmm3
	movups	%xmm3, 48(%rdx,%r8)
	movups	%xmm2, 32(%rdx,%r8)
	movdqu	%xmm1, 16(%rdx,%r8)
	movdqu	%xmm0, (%rdx,%r8)
	addq	$64, %r8
	cmpq	%r8, %rcx
	jne	.LBB73_79
	jmp	.LBB73_80
.LBB73_82:
	ud2
.Lfunc_end73:
	.size	"indexmap::index_table::IndexTable::reserve_rehash::<#6813f35f51a2c4fa>", .Lfunc_end73-"indexmap::index_table::IndexTable::reserve_rehash::<#6813f35f51a2c4fa>"

	.section	".text.unlikely.std_alloc::vec::Vec::grow_amortized::<#9cb2eb1b073929cc>","ax",@progbits
	.p2align	4
	.type	"std_alloc::vec::Vec::grow_amortized::<#9cb2eb1b073929cc>",@function
"std_alloc::vec::Vec::grow_amortized::<#9cb2eb1b073929cc>":
	movq	8(%rdi), %rax
	addq	%rax, %rsi
	jae	.LBB74_1
	xorl	%eax, %eax
	retq
.LBB74_1:
	pushq	%rbp
	pushq	%r15
	pushq	%r14
	pushq	%rbx
	pushq	%rax
	movq	16(%rdi), %r9
	cmpq	$5, %rsi
	movl	$4, %r14d
	cmovaeq	%rsi, %r14
	movq	%r9, %rcx
	shrq	$62, %rcx
	leaq	(%r9,%r9), %rdx
	cmpq	%rdx, %r14
	cmovaq	%r14, %rdx
	testq	%rcx, %rcx
	cmoveq	%rdx, %r14
	movq	%r14, %rcx
	shrq	$57, %rcx
	jne	.LBB74_22
	movq	(%rdi), %rsi
	movq	24(%rdi), %rcx
	movzbl	(%rcx), %r10d
	movq	8(%rcx), %r8
	movq	16(%rcx), %rbx
	xorps	%xmm0, %xmm0
	movups	%xmm0, (%rcx)
	movq	$0, 16(%rcx)
	movb	$1, %bpl
	testq	%r9, %r9
	je	.LBB74_9
	cmpb	$1, %r10b
	jne	.LBB74_12
	movq	%r14, %rdx
	shlq	$6, %rdx
	movq	%r8, %r9
	subq	%rdx, %r9
	jb	.LBB74_11
	movq	%rdi, %r15
	addq	%rbx, %rdx
	movq	$1, (%rcx)
	movq	%r9, 8(%rcx)
	movq	%rdx, 16(%rcx)
	xorl	%ebp, %ebp
	movq	%rax, %rdx
	shlq	$6, %rdx
	movq	%rbx, %rcx
	subq	%rsi, %rcx
	cmpq	%rdx, %rcx
	jae	.LBB74_14
	testq	%rax, %rax
	je	.LBB74_15
	movl	%eax, %ecx
	andl	$7, %ecx
	cmpq	$8, %rax
	jae	.LBB74_16
	xorl	%edx, %edx
	movq	%r15, %rdi
	jmp	.LBB74_19
.LBB74_9:
	cmpb	$1, %r10b
	jne	.LBB74_12
	shlq	$6, %rdx
	movq	%r8, %rax
	subq	%rdx, %rax
	jae	.LBB74_13
.LBB74_11:
	movq	$1, (%rcx)
	movq	%r8, 8(%rcx)
	movq	%rbx, 16(%rcx)
.LBB74_12:
	xorl	%ebx, %ebx
.LBB74_21:
	testb	%bpl, %bpl
	je	.LBB74_23
.LBB74_22:
	xorl	%eax, %eax
.LBB74_24:
	addq	$8, %rsp
	popq	%rbx
	popq	%r14
	popq	%r15
	popq	%rbp
	retq
.LBB74_23:
	movq	%rbx, (%rdi)
	movq	%r14, 16(%rdi)
	movb	$1, %al
	jmp	.LBB74_24
.LBB74_13:
	addq	%rbx, %rdx
	movq	$1, (%rcx)
	movq	%rax, 8(%rcx)
	movq	%rdx, 16(%rcx)
	xorl	%ebp, %ebp
	jmp	.LBB74_21
.LBB74_14:
	movq	%rbx, %rdi
	callq	memmove@PLT
.LBB74_15:
	movq	%r15, %rdi
	jmp	.LBB74_21
.LBB74_16:
	andq	$-8, %rax
	movl	$448, %edi
	xorl	%edx, %edx
.LBB74_17:
	movups	-448(%rsi,%rdi), %xmm0
	movups	-432(%rsi,%rdi), %xmm1
	movups	-416(%rsi,%rdi), %xmm2
	movups	-400(%rsi,%rdi), %xmm3
	movups	%xmm3, -400(%rbx,%rdi)
	movups	%xmm2, -416(%rbx,%rdi)
	movups	%xmm1, -432(%rbx,%rdi)
	movups	%xmm0, -448(%rbx,%rdi)
	movups	-384(%rsi,%rdi), %xmm0
	movups	-368(%rsi,%rdi), %xmm1
	movups	-352(%rsi,%rdi), %xmm2
	movups	-336(%rsi,%rdi), %xmm3
	movups	%xmm3, -336(%rbx,%rdi)
	movups	%xmm2, -352(%rbx,%rdi)
	movups	%xmm1, -368(%rbx,%rdi)
	movups	%xmm0, -384(%rbx,%rdi)
	movups	-320(%rsi,%rdi), %xmm0
	movups	-304(%rsi,%rdi), %xmm1
	movups	-288(%rsi,%rdi), %xmm2
	movups	-272(%rsi,%rdi), %xmm3
	movups	%xmm3, -272(%rbx,%rdi)
	movups	%xmm2, -288(%rbx,%rdi)
	movups	%xmm1, -304(%rbx,%rdi)
	movups	%xmm0, -320(%rbx,%rdi)
	movups	-256(%rsi,%rdi), %xmm0
	movups	-240(%rsi,%rdi), %xmm1
	movups	-224(%rsi,%rdi), %xmm2
	movups	-208(%rsi,%rdi), %xmm3
	movups	%xmm3, -208(%rbx,%rdi)
	movups	%xmm2, -224(%rbx,%rdi)
	movups	%xmm1, -240(%rbx,%rdi)
	movups	%xmm0, -256(%rbx,%rdi)
	movups	-192(%rsi,%rdi), %xmm0
	movups	-176(%rsi,%rdi), %xmm1
	movups	-160(%rsi,%rdi), %xmm2
	movups	-144(%rsi,%rdi), %xmm3
	movups	%xmm3, -144(%rbx,%rdi)
	movups	%xmm2, -160(%rbx,%rdi)
	movups	%xmm1, -176(%rbx,%rdi)
	movups	%xmm0, -192(%rbx,%rdi)
	movups	-128(%rsi,%rdi), %xmm0
	movups	-112(%rsi,%rdi), %xmm1
	movups	-96(%rsi,%rdi), %xmm2
	movups	-80(%rsi,%rdi), %xmm3
	movups	%xmm3, -80(%rbx,%rdi)
	movups	%xmm2, -96(%rbx,%rdi)
	movups	%xmm1, -112(%rbx,%rdi)
	movups	%xmm0, -128(%rbx,%rdi)
	movups	-64(%rsi,%rdi), %xmm0
	movups	-48(%rsi,%rdi), %xmm1
	movups	-32(%rsi,%rdi), %xmm2
	movups	-16(%rsi,%rdi), %xmm3
	movups	%xmm3, -16(%rbx,%rdi)
	movups	%xmm2, -32(%rbx,%rdi)
	movups	%xmm1, -48(%rbx,%rdi)
	movups	%xmm0, -64(%rbx,%rdi)
	movups	(%rsi,%rdi), %xmm0
	movups	16(%rsi,%rdi), %xmm1
	movups	32(%rsi,%rdi), %xmm2
	movups	48(%rsi,%rdi), %xmm3
	movups	%xmm3, 48(%rbx,%rdi)
	movups	%xmm2, 32(%rbx,%rdi)
	movups	%xmm1, 16(%rbx,%rdi)
	movups	%xmm0, (%rbx,%rdi)
	addq	$8, %rdx
	addq	$512, %rdi
	cmpq	%rdx, %rax
	jne	.LBB74_17
	testq	%rcx, %rcx
	movq	%r15, %rdi
	je	.LBB74_21
.LBB74_19:
	shlq	$6, %rdx
	addq	%rdx, %rsi
	addq	%rbx, %rdx
	shll	$6, %ecx
	xorl	%eax, %eax
	.p2align	4
.LBB74_20:
	movups	(%rsi,%rax), %xmm0
	movups	16(%rsi,%rax), %xmm1
	movups	32(%rsi,%rax), %xmm2
	movups	48(%rsi,%rax), %xmm3
	movups	%xmm3, 48(%rdx,%rax)
	movups	%xmm2, 32(%rdx,%rax)
	movups	%xmm1, 16(%rdx,%rax)
	movups	%xmm0, (%rdx,%rax)
	addq	$64, %rax
	cmpq	%rax, %rcx
	jne	.LBB74_20
	jmp	.LBB74_21
.Lfunc_end74:
	.size	"std_alloc::vec::Vec::grow_amortized::<#9cb2eb1b073929cc>", .Lfunc_end74-"std_alloc::vec::Vec::grow_amortized::<#9cb2eb1b073929cc>"

	.section	".text.unlikely.squitter_c::tracker_hear::fault_of_tracker","ax",@progbits
	.p2align	4
	.type	"squitter_c::tracker_hear::fault_of_tracker",@function
"squitter_c::tracker_hear::fault_of_tracker":
	movzbl	%sil, %eax
	leaq	.LJTI75_0(%rip), %rcx
	movslq	(%rcx,%rax,4), %rax
	addq	%rcx, %rax
	jmpq	*%rax
.LBB75_4:
	movl	$45, %eax
	jmp	.LBB75_5
.LBB75_1:
	movl	$42, %eax
	movl	%eax, (%rdi)
	movl	$0, 4(%rdi)
	movq	%rdx, 8(%rdi)
	retq
.LBB75_2:
	movl	$43, %eax
	jmp	.LBB75_5
.LBB75_3:
	movl	$44, %eax
.LBB75_5:
	xorl	%edx, %edx
	movl	%eax, (%rdi)
	movl	$0, 4(%rdi)
	movq	%rdx, 8(%rdi)
	retq
.Lfunc_end75:
	.size	"squitter_c::tracker_hear::fault_of_tracker", .Lfunc_end75-"squitter_c::tracker_hear::fault_of_tracker"
	.section	".rodata.unlikely.squitter_c::tracker_hear::fault_of_tracker","a",@progbits
	.p2align	2, 0x0
.LJTI75_0:
	.long	.LBB75_4-.LJTI75_0
	.long	.LBB75_3-.LJTI75_0
	.long	.LBB75_1-.LJTI75_0
	.long	.LBB75_2-.LJTI75_0

	.section	".text.squitter_c::entry::received_of","ax",@progbits
	.p2align	4
	.type	"squitter_c::entry::received_of",@function
"squitter_c::entry::received_of":
	pushq	%rbp
	pushq	%r15
	pushq	%r14
	pushq	%rbx
	movb	$0, -2(%rsp)
	movw	$0, -4(%rsp)
	movq	8(%rsi), %rax
	bswapq	%rax
	movq	%rax, %rcx
	shrq	$59, %rcx
	cmpl	$17, %ecx
	jne	.LBB76_1
	movq	%rax, %r8
	shlq	$48, %r8
	movl	18(%rsi), %ecx
	shlq	$32, %rcx
	movzbl	17(%rsi), %edx
	shll	$24, %edx
	orq	%rcx, %rdx
	movzbl	16(%rsi), %ecx
	shll	$16, %ecx
	orq	%rdx, %rcx
	bswapq	%rcx
	movq	%rax, %rbx
	shrq	$24, %rbx
	movq	%rax, %r10
	shrq	$54, %r10
	andl	$572, %r10d
	leaq	.Lstatic.44(%rip), %rdx
	movq	%rax, %r11
	shrq	$46, %r11
	andl	$1020, %r11d
	leaq	.Lstatic.45(%rip), %r9
	xorl	(%r10,%rdx), %ebx
	xorl	(%r11,%r9), %ebx
	movzbl	%bh, %ebp
	movzbl	%bl, %r11d
	shrl	$14, %ebx
	andl	$1020, %ebx
	leaq	.Lstatic.43(%rip), %r10
	movl	(%rbx,%r10), %ebx
	xorl	%eax, %ebx
	xorl	(%rdx,%rbp,4), %ebx
	orq	%rcx, %r8
	xorl	(%r9,%r11,4), %ebx
	movq	%r8, %r11
	movzbl	%bh, %ebp
	movzbl	%bl, %r14d
	movl	%ebx, %r15d
	shrl	$14, %r15d
	andl	$1020, %r15d
	movl	(%rdx,%rbp,4), %ebx
	xorl	(%r15,%r10), %ebx
	shrq	$24, %r11
	xorl	(%r9,%r14,4), %ebx
	xorl	%r11d, %ebx
	andl	$16777215, %ecx
	movzbl	%bh, %ebp
	movzbl	%bl, %r11d
	shrl	$14, %ebx
	andl	$1020, %ebx
	xorl	(%rdx,%rbp,4), %ecx
	xorl	(%r9,%r11,4), %ecx
	cmpl	%ecx, (%rbx,%r10)
	jne	.LBB76_1
	movq	%rax, %r14
	shrq	$16, %r14
	movq	%r14, %r10
	shldq	$40, %r8, %r10
	movq	%rax, %rdx
	shrq	$56, %rdx
	movq	%rax, %rcx
	shrq	$32, %rcx
	movabsq	$72057594037927935, %rbx
	andq	%r10, %rbx
	movq	%rbx, %r11
	shrq	$51, %r11
	movl	$2, %ebp
	cmpq	$5, %r11
	jae	.LBB76_5
.LBB76_4:
	xorl	%r9d, %r9d
	xorl	%eax, %eax
	jmp	.LBB76_11
.LBB76_1:
	xorl	%r9d, %r9d
	xorl	%ebx, %ebx
	xorl	%eax, %eax
	xorl	%ecx, %ecx
	xorl	%esi, %esi
	xorl	%r8d, %r8d
	xorl	%edx, %edx
	xorl	%ebp, %ebp
	jmp	.LBB76_12
.LBB76_5:
	cmpl	$8, %r11d
	ja	.LBB76_7
	movq	%r8, %r9
	shrq	$58, %r9
	andl	$1, %r9d
	movq	%r8, %rbx
	shrq	$41, %rbx
	andl	$131071, %ebx
	shldq	$28, %r8, %r14
	shrq	$27, %r8
	movabsq	$4294967296, %r15
	andq	%r8, %r15
	andl	$2130706432, %r14d
	movl	%eax, %r8d
	shrl	$3, %r8d
	andl	$65536, %r8d
	shrl	$12, %eax
	andl	$32512, %eax
	orl	%r8d, %eax
	orq	%r14, %rax
	orq	%r15, %rax
	orq	%r11, %rax
	andl	$131071, %r10d
	shlq	$32, %r10
	orq	%rbx, %r10
	movl	$1, %ebp
	jmp	.LBB76_10
.LBB76_7:
	cmpl	$19, %r11d
	jb	.LBB76_9
	cmpl	$19, %r11d
	setne	%r9b
	cmpl	$23, %r11d
	setb	%r15b
	andb	%r9b, %r15b
	cmpb	$1, %r15b
	jne	.LBB76_4
.LBB76_9:
	movq	%r8, %r9
	shrq	$58, %r9
	andl	$1, %r9d
	movq	%r8, %rbx
	shrq	$41, %rbx
	shldq	$36, %r8, %r14
	andl	$131071, %ebx
	shrq	$11, %r8
	movabsq	$281474976710656, %r15
	andq	%r8, %r15
	movabsq	$17587891077120, %r8
	andq	%r14, %r8
	movl	%eax, %ebp
	shrl	$8, %ebp
	andl	$65536, %ebp
	shrl	$17, %eax
	andl	$768, %eax
	orl	%ebp, %eax
	orq	%r8, %rax
	orq	%r15, %rax
	orq	%r11, %rax
	andl	$131071, %r10d
	shlq	$32, %r10
	orq	%rbx, %r10
	xorl	%ebp, %ebp
.LBB76_10:
	movq	%r10, %rbx
.LBB76_11:
	andb	$7, %dl
	andl	$16777215, %ecx
	movq	(%rsi), %r8
	movl	$1, %esi
.LBB76_12:
	movq	%rsi, (%rdi)
	movq	%r8, 8(%rdi)
	movb	%dl, 16(%rdi)
	movzwl	-4(%rsp), %edx
	movw	%dx, 17(%rdi)
	movzbl	-2(%rsp), %edx
	movb	%dl, 19(%rdi)
	movl	%ecx, 20(%rdi)
	movl	%ebp, 24(%rdi)
	movl	%r9d, 28(%rdi)
	movq	%rbx, 32(%rdi)
	movq	%rax, 40(%rdi)
	popq	%rbx
	popq	%r14
	popq	%r15
	popq	%rbp
	retq
.Lfunc_end76:
	.size	"squitter_c::entry::received_of", .Lfunc_end76-"squitter_c::entry::received_of"

	.section	".text.sq_track::contacts::Contacts::contains::<#bd73a11ec42be588>","ax",@progbits
	.p2align	4
	.type	"sq_track::contacts::Contacts::contains::<#bd73a11ec42be588>",@function
"sq_track::contacts::Contacts::contains::<#bd73a11ec42be588>":
	movq	72(%rdi), %r8
	testq	%r8, %r8
	je	.LBB77_1
	pushq	%rbx
	movq	(%rdi), %r9
	movq	64(%rdi), %r10
	movl	%esi, %ecx
	movq	%rcx, %rax
	shlq	$32, %rax
	orq	%rcx, %rax
	xorq	136(%rdi), %rax
	movabsq	$-7046029254386353123, %rcx
	mulq	%rcx
	xorq	%rax, %rdx
	movq	%rdx, %rdi
	shrq	$32, %rdi
	xorl	%edx, %edi
	movl	%edi, %ecx
	shrl	$24, %ecx
	cmpb	$1, %cl
	adcl	$0, %ecx
	movl	$4294967295, %eax
	addl	%r8d, %eax
	andl	%edi, %eax
	movd	%ecx, %xmm0
	punpcklbw	%xmm0, %xmm0
	movl	$1, %edx
	shll	%cl, %edx
	pshuflw	$0, %xmm0, %xmm0
	pshufd	$68, %xmm0, %xmm0
	decq	%r8
	movq	%rax, %rcx
.LBB77_4:
	movq	%rcx, %r11
	shlq	$6, %r11
	leaq	(%r10,%r11), %rdi
	movdqu	(%r10,%r11), %xmm1
	pcmpeqb	%xmm0, %xmm1
	pmovmskb	%xmm1, %r11d
	andl	$4095, %r11d
	je	.LBB77_9
	movzwl	%r11w, %r11d
	.p2align	4
.LBB77_6:
	rep		bsfl	%r11d, %ebx
	movl	16(%rdi,%rbx,4), %ebx
	cmpl	(%r9,%rbx,4), %esi
	je	.LBB77_7
	leal	-1(%r11), %ebx
	andl	%r11d, %ebx
	movl	%ebx, %r11d
	jne	.LBB77_6
.LBB77_9:
	testl	%edx, 12(%rdi)
	je	.LBB77_11
	incq	%rcx
	andq	%r8, %rcx
	cmpq	%rax, %rcx
	jne	.LBB77_4
.LBB77_11:
	xorl	%eax, %eax
	popq	%rbx
	retq
.LBB77_7:
	movb	$1, %al
	popq	%rbx
	retq
.LBB77_1:
	xorl	%eax, %eax
	retq
.Lfunc_end77:
	.size	"sq_track::contacts::Contacts::contains::<#bd73a11ec42be588>", .Lfunc_end77-"sq_track::contacts::Contacts::contains::<#bd73a11ec42be588>"

	.section	".text.sq_track::contacts::enter::<#bd73a11ec42be588>","ax",@progbits
	.p2align	4
	.type	"sq_track::contacts::enter::<#bd73a11ec42be588>",@function
"sq_track::contacts::enter::<#bd73a11ec42be588>":
	pushq	%rbp
	pushq	%r15
	pushq	%r14
	pushq	%r13
	pushq	%r12
	pushq	%rbx
	subq	$24, %rsp
	movl	%ecx, %ebp
	movq	%rsi, %r15
	movq	8(%rdi), %rbx
	movq	8(%rsi), %rax
	cmpq	%rax, 16(%rsi)
	je	.LBB78_1
.LBB78_4:
	movq	%rdx, 16(%rsp)
	movl	$4294967295, %r13d
	movq	(%r15), %rcx
	movl	%ebx, %edx
	movq	%rbx, %rsi
	shlq	$32, %rsi
	orq	%rdx, %rsi
	movq	%rsi, (%rcx,%rax,8)
	incq	%rax
	movq	%rax, 8(%r15)
	movl	%ebp, %ecx
	movq	%rcx, %rax
	shlq	$32, %rax
	orq	%rcx, %rax
	xorq	136(%rdi), %rax
	movabsq	$-7046029254386353123, %rcx
	mulq	%rcx
	xorq	%rax, %rdx
	movq	%rdx, %r12
	shrq	$32, %r12
	xorq	%rdx, %r12
	movq	8(%rdi), %rax
	movq	%rax, 8(%rsp)
	movq	64(%rdi), %rax
	movq	72(%rdi), %rdx
	testq	%rdx, %rdx
	je	.LBB78_12
	movq	(%rdi), %r8
	movl	%r12d, %ecx
	shrl	$24, %ecx
	cmpb	$1, %cl
	adcl	$0, %ecx
	leal	(%rdx,%r13), %r9d
	andl	%r12d, %r9d
	movd	%ecx, %xmm0
	punpcklbw	%xmm0, %xmm0
	movl	$1, %r10d
	shll	%cl, %r10d
	pshuflw	$0, %xmm0, %xmm0
	pshufd	$68, %xmm0, %xmm0
	movq	%r9, %r11
.LBB78_6:
	movq	%r11, %rcx
	shlq	$6, %rcx
	leaq	(%rax,%rcx), %r14
	movdqu	(%rax,%rcx), %xmm1
	pcmpeqb	%xmm0, %xmm1
	pmovmskb	%xmm1, %ecx
	andl	$4095, %ecx
	je	.LBB78_10
	movzwl	%cx, %ecx
	.p2align	4
.LBB78_8:
	rep		bsfl	%ecx, %esi
	movl	16(%r14,%rsi,4), %esi
	cmpl	(%r8,%rsi,4), %ebp
	je	.LBB78_26
	leal	-1(%rcx), %esi
	andl	%ecx, %esi
	movl	%esi, %ecx
	jne	.LBB78_8
.LBB78_10:
	testl	%r10d, 12(%r14)
	je	.LBB78_12
	incq	%r11
	leaq	-1(%rdx), %rcx
	andq	%rcx, %r11
	cmpq	%r9, %r11
	jne	.LBB78_6
.LBB78_12:
	movq	16(%rdi), %rcx
	movq	48(%rdi), %rsi
	cmpq	%rcx, %rsi
	cmovbq	%rsi, %rcx
	xorl	%esi, %esi
	subq	8(%rsp), %rcx
	cmovaeq	%rcx, %rsi
	movq	128(%rdi), %rcx
	cmpq	%rcx, %rsi
	cmovaeq	%rcx, %rsi
	testq	%rsi, %rsi
	je	.LBB78_13
.LBB78_15:
	movq	104(%rdi), %r8
	movl	%r12d, %esi
	addl	%edx, %r13d
	andl	%r12d, %r13d
	shrl	$24, %r12d
	cmpb	$1, %r12b
	adcl	$0, %r12d
	movl	$1, %r9d
	movl	%r12d, %ecx
	shll	%cl, %r9d
	decq	%rdx
	.p2align	4
.LBB78_16:
	movq	%r13, %r10
	shlq	$6, %r10
	leaq	(%rax,%r10), %rcx
	movdqu	(%rax,%r10), %xmm0
	pxor	%xmm1, %xmm1
	pcmpeqb	%xmm0, %xmm1
	pmovmskb	%xmm1, %r10d
	andl	$4095, %r10d
	jne	.LBB78_18
	orl	%r9d, 12(%rcx)
	incq	%r13
	andq	%rdx, %r13
	jmp	.LBB78_16
.LBB78_26:
	imulq	$296, %rsi, %rax
	addq	32(%rdi), %rax
	movl	$296, %edx
	movq	%rax, %rdi
	xorl	%esi, %esi
	callq	memset@PLT
	testl	%ebx, %ebx
	movq	16(%rsp), %rdi
	je	.LBB78_20
.LBB78_21:
	movl	(%rdi), %eax
	movq	(%r15), %rcx
	movl	(%rcx,%rax,8), %edx
	movl	%ebx, 4(%rcx,%rdx,8)
	movl	%ebx, %esi
	movl	%edx, (%rcx,%rsi,8)
	movl	%eax, 4(%rcx,%rsi,8)
	movl	%ebx, (%rcx,%rax,8)
	jmp	.LBB78_22
.LBB78_18:
	rep		bsfl	%r10d, %eax
	movb	%r12b, (%rcx,%rax)
	movl	%r8d, 16(%rcx,%rax,4)
	shll	$4, %r13d
	movq	96(%rdi), %rcx
	movq	104(%rdi), %rdx
	orl	%eax, %r13d
	shlq	$32, %r13
	orq	%rsi, %r13
	movq	%r13, (%rcx,%rdx,8)
	incq	%rdx
	movq	%rdx, 104(%rdi)
	decq	128(%rdi)
	movq	(%rdi), %rax
	movq	8(%rdi), %rcx
	movl	%ebp, (%rax,%rcx,4)
	incq	%rcx
	movq	%rcx, 8(%rdi)
	movq	40(%rdi), %r14
	imulq	$296, %r14, %rax
	addq	32(%rdi), %rax
	incq	%r14
	movl	$296, %edx
	movq	%rdi, %r12
	movq	%rax, %rdi
	xorl	%esi, %esi
	callq	memset@PLT
	movq	%r14, 40(%r12)
	testl	%ebx, %ebx
	movq	16(%rsp), %rdi
	jne	.LBB78_21
.LBB78_20:
	xorl	%eax, %eax
.LBB78_22:
	movl	%eax, (%rdi)
	xorl	%eax, %eax
.LBB78_25:
	movl	%ebx, %edx
	addq	$24, %rsp
	popq	%rbx
	popq	%r12
	popq	%r13
	popq	%r14
	popq	%r15
	popq	%rbp
	retq
.LBB78_13:
	movq	%rdi, %r14
	callq	"indexmap::map::IndexMap::grow::<#d5741e7a8f76bf3c>"
	testb	%al, %al
	je	.LBB78_14
	movq	8(%r15), %rcx
	movb	$1, %al
	xorl	%ebx, %ebx
	testq	%rcx, %rcx
	je	.LBB78_25
	decq	%rcx
	movq	%rcx, 8(%r15)
	jmp	.LBB78_25
.LBB78_14:
	movq	%r14, %rdi
	movq	64(%r14), %rax
	movq	72(%r14), %rdx
	jmp	.LBB78_15
.LBB78_1:
	movq	%rdx, %r12
	movq	%rdi, %r14
	movq	%r15, %rdi
	callq	"std_alloc::vec::Vec::grow_amortized::<#45893ff2f3c320db>"
	testb	%al, %al
	je	.LBB78_2
	movq	8(%r15), %rax
	movq	%r14, %rdi
	movq	%r12, %rdx
	jmp	.LBB78_4
.LBB78_2:
	movb	$1, %al
	xorl	%ebx, %ebx
	jmp	.LBB78_25
.Lfunc_end78:
	.size	"sq_track::contacts::enter::<#bd73a11ec42be588>", .Lfunc_end78-"sq_track::contacts::enter::<#bd73a11ec42be588>"

	.section	".text.unlikely.std_alloc::vec::Vec::grow_amortized::<#45893ff2f3c320db>","ax",@progbits
	.p2align	4
	.type	"std_alloc::vec::Vec::grow_amortized::<#45893ff2f3c320db>",@function
"std_alloc::vec::Vec::grow_amortized::<#45893ff2f3c320db>":
	movq	8(%rdi), %rax
	cmpq	$-1, %rax
	je	.LBB79_12
	pushq	%rbp
	pushq	%r15
	pushq	%r14
	pushq	%rbx
	pushq	%rax
	movq	16(%rdi), %r8
	cmpq	$4, %rax
	movl	$3, %r14d
	cmovaeq	%rax, %r14
	incq	%r14
	movq	%r8, %rcx
	shrq	$62, %rcx
	leaq	(%r8,%r8), %r9
	cmpq	%r9, %r14
	cmovaq	%r14, %r9
	testq	%rcx, %rcx
	cmoveq	%r9, %r14
	movq	%r14, %rcx
	shrq	$60, %rcx
	jne	.LBB79_27
	movq	(%rdi), %rsi
	movq	24(%rdi), %rcx
	movzbl	(%rcx), %r10d
	movq	8(%rcx), %rdx
	movq	16(%rcx), %rbx
	xorps	%xmm0, %xmm0
	movups	%xmm0, (%rcx)
	movq	$0, 16(%rcx)
	movb	$1, %bpl
	testq	%r8, %r8
	je	.LBB79_13
	cmpb	$1, %r10b
	jne	.LBB79_16
	leaq	15(,%r14,8), %r8
	andq	$-16, %r8
	movq	%rdx, %r9
	subq	%r8, %r9
	jb	.LBB79_15
	movq	%rdi, %r15
	addq	%rbx, %r8
	movq	$1, (%rcx)
	movq	%r9, 8(%rcx)
	movq	%r8, 16(%rcx)
	xorl	%ebp, %ebp
	leaq	(,%rax,8), %rdx
	movq	%rbx, %rdi
	subq	%rsi, %rdi
	cmpq	%rdx, %rdi
	jae	.LBB79_18
	testq	%rax, %rax
	je	.LBB79_19
	xorl	%ecx, %ecx
	cmpq	$4, %rax
	jb	.LBB79_20
	cmpq	$32, %rdi
	movq	%r15, %rdi
	jb	.LBB79_21
	movq	%rax, %rcx
	andq	$-4, %rcx
	xorl	%edx, %edx
	.p2align	4
.LBB79_10:
	movups	(%rsi,%rdx,8), %xmm0
	movups	16(%rsi,%rdx,8), %xmm1
	movups	%xmm0, (%rbx,%rdx,8)
	movups	%xmm1, 16(%rbx,%rdx,8)
	addq	$4, %rdx
	cmpq	%rdx, %rcx
	jne	.LBB79_10
	cmpq	%rcx, %rax
	jne	.LBB79_21
	jmp	.LBB79_26
.LBB79_12:
	xorl	%eax, %eax
	retq
.LBB79_13:
	cmpb	$1, %r10b
	jne	.LBB79_16
	leaq	15(,%r9,8), %rax
	andq	$-16, %rax
	movq	%rdx, %rsi
	subq	%rax, %rsi
	jae	.LBB79_17
.LBB79_15:
	movq	$1, (%rcx)
	movq	%rdx, 8(%rcx)
	movq	%rbx, 16(%rcx)
.LBB79_16:
	xorl	%ebx, %ebx
.LBB79_26:
	testb	%bpl, %bpl
	je	.LBB79_28
.LBB79_27:
	xorl	%eax, %eax
.LBB79_29:
	addq	$8, %rsp
	popq	%rbx
	popq	%r14
	popq	%r15
	popq	%rbp
	retq
.LBB79_28:
	movq	%rbx, (%rdi)
	movq	%r14, 16(%rdi)
	movb	$1, %al
	jmp	.LBB79_29
.LBB79_17:
	addq	%rbx, %rax
	movq	$1, (%rcx)
	movq	%rsi, 8(%rcx)
	movq	%rax, 16(%rcx)
	xorl	%ebp, %ebp
	jmp	.LBB79_26
.LBB79_18:
	movq	%rbx, %rdi
	callq	memmove@PLT
.LBB79_19:
	movq	%r15, %rdi
	jmp	.LBB79_26
.LBB79_20:
	movq	%r15, %rdi
.LBB79_21:
	movq	%rax, %r8
	movq	%rcx, %rdx
	andq	$3, %r8
	je	.LBB79_24
	movq	%rcx, %rdx
	.p2align	4
.LBB79_23:
	movq	(%rsi,%rdx,8), %r9
	movq	%r9, (%rbx,%rdx,8)
	incq	%rdx
	decq	%r8
	jne	.LBB79_23
.LBB79_24:
	subq	%rax, %rcx
	cmpq	$-4, %rcx
	ja	.LBB79_26
.LBB79_25:
	movq	(%rsi,%rdx,8), %rcx
	movq	%rcx, (%rbx,%rdx,8)
	movq	8(%rsi,%rdx,8), %rcx
	movq	%rcx, 8(%rbx,%rdx,8)
	movq	16(%rsi,%rdx,8), %rcx
	movq	%rcx, 16(%rbx,%rdx,8)
	movq	24(%rsi,%rdx,8), %rcx
	movq	%rcx, 24(%rbx,%rdx,8)
	addq	$4, %rdx
	cmpq	%rdx, %rax
	jne	.LBB79_25
	jmp	.LBB79_26
.Lfunc_end79:
	.size	"std_alloc::vec::Vec::grow_amortized::<#45893ff2f3c320db>", .Lfunc_end79-"std_alloc::vec::Vec::grow_amortized::<#45893ff2f3c320db>"

	.section	".text.indexmap::map::IndexMap::grow::<#d5741e7a8f76bf3c>","ax",@progbits
	.p2align	4
	.type	"indexmap::map::IndexMap::grow::<#d5741e7a8f76bf3c>",@function
"indexmap::map::IndexMap::grow::<#d5741e7a8f76bf3c>":
	pushq	%rbp
	pushq	%r15
	pushq	%r14
	pushq	%r13
	pushq	%r12
	pushq	%rbx
	subq	$40, %rsp
	movq	%rdi, %rbx
	movq	128(%rdi), %r12
	testq	%r12, %r12
	jne	.LBB80_3
	leaq	64(%rbx), %rdi
	callq	"indexmap::index_table::IndexTable::reserve_rehash::<#bd73a11ec42be588>"
	movl	%eax, %ecx
	movb	$1, %al
	testb	%cl, %cl
	jne	.LBB80_56
	movq	128(%rbx), %r12
.LBB80_3:
	movq	8(%rbx), %rcx
	movq	16(%rbx), %r8
	movq	%r8, %rax
	subq	%rcx, %rax
	cmpq	%rax, %r12
	jbe	.LBB80_31
	movq	%rcx, %r15
	movb	$1, %al
	addq	%r12, %r15
	jb	.LBB80_56
	movq	%r15, %rdx
	shrq	$61, %rdx
	jne	.LBB80_56
	movq	(%rbx), %rsi
	movq	24(%rbx), %rdx
	movzbl	(%rdx), %r9d
	movq	8(%rdx), %rdi
	movq	16(%rdx), %r14
	xorps	%xmm0, %xmm0
	movups	%xmm0, (%rdx)
	movq	$0, 16(%rdx)
	movb	$1, %bpl
	testq	%r8, %r8
	je	.LBB80_16
	cmpb	$1, %r9b
	jne	.LBB80_19
	leaq	(,%r15,4), %r9
	cmpq	$17, %r9
	movl	$16, %r8d
	cmovaeq	%r9, %r8
	addq	$15, %r8
	andq	$-16, %r8
	movq	%rdi, %r9
	subq	%r8, %r9
	jb	.LBB80_18
	addq	%r14, %r8
	movq	$1, (%rdx)
	movq	%r9, 8(%rdx)
	movq	%r8, 16(%rdx)
	xorl	%ebp, %ebp
	leaq	(,%rcx,4), %rdx
	movq	%r14, %rax
	subq	%rsi, %rax
	cmpq	%rdx, %rax
	jae	.LBB80_21
	testq	%rcx, %rcx
	je	.LBB80_22
	xorl	%edx, %edx
	cmpq	$8, %rcx
	jb	.LBB80_23
	cmpq	$32, %rax
	movb	$1, %al
	jb	.LBB80_24
	movq	%rcx, %rdx
	andq	$-8, %rdx
	xorl	%edi, %edi
.LBB80_14:
	movups	(%rsi,%rdi,4), %xmm0
	movups	16(%rsi,%rdi,4), %xmm1
	movups	%xmm0, (%r14,%rdi,4)
	movups	%xmm1, 16(%r14,%rdi,4)
	addq	$8, %rdi
	cmpq	%rdi, %rdx
	jne	.LBB80_14
	cmpq	%rdx, %rcx
	jne	.LBB80_24
	jmp	.LBB80_29
.LBB80_16:
	cmpb	$1, %r9b
	jne	.LBB80_19
	leaq	(,%r15,4), %rsi
	cmpq	$17, %rsi
	movl	$16, %ecx
	cmovaeq	%rsi, %rcx
	addq	$15, %rcx
	andq	$-16, %rcx
	movq	%rdi, %rsi
	subq	%rcx, %rsi
	jae	.LBB80_20
.LBB80_18:
	movq	$1, (%rdx)
	movq	%rdi, 8(%rdx)
	movq	%r14, 16(%rdx)
.LBB80_19:
	xorl	%r14d, %r14d
.LBB80_29:
	testb	%bpl, %bpl
	jne	.LBB80_56
	movq	%r14, (%rbx)
	movq	%r15, 16(%rbx)
.LBB80_31:
	movq	40(%rbx), %r13
	movq	48(%rbx), %r8
	movq	%r8, %rax
	subq	%r13, %rax
	cmpq	%rax, %r12
	jbe	.LBB80_55
	movb	$1, %al
	addq	%r13, %r12
	jb	.LBB80_56
	movabsq	$31160040665049918, %rcx
	cmpq	%rcx, %r12
	ja	.LBB80_56
	movq	32(%rbx), %rsi
	movq	56(%rbx), %rcx
	movzbl	(%rcx), %edi
	movq	8(%rcx), %rdx
	movq	16(%rcx), %r14
	xorps	%xmm0, %xmm0
	movups	%xmm0, (%rcx)
	movq	$0, 16(%rcx)
	movb	$1, %bpl
	testq	%r8, %r8
	je	.LBB80_41
	cmpb	$1, %dil
	jne	.LBB80_44
	imulq	$296, %r12, %r8
	cmpq	$17, %r8
	movl	$16, %edi
	cmovaeq	%r8, %rdi
	addq	$15, %rdi
	movabsq	$9223372036854775792, %r8
	andq	%rdi, %r8
	movq	%rdx, %rdi
	subq	%r8, %rdi
	jb	.LBB80_43
	addq	%r14, %r8
	movq	$1, (%rcx)
	movq	%rdi, 8(%rcx)
	movq	%r8, 16(%rcx)
	xorl	%ebp, %ebp
	imulq	$296, %r13, %rdx
	movq	%r14, %rax
	subq	%rsi, %rax
	cmpq	%rdx, %rax
	jae	.LBB80_46
	testq	%r13, %r13
	je	.LBB80_47
	movq	%rsi, 16(%rsp)
	movq	%r14, 8(%rsp)
	movl	%r13d, %eax
	andl	$7, %eax
	cmpq	$8, %r13
	jae	.LBB80_48
	xorl	%ecx, %ecx
	jmp	.LBB80_51
.LBB80_41:
	cmpb	$1, %dil
	jne	.LBB80_44
	imulq	$296, %r12, %rsi
	cmpq	$17, %rsi
	movl	$16, %edi
	cmovaeq	%rsi, %rdi
	addq	$15, %rdi
	movabsq	$9223372036854775792, %rsi
	andq	%rdi, %rsi
	movq	%rdx, %rdi
	subq	%rsi, %rdi
	jae	.LBB80_45
.LBB80_43:
	movq	$1, (%rcx)
	movq	%rdx, 8(%rcx)
	movq	%r14, 16(%rcx)
.LBB80_44:
	xorl	%r14d, %r14d
	testb	%bpl, %bpl
	jne	.LBB80_56
.LBB80_54:
	movq	%r14, 32(%rbx)
	movq	%r12, 48(%rbx)
.LBB80_55:
	xorl	%eax, %eax
.LBB80_56:
	addq	$40, %rsp
	popq	%rbx
	popq	%r12
	popq	%r13
	popq	%r14
	popq	%r15
	popq	%rbp
	retq
.LBB80_20:
	addq	%r14, %rcx
	movq	$1, (%rdx)
	movq	%rsi, 8(%rdx)
	movq	%rcx, 16(%rdx)
	xorl	%ebp, %ebp
	jmp	.LBB80_29
.LBB80_21:
	movq	%r14, %rdi
	callq	memmove@PLT
.LBB80_22:
	movb	$1, %al
	jmp	.LBB80_29
.LBB80_45:
	addq	%r14, %rsi
	movq	$1, (%rcx)
	movq	%rdi, 8(%rcx)
	movq	%rsi, 16(%rcx)
	xorl	%ebp, %ebp
	testb	%bpl, %bpl
	jne	.LBB80_56
	jmp	.LBB80_54
.LBB80_46:
	movq	%r14, %rdi
	callq	memmove@PLT
.LBB80_47:
	movb	$1, %al
	testb	%bpl, %bpl
	jne	.LBB80_56
	jmp	.LBB80_54
.LBB80_48:
	movq	%rax, 24(%rsp)
	andq	$-8, %r13
	xorl	%ecx, %ecx
	xorl	%r14d, %r14d
	movq	8(%rsp), %r15
	movq	16(%rsp), %rbp
.LBB80_49:
	movq	%rcx, 32(%rsp)
	leaq	(%r15,%r14), %rdi
	leaq	(%r14,%rbp), %rsi
	movl	$296, %edx
	callq	memmove@PLT
	leaq	(%r15,%r14), %rdi
	addq	$296, %rdi
	leaq	(%r14,%rbp), %rsi
	addq	$296, %rsi
	movl	$296, %edx
	callq	memmove@PLT
	leaq	(%r15,%r14), %rdi
	addq	$592, %rdi
	leaq	(%r14,%rbp), %rsi
	addq	$592, %rsi
	movl	$296, %edx
	callq	memmove@PLT
	leaq	(%r15,%r14), %rdi
	addq	$888, %rdi
	leaq	(%r14,%rbp), %rsi
	addq	$888, %rsi
	movl	$296, %edx
	callq	memmove@PLT
	leaq	(%r15,%r14), %rdi
	addq	$1184, %rdi
	leaq	(%r14,%rbp), %rsi
	addq	$1184, %rsi
	movl	$296, %edx
	callq	memmove@PLT
	leaq	(%r15,%r14), %rdi
	addq	$1480, %rdi
	leaq	(%r14,%rbp), %rsi
	addq	$1480, %rsi
	movl	$296, %edx
	callq	memmove@PLT
	leaq	(%r15,%r14), %rdi
	addq	$1776, %rdi
	leaq	(%r14,%rbp), %rsi
	addq	$1776, %rsi
	movl	$296, %edx
	callq	memmove@PLT
	leaq	(%r15,%r14), %rdi
	addq	$2072, %rdi
	leaq	(%r14,%rbp), %rsi
	addq	$2072, %rsi
	movl	$296, %edx
	callq	memmove@PLT
	movq	32(%rsp), %rcx
	addq	$8, %rcx
	addq	$2368, %r14
	cmpq	%rcx, %r13
	jne	.LBB80_49
	movq	24(%rsp), %rax
	testq	%rax, %rax
	movl	$0, %ebp
	je	.LBB80_57
.LBB80_51:
	imulq	$296, %rcx, %r14
	movq	16(%rsp), %r15
	addq	%r14, %r15
	addq	8(%rsp), %r14
	imulq	$296, %rax, %r13
	xorl	%ebp, %ebp
.LBB80_52:
	leaq	(%r14,%rbp), %rdi
	leaq	(%r15,%rbp), %rsi
	movl	$296, %edx
	callq	memmove@PLT
	addq	$296, %rbp
	cmpq	%rbp, %r13
	jne	.LBB80_52
	movb	$1, %al
	movq	8(%rsp), %r14
	xorl	%ebp, %ebp
	testb	%bpl, %bpl
	jne	.LBB80_56
	jmp	.LBB80_54
.LBB80_23:
	movb	$1, %al
.LBB80_24:
	movq	%rcx, %r8
	movq	%rdx, %rdi
	andq	$3, %r8
	je	.LBB80_27
	movq	%rdx, %rdi
.LBB80_26:
	movl	(%rsi,%rdi,4), %r9d
	movl	%r9d, (%r14,%rdi,4)
	incq	%rdi
	decq	%r8
	jne	.LBB80_26
.LBB80_27:
	subq	%rcx, %rdx
	cmpq	$-4, %rdx
	ja	.LBB80_29
.LBB80_28:
	movl	(%rsi,%rdi,4), %edx
	movl	%edx, (%r14,%rdi,4)
	movl	4(%rsi,%rdi,4), %edx
	movl	%edx, 4(%r14,%rdi,4)
	movl	8(%rsi,%rdi,4), %edx
	movl	%edx, 8(%r14,%rdi,4)
	movl	12(%rsi,%rdi,4), %edx
	movl	%edx, 12(%r14,%rdi,4)
	addq	$4, %rdi
	cmpq	%rdi, %rcx
	jne	.LBB80_28
	jmp	.LBB80_29
.LBB80_57:
	movb	$1, %al
	movq	8(%rsp), %r14
	testb	%bpl, %bpl
	jne	.LBB80_56
	jmp	.LBB80_54
.Lfunc_end80:
	.size	"indexmap::map::IndexMap::grow::<#d5741e7a8f76bf3c>", .Lfunc_end80-"indexmap::map::IndexMap::grow::<#d5741e7a8f76bf3c>"

	.section	".text.indexmap::index_table::IndexTable::reserve_rehash::<#bd73a11ec42be588>","ax",@progbits
	.p2align	4
	.type	"indexmap::index_table::IndexTable::reserve_rehash::<#bd73a11ec42be588>",@function
"indexmap::index_table::IndexTable::reserve_rehash::<#bd73a11ec42be588>":
	pushq	%rbp
	pushq	%r15
	pushq	%r14
	pushq	%r13
	pushq	%r12
	pushq	%rbx
	subq	$24, %rsp
	movl	$4294967295, %r15d
	movq	40(%rdi), %r13
	leaq	-1879048191(%r15), %rcx
	movb	$1, %al
	cmpq	%rcx, %r13
	je	.LBB81_53
	movq	8(%rdi), %rbp
	leaq	(,%rbp,8), %r14
	addq	%rbp, %r14
	leaq	1(%r13), %rcx
	movq	%r14, %rdx
	shrq	%rdx
	cmpq	%rdx, %rcx
	seta	%dl
	cmpq	$268435456, %rbp
	setne	%sil
	testb	%dl, %sil
	jne	.LBB81_10
	movq	(%rdi), %rbx
	movq	32(%rdi), %r12
	testq	%rbp, %rbp
	je	.LBB81_4
	movq	%rbp, %rdx
	shlq	$6, %rdx
	movq	%rdi, %r15
	movq	%rbx, %rdi
	xorl	%esi, %esi
	callq	memset@PLT
	movq	%r15, %rdi
	movl	$4294967295, %r15d
.LBB81_4:
	testq	%r13, %r13
	je	.LBB81_24
	addq	%rbp, %r15
	decq	%rbp
	xorl	%eax, %eax
	jmp	.LBB81_7
	.p2align	4
.LBB81_6:
	rep		bsfl	%r10d, %r8d
	movb	%cl, (%r9,%r8)
	movl	%eax, 16(%r9,%r8,4)
	shll	$4, %esi
	orl	%r8d, %esi
	movl	%edx, (%r12,%rax,8)
	movl	%esi, 4(%r12,%rax,8)
	incq	%rax
	cmpq	%r13, %rax
	je	.LBB81_24
.LBB81_7:
	movl	(%r12,%rax,8), %edx
	movl	%r15d, %esi
	andl	%edx, %esi
	movl	%edx, %ecx
	shrl	$24, %ecx
	cmpb	$1, %cl
	adcl	$0, %ecx
	movl	$1, %r8d
	shll	%cl, %r8d
	.p2align	4
.LBB81_8:
	movq	%rsi, %r10
	shlq	$6, %r10
	leaq	(%rbx,%r10), %r9
	movdqu	(%rbx,%r10), %xmm0
	pxor	%xmm1, %xmm1
	pcmpeqb	%xmm0, %xmm1
	pmovmskb	%xmm1, %r10d
	andl	$4095, %r10d
	jne	.LBB81_6
	orl	%r8d, 12(%r9)
	incq	%rsi
	andq	%rbp, %rsi
	jmp	.LBB81_8
.LBB81_10:
	incq	%r14
	cmpq	%rcx, %r14
	cmovbeq	%rcx, %r14
	movl	$1, %ecx
	.p2align	4
.LBB81_11:
	movq	%rcx, %rbx
	leaq	(%rcx,%rcx,8), %r12
	addq	%rcx, %rcx
	cmpq	%r14, %r12
	jb	.LBB81_11
	movq	%r12, %r10
	subq	%r13, %r10
	movq	48(%rdi), %r8
	movq	%r8, %rcx
	subq	%r13, %rcx
	cmpq	%rcx, %r10
	jbe	.LBB81_34
	movq	%r13, %rcx
	notq	%rcx
	cmpq	%rcx, %r10
	seta	%cl
	movq	%r12, %rdx
	shrq	$60, %rdx
	setne	%dl
	orb	%cl, %dl
	jne	.LBB81_53
	movq	32(%rdi), %rsi
	movq	56(%rdi), %rcx
	movzbl	(%rcx), %r9d
	movq	8(%rcx), %rdx
	movq	16(%rcx), %r14
	pxor	%xmm0, %xmm0
	movdqu	%xmm0, (%rcx)
	movq	$0, 16(%rcx)
	movb	$1, %bpl
	testq	%r8, %r8
	je	.LBB81_25
	cmpb	$1, %r9b
	jne	.LBB81_28
	leaq	(,%rbx,8), %r8
	leaq	(%r8,%r8,8), %r9
	cmpq	$17, %r9
	movl	$16, %r8d
	cmovaeq	%r9, %r8
	addq	$15, %r8
	andq	$-16, %r8
	movq	%rdx, %r9
	subq	%r8, %r9
	jb	.LBB81_27
	movq	%r10, 8(%rsp)
	movq	%rdi, 16(%rsp)
	addq	%r14, %r8
	movq	$1, (%rcx)
	movq	%r9, 8(%rcx)
	movq	%r8, 16(%rcx)
	xorl	%ebp, %ebp
	leaq	(,%r13,8), %rdx
	movq	%r14, %rax
	subq	%rsi, %rax
	cmpq	%rdx, %rax
	jae	.LBB81_30
	testq	%r13, %r13
	je	.LBB81_31
	xorl	%ecx, %ecx
	cmpq	$4, %r13
	jb	.LBB81_69
	cmpq	$32, %rax
	movq	16(%rsp), %rdi
	movb	$1, %al
	movq	8(%rsp), %r10
	jb	.LBB81_70
	movq	%r13, %rcx
	andq	$-4, %rcx
	xorl	%edx, %edx
.LBB81_22:
	movdqu	(%rsi,%rdx,8), %xmm0
	movdqu	16(%rsi,%rdx,8), %xmm1
	movdqu	%xmm0, (%r14,%rdx,8)
	movdqu	%xmm1, 16(%r14,%rdx,8)
	addq	$4, %rdx
	cmpq	%rdx, %rcx
	jne	.LBB81_22
	cmpq	%rcx, %r13
	je	.LBB81_32
	jmp	.LBB81_70
.LBB81_24:
	subq	%r13, %r14
	movq	%r14, 64(%rdi)
	jmp	.LBB81_52
.LBB81_25:
	cmpb	$1, %r9b
	jne	.LBB81_28
	leaq	(,%rbx,8), %rsi
	leaq	(%rsi,%rsi,8), %r8
	cmpq	$17, %r8
	movl	$16, %esi
	cmovaeq	%r8, %rsi
	addq	$15, %rsi
	andq	$-16, %rsi
	movq	%rdx, %r8
	subq	%rsi, %r8
	jae	.LBB81_29
.LBB81_27:
	movq	$1, (%rcx)
	movq	%rdx, 8(%rcx)
	movq	%r14, 16(%rcx)
.LBB81_28:
	xorl	%r14d, %r14d
.LBB81_32:
	testb	%bpl, %bpl
	jne	.LBB81_53
	movq	%r14, 32(%rdi)
	movq	%r12, 48(%rdi)
	movq	8(%rdi), %rbp
.LBB81_34:
	xorl	%r13d, %r13d
	movq	%rbx, %rcx
	subq	%rbp, %rcx
	cmovaeq	%rcx, %r13
	movq	16(%rdi), %r8
	movq	%r8, %rcx
	subq	%rbp, %rcx
	cmpq	%rcx, %r13
	jbe	.LBB81_44
	addq	%rbp, %r13
	jb	.LBB81_53
	movq	%r13, %rcx
	shrq	$57, %rcx
	jne	.LBB81_53
	movq	(%rdi), %rsi
	movq	24(%rdi), %rcx
	movzbl	(%rcx), %r9d
	movq	8(%rcx), %rdx
	movq	16(%rcx), %r14
	pxor	%xmm0, %xmm0
	movdqu	%xmm0, (%rcx)
	movq	$0, 16(%rcx)
	movb	$1, %r12b
	testq	%r8, %r8
	je	.LBB81_60
	cmpb	$1, %r9b
	jne	.LBB81_63
	movq	%r13, %r9
	shlq	$6, %r9
	cmpq	$17, %r9
	movl	$16, %r8d
	cmovaeq	%r9, %r8
	movq	%rdx, %r9
	subq	%r8, %r9
	jb	.LBB81_62
	movq	%r10, 8(%rsp)
	movq	%rdi, 16(%rsp)
	addq	%r14, %r8
	movq	$1, (%rcx)
	movq	%r9, 8(%rcx)
	movq	%r8, 16(%rcx)
	xorl	%r12d, %r12d
	movq	%rbp, %rdx
	shlq	$6, %rdx
	movq	%r14, %rax
	subq	%rsi, %rax
	cmpq	%rdx, %rax
	jae	.LBB81_67
	testq	%rbp, %rbp
	je	.LBB81_68
	movl	%ebp, %ecx
	andl	$7, %ecx
	cmpq	$8, %rbp
	jae	.LBB81_75
	xorl	%edx, %edx
	movq	16(%rsp), %rdi
	movb	$1, %al
	movq	8(%rsp), %r10
	jmp	.LBB81_78
.LBB81_44:
	movq	%r8, %r13
	testq	%rbp, %rbp
	je	.LBB81_46
.LBB81_45:
	movq	$0, 8(%rdi)
.LBB81_46:
	movq	%r10, %rbp
	testq	%rbx, %rbx
	je	.LBB81_54
	cmpq	%r13, %rbx
	ja	.LBB81_64
	xorl	%eax, %eax
	leaq	(%rax,%rbx), %r12
	movq	(%rdi), %r14
	cmpq	%r12, %rax
	jae	.LBB81_50
.LBB81_49:
	shlq	$6, %rax
	addq	%r14, %rax
	shlq	$6, %rbx
	movq	%rdi, %r15
	movq	%rax, %rdi
	xorl	%esi, %esi
	movq	%rbx, %rdx
	callq	memset@PLT
	movq	%r15, %rdi
	movl	$4294967295, %r15d
.LBB81_50:
	movq	%r14, (%rdi)
	movq	%r12, 8(%rdi)
	movq	%r13, 16(%rdi)
	movq	40(%rdi), %rax
	testq	%rax, %rax
	jne	.LBB81_55
	jmp	.LBB81_51
.LBB81_54:
	movq	(%rdi), %r14
	xorl	%r12d, %r12d
	movq	40(%rdi), %rax
	testq	%rax, %rax
	je	.LBB81_51
.LBB81_55:
	movq	32(%rdi), %rdx
	addq	%r12, %r15
	decq	%r12
	xorl	%esi, %esi
	jmp	.LBB81_57
	.p2align	4
.LBB81_56:
	rep		bsfl	%ebx, %r10d
	movb	%cl, (%r11,%r10)
	movl	%esi, 16(%r11,%r10,4)
	shll	$4, %r9d
	orl	%r10d, %r9d
	movl	%r8d, (%rdx,%rsi,8)
	movl	%r9d, 4(%rdx,%rsi,8)
	incq	%rsi
	cmpq	%rax, %rsi
	je	.LBB81_51
.LBB81_57:
	movl	(%rdx,%rsi,8), %r8d
	movl	%r15d, %r9d
	andl	%r8d, %r9d
	movl	%r8d, %ecx
	shrl	$24, %ecx
	cmpb	$1, %cl
	adcl	$0, %ecx
	movl	$1, %r10d
	shll	%cl, %r10d
	.p2align	4
.LBB81_58:
	movq	%r9, %rbx
	shlq	$6, %rbx
	leaq	(%r14,%rbx), %r11
	movdqu	(%r14,%rbx), %xmm0
	pxor	%xmm1, %xmm1
	pcmpeqb	%xmm0, %xmm1
	pmovmskb	%xmm1, %ebx
	andl	$4095, %ebx
	jne	.LBB81_56
	orl	%r10d, 12(%r11)
	incq	%r9
	andq	%r12, %r9
	jmp	.LBB81_58
.LBB81_51:
	movq	%rbp, 64(%rdi)
.LBB81_52:
	xorl	%eax, %eax
.LBB81_53:
	addq	$24, %rsp
	popq	%rbx
	popq	%r12
	popq	%r13
	popq	%r14
	popq	%r15
	popq	%rbp
	retq
.LBB81_60:
	cmpb	$1, %r9b
	jne	.LBB81_63
	movq	%r13, %r8
	shlq	$6, %r8
	cmpq	$17, %r8
	movl	$16, %esi
	cmovaeq	%r8, %rsi
	movq	%rdx, %r8
	subq	%rsi, %r8
	jae	.LBB81_66
.LBB81_62:
	movq	$1, (%rcx)
	movq	%rdx, 8(%rcx)
	movq	%r14, 16(%rcx)
.LBB81_63:
	xorl	%r14d, %r14d
.LBB81_80:
	testb	%r12b, %r12b
	jne	.LBB81_53
	movq	%r14, (%rdi)
	movq	%r13, 16(%rdi)
	movq	8(%rdi), %rbp
	testq	%rbp, %rbp
	jne	.LBB81_45
	jmp	.LBB81_46
.LBB81_29:
	addq	%r14, %rsi
	movq	$1, (%rcx)
	movq	%r8, 8(%rcx)
	movq	%rsi, 16(%rcx)
	xorl	%ebp, %ebp
	jmp	.LBB81_32
.LBB81_30:
	movq	%r14, %rdi
	callq	memmove@PLT
.LBB81_31:
	movq	16(%rsp), %rdi
	movb	$1, %al
	movq	8(%rsp), %r10
	jmp	.LBB81_32
.LBB81_64:
	movq	%rdi, %r14
	movq	%rbx, %rsi
	callq	"std_alloc::vec::Vec::grow_amortized::<#9a2b4b41bb17a51e>"
	testb	%al, %al
	je	.LBB81_82
	movq	%r14, %rdi
	movq	8(%r14), %rax
	movq	16(%r14), %r13
	leaq	(%rax,%rbx), %r12
	movq	(%rdi), %r14
	cmpq	%r12, %rax
	jb	.LBB81_49
	jmp	.LBB81_50
.LBB81_66:
	addq	%r14, %rsi
	movq	$1, (%rcx)
	movq	%r8, 8(%rcx)
	movq	%rsi, 16(%rcx)
	xorl	%r12d, %r12d
	jmp	.LBB81_80
.LBB81_67:
	movq	%r14, %rdi
	callq	memmove@PLT
.LBB81_68:
	movq	16(%rsp), %rdi
	movb	$1, %al
	movq	8(%rsp), %r10
	jmp	.LBB81_80
.LBB81_69:
	movq	16(%rsp), %rdi
	movb	$1, %al
	movq	8(%rsp), %r10
.LBB81_70:
	movq	%r13, %r8
	movq	%rcx, %rdx
	andq	$3, %r8
	je	.LBB81_73
	movq	%rcx, %rdx
.LBB81_72:
	movq	(%rsi,%rdx,8), %r9
	movq	%r9, (%r14,%rdx,8)
	incq	%rdx
	decq	%r8
	jne	.LBB81_72
.LBB81_73:
	subq	%r13, %rcx
	cmpq	$-4, %rcx
	ja	.LBB81_32
.LBB81_74:
	movq	(%rsi,%rdx,8), %rcx
	movq	%rcx, (%r14,%rdx,8)
	movq	8(%rsi,%rdx,8), %rcx
	movq	%rcx, 8(%r14,%rdx,8)
	movq	16(%rsi,%rdx,8), %rcx
	movq	%rcx, 16(%r14,%rdx,8)
	movq	24(%rsi,%rdx,8), %rcx
	movq	%rcx, 24(%r14,%rdx,8)
	addq	$4, %rdx
	cmpq	%rdx, %r13
	jne	.LBB81_74
	jmp	.LBB81_32
.LBB81_75:
	andq	$-8, %rbp
	movl	$448, %eax
	xorl	%edx, %edx
.LBB81_76:
	movups	-448(%rsi,%rax), %xmm0
	movups	-432(%rsi,%rax), %xmm1
	movups	-416(%rsi,%rax), %xmm2
	movups	-400(%rsi,%rax), %xmm3
	movups	%xmm3, -400(%r14,%rax)
	movups	%xmm2, -416(%r14,%rax)
	movups	%xmm1, -432(%r14,%rax)
	movups	%xmm0, -448(%r14,%rax)
	movups	-384(%rsi,%rax), %xmm0
	movups	-368(%rsi,%rax), %xmm1
	movups	-352(%rsi,%rax), %xmm2
	movups	-336(%rsi,%rax), %xmm3
	movups	%xmm3, -336(%r14,%rax)
	movups	%xmm2, -352(%r14,%rax)
	movups	%xmm1, -368(%r14,%rax)
	movups	%xmm0, -384(%r14,%rax)
	movups	-320(%rsi,%rax), %xmm0
	movups	-304(%rsi,%rax), %xmm1
	movups	-288(%rsi,%rax), %xmm2
	movups	-272(%rsi,%rax), %xmm3
	movups	%xmm3, -272(%r14,%rax)
	movups	%xmm2, -288(%r14,%rax)
	movups	%xmm1, -304(%r14,%rax)
	movups	%xmm0, -320(%r14,%rax)
	movups	-256(%rsi,%rax), %xmm0
	movups	-240(%rsi,%rax), %xmm1
	movups	-224(%rsi,%rax), %xmm2
	movups	-208(%rsi,%rax), %xmm3
	movups	%xmm3, -208(%r14,%rax)
	movups	%xmm2, -224(%r14,%rax)
	movups	%xmm1, -240(%r14,%rax)
	movups	%xmm0, -256(%r14,%rax)
	movups	-192(%rsi,%rax), %xmm0
	movups	-176(%rsi,%rax), %xmm1
	movups	-160(%rsi,%rax), %xmm2
	movups	-144(%rsi,%rax), %xmm3
	movups	%xmm3, -144(%r14,%rax)
	movups	%xmm2, -160(%r14,%rax)
	movups	%xmm1, -176(%r14,%rax)
	movups	%xmm0, -192(%r14,%rax)
	movups	-128(%rsi,%rax), %xmm0
	movups	-112(%rsi,%rax), %xmm1
	movups	-96(%rsi,%rax), %xmm2
	movups	-80(%rsi,%rax), %xmm3
	movups	%xmm3, -80(%r14,%rax)
	movups	%xmm2, -96(%r14,%rax)
	movups	%xmm1, -112(%r14,%rax)
	movups	%xmm0, -128(%r14,%rax)
	movups	-64(%rsi,%rax), %xmm0
	movups	-48(%rsi,%rax), %xmm1
	movups	-32(%rsi,%rax), %xmm2
	movups	-16(%rsi,%rax), %xmm3
	movups	%xmm3, -16(%r14,%rax)
	movups	%xmm2, -32(%r14,%rax)
	movups	%xmm1, -48(%r14,%rax)
	movups	%xmm0, -64(%r14,%rax)
	movdqu	(%rsi,%rax), %xmm0
	movdqu	16(%rsi,%rax), %xmm1
	movups	32(%rsi,%rax), %xmm2
	movups	48(%rsi,%rax), %xmm3
	movups	%xmm3, 48(%r14,%rax)
	movups	%xmm2, 32(%r14,%rax)
	movdqu	%xmm1, 16(%r14,%rax)
	movdqu	%xmm0, (%r14,%rax)
	addq	$8, %rdx
	addq	$512, %rax
	cmpq	%rdx, %rbp
	jne	.LBB81_76
	testq	%rcx, %rcx
	movq	16(%rsp), %rdi
	movb	$1, %al
	movq	8(%rsp), %r10
	je	.LBB81_80
.LBB81_78:
	shlq	$6, %rdx
	addq	%rdx, %rsi
	addq	%r14, %rdx
	shll	$6, %ecx
	xorl	%r8d, %r8d
.LBB81_79:
	movdqu	(%rsi,%r8), %xmm0
	movdqu	16(%rsi,%r8), %xmm1
	movups	32(%rsi,%r8), %xmm2
	movups	48(%rsi,%r8), %xmm3
	movups	%xmm3, 48(%rdx,%r8)
	movups	%xmm2, 32(%rdx,%r8)
	movdqu	%xmm1, 16(%rdx,%r8)
	movdqu	%xmm0, (%rdx,%r8)
	addq	$64, %r8
	cmpq	%r8, %rcx
	jne	.LBB81_79
	jmp	.LBB81_80
.LBB81_82:
	ud2
.Lfunc_end81:
	.size	"indexmap::index_table::IndexTable::reserve_rehash::<#bd73a11ec42be588>", .Lfunc_end81-"indexmap::index_table::IndexTable::reserve_rehash::<#bd73a11ec42be588>"

	.section	".text.unlikely.std_alloc::vec::Vec::grow_amortized::<#9a2b4b41bb17a51e>","ax",@progbits
	.p2align	4
	.type	"std_alloc::vec::Vec::grow_amortized::<#9a2b4b41bb17a51e>",@function
"std_alloc::vec::Vec::grow_amortized::<#9a2b4b41bb17a51e>":
	movq	8(%rdi), %rax
	addq	%rax, %rsi
	jae	.LBB82_1
	xorl	%eax, %eax
	retq
.LBB82_1:
	pushq	%rbp
	pushq	%r15
	pushq	%r14
	pushq	%rbx
	pushq	%rax
	movq	16(%rdi), %r9
	cmpq	$5, %rsi
	movl	$4, %r14d
	cmovaeq	%rsi, %r14
	movq	%r9, %rcx
	shrq	$62, %rcx
	leaq	(%r9,%r9), %rdx
	cmpq	%rdx, %r14
	cmovaq	%r14, %rdx
	testq	%rcx, %rcx
	cmoveq	%rdx, %r14
	movq	%r14, %rcx
	shrq	$57, %rcx
	jne	.LBB82_22
	movq	(%rdi), %rsi
	movq	24(%rdi), %rcx
	movzbl	(%rcx), %r10d
	movq	8(%rcx), %r8
	movq	16(%rcx), %rbx
	xorps	%xmm0, %xmm0
	movups	%xmm0, (%rcx)
	movq	$0, 16(%rcx)
	movb	$1, %bpl
	testq	%r9, %r9
	je	.LBB82_9
	cmpb	$1, %r10b
	jne	.LBB82_12
	movq	%r14, %rdx
	shlq	$6, %rdx
	movq	%r8, %r9
	subq	%rdx, %r9
	jb	.LBB82_11
	movq	%rdi, %r15
	addq	%rbx, %rdx
	movq	$1, (%rcx)
	movq	%r9, 8(%rcx)
	movq	%rdx, 16(%rcx)
	xorl	%ebp, %ebp
	movq	%rax, %rdx
	shlq	$6, %rdx
	movq	%rbx, %rcx
	subq	%rsi, %rcx
	cmpq	%rdx, %rcx
	jae	.LBB82_14
	testq	%rax, %rax
	je	.LBB82_15
	movl	%eax, %ecx
	andl	$7, %ecx
	cmpq	$8, %rax
	jae	.LBB82_16
	xorl	%edx, %edx
	movq	%r15, %rdi
	jmp	.LBB82_19
.LBB82_9:
	cmpb	$1, %r10b
	jne	.LBB82_12
	shlq	$6, %rdx
	movq	%r8, %rax
	subq	%rdx, %rax
	jae	.LBB82_13
.LBB82_11:
	movq	$1, (%rcx)
	movq	%r8, 8(%rcx)
	movq	%rbx, 16(%rcx)
.LBB82_12:
	xorl	%ebx, %ebx
.LBB82_21:
	testb	%bpl, %bpl
	je	.LBB82_23
.LBB82_22:
	xorl	%eax, %eax
.LBB82_24:
	addq	$8, %rsp
	popq	%rbx
	popq	%r14
	popq	%r15
	popq	%rbp
	retq
.LBB82_23:
	movq	%rbx, (%rdi)
	movq	%r14, 16(%rdi)
	movb	$1, %al
	jmp	.LBB82_24
.LBB82_13:
	addq	%rbx, %rdx
	movq	$1, (%rcx)
	movq	%rax, 8(%rcx)
	movq	%rdx, 16(%rcx)
	xorl	%ebp, %ebp
	jmp	.LBB82_21
.LBB82_14:
	movq	%rbx, %rdi
	callq	memmove@PLT
.LBB82_15:
	movq	%r15, %rdi
	jmp	.LBB82_21
.LBB82_16:
	andq	$-8, %rax
	movl	$448, %edi
	xorl	%edx, %edx
.LBB82_17:
	movups	-448(%rsi,%rdi), %xmm0
	movups	-432(%rsi,%rdi), %xmm1
	movups	-416(%rsi,%rdi), %xmm2
	movups	-400(%rsi,%rdi), %xmm3
	movups	%xmm3, -400(%rbx,%rdi)
	movups	%xmm2, -416(%rbx,%rdi)
	movups	%xmm1, -432(%rbx,%rdi)
	movups	%xmm0, -448(%rbx,%rdi)
	movups	-384(%rsi,%rdi), %xmm0
	movups	-368(%rsi,%rdi), %xmm1
	movups	-352(%rsi,%rdi), %xmm2
	movups	-336(%rsi,%rdi), %xmm3
	movups	%xmm3, -336(%rbx,%rdi)
	movups	%xmm2, -352(%rbx,%rdi)
	movups	%xmm1, -368(%rbx,%rdi)
	movups	%xmm0, -384(%rbx,%rdi)
	movups	-320(%rsi,%rdi), %xmm0
	movups	-304(%rsi,%rdi), %xmm1
	movups	-288(%rsi,%rdi), %xmm2
	movups	-272(%rsi,%rdi), %xmm3
	movups	%xmm3, -272(%rbx,%rdi)
	movups	%xmm2, -288(%rbx,%rdi)
	movups	%xmm1, -304(%rbx,%rdi)
	movups	%xmm0, -320(%rbx,%rdi)
	movups	-256(%rsi,%rdi), %xmm0
	movups	-240(%rsi,%rdi), %xmm1
	movups	-224(%rsi,%rdi), %xmm2
	movups	-208(%rsi,%rdi), %xmm3
	movups	%xmm3, -208(%rbx,%rdi)
	movups	%xmm2, -224(%rbx,%rdi)
	movups	%xmm1, -240(%rbx,%rdi)
	movups	%xmm0, -256(%rbx,%rdi)
	movups	-192(%rsi,%rdi), %xmm0
	movups	-176(%rsi,%rdi), %xmm1
	movups	-160(%rsi,%rdi), %xmm2
	movups	-144(%rsi,%rdi), %xmm3
	movups	%xmm3, -144(%rbx,%rdi)
	movups	%xmm2, -160(%rbx,%rdi)
	movups	%xmm1, -176(%rbx,%rdi)
	movups	%xmm0, -192(%rbx,%rdi)
	movups	-128(%rsi,%rdi), %xmm0
	movups	-112(%rsi,%rdi), %xmm1
	movups	-96(%rsi,%rdi), %xmm2
	movups	-80(%rsi,%rdi), %xmm3
	movups	%xmm3, -80(%rbx,%rdi)
	movups	%xmm2, -96(%rbx,%rdi)
	movups	%xmm1, -112(%rbx,%rdi)
	movups	%xmm0, -128(%rbx,%rdi)
	movups	-64(%rsi,%rdi), %xmm0
	movups	-48(%rsi,%rdi), %xmm1
	movups	-32(%rsi,%rdi), %xmm2
	movups	-16(%rsi,%rdi), %xmm3
	movups	%xmm3, -16(%rbx,%rdi)
	movups	%xmm2, -32(%rbx,%rdi)
	movups	%xmm1, -48(%rbx,%rdi)
	movups	%xmm0, -64(%rbx,%rdi)
	movups	(%rsi,%rdi), %xmm0
	movups	16(%rsi,%rdi), %xmm1
	movups	32(%rsi,%rdi), %xmm2
	movups	48(%rsi,%rdi), %xmm3
	movups	%xmm3, 48(%rbx,%rdi)
	movups	%xmm2, 32(%rbx,%rdi)
	movups	%xmm1, 16(%rbx,%rdi)
	movups	%xmm0, (%rbx,%rdi)
	addq	$8, %rdx
	addq	$512, %rdi
	cmpq	%rdx, %rax
	jne	.LBB82_17
	testq	%rcx, %rcx
	movq	%r15, %rdi
	je	.LBB82_21
.LBB82_19:
	shlq	$6, %rdx
	addq	%rdx, %rsi
	addq	%rbx, %rdx
	shll	$6, %ecx
	xorl	%eax, %eax
	.p2align	4
.LBB82_20:
	movups	(%rsi,%rax), %xmm0
	movups	16(%rsi,%rax), %xmm1
	movups	32(%rsi,%rax), %xmm2
	movups	48(%rsi,%rax), %xmm3
	movups	%xmm3, 48(%rdx,%rax)
	movups	%xmm2, 32(%rdx,%rax)
	movups	%xmm1, 16(%rdx,%rax)
	movups	%xmm0, (%rdx,%rax)
	addq	$64, %rax
	cmpq	%rax, %rcx
	jne	.LBB82_20
	jmp	.LBB82_21
.Lfunc_end82:
	.size	"std_alloc::vec::Vec::grow_amortized::<#9a2b4b41bb17a51e>", .Lfunc_end82-"std_alloc::vec::Vec::grow_amortized::<#9a2b4b41bb17a51e>"

	.section	".text.sq_track::tracker::look_through::<#bd73a11ec42be588>","ax",@progbits
	.p2align	4
	.type	"sq_track::tracker::look_through::<#bd73a11ec42be588>",@function
"sq_track::tracker::look_through::<#bd73a11ec42be588>":
	pushq	%r15
	pushq	%r14
	pushq	%r12
	pushq	%rbx
	pushq	%rax
	movq	%rdx, %rbx
	movl	176(%rdi), %eax
	movq	8(%rdi), %rcx
	cmpq	%rax, %rcx
	jbe	.LBB83_18
	movq	%rsi, %r15
	movq	%rdi, %r14
	movq	32(%rdi), %rdx
	imulq	$296, %rax, %rdi
	xorl	%esi, %esi
	movq	%rbx, %r8
	subq	(%rdx,%rdi), %r8
	cmovaeq	%r8, %rsi
	cmpq	%r15, %rsi
	jbe	.LBB83_16
	movabsq	$17179869120, %r12
	.p2align	4
.LBB83_4:
	movq	144(%r14), %rdx
	movl	(%rdx,%rax,8), %esi
	movl	4(%rdx,%rax,8), %ecx
	movl	%ecx, 4(%rdx,%rsi,8)
	movl	%esi, (%rdx,%rcx,8)
	movq	152(%r14), %rsi
	leal	-1(%rsi), %edx
	cmpl	%edx, %eax
	je	.LBB83_6
	movq	144(%r14), %rsi
	movl	%edx, %r8d
	movl	(%rsi,%r8,8), %r9d
	movl	4(%rsi,%r8,8), %r8d
	movl	%eax, 4(%rsi,%r9,8)
	movl	%r9d, (%rsi,%rax,8)
	movl	%r8d, 4(%rsi,%rax,8)
	movl	%eax, (%rsi,%r8,8)
	movq	152(%r14), %rsi
.LBB83_6:
	leaq	-1(%rsi), %r8
	movq	%r8, 152(%r14)
	cmpq	%rax, %r8
	je	.LBB83_8
	movq	144(%r14), %r8
	movq	-8(%r8,%rsi,8), %rsi
	movq	%rsi, (%r8,%rax,8)
.LBB83_8:
	cmpl	%edx, %ecx
	cmovel	%eax, %ecx
	movl	%ecx, 176(%r14)
	cmpq	%rax, 8(%r14)
	jbe	.LBB83_15
	movq	64(%r14), %rcx
	movq	96(%r14), %rsi
	movl	4(%rsi,%rax,8), %edx
	movq	104(%r14), %r8
	movl	-4(%rsi,%r8,8), %esi
	shlq	$2, %rsi
	movq	%rsi, %r8
	andq	%r12, %r8
	addq	%rcx, %r8
	andl	$60, %esi
	movl	%eax, 16(%rsi,%r8)
	movq	104(%r14), %rsi
	leaq	-1(%rsi), %r8
	movq	%r8, 104(%r14)
	cmpq	%rax, %r8
	je	.LBB83_11
	movq	96(%r14), %r8
	movq	-8(%r8,%rsi,8), %rsi
	movq	%rsi, (%r8,%rax,8)
.LBB83_11:
	movl	%edx, %esi
	andl	$15, %esi
	shlq	$2, %rdx
	andq	%r12, %rdx
	leaq	(%rcx,%rdx), %r8
	movb	$0, (%rsi,%r8)
	cmpl	$1, 12(%rcx,%rdx)
	adcq	$0, 128(%r14)
	movq	8(%r14), %rcx
	leaq	-1(%rcx), %rdx
	movq	%rdx, 8(%r14)
	cmpq	%rax, %rdx
	je	.LBB83_13
	movq	(%r14), %rdx
	movl	-4(%rdx,%rcx,4), %ecx
	movl	%ecx, (%rdx,%rax,4)
.LBB83_13:
	movq	40(%r14), %rcx
	decq	%rcx
	movq	%rcx, 40(%r14)
	cmpq	%rax, %rcx
	je	.LBB83_15
	movq	32(%r14), %rax
	imulq	$296, %rcx, %rsi
	addq	%rax, %rsi
	addq	%rax, %rdi
	movl	$296, %edx
	callq	memmove@PLT
.LBB83_15:
	movl	176(%r14), %eax
	movq	8(%r14), %rcx
	cmpq	%rax, %rcx
	jbe	.LBB83_18
	movq	32(%r14), %rdx
	imulq	$296, %rax, %rdi
	xorl	%esi, %esi
	movq	%rbx, %r8
	subq	(%rdx,%rdi), %r8
	cmovaeq	%r8, %rsi
	cmpq	%r15, %rsi
	ja	.LBB83_4
.LBB83_16:
	movl	%eax, %eax
	cmpq	%rax, %rcx
	jbe	.LBB83_18
	movq	32(%r14), %rcx
	imulq	$296, %rax, %rax
	movq	(%rcx,%rax), %rbx
.LBB83_18:
	movq	%rbx, %rax
	addq	$8, %rsp
	popq	%rbx
	popq	%r12
	popq	%r14
	popq	%r15
	retq
.Lfunc_end83:
	.size	"sq_track::tracker::look_through::<#bd73a11ec42be588>", .Lfunc_end83-"sq_track::tracker::look_through::<#bd73a11ec42be588>"

	.section	.rodata.cst16,"aM",@progbits,16
	.p2align	4, 0x0
.LCPI84_0:
	.long	1
	.long	1
	.long	1
	.long	0
	.section	".text.sq_feed::units::Units::watch","ax",@progbits
	.p2align	4
	.type	"sq_feed::units::Units::watch",@function
"sq_feed::units::Units::watch":
	movl	(%rdi), %eax
	testl	%eax, %eax
	jne	.LBB84_2
	movq	%rsi, 8(%rdi)
.LBB84_2:
	incl	%eax
	movl	%eax, (%rdi)
	movq	%rsi, 16(%rdi)
	testq	%rsi, %rsi
	setne	%al
	orb	%al, 24(%rdi)
	imull	$12000, %esi, %eax
	addl	$11999, %eax
	shrl	$25, %eax
	andl	$31, %eax
	cmpb	$1, 25(%rdi,%rax)
	adcl	$0, 60(%rdi)
	movb	$1, 25(%rdi,%rax)
	movzbl	%dl, %eax
	movl	64(%rdi,%rax,4), %ecx
	cmpl	%edx, %ecx
	jne	.LBB84_5
	movq	1088(%rdi,%rax,8), %rcx
	cmpq	%rcx, %rsi
	jb	.LBB84_7
	incl	3136(%rdi)
	xorl	%edx, %edx
	movq	%rsi, %r8
	subq	%rcx, %r8
	setne	%dl
	addl	%edx, 3140(%rdi)
	cmpq	$1000, %r8
	movl	$1000, %ecx
	cmovbq	%r8, %rcx
	addq	%rcx, 3144(%rdi)
	cmpq	$1000000, %r8
	movl	$1000000, %ecx
	cmovbq	%r8, %rcx
	addq	%rcx, 3152(%rdi)
	cmpq	$1000000000, %r8
	movl	$1000000000, %ecx
	cmovbq	%r8, %rcx
	addq	%rcx, 3160(%rdi)
	leaq	-10000(%r8), %rcx
	xorl	%edx, %edx
	cmpq	$10000000, %r8
	setae	%dl
	xorl	%r8d, %r8d
	cmpq	$9990000, %rcx
	setb	%r8b
	movd	%r8d, %xmm0
	pinsrw	$4, %edx, %xmm0
	pshufd	$232, %xmm0, %xmm0
	pand	.LCPI84_0(%rip), %xmm0
	movq	3168(%rdi), %xmm1
	paddd	%xmm0, %xmm1
	movq	%xmm1, 3168(%rdi)
	movq	%rsi, 1088(%rdi,%rax,8)
	retq
.LBB84_5:
	testl	%ecx, %ecx
	je	.LBB84_6
	retq
.LBB84_6:
	movl	%edx, 64(%rdi,%rax,4)
.LBB84_7:
	movq	%rsi, 1088(%rdi,%rax,8)
	retq
.Lfunc_end84:
	.size	"sq_feed::units::Units::watch", .Lfunc_end84-"sq_feed::units::Units::watch"

	.section	".text.sq_track::watch::are_apart","ax",@progbits
	.p2align	4
	.type	"sq_track::watch::are_apart",@function
"sq_track::watch::are_apart":
	pushq	%rbp
	pushq	%r15
	pushq	%r14
	pushq	%r13
	pushq	%r12
	pushq	%rbx
	pushq	%rax
	movq	%rdx, %r14
	movq	(%rdx), %r13
	movq	8(%rdx), %r8
	movq	%r13, %rbp
	sarq	$63, %rbp
	movq	(%rcx), %r12
	movq	8(%rcx), %r15
	movq	%r12, %r11
	sarq	$63, %r11
	movq	%r15, %rax
	mulq	%r13
	movq	%rax, %r9
	movq	%rdx, %r10
	imulq	%r15, %rbp
	movq	%r12, %rax
	mulq	%r8
	addq	%r10, %rbp
	imulq	%r8, %r11
	addq	%rdx, %r11
	subq	%rax, %r9
	sbbq	%r11, %rbp
	movq	%rsi, %rbx
	movq	%rbp, %rax
	sarq	$63, %rax
	xorq	%rax, %rbp
	xorq	%rax, %r9
	subq	%rax, %r9
	sbbq	%rax, %rbp
	movq	%r8, %rax
	mulq	%rdi
	movq	%rdx, %r11
	imulq	%r15, %r11
	mulq	%r15
	movq	%rax, %r10
	movq	%rdx, %rsi
	addq	%r11, %rsi
	movq	%rbx, %rax
	mulq	%r9
	movq	%rdx, %r9
	imulq	%rbx, %rbp
	addq	%rbp, %r9
	movl	$60, %edx
	mulq	%rdx
	movq	%rax, %r11
	imulq	$60, %r9, %rax
	addq	%rax, %rdx
	movb	$1, %al
	cmpq	%r11, %r10
	sbbq	%rdx, %rsi
	jb	.LBB85_12
	movq	%r13, %rax
	negq	%rax
	cmovsq	%r13, %rax
	movl	$100000000, %edx
	mulq	%rdx
	movq	%rax, %rsi
	leaq	-1(%r8), %rax
	addq	%rsi, %rax
	adcq	$0, %rdx
	testq	$-16646145, %r8
	jne	.LBB85_4
	movq	%rax, %rsi
	shrq	$56, %rsi
	orq	%rdx, %rsi
	jne	.LBB85_4
	shrq	$17, %rax
	shrq	$14, %r8
	leaq	.Lstatic.40(%rip), %rdx
	mulq	(%r8,%rdx)
	shldq	$16, %rax, %rdx
.LBB85_5:
	movq	%rdx, %rax
	shrq	$25, %rax
	leaq	.Lstatic.41(%rip), %r8
	movzbl	(%rax,%r8), %eax
	leaq	.Lstatic.42(%rip), %r13
	cmpq	%rdx, (%r13,%rax,8)
	adcb	$-1, %al
	movb	$58, %bpl
	subb	%al, %bpl
	movq	%r12, %rax
	negq	%rax
	cmovsq	%r12, %rax
	movl	$100000000, %edx
	mulq	%rdx
	movq	%rax, %rsi
	leaq	-1(%r15), %rax
	addq	%rsi, %rax
	adcq	$0, %rdx
	testq	$-16646145, %r15
	jne	.LBB85_8
	movq	%rax, %rsi
	shrq	$56, %rsi
	orq	%rdx, %rsi
	jne	.LBB85_8
	shrq	$17, %rax
	shrq	$14, %r15
	leaq	.Lstatic.40(%rip), %rdx
	mulq	(%r15,%rdx)
	shldq	$16, %rax, %rdx
.LBB85_9:
	movq	%rdx, %rax
	shrq	$25, %rax
	movzbl	(%rax,%r8), %eax
	cmpq	%rdx, (%r13,%rax,8)
	adcb	$-1, %al
	movb	$58, %dl
	subb	%al, %dl
	movzbl	%dl, %eax
	movzbl	%bpl, %r10d
	cmpb	%r10b, %al
	cmovbl	%eax, %r10d
	cmpb	$2, %r10b
	jae	.LBB85_11
	xorl	%eax, %eax
	jmp	.LBB85_12
.LBB85_11:
	movq	16(%r14), %r11
	movq	24(%r14), %r9
	movq	16(%rcx), %r8
	movq	24(%rcx), %rsi
	movq	%r8, %r14
	movq	%rsi, %rax
	mulq	%r11
	movq	%rax, %rcx
	sarq	$63, %r11
	imulq	%rsi, %r11
	addq	%rdx, %r11
	movq	%r8, %rax
	mulq	%r9
	sarq	$63, %r14
	imulq	%r9, %r14
	addq	%rdx, %r14
	subq	%rax, %rcx
	sbbq	%r14, %r11
	movq	%r11, %rax
	sarq	$63, %rax
	xorq	%rax, %r11
	xorq	%rax, %rcx
	subq	%rax, %rcx
	sbbq	%rax, %r11
	movq	%rsi, %rax
	mulq	%r9
	movq	%rax, %r9
	movq	%rdx, %r8
	movl	$360, %edx
	mulq	%rdx
	movq	%rax, %rsi
	imulq	$360, %r8, %r14
	addq	%rdx, %r14
	xorl	%eax, %eax
	subq	%rcx, %rsi
	sbbq	%r11, %r14
	cmovbq	%rax, %r14
	cmovbq	%rax, %rsi
	cmpq	%rcx, %rsi
	movq	%r14, %rax
	sbbq	%r11, %rax
	cmovaeq	%r11, %r14
	cmovaeq	%rcx, %rsi
	imulq	%rdi, %r8
	movq	%r9, %rax
	mulq	%rdi
	movq	%rax, %rdi
	movq	%rdx, %rcx
	movzbl	%r10b, %eax
	mulq	%rbx
	movq	%rdx, %r9
	addq	%r8, %rcx
	imulq	%rax, %r14
	mulq	%rsi
	imulq	%rsi, %r9
	addq	%rdx, %r9
	addq	%r14, %r9
	cmpq	%rax, %rdi
	sbbq	%r9, %rcx
	setb	%al
.LBB85_12:
	addq	$8, %rsp
	popq	%rbx
	popq	%r12
	popq	%r13
	popq	%r14
	popq	%r15
	popq	%rbp
	retq
.LBB85_4:
	movq	%rdi, %r13
	movq	%rax, %rdi
	movq	%rdx, %rsi
	movq	%r8, %rdx
	movq	%rcx, %rbp
	callq	"sq_angle::quotients::divided"
	movq	%rbp, %rcx
	movq	%r13, %rdi
	movq	%rax, %rdx
	jmp	.LBB85_5
.LBB85_8:
	movq	%rdi, %r12
	movq	%rax, %rdi
	movq	%rdx, %rsi
	movq	%r15, %rdx
	movq	%rcx, %r15
	callq	"sq_angle::quotients::divided"
	leaq	.Lstatic.41(%rip), %r8
	movq	%r15, %rcx
	movq	%r12, %rdi
	movq	%rax, %rdx
	jmp	.LBB85_9
.Lfunc_end85:
	.size	"sq_track::watch::are_apart", .Lfunc_end85-"sq_track::watch::are_apart"

	.section	".text.squitter_c::entry::plain_entry","ax",@progbits
	.p2align	4
	.type	"squitter_c::entry::plain_entry",@function
"squitter_c::entry::plain_entry":
	pushq	%rbp
	pushq	%r15
	pushq	%r14
	pushq	%r13
	pushq	%r12
	pushq	%rbx
	subq	$216, %rsp
	movq	%rdx, %r14
	movl	%esi, 100(%rsp)
	movq	%rdi, %rbx
	movq	$0, 126(%rsp)
	movq	$0, 120(%rsp)
	movq	$0, 104(%rsp)
	movq	$0, 110(%rsp)
	movq	(%rdx), %rax
	movq	%rax, 168(%rsp)
	movq	$0, 22(%rsp)
	movq	$0, 16(%rsp)
	movzbl	8(%rdx), %eax
	movq	$0, 6(%rsp)
	movq	$0, (%rsp)
	cmpb	$1, %al
	jne	.LBB86_2
	movq	48(%r14), %rax
	movq	%rax, 80(%rsp)
	movups	16(%r14), %xmm0
	movups	32(%r14), %xmm1
	movaps	%xmm1, 64(%rsp)
	movaps	%xmm0, 48(%rsp)
	leaq	56(%rsp), %rsi
	movq	%rsp, %rdi
	callq	"sq_message::write::write_frame"
	movq	48(%rsp), %r12
	movq	(%rsp), %rax
	movq	6(%rsp), %rcx
	movq	%rax, 136(%rsp)
	movq	%rcx, 142(%rsp)
	jmp	.LBB86_3
.LBB86_2:
	movq	$0, 142(%rsp)
	movq	$0, 136(%rsp)
	xorl	%r12d, %r12d
.LBB86_3:
	movzbl	56(%r14), %eax
	movq	$0, (%rsp)
	movq	$0, 6(%rsp)
	cmpb	$1, %al
	jne	.LBB86_5
	movq	96(%r14), %rax
	movq	%rax, 80(%rsp)
	movups	64(%r14), %xmm0
	movups	80(%r14), %xmm1
	movaps	%xmm1, 64(%rsp)
	movaps	%xmm0, 48(%rsp)
	leaq	56(%rsp), %rsi
	movq	%rsp, %rdi
	callq	"sq_message::write::write_frame"
	movq	48(%rsp), %r13
	movq	(%rsp), %rax
	movq	6(%rsp), %rcx
	movq	%rax, 32(%rsp)
	movq	%rcx, 38(%rsp)
	jmp	.LBB86_6
.LBB86_5:
	movq	$0, 38(%rsp)
	movq	$0, 32(%rsp)
	xorl	%r13d, %r13d
.LBB86_6:
	movq	32(%rsp), %rax
	movq	38(%rsp), %rcx
	movq	%rcx, 22(%rsp)
	movq	%rax, 16(%rsp)
	cmpb	$1, 104(%r14)
	jne	.LBB86_7
	movq	144(%r14), %rbp
	movups	112(%r14), %xmm0
	movaps	%xmm0, 192(%rsp)
	movups	128(%r14), %xmm0
	jmp	.LBB86_9
.LBB86_7:
	xorps	%xmm0, %xmm0
	movaps	%xmm0, 192(%rsp)
	xorl	%ebp, %ebp
.LBB86_9:
	movaps	%xmm0, 176(%rsp)
	movq	16(%rsp), %rax
	movq	22(%rsp), %rcx
	movq	%rcx, 126(%rsp)
	movq	%rax, 120(%rsp)
	movq	$0, 22(%rsp)
	movq	$0, 16(%rsp)
	movzbl	152(%r14), %eax
	movq	$0, 6(%rsp)
	movq	$0, (%rsp)
	cmpb	$1, %al
	jne	.LBB86_11
	movq	192(%r14), %rax
	movq	%rax, 80(%rsp)
	movups	160(%r14), %xmm0
	movups	176(%r14), %xmm1
	movaps	%xmm1, 64(%rsp)
	movaps	%xmm0, 48(%rsp)
	leaq	56(%rsp), %rsi
	movq	%rsp, %rdi
	callq	"sq_message::write::write_frame"
	movq	48(%rsp), %r15
	movq	(%rsp), %rax
	movq	6(%rsp), %rcx
	movq	%rax, 152(%rsp)
	movq	%rcx, 158(%rsp)
	jmp	.LBB86_12
.LBB86_11:
	movq	$0, 158(%rsp)
	movq	$0, 152(%rsp)
	xorl	%r15d, %r15d
.LBB86_12:
	movzbl	200(%r14), %eax
	movq	$0, (%rsp)
	movq	$0, 6(%rsp)
	cmpb	$1, %al
	jne	.LBB86_14
	movq	240(%r14), %rax
	movq	%rax, 80(%rsp)
	movups	208(%r14), %xmm0
	movups	224(%r14), %xmm1
	movaps	%xmm1, 64(%rsp)
	movaps	%xmm0, 48(%rsp)
	leaq	56(%rsp), %rsi
	movq	%rsp, %rdi
	callq	"sq_message::write::write_frame"
	movq	48(%rsp), %rax
	movq	(%rsp), %rcx
	movq	6(%rsp), %rdx
	movq	%rcx, 32(%rsp)
	movq	%rdx, 38(%rsp)
	jmp	.LBB86_15
.LBB86_14:
	movq	$0, 38(%rsp)
	movq	$0, 32(%rsp)
	xorl	%eax, %eax
.LBB86_15:
	movq	32(%rsp), %rcx
	movq	38(%rsp), %rdx
	movq	%rdx, 22(%rsp)
	movq	%rcx, 16(%rsp)
	cmpb	$1, 248(%r14)
	jne	.LBB86_16
	movq	288(%r14), %rcx
	movups	256(%r14), %xmm0
	movups	272(%r14), %xmm1
	jmp	.LBB86_18
.LBB86_16:
	xorps	%xmm0, %xmm0
	xorl	%ecx, %ecx
	xorps	%xmm1, %xmm1
.LBB86_18:
	movq	16(%rsp), %rdx
	movq	22(%rsp), %rsi
	movq	%rsi, 110(%rsp)
	movq	%rdx, 104(%rsp)
	movq	168(%rsp), %rdx
	movq	%rdx, (%rbx)
	movl	100(%rsp), %edx
	movl	%edx, 8(%rbx)
	movl	$0, 12(%rbx)
	movq	%r12, 16(%rbx)
	movq	136(%rsp), %rdx
	movq	142(%rsp), %rsi
	movq	%rdx, 24(%rbx)
	movq	%rsi, 30(%rbx)
	movw	$0, 38(%rbx)
	movq	%r13, 40(%rbx)
	movq	120(%rsp), %rdx
	movq	126(%rsp), %rsi
	movq	%rdx, 48(%rbx)
	movq	%rsi, 54(%rbx)
	movw	$0, 62(%rbx)
	movaps	192(%rsp), %xmm2
	movups	%xmm2, 64(%rbx)
	movaps	176(%rsp), %xmm2
	movups	%xmm2, 80(%rbx)
	movq	%rbp, 96(%rbx)
	movq	%r15, 104(%rbx)
	movq	152(%rsp), %rdx
	movq	158(%rsp), %rsi
	movq	%rdx, 112(%rbx)
	movq	%rsi, 118(%rbx)
	movw	$0, 126(%rbx)
	movq	%rax, 128(%rbx)
	movq	104(%rsp), %rax
	movq	110(%rsp), %rdx
	movq	%rdx, 142(%rbx)
	movq	%rax, 136(%rbx)
	movw	$0, 150(%rbx)
	movups	%xmm0, 152(%rbx)
	movups	%xmm1, 168(%rbx)
	movq	%rcx, 184(%rbx)
	addq	$216, %rsp
	popq	%rbx
	popq	%r12
	popq	%r13
	popq	%r14
	popq	%r15
	popq	%rbp
	retq
.Lfunc_end86:
	.size	"squitter_c::entry::plain_entry", .Lfunc_end86-"squitter_c::entry::plain_entry"

	.section	".text.squitter_c::tracker_present::squitter_tracker_present","ax",@progbits
	.p2align	4
	.type	"squitter_c::tracker_present::squitter_tracker_present",@function
"squitter_c::tracker_present::squitter_tracker_present":
	pushq	%rbp
	pushq	%r15
	pushq	%r14
	pushq	%r13
	pushq	%r12
	pushq	%rbx
	subq	$1160, %rsp
	movq	%r8, 8(%rsp)
	movq	%rsi, 16(%rsp)
	movq	8(%rdi), %r14
	cmpq	$0, (%rdi)
	xorps	%xmm0, %xmm0
	movups	%xmm0, (%rdi)
	je	.LBB87_1
	movq	%rcx, %r12
	movq	%rdx, %r13
	movaps	%xmm0, 224(%rsp)
	movaps	%xmm0, 208(%rsp)
	movaps	%xmm0, 192(%rsp)
	movaps	%xmm0, 176(%rsp)
	movaps	%xmm0, 160(%rsp)
	movaps	%xmm0, 144(%rsp)
	movaps	%xmm0, 128(%rsp)
	movaps	%xmm0, 112(%rsp)
	movaps	%xmm0, 96(%rsp)
	movaps	%xmm0, 80(%rsp)
	movaps	%xmm0, 64(%rsp)
	movaps	%xmm0, 48(%rsp)
	movq	80(%r14), %rax
	testq	%rax, %rax
	movq	%rdi, 40(%rsp)
	je	.LBB87_3
	movq	216(%r14), %rcx
	movl	248(%r14), %edx
	movl	(%rcx,%rdx,8), %ecx
	cmpq	%rcx, %rax
	jbe	.LBB87_3
	movq	72(%r14), %rax
	movq	104(%r14), %rbx
	imulq	$296, %rcx, %rdx
	movl	(%rax,%rcx,4), %eax
	movl	%eax, 28(%rsp)
	movq	%rdx, 32(%rsp)
	movq	(%rbx,%rdx), %r15
	leaq	872(%rsp), %rdi
	xorl	%ebp, %ebp
	movl	$288, %edx
	xorl	%esi, %esi
	callq	memset@PLT
	cmpq	%r15, 16(%rsp)
	jbe	.LBB87_7
	xorl	%r15d, %r15d
	xorl	%ebx, %ebx
	jmp	.LBB87_8
.LBB87_3:
	leaq	872(%rsp), %rdi
	xorl	%r15d, %r15d
	movl	$288, %edx
	xorl	%esi, %esi
	callq	memset@PLT
	xorl	%ebx, %ebx
	xorl	%ebp, %ebp
.LBB87_8:
	movq	%rbx, 248(%rsp)
	movl	%ebp, 256(%rsp)
	movl	$0, 260(%rsp)
	movq	%r15, 264(%rsp)
	leaq	272(%rsp), %rdi
	leaq	872(%rsp), %rsi
	movl	$288, %edx
	callq	memcpy@PLT
	testq	%r13, %r13
	je	.LBB87_13
	xorl	%ebx, %ebx
	.p2align	4
.LBB87_10:
	cmpb	$1, 248(%rsp)
	jne	.LBB87_22
	movl	256(%rsp), %r8d
	leaq	248(%rsp), %rdi
	movq	%r14, %rsi
	movq	16(%rsp), %rdx
	movq	%rbx, %rcx
	callq	"sq_track::tracker::Tracker::present_behind::<#bd73a11ec42be588>"
	incq	%rbx
	cmpq	%rbx, %r13
	jne	.LBB87_10
	movzbl	248(%rsp), %ebx
.LBB87_13:
	leaq	256(%rsp), %rsi
	movzbl	%bl, %eax
	movq	%rax, 560(%rsp)
	leaq	568(%rsp), %rdi
	movl	$304, %edx
	callq	memcpy@PLT
	cmpq	$0, 8(%rsp)
	je	.LBB87_15
.LBB87_16:
	xorl	%r15d, %r15d
	.p2align	4
.LBB87_17:
	cmpb	$1, 560(%rsp)
	jne	.LBB87_20
	movl	568(%rsp), %ebx
	leaq	48(%rsp), %rbp
	movq	%rbp, %rdi
	movl	%ebx, %esi
	leaq	576(%rsp), %rdx
	callq	"squitter_c::entry::plain_entry"
	movl	$192, %edx
	movq	%r12, %rdi
	movq	%rbp, %rsi
	callq	memcpy@PLT
	leaq	(%r15,%r13), %rcx
	leaq	560(%rsp), %rdi
	movq	%r14, %rsi
	movq	16(%rsp), %rdx
	movl	%ebx, %r8d
	callq	"sq_track::tracker::Tracker::present_behind::<#bd73a11ec42be588>"
	incq	%r15
	addq	$192, %r12
	cmpq	%r15, 8(%rsp)
	jne	.LBB87_17
	movq	8(%rsp), %r15
	jmp	.LBB87_20
.LBB87_1:
	xorl	%r15d, %r15d
	jmp	.LBB87_21
.LBB87_22:
	leaq	560(%rsp), %rdi
	movl	$312, %edx
	xorl	%esi, %esi
	callq	memset@PLT
	cmpq	$0, 8(%rsp)
	jne	.LBB87_16
.LBB87_15:
	xorl	%r15d, %r15d
.LBB87_20:
	movq	40(%rsp), %rax
	movq	$1, (%rax)
	movq	%r14, 8(%rax)
.LBB87_21:
	movq	%r15, %rax
	addq	$1160, %rsp
	popq	%rbx
	popq	%r12
	popq	%r13
	popq	%r14
	popq	%r15
	popq	%rbp
	retq
.LBB87_7:
	addq	32(%rsp), %rbx
	addq	$8, %rbx
	leaq	872(%rsp), %rdi
	movl	$288, %edx
	movq	%rbx, %rsi
	callq	memcpy@PLT
	movl	$1, %ebx
	movl	28(%rsp), %eax
	movl	%eax, %ebp
	jmp	.LBB87_8
.Lfunc_end87:
	.size	"squitter_c::tracker_present::squitter_tracker_present", .Lfunc_end87-"squitter_c::tracker_present::squitter_tracker_present"

	.section	".text.sq_track::tracker::Tracker::present_behind::<#bd73a11ec42be588>","ax",@progbits
	.p2align	4
	.type	"sq_track::tracker::Tracker::present_behind::<#bd73a11ec42be588>",@function
"sq_track::tracker::Tracker::present_behind::<#bd73a11ec42be588>":
	pushq	%rbp
	pushq	%r15
	pushq	%r14
	pushq	%r13
	pushq	%r12
	pushq	%rbx
	subq	$1176, %rsp
	movl	%r8d, %ebp
	movq	%rcx, %r12
	movq	%rdx, 16(%rsp)
	movq	%rsi, %r15
	movq	%rdi, %rbx
	leaq	600(%rsp), %rdi
	xorl	%r13d, %r13d
	movl	$288, %edx
	xorl	%esi, %esi
	callq	memset@PLT
	movq	80(%r15), %r14
	cmpq	$1, %r14
	movq	%r14, %rax
	adcq	$-1, %rax
	cmpq	%r12, %rax
	jbe	.LBB88_1
	movq	144(%r15), %rsi
	testq	%rsi, %rsi
	je	.LBB88_10
	movq	72(%r15), %r12
	movq	136(%r15), %rdi
	movl	%ebp, %ecx
	movq	%rcx, %rax
	shlq	$32, %rax
	orq	%rcx, %rax
	xorq	208(%r15), %rax
	movabsq	$-7046029254386353123, %rcx
	mulq	%rcx
	xorq	%rax, %rdx
	movq	%rdx, %r8
	shrq	$32, %r8
	xorl	%edx, %r8d
	movl	%r8d, %ecx
	shrl	$24, %ecx
	cmpb	$1, %cl
	adcl	$0, %ecx
	movl	$4294967295, %eax
	addl	%esi, %eax
	andl	%r8d, %eax
	movd	%ecx, %xmm0
	punpcklbw	%xmm0, %xmm0
	movl	$1, %edx
	shll	%cl, %edx
	pshuflw	$0, %xmm0, %xmm0
	pshufd	$68, %xmm0, %xmm0
	decq	%rsi
	movq	%rax, %rcx
.LBB88_4:
	movq	%rcx, %r9
	shlq	$6, %r9
	leaq	(%rdi,%r9), %r8
	movdqu	(%rdi,%r9), %xmm1
	pcmpeqb	%xmm0, %xmm1
	pmovmskb	%xmm1, %r9d
	andl	$4095, %r9d
	je	.LBB88_8
	movzwl	%r9w, %r9d
	.p2align	4
.LBB88_6:
	rep		bsfl	%r9d, %r10d
	movl	16(%r8,%r10,4), %r10d
	cmpl	(%r12,%r10,4), %ebp
	je	.LBB88_11
	leal	-1(%r9), %r10d
	andl	%r9d, %r10d
	movl	%r10d, %r9d
	jne	.LBB88_6
.LBB88_8:
	testl	%edx, 12(%r8)
	je	.LBB88_10
	incq	%rcx
	andq	%rsi, %rcx
	cmpq	%rax, %rcx
	jne	.LBB88_4
.LBB88_10:
	leaq	24(%rsp), %rdi
	xorl	%ebp, %ebp
	movl	$288, %edx
	xorl	%esi, %esi
	callq	memset@PLT
	jmp	.LBB88_15
.LBB88_1:
	leaq	24(%rsp), %rdi
	movl	$288, %edx
	xorl	%esi, %esi
	callq	memset@PLT
	xorl	%ebp, %ebp
	xorl	%r15d, %r15d
	jmp	.LBB88_18
.LBB88_11:
	movq	216(%r15), %rax
	movl	(%rax,%r10,8), %r13d
	leaq	24(%rsp), %rdi
	xorl	%ebp, %ebp
	movl	$288, %edx
	xorl	%esi, %esi
	callq	memset@PLT
	cmpq	%r13, %r14
	ja	.LBB88_13
	xorl	%r12d, %r12d
	movl	$0, 12(%rsp)
	jmp	.LBB88_14
.LBB88_13:
	movq	104(%r15), %rax
	imulq	$296, %r13, %rcx
	movl	(%r12,%r13,4), %edx
	movl	%edx, 12(%rsp)
	movq	(%rax,%rcx), %r12
	leaq	(%rax,%rcx), %rsi
	addq	$8, %rsi
	leaq	24(%rsp), %rdi
	movl	$288, %edx
	callq	memcpy@PLT
.LBB88_14:
	leaq	888(%rsp), %r15
	leaq	24(%rsp), %rsi
	movl	$288, %edx
	movq	%r15, %rdi
	callq	memcpy@PLT
	leaq	312(%rsp), %rdi
	movl	$288, %edx
	movq	%r15, %rsi
	callq	memcpy@PLT
	leaq	24(%rsp), %rdi
	movl	$288, %edx
	xorl	%esi, %esi
	callq	memset@PLT
	cmpq	%r13, %r14
	jbe	.LBB88_15
	movl	$0, %r15d
	movl	$0, %r13d
	cmpq	%r12, 16(%rsp)
	ja	.LBB88_18
	leaq	24(%rsp), %rdi
	leaq	312(%rsp), %rsi
	movl	$288, %edx
	callq	memcpy@PLT
	movl	$1, %r15d
	movq	%r12, %rbp
	movl	12(%rsp), %eax
	movl	%eax, %r13d
	jmp	.LBB88_18
.LBB88_15:
	xorl	%r15d, %r15d
	xorl	%r13d, %r13d
.LBB88_18:
	leaq	600(%rsp), %r14
	leaq	24(%rsp), %rsi
	movl	$288, %edx
	movq	%r14, %rdi
	callq	memcpy@PLT
	movq	%r15, (%rbx)
	movl	%r13d, 8(%rbx)
	movl	$0, 12(%rbx)
	movq	%rbp, 16(%rbx)
	addq	$24, %rbx
	movl	$288, %edx
	movq	%rbx, %rdi
	movq	%r14, %rsi
	callq	memcpy@PLT
	addq	$1176, %rsp
	popq	%rbx
	popq	%r12
	popq	%r13
	popq	%r14
	popq	%r15
	popq	%rbp
	retq
.Lfunc_end88:
	.size	"sq_track::tracker::Tracker::present_behind::<#bd73a11ec42be588>", .Lfunc_end88-"sq_track::tracker::Tracker::present_behind::<#bd73a11ec42be588>"

	.section	".text.unlikely.sq_log::marked_bytes::MarkedBytes::close","ax",@progbits
	.p2align	4
	.type	"sq_log::marked_bytes::MarkedBytes::close",@function
"sq_log::marked_bytes::MarkedBytes::close":
	movq	136(%rdi), %rax
	movq	152(%rdi), %rcx
	movups	1(%rdi,%rcx), %xmm0
	movups	17(%rdi,%rcx), %xmm1
	movups	33(%rdi,%rcx), %xmm2
	movups	49(%rdi,%rcx), %xmm3
	movups	%xmm2, 33(%rdi)
	movups	%xmm3, 49(%rdi)
	movups	%xmm0, 1(%rdi)
	movups	%xmm1, 17(%rdi)
	xorl	%edx, %edx
	subq	%rcx, %rax
	cmovaeq	%rax, %rdx
	movq	%rdx, 136(%rdi)
	movq	$65, 144(%rdi)
	xorps	%xmm0, %xmm0
	movups	%xmm0, 152(%rdi)
	cmpq	$64, %rdx
	jbe	.LBB89_2
	retq
.LBB89_2:
	leaq	.Lstatic.68(%rip), %rsi
	movl	$1, %edx
	jmp	"sq_log::marked_bytes::MarkedBytes::fill_part"
.Lfunc_end89:
	.size	"sq_log::marked_bytes::MarkedBytes::close", .Lfunc_end89-"sq_log::marked_bytes::MarkedBytes::close"

	.section	.rodata.cst16,"aM",@progbits,16
	.p2align	4, 0x0
.LCPI90_0:
	.zero	16,10
	.section	".text.unlikely.sq_log::marked_bytes::MarkedBytes::fill_part","ax",@progbits
	.p2align	4
	.type	"sq_log::marked_bytes::MarkedBytes::fill_part",@function
"sq_log::marked_bytes::MarkedBytes::fill_part":
	pushq	%r14
	pushq	%rbx
	pushq	%rax
	movq	%rdx, %rbx
	movq	%rdi, %r14
	addq	$65, %rdi
	movq	%rdi, %rax
	subq	%rsi, %rax
	cmpq	%rdx, %rax
	jae	.LBB90_3
	cmpq	$4, %rbx
	jb	.LBB90_2
	movq	%r14, %rax
	subq	%rsi, %rax
	addq	$65, %rax
	cmpq	$16, %rax
	jae	.LBB90_6
.LBB90_2:
	xorl	%eax, %eax
.LBB90_15:
	movq	%rbx, %rdx
	movq	%rax, %rcx
	andq	$3, %rdx
	je	.LBB90_18
	movq	%rax, %rcx
	.p2align	4
.LBB90_17:
	movzbl	(%rsi,%rcx), %r8d
	movb	%r8b, (%rdi,%rcx)
	incq	%rcx
	decq	%rdx
	jne	.LBB90_17
.LBB90_18:
	subq	%rbx, %rax
	cmpq	$-4, %rax
	ja	.LBB90_20
	.p2align	4
.LBB90_19:
	movzbl	(%rsi,%rcx), %eax
	movb	%al, 65(%r14,%rcx)
	movzbl	1(%rsi,%rcx), %eax
	movb	%al, 66(%r14,%rcx)
	movzbl	2(%rsi,%rcx), %eax
	movb	%al, 67(%r14,%rcx)
	movzbl	3(%rsi,%rcx), %eax
	movb	%al, 68(%r14,%rcx)
	addq	$4, %rcx
	cmpq	%rcx, %rbx
	jne	.LBB90_19
	jmp	.LBB90_20
.LBB90_3:
	movq	%rbx, %rdx
	callq	memmove@PLT
.LBB90_20:
	movdqu	65(%r14), %xmm0
	movdqu	81(%r14), %xmm1
	movdqu	97(%r14), %xmm2
	movdqu	113(%r14), %xmm3
	movdqa	.LCPI90_0(%rip), %xmm4
	pcmpeqb	%xmm4, %xmm3
	pcmpeqb	%xmm4, %xmm2
	pcmpeqb	%xmm4, %xmm1
	pcmpeqb	%xmm4, %xmm0
	pmovmskb	%xmm0, %eax
	pmovmskb	%xmm1, %ecx
	shll	$16, %ecx
	orl	%eax, %ecx
	pmovmskb	%xmm2, %eax
	shlq	$32, %rax
	orq	%rcx, %rax
	pmovmskb	%xmm3, %edx
	shlq	$48, %rdx
	orq	%rax, %rdx
	movq	$-1, %rax
	movl	%ebx, %ecx
	shlq	%cl, %rax
	notq	%rax
	andq	%rdx, %rax
	movq	%rax, 160(%r14)
	movq	%rbx, 152(%r14)
	addq	$8, %rsp
	popq	%rbx
	popq	%r14
	retq
.LBB90_6:
	cmpq	$16, %rbx
	jae	.LBB90_8
	xorl	%eax, %eax
	jmp	.LBB90_12
.LBB90_8:
	movl	%ebx, %eax
	andl	$48, %eax
	xorl	%ecx, %ecx
	.p2align	4
.LBB90_9:
	movups	(%rsi,%rcx), %xmm0
	movups	%xmm0, 65(%r14,%rcx)
	addq	$16, %rcx
	cmpq	%rcx, %rax
	jne	.LBB90_9
	cmpq	%rax, %rbx
	je	.LBB90_20
	testb	$12, %bl
	je	.LBB90_15
.LBB90_12:
	movq	%rax, %rcx
	movl	%ebx, %eax
	andl	$60, %eax
	.p2align	4
.LBB90_13:
	movl	(%rsi,%rcx), %edx
	movl	%edx, (%rdi,%rcx)
	addq	$4, %rcx
	cmpq	%rcx, %rax
	jne	.LBB90_13
	cmpq	%rax, %rbx
	je	.LBB90_20
	jmp	.LBB90_15
.Lfunc_end90:
	.size	"sq_log::marked_bytes::MarkedBytes::fill_part", .Lfunc_end90-"sq_log::marked_bytes::MarkedBytes::fill_part"

	.section	.rodata.cst16,"aM",@progbits,16
	.p2align	4, 0x0
.LCPI91_0:
	.zero	16,10
.LCPI91_1:
	.zero	16,198
.LCPI91_2:
	.zero	16,245
.LCPI91_3:
	.zero	16,6
.LCPI91_4:
	.zero	16,16
.LCPI91_5:
	.zero	16,223
.LCPI91_6:
	.zero	16,64
.LCPI91_7:
	.zero	16,191
.LCPI91_8:
	.short	255
	.short	255
	.short	255
	.short	255
	.short	255
	.short	255
	.short	255
	.short	255
.LCPI91_9:
	.zero	16,240
.LCPI91_10:
	.short	0
	.short	65535
	.short	65535
	.short	65535
	.short	0
	.short	0
	.short	0
	.short	0
	.section	".text.squitter_c::log_loop::write_some::<#4e49cecb6d0bb978>","ax",@progbits
	.p2align	4
	.type	"squitter_c::log_loop::write_some::<#4e49cecb6d0bb978>",@function
"squitter_c::log_loop::write_some::<#4e49cecb6d0bb978>":
	pushq	%rbp
	pushq	%r15
	pushq	%r14
	pushq	%r13
	pushq	%r12
	pushq	%rbx
	subq	$328, %rsp
	movq	%r8, 320(%rsp)
	movq	%rcx, 312(%rsp)
	movq	%rdx, 272(%rsp)
	movq	%rdi, 240(%rsp)
	movq	384(%rsp), %r8
	movl	$0, 171(%rsp)
	movl	$0, 168(%rsp)
	movq	%r9, 280(%rsp)
	cmpq	%r8, %r9
	jne	.LBB91_4
	xorl	%r12d, %r12d
.LBB91_2:
	movq	240(%rsp), %rdx
	movq	%r12, (%rdx)
	movq	280(%rsp), %rax
	movq	%rax, 8(%rdx)
	movb	$1, 16(%rdx)
.LBB91_3:
	movl	168(%rsp), %eax
	movl	171(%rsp), %ecx
	movl	%eax, 17(%rdx)
	movl	%ecx, 20(%rdx)
	addq	$328, %rsp
	popq	%rbx
	popq	%r12
	popq	%r13
	popq	%r14
	popq	%r15
	popq	%rbp
	retq
.LBB91_4:
	movq	%rsi, %rbp
	xorl	%r12d, %r12d
	movq	%rsi, 224(%rsp)
	jmp	.LBB91_10
.LBB91_5:
	movl	$43, %eax
.LBB91_6:
	xorl	%r11d, %r11d
.LBB91_7:
	movq	32(%rsp), %rcx
	movq	%r11, 112(%rsp)
	movq	%rax, 56(%rsp)
	movb	$0, 4(%rsp)
	movl	$0, (%rsp)
	movl	$0, 128(%rsp)
	movw	$0, 132(%rsp)
	xorl	%esi, %esi
	xorl	%ebx, %ebx
	xorl	%eax, %eax
	xorl	%ebp, %ebp
	xorl	%edx, %edx
	xorl	%r15d, %r15d
	xorl	%r11d, %r11d
	xorl	%r13d, %r13d
	movq	$0, 40(%rsp)
	xorl	%r12d, %r12d
	xorl	%r10d, %r10d
	xorl	%r14d, %r14d
	movq	$0, 16(%rsp)
.LBB91_8:
	movl	(%rsp), %edi
	movl	%edi, 120(%rsp)
	movl	128(%rsp), %edi
	movl	%edi, 216(%rsp)
	movzwl	132(%rsp), %edi
	movw	%di, 220(%rsp)
	movzbl	4(%rsp), %edi
	movb	%dil, 124(%rsp)
	movq	%rcx, %r8
	leaq	(%rcx,%rcx,2), %rdi
	shlq	$5, %rdi
	movq	320(%rsp), %r9
	movq	80(%rsp), %rcx
	movq	%rcx, (%r9,%rdi)
	movq	%r13, 8(%r9,%rdi)
	movq	%rsi, 16(%r9,%rdi)
	movq	%rbx, 24(%r9,%rdi)
	movq	%rax, 32(%r9,%rdi)
	movq	%rbp, 40(%r9,%rdi)
	movb	%dl, 48(%r9,%rdi)
	movb	%r15b, 49(%r9,%rdi)
	movb	%r11b, 50(%r9,%rdi)
	movl	120(%rsp), %ecx
	movl	%ecx, 51(%r9,%rdi)
	movzbl	124(%rsp), %ecx
	movb	%cl, 55(%r9,%rdi)
	movq	56(%rsp), %rax
	movl	%eax, 56(%r9,%rdi)
	movl	$0, 60(%r9,%rdi)
	movq	112(%rsp), %rax
	movq	%rax, 64(%r9,%rdi)
	movq	40(%rsp), %rax
	movq	%rax, 72(%r9,%rdi)
	movq	16(%rsp), %rax
	movl	%eax, 80(%r9,%rdi)
	movl	%r12d, 84(%r9,%rdi)
	movb	%r10b, 88(%r9,%rdi)
	movb	%r14b, 89(%r9,%rdi)
	movzwl	220(%rsp), %eax
	movw	%ax, 94(%r9,%rdi)
	movl	216(%rsp), %eax
	movl	%eax, 90(%r9,%rdi)
	incq	%r8
	movq	256(%rsp), %r12
	movq	248(%rsp), %r13
	movq	224(%rsp), %rbp
.LBB91_9:
	addq	%r13, %r12
	cmpq	%r8, 280(%rsp)
	je	.LBB91_2
.LBB91_10:
	movq	200(%rbp), %rax
	xorl	%r9d, %r9d
	testq	%rax, %rax
	je	.LBB91_12
	xorl	%r13d, %r13d
	jmp	.LBB91_15
	.p2align	4
.LBB91_12:
	movq	312(%rsp), %r13
	subq	%r12, %r13
	je	.LBB91_203
	movq	176(%rbp), %rax
	movq	192(%rbp), %rcx
	movdqu	41(%rbp,%rcx), %xmm0
	movdqu	57(%rbp,%rcx), %xmm1
	movdqu	73(%rbp,%rcx), %xmm2
	movdqu	89(%rbp,%rcx), %xmm3
	movdqu	%xmm2, 73(%rbp)
	movdqu	%xmm3, 89(%rbp)
	movdqu	%xmm0, 41(%rbp)
	movdqu	%xmm1, 57(%rbp)
	xorl	%edx, %edx
	subq	%rcx, %rax
	cmovaeq	%rax, %rdx
	movq	%rdx, 176(%rbp)
	movq	$65, 184(%rbp)
	pxor	%xmm0, %xmm0
	leaq	192(%rbp), %rax
	movdqu	%xmm0, (%rax)
	cmpq	$63, %r13
	jbe	.LBB91_35
	movq	272(%rsp), %rax
	movdqu	(%rax,%r12), %xmm0
	movdqu	16(%rax,%r12), %xmm1
	movdqu	32(%rax,%r12), %xmm2
	movdqu	48(%rax,%r12), %xmm3
	movdqu	%xmm2, 137(%rbp)
	movdqu	%xmm3, 153(%rbp)
	movdqu	%xmm0, 105(%rbp)
	movdqu	%xmm1, 121(%rbp)
	movdqa	.LCPI91_0(%rip), %xmm4
	pcmpeqb	%xmm4, %xmm3
	pcmpeqb	%xmm4, %xmm2
	pcmpeqb	%xmm4, %xmm1
	pcmpeqb	%xmm4, %xmm0
	pmovmskb	%xmm0, %eax
	pmovmskb	%xmm1, %ecx
	shll	$16, %ecx
	orl	%eax, %ecx
	pmovmskb	%xmm2, %edx
	shlq	$32, %rdx
	orq	%rcx, %rdx
	pmovmskb	%xmm3, %eax
	shlq	$48, %rax
	orq	%rdx, %rax
	movq	%rax, 200(%rbp)
	movq	$64, 192(%rbp)
	movl	$64, %r13d
	testq	%rax, %rax
	je	.LBB91_9
.LBB91_15:
	rep		bsfq	%rax, %rsi
	movq	176(%rbp), %r14
	movq	184(%rbp), %rcx
	movq	%rsi, %rbx
	subq	%r14, %rbx
	addq	%rcx, %rbx
	cmpq	$64, %rbx
	jbe	.LBB91_17
	movq	%r13, 248(%rsp)
	movq	%r12, 256(%rsp)
	movq	%r8, 32(%rsp)
	xorl	%r11d, %r11d
	xorl	%r10d, %r10d
	xorl	%r8d, %r8d
	jmp	.LBB91_55
	.p2align	4
.LBB91_17:
	testq	%rbx, %rbx
	je	.LBB91_24
	leaq	40(%rbp), %rdx
	addq	%rdx, %r14
	cmpb	$13, -1(%r14,%rbx)
	jne	.LBB91_20
	decq	%rbx
	je	.LBB91_24
.LBB91_20:
	cmpq	$15, %rbx
	movq	%r8, 32(%rsp)
	movq	%r12, 256(%rsp)
	movq	%r13, 248(%rsp)
	jbe	.LBB91_39
	movdqu	(%r14), %xmm0
	movdqa	.LCPI91_1(%rip), %xmm1
	paddb	%xmm0, %xmm1
	movdqa	.LCPI91_2(%rip), %xmm2
	pminub	%xmm1, %xmm2
	pcmpeqb	%xmm1, %xmm2
	pmovmskb	%xmm2, %eax
	orl	$65536, %eax
	rep		bsfl	%eax, %edx
	testl	%edx, %edx
	je	.LBB91_53
	movq	%xmm0, %rax
	cmpw	$8, %dx
	ja	.LBB91_25
	leal	(,%rdx,8), %ecx
	negb	%cl
	shlq	%cl, %rax
	movabsq	$1085102592571150095, %rcx
	andq	%rcx, %rax
	imulq	$2561, %rax, %rax
	shrq	$8, %rax
	movabsq	$71777214294589695, %rcx
	andq	%rcx, %rax
	imulq	$6553601, %rax, %r10
	shrq	$16, %r10
	movabsq	$281470681808895, %rax
	andq	%rax, %r10
	movabsq	$42949672960001, %rax
	imulq	%rax, %r10
	shrq	$32, %r10
	testq	%rdx, %rdx
	jne	.LBB91_27
	jmp	.LBB91_52
	.p2align	4
.LBB91_24:
	addq	%rsi, %rcx
	incq	%rcx
	movq	%rcx, 184(%rbp)
	movq	%rcx, 176(%rbp)
	movl	%esi, %ecx
	shrq	%cl, %rax
	shrq	%rax
	movq	%rax, 200(%rbp)
	incq	16(%rbp)
	jmp	.LBB91_9
.LBB91_25:
	movq	%rsi, %r15
	leaq	-8(%rdx), %rcx
	shll	$3, %ecx
	negb	%cl
	shlq	%cl, %rax
	movabsq	$1085102592571150095, %rsi
	andq	%rsi, %rax
	imulq	$2561, %rax, %rax
	shrq	$8, %rax
	movabsq	$71777214294589695, %rdi
	andq	%rdi, %rax
	imulq	$6553601, %rax, %rax
	shrq	$16, %rax
	movabsq	$281470681808895, %r9
	andq	%r9, %rax
	movabsq	$42949672960001, %r10
	imulq	%r10, %rax
	shrq	$32, %rax
	imulq	$100000000, %rax, %rax
	movq	-8(%r14,%rdx), %rcx
	andq	%rsi, %rcx
	imulq	$2561, %rcx, %rcx
	shrq	$8, %rcx
	andq	%rdi, %rcx
	imulq	$6553601, %rcx, %rcx
	shrq	$16, %rcx
	andq	%r9, %rcx
	imulq	%r10, %rcx
	movq	%rcx, %r10
	shrq	$32, %r10
	addq	%rax, %r10
	cmpw	$16, %dx
	jae	.LBB91_51
	movq	%r15, %rsi
	testq	%rdx, %rdx
	je	.LBB91_52
.LBB91_27:
	cmpq	%rbx, %rdx
	jae	.LBB91_52
	cmpb	$32, (%r14,%rdx)
	jne	.LBB91_52
	movq	%rsi, 80(%rsp)
	leaq	(%r14,%rdx), %rsi
	incq	%rsi
	incq	%rdx
	subq	%rdx, %rbx
.LBB91_30:
	pxor	%xmm0, %xmm0
	movdqa	%xmm0, 144(%rsp)
	movdqa	%xmm0, 128(%rsp)
	movq	$0, 160(%rsp)
	cmpq	$30, %rbx
	je	.LBB91_36
	cmpq	$2, %rbx
	jb	.LBB91_48
	cmpb	$42, (%rsi)
	movzbl	-1(%rsi,%rbx), %ecx
	jne	.LBB91_40
	cmpb	$59, %cl
	jne	.LBB91_48
	leaq	1(%rsi), %rax
	leaq	-2(%rbx), %rdx
	jmp	.LBB91_41
.LBB91_35:
	movq	272(%rsp), %rax
	leaq	(%rax,%r12), %rsi
	leaq	40(%rbp), %rdi
	movq	%r13, %rdx
	movq	%r8, %rbx
	callq	"sq_log::marked_bytes::MarkedBytes::fill_part"
	xorl	%r9d, %r9d
	movq	%rbx, %r8
	movq	200(%rbp), %rax
	testq	%rax, %rax
	jne	.LBB91_15
	jmp	.LBB91_9
.LBB91_36:
	cmpb	$42, (%rsi)
	jne	.LBB91_48
	cmpb	$59, 29(%rsi)
	jne	.LBB91_48
	leaq	1(%rsi), %rcx
	jmp	.LBB91_42
.LBB91_39:
	movq	%r14, %rdi
	movq	%rsi, 80(%rsp)
	movq	%rbx, %rsi
	xorl	%edx, %edx
	xorl	%ecx, %ecx
	callq	"sq_text::timed::more_digits"
	movq	80(%rsp), %rsi
	movq	%rax, %r10
	testq	%rdx, %rdx
	jne	.LBB91_27
	jmp	.LBB91_52
.LBB91_40:
	movq	%rbx, %rdx
	movq	%rsi, %rax
	cmpb	$59, %cl
	je	.LBB91_48
.LBB91_41:
	xorl	%ecx, %ecx
	cmpq	$28, %rdx
	cmoveq	%rax, %rcx
	jne	.LBB91_48
.LBB91_42:
	movdqa	.LCPI91_1(%rip), %xmm2
	movdqu	(%rcx), %xmm1
	movdqu	12(%rcx), %xmm0
	movdqa	%xmm1, %xmm4
	paddb	%xmm2, %xmm4
	movdqa	.LCPI91_3(%rip), %xmm5
	psubusb	%xmm5, %xmm4
	movdqa	.LCPI91_4(%rip), %xmm3
	paddb	%xmm3, %xmm4
	movdqa	.LCPI91_5(%rip), %xmm6
	pand	%xmm6, %xmm1
	movdqa	.LCPI91_6(%rip), %xmm7
	movdqa	%xmm7, %xmm8
	psubb	%xmm1, %xmm8
	movdqa	.LCPI91_0(%rip), %xmm9
	pminub	%xmm9, %xmm8
	movdqa	.LCPI91_7(%rip), %xmm10
	paddb	%xmm10, %xmm1
	paddb	%xmm8, %xmm1
	pminub	%xmm4, %xmm1
	paddb	%xmm0, %xmm2
	psubusb	%xmm5, %xmm2
	paddb	%xmm3, %xmm2
	pand	%xmm6, %xmm0
	psubb	%xmm0, %xmm7
	pminub	%xmm9, %xmm7
	paddb	%xmm10, %xmm0
	paddb	%xmm7, %xmm0
	pminub	%xmm2, %xmm0
	movdqa	%xmm0, %xmm2
	por	%xmm1, %xmm2
	pmaxub	%xmm2, %xmm3
	pcmpeqb	%xmm2, %xmm3
	pmovmskb	%xmm3, %eax
	testl	%eax, %eax
	jne	.LBB91_48
	movdqa	.LCPI91_8(%rip), %xmm2
	pand	%xmm1, %xmm2
	packuswb	%xmm2, %xmm2
	psrlw	$8, %xmm1
	packuswb	%xmm1, %xmm1
	psllw	$4, %xmm2
	pand	.LCPI91_9(%rip), %xmm2
	por	%xmm1, %xmm2
	movq	%xmm2, %r11
	bswapq	%r11
	movq	%r11, %rax
	shrq	$59, %rax
	cmpq	$17, %rax
	jne	.LBB91_47
	movq	%r11, %rax
	shlq	$48, %rax
	movdqa	.LCPI91_8(%rip), %xmm1
	pand	%xmm0, %xmm1
	packuswb	%xmm1, %xmm1
	psllw	$4, %xmm1
	pand	.LCPI91_9(%rip), %xmm1
	psrlw	$8, %xmm0
	packuswb	%xmm0, %xmm0
	por	%xmm1, %xmm0
	pand	.LCPI91_10(%rip), %xmm0
	movq	%xmm0, %r14
	bswapq	%r14
	movq	%r11, %rbx
	shrq	$24, %rbx
	movq	%r11, %rcx
	shrq	$54, %rcx
	andl	$572, %ecx
	leaq	.Lstatic.44(%rip), %r8
	movq	%r11, %rsi
	shrq	$46, %rsi
	andl	$1020, %esi
	leaq	.Lstatic.45(%rip), %rdx
	xorl	(%rcx,%r8), %ebx
	xorl	(%rsi,%rdx), %ebx
	orq	%r14, %rax
	movzbl	%bh, %edi
	movzbl	%bl, %r9d
	shrl	$14, %ebx
	andl	$1020, %ebx
	leaq	.Lstatic.43(%rip), %rsi
	movl	(%rbx,%rsi), %ecx
	xorl	(%r8,%rdi,4), %ecx
	xorl	(%rdx,%r9,4), %ecx
	xorl	%r11d, %ecx
	movq	%rax, %rbx
	shrq	$24, %rbx
	movzbl	%ch, %edi
	movzbl	%cl, %r9d
	shrl	$14, %ecx
	andl	$1020, %ecx
	xorl	(%rcx,%rsi), %ebx
	xorl	(%r8,%rdi,4), %ebx
	xorl	(%rdx,%r9,4), %ebx
	andl	$16777215, %r14d
	movzbl	%bh, %ecx
	movzbl	%bl, %edi
	shrl	$14, %ebx
	andl	$1020, %ebx
	xorl	(%r8,%rcx,4), %r14d
	xorl	(%rdx,%rdi,4), %r14d
	movl	(%rbx,%rsi), %ecx
	xorl	%r9d, %r9d
	movl	%r14d, %edx
	xorl	%ecx, %edx
	jne	.LBB91_50
	movq	%r11, %rcx
	shrq	$16, %rcx
	shldq	$40, %rax, %rcx
	movabsq	$72057594037927935, %r15
	andq	%rcx, %r15
	movq	%r15, %rdx
	shrq	$51, %rdx
	cmpq	$5, %rdx
	jae	.LBB91_96
	movb	$2, %al
	movl	%eax, 56(%rsp)
	movq	%r10, %r14
	xorl	%r8d, %r8d
	jmp	.LBB91_104
.LBB91_47:
	movq	%rax, %r10
	movb	$6, %r8b
	xorl	%r9d, %r9d
	movq	80(%rsp), %rsi
	xorl	%r11d, %r11d
	jmp	.LBB91_54
.LBB91_48:
	movq	%r10, %r14
	leaq	128(%rsp), %rdi
	movq	%rbx, %rdx
	callq	"sq_text::reading::read_any"
	cmpb	$0, 128(%rsp)
	movzbl	136(%rsp), %r8d
	je	.LBB91_99
	movzbl	137(%rsp), %r10d
	movl	140(%rsp), %r9d
	movq	144(%rsp), %r11
	jmp	.LBB91_108
.LBB91_50:
	xorl	%r10d, %r10d
	xorl	%ecx, %r14d
	movb	$7, %r8b
	movq	80(%rsp), %rsi
	movq	%r14, %r9
	xorl	%r11d, %r11d
	jmp	.LBB91_54
.LBB91_51:
	movl	$16, %ecx
	movq	%r14, %rdi
	movq	%rbx, %rsi
	movq	%r10, %rdx
	callq	"sq_text::timed::more_digits"
	movq	%rax, %r10
	movq	%r15, %rsi
	testq	%rdx, %rdx
	jne	.LBB91_27
.LBB91_52:
	cmpq	$18, %rdx
	ja	.LBB91_94
.LBB91_53:
	movb	$1, %r8b
	xorl	%r11d, %r11d
	xorl	%r9d, %r9d
	xorl	%r10d, %r10d
.LBB91_54:
	movq	184(%rbp), %rcx
	movq	200(%rbp), %rax
.LBB91_55:
	addq	%rsi, %rcx
	incq	%rcx
	movq	%rcx, 184(%rbp)
	movq	%rcx, 176(%rbp)
	movl	%esi, %ecx
	shrq	%cl, %rax
	shrq	%rax
	movq	%rax, 200(%rbp)
	movq	16(%rbp), %r12
	incq	%r12
	movq	%r12, 16(%rbp)
	incq	32(%rbp)
	movl	$7864320, %eax
	movq	%rax, 8(%rsp)
	movb	$1, 16(%rsp)
	xorl	%esi, %esi
	xorl	%edi, %edi
	xorl	%r14d, %r14d
	xorl	%ebx, %ebx
	movq	$0, 24(%rsp)
	movq	$0, 40(%rsp)
	xorl	%ecx, %ecx
	xorl	%eax, %eax
	xorl	%edx, %edx
	xorl	%r13d, %r13d
	movl	%r8d, %r15d
	xorl	%r8d, %r8d
.LBB91_56:
	movl	%r9d, %r9d
	movzbl	%r10b, %ebp
	movzbl	%r15b, %r10d
	movl	$0, 120(%rsp)
	movb	$0, 124(%rsp)
	movl	$0, 216(%rsp)
	movw	$0, 220(%rsp)
	testb	%r8b, %r8b
	movq	%r12, 80(%rsp)
	je	.LBB91_61
	shlq	$32, %r9
	shll	$8, %ebp
	movq	%rbp, %r15
	orq	%r10, %r13
	orq	%r9, %r13
	shrq	$32, %r11
	movq	%r11, %r10
	movl	$0, 176(%rsp)
	movw	$0, 180(%rsp)
	movl	$0, 232(%rsp)
	movb	$0, 236(%rsp)
	cmpb	$2, %r14b
	je	.LBB91_63
	movzbl	%r14b, %r9d
	xorl	%ebp, %ebp
	movzbl	%bl, %r8d
	cmpl	$1, %r9d
	movq	40(%rsp), %r11
	jne	.LBB91_64
	movb	$2, %bl
.LBB91_60:
	xorl	%r9d, %r9d
	jmp	.LBB91_67
	.p2align	4
.LBB91_61:
	leaq	.LJTI91_1(%rip), %rax
	movslq	(%rax,%r10,4), %rcx
	addq	%rax, %rcx
	jmpq	*%rcx
.LBB91_62:
	movl	$40, %eax
	jmp	.LBB91_6
.LBB91_63:
	xorl	%ebp, %ebp
	movzbl	%bl, %esi
	leaq	.LJTI91_2(%rip), %rdi
	movslq	(%rdi,%rsi,4), %rsi
	addq	%rdi, %rsi
	xorl	%r9d, %r9d
	xorl	%ebx, %ebx
	movq	40(%rsp), %r11
	jmpq	*%rsi
.LBB91_64:
	movb	$2, %r9b
	movb	$1, %bl
	testb	%dil, %dil
	jne	.LBB91_67
	xorl	%ebp, %ebp
	testw	%si, %si
	je	.LBB91_60
	testb	$16, %sil
	jne	.LBB91_80
.LBB91_67:
	leaq	.LJTI91_2(%rip), %rsi
	movslq	(%rsi,%r8,4), %rdi
	addq	%rsi, %rdi
	jmpq	*%rdi
.LBB91_68:
	movq	%rax, %rdi
	imulq	$23592960, %rax, %rsi
	imulq	$-47185920, %rax, %r11
	cmpb	$0, 16(%rsp)
	movq	%r10, 112(%rsp)
	movl	%ebp, 48(%rsp)
	je	.LBB91_78
	imulq	$360, %rcx, %r8
	imulq	$360, %rdx, %rax
	jmp	.LBB91_79
.LBB91_70:
	movl	$3, %eax
	jmp	.LBB91_7
.LBB91_71:
	movl	$1, %eax
	jmp	.LBB91_6
.LBB91_72:
	movl	$2, %eax
	jmp	.LBB91_6
.LBB91_73:
	movl	$6, %eax
	movq	%r9, %r11
	jmp	.LBB91_7
.LBB91_74:
	movl	$41, %eax
	jmp	.LBB91_6
.LBB91_75:
	movl	$4, %eax
	jmp	.LBB91_7
.LBB91_76:
	movl	$5, %eax
	movq	%rbp, %r11
	jmp	.LBB91_7
.LBB91_77:
	movl	$42, %eax
	jmp	.LBB91_7
.LBB91_78:
	imulq	$90, %rcx, %r8
	imulq	$90, %rdx, %rax
.LBB91_79:
	xorl	%ecx, %ecx
	cmpq	%rsi, %rax
	cmovbq	%rcx, %r11
	addq	%rax, %r11
	movq	8(%rsp), %rax
	movq	%rbx, 88(%rsp)
	movq	%r9, 72(%rsp)
	shll	$17, %edi
	movq	%r8, 64(%rsp)
	movq	%r8, 128(%rsp)
	movq	%rax, 136(%rsp)
	movq	%r11, 96(%rsp)
	movq	%r11, 144(%rsp)
	movq	%rdi, 104(%rsp)
	movq	%rdi, 152(%rsp)
	leaq	128(%rsp), %rdi
	callq	"squitter_c::e7::both"
	movl	$0, (%rsp)
	movb	$0, 4(%rsp)
	movb	$1, %r9b
	jmp	.LBB91_92
.LBB91_80:
	movl	%esi, %edi
	shrl	%edi
	andl	$32752, %edi
	andl	$15, %esi
	orl	%edi, %esi
	leal	(%rsi,%rsi,4), %esi
	leal	(%rsi,%rsi,4), %ebp
	addl	$-1000, %ebp
	movb	$1, %r9b
	leaq	.LJTI91_2(%rip), %rsi
	movslq	(%rsi,%r8,4), %rdi
	addq	%rsi, %rdi
	movb	$1, %bl
	jmpq	*%rdi
.LBB91_81:
	movq	%rax, %rdi
	imulq	$23592960, %rax, %rsi
	imulq	$-47185920, %rax, %r11
	cmpb	$0, 16(%rsp)
	movq	%r10, 112(%rsp)
	movl	%ebp, 48(%rsp)
	je	.LBB91_90
	imulq	$360, %rcx, %r8
	imulq	$360, %rdx, %rax
	jmp	.LBB91_91
.LBB91_83:
	movq	%rbx, 88(%rsp)
	movq	%r9, 72(%rsp)
	movl	%ebp, 48(%rsp)
	movb	$0, 4(%rsp)
	movl	$0, (%rsp)
	movq	$0, 64(%rsp)
	movb	$5, %r9b
	jmp	.LBB91_88
.LBB91_84:
	movq	%rbx, 88(%rsp)
	movq	%r9, 72(%rsp)
	movl	%ebp, 48(%rsp)
	movb	$0, 4(%rsp)
	movl	$0, (%rsp)
	movq	$0, 64(%rsp)
	movb	$3, %r9b
	jmp	.LBB91_88
.LBB91_85:
	movq	%rbx, 88(%rsp)
	movq	%r9, 72(%rsp)
	movl	%ebp, 48(%rsp)
	movb	$0, 4(%rsp)
	movl	$0, (%rsp)
	movq	$0, 64(%rsp)
	movb	$4, %r9b
	movq	$0, 8(%rsp)
	movq	$0, 96(%rsp)
	movq	$0, 104(%rsp)
	jmp	.LBB91_89
.LBB91_86:
	movq	%rbx, 88(%rsp)
	movq	%r9, 72(%rsp)
	movl	%ebp, 48(%rsp)
	movb	$0, 4(%rsp)
	movl	$0, (%rsp)
	movq	$0, 64(%rsp)
	movb	$6, %r9b
	jmp	.LBB91_88
.LBB91_87:
	movq	%rbx, 88(%rsp)
	movq	%r9, 72(%rsp)
	movl	%ebp, 48(%rsp)
	movb	$0, 4(%rsp)
	movl	$0, (%rsp)
	movq	$0, 64(%rsp)
	movb	$7, %r9b
.LBB91_88:
	movq	$0, 8(%rsp)
	movq	$0, 96(%rsp)
	movq	$0, 104(%rsp)
	movq	$0, 24(%rsp)
	xorl	%r11d, %r11d
.LBB91_89:
	xorl	%eax, %eax
	xorl	%edx, %edx
	movq	32(%rsp), %rcx
	jmp	.LBB91_93
.LBB91_90:
	imulq	$90, %rcx, %r8
	imulq	$90, %rdx, %rax
.LBB91_91:
	xorl	%ecx, %ecx
	cmpq	%rsi, %rax
	cmovbq	%rcx, %r11
	addq	%rax, %r11
	movq	8(%rsp), %rax
	movq	%rbx, 88(%rsp)
	movq	%r9, 72(%rsp)
	shll	$17, %edi
	movq	%r8, 64(%rsp)
	movq	%r8, 128(%rsp)
	movq	%rax, 136(%rsp)
	movq	%r11, 96(%rsp)
	movq	%r11, 144(%rsp)
	movq	%rdi, 104(%rsp)
	movq	%rdi, 152(%rsp)
	leaq	128(%rsp), %rdi
	callq	"squitter_c::e7::both"
	movl	$0, (%rsp)
	movb	$0, 4(%rsp)
	movb	$2, %r9b
.LBB91_92:
	movq	$0, 24(%rsp)
	xorl	%r11d, %r11d
	movq	32(%rsp), %rcx
	movq	112(%rsp), %r10
.LBB91_93:
	orq	%r15, %r13
	movq	%r10, 16(%rsp)
	movl	%eax, %eax
	shlq	$32, %rdx
	orq	%rax, %rdx
	movq	%rdx, 40(%rsp)
	movzbl	4(%rsp), %eax
	movb	%al, 236(%rsp)
	movl	(%rsp), %edi
	movl	%edi, (%rsp)
	movb	%al, 4(%rsp)
	movl	176(%rsp), %eax
	movl	%eax, 128(%rsp)
	movzwl	180(%rsp), %eax
	movw	%ax, 132(%rsp)
	movq	$0, 56(%rsp)
	movq	$0, 112(%rsp)
	movq	24(%rsp), %r15
	movq	8(%rsp), %rbx
	movq	104(%rsp), %rbp
	movl	48(%rsp), %r12d
	movq	72(%rsp), %r14
	movq	88(%rsp), %r10
	movq	64(%rsp), %rsi
	movq	96(%rsp), %rax
	movq	%r9, %rdx
	jmp	.LBB91_8
.LBB91_94:
	movq	%rsi, 80(%rsp)
	leaq	128(%rsp), %rdi
	movq	%r14, %rsi
	movq	%rbx, %rdx
	callq	"sq_text::timed::split_longest"
	cmpb	$1, 128(%rsp)
	jne	.LBB91_98
	movq	136(%rsp), %r10
	movq	144(%rsp), %rsi
	movq	152(%rsp), %rbx
	jmp	.LBB91_30
.LBB91_96:
	cmpl	$8, %edx
	ja	.LBB91_100
	movq	%r10, %r14
	movl	%r11d, %r9d
	shrl	$10, %r9d
	andl	$1, %r9d
	shrq	$41, %rax
	andl	$131071, %eax
	movq	%r11, %rsi
	shlq	$21, %rsi
	movl	$4294967295, %edi
	incq	%rdi
	andq	%rsi, %rdi
	movl	%r11d, %esi
	shll	$12, %esi
	andl	$2130706432, %esi
	orq	%rdi, %rsi
	movl	%r11d, %edi
	shrl	$3, %edi
	andl	$65536, %edi
	orq	%rsi, %rdi
	movl	%r11d, %r8d
	shrl	$12, %r8d
	andl	$32512, %r8d
	orq	%rdi, %r8
	orq	%rdx, %r8
	andl	$131071, %ecx
	shlq	$32, %rcx
	orq	%rax, %rcx
	movb	$1, %al
	movl	%eax, 56(%rsp)
	jmp	.LBB91_103
.LBB91_98:
	xorl	%r11d, %r11d
	movb	$1, %r8b
	xorl	%r9d, %r9d
	xorl	%r10d, %r10d
	jmp	.LBB91_108
.LBB91_99:
	movl	140(%rsp), %r11d
	movzbl	144(%rsp), %eax
	movl	%eax, 56(%rsp)
	movl	148(%rsp), %r9d
	movq	152(%rsp), %r15
	movq	%r8, %rax
	movq	160(%rsp), %r8
	jmp	.LBB91_105
.LBB91_100:
	cmpl	$19, %edx
	jb	.LBB91_102
	cmpl	$19, %edx
	setne	%sil
	cmpl	$23, %edx
	setb	%dil
	andb	%sil, %dil
	cmpb	$1, %dil
	jne	.LBB91_141
.LBB91_102:
	movq	%r10, %r14
	movl	%r11d, %r9d
	shrl	$10, %r9d
	andl	$1, %r9d
	shrq	$41, %rax
	andl	$131071, %eax
	movl	%r11d, %esi
	andl	$2048, %esi
	shlq	$37, %rsi
	movl	%r11d, %edi
	andl	$16773120, %edi
	shlq	$20, %rdi
	orq	%rsi, %rdi
	movl	%r11d, %esi
	shrl	$8, %esi
	andl	$65536, %esi
	orq	%rdi, %rsi
	movl	%r11d, %r8d
	shrl	$17, %r8d
	andl	$768, %r8d
	orq	%rsi, %r8
	orq	%rdx, %r8
	andl	$131071, %ecx
	shlq	$32, %rcx
	orq	%rax, %rcx
	movl	$0, 56(%rsp)
.LBB91_103:
	movq	%rcx, %r15
.LBB91_104:
	movq	%r11, %rax
	shrq	$56, %rax
	andb	$7, %al
	shrq	$32, %r11
	andl	$16777215, %r11d
.LBB91_105:
	movzbl	56(%rsp), %edx
	movq	%r11, %rbx
	movl	%r11d, %esi
	movq	%rsi, %r10
	shlq	$32, %r10
	movq	%rax, 16(%rsp)
	movzbl	%al, %eax
	orq	%r10, %rax
	movq	(%rbp), %rcx
	movq	%r14, 128(%rsp)
	movq	%rax, 112(%rsp)
	movq	%rax, 136(%rsp)
	movl	%edx, 24(%rsp)
	movl	%edx, 144(%rsp)
	movq	%r9, 40(%rsp)
	movl	%r9d, 148(%rsp)
	movq	%r15, 48(%rsp)
	movq	%r15, 152(%rsp)
	movq	%r8, 104(%rsp)
	movq	%r8, 160(%rsp)
	movq	%rcx, 8(%rsp)
	cmpb	$1, 56(%rcx)
	jne	.LBB91_109
	movq	8(%rsp), %rax
	movq	64(%rax), %r11
	movb	$8, %al
	cmpq	%r11, %r14
	jae	.LBB91_109
.LBB91_107:
	xorl	%r9d, %r9d
	xorl	%r10d, %r10d
	movl	%eax, %r8d
.LBB91_108:
	movq	80(%rsp), %rsi
	jmp	.LBB91_54
.LBB91_109:
	movq	8(%rsp), %r15
	leaq	72(%r15), %rdi
	cmpb	$2, 56(%rsp)
	jne	.LBB91_113
	movq	8(%r15), %rsi
	movq	256(%r15), %rax
	xorl	%ecx, %ecx
	movq	%r14, %r10
	movq	%r14, %rdx
	subq	%rax, %rdx
	cmovaeq	%rdx, %rcx
	cmpq	%rsi, %rcx
	jbe	.LBB91_112
	movq	%r10, %rdx
	movq	%r10, %rbx
	callq	"sq_track::tracker::look_through::<#bd73a11ec42be588>"
	movq	%rbx, %r10
.LBB91_112:
	movq	%rax, 256(%r15)
	movq	$1, 56(%r15)
	movq	%r10, 64(%r15)
	movb	$6, %bl
	movb	$1, 16(%rsp)
	movl	$7864320, %ecx
	movq	%rcx, 8(%rsp)
	xorl	%edx, %edx
	xorl	%r8d, %r8d
	movq	$0, 40(%rsp)
	movq	$0, 24(%rsp)
	movq	112(%rsp), %r11
	movl	56(%rsp), %r14d
	jmp	.LBB91_175
.LBB91_113:
	movq	%rdi, 88(%rsp)
	movl	(%r15), %eax
	movq	8(%r15), %rcx
	movq	%rcx, 72(%rsp)
	movq	80(%r15), %r11
	movq	72(%r15), %rdi
	movq	136(%r15), %r8
	movq	144(%r15), %r9
	cmpq	%rax, %r11
	jae	.LBB91_123
.LBB91_114:
	movq	8(%rsp), %r15
	movzbl	16(%r15), %r13d
	leaq	24(%r15), %rax
	xorl	%ecx, %ecx
	cmpb	$1, %r13b
	cmoveq	%rax, %rcx
	movq	%rcx, 208(%rsp)
	leaq	216(%r15), %rax
	movq	%rax, 296(%rsp)
	leaq	248(%r15), %r12
	testq	%r9, %r9
	je	.LBB91_122
	orq	%r10, %rsi
	xorq	208(%r15), %rsi
	movabsq	$-7046029254386353123, %rcx
	movq	%rsi, %rax
	mulq	%rcx
	xorq	%rax, %rdx
	movq	%rdx, %rsi
	shrq	$32, %rsi
	xorl	%edx, %esi
	movl	%esi, %ecx
	shrl	$24, %ecx
	cmpb	$1, %cl
	adcl	$0, %ecx
	movl	$4294967295, %eax
	addl	%r9d, %eax
	andl	%esi, %eax
	movd	%ecx, %xmm0
	punpcklbw	%xmm0, %xmm0
	movl	$1, %edx
	shll	%cl, %edx
	pshuflw	$0, %xmm0, %xmm0
	pshufd	$68, %xmm0, %xmm0
	decq	%r9
	movq	%rax, %rcx
.LBB91_116:
	movq	%rcx, %r10
	shlq	$6, %r10
	leaq	(%r8,%r10), %rsi
	movdqu	(%r8,%r10), %xmm1
	pcmpeqb	%xmm0, %xmm1
	pmovmskb	%xmm1, %r10d
	andl	$4095, %r10d
	je	.LBB91_120
	movzwl	%r10w, %r10d
	.p2align	4
.LBB91_118:
	rep		bsfl	%r10d, %r11d
	movl	16(%rsi,%r11,4), %r11d
	cmpl	(%rdi,%r11,4), %ebx
	je	.LBB91_133
	leal	-1(%r10), %r11d
	andl	%r10d, %r11d
	movl	%r11d, %r10d
	jne	.LBB91_118
.LBB91_120:
	testl	%edx, 12(%rsi)
	je	.LBB91_122
	incq	%rcx
	andq	%r9, %rcx
	cmpq	%rax, %rcx
	jne	.LBB91_116
.LBB91_122:
	movq	88(%rsp), %rdi
	leaq	216(%r15), %rsi
	movq	%r12, %rdx
	movl	%ebx, %ecx
	callq	"sq_track::contacts::enter::<#bd73a11ec42be588>"
	movl	%edx, %r11d
	jmp	.LBB91_134
.LBB91_123:
	testq	%r9, %r9
	je	.LBB91_131
	leaq	(%rsi,%r10), %rax
	movq	8(%rsp), %rcx
	xorq	208(%rcx), %rax
	movabsq	$-7046029254386353123, %rcx
	mulq	%rcx
	xorq	%rax, %rdx
	movq	%rdx, %r15
	shrq	$32, %r15
	xorl	%edx, %r15d
	movl	%r15d, %ecx
	shrl	$24, %ecx
	cmpb	$1, %cl
	adcl	$0, %ecx
	movl	$4294967295, %eax
	addl	%r9d, %eax
	andl	%r15d, %eax
	movd	%ecx, %xmm0
	punpcklbw	%xmm0, %xmm0
	movl	$1, %edx
	shll	%cl, %edx
	pshuflw	$0, %xmm0, %xmm0
	pshufd	$68, %xmm0, %xmm0
	movq	%rax, %r15
.LBB91_125:
	movq	%r15, %r13
	shlq	$6, %r13
	leaq	(%r8,%r13), %r12
	movdqu	(%r8,%r13), %xmm1
	pcmpeqb	%xmm0, %xmm1
	pmovmskb	%xmm1, %r13d
	andl	$4095, %r13d
	je	.LBB91_129
	movzwl	%r13w, %r13d
	.p2align	4
.LBB91_127:
	rep		bsfl	%r13d, %ecx
	movl	16(%r12,%rcx,4), %ecx
	cmpl	(%rdi,%rcx,4), %ebx
	je	.LBB91_114
	leal	-1(%r13), %ecx
	andl	%r13d, %ecx
	movl	%ecx, %r13d
	jne	.LBB91_127
.LBB91_129:
	testl	%edx, 12(%r12)
	je	.LBB91_131
	incq	%r15
	leaq	-1(%r9), %rcx
	andq	%rcx, %r15
	cmpq	%rax, %r15
	jne	.LBB91_125
.LBB91_131:
	movq	8(%rsp), %rdx
	movl	248(%rdx), %ecx
	movb	$9, %al
	cmpq	%rcx, %r11
	jbe	.LBB91_149
	movq	104(%rdx), %rdx
	imulq	$296, %rcx, %rcx
	xorl	%r11d, %r11d
	movq	%r14, %r15
	subq	(%rdx,%rcx), %r15
	cmovbq	%r11, %r15
	cmpq	72(%rsp), %r15
	jbe	.LBB91_107
	jmp	.LBB91_114
.LBB91_133:
	xorl	%eax, %eax
.LBB91_134:
	testb	%al, %al
	movq	32(%rsp), %r8
	movq	40(%rsp), %rdx
	jne	.LBB91_204
	movq	%r14, %r9
	movq	%r12, 64(%rsp)
	movq	104(%r15), %rax
	movq	216(%r15), %rcx
	movl	%r11d, %esi
	movq	(%rcx,%rsi,8), %rcx
	movq	%rcx, 96(%rsp)
	imulq	$296, %rsi, %rcx
	leaq	(%rax,%rcx), %rdi
	movq	%r14, (%rax,%rcx)
	cmpb	$0, 56(%rsp)
	movq	%rsi, 288(%rsp)
	movq	%rdi, 264(%rsp)
	je	.LBB91_138
	leaq	256(%rdi), %r12
	testb	%dl, %dl
	je	.LBB91_140
	movq	$1, 200(%rdi)
	movq	%r9, 208(%rdi)
	movq	16(%rsp), %rax
	movb	%al, 216(%rdi)
	movw	$0, 217(%rdi)
	movb	$0, 219(%rdi)
	movl	%ebx, 220(%rdi)
	movl	24(%rsp), %eax
	movl	%eax, 224(%rdi)
	leaq	148(%rsp), %rax
	movdqu	(%rax), %xmm0
	movdqu	%xmm0, 228(%rdi)
	movl	16(%rax), %eax
	movl	%eax, 244(%rdi)
	movzbl	152(%rdi), %eax
	movzbl	248(%rdi), %r15d
	xorl	%ecx, %ecx
	cmpb	$1, %r15b
	cmovneq	%rcx, %r12
	leaq	160(%rdi), %rsi
	jmp	.LBB91_143
.LBB91_138:
	leaq	112(%rdi), %r12
	testb	%dl, %dl
	je	.LBB91_142
	movq	$1, 56(%rdi)
	movq	%r9, 64(%rdi)
	movq	16(%rsp), %rax
	movb	%al, 72(%rdi)
	movw	$0, 73(%rdi)
	movb	$0, 75(%rdi)
	movl	%ebx, 76(%rdi)
	movl	24(%rsp), %eax
	movl	%eax, 80(%rdi)
	leaq	148(%rsp), %rax
	movdqu	(%rax), %xmm0
	movdqu	%xmm0, 84(%rdi)
	movl	16(%rax), %eax
	movl	%eax, 100(%rdi)
	movzbl	8(%rdi), %eax
	movzbl	104(%rdi), %r15d
	xorl	%ecx, %ecx
	cmpb	$1, %r15b
	cmovneq	%rcx, %r12
	leaq	16(%rdi), %rsi
	jmp	.LBB91_143
.LBB91_140:
	movq	$1, 152(%rdi)
	movq	%r9, 160(%rdi)
	movq	16(%rsp), %rax
	movb	%al, 168(%rdi)
	movw	$0, 169(%rdi)
	movb	$0, 171(%rdi)
	movl	%ebx, 172(%rdi)
	movl	24(%rsp), %eax
	movl	%eax, 176(%rdi)
	leaq	148(%rsp), %rax
	movdqu	(%rax), %xmm0
	movdqu	%xmm0, 180(%rdi)
	movl	16(%rax), %eax
	movl	%eax, 196(%rdi)
	movzbl	200(%rdi), %eax
	movzbl	248(%rdi), %r15d
	xorl	%ecx, %ecx
	cmpb	$1, %r15b
	cmovneq	%rcx, %r12
	leaq	208(%rdi), %rsi
	jmp	.LBB91_143
.LBB91_141:
	movb	$2, %al
	movl	%eax, 56(%rsp)
	movq	%r10, %r14
	xorl	%r9d, %r9d
	xorl	%r8d, %r8d
	jmp	.LBB91_104
.LBB91_142:
	movq	$1, 8(%rdi)
	movq	%r9, 16(%rdi)
	movq	16(%rsp), %rax
	movb	%al, 24(%rdi)
	movw	$0, 25(%rdi)
	movb	$0, 27(%rdi)
	movl	%ebx, 28(%rdi)
	movl	24(%rsp), %eax
	movl	%eax, 32(%rdi)
	leaq	148(%rsp), %rax
	movdqu	(%rax), %xmm0
	movdqu	%xmm0, 36(%rdi)
	movl	16(%rax), %eax
	movl	%eax, 52(%rdi)
	movzbl	56(%rdi), %eax
	movzbl	104(%rdi), %r15d
	xorl	%ecx, %ecx
	cmpb	$1, %r15b
	cmovneq	%rcx, %r12
	leaq	64(%rdi), %rsi
.LBB91_143:
	cmpb	$1, %al
	cmovneq	%rcx, %rsi
	movb	$2, %r14b
	cmpb	$1, %al
	movq	%r11, 304(%rsp)
	jne	.LBB91_146
	xorl	%r10d, %r10d
	movq	%r9, %rax
	subq	(%rsi), %rax
	movl	$0, %ecx
	cmovaeq	%rax, %rcx
	cmpq	72(%rsp), %rcx
	jbe	.LBB91_147
	xorl	%esi, %esi
	jmp	.LBB91_157
.LBB91_146:
	xorl	%r10d, %r10d
	xorl	%esi, %esi
	jmp	.LBB91_157
.LBB91_147:
	pxor	%xmm0, %xmm0
	movdqa	%xmm0, 176(%rsp)
	movq	$0, 192(%rsp)
	movzbl	16(%rsi), %ecx
	cmpb	$2, %cl
	jne	.LBB91_150
	xorl	%eax, %eax
	jmp	.LBB91_155
.LBB91_149:
	xorl	%r11d, %r11d
	jmp	.LBB91_107
.LBB91_150:
	movb	$1, %al
	cmpl	%ebx, 12(%rsi)
	jne	.LBB91_155
	testb	%cl, %cl
	je	.LBB91_180
	cmpb	$1, 56(%rsp)
	jne	.LBB91_156
	movq	%r9, 200(%rsp)
	addq	$20, %rsi
	movzbl	%r13b, %ecx
	leaq	176(%rsp), %rdi
	leaq	148(%rsp), %rdx
	movq	208(%rsp), %r8
	callq	"sq_message::place::ground_pair"
	cmpb	$0, 176(%rsp)
	je	.LBB91_183
	movzbl	177(%rsp), %eax
	movzbl	178(%rsp), %esi
	movzbl	179(%rsp), %r10d
	movq	200(%rsp), %r9
	jmp	.LBB91_194
.LBB91_155:
	xorl	%r10d, %r10d
	movb	$3, %r14b
	movb	$5, %dil
	xorl	%edx, %edx
	movzbl	%al, %eax
	leaq	.LJTI91_0(%rip), %rcx
	movslq	(%rcx,%rax,4), %rax
	addq	%rcx, %rax
	xorl	%esi, %esi
	xorl	%ecx, %ecx
	jmpq	*%rax
.LBB91_156:
	xorl	%r10d, %r10d
	xorl	%esi, %esi
	movb	$2, %r14b
.LBB91_157:
	testb	$1, %r15b
	je	.LBB91_160
	xorl	%eax, %eax
	movq	%r9, %rcx
	subq	(%r12), %rcx
	cmovaeq	%rcx, %rax
	pxor	%xmm0, %xmm0
	movdqa	%xmm0, 176(%rsp)
	movq	$0, 192(%rsp)
	cmpq	72(%rsp), %rax
	ja	.LBB91_160
	leaq	8(%r12), %rdx
	leaq	176(%rsp), %rdi
	movq	%rsi, 16(%rsp)
	leaq	136(%rsp), %rsi
	movq	%r9, %rbx
	movq	%r12, %r13
	movl	%r15d, %r12d
	movq	%r10, %r15
	callq	"sq_message::place::place_local"
	movq	%r15, %r10
	movl	%r12d, %r15d
	movq	%r13, %r12
	movq	16(%rsp), %rsi
	movq	%rbx, %r9
	cmpb	$0, 176(%rsp)
	je	.LBB91_176
.LBB91_160:
	movl	%r10d, %edx
	movl	%esi, %ecx
	movl	%r14d, %edi
.LBB91_161:
	movq	%rdi, 48(%rsp)
	movq	%rcx, 24(%rsp)
	movq	%rdx, 40(%rsp)
	movq	%r9, %r14
	cmpb	$1, %r15b
	jne	.LBB91_163
	movq	(%r12), %r8
	movq	8(%r12), %rcx
	movq	16(%r12), %rax
	movq	24(%r12), %rsi
	movq	32(%r12), %rdx
	movl	$1, %edi
	xorl	%r12d, %r12d
	movq	$0, 16(%rsp)
	xorl	%r13d, %r13d
	xorl	%r11d, %r11d
	xorl	%ebx, %ebx
	jmp	.LBB91_164
.LBB91_163:
	xorl	%r12d, %r12d
	movq	$0, 16(%rsp)
	xorl	%r13d, %r13d
	xorl	%r11d, %r11d
	xorl	%ebx, %ebx
	xorl	%r8d, %r8d
	xorl	%edi, %edi
	xorl	%edx, %edx
	xorl	%esi, %esi
	xorl	%eax, %eax
	xorl	%ecx, %ecx
.LBB91_164:
	movq	8(%rsp), %r9
	movq	64(%rsp), %r10
	cmpb	$0, 56(%rsp)
	je	.LBB91_166
.LBB91_165:
	movq	264(%rsp), %r15
	movq	%rdi, 248(%r15)
	movq	%r8, 256(%r15)
	movq	%rcx, 264(%r15)
	movq	%rax, 272(%r15)
	movq	%rsi, 280(%r15)
	movq	%rdx, 288(%r15)
	jmp	.LBB91_167
.LBB91_166:
	movq	264(%rsp), %r15
	movq	%rdi, 104(%r15)
	movq	%r8, 112(%r15)
	movq	%rcx, 120(%r15)
	movq	%rax, 128(%r15)
	movq	%rsi, 136(%r15)
	movq	%rdx, 144(%r15)
.LBB91_167:
	movq	96(%rsp), %r8
	movq	%r8, %rcx
	shrq	$32, %rcx
	movl	(%r10), %eax
	cmpl	%ecx, %eax
	je	.LBB91_171
	movq	304(%rsp), %rdi
	cmpl	%eax, %edi
	movq	%r14, %r10
	je	.LBB91_170
	movq	296(%rsp), %rdx
	movq	(%rdx), %rdx
	movl	%r8d, %esi
	movl	%ecx, 4(%rdx,%rsi,8)
	movl	%r8d, (%rdx,%rcx,8)
	movl	(%rdx,%rax,8), %ecx
	movl	%edi, 4(%rdx,%rcx,8)
	movq	288(%rsp), %rsi
	movl	%ecx, (%rdx,%rsi,8)
	movl	%eax, 4(%rdx,%rsi,8)
	movl	%edi, (%rdx,%rax,8)
	jmp	.LBB91_172
.LBB91_170:
	movl	%ecx, %eax
	jmp	.LBB91_172
.LBB91_171:
	movl	%ecx, %eax
	movq	%r14, %r10
.LBB91_172:
	movl	%eax, 248(%r9)
	movq	8(%r9), %rsi
	movq	256(%r9), %rax
	xorl	%ecx, %ecx
	movq	%r10, %rdx
	subq	%rax, %rdx
	cmovaeq	%rdx, %rcx
	cmpq	%rsi, %rcx
	jbe	.LBB91_174
	movq	88(%rsp), %rdi
	movq	%r10, %rdx
	movq	%r10, %r15
	movq	%r12, %r14
	movq	%r11, %r12
	callq	"sq_track::tracker::look_through::<#bd73a11ec42be588>"
	movq	%r12, %r11
	movq	%r14, %r12
	movq	%r15, %r10
	movq	8(%rsp), %r9
.LBB91_174:
	movzbl	16(%rsp), %ecx
	shlq	$32, %rcx
	movl	%r13d, %r8d
	orq	%rcx, %r8
	movq	%rax, 256(%r9)
	movq	$1, 56(%r9)
	movq	%r10, 64(%r9)
	testb	%bl, %bl
	sete	16(%rsp)
	movb	$60, %cl
	subb	%r11b, %cl
	movzbl	%cl, %ecx
	shll	$17, %ecx
	movq	%rcx, 8(%rsp)
	movl	%r12d, %edx
	movq	112(%rsp), %r11
	movl	56(%rsp), %r14d
	movq	48(%rsp), %rbx
.LBB91_175:
	movl	%r10d, %ecx
	shrl	$8, %ecx
	movq	%r10, %r15
	movq	%rcx, %r10
	movq	%r15, %r12
	shrq	$32, %r12
	movq	104(%rsp), %rcx
	movq	%rcx, %rsi
	shrq	$32, %rsi
	movl	%r15d, %r13d
	andl	$-65536, %r13d
	cmpb	$20, %cl
	setae	%dil
	movq	%r8, %rax
	shrq	$32, %rax
	movq	184(%rbp), %r9
	movq	80(%rsp), %rcx
	addq	%rcx, %r9
	incq	%r9
	movq	%r9, 184(%rbp)
	movq	%r9, 176(%rbp)
	movq	200(%rbp), %r9
	shrq	%cl, %r9
	shrq	%r9
	movq	%r9, 200(%rbp)
	movq	%r12, %r9
	movdqu	16(%rbp), %xmm0
	pcmpeqd	%xmm1, %xmm1
	psubq	%xmm1, %xmm0
	movdqu	%xmm0, 16(%rbp)
	movslq	%r8d, %rcx
	movq	%xmm0, %r12
	movb	$1, %r8b
	jmp	.LBB91_56
.LBB91_176:
	movzbl	180(%rsp), %ebx
	movzbl	184(%rsp), %r11d
	movl	188(%rsp), %r13d
	movzbl	192(%rsp), %ecx
	movl	196(%rsp), %r12d
	movl	$60, %eax
	subl	%r11d, %eax
	shll	$17, %eax
	movl	%ecx, %edx
	shll	$17, %edx
	imulq	$23592960, %rcx, %rdi
	movq	%rcx, 16(%rsp)
	imulq	$-47185920, %rcx, %rsi
	movslq	%r13d, %rcx
	testb	%bl, %bl
	je	.LBB91_178
	imulq	$90, %rcx, %rcx
	imulq	$90, %r12, %r8
	xorl	%r10d, %r10d
	cmpq	%rdi, %r8
	movl	$0, %edi
	movq	%rdi, 40(%rsp)
	cmovbq	%r10, %rsi
	addq	%r8, %rsi
	movl	$1, %edi
	movb	$1, %r8b
	movq	%r8, 48(%rsp)
	movq	$0, 24(%rsp)
	jmp	.LBB91_179
.LBB91_178:
	imulq	$360, %rcx, %rcx
	imulq	$360, %r12, %r8
	xorl	%r10d, %r10d
	cmpq	%rdi, %r8
	movl	$0, %edi
	movq	%rdi, 40(%rsp)
	cmovbq	%r10, %rsi
	addq	%r8, %rsi
	movl	$1, %edi
	movb	$1, %r8b
	movq	%r8, 48(%rsp)
	movq	$0, 24(%rsp)
	xorl	%ebx, %ebx
.LBB91_179:
	movq	%r9, %r14
	movq	%r9, %r8
	jmp	.LBB91_164
.LBB91_180:
	cmpb	$0, 56(%rsp)
	jne	.LBB91_156
	cmpb	%dl, 20(%rsi)
	jne	.LBB91_185
	movb	$3, %al
	xorl	%r10d, %r10d
	xorl	%esi, %esi
	jmp	.LBB91_194
.LBB91_183:
	movzbl	180(%rsp), %ebx
	movzbl	184(%rsp), %r11d
	movl	188(%rsp), %r15d
	movzbl	192(%rsp), %r13d
	movl	196(%rsp), %r12d
	testb	%bl, %bl
	je	.LBB91_196
	movzbl	%r11b, %edx
	movslq	%r15d, %rax
	movq	%r13, 16(%rsp)
	movzbl	%r13b, %esi
	imulq	$90, %rax, %rcx
	movl	$60, %eax
	subl	%edx, %eax
	shll	$17, %eax
	imulq	$23592960, %rsi, %rdi
	imulq	$-47185920, %rsi, %r8
	movl	%esi, %edx
	shll	$17, %edx
	imulq	$90, %r12, %r9
	movq	$0, 48(%rsp)
	cmpq	%rdi, %r9
	movl	$0, %esi
	cmovaeq	%r8, %rsi
	addq	%r9, %rsi
	movl	$1, %edi
	movq	200(%rsp), %r8
	movq	%r8, %r14
	movq	$0, 24(%rsp)
	movq	$0, 40(%rsp)
	movq	8(%rsp), %r9
	movq	64(%rsp), %r10
	movq	%r15, %r13
	jmp	.LBB91_165
.LBB91_185:
	movq	%r9, 200(%rsp)
	movq	48(%rsp), %rdi
	movq	%rdi, %rbp
	shrq	$32, %rbp
	testb	%dl, %dl
	movl	24(%rsi), %eax
	movl	%eax, %ecx
	cmovel	%edi, %ecx
	movl	28(%rsi), %edx
	movl	%edx, %esi
	cmovel	%ebp, %esi
	movl	%esi, 24(%rsp)
	cmovel	%eax, %edi
	cmovnel	%ebp, %edx
	movl	%edx, 16(%rsp)
	imulq	$59, %rcx, %rax
	movq	%rdi, %rbx
	imulq	$-60, %rdi, %rdx
	leaq	(%rax,%rdx), %r13
	addq	$7929856, %r13
	andq	$-131072, %r13
	leaq	(%rcx,%r13), %rax
	addq	$-7864320, %rax
	movq	%rax, 208(%rsp)
	leaq	7864319(,%rax,2), %rdi
	cmpq	$15728640, %rdi
	jae	.LBB91_199
	addq	%r13, %rbx
	addq	$-7864320, %rbx
	leaq	7733247(,%rbx,2), %rdi
	cmpq	$15466496, %rdi
	jae	.LBB91_200
.LBB91_187:
	movslq	208(%rsp), %rax
	imulq	$360, %rax, %rdi
	movq	%rdi, %rcx
	negq	%rcx
	cmovsq	%rdi, %rcx
	movb	$5, %al
	cmpq	$707788800, %rcx
	ja	.LBB91_192
	movslq	%ebx, %rcx
	imulq	$360, %rcx, %r13
	movq	%r13, %rcx
	negq	%rcx
	cmovsq	%r13, %rcx
	cmpq	$695992320, %rcx
	ja	.LBB91_192
	movl	$7864320, %esi
	callq	"sq_zones::zones::zone_count"
	movl	%eax, %r14d
	movl	$7733248, %esi
	movq	%r13, %rdi
	callq	"sq_zones::zones::zone_count"
	movq	%r14, %r13
	cmpb	%al, %r14b
	jne	.LBB91_198
	movq	%r13, %rdx
	leal	-1(%r13), %eax
	movzbl	%al, %eax
	cmpb	$2, %al
	movl	$1, %ecx
	cmovael	%eax, %ecx
	movzbl	%cl, %r14d
	movl	24(%rsp), %eax
	imulq	%r14, %rax
	movzbl	%dl, %esi
	movl	16(%rsp), %ecx
	imulq	%rsi, %rcx
	subq	%rcx, %rax
	addq	$7929856, %rax
	andq	$-131072, %rax
	leaq	(%rax,%rbp), %rdi
	addq	$-7864320, %rdi
	cmpb	$0, 40(%rsp)
	je	.LBB91_201
	movl	%r14d, %esi
	movl	$1, %edx
	callq	"sq_cpr::index::on_circle"
	movl	%eax, %r12d
	movq	%rbx, 208(%rsp)
	movl	%r14d, %r13d
	jmp	.LBB91_202
.LBB91_192:
	xorl	%r10d, %r10d
	xorl	%esi, %esi
	movq	200(%rsp), %r9
.LBB91_193:
	movq	224(%rsp), %rbp
.LBB91_194:
	movb	$3, %r14b
	movb	$5, %dil
	xorl	%edx, %edx
	movzbl	%al, %eax
	leaq	.LJTI91_0(%rip), %rcx
	movslq	(%rcx,%rax,4), %rax
	addq	%rcx, %rax
	xorl	%ecx, %ecx
	jmpq	*%rax
.LBB91_195:
	movb	$4, %dil
	xorl	%edx, %edx
	xorl	%ecx, %ecx
	jmp	.LBB91_161
.LBB91_196:
	movq	%r15, 208(%rsp)
.LBB91_197:
	movq	208(%rsp), %rsi
	movslq	%esi, %rax
	imulq	$360, %rax, %rcx
	movb	$60, %al
	subb	%r11b, %al
	movzbl	%al, %eax
	shll	$17, %eax
	movq	%r13, 16(%rsp)
	movzbl	%r13b, %edx
	movq	%rsi, %r13
	imulq	$23592960, %rdx, %rsi
	imulq	$-47185920, %rdx, %rdi
	shll	$17, %edx
	movl	%r12d, %r8d
	imulq	$360, %r8, %r8
	movq	$0, 40(%rsp)
	cmpq	%rsi, %r8
	movl	$0, %esi
	cmovaeq	%rdi, %rsi
	addq	%r8, %rsi
	movl	$1, %edi
	movq	$0, 24(%rsp)
	xorl	%ebx, %ebx
	movq	$0, 48(%rsp)
	movq	200(%rsp), %r8
	movq	%r8, %r14
	jmp	.LBB91_164
.LBB91_198:
	movq	%rax, %r10
	movb	$6, %al
	movq	200(%rsp), %r9
	movq	%r13, %rsi
	jmp	.LBB91_193
.LBB91_199:
	movl	$15728640, %esi
	callq	"sq_cpr::index::rare_quotient"
	imulq	$-7864320, %rax, %rax
	addq	%rax, 208(%rsp)
	addq	%r13, %rbx
	addq	$-7864320, %rbx
	leaq	7733247(,%rbx,2), %rdi
	cmpq	$15466496, %rdi
	jb	.LBB91_187
.LBB91_200:
	movl	$15466496, %esi
	callq	"sq_cpr::index::rare_quotient"
	imulq	$-7733248, %rax, %rax
	addq	%rax, %rbx
	jmp	.LBB91_187
.LBB91_201:
	movl	$1, %edx
	callq	"sq_cpr::index::on_circle"
	movl	%eax, %r12d
.LBB91_202:
	movq	40(%rsp), %r11
	movq	224(%rsp), %rbp
	jmp	.LBB91_197
.LBB91_203:
	movq	240(%rsp), %rdx
	movq	%r12, (%rdx)
	movq	%r8, 8(%rdx)
	movb	$0, 16(%rdx)
	jmp	.LBB91_3
.LBB91_204:
	movq	248(%rsp), %rax
	addq	256(%rsp), %rax
	movq	240(%rsp), %rdx
	movq	%rax, (%rdx)
	movq	%r8, 8(%rdx)
	movb	$2, 16(%rdx)
	jmp	.LBB91_3
.Lfunc_end91:
	.size	"squitter_c::log_loop::write_some::<#4e49cecb6d0bb978>", .Lfunc_end91-"squitter_c::log_loop::write_some::<#4e49cecb6d0bb978>"
	.section	".rodata.squitter_c::log_loop::write_some::<#4e49cecb6d0bb978>","a",@progbits
	.p2align	2, 0x0
.LJTI91_0:
	.long	.LBB91_156-.LJTI91_0
	.long	.LBB91_156-.LJTI91_0
	.long	.LBB91_156-.LJTI91_0
	.long	.LBB91_156-.LJTI91_0
	.long	.LBB91_161-.LJTI91_0
	.long	.LBB91_195-.LJTI91_0
	.long	.LBB91_157-.LJTI91_0
.LJTI91_1:
	.long	.LBB91_62-.LJTI91_1
	.long	.LBB91_74-.LJTI91_1
	.long	.LBB91_71-.LJTI91_1
	.long	.LBB91_72-.LJTI91_1
	.long	.LBB91_70-.LJTI91_1
	.long	.LBB91_75-.LJTI91_1
	.long	.LBB91_76-.LJTI91_1
	.long	.LBB91_73-.LJTI91_1
	.long	.LBB91_77-.LJTI91_1
	.long	.LBB91_5-.LJTI91_1
.LJTI91_2:
	.long	.LBB91_68-.LJTI91_2
	.long	.LBB91_81-.LJTI91_2
	.long	.LBB91_84-.LJTI91_2
	.long	.LBB91_85-.LJTI91_2
	.long	.LBB91_83-.LJTI91_2
	.long	.LBB91_86-.LJTI91_2
	.long	.LBB91_87-.LJTI91_2

	.section	".text.unlikely.sq_text::timed::more_digits","ax",@progbits
	.p2align	4
	.type	"sq_text::timed::more_digits",@function
"sq_text::timed::more_digits":
	movq	%rdx, %rax
	cmpq	$19, %rsi
	movl	$19, %edx
	cmovbq	%rsi, %rdx
	cmpq	%rcx, %rsi
	jbe	.LBB92_4
	.p2align	4
.LBB92_1:
	movzbl	(%rdi,%rcx), %esi
	addb	$-48, %sil
	cmpb	$9, %sil
	ja	.LBB92_2
	leaq	(%rax,%rax,4), %rax
	movzbl	%sil, %esi
	leaq	(%rsi,%rax,2), %rax
	incq	%rcx
	cmpq	%rdx, %rcx
	jb	.LBB92_1
.LBB92_4:
	retq
.LBB92_2:
	movq	%rcx, %rdx
	retq
.Lfunc_end92:
	.size	"sq_text::timed::more_digits", .Lfunc_end92-"sq_text::timed::more_digits"

	.section	".text.unlikely.sq_text::timed::split_longest","ax",@progbits
	.p2align	4
	.type	"sq_text::timed::split_longest",@function
"sq_text::timed::split_longest":
	cmpq	$21, %rdx
	jb	.LBB93_29
	cmpb	$32, 20(%rsi)
	jne	.LBB93_29
	movzbl	(%rsi), %r8d
	addb	$-48, %r8b
	cmpb	$9, %r8b
	ja	.LBB93_3
	movzbl	1(%rsi), %eax
	addb	$-48, %al
	cmpb	$9, %al
	ja	.LBB93_3
	pushq	%rbp
	pushq	%r15
	pushq	%r14
	pushq	%r13
	pushq	%r12
	pushq	%rbx
	movzbl	2(%rsi), %ebx
	addb	$-48, %bl
	cmpb	$9, %bl
	ja	.LBB93_7
	movzbl	3(%rsi), %r9d
	addb	$-48, %r9b
	cmpb	$9, %r9b
	ja	.LBB93_7
	movzbl	4(%rsi), %ebp
	addb	$-48, %bpl
	cmpb	$9, %bpl
	ja	.LBB93_7
	movzbl	5(%rsi), %r15d
	addb	$-48, %r15b
	cmpb	$9, %r15b
	ja	.LBB93_7
	movzbl	6(%rsi), %r12d
	addb	$-48, %r12b
	cmpb	$9, %r12b
	ja	.LBB93_7
	movzbl	7(%rsi), %r13d
	addb	$-48, %r13b
	cmpb	$9, %r13b
	ja	.LBB93_7
	movzbl	8(%rsi), %r11d
	addb	$-48, %r11b
	cmpb	$9, %r11b
	ja	.LBB93_7
	movzbl	9(%rsi), %r14d
	addb	$-48, %r14b
	cmpb	$9, %r14b
	ja	.LBB93_7
	movzbl	10(%rsi), %r10d
	addb	$-48, %r10b
	cmpb	$9, %r10b
	ja	.LBB93_7
	movzbl	11(%rsi), %ecx
	addb	$-48, %cl
	cmpb	$9, %cl
	ja	.LBB93_7
	movq	%rdx, -8(%rsp)
	movzbl	12(%rsi), %edx
	addb	$-48, %dl
	movb	%dl, -9(%rsp)
	cmpb	$9, %dl
	ja	.LBB93_18
	movzbl	13(%rsi), %edx
	addb	$-48, %dl
	movb	%dl, -10(%rsp)
	cmpb	$9, %dl
	ja	.LBB93_18
	movzbl	14(%rsi), %edx
	addb	$-48, %dl
	movb	%dl, -11(%rsp)
	cmpb	$9, %dl
	ja	.LBB93_18
	movzbl	15(%rsi), %edx
	addb	$-48, %dl
	movb	%dl, -12(%rsp)
	cmpb	$9, %dl
	ja	.LBB93_18
	movzbl	16(%rsi), %edx
	addb	$-48, %dl
	movb	%dl, -13(%rsp)
	cmpb	$9, %dl
	ja	.LBB93_18
	movzbl	17(%rsi), %edx
	addb	$-48, %dl
	movb	%dl, -14(%rsp)
	cmpb	$9, %dl
	ja	.LBB93_18
	movzbl	18(%rsi), %edx
	addb	$-48, %dl
	movb	%dl, -15(%rsp)
	cmpb	$9, %dl
	ja	.LBB93_18
	movzbl	19(%rsi), %edx
	addb	$-48, %dl
	movb	%dl, -16(%rsp)
	cmpb	$9, %dl
	ja	.LBB93_18
	movzbl	%r8b, %r8d
	addl	%r8d, %r8d
	leal	(%r8,%r8,4), %r8d
	addb	%r8b, %al
	movzbl	%al, %r8d
	movzbl	%bl, %eax
	movzbl	%r9b, %ebx
	movzbl	%bpl, %edx
	movzbl	%r15b, %ebp
	movzbl	%r12b, %r9d
	movzbl	%r13b, %r15d
	movzbl	%r11b, %r11d
	movzbl	%r14b, %r14d
	movzbl	%r10b, %r10d
	movzbl	%cl, %ecx
	leaq	(%r8,%r8,4), %r8
	leaq	(%rax,%r8,2), %r8
	movzbl	-9(%rsp), %eax
	movzbl	-10(%rsp), %r13d
	leaq	(%r8,%r8,4), %r8
	movl	%r8d, %r8d
	leaq	(%rbx,%r8,2), %r8
	movzbl	-11(%rsp), %ebx
	movzbl	-12(%rsp), %r12d
	leaq	(%r8,%r8,4), %r8
	leaq	(%rdx,%r8,2), %r8
	leaq	(%r8,%r8,4), %r8
	leaq	(%rbp,%r8,2), %r8
	leaq	(%r8,%r8,4), %r8
	leaq	(%r9,%r8,2), %r8
	leaq	(%r8,%r8,4), %r8
	leaq	(%r15,%r8,2), %r8
	leaq	(%r8,%r8,4), %r8
	leaq	(%r11,%r8,2), %r8
	leaq	(%r8,%r8,4), %r8
	leaq	(%r14,%r8,2), %r8
	leaq	(%r8,%r8,4), %r8
	leaq	(%r10,%r8,2), %r8
	leaq	(%r8,%r8,4), %r8
	leaq	(%rcx,%r8,2), %rcx
	leaq	(%rcx,%rcx,4), %rcx
	leaq	(%rax,%rcx,2), %rax
	leaq	(%rax,%rax,4), %rax
	leaq	(%r13,%rax,2), %rax
	leaq	(%rax,%rax,4), %rax
	leaq	(%rbx,%rax,2), %rax
	leaq	(%rax,%rax,4), %rax
	leaq	(%r12,%rax,2), %rax
	leaq	(%rax,%rax,4), %rax
	movzbl	-13(%rsp), %ecx
	leaq	(%rcx,%rax,2), %rax
	leaq	(%rax,%rax,4), %rax
	movzbl	-14(%rsp), %ecx
	leaq	(%rcx,%rax,2), %rax
	leaq	(%rax,%rax,4), %rax
	movzbl	-15(%rsp), %ecx
	leaq	(%rcx,%rax,2), %rax
	movl	$10, %ecx
	movzbl	-16(%rsp), %r9d
	mulq	%rcx
	xorl	%r8d, %r8d
	addq	%rax, %r9
	adcq	$0, %rdx
	sete	%al
	cmoveq	%r9, %r8
	jmp	.LBB93_27
.LBB93_29:
	xorps	%xmm0, %xmm0
	movups	%xmm0, 16(%rdi)
	movups	%xmm0, (%rdi)
	retq
.LBB93_3:
	xorl	%r8d, %r8d
	xorl	%eax, %eax
	jmp	.LBB93_4
.LBB93_7:
	xorl	%r8d, %r8d
	xorl	%eax, %eax
.LBB93_28:
	popq	%rbx
	popq	%r12
	popq	%r13
	popq	%r14
	popq	%r15
	popq	%rbp
.LBB93_4:
	addq	$21, %rsi
	addq	$-21, %rdx
	xorl	%ecx, %ecx
	testb	%al, %al
	cmoveq	%rcx, %r8
	cmoveq	%rcx, %rsi
	cmoveq	%rcx, %rdx
	movzbl	%al, %eax
	movq	%rax, (%rdi)
	movq	%r8, 8(%rdi)
	movq	%rsi, 16(%rdi)
	movq	%rdx, 24(%rdi)
	retq
.LBB93_18:
	xorl	%r8d, %r8d
	xorl	%eax, %eax
.LBB93_27:
	movq	-8(%rsp), %rdx
	jmp	.LBB93_28
.Lfunc_end93:
	.size	"sq_text::timed::split_longest", .Lfunc_end93-"sq_text::timed::split_longest"

	.section	.rodata.cst16,"aM",@progbits,16
	.p2align	4, 0x0
.LCPI94_0:
	.zero	16,10
.LCPI94_1:
	.zero	16,198
.LCPI94_2:
	.zero	16,245
.LCPI94_3:
	.zero	16,6
.LCPI94_4:
	.zero	16,16
.LCPI94_5:
	.zero	16,223
.LCPI94_6:
	.zero	16,64
.LCPI94_7:
	.zero	16,191
.LCPI94_8:
	.short	255
	.short	255
	.short	255
	.short	255
	.short	255
	.short	255
	.short	255
	.short	255
.LCPI94_9:
	.zero	16,240
.LCPI94_10:
	.short	0
	.short	65535
	.short	65535
	.short	65535
	.short	0
	.short	0
	.short	0
	.short	0
.LCPI94_11:
	.byte	44
	.byte	34
	.byte	109
	.byte	111
	.byte	109
	.byte	101
	.byte	110
	.byte	116
	.byte	34
	.byte	58
	.byte	110
	.byte	117
	.byte	108
	.byte	108
	.byte	44
	.byte	34
.LCPI94_12:
	.byte	34
	.byte	44
	.byte	34
	.byte	97
	.byte	100
	.byte	100
	.byte	114
	.byte	101
	.byte	115
	.byte	115
	.byte	34
	.byte	58
	.byte	110
	.byte	117
	.byte	108
	.byte	108
.LCPI94_13:
	.byte	44
	.byte	34
	.byte	107
	.byte	105
	.byte	110
	.byte	100
	.byte	34
	.byte	58
	.byte	110
	.byte	117
	.byte	108
	.byte	108
	.byte	44
	.byte	34
	.byte	108
	.byte	97
.LCPI94_14:
	.byte	116
	.byte	34
	.byte	58
	.byte	110
	.byte	117
	.byte	108
	.byte	108
	.byte	44
	.byte	34
	.byte	108
	.byte	111
	.byte	110
	.byte	34
	.byte	58
	.byte	110
	.byte	117
.LCPI94_15:
	.byte	108
	.byte	108
	.byte	44
	.byte	34
	.byte	102
	.byte	101
	.byte	101
	.byte	116
	.byte	34
	.byte	58
	.byte	110
	.byte	117
	.byte	108
	.byte	108
	.byte	125
	.byte	10
	.section	".text.squitter_c::log_loop::write_some::<#507aa2edf0378fed>","ax",@progbits
	.p2align	4
	.type	"squitter_c::log_loop::write_some::<#507aa2edf0378fed>",@function
"squitter_c::log_loop::write_some::<#507aa2edf0378fed>":
	pushq	%rbp
	pushq	%r15
	pushq	%r14
	pushq	%r13
	pushq	%r12
	pushq	%rbx
	subq	$312, %rsp
	movq	%r8, 304(%rsp)
	movq	%rcx, 272(%rsp)
	movq	%rdi, 248(%rsp)
	movq	376(%rsp), %r15
	movq	368(%rsp), %rax
	movl	$0, 147(%rsp)
	movl	$0, 144(%rsp)
	subq	%r15, %rax
	cmpq	$512, %rax
	jb	.LBB94_356
	movq	%r9, %r11
	movq	%rdx, %r13
	movq	%rsi, %rbp
	leaq	8(%rdx), %r10
	movq	%r9, %rax
	subq	%rdx, %rax
	addq	$-8, %rax
	movq	%rax, 296(%rsp)
	leaq	16(%r9), %rax
	movq	%rax, 280(%rsp)
	leaq	3(%r9), %rax
	movq	%rax, 288(%rsp)
	xorl	%esi, %esi
	movq	%r9, 24(%rsp)
	jmp	.LBB94_5
	.p2align	4
.LBB94_2:
	movq	%r10, %rsi
	callq	memmove@PLT
	leaq	8(%r13), %r10
	movq	24(%rsp), %r11
	movq	240(%rsp), %r9
.LBB94_3:
	addq	520(%r13), %r15
	movq	256(%rsp), %rsi
.LBB94_4:
	addq	%r9, %rsi
	movq	368(%rsp), %rax
	subq	%r15, %rax
	cmpq	$511, %rax
	jbe	.LBB94_357
.LBB94_5:
	movq	200(%rbp), %rdx
	xorl	%r12d, %r12d
	testq	%rdx, %rdx
	je	.LBB94_7
	xorl	%r9d, %r9d
	jmp	.LBB94_10
	.p2align	4
.LBB94_7:
	movq	304(%rsp), %rdx
	subq	%rsi, %rdx
	je	.LBB94_359
	movq	176(%rbp), %rax
	movq	192(%rbp), %rcx
	movdqu	41(%rbp,%rcx), %xmm0
	movdqu	57(%rbp,%rcx), %xmm1
	movdqu	73(%rbp,%rcx), %xmm2
	movdqu	89(%rbp,%rcx), %xmm3
	movdqu	%xmm2, 73(%rbp)
	movdqu	%xmm3, 89(%rbp)
	movdqu	%xmm0, 41(%rbp)
	movdqu	%xmm1, 57(%rbp)
	xorl	%edi, %edi
	subq	%rcx, %rax
	cmovaeq	%rax, %rdi
	movq	%rdi, 176(%rbp)
	movq	$65, 184(%rbp)
	pxor	%xmm0, %xmm0
	leaq	192(%rbp), %rax
	movdqu	%xmm0, (%rax)
	cmpq	$63, %rdx
	jbe	.LBB94_30
	movq	272(%rsp), %rax
	movdqu	(%rax,%rsi), %xmm0
	movdqu	16(%rax,%rsi), %xmm1
	movdqu	32(%rax,%rsi), %xmm2
	movdqu	48(%rax,%rsi), %xmm3
	movdqu	%xmm2, 137(%rbp)
	movdqu	%xmm3, 153(%rbp)
	movdqu	%xmm0, 105(%rbp)
	movdqu	%xmm1, 121(%rbp)
	movdqa	.LCPI94_0(%rip), %xmm4
	pcmpeqb	%xmm4, %xmm3
	pcmpeqb	%xmm4, %xmm2
	pcmpeqb	%xmm4, %xmm1
	pcmpeqb	%xmm4, %xmm0
	pmovmskb	%xmm0, %eax
	pmovmskb	%xmm1, %ecx
	shll	$16, %ecx
	orl	%eax, %ecx
	pmovmskb	%xmm2, %eax
	shlq	$32, %rax
	orq	%rcx, %rax
	pmovmskb	%xmm3, %edx
	shlq	$48, %rdx
	orq	%rax, %rdx
	movq	%rdx, 200(%rbp)
	movq	$64, 192(%rbp)
	movl	$64, %r9d
	testq	%rdx, %rdx
	je	.LBB94_4
.LBB94_10:
	movq	%r15, 96(%rsp)
	rep		bsfq	%rdx, %r15
	movq	176(%rbp), %rbx
	movq	184(%rbp), %rcx
	movq	%r15, %r14
	subq	%rbx, %r14
	addq	%rcx, %r14
	cmpq	$64, %r14
	movq	%r9, 240(%rsp)
	jbe	.LBB94_12
	movq	%r11, %rbx
	movq	%rsi, 256(%rsp)
	xorl	%eax, %eax
	xorl	%edi, %edi
	xorl	%r14d, %r14d
	jmp	.LBB94_52
	.p2align	4
.LBB94_12:
	testq	%r14, %r14
	je	.LBB94_19
	leaq	40(%rbp), %rax
	addq	%rax, %rbx
	cmpb	$13, -1(%rbx,%r14)
	jne	.LBB94_15
	decq	%r14
	je	.LBB94_19
.LBB94_15:
	cmpq	$15, %r14
	movq	%rsi, 256(%rsp)
	jbe	.LBB94_34
	movdqu	(%rbx), %xmm0
	movdqa	.LCPI94_1(%rip), %xmm1
	paddb	%xmm0, %xmm1
	movdqa	.LCPI94_2(%rip), %xmm2
	pminub	%xmm1, %xmm2
	pcmpeqb	%xmm1, %xmm2
	pmovmskb	%xmm2, %eax
	orl	$65536, %eax
	rep		bsfl	%eax, %edx
	testl	%edx, %edx
	je	.LBB94_50
	movq	%xmm0, %rax
	cmpw	$8, %dx
	ja	.LBB94_20
	leal	(,%rdx,8), %ecx
	negb	%cl
	shlq	%cl, %rax
	movabsq	$1085102592571150095, %rcx
	andq	%rcx, %rax
	imulq	$2561, %rax, %rax
	shrq	$8, %rax
	movabsq	$71777214294589695, %rcx
	andq	%rcx, %rax
	imulq	$6553601, %rax, %rcx
	shrq	$16, %rcx
	movabsq	$281470681808895, %rax
	andq	%rax, %rcx
	movabsq	$42949672960001, %rax
	imulq	%rax, %rcx
	shrq	$32, %rcx
	movq	%rcx, 16(%rsp)
	testq	%rdx, %rdx
	jne	.LBB94_22
	jmp	.LBB94_49
	.p2align	4
.LBB94_19:
	leaq	(%r15,%rcx), %rax
	incq	%rax
	movq	%rax, 184(%rbp)
	movq	%rax, 176(%rbp)
	movl	%r15d, %ecx
	shrq	%cl, %rdx
	shrq	%rdx
	movq	%rdx, 200(%rbp)
	incq	16(%rbp)
	movq	96(%rsp), %r15
	jmp	.LBB94_4
.LBB94_20:
	leaq	-8(%rdx), %rcx
	shll	$3, %ecx
	negb	%cl
	shlq	%cl, %rax
	movabsq	$1085102592571150095, %rsi
	andq	%rsi, %rax
	imulq	$2561, %rax, %rax
	shrq	$8, %rax
	movabsq	$71777214294589695, %rdi
	andq	%rdi, %rax
	imulq	$6553601, %rax, %rax
	shrq	$16, %rax
	movabsq	$281470681808895, %r8
	andq	%r8, %rax
	movabsq	$42949672960001, %r9
	imulq	%r9, %rax
	shrq	$32, %rax
	imulq	$100000000, %rax, %rax
	movq	-8(%rbx,%rdx), %rcx
	andq	%rsi, %rcx
	imulq	$2561, %rcx, %rcx
	shrq	$8, %rcx
	andq	%rdi, %rcx
	imulq	$6553601, %rcx, %rcx
	shrq	$16, %rcx
	andq	%r8, %rcx
	imulq	%r9, %rcx
	shrq	$32, %rcx
	addq	%rax, %rcx
	movq	%rcx, 16(%rsp)
	cmpw	$16, %dx
	jae	.LBB94_47
	testq	%rdx, %rdx
	je	.LBB94_49
.LBB94_22:
	cmpq	%r14, %rdx
	jae	.LBB94_49
	cmpb	$32, (%rbx,%rdx)
	jne	.LBB94_49
	leaq	(%rbx,%rdx), %rsi
	incq	%rsi
	incq	%rdx
	subq	%rdx, %r14
.LBB94_25:
	pxor	%xmm0, %xmm0
	movdqa	%xmm0, 208(%rsp)
	movdqa	%xmm0, 192(%rsp)
	movq	$0, 224(%rsp)
	cmpq	$30, %r14
	je	.LBB94_31
	cmpq	$2, %r14
	jb	.LBB94_43
	cmpb	$42, (%rsi)
	movzbl	-1(%rsi,%r14), %ecx
	jne	.LBB94_35
	cmpb	$59, %cl
	jne	.LBB94_43
	leaq	1(%rsi), %rax
	leaq	-2(%r14), %rdx
	jmp	.LBB94_36
.LBB94_30:
	movq	272(%rsp), %rax
	movq	%rsi, %rbx
	addq	%rax, %rsi
	leaq	40(%rbp), %rdi
	movq	%rdx, %r14
	callq	"sq_log::marked_bytes::MarkedBytes::fill_part"
	movq	%r14, %r9
	movq	%rbx, %rsi
	leaq	8(%r13), %r10
	movq	24(%rsp), %r11
	movq	200(%rbp), %rdx
	testq	%rdx, %rdx
	jne	.LBB94_10
	jmp	.LBB94_4
.LBB94_31:
	cmpb	$42, (%rsi)
	jne	.LBB94_43
	cmpb	$59, 29(%rsi)
	jne	.LBB94_43
	leaq	1(%rsi), %rcx
	jmp	.LBB94_37
.LBB94_34:
	movq	%rbx, %rdi
	movq	%r14, %rsi
	xorl	%edx, %edx
	xorl	%ecx, %ecx
	jmp	.LBB94_48
.LBB94_35:
	movq	%r14, %rdx
	movq	%rsi, %rax
	cmpb	$59, %cl
	je	.LBB94_43
.LBB94_36:
	xorl	%ecx, %ecx
	cmpq	$28, %rdx
	cmoveq	%rax, %rcx
	jne	.LBB94_43
.LBB94_37:
	movdqa	.LCPI94_1(%rip), %xmm2
	movdqu	(%rcx), %xmm1
	movdqu	12(%rcx), %xmm0
	movdqa	%xmm1, %xmm4
	paddb	%xmm2, %xmm4
	movdqa	.LCPI94_3(%rip), %xmm5
	psubusb	%xmm5, %xmm4
	movdqa	.LCPI94_4(%rip), %xmm3
	paddb	%xmm3, %xmm4
	movdqa	.LCPI94_5(%rip), %xmm6
	pand	%xmm6, %xmm1
	movdqa	.LCPI94_6(%rip), %xmm7
	movdqa	%xmm7, %xmm8
	psubb	%xmm1, %xmm8
	movdqa	.LCPI94_0(%rip), %xmm9
	pminub	%xmm9, %xmm8
	movdqa	.LCPI94_7(%rip), %xmm10
	paddb	%xmm10, %xmm1
	paddb	%xmm8, %xmm1
	pminub	%xmm4, %xmm1
	paddb	%xmm0, %xmm2
	psubusb	%xmm5, %xmm2
	paddb	%xmm3, %xmm2
	pand	%xmm6, %xmm0
	psubb	%xmm0, %xmm7
	pminub	%xmm9, %xmm7
	paddb	%xmm10, %xmm0
	paddb	%xmm7, %xmm0
	pminub	%xmm2, %xmm0
	movdqa	%xmm0, %xmm2
	por	%xmm1, %xmm2
	pmaxub	%xmm2, %xmm3
	pcmpeqb	%xmm2, %xmm3
	pmovmskb	%xmm3, %eax
	testl	%eax, %eax
	jne	.LBB94_43
	movdqa	.LCPI94_8(%rip), %xmm2
	pand	%xmm1, %xmm2
	packuswb	%xmm2, %xmm2
	psrlw	$8, %xmm1
	packuswb	%xmm1, %xmm1
	psllw	$4, %xmm2
	pand	.LCPI94_9(%rip), %xmm2
	por	%xmm1, %xmm2
	movq	%xmm2, %r14
	bswapq	%r14
	movq	%r14, %rdi
	shrq	$59, %rdi
	cmpq	$17, %rdi
	jne	.LBB94_42
	movq	%r14, %rax
	shlq	$48, %rax
	movdqa	.LCPI94_8(%rip), %xmm1
	pand	%xmm0, %xmm1
	packuswb	%xmm1, %xmm1
	psllw	$4, %xmm1
	pand	.LCPI94_9(%rip), %xmm1
	psrlw	$8, %xmm0
	packuswb	%xmm0, %xmm0
	por	%xmm1, %xmm0
	pand	.LCPI94_10(%rip), %xmm0
	movq	%xmm0, %r12
	bswapq	%r12
	movq	%r14, %rbx
	shrq	$24, %rbx
	movq	%r14, %rcx
	shrq	$54, %rcx
	andl	$572, %ecx
	leaq	.Lstatic.44(%rip), %r8
	movq	%r14, %rsi
	shrq	$46, %rsi
	andl	$1020, %esi
	leaq	.Lstatic.45(%rip), %rdx
	xorl	(%rcx,%r8), %ebx
	xorl	(%rsi,%rdx), %ebx
	orq	%r12, %rax
	movzbl	%bh, %edi
	movzbl	%bl, %r9d
	shrl	$14, %ebx
	andl	$1020, %ebx
	leaq	.Lstatic.43(%rip), %rsi
	movl	(%rbx,%rsi), %ecx
	xorl	(%r8,%rdi,4), %ecx
	xorl	(%rdx,%r9,4), %ecx
	xorl	%r14d, %ecx
	movq	%rax, %rbx
	shrq	$24, %rbx
	movzbl	%ch, %edi
	movzbl	%cl, %r9d
	shrl	$14, %ecx
	andl	$1020, %ecx
	xorl	(%rcx,%rsi), %ebx
	xorl	(%r8,%rdi,4), %ebx
	xorl	(%rdx,%r9,4), %ebx
	andl	$16777215, %r12d
	movzbl	%bh, %ecx
	movzbl	%bl, %edi
	shrl	$14, %ebx
	andl	$1020, %ebx
	xorl	(%r8,%rcx,4), %r12d
	xorl	(%rdx,%rdi,4), %r12d
	movl	(%rbx,%rsi), %ecx
	xorl	%edi, %edi
	movl	%r12d, %edx
	xorl	%ecx, %edx
	jne	.LBB94_45
	movq	%r14, %rcx
	shrq	$16, %rcx
	shldq	$40, %rax, %rcx
	movabsq	$72057594037927935, %r9
	andq	%rcx, %r9
	movq	%r9, %rdx
	shrq	$51, %rdx
	movb	$2, %sil
	cmpq	$5, %rdx
	jae	.LBB94_198
	xorl	%r8d, %r8d
	jmp	.LBB94_256
.LBB94_42:
	movb	$6, %r14b
	xorl	%r12d, %r12d
	jmp	.LBB94_46
.LBB94_43:
	leaq	192(%rsp), %rdi
	movq	%r14, %rdx
	callq	"sq_text::reading::read_any"
	cmpb	$0, 192(%rsp)
	movzbl	200(%rsp), %r14d
	je	.LBB94_216
	movzbl	201(%rsp), %edi
	movl	204(%rsp), %r12d
	movq	208(%rsp), %rax
	jmp	.LBB94_260
.LBB94_45:
	xorl	%ecx, %r12d
	movb	$7, %r14b
.LBB94_46:
	movq	%r11, %rbx
	xorl	%eax, %eax
	jmp	.LBB94_51
.LBB94_47:
	movl	$16, %ecx
	movq	%rbx, %rdi
	movq	%r14, %rsi
	movq	16(%rsp), %rdx
.LBB94_48:
	callq	"sq_text::timed::more_digits"
	leaq	8(%r13), %r10
	movq	24(%rsp), %r11
	movq	%rax, 16(%rsp)
	testq	%rdx, %rdx
	jne	.LBB94_22
.LBB94_49:
	cmpq	$18, %rdx
	ja	.LBB94_196
.LBB94_50:
	movq	%r11, %rbx
	movb	$1, %r14b
	xorl	%eax, %eax
	xorl	%r12d, %r12d
	xorl	%edi, %edi
.LBB94_51:
	movq	184(%rbp), %rcx
	movq	200(%rbp), %rdx
.LBB94_52:
	addq	%r15, %rcx
	incq	%rcx
	movq	%rcx, 184(%rbp)
	movq	%rcx, 176(%rbp)
	movl	%r15d, %ecx
	shrq	%cl, %rdx
	shrq	%rdx
	movq	%rdx, 200(%rbp)
	movq	16(%rbp), %rsi
	incq	%rsi
	movq	%rsi, 16(%rbp)
	incq	32(%rbp)
	movl	$60, %ecx
	movq	%rcx, 32(%rsp)
	movb	$1, 72(%rsp)
	xorl	%r11d, %r11d
	movq	$0, 88(%rsp)
	movq	$0, 16(%rsp)
	movq	$0, 40(%rsp)
	movl	$0, 12(%rsp)
	movq	$0, 64(%rsp)
	movq	$0, 120(%rsp)
	xorl	%r8d, %r8d
	movq	$0, 48(%rsp)
	xorl	%edx, %edx
	movq	%rax, 80(%rsp)
	xorl	%eax, %eax
.LBB94_53:
	movzbl	%dil, %ecx
	shll	$8, %ecx
	movzbl	%r14b, %r15d
	orq	%rdx, %r15
	orq	%rcx, %r15
	movq	$0, 520(%r13)
	movzbl	(%r13), %edx
	movzbl	1(%r13), %ecx
	testb	%al, %al
	je	.LBB94_60
	movq	80(%rsp), %r14
	shrq	$32, %r14
	testb	%dl, %dl
	je	.LBB94_66
	shlq	$32, %r12
	orq	%r15, %r12
	testb	%cl, %cl
	movq	%r11, 112(%rsp)
	movq	%r8, 56(%rsp)
	je	.LBB94_75
	movabsq	$4189022128297484923, %rax
	movq	%rax, 8(%r13)
	movq	$8, 520(%r13)
	cmpq	$999999999, %rsi
	ja	.LBB94_79
	cmpq	$999999, %rsi
	ja	.LBB94_84
	cmpq	$999, %rsi
	ja	.LBB94_92
	xorl	%eax, %eax
	cmpq	$100, %rsi
	setb	%al
	cmpq	$10, %rsi
	adcq	$0, %rax
	leaq	.Lstatic.22(%rip), %rcx
	leaq	(%rcx,%rsi,4), %rcx
	movl	(%rax,%rcx), %ecx
	movl	%ecx, 16(%r13)
	xorq	$11, %rax
	jmp	.LBB94_94
	.p2align	4
.LBB94_60:
	movq	$0, 160(%rsp)
	movw	%r15w, 160(%rsp)
	movl	%r12d, 164(%rsp)
	movq	80(%rsp), %rax
	movq	%rax, 168(%rsp)
	testb	%dl, %dl
	je	.LBB94_90
	testb	%cl, %cl
	je	.LBB94_70
	movabsq	$4189022128297484923, %rax
	movq	%rax, 8(%r13)
	movq	$8, 520(%r13)
	cmpq	$999999999, %rsi
	ja	.LBB94_74
	cmpq	$999999, %rsi
	ja	.LBB94_82
	cmpq	$999, %rsi
	ja	.LBB94_87
	xorl	%ecx, %ecx
	cmpq	$100, %rsi
	setb	%cl
	cmpq	$10, %rsi
	adcq	$0, %rcx
	leaq	.Lstatic.22(%rip), %rax
	leaq	(%rax,%rsi,4), %rax
	movl	(%rcx,%rax), %eax
	movl	%eax, 16(%r13)
	xorq	$11, %rcx
	jmp	.LBB94_89
.LBB94_66:
	movq	%r8, %r12
	cmpq	$999999999, %rsi
	ja	.LBB94_80
	cmpq	$999999, %rsi
	movq	96(%rsp), %r15
	ja	.LBB94_85
	cmpq	$999, %rsi
	movq	%rbx, %r11
	ja	.LBB94_129
	xorl	%edx, %edx
	cmpq	$100, %rsi
	setb	%dl
	cmpq	$10, %rsi
	adcq	$0, %rdx
	leaq	.Lstatic.22(%rip), %rax
	leaq	(%rax,%rsi,4), %rax
	movl	(%rdx,%rax), %eax
	movl	%eax, (%r10)
	xorq	$3, %rdx
	movb	$32, 8(%r13,%rdx)
	leaq	1(%rdx), %rax
	movq	%rax, 520(%r13)
	movzbl	40(%rsp), %ecx
	leaq	.LJTI94_1(%rip), %rsi
	movslq	(%rsi,%rcx,4), %rcx
	addq	%rsi, %rcx
	jmpq	*%rcx
.LBB94_70:
	cmpq	$999999999, %rsi
	ja	.LBB94_81
	cmpq	$999999, %rsi
	ja	.LBB94_86
	cmpq	$999, %rsi
	ja	.LBB94_140
	xorl	%eax, %eax
	cmpq	$100, %rsi
	setb	%al
	cmpq	$10, %rsi
	adcq	$0, %rax
	leaq	.Lstatic.22(%rip), %rcx
	leaq	(%rcx,%rsi,4), %rcx
	movl	(%rax,%rcx), %ecx
	movl	%ecx, (%r10)
	xorq	$3, %rax
	jmp	.LBB94_141
.LBB94_74:
	movq	%r10, %rdi
	callq	"sq_digits::decimal::push_long::<=512>"
	leaq	8(%r13), %r10
	movq	520(%r13), %rcx
	jmp	.LBB94_89
.LBB94_75:
	cmpq	$999999999, %rsi
	ja	.LBB94_83
	cmpq	$999999, %rsi
	ja	.LBB94_91
	cmpq	$999, %rsi
	ja	.LBB94_144
	xorl	%eax, %eax
	cmpq	$100, %rsi
	setb	%al
	cmpq	$10, %rsi
	adcq	$0, %rax
	leaq	.Lstatic.22(%rip), %rcx
	leaq	(%rcx,%rsi,4), %rcx
	movl	(%rax,%rcx), %ecx
	movl	%ecx, (%r10)
	xorq	$3, %rax
	jmp	.LBB94_145
.LBB94_79:
	movq	%r10, %rdi
	callq	"sq_digits::decimal::push_long::<=512>"
	movq	520(%r13), %rax
	jmp	.LBB94_94
.LBB94_80:
	movq	%r10, %rdi
	callq	"sq_digits::decimal::push_long::<=512>"
	leaq	8(%r13), %r10
	movq	24(%rsp), %r11
	movq	520(%r13), %rdx
	movb	$32, 8(%r13,%rdx)
	leaq	1(%rdx), %rax
	movq	%rax, 520(%r13)
	movzbl	40(%rsp), %ecx
	leaq	.LJTI94_1(%rip), %rsi
	movslq	(%rsi,%rcx,4), %rcx
	addq	%rsi, %rcx
	movq	96(%rsp), %r15
	jmpq	*%rcx
.LBB94_81:
	movq	%r10, %rdi
	callq	"sq_digits::decimal::push_long::<=512>"
	leaq	8(%r13), %r10
	movq	520(%r13), %rax
	jmp	.LBB94_141
.LBB94_82:
	imulq	$1125899907, %rsi, %rdx
	xorl	%eax, %eax
	cmpq	$100000000, %rsi
	setb	%al
	cmpq	$10000000, %rsi
	adcq	$0, %rax
	shrq	$48, %rdx
	andl	$32764, %edx
	leaq	.Lstatic.22(%rip), %rcx
	addq	%rcx, %rdx
	movl	(%rax,%rdx), %edx
	movl	%edx, 16(%r13)
	imulq	$274877907, %rsi, %rdx
	shrq	$38, %rdx
	imulq	$68719477, %rdx, %rdi
	shrq	$36, %rdi
	imull	$1000, %edi, %edi
	imull	$1000, %edx, %r8d
	subl	%edi, %edx
	movzwl	(%rcx,%rdx,4), %edi
	movq	%r13, %r9
	subq	%rax, %r9
	movw	%di, 19(%r9)
	movzbl	2(%rcx,%rdx,4), %edx
	movb	%dl, 21(%r9)
	movl	$14, %edx
	subq	%rax, %rdx
	movq	%rdx, 520(%r13)
	subl	%r8d, %esi
	movl	(%rcx,%rsi,4), %ecx
	movl	%ecx, 8(%r13,%rdx)
	movl	$17, %ecx
	jmp	.LBB94_88
.LBB94_83:
	movq	%r10, %rdi
	callq	"sq_digits::decimal::push_long::<=512>"
	leaq	8(%r13), %r10
	movq	520(%r13), %rax
	jmp	.LBB94_145
.LBB94_84:
	imulq	$1125899907, %rsi, %rax
	xorl	%ecx, %ecx
	cmpq	$100000000, %rsi
	setb	%cl
	cmpq	$10000000, %rsi
	adcq	$0, %rcx
	shrq	$48, %rax
	andl	$32764, %eax
	leaq	.Lstatic.22(%rip), %rdx
	addq	%rdx, %rax
	movl	(%rcx,%rax), %eax
	movl	%eax, 16(%r13)
	imulq	$274877907, %rsi, %rax
	shrq	$38, %rax
	imulq	$68719477, %rax, %rdi
	shrq	$36, %rdi
	imull	$1000, %edi, %edi
	imull	$1000, %eax, %r8d
	subl	%edi, %eax
	movzwl	(%rdx,%rax,4), %edi
	movq	%r13, %r9
	subq	%rcx, %r9
	movw	%di, 19(%r9)
	movzbl	2(%rdx,%rax,4), %eax
	movb	%al, 21(%r9)
	subl	%r8d, %esi
	movl	(%rdx,%rsi,4), %eax
	movl	%eax, 22(%r9)
	movl	$17, %eax
	jmp	.LBB94_93
.LBB94_85:
	imulq	$1125899907, %rsi, %rdx
	xorl	%eax, %eax
	cmpq	$100000000, %rsi
	setb	%al
	cmpq	$10000000, %rsi
	adcq	$0, %rax
	shrq	$48, %rdx
	andl	$32764, %edx
	leaq	.Lstatic.22(%rip), %rcx
	addq	%rcx, %rdx
	movl	(%rax,%rdx), %edx
	movl	%edx, 8(%r13)
	movl	$6, %edi
	subq	%rax, %rdi
	movl	$9, %edx
	subq	%rax, %rdx
	xorq	$3, %rax
	imulq	$274877907, %rsi, %r8
	shrq	$38, %r8
	imulq	$68719477, %r8, %r9
	shrq	$36, %r9
	imull	$1000, %r9d, %r9d
	imull	$1000, %r8d, %r10d
	subl	%r9d, %r8d
	movzwl	(%rcx,%r8,4), %r9d
	movw	%r9w, 8(%r13,%rax)
	movzbl	2(%rcx,%r8,4), %r8d
	movb	%r8b, 10(%r13,%rax)
	movq	%rdi, 520(%r13)
	subl	%r10d, %esi
	leaq	8(%r13), %r10
	movl	(%rcx,%rsi,4), %eax
	movl	%eax, 8(%r13,%rdi)
	movb	$32, 8(%r13,%rdx)
	leaq	1(%rdx), %rax
	movq	%rax, 520(%r13)
	movzbl	40(%rsp), %ecx
	leaq	.LJTI94_1(%rip), %rsi
	movslq	(%rsi,%rcx,4), %rcx
	addq	%rsi, %rcx
	movq	%rbx, %r11
	jmpq	*%rcx
.LBB94_86:
	imulq	$1125899907, %rsi, %rax
	xorl	%ecx, %ecx
	cmpq	$100000000, %rsi
	setb	%cl
	cmpq	$10000000, %rsi
	adcq	$0, %rcx
	shrq	$48, %rax
	andl	$32764, %eax
	leaq	.Lstatic.22(%rip), %rdx
	addq	%rdx, %rax
	movl	(%rcx,%rax), %eax
	movl	%eax, 8(%r13)
	movl	$6, %edi
	subq	%rcx, %rdi
	movl	$9, %eax
	subq	%rcx, %rax
	xorq	$3, %rcx
	imulq	$274877907, %rsi, %r8
	shrq	$38, %r8
	imulq	$68719477, %r8, %r9
	shrq	$36, %r9
	imull	$1000, %r9d, %r9d
	imull	$1000, %r8d, %r10d
	subl	%r9d, %r8d
	movzwl	(%rdx,%r8,4), %r9d
	movw	%r9w, 8(%r13,%rcx)
	movzbl	2(%rdx,%r8,4), %r8d
	movb	%r8b, 10(%r13,%rcx)
	movq	%rdi, 520(%r13)
	subl	%r10d, %esi
	leaq	8(%r13), %r10
	movl	(%rdx,%rsi,4), %ecx
	movl	%ecx, 8(%r13,%rdi)
	jmp	.LBB94_141
.LBB94_87:
	xorl	%eax, %eax
	cmpq	$100000, %rsi
	setb	%al
	cmpq	$10000, %rsi
	adcq	$0, %rax
	leaq	.Lstatic.22(%rip), %rcx
	imulq	$274877907, %rsi, %rdx
	shrq	$38, %rdx
	leaq	(%rcx,%rdx,4), %rdi
	movl	(%rax,%rdi), %edi
	movl	%edi, 16(%r13)
	imull	$1000, %edx, %edx
	subl	%edx, %esi
	movl	(%rcx,%rsi,4), %ecx
	movq	%r13, %rdx
	subq	%rax, %rdx
	movl	%ecx, 19(%rdx)
	movl	$14, %ecx
.LBB94_88:
	subq	%rax, %rcx
.LBB94_89:
	movq	$0, 192(%rsp)
	movw	%r15w, 192(%rsp)
	movl	%r12d, 196(%rsp)
	movq	80(%rsp), %rax
	movq	%rax, 200(%rsp)
	movaps	.LCPI94_11(%rip), %xmm0
	movups	%xmm0, 8(%r13,%rcx)
	movabsq	$4189036383529299553, %rax
	movq	%rax, 24(%r13,%rcx)
	movb	$34, 32(%r13,%rcx)
	addq	$25, %rcx
	movq	%rcx, 520(%r13)
	leaq	192(%rsp), %rsi
	movq	%r10, %rdi
	callq	"sq_text::faults::push_fault::<=512>"
	leaq	8(%r13), %r10
	movq	520(%r13), %rdx
	movaps	.LCPI94_12(%rip), %xmm0
	movups	%xmm0, 8(%r13,%rdx)
	movaps	.LCPI94_13(%rip), %xmm0
	movups	%xmm0, 24(%r13,%rdx)
	movaps	.LCPI94_14(%rip), %xmm0
	movups	%xmm0, 40(%r13,%rdx)
	movdqa	.LCPI94_15(%rip), %xmm0
	movdqu	%xmm0, 56(%r13,%rdx)
	addq	$64, %rdx
	jmp	.LBB94_142
.LBB94_90:
	leaq	160(%rsp), %rdx
	movq	%r10, %rdi
	callq	"sq_commands::answer_lines::push_refused_line"
	leaq	8(%r13), %r10
	movq	520(%r13), %rdx
	jmp	.LBB94_143
.LBB94_91:
	imulq	$1125899907, %rsi, %rax
	xorl	%ecx, %ecx
	cmpq	$100000000, %rsi
	setb	%cl
	cmpq	$10000000, %rsi
	adcq	$0, %rcx
	shrq	$48, %rax
	andl	$32764, %eax
	leaq	.Lstatic.22(%rip), %rdx
	addq	%rdx, %rax
	movl	(%rcx,%rax), %eax
	movl	%eax, (%r10)
	movl	$9, %eax
	subq	%rcx, %rax
	xorq	$3, %rcx
	imulq	$274877907, %rsi, %rdi
	shrq	$38, %rdi
	imulq	$68719477, %rdi, %r8
	shrq	$36, %r8
	imull	$1000, %r8d, %r8d
	imull	$1000, %edi, %r9d
	subl	%r8d, %edi
	movzwl	(%rdx,%rdi,4), %r8d
	movw	%r8w, (%r10,%rcx)
	movzbl	2(%rdx,%rdi,4), %edi
	movb	%dil, 2(%r10,%rcx)
	subl	%r9d, %esi
	movl	(%rdx,%rsi,4), %edx
	movl	%edx, 3(%r10,%rcx)
	jmp	.LBB94_145
.LBB94_92:
	xorl	%ecx, %ecx
	cmpq	$100000, %rsi
	setb	%cl
	cmpq	$10000, %rsi
	adcq	$0, %rcx
	leaq	.Lstatic.22(%rip), %rax
	imulq	$274877907, %rsi, %rdx
	shrq	$38, %rdx
	leaq	(%rax,%rdx,4), %rdi
	movl	(%rcx,%rdi), %edi
	movl	%edi, 16(%r13)
	imull	$1000, %edx, %edx
	subl	%edx, %esi
	movl	(%rax,%rsi,4), %eax
	movq	%r13, %rdx
	subq	%rcx, %rdx
	movl	%eax, 19(%rdx)
	movl	$14, %eax
.LBB94_93:
	subq	%rcx, %rax
.LBB94_94:
	movabsq	$8389754676533076524, %rcx
	movq	%rcx, 8(%r13,%rax)
	movw	$14882, 16(%r13,%rax)
	addq	$10, %rax
	movq	%rax, 520(%r13)
	cmpq	$999999999, %r12
	ja	.LBB94_98
	cmpq	$999999, %r12
	ja	.LBB94_99
	cmpq	$999, %r12
	movq	24(%rsp), %r11
	ja	.LBB94_128
	xorl	%ecx, %ecx
	cmpq	$100, %r12
	setb	%cl
	cmpq	$10, %r12
	adcq	$0, %rcx
	leaq	.Lstatic.22(%rip), %rdx
	leaq	(%rdx,%r15,4), %rdx
	movl	(%rcx,%rdx), %edx
	movl	%edx, 8(%r13,%rax)
	xorq	$3, %rcx
	addq	%rax, %rcx
	movq	%rcx, 520(%r13)
	jmp	.LBB94_101
.LBB94_98:
	leaq	8(%r13), %rdi
	movq	%r12, %rsi
	callq	"sq_digits::decimal::push_long::<=512>"
	jmp	.LBB94_100
.LBB94_99:
	imulq	$1125899907, %r15, %rdx
	xorl	%ecx, %ecx
	cmpq	$100000000, %r12
	setb	%cl
	cmpq	$10000000, %r12
	adcq	$0, %rcx
	shrq	$48, %rdx
	andl	$-4, %edx
	leaq	.Lstatic.22(%rip), %rsi
	addq	%rsi, %rdx
	movl	(%rcx,%rdx), %edx
	movl	%edx, 8(%r13,%rax)
	xorq	$3, %rcx
	leaq	(%rax,%rcx), %rdx
	imulq	$274877907, %r15, %rdi
	shrq	$38, %rdi
	imulq	$8589935, %rdi, %r8
	shrq	$33, %r8
	imull	$1000, %r8d, %r8d
	imull	$1000, %edi, %r9d
	subl	%r8d, %edi
	movzwl	(%rsi,%rdi,4), %r8d
	movw	%r8w, 8(%r13,%rdx)
	movzbl	2(%rsi,%rdi,4), %edi
	movb	%dil, 10(%r13,%rdx)
	subl	%r9d, %r15d
	movl	(%rsi,%r15,4), %esi
	movl	%esi, 11(%r13,%rdx)
	addq	%rcx, %rax
	addq	$6, %rax
	movq	%rax, 520(%r13)
.LBB94_100:
	movq	24(%rsp), %r11
.LBB94_101:
	movq	40(%rsp), %r15
	movzbl	%r15b, %ecx
	shll	$3, %ecx
	leaq	".Lswitch.table.squitter_c::log_loop::write_some::<#507aa2edf0378fed>.354"(%rip), %rax
	movq	(%rcx,%rax), %rax
	leaq	".Lswitch.table.squitter_c::log_loop::write_some::<#507aa2edf0378fed>.355"(%rip), %rdx
	movq	(%rcx,%rdx), %rdx
	movq	520(%r13), %rcx
	movabsq	$8243126030628364844, %rsi
	movq	%rsi, 8(%r13,%rcx)
	movw	$14882, 16(%r13,%rcx)
	movb	$34, 18(%r13,%rcx)
	leaq	-1(%rax), %rsi
	cmpq	$3, %rsi
	jae	.LBB94_103
	xorl	%esi, %esi
	jmp	.LBB94_106
.LBB94_103:
	movq	%rax, %rdi
	andq	$-4, %rdi
	leaq	22(%r13), %rsi
	leaq	(%rsi,%rcx), %r8
	xorl	%esi, %esi
	.p2align	4
.LBB94_104:
	movzbl	(%rdx,%rsi), %r9d
	movb	%r9b, -3(%r8,%rsi)
	movzbl	1(%rdx,%rsi), %r9d
	movb	%r9b, -2(%r8,%rsi)
	movzbl	2(%rdx,%rsi), %r9d
	movb	%r9b, -1(%r8,%rsi)
	movzbl	3(%rdx,%rsi), %r9d
	movb	%r9b, (%r8,%rsi)
	addq	$4, %rsi
	cmpq	%rsi, %rdi
	jne	.LBB94_104
	cmpb	$1, %r15b
	je	.LBB94_108
.LBB94_106:
	movl	%eax, %edi
	andl	$3, %edi
	leaq	(%rsi,%rcx), %r8
	leaq	19(%r13), %r9
	addq	%r9, %r8
	addq	%rsi, %rdx
	xorl	%esi, %esi
	.p2align	4
.LBB94_107:
	movzbl	(%rdx,%rsi), %r9d
	movb	%r9b, (%r8,%rsi)
	incq	%rsi
	cmpq	%rsi, %rdi
	jne	.LBB94_107
.LBB94_108:
	leaq	11(%rcx), %rdx
	leaq	(%rdx,%rax), %rdi
	movabsq	$7310015527464872994, %rsi
	movq	%rsi, 8(%r13,%rdi)
	movl	$975336307, 16(%r13,%rdi)
	movb	$34, 20(%r13,%rdi)
	movq	80(%rsp), %r9
	movq	%r9, %rsi
	shrq	$47, %rsi
	andl	$510, %esi
	leaq	.Lstatic.67(%rip), %r8
	movzwl	(%rsi,%r8), %esi
	movw	%si, 21(%r13,%rdi)
	leaq	(%rdx,%rax), %rsi
	addq	$15, %rsi
	movq	%rsi, 520(%r13)
	shrq	$39, %r9
	andl	$510, %r9d
	movzbl	%r14b, %esi
	movzwl	(%r9,%r8), %r9d
	movd	%r9d, %xmm0
	pinsrw	$1, (%r8,%rsi,2), %xmm0
	movd	%xmm0, 23(%r13,%rdi)
	movzbl	112(%rsp), %esi
	shll	$3, %esi
	leaq	".Lswitch.table.squitter_c::log_loop::write_some::<#507aa2edf0378fed>.356"(%rip), %r8
	leaq	".Lswitch.table.squitter_c::log_loop::write_some::<#507aa2edf0378fed>.357"(%rip), %r9
	movabsq	$2478227094008638498, %r10
	movq	%r10, 27(%r13,%rdi)
	movq	(%rsi,%r8), %r14
	movq	(%rsi,%r9), %rsi
	movw	$8762, 35(%r13,%rdi)
	leaq	-1(%r14), %rdi
	cmpq	$3, %rdi
	jae	.LBB94_110
	xorl	%edi, %edi
	jmp	.LBB94_112
.LBB94_110:
	movq	%r14, %r8
	andq	$-4, %r8
	leaq	(%rax,%rcx), %r9
	leaq	51(%r13), %rdi
	addq	%rdi, %r9
	xorl	%edi, %edi
	.p2align	4
.LBB94_111:
	movzbl	(%rsi,%rdi), %r10d
	movb	%r10b, -3(%r9,%rdi)
	movzbl	1(%rsi,%rdi), %r10d
	movb	%r10b, -2(%r9,%rdi)
	movzbl	2(%rsi,%rdi), %r10d
	movb	%r10b, -1(%r9,%rdi)
	movzbl	3(%rsi,%rdi), %r10d
	movb	%r10b, (%r9,%rdi)
	addq	$4, %rdi
	cmpq	%rdi, %r8
	jne	.LBB94_111
.LBB94_112:
	addq	%rax, %rdx
	addq	$29, %rdx
	movl	%r14d, %r8d
	andl	$3, %r8d
	addq	%rdi, %rax
	addq	%rcx, %rax
	leaq	48(%r13), %rcx
	addq	%rcx, %rax
	addq	%rdi, %rsi
	xorl	%ecx, %ecx
	.p2align	4
.LBB94_113:
	movzbl	(%rsi,%rcx), %edi
	movb	%dil, (%rax,%rcx)
	incq	%rcx
	cmpq	%rcx, %r8
	jne	.LBB94_113
	addq	%rdx, %r14
	leaq	8(%r13), %r10
	movb	$34, (%r10,%r14)
	cmpb	$2, %r15b
	jae	.LBB94_117
	movq	56(%rsp), %r8
	movzbl	%r8b, %ebx
	imulq	$23592960, %rbx, %rax
	imulq	$-47185920, %rbx, %r15
	cmpb	$0, 72(%rsp)
	je	.LBB94_118
	imulq	$360, 120(%rsp), %r12
	imulq	$360, 48(%rsp), %rcx
	jmp	.LBB94_119
.LBB94_117:
	movabsq	$7942698776067318316, %rax
	movq	%rax, 9(%r13,%r14)
	movl	$745303157, 17(%r13,%r14)
	movb	$34, 21(%r13,%r14)
	leaq	14(%r14), %rax
	movq	%rax, 520(%r13)
	movabsq	$7815273924336185196, %rax
	movq	%rax, 22(%r13,%r14)
	movb	$108, 30(%r13,%r14)
	addq	$23, %r14
	movq	96(%rsp), %r15
	jmp	.LBB94_204
.LBB94_118:
	imulq	$90, 120(%rsp), %r12
	imulq	$90, 48(%rsp), %rcx
.LBB94_119:
	xorl	%edx, %edx
	cmpq	%rax, %rcx
	cmovbq	%rdx, %r15
	addq	%rcx, %r15
	movq	32(%rsp), %rdi
	movl	%edi, %ecx
	shll	$17, %ecx
	movq	%r12, %rax
	negq	%rax
	cmovsq	%r12, %rax
	movl	$20000000, %edx
	mulq	%rdx
	movq	%rax, %rsi
	addq	%rcx, %rsi
	movq	%rdx, %rsi
	adcq	$0, %rsi
	addq	%rcx, %rax
	movl	$1634476588, 1(%r10,%r14)
	movw	$8820, 5(%r10,%r14)
	movb	$58, 7(%r10,%r14)
	adcq	%rax, %rdx
	shrdq	$56, %rsi, %rdx
	jne	.LBB94_200
	shrq	$17, %rax
	shll	$4, %edi
	leaq	.Lstatic.40(%rip), %rcx
	mulq	(%rdi,%rcx)
	movq	%rdx, %rcx
	shldq	$16, %rax, %rcx
	leaq	8(%r14), %rdi
	testq	%r12, %r12
	jns	.LBB94_123
.LBB94_121:
	testq	%rcx, %rcx
	je	.LBB94_123
	movb	$45, 8(%r10,%r14)
	addq	$9, %r14
	movq	%r14, %rdi
.LBB94_123:
	movl	%ebx, %esi
	shll	$17, %esi
	xorl	%r14d, %r14d
	cmpq	$1000000000, %rcx
	setb	%r14b
	cmpq	$100000000, %rcx
	adcq	$0, %r14
	leaq	.Lstatic.22(%rip), %r9
	movabsq	$-2972493582642298179, %rdx
	movq	%rcx, %rax
	mulq	%rdx
	shrq	$23, %rdx
	leaq	(%r9,%rdx,4), %rax
	movl	(%r14,%rax), %eax
	movl	%eax, (%r10,%rdi)
	xorq	$3, %r14
	movq	%rdi, 80(%rsp)
	leaq	(%rdi,%r14), %r12
	movb	$46, (%r10,%r12)
	imulq	$10000000, %rdx, %rax
	subq	%rax, %rcx
	imulq	$17592187, %rcx, %rax
	shrq	$44, %rax
	orb	$48, %al
	movb	%al, 1(%r10,%r12)
	imulq	$8589935, %rcx, %rax
	shrq	$33, %rax
	imull	$33555, %eax, %edx
	shrl	$25, %edx
	imull	$1000, %edx, %edx
	imull	$1000, %eax, %edi
	subl	%edx, %eax
	movzwl	%ax, %eax
	movzwl	(%r9,%rax,4), %edx
	movw	%dx, 2(%r10,%r12)
	movzbl	2(%r9,%rax,4), %eax
	movb	%al, 4(%r10,%r12)
	subl	%edi, %ecx
	movzwl	(%r9,%rcx,4), %eax
	movw	%ax, 5(%r10,%r12)
	movzbl	2(%r9,%rcx,4), %eax
	movb	%al, 7(%r10,%r12)
	movl	$1869357612, 8(%r10,%r12)
	movw	$8814, 12(%r10,%r12)
	movb	$58, 14(%r10,%r12)
	movq	%r15, %rax
	negq	%rax
	cmovsq	%r15, %rax
	movl	$20000000, %ecx
	mulq	%rcx
	addq	%rsi, %rax
	adcq	$0, %rdx
	cmpb	$63, %r8b
	ja	.LBB94_201
	movq	%rax, %rcx
	shrq	$56, %rcx
	orq	%rdx, %rcx
	jne	.LBB94_201
	shrq	$17, %rax
	shll	$4, %ebx
	leaq	.Lstatic.40(%rip), %rcx
	mulq	(%rbx,%rcx)
	movq	%rdx, %rcx
	shldq	$16, %rax, %rcx
	movq	80(%rsp), %rax
	leaq	(%rax,%r14), %rsi
	addq	$15, %rsi
	testq	%r15, %r15
	jns	.LBB94_202
.LBB94_126:
	testq	%rcx, %rcx
	movq	96(%rsp), %r15
	je	.LBB94_203
	movb	$45, 23(%r13,%r12)
	addq	$16, %r12
	movq	%r12, 520(%r13)
	movq	%r12, %rsi
	jmp	.LBB94_203
.LBB94_128:
	xorl	%ecx, %ecx
	cmpq	$100000, %r12
	setb	%cl
	cmpq	$10000, %r12
	adcq	$0, %rcx
	leaq	.Lstatic.22(%rip), %rdx
	imulq	$274877907, %r15, %rsi
	shrq	$38, %rsi
	leaq	(%rdx,%rsi,4), %rdi
	movl	(%rcx,%rdi), %edi
	movl	%edi, 8(%r13,%rax)
	xorq	$3, %rcx
	leaq	(%rax,%rcx), %rdi
	imull	$1000, %esi, %esi
	subl	%esi, %r15d
	movl	(%rdx,%r15,4), %edx
	movl	%edx, 8(%r13,%rdi)
	addq	%rcx, %rax
	addq	$3, %rax
	movq	%rax, 520(%r13)
	jmp	.LBB94_101
.LBB94_129:
	xorl	%eax, %eax
	cmpq	$100000, %rsi
	setb	%al
	cmpq	$10000, %rsi
	adcq	$0, %rax
	leaq	.Lstatic.22(%rip), %rcx
	imulq	$274877907, %rsi, %rdi
	shrq	$38, %rdi
	leaq	(%rcx,%rdi,4), %rdx
	movl	(%rax,%rdx), %edx
	movl	%edx, (%r10)
	movl	$6, %edx
	subq	%rax, %rdx
	xorq	$3, %rax
	imull	$1000, %edi, %edi
	subl	%edi, %esi
	movl	(%rcx,%rsi,4), %ecx
	movl	%ecx, (%r10,%rax)
	movb	$32, 8(%r13,%rdx)
	leaq	1(%rdx), %rax
	movq	%rax, 520(%r13)
	movzbl	40(%rsp), %ecx
	leaq	.LJTI94_1(%rip), %rsi
	movslq	(%rsi,%rcx,4), %rcx
	addq	%rsi, %rcx
	jmpq	*%rcx
.LBB94_130:
	movl	$544762214, (%r10,%rax)
	movq	80(%rsp), %rdi
	movq	%rdi, %rcx
	shrq	$47, %rcx
	andl	$510, %ecx
	leaq	.Lstatic.67(%rip), %rsi
	shrq	$39, %rdi
	andl	$510, %edi
	movzwl	(%rcx,%rsi), %ecx
	movd	%ecx, %xmm0
	pinsrw	$1, (%rdi,%rsi), %xmm0
	movd	%xmm0, 4(%r10,%rax)
	movzbl	%r14b, %ecx
	movzwl	(%rsi,%rcx,2), %ecx
	movw	%cx, 8(%r10,%rax)
	movq	%r12, %r8
	movzbl	%r8b, %ebx
	imulq	$23592960, %rbx, %rax
	imulq	$-47185920, %rbx, %r14
	cmpb	$0, 72(%rsp)
	je	.LBB94_180
	movq	%rdx, %r12
	imulq	$360, 120(%rsp), %r15
	imulq	$360, 48(%rsp), %rcx
	jmp	.LBB94_181
.LBB94_132:
	movl	$544366950, 1(%r10,%rdx)
	movq	80(%rsp), %rsi
	movq	%rsi, %rax
	shrq	$47, %rax
	andl	$510, %eax
	leaq	.Lstatic.67(%rip), %rcx
	shrq	$39, %rsi
	andl	$510, %esi
	movzwl	(%rax,%rcx), %eax
	movd	%eax, %xmm0
	pinsrw	$1, (%rsi,%rcx), %xmm0
	movd	%xmm0, 5(%r10,%rdx)
	movzbl	%r14b, %eax
	movzwl	(%rcx,%rax,2), %eax
	movw	%ax, 9(%r10,%rdx)
	addq	$11, %rdx
	jmp	.LBB94_231
.LBB94_133:
	movabsq	$2334956331018576247, %rax
	jmp	.LBB94_138
.LBB94_134:
	movl	$1768714355, 1(%r10,%rdx)
	movw	$8308, 5(%r10,%rdx)
	movq	80(%rsp), %rsi
	movq	%rsi, %rax
	shrq	$47, %rax
	andl	$510, %eax
	leaq	.Lstatic.67(%rip), %rcx
	shrq	$39, %rsi
	andl	$510, %esi
	movzwl	(%rax,%rcx), %eax
	movd	%eax, %xmm0
	pinsrw	$1, (%rsi,%rcx), %xmm0
	movd	%xmm0, 7(%r10,%rdx)
	movzbl	%r14b, %eax
	movzwl	(%rcx,%rax,2), %eax
	movw	%ax, 11(%r10,%rdx)
	movb	$32, 13(%r10,%rdx)
	xorl	%eax, %eax
	movl	12(%rsp), %ecx
	cmpb	$100, %cl
	setb	%al
	cmpb	$10, %cl
	adcq	$0, %rax
	movzbl	%cl, %ecx
	leaq	.Lstatic.22(%rip), %rsi
	leaq	(%rsi,%rcx,4), %rcx
	movl	(%rax,%rcx), %ecx
	movl	%ecx, 14(%r10,%rdx)
	xorq	$3, %rax
	addq	%rdx, %rax
	addq	$14, %rax
	movb	$32, (%r10,%rax)
	xorl	%ecx, %ecx
	movq	64(%rsp), %rdx
	cmpb	$100, %dl
	setb	%cl
	cmpb	$10, %dl
	adcq	$0, %rcx
	movzbl	%dl, %edx
	leaq	(%rsi,%rdx,4), %rdx
	movl	(%rcx,%rdx), %edx
	movl	%edx, 1(%r10,%rax)
	xorq	$3, %rcx
	leaq	(%rcx,%rax), %rdx
	incq	%rdx
	jmp	.LBB94_231
.LBB94_135:
	movabsq	$7234319696884690790, %rcx
	movq	%rcx, (%r10,%rax)
	movb	$32, 8(%r10,%rax)
	movq	80(%rsp), %rdi
	movq	%rdi, %rcx
	shrq	$47, %rcx
	andl	$510, %ecx
	leaq	.Lstatic.67(%rip), %rsi
	shrq	$39, %rdi
	andl	$510, %edi
	movzwl	(%rcx,%rsi), %ecx
	movd	%ecx, %xmm0
	pinsrw	$1, (%rdi,%rsi), %xmm0
	movd	%xmm0, 9(%r10,%rax)
	movzbl	%r14b, %ecx
	movzwl	(%rsi,%rcx,2), %ecx
	movw	%cx, 13(%r10,%rax)
	movq	%r12, %r8
	movzbl	%r8b, %ebx
	imulq	$23592960, %rbx, %rax
	imulq	$-47185920, %rbx, %r14
	cmpb	$0, 72(%rsp)
	je	.LBB94_185
	movq	%rdx, %r12
	imulq	$360, 120(%rsp), %r15
	imulq	$360, 48(%rsp), %rcx
	jmp	.LBB94_186
.LBB94_137:
	movabsq	$2334399978113363822, %rax
.LBB94_138:
	movq	%rax, 1(%r10,%rdx)
	movq	80(%rsp), %rsi
	movq	%rsi, %rax
	shrq	$47, %rax
	andl	$510, %eax
	leaq	.Lstatic.67(%rip), %rcx
	shrq	$39, %rsi
	andl	$510, %esi
	movzwl	(%rax,%rcx), %eax
	movd	%eax, %xmm0
	pinsrw	$1, (%rsi,%rcx), %xmm0
	movd	%xmm0, 9(%r10,%rdx)
	movzbl	%r14b, %eax
	movzwl	(%rcx,%rax,2), %eax
	movw	%ax, 13(%r10,%rdx)
	addq	$15, %rdx
	jmp	.LBB94_231
.LBB94_139:
	movabsq	$8388362703413997422, %rax
	movq	%rax, 1(%r10,%rdx)
	movl	$544108393, 9(%r10,%rdx)
	movq	80(%rsp), %rsi
	movq	%rsi, %rax
	shrq	$47, %rax
	andl	$510, %eax
	leaq	.Lstatic.67(%rip), %rcx
	shrq	$39, %rsi
	andl	$510, %esi
	movzwl	(%rax,%rcx), %eax
	movd	%eax, %xmm0
	pinsrw	$1, (%rsi,%rcx), %xmm0
	movd	%xmm0, 13(%r10,%rdx)
	movzbl	%r14b, %eax
	movzwl	(%rcx,%rax,2), %eax
	movw	%ax, 17(%r10,%rdx)
	addq	$19, %rdx
	jmp	.LBB94_231
.LBB94_140:
	xorl	%ecx, %ecx
	cmpq	$100000, %rsi
	setb	%cl
	cmpq	$10000, %rsi
	adcq	$0, %rcx
	leaq	.Lstatic.22(%rip), %rdx
	imulq	$274877907, %rsi, %rdi
	shrq	$38, %rdi
	leaq	(%rdx,%rdi,4), %rax
	movl	(%rcx,%rax), %eax
	movl	%eax, (%r10)
	movl	$6, %eax
	subq	%rcx, %rax
	xorq	$3, %rcx
	imull	$1000, %edi, %edi
	subl	%edi, %esi
	movl	(%rdx,%rsi,4), %edx
	movl	%edx, (%r10,%rcx)
.LBB94_141:
	movb	$44, 8(%r13,%rax)
	movq	$0, 192(%rsp)
	movw	%r15w, 192(%rsp)
	movl	%r12d, 196(%rsp)
	movq	80(%rsp), %rcx
	movq	%rcx, 200(%rsp)
	movb	$44, 9(%r13,%rax)
	addq	$2, %rax
	movq	%rax, 520(%r13)
	leaq	192(%rsp), %rsi
	movq	%r10, %rdi
	callq	"sq_text::faults::push_fault::<=512>"
	leaq	8(%r13), %r10
	movq	520(%r13), %rdx
	movb	$44, 4(%r10,%rdx)
	movl	$741092396, (%r10,%rdx)
	movb	$10, 13(%r13,%rdx)
	addq	$6, %rdx
.LBB94_142:
	movq	%rdx, 520(%r13)
.LBB94_143:
	movq	96(%rsp), %r15
	movq	24(%rsp), %r11
	jmp	.LBB94_233
.LBB94_144:
	xorl	%ecx, %ecx
	cmpq	$100000, %rsi
	setb	%cl
	cmpq	$10000, %rsi
	adcq	$0, %rcx
	leaq	.Lstatic.22(%rip), %rdx
	imulq	$274877907, %rsi, %rdi
	shrq	$38, %rdi
	leaq	(%rdx,%rdi,4), %rax
	movl	(%rcx,%rax), %eax
	movl	%eax, (%r10)
	movl	$6, %eax
	subq	%rcx, %rax
	xorq	$3, %rcx
	imull	$1000, %edi, %edi
	subl	%edi, %esi
	movl	(%rdx,%rsi,4), %edx
	movl	%edx, (%r10,%rcx)
.LBB94_145:
	movb	$44, 8(%r13,%rax)
	incq	%rax
	movq	%rax, 520(%r13)
	cmpq	$999999999, %r12
	ja	.LBB94_149
	cmpq	$999999, %r12
	ja	.LBB94_150
	cmpq	$999, %r12
	movq	24(%rsp), %r11
	ja	.LBB94_179
	xorl	%ecx, %ecx
	cmpq	$100, %r12
	setb	%cl
	cmpq	$10, %r12
	adcq	$0, %rcx
	leaq	.Lstatic.22(%rip), %rdx
	leaq	(%rdx,%r15,4), %rdx
	movl	(%rcx,%rdx), %edx
	movl	%edx, 8(%r13,%rax)
	xorq	$3, %rcx
	addq	%rax, %rcx
	movq	%rcx, 520(%r13)
	jmp	.LBB94_152
.LBB94_149:
	movq	%r10, %rdi
	movq	%r12, %rsi
	callq	"sq_digits::decimal::push_long::<=512>"
	jmp	.LBB94_151
.LBB94_150:
	imulq	$1125899907, %r15, %rdx
	xorl	%ecx, %ecx
	cmpq	$100000000, %r12
	setb	%cl
	cmpq	$10000000, %r12
	adcq	$0, %rcx
	shrq	$48, %rdx
	andl	$-4, %edx
	leaq	.Lstatic.22(%rip), %rsi
	addq	%rsi, %rdx
	movl	(%rcx,%rdx), %edx
	movl	%edx, 8(%r13,%rax)
	xorq	$3, %rcx
	leaq	(%rax,%rcx), %rdx
	imulq	$274877907, %r15, %rdi
	shrq	$38, %rdi
	imulq	$8589935, %rdi, %r8
	shrq	$33, %r8
	imull	$1000, %r8d, %r8d
	imull	$1000, %edi, %r9d
	subl	%r8d, %edi
	movzwl	(%rsi,%rdi,4), %r8d
	movw	%r8w, 8(%r13,%rdx)
	movzbl	2(%rsi,%rdi,4), %edi
	movb	%dil, 10(%r13,%rdx)
	subl	%r9d, %r15d
	movl	(%rsi,%r15,4), %esi
	movl	%esi, 11(%r13,%rdx)
	addq	%rcx, %rax
	addq	$6, %rax
	movq	%rax, 520(%r13)
.LBB94_151:
	movq	24(%rsp), %r11
.LBB94_152:
	movq	40(%rsp), %r15
	movzbl	%r15b, %ecx
	shll	$3, %ecx
	leaq	".Lswitch.table.squitter_c::log_loop::write_some::<#507aa2edf0378fed>.354"(%rip), %rax
	movq	(%rcx,%rax), %rax
	leaq	".Lswitch.table.squitter_c::log_loop::write_some::<#507aa2edf0378fed>.355"(%rip), %rdx
	movq	(%rcx,%rdx), %rdx
	movq	520(%r13), %rcx
	movb	$44, 8(%r13,%rcx)
	leaq	-1(%rax), %rsi
	cmpq	$3, %rsi
	jae	.LBB94_154
	xorl	%esi, %esi
	jmp	.LBB94_157
.LBB94_154:
	movq	%rax, %rdi
	andq	$-4, %rdi
	leaq	12(%r13), %rsi
	leaq	(%rsi,%rcx), %r8
	xorl	%esi, %esi
	.p2align	4
.LBB94_155:
	movzbl	(%rdx,%rsi), %r9d
	movb	%r9b, -3(%r8,%rsi)
	movzbl	1(%rdx,%rsi), %r9d
	movb	%r9b, -2(%r8,%rsi)
	movzbl	2(%rdx,%rsi), %r9d
	movb	%r9b, -1(%r8,%rsi)
	movzbl	3(%rdx,%rsi), %r9d
	movb	%r9b, (%r8,%rsi)
	addq	$4, %rsi
	cmpq	%rsi, %rdi
	jne	.LBB94_155
	cmpb	$1, %r15b
	je	.LBB94_159
.LBB94_157:
	movl	%eax, %edi
	andl	$3, %edi
	leaq	(%rsi,%rcx), %r8
	leaq	9(%r13), %r9
	addq	%r9, %r8
	addq	%rsi, %rdx
	xorl	%esi, %esi
	.p2align	4
.LBB94_158:
	movzbl	(%rdx,%rsi), %r9d
	movb	%r9b, (%r8,%rsi)
	incq	%rsi
	cmpq	%rsi, %rdi
	jne	.LBB94_158
.LBB94_159:
	leaq	1(%rcx), %rdx
	leaq	(%rdx,%rax), %rdi
	movq	%rdi, 520(%r13)
	movb	$44, 8(%r13,%rdi)
	movq	80(%rsp), %r9
	movq	%r9, %rsi
	shrq	$47, %rsi
	andl	$510, %esi
	leaq	.Lstatic.67(%rip), %r8
	shrq	$39, %r9
	andl	$510, %r9d
	movzwl	(%rsi,%r8), %esi
	movd	%esi, %xmm0
	pinsrw	$1, (%r9,%r8), %xmm0
	movd	%xmm0, 9(%r13,%rdi)
	movzbl	%r14b, %esi
	movzwl	(%r8,%rsi,2), %esi
	movw	%si, 13(%r13,%rdi)
	movzbl	112(%rsp), %esi
	shll	$3, %esi
	leaq	".Lswitch.table.squitter_c::log_loop::write_some::<#507aa2edf0378fed>.356"(%rip), %r8
	movq	(%rsi,%r8), %r14
	leaq	".Lswitch.table.squitter_c::log_loop::write_some::<#507aa2edf0378fed>.357"(%rip), %r8
	movq	(%rsi,%r8), %rsi
	movb	$44, 15(%r13,%rdi)
	leaq	-1(%r14), %rdi
	cmpq	$3, %rdi
	jae	.LBB94_161
	xorl	%edi, %edi
	jmp	.LBB94_163
.LBB94_161:
	movq	%r14, %r8
	andq	$-4, %r8
	leaq	(%rax,%rcx), %r9
	leaq	20(%r13), %rdi
	addq	%rdi, %r9
	xorl	%edi, %edi
	.p2align	4
.LBB94_162:
	movzbl	(%rsi,%rdi), %r10d
	movb	%r10b, -3(%r9,%rdi)
	movzbl	1(%rsi,%rdi), %r10d
	movb	%r10b, -2(%r9,%rdi)
	movzbl	2(%rsi,%rdi), %r10d
	movb	%r10b, -1(%r9,%rdi)
	movzbl	3(%rsi,%rdi), %r10d
	movb	%r10b, (%r9,%rdi)
	addq	$4, %rdi
	cmpq	%rdi, %r8
	jne	.LBB94_162
.LBB94_163:
	addq	%rax, %rdx
	addq	$8, %rdx
	movl	%r14d, %r8d
	andl	$3, %r8d
	addq	%rdi, %rax
	addq	%rcx, %rax
	leaq	17(%r13), %rcx
	addq	%rcx, %rax
	addq	%rdi, %rsi
	xorl	%ecx, %ecx
	.p2align	4
.LBB94_164:
	movzbl	(%rsi,%rcx), %edi
	movb	%dil, (%rax,%rcx)
	incq	%rcx
	cmpq	%rcx, %r8
	jne	.LBB94_164
	addq	%rdx, %r14
	cmpb	$2, %r15b
	leaq	8(%r13), %r10
	jae	.LBB94_168
	movq	56(%rsp), %r8
	movzbl	%r8b, %r9d
	imulq	$23592960, %r9, %rax
	imulq	$-47185920, %r9, %r15
	cmpb	$0, 72(%rsp)
	je	.LBB94_169
	imulq	$360, 120(%rsp), %rbx
	imulq	$360, 48(%rsp), %rcx
	jmp	.LBB94_170
.LBB94_168:
	movw	$11308, (%r10,%r14)
	addq	$2, %r14
	movq	96(%rsp), %r15
	movq	112(%rsp), %rax
	movq	16(%rsp), %rdx
	testb	%al, %al
	jne	.LBB94_222
	jmp	.LBB94_221
.LBB94_169:
	imulq	$90, 120(%rsp), %rbx
	imulq	$90, 48(%rsp), %rcx
.LBB94_170:
	xorl	%edx, %edx
	cmpq	%rax, %rcx
	cmovbq	%rdx, %r15
	addq	%rcx, %r15
	movq	32(%rsp), %rdi
	movl	%edi, %ecx
	shll	$17, %ecx
	movq	%rbx, %rax
	negq	%rax
	cmovsq	%rbx, %rax
	movl	$20000000, %edx
	mulq	%rdx
	movq	%rax, %rsi
	addq	%rcx, %rsi
	movq	%rdx, %rsi
	adcq	$0, %rsi
	addq	%rcx, %rax
	adcq	%rax, %rdx
	movb	$44, (%r10,%r14)
	shrdq	$56, %rsi, %rdx
	jne	.LBB94_217
	shrq	$17, %rax
	shll	$4, %edi
	leaq	.Lstatic.40(%rip), %rcx
	mulq	(%rdi,%rcx)
	movq	%rdx, %rcx
	shldq	$16, %rax, %rcx
	leaq	1(%r14), %r12
	testq	%rbx, %rbx
	jns	.LBB94_174
.LBB94_172:
	testq	%rcx, %rcx
	je	.LBB94_174
	movb	$45, 1(%r10,%r14)
	addq	$2, %r14
	movq	%r14, %r12
.LBB94_174:
	movl	%r9d, %esi
	shll	$17, %esi
	xorl	%r14d, %r14d
	cmpq	$1000000000, %rcx
	setb	%r14b
	cmpq	$100000000, %rcx
	adcq	$0, %r14
	leaq	.Lstatic.22(%rip), %r8
	movabsq	$-2972493582642298179, %rdx
	movq	%rcx, %rax
	mulq	%rdx
	shrq	$23, %rdx
	leaq	(%r8,%rdx,4), %rax
	movl	(%r14,%rax), %eax
	movl	%eax, 8(%r13,%r12)
	xorq	$3, %r14
	leaq	(%r12,%r14), %rbx
	movb	$46, 8(%r13,%rbx)
	imulq	$10000000, %rdx, %rax
	subq	%rax, %rcx
	imulq	$17592187, %rcx, %rax
	shrq	$44, %rax
	orb	$48, %al
	movb	%al, 9(%r13,%rbx)
	leaq	(%r12,%r14), %rax
	addq	$2, %rax
	movq	%rax, 520(%r13)
	imulq	$8589935, %rcx, %rax
	shrq	$33, %rax
	imull	$33555, %eax, %edx
	shrl	$25, %edx
	imull	$1000, %edx, %edx
	imull	$1000, %eax, %edi
	subl	%edx, %eax
	movzwl	%ax, %eax
	movzwl	(%r8,%rax,4), %edx
	movw	%dx, 10(%r13,%rbx)
	movzbl	2(%r8,%rax,4), %eax
	movb	%al, 12(%r13,%rbx)
	subl	%edi, %ecx
	movzwl	(%r8,%rcx,4), %eax
	movw	%ax, 13(%r13,%rbx)
	movzbl	2(%r8,%rcx,4), %eax
	movb	%al, 15(%r13,%rbx)
	movb	$44, 16(%r13,%rbx)
	movq	%r15, %rax
	negq	%rax
	cmovsq	%r15, %rax
	movl	$20000000, %ecx
	mulq	%rcx
	addq	%rsi, %rax
	adcq	$0, %rdx
	cmpb	$63, 56(%rsp)
	ja	.LBB94_218
	movq	%rax, %rcx
	shrq	$56, %rcx
	orq	%rdx, %rcx
	jne	.LBB94_218
	shrq	$17, %rax
	shll	$4, %r9d
	leaq	.Lstatic.40(%rip), %rcx
	mulq	(%r9,%rcx)
	movq	%rdx, %rcx
	shldq	$16, %rax, %rcx
	leaq	(%r12,%r14), %rsi
	addq	$9, %rsi
	testq	%r15, %r15
	jns	.LBB94_219
.LBB94_177:
	testq	%rcx, %rcx
	movq	96(%rsp), %r15
	je	.LBB94_220
	movb	$45, 9(%r10,%rbx)
	addq	$10, %rbx
	movq	%rbx, %rsi
	jmp	.LBB94_220
.LBB94_179:
	xorl	%ecx, %ecx
	cmpq	$100000, %r12
	setb	%cl
	cmpq	$10000, %r12
	adcq	$0, %rcx
	leaq	.Lstatic.22(%rip), %rdx
	imulq	$274877907, %r15, %rsi
	shrq	$38, %rsi
	leaq	(%rdx,%rsi,4), %rdi
	movl	(%rcx,%rdi), %edi
	movl	%edi, 8(%r13,%rax)
	xorq	$3, %rcx
	leaq	(%rax,%rcx), %rdi
	imull	$1000, %esi, %esi
	subl	%esi, %r15d
	movl	(%rdx,%r15,4), %edx
	movl	%edx, 8(%r13,%rdi)
	addq	%rcx, %rax
	addq	$3, %rax
	movq	%rax, 520(%r13)
	jmp	.LBB94_152
.LBB94_180:
	movq	%rdx, %r12
	imulq	$90, 120(%rsp), %r15
	imulq	$90, 48(%rsp), %rcx
.LBB94_181:
	xorl	%edx, %edx
	cmpq	%rax, %rcx
	cmovbq	%rdx, %r14
	addq	%rcx, %r14
	movq	32(%rsp), %rdi
	movl	%edi, %ecx
	shll	$17, %ecx
	movq	%r15, %rax
	negq	%rax
	cmovsq	%r15, %rax
	movl	$20000000, %edx
	mulq	%rdx
	movq	%rax, %rsi
	addq	%rcx, %rsi
	movq	%rdx, %rsi
	adcq	$0, %rsi
	addq	%rcx, %rax
	adcq	%rax, %rdx
	movb	$32, 11(%r10,%r12)
	shrdq	$56, %rsi, %rdx
	jne	.LBB94_290
	shrq	$17, %rax
	shll	$4, %edi
	leaq	.Lstatic.40(%rip), %rcx
	mulq	(%rdi,%rcx)
	movq	%rdx, %rcx
	shldq	$16, %rax, %rcx
	leaq	12(%r12), %rdi
	testq	%r15, %r15
	jns	.LBB94_191
.LBB94_183:
	testq	%rcx, %rcx
	je	.LBB94_191
	movb	$45, 20(%r13,%r12)
	addq	$13, %r12
	jmp	.LBB94_190
.LBB94_185:
	movq	%rdx, %r12
	imulq	$90, 120(%rsp), %r15
	imulq	$90, 48(%rsp), %rcx
.LBB94_186:
	xorl	%edx, %edx
	cmpq	%rax, %rcx
	cmovbq	%rdx, %r14
	addq	%rcx, %r14
	movq	32(%rsp), %rdi
	movl	%edi, %ecx
	shll	$17, %ecx
	movq	%r15, %rax
	negq	%rax
	cmovsq	%r15, %rax
	movl	$20000000, %edx
	mulq	%rdx
	movq	%rax, %rsi
	addq	%rcx, %rsi
	movq	%rdx, %rsi
	adcq	$0, %rsi
	addq	%rcx, %rax
	adcq	%rax, %rdx
	movb	$32, 16(%r10,%r12)
	shrdq	$56, %rsi, %rdx
	jne	.LBB94_291
	shrq	$17, %rax
	shll	$4, %edi
	leaq	.Lstatic.40(%rip), %rcx
	mulq	(%rdi,%rcx)
	movq	%rdx, %rcx
	shldq	$16, %rax, %rcx
	leaq	17(%r12), %rdi
	testq	%r15, %r15
	jns	.LBB94_191
.LBB94_188:
	testq	%rcx, %rcx
	je	.LBB94_191
	movb	$45, 25(%r13,%r12)
	addq	$18, %r12
.LBB94_190:
	movq	%r12, 520(%r13)
	movq	%r12, %rdi
.LBB94_191:
	movl	%ebx, %esi
	shll	$17, %esi
	xorl	%r15d, %r15d
	cmpq	$1000000000, %rcx
	setb	%r15b
	cmpq	$100000000, %rcx
	adcq	$0, %r15
	leaq	.Lstatic.22(%rip), %r9
	movabsq	$-2972493582642298179, %rdx
	movq	%rcx, %rax
	mulq	%rdx
	shrq	$23, %rdx
	leaq	(%r9,%rdx,4), %rax
	movl	(%r15,%rax), %eax
	movl	%eax, (%r10,%rdi)
	xorq	$3, %r15
	movq	%rdi, 80(%rsp)
	leaq	(%rdi,%r15), %r12
	movb	$46, (%r10,%r12)
	imulq	$10000000, %rdx, %rax
	subq	%rax, %rcx
	imulq	$17592187, %rcx, %rax
	shrq	$44, %rax
	orb	$48, %al
	movb	%al, 1(%r10,%r12)
	imulq	$8589935, %rcx, %rax
	shrq	$33, %rax
	imull	$33555, %eax, %edx
	shrl	$25, %edx
	imull	$1000, %edx, %edx
	imull	$1000, %eax, %edi
	subl	%edx, %eax
	movzwl	%ax, %eax
	movzwl	(%r9,%rax,4), %edx
	movw	%dx, 2(%r10,%r12)
	movzbl	2(%r9,%rax,4), %eax
	movb	%al, 4(%r10,%r12)
	subl	%edi, %ecx
	movzwl	(%r9,%rcx,4), %eax
	movw	%ax, 5(%r10,%r12)
	movzbl	2(%r9,%rcx,4), %eax
	movb	%al, 7(%r10,%r12)
	movb	$32, 8(%r10,%r12)
	movq	%r14, %rax
	negq	%rax
	cmovsq	%r14, %rax
	movl	$20000000, %ecx
	mulq	%rcx
	addq	%rsi, %rax
	adcq	$0, %rdx
	cmpb	$63, %r8b
	ja	.LBB94_228
	movq	%rax, %rcx
	shrq	$56, %rcx
	orq	%rdx, %rcx
	jne	.LBB94_228
	shrq	$17, %rax
	shll	$4, %ebx
	leaq	.Lstatic.40(%rip), %rcx
	mulq	(%rbx,%rcx)
	movq	%rdx, %rcx
	shldq	$16, %rax, %rcx
	movq	80(%rsp), %rax
	leaq	(%rax,%r15), %rsi
	addq	$9, %rsi
	testq	%r14, %r14
	jns	.LBB94_229
.LBB94_194:
	testq	%rcx, %rcx
	movq	96(%rsp), %r15
	movabsq	$-2972493582642298179, %rdx
	je	.LBB94_230
	movb	$45, 9(%r10,%r12)
	addq	$10, %r12
	movq	%r12, %rsi
	jmp	.LBB94_230
.LBB94_196:
	leaq	192(%rsp), %rdi
	movq	%rbx, %rsi
	movq	%r14, %rdx
	callq	"sq_text::timed::split_longest"
	cmpb	$1, 192(%rsp)
	jne	.LBB94_215
	movq	200(%rsp), %rax
	movq	%rax, 16(%rsp)
	movq	208(%rsp), %rsi
	movq	216(%rsp), %r14
	movq	24(%rsp), %r11
	leaq	8(%r13), %r10
	jmp	.LBB94_25
.LBB94_198:
	cmpl	$8, %edx
	ja	.LBB94_252
	movl	%r14d, %r9d
	shrl	$10, %r9d
	andl	$1, %r9d
	shrq	$41, %rax
	andl	$131071, %eax
	movq	%r14, %rsi
	shlq	$21, %rsi
	movl	$4294967295, %edi
	incq	%rdi
	andq	%rsi, %rdi
	movl	%r14d, %esi
	shll	$12, %esi
	andl	$2130706432, %esi
	orq	%rdi, %rsi
	movl	%r14d, %edi
	shrl	$3, %edi
	andl	$65536, %edi
	orq	%rsi, %rdi
	movl	%r14d, %r8d
	shrl	$12, %r8d
	andl	$32512, %r8d
	orq	%rdi, %r8
	movq	%r9, %rdi
	orq	%rdx, %r8
	andl	$131071, %ecx
	shlq	$32, %rcx
	orq	%rax, %rcx
	movb	$1, %sil
	jmp	.LBB94_255
.LBB94_200:
	shll	$18, %edi
	movq	%rdi, %rdx
	movq	%rax, %rdi
	callq	"sq_angle::quotients::divided"
	movq	56(%rsp), %r8
	leaq	8(%r13), %r10
	movq	24(%rsp), %r11
	movq	%rax, %rcx
	leaq	8(%r14), %rdi
	testq	%r12, %r12
	js	.LBB94_121
	jmp	.LBB94_123
.LBB94_201:
	shll	$18, %ebx
	movq	%rax, %rdi
	movq	%rdx, %rsi
	movq	%rbx, %rdx
	movq	%r9, %rbx
	callq	"sq_angle::quotients::divided"
	movq	%rbx, %r9
	leaq	8(%r13), %r10
	movq	24(%rsp), %r11
	movq	%rax, %rcx
	movq	80(%rsp), %rax
	leaq	(%rax,%r14), %rsi
	addq	$15, %rsi
	testq	%r15, %r15
	js	.LBB94_126
.LBB94_202:
	movq	96(%rsp), %r15
.LBB94_203:
	xorl	%edi, %edi
	cmpq	$1000000000, %rcx
	setb	%dil
	cmpq	$100000000, %rcx
	adcq	$0, %rdi
	movq	%rcx, %rax
	movabsq	$-2972493582642298179, %rdx
	mulq	%rdx
	shrq	$23, %rdx
	leaq	(%r9,%rdx,4), %rax
	movl	(%rdi,%rax), %eax
	movl	%eax, (%r10,%rsi)
	xorq	$3, %rdi
	leaq	(%rsi,%rdi), %rax
	movb	$46, (%r10,%rax)
	imulq	$10000000, %rdx, %rdx
	subq	%rdx, %rcx
	imulq	$17592187, %rcx, %rdx
	shrq	$44, %rdx
	orb	$48, %dl
	movb	%dl, 1(%r10,%rax)
	imulq	$8589935, %rcx, %rdx
	shrq	$33, %rdx
	imull	$33555, %edx, %r8d
	shrl	$25, %r8d
	imull	$1000, %r8d, %r8d
	movq	%r9, %rbx
	imull	$1000, %edx, %r9d
	subl	%r8d, %edx
	movzwl	%dx, %edx
	movzwl	(%rbx,%rdx,4), %r8d
	movw	%r8w, 2(%r10,%rax)
	movzbl	2(%rbx,%rdx,4), %edx
	movb	%dl, 4(%r10,%rax)
	subl	%r9d, %ecx
	movzwl	(%rbx,%rcx,4), %edx
	movw	%dx, 5(%r10,%rax)
	movzbl	2(%rbx,%rcx,4), %ecx
	movb	%cl, 7(%r10,%rax)
	leaq	(%rsi,%rdi), %r14
	addq	$8, %r14
.LBB94_204:
	movq	112(%rsp), %rcx
	movq	16(%rsp), %rdx
	movabsq	$4189038582249693740, %rax
	testb	%cl, %cl
	je	.LBB94_206
	movq	%rax, 8(%r13,%r14)
	leaq	8(%r14), %rax
	movq	%rax, 520(%r13)
	movl	$1819047278, 16(%r13,%r14)
	jmp	.LBB94_208
.LBB94_206:
	testb	$16, %dl
	sete	%cl
	movq	88(%rsp), %rsi
	orb	%cl, %sil
	movq	%rax, (%r10,%r14)
	je	.LBB94_210
	movl	$1819047278, 8(%r10,%r14)
.LBB94_208:
	addq	$12, %r14
	movq	%r14, %rdx
.LBB94_209:
	movw	$2685, 8(%r13,%rdx)
	addq	$2, %rdx
	jmp	.LBB94_232
.LBB94_210:
	movl	%edx, %eax
	shrl	%eax
	andl	$32752, %eax
	andl	$15, %edx
	orl	%eax, %edx
	leal	(%rdx,%rdx,4), %eax
	leal	(%rax,%rax,4), %ecx
	addl	$-1000, %ecx
	movl	%ecx, %eax
	negl	%eax
	cmovsl	%ecx, %eax
	cmpw	$39, %dx
	ja	.LBB94_213
	movb	$45, 8(%r10,%r14)
	addq	$9, %r14
	cmpl	$999, %eax
	jbe	.LBB94_214
.LBB94_212:
	xorl	%ecx, %ecx
	cmpl	$100000, %eax
	setb	%cl
	cmpl	$10000, %eax
	adcq	$0, %rcx
	leaq	.Lstatic.22(%rip), %rdx
	movl	%eax, %esi
	imulq	$274877907, %rsi, %rsi
	shrq	$38, %rsi
	leaq	(%rdx,%rsi,4), %rdi
	movl	(%rcx,%rdi), %edi
	movl	%edi, (%r10,%r14)
	xorq	$3, %rcx
	leaq	(%r14,%rcx), %rdi
	imull	$1000, %esi, %esi
	subl	%esi, %eax
	movl	(%rdx,%rax,4), %eax
	movl	%eax, (%r10,%rdi)
	leaq	(%r14,%rcx), %rdx
	addq	$3, %rdx
	jmp	.LBB94_209
.LBB94_213:
	addq	$8, %r14
	cmpl	$999, %eax
	ja	.LBB94_212
.LBB94_214:
	xorl	%edx, %edx
	cmpl	$100, %eax
	setb	%dl
	cmpl	$10, %eax
	adcq	$0, %rdx
	movl	%eax, %eax
	leaq	.Lstatic.22(%rip), %rcx
	leaq	(%rcx,%rax,4), %rax
	movl	(%rdx,%rax), %eax
	movl	%eax, (%r10,%r14)
	xorq	$3, %rdx
	addq	%r14, %rdx
	jmp	.LBB94_209
.LBB94_215:
	xorl	%eax, %eax
	movb	$1, %r14b
	xorl	%r12d, %r12d
	xorl	%edi, %edi
	jmp	.LBB94_260
.LBB94_216:
	movl	204(%rsp), %eax
	movzbl	208(%rsp), %esi
	movl	212(%rsp), %edi
	movq	216(%rsp), %r9
	movq	224(%rsp), %r8
	jmp	.LBB94_257
.LBB94_217:
	shll	$18, %edi
	movq	%rdi, %rdx
	movq	%rax, %rdi
	movq	%r9, %r12
	callq	"sq_angle::quotients::divided"
	movq	%r12, %r9
	leaq	8(%r13), %r10
	movq	24(%rsp), %r11
	movq	%rax, %rcx
	leaq	1(%r14), %r12
	testq	%rbx, %rbx
	js	.LBB94_172
	jmp	.LBB94_174
.LBB94_218:
	shll	$18, %r9d
	movq	%rax, %rdi
	movq	%rdx, %rsi
	movq	%r9, %rdx
	callq	"sq_angle::quotients::divided"
	leaq	8(%r13), %r10
	movq	24(%rsp), %r11
	movq	%rax, %rcx
	leaq	(%r12,%r14), %rsi
	addq	$9, %rsi
	testq	%r15, %r15
	js	.LBB94_177
.LBB94_219:
	movq	96(%rsp), %r15
.LBB94_220:
	xorl	%edi, %edi
	cmpq	$1000000000, %rcx
	setb	%dil
	cmpq	$100000000, %rcx
	adcq	$0, %rdi
	movq	%rcx, %rax
	movabsq	$-2972493582642298179, %rdx
	mulq	%rdx
	shrq	$23, %rdx
	leaq	.Lstatic.22(%rip), %rbx
	leaq	(%rbx,%rdx,4), %rax
	movl	(%rdi,%rax), %eax
	movl	%eax, (%r10,%rsi)
	xorq	$3, %rdi
	leaq	(%rsi,%rdi), %rax
	movb	$46, (%r10,%rax)
	imulq	$10000000, %rdx, %rdx
	subq	%rdx, %rcx
	imulq	$17592187, %rcx, %rdx
	shrq	$44, %rdx
	orb	$48, %dl
	movb	%dl, 1(%r10,%rax)
	imulq	$8589935, %rcx, %rdx
	shrq	$33, %rdx
	imull	$33555, %edx, %r8d
	shrl	$25, %r8d
	imull	$1000, %r8d, %r8d
	imull	$1000, %edx, %r9d
	subl	%r8d, %edx
	movzwl	%dx, %edx
	movzwl	(%rbx,%rdx,4), %r8d
	movw	%r8w, 2(%r10,%rax)
	movzbl	2(%rbx,%rdx,4), %edx
	movb	%dl, 4(%r10,%rax)
	subl	%r9d, %ecx
	movzwl	(%rbx,%rcx,4), %edx
	movw	%dx, 5(%r10,%rax)
	movzbl	2(%rbx,%rcx,4), %ecx
	movb	%cl, 7(%r10,%rax)
	leaq	(%rsi,%rdi), %r14
	addq	$8, %r14
	movq	112(%rsp), %rax
	movq	16(%rsp), %rdx
	testb	%al, %al
	jne	.LBB94_222
.LBB94_221:
	testb	$16, %dl
	sete	%al
	movq	88(%rsp), %rcx
	orb	%al, %cl
	je	.LBB94_223
.LBB94_222:
	movb	$44, (%r10,%r14)
	incq	%r14
	movq	%r14, %rdx
	jmp	.LBB94_231
.LBB94_223:
	movl	%edx, %eax
	shrl	%eax
	andl	$32752, %eax
	andl	$15, %edx
	orl	%eax, %edx
	leal	(%rdx,%rdx,4), %eax
	leal	(%rax,%rax,4), %ecx
	addl	$-1000, %ecx
	movb	$44, (%r10,%r14)
	movl	%ecx, %eax
	negl	%eax
	cmovsl	%ecx, %eax
	cmpw	$39, %dx
	ja	.LBB94_226
	movb	$45, 9(%r13,%r14)
	addq	$2, %r14
	movq	%r14, 520(%r13)
	cmpl	$999, %eax
	jbe	.LBB94_227
.LBB94_225:
	xorl	%ecx, %ecx
	cmpl	$100000, %eax
	setb	%cl
	cmpl	$10000, %eax
	adcq	$0, %rcx
	leaq	.Lstatic.22(%rip), %rdx
	movl	%eax, %esi
	imulq	$274877907, %rsi, %rsi
	shrq	$38, %rsi
	leaq	(%rdx,%rsi,4), %rdi
	movl	(%rcx,%rdi), %edi
	movl	%edi, (%r10,%r14)
	xorq	$3, %rcx
	leaq	(%r14,%rcx), %rdi
	imull	$1000, %esi, %esi
	subl	%esi, %eax
	movl	(%rdx,%rax,4), %eax
	movl	%eax, (%r10,%rdi)
	leaq	(%r14,%rcx), %rdx
	addq	$3, %rdx
	jmp	.LBB94_231
.LBB94_226:
	incq	%r14
	cmpl	$999, %eax
	ja	.LBB94_225
.LBB94_227:
	xorl	%edx, %edx
	cmpl	$100, %eax
	setb	%dl
	cmpl	$10, %eax
	adcq	$0, %rdx
	movl	%eax, %eax
	leaq	.Lstatic.22(%rip), %rcx
	leaq	(%rcx,%rax,4), %rax
	movl	(%rdx,%rax), %eax
	movl	%eax, (%r10,%r14)
	xorq	$3, %rdx
	addq	%r14, %rdx
	jmp	.LBB94_231
.LBB94_228:
	shll	$18, %ebx
	movq	%rax, %rdi
	movq	%rdx, %rsi
	movq	%rbx, %rdx
	movq	%r9, %rbx
	callq	"sq_angle::quotients::divided"
	movq	%rbx, %r9
	leaq	8(%r13), %r10
	movq	24(%rsp), %r11
	movq	%rax, %rcx
	movq	80(%rsp), %rax
	leaq	(%rax,%r15), %rsi
	addq	$9, %rsi
	testq	%r14, %r14
	js	.LBB94_194
.LBB94_229:
	movq	96(%rsp), %r15
	movabsq	$-2972493582642298179, %rdx
.LBB94_230:
	xorl	%edi, %edi
	cmpq	$1000000000, %rcx
	setb	%dil
	cmpq	$100000000, %rcx
	adcq	$0, %rdi
	movq	%rcx, %rax
	mulq	%rdx
	shrq	$23, %rdx
	leaq	(%r9,%rdx,4), %rax
	movl	(%rdi,%rax), %eax
	movl	%eax, (%r10,%rsi)
	xorq	$3, %rdi
	leaq	(%rsi,%rdi), %rax
	movb	$46, (%r10,%rax)
	imulq	$10000000, %rdx, %rdx
	subq	%rdx, %rcx
	imulq	$17592187, %rcx, %rdx
	shrq	$44, %rdx
	orb	$48, %dl
	movb	%dl, 1(%r10,%rax)
	imulq	$8589935, %rcx, %rdx
	shrq	$33, %rdx
	imull	$33555, %edx, %r8d
	shrl	$25, %r8d
	imull	$1000, %r8d, %r8d
	movq	%r9, %rbx
	imull	$1000, %edx, %r9d
	subl	%r8d, %edx
	movzwl	%dx, %edx
	movzwl	(%rbx,%rdx,4), %r8d
	movw	%r8w, 2(%r10,%rax)
	movzbl	2(%rbx,%rdx,4), %edx
	movb	%dl, 4(%r10,%rax)
	subl	%r9d, %ecx
	movzwl	(%rbx,%rcx,4), %edx
	movw	%dx, 5(%r10,%rax)
	movzbl	2(%rbx,%rcx,4), %ecx
	movb	%cl, 7(%r10,%rax)
	leaq	(%rsi,%rdi), %rdx
	addq	$8, %rdx
.LBB94_231:
	movb	$10, 8(%r13,%rdx)
	incq	%rdx
.LBB94_232:
	movq	%rdx, 520(%r13)
.LBB94_233:
	leaq	(%r11,%r15), %rdi
	movq	%rdi, %rax
	subq	%r10, %rax
	cmpq	%rdx, %rax
	jae	.LBB94_2
	xorl	%eax, %eax
	cmpq	$4, %rdx
	jb	.LBB94_238
	movq	296(%rsp), %rcx
	addq	%r15, %rcx
	cmpq	$32, %rcx
	movq	240(%rsp), %r9
	jb	.LBB94_246
	cmpq	$32, %rdx
	jae	.LBB94_239
	xorl	%eax, %eax
	jmp	.LBB94_243
.LBB94_238:
	movq	240(%rsp), %r9
	jmp	.LBB94_246
.LBB94_239:
	movq	%rdx, %rax
	andq	$-32, %rax
	movq	280(%rsp), %rcx
	addq	%r15, %rcx
	xorl	%esi, %esi
	.p2align	4
.LBB94_240:
	movdqu	8(%r13,%rsi), %xmm0
	movdqu	24(%r13,%rsi), %xmm1
	movdqu	%xmm0, -16(%rcx,%rsi)
	movdqu	%xmm1, (%rcx,%rsi)
	addq	$32, %rsi
	cmpq	%rsi, %rax
	jne	.LBB94_240
	cmpq	%rax, %rdx
	je	.LBB94_3
	testb	$28, %dl
	je	.LBB94_246
.LBB94_243:
	movq	%rax, %rcx
	movq	%rdx, %rax
	andq	$-4, %rax
	.p2align	4
.LBB94_244:
	movl	(%r10,%rcx), %esi
	movl	%esi, (%rdi,%rcx)
	addq	$4, %rcx
	cmpq	%rcx, %rax
	jne	.LBB94_244
	cmpq	%rax, %rdx
	je	.LBB94_3
.LBB94_246:
	movq	%rdx, %rsi
	movq	%rax, %rcx
	andq	$3, %rsi
	je	.LBB94_249
	movq	%rax, %rcx
	.p2align	4
.LBB94_248:
	movzbl	(%r10,%rcx), %r8d
	movb	%r8b, (%rdi,%rcx)
	incq	%rcx
	decq	%rsi
	jne	.LBB94_248
.LBB94_249:
	subq	%rdx, %rax
	cmpq	$-4, %rax
	ja	.LBB94_3
	movq	288(%rsp), %rax
	addq	%r15, %rax
	.p2align	4
.LBB94_251:
	movzbl	8(%r13,%rcx), %esi
	movb	%sil, -3(%rax,%rcx)
	movzbl	9(%r13,%rcx), %esi
	movb	%sil, -2(%rax,%rcx)
	movzbl	10(%r13,%rcx), %esi
	movb	%sil, -1(%rax,%rcx)
	movzbl	11(%r13,%rcx), %esi
	movb	%sil, (%rax,%rcx)
	addq	$4, %rcx
	cmpq	%rcx, %rdx
	jne	.LBB94_251
	jmp	.LBB94_3
.LBB94_252:
	cmpl	$19, %edx
	jb	.LBB94_254
	cmpl	$19, %edx
	setne	%sil
	cmpl	$23, %edx
	setb	%dil
	andb	%sil, %dil
	cmpb	$1, %dil
	movb	$2, %sil
	jne	.LBB94_295
.LBB94_254:
	movl	%r14d, %r8d
	shrl	$10, %r8d
	andl	$1, %r8d
	shrq	$41, %rax
	andl	$131071, %eax
	movl	%r14d, %esi
	andl	$2048, %esi
	shlq	$37, %rsi
	movl	%r14d, %edi
	andl	$16773120, %edi
	shlq	$20, %rdi
	orq	%rsi, %rdi
	movl	%r14d, %esi
	shrl	$8, %esi
	andl	$65536, %esi
	orq	%rdi, %rsi
	movq	%r8, %rdi
	movl	%r14d, %r8d
	shrl	$17, %r8d
	andl	$768, %r8d
	orq	%rsi, %r8
	orq	%rdx, %r8
	andl	$131071, %ecx
	shlq	$32, %rcx
	orq	%rax, %rcx
	xorl	%esi, %esi
.LBB94_255:
	movq	%rcx, %r9
.LBB94_256:
	movq	%r14, %rax
	shrq	$56, %r14
	andb	$7, %r14b
	shrq	$32, %rax
	andl	$16777215, %eax
.LBB94_257:
	movq	%rsi, 112(%rsp)
	movzbl	%sil, %r11d
	movq	%rax, %rbx
	movl	%eax, %esi
	movq	%rsi, %r10
	shlq	$32, %r10
	movzbl	%r14b, %ecx
	orq	%r10, %rcx
	movq	(%rbp), %rdx
	movq	16(%rsp), %rax
	movq	%rax, 192(%rsp)
	movq	%rcx, 80(%rsp)
	movq	%rcx, 200(%rsp)
	movl	%r11d, 40(%rsp)
	movl	%r11d, 208(%rsp)
	movq	%rdi, 32(%rsp)
	movl	%edi, 212(%rsp)
	movq	%r9, 48(%rsp)
	movq	%r9, 216(%rsp)
	movq	%r8, 120(%rsp)
	movq	%r8, 224(%rsp)
	movq	%rdx, 72(%rsp)
	cmpb	$1, 56(%rdx)
	jne	.LBB94_261
	movq	72(%rsp), %rax
	movq	64(%rax), %rax
	movb	$8, %cl
	cmpq	%rax, 16(%rsp)
	jae	.LBB94_261
.LBB94_259:
	xorl	%r12d, %r12d
	xorl	%edi, %edi
	movl	%ecx, %r14d
.LBB94_260:
	movq	24(%rsp), %rbx
	leaq	8(%r13), %r10
	jmp	.LBB94_51
.LBB94_261:
	movq	72(%rsp), %r12
	leaq	72(%r12), %rdi
	movq	112(%rsp), %r11
	cmpb	$2, %r11b
	jne	.LBB94_265
	movq	8(%r12), %rsi
	movq	256(%r12), %rax
	xorl	%ecx, %ecx
	movq	16(%rsp), %r14
	movq	%r14, %rdx
	subq	%rax, %rdx
	cmovaeq	%rdx, %rcx
	cmpq	%rsi, %rcx
	jbe	.LBB94_264
	movq	%r14, %rdx
	callq	"sq_track::tracker::look_through::<#bd73a11ec42be588>"
	movq	112(%rsp), %r11
.LBB94_264:
	movq	%rax, 256(%r12)
	movq	$1, 56(%r12)
	movq	%r14, 64(%r12)
	movb	$6, %al
	movq	%rax, 40(%rsp)
	movb	$1, 72(%rsp)
	movl	$60, %eax
	movq	%rax, 32(%rsp)
	movq	$0, 48(%rsp)
	xorl	%esi, %esi
	movq	$0, 64(%rsp)
	movl	$0, 12(%rsp)
	movq	24(%rsp), %rbx
	leaq	8(%r13), %r10
	jmp	.LBB94_319
.LBB94_265:
	movl	(%r12), %eax
	movq	8(%r12), %rcx
	movq	%rcx, 88(%rsp)
	movq	80(%r12), %rcx
	movq	72(%r12), %rdi
	movq	136(%r12), %r8
	movq	144(%r12), %r9
	movq	%rcx, 64(%rsp)
	cmpq	%rax, %rcx
	jae	.LBB94_275
.LBB94_266:
	movq	72(%rsp), %rax
	movzbl	16(%rax), %edx
	addq	$24, %rax
	xorl	%ecx, %ecx
	movb	%dl, 236(%rsp)
	cmpb	$1, %dl
	cmoveq	%rax, %rcx
	movq	%rcx, 152(%rsp)
	testq	%r9, %r9
	je	.LBB94_274
	orq	%r10, %rsi
	movq	72(%rsp), %rax
	xorq	208(%rax), %rsi
	movabsq	$-7046029254386353123, %rcx
	movq	%rsi, %rax
	mulq	%rcx
	xorq	%rax, %rdx
	movq	%rdx, %rsi
	shrq	$32, %rsi
	xorl	%edx, %esi
	movl	%esi, %ecx
	shrl	$24, %ecx
	cmpb	$1, %cl
	adcl	$0, %ecx
	movl	$4294967295, %eax
	addl	%r9d, %eax
	andl	%esi, %eax
	movd	%ecx, %xmm0
	punpcklbw	%xmm0, %xmm0
	movl	$1, %edx
	shll	%cl, %edx
	pshuflw	$0, %xmm0, %xmm0
	pshufd	$68, %xmm0, %xmm0
	decq	%r9
	movq	%rax, %rcx
.LBB94_268:
	movq	%rcx, %r10
	shlq	$6, %r10
	leaq	(%r8,%r10), %rsi
	movdqu	(%r8,%r10), %xmm1
	pcmpeqb	%xmm0, %xmm1
	pmovmskb	%xmm1, %r10d
	andl	$4095, %r10d
	je	.LBB94_272
	movzwl	%r10w, %r10d
	.p2align	4
.LBB94_270:
	rep		bsfl	%r10d, %r11d
	movl	16(%rsi,%r11,4), %r12d
	cmpl	(%rdi,%r12,4), %ebx
	je	.LBB94_285
	leal	-1(%r10), %r11d
	andl	%r10d, %r11d
	movl	%r11d, %r10d
	jne	.LBB94_270
.LBB94_272:
	testl	%edx, 12(%rsi)
	je	.LBB94_274
	incq	%rcx
	andq	%r9, %rcx
	cmpq	%rax, %rcx
	jne	.LBB94_268
.LBB94_274:
	movq	72(%rsp), %rax
	leaq	72(%rax), %rdi
	leaq	216(%rax), %rsi
	leaq	248(%rax), %rdx
	movl	%ebx, %ecx
	callq	"sq_track::contacts::enter::<#bd73a11ec42be588>"
	movl	%edx, %r12d
	jmp	.LBB94_286
.LBB94_275:
	testq	%r9, %r9
	je	.LBB94_283
	leaq	(%rsi,%r10), %rax
	movq	72(%rsp), %rcx
	xorq	208(%rcx), %rax
	movabsq	$-7046029254386353123, %rcx
	mulq	%rcx
	xorq	%rax, %rdx
	movq	%rdx, %r11
	shrq	$32, %r11
	xorl	%edx, %r11d
	movl	%r11d, %ecx
	shrl	$24, %ecx
	cmpb	$1, %cl
	adcl	$0, %ecx
	movl	$4294967295, %eax
	addl	%r9d, %eax
	andl	%r11d, %eax
	movd	%ecx, %xmm0
	punpcklbw	%xmm0, %xmm0
	movl	$1, %edx
	shll	%cl, %edx
	movl	%edx, 12(%rsp)
	pshuflw	$0, %xmm0, %xmm0
	pshufd	$68, %xmm0, %xmm0
	movq	%rax, %r12
.LBB94_277:
	movq	%r12, %r11
	shlq	$6, %r11
	leaq	(%r8,%r11), %rcx
	movdqu	(%r8,%r11), %xmm1
	pcmpeqb	%xmm0, %xmm1
	pmovmskb	%xmm1, %r11d
	andl	$4095, %r11d
	je	.LBB94_281
	movzwl	%r11w, %r11d
	.p2align	4
.LBB94_279:
	rep		bsfl	%r11d, %edx
	movl	16(%rcx,%rdx,4), %edx
	cmpl	(%rdi,%rdx,4), %ebx
	je	.LBB94_266
	leal	-1(%r11), %edx
	andl	%r11d, %edx
	movl	%edx, %r11d
	jne	.LBB94_279
.LBB94_281:
	movl	12(%rsp), %edx
	testl	%edx, 12(%rcx)
	je	.LBB94_283
	incq	%r12
	leaq	-1(%r9), %rcx
	andq	%rcx, %r12
	cmpq	%rax, %r12
	jne	.LBB94_277
.LBB94_283:
	movq	72(%rsp), %rdx
	movl	248(%rdx), %eax
	movb	$9, %cl
	cmpq	%rax, 64(%rsp)
	jbe	.LBB94_322
	movq	104(%rdx), %rdx
	imulq	$296, %rax, %r11
	xorl	%eax, %eax
	movq	16(%rsp), %r12
	subq	(%rdx,%r11), %r12
	cmovbq	%rax, %r12
	cmpq	88(%rsp), %r12
	jbe	.LBB94_259
	jmp	.LBB94_266
.LBB94_285:
	xorl	%eax, %eax
.LBB94_286:
	testb	%al, %al
	movq	256(%rsp), %rax
	movq	240(%rsp), %r9
	movq	112(%rsp), %rdx
	movq	32(%rsp), %rdi
	jne	.LBB94_360
	movq	72(%rsp), %rcx
	movq	104(%rcx), %rax
	movq	216(%rcx), %rcx
	movl	%r12d, %r10d
	movq	(%rcx,%r10,8), %r11
	imulq	$296, %r10, %rcx
	leaq	(%rax,%rcx), %r8
	movq	16(%rsp), %rsi
	movq	%rsi, (%rax,%rcx)
	testb	%dl, %dl
	je	.LBB94_292
	leaq	256(%r8), %rsi
	testb	%dil, %dil
	je	.LBB94_294
	movq	$1, 200(%r8)
	movq	16(%rsp), %rax
	movq	%rax, 208(%r8)
	movb	%r14b, 216(%r8)
	movw	$0, 217(%r8)
	movb	$0, 219(%r8)
	movq	%rbx, %rax
	movl	%eax, 220(%r8)
	movl	40(%rsp), %eax
	movl	%eax, 224(%r8)
	leaq	212(%rsp), %rax
	movdqu	(%rax), %xmm0
	movdqu	%xmm0, 228(%r8)
	movl	16(%rax), %eax
	movl	%eax, 244(%r8)
	movzbl	152(%r8), %eax
	movzbl	248(%r8), %r14d
	xorl	%ecx, %ecx
	movb	%r14b, 12(%rsp)
	cmpb	$1, %r14b
	cmovneq	%rcx, %rsi
	movq	%rsi, 64(%rsp)
	leaq	160(%r8), %rsi
	jmp	.LBB94_297
.LBB94_290:
	shll	$18, %edi
	movq	%rdi, %rdx
	movq	%rax, %rdi
	movq	%r8, 56(%rsp)
	callq	"sq_angle::quotients::divided"
	movq	56(%rsp), %r8
	leaq	8(%r13), %r10
	movq	24(%rsp), %r11
	movq	%rax, %rcx
	leaq	12(%r12), %rdi
	testq	%r15, %r15
	js	.LBB94_183
	jmp	.LBB94_191
.LBB94_291:
	shll	$18, %edi
	movq	%rdi, %rdx
	movq	%rax, %rdi
	movq	%r8, 56(%rsp)
	callq	"sq_angle::quotients::divided"
	movq	56(%rsp), %r8
	leaq	8(%r13), %r10
	movq	24(%rsp), %r11
	movq	%rax, %rcx
	leaq	17(%r12), %rdi
	testq	%r15, %r15
	js	.LBB94_188
	jmp	.LBB94_191
.LBB94_292:
	leaq	112(%r8), %rsi
	testb	%dil, %dil
	je	.LBB94_296
	movq	$1, 56(%r8)
	movq	16(%rsp), %rax
	movq	%rax, 64(%r8)
	movb	%r14b, 72(%r8)
	movw	$0, 73(%r8)
	movb	$0, 75(%r8)
	movq	%rbx, %rax
	movl	%eax, 76(%r8)
	movl	40(%rsp), %eax
	movl	%eax, 80(%r8)
	leaq	212(%rsp), %rax
	movdqu	(%rax), %xmm0
	movdqu	%xmm0, 84(%r8)
	movl	16(%rax), %eax
	movl	%eax, 100(%r8)
	movzbl	8(%r8), %eax
	movzbl	104(%r8), %r14d
	xorl	%ecx, %ecx
	movb	%r14b, 12(%rsp)
	cmpb	$1, %r14b
	cmovneq	%rcx, %rsi
	movq	%rsi, 64(%rsp)
	leaq	16(%r8), %rsi
	jmp	.LBB94_297
.LBB94_294:
	movq	$1, 152(%r8)
	movq	16(%rsp), %rax
	movq	%rax, 160(%r8)
	movb	%r14b, 168(%r8)
	movw	$0, 169(%r8)
	movb	$0, 171(%r8)
	movq	%rbx, %rax
	movl	%eax, 172(%r8)
	movl	40(%rsp), %eax
	movl	%eax, 176(%r8)
	leaq	212(%rsp), %rax
	movdqu	(%rax), %xmm0
	movdqu	%xmm0, 180(%r8)
	movl	16(%rax), %eax
	movl	%eax, 196(%r8)
	movzbl	200(%r8), %eax
	movzbl	248(%r8), %r14d
	xorl	%ecx, %ecx
	movb	%r14b, 12(%rsp)
	cmpb	$1, %r14b
	cmovneq	%rcx, %rsi
	movq	%rsi, 64(%rsp)
	leaq	208(%r8), %rsi
	jmp	.LBB94_297
.LBB94_295:
	xorl	%edi, %edi
	xorl	%r8d, %r8d
	jmp	.LBB94_256
.LBB94_296:
	movq	$1, 8(%r8)
	movq	16(%rsp), %rax
	movq	%rax, 16(%r8)
	movb	%r14b, 24(%r8)
	movw	$0, 25(%r8)
	movb	$0, 27(%r8)
	movq	%rbx, %rax
	movl	%eax, 28(%r8)
	movl	40(%rsp), %eax
	movl	%eax, 32(%r8)
	leaq	212(%rsp), %rax
	movdqu	(%rax), %xmm0
	movdqu	%xmm0, 36(%r8)
	movl	16(%rax), %eax
	movl	%eax, 52(%r8)
	movzbl	56(%r8), %eax
	movzbl	104(%r8), %r14d
	xorl	%ecx, %ecx
	movb	%r14b, 12(%rsp)
	cmpb	$1, %r14b
	cmovneq	%rcx, %rsi
	movq	%rsi, 64(%rsp)
	leaq	64(%r8), %rsi
.LBB94_297:
	cmpb	$1, %al
	cmovneq	%rcx, %rsi
	movb	$2, 104(%rsp)
	cmpb	$1, %al
	movq	%r8, 264(%rsp)
	jne	.LBB94_300
	movq	$0, 56(%rsp)
	movq	16(%rsp), %r14
	movq	%r14, %rax
	subq	(%rsi), %rax
	movl	$0, %ecx
	cmovaeq	%rax, %rcx
	cmpq	88(%rsp), %rcx
	jbe	.LBB94_320
	xorl	%ebx, %ebx
	jmp	.LBB94_301
.LBB94_300:
	movq	$0, 56(%rsp)
	xorl	%ebx, %ebx
	movq	16(%rsp), %r14
.LBB94_301:
	movq	64(%rsp), %rsi
	movzbl	12(%rsp), %edi
.LBB94_302:
	testb	$1, %dil
	je	.LBB94_305
	xorl	%eax, %eax
	movq	%r14, %rcx
	subq	(%rsi), %rcx
	cmovaeq	%rcx, %rax
	pxor	%xmm0, %xmm0
	movdqa	%xmm0, 160(%rsp)
	movq	$0, 176(%rsp)
	cmpq	88(%rsp), %rax
	ja	.LBB94_305
	leaq	8(%rsi), %rdx
	leaq	160(%rsp), %rdi
	leaq	200(%rsp), %rsi
	movq	%r10, 136(%rsp)
	movq	%r11, 128(%rsp)
	callq	"sq_message::place::place_local"
	movzbl	12(%rsp), %edi
	movq	64(%rsp), %rsi
	movq	128(%rsp), %r11
	movq	136(%rsp), %r10
	cmpb	$0, 160(%rsp)
	je	.LBB94_330
.LBB94_305:
	movq	56(%rsp), %rdx
	movl	%ebx, %ecx
	movzbl	104(%rsp), %eax
	movq	%rax, 40(%rsp)
.LBB94_306:
	movl	%ecx, 12(%rsp)
	movq	%rdx, 64(%rsp)
	cmpb	$1, %dil
	jne	.LBB94_308
	movq	(%rsi), %r8
	movq	8(%rsi), %rcx
	movq	16(%rsi), %rax
	movq	%rsi, %rdx
	movq	24(%rsi), %rsi
	movq	32(%rdx), %rdx
	movl	$1, %edi
	movq	$0, 88(%rsp)
	xorl	%ebx, %ebx
	movq	$0, 104(%rsp)
	movq	$0, 32(%rsp)
	movq	$0, 48(%rsp)
	jmp	.LBB94_309
.LBB94_308:
	movq	$0, 88(%rsp)
	xorl	%ebx, %ebx
	movq	$0, 104(%rsp)
	movq	$0, 32(%rsp)
	movq	$0, 48(%rsp)
	xorl	%r8d, %r8d
	xorl	%edi, %edi
	xorl	%edx, %edx
	xorl	%esi, %esi
	xorl	%eax, %eax
	xorl	%ecx, %ecx
.LBB94_309:
	cmpb	$0, 112(%rsp)
	je	.LBB94_311
.LBB94_310:
	movq	264(%rsp), %r14
	movq	%rdi, 248(%r14)
	movq	%r8, 256(%r14)
	movq	%rcx, 264(%r14)
	movq	%rax, 272(%r14)
	movq	%rsi, 280(%r14)
	movq	%rdx, 288(%r14)
	jmp	.LBB94_312
.LBB94_311:
	movq	264(%rsp), %r14
	movq	%rdi, 104(%r14)
	movq	%r8, 112(%r14)
	movq	%rcx, 120(%r14)
	movq	%rax, 128(%r14)
	movq	%rsi, 136(%r14)
	movq	%rdx, 144(%r14)
.LBB94_312:
	movq	%r11, %rcx
	shrq	$32, %rcx
	movq	72(%rsp), %rax
	addq	$248, %rax
	movl	(%rax), %eax
	cmpl	%ecx, %eax
	movq	32(%rsp), %rdi
	je	.LBB94_315
	cmpl	%eax, %r12d
	je	.LBB94_315
	movq	72(%rsp), %r8
	leaq	216(%r8), %rdx
	movq	(%rdx), %rdx
	movl	%r11d, %esi
	movl	%ecx, 4(%rdx,%rsi,8)
	movl	%r11d, (%rdx,%rcx,8)
	movl	(%rdx,%rax,8), %ecx
	movl	%r12d, 4(%rdx,%rcx,8)
	movl	%ecx, (%rdx,%r10,8)
	movl	%eax, 4(%rdx,%r10,8)
	movl	%r12d, (%rdx,%rax,8)
	jmp	.LBB94_316
.LBB94_315:
	movl	%ecx, %eax
	movq	72(%rsp), %r8
.LBB94_316:
	movl	%eax, 248(%r8)
	movq	8(%r8), %rsi
	movq	256(%r8), %rax
	xorl	%ecx, %ecx
	movq	16(%rsp), %r14
	movq	%r14, %rdx
	subq	%rax, %rdx
	cmovaeq	%rdx, %rcx
	cmpq	%rsi, %rcx
	jbe	.LBB94_318
	leaq	72(%r8), %rdi
	movq	%r14, %rdx
	callq	"sq_track::tracker::look_through::<#bd73a11ec42be588>"
	movq	32(%rsp), %rdi
	movq	72(%rsp), %r8
.LBB94_318:
	movzbl	%bl, %ecx
	shlq	$32, %rcx
	movl	104(%rsp), %esi
	orq	%rcx, %rsi
	movq	%rax, 256(%r8)
	movq	$1, 56(%r8)
	movq	%r14, 64(%r8)
	cmpb	$0, 48(%rsp)
	sete	72(%rsp)
	movl	88(%rsp), %eax
	movq	%rax, 48(%rsp)
	movb	$60, %al
	subb	%dil, %al
	movzbl	%al, %eax
	movq	%rax, 32(%rsp)
	movq	24(%rsp), %rbx
	leaq	8(%r13), %r10
	movq	112(%rsp), %r11
.LBB94_319:
	movl	%r14d, %edi
	shrl	$8, %edi
	movq	%r14, %r12
	shrq	$32, %r12
	movq	120(%rsp), %rcx
	movq	%rcx, %rax
	shrq	$32, %rax
	movq	%rax, 16(%rsp)
	movl	%r14d, %edx
	andl	$-65536, %edx
	cmpb	$20, %cl
	setae	%al
	movq	%rax, 88(%rsp)
	movq	%rsi, %r8
	shrq	$32, %r8
	movq	184(%rbp), %rax
	addq	%r15, %rax
	incq	%rax
	movq	%rax, 184(%rbp)
	movq	%rax, 176(%rbp)
	movq	200(%rbp), %rax
	movl	%r15d, %ecx
	shrq	%cl, %rax
	shrq	%rax
	movq	%rax, 200(%rbp)
	movdqu	16(%rbp), %xmm0
	pcmpeqd	%xmm1, %xmm1
	psubq	%xmm1, %xmm0
	movdqu	%xmm0, 16(%rbp)
	movslq	%esi, %rax
	movq	%rax, 120(%rsp)
	movq	%xmm0, %rsi
	movb	$1, %al
	jmp	.LBB94_53
.LBB94_320:
	pxor	%xmm0, %xmm0
	movdqa	%xmm0, 160(%rsp)
	movq	$0, 176(%rsp)
	movzbl	16(%rsi), %ecx
	cmpb	$2, %cl
	jne	.LBB94_323
	xorl	%eax, %eax
	jmp	.LBB94_328
.LBB94_322:
	xorl	%eax, %eax
	jmp	.LBB94_259
.LBB94_323:
	movb	$1, %al
	cmpl	%ebx, 12(%rsi)
	jne	.LBB94_328
	testb	%cl, %cl
	je	.LBB94_334
	cmpb	$1, %dl
	jne	.LBB94_335
	movq	%r11, 128(%rsp)
	movq	%r10, 136(%rsp)
	addq	$20, %rsi
	movzbl	236(%rsp), %ecx
	leaq	160(%rsp), %rdi
	leaq	212(%rsp), %rdx
	movq	152(%rsp), %r8
	callq	"sq_message::place::ground_pair"
	cmpb	$0, 160(%rsp)
	je	.LBB94_338
	movzbl	161(%rsp), %eax
	movzbl	162(%rsp), %ebx
	movzbl	163(%rsp), %ecx
	movq	%rcx, 56(%rsp)
	jmp	.LBB94_348
.LBB94_328:
	movq	$0, 56(%rsp)
	movb	$3, 104(%rsp)
	movb	$5, %cl
	movq	%rcx, 40(%rsp)
	xorl	%edx, %edx
	movzbl	%al, %eax
	leaq	.LJTI94_0(%rip), %rcx
	movslq	(%rcx,%rax,4), %rax
	addq	%rcx, %rax
	xorl	%ebx, %ebx
	xorl	%ecx, %ecx
	movq	64(%rsp), %rsi
	movzbl	12(%rsp), %edi
	jmpq	*%rax
.LBB94_329:
	movb	$4, %al
	movq	%rax, 40(%rsp)
	xorl	%edx, %edx
	xorl	%ecx, %ecx
	jmp	.LBB94_306
.LBB94_330:
	movzbl	164(%rsp), %edi
	movzbl	168(%rsp), %ecx
	movl	172(%rsp), %r8d
	movzbl	176(%rsp), %esi
	movl	180(%rsp), %r14d
	movl	$60, %eax
	movq	%rcx, 32(%rsp)
	subl	%ecx, %eax
	shll	$17, %eax
	movl	%esi, %edx
	shll	$17, %edx
	imulq	$23592960, %rsi, %rbx
	movq	%rsi, 152(%rsp)
	imulq	$-47185920, %rsi, %rsi
	movq	%r8, 104(%rsp)
	movslq	%r8d, %rcx
	movq	%rdi, 48(%rsp)
	testb	%dil, %dil
	movq	%r14, 88(%rsp)
	je	.LBB94_332
	imulq	$90, %rcx, %rcx
	imulq	$90, %r14, %r8
	xorl	%r14d, %r14d
	cmpq	%rbx, %r8
	movl	$0, %edi
	movq	%rdi, 64(%rsp)
	cmovbq	%r14, %rsi
	addq	%r8, %rsi
	movl	$1, %edi
	movb	$1, %r8b
	movq	%r8, 40(%rsp)
	movl	$0, 12(%rsp)
	jmp	.LBB94_333
.LBB94_332:
	imulq	$360, %rcx, %rcx
	imulq	$360, %r14, %r8
	movq	%rbx, %rdi
	xorl	%ebx, %ebx
	cmpq	%rdi, %r8
	movl	$0, %edi
	movq	%rdi, 64(%rsp)
	cmovbq	%rbx, %rsi
	addq	%r8, %rsi
	movl	$1, %edi
	movb	$1, %r8b
	movq	%r8, 40(%rsp)
	movl	$0, 12(%rsp)
	movq	$0, 48(%rsp)
.LBB94_333:
	movq	16(%rsp), %r8
	movq	152(%rsp), %rbx
	jmp	.LBB94_309
.LBB94_334:
	testb	%dl, %dl
	je	.LBB94_336
.LBB94_335:
	movq	64(%rsp), %rsi
	movzbl	12(%rsp), %edi
	jmp	.LBB94_350
.LBB94_336:
	cmpb	%dil, 20(%rsi)
	jne	.LBB94_340
	movb	$3, %al
	movq	$0, 56(%rsp)
	xorl	%ebx, %ebx
	jmp	.LBB94_349
.LBB94_338:
	movzbl	164(%rsp), %ecx
	movzbl	168(%rsp), %edx
	movl	172(%rsp), %eax
	movzbl	176(%rsp), %esi
	movl	180(%rsp), %r9d
	movq	%rcx, 48(%rsp)
	testb	%cl, %cl
	movq	%r9, 88(%rsp)
	je	.LBB94_355
	movq	%rdx, 32(%rsp)
	movzbl	%dl, %edx
	movq	%rax, 104(%rsp)
	cltq
	movq	%rsi, %rbx
	movzbl	%sil, %esi
	imulq	$90, %rax, %rcx
	movl	$60, %eax
	subl	%edx, %eax
	shll	$17, %eax
	imulq	$23592960, %rsi, %rdi
	imulq	$-47185920, %rsi, %r8
	movl	%esi, %edx
	shll	$17, %edx
	imulq	$90, %r9, %r9
	movq	$0, 40(%rsp)
	cmpq	%rdi, %r9
	movl	$0, %esi
	cmovaeq	%r8, %rsi
	addq	%r9, %rsi
	movl	$1, %edi
	movq	16(%rsp), %r8
	movl	$0, 12(%rsp)
	movq	$0, 64(%rsp)
	movq	136(%rsp), %r10
	movq	128(%rsp), %r11
	jmp	.LBB94_310
.LBB94_340:
	movq	%r11, 128(%rsp)
	movq	%r10, 136(%rsp)
	movq	48(%rsp), %rdx
	movq	%rdx, %r8
	shrq	$32, %r8
	testb	%dil, %dil
	movl	24(%rsi), %eax
	movl	%eax, %ecx
	cmovel	%edx, %ecx
	movl	28(%rsi), %esi
	movl	%esi, %edi
	cmovel	%r8d, %edi
	movl	%edi, 236(%rsp)
	cmovel	%eax, %edx
	movq	%r8, 40(%rsp)
	cmovnel	%r8d, %esi
	movl	%esi, 48(%rsp)
	imulq	$59, %rcx, %rax
	movq	%rdx, %rbx
	imulq	$-60, %rdx, %rdx
	leaq	(%rax,%rdx), %r14
	addq	$7929856, %r14
	andq	$-131072, %r14
	leaq	(%r14,%rcx), %rax
	addq	$-7864320, %rax
	movq	%rax, 104(%rsp)
	leaq	7864319(,%rax,2), %rdi
	cmpq	$15728640, %rdi
	jae	.LBB94_352
	addq	%rbx, %r14
	addq	$-7864320, %r14
	leaq	7733247(,%r14,2), %rdi
	cmpq	$15466496, %rdi
	jae	.LBB94_353
.LBB94_342:
	movslq	104(%rsp), %rax
	imulq	$360, %rax, %rdi
	movq	%rdi, %rcx
	negq	%rcx
	cmovsq	%rdi, %rcx
	movb	$5, %al
	cmpq	$707788800, %rcx
	ja	.LBB94_347
	movslq	%r14d, %rcx
	imulq	$360, %rcx, %rdx
	movq	%rdx, %rcx
	negq	%rcx
	movq	%rdx, 56(%rsp)
	cmovsq	%rdx, %rcx
	cmpq	$695992320, %rcx
	ja	.LBB94_347
	movl	$7864320, %esi
	callq	"sq_zones::zones::zone_count"
	movl	%eax, %ebx
	movl	$7733248, %esi
	movq	56(%rsp), %rdi
	callq	"sq_zones::zones::zone_count"
	movq	%rbx, 152(%rsp)
	movq	%rax, 56(%rsp)
	cmpb	%al, %bl
	jne	.LBB94_351
	movq	152(%rsp), %rdx
	leal	-1(%rdx), %eax
	movzbl	%al, %eax
	cmpb	$2, %al
	movl	$1, %ecx
	cmovael	%eax, %ecx
	movzbl	%cl, %ebx
	movl	236(%rsp), %eax
	imulq	%rbx, %rax
	movzbl	%dl, %esi
	movl	48(%rsp), %ecx
	imulq	%rsi, %rcx
	subq	%rcx, %rax
	addq	$7929856, %rax
	andq	$-131072, %rax
	movq	40(%rsp), %rcx
	leaq	(%rcx,%rax), %rdi
	addq	$-7864320, %rdi
	cmpb	$0, 32(%rsp)
	je	.LBB94_354
	movl	%ebx, %esi
	movl	$1, %edx
	callq	"sq_cpr::index::on_circle"
	movq	%rax, 88(%rsp)
	movl	%r14d, %eax
	movl	%ebx, %esi
	movq	32(%rsp), %rdx
	jmp	.LBB94_355
.LBB94_347:
	movq	$0, 56(%rsp)
	xorl	%ebx, %ebx
	movq	16(%rsp), %r14
.LBB94_348:
	movq	136(%rsp), %r10
	movq	128(%rsp), %r11
.LBB94_349:
	movq	64(%rsp), %rsi
	movzbl	12(%rsp), %edi
	movb	$3, 104(%rsp)
	movb	$5, %cl
	movq	%rcx, 40(%rsp)
	xorl	%edx, %edx
	movzbl	%al, %eax
	leaq	.LJTI94_0(%rip), %rcx
	movslq	(%rcx,%rax,4), %rax
	addq	%rcx, %rax
	xorl	%ecx, %ecx
	jmpq	*%rax
.LBB94_350:
	movq	$0, 56(%rsp)
	xorl	%ebx, %ebx
	movb	$2, 104(%rsp)
	jmp	.LBB94_302
.LBB94_351:
	movb	$6, %al
	movq	16(%rsp), %r14
	movq	136(%rsp), %r10
	movq	128(%rsp), %r11
	movq	152(%rsp), %rbx
	jmp	.LBB94_349
.LBB94_352:
	movl	$15728640, %esi
	callq	"sq_cpr::index::rare_quotient"
	imulq	$-7864320, %rax, %rax
	addq	%rax, 104(%rsp)
	addq	%rbx, %r14
	addq	$-7864320, %r14
	leaq	7733247(,%r14,2), %rdi
	cmpq	$15466496, %rdi
	jb	.LBB94_342
.LBB94_353:
	movl	$15466496, %esi
	callq	"sq_cpr::index::rare_quotient"
	imulq	$-7733248, %rax, %rax
	addq	%rax, %r14
	jmp	.LBB94_342
.LBB94_354:
	movl	$1, %edx
	callq	"sq_cpr::index::on_circle"
	movq	%rax, 88(%rsp)
	movq	32(%rsp), %rdx
	movq	152(%rsp), %rsi
	movq	104(%rsp), %rax
.LBB94_355:
	movq	%rax, 104(%rsp)
	cltq
	imulq	$360, %rax, %rcx
	movb	$60, %al
	movq	%rdx, 32(%rsp)
	subb	%dl, %al
	movzbl	%al, %eax
	shll	$17, %eax
	movq	%rsi, %rbx
	movzbl	%sil, %edx
	imulq	$23592960, %rdx, %rsi
	imulq	$-47185920, %rdx, %rdi
	shll	$17, %edx
	movl	88(%rsp), %r8d
	imulq	$360, %r8, %r8
	movq	$0, 64(%rsp)
	cmpq	%rsi, %r8
	movl	$0, %esi
	cmovaeq	%rdi, %rsi
	addq	%r8, %rsi
	movl	$1, %edi
	movl	$0, 12(%rsp)
	movq	$0, 48(%rsp)
	movq	$0, 40(%rsp)
	movq	16(%rsp), %r8
	movq	136(%rsp), %r10
	movq	128(%rsp), %r11
	jmp	.LBB94_309
.LBB94_356:
	xorl	%esi, %esi
.LBB94_357:
	movq	248(%rsp), %rdx
	movq	%rsi, (%rdx)
	movq	%r15, 8(%rdx)
	movb	$1, 16(%rdx)
.LBB94_358:
	movl	144(%rsp), %eax
	movl	147(%rsp), %ecx
	movl	%eax, 17(%rdx)
	movl	%ecx, 20(%rdx)
	addq	$312, %rsp
	popq	%rbx
	popq	%r12
	popq	%r13
	popq	%r14
	popq	%r15
	popq	%rbp
	retq
.LBB94_359:
	movq	248(%rsp), %rdx
	movq	%rsi, (%rdx)
	movq	%r15, 8(%rdx)
	movb	$0, 16(%rdx)
	jmp	.LBB94_358
.LBB94_360:
	addq	%rax, %r9
	movq	248(%rsp), %rdx
	movq	%r9, (%rdx)
	movq	96(%rsp), %rax
	movq	%rax, 8(%rdx)
	movb	$2, 16(%rdx)
	jmp	.LBB94_358
.Lfunc_end94:
	.size	"squitter_c::log_loop::write_some::<#507aa2edf0378fed>", .Lfunc_end94-"squitter_c::log_loop::write_some::<#507aa2edf0378fed>"
	.section	".rodata.squitter_c::log_loop::write_some::<#507aa2edf0378fed>","a",@progbits
	.p2align	2, 0x0
.LJTI94_0:
	.long	.LBB94_350-.LJTI94_0
	.long	.LBB94_350-.LJTI94_0
	.long	.LBB94_350-.LJTI94_0
	.long	.LBB94_350-.LJTI94_0
	.long	.LBB94_306-.LJTI94_0
	.long	.LBB94_329-.LJTI94_0
	.long	.LBB94_302-.LJTI94_0
.LJTI94_1:
	.long	.LBB94_130-.LJTI94_1
	.long	.LBB94_135-.LJTI94_1
	.long	.LBB94_133-.LJTI94_1
	.long	.LBB94_134-.LJTI94_1
	.long	.LBB94_132-.LJTI94_1
	.long	.LBB94_137-.LJTI94_1
	.long	.LBB94_139-.LJTI94_1

	.section	".text.unlikely.sq_commands::answer_lines::push_refused_line","ax",@progbits
	.p2align	4
	.type	"sq_commands::answer_lines::push_refused_line",@function
"sq_commands::answer_lines::push_refused_line":
	pushq	%rbx
	subq	$16, %rsp
	movq	%rdi, %rbx
	movq	$0, (%rsp)
	movzbl	(%rdx), %eax
	movb	%al, (%rsp)
	movzbl	1(%rdx), %eax
	movb	%al, 1(%rsp)
	movl	4(%rdx), %eax
	movl	%eax, 4(%rsp)
	movq	8(%rdx), %rax
	movq	%rax, 8(%rsp)
	cmpq	$999999999, %rsi
	ja	.LBB95_6
	cmpq	$999999, %rsi
	ja	.LBB95_5
	xorl	%eax, %eax
	cmpq	$999, %rsi
	ja	.LBB95_4
	cmpq	$100, %rsi
	setb	%al
	cmpq	$10, %rsi
	adcq	$0, %rax
	leaq	.Lstatic.22(%rip), %rcx
	leaq	(%rcx,%rsi,4), %rcx
	movq	512(%rbx), %rdx
	movl	(%rax,%rcx), %ecx
	movl	%ecx, (%rbx,%rdx)
	xorq	$3, %rax
	addq	%rdx, %rax
	jmp	.LBB95_7
.LBB95_6:
	movq	%rbx, %rdi
	callq	"sq_digits::decimal::push_long::<=512>"
	movq	512(%rbx), %rax
	jmp	.LBB95_7
.LBB95_5:
	imulq	$1125899907, %rsi, %rdx
	xorl	%eax, %eax
	cmpq	$100000000, %rsi
	setb	%al
	cmpq	$10000000, %rsi
	adcq	$0, %rax
	shrq	$48, %rdx
	andl	$32764, %edx
	leaq	.Lstatic.22(%rip), %rcx
	addq	%rcx, %rdx
	movq	512(%rbx), %rdi
	movl	(%rax,%rdx), %edx
	movl	%edx, (%rbx,%rdi)
	xorq	$3, %rax
	leaq	(%rdi,%rax), %rdx
	imulq	$274877907, %rsi, %r8
	shrq	$38, %r8
	imulq	$68719477, %r8, %r9
	shrq	$36, %r9
	imull	$1000, %r9d, %r9d
	imull	$1000, %r8d, %r10d
	subl	%r9d, %r8d
	movzwl	(%rcx,%r8,4), %r9d
	movw	%r9w, (%rbx,%rdx)
	movzbl	2(%rcx,%r8,4), %r8d
	movb	%r8b, 2(%rbx,%rdx)
	leaq	(%rdi,%rax), %r8
	addq	$3, %r8
	movq	%r8, 512(%rbx)
	subl	%r10d, %esi
	movl	(%rcx,%rsi,4), %ecx
	movl	%ecx, 3(%rbx,%rdx)
	addq	%rdi, %rax
	addq	$6, %rax
	jmp	.LBB95_7
.LBB95_4:
	cmpq	$100000, %rsi
	setb	%al
	cmpq	$10000, %rsi
	adcq	$0, %rax
	leaq	.Lstatic.22(%rip), %rcx
	imulq	$274877907, %rsi, %rdx
	shrq	$38, %rdx
	leaq	(%rcx,%rdx,4), %rdi
	movq	512(%rbx), %r8
	movl	(%rax,%rdi), %edi
	movl	%edi, (%rbx,%r8)
	xorq	$3, %rax
	leaq	(%r8,%rax), %rdi
	imull	$1000, %edx, %edx
	subl	%edx, %esi
	movl	(%rcx,%rsi,4), %ecx
	movl	%ecx, (%rbx,%rdi)
	addq	%r8, %rax
	addq	$3, %rax
.LBB95_7:
	movb	$32, (%rbx,%rax)
	incq	%rax
	movq	%rax, 512(%rbx)
	movq	%rsp, %rsi
	movq	%rbx, %rdi
	callq	"sq_text::faults::push_fault::<=512>"
	movq	512(%rbx), %rax
	movb	$10, (%rbx,%rax)
	incq	%rax
	movq	%rax, 512(%rbx)
	addq	$16, %rsp
	popq	%rbx
	retq
.Lfunc_end95:
	.size	"sq_commands::answer_lines::push_refused_line", .Lfunc_end95-"sq_commands::answer_lines::push_refused_line"

	.section	".text.sq_text::faults::push_fault::<=512>","ax",@progbits
	.p2align	4
	.type	"sq_text::faults::push_fault::<=512>",@function
"sq_text::faults::push_fault::<=512>":
	pushq	%rbp
	pushq	%r14
	pushq	%rbx
	movzbl	(%rsi), %r8d
	movzbl	1(%rsi), %edx
	movl	4(%rsi), %ecx
	movq	8(%rsi), %rsi
	leal	(,%r8,8), %eax
	leaq	".Lswitch.table.sq_text::faults::push_fault::<=512>"(%rip), %r9
	movq	(%rax,%r9), %r9
	leaq	".Lswitch.table.sq_text::faults::push_fault::<=512>.358"(%rip), %r10
	movq	(%rax,%r10), %r10
	movq	512(%rdi), %rax
	leaq	-1(%r9), %r11
	cmpq	$3, %r11
	jae	.LBB96_2
	xorl	%r11d, %r11d
	jmp	.LBB96_6
.LBB96_2:
	movq	%r9, %rbx
	andq	$-4, %rbx
	leaq	(%rax,%rdi), %r14
	addq	$3, %r14
	xorl	%r11d, %r11d
	.p2align	4
.LBB96_3:
	movzbl	(%r10,%r11), %ebp
	movb	%bpl, -3(%r14,%r11)
	movzbl	1(%r10,%r11), %ebp
	movb	%bpl, -2(%r14,%r11)
	movzbl	2(%r10,%r11), %ebp
	movb	%bpl, -1(%r14,%r11)
	movzbl	3(%r10,%r11), %ebp
	movb	%bpl, (%r14,%r11)
	addq	$4, %r11
	cmpq	%r11, %rbx
	jne	.LBB96_3
	cmpl	$2, %r8d
	je	.LBB96_8
	cmpl	$8, %r8d
	je	.LBB96_8
.LBB96_6:
	movl	%r9d, %ebx
	andl	$3, %ebx
	leaq	(%rdi,%r11), %r14
	addq	%rax, %r14
	addq	%r11, %r10
	xorl	%r11d, %r11d
	.p2align	4
.LBB96_7:
	movzbl	(%r10,%r11), %ebp
	movb	%bpl, (%r14,%r11)
	incq	%r11
	cmpq	%r11, %rbx
	jne	.LBB96_7
.LBB96_8:
	addq	%r9, %rax
	movq	%rax, 512(%rdi)
	movl	%r8d, %r8d
	leaq	.LJTI96_0(%rip), %r9
	movslq	(%r9,%r8,4), %r8
	addq	%r9, %r8
	jmpq	*%r8
.LBB96_18:
	popq	%rbx
	popq	%r14
	popq	%rbp
	retq
.LBB96_9:
	cmpq	$999999999, %rsi
	ja	.LBB96_15
	cmpq	$999999, %rsi
	ja	.LBB96_20
	xorl	%ecx, %ecx
	cmpq	$999, %rsi
	ja	.LBB96_19
	cmpq	$100, %rsi
	setb	%cl
	cmpq	$10, %rsi
	adcq	$0, %rcx
	leaq	.Lstatic.22(%rip), %rdx
	leaq	(%rdx,%rsi,4), %rdx
	jmp	.LBB96_13
.LBB96_15:
	popq	%rbx
	popq	%r14
	popq	%rbp
	jmp	"sq_digits::decimal::push_long::<=512>"
.LBB96_16:
	movl	%ecx, %edx
	shrl	$15, %edx
	andl	$510, %edx
	leaq	.Lstatic.67(%rip), %rsi
	movzbl	%ch, %ebx
	movzwl	(%rdx,%rsi), %edx
	movd	%edx, %xmm0
	pinsrw	$1, (%rsi,%rbx,2), %xmm0
	movd	%xmm0, (%rdi,%rax)
	movzbl	%cl, %ecx
	movzwl	(%rsi,%rcx,2), %ecx
	movw	%cx, 4(%rdi,%rax)
	addq	$6, %rax
	jmp	.LBB96_17
.LBB96_14:
	xorl	%ecx, %ecx
	cmpb	$100, %dl
	setb	%cl
	cmpb	$10, %dl
	adcq	$0, %rcx
	leaq	.Lstatic.22(%rip), %rsi
	leaq	(%rsi,%rdx,4), %rdx
.LBB96_13:
	movl	(%rcx,%rdx), %edx
	movl	%edx, (%rdi,%rax)
	xorq	$3, %rcx
	addq	%rax, %rcx
	movq	%rcx, 512(%rdi)
	popq	%rbx
	popq	%r14
	popq	%rbp
	retq
.LBB96_20:
	imulq	$1125899907, %rsi, %rdx
	xorl	%ecx, %ecx
	cmpq	$100000000, %rsi
	setb	%cl
	cmpq	$10000000, %rsi
	adcq	$0, %rcx
	shrq	$48, %rdx
	andl	$32764, %edx
	leaq	.Lstatic.22(%rip), %r8
	addq	%r8, %rdx
	movl	(%rcx,%rdx), %edx
	movl	%edx, (%rdi,%rax)
	xorq	$3, %rcx
	leaq	(%rax,%rcx), %rdx
	imulq	$274877907, %rsi, %r9
	shrq	$38, %r9
	imulq	$68719477, %r9, %r10
	shrq	$36, %r10
	imull	$1000, %r10d, %r10d
	imull	$1000, %r9d, %r11d
	subl	%r10d, %r9d
	movzwl	(%r8,%r9,4), %r10d
	movw	%r10w, (%rdi,%rdx)
	movzbl	2(%r8,%r9,4), %r9d
	movb	%r9b, 2(%rdi,%rdx)
	subl	%r11d, %esi
	movl	(%r8,%rsi,4), %esi
	movl	%esi, 3(%rdi,%rdx)
	addq	%rcx, %rax
	addq	$6, %rax
	jmp	.LBB96_17
.LBB96_19:
	cmpq	$100000, %rsi
	setb	%cl
	cmpq	$10000, %rsi
	adcq	$0, %rcx
	leaq	.Lstatic.22(%rip), %rdx
	imulq	$274877907, %rsi, %r8
	shrq	$38, %r8
	leaq	(%rdx,%r8,4), %r9
	movl	(%rcx,%r9), %r9d
	movl	%r9d, (%rdi,%rax)
	xorq	$3, %rcx
	leaq	(%rax,%rcx), %r9
	imull	$1000, %r8d, %r8d
	subl	%r8d, %esi
	movl	(%rdx,%rsi,4), %edx
	movl	%edx, (%rdi,%r9)
	addq	%rcx, %rax
	addq	$3, %rax
.LBB96_17:
	movq	%rax, 512(%rdi)
	popq	%rbx
	popq	%r14
	popq	%rbp
	retq
.Lfunc_end96:
	.size	"sq_text::faults::push_fault::<=512>", .Lfunc_end96-"sq_text::faults::push_fault::<=512>"
	.section	".rodata.sq_text::faults::push_fault::<=512>","a",@progbits
	.p2align	2, 0x0
.LJTI96_0:
	.long	.LBB96_18-.LJTI96_0
	.long	.LBB96_18-.LJTI96_0
	.long	.LBB96_18-.LJTI96_0
	.long	.LBB96_18-.LJTI96_0
	.long	.LBB96_9-.LJTI96_0
	.long	.LBB96_9-.LJTI96_0
	.long	.LBB96_14-.LJTI96_0
	.long	.LBB96_16-.LJTI96_0
	.long	.LBB96_9-.LJTI96_0
	.long	.LBB96_18-.LJTI96_0

	.section	.text.squitter_feed_size,"ax",@progbits
	.globl	squitter_feed_size
	.p2align	4
	.type	squitter_feed_size,@function
squitter_feed_size:
	movl	$20480, %eax
	retq
.Lfunc_end97:
	.size	squitter_feed_size, .Lfunc_end97-squitter_feed_size

	.section	.text.squitter_log_header,"ax",@progbits
	.globl	squitter_log_header
	.p2align	4
	.type	squitter_log_header,@function
squitter_log_header:
	cmpl	$1, %edi
	leaq	.Lstatic.1(%rip), %rcx
	leaq	.Lstatic.0(%rip), %rax
	cmoveq	%rcx, %rax
	jne	.LBB98_8
	xorl	%ecx, %ecx
	jmp	.LBB98_4
	.p2align	4
.LBB98_2:
	movzbl	1(%rax,%rcx), %edi
.LBB98_3:
	movb	%dil, 1(%rsi,%rcx)
	incq	%rdx
	movq	%rdx, %rcx
	cmpq	$64, %rdx
	je	.LBB98_9
.LBB98_4:
	cmpq	$44, %rcx
	ja	.LBB98_6
	movzbl	(%rax,%rcx), %edx
	movb	%dl, (%rsi,%rcx)
	leaq	1(%rcx), %rdx
	cmpq	$44, %rdx
	jbe	.LBB98_2
	jmp	.LBB98_7
	.p2align	4
.LBB98_6:
	xorl	%edx, %edx
	movb	%dl, (%rsi,%rcx)
	leaq	1(%rcx), %rdx
	cmpq	$44, %rdx
	jbe	.LBB98_2
.LBB98_7:
	xorl	%edi, %edi
	jmp	.LBB98_3
.LBB98_8:
	xorps	%xmm0, %xmm0
	movups	%xmm0, 48(%rsi)
	movups	%xmm0, 32(%rsi)
	movups	%xmm0, 16(%rsi)
	movups	%xmm0, (%rsi)
.LBB98_9:
	retq
.Lfunc_end98:
	.size	squitter_log_header, .Lfunc_end98-squitter_log_header

	.section	.text.squitter_order_size,"ax",@progbits
	.globl	squitter_order_size
	.p2align	4
	.type	squitter_order_size,@function
squitter_order_size:
	movl	%edi, %eax
	movl	$2863311531, %ecx
	imulq	%rax, %rcx
	shrq	$33, %rcx
	addq	%rax, %rcx
	leaq	(%rcx,%rcx,2), %rax
	leaq	536(,%rax,8), %rax
	retq
.Lfunc_end99:
	.size	squitter_order_size, .Lfunc_end99-squitter_order_size

	.section	.text.squitter_text_of_frame,"ax",@progbits
	.globl	squitter_text_of_frame
	.p2align	4
	.type	squitter_text_of_frame,@function
squitter_text_of_frame:
	movzbl	(%rdi), %ecx
	movl	%ecx, %edx
	shrl	$4, %edx
	leaq	.Lstatic.2(%rip), %rax
	movzbl	(%rdx,%rax), %edx
	movb	%dl, (%rsi)
	andl	$15, %ecx
	movzbl	(%rcx,%rax), %ecx
	movb	%cl, 1(%rsi)
	movzbl	1(%rdi), %ecx
	movl	%ecx, %edx
	shrl	$4, %edx
	movzbl	(%rdx,%rax), %edx
	movb	%dl, 2(%rsi)
	andl	$15, %ecx
	movzbl	(%rcx,%rax), %ecx
	movb	%cl, 3(%rsi)
	movzbl	2(%rdi), %ecx
	movl	%ecx, %edx
	shrl	$4, %edx
	movzbl	(%rdx,%rax), %edx
	movb	%dl, 4(%rsi)
	andl	$15, %ecx
	movzbl	(%rcx,%rax), %ecx
	movb	%cl, 5(%rsi)
	movzbl	3(%rdi), %ecx
	movl	%ecx, %edx
	shrl	$4, %edx
	movzbl	(%rdx,%rax), %edx
	movb	%dl, 6(%rsi)
	andl	$15, %ecx
	movzbl	(%rcx,%rax), %ecx
	movb	%cl, 7(%rsi)
	movzbl	4(%rdi), %ecx
	movl	%ecx, %edx
	shrl	$4, %edx
	movzbl	(%rdx,%rax), %edx
	movb	%dl, 8(%rsi)
	andl	$15, %ecx
	movzbl	(%rcx,%rax), %ecx
	movb	%cl, 9(%rsi)
	movzbl	5(%rdi), %ecx
	movl	%ecx, %edx
	shrl	$4, %edx
	movzbl	(%rdx,%rax), %edx
	movb	%dl, 10(%rsi)
	andl	$15, %ecx
	movzbl	(%rcx,%rax), %ecx
	movb	%cl, 11(%rsi)
	movzbl	6(%rdi), %ecx
	movl	%ecx, %edx
	shrl	$4, %edx
	movzbl	(%rdx,%rax), %edx
	movb	%dl, 12(%rsi)
	andl	$15, %ecx
	movzbl	(%rcx,%rax), %ecx
	movb	%cl, 13(%rsi)
	movzbl	7(%rdi), %ecx
	movl	%ecx, %edx
	shrl	$4, %edx
	movzbl	(%rdx,%rax), %edx
	movb	%dl, 14(%rsi)
	andl	$15, %ecx
	movzbl	(%rcx,%rax), %ecx
	movb	%cl, 15(%rsi)
	movzbl	8(%rdi), %ecx
	movl	%ecx, %edx
	shrl	$4, %edx
	movzbl	(%rdx,%rax), %edx
	movb	%dl, 16(%rsi)
	andl	$15, %ecx
	movzbl	(%rcx,%rax), %ecx
	movb	%cl, 17(%rsi)
	movzbl	9(%rdi), %ecx
	movl	%ecx, %edx
	shrl	$4, %edx
	movzbl	(%rdx,%rax), %edx
	movb	%dl, 18(%rsi)
	andl	$15, %ecx
	movzbl	(%rcx,%rax), %ecx
	movb	%cl, 19(%rsi)
	movzbl	10(%rdi), %ecx
	movl	%ecx, %edx
	shrl	$4, %edx
	movzbl	(%rdx,%rax), %edx
	movb	%dl, 20(%rsi)
	andl	$15, %ecx
	movzbl	(%rcx,%rax), %ecx
	movb	%cl, 21(%rsi)
	movzbl	11(%rdi), %ecx
	movl	%ecx, %edx
	shrl	$4, %edx
	movzbl	(%rdx,%rax), %edx
	movb	%dl, 22(%rsi)
	andl	$15, %ecx
	movzbl	(%rcx,%rax), %ecx
	movb	%cl, 23(%rsi)
	movzbl	12(%rdi), %ecx
	movl	%ecx, %edx
	shrl	$4, %edx
	movzbl	(%rdx,%rax), %edx
	movb	%dl, 24(%rsi)
	andl	$15, %ecx
	movzbl	(%rcx,%rax), %ecx
	movb	%cl, 25(%rsi)
	movzbl	13(%rdi), %ecx
	movl	%ecx, %edx
	shrl	$4, %edx
	movzbl	(%rdx,%rax), %edx
	movb	%dl, 26(%rsi)
	andl	$15, %ecx
	movzbl	(%rcx,%rax), %eax
	movb	%al, 27(%rsi)
	retq
.Lfunc_end100:
	.size	squitter_text_of_frame, .Lfunc_end100-squitter_text_of_frame

	.section	.text.squitter_tracker_size,"ax",@progbits
	.globl	squitter_tracker_size
	.p2align	4
	.type	squitter_tracker_size,@function
squitter_tracker_size:
	movl	%edi, %eax
	leaq	2(,%rax,2), %rcx
	incq	%rax
	movl	$1, %esi
	.p2align	4
.LBB101_1:
	movq	%rsi, %rdx
	leaq	(%rsi,%rsi,8), %rdi
	addq	%rsi, %rsi
	cmpq	%rcx, %rdi
	jb	.LBB101_1
	imulq	$2848, %rdx, %rcx
	leaq	(%rcx,%rax,8), %rax
	addq	$1280, %rax
	retq
.Lfunc_end101:
	.size	squitter_tracker_size, .Lfunc_end101-squitter_tracker_size

	.section	.text.squitter_log_size,"ax",@progbits
	.globl	squitter_log_size
	.p2align	4
	.type	squitter_log_size,@function
squitter_log_size:
	movl	%edi, %eax
	leaq	2(,%rax,2), %rcx
	incq	%rax
	movl	$1, %esi
	.p2align	4
.LBB102_1:
	movq	%rsi, %rdx
	leaq	(%rsi,%rsi,8), %rdi
	addq	%rsi, %rsi
	cmpq	%rcx, %rdi
	jb	.LBB102_1
	imulq	$2848, %rdx, %rcx
	leaq	(%rcx,%rax,8), %rax
	addq	$1280, %rax
	retq
.Lfunc_end102:
	.size	squitter_log_size, .Lfunc_end102-squitter_log_size

	.section	.text.squitter_version,"ax",@progbits
	.globl	squitter_version
	.p2align	4
	.type	squitter_version,@function
squitter_version:
	movl	$256, %eax
	retq
.Lfunc_end103:
	.size	squitter_version, .Lfunc_end103-squitter_version

	.section	.text.squitter_feed_free,"ax",@progbits
	.globl	squitter_feed_free
	.p2align	4
	.type	squitter_feed_free,@function
squitter_feed_free:
	xorps	%xmm0, %xmm0
	movups	%xmm0, (%rdi)
	retq
.Lfunc_end104:
	.size	squitter_feed_free, .Lfunc_end104-squitter_feed_free

	.section	.text.squitter_order_free,"ax",@progbits
	.globl	squitter_order_free
	.p2align	4
	.type	squitter_order_free,@function
squitter_order_free:
	xorps	%xmm0, %xmm0
	movups	%xmm0, (%rdi)
	retq
.Lfunc_end105:
	.size	squitter_order_free, .Lfunc_end105-squitter_order_free

	.section	.text.squitter_tracker_free,"ax",@progbits
	.globl	squitter_tracker_free
	.p2align	4
	.type	squitter_tracker_free,@function
squitter_tracker_free:
	xorps	%xmm0, %xmm0
	movups	%xmm0, (%rdi)
	retq
.Lfunc_end106:
	.size	squitter_tracker_free, .Lfunc_end106-squitter_tracker_free

	.section	.text.squitter_log_free,"ax",@progbits
	.globl	squitter_log_free
	.p2align	4
	.type	squitter_log_free,@function
squitter_log_free:
	xorps	%xmm0, %xmm0
	movups	%xmm0, (%rdi)
	retq
.Lfunc_end107:
	.size	squitter_log_free, .Lfunc_end107-squitter_log_free

	.section	.text.squitter_tracker_len,"ax",@progbits
	.globl	squitter_tracker_len
	.p2align	4
	.type	squitter_tracker_len,@function
squitter_tracker_len:
	movq	8(%rdi), %rcx
	cmpq	$0, (%rdi)
	xorps	%xmm0, %xmm0
	movups	%xmm0, (%rdi)
	je	.LBB108_1
	movq	80(%rcx), %rax
	movq	$1, (%rdi)
	movq	%rcx, 8(%rdi)
	retq
.LBB108_1:
	xorl	%eax, %eax
	retq
.Lfunc_end108:
	.size	squitter_tracker_len, .Lfunc_end108-squitter_tracker_len

	.section	.rodata.cst16,"aM",@progbits,16
	.p2align	4, 0x0
.LCPI109_0:
	.byte	116
	.byte	111
	.byte	111
	.byte	32
	.byte	109
	.byte	97
	.byte	110
	.byte	121
	.byte	32
	.byte	100
	.byte	101
	.byte	99
	.byte	105
	.byte	109
	.byte	97
	.byte	108
.LCPI109_1:
	.byte	108
	.byte	97
	.byte	116
	.byte	105
	.byte	116
	.byte	117
	.byte	100
	.byte	101
	.byte	32
	.byte	111
	.byte	117
	.byte	116
	.byte	32
	.byte	111
	.byte	102
	.byte	32
.LCPI109_2:
	.byte	15
	.byte	15
	.byte	15
	.byte	15
	.zero	1
	.zero	1
	.zero	1
	.zero	1
	.zero	1
	.zero	1
	.zero	1
	.zero	1
	.zero	1
	.zero	1
	.zero	1
	.zero	1
.LCPI109_3:
	.byte	9
	.byte	9
	.byte	9
	.byte	9
	.zero	1
	.zero	1
	.zero	1
	.zero	1
	.zero	1
	.zero	1
	.zero	1
	.zero	1
	.zero	1
	.zero	1
	.zero	1
	.zero	1
.LCPI109_4:
	.byte	48
	.byte	48
	.byte	48
	.byte	48
	.zero	1
	.zero	1
	.zero	1
	.zero	1
	.zero	1
	.zero	1
	.zero	1
	.zero	1
	.zero	1
	.zero	1
	.zero	1
	.zero	1
.LCPI109_5:
	.byte	55
	.byte	55
	.byte	55
	.byte	55
	.zero	1
	.zero	1
	.zero	1
	.zero	1
	.zero	1
	.zero	1
	.zero	1
	.zero	1
	.zero	1
	.zero	1
	.zero	1
	.zero	1
	.section	.text.squitter_text_of_fault,"ax",@progbits
	.globl	squitter_text_of_fault
	.p2align	4
	.type	squitter_text_of_fault,@function
squitter_text_of_fault:
	pushq	%r14
	pushq	%rbx
	subq	$296, %rsp
	pxor	%xmm0, %xmm0
	movdqa	%xmm0, 144(%rsp)
	movdqa	%xmm0, 160(%rsp)
	movdqa	%xmm0, 176(%rsp)
	movdqa	%xmm0, 192(%rsp)
	movq	$0, 208(%rsp)
	movdqa	%xmm0, 224(%rsp)
	movdqa	%xmm0, 240(%rsp)
	movdqa	%xmm0, 256(%rsp)
	movdqa	%xmm0, 272(%rsp)
	movq	$0, 288(%rsp)
	movl	(%rdi), %eax
	movl	4(%rdi), %ebx
	movq	8(%rdi), %rdx
	movdqa	%xmm0, 48(%rsp)
	movdqa	%xmm0, 32(%rsp)
	movdqa	%xmm0, 16(%rsp)
	movdqa	%xmm0, (%rsp)
	movq	$0, 64(%rsp)
	movdqa	%xmm0, 128(%rsp)
	movdqa	%xmm0, 112(%rsp)
	movdqa	%xmm0, 96(%rsp)
	movdqa	%xmm0, 80(%rsp)
	cmpq	$50, %rax
	ja	.LBB109_58
	leaq	.LJTI109_0(%rip), %rcx
	movslq	(%rcx,%rax,4), %rax
	addq	%rcx, %rax
	jmpq	*%rax
.LBB109_2:
	movabsq	$8389209267070070638, %rax
	jmp	.LBB109_3
.LBB109_36:
	movabsq	$8387221370351935842, %rax
.LBB109_3:
	movq	%rax, (%rsp)
	movq	$8, 64(%rsp)
	jmp	.LBB109_60
.LBB109_39:
	movdqa	.LCPI109_0(%rip), %xmm0
	movdqa	%xmm0, (%rsp)
	movb	$115, 16(%rsp)
	movq	$17, 64(%rsp)
	jmp	.LBB109_60
.LBB109_43:
	movb	$8, 80(%rsp)
	movq	%rsp, %rdi
	leaq	80(%rsp), %rax
	jmp	.LBB109_7
.LBB109_41:
	movabsq	$7956009103156735852, %rax
	jmp	.LBB109_34
.LBB109_46:
	movabsq	$8316213871273404780, %rax
	movq	%rax, (%rsp)
	movw	$12320, 8(%rsp)
	movq	$10, 64(%rsp)
	jmp	.LBB109_60
.LBB109_16:
	movdqa	.LCPI109_1(%rip), %xmm0
	movdqa	%xmm0, (%rsp)
	movl	$1735287154, 16(%rsp)
	movb	$101, 20(%rsp)
	movq	$21, 64(%rsp)
	jmp	.LBB109_60
.LBB109_15:
	movl	$1931505518, (%rsp)
	movw	$29801, 4(%rsp)
	movb	$101, 6(%rsp)
	movq	$7, 64(%rsp)
	jmp	.LBB109_60
.LBB109_40:
	movabsq	$8223685547050431855, %rax
	movq	%rax, (%rsp)
	movl	$1701277281, 8(%rsp)
	movq	$12, 64(%rsp)
	jmp	.LBB109_60
.LBB109_37:
	movabsq	$7598242655535128930, %rax
	movq	%rax, (%rsp)
	movw	$31092, 8(%rsp)
	movq	$10, 64(%rsp)
	jmp	.LBB109_60
.LBB109_47:
	movabsq	$7738135728955092846, %rax
	movq	%rax, (%rsp)
	movw	$29285, 8(%rsp)
	movq	$10, 64(%rsp)
	jmp	.LBB109_60
.LBB109_49:
	movabsq	$7886488381899956578, %rax
	movq	%rax, (%rsp)
	movw	$29793, 8(%rsp)
	movq	$10, 64(%rsp)
	jmp	.LBB109_60
.LBB109_10:
	movl	$1769103728, (%rsp)
	movw	$31092, 4(%rsp)
	movl	%edx, %eax
	shrl	$20, %eax
	movl	%edx, %ecx
	shrl	$8, %ecx
	andl	$65280, %ecx
	movzbl	%al, %eax
	orl	%ecx, %eax
	movl	%edx, %ecx
	shll	$4, %ecx
	andl	$16711680, %ecx
	orl	%eax, %ecx
	movl	%edx, %eax
	shll	$16, %eax
	andl	$-16777216, %eax
	orl	%ecx, %eax
	movd	%eax, %xmm0
	pand	.LCPI109_2(%rip), %xmm0
	movb	$32, 6(%rsp)
	movdqa	%xmm0, %xmm1
	pcmpgtb	.LCPI109_3(%rip), %xmm1
	movdqa	.LCPI109_4(%rip), %xmm2
	por	%xmm0, %xmm2
	paddb	.LCPI109_5(%rip), %xmm0
	pand	%xmm1, %xmm0
	pandn	%xmm2, %xmm1
	por	%xmm0, %xmm1
	movl	%edx, %eax
	shrb	$4, %al
	leal	48(%rax), %ecx
	addb	$55, %al
	cmpb	$-96, %dl
	movzbl	%cl, %ecx
	movzbl	%al, %eax
	cmovbl	%ecx, %eax
	movd	%xmm1, 7(%rsp)
	movb	%al, 11(%rsp)
	andb	$15, %dl
	leal	48(%rdx), %eax
	leal	55(%rdx), %ecx
	cmpb	$10, %dl
	movzbl	%al, %eax
	movzbl	%cl, %ecx
	cmovbl	%eax, %ecx
	movb	%cl, 12(%rsp)
	jmp	.LBB109_59
.LBB109_11:
	movabsq	$8029953737130012526, %rax
	movq	%rax, (%rsp)
	movl	$1769236851, 8(%rsp)
	movw	$28271, 12(%rsp)
	movq	$14, 64(%rsp)
	jmp	.LBB109_60
.LBB109_6:
	movb	$4, 128(%rsp)
	movq	%rsp, %rdi
	leaq	128(%rsp), %rax
	jmp	.LBB109_7
.LBB109_8:
	movb	$5, 112(%rsp)
	movq	%rsp, %rdi
	leaq	112(%rsp), %rax
	jmp	.LBB109_7
.LBB109_4:
	movabsq	$8097879460958986594, %rax
	movq	%rax, (%rsp)
	movl	$1735289200, 8(%rsp)
	movq	$12, 64(%rsp)
	jmp	.LBB109_60
.LBB109_42:
	movabsq	$7308620284777750882, %rax
	movq	%rax, (%rsp)
	movw	$29806, 8(%rsp)
	movq	$10, 64(%rsp)
	jmp	.LBB109_60
.LBB109_13:
	movabsq	$7596200872190178415, %rax
	movq	%rax, (%rsp)
	movw	$25710, 8(%rsp)
	movq	$10, 64(%rsp)
	jmp	.LBB109_60
.LBB109_12:
	movabsq	$7233098152233432175, %rax
	movq	%rax, (%rsp)
	movl	$1936028260, 8(%rsp)
	movb	$115, 12(%rsp)
	jmp	.LBB109_59
.LBB109_31:
	movabsq	$7598539523674628450, %rax
	movq	%rax, (%rsp)
	movl	$1852795252, 8(%rsp)
	movq	$12, 64(%rsp)
	jmp	.LBB109_60
.LBB109_5:
	movabsq	$8243311852456470643, %rax
	movq	%rax, (%rsp)
	movw	$28001, 8(%rsp)
	movb	$101, 10(%rsp)
	movq	$11, 64(%rsp)
	jmp	.LBB109_60
.LBB109_32:
	movabsq	$7810765016095023458, %rax
	movq	%rax, (%rsp)
	movw	$29540, 8(%rsp)
	movq	$10, 64(%rsp)
	jmp	.LBB109_60
.LBB109_48:
	movabsq	$2337209276179115884, %rax
	movq	%rax, (%rsp)
	movl	$1735290732, 8(%rsp)
	movq	$12, 64(%rsp)
	jmp	.LBB109_60
.LBB109_9:
	movb	$6, 96(%rsp)
	movq	%rsp, %rdi
	leaq	96(%rsp), %rax
.LBB109_7:
	movq	%rsi, %rbx
	movq	%rax, %rsi
	callq	"squitter_c::texts::push_named"
	movq	%rbx, %rsi
	jmp	.LBB109_60
.LBB109_35:
	movabsq	$7598805588308681058, %rax
	movq	%rax, (%rsp)
	movl	$1701082484, 8(%rsp)
	movq	$12, 64(%rsp)
	jmp	.LBB109_60
.LBB109_14:
	movabsq	$8241992077507649907, %rax
	movq	%rax, (%rsp)
	movw	$29801, 8(%rsp)
	movb	$121, 10(%rsp)
	movq	$11, 64(%rsp)
	jmp	.LBB109_60
.LBB109_33:
	movabsq	$7811333442131747170, %rax
.LBB109_34:
	movq	%rax, (%rsp)
	movb	$101, 8(%rsp)
	movq	$9, 64(%rsp)
	jmp	.LBB109_60
.LBB109_17:
	movabsq	$8462091215644290938, %rax
	movq	%rax, (%rsp)
	movl	$544437358, 8(%rsp)
	movq	$12, 64(%rsp)
	movq	%rsi, %r14
	cmpq	$999999999, %rdx
	ja	.LBB109_23
	cmpq	$999999, %rdx
	ja	.LBB109_22
	cmpq	$999, %rdx
	ja	.LBB109_21
	xorl	%eax, %eax
	cmpq	$100, %rdx
	setb	%al
	cmpq	$10, %rdx
	adcq	$0, %rax
	leaq	.Lstatic.22(%rip), %rcx
	leaq	(%rcx,%rdx,4), %rcx
	movl	(%rax,%rcx), %ecx
	movl	%ecx, 12(%rsp)
	xorq	$15, %rax
	jmp	.LBB109_24
.LBB109_38:
	movabsq	$8461736351404158830, %rax
	movq	%rax, (%rsp)
	movl	$1919246957, 8(%rsp)
	movq	$12, 64(%rsp)
	jmp	.LBB109_60
.LBB109_45:
	movabsq	$7863397576860792175, %rax
	movq	%rax, (%rsp)
	movl	$1919905125, 8(%rsp)
	movb	$121, 12(%rsp)
	jmp	.LBB109_59
.LBB109_44:
	movabsq	$8459484570044227956, %rax
	movq	%rax, (%rsp)
	movw	$27756, 8(%rsp)
	movq	$10, 64(%rsp)
	jmp	.LBB109_60
.LBB109_50:
	movabsq	$8247338198236422498, %rax
	movq	%rax, (%rsp)
	movw	$8313, 8(%rsp)
	movq	$10, 64(%rsp)
	cmpq	$999999999, %rdx
	ja	.LBB109_57
	cmpq	$999999, %rdx
	ja	.LBB109_56
	xorl	%eax, %eax
	cmpq	$999, %rdx
	ja	.LBB109_55
	cmpq	$100, %rdx
	setb	%al
	cmpq	$10, %rdx
	adcq	$0, %rax
	leaq	.Lstatic.22(%rip), %rcx
	leaq	(%rcx,%rdx,4), %rcx
	movl	(%rax,%rcx), %ecx
	movl	%ecx, 10(%rsp)
	movl	$13, %ecx
	jmp	.LBB109_54
.LBB109_58:
	movabsq	$2336936577129475701, %rax
	movq	%rax, (%rsp)
	movl	$1819631974, 8(%rsp)
	movb	$116, 12(%rsp)
.LBB109_59:
	movq	$13, 64(%rsp)
.LBB109_60:
	movaps	(%rsp), %xmm0
	movaps	16(%rsp), %xmm1
	movaps	32(%rsp), %xmm2
	movaps	48(%rsp), %xmm3
	movaps	%xmm0, 224(%rsp)
	movaps	%xmm1, 240(%rsp)
	movaps	%xmm2, 256(%rsp)
	movaps	%xmm3, 272(%rsp)
	movq	64(%rsp), %rax
	movq	%rax, 288(%rsp)
	movaps	%xmm0, 144(%rsp)
	movaps	%xmm1, 160(%rsp)
	movaps	%xmm2, 176(%rsp)
	movaps	%xmm3, 192(%rsp)
	movq	%rax, 208(%rsp)
	xorl	%ecx, %ecx
	movq	208(%rsp), %rax
	jmp	.LBB109_61
	.p2align	4
.LBB109_66:
	movzbl	145(%rsp,%rcx), %edi
.LBB109_67:
	movb	%dil, 1(%rsi,%rcx)
	incq	%rdx
	movq	%rdx, %rcx
	cmpq	$64, %rdx
	je	.LBB109_68
.LBB109_61:
	cmpq	%rax, %rcx
	jae	.LBB109_62
	movzbl	144(%rsp,%rcx), %edx
	movb	%dl, (%rsi,%rcx)
	leaq	1(%rcx), %rdx
	cmpq	%rax, %rdx
	jb	.LBB109_66
	jmp	.LBB109_65
	.p2align	4
.LBB109_62:
	xorl	%edx, %edx
	movb	%dl, (%rsi,%rcx)
	leaq	1(%rcx), %rdx
	cmpq	%rax, %rdx
	jb	.LBB109_66
.LBB109_65:
	xorl	%edi, %edi
	jmp	.LBB109_67
.LBB109_68:
	addq	$296, %rsp
	popq	%rbx
	popq	%r14
	retq
.LBB109_23:
	movq	%rsp, %rdi
	movq	%rdx, %rsi
	callq	"sq_digits::decimal::push_long::<=63>"
	movq	64(%rsp), %rax
	jmp	.LBB109_24
.LBB109_57:
	movq	%rsp, %rdi
	movq	%rsi, %rbx
	movq	%rdx, %rsi
	callq	"sq_digits::decimal::push_long::<=63>"
	movq	%rbx, %rsi
	jmp	.LBB109_60
.LBB109_22:
	imulq	$1125899907, %rdx, %rax
	xorl	%ecx, %ecx
	cmpq	$100000000, %rdx
	setb	%cl
	cmpq	$10000000, %rdx
	adcq	$0, %rcx
	shrq	$48, %rax
	andl	$32764, %eax
	leaq	.Lstatic.22(%rip), %rsi
	addq	%rsi, %rax
	movl	(%rcx,%rax), %eax
	movl	%eax, 12(%rsp)
	movl	$18, %edi
	subq	%rcx, %rdi
	movl	$21, %eax
	subq	%rcx, %rax
	xorq	$15, %rcx
	imulq	$274877907, %rdx, %r8
	shrq	$38, %r8
	imulq	$68719477, %r8, %r9
	shrq	$36, %r9
	imull	$1000, %r9d, %r9d
	imull	$1000, %r8d, %r10d
	subl	%r9d, %r8d
	movzwl	(%rsi,%r8,4), %r9d
	movw	%r9w, (%rsp,%rcx)
	movzbl	2(%rsi,%r8,4), %r8d
	movb	%r8b, 2(%rsp,%rcx)
	movq	%rdi, 64(%rsp)
	subl	%r10d, %edx
	movl	(%rsi,%rdx,4), %ecx
	movl	%ecx, (%rsp,%rdi)
	jmp	.LBB109_24
.LBB109_56:
	imulq	$1125899907, %rdx, %rcx
	xorl	%eax, %eax
	cmpq	$100000000, %rdx
	setb	%al
	cmpq	$10000000, %rdx
	adcq	$0, %rax
	shrq	$48, %rcx
	andl	$32764, %ecx
	leaq	.Lstatic.22(%rip), %rdi
	addq	%rdi, %rcx
	movl	(%rax,%rcx), %ecx
	movl	%ecx, 10(%rsp)
	imulq	$274877907, %rdx, %rcx
	shrq	$38, %rcx
	imulq	$68719477, %rcx, %r8
	shrq	$36, %r8
	imull	$1000, %r8d, %r8d
	imull	$1000, %ecx, %r9d
	subl	%r8d, %ecx
	movq	%rsp, %r8
	subq	%rax, %r8
	movzwl	(%rdi,%rcx,4), %r10d
	movw	%r10w, 13(%r8)
	movzbl	2(%rdi,%rcx,4), %ecx
	movb	%cl, 15(%r8)
	subl	%r9d, %edx
	movl	(%rdi,%rdx,4), %ecx
	movl	%ecx, 16(%r8)
	xorq	$19, %rax
	movq	%rax, 64(%rsp)
	jmp	.LBB109_60
.LBB109_21:
	xorl	%ecx, %ecx
	cmpq	$100000, %rdx
	setb	%cl
	cmpq	$10000, %rdx
	adcq	$0, %rcx
	leaq	.Lstatic.22(%rip), %rsi
	imulq	$274877907, %rdx, %rdi
	shrq	$38, %rdi
	leaq	(%rsi,%rdi,4), %rax
	movl	(%rcx,%rax), %eax
	movl	%eax, 12(%rsp)
	movl	$18, %eax
	subq	%rcx, %rax
	xorq	$15, %rcx
	imull	$1000, %edi, %edi
	subl	%edi, %edx
	movl	(%rsi,%rdx,4), %edx
	movl	%edx, (%rsp,%rcx)
.LBB109_24:
	movb	$32, (%rsp,%rax)
	incq	%rax
	movq	%rax, 64(%rsp)
	cmpl	$999999999, %ebx
	ja	.LBB109_30
	cmpl	$999999, %ebx
	ja	.LBB109_29
	cmpl	$999, %ebx
	movq	%r14, %rsi
	ja	.LBB109_28
	xorl	%ecx, %ecx
	cmpl	$100, %ebx
	setb	%cl
	cmpl	$10, %ebx
	adcq	$0, %rcx
	leaq	.Lstatic.22(%rip), %rdx
	leaq	(%rdx,%rbx,4), %rdx
	movl	(%rcx,%rdx), %edx
	movl	%edx, (%rsp,%rax)
	xorq	$3, %rcx
	addq	%rax, %rcx
	movq	%rcx, 64(%rsp)
	jmp	.LBB109_60
.LBB109_30:
	movq	%rsp, %rdi
	movq	%rbx, %rsi
	callq	"sq_digits::decimal::push_long::<=63>"
	movq	%r14, %rsi
	jmp	.LBB109_60
.LBB109_29:
	imulq	$1125899907, %rbx, %rdx
	xorl	%ecx, %ecx
	cmpl	$100000000, %ebx
	setb	%cl
	cmpl	$10000000, %ebx
	adcq	$0, %rcx
	shrq	$48, %rdx
	andl	$-4, %edx
	leaq	.Lstatic.22(%rip), %rsi
	addq	%rsi, %rdx
	movl	(%rcx,%rdx), %edx
	movl	%edx, (%rsp,%rax)
	xorq	$3, %rcx
	leaq	(%rax,%rcx), %rdx
	imulq	$274877907, %rbx, %rdi
	shrq	$38, %rdi
	imulq	$8589935, %rdi, %r8
	shrq	$33, %r8
	imull	$1000, %r8d, %r8d
	imull	$1000, %edi, %r9d
	subl	%r8d, %edi
	movzwl	(%rsi,%rdi,4), %r8d
	movw	%r8w, (%rsp,%rdx)
	movzbl	2(%rsi,%rdi,4), %edi
	movb	%dil, 2(%rsp,%rdx)
	subl	%r9d, %ebx
	movl	(%rsi,%rbx,4), %esi
	movl	%esi, 3(%rsp,%rdx)
	addq	%rcx, %rax
	addq	$6, %rax
	movq	%rax, 64(%rsp)
	movq	%r14, %rsi
	jmp	.LBB109_60
.LBB109_28:
	xorl	%ecx, %ecx
	cmpl	$100000, %ebx
	setb	%cl
	cmpl	$10000, %ebx
	adcq	$0, %rcx
	leaq	.Lstatic.22(%rip), %rdx
	imulq	$274877907, %rbx, %rdi
	shrq	$38, %rdi
	leaq	(%rdx,%rdi,4), %r8
	movl	(%rcx,%r8), %r8d
	movl	%r8d, (%rsp,%rax)
	xorq	$3, %rcx
	leaq	(%rax,%rcx), %r8
	imull	$1000, %edi, %edi
	subl	%edi, %ebx
	movl	(%rdx,%rbx,4), %edx
	movl	%edx, (%rsp,%r8)
	addq	%rcx, %rax
	addq	$3, %rax
	movq	%rax, 64(%rsp)
	jmp	.LBB109_60
.LBB109_55:
	cmpq	$100000, %rdx
	setb	%al
	cmpq	$10000, %rdx
	adcq	$0, %rax
	leaq	.Lstatic.22(%rip), %rcx
	imulq	$274877907, %rdx, %rdi
	shrq	$38, %rdi
	leaq	(%rcx,%rdi,4), %r8
	movl	(%rax,%r8), %r8d
	movl	%r8d, 10(%rsp)
	imull	$1000, %edi, %edi
	subl	%edi, %edx
	movq	%rsp, %rdi
	subq	%rax, %rdi
	movl	(%rcx,%rdx,4), %ecx
	movl	%ecx, 13(%rdi)
	movl	$16, %ecx
.LBB109_54:
	subq	%rax, %rcx
	movq	%rcx, 64(%rsp)
	jmp	.LBB109_60
.Lfunc_end109:
	.size	squitter_text_of_fault, .Lfunc_end109-squitter_text_of_fault
	.section	.rodata.squitter_text_of_fault,"a",@progbits
	.p2align	2, 0x0
.LJTI109_0:
	.long	.LBB109_2-.LJTI109_0
	.long	.LBB109_4-.LJTI109_0
	.long	.LBB109_5-.LJTI109_0
	.long	.LBB109_6-.LJTI109_0
	.long	.LBB109_8-.LJTI109_0
	.long	.LBB109_9-.LJTI109_0
	.long	.LBB109_10-.LJTI109_0
	.long	.LBB109_58-.LJTI109_0
	.long	.LBB109_58-.LJTI109_0
	.long	.LBB109_58-.LJTI109_0
	.long	.LBB109_11-.LJTI109_0
	.long	.LBB109_12-.LJTI109_0
	.long	.LBB109_13-.LJTI109_0
	.long	.LBB109_14-.LJTI109_0
	.long	.LBB109_15-.LJTI109_0
	.long	.LBB109_16-.LJTI109_0
	.long	.LBB109_17-.LJTI109_0
	.long	.LBB109_58-.LJTI109_0
	.long	.LBB109_58-.LJTI109_0
	.long	.LBB109_58-.LJTI109_0
	.long	.LBB109_31-.LJTI109_0
	.long	.LBB109_32-.LJTI109_0
	.long	.LBB109_33-.LJTI109_0
	.long	.LBB109_35-.LJTI109_0
	.long	.LBB109_36-.LJTI109_0
	.long	.LBB109_37-.LJTI109_0
	.long	.LBB109_58-.LJTI109_0
	.long	.LBB109_58-.LJTI109_0
	.long	.LBB109_58-.LJTI109_0
	.long	.LBB109_58-.LJTI109_0
	.long	.LBB109_38-.LJTI109_0
	.long	.LBB109_39-.LJTI109_0
	.long	.LBB109_40-.LJTI109_0
	.long	.LBB109_58-.LJTI109_0
	.long	.LBB109_58-.LJTI109_0
	.long	.LBB109_58-.LJTI109_0
	.long	.LBB109_58-.LJTI109_0
	.long	.LBB109_58-.LJTI109_0
	.long	.LBB109_58-.LJTI109_0
	.long	.LBB109_58-.LJTI109_0
	.long	.LBB109_41-.LJTI109_0
	.long	.LBB109_42-.LJTI109_0
	.long	.LBB109_43-.LJTI109_0
	.long	.LBB109_44-.LJTI109_0
	.long	.LBB109_45-.LJTI109_0
	.long	.LBB109_46-.LJTI109_0
	.long	.LBB109_47-.LJTI109_0
	.long	.LBB109_58-.LJTI109_0
	.long	.LBB109_48-.LJTI109_0
	.long	.LBB109_49-.LJTI109_0
	.long	.LBB109_50-.LJTI109_0

	.section	.text.squitter_angle_e7,"ax",@progbits
	.globl	squitter_angle_e7
	.p2align	4
	.type	squitter_angle_e7,@function
squitter_angle_e7:
	movq	8(%rdi), %rcx
	movabsq	$-1000000000001, %rdx
	leaq	(%rcx,%rdx), %r8
	incq	%rdx
	movl	$22, %eax
	cmpq	%rdx, %r8
	jb	.LBB110_8
	pushq	%r14
	pushq	%rbx
	pushq	%rax
	movq	(%rdi), %rbx
	movq	%rbx, %rdx
	negq	%rdx
	cmovsq	%rbx, %rdx
	imulq	$360, %rcx, %rdi
	cmpq	%rdx, %rdi
	jb	.LBB110_7
	movl	$20000000, %edi
	movq	%rdx, %rax
	mulq	%rdi
	addq	%rcx, %rax
	adcq	$0, %rdx
	movabsq	$1099503304703, %rdi
	testq	%rdi, %rcx
	jne	.LBB110_5
	movq	%rax, %rdi
	shrq	$56, %rdi
	orq	%rdx, %rdi
	jne	.LBB110_5
	shrq	$17, %rax
	shrq	$13, %rcx
	leaq	.Lstatic.40(%rip), %rdx
	mulq	(%rcx,%rdx)
	shldq	$16, %rax, %rdx
.LBB110_6:
	movq	%rdx, %rax
	negq	%rax
	testq	%rbx, %rbx
	cmovnsq	%rdx, %rax
	movq	%rax, (%rsi)
	xorl	%eax, %eax
.LBB110_7:
	addq	$8, %rsp
	popq	%rbx
	popq	%r14
.LBB110_8:
	xorl	%edx, %edx
	retq
.LBB110_5:
	addq	%rcx, %rcx
	movq	%rax, %rdi
	movq	%rsi, %r14
	movq	%rdx, %rsi
	movq	%rcx, %rdx
	callq	"sq_angle::quotients::divided"
	movq	%r14, %rsi
	movq	%rax, %rdx
	jmp	.LBB110_6
.Lfunc_end110:
	.size	squitter_angle_e7, .Lfunc_end110-squitter_angle_e7

	.section	.rodata.cst16,"aM",@progbits,16
	.p2align	4, 0x0
.LCPI111_0:
	.zero	8
	.quad	3327647950551526958
.LCPI111_1:
	.zero	16,46
.LCPI111_2:
	.zero	16,127
.LCPI111_3:
	.zero	8
	.quad	9187201950435737471
	.section	.text.squitter_angle_of_text,"ax",@progbits
	.globl	squitter_angle_of_text
	.p2align	4
	.type	squitter_angle_of_text,@function
squitter_angle_of_text:
	pushq	%rbp
	pushq	%r15
	pushq	%r14
	pushq	%r13
	pushq	%r12
	pushq	%rbx
	subq	$56, %rsp
	xorl	%eax, %eax
	testq	%rdi, %rdi
	sete	%cl
	testq	%rsi, %rsi
	je	.LBB111_59
	movq	%rsi, %r15
	movq	%rdi, %r14
	movq	%rdx, 16(%rsp)
	movb	%cl, %al
	shll	$12, %eax
	addq	%rax, %r14
	movabsq	$-9187201950435737472, %r13
	leaq	-8(%rsi), %r12
	xorl	%ecx, %ecx
	jmp	.LBB111_5
.LBB111_26:
	movl	$1, %edx
.LBB111_3:
	addq	%rcx, %rdx
.LBB111_4:
	movq	%rdx, %rcx
	cmpq	%r15, %rdx
	jae	.LBB111_56
.LBB111_5:
	movzbl	(%r14,%rcx), %eax
	movq	%r15, %rsi
	subq	%rcx, %rsi
	cmpq	$2, %rsi
	jb	.LBB111_2
	testb	%al, %al
	js	.LBB111_2
	cmpb	$0, 1(%r14,%rcx)
	js	.LBB111_26
	movq	%r14, 24(%rsp)
	movq	%r15, 32(%rsp)
	cmpq	$7, %rsi
	ja	.LBB111_27
	cmpb	$0, (%r14,%rcx)
	js	.LBB111_37
	leaq	1(%rcx), %rdx
	cmpq	%r15, %rdx
	je	.LBB111_56
	cmpb	$0, (%r14,%rdx)
	js	.LBB111_4
	leaq	2(%rcx), %rdx
	cmpq	%r15, %rdx
	je	.LBB111_56
	cmpb	$0, (%r14,%rdx)
	js	.LBB111_4
	leaq	3(%rcx), %rdx
	cmpq	%r15, %rdx
	je	.LBB111_56
	cmpb	$0, (%r14,%rdx)
	js	.LBB111_4
	leaq	4(%rcx), %rdx
	cmpq	%r15, %rdx
	je	.LBB111_56
	cmpb	$0, (%r14,%rdx)
	js	.LBB111_4
	leaq	5(%rcx), %rdx
	cmpq	%r15, %rdx
	je	.LBB111_56
	cmpb	$0, (%r14,%rdx)
	js	.LBB111_4
	addq	$6, %rcx
	cmpq	%r15, %rcx
	je	.LBB111_56
	cmpb	$0, (%r14,%rcx)
	movq	%rcx, %rdx
	js	.LBB111_4
	jmp	.LBB111_56
	.p2align	4
.LBB111_2:
	movl	$1, %edx
	testb	%al, %al
	jns	.LBB111_3
	cmpb	$-62, %al
	jb	.LBB111_59
	movzbl	%al, %eax
	cmpb	$-33, %al
	ja	.LBB111_30
	cmpq	$2, %rsi
	jb	.LBB111_59
	movl	$2, %edx
	cmpb	$-65, 1(%r14,%rcx)
	jle	.LBB111_3
	jmp	.LBB111_59
.LBB111_27:
	movq	(%r14,%rcx), %rax
	andq	%r13, %rax
	je	.LBB111_38
	rep		bsfq	%rax, %rax
	shrl	$3, %eax
	addq	%rcx, %rax
	addq	$8, %rcx
	movq	%rax, %rdx
	cmpq	%rcx, %rax
	jb	.LBB111_4
	movq	%r15, %rcx
	subq	%rax, %rcx
	cmpq	$32, %rcx
	jae	.LBB111_39
	jmp	.LBB111_41
.LBB111_30:
	cmpb	$-17, %al
	ja	.LBB111_49
	cmpq	$3, %rsi
	jb	.LBB111_59
	movzbl	1(%r14,%rcx), %edx
	cmpb	$-65, %dl
	jg	.LBB111_59
	cmpb	$-65, 2(%r14,%rcx)
	jg	.LBB111_59
	shll	$6, %eax
	leal	(%rax,%rdx), %esi
	addl	$-14464, %esi
	cmpl	$32, %esi
	jb	.LBB111_59
	xorl	%eax, %eax
	cmpl	$896, %esi
	setae	%dil
	movl	$3, %edx
	cmpl	$864, %esi
	jb	.LBB111_3
	movb	%dil, %al
	leaq	(%rax,%rax,2), %rdx
	testq	%rdx, %rdx
	jne	.LBB111_3
	jmp	.LBB111_59
.LBB111_37:
	movq	%rcx, %rdx
	jmp	.LBB111_4
.LBB111_38:
	addq	$8, %rcx
	movq	%rcx, %rax
	movq	%r15, %rcx
	subq	%rax, %rcx
	cmpq	$32, %rcx
	jb	.LBB111_41
	.p2align	4
.LBB111_39:
	movdqu	(%r14,%rax), %xmm0
	movdqu	16(%r14,%rax), %xmm1
	por	%xmm0, %xmm1
	pshufd	$238, %xmm1, %xmm0
	por	%xmm1, %xmm0
	movq	%xmm0, %rcx
	testq	%r13, %rcx
	jne	.LBB111_41
	addq	$32, %rax
	leaq	24(%rsp), %rdi
	movq	%rax, %rsi
	movq	%r15, %rdx
	callq	"core::slice::words::skip_far::<#52f9edcae2f82f51>"
	movq	%r15, %rcx
	subq	%rax, %rcx
	cmpq	$31, %rcx
	ja	.LBB111_39
.LBB111_41:
	movq	%r15, %rcx
	subq	%rax, %rcx
	jmp	.LBB111_44
	.p2align	4
.LBB111_42:
	rep		bsfq	%rdx, %rdx
	shrl	$3, %edx
	addq	%rax, %rdx
	addq	$8, %rax
	addq	$-8, %rcx
	cmpq	%rax, %rdx
	jb	.LBB111_4
.LBB111_44:
	cmpq	$9, %rcx
	jb	.LBB111_47
	movq	(%r14,%rax), %rdx
	andq	%r13, %rdx
	jne	.LBB111_42
	leaq	8(%rax), %rdx
	addq	$8, %rax
	addq	$-8, %rcx
	cmpq	%rax, %rdx
	jae	.LBB111_44
	jmp	.LBB111_4
.LBB111_47:
	movq	(%r14,%r12), %rax
	andq	%r13, %rax
	je	.LBB111_56
	rep		bsfq	%rax, %rdx
	shrl	$3, %edx
	addq	%r12, %rdx
	jmp	.LBB111_4
.LBB111_49:
	cmpq	$4, %rsi
	jb	.LBB111_59
	movzbl	1(%r14,%rcx), %edx
	cmpb	$-65, %dl
	jg	.LBB111_59
	cmpb	$-65, 2(%r14,%rcx)
	jg	.LBB111_59
	cmpb	$-65, 3(%r14,%rcx)
	jg	.LBB111_59
	shll	$6, %eax
	leal	(%rax,%rdx), %esi
	addl	$-15488, %esi
	xorl	%edx, %edx
	cmpl	$272, %esi
	setb	%al
	cmpl	$16, %esi
	jb	.LBB111_59
	movb	%al, %dl
	shll	$2, %edx
	testq	%rdx, %rdx
	jne	.LBB111_3
	jmp	.LBB111_59
.LBB111_56:
	movzbl	(%r14), %esi
	movl	$1, %edx
	testb	%sil, %sil
	jns	.LBB111_63
	movzbl	1(%r14), %eax
	andl	$63, %eax
	cmpb	$-33, %sil
	ja	.LBB111_60
	andl	$31, %esi
	shll	$6, %esi
	orl	%eax, %esi
	movl	$2, %edx
	jmp	.LBB111_63
.LBB111_60:
	movzbl	2(%r14), %ecx
	andl	$63, %ecx
	cmpb	$-17, %sil
	ja	.LBB111_62
	shll	$12, %esi
	movzwl	%si, %edx
	shll	$6, %eax
	orl	%edx, %eax
	orl	%ecx, %eax
	movl	$3, %edx
	movl	%eax, %esi
	jmp	.LBB111_63
.LBB111_62:
	movzbl	3(%r14), %edx
	andl	$63, %edx
	andl	$7, %esi
	shll	$18, %esi
	shll	$12, %eax
	orl	%esi, %eax
	shll	$6, %ecx
	orl	%eax, %ecx
	orl	%edx, %ecx
	movl	$4, %edx
	movl	%ecx, %esi
.LBB111_63:
	xorl	%eax, %eax
	cmpl	$45, %esi
	cmoveq	%rdx, %rax
	addq	%rax, %r14
	movq	%r15, %rdx
	subq	%rax, %rdx
	movq	%r14, 24(%rsp)
	movq	%rdx, 32(%rsp)
	movb	$46, 40(%rsp)
	movl	$0, 41(%rsp)
	movl	$0, 44(%rsp)
	cmpq	$7, %rdx
	ja	.LBB111_67
	testq	%rdx, %rdx
	je	.LBB111_59
	movl	%esi, 12(%rsp)
	cmpb	$46, (%r14)
	jne	.LBB111_79
	xorl	%esi, %esi
	jmp	.LBB111_93
.LBB111_59:
	movl	$30, %eax
.LBB111_167:
	xorl	%edx, %edx
	addq	$56, %rsp
	popq	%rbx
	popq	%r12
	popq	%r13
	popq	%r14
	popq	%r15
	popq	%rbp
	retq
.LBB111_67:
	movq	%rax, 48(%rsp)
	movl	%esi, 12(%rsp)
	movabsq	$9187201950435737471, %rbp
	movabsq	$3327647950551526958, %r12
	movq	(%r14), %rcx
	movq	%rcx, %rax
	andq	%rbp, %rax
	xorq	%r12, %rax
	addq	%rbp, %rax
	orq	%rcx, %rax
	andq	%r13, %rax
	cmpq	%r13, %rax
	jne	.LBB111_77
	movl	$8, %eax
	cmpq	$40, %rdx
	jb	.LBB111_71
	.p2align	4
.LBB111_69:
	movdqu	(%r14,%rax), %xmm0
	movdqu	16(%r14,%rax), %xmm1
	movq	%rbp, %xmm2
	pand	%xmm0, %xmm2
	movdqa	.LCPI111_0(%rip), %xmm3
	pxor	%xmm0, %xmm3
	pxor	.LCPI111_1(%rip), %xmm1
	movq	%r12, %xmm4
	pxor	%xmm4, %xmm2
	pslldq	$8, %xmm4
	pxor	%xmm0, %xmm4
	movdqa	.LCPI111_2(%rip), %xmm0
	movdqa	%xmm1, %xmm5
	pand	.LCPI111_3(%rip), %xmm3
	pand	%xmm0, %xmm5
	movsd	%xmm2, %xmm3
	paddq	%xmm0, %xmm3
	por	%xmm4, %xmm3
	paddq	%xmm0, %xmm5
	por	%xmm1, %xmm5
	pand	%xmm3, %xmm5
	pshufd	$238, %xmm5, %xmm0
	pand	%xmm5, %xmm0
	movq	%xmm0, %rcx
	notq	%rcx
	testq	%rcx, %r13
	jne	.LBB111_71
	addq	$32, %rax
	leaq	24(%rsp), %rdi
	movq	%rax, %rsi
	movq	%rdx, %rbx
	callq	"core::slice::words::skip_far::<#d9bf6fcacf29a880>"
	movq	%rbx, %rdx
	movq	%rbx, %rcx
	subq	%rax, %rcx
	cmpq	$31, %rcx
	ja	.LBB111_69
.LBB111_71:
	subq	48(%rsp), %r15
	subq	%rax, %r15
	jmp	.LBB111_74
	.p2align	4
.LBB111_72:
	xorq	%r13, %rcx
	rep		bsfq	%rcx, %rsi
	shrl	$3, %esi
	addq	%rax, %rsi
	addq	$8, %rax
	addq	$-8, %r15
	cmpq	%rax, %rsi
	jb	.LBB111_93
.LBB111_74:
	cmpq	$9, %r15
	jb	.LBB111_91
	movq	(%r14,%rax), %rsi
	movq	%rsi, %rcx
	andq	%rbp, %rcx
	xorq	%r12, %rcx
	addq	%rbp, %rcx
	orq	%rsi, %rcx
	andq	%r13, %rcx
	cmpq	%r13, %rcx
	jne	.LBB111_72
	leaq	8(%rax), %rsi
	addq	$8, %rax
	addq	$-8, %r15
	cmpq	%rax, %rsi
	jae	.LBB111_74
	jmp	.LBB111_93
.LBB111_77:
	xorq	%r13, %rax
	rep		bsfq	%rax, %rsi
	shrl	$3, %esi
	jmp	.LBB111_93
.LBB111_79:
	cmpq	$1, %rdx
	je	.LBB111_96
	movl	$1, %esi
	cmpb	$46, 1(%r14)
	je	.LBB111_93
	cmpq	$2, %rdx
	je	.LBB111_96
	movl	$2, %esi
	cmpb	$46, 2(%r14)
	je	.LBB111_93
	cmpq	$3, %rdx
	je	.LBB111_96
	movl	$3, %esi
	cmpb	$46, 3(%r14)
	je	.LBB111_93
	cmpq	$4, %rdx
	je	.LBB111_96
	movl	$4, %esi
	cmpb	$46, 4(%r14)
	je	.LBB111_93
	cmpq	$5, %rdx
	je	.LBB111_96
	movl	$5, %esi
	cmpb	$46, 5(%r14)
	je	.LBB111_93
	cmpq	$6, %rdx
	je	.LBB111_96
	movl	$6, %esi
	cmpb	$46, 6(%r14)
	je	.LBB111_93
	jmp	.LBB111_96
.LBB111_91:
	movq	-8(%r14,%rdx), %rcx
	movq	%rcx, %rax
	andq	%rbp, %rax
	xorq	%r12, %rax
	addq	%rbp, %rax
	orq	%rcx, %rax
	andq	%r13, %rax
	cmpq	%r13, %rax
	je	.LBB111_96
	leaq	-8(%rdx), %rcx
	xorq	%r13, %rax
	rep		bsfq	%rax, %rsi
	shrl	$3, %esi
	addq	%rcx, %rsi
.LBB111_93:
	cmpq	%rdx, %rsi
	jae	.LBB111_96
	leaq	1(%rsi), %rcx
	movl	$30, %eax
	movq	%rdx, %r15
	subq	%rcx, %r15
	je	.LBB111_167
	addq	%r14, %rcx
	movq	%rsi, %rdx
	leaq	-1(%rdx), %rsi
	movl	$30, %eax
	cmpq	$2, %rsi
	ja	.LBB111_167
	jmp	.LBB111_97
.LBB111_96:
	leaq	.Lstatic.0(%rip), %rcx
	xorl	%r15d, %r15d
	leaq	-1(%rdx), %rsi
	movl	$30, %eax
	cmpq	$2, %rsi
	ja	.LBB111_167
.LBB111_97:
	testq	%rdx, %rdx
	je	.LBB111_100
	movzbl	(%r14), %esi
	addb	$-48, %sil
	cmpb	$9, %sil
	ja	.LBB111_167
	cmpq	$1, %rdx
	jne	.LBB111_107
.LBB111_100:
	xorl	%esi, %esi
	.p2align	4
.LBB111_101:
	cmpq	%rsi, %r15
	je	.LBB111_103
	movzbl	(%rcx,%rsi), %edi
	addb	$-48, %dil
	incq	%rsi
	cmpb	$10, %dil
	jb	.LBB111_101
	jmp	.LBB111_167
.LBB111_103:
	movl	$31, %eax
	cmpq	$12, %r15
	ja	.LBB111_167
	testq	%r15, %r15
	je	.LBB111_111
	cmpl	$1, %r15d
	jne	.LBB111_112
	movl	$10, %esi
	jmp	.LBB111_115
.LBB111_107:
	movzbl	1(%r14), %esi
	addb	$-48, %sil
	cmpb	$9, %sil
	ja	.LBB111_167
	cmpq	$2, %rdx
	je	.LBB111_100
	movzbl	2(%r14), %esi
	addb	$-48, %sil
	cmpb	$9, %sil
	ja	.LBB111_167
	cmpq	$3, %rdx
	je	.LBB111_100
	jmp	.LBB111_167
.LBB111_111:
	movl	$1, %esi
	jmp	.LBB111_115
.LBB111_112:
	movl	$10, %eax
	movl	$1, %edi
	movl	$1, %esi
	movl	%r15d, %r9d
	movl	%r15d, %r8d
	.p2align	4
.LBB111_113:
	testb	$1, %r9b
	movq	%rax, %r10
	cmoveq	%rdi, %r10
	imulq	%r10, %rsi
	imulq	%rax, %rax
	shrl	%r8d
	cmpl	$3, %r9d
	movl	%r8d, %r9d
	ja	.LBB111_113
	imulq	%rax, %rsi
.LBB111_115:
	testq	%rdx, %rdx
	je	.LBB111_131
	cmpb	$43, (%r14)
	movq	%rdx, %rbx
	jne	.LBB111_120
	cmpq	$1, %rdx
	jne	.LBB111_125
.LBB111_131:
	xorl	%edi, %edi
.LBB111_132:
	testq	%r15, %r15
	je	.LBB111_148
	cmpb	$43, (%rcx)
	jne	.LBB111_137
	cmpq	$1, %r15
	jne	.LBB111_142
.LBB111_148:
	xorl	%r8d, %r8d
.LBB111_149:
	movabsq	$-1000000000001, %rcx
	leaq	(%rsi,%rcx), %rdx
	incq	%rcx
	movl	$32, %eax
	cmpq	%rcx, %rdx
	jb	.LBB111_167
	imulq	%rsi, %rdi
	addq	%rdi, %r8
	movq	%r8, %r9
	negq	%r9
	movq	%r8, %rdi
	cmovnsq	%r9, %rdi
	cmpl	$45, 12(%rsp)
	cmovneq	%r8, %r9
	imulq	$360, %rsi, %rcx
	cmpq	%rdi, %rcx
	jb	.LBB111_167
	movl	$64, %r8d
	movl	$64, %ecx
	rep		bsfq	%rsi, %rcx
	rep		bsfq	%r9, %r8
	cmpl	%ecx, %r8d
	cmovael	%ecx, %r8d
	movq	%rsi, %r11
	shrq	%cl, %r11
	movq	%rdi, %rax
	movl	%r8d, %ecx
	shrq	%cl, %rax
	movq	%rax, %rcx
	orq	%r11, %rcx
	shrq	$32, %rcx
	je	.LBB111_153
	xorl	%edx, %edx
	divq	%r11
	jmp	.LBB111_154
.LBB111_120:
	movabsq	$1844674407370955162, %rax
	xorl	%r9d, %r9d
	xorl	%r8d, %r8d
.LBB111_121:
	xorl	%edi, %edi
	cmpq	%rax, %r9
	jae	.LBB111_132
	movzbl	(%r14,%r8), %r10d
	leal	-48(%r10), %r11d
	cmpb	$9, %r11b
	ja	.LBB111_132
	addq	%r9, %r9
	leaq	(%r9,%r9,4), %rdi
	andl	$15, %r10d
	movq	%r10, %r9
	addq	%rdi, %r9
	jb	.LBB111_131
	incq	%r8
	movq	%r9, %rdi
	cmpq	%r8, %rbx
	jne	.LBB111_121
	jmp	.LBB111_132
.LBB111_137:
	movabsq	$1844674407370955162, %rax
	xorl	%r10d, %r10d
	xorl	%r9d, %r9d
.LBB111_138:
	xorl	%r8d, %r8d
	cmpq	%rax, %r10
	jae	.LBB111_149
	movzbl	(%rcx,%r9), %r11d
	leal	-48(%r11), %ebx
	cmpb	$9, %bl
	ja	.LBB111_149
	addq	%r10, %r10
	leaq	(%r10,%r10,4), %r8
	andl	$15, %r11d
	movq	%r11, %r10
	addq	%r8, %r10
	jb	.LBB111_148
	incq	%r9
	movq	%r10, %r8
	cmpq	%r9, %r15
	jne	.LBB111_138
	jmp	.LBB111_149
.LBB111_125:
	movl	$1, %eax
	movabsq	$1844674407370955162, %r8
	xorl	%r9d, %r9d
.LBB111_126:
	xorl	%edi, %edi
	cmpq	%r8, %r9
	jae	.LBB111_132
	movzbl	(%r14,%rax), %r10d
	leal	-48(%r10), %r11d
	cmpb	$9, %r11b
	ja	.LBB111_132
	addq	%r9, %r9
	leaq	(%r9,%r9,4), %rdi
	andl	$15, %r10d
	movq	%r10, %r9
	addq	%rdi, %r9
	jb	.LBB111_131
	incq	%rax
	movq	%r9, %rdi
	cmpq	%rax, %rbx
	jne	.LBB111_126
	jmp	.LBB111_132
.LBB111_142:
	movl	$1, %eax
	movabsq	$1844674407370955162, %r9
	xorl	%r10d, %r10d
.LBB111_143:
	xorl	%r8d, %r8d
	cmpq	%r9, %r10
	jae	.LBB111_149
	movzbl	(%rcx,%rax), %r11d
	leal	-48(%r11), %ebx
	cmpb	$9, %bl
	ja	.LBB111_149
	addq	%r10, %r10
	leaq	(%r10,%r10,4), %r8
	andl	$15, %r11d
	movq	%r11, %r10
	addq	%r8, %r10
	jb	.LBB111_148
	incq	%rax
	movq	%r10, %r8
	cmpq	%rax, %r15
	jne	.LBB111_143
	jmp	.LBB111_149
.LBB111_153:
	xorl	%edx, %edx
	divl	%r11d
.LBB111_154:
	testq	%rdx, %rdx
	je	.LBB111_157
	movq	%r11, %r10
.LBB111_156:
	rep		bsfq	%rdx, %rcx
	shrq	%cl, %rdx
	movq	%rdx, %rax
	subq	%r11, %rax
	cmovbq	%rdx, %r10
	subq	%rdx, %r11
	cmovbq	%rax, %r11
	testq	%r11, %r11
	movq	%r11, %rdx
	movq	%r10, %r11
	jne	.LBB111_156
	jmp	.LBB111_158
.LBB111_157:
	movq	%r11, %r10
.LBB111_158:
	movl	%r8d, %ecx
	shlq	%cl, %r10
	cmpq	$1, %r10
	je	.LBB111_166
	testq	%r10, %r10
	je	.LBB111_168
	movq	%rdi, %rax
	orq	%r10, %rax
	shrq	$32, %rax
	je	.LBB111_162
	movq	%rdi, %rax
	xorl	%edx, %edx
	divq	%r10
	movq	%rax, %rdi
	jmp	.LBB111_163
.LBB111_162:
	movl	%edi, %eax
	xorl	%edx, %edx
	divl	%r10d
	movl	%eax, %edi
.LBB111_163:
	movq	%rsi, %rax
	orq	%r10, %rax
	shrq	$32, %rax
	je	.LBB111_165
	movq	%rsi, %rax
	xorl	%edx, %edx
	divq	%r10
	movq	%rax, %rsi
	jmp	.LBB111_166
.LBB111_165:
	movl	%esi, %eax
	xorl	%edx, %edx
	divl	%r10d
	movl	%eax, %esi
.LBB111_166:
	movq	16(%rsp), %rcx
	movq	%rdi, %rax
	negq	%rax
	testq	%r9, %r9
	cmovnsq	%rdi, %rax
	movq	%rax, (%rcx)
	movq	%rsi, 8(%rcx)
	xorl	%eax, %eax
	jmp	.LBB111_167
.LBB111_168:
	ud2
.Lfunc_end111:
	.size	squitter_angle_of_text, .Lfunc_end111-squitter_angle_of_text

	.section	.text.squitter_encode_air,"ax",@progbits
	.globl	squitter_encode_air
	.p2align	4
	.type	squitter_encode_air,@function
squitter_encode_air:
	pushq	%rbp
	pushq	%r15
	pushq	%r14
	pushq	%r13
	pushq	%r12
	pushq	%rbx
	subq	$104, %rsp
	movq	$0, (%rsp)
	movq	$0, 6(%rsp)
	movq	$0, 32(%rsp)
	movzbl	9(%rdi), %r10d
	cmpb	$1, %r10b
	ja	.LBB112_16
	movzbl	10(%rdi), %r8d
	cmpb	$1, %r8b
	ja	.LBB112_16
	movzwl	7(%rdi), %eax
	cmpb	$9, %al
	jb	.LBB112_16
	movzwl	4(%rdi), %ecx
	cmpb	$19, %al
	jb	.LBB112_5
	sete	%r9b
	cmpb	$23, %al
	setae	%r11b
	orb	%r9b, %r11b
	jne	.LBB112_16
.LBB112_5:
	cmpl	$1024, %eax
	setae	%r9b
	cmpl	$4096, %ecx
	setae	%r11b
	orb	%r9b, %r11b
	jne	.LBB112_16
	movzbl	6(%rdi), %ebx
	movl	(%rdi), %ebp
	cmpb	$8, %bl
	setae	%r9b
	cmpl	$16777216, %ebp
	setae	%r11b
	orb	%r9b, %r11b
	jne	.LBB112_16
	cmpb	$1, %r8b
	sete	%r9b
	xorl	%r8d, %r8d
	cmpb	$1, %r10b
	sete	%r11b
	movzbl	11(%rdi), %r15d
	cmpb	$1, %r15b
	ja	.LBB112_16
	movabsq	$-1000000000001, %r12
	movq	8(%rsi), %rdi
	leaq	(%rdi,%r12), %r10
	leaq	1(%r12), %r14
	cmpq	%r14, %r10
	jb	.LBB112_15
	movq	(%rsi), %r10
	movq	%r10, %r13
	negq	%r13
	movq	%r10, 64(%rsp)
	cmovsq	%r10, %r13
	imulq	$360, %rdi, %r10
	cmpq	%r13, %r10
	jb	.LBB112_15
	movq	24(%rsi), %r10
	addq	%r10, %r12
	cmpq	%r14, %r12
	jb	.LBB112_15
	movq	16(%rsi), %rsi
	movq	%rsi, %r14
	negq	%r14
	cmovsq	%rsi, %r14
	movq	%r10, %r12
	imulq	$360, %r10, %r10
	cmpq	%r14, %r10
	jae	.LBB112_12
.LBB112_15:
	movl	$20, %eax
	jmp	.LBB112_17
.LBB112_16:
	movl	$21, %eax
.LBB112_17:
	xorl	%edx, %edx
	addq	$104, %rsp
	popq	%rbx
	popq	%r12
	popq	%r13
	popq	%r14
	popq	%r15
	popq	%rbp
	retq
.LBB112_12:
	imulq	$90, %rdi, %r10
	cmpq	%r10, %r13
	ja	.LBB112_15
	imulq	$180, %r12, %r10
	cmpq	%r10, %r14
	ja	.LBB112_15
	shlq	$32, %rcx
	movb	%r11b, %r8b
	shll	$16, %r8d
	orq	%rax, %r8
	orq	%rcx, %r8
	xorl	%r14d, %r14d
	movb	%r9b, %r14b
	shlq	$48, %r14
	orq	%r8, %r14
	movq	64(%rsp), %rax
	movq	%rax, 72(%rsp)
	movq	%rdi, 80(%rsp)
	movq	%rsi, 88(%rsp)
	movq	%r12, 96(%rsp)
	xorps	%xmm0, %xmm0
	movaps	%xmm0, 16(%rsp)
	movzbl	%r15b, %eax
	leaq	16(%rsp), %rdi
	leaq	72(%rsp), %rsi
	movq	%rdx, %r12
	movl	%eax, %edx
	callq	"sq_cpr::encoding::nearest::<17'sq_cpr::span::Air,21'sq_cpr::span::AirSpan{}>"
	movl	$131071, %eax
	movl	20(%rsp), %ecx
	andl	%eax, %ecx
	andl	28(%rsp), %eax
	movb	%bl, 32(%rsp)
	movl	%ebp, 36(%rsp)
	movl	$0, 40(%rsp)
	movb	%r15b, 44(%rsp)
	movw	$0, 45(%rsp)
	movb	$0, 47(%rsp)
	movl	%ecx, 48(%rsp)
	movl	%eax, 52(%rsp)
	movq	%r14, 56(%rsp)
	movq	%rsp, %rdi
	leaq	32(%rsp), %rsi
	callq	"sq_message::write::write_frame"
	movzwl	11(%rsp), %eax
	movzbl	13(%rsp), %ecx
	movl	(%rsp), %edx
	movl	3(%rsp), %esi
	movl	%edx, 16(%rsp)
	movl	%esi, 19(%rsp)
	movl	7(%rsp), %edx
	movl	16(%rsp), %esi
	movl	19(%rsp), %edi
	movl	%edi, 3(%r12)
	movl	%esi, (%r12)
	movl	%edx, 7(%r12)
	movb	%cl, 13(%r12)
	movw	%ax, 11(%r12)
	xorl	%eax, %eax
	jmp	.LBB112_17
.Lfunc_end112:
	.size	squitter_encode_air, .Lfunc_end112-squitter_encode_air

	.section	.text.squitter_encode_ground,"ax",@progbits
	.globl	squitter_encode_ground
	.p2align	4
	.type	squitter_encode_ground,@function
squitter_encode_ground:
	pushq	%rbp
	pushq	%r15
	pushq	%r14
	pushq	%r13
	pushq	%r12
	pushq	%rbx
	subq	$120, %rsp
	movq	$0, 16(%rsp)
	movq	$0, 22(%rsp)
	movq	$0, 32(%rsp)
	movzbl	7(%rdi), %eax
	cmpb	$1, %al
	ja	.LBB113_13
	movzbl	9(%rdi), %ecx
	cmpb	$1, %cl
	ja	.LBB113_13
	movzbl	5(%rdi), %r14d
	movzbl	6(%rdi), %ebp
	movzbl	8(%rdi), %ebx
	leal	-5(%r14), %r8d
	cmpb	$4, %r8b
	setae	%r8b
	movl	%ebx, %r9d
	orb	%bpl, %r9b
	sets	%r9b
	orb	%r8b, %r9b
	jne	.LBB113_13
	movzbl	4(%rdi), %r15d
	movl	(%rdi), %r12d
	cmpb	$8, %r15b
	setae	%r8b
	cmpl	$16777216, %r12d
	setae	%r9b
	orb	%r8b, %r9b
	jne	.LBB113_13
	cmpb	$1, %cl
	sete	%r11b
	cmpb	$1, %al
	sete	%al
	movzbl	10(%rdi), %r13d
	cmpb	$1, %r13b
	ja	.LBB113_13
	movb	%al, 15(%rsp)
	movabsq	$-1000000000001, %r9
	movq	8(%rsi), %rax
	leaq	(%rax,%r9), %rcx
	leaq	1(%r9), %r10
	cmpq	%r10, %rcx
	jb	.LBB113_12
	movq	(%rsi), %rcx
	movq	%rcx, %r8
	negq	%r8
	cmovsq	%rcx, %r8
	imulq	$360, %rax, %rdi
	cmpq	%r8, %rdi
	jb	.LBB113_12
	movq	24(%rsi), %rdi
	addq	%rdi, %r9
	cmpq	%r10, %r9
	jb	.LBB113_12
	movq	16(%rsi), %rsi
	movq	%rsi, %r9
	negq	%r9
	cmovsq	%rsi, %r9
	imulq	$360, %rdi, %r10
	cmpq	%r9, %r10
	jae	.LBB113_9
.LBB113_12:
	movl	$20, %eax
	jmp	.LBB113_14
.LBB113_13:
	movl	$21, %eax
.LBB113_14:
	xorl	%edx, %edx
	addq	$120, %rsp
	popq	%rbx
	popq	%r12
	popq	%r13
	popq	%r14
	popq	%r15
	popq	%rbp
	retq
.LBB113_9:
	imulq	$90, %rax, %r10
	cmpq	%r10, %r8
	ja	.LBB113_12
	imulq	$180, %rdi, %r8
	cmpq	%r8, %r9
	ja	.LBB113_12
	movq	%rcx, 88(%rsp)
	movq	%rax, 96(%rsp)
	movq	%rsi, 104(%rsp)
	movq	%rdi, 112(%rsp)
	xorps	%xmm0, %xmm0
	movaps	%xmm0, 64(%rsp)
	movzbl	%r13b, %eax
	leaq	64(%rsp), %rdi
	leaq	88(%rsp), %rsi
	movq	%rdx, 80(%rsp)
	movl	%eax, %edx
	movb	%r11b, 14(%rsp)
	callq	"sq_cpr::encoding::nearest::<#9b749bce0116a0b1>"
	movl	$131071, %eax
	movl	68(%rsp), %ecx
	andl	%eax, %ecx
	andl	76(%rsp), %eax
	movb	%r15b, 32(%rsp)
	movl	%r12d, 36(%rsp)
	movl	$1, 40(%rsp)
	movb	%r13b, 44(%rsp)
	movw	$0, 45(%rsp)
	movb	$0, 47(%rsp)
	movl	%ecx, 48(%rsp)
	movl	%eax, 52(%rsp)
	movb	%r14b, 56(%rsp)
	movb	%bpl, 57(%rsp)
	movzbl	15(%rsp), %eax
	movb	%al, 58(%rsp)
	movb	%bl, 59(%rsp)
	movzbl	14(%rsp), %eax
	movb	%al, 60(%rsp)
	movw	$0, 61(%rsp)
	movb	$0, 63(%rsp)
	leaq	16(%rsp), %rdi
	leaq	32(%rsp), %rsi
	callq	"sq_message::write::write_frame"
	movzwl	27(%rsp), %eax
	movzbl	29(%rsp), %ecx
	movl	16(%rsp), %edx
	movl	19(%rsp), %esi
	movl	%edx, 64(%rsp)
	movl	%esi, 67(%rsp)
	movl	23(%rsp), %edx
	movl	64(%rsp), %esi
	movl	67(%rsp), %edi
	movq	80(%rsp), %r8
	movl	%edi, 3(%r8)
	movl	%esi, (%r8)
	movl	%edx, 7(%r8)
	movb	%cl, 13(%r8)
	movw	%ax, 11(%r8)
	xorl	%eax, %eax
	jmp	.LBB113_14
.Lfunc_end113:
	.size	squitter_encode_ground, .Lfunc_end113-squitter_encode_ground

	.section	.text.squitter_feed_counts,"ax",@progbits
	.globl	squitter_feed_counts
	.p2align	4
	.type	squitter_feed_counts,@function
squitter_feed_counts:
	pushq	%rbp
	pushq	%r15
	pushq	%r14
	pushq	%r13
	pushq	%r12
	pushq	%rbx
	subq	$264, %rsp
	movq	8(%rdi), %r13
	cmpq	$0, (%rdi)
	xorps	%xmm0, %xmm0
	movups	%xmm0, (%rdi)
	je	.LBB114_1
	movq	%rsi, %rbx
	movq	%rdi, %r14
	movups	17336(%r13), %xmm0
	movaps	%xmm0, 48(%rsp)
	movups	17352(%r13), %xmm0
	movaps	%xmm0, 32(%rsp)
	movups	17368(%r13), %xmm0
	movaps	%xmm0, 16(%rsp)
	movq	17384(%r13), %rbp
	movq	17320(%r13), %rax
	movq	%rax, 8(%rsp)
	cmpb	$1, 17184(%r13)
	jne	.LBB114_3
	movq	17208(%r13), %rax
	xorl	%ecx, %ecx
	subq	17216(%r13), %rax
	cmovaeq	%rax, %rcx
	xorl	%r12d, %r12d
	cmpq	%rcx, 17192(%r13)
	setb	%r12b
	jmp	.LBB114_5
.LBB114_1:
	movl	$46, %eax
	jmp	.LBB114_6
.LBB114_3:
	xorl	%r12d, %r12d
.LBB114_5:
	leaq	17392(%r13), %rsi
	leaq	64(%rsp), %r15
	movl	$200, %edx
	movq	%r15, %rdi
	callq	memcpy@PLT
	movq	$1, (%r14)
	movq	%r13, 8(%r14)
	movaps	48(%rsp), %xmm0
	movups	%xmm0, (%rbx)
	movaps	32(%rsp), %xmm0
	movups	%xmm0, 16(%rbx)
	movaps	16(%rsp), %xmm0
	movups	%xmm0, 32(%rbx)
	movq	%rbp, 48(%rbx)
	leaq	56(%rbx), %rdi
	movl	$200, %edx
	movq	%r15, %rsi
	callq	memcpy@PLT
	movq	8(%rsp), %rax
	movq	%rax, 256(%rbx)
	movq	%r12, 264(%rbx)
	xorl	%eax, %eax
.LBB114_6:
	xorl	%edx, %edx
	addq	$264, %rsp
	popq	%rbx
	popq	%r12
	popq	%r13
	popq	%r14
	popq	%r15
	popq	%rbp
	retq
.Lfunc_end114:
	.size	squitter_feed_counts, .Lfunc_end114-squitter_feed_counts

	.section	.text.squitter_feed_disconnected,"ax",@progbits
	.globl	squitter_feed_disconnected
	.p2align	4
	.type	squitter_feed_disconnected,@function
squitter_feed_disconnected:
	pushq	%rbp
	pushq	%r15
	pushq	%r14
	pushq	%r13
	pushq	%r12
	pushq	%rbx
	subq	$3072, %rsp
	movq	$0, (%rsp)
	subq	$3072, %rsp
	movq	$0, (%rsp)
	subq	$3072, %rsp
	movq	$0, (%rsp)
	subq	$3072, %rsp
	movq	$0, (%rsp)
	subq	$3072, %rsp
	movq	$0, (%rsp)
	subq	$1848, %rsp
	movq	8(%rdi), %r14
	cmpq	$0, (%rdi)
	xorps	%xmm0, %xmm0
	movups	%xmm0, (%rdi)
	je	.LBB115_1
	movq	%rdi, %rbx
	movaps	%xmm0, 48(%rsp)
	movaps	%xmm0, 32(%rsp)
	movq	$0, 64(%rsp)
	movzbl	2(%r14), %eax
	leaq	.LJTI115_0(%rip), %rcx
	movslq	(%rcx,%rax,4), %rax
	addq	%rcx, %rax
	jmpq	*%rax
.LBB115_10:
	movq	$0, 14(%rsp)
	movq	$0, 8(%rsp)
	movb	$1, %al
.LBB115_19:
	movb	%al, 32(%rsp)
	movb	$0, 33(%rsp)
	movups	%xmm0, 40(%rsp)
	movb	$0, 56(%rsp)
	movq	8(%rsp), %rax
	movq	14(%rsp), %rcx
	movq	%rax, 57(%rsp)
	movq	%rcx, 63(%rsp)
	leaq	17160(%r14), %rdi
	leaq	17600(%r14), %rcx
	leaq	32(%rsp), %rsi
	xorl	%edx, %edx
	callq	"sq_feed::ear::Ear::hear"
.LBB115_20:
	leaq	17160(%r14), %rdi
	leaq	17600(%r14), %rsi
	callq	"sq_feed::ear::Ear::end"
	movb	$0, 17176(%r14)
	movzbl	(%r14), %ebp
	movzbl	1(%r14), %r12d
	movzbl	%r12b, %r13d
	leaq	740(%rsp), %rdi
	movl	$16468, %edx
	xorl	%esi, %esi
	callq	memset@PLT
	cmpb	$1, %bpl
	jne	.LBB115_22
	xorl	%r15d, %r15d
	cmpb	$2, %r12b
	sete	%r15b
	leal	(%r15,%r15), %eax
	movq	%rax, 24(%rsp)
	movzwl	%r13w, %r13d
	shll	$8, %r13d
	incl	%r13d
	leaq	744(%rsp), %rdi
	movl	$16464, %edx
	xorl	%esi, %esi
	callq	memset@PLT
	xorps	%xmm0, %xmm0
	movaps	%xmm0, 80(%rsp)
	movaps	%xmm0, 96(%rsp)
	movaps	%xmm0, 112(%rsp)
	movups	%xmm0, 121(%rsp)
	movaps	%xmm0, 144(%rsp)
	movaps	%xmm0, 160(%rsp)
	movaps	%xmm0, 176(%rsp)
	movups	%xmm0, 190(%rsp)
	leaq	208(%rsp), %rdi
	movl	$528, %edx
	xorl	%esi, %esi
	callq	memset@PLT
	jmp	.LBB115_23
.LBB115_1:
	movl	$46, %eax
	jmp	.LBB115_24
.LBB115_22:
	movzwl	%r13w, %r13d
	shll	$8, %r13d
	leaq	744(%rsp), %rdi
	xorl	%r15d, %r15d
	movl	$16464, %edx
	xorl	%esi, %esi
	callq	memset@PLT
	xorps	%xmm0, %xmm0
	movaps	%xmm0, 80(%rsp)
	movaps	%xmm0, 96(%rsp)
	movaps	%xmm0, 112(%rsp)
	movups	%xmm0, 121(%rsp)
	movaps	%xmm0, 144(%rsp)
	movaps	%xmm0, 160(%rsp)
	movaps	%xmm0, 176(%rsp)
	movups	%xmm0, 190(%rsp)
	leaq	208(%rsp), %rdi
	movl	$528, %edx
	xorl	%esi, %esi
	callq	memset@PLT
	movb	$3, %r12b
	movq	$0, 24(%rsp)
.LBB115_23:
	movw	%r13w, (%r14)
	movb	%bpl, 2(%r14)
	movb	$0, 3(%r14)
	leaq	4(%r14), %rdi
	leaq	740(%rsp), %rsi
	movl	$16468, %edx
	callq	memcpy@PLT
	movq	$0, 16472(%r14)
	movb	%r12b, 16480(%r14)
	movaps	80(%rsp), %xmm0
	movaps	96(%rsp), %xmm1
	movaps	112(%rsp), %xmm2
	movups	%xmm0, 16481(%r14)
	movups	%xmm1, 16497(%r14)
	movups	%xmm2, 16513(%r14)
	movups	121(%rsp), %xmm0
	movups	%xmm0, 16522(%r14)
	movaps	144(%rsp), %xmm0
	movaps	160(%rsp), %xmm1
	movaps	176(%rsp), %xmm2
	movups	%xmm1, 16554(%r14)
	movups	%xmm2, 16570(%r14)
	movups	%xmm0, 16538(%r14)
	movups	190(%rsp), %xmm0
	movups	%xmm0, 16584(%r14)
	movq	$0, 16600(%r14)
	movq	%r15, 16608(%r14)
	movq	$0, 16616(%r14)
	movq	24(%rsp), %rax
	movq	%rax, 16624(%r14)
	leaq	16632(%r14), %rdi
	leaq	208(%rsp), %rsi
	movl	$528, %edx
	callq	memcpy@PLT
	movq	$1, (%rbx)
	movq	%r14, 8(%rbx)
	xorl	%eax, %eax
.LBB115_24:
	xorl	%edx, %edx
	addq	$17208, %rsp
	popq	%rbx
	popq	%r12
	popq	%r13
	popq	%r14
	popq	%r15
	popq	%rbp
	retq
.LBB115_3:
	cmpq	$0, 16448(%r14)
	movq	$0, 14(%rsp)
	movq	$0, 8(%rsp)
	movb	$1, %al
	jne	.LBB115_19
	jmp	.LBB115_20
.LBB115_4:
	movzbl	16480(%r14), %eax
	leaq	.LJTI115_1(%rip), %rcx
	movslq	(%rcx,%rax,4), %rax
	addq	%rcx, %rax
	jmpq	*%rax
.LBB115_16:
	cmpq	$0, 17144(%r14)
	movq	$0, 14(%rsp)
	movq	$0, 8(%rsp)
	setne	%al
	movl	%eax, %edx
	testb	%dl, %dl
	jne	.LBB115_19
	jmp	.LBB115_20
.LBB115_5:
	cmpb	$1, 16488(%r14)
	jne	.LBB115_6
	movzbl	16489(%r14), %ecx
	shlb	$3, %cl
	movl	$16908289, %eax
	shrl	%cl, %eax
	movl	$16842753, %edx
	shrl	%cl, %edx
	jmp	.LBB115_8
.LBB115_9:
	cmpb	$1, 16536(%r14)
	je	.LBB115_10
	cmpb	$0, 16600(%r14)
	jne	.LBB115_14
	cmpq	$0, 16592(%r14)
	je	.LBB115_13
.LBB115_14:
	movb	$1, %al
.LBB115_15:
	movq	$0, 14(%rsp)
	movq	$0, 8(%rsp)
	movl	%eax, %edx
	testb	%dl, %dl
	jne	.LBB115_19
	jmp	.LBB115_20
.LBB115_6:
	xorl	%eax, %eax
	xorl	%edx, %edx
.LBB115_8:
	movq	$0, 14(%rsp)
	movq	$0, 8(%rsp)
	testb	%dl, %dl
	jne	.LBB115_19
	jmp	.LBB115_20
.LBB115_13:
	xorl	%eax, %eax
	jmp	.LBB115_15
.Lfunc_end115:
	.size	squitter_feed_disconnected, .Lfunc_end115-squitter_feed_disconnected
	.section	.rodata.squitter_feed_disconnected,"a",@progbits
	.p2align	2, 0x0
.LJTI115_0:
	.long	.LBB115_3-.LJTI115_0
	.long	.LBB115_4-.LJTI115_0
	.long	.LBB115_10-.LJTI115_0
	.long	.LBB115_10-.LJTI115_0
	.long	.LBB115_10-.LJTI115_0
	.long	.LBB115_20-.LJTI115_0
.LJTI115_1:
	.long	.LBB115_5-.LJTI115_1
	.long	.LBB115_9-.LJTI115_1
	.long	.LBB115_16-.LJTI115_1
	.long	.LBB115_16-.LJTI115_1

	.section	.text.squitter_feed_finish,"ax",@progbits
	.globl	squitter_feed_finish
	.p2align	4
	.type	squitter_feed_finish,@function
squitter_feed_finish:
	pushq	%rbp
	pushq	%r15
	pushq	%r14
	pushq	%r13
	pushq	%r12
	pushq	%rbx
	subq	$56, %rsp
	movq	%rdx, %r12
	xorl	%r11d, %r11d
	testq	%rdx, %rdx
	sete	%r10b
	xorl	%eax, %eax
	testq	%r8, %r8
	sete	%dl
	movq	8(%rdi), %rbp
	cmpq	$0, (%rdi)
	xorps	%xmm0, %xmm0
	movups	%xmm0, (%rdi)
	je	.LBB116_1
	movq	%rdi, 16(%rsp)
	movb	%r10b, %r11b
	shll	$12, %r11d
	addq	%r11, %r12
	movb	%dl, %al
	shll	$12, %eax
	addq	%rax, %r8
	movq	%rbp, %rdi
	movq	%r9, %r15
	movq	%rcx, %r14
	movq	%rsi, %r13
	movq	%r8, %rbx
	callq	"sq_feed::feed::Feed::close"
	movq	%r15, 32(%rsp)
	movq	%r15, 8(%rsp)
	movq	%rbx, 24(%rsp)
	movq	%rbx, (%rsp)
	leaq	.Lstatic.0(%rip), %rsi
	movq	%rbp, %rdi
	xorl	%edx, %edx
	movq	%r13, 40(%rsp)
	movq	%r13, %rcx
	movq	%r12, %r8
	movq	%r14, 48(%rsp)
	movq	%r14, %r9
	movq	%rbp, %r14
	callq	"squitter_c::feed_take::take_by"
	movq	%rax, %rbp
	movq	%rdx, %r15
	movzbl	2(%r14), %eax
	addb	$-2, %al
	cmpb	$3, %al
	jae	.LBB116_4
	movq	16(%rsp), %rbx
	jmp	.LBB116_6
.LBB116_1:
	movl	$46, %eax
	jmp	.LBB116_7
.LBB116_4:
	cmpq	$0, 17696(%r14)
	movq	16(%rsp), %rbx
	jne	.LBB116_6
	leaq	17160(%r14), %rdi
	leaq	17600(%r14), %rsi
	callq	"sq_feed::ear::Ear::end"
	leaq	(%r12,%r15,8), %r8
	movq	48(%rsp), %r9
	subq	%r15, %r9
	movq	%r15, %rcx
	shlq	$4, %rcx
	subq	%r15, %rcx
	subq	%r15, %rcx
	movq	24(%rsp), %rdx
	addq	%rcx, %rdx
	movq	32(%rsp), %rax
	subq	%r15, %rax
	movq	%rax, 8(%rsp)
	movq	%rdx, (%rsp)
	leaq	.Lstatic.0(%rip), %rsi
	xorl	%ebp, %ebp
	movq	%r14, %rdi
	xorl	%edx, %edx
	movq	40(%rsp), %rcx
	callq	"squitter_c::feed_take::take_by"
	addq	%rdx, %r15
.LBB116_6:
	movq	112(%rsp), %rax
	movq	%rbp, (%rax)
	movq	%r15, 8(%rax)
	movq	$1, (%rbx)
	movq	%r14, 8(%rbx)
	xorl	%eax, %eax
.LBB116_7:
	xorl	%edx, %edx
	addq	$56, %rsp
	popq	%rbx
	popq	%r12
	popq	%r13
	popq	%r14
	popq	%r15
	popq	%rbp
	retq
.Lfunc_end116:
	.size	squitter_feed_finish, .Lfunc_end116-squitter_feed_finish

	.section	.text.squitter_feed_finish_text,"ax",@progbits
	.globl	squitter_feed_finish_text
	.p2align	4
	.type	squitter_feed_finish_text,@function
squitter_feed_finish_text:
	pushq	%rbp
	pushq	%r15
	pushq	%r14
	pushq	%r13
	pushq	%r12
	pushq	%rbx
	subq	$24, %rsp
	movq	%rcx, %r12
	xorl	%eax, %eax
	testq	%rdx, %rdx
	sete	%cl
	movq	8(%rdi), %r15
	cmpq	$0, (%rdi)
	xorps	%xmm0, %xmm0
	movups	%xmm0, (%rdi)
	je	.LBB117_1
	movq	%rdx, %r13
	movq	%rsi, %rbx
	movq	%rdi, %r14
	movq	%r8, 16(%rsp)
	movb	%cl, %al
	shll	$12, %eax
	addq	%rax, %r13
	movq	%r15, %rdi
	callq	"sq_feed::feed::Feed::close"
	leaq	.Lstatic.0(%rip), %rsi
	movq	%r15, %rdi
	xorl	%edx, %edx
	movq	%rbx, 8(%rsp)
	movq	%rbx, %rcx
	movq	%r13, %r8
	movq	%r12, %r9
	callq	"squitter_c::feed_text::take_by"
	movq	%rax, %rbx
	movq	%rdx, %rbp
	movzbl	2(%r15), %eax
	addb	$-2, %al
	cmpb	$3, %al
	jb	.LBB117_5
	cmpq	$0, 17696(%r15)
	jne	.LBB117_5
	leaq	17160(%r15), %rdi
	leaq	17600(%r15), %rsi
	callq	"sq_feed::ear::Ear::end"
	addq	%rbp, %r13
	subq	%rbp, %r12
	leaq	.Lstatic.0(%rip), %rsi
	xorl	%ebx, %ebx
	movq	%r15, %rdi
	xorl	%edx, %edx
	movq	8(%rsp), %rcx
	movq	%r13, %r8
	movq	%r12, %r9
	callq	"squitter_c::feed_text::take_by"
	addq	%rdx, %rbp
.LBB117_5:
	movq	16(%rsp), %rax
	movq	%rbx, (%rax)
	movq	%rbp, 8(%rax)
	movq	$1, (%r14)
	movq	%r15, 8(%r14)
	xorl	%eax, %eax
	jmp	.LBB117_6
.LBB117_1:
	movl	$46, %eax
.LBB117_6:
	xorl	%edx, %edx
	addq	$24, %rsp
	popq	%rbx
	popq	%r12
	popq	%r13
	popq	%r14
	popq	%r15
	popq	%rbp
	retq
.Lfunc_end117:
	.size	squitter_feed_finish_text, .Lfunc_end117-squitter_feed_finish_text

	.section	.text.squitter_feed_format,"ax",@progbits
	.globl	squitter_feed_format
	.p2align	4
	.type	squitter_feed_format,@function
squitter_feed_format:
	movq	8(%rdi), %rax
	cmpq	$0, (%rdi)
	xorps	%xmm0, %xmm0
	movups	%xmm0, (%rdi)
	je	.LBB118_1
	movzbl	2(%rax), %ecx
	decb	%cl
	cmpb	$3, %cl
	jae	.LBB118_4
	movzbl	16480(%rax), %ecx
	jmp	.LBB118_8
.LBB118_1:
	movl	$46, %eax
	xorl	%edx, %edx
	retq
.LBB118_4:
	cmpb	$0, 17592(%rax)
	je	.LBB118_5
	movzbl	17593(%rax), %ecx
	leaq	.Lswitch.table.squitter_feed_format(%rip), %rdx
	movl	(%rdx,%rcx,4), %ecx
	jmp	.LBB118_8
.LBB118_5:
	movl	$4, %ecx
.LBB118_8:
	movq	$1, (%rdi)
	movq	%rax, 8(%rdi)
	movl	%ecx, (%rsi)
	xorl	%eax, %eax
	xorl	%edx, %edx
	retq
.Lfunc_end118:
	.size	squitter_feed_format, .Lfunc_end118-squitter_feed_format

	.section	.text.squitter_feed_new,"ax",@progbits
	.globl	squitter_feed_new
	.p2align	4
	.type	squitter_feed_new,@function
squitter_feed_new:
	pushq	%rbp
	pushq	%r15
	pushq	%r14
	pushq	%r13
	pushq	%r12
	pushq	%rbx
	subq	$3072, %rsp
	movq	$0, (%rsp)
	subq	$3072, %rsp
	movq	$0, (%rsp)
	subq	$3072, %rsp
	movq	$0, (%rsp)
	subq	$3072, %rsp
	movq	$0, (%rsp)
	subq	$3072, %rsp
	movq	$0, (%rsp)
	subq	$1784, %rsp
	xorps	%xmm0, %xmm0
	movups	%xmm0, (%rdi)
	cmpl	$4, %ecx
	ja	.LBB119_1
	movq	%rdx, %rbx
	movq	%rdi, %r14
	movl	%ecx, %eax
	leaq	.LJTI119_0(%rip), %rcx
	movslq	(%rcx,%rax,4), %rax
	addq	%rcx, %rax
	jmpq	*%rax
.LBB119_3:
	xorl	%eax, %eax
	xorl	%ecx, %ecx
	cmpq	$20480, %rsi
	jae	.LBB119_9
	jmp	.LBB119_13
.LBB119_12:
	cmpq	$20480, %rsi
	jb	.LBB119_13
	movq	%r8, 32(%rsp)
	movq	%r9, 40(%rsp)
	leaq	704(%rsp), %rdi
	movq	$0, 24(%rsp)
	movl	$16440, %edx
	xorl	%esi, %esi
	callq	memset@PLT
	xorps	%xmm0, %xmm0
	movaps	%xmm0, 48(%rsp)
	movaps	%xmm0, 64(%rsp)
	movaps	%xmm0, 80(%rsp)
	movups	%xmm0, 89(%rsp)
	movaps	%xmm0, 112(%rsp)
	movaps	%xmm0, 128(%rsp)
	movaps	%xmm0, 144(%rsp)
	movups	%xmm0, 158(%rsp)
	leaq	176(%rsp), %rdi
	movl	$528, %edx
	xorl	%esi, %esi
	callq	memset@PLT
	movb	$3, %al
	movl	%eax, 12(%rsp)
	movq	$0, 16(%rsp)
	xorl	%r13d, %r13d
	jmp	.LBB119_11
.LBB119_5:
	movb	$2, %cl
	movb	$1, %al
	cmpq	$20480, %rsi
	jb	.LBB119_13
.LBB119_9:
	movq	%r8, 32(%rsp)
	movq	%r9, 40(%rsp)
	movzbl	%al, %eax
	movq	%rax, 24(%rsp)
	addl	%eax, %eax
	movq	%rax, 16(%rsp)
	movzbl	%cl, %r13d
	shll	$8, %r13d
	leaq	704(%rsp), %rdi
	movl	$16440, %edx
	xorl	%esi, %esi
	movl	%ecx, 12(%rsp)
	callq	memset@PLT
	xorps	%xmm0, %xmm0
	movaps	%xmm0, 48(%rsp)
	movaps	%xmm0, 64(%rsp)
	movaps	%xmm0, 80(%rsp)
	movups	%xmm0, 89(%rsp)
	movaps	%xmm0, 112(%rsp)
	movaps	%xmm0, 128(%rsp)
	movaps	%xmm0, 144(%rsp)
	movups	%xmm0, 158(%rsp)
	leaq	176(%rsp), %rdi
	movl	$528, %edx
	xorl	%esi, %esi
	callq	memset@PLT
	orq	$65537, %r13
.LBB119_11:
	movl	17200(%rsp), %r15d
	movl	%r15d, %r12d
	shrb	$2, %r12b
	andb	$1, %r12b
	movl	%r15d, %ebp
	shrb	%bpl
	andb	$1, %bpl
	andb	$1, %r15b
	movq	%r13, (%rbx)
	leaq	32(%rbx), %rdi
	xorps	%xmm0, %xmm0
	movups	%xmm0, 8(%rbx)
	movq	$0, 24(%rbx)
	leaq	704(%rsp), %rsi
	movl	$16440, %edx
	callq	memcpy@PLT
	movq	$0, 16472(%rbx)
	movl	12(%rsp), %eax
	movb	%al, 16480(%rbx)
	movaps	48(%rsp), %xmm0
	movaps	64(%rsp), %xmm1
	movaps	80(%rsp), %xmm2
	movups	%xmm0, 16481(%rbx)
	movups	%xmm1, 16497(%rbx)
	movups	%xmm2, 16513(%rbx)
	movups	89(%rsp), %xmm0
	movups	%xmm0, 16522(%rbx)
	movaps	112(%rsp), %xmm0
	movaps	128(%rsp), %xmm1
	movaps	144(%rsp), %xmm2
	movups	%xmm1, 16554(%rbx)
	movups	%xmm2, 16570(%rbx)
	movups	%xmm0, 16538(%rbx)
	movups	158(%rsp), %xmm0
	movups	%xmm0, 16584(%rbx)
	movq	$0, 16600(%rbx)
	movq	24(%rsp), %rax
	movq	%rax, 16608(%rbx)
	movq	$0, 16616(%rbx)
	movq	16(%rsp), %rax
	movq	%rax, 16624(%rbx)
	leaq	16632(%rbx), %rdi
	leaq	176(%rsp), %rsi
	movl	$528, %edx
	callq	memcpy@PLT
	xorps	%xmm0, %xmm0
	movups	%xmm0, 17160(%rbx)
	movq	$0, 17176(%rbx)
	movb	%r15b, 17184(%rbx)
	movb	%bpl, 17185(%rbx)
	movl	$0, 17186(%rbx)
	movw	$0, 17190(%rbx)
	movq	32(%rsp), %rax
	movq	%rax, 17192(%rbx)
	movq	40(%rsp), %rax
	movq	%rax, 17200(%rbx)
	movups	%xmm0, 17208(%rbx)
	movups	%xmm0, 17224(%rbx)
	movups	%xmm0, 17240(%rbx)
	movups	%xmm0, 17256(%rbx)
	movups	%xmm0, 17272(%rbx)
	movups	%xmm0, 17288(%rbx)
	movups	%xmm0, 17304(%rbx)
	movups	%xmm0, 17313(%rbx)
	movb	%r12b, 17329(%rbx)
	leaq	17330(%rbx), %rdi
	xorl	%r15d, %r15d
	movl	$374, %edx
	xorl	%esi, %esi
	callq	memset@PLT
	movq	$1, (%r14)
	movq	%rbx, 8(%r14)
	jmp	.LBB119_14
.LBB119_6:
	movb	$3, %cl
	xorl	%eax, %eax
	cmpq	$20480, %rsi
	jae	.LBB119_9
	jmp	.LBB119_13
.LBB119_4:
	movb	$1, %cl
	xorl	%eax, %eax
	cmpq	$20480, %rsi
	jae	.LBB119_9
.LBB119_13:
	movl	$44, %r15d
	jmp	.LBB119_14
.LBB119_1:
	movl	$49, %r15d
.LBB119_14:
	movq	%r15, %rax
	xorl	%edx, %edx
	addq	$17144, %rsp
	popq	%rbx
	popq	%r12
	popq	%r13
	popq	%r14
	popq	%r15
	popq	%rbp
	retq
.Lfunc_end119:
	.size	squitter_feed_new, .Lfunc_end119-squitter_feed_new
	.section	.rodata.squitter_feed_new,"a",@progbits
	.p2align	2, 0x0
.LJTI119_0:
	.long	.LBB119_3-.LJTI119_0
	.long	.LBB119_4-.LJTI119_0
	.long	.LBB119_5-.LJTI119_0
	.long	.LBB119_6-.LJTI119_0
	.long	.LBB119_12-.LJTI119_0

	.section	.text.squitter_feed_take,"ax",@progbits
	.globl	squitter_feed_take
	.p2align	4
	.type	squitter_feed_take,@function
squitter_feed_take:
	pushq	%r15
	pushq	%r14
	pushq	%rbx
	subq	$16, %rsp
	movq	8(%rdi), %r14
	cmpq	$0, (%rdi)
	xorps	%xmm0, %xmm0
	movups	%xmm0, (%rdi)
	je	.LBB120_1
	movq	%rdi, %rbx
	movq	64(%rsp), %r15
	movq	56(%rsp), %rdi
	movq	48(%rsp), %rax
	xorl	%r10d, %r10d
	testq	%rax, %rax
	sete	%r10b
	shll	$12, %r10d
	addq	%rax, %r10
	xorl	%eax, %eax
	testq	%r8, %r8
	sete	%al
	shll	$12, %eax
	addq	%r8, %rax
	xorl	%r8d, %r8d
	testq	%rsi, %rsi
	sete	%r8b
	shll	$12, %r8d
	addq	%rsi, %r8
	movq	%rdi, 8(%rsp)
	movq	%r10, (%rsp)
	movq	%r14, %rdi
	movq	%r8, %rsi
	movq	%rax, %r8
	callq	"squitter_c::feed_take::take_by"
	movq	%rax, (%r15)
	movq	%rdx, 8(%r15)
	movq	$1, (%rbx)
	movq	%r14, 8(%rbx)
	xorl	%eax, %eax
	jmp	.LBB120_3
.LBB120_1:
	movl	$46, %eax
.LBB120_3:
	xorl	%edx, %edx
	addq	$16, %rsp
	popq	%rbx
	popq	%r14
	popq	%r15
	retq
.Lfunc_end120:
	.size	squitter_feed_take, .Lfunc_end120-squitter_feed_take

	.section	.text.squitter_feed_take_text,"ax",@progbits
	.globl	squitter_feed_take_text
	.p2align	4
	.type	squitter_feed_take_text,@function
squitter_feed_take_text:
	pushq	%r15
	pushq	%r14
	pushq	%rbx
	movq	8(%rdi), %r14
	cmpq	$0, (%rdi)
	xorps	%xmm0, %xmm0
	movups	%xmm0, (%rdi)
	je	.LBB121_1
	movq	%rdi, %rbx
	movq	32(%rsp), %r15
	xorl	%eax, %eax
	testq	%r8, %r8
	sete	%al
	shll	$12, %eax
	addq	%r8, %rax
	xorl	%r8d, %r8d
	testq	%rsi, %rsi
	sete	%r8b
	shll	$12, %r8d
	addq	%rsi, %r8
	movq	%r14, %rdi
	movq	%r8, %rsi
	movq	%rax, %r8
	callq	"squitter_c::feed_text::take_by"
	movq	%rax, (%r15)
	movq	%rdx, 8(%r15)
	movq	$1, (%rbx)
	movq	%r14, 8(%rbx)
	xorl	%eax, %eax
	jmp	.LBB121_3
.LBB121_1:
	movl	$46, %eax
.LBB121_3:
	xorl	%edx, %edx
	popq	%rbx
	popq	%r14
	popq	%r15
	retq
.Lfunc_end121:
	.size	squitter_feed_take_text, .Lfunc_end121-squitter_feed_take_text

	.section	.text.squitter_feet_of_field,"ax",@progbits
	.globl	squitter_feet_of_field
	.p2align	4
	.type	squitter_feet_of_field,@function
squitter_feet_of_field:
	movl	$21, %eax
	cmpb	$9, %dil
	jb	.LBB122_11
	cmpb	$19, %dil
	jae	.LBB122_6
	movzwl	%si, %ecx
	cmpl	$4095, %ecx
	ja	.LBB122_11
	testw	%si, %si
	je	.LBB122_8
	testb	$16, %sil
	je	.LBB122_7
	movl	%esi, %eax
	shrl	%eax
	andl	$2032, %eax
	andl	$15, %esi
	orl	%eax, %esi
	leal	(%rsi,%rsi,4), %eax
	leal	(%rax,%rax,4), %eax
	movzwl	%ax, %ecx
	movl	$4294966296, %eax
	addq	%rax, %rcx
	addq	$1000, %rax
	orq	%rcx, %rax
	jmp	.LBB122_10
.LBB122_6:
	setne	%cl
	cmpb	$23, %dil
	setb	%dil
	movzwl	%si, %esi
	cmpl	$4096, %esi
	setb	%sil
	andb	%dil, %sil
	testb	%cl, %sil
	je	.LBB122_11
.LBB122_7:
	movabsq	$8589934592, %rax
	jmp	.LBB122_10
.LBB122_8:
	xorl	%eax, %eax
.LBB122_10:
	movq	%rax, (%rdx)
	xorl	%eax, %eax
.LBB122_11:
	xorl	%edx, %edx
	retq
.Lfunc_end122:
	.size	squitter_feet_of_field, .Lfunc_end122-squitter_feet_of_field

	.section	.text.squitter_field_of_feet,"ax",@progbits
	.globl	squitter_field_of_feet
	.p2align	4
	.type	squitter_field_of_feet,@function
squitter_field_of_feet:
	leal	1000(%rdi), %ecx
	movl	$24, %eax
	cmpl	$51175, %ecx
	ja	.LBB123_3
	movslq	%edi, %rdx
	imulq	$1374389535, %rdx, %rdx
	movq	%rdx, %r8
	shrq	$63, %r8
	sarq	$35, %rdx
	addl	%r8d, %edx
	leal	(%rdx,%rdx,4), %edx
	leal	(%rdx,%rdx,4), %edx
	subl	%edx, %edi
	jne	.LBB123_3
	movzwl	%cx, %eax
	imull	$18351, %eax, %eax
	shrl	$16, %eax
	subl	%eax, %ecx
	movzwl	%cx, %ecx
	shrl	%ecx
	addl	%eax, %ecx
	movl	%ecx, %eax
	shrl	$4, %eax
	shrl	$3, %ecx
	andl	$-32, %ecx
	andl	$15, %eax
	addl	%ecx, %eax
	addl	$16, %eax
	movw	%ax, (%rsi)
	xorl	%eax, %eax
.LBB123_3:
	xorl	%edx, %edx
	retq
.Lfunc_end123:
	.size	squitter_field_of_feet, .Lfunc_end123-squitter_field_of_feet

	.section	.text.squitter_frame_of_text,"ax",@progbits
	.globl	squitter_frame_of_text
	.p2align	4
	.type	squitter_frame_of_text,@function
squitter_frame_of_text:
	pushq	%rbx
	subq	$32, %rsp
	movq	%rdx, %rbx
	movq	%rsi, %rdx
	xorl	%esi, %esi
	testq	%rdi, %rdi
	sete	%sil
	shll	$12, %esi
	addq	%rdi, %rsi
	xorps	%xmm0, %xmm0
	movaps	%xmm0, (%rsp)
	movq	$0, 16(%rsp)
	movq	%rsp, %rdi
	callq	"sq_text::frame_text::read_text"
	cmpb	$0, (%rsp)
	je	.LBB124_1
	movzbl	8(%rsp), %eax
	movq	16(%rsp), %rdx
	leaq	.LJTI124_0(%rip), %rcx
	movslq	(%rcx,%rax,4), %rax
	addq	%rcx, %rax
	jmpq	*%rax
.LBB124_4:
	movl	$1, %eax
	xorl	%edx, %edx
	addq	$32, %rsp
	popq	%rbx
	retq
.LBB124_1:
	movq	1(%rsp), %rax
	movq	7(%rsp), %rcx
	movq	%rcx, 6(%rbx)
	movq	%rax, (%rbx)
	xorl	%edx, %edx
	xorl	%eax, %eax
	addq	$32, %rsp
	popq	%rbx
	retq
.LBB124_5:
	movl	$3, %eax
	addq	$32, %rsp
	popq	%rbx
	retq
.LBB124_6:
	movl	$4, %eax
	addq	$32, %rsp
	popq	%rbx
	retq
.LBB124_3:
	movl	$2, %eax
	xorl	%edx, %edx
	addq	$32, %rsp
	popq	%rbx
	retq
.Lfunc_end124:
	.size	squitter_frame_of_text, .Lfunc_end124-squitter_frame_of_text
	.section	.rodata.squitter_frame_of_text,"a",@progbits
	.p2align	2, 0x0
.LJTI124_0:
	.long	.LBB124_4-.LJTI124_0
	.long	.LBB124_3-.LJTI124_0
	.long	.LBB124_5-.LJTI124_0
	.long	.LBB124_6-.LJTI124_0

	.section	.text.squitter_local,"ax",@progbits
	.globl	squitter_local
	.p2align	4
	.type	squitter_local,@function
squitter_local:
	pushq	%r14
	pushq	%rbx
	subq	$56, %rsp
	movq	%rdx, %rbx
	movq	%rsi, %rdx
	movq	%rdi, %rsi
	xorps	%xmm0, %xmm0
	movaps	%xmm0, (%rsp)
	leaq	24(%rsp), %r14
	movq	%r14, %rdi
	callq	"squitter_c::decode::near"
	movq	%rsp, %rdi
	movq	%r14, %rsi
	movq	%rbx, %rdx
	callq	"squitter_c::decode::give"
	movq	(%rsp), %rax
	movq	8(%rsp), %rdx
	addq	$56, %rsp
	popq	%rbx
	popq	%r14
	retq
.Lfunc_end125:
	.size	squitter_local, .Lfunc_end125-squitter_local

	.section	.text.squitter_local_many,"ax",@progbits
	.globl	squitter_local_many
	.p2align	4
	.type	squitter_local_many,@function
squitter_local_many:
	pushq	%rbp
	pushq	%r15
	pushq	%r14
	pushq	%r13
	pushq	%r12
	pushq	%rbx
	subq	$88, %rsp
	movq	%r8, %r14
	movq	%rdx, %r15
	movq	%rdi, %r12
	movq	152(%rsp), %r13
	movq	144(%rsp), %rbp
	xorl	%r10d, %r10d
	testq	%rdi, %rdi
	sete	%bl
	xorl	%r8d, %r8d
	testq	%rdx, %rdx
	sete	%r11b
	xorl	%edx, %edx
	testq	%r14, %r14
	sete	%dil
	xorl	%eax, %eax
	testq	%rbp, %rbp
	sete	7(%rsp)
	cmpq	%r9, %r13
	cmovbq	%r13, %r9
	cmpq	%rcx, %r9
	cmovaeq	%rcx, %r9
	cmpq	%rsi, %r9
	cmovaeq	%rsi, %r9
	movq	%r9, 8(%rsp)
	testq	%r9, %r9
	je	.LBB126_3
	movb	%bl, %r10b
	shll	$12, %r10d
	addq	%r10, %r12
	movb	%r11b, %r8b
	shll	$12, %r8d
	addq	%r8, %r15
	movb	%dil, %dl
	shll	$12, %edx
	addq	%rdx, %r14
	movzbl	7(%rsp), %ecx
	movb	%cl, %al
	shll	$12, %eax
	addq	%rax, %rbp
	movq	8(%rsp), %rbx
	.p2align	4
.LBB126_2:
	xorps	%xmm0, %xmm0
	movaps	%xmm0, 16(%rsp)
	leaq	56(%rsp), %r13
	movq	%r13, %rdi
	movq	%r12, %rsi
	movq	%r15, %rdx
	callq	"squitter_c::decode::near"
	leaq	16(%rsp), %rdi
	movq	%r13, %rsi
	movq	%r14, %rdx
	callq	"squitter_c::decode::give"
	movaps	16(%rsp), %xmm0
	movaps	%xmm0, 32(%rsp)
	movups	%xmm0, (%rbp)
	addq	$16, %rbp
	addq	$32, %r14
	addq	$32, %r15
	addq	$14, %r12
	decq	%rbx
	jne	.LBB126_2
.LBB126_3:
	movq	8(%rsp), %rax
	addq	$88, %rsp
	popq	%rbx
	popq	%r12
	popq	%r13
	popq	%r14
	popq	%r15
	popq	%rbp
	retq
.Lfunc_end126:
	.size	squitter_local_many, .Lfunc_end126-squitter_local_many

	.section	.text.squitter_log_tally,"ax",@progbits
	.globl	squitter_log_tally
	.p2align	4
	.type	squitter_log_tally,@function
squitter_log_tally:
	movq	8(%rdi), %rax
	cmpq	$0, (%rdi)
	xorps	%xmm0, %xmm0
	movups	%xmm0, (%rdi)
	je	.LBB127_1
	movups	272(%rax), %xmm0
	movq	$1, (%rdi)
	movq	%rax, 8(%rdi)
	movups	%xmm0, (%rsi)
	xorl	%eax, %eax
	xorl	%edx, %edx
	retq
.LBB127_1:
	movl	$46, %eax
	xorl	%edx, %edx
	retq
.Lfunc_end127:
	.size	squitter_log_tally, .Lfunc_end127-squitter_log_tally

	.section	.text.squitter_order_flush,"ax",@progbits
	.globl	squitter_order_flush
	.p2align	4
	.type	squitter_order_flush,@function
squitter_order_flush:
	pushq	%rbp
	pushq	%r15
	pushq	%r14
	pushq	%rbx
	xorl	%r11d, %r11d
	testq	%rsi, %rsi
	sete	%bpl
	xorl	%r10d, %r10d
	testq	%rcx, %rcx
	sete	%bl
	movq	8(%rdi), %rax
	cmpq	$0, (%rdi)
	xorps	%xmm0, %xmm0
	movups	%xmm0, (%rdi)
	je	.LBB128_1
	cmpq	%rdx, %r8
	cmovbq	%r8, %rdx
	testq	%rdx, %rdx
	je	.LBB128_3
	movb	%bpl, %r11b
	shll	$12, %r11d
	addq	%r11, %rsi
	movb	%bl, %r10b
	shll	$12, %r10d
	addq	%r10, %rcx
	xorl	%r8d, %r8d
	.p2align	4
.LBB128_5:
	movq	32(%rax), %r10
	cmpq	%r10, 8(%rax)
	je	.LBB128_8
	movq	(%rax), %r11
	leaq	(%r10,%r10,2), %rbx
	movq	(%r11,%rbx,8), %r14
	movq	8(%r11,%rbx,8), %r15
	movq	14(%r11,%rbx,8), %r11
	movq	%r11, -10(%rsp)
	movq	%r15, -16(%rsp)
	incq	%r10
	movq	%r10, 32(%rax)
	movq	%r14, 56(%rax)
	movq	%r14, (%rsi,%r8,8)
	movq	-16(%rsp), %r10
	movq	-10(%rsp), %r11
	movq	%r11, 6(%rcx)
	movq	%r10, (%rcx)
	incq	%r8
	addq	$14, %rcx
	cmpq	%r8, %rdx
	jne	.LBB128_5
	movq	%rdx, %r8
	jmp	.LBB128_8
.LBB128_1:
	movl	$46, %eax
	jmp	.LBB128_9
.LBB128_3:
	xorl	%r8d, %r8d
.LBB128_8:
	movq	$0, (%r9)
	movq	%r8, 8(%r9)
	movq	$1, (%rdi)
	movq	%rax, 8(%rdi)
	xorl	%eax, %eax
.LBB128_9:
	xorl	%edx, %edx
	popq	%rbx
	popq	%r14
	popq	%r15
	popq	%rbp
	retq
.Lfunc_end128:
	.size	squitter_order_flush, .Lfunc_end128-squitter_order_flush

	.section	.text.squitter_order_grow,"ax",@progbits
	.globl	squitter_order_grow
	.p2align	4
	.type	squitter_order_grow,@function
squitter_order_grow:
	pushq	%rbp
	pushq	%r15
	pushq	%r14
	pushq	%r13
	pushq	%r12
	pushq	%rbx
	subq	$136, %rsp
	movq	8(%rdi), %r14
	cmpq	$0, (%rdi)
	xorps	%xmm0, %xmm0
	movups	%xmm0, (%rdi)
	je	.LBB129_1
	cmpq	$535, %rsi
	jbe	.LBB129_6
	leaq	-320(%rsi), %rcx
	leaq	320(%rdx), %r15
	movq	$1, 256(%rdx)
	movq	%rcx, 264(%rdx)
	addq	$-512, %rsi
	movabsq	$-6148914691236517205, %r8
	movq	%rsi, %rax
	movq	%rdx, %r13
	mulq	%r8
	movq	%r15, 272(%r13)
	movabsq	$-9223372036854775793, %rax
	cmpq	%rax, %rsi
	ja	.LBB129_6
	movq	%r13, %r8
	leaq	256(%r13), %rax
	shrq	$4, %rdx
	movq	40(%r14), %rsi
	movups	%xmm0, (%rax)
	movq	$0, 16(%rax)
	leaq	(%rdx,%rdx,2), %r9
	leaq	15(,%r9,8), %r9
	andq	$-16, %r9
	movq	%rcx, %r10
	subq	%r9, %r10
	jae	.LBB129_7
	movq	$1, 256(%r8)
	movq	%rcx, 264(%r8)
	movq	%r15, 272(%r8)
.LBB129_6:
	movq	$1, (%rdi)
	movq	%r14, 8(%rdi)
	movl	$44, %eax
	jmp	.LBB129_22
.LBB129_1:
	movl	$46, %eax
.LBB129_22:
	xorl	%edx, %edx
	addq	$136, %rsp
	popq	%rbx
	popq	%r12
	popq	%r13
	popq	%r14
	popq	%r15
	popq	%rbp
	retq
.LBB129_7:
	addq	%r15, %r9
	movq	$1, 256(%r8)
	movq	%r10, 264(%r8)
	movq	%r9, 272(%r8)
	movq	%r15, 24(%rsp)
	movq	$0, 32(%rsp)
	movq	%rdx, 40(%rsp)
	movq	%rax, 48(%rsp)
	movq	$0, 56(%rsp)
	movq	%rsi, 64(%rsp)
	movups	%xmm0, 72(%rsp)
	movq	$0, 88(%rsp)
	movq	(%r14), %r12
	movq	8(%r14), %rbx
	movq	32(%r14), %rbp
	movq	%rbx, 8(%rsp)
	subq	%rbp, %rbx
	cmpq	%rdx, %rbx
	ja	.LBB129_9
	xorl	%eax, %eax
.LBB129_11:
	leaq	56(%rsp), %r11
	leaq	(,%rbp,8), %rcx
	leaq	(%rcx,%rcx,2), %r9
	leaq	(%r12,%r9), %rsi
	leaq	(%rax,%rbx), %rcx
	movq	%rcx, 16(%rsp)
	shlq	$3, %rax
	leaq	(%rax,%rax,2), %rax
	addq	%r15, %rax
	leaq	(,%rbx,8), %rcx
	leaq	(%rcx,%rcx,2), %rcx
	movq	%rax, %r10
	subq	%rsi, %r10
	cmpq	%rcx, %r10
	jae	.LBB129_15
	movq	8(%rsp), %r10
	cmpq	%rbp, %r10
	je	.LBB129_21
	movl	%ebx, %ecx
	andl	$7, %ecx
	subq	%r10, %rbp
	cmpq	$-8, %rbp
	jbe	.LBB129_16
	xorl	%r10d, %r10d
	jmp	.LBB129_19
.LBB129_15:
	movq	%rdi, %rbx
	movq	%rax, %rdi
	movq	%rdx, %r12
	movq	%rcx, %rdx
	movq	%r11, %rbp
	callq	memmove@PLT
	movq	%rbp, %r11
	movq	%r12, %rdx
	movq	%r13, %r8
	movq	%rbx, %rdi
	jmp	.LBB129_21
.LBB129_16:
	movq	%r11, %rbp
	andq	$-8, %rbx
	movl	$168, %r11d
	xorl	%r10d, %r10d
	.p2align	4
.LBB129_17:
	movups	-168(%rsi,%r11), %xmm0
	movq	-152(%rsi,%r11), %r13
	movq	%r13, -152(%rax,%r11)
	movups	%xmm0, -168(%rax,%r11)
	movups	-144(%rsi,%r11), %xmm0
	movq	-128(%rsi,%r11), %r13
	movq	%r13, -128(%rax,%r11)
	movups	%xmm0, -144(%rax,%r11)
	movups	-120(%rsi,%r11), %xmm0
	movq	-104(%rsi,%r11), %r13
	movq	%r13, -104(%rax,%r11)
	movups	%xmm0, -120(%rax,%r11)
	movups	-96(%rsi,%r11), %xmm0
	movq	-80(%rsi,%r11), %r13
	movq	%r13, -80(%rax,%r11)
	movups	%xmm0, -96(%rax,%r11)
	movups	-72(%rsi,%r11), %xmm0
	movq	-56(%rsi,%r11), %r13
	movq	%r13, -56(%rax,%r11)
	movups	%xmm0, -72(%rax,%r11)
	movups	-48(%rsi,%r11), %xmm0
	movq	-32(%rsi,%r11), %r13
	movq	%r13, -32(%rax,%r11)
	movups	%xmm0, -48(%rax,%r11)
	movups	-24(%rsi,%r11), %xmm0
	movq	-8(%rsi,%r11), %r13
	movq	%r13, -8(%rax,%r11)
	movups	%xmm0, -24(%rax,%r11)
	movups	(%rsi,%r11), %xmm0
	movq	16(%rsi,%r11), %r13
	movq	%r13, 16(%rax,%r11)
	movups	%xmm0, (%rax,%r11)
	addq	$8, %r10
	addq	$192, %r11
	cmpq	%r10, %rbx
	jne	.LBB129_17
	testq	%rcx, %rcx
	movq	%rbp, %r11
	je	.LBB129_21
.LBB129_19:
	shlq	$3, %r10
	leaq	(%r10,%r10,2), %rsi
	addq	%rsi, %r9
	addq	%r9, %r12
	addq	%rsi, %rax
	shll	$3, %ecx
	leaq	(%rcx,%rcx,2), %rcx
	xorl	%esi, %esi
	.p2align	4
.LBB129_20:
	movups	(%r12,%rsi), %xmm0
	movq	16(%r12,%rsi), %r9
	movq	%r9, 16(%rax,%rsi)
	movups	%xmm0, (%rax,%rsi)
	addq	$24, %rsi
	cmpq	%rsi, %rcx
	jne	.LBB129_20
.LBB129_21:
	movups	48(%r14), %xmm0
	movups	%xmm0, 72(%rsp)
	movq	64(%r14), %rax
	movq	%rax, 88(%rsp)
	movq	48(%rsp), %rax
	movups	(%r11), %xmm0
	movups	16(%r11), %xmm1
	movaps	%xmm0, 96(%rsp)
	movaps	%xmm1, 112(%rsp)
	movq	32(%r11), %rcx
	movq	%rcx, 128(%rsp)
	movq	%r15, (%r8)
	movq	16(%rsp), %rcx
	movq	%rcx, 8(%r8)
	movq	%rdx, 16(%r8)
	movq	%rax, 24(%r8)
	movaps	96(%rsp), %xmm0
	movaps	112(%rsp), %xmm1
	movups	%xmm0, 32(%r8)
	movups	%xmm1, 48(%r8)
	movq	128(%rsp), %rax
	movq	%rax, 64(%r8)
	movq	$1, (%rdi)
	movq	%r8, 8(%rdi)
	xorl	%eax, %eax
	jmp	.LBB129_22
.LBB129_9:
	leaq	24(%rsp), %rax
	movq	%rdi, %r15
	movq	%rax, %rdi
	movq	%rbx, %rsi
	callq	"std_alloc::vec::Vec::grow_amortized::<#90923cc7d49729f9>"
	movq	%r15, %rdi
	testb	%al, %al
	je	.LBB129_6
	movq	%r13, %r8
	movq	24(%rsp), %r15
	movq	32(%rsp), %rax
	movq	40(%rsp), %rdx
	jmp	.LBB129_11
.Lfunc_end129:
	.size	squitter_order_grow, .Lfunc_end129-squitter_order_grow

	.section	.text.squitter_order_held,"ax",@progbits
	.globl	squitter_order_held
	.p2align	4
	.type	squitter_order_held,@function
squitter_order_held:
	movq	8(%rdi), %rax
	cmpq	$0, (%rdi)
	xorps	%xmm0, %xmm0
	movups	%xmm0, (%rdi)
	je	.LBB130_1
	movq	8(%rax), %rcx
	subq	32(%rax), %rcx
	movq	$1, (%rdi)
	movq	%rax, 8(%rdi)
	movq	%rcx, (%rsi)
	xorl	%eax, %eax
	xorl	%edx, %edx
	retq
.LBB130_1:
	movl	$46, %eax
	xorl	%edx, %edx
	retq
.Lfunc_end130:
	.size	squitter_order_held, .Lfunc_end130-squitter_order_held

	.section	.text.squitter_order_late,"ax",@progbits
	.globl	squitter_order_late
	.p2align	4
	.type	squitter_order_late,@function
squitter_order_late:
	movq	8(%rdi), %rax
	cmpq	$0, (%rdi)
	xorps	%xmm0, %xmm0
	movups	%xmm0, (%rdi)
	je	.LBB131_1
	movq	64(%rax), %rcx
	movq	$1, (%rdi)
	movq	%rax, 8(%rdi)
	movq	%rcx, (%rsi)
	xorl	%eax, %eax
	xorl	%edx, %edx
	retq
.LBB131_1:
	movl	$46, %eax
	xorl	%edx, %edx
	retq
.Lfunc_end131:
	.size	squitter_order_late, .Lfunc_end131-squitter_order_late

	.section	.text.squitter_order_new,"ax",@progbits
	.globl	squitter_order_new
	.p2align	4
	.type	squitter_order_new,@function
squitter_order_new:
	xorps	%xmm0, %xmm0
	movups	%xmm0, (%rdi)
	movl	$44, %r9d
	cmpq	$536, %rsi
	jb	.LBB132_6
	pushq	%rbx
	movq	%rdx, %r8
	leaq	-320(%rsi), %r11
	leaq	320(%rdx), %r10
	movq	$1, 256(%rdx)
	movq	%r11, 264(%rdx)
	addq	$-512, %rsi
	movabsq	$-6148914691236517205, %rdx
	movq	%rsi, %rax
	mulq	%rdx
	movq	%r10, 272(%r8)
	movabsq	$-9223372036854775793, %rax
	cmpq	%rax, %rsi
	ja	.LBB132_5
	leaq	256(%r8), %rax
	shrq	$4, %rdx
	xorps	%xmm0, %xmm0
	movups	%xmm0, (%rax)
	movq	$0, 16(%rax)
	leaq	(%rdx,%rdx,2), %rsi
	leaq	15(,%rsi,8), %rsi
	andq	$-16, %rsi
	movq	%r11, %rbx
	subq	%rsi, %rbx
	jae	.LBB132_4
	movq	$1, 256(%r8)
	movq	%r11, 264(%r8)
	movq	%r10, 272(%r8)
	jmp	.LBB132_5
.LBB132_4:
	addq	%r10, %rsi
	movq	$1, 256(%r8)
	movq	%rbx, 264(%r8)
	movq	%rsi, 272(%r8)
	movq	%r10, (%r8)
	movq	$0, 8(%r8)
	movq	%rdx, 16(%r8)
	movq	%rax, 24(%r8)
	movq	$0, 32(%r8)
	movq	%rcx, 40(%r8)
	movups	%xmm0, 48(%r8)
	movq	$0, 64(%r8)
	movq	$1, (%rdi)
	movq	%r8, 8(%rdi)
	xorl	%r9d, %r9d
.LBB132_5:
	popq	%rbx
.LBB132_6:
	movq	%r9, %rax
	xorl	%edx, %edx
	retq
.Lfunc_end132:
	.size	squitter_order_new, .Lfunc_end132-squitter_order_new

	.section	.text.squitter_order_take,"ax",@progbits
	.globl	squitter_order_take
	.p2align	4
	.type	squitter_order_take,@function
squitter_order_take:
	pushq	%rbp
	pushq	%r15
	pushq	%r14
	pushq	%r13
	pushq	%r12
	pushq	%rbx
	subq	$88, %rsp
	movq	%rcx, %r12
	movq	152(%rsp), %rbx
	xorl	%r13d, %r13d
	movq	%rsi, %rbp
	testq	%rsi, %rsi
	sete	%r11b
	xorl	%esi, %esi
	testq	%rcx, %rcx
	sete	%r10b
	xorl	%ecx, %ecx
	movq	%r9, 40(%rsp)
	testq	%r9, %r9
	sete	%r15b
	xorl	%eax, %eax
	movq	%rbx, 32(%rsp)
	testq	%rbx, %rbx
	sete	%r9b
	movq	8(%rdi), %r14
	cmpq	$0, (%rdi)
	xorps	%xmm0, %xmm0
	movups	%xmm0, (%rdi)
	je	.LBB133_1
	movb	%r15b, 8(%rsp)
	movb	%r9b, 16(%rsp)
	movq	%rdi, 24(%rsp)
	movq	160(%rsp), %rbx
	movq	144(%rsp), %r15
	movq	$0, 64(%rsp)
	cmpq	%rdx, %r8
	cmovbq	%r8, %rdx
	cmpq	%r15, %rbx
	cmovbq	%rbx, %r15
	testq	%r15, %r15
	je	.LBB133_3
	movq	%rdx, %r9
	movb	%r11b, %r13b
	shll	$12, %r13d
	movq	%rbp, %r11
	addq	%r13, %r11
	movb	%r10b, %sil
	shll	$12, %esi
	addq	%rsi, %r12
	movzbl	8(%rsp), %edx
	movb	%dl, %cl
	shll	$12, %ecx
	addq	%rcx, 40(%rsp)
	movzbl	16(%rsp), %ecx
	movb	%cl, %al
	shll	$12, %eax
	addq	%rax, 32(%rsp)
	leaq	56(%rsp), %r10
	xorl	%ebx, %ebx
	xorl	%ebp, %ebp
	movq	%r9, 16(%rsp)
	movq	%r11, 8(%rsp)
	.p2align	4
.LBB133_5:
	movq	8(%r14), %rcx
	movq	32(%r14), %rsi
	cmpq	%r9, %rbx
	jb	.LBB133_9
	cmpq	%rcx, %rsi
	je	.LBB133_30
	leaq	(%rsi,%rsi,2), %rdx
	movq	(%r14), %rdi
	movq	48(%r14), %rax
	subq	(%rdi,%rdx,8), %rax
	jb	.LBB133_30
	cmpq	%rax, 40(%r14)
	ja	.LBB133_30
.LBB133_9:
	cmpq	%rcx, %rsi
	je	.LBB133_13
	leaq	(%rsi,%rsi,2), %rdx
	movq	(%r14), %rdi
	movq	48(%r14), %r8
	movq	(%rdi,%rdx,8), %rax
	subq	%rax, %r8
	jb	.LBB133_13
	cmpq	%r8, 40(%r14)
	jbe	.LBB133_12
	.p2align	4
.LBB133_13:
	movq	%rbx, %rdx
	shlq	$4, %rdx
	subq	%rbx, %rdx
	subq	%rbx, %rdx
	movq	(%r11,%rbx,8), %r13
	movq	%r13, 48(%rsp)
	movq	(%r12,%rdx), %rax
	movq	6(%r12,%rdx), %rdx
	movq	%rdx, 6(%r10)
	movq	%rax, (%r10)
	cmpq	56(%r14), %r13
	jae	.LBB133_15
	movq	64(%r14), %rax
	incq	%rax
	movq	$-1, %rcx
	cmovneq	%rax, %rcx
	movq	%rcx, 64(%r14)
	incq	%rbx
	cmpq	%r15, %rbp
	jb	.LBB133_5
	jmp	.LBB133_30
	.p2align	4
.LBB133_15:
	movq	%rcx, %rax
	shrq	$2, %rax
	cmpq	%rax, %rsi
	jb	.LBB133_18
	cmpq	16(%r14), %rcx
	jae	.LBB133_17
.LBB133_18:
	movq	%rsi, 32(%r14)
	movq	(%r14), %rdx
	leaq	(%rcx,%rcx,2), %rax
	leaq	(%rdx,%rax,8), %rdi
	addq	$-24, %rdi
	movq	%rcx, %r8
	.p2align	4
.LBB133_19:
	movq	%r8, %rax
	cmpq	%r8, %rsi
	je	.LBB133_21
	leaq	-1(%rax), %r8
	cmpq	(%rdi), %r13
	leaq	-24(%rdi), %rdi
	jb	.LBB133_19
.LBB133_21:
	cmpq	%rcx, %rax
	jb	.LBB133_26
	cmpq	%rcx, 16(%r14)
	je	.LBB133_23
.LBB133_25:
	leaq	(%rcx,%rcx,2), %rax
	movq	64(%rsp), %rsi
	movq	%rsi, 16(%rdx,%rax,8)
	movups	48(%rsp), %xmm0
	movups	%xmm0, (%rdx,%rax,8)
	incq	%rcx
	movq	%rcx, 8(%r14)
.LBB133_27:
	movq	48(%r14), %rax
	cmpq	%rax, %r13
	cmovaq	%r13, %rax
	movq	%rax, 48(%r14)
	movq	16(%rsp), %r9
	movq	8(%rsp), %r11
	leaq	56(%rsp), %r10
	incq	%rbx
	cmpq	%r15, %rbp
	jb	.LBB133_5
	jmp	.LBB133_30
.LBB133_12:
	leaq	(%rdi,%rdx,8), %rcx
	movq	8(%rcx), %rdx
	movq	14(%rcx), %rcx
	movq	%rcx, 78(%rsp)
	movq	%rdx, 72(%rsp)
	incq	%rsi
	movq	%rsi, 32(%r14)
	movq	%rax, 56(%r14)
	movq	40(%rsp), %rcx
	movq	%rax, (%rcx,%rbp,8)
	movq	%rbp, %rcx
	shlq	$4, %rcx
	subq	%rbp, %rcx
	subq	%rbp, %rcx
	movq	72(%rsp), %rax
	movq	78(%rsp), %rdx
	movq	32(%rsp), %rsi
	movq	%rdx, 6(%rsi,%rcx)
	movq	%rax, (%rsi,%rcx)
	incq	%rbp
	cmpq	%r15, %rbp
	jb	.LBB133_5
	jmp	.LBB133_30
.LBB133_17:
	movq	%r14, %rdi
	callq	"sq_feed::order::move_to_front::<#bd73a11ec42be588>"
	movq	8(%r14), %rcx
	xorl	%esi, %esi
	jmp	.LBB133_18
.LBB133_26:
	leaq	48(%rsp), %rdx
	movq	%r14, %rdi
	movq	%rax, %rsi
	callq	"sq_feed::order::insert_within::<#bd73a11ec42be588>"
	testb	%al, %al
	je	.LBB133_27
	jmp	.LBB133_32
.LBB133_23:
	movl	$1, %esi
	movq	%r14, %rdi
	callq	"std_alloc::vec::Vec::grow_amortized::<#90923cc7d49729f9>"
	testb	%al, %al
	je	.LBB133_32
	movq	(%r14), %rdx
	movq	8(%r14), %rcx
	jmp	.LBB133_25
.LBB133_1:
	movl	$46, %eax
	jmp	.LBB133_31
.LBB133_3:
	xorl	%ebx, %ebx
	xorl	%ebp, %ebp
.LBB133_30:
	movq	168(%rsp), %rax
	movq	%rbx, (%rax)
	movq	%rbp, 8(%rax)
	movq	24(%rsp), %rax
	movq	$1, (%rax)
	movq	%r14, 8(%rax)
	xorl	%eax, %eax
.LBB133_31:
	xorl	%edx, %edx
	addq	$88, %rsp
	popq	%rbx
	popq	%r12
	popq	%r13
	popq	%r14
	popq	%r15
	popq	%rbp
	retq
.LBB133_32:
	movq	168(%rsp), %rax
	movq	%rbx, (%rax)
	movq	%rbp, 8(%rax)
	movq	24(%rsp), %rax
	movq	$1, (%rax)
	movq	%r14, 8(%rax)
	movl	$44, %eax
	jmp	.LBB133_31
.Lfunc_end133:
	.size	squitter_order_take, .Lfunc_end133-squitter_order_take

	.section	.text.squitter_pair,"ax",@progbits
	.globl	squitter_pair
	.p2align	4
	.type	squitter_pair,@function
squitter_pair:
	pushq	%r14
	pushq	%rbx
	subq	$56, %rsp
	movq	%rdx, %rbx
	movq	%rsi, %rdx
	movq	%rdi, %rsi
	xorps	%xmm0, %xmm0
	movaps	%xmm0, (%rsp)
	leaq	24(%rsp), %r14
	movq	%r14, %rdi
	xorl	%ecx, %ecx
	xorl	%r8d, %r8d
	callq	"squitter_c::decode::of_two"
	movq	%rsp, %rdi
	movq	%r14, %rsi
	movq	%rbx, %rdx
	callq	"squitter_c::decode::give"
	movq	(%rsp), %rax
	movq	8(%rsp), %rdx
	addq	$56, %rsp
	popq	%rbx
	popq	%r14
	retq
.Lfunc_end134:
	.size	squitter_pair, .Lfunc_end134-squitter_pair

	.section	.text.squitter_pair_at,"ax",@progbits
	.globl	squitter_pair_at
	.p2align	4
	.type	squitter_pair_at,@function
squitter_pair_at:
	subq	$24, %rsp
	movq	%rcx, %r8
	movq	%rdx, %rcx
	movq	%rsi, %rdx
	movq	%rdi, %rsi
	leaq	8(%rsp), %rdi
	callq	"squitter_c::decode::squitter_pair_at"
	movq	8(%rsp), %rax
	movq	16(%rsp), %rdx
	addq	$24, %rsp
	retq
.Lfunc_end135:
	.size	squitter_pair_at, .Lfunc_end135-squitter_pair_at

	.section	.text.squitter_pair_at_many,"ax",@progbits
	.globl	squitter_pair_at_many
	.p2align	4
	.type	squitter_pair_at_many,@function
squitter_pair_at_many:
	pushq	%rbp
	pushq	%r15
	pushq	%r14
	pushq	%r13
	pushq	%r12
	pushq	%rbx
	subq	$40, %rsp
	movq	%r9, %rbx
	movq	%r8, %r14
	movq	%rdx, %r15
	movq	%rdi, %r13
	movq	96(%rsp), %r9
	movq	112(%rsp), %rdi
	movq	104(%rsp), %rbp
	xorl	%r10d, %r10d
	testq	%r13, %r13
	sete	%r12b
	xorl	%r8d, %r8d
	testq	%rdx, %rdx
	sete	%r11b
	xorl	%edx, %edx
	testq	%rbx, %rbx
	sete	14(%rsp)
	xorl	%eax, %eax
	testq	%rbp, %rbp
	sete	15(%rsp)
	cmpq	%r9, %rdi
	cmovbq	%rdi, %r9
	cmpq	%rcx, %r9
	cmovaeq	%rcx, %r9
	cmpq	%rsi, %r9
	cmovaeq	%rsi, %r9
	movq	%r9, 16(%rsp)
	testq	%r9, %r9
	je	.LBB136_3
	movb	%r12b, %r10b
	shll	$12, %r10d
	addq	%r10, %r13
	movb	%r11b, %r8b
	shll	$12, %r8d
	addq	%r8, %r15
	movzbl	14(%rsp), %ecx
	movb	%cl, %dl
	shll	$12, %edx
	addq	%rdx, %rbx
	movzbl	15(%rsp), %ecx
	movb	%cl, %al
	shll	$12, %eax
	addq	%rax, %rbp
	movq	16(%rsp), %r12
	.p2align	4
.LBB136_2:
	leaq	24(%rsp), %rdi
	movq	%r13, %rsi
	movq	%r15, %rdx
	movq	%r14, %rcx
	movq	%rbx, %r8
	callq	"squitter_c::decode::squitter_pair_at"
	movups	24(%rsp), %xmm0
	movups	%xmm0, (%rbp)
	addq	$16, %rbp
	addq	$32, %rbx
	addq	$14, %r15
	addq	$14, %r13
	decq	%r12
	jne	.LBB136_2
.LBB136_3:
	movq	16(%rsp), %rax
	addq	$40, %rsp
	popq	%rbx
	popq	%r12
	popq	%r13
	popq	%r14
	popq	%r15
	popq	%rbp
	retq
.Lfunc_end136:
	.size	squitter_pair_at_many, .Lfunc_end136-squitter_pair_at_many

	.section	.text.squitter_pair_many,"ax",@progbits
	.globl	squitter_pair_many
	.p2align	4
	.type	squitter_pair_many,@function
squitter_pair_many:
	pushq	%rbp
	pushq	%r15
	pushq	%r14
	pushq	%r13
	pushq	%r12
	pushq	%rbx
	subq	$88, %rsp
	movq	%r8, %r14
	movq	%rdx, %r15
	movq	%rdi, %r12
	movq	152(%rsp), %r13
	movq	144(%rsp), %rbp
	xorl	%r10d, %r10d
	testq	%rdi, %rdi
	sete	%bl
	xorl	%r8d, %r8d
	testq	%rdx, %rdx
	sete	%r11b
	xorl	%edx, %edx
	testq	%r14, %r14
	sete	%dil
	xorl	%eax, %eax
	testq	%rbp, %rbp
	sete	7(%rsp)
	cmpq	%r9, %r13
	cmovbq	%r13, %r9
	cmpq	%rcx, %r9
	cmovaeq	%rcx, %r9
	cmpq	%rsi, %r9
	cmovaeq	%rsi, %r9
	movq	%r9, 8(%rsp)
	testq	%r9, %r9
	je	.LBB137_3
	movb	%bl, %r10b
	shll	$12, %r10d
	addq	%r10, %r12
	movb	%r11b, %r8b
	shll	$12, %r8d
	addq	%r8, %r15
	movb	%dil, %dl
	shll	$12, %edx
	addq	%rdx, %r14
	movzbl	7(%rsp), %ecx
	movb	%cl, %al
	shll	$12, %eax
	addq	%rax, %rbp
	movq	8(%rsp), %rbx
	.p2align	4
.LBB137_2:
	xorps	%xmm0, %xmm0
	movaps	%xmm0, 16(%rsp)
	leaq	56(%rsp), %r13
	movq	%r13, %rdi
	movq	%r12, %rsi
	movq	%r15, %rdx
	xorl	%ecx, %ecx
	xorl	%r8d, %r8d
	callq	"squitter_c::decode::of_two"
	leaq	16(%rsp), %rdi
	movq	%r13, %rsi
	movq	%r14, %rdx
	callq	"squitter_c::decode::give"
	movaps	16(%rsp), %xmm0
	movaps	%xmm0, 32(%rsp)
	movups	%xmm0, (%rbp)
	addq	$16, %rbp
	addq	$32, %r14
	addq	$14, %r15
	addq	$14, %r12
	decq	%rbx
	jne	.LBB137_2
.LBB137_3:
	movq	8(%rsp), %rax
	addq	$88, %rsp
	popq	%rbx
	popq	%r12
	popq	%r13
	popq	%r14
	popq	%r15
	popq	%rbp
	retq
.Lfunc_end137:
	.size	squitter_pair_many, .Lfunc_end137-squitter_pair_many

	.section	.text.squitter_position_e7,"ax",@progbits
	.globl	squitter_position_e7
	.p2align	4
	.type	squitter_position_e7,@function
squitter_position_e7:
	movabsq	$-1000000000001, %r10
	movq	8(%rdi), %rcx
	leaq	(%rcx,%r10), %rdx
	leaq	1(%r10), %r11
	movl	$20, %eax
	cmpq	%r11, %rdx
	jb	.LBB138_7
	movq	(%rdi), %rdx
	movq	%rdx, %r9
	negq	%r9
	cmovsq	%rdx, %r9
	imulq	$360, %rcx, %r8
	cmpq	%r9, %r8
	jb	.LBB138_7
	movq	24(%rdi), %r8
	addq	%r8, %r10
	cmpq	%r11, %r10
	jb	.LBB138_7
	movq	16(%rdi), %rdi
	movq	%rdi, %r10
	negq	%r10
	cmovsq	%rdi, %r10
	imulq	$360, %r8, %r11
	cmpq	%r10, %r11
	jb	.LBB138_7
	imulq	$90, %rcx, %r11
	cmpq	%r11, %r9
	ja	.LBB138_7
	imulq	$180, %r8, %r9
	cmpq	%r9, %r10
	ja	.LBB138_7
	pushq	%rbx
	subq	$32, %rsp
	movq	%rdx, (%rsp)
	movq	%rcx, 8(%rsp)
	movq	%rdi, 16(%rsp)
	movq	%r8, 24(%rsp)
	movq	%rsp, %rdi
	movq	%rsi, %rbx
	callq	"squitter_c::e7::both"
	movl	%eax, (%rbx)
	movl	%edx, 4(%rbx)
	xorl	%eax, %eax
	addq	$32, %rsp
	popq	%rbx
.LBB138_7:
	xorl	%edx, %edx
	retq
.Lfunc_end138:
	.size	squitter_position_e7, .Lfunc_end138-squitter_position_e7

	.section	.text.squitter_position_e7_many,"ax",@progbits
	.globl	squitter_position_e7_many
	.p2align	4
	.type	squitter_position_e7_many,@function
squitter_position_e7_many:
	pushq	%rbp
	pushq	%r15
	pushq	%r14
	pushq	%r13
	pushq	%r12
	pushq	%rbx
	subq	$40, %rsp
	movq	%r8, %r14
	movq	%rcx, %r15
	movq	%rdx, %r11
	movq	%rdi, %r12
	xorl	%edi, %edi
	testq	%r12, %r12
	sete	%r10b
	xorl	%ecx, %ecx
	testq	%rdx, %rdx
	sete	%r8b
	xorl	%eax, %eax
	testq	%r14, %r14
	sete	%dl
	cmpq	%r15, %r9
	cmovbq	%r9, %r15
	cmpq	%rsi, %r15
	cmovaeq	%rsi, %r15
	testq	%r15, %r15
	je	.LBB139_10
	movb	%r10b, %dil
	shll	$12, %edi
	addq	%rdi, %r12
	movb	%r8b, %cl
	shll	$12, %ecx
	addq	%rcx, %r11
	movb	%dl, %al
	shll	$12, %eax
	addq	%rax, %r14
	movl	$2, %r13d
	movabsq	$-1000000000001, %rbp
	movq	%r15, %rbx
	jmp	.LBB139_2
	.p2align	4
.LBB139_9:
	movl	%eax, -8(%r14,%r13,4)
	movl	$0, -4(%r14,%r13,4)
	movq	$0, (%r14,%r13,4)
	addq	$4, %r13
	decq	%rbx
	je	.LBB139_10
.LBB139_2:
	movq	-8(%r12,%r13,8), %rcx
	leaq	(%rcx,%rbp), %rdx
	leaq	1(%rbp), %r8
	movl	$20, %eax
	cmpq	%r8, %rdx
	jb	.LBB139_9
	movq	-16(%r12,%r13,8), %rdx
	movq	%rdx, %rdi
	negq	%rdi
	cmovsq	%rdx, %rdi
	imulq	$360, %rcx, %rsi
	cmpq	%rdi, %rsi
	jb	.LBB139_9
	movq	8(%r12,%r13,8), %rsi
	leaq	(%rsi,%rbp), %r9
	cmpq	%r8, %r9
	jb	.LBB139_9
	movq	(%r12,%r13,8), %r8
	movq	%r8, %r9
	negq	%r9
	cmovsq	%r8, %r9
	imulq	$360, %rsi, %r10
	cmpq	%r9, %r10
	jb	.LBB139_9
	imulq	$90, %rcx, %r10
	cmpq	%r10, %rdi
	ja	.LBB139_9
	imulq	$180, %rsi, %rdi
	cmpq	%rdi, %r9
	ja	.LBB139_9
	movq	%rdx, 8(%rsp)
	movq	%rcx, 16(%rsp)
	movq	%r8, 24(%rsp)
	movq	%rsi, 32(%rsp)
	leaq	8(%rsp), %rdi
	movq	%r11, (%rsp)
	callq	"squitter_c::e7::both"
	movq	(%rsp), %r11
	movl	%eax, -4(%r11,%r13,2)
	movl	%edx, (%r11,%r13,2)
	xorl	%eax, %eax
	jmp	.LBB139_9
.LBB139_10:
	movq	%r15, %rax
	addq	$40, %rsp
	popq	%rbx
	popq	%r12
	popq	%r13
	popq	%r14
	popq	%r15
	popq	%rbp
	retq
.Lfunc_end139:
	.size	squitter_position_e7_many, .Lfunc_end139-squitter_position_e7_many

	.section	.text.squitter_read_frame,"ax",@progbits
	.globl	squitter_read_frame
	.p2align	4
	.type	squitter_read_frame,@function
squitter_read_frame:
	subq	$24, %rsp
	movq	%rsi, %rdx
	movq	%rdi, %rsi
	leaq	8(%rsp), %rdi
	callq	"squitter_c::read::squitter_read_frame"
	movq	8(%rsp), %rax
	movq	16(%rsp), %rdx
	addq	$24, %rsp
	retq
.Lfunc_end140:
	.size	squitter_read_frame, .Lfunc_end140-squitter_read_frame

	.section	.text.squitter_read_many,"ax",@progbits
	.globl	squitter_read_many
	.p2align	4
	.type	squitter_read_many,@function
squitter_read_many:
	pushq	%r15
	pushq	%r14
	pushq	%r13
	pushq	%r12
	pushq	%rbx
	subq	$16, %rsp
	movq	%r8, %r14
	movq	%rcx, %rbx
	movq	%rdx, %r15
	movq	%rdi, %r12
	xorl	%edi, %edi
	testq	%r12, %r12
	sete	%r10b
	xorl	%ecx, %ecx
	testq	%rdx, %rdx
	sete	%r8b
	xorl	%eax, %eax
	testq	%r14, %r14
	sete	%dl
	cmpq	%rbx, %r9
	cmovbq	%r9, %rbx
	cmpq	%rsi, %rbx
	cmovaeq	%rsi, %rbx
	testq	%rbx, %rbx
	je	.LBB141_3
	movb	%r10b, %dil
	shll	$12, %edi
	addq	%rdi, %r12
	movb	%r8b, %cl
	shll	$12, %ecx
	addq	%rcx, %r15
	movb	%dl, %al
	shll	$12, %eax
	addq	%rax, %r14
	movq	%rbx, %r13
	.p2align	4
.LBB141_2:
	movq	%rsp, %rdi
	movq	%r12, %rsi
	movq	%r15, %rdx
	callq	"squitter_c::read::squitter_read_frame"
	movups	(%rsp), %xmm0
	movups	%xmm0, (%r14)
	addq	$16, %r14
	addq	$40, %r15
	addq	$14, %r12
	decq	%r13
	jne	.LBB141_2
.LBB141_3:
	movq	%rbx, %rax
	addq	$16, %rsp
	popq	%rbx
	popq	%r12
	popq	%r13
	popq	%r14
	popq	%r15
	retq
.Lfunc_end141:
	.size	squitter_read_many, .Lfunc_end141-squitter_read_many

	.section	.rodata.cst16,"aM",@progbits,16
	.p2align	4, 0x0
.LCPI142_0:
	.zero	16,198
.LCPI142_1:
	.zero	16,6
.LCPI142_2:
	.zero	16,16
.LCPI142_3:
	.zero	16,223
.LCPI142_4:
	.zero	16,64
.LCPI142_5:
	.zero	16,10
.LCPI142_6:
	.zero	16,191
.LCPI142_7:
	.short	255
	.short	255
	.short	255
	.short	255
	.short	255
	.short	255
	.short	255
	.short	255
.LCPI142_8:
	.zero	16,240
.LCPI142_9:
	.short	0
	.short	65535
	.short	65535
	.short	65535
	.short	0
	.short	0
	.short	0
	.short	0
	.section	.text.squitter_read_text,"ax",@progbits
	.globl	squitter_read_text
	.p2align	4
	.type	squitter_read_text,@function
squitter_read_text:
	pushq	%rbp
	pushq	%r15
	pushq	%r14
	pushq	%r13
	pushq	%r12
	pushq	%rbx
	subq	$72, %rsp
	xorl	%eax, %eax
	testq	%rdi, %rdi
	sete	%al
	shll	$12, %eax
	addq	%rdi, %rax
	pxor	%xmm0, %xmm0
	movdqa	%xmm0, 16(%rsp)
	movdqa	%xmm0, (%rsp)
	movq	$0, 32(%rsp)
	cmpq	$30, %rsi
	je	.LBB142_5
	cmpq	$2, %rsi
	jb	.LBB142_25
	cmpb	$42, (%rax)
	movzbl	-1(%rax,%rsi), %edi
	jne	.LBB142_8
	cmpb	$59, %dil
	jne	.LBB142_25
	leaq	1(%rax), %rcx
	leaq	-2(%rsi), %r8
	jmp	.LBB142_9
.LBB142_5:
	cmpb	$42, (%rax)
	jne	.LBB142_25
	cmpb	$59, 29(%rax)
	jne	.LBB142_25
	leaq	1(%rax), %rdi
	jmp	.LBB142_10
.LBB142_8:
	movq	%rsi, %r8
	movq	%rax, %rcx
	cmpb	$59, %dil
	je	.LBB142_25
.LBB142_9:
	xorl	%edi, %edi
	cmpq	$28, %r8
	cmoveq	%rcx, %rdi
	jne	.LBB142_25
.LBB142_10:
	movdqa	.LCPI142_0(%rip), %xmm2
	movdqu	(%rdi), %xmm1
	movdqu	12(%rdi), %xmm0
	movdqa	%xmm1, %xmm4
	paddb	%xmm2, %xmm4
	movdqa	.LCPI142_1(%rip), %xmm5
	psubusb	%xmm5, %xmm4
	movdqa	.LCPI142_2(%rip), %xmm3
	paddb	%xmm3, %xmm4
	movdqa	.LCPI142_3(%rip), %xmm6
	pand	%xmm6, %xmm1
	movdqa	.LCPI142_4(%rip), %xmm7
	movdqa	%xmm7, %xmm8
	psubb	%xmm1, %xmm8
	movdqa	.LCPI142_5(%rip), %xmm9
	pminub	%xmm9, %xmm8
	movdqa	.LCPI142_6(%rip), %xmm10
	paddb	%xmm10, %xmm1
	paddb	%xmm8, %xmm1
	pminub	%xmm4, %xmm1
	paddb	%xmm0, %xmm2
	psubusb	%xmm5, %xmm2
	paddb	%xmm3, %xmm2
	pand	%xmm6, %xmm0
	psubb	%xmm0, %xmm7
	pminub	%xmm9, %xmm7
	paddb	%xmm10, %xmm0
	paddb	%xmm7, %xmm0
	pminub	%xmm2, %xmm0
	movdqa	%xmm0, %xmm2
	por	%xmm1, %xmm2
	pmaxub	%xmm2, %xmm3
	pcmpeqb	%xmm2, %xmm3
	pmovmskb	%xmm3, %ecx
	testl	%ecx, %ecx
	jne	.LBB142_25
	movdqa	.LCPI142_7(%rip), %xmm2
	pand	%xmm1, %xmm2
	packuswb	%xmm2, %xmm2
	psrlw	$8, %xmm1
	packuswb	%xmm1, %xmm1
	psllw	$4, %xmm2
	pand	.LCPI142_8(%rip), %xmm2
	por	%xmm1, %xmm2
	movq	%xmm2, %rax
	bswapq	%rax
	movq	%rax, %rdi
	shrq	$59, %rdi
	cmpq	$17, %rdi
	jne	.LBB142_12
	movq	%rax, %r8
	shlq	$48, %r8
	movdqa	.LCPI142_7(%rip), %xmm1
	pand	%xmm0, %xmm1
	packuswb	%xmm1, %xmm1
	psllw	$4, %xmm1
	pand	.LCPI142_8(%rip), %xmm1
	psrlw	$8, %xmm0
	packuswb	%xmm0, %xmm0
	por	%xmm1, %xmm0
	pand	.LCPI142_9(%rip), %xmm0
	movq	%xmm0, %rsi
	bswapq	%rsi
	orq	%rsi, %r8
	movq	%rax, %rbx
	shrq	$24, %rbx
	movq	%rax, %rcx
	shrq	$54, %rcx
	andl	$572, %ecx
	leaq	.Lstatic.44(%rip), %r10
	movq	%rax, %r9
	shrq	$46, %r9
	andl	$1020, %r9d
	leaq	.Lstatic.45(%rip), %rdi
	xorl	(%rcx,%r10), %ebx
	xorl	(%r9,%rdi), %ebx
	movzbl	%bh, %ebp
	movzbl	%bl, %r11d
	shrl	$14, %ebx
	andl	$1020, %ebx
	leaq	.Lstatic.43(%rip), %r9
	movl	(%rbx,%r9), %ecx
	xorl	%eax, %ecx
	xorl	(%r10,%rbp,4), %ecx
	xorl	(%rdi,%r11,4), %ecx
	movq	%r8, %rbx
	shrq	$24, %rbx
	movzbl	%ch, %ebp
	movl	%ecx, %r11d
	shrl	$14, %r11d
	andl	$1020, %r11d
	xorl	(%r11,%r9), %ebx
	xorl	(%r10,%rbp,4), %ebx
	movzbl	%cl, %ecx
	xorl	(%rdi,%rcx,4), %ebx
	andl	$16777215, %esi
	movzbl	%bh, %ebp
	movzbl	%bl, %r11d
	shrl	$14, %ebx
	andl	$1020, %ebx
	movl	(%rbx,%r9), %ecx
	xorl	(%r10,%rbp,4), %esi
	xorl	(%rdi,%r11,4), %esi
	movl	%esi, %edi
	xorl	%ecx, %edi
	jne	.LBB142_15
	movq	%rax, %r10
	shrq	$16, %r10
	shldq	$40, %r8, %r10
	movq	%rax, %r15
	shrq	$56, %r15
	movq	%rax, %rdi
	shrq	$32, %rdi
	movabsq	$72057594037927935, %r9
	andq	%r10, %r9
	movq	%r9, %r11
	shrq	$51, %r11
	movb	$2, %bl
	cmpq	$5, %r11
	jae	.LBB142_18
.LBB142_17:
	xorl	%r12d, %r12d
	xorl	%eax, %eax
	jmp	.LBB142_24
.LBB142_12:
	movb	$6, %r8b
	xorl	%esi, %esi
	jmp	.LBB142_13
.LBB142_25:
	movq	%rdx, %r14
	movq	%rsp, %rdi
	movq	%rsi, %rdx
	movq	%rax, %rsi
	callq	"sq_text::reading::read_any"
	cmpb	$0, (%rsp)
	movzbl	8(%rsp), %r15d
	je	.LBB142_26
	movzbl	9(%rsp), %edi
	movl	12(%rsp), %esi
	movl	16(%rsp), %eax
	movl	20(%rsp), %edx
	shlq	$32, %rdx
	movzbl	%al, %ecx
	andl	$-256, %eax
	orq	%rdx, %rax
	orq	%rax, %rcx
	movl	$1, %eax
	xorl	%edx, %edx
	movzbl	%r15b, %r8d
	leaq	.LJTI142_0(%rip), %r9
	movslq	(%r9,%r8,4), %r8
	addq	%r9, %r8
	jmpq	*%r8
.LBB142_15:
	xorl	%ecx, %esi
	movb	$7, %r8b
	xorl	%edi, %edi
.LBB142_13:
	xorl	%ecx, %ecx
	movl	$1, %eax
	xorl	%edx, %edx
	movzbl	%r8b, %r8d
	leaq	.LJTI142_0(%rip), %r9
	movslq	(%r9,%r8,4), %r8
	addq	%r9, %r8
	jmpq	*%r8
.LBB142_44:
	movl	$40, %eax
	jmp	.LBB142_48
.LBB142_18:
	cmpl	$8, %r11d
	ja	.LBB142_20
	movl	%eax, %r12d
	shrl	$10, %r12d
	andl	$1, %r12d
	shrq	$41, %r8
	andl	$131071, %r8d
	movl	%eax, %ecx
	andl	$2048, %ecx
	shlq	$21, %rcx
	movl	%eax, %esi
	shll	$12, %esi
	andl	$2130706432, %esi
	orq	%rcx, %rsi
	movl	%eax, %ecx
	shrl	$3, %ecx
	andl	$65536, %ecx
	orq	%rsi, %rcx
	shrl	$12, %eax
	andl	$32512, %eax
	orq	%rcx, %rax
	orq	%r11, %rax
	andl	$131071, %r10d
	shlq	$32, %r10
	orq	%r8, %r10
	movb	$1, %bl
	jmp	.LBB142_23
.LBB142_26:
	movl	12(%rsp), %edi
	movzbl	16(%rsp), %ebx
	movl	20(%rsp), %r12d
	movq	24(%rsp), %r9
	movq	32(%rsp), %rax
	movq	%r14, %rdx
	cmpb	$2, %bl
	movq	%r15, 64(%rsp)
	movq	%rdi, 56(%rsp)
	jne	.LBB142_28
.LBB142_36:
	movq	%r9, %rax
	shrq	$51, %rax
	xorl	%r11d, %r11d
	xorl	%r8d, %r8d
	xorl	%ebx, %ebx
	xorl	%r10d, %r10d
	xorl	%ebp, %ebp
	xorl	%r12d, %r12d
	movq	$0, 48(%rsp)
	xorl	%r14d, %r14d
	xorl	%r13d, %r13d
	xorl	%esi, %esi
	jmp	.LBB142_37
.LBB142_40:
	movl	$3, %eax
	movq	%rcx, %rdx
	jmp	.LBB142_49
.LBB142_47:
	movl	$43, %eax
	jmp	.LBB142_48
.LBB142_45:
	movl	$41, %eax
	jmp	.LBB142_48
.LBB142_39:
	movl	$2, %eax
	jmp	.LBB142_48
.LBB142_43:
	movl	%esi, %edx
	movl	$6, %eax
	jmp	.LBB142_49
.LBB142_41:
	movl	$4, %eax
	movq	%rcx, %rdx
	jmp	.LBB142_49
.LBB142_42:
	movzbl	%dil, %edx
	movl	$5, %eax
	jmp	.LBB142_49
.LBB142_46:
	movl	$42, %eax
	movq	%rcx, %rdx
	jmp	.LBB142_49
.LBB142_20:
	cmpl	$19, %r11d
	jb	.LBB142_22
	cmpl	$19, %r11d
	setne	%cl
	cmpl	$23, %r11d
	setb	%sil
	andb	%cl, %sil
	cmpb	$1, %sil
	jne	.LBB142_17
.LBB142_22:
	movl	%eax, %r12d
	shrl	$10, %r12d
	andl	$1, %r12d
	shrq	$41, %r8
	andl	$131071, %r8d
	movl	%eax, %ecx
	andl	$2048, %ecx
	shlq	$37, %rcx
	movl	%eax, %esi
	andl	$16773120, %esi
	shlq	$20, %rsi
	orq	%rcx, %rsi
	movl	%eax, %ecx
	shrl	$8, %ecx
	andl	$65536, %ecx
	orq	%rsi, %rcx
	shrl	$17, %eax
	andl	$768, %eax
	orq	%rcx, %rax
	orq	%r11, %rax
	andl	$131071, %r10d
	shlq	$32, %r10
	orq	%r8, %r10
	xorl	%ebx, %ebx
.LBB142_23:
	movq	%r10, %r9
.LBB142_24:
	andb	$7, %r15b
	andl	$16777215, %edi
	cmpb	$2, %bl
	movq	%r15, 64(%rsp)
	movq	%rdi, 56(%rsp)
	je	.LBB142_36
.LBB142_28:
	movzbl	%bl, %ecx
	cmpl	$1, %ecx
	movq	%r12, 48(%rsp)
	jne	.LBB142_29
	movl	%r9d, %r11d
	shrq	$32, %r9
	movl	%r9d, %r8d
	movl	%eax, %r15d
	shrl	$8, %r15d
	movl	%eax, %edi
	shrl	$16, %edi
	movl	%eax, %ecx
	shrl	$24, %ecx
	movq	%rax, %r14
	shrq	$32, %r14
	andb	$1, %dil
	andb	$1, %r14b
	movb	$2, %r12b
	xorl	%r9d, %r9d
	xorl	%ebx, %ebx
	xorl	%r10d, %r10d
	xorl	%ebp, %ebp
	xorl	%r13d, %r13d
	xorl	%esi, %esi
	jmp	.LBB142_38
.LBB142_29:
	movq	%r9, %r8
	shrq	$32, %r8
	movq	%rax, %r10
	shrq	$32, %r10
	movb	$2, %bpl
	xorl	%ebx, %ebx
	cmpb	$19, %al
	ja	.LBB142_34
	xorl	%ebx, %ebx
	testw	%r10w, %r10w
	je	.LBB142_31
	testb	$16, %r10b
	je	.LBB142_34
	movl	%r10d, %ecx
	shrl	%ecx
	andl	$32752, %ecx
	movl	%r10d, %esi
	andl	$15, %esi
	orl	%ecx, %esi
	leal	(%rsi,%rsi,4), %ecx
	leal	(%rcx,%rcx,4), %ebx
	addl	$-1000, %ebx
	movb	$1, %bpl
	jmp	.LBB142_34
.LBB142_31:
	xorl	%ebp, %ebp
.LBB142_34:
	movl	%r9d, %r11d
	movl	%eax, %r13d
	shrl	$8, %r13d
	movl	%eax, %esi
	shrl	$16, %esi
	andb	$1, %sil
	movq	%rax, %r14
	shrq	$48, %r14
	andb	$1, %r14b
	movb	$1, %r12b
	xorl	%r9d, %r9d
.LBB142_37:
	xorl	%r15d, %r15d
	xorl	%edi, %edi
	xorl	%ecx, %ecx
.LBB142_38:
	movq	%r9, (%rdx)
	movq	56(%rsp), %r9
	movl	%r9d, 8(%rdx)
	movl	%r11d, 12(%rdx)
	movl	%r8d, 16(%rdx)
	movl	%ebx, 20(%rdx)
	movw	%r10w, 24(%rdx)
	movb	%bpl, 26(%rdx)
	movb	%r12b, 27(%rdx)
	movq	64(%rsp), %r8
	movb	%r8b, 28(%rdx)
	movb	%al, 29(%rdx)
	movq	48(%rsp), %rax
	movb	%al, 30(%rdx)
	movb	%r14b, 31(%rdx)
	movb	%r13b, 32(%rdx)
	movb	%sil, 33(%rdx)
	movb	%r15b, 34(%rdx)
	movb	%dil, 35(%rdx)
	movb	%cl, 36(%rdx)
	movw	$0, 37(%rdx)
	movb	$0, 39(%rdx)
	xorl	%eax, %eax
.LBB142_48:
	xorl	%edx, %edx
.LBB142_49:
	addq	$72, %rsp
	popq	%rbx
	popq	%r12
	popq	%r13
	popq	%r14
	popq	%r15
	popq	%rbp
	retq
.Lfunc_end142:
	.size	squitter_read_text, .Lfunc_end142-squitter_read_text
	.section	.rodata.squitter_read_text,"a",@progbits
	.p2align	2, 0x0
.LJTI142_0:
	.long	.LBB142_44-.LJTI142_0
	.long	.LBB142_45-.LJTI142_0
	.long	.LBB142_49-.LJTI142_0
	.long	.LBB142_39-.LJTI142_0
	.long	.LBB142_40-.LJTI142_0
	.long	.LBB142_41-.LJTI142_0
	.long	.LBB142_42-.LJTI142_0
	.long	.LBB142_43-.LJTI142_0
	.long	.LBB142_46-.LJTI142_0
	.long	.LBB142_47-.LJTI142_0

	.section	.text.squitter_send_again,"ax",@progbits
	.globl	squitter_send_again
	.p2align	4
	.type	squitter_send_again,@function
squitter_send_again:
	cmpb	$1, %sil
	ja	.LBB143_18
	pushq	%rbp
	pushq	%r15
	pushq	%r14
	pushq	%r12
	pushq	%rbx
	subq	$96, %rsp
	movabsq	$-1000000000001, %r11
	movq	8(%rdx), %rax
	leaq	(%rax,%r11), %r8
	leaq	1(%r11), %rbx
	cmpq	%rbx, %r8
	jb	.LBB143_20
	movq	(%rdx), %r8
	movq	%r8, %r10
	negq	%r10
	cmovsq	%r8, %r10
	imulq	$360, %rax, %r9
	cmpq	%r10, %r9
	jb	.LBB143_20
	movq	24(%rdx), %r9
	addq	%r9, %r11
	cmpq	%rbx, %r11
	jb	.LBB143_20
	movq	16(%rdx), %rdx
	movq	%rdx, %r11
	negq	%r11
	cmovsq	%rdx, %r11
	imulq	$360, %r9, %rbx
	cmpq	%r11, %rbx
	jae	.LBB143_5
.LBB143_20:
	movl	$20, %eax
.LBB143_21:
	xorl	%edx, %edx
.LBB143_22:
	addq	$96, %rsp
	popq	%rbx
	popq	%r12
	popq	%r14
	popq	%r15
	popq	%rbp
	retq
.LBB143_18:
	movl	$25, %eax
	xorl	%edx, %edx
	retq
.LBB143_5:
	imulq	$90, %rax, %rbx
	cmpq	%rbx, %r10
	ja	.LBB143_20
	imulq	$180, %r9, %r10
	cmpq	%r10, %r11
	ja	.LBB143_20
	movq	(%rdi), %rbx
	movzwl	8(%rdi), %r11d
	movl	10(%rdi), %edi
	movq	%r8, 64(%rsp)
	movq	%rax, 72(%rsp)
	movq	%rdx, 80(%rsp)
	movq	%r9, 88(%rsp)
	bswapq	%rbx
	movq	%rbx, %rdx
	shrq	$59, %rdx
	movl	$5, %eax
	cmpq	$17, %rdx
	jne	.LBB143_22
	shll	$16, %r11d
	movq	%rbx, %r10
	shlq	$48, %r10
	shlq	$32, %rdi
	orq	%r11, %rdi
	bswapq	%rdi
	movq	%rbx, %rax
	shrq	$24, %rax
	movq	%rbx, %rdx
	shrq	$54, %rdx
	andl	$572, %edx
	leaq	.Lstatic.44(%rip), %r11
	movq	%rbx, %r9
	shrq	$46, %r9
	andl	$1020, %r9d
	leaq	.Lstatic.45(%rip), %r8
	xorl	(%rdx,%r11), %eax
	xorl	(%r9,%r8), %eax
	movzbl	%ah, %ebp
	movzbl	%al, %r14d
	shrl	$14, %eax
	andl	$1020, %eax
	leaq	.Lstatic.43(%rip), %r9
	movl	(%rax,%r9), %edx
	xorl	%ebx, %edx
	xorl	(%r11,%rbp,4), %edx
	orq	%rdi, %r10
	xorl	(%r8,%r14,4), %edx
	movq	%r10, %rax
	shrq	$24, %rax
	movzbl	%dh, %ebp
	movzbl	%dl, %r14d
	shrl	$14, %edx
	andl	$1020, %edx
	xorl	(%rdx,%r9), %eax
	xorl	(%r11,%rbp,4), %eax
	xorl	(%r8,%r14,4), %eax
	andl	$16777215, %edi
	movzbl	%ah, %edx
	movzbl	%al, %r14d
	shrl	$14, %eax
	andl	$1020, %eax
	xorl	(%r11,%rdx,4), %edi
	movl	(%rax,%r9), %eax
	xorl	(%r8,%r14,4), %edi
	cmpl	%edi, %eax
	jne	.LBB143_9
	movq	%rbx, %rdx
	shrq	$16, %rdx
	movq	%rdx, %rax
	shldq	$40, %r10, %rax
	movabsq	$72057594037927935, %r15
	andq	%rax, %r15
	shrq	$51, %r15
	cmpq	$5, %r15
	jae	.LBB143_11
.LBB143_17:
	movl	$10, %eax
	jmp	.LBB143_21
.LBB143_9:
	xorl	%eax, %edi
	movl	$6, %eax
	movq	%rdi, %rdx
	jmp	.LBB143_22
.LBB143_11:
	cmpl	$9, %r15d
	jae	.LBB143_12
	movq	%rcx, %r14
	shldq	$28, %r10, %rdx
	shrq	$27, %r10
	movabsq	$4294967296, %rax
	andq	%r10, %rax
	andl	$2130706432, %edx
	movl	%ebx, %ecx
	shrl	$3, %ecx
	andl	$65536, %ecx
	movl	%ebx, %r12d
	shrl	$12, %r12d
	andl	$32512, %r12d
	orl	%ecx, %r12d
	orq	%rdx, %r12
	orq	%rax, %r12
	xorps	%xmm0, %xmm0
	movaps	%xmm0, (%rsp)
	movzbl	%sil, %edx
	movq	%rsp, %rdi
	leaq	64(%rsp), %rsi
	callq	"sq_cpr::encoding::nearest::<#9b749bce0116a0b1>"
	movzbl	(%rsp), %ecx
	movl	4(%rsp), %eax
	movl	12(%rsp), %edx
	movq	$0, (%rsp)
	movq	$0, 6(%rsp)
	movl	$1, %esi
	jmp	.LBB143_16
.LBB143_12:
	cmpl	$19, %r15d
	jb	.LBB143_14
	cmpl	$19, %r15d
	setne	%al
	cmpl	$23, %r15d
	setb	%dil
	testb	%dil, %al
	je	.LBB143_17
.LBB143_14:
	movq	%rcx, %r14
	shldq	$36, %r10, %rdx
	shrq	$11, %r10
	movabsq	$281474976710656, %rax
	andq	%r10, %rax
	movabsq	$17587891077120, %rcx
	andq	%rdx, %rcx
	movl	%ebx, %edx
	shrl	$8, %edx
	andl	$65536, %edx
	movl	%ebx, %r12d
	shrl	$17, %r12d
	andl	$768, %r12d
	orl	%edx, %r12d
	orq	%rcx, %r12
	orq	%rax, %r12
	xorps	%xmm0, %xmm0
	movaps	%xmm0, 32(%rsp)
	movzbl	%sil, %edx
	leaq	32(%rsp), %rdi
	leaq	64(%rsp), %rsi
	callq	"sq_cpr::encoding::nearest::<17'sq_cpr::span::Air,21'sq_cpr::span::AirSpan{}>"
	movzbl	32(%rsp), %ecx
	movl	36(%rsp), %eax
	movl	44(%rsp), %edx
	movq	$0, (%rsp)
	movq	$0, 6(%rsp)
	xorl	%esi, %esi
.LBB143_16:
	movq	%rbx, %rdi
	shrq	$56, %rdi
	andb	$7, %dil
	shrq	$32, %rbx
	andl	$16777215, %ebx
	orq	%r15, %r12
	movq	$0, 32(%rsp)
	andl	$131071, %edx
	andl	$131071, %eax
	movb	%dil, 32(%rsp)
	movl	%ebx, 36(%rsp)
	movl	%esi, 40(%rsp)
	movb	%cl, 44(%rsp)
	movb	$0, 47(%rsp)
	movw	$0, 45(%rsp)
	movl	%eax, 48(%rsp)
	movl	%edx, 52(%rsp)
	movq	%r12, 56(%rsp)
	movq	%rsp, %rdi
	leaq	32(%rsp), %rsi
	callq	"sq_message::write::write_frame"
	movl	(%rsp), %eax
	movl	3(%rsp), %ecx
	movl	%ecx, 27(%rsp)
	movl	%eax, 24(%rsp)
	movzwl	11(%rsp), %eax
	movzbl	13(%rsp), %ecx
	movl	7(%rsp), %edx
	movl	24(%rsp), %esi
	movl	27(%rsp), %edi
	movl	%edi, 3(%r14)
	movl	%esi, (%r14)
	movl	%edx, 7(%r14)
	movb	%cl, 13(%r14)
	movw	%ax, 11(%r14)
	xorl	%eax, %eax
	jmp	.LBB143_21
.Lfunc_end143:
	.size	squitter_send_again, .Lfunc_end143-squitter_send_again

	.section	.text.squitter_text_of_angle,"ax",@progbits
	.globl	squitter_text_of_angle
	.p2align	4
	.type	squitter_text_of_angle,@function
squitter_text_of_angle:
	movq	8(%rdi), %rcx
	movabsq	$-1000000000001, %rdx
	leaq	(%rcx,%rdx), %r8
	incq	%rdx
	movl	$22, %eax
	cmpq	%rdx, %r8
	jb	.LBB144_16
	pushq	%r15
	pushq	%r14
	pushq	%rbx
	subq	$48, %rsp
	movq	(%rdi), %rbx
	movq	%rbx, %rdx
	negq	%rdx
	cmovsq	%rbx, %rdx
	imulq	$360, %rcx, %rdi
	cmpq	%rdx, %rdi
	jb	.LBB144_15
	xorps	%xmm0, %xmm0
	movl	$20000000, %edi
	movq	%rdx, %rax
	mulq	%rdi
	movaps	%xmm0, (%rsp)
	addq	%rcx, %rax
	adcq	$0, %rdx
	movabsq	$1099503304703, %rdi
	testq	%rdi, %rcx
	movq	%rsi, %r14
	jne	.LBB144_5
	movq	%rax, %rsi
	shrq	$56, %rsi
	orq	%rdx, %rsi
	jne	.LBB144_5
	shrq	$17, %rax
	shrq	$13, %rcx
	leaq	.Lstatic.40(%rip), %rdx
	mulq	(%rcx,%rdx)
	movq	%rdx, %rcx
	shldq	$16, %rax, %rcx
	xorl	%esi, %esi
	testq	%rbx, %rbx
	jns	.LBB144_9
.LBB144_7:
	testq	%rcx, %rcx
	je	.LBB144_9
	movb	$45, (%rsp)
	movl	$1, %esi
.LBB144_9:
	xorl	%edi, %edi
	cmpq	$1000000000, %rcx
	setb	%dil
	cmpq	$100000000, %rcx
	adcq	$0, %rdi
	leaq	.Lstatic.22(%rip), %r8
	movabsq	$-2972493582642298179, %rdx
	movq	%rcx, %rax
	mulq	%rdx
	shrq	$23, %rdx
	leaq	(%r8,%rdx,4), %rax
	movl	(%rdi,%rax), %eax
	movl	%eax, (%rsp,%rsi)
	xorq	$3, %rdi
	leaq	(%rsi,%rdi), %r15
	movb	$46, (%rsp,%r15)
	imulq	$10000000, %rdx, %rax
	subq	%rax, %rcx
	imulq	$17592187, %rcx, %rax
	shrq	$44, %rax
	orb	$48, %al
	movb	%al, 1(%rsp,%r15)
	imulq	$8589935, %rcx, %rax
	shrq	$33, %rax
	imull	$33555, %eax, %edx
	shrl	$25, %edx
	imull	$1000, %edx, %edx
	imull	$1000, %eax, %r9d
	subl	%edx, %eax
	andl	$16383, %eax
	movzwl	(%r8,%rax,4), %edx
	movw	%dx, 2(%rsp,%r15)
	movzbl	2(%r8,%rax,4), %eax
	movb	%al, 4(%rsp,%r15)
	subl	%r9d, %ecx
	movzwl	(%r8,%rcx,4), %eax
	movw	%ax, 5(%rsp,%r15)
	movzbl	2(%r8,%rcx,4), %eax
	movb	%al, 7(%rsp,%r15)
	leaq	(%rsi,%rdi), %rbx
	addq	$8, %rbx
	movq	%rbx, 16(%rsp)
	movl	$24, %edx
	subq	%rbx, %rdx
	leaq	(%rsp,%r15), %rdi
	addq	$32, %rdi
	xorl	%esi, %esi
	callq	memset@PLT
	leaq	24(%rsp), %rdi
	movq	%rsp, %rsi
	movq	%rbx, %rdx
	callq	memcpy@PLT
	movzbl	32(%rsp), %esi
	movzbl	33(%rsp), %edx
	movzbl	34(%rsp), %ecx
	movzbl	35(%rsp), %eax
	movq	24(%rsp), %rdi
	movq	%rdi, (%r14)
	movb	%sil, 8(%r14)
	cmpq	$9, %rbx
	jbe	.LBB144_10
	movb	%dl, 9(%r14)
	cmpq	$2, %r15
	je	.LBB144_12
	movb	%cl, 10(%r14)
	xorl	%ecx, %ecx
	cmpq	$12, %rbx
	movzbl	%al, %eax
	cmovbl	%ecx, %eax
	jmp	.LBB144_14
.LBB144_10:
	movb	$0, 9(%r14)
.LBB144_12:
	movb	$0, 10(%r14)
	xorl	%eax, %eax
.LBB144_14:
	movb	%al, 11(%r14)
	movl	$0, 12(%r14)
	xorl	%eax, %eax
.LBB144_15:
	addq	$48, %rsp
	popq	%rbx
	popq	%r14
	popq	%r15
.LBB144_16:
	xorl	%edx, %edx
	retq
.LBB144_5:
	addq	%rcx, %rcx
	movq	%rax, %rdi
	movq	%rdx, %rsi
	movq	%rcx, %rdx
	callq	"sq_angle::quotients::divided"
	movq	%rax, %rcx
	xorl	%esi, %esi
	testq	%rbx, %rbx
	js	.LBB144_7
	jmp	.LBB144_9
.Lfunc_end144:
	.size	squitter_text_of_angle, .Lfunc_end144-squitter_text_of_angle

	.section	.text.squitter_tracker_new,"ax",@progbits
	.globl	squitter_tracker_new
	.p2align	4
	.type	squitter_tracker_new,@function
squitter_tracker_new:
	subq	$72, %rsp
	movq	%r8, %r9
	movl	%ecx, %r8d
	movq	%rdx, %rcx
	movq	%rsi, %rdx
	movq	%rdi, %rsi
	xorps	%xmm0, %xmm0
	movaps	%xmm0, 16(%rsp)
	movaps	%xmm0, 32(%rsp)
	movaps	%xmm0, 48(%rsp)
	movq	$0, 64(%rsp)
	leaq	32(%rsp), %rax
	movq	%rax, (%rsp)
	leaq	16(%rsp), %rdi
	callq	"squitter_c::tracker_new::make"
	movq	16(%rsp), %rax
	movq	24(%rsp), %rdx
	addq	$72, %rsp
	retq
.Lfunc_end145:
	.size	squitter_tracker_new, .Lfunc_end145-squitter_tracker_new

	.section	.text.squitter_log_new,"ax",@progbits
	.globl	squitter_log_new
	.p2align	4
	.type	squitter_log_new,@function
squitter_log_new:
	subq	$72, %rsp
	movq	%r8, %r9
	movl	%ecx, %r8d
	movq	%rdx, %rcx
	movq	%rsi, %rdx
	movq	%rdi, %rsi
	xorps	%xmm0, %xmm0
	movaps	%xmm0, 16(%rsp)
	movaps	%xmm0, 32(%rsp)
	movaps	%xmm0, 48(%rsp)
	movq	$0, 64(%rsp)
	leaq	32(%rsp), %rax
	movq	%rax, (%rsp)
	leaq	16(%rsp), %rdi
	callq	"squitter_c::tracker_new::make"
	movq	16(%rsp), %rax
	movq	24(%rsp), %rdx
	addq	$72, %rsp
	retq
.Lfunc_end146:
	.size	squitter_log_new, .Lfunc_end146-squitter_log_new

	.section	.text.squitter_tracker_new_at,"ax",@progbits
	.globl	squitter_tracker_new_at
	.p2align	4
	.type	squitter_tracker_new_at,@function
squitter_tracker_new_at:
	pushq	%r15
	pushq	%r14
	pushq	%rbx
	subq	$80, %rsp
	movq	%r8, %rax
	movl	%ecx, %r8d
	movq	%rdx, %rcx
	movq	%rsi, %rdx
	movq	%rdi, %rsi
	movabsq	$-1000000000001, %r14
	xorps	%xmm0, %xmm0
	movaps	%xmm0, 16(%rsp)
	movq	8(%r9), %rdi
	leaq	(%rdi,%r14), %r10
	leaq	1(%r14), %r15
	cmpq	%r15, %r10
	jb	.LBB147_7
	movq	(%r9), %r10
	movq	%r10, %rbx
	negq	%rbx
	cmovsq	%r10, %rbx
	imulq	$360, %rdi, %r11
	cmpq	%rbx, %r11
	jb	.LBB147_7
	movq	24(%r9), %r11
	addq	%r11, %r14
	cmpq	%r15, %r14
	jb	.LBB147_7
	movq	16(%r9), %r9
	movq	%r9, %r14
	negq	%r14
	cmovsq	%r9, %r14
	imulq	$360, %r11, %r15
	cmpq	%r14, %r15
	jae	.LBB147_4
.LBB147_7:
	movups	%xmm0, (%rsi)
	movl	$20, 16(%rsp)
	xorl	%edx, %edx
.LBB147_8:
	movq	16(%rsp), %rax
	addq	$80, %rsp
	popq	%rbx
	popq	%r14
	popq	%r15
	retq
.LBB147_4:
	imulq	$90, %rdi, %r15
	cmpq	%r15, %rbx
	ja	.LBB147_7
	imulq	$180, %r11, %rbx
	cmpq	%rbx, %r14
	ja	.LBB147_7
	movq	$1, 40(%rsp)
	movq	%r10, 48(%rsp)
	movq	%rdi, 56(%rsp)
	movq	%r9, 64(%rsp)
	movq	%r11, 72(%rsp)
	leaq	40(%rsp), %rdi
	movq	%rdi, (%rsp)
	leaq	16(%rsp), %rdi
	movq	%rax, %r9
	callq	"squitter_c::tracker_new::make"
	movq	24(%rsp), %rdx
	jmp	.LBB147_8
.Lfunc_end147:
	.size	squitter_tracker_new_at, .Lfunc_end147-squitter_tracker_new_at

	.section	.text.squitter_log_new_at,"ax",@progbits
	.globl	squitter_log_new_at
	.p2align	4
	.type	squitter_log_new_at,@function
squitter_log_new_at:
	pushq	%r15
	pushq	%r14
	pushq	%rbx
	subq	$80, %rsp
	movq	%r8, %rax
	movl	%ecx, %r8d
	movq	%rdx, %rcx
	movq	%rsi, %rdx
	movq	%rdi, %rsi
	movabsq	$-1000000000001, %r14
	xorps	%xmm0, %xmm0
	movaps	%xmm0, 16(%rsp)
	movq	8(%r9), %rdi
	leaq	(%rdi,%r14), %r10
	leaq	1(%r14), %r15
	cmpq	%r15, %r10
	jb	.LBB148_7
	movq	(%r9), %r10
	movq	%r10, %rbx
	negq	%rbx
	cmovsq	%r10, %rbx
	imulq	$360, %rdi, %r11
	cmpq	%rbx, %r11
	jb	.LBB148_7
	movq	24(%r9), %r11
	addq	%r11, %r14
	cmpq	%r15, %r14
	jb	.LBB148_7
	movq	16(%r9), %r9
	movq	%r9, %r14
	negq	%r14
	cmovsq	%r9, %r14
	imulq	$360, %r11, %r15
	cmpq	%r14, %r15
	jae	.LBB148_4
.LBB148_7:
	movups	%xmm0, (%rsi)
	movl	$20, 16(%rsp)
	xorl	%edx, %edx
.LBB148_8:
	movq	16(%rsp), %rax
	addq	$80, %rsp
	popq	%rbx
	popq	%r14
	popq	%r15
	retq
.LBB148_4:
	imulq	$90, %rdi, %r15
	cmpq	%r15, %rbx
	ja	.LBB148_7
	imulq	$180, %r11, %rbx
	cmpq	%rbx, %r14
	ja	.LBB148_7
	movq	$1, 40(%rsp)
	movq	%r10, 48(%rsp)
	movq	%rdi, 56(%rsp)
	movq	%r9, 64(%rsp)
	movq	%r11, 72(%rsp)
	leaq	40(%rsp), %rdi
	movq	%rdi, (%rsp)
	leaq	16(%rsp), %rdi
	movq	%rax, %r9
	callq	"squitter_c::tracker_new::make"
	movq	24(%rsp), %rdx
	jmp	.LBB148_8
.Lfunc_end148:
	.size	squitter_log_new_at, .Lfunc_end148-squitter_log_new_at

	.section	.text.squitter_tracker_restore,"ax",@progbits
	.globl	squitter_tracker_restore
	.p2align	4
	.type	squitter_tracker_restore,@function
squitter_tracker_restore:
	pushq	%rbp
	pushq	%r15
	pushq	%r14
	pushq	%r13
	pushq	%r12
	pushq	%rbx
	subq	$840, %rsp
	movq	%rcx, 200(%rsp)
	xorl	%ebx, %ebx
	movq	%rdx, 144(%rsp)
	testq	%rdx, %rdx
	sete	%bpl
	movq	8(%rdi), %r12
	cmpq	$0, (%rdi)
	pxor	%xmm0, %xmm0
	movdqu	%xmm0, (%rdi)
	je	.LBB149_1
	movq	%rdi, %r13
	cmpq	$0, 8(%rsi)
	je	.LBB149_3
	movq	(%rsi), %r15
	movl	$1, %r14d
	jmp	.LBB149_5
.LBB149_1:
	xorl	%edx, %edx
	movl	$46, %eax
	jmp	.LBB149_152
.LBB149_3:
	xorl	%r14d, %r14d
	xorl	%r15d, %r15d
.LBB149_5:
	leaq	408(%rsp), %rdi
	movl	$296, %edx
	xorl	%esi, %esi
	callq	memset@PLT
	pxor	%xmm0, %xmm0
	movdqa	%xmm0, 368(%rsp)
	movdqa	%xmm0, 384(%rsp)
	movq	$0, 400(%rsp)
	movdqa	%xmm0, 320(%rsp)
	movdqa	%xmm0, 336(%rsp)
	movq	$0, 352(%rsp)
	movdqa	%xmm0, 272(%rsp)
	movdqa	%xmm0, 288(%rsp)
	movq	$0, 304(%rsp)
	movdqa	%xmm0, 224(%rsp)
	movdqa	%xmm0, 240(%rsp)
	movq	$0, 256(%rsp)
	cmpq	$0, 176(%r12)
	je	.LBB149_7
	movq	$0, 176(%r12)
.LBB149_7:
	movq	144(%r12), %rdx
	testq	%rdx, %rdx
	je	.LBB149_8
	movq	136(%r12), %rdi
	shlq	$6, %rdx
	xorl	%esi, %esi
	callq	memset@PLT
	movq	144(%r12), %rax
	leaq	(%rax,%rax,8), %rax
	movq	%rax, 200(%r12)
	cmpq	$0, 80(%r12)
	je	.LBB149_12
.LBB149_11:
	movq	$0, 80(%r12)
.LBB149_12:
	cmpq	$0, 112(%r12)
	je	.LBB149_14
	movq	$0, 112(%r12)
.LBB149_14:
	cmpq	$0, 224(%r12)
	je	.LBB149_16
	movq	$0, 224(%r12)
.LBB149_16:
	movl	$0, 248(%r12)
	movq	%r14, 56(%r12)
	movq	%r15, 64(%r12)
	movq	$0, 256(%r12)
	xorl	%edi, %edi
	cmpq	$0, 200(%rsp)
	je	.LBB149_17
	movb	%bpl, %bl
	shll	$12, %ebx
	movq	144(%rsp), %rbp
	addq	%rbx, %rbp
	movabsq	$-1000000000001, %rbx
	xorl	%esi, %esi
	movq	%r13, 136(%rsp)
	movq	%rbp, 144(%rsp)
.LBB149_19:
	movq	%rdi, 208(%rsp)
	movq	%rsi, 128(%rsp)
	leaq	(%rsi,%rsi,2), %r15
	shlq	$6, %r15
	leaq	(%r15,%rbp), %r14
	movq	(%rbp,%r15), %rax
	movq	%rax, 56(%rsp)
	leaq	(%r15,%rbp), %rsi
	addq	$16, %rsi
	leaq	80(%rsp), %rdi
	callq	"squitter_c::entry::received_of"
	leaq	(%r15,%rbp), %rsi
	addq	$40, %rsi
	leaq	792(%rsp), %rdi
	callq	"squitter_c::entry::received_of"
	movq	80(%rbp,%r15), %rax
	leaq	(%rax,%rbx), %rcx
	incq	%rbx
	cmpq	%rbx, %rcx
	jb	.LBB149_20
	movq	72(%rbp,%r15), %rcx
	movq	%rcx, %rdi
	negq	%rdi
	cmovsq	%rcx, %rdi
	imulq	$360, %rax, %rdx
	cmpq	%rdi, %rdx
	jb	.LBB149_20
	movq	96(%r14), %rdx
	movabsq	$-1000000000001, %rsi
	addq	%rdx, %rsi
	cmpq	%rbx, %rsi
	jb	.LBB149_20
	movq	88(%r14), %rsi
	movq	%rsi, %r8
	negq	%r8
	cmovsq	%rsi, %r8
	imulq	$360, %rdx, %r9
	cmpq	%r8, %r9
	jae	.LBB149_24
	.p2align	4
.LBB149_20:
	movq	$0, 8(%rsp)
.LBB149_25:
	movq	$0, 40(%rsp)
	movq	$0, 32(%rsp)
	movq	$0, 24(%rsp)
	movq	$0, 16(%rsp)
	movq	$0, 48(%rsp)
.LBB149_28:
	movzbl	80(%rsp), %eax
	movq	%rax, 72(%rsp)
	movzbl	792(%rsp), %eax
	movq	%rax, 64(%rsp)
	leaq	88(%rsp), %rax
	movups	(%rax), %xmm0
	movups	16(%rax), %xmm1
	movaps	%xmm0, 752(%rsp)
	movaps	%xmm1, 768(%rsp)
	movq	32(%rax), %rax
	movq	%rax, 784(%rsp)
	leaq	800(%rsp), %rcx
	movq	32(%rcx), %rax
	movq	%rax, 736(%rsp)
	movups	(%rcx), %xmm0
	movups	16(%rcx), %xmm1
	movaps	%xmm1, 720(%rsp)
	movaps	%xmm0, 704(%rsp)
	leaq	104(%r14), %rsi
	leaq	80(%rsp), %rdi
	callq	"squitter_c::entry::received_of"
	leaq	128(%r14), %rsi
	leaq	792(%rsp), %rdi
	callq	"squitter_c::entry::received_of"
	movq	168(%r14), %rax
	movabsq	$-1000000000001, %rcx
	addq	%rax, %rcx
	cmpq	%rbx, %rcx
	jae	.LBB149_30
	xorl	%r8d, %r8d
	xorl	%ebp, %ebp
	xorl	%r13d, %r13d
	xorl	%r9d, %r9d
	xorl	%r11d, %r11d
	xorl	%edi, %edi
	movq	56(%rsp), %r10
	jmp	.LBB149_38
	.p2align	4
.LBB149_30:
	movq	160(%r14), %rcx
	movq	%rcx, %rdi
	negq	%rdi
	cmovsq	%rcx, %rdi
	imulq	$360, %rax, %rdx
	cmpq	%rdi, %rdx
	movq	56(%rsp), %r10
	jb	.LBB149_31
	movq	184(%r14), %rdx
	movabsq	$-1000000000001, %rsi
	addq	%rdx, %rsi
	cmpq	%rbx, %rsi
	jb	.LBB149_31
	movq	176(%r14), %rsi
	movq	%rsi, %r8
	negq	%r8
	cmovsq	%rsi, %r8
	imulq	$360, %rdx, %r9
	cmpq	%r8, %r9
	jae	.LBB149_34
	.p2align	4
.LBB149_31:
	xorl	%r8d, %r8d
	xorl	%ebp, %ebp
	xorl	%r13d, %r13d
	xorl	%r9d, %r9d
	xorl	%r11d, %r11d
	xorl	%edi, %edi
.LBB149_38:
	movzbl	80(%rsp), %ebx
	movzbl	792(%rsp), %r15d
	leaq	88(%rsp), %rcx
	movq	32(%rcx), %rax
	movq	%rax, 304(%rsp)
	movups	(%rcx), %xmm0
	movups	16(%rcx), %xmm1
	movaps	%xmm1, 288(%rsp)
	movaps	%xmm0, 272(%rsp)
	leaq	800(%rsp), %rcx
	movq	32(%rcx), %rax
	movq	%rax, 256(%rsp)
	movups	(%rcx), %xmm0
	movups	16(%rcx), %xmm1
	movaps	%xmm1, 240(%rsp)
	movaps	%xmm0, 224(%rsp)
	movq	784(%rsp), %rax
	movq	%rax, 400(%rsp)
	movaps	752(%rsp), %xmm0
	movaps	768(%rsp), %xmm1
	movaps	%xmm1, 384(%rsp)
	movaps	%xmm0, 368(%rsp)
	movq	736(%rsp), %rax
	movq	%rax, 352(%rsp)
	movaps	704(%rsp), %xmm0
	movaps	720(%rsp), %xmm1
	movaps	%xmm1, 336(%rsp)
	movaps	%xmm0, 320(%rsp)
	movq	%r10, 408(%rsp)
	movq	72(%rsp), %rax
	movq	%rax, 416(%rsp)
	movq	400(%rsp), %rax
	leaq	424(%rsp), %rcx
	movq	%rax, 32(%rcx)
	movaps	368(%rsp), %xmm0
	movaps	384(%rsp), %xmm1
	movups	%xmm1, 16(%rcx)
	movups	%xmm0, (%rcx)
	movq	64(%rsp), %rax
	movq	%rax, 464(%rsp)
	movq	352(%rsp), %rax
	movq	%rax, 80(%rcx)
	movaps	320(%rsp), %xmm0
	movaps	336(%rsp), %xmm1
	movups	%xmm1, 64(%rcx)
	movups	%xmm0, 48(%rcx)
	movq	8(%rsp), %rax
	movq	%rax, 512(%rsp)
	movq	48(%rsp), %rax
	movq	%rax, 520(%rsp)
	movq	40(%rsp), %rax
	movq	%rax, 528(%rsp)
	movq	32(%rsp), %rax
	movq	%rax, 536(%rsp)
	movq	24(%rsp), %rax
	movq	%rax, 544(%rsp)
	movq	16(%rsp), %rax
	movq	%rax, 552(%rsp)
	movq	%rbx, 560(%rsp)
	movq	304(%rsp), %rax
	movq	%rax, 176(%rcx)
	movaps	272(%rsp), %xmm0
	movaps	288(%rsp), %xmm1
	movups	%xmm1, 160(%rcx)
	movups	%xmm0, 144(%rcx)
	movq	%r15, 608(%rsp)
	movq	256(%rsp), %rax
	movq	%rax, 224(%rcx)
	movdqa	224(%rsp), %xmm0
	movdqa	240(%rsp), %xmm1
	movdqu	%xmm1, 208(%rcx)
	movdqu	%xmm0, 192(%rcx)
	movq	%r8, 216(%rsp)
	movq	%r8, 656(%rsp)
	movq	%rdi, 184(%rsp)
	movq	%rdi, 664(%rsp)
	movq	%rbp, 176(%rsp)
	movq	%rbp, 672(%rsp)
	movq	%r13, 168(%rsp)
	movq	%r13, 680(%rsp)
	movq	%r9, 160(%rsp)
	movq	%r9, 688(%rsp)
	movq	%r11, 152(%rsp)
	movq	%r11, 696(%rsp)
	movq	80(%r12), %r13
	movl	(%r12), %eax
	cmpq	%rax, %r13
	jae	.LBB149_73
	movl	8(%r14), %ebp
	movq	72(%r12), %r14
	movq	136(%r12), %r11
	movq	144(%r12), %rax
	movq	%rax, 192(%rsp)
	testq	%rax, %rax
	je	.LBB149_47
	movl	$4294967295, %edi
	leaq	2(%rdi), %rax
	imulq	%rbp, %rax
	xorq	208(%r12), %rax
	movabsq	$-7046029254386353123, %rcx
	mulq	%rcx
	xorq	%rax, %rdx
	movq	%rdx, %rsi
	shrq	$32, %rsi
	xorl	%edx, %esi
	movl	%esi, %ecx
	shrl	$24, %ecx
	cmpb	$1, %cl
	adcl	$0, %ecx
	movq	192(%rsp), %r8
	leal	(%r8,%rdi), %eax
	andl	%esi, %eax
	movd	%ecx, %xmm0
	punpcklbw	%xmm0, %xmm0
	movl	$1, %edx
	shll	%cl, %edx
	pshuflw	$0, %xmm0, %xmm0
	pshufd	$68, %xmm0, %xmm0
	leaq	-1(%r8), %rcx
	movq	%rax, %rsi
.LBB149_41:
	movq	%rsi, %r8
	shlq	$6, %r8
	leaq	(%r11,%r8), %rdi
	movdqu	(%r11,%r8), %xmm1
	pcmpeqb	%xmm0, %xmm1
	pmovmskb	%xmm1, %r8d
	andl	$4095, %r8d
	je	.LBB149_45
	movzwl	%r8w, %r8d
	.p2align	4
.LBB149_43:
	rep		bsfl	%r8d, %r9d
	movl	16(%rdi,%r9,4), %r9d
	cmpl	(%r14,%r9,4), %ebp
	je	.LBB149_73
	leal	-1(%r8), %r9d
	andl	%r8d, %r9d
	movl	%r9d, %r8d
	jne	.LBB149_43
.LBB149_45:
	testl	%edx, 12(%rdi)
	je	.LBB149_47
	incq	%rsi
	andq	%rcx, %rsi
	cmpq	%rax, %rsi
	jne	.LBB149_41
	.p2align	4
.LBB149_47:
	testb	$1, 72(%rsp)
	je	.LBB149_51
	cmpq	%r10, 424(%rsp)
	ja	.LBB149_73
	cmpl	%ebp, 436(%rsp)
	jne	.LBB149_73
	movzbl	444(%rsp), %eax
	orb	440(%rsp), %al
	jne	.LBB149_73
.LBB149_51:
	testb	$1, 64(%rsp)
	je	.LBB149_56
	cmpq	%r10, 472(%rsp)
	ja	.LBB149_73
	cmpl	%ebp, 484(%rsp)
	jne	.LBB149_73
	cmpb	$0, 488(%rsp)
	jne	.LBB149_73
	testb	$1, 492(%rsp)
	je	.LBB149_73
.LBB149_56:
	cmpb	$1, %bl
	jne	.LBB149_61
	cmpq	%r10, 568(%rsp)
	ja	.LBB149_73
	cmpl	%ebp, 580(%rsp)
	jne	.LBB149_73
	cmpb	$1, 584(%rsp)
	jne	.LBB149_73
	cmpb	$0, 588(%rsp)
	jne	.LBB149_73
.LBB149_61:
	cmpb	$1, %r15b
	jne	.LBB149_66
	cmpq	%r10, 616(%rsp)
	ja	.LBB149_73
	cmpl	%ebp, 628(%rsp)
	jne	.LBB149_73
	cmpb	$1, 632(%rsp)
	jne	.LBB149_73
	testb	$1, 636(%rsp)
	je	.LBB149_73
.LBB149_66:
	movq	424(%rsp), %rax
	cmpb	$1, 72(%rsp)
	jne	.LBB149_68
	cmpq	%rax, %r10
	jbe	.LBB149_79
.LBB149_68:
	cmpb	$1, 64(%rsp)
	jne	.LBB149_70
	cmpq	472(%rsp), %r10
	jbe	.LBB149_79
.LBB149_70:
	cmpb	$1, %bl
	jne	.LBB149_77
	movq	568(%rsp), %rcx
	cmpq	%rcx, %r10
	seta	%dl
	testb	%r15b, %dl
	jne	.LBB149_78
	cmpq	%rcx, %r10
	jbe	.LBB149_79
	jmp	.LBB149_73
.LBB149_24:
	imulq	$90, %rax, %r9
	movq	$0, 8(%rsp)
	cmpq	%r9, %rdi
	ja	.LBB149_25
	imulq	$180, %rdx, %rdi
	movl	$0, %r9d
	movq	%r9, 40(%rsp)
	movl	$0, %r9d
	movq	%r9, 32(%rsp)
	movl	$0, %r9d
	movq	%r9, 24(%rsp)
	movl	$0, %r9d
	movq	%r9, 16(%rsp)
	movl	$0, %r9d
	movq	%r9, 48(%rsp)
	cmpq	%rdi, %r8
	ja	.LBB149_28
	movq	64(%r14), %rdi
	movq	%rdi, 48(%rsp)
	movl	$1, %edi
	movq	%rdi, 8(%rsp)
	movq	%rcx, 40(%rsp)
	movq	%rax, 32(%rsp)
	movq	%rsi, 24(%rsp)
	movq	%rdx, 16(%rsp)
	jmp	.LBB149_28
.LBB149_34:
	imulq	$90, %rax, %r9
	cmpq	%r9, %rdi
	ja	.LBB149_35
	imulq	$180, %rdx, %rdi
	movl	$0, %ebp
	movl	$0, %r13d
	movl	$0, %r9d
	movl	$0, %r11d
	cmpq	%rdi, %r8
	movl	$0, %edi
	movl	$0, %r8d
	ja	.LBB149_38
	movq	152(%r14), %rdi
	movl	$1, %r8d
	movq	%rcx, %rbp
	movq	%rax, %r13
	movq	%rsi, %r9
	movq	%rdx, %r11
	jmp	.LBB149_38
.LBB149_77:
	cmpb	$1, %r15b
	jne	.LBB149_73
.LBB149_78:
	cmpq	616(%rsp), %r10
	ja	.LBB149_73
	.p2align	4
.LBB149_79:
	cmpb	$1, 56(%r12)
	jne	.LBB149_73
	movq	64(%r12), %rcx
	cmpq	%r10, %rcx
	jb	.LBB149_73
	subq	%r10, %rcx
	cmpq	8(%r12), %rcx
	ja	.LBB149_73
	cmpq	$0, 8(%rsp)
	movq	%r11, 8(%rsp)
	je	.LBB149_97
	cmpb	$1, 72(%rsp)
	jne	.LBB149_90
	cmpq	%rax, 48(%rsp)
	ja	.LBB149_90
	cmpb	$1, 64(%rsp)
	jne	.LBB149_73
	pxor	%xmm0, %xmm0
	movdqa	%xmm0, 80(%rsp)
	leaq	80(%rsp), %rdi
	leaq	528(%rsp), %rsi
	xorl	%edx, %edx
	callq	"sq_cpr::encoding::nearest::<17'sq_cpr::span::Air,21'sq_cpr::span::AirSpan{}>"
	movslq	84(%rsp), %rax
	imulq	$360, %rax, %rax
	cmpq	%rax, 40(%rsp)
	jne	.LBB149_91
	movzbl	80(%rsp), %eax
	movl	$60, %ecx
	subl	%eax, %ecx
	shll	$17, %ecx
	cmpq	%rcx, 32(%rsp)
	jne	.LBB149_91
	movl	92(%rsp), %eax
	imulq	$360, %rax, %rcx
	movzbl	88(%rsp), %eax
	imulq	$23592960, %rax, %rdx
	imulq	$-47185920, %rax, %rsi
	xorl	%edi, %edi
	cmpq	%rdx, %rcx
	cmovaeq	%rsi, %rdi
	addq	%rcx, %rdi
	cmpq	%rdi, 24(%rsp)
	movq	56(%rsp), %r10
	movq	8(%rsp), %r11
	jne	.LBB149_91
	shll	$17, %eax
	cmpq	%rax, 16(%rsp)
	je	.LBB149_97
	jmp	.LBB149_91
.LBB149_90:
	cmpb	$1, 64(%rsp)
	jne	.LBB149_73
.LBB149_91:
	movq	48(%rsp), %rax
	cmpq	472(%rsp), %rax
	ja	.LBB149_73
	testb	$1, 72(%rsp)
	je	.LBB149_73
	pxor	%xmm0, %xmm0
	movdqa	%xmm0, 80(%rsp)
	leaq	80(%rsp), %rdi
	leaq	528(%rsp), %rsi
	movl	$1, %edx
	callq	"sq_cpr::encoding::nearest::<17'sq_cpr::span::Air,21'sq_cpr::span::AirSpan{}>"
	movslq	84(%rsp), %rax
	imulq	$360, %rax, %rax
	cmpq	%rax, 40(%rsp)
	jne	.LBB149_73
	movzbl	80(%rsp), %eax
	movl	$60, %ecx
	subl	%eax, %ecx
	shll	$17, %ecx
	cmpq	%rcx, 32(%rsp)
	jne	.LBB149_73
	movl	92(%rsp), %eax
	imulq	$360, %rax, %rcx
	movzbl	88(%rsp), %eax
	imulq	$23592960, %rax, %rdx
	imulq	$-47185920, %rax, %rsi
	xorl	%edi, %edi
	cmpq	%rdx, %rcx
	cmovaeq	%rsi, %rdi
	addq	%rcx, %rdi
	cmpq	%rdi, 24(%rsp)
	movq	56(%rsp), %r10
	movq	8(%rsp), %r11
	jne	.LBB149_73
	shll	$17, %eax
	cmpq	%rax, 16(%rsp)
	jne	.LBB149_73
.LBB149_97:
	cmpq	$0, 216(%rsp)
	je	.LBB149_112
	cmpb	$1, %bl
	jne	.LBB149_105
	movq	184(%rsp), %rax
	cmpq	568(%rsp), %rax
	ja	.LBB149_105
	cmpb	$1, %r15b
	jne	.LBB149_73
	pxor	%xmm0, %xmm0
	movdqa	%xmm0, 80(%rsp)
	leaq	80(%rsp), %rdi
	leaq	672(%rsp), %rsi
	xorl	%edx, %edx
	callq	"sq_cpr::encoding::nearest::<#9b749bce0116a0b1>"
	movslq	84(%rsp), %rax
	imulq	$90, %rax, %rax
	cmpq	%rax, 176(%rsp)
	jne	.LBB149_106
	movzbl	80(%rsp), %eax
	movl	$60, %ecx
	subl	%eax, %ecx
	shll	$17, %ecx
	cmpq	%rcx, 168(%rsp)
	jne	.LBB149_106
	movl	92(%rsp), %eax
	imulq	$90, %rax, %rcx
	movzbl	88(%rsp), %eax
	imulq	$23592960, %rax, %rdx
	imulq	$-47185920, %rax, %rsi
	xorl	%edi, %edi
	cmpq	%rdx, %rcx
	cmovaeq	%rsi, %rdi
	addq	%rcx, %rdi
	cmpq	%rdi, 160(%rsp)
	movq	56(%rsp), %r10
	movq	8(%rsp), %r11
	jne	.LBB149_106
	shll	$17, %eax
	cmpq	%rax, 152(%rsp)
	je	.LBB149_112
	jmp	.LBB149_106
.LBB149_105:
	cmpb	$1, %r15b
	jne	.LBB149_73
.LBB149_106:
	movq	184(%rsp), %rax
	cmpq	616(%rsp), %rax
	ja	.LBB149_73
	testb	$1, %bl
	je	.LBB149_73
	pxor	%xmm0, %xmm0
	movdqa	%xmm0, 80(%rsp)
	leaq	80(%rsp), %rdi
	leaq	672(%rsp), %rsi
	movl	$1, %edx
	callq	"sq_cpr::encoding::nearest::<#9b749bce0116a0b1>"
	movslq	84(%rsp), %rax
	imulq	$90, %rax, %rax
	cmpq	%rax, 176(%rsp)
	jne	.LBB149_73
	movzbl	80(%rsp), %eax
	movl	$60, %ecx
	subl	%eax, %ecx
	shll	$17, %ecx
	cmpq	%rcx, 168(%rsp)
	jne	.LBB149_73
	movl	92(%rsp), %eax
	imulq	$90, %rax, %rcx
	movzbl	88(%rsp), %eax
	imulq	$23592960, %rax, %rdx
	imulq	$-47185920, %rax, %rsi
	xorl	%edi, %edi
	cmpq	%rdx, %rcx
	cmovaeq	%rsi, %rdi
	addq	%rcx, %rdi
	cmpq	%rdi, 160(%rsp)
	movq	56(%rsp), %r10
	movq	8(%rsp), %r11
	jne	.LBB149_73
	shll	$17, %eax
	cmpq	%rax, 152(%rsp)
	jne	.LBB149_73
.LBB149_112:
	testq	%r13, %r13
	je	.LBB149_115
	leaq	216(%r12), %rax
	movq	(%rax), %rax
	movl	208(%rsp), %ecx
	movl	(%rax,%rcx,8), %eax
	cmpq	%r13, %rax
	jae	.LBB149_115
	movq	104(%r12), %rcx
	imulq	$296, %rax, %rax
	cmpq	%r10, (%rcx,%rax)
	ja	.LBB149_73
.LBB149_115:
	movq	192(%rsp), %r9
	testq	%r9, %r9
	je	.LBB149_123
	movl	$4294967295, %edi
	leaq	2(%rdi), %rax
	imulq	%rbp, %rax
	xorq	208(%r12), %rax
	movabsq	$-7046029254386353123, %rcx
	mulq	%rcx
	xorq	%rax, %rdx
	movq	%rdx, %rsi
	shrq	$32, %rsi
	xorl	%edx, %esi
	movl	%esi, %ecx
	shrl	$24, %ecx
	cmpb	$1, %cl
	adcl	$0, %ecx
	leal	(%r9,%rdi), %eax
	andl	%esi, %eax
	movd	%ecx, %xmm0
	punpcklbw	%xmm0, %xmm0
	movl	$1, %edx
	shll	%cl, %edx
	pshuflw	$0, %xmm0, %xmm0
	pshufd	$68, %xmm0, %xmm0
	decq	%r9
	movq	%rax, %rcx
.LBB149_117:
	movq	%rcx, %rdi
	shlq	$6, %rdi
	leaq	(%r11,%rdi), %rsi
	movdqu	(%r11,%rdi), %xmm1
	pcmpeqb	%xmm0, %xmm1
	pmovmskb	%xmm1, %edi
	andl	$4095, %edi
	je	.LBB149_121
	movzwl	%di, %edi
	.p2align	4
.LBB149_119:
	rep		bsfl	%edi, %r8d
	movl	16(%rsi,%r8,4), %r13d
	cmpl	(%r14,%r13,4), %ebp
	je	.LBB149_153
	leal	-1(%rdi), %r8d
	andl	%edi, %r8d
	movl	%r8d, %edi
	jne	.LBB149_119
.LBB149_121:
	testl	%edx, 12(%rsi)
	je	.LBB149_123
	incq	%rcx
	andq	%r9, %rcx
	cmpq	%rax, %rcx
	jne	.LBB149_117
.LBB149_123:
	leaq	72(%r12), %rdi
	leaq	216(%r12), %rsi
	leaq	248(%r12), %rdx
	movl	%ebp, %ecx
	callq	"sq_track::contacts::enter::<#bd73a11ec42be588>"
	movl	%edx, %r13d
	jmp	.LBB149_124
.LBB149_153:
	xorl	%eax, %eax
.LBB149_124:
	testb	%al, %al
	movq	144(%rsp), %rbp
	jne	.LBB149_137
	movq	216(%r12), %rax
	movl	%r13d, %ebx
	movq	(%rax,%rbx,8), %r15
	movq	%r15, %r14
	shrq	$32, %r14
	imulq	$296, %rbx, %rdi
	addq	104(%r12), %rdi
	leaq	408(%rsp), %rsi
	movl	$296, %edx
	callq	memcpy@PLT
	movl	248(%r12), %edi
	cmpl	%r14d, %edi
	je	.LBB149_126
	cmpl	%edi, %r13d
	movq	128(%rsp), %rsi
	movq	56(%rsp), %rdx
	je	.LBB149_128
	leaq	216(%r12), %rax
	movq	(%rax), %rax
	movl	%r15d, %ecx
	movl	%r14d, 4(%rax,%rcx,8)
	movl	%r15d, (%rax,%r14,8)
	movl	(%rax,%rdi,8), %ecx
	movl	%r13d, 4(%rax,%rcx,8)
	movl	%ecx, (%rax,%rbx,8)
	movl	%edi, 4(%rax,%rbx,8)
	movl	%r13d, (%rax,%rdi,8)
	jmp	.LBB149_150
.LBB149_128:
	movl	%r14d, %edi
	jmp	.LBB149_150
.LBB149_126:
	movl	%r14d, %edi
	movq	128(%rsp), %rsi
	movq	56(%rsp), %rdx
.LBB149_150:
	movl	%edi, 248(%r12)
	movq	256(%r12), %rax
	cmpq	%rax, %rdx
	cmovbq	%rdx, %rax
	movq	%rax, 256(%r12)
	incq	%rsi
	xorl	%eax, %eax
	movl	$0, %edx
	cmpq	200(%rsp), %rsi
	movq	136(%rsp), %r13
	movabsq	$-1000000000001, %rbx
	jne	.LBB149_19
	jmp	.LBB149_151
.LBB149_35:
	xorl	%ebp, %ebp
	xorl	%r13d, %r13d
	xorl	%r9d, %r9d
	xorl	%r11d, %r11d
	xorl	%edi, %edi
	xorl	%r8d, %r8d
	jmp	.LBB149_38
.LBB149_73:
	cmpq	$0, 176(%r12)
	je	.LBB149_75
	movq	$0, 176(%r12)
.LBB149_75:
	movq	144(%r12), %rdx
	testq	%rdx, %rdx
	je	.LBB149_76
	movq	136(%r12), %rdi
	shlq	$6, %rdx
	xorl	%esi, %esi
	callq	memset@PLT
	movq	80(%r12), %r13
	movq	144(%r12), %rax
	leaq	(%rax,%rax,8), %rax
	jmp	.LBB149_130
.LBB149_8:
	xorl	%eax, %eax
	movq	%rax, 200(%r12)
	cmpq	$0, 80(%r12)
	jne	.LBB149_11
	jmp	.LBB149_12
.LBB149_17:
	xorl	%eax, %eax
	xorl	%edx, %edx
	jmp	.LBB149_151
.LBB149_76:
	xorl	%eax, %eax
.LBB149_130:
	leaq	56(%r12), %rcx
	movq	128(%rsp), %rdx
	movq	%rax, 200(%r12)
	testq	%r13, %r13
	je	.LBB149_132
	movq	$0, 80(%r12)
.LBB149_132:
	cmpq	$0, 112(%r12)
	movq	136(%rsp), %r13
	je	.LBB149_134
	movq	$0, 112(%r12)
.LBB149_134:
	cmpq	$0, 224(%r12)
	je	.LBB149_136
	movq	$0, 224(%r12)
.LBB149_136:
	movl	$0, 248(%r12)
	movq	$0, 256(%r12)
	pxor	%xmm0, %xmm0
	movdqu	%xmm0, (%rcx)
	movl	$50, %eax
.LBB149_151:
	movq	$1, (%r13)
	movq	%r12, 8(%r13)
.LBB149_152:
	addq	$840, %rsp
	popq	%rbx
	popq	%r12
	popq	%r13
	popq	%r14
	popq	%r15
	popq	%rbp
	retq
.LBB149_137:
	cmpq	$0, 176(%r12)
	je	.LBB149_139
	movq	$0, 176(%r12)
.LBB149_139:
	movq	144(%r12), %rdx
	testq	%rdx, %rdx
	movq	136(%rsp), %r13
	je	.LBB149_140
	movq	136(%r12), %rdi
	shlq	$6, %rdx
	xorl	%esi, %esi
	callq	memset@PLT
	movq	144(%r12), %rax
	leaq	(%rax,%rax,8), %rax
	jmp	.LBB149_142
.LBB149_140:
	xorl	%eax, %eax
.LBB149_142:
	leaq	56(%r12), %rcx
	movq	%rax, 200(%r12)
	cmpq	$0, 80(%r12)
	je	.LBB149_144
	movq	$0, 80(%r12)
.LBB149_144:
	cmpq	$0, 112(%r12)
	je	.LBB149_146
	movq	$0, 112(%r12)
.LBB149_146:
	cmpq	$0, 224(%r12)
	je	.LBB149_148
	movq	$0, 224(%r12)
.LBB149_148:
	movl	$0, 248(%r12)
	movq	$0, 256(%r12)
	pxor	%xmm0, %xmm0
	movdqu	%xmm0, (%rcx)
	movl	$44, %eax
	xorl	%edx, %edx
	jmp	.LBB149_151
.Lfunc_end149:
	.size	squitter_tracker_restore, .Lfunc_end149-squitter_tracker_restore

	.section	.text.squitter_tracker_hear,"ax",@progbits
	.globl	squitter_tracker_hear
	.p2align	4
	.type	squitter_tracker_hear,@function
squitter_tracker_hear:
	pushq	%rbp
	pushq	%r15
	pushq	%r14
	pushq	%r13
	pushq	%r12
	pushq	%rbx
	subq	$248, %rsp
	movq	8(%rdi), %r15
	cmpq	$0, (%rdi)
	pxor	%xmm0, %xmm0
	movdqu	%xmm0, (%rdi)
	je	.LBB150_5
	movq	(%rdx), %r8
	movzwl	8(%rdx), %r10d
	movl	10(%rdx), %r9d
	movq	$0, 176(%rsp)
	bswapq	%r8
	movq	%r8, %rdx
	shrq	$59, %rdx
	movl	$5, %eax
	cmpq	$17, %rdx
	jne	.LBB150_20
	shll	$16, %r10d
	shlq	$32, %r9
	orq	%r10, %r9
	movq	%r8, %rax
	shlq	$48, %rax
	bswapq	%r9
	orq	%r9, %rax
	movq	%r8, %rbx
	shrq	$24, %rbx
	movq	%r8, %rdx
	shrq	$54, %rdx
	andl	$572, %edx
	leaq	.Lstatic.44(%rip), %r14
	movq	%r8, %r11
	shrq	$46, %r11
	andl	$1020, %r11d
	xorl	(%rdx,%r14), %ebx
	leaq	.Lstatic.45(%rip), %r10
	xorl	(%r11,%r10), %ebx
	movzbl	%bh, %ebp
	movzbl	%bl, %r12d
	shrl	$14, %ebx
	andl	$1020, %ebx
	leaq	.Lstatic.43(%rip), %r11
	movl	(%rbx,%r11), %edx
	xorl	(%r14,%rbp,4), %edx
	xorl	(%r10,%r12,4), %edx
	xorl	%r8d, %edx
	movq	%rax, %rbx
	shrq	$24, %rbx
	movzbl	%dh, %ebp
	movzbl	%dl, %r12d
	shrl	$14, %edx
	andl	$1020, %edx
	xorl	(%rdx,%r11), %ebx
	xorl	(%r14,%rbp,4), %ebx
	xorl	(%r10,%r12,4), %ebx
	andl	$16777215, %r9d
	movzbl	%bh, %edx
	movzbl	%bl, %r12d
	shrl	$14, %ebx
	andl	$1020, %ebx
	xorl	(%r14,%rdx,4), %r9d
	movl	(%rbx,%r11), %edx
	xorl	(%r10,%r12,4), %r9d
	cmpl	%r9d, %edx
	jne	.LBB150_6
	movq	%r8, %r10
	shrq	$16, %r10
	movq	%r10, %rdx
	shldq	$40, %rax, %rdx
	movq	%r8, %r14
	shrq	$56, %r14
	andb	$7, %r14b
	movq	%r8, %rbx
	shrq	$32, %rbx
	movl	%ebx, %ebp
	andl	$16777215, %ebp
	movabsq	$72057594037927935, %r12
	andq	%rdx, %r12
	movq	%r12, %r9
	shrq	$51, %r9
	movb	$1, %r11b
	cmpq	$5, %r9
	jae	.LBB150_7
.LBB150_4:
	xorl	%r10d, %r10d
	xorl	%r9d, %r9d
	xorl	%r13d, %r13d
	xorl	%r8d, %r8d
	movl	$2, %eax
	jmp	.LBB150_13
.LBB150_5:
	xorl	%edx, %edx
	movl	$46, %eax
	jmp	.LBB150_21
.LBB150_6:
	xorl	%edx, %r9d
	movl	$6, %eax
	movq	%r9, %rdx
	jmp	.LBB150_20
.LBB150_7:
	cmpl	$8, %r9d
	ja	.LBB150_9
	movl	%r8d, %r13d
	shrl	$10, %r13d
	andl	$1, %r13d
	movq	%rax, %r11
	shrq	$41, %r11
	andl	$131071, %r11d
	shldq	$28, %rax, %r10
	shrq	$27, %rax
	movl	$4294967295, %r12d
	incq	%r12
	andq	%rax, %r12
	andl	$2130706432, %r10d
	movl	%r8d, %eax
	shrl	$3, %eax
	andl	$65536, %eax
	shrl	$12, %r8d
	andl	$32512, %r8d
	orl	%eax, %r8d
	orq	%r10, %r8
	orq	%r12, %r8
	orq	%r9, %r8
	andl	$131071, %edx
	shlq	$32, %rdx
	orq	%r11, %rdx
	movl	$1, %eax
	movb	$1, %r10b
	xorl	%r11d, %r11d
	xorl	%r9d, %r9d
	jmp	.LBB150_12
.LBB150_9:
	cmpl	$19, %r9d
	jb	.LBB150_11
	cmpl	$19, %r9d
	movq	%r12, 32(%rsp)
	setne	%r12b
	cmpl	$23, %r9d
	setb	%r13b
	andb	%r12b, %r13b
	movq	32(%rsp), %r12
	cmpb	$1, %r13b
	jne	.LBB150_4
.LBB150_11:
	movl	%r8d, %r13d
	shrl	$10, %r13d
	andl	$1, %r13d
	movq	%rax, %r11
	shrq	$41, %r11
	andl	$131071, %r11d
	shldq	$36, %rax, %r10
	shrq	$11, %rax
	movabsq	$281474976710656, %r12
	andq	%rax, %r12
	movabsq	$17587891077120, %rax
	andq	%r10, %rax
	movl	%r8d, %r10d
	shrl	$8, %r10d
	andl	$65536, %r10d
	shrl	$17, %r8d
	andl	$768, %r8d
	orl	%r10d, %r8d
	orq	%rax, %r8
	orq	%r12, %r8
	orq	%r9, %r8
	andl	$131071, %edx
	shlq	$32, %rdx
	orq	%r11, %rdx
	xorl	%r11d, %r11d
	movb	$1, %r9b
	xorl	%r10d, %r10d
	xorl	%eax, %eax
.LBB150_12:
	movq	%rdx, %r12
.LBB150_13:
	movb	%r14b, 176(%rsp)
	movl	%ebp, 180(%rsp)
	movl	%eax, 8(%rsp)
	movl	%eax, 184(%rsp)
	movl	%r13d, 188(%rsp)
	movq	%r12, 192(%rsp)
	movq	%r8, 200(%rsp)
	movq	64(%r15), %rdx
	cmpb	$1, 56(%r15)
	setne	%al
	cmpq	%rdx, %rsi
	setae	%r8b
	orb	%al, %r8b
	cmpb	$1, %r8b
	movq	%rdi, 24(%rsp)
	jne	.LBB150_76
	movq	%r10, 64(%rsp)
	leaq	72(%r15), %r10
	testb	%r11b, %r11b
	movq	%rcx, 40(%rsp)
	je	.LBB150_22
	movq	8(%r15), %rdx
	movq	256(%r15), %rax
	xorl	%r8d, %r8d
	movq	%rsi, %r9
	subq	%rax, %r9
	cmovaeq	%r9, %r8
	cmpq	%rdx, %r8
	jbe	.LBB150_17
	movq	%r10, %rdi
	movq	%rsi, %rbx
	movq	%rdx, %rsi
	movq	%rbx, %rdx
	callq	"sq_track::tracker::look_through::<#bd73a11ec42be588>"
	movq	%rbx, %rsi
	movq	40(%rsp), %rcx
	movq	24(%rsp), %rdi
.LBB150_17:
	movq	%rax, 256(%r15)
	movq	$1, 56(%r15)
	movq	%rsi, 64(%r15)
	pxor	%xmm0, %xmm0
	movdqa	%xmm0, 128(%rsp)
	movdqa	%xmm0, 144(%rsp)
	movl	$0, (%rsp)
	movb	$0, 4(%rsp)
	movb	$7, %al
.LBB150_18:
	xorl	%r13d, %r13d
	xorl	%ebp, %ebp
.LBB150_19:
	movdqa	128(%rsp), %xmm0
	movdqa	144(%rsp), %xmm1
	movdqu	%xmm1, 16(%rcx)
	movdqu	%xmm0, (%rcx)
	movb	%al, 32(%rcx)
	movb	%bpl, 33(%rcx)
	movb	%r13b, 34(%rcx)
	movl	(%rsp), %eax
	movl	%eax, 35(%rcx)
	movzbl	4(%rsp), %eax
	movb	%al, 39(%rcx)
	xorl	%edx, %edx
	xorl	%eax, %eax
.LBB150_20:
	movq	$1, (%rdi)
	movq	%r15, 8(%rdi)
.LBB150_21:
	addq	$248, %rsp
	popq	%rbx
	popq	%r12
	popq	%r13
	popq	%r14
	popq	%r15
	popq	%rbp
	retq
.LBB150_22:
	movq	%r12, 32(%rsp)
	movq	%r9, 168(%rsp)
	movl	(%r15), %eax
	movq	8(%r15), %rcx
	movq	%rcx, 120(%rsp)
	movq	80(%r15), %r12
	cmpq	%rax, %r12
	movl	%r13d, 20(%rsp)
	jb	.LBB150_26
	leaq	72(%r15), %rdi
	movq	%rsi, %r13
	movl	%ebp, %esi
	callq	"sq_track::contacts::Contacts::contains::<#bd73a11ec42be588>"
	movq	%r13, %rsi
	movl	20(%rsp), %r13d
	movq	24(%rsp), %rdi
	testb	%al, %al
	jne	.LBB150_26
	movl	248(%r15), %ecx
	movb	$3, %al
	cmpq	%rcx, %r12
	jbe	.LBB150_96
	movq	104(%r15), %r8
	imulq	$296, %rcx, %rcx
	xorl	%edx, %edx
	movq	%rsi, %r9
	subq	(%r8,%rcx), %r9
	cmovbq	%rdx, %r9
	cmpq	120(%rsp), %r9
	jbe	.LBB150_97
.LBB150_26:
	movzbl	16(%r15), %edx
	leaq	24(%r15), %rax
	xorl	%ecx, %ecx
	movb	%dl, 52(%rsp)
	cmpb	$1, %dl
	cmoveq	%rax, %rcx
	movq	%rcx, 72(%rsp)
	movq	144(%r15), %r8
	testq	%r8, %r8
	je	.LBB150_34
	movq	72(%r15), %r9
	movq	136(%r15), %r10
	andl	$16777215, %ebx
	movq	%rbx, %rax
	shlq	$32, %rax
	orq	%rbx, %rax
	xorq	208(%r15), %rax
	movabsq	$-7046029254386353123, %rcx
	mulq	%rcx
	xorq	%rax, %rdx
	movq	%rdx, %r11
	shrq	$32, %r11
	xorl	%edx, %r11d
	movl	%r11d, %ecx
	shrl	$24, %ecx
	cmpb	$1, %cl
	adcl	$0, %ecx
	movl	$4294967295, %eax
	addl	%r8d, %eax
	andl	%r11d, %eax
	movd	%ecx, %xmm0
	punpcklbw	%xmm0, %xmm0
	movl	$1, %edx
	shll	%cl, %edx
	movq	40(%rsp), %rcx
	pshuflw	$0, %xmm0, %xmm0
	pshufd	$68, %xmm0, %xmm0
	decq	%r8
	movq	%rax, %r11
.LBB150_28:
	movq	%r11, %r12
	shlq	$6, %r12
	leaq	(%r10,%r12), %rbx
	movdqu	(%r10,%r12), %xmm1
	pcmpeqb	%xmm0, %xmm1
	pmovmskb	%xmm1, %r12d
	andl	$4095, %r12d
	je	.LBB150_32
	movzwl	%r12w, %r13d
	.p2align	4
.LBB150_30:
	rep		bsfl	%r13d, %r12d
	movl	16(%rbx,%r12,4), %r12d
	cmpl	(%r9,%r12,4), %ebp
	je	.LBB150_35
	leal	-1(%r13), %r12d
	andl	%r13d, %r12d
	movl	%r12d, %r13d
	jne	.LBB150_30
.LBB150_32:
	testl	%edx, 12(%rbx)
	movl	20(%rsp), %r13d
	je	.LBB150_34
	incq	%r11
	andq	%r8, %r11
	cmpq	%rax, %r11
	jne	.LBB150_28
.LBB150_34:
	leaq	72(%r15), %rdi
	movq	%rsi, %rbx
	leaq	216(%r15), %rsi
	leaq	248(%r15), %rdx
	movl	%ebp, %ecx
	callq	"sq_track::contacts::enter::<#bd73a11ec42be588>"
	movq	%rbx, %rsi
	movq	40(%rsp), %rcx
	movq	24(%rsp), %rdi
	movl	%edx, %r12d
	jmp	.LBB150_36
.LBB150_35:
	xorl	%eax, %eax
	movl	20(%rsp), %r13d
.LBB150_36:
	testb	%al, %al
	jne	.LBB150_91
	leaq	188(%rsp), %rdx
	movq	104(%r15), %rax
	movq	216(%r15), %r8
	movl	%r12d, %r9d
	movq	(%r8,%r9,8), %r10
	movq	%r9, 224(%rsp)
	imulq	$296, %r9, %r8
	leaq	(%rax,%r8), %rbx
	movq	%rsi, (%rax,%r8)
	cmpb	$0, 168(%rsp)
	je	.LBB150_40
	leaq	112(%rbx), %r11
	testl	%r13d, %r13d
	movl	8(%rsp), %eax
	je	.LBB150_42
	movq	$1, 56(%rbx)
	movq	%rsi, 64(%rbx)
	movb	%r14b, 72(%rbx)
	movw	$0, 73(%rbx)
	movb	$0, 75(%rbx)
	movl	%ebp, 76(%rbx)
	movl	%eax, 80(%rbx)
	movdqu	(%rdx), %xmm0
	movdqu	%xmm0, 84(%rbx)
	movl	16(%rdx), %eax
	movl	%eax, 100(%rbx)
	movzbl	8(%rbx), %r8d
	movzbl	104(%rbx), %eax
	xorl	%r9d, %r9d
	movb	%al, 8(%rsp)
	cmpb	$1, %al
	cmovneq	%r9, %r11
	leaq	16(%rbx), %rax
	jmp	.LBB150_44
.LBB150_40:
	leaq	256(%rbx), %r11
	testl	%r13d, %r13d
	movl	8(%rsp), %eax
	je	.LBB150_43
	movq	$1, 200(%rbx)
	movq	%rsi, 208(%rbx)
	movb	%r14b, 216(%rbx)
	movw	$0, 217(%rbx)
	movb	$0, 219(%rbx)
	movl	%ebp, 220(%rbx)
	movl	%eax, 224(%rbx)
	movdqu	(%rdx), %xmm0
	movdqu	%xmm0, 228(%rbx)
	movl	16(%rdx), %eax
	movl	%eax, 244(%rbx)
	movzbl	152(%rbx), %r8d
	movzbl	248(%rbx), %eax
	xorl	%r9d, %r9d
	movb	%al, 8(%rsp)
	cmpb	$1, %al
	cmovneq	%r9, %r11
	leaq	160(%rbx), %rax
	jmp	.LBB150_44
.LBB150_42:
	movq	$1, 8(%rbx)
	movq	%rsi, 16(%rbx)
	movb	%r14b, 24(%rbx)
	movw	$0, 25(%rbx)
	movb	$0, 27(%rbx)
	movl	%ebp, 28(%rbx)
	movl	%eax, 32(%rbx)
	movdqu	(%rdx), %xmm0
	movdqu	%xmm0, 36(%rbx)
	movl	16(%rdx), %eax
	movl	%eax, 52(%rbx)
	movzbl	56(%rbx), %r8d
	movzbl	104(%rbx), %eax
	xorl	%r9d, %r9d
	movb	%al, 8(%rsp)
	cmpb	$1, %al
	cmovneq	%r9, %r11
	leaq	64(%rbx), %rax
	jmp	.LBB150_44
.LBB150_43:
	movq	$1, 152(%rbx)
	movq	%rsi, 160(%rbx)
	movb	%r14b, 168(%rbx)
	movw	$0, 169(%rbx)
	movb	$0, 171(%rbx)
	movl	%ebp, 172(%rbx)
	movl	%eax, 176(%rbx)
	movdqu	(%rdx), %xmm0
	movdqu	%xmm0, 180(%rbx)
	movl	16(%rdx), %eax
	movl	%eax, 196(%rbx)
	movzbl	200(%rbx), %r8d
	movzbl	248(%rbx), %eax
	xorl	%r9d, %r9d
	movb	%al, 8(%rsp)
	cmpb	$1, %al
	cmovneq	%r9, %r11
	leaq	208(%rbx), %rax
.LBB150_44:
	cmpb	$1, %r8b
	cmovneq	%r9, %rax
	movq	%r10, %r9
	shrq	$32, %r9
	movq	%r9, 232(%rsp)
	movb	$2, %r14b
	cmpb	$1, %r8b
	movq	%r10, 240(%rsp)
	jne	.LBB150_48
	movq	$0, 56(%rsp)
	movq	%rsi, %r8
	subq	(%rax), %r8
	movl	$0, %r9d
	cmovaeq	%r8, %r9
	cmpq	120(%rsp), %r9
	ja	.LBB150_49
	pxor	%xmm0, %xmm0
	movdqa	%xmm0, 80(%rsp)
	movq	$0, 96(%rsp)
	movzbl	16(%rax), %r9d
	cmpb	$2, %r9b
	jne	.LBB150_77
	xorl	%r8d, %r8d
	jmp	.LBB150_82
.LBB150_48:
	movq	$0, 56(%rsp)
.LBB150_49:
	xorl	%r8d, %r8d
	movzbl	8(%rsp), %r9d
.LBB150_50:
	testb	$1, %r9b
	je	.LBB150_53
	xorl	%eax, %eax
	movq	%rsi, %rdx
	subq	(%r11), %rdx
	cmovaeq	%rdx, %rax
	pxor	%xmm0, %xmm0
	movdqa	%xmm0, 80(%rsp)
	movq	$0, 96(%rsp)
	cmpq	120(%rsp), %rax
	ja	.LBB150_53
	leaq	8(%r11), %rdx
	leaq	80(%rsp), %rdi
	leaq	176(%rsp), %rax
	movq	%rsi, 72(%rsp)
	movq	%rax, %rsi
	movq	%r11, %rbp
	movq	%r8, %r13
	callq	"sq_message::place::place_local"
	movzbl	8(%rsp), %r9d
	movq	%r13, %r8
	movq	%rbp, %r11
	movq	72(%rsp), %rsi
	movq	40(%rsp), %rcx
	movq	24(%rsp), %rdi
	cmpb	$0, 80(%rsp)
	je	.LBB150_84
.LBB150_53:
	movq	56(%rsp), %r13
	movl	%r8d, %ebp
	movl	%r14d, %eax
	movq	%rax, 64(%rsp)
.LBB150_54:
	movb	$1, %al
	movq	%rax, 8(%rsp)
	cmpb	$1, %r9b
	jne	.LBB150_56
	movq	%r11, %r8
	movq	(%r11), %r11
	movq	8(%r8), %rax
	movq	16(%r8), %rdx
	movq	24(%r8), %r9
	movq	32(%r8), %r8
	movl	$1, %r10d
	xorl	%r14d, %r14d
	movq	$0, 56(%rsp)
	movq	$0, 32(%rsp)
	movl	$0, 20(%rsp)
	jmp	.LBB150_57
.LBB150_56:
	xorl	%r14d, %r14d
	movq	$0, 56(%rsp)
	movq	$0, 32(%rsp)
	movl	$0, 20(%rsp)
	xorl	%r11d, %r11d
	xorl	%r10d, %r10d
	xorl	%r8d, %r8d
	xorl	%r9d, %r9d
	xorl	%edx, %edx
	xorl	%eax, %eax
.LBB150_57:
	cmpb	$0, 168(%rsp)
	je	.LBB150_59
	movq	%r10, 104(%rbx)
	movq	%r11, 112(%rbx)
	movq	%rax, 120(%rbx)
	movq	%rdx, 128(%rbx)
	movq	%r9, 136(%rbx)
	movq	%r8, 144(%rbx)
	jmp	.LBB150_60
.LBB150_59:
	movq	%r10, 248(%rbx)
	movq	%r11, 256(%rbx)
	movq	%rax, 264(%rbx)
	movq	%rdx, 272(%rbx)
	movq	%r9, 280(%rbx)
	movq	%r8, 288(%rbx)
.LBB150_60:
	leaq	248(%r15), %rax
	movl	(%rax), %eax
	movq	232(%rsp), %r10
	cmpl	%r10d, %eax
	movq	240(%rsp), %r9
	je	.LBB150_64
	cmpl	%eax, %r12d
	je	.LBB150_64
	leaq	216(%r15), %rdx
	movq	(%rdx), %rdx
	movl	%r9d, %r8d
	movl	%r10d, 4(%rdx,%r8,8)
	movl	%r9d, (%rdx,%r10,8)
	movl	(%rdx,%rax,8), %r8d
	movl	%r12d, 4(%rdx,%r8,8)
	movq	224(%rsp), %r9
	movl	%r8d, (%rdx,%r9,8)
	movl	%eax, 4(%rdx,%r9,8)
	movl	%r12d, (%rdx,%rax,8)
	jmp	.LBB150_65
.LBB150_64:
	movl	%r10d, %eax
.LBB150_65:
	movzbl	56(%rsp), %r12d
	movl	%eax, 248(%r15)
	movq	8(%r15), %rdx
	movq	256(%r15), %rax
	xorl	%r8d, %r8d
	movq	%rsi, %r9
	subq	%rax, %r9
	cmovaeq	%r9, %r8
	cmpq	%rdx, %r8
	jbe	.LBB150_67
	leaq	72(%r15), %rdi
	movq	%rsi, %rbx
	movq	%rdx, %rsi
	movq	%rbx, %rdx
	callq	"sq_track::tracker::look_through::<#bd73a11ec42be588>"
	movq	%rbx, %rsi
	movq	40(%rsp), %rcx
	movq	24(%rsp), %rdi
.LBB150_67:
	movq	%rax, 256(%r15)
	movq	$1, 56(%r15)
	movq	%rsi, 64(%r15)
	movl	%r14d, %edx
	movb	$60, %al
	subb	20(%rsp), %al
	movzbl	%al, %eax
	shll	$17, %eax
	movzbl	64(%rsp), %esi
	leaq	.LJTI150_1(%rip), %r8
	movslq	(%r8,%rsi,4), %rsi
	addq	%r8, %rsi
	jmpq	*%rsi
.LBB150_68:
	pxor	%xmm0, %xmm0
	movdqa	%xmm0, 128(%rsp)
	movdqa	%xmm0, 144(%rsp)
	movslq	32(%rsp), %rsi
	imulq	$23592960, %r12, %rdi
	imulq	$-47185920, %r12, %rcx
	cmpb	$0, 8(%rsp)
	je	.LBB150_86
	imulq	$360, %rsi, %rsi
	imulq	$360, %rdx, %rdx
	jmp	.LBB150_87
.LBB150_70:
	pxor	%xmm0, %xmm0
	movdqa	%xmm0, 144(%rsp)
	movdqa	%xmm0, 128(%rsp)
	movl	$0, (%rsp)
	movb	$0, 4(%rsp)
	movb	$5, %al
	jmp	.LBB150_18
.LBB150_71:
	pxor	%xmm0, %xmm0
	movdqa	%xmm0, 144(%rsp)
	movdqa	%xmm0, 128(%rsp)
	movl	$0, (%rsp)
	movb	$0, 4(%rsp)
	movb	$3, %al
	jmp	.LBB150_18
.LBB150_72:
	pxor	%xmm0, %xmm0
	movdqa	%xmm0, 144(%rsp)
	movdqa	%xmm0, 128(%rsp)
	movl	$0, (%rsp)
	movb	$0, 4(%rsp)
	movb	$4, %al
	jmp	.LBB150_19
.LBB150_73:
	pxor	%xmm0, %xmm0
	movdqa	%xmm0, 128(%rsp)
	movdqa	%xmm0, 144(%rsp)
	movslq	32(%rsp), %rsi
	imulq	$23592960, %r12, %rdi
	imulq	$-47185920, %r12, %rcx
	cmpb	$0, 8(%rsp)
	je	.LBB150_88
	imulq	$360, %rsi, %rsi
	imulq	$360, %rdx, %rdx
	jmp	.LBB150_89
.LBB150_75:
	pxor	%xmm0, %xmm0
	movdqa	%xmm0, 144(%rsp)
	movdqa	%xmm0, 128(%rsp)
	movl	$0, (%rsp)
	movb	$0, 4(%rsp)
	movb	$6, %al
	jmp	.LBB150_18
.LBB150_76:
	movb	$2, %al
	jmp	.LBB150_97
.LBB150_77:
	movb	$1, %r8b
	cmpl	%ebp, 12(%rax)
	jne	.LBB150_82
	testb	%r9b, %r9b
	je	.LBB150_93
	cmpb	$0, 64(%rsp)
	movzbl	8(%rsp), %r9d
	je	.LBB150_83
	movq	%r11, %r14
	movq	%rsi, %r13
	addq	$20, %rax
	movzbl	52(%rsp), %ecx
	leaq	80(%rsp), %rdi
	movq	%rax, %rsi
	movq	72(%rsp), %r8
	callq	"sq_message::place::ground_pair"
	cmpb	$0, 80(%rsp)
	je	.LBB150_98
	movzbl	81(%rsp), %edx
	movzbl	82(%rsp), %r8d
	movzbl	83(%rsp), %eax
	movq	%rax, 56(%rsp)
	movq	24(%rsp), %rdi
	movq	40(%rsp), %rcx
	movq	%r13, %rsi
	movq	%r14, %r11
	movzbl	8(%rsp), %r9d
	jmp	.LBB150_109
.LBB150_82:
	movq	$0, 56(%rsp)
	movb	$3, %r14b
	movb	$5, %al
	movq	%rax, 64(%rsp)
	xorl	%r13d, %r13d
	movzbl	%r8b, %eax
	leaq	.LJTI150_0(%rip), %rdx
	movslq	(%rdx,%rax,4), %rax
	addq	%rdx, %rax
	xorl	%r8d, %r8d
	xorl	%ebp, %ebp
	movzbl	8(%rsp), %r9d
	jmpq	*%rax
.LBB150_83:
	movq	$0, 56(%rsp)
	xorl	%r8d, %r8d
	movb	$2, %r14b
	jmp	.LBB150_50
.LBB150_84:
	movzbl	88(%rsp), %r8d
	movl	92(%rsp), %r11d
	movl	100(%rsp), %eax
	movzbl	96(%rsp), %r9d
	movl	$60, %edx
	movl	%r8d, 20(%rsp)
	subl	%r8d, %edx
	shll	$17, %edx
	movl	%r9d, %r8d
	shll	$17, %r8d
	imulq	$23592960, %r9, %r10
	movq	%r9, 56(%rsp)
	imulq	$-47185920, %r9, %r9
	cmpb	$0, 84(%rsp)
	movq	%r11, 32(%rsp)
	movslq	%r11d, %r11
	je	.LBB150_92
	imulq	$90, %r11, %rbp
	movq	%rax, %r14
	imulq	$90, %rax, %r11
	xorl	%r13d, %r13d
	cmpq	%r10, %r11
	cmovbq	%r13, %r9
	addq	%r11, %r9
	movl	$1, %r10d
	movb	$1, %al
	movq	%rax, 64(%rsp)
	movq	%rbp, %rax
	xorl	%ebp, %ebp
	movq	$0, 8(%rsp)
	movq	%rsi, %r11
	jmp	.LBB150_57
.LBB150_86:
	imulq	$90, %rsi, %rsi
	imulq	$90, %rdx, %rdx
.LBB150_87:
	xorl	%r8d, %r8d
	cmpq	%rdi, %rdx
	cmovbq	%r8, %rcx
	addq	%rdx, %rcx
	shll	$17, %r12d
	movq	%rsi, 80(%rsp)
	movq	%rax, 88(%rsp)
	movq	%rcx, 96(%rsp)
	movq	%r12, 104(%rsp)
	leaq	128(%rsp), %rdi
	leaq	80(%rsp), %rsi
	callq	"squitter_c::plain::plain_position"
	movb	$0, 4(%rsp)
	movl	$0, (%rsp)
	movb	$1, %al
	jmp	.LBB150_90
.LBB150_88:
	imulq	$90, %rsi, %rsi
	imulq	$90, %rdx, %rdx
.LBB150_89:
	xorl	%r8d, %r8d
	cmpq	%rdi, %rdx
	cmovbq	%r8, %rcx
	addq	%rdx, %rcx
	shll	$17, %r12d
	movq	%rsi, 80(%rsp)
	movq	%rax, 88(%rsp)
	movq	%rcx, 96(%rsp)
	movq	%r12, 104(%rsp)
	leaq	128(%rsp), %rdi
	leaq	80(%rsp), %rsi
	callq	"squitter_c::plain::plain_position"
	movb	$0, 4(%rsp)
	movl	$0, (%rsp)
	movb	$2, %al
.LBB150_90:
	xorl	%r13d, %r13d
	xorl	%ebp, %ebp
	movq	24(%rsp), %rdi
	movq	40(%rsp), %rcx
	jmp	.LBB150_19
.LBB150_91:
	movb	$1, %al
.LBB150_96:
	xorl	%edx, %edx
.LBB150_97:
	pxor	%xmm0, %xmm0
	movdqa	%xmm0, 208(%rsp)
	movzbl	%al, %esi
	leaq	208(%rsp), %rdi
	callq	"squitter_c::tracker_hear::fault_of_tracker"
	movq	24(%rsp), %rdi
	movq	208(%rsp), %rax
	movq	216(%rsp), %rdx
	jmp	.LBB150_20
.LBB150_92:
	imulq	$360, %r11, %r11
	movq	%r11, 120(%rsp)
	movq	%rax, %r14
	imulq	$360, %rax, %r11
	xorl	%r13d, %r13d
	cmpq	%r10, %r11
	cmovbq	%r13, %r9
	addq	%r11, %r9
	movl	$1, %r10d
	movb	$1, %al
	movq	%rax, 8(%rsp)
	xorl	%ebp, %ebp
	movb	$1, %al
	movq	%rax, 64(%rsp)
	movq	120(%rsp), %rax
	movq	%rsi, %r11
	jmp	.LBB150_57
.LBB150_93:
	cmpb	$0, 168(%rsp)
	movzbl	8(%rsp), %r9d
	je	.LBB150_83
	cmpb	%r13b, 20(%rax)
	jne	.LBB150_100
	movb	$3, %dl
	jmp	.LBB150_107
.LBB150_98:
	movzbl	88(%rsp), %ecx
	movl	92(%rsp), %edx
	movzbl	96(%rsp), %r14d
	movl	100(%rsp), %eax
	cmpb	$0, 84(%rsp)
	movq	%r13, %rsi
	movl	%ecx, 20(%rsp)
	je	.LBB150_111
	movzbl	%cl, %ecx
	movq	%rdx, 32(%rsp)
	movslq	%edx, %rdx
	movq	%r14, 56(%rsp)
	movzbl	%r14b, %r8d
	imulq	$90, %rdx, %r9
	movl	$60, %edx
	subl	%ecx, %edx
	shll	$17, %edx
	imulq	$23592960, %r8, %rcx
	imulq	$-47185920, %r8, %rdi
	shll	$17, %r8d
	movq	%rax, %r14
	imulq	$90, %rax, %r10
	movq	%r9, %rax
	xorl	%r13d, %r13d
	cmpq	%rcx, %r10
	movl	$0, %r9d
	cmovaeq	%rdi, %r9
	addq	%r10, %r9
	movl	$1, %r10d
	xorl	%ebp, %ebp
	movq	$0, 8(%rsp)
	movq	$0, 64(%rsp)
	movq	%rsi, %r11
	movq	24(%rsp), %rdi
	movq	40(%rsp), %rcx
	jmp	.LBB150_57
.LBB150_100:
	movq	32(%rsp), %r9
	movq	%r9, %rbp
	shrq	$32, %rbp
	testl	%r13d, %r13d
	movl	24(%rax), %edx
	movl	%edx, %r8d
	cmovel	%r9d, %r8d
	movl	28(%rax), %r14d
	movl	%r14d, %eax
	cmovel	%ebp, %eax
	movl	%eax, 64(%rsp)
	cmovel	%edx, %r9d
	cmovnel	%ebp, %r14d
	imulq	$59, %r8, %rax
	imulq	$-60, %r9, %rdx
	addq	%rdx, %rax
	addq	$7929856, %rax
	andq	$-131072, %rax
	leaq	(%rax,%r8), %rdx
	addq	$-7864320, %rdx
	leaq	(%rax,%r9), %r13
	addq	$-7864320, %r13
	leaq	7864319(,%rdx,2), %rax
	cmpq	$15728640, %rax
	jae	.LBB150_114
.LBB150_101:
	leaq	7733247(,%r13,2), %rax
	cmpq	$15466496, %rax
	movzbl	8(%rsp), %r9d
	movq	%rdx, 32(%rsp)
	jae	.LBB150_115
.LBB150_102:
	movslq	%edx, %rax
	imulq	$360, %rax, %rax
	movq	%rax, %r8
	negq	%r8
	cmovsq	%rax, %r8
	movb	$5, %dl
	cmpq	$707788800, %r8
	ja	.LBB150_107
	movl	%r14d, 52(%rsp)
	movslq	%r13d, %r8
	imulq	$360, %r8, %r14
	movq	%r14, %r8
	negq	%r8
	cmovsq	%r14, %r8
	cmpq	$695992320, %r8
	ja	.LBB150_107
	movq	%r11, 112(%rsp)
	movq	%rsi, 72(%rsp)
	movl	$7864320, %esi
	movq	%rax, %rdi
	callq	"sq_zones::zones::zone_count"
	movq	%rax, 56(%rsp)
	movl	$7733248, %esi
	movq	%r14, %rdi
	callq	"sq_zones::zones::zone_count"
	movq	56(%rsp), %r8
	cmpb	%al, %r8b
	jne	.LBB150_113
	leal	-1(%r8), %eax
	movzbl	%al, %eax
	cmpb	$2, %al
	movl	$1, %ecx
	cmovael	%eax, %ecx
	movzbl	%cl, %ecx
	movl	64(%rsp), %eax
	movq	%rcx, %rdx
	imulq	%rcx, %rax
	movzbl	%r8b, %esi
	movl	52(%rsp), %ecx
	imulq	%rsi, %rcx
	subq	%rcx, %rax
	addq	$7929856, %rax
	andq	$-131072, %rax
	leaq	(%rax,%rbp), %rdi
	addq	$-7864320, %rdi
	cmpl	$0, 20(%rsp)
	je	.LBB150_116
	movq	%rdx, %r14
	movl	%r14d, %esi
	movl	$1, %edx
	callq	"sq_cpr::index::on_circle"
	movl	%r13d, %edx
	movq	24(%rsp), %rdi
	movq	40(%rsp), %rcx
	movq	72(%rsp), %rsi
	jmp	.LBB150_112
.LBB150_107:
	xorl	%eax, %eax
	xorl	%r8d, %r8d
.LBB150_108:
	movq	%rax, 56(%rsp)
.LBB150_109:
	movb	$3, %r14b
	movb	$5, %al
	movq	%rax, 64(%rsp)
	xorl	%r13d, %r13d
	movzbl	%dl, %eax
	leaq	.LJTI150_0(%rip), %rdx
	movslq	(%rdx,%rax,4), %rax
	addq	%rdx, %rax
	xorl	%ebp, %ebp
	jmpq	*%rax
.LBB150_110:
	movb	$4, %al
	movq	%rax, 64(%rsp)
	xorl	%r13d, %r13d
	xorl	%ebp, %ebp
	jmp	.LBB150_54
.LBB150_111:
	movq	24(%rsp), %rdi
	movq	40(%rsp), %rcx
.LBB150_112:
	movq	%rdx, 32(%rsp)
	movslq	%edx, %rdx
	imulq	$360, %rdx, %rbp
	movb	$60, %dl
	subb	20(%rsp), %dl
	movzbl	%dl, %edx
	shll	$17, %edx
	movq	%r14, 56(%rsp)
	movzbl	%r14b, %r8d
	imulq	$23592960, %r8, %r9
	imulq	$-47185920, %r8, %r10
	shll	$17, %r8d
	movq	%rax, %r14
	movl	%eax, %r11d
	imulq	$360, %r11, %r11
	xorl	%r13d, %r13d
	cmpq	%r9, %r11
	movl	$0, %r9d
	cmovaeq	%r10, %r9
	addq	%r11, %r9
	movl	$1, %r10d
	movb	$1, %al
	movq	%rax, 8(%rsp)
	movq	%rbp, %rax
	xorl	%ebp, %ebp
	movq	$0, 64(%rsp)
	movq	%rsi, %r11
	jmp	.LBB150_57
.LBB150_113:
	movb	$6, %dl
	movq	24(%rsp), %rdi
	movq	40(%rsp), %rcx
	movq	72(%rsp), %rsi
	movq	112(%rsp), %r11
	movzbl	8(%rsp), %r9d
	jmp	.LBB150_108
.LBB150_114:
	movq	%rsi, 72(%rsp)
	movl	$15728640, %esi
	movq	%rax, %rdi
	movl	%r14d, 52(%rsp)
	movq	%rdx, 32(%rsp)
	movq	%r11, 112(%rsp)
	callq	"sq_cpr::index::rare_quotient"
	movq	112(%rsp), %r11
	movq	32(%rsp), %rdx
	movl	52(%rsp), %r14d
	movq	72(%rsp), %rsi
	movq	40(%rsp), %rcx
	movq	24(%rsp), %rdi
	imulq	$-7864320, %rax, %rax
	addq	%rax, %rdx
	jmp	.LBB150_101
.LBB150_115:
	movq	%rsi, 72(%rsp)
	movl	$15466496, %esi
	movq	%rax, %rdi
	movl	%r14d, 52(%rsp)
	movq	%r11, 112(%rsp)
	callq	"sq_cpr::index::rare_quotient"
	movzbl	8(%rsp), %r9d
	movq	112(%rsp), %r11
	movq	32(%rsp), %rdx
	movl	52(%rsp), %r14d
	movq	72(%rsp), %rsi
	movq	40(%rsp), %rcx
	movq	24(%rsp), %rdi
	imulq	$-7733248, %rax, %rax
	addq	%rax, %r13
	jmp	.LBB150_102
.LBB150_116:
	movq	%r8, %r14
	movl	$1, %edx
	callq	"sq_cpr::index::on_circle"
	movq	24(%rsp), %rdi
	movq	40(%rsp), %rcx
	movq	72(%rsp), %rsi
	movq	32(%rsp), %rdx
	jmp	.LBB150_112
.Lfunc_end150:
	.size	squitter_tracker_hear, .Lfunc_end150-squitter_tracker_hear
	.section	.rodata.squitter_tracker_hear,"a",@progbits
	.p2align	2, 0x0
.LJTI150_0:
	.long	.LBB150_83-.LJTI150_0
	.long	.LBB150_83-.LJTI150_0
	.long	.LBB150_83-.LJTI150_0
	.long	.LBB150_83-.LJTI150_0
	.long	.LBB150_54-.LJTI150_0
	.long	.LBB150_110-.LJTI150_0
	.long	.LBB150_50-.LJTI150_0
.LJTI150_1:
	.long	.LBB150_68-.LJTI150_1
	.long	.LBB150_73-.LJTI150_1
	.long	.LBB150_71-.LJTI150_1
	.long	.LBB150_72-.LJTI150_1
	.long	.LBB150_70-.LJTI150_1
	.long	.LBB150_75-.LJTI150_1

	.section	.rodata.cst16,"aM",@progbits,16
	.p2align	4, 0x0
.LCPI151_0:
	.long	5
	.long	0
	.long	0
	.long	0
.LCPI151_1:
	.long	6
	.long	0
	.long	0
	.long	0
	.section	.rodata.cst4,"aM",@progbits,4
	.p2align	2, 0x0
.LCPI151_2:
	.long	5
.LCPI151_3:
	.long	6
	.section	.text.squitter_tracker_hear_many,"ax",@progbits
	.globl	squitter_tracker_hear_many
	.p2align	4
	.type	squitter_tracker_hear_many,@function
squitter_tracker_hear_many:
	pushq	%rbp
	pushq	%r15
	pushq	%r14
	pushq	%r13
	pushq	%r12
	pushq	%rbx
	subq	$424, %rsp
	movq	488(%rsp), %r15
	movq	480(%rsp), %r13
	movq	496(%rsp), %r14
	xorl	%r10d, %r10d
	movq	%rsi, 272(%rsp)
	testq	%rsi, %rsi
	sete	%bl
	xorl	%esi, %esi
	movq	%rcx, 280(%rsp)
	testq	%rcx, %rcx
	sete	%r11b
	xorl	%ecx, %ecx
	movq	%r9, 264(%rsp)
	testq	%r9, %r9
	sete	%r9b
	xorl	%eax, %eax
	testq	%r15, %r15
	sete	%bpl
	cmpq	%r13, %r14
	cmovbq	%r14, %r13
	cmpq	%r8, %r13
	cmovaeq	%r8, %r13
	cmpq	%rdx, %r13
	cmovaeq	%rdx, %r13
	movq	(%rdi), %rdx
	movq	%rdx, 248(%rsp)
	movq	8(%rdi), %rdx
	movq	%rdx, 112(%rsp)
	pxor	%xmm0, %xmm0
	movq	%rdi, 352(%rsp)
	movdqu	%xmm0, (%rdi)
	testq	%r13, %r13
	je	.LBB151_129
	movq	%r15, %r14
	movb	%bpl, %al
	shll	$12, %eax
	movq	248(%rsp), %rdx
	testq	%rdx, %rdx
	movq	112(%rsp), %rdi
	cmoveq	%rdx, %rdi
	je	.LBB151_131
	movb	%bl, %r10b
	shll	$12, %r10d
	addq	%r10, 272(%rsp)
	movb	%r11b, %sil
	shll	$12, %esi
	addq	%rsi, 280(%rsp)
	movb	%r9b, %cl
	shll	$12, %ecx
	addq	%rcx, 264(%rsp)
	addq	%rax, %r14
	leaq	72(%rdi), %rax
	movq	%rax, 176(%rsp)
	leaq	24(%rdi), %rax
	movq	%rax, 360(%rsp)
	leaq	216(%rdi), %rax
	movq	%rax, 184(%rsp)
	movq	%rdi, 136(%rsp)
	leaq	248(%rdi), %rax
	movq	%rax, 240(%rsp)
	xorl	%r12d, %r12d
	movq	%r13, 192(%rsp)
	movq	%r14, 376(%rsp)
	jmp	.LBB151_5
	.p2align	4
.LBB151_3:
	movd	.LCPI151_2(%rip), %xmm0
.LBB151_4:
	movq	%xmm0, (%r14,%r15)
	movq	%rcx, 8(%r14,%r15)
	incq	%r12
	cmpq	%r13, %r12
	je	.LBB151_129
.LBB151_5:
	movq	272(%rsp), %rax
	movq	(%rax,%r12,8), %rdi
	movq	%r12, %r15
	shlq	$4, %r15
	movq	%r15, %rcx
	subq	%r12, %rcx
	subq	%r12, %rcx
	movq	280(%rsp), %rdx
	movq	(%rdx,%rcx), %rax
	movzwl	8(%rdx,%rcx), %esi
	movl	10(%rdx,%rcx), %edx
	bswapq	%rax
	movq	$0, 200(%rsp)
	movq	%rax, %rcx
	shrq	$59, %rcx
	cmpq	$17, %rcx
	jne	.LBB151_3
	movq	%rdi, 32(%rsp)
	shll	$16, %esi
	shlq	$32, %rdx
	orq	%rsi, %rdx
	movq	%rax, %r10
	shlq	$48, %r10
	bswapq	%rdx
	orq	%rdx, %r10
	movq	%rax, %rcx
	shrq	$24, %rcx
	movq	%rax, %rdi
	shrq	$54, %rdi
	andl	$572, %edi
	leaq	.Lstatic.44(%rip), %rsi
	movq	%rax, %r8
	shrq	$46, %r8
	andl	$1020, %r8d
	xorl	(%rdi,%rsi), %ecx
	leaq	.Lstatic.45(%rip), %rdi
	xorl	(%r8,%rdi), %ecx
	movzbl	%ch, %ebp
	movzbl	%cl, %r9d
	shrl	$14, %ecx
	andl	$1020, %ecx
	leaq	.Lstatic.43(%rip), %r8
	movl	(%rcx,%r8), %ebx
	xorl	(%rsi,%rbp,4), %ebx
	xorl	(%rdi,%r9,4), %ebx
	xorl	%eax, %ebx
	movq	%r10, %rcx
	shrq	$24, %rcx
	movzbl	%bh, %ebp
	movzbl	%bl, %r9d
	movl	%ebx, %r11d
	shrl	$14, %r11d
	andl	$1020, %r11d
	xorl	(%r11,%r8), %ecx
	xorl	(%rsi,%rbp,4), %ecx
	xorl	(%rdi,%r9,4), %ecx
	andl	$16777215, %edx
	movzbl	%ch, %ebx
	movzbl	%cl, %r9d
	shrl	$14, %ecx
	andl	$1020, %ecx
	xorl	(%rsi,%rbx,4), %edx
	movl	(%rcx,%r8), %ecx
	xorl	(%rdi,%r9,4), %edx
	cmpl	%edx, %ecx
	jne	.LBB151_9
	movq	%rax, %r8
	shrq	$16, %r8
	movq	%r8, %rdx
	shldq	$40, %r10, %rdx
	movq	%rax, %rcx
	shrq	$56, %rcx
	andb	$7, %cl
	movq	%rcx, 16(%rsp)
	movq	%rax, %rsi
	shrq	$32, %rsi
	movl	%esi, %r14d
	andl	$16777215, %r14d
	movabsq	$72057594037927935, %rdi
	andq	%rdx, %rdi
	movq	%rdi, %rbp
	shrq	$51, %rdi
	movb	$1, %r9b
	cmpq	$5, %rdi
	jae	.LBB151_10
	xorl	%edi, %edi
	xorl	%ecx, %ecx
	xorl	%r11d, %r11d
	xorl	%eax, %eax
	movq	112(%rsp), %rbx
	movq	136(%rsp), %r13
	movl	$2, %r10d
	jmp	.LBB151_16
	.p2align	4
.LBB151_9:
	xorl	%ecx, %edx
	movd	.LCPI151_3(%rip), %xmm0
	movq	%rdx, %rcx
	jmp	.LBB151_4
.LBB151_10:
	cmpl	$8, %edi
	movq	112(%rsp), %rbx
	movq	136(%rsp), %r13
	ja	.LBB151_12
	movq	%r10, %r9
	shrq	$41, %r9
	movl	%eax, %r11d
	shrl	$10, %r11d
	andl	$1, %r11d
	andl	$131071, %r9d
	shldq	$28, %r10, %r8
	shrq	$27, %r10
	movl	$4294967295, %ecx
	incq	%rcx
	andq	%r10, %rcx
	andl	$2130706432, %r8d
	movl	%eax, %r10d
	shrl	$3, %r10d
	andl	$65536, %r10d
	shrl	$12, %eax
	andl	$32512, %eax
	orl	%r10d, %eax
	orq	%r8, %rax
	orq	%rcx, %rax
	orq	%rdi, %rax
	shlq	$32, %rdx
	movabsq	$562945658454016, %rcx
	andq	%rcx, %rdx
	orq	%r9, %rdx
	movl	$1, %r10d
	movb	$1, %dil
	xorl	%r9d, %r9d
	xorl	%ecx, %ecx
	jmp	.LBB151_15
.LBB151_12:
	cmpl	$19, %edi
	jb	.LBB151_14
	cmpl	$19, %edi
	setne	%cl
	cmpl	$23, %edi
	setb	%r11b
	andb	%cl, %r11b
	cmpb	$1, %r11b
	jne	.LBB151_55
.LBB151_14:
	movq	%r10, %r9
	shrq	$41, %r9
	movl	%eax, %r11d
	shrl	$10, %r11d
	andl	$1, %r11d
	andl	$131071, %r9d
	shldq	$36, %r10, %r8
	shrq	$11, %r10
	movabsq	$281474976710656, %rcx
	andq	%r10, %rcx
	movabsq	$17587891077120, %r10
	andq	%r8, %r10
	movl	%eax, %r8d
	shrl	$8, %r8d
	andl	$65536, %r8d
	shrl	$17, %eax
	andl	$768, %eax
	orl	%r8d, %eax
	orq	%r10, %rax
	orq	%rcx, %rax
	orq	%rdi, %rax
	shlq	$32, %rdx
	movabsq	$562945658454016, %rcx
	andq	%rcx, %rdx
	orq	%r9, %rdx
	xorl	%r9d, %r9d
	movb	$1, %cl
	xorl	%edi, %edi
	xorl	%r10d, %r10d
.LBB151_15:
	movq	%rdx, %rbp
.LBB151_16:
	movq	16(%rsp), %rdx
	movb	%dl, 200(%rsp)
	movl	%r14d, 204(%rsp)
	movl	%r10d, 208(%rsp)
	movl	%r11d, 212(%rsp)
	movq	%rbp, 216(%rsp)
	movq	%rax, 224(%rsp)
	cmpb	$1, 56(%r13)
	movq	32(%rsp), %r8
	jne	.LBB151_18
	movq	64(%r13), %rdx
	cmpq	%rdx, %r8
	jb	.LBB151_56
.LBB151_18:
	testb	%r9b, %r9b
	je	.LBB151_22
	movq	8(%rbx), %rsi
	movq	256(%r13), %rax
	xorl	%ecx, %ecx
	movq	%r8, %rdx
	subq	%rax, %rdx
	cmovaeq	%rdx, %rcx
	cmpq	%rsi, %rcx
	jbe	.LBB151_21
	movq	176(%rsp), %rdi
	movq	%r8, %rdx
	callq	"sq_track::tracker::look_through::<#bd73a11ec42be588>"
	movq	32(%rsp), %r8
.LBB151_21:
	movq	%rax, 256(%r13)
	movq	$1, 56(%r13)
	movq	%r8, 64(%r13)
	pxor	%xmm0, %xmm0
	movdqa	%xmm0, 144(%rsp)
	movdqa	%xmm0, 160(%rsp)
	movl	$0, 8(%rsp)
	movb	$0, 12(%rsp)
	movb	$7, %al
	xorl	%r14d, %r14d
	xorl	%ebp, %ebp
	movq	192(%rsp), %r13
	jmp	.LBB151_97
.LBB151_22:
	movl	%r10d, (%rsp)
	movq	%rdi, 24(%rsp)
	movq	%rbp, 104(%rsp)
	movl	%r11d, 80(%rsp)
	movq	%rcx, 128(%rsp)
	movl	(%rbx), %eax
	movq	8(%r13), %rcx
	movq	%rcx, 88(%rsp)
	movq	72(%r13), %rdi
	movq	80(%rbx), %r10
	movq	136(%rbx), %r8
	movq	144(%rbx), %r9
	cmpq	%rax, %r10
	jb	.LBB151_33
	testq	%r9, %r9
	je	.LBB151_31
	movl	%esi, %ecx
	andl	$16777215, %ecx
	movl	$4294967295, %ebx
	leaq	2(%rbx), %rax
	imulq	%rcx, %rax
	movq	112(%rsp), %rcx
	xorq	208(%rcx), %rax
	movabsq	$-7046029254386353123, %rcx
	mulq	%rcx
	xorq	%rax, %rdx
	movq	%rdx, %r11
	shrq	$32, %r11
	xorl	%edx, %r11d
	movl	%r11d, %ecx
	shrl	$24, %ecx
	cmpb	$1, %cl
	adcl	$0, %ecx
	leal	(%r9,%rbx), %eax
	andl	%r11d, %eax
	movd	%ecx, %xmm0
	punpcklbw	%xmm0, %xmm0
	movl	$1, %edx
	shll	%cl, %edx
	pshuflw	$0, %xmm0, %xmm0
	pshufd	$68, %xmm0, %xmm0
	leaq	-1(%r9), %rbp
	movq	%rax, %r11
.LBB151_25:
	movq	%r11, %rbx
	shlq	$6, %rbx
	leaq	(%r8,%rbx), %r13
	movdqu	(%r8,%rbx), %xmm1
	pcmpeqb	%xmm0, %xmm1
	pmovmskb	%xmm1, %ebx
	andl	$4095, %ebx
	je	.LBB151_29
	movzwl	%bx, %ebx
	.p2align	4
.LBB151_27:
	rep		bsfl	%ebx, %ecx
	movl	16(%r13,%rcx,4), %ecx
	cmpl	(%rdi,%rcx,4), %r14d
	je	.LBB151_33
	leal	-1(%rbx), %ecx
	andl	%ebx, %ecx
	movl	%ecx, %ebx
	jne	.LBB151_27
.LBB151_29:
	testl	%edx, 12(%r13)
	je	.LBB151_31
	incq	%r11
	andq	%rbp, %r11
	cmpq	%rax, %r11
	jne	.LBB151_25
.LBB151_31:
	movq	112(%rsp), %rdx
	movl	248(%rdx), %ecx
	movb	$3, %al
	cmpq	%rcx, %r10
	jbe	.LBB151_100
	movq	104(%rdx), %r10
	imulq	$296, %rcx, %rcx
	xorl	%edx, %edx
	movq	32(%rsp), %r11
	subq	(%r10,%rcx), %r11
	cmovbq	%rdx, %r11
	cmpq	88(%rsp), %r11
	jbe	.LBB151_101
.LBB151_33:
	movq	112(%rsp), %rbx
	movzbl	16(%rbx), %eax
	xorl	%ebp, %ebp
	movb	%al, 96(%rsp)
	cmpb	$1, %al
	cmoveq	360(%rsp), %rbp
	testq	%r9, %r9
	je	.LBB151_41
	andl	$16777215, %esi
	movl	$4294967295, %r10d
	leaq	2(%r10), %rax
	imulq	%rsi, %rax
	xorq	208(%rbx), %rax
	movabsq	$-7046029254386353123, %rcx
	mulq	%rcx
	xorq	%rax, %rdx
	movq	%rdx, %rsi
	shrq	$32, %rsi
	xorl	%edx, %esi
	movl	%esi, %ecx
	shrl	$24, %ecx
	cmpb	$1, %cl
	adcl	$0, %ecx
	leal	(%r9,%r10), %eax
	andl	%esi, %eax
	movd	%ecx, %xmm0
	punpcklbw	%xmm0, %xmm0
	movl	$1, %edx
	shll	%cl, %edx
	pshuflw	$0, %xmm0, %xmm0
	pshufd	$68, %xmm0, %xmm0
	decq	%r9
	movq	%rax, %rcx
.LBB151_35:
	movq	%rcx, %r10
	shlq	$6, %r10
	leaq	(%r8,%r10), %rsi
	movdqu	(%r8,%r10), %xmm1
	pcmpeqb	%xmm0, %xmm1
	pmovmskb	%xmm1, %r10d
	andl	$4095, %r10d
	je	.LBB151_39
	movzwl	%r10w, %r10d
	.p2align	4
.LBB151_37:
	rep		bsfl	%r10d, %r11d
	movl	16(%rsi,%r11,4), %r13d
	cmpl	(%rdi,%r13,4), %r14d
	je	.LBB151_42
	leal	-1(%r10), %r11d
	andl	%r10d, %r11d
	movl	%r11d, %r10d
	jne	.LBB151_37
.LBB151_39:
	testl	%edx, 12(%rsi)
	je	.LBB151_41
	incq	%rcx
	andq	%r9, %rcx
	cmpq	%rax, %rcx
	jne	.LBB151_35
.LBB151_41:
	movq	176(%rsp), %rdi
	movq	184(%rsp), %rsi
	movq	240(%rsp), %rdx
	movl	%r14d, %ecx
	callq	"sq_track::contacts::enter::<#bd73a11ec42be588>"
	movl	%edx, %r13d
	jmp	.LBB151_43
.LBB151_42:
	xorl	%eax, %eax
.LBB151_43:
	testb	%al, %al
	movq	32(%rsp), %r9
	movq	128(%rsp), %r10
	movl	80(%rsp), %edx
	jne	.LBB151_99
	movq	184(%rsp), %rax
	movq	(%rax), %rax
	movl	%r13d, %esi
	movq	(%rax,%rsi,8), %rax
	movq	%rax, 256(%rsp)
	movq	104(%rbx), %rax
	imulq	$296, %rsi, %rcx
	leaq	(%rax,%rcx), %rbx
	movq	%r9, (%rax,%rcx)
	testb	%r10b, %r10b
	movq	%rsi, 368(%rsp)
	je	.LBB151_47
	leaq	112(%rbx), %r11
	testl	%edx, %edx
	je	.LBB151_49
	movq	$1, 56(%rbx)
	movq	%r9, 64(%rbx)
	movq	16(%rsp), %rax
	movb	%al, 72(%rbx)
	movw	$0, 73(%rbx)
	movb	$0, 75(%rbx)
	movl	%r14d, 76(%rbx)
	movl	(%rsp), %eax
	movl	%eax, 80(%rbx)
	leaq	212(%rsp), %rax
	movdqu	(%rax), %xmm0
	movdqu	%xmm0, 84(%rbx)
	movl	16(%rax), %eax
	movl	%eax, 100(%rbx)
	movzbl	8(%rbx), %eax
	movzbl	104(%rbx), %edi
	xorl	%ecx, %ecx
	cmpb	$1, %dil
	cmovneq	%rcx, %r11
	leaq	16(%rbx), %rsi
	jmp	.LBB151_51
.LBB151_47:
	leaq	256(%rbx), %r11
	testl	%edx, %edx
	je	.LBB151_50
	movq	$1, 200(%rbx)
	movq	%r9, 208(%rbx)
	movq	16(%rsp), %rax
	movb	%al, 216(%rbx)
	movw	$0, 217(%rbx)
	movb	$0, 219(%rbx)
	movl	%r14d, 220(%rbx)
	movl	(%rsp), %eax
	movl	%eax, 224(%rbx)
	leaq	212(%rsp), %rax
	movdqu	(%rax), %xmm0
	movdqu	%xmm0, 228(%rbx)
	movl	16(%rax), %eax
	movl	%eax, 244(%rbx)
	movzbl	152(%rbx), %eax
	movzbl	248(%rbx), %edi
	xorl	%ecx, %ecx
	cmpb	$1, %dil
	cmovneq	%rcx, %r11
	leaq	160(%rbx), %rsi
	jmp	.LBB151_51
.LBB151_49:
	movq	$1, 8(%rbx)
	movq	%r9, 16(%rbx)
	movq	16(%rsp), %rax
	movb	%al, 24(%rbx)
	movw	$0, 25(%rbx)
	movb	$0, 27(%rbx)
	movl	%r14d, 28(%rbx)
	movl	(%rsp), %eax
	movl	%eax, 32(%rbx)
	leaq	212(%rsp), %rax
	movdqu	(%rax), %xmm0
	movdqu	%xmm0, 36(%rbx)
	movl	16(%rax), %eax
	movl	%eax, 52(%rbx)
	movzbl	56(%rbx), %eax
	movzbl	104(%rbx), %edi
	xorl	%ecx, %ecx
	cmpb	$1, %dil
	cmovneq	%rcx, %r11
	leaq	64(%rbx), %rsi
	jmp	.LBB151_51
.LBB151_50:
	movq	$1, 152(%rbx)
	movq	%r9, 160(%rbx)
	movq	16(%rsp), %rax
	movb	%al, 168(%rbx)
	movw	$0, 169(%rbx)
	movb	$0, 171(%rbx)
	movl	%r14d, 172(%rbx)
	movl	(%rsp), %eax
	movl	%eax, 176(%rbx)
	leaq	212(%rsp), %rax
	movdqu	(%rax), %xmm0
	movdqu	%xmm0, 180(%rbx)
	movl	16(%rax), %eax
	movl	%eax, 196(%rbx)
	movzbl	200(%rbx), %eax
	movzbl	248(%rbx), %edi
	xorl	%ecx, %ecx
	cmpb	$1, %dil
	cmovneq	%rcx, %r11
	leaq	208(%rbx), %rsi
.LBB151_51:
	cmpb	$1, %al
	cmovneq	%rcx, %rsi
	movb	$2, 16(%rsp)
	xorl	%r8d, %r8d
	cmpb	$1, %al
	jne	.LBB151_63
	movq	%r9, %rax
	subq	(%rsi), %rax
	movl	$0, %ecx
	cmovaeq	%rax, %rcx
	cmpq	88(%rsp), %rcx
	ja	.LBB151_63
	pxor	%xmm0, %xmm0
	movdqa	%xmm0, 48(%rsp)
	movq	$0, 64(%rsp)
	movzbl	16(%rsi), %ecx
	cmpb	$2, %cl
	jne	.LBB151_57
	xorl	%eax, %eax
	jmp	.LBB151_61
.LBB151_55:
	xorl	%edi, %edi
	xorl	%ecx, %ecx
	xorl	%r11d, %r11d
	xorl	%eax, %eax
	movl	$2, %r10d
	jmp	.LBB151_16
.LBB151_56:
	movb	$2, %al
	jmp	.LBB151_101
.LBB151_57:
	movb	$1, %al
	cmpl	%r14d, 12(%rsi)
	jne	.LBB151_61
	testb	%cl, %cl
	je	.LBB151_103
	cmpb	$0, 24(%rsp)
	je	.LBB151_62
	movq	%r11, 232(%rsp)
	addq	$20, %rsi
	movzbl	96(%rsp), %ecx
	movq	%rbp, %r8
	movl	%edi, %ebp
	leaq	48(%rsp), %rdi
	leaq	212(%rsp), %rdx
	callq	"sq_message::place::ground_pair"
	movl	%ebp, %edi
	movq	32(%rsp), %r9
	movzbl	49(%rsp), %eax
	movzbl	50(%rsp), %esi
	movzbl	51(%rsp), %ecx
	movq	%rcx, (%rsp)
	movzbl	56(%rsp), %r11d
	movl	60(%rsp), %edx
	movzbl	64(%rsp), %r10d
	movl	68(%rsp), %r8d
	cmpb	$0, 52(%rsp)
	sete	%bpl
	cmpb	$0, 48(%rsp)
	sete	%cl
	testb	%cl, %cl
	je	.LBB151_127
.LBB151_119:
	movq	%rdx, (%rsp)
	movslq	%edx, %rsi
	movb	$60, %al
	subb	%r11b, %al
	movzbl	%al, %eax
	shll	$17, %eax
	movq	%r10, 80(%rsp)
	movzbl	%r10b, %ecx
	imulq	$23592960, %rcx, %rdi
	imulq	$-47185920, %rcx, %rdx
	shll	$17, %ecx
	movq	%r8, 88(%rsp)
	movl	%r8d, %r8d
	testb	%bpl, %bpl
	movq	128(%rsp), %r10
	je	.LBB151_121
	imulq	$360, %rsi, %rsi
	imulq	$360, %r8, %r8
	xorl	%r14d, %r14d
	cmpq	%rdi, %r8
	cmovbq	%r14, %rdx
	addq	%r8, %rdx
	movl	$1, %edi
	movb	$1, %r8b
	movq	%r8, 24(%rsp)
	jmp	.LBB151_122
.LBB151_61:
	xorl	%r8d, %r8d
	movb	$3, 16(%rsp)
	movb	$5, %dl
	xorl	%r14d, %r14d
	movzbl	%al, %eax
	leaq	.LJTI151_0(%rip), %rcx
	movslq	(%rcx,%rax,4), %rax
	addq	%rcx, %rax
	xorl	%esi, %esi
	xorl	%ebp, %ebp
	jmpq	*%rax
.LBB151_62:
	xorl	%r8d, %r8d
	movb	$2, 16(%rsp)
.LBB151_63:
	xorl	%esi, %esi
.LBB151_64:
	testb	$1, %dil
	je	.LBB151_67
	xorl	%eax, %eax
	movq	%r9, %rcx
	subq	(%r11), %rcx
	cmovaeq	%rcx, %rax
	pxor	%xmm0, %xmm0
	movdqa	%xmm0, 48(%rsp)
	movq	$0, 64(%rsp)
	cmpq	88(%rsp), %rax
	ja	.LBB151_67
	leaq	8(%r11), %rdx
	movb	%dil, 24(%rsp)
	leaq	48(%rsp), %rdi
	movq	%rsi, (%rsp)
	leaq	200(%rsp), %rsi
	movq	%r11, %r14
	movq	%r8, %rbp
	callq	"sq_message::place::place_local"
	movq	(%rsp), %rsi
	movq	%rbp, %r8
	movzbl	24(%rsp), %edi
	movq	%r14, %r11
	movq	128(%rsp), %r10
	movq	32(%rsp), %r9
	cmpb	$0, 48(%rsp)
	je	.LBB151_90
.LBB151_67:
	movl	%esi, %r14d
	movl	%r8d, %ebp
	movzbl	16(%rsp), %eax
	movl	%eax, %edx
.LBB151_68:
	movq	%rdx, 16(%rsp)
	movb	$1, %al
	movq	%rax, 24(%rsp)
	cmpb	$1, %dil
	jne	.LBB151_70
	movq	(%r11), %r8
	movq	8(%r11), %rsi
	movq	16(%r11), %rax
	movq	24(%r11), %rdx
	movq	32(%r11), %rcx
	movl	$1, %edi
	movq	$0, 88(%rsp)
	movq	$0, 80(%rsp)
	movq	$0, (%rsp)
	xorl	%r11d, %r11d
	jmp	.LBB151_71
.LBB151_70:
	movq	$0, 88(%rsp)
	movq	$0, 80(%rsp)
	movq	$0, (%rsp)
	xorl	%r11d, %r11d
	xorl	%r8d, %r8d
	xorl	%edi, %edi
	xorl	%ecx, %ecx
	xorl	%edx, %edx
	xorl	%eax, %eax
	xorl	%esi, %esi
.LBB151_71:
	testb	%r10b, %r10b
	je	.LBB151_73
	movq	%rdi, 104(%rbx)
	movq	%r8, 112(%rbx)
	movq	%rsi, 120(%rbx)
	movq	%rax, 128(%rbx)
	movq	%rdx, 136(%rbx)
	movq	%rcx, 144(%rbx)
	jmp	.LBB151_74
.LBB151_73:
	movq	%rdi, 248(%rbx)
	movq	%r8, 256(%rbx)
	movq	%rsi, 264(%rbx)
	movq	%rax, 272(%rbx)
	movq	%rdx, 280(%rbx)
	movq	%rcx, 288(%rbx)
.LBB151_74:
	movq	256(%rsp), %rdi
	movq	%rdi, %rcx
	shrq	$32, %rcx
	movq	240(%rsp), %rax
	movl	(%rax), %eax
	cmpl	%ecx, %eax
	je	.LBB151_78
	cmpl	%eax, %r13d
	je	.LBB151_78
	movq	184(%rsp), %rdx
	movq	(%rdx), %rdx
	movl	%edi, %esi
	movl	%ecx, 4(%rdx,%rsi,8)
	movl	%edi, (%rdx,%rcx,8)
	movl	(%rdx,%rax,8), %ecx
	movl	%r13d, 4(%rdx,%rcx,8)
	movq	368(%rsp), %rsi
	movl	%ecx, (%rdx,%rsi,8)
	movl	%eax, 4(%rdx,%rsi,8)
	movl	%r13d, (%rdx,%rax,8)
	jmp	.LBB151_79
.LBB151_78:
	movl	%ecx, %eax
.LBB151_79:
	movq	136(%rsp), %rcx
	movl	%eax, 248(%rcx)
	movq	8(%rcx), %rsi
	movq	256(%rcx), %rax
	xorl	%ecx, %ecx
	movq	%r9, %rdx
	subq	%rax, %rdx
	cmovaeq	%rdx, %rcx
	cmpq	%rsi, %rcx
	movq	192(%rsp), %r13
	jbe	.LBB151_81
	movq	176(%rsp), %rdi
	movq	%r9, %rdx
	movl	%r11d, %ebx
	callq	"sq_track::tracker::look_through::<#bd73a11ec42be588>"
	movl	%ebx, %r11d
	movq	32(%rsp), %r9
.LBB151_81:
	movzbl	80(%rsp), %ecx
	movl	88(%rsp), %esi
	movb	$60, %dl
	subb	%r11b, %dl
	movzbl	%dl, %edx
	shll	$17, %edx
	movq	136(%rsp), %rdi
	movq	%rax, 256(%rdi)
	movq	$1, 56(%rdi)
	movq	%r9, 64(%rdi)
	pxor	%xmm0, %xmm0
	movdqa	%xmm0, 288(%rsp)
	movzbl	16(%rsp), %eax
	leaq	.LJTI151_1(%rip), %rdi
	movslq	(%rdi,%rax,4), %rax
	addq	%rdi, %rax
	jmpq	*%rax
.LBB151_82:
	movdqa	%xmm0, 48(%rsp)
	movdqa	%xmm0, 64(%rsp)
	movslq	(%rsp), %rdi
	imulq	$23592960, %rcx, %r8
	imulq	$-47185920, %rcx, %rax
	cmpb	$0, 24(%rsp)
	je	.LBB151_92
	imulq	$360, %rdi, %rdi
	imulq	$360, %rsi, %rsi
	jmp	.LBB151_93
.LBB151_84:
	movdqa	%xmm0, 160(%rsp)
	movdqa	%xmm0, 144(%rsp)
	movl	$0, 8(%rsp)
	movb	$0, 12(%rsp)
	movb	$5, %al
	jmp	.LBB151_96
.LBB151_85:
	movdqa	%xmm0, 160(%rsp)
	movdqa	%xmm0, 144(%rsp)
	movl	$0, 8(%rsp)
	movb	$0, 12(%rsp)
	movb	$3, %al
	jmp	.LBB151_96
.LBB151_86:
	movdqa	%xmm0, 160(%rsp)
	movdqa	%xmm0, 144(%rsp)
	movl	$0, 8(%rsp)
	movb	$0, 12(%rsp)
	movb	$4, %al
	jmp	.LBB151_97
.LBB151_87:
	movdqa	%xmm0, 48(%rsp)
	movdqa	%xmm0, 64(%rsp)
	movslq	(%rsp), %rdi
	imulq	$23592960, %rcx, %r8
	imulq	$-47185920, %rcx, %rax
	cmpb	$0, 24(%rsp)
	je	.LBB151_94
	imulq	$360, %rdi, %rdi
	imulq	$360, %rsi, %rsi
	jmp	.LBB151_95
.LBB151_89:
	movdqa	%xmm0, 160(%rsp)
	movdqa	%xmm0, 144(%rsp)
	movl	$0, 8(%rsp)
	movb	$0, 12(%rsp)
	movb	$6, %al
	jmp	.LBB151_96
.LBB151_90:
	movzbl	56(%rsp), %r11d
	movl	60(%rsp), %esi
	movl	68(%rsp), %r8d
	movzbl	64(%rsp), %edx
	movl	$60, %eax
	subl	%r11d, %eax
	shll	$17, %eax
	movl	%edx, %ecx
	shll	$17, %ecx
	imulq	$23592960, %rdx, %rdi
	movq	%rdx, 80(%rsp)
	imulq	$-47185920, %rdx, %rdx
	cmpb	$0, 52(%rsp)
	movq	%rsi, (%rsp)
	movslq	%esi, %rsi
	movq	%r8, 88(%rsp)
	je	.LBB151_102
	imulq	$90, %rsi, %rsi
	imulq	$90, %r8, %r8
	xorl	%r14d, %r14d
	cmpq	%rdi, %r8
	movl	$0, %edi
	movq	%rdi, 24(%rsp)
	cmovbq	%r14, %rdx
	addq	%r8, %rdx
	movl	$1, %edi
	movb	$1, %r8b
	movq	%r8, 16(%rsp)
	xorl	%r14d, %r14d
	xorl	%ebp, %ebp
	movq	%r9, %r8
	jmp	.LBB151_71
.LBB151_92:
	imulq	$90, %rdi, %rdi
	imulq	$90, %rsi, %rsi
.LBB151_93:
	xorl	%r9d, %r9d
	cmpq	%r8, %rsi
	cmovbq	%r9, %rax
	addq	%rsi, %rax
	shll	$17, %ecx
	movq	%rdi, 312(%rsp)
	movq	%rdx, 320(%rsp)
	movq	%rax, 328(%rsp)
	movq	%rcx, 336(%rsp)
	leaq	48(%rsp), %rdi
	leaq	312(%rsp), %rsi
	callq	"squitter_c::plain::plain_position"
	movdqa	48(%rsp), %xmm0
	movdqa	64(%rsp), %xmm1
	movdqa	%xmm1, 160(%rsp)
	movdqa	%xmm0, 144(%rsp)
	movl	$0, 8(%rsp)
	movb	$0, 12(%rsp)
	movb	$1, %al
	jmp	.LBB151_96
.LBB151_94:
	imulq	$90, %rdi, %rdi
	imulq	$90, %rsi, %rsi
.LBB151_95:
	xorl	%r9d, %r9d
	cmpq	%r8, %rsi
	cmovbq	%r9, %rax
	addq	%rsi, %rax
	shll	$17, %ecx
	movq	%rdi, 312(%rsp)
	movq	%rdx, 320(%rsp)
	movq	%rax, 328(%rsp)
	movq	%rcx, 336(%rsp)
	leaq	48(%rsp), %rdi
	leaq	312(%rsp), %rsi
	callq	"squitter_c::plain::plain_position"
	movdqa	48(%rsp), %xmm0
	movdqa	64(%rsp), %xmm1
	movdqa	%xmm1, 160(%rsp)
	movdqa	%xmm0, 144(%rsp)
	movl	$0, 8(%rsp)
	movb	$0, 12(%rsp)
	movb	$2, %al
.LBB151_96:
	xorl	%r14d, %r14d
	xorl	%ebp, %ebp
.LBB151_97:
	leaq	(%r12,%r12,4), %rcx
	movq	264(%rsp), %rdx
	leaq	(%rdx,%rcx,8), %rcx
	movdqa	144(%rsp), %xmm0
	movdqa	160(%rsp), %xmm1
	movdqa	%xmm1, 400(%rsp)
	movdqa	%xmm0, 384(%rsp)
	movl	8(%rsp), %edx
	movl	%edx, 120(%rsp)
	movzbl	12(%rsp), %edx
	movb	%dl, 124(%rsp)
	movdqu	%xmm1, 16(%rcx)
	movdqu	%xmm0, (%rcx)
	movb	%al, 32(%rcx)
	movb	%bpl, 33(%rcx)
	movb	%r14b, 34(%rcx)
	movl	120(%rsp), %eax
	movl	%eax, 35(%rcx)
	movzbl	124(%rsp), %eax
	movb	%al, 39(%rcx)
	pxor	%xmm0, %xmm0
	xorl	%ecx, %ecx
.LBB151_98:
	movq	376(%rsp), %r14
	jmp	.LBB151_4
.LBB151_99:
	movb	$1, %al
.LBB151_100:
	xorl	%edx, %edx
.LBB151_101:
	pxor	%xmm0, %xmm0
	movdqa	%xmm0, 288(%rsp)
	movzbl	%al, %esi
	leaq	288(%rsp), %rdi
	callq	"squitter_c::tracker_hear::fault_of_tracker"
	movq	288(%rsp), %xmm0
	movq	296(%rsp), %rcx
	movq	192(%rsp), %r13
	jmp	.LBB151_98
.LBB151_102:
	imulq	$360, %rsi, %rsi
	imulq	$360, %r8, %r8
	xorl	%r14d, %r14d
	cmpq	%rdi, %r8
	cmovbq	%r14, %rdx
	addq	%r8, %rdx
	movl	$1, %edi
	movb	$1, %r8b
	movq	%r8, 24(%rsp)
	xorl	%ebp, %ebp
	movb	$1, %r8b
	movq	%r8, 16(%rsp)
	movq	%r9, %r8
	jmp	.LBB151_71
.LBB151_103:
	testb	%r10b, %r10b
	je	.LBB151_62
	movb	$1, %bpl
	cmpb	%dl, 20(%rsi)
	movq	%r11, 232(%rsp)
	jne	.LBB151_107
	movb	$3, %al
	xorl	%r8d, %r8d
	xorl	%r10d, %r10d
	xorl	%edx, %edx
	xorl	%r11d, %r11d
	movq	$0, (%rsp)
	xorl	%esi, %esi
	xorl	%ecx, %ecx
	testb	%cl, %cl
	jne	.LBB151_119
.LBB151_127:
	movb	$3, 16(%rsp)
	movb	$5, %dl
	xorl	%r14d, %r14d
	movzbl	%al, %eax
	leaq	.LJTI151_0(%rip), %rcx
	movslq	(%rcx,%rax,4), %rax
	addq	%rcx, %rax
	xorl	%ebp, %ebp
	movq	128(%rsp), %r10
	movq	232(%rsp), %r11
	movq	%rsi, %r8
	movq	(%rsp), %rsi
	jmpq	*%rax
.LBB151_128:
	movb	$4, %dl
	xorl	%r14d, %r14d
	xorl	%ebp, %ebp
	jmp	.LBB151_68
.LBB151_121:
	imulq	$90, %rsi, %rsi
	imulq	$90, %r8, %r8
	xorl	%r14d, %r14d
	cmpq	%rdi, %r8
	movl	$0, %edi
	movq	%rdi, 24(%rsp)
	cmovbq	%r14, %rdx
	addq	%r8, %rdx
	movl	$1, %edi
	xorl	%r14d, %r14d
.LBB151_122:
	xorl	%ebp, %ebp
	movq	$0, 16(%rsp)
	movq	%r9, %r8
	jmp	.LBB151_71
.LBB151_107:
	movb	%dil, 24(%rsp)
	movq	104(%rsp), %r8
	movq	%r8, %r10
	shrq	$32, %r10
	testl	%edx, %edx
	movl	24(%rsi), %eax
	movl	%eax, %ecx
	cmovel	%r8d, %ecx
	movl	28(%rsi), %esi
	movl	%esi, %edx
	cmovel	%r10d, %edx
	movl	%edx, 16(%rsp)
	cmovel	%eax, %r8d
	cmovnel	%r10d, %esi
	imulq	$59, %rcx, %rax
	imulq	$-60, %r8, %rdx
	leaq	(%rax,%rdx), %r14
	addq	$7929856, %r14
	andq	$-131072, %r14
	leaq	(%r14,%rcx), %rdx
	addq	$-7864320, %rdx
	leaq	7864319(,%rdx,2), %rdi
	cmpq	$15728640, %rdi
	jae	.LBB151_123
	addq	%r8, %r14
	addq	$-7864320, %r14
	leaq	7733247(,%r14,2), %rdi
	cmpq	$15466496, %rdi
	jae	.LBB151_124
.LBB151_109:
	movslq	%edx, %rax
	imulq	$360, %rax, %rdi
	movq	%rdi, %rcx
	negq	%rcx
	cmovsq	%rdi, %rcx
	movb	$5, %al
	xorl	%r8d, %r8d
	cmpq	$707788800, %rcx
	ja	.LBB151_114
	movq	%r14, 104(%rsp)
	movslq	%r14d, %rcx
	imulq	$360, %rcx, %r14
	movq	%r14, %rcx
	negq	%rcx
	cmovsq	%r14, %rcx
	cmpq	$695992320, %rcx
	ja	.LBB151_115
	movl	%esi, 44(%rsp)
	movq	%r10, 96(%rsp)
	movq	%rdx, (%rsp)
	movl	$7864320, %esi
	callq	"sq_zones::zones::zone_count"
	movq	%rax, 344(%rsp)
	movl	$7733248, %esi
	movq	%r14, %rdi
	callq	"sq_zones::zones::zone_count"
	movq	344(%rsp), %r8
	cmpb	%al, %r8b
	jne	.LBB151_116
	leal	-1(%r8), %eax
	movzbl	%al, %eax
	cmpb	$2, %al
	movl	$1, %r14d
	cmovael	%eax, %r14d
	movzbl	%r14b, %esi
	movl	16(%rsp), %ecx
	imulq	%rsi, %rcx
	movzbl	%r8b, %eax
	movl	44(%rsp), %edx
	imulq	%rax, %rdx
	subq	%rdx, %rcx
	addq	$7929856, %rcx
	andq	$-131072, %rcx
	movq	96(%rsp), %rdx
	leaq	(%rdx,%rcx), %rdi
	addq	$-7864320, %rdi
	cmpl	$0, 80(%rsp)
	je	.LBB151_125
	movl	$1, %edx
	callq	"sq_cpr::index::on_circle"
	movl	%eax, %r8d
	movq	104(%rsp), %rdx
	jmp	.LBB151_126
.LBB151_114:
	xorl	%esi, %esi
	movq	$0, (%rsp)
	jmp	.LBB151_118
.LBB151_115:
	xorl	%esi, %esi
	movq	$0, (%rsp)
	jmp	.LBB151_117
.LBB151_116:
	movq	%rax, (%rsp)
	movq	%r8, %rsi
	movb	$6, %al
	movq	32(%rsp), %r9
.LBB151_117:
	xorl	%r8d, %r8d
.LBB151_118:
	movb	$1, 48(%rsp)
	movb	%al, 49(%rsp)
	xorl	%r10d, %r10d
	xorl	%edx, %edx
	xorl	%r11d, %r11d
	xorl	%ecx, %ecx
	movzbl	24(%rsp), %edi
	testb	%cl, %cl
	je	.LBB151_127
	jmp	.LBB151_119
.LBB151_123:
	movl	%esi, 44(%rsp)
	movl	$15728640, %esi
	movq	%r8, 104(%rsp)
	movq	%rdx, (%rsp)
	movq	%r10, 96(%rsp)
	callq	"sq_cpr::index::rare_quotient"
	movl	44(%rsp), %esi
	movq	96(%rsp), %r10
	movq	(%rsp), %rdx
	movq	104(%rsp), %r8
	movq	32(%rsp), %r9
	imulq	$-7864320, %rax, %rax
	addq	%rax, %rdx
	addq	%r8, %r14
	addq	$-7864320, %r14
	leaq	7733247(,%r14,2), %rdi
	cmpq	$15466496, %rdi
	jb	.LBB151_109
.LBB151_124:
	movl	%esi, 44(%rsp)
	movl	$15466496, %esi
	movq	%r14, 104(%rsp)
	movq	%rdx, (%rsp)
	movq	%r10, 96(%rsp)
	callq	"sq_cpr::index::rare_quotient"
	movl	44(%rsp), %esi
	movq	96(%rsp), %r10
	movq	(%rsp), %rdx
	movq	104(%rsp), %r14
	movq	32(%rsp), %r9
	imulq	$-7733248, %rax, %rax
	addq	%rax, %r14
	jmp	.LBB151_109
.LBB151_125:
	movl	%eax, %esi
	movl	$1, %edx
	movq	%r8, %r14
	callq	"sq_cpr::index::on_circle"
	movl	%eax, %r8d
	movq	(%rsp), %rdx
.LBB151_126:
	movq	$0, 48(%rsp)
	movl	80(%rsp), %r11d
	movb	%r11b, 56(%rsp)
	leaq	57(%rsp), %rax
	movb	$0, 2(%rax)
	movw	$0, (%rax)
	movb	$1, %bpl
	movq	$0, (%rsp)
	movl	%r14d, %r10d
	xorl	%esi, %esi
	xorl	%eax, %eax
	movb	$1, %cl
	movq	32(%rsp), %r9
	movzbl	24(%rsp), %edi
	testb	%cl, %cl
	jne	.LBB151_119
	jmp	.LBB151_127
.LBB151_129:
	cmpq	$0, 248(%rsp)
	je	.LBB151_138
	movq	352(%rsp), %rax
	movq	$1, (%rax)
	movq	112(%rsp), %rcx
	movq	%rcx, 8(%rax)
	jmp	.LBB151_138
.LBB151_131:
	movl	%r13d, %ecx
	andl	$3, %ecx
	cmpq	$4, %r13
	jae	.LBB151_133
	xorl	%edx, %edx
	jmp	.LBB151_136
.LBB151_133:
	movq	%r13, %rsi
	andq	$-4, %rsi
	leaq	(%rax,%r14), %rdi
	addq	$56, %rdi
	xorl	%edx, %edx
	.p2align	4
.LBB151_134:
	movq	$46, -56(%rdi)
	movq	$0, -48(%rdi)
	movq	$46, -40(%rdi)
	movq	$0, -32(%rdi)
	movq	$46, -24(%rdi)
	movq	$0, -16(%rdi)
	movq	$46, -8(%rdi)
	movq	$0, (%rdi)
	addq	$4, %rdx
	addq	$64, %rdi
	cmpq	%rdx, %rsi
	jne	.LBB151_134
	testq	%rcx, %rcx
	je	.LBB151_138
.LBB151_136:
	shlq	$4, %rdx
	addq	%rdx, %rax
	addq	%r14, %rax
	addq	$8, %rax
	shll	$4, %ecx
	xorl	%edx, %edx
	.p2align	4
.LBB151_137:
	movq	$46, -8(%rax,%rdx)
	movq	$0, (%rax,%rdx)
	addq	$16, %rdx
	cmpq	%rdx, %rcx
	jne	.LBB151_137
.LBB151_138:
	movq	%r13, %rax
	addq	$424, %rsp
	popq	%rbx
	popq	%r12
	popq	%r13
	popq	%r14
	popq	%r15
	popq	%rbp
	retq
.Lfunc_end151:
	.size	squitter_tracker_hear_many, .Lfunc_end151-squitter_tracker_hear_many
	.section	.rodata.squitter_tracker_hear_many,"a",@progbits
	.p2align	2, 0x0
.LJTI151_0:
	.long	.LBB151_62-.LJTI151_0
	.long	.LBB151_62-.LJTI151_0
	.long	.LBB151_62-.LJTI151_0
	.long	.LBB151_62-.LJTI151_0
	.long	.LBB151_68-.LJTI151_0
	.long	.LBB151_128-.LJTI151_0
	.long	.LBB151_64-.LJTI151_0
.LJTI151_1:
	.long	.LBB151_82-.LJTI151_1
	.long	.LBB151_87-.LJTI151_1
	.long	.LBB151_85-.LJTI151_1
	.long	.LBB151_86-.LJTI151_1
	.long	.LBB151_84-.LJTI151_1
	.long	.LBB151_89-.LJTI151_1

	.section	.text.squitter_unit_of,"ax",@progbits
	.globl	squitter_unit_of
	.p2align	4
	.type	squitter_unit_of,@function
squitter_unit_of:
	pushq	%rbp
	pushq	%r15
	pushq	%r14
	pushq	%r13
	pushq	%r12
	pushq	%rbx
	subq	$3072, %rsp
	movq	$0, (%rsp)
	subq	$120, %rsp
	movl	%r8d, 12(%rsp)
	movq	%rcx, %r13
	movq	%rdx, %r14
	movq	%rsi, %r15
	movq	%rdi, %r12
	xorl	%ebx, %ebx
	testq	%rdi, %rdi
	sete	10(%rsp)
	xorl	%ebp, %ebp
	testq	%rdx, %rdx
	sete	11(%rsp)
	leaq	16(%rsp), %rdi
	movl	$3176, %edx
	xorl	%esi, %esi
	callq	memset@PLT
	xorl	%eax, %eax
	cmpq	%r15, %r13
	cmovbq	%r13, %r15
	testq	%r15, %r15
	je	.LBB152_29
	movzbl	10(%rsp), %eax
	movb	%al, %bl
	shll	$12, %ebx
	addq	%rbx, %r12
	movzbl	11(%rsp), %eax
	movb	%al, %bpl
	shll	$12, %ebp
	addq	%rbp, %r14
	xorl	%ebx, %ebx
	xorl	%eax, %eax
	jmp	.LBB152_2
	.p2align	4
.LBB152_4:
	incq	%rbx
	cmpq	%rbx, %r15
	je	.LBB152_5
.LBB152_2:
	cmpl	$16383, %eax
	ja	.LBB152_4
	movl	(%r14,%rbx,4), %edx
	movq	(%r12,%rbx,8), %rsi
	leaq	16(%rsp), %rdi
	callq	"sq_feed::units::Units::watch"
	movl	16(%rsp), %eax
	jmp	.LBB152_4
.LBB152_5:
	cmpl	$2, %eax
	jb	.LBB152_7
	movl	$4, %eax
	cmpb	$0, 40(%rsp)
	je	.LBB152_29
.LBB152_7:
	movl	3152(%rsp), %r8d
	xorl	%eax, %eax
	cmpq	$16, %r8
	jb	.LBB152_29
	cmpb	$0, 12(%rsp)
	je	.LBB152_9
	imulq	$8000, %r8, %rcx
	cmpq	3168(%rsp), %rcx
	jbe	.LBB152_25
.LBB152_28:
	xorl	%eax, %eax
	jmp	.LBB152_29
.LBB152_9:
	movq	24(%rsp), %rdx
	movq	32(%rsp), %rcx
	movabsq	$-1000000000000, %rsi
	leaq	(%rdx,%rsi), %rdi
	shrq	$12, %rdi
	cmpq	$732421875, %rdi
	setb	%dil
	addq	%rcx, %rsi
	shrq	$12, %rsi
	cmpq	$732421875, %rsi
	setb	%sil
	testb	%sil, %dil
	jne	.LBB152_29
	movq	%rcx, %rsi
	shrq	$13, %rsi
	cmpq	$1220703125, %rsi
	jb	.LBB152_16
	movabsq	$99999999999999999, %rax
	cmpq	%rax, %rcx
	jbe	.LBB152_12
.LBB152_15:
	movl	$3, %eax
	jmp	.LBB152_29
.LBB152_25:
	movl	3184(%rsp), %ecx
	shll	$2, %ecx
	cmpl	%ecx, %r8d
	ja	.LBB152_28
	cmpb	$0, 71(%rsp)
	jne	.LBB152_28
	movl	$5, %eax
	cmpb	$0, 72(%rsp)
	je	.LBB152_29
	jmp	.LBB152_28
.LBB152_16:
	movq	3160(%rsp), %rsi
	imulq	$50, %r8, %rdi
	movl	$1, %eax
	cmpq	%rdi, %rsi
	jb	.LBB152_29
	addq	$-1000000000, %rdx
	shrq	$9, %rdx
	cmpq	$5859374, %rdx
	ja	.LBB152_20
	addq	$-1000000000, %rcx
	movl	$3000000000, %edx
	cmpq	%rdx, %rcx
	jae	.LBB152_20
	imulq	$100, %r8, %rcx
	cmpq	%rcx, %rsi
	jb	.LBB152_29
.LBB152_20:
	movl	3156(%rsp), %edx
	imulq	$100000, %rdx, %rcx
	cmpq	3168(%rsp), %rcx
	ja	.LBB152_22
	movl	3184(%rsp), %ecx
	addl	%ecx, %ecx
	movl	$2, %eax
	cmpl	%ecx, %edx
	jb	.LBB152_29
.LBB152_22:
	imulq	$100000000, %rdx, %rcx
	cmpq	3176(%rsp), %rcx
	ja	.LBB152_28
	movl	3188(%rsp), %ecx
	addl	%ecx, %ecx
	movl	$3, %eax
	cmpl	%ecx, %edx
	jae	.LBB152_28
	jmp	.LBB152_29
.LBB152_12:
	movabsq	$-1000000000000000, %rax
	addq	%rax, %rdx
	movabsq	$3000000000000000, %rsi
	cmpq	%rsi, %rdx
	setb	%dl
	addq	%rax, %rcx
	cmpq	%rsi, %rcx
	setb	%cl
	movl	$2, %eax
	testb	%cl, %dl
	jne	.LBB152_29
	movl	3156(%rsp), %edx
	imulq	$100000000, %rdx, %rcx
	cmpq	3176(%rsp), %rcx
	ja	.LBB152_29
	movl	3188(%rsp), %ecx
	addl	%ecx, %ecx
	cmpl	%ecx, %edx
	jb	.LBB152_15
.LBB152_29:
	addq	$3192, %rsp
	popq	%rbx
	popq	%r12
	popq	%r13
	popq	%r14
	popq	%r15
	popq	%rbp
	retq
.Lfunc_end152:
	.size	squitter_unit_of, .Lfunc_end152-squitter_unit_of

	.section	.text.squitter_doubts,"ax",@progbits
	.globl	squitter_doubts
	.p2align	4
	.type	squitter_doubts,@function
squitter_doubts:
	pushq	%rbp
	pushq	%r15
	pushq	%r14
	pushq	%r13
	pushq	%r12
	pushq	%rbx
	subq	$184, %rsp
	movq	%r8, 56(%rsp)
	movq	%rcx, 32(%rsp)
	movq	%rdi, 40(%rsp)
	movabsq	$-1000000000001, %r9
	movq	8(%rsi), %rax
	leaq	(%rax,%r9), %rcx
	leaq	1(%r9), %r10
	cmpq	%r10, %rcx
	jb	.LBB153_1
	movq	(%rsi), %rcx
	movq	%rcx, %r8
	negq	%r8
	cmovsq	%rcx, %r8
	imulq	$360, %rax, %rdi
	cmpq	%r8, %rdi
	jb	.LBB153_1
	movq	24(%rsi), %rdi
	leaq	(%rdi,%r9), %r11
	cmpq	%r10, %r11
	jb	.LBB153_1
	movq	16(%rsi), %rsi
	movq	%rsi, %r11
	negq	%r11
	cmovsq	%rsi, %r11
	imulq	$360, %rdi, %rbx
	cmpq	%r11, %rbx
	jae	.LBB153_5
.LBB153_1:
	movq	$0, (%rsp)
.LBB153_6:
	xorl	%r13d, %r13d
	xorl	%r15d, %r15d
	xorl	%r12d, %r12d
	xorl	%r8d, %r8d
.LBB153_9:
	movq	%r8, 48(%rsp)
	movq	16(%rdx), %rsi
	leaq	(%rsi,%r9), %rax
	movq	$0, 8(%rsp)
	cmpq	%r10, %rax
	jb	.LBB153_10
	movq	8(%rdx), %r8
	movq	%r8, %rcx
	negq	%rcx
	cmovsq	%r8, %rcx
	imulq	$360, %rsi, %rax
	cmpq	%rcx, %rax
	jb	.LBB153_10
	movq	32(%rdx), %r11
	leaq	(%r11,%r9), %rax
	cmpq	%r10, %rax
	jb	.LBB153_10
	movq	24(%rdx), %rbx
	movq	%rbx, %rax
	negq	%rax
	cmovsq	%rbx, %rax
	imulq	$360, %r11, %rdi
	cmpq	%rax, %rdi
	jae	.LBB153_14
.LBB153_10:
	xorl	%ebx, %ebx
	xorl	%ebp, %ebp
	xorl	%ecx, %ecx
	xorl	%edi, %edi
	xorl	%r11d, %r11d
	xorl	%r14d, %r14d
.LBB153_18:
	movq	(%rsp), %rax
	movq	%rax, 96(%rsp)
	movq	%r13, 104(%rsp)
	movq	%r15, 112(%rsp)
	movq	%r12, 120(%rsp)
	movq	48(%rsp), %rax
	movq	%rax, 128(%rsp)
	movq	%rbx, 136(%rsp)
	movq	%r14, 144(%rsp)
	movq	%rbp, 152(%rsp)
	movq	%rcx, 160(%rsp)
	movq	%rdi, 168(%rsp)
	movq	%r11, 176(%rsp)
	movq	56(%rsp), %rdi
	movq	8(%rdi), %rcx
	leaq	(%rcx,%r9), %rax
	cmpq	%r10, %rax
	jb	.LBB153_28
	movq	(%rdi), %rax
	movq	%rax, %rsi
	negq	%rsi
	cmovsq	%rax, %rsi
	imulq	$360, %rcx, %rdx
	cmpq	%rsi, %rdx
	jb	.LBB153_28
	movq	24(%rdi), %rdx
	addq	%rdx, %r9
	cmpq	%r10, %r9
	jb	.LBB153_28
	movq	16(%rdi), %rdi
	movq	%rdi, %r8
	negq	%r8
	cmovsq	%rdi, %r8
	imulq	$360, %rdx, %r9
	cmpq	%r8, %r9
	jae	.LBB153_22
.LBB153_28:
	movq	8(%rsp), %rax
	addq	$184, %rsp
	popq	%rbx
	popq	%r12
	popq	%r13
	popq	%r14
	popq	%r15
	popq	%rbp
	retq
.LBB153_5:
	imulq	$90, %rax, %rbx
	movq	$0, (%rsp)
	cmpq	%rbx, %r8
	ja	.LBB153_6
	imulq	$180, %rdi, %rbx
	movl	$0, %r13d
	movl	$0, %r15d
	movl	$0, %r12d
	movl	$0, %r8d
	cmpq	%rbx, %r11
	ja	.LBB153_9
	movl	$1, %r8d
	movq	%r8, (%rsp)
	movq	%rcx, %r13
	movq	%rax, %r15
	movq	%rsi, %r12
	movq	%rdi, %r8
	jmp	.LBB153_9
.LBB153_14:
	imulq	$90, %rsi, %rdi
	cmpq	%rdi, %rcx
	ja	.LBB153_15
	movq	%rbx, 24(%rsp)
	imulq	$180, %r11, %rbx
	movl	$0, %ebp
	movl	$0, %ecx
	movl	$0, %edi
	movq	%r11, 16(%rsp)
	movl	$0, %r11d
	movl	$0, %r14d
	cmpq	%rbx, %rax
	movl	$0, %ebx
	ja	.LBB153_18
	movq	(%rdx), %r14
	movl	$1, %ebx
	movq	%r8, %rbp
	movq	%rsi, %rcx
	movq	24(%rsp), %rdi
	movq	16(%rsp), %r11
	jmp	.LBB153_18
.LBB153_22:
	imulq	$90, %rcx, %r9
	cmpq	%r9, %rsi
	ja	.LBB153_28
	imulq	$180, %rdx, %rsi
	cmpq	%rsi, %r8
	ja	.LBB153_28
	movq	%rax, 64(%rsp)
	movq	%rcx, 72(%rsp)
	movq	%rdi, 80(%rsp)
	movq	%rdx, 88(%rsp)
	movq	40(%rsp), %rax
	movl	(%rax), %r8d
	movl	4(%rax), %ebp
	testq	%r8, %r8
	setne	%al
	movq	(%rsp), %rcx
	andb	%al, %cl
	movq	$0, 8(%rsp)
	cmpb	$1, %cl
	jne	.LBB153_26
	leaq	104(%rsp), %rdx
	leaq	64(%rsp), %rcx
	movl	$1, %esi
	movq	%r8, %rdi
	callq	"sq_track::watch::are_apart"
	movzbl	%al, %eax
	movq	%rax, 8(%rsp)
.LBB153_26:
	testl	%ebp, %ebp
	setne	%al
	andb	%al, %bl
	cmpb	$1, %bl
	jne	.LBB153_28
	leaq	152(%rsp), %r8
	xorl	%edx, %edx
	movq	32(%rsp), %rax
	subq	%r14, %rax
	cmovaeq	%rax, %rdx
	movl	%ebp, %ecx
	movq	%rcx, %rax
	mulq	%rdx
	movabsq	$1099508027776, %rdi
	cmpq	%rdi, %rax
	cmovaeq	%rdi, %rax
	testq	%rdx, %rdx
	cmoveq	%rax, %rdi
	addq	$3600000, %rdi
	leaq	64(%rsp), %rcx
	movl	$3600000, %esi
	movq	%r8, %rdx
	callq	"sq_track::watch::are_apart"
	movl	%eax, %ecx
	movq	8(%rsp), %rax
	movzbl	%cl, %ecx
	leal	(%rax,%rcx,2), %eax
	movq	%rax, 8(%rsp)
	jmp	.LBB153_28
.LBB153_15:
	xorl	%ebp, %ebp
	xorl	%ecx, %ecx
	xorl	%edi, %edi
	xorl	%r11d, %r11d
	xorl	%r14d, %r14d
	xorl	%ebx, %ebx
	jmp	.LBB153_18
.Lfunc_end153:
	.size	squitter_doubts, .Lfunc_end153-squitter_doubts

	.section	.text.squitter_tracker_save,"ax",@progbits
	.globl	squitter_tracker_save
	.p2align	4
	.type	squitter_tracker_save,@function
squitter_tracker_save:
	pushq	%rbp
	pushq	%r15
	pushq	%r14
	pushq	%r13
	pushq	%r12
	pushq	%rbx
	subq	$1112, %rsp
	xorl	%r15d, %r15d
	testq	%rdx, %rdx
	sete	%bl
	movq	8(%rdi), %r14
	cmpq	$0, (%rdi)
	pxor	%xmm0, %xmm0
	movdqu	%xmm0, (%rdi)
	je	.LBB154_3
	movq	%rdi, %r13
	xorl	%eax, %eax
	cmpb	$1, 56(%r14)
	sete	%dil
	jne	.LBB154_4
	movq	64(%r14), %r8
	jmp	.LBB154_5
.LBB154_3:
	xorl	%r12d, %r12d
	jmp	.LBB154_25
.LBB154_4:
	xorl	%r8d, %r8d
.LBB154_5:
	movb	%dil, %al
	movq	%r8, (%rsi)
	movq	%rax, 8(%rsi)
	cmpq	$0, 224(%r14)
	je	.LBB154_22
	movl	248(%r14), %eax
	movq	80(%r14), %r12
	cmpq	%rax, %r12
	jbe	.LBB154_24
	movq	%rdx, 24(%rsp)
	imulq	$296, %rax, %rsi
	addq	104(%r14), %rsi
	movq	72(%r14), %rdx
	movl	(%rdx,%rax,4), %ebp
	leaq	32(%rsp), %rdi
	movl	$296, %edx
	movq	%rcx, 16(%rsp)
	callq	memcpy@PLT
	cmpq	$0, 16(%rsp)
	je	.LBB154_24
	movb	%bl, %r15b
	shll	$12, %r15d
	addq	%r15, 24(%rsp)
	xorl	%r15d, %r15d
	movq	%r13, 8(%rsp)
	.p2align	4
.LBB154_9:
	leaq	624(%rsp), %r12
	leaq	32(%rsp), %rdx
	movq	%r12, %rdi
	movl	%ebp, %esi
	callq	"squitter_c::entry::plain_entry"
	leaq	(%r15,%r15,2), %rdi
	shlq	$6, %rdi
	addq	24(%rsp), %rdi
	movl	$192, %edx
	movq	%r12, %rsi
	callq	memcpy@PLT
	movq	80(%r14), %r12
	cmpq	$1, %r12
	movq	%r12, %rax
	adcq	$-1, %rax
	cmpq	%r15, %rax
	jbe	.LBB154_24
	movq	144(%r14), %rsi
	testq	%rsi, %rsi
	je	.LBB154_23
	movq	72(%r14), %r13
	movq	136(%r14), %rdi
	movl	%ebp, %ecx
	movl	$4294967295, %r9d
	leaq	2(%r9), %rax
	imulq	%rcx, %rax
	xorq	208(%r14), %rax
	movabsq	$-7046029254386353123, %rcx
	mulq	%rcx
	xorq	%rax, %rdx
	movq	%rdx, %r8
	shrq	$32, %r8
	xorl	%edx, %r8d
	movl	%r8d, %ecx
	shrl	$24, %ecx
	cmpb	$1, %cl
	adcl	$0, %ecx
	leal	(%rsi,%r9), %eax
	andl	%r8d, %eax
	movd	%ecx, %xmm0
	punpcklbw	%xmm0, %xmm0
	movl	$1, %edx
	shll	%cl, %edx
	pshuflw	$0, %xmm0, %xmm0
	pshufd	$68, %xmm0, %xmm0
	decq	%rsi
	movq	%rax, %rcx
.LBB154_12:
	movq	%rcx, %r9
	shlq	$6, %r9
	leaq	(%rdi,%r9), %r8
	movdqu	(%rdi,%r9), %xmm1
	pcmpeqb	%xmm0, %xmm1
	pmovmskb	%xmm1, %r9d
	andl	$4095, %r9d
	je	.LBB154_16
	movzwl	%r9w, %r9d
	.p2align	4
.LBB154_14:
	rep		bsfl	%r9d, %r10d
	movl	16(%r8,%r10,4), %r10d
	cmpl	(%r13,%r10,4), %ebp
	je	.LBB154_18
	leal	-1(%r9), %r10d
	andl	%r9d, %r10d
	movl	%r10d, %r9d
	jne	.LBB154_14
.LBB154_16:
	testl	%edx, 12(%r8)
	je	.LBB154_23
	incq	%rcx
	andq	%rsi, %rcx
	cmpq	%rax, %rcx
	jne	.LBB154_12
	jmp	.LBB154_23
	.p2align	4
.LBB154_18:
	movq	216(%r14), %rax
	movq	(%rax,%r10,8), %rbx
	shrq	$32, %rbx
	leaq	328(%rsp), %rdi
	xorl	%ebp, %ebp
	movl	$296, %edx
	xorl	%esi, %esi
	callq	memset@PLT
	cmpq	%rbx, %r12
	jbe	.LBB154_20
	imulq	$296, %rbx, %rsi
	addq	104(%r14), %rsi
	movl	(%r13,%rbx,4), %ebp
	leaq	328(%rsp), %rdi
	movl	$296, %edx
	callq	memcpy@PLT
.LBB154_20:
	leaq	816(%rsp), %r13
	leaq	328(%rsp), %rsi
	movl	$296, %edx
	movq	%r13, %rdi
	callq	memcpy@PLT
	leaq	32(%rsp), %rdi
	movl	$296, %edx
	movq	%r13, %rsi
	callq	memcpy@PLT
	incq	%r15
	cmpq	16(%rsp), %r15
	jae	.LBB154_23
	cmpq	%rbx, %r12
	movq	8(%rsp), %r13
	ja	.LBB154_9
	jmp	.LBB154_24
.LBB154_22:
	movq	80(%r14), %r12
	jmp	.LBB154_24
.LBB154_23:
	movq	8(%rsp), %r13
.LBB154_24:
	movq	$1, (%r13)
	movq	%r14, 8(%r13)
.LBB154_25:
	movq	%r12, %rax
	addq	$1112, %rsp
	popq	%rbx
	popq	%r12
	popq	%r13
	popq	%r14
	popq	%r15
	popq	%rbp
	retq
.Lfunc_end154:
	.size	squitter_tracker_save, .Lfunc_end154-squitter_tracker_save

	.section	.text.squitter_tracker_present,"ax",@progbits
	.globl	squitter_tracker_present
	.p2align	4
	.type	squitter_tracker_present,@function
squitter_tracker_present:
	xorl	%eax, %eax
	testq	%rcx, %rcx
	sete	%al
	shll	$12, %eax
	addq	%rax, %rcx
	jmp	"squitter_c::tracker_present::squitter_tracker_present"
.Lfunc_end155:
	.size	squitter_tracker_present, .Lfunc_end155-squitter_tracker_present

	.section	.text.squitter_log_present,"ax",@progbits
	.globl	squitter_log_present
	.p2align	4
	.type	squitter_log_present,@function
squitter_log_present:
	xorl	%eax, %eax
	testq	%rcx, %rcx
	sete	%al
	shll	$12, %eax
	addq	%rax, %rcx
	jmp	"squitter_c::tracker_present::squitter_tracker_present"
.Lfunc_end156:
	.size	squitter_log_present, .Lfunc_end156-squitter_log_present

	.section	.text.squitter_log_finish,"ax",@progbits
	.globl	squitter_log_finish
	.p2align	4
	.type	squitter_log_finish,@function
squitter_log_finish:
	pushq	%rbp
	pushq	%r15
	pushq	%r14
	pushq	%r13
	pushq	%r12
	pushq	%rbx
	subq	$312, %rsp
	movq	%rcx, %r14
	xorl	%eax, %eax
	testq	%rsi, %rsi
	sete	%cl
	movq	8(%rdi), %r15
	cmpq	$0, (%rdi)
	xorps	%xmm0, %xmm0
	movups	%xmm0, (%rdi)
	je	.LBB157_1
	movq	%rdi, %rbx
	movq	264(%r15), %r12
	testq	%r12, %r12
	js	.LBB157_3
	movq	%rdx, %r13
	movq	%rsi, %rbp
	movb	%cl, %al
	shll	$12, %eax
	addq	%rax, %rbp
	movups	272(%r15), %xmm0
	movups	%xmm0, 128(%rsp)
	leaq	288(%r15), %rsi
	leaq	144(%rsp), %rdi
	movl	$168, %edx
	callq	memcpy@PLT
	movq	%r15, 104(%rsp)
	leaq	.Lstatic.0(%rip), %rdx
	movq	%rdx, 112(%rsp)
	movq	%r12, 120(%rsp)
	xorps	%xmm0, %xmm0
	movaps	%xmm0, 48(%rsp)
	movq	$0, 64(%rsp)
	movaps	%xmm0, 16(%rsp)
	movq	$0, 32(%rsp)
	movq	$0, (%rsp)
	leaq	48(%rsp), %rdi
	leaq	104(%rsp), %rsi
	xorl	%ecx, %ecx
	movq	%rbp, %r8
	movq	%r13, %r9
	callq	"squitter_c::log_loop::write_some::<#4e49cecb6d0bb978>"
	movq	48(%rsp), %rax
	movq	56(%rsp), %r12
	movzbl	64(%rsp), %ecx
	cmpl	$1, %ecx
	je	.LBB157_7
	cmpl	$2, %ecx
	jne	.LBB157_6
	movq	%rax, 16(%rsp)
	movq	%r12, 24(%rsp)
	movl	$44, %r13d
	jmp	.LBB157_9
.LBB157_1:
	movl	$46, %r13d
	jmp	.LBB157_11
.LBB157_3:
	movl	$48, %r13d
	jmp	.LBB157_10
.LBB157_7:
	movq	%rax, 16(%rsp)
	movq	%r12, 24(%rsp)
	xorl	%r13d, %r13d
.LBB157_9:
	movq	16(%rsp), %rax
	movq	%rax, 80(%rsp)
	movq	24(%rsp), %rax
	movq	%rax, 88(%rsp)
	movq	120(%rsp), %rax
	movq	%rax, 264(%r15)
	leaq	128(%rsp), %rax
	movups	(%rax), %xmm0
	leaq	272(%r15), %rax
	movups	%xmm0, (%rax)
	movl	$168, %edx
	leaq	288(%r15), %rdi
	leaq	144(%rsp), %rsi
	callq	memcpy@PLT
	movaps	80(%rsp), %xmm0
	movups	%xmm0, (%r14)
.LBB157_10:
	movq	$1, (%rbx)
	movq	%r15, 8(%rbx)
.LBB157_11:
	movq	%r13, %rax
	xorl	%edx, %edx
	addq	$312, %rsp
	popq	%rbx
	popq	%r12
	popq	%r13
	popq	%r14
	popq	%r15
	popq	%rbp
	retq
.LBB157_6:
	leaq	144(%rsp), %rdi
	callq	"sq_log::marked_bytes::MarkedBytes::close"
	movq	%r12, (%rsp)
	leaq	.Lstatic.0(%rip), %rdx
	xorl	%r12d, %r12d
	leaq	16(%rsp), %rdi
	leaq	104(%rsp), %rsi
	xorl	%ecx, %ecx
	movq	%rbp, %r8
	movq	%r13, %r9
	callq	"squitter_c::log_loop::write_some::<#4e49cecb6d0bb978>"
	cmpb	$2, 32(%rsp)
	movl	$44, %r13d
	cmovneq	%r12, %r13
	jmp	.LBB157_9
.Lfunc_end157:
	.size	squitter_log_finish, .Lfunc_end157-squitter_log_finish

	.section	.text.squitter_log_finish_text,"ax",@progbits
	.globl	squitter_log_finish_text
	.p2align	4
	.type	squitter_log_finish_text,@function
squitter_log_finish_text:
	pushq	%rbp
	pushq	%r15
	pushq	%r14
	pushq	%r13
	pushq	%r12
	pushq	%rbx
	subq	$856, %rsp
	xorl	%r15d, %r15d
	testq	%rdx, %rdx
	sete	%bpl
	movq	8(%rdi), %r12
	cmpq	$0, (%rdi)
	xorps	%xmm0, %xmm0
	movups	%xmm0, (%rdi)
	je	.LBB158_1
	movq	$0, 328(%rsp)
	movl	$49, %eax
	cmpl	$2, %esi
	ja	.LBB158_12
	movq	%rdx, %rbx
	movq	%rcx, %r14
	movq	%r8, 80(%rsp)
	movq	%rdi, 88(%rsp)
	shll	$3, %esi
	movl	$65792, %eax
	movl	%esi, %ecx
	shrl	%cl, %eax
	movl	$65536, %edx
	shrl	%cl, %edx
	movb	%al, 328(%rsp)
	movb	%dl, 329(%rsp)
	leaq	336(%rsp), %rdi
	movl	$520, %edx
	xorl	%esi, %esi
	callq	memset@PLT
	movq	264(%r12), %r13
	testq	%r13, %r13
	js	.LBB158_4
	movb	%bpl, %r15b
	shll	$12, %r15d
	addq	%r15, %rbx
	movups	272(%r12), %xmm0
	movups	%xmm0, 144(%rsp)
	leaq	288(%r12), %rbp
	leaq	160(%rsp), %r15
	movl	$168, %edx
	movq	%r15, %rdi
	movq	%rbp, %rsi
	callq	memcpy@PLT
	movq	%r12, 120(%rsp)
	leaq	.Lstatic.0(%rip), %rcx
	movq	%rcx, 128(%rsp)
	movq	%r13, 136(%rsp)
	xorps	%xmm0, %xmm0
	movaps	%xmm0, 48(%rsp)
	movq	$0, 64(%rsp)
	movaps	%xmm0, 16(%rsp)
	movq	$0, 32(%rsp)
	movq	%r14, (%rsp)
	movq	$0, 8(%rsp)
	leaq	48(%rsp), %rdi
	leaq	120(%rsp), %rsi
	leaq	328(%rsp), %rdx
	xorl	%r8d, %r8d
	movq	%rbx, %r9
	callq	"squitter_c::log_loop::write_some::<#507aa2edf0378fed>"
	movq	48(%rsp), %rax
	movq	56(%rsp), %r13
	movzbl	64(%rsp), %ecx
	cmpl	$1, %ecx
	je	.LBB158_8
	cmpl	$2, %ecx
	jne	.LBB158_7
	movq	%rax, 16(%rsp)
	movq	%r13, 24(%rsp)
	movl	$44, %ebx
	jmp	.LBB158_10
.LBB158_1:
	movl	$46, %eax
	jmp	.LBB158_13
.LBB158_4:
	movl	$48, %eax
	jmp	.LBB158_11
.LBB158_8:
	movq	%rax, 16(%rsp)
	movq	%r13, 24(%rsp)
	xorl	%ebx, %ebx
.LBB158_10:
	movq	16(%rsp), %rax
	movq	%rax, 96(%rsp)
	movq	24(%rsp), %rax
	movq	%rax, 104(%rsp)
	movq	136(%rsp), %rax
	movq	%rax, 264(%r12)
	leaq	144(%rsp), %rax
	movups	(%rax), %xmm0
	leaq	272(%r12), %rax
	movups	%xmm0, (%rax)
	movl	$168, %edx
	movq	%rbp, %rdi
	movq	%r15, %rsi
	callq	memcpy@PLT
	movaps	96(%rsp), %xmm0
	movq	80(%rsp), %rax
	movups	%xmm0, (%rax)
	movq	%rbx, %rax
.LBB158_11:
	movq	88(%rsp), %rdi
.LBB158_12:
	movq	$1, (%rdi)
	movq	%r12, 8(%rdi)
.LBB158_13:
	xorl	%edx, %edx
	addq	$856, %rsp
	popq	%rbx
	popq	%r12
	popq	%r13
	popq	%r14
	popq	%r15
	popq	%rbp
	retq
.LBB158_7:
	leaq	160(%rsp), %rdi
	callq	"sq_log::marked_bytes::MarkedBytes::close"
	movq	%r13, 8(%rsp)
	movq	%r14, (%rsp)
	leaq	.Lstatic.0(%rip), %rcx
	xorl	%r14d, %r14d
	leaq	16(%rsp), %rdi
	leaq	120(%rsp), %rsi
	leaq	328(%rsp), %rdx
	xorl	%r8d, %r8d
	movq	%rbx, %r9
	callq	"squitter_c::log_loop::write_some::<#507aa2edf0378fed>"
	cmpb	$2, 32(%rsp)
	movl	$44, %ebx
	cmovneq	%r14, %rbx
	jmp	.LBB158_10
.Lfunc_end158:
	.size	squitter_log_finish_text, .Lfunc_end158-squitter_log_finish_text

	.section	.text.squitter_log_take,"ax",@progbits
	.globl	squitter_log_take
	.p2align	4
	.type	squitter_log_take,@function
squitter_log_take:
	pushq	%rbp
	pushq	%r15
	pushq	%r14
	pushq	%r13
	pushq	%r12
	pushq	%rbx
	subq	$296, %rsp
	xorl	%r11d, %r11d
	testq	%rsi, %rsi
	sete	%r15b
	xorl	%r10d, %r10d
	testq	%rcx, %rcx
	sete	%bpl
	movq	8(%rdi), %rbx
	cmpq	$0, (%rdi)
	xorps	%xmm0, %xmm0
	movups	%xmm0, (%rdi)
	je	.LBB159_1
	movq	264(%rbx), %r14
	testq	%r14, %r14
	sets	%al
	movabsq	$2305843009213693952, %r12
	cmpq	%r12, %rdx
	seta	%r12b
	orb	%al, %r12b
	movl	$48, %eax
	jne	.LBB159_4
	movb	%r15b, %r11b
	shll	$12, %r11d
	addq	%r11, %rsi
	movb	%bpl, %r10b
	shll	$12, %r10d
	addq	%r10, %rcx
	movaps	%xmm0, 32(%rsp)
	movq	$0, 48(%rsp)
	movups	272(%rbx), %xmm0
	movups	%xmm0, 112(%rsp)
	leaq	288(%rbx), %rax
	leaq	128(%rsp), %r10
	movq	%rdx, %r15
	movl	$168, %edx
	movq	%rdi, 24(%rsp)
	movq	%r10, %rdi
	movq	%rsi, %r12
	movq	%rax, %rsi
	movq	%r9, 16(%rsp)
	movq	%r8, %r13
	movq	%rcx, %rbp
	callq	memcpy@PLT
	movq	%rbx, 88(%rsp)
	leaq	.Lstatic.0(%rip), %rax
	movq	%rax, 96(%rsp)
	movq	%r14, 104(%rsp)
	movq	$0, (%rsp)
	leaq	32(%rsp), %rdi
	leaq	88(%rsp), %rsi
	movq	%r12, %rdx
	movq	%r15, %rcx
	movq	%rbp, %r8
	movq	%r13, %r9
	callq	"squitter_c::log_loop::write_some::<#4e49cecb6d0bb978>"
	movq	104(%rsp), %rax
	movq	%rax, 264(%rbx)
	movups	112(%rsp), %xmm0
	movups	%xmm0, 272(%rbx)
	movl	$168, %edx
	leaq	288(%rbx), %rdi
	leaq	128(%rsp), %rsi
	callq	memcpy@PLT
	movq	24(%rsp), %rdi
	movaps	32(%rsp), %xmm0
	movaps	%xmm0, 64(%rsp)
	movzbl	48(%rsp), %eax
	movq	16(%rsp), %rcx
	movups	%xmm0, (%rcx)
	xorl	%ecx, %ecx
	cmpb	$2, %al
	movl	$44, %eax
	cmovneq	%rcx, %rax
.LBB159_4:
	movq	$1, (%rdi)
	movq	%rbx, 8(%rdi)
	jmp	.LBB159_5
.LBB159_1:
	movl	$46, %eax
.LBB159_5:
	xorl	%edx, %edx
	addq	$296, %rsp
	popq	%rbx
	popq	%r12
	popq	%r13
	popq	%r14
	popq	%r15
	popq	%rbp
	retq
.Lfunc_end159:
	.size	squitter_log_take, .Lfunc_end159-squitter_log_take

	.section	.text.squitter_log_take_text,"ax",@progbits
	.globl	squitter_log_take_text
	.p2align	4
	.type	squitter_log_take_text,@function
squitter_log_take_text:
	pushq	%rbp
	pushq	%r15
	pushq	%r14
	pushq	%r13
	pushq	%r12
	pushq	%rbx
	subq	$840, %rsp
	xorl	%r13d, %r13d
	testq	%rdx, %rdx
	sete	%r14b
	xorl	%r15d, %r15d
	testq	%r8, %r8
	sete	%r12b
	movq	8(%rdi), %rbp
	cmpq	$0, (%rdi)
	xorps	%xmm0, %xmm0
	movups	%xmm0, (%rdi)
	je	.LBB160_1
	movq	$0, 312(%rsp)
	movl	$49, %eax
	cmpl	$2, %esi
	ja	.LBB160_6
	movq	%rcx, %rbx
	movq	%r9, 32(%rsp)
	movq	%rdx, 16(%rsp)
	movq	%r8, 24(%rsp)
	movq	%rdi, 40(%rsp)
	shll	$3, %esi
	movl	$65792, %eax
	movl	%esi, %ecx
	shrl	%cl, %eax
	movl	$65536, %edx
	shrl	%cl, %edx
	movb	%al, 312(%rsp)
	movb	%dl, 313(%rsp)
	leaq	320(%rsp), %rdi
	movl	$520, %edx
	xorl	%esi, %esi
	callq	memset@PLT
	movq	264(%rbp), %rdx
	testq	%rdx, %rdx
	sets	%al
	movabsq	$2305843009213693952, %rcx
	cmpq	%rcx, %rbx
	seta	%cl
	orb	%al, %cl
	movl	$48, %eax
	jne	.LBB160_5
	movb	%r14b, %r13b
	shll	$12, %r13d
	movq	16(%rsp), %r14
	addq	%r13, %r14
	movb	%r12b, %r15b
	shll	$12, %r15d
	movq	24(%rsp), %r13
	addq	%r15, %r13
	xorps	%xmm0, %xmm0
	movaps	%xmm0, 48(%rsp)
	movq	$0, 64(%rsp)
	movups	272(%rbp), %xmm0
	movups	%xmm0, 128(%rsp)
	leaq	288(%rbp), %r12
	leaq	144(%rsp), %rdi
	movq	%rdx, %r15
	movl	$168, %edx
	movq	%r12, %rsi
	callq	memcpy@PLT
	movq	%rbp, 104(%rsp)
	leaq	.Lstatic.0(%rip), %rax
	movq	%rax, 112(%rsp)
	movq	%r15, 120(%rsp)
	movq	32(%rsp), %rax
	movq	%rax, (%rsp)
	movq	$0, 8(%rsp)
	leaq	48(%rsp), %rdi
	leaq	104(%rsp), %rsi
	leaq	312(%rsp), %rdx
	movq	%r14, %rcx
	movq	%rbx, %r8
	movq	%r13, %r9
	callq	"squitter_c::log_loop::write_some::<#507aa2edf0378fed>"
	movq	120(%rsp), %rax
	movq	%rax, 264(%rbp)
	movups	128(%rsp), %xmm0
	movups	%xmm0, 272(%rbp)
	movl	$168, %edx
	movq	%r12, %rdi
	leaq	144(%rsp), %rsi
	callq	memcpy@PLT
	movaps	48(%rsp), %xmm0
	movaps	%xmm0, 80(%rsp)
	movzbl	64(%rsp), %eax
	movq	896(%rsp), %rcx
	movups	%xmm0, (%rcx)
	xorl	%ecx, %ecx
	cmpb	$2, %al
	movl	$44, %eax
	cmovneq	%rcx, %rax
.LBB160_5:
	movq	40(%rsp), %rdi
.LBB160_6:
	movq	$1, (%rdi)
	movq	%rbp, 8(%rdi)
	jmp	.LBB160_7
.LBB160_1:
	movl	$46, %eax
.LBB160_7:
	xorl	%edx, %edx
	addq	$840, %rsp
	popq	%rbx
	popq	%r12
	popq	%r13
	popq	%r14
	popq	%r15
	popq	%rbp
	retq
.Lfunc_end160:
	.size	squitter_log_take_text, .Lfunc_end160-squitter_log_take_text

	.section	.text.squitter_zone_count,"ax",@progbits
	.globl	squitter_zone_count
	.p2align	4
	.type	squitter_zone_count,@function
squitter_zone_count:
	movq	8(%rdi), %rcx
	movabsq	$-1000000000001, %rdx
	leaq	(%rcx,%rdx), %r8
	incq	%rdx
	movl	$23, %eax
	cmpq	%rdx, %r8
	jb	.LBB161_8
	movq	(%rdi), %rdi
	movq	%rdi, %rdx
	negq	%rdx
	cmovsq	%rdi, %rdx
	imulq	$360, %rcx, %rdi
	cmpq	%rdx, %rdi
	jb	.LBB161_8
	imulq	$90, %rcx, %rdi
	cmpq	%rdi, %rdx
	ja	.LBB161_8
	movl	$100000000, %edi
	movq	%rdx, %rax
	mulq	%rdi
	movq	%rax, %rdi
	leaq	-1(%rcx), %rax
	addq	%rdi, %rax
	adcq	$0, %rdx
	movabsq	$1099494981631, %rdi
	testq	%rdi, %rcx
	jne	.LBB161_6
	movq	%rax, %rdi
	shrq	$56, %rdi
	orq	%rdx, %rdi
	jne	.LBB161_6
	shrq	$17, %rax
	shrq	$14, %rcx
	leaq	.Lstatic.40(%rip), %rdx
	mulq	(%rcx,%rdx)
	shldq	$16, %rax, %rdx
.LBB161_7:
	movq	%rdx, %rax
	shrq	$25, %rax
	leaq	.Lstatic.41(%rip), %rcx
	movzbl	(%rax,%rcx), %eax
	leaq	.Lstatic.42(%rip), %rcx
	cmpq	%rdx, (%rcx,%rax,8)
	adcb	$-1, %al
	movb	$58, %cl
	subb	%al, %cl
	movb	%cl, (%rsi)
	xorl	%eax, %eax
.LBB161_8:
	xorl	%edx, %edx
	retq
.LBB161_6:
	pushq	%rbx
	movq	%rax, %rdi
	movq	%rsi, %rbx
	movq	%rdx, %rsi
	movq	%rcx, %rdx
	callq	"sq_angle::quotients::divided"
	movq	%rbx, %rsi
	movq	%rax, %rdx
	popq	%rbx
	jmp	.LBB161_7
.Lfunc_end161:
	.size	squitter_zone_count, .Lfunc_end161-squitter_zone_count

	.section	.text.squitter_local_zones,"ax",@progbits
	.globl	squitter_local_zones
	.p2align	4
	.type	squitter_local_zones,@function
squitter_local_zones:
	pushq	%rbp
	pushq	%r15
	pushq	%r14
	pushq	%r12
	pushq	%rbx
	subq	$32, %rsp
	movq	%rdx, %rbx
	movq	%rsi, %rdx
	movq	%rdi, %rsi
	movq	%rsp, %rdi
	callq	"squitter_c::decode::near"
	movzbl	8(%rsp), %ebp
	movzbl	%bpl, %eax
	movq	16(%rsp), %r12
	cmpb	$0, (%rsp)
	je	.LBB162_4
	movzbl	9(%rsp), %edx
	movl	%eax, %eax
	leaq	.LJTI162_0(%rip), %rcx
	movslq	(%rcx,%rax,4), %rax
	addq	%rcx, %rax
	jmpq	*%rax
.LBB162_2:
	movq	24(%rsp), %rdx
	movq	%r12, %rbx
	movzbl	%bl, %eax
	leaq	.LJTI162_2(%rip), %rcx
	movslq	(%rcx,%rax,4), %rax
	addq	%rcx, %rax
	jmpq	*%rax
.LBB162_3:
	movl	$40, %eax
	jmp	.LBB162_12
.LBB162_4:
	movslq	12(%rsp), %r15
	movl	$60, %r14d
	subq	%rax, %r14
	movl	%r14d, %ecx
	shll	$17, %ecx
	leaq	-1(%rcx), %rsi
	cmpb	$0, 4(%rsp)
	je	.LBB162_8
	imulq	$90, %r15, %rdx
	movq	%rdx, %rax
	negq	%rax
	cmovsq	%rdx, %rax
	movl	$100000000, %edx
	mulq	%rdx
	addq	%rsi, %rax
	adcq	$0, %rdx
	movq	%rdx, %rsi
	shldq	$8, %rax, %rsi
	jne	.LBB162_29
	shrq	$17, %rax
	leaq	.Lstatic.40(%rip), %rcx
	mulq	(%rcx,%r14,8)
	shldq	$16, %rax, %rdx
.LBB162_7:
	movq	%rdx, %rax
	shrq	$25, %rax
	leaq	.Lstatic.41(%rip), %rcx
	movzbl	(%rax,%rcx), %eax
	leaq	.Lstatic.42(%rip), %rcx
	cmpq	%rdx, (%rcx,%rax,8)
	adcb	$-1, %al
	negb	%al
	movl	$90, %ecx
	jmp	.LBB162_11
.LBB162_8:
	imulq	$360, %r15, %rdx
	movq	%rdx, %rax
	negq	%rax
	cmovsq	%rdx, %rax
	movl	$100000000, %edx
	mulq	%rdx
	addq	%rsi, %rax
	adcq	$0, %rdx
	movq	%rdx, %rsi
	shldq	$8, %rax, %rsi
	jne	.LBB162_30
	shrq	$17, %rax
	leaq	.Lstatic.40(%rip), %rcx
	mulq	(%rcx,%r14,8)
	shldq	$16, %rax, %rdx
.LBB162_10:
	movq	%rdx, %rax
	shrq	$25, %rax
	leaq	.Lstatic.41(%rip), %rcx
	movzbl	(%rax,%rcx), %eax
	leaq	.Lstatic.42(%rip), %rcx
	cmpq	%rdx, (%rcx,%rax,8)
	adcb	$-1, %al
	negb	%al
	movl	$360, %ecx
.LBB162_11:
	addb	$58, %al
	movq	%r12, %rsi
	movq	%r12, %rdx
	shrq	$49, %rdx
	sarl	$17, %r15d
	movl	%r15d, (%rbx)
	movl	%edx, 4(%rbx)
	movl	%ecx, 8(%rbx)
	movb	%r14b, 12(%rbx)
	movb	%al, 13(%rbx)
	movb	%sil, 14(%rbx)
	movb	%bpl, 15(%rbx)
	xorl	%eax, %eax
.LBB162_12:
	xorl	%edx, %edx
.LBB162_13:
	addq	$32, %rsp
	popq	%rbx
	popq	%r12
	popq	%r14
	popq	%r15
	popq	%rbp
	retq
.LBB162_14:
	movl	$50, %eax
	movq	%r12, %rdx
	jmp	.LBB162_13
.LBB162_15:
	movl	$46, %eax
	jmp	.LBB162_12
.LBB162_16:
	movl	$21, %eax
	jmp	.LBB162_12
.LBB162_17:
	movl	$48, %eax
	jmp	.LBB162_12
.LBB162_18:
	movl	$44, %eax
	jmp	.LBB162_12
.LBB162_19:
	addq	$30, %rdx
	movq	%rdx, %rax
	jmp	.LBB162_12
.LBB162_20:
	movl	$20, %eax
	jmp	.LBB162_12
.LBB162_21:
	movl	$24, %eax
	jmp	.LBB162_12
.LBB162_22:
	leaq	.LJTI162_1(%rip), %rax
	movslq	(%rax,%rdx,4), %rcx
	addq	%rax, %rcx
	jmpq	*%rcx
.LBB162_23:
	movl	$10, %eax
	jmp	.LBB162_13
.LBB162_24:
	movl	$22, %eax
	jmp	.LBB162_12
.LBB162_25:
	movl	$49, %eax
	jmp	.LBB162_12
.LBB162_26:
	movl	$23, %eax
	jmp	.LBB162_12
.LBB162_27:
	movl	$45, %eax
	jmp	.LBB162_12
.LBB162_28:
	movl	$25, %eax
	jmp	.LBB162_12
.LBB162_29:
	movq	%rax, %rdi
	movq	%rdx, %rsi
	movq	%rcx, %rdx
	callq	"sq_angle::quotients::divided"
	movq	%rax, %rdx
	jmp	.LBB162_7
.LBB162_30:
	movq	%rax, %rdi
	movq	%rdx, %rsi
	movq	%rcx, %rdx
	callq	"sq_angle::quotients::divided"
	movq	%rax, %rdx
	jmp	.LBB162_10
.LBB162_31:
	movl	$14, %eax
	jmp	.LBB162_12
.LBB162_32:
	movl	$12, %eax
	jmp	.LBB162_12
.LBB162_33:
	movl	$13, %eax
	jmp	.LBB162_12
.LBB162_34:
	movl	$11, %eax
	jmp	.LBB162_12
.LBB162_35:
	movl	$15, %eax
	jmp	.LBB162_12
.LBB162_36:
	movzbl	10(%rsp), %edx
	movzbl	11(%rsp), %eax
	shlq	$32, %rax
	orq	$16, %rax
	jmp	.LBB162_13
.LBB162_37:
	movl	$3, %eax
	jmp	.LBB162_13
.LBB162_38:
	movl	$43, %eax
	jmp	.LBB162_12
.LBB162_39:
	movl	$1, %eax
	jmp	.LBB162_12
.LBB162_40:
	movl	$2, %eax
	jmp	.LBB162_12
.LBB162_41:
	shrq	$32, %rbx
	movl	$6, %eax
	movq	%rbx, %rdx
	jmp	.LBB162_13
.LBB162_42:
	movl	$41, %eax
	jmp	.LBB162_12
.LBB162_43:
	movl	$4, %eax
	jmp	.LBB162_13
.LBB162_44:
	movzbl	%bh, %edx
	movl	$5, %eax
	jmp	.LBB162_13
.LBB162_45:
	movl	$42, %eax
	jmp	.LBB162_13
.Lfunc_end162:
	.size	squitter_local_zones, .Lfunc_end162-squitter_local_zones
	.section	.rodata.squitter_local_zones,"a",@progbits
	.p2align	2, 0x0
.LJTI162_0:
	.long	.LBB162_2-.LJTI162_0
	.long	.LBB162_22-.LJTI162_0
	.long	.LBB162_19-.LJTI162_0
	.long	.LBB162_20-.LJTI162_0
	.long	.LBB162_16-.LJTI162_0
	.long	.LBB162_24-.LJTI162_0
	.long	.LBB162_26-.LJTI162_0
	.long	.LBB162_21-.LJTI162_0
	.long	.LBB162_28-.LJTI162_0
	.long	.LBB162_18-.LJTI162_0
	.long	.LBB162_27-.LJTI162_0
	.long	.LBB162_15-.LJTI162_0
	.long	.LBB162_17-.LJTI162_0
	.long	.LBB162_25-.LJTI162_0
	.long	.LBB162_14-.LJTI162_0
.LJTI162_1:
	.long	.LBB162_23-.LJTI162_1
	.long	.LBB162_34-.LJTI162_1
	.long	.LBB162_32-.LJTI162_1
	.long	.LBB162_33-.LJTI162_1
	.long	.LBB162_31-.LJTI162_1
	.long	.LBB162_35-.LJTI162_1
	.long	.LBB162_36-.LJTI162_1
.LJTI162_2:
	.long	.LBB162_3-.LJTI162_2
	.long	.LBB162_42-.LJTI162_2
	.long	.LBB162_39-.LJTI162_2
	.long	.LBB162_40-.LJTI162_2
	.long	.LBB162_37-.LJTI162_2
	.long	.LBB162_43-.LJTI162_2
	.long	.LBB162_44-.LJTI162_2
	.long	.LBB162_41-.LJTI162_2
	.long	.LBB162_45-.LJTI162_2
	.long	.LBB162_38-.LJTI162_2

	.type	.Lstatic.0,@object
	.section	.rodata..Lstatic.0,"a",@progbits
.Lstatic.0:
	.size	.Lstatic.0, 0

	.type	.Lstatic.1,@object
	.section	.rodata..Lstatic.1,"a",@progbits
.Lstatic.1:
	.ascii	"line,moment,answer,address,kind,lat,lon,feet\n"
	.size	.Lstatic.1, 45

	.type	.Lstatic.2,@object
	.section	.rodata.cst16,"aM",@progbits,16
.Lstatic.2:
	.ascii	"0123456789ABCDEF"
	.size	.Lstatic.2, 16

	.type	.Lstatic.18,@object
	.section	.rodata..Lstatic.18,"a",@progbits
.Lstatic.18:
	.ascii	"no site"
	.size	.Lstatic.18, 7

	.type	.Lstatic.22,@object
	.section	.rodata..Lstatic.22,"a",@progbits
.Lstatic.22:
	.ascii	"000 001 002 003 004 005 006 007 008 009 010 011 012 013 014 015 016 017 018 019 020 021 022 023 024 025 026 027 028 029 030 031 032 033 034 035 036 037 038 039 040 041 042 043 044 045 046 047 048 049 050 051 052 053 054 055 056 057 058 059 060 061 062 063 064 065 066 067 068 069 070 071 072 073 074 075 076 077 078 079 080 081 082 083 084 085 086 087 088 089 090 091 092 093 094 095 096 097 098 099 100 101 102 103 104 105 106 107 108 109 110 111 112 113 114 115 116 117 118 119 120 121 122 123 124 125 126 127 128 129 130 131 132 133 134 135 136 137 138 139 140 141 142 143 144 145 146 147 148 149 150 151 152 153 154 155 156 157 158 159 160 161 162 163 164 165 166 167 168 169 170 171 172 173 174 175 176 177 178 179 180 181 182 183 184 185 186 187 188 189 190 191 192 193 194 195 196 197 198 199 200 201 202 203 204 205 206 207 208 209 210 211 212 213 214 215 216 217 218 219 220 221 222 223 224 225 226 227 228 229 230 231 232 233 234 235 236 237 238 239 240 241 242 243 244 245 246 247 248 249 250 251 252 253 254 255 256 257 258 259 260 261 262 263 264 265 266 267 268 269 270 271 272 273 274 275 276 277 278 279 280 281 282 283 284 285 286 287 288 289 290 291 292 293 294 295 296 297 298 299 300 301 302 303 304 305 306 307 308 309 310 311 312 313 314 315 316 317 318 319 320 321 322 323 324 325 326 327 328 329 330 331 332 333 334 335 336 337 338 339 340 341 342 343 344 345 346 347 348 349 350 351 352 353 354 355 356 357 358 359 360 361 362 363 364 365 366 367 368 369 370 371 372 373 374 375 376 377 378 379 380 381 382 383 384 385 386 387 388 389 390 391 392 393 394 395 396 397 398 399 400 401 402 403 404 405 406 407 408 409 410 411 412 413 414 415 416 417 418 419 420 421 422 423 424 425 426 427 428 429 430 431 432 433 434 435 436 437 438 439 440 441 442 443 444 445 446 447 448 449 450 451 452 453 454 455 456 457 458 459 460 461 462 463 464 465 466 467 468 469 470 471 472 473 474 475 476 477 478 479 480 481 482 483 484 485 486 487 488 489 490 491 492 493 494 495 496 497 498 499 500 501 502 503 504 505 506 507 508 509 510 511 512 513 514 515 516 517 518 519 520 521 522 523 524 525 526 527 528 529 530 531 532 533 534 535 536 537 538 539 540 541 542 543 544 545 546 547 548 549 550 551 552 553 554 555 556 557 558 559 560 561 562 563 564 565 566 567 568 569 570 571 572 573 574 575 576 577 578 579 580 581 582 583 584 585 586 587 588 589 590 591 592 593 594 595 596 597 598 599 600 601 602 603 604 605 606 607 608 609 610 611 612 613 614 615 616 617 618 619 620 621 622 623 624 625 626 627 628 629 630 631 632 633 634 635 636 637 638 639 640 641 642 643 644 645 646 647 648 649 650 651 652 653 654 655 656 657 658 659 660 661 662 663 664 665 666 667 668 669 670 671 672 673 674 675 676 677 678 679 680 681 682 683 684 685 686 687 688 689 690 691 692 693 694 695 696 697 698 699 700 701 702 703 704 705 706 707 708 709 710 711 712 713 714 715 716 717 718 719 720 721 722 723 724 725 726 727 728 729 730 731 732 733 734 735 736 737 738 739 740 741 742 743 744 745 746 747 748 749 750 751 752 753 754 755 756 757 758 759 760 761 762 763 764 765 766 767 768 769 770 771 772 773 774 775 776 777 778 779 780 781 782 783 784 785 786 787 788 789 790 791 792 793 794 795 796 797 798 799 800 801 802 803 804 805 806 807 808 809 810 811 812 813 814 815 816 817 818 819 820 821 822 823 824 825 826 827 828 829 830 831 832 833 834 835 836 837 838 839 840 841 842 843 844 845 846 847 848 849 850 851 852 853 854 855 856 857 858 859 860 861 862 863 864 865 866 867 868 869 870 871 872 873 874 875 876 877 878 879 880 881 882 883 884 885 886 887 888 889 890 891 892 893 894 895 896 897 898 899 900 901 902 903 904 905 906 907 908 909 910 911 912 913 914 915 916 917 918 919 920 921 922 923 924 925 926 927 928 929 930 931 932 933 934 935 936 937 938 939 940 941 942 943 944 945 946 947 948 949 950 951 952 953 954 955 956 957 958 959 960 961 962 963 964 965 966 967 968 969 970 971 972 973 974 975 976 977 978 979 980 981 982 983 984 985 986 987 988 989 990 991 992 993 994 995 996 997 998 999 "
	.size	.Lstatic.22, 4000

	.type	.Lstatic.23,@object
	.section	.rodata..Lstatic.23,"a",@progbits
.Lstatic.23:
	.ascii	"00010203040506070809101112131415161718192021222324252627282930313233343536373839404142434445464748495051525354555657585960616263646566676869707172737475767778798081828384858687888990919293949596979899"
	.size	.Lstatic.23, 200

	.type	.Lstatic.27,@object
	.section	.rodata..Lstatic.27,"a",@progbits
.Lstatic.27:
	.ascii	"long line"
	.size	.Lstatic.27, 9

	.type	.Lstatic.28,@object
	.section	.rodata..Lstatic.28,"a",@progbits
.Lstatic.28:
	.ascii	"bad moment"
	.size	.Lstatic.28, 10

	.type	.Lstatic.29,@object
	.section	.rodata..Lstatic.29,"a",@progbits
.Lstatic.29:
	.ascii	"bad wrapping"
	.size	.Lstatic.29, 12

	.type	.Lstatic.30,@object
	.section	.rodata..Lstatic.30,"a",@progbits
.Lstatic.30:
	.ascii	"short frame"
	.size	.Lstatic.30, 11

	.type	.Lstatic.31,@object
	.section	.rodata..Lstatic.31,"a",@progbits
.Lstatic.31:
	.ascii	"bad length "
	.size	.Lstatic.31, 11

	.type	.Lstatic.32,@object
	.section	.rodata..Lstatic.32,"a",@progbits
.Lstatic.32:
	.ascii	"bad digit "
	.size	.Lstatic.32, 10

	.type	.Lstatic.33,@object
	.section	.rodata..Lstatic.33,"a",@progbits
.Lstatic.33:
	.ascii	"moment back "
	.size	.Lstatic.33, 12

	.type	.Lstatic.34,@object
	.section	.rodata..Lstatic.34,"a",@progbits
.Lstatic.34:
	.ascii	"table full"
	.size	.Lstatic.34, 10

	.type	.Lstatic.35,@object
	.section	.rodata..Lstatic.35,"a",@progbits
.Lstatic.35:
	.ascii	"not DF17 "
	.size	.Lstatic.35, 9

	.type	.Lstatic.36,@object
	.section	.rodata..Lstatic.36,"a",@progbits
.Lstatic.36:
	.ascii	"parity "
	.size	.Lstatic.36, 7

	.type	.Lstatic.40,@object
	.section	.rodata..Lstatic.40,"a",@progbits
	.p2align	3, 0x0
.Lstatic.40:
	.asciz	"\000\000\000\000\000\000\000\000\000\000\000\000\000\000\001\000\000\000\000\000\000\200\000\000VUUUUU\000\000\000\000\000\000\000@\000\000433333\000\000\253\252\252\252\252*\000\000J\222$I\222$\000\000\000\000\000\000\000 \000\000\310q\034\307q\034\000\000\232\231\231\231\231\031\000\000\030]t\321E\027\000\000VUUUU\025\000\000<\261\023;\261\023\000\000%I\222$I\022\000\000\022\021\021\021\021\021\000\000\000\000\000\000\000\020\000\000\020\017\017\017\017\017\000\000\3448\216\3438\016\000\000\330P^Cy\r\000\000\315\314\314\314\314\f\000\000\3040\f\3030\f\000\000\214.\272\350\242\013\000\000\221\205,d!\013\000\000\253\252\252\252\252\n\000\000\013\327\243p=\n\000\000\236\330\211\235\330\t\000\000\230\320^B{\t\000\000\223$I\222$\t\000\000>\215\260\334\323\b\000\000\211\210\210\210\210\b\000\000\t!\204\020B\b\000\000\000\000\000\000\000\b\000\000\b\037|\360\301\007\000\000\210\207\207\207\207\007\000\000vP\007uP\007\000\000r\034\307q\034\007\000\000o0E>\353\006\000\000l(\257\241\274\006\000\000j\220\006i\220\006\000\000gffff\006\000\000\007\347cp>\006\000\000b\030\206a\030\006\000\000B_\320\027\364\005\000\000F\027]t\321\005\000\000\\\260\005[\260\005\000\000\311B\026\262\220\005\000\000\305\344\nbr\005\000\000VUUUU\005\000\000\302\313)x9\005\000\000\206\353Q\270\036\005\000\000\006\005\005\005\005\005\000\000O\354\304N\354\004\000\000\337\312>\207\324\004\000\000Lh/\241\275\004\000\000\005yJ\220\247\004\000\000J\222$I\222\004\000\000Hp\037\301}\004\000\000\237FX\356i\004\000\000J\335\227\307V\004\000\000EDDDD\004\000\0007\357S\\2\004\000\000\205\020B\b!\004\000\000B\020\004A\020\004\000\000\000\000\000\000\000\004\000\000@\360\003?\360\003\000\000\204\017>\370\340\003\000\000\027~5&\322\003\000\000\304\303\303\303\303\003\000\0001\327\016\314\265\003\000\000;\250\203:\250\003\000\000t \321\n\233\003\000\0009\216\3438\216\003\000\0009p\340\300\201\003\000\0008\230\"\237u\003\000\000\004\2356\320i\003\000\0006\224\327P^\003\000\000M\r\354\035S\003\000\0005H\2034H\003\000\000\007\242\322\221=\003\000\00043333\003\000\000\336\232\037\026)\003\000\000\204\36318\037\003\000\000\177\355!\227\025\003\000\0001\f\3030\f\003\000\000\004\003\003\003\003\003\000\000\241/\350\013\372\002\000\000\025/\220I\361\002\000\000\243\213.\272\350\002\000\000q\201\013\\\340\002\000\000.\330\202-\330\002\000\000.\320\002-\320\002\000\000e!\013Y\310\002\000\000\003\013,\260\300\002\000\000cr\0051\271\002\000\000,\020F\332\261\002\000\000\253\252\252\252\252\002\000\000`\\\375\240\243\002\000\000\341\345\024\274\234\002\000\000X\n\324\372\225\002\000\000\303\365(\\\217\002\000\000\\\254\f\337\210\002\000\000\203\202\202\202\202\002\000\000\226\234\227E|\002\000\000(vb'v\002\000\000(p\002'p\002\000\000pe\237Cj\002\000\000cEi|d\002\000\000&\264\227\320^\002\000\000&\260i?Y\002\000\000\203<%\310S\002\000\000%\020\027jN\002\000\000%I\222$I\002\000\000@$\360\366C\002\000\000$\270\217\340>\002\000\000Q\264\325\3409\002\000\000P#,\3674\002\000\000$0\002#0\002\000\000\245\356\313c+\002\000\000\272&\002\271&\002\000\000#\"\"\"\"\002\000\000\324|\255\236\035\002\000\000\234\367).\031\002\000\000\003M!\320\024\002\000\000C\b!\204\020\002\000\0006^\272I\f\002\000\000!\b\202 \b\002\000\000A \020\b\004\002\000"
	.size	.Lstatic.40, 1024

	.type	.Lstatic.41,@object
	.section	.rodata..Lstatic.41,"a",@progbits
.Lstatic.41:
	.ascii	"\000\000\000\000\000\000\000\000\000\000\000\000\000\000\000\000\000\000\000\000\000\000\000\000\000\000\000\000\000\000\000\000\000\000\000\000\000\000\000\000\000\000\000\000\001\001\001\001\001\001\001\001\001\001\002\002\002\002\002\002\002\002\003\003\003\003\003\003\003\003\004\004\004\004\004\004\005\005\005\005\005\005\005\006\006\006\006\006\006\007\007\007\007\007\b\b\b\b\b\t\t\t\t\t\n\n\n\n\n\013\013\013\013\013\f\f\f\f\r\r\r\r\r\016\016\016\016\017\017\017\017\020\020\020\020\021\021\021\021\022\022\022\022\023\023\023\023\024\024\024\024\025\025\025\026\026\026\026\027\027\027\030\030\030\030\031\031\031\032\032\032\032\033\033\033\034\034\034\035\035\035\036\036\036\036\037\037\037   !!!\"\"\"###$$$%%%&&&'''((()))***+++,,,---...///000112223334445566677889999999999"
	.size	.Lstatic.41, 269

	.type	.Lstatic.42,@object
	.section	.rodata..Lstatic.42,"a",@progbits
	.p2align	3, 0x0
.Lstatic.42:
	.asciz	"\332\253h>\000\000\000\000\235\377aX\000\000\000\0005\tfl\000\000\000\000eOX}\000\000\000\000'\343V\214\000\000\000\000\243M\364\231\000\000\000\000\326\202\207\246\000\000\000\000\306\033I\262\000\000\000\000l_`\275\000\000\000\000\334\340\351\307\000\000\000\000\216.\373\321\000\000\000\000T\005\245\333\000\000\000\000$\263\364\344\000\000\000\000\254\000\365\355\000\000\000\000\270\320\256\366\000\000\000\000\\\220)\377\000\000\000\000\347\207k\007\001\000\000\000\243\026z\017\001\000\000\000\304\337Y\027\001\000\000\000\330\354\016\037\001\000\000\000w\310\234&\001\000\000\000V\223\006.\001\000\000\000\005\025O5\001\000\000\000y\311x<\001\000\000\000\000\354\205C\001\000\000\000L\200xJ\001\000\000\000\344YRQ\001\000\000\000Z\"\025X\001\000\000\000\200^\302^\001\000\000\000\315r[e\001\000\000\000\016\247\341k\001\000\000\000\223)Vr\001\000\000\000\327\021\272x\001\000\000\000\313b\016\177\001\000\000\000\276\fT\205\001\000\000\000\000\357\213\213\001\000\000\0006\331\266\221\001\000\000\000f\214\325\227\001\000\000\000\307\273\350\235\001\000\000\000C\r\361\243\001\000\000\000\251\031\357\251\001\000\000\000\201l\343\257\001\000\000\000b\203\316\265\001\000\000\000\250\314\260\273\001\000\000\000A\245\212\301\001\000\000\000'U\\\307\001\000\000\000\325\t&\315\001\000\000\000\203\315\347\322\001\000\000\000\001y\241\330\001\000\000\000M\234R\336\001\000\000\000\005V\372\343\001\000\000\000u\t\227\351\001\000\000\000\325\315%\357\001\000\000\000\2737\241\364\001\000\000\000oe\376\371\001\000\000\000ua$\377\001\000\000\000\346~\312\003\002\000\000\000\000w\217\006\002\000\000"
	.size	.Lstatic.42, 464

	.type	.Lstatic.43,@object
	.section	.rodata..Lstatic.43,"a",@progbits
	.p2align	2, 0x0
.Lstatic.43:
	.asciz	"\000\000\000\000A\324\r\000\202\250\033\000\303|\026\000\004Q7\000E\205:\000\206\371,\000\307-!\000\b\242n\000Ivc\000\212\nu\000\313\336x\000\f\363Y\000M'T\000\216[B\000\317\217O\000\020D\335\000Q\220\320\000\222\354\306\000\3238\313\000\024\025\352\000U\301\347\000\226\275\361\000\327i\374\000\030\346\263\000Y2\276\000\232N\250\000\333\232\245\000\034\267\204\000]c\211\000\236\037\237\000\337\313\222\000)|E\000h\250H\000\253\324^\000\352\000S\000--r\000l\371\177\000\257\205i\000\356Qd\000!\336+\000`\n&\000\243v0\000\342\242=\000%\217\034\000d[\021\000\247'\007\000\346\363\n\00098\230\000x\354\225\000\273\220\203\000\372D\216\000=i\257\000|\275\242\000\277\301\264\000\376\025\271\0001\232\366\000pN\373\000\2632\355\000\362\346\340\0005\313\301\000t\037\314\000\267c\332\000\366\267\327\000R\370\212\000\023,\207\000\320P\221\000\221\204\234\000V\251\275\000\027}\260\000\324\001\246\000\225\325\253\000ZZ\344\000\033\216\351\000\330\362\377\000\231&\362\000^\013\323\000\037\337\336\000\334\243\310\000\235w\305\000B\274W\000\003hZ\000\300\024L\000\201\300A\000F\355`\000\0079m\000\304E{\000\205\221v\000J\0369\000\013\3124\000\310\266\"\000\211b/\000NO\016\000\017\233\003\000\314\347\025\000\2153\030\000{\204\317\000:P\302\000\371,\324\000\270\370\331\000\177\325\370\000>\001\365\000\375}\343\000\274\251\356\000s&\241\0002\362\254\000\361\216\272\000\260Z\267\000ww\226\0006\243\233\000\365\337\215\000\264\013\200\000k\300\022\000*\024\037\000\351h\t\000\250\274\004\000o\221%\000.E(\000\3559>\000\254\3553\000cb|\000\"\266q\000\341\312g\000\240\036j\000g3K\000&\347F\000\345\233P\000\244O]\000\255\004\352\000\354\320\347\000/\254\361\000nx\374\000\251U\335\000\350\201\320\000+\375\306\000j)\313\000\245\246\204\000\344r\211\000'\016\237\000f\332\222\000\241\367\263\000\340#\276\000#_\250\000b\213\245\000\275@7\000\374\224:\000?\350,\000~<!\000\271\021\000\000\370\305\r\000;\271\033\000zm\026\000\265\342Y\000\3646T\0007JB\000v\236O\000\261\263n\000\360gc\0003\033u\000r\317x\000\204x\257\000\305\254\242\000\006\320\264\000G\004\271\000\200)\230\000\301\375\225\000\002\201\203\000CU\216\000\214\332\301\000\315\016\314\000\016r\332\000O\246\327\000\210\213\366\000\311_\373\000\n#\355\000K\367\340\000\224<r\000\325\350\177\000\026\224i\000W@d\000\220mE\000\321\271H\000\022\305^\000S\021S\000\234\236\034\000\335J\021\000\0366\007\000_\342\n\000\230\317+\000\331\033&\000\032g0\000[\263=\000\377\374`\000\276(m\000}T{\000<\200v\000\373\255W\000\272yZ\000y\005L\0008\321A\000\367^\016\000\266\212\003\000u\366\025\0004\"\030\000\363\0179\000\262\3334\000q\247\"\0000s/\000\357\270\275\000\256l\260\000m\020\246\000,\304\253\000\353\351\212\000\252=\207\000iA\221\000(\225\234\000\347\032\323\000\246\316\336\000e\262\310\000$f\305\000\343K\344\000\242\237\351\000a\343\377\000 7\362\000\326\200%\000\227T(\000T(>\000\025\3743\000\322\321\022\000\223\005\037\000Py\t\000\021\255\004\000\336\"K\000\237\366F\000\\\212P\000\035^]\000\332s|\000\233\247q\000X\333g\000\031\017j\000\306\304\370\000\207\020\365\000Dl\343\000\005\270\356\000\302\225\317\000\203A\302\000@=\324\000\001\351\331\000\316f\226\000\217\262\233\000L\316\215\000\r\032\200\000\3127\241\000\213\343\254\000H\237\272\000\tK\267"
	.size	.Lstatic.43, 1024

	.type	.Lstatic.44,@object
	.section	.rodata..Lstatic.44,"a",@progbits
	.p2align	2, 0x0
.Lstatic.44:
	.asciz	"\000\000\000\000\200\r\016\000\000\033\034\000\200\026\022\000\00068\000\200;6\000\000-$\000\200 *\000\000lp\000\200a~\000\000wl\000\200zb\000\000ZH\000\200WF\000\000AT\000\200LZ\000\000\330\340\000\200\325\356\000\000\303\374\000\200\316\362\000\000\356\330\000\200\343\326\000\000\365\304\000\200\370\312\000\000\264\220\000\200\271\236\000\000\257\214\000\200\242\202\000\000\202\250\000\200\217\246\000\000\231\264\000\200\224\272\000\tD>\000\211I0\000\t_\"\000\211R,\000\tr\006\000\211\177\b\000\ti\032\000\211d\024\000\t(N\000\211%@\000\t3R\000\211>\\\000\t\036v\000\211\023x\000\t\005j\000\211\bd\000\t\234\336\000\211\221\320\000\t\207\302\000\211\212\314\000\t\252\346\000\211\247\350\000\t\261\372\000\211\274\364\000\t\360\256\000\211\375\240\000\t\353\262\000\211\346\274\000\t\306\226\000\211\313\230\000\t\335\212\000\211\320\204\000\022\210|\000\222\205r\000\022\223`\000\222\236n\000\022\276D\000\222\263J\000\022\245X\000\222\250V\000\022\344\f\000\222\351\002\000\022\377\020\000\222\362\036\000\022\3224\000\222\337:\000\022\311(\000\222\304&\000\022P\234\000\222]\222\000\022K\200\000\222F\216\000\022f\244\000\222k\252\000\022}\270\000\222p\266\000\022<\354\000\2221\342\000\022'\360\000\222*\376\000\022\n\324\000\222\007\332\000\022\021\310\000\222\034\306\000\033\314B\000\233\301L\000\033\327^\000\233\332P\000\033\372z\000\233\367t\000\033\341f\000\233\354h\000\033\2402\000\233\255<\000\033\273.\000\233\266 \000\033\226\n\000\233\233\004\000\033\215\026\000\233\200\030\000\033\024\242\000\233\031\254\000\033\017\276\000\233\002\260\000\033\"\232\000\233/\224\000\0339\206\000\2334\210\000\033x\322\000\233u\334\000\033c\316\000\233n\300\000\033N\352\000\233C\344\000\033U\366\000\233X\370\000$\020\371\000\244\035\367\000$\013\345\000\244\006\353\000$&\301\000\244+\317\000$=\335\000\2440\323\000$|\211\000\244q\207\000$g\225\000\244j\233\000$J\261\000\244G\277\000$Q\255\000\244\\\243\000$\310\031\000\244\305\027\000$\323\005\000\244\336\013\000$\376!\000\244\363/\000$\345=\000\244\3503\000$\244i\000\244\251g\000$\277u\000\244\262{\000$\222Q\000\244\237_\000$\211M\000\244\204C\000-T\307\000\255Y\311\000-O\333\000\255B\325\000-b\377\000\255o\361\000-y\343\000\255t\355\000-8\267\000\2555\271\000-#\253\000\255.\245\000-\016\217\000\255\003\201\000-\025\223\000\255\030\235\000-\214'\000\255\201)\000-\227;\000\255\2325\000-\272\037\000\255\267\021\000-\241\003\000\255\254\r\000-\340W\000\255\355Y\000-\373K\000\255\366E\000-\326o\000\255\333a\000-\315s\000\255\300}\0006\230\205\000\266\225\213\0006\203\231\000\266\216\227\0006\256\275\000\266\243\263\0006\265\241\000\266\270\257\0006\364\365\000\266\371\373\0006\357\351\000\266\342\347\0006\302\315\000\266\317\303\0006\331\321\000\266\324\337\0006@e\000\266Mk\0006[y\000\266Vw\0006v]\000\266{S\0006mA\000\266`O\0006,\025\000\266!\033\00067\t\000\266:\007\0006\032-\000\266\027#\0006\0011\000\266\f?\000?\334\273\000\277\321\265\000?\307\247\000\277\312\251\000?\352\203\000\277\347\215\000?\361\237\000\277\374\221\000?\260\313\000\277\275\305\000?\253\327\000\277\246\331\000?\206\363\000\277\213\375\000?\235\357\000\277\220\341\000?\004[\000\277\tU\000?\037G\000\277\022I\000?2c\000\277?m\000?)\177\000\277$q\000?h+\000\277e%\000?s7\000\277~9\000?^\023\000\277S\035\000?E\017\000\277H\001"
	.size	.Lstatic.44, 1024

	.type	.Lstatic.45,@object
	.section	.rodata..Lstatic.45,"a",@progbits
	.p2align	2, 0x0
.Lstatic.45:
	.asciz	"\000\000\000\000\t\364\377\000\033\034\000\000\022\350\377\00068\000\000?\314\377\000-$\000\000$\320\377\000lp\000\000e\204\377\000wl\000\000~\230\377\000ZH\000\000S\274\377\000AT\000\000H\240\377\000\330\340\000\000\321\024\377\000\303\374\000\000\312\b\377\000\356\330\000\000\347,\377\000\365\304\000\000\3740\377\000\264\220\000\000\275d\377\000\257\214\000\000\246x\377\000\202\250\000\000\213\\\377\000\231\264\000\000\220@\377\000\260\301\001\000\2715\376\000\253\335\001\000\242)\376\000\206\371\001\000\217\r\376\000\235\345\001\000\224\021\376\000\334\261\001\000\325E\376\000\307\255\001\000\316Y\376\000\352\211\001\000\343}\376\000\361\225\001\000\370a\376\000h!\001\000a\325\376\000s=\001\000z\311\376\000^\031\001\000W\355\376\000E\005\001\000L\361\376\000\004Q\001\000\r\245\376\000\037M\001\000\026\271\376\0002i\001\000;\235\376\000)u\001\000 \201\376\000`\203\003\000iw\374\000{\237\003\000rk\374\000V\273\003\000_O\374\000M\247\003\000DS\374\000\f\363\003\000\005\007\374\000\027\357\003\000\036\033\374\000:\313\003\0003?\374\000!\327\003\000(#\374\000\270c\003\000\261\227\374\000\243\177\003\000\252\213\374\000\216[\003\000\207\257\374\000\225G\003\000\234\263\374\000\324\023\003\000\335\347\374\000\317\017\003\000\306\373\374\000\342+\003\000\353\337\374\000\3717\003\000\360\303\374\000\320B\002\000\331\266\375\000\313^\002\000\302\252\375\000\346z\002\000\357\216\375\000\375f\002\000\364\222\375\000\2742\002\000\265\306\375\000\247.\002\000\256\332\375\000\212\n\002\000\203\376\375\000\221\026\002\000\230\342\375\000\b\242\002\000\001V\375\000\023\276\002\000\032J\375\000>\232\002\0007n\375\000%\206\002\000,r\375\000d\322\002\000m&\375\000\177\316\002\000v:\375\000R\352\002\000[\036\375\000I\366\002\000@\002\375\000\300\006\007\000\311\362\370\000\333\032\007\000\322\356\370\000\366>\007\000\377\312\370\000\355\"\007\000\344\326\370\000\254v\007\000\245\202\370\000\267j\007\000\276\236\370\000\232N\007\000\223\272\370\000\201R\007\000\210\246\370\000\030\346\007\000\021\022\370\000\003\372\007\000\n\016\370\000.\336\007\000'*\370\0005\302\007\000<6\370\000t\226\007\000}b\370\000o\212\007\000f~\370\000B\256\007\000KZ\370\000Y\262\007\000PF\370\000p\307\006\000y3\371\000k\333\006\000b/\371\000F\377\006\000O\013\371\000]\343\006\000T\027\371\000\034\267\006\000\025C\371\000\007\253\006\000\016_\371\000*\217\006\000#{\371\0001\223\006\0008g\371\000\250'\006\000\241\323\371\000\263;\006\000\272\317\371\000\236\037\006\000\227\353\371\000\205\003\006\000\214\367\371\000\304W\006\000\315\243\371\000\337K\006\000\326\277\371\000\362o\006\000\373\233\371\000\351s\006\000\340\207\371\000\240\205\004\000\251q\373\000\273\231\004\000\262m\373\000\226\275\004\000\237I\373\000\215\241\004\000\204U\373\000\314\365\004\000\305\001\373\000\327\351\004\000\336\035\373\000\372\315\004\000\3639\373\000\341\321\004\000\350%\373\000xe\004\000q\221\373\000cy\004\000j\215\373\000N]\004\000G\251\373\000UA\004\000\\\265\373\000\024\025\004\000\035\341\373\000\017\t\004\000\006\375\373\000\"-\004\000+\331\373\00091\004\0000\305\373\000\020D\005\000\031\260\372\000\013X\005\000\002\254\372\000&|\005\000/\210\372\000=`\005\0004\224\372\000|4\005\000u\300\372\000g(\005\000n\334\372\000J\f\005\000C\370\372\000Q\020\005\000X\344\372\000\310\244\005\000\301P\372\000\323\270\005\000\332L\372\000\376\234\005\000\367h\372\000\345\200\005\000\354t\372\000\244\324\005\000\255 \372\000\277\310\005\000\266<\372\000\222\354\005\000\233\030\372\000\211\360\005\000\200\004\372"
	.size	.Lstatic.45, 1024

	.type	.Lstatic.46,@object
	.section	.rodata..Lstatic.46,"a",@progbits
.Lstatic.46:
	.ascii	"rawmsg"
	.size	.Lstatic.46, 6

	.type	.Lstatic.47,@object
	.section	.rodata.cst4,"aM",@progbits,4
.Lstatic.47:
	.ascii	"time"
	.size	.Lstatic.47, 4

	.type	.Lstatic.48,@object
	.section	.rodata..Lstatic.48,"a",@progbits
.Lstatic.48:
	.ascii	"mintime"
	.size	.Lstatic.48, 7

	.type	.Lstatic.49,@object
	.section	.rodata..Lstatic.49,"a",@progbits
.Lstatic.49:
	.ascii	"timestamp"
	.size	.Lstatic.49, 9

	.type	.Lstatic.51,@object
	.section	.rodata.cst4,"aM",@progbits,4
.Lstatic.51:
	.ascii	"MSG,"
	.size	.Lstatic.51, 4

	.type	.Lstatic.52,@object
.Lstatic.52:
	.ascii	"SEL,"
	.size	.Lstatic.52, 4

	.type	.Lstatic.54,@object
.Lstatic.54:
	.ascii	"AIR,"
	.size	.Lstatic.54, 4

	.type	.Lstatic.55,@object
.Lstatic.55:
	.ascii	"STA,"
	.size	.Lstatic.55, 4

	.type	.Lstatic.56,@object
.Lstatic.56:
	.ascii	"CLK,"
	.size	.Lstatic.56, 4

	.type	.Lstatic.57,@object
	.section	.rodata..Lstatic.57,"a",@progbits
.Lstatic.57:
	.ascii	"icao24"
	.size	.Lstatic.57, 6

	.type	.Lstatic.60,@object
	.section	.rodata..Lstatic.60,"a",@progbits
.Lstatic.60:
	.ascii	"\3757zXZ"
	.size	.Lstatic.60, 5

	.type	.Lstatic.61,@object
	.section	.rodata.cst4,"aM",@progbits,4
.Lstatic.61:
	.ascii	"(\265/\375"
	.size	.Lstatic.61, 4

	.type	.Lstatic.62,@object
.Lstatic.62:
	.ascii	"PK\003\004"
	.size	.Lstatic.62, 4

	.type	.Lstatic.66,@object
	.section	.rodata..Lstatic.66,"a",@progbits
.Lstatic.66:
	.ascii	"ustar"
	.size	.Lstatic.66, 5

	.type	.Lstatic.67,@object
	.section	.rodata..Lstatic.67,"a",@progbits
.Lstatic.67:
	.ascii	"000102030405060708090A0B0C0D0E0F101112131415161718191A1B1C1D1E1F202122232425262728292A2B2C2D2E2F303132333435363738393A3B3C3D3E3F404142434445464748494A4B4C4D4E4F505152535455565758595A5B5C5D5E5F606162636465666768696A6B6C6D6E6F707172737475767778797A7B7C7D7E7F808182838485868788898A8B8C8D8E8F909192939495969798999A9B9C9D9E9FA0A1A2A3A4A5A6A7A8A9AAABACADAEAFB0B1B2B3B4B5B6B7B8B9BABBBCBDBEBFC0C1C2C3C4C5C6C7C8C9CACBCCCDCECFD0D1D2D3D4D5D6D7D8D9DADBDCDDDEDFE0E1E2E3E4E5E6E7E8E9EAEBECEDEEEFF0F1F2F3F4F5F6F7F8F9FAFBFCFDFEFF"
	.size	.Lstatic.67, 512

	.type	.Lstatic.68,@object
	.section	.rodata..Lstatic.68,"a",@progbits
.Lstatic.68:
	.byte	10
	.size	.Lstatic.68, 1

	.type	.Lstatic.84,@object
	.section	.rodata..Lstatic.84,"a",@progbits
.Lstatic.84:
	.ascii	"fix"
	.size	.Lstatic.84, 3

	.type	.Lstatic.85,@object
	.section	.rodata.cst8,"aM",@progbits,8
.Lstatic.85:
	.ascii	"followed"
	.size	.Lstatic.85, 8

	.type	.Lstatic.86,@object
	.section	.rodata..Lstatic.86,"a",@progbits
.Lstatic.86:
	.ascii	"waiting"
	.size	.Lstatic.86, 7

	.type	.Lstatic.87,@object
	.section	.rodata..Lstatic.87,"a",@progbits
.Lstatic.87:
	.ascii	"split"
	.size	.Lstatic.87, 5

	.type	.Lstatic.88,@object
	.section	.rodata..Lstatic.88,"a",@progbits
.Lstatic.88:
	.ascii	"far"
	.size	.Lstatic.88, 3

	.type	.Lstatic.89,@object
	.section	.rodata..Lstatic.89,"a",@progbits
.Lstatic.89:
	.ascii	"no position"
	.size	.Lstatic.89, 11

	.type	.Lstatic.91,@object
	.section	.rodata..Lstatic.91,"a",@progbits
.Lstatic.91:
	.ascii	"air"
	.size	.Lstatic.91, 3

	.type	.Lstatic.92,@object
	.section	.rodata..Lstatic.92,"a",@progbits
.Lstatic.92:
	.ascii	"ground"
	.size	.Lstatic.92, 6

	.type	.Lstatic.93,@object
	.section	.rodata..Lstatic.93,"a",@progbits
.Lstatic.93:
	.ascii	"other"
	.size	.Lstatic.93, 5

	.type	".Lswitch.table.sq_feed::beast::Beast::take_byte.350",@object
	.section	".rodata..Lswitch.table.sq_feed::beast::Beast::take_byte.350","a",@progbits
	.p2align	3, 0x0
".Lswitch.table.sq_feed::beast::Beast::take_byte.350":
	.quad	9
	.quad	14
	.quad	21
	.size	".Lswitch.table.sq_feed::beast::Beast::take_byte.350", 24

	.type	".Lswitch.table.sq_feed::reader::Reader::find",@object
	.section	".rodata..Lswitch.table.sq_feed::reader::Reader::find","a",@progbits
	.p2align	3, 0x0
".Lswitch.table.sq_feed::reader::Reader::find":
	.quad	0
	.quad	12
	.quad	14
	.size	".Lswitch.table.sq_feed::reader::Reader::find", 24

	.type	".Lswitch.table.sq_feed::reader::Reader::end",@object
	.section	.rodata.cst32,"aM",@progbits,32
	.p2align	3, 0x0
".Lswitch.table.sq_feed::reader::Reader::end":
	.quad	1
	.quad	0
	.quad	1
	.quad	1
	.size	".Lswitch.table.sq_feed::reader::Reader::end", 32

	.type	".Lswitch.table.squitter_c::log_loop::write_some::<#507aa2edf0378fed>.354",@object
	.section	".rodata..Lswitch.table.squitter_c::log_loop::write_some::<#507aa2edf0378fed>.354","a",@progbits
	.p2align	3, 0x0
".Lswitch.table.squitter_c::log_loop::write_some::<#507aa2edf0378fed>.354":
	.quad	3
	.quad	8
	.quad	7
	.quad	5
	.quad	3
	.quad	7
	.quad	11
	.size	".Lswitch.table.squitter_c::log_loop::write_some::<#507aa2edf0378fed>.354", 56

	.type	".Lswitch.table.squitter_c::log_loop::write_some::<#507aa2edf0378fed>.355",@object
	.section	".data.rel.ro..Lswitch.table.squitter_c::log_loop::write_some::<#507aa2edf0378fed>.355","aw",@progbits
	.p2align	3, 0x0
".Lswitch.table.squitter_c::log_loop::write_some::<#507aa2edf0378fed>.355":
	.quad	.Lstatic.84
	.quad	.Lstatic.85
	.quad	.Lstatic.86
	.quad	.Lstatic.87
	.quad	.Lstatic.88
	.quad	.Lstatic.18
	.quad	.Lstatic.89
	.size	".Lswitch.table.squitter_c::log_loop::write_some::<#507aa2edf0378fed>.355", 56

	.type	".Lswitch.table.squitter_c::log_loop::write_some::<#507aa2edf0378fed>.356",@object
	.section	".rodata..Lswitch.table.squitter_c::log_loop::write_some::<#507aa2edf0378fed>.356","a",@progbits
	.p2align	3, 0x0
".Lswitch.table.squitter_c::log_loop::write_some::<#507aa2edf0378fed>.356":
	.quad	3
	.quad	6
	.quad	5
	.size	".Lswitch.table.squitter_c::log_loop::write_some::<#507aa2edf0378fed>.356", 24

	.type	".Lswitch.table.squitter_c::log_loop::write_some::<#507aa2edf0378fed>.357",@object
	.section	".data.rel.ro..Lswitch.table.squitter_c::log_loop::write_some::<#507aa2edf0378fed>.357","aw",@progbits
	.p2align	3, 0x0
".Lswitch.table.squitter_c::log_loop::write_some::<#507aa2edf0378fed>.357":
	.quad	.Lstatic.91
	.quad	.Lstatic.92
	.quad	.Lstatic.93
	.size	".Lswitch.table.squitter_c::log_loop::write_some::<#507aa2edf0378fed>.357", 24

	.type	".Lswitch.table.sq_text::faults::push_fault::<=512>",@object
	.section	".rodata..Lswitch.table.sq_text::faults::push_fault::<=512>","a",@progbits
	.p2align	3, 0x0
".Lswitch.table.sq_text::faults::push_fault::<=512>":
	.quad	9
	.quad	10
	.quad	12
	.quad	11
	.quad	11
	.quad	10
	.quad	9
	.quad	7
	.quad	12
	.quad	10
	.size	".Lswitch.table.sq_text::faults::push_fault::<=512>", 80

	.type	".Lswitch.table.sq_text::faults::push_fault::<=512>.358",@object
	.section	".data.rel.ro..Lswitch.table.sq_text::faults::push_fault::<=512>.358","aw",@progbits
	.p2align	3, 0x0
".Lswitch.table.sq_text::faults::push_fault::<=512>.358":
	.quad	.Lstatic.27
	.quad	.Lstatic.28
	.quad	.Lstatic.29
	.quad	.Lstatic.30
	.quad	.Lstatic.31
	.quad	.Lstatic.32
	.quad	.Lstatic.35
	.quad	.Lstatic.36
	.quad	.Lstatic.33
	.quad	.Lstatic.34
	.size	".Lswitch.table.sq_text::faults::push_fault::<=512>.358", 80

	.type	.Lswitch.table.squitter_feed_format,@object
	.section	.rodata..Lswitch.table.squitter_feed_format,"a",@progbits
	.p2align	2, 0x0
.Lswitch.table.squitter_feed_format:
	.long	5
	.long	6
	.long	7
	.long	8
	.long	9
	.long	11
	.long	12
	.long	13
	.long	14
	.long	15
	.long	16
	.long	10
	.size	.Lswitch.table.squitter_feed_format, 48

	.ident	"rattle logic=dac8208d650f15bf3e2dc313a14fa4c783a3acf887bdfab66e1714b038d9e11b"
	.section	".note.GNU-stack","",@progbits
