	.file	"lazy-tlb.c"
	.option nopic
	.attribute arch, "rv64i2p1_m2p0_a2p1"
	.attribute unaligned_access, 0
	.attribute stack_align, 16
	.text
#APP
	#! never 1 load 0x1000 -> value 0x33     # nobody reads a page that was given away
	#! some 1 load 0x1000 -> value 0x22      # and hart 1 can read the new one
	.board 2, 16, 1000, 0, boot, 0
	.org 0x80000000
	.text
other:
	lla sp, other_stack + 512
	call other_body
	ebreak
	.text
boot:
	lla sp, boot_stack + 512
	call boot_body
	ebreak
#NO_APP
	.align	2
	.globl	other_body
	.type	other_body, @function
other_body:
	lla	a5,users
	li	a4,2
	fence iorw,ow; amoor.d.aq zero,a4,0(a5)
	lla	a5,root
	li	a4,-2147463168
	slli	a4,a4,32
	srli	a5,a5,12
	or	a5,a5,a4
#APP
# 61 "sbiboard.h" 1
	csrw satp, a5
# 0 "" 2
#NO_APP
	li	a5,4096
	ld	a4,0(a5)
	ld	a5,0(a5)
	ret
	.size	other_body, .-other_body
	.align	2
	.globl	boot_body
	.type	boot_body, @function
boot_body:
	lla	a2,middle
	lla	t1,last
	srli	a3,a2,12
	srli	a4,t1,12
	lla	t3,old_page
	slli	a3,a3,10
	ori	a3,a3,1
	srli	a5,t3,12
	slli	a4,a4,10
	sd	a3,root,a1
	ori	a4,a4,1
	slli	a5,a5,10
	sd	a4,0(a2)
	ori	a5,a5,199
	li	a7,4739072
	sd	a5,8(t1)
	li	a0,1
	lla	a1,other
	li	a2,0
	li	a3,0
	li	a6,0
	addi	a7,a7,845
#APP
# 45 "sbiboard.h" 1
	ecall
# 0 "" 2
#NO_APP
	lla	a5,new_page
	srli	a5,a5,12
	slli	a5,a5,10
	ori	a5,a5,199
	ld	a0,users
	sd	a5,8(t1)
	beq	a0,zero,.L4
	li	a7,1380339712
	li	a1,0
	li	a2,4096
	li	a3,4096
	li	a6,1
	addi	a7,a7,-445
#APP
# 45 "sbiboard.h" 1
	ecall
# 0 "" 2
#NO_APP
.L4:
	li	a5,51
	sd	a5,0(t3)
	ret
	.size	boot_body, .-boot_body
	.data
	.align	12
	.type	new_page, @object
	.size	new_page, 4096
new_page:
	.dword	34
	.zero	4088
	.type	old_page, @object
	.size	old_page, 4096
old_page:
	.dword	17
	.zero	4088
	.bss
	.align	12
	.type	boot_stack, @object
	.size	boot_stack, 512
boot_stack:
	.zero	512
	.type	other_stack, @object
	.size	other_stack, 512
other_stack:
	.zero	512
	.zero	3072
	.type	last, @object
	.size	last, 4096
last:
	.zero	4096
	.type	middle, @object
	.size	middle, 4096
middle:
	.zero	4096
	.type	root, @object
	.size	root, 4096
root:
	.zero	4096
	.section	.sbss,"aw",@nobits
	.align	3
	.type	users, @object
	.size	users, 8
users:
	.zero	8
	.ident	"GCC: (Debian 12.2.0-13) 12.2.0"
	.section	.note.GNU-stack,"",@progbits
