# Where an image begins whose program is written in C, and what machine.h declares. docs/MACHINE.md has the services.
        .set noreorder
        .text
        .globl __start
__start:
        addiu $29, $29, -32
        jal main
        nop
        addu $4, $2, $0
        .globl exit
exit:
        addiu $2, $0, 3
        syscall
        .globl putchar
putchar:
        addiu $2, $0, 2
        syscall
        jr $31
        andi $2, $4, 255
        .globl getchar
getchar:
        addiu $2, $0, 1
        syscall
        jr $31
        nop
        .globl setjmp
setjmp:
        sw $16, 0($4)
        sw $17, 4($4)
        sw $18, 8($4)
        sw $19, 12($4)
        sw $20, 16($4)
        sw $21, 20($4)
        sw $22, 24($4)
        sw $23, 28($4)
        sw $29, 32($4)
        sw $30, 36($4)
        sw $31, 40($4)
        jr $31
        addu $2, $0, $0
        .globl longjmp
longjmp:
        lw $16, 0($4)
        lw $17, 4($4)
        lw $18, 8($4)
        lw $19, 12($4)
        lw $20, 16($4)
        lw $21, 20($4)
        lw $22, 24($4)
        lw $23, 28($4)
        lw $29, 32($4)
        lw $30, 36($4)
        lw $31, 40($4)
        jr $31
        addu $2, $5, $0
