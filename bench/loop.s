# A loop of ten instructions, made ten million times; then the machine's exit with the lowest byte of the sum. Linux's exit
# (93) comes first, so that qemu-riscv32 ends too.
        li   s0, 10000000
        li   a0, 0
        addi sp, sp, -64
next:   sw   a0, 16(sp)
        addi a0, a0, 7
        xor  a1, a0, s0
        slli a2, a1, 3
        add  a0, a0, a2
        lw   a3, 16(sp)
        srli a3, a3, 5
        sub  a0, a0, a3
        addi s0, s0, -1
        bnez s0, next
        andi a0, a0, 127
        mv   s1, a0
        li   a7, 93
        ecall
        mv   a0, s1
        li   a7, 1
        ecall
