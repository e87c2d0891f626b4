        mv   s0, a0
        addi sp, sp, -32
        sw   a0, 0(sp)
        sw   a1, 4(sp)
        addi t0, sp, 32
        sw   t0, 8(sp)
        li   a0, 31
        mv   a1, sp
        li   a2, 12
        li   a7, 12
        ecall
        li   a0, 31
        li   a1, 0x7FFFFFFA
        li   a2, 6
        li   a7, 12
        ecall
        li   a0, 0
        li   a7, 1
        ecall
