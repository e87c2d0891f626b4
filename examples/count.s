# Writes the lines 1 to 9, and exits with 0.
        li   s0, 49             # the digit 1
        li   s1, 57             # the digit 9
        addi sp, sp, -16
        li   t0, 10             # a line feed
        sb   t0, 1(sp)
next:   sb   s0, 0(sp)
        li   a0, 1              # the console's descriptor
        mv   a1, sp             # the address of the line
        li   a2, 2              # its length
        li   a7, 12             # write
        ecall
        addi s0, s0, 1
        bgeu s1, s0, next
        li   a0, 0
        li   a7, 1              # exit
        ecall
