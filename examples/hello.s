# Writes a line and exits with 7. To assemble and to run it:
#   ./keynix d asm < examples/hello.s > hello.elf
#   ./keynix d once < hello.elf

        li   a0, 1              # the console's descriptor
        la   a1, line           # the address of the line
        li   a2, 13             # its length
        li   a7, 12             # write
        ecall

        li   a0, 7
        li   a7, 1              # exit
        ecall

        .data
line:   .ascii "hello, world\n"
