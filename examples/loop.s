# The sum of the numbers 1 to 10: it is stored behind the program, and shown.
        addi    x5, x0, 10      # the number that is added next
        addi    x6, x0, 0       # the sum so far
next:   add     x6, x6, x5
        addi    x5, x5, -1
        bne     x5, x0, next
        auipc   x7, 0           # the address of this line
        sd      x6, 44(x7)      # total stands 44 bytes behind it

# The monitor has no call 99. It refuses the call as unsupported, and the report tells its six words, x10 to x15:
# so a guest shows a number.
        addi    x17, x0, 99
        addi    x10, x6, 0
        ecall
        ebreak
.at 0x40
total:  .dword  0
