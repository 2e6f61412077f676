# Atomic instructions on one core. Each gives the old word, and stores the new one in the same turn.
        auipc   x12, 0
        addi    x12, x12, 0x80  # the address of count
        addi    x5, x0, 5
        amoadd.d        x10, x5, (x12)  # 40, and count is 45
        amoswap.d.aqrl  x11, x0, (x12)  # 45, and count is 0; aq and rl change nothing on this machine
        addi    x5, x0, -1
        amoor.w         x0, x5, (x12)   # the lower half of count is all ones, its upper half stays 0
        amomaxu.w       x13, x0, (x12)  # the old half 0xffffffff, which .w extends by its sign: all ones
        amomax.w        x14, x0, (x12)  # as a signed number it is -1, so 0 is greater: the half is 0
        ld      x15, 0(x12)             # count is 0
        addi    x12, x0, 0
        addi    x17, x0, 99             # the monitor has no call 99: the report shows the words x10 to x15
        ecall
        auipc   x12, 0
        amoadd.d        x10, x5, (x12)  # this line's address is no multiple of 8: cause 6, and nothing is stored
        ebreak
.at 0x80
count:  .dword  40
