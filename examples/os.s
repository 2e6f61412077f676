# An OS that builds an enclave by monitor calls of its own, enters it, and enters it again where it was interrupted. In
# the end the enclave has left a number, and the OS shows it.
#
# Page 0 is the OS, page 1 the enclave's code before it is loaded. Regions 2 to 5, of one page each, become the enclave's:
# root, table of level 1, table of level 0, code.

# The calls of the list stand one behind the other, each with its number and five arguments. One that is refused ends it.
        auipc   x5, 0
        addi    x5, x5, 0x100   # the address of the list
next:   ld      x17, 0(x5)
        beq     x17, x0, built  # a number 0 ends the list
        ld      x10, 8(x5)
        ld      x11, 16(x5)
        ld      x12, 24(x5)
        ld      x13, 32(x5)
        ld      x14, 40(x5)
        ecall
        bne     x10, x0, stop   # x10 has the reply's code, 0 for ok
        addi    x5, x5, 48
        jal     x0, next

# Behind the ecall the OS goes on when the core has left the enclave: x10 is 0, and x11 is 0 for an exit, 1 where the
# enclave was interrupted. Then x12 is the cause. So the enclave is entered again until it exits.
built:  addi    x17, x0, 13     # enter
        addi    x10, x0, 0      # the enclave in slot 0
        addi    x11, x0, 0      # with thread 0
        ecall
        bne     x10, x0, stop
        bne     x11, x0, built
        auipc   x6, 0
        ld      x10, 0x9c(x6)   # what the enclave has left
        addi    x17, x0, 99     # the monitor has no call 99: the report shows the words x10 to x15
        ecall
stop:   ebreak

.at 0xe8
left:   .dword  0

.at 0x100
list:
# block 2 to 5, flush, free 2 to 5
.dword 1
.dword 2
.at 0x130
.dword 1
.dword 3
.at 0x160
.dword 1
.dword 4
.at 0x190
.dword 1
.dword 5
.at 0x1c0
.dword 4
.at 0x1f0
.dword 2
.dword 2
.at 0x220
.dword 2
.dword 3
.at 0x250
.dword 2
.dword 4
.at 0x280
.dword 2
.dword 5
# create 0 0x10000 0x4000
.at 0x2b0
.dword 6
.dword 0
.dword 0x10000
.dword 0x4000
# assign 2 0 to assign 5 0
.at 0x2e0
.dword 3
.dword 2
.at 0x310
.dword 3
.dword 3
.at 0x340
.dword 3
.dword 4
.at 0x370
.dword 3
.dword 5
# load_table 0 0 2 2: page 2 is the root
.at 0x3a0
.dword 7
.dword 0
.dword 0
.dword 2
.dword 2
# load_table 0 0x10000 1 3 and 0 0x10000 0 4
.at 0x3d0
.dword 7
.dword 0
.dword 0x10000
.dword 1
.dword 3
.at 0x400
.dword 7
.dword 0
.dword 0x10000
.dword 0
.dword 4
# load_page 0 0x10000 5 1 5: page 5 is a copy of page 1, and stands at 0x10000, to be read and executed
.at 0x430
.dword 8
.dword 0
.dword 0x10000
.dword 5
.dword 1
.dword 5
# load_thread 0 0 0x10000 0, init 0
.at 0x460
.dword 9
.dword 0
.dword 0
.dword 0x10000
.at 0x490
.dword 10
.dword 0
.at 0x4c0
.dword 0

# The enclave. It is entered with all registers 0 but x2 and x10, and x10 is 1 where something was saved: then the call
# restore gives it all its registers and its pc back, so it goes on where it was.
.at 4096
enclave:
        beq     x10, x0, fresh
        addi    x17, x0, 16     # restore
        ecall
fresh:  addi    x5, x0, 0
        addi    x6, x0, 1
        addi    x7, x0, 20
power:  add     x6, x6, x6      # 2 to the 20th, by 20 doublings
        addi    x5, x5, 1
        bne     x5, x7, power
        lui     x8, 0x80000     # the OS's page 0: an address outside the enclave's range, by the OS's tables
        slli    x8, x8, 32
        srli    x8, x8, 32
        sd      x6, 0xe8(x8)    # left there for the OS
        addi    x17, x0, 14     # exit
        ecall
