# Leaves above level 0: one gigabyte at its own addresses, and two megabytes at another address. The same word is
# written at the one address and read at the other.
#
# Page 0 is this code, page 1 the root, page 2 a table of level 1.
        lui     x12, 0x4        # 0x4000 in the two megabytes from 0 on, which are those from 0x80000000 on
        auipc   x13, 4          # 0x80004004: this line's address and 4 * 4096
        addi    x13, x13, -4    # 0x80004000
        addi    x17, x0, 21     # set_satp
        auipc   x5, 0
        ld      x10, 0x70(x5)
        ecall
        addi    x6, x0, 77
        sd      x6, 0(x12)      # written at 0x4000
        ld      x10, 0(x13)     # read at 0x80004000
        addi    x17, x0, 99     # the monitor has no call 99: the report shows its words
        addi    x11, x0, 0
        ecall
        ebreak
.at 0x80
satp:   .dword  0x8000000000080001

.at 4096                        # in page 1, entry 0: addresses below 2^30
        .dword  0x20000801      # to page 2
.at 4112                        # entry 2: addresses from 2^31 on
        .dword  0x200000cf      # a leaf of level 2: a gigabyte from 0x80000000 on; V, R, W, X, A, D
.at 8192                        # in page 2, entry 0: addresses below 2^21
        .dword  0x200000c7      # a leaf of level 1: two megabytes from 0x80000000 on; V, R, W, A, D
        .dword  0x200004c7      # entry 1: the frame 0x80001 is no multiple of 512, so this is no leaf of level 1
