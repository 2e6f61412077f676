# Two enclaves exchange letters, and one of them is offered memory while it runs: an OS, a reader and a writer, all of
# them guest code. By the access fault of a store the OS learns that it is to offer the region.
#
# A region has four pages here: pages 0 to 3 are region 0, pages 4 to 7 region 1, and so on. Page 0 is the OS, page 1
# the reader's code before it is loaded, page 2 the writer's. Region 1 becomes that of the reader, the enclave in
# slot 0: root, table of level 1, table of level 0, code. Region 2 becomes the writer's in the same way, in slot 1.
# Page 12, of region 3, is reserved at 0x11000 for the reader, which is to own the region only once it runs.
#
# A ticket is the number of a call in the report.

# Tickets 1 to 24: the calls of the list, each with its number and five arguments. One that is refused ends it.
        auipc   x9, 0           # the address of page 0
        addi    x5, x9, 0x100   # the list
next:   ld      x17, 0(x5)
        beq     x17, x0, built  # a number 0 ends the list
        ld      x10, 8(x5)
        ld      x11, 16(x5)
        ld      x12, 24(x5)
        ld      x13, 32(x5)
        ld      x14, 40(x5)
        ecall
        bne     x10, x0, stop   # x10 has the reply's code, 0 for ok
        addi    x5, x5, 48
        jal     x0, next

# Letters are between enclaves: in OS mode a send is access_denied, and x10 is 3 behind it. The OS goes on all the same.
built:  addi    x17, x0, 18     # send
        addi    x10, x0, 0      # to slot 0,
        addi    x11, x0, 0      # its mailbox 0
        addi    x12, x0, 1      # the first of four words; the others are 0
        ecall                   # ticket 25

# The reader and the writer take turns, until the writer has left something in page 0. Behind the ecall of an enter that
# is ok the OS goes on when the core has left the enclave: x10 is 0, and x11 is 0 for an exit. Where the enclave was
# interrupted x11 is 1, x12 the cause and x13 the value.
again:  addi    x17, x0, 13     # enter
        addi    x10, x0, 0      # the reader in slot 0
        addi    x11, x0, 0      # with thread 0
        ecall                   # tickets 26, 36, 46
        bne     x10, x0, stop
        beq     x11, x0, other
        addi    x6, x0, 7
        bne     x12, x6, stop   # 7, the access fault of a store: the reader wants its page. All else ends the program
        addi    x17, x0, 3      # assign
        addi    x10, x0, 3      # region 3
        addi    x11, x0, 0      # to slot 0, which is initialized: so the region is offered, and still nobody's
        ecall                   # ticket 39
        bne     x10, x0, stop
other:  addi    x17, x0, 13     # enter
        addi    x10, x0, 1      # the writer in slot 1
        addi    x11, x0, 1      # with thread 1
        ecall                   # tickets 30, 40, 51
        bne     x10, x0, stop
        bne     x11, x0, stop
        ld      x10, 0xf0(x9)   # what the writer has left
        ld      x11, 0xf8(x9)
        beq     x10, x0, again
        addi    x17, x0, 99     # the monitor has no call 99: the report shows the words x10 to x15
        ecall                   # ticket 54: 17 210 0 0 0 0
stop:   ebreak

.at 0xf0
left:   .dword  0
        .dword  0

.at 0x100
list:
# block 1 to 3, flush, free 1 to 3
.dword 1
.dword 1
.at 0x130
.dword 1
.dword 2
.at 0x160
.dword 1
.dword 3
.at 0x190
.dword 4
.at 0x1c0
.dword 2
.dword 1
.at 0x1f0
.dword 2
.dword 2
.at 0x220
.dword 2
.dword 3
# The reader: create 0 0x10000 0x4000, assign 1 0: it is loading, so region 1 is its own at once
.at 0x250
.dword 6
.dword 0
.dword 0x10000
.dword 0x4000
.at 0x280
.dword 3
.dword 1
# load_table 0 0 2 4: page 4 is the root; load_table 0 0x10000 1 5 and 0 0x10000 0 6
.at 0x2b0
.dword 7
.dword 0
.dword 0
.dword 2
.dword 4
.at 0x2e0
.dword 7
.dword 0
.dword 0x10000
.dword 1
.dword 5
.at 0x310
.dword 7
.dword 0
.dword 0x10000
.dword 0
.dword 6
# load_page 0 0x10000 7 1 5: page 7 is a copy of page 1, and stands at 0x10000, to be read and executed
.at 0x340
.dword 8
.dword 0
.dword 0x10000
.dword 7
.dword 1
.dword 5
# reserve 0 0x11000 12 3: page 12 is to stand at 0x11000, to be read and written
.at 0x370
.dword 23
.dword 0
.dword 0x11000
.dword 12
.dword 3
# load_thread 0 0 0x10000 0, init 0
.at 0x3a0
.dword 9
.dword 0
.dword 0
.dword 0x10000
.at 0x3d0
.dword 10
# The writer: create 1 0x10000 0x4000, assign 2 1
.at 0x400
.dword 6
.dword 1
.dword 0x10000
.dword 0x4000
.at 0x430
.dword 3
.dword 2
.dword 1
# load_table 1 0 2 8, 1 0x10000 1 9 and 1 0x10000 0 10
.at 0x460
.dword 7
.dword 1
.dword 0
.dword 2
.dword 8
.at 0x490
.dword 7
.dword 1
.dword 0x10000
.dword 1
.dword 9
.at 0x4c0
.dword 7
.dword 1
.dword 0x10000
.dword 0
.dword 10
# load_page 1 0x10000 11 2 5
.at 0x4f0
.dword 8
.dword 1
.dword 0x10000
.dword 11
.dword 2
.dword 5
# load_thread 1 1 0x10000 0, init 1
.at 0x520
.dword 9
.dword 1
.dword 1
.dword 0x10000
.at 0x550
.dword 10
.dword 1
.at 0x580
.dword 0

# The reader. It is entered with all registers 0 but x2 and x10, and x10 is 1 where something was saved. An exit saves
# nothing: it begins anew at the next enter.
.at 4096
reader:
        bne     x10, x0, offer
        addi    x17, x0, 19     # read
        addi    x10, x0, 0      # mailbox 0
        ecall                   # ticket 27: invalid_state, the mailbox is closed. Ticket 37: ok, x11 to x14 are
                                # 2 3 5 7, and x15 to x18 the writer's measurement: what was loaded into it
        beq     x10, x0, letter
        addi    x17, x0, 17     # accept
        addi    x10, x0, 0      # mailbox 0
        addi    x11, x0, 1      # expects a letter from slot 1
        ecall                   # ticket 28: ok
        addi    x17, x0, 14     # exit
        ecall                   # ticket 29
# At ticket 46 the reader is entered again, after its store was interrupted. It takes what it is offered, and restore
# gives it all its registers and its pc back: so the store is carried out once more.
offer:  addi    x17, x0, 22     # accept_region
        addi    x10, x0, 3
        ecall                   # ticket 47: ok, region 3 is the reader's own
        addi    x17, x0, 16     # restore
        ecall                   # ticket 48: ok, and its word is 38, the ticket of the aex
letter: lui     x5, 0x11        # 0x11000, the page that was reserved
        sd      x11, 0(x5)      # ticket 38 is its aex, since region 3 is free: pc 0x10044, x5 and x11 to x18 as they
                                # stand here, cause 7. Behind ticket 48 it is well: the log has touch 3 47
        sd      x12, 8(x5)
        sd      x13, 16(x5)
        sd      x14, 24(x5)
        addi    x6, x0, 0
        addi    x7, x0, 1
        addi    x8, x5, 32
word:   ld      x10, 0(x5)      # each word of the letter, out of the page
        add     x6, x6, x10     # the sum: 2 + 3 + 5 + 7 = 17
        mul     x7, x7, x10     # the product: 2 * 3 * 5 * 7 = 210
        addi    x5, x5, 8
        bne     x5, x8, word
        addi    x17, x0, 18     # send
        addi    x10, x0, 1      # to slot 1,
        addi    x11, x0, 0      # its mailbox 0
        addi    x12, x6, 0
        addi    x13, x7, 0
        addi    x14, x0, 0
        addi    x15, x0, 0
        ecall                   # ticket 49: ok, the answer 17 210 0 0
        addi    x17, x0, 14     # exit
        ecall                   # ticket 50

# The writer. Its three entries begin here all alike, and differ by the replies alone.
.at 8192
writer:
        addi    x17, x0, 19     # read
        addi    x10, x0, 0      # mailbox 0
        ecall                   # ticket 31: invalid_state, it is closed. Ticket 41: invalid_state, it still expects.
                                # Ticket 52: ok, 17 210 0 0 and the reader's measurement
        beq     x10, x0, answer
        addi    x17, x0, 17     # accept
        addi    x10, x0, 0      # mailbox 0
        addi    x11, x0, 0      # expects a letter from slot 0
        ecall                   # tickets 32 and 42: ok
        addi    x17, x0, 18     # send
        addi    x10, x0, 0      # to slot 0,
        addi    x11, x0, 0      # its mailbox 0
        addi    x12, x0, 2
        addi    x13, x0, 3
        addi    x14, x0, 5
        addi    x15, x0, 7
        ecall                   # ticket 33: ok, since the reader expects it. Ticket 43: invalid_state, since the reader
                                # has read, and that closed its mailbox
        addi    x17, x0, 22     # accept_region
        addi    x10, x0, 3
        ecall                   # ticket 34: invalid_state, region 3 is free. Ticket 44: access_denied, it is offered to
                                # slot 0
        jal     x0, leave
answer: lui     x8, 0x80000     # the OS's page 0: an address outside the enclave's range, by the OS's tables
        slli    x8, x8, 32
        srli    x8, x8, 32
        sd      x11, 0xf0(x8)   # left there for the OS: 17
        sd      x12, 0xf8(x8)   # and 210
leave:  addi    x17, x0, 14     # exit
        ecall                   # tickets 35, 45, 53
