# The OS turns Sv39 on and breaks its own rules: it writes to a page that may only be read, and reads where no page is.
#
# Page 0 is this code, page 1 the root of the page tables, page 2 the table of level 1 for the addresses from 2^31 on,
# page 3 that of level 0 for the first two megabytes of these, page 4 a page of data. Page p begins at 0x80000000 +
# 4096 p, and its page frame number is 0x80000 + p.
        lui     x12, 0x80004    # rd gets the upper 20 bits with the sign: this is 0xffffffff80004000
        slli    x12, x12, 32
        srli    x12, x12, 32    # the address of page 4: 0x80004000
        addi    x17, x0, 21     # set_satp
        auipc   x5, 0
        ld      x10, 0x70(x5)   # Sv39 (8 in the upper four bits), and the frame of the root
        ecall
        ld      x6, 8(x12)      # page 4 may be read: three page-table entries are walked, then the word is loaded
        addi    x6, x6, 1
        sd      x6, 8(x12)      # and not written: a store page fault, cause 15, whose value is the address
        ebreak
.at 0x80
satp:   .dword  0x8000000000080001

# A page-table entry is the page's frame times 1024, and the bits V 1, R 2, W 4, X 8, U 16, A 64, D 128. One with V
# alone leads to the next table.
.at 4112                        # in page 1, the place of entry 2, for the addresses from 2 * 2^30 on
        .dword  0x20000801      # to page 2
.at 8192                        # in page 2, entry 0
        .dword  0x20000c01      # to page 3
.at 12288                       # in page 3, entry 0: virtual page 0x80000
        .dword  0x2000004b      # is page 0, to be read and executed: V, R, X, A
.at 12320                       # entry 4: virtual page 0x80004
        .dword  0x20001043      # is page 4, to be read: V, R, A
.at 16392                       # in page 4, the word that is read
        .dword  41
