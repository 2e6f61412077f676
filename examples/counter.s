# Every core adds 1 to one shared word and keeps what the word was.
        auipc   x12, 0          # the address of the first line
        addi    x12, x12, 32    # that of the word
        addi    x11, x0, 1
        amoadd.d.aqrl x10, x11, (x12)
        fence   x0, x0, 0
        ebreak
.at 32
count:  .dword  0
