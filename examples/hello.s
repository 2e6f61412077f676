# A monitor call by a guest: drop this core's translations, then stop.
        addi    x17, x0, 4      # x17 holds the call's number; 4 is flush
        ecall                   # x10 has the reply, x11 on its words
        ebreak                  # a trap: the core's turns end here
