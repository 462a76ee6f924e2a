# eight threads: each counts in a register, and adds 1 to one word now and then
        addi x11, x0, 0x400     # the word
        addi x5, x0, 7          # threads that are left to start
start:  addi x17, x0, 1         # the call: spawn
        addi x10, x0, work      # where the thread begins
        addi x12, x0, 0x400     # its argument
        ecall
        addi x5, x5, -1
        bne x5, x0, start
        addi x10, x0, 0x400

work:   addi x7, x0, 30         # rounds before the next addition
round:  addi x6, x6, 1
        addi x7, x7, -1
        bne x7, x0, round
        addi x8, x0, 1
        amoadd.w x9, x8, (x10)
        jal x0, work
