# four threads: each counts to 20 and stores each number to a byte of its own, all in one word
        addi x5, x0, 3          # threads that are left to start
        addi x6, x0, 0x400      # the byte of the next one
start:  addi x17, x0, 1         # the call: spawn
        addi x10, x0, work      # where the thread begins
        addi x12, x6, 0         # its argument
        ecall
        addi x6, x6, 1
        addi x5, x5, -1
        bne x5, x0, start
        addi x10, x6, 0

work:   addi x7, x0, 20
round:  addi x8, x8, 1
        sb x8, 0(x10)
        bne x8, x7, round
        addi x17, x0, 0         # the call: exit
        ecall
