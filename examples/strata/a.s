# four threads: each counts to 20 and stores each number to a word of its own
        addi x5, x0, 3          # threads that are left to start
        addi x6, x0, 0x400      # the word of the next one
start:  addi x17, x0, 1         # the call: spawn
        addi x10, x0, work      # where the thread begins
        addi x12, x6, 0         # its argument
        ecall
        addi x6, x6, 4
        addi x5, x5, -1
        bne x5, x0, start
        addi x10, x6, 0

work:   addi x7, x0, 20
round:  addi x8, x8, 1
        sw x8, 0(x10)
        bne x8, x7, round
        addi x17, x0, 0         # the call: exit
        ecall
