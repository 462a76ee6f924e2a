# two threads add 1 to one word twenty times each, and keep the sum that each has seen last
        addi x17, x0, 1         # the call: spawn
        addi x10, x0, work      # where the thread begins
        addi x12, x0, 4         # its argument
        ecall
        addi x10, x0, 0         # in place of an argument
work:   addi x6, x0, 0x100
        addi x7, x0, 1
        addi x5, x0, 20
again:  amoadd.w x8, x7, (x6)
        sw x8, 0x180(x10)       # a word of this thread's own
        addi x5, x5, -1
        bne x5, x0, again
        addi x17, x0, 0         # the call: exit
        add x10, x8, x0         # with the sum
        ecall
