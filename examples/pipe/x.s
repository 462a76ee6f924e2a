# puts the first two bytes of its own code into pipe 0
        addi x17, x0, 2         # the call: write
        addi x12, x0, 2         # how many bytes
        ecall
        addi x17, x0, 0         # the call: exit
        ecall
