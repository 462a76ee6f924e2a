# exits with 7
        addi x17, x0, 0         # the call: exit
        addi x10, x0, 7         # the code
        ecall
