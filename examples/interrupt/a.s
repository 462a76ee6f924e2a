# waits until an interrupt has brought a value, and exits with it
        addi x17, x0, 6         # handler(taken)
        addi x10, x0, taken
        ecall
wait:   beq x8, x0, wait
        addi x17, x0, 0         # exit(x8)
        add x10, x8, x0
        ecall

# an interrupt comes here with its value in a0; iret gives back the pc, a0 and a1, and leaves 7 in a7
taken:  add x8, x10, x0
        addi x17, x0, 7         # iret()
        ecall
