# takes an interrupt, the input by DMA and the clock, and exits with the interrupt's value
        addi x17, x0, 6         # handler(taken)
        addi x10, x0, taken
        ecall
        addi x17, x0, 8         # dma(256, 4)
        addi x10, x0, 256
        addi x11, x0, 4
        ecall
        addi x17, x0, 5         # clock()
        ecall
        lw x5, 260(x0)          # what the DMA has brought
        addi x17, x0, 0         # exit(x8)
        add x10, x8, x0
        ecall

taken:  add x8, x10, x0
        addi x17, x0, 7         # iret()
        ecall
