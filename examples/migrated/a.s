# thread 0 asks for a DMA, starts threads until one is refused, and ends with the number of those that it has started;
# each of these adds the word that the DMA brings to another word
        addi x17, x0, 8         # the call: dma
        addi x10, x0, 0x100     # the number of bytes comes here, and the bytes come after it
        addi x11, x0, 4
        ecall
        addi x8, x0, 0
        addi x9, x0, -4         # the answer: refused
start:  addi x17, x0, 1         # the call: spawn
        addi x10, x0, work      # where the thread begins
        ecall
        beq x10, x9, full
        addi x8, x8, 1
        jal x0, start
full:   addi x10, x8, 0
        addi x17, x0, 0         # the call: exit
        ecall
work:   addi x6, x0, 0x180
        lw x5, 0x104(x0)
        amoadd.w x10, x5, (x6)
        addi x17, x0, 0
        ecall
