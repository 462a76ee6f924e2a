# thread 0 spawns a second thread, and reads a word that the second one stores to
        addi x17, x0, 1         # the call: spawn
        addi x10, x0, second    # where the thread begins
        addi x12, x0, 0         # its argument
        ecall
        lw x5, 0x100(x0)        # 0 before the other's store, and 9 after it
        addi x17, x0, 0         # the call: exit
        ecall
        addi x0, x0, 0

second: addi x6, x0, 9
        sw x6, 0x100(x0)
        addi x17, x0, 0         # the call: exit
        ecall
