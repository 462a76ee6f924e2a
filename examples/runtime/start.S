# Where the program, its threads and its interrupts begin, and the one way into the kernel. No code here or in the
# program may rest on a7: the call that ends an interrupt leaves its own number there.

    .file "start.S" # without this the image has the name of a temporary file

    .section .text.start, "ax"

# The first thread starts here with every register 0. What main returns is its exit code.
    .globl _start
_start:
    la sp, first_stack_end
    call main
    j exit_thread

# A thread of start_thread starts here. On its stack are the function and its argument; what the function returns is
# the thread's exit code.
    .globl thread_entry
thread_entry:
    lw t0, 0(sp)
    lw a0, 4(sp)
    addi sp, sp, 16
    jalr t0
exit_thread:
    li a3, 0
# falls into kernel, which doesn't return from an exit

# unsigned kernel(unsigned a0, unsigned a1, unsigned a2, unsigned number): the result of one call. An interrupt that
# came between the number's way into a7 and the ecall has left 7 there; then the call was refused, and is made again.
    .globl kernel
kernel:
    mv t0, a0
again:
    mv a0, t0
    mv a7, a3
    ecall
    li t1, -4
    bne a0, t1, done
    li t1, 7
    beq a7, t1, again
done:
    ret

# An interrupt enters here, on the stack of the interrupted thread, with the value in a0. The kernel has saved a0, a1
# and the pc; the rest that C may change is saved here around on_interrupt(value), which is the program's own, or does
# nothing if the program has none.
    .section .text.interrupt, "ax"
    .globl interrupt_entry
interrupt_entry:
    addi sp, sp, -64
    sw ra, 0(sp)
    sw t0, 4(sp)
    sw t1, 8(sp)
    sw t2, 12(sp)
    sw t3, 16(sp)
    sw t4, 20(sp)
    sw t5, 24(sp)
    sw t6, 28(sp)
    sw a2, 32(sp)
    sw a3, 36(sp)
    sw a4, 40(sp)
    sw a5, 44(sp)
    sw a6, 48(sp)
    call on_interrupt
    lw ra, 0(sp)
    lw t0, 4(sp)
    lw t1, 8(sp)
    lw t2, 12(sp)
    lw t3, 16(sp)
    lw t4, 20(sp)
    lw t5, 24(sp)
    lw t6, 28(sp)
    lw a2, 32(sp)
    lw a3, 36(sp)
    lw a4, 40(sp)
    lw a5, 44(sp)
    lw a6, 48(sp)
    addi sp, sp, 64
    li a7, 7
    ecall

    .weak on_interrupt
on_interrupt:
    ret

# What compilers call for copied and cleared structs.
    .section .text.memcpy, "ax"
    .globl memcpy
memcpy:
    mv t0, a0
    beqz a2, copied
copy:
    lbu t1, 0(a1)
    sb t1, 0(t0)
    addi a1, a1, 1
    addi t0, t0, 1
    addi a2, a2, -1
    bnez a2, copy
copied:
    ret

    .section .text.memset, "ax"
    .globl memset
memset:
    mv t0, a0
    beqz a2, filled
fill:
    sb a1, 0(t0)
    addi t0, t0, 1
    addi a2, a2, -1
    bnez a2, fill
filled:
    ret

    .section .bss
    .balign 16
    .zero 512
first_stack_end:
