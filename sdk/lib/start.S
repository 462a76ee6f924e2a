# Where the program and its threads begin.
    .file "start.S"
    .section .text.start, "ax"

    .macro load_gp
    .option push
    .option norelax
    la gp, __global_pointer$
    .option pop
    .endm

# The first thread starts here with every register 0.
    .globl _start
_start:
    load_gp
    la tp, __main_tp
    la sp, __main_stack
    call __start_program

# A thread of pthread_create starts here. a0 is its tp, and its sp is set.
    .globl __thread_entry
__thread_entry:
    load_gp
    mv tp, a0
    call __start_thread

# _Noreturn void __restart(void *tp, void *sp): a thread that has ended begins again, with an empty stack.
    .globl __restart
__restart:
    mv tp, a0
    mv sp, a1
    call __start_thread
