"""What a recorded run did, instruction by instruction: for the commands of hunt/, and for programs of your own.

    import sys; sys.path.insert(0, "hunt")
    from lib.trace import open_trace
    trace = open_trace("race.elf", 4096, "race.log")

plays the log by an interpreter of its own (isa.py, machine.py, play.py) and compares every load, output, register, row of
memory and the end with the account of the proved program's `walk`. If they aren't the same it raises Differs (account.py),
with the place. So if you have a Trace, the account says the same. The program is bin/delorean beside hunt/, or the words in
the environment variable DELOREAN. With `account="a.txt"` the file is compared, and nothing is walked.

A run is a list of **steps**, numbered from 0. Each instruction is a step, a serial one too; so is a DMA, which has no pc.
Each step is in a **commit**, and each access to memory, to a device's word or by the kernel is an **Access** of its step:

    trace.commits                   a list of Commit (play.py): number, told (its number in accounts, which differs in a tail),
                                    actor, handler, kind, size, first, last (steps), first_access, last_access, before (the thread's Registers), served (what a serial step
                                    did), raised (the value of an interrupt that came after it), threads, request
    trace.pcs[step]                 the pc of a step; machine.NO_PC for a DMA
    trace.accesses                  a list of Access (isa.py): step, pc, kind, addr, width, value, old, new. kind is one of
                                    isa.LOAD, STORE, LR, SC, SC_FAILED, AMO, SWAP, COPY (the kernel stores), DMA, OUT (the
                                    kernel loads), DEVICE, CONSOLE; isa.LOADS and isa.STORES are the kinds that read and
                                    write memory, and old and new are the whole word before and after
    trace.accesses_of(commit)       those of one commit
    trace.of_word(addr)             those of one word, in order, as (Commit, Access)
    trace.words                     the accesses of each word, as indices
    trace.first_value(addr)         the word in the image; of a tail, as it begins
    trace.value_before(addr, step)  the word as a step found it
    trace.commit_of(step)           the Commit that has it
    trace.context(commit)           who acted: Context(thread, handler). An interrupt is a context of its own, by its number
                                    in its thread, from 1. A DMA's thread is logs.DMA. context_name() says it in words
    trace.end                       ("complete", commits), or ("diverged", commits, reason, ..): then the trace ends there
    trace.machine                   the Machine at the end: memory, threads, request
    trace.thread_at(k, number)      the Registers of thread k before a commit
    trace.names                     Names (symbols.py): word("counter+4") is an address, and name(addr), function(pc),
                                    line(pc) and place(pc) are texts

Registers (machine.py) are pc, x (x0 to x31, and one number more), reservation, handler, masked, saved (pc, a0, a1), status,
commits, interrupts.

**Forwards and back**: `moment = Moment(trace)` is a machine that goes to before any step:

    moment.seek(step)               0 to trace.steps; also step_forward() and step_back()
    moment.machine.memory           the bytes at that moment, .words the words; .threads[k].x and .pc the registers
    moment.commit, moment.thread()  the commit that the step is in, and the thread whose step is next (None before a DMA and
                                    at the end)

For a breakpoint search trace.pcs, and for a watchpoint trace.of_word: nothing needs to be run for either.

**A machine without a log** (machine.py) is moved by hand, thread by thread, for example to search orders:

    machine = Machine(image, most=15)        image from image.read_image(bytes, memory)
    machine.run(k, n)                        thread k does up to n instructions; returns how many. machine.stop is below 0 if
                                             it stopped before a serial one (isa.CALL, ..)
    machine.need(k)                          what that one wants from outside, or None; machine.serve(k, record) does it, with
                                             a logs.Input(kind, result, bytes) that fits(need, record), or None
    machine.end_commit(k)                    after each commit of the thread: the reservation ends
    machine.interrupt(k, value), dma(data)
    machine.mark() and back(mark)            to an earlier state, at the cost of what was stored since
    machine.save() and restore(state)        to any state, at the cost of its memory

Each commit of a log is a run of some instructions and then end_commit, or one serve and then end_commit, or a dma.
logs.write_log(Log(..)) makes a log's bytes. play.Player does a log commit by commit: step() until `end` isn't None.
words.py finds lost updates and ABA in a trace, and says who does what to a word; why.py finds loads that were stale when they were
used, halfway.py what others saw too early, hangs.py what threads wait for, races.py what nothing orders, stacks.py stacks that were
run over; telling.py has the lines of text. story.py tells a run in lines of its program, calls.py which of its library's functions it
called, naming.py what words and places are called, parts.py which fields heap blocks have, by pointers.py; notes.py what that library notes
of threads that wait; finding.py is what hunt/find does.
"""
