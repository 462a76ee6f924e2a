"""Where in its own code a thread of a Trace is: `places(trace, own, thread)`, the innermost first."""


def registers(trace, number):
    """The pc and registers of a thread at the end; of one that has ended, before the step that ended it."""
    thread = trace.machine.threads[number]
    if thread.live():
        return thread.pc, thread.x
    last = next((c for c in reversed(trace.commits) if c.actor == number and c.before), None)
    return (last.before.pc, last.before.x) if last else (thread.pc, thread.x)


def places(trace, own, number):
    """Functions and lines of the program's own code, with those that called them, as far as the image's frames tell."""
    pc, x = registers(trace, number)
    words = trace.machine.words
    chain = trace.frames.chain(pc, x, lambda addr: words[addr >> 2])
    return [trace.names.place(pc) for pc in chain if own.is_code(pc)]


def chain_text(found):
    """For example `get, queue.c:12, called from work, queue.c:30`."""
    return ", called from ".join(found)
