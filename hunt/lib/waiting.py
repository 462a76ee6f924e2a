"""Who waits for whom at the end of a log, in words: `waiting_lines(trace, is_hang)`. Of threads that wait in the library of delorean-cc
its notes tell for what; of others, their loops."""

from .hangs import hang_lines, waits
from .notes import note_lines, notes_of
from .own import Own


def waiting_lines(trace, is_hang=False):
    """is_hang: whether no thread goes on, by a walk that was done; else a walk shows of each thread whether it waits. [] if no thread is
    live."""
    notes = [note for note in notes_of(trace) if note.waits]
    live = {number for number, thread in enumerate(trace.machine.threads) if thread.live()}
    found = [] if is_hang and live <= {note.thread for note in notes} else waits(trace)
    going = {wait.thread for wait in found if wait.loop is None} if not is_hang else set()
    notes = [note for note in notes if note.thread not in going]
    noted = {note.thread for note in notes}
    return [*note_lines(trace, Own(trace.image, trace.names), notes), *hang_lines(trace, [w for w in found if w.thread not in noted])]
