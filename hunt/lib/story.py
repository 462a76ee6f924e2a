"""A run told in lines of its program: `Story(trace).turns`; storylines.py has them as text.

A turn is what one thread does before another one comes. Its rows are accesses of the program's own code to variables and to the
heap, the locks that it takes and gives back, its calls of the library that touch what it gave them, and what the kernel does
for it. Accesses of the library to words of its own are left out."""

from collections import namedtuple

from . import isa
from .answered import answer_name
from .calls import GIVING, TAKING_BACK, Heap
from .machine import CONSOLE_CHANNEL, NO_PC
from .naming import GONE, block_name, naming_of
from .telling import values, verb
from .trace import context_name

# who: the Context. function: the program's own function that the thread began with, or None. rows: of Row. is_left: whether
# another thread comes next although this one could go on.
Turn = namedtuple("Turn", "who function rows is_left")
# what: a verb. word: what it is done to, or "". value: in digits, or "". place: function and line, or "". times: in a row. note: what is
# to be said beside it. rank: KEY, SHARED or OWN, how much it matters. step: of the trace.
Row = namedtuple("Row", "what word value place times note rank step", defaults=("", "", "", 1, "", 0, None))
# A use of a block that had been freed, or past its end. who: the Context. what: a verb. block: the Block, as it was then. pc: of the program's own code.
Use = namedtuple("Use", "who what block pc commit step")
# KEY: a row that is told however long the story is; SHARED: of words that several threads use; OWN: of the thread's own.
KEY, SHARED, OWN = range(3)

LOCKING = {"__delorean_took", "__delorean_lock", "__delorean_wait", "__delorean_gives", "pthread_mutex_lock",
           "pthread_mutex_unlock", "pthread_mutex_trylock", "pthread_mutex_timedlock"}
TWO_ARGUMENTS = {"pthread_cond_wait", "pthread_cond_timedwait"}
CHECKING = {*GIVING, *TAKING_BACK, "exit", "quick_exit"}
UNTOLD = LOCKING | set(GIVING) | set(TAKING_BACK) | {"pthread_create", "pthread_join"}
CLOCK = "the clock"
QUIET = {"exit", "write", "self", "yield", "handler", "iret", "ended", "spawn", "fault", "break", "device store"}
PAST = "stores past the end of"
LOCK_BYTES = 16      # of a pthread_mutex_t
REACH = 64           # an access so many bytes from an argument counts as one to what was given
CAUSES = {0: "a jump to a place that isn't a multiple of 4", 1: "a jump out of the memory", 2: "no instruction is there",
          3: "a break", 4: "a load from an address that isn't a multiple of its width", 5: "a load from outside the memory",
          6: "a store to an address that isn't a multiple of its width", 7: "a store outside the memory"}


def thread_name(number, function):
    return "thread %d%s" % (number, " (%s)" % function if function else "")


class Story:
    """`left`: of each turn but the last one, whether it is left by force, if that is known."""

    def __init__(self, trace, left=()):
        self.trace, self.names, self.naming = trace, trace.names, naming_of(trace)
        self.own, self.calls = self.naming.own, self.naming.calls
        self.begins = {call.first: call for call in self.calls}
        self.ends = {}
        for call in self.calls:
            self.ends.setdefault(call.last, []).append(call)
        self.locks = {a.addr for a in trace.accesses if a.pc in self.own.lock_code}
        self.heap, self.at, self.within, self.around, self.told = Heap(), {}, {}, {}, set()  # around: of a call the one that it is in
        self.misuses = {}  # Uses of blocks that had been freed, or past their ends, each place once
        self.gone = set()  # words in stacks that are gone, and where they were stored to
        self.functions, self.touched, self.now = {}, {}, 0  # now: the step that is told
        self.turns = [turn for turn in self._turns(list(left)) if turn.rows or turn.is_left]
        hand_over(self.turns)

    def function_of(self, thread):
        """The program's own function that a thread began with, or None."""
        return next((name for who, name in self.functions.items() if who == (thread, 0)), None)

    # ------------------------------------------------------------ turns

    def _turns(self, left):
        out = []
        for commit in self.trace.commits:
            who = self.trace.context(commit)
            if not out or out[-1].who != who:
                out.append(Turn(who, None, [], False))
            for row in self._rows(commit, who):
                add(out[-1].rows, row)
        is_known = len(left) == len(out) - 1
        marks = left + [False] if is_known else [False] * len(out)
        return [turn._replace(function=self.functions.get(turn.who), is_left=mark) for turn, mark in zip(out, marks)]

    def _rows(self, commit, who):
        accesses = self.trace.accesses_of(commit)
        at = 0
        for step in range(commit.first, commit.last):
            yield from (row._replace(step=step) for row in self._step(step, who))
            while at < len(accesses) and accesses[at].step == step:
                yield from (row._replace(step=step) for row in self._access(accesses[at], who))
                at += 1
        if commit.served:
            yield from (row._replace(step=commit.first) for row in self._served(commit, who))

    def _step(self, step, who):
        """Follows the calls that end and begin with a step."""
        self.now = step
        for call in self.ends.get(step, ()):
            self.heap.look(call)
            if self.within.get(who) is call:
                self.within[who] = self.around.pop(call.first, None)
                yield from self._of_heap(call)
                yield from self._answered(call)
        pc = self.trace.pcs[step]
        if pc != NO_PC and self.own.is_code(pc):
            self.at[who] = pc
            self.functions.setdefault(who, self.names.function(pc))
        if step in self.begins:
            self.around[step], self.within[who] = self.within.get(who), self.begins[step]
            self._look_at_free(self.begins[step])

    def _is_asked(self, who):
        """Whether the program asks whether a thread has ended, and not its library, as it does at the end of all."""
        call = self.within.get(who)
        return not self.own.has_library or call is not None and "join" in call.name

    def _answered(self, call):
        """What a wait until a time answered, a lock that was only tried, or a join that has failed; and who was detached."""
        if call.name == "pthread_detach" and call.result == 0:
            yield Row("detaches", "thread %d" % self.trace.value_before(call.arguments[0], call.first), "", self.place_of(call.at), rank=SHARED)
        answer = answer_name(call)
        if answer:
            yield Row("answers", "%s: %s" % (call.name, answer), "", self.place_of(call.at), rank=KEY)

    def _of_heap(self, call):
        if call.name in TAKING_BACK and call.arguments[0] and (call.name not in GIVING or call.result):
            rank = KEY if self._is_of_others(call) else SHARED
            yield Row("frees", self.word(call.arguments[0]).removeprefix("freed "), "", self.place_of(call.at), rank=rank)
        if call.name in GIVING:
            yield Row("allocates", self.word(call.result), "%08X" % call.result, self.place_of(call.at), rank=OWN)

    def _is_of_others(self, call):
        """Whether other threads have used the block that a call frees, or use it later."""
        block = self.heap.block(call.arguments[0])
        return block is not None and any(self.is_shared(addr) for addr in range(block.addr, block.addr + max(4, block.size), 4))

    # ------------------------------------------------------------ accesses

    def _access(self, a, who):
        if a.kind in (isa.OUT, isa.DEVICE, isa.CONSOLE):
            return
        call = self.within.get(who)
        self._look_at_block(a, who, call)
        if a.addr & ~3 in self.locks:
            yield from self._of_lock(a, who)
        elif self._is_in_lock(a.addr):
            return
        elif a.pc != NO_PC and self.own.is_code(a.pc):
            if self.own.is_data(a.addr) or self.is_shared(a.addr):
                word, place = self.word_of(a), self.place_of(a.pc)
                rank = KEY if self._is_first_to_gone(a, word, place) else SHARED if self.is_shared(a.addr) else OWN
                yield Row(verb(a.kind), word, values(a), place, note=self._freed_by(a), rank=rank)
        elif call and call.first not in self.told and call.name not in UNTOLD and (self._is_given(a, call) or self._is_kept(a, call)):
            self.told.add(call.first)
            text = self.call_text(call) if call.arguments[0] and self._is_given(a, call) else call.name + "(..)"
            yield Row("calls", text, "", self.place_of(call.at), rank=SHARED)

    def _is_first_to_gone(self, a, word, place):
        """Whether it stores to a stack that is gone, and is the first at its place to do so."""
        is_first = a.kind in isa.STORES and word.startswith(GONE) and (word, place) not in self.gone
        if is_first:
            self.gone.add((word, place))
        return is_first

    def _is_given(self, a, call):
        is_near = any(0 <= a.addr - given < REACH for given in call.arguments[:2])
        return is_near and (self.is_shared(a.addr) or call.name == "pthread_once")

    def _is_kept(self, a, call):
        """Whether it is to a variable that functions of the library keep for all threads, as strtok does."""
        if call.name in CHECKING or call.name.startswith("_") or not self.is_shared(a.addr):
            return False
        symbol = self.names.symbol(a.addr) if self.own.is_data(a.addr) and not self.own.is_heap(a.addr) else None
        return symbol is not None and symbol.name[0] != "_"

    def _look_at_block(self, a, who, call):
        """What the library's own checks load isn't a use: they look at blocks in malloc and free, and once main has returned."""
        if not (self.own.is_code(a.pc) or call and call.name not in CHECKING) or not self.own.is_heap(a.addr):
            return
        block, past = self.heap.block(a.addr), self.heap.before(a.addr + a.width - 1)
        if block and block.freed:
            self._note_use(who, "stores to" if a.kind in isa.STORES else "loads from", block, self.at.get(who, a.pc), a.step)
        elif past and a.kind in isa.STORES:
            self._note_use(who, PAST, past, self.at.get(who, a.pc), a.step)

    def _look_at_free(self, call):
        block = self.block(call.arguments[0])
        if block and block.freed and call.name in TAKING_BACK:
            self._note_use(call.who, "frees", block, call.at, call.first)

    def _note_use(self, who, what, block, pc, step):
        use = Use(who, what, block, pc, self.trace.commit_of(step), step)
        self.misuses.setdefault((block.addr, block.freed and block.freed.first, what, self.place_of(pc)), use)

    def _freed_by(self, a):
        """Of an access to a block that was freed: by whom."""
        block = self.block(a.addr)
        return "<- %s has freed it" % context_name(block.freed.who) if block and block.freed else ""

    def use_line(self, use):
        """For example `thread 2 stores to the block of list.c:30 (commit 8, put, list.c:12), which thread 1 has freed (commit 6, ..)`."""
        freed = use.block.freed
        head = "%s %s the %s (commit %d, %s)" % (
            context_name(use.who), use.what, block_name(self.names, use.block), use.commit.told, self.place_of(use.pc))
        return head + (", which %s has freed (commit %d, %s)" % (
            context_name(freed.who), self.trace.commit_of(freed.first).told, self.place_of(freed.at)) if freed else "")

    def is_lock(self, addr):
        """Whether a word is in a mutex or spin lock."""
        return addr & ~3 in self.locks or self._is_in_lock(addr)

    def _is_in_lock(self, addr):
        return any(lock < addr < lock + LOCK_BYTES for lock in self.locks)

    def _of_lock(self, a, who):
        if a.kind in (isa.SWAP, isa.SC):
            what = "gives back" if a.new == 0 else "takes" if a.old == 0 else "finds held"
            rank = KEY if what == "finds held" else SHARED
            yield Row(what, self.word(a.addr), "", self.place_of(self.at.get(who, a.pc)), rank=rank)

    def is_shared(self, addr):
        """Whether several threads touch a word."""
        word = addr & ~3
        if word not in self.touched:
            actors = {self.trace.context(self.trace.commit_of(self.trace.accesses[j].step)) for j in self.trace.words[word]}
            self.touched[word] = len(actors) > 1
        return self.touched[word]

    # ------------------------------------------------------------ what the kernel does

    def _served(self, commit, who):
        served, place = commit.served, self.place_of(self.at.get(who, self.trace.pcs[commit.first]))
        if served.output and served.output[1] and served.output[0] == CONSOLE_CHANNEL:
            yield Row("prints", repr(served.output[1].decode("utf-8", "replace"))[1:-1], "", place)
        elif served.name == "spawn" and served.result < 64:
            yield Row("starts", "thread %d" % served.result, "", place, rank=SHARED)
        elif served.name == "exit":
            yield Row("ends", "with %d" % served.arguments[0], "", "" if served.arguments[0] == 0 else place)
        elif served.name in ("fault", "break"):
            yield Row("faults", CAUSES.get(served.result, "cause %d" % served.result), "", place)
        elif served.name == "ended" and served.result == 1 and self._is_asked(who):
            yield Row("joins", "thread %d" % served.arguments[0], "", place, rank=SHARED)
        elif served.name == "clock":
            yield Row("reads", CLOCK, "%08X" % served.result, place, rank=SHARED)
        elif served.name not in QUIET:
            yield Row("asks", "the kernel: %s, answer %08X" % (served.name, served.result), "", place, rank=SHARED)

    # ------------------------------------------------------------ names

    def block(self, addr):
        return self.heap.block(addr) if self.own.is_heap(addr) else None

    def word(self, addr, width=4):
        """What so many bytes are as far as the story is told by now."""
        return self.naming.word_in(self.heap, addr, width, self.now)

    def place_of(self, pc):
        return self.names.place(pc)

    def word_of(self, a):
        """What an access is to, as far as the story is told by now."""
        return self.naming.access_in(self.heap, a, self.now)

    def call_text(self, call):
        count = 2 if call.name in TWO_ARGUMENTS else 1
        return "%s(%s)" % (call.name, ", ".join(map(self.word, call.arguments[:count])))


def add(rows, row):
    """Equal rows are one; and of looks at the clock at one place the last is told, as in a wait."""
    last = rows[-1]._replace(times=1, step=row.step) if rows else None
    if last == row or last and row.word == last.word == CLOCK and row.place == last.place:
        rows[-1] = rows[-1]._replace(times=rows[-1].times + 1, value=row.value)
    else:
        rows.append(row)


def hand_over(turns):
    """A lock that one thread gives back and another one takes next is told however long the story is."""
    last = {}  # of each lock: where its last row is, and whose it is
    for turn in turns:
        for j, row in enumerate(turn.rows):
            if row.what not in ("takes", "gives back", "finds held"):
                continue
            rows, at, who = last.get(row.word, (None, 0, turn.who))
            if who != turn.who and rows[at].what == "gives back":
                rows[at] = rows[at]._replace(rank=KEY)
                turn.rows[j] = row._replace(rank=KEY)
            last[row.word] = turn.rows, j, turn.who
