"""Primitives that are broken on purpose: the search finds each of them, with the program that clears the right one of all orders."""

from collections import namedtuple
from pathlib import Path
import shutil
import tempfile
import unittest

from support import SDK, SEARCHED, Case, Failed, searched

# An edit of a file of sdk/lib or sdk/include; sources: what of sdk/lib is compiled with it, if it isn't the file itself.
Mutant = namedtuple("Mutant", "what file old new program flags sources", defaults=((),))

MUTANTS = [
    Mutant("a lock that lets two in", "include/pthread.h", "while (DELOREAN_TAKE(m_->word))", "if (__atomic_exchange_n(&m_->word, 1, 5))",
           "mutex", "-DTHREADS=3 -DROUNDS=1"),
    Mutant("a lock taken by a load and a store", "include/delorean/lock.h", "amoswap.w.aqrl %0, %0, (%1)", "lw %0, (%1)\\n sw %2, (%1)",
           "mutex", "-DTHREADS=2 -DROUNDS=1"),
    Mutant("a lock given back before it is", "include/pthread.h", "int r_ = __delorean_gives(m_);",
           "DELOREAN_GIVE(m_->word); int r_ = __delorean_gives(m_);", "mutex", "-DTHREADS=3 -DROUNDS=1"),
    Mutant("a recursive lock that is given back at once", "lib/mutex.c", "m->depth--;\n            return -1;", "m->depth--;\n            return 0;",
           "kinds", "-DTHREADS=2 -DKIND=1"),
    Mutant("a try that takes what is held", "lib/mutex.c", "if (SWAP(m->word, 1))\n        return EBUSY;", "SWAP(m->word, 1);",
           "kinds", "-DTHREADS=2 -DKIND=0"),
    Mutant("a signal that wakes two", "lib/condition.c", "next_woken(word) + 1)", "next_woken(word) + 2)", "signal", "-DTHREADS=2"),
    Mutant("a wake-up lost, since the waiter comes after it has given back", "lib/condition.c",
           "    unsigned number = come(c);\n    pthread_mutex_unlock(m);\n    begin_wait(CONDITION, c, CALLER);\n    ask",
           "    pthread_mutex_unlock(m);\n    unsigned number = come(c);\n    begin_wait(CONDITION, c, CALLER);\n    ask", "signal", "-DTHREADS=2"),
    Mutant("a broadcast that wakes one", "lib/condition.c", "woken_up_to(word, next_comes(word))", "woken_up_to(word, next_woken(word) + 1)",
           "broadcast", "-DTHREADS=2"),
    Mutant("a broadcast that overwrites who comes", "lib/condition.c", "while (STORE_CONDITIONAL(c->word, woken_up_to(word, next_comes(word))));",
           "while (STORE(c->word, woken_up_to(word, next_comes(word))), 0);", "broadcast", "-DTHREADS=2"),
    Mutant("a late waiter that leaves its number behind", "lib/condition.c", "late = late && give_up(c, number);", "", "timed", "-DAFTER"),
    Mutant("a late waiter that wakes another in its place", "lib/condition.c", "late = late && give_up(c, number);",
           "if (late) pthread_cond_signal(c);", "timed", "-DAFTER"),
    Mutant("a barrier that lets one by", "lib/barrier.c", "+ 1 == b->needed", "+ 2 == b->needed", "barrier", "-DTHREADS=2 -DROUNDS=1"),
    Mutant("a barrier without rounds", "lib/barrier.c", "(round + 1) << 16", "0", "barrier", "-DTHREADS=2 -DROUNDS=2"),
    Mutant("a barrier that miscounts", "lib/barrier.c", "ADD(b->word, 1), round = word >> 16;",
           "LOAD(b->word), round = word >> 16; STORE(b->word, word + 1);", "barrier", "-DTHREADS=2 -DROUNDS=1"),
    Mutant("readers beside a writer", "lib/rwlock.c", "if (word & WRITES)\n            return is_busy();", "", "rwlock", "-DWRITERS=1 -DREADERS=1"),
    Mutant("a writer beside readers", "lib/rwlock.c", "if (LOAD_RESERVED(l->word))", "if (LOAD_RESERVED(l->word) & WRITES)", "rwlock",
           "-DWRITERS=1 -DREADERS=1"),
    Mutant("two writers", "lib/rwlock.c", "while (STORE_CONDITIONAL(l->word, WRITES));", "while (STORE(l->word, WRITES), 0);", "rwlock",
           "-DWRITERS=2 -DREADERS=0"),
    Mutant("a writer that leaves as a reader", "lib/rwlock.c", "(void)SWAP(l->word, 0);", "(void)ADD(l->word, -1);", "rwlock",
           "-DWRITERS=1 -DREADERS=1"),
    Mutant("a spin lock that lets two in", "lib/spin.c", "while (DELOREAN_TAKE(*l))", "if (SWAP(*l, 1))", "spin", "-DTHREADS=3 -DTRIES=0"),
    Mutant("once, twice", "lib/once.c", "__atomic_fetch_or(&o->word, RUNS, __ATOMIC_SEQ_CST)", "o->word; STORE(o->word, was | RUNS)", "once",
           "-DTHREADS=2"),
    Mutant("once, not waited for", "lib/once.c", "WAIT_WHILE(LOAD(o->word) != DONE);", "", "once", "-DTHREADS=2"),
    Mutant("a token taken twice", "lib/semaphore.c", "while (STORE_CONDITIONAL(s->value, value - 1));", "while (STORE(s->value, value - 1), 0);",
           "semaphore", "-DTHREADS=3 -DTOKENS=2"),
    Mutant("a post that is lost", "lib/semaphore.c", "(void)ADD(s->value, 1);", "STORE(s->value, LOAD(s->value) + 1);", "semaphore",
           "-DTHREADS=2 -DTOKENS=2"),
    Mutant("a join that doesn't wait", "lib/thread.c", "WAIT_WHILE(!is_over(t));", "", "join", "-DPTHREADS=2"),
    Mutant("an end that is read twice", "lib/thread.c", "has_stopped(LOAD(t->over))", "LOAD(t->over) != WORKS && LOAD(t->over) != BEGINS", "join",
           "-DPTHREADS=4 --threads 3"),
    Mutant("variables that a thread before has left", "lib/thread.c", "memset(tp_of(t), 0, __numbers.tls_room);", "", "join",
           "-DPTHREADS=4 --threads 3"),
    Mutant("a byte stored with its neighbours", "lib/small_atomics.c", "while (STORE_CONDITIONAL(*w, laid(word, shift, (T)-1, (unsigned)(operation))));",
           "while (STORE(*w, laid(word, shift, (T)-1, (unsigned)(operation))), 0);", "atomics", "-DTHREADS=2 -DWIDE=0"),
    Mutant("eight bytes without a lock", "lib/large_atomics.c", "while (DELOREAN_TAKE(taken))", "while (0)", "atomics", "-DTHREADS=2 -DWIDE=1"),
    Mutant("a block given out twice", "lib/heap.c", "ADD(common_taken, room)", "common_taken; STORE(common_taken, at + room)", "heap",
           "-DTHREADS=2 --heap 256"),
    Mutant("one list of freed blocks for all", "lib/heap.c", "me()->freed[list_of", "thread_of(0)->freed[list_of", "heap", "-DTHREADS=2 -DHANDED"),
    Mutant("a program's end that main doesn't see", "lib/wait.h", "if (me()->slot == 0 && LOAD(__program_over))", "if (0)", "exit", "",
           ("condition.c",)),
]


def edited(mutant, folder):
    """Writes the file with its edit to the folder, and gives the words that compile it in place of the library's own."""
    path = SDK / mutant.file
    text = path.read_text()
    if mutant.old not in text:
        raise Failed("the edit finds nothing")
    to = Path(folder) / Path(*Path(mutant.file).parts[1:])
    to.parent.mkdir(exist_ok=True)
    to.write_text(text.replace(mutant.old, mutant.new))
    sources = [to] if to.suffix == ".c" else []
    for name in mutant.sources:
        sources.append(shutil.copy(SDK / "lib" / name, folder))
    return ["-O1", "-w", "-fno-builtin", "-I", folder, "-I", SDK / "lib", *sources]


def hunted(mutant):
    with tempfile.TemporaryDirectory() as folder:
        return searched(SEARCHED / (mutant.program + ".c"), *mutant.flags.split(), *edited(mutant, folder))


class Mutants(Case):
    def test_each_is_found(self):
        self.each(MUTANTS, hunted, lambda _, found: self.assertEqual(found.status, 0, found.text))

    def test_a_wait_that_rests_on_its_signal(self):
        """`if` in place of `while` around a wait: only --spurious shows it."""
        self.assertClear(searched(SEARCHED / "wait.c", "-DWAIT=if"))
        self.assertEqual(searched(SEARCHED / "wait.c", "-DWAIT=if", "--spurious").status, 0)


if __name__ == "__main__":
    unittest.main()
