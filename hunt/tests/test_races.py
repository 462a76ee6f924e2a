"""Races are those of an independent model, which has each edge of the order and follows them one by one."""

import random
import unittest

import support
from lib import isa
from lib.clocks import AQ, RL, is_acquire_fence, is_release_fence
from lib.logs import ORDER_SIZE, Log
from lib.machine import REFUSED, Machine
from lib.play import play
from lib.races import Races
from lib.trace import Trace
from small_programs import ADD, EXIT, LR, SC, SHARED, SPAWN, SWAP, addi, atomic, beq, call, image_of, lw, sw
from test_guide import HAS_LINES

FULL, BEFORE_STORE, AFTER_LOAD, STORES_ONLY = 0x0FF0000F, 0x0310000F, 0x0230000F, 0x0110000F
ENDED = 11
CODE = 0x100


def bits(rng):
    return rng.choice((0, AQ, RL, AQ | RL))


DATA, FLAGS = [SHARED, SHARED + 4], [SHARED + 8, SHARED + 12]


def some_steps(rng):
    """A load or store of data, or what might order it: a fence, or an atomic instruction, or a plain access with a fence."""
    data, flag, kind = rng.choice(DATA), rng.choice(FLAGS), rng.randrange(11)
    if kind < 5:
        return [lw(7, data) if kind < 2 else sw(7, data)]
    if kind == 5:
        return [rng.choice((FULL, BEFORE_STORE, AFTER_LOAD, STORES_ONLY))]
    if kind == 6:
        return [BEFORE_STORE, sw(7, flag)]
    if kind == 7:
        return [lw(7, flag), AFTER_LOAD]
    if kind == 8:
        return [addi(6, 0, flag), atomic(LR, 7, 6, 0) | bits(rng), atomic(SC, 8, 6, 7) | bits(rng)]
    return [addi(6, 0, flag), atomic(rng.choice((ADD, SWAP)), rng.choice((0, 8)), 6, 7) | bits(rng)]


def random_run(seed):
    """A Trace of three threads that are done in a random order, one or two instructions at a time."""
    rng, code = random.Random(seed), {}
    for thread in range(3):
        words = []
        for other in (1, 2) if thread == 0 else ():
            words += [addi(10, 0, CODE * other), addi(11, 0, 0), addi(12, 0, 0), *call(SPAWN)]
            words += some_steps(rng)
        for _ in range(rng.randrange(3, 9)):
            words += some_steps(rng)
        if thread == 0 and rng.randrange(2):
            words += [addi(10, 0, 1), *call(ENDED), beq(10, 0, -12), *some_steps(rng)]
        words += [addi(10, 0, 0), *call(EXIT)]
        code.update({CODE * thread + 4 * place: word for place, word in enumerate(words)})
    image = image_of(code)
    return traced(image, rng)


def traced(image, rng):
    machine, order, sizes = Machine(image), [], []
    while any(t.live() for t in machine.threads) and len(order) < 400:
        k = rng.choice([k for k, t in enumerate(machine.threads) if t.live()])
        ran = machine.run(k, rng.randrange(1, 6))
        if not ran:
            machine.serve(k)
        machine.end_commit(k)
        order.append(k)
        sizes.append(ran)
    log = Log(1, 15, ORDER_SIZE, 4096, len(order), order, sizes, {}, [], [])
    return Trace(image, log, play(image, log))


# ---------------------------------------------------------------- the model


class Model:
    """Each step as a node, with the set of the steps that come before it, as bits of a number."""

    def __init__(self, trace):
        self.trace = trace
        self.word = [trace.image.memory[pc : pc + 4] for pc in trace.pcs]
        self.word = [int.from_bytes(word, "little") for word in self.word]
        self.thread = [trace.commit_of(step).actor for step in range(trace.steps)]
        self.access = {a.step: a for a in trace.accesses}
        self.edges = {step: set() for step in range(trace.steps)}
        self.program_order()
        self.calls()
        self.synchronises()
        self.before = []
        for step in range(trace.steps):
            mine = 1 << step
            for other in self.edges[step]:
                mine |= self.before[other]
            self.before.append(mine)

    def steps_of(self, k):
        return [step for step in range(self.trace.steps) if self.thread[step] == k]

    def program_order(self):
        for k in set(self.thread):
            mine = self.steps_of(k)
            for first, second in zip(mine, mine[1:]):
                self.edges[second].add(first)

    def calls(self):
        for commit in self.trace.commits:
            served = commit.served
            if served and served.name == "spawn" and served.result != REFUSED:
                for step in self.steps_of(served.result)[:1]:
                    self.edges[step].add(commit.first)
            if served and served.name == "ended" and served.result == 1:
                self.edges[commit.first].add(self.steps_of(served.arguments[0])[-1])

    def is_exchange(self, step):
        a = self.access[step]
        return a.kind in (isa.AMO, isa.SC) or (a.kind == isa.SWAP and self.word[step] >> 7 & 31 != 0)

    def looks(self, step):
        return self.access[step].kind in (isa.LOAD, isa.LR) or (self.access[step].kind != isa.SC_FAILED and self.is_exchange(step))

    def store_before(self, addr, step):
        stores = [s for s, a in self.access.items() if s < step and a.addr == addr and a.kind in isa.STORES]
        return max(stores, default=None)

    def heads(self, step):
        """The stores whose releases a look at this step acquires."""
        found, store = [], self.store_before(self.access[step].addr, step)
        while store is not None:
            found.append(store)
            store = self.store_before(self.access[store].addr, store) if self.is_exchange(store) else None
        return found

    def synchronises(self):
        for step in [s for s in self.access if self.looks(s)]:
            fences = [s for s in self.steps_of(self.thread[step]) if s > step and is_acquire_fence(self.word[s])]
            has_aq = self.access[step].kind != isa.LOAD and self.word[step] & AQ
            gains = fences[:1] + ([step] if has_aq else [])
            for head in self.heads(step):
                fences = [s for s in self.steps_of(self.thread[head]) if s < head and is_release_fence(self.word[s])]
                has_rl = self.access[head].kind != isa.STORE and self.word[head] & RL
                for gain in gains:
                    self.edges[gain].update(fences[-1:] + ([head] if has_rl else []))

    def is_atomic(self, step, words):
        a = self.access[step]
        near = self.word_at(a.pc + 4) if a.kind == isa.LOAD else self.word_at(a.pc - 4)
        is_fenced = is_acquire_fence(near) if a.kind == isa.LOAD else a.kind == isa.STORE and is_release_fence(near)
        return a.addr in words or is_fenced

    def word_at(self, pc):
        return int.from_bytes(self.trace.image.memory[pc : pc + 4], "little")

    def races(self):
        """(word, pc, kind) of each access that an earlier one isn't ordered before."""
        plain = (isa.LOAD, isa.STORE)
        words, found = {a.addr for a in self.access.values() if a.kind not in plain}, set()
        for second, b in self.access.items():
            for first, a in self.access.items():
                is_pair = first < second and a.addr == b.addr and isa.SC_FAILED not in (a.kind, b.kind)
                has_store = a.kind in isa.STORES or b.kind in isa.STORES
                both_atomic = self.is_atomic(first, words) and self.is_atomic(second, words)
                if is_pair and has_store and not both_atomic and not self.before[second] >> first & 1:
                    found.add((b.addr, b.pc, b.kind))
        return found


class Random(unittest.TestCase):
    def test_as_the_model_says(self):
        racy = 0
        for seed in range(300):
            trace = random_run(seed)
            self.assertEqual(trace.end[0], "complete", seed)
            found = {(race.word, race.second[1].pc, race.second[1].kind) for race in Races(trace).found()}
            self.assertEqual(found, Model(trace).races(), seed)
            racy += bool(found)
        self.assertGreater(racy, 50)
        self.assertLess(racy, 300)


class Fences(unittest.TestCase):
    def test_which_is_which(self):
        self.assertEqual([(is_release_fence(w), is_acquire_fence(w)) for w in (FULL, BEFORE_STORE, AFTER_LOAD, STORES_ONLY, 0x0F50000F)],
                         [(True, True), (True, False), (False, True), (False, False), (True, False)])
        self.assertFalse(is_acquire_fence(lw(7, SHARED)))


def words(name, atomic=()):
    trace = support.traced(name)
    named = [word for text in atomic for word in trace.names.words(text)]
    found = Races(trace, named).found()
    return sorted({trace.names.name(race.word) for race in found})


class Examples(unittest.TestCase):
    def test_race(self):
        self.assertEqual(words("race, plan.toml"), ["counter", "lock"])
        self.assertEqual(words("race, plan.toml", ["lock"]), ["counter"])
        self.assertEqual(words("race, mended.toml"), [])

    def test_release(self):
        self.assertEqual((words("release, plan.toml"), words("release, mended.toml")), (["counter"], []))

    def test_a_missing_fence(self):
        """Mended, it is right on this machine, but nothing orders the settings and the pointer to them elsewhere."""
        parts = ["room.limit", "room.step"] if HAS_LINES else ["room", "room+0x4"]
        self.assertEqual(words("once, mended.toml"), [*parts, "settings"])
        self.assertEqual(words("once, mended.toml", ["settings"]), parts)

    def test_the_count_of_a_dma(self):
        self.assertEqual((words("input, plan.toml"), words("calls, plan.toml")), ([], []))

    def test_many_threads(self):
        self.assertEqual(words("many-threads, plan.toml"), [])

    def test_interrupts_are_of_their_thread(self):
        recording = next(r for r in support.recorded() if r.image.name == "ticks.elf")
        image, log, played = support.played(recording)
        self.assertEqual(Races(Trace(image, log, played)).found(), [])


if __name__ == "__main__":
    unittest.main()
