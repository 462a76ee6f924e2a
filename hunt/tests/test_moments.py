"""A machine that is sent to and fro is each time as it was before, and a machine by hand does what a log's play does."""

import random
import unittest

import support
from lib import isa
from lib.logs import DMA
from lib.machine import Machine, fits
from lib.trace import Moment, Trace


class Moments(unittest.TestCase):
    def to_and_fro(self, name):
        trace = support.traced(name)
        moment, states = Moment(trace), []
        for step in range(trace.steps + 1):
            moment.seek(step)
            states.append(moment.machine.save())
            if step < trace.steps and moment.thread() is not None:
                self.assertEqual(moment.machine.threads[moment.thread()].pc, trace.pcs[step])
        for step in reversed(range(trace.steps + 1)):
            moment.step_back() if step < trace.steps else moment.seek(step)
            self.assertEqual(moment.machine.save(), states[step], step)
        shuffled = random.Random(1).sample(range(trace.steps + 1), trace.steps + 1)
        for step in shuffled:
            moment.seek(step)
            self.assertEqual(moment.machine.save(), states[step], step)
        self.assertEqual(states[0].memory, trace.image.memory)
        self.assertEqual(states[-1].memory, bytes(trace.machine.memory))
        self.assertEqual(states[-1], trace.machine.save())
        return trace, states

    def test_race(self):
        trace, states = self.to_and_fro("race, plan.toml")
        for step in range(trace.steps):  # each step changes memory as its accesses say
            memory = bytearray(states[step].memory)
            for a in trace.accesses:
                if a.step == step and a.kind in isa.STORES:
                    memory[a.addr & ~3 : (a.addr & ~3) + 4] = a.new.to_bytes(4, "little")
            self.assertEqual(states[step + 1].memory, bytes(memory))

    def test_others(self):
        for name in ("interrupt, plan.toml", "input, plan.toml", "calls, plan.toml", "two-threads, plan.toml"):
            with self.subTest(name):
                self.to_and_fro(name)


class ByHand(unittest.TestCase):
    def test_a_play_is_done_by_hand(self):
        """The commits of a trace, done one by one on a machine, with marks gone back to and states restored."""
        for r in support.recorded():
            image, log, played = support.played(r)
            machine, inputs, dmas, other = Machine(image, log.threads), list(log.inputs), list(log.dmas), Machine(image)
            moment = Moment(Trace(image, log, played))
            for commit in played.commits:
                moment.seek(commit.first)
                self.assertEqual(moment.machine.save(), machine.save(), (r.name, commit.number))
                for again in range(2):
                    mark = machine.mark()
                    state = machine.save()
                    self.by_hand(machine, commit, inputs[:], dmas[:])
                    if not again:
                        after = machine.save()
                        machine.back(mark)
                        self.assertEqual(machine.save(), state)
                    else:
                        self.assertEqual(machine.save(), after)
                if commit.served and commit.served.record:
                    inputs.pop(0)
                if commit.actor == DMA:
                    dmas.pop(0)
            self.assertEqual(machine.save(), played.machine.save())
            self.assertEqual((list(machine.pcs), machine.accesses), (list(played.machine.pcs), played.machine.accesses))
            other.restore(machine.save())
            self.assertEqual(other.save(), machine.save())

    def by_hand(self, machine, commit, inputs, dmas):
        k = commit.actor
        if k == DMA:
            machine.dma(dmas[0][1])
            return
        if commit.size:
            self.assertEqual(machine.serial(k), 0)
            self.assertEqual(machine.run(k, commit.size), commit.size)
        else:
            self.assertLess(machine.serial(k), 0)
            need = machine.need(k)
            if need:
                self.assertTrue(fits(need, inputs[0]))
            self.assertEqual(machine.serve(k, inputs[0] if need else None), commit.served)
        machine.end_commit(k)
        if commit.raised is not None:
            self.assertTrue(machine.interrupt(k, commit.raised))


if __name__ == "__main__":
    unittest.main()
