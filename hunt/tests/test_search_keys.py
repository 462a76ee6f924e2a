"""Programs that come to two states which differ in one thing alone. If a state's key leaves it out, the search takes the second one
for the first, and loses an end. And programs of which an end needs that one kind of instruction is a place."""

import tempfile
import unittest

from all_ends import met_ends
from lib.conditions import read_condition
from lib.engine import Options
from lib.symbols import Names
from small_programs import CODE_OF_THREAD, EXIT, LR, OWN, SC, SPAWN, add, addi, atomic, beq, bne, call, jal, lw, slli, sw
from test_search import CAN_BUILD, NO_COMPILER, searched
from test_search_states import A, ANSWER, B, BUFFER, DELAY, ENDS, HANDLER, IRET, REQUEST, SEEN, SPAWNS, laid, sets

WRITE, READ, RANDOM, CLOCK, HAS_ENDED = 2, 3, 4, 5, 11
PIPE, CONSOLE, INPUT = 0, 8, 9
EBREAK = 0x100073
NOTHING_NOW, REFUSED = 0xFFFFFFFD, 0xFFFFFFFC
CLEARED = [addi(register, 0, 0) for register in (5, 6, 7, 8, 9, 10, 11, 12, 17)]
SAW = [sw(10, SEEN), *ENDS]


def if_seen(words):
    return [beq(7, 0, 4 * len(words) + 4), *words]


def calls(number, *values):
    return [*[addi(10 + place, 0, value) for place, value in enumerate(values)], *call(number)]


def waits_for(thread):
    return [*calls(HAS_ENDED, thread), beq(10, 0, -12)]


@unittest.skipUnless(CAN_BUILD, NO_COMPILER)
class Keys(unittest.TestCase):
    def met(self, *threads, **options):
        how, met, _ = met_ends(laid(*threads), Options(steps=100000, **options))
        self.assertEqual(how, "all")
        return met

    def seen(self, does, asks, **options):
        """B, and what thread 0 gets when it asks, with the fewest forced switches. Thread 1 does something if it sees A set, as it
        is for a moment; of that nothing is left in memory and registers. With more switches another state may lead to the end."""
        ends = self.met([*SPAWNS, *sets(A, 1), *sets(A, 0), *CLEARED, *asks, *SAW],
                        [lw(7, A), *does, *CLEARED, lw(9, B), *ENDS], [*ENDS], **options)
        return {end[1:3]: forced for end, forced in ends.items()}

    def test_clock(self):
        self.assertEqual(self.seen(if_seen(call(CLOCK)), call(CLOCK)), {(0, 64): 0, (0, 128): 1})

    def test_random_bytes(self):
        does = [*calls(RANDOM, OWN + 4, 1), sw(0, OWN + 4)]
        seen = self.seen(if_seen(does), [*calls(RANDOM, OWN, 1), lw(10, OWN)])
        self.assertEqual(sorted(seen.values()), [0, 1])

    def test_input(self):
        with tempfile.NamedTemporaryFile() as given:
            given.write(b"ab")
            given.flush()
            does = [*calls(READ, INPUT, OWN + 4, 1), sw(0, OWN + 4)]
            seen = self.seen(if_seen(does), [*calls(READ, INPUT, OWN, 1), lw(10, OWN)], input=given.name)
        self.assertEqual(seen, {(0, ord("a")): 0, (0, ord("b")): 1})

    def test_pipe(self):
        ends = self.seen([sw(7, OWN), *calls(WRITE, PIPE, OWN, 1), sw(0, OWN)], calls(READ, PIPE, B, 1))
        self.assertEqual(ends, {(0, NOTHING_NOW): 0, (0, 1): 1, (1, 1): 1})

    def test_which_pipe(self):
        """Thread 1 writes to pipe 0 or 1, and thread 0 reads both."""
        writes = [addi(10, 7, 0), addi(11, 0, OWN), addi(12, 0, 1), *call(WRITE)]
        ends = self.seen(writes, [*calls(READ, PIPE, OWN + 4, 1), sw(10, B), *calls(READ, PIPE + 1, OWN + 4, 1)])
        self.assertEqual(ends, {(NOTHING_NOW, NOTHING_NOW): 0, (1, NOTHING_NOW): 1, (NOTHING_NOW, 1): 1})

    def test_request(self):
        """Its buffer and length are 0, as if there were none."""
        ends = self.seen(if_seen(calls(REQUEST, 0, 0)), calls(REQUEST, BUFFER, 4))
        self.assertEqual(ends, {(0, 0): 0, (0, REFUSED): 1})

    def requested(self, *asks, **options):
        """What a DMA leaves of two words. Thread 1 requests it, with A in x7, and ends. Then thread 0 makes both 5, so a DMA before
        that leaves nothing."""
        ends = self.met([*SPAWNS, *sets(A, 1), *sets(A, 0), *waits_for(1), *sets(SEEN, 5), *sets(ANSWER, 5), *ENDS],
                        [lw(7, A), *asks, *call(REQUEST), *CLEARED, *ENDS], **options)
        return {end[2:]: forced for end, forced in ends.items()}

    def test_buffer_of_a_request(self):
        ends = self.requested(slli(10, 7, 2), addi(10, 10, SEEN), addi(11, 0, 0))
        self.assertEqual(ends, {(5, 5): 0, (0, 5): 0, (5, 0): 1})

    def test_length_of_a_request(self):
        """A DMA between the two stores is one forced switch more."""
        with tempfile.NamedTemporaryFile() as given:
            given.write(b"ab")
            given.flush()
            ends = self.requested(addi(10, 0, SEEN), addi(11, 7, 0), input=given.name)
        self.assertEqual(ends, {(5, 5): 0, (0, 5): 0, (1, ord("a")): 1, (1, 5): 2})

    def test_number_of_threads(self):
        spawns = calls(SPAWN, 2 * CODE_OF_THREAD, 0, 0)
        how, met, _ = met_ends(laid([*SPAWNS, *sets(A, 1), *sets(A, 0), *CLEARED, *spawns, *SAW],
                                    [lw(7, A), *if_seen(spawns), *CLEARED, lw(9, B), *ENDS], [*ENDS]))
        self.assertEqual((how, {end[2] for end in met}), ("all", {2, 3}))

    def reserved(self, *words):
        """Thread 1 sees A first; what it sees of B later shows whether thread 0 has ended by then."""
        met = met_ends(laid([*SPAWNS, *sets(A, 1), *sets(A, 0), *sets(B, 1), *ENDS],
                            [lw(7, A), *words, sw(8, ANSWER), sw(9, SEEN), *ENDS]))
        return {end[2:]: forced for end, forced in met[1].items()}

    def test_reservation(self):
        """It is of another word if A was seen as 1, and that is the word of the SC."""
        ends = self.reserved(slli(7, 7, 2), addi(6, 7, OWN), atomic(LR, 9, 6, 0), *CLEARED, lw(9, B), addi(6, 0, OWN + 4),
                             atomic(SC, 8, 6, 0))
        self.assertEqual(set(ends), {(0, 0), (0, 1), (1, 0), (1, 1)})

    def test_age_of_a_reservation(self):
        """Two delays of more than 2,000 steps are too long for a chunk, and without the first one the SC succeeds."""
        delay = [addi(9, 0, 1050), *DELAY[1:]]
        ends = self.reserved(addi(6, 0, OWN), atomic(LR, 9, 6, 0), bne(7, 0, 16), *delay, *CLEARED[2:4], lw(5, B), addi(9, 0, 1050),
                             *DELAY[1:], atomic(SC, 8, 6, 0), addi(9, 5, 0))
        self.assertEqual(ends, {(0, 0): 1, (0, 1): 1, (1, 0): 2, (1, 1): 0})

    def ends_so(self, does, *conditions):
        """Thread 1 looks at A, which is set for a moment, and ends. Thread 0 waits for that, and is then in the same state."""
        image = laid([*SPAWNS, *sets(A, 1), *sets(A, 0), *waits_for(1), *ENDS], [lw(7, A), *does])
        for text in conditions:
            condition = read_condition(["word %X = 0 and %s" % (A, text)], Names(image))
            self.assertEqual(searched(image, condition).how, "found", text)

    def test_exit_code(self):
        self.ends_so([addi(10, 7, 0), *call(EXIT)], "exit 1 = 0", "exit 1 = 1")

    def test_exit_and_fault(self):
        """Both with a 3, that of EBREAK."""
        self.ends_so([*if_seen([EBREAK]), *calls(EXIT, 3)], "exit 1 = 3", "fault 1 = 3")

    def test_console(self):
        writes = calls(WRITE, CONSOLE, OWN, 1)
        self.ends_so([addi(9, 0, ord("x")), sw(9, OWN), *if_seen(writes), *CLEARED, *ENDS], "console != x", "console = x")


@unittest.skipUnless(CAN_BUILD, NO_COMPILER)
class Interrupts(unittest.TestCase):
    def met(self, main, handler, *values, other=()):
        how, met, _ = met_ends(laid([addi(10, 0, CODE_OF_THREAD), *call(HANDLER), *main, *ENDS], [*handler, *call(IRET)], other),
                               Options(steps=100000, raises=tuple((0, value) for value in values)))
        self.assertEqual(how, "all")
        return {end[2] for end in met}

    def test_saved_pc(self):
        """The handler's 1 is lost, if it comes before thread 0 sets the register to 0."""
        self.assertEqual(self.met([addi(5, 0, 0), sw(5, SEEN)], [addi(5, 0, 1)], 1), {0, 1})

    def test_which_have_come(self):
        """The first one changes nothing, and the second one, which comes after it, only something if x5 is set."""
        self.assertEqual(self.met([addi(17, 0, IRET), addi(5, 0, 1), addi(0, 0, 0), addi(0, 0, 0), 0],
                                  [addi(10, 10, -1), beq(10, 0, 16), beq(5, 0, 12), addi(9, 0, 7), sw(9, SEEN)], 1, 2), {0, 7})

    def of_two(self, main, handler, values=(1, 0)):
        """What is left in SEEN and ANSWER if the interrupt is thread 1's; thread 0 stores the values to A, and then sets B."""
        stores = [word for value in values for word in sets(A, value)]
        how, met, _ = met_ends(laid([*SPAWNS, *stores, *sets(B, 1), *ENDS], [*main, *ENDS], [*handler, *call(IRET)]),
                               Options(steps=100000, raises=((1, 5),)))
        self.assertEqual(how, "all")
        return {end[2:] for end in met}

    def test_handler(self):
        """Thread 1 has a handler only if it sees A set, and that does something only if thread 0 has ended by then."""
        sets_handler = [addi(10, 0, 2 * CODE_OF_THREAD), *call(HANDLER)]
        ends = self.of_two([lw(7, A), *if_seen(sets_handler), *CLEARED, lw(9, B), addi(0, 0, 0)], [beq(9, 0, 8), sw(10, SEEN)])
        self.assertEqual(ends, {(0, 0), (5, 0)})

    def test_saved_registers(self):
        """Thread 1 has what it has seen of A in a0 or a1 alone, when the interrupt comes. The handler looks at B, if x9 tells that
        the word isn't stored yet."""
        for register in 10, 11:
            ends = self.of_two([addi(10, 0, 2 * CODE_OF_THREAD), *call(HANDLER), addi(9, 0, 1), lw(register, A), addi(9, 0, 0),
                                sw(register, ANSWER)],
                               [addi(11, 0, 0), beq(9, 0, 12), lw(8, B), sw(8, SEEN)], values=(1, 2, 0))
            self.assertEqual(ends, {(seen, answer) for seen in (0, 1) for answer in (0, 1, 2)}, register)

    def test_masked(self):
        """Whoever leaves a handler without IRET gets no interrupt any more."""
        self.assertEqual(self.met([addi(0, 0, 0)], [lw(9, SEEN), addi(9, 9, 1), sw(9, SEEN), *ENDS], 1, 2), {0, 1})

    def test_masked_at_address_0(self):
        """An interrupt there with 0 in a0 and a1 saves nothing but 0. The thread jumps to 0 with a link in x12, which is cleared
        there, so its handler knows. If the interrupt came before, to another handler, the thread jumps to this one itself, with
        the same registers; and there IRET is refused."""
        link = 4 * 12
        sets_up = [addi(10, 0, 2 * CODE_OF_THREAD), *call(HANDLER), addi(10, 0, CODE_OF_THREAD), *call(HANDLER), addi(5, 0, 1),
                   addi(10, 0, 0), addi(17, 0, 0), jal(12, 4 - link)]
        jumps = [addi(14, 0, 0), addi(17, 0, 0), addi(10, 0, 1), addi(12, 0, link), jal(0, CODE_OF_THREAD - link - 20)]
        how, met, _ = met_ends(laid([addi(12, 0, 0), bne(5, 0, link - 4), *sets_up, beq(14, 0, 24), *jumps, sw(9, SEEN), *ENDS],
                                    [beq(12, 0, 8), addi(9, 0, 7), *call(IRET), addi(9, 9, 1), sw(9, SEEN), *ENDS],
                                    [addi(14, 0, 1), *call(IRET)]), Options(steps=100000, raises=((0, 1),)))
        self.assertEqual((how, {end[2] for end in met}), ("all", {0, 7, 8}))


@unittest.skipUnless(CAN_BUILD, NO_COMPILER)
class Places(unittest.TestCase):
    def ends(self, *threads, **options):
        how, met, hang = met_ends(laid(*threads), Options(steps=100000, **options))
        self.assertEqual((how, hang), ("all", False))
        return set(met)

    def parted(self, does, asks, first, second, **options):
        """Thread 1 sets A, and then does something. Thread 0 may ask between the two; or thread 1 does both before thread 0 asks,
        and after it has looked at A. The answers: thread 0's and thread 1's, if thread 0 is the first one and if it is the second."""
        ends = self.ends([*SPAWNS, lw(9, A), *asks, sw(9, B), *SAW], [*sets(A, 1), *does, sw(10, ANSWER), *ENDS], [*ENDS], **options)
        self.assertIn((1, 1, *first), ends)
        self.assertIn((1, 0, *second), ends)

    def test_calls(self):
        spawns = calls(SPAWN, 2 * CODE_OF_THREAD, 0, 0)
        self.parted(call(CLOCK), call(CLOCK), (64, 128), (128, 64))
        self.parted(calls(REQUEST, BUFFER, 4), calls(REQUEST, BUFFER, 4), (0, REFUSED), (REFUSED, 0))
        self.parted(calls(WRITE, PIPE, OWN, 1), calls(READ, PIPE, OWN + 4, 1), (NOTHING_NOW, 1), (1, 1))
        self.parted(calls(READ, PIPE, OWN, 1), calls(WRITE, PIPE, OWN + 4, 1), (1, 1), (1, NOTHING_NOW))
        self.parted([*ENDS], calls(HAS_ENDED, 1), (0, 0), (1, 0))
        self.parted([0], calls(HAS_ENDED, 1), (0, 0), (1, 0))
        ends = self.ends([*SPAWNS, lw(9, A), *spawns, sw(9, B), *SAW], [*sets(A, 1), *spawns, sw(10, ANSWER), *ENDS], [*ENDS])
        self.assertTrue({(1, 1, 2, 3), (1, 0, 3, 2)} <= {end[:4] for end in ends})

    def test_outside(self):
        with tempfile.NamedTemporaryFile() as given:
            given.write(b"ab")
            given.flush()
            reads = [[*calls(READ, INPUT, at, 1), lw(10, at)] for at in (OWN, OWN + 4)]
            self.parted(*reads, (ord("a"), ord("b")), (ord("b"), ord("a")), input=given.name)
        draws = [[*calls(RANDOM, at, 1), lw(10, at)] for at in (OWN, OWN + 4)]
        (alone,) = self.ends([*draws[0], sw(10, A), *draws[0], *SAW])
        first, second = alone[0], alone[2]
        self.parted(*draws, (first, second), (second, first))

    def test_ends_that_are_waited_for(self):
        """A thread that is known to wait goes on once what it asks for is there."""
        ends = self.ends([*SPAWNS, *calls(HAS_ENDED, 1), beq(10, 0, -12), *SAW], [lw(9, A), *ENDS])
        self.assertEqual({end[2] for end in ends}, {1})
        reads = [*calls(READ, PIPE, OWN, 1), addi(9, 0, 1), bne(10, 9, -24)]
        for waits in [], waits_for(0):
            ends = self.ends([*SPAWNS, *reads, *SAW], [lw(9, A), *calls(WRITE, PIPE, OWN + 4, 1), *waits, *ENDS])
            self.assertEqual({end[2] for end in ends}, {1})

    def test_device(self):
        moment = [0xF0000000 | 6 << 7 | 0x37, 0x2003 | 10 << 7 | 6 << 15]  # lui and lw
        self.parted(moment, moment, (64, 128), (128, 64))

    def test_changed_code(self):
        """Thread 1 makes the 1 that thread 0 loads a 2, maybe after thread 0 has looked at A."""
        changed, other = 4 * (len(SPAWNS) + 1), 2 * CODE_OF_THREAD
        ends = self.ends([*SPAWNS, lw(9, A), addi(10, 0, 1), sw(9, B), *SAW], [*sets(A, 1), lw(7, other), sw(7, changed), *ENDS],
                         [addi(10, 0, 2)])
        self.assertEqual({end[1:3] for end in ends}, {(0, 1), (0, 2), (1, 1), (1, 2)})

    def test_dma(self):
        """The DMA clears the word before the thread loads it, or after that."""
        ends = self.ends([addi(9, 0, 5), sw(9, SEEN + 64), *calls(REQUEST, SEEN + 64, 0), lw(10, SEEN + 64), *SAW])
        self.assertEqual({end[2] for end in ends}, {0, 5})


if __name__ == "__main__":
    unittest.main()
