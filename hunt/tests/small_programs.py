"""Small random programs for tests of the search, and all that they can come to, found by trying every order."""

from collections import deque
import random
import struct

from lib.image import read_image
from lib.isa import CALL
from lib.machine import Machine

SIZE = 4096
SHARED, RESULTS = 0x400, 0x480  # words that all threads use; of each thread one of its own
OWN = 0x4A0                     # of each thread a word that no other one touches
END_OF_WORDS = 0x4C0
CODE_OF_THREAD = 0x100
EXIT, SPAWN = 0, 1


def addi(rd, rs, value):
    return 0x13 | rd << 7 | rs << 15 | (value & 0xFFF) << 20


def add(rd, a, b):
    return 0x33 | rd << 7 | a << 15 | b << 20


def slli(rd, rs, bits):
    return 0x1013 | rd << 7 | rs << 15 | bits << 20


def lw(rd, address):
    return 0x2003 | rd << 7 | address << 20


def sw(rs, address):
    return 0x2023 | rs << 20 | (address & 31) << 7 | (address >> 5) << 25


def atomic(kind, rd, base, rs):
    return 0x202F | kind << 27 | rd << 7 | base << 15 | rs << 20


def bne(a, b, away):
    imm = away & 0x1FFF
    return 0x1063 | a << 15 | b << 20 | (imm >> 12) << 31 | (imm >> 5 & 63) << 25 | (imm >> 1 & 15) << 8 | (imm >> 11 & 1) << 7


def beq(a, b, away):
    return bne(a, b, away) & ~0x1000


def jal(rd, away):
    imm = away & 0x1FFFFF
    return 0x6F | rd << 7 | (imm >> 20) << 31 | (imm >> 1 & 0x3FF) << 21 | (imm >> 11 & 1) << 20 | (imm >> 12 & 0xFF) << 12


ECALL = 0x73
ADD, SWAP, LR, SC = 0, 1, 2, 3


def call(number):
    return [addi(17, 0, number), ECALL]


def step(rng, thread=0):
    """A few instructions on a shared word, with x5 as what the thread has seen, x6 as base."""
    address = one_shared(rng)
    kind = rng.randrange(7)
    if kind == 0:
        return [lw(7, address), slli(5, 5, 2), add(5, 5, 7)]
    if kind == 1:
        return [addi(7, 0, rng.randrange(1, 4)), sw(7, address)]
    if kind == 2:
        return [lw(7, address), addi(7, 7, 1), sw(7, address)]
    if kind == 3:
        return [addi(6, 0, address), addi(7, 0, 1), atomic(rng.choice((ADD, SWAP)), 8, 6, 7), slli(5, 5, 2), add(5, 5, 8)]
    if kind == 4:
        return [addi(6, 0, address), atomic(LR, 7, 6, 0), addi(7, 7, 1), atomic(SC, 8, 6, 7), add(5, 5, 8)]
    if kind == 5:
        return [lw(7, address), bne(7, 0, 12), addi(7, 0, 1), sw(7, address)]
    return [addi(5, 5, 1)]


def waiting_step(rng, thread=0):
    """Waits until a shared word is set; or takes one as a lock, and gives it back."""
    address = one_shared(rng)
    kind = rng.randrange(3)
    if kind == 0:
        return [lw(7, address), beq(7, 0, -4)]
    if kind == 1:
        return [addi(6, 0, address), addi(7, 0, 1), atomic(SWAP, 8, 6, 7), bne(8, 0, -4), *step(rng), sw(0, address)]
    return step(rng)


def sees(address):
    return [lw(7, address), slli(5, 5, 2), add(5, 5, 7)]


def sets(address, value):
    return [addi(7, 0, value), sw(7, address)]


def one_shared(rng):
    return SHARED + 4 * rng.randrange(2)


def reserved(rng, thread):
    """An LR and an SC, mostly of the same word, often with accesses to shared words before and between them; the thread sees how
    the SC ended."""
    words = [OWN + 4 * thread, OWN + 4 * thread, SHARED, SHARED + 4]
    at = rng.choice(words)
    before = sets(one_shared(rng), 1) if rng.randrange(2) else []
    between = rng.choice((sees(one_shared(rng)), sees(one_shared(rng)), sets(one_shared(rng), 2), []))
    away = rng.choice(words) - at if rng.randrange(6) == 0 else 0
    return [*before, addi(6, 0, at), atomic(LR, 9, 6, 0), *between, addi(9, 9, 1), addi(6, 6, away), atomic(SC, 8, 6, 9),
            slli(5, 5, 1), add(5, 5, 8)]


def reserving_lock(rng, thread):
    """Takes a shared word as a lock by LR and SC, and gives it back."""
    address = one_shared(rng)
    return [addi(6, 0, address), atomic(LR, 7, 6, 0), bne(7, 0, -4), addi(7, 0, 1), atomic(SC, 8, 6, 7), bne(8, 0, -16),
            *step(rng), sw(0, address)]


def reserving_step(rng, thread):
    """LR and SC on a word of the thread's own or a shared one; or a lock, a waiting loop, or any other step."""
    kind = rng.randrange(8)
    if kind < 3:
        return reserved(rng, thread)
    if kind == 3:
        return reserving_lock(rng, thread)
    if kind < 6:
        return [*sees(one_shared(rng)), *sets(one_shared(rng), 1)]
    return waiting_step(rng) if kind == 6 else step(rng)


def random_program(seed, one_step=step, most=3):
    """Code words by address: two threads of up to so many steps each, or three threads of one less."""
    rng = random.Random(seed)
    threads = rng.choice((2, 2, 2, 3))
    code = {}
    for thread in range(threads):
        words = []
        if thread == 0:
            for other in range(1, threads):
                words += [addi(10, 0, CODE_OF_THREAD * other), addi(11, 0, 0), addi(12, 0, 0), *call(SPAWN)]
        for _ in range(rng.randrange(1, most + 1 if threads == 2 else most)):
            words += one_step(rng, thread)
        words += [sw(5, RESULTS + 4 * thread), addi(10, 0, 0), *call(EXIT)]
        for place, word in enumerate(words):
            code[CODE_OF_THREAD * thread + 4 * place] = word
    return code, threads


def elf(code):
    end = max(code) + 4
    memory = bytearray(end)
    for address, word in code.items():
        struct.pack_into("<I", memory, address, word)
    header = b"\x7fELF\1\1\1" + bytes(9) + struct.pack("<HHIIIIIHHHHHH", 2, 243, 1, 0, 52, 0, 0, 52, 32, 1, 0, 0, 0)
    return header + struct.pack("<8I", 1, 84, 0, 0, end, end, 7, 4) + bytes(memory)


def image_of(code):
    return read_image(elf(code), SIZE)


def outcome(machine, threads):
    words = [machine.words[(SHARED >> 2) + j] for j in range(2)]
    return tuple(words + [machine.words[(RESULTS >> 2) + j] for j in range(threads)])


def state_of(machine, current):
    threads = tuple((t.pc, tuple(t.x[:32]), t.reservation, t.status) for t in machine.threads)
    return bytes(machine.memory[SHARED:END_OF_WORDS]), threads, current


def end_chunk(machine, k):
    machine.threads[k].reservation = None


def take_step(machine, k):
    """One instruction of the thread, or its serial step."""
    if machine.run(k, 1) == 0:
        assert machine.stop == CALL
        machine.serve(k)
        end_chunk(machine, k)


def all_outcomes(code, threads):
    """Of each outcome the fewest forced switches that lead to it, where a switch may come before any instruction, and a chunk
    may end before any, at the cost of a switch."""
    return explored(code, threads)[0]


class TooMany(Exception):
    """The program has more states than were allowed."""


def explored(code, threads, most=1 << 30):
    """The outcomes with their costs, and whether there is a state from which no end can be reached. TooMany after `most` states."""
    machine, found, best, before = Machine(image_of(code)), {}, {}, {}
    ends = set()
    start = machine.save()
    queue = deque([(0, start, 0, None)])
    while queue:
        cost, saved, k, parent = queue.popleft()
        machine.restore(saved)
        key = state_of(machine, k)
        before.setdefault(key, set()).add(parent)
        if best.get(key, 1 << 30) <= cost:
            continue
        if len(best) > most:
            raise TooMany
        best[key] = cost
        live = [n for n, t in enumerate(machine.threads) if t.live()]
        if not live:
            found.setdefault(outcome(machine, threads), cost)
            ends.add(key)
            continue
        if machine.threads[k].live():
            for n in live:
                machine.restore(saved)
                if n != k or machine.threads[k].reservation is not None:
                    end_chunk(machine, k)
                    queue.append((cost + 1, machine.save(), n, key))
            machine.restore(saved)
            take_step(machine, k)
            queue.appendleft((cost, machine.save(), k, key))
        else:
            for n in live:
                queue.appendleft((cost, saved, n, key))
    return found, bool(set(before) - leading_to(ends, before))


def leading_to(ends, before):
    """The states from which one of the ends can be reached."""
    good, left = set(ends), list(ends)
    while left:
        for state in before[left.pop()] - {None}:
            if state not in good:
                good.add(state)
                left.append(state)
    return good
