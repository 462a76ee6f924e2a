"""Small random programs with locks, also wrong ones. Some of their acquires are marked, as a library marks them in the section
.delorean.acquires: a swap that takes a lock, and is tried again until it gets a 0."""

import random
import struct

from small_programs import (CODE_OF_THREAD, EXIT, LR, RESULTS, SC, SHARED, SPAWN, SWAP, addi, atomic, beq, bne, call, lw, reserved,
                            sees, step, sw, waiting_step)

LOCKS = (SHARED + 0x10, SHARED + 0x14)
MARK = "mark"  # before an instruction that takes a lock


def taken(lock, marked):
    """A loop that takes the lock."""
    return [addi(6, 0, lock), addi(7, 0, 1), *([MARK] if marked else []), atomic(SWAP, 8, 6, 7), bne(8, 0, -4)]


def looked_and_taken(lock):
    """It tries, then looks until the word is 0, and tries again."""
    return [addi(6, 0, lock), addi(7, 0, 1), MARK, atomic(SWAP, 8, 6, 7), beq(8, 0, 20), lw(8, lock), bne(8, 0, -4),
            MARK, atomic(SWAP, 8, 6, 7), bne(8, 0, -12)]


def given_lock(lock):
    return [addi(6, 0, lock), atomic(SWAP, 0, 6, 0)]


def given(rng, lock):
    return [sw(0, lock)] if rng.randrange(2) else given_lock(lock)


def tried(rng, lock):
    """Tries once, and does something else if the lock is held. That isn't marked."""
    body = [*step(rng), *given(rng, lock)]
    return [addi(6, 0, lock), addi(7, 0, 1), atomic(SWAP, 8, 6, 7), bne(8, 0, 4 * len(body) + 4), *body, addi(5, 5, 1)]


def reserved_lock(rng, lock):
    return [addi(6, 0, lock), atomic(LR, 7, 6, 0), bne(7, 0, -4), addi(7, 0, 1), atomic(SC, 8, 6, 7), bne(8, 0, -16), *step(rng),
            *given(rng, lock)]


def locked_step(rng, disciplined):
    """Of a disciplined program nearly all steps on shared words are under one lock."""
    lock, other = LOCKS if disciplined else rng.sample(LOCKS, 2)
    kind, marked = rng.randrange(12), rng.randrange(4) > 0
    if disciplined and rng.randrange(8):
        kind = rng.choice((0, 0, 0, 5, 6, 8))
    take = looked_and_taken(lock) if rng.randrange(3) == 0 else taken(lock, marked)
    if kind < 5:
        return [*take, *step(rng), *(step(rng) if rng.randrange(2) else []), *given(rng, lock)]
    if kind == 5:
        return tried(rng, lock)
    if kind == 6:  # two of them
        return [*take, *taken(other, marked), *step(rng), *given(rng, other), *given(rng, lock)]
    if kind == 7:  # gives back what it may not have
        return given(rng, lock)
    if kind == 8:
        return sees(lock)
    if kind == 9:  # takes it, and may keep it
        return [*take, *step(rng), *([] if rng.randrange(3) == 0 else given(rng, lock))]
    return reserved_lock(rng, lock) if kind == 10 else step(rng)


def any_step(rng, thread, disciplined):
    kind = rng.randrange(8)
    if kind < 5:
        return locked_step(rng, disciplined)
    return reserved(rng, thread) if kind == 5 else waiting_step(rng) if kind == 6 else step(rng)


def locked_program(seed, most=3):
    """(code words by address, threads, addresses of marked acquires): two threads of up to so many steps each, or more threads of
    less each."""
    rng = random.Random(seed)
    threads = rng.choice((2, 2, 2, 3) if most < 4 else (2, 3, 3, 4))
    disciplined, code, marks = rng.randrange(2), {}, []
    for thread in range(threads):
        words = []
        if thread == 0:
            for other in range(1, threads):
                words += [addi(10, 0, CODE_OF_THREAD * other), addi(11, 0, 0), addi(12, 0, 0), *call(SPAWN)]
        for _ in range(rng.randrange(1, most + 3 - threads)):
            words += any_step(rng, thread, disciplined)
        words += [sw(5, RESULTS + 4 * thread), addi(10, 0, 0), *call(EXIT)]
        at = CODE_OF_THREAD * thread
        for word in words:
            if word == MARK:
                marks.append(at)
            else:
                code[at] = word
                at += 4
        assert at <= CODE_OF_THREAD * (thread + 1), "too long"
    return code, threads, marks


def with_marks(file, marks):
    """The ELF file with the section of marks."""
    names = b"\0.delorean.acquires\0.shstrtab\0"
    taken_at = struct.pack("<%dI" % len(marks), *marks)
    at = len(file)
    out = bytearray(file + taken_at + names)
    struct.pack_into("<I", out, 32, len(out))
    struct.pack_into("<HHH", out, 46, 40, 3, 2)
    out += bytes(40) + struct.pack("<10I", 1, 1, 0, 0, at, len(taken_at), 0, 0, 4, 0)
    out += struct.pack("<10I", 20, 3, 0, 0, at + len(taken_at), len(names), 0, 0, 1, 0)
    return bytes(out)
