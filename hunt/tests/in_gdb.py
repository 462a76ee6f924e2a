"""What the tests have gdb-multiarch do on the race, from inside gdb: OUT is the file that takes what was seen, STEPS the number
of steps of the run."""

import json
import re

import gdb

NAMES = ("zero ra sp gp tp t0 t1 t2 fp s1 a0 a1 a2 a3 a4 a5 a6 a7 s2 s3 s4 s5 s6 s7 s8 s9 s10 s11 t3 t4 t5 t6 pc").split()


def do(command):
    return gdb.execute(command, to_string=True)


def here():
    """The thread, as gdb numbers it, and its registers."""
    frame = gdb.newest_frame()
    return [gdb.selected_thread().num, [int(frame.read_register(name)) & 0xFFFFFFFF for name in NAMES]]


def refused(command):
    """Whether gdb says that a command can't be done."""
    try:
        do(command)
        return False
    except gdb.error:
        return True


def counter():
    return int(gdb.parse_and_eval("*(unsigned *)&counter"))


def to_the_store():
    """Back from the end to the store of commit 22, which lays thread 1's 8 over thread 2's 13; what the counter was after it."""
    while True:
        after = counter()
        do("reverse-continue")
        if (after, counter()) == (8, 13):
            return here()


seen = {}
do("set pagination off")
do("continue")
do("watch *(unsigned *)&counter")
seen["store"] = to_the_store()
seen["line"] = do("info line *$pc")
do("continue")
do("continue")
do("reverse-continue")
seen["again"] = to_the_store()
seen["refused"] = [refused("set var $a0 = 12345"), refused("set var *(unsigned *)&counter = 12345"), refused("call ((int (*)(int))work)(1)")]
seen["still"] = here()
do("delete")

# A break point and a watch point at the same place: each is told, both ways.
do("continue")
do("break *0x%x" % seen["store"][1][32])
do("watch *(unsigned *)&counter")
seen["both"], hit = [], []
gdb.events.stop.connect(lambda event: hit.extend(point.type for point in getattr(event, "breakpoints", ())))
for command in ["reverse-continue"] * 6 + ["continue"] * 6:
    hit.clear()
    do(command)
    seen["both"].append([gdb.BP_BREAKPOINT in hit, gdb.BP_HARDWARE_WATCHPOINT in hit, counter()])
do("delete")

# The command of a commit's number, and what it says of a word.
seen["commit"] = [do("commit 22"), *here()]
seen["who"] = do("who counter")

# Every step back from the end.
do("continue")
seen["back"] = []
for step in reversed(range(STEPS)):  # noqa: F821
    thread = re.search(r"before: thread (\d+)", do("monitor where"))
    do("thread %d" % (int(thread[1]) + 1))
    do("reverse-stepi")
    seen["back"].append([step, *here()])

with open(OUT, "w") as file:  # noqa: F821
    json.dump(seen, file)
do("detach")
