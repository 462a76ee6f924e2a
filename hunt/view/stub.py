"""What gdb is answered: `Stub(timeline, packets).serve()`. gdb's thread N + 1 is the run's thread N, from the start to the end,
since gdb takes no thread of number 0 and forgets those that it misses."""

import re

from . import monitor
from .rsp import INTERRUPT, Gone
from .shown import shown
from .timeline import ACCESS, BEGIN, BREAK, END, READ, STEP, WRITE, Point, Stop

OK, UNKNOWN, WRONG = b"OK", b"", b"E01"
RECORDED = b"E.the run is recorded, and nothing in it can be changed"
PACKET = 4000
PC, SP, COUNT = 32, 2, 33
POINTS = {b"0": BREAK, b"2": WRITE, b"3": READ, b"4": ACCESS}
NAMES = ("zero ra sp gp tp t0 t1 t2 fp s1 a0 a1 a2 a3 a4 a5 a6 a7 s2 s3 s4 s5 s6 s7 s8 s9 s10 s11 t3 t4 t5 t6 pc").split()
POINTERS = {"ra": "code_ptr", "pc": "code_ptr", "sp": "data_ptr", "gp": "data_ptr", "tp": "data_ptr", "fp": "data_ptr"}
TARGET = ('<?xml version="1.0"?><!DOCTYPE target SYSTEM "gdb-target.dtd"><target version="1.0"><architecture>riscv:rv32'
          '</architecture><osabi>none</osabi><feature name="org.gnu.gdb.riscv.cpu">%s</feature></target>'
          % "".join('<reg name="%s" bitsize="32" type="%s" regnum="%d"/>' % (name, POINTERS.get(name, "int"), n)
                    for n, name in enumerate(NAMES)))
SUPPORTED = (b"PacketSize=%x;QStartNoAckMode+;ReverseStep+;ReverseContinue+;swbreak+;vContSupported+;"
             b"qXfer:features:read+;qXfer:threads:read+" % PACKET)


def _numbers(text):
    """The two of `ADDR,LENGTH`."""
    if not re.fullmatch(rb"[0-9a-fA-F]{1,8},[0-9a-fA-F]{1,8}", text):
        raise ValueError
    return (int(part, 16) for part in text.split(b","))


def _word(value):
    return value.to_bytes(4, "little").hex().encode()


class Stub:
    def __init__(self, timeline, packets):
        self.timeline, self.packets = timeline, packets
        self.points, self.armed = set(), set()  # those that are set, and those that were when all threads last went on
        self.thread = 0  # that registers are read of
        self.stepped = None  # that a reverse step is of, if gdb has said so
        self.told = 0  # the thread of the last stop
        self.is_dma = False  # whether that was at a DMA, which gdb will step its thread over
        self.reply = b"T05thread:1;"
        self.is_over = False

    def serve(self):
        """Until gdb leaves."""
        try:
            while not self.is_over:
                packet = self.packets.read()
                if packet == INTERRUPT:  # what it should stop has stopped by itself
                    continue
                answer = self.answer(packet)
                if answer is not None:
                    self.packets.write(answer)
                if packet == b"QStartNoAckMode":
                    self.packets.is_acked = False
        except Gone:
            pass

    def answer(self, packet):
        """The answer to one packet; None for one that has none."""
        for start in (re.match(rb"[A-Za-z]*", packet)[0], packet[:1]):
            if start in _ANSWERS:
                try:
                    return _ANSWERS[start](self, packet[len(start) :])
                except ValueError:
                    return WRONG
        return UNKNOWN

    # ------------------------------------------------------------ going on and back

    def stopped(self, stop):
        """The answer to a command that has come to this stop."""
        self.timeline.go(stop.at)
        k = self.told if stop.thread is None else stop.thread
        self.is_dma = stop.thread is None and stop.reason in (WRITE, ACCESS)
        if self.is_dma:
            self.say("a DMA stores there\n")
        self.told = self.thread = k
        why = {BREAK: b"swbreak:;", BEGIN: b"replaylog:begin;", END: b"replaylog:end;"}.get(stop.reason, b"")
        if stop.addr is not None:
            why = b"%s:%x;" % (stop.reason.encode(), stop.addr)
        self.reply = b"T05%sthread:%x;%s" % (why, k + 1, self.expedited(k))
        return self.reply

    def expedited(self, k):
        registers = self.timeline.registers(k)
        return b"" if registers is None else b"".join(b"%02x:%s;" % (n, _word(registers[n])) for n in (SP, PC))

    def say(self, text):
        self.packets.write(b"O" + text.encode().hex().encode())

    def onwards(self, stepped, alone):
        """gdb takes its points away to step a thread `alone` off one. The run's order may want others to go first, and these
        stop where they would have."""
        if alone and self.is_dma:
            return self.stopped(Stop(STEP, self.timeline.at + 1, self.told))
        if not alone:
            self.armed = set(self.points)
        points = self.points | self.armed if alone and self.timeline.thread_at(self.timeline.at) != stepped else self.points
        return self.stopped(self.timeline.forward(points, stepped, self.told))

    def back(self, rest):
        if rest not in (b"s", b"c"):
            return UNKNOWN
        if rest == b"s" and self.is_dma:
            return self.stopped(Stop(STEP, self.timeline.at - 1, self.told))
        self.armed = set(self.points)
        stepped = None if rest == b"c" else self.thread if self.stepped is None else self.stepped
        return self.stopped(self.timeline.backward(self.points, stepped))

    def v_cont(self, rest):
        """vCont? asks what there is; vCont;s:2;c steps thread 2 while the others go on; vCont;s:2 means it alone."""
        if rest == b"?":
            return b"vCont;c;C;s;S"
        actions = [(what[:1].lower(), self.number(who)) for what, _, who in (a.partition(b":") for a in rest[1:].split(b";"))]
        if any(what not in (b"s", b"c") for what, _ in actions):
            return UNKNOWN
        stepped = next((self.thread if k is None else k for what, k in actions if what == b"s"), None)
        return self.onwards(stepped, None not in (k for _, k in actions))

    def number(self, text):
        """The run's thread of a number of gdb's; None where that is any or all."""
        if text in (b"", b"0", b"-1"):
            return None
        k = int(text, 16) - 1
        if not 0 <= k < self.timeline.threads:
            raise ValueError
        return k

    # ------------------------------------------------------------ threads

    def choose(self, rest):
        which, k = rest[:1], self.number(rest[1:])
        if which == b"g" and k is not None:
            self.thread = k
        elif which == b"c":
            self.stepped = k
        return OK

    def threads_xml(self):
        rows = ('<thread id="%x" name="thread %d">%s</thread>' % (k + 1, k, self.extra(k)) for k in range(self.timeline.threads))
        return "<?xml version=\"1.0\"?><threads>%s</threads>" % "".join(rows)

    def extra(self, k):
        line, status = self.timeline, self.timeline.status(k)
        if status is None:
            return "not started yet"
        if status[0] != "live":
            return "%s %d" % status
        step = line.next_of(k, line.at)
        return "does no more" if step is None else "next in commit %d" % line.commit_at(step).told

    # ------------------------------------------------------------ what is read

    def all_registers(self, _):
        registers = self.timeline.registers(self.thread)
        return b"xxxxxxxx" * COUNT if registers is None else b"".join(map(_word, registers))

    def one_register(self, rest):
        n, registers = int(rest, 16), self.timeline.registers(self.thread)
        if not 0 <= n < COUNT:
            return WRONG
        return b"xxxxxxxx" if registers is None else _word(registers[n])

    def read_memory(self, rest):
        addr, length = _numbers(rest)
        data = self.timeline.memory(addr, min(length, PACKET // 2 - 2))
        return data.hex().encode() if data or not length else WRONG

    def transfer(self, rest):
        """A part of a text, as qXfer:OBJECT:read:ANNEX:OFFSET,LENGTH asks for it."""
        parts = re.fullmatch(rb":(features|threads):read:([^:]*):([0-9a-fA-F]+),([0-9a-fA-F]+)", rest)
        if not parts or (parts[1] == b"features") != (parts[2] == b"target.xml"):
            return UNKNOWN if not parts else b"E00"
        text = (TARGET if parts[1] == b"features" else self.threads_xml()).encode()
        start, length = int(parts[3], 16), min(int(parts[4], 16), PACKET // 2)
        return (b"m" if start + length < len(text) else b"l") + text[start : start + length]

    # ------------------------------------------------------------ the rest

    def point(self, rest, is_set):
        kind, _, place = rest.partition(b",")
        if kind not in POINTS:
            return UNKNOWN
        addr, length = _numbers(place.split(b";")[0])
        if length > PACKET:
            return WRONG
        point = Point(POINTS[kind], addr, 0 if POINTS[kind] == BREAK else length)
        (self.points.add if is_set else self.points.discard)(point)
        return OK

    def command(self, rest):
        if not rest.startswith(b","):
            return UNKNOWN
        text = monitor.answer(self, bytes.fromhex(rest[1:].decode()).decode("utf-8", "replace"))
        for line in shown_lines(text):
            self.say(line)
        return OK

    def leave(self, _):
        self.is_over = True
        return OK


def shown_lines(text):
    return [shown(line)[: PACKET // 2 - 8] + "\n" for line in text.split("\n")]


_ANSWERS = {
    b"?": lambda stub, _: stub.reply,
    b"qSupported": lambda stub, _: SUPPORTED,
    b"QStartNoAckMode": lambda stub, _: OK,
    b"qXfer": Stub.transfer,
    b"qRcmd": Stub.command,
    b"qAttached": lambda stub, _: b"1",
    b"qC": lambda stub, _: b"QC%x" % (stub.told + 1),
    b"qfThreadInfo": lambda stub, _: b"m" + b",".join(b"%x" % (k + 1) for k in range(stub.timeline.threads)),
    b"qsThreadInfo": lambda stub, _: b"l",
    b"qThreadExtraInfo": lambda stub, rest: stub.extra(stub.number(rest[1:]) or 0).encode().hex().encode(),
    b"qSymbol": lambda stub, _: OK,
    b"H": Stub.choose,
    b"T": lambda stub, rest: WRONG if stub.number(rest) is None else OK,
    b"g": Stub.all_registers,
    b"p": Stub.one_register,
    b"m": Stub.read_memory,
    b"G": lambda stub, _: RECORDED,
    b"P": lambda stub, _: RECORDED,
    b"M": lambda stub, _: RECORDED,
    b"Z": lambda stub, rest: stub.point(rest, True),
    b"z": lambda stub, rest: stub.point(rest, False),
    b"vCont": Stub.v_cont,
    b"c": lambda stub, _: stub.onwards(None, False),
    b"s": lambda stub, _: stub.onwards(stub.thread if stub.stepped is None else stub.stepped, False),
    b"b": Stub.back,
    b"D": Stub.leave,
    b"k": lambda stub, _: stub.leave(_) and None,
    b"vKill": Stub.leave,
}
