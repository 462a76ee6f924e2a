"""What the checks of hostile use share: the worked machines that they run, and how the program is run on a folder."""

import argparse
import os
import pathlib
import struct
import subprocess
import tempfile
import threading
import time
from dataclasses import dataclass, field

TOP = pathlib.Path(__file__).resolve().parent.parent
EXAMPLES = TOP / "examples"
PROGRAM = TOP / "out" / "delorean"
OLD = b"as it was before\n"  # what written names hold before a run


@dataclass
class Machine:
    """A command with the files that it reads and the names that it writes, in their order, and the status that it ends with."""

    name: str
    files: dict
    writes: list
    words: list = field(default_factory=lambda: ["run", "plan.toml"])
    status: int = 0
    folders: list = field(default_factory=list)  # written names that are folders
    spared: int = 0  # requests for memory that it does without: for a record's bytes there is room in reserve

    def lay(self, folder):
        """Puts what is read into the folder, and old bytes under the written names."""
        for name in self.writes:
            (folder / name).mkdir() if name in self.folders else (folder / name).write_bytes(OLD)
        for name, data in self.files.items():
            (folder / name).write_bytes(data)


def image(*words):
    """A file of the short form: the header, one loaded segment, and the code."""
    code = struct.pack(f"<{len(words)}I", *words)
    ident = b"\x7fELF\x01\x01\x01" + bytes(9)
    header = struct.pack("<HHIIIIIHHH6x", 2, 243, 1, 0, 52, 0, 0, 52, 32, 1)
    segment = struct.pack("<8I", 1, 84, 0, 0, len(code), len(code), 7, 4)
    return ident + header + segment + code


def script(*events):
    return "".join(f"{event}\n" for event in events).encode()


def plan(sphere, cores=1, buffer=16, top=""):
    """A plan of one sphere, whose role, log and account are lines."""
    return f"""\
cores = {cores}
chunk = 100
buffer = {buffer}
window = 2
signature = 64
script = "s.txt"
report = "r.txt"
{top}[[sphere]]
image = "a.elf"
memory = 4096
{sphere}""".encode()


def recorded(mode, version=1):
    return f'role = "record"\nmode = "{mode}"\nversion = {version}\nlog = "a.log"\naccount = "a.txt"\n'


def recorded_in_epochs(mode, epoch, keep):
    return recorded(mode, 2).replace("a.log", "a.tail") + f"epoch = {epoch}\nkeep = {keep}\n"


REPLAYED = 'role = "replay"\nlog = "a.log"\naccount = "b.txt"\n'
RECORDING = ["a.log", "a.txt", "r.txt"]
RECORDING_IN_EPOCHS = ["a.tail", "a.txt", "r.txt"]

# addi x17, x0, 0; addi x10, x0, 7; ecall: a chunk of two, and an exit
EXIT = image(0x00000893, 0x00700513, 0x00000073)

STEPS = ("step 0", "step 0", "step 0")
CALL = ("ask 0", "step 0", "ask 0")

THREE = Machine(
    "three-instructions",
    {"plan.toml": plan(recorded("order-size")), "a.elf": EXIT, "s.txt": script(*STEPS, *CALL)},
    RECORDING,
)

# its first instruction alone makes a chunk, so that a second chunk is in flight when that one is asked for
TWO_CHUNKS = Machine(
    "two-chunks",
    {
        "plan.toml": plan(recorded("order-size"), top="depth = 2\n"),
        "a.elf": EXIT,
        "s.txt": script("step 0", "cut 0", "step 0", "step 0", "ask 0", "ask 0", "step 0", "ask 0"),
    },
    RECORDING,
)

# thread 0 spawns thread 1 at 20 (hex) and loads the word into which that one stores
RACE = Machine(
    "two-threads-race",
    {
        "plan.toml": plan(recorded("order-size"), cores=2),
        "a.elf": image(
            0x00100893, 0x02000513, 0x00000613, 0x00000073, 0x10002283, 0x00000893,
            0x00000073, 0x00000013, 0x00900313, 0x10602023, 0x00000893, 0x00000073,
        ),
        "s.txt": script(
            *STEPS, "step 0", *CALL, "place 1 0 1", "step 1", "step 1", "step 1", "step 1", "ask 1", *STEPS, "ask 0",
            "deliver 0 0", "step 0", "drain 0", "retire 0", *STEPS, *CALL, "step 1", "ask 1",
        ),
    },
    RECORDING,
)

# the same in version 2 of logs, whose order and sizes have other entries
WIDE = Machine("version-2", {**RACE.files, "plan.toml": plan(recorded("order-size", 2), cores=2)}, RECORDING)

# and in epochs of two commits, of which the last two are kept
EPOCHS = Machine(
    "epochs", {**RACE.files, "plan.toml": plan(recorded_in_epochs("order-size", 2, 2), cores=2)}, RECORDING_IN_EPOCHS,
)

# a store, LR and SC, and an exit; with a buffer of one word the chunk of five is replayed in two pieces
PIECES = Machine(
    "replayed-in-pieces",
    {
        "plan.toml": plan(REPLAYED, buffer=1),
        "a.elf": image(0x10400293, 0x10502023, 0x1002A32F, 0x1852A3AF, 0x00000893, 0x00000073),
        "a.log": struct.pack("<4sBBHIIIBIIII", b"DLRN", 1, 1, 0, 100, 2, 2, 0, 0, 0, 0, 0),
        "s.txt": b"",
    },
    ["b.txt", "r.txt"],
)

# the same from a log of version 2, with chunks larger than the plan's
WIDE_PIECES = Machine(
    "version-2-in-pieces",
    {**PIECES.files, "a.log": struct.pack("<4sBBHIII2BIIII", b"DLRN", 2, 1, 63, 65536, 2, 2, 0, 0, 0, 0, 0, 0)},
    ["b.txt", "r.txt"],
)

# a request of four bytes, and a load of them that the DMA squashes
DMA = Machine(
    "dma",
    {
        "plan.toml": plan(recorded("picolog"), top='input = "in"\n'),
        "a.elf": image(0x00800893, 0x10000513, 0x00400593, 0x00000073, 0x10402283, 0x00000893, 0x00000073),
        "in": b"AB",
        "s.txt": script(
            *STEPS, "step 0", *CALL, "dma 0", "step 0", "deliver 0 0", "drain 0", "drain 0", "drain 0", "retire 0",
            *STEPS, *CALL,
        ),
    },
    RECORDING,
    spared=1,
)

# the same in epochs of one commit, of which the last four are kept: the request is outstanding where they begin
DMA_EPOCHS = Machine(
    "dma-in-epochs",
    {**DMA.files, "plan.toml": plan(recorded_in_epochs("picolog", 1, 4), top='input = "in"\n')},
    RECORDING_IN_EPOCHS,
    spared=1,
)

# a handler is set, the thread is interrupted, and a second interrupt is masked
INTERRUPT = Machine(
    "interrupt",
    {
        "plan.toml": plan(recorded("order-size")),
        "a.elf": image(0x00600893, 0x01400513, 0x00000073, 0x0000006F, 0x00000013, 0x0000006F),
        "s.txt": script(*STEPS, *CALL, "raise 0 0 5", "raise 0 0 6"),
    },
    RECORDING,
)

# the same in epochs of two commits, of which the last is kept: the interrupt comes right after the state where it begins
INTERRUPT_EPOCHS = Machine(
    "interrupt-in-epochs", {**INTERRUPT.files, "plan.toml": plan(recorded_in_epochs("order-only", 2, 1))}, RECORDING_IN_EPOCHS,
)

# loads of the moment and of an input byte, which is put on the console; then a load of a byte there, which faults
CONSOLE = Machine(
    "console",
    {
        "plan.toml": plan(recorded("order-size"), top='input = "in"\nconsole = "c.txt"\n'),
        "a.elf": image(0xF00002B7, 0x0002A303, 0x0042A383, 0x0072A423, 0x00028403),
        "in": b"A",
        "s.txt": script("step 0", *["step 0", "ask 0"] * 5),
    },
    ["a.log", "a.txt", "c.txt", "r.txt"],
)

LOG = struct.pack("<4sBBHIIIBI2HIII", b"DLRN", 1, 0, 0, 100, 2, 2, 0, 2, 2, 0, 0, 0, 0)  # that of THREE
SHORT_LOG = LOG[:25] + b"\x03" + LOG[26:]  # its chunk has an instruction more than can be run

DIVERGED = Machine(
    "diverged",
    {"plan.toml": plan(REPLAYED), "a.elf": EXIT, "a.log": SHORT_LOG, "s.txt": b""},
    ["b.txt", "r.txt"],
    status=1,
)

# the race from a log of it; of its six commits two are replayed, and told: thread 1 stores, and thread 0 loads
RACE_LOG = (EXAMPLES / "two-threads-replayed" / "a.log").read_bytes()
PART = Machine(
    "part-replayed",
    {
        "plan.toml": plan(REPLAYED + "from = 2\nto = 4\n", cores=2),
        "a.elf": RACE.files["a.elf"],
        "a.log": RACE_LOG,
        "s.txt": script("step 0", "dma 0", "raise 0 0 5"),
    },
    ["b.txt", "r.txt"],
)
INTERVAL = Machine(
    "interval", {"a.elf": RACE.files["a.elf"], "a.log": RACE_LOG}, [], ["interval", "a.elf", "4096", "a.log", "1", "2", "4"],
)

# the replay of a part that begins after the log's play has diverged, and what is told of one there
LATE = Machine(
    "part-after-divergence", {**DIVERGED.files, "plan.toml": plan(REPLAYED + "from = 1\n")}, ["b.txt", "r.txt"], status=1,
)
LATE_INTERVAL = Machine(
    "interval-after-divergence", {"a.elf": EXIT, "a.log": SHORT_LOG}, [], ["interval", "a.elf", "4096", "a.log", "2", "1", "2"], 1,
)

PIPE = Machine(
    "two-spheres",
    {name: (EXAMPLES / "pipe" / name).read_bytes() for name in ("plan.toml", "s.txt", "a.elf", "x.elf")},
    ["x.txt", "a.log", "a.txt", "r.txt"],
    spared=1,
)



def tail(request, registers, handler, code, log):
    """A tail of one thread that has committed twice, with a request, or (0, 0) for none, and its code alone in its memory."""
    header = struct.pack("<4sBBHIBBHIII", b"DLRT", 1, 0, 1, 2, 0, request != (0, 0), 0, *request, 4096)
    words = [registers.get(number, 0) for number in range(1, 32)]
    thread = struct.pack("<BBHI6I31I", 0, 0, 0, 0, registers["pc"], handler, 0, 0, 0, 2, *words)
    return header + thread + struct.pack("<II", 1, 0) + code.ljust(32, b"\0") + log


# those of DMA_EPOCHS and INTERRUPT_EPOCHS, and the first with a byte more than the request has room for
REGISTERS = {"pc": 16, 11: 4, 17: 8}
DMA_TAIL, LONG_DMA_TAIL = (
    tail((256, 4), REGISTERS, 0, DMA.files["a.elf"][84:], struct.pack("<4sBBHII", b"DLRN", 2, 2, 63, 100, 3) + bytes(16) + dma)
    for dma in (struct.pack("<IIH", 1, 2, 2) + b"AB", struct.pack("<IIH", 1, 2, 5) + b"ABCDE")
)
INTERRUPT_TAIL = tail(
    (0, 0), {"pc": 12, 17: 6}, 20, INTERRUPT.files["a.elf"][84:],
    struct.pack("<4sBBHII", b"DLRN", 2, 1, 63, 100, 0) + struct.pack("<IIIBIIII", 0, 0, 1, 0, 2, 5, 0, 0),
)
EIGHT_TAIL = (EXAMPLES / "last-part" / "expected" / "a.tail").read_bytes()


def played(name, data, status=0, spared=0):
    return Machine(name, {"a.tail": data}, [], ["tail", "a.tail"], status, spared=spared)


SHORT_TAILS = [played("tail", DMA_TAIL, spared=1), played("tail-interrupted", INTERRUPT_TAIL)]
TAILS = [*SHORT_TAILS, played("tail-of-eight", EIGHT_TAIL), played("tail-diverged", LONG_DMA_TAIL, 1, spared=1)]

SOURCE = (EXAMPLES / "two-threads" / "a.s").read_bytes()
INSPECT = Machine("inspect", {"a.log": LOG}, [], ["inspect", "a.log"])
WALK = Machine("walk", {"a.elf": EXIT, "a.log": LOG}, [], ["walk", "a.elf", "4096", "a.log"])
WATCH = Machine("watch", {"a.elf": EXIT, "a.log": LOG}, [], ["watch", "a.elf", "4096", "a.log", "0"])
WHO = Machine("who", {"a.elf": EXIT, "a.log": LOG}, [], ["who", "a.elf", "4096", "a.log", "0", "2"])
WHEN = Machine("when", {"a.elf": EXIT, "a.log": LOG}, [], ["when", "a.elf", "4096", "a.log", "0", "0"])
MAKE = Machine("make", {}, ["x.elf"], ["make", "6", "x.elf"])
ASM = Machine("asm", {"a.s": SOURCE}, ["x.elf"], ["asm", "a.s", "x.elf"])

# logs that have entries in each section, of version 1 and of version 2
FULL_LOG = (EXAMPLES / "diverged" / "expected" / "a.log").read_bytes()
WIDE_LOG = b"".join([
    struct.pack("<4sBBHII", b"DLRN", 2, 1, 63, 65536, 3),
    struct.pack("<I3B", 3, 0, 62, 63),
    struct.pack("<IBII", 1, 62, 0, 65536),
    struct.pack("<IBII", 1, 62, 1, 7),
    struct.pack("<IBIH", 1, 17, 65, 0),
    struct.pack("<IIH2s", 1, 2, 2, b"ab"),
])
INSPECT_WIDE = Machine("inspect-version-2", {"a.log": WIDE_LOG}, [], ["inspect", "a.log"])
MIGRATE = Machine("migrate", {"a.log": FULL_LOG}, ["b.log"], ["migrate", "a.log", "b.log"])
MIGRATE_WIDE = Machine("migrate-version-2", {"a.log": WIDE_LOG}, ["b.log"], ["migrate", "a.log", "b.log"])

# a log cut into strata, and one that isn't since its play diverges
STRATA = Machine(
    "strata", {"a.elf": RACE.files["a.elf"], "a.log": RACE_LOG}, ["a.strata"], ["strata", "a.elf", "4096", "a.log", "a.strata"],
)
NO_STRATA = Machine(
    "strata-diverged", {"a.elf": EXIT, "a.log": SHORT_LOG}, [], ["strata", "a.elf", "4096", "a.log", "a.strata"], 1,
)


def strata(*each):
    """A file of these strata, in hexadecimal, with the sizes of the chunks of that log."""
    return bytes.fromhex(
        f"44 4C 52 53 01 02 0F 00 64 00 00 00 {len(each):02X} 00 00 00" + "".join(each)
        + "03 00 00 00  00 00 00 00 00 03 00 00 00  00 02 00 00 00 02 00 00 00  01 00 00 00 00 03 00 00 00" + "00" * 12
    )


# those strata replayed, in pieces, by two cores
SIX_STRATA = strata("00 01 00", "01 00", "00 00 01", "00 01 00", "01 00", "01 01")
IN_STRATA = Machine(
    "in-strata",
    {
        "plan.toml": plan(REPLAYED.replace('log = "a.log"', 'strata = "a.strata"'), cores=2, buffer=1),
        "a.elf": RACE.files["a.elf"],
        "a.strata": SIX_STRATA,
        "s.txt": script("step 0", "place 1 0 1", "step 1"),
    },
    ["b.txt", "r.txt"],
)

MACHINES = [
    THREE, TWO_CHUNKS, RACE, WIDE, EPOCHS, PIECES, WIDE_PIECES, DMA, DMA_EPOCHS, INTERRUPT, INTERRUPT_EPOCHS, CONSOLE, DIVERGED,
    PART, LATE, PIPE, INSPECT, INSPECT_WIDE, WALK, WATCH, WHO, WHEN, INTERVAL, LATE_INTERVAL, *TAILS, MIGRATE, MIGRATE_WIDE,
    STRATA, NO_STRATA, IN_STRATA, MAKE, ASM,
]


def refused(name, status, **files):
    """The least recording with another of its files."""
    other = {file.replace("_", "."): data for file, data in files.items()}
    return Machine(name, {**THREE.files, **other}, RECORDING, status=status)


def refused_strata(name, data):
    """Those strata spoiled."""
    return Machine(name, {**IN_STRATA.files, "a.strata": data}, IN_STRATA.writes, status=5)


REFUSED = [
    Machine("usage", {}, [], ["walk", "a.elf"], 2),
    refused("wrong-plan", 3, plan_toml=THREE.files["plan.toml"].replace(b"cores = 1", b"cores = 9")),
    refused("long-chunks", 3, plan_toml=THREE.files["plan.toml"].replace(b"chunk = 100", b"chunk = 8192")),
    refused("wrong-epochs", 3, plan_toml=EPOCHS.files["plan.toml"].replace(b"keep = 2\n", b"")),
    refused("wrong-part", 3, plan_toml=PART.files["plan.toml"].replace(b"to = 4", b"to = 1")),
    refused("wrong-image", 4, a_elf=EXIT[:51]),
    Machine("wrong-log", {"a.log": LOG + b"\0"}, [], ["inspect", "a.log"], 5),
    Machine("wrong-threads", {"a.log": WIDE_LOG[:6] + b"\x10" + WIDE_LOG[7:]}, ["b.log"], ["migrate", "a.log", "b.log"], 5),
    Machine("wrong-tail", {"a.tail": DMA_TAIL + b"\0"}, [], ["tail", "a.tail"], 5),
    refused_strata("wrong-strata", SIX_STRATA + b"\0"),
    refused_strata("strata-in-conflict", strata("00 01 00", "01 00", "00 01 01", "01 00", "01 01")),
    refused_strata("strata-that-do-not-fit", strata("00 01 00", "01 01")),
    refused("wrong-script", 5, s_txt=b"step 0\nstep x\n"),
    Machine("failed-write", THREE.files, RECORDING, status=6, folders=["a.txt"]),
    Machine("wrong-source", {"a.s": b"addi x1, x0, 2048\n"}, ["x.elf"], ["asm", "a.s", "x.elf"], 9),
    refused("absent-input", 10, plan_toml=DMA.files["plan.toml"]),
]


def contents(folder):
    """What each file of the folder holds, by its name."""
    return {file.name: file.read_bytes() for file in folder.iterdir() if file.is_file()}


@dataclass
class Ended:
    """How a run ended: status is None if it was stopped after its seconds, and below 0 if a signal ended it.
    `peak` is in bytes, and at least what the calling script had itself."""

    status: int
    output: bytes
    errors: bytes
    seconds: float
    peak: int


def run(program, words, folder, seconds=60, output=None, **how):
    """Runs the program in the folder. Standard output is kept, or goes to the file `output`."""
    with tempfile.TemporaryFile() as kept, tempfile.TemporaryFile() as errors:
        began = time.monotonic()
        process = subprocess.Popen(
            [program, *words], cwd=folder, stdin=how.pop("stdin", subprocess.DEVNULL), stdout=output or kept,
            stderr=errors, **how,
        )
        late = threading.Event()
        timer = threading.Timer(seconds, lambda: (late.set(), process.kill()))
        timer.start()
        _, status, used = os.wait4(process.pid, 0)
        timer.cancel()
        process.returncode = os.waitstatus_to_exitcode(status)
        kept.seek(0)
        errors.seek(0)
        return Ended(
            None if late.is_set() else process.returncode, kept.read(), errors.read(), time.monotonic() - began,
            used.ru_maxrss * 1024,
        )


def options(text):
    """The parser of a check's words, whose help is its docstring."""
    parser = argparse.ArgumentParser(description=text, formatter_class=argparse.RawDescriptionHelpFormatter)
    parser.add_argument(
        "--program", type=lambda path: str(pathlib.Path(path).resolve()), default=str(PROGRAM),
        help="another program than out/delorean",
    )
    return parser


def ready(program):
    """The script that finds the program may build it, which it says on the standard error."""
    if program == str(PROGRAM):
        subprocess.run([TOP / "bin" / "delorean", "--path"], stdout=subprocess.DEVNULL)
    if subprocess.run([program], stdout=subprocess.DEVNULL).returncode != 2:
        raise SystemExit(f"no words aren't answered by status 2: {program}")
