"""What hunt/find says of a program and of its mended twin, and whether the log that it writes is replayed."""

import json
import os
from pathlib import Path
import re
import shlex
import subprocess
import tempfile

TOP = Path(__file__).resolve().parent.parent.parent.parent
FIND = TOP / "hunt/find"
SECONDS = 60


def program():
    """The words that run the proved program."""
    return shlex.split(os.environ.get("DELOREAN") or str(TOP / "bin/delorean"))


def find(source, out, *words):
    """(status, what --json says, the text of what is found)."""
    done = subprocess.run([FIND, source, *words, "--json", "--seconds", str(SECONDS), "--out", out], capture_output=True, text=True)
    return done.returncode, json.loads(done.stdout) if done.stdout else {"error": done.stderr}


def account_of_replay(folder, cores):
    plan = (folder / "replay.toml").read_text()
    (folder / "try.toml").write_text(re.sub(r"^cores = \d+", "cores = %d" % cores, plan, flags=re.M))
    subprocess.run([*program(), "run", "try.toml"], cwd=folder, check=True, stdout=subprocess.DEVNULL)
    return (folder / "replayed.account").read_bytes()


def is_replayed(folder):
    """Whether replays on 1 and 8 cores have the account of the log's walk."""
    plan = (folder / "replay.toml").read_text()
    image, memory = re.search(r'image = "(.*)"', plan)[1], re.search(r"memory = (\d+)", plan)[1]
    walked = subprocess.run([*program(), "walk", image, memory, "found.log"], cwd=folder, capture_output=True).stdout
    return all(account_of_replay(folder, cores) == walked for cores in (1, 8))


def races(source, *words):
    """The variables on which `trace .. races` tells a race, in one recording with seed 1."""
    with tempfile.TemporaryDirectory() as scratch:
        subprocess.run([TOP / "sdk/cc", "-O1", source, *words, "-o", "a.elf", "--plan", "plan.toml"], cwd=scratch, check=True,
                       stdout=subprocess.DEVNULL)
        subprocess.run([*program(), "run", "plan.toml"], cwd=scratch, check=True, stdout=subprocess.DEVNULL)
        memory = re.search(r"memory = (\d+)", (Path(scratch) / "plan.toml").read_text())[1]
        said = subprocess.run([TOP / "hunt/trace", "a.elf", memory, "a.log", "races"], cwd=scratch, check=True, capture_output=True,
                              text=True).stdout
    told = [line.split(": nothing orders")[0].split(" ")[0] for line in said.splitlines() if ": nothing orders" in line]
    return list(dict.fromkeys("a stack or the heap" if re.fullmatch("[0-9A-F]{8}", word) else re.match(r"[\w:]+", word)[0] for word in told))


def line_of(source):
    """The line that a program's first comment names, as `account.c:12`."""
    named = re.search(r"line\s+(\d+)(?: of (\w+\.c))?", source.read_text())
    return "%s:%s" % (named[2] or source.name, named[1])


def named_in(found, line):
    """Where the line is told: `what failed`, `who waits`, `why` or `the order`; or None."""
    failed = [place for thread in found["threads"] for place in thread["places"] or ()]
    texts = {"what failed": found["broken"] + failed + [found["console"]],
             "who waits": found["waits"], "why": found["why"], "the order": found["order"]}
    pattern = re.compile(re.escape(line) + r"(?!\d)")
    return next((where for where, lines in texts.items() if any(map(pattern.search, lines))), None)


def measure(source, *words):
    """A row: of the program what was found and how it was told, and of its twin what was covered."""
    source = Path(source).resolve()
    with tempfile.TemporaryDirectory() as scratch:
        folder = Path(scratch) / "out"
        status, told = find(source, folder, *words)
        row = {"name": source.stem, "status": status, "told": told}
        if status == 1:
            row["named"] = named_in(told["found"], line_of(source))
            row["replayed"] = is_replayed(folder)
        row["twin status"], row["twin"] = find(source, Path(scratch) / "twin", "-DMENDED", *words)
    return row
