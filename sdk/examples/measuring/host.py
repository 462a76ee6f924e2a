"""What other tools say of a program on this machine: gcc's thread sanitizer, helgrind and drd, and plain runs."""

import os
from pathlib import Path
import re
import signal
import subprocess
import tempfile

RUNS, ENOUGH, PLAIN_RUNS = 10, 3, 100
SECONDS = {"plain": 2, "tsan": 10, "helgrind": 20, "drd": 20}
SAYS = {"tsan": re.compile(r"WARNING: ThreadSanitizer"), "helgrind": re.compile(r"ERROR SUMMARY: [1-9]"),
        "drd": re.compile(r"ERROR SUMMARY: [1-9]")}


def run(words, seconds):
    """(status, output); the status is None if the run was stopped after so many seconds."""
    process = subprocess.Popen([str(word) for word in words], stdout=subprocess.PIPE, stderr=subprocess.STDOUT, text=True, errors="replace",
                               start_new_session=True)
    try:
        output, _ = process.communicate(timeout=seconds)
        return process.returncode, output
    except subprocess.TimeoutExpired:
        os.killpg(process.pid, signal.SIGKILL)
        return None, process.communicate()[0]


def compiled(source, program, flags):
    subprocess.run(["gcc", "-O1", "-g", "-w", "-pthread", *flags, str(source), "-o", str(program)], check=True)
    return program


def words_of(tool, program):
    return [program] if tool in ("plain", "tsan") else ["valgrind", "--tool=" + tool, program]


def reports(tool, program, most=RUNS):
    """(runs with a report, runs that didn't end, runs): until ENOUGH runs have reported, or didn't end."""
    count = hangs = done = 0
    while done < most and max(count, hangs) < ENOUGH:
        status, output = run(words_of(tool, program), SECONDS[tool])
        count += bool(SAYS[tool].search(output))
        hangs += status is None
        done += 1
    return count, hangs, done


def failures(program):
    """(runs that end with another status than 0 or don't end, those that don't end, runs)."""
    count = done = hangs = 0
    while done < PLAIN_RUNS and hangs < ENOUGH:
        status, _ = run([program], SECONDS["plain"])
        hangs += status is None
        count += status != 0
        done += 1
    return count, hangs, done


def measure(source):
    """All of a program and of its mended twin, by tool."""
    source, out = Path(source), {}
    with tempfile.TemporaryDirectory() as scratch:
        for twin, defines in (("", []), ("mended ", ["-DMENDED"])):
            plain = compiled(source, Path(scratch) / "plain", defines)
            checked = compiled(source, Path(scratch) / "checked", ["-fsanitize=thread", *defines])
            for tool in ("tsan", "helgrind", "drd"):
                out[twin + tool] = reports(tool, checked if tool == "tsan" else plain, 1 if twin else RUNS)
            if not twin:
                out["plain"] = failures(plain)
    return out
