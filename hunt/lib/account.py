"""The account of a play as text, and the one that the proved program's `walk` puts; `first_difference` compares them."""

from collections import namedtuple
import os
import shlex
import subprocess
import tempfile
from pathlib import Path

from . import isa
from .logs import DMA

TOP = Path(__file__).resolve().parent.parent.parent


def commit_lines(commit, accesses):
    lines = ["c %d %d %d" % (commit.told, commit.actor, commit.size)]
    told = isa.TOLD
    lines += ["l %08X %08X" % (a.addr, a.value) for a in accesses[commit.first_access : commit.last_access]
              if a.kind in told]
    if commit.served and commit.served.output and commit.served.output[1]:
        channel, data = commit.served.output
        lines.append("o %d %s" % (channel, data.hex().upper()))
    return lines


def thread_lines(k, t):
    status = t.status[0] if t.live() else "%s:%d" % t.status
    lines = ["t %d %08X %s %08X %d %s" % (k, t.pc, status, t.handler, t.masked, " ".join("%08X" % v for v in t.x[1:32]))]
    if t.masked:
        lines.append("h %d %08X %08X %08X" % (k, *t.saved))
    return lines


def state_lines(machine):
    lines = [line for k, t in enumerate(machine.threads) for line in thread_lines(k, t)]
    if machine.request is not None:
        lines.append("d %08X %d" % machine.request)
    none = bytes(32)
    for at in range(0, machine.size, 32):
        row = machine.memory[at : at + 32]
        if row != none:
            lines.append("m %08X %s" % (at, row.hex().upper()))
    return lines


def account_lines(played):
    """The lines, and for each the number of its commit (None after the last commit)."""
    lines, commits = [], []
    for commit in played.commits:
        mine = commit_lines(commit, played.machine.accesses)
        lines += mine
        commits += [commit.number] * len(mine)
    if played.end[0] == "complete":
        lines += state_lines(played.machine)
    lines.append("end %s" % " ".join(map(str, played.end)))
    return lines, commits + [None] * (len(lines) - len(commits))


# The first difference. line: its number in the account, from 1. commit: its number, or None after the last commit. place: the
# same in words. ours, theirs: the line as the interpreter and as the account has it, or None.
Difference = namedtuple("Difference", "line commit place ours theirs")


class Differs(Exception):
    """args: the Difference between a play and an account."""

    def __str__(self):
        (found,) = self.args
        return "line %d of the account, %s: the account has '%s', the interpreter '%s'" % (
            found.line, found.place, found.theirs or "no line", found.ours or "no line")


def compare(played, account):
    """Raises Differs if the account (bytes) isn't the play's."""
    lines, commits = account_lines(played)
    if ("\n".join(lines) + "\n").encode() == account:
        return
    theirs = account.decode("utf-8", "backslashreplace").split("\n")
    is_whole = theirs[-1:] == [""]
    theirs = theirs[:-1] if is_whole else theirs
    for j in range(max(len(lines), len(theirs))):
        ours = lines[j] if j < len(lines) else None
        other = theirs[j] if j < len(theirs) else None
        if ours != other:
            number = commits[j] if j < len(commits) else None
            nth_load = j - 1 - commits.index(number) if number is not None and ours.startswith("l ") else None
            raise Differs(Difference(j + 1, number, _place(played, number, nth_load), ours, other))
    raise Differs(Difference(len(lines), None, "at the end", lines[-1], theirs[-1] + " (without the line's end)"))


def _place(played, number, nth_load):
    """In words: the commit, its thread, and the pc of the load, if the line is of one."""
    if number is None:
        return "after commit %d" % played.commits[-1].told if played.commits else "at the end"
    commit = played.commits[number]
    text = "commit %d, %s" % (commit.told, "a DMA" if commit.actor == DMA else "thread %d" % commit.actor)
    if nth_load is not None:
        told = [a for a in played.machine.accesses[commit.first_access : commit.last_access] if a.kind in isa.TOLD]
        text += ", pc %08X" % told[nth_load].pc
    return text


# ---------------------------------------------------------------- the proved program


class NotWalked(Exception):
    """The program refused its files, or could not be run. args: what it said, its status."""


def program():
    """The words that run the proved program: those of the environment variable DELOREAN, else bin/delorean beside hunt/. That also
    knows the word `release`."""
    named = os.environ.get("DELOREAN", "")
    return shlex.split(named) if named not in ("", "release") else [str(TOP / "bin" / "delorean")]


class Walk:
    """A walk of the proved program, or, of a tail, what its `tail` puts. It runs beside this one until its account is asked for. Messages of bin/delorean, which may
    have to build the program first, go to standard error."""

    def __init__(self, image, memory, log, is_tail=False):
        self.output = tempfile.TemporaryFile()  # and no pipe, which would hold the walk up when it is full
        words = ("tail", "--", str(log)) if is_tail else ("walk", "--", str(image), str(memory), str(log))
        try:
            self.process = subprocess.Popen([*program(), *words], stdin=subprocess.DEVNULL, stdout=self.output)
        except OSError as error:
            self.output.close()
            raise NotWalked("%s: %s" % (program()[0], error.strerror), 125) from error

    def account(self):
        status = self.process.wait()
        with self.output:
            self.output.seek(0)
            text = self.output.read()
        if status not in (0, 1):
            said = text.decode("utf-8", "replace").strip()
            raise NotWalked(said or "%s ended with status %d" % (program()[0], status), status)
        return text
