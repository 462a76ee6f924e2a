"""How a try ended, by its account alone: `ended_of(account, rows)` reads as much of the account as a condition asks for."""

import hashlib
import re

from lib.conditions import Ended

CONSOLE = re.compile(rb"^o 8 .*\n", re.M)


def rows_of(condition):
    """The addresses of the rows of memory that the condition asks for."""
    return sorted({atom.address & ~31 for case in condition for atom in case if atom.kind == "word"})


def ended_of(account, rows):
    """The Ended of an account: threads, console, these rows of memory, and the number of commits. Most lines tell commits and
    loads, and most rows are of code, so they are passed over."""
    state = account.rfind(b"\nt 0 ") + 1
    kept = CONSOLE.findall(account, 0, state)
    memory = account.find(b"\nm ", state)
    last = account.rfind(b"\nend ") + 1
    kept.append(account[state : memory + 1 if memory >= 0 else last])
    kept += [row for row in (row_of(account, state, address) for address in rows) if row]
    kept.append(account[last:])
    ended = Ended(b"".join(kept))
    words = account[last:].split()
    ended.commits = int(words[2]) if words[:2] == [b"end", b"complete"] else 0
    return ended


def memory_of(account):
    """An account's lines of memory at the end."""
    state = account.rfind(b"\nt 0 ") + 1
    first = account.find(b"\nm ", state)
    return account[first : account.rfind(b"\nend ")] if first >= 0 else b""


def row_of(account, state, address):
    at = account.find(b"\nm %08X " % address, state) + 1
    return account[at : account.index(b"\n", at) + 1] if at else b""


def is_live(ended):
    return any(status == "live" for status, _ in ended.threads)


def is_over(account, ended):
    """Whether more events change nothing: all threads have ended or faulted, and no DMA is asked for."""
    return not is_live(ended) and account.find(b"\nd ", account.rfind(b"\nt 0 ")) < 0


def threads_text(ended):
    """The ends of all threads in few letters, as `0:0 0:0 fault:5 live`: ended:0 is `0`, and equal ones that follow are told
    once with their number."""
    words = []
    for status, code in ended.threads:
        words.append({"live": "live", "ended": "ended:%d" % code, "fault": "fault:%d" % code}[status])
    return " ".join(words)


def console_sum(ended):
    """What tells consoles apart: empty for an empty one."""
    return hashlib.sha256(ended.console).hexdigest()[:16] if ended.console else ""
