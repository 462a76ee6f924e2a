"""Why standard output may have failed, and the program's own line if standard output is a file."""

import os
import stat

OUTPUT = 1  # its descriptor
MOST_LINE = 5000  # bytes: a line has a name of 4,096 at most, and a few words


def last_line():
    """The last line of standard output if that is a regular file, else None. Its own offset isn't moved."""
    try:
        if not stat.S_ISREG(os.fstat(OUTPUT).st_mode):
            return None
        with open("/proc/self/fd/%d" % OUTPUT, "rb") as file:
            file.seek(max(0, os.fstat(OUTPUT).st_size - MOST_LINE))
            data = file.read()
    except OSError:
        return None
    if not data.endswith(b"\n"):
        return None
    return data[:-1].rpartition(b"\n")[2].decode(errors="surrogateescape")


def why_it_failed():
    """As a sentence, or None if nothing shows."""
    try:
        found = os.fstat(OUTPUT)
    except OSError:
        return "Standard output is closed."
    if stat.S_ISFIFO(found.st_mode) or stat.S_ISSOCK(found.st_mode):
        return "Standard output is a pipe, and what reads it has ended before it had all."
    if stat.S_ISCHR(found.st_mode) and found.st_rdev == os.makedev(1, 7):
        return "Standard output takes no bytes: it is always full."
    if stat.S_ISREG(found.st_mode) and is_full():
        return "Standard output is a file, and its disk is full."
    return None


def is_full():
    system = os.fstatvfs(OUTPUT)
    return system.f_bavail * system.f_frsize < 4096
