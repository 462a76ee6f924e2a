"""Files as the program reads and writes them, by names from the folder of the command. `read(name)` gives the bytes, or
raises the refusal `absent NAME` or `fault NAME`; `unwritable(name)` says why a file can't be written, or None. Nothing is
written here, and only regular files are read, so no pipe is emptied and no call waits."""

import difflib
import errno
import os
import stat

from explain.refusal import Refusal, Unreadable
from explain.shown import number, quoted

MOST = 1 << 30  # what the program reads of a file that isn't a log
MOST_HERE = 1 << 28  # what is read here


def read(name, is_log=False):
    reason = unreadable(name, is_log)
    if reason:
        raise fault(name, reason)
    try:
        found = os.stat(name)
        if not stat.S_ISREG(found.st_mode) or found.st_size > MOST_HERE:
            raise Unreadable(name)
        with open(name, "rb") as file:
            return file.read()
    except FileNotFoundError:
        raise absent(name) from None
    except OSError as error:
        raise fault(name, because(error)) from None


def fault(name, reason):
    return Refusal(6, "fault " + name, "%s %s." % (quoted(name), reason))


def unreadable(name, is_log):
    """Why a file that is there can't be read, as a part of a sentence after its name, or None."""
    try:
        found = os.stat(name)
    except FileNotFoundError:
        return None
    except OSError as error:
        return because(error)
    if stat.S_ISDIR(found.st_mode):
        return "is a folder, and not a file"
    if not os.access(name, os.R_OK, effective_ids=True):
        return "may not be read: you have no permission"
    if is_log and not stat.S_ISREG(found.st_mode):
        return "isn't a regular file: a log is opened again for each of its pieces, so it can't come through a pipe"
    if found.st_size > MOST and not is_log:
        return "has %s bytes, and at most %s are read of a file that isn't a log" % (number(found.st_size), number(MOST))
    return None


def unwritable(name):
    """Why a file can't be written, as a part of a sentence after its name, or None if nothing shows."""
    if not name:
        return "isn't a name: it is empty"
    try:
        return refused_file(name, os.stat(name))
    except FileNotFoundError:
        return refused_place(os.path.dirname(os.path.realpath(name) if os.path.islink(name) else name) or ".")
    except OSError as error:
        return because(error)


def refused_place(folder):
    """Why a file that isn't there can't be made in the folder, or None."""
    if not os.path.exists(folder):
        return "can't be made: there is no folder %s, and folders aren't made" % quoted(folder)
    if is_read_only(folder):
        return "can't be made: its file system is read-only"
    if not os.access(folder, os.W_OK | os.X_OK, effective_ids=True):
        return "can't be made: you have no permission to write in the folder %s" % quoted(folder)
    return full(folder)


def refused_file(name, found):
    """Why a file that is there can't be written, or None. found: what it is, as os.stat says."""
    if stat.S_ISDIR(found.st_mode):
        return "is a folder, and not a file"
    if is_read_only(name) and stat.S_ISREG(found.st_mode):
        return "can't be written: its file system is read-only"
    if not os.access(name, os.W_OK, effective_ids=True):
        return "may not be written: you have no permission"
    if stat.S_ISCHR(found.st_mode) and found.st_rdev == os.makedev(1, 7):
        return "takes no bytes: it is always full"
    return full(name) if stat.S_ISREG(found.st_mode) else None


def is_read_only(name):
    return bool(os.statvfs(name).f_flag & os.ST_RDONLY)


def full(name):
    system = os.statvfs(name)
    if system.f_blocks and system.f_bavail * system.f_frsize < 4096:
        return "can't be written: its disk is full"
    if system.f_files and not system.f_favail and os.path.isdir(name):
        return "can't be made: its disk has no room for another file"
    return None


REASONS = {
    errno.ENAMETOOLONG: "is too long for a name",
    errno.ENOTDIR: "can't be there: a part of it that should be a folder is a file",
    errno.ELOOP: "leads to itself: it is a link that goes round in a circle",
    errno.EACCES: "may not be reached: you have no permission for one of its folders",
}


def because(error):
    return REASONS.get(error.errno) or "can't be used: %s" % os.strerror(error.errno or 0).lower()


def absent(name, beside=None):
    """beside: the plan that names the file, or None."""
    if not name:
        return Refusal(10, "absent ", "The name of the file is empty.")
    return Refusal(10, "absent " + name, "%s isn't there. %s" % (quoted(name), where(name, beside)))


def where(name, beside):
    """Where the file may be instead, as a sentence."""
    folder = os.path.dirname(beside) if beside else ""
    if folder and not os.path.isabs(name) and os.path.exists(os.path.join(folder, name)):
        return "It is in the plan's folder, but names count from the folder of the command: %s first." % quoted("cd " + folder)
    near = neighbour(name)
    if near:
        return "Did you mean %s?" % quoted(near)
    return "Names count from the folder of the command%s." % (", and not from the plan's" if folder else "")


def neighbour(name):
    """A file in the same folder whose name is nearly the same, with its suffix and without."""
    folder, last = os.path.split(name)
    try:
        near = difflib.get_close_matches(last, os.listdir(folder or "."), 3, 0.75)
    except OSError:
        return None
    found = next((other for other in near if is_alike(stem(other), stem(last))), None)
    return os.path.join(folder, found) if found else None


def stem(name):
    return os.path.splitext(name)[0].lower()


def is_alike(a, b):
    return difflib.SequenceMatcher(None, a, b).ratio() > 0.6
