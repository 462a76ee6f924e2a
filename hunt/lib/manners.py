"""How every command of hunt/ begins and ends: `run(name, main)` calls main, and `try_output(name)` sees whether a file that is
to be written can be.

Ctrl-C ends a command with status 130 and a line on standard error. It is kept waiting while Python starts and imports, because the
first line of each command starts Python so (--block-signal); `run` lets it come. If whoever reads a command's output closes it
(`| head -1`), the command ends without a word, with status 141, as programs do that the signal ends. What the system refuses, for
example a full disk, ends it with 2 and a line; and a fault of the command itself with 70, and where it was.
"""

import os
from pathlib import Path
import signal
import sys
import traceback

STOPPED, NOT_READ, REFUSED, FAULT = 130, 141, 2, 70


class NoOutput(Exception):
    """args: why the file can't be written."""


def run(name, main):
    """Ends the program with main's status."""
    try:
        try:
            signal.pthread_sigmask(signal.SIG_UNBLOCK, {signal.SIGINT})
            status = main()
        finally:
            print(end="", flush=True)
            signal.pthread_sigmask(signal.SIG_BLOCK, {signal.SIGINT})
    except KeyboardInterrupt:
        signal.signal(signal.SIGINT, signal.SIG_IGN)
        print("%s: stopped" % name, file=sys.stderr)
        status = STOPPED
    except BrokenPipeError:
        drop_output()
        status = NOT_READ
    except OSError as error:
        drop_output()
        where = "%s: " % error.filename if error.filename else ""
        print("%s: %s%s" % (name, where, error.strerror or error), file=sys.stderr)
        status = REFUSED
    except Exception:
        drop_output()
        traceback.print_exc()
        status = FAULT
    sys.exit(status)


def drop_output():
    """What wasn't written yet never is."""
    os.dup2(os.open(os.devnull, os.O_WRONLY), sys.stdout.fileno())


def try_output(name):
    """NoOutput if the file can't be written. It isn't touched: neither made, nor opened, nor made empty."""
    path = Path(name)
    try:
        if path.is_dir():
            raise NoOutput("%s: Is a directory" % name)
        if path.exists() and not os.access(path, os.W_OK):
            raise NoOutput("%s: Permission denied" % name)
        if not path.exists():
            try_folder(name, path.parent)
    except OSError as error:
        raise NoOutput("%s: %s" % (name, error.strerror)) from None


def try_folder(name, folder):
    if not folder.is_dir():
        raise NoOutput("%s: there is no folder %s" % (name, folder))
    if not os.access(folder, os.W_OK | os.X_OK):
        raise NoOutput("%s: nothing can be written in the folder %s" % (name, folder))
