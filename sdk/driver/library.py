"""The SDK's own library, compiled once for each compiler and kept beside the sources, or in the user's cache if that can't be written."""

from hashlib import sha256
from pathlib import Path
import os
import re
import shutil
import subprocess
import tempfile

from .words import Refused

FLAGS = ["-O2", "-g", "-std=gnu17", "-D_GNU_SOURCE", "-Wall", "-Wextra", "-fno-builtin", "-fno-delete-null-pointer-checks",
         "-fno-strict-aliasing"]


def _sources(top):
    return sorted(path for folder in ("lib", "include") for path in (top / folder).rglob("*") if path.is_file())


def _key(top, tools):
    libc = os.stat(tools.archives[0])
    key = sha256(repr([tools.compiler, FLAGS, tools.archives[0], libc.st_size, libc.st_mtime_ns]).encode())
    for path in _sources(top):
        key.update(path.read_bytes())
    return key.hexdigest()[:16]


def _folders(top):
    cache = Path(os.environ.get("XDG_CACHE_HOME") or Path.home() / ".cache")
    return [top / "out", cache / "delorean-sdk"]


def _is_writable(folder):
    try:
        folder.mkdir(parents=True, exist_ok=True)
    except OSError:
        return False
    return os.access(folder, os.W_OK)


def _compile(top, tools, source, to):
    here = "-ffile-prefix-map=%s=sdk" % top
    done = subprocess.run([*tools.compiler, *FLAGS, here, "-c", str(source), "-o", str(to)], capture_output=True, text=True)
    if done.returncode:
        raise Refused("the SDK's library doesn't compile:\n" + done.stderr)


def _defined(tools, archive):
    """(member, symbol) for each symbol that an archive defines for others."""
    said = subprocess.run([tools.names, "-A", "-g", "--defined-only", str(archive)], capture_output=True, text=True, check=True).stdout
    return re.findall(r"^[^:\n]*:([^:\n]+):\s*\w*\s+[A-Z]\s+(\S+)$", said, re.M)


def _without(tools, archive, own, to):
    """Copies the C library without what the SDK's library has itself. Else its functions would call its own malloc, which can't be linked."""
    symbols = {symbol for _, symbol in _defined(tools, own)}
    members = sorted({member for member, symbol in _defined(tools, archive) if symbol in symbols})
    shutil.copyfile(archive, to)
    subprocess.run([tools.archiver, "dD", str(to), *members], check=True)


def _build(top, tools, folder):
    """All objects are made aside and then named at once, so that two calls at a time do no harm."""
    with tempfile.TemporaryDirectory(dir=folder.parent) as aside:
        objects = []
        for source in sorted((top / "lib").glob("*.[cS]")):
            to = Path(aside) / (source.stem + ".o")
            _compile(top, tools, source, to)
            if source.suffix == ".c":
                objects.append(str(to))
        subprocess.run([tools.archiver, "rcD", str(Path(aside) / "libdelorean.a"), *objects], check=True)
        for name in objects:
            os.unlink(name)
        _without(tools, tools.archives[0], Path(aside) / "libdelorean.a", Path(aside) / "libc.a")
        try:
            os.chmod(aside, 0o755)
            os.rename(aside, folder)
            Path(aside).mkdir()  # for the end of `with`
        except OSError:
            if not (folder / "libdelorean.a").exists():
                raise


def library(top, tools):
    """The folder with start.o, libdelorean.a, and libc.a, which is what the SDK takes of the C library."""
    key = _key(top, tools)
    folders = [folder / key for folder in _folders(top)]
    for folder in folders:
        if (folder / "libdelorean.a").exists():
            return folder
    for folder in folders:
        if _is_writable(folder.parent):
            _build(top, tools, folder)
            return folder
    raise Refused("neither %s nor %s can be written" % tuple(folder.parent for folder in folders))
