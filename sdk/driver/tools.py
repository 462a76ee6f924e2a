"""The compiler: Debian's gcc for RISC-V, or clang with lld. `find_tools(clang)` gives `Tools`, or raises Refused."""

from dataclasses import dataclass
from pathlib import Path
import os
import shutil
import subprocess

from .words import Refused

GCC = "riscv64-unknown-elf-"
INSTALL = "apt-get install gcc-riscv64-unknown-elf picolibc-riscv64-unknown-elf"
LIBRARY = Path(os.environ.get("DELOREAN_PICOLIBC", "/usr/lib/picolibc/riscv64-unknown-elf"))
LIBGCC = "/usr/lib/gcc/riscv64-unknown-elf"
# Calls that compilers would leave out if nothing came of them, and with them the library's checks.
CALLED = ["-fno-builtin-" + name for name in ("malloc", "calloc", "realloc", "free", "aligned_alloc", "strdup")]
MACHINE = ["-march=rv32ima", "-mabi=ilp32"]
# POSIX functions that picolibc's headers declare only if they are asked for.
ASKED = ["-D_POSIX_TIMERS=1", "-D_POSIX_MONOTONIC_CLOCK=200112L"]


@dataclass
class Tools:
    compiler: list  # with the flags that every source needs
    linker: list    # flags of linking
    archiver: str
    names: str      # the nm
    archives: list  # of the C library


def _archives():
    """The Debian package has no library for rv32ima. That for rv32im links, because atomic operations are instructions or sdk/lib's."""
    libgcc = sorted(Path(LIBGCC).glob("*/rv32im/ilp32/libgcc.a"))
    found = [LIBRARY / "lib/rv32im/ilp32" / name for name in ("libc.a", "libm.a")]
    if not found[0].exists():
        raise Refused("there is no C library in %s: %s" % (LIBRARY, INSTALL))
    return [str(path) for path in found + libgcc[-1:]]


def _common(include):
    return [*MACHINE, "-isystem", str(include), "-isystem", str(LIBRARY / "include"), *ASKED,
            "-ftls-model=local-exec", "-ffunction-sections", "-fdata-sections", *CALLED]


def _gcc(include):
    return Tools([GCC + "gcc", *_common(include)], ["-Wl,--no-warn-rwx-segments"], GCC + "ar", GCC + "nm", _archives())


def _clang(include):
    compiler = ["clang", "--target=riscv32-unknown-elf", "-mno-relax", "-nostdlibinc", *_common(include),
                "-Wno-unused-command-line-argument", "-Wno-atomic-alignment"]
    archiver, names = shutil.which("llvm-ar") or GCC + "ar", shutil.which("llvm-nm") or GCC + "nm"
    return Tools(compiler, ["-fuse-ld=lld"], archiver, names, _archives())


def _has_gcc():
    """Debian's gcc 12 and its linker know every flag that is used here; of a linker before 2.39 one is taken away."""
    return shutil.which(GCC + "gcc") is not None


def find_tools(include, clang):
    if _has_gcc() and not clang:
        tools = _gcc(include)
        version = subprocess.run([GCC + "ld", "--help"], capture_output=True, text=True).stdout
        tools.linker = [flag for flag in tools.linker if flag.removeprefix("-Wl,") in version]
        return tools
    if shutil.which("clang") and shutil.which("ld.lld"):
        return _clang(include)
    raise Refused("there is no compiler for RISC-V: %s" % INSTALL)
