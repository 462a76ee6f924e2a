"""Packages of Debian's that a check needs: which are missing, and their installation, by root with apt-get."""

import os
import shutil
import subprocess

UPDATE, INSTALL = 60, 120  # seconds that each may take


def missing(packages):
    """The names of those whose file isn't there. packages: a file of each, by name."""
    return [name for name, path in packages.items() if not os.path.exists(path)]


def install_missing(packages):
    """Quietly, and only by root. What can't be installed stays missing."""
    if missing(packages) and os.geteuid() == 0 and shutil.which("apt-get"):
        quiet = {"stdout": subprocess.DEVNULL, "stderr": subprocess.DEVNULL, "env": {**os.environ, "DEBIAN_FRONTEND": "noninteractive"}}
        wait = ["apt-get", "-o", "DPkg::Lock::Timeout=60"]
        try:
            subprocess.run([*wait, "update"], timeout=UPDATE, **quiet)
            subprocess.run([*wait, "install", "-y", "--no-install-recommends", *missing(packages)], timeout=INSTALL, **quiet)
        except subprocess.TimeoutExpired:
            pass
