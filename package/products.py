"""What the package is made of: its version, its programs, and the moment that its files have."""

import functools
import os
import subprocess
from pathlib import Path

ROOT = Path(__file__).resolve().parents[1]
VERSION = (ROOT / "VERSION").read_text().strip()
MACHINE = "x86_64"
NAME = f"moqhuluzi-{VERSION}-{MACHINE}"
# what crates.txt says of crates that no user runs
NO_PRODUCT = "no part of the product"


def listed():
    """Each crate of crates.txt, the comment above it, and the libraries that it names."""
    comment = ""
    for line in (ROOT / "crates.txt").read_text().splitlines():
        if line.startswith("#"):
            comment = line
        elif line:
            name, _, libraries = line.partition(":")
            yield name.split()[0], comment, libraries.split()


@functools.cache
def programs():
    """The programs of the product, by name."""
    names = (
        name
        for name, comment, _ in listed()
        if NO_PRODUCT not in comment and (ROOT / "crates" / name / "src" / "main.rt").is_file()
    )
    return tuple(sorted(names))


def processors():
    """How many processors this process may use."""
    return len(os.sched_getaffinity(0))


@functools.cache
def moment():
    """Seconds since 1970 that every packed file has: SOURCE_DATE_EPOCH, or the time of the commit."""
    said = os.environ.get("SOURCE_DATE_EPOCH")
    if said is None:
        command = ("git", "-C", os.fspath(ROOT), "log", "-1", "--format=%ct")
        ran = subprocess.run(command, capture_output=True, text=True)
        if ran.returncode:
            raise SystemExit(f"git does not tell the time of the commit, so set SOURCE_DATE_EPOCH: {ran.stderr.strip()}")
        said = ran.stdout
    return int(said)
