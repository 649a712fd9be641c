#!/usr/bin/env python3
"""Ships two plain lines once for each allocation of such a run, and makes that allocation fail. The answer has to be
out of memory or the right one, and the area has to be absent, not opened, or one that the run may leave.

    python3 tests/end_to_end/allocations.py [--program PATH]

It wants a C compiler (cc), and is no part of the gate.
"""

import argparse
import collections
import os
import subprocess
import sys
import tempfile
from pathlib import Path

import program
from area import changed, key_of, row, rows_of, text
from peer import Peer

SHIM = Path(__file__).with_name("failing_malloc.c")
NO_MEMORY = b"status 12 no memory\n"


def build_shim(folder):
    library = folder / "failing_malloc.so"
    subprocess.run(["cc", "-shared", "-fPIC", "-O1", "-o", os.fspath(library), os.fspath(SHIM)], check=True)
    return library


def name_of(stored, path):
    """What the area is that a run left; nothing where no run may leave it."""
    if stored is None:
        return "absent"
    if not stored.startswith(b"{"):
        return "not opened"
    rows = rows_of(stored)
    named = {f"row at {offset}": [changed(row(path, offset))] for offset in (0, 2, 4)}
    return next((name for name, held in {"no row": [], **named}.items() if held == rows), None)


def report(path):
    file = f"file {text(key_of(path))} 0 4 {text(path)}\n"
    return f"{file}shipped 2 dropped 0\nstatus 0 done\n".encode()


def ship(tested, library, failing):
    """One run: what it ended with, which area it left, and how many allocations it made."""
    with tempfile.TemporaryDirectory(prefix="beat-test-") as room, Peer() as peer:
        folder = Path(room).resolve()
        path = str(folder / "a.log")
        Path(path).write_bytes(b"a\nb\n")
        (folder / "beat.toml").write_text(program.settings_text(path, peer.host))
        counted = folder / "count"
        ran = subprocess.run(
            [os.fspath(tested), "-c", "beat.toml", "--once"],
            cwd=folder,
            env={"LD_PRELOAD": os.fspath(library), "FAIL_ALLOCATION": str(failing), "COUNT_ALLOCATIONS": str(counted)},
            stdin=subprocess.DEVNULL,
            capture_output=True,
            timeout=program.LIMIT,
        )
        stored = folder / "data" / "registry.a"
        left = stored.read_bytes() if stored.exists() else None
        named = name_of(left, path)
        ended = (ran.returncode, ran.stdout, ran.stderr)
        done = ended == (0, report(path), b"") and named == "row at 4"
        wanting = ended == (12, NO_MEMORY, b"") and named is not None
        answer = "done" if done else "no memory" if wanting else f"wrong: {ended} {left!r}"
        return answer, named, int(counted.read_text())


def main():
    words = argparse.ArgumentParser(description="Makes each allocation of a run fail.")
    words.add_argument("--program", type=Path, help="the program (default: the one that rt ci built)")
    given = words.parse_args()
    tested = given.program.resolve(strict=True) if given.program else program.proved_program()
    with tempfile.TemporaryDirectory(prefix="beat-test-") as room:
        library = build_shim(Path(room))
        whole, _, count = ship(tested, library, 0)
        found = collections.Counter(ship(tested, library, failing)[:2] for failing in range(1, count + 1))
    for (answer, named), runs in sorted(found.items(), key=str):
        print(f"{runs} of {count}: {answer}, area {named}")
    right = whole == "done" and count > 0 and all(not answer.startswith("wrong") for answer, _ in found)
    print("each allocation failing: " + ("passed" if right else "FAILED"))
    return 0 if right else 1


if __name__ == "__main__":
    sys.exit(main())
