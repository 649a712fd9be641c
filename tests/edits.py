#!/usr/bin/env python3
"""Tries wrong bodies, each of which the prover has to refuse. The gate tries those in crates/NAME/must-fail; the others
are in tests/edits/NAME, in the same form.

    python3 -B tests/edits.py [NAME..]     tries those of these crates, or of all, on a copy of the repository
    python3 -B tests/edits.py --check      only compares their texts with the crates: each still applies
"""

import argparse
import os
import re
import shutil
import subprocess
import sys
import tempfile
from pathlib import Path

ROOT = Path(__file__).resolve().parents[1]
IN_GATE = ROOT / "crates"
BESIDE = ROOT / "tests" / "edits"
# what a check of one crate may take of memory, so that as many run side by side as there is room for
CHECK_MEMORY_BYTES = 5 << 30
# of a crate that is not proved, so many lines of what its check printed
SHOWN_LINES = 30
# what a run says of how long it takes
COST = "after what no gate has proved here: about 1 processor minute an edit"
REFUSED = re.compile(r"rt: must-fail (\S+): refused, as it must be")
FILE, OLD, NEW = "file: ", "old: ", "new:"


def edits():
    """The edits of each crate, those of the gate first."""
    found = {}
    for file in sorted(IN_GATE.glob("*/must-fail/*.edit")) + sorted(BESIDE.glob("*/*.edit")):
        crate = file.relative_to(IN_GATE if file.is_relative_to(IN_GATE) else BESIDE).parts[0]
        found.setdefault(crate, []).append(file)
    return found


def fault_of(edit, crate):
    """Why the edit can't be applied to the crate; None if it can."""
    path, old, texts = None, None, {}
    for line in edit.read_text().splitlines():
        if line.startswith(FILE):
            path = IN_GATE / crate / line[len(FILE) :].strip()
        elif line.startswith(OLD):
            old = line[len(OLD) :]
        elif line.startswith(NEW):
            if path is None or not old:
                return "a 'new:' has no 'file:' or no 'old:' above it"
            if not path.is_file():
                return f"there is no file {path.relative_to(ROOT)}"
            text = texts.setdefault(path, path.read_text())
            count = text.count(old)
            if count != 1:
                return f"{path.relative_to(ROOT)} has the text of an 'old:' {count} times, not once"
            texts[path] = text.replace(old, line[len(NEW) :].removeprefix(" "))
            old = None
    if not texts:
        return "it changes nothing"
    return None if any(text != path.read_text() for path, text in texts.items()) else "it leaves all as it is"


def check(found):
    faults = []
    for crate, files in found.items():
        if not (IN_GATE / crate / "src").is_dir():
            faults.append(f"tests/edits/{crate}: there is no such crate")
            continue
        names = [it.name for it in files]
        faults += [f"{crate}: {name} is there twice" for name in sorted({it for it in names if names.count(it) > 1})]
        reasons = [(it, fault_of(it, crate)) for it in files]
        faults += [f"{it.relative_to(ROOT)}: {why}" for it, why in reasons if why]
    for fault in faults:
        print(fault)
    print(f"edits: {sum(map(len, found.values()))} apply, {len(faults)} faults")
    return 1 if faults else 0


def copied(room, found):
    """Lays the repository out in the folder `room`, with these edits and no others."""
    tops = set(IN_GATE.iterdir())

    def left_out(folder, names):
        # below the top of a crate, `out` is the folder of a function's proofs
        return {"must-fail", "out"} & set(names) if Path(folder) in tops else set()

    shutil.copytree(IN_GATE, room / "crates", ignore=left_out)
    for name in ("crates.txt", "HANDLES"):
        shutil.copy(ROOT / name, room)
    for crate, files in found.items():
        folder = room / "crates" / crate / "must-fail"
        folder.mkdir()
        for file in files:
            shutil.copy(file, folder)


def at_once():
    """How many checks run side by side, as rt ci takes it from the environment."""
    pages = os.sysconf("SC_PHYS_PAGES") * os.sysconf("SC_PAGE_SIZE")
    return max(1, min(len(os.sched_getaffinity(0)), pages // CHECK_MEMORY_BYTES))


def try_all(found):
    """Tries the edits over the crates as a gate on this machine proved them, and returns the exit status."""
    count = sum(map(len, found.values()))
    given = {"RT_JOBS": str(at_once()), **os.environ}
    print(f"trying {count} edits of {len(found)} crates, {given['RT_JOBS']} at a time, {COST}", flush=True)
    refused = dict.fromkeys(found, 0)
    with tempfile.TemporaryDirectory(prefix="edits-") as folder:
        copied(Path(folder), found)
        ran = subprocess.Popen(
            ["rt", "ci", *found], cwd=folder, env=given, stdout=subprocess.PIPE, stderr=subprocess.STDOUT, text=True
        )
        said = []
        for line in ran.stdout:
            said = [line] if line.startswith("== ") else [*said[-SHOWN_LINES:], line]
            if re.match(r"rt: .* NOT PROVED$", line):
                print("".join(said), end="", flush=True)
            elif line.startswith("rt: "):
                print(line, end="", flush=True)
            if tried := REFUSED.match(line):
                refused[tried.group(1).partition("/")[0]] += 1
        status = ran.wait()
    failed = [crate for crate, files in found.items() if refused[crate] != len(files)]
    for crate in failed:
        print(f"FAILED {crate}")
    total = sum(refused.values())
    print(f"edits: {total} refused, {count - total} not refused")
    return 1 if failed or status else 0


def main():
    words = argparse.ArgumentParser(description="Tries wrong bodies, each of which the prover has to refuse.")
    words.add_argument("--check", action="store_true", help="only compare their texts with the crates")
    words.add_argument("names", nargs="*", metavar="NAME", help="a crate (default: all)")
    given = words.parse_args()
    found = edits()
    unknown = [it for it in given.names if it not in found]
    if unknown:
        words.error(f"no edits of {', '.join(unknown)}")
    chosen = {crate: found[crate] for crate in given.names or found}
    return check(chosen) or (0 if given.check else try_all(chosen))


if __name__ == "__main__":
    sys.exit(main())
