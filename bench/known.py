"""Times what a scan says of known files by `bench_files`, beside two maps that are kept by hand."""

import subprocess
import tempfile

from calls import ROOT, RUNS, Call, least
from transport import make_bare

CRATE = ROOT / "crates" / "bench_files"
PROGRAM = CRATE / "out" / "bench_files"

FILES = 65_536
# the call, how many turns it makes, and what one turn is
TURNS = [("grown", 20, "each file grew"), ("gone", 5, "each file is new in one scan and gone in the next")]

KNOWN = f"""
## Known files

{FILES:,} files between scans: `Prospector::compare`, and for each change `FileTable::take`; for removed files also
`Prospector::file_of` and `gone`, and `FileTable::gone`. They are compared with two `BTreeMap`s, from keys to slots and from slots
to files, that are kept by hand (`bench/bare.rs`). Processor time: the least of {RUNS} alternating runs, less that of a run
without a turn.

| A turn | Milliseconds | Maps, milliseconds | Time ratio |
|---|---:|---:|---:|
"""


def known_row(name, turns, what, bare, folder):
    calls = [Call([one, name, FILES], turns, FILES * turns) for one in (PROGRAM, bare)]
    proved, mapped = (run.processor for run in least(calls, folder))
    print(f"{what}: {proved * 1e3:.1f} ms a turn, {proved / mapped:.2f} times the maps", flush=True)
    return f"| {what} | {proved * 1e3:.1f} | {mapped * 1e3:.1f} | {proved / mapped:.2f} |\n"


def known_table():
    if not PROGRAM.is_file():
        print("rt run proves and builds bench_files first.", flush=True)
        subprocess.run(["rt", "run", "--", "grown", "1", "0"], cwd=CRATE, check=True, stdout=subprocess.DEVNULL)
    with tempfile.TemporaryDirectory() as folder:
        bare = make_bare(folder)
        return KNOWN + "".join(known_row(name, turns, what, bare, folder) for name, turns, what in TURNS)
