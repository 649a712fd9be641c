"""Times the tracker and commits of the registry by `bench_calls`, each beside the same by hand."""

import subprocess
import tempfile
from pathlib import Path

from calls import CRATE, PROGRAM, RUNS, Call, least, make_program
from transport import make_bare, peak_memory

SPANS = 1_000_000
# the bytes of a span
SPAN = 10
# by which strides each hundred thousand spans are settled
ORDERS = [(1, "in order"), (7_919, "permuted"), (99_999, "backwards")]

# rows of a commit, and how many commits are made; no more fit into an area before a checkpoint
COMMITS = [(1, 400), (100, 400), (8_192, 10)]

SETTLED = f"""
## `Tracker::note`

{SPANS:,} spans of {SPAN} bytes of one file, each hundred thousand of them in order, in the order of the permutation
`i * 7919 mod 100,000`, and backwards; compared with a `BTreeMap` of intervals that is kept by hand (`bench/bare.rs`).
Processor time: the least of {RUNS} alternating runs; peak memory is from one more run.

| Order | Million spans a second | Map, million spans a second | Time ratio | Peak memory, MiB | Map, peak memory, MiB |
|---|---:|---:|---:|---:|---:|
"""

STORED = f"""
## `Store::commit`

Commits of a store over two files, compared with a bare writer (`bench/bare.rs`) of the same bytes and syncs, which makes no
text. Times are by the clock, the least of {RUNS} alternating runs, less that of a run without a commit; they depend on the
disk, and on what else runs. Peak memory is from one more run.

| What | Commits a second | Rows a second | Bare writer, commits a second | Time ratio | Peak memory, MiB |
|---|---:|---:|---:|---:|---:|
"""


def peak(call, folder):
    with tempfile.TemporaryDirectory(dir=folder) as place:
        return peak_memory(call.command(call.turns), place) / 2**20


def settled_row(stride, name, bare, folder):
    calls = [Call([one, "spans", stride], SPANS, SPANS * SPAN) for one in (PROGRAM, bare)]
    tracked, mapped = (run.processor for run in least(calls, folder))
    peaks = " | ".join(f"{peak(call, folder):.1f}" for call in calls)
    rates = [1 / tracked / 1e6, 1 / mapped / 1e6]
    print(f"{name:>17} {rates[0]:>8.2f} million spans a second, {tracked / mapped:.2f} times the map", flush=True)
    return f"| {name} | {rates[0]:.2f} | {rates[1]:.2f} | {tracked / mapped:.2f} | {peaks} |\n"


def stored_row(rows, turns, bare, folder):
    # the record that is written bare is that of one commit
    one = Path(folder) / f"of-{rows}"
    one.mkdir()
    subprocess.check_output([PROGRAM, "commits", str(rows), "1"], cwd=one)
    store = Call([PROGRAM, "commits", rows], turns, rows * turns)
    record = Call([bare, "records", one / "bench.a", rows], turns, rows * turns)
    commit, written = (run.wall for run in least([store, record], folder))
    memory = peak(store, folder)
    name = f"commits of {rows:,} row" + "s" * (rows > 1)
    print(f"{name:>22} {1 / commit:>10.1f} a second, {commit / written:.2f} times the bare time", flush=True)
    return f"| {name} | {1 / commit:.1f} | {rows / commit:.0f} | {1 / written:.1f} | {commit / written:.2f} | {memory:.1f} |\n"


def settled_table():
    make_program()
    with tempfile.TemporaryDirectory() as folder:
        bare = make_bare(folder)
        return SETTLED + "".join(settled_row(stride, name, bare, folder) for stride, name in ORDERS)


def stored_table():
    make_program()
    # on the disk, and not in memory
    with tempfile.TemporaryDirectory(dir=CRATE / "out") as folder:
        bare = make_bare(folder)
        return STORED + "".join(stored_row(rows, turns, bare, folder) for rows, turns in COMMITS)
