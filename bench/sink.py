"""Times the receiver over loopback, beside a bare one that writes the same lines, and looks at the memory it holds."""

import os
import subprocess
import sys
import tempfile
import threading
import time
from pathlib import Path
from typing import NamedTuple

from transport import make_bare, peak_memory

ROOT = Path(__file__).resolve().parents[1]
sys.path.append(str(ROOT / "tests" / "end_to_end"))

import program  # noqa: E402
from receiver import free_port  # noqa: E402

# the events of a window, the bytes of an event, and how many windows are sent
WINDOW, EVENT, WINDOWS = 2_048, 120, 200
# how many windows may wait for their acknowledgement
DEPTHS = [1, 2]
RUNS = 5
# the seconds after which a receiver that was started listens
BEFORE = 0.2

HEAD = f"""
## The receiver over loopback

{WINDOWS} windows of {WINDOW:,} events of {EVENT} bytes each over one connection to `beat_sink`, compared with a bare receiver
(`bench/bare.rs`) that reads, cuts and writes the same bytes and acknowledges each window. The sender is the same for both.
Each time is the best of {RUNS} alternating runs.

| Windows in flight | Events a second | Bare receiver, events a second | Time ratio | Processor time ratio | Peak memory, MiB |
|---:|---:|---:|---:|---:|---:|
"""


class Run(NamedTuple):
    """The seconds of the clock and of the receiver's processor time that a run took."""

    wall: float
    processor: float


def run(receiver, words, sender, file):
    file.unlink(missing_ok=True)
    started = subprocess.Popen([receiver, *words], cwd=file.parent)
    while not file.exists():
        time.sleep(0.01)
    time.sleep(BEFORE)
    begun = time.monotonic()
    subprocess.run([*sender], check=True, stdout=subprocess.DEVNULL)
    wall = time.monotonic() - begun
    _, status, usage = os.wait4(started.pid, 0)
    if status != 0 or file.stat().st_size != WINDOWS * WINDOW * (EVENT + 1):
        raise SystemExit(f"{receiver} ended with {status} and wrote {file.stat().st_size} bytes")
    return Run(wall, usage.ru_utime + usage.ru_stime)


def peak(sink, words, sender, file):
    """The receiver's peak of memory in MiB over one more run."""
    file.unlink()
    sending = threading.Timer(BEFORE, subprocess.run, [sender], {"check": True, "stdout": subprocess.DEVNULL})
    sending.start()
    return peak_memory([sink, *words], file.parent) / 2**20


def least(runs):
    return Run(*(min(one) for one in zip(*runs)))


def row(sink, bare, folder, depth):
    events, file, runs = WINDOWS * WINDOW, folder / "lines", []
    for _ in range(RUNS):
        port = free_port()
        sender = [bare, "windows", str(port), str(depth), str(events), str(EVENT)]
        words = ["-l", f"127.0.0.1:{port}", "-o", file.name, "--links", "1"]
        ours = run(sink, words, sender, file)
        runs.append((ours, run(bare, ["lines", str(port), file.name], sender, file)))
    ours, theirs = (least(one) for one in zip(*runs))
    memory = peak(sink, words, sender, file)
    print(f"{depth:>6} windows {events / ours.wall:>12.0f} events a second, {ours.wall / theirs.wall:.2f} times the bare receiver's time", flush=True)
    rates = f"{events / ours.wall:.0f} | {events / theirs.wall:.0f}"
    return f"| {depth} | {rates} | {ours.wall / theirs.wall:.2f} | {ours.processor / theirs.processor:.2f} | {memory:.1f} |\n"


def sink_table(sink=None):
    sink = sink or program.proved_program("beat_sink")
    with tempfile.TemporaryDirectory() as room:
        folder = Path(room)
        bare = make_bare(folder)
        return HEAD + "".join(row(sink, bare, folder, depth) for depth in DEPTHS)
