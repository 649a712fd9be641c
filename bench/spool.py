"""Times `beat_spool` beside a bare writer that syncs as often and a bare sender, and looks at the memory it holds."""

import os
import subprocess
import sys
import tempfile
import time
from pathlib import Path

from transport import make_bare, peak_memory

ROOT = Path(__file__).resolve().parents[1]
sys.path.append(str(ROOT / "tests" / "end_to_end"))

import program  # noqa: E402

# so many lines are put, each of so many bytes
LINES, LINE = 10_000, 120
# so many events are sent, each of so many bytes
EVENTS, EVENT = 409_600, 120
# events of this length fill a spool of this length, with room for the records that settle them
HELD = 200
SPOOL_BYTES = 1_073_741_824
HEAD_BYTES, SETTLING_BYTES = 14, 34
PUT_RUNS, RUNS = 5, 3
# more connections than all runs make
CONNECTIONS = 1_000

HEAD = f"""
## A spool on disk

`put` of {LINES:,} lines of {LINE} bytes, compared with a bare writer (`bench/bare.rs`) that writes the same records and syncs
as often, twice for each; and `send` of {EVENTS:,} events of {EVENT} bytes in windows of 2,048 to a receiver on loopback,
compared with a bare sender of the same windows. Each time is the best of {PUT_RUNS} alternating runs of `put` and of {RUNS} of
`send`.

| What | A second | Bare program, a second | Time ratio |
|---|---:|---:|---:|
"""

MEMORY = """
Peak memory for a spool of the greatest length, opened and sent to that receiver.

| Events | Bytes of each | Bytes of the spool | Seconds | Peak memory, MiB |
|---:|---:|---:|---:|---:|
"""


def seconds(command, folder, given=None):
    source = open(given, "rb") if given else subprocess.DEVNULL
    begun = time.monotonic()
    ran = subprocess.run([str(word) for word in command], cwd=folder, stdin=source, stdout=subprocess.DEVNULL)
    wall = time.monotonic() - begun
    if ran.returncode != 0:
        raise SystemExit(f"{command} ended with {ran.returncode}")
    return wall


def row(what, count, ours, theirs):
    print(f"{what:>5} {count / ours:>10.0f} a second, {ours / theirs:.2f} times the bare program's time", flush=True)
    return f"| `{what}` | {count / ours:.0f} | {count / theirs:.0f} | {ours / theirs:.2f} |\n"


def put_row(spool, bare, folder):
    lines = folder / "lines"
    lines.write_bytes((b"x" * LINE + b"\n") * LINES)
    runs = []
    for _ in range(PUT_RUNS):
        (folder / "spool").unlink(missing_ok=True)
        runs.append((seconds([spool, "put"], folder, lines), seconds([bare, "put", LINES, LINE], folder)))
    return row("put", LINES, *map(min, zip(*runs)))


def write_spool(folder, events, size):
    """A spool of so many events of so many bytes."""
    record = b"{%010d e" % size + b"x" * size + b"\n"
    with open(folder / "spool", "wb") as spool:
        for first in range(0, events, 2_048):
            spool.write(record * min(2_048, events - first))
        spool.write(b".")


def send_row(spool, bare, folder, host):
    runs = []
    for _ in range(RUNS):
        write_spool(folder, EVENTS, EVENT)
        ours = seconds([spool, "send", host], folder)
        runs.append((ours, seconds([bare, "windows", host.rpartition(":")[2], 1, EVENTS, EVENT], folder)))
    return row("send", EVENTS, *map(min, zip(*runs)))


def memory_row(spool, folder, host):
    events = (SPOOL_BYTES - 1) // (HEAD_BYTES + HELD + SETTLING_BYTES)
    write_spool(folder, events, HELD)
    size = (folder / "spool").stat().st_size
    begun = time.monotonic()
    peak = peak_memory([os.fspath(spool), "send", host], folder) / 2**20
    wall = time.monotonic() - begun
    if (folder / "spool").read_bytes() != b".":
        raise SystemExit("the spool is not empty after all was sent")
    print(f"{events} events of {HELD} bytes: {peak:.1f} MiB", flush=True)
    return f"| {events:,} | {HELD} | {size:,} | {wall:.0f} | {peak:.1f} |\n"


def spool_table():
    spool = program.proved_program("beat_spool")
    with tempfile.TemporaryDirectory() as room:
        folder = Path(room)
        bare = make_bare(folder)
        receiver = subprocess.Popen([bare, "receive", str(CONNECTIONS), "0"], stdout=subprocess.PIPE, text=True)
        try:
            host = f"127.0.0.1:{int(receiver.stdout.readline())}"
            text = HEAD + put_row(spool, bare, folder) + send_row(spool, bare, folder, host)
            return text + MEMORY + memory_row(spool, folder, host)
        finally:
            receiver.kill()
            receiver.wait()
