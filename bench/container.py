"""Times `beat_container` over a container log in a file, beside a bare reader, and looks at the memory it holds."""

import os
import subprocess
import sys
import tempfile
from pathlib import Path

from calls import RUNS
from transport import make_bare

ROOT = Path(__file__).resolve().parents[1]
sys.path.append(str(ROOT / "tests" / "end_to_end"))

import program  # noqa: E402

TEXT = "x" * 120
MOMENT = "2016-10-06T00:17:09.669794202Z"
# the format, and how many lines the log has
FORMATS = [("cri", 1_000_000), ("docker", 200_000)]
# partial lines that make one line: of as many bytes as a message may have, and of twice as many
HELD = [140_288, 280_576]

HEAD = f"""
## Container logs

A log in a file, every fourth line partial, with texts of 120 bytes, through `beat_container`, compared with a bare reader
(`bench/bare.rs`) that finds and writes the same texts and looks at nothing else in a line. Processor time: the least of {RUNS}
alternating runs.

| Lines | Lines a second | Megabytes of the log a second | Bare reader, megabytes a second | Time ratio |
|---|---:|---:|---:|---:|
"""

MEMORY = """
Peak memory for a log of only partial lines, which are one line; a message of 16 MiB bounds it.

| Partial lines | Bytes of their texts | Peak memory, MiB |
|---:|---:|---:|
"""


def line(form, partial):
    if form == "docker":
        end = "" if partial else "\\n"
        return f'{{"log":"{TEXT}{end}","stream":"stdout","time":"{MOMENT}"}}\n'
    return f"{MOMENT} stdout {'P' if partial else 'F'} {TEXT}\n"


def converted(command, log, out):
    """The processor seconds of a run over the log."""
    with open(log, "rb") as source, open(out, "wb") as sink:
        started = subprocess.Popen([str(word) for word in command], stdin=source, stdout=sink)
        _, status, usage = os.wait4(started.pid, 0)
    started.returncode = os.waitstatus_to_exitcode(status)
    if started.returncode != 0:
        raise SystemExit(f"{command} ended with {started.returncode}")
    return usage.ru_utime + usage.ru_stime


def row(container, bare, form, lines, folder):
    log = folder / "log"
    log.write_text("".join(line(form, number % 4 == 3) for number in range(4)) * (lines // 4))
    commands = [[container, "--format", form, "--stream", "all"], [bare, "texts", form]]
    outs = [folder / "ours", folder / "theirs"]
    for command, out in zip(commands, outs):
        converted(command, log, out)
    if outs[0].read_bytes() != outs[1].read_bytes():
        raise SystemExit(f"{form}: the bare reader writes other lines")
    runs = [[converted(command, log, os.devnull) for command in commands] for _ in range(RUNS)]
    ours, theirs = map(min, zip(*runs))
    size = log.stat().st_size / 1e6
    print(f"{form:>7} {lines / ours:>10.0f} lines a second, {ours / theirs:.1f} times the bare reader's time", flush=True)
    return f"| {form} | {lines / ours:.0f} | {size / ours:.0f} | {size / theirs:.0f} | {ours / theirs:.1f} |\n"


def peak_of(container, pieces, folder):
    """The most memory in MiB that a run over one line of so many pieces had, by the system's count for it alone."""
    log = folder / "log"
    log.write_text(line("cri", True) * pieces)
    script = "import resource, subprocess, sys; subprocess.run(sys.argv[1:], check=True, stdout=subprocess.DEVNULL); print(resource.getrusage(resource.RUSAGE_CHILDREN).ru_maxrss)"
    with open(log, "rb") as source:
        told = subprocess.check_output(["python3", "-c", script, container, "--format", "cri", "--stream", "all"], stdin=source)
    return int(told) / 1024


def container_table():
    container = program.proved_program("beat_container")
    with tempfile.TemporaryDirectory() as room:
        folder = Path(room)
        bare = make_bare(folder)
        text = HEAD + "".join(row(container, bare, *one, folder) for one in FORMATS)
        memory = ((pieces, peak_of(container, pieces, folder)) for pieces in HELD)
        return text + MEMORY + "".join(f"| {pieces:,} | {pieces * len(TEXT):,} | {peak:.1f} |\n" for pieces, peak in memory)
