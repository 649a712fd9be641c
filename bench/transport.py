"""Times the program over files and a receiver on loopback, beside a bare sender of the same payloads."""

import os
import subprocess
import sys
import tempfile
import time
from pathlib import Path
from typing import NamedTuple

ROOT = Path(__file__).resolve().parents[1]
sys.path.append(str(ROOT / "tests" / "end_to_end"))

import program  # noqa: E402

LINES = 200_000
# bytes of a line, its line feed not counted
LINE = 120
# in so many files they stand, in each of them as many
FILES = [1, 100, 2_000]
RUNS = 5
# so many lanes read them, and as many workers send what they read
CREWS = [1, 2, 4]
CREW_FILES = 100
# what changes each event, and lets all of them through
PROCESSORS = """processors = [
    { add_fields = { target = "host", fields = { name = "node-7" } } },
    { add_tags = { tags = ["web"] } },
    { rename = { fields = [{ from = "log.file.path", to = "path" }] } },
    { drop_fields = { fields = ["log.offset", "input"] } },
    { drop_event = { when = { contains = { message = "DEBUG" } } } },
]
"""
# more connections than all runs make
CONNECTIONS = 1_000_000

HEAD = f"""
## The program over files

{LINES:,} lines of {LINE} bytes, {LINES * (LINE + 1) / 1e6:.1f} megabytes, in one or more files of equal size, to a receiver on
loopback that acknowledges each window. A window has at most 2,048 events. The program is compared with a bare sender
(`bench/bare.rs`), which reads the same files in sequence and sends the same payloads to the same receiver. Each time is the
best of {RUNS} alternating runs; peak memory is from one more run.

| Files | | Lines a second | Megabytes of the files a second | Processor seconds | Peak memory, MiB |
|---:|---|---:|---:|---:|---:|
"""

RATIOS = """
The program compared with the bare sender, in these runs:

| Files | Time ratio | Processor time ratio | Peak memory ratio |
|---:|---:|---:|---:|
"""

CREW_HEAD = f"""
The program over {CREW_FILES} such files with equally many lanes and workers; the ratio is to one lane and one worker:

| What | Lanes and workers | Lines a second | Time ratio | Processor seconds |
|---|---:|---:|---:|---:|
"""


class Load(NamedTuple):
    """What lanes and workers have to do: what is said of it, settings of processors, and how late the peer answers."""

    name: str
    processors: str
    milliseconds_late: int


LOADS = [
    Load("lines", "", 0),
    Load("lines that five processors change", PROCESSORS, 0),
    Load("lines to a peer that answers 5 ms late", "", 5),
    Load("lines to a peer that answers 50 ms late", "", 50),
]


class Run(NamedTuple):
    """The seconds of the clock and of the processor that one run took."""

    wall: float
    processor: float


class Figures(NamedTuple):
    """The best run, and the peak of its memory in bytes."""

    run: Run
    memory: int


def make_bare(folder):
    bare = Path(folder) / "bare"
    subprocess.run(["rustc", "--edition", "2021", "-O", "-o", bare, ROOT / "bench" / "bare.rs"], check=True)
    return bare


def make_files(folder, count):
    """A folder with so many files of lines that differ in their number, of letters and spaces else."""
    logs = Path(folder) / f"logs-{count}"
    logs.mkdir()
    for first in range(0, LINES, LINES // count):
        lines = "".join(line_of(number) for number in range(first, first + LINES // count))
        (logs / f"{first:08}.log").write_text(lines)
    sizes = [it.stat().st_size for it in logs.iterdir()]
    if len(sizes) != count or sum(sizes) != LINES * (LINE + 1):
        raise SystemExit(f"the lines have not {LINE} bytes, or the files are not {count}")
    return logs


def line_of(number):
    return f"{number:08} " + "the quick brown fox jumps over the lazy dog "[:37] * 3 + "\n"


def timed(command, folder):
    began = time.monotonic()
    started = subprocess.Popen(command, cwd=folder, stdout=subprocess.DEVNULL)
    _, status, usage = os.wait4(started.pid, 0)
    wall = time.monotonic() - began
    started.returncode = os.waitstatus_to_exitcode(status)
    if started.returncode != 0:
        raise SystemExit(f"{command} ended with {started.returncode}")
    return Run(wall, usage.ru_utime + usage.ru_stime)


def peak_memory(command, folder):
    """The greatest resident size in bytes that was seen while the command ran.

    What wait4 tells would count this script in, from which the command was started."""
    started = subprocess.Popen(command, cwd=folder, stdout=subprocess.DEVNULL)
    sizes = [0]
    while started.poll() is None:
        lines = Path(f"/proc/{started.pid}/status").read_text().splitlines()
        if f"Name:\t{Path(command[0]).name}" in lines:
            sizes += [int(line.split()[1]) * 1024 for line in lines if line.startswith("VmHWM:")]
        time.sleep(0.001)
    return max(sizes)


class Loopback:
    """A receiver, to which commands ship files, each in a folder of its own. It answers so many milliseconds late."""

    def __init__(self, folder, bare, milliseconds_late=0):
        self.folder = Path(folder)
        self.bare = bare
        command = [self.bare, "receive", str(CONNECTIONS), str(milliseconds_late)]
        self.receiver = subprocess.Popen(command, stdout=subprocess.PIPE, text=True)
        self.host = f"127.0.0.1:{int(self.receiver.stdout.readline())}"

    def over(self, measure, command, logs, crew=1, processors=""):
        """What is measured of one run, after which the receiver has to have every line."""
        settings = processors + program.settings_text(logs / "*.log", self.host, f"workers = {crew}")
        # the registry of a run is in the folder where it runs
        with tempfile.TemporaryDirectory(dir=self.folder) as place:
            (Path(place) / "beat.toml").write_text(f"{settings}[harvest]\nlanes = {crew}\n")
            taken = measure(command, place)
        # a line for each connection
        missing = LINES
        while missing:
            missing -= int(self.receiver.stdout.readline())
        return taken

    def best_of_crews(self, moqhuluzi, logs, processors):
        """The best run of the program with each number of lanes and workers. The runs are taken in turn."""
        command = [moqhuluzi, "-c", "beat.toml", "--once"]
        runs = [[self.over(timed, command, logs, crew, processors) for crew in CREWS] for _ in range(RUNS)]
        return {crew: Run(*map(min, zip(*of_one))) for crew, of_one in zip(CREWS, zip(*runs))}

    def measured(self, moqhuluzi, logs):
        """The figures of the program and of the bare sender over these files."""
        commands = ([moqhuluzi, "-c", "beat.toml", "--once"], [self.bare, "send", logs, self.host])
        runs = [[self.over(timed, command, logs) for command in commands] for _ in range(RUNS)]
        best = [Run(*map(min, zip(*of_one))) for of_one in zip(*runs)]
        peaks = [self.over(peak_memory, command, logs) for command in commands]
        return [Figures(*of_one) for of_one in zip(best, peaks)]

    def __enter__(self):
        return self

    def __exit__(self, *_):
        self.receiver.terminate()
        self.receiver.wait()


def row(files, name, figures):
    run, memory = figures
    mega = LINES * (LINE + 1) / run.wall / 1e6
    return f"| {files} | {name} | {LINES / run.wall:.0f} | {mega:.1f} | {run.processor:.3f} | {memory / 2**20:.1f} |\n"


def ratios(files, ours, bare):
    wall, processor = ours.run.wall / bare.run.wall, ours.run.processor / bare.run.processor
    print(f"{files:>6} files {wall:.2f} times the bare sender's time, {processor:.2f} times its processor time", flush=True)
    return f"| {files} | {wall:.2f} | {processor:.2f} | {ours.memory / bare.memory:.1f} |\n"


def crew_rows(loopback, load, moqhuluzi, logs):
    best = loopback.best_of_crews(moqhuluzi, logs, load.processors)
    rows = ""
    for crew, run in best.items():
        times = run.wall / best[CREWS[0]].wall
        print(f"{load.name}: {crew} lanes and workers {times:.2f} times the time of one", flush=True)
        rows += f"| {load.name} | {crew} | {LINES / run.wall:.0f} | {times:.2f} | {run.processor:.3f} |\n"
    return rows


def measured_over(loopback, moqhuluzi, logs):
    """The rows of the program and of the bare sender, and those of the one beside the other."""
    rows, beside = "", ""
    for files in FILES:
        ours, bare = loopback.measured(moqhuluzi, logs[files])
        rows += row(files, "the program", ours) + row(files, "the bare sender", bare)
        beside += ratios(files, ours, bare)
    return rows + RATIOS + beside


def transport_table():
    program.allow_open_files()
    moqhuluzi = program.proved_program()
    with tempfile.TemporaryDirectory() as folder:
        bare = make_bare(folder)
        logs = {files: make_files(folder, files) for files in FILES}
        with Loopback(folder, bare) as loopback:
            table = HEAD + measured_over(loopback, moqhuluzi, logs)
        crews = ""
        for load in LOADS:
            with Loopback(folder, bare, load.milliseconds_late) as loopback:
                crews += crew_rows(loopback, load, moqhuluzi, logs[CREW_FILES])
    return table + CREW_HEAD + crews
