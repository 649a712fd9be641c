"""Times runs of the program that find nothing new: many files, by each identity, and files under many globs."""

import sys
import tempfile
from pathlib import Path
from typing import NamedTuple

from transport import peak_memory, timed

ROOT = Path(__file__).resolve().parents[1]
sys.path.append(str(ROOT / "tests" / "end_to_end"))

import program  # noqa: E402
from peer import Peer  # noqa: E402

FILES = 10_000
# bytes of a file, which are as many as a fingerprint reads by default
SIZE = 1_024
RUNS = 5

# under so many inputs of so many globs
GLOBBED_FILES = 1_000
INPUTS = 64
GLOBS = 64

HEAD = f"""
## Runs that find nothing new

A run over files of {SIZE:,} bytes, each of one line, that an earlier run has shipped: each is listed, opened and looked at,
and for a fingerprint opened and read once before. The last two rows are runs over {GLOBBED_FILES:,} files, each covered by one
of {INPUTS} times {GLOBS} globs: the roots of all globs are one folder, or each input has a root of its own and all files are in
the first. Each time is the best of {RUNS} alternating runs; peak memory is from one more run.

| Files | | Milliseconds | Processor milliseconds | Microseconds a file | Peak memory, MiB |
|---:|---|---:|---:|---:|---:|
"""


class Case(NamedTuple):
    """The files of a run, what is said of it, and the inputs of its settings."""

    files: int
    name: str
    inputs: str


def input_text(number, globs, identity):
    paths = ", ".join(f'"{glob}"' for glob in globs)
    return f'[[inputs]]\nid = "w{number}"\npaths = [{paths}]\nfile_identity = "{identity}"\n'


def globs_text(root_of):
    """Each input has globs of names that begin with a number of its own, below its root."""
    return "".join(
        input_text(number, [f"{root_of(number)}/{number * GLOBS + glob:04}*.log" for glob in range(GLOBS)], "path")
        for number in range(INPUTS)
    )


def cases(folder):
    logs = folder / "logs"
    few = folder / "few"
    elsewhere = lambda number: few if number == 0 else folder / f"other-{number}"
    yield from (Case(FILES, f"by {it}", input_text(0, [logs / "*.log"], it)) for it in ("path", "native", "fingerprint"))
    yield Case(GLOBBED_FILES, "under globs of one root", globs_text(lambda _: few))
    yield Case(GLOBBED_FILES, "under globs of many roots", globs_text(elsewhere))


def make_files(folder):
    for name, count in (("logs", FILES), ("few", GLOBBED_FILES)):
        (folder / name).mkdir()
        # of the globs of the first input each covers as many of the few files
        for number in range(count):
            line = f"{number:08} ".ljust(SIZE - 1, "x") + "\n"
            (folder / name / f"{number % GLOBS:04}-{number:08}.log").write_text(line)


def measured(moqhuluzi, case, folder):
    """The best run over what an earlier run shipped, and the peak of memory of one more."""
    command = [moqhuluzi, "-c", "beat.toml", "--once"]
    with tempfile.TemporaryDirectory(dir=folder) as place, Peer() as peer:
        (Path(place) / "beat.toml").write_text(f'{case.inputs}[output]\nhosts = ["{peer.host}"]\n')
        timed(command, place)
        if peer.connections != 1:
            raise SystemExit(f"{case.name}: the first run sent nothing")
        runs = [timed(command, place) for _ in range(RUNS)]
        peak = peak_memory(command, place)
        if peer.connections != 1:
            raise SystemExit(f"{case.name}: a later run sent something")
    wall, processor = map(min, zip(*runs))
    return wall, processor, peak


def unchanged_table():
    program.allow_open_files()
    moqhuluzi = program.proved_program()
    text = HEAD
    with tempfile.TemporaryDirectory() as folder:
        make_files(Path(folder))
        for case in cases(Path(folder)):
            wall, processor, peak = measured(moqhuluzi, case, folder)
            print(f"{case.files:>6} files {case.name:>26} {wall * 1e3:>8.0f} milliseconds", flush=True)
            times = f"{wall * 1e3:.0f} | {processor * 1e3:.0f} | {wall / case.files * 1e6:.0f}"
            text += f"| {case.files:,} | {case.name} | {times} | {peak / 2**20:.1f} |\n"
    return text
