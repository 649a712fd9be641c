"""Runs the program `bench_calls`, which makes one call as often as it is told."""

import resource
import subprocess
import tempfile
import time
from pathlib import Path
from typing import NamedTuple

ROOT = Path(__file__).resolve().parents[1]
CRATE = ROOT / "crates" / "bench_calls"
PROGRAM = CRATE / "out" / "bench_calls"
RUNS = 5


class Run(NamedTuple):
    """The seconds of the clock and of the processor that a run took."""

    wall: float
    processor: float


class Call(NamedTuple):
    """The words of a command, whose last one is how many turns it makes, and the number that it prints after all of them."""

    words: list
    turns: int
    answer: int

    def command(self, turns):
        return [str(word) for word in (*self.words, turns)]


def make_program():
    """Takes the program as the gate left it, else has it proved and built."""
    if not PROGRAM.is_file():
        print("rt run proves and builds bench_calls first.", flush=True)
        subprocess.run(["rt", "run", "--", "spans", "1", "0"], cwd=CRATE, check=True, stdout=subprocess.DEVNULL)


def ran(call, turns, folder):
    """What the call takes, in a new folder within that one."""
    with tempfile.TemporaryDirectory(dir=folder) as place:
        usage, began = resource.getrusage(resource.RUSAGE_CHILDREN), time.monotonic()
        answer = subprocess.check_output(call.command(turns), cwd=place)
        wall, after = time.monotonic() - began, resource.getrusage(resource.RUSAGE_CHILDREN)
    if int(answer) != (call.answer if turns else 0):
        raise SystemExit(f"{call.command(turns)} answers {answer!r}, not {call.answer}")
    return Run(wall, after.ru_utime + after.ru_stime - usage.ru_utime - usage.ru_stime)


def least(calls, folder):
    """Of each call the least times of a turn, less those of a run that makes none; the runs are taken in turn."""
    works = [(call, turns) for call in calls for turns in (call.turns, 0)]
    runs = [[ran(call, turns, folder) for call, turns in works] for _ in range(RUNS)]
    times = [Run(*map(min, zip(*of_one))) for of_one in zip(*runs)]
    pairs = zip(times[::2], times[1::2], calls)
    return [Run(*((whole - fixed) / call.turns for whole, fixed in zip(run, start))) for run, start, call in pairs]
