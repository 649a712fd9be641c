#!/usr/bin/env python3
"""Ships generated lines in memory; then the logs of examples/ by examples/beat.toml to a receiver on loopback, twice, and
shows the events, the reports and the stored offsets.

It runs the program that the gate proved; without one, it has `rt try` build the program with no proof, once for all runs.
The receiver is the proved beat_sink, or without it a script. All files that a run makes are in a temporary folder.
"""

import json
import os
import re
import shutil
import subprocess
import sys
import tempfile
import time
from pathlib import Path

sys.path.append(str(Path(__file__).resolve().parents[1] / "tests" / "end_to_end"))

import example  # noqa: E402
import program  # noqa: E402
from area import rows_of  # noqa: E402
from peer import GLANCE, Peer  # noqa: E402
from receiver import free_port  # noqa: E402

# seconds that building the program and running it may take, and between two signs of life
PATIENCE = 600
SIGN_SECONDS = 10
# about how many seconds that takes on two idle processors or more
UNPROVED_SECONDS = 110
# so many lines make four events
GENERATED_LINES = 10


class Unbuilt(Exception):
    """The program could not be built or run."""


class Sink:
    """The receiver beat_sink, over the file that it writes in a folder of its own."""

    def __init__(self, receiver, folder):
        self.receiver = receiver
        self.folder = Path(tempfile.mkdtemp(dir=folder))
        self.host = f"127.0.0.1:{free_port()}"
        self.faults = []

    def __enter__(self):
        self.started = program.start(self.receiver, ["-l", self.host, "-o", "lines", "--links", "2"], self.folder)
        while not (self.folder / "lines").exists() and self.started.poll() is None:
            time.sleep(GLANCE)
        return self

    def __exit__(self, *_):
        (self.folder / "stop").touch()
        program.finish(self.started)
        self.payloads = (self.folder / "lines").read_bytes().splitlines()


def receiving(folder):
    """The receiver of the runs."""
    try:
        return Sink(program.proved_program("beat_sink"), folder)
    except program.Missing:
        return Peer()


def processors():
    return len(os.sched_getaffinity(0))


def expected_seconds():
    """About how many seconds rt try takes here: beside the build it looks for names that a check will refuse."""
    return UNPROVED_SECONDS * (1 if processors() > 1 else 2)


def finish_with_signs(started):
    """Waits until a started program has ended, and says from time to time that it goes on; what it wrote."""
    begun = time.monotonic()
    while True:
        try:
            return started.communicate(timeout=SIGN_SECONDS)
        except subprocess.TimeoutExpired:
            seconds = time.monotonic() - begun
            if seconds > PATIENCE:
                program.end(started)
                raise Unbuilt(f"rt try has not ended after {PATIENCE} seconds") from None
            print(f"  {seconds:.0f} seconds so far, of about {expected_seconds()}", flush=True)


def run_unproved(runs, folder):
    """Builds the program with no proof, once, and plays the runs; what each printed, and its exit status."""
    cases = folder / "cases"
    cases.mkdir()
    for number, words in enumerate(runs):
        (cases / str(number)).touch()
        (cases / f"{number}.args").write_text("".join(f"{word}\n" for word in words))
    wrote, complained = finish_with_signs(program.start("rt", ["try", "--cases", str(cases)], program.CRATE))
    printed = re.split(rb"^== \d+\n", wrote, flags=re.MULTILINE)[1:]
    statuses = re.findall(rb"^case=\d+ run=ended status=(\d+) ", complained, re.MULTILINE)
    if not len(printed) == len(statuses) == len(runs):
        raise Unbuilt(complained.decode(errors="replace"))
    return [(text, int(status)) for text, status in zip(printed, statuses)]


def run_all(runs, folder):
    """What each of the runs printed, and its exit status; the proved program is taken, if there is one."""
    try:
        proved = program.proved_program()
    except program.Missing as why:
        print(f"Not proved: {why}.")
        print("So rt try builds the program once, with no proof, and runs it: about", end=" ")
        print(f"{expected_seconds()} seconds on an idle machine with {processors()} processors, as this one has.", flush=True)
        return run_unproved(runs, folder)
    print(f"Proved: {proved.relative_to(program.ROOT)}, as rt ci built it.", flush=True)
    ran = [program.run(proved, words, folder) for words in runs]
    return [(it.stdout, it.returncode) for it in ran]


def words_of(folder, logs, host):
    """The arguments of the runs: of generated lines, and then twice of the same files."""
    generated = shutil.copy(example.FOLDER / "generated.toml", folder)
    settings = folder / "beat.toml"
    settings.write_text(example.settings_for(logs, host))
    shipping = ["-c", str(settings), "--data", str(folder / "data"), "--once"]
    return [["-c", str(generated), "--once", "--generate", str(GENERATED_LINES)], shipping, shipping]


def show(title, lines):
    print(title)
    for line in lines:
        print(f"  {line}")


def report_lines(printed):
    return printed.decode(errors="replace").splitlines()


def show_files(logs):
    """Shows the files that are shipped; how many lines they have."""
    counts = {log.relative_to(logs): log.read_bytes().count(b"\n") for log in sorted(logs.rglob("*.log"))}
    show("Files, copied from examples/logs:", [f"{log}, {count} lines" for log, count in counts.items()])
    return sum(counts.values())


def show_stored(area):
    rows = rows_of(area.read_bytes()) if area.exists() else []
    show("Stored in the registry:", [f"offset {row['offset']} of {row['path']}" for row in rows])


def count_again(payloads):
    """How many of the events came before."""
    logs = [json.loads(payload)["log"] for payload in payloads]
    return len(logs) - len({(log["file"]["path"], log["offset"]) for log in logs})


def main():
    if not program.CRATE.is_dir():
        print(f"There is no program yet: {program.CRATE.relative_to(program.ROOT)} does not exist.")
        return 1
    with tempfile.TemporaryDirectory(prefix="beat-run-") as room:
        folder = Path(room).resolve()
        logs = Path(shutil.copytree(example.FOLDER / "logs", folder / "logs"))
        try:
            with receiving(folder) as peer:
                host = peer.host
                (generated, _), (first, _), (second, _) = ran = run_all(words_of(folder, logs, host), folder)
        except (program.TooLong, Unbuilt, OSError) as fault:
            print(fault)
            return 1
        show(f"Generated lines, {GENERATED_LINES} in memory:", report_lines(generated))
        lines = show_files(logs)
        print(f"Settings: examples/beat.toml, with {logs} for {example.LOGS} and {host} for {example.HOST}")
        show("Events received:", [payload.decode(errors="replace") for payload in peer.payloads])
        show("Report:", report_lines(first))
        show_stored(folder / "data" / "registry.a")
        show("A second run over the same files:", report_lines(second)[-2:])
    for fault in peer.faults:
        print(f"The program broke the protocol: {fault}")
    again = count_again(peer.payloads)
    print(f"Received {len(peer.payloads) - again} of {lines} lines, and {again} of them again.")
    is_whole = len(peer.payloads) == lines and not again and not peer.faults
    return 0 if is_whole and not any(status for _, status in ran) else 1


if __name__ == "__main__":
    sys.exit(main())
