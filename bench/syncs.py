"""Counts how often runs of the program sync their registry, and how often before they connect. It wants strace."""

import os
import re
import subprocess
import sys
import tempfile
from pathlib import Path

ROOT = Path(__file__).resolve().parents[1]
sys.path.append(str(ROOT / "tests" / "end_to_end"))

import program  # noqa: E402
from peer import Peer  # noqa: E402

FILES = 40
LINE = "a line of some bytes\n"
CALLS = "fsync,fdatasync,connect"
SYNC = re.compile(r"\b(fsync|fdatasync)\(")
CONNECT = re.compile(r"\bconnect\(.*AF_INET")

HEAD = f"""
## Syncs of the registry

Runs over {FILES} files, in sequence, and how often each synced its registry: before its first connection, and in all. A
commit syncs its area twice, and the first commit of a run also syncs the area's folder. A run stores what is new about its
files before it sends a byte, and stores once more at its end.

| Run | Syncs before it connects | Syncs in all |
|---|---:|---:|
"""


def counted(moqhuluzi, folder):
    """The syncs of one run before its first connection, or all if it makes none; and all."""
    calls = folder / "calls"
    command = ("strace", "-f", "-o", os.fspath(calls), "-e", f"trace={CALLS}", os.fspath(moqhuluzi), "-c", "beat.toml", "--once")
    subprocess.run(command, cwd=folder, stdout=subprocess.DEVNULL, check=True)
    syncs, early = 0, None
    for line in calls.read_text().splitlines():
        if CONNECT.search(line) and early is None:
            early = syncs
        syncs += bool(SYNC.search(line))
    return (syncs if early is None else early), syncs


def syncs_table():
    moqhuluzi = program.proved_program()
    text = HEAD
    with tempfile.TemporaryDirectory() as place, Peer() as peer:
        folder = Path(place)
        logs = folder / "logs"
        logs.mkdir()
        paths = [logs / f"{number}.log" for number in range(FILES)]
        (folder / "beat.toml").write_text(program.settings_text(logs / "*.log", peer.host))

        def grow():
            for path in paths:
                with path.open("a") as file:
                    file.write(LINE)

        def remove():
            for path in paths:
                path.unlink()

        changes = {"all files new": grow, "nothing new": lambda: None, "all files grown": grow, "all files removed": remove}
        for name, change in changes.items():
            change()
            early, syncs = counted(moqhuluzi, folder)
            print(f"{name:>20} {early:>4} {syncs:>4} syncs", flush=True)
            text += f"| {name} | {early} | {syncs} |\n"
    return text
