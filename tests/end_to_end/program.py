"""The programs: where the gate leaves them, and how they are run."""

import os
import resource
import subprocess
from pathlib import Path

ROOT = Path(__file__).resolve().parents[2]
CRATE = ROOT / "crates" / "beat_main"

# seconds that a run may take, and seconds that it has to end once it is asked to
LIMIT = 20
GRACE = 5


class Missing(Exception):
    """There is no program that could be run."""


class TooLong(AssertionError):
    """A run had not ended within the limit."""


def sources():
    yield ROOT / "crates.txt"
    for part in ("src", "specs", "proofs"):
        yield from (it for it in ROOT.glob(f"crates/*/{part}/**/*") if it.is_file())


def proved_program(name="beat_main"):
    """The program that the gate proved and built; `Missing` where there is none, or some source is newer."""
    crate = ROOT / "crates" / name
    program = crate / "out" / name
    where = program.relative_to(ROOT)
    if not crate.is_dir():
        raise Missing(f"there is no program: {crate.relative_to(ROOT)} does not exist")
    if not program.is_file():
        raise Missing(f"there is no proved program: {where} is absent (rt ci makes it)")
    for source in sources():
        if source.stat().st_mtime > program.stat().st_mtime:
            raise Missing(f"{where} is older than {source.relative_to(ROOT)} (rt ci makes it anew)")
    return program


def allow_open_files():
    """Lets the programs that are started open as many files as this machine allows: a run keeps each file open that it follows."""
    _, most = resource.getrlimit(resource.RLIMIT_NOFILE)
    resource.setrlimit(resource.RLIMIT_NOFILE, (most, most))


def settings_text(glob, host, *more):
    """The settings of one input with this glob; more lines are keys of the output."""
    lines = ("[[inputs]]", 'id = "w"', f'paths = ["{glob}"]', 'file_identity = "path"', "[output]", f'hosts = ["{host}"]')
    return "".join(f"{line}\n" for line in lines + more)


def start(program, words, folder, output=subprocess.PIPE):
    """Starts a program in a folder; `finish` waits for its end."""
    return subprocess.Popen(
        [os.fspath(program), *words],
        cwd=folder,
        stdin=subprocess.DEVNULL,
        stdout=output,
        stderr=subprocess.PIPE,
    )


def finish(started, limit=LIMIT):
    """Waits until a started program has ended, and ends it after the limit; its status and what it wrote."""
    try:
        wrote, complained = started.communicate(timeout=limit)
    except subprocess.TimeoutExpired:
        wrote, complained = end(started)
        raise TooLong(f"not ended after {limit} seconds; it wrote {wrote!r} {complained!r}") from None
    return subprocess.CompletedProcess(started.args, started.returncode, wrote, complained)


def end(started):
    """Asks a started program to end, and kills it where it does not; what it wrote."""
    started.terminate()
    try:
        return started.communicate(timeout=GRACE)
    except subprocess.TimeoutExpired:
        started.kill()
        return started.communicate()


def run(program, words, folder):
    """Runs the program in a folder, at most until the limit; its status and what it wrote."""
    return finish(start(program, words, folder))
