#!/usr/bin/env python3
"""Packs the proved programs with their pages, units and examples into dist/moqhuluzi-VERSION-x86_64.tar.gz.

    python3 -B package/dist.py [--programs FOLDER] [--into FOLDER]

The programs are those that `make build` or `make test` proved; --programs takes others, for tests. Two runs over the same
programs and commit give the same bytes: names are sorted, and owner, modes and times are fixed.
"""

import argparse
import gzip
import hashlib
import io
import sys
import tarfile
from pathlib import Path

import elf
import licences
import man
import products

sys.path.append(str(products.ROOT / "tests" / "end_to_end"))

import program  # noqa: E402

# what is packed of the repository as it is
AS_IT_IS = ("README.md", "CHANGELOG.md", "VERSION", "docs/**/*.md", "examples/*.toml", "examples/*.service")
AS_IT_IS += ("examples/*.timer", "examples/logs/**/*.log")
SUMS = "SHA256SUMS"
# how hard gzip tries; at 9 it takes four times as long, and saves a hundredth
LEVEL = 6
# about how long it takes to pack or to make the Debian package
SECONDS = 10
# the page that says which C library the programs need
INSTALLING = products.ROOT / "docs" / "install.md"


class Fault(Exception):
    """Why nothing is packed."""


def built(folder):
    """Each program of the product, by its name: those in the folder, or without one those that are proved."""
    missing = []
    for name in products.programs():
        try:
            file = folder / name if folder else program.proved_program(name)
            yield name, file.read_bytes()
            check_needs(name, file)
            print(f"  {name}, {file.stat().st_size:,} bytes", flush=True)
        except program.Missing as why:
            missing.append(f"{why}: make build PROGRAM={name}")
        except FileNotFoundError as why:
            missing.append(str(why))
    if missing:
        raise Fault("\n".join(missing))


def stated_version():
    """The version of the C library that the page on installing states, as (2, 34)."""
    major, minor = INSTALLING.read_text().split("GNU C library ")[1].split()[0].split(".")
    return int(major), int(minor)


def check_needs(name, file):
    """A program needs what the page on installing states, and nothing else."""
    others = [it for it in elf.libraries(file) if it not in elf.C_LIBRARY]
    if others:
        raise Fault(f"{name} needs {', '.join(others)}, which docs/install.md does not state")
    needed = elf.c_library_version(file)
    if needed > stated_version():
        raise Fault(f"{name} needs version {needed} of the C library, and docs/install.md states {stated_version()}")


def say_beforehand():
    """Says what is done and how long it takes, which no number of processors changes, as one of them does it."""
    print(f"packs {len(products.programs())} programs, {len(man.pages())} man pages, the pages and the licences: some {SECONDS} seconds")
    if not licences.own_licence():
        print("no licence is chosen for Moqhuluzi yet, as licences/README.md of the package says", flush=True)


def contents(folder=None):
    """What is packed: the mode and the bytes of each file, by its path."""
    say_beforehand()
    files = {f"bin/{name}": (0o755, data) for name, data in built(folder)}
    for pattern in AS_IT_IS:
        for file in products.ROOT.glob(pattern):
            files[str(file.relative_to(products.ROOT))] = (0o644, file.read_bytes())
    for page, name, section in man.pages():
        files[f"man/man{section}/{name}.{section}"] = (0o644, man.man_page(page, name, section).encode())
    for file in licences.own_licence():
        files[file.name] = (0o644, file.read_bytes())
    notes, texts = licences.notes()
    files["licences/README.md"] = (0o644, notes.encode())
    for name, text in texts.items():
        files[f"licences/{name}"] = (0o644, text)
    sums = [f"{hashlib.sha256(data).hexdigest()}  {path}\n" for path, (_, data) in sorted(files.items())]
    files[SUMS] = (0o644, "".join(sums).encode())
    return files


def packed(files, top):
    """The bytes of a compressed archive of these files, in a folder of this name."""
    moment, made = products.moment(), io.BytesIO()
    with gzip.GzipFile(filename="", mode="wb", compresslevel=LEVEL, fileobj=made, mtime=moment) as squeezed:
        with tarfile.open(mode="w", fileobj=squeezed, format=tarfile.USTAR_FORMAT) as archive:
            for path, (mode, data) in sorted(files.items()):
                entry = tarfile.TarInfo(f"{top}/{path}")
                entry.size, entry.mode, entry.mtime = len(data), mode, moment
                entry.uname = entry.gname = "root"
                archive.addfile(entry, io.BytesIO(data))
    return made.getvalue()


def tell(file):
    """Writes the sum of a file beside it, and prints it."""
    data = file.read_bytes()
    sum_line = f"{hashlib.sha256(data).hexdigest()}  {file.name}\n"
    file.with_name(f"{file.name}.sha256").write_text(sum_line)
    print(f"{file}, {len(data):,} bytes, SHA-256 {sum_line.split()[0]}")


def main():
    words = argparse.ArgumentParser(description="Packs the programs with their pages, units and examples.")
    words.add_argument("--programs", type=Path, help="a folder with other programs than the proved ones, for tests")
    words.add_argument("--into", type=Path, default=products.ROOT / "dist", help="where the archive goes (default: dist)")
    given = words.parse_args()
    try:
        archive = packed(contents(given.programs), products.NAME)
    except Fault as fault:
        sys.exit(str(fault))
    given.into.mkdir(parents=True, exist_ok=True)
    file = given.into / f"{products.NAME}.tar.gz"
    file.write_bytes(archive)
    tell(file)


if __name__ == "__main__":
    main()
