#!/usr/bin/env python3
"""Proves and builds programs of the product, crate by crate, and says how far it is.

    python3 -B package/build.py [NAME..]      without a name, all of them

It says beforehand how long that takes. A library that was built is not built again; `make install` and `make dist` take
what is built.
"""

import subprocess
import sys
import time

import products

# processor minutes for each 1,000 lines of code, definitions and proofs, measured over thirty libraries
MINUTES_FOR_1000_LINES = 0.6
# how many processors rt mostly uses for one crate
AT_ONCE = 2
# seconds between two signs of life
SIGN_SECONDS = 60
PARTS = ("src", "specs", "proofs")


def folder_of(name):
    return products.ROOT / "crates" / name


def lowest_first(name, below, found):
    """The crates that a program is made of, each after those that it names."""
    for library in below.get(name, []):
        lowest_first(library, below, found)
    if name in below and name not in found:
        found.append(name)


def lines_of(name):
    files = [it for part in PARTS for it in (folder_of(name) / part).rglob("*") if it.suffix in (".rt", ".antt")]
    return sum(it.read_bytes().count(b"\n") for it in files)


def minutes_for(names):
    """About how many processor minutes it takes to build these crates."""
    return MINUTES_FOR_1000_LINES * sum(map(lines_of, names)) / 1000


def is_there(name):
    """Whether an earlier build left a library; rt itself sees whether it is still of the same text."""
    return (folder_of(name) / "out" / "rlib" / "stamp").is_file()


def run(name, command):
    """Runs rt in a crate's folder, and says from time to time that it goes on; its status, and what it wrote."""
    begun = time.monotonic()
    started = subprocess.Popen(command, cwd=folder_of(name), stdout=subprocess.PIPE, stderr=subprocess.STDOUT, text=True)
    while True:
        try:
            said, _ = started.communicate(timeout=SIGN_SECONDS)
            return started.returncode, said
        except subprocess.TimeoutExpired:
            print(f"  {name}: {time.monotonic() - begun:.0f} seconds so far", flush=True)


def build(name, place, expected):
    """Builds a crate, and says so, with what is expected; whether it went well."""
    begun = time.monotonic()
    print(f"{place} {name}{expected}", flush=True)
    if name in products.programs():
        # rt also runs it, without arguments, and ends with its status; what counts is that it is there anew
        file = folder_of(name) / "out" / name
        file.unlink(missing_ok=True)
        _, said = run(name, ("rt", "run"))
        done = file.is_file()
    else:
        status, said = run(name, ("rt", "lib"))
        done = not status
    if not done:
        print(said, flush=True)
    print(f"{place} {name}: {'built' if done else 'FAILED'} after {time.monotonic() - begun:.0f} seconds", flush=True)
    return done


def time_for(minutes):
    """How long so many processor minutes of rt take here, in words."""
    processors = products.processors()
    if processors < AT_ONCE:
        return f"about {minutes:.0f} minutes on one processor"
    return f"{minutes / AT_ONCE:.0f} to {minutes:.0f} minutes on {processors} processors, of which rt mostly uses {AT_ONCE}"


def main(names):
    unknown = [it for it in names if it not in products.programs()]
    if unknown:
        sys.exit(f"no program of the product: {', '.join(unknown)}; there are {', '.join(products.programs())}")
    below, crates = {name: libraries for name, _, libraries in products.listed()}, []
    for name in names or products.programs():
        lowest_first(name, below, crates)
    left = [it for it in crates if not is_there(it)]
    print(f"{len(crates)} crates, of which {len(left)} are not built yet: {time_for(minutes_for(left))}", flush=True)
    for at, name in enumerate(crates, 1):
        expected = f", about {minutes_for([name]):.1f} of {minutes_for(left):.0f} processor minutes" if name in left else ""
        if not build(name, f"[{at} of {len(crates)}]", expected):
            sys.exit(1)
        left = [it for it in left if it != name]


if __name__ == "__main__":
    main(sys.argv[1:])
