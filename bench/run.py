#!/usr/bin/env python3
"""Times the programs and single calls from outside, and writes what it measured into bench/RESULTS.md.

The programs are those that the gate left, and so is `bench_calls`, which makes one call as often as it is told. Without a
part all parts are measured; with some, the page keeps its other sections as they are.
"""

import argparse
import datetime
import os
import platform
import sys
from pathlib import Path

from container import container_table
from harvester import harvester_table
from known import known_table
from memory import settled_table, stored_table
from sink import sink_table
from spool import spool_table
from syncs import syncs_table
from transport import transport_table
from unchanged import unchanged_table
from worker import worker_table

ROOT = Path(__file__).resolve().parents[1]
RESULTS = ROOT / "bench" / "RESULTS.md"

# each part gives one section of the page
PARTS = {
    "files": transport_table,
    "unchanged": unchanged_table,
    "syncs": syncs_table,
    "worker": worker_table,
    "sink": sink_table,
    "harvester": harvester_table,
    "container": container_table,
    "spool": spool_table,
    "known": known_table,
    "spans": settled_table,
    "commits": stored_table,
}

HEAD = """# Times

`make bench` writes this page. What it shows was measured once on one machine; nothing here is promised. A *ratio* is the
measured figure divided by that of the bare program, or of what else it is compared with, in the same runs.
"""


def heading(section):
    return section.lstrip("\n").partition("\n")[0]


def sections_of(page):
    """Each section of a page by its heading, with the empty line above it."""
    sections = ["\n## " + part.rstrip("\n") + "\n" for part in page.split("\n## ")[1:]]
    return {heading(section): section for section in sections}


def dated(section, load):
    """The section of a part with the day and the machine beneath its heading."""
    name, _, rest = section.lstrip("\n").partition("\n")
    today, cores = datetime.date.today().isoformat(), os.cpu_count()
    return f"\n{name}\n\nMeasured {today} on {cores} cores ({platform.machine()}) at a load of {load:.1f}.\n{rest}"


def measured(part):
    load = os.getloadavg()[0]
    return dated(PARTS[part](), load)


def main():
    parser = argparse.ArgumentParser(description=__doc__.partition("\n")[0])
    parser.add_argument("parts", nargs="*", metavar="PART", help=f"one of {', '.join(PARTS)}; none: all of them")
    parts = parser.parse_args().parts or list(PARTS)
    unknown = [part for part in parts if part not in PARTS]
    if unknown:
        sys.exit(f"no part is named {unknown[0]}")
    for part in parts:
        section = measured(part)
        page = sections_of(RESULTS.read_text())
        page[heading(section)] = section
        RESULTS.write_text(HEAD + "".join(page.values()))
    print(f"written to {RESULTS.relative_to(ROOT)}")


if __name__ == "__main__":
    main()
