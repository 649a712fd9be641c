"""What is linked into the programs: the libraries of the kit, and the licences that lie beside their sources."""

import functools
import itertools
import re
import subprocess
from pathlib import Path

import products

# how the names of licence files begin
FILES = ("LICENSE", "LICENCE", "COPYING", "NOTICE")
# what a comment says that is about a licence, and the file for such comments
LICENCE = re.compile(r"licen[cs]e|copyright", re.IGNORECASE)
SAID_BY_SOURCES = "IN-SOURCES"
# what is said of a library that has neither
NONE = "none in the kit"
NOT_CHOSEN = """No licence is chosen for Moqhuluzi yet: its repository has no licence file, and this package gives none. Ask its
maintainers before you pass on the programs, the pages or the source."""


@functools.cache
def kit():
    """The folder of the kit's libraries."""
    page = subprocess.run(("rt", "doc"), check=True, capture_output=True, text=True).stdout.split()[0]
    return Path(page).parent / "rattle"


def named_by_products():
    """The libraries of the kit that the products' crates name, and std, which all have."""
    crates = {name: libraries for name, _, libraries in products.listed()}
    below, left = set(), [*products.programs()]
    while left:
        name = left.pop()
        if name not in below:
            below.add(name)
            left += crates.get(name, [])
    return (below - crates.keys()) | {"std"}


@functools.cache
def linked():
    """The libraries of the kit that a program may have in it: those that are named, and those that these name in turn."""
    libraries = {folder.parent.name: folder for folder in kit().glob("*/src")}
    found, left = set(), sorted(named_by_products())
    while left:
        name = left.pop()
        if name in found or name not in libraries:
            continue
        found.add(name)
        for source in libraries[name].rglob("*.rt"):
            words = set(re.findall(r"\b(\w+)::", source.read_text()))
            left += sorted((words & libraries.keys()) - found)
    return tuple(sorted(found))


def headings_of(name):
    """What the comments at the heads of a library's sources say of licences, each with the name of its file."""
    for source in sorted((kit() / name / "src").rglob("*.rt")):
        said = list(itertools.takewhile(lambda line: line.startswith("//"), source.read_text().splitlines()))
        if any(LICENCE.search(line) for line in said):
            yield "\n".join([f"{source.relative_to(kit())}:", "", *said, ""])


def texts_of(name):
    """The licences of a library: its licence files, and one more with what its sources say; their names and bytes."""
    for file in sorted((kit() / name).iterdir()):
        if file.name.startswith(FILES):
            yield file.name, file.read_bytes()
    said = "\n".join(headings_of(name))
    if said:
        yield SAID_BY_SOURCES, said.encode()


def own_licence():
    """The licence files of this project, which are none as long as no licence is chosen."""
    return sorted(it for it in products.ROOT.iterdir() if it.name.startswith(FILES))


def said_of_own():
    files = own_licence()
    if files:
        return f"The licence of Moqhuluzi itself is in {', '.join(it.name for it in files)}."
    return NOT_CHOSEN


def notes():
    """The text of the licence notes, and each licence: the name of its file, and its bytes."""
    texts, rows, without = {}, [], []
    for name in linked():
        own = dict(texts_of(name))
        texts.update({f"{name}/{file}": text for file, text in own.items()})
        if not any(file.startswith(FILES) for file in own):
            without.append(name)
        rows.append(f"| {name} | {', '.join(f'{name}/{file}' for file in own) or NONE} |")
    table = "\n".join(["| Library | Licence |", "|---|---|", *rows])
    missing = f"The kit has no licence file for {len(without)} of them: {', '.join(without)}.\n" if without else ""
    return f"""# Licences

## Moqhuluzi

{said_of_own()}

## What is linked

The programs may contain code of these libraries, which belong to the kit of Rattle that they were built with. The C library
is not in them: it is that of the system. A file {SAID_BY_SOURCES} has what the sources of a library say of licences.

{missing}
{table}
""", texts
