#!/usr/bin/env python3
"""Compares the pages with the repository: the files and headings that pages link to with those that are there, the names in
backticks with those of the code, the tests and the settings, a clause that is linked with its file, the example that has
every key with docs/settings.md, the version that programs and pages state with the file VERSION, and what pages say of the
project's licence with the licence files.
"""

import re
import sys
from pathlib import Path

ROOT = Path(__file__).resolve().parents[1]
PAGES = [*ROOT.glob("*.md"), *ROOT.glob("docs/**/*.md")]

# the places of names, and how a comment begins there; what only a comment says is no name
COMMENTS = {".rt": "//", ".rs": "//", ".c": "//", ".antt": "--", ".py": "#", ".toml": "#", ".txt": "#", "": "#"}
PLACES = ("crates", "tests", "bench", "examples", "package", ".ci", "Makefile", "VERSION", "crates.txt")
BUILT = {"out", "__pycache__"}
# pages whose names are compared; the changelog and results of measurements speak of other days, too
NAMING = [ROOT / "README.md", ROOT / "CONTRIBUTING.md", *sorted(ROOT.glob("docs/**/*.md"))]
FENCE = re.compile(r"^```.*?^```$", re.MULTILINE | re.DOTALL)
# an identifier, a call, a dotted key, or an option
NAME = re.compile(r"[A-Za-z_]\w*(?:(?:::|\.)\w+)*(?:\(\))?|--\w[\w-]*")
PATH = re.compile(r"[\w.*-]+(?:/[\w.*-]*)+")
# what a link shows, the file that it names, which may be absent, and the heading in it
LINK = re.compile(r"\[([^\[\]]*)\]\(([^)#:]*)(?:#([^)]*))?\)")
TARGET = re.compile(r"make (\w+)\b.*")
# such words, as NAME or ID, are placeholders
PLACEHOLDER = re.compile(r"\b[A-Z]+\b")
# the page that compares with Filebeat: the first cell of each of its rows has Filebeat's names
COMPARING = "coming_from_filebeat.md"
# names of Filebeat's reference and of systems
REFERENCE = {
    "SO_SNDTIMEO",
    "close.on_state_change.inactive",
    "backoff.init",
    "backoff.max",
    "close.reader.on_eof",
    "flock",
    "max_retries",
    "output.logstash.bulk_max_size",
    "output.logstash.hosts",
    "output.logstash.max_retries",
    "output.logstash.pipelining",
    "output.logstash.timeout",
    "output.logstash.workers",
    "parsers.multiline",
    "prospector.scanner.check_interval",
    "prospector.scanner.fingerprint.length",
    "prospector.scanner.fingerprint.offset",
}
# how the names of licence files begin, and what pages say while there is none
LICENCE_FILES = ("LICENSE", "LICENCE", "COPYING")
NO_LICENCE = {
    "README.md": "None is chosen yet, so the repository has no licence file",
    "CHANGELOG.md": "A licence of the project: none is chosen yet",
    "docs/install.md": "No licence is chosen for Moqhuluzi itself yet",
}
# the tables of docs/settings.md, by their headings, and what comes before their keys
SETTINGS_TABLES = {
    "The document": "",
    "An input": "inputs.",
    "The table `multiline`": "inputs.multiline.",
    "Output, queue, harvest": "",
}


def anchors_of(page):
    """What a link to a heading of this page may have after its #."""
    for heading in re.findall(r"^#+ (.*)$", FENCE.sub("", page.read_text()), re.MULTILINE):
        yield re.sub(r"[^\w -]", "", LINK.sub(r"\1", heading)).lower().replace(" ", "-")


def faults_of_links():
    for page in PAGES:
        for text, target, anchor in LINK.findall(FENCE.sub("", page.read_text())):
            file = page.parent / target if target else page
            said = f"{page.relative_to(ROOT)} links to {target}"
            if not file.exists():
                yield f"{said}, which is not there"
            elif anchor and anchor not in anchors_of(file):
                yield f"{said}#{anchor}, which is no heading there"
            elif re.fullmatch(r"`\w+`", text) and file.suffix == ".rt" and text.strip("`") not in words_of_file(file):
                yield f"{said} for {text}, which is not there"


def files_of_code():
    """What is built is left out, and so is this file, which has names of its own for the pages."""
    for place in map(ROOT.joinpath, PLACES):
        for file in [place] if place.is_file() else sorted(place.rglob("*")):
            built = BUILT.intersection(file.relative_to(ROOT).parts)
            if file.is_file() and not built and file != Path(__file__).resolve():
                yield file


def words_of_file(file):
    """Each word of a file outside of comments."""
    words = set()
    for line in file.read_text(errors="replace").splitlines():
        code = line.partition(COMMENTS[file.suffix])[0]
        words.update(re.findall(r"\b(?:test_)?(\w+)", code))
    return words


def words_of_code():
    """Each word outside of comments, and each name of a file or folder."""
    words = set()
    for file in files_of_code():
        words.update(re.findall(r"[\w-]+", " ".join(file.relative_to(ROOT).with_suffix("").parts)))
        if file.suffix in COMMENTS:
            words.update(words_of_file(file))
    return words


def is_path(named):
    """Whether it is a path of this repository: one that begins with a folder of it."""
    return PATH.fullmatch(named) and (ROOT / named.partition("/")[0]).is_dir()


def is_there(named, words):
    if named in REFERENCE:
        return True
    if is_path(named):
        return any(ROOT.glob(PLACEHOLDER.sub("*", named).rstrip("/")))
    target = TARGET.fullmatch(named)
    if target:
        return f"\n{target.group(1)}:" in (ROOT / "Makefile").read_text()
    return all(part in words or PLACEHOLDER.fullmatch(part) for part in re.findall(r"\w+", named))


def names_in(page):
    """What is in backticks and looks like a name or a path of this repository."""
    text = FENCE.sub("", page.read_text())
    if page.name == COMPARING:
        text = re.sub(r"^\|[^|]*\|", "|", text, flags=re.MULTILINE)
    for span in re.findall(r"`([^`\n]+)`", text.replace("\n", " ")):
        if NAME.fullmatch(span) or is_path(span) or TARGET.fullmatch(span):
            yield span


def documented_keys():
    """Each key of docs/settings.md with its default; a default in words, as `required` and `absent`, is None."""
    for part in (ROOT / "docs" / "settings.md").read_text().split("\n## ")[1:]:
        heading = part.partition("\n")[0]
        for key, default in re.findall(r"^\| `([\w.]+)` \| [^|]+ \| ([^|]+) \|", part, re.MULTILINE):
            if heading in SETTINGS_TABLES:
                value = default.strip("`")
                words = default == value and not re.fullmatch(r"\d+|true|false|empty", value)
                yield SETTINGS_TABLES[heading] + key, None if words else value.replace("empty", "[]")


def example_keys():
    """Each key of examples/every_key.toml with its value, also those of the table that is commented out."""
    keys, table = {}, ""
    for line in (ROOT / "examples" / "every_key.toml").read_text().splitlines():
        header = re.fullmatch(r"#?\[+([\w.]+)\]+", line)
        pair = re.fullmatch(r"#?([\w.]+) = (.*)", line)
        if header:
            table = header.group(1) + "."
            keys[header.group(1)] = None
        elif pair:
            keys[table + pair.group(1)] = pair.group(2)
    return keys


def faults_of_example():
    there = example_keys()
    documented = dict(documented_keys())
    # it belongs to tables of the other type, in which the rest of the example would be unknown
    del documented["inputs.multiline.count_lines"]
    for key, default in documented.items():
        if key not in there:
            yield f"examples/every_key.toml has no {key}"
        elif default is not None and there[key] not in (None, default):
            yield f"examples/every_key.toml: {key} is {there[key]}, and docs/settings.md says {default}"
    for key in there.keys() - documented.keys():
        yield f"docs/settings.md has no {key} of examples/every_key.toml"


def faults_of_names():
    words = words_of_code()
    for page in NAMING:
        for name in dict.fromkeys(names_in(page)):
            if not is_there(name, words):
                yield f"{page.relative_to(ROOT)} names {name}, which is not there"


def stated_versions():
    """Each version that a program or a page states, and the file that states it."""
    for file in sorted(ROOT.glob("crates/*/src/**/*.rt")):
        for version in re.findall(r'\.version\("([^"]*)"\)', file.read_text()):
            yield file, version
    for page in PAGES:
        for version in re.findall(r"\bmoqhuluzi[-_](\d[\d.]*)[-_](?:x86_64|amd64)\b", page.read_text()):
            yield page, version


def faults_of_version():
    version = (ROOT / "VERSION").read_text().strip()
    for file, stated in stated_versions():
        if stated != version:
            yield f"{file.relative_to(ROOT)} states version {stated}, and VERSION has {version}"
    if not re.search(rf"^## {re.escape(version)}\b", (ROOT / "CHANGELOG.md").read_text(), re.MULTILINE):
        yield f"CHANGELOG.md has no section of {version}"


def faults_of_licence():
    files = [it.name for it in ROOT.iterdir() if it.name.startswith(LICENCE_FILES)]
    for name, said in NO_LICENCE.items():
        is_said = said in " ".join((ROOT / name).read_text().split())
        if is_said and files:
            yield f"{name} says \"{said}\", and {files[0]} is there"
        elif not is_said and not files:
            yield f"{name} does not say \"{said}\", and there is no licence file"


def main():
    faults = [*faults_of_links(), *faults_of_example(), *faults_of_names(), *faults_of_version(), *faults_of_licence()]
    for fault in faults:
        print(fault)
    print(f"pages: {len(faults)} faults")
    return 1 if faults else 0


if __name__ == "__main__":
    sys.exit(main())
