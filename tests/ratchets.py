#!/usr/bin/env python3
"""Counts what makes the code harder to read, and refuses more of it than there is: a limit below is only ever lowered.

    python3 -B tests/ratchets.py           compares the counts with their limits
    python3 -B tests/ratchets.py --list    prints also where each of them is
"""

import argparse
import re
import sys
from collections import defaultdict
from pathlib import Path

ROOT = Path(__file__).resolve().parents[1]
CRATES = ROOT / "crates"
CLAUSE_COLUMNS = 100
PARAMETERS = 6
BODY_LINES = 40
FILE_LINES = 500
# the calls that take all objects of a run
MANY_PARAMETERS = {"ship", "spool_run"}

LIMITS = {
    "clause lines above 100 columns": 518,
    "functions with more than six parameters": 1,
    "functions above 40 lines of body": 0,
    "files above 500 lines": 4,
    "ghost use lines for each 1,000 lines of code": 51,
    "lemma signatures that are there before": 187,
}

FUNCTION = re.compile(r"^(\s*)(?:pub(?:\([a-z]+\))?\s+)?(?:const\s+)?fn\s+(\w+)")
CLAUSE = re.compile(r"^\s*(?:requires|ensures)\b")
LEMMA = re.compile(r"^(?:pub\s+)?([^\s:({=]+)\s+:\s+(.*)")


def files(kind):
    found = (it for it in CRATES.glob(f"*/*/**/*.{kind}") if "out" not in it.relative_to(CRATES).parts)
    return sorted(it for it in found if it.is_file())


def place(path, at):
    return f"{path.relative_to(ROOT)}:{at + 1}"


def is_test(path):
    return any(re.search(r"tests?$", it) for it in (*path.relative_to(CRATES).parts[:-1], path.stem))


def functions(lines):
    """Each function: its name, the line on which it begins, its signature with its clauses, and the lines of its body."""
    for at, line in enumerate(lines):
        found = FUNCTION.match(line)
        if not found:
            continue
        indent = found.group(1)
        last = next((it for it in range(at, len(lines)) if lines[it].startswith((f"{indent}}}", f"{indent};"))), at)
        opens = range(at, last + 1)
        body = next((it for it in opens if lines[it] == f"{indent}{{" or re.match(r".*\)[^{]*\{$", lines[it]) and not CLAUSE.match(lines[it])), last)
        yield found.group(2), at, lines[at : body + 1], max(last - body - 1, 0)


def parameters(signature):
    """How many parameters a signature has, `self` among them."""
    text = " ".join(signature)
    start, depth, angles, count, some = text.index("fn "), 0, 0, 0, False
    for at in range(start, len(text)):
        sign = text[at]
        if sign in "<>" and text[at - 1] not in "-=":
            angles += 1 if sign == "<" else -1
        if sign in "([{":
            depth += 1
            if depth == 1 and angles == 0 and sign == "(":
                begun = at
        elif sign in ")]}":
            depth -= 1
            if depth == 0 and angles == 0:
                return count + bool(text[begun + 1 : at].rstrip(", ").strip()) - (0 if some else 0)
        elif sign == "," and depth == 1 and angles == 0 and text[at + 1 :].lstrip()[:1] != ")":
            count += 1
    return count


def counts():
    found = defaultdict(list)
    for path in files("rt"):
        lines = path.read_text().splitlines()
        if len(lines) > FILE_LINES:
            found["files above 500 lines"].append(place(path, 0))
        inside = False
        for at, line in enumerate(lines):
            inside = bool(CLAUSE.match(line)) or inside and line.strip() not in ("{", "") and not FUNCTION.match(line)
            if inside and len(line) > CLAUSE_COLUMNS:
                found["clause lines above 100 columns"].append(place(path, at))
        if is_test(path):
            continue
        uses = (at for at, line in enumerate(lines) if re.match(r"\s*ghost use\b", line))
        found["ghost use lines for each 1,000 lines of code"] += [place(path, at) for at in uses]
        for name, at, signature, body in functions(lines):
            if parameters(signature) > PARAMETERS and name not in MANY_PARAMETERS:
                found["functions with more than six parameters"].append(f"{place(path, at)} {name}")
            if body > BODY_LINES:
                found["functions above 40 lines of body"].append(f"{place(path, at)} {name}")
    signed = defaultdict(list)
    for path in files("antt"):
        lines = path.read_text().splitlines()
        if len(lines) > FILE_LINES:
            found["files above 500 lines"].append(place(path, 0))
        if "proofs" not in path.parts or path.stem in ("Answers", "Invariants"):
            continue
        for at, line in enumerate(lines):
            lemma = LEMMA.match(line)
            if lemma:
                signed[re.sub(r"\s+", " ", lemma.group(2))].append(f"{place(path, at)} {lemma.group(1)}")
    for places in signed.values():
        found["lemma signatures that are there before"] += places[1:]
    return found


def number(what, places):
    """How many there are, or of what grows with the code, how many for each 1,000 lines of it."""
    if not what.endswith("lines of code"):
        return len(places)
    return len(places) * 1_000 // sum(len(path.read_text().splitlines()) for path in files("rt") if not is_test(path))


def main():
    words = argparse.ArgumentParser(description="Counts what makes the code harder to read.")
    words.add_argument("--list", action="store_true", help="print where each is")
    given, found, faults = words.parse_args(), counts(), 0
    for what, limit in LIMITS.items():
        places = found[what]
        if given.list:
            print("\n".join(f"  {it}" for it in places))
        there = number(what, places)
        if there > limit:
            faults += 1
            print(f"{what}: {there}, and at most {limit} are allowed (python3 -B tests/ratchets.py --list)")
        elif there < limit:
            print(f"{what}: {there}; lower the limit, which is {limit}")
    print(f"ratchets: {faults} faults")
    return 1 if faults else 0


if __name__ == "__main__":
    sys.exit(main())
