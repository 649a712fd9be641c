#!/usr/bin/env python3
"""Runs the programs over real files, real sockets and a real registry area, and compares what they did.

    python3 tests/end_to_end/run.py [--program PATH] [--receiver PATH] [--container PATH] [--spool PATH] [--status PATH]
                                   [--check PATH] [--seed N] [NAME..]

Names choose tests; without any, all are run.
"""

import argparse
import random
import sys
import traceback
import unittest
from pathlib import Path

import program
from check import Check
from containers import Containers
from generated import Generated
from killed import Killed
from many_files import ManyFiles
from one_file import OneFile
from peers import Peers
from receiver import Receiver
from refusals import Refusals
from restarts import Restarts
from shipping import Shipping
from spool import Spool
from status import Status
from surroundings import Surroundings

HERE = Path(__file__).resolve().parent
PREFIX = "test_"


class Lines(unittest.TestResult):
    """One line for each test, and below a failed one what was wrong."""

    def __init__(self):
        super().__init__()
        self.passed = self.failed = 0

    def startTest(self, test):
        super().startTest(test)
        self.faults = []

    def addFailure(self, test, error):
        self.faults.append((test, error))

    addError = addFailure

    def addSubTest(self, test, subtest, error):
        if error is not None:
            self.faults.append((subtest, error))

    def stopTest(self, test):
        super().stopTest(test)
        self.passed += not self.faults
        self.failed += bool(self.faults)
        print("FAILED" if self.faults else "passed", name_of(test), flush=True)
        for case, (kind, fault, trace) in self.faults:
            if case is not test:
                print(f"    with {dict(case.params)}")
            for at in traceback.extract_tb(trace):
                if Path(at.filename).resolve().parent == HERE:
                    print(f"    {Path(at.filename).name}, line {at.lineno}: {at.line}")
            for line in f"{kind.__name__}: {fault}".splitlines():
                print(f"      {line}", flush=True)


def name_of(test):
    return test.id().rpartition(f".{PREFIX}")[2]


def all_tests():
    """Each test, by its name."""
    tests = {}
    kinds = (Generated, OneFile, ManyFiles, Refusals, Peers, Surroundings)
    kinds += (Receiver, Containers, Spool, Status, Check, Killed, Restarts)
    for kind in kinds:
        tests.update({it[len(PREFIX) :]: kind(it) for it in vars(kind) if it.startswith(PREFIX)})
    return tests


def program_at(path, name):
    """The program at this path, or without one that which the gate built."""
    return path.resolve(strict=True) if path else program.proved_program(name)


def give_programs(given, chosen):
    """Gives the chosen tests the programs that they start."""
    kinds = {type(it) for it in chosen}
    if any(issubclass(it, Shipping) for it in kinds):
        Shipping.tested = program_at(given.program, "beat_main")
    if Receiver in kinds:
        Receiver.sink = program_at(given.receiver, "beat_sink")
    if Containers in kinds:
        Containers.tested = program_at(given.container, "beat_container")
    if Spool in kinds:
        Spool.tested = program_at(given.spool, "beat_spool")
        Spool.sink = program_at(given.receiver, "beat_sink")
    if Status in kinds:
        Status.status = program_at(given.status, "beat_status")
    if Check in kinds:
        Check.checked = program_at(given.check, "beat_check")


def main():
    program.allow_open_files()
    tests = all_tests()
    words = argparse.ArgumentParser(description="Tests the programs from outside.")
    programs = (
        ("--program", "beat_main"),
        ("--receiver", "beat_sink"),
        ("--container", "beat_container"),
        ("--spool", "beat_spool"),
        ("--status", "beat_status"),
        ("--check", "beat_check"),
    )
    for option, name in programs:
        words.add_argument(option, type=Path, help=f"the program {name} (default: the one that rt ci built)")
    words.add_argument("--seed", type=int, default=random.randrange(10**6), help="what random moments come from")
    words.add_argument("names", nargs="*", metavar="NAME", help="a test (default: all)")
    given = words.parse_args()
    unknown = [it for it in given.names if it not in tests]
    if unknown:
        words.error(f"no test is called {', '.join(unknown)}")
    chosen = [tests[name] for name in given.names or tests]
    try:
        give_programs(given, chosen)
    except (program.Missing, OSError) as fault:
        print(fault)
        print("end to end: 0 passed, 1 failed")
        return 1
    Shipping.seed = Containers.seed = Spool.seed = given.seed
    result = Lines()
    for test in chosen:
        test.run(result)
    print(f"end to end: {result.passed} passed, {result.failed} failed")
    return 1 if result.failed else 0


if __name__ == "__main__":
    sys.exit(main())
