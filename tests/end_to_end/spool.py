"""The program `beat_spool`: over real files, and sent to the receiver `beat_sink` and to peers that answer otherwise."""

import os
import random
import subprocess
import tempfile
import time
import unittest
from pathlib import Path

import program
from peer import Behaviour, Peer
from receiver import free_port

# so many runs of each kind are killed, and the seconds within which
KILLS = 25
SECONDS = 0.05

# so many lines one killed run is given
LINES = 400

DONE, USAGE, SOURCE_FAULT, SPOOL_BAD, DISK_FAULT, UNREACHABLE, OUT_FAULT, TOO_LONG = 0, 2, 3, 4, 5, 7, 8, 9

# the longest payload, in bytes
LONGEST = 16_777_216

ROW = b"{0000000001 ea\n{0000000002 ebb\n."


def records_of(spool):
    """The payloads of a spool's events, and how many are settled: read record by record up to a gate that is not open."""
    payloads, settled, gate = [], 0, 0
    while len(spool) > 1 and spool[gate : gate + 1] == b"{":
        size, kind = int(spool[gate + 1 : gate + 11]), spool[gate + 12 : gate + 13]
        body = spool[gate + 13 : gate + 13 + size]
        assert len(body) == size and spool[gate + 13 + size : gate + 14 + size] == b"\n" and spool[gate + 11 : gate + 12] == b" "
        if kind == b"e":
            payloads.append(body)
        else:
            assert kind == b"s" and settled < int(body) <= len(payloads)
            settled = int(body)
        gate += 14 + size
    assert len(spool) < 2 or gate < len(spool)
    return payloads, settled


def outstanding_in(spool):
    payloads, settled = records_of(spool)
    return payloads[settled:]


class Spool(unittest.TestCase):
    tested = None
    sink = None
    seed = 0

    def setUp(self):
        folder = tempfile.TemporaryDirectory()
        self.addCleanup(folder.cleanup)
        self.folder = Path(folder.name)
        self.file = self.folder / "spool"

    def start(self, *words, given=b"", output=subprocess.PIPE):
        """Starts the program over these bytes as its standard input."""
        source = self.folder / "given"
        source.write_bytes(given)
        with source.open("rb") as opened:
            return subprocess.Popen(
                [os.fspath(self.tested), *words], cwd=self.folder, stdin=opened, stdout=output, stderr=subprocess.PIPE
            )

    def assert_ends(self, status, printed, *words, given=b""):
        ran = program.finish(self.start(*words, given=given))
        self.assertEqual((ran.returncode, ran.stdout, ran.stderr), (status, printed, b""))

    def spooled(self):
        return self.file.read_bytes() if self.file.exists() else b""

    def test_spool_of_two_lines(self):
        """Two lines are put; of these one is acknowledged, and then the other."""
        self.assert_ends(DONE, b"spooled 2\n", "put", given=b"a\nbb\nno end")
        self.assertEqual(self.spooled(), ROW)
        with Peer(Behaviour.PART) as peer:
            self.assert_ends(UNREACHABLE, b"sent 1 left 1\n", "send", peer.host)
        self.assertEqual(self.spooled(), ROW[:31] + b"{0000000001 s1\n.")
        with Peer() as peer:
            self.assert_ends(DONE, b"sent 1 left 0\n", "send", peer.host)
        self.assertEqual(peer.payloads, [b"bb"])
        self.assertEqual(self.spooled(), b".")

    def test_spool_of_many_windows(self):
        """Several windows, one of them not full, to peers that answer late, byte by byte and with signs of life."""
        lines = [b"line %d" % number for number in range(5000)]
        for behaviour in (Behaviour.WHOLE, Behaviour.SINGLE_BYTES, Behaviour.LATE):
            self.file.write_bytes(b"".join(b"{%010d e%b\n" % (len(line), line) for line in lines) + b".")
            with self.subTest(behaviour=behaviour.value), Peer(behaviour) as peer:
                self.assert_ends(DONE, b"sent 5000 left 0\n", "send", peer.host)
            self.assertEqual((peer.payloads, peer.faults), (lines, []))
            self.assertEqual(self.spooled(), b".")

    def test_spool_stays_where_a_peer_answers_wrongly(self):
        self.assert_ends(DONE, b"spooled 2\n", "put", given=b"a\nbb\n")
        for behaviour in (Behaviour.ABOVE, Behaviour.COMPRESSED):
            with self.subTest(behaviour=behaviour.value), Peer(behaviour) as peer:
                self.assert_ends(UNREACHABLE, b"sent 0 left 2\n", "send", peer.host)
            self.assertEqual(self.spooled(), ROW)

    def test_spool_without_a_peer(self):
        self.assert_ends(DONE, b"spooled 1\n", "put", given=b"\n")
        self.assert_ends(UNREACHABLE, b"sent 0 left 1\n", "send", f"127.0.0.1:{free_port()}")
        self.assertEqual(outstanding_in(self.spooled()), [b""])

    def test_spool_without_payloads_needs_no_peer(self):
        self.assert_ends(DONE, b"sent 0 left 0\n", "send", f"127.0.0.1:{free_port()}")
        self.assertEqual(self.spooled(), b".")

    def test_spool_usage(self):
        for words in ((), ("put", "x"), ("send",), ("send", ""), ("send", "h:0"), ("send", "h:65536"), ("send", "a b"), ("get",)):
            with self.subTest(words=words):
                self.assert_ends(USAGE, b"", *words)
        self.assertFalse(self.file.exists())

    def test_spool_that_is_bad(self):
        for spool, at in ((ROW[:-1], 31), (ROW[:17], 14), (b"{0000000001 s1\n.", 0), (b"{x", 0)):
            with self.subTest(at=at):
                self.file.write_bytes(spool)
                self.assert_ends(SPOOL_BAD, b"", "put", given=b"a\n")
                self.assertEqual(self.spooled(), spool)

    def test_spool_of_a_line_that_is_too_long(self):
        """The lines before it are put; one that does not end is no line."""
        longest = b"x" * LONGEST
        self.assert_ends(TOO_LONG, b"spooled 2\n", "put", given=b"a\n%b\n%bx\nb\n" % (longest, longest))
        self.assertEqual(outstanding_in(self.spooled()), [b"a", longest])
        self.assert_ends(DONE, b"spooled 0\n", "put", given=longest + b"x")

    def test_spool_without_folder(self):
        """A spool that cannot be made or is held by another run."""
        self.file.mkdir()
        self.assert_ends(DISK_FAULT, b"", "put", given=b"a\n")

    def test_spool_whose_output_fails(self):
        with open("/dev/full", "wb") as full:
            started = self.start("put", given=b"a\n", output=full)
            self.assertEqual(program.finish(started).returncode, OUT_FAULT)
        self.assertEqual(outstanding_in(self.spooled()), [b"a"])

    def test_spool_whose_input_fails(self):
        source = os.open(self.folder, os.O_RDONLY)
        self.addCleanup(os.close, source)
        started = subprocess.Popen(
            [os.fspath(self.tested), "put"], cwd=self.folder, stdin=source, stdout=subprocess.PIPE, stderr=subprocess.PIPE
        )
        ran = program.finish(started)
        self.assertEqual((ran.returncode, ran.stdout, ran.stderr), (SOURCE_FAULT, b"spooled 0\n", b""))

    def killed(self, started, chance):
        """Kills it within some time, where it has not ended before."""
        try:
            started.communicate(timeout=chance.random() * SECONDS)
        except subprocess.TimeoutExpired:
            started.kill()
            started.communicate()

    def test_spool_of_killed_runs(self):
        """Nothing that was put is lost, and nothing is settled that the receiver has not written."""
        chance = random.Random(self.seed)
        port, received = free_port(), self.folder / "lines"
        words = ("-l", f"127.0.0.1:{port}", "-o", "lines", "--links", str(KILLS + 1))
        put = []
        with program.start(self.sink, words, self.folder) as sink:
            try:
                self.wait_for(received.exists)
                for run in range(KILLS):
                    before = outstanding_in(self.spooled())
                    lines = [b"run %d line %d" % (run, number) for number in range(LINES)]
                    self.killed(self.start("put", given=b"\n".join((*lines, b""))), chance)
                    after = outstanding_in(self.spooled())
                    count = len(after) - len(before)
                    self.assertEqual(after, before + lines[:count], f"seed {self.seed}, put {run}")
                    put += lines[:count]
                    self.killed(self.start("send", f"127.0.0.1:{port}"), chance)
                    left = outstanding_in(self.spooled())
                    settled = after[: len(after) - len(left)]
                    self.assertEqual(after, settled + left, f"seed {self.seed}, send {run}")
                    self.assertLessEqual(set(settled), set(received.read_bytes().splitlines()), f"seed {self.seed}, send {run}")
                left = len(outstanding_in(self.spooled()))
                self.assert_ends(DONE, b"sent %d left 0\n" % left, "send", f"127.0.0.1:{port}")
                self.assertEqual(set(received.read_bytes().splitlines()), set(put))
            finally:
                sink.kill()

    def wait_for(self, holds):
        last = time.monotonic() + program.LIMIT
        while not holds():
            self.assertLess(time.monotonic(), last, "it does not come to that")
            time.sleep(0.01)
