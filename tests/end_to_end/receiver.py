"""The receiver's program `beat_sink`: over real files, loopback, and peers that do what is not owed."""

import contextlib
import shutil
import socket
import struct
import time
from pathlib import Path

import example
import program
from peer import GLANCE
from shipping import Shipping


def free_port():
    with socket.socket() as bound:
        bound.bind(("127.0.0.1", 0))
        return bound.getsockname()[1]


def window(*payloads):
    """The frames of one window."""
    frames = b"2W" + struct.pack(">I", len(payloads))
    for sequence, payload in enumerate(payloads, 1):
        frames += b"2J" + struct.pack(">II", sequence, len(payload)) + payload
    return frames


class Receiver(Shipping):
    def setUp(self):
        super().setUp()
        self.port = free_port()
        self.file = self.folder / "lines"

    def sink_words(self, links, file="lines"):
        return ("-l", f"127.0.0.1:{self.port}", "-o", file, "--links", str(links))

    @contextlib.contextmanager
    def receiving(self, links, file="lines"):
        """A receiver, from its start on until it is let go."""
        with program.start(self.sink, self.sink_words(links, file), self.folder) as started:
            try:
                yield started
            finally:
                started.kill()

    def connect(self):
        """A connection to the receiver, as soon as it listens."""
        last = time.monotonic() + program.LIMIT
        while True:
            try:
                return socket.create_connection(("127.0.0.1", self.port), program.LIMIT)
            except ConnectionRefusedError:
                self.assertLess(time.monotonic(), last, "the receiver does not listen")
                time.sleep(GLANCE)

    def assert_ended(self, started, status):
        """The receiver ends with this status, and has printed nothing."""
        ran = program.finish(started)
        self.assertEqual((ran.returncode, ran.stdout, ran.stderr), (status, b"", b""))

    def wait_for_file(self):
        """Until the receiver has made its file, and so listens."""
        self.wait_until(self.file.exists, "the receiver makes no file")

    def test_receiver_takes_the_examples(self):
        """The program ships the examples to receivers, whose file then has each payload once."""
        logs = Path(shutil.copytree(example.FOLDER / "logs", self.folder / "logs"))
        text = example.settings_for(logs, f"127.0.0.1:{self.port}")
        self.write_settings(text)
        with self.receiving(1) as started:
            self.wait_for_file()
            ran = self.run_words("-c", "beat.toml", "--once")
            self.assertEqual(ran.returncode, 0, ran)
            self.assert_ended(started, 0)
        lines = self.file.read_bytes().splitlines()
        self.assertEqual(len(lines), int(ran.stdout.split(b"shipped ")[1].split()[0]))
        self.assertEqual(len(lines), len(set(lines)))

    def test_receiver_acknowledges_what_it_wrote(self):
        with self.receiving(1) as started, self.connect() as peer:
            peer.sendall(window(b"a\nb", b"c"))
            self.assertEqual(peer.recv(6), b"2A" + struct.pack(">I", 2))
            self.assertEqual(self.file.read_bytes(), b"a b\nc\n")
            peer.close()
            self.assert_ended(started, 0)

    def test_receiver_refuses_garbage(self):
        """A peer that sends garbage ends its link alone; the next is served."""
        with self.receiving(2) as started:
            with self.connect() as peer:
                peer.sendall(b"GET / HTTP/1.1\r\n\r\n")
                self.assertEqual(peer.recv(1), b"")
            with self.connect() as peer:
                peer.sendall(window(b"a"))
                self.assertEqual(peer.recv(6), b"2A" + struct.pack(">I", 1))
            self.assert_ended(started, 0)
        self.assertEqual(self.file.read_bytes(), b"a\n")

    def test_receiver_writes_anew(self):
        self.file.write_bytes(b"old\n")
        with self.receiving(1) as started:
            self.connect().close()
            self.assert_ended(started, 0)
        self.assertEqual(self.file.read_bytes(), b"")

    def test_receiver_stops(self):
        with self.receiving(1) as started, self.connect():
            (self.folder / "stop").touch()
            self.assert_ended(started, 1)

    def test_receiver_without_room(self):
        """On a full disk nothing is acknowledged."""
        with self.receiving(1, "/dev/full") as started, self.connect() as peer:
            peer.sendall(window(b"a"))
            self.assertEqual(peer.recv(1), b"")
            self.assert_ended(started, 3)

    def test_receiver_without_folder(self):
        with self.receiving(1, "absent/lines") as started:
            self.assert_ended(started, 3)

    def test_receiver_at_a_used_port(self):
        with socket.socket() as used:
            used.bind(("127.0.0.1", 0))
            used.listen()
            self.port = used.getsockname()[1]
            with self.receiving(1) as started:
                self.assert_ended(started, 4)

    def test_second_receiver_changes_nothing(self):
        """Neither at the port of the first one nor over its file; the lines that this one acknowledged stay."""
        with self.receiving(1) as started, self.connect() as peer:
            peer.sendall(window(b"a"))
            self.assertEqual(peer.recv(6), b"2A" + struct.pack(">I", 1))
            taken = self.port
            for port, status in ((taken, 4), (free_port(), 3)):
                with self.subTest(status=status):
                    self.port = port
                    with self.receiving(1) as second:
                        self.assert_ended(second, status)
                    self.assertEqual(self.file.read_bytes(), b"a\n")
            self.port = taken
            with self.receiving(1, "other") as second:
                self.assert_ended(second, 4)
            self.assertFalse((self.folder / "other").exists())
            peer.close()
            self.assert_ended(started, 0)
        self.assertEqual(self.file.read_bytes(), b"a\n")

    def test_probe_counts_as_a_link(self):
        with self.receiving(2) as started:
            self.connect().close()
            with self.connect() as peer:
                peer.sendall(window(b"a"))
                self.assertEqual(peer.recv(6), b"2A" + struct.pack(">I", 1))
            self.assert_ended(started, 0)
        self.assertEqual(self.file.read_bytes(), b"a\n")

    def test_receiver_usage(self):
        for words in ((), ("--links", "1"), (*self.sink_words(1), "x"), self.sink_words(0)):
            with self.subTest(words=words):
                ran = program.run(self.sink, words, self.folder)
                self.assertEqual((ran.returncode, ran.stdout, ran.stderr), (2, b"", b""))
        self.assertFalse(self.file.exists())
