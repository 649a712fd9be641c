"""Peers that are absent, faulty, slow, silent or deaf, and an output that nobody reads."""

import contextlib
import os
import socket
import time

import program
from area import changed, row
from peer import SIGN, SIGNS, Behaviour, Peer
from shipping import (
    FILES,
    LINES,
    ONCE,
    UNREACHABLE,
    WINDOW,
    Shipping,
    end_of,
    events_of,
    now,
    numbered_lines,
    places_of,
    windows_of,
)

# the timeout of a run whose peer is silent, in seconds
SILENCE = 1
# that of a run whose peer says that it is alive for longer than that
LIFE = 2
# after so many seconds a connecting and a sending give up; a run that they end takes less than twice as long
GIVING_UP = 5
# how long a connection may take that is answered
ANSWER = 1
# how long a run rests behind its first and its second failure
RESTS = 1 + 2
# more bytes than the system takes on their way to a host that does not read, and still a message that is sent whole
LONG_LINE = 1_000_000

# what peers do with the first connection of each worker, before they acknowledge all: the behaviour, and after how many
# windows they answer no more
FIRST_MET_WITH = (
    ("closes before any byte", Behaviour.WHOLE, 0),
    ("closes behind a window", Behaviour.WHOLE, 1),
    ("answers late", Behaviour.LATE, None),
    ("acknowledges a part", Behaviour.PART, None),
    ("acknowledges above the count", Behaviour.ABOVE, None),
    ("sends another frame", Behaviour.COMPRESSED, None),
)
WORKERS = (1, 4)


def unused_host():
    """A socket that holds a port on which nobody listens, and that port as a host of the settings."""
    holder = socket.socket()
    holder.bind(("127.0.0.1", 0))
    return holder, "127.0.0.1:%d" % holder.getsockname()[1]


@contextlib.contextmanager
def deaf_host():
    """A host that takes a connection and never reads; the system keeps few bytes on their way to it."""
    with socket.socket() as listener:
        listener.setsockopt(socket.SOL_SOCKET, socket.SO_RCVBUF, 4096)
        listener.setsockopt(socket.IPPROTO_TCP, socket.TCP_MAXSEG, 536)
        listener.bind(("127.0.0.1", 0))
        listener.listen()
        yield "127.0.0.1:%d" % listener.getsockname()[1]


@contextlib.contextmanager
def unanswering_host():
    """A host that answers no further connection, since it takes none of those that wait."""
    with contextlib.ExitStack() as sockets:
        listener = sockets.enter_context(socket.socket())
        listener.bind(("127.0.0.1", 0))
        listener.listen(0)
        with contextlib.suppress(socket.timeout):
            while True:
                waiting = sockets.enter_context(socket.socket())
                waiting.settimeout(ANSWER)
                waiting.connect(listener.getsockname())
        yield "127.0.0.1:%d" % listener.getsockname()[1]


@contextlib.contextmanager
def full_pipe():
    """A pipe that takes nothing more: its reading and its writing end."""
    with contextlib.ExitStack() as ends:
        reader, writer = (ends.enter_context(open(end, mode, buffering=0)) for end, mode in zip(os.pipe(), ("rb", "wb")))
        os.set_blocking(writer.fileno(), False)
        while writer.write(bytes(4096)) is not None:
            pass
        os.set_blocking(writer.fileno(), True)
        yield reader, writer


class Peers(Shipping):
    def test_no_peer_keeps_the_row(self):
        holder, host = unused_host()
        with holder:
            self.prepare(b"a\nb\n", host)
            ran = self.run_words(*ONCE)
        self.assert_wrote(ran, UNREACHABLE)
        self.assert_rows(row(self.path, 0))

    def test_unreachable_after_rests(self):
        """Three attempts are made where the settings do not say how many."""
        holder, host = unused_host()
        with holder:
            self.prepare(b"a\nb\n", host)
            self.write_settings(program.settings_text(self.path, host))
            began = time.monotonic()
            ran = self.run_words(*ONCE)
        self.assertGreaterEqual(time.monotonic() - began, RESTS)
        self.assert_wrote(ran, "status 7 unreachable worker 0 failures 3")
        self.assert_rows(row(self.path, 0))

    def ship_until_given_up(self, content, host):
        """A run that gives up by itself long before the timeout, which is 30 seconds."""
        self.prepare(content, host)
        began = time.monotonic()
        ran = self.run_words(*ONCE)
        seconds = time.monotonic() - began
        self.assertTrue(GIVING_UP <= seconds < 2 * GIVING_UP, f"it took {seconds} seconds")
        self.assert_wrote(ran, UNREACHABLE)
        self.assert_rows(row(self.path, 0))

    def test_connecting_gives_up(self):
        with unanswering_host() as host:
            self.ship_until_given_up(b"a\nb\n", host)

    def test_sending_gives_up(self):
        """One event, since how many of them go into a window is left open."""
        with deaf_host() as host:
            self.ship_until_given_up(b"x" * LONG_LINE + b"\n", host)

    def test_full_output_pipe_is_closed(self):
        """The report cannot be printed, and the row is stored all the same."""
        with Peer() as peer, full_pipe() as (reader, writer):
            with self.start(b"a\nb\n", peer, output=writer) as started:
                # a run prints only then
                stored = [changed(row(self.path, 4))]
                self.wait_until(lambda: self.stored_rows() == stored, "the row was not stored")
                reader.close()
                ran = program.finish(started)
        self.assertEqual(ran.stderr, b"")
        self.assertEqual(ran.returncode, 8)
        self.assert_rows(row(self.path, 4))

    def test_acknowledgement_in_single_bytes(self):
        since = now()
        with Peer(Behaviour.SINGLE_BYTES) as peer:
            ran = self.ship(b"a\nb\n", peer)
        self.assert_events(peer, [(0, "a"), (2, "b")], since)
        self.assert_report(ran, 4, 2)

    def ship_to_faulty(self, peer):
        """A run that its first failure ends. The row stands where the last acknowledgement left it. While a second window goes
        out, a run would not hear what came before the connection was closed; so there is one at a time."""
        content, events = numbered_lines(WINDOW)
        with peer:
            ran = self.ship(content, peer, "pipelining = 1")
        self.assertEqual(peer.faults, [])
        self.assertEqual(peer.connections, 1)
        self.assert_wrote(ran, UNREACHABLE)
        self.assert_first_acknowledged(peer, events)
        self.assert_rows(row(self.path, end_of(events_of(peer.acknowledged))))

    def test_compressed_frame_from_the_peer(self):
        self.ship_to_faulty(Peer(Behaviour.COMPRESSED))

    def test_acknowledgement_above_the_count(self):
        self.ship_to_faulty(Peer(Behaviour.ABOVE))

    def test_connection_closed_before_any_byte(self):
        self.ship_to_faulty(Peer(windows=0))

    def test_acknowledgement_of_a_part(self):
        peer = Peer(Behaviour.PART)
        self.ship_to_faulty(peer)
        self.assertGreater(len(peer.acknowledged), 0)

    def test_second_window_unacknowledged_keeps_the_first(self):
        since = now()
        content, events = numbered_lines(WINDOW + 2)
        with Peer(windows=1) as peer:
            ran = self.ship(content, peer)
        # the first window has as many events as were read by then
        windows = windows_of(peer)
        self.assertGreater(len(windows), 1)
        self.assertEqual(len(peer.acknowledged), windows[0])
        self.assertLessEqual(max(windows), WINDOW)
        self.assert_events(peer, events[: len(peer.payloads)], since)
        self.assert_first_acknowledged(peer, events)
        self.assert_wrote(ran, UNREACHABLE)
        self.assert_rows(row(self.path, end_of(events[: windows[0]])))

    # several workers

    def ship_with_workers(self, workers, peer, *more):
        """One run over several files, each event of which is acknowledged, and no other."""
        with peer:
            files, size = self.prepare_files(peer.host, f"workers = {workers}", *more)
            ran = self.run_words(*ONCE)
        self.assertEqual(peer.faults, [])
        self.assert_done(ran, [row(path, size) for path in files], FILES * LINES)
        events = {(path, *event) for path, events in files.items() for event in events}
        self.assertEqual(set(places_of(peer.acknowledged)), events)
        self.assertEqual(set(places_of(peer.payloads)), events)

    def test_failures_are_made_good(self):
        """Each worker meets a peer that closes, answers late, in part or wrongly, and then one that acknowledges all."""
        for workers in WORKERS:
            for name, behaviour, windows in FIRST_MET_WITH:
                self.enter_new_folder()
                with self.subTest(workers=workers, peer=name):
                    # more attempts than there are such connections, as one worker may come upon all of them
                    peer = Peer(behaviour, windows, first=workers)
                    self.ship_with_workers(workers, peer, "attempts = 10", "bulk_max_size = 100")

    def test_four_workers_send_each_event_once(self):
        peer = Peer()
        self.ship_with_workers(4, peer, "bulk_max_size = 10")
        self.assertEqual(len(peer.payloads), FILES * LINES)
        self.assertTrue(1 <= peer.connections <= 4)
        self.assertLessEqual(max(windows_of(peer)), 10)

    # peers that are slow or silent

    def ship_to_silent(self, content, peer, *more):
        """A run that ends by the timeout, and not before."""
        began = time.monotonic()
        with peer:
            ran = self.ship(content, peer, f'timeout = "{SILENCE}s"', *more)
        self.assertGreaterEqual(time.monotonic() - began, SILENCE)
        self.assertEqual(peer.connections, 1)
        self.assertEqual(peer.faults, [])
        self.assert_wrote(ran, UNREACHABLE)

    def test_silent_peer(self):
        self.ship_to_silent(b"a\nb\n", Peer(windows=0, closes=False))
        self.assert_rows(row(self.path, 0))

    def test_silent_peer_behind_a_part(self):
        peer = Peer(Behaviour.PART, closes=False)
        content, events = numbered_lines(WINDOW)
        self.ship_to_silent(content, peer)
        self.assert_first_acknowledged(peer, events)
        self.assertGreater(len(peer.acknowledged), 0)
        self.assert_rows(row(self.path, end_of(events_of(peer.acknowledged))))

    def test_silent_peer_behind_the_first_window(self):
        """Of one event: how many there are in a larger one is left open."""
        peer = Peer(windows=1, closes=False)
        self.ship_to_silent(b"a\nb\nc\n", peer, "bulk_max_size = 1", "pipelining = 1")
        self.assertEqual(events_of(peer.payloads), [(0, "a"), (2, "b")])
        self.assert_rows(row(self.path, 2))

    def test_signs_of_life_are_waited_for(self):
        """They come for longer than the timeout, each of them within it."""
        self.assertTrue(SIGN < LIFE < SIGNS * SIGN)
        since = now()
        with Peer(Behaviour.SLOW) as peer:
            ran = self.ship(b"a\nb\n", peer, f'timeout = "{LIFE}s"')
        self.assert_events(peer, [(0, "a"), (2, "b")], since)
        self.assert_report(ran, 4, 2)
