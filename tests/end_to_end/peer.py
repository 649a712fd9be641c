#!/usr/bin/env python3
"""A small Lumberjack v2 receiver on loopback.

For tests: a `Peer` records what it receives, and answers each whole window as its `Behaviour` says. As a
command it prints each event:

    python3 tests/end_to_end/peer.py [--port PORT]
"""

import argparse
import enum
import socket
import struct
import threading
import time
from dataclasses import dataclass

# how long a call on a socket waits before it looks whether the receiver is to end
GLANCE = 0.05

# how often a slow receiver says that it is alive, and the seconds before each time
SIGNS = 6
SIGN = 0.5

# the seconds after which a late receiver answers
LATENESS = 0.1

# the fault of a client that ends, or is ended, before its window is whole
CUT_OFF = "the connection ended within a window"


class Behaviour(enum.Enum):
    """What the receiver does once a whole window has come in."""

    WHOLE = "acknowledges the whole window"
    SINGLE_BYTES = "acknowledges the whole window, each byte sent by itself"
    SLOW = "says a few times that it is alive, and then acknowledges the whole window"
    LATE = "acknowledges the whole window a while later"
    COMPRESSED = "answers with the head of a compressed frame"
    ABOVE = "acknowledges a number above the window's count"
    PART = "acknowledges a window of one frame, of the first longer one all frames but the last, and nothing more"


@dataclass(frozen=True)
class Window:
    count: int


@dataclass(frozen=True)
class Event:
    sequence: int
    payload: bytes


class Fault(Exception):
    """The client's bytes break the protocol."""


class Frames:
    """Cuts bytes into frames, however they were cut before."""

    def __init__(self):
        self._rest = b""

    @property
    def is_between(self):
        return not self._rest

    def feed(self, piece):
        """Yields each frame that is whole."""
        self._rest += piece
        while (frame := self._next()) is not None:
            yield frame

    def _next(self):
        rest = self._rest
        if rest[:2] == b"2W" and len(rest) >= 6:
            self._rest = rest[6:]
            return Window(*struct.unpack(">I", rest[2:6]))
        if rest[:2] == b"2J" and len(rest) >= 10:
            sequence, length = struct.unpack(">II", rest[2:10])
            if len(rest) < 10 + length:
                return None
            self._rest = rest[10 + length :]
            return Event(sequence, rest[10 : 10 + length])
        if rest[:2] not in (b"", b"2", b"2W", b"2J"):
            raise Fault(f"{rest[:2].hex(' ')} begins no frame of a client")
        return None


class Talk:
    """One connection: its windows, and what is said of them."""

    def __init__(self, link, peer, behaviour, windows):
        self._link = link
        self._peer = peer
        self._behaviour = behaviour
        self._windows = windows
        self._window = []
        self._count = 0
        self._answered = 0

    @property
    def is_between(self):
        return len(self._window) == self._count

    def take(self, frame):
        """Takes a frame, and answers where it ends a window. True once the receiver wants to hear no more."""
        if isinstance(frame, Window):
            if not self.is_between:
                raise Fault("a window begins within a window")
            if frame.count < 1:
                raise Fault("a window of no frame")
            self._window, self._count = [], frame.count
            return False
        if self.is_between:
            raise Fault("a JSON frame outside a window")
        if frame.sequence != len(self._window) + 1:
            raise Fault(f"the sequence {frame.sequence} in place of {len(self._window) + 1}")
        self._window.append(frame.payload)
        self._peer.received(frame.payload)
        return self.is_between and self._answer()

    def _answer(self):
        if self._answered == self._windows:
            return self._peer.closes
        self._answered += 1
        behaviour = self._behaviour
        if behaviour is Behaviour.WHOLE:
            self._acknowledge(self._count)
        elif behaviour is Behaviour.LATE:
            time.sleep(LATENESS)
            self._acknowledge(self._count)
        elif behaviour is Behaviour.SINGLE_BYTES:
            self._acknowledge(self._count, pause=0.002)
        elif behaviour is Behaviour.SLOW:
            for _ in range(SIGNS):
                time.sleep(SIGN)
                self._link.sendall(struct.pack(">2sI", b"2A", 0))
            self._acknowledge(self._count)
        elif behaviour is Behaviour.COMPRESSED:
            self._link.sendall(b"2C")
        elif behaviour is Behaviour.ABOVE:
            self._link.sendall(struct.pack(">2sI", b"2A", self._count + 1))
        elif behaviour is Behaviour.PART and self._count == 1:
            self._acknowledge(1)
        elif behaviour is Behaviour.PART:
            self._acknowledge(self._count - 1)
            self._windows = self._answered
            return self._peer.closes
        return False

    def _acknowledge(self, sequence, pause=None):
        answer = struct.pack(">2sI", b"2A", sequence)
        if pause is not None:
            for byte in answer[:-1]:
                self._link.sendall(bytes([byte]))
                time.sleep(pause)
            answer = answer[-1:]
        self._peer.acknowledge(self._window[:sequence], self._link, answer)


class Peer:
    """The receiver, in threads of its own from `with` on. It serves several connections at once.

    Read what it recorded after `end`, which waits until all that came in was taken.
    """

    def __init__(self, behaviour=Behaviour.WHOLE, windows=None, closes=True, port=0, tell=None, first=None):
        self.behaviour = behaviour
        # how many windows of a connection it answers
        self.windows = windows
        # with how many connections it deals so, before it acknowledges whatever comes; without it, with all
        self.first = first
        # whether it closes the connection where it answers no more, or is silent
        self.closes = closes
        # what was received: how many connections, and of all of them the frames and the payloads, in order
        self.connections = 0
        self.frames = []
        self.payloads = []
        # the payloads that an acknowledgement covers, in order
        self.acknowledged = []
        # how the client broke the protocol
        self.faults = []
        # set once it has closed a connection of its own accord
        self.hung_up = threading.Event()
        self._tell = tell
        self._acknowledging = threading.Lock()
        self._is_silent = False
        self._ending = threading.Event()
        self._listener = socket.create_server(("127.0.0.1", port))
        self._listener.settimeout(GLANCE)
        self._thread = threading.Thread(target=self._serve)
        self._listening = []

    @property
    def host(self):
        """Where it listens, as the settings write it."""
        return "127.0.0.1:%d" % self._listener.getsockname()[1]

    def __enter__(self):
        self._thread.start()
        return self

    def __exit__(self, *_):
        self.end()
        self._listener.close()

    def end(self):
        """Takes what still waits, and ends the threads. A client has to have ended before."""
        self._ending.set()
        self._thread.join()
        for thread in self._listening:
            thread.join()

    def received(self, payload):
        self.payloads.append(payload)
        if self._tell:
            self._tell(payload)

    def acknowledge(self, payloads, link, answer):
        """Notes the payloads, and sends what is left of the answer that acknowledges them."""
        with self._acknowledging:
            if self._is_silent:
                return
            # noted first: once it is out, the client may end before this thread goes on
            self.acknowledged += payloads
            link.sendall(answer)

    def fall_silent(self):
        """Nothing is acknowledged from now on."""
        with self._acknowledging:
            self._is_silent = True

    def _serve(self):
        while True:
            try:
                link, _ = self._listener.accept()
            except socket.timeout:
                # (not before: a connection that waits is one that was made)
                if self._ending.is_set():
                    return
                continue
            self._listening.append(threading.Thread(target=self._hear, args=(link, self.connections)))
            self.connections += 1
            self._listening[-1].start()

    def _hear(self, link, number):
        with link:
            try:
                self._listen(link, number)
            except Fault as fault:
                self.faults.append(str(fault))
            except OSError:
                # the client went away without a farewell
                pass

    def _listen(self, link, number):
        link.settimeout(GLANCE)
        link.setsockopt(socket.IPPROTO_TCP, socket.TCP_NODELAY, 1)
        is_plain = self.first is not None and number >= self.first
        talk = Talk(link, self, *((Behaviour.WHOLE, None) if is_plain else (self.behaviour, self.windows)))
        frames = Frames()
        while True:
            try:
                piece = link.recv(65536)
            except socket.timeout:
                if self._ending.is_set():
                    return
                continue
            if not piece:
                if not (frames.is_between and talk.is_between):
                    raise Fault(CUT_OFF)
                return
            for frame in frames.feed(piece):
                self.frames.append(frame)
                if talk.take(frame):
                    link.close()
                    self.hung_up.set()
                    return


def main():
    words = argparse.ArgumentParser(description="Receives events by Lumberjack v2 on loopback, and prints them.")
    words.add_argument("--port", type=int, default=5044, help="0 takes a free one (default: 5044)")
    port = words.parse_args().port

    def show(payload):
        print(payload.decode(errors="replace"), flush=True)

    with Peer(port=port, tell=show) as peer:
        print(f"listening on {peer.host}; Ctrl-C ends it", flush=True)
        try:
            threading.Event().wait()
        except KeyboardInterrupt:
            pass
    for fault in peer.faults:
        print(f"the client broke the protocol: {fault}")


if __name__ == "__main__":
    main()
