"""One file and a peer that acknowledges all."""

from area import area, row, rows_of
from peer import Peer
from shipping import WINDOW, Shipping, events_of, now, numbered_lines, windows_of

# so many bytes of a line are sent at most where the settings do not say it
LONGEST = 10_485_760

# an area whose header is wrong from its second byte on
DAMAGED = b'{"x":1}'


class OneFile(Shipping):
    def test_worked_area_is_spelled(self):
        """These tests' own spelling of an area, against the worked one."""
        body = b'[{"epoch":0,"key":"filestream::w::path::/w/a.log","offset":4,"op":"set","path":"/w/a.log"}]'
        worked = b"{beat 2 00000000000000000001\n{0000091 " + body + b"\n."
        self.assertEqual(len(worked), 131)
        self.assertEqual(area(row("/w/a.log", 4)), worked)
        self.assertEqual(rows_of(worked), [row("/w/a.log", 4)])

    def test_two_plain_lines(self):
        since = now()
        with Peer() as peer:
            ran = self.ship(b"a\nb\n", peer)
        self.assert_events(peer, [(0, "a"), (2, "b")], since)
        self.assert_report(ran, 4, 2)
        self.assertEqual(peer.connections, 1)

    def test_empty_file(self):
        with Peer() as peer:
            ran = self.ship(b"", peer)
        self.assert_report(ran, 0, 0)
        self.assertEqual(peer.connections, 0)

    def test_unterminated_rest_waits(self):
        since = now()
        with Peer() as peer:
            ran = self.ship(b"a\nb", peer)
        self.assert_events(peer, [(0, "a")], since)
        self.assert_report(ran, 2, 1)

    def test_longest_head(self):
        """Of a longer line the first bytes are sent, and the row is behind it all the same."""
        with Peer() as peer:
            ran = self.ship(b"x" * (LONGEST + 1) + b"\n", peer)
        self.assert_report(ran, LONGEST + 2, 1)
        self.assertEqual([len(message) for _, message in events_of(peer.payloads)], [LONGEST])

    def test_absent_file(self):
        with Peer() as peer:
            ran = self.ship(None, peer)
        self.assert_done(ran, [], 0)
        self.assertEqual(peer.connections, 0)

    def test_second_run_goes_on(self):
        since = now()
        with Peer() as peer:
            self.assert_report(self.ship(b"a\nb\n", peer), 4, 2)
        with Peer() as peer:
            self.assert_report(self.ship(b"a\nb\nc\n", peer), 6, 1)
            self.assert_events(peer, [(4, "c")], since)

    def test_damaged_registry_is_refused(self):
        self.area.parent.mkdir()
        self.area.write_bytes(DAMAGED)
        with Peer() as peer:
            self.assert_wrote(self.ship(b"a\n", peer), "status 4 registry bad area A at 1")
        self.assertEqual(peer.connections, 0)
        self.assertEqual(self.area.read_bytes(), DAMAGED)

    def test_more_lines_than_a_window(self):
        since = now()
        content, events = numbered_lines(WINDOW + 2)
        for more, size in ((), WINDOW), (("bulk_max_size = 700",), 700), (("bulk_max_size = 1",), 1):
            self.enter_new_folder()
            with self.subTest(more=more), Peer() as peer:
                ran = self.ship(content, peer, *more)
                peer.end()
                self.assert_events(peer, events, since)
                self.assert_report(ran, len(content), len(events))
                # a window takes what is there by then, so only the most is known
                self.assertLessEqual(max(windows_of(peer)), size)
                self.assertEqual(peer.connections, 1)
