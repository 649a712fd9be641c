"""Runs over generated lines, which need no file, no folder and no receiver."""

import shutil

import example
import program
from shipping import Shipping

SETTINGS = example.FOLDER / "generated.toml"
KEY = "filestream::generated::path::/generated/a.log"
# lines, the bytes that they have, and the events that they make
SIZES = ((1, 4, 1), (2, 7, 1), (3, 10, 1), (4, 14, 2), (100_000, 722_224, 33_334))


class Generated(Shipping):
    def assert_generates(self, lines, length, events):
        shutil.copy(SETTINGS, self.folder / "beat.toml")
        ran = self.run_words("-c", "beat.toml", "--once", "--generate", str(lines))
        file = f'file "{KEY}" 0 {length} "/generated/a.log"'
        self.assertEqual(ran.stdout.decode().splitlines(), [file, f"shipped {events} dropped 0", "status 0 done"])
        self.assertEqual(ran.returncode, 0)
        self.assertEqual([it.name for it in self.folder.iterdir()], ["beat.toml"])

    def test_example_is_that_of_the_stored_run(self):
        """But for its comments."""
        stored = (program.CRATE / "data" / "generated.toml").read_text().splitlines()
        self.assertEqual([it for it in SETTINGS.read_text().splitlines() if not it.startswith("#")], stored)

    def test_generated_ten(self):
        self.assert_generates(10, 34, 4)

    def test_generated_lines(self):
        for lines, length, events in SIZES:
            with self.subTest(lines=lines):
                self.assert_generates(lines, length, events)
