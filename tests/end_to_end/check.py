"""The program `beat_check`: what it finds in settings, files and hosts before a run; and that it changes nothing."""

import os
import shutil
import socket
import subprocess
from pathlib import Path

import program
from area import text
from peer import Peer
from shipping import Shipping

DONE, USAGE, SETTINGS, FOLDER_FAULT, UNREACHABLE, OUT_FAULT, SOURCE_FAULT, UNBUILT = 0, 2, 3, 6, 7, 8, 9, 13

# so many names of each kind are shown
SHOWN = 20

# the user that may read nothing of the one who runs the tests, where that is the user 0
NOBODY = 65_534

OUTPUT = '[output]\nhosts = ["127.0.0.1:1"]\n'
INPUT = '[[inputs]]\nid = "w"\npaths = ["/nothing/*.log"]\nfile_identity = "path"\n'

# settings with a fault, the line and what is said of it, and the status line
FAULTS = (
    (INPUT + "pathz = 1\n" + OUTPUT, 5, "", "unknown inputs.0.pathz"),
    ("# no input\n" + OUTPUT, None, "", "missing inputs"),
    ("\n" + INPUT.replace('id = "w"\n', "") + OUTPUT, 2, "", "missing inputs.0.id"),
    (INPUT + 'include_lines = [\n  "a",\n  "(",\n]\n' + OUTPUT, 5, "", "bad pattern inputs.0.include_lines.1"),
    (INPUT + "check_interval = 5\n" + OUTPUT, 5, "", "wrong kind inputs.0.check_interval"),
    (INPUT.replace("/nothing/", "nothing/") + OUTPUT, 3, ": the glob does not begin with a slash", "bad glob inputs.0.paths.0"),
    (INPUT + OUTPUT.replace("]\n", "]\nworkers = 99\n", 1).replace("hosts", "\nhosts"), 6, "", None),
    (INPUT + "[output\n", 5, None, "not toml"),
)


class Check(Shipping):
    checked = None

    def setUp(self):
        super().setUp()
        self.logs = self.folder / "logs"
        self.logs.mkdir()

    def check(self, *words, stdout=subprocess.PIPE):
        return program.finish(program.start(self.checked, ("-c", "beat.toml", *words), self.folder, stdout))

    def log(self, name, content):
        path = self.logs / name
        path.parent.mkdir(parents=True, exist_ok=True)
        path.write_bytes(content)
        return str(path)

    def write_inputs(self, *inputs, hosts=("127.0.0.1:1",)):
        """Inputs by their ids, identities and globs."""
        settings = ""
        for name, identity, *globs in inputs:
            paths = ", ".join(text(str(it)) for it in globs)
            settings += f'[[inputs]]\nid = "{name}"\npaths = [{paths}]\nfile_identity = "{identity}"\n'
        self.write_settings(settings + f"[output]\nhosts = [{', '.join(map(text, hosts))}]\n")

    def everything(self):
        """What lies in the test's folder, and when it was changed."""
        return sorted((bytes(it), it.lstat().st_mtime_ns) for it in self.folder.rglob("*"))

    def sections(self, ran):
        """The lines of globs, and the names below each head."""
        globs, found, names = [], {}, None
        for line in ran.stdout.decode().splitlines():
            if line.startswith("input "):
                globs.append(line)
            elif line.startswith("  "):
                names.append(line[2:])
            else:
                head, _, count = line.rpartition(": ")
                names = found[head] = []
                self.assertGreater(int(count), 0)
        return globs, found

    def test_check_of_each_kind(self):
        """Each glob with what it finds, each finding by name; nothing is changed, and there is no data folder."""
        small = self.log("f/small.log", b"x" * 1_023)
        whole = self.log("f/whole.log", b"y" * 1_024)
        first = self.log("n/app.log", b"12\n")
        doubled = str(self.logs / "n" / "zoo.log")
        os.link(first, doubled)
        link = self.logs / "n" / "link.log"
        link.symlink_to(first)
        (self.logs / "n" / "way").symlink_to(self.logs / "f")
        (self.logs / "n" / "elsewhere.txt").symlink_to(first)
        Path(os.fsdecode(bytes(self.logs) + b"/f/\xff.log")).write_bytes(b"1\n")
        self.log("p/app.log", b"1\n")
        odd = [self.logs / "p" / it for it in ("{a,b}.log", "[!x].log")] + [self.logs / "p"]
        self.write_inputs(
            ("f", "fingerprint", self.logs / "f" / "*.log"),
            ("n", "native", self.logs / "n" / "*.log", self.logs / "absent" / "*.log"),
            ("p", "path", self.logs / "p" / "*.log*", *odd),
            hosts=("127.0.0.1:1", "localhost:2", "127.0.0.1:3"),
        )
        before = self.everything()
        ran = self.check()
        self.assertEqual((ran.returncode, ran.stderr), (DONE, b""))
        globs, found = self.sections(ran)
        fingerprint = "fingerprint of 1024 bytes from 0"
        self.assertEqual(
            globs,
            [
                f"input f, {fingerprint}: 2 files {text(str(self.logs / 'f' / '*.log'))}",
                f"input n, native: 2 files {text(str(self.logs / 'n' / '*.log'))}",
                f"input n, native: 0 files {text(str(self.logs / 'absent' / '*.log'))}",
                f"input p, path: 1 files {text(str(self.logs / 'p' / '*.log*'))}",
                *(f"input p, path: 0 files {text(str(it))}" for it in odd),
            ],
        )
        wanted = {
            "too small for a fingerprint": [f"{text(small)}: 1023 of 1024 bytes"],
            "doubled by a file before it": [text(doubled)],
            "symbolic link": [text(str(link))],
            "folder of a name that is not UTF-8": [text(str(self.logs / "f"))],
            "glob whose folder is absent": [text(str(self.logs / "absent" / "*.log"))],
            "glob that finds no file": [text(str(it)) for it in odd],
            "glob as another tool reads it": [text(str(it)) for it in odd],
            "warning, known by path and rotated names are covered": [text(str(self.logs / "p" / "*.log*"))],
            "warning, host that no worker uses": [text("localhost:2"), text("127.0.0.1:3")],
        }
        self.assertEqual(found, wanted)
        self.assertNotIn(text(whole), ran.stdout.decode())
        self.assertEqual(self.everything(), before)

    def test_check_shows_so_many(self):
        """At most so many names of each kind, and how many more."""
        for number in range(SHOWN + 5):
            self.log(f"{number:02}.log", b"x")
        self.write_inputs(("f", "fingerprint", self.logs / "*.log"))
        _, found = self.sections(self.check())
        names = found["too small for a fingerprint"]
        self.assertEqual(names[0], f"{text(str(self.logs / '00.log'))}: 1 of 1024 bytes")
        self.assertEqual((len(names), names[-1]), (SHOWN + 1, "and 5 more"))

    def test_check_finds_faults(self):
        """The first fault of the settings, its line, and why as far as more is known; nothing else is printed."""
        for settings, line, why, fault in FAULTS:
            with self.subTest(fault=fault, line=line):
                self.write_settings(settings)
                ran = self.check()
                self.assertEqual((ran.returncode, ran.stdout), (SETTINGS, b""))
                said = ran.stderr.decode().splitlines()
                self.assertTrue(said[-1].startswith("status 3 settings "), said)
                if fault is not None:
                    self.assertEqual(said[-1], f"status 3 settings {fault}")
                if line is None:
                    self.assertEqual(len(said), 1)
                else:
                    self.assertTrue(said[0].startswith(f"beat.toml:{line}"), said)
                    if why is not None:
                        self.assertEqual(said[0], f"beat.toml:{line}{why}")

    def test_check_of_refusals(self):
        """Each other status with its cause."""
        self.write_inputs(("w", "path", self.logs / "*.log"))
        ran = self.check("--unknown")
        self.assertEqual((ran.returncode, ran.stdout), (USAGE, b""))
        self.assertIn(b"--unknown", ran.stderr)
        with open("/dev/full", "wb") as full:
            self.assertEqual(self.check(stdout=full).returncode, OUT_FAULT)
        self.write_settings(INPUT + 'ignore_older = "1h"\n' + OUTPUT)
        ran = self.check()
        self.assertEqual((ran.returncode, ran.stdout), (UNBUILT, b""))
        self.assertEqual(ran.stderr, b"status 13 unbuilt key inputs.0.ignore_older\n")
        (self.folder / "beat.toml").unlink()
        ran = self.check()
        self.assertEqual((ran.returncode, ran.stdout), (SOURCE_FAULT, b""))
        self.assertEqual(ran.stderr, b"beat.toml: No such file or directory (os error 2)\nstatus 9 source fault\n")

    def test_check_where_nothing_may_be_read(self):
        """Files and folders that may not be read, and a registry that may not be written, with the system's reason."""
        closed = self.log("closed.log", b"1\n")
        inside = self.logs / "inside"
        inside.mkdir()
        self.write_inputs(("w", "path", self.logs / "*.log"), ("i", "path", inside / "*.log"))
        user = NOBODY if os.geteuid() == 0 else None
        tested = shutil.copy(self.checked, self.folder / "beat_check")
        os.chmod(self.folder, 0o555)
        os.chmod(closed, 0)
        denied = "Permission denied (os error 13)"
        ran = subprocess.run([tested, "-c", "beat.toml"], cwd=self.folder, user=user, capture_output=True, timeout=20)
        self.assertEqual((ran.returncode, ran.stderr.decode()), (FOLDER_FAULT, f"{text(closed)}: {denied}\n"))
        _, found = self.sections(ran)
        self.assertEqual(found["unreadable"], [f"{text(closed)}: {denied}"])
        self.assertEqual(found["warning, registry that cannot be written"], [f"{text('data')}: permission denied"])
        os.chmod(inside, 0)
        ran = subprocess.run([tested, "-c", "beat.toml"], cwd=self.folder, user=user, capture_output=True, timeout=20)
        self.assertEqual(ran.returncode, FOLDER_FAULT)
        self.assertIn(f"{text(str(inside))}: {denied}\n", ran.stderr.decode())
        os.chmod(self.folder, 0o755)
        os.chmod(inside, 0o755)

    def test_check_of_few_open_files(self):
        """A limit below the number of files is told; one at which not even a folder can be listed is a fault."""
        self.log("a.log", b"1\n")
        self.write_inputs(("w", "path", self.logs / "*.log"))
        for limit, status in ((32, DONE), (4, FOLDER_FAULT)):
            words = ("-c", f'ulimit -n {limit}; exec "$0" "$@"', os.fspath(self.checked), "-c", "beat.toml")
            ran = program.run("sh", words, self.folder)
            self.assertEqual(ran.returncode, status, ran)
            _, found = self.sections(ran)
            if status == DONE:
                told = [f"{text('ulimit -n')}: 1 files, limit {limit}"]
                self.assertEqual(found["warning, more files than may be open"], told)
            else:
                self.assertIn(b"Too many open files", ran.stderr)

    def test_check_connects_to_each_host(self):
        """One connection to each host and no byte, where that is asked for; a host that does not connect is named with why."""
        self.log("a.log", b"1\n")
        with socket.create_server(("127.0.0.1", 0)) as closed:
            port = closed.getsockname()[1]
        refused = f"127.0.0.1:{port}"
        with Peer() as one, Peer() as other:
            first, second = one.host, other.host
            self.write_inputs(("w", "path", self.logs / "*.log"), hosts=(first, second))
            self.assertEqual(self.check().returncode, DONE)
            ran = self.check("--connect")
            self.assertEqual((ran.returncode, ran.stderr), (DONE, b""))
            _, found = self.sections(ran)
            self.assertEqual(found["host that connects"], [text(first), text(second)])
            self.write_inputs(("w", "path", self.logs / "*.log"), hosts=(first, refused, second))
            ran = self.check("--connect")
        why = f"{text(refused)}: Connection refused (os error 111)"
        self.assertEqual((ran.returncode, ran.stderr.decode()), (UNREACHABLE, f"{why}\n"))
        _, found = self.sections(ran)
        self.assertEqual(found["host that does not connect"], [why])
        self.assertEqual(found["host that connects"], [text(first), text(second)])
        for peer in (one, other):
            self.assertEqual((peer.connections, peer.frames, peer.faults), (2, [], []))

    def test_check_help_and_version(self):
        for word, begins in (("--help", b"Checks the settings"), ("--version", b"beat_check ")):
            ran = program.run(self.checked, (word,), self.folder)
            self.assertEqual((ran.returncode, ran.stderr), (DONE, b""))
            self.assertTrue(ran.stdout.startswith(begins), ran.stdout)
