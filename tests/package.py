#!/usr/bin/env python3
"""Makes the package twice, and installs, uses, removes and purges it in a root that has nothing but the C library and what
its scripts call.

    python3 -B tests/package.py [--programs FOLDER]

It takes the programs that the gate proved, or those of a folder. It needs no network. What this machine cannot do is
printed as skipped, with the reason.
"""

import argparse
import hashlib
import os
import re
import shutil
import subprocess
import sys
import tarfile
import tempfile
import unittest
from collections import Counter
from pathlib import Path

ROOT = Path(__file__).resolve().parents[1]
sys.path += [str(ROOT / "package"), str(ROOT / "tests" / "end_to_end")]

import deb  # noqa: E402
import dist  # noqa: E402
import example  # noqa: E402
import licences  # noqa: E402
import man  # noqa: E402
import products  # noqa: E402
from area import rows_of  # noqa: E402
from peer import Peer  # noqa: E402

# what the scripts of the Debian package call
CALLED = ("sh", "grep", "cut", "mkdir", "chown", "chmod", "useradd")
# where programs are, also those of the system's manager
PATH = "/usr/local/sbin:/usr/local/bin:/usr/sbin:/usr/bin:/sbin:/bin"
# two surroundings in which the same bytes have to be made
SURROUNDINGS = ({"TZ": "UTC", "LC_ALL": "C", "PYTHONHASHSEED": "1"}, {"TZ": "Asia/Tokyo", "LC_ALL": "C.UTF-8", "PYTHONHASHSEED": "2"})
UMASKS = (0o022, 0o077)
PASSWD = "root:x:0:0:root:/root:/bin/sh\n"
GROUP = "root:x:0:\nadm:x:4:\n"
INSTALLED = "Package: {}\nStatus: install ok installed\nMaintainer: nobody <nobody@example>\nVersion: {}\nArchitecture: amd64\nDescription: of the machine\n\n"
# with what each program ends without arguments
USAGE = 2
# seconds that a command may take
PATIENCE = 60


def run(*command, **how):
    how = {"check": True, "capture_output": True, "timeout": PATIENCE, **how}
    return subprocess.run([os.fspath(it) for it in command], **how)


def digest(file):
    return hashlib.sha256(file.read_bytes()).hexdigest()


def words_in(text):
    return Counter(re.findall(r"[A-Za-z0-9]+", text))


class Package(unittest.TestCase):
    programs = None

    @classmethod
    def setUpClass(cls):
        cls.room = tempfile.TemporaryDirectory(prefix="beat-package-")
        cls.folder = Path(cls.room.name).resolve()

    @classmethod
    def tearDownClass(cls):
        cls.room.cleanup()

    def need(self, *commands):
        for it in commands:
            if not shutil.which(it, path=PATH):
                self.skipTest(f"this machine has no {it}")

    def made(self, script, name):
        """The file that a script of package/ makes, and its bytes made anew in other surroundings."""
        files = []
        for number, (surroundings, umask) in enumerate(zip(SURROUNDINGS, UMASKS)):
            into = self.folder / f"{script}{number}"
            if not (into / name).exists():
                command = [sys.executable, "-B", ROOT / "package" / script, "--into", into]
                command += ["--programs", self.programs] if self.programs else []
                run(*command, env={**os.environ, **surroundings}, umask=umask)
            files.append(into / name)
        return files

    def test_archive_is_reproducible(self):
        self.need("readelf")
        one, other = self.made("dist.py", f"{products.NAME}.tar.gz")
        self.assertEqual(digest(one), digest(other))

    def test_archive_has_what_its_sums_say(self):
        """Each file but the sums has its line, and the line its file."""
        self.need("readelf")
        archive, _ = self.made("dist.py", f"{products.NAME}.tar.gz")
        with tarfile.open(archive) as opened:
            members = opened.getmembers()
            files = {it.name.partition("/")[2]: opened.extractfile(it).read() for it in members}
        self.assertEqual({it.name.partition("/")[0] for it in members}, {products.NAME})
        self.assertEqual({(it.uid, it.gid, it.mtime) for it in members}, {(0, 0, products.moment())})
        self.assertEqual([it.name for it in members], sorted(it.name for it in members))
        sums = "".join(f"{hashlib.sha256(files[it]).hexdigest()}  {it}\n" for it in sorted(files) if it != dist.SUMS)
        self.assertEqual(files[dist.SUMS].decode(), sums)
        modes = {it.name.partition("/")[2]: it.mode for it in members}
        for name in products.programs():
            self.assertEqual(modes[f"bin/{name}"], 0o755)
            self.assertIn(f"man/man1/{name}.1", files)
        for name in ("examples/every_key.toml", "examples/beat.service", "examples/beat.timer", "docs/install.md"):
            self.assertIn(name, files)
        for library in ("regex", "toml", "clap"):
            self.assertTrue(any(it.startswith(f"licences/{library}/LICENSE") for it in files), library)

    def test_licences(self):
        """Each linked library has its row, each row its files, and it is said whether the project has a licence."""
        notes, texts = licences.notes()
        rows = dict(re.findall(r"^\| (\w+) \| (.*) \|$", notes, re.MULTILINE))
        self.assertEqual(tuple(it for it in rows if it != "Library"), licences.linked())
        named = [it for row in rows.values() for it in row.split(", ") if "/" in it]
        self.assertEqual(sorted(named), sorted(texts))
        for library in (it for it, row in rows.items() if row == licences.NONE):
            self.assertRegex(notes, rf"no licence file for \d+ of them: .*\b{library}\b")
        self.assertEqual("No licence is chosen" in notes, not licences.own_licence())

    def test_man_pages(self):
        """Each renders without a warning, and has every word of its page."""
        self.need("groff")
        for page, name, section in man.pages():
            with self.subTest(page=page.name):
                text = man.man_page(page, name, section)
                ran = run("groff", "-man", "-ww", "-Tutf8", "-P-c", "-rLL=120n", input=text.encode())
                self.assertEqual(ran.stderr, b"")
                shown = words_in(re.sub(r"\x1b\[\d+m|.\x08", "", ran.stdout.decode()))
                # of a link what is shown, and of a block of code the lines
                source = re.sub(r"^```\w*$|^\|[-:| ]+\|$", "", page.read_text(), flags=re.MULTILINE)
                source = re.sub(r"\[([^\[\]]*)\]\([^)]*\)", lambda it: "" if it[1].strip("`").endswith(".md") else it[1], source)
                headings = words_in(" ".join(re.findall(r"^##? .*|^\|.*\|(?=\n\|[-:| ]+\|$)", page.read_text(), re.MULTILINE)))
                # headings are in capitals, and those of columns stand at their cells
                missing = {it for it in words_in(source) - shown if it not in headings}
                self.assertFalse(missing, f"{len(missing)} words are missing, as {sorted(missing)[:9]}")

    def test_debian_package_is_reproducible(self):
        self.need("readelf", "dpkg-deb")
        one, other = self.made("deb.py", deb.NAME)
        self.assertEqual(digest(one), digest(other))

    def test_units_name_what_is_installed(self):
        """What the unit of the package runs and reads is what the package installs, and nothing of the example's places."""
        unit = deb.unit((example.FOLDER / "beat.service").read_bytes()).decode()
        self.assertNotRegex(unit, r"/usr/local|/etc/beat|/var/lib/beat")
        started = re.findall(r"(/\S*/)(beat_\w+) -c (\S+) (.*)", unit)
        self.assertIn("beat_main", [name for _, name, _, _ in started])
        for folder, name, settings, rest in started:
            self.assertIn(name, products.programs())
            self.assertEqual((folder, settings), ("/usr/bin/", f"/{deb.SETTINGS}"))
            self.assertIn("--data /var/lib/moqhuluzi", rest)
        for line in ("StateDirectory=moqhuluzi", "User=moqhuluzi"):
            self.assertIn(f"\n{line}\n", unit)

    # a bare root

    def copy_with_libraries(self, root, command):
        """Puts a program of this machine into the root, with the libraries that it is linked to."""
        program = Path(shutil.which(command, path=PATH)).resolve()
        libraries = re.findall(r"(/\S+) \(0x", run("ldd", program).stdout.decode())
        target = root / "usr" / "bin" / command
        shutil.copy(program, target)
        for library in map(Path, libraries):
            target = root / library.relative_to("/")
            target.parent.mkdir(parents=True, exist_ok=True)
            if not target.exists():
                shutil.copy(library.resolve(), target)

    def make_root(self):
        """A root with a C library, what the scripts call, and a registry of packages that says so."""
        root = self.folder / "root"
        for folder in ("usr/bin", "usr/sbin", "usr/lib", "usr/lib64", "etc", "dev", "tmp", "root", "var/log"):
            (root / folder).mkdir(parents=True)
        for folder in ("var/lib/dpkg/info", "var/lib/dpkg/updates"):
            (root / folder).mkdir(parents=True)
        for name in ("bin", "sbin", "lib", "lib64"):
            (root / name).symlink_to(f"usr/{name}")
        for command in CALLED:
            self.copy_with_libraries(root, command)
        (root / "etc" / "passwd").write_text(PASSWD)
        (root / "etc" / "group").write_text(GROUP)
        c_library = os.confstr("CS_GNU_LIBC_VERSION").split()[1]
        told = INSTALLED.format("libc6", c_library) + INSTALLED.format("passwd", "1")
        (root / "var/lib/dpkg/status").write_text(told)
        return root

    def dpkg(self, root, *words):
        command = ("dpkg", f"--root={root}", f"--log={self.folder / 'dpkg.log'}", "--force-bad-path", *words)
        ran = run(*command, env={"PATH": PATH, "LC_ALL": "C", "DEBIAN_FRONTEND": "noninteractive"}, check=False)
        self.assertEqual(ran.returncode, 0, (ran.stdout + ran.stderr).decode(errors="replace"))
        return ran.stdout.decode()

    def run_in(self, root, name, *words):
        """Runs an installed program in the root as its user."""
        numbers = re.search(r"^moqhuluzi:[^:]*:(\d+:\d+):", (root / "etc/passwd").read_text(), re.MULTILINE)[1]
        words = (f"/usr/bin/{name}", "-c", f"/{deb.SETTINGS}", "--data", "/var/lib/moqhuluzi", *words)
        return run("chroot", f"--userspec={numbers}", "--groups=", root, *words, env={"PATH": PATH}, check=False)

    def ship(self, root, peer, shipped):
        """A run in the root, which ships so many events; it ends well."""
        settings = root / deb.SETTINGS
        settings.write_text(re.sub(r'^hosts = .*$', f'hosts = ["{peer.host}"]', settings.read_text(), flags=re.MULTILINE))
        ran = self.run_in(root, "beat_main", "--once")
        lines = ran.stdout.decode().splitlines()
        self.assertEqual(lines[-2:], [f"shipped {shipped} dropped 0", "status 0 done"], ran)

    def test_package_in_a_bare_root(self):
        """It installs, each program starts, the example is shipped, also after a rotation, changed settings are kept, and all
        is removed but the registry."""
        self.need("readelf", "dpkg-deb", "dpkg", "ldd", "chroot", "useradd")
        if os.geteuid() != 0:
            self.skipTest("only root may change the root folder")
        package, _ = self.made("deb.py", deb.NAME)
        root = self.make_root()
        if run("chroot", root, "/usr/bin/sh", "-c", ":", check=False).returncode != 0:
            self.skipTest("this machine does not let root change the root folder")
        self.dpkg(root, "--install", package)
        for name in products.programs():
            self.assertEqual(run("chroot", root, f"/usr/bin/{name}", check=False).returncode, USAGE, name)
        logs = root / example.LOGS.removeprefix("/")
        shutil.copytree(example.FOLDER / "logs", logs)
        self.assertEqual(self.run_in(root, "beat_check").returncode, 0)
        files = sorted(logs.rglob("*.log"))
        lines = sum(it.read_bytes().count(b"\n") for it in files)
        with Peer() as peer:
            self.ship(root, peer, lines)
            for file in files:
                content = file.read_bytes()
                with file.open("ab") as opened:
                    opened.write(b"one more line\n")
                file.rename(f"{file}.1")
                file.write_bytes(b"of another day: " + content)
            self.ship(root, peer, len(files) + lines)
        self.assertEqual((peer.faults, len(set(peer.payloads))), ([], 2 * lines + len(files)))
        status = self.run_in(root, "beat_status").stdout.decode()
        self.assertIn("0 bytes behind, 8 present, 0 shorter, 0 gone, 0 new, 0 doubled, 0 small", status)

        changed = (root / deb.SETTINGS).read_text()
        self.dpkg(root, "--install", package)
        self.assertEqual((root / deb.SETTINGS).read_text(), changed)
        stored = (root / "var/lib/moqhuluzi/registry.a").read_bytes()
        self.assertEqual(len(rows_of(stored)), 2 * len(files))
        self.dpkg(root, "--remove", "moqhuluzi")
        self.assertEqual([it for it in products.programs() if (root / "usr/bin" / it).exists()], [])
        self.assertEqual((root / deb.SETTINGS).read_text(), changed)
        said = self.dpkg(root, "--purge", "moqhuluzi")
        self.assertIn("the registry is left in /var/lib/moqhuluzi", said)
        left = {str(it.relative_to(root)) for it in root.rglob("*") if re.search("beat|moqhuluzi", it.name)}
        self.assertEqual(left, {"var/lib/moqhuluzi"})
        self.assertEqual((root / "var/lib/moqhuluzi/registry.a").read_bytes(), stored)


class Lines(unittest.TestResult):
    """One line for each test."""

    def __init__(self):
        super().__init__()
        self.passed = 0

    def addSuccess(self, test):
        self.passed += 1
        print("passed", test._testMethodName.removeprefix("test_"), flush=True)

    def addSkip(self, test, reason):
        super().addSkip(test, reason)
        print(f"SKIPPED {test._testMethodName.removeprefix('test_')}: {reason}", flush=True)

    def addFailure(self, test, error):
        super().addFailure(test, error)
        print(f"FAILED {test._testMethodName.removeprefix('test_')}\n{self.failures[-1][1]}", flush=True)

    def addError(self, test, error):
        super().addError(test, error)
        print(f"FAILED {getattr(test, '_testMethodName', test)}\n{self.errors[-1][1]}", flush=True)
        if isinstance(error[1], subprocess.CalledProcessError):
            print(error[1].stderr.decode(errors="replace"), flush=True)

    def addSubTest(self, test, subtest, error):
        super().addSubTest(test, subtest, error)
        if error is not None:
            print(f"FAILED {subtest}\n{''.join(str(it) for it in error[1:2])}", flush=True)


def main():
    words = argparse.ArgumentParser(description="Tests the package.")
    words.add_argument("--programs", type=Path, help="a folder with programs (default: those that rt ci built)")
    Package.programs = words.parse_args().programs
    result = Lines()
    unittest.defaultTestLoader.loadTestsFromTestCase(Package).run(result)
    failed = len(result.failures) + len(result.errors)
    print(f"package: {result.passed} passed, {failed} failed, {len(result.skipped)} skipped")
    return 1 if failed else 0


if __name__ == "__main__":
    sys.exit(main())
