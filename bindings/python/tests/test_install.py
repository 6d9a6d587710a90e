"""pip installs the module from its folder with the repository's dist, a C compiler and no network; the installed one needs nothing else."""
import base64
import csv
import hashlib
import io
import os
import platform
import re
import shutil
import subprocess
import sys
import tempfile
import unittest
import zipfile
from pathlib import Path

from tillsparrow import _native

from . import files

HERE = files.ROOT / "bindings" / "python"
MACHINE = {"arm64": "aarch64"}.get(platform.machine(), platform.machine())
#: Nothing of the caller's reaches the module or pip.
ENVIRONMENT = {name: value for name, value in os.environ.items() if not name.startswith(("PYTHON", "PIP_", "TILLSPARROW_"))}
ENVIRONMENT.update(PIP_NO_INDEX="1", PIP_DISABLE_PIP_VERSION_CHECK="1", PYTHONDONTWRITEBYTECODE="1")


def run(*command, cwd, **more):
    done = subprocess.run([str(word) for word in command], cwd=cwd, env={**ENVIRONMENT, **more}, stdout=subprocess.PIPE,
                          stderr=subprocess.STDOUT, check=False)
    return done.returncode, done.stdout.decode()


def copied(room):
    """What the repository has for it, in a folder where ./library never ran."""
    top = Path(room) / "a copy"
    for folder in ("dist", "bindings/python", "include"):
        shutil.copytree(files.ROOT / folder, top / folder, symlinks=True, ignore=shutil.ignore_patterns("__pycache__"))
    for name in ("VERSION", "LICENSE", "NOTICE", "docs/tray.jpg"):
        (top / name).parent.mkdir(exist_ok=True)
        shutil.copy(files.ROOT / name, top / name)
    return top


def built(top, before="pass", **more):
    """Builds the wheel as pip does; the exit status, what was said, and the wheels that are there."""
    wheels = Path(tempfile.mkdtemp(dir=top))
    code = f"import sys; sys.path.insert(0, 'backend'); import tillsparrow_backend as own; {before}; own.build_wheel(sys.argv[1])"
    return (*run(sys.executable, "-c", code, wheels, cwd=top / "bindings" / "python", **more), list(wheels.iterdir()))


@unittest.skipIf(os.environ.get("TILLSPARROW_HIDE_NUMPY"), "once is enough")
class Installed(unittest.TestCase):
    def setUp(self):
        room = tempfile.TemporaryDirectory()
        self.addCleanup(room.cleanup)
        self.room, self.top = Path(room.name), copied(room.name)
        self.python = self.room / "venv" / "bin" / "python"
        # With the packages of the Python that runs the tests, among them Pillow and imageio.
        status, said = run(sys.executable, "-m", "venv", "--system-site-packages", self.room / "venv", cwd=self.room)
        self.assertEqual(status, 0, said)

    def pip(self, *words):
        status, said = run(self.python, "-m", "pip", *words, cwd=self.top)
        self.assertEqual(status, 0, said)

    def placed(self):
        """Where the module finds its library."""
        status, said = run(self.python, "-c", "import tillsparrow; print(tillsparrow._native.place())", cwd=self.room)
        self.assertEqual(status, 0, said)
        return Path(said.rstrip("\n"))

    def run_tests(self):
        """The tests hold for what is installed; the copy's own module is out of the way."""
        shutil.rmtree(self.top / "bindings" / "python" / "tillsparrow")
        names = ("tests.test_rules", "tests.test_channels", "tests.test_scans", "tests.test_pillow",
                 "tests.test_imageio.WithImageio.test_notes_are_kept")
        status, said = run(self.python, "-m", "unittest", *names, cwd=self.top / "bindings" / "python")
        self.assertEqual(status, 0, said)
        self.assertRegex(said, r"Ran [3-9]\d tests(.|\n)*\nOK\n")

    def test_what_is_installed_needs_nothing_else(self):
        self.pip("install", "./bindings/python")
        own, = (self.room / "venv").rglob("site-packages/tillsparrow/libtillsparrow.so")
        self.assertEqual(self.placed(), own)
        self.run_tests()
        seen = run("nm", "-D", "--defined-only", own, cwd=self.room)[1]
        self.assertEqual({line.split()[-1] for line in seen.splitlines()}, set(_native.FUNCTIONS))
        stack, = re.findall(r"GNU_STACK .* (R\S*) ", run("readelf", "-lW", own, cwd=self.room)[1])
        self.assertEqual(stack, "RW")
        # In its place the checkout itself, with what ./library built.
        self.pip("install", "-e", HERE)
        self.assertEqual((self.placed(), own.exists()), (_native.BUILT, False))


@unittest.skipIf(os.environ.get("TILLSPARROW_HIDE_NUMPY"), "once is enough")
class Wheels(unittest.TestCase):
    def setUp(self):
        room = tempfile.TemporaryDirectory()
        self.addCleanup(room.cleanup)
        self.top = copied(room.name)

    def test_a_wheel_is_whole_and_for_this_machine(self):
        (status, said, (wheel,)), again = built(self.top), built(self.top)
        self.assertEqual((status, said), (0, ""))
        self.assertEqual(wheel.read_bytes(), again[2][0].read_bytes())
        version = (files.ROOT / "VERSION").read_text().strip()
        self.assertEqual(wheel.name, f"tillsparrow-{version}-py3-none-linux_{MACHINE}.whl")
        with zipfile.ZipFile(wheel) as archive:
            held = {name: archive.read(name) for name in archive.namelist()}
        about = f"tillsparrow-{version}.dist-info"
        modules = {f"tillsparrow/{path.name}" for path in (HERE / "tillsparrow").iterdir() if path.name != "__pycache__"}
        self.assertEqual(set(held), {"tillsparrow/libtillsparrow.so"} | modules | {
            f"{about}/{name}" for name in ("METADATA", "WHEEL", "RECORD", "LICENSE", "NOTICE")})
        self.assertIn(f"Root-Is-Purelib: false\nTag: py3-none-linux_{MACHINE}\n", held[f"{about}/WHEEL"].decode())
        self.assertIn(f"\nName: tillsparrow\nVersion: {version}\n", held[f"{about}/METADATA"].decode())
        for name, digest, length in csv.reader(io.StringIO(held.pop(f"{about}/RECORD").decode())):
            if name != f"{about}/RECORD":
                wanted = base64.urlsafe_b64encode(hashlib.sha256(held[name]).digest()).rstrip(b"=").decode()
                self.assertEqual((digest, length), (f"sha256={wanted}", str(len(held.pop(name)))))
        self.assertEqual(held, {})

    def refused(self, said, before="pass", **more):
        status, told, wheels = built(self.top, before, **more)
        self.assertEqual((status, wheels), (1, []), told)
        self.assertRegex(told, f"^tillsparrow: .*{said}")
        self.assertEqual(told.count("\n"), 1, told)

    def test_what_is_missing_is_said(self):
        self.refused("a C compiler is needed, and no-such-cc cannot be run", CC="no-such-cc")
        self.refused("not for linux on riscv64", "own.platform.machine = lambda: 'riscv64'")
        self.refused("not for darwin on arm64", "own.platform.machine = lambda: 'arm64'; own.sys.platform = 'darwin'")
        self.refused("false could not link the library", CC="false")
        (self.top / "dist").rename(self.top / "dust")
        self.refused("dist/SHA256SUMS cannot be read: the folder dist belongs two folders above this one")

    def test_changed_assembly_is_not_used(self):
        changed, sums = self.top / "dist" / MACHINE / "c_settle.s", self.top / "dist" / "SHA256SUMS"
        text, lines = changed.read_bytes(), sums.read_text()
        for other in (text + b"\n", text[:-1], b""):
            changed.write_bytes(other)
            self.refused("c_settle.s is not the file that dist/SHA256SUMS names")
        changed.unlink()
        self.refused("c_settle.s cannot be read")
        changed.write_bytes(text)
        sums.write_text(re.sub(r".*c_settle\.s\n", "", lines))
        self.refused("c_settle.s is not the file that dist/SHA256SUMS names")
        sums.write_text(lines)
        self.assertEqual(built(self.top)[0], 0)
