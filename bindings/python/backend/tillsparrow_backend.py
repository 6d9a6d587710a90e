"""Builds what pip installs from this folder, with nothing but Python and a C compiler: the module, and in its folder the shared
library, linked from the proved assembly text in the repository's folder dist. pip calls build_wheel, and build_editable for -e."""
import base64
import hashlib
import os
import platform
import shlex
import subprocess
import sys
import tempfile
import zipfile
from pathlib import Path
from typing import Dict, NoReturn, Optional

HERE = Path(__file__).resolve().parents[1]
MODULE = HERE / "tillsparrow"
DIST = HERE.parents[1] / "dist"
#: What a processor calls itself, and its folder in dist.
MACHINES = {"x86_64": "x86_64", "aarch64": "aarch64", "arm64": "aarch64"}
PARTS = ("c_functions.s", "c_settle.s")
ABOUT = """Metadata-Version: 2.1
Name: tillsparrow
Version: {version}
Summary: Reads baseline JPEG files with the proved library Tillsparrow
License: MIT
Requires-Python: >=3.8
Provides-Extra: array
Requires-Dist: numpy; extra == 'array'
Provides-Extra: pillow
Requires-Dist: pillow; extra == 'pillow'
Description-Content-Type: text/markdown

{page}"""


def die(text: str) -> NoReturn:
    sys.exit(f"tillsparrow: {text}")


def checked(name: str) -> Path:
    """A file of dist that is the one its list of checksums names."""
    try:
        lines = [line.split(maxsplit=1) for line in (DIST / "SHA256SUMS").read_text(encoding="ascii").splitlines()]
        found = hashlib.sha256((DIST / name).read_bytes()).hexdigest()
    except OSError as error:
        die(f"{error.filename} cannot be read: the folder dist belongs two folders above this one (pip before 21.3 copies it away)")
    if (found, name) not in [(digest, os.path.normpath(path)) for digest, path in lines]:
        die(f"{DIST / name} is not the file that dist/SHA256SUMS names: take the folder dist anew")
    return DIST / name


def shared_library(room: Path) -> bytes:
    """The library for this machine, of which nothing is seen but its calls."""
    machine = MACHINES.get(platform.machine())
    if not sys.platform.startswith("linux") or machine is None or sys.maxsize < 2**32:
        die(f"dist has the library for Linux of 64 bits on {', '.join(MACHINES)}, not for {sys.platform} on {platform.machine()}")
    calls, made = room / "calls.map", room / "libtillsparrow.so"
    calls.write_text("{ global: tillsparrow_*; local: *; };\n", encoding="ascii")
    compiler = shlex.split(os.environ.get("CC") or "cc")
    words = ["-shared", "-fPIC", "-o", str(made), *(str(checked(f"{machine}/{part}")) for part in PARTS),
             f"-Wl,--version-script={calls}", "-Wl,-z,defs", "-Wl,-z,noexecstack"]
    try:
        status = subprocess.run(compiler + words, check=False).returncode
    except OSError as error:
        die(f"a C compiler is needed, and {compiler[0]} cannot be run ({error.strerror}): install one (the package gcc), or name it in CC")
    if status:
        die(f"{compiler[0]} could not link the library")
    return made.read_bytes()


def write_wheel(folder: str, tag: str, files: Dict[str, bytes]) -> str:
    """Writes the wheel of these files, always with the same bytes, and answers its name."""
    version = (MODULE / "VERSION").read_text(encoding="ascii").strip()
    own = f"tillsparrow-{version}.dist-info"
    page = (HERE / "README.md").read_text(encoding="utf-8")
    pure = "true" if tag.endswith("-any") else "false"
    files = {**files, f"{own}/METADATA": ABOUT.format(version=version, page=page).encode(),
             f"{own}/WHEEL": f"Wheel-Version: 1.0\nGenerator: tillsparrow\nRoot-Is-Purelib: {pure}\nTag: {tag}\n".encode(),
             **{f"{own}/{name}": (HERE.parents[1] / name).read_bytes() for name in ("LICENSE", "NOTICE")}}
    record = ""
    for name, content in files.items():
        digest = base64.urlsafe_b64encode(hashlib.sha256(content).digest()).rstrip(b"=").decode()
        record += f"{name},sha256={digest},{len(content)}\n"
    files[f"{own}/RECORD"] = f"{record}{own}/RECORD,,\n".encode()
    wheel = f"tillsparrow-{version}-{tag}.whl"
    with zipfile.ZipFile(Path(folder) / wheel, "w") as archive:
        for name, content in files.items():
            entry = zipfile.ZipInfo(name)
            entry.compress_type, entry.external_attr = zipfile.ZIP_DEFLATED, (0o100755 if name.endswith(".so") else 0o100644) << 16
            archive.writestr(entry, content)
    return wheel


def build_wheel(wheel_directory: str, config_settings: Optional[object] = None, metadata_directory: Optional[str] = None) -> str:
    kept = [path for path in sorted(MODULE.iterdir()) if path.suffix == ".py" or path.name in ("py.typed", "VERSION")]
    files = {f"tillsparrow/{path.name}": path.read_bytes() for path in kept}
    with tempfile.TemporaryDirectory() as room:
        files["tillsparrow/libtillsparrow.so"] = shared_library(Path(room))
    return write_wheel(wheel_directory, f"py3-none-linux_{MACHINES[platform.machine()]}", files)


def build_editable(wheel_directory: str, config_settings: Optional[object] = None, metadata_directory: Optional[str] = None) -> str:
    """The module stays where it is, and finds the library that ./library builds."""
    return write_wheel(wheel_directory, "py3-none-any", {"tillsparrow.pth": f"{HERE}\n".encode()})


def build_sdist(sdist_directory: str, config_settings: Optional[object] = None) -> str:
    die("there is no archive of sources: the wheel is built from the repository, whose folder dist it needs")
