"""Builds what pip installs: the module gerbilargent with the shared library of ./lib inside.

pip calls build_wheel, build_editable and build_sdist. Nothing is wanted but Python 3.8 or later and
what ./lib wants: cargo, a C compiler and its tools. So no registry is asked, and one wheel fits
each Python. The module is a package only in there, where py.typed says that it is typed.
"""

from __future__ import annotations

import base64
import functools
import hashlib
import io
import subprocess
import sys
import sysconfig
import tarfile
import zipfile
from pathlib import Path
from typing import Dict, Iterable, Optional

TOP = Path(__file__).resolve().parent.parent
Settings = Optional[Dict[str, str]]

#: What `python -m gerbilargent` runs.
MAIN = "import sys\n\nfrom gerbilargent import main\n\nsys.exit(main())\n"


def run(*command: str) -> str:
    """What a command of the repository prints."""
    ran = subprocess.run(command, cwd=TOP, check=True, stdout=subprocess.PIPE)
    return ran.stdout.decode().strip()


@functools.lru_cache(maxsize=None)
def title() -> str:
    """The name and the version, as names of files begin."""
    return f"gerbilargent-{run(str(TOP / 'tools/version'))}"


def metadata() -> bytes:
    """What pip and a registry show of it: its page of docs/ is the description."""
    name, version = title().split("-")
    lines = ["Metadata-Version: 2.1", f"Name: {name}", f"Version: {version}"]
    lines += ["Summary: A frame driver and a model of Atari's Digital Vector Generator"]
    lines += ["Requires-Python: >=3.8", "Classifier: Typing :: Typed"]
    lines += ["Description-Content-Type: text/markdown", ""]
    return "".join(line + "\n" for line in lines).encode() + (TOP / "docs/PYTHON.md").read_bytes()


def write_wheel(folder: str, files: "dict[str, bytes]") -> str:
    """Writes a wheel of these files, by their names, and answers its own name."""
    tag = "py3-none-" + sysconfig.get_platform().replace("-", "_").replace(".", "_")
    about = f"{title()}.dist-info"
    head = f"Wheel-Version: 1.0\nGenerator: {__name__}\nRoot-Is-Purelib: false\nTag: {tag}\n"
    files = {**files, f"{about}/METADATA": metadata(), f"{about}/WHEEL": head.encode()}
    record = ""
    for name, held in files.items():
        digest = base64.urlsafe_b64encode(hashlib.sha256(held).digest()).decode().rstrip("=")
        record += f"{name},sha256={digest},{len(held)}\n"
    files[f"{about}/RECORD"] = (record + f"{about}/RECORD,,\n").encode()
    wheel = f"{title()}-{tag}.whl"
    with zipfile.ZipFile(Path(folder, wheel), "w", zipfile.ZIP_DEFLATED) as archive:
        for name, held in files.items():
            entry = zipfile.ZipInfo(name)
            entry.compress_type = zipfile.ZIP_DEFLATED
            entry.external_attr = 0o644 << 16
            archive.writestr(entry, held)
    return wheel


def build_library() -> bytes:
    """Builds the shared library by ./lib, which says where it is. What it holds."""
    try:
        said = run(str(TOP / "lib"))
    except subprocess.CalledProcessError:
        sys.exit("gerbilargent: the library could not be built, as ./lib says above")
    head = "shared library: "
    places = [line[len(head):] for line in said.splitlines() if line.startswith(head)]
    return Path(places[0]).read_bytes()


def build_wheel(
    wheel_directory: str, config_settings: Settings = None, metadata_directory: object = None
) -> str:
    """Writes the wheel: the module as a package, typed, with the library beside it."""
    library = build_library()
    return write_wheel(wheel_directory, {
        "gerbilargent/__init__.py": (TOP / "python/gerbilargent.py").read_bytes(),
        "gerbilargent/__main__.py": MAIN.encode(),
        "gerbilargent/py.typed": b"",
        "gerbilargent/libdvg.so": library,
    })


def build_editable(
    wheel_directory: str, config_settings: Settings = None, metadata_directory: object = None
) -> str:
    """Writes a wheel that only tells where the module is in this repository."""
    build_library()
    return write_wheel(wheel_directory, {"gerbilargent.pth": f"{TOP / 'python'}\n".encode()})


def sources() -> "Iterable[Path]":
    """The files of the repository: those that git knows, or in an archive of them all."""
    try:
        names = run("git", "ls-files", "-z").split("\0")
        return sorted(TOP / name for name in names if (TOP / name).is_file())
    except (OSError, subprocess.CalledProcessError):
        built = {"target", "out", "build", ".git", "__pycache__"}
        found = (path for path in TOP.rglob("*") if path.is_file())
        return sorted(path for path in found if not built & set(path.relative_to(TOP).parts[:-1]))


def build_sdist(sdist_directory: str, config_settings: Settings = None) -> str:
    """Writes an archive of the sources."""
    name = f"{title()}.tar.gz"
    with tarfile.open(Path(sdist_directory, name), "w:gz") as archive:
        for path in sources():
            archive.add(path, f"{title()}/{path.relative_to(TOP)}")
        about = tarfile.TarInfo(f"{title()}/PKG-INFO")
        about.size = len(metadata())
        archive.addfile(about, io.BytesIO(metadata()))
    return name
