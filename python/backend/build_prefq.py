"""Builds the package with the standard library alone: a wheel with the built program and library, a source archive and an editable wheel (PEP 517, PEP 660).

The program is the one that PREFQ_PROGRAM names, else program/prefq beside pyproject.toml (in a source archive), else the repository's crates/prefq/out/prefq.
The library is the one that PREFQ_LIBRARY names, else library/ beside pyproject.toml, else the repository's library/out; its header comes along. The man page
is share/prefq.1 beside pyproject.toml, else the repository's docs/prefq.1.
"""
import base64
import hashlib
import io
import os
import platform
import re
import tarfile
import zipfile
from pathlib import Path

TOP = Path(__file__).resolve().parent.parent
SOURCES = TOP / "src"
PROJECT = (TOP / "pyproject.toml").read_text(encoding="utf-8")
BUILD = "build it in the repository by `(cd crates/prefq && rt run prefq < stdin)`, which makes crates/prefq/out/prefq, or let PREFQ_PROGRAM name it"
BUILD_LIBRARY = "build it in the repository by `library/build.sh`, which makes library/out/libprefq.so, or let PREFQ_LIBRARY name it"


def field(name):
    """A text of pyproject.toml."""
    return re.search(rf'^{name} = "(.*)"$', PROJECT, re.MULTILINE)[1]


NAME = f"{field('name')}-{field('version')}"


def program():
    """The built program."""
    places = [os.environ.get("PREFQ_PROGRAM"), TOP / "program/prefq", TOP.parent / "crates/prefq/out/prefq"]
    found = [Path(place) for place in places if place and Path(place).is_file()]
    if not found:
        raise SystemExit(f"the program prefq is not built, and the package needs it: {BUILD}")
    return found[0].read_bytes()


def library():
    """The built library and its header, by their places in the package."""
    header = next((folder for folder in (TOP / "library/prefq.h", TOP.parent / "library/include/prefq.h") if folder.is_file()), None)
    places = [os.environ.get("PREFQ_LIBRARY"), TOP / "library/libprefq.so", TOP.parent / "library/out/libprefq.so"]
    found = [Path(place) for place in places if place and Path(place).is_file()]
    if not found or header is None:
        raise SystemExit(f"the library libprefq.so is not built, and the package needs it: {BUILD_LIBRARY}")
    return {"lib/libprefq.so": found[0].read_bytes(), "include/prefq.h": header.read_bytes()}


def man_page():
    """The man page, which is installed as share/man/man1/prefq.1."""
    return next(page for page in (TOP / "share/prefq.1", TOP.parent / "docs/prefq.1") if page.is_file()).read_bytes()


def metadata():
    fields = ["Metadata-Version: 2.1", f"Name: {field('name')}", f"Version: {field('version')}", f"Summary: {field('description')}",
              f"Requires-Python: {field('requires-python')}", "Description-Content-Type: text/markdown"]
    return "\n".join(fields) + "\n\n" + (TOP / "README.md").read_text(encoding="utf-8")


def sources(*folders):
    """The files of these folders by their names below the top, without what Python keeps."""
    files = [file for folder in folders for file in sorted((TOP / folder).rglob("*")) if file.is_file()]
    return {file.relative_to(TOP).as_posix(): file.read_bytes() for file in files if "__pycache__" not in file.parts}


def write_wheel(folder, tag, files):
    """A wheel of these files, with its four files about itself."""
    info = f"{NAME}.dist-info"
    pure = str(tag == "py3-none-any").lower()
    files = {**files, f"{info}/METADATA": metadata().encode(), f"{info}/entry_points.txt": f"[console_scripts]\nprefq = {field('prefq')}\n".encode(),
             f"{info}/WHEEL": f"Wheel-Version: 1.0\nGenerator: build_prefq\nRoot-Is-Purelib: {pure}\nTag: {tag}\n".encode()}
    lines = [f"{name},sha256={base64.urlsafe_b64encode(hashlib.sha256(data).digest()).rstrip(b'=').decode()},{len(data)}\n" for name, data in files.items()]
    files[f"{info}/RECORD"] = "".join([*lines, f"{info}/RECORD,,\n"]).encode()
    wheel = f"{NAME}-{tag}.whl"
    with zipfile.ZipFile(Path(folder, wheel), "w") as archive:
        for name, data in files.items():
            # Not packed: what packing gives differs between versions of zlib, and the same files have to make the same bytes.
            entry = zipfile.ZipInfo(name)
            entry.external_attr = (0o100755 if name.endswith("bin/prefq") else 0o100644) << 16
            archive.writestr(entry, data)
    return wheel


def built():
    """The program, and the library with its header, by their places in the wheel."""
    return {"prefq/bin/prefq": program(), **{f"prefq/{name}": data for name, data in library().items()}}


def package():
    """All files of the package, by their places in the wheel."""
    return {**{name[len("src/"):]: data for name, data in sources("src").items()}, **built(), f"{NAME}.data/data/share/man/man1/prefq.1": man_page()}


def build_wheel(wheel_directory, config_settings=None, metadata_directory=None):
    """A wheel for machines like this one: its tag does not say which glibc it needs, as that of a release does (dist/release.py)."""
    return write_wheel(wheel_directory, f"py3-none-linux_{platform.machine()}", package())


def build_editable(wheel_directory, config_settings=None, metadata_directory=None):
    """The sources stay where they are; program and library are then the built ones of the repository, or those of PREFQ_PROGRAM and PREFQ_LIBRARY."""
    return write_wheel(wheel_directory, "py3-none-any", {"prefq.pth": f"{SOURCES}\n".encode()})


def build_sdist(sdist_directory, config_settings=None):
    archive = f"{NAME}.tar.gz"
    files = {"pyproject.toml": PROJECT.encode(), "README.md": (TOP / "README.md").read_bytes(), **sources("backend", "src", "tests"),
             "PKG-INFO": metadata().encode(), "program/prefq": program(), "share/prefq.1": man_page(),
             **{f"library/{Path(name).name}": data for name, data in library().items()}}
    with tarfile.open(Path(sdist_directory, archive), "w:gz", format=tarfile.PAX_FORMAT) as tar:
        for name, data in files.items():
            entry = tarfile.TarInfo(f"{NAME}/{name}")
            entry.size = len(data)
            entry.mode = 0o755 if name == "program/prefq" else 0o644
            tar.addfile(entry, io.BytesIO(data))
    return archive
