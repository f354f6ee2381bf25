#!/usr/bin/env python3
"""Makes the wheel of a release, with its checksum and the commit that it is built from.

    python3 dist/release.py             of the commit that is checked out, with the program and the library that are built
    python3 dist/release.py --check     builds the wheel that is here anew, from its commit in a clone of its own, and compares the bytes

The wheel takes the place of the one before. Needs git; with --check the Rattle kit and a C compiler too: it proves what has no kept proof, so
it takes minutes or an hour.
"""
import argparse
import ctypes
import hashlib
import os
import re
import shutil
import subprocess
import sys
import tempfile
import zipfile
from pathlib import Path

DIST = Path(__file__).resolve().parent
TOP = DIST.parent
PROGRAM, LIBRARY = "crates/prefq/out/prefq", "library/out/libprefq.so"
HOW_TO_BUILD = {PROGRAM: "(cd crates/prefq && rt run prefq < stdin)", LIBRARY: "library/build.sh"}
CHECKSUM, COMMIT = DIST / "SHA256SUMS", DIST / "COMMIT"
MADE = ["dist/*.whl", "dist/SHA256SUMS", "dist/COMMIT"]


class Refused(Exception):
    """Why no wheel is made, or why the one that is here is not right."""


def read(*words, cwd=TOP):
    """What a command prints; a command that fails has said why."""
    done = subprocess.run(words, cwd=cwd, stdout=subprocess.PIPE, text=True)
    if done.returncode:
        raise Refused(f"`{' '.join(map(str, words))}` failed")
    return done.stdout


def run(*words, cwd, stdin=os.devnull):
    with open(stdin) as input:
        if subprocess.run(words, cwd=cwd, stdin=input, stdout=sys.stderr).returncode:
            raise Refused(f"`{' '.join(words)}` failed in a clone at the wheel's commit")


# ---- make ----


def committed():
    """The commit that is checked out, in which all is that a wheel is made of."""
    changed = read("git", "status", "--porcelain", "--untracked-files=all", "--", ".", *(f":!{name}" for name in MADE))
    if changed:
        raise Refused(f"these files are not as they are committed:\n{changed.rstrip()}")
    return read("git", "rev-parse", "HEAD").strip()


def backend():
    """The package's build backend, which takes what is built in this repository and nothing else."""
    for place, command in HOW_TO_BUILD.items():
        if not (TOP / place).is_file():
            raise Refused(f"{place} is not there: build it by `{command}`")
    os.environ.update(PREFQ_PROGRAM=str(TOP / PROGRAM), PREFQ_LIBRARY=str(TOP / LIBRARY))
    sys.path.insert(0, str(TOP / "python/backend"))
    import build_prefq
    return build_prefq


def version_of_the_library():
    try:
        call = ctypes.CDLL(str(TOP / LIBRARY)).prefq_version
    except (OSError, AttributeError) as why:
        raise Refused(f"{LIBRARY} cannot be used: {why}") from None
    call.restype = ctypes.c_char_p
    return f"prefq {call().decode()}"


def wheel_in(folder):
    """The wheel, which it writes into a folder."""
    import linux
    build = backend()
    wanted = f"{build.field('name')} {build.field('version')}"
    for place, says in [(PROGRAM, read(TOP / PROGRAM, "--version").strip()), (LIBRARY, version_of_the_library())]:
        if says != wanted:
            raise Refused(f"{place} is {says}, and the package is {wanted}: build it anew")
    try:
        tag = linux.tag({name: data for name, data in build.built().items() if not name.endswith(".h")})
    except linux.Strange as why:
        raise Refused(str(why)) from None
    return Path(folder, build.write_wheel(folder, f"py3-none-{tag}", build.package()))


def checksum(wheel):
    """The line of sha256sum."""
    return f"{hashlib.sha256(wheel.read_bytes()).hexdigest()}  {wheel.name}\n"


def make():
    commit = committed()
    with tempfile.TemporaryDirectory() as room:
        wheel = wheel_in(room)
        for old in DIST.glob("*.whl"):
            old.unlink()
        shutil.copy(wheel, DIST)
        CHECKSUM.write_text(checksum(wheel))
    COMMIT.write_text(f"{commit}\n")
    print(f"{CHECKSUM.read_text()}built from {commit}")


# ---- check ----


def kept():
    """The wheel that is here, whose bytes are those of its checksum, and the commit that it is built from; nothing where there is no wheel yet."""
    wheels = sorted(DIST.glob("*.whl"))
    if not wheels and not CHECKSUM.exists() and not COMMIT.exists():
        return None
    if len(wheels) != 1 or not CHECKSUM.is_file() or not COMMIT.is_file():
        raise Refused(f"dist has to have one wheel, {CHECKSUM.name} and {COMMIT.name}")
    if CHECKSUM.read_text() != checksum(wheels[0]):
        raise Refused(f"dist/{CHECKSUM.name} does not have the checksum of the wheel, which is\n{checksum(wheels[0])}".rstrip())
    commit = re.fullmatch(r"([0-9a-f]{40}|[0-9a-f]{64})\n", COMMIT.read_text())
    if not commit:
        raise Refused(f"dist/{COMMIT.name} names no commit")
    return wheels[0], commit[1]


def built_anew(commit, clone):
    """The wheel that a commit makes, in a new clone."""
    read("git", "clone", "--quiet", "--no-checkout", TOP, clone)
    read("git", "checkout", "--quiet", "--detach", commit, cwd=clone)
    run("rt", "run", "prefq", cwd=clone / "crates/prefq", stdin=clone / "crates/prefq/stdin")
    run("library/build.sh", cwd=clone)
    run(sys.executable, "dist/release.py", cwd=clone)
    return next((clone / "dist").glob("*.whl"))


def differences(one, other):
    """The files of which two wheels have different bytes, or one has none."""
    files = [{name: archive.read(name) for name in archive.namelist()} for archive in map(zipfile.ZipFile, (one, other))]
    return sorted(name for name in {**files[0], **files[1]} if files[0].get(name) != files[1].get(name))


def check():
    found = kept()
    if found is None:
        print("skipped: the wheel of a release is not built anew, since dist has none yet")
        return
    wheel, commit = found
    with tempfile.TemporaryDirectory() as room:
        anew = built_anew(commit, Path(room, "clone"))
        if anew.name != wheel.name:
            raise Refused(f"its commit makes {anew.name}, and not {wheel.name}")
        if anew.read_bytes() != wheel.read_bytes():
            raise Refused(f"its commit makes other bytes of {wheel.name}, in {', '.join(differences(wheel, anew)) or 'none of its files'}")
    print(f"{wheel.name} has the bytes that its commit makes")


def main():
    parser = argparse.ArgumentParser(formatter_class=argparse.RawDescriptionHelpFormatter, description=__doc__)
    parser.add_argument("--check", action="store_true", help="build the wheel that is here anew and compare")
    try:
        check() if parser.parse_args().check else make()
    except Refused as why:
        sys.exit(f"dist/release.py: {why}")


if __name__ == "__main__":
    main()
