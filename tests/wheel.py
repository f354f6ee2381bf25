#!/usr/bin/env python3
"""Installs the wheel of dist/ into a new environment, without a network, and runs there the commands that README.md shows and all that the documents of
the wheel's commit show.

    python3 tests/wheel.py

The commands stand in blocks `console`: each line that begins with `$ ` is one, and the lines behind it are what it prints. Needs python3-venv, and for
the documents of the commit git and a clone that has it; what is missing is skipped, with a line that says so.
"""
import re
import shlex
import subprocess
import sys
import tempfile
from pathlib import Path

TOP = Path(__file__).resolve().parent.parent
sys.path[:0] = [str(TOP / "dist"), str(TOP / "python/tests")]
import environments
import release

BLOCK = re.compile(r"^```console\n(.*?)^```$", re.MULTILINE | re.DOTALL)
# pip prints nothing but errors, and asks nobody.
QUIET = {"PIP_NO_INDEX": "1", "PIP_NO_DEPS": "1", "PIP_QUIET": "3", "PIP_DISABLE_PIP_VERSION_CHECK": "1", "PIP_ROOT_USER_ACTION": "ignore"}


def commands(document):
    """The commands that a document shows, each with what it prints."""
    for block in BLOCK.findall(document.read_text(encoding="utf-8")):
        for shown in re.split(r"^\$ ", block, flags=re.MULTILINE)[1:]:
            command, _, printed = shown.partition("\n")
            yield command, printed


def wrong_commands(document, python):
    """What is wrong with what a document shows, in the environment of this Python."""
    path = f"{python.parent}:/usr/bin:/bin"
    for command, printed in commands(document):
        status, said = environments.run("sh", "-c", f"cd {shlex.quote(str(TOP))} && {command}", PATH=path, **QUIET)
        if (status, said) != (0, printed):
            yield f"{document.name}: `{command}` ends with {status} and prints\n{said}"


def check_out(commit, folder):
    """Whether this clone has the commit, whose files are then in the folder."""
    folder.mkdir()
    with subprocess.Popen(["git", "archive", commit], cwd=TOP, stdout=subprocess.PIPE, stderr=subprocess.DEVNULL) as archive:
        is_unpacked = subprocess.run(["tar", "-x", "-C", folder], stdin=archive.stdout, stderr=subprocess.DEVNULL).returncode == 0
    return is_unpacked and archive.returncode == 0


def wrong_documents(tree, python):
    """What is wrong with what the documents of a tree show, on the package that is installed and its program."""
    _, program = environments.run(python, "-c", "import prefq; print(prefq.find_program(), end='')")
    for words in ([sys.executable, tree / "examples/check.py", program], [python, tree / "python/tests/run.py", "test_documents"]):
        status, said = environments.run(*words, PYTHONDONTWRITEBYTECODE="1")
        if status:
            yield said
        else:
            print(said, end="")


def installed(wheel, folder):
    """The Python of a new environment that has the wheel; none where none can have it here, which is printed."""
    python = environments.new_python(folder)
    if python is None:
        print(f"skipped: {wheel.name} is not installed, since python3-venv is not")
        return None
    status, said = environments.install(python, "--no-deps", wheel)
    if "is not a supported wheel on this platform" in said:
        print(f"skipped: {wheel.name} is not installed, since this is another Linux, or pip is older than 20.3")
        return None
    if status:
        sys.exit(said)
    return python


def faults(wheel, commit, room):
    """What is wrong with a wheel."""
    python = installed(wheel, room / "new")
    if python is None:
        return
    yield from wrong_commands(TOP / "README.md", python)
    if check_out(commit, room / "tree"):
        yield from wrong_documents(room / "tree", python)
    else:
        print(f"skipped: what the documents of the wheel's commit show, since this clone does not have {commit}")


def main():
    try:
        found = release.kept()
    except release.Refused as why:
        sys.exit(str(why))
    if found is None:
        print("skipped: the wheel of the last release, since dist has none yet")
        return
    with tempfile.TemporaryDirectory() as room:
        wrong = [*faults(*found, Path(room))]
    print(*wrong, f"{found[0].name}: {len(wrong)} wrong", sep="\n")
    sys.exit(1 if wrong else 0)


main()
