#!/usr/bin/env python3
"""Shows that each must-fail edit makes the mistake in its name: applies it to a copy, runs the test there without a proof that its line
`# shows: ` names, and sees it fail.

    python3 tests/edits_turn_answers.py [CRATE | CRATE/EDIT ..]

A line that begins with `TESTS::NAME` names the test NAME of the crate TESTS, and perhaps the number of its request for memory that is refused;
one that begins with `tests/scripts/NAME` names that script; of other lines it prints what stands there. It takes the edits of
crates/CRATE/must-fail, and those of tests/must-fail that have such a line. One edit takes about half a minute: for a release, and for the crates
that a change touches. Needs the Rattle kit and Python 3.9.
"""
import re
import shutil
import subprocess
import sys
import tempfile
from pathlib import Path

from edits import TOP, all_edits

TEST = re.compile(r"`(\w+?)::([\w:]+)`(?: where request (\d+) is refused)?")
SCRIPT = re.compile(r"`tests/scripts/(\w+)`")


def fails(edit, shown):
    """Whether the test or the script that a line begins with fails under its edit; None where it begins with neither."""
    test, script = TEST.match(shown), SCRIPT.match(shown)
    if not test and not script:
        return None
    with tempfile.TemporaryDirectory() as room:
        shutil.copytree(TOP / "crates", f"{room}/crates", ignore=shutil.ignore_patterns("out", "must-fail"))
        for file in ("crates.txt", "HANDLES"):
            shutil.copy(TOP / file, room)
        for file, text in edit.texts().items():
            Path(room, "crates", edit.crate, file).write_text(text, encoding="utf-8")
        if script:
            return script_differs(room, script[1])
        return test_fails(f"{room}/crates/{test[1]}", test[2], test[3])


def test_fails(folder, name, request):
    """Whether a test fails. Where a request is refused, an assertion has to fail: an error is of the test's own preparation, and shows nothing."""
    if request:
        return "assertion " in tried(folder, "--test", "--fail-alloc", request, "--", name)
    return f"test {name} ... FAILED" in tried(folder, "--test")


def script_differs(room, name):
    cases = Path(room, "cases")
    cases.mkdir()
    for kind, ending in ((".script", ""), (".args", ".args"), (".out", ".stdout")):
        file = TOP / f"tests/scripts/{name}{kind}"
        if file.is_file():
            shutil.copy(file, cases / f"{name}{ending}")
    return "output=differs" in tried(f"{room}/crates/prefq", "--cases", cases)


def tried(folder, *words):
    """What `rt try` says."""
    return subprocess.run(["rt", "try", *words], cwd=folder, stdout=subprocess.PIPE, stderr=subprocess.STDOUT, encoding="utf-8", errors="replace").stdout


def main():
    wanted, wrong = set(sys.argv[1:]), 0
    if unknown := wanted - {name for edit in all_edits() for name in (edit.crate, f"{edit.crate}/{edit.name}")}:
        sys.exit(f"no such edit or crate: {', '.join(sorted(unknown))}")
    for edit in all_edits():
        name, shown = f"{edit.crate}/{edit.name}", edit.said.get("shows")
        if not shown or wanted and not wanted & {edit.crate, name}:
            continue
        failed = fails(edit, shown)
        wrong += failed is False
        print(f"{name}: {'' if failed is None else 'fails: ' if failed else 'DOES NOT FAIL: '}{shown}", flush=True)
    sys.exit(1 if wrong else 0)


main()
