#!/usr/bin/env python3
"""Runs each script of tests/scripts on the built program, and compares what it prints and its status, byte for byte.

    (cd crates/prefq && rt run prefq < stdin)     # builds crates/prefq/out/prefq
    python3 tests/scripts.py [PROGRAM]
    python3 tests/scripts.py --cases FOLDER       # writes them as cases of `rt try --cases`, which runs them on a program without a proof

NAME.script is the standard input, and NAME.out what the program prints. NAME.args has its words, one a line, where there are any, and
NAME.status its status, where that is not 0. Needs Python 3.8.
"""
import subprocess
import sys
from pathlib import Path

TOP = Path(__file__).resolve().parent.parent
SCRIPTS = TOP / "tests/scripts"
KINDS = {".script", ".out", ".args", ".status"}


def text(script, kind, default):
    file = script.with_suffix(kind)
    return file.read_text(encoding="utf-8") if file.is_file() else default


def differences(program, script):
    """What the program does otherwise than the files beside this script say. Whatever stands on standard error counts as printed."""
    if not script.with_suffix(".out").is_file():
        yield "has no file of its output"
        return
    words = text(script, ".args", "").splitlines()
    try:
        with script.open("rb") as given:
            done = subprocess.run([program, *words], stdin=given, stdout=subprocess.PIPE, stderr=subprocess.STDOUT, timeout=60)
    except subprocess.TimeoutExpired:
        yield "has not ended after 60 seconds"
        return
    wanted, status = script.with_suffix(".out").read_bytes(), int(text(script, ".status", "0"))
    if done.returncode != status:
        yield f"ends with status {done.returncode}, not {status}"
    if done.stdout != wanted:
        lines, others = done.stdout.splitlines(True), wanted.splitlines(True)
        at = next((n for n, pair in enumerate(zip(lines, others)) if pair[0] != pair[1]), min(len(lines), len(others)))
        yield f"prints at line {at + 1} {b''.join(lines[at:at + 1])}, not {b''.join(others[at:at + 1])}"


def write_cases(scripts, folder):
    for script in scripts:
        (folder / script.stem).write_bytes(script.read_bytes())
        (folder / f"{script.stem}.args").write_text(text(script, ".args", ""), encoding="utf-8")
        (folder / f"{script.stem}.stdout").write_bytes(script.with_suffix(".out").read_bytes())


def strays(scripts):
    """Files that belong to no script."""
    names = {script.stem for script in scripts}
    return [file.name for file in SCRIPTS.iterdir() if file.suffix not in KINDS or file.stem not in names]


def main():
    scripts = sorted(SCRIPTS.glob("*.script"))
    if sys.argv[1:2] == ["--cases"]:
        write_cases(scripts, Path(sys.argv[2]))
        return
    program = Path(sys.argv[1] if len(sys.argv) > 1 else TOP / "crates/prefq/out/prefq").resolve()
    if not program.is_file():
        sys.exit(f"{program} is not there: build it first")
    wrong = {script.stem: list(differences(program, script)) for script in scripts}
    wrong.update({name: ["belongs to no script"] for name in strays(scripts)})
    failed = {name: why for name, why in wrong.items() if why}
    for name, why in failed.items():
        print(f"{name}: {'; '.join(why)}")
    print(f"{len(scripts)} scripts, {len(failed)} wrong")
    sys.exit(1 if failed or not scripts else 0)


main()
