#!/usr/bin/env python3
"""Shows which arguments the built program accepts and which it refuses, saying why, and when it prints a help or the version instead of running.

    (cd crates/prefq && rt run prefq < stdin)     # builds crates/prefq/out/prefq
    python3 tests/arguments.py [PROGRAM]
    python3 tests/arguments.py --cases FOLDER     # writes them as cases of `rt try --cases`, which runs them on a program without a proof

What is accepted runs a script whose replies tell the numbers of clients, of slots and of blocks; `threads` prints them client by client, and
`live` before the script ends. Needs Linux and Python 3.8.
"""
import re
import select
import subprocess
import sys
from pathlib import Path

TOP = Path(__file__).resolve().parent.parent
SCRIPT = b"table\nx\nend\nas 8 room\nas 2 room\nas 1 room\nas 1 begin best low(x)\n"
ACCEPTED = [  # words, then the mode, the clients, the slots and the slots of a block
    ("", "play", 4, 1024, 1024),
    ("play", "play", 4, 1024, 1024),
    ("threads", "threads", 4, 1024, 1024),
    ("live", "live", 4, 1024, 1024),
    ("live --cap 4", "live", 4, 4, 1024),
    ("play --cap 4 --block 2", "play", 4, 4, 2),
    ("play --cap 65536 --block=65536 --clients 8 --window 65536", "play", 8, 65536, 65536),
    ("threads --clients +1 --cap 007", "threads", 1, 7, 1024),
]
REFUSED = [  # words, and what standard error has of them
    ("jump", "'jump'"), ("script.txt", "'script.txt'"), ("--foo", "'--foo'"), ("--cap 4", "'--cap'"), ("play --cap 0", "'--cap <N>': 0 is not in 1..=65536"),
    ("play --cap 65537", "'--cap <N>': 65537 is not in 1..=65536"), ("play --block 0", "'--block <N>': 0 is not in 1..=65536"),
    ("play --window 65537", "'--window <N>': 65537 is not in 1..=65536"), ("play --clients 0", "'--clients <N>': 0 is not in 1..=8"),
    ("play --clients 9", "'9' for '--clients <N>': 9 is not in 1..=8"), ("play --clients x", "'x' for '--clients <N>'"), ("play --clients", "'--clients <N>'"),
    ("play play", "'play'"), ("play --cap 4 --cap 5", "'--cap <N>'"), ("help jump", "'jump'"), ("play --version", "'--version'"),
]
HELPS = ["--version", "-V", "--help", "-h", "help", "help play", "play --help"]


def printed(mode, clients, slots, block):
    """The replies to the script."""
    lines = {client: [f"{client} room {slots}" if client <= clients else f"{client} refused 1: no such client"] for client in (8, 2, 1)}
    lines[1].append(f"1 begun {-(-slots // block)}")
    # threads: first the lines of no client, as they come
    order = sorted(lines, key=lambda client: client if client <= clients else 0) if mode == "threads" else lines
    return "".join(f"{line}\n" for client in order for line in lines[client]).encode()


def run(program, words):
    """The status, and what stands on standard output and on standard error."""
    done = subprocess.run([program, *words.split()], input=SCRIPT, capture_output=True, timeout=60)
    return done.returncode, done.stdout, done.stderr


def replies_before_the_end(program, words):
    """Whether something is said while the script may still go on."""
    process = subprocess.Popen([program, *words.split()], stdin=subprocess.PIPE, stdout=subprocess.PIPE, bufsize=0)
    process.stdin.write(SCRIPT)
    is_live = "live" in words
    said = bool(select.select([process.stdout], [], [], 20 if is_live else 0.2)[0])
    process.stdin.close()
    process.stdout.read()
    process.wait(60)
    return said


def differences(program):
    for words, mode, *numbers in ACCEPTED:
        if run(program, words) != (0, printed(mode, *numbers), b""):
            yield f"{words}: not {mode} with {numbers}"
        if replies_before_the_end(program, words) != (mode == "live"):
            yield f"{words}: not {mode}"
    for words, why in REFUSED:
        status, printed_line, said = run(program, words)
        if (status, printed_line) != (2, b"arguments refused\n"):
            yield f"{words}: not refused"
        if not said.startswith(b"error: ") or why.encode() not in said:
            yield f"{words}: standard error has not {why}, but {said.decode()}"
    for words in HELPS:
        status, text, said = run(program, words)
        if status != 0 or said or not re.match(rb"prefq \d+\.\d+\.\d+\n$" if words in ("--version", "-V") else rb".*Usage: prefq", text, re.DOTALL):
            yield f"{words}: no help"


def write_cases(folder):
    cases = [(words, printed(*numbers)) for words, *numbers in ACCEPTED] + [(words, b"arguments refused\n") for words, _ in REFUSED]
    for number, (words, text) in enumerate(cases):
        name = f"arguments_{number}"
        (folder / name).write_bytes(SCRIPT)
        (folder / f"{name}.args").write_text("".join(f"{word}\n" for word in words.split()), encoding="utf-8")
        (folder / f"{name}.stdout").write_bytes(text)


def main():
    if sys.argv[1:2] == ["--cases"]:
        write_cases(Path(sys.argv[2]))
        return
    program = Path(sys.argv[1] if len(sys.argv) > 1 else TOP / "crates/prefq/out/prefq").resolve()
    if not program.is_file():
        sys.exit(f"{program} is not there: build it first")
    wrong = list(differences(program))
    print(*wrong, f"{len(ACCEPTED) + len(REFUSED) + len(HELPS)} lists of arguments, {len(wrong)} wrong", sep="\n")
    sys.exit(1 if wrong else 0)


main()
