#!/usr/bin/env python3
"""Talks to `prefq live` through pipes and at a terminal.

    (cd crates/prefq && rt run prefq < stdin)     # builds crates/prefq/out/prefq
    python3 tests/live.py [PROGRAM]
    python3 tests/live.py --long [PROGRAM]        # ten million commands through one pipe, which take about a minute
    python3 tests/live.py --time [PROGRAM]        # one exchange in ratio to the same exchange with cat

Needs Linux, for /proc and terminals, and Python 3.8.
"""
import os
import pty
import random
import re
import select
import statistics
import subprocess
import sys
import tempfile
import threading
import time
import tty
from concurrent.futures import ThreadPoolExecutor
from pathlib import Path

TOP = Path(__file__).resolve().parent.parent
HEAD = b"table\nx\nend\n"
LARGEST = 16_777_216


def start(program, *words):
    return subprocess.Popen([program, "live", *words], stdin=subprocess.PIPE, stdout=subprocess.PIPE, bufsize=0)


def fed(program, parts, words=()):
    """What the program prints where its input comes in these parts, and its status."""
    process = start(program, *words)
    said = []
    reader = threading.Thread(target=lambda: said.append(process.stdout.read()))
    reader.start()
    try:
        for part in parts:
            process.stdin.write(part)
    except BrokenPipeError:
        pass
    process.stdin.close()
    reader.join(60)
    process.stdout.close()
    return said[0], process.wait(60)


def played(program, script, words=()):
    done = subprocess.run([program, "play", *words], input=script, stdout=subprocess.PIPE, timeout=60)
    return done.stdout, done.returncode


def cut(script, places):
    places = [0, *sorted(places), len(script)]
    return [script[begin:end] for begin, end in zip(places, places[1:]) if begin < end]


def scripts():
    """Each script of the tests and the examples, with its options, and some more that end in their own ways."""
    for script in sorted(TOP.glob("tests/scripts/*.script")):
        words = script.with_suffix(".args")
        yield script.stem, script.read_bytes(), words.read_text(encoding="utf-8").split() if words.is_file() else []
    for script in sorted(TOP.glob("examples/*/script.txt")):
        yield script.parent.name, script.read_bytes(), (script.parent / "args").read_text(encoding="utf-8").split()
    for name, script in {
        "no input": b"",
        "no line feed behind end": b"table\nx\nend",
        "no line feed behind the last line": HEAD + b"as 1 insert 5\nas 1 room",
        "a return behind the last line": HEAD + b"as 1 room\r",
        "blank lines": HEAD + b"\n \t\n\nas 1 room\n\n",
        "a refused line before others": HEAD + b"as\nas 1 insert 1,2\nas 1 insert 1\nas 1 begin best low(y)\nas 9 room\nas 1 get 1\n",
    }.items():
        yield name, script, []


def same_as_played(program):
    """Whole, byte by byte and cut at random places, each script prints what it prints by `play`."""
    chance = random.Random(1)

    def differences(case):
        name, script, words, places = case
        words = [word for word in words if word not in ("play", "threads")]
        wanted = played(program, script, words)
        for how, parts in [("whole", [script]), ("byte by byte", cut(script, range(1, len(script)))), *(("cut", cut(script, some)) for some in places)]:
            if fed(program, parts, words) != wanted:
                yield f"{name}, {how}: other bytes than by play"

    cases = [(name, script, words, [chance.sample(range(len(script) + 1), min(7, len(script))) for _ in range(5)])
             for name, script, words in scripts() if not {"threads", "--help"} & set(words)]
    with ThreadPoolExecutor(4) as pool:
        for found in pool.map(lambda case: list(differences(case)), cases):
            yield from found


def exchange(process, command):
    """Says one command and reads its whole reply, which is one line."""
    os.write(process.stdin.fileno(), command)
    reply = b""
    while not reply.endswith(b"\n"):
        some = os.read(process.stdout.fileno(), 65536)
        if not some:
            raise EOFError(f"no reply to {command}")
        reply += some
    return reply


def one_reply_each(program):
    """Each command has its whole reply before the next is sent."""
    process = start(program)
    os.write(process.stdin.fileno(), HEAD)
    for number in range(1, 10_001):
        value = number * 7919 % 1000
        if number <= 1000:
            command, wanted = f"as 1 insert {value}", f"1 inserted {number}"
        elif number % 1000 == 0:
            command, wanted = "as 4 what", f"line {number + 3} refused: command"
        elif number % 2:
            command, wanted = f"as 2 update {number % 1000 + 1} {value}", f"2 updated {number % 1000 + 1}"
        else:
            command, wanted = f"as 3 get {number % 1000 + 1000}", f"3 refused 7: no such row {number % 1000 + 1000}"
        if exchange(process, command.encode() + b"\n") != wanted.encode() + b"\n":
            yield f"command {number}, {command}: not {wanted}"
            break
    process.stdin.close()
    if process.wait(60) != 0:
        yield "a talk ends with another status than 0"


def named_ends(program):
    """Each way in which a talk can break has its end."""
    inserted = b"1 inserted 1\n"
    script = HEAD + b"as 1 insert 5\n"
    for name, parts, wanted in [
        ("a line of 16,777,216 bytes", [script, b"a" * (LARGEST - 1) + b"\n", b"as 1 room\n"], (inserted + b"line 5 refused: command\n1 room 1023\n", 0)),
        ("a last line of 16,777,216 bytes", [script, b"a" * LARGEST], (inserted + b"line 5 refused: command\n", 0)),
        ("a line of 16,777,217 bytes", [script, b"a" * LARGEST + b"\n"], (inserted + b"fault: too large\n", 1)),
        ("a line without an end", [script, b"a" * (LARGEST + 1)], (inserted + b"fault: too large\n", 1)),
        ("a table block that is too large", [b"table\nx\n", b"1\n" * (LARGEST // 2)], (b"fault: too large\n", 1)),
        ("the writer closes within the table", [b"table\nx\n1"], (b"script refused: no end\n", 2)),
        ("commands where no end was given", [b"table\nx\n1\nas 1 room\n"], (b"script refused: no end\n", 2)),
        ("the writer closes at once", [], (b"script refused: no table\n", 2)),
    ]:
        if fed(program, parts) != wanted:
            yield f"{name}: another end"
    for name, part, line in [("a name", b"table\n1x\nend\n", b"table refused 3: bad name col 1\n"), ("a first line", b"as 1 room\n", b"script refused: no table\n")]:
        process = start(program)
        process.stdin.write(part)
        if process.stdout.readline() != line or process.wait(10) != 2:
            yield f"{name} is not refused before the input ends"
    process = start(program)
    process.stdin.write(b"table\nx\n1\nas 1 room\n")
    if select.select([process.stdout], [], [], 0.5)[0]:
        yield "something is said before the table has its end"
    process.kill()
    process.wait()
    process = start(program)
    exchange(process, HEAD + b"as 1 room\n")
    process.stdout.close()
    process.stdin.write(b"as 1 room\n")
    if process.wait(10) != 1:
        yield "the reader is gone: another status than 1"


def at_a_terminal(program):
    """At a terminal replies come line by line."""
    ours, theirs = pty.openpty()
    tty.setraw(theirs)
    process = subprocess.Popen([program, "live"], stdin=theirs, stdout=theirs)
    os.close(theirs)
    os.write(ours, HEAD)
    for command, wanted in [(b"as 1 insert 7\n", b"1 inserted 1\n"), (b"as 2 get 1\n", b"2 row 1: 7\n"), (b"as 2 scan\n", b"2 refused 4: no query\n")]:
        os.write(ours, command)
        reply = b""
        while reply != wanted and select.select([ours], [], [], 10)[0]:
            reply += os.read(ours, 1000)
        if reply != wanted:
            yield f"at a terminal {command} prints {reply}"
            break
    process.kill()
    process.wait()


def from_python():
    """What examples/live/README.md shows is printed, and the dashboard writes its pictures."""
    folder = TOP / "examples/live"
    blocks = dict(re.findall(r"^```(python|text)\n(.*?)^```$", (folder / "README.md").read_text(encoding="utf-8"), re.MULTILINE | re.DOTALL))
    setting = {**os.environ, "PYTHONPATH": str(TOP / "python/src"), "PYTHONDONTWRITEBYTECODE": "1"}
    done = subprocess.run([sys.executable, "-c", blocks["python"]], env=setting, capture_output=True, encoding="utf-8", timeout=60)
    if done.stdout + done.stderr != blocks["text"]:
        yield f"examples/live/README.md shows something else than {done.stdout + done.stderr}"
    with tempfile.TemporaryDirectory() as room:
        done = subprocess.run([sys.executable, folder / "dashboard.py", room], env=setting, capture_output=True, encoding="utf-8", timeout=60)
        if done.returncode != 0 or len(done.stdout.splitlines()) != 5 or len(list(Path(room).glob("picture-*.svg"))) != 5:
            yield f"the dashboard says {done.stdout + done.stderr}"


def peak(process):
    """The most memory that the process has had, in KB."""
    status = Path(f"/proc/{process.pid}/status").read_text(encoding="utf-8")
    return int(next(line.split()[1] for line in status.splitlines() if line.startswith("VmHWM")))


def flat_memory(program, count):
    """So many commands through one pipe: the most memory is that after the first hundred thousand, within 2 %."""
    process = subprocess.Popen([program, "live"], stdin=subprocess.PIPE, stdout=subprocess.DEVNULL)
    process.stdin.write(HEAD + b"".join(b"as 1 insert %d\n" % value for value in range(1000)))
    some = b"".join(b"as %d update %d %d\n" % (number % 4 + 1, number % 1000 + 1, number) for number in range(100_000))
    process.stdin.write(some)
    process.stdin.flush()
    first = peak(process)
    for _ in range(count // 100_000):
        process.stdin.write(some)
    process.stdin.flush()
    last = peak(process)
    process.stdin.close()
    process.wait()
    print(f"{count} commands: {first} KB after the first 100,000, {last} KB at the end")
    if last > first * 1.02:
        yield "memory grows with the input"


def exchange_time(program):
    """One exchange in ratio to that with cat: medians of series that alternate."""
    def series(command, head):
        process = subprocess.Popen(command, stdin=subprocess.PIPE, stdout=subprocess.PIPE, bufsize=0)
        os.write(process.stdin.fileno(), head)
        begun = time.perf_counter()
        for _ in range(3000):
            exchange(process, b"as 1 room\n")
        taken = time.perf_counter() - begun
        process.stdin.close()
        process.wait()
        return taken / 3000 * 1e6

    os.sched_setaffinity(0, {min(os.sched_getaffinity(0))})
    pairs = [(series(["cat"], b""), series([program, "live"], HEAD)) for _ in range(15)]
    cat, live = (statistics.median(times) for times in zip(*pairs))
    ratio = statistics.median(mine / others for others, mine in pairs)
    print(f"one exchange: cat {cat:.2f} microseconds, live {live:.2f}, the median of the ratios is {ratio:.2f}")
    if ratio > 1.5:
        yield "an exchange takes more than 1.5 times that with cat"


def main():
    words = sys.argv[1:]
    flags = [word for word in words if word.startswith("--")]
    given = [word for word in words if not word.startswith("--")]
    program = Path(given[0] if given else TOP / "crates/prefq/out/prefq").resolve()
    if not program.is_file():
        sys.exit(f"{program} is not there: build it first")
    program = str(program)
    checks = {
        "--long": [flat_memory(program, 10_000_000)],
        "--time": [exchange_time(program)],
    }.get(flags[0] if flags else "", [same_as_played(program), one_reply_each(program), named_ends(program), at_a_terminal(program), from_python(), flat_memory(program, 500_000)])
    wrong = [why for check in checks for why in check]
    print(*wrong, f"{len(checks)} checks of live, {len(wrong)} wrong", sep="\n")
    sys.exit(1 if wrong else 0)


main()
