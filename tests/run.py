#!/usr/bin/env python3
"""Runs the tests, names what failed, and ends with a count of what passed, what failed and what was skipped.

    python3 tests/run.py quick       for every change: the layout of the files, the lists of definitions and of edits, the sentences and the site of the
                                     documents, each test without its proof, the stored run, the scripts, the examples, what the documents and the doc
                                     comments show, the man page, and the wheel of dist/. The tests of the Python package run too, where the library is
                                     built or PREFQ_LIBRARY names one
    python3 tests/run.py all         before a merge: the proofs, the must-fail edits and the tests by `rt ci`; beside it the lists and the checks over the
                                     program and the library, which are those of the wheel in dist/ where nothing that they are made of has changed since.
                                     Else these come after it, and ask what is built
    python3 tests/run.py release     before a release: all that, every proof from nothing; then the wheel of dist/ built anew from its commit, the edits of
                                     tests/must-fail, and whether each edit turns an answer

tests/quick.sh and tests/all.sh are short names of the first two. Says first what it runs, and then what came of each check as soon as it ends, with
its seconds. Needs the Rattle kit and Python 3.9, and but for `quick` a C compiler, on Linux; whether they are there is tested first. The site needs
mkdocs, and tests of the Python package need pandas, matplotlib, dask, uvicorn, starlette or Chromium: where these are not installed they are skipped, with a
line that says so, and counted apart from the checks, which pass without them. Leaves nothing behind but the folders out/, which git ignores.
"""
import contextlib
import filecmp
import os
import re
import resource
import shutil
import signal
import subprocess
import sys
import tempfile
import threading
import time
import traceback
import zipfile
from concurrent.futures import ThreadPoolExecutor, as_completed
from dataclasses import dataclass, field
from itertools import chain
from pathlib import Path
from typing import Callable, Optional

TOP = Path(__file__).resolve().parent.parent
PROGRAM = "crates/prefq/out/prefq"
LIBRARY = "library/out/libprefq.so"
PROGRAM_OF_THE_WHEEL = "library/out/prefq"
# What it is made of: of the crates all but the proofs and the must-fail edits, from which no code is made.
MADE_OF = ["crates", "library", "crates.txt", "HANDLES", ":(exclude,glob)crates/*/proofs/**", ":(exclude,glob)crates/*/must-fail/**"]
CHECKS_AT_ONCE = 2
# More than any check takes. (`rt ci` by itself reckons with twice as much or more.)
KILOBYTES_A_PROOF = 3_000_000
# Edits that show nothing, and that the kit lets pass: what it says of one, and what is said here.
EMPTY_EDITS = {
    re.compile(r"rt: (.*): BAD EDIT"): "no edit, since it cannot be applied, compiled or read",
    re.compile(r"rt: (.*): refused, as it must be \(only by a limit of the prover"): "refused only by a limit of the prover, so by no clause",
    re.compile(r"rt: (.*): refused, as it must be \(only because a proof file names"): "refused only since a proof names what it took away, so by no clause",
}
PASSED = re.compile(r"(\d+) passed, \d+ failed")
SKIPPED_TESTS = re.compile(r"\((\d+) tests\)$")
LEFT_BY_HAND = """\
left by hand (docs/CONTRIBUTING.md, "A release"):
- the figures of docs/PERFORMANCE.md and the times of README.md, measured on this commit
- real data sets, which packages of R have: python3 python/tests/real_data.py
- the number of the version: VERSION in crates/prefq/src/args.rt, PREFQ_VERSION in library/include/prefq.h, docs/GUIDE.md, python, CHANGELOG.md
- the wheel, made of the commit that has all this: python3 dist/release.py
- a new kit: its name in README.md, its logic there and in docs/ASSURANCE.md"""


@dataclass
class Check:
    name: str
    # gets an empty folder and a file to write to; whether it passed, None where it was skipped
    work: Callable


@dataclass
class Result:
    name: str
    is_passed: Optional[bool]
    said: str
    seconds: int

    def skipped(self):
        """The lines that say what it skipped."""
        return [line for line in self.said.splitlines() if line.startswith("skipped: ")]


@dataclass
class Count:
    passed: int = 0
    # the names of what failed
    failed: list = field(default_factory=list)
    # how many checks, or tests of checks
    skipped: int = 0

    def add(self, found):
        for line in found.skipped():
            tests = SKIPPED_TESTS.search(line)
            self.skipped += int(tests[1]) if tests else 1
        if found.is_passed:
            self.passed += 1
        elif found.is_passed is not None:
            self.fail(found.name)

    def fail(self, name):
        self.failed.append(name)
        say(f"FAILED: {name}")


def run(log, *words, cwd=TOP):
    """Runs a command that writes to a log; whether it passed."""
    return subprocess.run(words, cwd=cwd, stdin=subprocess.DEVNULL, stdout=log, stderr=subprocess.STDOUT).returncode == 0


def command(*words, name=""):
    return Check(name or " ".join(words), lambda room, log: run(log, *words))


def result(check):
    begun = time.monotonic()
    with tempfile.TemporaryDirectory() as room, tempfile.TemporaryFile("w+", encoding="utf-8", errors="replace") as log:
        try:
            is_passed = check.work(Path(room), log)
        except Exception:
            is_passed = False
            traceback.print_exc(file=log)
        log.seek(0)
        return Result(check.name, is_passed, log.read(), int(time.monotonic() - begun))


@contextlib.contextmanager
def started(checks):
    """The results to come of checks. Some run at once; none begins any more where this is interrupted."""
    with ThreadPoolExecutor(CHECKS_AT_ONCE) as pool:
        to_come = [pool.submit(result, check) for check in checks]
        try:
            yield to_come
        finally:
            for each in to_come:
                each.cancel()


def results(checks):
    """The result of each check, as soon as it ends."""
    with started(checks) as to_come:
        for each in as_completed(to_come):
            yield each.result()


def say(*lines):
    for line in lines:
        print(line, flush=True)


def say_what_runs(checks):
    say(f"runs {len(checks)} checks, {CHECKS_AT_ONCE} at once:", *(f"  {check.name}" for check in checks))


# ---- quick ----


def copy_crates(folder):
    """Copies the crates, without what was built."""
    folder.mkdir()
    shutil.copytree(TOP / "crates", folder / "crates", ignore=shutil.ignore_patterns("out"))
    for file in ("crates.txt", "HANDLES"):
        shutil.copy(TOP / file, folder)


def layout(room, log):
    """In a copy, `rt fmt` must change nothing."""
    copy_crates(room / "copy")
    crates = sorted((room / "copy/crates").iterdir())
    return all(run(log, "rt", "fmt", cwd=crate) for crate in crates) and run(log, "diff", "-r", "--exclude=out", "crates", room / "copy/crates")


def join_tests(top):
    """Makes the crates of tests modules of one crate, `joined`, so that the libraries are compiled once."""
    source = top / "crates/joined/src"
    source.mkdir(parents=True)
    names = [crate.name for crate in sorted((top / "crates").glob("*_tests"))]
    for name in names:
        shutil.copytree(top / "crates" / name / "src", source / name)
        (source / name / "lib.rt").rename(source / f"{name}.rt")
        for file in [source / f"{name}.rt", *(source / name).rglob("*.rt")]:
            text = re.sub(r"^#!\[.*\n", "", file.read_text(encoding="utf-8"), flags=re.MULTILINE)
            file.write_text(re.sub(r"\bcrate::", f"crate::{name}::", text), encoding="utf-8")
    (source / "lib.rt").write_text("".join(f"mod {name};\n" for name in names), encoding="utf-8")
    crates = (top / "crates.txt").read_text(encoding="utf-8")
    libraries = {word for line in re.findall(r"^\w+_tests: (.*)$", crates, re.MULTILINE) for word in line.split()}
    (top / "crates.txt").write_text(f"{crates}joined: {' '.join(sorted(libraries))}\n", encoding="utf-8")


def tests_unproved(room, log):
    """All tests, without their proofs."""
    copy_crates(room / "copy")
    join_tests(room / "copy")
    return run(log, "rt", "try", "--test", cwd=room / "copy/crates/joined")


def scripts_unproved(room, log):
    """The program on its stored run, on every script, every example and all that the documents show, and on lists of arguments."""
    for file in ("tests/scripts.py", "examples/check.py", "tests/arguments.py"):
        if not run(log, "python3", file, "--cases", room):
            return False
    shutil.copy(TOP / "crates/prefq/stdin", room / "stored_run")
    shutil.copy(TOP / "crates/prefq/stdout", room / "stored_run.stdout")
    return run(log, "rt", "try", "--cases", room, cwd=TOP / "crates/prefq")


def python_package(room, log):
    """The tests of the Python package, on a library that is there already: none is kept by `rt try`."""
    if os.environ.get("PREFQ_LIBRARY") or (TOP / LIBRARY).is_file():
        return run(log, "python/tests/run.sh")
    print(f"skipped: the tests of the Python package, since {LIBRARY} is not built and PREFQ_LIBRARY names no other", file=log)
    return None


def site(room, log):
    """The documents as a site: each page is there, and each link of a page leads somewhere."""
    if shutil.which("mkdocs"):
        return run(log, "mkdocs", "build", "--strict", "--quiet", "--site-dir", room / "site")
    print("skipped: the site of the documents, since mkdocs is not installed", file=log)
    return None


DEFINITIONS = ["python3", "tests/definitions.py"]
EDITS = ["python3", "tests/edits.py"]
SENTENCES = ["python3", "tests/sentences.py"]
DOC_EXAMPLES = ["python3", "tests/examples_of_docs.py"]
MAN_PAGE = ["python3", "dist/man_page.py", "--check"]
SITE = Check("site of the documents", site)
# The longest first.
QUICK = [
    Check("stored run, scripts, examples, documents", scripts_unproved),
    Check("all tests, not proved", tests_unproved),
    command(*DOC_EXAMPLES, name="examples of the doc comments"),
    Check("layout of the files", layout),
    command(*DEFINITIONS, name="list of definitions"),
    command(*EDITS, name="list of edits"),
    command(*SENTENCES, name="sentences of the documents"),
    command(*MAN_PAGE, name="man page"),
    SITE,
    Check("Python package", python_package),
    command("python3", "tests/wheel.py", name="wheel of the last release"),
]


def quick(count):
    """Shows what each check that failed said, and what others skipped."""
    say_what_runs(QUICK)
    for found in results(QUICK):
        if found.is_passed:
            say(f"passed: {found.name}, {found.seconds} seconds")
        say(*(found.said.splitlines() if found.is_passed is False else found.skipped()))
        count.add(found)


# ---- all ----


def wheel_of_the_same_library():
    """The wheel of dist/, where nothing that the library is made of has changed since its commit; else None."""
    commit, git, made_of = TOP / "dist/COMMIT", ["git", "-c", f"safe.directory={TOP}"], ["--", *MADE_OF]
    wheel = next((TOP / "dist").glob("*.whl"), None)
    if not wheel or not commit.is_file() or not shutil.which("git"):
        return None
    changed = subprocess.run([*git, "diff", "--quiet", commit.read_text().strip(), *made_of], cwd=TOP, stderr=subprocess.DEVNULL)
    new = subprocess.run([*git, "status", "--porcelain", *made_of], cwd=TOP, stdout=subprocess.PIPE, stderr=subprocess.DEVNULL)
    return None if changed.returncode or new.returncode or new.stdout else wheel


def unpacked(wheel):
    """The program of a wheel, which lies now beside its library, where the tests of the Python package look for that."""
    (TOP / LIBRARY).parent.mkdir(exist_ok=True)
    with zipfile.ZipFile(wheel) as files:
        (TOP / LIBRARY).write_bytes(files.read("prefq/lib/libprefq.so"))
        (TOP / PROGRAM_OF_THE_WHEEL).write_bytes(files.read("prefq/bin/prefq"))
    (TOP / PROGRAM_OF_THE_WHEEL).chmod(0o755)
    return PROGRAM_OF_THE_WHEEL


def same_library(program):
    """The library of the wheel, with the tests that need no more than that."""

    def work(room, log):
        print("skipped: the tests of the library in C, since nothing that it is made of has changed since the wheel in dist/ was", file=log, flush=True)
        return run(log, "python3", "library/tests/python_ends.py", LIBRARY) and run(log, "python3", "library/tests/campaign.py", LIBRARY, program, "--count", "400")

    return Check("library", work)


# These ask nothing that is proved and built here.
LISTS = [
    command("python3", "tests/reads_take_no_lock.py"),
    command(*DOC_EXAMPLES),
    command("python3", "tests/wheel.py"),
    SITE,
    command(*DEFINITIONS),
    command(*EDITS),
    command(*SENTENCES),
    command(*MAN_PAGE),
]
# These ask the tests of the crates, as `rt ci` built them.
TESTS_BUILT = [command("tests/count_begin_and_abandon.sh"), command("tests/refuse_each_allocation.sh")]


def asking(program):
    """The checks that ask a program and the library that is there."""
    return [
        command("env", f"PREFQ_PROGRAM={TOP / program}", "python/tests/run.sh", name="python/tests/run.sh"),
        command("python3", "tests/model/compare.py", program),
        command("python3", "tests/model/threads.py", program),
        command("python3", "tests/live.py", program),
        command("python3", "examples/check.py", program),
        command("python3", "examples/parts/parts.py", "--check", "120000"),
        command("python3", "tests/scripts.py", program),
        command("python3", "tests/arguments.py", program),
        command("tests/faults_of_the_program.sh", program),
    ]


def proofs_at_once():
    """One more than there are processors, since edits take what proofs leave free, as far as each has its memory."""
    free = int(re.search(r"^MemAvailable: *(\d+) kB$", Path("/proc/meminfo").read_text(), re.MULTILINE)[1])
    return min(len(os.sched_getaffinity(0)) + 1, max(free // KILOBYTES_A_PROOF, 1))


def waited_for():
    """The folders of the crates for which other crates or edits wait."""
    rows = (TOP / "crates.txt").read_text(encoding="utf-8").splitlines()
    used = {name for row in rows for name in row.partition("#")[0].partition(":")[2].split()}
    return {str(crate) for crate in (TOP / "crates").iterdir() if crate.name in used or (crate / "must-fail").is_dir()}


def lower_priority(process, nice):
    for thread in os.listdir(process / "task"):
        os.setpriority(os.PRIO_PROCESS, int(thread), nice)


def let_proofs_go_first(run):
    """Until `rt ci` ends, the proofs for which others wait go first, since the crates wait for one another. Then come the edits, of which a crate's are tried
    one after the other, and last the crates of tests and the programs."""
    first = waited_for()
    # Those of other runs are in such folders too: not each kit puts the number of its run into the name.
    edits = f"{tempfile.gettempdir()}/rt-edit-"
    while run.poll() is None:
        for process in Path("/proc").glob("[0-9]*"):
            # It may have ended, or be another user's.
            with contextlib.suppress(OSError):
                folder = os.readlink(process / "cwd")
                if folder.startswith(edits):
                    lower_priority(process, 5)
                elif folder.startswith(f"{TOP}/crates/") and folder not in first:
                    lower_priority(process, 10)
        time.sleep(1)


def run_and_show(*words, beside=None, **environment):
    """Runs a command and shows what it prints as it comes: its lines, and whether it passed. What is done beside it gets its process."""
    lines = []
    with subprocess.Popen(words, cwd=TOP, env={**os.environ, **environment}, stdout=subprocess.PIPE, encoding="utf-8", errors="replace") as running:
        if beside:
            threading.Thread(target=beside, args=[running], daemon=True).start()
        for line in running.stdout:
            print(line, end="", flush=True)
            lines.append(line.rstrip("\n"))
    return lines, running.returncode == 0


def fail_empty_edits(count, lines):
    for said, why in EMPTY_EDITS.items():
        for found in filter(None, map(said.match, lines)):
            count.fail(f"{found[1]}: {why}")


def gate(count, words):
    jobs = os.environ.get("RT_JOBS") or str(proofs_at_once())
    lines, is_passed = run_and_show("rt", "ci", *words, beside=let_proofs_go_first, RT_JOBS=jobs)
    if not is_passed:
        count.fail("rt ci")
    fail_empty_edits(count, lines)
    closing = PASSED.fullmatch(lines[-1]) if lines else None
    if closing:
        count.passed += int(closing[1])
    elif is_passed:
        count.fail("rt ci does not say how many passed")


def show(found):
    say(f"== {found.name}\n{found.said}== {found.seconds} seconds")


def show_at_its_end(to_come):
    if not to_come.cancelled():
        show(to_come.result())


def is_the_one_built(program):
    """Whether `rt ci` built the same program, byte for byte."""
    return (TOP / PROGRAM).is_file() and filecmp.cmp(TOP / program, TOP / PROGRAM, shallow=False)


def gate_beside(count, words, checks):
    """`rt ci`, which leaves processors free at its begin, and beside it checks that ask nothing that it builds."""
    begun = time.monotonic()
    with started(checks) as to_come:
        for each in to_come:
            each.add_done_callback(show_at_its_end)
        gate(count, words)
        say(f"== rt ci took {int(time.monotonic() - begun) // 60} minutes")
        for each in to_come:
            count.add(each.result())


def whole(count, *words):
    """Shows what each check said. `rt ci` gets the words. Where the wheel is of the same sources, its program and library are asked beside it; its program
    is asked for what was proved only if that has the same bytes."""
    wheel = wheel_of_the_same_library()
    program = unpacked(wheel) if wheel else PROGRAM
    beside = [*([same_library(program), *asking(program)] if wheel else []), *LISTS]
    say(f"runs {' '.join(['rt ci', *words])}: the proofs, the must-fail edits and the tests of all crates; beside it")
    say_what_runs(beside)
    gate_beside(count, words, beside)
    if not wheel:
        after = [[command("library/tests/run.sh")], [*asking(PROGRAM), *TESTS_BUILT]]
    elif is_the_one_built(program):
        after = [TESTS_BUILT]
    else:
        after = [[*asking(PROGRAM), *TESTS_BUILT]]
    say("after it")
    say_what_runs([*chain.from_iterable(after)])
    for found in chain.from_iterable(map(results, after)):
        show(found)
        count.add(found)


def taken_since(begun):
    """How long it took by the clock, and what all programs that have ended took of the processors, which does not hang on what else ran."""
    used = resource.getrusage(resource.RUSAGE_CHILDREN)
    return f"{int(time.monotonic() - begun) // 60} minutes, {int(used.ru_utime + used.ru_stime) // 60} of one processor"


# ---- release ----


def anew():
    """What has `rt ci` take nothing from earlier runs. A kit that keeps nothing has no word for it, and refuses this one."""
    said = subprocess.run(["rt", "help"], stdout=subprocess.PIPE, stderr=subprocess.STDOUT, encoding="utf-8").stdout
    return ["--anew"] if "--anew" in said else []


def release(count):
    """All, with nothing taken from earlier runs; then what takes hours, shown as it comes."""
    whole(count, *anew())
    for words in (["library/tests/run.sh"], ["python3", "dist/release.py", "--check"], ["tests/wrong_edits.sh"], ["python3", "tests/edits_turn_answers.py"]):
        say(f"== {' '.join(words)}")
        lines, is_passed = run_and_show(*words)
        fail_empty_edits(count, lines)
        count.skipped += sum(line.startswith("skipped: ") for line in lines)
        if is_passed:
            count.passed += 1
        else:
            count.fail(" ".join(words))
    say(LEFT_BY_HAND)


def stop_where_something_is_missing(kind):
    """Ends the run at once where a program is not there without which it would fail late."""
    if sys.version_info < (3, 9):
        sys.exit(f"Python 3.9 or later is needed, and this is {sys.version.split()[0]}")
    if not shutil.which("rt"):
        sys.exit("the Rattle kit's command rt is not on the PATH")
    if kind != "quick" and not shutil.which("cc"):
        sys.exit("a C compiler is needed, and cc is not on the PATH")


def main():
    kinds = {"quick": quick, "all": whole, "release": release}
    if {"-h", "--help"} & set(sys.argv[1:]):
        print(__doc__.strip())
        return
    if len(sys.argv) != 2 or sys.argv[1] not in kinds:
        sys.exit(f"python3 tests/run.py {' | '.join(kinds)}")
    stop_where_something_is_missing(sys.argv[1])
    signal.signal(signal.SIGTERM, lambda *_: sys.exit(143))
    # What is started in the background ignores it, and so would the programs that tests of the Python package interrupt.
    signal.signal(signal.SIGINT, signal.default_int_handler)
    sys.stdout.reconfigure(errors="replace")
    os.environ.update(PYTHONDONTWRITEBYTECODE="1", PYTHONUTF8="1")
    begun, count = time.monotonic(), Count()
    kinds[sys.argv[1]](count)
    say(*(f"failed: {name}" for name in count.failed))
    counts = f"{count.passed} passed, {len(count.failed)} failed, {count.skipped} skipped"
    if sys.argv[1] == "quick":
        say(f"{counts}, in {int(time.monotonic() - begun)} seconds")
    else:
        say(f"all tests took {taken_since(begun)}", counts)
    sys.exit(1 if count.failed else 0)


main()
