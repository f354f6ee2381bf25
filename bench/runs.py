"""Runs programs on scripts: what a run took and wrote, and how many instructions it needs.

The plain Rust program `prefq_rs` and the launcher `peak` are built first (cargo, cc). Counts are by callgrind (valgrind)."""
import hashlib
import json
import os
import re
import resource
import signal
import subprocess
import sys
import tempfile
from concurrent.futures import ThreadPoolExecutor
from dataclasses import dataclass
from typing import Optional

HERE = os.path.dirname(os.path.abspath(__file__))
BASELINE = os.path.join(HERE, "baseline")
BUILT = os.path.join(BASELINE, "target", "release")
PREFQ_RS = os.path.join(BUILT, "prefq_rs")
PEAK = os.path.join(BUILT, "peak")
WORK = os.path.join(HERE, "work")
WAYS = ["sharp", "fast", "known", "rescan", "plain"]
SLACK = 20  # how many times its processor time a run may take beside other work


@dataclass
class Run:
    """How a run went. It has no digest and no peak where it was stopped."""

    seconds: float
    processor: float = 0.0
    user: float = 0.0
    digest: Optional[str] = None
    megabytes: Optional[float] = None
    stopped: bool = False
    fault: Optional[str] = None


def program(path):
    """The whole path of a program to be measured; ends the script where it is not there."""
    if not os.path.isfile(path):
        sys.exit(f"{path} is not there: build it first")
    return os.path.abspath(path)


def build():
    """Builds both programs where their sources are newer. Where cargo fails, a `prefq_rs` that is there already is good enough."""
    subprocess.run(["cargo", "build", "--release", "--offline", "--quiet"], cwd=BASELINE, check=not os.path.exists(PREFQ_RS))
    source = os.path.join(BASELINE, "peak.c")
    if not os.path.exists(PEAK) or os.path.getmtime(PEAK) < os.path.getmtime(source):
        subprocess.run(["cc", "-O2", "-o", PEAK, source], check=True)


def limit_of(processor):
    """What a new process has to do so that it's stopped after so many seconds of processor time."""
    return processor and (lambda: resource.setrlimit(resource.RLIMIT_CPU, (processor, processor + 1)))


def run(command, script, most, processor=None):
    """Runs a command with a script as its input, for so many seconds at most, and so many of processor time where that is given."""
    with open(script, "rb") as source, tempfile.TemporaryFile() as out, tempfile.NamedTemporaryFile() as report:
        # the launcher is what is killed, and its child dies with it
        launcher = subprocess.Popen([PEAK, report.name, *command], stdin=source, stdout=out, stderr=subprocess.DEVNULL, preexec_fn=limit_of(processor))
        try:
            launcher.wait(most)
        except subprocess.TimeoutExpired:
            launcher.kill()
            launcher.wait()
            return Run(most, most, stopped=True)
        kilobytes, *seconds, status = report.read().split()
        code = os.waitstatus_to_exitcode(int(status))
        if code == -signal.SIGXCPU:
            return Run(*map(float, seconds), stopped=True)
        out.seek(0)
        digest = hashlib.sha256(out.read()).hexdigest()
        return Run(*map(float, seconds), digest, int(kilobytes) / 1024, fault=f"status {code}" if code else None)


def instructions(command, script, most=None):
    """How many instructions a run takes, or None where it cannot be counted or takes more than so many seconds."""
    counting = ["valgrind", "--tool=callgrind", "--callgrind-out-file=/dev/null", *command]
    with open(script, "rb") as source:
        try:
            note = subprocess.run(counting, stdin=source, stdout=subprocess.DEVNULL, stderr=subprocess.PIPE, timeout=most).stderr
        except subprocess.TimeoutExpired:
            return None
    found = re.search(rb"Collected : (\d+)", note)
    return int(found[1]) if found else None


def digest_of(path):
    with open(path, "rb") as file:
        return hashlib.sha256(file.read()).hexdigest()[:16]


def count_all(jobs, most=None):
    """The instructions of each job, as a dictionary from its key. jobs: key -> (command, script).

    What was counted before, of the same program, words and script, is kept in the folder work."""
    kept_in = os.path.join(WORK, "counts.json")
    kept = {}
    if os.path.exists(kept_in):
        with open(kept_in) as file:
            kept = json.load(file)
    programs = {command[0]: digest_of(command[0]) for command, _ in jobs.values()}
    names = {key: " ".join([programs[command[0]], *command[1:], digest_of(script)]) for key, (command, script) in jobs.items()}
    missing = {name: jobs[key] for key, name in names.items() if name not in kept}
    with ThreadPoolExecutor(max(1, len(os.sched_getaffinity(0)) - 1)) as pool:
        counts = pool.map(lambda job: instructions(*job, most), missing.values())
        kept.update({name: count for name, count in zip(missing, counts) if count})
    with open(kept_in, "w") as file:
        json.dump(kept, file)
    return {key: kept.get(name) for key, name in names.items()}
