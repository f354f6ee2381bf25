#!/usr/bin/env python3
"""Shows what it is worth that reads are passed no handle: none of them can take a lock. In a copy of the crates `get`, `room` and `scan` of a
client lock the board while they read, and are given the handle and the board that this wants, as are their callers in pref_share. The compiler
must then refuse the tests that read without a handle, and nothing else. (That they are answered while the lock is taken is an example of
tests/examples_of_docs.py.)

    python3 tests/reads_take_no_lock.py

Needs the Rattle kit.
"""
import os, re, shutil, subprocess, sys, tempfile

REFUSES_GET = "ensures refused { IfErr result (λ fault. RefusesGet J.opening self.old id fault self.new) }"
REFUSES_ROOM = "ensures refused { IfErr result (λ fault. (fault ≡ Closed) × (self.new ≡ self.old)) }"
# In each file: what stands there once, and what comes in its place.
LOCKED = {
    "pref_share/src/client/reads.rt": [
        ("use crate::book::BoardBrand;", "use crate::board::Board; use crate::book::BoardBrand; use std::sync::Wait;"),
        ("pub fn get(&mut self, id: u64)", "pub fn get<R: Wait>(&mut self, rt: &R, board: &Board<J>, id: u64)"),
        (f"{REFUSES_GET}\n    {{\n", f"{REFUSES_GET}\n    {{\n        let taken = board.publisher.lock(rt);\n"),
        ("let Some((now, row)) = found else {", "drop(taken); let Some((now, row)) = found else {"),
        ("pub fn room(&mut self)", "pub fn room<R: Wait>(&mut self, rt: &R, board: &Board<J>)"),
        (f"{REFUSES_ROOM}\n    {{\n", f"{REFUSES_ROOM}\n    {{\n        let taken = board.publisher.lock(rt);\n"),
        ("let Some((now, room)) = found else {", "drop(taken); let Some((now, room)) = found else {"),
        ("pub fn scan(&mut self, alloc: Global)", "pub fn scan<R: Wait>(&mut self, rt: &R, alloc: Global, board: &Board<J>)"),
        ("let query = &asking.query;", "let query = &asking.query; let taken = board.publisher.lock(rt);"),
        ("let Some((now, block)) = found else {", "drop(taken); let Some((now, block)) = found else {"),
    ],
    "pref_share/src/client/acts.rt": [
        ("client.scan(alloc)", "client.scan(rt, alloc, board)"),
        ("client.get(id)", "client.get(rt, board, id)"),
        ("client.room()", "client.room(rt, board)"),
    ],
}


def edit(crates, files):
    for file, pairs in files.items():
        with open(f"{crates}/{file}", encoding="utf-8") as it:
            text = it.read()
        for old, new in pairs:
            if text.count(old) != 1:
                sys.exit(f"{file}: not there once: {old}")
            text = text.replace(old, new)
        with open(f"{crates}/{file}", "w", encoding="utf-8") as it:
            it.write(text)


def keep_one_module_of_tests(src, kept):
    """The other tests call reads too, and would have to be given handles."""
    with open(f"{src}/lib.rt", encoding="utf-8") as it:
        text = it.read()
    for name in re.findall(r"^mod (\w+);$", text, re.M):
        with open(f"{src}/{name}.rt", encoding="utf-8") as it:
            has_tests = "#[test]" in it.read()
        if has_tests and name != kept:
            text = text.replace(f"#[cfg(test)]\nmod {name};\n", "")
            os.remove(f"{src}/{name}.rt")
    with open(f"{src}/lib.rt", "w", encoding="utf-8") as it:
        it.write(text)


def tried(files):
    """Whether the tests of reads pass on a copy of the crates with these edits, and what is said."""
    top = os.path.dirname(os.path.dirname(os.path.abspath(__file__)))
    with tempfile.TemporaryDirectory() as room:
        shutil.copytree(f"{top}/crates", f"{room}/crates", ignore=shutil.ignore_patterns("out"))
        for file in ("crates.txt", "HANDLES"):
            shutil.copy(f"{top}/{file}", room)
        edit(f"{room}/crates", files)
        crate = f"{room}/crates/share_tests"
        keep_one_module_of_tests(f"{crate}/src", "reads")
        ran = subprocess.run(["rt", "try", "--test"], cwd=crate, stdout=subprocess.PIPE, stderr=subprocess.STDOUT, encoding="utf-8")
    print(ran.stdout, end="")
    return ran.returncode == 0, ran.stdout


def main():
    passed, said = tried(LOCKED)
    refused = re.findall(r"^(\S+?):\d+:\d+: error\[(.*?)\]: `(\w+)`", said, re.M)
    wanted = {("src/reads.rt", "mismatched-argument-count", name) for name in ("get", "room", "scan")}
    if set(refused) != wanted or passed:
        sys.exit("not just the tests that read without a handle were refused")
    print("reads that take the lock are refused where they are passed no handle")


main()
