#!/usr/bin/env python3
"""Runs the examples of the doc comments, and compares what they print. One more reads a board while its lock is taken: where a read waits for
that lock, it gives no answer.

    python3 tests/examples_of_docs.py           # in one program, without proofs; what fails is named by a second run
    python3 tests/examples_of_docs.py --show    # prints that program

An example is a block `rust` of a doc comment in crates/*/src; a block `text` is a drawing. What an example uses and does not make is given, under
the names of GIVEN and ON_A_BOARD: a table of seven hotels, their schema, a question, a machine, the clients of a board. Its comments are the lines
that it prints, one after the other; a comment behind `let NAME = ..;` is the value of NAME. The example of reads stands in a module that only the
copy of pref_share has, READ_WHILE_LOCKED, since no other crate can take the lock. Needs the Rattle kit and Python 3.8.
"""
import re
import shutil
import subprocess
import sys
import tempfile
from dataclasses import dataclass
from itertools import chain
from pathlib import Path

TOP = Path(__file__).resolve().parent.parent
CRATES = ["pref_table", "pref_term", "pref_sky", "pref_core", "pref_share", "pref_script"]
BLOCK = re.compile(r"^ *(//[/!]) ```(\w*)\n((?: *\1.*\n)*?) *\1 ```$", re.MULTILINE)
COMMENT = re.compile(r"(?:^|\s)// (.*)$")
VALUE = re.compile(r"^let (?:mut )?(\w+) = .*;\s+// ")
TEXT = re.compile(r'"(?:[^"\\]|\\.)*"')
# What a `let`, a `for` or an arm makes.
MADE = re.compile(r"\blet\s+(?:mut\s+)?(.*?)\s*=|\bfor\s+(\w+)\s+in|^(.*?)=>", re.MULTILINE)
# What a block of drawings has no line of.
STATEMENT = re.compile(r";$|\{$|\)\?$")
# The script that stands on the standard input of each example: a table with no commands.
INPUT = "table\nprice\nend\n"
# Behind the lines of each example.
END = "the example ended"

QUERY = "best low(price) * low(dist)"
GIVEN = {
    "schema": "let (schema, _) = read_table(alloc, HOTELS)?;",
    "rows": "let (_, rows) = read_table(alloc, HOTELS)?;",
    "row": "let row = Row::of(&schema, &[55, 1])?;",
    "hotel": "let hotel = Row::of(&schema, &[55, 1])?;",
    "other": "let other = Row::of(&schema, &[60, 5])?;",
    "cheaper": "let cheaper = Row::of(&schema, &[45, 8])?;",
    "ask": f'let ask = read_ask(alloc, &schema, b"{QUERY}")?;',
    "id": "let id = 3;",
    "setup": 'let setup = Setup::new(2, 1024, 256, 64).context("a number outside the limits")?;',
    "pieces": "let pieces = [&rows[..4], &rows[4..]];",
    "table": "let mut table = Machine::new(alloc, setup, &rows)?;",
    "answer": "let answer = answer_of(alloc, &mut table, ask)?;",
    "event": "let event = Event { client: 2, act: Act::Insert(hotel) };",
    "events": "let events = two_events(alloc, event)?;",
    "script": 'let script = b"table\\nprice\\n50\\nend\\nas 1 insert 45\\n";',
    "text": "let mut text = String::new(alloc);",
}
TWO_CLIENTS = 'let [desk, guest] = clients.as_mut_slice() else { return Err(anyhow!("a board of two clients")); };'
ON_A_BOARD = {
    **{name: GIVEN[name] for name in ("schema", "rows", "hotel", "ask", "id", "setup")},
    "client": 'let Some(client) = clients.first_mut() else { return Err(anyhow!("a board of no clients")); };',
    "desk": TWO_CLIENTS,
    "guest": TWO_CLIENTS,
    "blocks": "let blocks = client.begin(rt, alloc, board, ask)?;",
    "acts": "let acts = acts_of_two(alloc, hotel)?;",
    "tasks": "let tasks = two_tasks(alloc)?;",
    "gate": "let gate = Open;",
}

READS = Path("read_while_locked.rt")
READ_WHILE_LOCKED = """\
//! Reads of a client while the lock of its board is taken.

use crate::board::Board;
use crate::book::BoardBrand;
use crate::client::Client;
use crate::fault::ShareFault;
use pref_table::Row;
use std::alloc::Global;
use std::sync::Wait;

/// The row of id 3, the room, and the blocks that are left after a scan.
///
/// ```rust
/// let blocks = client.begin(rt, alloc, board, ask)?;     // 4
/// let (row, room, left) = read_while_locked(rt, alloc, board, client);
/// let price = row?.cell(0);                              // 80
/// let is_full = room? == 0;                              // false
/// let left = left?;                                      // 3
/// ```
pub fn read_while_locked<J: BoardBrand, R: Wait>(
    rt: &R,
    alloc: Global,
    board: &Board<J>,
    client: &mut Client<J>,
) -> (Result<Row, ShareFault>, Result<u32, ShareFault>, Result<u32, ShareFault>) {
    let taken = board.publisher.lock(rt);
    let found = (client.get(3), client.room(), client.scan(alloc));
    drop(taken);
    found
}
"""

RUNTIME = "R: Threads + Wait + Print + AllocGlobal + Sync"
BOUNDS = f"<J: BoardBrand + Send + Sync, {RUNTIME}>"
# How an example is called, by what it needs: a runtime and memory, standard input too, a board and its clients, or the name of a board.
PLAIN = f"""\
fn {{name}}<{RUNTIME}>(rt: &R, alloc: Global) -> Result<()> {{{{
{{body}}}}}}
"""
HOST = """\
fn {name}(rt: &HostRuntime, alloc: Global) -> Result<()> {{
{body}}}
"""
BOARD = f"""\
fn on_{{name}}{BOUNDS}(rt: &R, alloc: Global, board: &Board<J>, mut clients: Vec<Client<J>>) -> Result<()> {{{{
{{body}}}}}}

fn of_{{name}}{BOUNDS}(rt: &R, alloc: Global, name: BoardName, setup: Setup, rows: &[Row]) -> Result<()> {{{{
    let (board, clients) = open_board::<J, R>(rt, alloc, name, setup, rows)?;
    let done = on_{{name}}(rt, alloc, &board, clients);
    board.close(rt);
    done
}}}}
"""
NAMED = f"""\
fn of_{{name}}{BOUNDS}(rt: &R, alloc: Global, name: BoardName, setup: Setup, rows: &[Row]) -> Result<()> {{{{
{{body}}}}}}
"""
OPENED = f"""
fn {{name}}<{RUNTIME}>(rt: &R, alloc: Global) -> Result<()> {{{{
    let (_, rows) = read_table(alloc, HOTELS)?;
    let setup = Setup::new(2, 1024, 256, 64).context("a number outside the limits")?;
    of_{{name}}::<Brand, _>(rt, alloc, BoardName::new(), setup, &rows)
}}}}
"""
ITEM = f"""\
{{body}}
fn {{name}}<{RUNTIME}>(_rt: &R, _alloc: Global) -> Result<()> {{{{
    Ok(())
}}}}
"""

PROGRAM = """\
//! The examples of the doc comments.
#![tactic(auto)]

{imports}

const HOTELS: &[u8] = b"price,dist\\n50,8\\n60,5\\n80,2\\n70,6\\n90,2\\n100,1\\n110,9\\n";

fn answer_of(alloc: Global, table: &mut Machine, ask: Ask) -> Result<RankedList> {{
    for _ in 0..table.begin(1, ask)? {{
        table.scan(alloc, 1)?;
    }}
    Ok(table.finish(alloc, 1)?)
}}

fn two_events(alloc: Global, event: Event) -> Result<Vec<Event>> {{
    let mut events = Vec::new(alloc);
    events.push(event)?;
    events.push(Event {{ client: 1, act: Act::Room }})?;
    Ok(events)
}}

fn acts_of_two(alloc: Global, hotel: Row) -> Result<Vec<Vec<Act>>> {{
    let mut acts = Vec::new(alloc);
    let mut desk = Vec::new(alloc);
    desk.push(Act::Insert(hotel))?;
    desk.push(Act::Room)?;
    acts.push(desk)?;
    let mut guest = Vec::new(alloc);
    guest.push(Act::Get(1))?;
    acts.push(guest)?;
    Ok(acts)
}}

/// A gate that holds no client.
#[derive(Drop)]
struct Open;

impl Gate for Open {{
    ghost use Rattle.std.specs.Prelude.{{◌≡◌, true}};

    ghost says = {{ λ gate client turn answer. answer ≡ true }};

    fn before(&self, _client: u8, _turn: usize) -> bool {{
        true
    }}

    fn after(&self, _client: u8, _turn: usize) {{}}
}}

/// A task of no acts.
#[derive(Drop)]
struct Idle;

impl Task for Idle {{
    ghost use Rattle.std.specs.Prelude.{{[]}};
    ghost use base.Fml.{{ftrue}};

    ghost left = {{ λ task. [] }};

    ghost took = {{ λ first task replies. ftrue }};

    fn next(&mut self, _alloc: Global) -> Result<Option<Act>, AllocError> {{
        Ok(None)
    }}

    fn take(&mut self, _reply: Reply) -> Result<(), AllocError> {{
        Ok(())
    }}
}}

fn two_tasks(alloc: Global) -> Result<Vec<Idle>> {{
    let mut tasks = Vec::new(alloc);
    tasks.push(Idle)?;
    tasks.push(Idle)?;
    Ok(tasks)
}}

fn run_clients<J: BoardBrand, R>(_rt: &R, _board: &Board<J>, _clients: Vec<Client<J>>) -> Result<()> {{
    Ok(())
}}

fn run_board{bounds}(rt: &R, name: BoardName, setup: Setup, rows: &[Row]) -> Result<()> {{
    let (board, clients) = open_board::<J, R>(rt, rt.alloc(), name, setup, rows)?;
    let done = run_clients(rt, &board, clients);
    board.close(rt);
    done
}}

{examples}
fn main(rt: HostRuntime) -> Result<()> {{
    let words: Vec<String> = env::args(&rt)?.skip(1).collect(rt.alloc())?;
    for name in words.as_slice() {{
        match name.as_str() {{
{arms}
            _ => return Err(anyhow!("no such example")),
        }}
        println!(rt; "{end}")?;
    }}
    Ok(())
}}
"""
IMPORTED = """\
use anyhow::{Context, Result, anyhow};
use pref_share::read_while_locked::read_while_locked;
use std::alloc::{AllocError, Global};
use std::env;
use std::marker::Brand;
use std::sync::Wait;
use std::thread::Threads;
"""


@dataclass
class Example:
    crate: str
    # the file below src/, and the line where the block begins
    file: Path
    line: int
    lines: list

    @property
    def place(self):
        return f"crates/{self.crate}/src/{self.file}:{self.line}"

    @property
    def name(self):
        return "_".join([self.crate, *self.file.with_suffix("").parts, str(self.line)])

    @property
    def prints(self):
        """The lines that it has to print."""
        return [found[1] for found in map(COMMENT.search, self.lines) if found]

    def printing(self):
        """Its lines, with one behind each value that prints it."""
        for line in self.lines:
            yield line
            value = VALUE.match(line)
            if value:
                yield f'println!(rt; "{{:?}}", {value[1]})?;'

    def function(self):
        """A function that runs it."""
        code = "\n".join(self.lines)
        if code.startswith("fn "):
            return ITEM.format(name=self.name, body=f"{code}\n")
        if "open_board" in code:
            return (NAMED + OPENED).format(name=self.name, body=indented(self.printing()))
        is_on_a_board = self.crate == "pref_share" and "run_board" not in code
        given = ON_A_BOARD if is_on_a_board else GIVEN
        body = indented([*makings(code, given), *self.printing(), "Ok(())"])
        alone = HOST if "rt.stdin()" in code else PLAIN
        return (BOARD + OPENED if is_on_a_board else alone).format(name=self.name, body=body)


def indented(lines):
    return "".join(f"    {line}\n" for line in lines)


def names_used(code):
    """The names that code uses and does not make."""
    bare = TEXT.sub("", "\n".join(COMMENT.sub("", line) for line in code.splitlines())).replace("..", " ")
    made = {name for parts in MADE.findall(bare) for part in parts for name in re.findall(r"\w+", part)}
    return set(re.findall(r"(?<![.\w])(\w+)\b(?!\s*[(:!])", bare)) - made


def makings(code, given):
    """The lines that make what code uses of what is given, each behind those that it needs."""
    found = []
    for name in given:
        if name in names_used(code):
            found += [*makings(given[name], given), given[name]]
    return list(dict.fromkeys(found))


def blocks_of(crate, file, text):
    """Each block of the doc comments of a file: the language that it names, and the example that it would be."""
    for block in BLOCK.finditer(text):
        lines = [re.sub(r"^ *//[/!] ?", "", line) for line in block[3].splitlines()]
        yield block[2], Example(crate, file, text.count("\n", 0, block.start()) + 1, lines)


def blocks(crate):
    """Those of a crate."""
    source = TOP / "crates" / crate / "src"
    for file in sorted(source.rglob("*.rt")):
        yield from blocks_of(crate, file.relative_to(source), file.read_text(encoding="utf-8"))


def exports(crate):
    """The modules of a library, each with the names that it exports: those at its root, and those for the crates above."""
    text = (TOP / "crates" / crate / "src/lib.rt").read_text(encoding="utf-8")
    for module, part in zip((crate, f"{crate}::engine"), text.partition("pub mod engine {")[::2]):
        names = re.findall(r"pub use [\w:]+::(?:\{([^}]*)\}|(\w+));", part)
        yield module, sorted({name.strip() for several, one in names for name in (several or one).split(",") if name.strip()})


def imports(code):
    """The lines that import what code uses of the libraries."""
    used = set(re.findall(r"\w+", code))
    for module, exported in chain.from_iterable(map(exports, CRATES)):
        names = [name for name in exported if name in used]
        if names:
            yield f"use {module}::{{{', '.join(names)}}};\n"


def program(examples):
    functions = "\n".join(f"// {example.place}\n{example.function()}" for example in examples)
    arms = "\n".join(f'            "{example.name}" => {example.name}(&rt, rt.alloc())?,' for example in examples)
    parts = {"bounds": BOUNDS, "examples": functions, "arms": arms, "end": END}
    return PROGRAM.format(imports=IMPORTED + "".join(imports(functions + PROGRAM)), **parts)


def write_crate(top, code):
    """Copies the crates, and adds the reads of a board to pref_share and a crate that is this program."""
    shutil.copytree(TOP / "crates", top / "crates", ignore=shutil.ignore_patterns("out", "must-fail"))
    shared = top / "crates/pref_share/src"
    (shared / READS).write_text(READ_WHILE_LOCKED, encoding="utf-8")
    with open(shared / "lib.rt", "a", encoding="utf-8") as root:
        root.write(f"\npub mod {READS.stem};\n")
    shutil.copy(TOP / "HANDLES", top)
    own = f"doc_examples: {' '.join(CRATES)} anyhow\n"
    (top / "crates.txt").write_text((TOP / "crates.txt").read_text(encoding="utf-8") + own, encoding="utf-8")
    source = top / "crates/doc_examples/src"
    source.mkdir(parents=True)
    (source / "main.rt").write_text(code, encoding="utf-8")
    return source.parent


def write_case(folder, name, examples):
    """Writes a run of some examples, one after the other, and what it prints."""
    (folder / name).write_text(INPUT, encoding="utf-8")
    (folder / f"{name}.args").write_text("".join(f"{example.name}\n" for example in examples), encoding="utf-8")
    lines = chain.from_iterable([*example.prints, END] for example in examples)
    (folder / f"{name}.stdout").write_text("".join(f"{line}\n" for line in lines), encoding="utf-8")


def run(code, cases):
    """Whether each case, which has a name and examples, prints what their comments say, and ends."""
    with tempfile.TemporaryDirectory() as room:
        crate, folder = write_crate(Path(room), code), Path(room) / "cases"
        folder.mkdir()
        for name, examples in cases.items():
            write_case(folder, name, examples)
        return subprocess.run(["rt", "try", "--cases", folder], cwd=crate, stdin=subprocess.DEVNULL).returncode == 0


def are_as_they_say(code, examples):
    """Runs all that read no input in one case, since each has a cost; where that fails, each by itself, which names those that fail."""
    alone = {example.name: [example] for example in examples}
    together = {name: case for name, case in alone.items() if any("rt.stdin()" in line for line in case[0].lines)}
    together["without_input"] = [example for example in examples if example.name not in together]
    if run(code, together):
        return True
    run(code, alone)
    return False


def main():
    found = [*chain.from_iterable(map(blocks, CRATES)), *blocks_of("pref_share", READS, READ_WHILE_LOCKED)]
    examples = [example for language, example in found if language == "rust"]
    not_run = [example.place for language, example in found if language != "rust" and any(map(STATEMENT.search, example.lines))]
    code = program(examples)
    if sys.argv[1:] == ["--show"]:
        print(code, end="")
        return
    for place in not_run:
        print(f"{place}: a statement in a block that is no example")
    is_right = bool(examples) and are_as_they_say(code, examples)
    print(f"{len(examples)} examples, {'as they say' if is_right else 'not all as they say'}, {len(not_run)} not run")
    sys.exit(0 if is_right and not not_run else 1)


main()
