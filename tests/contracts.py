"""Finds the functions of a crate and the clauses of their contracts, and what is wrong with a line `# clause: ` of a must-fail edit.

Such a line names a function, as `TYPE::FUNCTION` or `MODULE::FUNCTION`, and behind it clauses of its contract: `KIND`, `KIND NAME` or `NAME`. A
function that a trait declares has the trait's clauses too. What stands in parentheses only has to be words of the code and of the definitions.
"""
import re
from dataclasses import dataclass
from functools import lru_cache
from pathlib import Path

TOP = Path(__file__).resolve().parent.parent
BLOCK = re.compile(r"^(?:pub(?:\(\w+\))? )?(?:impl|(trait))\b(.*)$")
HEAD = re.compile(r'^( *)(?:pub(?:\(\w+\))? )?(?:const )?(?:extern "C" )?fn (\w+)\b')
CLAUSE = re.compile(r"^ *(requires|ensures)(?: (\w+))? \{")
INVARIANT = re.compile(r"the invariant (?:`(\w+)` )?of `(\w+)`")
QUOTED = re.compile(r"`([^`]+)`")
IN_PARENTHESES = re.compile(r"\(([^()]*)\)")


@dataclass
class Function:
    name: str
    # the modules of its file, and what the head of its block names
    place: set
    is_of_trait: bool
    # (kind, name or ""), also of closures in its body
    clauses: list

    def is_called(self, path):
        *place, name = path.split("::")
        return name == self.name and {*place} <= self.place

    def has(self, words):
        return any(words in (kind, f"{kind} {name}", name) for kind, name in self.clauses)


@lru_cache(maxsize=None)
def functions(crate):
    source = TOP / "crates" / crate / "src"
    return [found for file in sorted(source.rglob("*.rt")) for found in functions_of(file, source)]


def functions_of(file, source):
    """The functions of a file. A clause belongs to the function whose head is the last above it."""
    modules, found = {*file.relative_to(source).with_suffix("").parts}, []
    names, is_trait = set(), False
    for line in file.read_text(encoding="utf-8").splitlines():
        if block := BLOCK.match(line):
            names, is_trait = {*re.findall(r"\w+", block[2])}, block[1] is not None
        elif head := HEAD.match(line):
            is_inside = head[1] != ""
            found.append(Function(head[2], modules | (names if is_inside else set()), is_inside and is_trait, []))
        elif (clause := CLAUSE.match(line)) and found:
            found[-1].clauses.append((clause[1], clause[2] or ""))
    return found


@lru_cache(maxsize=None)
def trait_functions():
    return [found for crate in sorted((TOP / "crates").iterdir()) for found in functions(crate.name) if found.is_of_trait]


def called(crate, path):
    """The functions of a crate that a path names, with those of traits that they stand for."""
    own = [found for found in functions(crate) if found.is_called(path)]
    return own + [found for found in trait_functions() for each in own if found.name == each.name and found.place & each.place]


def has_type(crate, name):
    return any(re.search(rf"\b(?:struct|enum) {name}\b", file.read_text(encoding="utf-8")) for file in (TOP / "crates" / crate / "src").rglob("*.rt"))


@lru_cache(maxsize=None)
def words():
    """All words of the code and of the definitions."""
    files = [*TOP.glob("crates/*/src/**/*.rt"), *TOP.glob("crates/*/specs/**/*.antt")]
    return {word for file in files for word in re.findall(r"\w+", file.read_text(encoding="utf-8"))}


def faults(crate, line):
    """What a line `# clause: ` names that is not there."""
    outside = IN_PARENTHESES.sub("", line)
    for field, name in INVARIANT.findall(outside):
        if not has_type(crate, name) or field and field not in words():
            yield f"its clause is the invariant of no type of {crate}: {field} of {name}"
    named = []
    for quoted in QUOTED.findall(INVARIANT.sub("", outside)):
        if not any(function.has(quoted) for function in named):
            found = called(crate, quoted)
            if not found:
                yield f"its clause names no function of {crate}, nor a clause of one that stands before it: {quoted}"
            named += found
    inside = " ".join(IN_PARENTHESES.findall(line))
    yield from (f"its clause has what stands in no code or definition: {quoted}" for quoted in QUOTED.findall(inside)
                if not {*re.findall(r"\w+", quoted)} <= words())
    if outside.strip() and not named and not INVARIANT.search(outside):
        yield f"its clause names no function of {crate}"
