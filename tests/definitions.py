#!/usr/bin/env python3
"""Shows that docs/DEFINITIONS.md lists each definition that a public contract cites, and that it counts lines right.

    python3 tests/definitions.py            says what is wrong
    python3 tests/definitions.py --write    writes the right numbers into the document first

Listed has to be each definition that a public contract cites; and of those that it cites in turn, each one inside a `mutual`, and each type
and constant of the code that they are about. Public contracts are those of what a library exports, and of what is inside pref_script and in SPOKEN_OF.

A section of DEFINITIONS.md names its folder in its heading. Its sentence `From .., so N lines: 1 of CRATE, 2 of CRATE` names definitions of
that folder, and N is the number of lines of these and of all that they cite in turn, by crate, without comments, imports and what stands
in a sentence `Not counted: ..` of the section. The views count too (`ghost view`) by which the section's crate, in contracts that cite these
definitions, sees what functions take and return, but for a view by a definition that needs no reading: such a value shows itself through calls
alone. A row of a section's table names files of its folder, in which each definition stands that it lists. Needs the Rattle kit, whose crate
`csv` says what a record is, and Python 3.8.
"""
import re
import shutil
import sys
from dataclasses import dataclass
from pathlib import Path
from textwrap import fill

from code_types import read_types, views_of

TOP = Path(__file__).resolve().parent.parent
DOCUMENT = TOP / "docs/DEFINITIONS.md"
# The crates of this repository, lowest first, behind the one of the kit that they take definitions from.
KIT_CRATE = "csv"
CRATES = ["pref_table", "pref_term", "pref_sky", "pref_core", "pref_share", "pref_script", "prefq_c"]
ALL_CRATES = [KIT_CRATE, *CRATES]
SPOKEN_OF = {"read_input", "write_result", "LiveTable"}

HEAD = re.compile(r"(?:(?:abbrev|unfoldable|pub|record|data)\s+)+([^\s:(]+)")
IMPORT = re.compile(r"use Rattle\.(\w+)\.specs\.([\w.]+?)(?:\.\{([^}]*)\}| as (\w+))(?=[\s;]|$)")
ITEM = re.compile(r'^(?:impl(?:<[^>]*>)? (?:[\w<>: ]+ for )?(\w+)|pub trait (\w+)|( *)(?:pub )?(?:extern "C" )?fn (\w+))', re.MULTILINE)
MUTUAL = re.compile(r"(?:(?:abbrev|unfoldable)\s+)?mutual\s*$")
WORD = re.compile(r"[A-Za-z_]\w*|<>|>>=")


@dataclass(frozen=True)
class Function:
    crate: str
    name: str
    # the words of what it takes and returns, and the type whose method it is
    words: frozenset


def imports(text):
    """The definitions that a file brings in, by the name that they have there; `NAME.` for a file brought in whole."""
    found = {}
    for crate, file, names, alias in IMPORT.findall(text):
        for name in filter(None, re.split(r",\s*", names)):
            old, _, new = name.partition(" as ")
            found[(new or old).strip("◌")] = (crate, file, old.strip("◌"))
        if alias:
            found[f"{alias}."] = (crate, file, "")
    return found


def definitions_of(text):
    """The lines of each definition of a file by its name, and the names of those inside a `mutual`."""
    lines, mutual, name, inside = {}, set(), None, False
    for line in text.splitlines():
        if not line.strip():
            continue
        inside = (inside and line.startswith(" ")) or bool(MUTUAL.match(line))
        said = line[2:] if inside else line
        if MUTUAL.match(line) or said.startswith(("use ", "infix", "ghost ")) or said.lstrip().startswith("--"):
            continue
        head = HEAD.match(said)
        if head:
            name = head[1].strip("◌")
        if head and inside:
            mutual.add(name)
        if name:
            lines.setdefault(name, []).append(line)
    return lines, mutual


def specs(crate):
    """The folder of a crate's definitions."""
    if crate != KIT_CRATE:
        return TOP / "crates" / crate / "specs"
    command = shutil.which("rt")
    if not command:
        sys.exit("the Rattle kit's command rt is not on the PATH")
    return Path(command).resolve().parents[1] / "rattle" / crate / "specs"


def read_definitions():
    """Each definition with its lines, the imports of each file, the files that need no reading, and the definitions inside a `mutual`."""
    lines, brought, private, mutual = {}, {}, set(), set()
    for crate in ALL_CRATES:
        for path in sorted(specs(crate).glob("*.antt")):
            text, at = path.read_text(encoding="utf-8"), (crate, path.stem)
            brought[at] = imports(text)
            if "No public contract cites this" in text:
                private.add(at)
            found, inside = definitions_of(text)
            lines.update({(*at, name): body for name, body in found.items()})
            mutual |= {(*at, name) for name in inside}
    return lines, brought, private, mutual


def cited_in(text, crate, file, lines, brought):
    """The definitions that a text of this file cites; a `do` cites the `>>=` that it stands for."""
    found = set()
    for word in {">>=" if word == "do" else word for word in WORD.findall(text)}:
        for key in ((crate, file, word), brought.get(word)):
            if key in lines:
                found.add(key)
    for name, (other, module, _) in brought.items():
        if name.endswith("."):
            found |= {(other, module, word) for word in re.findall(rf"\b{re.escape(name)}(\w+)", text) if (other, module, word) in lines}
    return found


def behind(keys, without, lines, brought):
    """These definitions and all that they cite in turn, without some."""
    seen, left = set(), list(keys)
    while left:
        key = left.pop()
        if key not in seen and key not in without:
            seen.add(key)
            left += cited_in("\n".join(lines[key]), *key[:2], lines, brought[key[:2]]) - {key}
    return seen


def types_in(keys, lines, brought):
    """The names of the types and constants of the code that definitions are about, which the code's contracts declare in files of their own."""
    found = set()
    for key in keys:
        for word in set(WORD.findall("\n".join(lines[key]))):
            crate, file, _ = brought[key[:2]].get(word, ("", "", ""))
            if crate in CRATES and file.startswith("declared."):
                kind = file.replace(".TheVariants", "").rpartition(".")[2]
                found.add(word if kind == "TheConstants" else kind)
    return found


def exported(crate):
    """The names that a library exports, and those inside pref_script that documents speak of."""
    root = TOP / "crates" / crate / "src/lib.rt"
    names = re.findall(r"pub use [\w:]+::(?:\{([^}]*)\}|(\w+))", root.read_text(encoding="utf-8"))
    spoken_of = SPOKEN_OF if crate == "pref_script" else set()
    return spoken_of | {name.strip() for several, one in names for name in (several or one).split(",")}


def cited_by_contracts(lines):
    """Each definition that a public contract cites, with the functions that cite it, and what they take and return."""
    found = {}
    for crate in CRATES:
        public = exported(crate)
        for path in sorted((TOP / "crates" / crate / "src").rglob("*.rt")):
            text, owner = path.read_text(encoding="utf-8"), ""
            brought = imports(text)
            for item in ITEM.finditer(text):
                kind, trait, indent, name = item.groups()
                owner = kind or trait or (owner if indent else "")
                is_public = "pub fn" in item[0] or (indent and owner in public and f"pub trait {owner}" in text)
                if not name or not is_public or not ({name, owner} & public or path.name == "laws.rt"):
                    continue
                end = re.compile(rf"^{indent}\{{|;$", re.MULTILINE).search(text, item.end())
                contract = text[item.start() : end.end()]
                clauses = re.findall(r"(?:ensures|requires)[^{]*\{(.*?)\}[ ;]*$", contract, re.MULTILINE | re.DOTALL)
                words = {*re.findall(r"\w+", re.split(r"\b(?:ensures|requires)\b", contract)[0])}
                function = Function(crate, name, frozenset(words | ({owner} if words & {"self", "Self"} else set())))
                for key in cited_in(" ".join(clauses), crate, "", lines, brought):
                    found.setdefault(key, []).append(function)
    return found


def add_views(lines, brought, private):
    """The types of the code, with each view added as a definition. Not added is one by a definition that needs no reading."""
    types = read_types(TOP, CRATES)
    for (crate, name), kind in types.items():
        if kind.view:
            key = view_key(crate, name)
            brought[key[:2]] = imports(kind.text)
            if not any(cited[:2] in private for cited in cited_in(kind.view, *key[:2], lines, brought[key[:2]])):
                lines[key] = kind.view.splitlines()
    return types


def view_key(crate, name):
    """Under what a view stands among the definitions."""
    return crate, f"view of {name}", f"view of {name}"


def seen_by(crate, roots, cited, types, lines):
    """The views by which contracts of a crate that cite one of these definitions see what their functions take and return."""
    named = {(crate, word) for root in roots for function in cited.get(root, []) if function.crate == crate for word in function.words}
    return {view_key(*key) for key in views_of(named, types, CRATES, lambda key: view_key(*key) in lines)}


def keys_named(text, crate, lines):
    """The definitions of a crate, or of those below it, that a text names."""
    for name in re.findall(r"`(\w+)`", text):
        found = [key for key in lines if key[2] == name and ALL_CRATES.index(key[0]) <= ALL_CRATES.index(crate)]
        if not found:
            sys.exit(f"DEFINITIONS.md: there is no {name}")
        yield max(found, key=lambda key: ALL_CRATES.index(key[0]))


def not_listed(document, without, cited, lines, brought, private, mutual):
    """What public contracts cite and the document does not list, each with a function that cites it, and so inside a `mutual`, but for what is behind some."""
    listed = set(re.findall(r"`([^`\s]+)`", document))
    for key, (by, *_) in sorted(cited.items()):
        if key[:2] in private:
            yield f"{by.crate} {by.name} cites {key[2]}, which stands in {key[0]} {key[1]}, a file that says that none does"
        elif key[2] not in listed:
            yield f"{by.crate} {by.name} cites {key[2]} of {key[0]} {key[1]}, which is not listed"
    counted = behind(cited, without, lines, brought)
    for key in sorted(counted & mutual):
        if key[2] not in listed and key not in cited:
            yield f"{key[2]} of {key[0]} {key[1]}, inside a `mutual`, is not listed"
    for name in sorted(types_in(counted, lines, brought) - listed):
        yield f"{name}, a type or a constant of the code, is not listed"


def in_one_line(text):
    """A text whose lines may be cut at any word, in one line."""
    return " ".join(text.split())


def misplaced(section, crate, lines):
    """What the tables of a section have wrong of files: one that is not there, or a definition that stands in none of its row's files."""
    for files, names in re.findall(r"^\| ([A-Z][\w, ]*) \| ([^|]*) \|", section, re.MULTILINE):
        files = files.split(", ")
        yield from (f"{crate} has no file {file} of definitions" for file in files if not (specs(crate) / f"{file}.antt").is_file())
        for name in re.findall(r"`([^`]+)`", names):
            if not any((crate, file, name) in lines for file in files):
                yield f"{name} does not stand in {' or '.join(files)} of {crate}"


def counts(section, crate, without, cited, types, lines, brought):
    """Each count of a section, as it is written, in one line, and as it should be."""
    for start, named, count in re.findall(r"^(From (.*?),\s+so\s+)(\d+\s+lines(?::\s[^.]*)?)\.", section, re.MULTILINE | re.DOTALL):
        by_crate, roots = {}, {*keys_named(named, crate, lines)}
        for key in behind(roots | seen_by(crate, roots, cited, types, lines), without, lines, brought):
            by_crate[key[0]] = by_crate.get(key[0], 0) + len(lines[key])
        right = f"{sum(by_crate.values())} lines"
        if len(by_crate) > 1:
            right += ": " + ", ".join(f"{by_crate[name]} of {name}" for name in reversed(ALL_CRATES) if name in by_crate)
        start = in_one_line(start)
        yield f"{start} {in_one_line(count)}", f"{start} {right}"


def with_count(document, written, right):
    """The document with a right count in place of one that is written in lines of any length."""
    if written == right:
        return document
    return re.sub(r"\s+".join(map(re.escape, written.split())), lambda _: fill(right, 119, break_on_hyphens=False), document)


def main():
    lines, brought, private, mutual = read_definitions()
    types, cited = add_views(lines, brought, private), cited_by_contracts(lines)
    document, wrong, uncounted = DOCUMENT.read_text(encoding="utf-8"), [], []
    for crate, section in re.findall(r"^## [^\n]*\(crates/(\w+)/specs\)\n(.*?)(?=^## |\Z)", document, re.MULTILINE | re.DOTALL):
        without = [key for rest in re.findall(r"Not\s+counted:\s(.*?)\.", section, re.DOTALL) for key in keys_named(rest, crate, lines)]
        uncounted += without
        wrong += misplaced(section, crate, lines)
        for written, right in counts(section, crate, without, cited, types, lines, brought):
            if sys.argv[1:] == ["--write"]:
                document = with_count(document, written, right)
            elif written != right:
                wrong.append(f"{crate}: not \"{written}\", but \"{right}\"")
    if sys.argv[1:] == ["--write"]:
        DOCUMENT.write_text(document, encoding="utf-8")
    wrong += not_listed(document, uncounted, cited, lines, brought, private, mutual)
    print(*wrong, f"{len(wrong)} wrong", sep="\n")
    sys.exit(1 if wrong else 0)


main()
