"""Finds the types of the crates' code: what each is made of, and the view (`ghost view`) through which contracts see it.

A type that has a view is seen by the fields that its view names, and another one by all its fields.
"""
import re
from dataclasses import dataclass

TYPE = re.compile(r"^(?:pub(?:\(\w+\))? )?(struct|enum) (\w+)([^{;]*(?:;|\{.*?^\}))", re.MULTILINE | re.DOTALL)
MODEL = re.compile(r"^impl(?:<[^>]*>)? Model for (\w+)[^{]*\{(.*?)^\}", re.MULTILINE | re.DOTALL)
VIEW = re.compile(r"ghost view = \{(.*?)\};", re.DOTALL)
FIELD = re.compile(r"^ +(?:pub(?:\(\w+\))? )?(\w+): (.*),$", re.MULTILINE)
VARIANT = re.compile(r"^    \w+", re.MULTILINE)
NOT_CODE = re.compile(r"//.*$|^ *#\[.*\]$", re.MULTILINE)


@dataclass
class CodeType:
    # the names of the types in the fields that contracts see
    made_of: set
    # its view, or ""
    view: str
    # the text of its file
    text: str


def seen_fields(view, kind, body):
    """What names the types of the fields that contracts see: those of the view, or all where there is no view, or where fields have no names."""
    if kind == "enum":
        return VARIANT.sub("", body)
    fields = FIELD.findall(body)
    if not view or not fields:
        return body
    named = set(re.findall(r"\.(\w+)", view))
    return " ".join(each for field, each in fields if field in named)


def read_types(top, crates):
    """The types of the crates by crate and name."""
    found = {}
    for crate in crates:
        for path in sorted((top / "crates" / crate / "src").rglob("*.rt")):
            text = path.read_text(encoding="utf-8")
            views = {name: view[1].strip() for name, body in MODEL.findall(text) if (view := VIEW.search(body))}
            for kind, name, body in TYPE.findall(text):
                view = views.get(name, "")
                made_of = set(re.findall(r"\w+", seen_fields(view, kind, NOT_CODE.sub("", body))))
                found[crate, name] = CodeType(made_of, view, text)
    return found


def views_of(named, types, crates, is_seen):
    """The types that have a view among those that (crate, name) pairs name there, and in what these hold, but for views that are not seen."""
    found, left, met = set(), list(named), set()
    while left:
        crate, name = left.pop()
        key = next(((each, name) for each in reversed(crates[: crates.index(crate) + 1]) if (each, name) in types), None)
        if key is None or key in met:
            continue
        met.add(key)
        if types[key].view and not is_seen(key):
            continue
        if types[key].view:
            found.add(key)
        left += [(key[0], each) for each in types[key].made_of]
    return found
