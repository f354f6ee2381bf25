"""What a refusal says beside what is wrong: the nearest name, and how this language writes what another one does."""
import re
from difflib import SequenceMatcher
from typing import Any, Iterable, List, Mapping, Optional, Sequence

from .columns import listed, spelled

BASES = ("low", "high", "around", "between", "pos", "layered", "reverse")
MODES = ("best", "top_level", "at_least", "skyline")
# What other languages write, and what to write here.
SLIPS = {
    "min": "min(x) is written low(x)",
    "max": "max(x) is written high(x)",
    "and": "write * where both count at once, & where the first decides",
    "or": "there is no or: write * where both count at once, & where the first decides",
    "limit": "write at_least 5 in place of best for five rows or more, in whole levels; a frame has top=5 beside the question for just so many",
    "top": "write top_level 3 in place of best for three levels, at_least 3 for three rows or more",
    "group": "write by and the column",
    "order": "low(x) prefers the smallest value of x, high(x) the largest",
    "where": "a question has no conditions: pos(x, 'value') and between(x, 1, 5) prefer rows, and a frame has where=.. beside the question",
    "true": "there are no conditions: pos(x, 'value') prefers a value, between(x, 1, 5) a range, and high(x) prefers true to false",
    "empty": "there is no empty preference: leave it out",
    "select": "a question begins with best, as in best low(x) * low(y)",
    "distinct": "write skyline of distinct x min, y max",
}
# Between two terms, and anywhere else.
BETWEEN_TERMS = {
    "|": "there is no |, rPref's intersection: write * where both count at once, & where the first decides",
    "+": "there is no +, rPref's disjoint union: write * where both count at once, & where the first decides",
}
SIGNS = {
    "|": "there is no |: write * where both count at once, & where the first decides",
    "=": "pos(x, 'value') prefers a value",
    "<": "low(x) prefers small values, between(x, 1, 5) a range",
    ">": "high(x) prefers large values, between(x, 1, 5) a range",
    "/": "a question has no arithmetic: add a column with the quotient",
    "+": "a question has no arithmetic: add a column with the sum",
    ";": "a question is one term: write * or & between two",
    ":": "a time stands in quotes, as '17:30'",
    "\u2212": "write -",
    "\u00d7": "write *",
    **dict.fromkeys("\u2018\u2019\u201c\u201d\u201e\u00ab\u00bb", "the quotes are ' and \""),
}
# Signs of names that stand without quotes.
OF_NAMES = dict.fromkeys("^$#@?\\", "a name that is no word stands in double quotes, as in low(\"Price (EUR)\")")
# What a question of a frame has beside the program's language, where it stands in the wrong place.
OF_FRAMES = {
    **OF_NAMES,
    "+": "a sum stands in the place of a column, as in low(x + y)",
    "/": "a quotient stands in the place of a column, as in low(x / y)",
    "true": "write true(x > 5)",
    "empty": "write empty()",
    "where": "a condition stands beside the question as where=.., or inside of it as true(x > 5)",
}
# What other languages write in a condition or an expression.
IN_EXPRESSIONS = {
    **OF_NAMES,
    "&": "write and",
    "|": "write or",
    ";": "write and between two conditions",
    ",": "a number has no commas, and between two conditions stands and",
    "[": "values stand in parentheses, as in (1, 2)",
    "+": "a number has no + in front",
    ".": "a number has digits on both sides of its point",
    "like": "there are no patterns: write = or in (..)",
    "between": "write 1 <= x <= 5",
    "!": "write not",
    **dict.fromkeys("=<>\u2260\u2264\u2265", "there are =, <>, <, <=, > and >="),
}
# In the place of a ) behind the name of a column.
ARITHMETIC = {
    "-": "a question has no arithmetic: add a column with the difference",
    "*": "a question has no arithmetic: add a column with the product",
    "(": "a question has no functions: add a column with what it gives",
}
# What is written for a missing value.
WORDS_OF_MISSING = ("missing", "null", "none")
LONGEST_COMPARED = 100
# To look at as many signs, or to compare as many pairs of them, takes some ten milliseconds at most.
SIGNS_COMPARED = 40_000
# What pandas, DuckDB and Python's csv call what is called otherwise here.
OTHER_NAMES = {
    "sep": "delimiter", "delim": "delimiter", "na_values": "missing", "nullstr": "missing", "keep_default_na": "missing", "usecols": "columns", "dtype": "kinds",
    "dtypes": "kinds", "types": "kinds", "converters": "kinds", "parse_dates": "kinds", "dateformat": "kinds", "timestampformat": "kinds", "date_format": "kinds",
    "skiprows": "skip", "header": "skip", "decimal_separator": "decimal", "thousand": "thousands", "on_bad_lines": "null_padding", "limit": "top", "head": "top", "nlargest": "top",
    "filter": "where", "query": "where", "condition": "where", "groupby": "by", "group_by": "by", "levels": "top_level"}


def nearest(name: str, names: Sequence[str]) -> Optional[str]:
    """The name that is most like another one: the same in other capitals, or a similar one or one with a similar word, or one that contains it, or three letters and
    more that it contains. Only short names that are not blank are compared."""
    if len(name) > LONGEST_COMPARED:
        return None
    wanted = name.casefold()
    short = [other for other in reversed(names) if other.strip() and len(other) <= LONGEST_COMPARED]
    folded = {other.casefold(): other for other in short}
    words = {word: other for other in short for word in re.findall(r"\w{3,}", other.casefold())}
    if wanted in folded:
        return folded[wanted]
    near = most_like(wanted, folded) or most_like(wanted, words, 0.7)
    within = [other for other in folded if wanted and (wanted in other or len(other) > 2 and other in wanted)]
    found = near or (min(within, key=len) if within else "")
    return {**words, **folded}.get(found)


def most_like(text: str, others: Iterable[str], least: float = 0.65) -> Optional[str]:
    """The text that is most like another one, from this ratio on; of many only the first ones are compared."""
    if len(text) > LONGEST_COMPARED:
        return None
    matcher = SequenceMatcher(b=text, autojunk=False)
    found, left = None, SIGNS_COMPARED
    for other in others:
        matcher.set_seq1(other)
        if matcher.real_quick_ratio() < least:
            continue
        left -= len(other)
        if left > 0 and matcher.quick_ratio() >= least:
            left -= len(text) * len(other)
            if left > 0 and matcher.ratio() >= least:
                found, least = other, matcher.ratio()
    return found


def unknown_column(name: str, names: Sequence[str]) -> str:
    """What is said of a name that no column has."""
    near = nearest(name, names)
    there = f"there are {listed(list(names))}" if names else "there is none whose name is a text"
    return f"no column {name!r}; " + (there if near is None else f"did you mean {spelled(near)}?")


def hint_for_mode(question: str, kind: str, text: str, names: Sequence[str]) -> str:
    """What is said of a question that does not begin with a mode."""
    if kind == "word" and text.lower() in MODES:
        return f": write {text.lower()} in small letters"
    if kind == "end":
        return f", as in: best low({spelled(names[0]) if names else 'x'})"
    if text in BASES or text in ("(", "-"):
        return f": write best {question.strip()}"
    if kind == "word" and text.lower() in SLIPS:
        return f": {SLIPS[text.lower()]}"
    near = most_like(text, MODES) if kind == "word" else None
    return f"; did you mean {near}?" if near else ""


def hint_for(kind: str, text: str, could: str, names: Sequence[str], further: Mapping[str, str]) -> str:
    """What is said of a token that cannot stand where it stands, beside what could; `further` hints come first."""
    if kind in ("word", "sign", "strange") and text.lower() in further and not (text in BETWEEN_TERMS and could.startswith("*")):
        return further[text.lower()]
    if kind in ("word", "name") and could.startswith("low(..)"):
        return _in_place_of_a_term(text, names)
    if (kind, text) == ("sign", ",") and could.startswith("*"):
        return "no comma stands between two terms"
    if kind == "sign" and could == "a )":
        return ARITHMETIC.get(text, "")
    if text in BETWEEN_TERMS and could.startswith("*"):
        return BETWEEN_TERMS[text]
    return (SIGNS if kind == "strange" else SLIPS if kind == "word" else {}).get(text.lower(), "")


def hint_for_value(kind: str, text: str, is_called: bool) -> str:
    """What is said of a token in the place of a value."""
    if kind != "word":
        return ""
    if text.lower() in WORDS_OF_MISSING:
        return "a missing value is none that is preferred by itself: write true(x is missing)"
    if not is_called:
        return f"a text stands in quotes, '{text}'"
    return "values stand one after the other, as in pos(x, 4, 6)" if text == "c" else f"a question has no functions: write the value in place of {text}(..)"


def _in_place_of_a_term(text: str, names: Sequence[str]) -> str:
    if text not in names and text.lower() in SLIPS:
        return SLIPS[text.lower()]
    near = None if text in names else most_like(text.lower(), BASES)
    if near:
        return f"did you mean {near}(..)?"
    found = nearest(text, names)
    return f"write low({spelled(found)}) or high({spelled(found)})" if found is not None else ""


def check_options(options: Mapping[str, Any], known: Iterable[str], what: str) -> None:
    """Refuses a word that is no option."""
    names = list(known)
    for name in options:
        if name not in names:
            raise TypeError(f"{what} has no option {name!r}{meant(name, names)}")


def meant(name: str, names: List[str]) -> str:
    """What is said of a word that is none of these names."""
    if OTHER_NAMES.get(name) in names:
        return f": it is called {OTHER_NAMES[name]!r} here"
    near = nearest(name, names)
    if near is not None:
        return f"; did you mean {near!r}?"
    return f": there are {', '.join(names)}" if names else ""
