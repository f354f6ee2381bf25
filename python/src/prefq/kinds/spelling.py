"""Kinds as they are spelled: whole, decimal(2), choice(S, M, L) and so on."""
import datetime
import re
from typing import Any, Callable, Dict, List, NamedTuple, Optional

from ..errors import Refused
from .booleans import Booleans
from .forms import Form
from .kind import Kind
from .moments import Clock, Dates, Times, zone_of
from .numbers import Decimals, Floats, Whole
from .texts import Choices, Texts

SPELLED = re.compile(r"(?P<name>[a-z]+)(?:\((?P<inside>.*)\))?", re.DOTALL)
OPTION = re.compile(r"\s*(?P<name>thousands|decimal|unit)\s*=")
WORD = re.compile(r"""\s*(?:"(?P<double>(?:[^"]|"")*)"|'(?P<single>(?:[^']|'')*)'|(?P<plain>[^,"'\s][^,]*))\s*(?P<end>,|$)""", re.DOTALL)
OFFSET = re.compile(r"UTC([+-]\d\d:\d\d(?::\d\d)?)")
THERE_ARE = "there are whole, decimal(2), float, bool, date, time, clock, text, choice(first, second, ..)"


class Word(NamedTuple):
    """A word in the parentheses of a kind, and whether it stands in quotes."""

    text: str
    is_quoted: bool


def kind_named(spelling: str) -> Kind:
    """The kind of a spelling.

    >>> kind_named('decimal(2, thousands=",")').encode("1,234.5")
    123450
    >>> kind_named('date("%d.%m.%Y")'), kind_named("choice(S, M, L)"), kind_named("bool(Y, N)")
    (date("%d.%m.%Y"), choice(S, M, L), bool(Y, N))
    """
    found = SPELLED.fullmatch(spelling.strip()) if isinstance(spelling, str) else None
    make = MAKERS.get(found["name"]) if found else None
    if found is None or make is None:
        raise Refused(f"no kind {spelling!r}: {THERE_ARE}", "table")
    try:
        return make(found["inside"])
    except ValueError as why:
        raise Refused(f"no kind {spelling!r}: {why}; {THERE_ARE}", "table") from None


def words_of(inside: Optional[str]) -> List[Word]:
    """The words in the parentheses, with commas between them."""
    found: List[Word] = []
    place = 0
    while inside is not None:
        word = WORD.match(inside, place)
        if not word:
            raise ValueError(f"{inside[place:].strip()!r} is no word in its parentheses")
        found.append(_unquoted(word))
        place = word.end()
        if not word["end"]:
            break
    return found


def _unquoted(word: "re.Match[str]") -> Word:
    for name, sign in (("double", '"'), ("single", "'")):
        if word[name] is not None:
            return Word(word[name].replace(sign * 2, sign), True)
    return Word(word["plain"].strip(), False)


def _form(inside: Optional[str]) -> Optional[Form]:
    """The form of numbers that stands behind the number of decimals, None where there is none."""
    found: Dict[str, Any] = {}
    place = 0
    while inside is not None:
        option = OPTION.match(inside, place)
        word = WORD.match(inside, option.end() if option else place)
        if not word or not option and _unquoted(word) != Word("parentheses", False):
            raise ValueError(f"a number has thousands=\",\", decimal=\",\", unit=\"€\" and parentheses, and not {inside[place:].strip()!r}")
        name = option["name"] if option else "parentheses"
        if name in found:
            raise ValueError(f"{name} stands there twice")
        found[name] = _unquoted(word).text if option else True
        place = word.end()
        if not word["end"]:
            break
    return None if inside is None else Form(**found)


def _decimals(inside: Optional[str]) -> Kind:
    found = re.fullmatch(r"\s*(?P<decimals>\d{1,3})\s*(?:,(?P<form>.*))?", inside or "", re.ASCII | re.DOTALL)
    if not found:
        raise ValueError("it begins with the number of decimals, as decimal(2)")
    return Decimals(int(found["decimals"]), _form(found["form"]))


def _booleans(inside: Optional[str]) -> Kind:
    words = words_of(inside)
    if len(words) not in (0, 2):
        raise ValueError("it has a word for true and one for false, as bool(Y, N), or none")
    return Booleans(*(word.text for word in words))


def _dates(inside: Optional[str]) -> Kind:
    words = words_of(inside)
    if len(words) > 1 or words and not words[0].is_quoted:
        raise ValueError('it has a format in quotes, as date("%d.%m.%Y"), or none')
    return Dates(*(word.text for word in words))


def _times(inside: Optional[str]) -> Kind:
    words = words_of(inside)
    formats = [word.text for word in words if word.is_quoted]
    zones = [word.text for word in words if not word.is_quoted]
    if len(formats) > 1 or len(zones) > 1:
        raise ValueError('it has a zone and a format in quotes, as time(Europe/Berlin, "%d.%m.%Y %H:%M")')
    return Times(zone_named(zones[0]) if zones else None, formats[0] if formats else None)


def zone_named(name: str) -> datetime.tzinfo:
    """The time zone of a name: UTC, UTC+02:00, or one of the system's, such as Europe/Berlin."""
    if name == "UTC":
        return datetime.timezone.utc
    offset = OFFSET.fullmatch(name)
    if offset:
        return zone_of(offset[1])
    from zoneinfo import ZoneInfo
    try:
        return ZoneInfo(name)
    except (LookupError, OSError, ValueError):
        raise ValueError(f"there is no time zone {name!r} on this system") from None


def _choices(inside: Optional[str]) -> Kind:
    """An ordered categorical without categories has no choices, and every value is missing."""
    if inside is None:
        raise ValueError("it has its choices in parentheses")
    return Choices([word.text for word in words_of(inside)] if inside.strip() else [])


def _plain(make: Callable[[], Kind]) -> Callable[[Optional[str]], Kind]:
    def made(inside: Optional[str]) -> Kind:
        if inside is not None:
            raise ValueError("it has no parentheses")
        return make()
    return made


MAKERS: Dict[str, Callable[[Optional[str]], Kind]] = {
    "whole": lambda inside: Whole(_form(inside)), "decimal": _decimals, "float": lambda inside: Floats(_form(inside)), "bool": _booleans, "date": _dates, "time": _times,
    "clock": _plain(Clock), "text": _plain(Texts), "choice": _choices}
