"""A column of parts that follow each other: the parts may have it in different kinds, and are brought together in the one that has the values of all."""
import datetime
from array import array
from decimal import Decimal
from fractions import Fraction
from functools import reduce
from typing import Any, Dict, Iterable, List, NamedTuple, Optional, Sequence, Tuple

from .checks import LEAST
from .columns import Column
from .errors import Refused
from .kinds import Booleans, Choices, Floats, Kind, NotRead, Texts, Times, Whole
from .kinds.moments import Dates, are_of_one_name, nanoseconds_of
from .kinds.numbers import Number
from .missing import WORDS, folded


class Nothing(Kind):
    """The kind of a column in whose part each value is missing. Any term may be asked of it, and it goes together with each other kind. Where no part has a value, the
    column has the kind `of` which its type is in a DataFrame, if it has such a type."""

    name = "nothing"
    takes_words = True

    def __init__(self, of: Optional[Kind] = None) -> None:
        self.of = of

    def read(self, text: str) -> int:
        raise NotRead(f"{text!r} is in a column without values")

    def encode(self, value: Any) -> int:
        raise NotRead(f"{value!r} is in a column without values")

    def find(self, text: str) -> Optional[int]:
        return None

    def position(self, text: str) -> Fraction:
        return Fraction(0)


class Undecided(Texts):
    """The kind of a column of a file whose cells are all words such as n/a: they are missing beside values of another kind, and texts beside texts."""

    takes_words = True


class Segment(NamedTuple):
    """A column of some parts, its numbers, and the part from which its kind comes, as it is called in what is said."""

    column: Column
    numbers: "array[int]"
    source: str

    @staticmethod
    def of(column: Column, numbers: Iterable[int], source: str, *, is_given: bool = False, has_words: bool = False) -> "Segment":
        """The segment of one part, whose kind counts only where it `is_given` or there is a value. Where the part `has_words`, these are perhaps missing in a column of
        which no kind is given."""
        found = numbers if isinstance(numbers, array) else array("q", numbers)
        kind = column.kind
        if not is_given and found.count(LEAST) == len(found):
            kind = Nothing(None if isinstance(kind, Texts) else kind)
        elif has_words and not is_given and isinstance(kind, Texts) and all(folded(text) in WORDS for text in kind.texts):
            kind = Undecided(kind.texts)
        own = column.of_kind(kind)
        own.has_gaps = LEAST in found
        return Segment(own, found, source)

    def at(self, places: Iterable[int]) -> "Segment":
        """The same of these rows."""
        return self._replace(numbers=array("q", [self.numbers[place] for place in places]))

    def without_rows(self) -> "Segment":
        """The column alone, of which no row is there."""
        return self._replace(numbers=array("q"))

    def words(self) -> Dict[str, int]:
        """The words of a column of nothing else, each with the number of its rows."""
        kind = self.column.kind
        return {kind.decode(number): self.numbers.count(number) for number in set(self.numbers) - {LEAST}} if isinstance(kind, Undecided) else {}

    def views(self) -> "List[Segment]":
        """What the column may turn out to be: its words are texts, or they are missing."""
        if not isinstance(self.column.kind, Undecided):
            return [self]
        missing = self.column.of_kind(Nothing())
        missing.has_gaps = True
        return [as_in_a_frame(self), self._replace(column=missing, numbers=array("q", [LEAST]) * len(self.numbers))]

    def alone(self) -> "Segment":
        """The same with a code book of just the texts that its rows have."""
        return joined([self]) if isinstance(self.column.kind, Texts) else self


def as_in_a_frame(segment: Segment) -> Segment:
    """A column of whose rows none has a value, or a word that may be one, is one of texts, as in a frame, where no type says what it is."""
    kind = segment.column.kind
    if isinstance(kind, Nothing):
        return segment._replace(column=segment.column.of_kind(kind.of or Texts()))
    return segment._replace(column=segment.column.of_kind(Texts(kind.texts))) if isinstance(kind, Undecided) else segment


def joined(segments: Sequence[Segment]) -> Segment:
    """The column of parts that follow each other. Kinds that do not go together, and a value that the wider one does not have, are `Refused`.

    >>> from array import array
    >>> some = joined([Segment(Column("price", "whole"), array("q", [60]), "may.csv"), Segment(Column("price", "decimal(2)"), array("q", [4990]), "june.csv")])
    >>> some.column, list(some.numbers)
    (Column('price', 'decimal(2)'), [6000, 4990])
    """
    with_values = [segment for segment in segments if not isinstance(segment.column.kind, (Nothing, Undecided))]
    with_words = [segment for segment in segments if isinstance(segment.column.kind, Undecided)]
    with_types = [segment for segment in segments if isinstance(segment.column.kind, Nothing) and segment.column.kind.of]
    widest = reduce(_wider, with_values or with_words[:1] or with_types[:1] or segments[:1])
    kind = type(widest.column.kind)() if isinstance(widest.column.kind, Texts) else widest.column.kind
    column = widest.column.of_kind(kind)
    numbers = array("q")
    for segment in segments:
        numbers.extend(_moved(segment, kind))
    column.has_gaps = LEAST in numbers
    column.dtype = column.dtype if all(type(column.dtype) is type(other.column.dtype) and column.dtype == other.column.dtype for other in segments) else None
    return Segment(column, numbers, widest.source)


def are_alike(one: Kind, other: Kind) -> bool:
    """Whether two kinds have the same numbers for the same values, but for the codes of texts."""
    if type(one) is not type(other) or isinstance(one, Choices) and isinstance(other, Choices) and not are_alike(one.of, other.of):
        return False
    return isinstance(one, (Booleans, Dates)) or repr(one) == repr(other)


def _wider(first: Segment, second: Segment) -> Segment:
    """The one of two segments whose kind has the values of both."""
    one, other = first.column.kind, second.column.kind
    if are_alike(one, other):
        return first
    if isinstance(one, Number) and isinstance(other, Number):
        return max(first, second, key=lambda segment: _fineness(segment.column.kind))
    if _have_one_line_of_time(one, other):
        finer = max(first, second, key=lambda segment: _fineness(segment.column.kind))
        kind = finer.column.kind
        if not isinstance(kind, Times) or are_of_one_name(_zone(one), _zone(other)):
            return finer
        return finer._replace(column=finer.column.of_kind(type(kind)(datetime.timezone.utc)))
    raise Refused(f"column {first.column.name!r} is {one} in {first.source} and {other} in {second.source}: "
                  "give it by kinds={..} a kind that reads the values of both, or mend one of them", "table")


def _fineness(kind: Kind) -> Tuple[int, int]:
    """How fine a kind of numbers or times is among its like: floats are the finest of the numbers."""
    if isinstance(kind, Whole):
        return 0, kind.decimals
    return 1, -kind.nanoseconds if isinstance(kind, Times) else -10**15 if isinstance(kind, Dates) else 0


def _zone(kind: Kind) -> Optional[datetime.tzinfo]:
    return kind.zone if isinstance(kind, Times) else None


def _have_one_line_of_time(one: Kind, other: Kind) -> bool:
    """Whether both are dates or times, all with a time zone or all without."""
    return all(isinstance(kind, (Dates, Times)) for kind in (one, other)) and (_zone(one) is None) == (_zone(other) is None)


def _moved(segment: Segment, kind: Kind) -> "array[int]":
    """The numbers of a segment in a column of this kind."""
    own = segment.column.kind
    if isinstance(own, Undecided) and not isinstance(kind, Texts):
        return array("q", [LEAST]) * len(segment.numbers)
    if isinstance(own, Nothing) or not isinstance(own, Texts) and are_alike(own, kind):
        return segment.numbers
    codes: Dict[int, int] = {number: number if number == LEAST else _number(segment, number, kind) for number in dict.fromkeys(segment.numbers)}
    return array("q", map(codes.__getitem__, segment.numbers))


def _number(segment: Segment, number: int, kind: Kind) -> int:
    value = segment.column.kind.decode(number)
    try:
        if isinstance(kind, Floats) and isinstance(value, Decimal):
            return kind.encode(_float(value))
        if isinstance(kind, Times) and not isinstance(value, datetime.datetime):
            return kind.encode(datetime.datetime.combine(value, datetime.time()))
        return kind.encode(value)
    except (TypeError, ValueError) as why:
        raise Refused(f"column {segment.column.name!r} is {segment.column.kind} in {segment.source}, and {kind} in another part: {why}", "table") from None


def _float(value: Decimal) -> float:
    """The float that is shown as this number."""
    found = float(value)
    if Decimal(repr(found)) != value:
        raise NotRead(f"{value} is no 64-bit float")
    return found


def check_zones(segments: Sequence[Segment], texts: Sequence[str]) -> None:
    """Refuses times of several zones, where these texts are written beside them, which name none, and one would be another moment in each part. Two zones of one name
    may differ: pytz knows of no summer behind 2037."""
    times = [segment for segment in segments if isinstance(segment.column.kind, Times)]
    for first, other in zip(times, times[1:]):
        one, second = _zone(first.column.kind), _zone(other.column.kind)
        are_one = are_of_one_name(one, second)
        written = next((text for text in reversed(texts) if not are_one or one is not second and _moment(text, one) != _moment(text, second)), None)
        if written is not None:
            raise _two_meanings(first, other, f"{written!r} would be another moment in each: write its offset, as in '2026-05-01 17:30+02:00', or give the column a zone by "
                                "kinds={..}, such as 'time(UTC)'")


def _moment(text: str, zone: Optional[datetime.tzinfo]) -> Optional[int]:
    """What a text without a zone means in one; None where it is no time there."""
    try:
        return nanoseconds_of(text, zone)
    except NotRead:
        return None


def check_one_line_of_time(segments: Sequence[Segment]) -> None:
    """Refuses dates in one part and times in another: what is computed over them in each part would not be the same."""
    moments = [segment for segment in segments if isinstance(segment.column.kind, (Dates, Times))]
    for first, other in zip(moments, moments[1:]):
        if isinstance(first.column.kind, Times) != isinstance(other.column.kind, Times):
            raise _two_meanings(first, other, "a condition or an expression would mean something else in each: give the column one kind by kinds={..}")


def _two_meanings(first: Segment, second: Segment, why: str) -> Refused:
    return Refused(f"column {first.column.name!r} is {first.column.kind} in {first.source} and {second.column.kind} in {second.source}, so that {why}", "table")
