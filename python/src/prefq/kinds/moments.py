"""Columns of dates, of dates with times, and of times of day."""
import datetime
import re
from fractions import Fraction
from typing import Any, List, Optional, Sequence, Union

from ..errors import NotRead
from .at_once import are_days
from .kind import Kind, quoted

DAY = re.compile(r"\d{4}-\d\d-\d\d", re.ASCII)
HOURS = r"(\d\d:\d\d)(?:(:\d\d)(?:[.,](\d{1,9}))?)?"
# Zones of before 1900 have seconds.
MOMENT = re.compile(rf"(\d{{4}}-\d\d-\d\d)(?:[T ]{HOURS}\s*(Z|[+-]\d\d:?\d\d(?::\d\d)?)?)?", re.ASCII)
TIME_OF_DAY = re.compile(HOURS, re.ASCII)
# A sign of a format; and the numbers, the words and what else stands in a text.
SIGN = re.compile("%.", re.DOTALL)
WORD = re.compile(r"\d+|[^\W\d]+|[^\w\s]")
EPOCH = datetime.datetime(1970, 1, 1)
MICROSECOND = datetime.timedelta(microseconds=1)
DAY_LONG = datetime.timedelta(days=1)
# Times by which a zone shows that it has several offsets.
THROUGH_THE_YEARS = [datetime.datetime(year, month, 1) for year in (1900, 1945, 1980, 2000, 2026, 2100) for month in range(1, 13)]
# What a zone's class raises that does not take what it is asked; an interruption is none of these.
OF_A_ZONE = (ArithmeticError, AttributeError, LookupError, NotImplementedError, TypeError, ValueError)
# A date and a time that tell apart what a format has; and one whose day may be a month.
SAMPLE = datetime.datetime(2031, 12, 25, 23, 58, 59)
TURNED = datetime.datetime(2031, 12, 11, 10, 9, 8, 7)


class Format:
    """The format of a date or a time, in the signs of Python's strptime, as %d.%m.%Y. Where it has a year of two digits, one of four is read too. A text that strptime
    reads, and the format would write otherwise, but for zeros in front, blanks and the case of letters, is refused.

    What ISO 8601 writes is read beside it, unless the format has texts of that look for other dates.
    """

    def __init__(self, signs: str, what: str, *, has_hours: bool) -> None:
        self.signs, self.what = signs, what
        # The same with a year of four digits, where it has one of two alone.
        self._long = signs if "%Y" in signs else signs.replace("%y", "%Y")
        try:
            back = datetime.datetime.strptime(SAMPLE.strftime(signs), signs)
        except (ValueError, re.error) as why:       # the second where a sign stands there twice
            raise ValueError(f"the format {signs!r} cannot be read: {why}") from None
        if back.date() != SAMPLE.date() or has_hours and back.hour != SAMPLE.hour or "%z" in signs.lower():
            raise ValueError(f"the format {signs!r} is not that of a {what}: it has %d, %m and %Y" + (" and %H" if has_hours else ""))
        looks = [str(TURNED.date()), *(TURNED.isoformat(sign, unit) for sign in " T" for unit in ("minutes", "seconds", "microseconds"))]
        self._leaves_iso = all(parsed is None or parsed.date() == TURNED.date() for parsed in map(self._parsed, looks))

    def read(self, text: str) -> Optional[datetime.datetime]:
        """What a text of the format says; None where it is one of ISO 8601, which is read as such."""
        if self._leaves_iso and MOMENT.fullmatch(text.strip()):
            return None
        found = self._parsed(text)
        if found is None:
            raise NotRead(f"{text!r} is no {self.what} such as {SAMPLE.strftime(self.signs)}")
        return found

    def written(self, value: Any) -> str:
        """The value as the format has it, where that says all of it, and else as ISO 8601 has it."""
        text = written_by(self._long, value)
        back = self._parsed(text)
        plain = value.replace(tzinfo=None) if isinstance(value, datetime.datetime) else datetime.datetime.combine(value, datetime.time())
        return text if back == plain else str(value)

    def _parsed(self, text: str) -> Optional[datetime.datetime]:
        for signs in dict.fromkeys((self.signs, self._long)):
            try:
                found = datetime.datetime.strptime(text.strip(), signs)
            except ValueError:
                continue
            if says(text.strip(), found, signs):
                return found
        return None


class Dates(Kind):
    """Dates. A distance is a number of days. A text is as ISO 8601 writes a date, or as a format does."""

    name = "date"
    example = "'2026-05-01'"

    def __init__(self, format: Optional[str] = None) -> None:
        self._format = None if format is None else Format(format, "date", has_hours=False)

    def __repr__(self) -> str:
        return f"date({quoted(self._format.signs)})" if self._format else "date"

    def read(self, text: str) -> int:
        found = self._format.read(text) if self._format else None
        if found is not None and found.time() != datetime.time():
            raise NotRead(f"{text!r} has a time of day beside its date")
        return (day(text) if found is None else found).toordinal()

    def read_all(self, texts: Sequence[str]) -> Optional[List[int]]:
        if self._format or not are_days(texts):
            return None
        try:
            return [found.toordinal() for found in map(datetime.date.fromisoformat, texts)]
        except ValueError:
            return None

    def encode(self, value: Any) -> int:
        if isinstance(value, str):
            return self.read(value)
        if isinstance(value, datetime.datetime) or not isinstance(value, datetime.date):
            raise TypeError(f"{value!r} is no date")
        return value.toordinal()

    def decode(self, number: int) -> datetime.date:
        return datetime.date.fromordinal(number)

    def find(self, text: str) -> Optional[int]:
        """Dates of a question are as ISO 8601 has them."""
        return day(text).toordinal()

    def position(self, text: str) -> Fraction:
        return Fraction(day(text).toordinal())

    def text(self, value: Any) -> str:
        return self._format.written(value) if self._format else str(value)


class Times(Kind):
    """Dates with times, exact to a microsecond: with a time zone, in which they are shown, or without one.

    A text is as ISO 8601 writes one, or as a format does; without a zone it is one of the column's zone. A time that the clocks there show twice, or skip, is
    refused.
    """

    name = "time"
    example = "'2026-05-01 17:30'"
    nanoseconds, unit = 1000, "microsecond"

    def __init__(self, zone: Optional[datetime.tzinfo] = None, format: Optional[str] = None) -> None:
        self.zone = zone
        self._format = None if format is None else Format(format, "date with a time", has_hours=True)

    def __repr__(self) -> str:
        inside = [*([name_of(self.zone)] if self.zone else []), *([quoted(self._format.signs)] if self._format else [])]
        return f"time({', '.join(inside)})" if inside else "time"

    def read(self, text: str) -> int:
        found = self._format.read(text) if self._format else None
        return self._whole(self.position(text if found is None else str(found)), text)

    def encode(self, value: Any) -> int:
        if isinstance(value, str):
            return self.read(value)
        if not isinstance(value, datetime.datetime):
            raise TypeError(f"{value!r} is no date with a time")
        return self._whole(Fraction(since_epoch(self.moment(value)) + getattr(value, "nanosecond", 0), self.nanoseconds), value)

    def moment(self, value: datetime.datetime) -> datetime.datetime:
        """A time as one of UTC, without its zone. One that has a zone where the column has none is refused, or the other way round."""
        if (value.tzinfo is None) != (self.zone is None):
            raise NotRead(f"{value} has {'a' if value.tzinfo else 'no'} time zone, other than the rest of the column")
        return checked_moment(value)

    def _whole(self, position: Fraction, value: Any) -> int:
        if position.denominator != 1:
            raise NotRead(f"{value} has parts of a {self.unit}")
        if self.zone is not None and not is_shown_by(self.zone, position.numerator * self.nanoseconds):
            raise NotRead(f"{value} lies outside the years 1 to 9999 in the time zone of the column")
        return position.numerator

    def decode(self, number: int) -> datetime.datetime:
        value = EPOCH + number * MICROSECOND
        return value.replace(tzinfo=datetime.timezone.utc).astimezone(self.zone) if self.zone else value

    def find(self, text: str) -> Optional[int]:
        position = self.position(text)
        return position.numerator if position.denominator == 1 else None

    def position(self, text: str) -> Fraction:
        """Times of a question are as ISO 8601 has them."""
        return Fraction(nanoseconds_of(text, self.zone), self.nanoseconds)

    def text(self, value: Any) -> str:
        text = self._format.written(value) if self._format else str(value)
        return text if self._format is None or self.zone is None or self._is_read_as(text, value) else str(value)

    def _is_read_as(self, text: str, value: Any) -> bool:
        """Whether a text without a zone is read as this value: the clocks of a zone show some times twice."""
        try:
            return self.read(text) == self.encode(value)
        except ValueError:
            return False


class Clock(Kind):
    """Times of day, exact to a microsecond. A distance is within the day. A text is as ISO 8601 writes one: 17:30, 17:30:05 or 17:30:05.25."""

    name = "clock"
    example = "'17:30'"

    def read(self, text: str) -> int:
        found = TIME_OF_DAY.fullmatch(text.strip())
        if not found:
            raise NotRead(f"{text!r} is no time of day, such as 17:30")
        minute, second, part = found.groups()
        try:
            number = self.encode(datetime.time.fromisoformat(minute + (second or "")))
        except ValueError as why:
            raise NotRead(f"{text!r} is no time of day: {why}") from None
        microseconds, rest = divmod(nanoseconds_in(part), 1000)
        if rest:
            raise NotRead(f"{text!r} has parts of a microsecond")
        return number + microseconds

    def encode(self, value: Any) -> int:
        if isinstance(value, str):
            return self.read(value)
        if not isinstance(value, datetime.time) or value.tzinfo is not None:
            raise TypeError(f"{value!r} is no time of day without a zone")
        return ((value.hour * 60 + value.minute) * 60 + value.second) * 10**6 + value.microsecond

    def decode(self, number: int) -> datetime.time:
        return (EPOCH + number * MICROSECOND).time()


def written_by(signs: str, value: datetime.date, fraction: str = "%f") -> str:
    """What a format writes for a value, with four digits for any year, and such digits behind the second."""
    if value.year > 999 and fraction == "%f":
        return value.strftime(signs)
    own = {"%Y": f"{value.year:04}", "%f": fraction}
    return value.strftime(SIGN.sub(lambda found: own.get(found[0], found[0]), signs))


def says(text: str, value: datetime.datetime, signs: str) -> bool:
    """Whether a text that strptime read by a format says nothing else than the value, as it does where digits run together, so that another date may be meant
    (1052026 for 1 May), or where a weekday, the day of the year, or AM and PM tell of another one."""
    if written_by(signs, value) == text:
        return True
    digits = f"{value.microsecond:06}"
    fractions = [digits[:count] for count in range(1, 7) if not digits[count:].strip("0")] if "%f" in signs else [""]
    return any(words_in(written_by(signs, value, fraction)) == words_in(text) for fraction in fractions)


def words_in(text: str) -> List[Union[int, str]]:
    """The numbers, words and signs of a text: without blanks, zeros in front, and the case of letters."""
    return [int(word) if word.isdecimal() else word.casefold() for word in WORD.findall(text)]


def day(text: str) -> datetime.date:
    """A date as ISO 8601 writes it."""
    try:
        if DAY.fullmatch(text.strip()):
            return datetime.date.fromisoformat(text.strip())
    except ValueError:
        pass
    raise NotRead(f"{text!r} is no date such as 2026-05-01")


def nanoseconds_of(text: str, zone: Optional[datetime.tzinfo]) -> int:
    """The nanoseconds since 1970 of a date, or a date with a time, as ISO 8601 writes it. Without a zone it is one of the zone that is given, or of none."""
    found = MOMENT.fullmatch(text.strip())
    if not found:
        raise NotRead(f"{text!r} is no date with a time, such as 2026-05-01 17:30")
    date, minute, second, part, offset = found.groups()
    try:
        value = datetime.datetime.fromisoformat(f"{date} {minute or '00:00'}{second or ':00'}")
    except ValueError as why:
        raise NotRead(f"{text!r} is no date with a time: {why}") from None
    if offset and zone is None:
        raise NotRead(f"{text!r} has a time zone, other than the rest of the column")
    if offset:
        value = universal(value.replace(tzinfo=zone_of(offset)))
    elif zone is not None:
        value = shown_by(value, zone)
    return since_epoch(value) + nanoseconds_in(part)


def is_shown_by(zone: datetime.tzinfo, nanoseconds: int) -> bool:
    """Whether the clocks of a zone show a moment as a time that Python has. By that of UTC they differ by less than a day."""
    if nanoseconds in SHOWN_BY_ALL:
        return True
    try:
        (EPOCH + nanoseconds // 1000 * MICROSECOND).replace(tzinfo=datetime.timezone.utc).astimezone(zone)
    except OverflowError:
        return False
    return True


def nanoseconds_in(part: Optional[str]) -> int:
    """The nanoseconds of the digits behind a second."""
    return int((part or "").ljust(9, "0"))


def since_epoch(value: datetime.datetime) -> int:
    """The nanoseconds since 1970, to a microsecond."""
    return (value - EPOCH) // MICROSECOND * 1000


SHOWN_BY_ALL = range(since_epoch(datetime.datetime.min + DAY_LONG), since_epoch(datetime.datetime.max - DAY_LONG))


def offset_of(text: str) -> Optional[datetime.tzinfo]:
    """The zone that a date with a time names, if it names one."""
    found = MOMENT.fullmatch(text.strip())
    return zone_of(found[5]) if found and found[5] else None


def zone_of(offset: str) -> datetime.tzinfo:
    """The zone of Z or of an offset such as +02:00."""
    if offset == "Z":
        return datetime.timezone.utc
    digits = offset[1:].replace(":", "")
    hours, minutes, seconds = int(digits[:2]), int(digits[2:4]), int(digits[4:] or 0)
    if hours > 23 or minutes > 59 or seconds > 59:
        raise NotRead(f"{offset} is no offset of a time zone")
    distance = datetime.timedelta(hours=hours, minutes=minutes, seconds=seconds)
    return datetime.timezone(-distance if offset[0] == "-" else distance)


def name_of(zone: datetime.tzinfo) -> str:
    """The name of a zone in the spelling of a kind: UTC+02:00, or that of the system."""
    offset = only_offset_of(zone)
    return str(zone if offset is None else datetime.timezone(offset))


def only_offset_of(zone: datetime.tzinfo) -> Optional[datetime.timedelta]:
    """The offset of a zone that has one for good. A class of somebody's own may fail without a time, or have another offset in summer than without one, as those do
    that Python's documentation shows."""
    if isinstance(zone, datetime.timezone):
        return zone.utcoffset(None)
    try:
        offset = zone.utcoffset(None)
        return offset if offset is None or all(zone.utcoffset(time.replace(tzinfo=zone)) == offset for time in THROUGH_THE_YEARS) else None
    except OF_A_ZONE:
        return None


def are_of_one_name(one: Optional[datetime.tzinfo], other: Optional[datetime.tzinfo]) -> bool:
    """Whether two zones have one name, or are both none: pytz has a zone of its own for each offset, as in summer and in winter, and Python another one."""
    return one is other or one is not None and other is not None and name_of(one) == name_of(other)


def shows_times(zone: datetime.tzinfo) -> bool:
    """Whether a zone says what its clocks show at a moment. A class of somebody's own may know no more than the offset of a time that is given."""
    try:
        return EPOCH.replace(tzinfo=datetime.timezone.utc).astimezone(zone) is not None
    except OF_A_ZONE:
        return False


def universal(value: datetime.datetime) -> datetime.datetime:
    """A time with a zone as one of UTC, without its zone; one without a zone as it is. What lies outside Python's years is refused, and what has a zone without an
    offset, which Python takes for a time of this computer's."""
    if value.tzinfo is None:
        return value
    if value.utcoffset() is None:
        raise NotRead(f"{value} is no moment: {value.tzinfo} says no offset")
    try:
        return value.astimezone(datetime.timezone.utc).replace(tzinfo=None)
    except OverflowError:
        raise NotRead(f"{value} lies outside the years 1 to 9999") from None


def checked_moment(value: datetime.datetime) -> datetime.datetime:
    """A time as one of UTC, without its zone. One that the clocks of its zone skip, which would come back as another, is refused."""
    found = universal(value)
    if value.tzinfo is not None and not isinstance(value.tzinfo, datetime.timezone) and is_shown_otherwise(found, value):
        raise NotRead(f"{value} is no moment: the clocks of {value.tzinfo} skip this time")
    return found


def is_shown_otherwise(moment: datetime.datetime, value: datetime.datetime) -> bool:
    """Whether the clocks of the zone of a time show its moment, a time of UTC, as another time."""
    try:
        return moment.replace(tzinfo=datetime.timezone.utc).astimezone(value.tzinfo) != value
    except ValueError:
        return False        # The zone does not say what its clocks show.


def in_zone(local: datetime.datetime, zone: datetime.tzinfo, is_later: bool) -> datetime.datetime:
    """A time of the clocks of a zone; the later one where they show it twice."""
    localize = getattr(zone, "localize", None)      # zones of pytz have their offsets only by this
    if localize is None:
        return local.replace(tzinfo=zone, fold=int(is_later))
    try:
        return localize(local, is_dst=not is_later)  # type: ignore[no-any-return]
    except OverflowError:       # It looks a day ahead and a day back.
        near = localize(local + DAY_LONG if local.year == 1 else local - DAY_LONG, is_dst=not is_later)
        return local.replace(tzinfo=near.tzinfo)


def shown_by(local: datetime.datetime, zone: datetime.tzinfo) -> datetime.datetime:
    """The time of UTC at which the clocks of a zone show this time; refused where they show it twice, or skip it."""
    found: List[datetime.datetime] = []
    for is_later in (False, True):
        moment = universal(in_zone(local, zone, is_later))
        back = moment.replace(tzinfo=datetime.timezone.utc).astimezone(zone).replace(tzinfo=None)
        if back == local and moment not in found:
            found.append(moment)
    if len(found) == 1:
        return found[0]
    what = "show this time twice: give its offset, as in 2026-10-25 02:30+01:00" if found else "skip this time"
    raise NotRead(f"{local} is no one moment: the clocks of {zone} {what}")
