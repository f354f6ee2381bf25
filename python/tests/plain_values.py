"""What a text means in a column of each kind, read from the left one letter after the other, as docs/PYTHON.md says it.

Nothing of the package is used here. Each function returns the value, or REFUSED where the text is none of its kind.
"""
import datetime
import unicodedata
from fractions import Fraction

REFUSED = "refused"
MOST = 2**63 - 1
# Python reads no number of more digits.
MOST_DIGITS = 4300
UTC = datetime.timezone.utc
TRUE, FALSE = ("true", "yes"), ("false", "no")


class Scanner:
    """Takes letters from the left of a text."""

    def __init__(self, text):
        self.text, self.at = text, 0

    @property
    def is_at_end(self):
        return self.at == len(self.text)

    def takes(self, word):
        """Takes this word, if it is next."""
        if not word or not self.text.startswith(word, self.at):
            return False
        self.at += len(word)
        return True

    def take_any(self, letters):
        """One of these letters, if it is next."""
        return next((letter for letter in letters if self.takes(letter)), "")

    def skip_blanks(self):
        while not self.is_at_end and self.text[self.at].isspace():
            self.at += 1

    def digits(self, most=10**9):
        """The digits that are next, of any script, as a text of 0 to 9."""
        found = ""
        while not self.is_at_end and len(found) < most and unicodedata.decimal(self.text[self.at], None) is not None:
            found += str(unicodedata.decimal(self.text[self.at]))
            self.at += 1
        return found

    def exactly(self, count):
        """So many digits of 0 to 9, as a number; None where there are others."""
        found = self.text[self.at:self.at + count]
        if len(found) != count or not (found.isascii() and found.isdigit()):
            return None
        self.at += count
        return int(found)


def number(text, decimal=".", thousands="", unit="", parentheses=False):
    """The exact number of a text. In a form that is not plain there may be blanks behind the sign and round the unit."""
    scanner = Scanner(text.strip())
    is_plain = (decimal, thousands, unit, parentheses) == (".", "", "", False)
    opened = parentheses and scanner.takes("(")
    if opened:
        scanner.skip_blanks()
    sign = scanner.take_any("+-")
    if sign and not is_plain:
        scanner.skip_blanks()
    before = scanner.takes(unit)
    if unit:
        scanner.skip_blanks()
    whole = _grouped(scanner, thousands) if thousands else scanner.digits()
    part = scanner.digits() if scanner.takes(decimal) else ""
    if not whole and not part or len(whole + part) > MOST_DIGITS:
        return REFUSED
    exponent = _exponent(scanner)
    if exponent is None:
        return REFUSED
    if unit or opened:
        scanner.skip_blanks()
    behind = scanner.takes(unit)
    if opened:
        scanner.skip_blanks()
    closed = parentheses and scanner.takes(")")
    if not scanner.is_at_end or opened != closed or opened and sign or before and behind:
        return REFUSED
    amount = Fraction(int(whole + part), 10**len(part)) * Fraction(10)**exponent
    return -amount if opened or sign == "-" else amount


def _grouped(scanner, thousands):
    """Digits that may have this sign between groups of three, none of which begins the number with a zero."""
    first = scanner.digits()
    whole = first
    while scanner.text.startswith(thousands, scanner.at):
        place = scanner.at
        scanner.takes(thousands)
        group = scanner.digits()
        if len(group) != 3 or not 1 <= len(first) <= 3 or first[0] == "0":
            scanner.at = place
            break
        whole += group
    return whole


def _exponent(scanner):
    """The exponent, 0 where there is none, None where one is begun and not written."""
    if not scanner.take_any("eE"):
        return 0
    sign = scanner.take_any("+-")
    digits = scanner.digits()
    return int(sign + digits) if 1 <= len(digits) <= 4 else None


def decimal_number(text, decimals=0, **form):
    """A whole number, or one with so many decimals at most, that fits 64 bits in units of the last one."""
    found = number(text, **form)
    if found == REFUSED or (found * 10**decimals).denominator != 1 or abs(found) * 10**decimals > MOST:
        return REFUSED
    return found


def binary_number(text, **form):
    word = text.strip().lower()
    if word.lstrip("+-") in ("inf", "infinity") and len(word) - len(word.lstrip("+-")) < 2:
        return float(word)
    found = number(text, **form)
    try:
        return REFUSED if found == REFUSED else float(found)
    except OverflowError:
        return REFUSED


def truth(text, true=None, false=None):
    word = text.strip().lower()
    own = {} if true is None else {true.lower(): True, false.lower(): False}
    return own.get(word, True if word in TRUE else False if word in FALSE else REFUSED)


def iso_date(text):
    scanner = Scanner(text.strip())
    found = _date(scanner)
    return found if found and scanner.is_at_end else REFUSED


def _date(scanner):
    year = scanner.exactly(4)
    month = scanner.exactly(2) if scanner.takes("-") else None
    day = scanner.exactly(2) if scanner.takes("-") else None
    try:
        return None if None in (year, month, day) else datetime.date(year, month, day)
    except ValueError:
        return None


def _clock(scanner):
    """The time of day, and its nanoseconds beyond a second; None where there is none."""
    hour = scanner.exactly(2)
    minute = scanner.exactly(2) if scanner.takes(":") else None
    second = nanoseconds = 0
    if scanner.takes(":"):
        second = scanner.exactly(2)
        if second is not None and scanner.take_any(".,"):
            digits = ""
            while len(digits) < 9 and not scanner.is_at_end and scanner.text[scanner.at] in "0123456789":
                digits += scanner.text[scanner.at]
                scanner.at += 1
            nanoseconds = int(digits.ljust(9, "0")) if digits else None
    try:
        return None if None in (hour, minute, second, nanoseconds) else (datetime.time(hour, minute, second), nanoseconds)
    except ValueError:
        return None


def clock(text):
    scanner = Scanner(text.strip())
    found = _clock(scanner)
    if found is None or not scanner.is_at_end or found[1] % 1000:
        return REFUSED
    return found[0].replace(microsecond=found[1] // 1000)


def moment(text, offsets=None):
    """A date with a time: one of UTC where `offsets` gives the offsets that the clocks may have at a local time, else one without a zone."""
    scanner = Scanner(text.strip())
    date = _date(scanner)
    time, offset = (datetime.time(), 0), None
    if date and not scanner.is_at_end:
        time = _clock(scanner) if scanner.take_any("T ") else None
        if time and not scanner.is_at_end:
            offset = _offset(scanner)
            time = None if offset is None else time
    if not date or not time or not scanner.is_at_end or time[1] % 1000 or offset is not None and offsets is None:
        return REFUSED
    local = datetime.datetime.combine(date, time[0].replace(microsecond=time[1] // 1000))
    try:
        possible = [offset] if offset is not None else offsets(local) if offsets else [datetime.timedelta()]
        return local - possible[0] if len(possible) == 1 else REFUSED
    except OverflowError:
        return REFUSED


def _offset(scanner):
    while scanner.take_any(" \t\n\r\f\v"):
        pass
    if scanner.takes("Z"):
        return datetime.timedelta()
    sign = scanner.take_any("+-")
    hours = scanner.exactly(2) if sign else None
    scanner.takes(":")
    minutes = scanner.exactly(2)
    seconds = scanner.exactly(2) if scanner.takes(":") else 0
    if None in (hours, minutes, seconds) or hours > 23 or minutes > 59 or seconds > 59:
        return None
    found = datetime.timedelta(hours=hours, minutes=minutes, seconds=seconds)
    return -found if sign == "-" else found


def offsets_in_berlin(local):
    """The offsets of the clocks in Berlin at a local time since 1996: an hour more from the last Sunday of March, 1:00 UTC, to that of October. Before 1893
    they showed the time of the sun."""
    if local.year < 1893:
        return [datetime.timedelta(minutes=53, seconds=28)]

    def change(month):
        last = datetime.datetime(local.year, month, 31, 1)
        return last - datetime.timedelta(days=(last.weekday() + 1) % 7)

    hours = [datetime.timedelta(hours=hours) for hours in (1, 2)]
    return [offset for offset in hours if (change(3) <= local - offset < change(10)) == (offset == hours[1])]


def german_date(text):
    """%d.%m.%Y, beside which ISO 8601 is read."""
    return _in_order(text, ".", "dmy", lambda: iso_date(text))


def american_date(text):
    """%m/%d/%y, with years of two digits or four."""
    return _in_order(text, "/", "mdy", lambda: iso_date(text), short_years=True)


def _in_order(text, sign, order, otherwise, short_years=False):
    parts = text.strip().split(sign)
    if len(parts) != 3 or not all(part.isascii() and part.isdigit() for part in parts):
        return otherwise()
    found = dict(zip(order, parts))
    year = int(found["y"]) if len(found["y"]) == 4 else (1900 if int(found["y"]) > 68 else 2000) + int(found["y"]) if short_years and len(found["y"]) == 2 else None
    try:
        return REFUSED if year is None or max(len(found["d"]), len(found["m"])) > 2 else datetime.date(year, int(found["m"]), int(found["d"]))
    except ValueError:
        return REFUSED


def choice(text, *choices):
    return text if text in choices else REFUSED
