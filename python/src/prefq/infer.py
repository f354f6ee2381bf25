"""What kind a column has, from its values: texts of a file, or Python's values."""
import datetime
import re
from array import array
from decimal import Decimal
from typing import Any, Callable, Dict, Iterable, List, Optional, Sequence, Set, Tuple

from .checks import MOST
from .columns import is_missing
from .errors import Refused
from .kinds import Booleans, Clock, Dates, Decimals, Floats, Kind, Texts, Times, Whole, kind_named
from .kinds.at_once import MOST_DECIMALS, PlainTexts
from .kinds.booleans import WORDS as WORDS_OF_TRUTH
from .kinds.booleans import is_truth
from .kinds.forms import NUMBER, PLAIN, Form
from .kinds.moments import DAY, MOMENT, are_of_one_name, offset_of, shows_times
from .kinds.numbers import FLOAT, WIDE, Number, decimals_of, is_number, shown
from .missing import WORDS, folded

WHOLE = re.compile(r"[+-]?\d+")
# What numbers and dates begin with.
FIRST_SIGNS = frozenset("0123456789+-.")
# So many texts are looked at for what is said of a column.
LOOKED_AT = 2000
MOST_PROPOSED = 3
# The kinds of values that are all of one type of Python.
PLAIN_KINDS: Dict[Any, Callable[[], Kind]] = {str: Texts, bool: Booleans, int: Whole, datetime.date: Dates, datetime.time: Clock}


def kind_of_texts(texts: Sequence[str], form: Form = PLAIN) -> Kind:
    """The kind of a column whose values stand in a file, each once, without what is missing; its numbers have this form."""
    if not texts or is_text(texts[0].strip(), form):
        return Texts()
    at_once = plain_column(texts) if form.is_plain else None
    if at_once is not None:
        return at_once[0]
    found = [text.strip() for text in texts]
    if all(text.lower() in WORDS_OF_TRUTH for text in found):
        return Booleans()
    plain = plain_numbers(found, form)
    if plain is not None:
        return kind_of_numbers(plain) if not any(map(has_zero_in_front, plain)) else Texts()
    if all(map(MOMENT.fullmatch, found)):
        return _kind_of_moments(found)
    return Texts()


def is_text(text: str, form: Form) -> bool:
    """Whether a text is a value of no other kind."""
    return text.lower() not in WORDS_OF_TRUTH and not FLOAT.fullmatch(text) and form.plain(text) is None and not MOMENT.fullmatch(text)


def plain_column(texts: Sequence[str]) -> "Optional[Tuple[Kind, array[int]]]":
    """The kind and the numbers of a column of plain whole numbers, decimals or dates without gaps, found all at once; None where it may be any other column."""
    if not texts or texts[0][:1] not in FIRST_SIGNS:
        return None
    if DAY.fullmatch(texts[0]):
        days = Dates().read_all(texts)
        return None if days is None else (Dates(), array("q", days))
    plain = PlainTexts.of(texts)
    if plain is None or plain.have_codes or plain.decimals > MOST_DECIMALS:
        return None
    numbers = plain.scaled(plain.decimals)
    try:
        return None if numbers is None else (Whole() if plain.are_whole else Decimals(plain.decimals), array("q", numbers))
    except OverflowError:
        return None


def most_decimals(texts: Sequence[str]) -> int:
    """How many decimals plain numbers without exponents have at most."""
    return max((len(part) for _, _, part in (text.partition(".") for text in texts)), default=0)


def plain_numbers(texts: Sequence[str], form: Form) -> Optional[List[str]]:
    """The numbers in their plain form, infinities among them; None where one of the texts is none."""
    plain = form.all_plain(texts)
    if plain is None and all(FLOAT.fullmatch(text) or form.plain(text) is not None for text in texts):
        # A number that is none of the form is no infinity either.
        plain = [form.plain(text) or text for text in texts]
        if any(NUMBER.fullmatch(text) and form.plain(text) is None for text in texts):
            return None
    return plain


def kind_of_numbers(texts: Sequence[str]) -> Kind:
    """Whole numbers or decimals where they fit; floats where nothing is lost by that; else texts, which keep them as they are."""
    if all(map(NUMBER.fullmatch, texts)):
        has_exponents = any("e" in text or "E" in text for text in texts)
        decimals = max(map(decimals_of, texts)) if has_exponents else most_decimals(texts)
        if decimals <= MOST_DECIMALS and max(Decimal(text).copy_abs() for text in texts) <= Decimal(MOST).scaleb(-decimals, WIDE):
            return Whole() if all(map(WHOLE.fullmatch, texts)) else Decimals(decimals)
    return Floats() if first_inexact(texts) is None else Texts()


def has_zero_in_front(text: str) -> bool:
    """Whether these are digits of a postal code, an article number or a day, such as 01E5 and 01.10, in any script: as a number they would lose their zeros."""
    digits = text.lstrip("+-").lower().partition("e")[0].partition(".")[0]
    return len(digits) > 1 and digits.isdecimal() and int(digits[0]) == 0


def first_inexact(texts: Iterable[str]) -> Optional[str]:
    """The first number that a float does not keep."""
    return next((text for text in texts if NUMBER.fullmatch(text) and Decimal(repr(float(text))) != Decimal(text)), None)


def _kind_of_moments(texts: List[str]) -> Kind:
    """Dates, or dates with times that have one time zone or all have none."""
    try:
        kind: Kind = Dates()
        if not all(map(DAY.fullmatch, texts)):
            zones = {offset_of(text) for text in texts}
            if None in zones and len(zones) > 1:
                return Texts()
            kind = Times(zones.pop() if len(zones) == 1 else datetime.timezone.utc)
        if kind.read_all(texts) is None:
            for text in texts:
                kind.read(text)
        return kind
    except ValueError:
        return Texts()


def kind_of_values(name: str, values: Sequence[Any], ids: Optional[Sequence[Any]] = None, what: str = "row") -> Kind:
    """The kind of a column of Python's values, where those that are missing are left out. Where there is none, the first value that does not go together with those
    before is named with its row, or `what` else has the ids."""
    present = [value for value in values if not is_missing(value)]
    kind = _kind_of_types({_type_of(value) for value in present}, present)
    if kind is not None:
        return kind
    types: Set[Any] = set()
    for place, value in enumerate(values):
        if not is_missing(value):
            types.add(_type_of(value))
            if _kind_of_types(types, [value]) is None:
                break
    names = " and ".join(sorted(found if isinstance(found, str) else found.__name__ for found in types))
    raise Refused(f"{what} {place + 1 if ids is None else ids[place]!r}, column {name!r} has values of {names}, as {_short(value) if isinstance(value, str) else shown(value)}: a column has whole numbers, Decimals, "
                  "floats, bools, dates, times or texts; leave it out by columns=[..], or give it a kind by kinds={..}", "table")


def _kind_of_types(types: Set[Any], present: Sequence[Any]) -> Optional[Kind]:
    """The kind of values of these types, None where they do not go together."""
    if not types:
        return Texts()
    if len(types) == 1 and types <= set(PLAIN_KINDS):
        return PLAIN_KINDS[next(iter(types))]()
    if types <= {int, Decimal}:
        return _kind_of_decimals(present)
    if types <= {int, float}:
        return Floats()
    if types == {datetime.datetime}:
        zone = present[0].tzinfo        # Those of dateutil have no hash.
        is_of_all = all(value.tzinfo == zone or are_of_one_name(value.tzinfo, zone) for value in present)
        return Times(zone if is_of_all and (zone is None or shows_times(zone)) else datetime.timezone.utc)
    return None


def _kind_of_decimals(values: Sequence[Any]) -> Kind:
    """That of the number with most decimals, as far as a column has them: it refuses a number with more, and infinity, with its row."""
    exponents = [value.as_tuple().exponent for value in values if isinstance(value, Decimal)]
    return Decimals(min(MOST_DECIMALS, max(-exponent if isinstance(exponent, int) else 0 for exponent in [0, *exponents])))


def _type_of(value: Any) -> Any:
    """The type that counts: that of Python for a scalar of numpy."""
    for kind in (bool, int, float, str, Decimal, datetime.datetime, datetime.date, datetime.time):
        if isinstance(value, kind):
            return kind
    if is_truth(value):
        return bool
    if hasattr(value, "__index__"):
        return int
    return float if type(value).__module__ == "numpy" and is_number(value) else type(value).__name__


# ---- what is said of a column of texts that looks like another ----


def oddity(texts: Sequence[str], form: Form = PLAIN) -> Optional[str]:
    """Why a column of these texts is none of numbers, dates or bools, where it looks like one; and which kind would read it in a file whose numbers have this form."""
    some = [text.strip() for text in texts[:LOOKED_AT] if text.strip() and folded(text) not in WORDS]
    if not some:
        return None
    proposed = proposal(some, form)
    if proposed is not None:
        return proposed
    for pattern, what in ((FLOAT, "number"), (MOMENT, "date")):
        odd = [text for text in some if not pattern.fullmatch(text)]
        if odd and 2 * len(odd) <= len(some):
            return f"{_short(odd[0])} is no {what}"
    return _inner_oddity(some)


def _inner_oddity(texts: Sequence[str]) -> Optional[str]:
    """What keeps texts that all look like numbers or like dates from being such a column."""
    if all(map(FLOAT.fullmatch, texts)):
        zero = next(filter(has_zero_in_front, texts), None)
        return f"{zero} begins with a zero" if zero else f"{_short(_first_too_great(texts))} does not fit 64 bits: the kind float rounds it"
    if all(map(MOMENT.fullmatch, texts)):
        zones = {bool(MOMENT.fullmatch(text)[5]) for text in texts}  # type: ignore[index]
        if len(zones) > 1:
            return "some of its times have a time zone, and some have none"
        wrong = next((text for text in texts if not _is_read(Times(datetime.timezone.utc if True in zones else None), text)), texts[0])
        return f"{_short(wrong)} is no date"
    return None


def _first_too_great(texts: Sequence[str]) -> str:
    """The first number that no column of whole numbers or decimals has; where each fits one, the first that a float does not keep."""
    alone = (text for text in texts if not isinstance(kind_of_numbers([text]), Whole) and first_inexact([text]))
    return next(alone, "") or first_inexact(texts) or texts[0]


def proposal(texts: Sequence[str], form: Form = PLAIN) -> Optional[str]:
    """The kinds that read all of these texts, with an example: the plain one first, where the texts are no file's, or that has another form."""
    plain = kind_of_texts(texts)
    if isinstance(plain, Number) and not form.is_plain:
        plain = plain.in_form(PLAIN)        # which is its own, and not the file's
    others = [*_moment_kinds(texts), *_bool_kinds(texts)] if isinstance(plain, Texts) else []
    spellings = [*([] if isinstance(plain, Texts) else [str(plain)]), *_number_kinds(texts, plain), *others]
    reading = [kind for kind in map(kind_named, spellings) if all(_is_read(kind, text) for text in texts)]
    # Of several that read the same, the first.
    kinds = list({tuple(_without_form(kind, text) for text in texts): kind for kind in reversed(reading)}.values())[::-1]
    if not kinds:
        return None
    odd = next((text for text in texts if not FLOAT.fullmatch(text)), texts[0])
    said = [f"the kind {kind} reads {_without_form(kind, odd)}" for kind in kinds[:MOST_PROPOSED]]
    return f"{_short(odd)} is {'not plain' if isinstance(plain, Texts) else 'a text'}: {', or '.join(said)}"


def _number_kinds(texts: Sequence[str], plain: Kind) -> List[str]:
    """The kinds of numbers that these texts may have: thousands, decimal commas, a unit, parentheses."""
    if isinstance(plain, Texts) and all(map(FLOAT.fullmatch, texts)) or not all(re.search(r"\d", text) for text in texts):
        return []
    around = {part for text in texts for part in re.findall(r"[^\d\s.,'()+\-eE]+", text)}
    unit = f', unit="{around.pop()}"' if len(around) == 1 and '"' not in "".join(around) else ""
    unit += ", parentheses" if any(text.endswith(")") for text in texts) else ""
    found = []
    for thousands, decimal in (("", "."), (",", "."), ("", ","), (".", ","), ("'", "."), ("\u00a0", ","), (" ", ",")):
        options = (f', thousands="{thousands}"' if thousands else "") + (f', decimal="{decimal}"' if decimal != "." else "") + unit
        decimals = max((len(found[1]) for text in texts for found in [re.search(rf"{re.escape(decimal)}(\d+)\D*$", text)] if found), default=0)
        if options and (not thousands or any(thousands in text for text in texts)) and decimals <= MOST_DECIMALS:
            found.append(f"decimal({decimals}{options})" if decimals else f"whole({options[2:]})")
    return found


def _moment_kinds(texts: Sequence[str]) -> List[str]:
    if not all(re.match(r"\d", text) for text in texts):
        return []
    days = [sign.join(signs) for sign in "./- " for signs in (("%d", "%m", "%Y"), ("%d", "%m", "%y"), ("%m", "%d", "%Y"), ("%m", "%d", "%y"), ("%d", "%b", "%Y"), ("%d", "%b", "%y"),
                                                              ("%Y", "%m", "%d"))]
    return [*(f'date("{day}")' for day in days), *(f'time("{day} %H:%M{second}")' for day in days for second in ("", ":%S")), "clock"]


def _bool_kinds(texts: Sequence[str]) -> List[str]:
    words = sorted({folded(text) for text in texts})
    pairs = {("n", "y"): ("y", "n"), ("f", "t"): ("t", "f"), ("ja", "nein"): ("ja", "nein"), ("non", "oui"): ("oui", "non")}
    return [f"bool({', '.join(pairs[tuple(words)])})"] if tuple(words) in pairs else []  # type: ignore[index]


def _without_form(kind: Kind, text: str) -> str:
    """The value of a text, as the plain kind has it."""
    value = kind.decode(kind.read(text))
    return format(value, "f") if isinstance(value, Decimal) else str(value)


def _is_read(kind: Kind, text: str) -> bool:
    try:
        kind.read(text)
    except ValueError:
        return False
    return True


def _short(text: str) -> str:
    return repr(text if len(text) <= 40 else text[:39] + "…")
