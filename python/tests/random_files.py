"""Random CSV files of plain columns with all that is not plain among them, by a seed; and what the package makes of one."""
import io
from contextlib import ExitStack, contextmanager
from decimal import Decimal
from unittest.mock import patch

import prefq
from prefq.kinds.forms import Form
from prefq.loading import File
from prefq.missing import Missing
from prefq.reading import Dialect, read_csv
from prefq.rows import Zipped

MOST = 2**63 - 1
NUMBERS = ["", " ", "0", "-0", "00", "-00", "007", "+5", "+007", "-07", " 5", "5 ", "\t5", "\xa05", "--5", "5-", "5-3", "+-5", "-", "+", ".", "-.", "5.", ".5", "-.5", "+.25", "007.5",
           "1.5.2", "1.25.25", "1.-5", "1e3", "2.5E-2", "1e400", "1_000", "1,000", "1.000,5", "5,5", "٣", "٣.٥", "²", "inf", "-Infinity", "nan", "NA", "null", "-1", "5", "999", "0.10", "1.123456789012345678",
           "1.1234567890123456789", str(MOST), str(MOST + 1), str(-MOST), str(-MOST - 1), str(-MOST - 2), "0" + str(MOST), "12345678901234567890", "99999999999999999.99", "9" * 5000,
           "92233720368547758.07", "92233720368547758.08", "-92233720368547758.08", "-092233720368547758.08", "112589990684262.4", "1125899906842624.5", "4503599627370497.5"]
OTHERS = ["2026-05-01", "2026-02-30", "0000-00-00", " 2026-05-01", "2026-05-01 10:00", "٢٠٢٦-05-01", "true", "No", "yes ", "Lyon", "Köln", "a b", "x\x0by", "\u2028", "\x1c", "it's", "5 €", "(5)"]
IN_QUOTES = ["5\n6", "a\r\nb", "\r", 'say "x"', "5,5", "5;5", "\n", '"', "2026-05-01\n"]
FEW = [["Lyon", "Bern", "Köln"], ["true", "no"], ["1", "2", "2", "3", "3", "3", "2.5"], ["5", "7", "7", "NA", ""], ["x", "y", "y", "y", "-", "NA"], ["yes", "no", "no", "null", ""],
       ["2026-05-01", "2026-05-02", "2026-05-02", "2026-05-02 10:00"], ["0.5", "0.25", "7", "7", "7"], ["1", "1", "1", "2", "1e300"], ["4", "4", "4", "none", "none", "x"]]
FLAVOURS = [lambda random: str(random.randrange(10)), lambda random: str(random.randrange(-10**6, 10**6)), lambda random: str(random.randrange(-10**18 + 1, 10**18)),
            lambda random: f"{random.randrange(-10**5, 10**5) / 100:.2f}", lambda random: str(Decimal(random.randrange(-999, 9999)).scaleb(-random.randrange(4))),
            lambda random: f"{random.randrange(10**17)}.{random.randrange(10)}", lambda random: f"{random.randrange(1, 9999):04}-{random.randrange(1, 13):02}-{random.randrange(1, 29):02}",
            lambda random: random.choice(["007", "12", "0"]), lambda random: "", *(lambda random, some=some: random.choice(some) for some in FEW)]
KINDS = ["whole", "decimal(2)", "decimal(0)", "float", "text", "date", "bool", 'whole(thousands=",")', "choice(5, 0)"]


def file(random):
    """The bytes of a file, and the options of `made_of` that it is read with."""
    delimiter = random.choice([",", ",", ";", "\t", "|"])
    width = random.choice([1, 2, 2, 3, 4, 6])
    odd = random.choice([0, 0, 0.01, 0.05, 0.3])
    flavours = random.choices(FLAVOURS[:3] if random.random() < 0.4 else FLAVOURS, k=width)
    odds = random.choice([[""], NUMBERS, NUMBERS + OTHERS, NUMBERS + OTHERS + IN_QUOTES])
    odds = random.sample(odds, min(len(odds), random.choice([1, 2, 5, 100])))
    end = random.choice(["\n", "\n", "\r\n", "\r"])
    surplus = delimiter * random.choice([0, 0, 0, 0, 1, 2])
    lines = [delimiter.join(f"c{place}" for place in range(width)) + surplus + end]
    for _ in range(random.choice([0, 1, 5, 30, 60])):
        cells = [random.choice(odds) if random.random() < odd else flavour(random) for flavour in flavours]
        lines.append(delimiter.join(written(random, cell, delimiter) for cell in cells) + surplus + _end(random, end, odd))
        if random.random() < odd / 3:
            lines.append(random.choice(["", " ", delimiter, delimiter.join("5" * max(1, width - 1)), delimiter.join("5" * (width + 1)), delimiter * width]) + end)
    text = "".join(lines)
    if random.random() < 0.3:
        text = text[:-len(end)]
    return encoded(random, text, odd), options(random, delimiter, width)


def written(random, cell, delimiter):
    """A cell as a file has it: in quotes where it needs them, or sometimes without a need."""
    needs = any(sign in cell for sign in ('"', "\n", "\r", delimiter))
    return '"' + cell.replace('"', '""') + '"' if needs and random.random() < 0.95 or random.random() < 0.002 else cell


def _end(random, end, odd):
    return random.choice(["\n", "\r\n", "\r"]) if random.random() < odd / 5 else end


def encoded(random, text, odd):
    mark = "\ufeff" if random.random() < 0.1 else ""
    data = (mark + text).encode(random.choice(["utf-8"] * 9 + ["utf-16"]), "replace")
    if random.random() < odd / 10 and data:
        place = random.randrange(len(data))
        data = data[:place] + random.choice([b"\xff", b"\0", b"\xc3"]) + data[place:]
    return data


def options(random, delimiter, width):
    found = {"delimiter": random.choice([delimiter, None]), "null_padding": random.random() < 0.2}
    found["missing"] = random.choice([None, None, None, [], ["NA", "?"], ["5", "-1"], ["-"]])
    found["form"] = random.choice([Form()] * 8 + [Form(decimal=","), Form(thousands=",")])
    found["kinds"] = {f"c{place}": random.choice(KINDS) for place in range(width) if random.random() < random.choice([0, 0, 0.3])}
    return found


@contextmanager
def one_by_one():
    """Each cell is looked at by itself: nothing is found out about many at once, and no row goes to the program as it stands."""
    with ExitStack() as stack:
        for name in ("prefq.reading.plain_chunk", "prefq.standing.lines_of", "prefq.infer.plain_column", "prefq.loading.plain_column", "prefq.kinds.at_once.PlainTexts.of", "prefq.loading.Known.part"):
            stack.enter_context(patch(name, lambda *_: None))
        stack.enter_context(patch("prefq.kinds.moments.are_days", lambda _: False))
        yield


def made_of(data, delimiter, null_padding, missing, form, kinds):
    """What a frame and the command line make of a file: its columns with their values, or why it is refused."""
    found = []
    for read in (_opening, _loaded):
        try:
            file = File(read_csv(io.BytesIO(data), Dialect(delimiter=delimiter, null_padding=null_padding)), kinds, Missing(missing), form)
            columns, lists = read(file)
            found.append([(column.name, repr(column.kind), column.grows, column.has_gaps, [repr(column.decode(number)) for number in numbers]) for column, numbers in zip(columns, lists)])
            found.append((file.rows, dict(file.notes), file.cells.rows_at(range(0, file.rows, 3))))
        except (prefq.Refused, ValueError, TypeError) as why:
            found.append((type(why).__name__, str(why)))
    return found


def _opening(file):
    """The columns and their numbers, as the library gets them."""
    columns, rows = file.opening(file.cells.names, 65_536)
    lists = rows.columns if isinstance(rows, Zipped) else list(zip(*(map(int, line.split(b",")) for line in rows.text().splitlines()))) or [()] * len(columns)
    assert {len(numbers) for numbers in lists} == {len(rows)}
    return columns, lists


def _loaded(file):
    file.load(file.cells.names)
    pairs = [file.column(name) for name in file.cells.names]
    return [column for column, _ in pairs], [numbers for _, numbers in pairs]
