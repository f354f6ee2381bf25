"""Texts as a person sees them: on a terminal, in a picture, in a message."""
import re
import unicodedata

# What steers a terminal, turns the direction of what follows, or is no character.
UNSEEN = re.compile("[\x00-\x1f\x7f-\x9f\u200e\u200f\u202a-\u202e\u2066-\u2069\ud800-\udfff]")
# What XML 1.0 has no place for.
NOT_IN_XML = re.compile("[^\t\n\r\x20-\ud7ff\ue000-\ufffd\U00010000-\U0010ffff]")
SURROGATE = re.compile("[\ud800-\udfff]")


def visible(text: str) -> str:
    """The text with an escape such as \\x1b for each sign that would not be seen, but do something.

    >>> visible("a\\x1b[31m")
    'a\\\\x1b[31m'
    """
    return UNSEEN.sub(lambda found: found[0].encode("unicode_escape").decode(), text)


def in_xml(text: str) -> str:
    """The text with a replacement for each sign that XML cannot have."""
    return NOT_IN_XML.sub("\N{REPLACEMENT CHARACTER}", text)


def width(text: str) -> int:
    """How many places a terminal gives a text.

    >>> width("Köln"), width("東京")
    (4, 4)
    """
    return len(text) if text.isascii() else sum(map(_places, text))


def _places(sign: str) -> int:
    if unicodedata.combining(sign) or unicodedata.category(sign) in ("Mn", "Me", "Cf"):
        return 0
    return 2 if unicodedata.east_asian_width(sign) in "WF" else 1
