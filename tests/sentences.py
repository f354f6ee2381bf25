#!/usr/bin/env python3
"""Shows which sentences of the documents are too long to be read aloud, and how many words a sentence of each document has.

    python3 tests/sentences.py                 # the documents of the test command
    python3 tests/sentences.py DOCUMENT..      # others

A sentence ends at `.`, `!` or `?` before a blank, and with its paragraph or list item; not at a colon or a semicolon. A word is what stands between blanks
and has a letter or a digit. A piece of code counts as one word, and so does a list of such pieces, as `a`, `b` and `c`. Left out are headings, tables,
pictures, blocks of code and lists of links. No sentence may have more than 40 words, and their mean has to be below 22. Needs Python 3.9.
"""
import re
import sys
from pathlib import Path

TOP = Path(__file__).resolve().parent.parent
MOST_WORDS = 40
MEAN_BELOW = 22
# Two are made by programs.
LEFT_OUT = {"DEFINITIONS.md", "EDITS.md"}
FENCED = re.compile(r"^ *```.*?^ *```$", re.MULTILINE | re.DOTALL)
NO_SENTENCE = re.compile(r"^(#.*|\|.*|!\[.*|    .*)$", re.MULTILINE)
ITEM = re.compile(r"^ *(?:[-*]|\d+\.) +", re.MULTILINE)
CODE = re.compile(r"`[^`]*`")
LIST_OF_CODE = re.compile(r"CODE(?:(?:, (?:and |or )?| and | or )CODE)+")
LINK = re.compile(r"!?\[([^]]*)\]\([^)]*\)")
LIST_OF_LINKS = re.compile(r"(?:[^.,]*: )?(?:LINK[,;. ]*)+")
END_OF_SENTENCE = re.compile(r"(?<=[^.][.!?])[*)\"]*\s+(?!\.)")


def documents():
    return [TOP / "README.md", TOP / "CHANGELOG.md", *sorted(file for file in TOP.glob("docs/*.md") if file.name not in LEFT_OUT)]


def paragraphs(text):
    """The paragraphs and list items of a document, each in one line."""
    prose = NO_SENTENCE.sub("", FENCED.sub("", text))
    for paragraph in re.split(r"\n\s*\n", ITEM.sub("\n\n", prose)):
        if paragraph.strip() and not LIST_OF_LINKS.fullmatch(LINK.sub("LINK", " ".join(paragraph.split()))):
            yield " ".join(paragraph.split())


def sentences(text):
    for paragraph in paragraphs(text):
        yield from END_OF_SENTENCE.split(paragraph)


def word_count(sentence):
    plain = LIST_OF_CODE.sub("CODE", CODE.sub("CODE", LINK.sub(r"\1", sentence)))
    return sum(any(sign.isalnum() for sign in word) for word in plain.split())


def faults(document):
    """Prints the figures of a document in a line, and yields what is wrong with it."""
    counted = [(word_count(sentence), sentence) for sentence in sentences(document.read_text(encoding="utf-8"))]
    counted = [(words, sentence) for words, sentence in counted if words]
    mean = sum(words for words, _ in counted) / max(len(counted), 1)
    too_long = [(words, sentence) for words, sentence in counted if words > MOST_WORDS]
    print(f"{document.name}: {len(counted)} sentences of {mean:.1f} words, {len(too_long)} of more than {MOST_WORDS}")
    if mean >= MEAN_BELOW:
        yield f"{document.name}: {mean:.1f} words a sentence, which is not below {MEAN_BELOW}"
    yield from (f"{document.name}: {words} words: {sentence}" for words, sentence in too_long)


def main():
    given = [Path(name) for name in sys.argv[1:]] or documents()
    wrong = [why for document in given for why in faults(document)]
    print(*wrong, f"{len(given)} documents, {len(wrong)} faults", sep="\n")
    sys.exit(1 if wrong else 0)


main()
