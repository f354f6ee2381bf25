"""What README.md, docs/PYTHON.md, python/README.md and the docstrings show is run.

In a document, the blocks `python` of a section (from one `#` heading to the next) run in order in one namespace, in an empty folder, or those of README.md at the top
of the repository; the block `text` after one is what it prints.
"""
import contextlib
import doctest
import importlib
import io
import os
import pkgutil
import re
import tempfile
import unittest
from pathlib import Path

import prefq
from support import TestCase

TOP = Path(__file__).resolve().parent.parent.parent
DOCUMENTS = [TOP / "README.md", TOP / "docs/PYTHON.md", TOP / "python/README.md"]
BLOCK = re.compile(r"^```(?P<kind>python|text)\n(?P<code>.*?)^```$|^# (?P<heading>[^\n]*)$", re.MULTILINE | re.DOTALL)
# Where one of these is not installed, a section that names it is not run.
OPTIONAL = ["pandas", "matplotlib", "distributed", "starlette"]


def sections(document):
    """The headings of a document, each with its blocks (kind, code, line)."""
    found = [("", [])]
    text = document.read_text(encoding="utf-8")
    for part in BLOCK.finditer(text):
        if part["heading"] is not None:
            found.append((part["heading"], []))
        else:
            found[-1][1].append((part["kind"], part["code"], text.count("\n", 0, part.start()) + 2))
    return [(heading, blocks) for heading, blocks in found if blocks]


def missing(code):
    """The first optional package that this code names and that is not installed."""
    return next((name for name in OPTIONAL if re.search(rf"\b{name}\b", code) and importlib.util.find_spec(name) is None), None)


class Documents(TestCase):
    def run_section(self, document, blocks):
        names = {"__name__": "__main__"}
        printed = None
        for kind, code, line in blocks:
            if kind == "python":
                output = io.StringIO()
                with contextlib.redirect_stdout(output):
                    exec(compile("\n" * (line - 1) + code, str(document), "exec"), names)
                printed = output.getvalue()
            elif printed is not None:
                self.assertEqual(printed, code, f"{document.name}, line {line}")
                printed = None

    def test_documents(self):
        before = os.getcwd()
        for document in DOCUMENTS:
            for heading, blocks in sections(document):
                with self.subTest(f"{document.name}: {heading}"), tempfile.TemporaryDirectory() as room:
                    name = missing("".join(code for _, code, _ in blocks))
                    if name:
                        self.skipTest(f"{name} is not installed")
                    os.chdir(TOP if document == TOP / "README.md" else room)
                    try:
                        self.run_section(document, blocks)
                    finally:
                        os.chdir(before)

    def test_docstrings(self):
        public = {name: getattr(prefq, name) for name in prefq.__all__}
        modules = ["prefq", *(f"prefq.{module.name}" for module in pkgutil.iter_modules(prefq.__path__) if module.name != "__main__")]
        for name in modules:
            with self.subTest(name):
                output = io.StringIO()
                with contextlib.redirect_stdout(output):
                    result = doctest.testmod(importlib.import_module(name), extraglobs=public, optionflags=doctest.ELLIPSIS | doctest.NORMALIZE_WHITESPACE)
                self.assertEqual(result.failed, 0, output.getvalue())

    def test_each_public_name_has_an_example(self):
        for name in prefq.__all__:
            self.assertIn(">>> ", getattr(prefq, name).__doc__ or "", name)


if __name__ == "__main__":
    unittest.main()
