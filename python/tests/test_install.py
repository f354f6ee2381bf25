"""The package is installed without a network, and finds the library that it brings along."""
import os
import sys
import tarfile
import tempfile
import unittest
import zipfile
from pathlib import Path

import prefq
from environments import install, new_python, run
from support import TestCase

PACKAGE = Path(__file__).resolve().parent.parent
MAN_PAGE = PACKAGE.parent / "docs/prefq.1"
ASK = "import prefq; print(prefq.find_library()); print(*prefq.Table(['a', 'b'], [[1, 2], [0, 3]]).best('best low(a)'))"


class Install(TestCase):
    def setUp(self):
        room = tempfile.TemporaryDirectory()
        self.addCleanup(room.cleanup)
        self.room = Path(room.name)
        self.library = os.path.abspath(prefq.find_library())
        try:
            self.program = os.path.abspath(prefq.find_program())
        except prefq.ProgramNotFound:
            self.skipTest("the program is not built")
        self.built = {"PREFQ_PROGRAM": self.program, "PREFQ_LIBRARY": self.library}

    def environment(self):
        """The Python of a new environment."""
        return new_python(self.room / "new") or self.skipTest("python3-venv is not installed")

    def test_from_the_folder(self):
        python = self.environment()
        file = self.room / "rows.csv"
        file.write_text("x\n3\n1\n")
        status, said = install(python, PACKAGE, **self.built)
        self.assertEqual(status, 0, said)
        status, said = run(python, "-c", ASK)
        self.assertEqual((status, said), (0, f"{self.room}/new/lib/python{sys.version_info[0]}.{sys.version_info[1]}/site-packages/prefq/lib/libprefq.so\n<level 1 id 2: {{'a': 0, 'b': 3}}>\n"))
        self.assertEqual(run(python, "-m", "prefq", "--help")[0], 0)
        command = python.with_name("prefq")
        self.assertEqual(run(command, "--version"), (0, f"prefq {prefq.__version__}\n"))
        self.assertEqual(run(command, "ask", file, "best low(x)", "--csv"), (0, "level,id,x\n1,2,1\n"))
        self.assertEqual(run("sh", "-c", f"printf 'table\\nx\\nend\\nas 1 insert 7\\n' | {command} live"), (0, "1 inserted 1\n"))
        self.assertEqual((self.room / "new/share/man/man1/prefq.1").read_bytes(), MAN_PAGE.read_bytes())
        self.assertEqual(run(python, "-m", "pip", "uninstall", "-y", "prefq")[0], 0)

        status, said = install(python, "-e", PACKAGE, **self.built)
        self.assertEqual(status, 0, said)
        status, said = run(command, "live", PREFQ_PROGRAM=str(command))
        self.assertEqual((status, said.partition(". ")[0]), (1, f"prefq: {command} is the command of the Python package, and not the program"))
        status, said = run(python, "-c", ASK, PREFQ_LIBRARY=self.library)
        self.assertEqual((status, said), (0, f"{self.library}\n<level 1 id 2: {{'a': 0, 'b': 3}}>\n"))

    def build(self, call, **setting):
        """What a call of the build backend prints."""
        return run(sys.executable, "-c", f"import sys; sys.path.insert(0, {str(PACKAGE / 'backend')!r}); import build_prefq as b; print(b.{call})", **setting)

    def test_archives(self):
        for call in ("build_wheel", "build_sdist"):
            status, said = self.build(f"{call}({str(self.room)!r})", **self.built)
            self.assertEqual(status, 0, said)
        wheel = zipfile.ZipFile(next(self.room.glob("*.whl")))
        names = wheel.namelist()
        sources = {path.relative_to(PACKAGE / "src").as_posix() for path in (PACKAGE / "src/prefq").rglob("*") if path.is_file() and "__pycache__" not in path.parts}
        self.assertIn("prefq/py.typed", sources)
        about = {f"prefq-{prefq.__version__}.dist-info/{name}" for name in ("METADATA", "WHEEL", "RECORD", "entry_points.txt")}
        page = f"prefq-{prefq.__version__}.data/data/share/man/man1/prefq.1"
        self.assertEqual(set(names), {*sources, *about, page, "prefq/bin/prefq", "prefq/lib/libprefq.so", "prefq/include/prefq.h"})
        self.assertEqual(wheel.read(page), MAN_PAGE.read_bytes())
        self.assertEqual(wheel.read("prefq/bin/prefq"), Path(self.program).read_bytes())
        source = next(self.room.glob("*.tar.gz"))
        with tarfile.open(source) as archive:
            archive.extractall(self.room)
        self.assertEqual((self.room / f"prefq-{prefq.__version__}/program/prefq").read_bytes(), Path(self.program).read_bytes())
        self.assertEqual((self.room / f"prefq-{prefq.__version__}/share/prefq.1").read_bytes(), MAN_PAGE.read_bytes())

    def test_the_library_comes_along(self):
        library = self.room / "libprefq.so"
        library.write_bytes(b"a library")
        for call in ("build_wheel", "build_sdist"):
            status, said = self.build(f"{call}({str(self.room)!r})", PREFQ_PROGRAM=self.program, PREFQ_LIBRARY=str(library))
            self.assertEqual(status, 0, said)
        wheel = zipfile.ZipFile(next(self.room.glob("*.whl")))
        self.assertEqual(wheel.read("prefq/lib/libprefq.so"), b"a library")
        self.assertEqual(wheel.read("prefq/include/prefq.h"), (PACKAGE.parent / "library/include/prefq.h").read_bytes())
        with tarfile.open(next(self.room.glob("*.tar.gz"))) as archive:
            self.assertEqual(archive.extractfile(f"prefq-{prefq.__version__}/library/libprefq.so").read(), b"a library")

    def test_without_the_library(self):
        status, said = run(sys.executable, "-c", "import shutil, sys; shutil.copytree(sys.argv[1], sys.argv[2])", PACKAGE, self.room / "python")
        self.assertEqual(status, 0, said)
        code = f"import sys; sys.path.insert(0, {str(self.room / 'python/backend')!r}); import build_prefq; build_prefq.build_wheel({str(self.room)!r})"
        for setting, wanted in [({}, "(cd crates/prefq && rt run prefq < stdin)"), ({"PREFQ_PROGRAM": self.program}, "library/build.sh")]:
            status, said = run(sys.executable, "-c", code, **setting)
            self.assertEqual(status, 1)
            self.assertIn("the program prefq is not built" if not setting else "the library libprefq.so is not built", said)
            self.assertIn(wanted, said)
        code = f"import sys; sys.path.insert(0, {str(self.room / 'python/src')!r}); import prefq; prefq.Table(['a'])"
        status, said = run(sys.executable, "-c", code)
        self.assertEqual(status, 1)
        self.assertIn("prefq.errors.LibraryNotFound", said)
        self.assertIn("library/build.sh", said)

    def test_one_version(self):
        self.assertIn(f'\nversion = "{prefq.__version__}"\n', (PACKAGE / "pyproject.toml").read_text())
        status, said = run(self.program, "--version")
        self.assertEqual(said, f"prefq {prefq.__version__}\n")


if __name__ == "__main__":
    unittest.main()
