"""The wheel of a release: which Linux its tag names, that the same commit makes the same bytes, and what is refused."""
import hashlib
import os
import random
import re
import shutil
import subprocess
import sys
import tempfile
import unittest
import zipfile
from pathlib import Path

import prefq
from environments import run
from support import TestCase

TOP = Path(__file__).resolve().parent.parent.parent
sys.path.insert(0, str(TOP / "dist"))
import linux

SMALL = Path("/bin/true")
PROGRAM, LIBRARY = "crates/prefq/out/prefq", "library/out/libprefq.so"
# What builds in the made-up repository: each copies the file that the environment names.
RT = """#!/bin/sh
[ "$*" = "run prefq" ] && [ -s /dev/stdin ] && mkdir -p out && cp "$BUILT_PROGRAM" out/prefq
"""
BUILD_LIBRARY = """#!/bin/sh
mkdir -p library/out && cp "$BUILT_LIBRARY" library/out/libprefq.so
"""


def files_of_the_system():
    """Programs and libraries that this machine has."""
    folders = [Path("/usr/bin"), Path("/usr/lib"), *Path("/usr/lib").glob("*-linux-gnu")]
    files = [path for folder in folders if folder.is_dir() for path in folder.iterdir() if path.is_file() and not path.is_symlink()]
    return sorted(path for path in files if os.access(path, os.R_OK) and path.stat().st_size < 10_000_000)


def read_by_readelf(path):
    """The libraries and the versions that readelf says a file needs."""
    said = subprocess.run(["readelf", "-dVW", str(path)], stdout=subprocess.PIPE, stderr=subprocess.DEVNULL, text=True, errors="replace").stdout
    needs = said.partition("Version needs section")[2]
    return sorted(re.findall(r"\(NEEDED\) +Shared library: \[(.*)\]", said)), sorted(re.findall(r"Name: (\S+)  Flags:", needs))


def with_name(data, old, new):
    """A file in which another name of the same length stands for one."""
    assert len(old) == len(new) and b"\0" + old + b"\0" in data
    return data.replace(b"\0" + old + b"\0", b"\0" + new + b"\0")


def needing(library):
    """A file of the system that needs this library and some version of glibc of two digits, and the name of that version."""
    for path in files_of_the_system():
        data = path.read_bytes()
        version = re.search(rb"\0(GLIBC_2\.\d\d)\0", data)
        if version and data.startswith(linux.ELF_64_LITTLE_ENDIAN) and {library, "libc.so.6"} <= set(linux.libraries(data)) <= linux.EVERYWHERE:
            return data, version[1]
    raise unittest.SkipTest(f"no file of the system needs {library}")


def broken(chance, data):
    """A file in which some bytes are others, many of them in its head, and from which the end may be missing."""
    file = bytearray(data[:chance.randrange(100, len(data))] if chance.random() < 0.3 else data)
    for _ in range(chance.randrange(1, 40)):
        file[chance.randrange(chance.choice([64, len(file)]))] = chance.randrange(256)
    return bytes(file)


def built_program():
    """The path of the program; the test is skipped where it is not built."""
    try:
        return Path(prefq.find_program()).resolve()
    except prefq.ProgramNotFound:
        raise unittest.SkipTest("the program is not built") from None


def tag_by_names(*paths):
    """The tag of these built files, by the names of versions that stand in them."""
    newest = max(tuple(map(int, number)) for path in paths for number in re.findall(rb"\0GLIBC_(\d+)\.(\d+)\b", path.read_bytes()))
    return f"manylinux_{newest[0]}_{newest[1]}_{os.uname().machine}"


class Linux(TestCase):
    def test_program_and_library_name_their_glibc(self):
        program, library = built_program(), Path(prefq.find_library())
        for paths in ([program], [library], [program, library]):
            self.assertEqual(linux.tag({path.name: path.read_bytes() for path in paths}), tag_by_names(*paths))

    @unittest.skipUnless(shutil.which("readelf"), "readelf is not installed")
    def test_readelf_reads_the_same(self):
        files = files_of_the_system()
        compared = 0
        for path in random.Random(7).sample(files, min(len(files), int(os.environ.get("PREFQ_TEST_COUNT", 60)))):
            data = path.read_bytes()
            if data.startswith(linux.ELF_64_LITTLE_ENDIAN):
                compared += 1
                with self.subTest(path.name):
                    self.assertEqual((sorted(linux.libraries(data)), sorted(version for _, version in linux.versions(data))), read_by_readelf(path))
        self.assertGreater(compared, 10)

    def test_the_newest_of_all_files_counts(self):
        data, version = needing("libm.so.6")
        newer = with_name(data, version, b"GLIBC_2.99")
        for files in ({"prefq": data, "libprefq.so": newer}, {"prefq": newer, "libprefq.so": data}):
            self.assertIn("manylinux_2_99_", linux.tag(files))

    def refused(self, files, *words):
        with self.refuses(linux.Strange, *words):
            linux.tag(files)

    def test_a_strange_file_is_refused_by_its_name(self):
        data, version = needing("libm.so.6")
        self.refused({"prefq": b"#!/bin/sh\n"}, "prefq is no ELF file of 64 bits")
        self.refused({"prefq": b"\x7fELF\x01\x01" + bytes(100)}, "prefq is no ELF file of 64 bits")
        self.refused({"prefq": data, "libprefq.so": data[:1000]}, "libprefq.so is a broken ELF file")
        self.refused({"prefq": data[:18] + b"\x08\0" + data[20:]}, "prefq is for processor 8, which is none of x86_64, aarch64")
        other = b"\xb7\0" if data[18] == 62 else b"\x3e\0"
        self.refused({"prefq": data, "libprefq.so": data[:18] + other + data[20:]}, "different processors")
        self.refused({"prefq": with_name(data, b"libc.so.6", b"libz.so.1")}, "does not need glibc")
        self.refused({"prefq": with_name(data, b"libm.so.6", b"libz.so.1")}, "prefq needs libz.so.1, which not every Linux has")
        self.refused({"prefq": with_name(data, version, b"GLIBC_ABI_")}, "prefq needs GLIBC_ABI_ of lib", "which is no version of glibc")

    def test_broken_files_end_in_a_tag_or_a_refusal(self):
        chance, data = random.Random(11), SMALL.read_bytes()
        for _ in range(int(os.environ.get("PREFQ_TEST_COUNT", 1000))):
            file = broken(chance, data)
            try:
                self.assertRegex(linux.tag({"true": file}), r"^manylinux_\d+_\d+_\w+$")
            except linux.Strange as why:
                self.assertTrue(str(why).startswith("true "))


@unittest.skipUnless(shutil.which("git"), "git is not installed")
class Release(TestCase):
    def setUp(self):
        room = tempfile.TemporaryDirectory()
        self.addCleanup(room.cleanup)
        self.top, self.tools = Path(room.name, "top"), Path(room.name, "tools")
        self.program, self.library = built_program(), Path(prefq.find_library()).resolve()
        self.write(self.tools / "rt", RT)
        self.write(self.top / "library/build.sh", BUILD_LIBRARY)
        self.write(self.top / "crates/prefq/stdin", "a script\n")
        shutil.copytree(TOP / "python", self.top / "python", ignore=shutil.ignore_patterns("__pycache__", "tests", ".*"))
        shutil.copytree(TOP / "library/include", self.top / "library/include")
        shutil.copytree(TOP / "dist", self.top / "dist", ignore=lambda _, names: [name for name in names if not name.endswith((".py", ".md"))])
        self.write(self.top / "docs/prefq.1", (TOP / "docs/prefq.1").read_text(encoding="utf-8"))
        shutil.copy(TOP / ".gitignore", self.top)
        self.git("init", "--quiet")
        self.commit()
        self.put(self.program, PROGRAM)
        self.put(self.library, LIBRARY)

    def write(self, path, text):
        path.parent.mkdir(parents=True, exist_ok=True)
        path.write_text(text)
        path.chmod(0o755)

    def git(self, *words):
        status, said = run("git", "-C", self.top, "-c", "user.name=a", "-c", "user.email=a@example.org", *words)
        self.assertEqual(status, 0, said)
        return said

    def commit(self):
        self.git("add", "--all")
        self.git("commit", "--quiet", "--message", "all")

    def put(self, file, place):
        """The program, or the library, as a build leaves it."""
        (self.top / place).parent.mkdir(parents=True, exist_ok=True)
        shutil.copy(file, self.top / place)

    def longer(self, file):
        """A file that works as this one does, with another byte at its end."""
        made = Path(shutil.copy(file, self.tools))
        made.write_bytes(file.read_bytes() + b"\0")
        return made

    def release(self, *words, program=None, library=None):
        """The status of the command, and what it prints, where a clone builds this program and this library."""
        return run(sys.executable, self.top / "dist/release.py", *words, PATH=f"{self.tools}:/usr/bin:/bin", PYTHONDONTWRITEBYTECODE="1",
                   BUILT_PROGRAM=str(program or self.program), BUILT_LIBRARY=str(library or self.library))

    def made(self):
        """The wheel, once it is made."""
        status, said = self.release()
        self.assertEqual(status, 0, said)
        (wheel,) = (self.top / "dist").glob("*.whl")
        return wheel

    def is_made_anew(self, wheel):
        status, said = self.release("--check")
        self.assertEqual((status, said.splitlines()[-1]), (0, f"{wheel.name} has the bytes that its commit makes"))

    def refused(self, *words, check=False, **setting):
        """A command is refused, and leaves dist as it was."""
        before = {path: path.read_bytes() for path in (self.top / "dist").iterdir()}
        status, said = self.release(*(["--check"] if check else []), **setting)
        self.assertEqual(status, 1, said)
        for word in ["dist/release.py: ", *words]:
            self.assertIn(word, said)
        self.assertEqual({path: path.read_bytes() for path in (self.top / "dist").iterdir()}, before)

    def test_one_commit_makes_one_wheel(self):
        wheel = self.made()
        data = wheel.read_bytes()
        self.assertEqual(wheel.name, f"prefq-{prefq.__version__}-py3-none-{tag_by_names(self.program, self.library)}.whl")
        self.assertEqual((self.top / "dist/SHA256SUMS").read_text(), f"{hashlib.sha256(data).hexdigest()}  {wheel.name}\n")
        self.assertEqual((self.top / "dist/COMMIT").read_text(), self.git("rev-parse", "HEAD"))
        with zipfile.ZipFile(wheel) as archive:
            for name, file in [("bin/prefq", self.program), ("lib/libprefq.so", self.library), ("include/prefq.h", TOP / "library/include/prefq.h")]:
                self.assertEqual(archive.read(f"prefq/{name}"), file.read_bytes())
            self.assertIn(f"\nTag: {wheel.stem.split('-', 2)[2]}\n", archive.read(f"prefq-{prefq.__version__}.dist-info/WHEEL").decode())
        for path in (self.top / "python").rglob("*"):
            os.utime(path, (1, 1))
        self.assertEqual(self.made().read_bytes(), data)
        self.is_made_anew(wheel)
        self.commit()
        self.is_made_anew(wheel)

    def test_a_new_wheel_takes_the_place_of_the_old_one(self):
        self.write(self.top / "dist/prefq-0.1.0-py3-none-any.whl", "an old one\n")
        self.commit()
        self.assertNotEqual(self.made().name, "prefq-0.1.0-py3-none-any.whl")

    def test_nothing_is_made_of_what_is_not_committed(self):
        self.write(self.top / "python/src/prefq/new.py", "")
        self.refused("not as they are committed", "python/src/prefq/new.py")
        self.commit()
        self.write(self.top / "python/pyproject.toml", "")
        self.refused("not as they are committed", "python/pyproject.toml")

    def test_nothing_is_made_without_the_program_of_this_version(self):
        self.write(self.top / PROGRAM, "#!/bin/sh\necho prefq 0.0.1\n")
        self.refused(f"{PROGRAM} is prefq 0.0.1, and the package is prefq {prefq.__version__}: build it anew")
        self.write(self.top / PROGRAM, f"#!/bin/sh\necho prefq {prefq.__version__}\n")
        self.refused("prefq/bin/prefq is no ELF file")
        (self.top / PROGRAM).unlink()
        self.refused(f"{PROGRAM} is not there: build it by `(cd crates/prefq && rt run prefq < stdin)`")

    def test_nothing_is_made_without_the_library_of_this_version(self):
        data, version = self.library.read_bytes(), prefq.__version__.encode()
        (self.top / LIBRARY).write_bytes(with_name(data, version, b"9" + version[1:]))
        self.refused(f"{LIBRARY} is prefq 9{prefq.__version__[1:]}, and the package is prefq {prefq.__version__}: build it anew")
        self.write(self.top / LIBRARY, "no library\n")
        self.refused(f"{LIBRARY} cannot be used: ")
        (self.top / LIBRARY).unlink()
        self.refused(f"{LIBRARY} is not there: build it by `library/build.sh`")

    def test_other_bytes_are_refused(self):
        self.assertEqual(self.release("--check"), (0, "skipped: the wheel of a release is not built anew, since dist has none yet\n"))
        wheel = self.made()
        others = f"its commit makes other bytes of {wheel.name}, in prefq-{prefq.__version__}.dist-info/RECORD, "
        self.refused(f"{others}prefq/bin/prefq\n", check=True, program=self.longer(self.program))
        self.refused(f"{others}prefq/lib/libprefq.so\n", check=True, library=self.longer(self.library))
        self.refused("`rt run prefq` failed in a clone at the wheel's commit", check=True, program=self.tools / "nothing")
        self.refused("`library/build.sh` failed in a clone at the wheel's commit", check=True, library=self.tools / "nothing")
        (self.top / "dist/COMMIT").write_text("main\n")
        self.refused("dist/COMMIT names no commit", check=True)
        (self.top / "dist/COMMIT").unlink()
        self.refused("dist has to have one wheel, SHA256SUMS and COMMIT", check=True)

    def test_a_wheel_that_is_not_that_of_its_checksum_is_refused(self):
        wheel = self.made()
        data = wheel.read_bytes()
        wheel.write_bytes(data[:-1] + b"\1")
        self.refused("dist/SHA256SUMS does not have the checksum of the wheel", check=True)
        wheel.write_bytes(data)
        shutil.copy(wheel, wheel.with_name("prefq-9-py3-none-any.whl"))
        self.refused("dist has to have one wheel", check=True)


if __name__ == "__main__":
    unittest.main()
