"""`python -m prefq ask` where a standard stream is closed or full, or the input has no end: it says what is wrong, and ends."""
import os
import resource
import subprocess
import sys
import tempfile
import unittest
from pathlib import Path

from support import TestCase

HOTELS = Path(__file__).parent / "data" / "hotels.csv"
QUESTION = "best low(Stars)"
FORMS = ([], ["--csv"], ["--json"], ["--html"])
SECONDS = 60
MEGABYTES = 600


def ask(*words, shell='exec "$@"', megabytes=None):
    """Runs the command by a shell that can close its streams, with so much memory."""
    def limit():
        if megabytes:
            resource.setrlimit(resource.RLIMIT_AS, (megabytes * 2**20, megabytes * 2**20))
    command = ["/bin/sh", "-c", shell, "sh", sys.executable, "-m", "prefq", "ask", *map(str, words)]
    return subprocess.run(command, stdout=subprocess.PIPE, stderr=subprocess.PIPE, text=True, timeout=SECONDS, preexec_fn=limit)


class Streams(TestCase):
    def fails(self, done, status, *says):
        self.assertNotIn("Traceback", done.stderr)
        self.assertNotIn("Exception ignored", done.stderr)
        self.assertTrue(done.stderr.startswith("prefq: "), done.stderr)
        for words in says:
            self.assertIn(words, done.stderr)
        self.assertEqual(done.returncode, status, done.stderr)

    def test_closed_standard_input(self):
        self.fails(ask("-", QUESTION, shell='exec "$@" <&-'), 2, "standard input is closed")
        self.assertEqual(ask(HOTELS, QUESTION, shell='exec "$@" <&-').returncode, 0)

    def test_closed_standard_output(self):
        for form in FORMS:
            with self.subTest(form):
                self.fails(ask(HOTELS, QUESTION, *form, shell='exec "$@" >&-'), 1, "standard output is closed")
        self.fails(ask(HOTELS, shell='exec "$@" >&-'), 1, "standard output is closed")

    def test_closed_standard_error(self):
        """What is wrong cannot be said; the status says that something is."""
        done = ask(HOTELS, "best low(Starz)", shell='exec "$@" 2>&-')
        self.assertEqual((done.returncode, done.stdout), (2, ""))
        self.assertEqual(ask(HOTELS, QUESTION, shell='exec "$@" 2>&-').returncode, 0)

    def test_a_full_disk(self):
        for form in FORMS:
            with self.subTest(form):
                self.fails(ask(HOTELS, QUESTION, *form, shell='exec "$@" >/dev/full'), 1, "No space left on device")
        self.fails(ask(HOTELS, shell='exec "$@" >/dev/full'), 1, "No space left on device")
        self.fails(ask(HOTELS, QUESTION, "--plot", "/dev/full"), 1, "/dev/full: No space left on device")

    def test_bytes_without_end(self):
        with self.within(SECONDS / 2):
            self.fails(ask("/dev/zero", QUESTION, megabytes=MEGABYTES), 2, "/dev/zero")

    def test_a_line_without_end(self):
        with self.within(SECONDS / 2):
            self.fails(ask("-", QUESTION, shell="yes Stars, | tr -d '\\n' | \"$@\"", megabytes=MEGABYTES), 2, "standard input")

    def test_lines_without_end(self):
        """As many as the memory holds are read, and then it is said that there are too many."""
        with self.within(SECONDS / 2):
            self.fails(ask("-", QUESTION, shell="yes 12345,67890 | \"$@\"", megabytes=MEGABYTES), 2, "standard input")

    def test_a_folder_and_bytes_that_are_no_text(self):
        with tempfile.TemporaryDirectory() as folder:
            self.fails(ask(folder, QUESTION), 2, "Is a directory")
            Path(folder, "zeros.csv").write_bytes(bytes(300_000))
            self.fails(ask(Path(folder, "zeros.csv"), QUESTION), 2, "zeros.csv")
            os.mkfifo(Path(folder, "pipe"))
            done = ask(Path(folder, "pipe"), QUESTION, "--csv", shell=f'cat {HOTELS} > "{folder}/pipe" & exec "$@"')
            self.assertEqual(done.returncode, 0, done.stderr)


if __name__ == "__main__":
    unittest.main()
