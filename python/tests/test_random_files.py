"""Files of plain columns with odd cells among them: what is found out about many cells at once is what a look at each finds.

PREFQ_TEST_COUNT is how many files are read, and PREFQ_TEST_SEED begins other ones. No program is run.
"""
import io
import os
import random
import unittest
from unittest.mock import patch

import random_files
from prefq.checks import LEAST
from prefq.kinds.at_once import PlainTexts
from prefq.loading import File
from prefq.reading import Chunk, read_csv
from prefq.standing import lines_of

FILES = int(os.environ.get("PREFQ_TEST_COUNT", 400))
SEED = int(os.environ.get("PREFQ_TEST_SEED", 20260502))


class RandomFiles(unittest.TestCase):
    def test_as_one_by_one(self):
        for number in range(FILES):
            random_ = random.Random(SEED + number)
            data, options = random_files.file(random_)
            with self.subTest(file=number, data=data, options=options), patch("prefq.reading.CHUNK", random_.choice([1, 20, 50, 100, 65_536])):
                with random_files.one_by_one():
                    wanted = random_files.made_of(data, **options)
                self.assertEqual(random_files.made_of(data, **options), wanted)


class Together(unittest.TestCase):
    """Texts of which some are no numbers, though all of them together look like some."""

    def test_points_that_make_up_for_each_other(self):
        for texts in (["1.25.25", "100"], ["1.5", "1.2.3", "7"], ["1.25\n2.25", "3"], ["1.25", "."], ["1.25", "-.25.", "1"], ["1.2", "3-4.5"], ["1.-5", "2.55"], ["5.25", "", "1.0.25"]):
            plain = PlainTexts.of(texts)
            with self.subTest(texts=texts):
                self.assertIsNone(plain and plain.scaled(plain.decimals))

    def test_numbers_of_more_and_less_decimals(self):
        for texts, decimals, numbers in [(["1.25", ".5", "5.", "-7", "+0.05"], 2, [125, 50, 500, -700, 5]), (["0.1", "112589990684262.35"], 2, [10, 11258999068426235]),
                                         (["9007199254740993.5", "1"], 1, [90071992547409935, 10]), (["-0.5", "0"], 3, [-500, 0]), (["1.005", "1"], 3, [1005, 1000])]:
            with self.subTest(texts=texts):
                self.assertEqual(PlainTexts.of(texts).scaled(decimals), numbers)
        for texts in (["1.255", "1"], ["92233720368547758.08", "-1"], ["-92233720368547758.08", "1", "1", "1", "1"], ["-0092233720368547758.08", "-92233720368547758.08"]):
            self.assertIsNone(PlainTexts.of(texts).scaled(2))

    def test_rows_that_cannot_stand(self):
        """A comma in a cell is none between cells, whatever sign is."""
        for delimiter, text, lines in [(";", "5;5,5\n", None), (";", "5;-7\n", "5,-7\n"), (",", "0,,\n", f"0,{LEAST},{LEAST}\n"), ("\t", "\t\t\n1\t\t2\n", f"{LEAST},{LEAST},{LEAST}\n1,{LEAST},2\n"),
                                       (",", "5,-0\n", None), (",", "5,00\n", None), (",", "5,+5\n", None), (",", "5, 5\n", None), (",", f"5,{10**18}\n", None), (",", "5,5.0\n", None)]:
            with self.subTest(text=text):
                found = lines_of(Chunk(0, text.count("\n"), text.split("\n")[0].count(delimiter) + 1, text=text, delimiter=delimiter))
                self.assertEqual(found and found.text, lines)

    def test_a_value_that_is_refused_among_others_that_are_known(self):
        """It is named by its line, and not by its place among the new ones."""
        data = b"x,y\n" + b"01.05.2026,1\n02.05.2026,2\n" * 21 + b"05/01/2026,3\n"
        with patch("prefq.reading.CHUNK", 100), self.assertRaises(ValueError) as caught:
            File(read_csv(io.BytesIO(data)), {"x": 'date("%d.%m.%Y")'}).load(["x"])
        self.assertIn("line 44, column 'x'", str(caught.exception))


if __name__ == "__main__":
    unittest.main()
