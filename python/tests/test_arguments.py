"""Arguments that are wrong: an exception says which and what the limits are, and the table is as it was."""
import decimal
import fractions
import types

import prefq
from support import HOTELS, QUESTION, TestCase, hotels

try:
    import numpy
except ImportError:
    numpy = None


def one(*row, columns=("price", "stars")):
    return lambda: prefq.Table(columns, [[1, 2], list(row)])


class Cells(TestCase):
    def test_no_whole_number(self):
        for value in (129.99, 1.0, float("nan"), "5", "4.5", "Ritz", None, True, False, b"5", decimal.Decimal(5), fractions.Fraction(5), 1j, [5]):
            for call in (one(7, value), lambda: table.insert([7, value]), lambda: table.insert_many([[1, 2], [7, value]]), lambda: table.update(1, [7, value]),
                         lambda: table.commit(("insert", [1, 2]), ("insert", [7, value]))):
                with prefq.Table(["price", "stars"], [[1, 2]]) as table:
                    with self.refuses(TypeError, "column stars", repr(value)):
                        call()
                    self.assertEqual(table.rows(), [(1, [1, 2])])

    def test_which_row(self):
        with self.refuses(TypeError, "row 2, column stars is 4.5, of type float"):
            one(129, 4.5)()
        with self.refuses(TypeError, "row 300, column price is 129.99"):
            prefq.Table(["price", "stars"], [[1, 2]] * 299 + [[129.99, 4.5]])
        with hotels() as table, self.refuses(TypeError, "row 2, column price"):
            table.insert_many([[1, 2], ["5", 5]])
        with hotels() as table, self.refuses(TypeError, "change 2, column dist"):
            table.commit(("delete", 1), ("update", 2, [5, 0.5]))

    def test_out_of_range(self):
        for value in (2**63, -2**63 - 1, 2**70):
            with self.refuses(ValueError, "row 2, column stars", str(value), "from -9223372036854775808 to 9223372036854775807"):
                one(1, value)()
            with self.refuses(ValueError, "row 2, column price", str(value)):
                prefq.Table(["price"], [iter([1]), [value]])
            with hotels() as table:
                with self.refuses(ValueError, "row 2, column dist", str(value)):
                    table.insert_many([[1, 2], [3, value]])
                self.assertEqual(len(table), 7)

    def test_out_of_range_behind_what_is_read_at_once(self):
        rows = [[-2**63 + row + column for column in range(16)] for row in range(52_000)]
        rows[51_000][3] = 2**63
        with self.refuses(ValueError, "row 51001, column c3"):
            prefq.Table([f"c{number}" for number in range(16)], rows)

    def test_a_row_of_another_width(self):
        for row in ([], [1], [1, 2, 3]):
            with self.refuses(ValueError, f"row 2, {len(row)} values: not 2, those of price, stars"):
                one(*row)()
            with hotels() as table, self.refuses(ValueError, "values: not 2"):
                table.insert(row)

    def test_no_row(self):
        for row in ({"price": 1, "dist": 2}, "50,8", b"ab", bytearray(b"ab"), memoryview(b"ab"), {1, 2}, 7, None):
            with hotels() as table:
                for call in (lambda: table.insert(row), lambda: table.insert_many([[1, 2], row]), lambda: table.update(1, row), lambda: table.commit(("insert", row))):
                    with self.refuses(TypeError, "not a list of the values of price, dist"):
                        call()
                self.assertEqual(len(table), 7)

    def test_no_rows(self):
        for rows in ("ab", {1: [1, 2]}, 7, None):
            with self.refuses(TypeError, "not a list of rows"):
                prefq.Table(["price", "dist"], rows)

    def test_too_many_rows(self):
        with self.refuses(ValueError, "more than 65536 rows"):
            prefq.Table(["price"], ([1] for _ in iter(int, 1)))


class Numpy(TestCase):
    def setUp(self):
        if numpy is None:
            self.skipTest("numpy is not installed")

    def test_whole_numbers_of_numpy(self):
        with hotels() as table:
            self.assertEqual(table.get(table.insert(numpy.array([3, 4]))), [3, 4])
            table.commit(("update", numpy.int64(1), [numpy.int8(5), numpy.uint16(5)]), ("delete", numpy.uint8(2)))
            self.assertEqual(table.get(numpy.int32(1)), [5, 5])
            self.assertEqual(table.insert_many(numpy.arange(10).reshape(5, 2)), range(9, 14))
            self.assertEqual(table.get(13), [8, 9])
        with prefq.Table(["price", "dist"], numpy.array([(5, 6)], "i8, u2")) as table:
            self.assertEqual(table.get(1), [5, 6])

    def test_arrays_of_numpy_of_every_shape(self):
        """A table takes the same from an array as from its list."""
        chance = numpy.random.default_rng(1)
        for dtype in ("int64", "int8", ">i4", "uint8", "uint64"):
            whole = chance.integers(0, 100, (300, 6)).astype(dtype)
            for rows in (whole[:, :2], whole[::3, 1:3], numpy.asfortranarray(whole[:, 4:]), whole[:2].T, whole[:0, :2], whole.reshape(900, 2)[::-1]):
                with self.subTest(dtype=dtype, shape=rows.shape), prefq.Table(["a", "b"], rows) as table:
                    self.assertEqual([values for _, values in table.rows()], rows.tolist())
                    table.insert_many(rows)
                    self.assertEqual([values for _, values in table.rows()], 2 * rows.tolist())

    def test_other_arrays_of_numpy(self):
        masked = numpy.ma.masked_array([[1, 2], [3, 4]], mask=[[False, False], [True, False]])
        for rows, exception, words in [(masked, TypeError, "row 2, column a is None"), (numpy.array([[1, 2, 3]]), ValueError, "row 1, 3 values: not 2"),
                                       (numpy.array([1, 2]), TypeError, "row 1"), (numpy.zeros((65_537, 2), int), ValueError, "more than 65536 rows"),
                                       (numpy.array([[True, False]]), TypeError, "row 1, column a is True")]:
            with self.subTest(words), self.refuses(exception, words):
                prefq.Table(["a", "b"], rows)
            with self.subTest(words), prefq.Table(["a", "b"]) as table:
                with self.refuses(exception, words):
                    table.insert_many(rows)
                self.assertEqual(len(table), 0)

    def test_times_of_numpy_are_no_whole_numbers(self):
        """numpy makes whole numbers of those that are in nanoseconds, and of no others."""
        for dtype in ("M8[ns]", "m8[ns]", "M8[s]", "m8[D]"):
            for rows in (numpy.array([[5, 6]]).astype(dtype), numpy.array([(5, 6)], [("a", dtype), ("b", "i8")])):
                with self.subTest(dtype=rows.dtype), hotels() as table:
                    for call in (table.insert_many, lambda rows: prefq.Table(["price", "dist"], rows)):
                        with self.refuses(TypeError, "row 1, column price is numpy."):
                            call(rows)
                    with self.assertRaises((prefq.Refused, TypeError, ValueError)):
                        prefq.parts.best([prefq.parts.Partition(["price", "dist"], rows)], "best low(dist) & low(price)")
        for rows in (numpy.array([[5, 6]]), numpy.array([(5, 6)], "i8, f4")):
            self.assertEqual([list(row.values()) for row in prefq.parts.best([prefq.parts.Partition(["price", "dist"], rows)], "best low(price)")], [[5, 6]])

    def test_other_values_of_numpy(self):
        for row in (numpy.array([3.7, 4.2]), numpy.array([True, False]), [numpy.float64(3), 4], [numpy.bool_(True), 4], numpy.array(["3", "4"])):
            with hotels() as table:
                with self.refuses(TypeError, "column price"):
                    table.insert(row)
                with self.refuses(TypeError, "row 1, column price"):
                    table.insert_many([row])
        with self.refuses(TypeError, "row 1, column price is 0.5"):
            prefq.Table(["price"], numpy.array([[0.5]]))
        with self.refuses(ValueError, str(2**63)):
            prefq.Table(["price"], numpy.array([[2**63]], numpy.uint64))


class Names(TestCase):
    def test_one_text(self):
        with self.refuses(TypeError, "'price,dist': not a list of names"):
            prefq.Table("price,dist", [[1, 2]])

    def test_bad_names(self):
        for name in ("walking distance", "", "1x", "x" * 33, "é", "a\nend\nas 1 insert 5", 'a"b', "a,b"):
            with self.refuses(ValueError, "column 2", "a letter, then letters"):
                prefq.Table(["a", name])
        with self.refuses(TypeError, "column 2"):
            prefq.Table(["a", 2])
        with self.refuses(ValueError, "column 3", "column 1"):
            prefq.Table(["a", "b", "a"])
        for count in (0, 17):
            with self.refuses(ValueError, f"{count} columns: not from 1 to 16"):
                prefq.Table([f"c{number}" for number in range(count)])


class Options(TestCase):
    def test_ranges(self):
        for name, most in [("clients", 8), ("capacity", 65536), ("block", 65536), ("window", 65536)]:
            for value in (0, most + 1, -1):
                with self.refuses(ValueError, f"{name} is {value}: not from 1 to {most}"):
                    hotels(**{name: value})
            for value in (2.0, "2", True):
                with self.refuses(TypeError, f"{name} is {value!r}"):
                    hotels(**{name: value})
        for name in ("timeout", "program"):
            with self.refuses(TypeError, name):
                hotels(**{name: 5})
            with self.refuses(TypeError, f"Frame.from_records has no option '{name}'"):
                prefq.Frame.from_records([{"x": 1}], **{name: 5})

    def test_clients(self):
        with hotels(clients=3) as table:
            for client in (0, 4, 9, -1):
                with self.refuses(ValueError, f"client is {client}: not from 1 to 3"):
                    table.query(QUESTION, client)
            for client in ("", "1", "1 insert 5,5\nas 1", "1 abandon\nas 1", 2.0, True):
                with self.refuses(TypeError, f"client is {client!r}"):
                    table.query(QUESTION, client)
            self.assertEqual([table.room() for _ in range(3)], [1017] * 3)

    def test_ids(self):
        with hotels() as table:
            for call in (table.get, table.delete, lambda id: table.update(id, [7, 7]), lambda id: table.commit(("delete", id))):
                for id in (1.9, 1.0, "1", True, None, "1 5,5\nas 1 delete 2"):
                    with self.refuses(TypeError, "id is"):
                        call(id)
                for id in (-1, 2**64):
                    with self.refuses(ValueError, "id is"):
                        call(id)
                for id in (0, 8, 2**64 - 1):
                    with self.refuses(prefq.Refused, f"no such row {id}", kind="client", number=7):
                        call(id)
            self.assertEqual(table.rows(), list(enumerate(HOTELS, 1)))


class Changes(TestCase):
    def test_no_change(self):
        with hotels() as table:
            for change in (("inserts", [1, 2]), ("insert; delete 1; insert", [1, 2]), ("insert",), ("delete",), ("delete", 1, [1, 2]), ("update", 1), ("INSERT", [1, 2]), (),
                           "delete 1", "insert", None, 7, (["insert"], [1, 2]), types.SimpleNamespace(verb="delete")):
                with self.refuses(TypeError, "change 2", '("insert", values), ("update", id, values) or ("delete", id)'):
                    table.commit(("delete", 1), change)
            for count in (0, 9):
                with self.refuses(ValueError, f"{count} changes: not from 1 to 8"):
                    table.commit(*[("insert", [1, 2])] * count)
            self.assertEqual(table.rows(), list(enumerate(HOTELS, 1)))

    def test_no_question(self):
        with hotels() as table:
            for question in (None, 7, b"best low(price)", ["best low(price)"]):
                with self.refuses(TypeError, "a question is a text"):
                    table.best(question)
