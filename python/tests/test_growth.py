"""Kinds grow: a column takes numbers with more decimals by opening its table anew under the same ids, or refuses them and stays as it was."""
import io
import pickle
import tempfile
import threading
import time
import unittest.mock
import warnings
import weakref
from concurrent.futures import ThreadPoolExecutor
from decimal import Decimal
from fractions import Fraction
from pathlib import Path

import prefq
from prefq.desk import Desk
from support import TestCase, around, raises

try:
    import pandas
except ImportError:
    pandas = None

MOST = 2**63 - 1


def prices(*numbers, **options):
    return prefq.Frame.from_records([{"price": number, "name": f"n{id}"} for id, number in enumerate(numbers, 1)], **options)


def kinds(frame):
    return [str(column.kind) for column in frame.columns]


def rows(frame):
    return {row.id: tuple(row.values()) for row in frame.rows()}


class Growth(TestCase):
    def test_of_whole_numbers_and_decimals(self):
        with prices(60, 50) as frame:
            for value, kind in [(59.9, "decimal(1)"), ("59.95", "decimal(2)"), (Decimal("0.125"), "decimal(3)"), (7, "decimal(3)"), ("1e-5", "decimal(5)"), (None, "decimal(5)"), (1.5, "decimal(5)")]:
                id = frame.insert({"price": value})
                self.assertEqual((frame.get(id).price, kinds(frame)[0]), (None if value is None else Decimal(str(value)), kind))
            self.assertEqual([row.price for row in frame.rows()][:4], [60, 50, Decimal("59.9"), Decimal("59.95")])
            self.assertEqual((len(frame), frame.rows()[-1].id), (9, 9))

    def test_from_each_source(self):
        frames = [prices(60, 50), prefq.Frame.from_csv(io.StringIO("price,name\n60,n1\n50,n2\n"))]
        if pandas is not None:
            frames.append(prefq.Frame.from_dataframe(pandas.DataFrame({"price": [60, 50], "name": ["n1", "n2"]}, index=["a", "b"])))
        for frame in frames:
            with frame:
                frame.insert({"price": 59.9})
                self.assertEqual(frame.best("best around(price, 59.93)").ids, [3])
        if pandas is not None:
            with prefq.Frame.from_dataframe(pandas.DataFrame({"price": [60, 50]}, index=["a", "b"])) as frame:
                frame.insert({"price": 59.9})
                found = frame.best("top_level 9 low(price)").to_dataframe()
                self.assertEqual((list(found.index), list(found["price"])), (["b", 3, "a"], [50, 59.9, 60]))

    def test_of_fractions(self):
        """One that is a decimal number is that number; one that is none is refused, and so is one with too many decimals."""
        with prices(60, 50) as frame:
            for value, kind, found in [(Fraction(1, 2), "decimal(1)", "0.5"), (Fraction(7, 8), "decimal(3)", "0.875"), (Fraction(6, 2), "decimal(3)", "3"), (Fraction(-1, 80), "decimal(4)", "-0.0125")]:
                id = frame.insert({"price": value})
                self.assertEqual((frame.get(id).price, kinds(frame)[0]), (Decimal(found), kind))
            for value in (Fraction(1, 3), Fraction(1, 2**19), Fraction(1, 10**19)):
                with self.refuses(ValueError, f"column 'price' (decimal(4)): {value} has more than 4 decimals"):
                    frame.insert({"price": value})
            self.assertEqual(frame.get(frame.insert({"price": Fraction(1, 5**4)})).price, Decimal("0.0016"))

    def test_ids_stay(self):
        with prices(*range(1, 11)) as frame:
            frame.delete(3)
            frame.delete(10)
            self.assertEqual(frame.insert({"price": "0.5"}), 11)
            self.assertEqual(list(frame.insert_many([{"price": "0.25"}, {"price": 3}])), [12, 13])
            frame.delete(11)
            frame.update(12, {"price": "0.125"})
            self.assertEqual(frame.insert({"price": 1}), 14)
            self.assertEqual(list(rows(frame)), [1, 2, 4, 5, 6, 7, 8, 9, 12, 13, 14])
            self.assertEqual((frame.get(4).name, frame.get(12).price, frame.get(13).price), ("n4", Decimal("0.125"), 3))
            for id in (3, 10, 11, 15, 10**9, 0):
                for call in (frame.get, frame.delete, lambda id: frame.update(id, {"price": 1}), lambda id: frame.why(id, "best low(price)")):
                    with self.refuses(prefq.Refused, f"no such row {id}", kind="client", number=7):
                        call(id)

    def test_what_is_asked_afterwards(self):
        with prices(5, 4, 4, 6) as frame:
            frame.delete(1)
            frame.update(4, {"price": "4.0625"})
            frame.insert_many([{"price": 4, "name": "n2"}, {"name": "n2"}])
            self.assertEqual(frame.best("top_level 3 low(price)").ids, [2, 3, 5, 4, 6])
            self.assertEqual(frame.best("skyline of distinct price min").ids, [2])
            self.assertEqual(frame.best("best low(price) by name").ids, [2, 3, 4, 5])
            self.assertEqual(frame.why(6, "best low(price)").ids, [2, 3, 5, 4])
            self.assertEqual(frame.best("best low(price)").all_records(), frame.rows())
            self.assertEqual(repr(frame), "<prefq.Frame of price, name: 5 rows>")

    def test_an_update_and_many_inserts(self):
        with prices(60, 50) as frame:
            frame.update(1, {"price": "59.9"})
            self.assertEqual(rows(frame), {1: (Decimal("59.9"), "n1"), 2: (50, "n2")})
            frame.update(2, ["1.25", "other"])
            self.assertEqual((rows(frame)[2], kinds(frame)[0]), ((Decimal("1.25"), "other"), "decimal(2)"))
            frame.insert_many([{"price": 1}, {"price": "0.001"}, {"price": "0.0001"}])
            self.assertEqual(kinds(frame)[0], "decimal(4)")

    def test_a_change_that_is_refused_as_full_leaves_kinds_and_texts(self):
        """The kind of a column was wider behind it, and of its texts nobody was warned any more."""
        for full in (lambda frame: frame.insert({"price": "0.5", "name": "n9"}), lambda frame: frame.insert_many([{"price": 1}, {"price": 0.5, "name": "n9"}]),
                     lambda frame: frame.commit(("delete", 1), ("insert", {"price": "0.5", "name": "n9"}), ("insert", {"price": 2}))):
            with prices(60, 50, 40, capacity=3) as frame:
                with self.refuses(prefq.Refused, "full needed", kind="client", number=8):
                    full(frame)
                self.assertEqual((kinds(frame), len(frame)), (["whole", "text"], 3))
                with self.assertWarns(prefq.UnknownValue):
                    frame.best("best pos(name, 'n9')")
                frame.update(1, {"price": "0.5"})
                self.assertEqual(frame.commit(("delete", 2), ("insert", {"price": "0.25", "name": "n9"})), 4)
                self.assertEqual((kinds(frame)[0], frame.best("best pos(name, 'n9')").ids), ("decimal(2)", [4]))

    def test_only_columns_that_need_it(self):
        with prefq.Frame.from_records([{"x": 9 * 10**18, "y": 1}]) as frame:
            frame.insert({"x": "5.0", "y": "1.5"})
            self.assertEqual((kinds(frame), rows(frame)[2]), (["whole", "decimal(1)"], (5, Decimal("1.5"))))

    def test_18_decimals(self):
        with prices(9, 0) as frame:
            frame.insert({"price": Decimal("1e-18")})
            self.assertEqual((kinds(frame)[0], frame.best("best low(price)").ids, rows(frame)[3][0]), ("decimal(18)", [2], Decimal("1e-18")))
            self.refused(frame, Decimal("1e-19"), "more than 18 decimals")
            self.refused(frame, 10, "does not fit")

    def refused(self, frame, value, *says):
        """The value is refused by each change, and nothing is changed."""
        before = rows(frame), kinds(frame), frame.room(), frame.table
        for call in (frame.insert, lambda record: frame.update(1, record), lambda record: frame.insert_many([{"price": 3}, record])):
            with self.refuses(ValueError, "column 'price'", *says):
                call({"price": value})
        self.assertEqual((rows(frame), kinds(frame), frame.room()), before[:3])
        self.assertIs(frame.table, before[3])

    def test_numbers_that_no_longer_fit(self):
        with prices(MOST, 1) as frame:
            self.refused(frame, "0.5", f"column 'price' (whole): it has {MOST}, and with 1 decimal a column has numbers from")
        with prices(1, 2) as frame:
            self.refused(frame, "922337203685477580.75", "922337203685477580.75")

    def test_a_record_of_which_another_value_is_refused(self):
        with prefq.Frame.from_records([{"price": 1, "stars": 3, "name": "n1"}]) as frame:
            table = frame.table
            for record in ({"price": "0.5", "stars": "many"}, {"stars": "0.5", "price": "1e19"}, {"price": "0.5", "name": 7}):
                for call in (frame.insert, lambda record: frame.update(1, record), lambda record: frame.insert_many([{"price": "0.25"}, record])):
                    with self.assertRaises((ValueError, TypeError)):
                        call(record)
            self.assertEqual((rows(frame), kinds(frame), frame.table is table), ({1: (1, 3, "n1")}, ["whole", "whole", "text"], True))

    def test_what_is_no_number_that_somebody_wrote(self):
        with prices(60, 50) as frame:
            for value in (0.1 + 0.2, 0.1 + 0.7, 1 / 3, 0.1 * 3, float("inf"), Decimal("Infinity"), "", "-", "59,9", "many", "0x1p-3", "1e-19", 1e-300):
                self.refused(frame, value)
        with prices(Decimal("0.5")) as frame:
            self.refused(frame, 0.1 + 0.2, "0.30000000000000004 has more than 1 decimal")

    def test_kinds_that_are_given_do_not_grow(self):
        for frame in [prices(60, 50, kinds={"price": "whole"}), prefq.Frame.empty(["price", "name"], {"price": "decimal(1)", "name": "text"}),
                      prefq.Frame([prefq.Column("price", "whole"), prefq.Column("name", "text")], [[60, "n1"]]),
                      prefq.Frame.from_csv(io.StringIO("price,name\n60,n1\n"), kinds={"price": "decimal(1)"})]:
            with frame:
                if not len(frame):
                    frame.insert({"price": 1})
                self.refused(frame, "59.95", "59.95 is no whole number" if kinds(frame)[0] == "whole" else "59.95 has more than 1 decimal")

    def test_an_update_of_a_row_that_is_not_there(self):
        with prices(60, 50) as frame:
            table = frame.table
            with self.refuses(prefq.Refused, "no such row 7", number=7):
                frame.update(7, {"price": "0.5"})
            self.assertEqual((kinds(frame)[0], frame.table is table), ("whole", True))

    def test_the_room_stays(self):
        with prefq.Frame.from_records([{"price": number} for number in range(1500)]) as frame:
            capacity = frame.table.capacity
            for id in range(1, 1400):
                frame.delete(id)
            frame.insert({"price": "0.5"})
            self.assertEqual((frame.table.capacity, frame.room()), (capacity, capacity - 102))
        with prices(1, 2, capacity=3) as frame:
            frame.insert({"price": "0.5"})
            with self.refuses(prefq.Refused, "full", number=8):
                frame.insert({"price": "0.25"})
            self.assertEqual(len(frame), 3)


class WhileOthersAsk(TestCase):
    def test_an_open_query_goes_on(self):
        """It is of the table that there was, which ends after it."""
        with prices(60, 50, 70) as frame:
            old = frame.table
            with old.query("best low(c0)") as query:
                frame.insert({"price": "0.5"})
                frame.delete(2)
                query.scan()
                self.assertEqual([row.c0 for row in query.answer()], [50])
            del query
            self.assertIsNot(frame.table, old)
            engine = weakref.ref(old._engine)
            self.assertIsNotNone(engine())
            del old
            self.assertEqual(frame.best("best low(price)").ids, [4])
            self.assertIsNone(engine())

    def test_a_question_between_two_tables(self):
        """The frame grows while a question is on its way: the answer is that of one table or the other, with its values."""
        with prices(60, 50) as frame:
            asked, came = frame.table.query, []

            def late(text):
                if not came:
                    came.append("a question")
                    came.append(frame.insert({"price": "0.5"}))
                return asked(text)

            with unittest.mock.patch.object(frame.table, "query", late):
                answer = frame.best("top_level 9 low(price)")
            self.assertEqual([(row.id, row.price) for row in answer], [(2, 50), (1, 60)])
            self.assertEqual(frame.best("best low(price)").ids, [3])

    def test_many_threads(self):
        """Four threads insert finer and finer numbers, and ask: each answer has one row, the least that there was."""
        problems, ids = [], []
        with prefq.Frame.from_records([{"price": 1000, "who": 0}]) as frame:
            def work(who):
                try:
                    for step in range(12):
                        value = Decimal(4 * (12 - step) + who) + Decimal(1).scaleb(-step)
                        ids.append((frame.insert({"price": value, "who": who}), value, who))
                        for row in frame.best("best low(price)"):
                            assert row.price <= value, (row, value)
                        assert frame.get(ids[-1][0]).keys() == {"price", "who"}
                except BaseException as why:
                    problems.append(why)

            threads = [threading.Thread(target=work, args=(who,)) for who in range(4)]
            for thread in threads:
                thread.start()
            for thread in threads:
                thread.join()
            self.assertEqual(problems, [])
            self.assertEqual(rows(frame), {1: (1000, 0), **{id: (value, who) for id, value, who in ids}})
            self.assertEqual((len(rows(frame)), kinds(frame)[0]), (49, "decimal(11)"))


class CodeBooks(TestCase):
    def test_they_become_small_again(self):
        """Texts that no row has any more, and those of refused records, are let go."""
        with prefq.Frame.from_records([{"name": "Lyon", "x": 1}, {"name": "Bern", "x": 2}]) as frame:
            for number in range(60):
                with self.assertRaises(ValueError):
                    frame.insert({"name": f"{number} " + "a" * 50_000, "x": "many"})
            self.assertLess(frame.columns[0].kind.size, 10_000)
            for number in range(100):
                frame.delete(frame.insert({"name": f"{number} " + "b" * 50_000, "x": 1}))
            self.assertLess(frame.columns[0].kind.size, 2_500_000)
            self.assertEqual(frame.insert({"name": "Lyon", "x": 0}), 103)
            self.assertEqual((rows(frame)[1], frame.best("best pos(name, 'Lyon') & low(x)").ids), (("Lyon", 1), [103]))

    def test_a_text_that_was_deleted_is_warned_of_once_the_table_is_opened_anew(self):
        with prefq.Frame.from_records([{"name": "Lyon", "x": 1}, {"name": "Bern", "x": 2}]) as frame:
            frame.delete(1)
            frame.insert({"x": "0.5"})
            with warnings.catch_warnings(record=True) as caught:
                warnings.simplefilter("always")
                frame.best("best pos(name, 'Lyon')")
            self.assertIn("no row of 'name' has 'Lyon'", str(caught[0].message))


class Empty(TestCase):
    def test_a_frame_without_rows(self):
        with prefq.Frame.empty(["hotel", "price", "size"], {"price": "decimal(2)", "hotel": "text", "size": "choice(S, M)"}) as frame:
            self.assertEqual((len(frame), frame.rows(), frame.best("best low(price)"), kinds(frame)), (0, [], [], ["text", "decimal(2)", "choice(S, M)"]))
            self.assertEqual(frame.insert(["Ritz", "129.99", "M"]), 1)
        for names, given, says in [(["a", "b"], {"a": "whole"}, "has to be given its kind: b"), (["a"], {"a": "whole", "c": "whole"}, "no column 'c'"), ([], {}, "there are no columns"),
                                   (["a", "a"], {"a": "whole"}, "two columns are called 'a'")]:
            with self.refuses(prefq.Refused, says):
                prefq.Frame.empty(names, given)


class OfADesk(TestCase):
    """The rows of the page grow as those of a frame do."""

    def rows(self, desk):
        picture = desk.picture("best low(price)")
        return {row.id: tuple(column.decode(number) for column, number in zip(picture.columns, row.numbers)) for row in picture.rows}

    def test_a_row_of_an_older_picture_has_the_values_that_it_had(self):
        """Its numbers were read as those of the wider column, as 6 in place of 60."""
        with Desk(prices(60, 50)) as desk:
            seen = desk.picture("best high(price)")
            desk.insert({"price": "59.9"})
            desk.update(1, {"price": "0.25"})
            for row in (*seen.rows, *seen.best):
                self.assertEqual(desk.record(row.numbers), {"price": {1: 60, 2: 50}[row.id], "name": f"n{row.id}"})
            again = desk.picture("best high(price)")
            self.assertEqual([desk.record(row.numbers)["price"] for row in again.rows], [Decimal("0.25"), 50, Decimal("59.9")])
            self.assertEqual([row.numbers for row in pickle.loads(pickle.dumps(again.rows))], [row.numbers for row in again.rows])
            self.assertEqual(desk.delete(3), {"price": Decimal("59.9"), "name": None})

    def test_ids_and_values_stay(self):
        with Desk(prices(60, 50)) as desk:
            before = desk.picture("best low(price)")
            desk.delete(1)
            self.assertEqual(desk.insert({"price": "48.5", "name": "n3"}), 3)
            desk.update(2, {"price": 49.25})
            self.assertEqual(self.rows(desk), {2: (Decimal("49.25"), "n2"), 3: (Decimal("48.5"), "n3")})
            self.assertEqual([str(column.kind) for column in desk.columns], ["decimal(2)", "text"])
            self.assertEqual([row.id for row in desk.picture("best low(price)").best], [3])
            # A picture keeps the columns that its numbers stand for.
            self.assertEqual([before.columns[0].decode(row.numbers[0]) for row in before.rows], [60, 50])

    def test_a_desk_that_refuses_a_change_stays_of_its_version(self):
        with Desk(prefq.Frame.from_records([{"price": 60}, {"price": 50}], capacity=2)) as desk:
            woken = []
            desk.subscribe(lambda: woken.append(desk.version))
            for price in (7, 7, "0.5"):         # for the last of which the column would become wider
                with self.refuses(prefq.Refused, "full", kind="client"):
                    desk.insert({"price": price})
                seen = desk.picture("best low(price)")
                self.assertEqual((seen.version, [str(column.kind) for column in seen.columns]), (1, ["whole"]))
            self.assertEqual(woken, [])

    def test_a_frame_that_has_grown_has_its_ids_on_a_desk(self):
        frame = prices(60, 50, 40)
        frame.delete(1)
        frame.delete(3)
        frame.update(2, {"price": "0.5"})
        with Desk(frame) as desk:
            self.assertEqual(desk.insert({"price": 7}), 4)
            desk.update(2, {"price": 8})
            self.assertEqual({id: row[0] for id, row in self.rows(desk).items()}, {2: 8, 4: 7})

    def test_a_frame_that_is_changed_beside_its_desk(self):
        """Which nobody does: but what is made is not said to be refused, and the next picture has the rows of the answer."""
        for beside, wanted in ((lambda frame: frame.delete(1), {2: 50, 3: Decimal("0.25")}), (lambda frame: frame.insert({"price": 0}), {1: 60, 2: 50, 3: 0, 4: Decimal("0.25")}),
                               (lambda frame: frame.insert({"price": "-0.5"}), {1: 60, 2: 50, 3: Decimal("-0.5"), 4: Decimal("0.25")}),
                               (lambda frame: (frame.insert({"price": "0.5"}), frame.delete(2)), {1: 60, 3: Decimal("0.5"), 4: Decimal("0.25")})):
            frame = prices(60, 50)
            with Desk(frame) as desk:
                beside(frame)
                self.assertEqual(desk.insert({"price": "0.25"}), max(wanted))
                picture = desk.picture("top_level 5 low(price)")
                self.assertEqual({row.id: desk.record(row.numbers)["price"] for row in picture.rows}, wanted)
                self.assertEqual(sorted(row.id for row in picture.best), sorted(wanted))
                self.assertEqual((len(desk), desk.picture("top_level 5 low(price)")), (len(wanted), picture))

    def test_a_refusal_leaves_it_as_it_was(self):
        with Desk(prices(60, 50)) as desk:
            before, version = self.rows(desk), desk.version
            for call in (lambda: desk.insert({"price": ""}), lambda: desk.update(1, {"price": "-"}), lambda: desk.update(1, {"price": "922337203685477580.75"}),
                         lambda: desk.update(3, {"price": 0.5}), lambda: desk.insert({"price": "0.5", "nam": "x"}), lambda: desk.insert({"price": "0.5", "name": 5})):
                with self.assertRaises((ValueError, TypeError, prefq.Refused)):
                    call()
            self.assertEqual((self.rows(desk), desk.version), (before, version))
            self.assertEqual([str(column.kind) for column in desk.columns][0], "whole")

    def test_a_picture_keeps_its_values(self):
        with Desk(prices(60, 50)) as desk:
            seen = desk.picture("best high(price)")
            desk.insert({"price": "48.5"})
            self.assertEqual([seen.record(row.numbers)["price"] for row in seen.best], [60])
            now = desk.picture("best high(price)")
            self.assertEqual([now.record(row.numbers)["price"] for row in now.best], [60])

    def test_an_interruption_between_a_change_of_the_frame_and_its_note(self):
        with Desk(prices(60, 50)) as desk:
            for change, price in ((lambda: desk.insert({"price": 40}), 40), (lambda: desk.update(3, {"price": "30.5"}), Decimal("30.5"))):
                seen = desk.version
                with unittest.mock.patch.object(desk, "_note", side_effect=KeyboardInterrupt), self.assertRaises(KeyboardInterrupt):
                    change()
                picture = desk.picture("best low(price)")
                self.assertEqual([(row.id, desk.record(row.numbers)["price"]) for row in picture.best], [(3, price)])
                self.assertGreater(picture.version, seen)
                with self.refuses(prefq.Refused, "somebody else has changed"):
                    desk.update(3, {"price": 1}, seen=seen)

    def test_a_closed_desk_grows_nothing(self):
        with Desk(prices(60, 50)) as desk:
            desk.close()
            with self.assertRaises(prefq.Ended) as caught:
                desk.insert({"price": "48.5"})
            self.assertEqual((caught.exception.kind, str(desk.columns[0].kind)), ("closed", "whole"))


class Waiting(TestCase):
    def test_nobody_waits_for_a_client_with_the_lock(self):
        """All clients have open queries, and those who opened them wait for the desk, before they end these, while a row makes a column wider, or a picture is made."""
        for wanted in ("grows", "picture", "frame", "save"):
            with self.subTest(wanted), self.within(30), Desk(prefq.Frame.from_records([{"x": 1}, {"x": 2}], clients=2)) as desk, ThreadPoolExecutor(3) as pool:
                queries_are_open, release = threading.Barrier(3), threading.Event()

                def asks(number):
                    with desk.table.query("best low(c0)") as query:
                        queries_are_open.wait(30)
                        release.wait(30)
                        desk.insert({"x": number})
                        return query.answer().ids

                def changes():
                    if wanted == "picture":
                        return [row.id for row in desk.picture("best low(x)").best]
                    if wanted == "save":
                        with tempfile.TemporaryDirectory() as folder:
                            return desk._frame.save(Path(folder, "saved"))
                    return (desk if wanted == "grows" else desk._frame).insert({"x": "0.5"})

                asking = [pool.submit(asks, number) for number in (5, 6)]
                queries_are_open.wait(30)
                changing = pool.submit(changes)
                time.sleep(0.2)         # and it waits for a client
                release.set()
                self.assertEqual([future.result() for future in asking], [[1], [1]])
                # It comes behind the first of the two, or behind both.
                self.assertIn(changing.result(), {"grows": (4, 5), "frame": (4, 5), "picture": ([1],), "save": (None,)}[wanted])
                self.assertEqual(desk.table._engine.queries, {})

    def test_nobody_waits_for_a_client_with_the_lock_behind_an_interruption(self):
        """Rows are counted where code books are large, which takes a client, and are not where they are small."""
        for growth, change in ((-1, lambda frame: frame.delete(1)), (0, lambda frame: frame.update(1, {"price": 7}))):
            with self.subTest(growth), unittest.mock.patch("prefq.opened.BYTES_OF_GROWTH", growth), self.within(30), prices(60, 50, clients=1) as frame, ThreadPoolExecutor(1) as pool:
                with around(frame.table, "insert", behind=raises(KeyboardInterrupt())), self.assertRaises(KeyboardInterrupt):
                    frame.insert({"price": 40})
                with frame.table.query("best low(c0)") as query:
                    changing = pool.submit(frame.insert, {"price": 30})
                    time.sleep(0.2)         # and it waits for a client, or not
                    change(frame)
                    query.answer()
                self.assertEqual((changing.result(), len(frame)), (4, 3 if growth else 4))


class Closing(TestCase):
    def test_a_frame_that_is_closed_while_it_grows(self):
        frame = prices(60, 50)
        anew = frame._opened.anew

        def closed_meanwhile(*words):
            found = anew(*words)
            frame.close()
            return found

        with unittest.mock.patch.object(frame._opened, "anew", closed_meanwhile):
            with self.assertRaises(prefq.Ended) as caught:
                frame.insert({"price": "48.5"})
        self.assertEqual(caught.exception.kind, "closed")
        with self.assertRaises(prefq.Ended):
            frame.rows()

    def test_the_table_before_is_there_as_long_as_somebody_uses_it(self):
        with prices(60, 50) as frame:
            before = frame._opened
            frame.insert({"price": "48.5"})
            self.assertEqual(before.table.room(), 1024 - 2)
            engine = weakref.ref(before.table._engine)
            del before
            self.assertIsNone(engine())
            self.assertEqual([row.price for row in frame.rows()], [60, 50, Decimal("48.5")])

    def test_a_signal_handler_that_changes_a_frame_which_is_opened_anew(self):
        """The new table would not have it."""
        with prices(60, 50) as frame:
            anew, said = frame._opened.anew, []

            def changes_meanwhile(*words):
                found = anew(*words)
                with self.refuses(prefq.Refused, "under way in this thread", kind="client"):
                    frame.insert({"price": 1})
                said.append([row.price for row in frame.rows()])
                return found

            with unittest.mock.patch.object(frame._opened, "anew", changes_meanwhile):
                self.assertEqual(frame.insert({"price": "48.5"}), 3)
            self.assertEqual(said, [[60, 50]])
            self.assertEqual(frame.insert({"price": 1}), 4)

    def test_an_interruption_between_an_insert_and_the_note_of_its_id(self):
        """No later row gets the id."""
        with prices(60, 50) as frame:
            with around(frame.table, "insert", behind=raises(KeyboardInterrupt)), self.assertRaises(KeyboardInterrupt):
                frame.insert({"price": 40})
            self.assertEqual(frame.insert({"price": "48.5"}), 4)
            self.assertEqual([(row.id, row.price) for row in frame.rows()], [(1, 60), (2, 50), (3, 40), (4, Decimal("48.5"))])
