"""Rows that several people change: what one of them has not seen is not overwritten."""
import pickle
import sys
import threading
import unittest
import unittest.mock
from contextlib import nullcontext, suppress
from datetime import datetime
from zoneinfo import ZoneInfo

import prefq
from interrupting import Interrupter, Interruption
from prefq.desk import Changed, Desk
from support import TestCase
from test_serve import KINDS, RECORDS, Served, ask, picture


class Conflicts(Served):
    def cells(self, server, id):
        return {row["id"]: row["cells"] for row in picture(server, "top_level 9 low(Distance)")[1]["best"]}[id]

    def test_what_others_have_changed_is_not_overwritten(self):
        with self.served() as server:
            seen = picture(server)[1]["version"]
            self.assertEqual(ask(server, "PUT", "/rows/1", {"Price (EUR)": "20", "Opened": None})[0], 200)
            status, shown = ask(server, "PUT", f"/rows/1?seen={seen}", {"Price (EUR)": "45", "Distance": 1})
            self.assertEqual((status, shown["kind"], shown["version"], shown["values"]), (409, "changed", 2, {"Price (EUR)": "20.00", "Opened": None}))
            self.assertEqual(shown["error"], 'somebody else has changed "Price (EUR)" of row 1 since')
            self.assertEqual((self.cells(server, 1), server.desk.version), (["Quay <b>", "20.00", "900", ""], 2))
            self.assertEqual(ask(server, "PUT", f"/rows/1?seen={shown['version']}", {"Price (EUR)": "45", "Distance": 1})[0], 200)
            self.assertEqual(self.cells(server, 1), ["Quay <b>", "45.00", "1", ""])

    def test_others_may_change_other_values_of_the_row(self):
        with self.served() as server:
            ask(server, "PUT", "/rows/1", {"Price (EUR)": "20"})
            ask(server, "PUT", "/rows/2", {"Distance": 5})
            self.assertEqual(ask(server, "PUT", "/rows/1?seen=1", {"Distance": 7}), (200, {"id": 1}))
            self.assertEqual(self.cells(server, 1)[1:3], ["20.00", "7"])

    def test_a_value_that_is_set_to_what_it_is_has_not_changed(self):
        with self.served() as server:
            ask(server, "PUT", "/rows/1", {"Price (EUR)": "59.9", "Distance": 7})
            self.assertEqual(ask(server, "PUT", "/rows/1?seen=1", {"Price (EUR)": "21"})[0], 200)

    def test_without_a_version_the_last_one_counts(self):
        with self.served() as server:
            ask(server, "PUT", "/rows/1", {"Price (EUR)": "20"})
            self.assertEqual(ask(server, "PUT", "/rows/1", {"Price (EUR)": "45"})[0], 200)
            self.assertEqual(self.cells(server, 1), ["Quay <b>", "45.00", "900", "2001-05-01"])

    def test_a_row_that_others_have_changed_is_not_deleted(self):
        with self.served() as server:
            ask(server, "PUT", "/rows/1", {"Distance": 5})
            status, shown = ask(server, "DELETE", "/rows/1?seen=1")
            self.assertEqual((status, shown["values"], len(server.desk)), (409, {"Distance": "5"}, 4))
            self.assertEqual(ask(server, "DELETE", f"/rows/1?seen={shown['version']}")[1]["values"]["Distance"], "5")
            self.assertEqual((ask(server, "DELETE", "/rows/1?seen=9")[0], len(server.desk)), (404, 3))

    def test_a_version_that_is_none_of_this_desk_saw_nothing(self):
        """As where the server was started anew."""
        with self.served() as server:
            self.assertEqual(ask(server, "PUT", "/rows/1?seen=77", {"Distance": 5})[1]["values"]["Distance"], "900")
            for wrong in ("", "-1", "x", "1.5", "9" * 40):
                self.assertEqual(ask(server, "PUT", f"/rows/1?seen={wrong}", {"Distance": 5})[0], 400, wrong)
            self.assertEqual(server.desk.version, 1)

    def test_a_page_of_a_server_that_has_ended_changes_nothing(self):
        """Whose version may be one of this desk too, and whose rows were others."""
        with self.served() as server:
            run, seen = ask(server, "GET", "/about")[1]["run"], picture(server)[1]["version"]
        with self.served() as server:
            for method, path, values in (("PUT", f"/rows/1?seen={seen}&", {"Distance": 5}), ("DELETE", f"/rows/1?seen={seen}&", None), ("POST", "/rows?", {"Distance": 5})):
                status, shown = ask(server, method, f"{path}run={run}", values)
                self.assertEqual((status, shown), (409, {"error": "the page shows rows of a server that has ended: load it again"}))
            self.assertEqual((server.desk.version, len(server.desk)), (1, 4))
            self.assertEqual(ask(server, "PUT", f"/rows/1?seen={seen}&run={ask(server, 'GET', '/about')[1]['run']}", {"Distance": 5})[0], 200)

    def test_a_time_that_clocks_show_twice_has_changed(self):
        """Python finds both equal."""
        first = datetime(2026, 10, 25, 2, 30, tzinfo=ZoneInfo("Europe/Paris"))
        with Desk(prefq.Frame.from_records([{"at": first}])) as desk:
            desk.update(1, {"at": first.replace(fold=1)})
            with self.assertRaises(Changed) as caught:
                desk.update(1, {"at": first.replace(hour=9)}, seen=1)
            self.assertEqual(caught.exception.values["at"].fold, 1)

    @unittest.skipIf(sys.version_info < (3, 11), "where Python calls signal handlers is known of 3.11 and later")
    def test_what_a_change_that_was_interrupted_has_made_is_not_overwritten(self):
        """Nor where the look at what it has made is interrupted, too."""
        for again in (False, True):
            made = 0
            for place in range(1, 10_000, 3):
                interrupter = Interrupter(place)
                with Desk(prefq.Frame.from_records([{"x": 1, "y": 1}, {"x": 2, "y": 2}])) as desk:
                    with suppress(Interruption):
                        if again:
                            with unittest.mock.patch.object(desk, "_note", side_effect=Interruption), suppress(Interruption):
                                desk.update(1, {"x": 5})
                        interrupter.runs(lambda: desk.picture("best low(x)") if again else desk.update(1, {"x": 5}))
                        break
                    is_made = desk._frame.get(1).x == 5
                    with self.subTest(where=interrupter.where, again=again), self.assertRaises(Changed) if is_made else nullcontext():
                        desk.update(1, {"x": 7}, seen=1)
                    made += is_made
            self.assertGreater(made, 5)

    def test_what_is_deleted_can_be_sent_again(self):
        text = " a\n\tb\r\n"
        with self.served([*RECORDS, {"Hotel": text, "Price (EUR)": "1.10", "Distance": None, "Opened": None}, {"Hotel": "", "Price (EUR)": None, "Distance": 1, "Opened": None}]) as server:
            def row(id):
                return next(server.desk.record(row.numbers) for row in server.desk.picture("best low(Distance)").rows if row.id == id)
            for id, values in [(5, [text, "1.10", None, None]), (6, ["", None, "1", None])]:
                before = row(id)
                deleted = ask(server, "DELETE", f"/rows/{id}")[1]["values"]
                self.assertEqual(list(deleted.values()), values)
                again = ask(server, "POST", "/rows", deleted)[1]["id"]
                self.assertEqual(row(again), before)


class Versions(TestCase):
    def test_they_outlive_the_table(self):
        """Which is opened anew where a column becomes wider."""
        with Desk(prefq.Frame.from_records([{"hotel": "Quay", "price": 60}, {"hotel": "Alpine", "price": 50}])) as desk:
            desk.update(2, {"price": 5})
            desk.delete(1)
            before = desk.table
            desk.insert({"price": "48.5"})
            self.assertIsNot(desk.table, before)
            with self.refuses(Changed, "price of row 2", kind="changed"):
                desk.update(2, {"price": 6}, seen=1)
            desk.update(2, {"price": 6}, seen=2)

    def test_of_several_writers_one_at_a_time_is_told_nothing_new(self):
        """Each adds to a number that it has seen: none of the sums is lost."""
        with Desk(prefq.Frame.from_records([{"count": 0}])) as desk:
            def add():
                for _ in range(10):
                    while True:
                        seen = desk.picture("best low(count)")
                        try:
                            desk.update(1, {"count": seen.rows[0].numbers[0] + 1}, seen=seen.version)
                            break
                        except Changed:
                            pass
            threads = [threading.Thread(target=add) for _ in range(3)]
            for thread in threads:
                thread.start()
            for thread in threads:
                thread.join()
            self.assertEqual(desk.picture("best low(count)").rows[0].numbers, (30,))

    def test_a_refused_change_leaves_no_text_behind(self):
        with Desk(prefq.Frame.from_records(RECORDS, kinds=KINDS)) as desk:
            texts = desk.columns[0].kind.texts
            desk.update(1, {"Hotel": "Quay <b>"})
            for change in (lambda: desk.insert({"Hotel": "x", "Price (EUR)": "cheap"}), lambda: desk.update(1, {"Hotel": "y", "Distance": "far"}), lambda: desk.update(99, {"Hotel": "z"}),
                           lambda: desk.insert({"Hotel": "x", "Stars": 1})):
                with self.assertRaises((ValueError, prefq.Refused)):
                    change()
            desk.update(1, {"Distance": 5})
            with self.assertRaises(Changed):
                desk.update(1, {"Hotel": "w", "Distance": 6}, seen=1)
            self.assertEqual(desk.columns[0].kind.texts, texts)

    def test_a_conflict_can_be_pickled(self):
        why = pickle.loads(pickle.dumps(Changed("row 7", 12, {"x": 1})))
        self.assertEqual((str(why), why.kind, why.version, why.values), ("row 7", "changed", 12, {"x": 1}))


if __name__ == "__main__":
    unittest.main()
