"""The server behind the page: pictures, changes, events, a program that ends, and requests that are wrong."""
import contextlib
import http.client
import json
import os
import random
import signal
import socket
import subprocess
import sys
import tempfile
import threading
import time
import unittest
from concurrent.futures import ThreadPoolExecutor
from pathlib import Path
from unittest import mock
from urllib.parse import urlencode

import prefq
from prefq import pictures
from prefq import replies
from prefq.desk import Desk, Held
from prefq.replies import MOST_BODY
from prefq.server import Server
from support import TestCase

PAGE = Path(replies.__file__).with_name("page")
EXAMPLES = Path(__file__).resolve().parents[2] / "examples"
RECORDS = [
    {"Hotel": "Quay <b>", "Price (EUR)": "59.90", "Distance": 900, "Opened": "2001-05-01"},
    {"Hotel": "Alpine", "Price (EUR)": "49.50", "Distance": 2500, "Opened": None},
    {"Hotel": "Garden", "Price (EUR)": "80", "Distance": 1200, "Opened": "1999-01-31"},
    {"Hotel": "Old Town", "Price (EUR)": None, "Distance": 100, "Opened": "2020-12-24"},
]
KINDS = {"Hotel": "text", "Price (EUR)": "decimal(2)", "Distance": "whole", "Opened": "date"}
QUESTION = 'top_level 2 low("Price (EUR)") * low(Distance)'


def kinds_of(records):
    """The kinds of the columns that these records have."""
    return {name: kind for name, kind in KINDS.items() if any(name in record for record in records)}


@contextlib.contextmanager
def served(records=RECORDS, kinds=None, **options):
    """A server on a free port, in a thread."""
    desk = Desk(prefq.Frame.from_records(records, kinds=kinds or kinds_of(records)))
    with desk, Server(desk, **options) as server:
        thread = threading.Thread(target=server.serve_forever, args=[0.05])
        thread.start()
        try:
            yield server
        finally:
            server.shutdown()
            thread.join()


def get(server, path, method="GET", body=None, headers=None):
    """A reply, and its body."""
    with contextlib.closing(http.client.HTTPConnection(*server.server_address[:2], timeout=30)) as connection:
        given = {"Content-Type": "application/json"} if body is not None else {}
        connection.request(method, path, json.dumps(body) if isinstance(body, (dict, list)) else body, {**given, **(headers or {})})
        reply = connection.getresponse()
        return reply, reply.read()


def ask(server, method, path, body=None, headers=None):
    """The status of a reply and its JSON."""
    reply, received = get(server, path, method, body, headers)
    return reply.status, json.loads(received)


def picture(server, question=QUESTION, **axes):
    return ask(server, "GET", f"/picture?{urlencode({'question': question, **axes})}")


class Events:
    """A stream of pictures, or that of another path."""

    def __init__(self, server, question=QUESTION, path="/events", **further):
        self._connection = http.client.HTTPConnection(*server.server_address[:2], timeout=30)
        self._connection.request("GET", f"{path}?{urlencode({'question': question, **further})}")
        self.reply = self._connection.getresponse()

    def __enter__(self):
        return self

    def __exit__(self, *_):
        self.reply.close()
        self._connection.close()

    def next(self):
        """The name of the next event, and what it says."""
        name, shown = "message", None
        while True:
            line = self.reply.readline().decode()
            if not line:
                return "end", None
            if line.startswith("event: "):
                name = line[7:].strip()
            elif line.startswith("data: "):
                shown = json.loads(line[6:])
            elif line == "\n" and shown is not None:
                return name, shown

    def until(self, version):
        while True:
            name, shown = self.next()
            if name != "message" or shown["version"] >= version:
                return shown


def exchange(server, data):
    """What a connection replies to these bytes."""
    with socket.create_connection(server.server_address[:2], timeout=30) as connection:
        connection.sendall(data)
        connection.shutdown(socket.SHUT_WR)
        return b"".join(iter(lambda: connection.recv(65_536), b""))


class Served(TestCase):
    """Tests of what any server of the page replies."""

    served = staticmethod(served)


class Pictures(Served):
    def test_about_and_the_files_of_the_page(self):
        with self.served(title="Hotels", questions=["best low(Distance)"]) as server:
            status, about = ask(server, "GET", "/about")
            self.assertEqual((status, about["title"], about["questions"], about["editable"]), (200, "Hotels", ["best low(Distance)"], True))
            self.assertEqual([(column["name"], column["spelled"], column["axis"]) for column in about["columns"]],
                             [("Hotel", "Hotel", False), ("Price (EUR)", '"Price (EUR)"', True), ("Distance", "Distance", True), ("Opened", "Opened", True)])
            for path, kind in [("/", "text/html"), ("/guide.html", "text/html"), ("/page.css", "text/css"), *((f"/{file.name}", "text/javascript") for file in PAGE.glob("*.js"))]:
                reply, body = get(server, path)
                self.assertEqual((reply.status, reply.getheader("Content-Type")), (200, f"{kind}; charset=utf-8"))
                self.assertIn("default-src 'none'", reply.getheader("Content-Security-Policy"))
                self.assertNotIn(b"http://", body.replace(b"http://www.w3.org/2000/svg", b""))
            for path in ("/no", "/../serve.py", "/page/../../serve.py", "/page.js/", "/rows"):
                self.assertEqual(ask(server, "GET", path)[0], 404, path)

    def test_heads_alone(self):
        with self.served() as server:
            for path, status in [("/", 200), ("/about", 200), (f"/picture?{urlencode({'question': QUESTION})}", 200), ("/events", 200), ("/no", 404), ("/picture?question=x", 400)]:
                reply, body = get(server, path, "HEAD")
                self.assertEqual((reply.status, body), (status, b""), path)
                if path != "/events":
                    self.assertEqual(reply.getheader("Content-Length"), str(len(get(server, path)[1])), path)
            self.assertEqual(ask(server, "OPTIONS", "/rows")[0], 501)

    def test_a_picture(self):
        with self.served() as server:
            status, shown = picture(server)
            self.assertEqual((status, shown["version"], shown["count"], shown["found"], shown["axes"]), (200, 1, 4, 4, ["Price (EUR)", "Distance"]))
            self.assertEqual([(row["id"], row["level"], row["x"], row["y"]) for row in shown["best"]], [(1, 1, 59.9, 900), (2, 1, 49.5, 2500), (4, 1, None, 100), (3, 2, 80, 1200)])
            self.assertEqual(shown["best"][0]["cells"], ["Quay <b>", "59.90", "900", "2001-05-01"])
            shown = picture(server, "best low(Distance)")[1]
            self.assertEqual(([row["id"] for row in shown["best"]], shown["others"][0]), ([4], [1, 900, 59.9, "Quay <b>", None]))
            self.assertEqual(shown["axes"], ["Distance", "Price (EUR)"])
            shown = picture(server, "best pos(Hotel, 'Alpine')", x="Opened", y="Distance")[1]
            self.assertEqual((shown["axes"], shown["best"][0]["x"], shown["others"][0][1]), (["Opened", "Distance"], None, 11_443))
            self.assertEqual((shown["notes"], picture(server, "best pos(Hotel, 'Xyz', 'Alpine')")[1]["notes"]), ([], ["no row of 'Hotel' has 'Xyz'"]))
            self.assertEqual(picture(server, "best low(Distance)", x="Hotel", y="nothing")[1]["axes"], ["Distance", "Price (EUR)"])

    def test_the_whole_answer_is_the_file_that_a_frame_writes(self):
        rng = random.Random(68)
        records = [{"Hotel": rng.choice(["a, b", 'c "d"', "é\n", "", "Nö"]), "Price (EUR)": rng.choice([None, f"{rng.uniform(-9, 9):.2f}", "90071992547409.93"]),
                    "Distance": rng.choice([None, rng.randint(-3, 3), 2**53 + rng.randint(0, 3)]), "Opened": rng.choice([None, "2001-05-01", "1999-12-31"])} for _ in range(900)]
        with self.served(records) as server, prefq.Frame.from_records(records, kinds=KINDS) as frame:
            for question in ("best low(Distance) * low(Opened)", "top_level 999 high(\"Price (EUR)\")", "at_least 40 pos(Hotel, 'Nö') & low(Distance) by Opened", "skyline of distinct Distance min"):
                reply, body = get(server, f"/answer.csv?{urlencode({'question': question})}")
                self.assertEqual((reply.status, reply.getheader("Content-Type"), body.decode()), (200, "text/csv; charset=utf-8", frame.best(question).to_csv()))
            self.assertEqual(ask(server, "GET", "/answer.csv?question=best+lo")[1]["place"], 5)

    def test_why_a_row_is_where_it_is(self):
        with self.served() as server:
            status, found = ask(server, "GET", f"/why?{urlencode({'question': QUESTION, 'id': 3})}")
            self.assertEqual((status, found["version"], found["row"], found["count"], found["asked"]), (200, 1, {"id": 3, "cells": ["Garden", "80.00", "1200", "1999-01-31"]}, 1, ["Price (EUR)", "Distance"]))
            self.assertEqual(found["rows"], [{"id": 1, "level": 1, "cells": ["Quay <b>", "59.90", "900", "2001-05-01"]}])
            for query, status, said in [({"question": "best lo", "id": 1}, 400, "lo"), ({"question": QUESTION, "id": 9}, 404, "no such row 9"), ({"question": QUESTION}, 400, "id is"),
                                        ({"question": QUESTION, "id": "-1"}, 404, "no such row -1"), ({"question": QUESTION, "id": "1.0"}, 400, "id is"), ({"question": QUESTION, "id": "9" * 40}, 400, "id is")]:
                replied = ask(server, "GET", f"/why?{urlencode(query)}")
                self.assertEqual(replied[0], status)
                self.assertIn(said, replied[1]["error"])

    def test_what_is_asked_beside_the_question(self):
        with self.served() as server:
            for beside, found, asked in [({"top": "1"}, [(1, 1)], ["Price (EUR)", "Distance"]), ({"top": "3"}, [(1, 1), (1, 2), (1, 4)], ["Price (EUR)", "Distance"]),
                                         ({"where": "Opened is not missing and Distance > 100"}, [(1, 1), (2, 3)], ["Price (EUR)", "Distance", "Opened"]),
                                         ({"where": "Hotel = 'Alpine'", "top": "2"}, [(1, 2)], ["Price (EUR)", "Distance", "Hotel"]), ({"where": "", "top": ""}, [(1, 1), (1, 2), (1, 4), (2, 3)], ["Price (EUR)", "Distance"])]:
                status, shown = picture(server, **beside)
                self.assertEqual((status, [(row["level"], row["id"]) for row in shown["best"]], shown["asked"], shown["count"]), (200, found, asked, 4), beside)
                lines = get(server, f"/answer.csv?{urlencode({'question': QUESTION, **beside})}")[1].decode().splitlines()
                self.assertEqual([tuple(map(int, line.split(",")[:2])) for line in lines[1:]], found)
            for beside, place, question, said in [({"where": "Distanze > 1"}, 0, "Distanze > 1", "no column 'Distanze'"), ({"where": "Distance >"}, 10, "Distance >", ""), ({"top": "0"}, None, None, "top is 0"),
                                                  ({"top": "1001"}, None, None, "top is 1001"), ({"top": "-1"}, None, None, "top is '-1'"), ({"top": "some"}, None, None, "top is 'some'")]:
                status, shown = picture(server, **beside)
                self.assertEqual((status, shown.get("place"), shown.get("question")), (400, place, question), shown)
                self.assertIn(said, shown["error"])
            self.assertEqual(ask(server, "GET", f"/why?{urlencode({'question': QUESTION, 'where': 'Distance < 900', 'id': 1})}")[1]["error"], "row 1 does not meet the condition")
            self.assertEqual([row["id"] for row in picture(server, 'best low("Price (EUR)" / Distance)', where='"Price (EUR)" is not missing')[1]["best"]], [2])

    def test_ranks_are_those_of_the_values(self):
        records = [{"Hotel": name, "Price (EUR)": price, "Distance": distance, "Opened": None}
                   for name, price, distance in [("b", "5", 2**53 + 1), ("A", None, 2**53), ("a", "-90071992547409.93", -1), ("", "90071992547409.93", None), ("b", "5.00", 2**53 + 1)]]
        with self.served(records) as server:
            shown = picture(server, "top_level 9 high(Distance)")[1]["best"]
            self.assertEqual({row["id"]: row["ranks"] for row in shown}, {1: [3, 1, 2, None], 2: [1, None, 1, None], 3: [2, 0, 0, None], 4: [0, 2, None, None], 5: [3, 1, 2, None]})

    def test_twins_of_a_distinct_clause(self):
        records = [{"Hotel": name, "Price (EUR)": price, "Distance": 1} for name, price in [("a", "5"), ("b", None), ("c", "5"), ("d", "5")]]
        with self.served(records) as server:
            shown = picture(server, 'skyline of distinct "Price (EUR)" min, Distance min')[1]
            self.assertEqual([row["id"] for row in shown["best"]], [1])

    def test_a_question_is_refused_at_its_character(self):
        with self.served() as server:
            for question, place, said in [("best low(Distanse)", 9, "did you mean Distance"), ("low(Distance)", 0, "write best low(Distance)"), ("best low(Distance) *", 20, "breaks off"),
                                          ("best pos(Hotel, 'Über', Nö)", 24, "unexpected Nö"), ("", 0, "begins with"), ("best low(Hotel)", 5, "no order"),
                                          ("best low(Distance)\nas 1 room", 19, "unexpected as"), ("best low(Distance) <script>", 19, "unexpected <")]:
                status, shown = picture(server, question)
                self.assertEqual((status, shown["kind"], shown["place"]), (400, "term", place), shown)
                self.assertIn(said, shown["error"])
                with Events(server, question) as events:
                    self.assertEqual(events.next(), ("refused", shown))
                    self.assertEqual(events.next()[0], "end")


class Changes(Served):
    def test_insert_update_delete(self):
        with self.served() as server:
            self.assertEqual(ask(server, "POST", "/rows", {"Hotel": "New", "Price (EUR)": "9.5", "Distance": 9, "Opened": ""}), (201, {"id": 5}))
            self.assertEqual(picture(server)[1]["best"][0]["cells"], ["New", "9.50", "9", ""])
            self.assertEqual(ask(server, "PUT", "/rows/5", {"Price (EUR)": 1200.25}), (200, {"id": 5}))
            self.assertEqual({row["id"]: row["cells"] for row in picture(server)[1]["best"]}[5], ["New", "1200.25", "9", ""])
            self.assertEqual(ask(server, "DELETE", "/rows/5"), (200, {"id": 5, "values": {"Hotel": "New", "Price (EUR)": "1200.25", "Distance": "9", "Opened": None}}))
            self.assertEqual(ask(server, "DELETE", "/rows/5")[0], 404)
            self.assertEqual(ask(server, "PUT", "/rows/99", {"Distance": 1})[0], 404)
            shown = picture(server)[1]
            self.assertEqual((shown["version"], shown["count"]), (4, 4))

    def test_wrong_values_change_nothing(self):
        with self.served() as server:
            for body, said in [({"Hotell": "x"}, "did you mean Hotel"), ({"Price (EUR)": "9.999"}, "decimals"), ({"Price (EUR)": "cheap"}, "no number"), ({"Distance": True}, "Distance"),
                               ({"Distance": 1.5}, "no whole number"), ({"Distance": 10**30}, "does not fit"), ({"Opened": "2001-02-30"}, "no date"), ({"Hotel": ["a"]}, "no text"),
                               ({"Hotel": {"a": 1}}, "no text"), ({"Hotel": "a\ud800"}, "half of a character"), ({"Distance": "1e400"}, ""), ({"Distance": float("inf")}, ""), ({"Price (EUR)": 10**400}, "")]:
                for method, path in [("POST", "/rows"), ("PUT", "/rows/1")]:
                    status, shown = ask(server, method, path, body)
                    self.assertEqual(status, 400, (body, shown))
                    self.assertIn(said, shown["error"])
            self.assertEqual((server.desk.version, len(server.desk)), (1, 4))

    def test_bodies_that_are_no_values(self):
        with self.served() as server:
            for body in (b"{", b"", b"\xff\xfe", b"[" * 50_000, b"[]", b"7", b"null", b'"x"', b'{"Distance": 1} 2', b'{"Distance": ' + b"9" * 20_000 + b"}"):
                self.assertEqual(ask(server, "POST", "/rows", body)[0], 400, body[:40])
            self.assertEqual(ask(server, "POST", "/rows", b"{}", {"Content-Type": "text/plain"})[0], 415)
            self.assertEqual(ask(server, "POST", "/rows", b" " * (MOST_BODY + 1))[0], 413)
            self.assertEqual(ask(server, "POST", "/other", {})[0], 404)
            for path in ("/rows/x", "/rows/-1", "/rows/1/2", "/rows/", f"/rows/{10**30}"):
                self.assertEqual(ask(server, "PUT", path, {})[0], 404, path)
            self.assertEqual(len(server.desk), 4)

    def test_several_requests_of_one_connection(self):
        with self.served() as server, contextlib.closing(http.client.HTTPConnection(*server.server_address[:2], timeout=30)) as connection:
            for number in range(3):
                connection.request("POST", "/rows", json.dumps({"Hotel": str(number)}), {"Content-Type": "application/json"})
                self.assertEqual(json.loads(connection.getresponse().read()), {"id": 5 + number})

    def test_rows_that_cannot_be_changed(self):
        with self.served(editable=False) as server:
            for method, path, body in [("POST", "/rows", {}), ("PUT", "/rows/1", {"Distance": 1}), ("DELETE", "/rows/1", None)]:
                self.assertEqual(ask(server, method, path, body)[0], 403)
            self.assertFalse(ask(server, "GET", "/about")[1]["editable"])

    def test_a_full_table(self):
        with self.served() as server:
            with mock.patch.object(prefq.Table, "insert", side_effect=prefq.Refused("full needed 9", "client", 8)):
                status, shown = ask(server, "POST", "/rows", {"Hotel": "x"})
            self.assertEqual((status, shown["number"]), (409, 8))
            self.assertEqual(ask(server, "POST", "/rows", {"Hotel": "x"}), (201, {"id": 5}))


class OfADesk(TestCase):
    """Whatever serves it."""

    def test_texts_alone(self):
        with Desk(prefq.Frame.from_records([{"Hotel": "b'"}, {"Hotel": "a"}])) as desk, Server(desk) as server:
            self.assertEqual(server.site.about["questions"], ["best pos(Hotel, 'b''')"])
            shown = pictures.picture(desk, pictures.Asked(server.site.about["questions"][0]))
            self.assertEqual(([row["cells"] for row in shown["best"]], shown["axes"]), ([["b'"]], [None, None]))

    def test_a_large_table_is_sampled(self):
        records = [{"Hotel": str(number), "Price (EUR)": number, "Distance": 5} for number in range(3000)]
        with served(records) as server:
            shown = picture(server, "best low(Distance)")[1]
            self.assertEqual((shown["count"], shown["found"], len(shown["best"]), shown["others"]), (3000, 3000, pictures.MOST_BEST, []))
            shown = picture(server, 'best low("Price (EUR)")')[1]
            self.assertEqual((shown["found"], len(shown["others"])), (1, 1500))

    def test_rows_are_sampled_whatever_their_ids_have_in_common(self):
        for first, step in ((1, 1), (1, 2), (1, 15), (0, 10), (5, 1000), (2**60, 4096), (-10**6, 7)):
            with self.subTest(first=first, step=step):
                rows = [Held(first + step * number, ()) for number in range(30_000)]
                some = pictures.sample(rows)
                self.assertAlmostEqual(len(some), pictures.MOST_OTHERS, delta=100)
                self.assertAlmostEqual(sum(row.id < rows[15_000].id for row in some), pictures.MOST_OTHERS / 2, delta=100)
                fewer = pictures.sample(rows[:-100])
                self.assertGreater(len(set(some) & set(fewer)), pictures.MOST_OTHERS - 50)

    def test_each_picture_is_one_snapshot(self):
        """While rows change, the answer of a picture is that over exactly its rows."""
        with served() as server:
            desk, stop = server.desk, threading.Event()

            def change(seed):
                chance, mine = random.Random(seed), []
                while not stop.is_set():
                    price = chance.randint(1, 100)
                    if len(mine) < 5:
                        mine.append(desk.insert({"Hotel": "h", "Price (EUR)": price, "Distance": 100 - price}))
                    elif chance.random() < 0.5:
                        desk.update(chance.choice(mine), {"Price (EUR)": price, "Distance": chance.randint(0, 100)})
                    else:
                        desk.delete(mine.pop(0))
            threads = [threading.Thread(target=change, args=[seed]) for seed in range(3)]
            for thread in threads:
                thread.start()
            try:
                versions = []
                for _ in range(40):
                    time.sleep(0.001)       # for the changes
                    seen = desk.picture("best around(Distance, 50)")
                    nearest = min(abs(row.numbers[2] - 50) for row in seen.rows)
                    self.assertEqual([row.id for row in seen.best], [row.id for row in seen.rows if abs(row.numbers[2] - 50) == nearest])
                    versions.append(seen.version)
            finally:
                stop.set()
                for thread in threads:
                    thread.join()
            self.assertEqual(versions, sorted(versions))
            self.assertGreater(len(set(versions)), 10)

    def test_whole_numbers_that_are_too_large_for_a_float(self):
        with Desk(prefq.Frame.from_records([{"x": 1.5}])) as desk:
            with self.refuses(ValueError, "column 'x'", "too large"):
                desk.insert({"x": 10**400})


class ManyThreads(TestCase):
    def test_nothing_is_lost_or_made_twice(self):
        """Threads change rows while the table is opened anew again and again, as it is for a wider column, and pictures are made."""
        with served() as server:
            desk, made, stop = server.desk, {}, threading.Event()

            def change(seed):
                for number in range(25):
                    id = desk.insert({"Hotel": f"{seed}-{number}", "Distance": number})
                    desk.update(id, {"Distance": number + 1})
                    made[id] = (f"{seed}-{number}", number + 1)
                    if number % 3 == 0:
                        desk.delete(id)
                        del made[id]

            def opens_anew():
                while not stop.is_set():
                    desk._frame._alone(lambda: (desk._frame._open_anew({}), setattr(desk, "_rows", desk._there())))
                    self.assertEqual(len(desk.picture("best low(Distance)").best) > 0, True)
                    stop.wait(0.1)
            with ThreadPoolExecutor(5) as pool:
                opens = pool.submit(opens_anew)
                try:
                    for done in [pool.submit(change, seed) for seed in range(4)]:
                        done.result()
                finally:
                    stop.set()
                opens.result()
            rows = {row.id: desk.record(row.numbers) for row in desk.picture("best low(Distance)").rows}
            self.assertEqual({id: (row["Hotel"], row["Distance"]) for id, row in rows.items() if id > 4}, made)
            self.assertEqual(sorted(numbers[2] for _, numbers in desk.table.rows()), sorted(row["Distance"] for row in rows.values()))

    def test_a_table_that_has_ended(self):
        with served() as server:
            server.desk.table.close()
            status, shown = picture(server)
            self.assertEqual((status, shown["error"]), (503, "the table was closed"))
            self.assertEqual(ask(server, "POST", "/rows", {"Hotel": "x"})[0], 503)
            with Events(server, "best high(Distance)") as events:       # and the browser will ask again
                self.assertEqual((events.next()[0], events.next()[0]), ("failed", "end"))


class CommandLine(TestCase):
    def setUp(self):
        folder = tempfile.TemporaryDirectory()
        self.addCleanup(folder.cleanup)
        self.file = Path(folder.name, "hotels.csv")
        self.file.write_text('Hotel,"Price (EUR)",Stars\nQuay,59.90,4.5\nAlpine,49.50,3\n"Old ""Town""",n/a,5\n')

    def start(self, *words):
        """The command, and the address that it says."""
        command = subprocess.Popen([sys.executable, *words], stderr=subprocess.PIPE, universal_newlines=True, env={**os.environ, "PYTHONPATH": str(Path(prefq.__file__).parents[1])})
        self.addCleanup(self.end, command)
        line = next(line for line in command.stderr if "taken for missing" not in line)
        self.assertIn("http://127.0.0.1:", line)
        return command, line.split("http://127.0.0.1:")[1].split("/")[0]

    def end(self, command):
        command.kill()
        command.wait()
        command.stderr.close()

    def get(self, port, path):
        with contextlib.closing(http.client.HTTPConnection("127.0.0.1", int(port), timeout=30)) as connection:
            connection.request("GET", path)
            return json.loads(connection.getresponse().read())

    def test_serve_a_file_until_interrupted(self):
        command, port = self.start("-m", "prefq", "serve", str(self.file), "--port", "0")
        about = self.get(port, "/about")
        self.assertEqual((about["title"], about["questions"]), ("hotels.csv", ['top_level 2 low("Price (EUR)") * low(Stars)']))
        self.assertEqual([row["cells"] for row in self.get(port, "/picture")["best"]], [["Alpine", "49.50", "3.0"], ["Quay", "59.90", "4.5"], ['Old "Town"', "", "5.0"]][:2])
        command.send_signal(signal.SIGINT)
        self.assertEqual(command.wait(20), 0)

    def test_the_booking_desk(self):
        _, port = self.start(str(EXAMPLES / "booking/booking.py"), "--port", "0", "--still")
        shown = self.get(port, "/picture")
        self.assertEqual((shown["count"], shown["axes"]), (60, ["Price (EUR)", "Distance (m)"]))
        for question in self.get(port, "/about")["questions"]:
            self.assertIn("best", self.get(port, f"/picture?{urlencode({'question': question})}"), question)

    def test_what_is_refused(self):
        wide = self.file.with_name("wide.csv")
        wide.write_text(",".join(f"c{number}" for number in range(17)) + "\n")
        with socket.socket() as taken:
            taken.bind(("127.0.0.1", 0))
            taken.listen()
            for words, status, said in [([str(self.file), "--question", "best low(Star)"], 2, "did you mean Stars"), (["/no/such.csv"], 2, "/no/such.csv"),
                                        ([str(self.file), "--columns", "Hotel,Starz"], 2, "Stars"), ([str(self.file), "--kind", "Stars"], 2, "COLUMN=KIND"),
                                        ([str(self.file), "--port", str(taken.getsockname()[1])], 1, "port"), ([str(self.file), "--port", "70000"], 1, "port"),
                                        ([str(self.file), "--port", "x"], 2, "--port"), ([], 2, "FILE.csv"), ([str(wide)], 2, "by --columns")]:
                done = subprocess.run([sys.executable, "-m", "prefq", "serve", *words], stderr=subprocess.PIPE, universal_newlines=True, timeout=60,
                                      env={**os.environ, "PYTHONPATH": str(Path(prefq.__file__).parents[1])})
                self.assertEqual(done.returncode, status, (words, done.stderr))
                self.assertIn(said, done.stderr)
                self.assertNotIn("Traceback", done.stderr)


if __name__ == "__main__":
    unittest.main()
