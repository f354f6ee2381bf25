"""The streams of events behind the page: pictures, versions, signs of life, and how many may watch."""
import contextlib
import threading
import time
import unittest
from unittest import mock

import prefq
from prefq import replies
from prefq.desk import Desk
from test_serve import Events, Served, ask


class Streams(Served):
    def test_several_browsers_see_the_same(self):
        with self.served() as server, Events(server) as first, Events(server) as second:
            self.assertEqual(first.reply.getheader("Content-Type"), "text/event-stream; charset=utf-8")
            begun = first.next()
            self.assertEqual((begun[0], begun), ("message", second.next()))
            ask(server, "POST", "/rows", {"Hotel": "New", "Price (EUR)": 1, "Distance": 1})
            shown = first.until(2)
            self.assertEqual((shown["version"], shown["best"][0]["cells"][0]), (2, "New"))
            self.assertEqual(second.until(2), shown)
            for number in range(50):
                server.desk.update(5, {"Price (EUR)": number})
            self.assertEqual(first.until(52), second.until(52))

    def test_a_picture_is_made_once_for_all_who_watch(self):
        with self.served() as server, mock.patch.object(Desk, "picture", autospec=True, side_effect=Desk.picture) as made:
            with contextlib.ExitStack() as stack:
                watching = [stack.enter_context(Events(server)) for _ in range(8)]
                for events in watching:
                    events.next()
                server.desk.update(1, {"Distance": 1})
                for events in watching:
                    self.assertEqual(events.until(2)["version"], 2)
            self.assertEqual(made.call_count, 2)

    def test_a_sign_of_life(self):
        with mock.patch.object(replies, "SECONDS_QUIET", 0.2), self.served() as server, Events(server) as events:
            events.next()
            self.assertEqual([events.reply.readline() for _ in range(3)], [b"event: alive\n", b"data:\n", b"\n"])

    def test_versions_are_told_whatever_a_picture_takes(self):
        """Two pictures are made at a time, and keep the stream of versions waiting for nothing."""
        release = threading.Event()

        def waits(*_):
            release.wait(30)
            raise prefq.Refused("late")

        with self.served() as server, mock.patch.object(Desk, "picture", waits), contextlib.ExitStack() as stack:
            for _ in range(2):
                stack.enter_context(Events(server))
            stack.callback(release.set)
            with mock.patch.object(replies, "SECONDS_QUIET", 0.2), Events(server, path="/changes") as events:
                for version in (1, 2):
                    self.assertEqual(events.next(), ("message", {"version": version, "run": server.site.about["run"]}))
                    server.desk.update(1, {"Distance": version})
                self.assertEqual(events.next()[1]["version"], 3)
                self.assertEqual([events.reply.readline() for _ in range(3)], [b"event: alive\n", b"data:\n", b"\n"])
            server.desk.close()
            with Events(server, path="/changes") as events:
                self.assertEqual((events.next()[1]["error"], events.next()[0]), ("the desk was closed", "end"))

    def test_a_stream_of_one_picture(self):
        with self.served() as server:
            with Events(server, once=1) as events:
                self.assertEqual((events.next()[1]["version"], events.next()), (1, ("end", None)))
            with Events(server, "best lo(x)", once=1) as events:
                self.assertEqual((events.next()[0], events.next()), ("refused", ("end", None)))

    def test_too_many_browsers(self):
        with mock.patch.object(replies, "MOST_STREAMS", 1), mock.patch.object(replies, "SECONDS_QUIET", 0.1), self.served() as server:
            with Events(server) as events:
                events.next()
                self.assertEqual(ask(server, "GET", "/events")[0], 503)
            end = time.monotonic() + 20
            while True:
                with Events(server) as events:
                    if events.reply.status == 200:
                        break
                self.assertLess(time.monotonic(), end)
                time.sleep(0.1)


if __name__ == "__main__":
    unittest.main()
