"""The same page as an ASGI application: under uvicorn, and mounted in a program of Starlette."""
import asyncio
import contextlib
import socket
import threading
import time
import unittest
from unittest import mock
from urllib.parse import quote

import prefq
import test_conflicts
import test_events
import test_http
import test_serve
from prefq import asgi, replies
from prefq.desk import Desk
from support import TestCase
from test_serve import KINDS, RECORDS, Events, ask, exchange, get, kinds_of

try:
    import uvicorn
except ImportError:
    uvicorn = None
try:
    from starlette.applications import Starlette
    from starlette.routing import Mount
except ImportError:
    Starlette = None


class Running:
    """What tests ask a server for."""

    def __init__(self, desk, site, address):
        self.desk, self.site, self.server_address = desk, site, address


def quick(server):
    """A server of uvicorn that looks more often whether it is to end."""
    async def wait():
        while not server.should_exit:
            await asyncio.sleep(0.01)
    server.main_loop = wait
    return server


@contextlib.contextmanager
def run(application, desk, site):
    """An application under uvicorn on a free port, in a thread."""
    server = quick(uvicorn.Server(uvicorn.Config(application, port=0, log_level="critical")))
    thread = threading.Thread(target=server.run)
    thread.start()
    try:
        while not server.started:
            time.sleep(0.005)
        yield Running(desk, site, server.servers[0].sockets[0].getsockname())
    finally:
        server.should_exit = server.force_exit = True
        thread.join()


@contextlib.contextmanager
def served(records=RECORDS, **options):
    with Desk(prefq.Frame.from_records(records, kinds=kinds_of(records))) as desk:
        application = asgi.application(desk, **options)
        with run(application, desk, application.site) as running:
            yield running


@contextlib.contextmanager
def mounted(path):
    """The page below a path of a program of Starlette."""
    with Desk(prefq.Frame.from_records(RECORDS, kinds=KINDS)) as desk:
        application = asgi.application(desk, title="Hotels")
        with run(Starlette(routes=[Mount(path, app=application)]), desk, application.site) as running:
            yield running


@unittest.skipUnless(uvicorn, "uvicorn is not installed")
class Uvicorn(TestCase):
    served = staticmethod(served)


class Pictures(Uvicorn, test_serve.Pictures):
    pass


class Changes(Uvicorn, test_serve.Changes):
    pass


class Streams(Uvicorn, test_events.Streams):
    pass


class Conflicts(Uvicorn, test_conflicts.Conflicts):
    pass


class Sites(Uvicorn, test_http.Sites):
    def bindings(self):
        return [{}]         # the server alone knows what it listens on


class Requests(Uvicorn):
    def test_a_body_that_ends_too_early_changes_nothing(self):
        with self.served() as server:
            for data in (test_http.HEAD + b"Content-Length: 60000\r\n\r\n" + test_http.ROW, test_http.HEAD + b"Transfer-Encoding: chunked\r\n\r\n5\r\n{}"):
                exchange(server, data)
            self.assertEqual((ask(server, "GET", "/about")[0], len(server.desk)), (200, 4))

    def test_a_body_in_chunks(self):
        with self.served() as server:
            self.assertEqual(ask(server, "POST", "/rows", iter([b'{"Hotel"', b': "x"}'])), (201, {"id": 5}))
            self.assertEqual(ask(server, "POST", "/rows", iter([b" " * 60_000] * 2))[0], 413)

    def test_a_body_has_its_time(self):
        with mock.patch.object(replies, "SECONDS_REQUEST", 0.2), self.served() as server, socket.create_connection(server.server_address[:2], timeout=30) as slow:
            slow.sendall(test_http.HEAD + b"Content-Length: 90\r\n\r\n{")
            with self.within(5):
                self.assertTrue(slow.recv(100).startswith(b"HTTP/1.1 408 "))

    def test_a_browser_that_takes_nothing_is_dropped(self):
        records = [{"Hotel": "x" * 30_000, "Price (EUR)": 1, "Distance": number} for number in range(60)]
        with mock.patch.object(replies, "SECONDS_STALLED", 0.2), mock.patch.object(replies, "SECONDS_BETWEEN", 0), self.served(records) as server:
            with Events(server, "top_level 999 high(Distance)") as events:
                version, end = events.next()[1]["version"], time.monotonic() + 20
                while server.site.streams._value < replies.MOST_STREAMS:
                    self.assertLess(time.monotonic(), end)
                    server.desk.update(1, {"Distance": version})
                    version += 1
                    time.sleep(0.02)

    def test_the_stream_ends_with_the_desk(self):
        with self.served() as server, Events(server) as events:
            events.next()
            server.desk.close()
            with self.within(5):
                self.assertEqual((events.next(), events.next()[0]), (("failed", {"error": "the desk was closed", "kind": "closed", "number": None, "question": None, "place": None}), "end"))


CAN_BE_MOUNTED = unittest.skipUnless(uvicorn and Starlette, "uvicorn or starlette is not installed")


@CAN_BE_MOUNTED
class Mounted(TestCase):
    def test_under_a_path(self):
        for path in ("/hotels", "/rows", "/a/b c"):
            with mounted(path) as server:
                at = quote(path)
                self.assertEqual(ask(server, "GET", f"{at}/about")[1]["title"], "Hotels")
                self.assertEqual(get(server, f"{at}/page.css")[0].status, 200)
                self.assertEqual(ask(server, "PUT", f"{at}/rows/1?seen=1", {"Distance": 3}), (200, {"id": 1}))
                self.assertEqual(ask(server, "GET", f"{at}/rows")[0], 404)
                self.assertIn(get(server, at)[0].status, (301, 302, 307, 308))

    def test_root_paths(self):
        """Whether or not the path that a framework hands on still has the root in it."""
        for root, path, raw, within in [("", "/about", b"/about", "/about"), ("/h", "/about", b"/h/about", "/about"), ("/h", "/h/about", b"/h/about", "/about"), ("/h", "/about", b"/about", "/about"),
                                        ("/rows", "/rows/7", b"/rows/rows/7", "/rows/7"), ("/h", "/h", b"/h", ""), ("/h", "/hotel", b"/hotel", "/hotel"), ("/h", "/h/", None, "/"),
                                        ("/a b", "/about", b"/a%20b/about", "/about")]:
            scope = {"root_path": root, "path": path, "raw_path": raw}
            self.assertEqual(asgi.path_within(scope), within, scope)
        self.assertEqual(asgi.path_within({"path": "/about"}), "/about")


class Alone(TestCase):
    """Without a server."""

    def test_what_is_no_request(self):
        sent = []

        async def send(message):
            sent.append(message["type"])

        async def receive():
            return {"type": ["lifespan.startup", "lifespan.shutdown"][len(sent) % 2]}
        with Desk(prefq.Frame.from_records(RECORDS, kinds=KINDS)) as desk:
            for kind in ("lifespan", "websocket"):
                asyncio.run(asgi.application(desk)({"type": kind}, receive, send))
        self.assertEqual(sent, ["lifespan.startup.complete", "lifespan.shutdown.complete", "websocket.close"])

    def test_a_path_that_ends_early_leads_to_the_same_path(self):
        """Some frameworks mount an application at a path of the browser's own, which may have signs that end a header, or begin a query."""
        sent = []

        async def send(message):
            sent.append(message)
        with Desk(prefq.Frame.from_records(RECORDS, kinds=KINDS)) as desk:
            for path in ("/hotels", "/what?", "/a b/ö", "/x\r\nSet-Cookie: a=b"):
                sent.clear()
                scope = {"type": "http", "method": "GET", "root_path": path, "path": path, "raw_path": quote(path).encode(), "query_string": b"", "headers": []}
                asyncio.run(asgi.application(desk)(scope, None, send))
                self.assertEqual((sent[0]["status"], dict(sent[0]["headers"])[b"location"]), (307, f"{quote(path)}/".encode()))


if __name__ == "__main__":
    unittest.main()
