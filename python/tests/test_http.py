"""The page over http.server: requests that are none, slow ones, many connections, and pages of other sites."""
import contextlib
import errno
import http.client
import json
import re
import select
import socket
import time
import unittest
from decimal import Decimal
from unittest import mock

from prefq import replies
from prefq import server as server_module
from prefq.hosts import Hosts
from support import TestCase, raises
from test_serve import Events, Served, ask, exchange, get, picture, served

HEAD = b"POST /rows HTTP/1.1\r\nHost: 127.0.0.1\r\nContent-Type: application/json\r\n"
ROW = b'{"Hotel": "x"}'


def statuses(reply):
    """Those of several replies to one connection."""
    return re.findall(rb"HTTP/1.1 (\d+) ", reply)


class Subscribers(TestCase):
    """Who is told of each change."""

    def test_a_change_of_which_somebody_is_told_and_raises_is_replied_as_made(self):
        told = []
        with served() as server, mock.patch("threading.excepthook", lambda why: told.append(str(why.exc_value))):
            count = len(server.desk)
            server.desk.subscribe(raises(ValueError("a subscriber")))
            self.assertEqual(ask(server, "POST", "/rows", {"Hotel": "New"}), (201, {"id": count + 1}))
            self.assertEqual(ask(server, "DELETE", f"/rows/{count + 1}")[0], 200)
            self.assertEqual((len(server.desk), told), (count, ["a subscriber"] * 2))


class Sites(Served):
    """Pages of other sites, over any server."""

    def test_a_page_of_another_site_cannot_ask(self):
        for options in self.bindings():
            with self.served(**options) as server:
                host, port = server.server_address[:2]
                for headers, status in [({}, 200), ({"Origin": f"http://{host}:{port}"}, 200), ({"Origin": "http://evil.example"}, 403), ({"Origin": "null"}, 403),
                                        ({"Origin": f"http://{host}:{port + 1}"}, 403), ({"Sec-Fetch-Site": "cross-site"}, 403), ({"Sec-Fetch-Site": "same-origin"}, 200)]:
                    self.assertEqual(ask(server, "PUT", "/rows/1", {"Distance": 1}, headers)[0], status, (options, headers))
                    self.assertEqual(ask(server, "GET", "/picture", headers=headers)[0], status, (options, headers))
                # A link on another site may lead here.
                self.assertEqual(get(server, "/", headers={"Sec-Fetch-Site": "cross-site", "Sec-Fetch-Mode": "navigate"})[0].status, 200)

    def test_a_name_that_leads_here_is_not_that_of_the_page(self):
        for options in self.bindings():
            with self.served(**options, allow_hosts=["Page.example"]) as server:
                port = server.server_address[1]
                for host, status in [(f"evil.example:{port}", 403), ("evil.example", 403), (f"localhost:{port}", 200), (f"127.0.0.1:{port}", 200), ("page.example", 200),
                                     ("127.0.0.1@evil.example", 403), ("127.0.0.1:80:80", 403), ("", 403)]:
                    self.assertEqual(ask(server, "GET", "/about", headers={"Host": host})[0], status, (options, host))
                    self.assertEqual(ask(server, "PUT", "/rows/1", {"Distance": 1}, {"Host": host, "Origin": f"http://{host}"})[0], status, (options, host))

    def bindings(self):
        return [{}, {"host": "0.0.0.0"}, {"host": "127.0.0.2"}]


class Numbers(TestCase):
    def test_a_number_keeps_all_digits_that_it_is_sent_with_or_is_refused(self):
        """As floats 92233720368547758.07 would be 92233720368547760.00, and 1e400 infinite."""
        sent = [("price", "92233720368547758.07"), ("price", "-12345678901234567.5"), ("price", "0.10"), ("dist", "9223372036854775807"), ("dist", "5e2"), ("stars", "4.9")]
        with served([{"price": "1", "dist": 2, "stars": 4.5}], {"price": "decimal(2)", "dist": "whole", "stars": "float"}) as server:
            def cells():
                return dict(zip(["price", "dist", "stars"], picture(server, "best low(price)")[1]["best"][0]["cells"]))

            for name, number in sent:
                self.assertEqual(ask(server, "PUT", "/rows/1", f'{{"{name}": {number}}}'), (200, {"id": 1}))
                self.assertEqual(Decimal(cells()[name]), Decimal(number))
            for number, said in [("1e400", "column 'stars' (float)"), ("92233720368547758.07", "column 'stars' (float)"), ("NaN", "no JSON"), ("-Infinity", "no JSON")]:
                status, shown = ask(server, "PUT", "/rows/1", f'{{"stars": {number}}}')
                self.assertEqual(status, 400, number)
                self.assertIn(said, shown["error"])
            self.assertEqual(ask(server, "PUT", "/rows/1", '{"stars": 1, "dist": 2, "stars": 3}'), (400, {"error": "a name stands twice in an object of the body"}))
            self.assertEqual(cells()["stars"], "4.9")


class Names(TestCase):
    def test_names_of_a_page(self):
        for bound, yes, no in [("127.0.0.1", ["localhost", "LOCALHOST.", "[::1]", "127.0.0.1"], ["192.168.1.5", "evil.example", "127.0.0.2", "[::2]"]),
                               ("192.168.1.5", ["192.168.1.5", "localhost"], ["192.168.1.6", "evil.example"]), ("desk.lan", ["desk.lan", "Desk.LAN"], ["lan", "10.0.0.1"]),
                               ("::", ["192.168.1.5", "[fe80::1]", "localhost"], ["evil.example", "1.2.3.4.example"]), (None, ["10.0.0.1"], ["evil.example"]),
                               ("::ffff:127.0.0.9", ["127.0.0.9", "[::ffff:7f00:9]"], ["127.0.0.8"])]:
            hosts = Hosts(bound)
            self.assertEqual([hosts.has(name) for name in [*yes, *no]], [True] * len(yes) + [False] * len(no), bound)
        self.assertTrue(Hosts("127.0.0.1", ["*"]).has("evil.example"))

    def test_origins(self):
        hosts = Hosts("0.0.0.0", ["page.example"])
        for host, origin, is_ours in [("page.example", "https://page.example", True), ("page.example", "http://page.example:80", True), ("page.example:443", "https://page.example", True),
                                      ("page.example", "https://page.example:8443", False), ("page.example", "ftp://page.example", False), ("page.example", "http://page.example/x", False),
                                      ("[::1]:80", "http://[::1]", True), ("page.example", "http://page.example, http://evil.example", False)]:
            self.assertEqual(hosts.refusal({"host": host, "origin": origin}) is None, is_ours, (host, origin))


class Requests(TestCase):
    def test_requests_that_are_no_requests(self):
        with served() as server:
            for data, status in [(HEAD + b"\r\n", b"411"), (HEAD + b"Content-Length: -1\r\n\r\n", b"411"), (HEAD + b"Content-Length: 1e3\r\n\r\n", b"411"),
                                 (HEAD + b"Content-Length: 99999999999\r\n\r\n", b"413"), (HEAD + b"Content-Length: 50\r\n\r\n{", b"400"),
                                 (b"GET / HTTP/1.1\r\nHost: evil.example\r\nConnection: close\r\n\r\n", b"403"), (b"PATCH / HTTP/1.1\r\nHost: 127.0.0.1\r\nConnection: close\r\n\r\n", b"501"),
                                 (b"GET /" + b"a" * 70_000 + b" HTTP/1.1\r\n\r\n", b"414"), (b"\x16\x03\x01\r\n\r\n", b"400"), (b"GET /about\r\nHost: 127.0.0.1\r\n\r\n", b"400"),
                                 (b"GET / HTTP/1.1\r\nHost: 127.0.0.1\r\n" + b"X: y\r\n" * 200 + b"\r\n", b"431"), (b"GET / HTTP/1.1\r\nX: " + b"y" * 70_000 + b"\r\n\r\n", b"431"),
                                 (b"GET / HTTP/2.0\r\nHost: 127.0.0.1\r\n\r\n", b"505"), (b"GET http://[/ HTTP/1.1\r\nHost: 127.0.0.1\r\nConnection: close\r\n\r\n", b"400")]:
                reply = exchange(server, data)
                self.assertEqual(statuses(reply), [status], (data[:80], reply[:200]))
                head, _, body = reply.partition(b"\r\n\r\n")
                self.assertIn("error", json.loads(body))
                self.assertIn(b"Content-Security-Policy: default-src 'none'", head)
            # The body of a refused request is not taken for the next request.
            inner = b"DELETE /rows/1 HTTP/1.1\r\nHost: 127.0.0.1\r\n\r\n"
            reply = exchange(server, b"POST /other HTTP/1.1\r\nHost: 127.0.0.1\r\nContent-Length: %d\r\n\r\n" % len(inner) + inner)
            self.assertEqual((statuses(reply), len(server.desk)), ([b"404"], 4))
            self.assertEqual(picture(server)[0], 200)

    def test_heads_of_which_others_read_something_else(self):
        """No request is hidden behind another one's body, whatever a proxy takes for its length."""
        behind = b"DELETE /rows/2 HTTP/1.1\r\nHost: 127.0.0.1\r\n\r\n"
        length = b"Content-Length: %d\r\n" % len(ROW)
        with served() as server:
            for more in (length + b"Transfer-Encoding: chunked\r\n", b"Transfer-Encoding: chunked\r\n", length + b"Content-Length: 3\r\n", length + length, length + b"Host: evil.example\r\n",
                         length + b"X: a\rContent-Length: 3\r\n", length + b"X: a\r\n b\r\n", length + b"X : a\r\n", length + b"X\r\n", length + b"X: a\0\r\n", length + b": x\r\n"):
                reply = exchange(server, HEAD + more + b"\r\n" + ROW + behind)
                self.assertEqual((statuses(reply), len(server.desk)), ([b"400"], 4), (more, reply))
                self.assertIn(b"Connection: close", reply)
            self.assertEqual(statuses(exchange(server, b"GET /about HTTP/1.1\r\n\r\n")), [b"400"])
            self.assertEqual(server.desk.version, 1)
            self.assertEqual(statuses(exchange(server, HEAD + length + b"\r\n" + ROW + behind)), [b"201", b"200"])

    def test_a_body_that_ends_too_early_changes_nothing(self):
        with served() as server:
            reply = exchange(server, HEAD + b"Content-Length: 60000\r\n\r\n" + ROW)
            self.assertEqual((statuses(reply), len(server.desk)), ([b"400"], 4))

    def test_a_blank_line_before_a_request(self):
        with served() as server:
            request = b"GET /about HTTP/1.1\r\nHost: 127.0.0.1\r\n"
            self.assertEqual(statuses(exchange(server, b"\r\n" + request + b"\r\n\r\n" + request + b"Connection: close\r\n\r\n")), [b"200", b"200"])

    def test_no_delay(self):
        """Replies do not wait for the browser's acknowledgement, which takes 40 ms."""
        with served() as server, contextlib.closing(http.client.HTTPConnection(*server.server_address[:2], timeout=30)) as connection:
            seconds = []
            for _ in range(15):
                begun = time.monotonic()
                connection.request("GET", "/about")
                connection.getresponse().read()
                seconds.append(time.monotonic() - begun)
            self.assertLess(sorted(seconds)[2], 0.03)


class Connections(TestCase):
    def test_a_slow_request_holds_up_nobody(self):
        with served() as server, socket.create_connection(server.server_address[:2]) as slow:
            slow.sendall(HEAD)
            with self.within(5):
                self.assertEqual(picture(server)[0], 200)

    def test_a_request_has_its_time(self):
        """However often a byte of it comes."""
        with mock.patch.object(replies, "SECONDS_REQUEST", 0.3), served() as server:
            for data in (b"P", HEAD + b"Content-Length: 90\r\n\r\n"):
                with socket.create_connection(server.server_address[:2], timeout=30) as slow, self.within(5):
                    slow.sendall(data)
                    with contextlib.suppress(OSError):
                        for _ in range(60):
                            slow.sendall(b"x")
                            if select.select([slow], [], [], 0.05)[0]:
                                break
                    self.assertTrue(slow.recv(100).startswith(b"HTTP/1.1 408 "))
            self.assertEqual(len(server.desk), 4)

    def test_a_silent_connection_is_ended_for_another_one(self):
        with mock.patch.object(server_module, "MOST_CONNECTIONS", 3), served() as server, contextlib.ExitStack() as stack:
            silent = [stack.enter_context(socket.create_connection(server.server_address[:2], timeout=30)) for _ in range(8)]
            with self.within(5):
                self.assertEqual(ask(server, "GET", "/about")[0], 200)
                self.assertEqual([connection.recv(1) for connection in silent[:5]], [b""] * 5)

    def test_connections_that_are_in_use_are_not_ended(self):
        with mock.patch.object(server_module, "MOST_CONNECTIONS", 2), served() as server, Events(server) as first, Events(server) as second:
            first.next()
            second.next()
            self.assertEqual(ask(server, "GET", "/about")[0], 503)
            server.desk.update(1, {"Distance": 3})
            self.assertEqual(first.until(2), second.until(2))

    def test_without_descriptors_it_waits(self):
        with served() as server, mock.patch.object(server, "socket", mock.Mock(wraps=server.socket, accept=mock.Mock(side_effect=OSError(errno.EMFILE, "too many")))) as full:
            with socket.create_connection(server.server_address[:2]):
                time.sleep(0.5)
            self.assertTrue(1 <= full.accept.call_count <= 10, full.accept.call_count)

    def test_a_request_of_a_connection_that_was_ended_is_not_done(self):
        with served() as server, socket.create_connection(server.server_address[:2], timeout=30) as connection:
            connection.sendall(HEAD + b"Content-Length: %d\r\n\r\n" % len(ROW) + ROW[:-1])
            while not server._make_room():
                time.sleep(0.01)
            with contextlib.suppress(OSError):
                connection.sendall(ROW[-1:])
                connection.recv(1)
            self.assertEqual(len(server.desk), 4)

    def test_a_browser_that_takes_nothing_is_dropped(self):
        records = [{"Hotel": "x" * 400, "Price (EUR)": 1, "Distance": number} for number in range(400)]
        with mock.patch.object(replies, "SECONDS_STALLED", 0.3), mock.patch.object(replies, "SECONDS_BETWEEN", 0), served(records) as server:
            with Events(server, "best high(Distance)") as events:
                stalled = events.next()[1]["version"]
                end = time.monotonic() + 20
                while server.site.streams._value < replies.MOST_STREAMS:
                    self.assertLess(time.monotonic(), end)
                    server.desk.update(1, {"Distance": stalled})
                    stalled += 1
                    time.sleep(0.005)


if __name__ == "__main__":
    unittest.main()
