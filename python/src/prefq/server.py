"""The page over http.server, which needs nothing but Python: `prefq.replies` says what is replied, and `prefq.asgi` is for servers that people have already.

Each connection has a thread. A request has to come within its time, and where there are too many connections, the one that has kept a request waiting for longest
is ended for a new one.
"""
import contextlib
import errno
import io
import re
import socket
import sys
import threading
import time
from email.utils import formatdate
from http import HTTPStatus
from http.server import BaseHTTPRequestHandler, ThreadingHTTPServer
from socketserver import TCPServer
from typing import Any, Dict, Iterable, List, Optional, Sequence, Set, Tuple, Union
from urllib.parse import urlsplit

from . import replies
from .desk import Desk
from .errors import Ended
from .hosts import Hosts
from .replies import FAULTS, Reply, Request, Route, Site, Watch, Wrong, as_json

MOST_CONNECTIONS = 400      # more than the browsers that may watch, fewer than the files that a program may have open
SECONDS_IDLE = 30.0         # until the first byte of another request
MOST_HEAD = 65_536          # bytes of the first line of a request, and of those below it
SEND_BUFFER = 65_536        # bytes that the system keeps for a browser that watches; it would take millions, from one that reads nothing
NO_DESCRIPTORS = (errno.EMFILE, errno.ENFILE, errno.ENOBUFS, errno.ENOMEM)
BLANK = (b"\r\n", b"\n")
HEADER = re.compile(rb"[!#$%&'*+.^_`|~0-9A-Za-z-]+:[^\0\r\n]*\r?\n")


class Server(ThreadingHTTPServer):
    """Serves a desk. `port` 0 takes a free port; `url` says where it is. `allow_hosts` are names under which the page may be asked for, beside the address that is
    listened on and localhost."""

    daemon_threads = True
    request_queue_size = 64

    def __init__(self, desk: Desk, *, host: str = "127.0.0.1", port: int = 0, title: str = "prefq", questions: Sequence[str] = (), editable: bool = True,
                 allow_hosts: Sequence[str] = ()) -> None:
        self.desk = desk
        self.site = Site(desk, Hosts(host, allow_hosts), title=title, questions=questions, editable=editable)
        self.closing = threading.Event()
        self._lock = threading.Lock()
        self._open: Set[socket.socket] = set()
        self._reading: Dict[socket.socket, None] = {}       # those whose request is not there yet, the one that waits for longest first
        self.address_family = socket.AF_INET6 if ":" in host else socket.AF_INET
        super().__init__((host, port), Handler)

    @property
    def url(self) -> str:
        host, port = str(self.server_address[0]), self.server_address[1]
        return f"http://{f'[{host}]' if ':' in host else host}:{port}/"

    def server_bind(self) -> None:
        """Without a look at the name of this machine, for which a name server may be waited for."""
        TCPServer.server_bind(self)
        self.server_name, self.server_port = str(self.server_address[0]), int(self.server_address[1])

    def handle_error(self, request: Any, client_address: Any) -> None:
        if not isinstance(sys.exc_info()[1], OSError):      # a browser that has gone is no error
            super().handle_error(request, client_address)

    def server_close(self) -> None:
        self.closing.set()
        super().server_close()

    def get_request(self) -> Tuple[socket.socket, Any]:
        try:
            return super().get_request()
        except OSError as why:
            if why.errno in NO_DESCRIPTORS:     # whoever waits here is still there, so this would be tried again at once
                self._make_room()
                time.sleep(0.1)
            raise

    def process_request(self, request: Any, client_address: Any) -> None:
        with self._lock:
            is_full = len(self._open) >= MOST_CONNECTIONS
        if is_full and not self._make_room():
            with contextlib.suppress(OSError):
                request.settimeout(1)
                full = as_json(503, {"error": f"{MOST_CONNECTIONS} connections are open already"})
                request.sendall(head(full.status, full.headers(), True) + full.body)
            return self.shutdown_request(request)
        with self._lock:
            self._open.add(request)
        self.begin_reading(request)
        super().process_request(request, client_address)

    def shutdown_request(self, request: Any) -> None:
        with self._lock:
            self._open.discard(request)
            self._reading.pop(request, None)
        super().shutdown_request(request)

    def begin_reading(self, connection: socket.socket) -> None:
        """From now on this connection waits for a request."""
        with self._lock:
            self._reading.pop(connection, None)
            self._reading[connection] = None

    def end_reading(self, connection: socket.socket) -> bool:
        """Its request is there. Whether the connection is still open, too: what it asks for is not done else."""
        with self._lock:
            return self._reading.pop(connection, self) is None

    def _make_room(self) -> bool:
        """Ends the connection that has kept a request waiting for longest; whether there is one."""
        with self._lock:
            found = next(iter(self._reading), None)
            if found is not None:
                del self._reading[found]
                with contextlib.suppress(OSError):
                    found.shutdown(socket.SHUT_RDWR)
            return found is not None


class Received(io.RawIOBase):
    """What a connection sends until a moment, `until`, on the clock of time.monotonic."""

    def __init__(self, connection: socket.socket) -> None:
        super().__init__()
        self._connection = connection
        self.until = 0.0

    def readable(self) -> bool:
        return True

    def readinto(self, buffer: Any) -> int:
        left = self.until - time.monotonic()
        if left <= 0:
            raise socket.timeout
        self._connection.settimeout(left)
        return self._connection.recv_into(buffer)


class Handler(BaseHTTPRequestHandler):
    """One connection."""

    protocol_version = "HTTP/1.1"
    default_request_version = "HTTP/1.0"        # to 0.9 http.server says what is wrong without a status
    disable_nagle_algorithm = True
    server: Server

    def setup(self) -> None:
        super().setup()
        self.rfile.close()
        self._received = Received(self.connection)
        self._incoming = io.BufferedReader(self._received)
        self.rfile = self._incoming

    def handle_one_request(self) -> None:
        """Reads a request and replies to it."""
        self.close_connection = True
        try:
            self.server.begin_reading(self.connection)
            asked = self._read()
            if self.server.end_reading(self.connection) and asked:
                self._reply(*asked)
        except OSError:                 # the browser has gone
            self.close_connection = True

    def _read(self) -> Optional[Tuple[Union[Route, Watch], bytes]]:
        """What a request asks for, and its body. None where none comes, and where it is refused, which is replied."""
        self._is_unread, self.command = True, ""
        if not self._begins():
            return None
        try:
            self._received.until = time.monotonic() + replies.SECONDS_REQUEST
            if not self._read_head():
                return None
            path, _, query = self.path.partition("?")
            asked = self.server.site.route(Request(self.command, urlsplit(path).path, query, replies.joined(self.headers.items())))
            return asked, self._body() if isinstance(asked, Route) and asked.takes_body else b""
        except socket.timeout:
            self._refuse(replies.too_slow())
        except FAULTS as why:
            self._refuse(why)
        return None

    def _begins(self) -> bool:
        """Waits for the first byte of a request."""
        self._received.until = time.monotonic() + SECONDS_IDLE
        try:
            return bool(self._incoming.peek(1))
        except socket.timeout:
            return False

    def _read_head(self) -> bool:
        """Whether there is a request. What http.server does not read as one, it has replied."""
        self.raw_requestline = self.rfile.readline(MOST_HEAD + 1)
        while self.raw_requestline in BLANK:        # some clients send one behind a body
            self.raw_requestline = self.rfile.readline(MOST_HEAD + 1)
        if len(self.raw_requestline) > MOST_HEAD:
            raise Wrong(414, f"a line has at most {MOST_HEAD} bytes")
        return bool(self.raw_requestline) and self.parse_request()

    def parse_request(self) -> bool:
        """Takes no head of which a proxy in front of this server may read something else than http.server does."""
        self.rfile = io.BytesIO(self._header_lines())
        try:
            if not super().parse_request():
                return False
        finally:
            self.rfile = self._incoming
        counts = [len(self.headers.get_all(name, [])) for name in ("Transfer-Encoding", "Content-Length", "Host")]
        if counts[0] or counts[1] > 1 or counts[2] != 1 or len(self.requestline.split()) != 3:
            self.close_connection = True
            raise Wrong(400, "a request has a version, one Host, and one Content-Length at most, and comes in no chunks")
        self._is_unread = self.headers.get("Content-Length", "0") != "0"
        return True

    def _header_lines(self) -> bytes:
        """The lines below the first one, to the blank one."""
        lines: List[bytes] = []
        left = MOST_HEAD
        while not lines or lines[-1] not in BLANK:
            lines.append(self.rfile.readline(left + 1))
            left -= len(lines[-1])
            if left < 0:
                raise Wrong(431, f"a head has at most {MOST_HEAD} bytes")
            if lines[-1] not in BLANK and not HEADER.fullmatch(lines[-1]):
                raise Wrong(400, "a line of the head is no header")
        return b"".join(lines)

    def send_error(self, code: int, message: Optional[str] = None, explain: Optional[str] = None) -> None:
        """What http.server refuses is replied as all else is."""
        self._refuse(Wrong(code, message or HTTPStatus(code).phrase))

    def _body(self) -> bytes:
        length = self.headers.get("Content-Length", "")
        if not re.fullmatch("[0-9]{1,18}", length):
            raise Wrong(411, "the length of the body is missing")
        body = self.rfile.read(int(length))
        if len(body) < int(length):
            raise Wrong(400, "the body ends before its length")
        self._is_unread = False
        return body

    def _reply(self, asked: Union[Route, Watch], body: bytes) -> None:
        try:
            if isinstance(asked, Watch):
                with asked:
                    self._stream(asked)
            else:
                self._send(asked.reply(body))
        except FAULTS as why:
            self._refuse(why)

    def _stream(self, watch: Watch) -> None:
        """Sends a picture, and another one after each change, until the browser goes or the desk is closed."""
        self.close_connection = True
        self.connection.setsockopt(socket.SOL_SOCKET, socket.SO_SNDBUF, SEND_BUFFER)
        self._write(head(200, replies.headers(replies.EVENTS), self.close_connection))
        is_last = self.command == "HEAD"
        while not is_last and not self.server.closing.is_set():
            is_quiet = False
            with contextlib.suppress(Ended):        # which the event says
                is_quiet = self.server.desk.wait(watch.seen, replies.SECONDS_QUIET) == watch.seen
            text, is_last = (replies.SIGN_OF_LIFE, False) if is_quiet else watch.event()
            self._write(text.encode())
            time.sleep(0 if is_quiet or is_last else replies.SECONDS_BETWEEN)

    def _refuse(self, why: Exception) -> None:
        self._send(self.server.site.refusal(why))

    def _send(self, reply: Reply) -> None:
        self.close_connection = self.close_connection or self._is_unread        # a body that nobody has read would be taken for the next request
        shown = head(reply.status, reply.headers(), self.close_connection)
        self._write(shown if self.command == "HEAD" else shown + reply.body)
        if self._is_unread:
            self._drain()

    def _write(self, data: bytes) -> None:
        """Sends this, as long as the browser goes on taking it."""
        self.connection.settimeout(replies.SECONDS_STALLED)
        left = memoryview(data)
        while left:
            left = left[self.connection.send(left):]

    def _drain(self) -> None:
        """Reads what is left of a request, for a moment: a browser that still sends may not see a reply before."""
        self._received.until = time.monotonic() + 1
        for _ in range(16):
            if not self._received.read(MOST_HEAD):
                break


def head(status: int, headers: Iterable[Tuple[str, str]], is_last: bool) -> bytes:
    """The head of a reply, which may be the last one of its connection."""
    lines = [f"HTTP/1.1 {status} {HTTPStatus(status).phrase}", f"Date: {formatdate(usegmt=True)}", *(f"{name}: {value}" for name, value in headers)]
    return "\r\n".join([*lines, *["Connection: close"] * is_last, "", ""]).encode()


def run(server: Server) -> None:
    """Serves until Ctrl-C."""
    print(f"{server.site.about['title']}: {server.url} (Ctrl-C ends it)", file=sys.stderr, flush=True)
    try:
        server.serve_forever()
    except KeyboardInterrupt:
        pass
    finally:
        server.server_close()
        server.desk.close()
