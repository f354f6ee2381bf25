"""What the page's server replies, over whatever requests come: `prefq.server` and `prefq.asgi` bring them here.

    GET /about                   the columns, and questions to begin with
    GET /picture?question=..     the answer and the other rows at one version, as JSON; &x=..&y=.. choose the axes
                                 &where=.. is a condition, and &top=.. how many rows are wanted, here and in the next three
    GET /answer.csv?question=..  the whole answer as comma-separated values
    GET /why?question=..&id=7    the rows that are better than one, each with its level
    GET /events?question=..      pictures as server-sent events, at once and after each change; the last one is `event: refused` where the question is, and
                                 `event: failed` where the table has ended; `event: alive` where nothing has changed for a while. With &once=1 it is one picture
    GET /changes                 the same with versions in place of pictures, and the `run` of `/about`: {"version": 12, "run": ".."}
    POST /rows                   {"Price": 59.9, ..}, a new row; replies its id
    PUT /rows/7                  {"Price": 64.9}, other values for a row
    DELETE /rows/7               replies the values that it had

With `?seen=12` a row is changed as it was seen in the picture of version 12: what others have changed since is neither overwritten nor deleted, but replied, with
409. With `&run=..`, which `/about` has, nothing is changed by a page of a server that has ended, whose rows were others. In the values null is missing, and so is an empty text but in a column of texts.

What is wrong is replied as JSON with an `error`, and of a question with its `place`, a character: 400 for what cannot be read, 403 for a page of another site, 404 for
rows that are not there, 409 for what the table refuses, 413 for what is too large, 503 where the table has ended.
"""
import json
import re
import secrets
import threading
from decimal import Decimal
from functools import partial
from pathlib import Path
from typing import Any, Callable, Dict, Iterable, List, Mapping, NamedTuple, NoReturn, Optional, Sequence, Tuple, Union
from urllib.parse import parse_qs

from . import pictures
from .columns import quoted, spelled
from .desk import Changed, Desk
from .errors import Error, Refused
from .hosts import Hosts
from .infer import first_inexact
from .kinds import Choices, Texts
from .pictures import ID, NUMBER, Asked
from .visible import SURROGATE

PAGE = Path(__file__).with_name("page")
SCRIPTS = ("page.js", "edit.js", "plot.js", "parts.js", "speech.js", "stream.js", "table.js", "legend.js", "scales.js", "stairs.js", "why.js", "builder.js")
FILES = {"/": ("index.html", "text/html"), "/guide.html": ("guide.html", "text/html"), "/page.css": ("page.css", "text/css"), **{f"/{name}": (name, "text/javascript") for name in SCRIPTS}}
POLICY = ("default-src 'none'; script-src 'self'; style-src 'self'; connect-src 'self'; img-src 'self' data:; base-uri 'none'; form-action 'none'; "
          "frame-ancestors 'none'")
EVENTS = "text/event-stream; charset=utf-8"
MOST_BODY = 65_536          # bytes of a request
MOST_STREAMS = 200          # browsers that watch
SECONDS_BETWEEN = 0.1       # pictures of one browser
SECONDS_QUIET = 15.0        # until a sign of life is sent
SECONDS_STALLED = 10.0      # that a browser may take nothing of what is sent
SECONDS_REQUEST = 10.0      # from the first byte of a request to its last
SIGN_OF_LIFE = "event: alive\ndata:\n\n"
COME_AGAIN = "retry: 1000\n\n"      # milliseconds, where the stream breaks
ROW = re.compile(r"/rows/(\d{1,18})")


class Wrong(Exception):
    """A request that is replied with this status."""

    def __init__(self, status: int, message: str) -> None:
        super().__init__(message)
        self.status = status


FAULTS = (Wrong, Error, TypeError, ValueError)


class Request(NamedTuple):
    """The head of a request. The names of its headers are in small letters."""

    method: str
    path: str
    query: str
    headers: Mapping[str, str]

    def given(self, name: str) -> Optional[str]:
        """A value of its query."""
        values = parse_qs(self.query, keep_blank_values=True).get(name)
        return values[0] if values else None


class Reply(NamedTuple):
    """A status, what kind of content it is, and the content."""

    status: int
    kind: str
    body: bytes

    def headers(self) -> List[Tuple[str, str]]:
        return [*headers(self.kind), ("Content-Length", str(len(self.body)))]


class Route(NamedTuple):
    """What replies to a request, given its body. It waits for the table, or makes a picture, which takes longer."""

    reply: Callable[[bytes], Reply]
    takes_body: bool = False
    makes_picture: bool = False


class Watch:
    """A browser that watches: it is sent a picture, and another one after each change, or but one. Where it asks nothing, it is told the version. In its `with` block it
    counts among those that watch."""

    def __init__(self, site: "Site", asked: Optional[Asked] = None, axes: Sequence[Optional[str]] = (), *, is_once: bool = False) -> None:
        self._site, self._asked, self._axes, self._is_once = site, asked, axes, is_once
        self.makes_picture = asked is not None
        self.seen: Optional[int] = None     # the version of the picture that was made last

    def __enter__(self) -> "Watch":
        if not self._site.streams.acquire(blocking=False):
            raise Wrong(503, f"{MOST_STREAMS} pages watch already")
        return self

    def __exit__(self, *_: object) -> None:
        self._site.streams.release()

    def event(self) -> Tuple[str, bool]:
        """The event for the rows as they are now, and whether it is the last one, as where the question is refused."""
        first = "" if self.seen else COME_AGAIN
        try:
            self.seen, told = self._site.version() if self._asked is None else self._site.shown.get(self._asked, self._axes)
        except (Error, TypeError, ValueError) as why:
            # Browsers ask again where a stream ends. Those that hear that it was refused do not; but what a database has may be mended there.
            name = "failed" if isinstance(why, Error) and (not isinstance(why, Refused) or why.kind == "follow") else "refused"
            return f"{first}event: {name}\ndata: {json.dumps(reason(why))}\n\n", True
        return f"{first}data: {told}\n\n", self._is_once


class Site:
    """The page of a desk. Any thread may ask it."""

    def __init__(self, desk: Desk, hosts: Hosts, *, title: str, questions: Sequence[str], editable: bool) -> None:
        self.desk, self.hosts = desk, hosts
        # A page that finds another `run` here is one of rows that are no more.
        self.about = {**pictures.about(desk, title, list(questions) or [first_question(desk)], editable), "run": secrets.token_hex(8)}
        self.shown = pictures.Shown(desk)
        self.streams = threading.BoundedSemaphore(MOST_STREAMS)

    def version(self) -> Tuple[int, str]:
        """The version of the rows, and as JSON which server has them."""
        self.desk.check()
        version = self.desk.version
        return version, json.dumps({"version": version, "run": self.about["run"]})

    def route(self, request: Request) -> Union[Route, Watch]:
        """What replies to a request. What its head makes wrong is raised, one of `FAULTS`. It waits for nothing."""
        refused = self.hosts.refusal(request.headers)
        if refused:
            raise Wrong(403, refused)
        routes = {"GET": self._get, "HEAD": self._get, "POST": self._post, "PUT": self._put, "DELETE": self._delete}
        if request.method not in routes:
            raise Wrong(501, f"nothing here replies to {request.method}")
        return routes[request.method](request)

    def _get(self, request: Request) -> Union[Route, Watch]:
        if request.path in FILES:
            name, kind = FILES[request.path]
            return Route(lambda _: Reply(200, f"{kind}; charset=utf-8", (PAGE / name).read_bytes()))
        if request.path == "/about":
            return Route(lambda _: as_json(200, self.about))
        if request.path == "/changes":
            return Watch(self)
        question = request.given("question")
        asked = Asked(self.about["questions"][0] if question is None else question, request.given("where"), request.given("top"))
        axes = [request.given(axis) for axis in ("x", "y")]
        if request.path == "/picture":
            return Route(lambda _: Reply(200, "application/json", self.shown.get(asked, axes)[1].encode()), makes_picture=True)
        if request.path == "/answer.csv":
            return Route(lambda _: Reply(200, "text/csv; charset=utf-8", self.shown.made(pictures.answer, asked).to_csv().encode()), makes_picture=True)
        if request.path == "/why":
            id = request.given("id") or ""
            if not ID.fullmatch(id):
                raise Wrong(400, "id is that of a row, a whole number")
            return Route(lambda _: as_json(200, self.shown.made(pictures.why, asked, int(id))), makes_picture=True)
        if request.path == "/events":
            return Watch(self, asked, axes, is_once=request.given("once") is not None)
        raise Wrong(404, f"there is no {request.path}")

    def _post(self, request: Request) -> Route:
        if request.path != "/rows":
            raise Wrong(404, "rows are added by POST /rows")
        self._check_body(request)
        return Route(lambda body: as_json(201, {"id": self.desk.insert(self._values(body))}), takes_body=True)

    def _put(self, request: Request) -> Route:
        id, seen = self._row(request)
        self._check_body(request)
        return Route(partial(self._update, id, seen), takes_body=True)

    def _update(self, id: int, seen: Optional[int], body: bytes) -> Reply:
        self.desk.update(id, self._values(body), seen=seen)
        return as_json(200, {"id": id})

    def _delete(self, request: Request) -> Route:
        id, seen = self._row(request)
        return Route(lambda _: as_json(200, {"id": id, "values": self._texts(self.desk.delete(id, seen=seen))}))

    def _row(self, request: Request) -> Tuple[int, Optional[int]]:
        """The row that is changed, and the version in which it was seen."""
        found, seen = ROW.fullmatch(request.path), request.given("seen")
        if not found:
            raise Wrong(404, "a row is /rows/ID")
        self._check_change(request)
        if seen is not None and not NUMBER.fullmatch(seen):
            raise Wrong(400, "seen is the version of a picture, a whole number")
        return int(found[1]), None if seen is None else int(seen)

    def _check_change(self, request: Request) -> None:
        if not self.about["editable"]:
            raise Wrong(403, "the rows here cannot be changed")
        if request.given("run") not in (None, self.about["run"]):
            raise Wrong(409, "the page shows rows of a server that has ended: load it again")

    def _check_body(self, request: Request) -> None:
        self._check_change(request)
        # Browsers send this kind from another site only after a question to this server, which it does not answer.
        if request.headers.get("content-type", "").partition(";")[0].strip().lower() != "application/json":
            raise Wrong(415, "values are sent as application/json")
        length = request.headers.get("content-length", "")
        if length.isdecimal() and int(length[:18]) > MOST_BODY:
            raise too_large()

    def _values(self, body: bytes) -> Dict[str, Any]:
        """Values by the names of columns."""
        try:
            values = json.loads(body.decode(), parse_float=number_of, parse_constant=no_number, object_pairs_hook=object_of)
        except (ValueError, RecursionError):
            raise Wrong(400, "the body is no JSON") from None
        if not isinstance(values, dict):
            raise Wrong(400, "the body is no JSON object of values by the names of columns")
        for column in self.desk.columns:
            if isinstance(values.get(column.name), str) and SURROGATE.search(values[column.name]):
                raise ValueError(f"column {column.name!r} ({column.kind}): the text has half of a character (a lone surrogate), which the download could not have")
        texts = {column.name for column in self.desk.columns if column.kind.name == Texts.name}
        return {name: None if value == "" and name not in texts else value for name, value in values.items()}

    def _texts(self, values: Mapping[str, Any]) -> Dict[str, Optional[str]]:
        """Values as a file has them, and as they may be sent again."""
        return {column.name: None if values[column.name] is None else column.text(values[column.name]) for column in self.desk.columns if column.name in values}

    def refusal(self, why: Exception) -> Reply:
        """What is replied to one of `FAULTS`."""
        if isinstance(why, Wrong):
            return as_json(why.status, {"error": str(why)})
        if isinstance(why, Changed):
            return as_json(409, {"error": str(why), "kind": why.kind, "version": why.version, "values": self._texts(why.values)})
        if isinstance(why, Refused):
            return as_json(404 if (why.kind, why.number) == ("client", 7) else 400 if why.kind == "term" else 409, reason(why))
        return as_json(503 if isinstance(why, Error) else 400, {**reason(why), "column": self._column_of(why)})

    def _column_of(self, why: Exception) -> Optional[str]:
        """The name of the column that refuses a value, None where it is not one."""
        return next((column.name for column in self.desk.columns if str(why).startswith(f"column {column.name!r} (")), None)


def number_of(text: str) -> Union[float, Decimal]:
    """A number of JSON: a float where that is shown as this number, else all of its digits, since a column may have them."""
    return float(text) if first_inexact([text]) is None else Decimal(text)


def no_number(text: str) -> NoReturn:
    """Refuses NaN and Infinity, which Python reads, and JSON does not have."""
    raise ValueError(f"{text} is no JSON")


def object_of(pairs: List[Tuple[str, Any]]) -> Dict[str, Any]:
    """An object of JSON, of which Python keeps the last of two values of one name."""
    found = dict(pairs)
    if len(found) < len(pairs):
        raise Wrong(400, "a name stands twice in an object of the body")
    return found


def headers(kind: str) -> List[Tuple[str, str]]:
    """What stands above each reply of this kind."""
    return [("Content-Type", kind), ("Content-Security-Policy", POLICY), ("X-Content-Type-Options", "nosniff"), ("Referrer-Policy", "no-referrer"), ("Cache-Control", "no-store")]


def joined(pairs: Iterable[Tuple[str, str]]) -> Dict[str, str]:
    """Headers by their names in small letters; one that stands several times has all its values, with commas between them."""
    found: Dict[str, str] = {}
    for name, value in pairs:
        name = name.lower()
        found[name] = f"{found[name]}, {value}" if name in found else value
    return found


def as_json(status: int, value: Any) -> Reply:
    return Reply(status, "application/json", json.dumps(value).encode())


def too_large() -> Wrong:
    return Wrong(413, f"at most {MOST_BODY} bytes are read")


def too_slow() -> Wrong:
    return Wrong(408, f"the request was not there within {SECONDS_REQUEST:g} seconds")


def reason(why: Exception) -> Dict[str, Any]:
    """A refusal as JSON. A place is that of a character of the question."""
    if not isinstance(why, Error):
        return {"error": str(why)}
    place = why.place
    if why.question is not None and place is not None:
        place = len(why.question.encode(errors="replace")[:place].decode(errors="ignore"))
    message = str(why) if why.question is None else str(why).partition("\n")[0]
    return {"error": message, "kind": why.kind, "number": why.number, "question": why.question, "place": place}


def first_question(desk: Desk) -> str:
    """A question to begin with: the first two columns that are no texts, the smaller the better; or a first text, or a first time of day."""
    columns = [spelled(column.name) for column in desk.columns if pictures.is_axis(column)][:2]
    if columns:
        return f"top_level 2 {' * '.join(f'low({name})' for name in columns)}"
    first = desk.columns[0]
    if not isinstance(first.kind, (Texts, Choices)):
        return f"best low({spelled(first.name)})"
    return f"best pos({spelled(first.name)}, {quoted(next(iter(first.kind.texts), ''))})"
