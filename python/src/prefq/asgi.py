"""The page as an ASGI application, for servers such as uvicorn and for programs of one's own, such as Starlette's, in which it is mounted under any path.

    offers = prefq.asgi.application(Desk(prefq.Frame.from_csv("hotels.csv")))
    uvicorn program:offers
"""
import asyncio
import contextlib
from concurrent.futures import ThreadPoolExecutor
from typing import Any, Awaitable, Callable, Iterable, List, MutableMapping, Optional, Sequence, Tuple
from urllib.parse import quote, unquote

from . import replies
from .desk import Desk
from .hosts import Hosts
from .pictures import MOST_AT_ONCE
from .replies import FAULTS, Reply, Request, Route, Site, Watch

MOST_CHANGES = 4            # that wait for the table at a time
MOST_SENT = 65_536          # bytes that are sent at a time, so that a slow browser is not taken for one that has stopped
Message = MutableMapping[str, Any]
Receive = Callable[[], Awaitable[Message]]
Send = Callable[[Message], Awaitable[None]]


def application(desk: Desk, *, title: str = "prefq", questions: Sequence[str] = (), editable: bool = True, allow_hosts: Sequence[str] = ()) -> "Application":
    """The page of a desk. It may be asked for under addresses, localhost and the names in `allow_hosts`; "*" stands for any, where the server looks at them."""
    return Application(Site(desk, Hosts(None, allow_hosts), title=title, questions=questions, editable=editable))


class Application:
    """What an ASGI server calls for each request."""

    def __init__(self, site: Site) -> None:
        self.site = site
        # What waits for the table is no work for the event loop; pictures take longer, and do not keep changes waiting.
        self._changing = ThreadPoolExecutor(MOST_CHANGES, "prefq-changes")
        self._drawing = ThreadPoolExecutor(MOST_AT_ONCE, "prefq-pictures")

    async def __call__(self, scope: Message, receive: Receive, send: Send) -> None:
        if scope["type"] == "http":
            await self._http(scope, receive, send)
        elif scope["type"] == "lifespan":
            await lifespan(receive, send)
        else:
            await send({"type": "websocket.close"})

    async def _http(self, scope: Message, receive: Receive, send: Send) -> None:
        path = path_within(scope)
        try:
            if not path:            # the names of the page's files are those beside it
                return await send_all(send, 307, [("Location", f"{quote(scope['root_path'])}/"), ("Content-Length", "0")], b"")
            headers = replies.joined((name.decode("latin-1"), value.decode("latin-1")) for name, value in scope["headers"])
            asked = self.site.route(Request(scope["method"], path, scope["query_string"].decode("latin-1"), headers))
            if isinstance(asked, Watch):
                with asked:
                    return await self._stream(asked, scope["method"] == "HEAD", receive, send)
            reply = await self._reply(asked, receive)
        except FAULTS as why:
            reply = self.site.refusal(why)
        if reply:
            await send_all(send, reply.status, reply.headers(), b"" if scope["method"] == "HEAD" else reply.body)

    async def _reply(self, route: Route, receive: Receive) -> Optional[Reply]:
        """The reply; None where the client has gone before its request was there."""
        try:
            body = await asyncio.wait_for(body_of(receive), replies.SECONDS_REQUEST) if route.takes_body else b""
        except asyncio.TimeoutError:
            raise replies.too_slow() from None
        if body is None:
            return None
        return await asyncio.get_running_loop().run_in_executor(self._drawing if route.makes_picture else self._changing, route.reply, body)

    async def _stream(self, watch: Watch, is_head: bool, receive: Receive, send: Send) -> None:
        """Sends a picture, and another one after each change, until the browser goes or the desk is closed."""
        desk, loop, woken = self.site.desk, asyncio.get_running_loop(), asyncio.Event()
        gone = asyncio.ensure_future(until_gone(receive))
        gone.add_done_callback(lambda _: woken.set())
        end = desk.subscribe(lambda: wake(loop, woken))
        try:
            await send(start(200, replies.headers(replies.EVENTS)))
            is_last = is_head
            while not (is_last or gone.done()):
                woken.clear()
                if desk.is_closed or desk.version != watch.seen:
                    text, is_last = await loop.run_in_executor(self._drawing, watch.event) if watch.makes_picture else watch.event()
                elif await is_set(woken, replies.SECONDS_QUIET):
                    continue
                else:
                    text = replies.SIGN_OF_LIFE
                await send_parts(send, text.encode())
                await asyncio.sleep(0 if is_last else replies.SECONDS_BETWEEN)
            await send({"type": "http.response.body"})
        except (asyncio.TimeoutError, OSError):        # a browser that takes nothing, or has gone
            pass
        finally:
            end()
            gone.cancel()


def path_within(scope: Message) -> str:
    """The path below the one where the application is mounted, which some frameworks take away from `path`, and others do not."""
    root, path = scope.get("root_path", ""), scope["path"]
    whole = unquote((scope.get("raw_path") or b"").decode("latin-1")) or path
    return str(whole[len(root):] if f"{whole}/".startswith(f"{root}/") else path)


async def lifespan(receive: Receive, send: Send) -> None:
    """Nothing is to be begun or ended: the desk is whose it was."""
    while True:
        kind = (await receive())["type"]
        await send({"type": f"{kind}.complete"})
        if kind == "lifespan.shutdown":
            return


async def body_of(receive: Receive) -> Optional[bytes]:
    """The body of a request; None where the client has gone before its end."""
    body = b""
    while True:
        message = await receive()
        if message["type"] == "http.disconnect":
            return None
        body += message.get("body", b"")
        if len(body) > replies.MOST_BODY:
            raise replies.too_large()
        if not message.get("more_body"):
            return body


async def until_gone(receive: Receive) -> None:
    while (await receive())["type"] != "http.disconnect":
        pass


async def is_set(event: asyncio.Event, seconds: float) -> bool:
    """Whether this event is set within this time."""
    try:
        await asyncio.wait_for(event.wait(), seconds)
    except asyncio.TimeoutError:
        return False
    return True


def wake(loop: asyncio.AbstractEventLoop, event: asyncio.Event) -> None:
    """Sets an event from any thread. A loop that has ended has nobody who waits."""
    with contextlib.suppress(RuntimeError):
        loop.call_soon_threadsafe(event.set)


def start(status: int, headers: Iterable[Tuple[str, str]]) -> Message:
    return {"type": "http.response.start", "status": status, "headers": [(name.lower().encode(), value.encode()) for name, value in headers]}


async def send_all(send: Send, status: int, headers: List[Tuple[str, str]], body: bytes) -> None:
    await send(start(status, headers))
    await send({"type": "http.response.body", "body": body})


async def send_parts(send: Send, data: bytes) -> None:
    """Sends this, as long as the browser goes on taking it."""
    for begin in range(0, len(data), MOST_SENT):
        await asyncio.wait_for(send({"type": "http.response.body", "body": data[begin:begin + MOST_SENT], "more_body": True}), replies.SECONDS_STALLED)
