"""The server of the page: HTTP and one WebSocket a page, by aiohttp."""
import asyncio
import hmac
import secrets
import time
from collections.abc import Callable
from concurrent.futures import ThreadPoolExecutor
from contextlib import AsyncExitStack, suppress
from functools import lru_cache, partial
from ipaddress import ip_address
from typing import Any, Optional

from ..protocol.errors import library
from .hall import Hall, NoMessage, Seat
from .one_file import one_file, served_file
from .outbox import ROOM, Outbox

_LONGEST = {"all": 8 << 20, "watch": 1 << 20}  # bytes of a message; the longest snapshot has 6.3 million
_MOST_PAGES = 256  # that draw at a time, and that watch
_PATIENCE = 3.0  # seconds that connections get to end
_START = 20.0  # seconds that a program gets to start before it is left alone
_SLOWEST = 10.0  # seconds that a page which changes the gas may take to read its replies
_POLL = 0.1  # seconds between two looks for what others did
_served, _own = lru_cache(4)(served_file), lru_cache(2)(one_file)
_HEADERS = {"Cache-Control": "no-store", "X-Content-Type-Options": "nosniff",
            "Referrer-Policy": "no-referrer", "Cross-Origin-Resource-Policy": "same-origin"}


class Web:
    """The addresses of a page. Who has the link of a seat that draws, or that watches, has those rights.

    `make_hall` is called while it starts. Without a hall it serves the page with an engine of its own, which
    begins with `opened`.
    """
    def __init__(self, make_hall: Optional[Callable[[tuple[str, str]], Optional[Hall]]],
                 host: str = "127.0.0.1", opened: tuple[str, Optional[bytes]] = ("", None)) -> None:
        self.http, self.host, self.opened = library("aiohttp.web"), str(ip_address(host)), opened
        if ip_address(host).is_unspecified:
            raise ValueError("--share takes the address by which others reach this machine (hostname -I)")
        self.tokens = {rights: secrets.token_urlsafe(16) for rights in ("all", "watch")}
        self.hall: Optional[Hall] = None
        self._make_hall, self.is_stuck = make_hall, False
        self._desk = ThreadPoolExecutor(1)  # its thread asks the laboratory, one job after the other
        self._sockets: dict[Any, str] = {}  # and the rights of each

    def link(self, rights: str) -> str:
        """The link of a seat."""
        return f"http://{self._names[0]}/{self.tokens[rights]}/"

    async def run(self, port: int, ready: Callable[["Web"], None]) -> None:
        """Serves until it is cancelled. Raises what ended it, such as `Gone` if the laboratory is lost."""
        self._loop = asyncio.get_running_loop()
        self._lost, self._wake, self._changing = self._loop.create_future(), asyncio.Event(), asyncio.Lock()
        runner = self.http.AppRunner(self._app(), access_log=None)
        clock = None
        try:
            await self._loop.run_in_executor(self._desk, self._begin)
            await runner.setup()
            await self.http.TCPSite(runner, self.host, port).start()
            self.port = runner.addresses[0][1]
            self._names = names_of(self.host, self.port)
            ready(self)
            clock = self._loop.create_task(self._play())
            await asyncio.wait([clock, self._lost], return_when=asyncio.FIRST_COMPLETED)
            await (self._lost if self._lost.done() else clock)
        finally:
            self._lost.cancel()  # nothing more is told, if nothing was
            if clock:
                clock.cancel()
            await self._end(runner)

    def _begin(self) -> None:
        """Starts what is behind the pages, in the desk's thread."""
        self.hall = self._make_hall and self._make_hall((self.tokens["all"], self.tokens["watch"]))
        if self.hall:
            self.hall.begin()

    async def _play(self) -> None:
        """Lets the hall make the steps of play when it is time, and look for what others did."""
        while self.hall:
            player = self.hall.player
            poll = 0.0 if self.hall.is_reading else _POLL
            wait = player.due - time.monotonic() if player.play else poll
            await _patient(self._wake.wait(), min(max(wait, 0.0), poll))
            self._wake.clear()
            async with self._changing:
                await self._do(self.hall.beat)
        await self._lost

    async def _do(self, job: Callable[..., Any], *words: Any) -> Any:
        """What a job of the desk returns. The server ends by what it raises, but for a wrong message.

        Each page and the clock have at most one job here, so they take turns.
        """
        try:
            return await self._loop.run_in_executor(self._desk, job, *words)
        except NoMessage:
            raise
        except Exception as fault:
            if not self._lost.done():
                self._lost.set_exception(fault)
            raise

    async def _end(self, runner: Any) -> None:
        await asyncio.gather(*(_patient(socket.close(code=1001)) for socket in [*self._sockets]))
        await _patient(runner.cleanup())
        closed = self._loop.run_in_executor(self._desk, self._close)
        self._desk.shutdown(wait=False)
        await _patient(closed, _PATIENCE if self.hall else _START)
        self.is_stuck = closed.cancelled()
        if self.is_stuck:
            self._close()  # a job still runs: most end with their program

    def _close(self) -> None:
        if self.hall:
            self.hall.close()

    def _app(self) -> Any:
        """The addresses, with a look at each request before it is answered."""
        async def guard(request: Any, handler: Callable[[Any], Any]) -> Any:
            self._check(request)
            return await handler(request)
        app = self.http.Application(middlewares=[self.http.middleware(guard)])
        for path, answer in (("", self._page), ("gas.html", self._one_file), ("socket", self._socket)):
            app.router.add_get("/{token}/" + path, answer)
        return app

    def _check(self, request: Any) -> None:
        """Lets through only requests to this server by its own name, from its own pages, with a token."""
        origin = request.headers.get("Origin")
        if request.host not in self._names or origin not in (None, f"http://{request.host}"):
            raise self.http.HTTPForbidden(text="This server answers its own pages alone.\n")
        token = request.match_info.get("token", "").encode()
        request["rights"] = next((rights for rights, it in self.tokens.items()
                                  if hmac.compare_digest(token, it.encode())), None)
        if request["rights"] is None:
            raise self.http.HTTPNotFound(text="There is nothing here.\n")

    async def _page(self, request: Any) -> Any:
        text = _served(f"ws://{request.host}") if self.hall else _own(*self.opened)
        return self._html(text, {"Content-Security-Policy": "frame-ancestors 'none'"})

    async def _one_file(self, request: Any) -> Any:
        return self._html(_own(), {"Content-Disposition": 'attachment; filename="gaslab.html"'})

    def _html(self, text: str, headers: dict[str, str]) -> Any:
        return self.http.Response(text=text, content_type="text/html", headers={**_HEADERS, **headers})

    async def _socket(self, request: Any) -> Any:
        if not self.hall or "Origin" not in request.headers:
            raise self.http.HTTPForbidden(text="This server answers its own pages alone.\n")
        rights = request["rights"]
        if list(self._sockets.values()).count(rights) >= _MOST_PAGES:
            raise self.http.HTTPServiceUnavailable(text="There are too many pages.\n")
        socket = self.http.WebSocketResponse(max_msg_size=_LONGEST[rights], heartbeat=30.0, compress=False)
        self._sockets[socket] = rights
        page = None
        try:
            await socket.prepare(request)
            page = Page(self, socket)
            await page.run(rights)
        except Exception:
            if not self._lost.done():
                raise
        finally:
            del self._sockets[socket]
            if page is None or not page.out.is_cut:
                await _patient(socket.close(code=1001 if self._lost.done() else 1008))
            if request.transport and request.transport.get_write_buffer_size():
                request.transport.abort()  # what it never reads would stay
        return socket


class Page:
    """A page's connection: what it sends is done, and what waits for it is sent."""
    def __init__(self, web: Web, socket: Any) -> None:
        self.web, self.socket = web, socket
        self._filled, self._emptied, self._cut = asyncio.Event(), asyncio.Event(), asyncio.Event()
        self.out = Outbox(partial(web._loop.call_soon_threadsafe, self._woken))

    def _woken(self) -> None:
        self._filled.set()
        if self.out.is_cut:
            self._cut.set()

    async def run(self, rights: str) -> None:
        """Gives it a seat, until it goes, is cut, or sends what is no message."""
        hall, do = self.web.hall, self.web._do
        assert hall
        seat = await do(hall.join, rights, self.out)
        parts = self._send(hall, seat), self._listen(hall, seat), self._cut.wait()
        tasks = [asyncio.ensure_future(part) for part in parts]
        try:
            await asyncio.wait(tasks, return_when=asyncio.FIRST_COMPLETED)
        finally:
            for task in tasks:
                task.cancel()
            await asyncio.gather(*tasks, return_exceptions=True)
            await do(hall.leave, seat)

    async def _listen(self, hall: Hall, seat: Seat) -> None:
        """Does what the page sends, a message at a time, in slices. Between two of them is others' turn."""
        async for message in self.socket:
            if message.type.name not in ("TEXT", "BINARY"):
                break
            await self._room(seat)
            async with AsyncExitStack() as stack:
                is_change = hall.changes(seat, message.data)
                if is_change:
                    await stack.enter_async_context(self.web._changing)
                work = hall.said(seat, message.data)
                while await self._slice(seat, work):
                    await asyncio.wait_for(self._room(seat), _SLOWEST if is_change else None)
            self.web._wake.set()

    async def _slice(self, seat: Seat, work: Any) -> bool:
        """Does a slice. Who watches rests as long as it took, which leaves the others half of the time."""
        began = time.monotonic()
        is_more = await self.web._do(next, work, self) is not self
        if seat.rights == "watch":
            await asyncio.sleep(time.monotonic() - began)
        return is_more

    async def _room(self, seat: Seat) -> None:
        """Waits until the page has taken what waited for it."""
        while self.out.size > ROOM or seat.is_behind:
            self._emptied.clear()
            await self._emptied.wait()

    async def _send(self, hall: Hall, seat: Seat) -> None:
        """Sends what waits for the page, and asks for the rest when it has room."""
        while True:
            self._filled.clear()
            message = self.out.take()
            if message is not None:
                await (self.socket.send_str if isinstance(message, str) else self.socket.send_bytes)(message)
            elif seat.is_behind:
                await self.web._do(hall.give, seat)
            else:
                self._emptied.set()
                await self._filled.wait()


def names_of(host: str, port: int) -> list[str]:
    """What browsers call the server, the link's name first. They leave out port 80."""
    hosts = [f"[{host}]" if ":" in host else host, *(["localhost"] if host == "127.0.0.1" else [])]
    return [it + end for it in hosts for end in (f":{port}", *([""] if port == 80 else []))]


async def _patient(last: Any, seconds: float = _PATIENCE) -> None:
    """Waits for an end, but not for long: a page may read nothing, and a reset connection takes a minute."""
    with suppress(asyncio.TimeoutError):
        await asyncio.wait_for(last, seconds)
