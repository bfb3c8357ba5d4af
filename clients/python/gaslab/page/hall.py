"""The pages on one gas: their seats, what they send, and the pictures that they get."""
import re
import sys
import time
from collections.abc import Callable, Iterable, Iterator
from contextlib import suppress
from itertools import count
from typing import Optional, Union

from ..protocol.commands import CHANGES, COMMANDS, MOST_STEPS, SIDES
from ..protocol.errors import GaslabError, Moving
from ..protocol.printable import printable
from ..protocol.scripts import Script
from ..snapshot.files import Snapshot, SnapshotFault
from .laboratory import Laboratory, Means
from .outbox import ROOM, Message, Outbox
from .pictures import LAYOUT, NOBODY, Play, Reading, file_message, picture_message

Files = dict[str, Iterable[bytes]]

MOST_LINES = {"all": 70_000, "watch": 512}
"""The most lines of one message that are done: a full journal and some more, or what a watcher may ask."""
_LONGEST_NAME, _LONGEST_TITLE, _LONGEST_WHY, _MOST_RATE = 24, 80, 400, 60
_SLICE, _TELL = 0.004, 0.025  # seconds until a message gives others their turn, and tells what it did
_QUICK, _TOGETHER = 0.002, 64  # so many commands are sent at once while they take less than these seconds
_MOST_REPLIES = 1 << 16  # signs of a slice
_MOST_TOLD = 1024  # entries that are told at once
_PART = 1 << 20  # bytes of a file that are sent at once
_RENAMED = 1.0  # seconds between two names of a seat
_READINGS = set(COMMANDS) - set(CHANGES) - {"save"}
_NEEDS = {**dict.fromkeys((".drawn", ".name", ".script", ".snapshot"), ""),
          **dict.fromkeys((".play", ".goto", ".pause", ".watch", ".unwatch"), "draw"),
          **dict.fromkeys((".open", ".fresh", ".bring"), "open")}
"""The words of a page, and whether its seat must be one that may `draw`, or `open` another gas."""
_LINE = "[0-9]{1,9} .*"
_MESSAGE = re.compile(rf"{_LINE}(?:\n{_LINE})*")
_CHANGE = re.compile(r"^[0-9]+ (?!(?:{})(?: |$))".format("|".join(
    (*_READINGS, *(re.escape(word) for word, needs in _NEEDS.items() if not needs)))), re.M)


class NoMessage(ValueError):
    """What came is no message of a page."""


class Seat:
    """A page, whose messages go to `out`.

    It has `undrawn` pictures that it hasn't drawn, the newest with the number `newest` and these `solids`. It
    was told the first `told` entries. It `is_behind` while it has no room for what it is to get.
    """
    def __init__(self, number: int, rights: str, out: Outbox) -> None:
        self.number, self.rights, self.out = number, rights, out
        self.name, self.named = "", -_RENAMED
        self.undrawn, self.newest, self.told, self.is_behind = 0, -1, 0, False
        self.solids: object = None


class Player:
    """The clock of one gas: so many steps a picture, so many pictures a second. `tell` tells all pages."""
    def __init__(self, tell: Callable[[str], None]) -> None:
        self.tell, self.due = tell, 0.0
        self.play: Optional[Play] = None

    def pause(self, why: str, seat: int = NOBODY) -> None:
        """Stops, and says why: `asked`, `there`, `left`, `opened` or a refusal."""
        if self.play:
            self.play = None
            self.tell(f"* pause {seat} {why}")

    def beat(self, laboratory: Laboratory) -> bool:
        """Makes the steps of the next picture if it is time. Returns whether there is something to show."""
        play = self.play
        if not play or time.monotonic() < self.due:
            return False
        far = play.steps if play.to is None else play.to - laboratory.lab.tally().tick
        steps = max(-play.steps, min(play.steps, far))
        refusal = laboratory.move(steps)
        if refusal or play.to is not None and steps == far:
            self.pause(refusal or "there")
        # what is late is not made up for, but for one picture
        self.due = max(self.due + 1 / play.rate, time.monotonic() - 1 / play.rate)
        return True


class Hall:
    """All pages on one gas. It is for one thread, the one that asks the laboratory.

    `means` start the programs of gases that pages open; a server's gas can't be replaced. `links` are what
    follows the address in the link of a seat that draws, and of one that watches.
    """
    def __init__(self, laboratory: Laboratory, means: Means, links: tuple[str, str] = ("", ""),
                 script: Optional[Script] = None) -> None:
        self.laboratory, self.means, self.links, self._first = laboratory, means, links, script
        self.seats: dict[int, Seat] = {}
        self.player = Player(self.tell)
        self.is_reading = False
        self._is_new, self._is_dirty = False, False
        self._old: Optional[Laboratory] = None
        self._count, self._number, self._together = count(), 0, 1
        self._reading: Optional[Reading] = None
        self._frames: dict[bool, bytes] = {}
        self._texts: dict[tuple[int, int], str] = {}

    def begin(self) -> None:
        """Does the script, and reads the journal. Raises `Refused` as `Lab.play` does."""
        it = self.laboratory
        if self._first:
            it.lab.play(self._first)
        while not it.read_on():
            pass
        self._is_new = it.is_own and not (it.makers or it.start or it.name)

    def close(self) -> None:
        """Ends all sessions."""
        for it in (self.laboratory, self._old):
            if it is not None:
                it.close()

    def tell(self, event: str) -> None:
        """Sends an event to all pages."""
        for seat in self.seats.values():
            seat.out.put(event)

    def join(self, rights: str, out: Outbox) -> Seat:
        """Gives a page a seat. `rights` are `all` or `watch`."""
        seat, it = Seat(next(self._count), rights, out), self.laboratory
        out.put(f"* hello {seat.number} {rights} {it.program} {it.cap} {'new' if self._is_new else 'kept'}")
        if rights == "all":
            out.put("* links {} {}".format(*self.links))
        out.put(self._opened())
        for other in self.seats.values():
            out.put(f"* seat {other.number} came {other.name}".rstrip())
            other.out.put(f"* seat {seat.number} came")
        self.seats[seat.number] = seat
        seat.told = len(it.makers)
        self.give(seat)
        return seat

    def leave(self, seat: Seat) -> None:
        """Takes a page's seat. What it plays stops."""
        if self.seats.pop(seat.number, None):
            if self.player.play and self.player.play.seat == seat.number:
                self.player.pause("left")
                self._change()
            self.tell(f"* seat {seat.number} left")
            self._show()

    def changes(self, seat: Seat, message: Message) -> bool:
        """Whether a message can change the gas or play. No two such messages are done at a time."""
        return seat.rights == "all" and (isinstance(message, bytes) or _CHANGE.search(message) is not None)

    def said(self, seat: Seat, message: Message) -> Iterator[None]:
        """Does what a page's message asks, a slice at a time. Raises `NoMessage` if it is none of a page."""
        if isinstance(message, bytes):
            seat.out.put(f"0 {self._upload(seat, message)}")
        else:
            yield from self._lines(seat, message)
        self._show()

    def beat(self) -> None:
        """Makes the steps of play if it is time, and looks for what the other seats of a server did."""
        if self.player.beat(self.laboratory):
            self._change()
        self._read_on()
        self._show()

    def give(self, seat: Seat) -> None:
        """Sends a page what it hasn't got, as far as it has room: entries, then the newest picture."""
        self._tell(seat, ROOM)
        seat.is_behind = seat.told < len(self.laboratory.makers)
        is_due = seat.newest != self._number and seat.undrawn < LAYOUT["undrawn"]
        if is_due and not (seat.is_behind or self.is_reading):
            self._draw(seat)
        if seat.is_behind:
            seat.out.wake()

    def _lines(self, seat: Seat, message: str) -> Iterator[None]:
        """Does lines slice by slice, and tells now and then the entries that they made and the replies."""
        if not _MESSAGE.fullmatch(message) or message.count("\n") >= MOST_LINES["all"]:
            raise NoMessage
        lines, replies, size = message.split("\n"), [], 0
        most = MOST_LINES[seat.rights]
        began = told = time.monotonic()
        for part in self._parts(lines[:most]):
            found = self._replies(seat, part)
            if isinstance(found, dict):
                yield from self._send_files(seat, part[0][0], found)
                found = ["DONE"]
            replies += [f"{number} {reply}" for (number, _), reply in zip(part, found) if reply]
            size, now = size + sum(map(len, found)), time.monotonic()
            if now - told > _TELL or size > _MOST_REPLIES:
                yield from self._reply(seat, replies)
                self._show()
                replies, size, told = [], 0, time.monotonic()
            if now - began > _SLICE:
                yield
                began = time.monotonic()
        replies += [line.partition(" ")[0] + " NO lines" for line in lines[most:]]
        yield from self._reply(seat, replies)

    def _parts(self, lines: list[str]) -> Iterator[list[tuple[str, str]]]:
        """Numbers and lines that are done at once: a word of the page, or some commands."""
        part: list[tuple[str, str]] = []
        for line in lines:
            number, _, text = line.partition(" ")
            if part and (text.startswith(".") or len(part) >= self._together):
                yield part
                part = []
            part.append((number, text))
            if text.startswith("."):
                yield part
                part = []
        if part:
            yield part

    def _replies(self, seat: Seat, part: list[tuple[str, str]]) -> Union[list[str], Files]:
        """The replies to such lines, or the files that a word asks for."""
        began, lines = time.monotonic(), [line for _, line in part]
        if lines[0].startswith("."):
            found = self._word(seat, lines[0])
            return [found] if isinstance(found, str) else found
        if seat.rights == "watch":
            allowed = [line for line in lines if line.split(" ")[0] in _READINGS]
            told = iter(self.laboratory.replies(seat.number, allowed))
            replies = [next(told) if line.split(" ")[0] in _READINGS else "NO watch" for line in lines]
        else:
            replies = self.laboratory.replies(seat.number, lines)
        if self.laboratory.is_owed:
            self._change()
        is_quick = time.monotonic() - began < _QUICK
        self._together = min(2 * self._together, _TOGETHER) if is_quick else max(1, self._together // 2)
        return replies

    def _reply(self, seat: Seat, replies: list[str]) -> Iterator[None]:
        """Sends replies, after the entries that their lines have made."""
        while self.laboratory.is_owed and self._read_on() and self.laboratory.is_owed:
            yield
        self._tell(seat, sys.maxsize)
        if replies:
            seat.out.put("\n".join(replies))

    def _send_files(self, seat: Seat, number: str, files: Files) -> Iterator[None]:
        """Sends files in parts, each when there is room for it."""
        for name, parts in files.items():
            for part in parts:
                yield
                if part:
                    seat.out.put(file_message(int(number), name, part))

    def _read_on(self) -> bool:
        """Reads some of the journal's new entries. Returns whether there are more."""
        known, it = len(self.laboratory.makers), self.laboratory
        self.is_reading = not it.read_on()
        if any(maker is not None for maker in it.makers[known:]):
            self._is_new = False
            self._change()
        return self.is_reading

    def _tell(self, seat: Seat, room: int) -> None:
        """Tells a page entries that it wasn't told, while fewer bytes than `room` wait for it."""
        last = len(self.laboratory.makers)
        while seat.told < last and seat.out.size < room and not seat.out.is_cut:
            first, seat.told = seat.told, min(seat.told + _MOST_TOLD, last)
            text = self._entries(first, seat.told)
            if text:
                seat.out.put(text)

    def _word(self, seat: Seat, line: str) -> Union[str, Files]:
        """The reply to a word of the page, or its files, by the method of that name."""
        word, *rest = line.split(" ")
        if word not in _NEEDS:
            return "NO word"
        try:
            act: Callable[[Seat, list[str]], Union[str, Files]] = getattr(self, f"_{word[1:]}")
            return self._refusal(seat, _NEEDS[word]) or act(seat, rest)
        except Moving:
            return "NO moving"

    def _refusal(self, seat: Seat, needs: str) -> str:
        """The refusal, if this seat may not `draw`, or not `open` another gas: the gas is everybody's."""
        if needs and seat.rights == "watch":
            return "NO watch"
        if needs == "open" and not self.laboratory.is_own:
            return "NO server"
        first = next((it for it in self.seats.values() if it.rights == "all"), seat)
        return "NO first" if needs == "open" and seat is not first else ""

    def _drawn(self, seat: Seat, words: list[str]) -> str:
        seat.undrawn = max(0, seat.undrawn - 1)
        self.give(seat)
        return ""

    def _name(self, seat: Seat, words: list[str]) -> str:
        now = time.monotonic()
        if now - seat.named < _RENAMED:
            return "NO busy"
        seat.name, seat.named = printable(" ".join(words))[:_LONGEST_NAME], now
        self.tell(f"* seat {seat.number} name {seat.name}")
        return "DONE"

    def _script(self, seat: Seat, words: list[str]) -> Files:
        it = self.laboratory
        start = {"start.gas": _cut(it.start.to_bytes())} if it.start else {}
        return {"gas.txt": self._script_parts(it), **start}

    def _script_parts(self, it: Laboratory) -> Iterator[bytes]:
        """A script with all entries. Parts without bytes let others have their turn."""
        while self._read_on() if it is self.laboratory else not it.read_on():
            yield b""
        yield from (part.encode() for part in it.script())

    def _snapshot(self, seat: Seat, words: list[str]) -> Files:
        return {"day.gas": _cut(self._read().gas.to_bytes())}

    def _play(self, seat: Seat, words: list[str], count: int = 2) -> str:
        *to, steps, rate = _numbers(words, count) or (0, 0)
        if not (1 <= steps <= MOST_STEPS and 1 <= rate <= _MOST_RATE):
            return "NO speed"
        gas = self._read().gas if to else None
        if gas and to[0] < gas.tick and (gas.drains or gas.sources):
            return "ERR 11 ports"
        self.player.play, self.player.due = Play(seat.number, steps, rate, *to), time.monotonic()
        self.tell(f"* play {seat.number} {steps} {rate}")
        return "DONE"

    def _goto(self, seat: Seat, words: list[str]) -> str:
        return self._play(seat, words, 3)

    def _pause(self, seat: Seat, words: list[str]) -> str:
        self.player.pause("asked", seat.number)
        return self._change()

    def _watch(self, seat: Seat, words: list[str]) -> str:
        self._change()
        return self.laboratory.watch(words)

    def _unwatch(self, seat: Seat, words: list[str]) -> str:
        for key in _numbers(words, 1):
            self.laboratory.probes.pop(key, None)
        return self._change()

    def _open(self, seat: Seat, words: list[str]) -> str:
        size, name = _numbers(words[:2], 2), printable(" ".join(words[2:]))[:_LONGEST_TITLE]
        return self._begin((size[0], size[1]), name=name) if size and set(size) <= set(SIDES) else "NO size"

    def _fresh(self, seat: Seat, words: list[str]) -> str:
        old = self.laboratory
        reply = self._begin(start=old.gas(), name=old.name)
        self.laboratory.probes, self.laboratory.keys = dict(old.probes), old.keys
        return reply

    def _bring(self, seat: Seat, words: list[str]) -> str:
        old, self._old = self._old, None
        if not old:
            return "NO old"
        try:
            old.lab.tally()
        except GaslabError as fault:
            old.close()
            return _no_program(fault)
        return self._take(old)

    def _upload(self, seat: Seat, data: bytes) -> str:
        try:
            start = Snapshot.from_bytes(data)
            return self._refusal(seat, "open") or self._begin(start=start)
        except SnapshotFault:
            return "NO snapshot"

    def _begin(self, size: tuple[int, int] = (64, 64), start: Optional[Snapshot] = None,
               name: str = "") -> str:
        """Shows another gas. The one before stays if no program can be started for it."""
        try:
            return self._take(Laboratory.own(self.means, size, start, name))
        except (GaslabError, OSError) as fault:
            return _no_program(fault)

    def _take(self, laboratory: Laboratory) -> str:
        """Shows another gas, and keeps the one before for `.bring`."""
        self.player.pause("opened")
        while self.laboratory.is_owed:
            self._read_on()
        kept = None if self._is_new else self.laboratory
        for it in {self._old, self.laboratory} - {kept}:
            if it is not None:
                it.close()
        self._old, self.laboratory, self._is_new = kept, laboratory, False
        self._texts = {}
        for seat in self.seats.values():
            seat.told = len(laboratory.makers)
        self.tell(self._opened())
        return self._change()

    def _opened(self) -> str:
        width, height = self.laboratory.lab.size
        return f"* open {width} {height} {len(self.laboratory.makers)} {self.laboratory.name}".rstrip()

    def _change(self) -> str:
        """Notes that the gas, or what pictures say of it, is another one now. Returns what a page is told."""
        self._is_dirty, self._reading, self._frames = True, None, {}
        return "DONE"

    def _show(self) -> None:
        """After a change each page is to have a new picture."""
        if self._is_dirty:
            self._is_dirty, self._number = False, self._number + 1
        for seat in list(self.seats.values()):
            self.give(seat)

    def _draw(self, seat: Seat) -> None:
        """Sends the newest picture, if there is room for it."""
        with suppress(Moving):  # it is tried again when the next page asks
            gas = self._read().gas
            solids = gas.wall_bytes, gas.obstacle_bytes, gas.drains, gas.sources
            is_old = seat.solids != solids
            if is_old not in self._frames:
                self._frames[is_old] = picture_message(self._read(), self._number, self.player.play, is_old)
            seat.is_behind = seat.out.size > ROOM
            if not seat.is_behind:
                seat.newest, seat.solids, seat.undrawn = self._number, solids, seat.undrawn + 1
                seat.out.put(self._frames[is_old])

    def _entries(self, first: int, last: int) -> str:
        """Entries as events. They are spelled once for all pages."""
        key = first, last
        if key not in self._texts:
            self._texts = {key: self.laboratory.entries(first, last)}
        return self._texts[key]

    def _read(self) -> Reading:
        """What the laboratory has now. It is read once for all pages."""
        self._reading = self._reading or self.laboratory.look()
        return self._reading


def _no_program(fault: Exception) -> str:
    """The refusal if none runs, with the reason."""
    return f"NO program {printable(str(fault))[:_LONGEST_WHY]}"


def _cut(data: bytes) -> Iterator[bytes]:
    """The bytes in parts."""
    return (data[at:at + _PART] for at in range(0, len(data), _PART))


def _numbers(words: list[str], count: int) -> list[int]:
    """So many whole numbers, or none."""
    found = [int(word) for word in words if re.fullmatch("-?[0-9]{1,15}", word)]
    return found if len(found) == len(words) == count else []
