#!/usr/bin/env python3
"""The laboratory once more: a second implementation, in Python and straight from the rules of the gas.

It works with sites and channels in a set of cells, and knows nothing of tiles, words or the program. It reads a script of
commands on standard input and writes the replies, with the options, refusals and statuses of `gaslab run` (docs/FORMATS.md).
The outputs beside the scripts in examples/ come from here, so they are not the program's own. It is slow: some thousand
particles a millisecond.

    tools/channel_gas.py < examples/4_tunnel.txt
    tools/channel_gas.py --width 256 --height 256 < examples/5_sound.txt

Scripts that are named are sessions on one gas, one after another, of the seats 0, 1, ..:

    tools/channel_gas.py examples/8_first.txt examples/8_second.txt examples/8_third.txt
"""
import argparse
import os
import re
import struct
import sys

PARTICLES = {"put": set.union, "erase": set.difference}  # what they make of the particles and a rectangle's cells
SOLIDS = ("wall", "block", "unwall")
COUNTS = {**dict.fromkeys((*PARTICLES, *SOLIDS, "drain", "probe"), 4), "source": 5, "row": 2,
          **dict.fromkeys(("step", "back", "read", "entry"), 1),
          **dict.fromkeys(("unport", "tally", "ledger", "save", "quit"), 0)}
READINGS = ("probe", "tally", "ledger", "read", "entry", "save", "quit")
REFUSALS = ("", "line", "word", "count", "number", "rect", "steps", "period", "row", "entry", "full", "ports", "tick", "journal",
            "memory", "save")
MOST_TICK, MOST_PORTS = 2 ** 40, 16
VELOCITIES = [(1, 1), (-1, 1), (1, -1), (-1, -1)]
HEAD_ON = [{(1, 1), (-1, -1)}, {(1, -1), (-1, 1)}]


class Gas:
    def __init__(self, width, height):
        self.width, self.height, self.tick = width, height, 0
        self.particles, self.walls, self.obstacles = set(), set(), set()
        self.drains, self.sources = [], []
        self.collides = True

    def velocity(self, cell, tick):
        return tuple(1 if (place + tick) % 2 == 0 else -1 for place in cell)

    def sums(self, cells):
        speeds = [self.velocity(cell, self.tick) for cell in cells]
        return [len(speeds), sum(x for x, _ in speeds), sum(y for _, y in speeds)]

    def cell_of(self, site, velocity):
        """The cell that is the site's channel of that velocity."""
        (x, y), (vx, vy) = site, velocity
        return ((x + (vx < 0)) % self.width, (y + (vy < 0)) % self.height)

    def site_of(self, cell, velocity):
        """The site of which the cell is the channel of that velocity."""
        (x, y), (vx, vy) = cell, velocity
        return ((x - (vx < 0)) % self.width, (y - (vy < 0)) % self.height)

    def beside(self, site, velocity):
        """The site to which that velocity leads."""
        return ((site[0] + velocity[0]) % self.width, (site[1] + velocity[1]) % self.height)

    def takers(self, tick):
        """The sites with a wall or an obstacle among their cells, and who takes the momentum there."""
        sites = {}
        for name, cells in (("walls", self.walls), ("obstacles", self.obstacles)):
            for cell in cells:
                sites[self.site_of(cell, self.velocity(cell, tick))] = name
        return sites

    def outcome(self, held, taker):
        """What leaves a site that holds particles of these velocities."""
        if taker:
            return {(-x, -y) for x, y in held}
        if self.collides and held in HEAD_ON:
            return set(VELOCITIES) - held
        return held

    def step(self, books):
        """Each site lets its particles collide or bounce, and they stream on."""
        sites, moved, takers = {}, set(), self.takers(self.tick)
        for cell in self.particles:
            velocity = self.velocity(cell, self.tick)
            sites.setdefault(self.site_of(cell, velocity), set()).add(velocity)
        for site, held in sites.items():
            taker = takers.get(site)
            if taker:
                books.take(taker, held, 1)
            for velocity in self.outcome(held, taker):
                moved.add(self.cell_of(self.beside(site, velocity), velocity))
        self.particles, self.tick = moved, self.tick + 1

    def step_back(self, books):
        """Each site takes in what it sent out, and gets back what it held."""
        sites, moved, takers = {}, set(), self.takers(self.tick - 1)
        for cell in self.particles:
            x, y = velocity = self.velocity(cell, self.tick)
            sent_by = self.beside(self.site_of(cell, velocity), (-x, -y))
            sites.setdefault(sent_by, set()).add(velocity)
        for site, sent in sites.items():
            taker = takers.get(site)
            held = self.outcome(sent, taker)
            if taker:
                books.take(taker, held, -1)
            moved |= {self.cell_of(site, velocity) for velocity in held}
        self.particles, self.tick = moved, self.tick - 1


class Books:
    def __init__(self, start):
        self.start, self.injected, self.drained = start, [0, 0, 0], [0, 0, 0]
        self.taken = {"walls": [0, 0], "obstacles": [0, 0]}

    def take(self, taker, held, sign):
        for axis in (0, 1):
            self.taken[taker][axis] += sign * 2 * sum(v[axis] for v in held)

    def change(self, gas, cells):
        """The particles become these cells: what is new was injected, what is gone was drained."""
        for account, part in ((self.injected, cells - gas.particles), (self.drained, gas.particles - cells)):
            for i, n in enumerate(gas.sums(part)):
                account[i] += n
        gas.particles = cells

    def numbers(self):
        numbers = [self.start[0], self.injected[0], self.drained[0]]
        for axis in (0, 1):
            numbers += [account[axis + 1] for account in (self.start, self.injected, self.drained)]
            numbers += [self.taken["walls"][axis], self.taken["obstacles"][axis]]
        return numbers


def rectangle(x, y, w, h):
    return {(i, j) for i in range(x, x + w) for j in range(y, y + h)}


def ports(gas, books):
    if not gas.drains and not gas.sources:
        return
    cells = set(gas.particles)
    for area in gas.drains:
        cells -= rectangle(*area)
    for *area, period in gas.sources:
        if gas.tick % period == 0:
            cells |= rectangle(*area)
    books.change(gas, cells)


def row_bits(cells, width, y):
    return int("".join("1" if (x, y) in cells else "0" for x in range(width)), 2)


def snapshot(gas):
    """The bytes of a gas, as docs/FORMATS.md lays them out."""
    parts = [b"HPPGAS2\n", struct.pack(">HHqBB", gas.width, gas.height, gas.tick, len(gas.drains), len(gas.sources))]
    parts += [struct.pack(">4H", *area) for area in gas.drains]
    parts += [struct.pack(">5H", *source) for source in gas.sources]
    for cells in (gas.particles, gas.walls, gas.obstacles):
        parts += [row_bits(cells, gas.width, y).to_bytes(gas.width // 8, "big") for y in range(gas.height)]
    return b"".join(parts)


class LoadFault(Exception):
    """Bytes that are no snapshot."""


def from_snapshot(data):
    """The gas of a snapshot. Raises LoadFault with the word of docs/FORMATS.md for the first fault from the left."""
    at = 0

    def taken(count):
        nonlocal at
        at += count
        if at > len(data):
            raise LoadFault("short")
        return data[at - count:at]

    def need(holds, word):
        if not holds:
            raise LoadFault(word)

    def port(kind):
        numbers = struct.unpack(kind, taken(struct.calcsize(kind)))
        need(is_within(gas, *numbers[:4]) and numbers[-1] > 0, "port")
        return numbers

    version = {b"HPPGAS1\n": 1, b"HPPGAS2\n": 2}.get(taken(8))
    need(version, "magic")
    sides = struct.unpack(">HH", taken(4))
    need(all(64 <= side <= 2048 * version and side % 64 == 0 for side in sides), "size")
    gas = Gas(*sides)
    gas.tick, = struct.unpack(">q", taken(8))
    need(abs(gas.tick) <= MOST_TICK, "tick")
    drains, sources = taken(2)
    need(max(drains, sources) <= MOST_PORTS, "port")
    gas.drains = [port(">4H") for _ in range(drains)]
    gas.sources = [port(">5H") for _ in range(sources)]
    for cells in (gas.particles, gas.walls, gas.obstacles)[:version + 1]:
        rows = taken(gas.width * gas.height // 8)
        for y in range(gas.height):
            row = rows[y * gas.width // 8:(y + 1) * gas.width // 8]
            cells |= full_cells(y, f"{int.from_bytes(row, 'big'):0{gas.width}b}")
    need(at == len(data), "trailing")
    return gas


def full_cells(y, bits):
    return {(x, y) for x, bit in enumerate(bits) if bit == "1"}


def is_within(gas, x, y, w, h):
    return w > 0 and h > 0 and x + w <= gas.width and y + h <= gas.height


class Refusal(Exception):
    """A line that is refused. Its number is that of docs/FORMATS.md."""


def need(holds, number):
    if not holds:
        raise Refusal(number)


def parsed(line, gas):
    """A line's command word, numbers and digits. Raises Refusal 2 to 8."""
    word, *words = [it for it in line.split(" ") if it] or [""]
    need(word in COUNTS, 2)
    need(len(words) == COUNTS[word], 3)
    digits = words.pop().lower() if word == "row" else ""
    need(all(re.fullmatch("[0-9]{1,10}", it) and int(it) < 2 ** 32 for it in words), 4)
    numbers = [int(it) for it in words]
    if len(numbers) >= 4:
        need(is_within(gas, *numbers[:4]), 5)
    if word in ("row", "read"):
        need(numbers[0] < gas.height, 5)
    if word in ("step", "back"):
        need(1 <= numbers[0] <= 4096, 6)
    if word == "source":
        need(1 <= numbers[4] <= 65535, 7)
    if word == "row":
        need(re.fullmatch(f"[0-9a-f]{{{gas.width // 4}}}", digits), 8)
    return word, numbers, digits


def check(word, numbers, gas, journal, cap):
    """Raises Refusal 9 to 13: what the laboratory refuses in the state that it is in."""
    if word == "entry":
        need(numbers[0] < len(journal), 9)
    if word in ("source", "drain"):
        need(len(gas.sources if word == "source" else gas.drains) < MOST_PORTS, 10)
    if word == "back":
        need(not gas.sources and not gas.drains, 11)
        need(gas.tick - numbers[0] >= -MOST_TICK, 12)
    if word == "step":
        need(gas.tick + numbers[0] <= MOST_TICK, 12)
    need(word in READINGS or len(journal) < cap, 13)


def session(seat, lines, gas, books, journal, save_path, cap=65536):
    """The replies to the lines of a session. A line is a text, or bytes as they came in, and has no newline."""
    for line in lines:
        try:
            if isinstance(line, bytes):
                line = decoded(line)
            word, numbers, digits = parsed(line, gas)
            check(word, numbers, gas, journal, cap)
            yield answer(seat, word, numbers, digits, (gas, books, journal, save_path))
        except Refusal as refused:
            number, = refused.args
            yield "ERR", number, REFUSALS[number]
            if number == 1:
                return
            continue
        if word == "quit":
            return


def decoded(line):
    need(len(line) <= 2048, 1)
    try:
        return line.removesuffix(b"\r").decode()
    except UnicodeDecodeError:
        raise Refusal(1) from None


def answer(seat, word, numbers, digits, laboratory):
    """The reply to a command that is not refused, but for a save that fails."""
    gas, books, journal, save_path = laboratory
    if word == "probe":
        left, top, w, h = numbers
        return "PROBE", *gas.sums((x, y) for x, y in gas.particles if left <= x < left + w and top <= y < top + h)
    if word == "tally":
        return "TALLY", gas.tick, *gas.sums(gas.particles)
    if word == "ledger":
        return "LEDGER", *books.numbers()
    if word == "read":
        return "ROW", f"{row_bits(gas.particles, gas.width, numbers[0]):0{gas.width // 4}x}"
    if word == "entry":
        return "ENTRY", *journal[numbers[0]]
    if word == "save":
        return saved(gas, journal, save_path)
    if word == "quit":
        return ("BYE",)
    change(gas, books, word, numbers, digits)
    journal.append((seat, " ".join(map(str, (word, *numbers, *([digits] if digits else []))))))
    return "OK", len(journal) - 1


def saved(gas, journal, path):
    data = snapshot(gas)
    try:
        with open(path or "", "wb") as file:
            file.write(data)
    except OSError:
        raise Refusal(15) from None
    return "SAVED", len(journal), len(data)


def change(gas, books, word, numbers, digits):
    if word in PARTICLES:
        books.change(gas, PARTICLES[word](gas.particles, rectangle(*numbers)))
    elif word == "row":
        row = full_cells(numbers[0], f"{int(digits, 16):0{gas.width}b}")
        books.change(gas, {cell for cell in gas.particles if cell[1] != numbers[0]} | row)
    elif word == "wall":
        gas.walls |= rectangle(*numbers)
    elif word == "block":
        gas.obstacles |= rectangle(*numbers)
    elif word == "unwall":
        gas.walls -= rectangle(*numbers)
        gas.obstacles -= rectangle(*numbers)
    elif word == "source":
        gas.sources.append(numbers)
    elif word == "drain":
        gas.drains.append(numbers)
    elif word == "unport":
        gas.drains, gas.sources = [], []
    elif word == "step":
        for _ in range(numbers[0]):
            gas.step(books)
            ports(gas, books)
    elif word == "back":
        for _ in range(numbers[0]):
            gas.step_back(books)
    else:
        raise ValueError(word)


def lines_of(file):
    """The lines of a file as bytes, without their newlines. What comes after the last newline is no command.

    A line that is too long is cut, but still too long.
    """
    while True:
        line = file.readline(2050)
        if line.endswith(b"\n"):
            yield line[:-1]
        else:
            if len(line) > 2048:
                yield line
            return


def number_in(least, most, step=1):
    """What reads a number of an option."""
    def read(text):
        if not re.fullmatch("[0-9]{1,10}", text) or not least <= int(text) <= most or int(text) % step:
            raise argparse.ArgumentTypeError(f"{text} is not {'a multiple of 64 ' if step > 1 else ''}from {least} to {most}")
        return int(text)
    return read


def main():
    options = argparse.ArgumentParser(description=__doc__, formatter_class=argparse.RawDescriptionHelpFormatter)
    side = number_in(64, 4096, 64)
    options.add_argument("--width", type=side, default=64, help="columns, a multiple of 64 (64); not used with --load")
    options.add_argument("--height", type=side, default=64, help="rows, a multiple of 64 (64); not used with --load")
    options.add_argument("--workers", type=number_in(1, 16), default=1, help="taken, but one thread does the work")
    options.add_argument("--cap", type=number_in(1, 65536), default=1024, help="changes that the journal has room for (1024)")
    options.add_argument("--load", metavar="PATH", help="begin with the gas of this snapshot")
    options.add_argument("--save", metavar="PATH", help="where the command save writes a snapshot")
    options.add_argument("--without-collisions", action="store_true", help="let particles pass through one another")
    options.add_argument("scripts", nargs="*", metavar="SCRIPT", help="sessions, in place of standard input")
    asked = options.parse_args()
    if not sys.stdout or not (asked.scripts or sys.stdin):
        sys.exit(1)  # one of them is closed
    try:
        scripts = [open(path, "rb") for path in asked.scripts] or [sys.stdin.buffer]
    except OSError as fault:
        options.error(f"{fault.filename}: {fault.strerror}")
    gas = Gas(asked.width, asked.height)
    if asked.load:
        try:
            with open(asked.load, "rb") as file:
                gas = from_snapshot(file.read())
        except (OSError, LoadFault) as fault:
            print("load:", "read" if isinstance(fault, OSError) else fault, file=sys.stderr)
            sys.exit(3)
    gas.collides = not asked.without_collisions
    laboratory, reply = (gas, Books(gas.sums(gas.particles)), []), ()
    for seat, script in enumerate(scripts):
        for reply in session(seat, lines_of(script), *laboratory, asked.save, asked.cap):
            print(*reply, flush=True)
    sys.exit(5 if reply[:2] == ("ERR", 1) else 0)


if __name__ == "__main__":
    try:
        main()
    except KeyboardInterrupt:
        sys.exit(130)
    except OSError:  # the replies or the script can't be written or read any more
        os._exit(1)
