#!/usr/bin/env python3
"""A program with the laboratory's options that answers at once: a gas in which nothing ever moves.

    still.py run --width 2048 --height 2048 --cap 65536 --save now.gas

It keeps a journal and the tick, and saves one snapshot again and again. It is for trials of what is
around the laboratory: how many messages, bytes and seconds.
"""
import argparse
import json
import struct
import sys
from pathlib import Path

STATIC = Path(__file__).resolve().parent.parent / "gaslab" / "page" / "static"
COUNTS = json.loads((STATIC / "grammar.json").read_text())["counts"]
READINGS = {"probe": "PROBE 0 0 0", "ledger": "LEDGER" + 13 * " 0", "quit": "BYE"}


class Still:
    def __init__(self, asked):
        self.asked, self.tick, self.journal = asked, 0, []
        size = asked.width * asked.height // 8
        self.row = "ROW " + "0" * (asked.width // 4)
        self.planes = bytes(3 * size)

    def answer(self, line):
        word, *words = [it for it in line.split(" ") if it] or [""]
        if len(words) != COUNTS.get(word):
            return "ERR 3 count" if word in COUNTS else "ERR 2 word"
        if word in READINGS:
            return READINGS[word]
        if word in ("tally", "read", "save", "entry"):
            return getattr(self, word)(*words)
        if len(self.journal) >= self.asked.cap:
            return "ERR 13 journal"
        self.tick += {"step": 1, "back": -1}.get(word, 0) * int(words[0] if words else 0)
        self.journal.append(" ".join((word, *words)))
        return f"OK {len(self.journal) - 1}"

    def tally(self):
        return f"TALLY {self.tick} 0 0 0"

    def read(self, y):
        return self.row

    def entry(self, k):
        return f"ENTRY 0 {self.journal[int(k)]}" if int(k) < len(self.journal) else "ERR 9 entry"

    def save(self):
        head = struct.pack(">8sHHqBB", b"HPPGAS2\n", self.asked.width, self.asked.height, self.tick, 0, 0)
        with open(self.asked.save, "wb") as file:
            file.write(head + self.planes)
        return f"SAVED {len(self.journal)} {len(head) + len(self.planes)}"


def main():
    options = argparse.ArgumentParser()
    options.add_argument("word", choices=("run",))
    for name, default in (("width", 64), ("height", 64), ("workers", 1), ("cap", 1024)):
        options.add_argument(f"--{name}", type=int, default=default)
    options.add_argument("--load")
    options.add_argument("--save")
    asked = options.parse_args()
    if asked.load:
        with open(asked.load, "rb") as file:
            asked.width, asked.height = struct.unpack(">8xHH", file.read(12))
    still, out = Still(asked), sys.stdout
    for line in iter(sys.stdin.readline, ""):
        reply = still.answer(line.rstrip("\n"))
        out.write(reply + "\n")
        out.flush()
        if reply == "BYE":
            return


if __name__ == "__main__":
    main()
