#!/usr/bin/env python3
"""A program with the laboratory's options, over the second implementation, tools/channel_gas.py.

    stand_in.py run --width 128 --load day.gas --save day.gas
    stand_in.py serve --listen 127.0.0.1:7878 --sessions 3

It is slow, and independent of both the program and the client.
"""
import argparse
import os
import socket
import sys
import threading

HERE = os.path.dirname(os.path.abspath(__file__))
sys.path.append(os.path.join(HERE, "..", "..", "..", "tools"))

import channel_gas  # noqa: E402


class Laboratory:
    def __init__(self, asked):
        self.save_path, self.cap = asked.save, asked.cap
        if asked.load:
            with open(asked.load, "rb") as file:
                self.gas = channel_gas.from_snapshot(file.read())
        else:
            self.gas = channel_gas.Gas(asked.width, asked.height)
        self.books = channel_gas.Books(self.gas.sums(self.gas.particles))
        self.journal = []
        self.lock = threading.Lock()

    def answer(self, seat, line):
        with self.lock:
            parts = (self.gas, self.books, self.journal, self.save_path, self.cap)
            reply, = channel_gas.session(seat, [line], *parts)
            return " ".join(map(str, reply))

    def session(self, seat, lines, out):
        for line in lines:
            reply = self.answer(seat, line.rstrip("\n"))
            out.write(reply + "\n")
            out.flush()
            if reply == "BYE":
                return


def serve(laboratory, asked):
    host, _, port = asked.listen.rpartition(":")
    seats = []
    with socket.create_server((host, int(port))) as listener:
        print(f"LISTEN {host}:{listener.getsockname()[1]}", flush=True)
        for seat in range(asked.sessions):
            connection, _ = listener.accept()
            seats.append(threading.Thread(target=serve_one, args=(laboratory, seat, connection)))
            seats[-1].start()
        for seat in seats:
            seat.join()
    print(f"SERVED {asked.sessions} 0 {len(laboratory.journal)}")


def serve_one(laboratory, seat, connection):
    try:
        with connection, connection.makefile("r") as lines, connection.makefile("w") as out:
            laboratory.session(seat, lines, out)
    except OSError:
        pass


def main():
    options = argparse.ArgumentParser()
    options.add_argument("word", choices=("run", "serve"))
    for name, default in (("width", 64), ("height", 64), ("workers", 1), ("cap", 1024)):
        options.add_argument(f"--{name}", type=int, default=default)
    options.add_argument("--load")
    options.add_argument("--save")
    options.add_argument("--listen", default="127.0.0.1:0")
    options.add_argument("--sessions", type=int, default=1)
    asked = options.parse_args()
    laboratory = Laboratory(asked)
    if asked.word == "serve":
        serve(laboratory, asked)
    else:
        laboratory.session(0, sys.stdin, sys.stdout)


if __name__ == "__main__":
    main()
