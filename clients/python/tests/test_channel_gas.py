"""What tools/channel_gas.py says of faults, as docs/FORMATS.md has them."""
import random
import subprocess
import sys
import tempfile
import unittest
from pathlib import Path

from .test_lab import ROOT

TOOL = ROOT / "tools" / "channel_gas.py"
EMPTY = b"HPPGAS2\n" + bytes.fromhex("0040 0040 0000000000000000 00 00") + bytes(1536)


def run(data, *words):
    """The lines that it prints, its status, and what it says to standard error."""
    done = subprocess.run([sys.executable, TOOL, *words], input=data, capture_output=True)
    return done.stdout.decode().splitlines(), done.returncode, done.stderr.decode()


class Faults(unittest.TestCase):
    def test_a_line_of_each_refusal(self):
        refused = {"": "2 word", "jump 1": "2 word", "put 1 1 1": "3 count", "step -1": "4 number",
                   "step 4294967296": "4 number", "put 0 0 0 1": "5 rect", "put 1 0 64 1": "5 rect",
                   "read 64": "5 rect", "row 64 0000000000000000": "5 rect", "step 0": "6 steps",
                   "back 4097": "6 steps", "source 0 0 1 1 65536": "7 period",
                   "row 0 000000000000000": "8 row", "row 0 000000000000000g": "8 row",
                   "entry 17": "9 entry", "drain 0 0 1 1": "10 full",
                   "back 1": "11 ports", "wall 0 0 1 1": "13 journal", "save": "15 save"}
        lines = ["step 1", *["drain 1 2 3 4"] * 16, *refused]
        found, status, said = run("".join(f"{line}\n" for line in lines).encode(), "--cap", "17")
        self.assertEqual(found, [*(f"OK {k}" for k in range(17)), *(f"ERR {it}" for it in refused.values())])
        self.assertEqual((status, said), (0, ""))

    def test_a_refused_line_changes_nothing_and_words_are_read_as_the_formats_say(self):
        data = (b"  put  007 1 1 1 \r\nput 0 0 65 1\nput 0 0 1 1\tx\ntally\nentry 0\n"
                b"row 2 00FF000000000000\nentry 1\n")
        self.assertEqual(run(data)[0], ["OK 0", "ERR 5 rect", "ERR 4 number", "TALLY 0 1 -1 -1",
                                        "ENTRY 0 put 7 1 1 1", "OK 1", "ENTRY 0 row 2 00ff000000000000"])

    def test_a_bad_line_ends_the_session(self):
        for line in (b"put \xff 1 1 1\n", b"x" * 2049 + b"\n", b"x" * 9000):
            self.assertEqual(run(b"tally\n" + line + b"tally\n" * line.endswith(b"\n")),
                             (["TALLY 0 0 0 0", "ERR 1 line"], 5, ""))
        self.assertEqual(run(b"x" * 2048 + b"\ntally"), (["ERR 2 word"], 0, ""))

    def test_snapshots(self):
        """A fault is named by one word. Version 1 has no obstacles."""
        port = bytes.fromhex("0040 0040 0000000000000000 01 00 0001 0001 0000 0001")
        second = EMPTY[:8].replace(b"2", b"1") + EMPTY[8:22] + b"\x80" + bytes(1023)
        cases = [(EMPTY, ""), (second, ""), (EMPTY[:-1], "short"), (EMPTY + b"\0", "trailing"),
                 (b"HPPGAS3\n" + EMPTY[8:], "magic"), (EMPTY[:8] + b"\0\x41" + EMPTY[10:], "size"),
                 (EMPTY[:12] + b"\x7f" + EMPTY[13:], "tick"), (EMPTY[:8] + port + bytes(1536), "port"),
                 (EMPTY[:20] + b"\x11" + EMPTY[21:], "port"), (b"", "short")]
        with tempfile.TemporaryDirectory() as room:
            path = Path(room, "it.gas")
            for data, word in cases:
                path.write_bytes(data)
                tally = "TALLY 0 1 1 1" if data is second else "TALLY 0 0 0 0"
                wanted = ([], 3, f"load: {word}\n") if word else ([tally], 0, "")
                self.assertEqual(run(b"tally\n", "--load", path), wanted)
            self.assertEqual(run(b"", "--load", Path(room, "none")), ([], 3, "load: read\n"))

    def test_a_script_or_an_option_that_is_none(self):
        for words in (["none.txt"], ["--width", "65"], ["--height", "8192"], ["--cap", "0"]):
            found, status, said = run(b"", *words)
            self.assertEqual((found, status, "Traceback" in said), ([], 2, False), said)

    def test_streams_that_are_closed(self):
        for streams in ("<&-", "</dev/null >&-", ">/dev/full"):
            done = subprocess.run(f"exec {sys.executable} {TOOL} {streams}", shell=True, capture_output=True,
                                  input=b"tally\n")
            self.assertEqual((done.stdout, done.returncode, done.stderr), (b"", 1, b""), streams)

    def test_any_bytes_get_a_line_each(self):
        draw = random.Random(5)
        words = "put row step back source drain unport probe read entry 0 1 9 64 -1 x 99999999999".split(" ")
        for _ in range(20):
            lines = [" ".join(draw.choices(words, k=draw.randrange(7))) for _ in range(50)]
            found, status, said = run("".join(f"{line}\n" for line in lines).encode())
            self.assertEqual((len(found), status, said), (50, 0, ""))


if __name__ == "__main__":
    unittest.main()
