"""The pages' server over HTTP and WebSockets, with aiohttp's client. It is skipped without aiohttp."""
import asyncio
import importlib.util
import os
import subprocess
import sys
import tempfile
import threading
import unittest
import urllib.request
from contextlib import suppress
from pathlib import Path

from gaslab import Gone, Snapshot
from gaslab.page.hall import Hall
from gaslab.page.laboratory import Laboratory, Means
from gaslab.page.one_file import one_file
from gaslab.page.web import Web, names_of

from .test_hall import decoded
from .test_lab import ROOT, STAND_IN
from .test_shell import said

AIOHTTP = importlib.util.find_spec("aiohttp")
if AIOHTTP:
    import aiohttp

MEANS = Means(str(STAND_IN))


def hall_of(links):
    return Hall(Laboratory.own(MEANS), MEANS, links)


@unittest.skipUnless(AIOHTTP, "aiohttp is not installed")
class Served(unittest.IsolatedAsyncioTestCase):
    make_hall = staticmethod(hall_of)

    async def asyncSetUp(self):
        asyncio.get_running_loop().slow_callback_duration = 60.0
        self.pages, ready = [], asyncio.Event()
        self.web = Web(self.make_hall, opened=("a script", b"put 0 0 1 1\n"))
        self.task = asyncio.ensure_future(self.web.run(0, lambda web: ready.set()))
        is_ready = asyncio.ensure_future(ready.wait())
        await asyncio.wait([self.task, is_ready], return_when=asyncio.FIRST_COMPLETED)
        self.client = aiohttp.ClientSession()
        self.origin = f"http://127.0.0.1:{self.web.port}"

    async def asyncTearDown(self):
        for page in self.pages:
            await page.close()
        await self.client.close()
        self.task.cancel()
        await asyncio.wait([self.task])
        for desk in [it for it in threading.enumerate() if type(it).__name__ == "Desk"]:
            desk.join(60)  # it has said that it ends, and may still be on its way out
            self.assertFalse(desk.is_alive())

    async def status(self, path="", **headers):
        async with self.client.get(self.web.link("all") + path, headers=headers) as answer:
            return answer.status

    async def join(self, rights="all", **headers):
        page = await self.client.ws_connect(self.web.link(rights) + "socket", max_msg_size=0,
                                            headers={"Origin": self.origin, **headers})
        self.pages.append(page)
        return page

    async def reply(self, page, number):
        """The reply to the line of this number. Pictures are drawn on the way."""
        while True:
            message = await page.receive(60)
            if message.type == aiohttp.WSMsgType.BINARY:
                await page.send_str("0 .drawn")
            assert message.type in (aiohttp.WSMsgType.BINARY, aiohttp.WSMsgType.TEXT), message
            for line in message.data.split("\n") if message.type == aiohttp.WSMsgType.TEXT else ():
                if line.startswith(f"{number} "):
                    return line.partition(" ")[2]

    async def ask(self, page, line):
        await page.send_str(f"1 {line}")
        return await self.reply(page, 1)

    async def end_of(self, page):
        """What a page is closed with."""
        while not page.closed:
            await page.receive(60)
        return page.close_code


class Safety(Served):
    async def test_the_page_and_its_rules(self):
        async with self.client.get(self.web.link("watch")) as answer:
            text = await answer.text()
            self.assertEqual(answer.headers["Content-Security-Policy"], "frame-ancestors 'none'")
            self.assertEqual(answer.headers["X-Content-Type-Options"], "nosniff")
            self.assertEqual(answer.headers["Referrer-Policy"], "no-referrer")
        rules = text.partition('http-equiv="Content-Security-Policy" content="')[2].partition('"')[0]
        self.assertTrue(rules.startswith("default-src 'none'; script-src 'sha256-"), rules)
        self.assertIn(f"connect-src ws://127.0.0.1:{self.web.port}", rules)
        self.assertNotIn("unsafe-eval", rules)
        self.assertNotIn('id="worker"', text)

    async def test_wrong_tokens(self):
        token = self.web.tokens["all"]
        for path in ("/", "/x/", f"/{token[:-1]}/", f"/{token}x/", "/%C3%A9/", f"/{token}/page.js",
                     f"/{token}/../web.py", f"/{token}"):
            async with self.client.get(self.origin + path) as answer:
                self.assertEqual(answer.status, 404, path)
        with self.assertRaises(aiohttp.WSServerHandshakeError) as caught:
            await self.client.ws_connect(f"{self.origin}/x/socket", headers={"Origin": self.origin})
        self.assertEqual(caught.exception.status, 404)
        self.assertNotEqual(self.web.tokens["all"], self.web.tokens["watch"])

    async def test_other_hosts_and_origins(self):
        """Neither another site nor another name for this machine looks or sends."""
        port = self.web.port
        for name in ("127.0.0.1", "localhost"):
            self.assertEqual(await self.status(Host=f"{name}:{port}"), 200)
        for host in ("elsewhere.example", f"elsewhere.example:{port}", "127.0.0.1", f"127.0.0.1:{port + 1}",
                     "[::1]"):
            self.assertEqual(await self.status(Host=host), 403, host)
        for origin in ("http://elsewhere.example", "null", f"https://127.0.0.1:{port}", "http://127.0.0.1:1",
                       f"http://localhost:{port}"):
            self.assertEqual(await self.status(Origin=origin), 403, origin)
            with self.assertRaises(aiohttp.WSServerHandshakeError) as caught:
                await self.join(Origin=origin)
            self.assertEqual(caught.exception.status, 403, origin)
        with self.assertRaises(aiohttp.WSServerHandshakeError):
            await self.client.ws_connect(self.web.link("all") + "socket")
        for method in ("POST", "PUT", "OPTIONS"):
            async with self.client.request(method, self.web.link("all")) as answer:
                self.assertEqual(answer.status, 404)

    async def test_a_broken_message_ends_its_own_page(self):
        good = await self.join()
        for message in ("", "\n", "put 0 0 1 1", "1 tally\nx", "x" * (9 << 20), "1 tally\n" * 80_000):
            bad = await self.join()
            with suppress(OSError):  # it may be closed before all is sent
                await bad.send_str(message)
            self.assertIn(await self.end_of(bad), (1006, 1008, 1009), message[:20])
        for message in (b"", b"\0" * (9 << 20), b"HPPGAS2\n"):
            bad = await self.join()
            with suppress(OSError):
                await bad.send_bytes(message)
            if len(message) < 99:
                self.assertEqual(await self.reply(bad, 0), "NO snapshot")
            else:
                self.assertIn(await self.end_of(bad), (1006, 1009))
            await bad.close()
        self.assertEqual(await self.ask(good, "put 0 0 1 1"), "OK 0")
        self.assertEqual(await self.ask(good, "tally"), "TALLY 0 1 1 1")

    async def test_a_watchers_link(self):
        watcher, page = await self.join("watch"), await self.join()
        self.assertEqual((await watcher.receive(60)).data.split("\n")[0], "* hello 0 watch named 65536 new")
        for line in ("put 0 0 1 1", ".play 1 1", ".open 64 64"):
            self.assertEqual(await self.ask(watcher, line), "NO watch")
        self.assertEqual(await self.ask(page, "tally"), "TALLY 0 0 0 0")

    async def test_browsers_leave_out_port_80(self):
        self.assertEqual(names_of("127.0.0.1", 80),
                         ["127.0.0.1:80", "127.0.0.1", "localhost:80", "localhost"])
        self.assertEqual(names_of("::1", 80), ["[::1]:80", "[::1]"])
        self.assertEqual(names_of("192.168.1.5", 8080), ["192.168.1.5:8080"])

    async def test_this_machine_alone(self):
        self.assertEqual(self.web.link("all").split("/")[2], f"127.0.0.1:{self.web.port}")
        for name in ("0.0.0.0", "::", "elsewhere.example", ""):
            with self.assertRaises(ValueError, msg=name):
                Web(None, name)


class Pages(Served):
    async def test_two_pages_show_one_gas(self):
        one, two = await self.join(), await self.join()
        self.assertEqual(await self.ask(one, "put 3 3 1 1"), "OK 0")
        self.assertEqual(await self.ask(two, ".play 1 60"), "DONE")
        for page in (one, two):
            tick = 0
            while tick < 5:
                message = await page.receive(60)
                if message.type == aiohttp.WSMsgType.BINARY:
                    await page.send_str("0 .drawn")
                    it = decoded(message.data)
                    tick = it["tick"]
                    self.assertEqual(it["particles"].nonzero(), (((3 - tick) % 64,), ((3 - tick) % 64,)))
        await one.close()
        await two.close()

    async def test_a_page_that_reads_nothing(self):
        """It gets two pictures, and another page goes on."""
        idle, page = await self.join(), await self.join()
        for _ in range(20):
            self.assertTrue((await self.ask(page, "step 1")).startswith("OK"))
        got = []
        while "* entry 19 1 step 1" not in got:
            message = await idle.receive(60)
            got.append(message.data if message.type == aiohttp.WSMsgType.TEXT else "picture")
        self.assertEqual(got.count("picture"), 2)

    async def test_the_laboratory_is_lost(self):
        """The pages are closed, and the server ends with what happened."""
        page = await self.join()
        self.assertEqual(await self.ask(page, "tally"), "TALLY 0 0 0 0")
        self.web.hall.laboratory.lab._session.door.process.kill()
        await page.send_str("2 tally")
        self.assertEqual(await self.end_of(page), 1001)
        with self.assertRaises(Gone):
            await self.task

    async def test_an_idle_page_hears_of_a_program_that_died(self):
        page = await self.join()
        self.assertEqual(await self.ask(page, "tally"), "TALLY 0 0 0 0")
        self.web.hall.laboratory.lab._session.door.process.kill()
        self.assertEqual(await asyncio.wait_for(self.end_of(page), 10), 1001)
        with self.assertRaises(Gone):
            await self.task

    async def test_an_exception_that_nobody_expected(self):
        """It ends the server, and not its clock alone."""
        page = await self.join()

        def beat():
            raise KeyError("it")
        self.web.hall.beat = beat
        self.assertEqual(await self.end_of(page), 1001)
        with self.assertRaises(KeyError):
            await self.task

    async def test_two_pages_that_change_at_a_time(self):
        """The lines of one message have no other seat's changes between them."""
        one, two = await self.join(), await self.join()
        await one.send_str("\n".join(f"{k + 1} put 0 0 1 1" for k in range(400)))
        await two.send_str("\n".join(f"{k + 1} erase 0 0 1 1" for k in range(400)))
        self.assertIn(await self.reply(one, 400), ("OK 399", "OK 799"))
        self.assertIn(await self.reply(two, 400), ("OK 399", "OK 799"))
        words = [entry.command.split(" ")[0] for entry in self.web.hall.laboratory.lab.known]
        self.assertEqual(sorted([words[:400], words[400:]]), [["erase"] * 400, ["put"] * 400])

    async def test_a_page_of_its_own(self):
        async with self.client.get(self.web.link("watch") + "gas.html") as answer:
            self.assertEqual(await answer.text(), one_file())
            self.assertIn("attachment", answer.headers["Content-Disposition"])

    async def test_a_snapshot_is_opened(self):
        page = await self.join()
        await page.send_bytes(Snapshot(4096, 1536, tick=9).to_bytes())
        self.assertEqual(await self.reply(page, 0), "DONE")
        self.assertEqual(await self.ask(page, "tally"), "TALLY 9 0 0 0")


class WithoutAProgram(Served):
    make_hall = None

    async def test_the_page_computes_itself(self):
        async with self.client.get(self.web.link("all")) as answer:
            self.assertEqual(await answer.text(), one_file("a script", b"put 0 0 1 1\n"))
        self.assertEqual(await self.status(Host="elsewhere.example"), 403)
        with self.assertRaises(aiohttp.WSServerHandshakeError):
            await self.join()


@unittest.skipUnless(AIOHTTP, "aiohttp is not installed")
class TheCommand(unittest.TestCase):
    def test_without_a_program(self):
        """It serves the page with an engine of its own, says so, and ends as Ctrl-C ends it."""
        words = [sys.executable, ROOT / "clients" / "python", "page", "--program", "/nothing/there"]
        with subprocess.Popen(words, stdout=subprocess.PIPE, stderr=subprocess.PIPE, text=True) as started:
            link = started.stdout.readline().split()[1]
            with urllib.request.urlopen(link, timeout=60) as answer:
                self.assertEqual(answer.read().decode(), one_file())
            started.terminate()
            self.assertRegex(started.stderr.read(), "^NOT PROVED: no program to start: /nothing/there ")
            self.assertEqual(started.wait(60), 143)

    def test_the_script_so_far_is_saved(self):
        """A program that dies ends the command with a sentence that names the file."""
        with tempfile.TemporaryDirectory() as folder:
            words = [sys.executable, ROOT / "clients" / "python", "page", "--program", STAND_IN, "script.txt"]
            Path(folder, "script.txt").write_text("size 128 64\nwall 0 9 64 1\nstep 2; step 3\n")
            with subprocess.Popen(words, cwd=folder, stdout=subprocess.PIPE, stderr=subprocess.PIPE,
                                  text=True) as started:
                for _ in range(2):
                    started.stdout.readline()
                subprocess.run(["pkill", "-KILL", "-P", str(started.pid)], check=True)
                said = started.stderr.read()
                self.assertEqual(started.wait(60), 1)
            saved, = Path(folder).glob("gaslab-*.txt")
            self.assertRegex(said, "^gaslab page: the other side left .*; the script so far is in ")
            self.assertIn(str(saved), said)
            self.assertEqual(saved.read_text(), "probe 0 0 128 64\nwall 0 9 64 1\nstep 5\ntally\nledger\n")

    def test_a_fault_is_told_with_its_place(self):
        """Here the clock divides by zero, a second after the start."""
        code = ("import sys, time; from gaslab.page.hall import Hall; from gaslab.__main__ import main\n"
                "beat, end = Hall.beat, time.monotonic() + 1\n"
                "Hall.beat = lambda hall: beat(hall) if time.monotonic() < end else 1 // 0\n"
                "sys.exit(main(sys.argv[1:]))")
        with tempfile.TemporaryDirectory() as folder:
            Path(folder, "script.txt").write_text("put 1 2 3 4\n")
            done = subprocess.run([sys.executable, "-c", code, "page", "script.txt", "--program", STAND_IN],
                                  cwd=folder, stdout=subprocess.PIPE, stderr=subprocess.PIPE, text=True,
                                  env={**os.environ, "PYTHONPATH": str(ROOT / "clients/python")}, timeout=60)
            self.assertRegex(done.stderr, "^gaslab page: a fault of this program, ZeroDivisionError in "
                             "<lambda> of <string>:3: .*; the script so far is in .*\\n$")
            saved, = Path(folder).glob("gaslab-*.txt")
            self.assertEqual(done.returncode, 1)
            self.assertEqual(saved.read_text(), "probe 0 0 64 64\nput 1 2 3 4\ntally\nledger\n")

    def test_what_it_can_not_do(self):
        with tempfile.TemporaryDirectory() as room:
            script = Path(room, "script.txt")
            script.write_text("put 0 0 1 1\nstep 0\n")
            for words, why in (((script,), "line 2: ERR 6 steps: "), (("a", "b", "c"), "it takes a script"),
                               (("127.0.0.1", "x"), "'x' is no port"), ((Path(room, "no"),), "No such file"),
                               (("127.0.0.1", "1", "--to", "x"), "--to makes a file"),
                               (("--share", "0.0.0.0"), "--share takes the address"),
                               (("--share", "x"), "'x' does not appear to be"),
                               (("--load", script), "a snapshot does not begin with"),
                               (("127.0.0.1", "99999"), "port is 0 to 65,535")):
                status, out, errors = said("page", *words, "--program", STAND_IN)
                self.assertEqual((status, out), (1, ""), words)
                self.assertIn(why, errors)
                self.assertEqual(len(errors.splitlines()), 1)


if __name__ == "__main__":
    unittest.main()
