"""The page as one file, as the repository keeps it."""
import json
import re
import subprocess
import unittest

from gaslab.page.one_file import STATIC, bare_script, one_file, served_file

from .test_lab import ROOT
from .test_page_engine import NODE

MOST = 480_000  # bytes of the file


class Kept(unittest.TestCase):
    def test_it_is_made_from_the_present_sources(self):
        """If not: python3 clients/python page --to gaslab.html"""
        self.assertEqual((ROOT / "gaslab.html").read_text("utf-8") == one_file(), True)

    def test_its_size(self):
        self.assertLessEqual((ROOT / "gaslab.html").stat().st_size, MOST)

    def test_each_module_is_in_it_once(self):
        """The page and its worker share those of the engine. A page that is served has the same modules, but
        for those of the worker alone."""
        modules = re.findall(r"(?:^|>)const (module_\w+) = ", one_file(), re.M)
        self.assertEqual(len(modules), len(set(modules)))
        served = re.findall(r"(?:^|>)const (module_\w+) = ", served_file("ws://127.0.0.1"), re.M)
        self.assertEqual(set(modules) - set(served), {"module_worker", "module_repeats"})
        self.assertEqual(set(served) - set(modules), set())


@unittest.skipUnless(NODE, "there is no node")
class Bare(unittest.TestCase):
    """What is left out of a module's text is comments and spaces: a browser reads the same."""
    def tokens(self, texts):
        done = subprocess.run([NODE, ROOT / "clients/python/tests/tokens.mjs"], stdout=subprocess.PIPE,
                              text=True, input=json.dumps(texts), check=True)
        return json.loads(done.stdout)

    def test_modules_have_the_same_tokens(self):
        """And lines end between the same of them, by which a script can change too."""
        paths = [path for path in sorted(STATIC.glob("*.js")) if ".min." not in path.name]
        texts = [path.read_text("utf-8") for path in paths]
        bare = [bare_script(text) for text in texts]
        self.assertLess(sum(map(len, bare)), .95 * sum(map(len, texts)))
        for path, whole, left in zip(paths, self.tokens(texts), self.tokens(bare)):
            self.assertGreater(len(whole), 10, path.name)
            self.assertEqual(left, whole, path.name)

    def test_a_change_would_be_seen(self):
        texts = ["a = 1; // b\nc()", "a = 1;\nc()", "a = 1; c()", "a = '; // b'\nc()", "a = '; \\/ b'\nc()"]
        one, same, other_end, text, other = self.tokens(texts)
        self.assertEqual(one, same)
        self.assertNotEqual(one, other_end)
        self.assertNotEqual(text, other)


if __name__ == "__main__":
    unittest.main()
