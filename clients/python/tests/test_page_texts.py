"""All texts of the page are in one file: none is in its modules or in index.html, and each is used."""
import json
import re
import subprocess
import unittest
from unittest import mock

from gaslab.page import one_file

from .page_case import PageCase
from .test_lab import ROOT
from .test_page_engine import NODE

STATIC = one_file.STATIC
TEXTS = json.loads(one_file.read("texts_en.json"))
MODULES = {path.name: path.read_text("utf-8") for path in sorted(STATIC.glob("*.js"))
           if ".min." not in path.name}
# Sections that facts.js and others take as they are, by keys that are data.
WHOLE = {"language", "index", "plurals", "kinds", "saved", "gives", "truth", "refusals", "fingers", "fates",
         "cursor", "empty", "curves", "ledgerRows", "choices", "shares", "keys", "always", "tools", "gates"}
# What looks like a text in a module and is none: commands, words of the protocol, selectors, fonts.
TECHNICAL = re.compile(r"""
    ^[.*]?\$?\{?\}?\ ?(put|erase|wall|unwall|block|row|probe|read|step|back|watch|unwatch|open|goto|play
        |name|hello|seat|entry|pause|drawn|ERR|NO|SAVED|ENTRY|LEDGER|PROBE|TALLY|ROW|OK)\b
        [^a-z]*(name|all|came|left|save|RECT)?[^a-z]*$
    | ^NO\ [a-z]+$ | ^\*\ (hello|seat|entry|play|pause|open)\b
    | ^(\./gaslab|python3)\  | ^--[a-z]+$ | ^gaslab(-[a-z]+|\ patterns\ 1|\.html)?$
    | ^\(?[a-z-]+:\ [a-z]+\)$
    | ^[#.a-z\[][\w#.:\[\]()=,*>+\ -]*\b(button|chips|figcaption|select|textarea|summary)\b
    | ^600\ \S+px\ | ^(Uint|BigInt)\d+$ | ^(size\ or\ tick|kind\ or\ flags|walls\ and\ ports)$ | ^use\ strict$
    | ^(Accept|Arrow)\w+$""", re.X)


def is_text(string):
    """Whether a string of a module is for people: a word with a capital, or two words beside each other."""
    bare = re.sub(r"\$\{\}", "0", string)
    looks = re.search(r"(?<![\w.#/-])[A-Z][a-z]+(?![\w(=])|[A-Za-z]{2,}[,.:;]? +[A-Za-z]{2,}"
                      r"|[a-z]{2,}[.:] ", bare)
    return bool(looks) and not TECHNICAL.search(string)


def strings(modules):
    done = subprocess.run([NODE, ROOT / "clients/python/tests/literals.mjs"], stdout=subprocess.PIPE,
                          text=True, input=json.dumps(list(modules.items())), check=True)
    return json.loads(done.stdout)


@unittest.skipUnless(NODE, "there is no node")
class InModules(unittest.TestCase):
    def test_no_module_has_a_text_of_its_own(self):
        found = [(name, line, text) for name, line, text in strings(MODULES) if is_text(text)]
        self.assertEqual(found, [])

    def test_a_text_would_be_found(self):
        """Each text of the file that isn't a lone small word, if it stood in a module."""
        def leaves(value):
            if isinstance(value, str):
                yield value
            else:
                for one in value.values() if isinstance(value, dict) else value:
                    yield from leaves(one)
        texts = [re.sub(r"\{\w+\}", "${}", text) for key in TEXTS if key not in ("language", "index")
                 for text in leaves(TEXTS[key])]
        large = [text for text in texts if re.search(r"[A-Za-z]{3,} [A-Za-z]{3,}|^[A-Z][a-z]+", text)]
        missed = [text for text in large if not is_text(text)]
        self.assertGreater(len(large), 200)
        self.assertEqual(missed, [])


class InTheFile(unittest.TestCase):
    def used(self):
        """The texts that modules ask for: (section, key)."""
        for name, code in MODULES.items():
            section = re.search(r"^const (?:T|\{.*\}) = TEXTS\.(\w+);", code, re.M)
            for whole, key in re.findall(r"\bTEXTS\.(\w+)\.(\w+)", code):
                yield name, whole, key
            for key in re.findall(r"(?<![\w.])T\.(\w+)", code):
                yield name, section[1], key

    def test_each_text_that_is_asked_for_is_there(self):
        for name, section, key in self.used():
            self.assertTrue(section in WHOLE or key in TEXTS[section], (name, section, key))

    def test_each_text_is_asked_for(self):
        used = {(section, key) for _, section, key in self.used()}
        used |= {("session", "came"), ("session", "left"), ("naming", "letters"), ("naming", "results"),
                 ("naming", "input"), ("naming", "output")}
        self.assertEqual([(section, key) for section in TEXTS if section not in WHOLE
                          for key in TEXTS[section] if (section, key) not in used], [])

    def test_index_has_names_of_texts_alone(self):
        markup = re.sub(r"<!--.*?-->", "", one_file.read("index.html"), flags=re.S)
        shown = re.findall(r'(?:title|aria-label|placeholder|alt)="([^"]*)"', markup)
        shown += [text for text in re.findall(r">([^<]*)", re.sub(r'="[^"]*"', "", markup))]
        bare = [re.sub(r"\{\{\w+\}\}", "", text) for text in shown]
        self.assertEqual([text for text in bare if re.search("[A-Za-z]{3}", text)], [])
        self.assertEqual(set(re.findall(r"\{\{(\w+)\}\}", one_file.read("index.html"))), set(TEXTS["index"]))

    def test_styles_show_no_words(self):
        for name in ("page.css", "print.css"):
            shown = re.findall(r'content:[^;}]*?"([^"]*)"', one_file.read(name))
            self.assertEqual([text for text in shown if re.search("[A-Za-z]", text) and text != r"\A"], [])

    def test_their_values_are_given(self):
        """What a text has in braces, the code that shows it names."""
        everything = "\n".join(MODULES.values())
        for section in TEXTS:
            for name in set(re.findall(r"\{(\w+)\}", json.dumps(TEXTS[section]))):
                self.assertRegex(everything, rf"\b{name}\b[,: ]", (section, name))


def foreign(value):
    """A text in another script: wide letters, but for names in braces."""
    if isinstance(value, dict):
        return {key: foreign(one) for key, one in value.items()}
    if isinstance(value, list):
        return [foreign(one) for one in value]
    return "".join(part if part.startswith("{") else
                   re.sub("[A-Za-z]", lambda it: chr(ord(it[0]) + 0xFEE0), part)
                   for part in re.split(r"(\{\w+\})", value))


class Translated(PageCase):
    """A page with another file of texts, all in another script: what is in Latin letters is none of them."""
    # what isn't a text of the page: lessons, commands and replies, keys, px and py, what a person typed
    SEEN = """(() => {
        const ours = "#lesson p, #lesson h2, legend, .choice, .tries, #lesson-name, #task, .task, code, kbd,"
          + " .sliders span:not(.value),"
          + " #log .help, #log .sent, #log .ok, #log .err, #last .sent, #last .ok, #last .err, .shelves li,"
          + " script, style, i";
        const own = (it) => it.closest(ours);
        const walker = document.createTreeWalker(document.body, NodeFilter.SHOW_TEXT), found = [];
        for (let it = walker.nextNode(); it; it = walker.nextNode())
          if (!own(it.parentElement)) found.push(it.data);
        for (const it of document.querySelectorAll("[title], [aria-label], [placeholder]"))
          if (!own(it)) for (const name of ["title", "aria-label", "placeholder"])
            found.push(it.getAttribute(name)?.replace(/\\((Ctrl .|Space|Home)\\)/, "") ?? "");
        const lesson = document.getElementById("lesson-name").textContent;
        const bare = (text) => text.replaceAll(lesson, "")
          .replace(/“[^”]*”|\\b(put|erase|wall|row|block|RECT|px|py|HEX)\\b/g, "");
        return found.filter((text) => /[A-Za-z]{2,}/.test(bare(text))); })()"""

    @classmethod
    def setUpClass(cls):
        super().setUpClass()
        read = one_file.read
        texts = {**foreign(TEXTS), "language": "en-GB"}
        texts["index"]["lang"] = "en"
        with mock.patch.object(one_file, "read", lambda name:
                               json.dumps(texts) if name == "texts_en.json" else read(name)):
            cls.foreign = cls.written("foreign.html", one_file.one_file())

    def test_no_text_is_left(self):
        self.open("half_adder", self.foreign)
        self.assertEqual(self.value(self.SEEN), [])
        tools = self.value("[...document.querySelectorAll('[data-tool]')].map((it) => it.dataset.tool)")
        for tool in tools[1:]:
            self.value(f"laboratory.chooseTool('{tool}')")
            self.assertEqual(self.value(self.SEEN), [], tool)
        self.draw("select", (10, 10), (12, 12))
        self.assertEqual(self.value(self.SEEN), [])

    def test_nor_in_a_dialog(self):
        self.open("3", self.foreign)
        for name in ("truth", "lessons-open", "share-open", "help-open", "table-open", "script"):
            self.value(f"document.getElementById('{name}').click()")
            self.settle()
            self.assertEqual(self.value(self.SEEN), [], name)
            self.value("document.getElementById('popover').close()")
        self.value("laboratory.chooseTool('select')")
        for k in (-2, -1):
            self.value(f"[...document.querySelectorAll('#options button')].at({k}).click()")
            self.assertEqual(self.value(self.SEEN), [], k)
            self.value("document.getElementById('popover').close()")

    def test_nor_in_what_is_measured(self):
        """Profiles, histograms, repeated runs, and why there are none; arrows, and a lesson's sliders."""
        self.open("4", self.foreign)
        self.value("laboratory.send(['.watch 20 20 8 8'])")
        self.value("document.getElementById('probe-fields').open = true")
        self.value("document.getElementById('repeat').open = true")
        self.value("laboratory.lab.change({ arrows: 8 })")
        self.browser.wait("document.querySelector('#probe-fields .number').textContent !== ''", True)
        for name, value in (("density", 80), ("right", 50)):
            self.value(f"document.querySelector('#repeat [name={name}]').value = {value}")
        self.value("document.querySelector('#repeat form').requestSubmit()")
        self.assertEqual(self.value(self.SEEN), [])
        for name, value in (("density", 20), ("gases", 5), ("steps", 1), ("times", 2)):
            self.value(f"document.querySelector('#repeat [name={name}]').value = {value}")
        self.value("document.querySelector('#repeat form').requestSubmit()")
        self.browser.wait("/5/.test(document.querySelector('#repeat .told').textContent)", True)
        self.value("""(() => { const select = document.querySelector("#repeat select");
            select.value = "probe_1_px"; select.dispatchEvent(new Event("change")); })()""")
        self.assertEqual(self.value(self.SEEN), [])

    def test_nor_in_what_is_said(self):
        """Refusals, undo, a particle that is followed, a gas with ports, and the plots."""
        self.open("4", self.foreign)
        self.browser.wait("document.querySelector('.plot.empty') === null", True)
        for line in ("jump", "wall 1", "back 1", "put 0 0 99 99", "row 1 0"):
            self.value(f"laboratory.send(['{line}'])")
            self.assertEqual(self.value(self.SEEN), [], line)
        self.value("document.getElementById('back').click()")
        self.assertEqual(self.value(self.SEEN), [])
        self.open("empty", self.foreign)
        for act in ("document.querySelector('#tools .parted:last-child').click()",
                    "laboratory.plots.choose(['drag', 'flux', 'count', 'probe', 'entropy'])"):
            self.value(act)
            self.assertEqual(self.value(self.SEEN), [], act)
        for tool, cell in (("follow", (3, 3)), ("probe", (4, 4)), ("shoot", (5, 5))):
            self.draw(tool, cell, cell)
            self.assertEqual(self.value(self.SEEN), [], tool)


if __name__ == "__main__":
    unittest.main()
