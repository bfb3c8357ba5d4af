"""Numbers that are typed into the page's fields."""
import unittest

from .firefox import FIREFOX, Firefox
from .page_case import CALLOUT, PageCase

_TYPE = """((one, text) => {
  one.value = text;
  one.dispatchEvent(new Event("input", { bubbles: true })); })(document.querySelector("%s"), "%s")"""
_SHOWN = """((one) => [one.getAttribute("aria-invalid"),
  document.getElementById(one.getAttribute("aria-describedby")).textContent])(document.querySelector("%s"))"""


class Fields(PageCase):
    def typed(self, field, text):
        """What the field shows after something was typed: whether it is marked, and the words beside it."""
        self.value(_TYPE % (field, text))
        return self.value(_SHOWN % field)

    def check(self, field, span, wrong, right):
        """Each number outside the range is marked with the range, and each inside is not."""
        self.assertEqual(self.value(_SHOWN % field)[1], span)
        for text in wrong:
            self.assertEqual(self.typed(field, text), ["true", f"Type a whole number, {span}."], text)
        for text in right:
            self.assertEqual(self.typed(field, text), ["false", span], text)

    def test_a_period_is_checked_as_it_is_typed(self):
        """With one of none of the range nothing is drawn, and the page says so. It never becomes another."""
        field = "#options [type=number]"
        self.open("empty")
        self.value("laboratory.chooseTool('source')")
        self.check(field, "1 to 65,535", ["-5", "2.5", "0", "65536", ""], ["1", "65535", "7"])
        for text in ("-5", "2.5", "0", ""):
            self.typed(field, text)
            self.draw("source", (10, 10), (12, 12))
            self.assertIn("The period of a source is a whole number, 1 to 65,535.", self.value(CALLOUT))
            self.value("laboratory.chooseTool('put'); laboratory.chooseTool('source')")
            self.assertEqual(self.value(f"document.querySelector('{field}').value"), "")
            self.draw("source", (10, 10), (12, 12))
        self.assertEqual(self.value("laboratory.lab.picture.journal"), 0)
        self.typed(field, "7")
        self.draw("source", (10, 10), (12, 12))
        self.assertEqual(self.value("laboratory.lab.link.send(['entry 0'])"), ["ENTRY 0 source 10 10 3 3 7"])

    def test_the_offset_of_a_script_is_checked_as_it_is_typed(self):
        """No file is asked for while one of the numbers is wrong."""
        self.open("7")
        self.value("document.getElementById('lessons-open').click()")
        self.value("window.asked = 0; HTMLInputElement.prototype.click = () => { window.asked += 1; }; 0")
        choose = "[...document.querySelectorAll('#popover .own button')].at(-1).click()"
        for name, span in (("Columns to the right", "−127 to 127"), ("Rows downwards", "−63 to 63")):
            field = f"[aria-label='{name}']"
            self.check(field, span, ["-200", "2.5", "128", ""], ["-2", "0", "62"])
            self.typed(field, "2.5")
            self.value(choose)
            self.assertEqual(self.value("window.asked"), 0)
            self.typed(field, "4")
        self.value(choose)
        self.assertEqual(self.value("window.asked"), 1)

    def test_the_fields_of_repeated_runs_are_checked_as_they_are_typed(self):
        """Nothing runs while one is wrong. A lesson's slider writes another number into it."""
        self.open("wind")
        self.value("document.getElementById('repeat').open = true")
        for name, span, wrong, right in (("gases", "5 to 50", ["4", "51", "7.5", ""], ["50", "5"]),
                                         ("times", "1 to 100", ["0", "101"], ["1"]),
                                         ("density", "0 to 100", ["-1", "101", ""], ["0", "100", "30"])):
            self.check(f"#repeat [name={name}]", span, wrong, right)
        field, begin = "#repeat [name=density]", "document.querySelector('#repeat form').requestSubmit()"
        self.typed(field, "250")
        self.value(begin)
        self.assertEqual(self.value("document.querySelector('#repeat progress').hidden"), True)
        self.value("laboratory.lab.change({ values: { ...laboratory.lab.values, density: 10 } })")
        self.assertEqual(self.value(_SHOWN % field), ["false", "0 to 100"])
        self.value(begin)
        self.browser.wait("document.querySelector('#repeat .told').textContent", "Done: 5 runs.")

    def test_the_cell_of_a_name_is_checked_as_it_is_typed(self):
        """Nothing is named while one of the numbers is wrong."""
        self.open("7")
        self.value("laboratory.chooseTool('select')")
        self.draw("select", (10, 10), (10, 10))
        self.value("[...document.querySelectorAll('#options button')].at(-2).click()")
        for name, span in (("Column", "0 to 127"), ("Row", "0 to 63")):
            field = f"[aria-label={name}]"
            self.check(field, span, ["-1", "2.5", "128", ""], ["0", "63", "10"])
            self.typed(field, "2.5")
            self.value("document.querySelector('#popover form').requestSubmit()")
            self.assertEqual(self.value("laboratory.lab.names.length"), 0)
            self.typed(field, "4")
        self.value("document.querySelector('#popover form').requestSubmit()")
        self.assertEqual(self.value("laboratory.lab.names.map(({ cell }) => cell)"), [[4, 4]])

    def test_the_steps_of_a_truth_table_are_checked_as_they_are_typed(self):
        self.open("3")
        self.value("document.getElementById('table-open').click()")
        self.check("[aria-label=Steps]", "1 to 4,096", ["0", "-3", "1.5", "4097", ""], ["1", "4096"])
        inputs = "[aria-label=Inputs]"
        needed = "Inputs are 1 to 5 cells: x y, x y. A name can be before each."
        for text in ("1", "64 1", "1 1, 2", ""):
            self.assertEqual(self.typed(inputs, text), ["true", needed])
        self.assertEqual(self.typed(inputs, "1 1, 2 2"), ["false", "x y, x y"])
        at, outputs = "[aria-label='From tick']", "[aria-label=Outputs]"
        for text in ("", "1.5"):
            self.assertEqual(self.typed(at, text), ["true", "Type a whole number."])
        self.assertEqual(self.typed(at, "-3"), ["false", ""])
        for text in ("1", "64 1", "sum 1 1 @"):
            shown, said = self.typed(outputs, text)
            self.assertEqual((shown, said[:17]), ("true", "Outputs are cells"))
        for text in ("", "1 1", "sum 1 1 @ 35"):
            self.assertEqual(self.typed(outputs, text), ["false", "x y @ tick"])
        self.typed("[aria-label=Steps]", "1.5")
        self.value("document.querySelector('#popover form').requestSubmit()")
        self.settle()
        self.assertEqual(self.value("document.querySelector('#popover .result').textContent"), "")


class FieldsInFirefox(Fields):
    program, make_browser = FIREFOX, Firefox


if __name__ == "__main__":
    unittest.main()
