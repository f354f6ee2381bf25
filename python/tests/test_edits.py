"""Rows that several people edit on the page, in a headless Chromium: nobody's change is lost, and texts stay as they are."""
import json
import unittest

from test_page import Paged

TEXT = "Quay\n  by the river\n\nsince 1950"
RECORDS = [
    {"Hotel": TEXT, "Price (EUR)": "49.90", "Distance": 1200, "Opened": "2001-05-01"},
    {"Hotel": "Alpine", "Price (EUR)": "99", "Distance": 540, "Opened": None},
]


class Editing(Paged):
    """What the tests do on the page."""

    records = RECORDS

    def edit(self, id):
        self.browser.click(f'tr[data-id="{id}"] button')

    def control(self, name):
        return f"document.querySelector({json.dumps(f'#fields [name={json.dumps(name)}]')})"

    def fill(self, name, value):
        self.browser.js(f"{self.control(name)}.value = {json.dumps(value)}; {self.control(name)}.dispatchEvent(new Event('input', {{bubbles: true}}))")

    def shown(self, name):
        return self.browser.js(f"{self.control(name)}.value")

    def said(self, name):
        """The lines below a field."""
        text = self.browser.js(f"{self.control(name)}.closest('.field').querySelector('.changed')?.innerText ?? ''")
        return list(filter(None, text.split("\n")))

    def choose(self, name, label):
        self.browser.js(f"[...{self.control(name)}.closest('.field').querySelectorAll('.choice')].find(choice => choice.innerText.startsWith({json.dumps(label)})).click()")

    def enter(self, name):
        """Presses the Enter key in a field; whether it begins another line there."""
        return self.browser.js(f"{self.control(name)}.dispatchEvent(new KeyboardEvent('keydown', {{key: 'Enter', bubbles: true, cancelable: true}}))")

    def save(self):
        self.browser.click("#save")

    def is_open(self):
        return self.browser.js("document.getElementById('editor').open")

    def until_closed(self):
        self.browser.until("!document.getElementById('editor').open")

    def until_asked(self):
        self.browser.until("!document.getElementById('wrong').hidden")
        self.assertIn("409", self.browser.faults.pop()["entry"]["text"])

    def change(self, id, **values):
        """What somebody else does meanwhile."""
        self.server.desk.update(id, {name.replace("_", " "): value for name, value in values.items()})

    def price(self, id, price):
        self.server.desk.update(id, {"Price (EUR)": price})

    def values(self, id):
        """The values of a row, as texts."""
        rows = self.server.desk.picture("best low(Distance)").rows
        return [str(value) for row in rows if row.id == id for value in self.server.desk.record(row.numbers).values()]


class Edits(Editing):
    def test_only_what_is_changed_is_sent(self):
        self.edit(1)
        self.price(1, "20")
        self.fill("Distance", "1100")
        self.save()
        self.until_closed()
        self.assertEqual(self.values(1), [TEXT, "20.00", "1100", "2001-05-01"])

    def test_nothing_is_sent_where_nothing_is_changed(self):
        self.edit(1)
        self.save()
        self.until_closed()
        self.assertEqual((self.browser.text("#done"), self.server.desk.version), ("Nothing was changed.", 1))

    def test_two_clicks_are_one_change(self):
        self.browser.click("#add")
        self.fill("Hotel", "New")
        self.browser.js("document.getElementById('save').click(); document.getElementById('values').requestSubmit(document.getElementById('save'))")
        self.until_closed()
        self.assertEqual((self.server.desk.version, len(self.server.desk)), (2, 3))

    def test_what_two_have_changed_is_asked_for(self):
        self.edit(1)
        self.server.desk.update(1, {"Price (EUR)": "20", "Distance": 900, "Opened": "2020-02-02"})
        self.fill("Price (EUR)", "45")
        self.fill("Distance", "800")
        self.save()
        self.until_asked()
        self.assertEqual(self.values(1), [TEXT, "20.00", "900", "2020-02-02"])
        self.assertEqual(self.said("Price (EUR)"), ["Somebody else has changed this. You saw: 49.90", "Keep theirs: 20.00", "Save mine"])
        self.assertEqual((self.shown("Price (EUR)"), self.shown("Opened"), self.said("Opened")), ("45", "2020-02-02", ["Somebody else has changed this."]))
        self.assertEqual(self.said("Hotel"), [])
        self.save()             # an answer is wanted
        self.assertTrue(self.is_open())
        self.choose("Price (EUR)", "Keep theirs")
        self.choose("Distance", "Save mine")
        self.assertEqual((self.shown("Price (EUR)"), self.shown("Distance")), ("20.00", "800"))
        self.save()
        self.until_closed()
        self.assertEqual(self.values(1), [TEXT, "20.00", "800", "2020-02-02"])

    def test_it_is_asked_for_again(self):
        self.edit(2)
        self.price(2, "20")
        self.fill("Price (EUR)", "45")
        self.save()
        self.until_asked()
        self.choose("Price (EUR)", "Save mine")
        self.price(2, None)
        self.save()
        self.browser.until(f"{self.control('Price (EUR)')}.closest('.field').innerText.includes('nothing')")
        self.until_asked()
        self.assertEqual(self.said("Price (EUR)"), ["Somebody else has changed this. You saw: 20.00", "Keep theirs: nothing", "Save mine"])
        self.fill("Price (EUR)", "46")          # which is mine, and is to be saved
        self.save()
        self.until_closed()
        self.assertEqual(self.values(2), ["Alpine", "46.00", "540", "None"])

    def test_both_have_changed_it_to_the_same(self):
        self.edit(1)
        self.price(1, "20")
        self.fill("Price (EUR)", "20.00")
        self.fill("Distance", "800")
        self.save()
        self.until_asked()
        self.assertEqual((self.said("Price (EUR)"), self.values(1)[2]), (["Somebody else has changed this."], "1200"))
        self.save()
        self.until_closed()
        self.assertEqual(self.values(1)[1:3], ["20.00", "800"])

    def test_a_value_is_taken_away(self):
        self.edit(1)
        self.fill("Price (EUR)", "")
        self.fill("Opened", "")
        self.save()
        self.until_closed()
        self.assertEqual(self.values(1), [TEXT, "None", "1200", "None"])

    def test_somebody_else_has_removed_the_row(self):
        self.edit(2)
        self.server.desk.delete(2)
        self.fill("Distance", "1")
        self.save()
        self.browser.until("!document.getElementById('wrong').hidden")
        self.assertIn("404", self.browser.faults.pop()["entry"]["text"])
        self.assertEqual(self.browser.text("#wrong"), "Somebody else has removed this row.")

    def test_texts_of_several_lines_stay_as_they_are(self):
        self.edit(1)
        self.assertEqual(self.shown("Hotel"), TEXT)
        self.fill("Distance", "1100")
        self.assertTrue(self.enter("Hotel"))
        self.save()
        self.until_closed()
        self.assertEqual(self.values(1), [TEXT, "49.90", "1100", "2001-05-01"])
        self.browser.until("document.getElementById('state').textContent === 'Live, version 2'")
        self.browser.click('tr[data-id="1"] button:nth-child(2)')
        self.browser.until("document.querySelectorAll('#done button').length")
        self.browser.click("#done button")
        self.browser.until("document.getElementById('done').textContent === 'Added again.'")
        self.assertEqual(self.values(3), [TEXT, "49.90", "1100", "2001-05-01"])

    def test_a_text_of_several_lines_is_changed(self):
        self.change(1, Hotel="one\r\ntwo\r\n")
        self.browser.until("document.getElementById('state').textContent === 'Live, version 2'")
        self.edit(1)
        self.fill("Hotel", self.shown("Hotel") + "three")
        self.save()
        self.until_closed()
        self.assertEqual(self.values(1)[0], "one\r\ntwo\r\nthree")

    def test_enter_saves_a_text_of_one_line(self):
        self.edit(2)
        self.fill("Hotel", "Alpine Inn")
        self.assertFalse(self.enter("Hotel"))
        self.until_closed()
        self.assertEqual(self.values(2)[0], "Alpine Inn")

    def test_each_of_two_clicks_is_no_change_of_its_own(self):
        """A row is removed once, and there is a way back, by which it is added once."""
        twice = "for (const button of [{0}, {0}]) button.click()"
        self.browser.js(twice.format("document.querySelector('[data-key=\"2 Remove\"]')"))
        self.browser.until("document.getElementById('state').textContent === 'Live, version 2'")
        self.browser.until("document.getElementById('done').textContent === 'Alpine is removed. Undo'")
        self.browser.js(twice.format("document.querySelector('#done button')"))
        self.browser.until("document.getElementById('done').textContent === 'Added again.'")
        self.browser.until("document.getElementById('state').textContent === 'Live, version 3'")
        self.assertEqual((len(self.server.desk), self.values(3)), (2, ["Alpine", "99.00", "540", "None"]))

    def test_a_row_that_cannot_be_added_again_keeps_its_way_back(self):
        self.browser.click('[data-key="2 Remove"]')
        self.browser.until("document.getElementById('done').textContent === 'Alpine is removed. Undo'")
        self.browser.js("window.before = window.fetch; window.fetch = () => Promise.reject(new TypeError('no network'))")
        self.browser.click("#done button")
        self.browser.until("document.getElementById('done').textContent === 'The server does not answer: look whether it was done before you do it again. Undo'")
        self.browser.js("window.fetch = window.before")
        self.browser.click("#done button")
        self.browser.until("document.getElementById('done').textContent === 'Added again.'")
        self.assertEqual(len(self.server.desk), 2)

    def test_a_row_that_somebody_else_has_changed_is_removed_where_that_is_wanted(self):
        self.browser.js("window.before = document.querySelector('tr[data-id=\"2\"] button:nth-child(2)')")
        self.price(2, "20")
        self.browser.until("document.getElementById('state').textContent === 'Live, version 2'")
        self.browser.js("before.click()")       # as of the picture before
        self.browser.until("document.querySelectorAll('#done button').length")
        self.assertIn("409", self.browser.faults.pop()["entry"]["text"])
        self.assertEqual(self.browser.text("#done"), "Somebody else has changed Alpine: Price (EUR) is 20.00 now. Remove it all the same")
        self.assertEqual(len(self.server.desk), 2)
        self.browser.click("#done button")
        self.browser.until("document.getElementById('done').textContent.startsWith('Alpine is removed.')")
        self.assertEqual(len(self.server.desk), 1)
        self.browser.click("#done button")
        self.browser.until("document.getElementById('done').textContent === 'Added again.'")
        self.assertEqual(self.values(3), ["Alpine", "20.00", "540", "None"])


class OwnForms(Editing):
    """Columns whose kinds write dates and truth values in a form of their own."""

    records = [{"Hotel": "Quay", "Price (EUR)": "49.90", "Distance": 1200, "Opened": "01.05.2001", "Pool": "Y"}]
    kinds = {"Price (EUR)": "decimal(2)", "Opened": 'date("%d.%m.%Y")', "Pool": "bool(Y, N)"}

    def test_are_shown_and_stay(self):
        self.edit(1)
        self.assertEqual((self.shown("Opened"), self.shown("Pool")), ("01.05.2001", "Y"))
        self.fill("Opened", "02.05.2001")
        self.fill("Pool", "N")
        self.browser.click("#save")
        self.until_closed()
        self.assertEqual(self.values(1)[3:], ["2001-05-02", "False"])


class NamesOfObjects(Editing):
    """Columns that are called as what each object of JavaScript has."""

    records = [{"Hotel": "Quay", "Price (EUR)": "49.90", "Distance": 1200, "constructor": "Smith", "__proto__": "first"}]

    def test_what_others_have_not_changed_stays(self):
        self.edit(1)
        self.server.desk.update(1, {"Price (EUR)": "20"})
        self.fill("Price (EUR)", "45")
        self.fill("constructor", "Jones")
        self.save()
        self.until_asked()
        self.assertEqual((self.shown("constructor"), self.shown("__proto__"), self.said("constructor"), self.said("__proto__")), ("Jones", "first", [], []))
        self.choose("Price (EUR)", "Save mine")
        self.save()
        self.until_closed()
        self.assertEqual(self.values(1), ["Quay", "45.00", "1200", "Jones", "first"])


if __name__ == "__main__":
    unittest.main()
