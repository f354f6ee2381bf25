"""What a designer looks at on the page: contrast, sizes, names, paper, wide tables, and what is said of a change. `audit.js` has the checks of each part."""
import base64
import json
import re
import time
import unittest
from contextlib import contextmanager
from pathlib import Path
from unittest import mock

import prefq
from prefq.desk import Desk
from support import TestCase
from test_page import QUESTION, Paged
from test_serve import KINDS, ask, served

AUDIT = Path(__file__).with_name("audit.js").read_text()
SIZES = [(1280, 900), (390, 844), (320, 700)]
PEOPLE = [{"Hotel": name, "Price (EUR)": price, "Distance": distance, "Opened": None, "Guests": guests}
          for name, price, distance, guests in [("Quay", "40", 1200, 1998), ("Alpine", "99", 540, 53940), ("Garden", "170", 170, -1234567), ("Full", "99", 900, 7)]]


class Designed(Paged):
    """What the tests of this file do on the page."""

    def audit(self):
        """What the checks find, by their names."""
        return self.browser.js(AUDIT)

    @contextmanager
    def seen(self, width, height, dark=False, media="screen"):
        """The page at a size, in the dark or not, on a screen or on paper."""
        self.emulate(media, dark)
        self.browser.size(width, height)
        self.browser.until(f"document.documentElement.clientWidth === {width}")
        try:
            yield
        finally:
            self.emulate("screen", False)
            self.browser.size(1200, 860)

    def emulate(self, media, dark):
        self.browser.call("Emulation.setEmulatedMedia", media=media, features=[{"name": "prefers-color-scheme", "value": "dark" if dark else "light"}])

    def style(self, selector, name, pseudo=None):
        return self.browser.js(f"getComputedStyle(document.querySelector({json.dumps(selector)}), {json.dumps(pseudo)}).{name}")

    def refuse(self):
        self.ask("best low(Distanze)")
        self.browser.until("!document.getElementById('refusal').hidden")

    def group(self):
        self.ask("best low(Distance) by Hotel")
        self.browser.until("document.querySelectorAll('#legend li').length > 8")

    def explain(self, id):
        self.browser.fill("#row", str(id))
        self.browser.click("#which button")
        self.browser.until("document.getElementById('reasons').open")

    def build(self):
        self.browser.js("document.getElementById('builder').open = true")
        self.wish("Hotel", "pos")

    def wish(self, name, word, value=None):
        """Picks a wish for a column in the builder, and what it is near to or one of."""
        self.enter(f"[aria-label={json.dumps(f'Wish for {name}')}]", word)
        if value is not None:
            self.enter(f"[aria-label^={json.dumps(f'Value for {name},')}]", value)

    def enter(self, selector, value):
        """Writes a value into a field, as a person does."""
        self.browser.fill(selector, value)
        self.browser.js(f"document.querySelector({json.dumps(selector)}).dispatchEvent(new Event('input', {{bubbles: true}}))")

    def until(self, holds):
        """Waits until this holds, as where points are on their way."""
        end = time.monotonic() + 60
        while not holds():
            self.assertLess(time.monotonic(), end)
            time.sleep(0.05)

    def until_version(self, version):
        self.browser.until(f"document.getElementById('state').textContent === 'Live, version {version}'")


class Checks(Designed):
    """Contrast of 4.5 and 3, targets of 24 px, the focus seen, names, headings, landmarks, and no sideways scroll."""

    def states(self):
        """Each state of the page that has parts of its own, and what leads there."""
        return {"page": lambda: None, "groups": self.group, "editor": lambda: self.browser.click("#rows .actions button"), "refused": self.refuse, "why": lambda: self.explain(4),
                "builder": self.build}

    def test_each_part_at_each_size_in_light_and_in_the_dark(self):
        for width, height in SIZES:
            for dark in (False, True):
                for state, lead in self.states().items():
                    with self.subTest(width=width, dark=dark, state=state), self.seen(width, height, dark):
                        self.open()
                        lead()
                        self.assertEqual(self.audit(), {})

    def test_the_guide(self):
        self.assertEqual(self.browser.js("document.querySelector('header a').textContent"), "Guide")
        self.browser.open(f"{self.server.url}guide.html")
        self.browser.until("document.readyState === 'complete' && document.title === 'Guide to questions'")
        for width, height in SIZES:
            for dark in (False, True):
                with self.seen(width, height, dark):
                    self.assertEqual(self.audit(), {}, (width, dark))
        self.browser.click("header a")
        self.browser.until("document.querySelectorAll('#rows tbody tr').length === 5")

    def test_the_checks_see_what_is_wrong(self):
        harm = {"texts": "document.getElementById('summary').style.color = '#999'", "graphics": "document.documentElement.style.setProperty('--other', '#a6afb8')",
                "targets": "document.querySelector('#rows td button').style.cssText = 'min-height: 0; min-width: 0; padding: 0; font-size: 9px'",
                "focus": "document.getElementById('add').style.outline = 'none'", "names": "document.querySelector('label[for=question]').remove()",
                "references": "document.getElementById('summary').id = 'other'", "outline": "document.getElementById('best').outerHTML = '<h4 id=best>Best</h4>'",
                "sideways": "document.body.append(Object.assign(document.createElement('div'), {className: 'wide'})); document.querySelector('.wide').style.width = '3000px';"
                            "document.querySelector('.wide').style.height = '1px'", "cells": "document.querySelector('#rows th').removeAttribute('scope')"}
        for check, code in harm.items():
            with self.subTest(check=check):
                self.open()
                self.browser.js(code)
                self.assertEqual(list(self.audit()), [check])


class Paper(Designed):
    def test_all_rows_are_printed_and_nothing_that_is_clicked(self):
        self.ask("top_level 9 low(Distance)")
        self.browser.until("document.querySelectorAll('#rows tbody tr').length === 8")
        with self.seen(720, 1000, dark=True, media="print"):
            self.assertEqual(self.browser.js("[...document.querySelectorAll('button:not(.sort), select, input, a')].filter(part => part.checkVisibility()).map(part => part.outerHTML)"), [])
            self.assertEqual((self.style("body", "backgroundColor"), self.style("section .scroll", "overflow"), self.style("section .scroll", "maxHeight"), self.style("thead", "display")),
                             ("rgb(255, 255, 255)", "visible", "none", "table-header-group"))
            self.assertEqual(self.browser.js("[document.documentElement.scrollWidth, document.querySelector('section .scroll').scrollWidth <= document.querySelector('section .scroll').clientWidth]"), [720, True])
            self.assertEqual(self.browser.js("document.querySelector('section .scroll').scrollHeight - document.querySelector('section .scroll').clientHeight"), 0)
            self.assertIn("low(Distance)", self.browser.js("document.getElementById('question').checkVisibility() && document.getElementById('question').value"))

    def test_a_long_answer_takes_several_sheets(self):
        records = [{"Hotel": f"Hotel {number}", "Price (EUR)": number, "Distance": 300 - number, "Opened": None} for number in range(200)]
        with served(records) as server:
            self.browser.open(server.url)
            self.browser.until("document.querySelectorAll('#rows tbody tr').length === 200")
            printed = self.browser.call("Page.printToPDF")["data"]
            self.assertGreater(sheets(printed), 3)
            self.browser.open("about:blank")        # before its server ends


def sheets(printed):
    """How many pages a PDF has, which comes in base64."""
    return len(re.findall(rb"/Type\s*/Page\b", base64.b64decode(printed)))


class Numbers(Designed):
    records = PEOPLE
    kinds = {"Hotel": "text", "Price (EUR)": "decimal(2)", "Distance": "whole", "Opened": "date", "Guests": "whole"}

    def test_thousands_stand_apart_and_the_text_stays_the_value(self):
        self.ask("top_level 9 high(Guests)")
        self.browser.until("document.querySelectorAll('#rows th')[2].textContent === 'Guests'")
        cells = self.browser.js("[...document.querySelectorAll('#rows tbody tr')].map(row => row.children[2]).map(cell => [cell.textContent,"
                                " [...cell.childNodes].map(part => part.className === 'thousands' ? part.textContent + getComputedStyle(part, '::after').content : part.textContent).join('')])")
        self.assertEqual(cells, [["53940", '53","940'], ["1998", '1","998'], ["7", "7"], ["-1234567", '-1","234","567']])
        self.assertEqual(self.style("#rows td:nth-child(3)", "textAlign"), "right")
        # Numbers that are all short, as years are, stay as they are.
        self.assertEqual(self.browser.js("document.querySelectorAll('#rows td:nth-child(5) .thousands').length"), 0)

    def test_counts_are_in_thousands(self):
        records = [{"Hotel": "x", "Price (EUR)": number, "Distance": number} for number in range(1200)]
        with served(records) as server:
            self.browser.open(f"{server.url}?question=best+low(Distance)")
            self.browser.until("document.getElementById('summary')?.textContent === '1 of 1,200 rows are in the answer.'")
            self.browser.open("about:blank")        # before its server ends


WIDE = [{"Name": name, **{f"Measure {number}": str(value * number) for number in range(1, 14)}, "Large": large}
        for name, value, large in [("Quay", 3, 2**53 + 1), ("Alpine", 5, 2**53), ("Garden", 1, None), ("Station with a name that is rather long", 4, -2**60)]]


class Tables(Designed):
    """Wide tables, their order, a filter, the file, and the address."""

    records = WIDE
    kinds = {"Name": "text", **{f"Measure {number}": "whole" for number in range(1, 14)}, "Large": "whole"}

    def open(self, question='top_level 9 low("Measure 1")'):
        super().open(question)

    def names(self):
        return [name.split()[0] for name in self.rows()]

    def sort(self, name):
        self.browser.js(f"[...document.querySelectorAll('#rows .sort')].find(button => button.textContent === {json.dumps(name)}).click()")

    def places(self):
        """How far the name and the buttons of the last row are from both ends of the table's box."""
        return self.browser.js("""(() => {
            const box = document.querySelector("section .scroll"), at = box.getBoundingClientRect(), row = document.querySelector("#rows tbody tr:last-child");
            return [row.querySelector(".name").getBoundingClientRect().left - at.left - box.clientLeft, at.right - box.clientLeft - row.querySelector(".actions").getBoundingClientRect().right].map(Math.round);
        })()""")

    def test_the_name_and_the_buttons_stay_at_hand(self):
        for width, height in SIZES:
            with self.seen(width, height):
                self.assertTrue(self.browser.js("document.querySelector('section .scroll').scrollWidth > document.querySelector('section .scroll').clientWidth + 100"))
                self.assertEqual(self.places()[1], 0, width)
                self.browser.js("document.querySelector('section .scroll').scrollLeft = 1e6")
                self.assertEqual(self.places(), [0, 0], width)
                self.assertEqual(self.audit(), {})
                self.browser.js("document.querySelector('section .scroll').scrollLeft = 0")

    def test_ids_are_shown(self):
        self.assertEqual(self.browser.js("[...document.querySelectorAll('#rows tbody tr')].map(row => row.querySelector('.id').textContent)"), ["3", "1", "4", "2"])

    def test_a_head_sorts_up_down_and_as_answered(self):
        page = self.browser
        self.assertEqual(self.names(), ["Garden", "Quay", "Station", "Alpine"])
        for name, way, names in [("Large", "ascending", ["Station", "Alpine", "Quay", "Garden"]), ("Large", "descending", ["Quay", "Alpine", "Station", "Garden"]),
                                 ("Large", "none", ["Garden", "Quay", "Station", "Alpine"]), ("Name", "ascending", ["Alpine", "Garden", "Quay", "Station"]),
                                 ("Id", "ascending", ["Quay", "Alpine", "Garden", "Station"]), ("Level", "ascending", ["Garden", "Quay", "Station", "Alpine"])]:
            self.sort(name)
            self.assertEqual((self.names(), page.js(f"[...document.querySelectorAll('#rows th[scope=col]')].find(head => head.textContent === {json.dumps(name)}).ariaSort")), (names, way))
            self.assertLessEqual(page.js("[...document.querySelectorAll('#rows [aria-sort]')].filter(head => head.ariaSort !== 'none').length"), 1)

    def test_the_order_and_the_focus_stay_where_rows_change(self):
        self.sort("Name")
        self.browser.js("document.querySelector('#rows .name .sort').focus()")
        self.server.desk.insert({"Name": "Beach", "Measure 1": 1})
        self.until_version(2)
        self.assertEqual(self.names(), ["Alpine", "Beach", "Garden", "Quay", "Station"])
        self.assertEqual(self.browser.js("document.activeElement.textContent"), "Name")

    def test_a_filter(self):
        for text, names in [("A", ["Garden", "Quay", "Station", "Alpine"]), ("LONG", ["Station"]), ("3", ["Garden", "Quay", "Station", "Alpine"]), ("zz", []), ("", ["Garden", "Quay", "Station", "Alpine"])]:
            self.browser.fill("#filter", text)
            self.browser.js("document.getElementById('filter').dispatchEvent(new Event('input'))")
            self.assertEqual(self.names(), names, text)
            self.assertEqual(self.browser.text("#matches"), f"{len(names)} of 4 rows that are shown have “{text}”." if text else "")

    def test_the_file_of_the_answer(self):
        self.ask('best high(Large) * low("Measure 2")')
        self.browser.until("document.querySelectorAll('#rows tbody tr').length === 2")
        received = self.browser.js("fetch(document.getElementById('download').href).then(reply => reply.text())")
        with prefq.Frame.from_records(self.records, kinds=self.kinds) as frame:
            self.assertEqual(received, frame.best('best high(Large) * low("Measure 2")').to_csv())
        self.assertEqual(self.browser.js("document.getElementById('download').download"), "answer.csv")

    def test_back_goes_back(self):
        page = self.browser
        self.ask("best high(Large)")
        page.until("document.querySelectorAll('#rows tbody tr').length === 1")
        page.js("document.getElementById('x').value = 'Measure 3'; document.getElementById('x').dispatchEvent(new Event('change'))")
        page.until("document.querySelector('#plot text.name').textContent === 'Measure 3'")
        self.refuse()
        self.assertIn("Distanze", page.js("location.search"))
        for back, question, axis, count in [("history.back()", "best high(Large)", "Measure 3", 1), ("history.back()", "best high(Large)", "Large", 1),
                                            ("history.back()", 'top_level 9 low("Measure 1")', "Measure 1", 4), ("history.forward()", "best high(Large)", "Large", 1)]:
            page.js(f"{back}; 0")
            page.until(f"document.getElementById('question').value === {json.dumps(question)} && document.querySelectorAll('#rows tbody tr').length === {count}"
                       f" && document.querySelector('#plot text.name').textContent === {json.dumps(axis)} && document.getElementById('refusal').hidden")


class Reasons(Designed):
    """Why a row is where it is: of the answer, by its button; of the others, by their points and their ids."""

    def reasons(self):
        self.browser.until("document.getElementById('reasons').open")
        found = self.browser.js("[...document.querySelectorAll('#better tbody tr')].map(row => [...row.children].map(cell => cell.textContent))")
        self.browser.click("#reasons button")
        return self.browser.text("#reason") or self.browser.js("document.getElementById('reason').textContent"), found

    def test_of_a_row_behind_the_first_level(self):
        self.browser.js("document.querySelector('tr[data-id=\"4\"] button:last-child').click()")
        self.assertEqual(self.reasons(), ("In version 1, 1 row is better.", [["this row", "Old Town", "74.00", "1210", "4"], ["1", "Quay", "40.00", "1200", "1"]]))
        self.assertEqual(self.browser.js("[...document.querySelectorAll('tr[data-id=\"1\"] button')].map(button => button.textContent)"), ["Edit", "Remove"])

    def test_of_a_grey_point(self):
        place = self.browser.js("""(() => {
            const box = document.querySelector('#plot .other[data-id="7"]').getBoundingClientRect();
            return [box.left + box.width / 2 + 4, box.top + box.height / 2 - 4];
        })()""")
        for kind in ("mousePressed", "mouseReleased"):
            self.browser.call("Input.dispatchMouseEvent", type=kind, x=place[0], y=place[1], button="left", clickCount=1)
        said, found = self.reasons()
        self.assertEqual((said, found[0][1], [row[1] for row in found[1:]]), ("In version 1, 6 rows are better.", "Station & Co",
                                                                             ["Quay", "Alpine", "Garden", "Old Town", "River", "<img src=x onerror=alert(1)>"]))

    def test_by_an_id_without_a_mouse(self):
        self.explain(1)
        self.assertEqual(self.reasons(), ("In version 1, no row is better: it is in the first level.", [["this row", "Quay", "40.00", "1200", "1"]]))
        self.explain(77)
        self.assertEqual(self.reasons(), ("no such row 77", []))
        self.assertIn("404", self.browser.faults.pop()["entry"]["text"])


class Groups(Designed):
    records = [{"Hotel": f"{city} {price}", "Price (EUR)": price, "Distance": distance, "City": city}
               for city, price, distance in [("Lyon", 50, 9), ("Lyon", 60, 5), ("Lyon", 90, 9), ("Bern", 90, 2), ("Bern", 100, 1), ("Bern", 95, 8), ("Aarau", 10, 30), ("Aarau", 20, 20)]]
    kinds = {"Hotel": "text", "Price (EUR)": "decimal(2)", "Distance": "whole", "City": "text"}

    def open(self, question='best low("Price (EUR)") * low(Distance) by City'):
        super().open(question)

    def test_each_group_has_a_colour_and_a_staircase(self):
        stairs = self.browser.js("[...document.querySelectorAll('#plot .stairs')].map(path => [getComputedStyle(path).stroke, path.getAttribute('d').match(/[ML]/g)?.length ?? 0])")
        self.assertEqual(sorted(count for _, count in stairs), [3, 3, 3])
        fills = self.browser.js("Object.fromEntries([...document.querySelectorAll('#plot .first')].map(point => [point.textContent.split(/[ \\n]/)[1], getComputedStyle(point).fill]))")
        self.assertEqual((sorted(fills), len(set(fills.values())), sorted(fills.values())), (["Aarau", "Bern", "Lyon"], 3, sorted(colour for colour, _ in stairs)))
        self.assertEqual(self.browser.js("[...document.querySelectorAll('#legend li')].slice(2).map(entry => entry.textContent.trim())"), ["Aarau", "Bern", "Lyon"])
        self.assertEqual(self.browser.count("#plot .other"), 2)

    def test_without_groups_the_levels_have_the_colours(self):
        self.ask('top_level 2 low("Price (EUR)") * low(Distance)')
        self.browser.until("document.querySelectorAll('#plot .second').length > 0 && document.querySelectorAll('#plot .stairs').length === 1")
        self.assertEqual(self.browser.js("[...document.querySelectorAll('#plot [class*=group]')].length"), 0)


class Outliers(Designed):
    records = [*({"Hotel": f"h{number}", "Price (EUR)": 10 + number % 7 * 3, "Distance": 5 + number % 11, "Opened": None} for number in range(60)),
               {"Hotel": "far", "Price (EUR)": 100_000, "Distance": 1_000_000, "Opened": None}, {"Hotel": "free", "Price (EUR)": 0, "Distance": 900, "Opened": None}]

    def view(self, name):
        self.browser.js(f"document.getElementById('view').value = {json.dumps(name)}; document.getElementById('view').dispatchEvent(new Event('change'))")

    def across(self):
        """How much of the plot's width the rows of ordinary prices take."""
        return self.browser.js("""(() => {
            const places = [...document.querySelectorAll("#plot .point")].filter(point => /^(Hotel: )?h/.test(point.textContent)).map(point => new DOMMatrix(getComputedStyle(point).transform).e);
            return (Math.max(...places) - Math.min(...places)) / document.getElementById("plot").clientWidth;
        })()""")

    def test_the_answer_alone_or_a_logarithm_makes_room(self):
        self.browser.js("document.getElementById('plot').classList.add('still')")
        self.assertLess(self.across(), 0.01)
        self.assertEqual(self.browser.count("#plot .point"), 62)
        self.view("answer")
        self.browser.until("document.getElementById('legend').textContent.includes('43 outside of the view')")
        self.assertEqual((self.browser.count("#plot .point"), self.browser.count('#plot .point[data-id="61"]')), (19, 0))
        self.view("logarithmic")
        self.assertEqual(self.browser.count("#plot .point"), 62)
        self.assertIn("Price (EUR) has values that have no logarithm", self.browser.text("#legend"))
        self.server.desk.update(62, {"Price (EUR)": "0.5"})
        self.until_version(2)
        self.browser.until("!document.getElementById('legend').textContent.includes('logarithm')")
        self.until(lambda: self.across() > 0.05)
        ticks = self.browser.js("[...document.querySelectorAll('#plot text')].map(text => text.textContent)")
        self.assertTrue({"0.1", "10", "1K", "100K", "1M"} <= set(ticks), ticks)


class Built(Designed):
    """A question that is built of columns."""

    def question(self):
        return self.browser.js("document.getElementById('question').value")

    def test_the_columns_and_their_kinds(self):
        self.assertEqual(self.browser.js("[...document.querySelectorAll('#wishes th')].map(cell => [...cell.childNodes].map(part => part.textContent))"),
                         [["Hotel", "text"], ["Price (EUR)", "decimal(2)"], ["Distance", "whole"], ["Opened", "date"]])
        self.assertEqual(self.browser.js("[...document.querySelectorAll('#wishes select')].map(field => [...field.options].map(option => option.value).join(' ').trim())"),
                         ["pos", *["low high around pos"] * 3])

    def test_the_question_writes_itself(self):
        self.build()
        self.assertEqual(self.question(), QUESTION)         # there is no value yet
        self.wish("Hotel", "")
        for act, written in [(lambda: self.wish("Price (EUR)", "low"), 'best low("Price (EUR)")'),
                             (lambda: self.wish("Hotel", "pos", "Quay\nO'Hara, Inn\n"), "best low(\"Price (EUR)\") * pos(Hotel, 'Quay', 'O''Hara, Inn')"),
                             (lambda: self.wish("Opened", "around", "2001-05-01"), "best low(\"Price (EUR)\") * pos(Hotel, 'Quay', 'O''Hara, Inn') * around(Opened, '2001-05-01')"),
                             (lambda: self.wish("Hotel", ""), "best low(\"Price (EUR)\") * around(Opened, '2001-05-01')"),
                             (lambda: self.wish("Price (EUR)", "around", "59.9"), "best around(\"Price (EUR)\", 59.9) * around(Opened, '2001-05-01')"),
                             (lambda: self.enter("#sign", " & "), "best around(\"Price (EUR)\", 59.9) & around(Opened, '2001-05-01')"),
                             (lambda: self.enter("#mode", "top_level"), "top_level 2 around(\"Price (EUR)\", 59.9) & around(Opened, '2001-05-01')"),
                             (lambda: self.enter("#number", "3"), "top_level 3 around(\"Price (EUR)\", 59.9) & around(Opened, '2001-05-01')"),
                             (lambda: self.browser.click("[aria-label='Groups by Hotel']"), "top_level 3 around(\"Price (EUR)\", 59.9) & around(Opened, '2001-05-01') by Hotel")]:
            act()
            self.assertEqual(self.question(), written)
        self.assertEqual(self.rows(), ["Quay", "Alpine", "Garden", "Old Town", "River"])     # nothing is asked before that is wanted
        self.browser.click("#ask button")
        self.browser.until("document.querySelectorAll('#rows tbody tr').length === 8")

    def test_what_is_no_value_is_refused_at_its_place(self):
        self.build()
        self.wish("Distance", "around", "far")
        self.browser.click("#ask button")
        self.browser.until("!document.getElementById('refusal').hidden")
        self.assertEqual(self.browser.js("document.querySelector('#refusal mark').textContent"), "f")


class Beside(Designed):
    """What is asked beside the question: a condition, and exactly so many rows."""

    def ask_beside(self, **beside):
        for name in ("where", "top"):
            self.browser.fill(f"#{name}", beside.get(name, ""))
        self.browser.click("#ask button")

    def test_a_condition_and_how_many(self):
        page = self.browser
        self.ask_beside(where="Distance > 500", top="2")
        page.until("document.getElementById('summary').textContent === '2 of 8 rows are in the answer. Only rows where Distance > 500 count. 2 rows are wanted.'")
        self.assertEqual(self.rows(), ["Quay", "Alpine"])
        self.assertEqual(page.js("[...new URLSearchParams(location.search)]"), [["question", QUESTION], ["where", "Distance > 500"], ["top", "2"]])
        received = page.js("fetch(document.getElementById('download').href).then(reply => reply.text())")
        with prefq.Frame.from_records(self.records, kinds=KINDS) as frame:
            self.assertEqual(received, frame.best(QUESTION, where="Distance > 500", top=2).to_csv())
        page.js("history.back(); 0")
        page.until("document.querySelectorAll('#rows tbody tr').length === 5")
        self.assertEqual(page.js("[document.getElementById('where').value, document.getElementById('top').value]"), ["", ""])

    def test_each_is_refused_at_its_field(self):
        page = self.browser
        for beside, field, said, marked in [({"where": "Distance > 5 and Distanze > 1"}, "where", "no column 'Distanze'", "D"), ({"top": "many"}, "top", "top is 'many'", None), ({}, "question", "no column 'Distanze'", "D")]:
            page.fill("#question", QUESTION if beside else "best low(Distanze)")
            self.ask_beside(**beside)
            page.until(f"document.querySelector('#ask [aria-invalid=true]')?.id === {json.dumps(field)}")
            self.assertIn(said, page.text("#refusal"))
            self.assertEqual(page.js("document.querySelector('#refusal mark')?.textContent"), marked)
            self.assertEqual(page.count("#ask [aria-invalid]"), 1)
            self.assertEqual(self.audit(), {})
        page.fill("#question", QUESTION)
        self.ask_beside()
        page.until("document.getElementById('refusal').hidden")
        self.assertEqual(page.count("#ask [aria-invalid]"), 0)


    def test_what_has_no_text_of_its_own_is_said_of_the_question(self):
        with mock.patch.object(Desk, "picture", side_effect=prefq.Refused("no query more", "client", 3)):
            self.ask("best low(Distance)")
            self.browser.until("!document.getElementById('refusal').hidden")
        self.assertEqual(self.browser.js("[...document.querySelectorAll('#ask [aria-invalid]')].map(part => part.id)"), ["question"])
        self.assertIn("no query more", self.browser.text("#refusal"))


class Messages(Designed):
    def setUp(self):
        super().setUp()
        self.browser.until("document.getElementById('spoken').textContent")        # of the first picture
        self.browser.js("window.messages = []; new MutationObserver(() => messages.push(document.getElementById('spoken').textContent))"
                        ".observe(document.getElementById('spoken'), {childList: true, characterData: true, subtree: true})")

    def test_one_polite_message_for_a_change(self):
        self.assertEqual(self.browser.js("[...document.querySelectorAll('[aria-live], [role=status], [role=log]')].map(part => part.id)"), ["spoken"])
        for version, change in enumerate([{"Price (EUR)": "41"}, {"Price (EUR)": "42"}, {"Price (EUR)": "500", "Distance": 9000}], 2):
            self.server.desk.update(1, change)
            self.until_version(version)
        self.browser.until("messages.length")
        said = self.browser.js("messages")
        self.assertEqual(len(said), 1)
        self.assertIn("No longer in the answer: Quay.", said[0])

    def test_what_is_refused_is_said_and_marked_at_its_field(self):
        page = self.browser
        page.click("#rows .actions button")
        page.fill('#fields [name="Distance"]', "far")
        page.click("#save")
        page.until("!document.getElementById('wrong').hidden")
        page.faults.clear()
        self.assertEqual(page.js("[...document.querySelectorAll('#fields [aria-invalid=true]')].map(part => [part.name, part.getAttribute('aria-describedby'), part === document.activeElement])"),
                         [["Distance", "wrong", True]])
        page.fill('#fields [name="Distance"]', "77")
        page.click("#save")
        self.until_version(2)
        self.assertEqual(page.count("#fields [aria-invalid]"), 0)


class Refusals(TestCase):
    def test_a_refused_value_has_its_column(self):
        with served() as running:
            for value, column in [({"Distance": "far"}, "Distance"), ({"Price (EUR)": "9.999"}, "Price (EUR)"), ({"Distanze": 1}, None)]:
                self.assertEqual(ask(running, "PUT", "/rows/1", value)[1]["column"], column)


if __name__ == "__main__":
    unittest.main()
