"""The page in a headless Chromium: what it must contain, numbers of points and texts. With SCREENSHOTS=FOLDER each test writes a picture for the eye."""
import contextlib
import json
import os
import socket
import unittest
from pathlib import Path
from urllib.parse import urlencode

import test_asgi
from browser import Browser, chromium
from support import TestCase
from test_serve import ask, served

QUESTION = 'top_level 2 low("Price (EUR)") * low(Distance)'
RECORDS = [
    {"Hotel": "Quay", "Price (EUR)": "40", "Distance": 1200, "Opened": "2001-05-01"},
    {"Hotel": "Alpine", "Price (EUR)": "99", "Distance": 540, "Opened": None},
    {"Hotel": "Garden", "Price (EUR)": "170", "Distance": 170, "Opened": "1999-01-31"},
    {"Hotel": "Old Town", "Price (EUR)": "74", "Distance": 1210, "Opened": "2020-12-24"},
    {"Hotel": "River", "Price (EUR)": "207", "Distance": 490, "Opened": "2010-02-03"},
    {"Hotel": "<img src=x onerror=alert(1)>", "Price (EUR)": "150", "Distance": 3000, "Opened": "2011-02-03"},
    {"Hotel": "Station & Co", "Price (EUR)": "210", "Distance": 5000, "Opened": "2012-02-03"},
    {"Hotel": "Unpriced", "Price (EUR)": None, "Distance": 4000, "Opened": "2012-02-03"},
]


@unittest.skipUnless(chromium(), "chromium is not installed")
class Paged(TestCase):
    """Tests of a page in a browser."""

    records = RECORDS
    kinds = None

    @classmethod
    def setUpClass(cls):
        cls.browser = Browser()

    @classmethod
    def tearDownClass(cls):
        cls.browser.close()

    def setUp(self):
        self.browser.faults.clear()
        self.browser.size(1200, 860)
        context = served(self.records, kinds=self.kinds, title="Hotels", questions=[QUESTION, "best high(Distance)"])
        self.server = context.__enter__()
        self.addCleanup(context.__exit__, None, None, None)
        self.open()

    def tearDown(self):
        folder = os.environ.get("SCREENSHOTS")
        if folder:
            self.browser.screenshot(str(Path(folder, f"{self.id().rpartition('.')[2]}.png")))
        self.assertEqual(self.browser.faults, [])
        self.browser.open("about:blank")

    def open(self, question=QUESTION):
        self.browser.open(f"{self.server.url}?{urlencode({'question': question})}")
        self.browser.until("document.readyState === 'complete' && document.querySelectorAll('#rows tbody tr').length")

    def ask(self, question):
        self.browser.fill("#question", question)
        self.browser.click("#ask button")

    def counts(self):
        return [self.browser.count(f"#plot .point.{name}") for name in ("first", "second", "further", "other")]

    def rows(self, column=2):
        return self.browser.js(f"[...document.querySelectorAll('#rows tbody tr')].map(row => row.children[{column - 1}].textContent)")


class Page(Paged):
    def test_the_first_screen(self):
        page = self.browser
        self.assertEqual((page.text("h1"), page.js("document.title")), ("Hotels", "Hotels"))
        self.assertEqual(page.text("#summary"), "5 of 8 rows are in the answer: 3 in the first level, 2 behind it.")
        self.assertEqual(page.text("#state"), "Live, version 1")
        self.assertEqual(self.counts(), [3, 2, 0, 2])
        self.assertIn("1 without a value on an axis", page.text("#legend"))
        self.assertIn("level 1", page.text("#legend"))
        self.assertEqual(page.js("[...document.querySelectorAll('#plot text.name')].map(text => text.textContent)"), ["Price (EUR)", "Distance"])
        self.assertEqual(self.rows(), ["Quay", "Alpine", "Garden", "Old Town", "River"])
        self.assertEqual(self.rows(1), ["1", "1", "1", "2", "2"])
        self.assertEqual(page.js("[...document.querySelectorAll('#rows thead th')].map(cell => cell.textContent)"), ["Level", "Hotel", "Price (EUR)", "Distance", "Opened", "Id", "Actions"])
        self.assertEqual(page.js("document.querySelector('#plot .stairs').getAttribute('d').match(/[ML]/g).length"), 5)
        self.assertTrue(page.js("""(() => {
            const plot = document.getElementById("plot").getBoundingClientRect();
            return [...document.querySelectorAll("#plot .point, #plot text")].every(point => {
                const at = point.getBoundingClientRect();
                return at.width > 0 && at.left >= plot.left && at.right <= plot.right && at.top >= plot.top && at.bottom <= plot.bottom;
            });
        })()"""))

    def test_points_lie_where_their_values_say(self):
        """Two rows of equal price lie above one another, and the cheaper one is to the left."""
        at = self.browser.js("""Object.fromEntries([...document.querySelectorAll("#plot .point")].map(point => {
            const box = point.getBoundingClientRect();
            return [point.textContent.split(/[\\n,]/)[0].replace("Hotel: ", ""), [box.left + box.width / 2, box.top + box.height / 2]];
        }))""")
        self.assertLess(at["Quay"][0], at["Alpine"][0])
        self.assertGreater(at["Garden"][1], at["Alpine"][1])
        self.assertAlmostEqual((at["Garden"][0] - at["Quay"][0]) / (at["River"][0] - at["Quay"][0]), (170 - 40) / (207 - 40), delta=0.01)
        self.assertAlmostEqual((at["Quay"][1] - at["Garden"][1]) / (at["Alpine"][1] - at["Garden"][1]), (1200 - 170) / (540 - 170), delta=0.02)

    def test_a_refused_question_has_a_caret_under_its_character(self):
        page = self.browser
        self.ask('best low("Price (EUR)") * low(Distanze)')
        page.until("!document.getElementById('refusal').hidden")
        self.assertEqual(page.text("#refusal p"), "no column 'Distanze'; did you mean Distance?")
        shown, caret = page.text("#refusal pre").split("\n")[:2]
        self.assertEqual((shown, caret), ('best low("Price (EUR)") * low(Distanze)', " " * 30 + "^"))
        left = page.js("[document.querySelector('#refusal mark'), document.querySelector('#refusal .caret')].map(part => Math.round(part.getBoundingClientRect().left))")
        self.assertEqual(left[0], left[1])
        self.assertEqual(page.js("document.getElementById('question').getAttribute('aria-invalid')"), "true")
        self.assertEqual(self.counts(), [3, 2, 0, 2])
        self.ask("best high(Distance)")
        page.until("document.getElementById('refusal').hidden")
        self.assertEqual(self.rows(), ["Station & Co"])
        self.ask("best low(Distance) * " + "low(Distance) * " * 20 + "lo(Distance)")
        page.until("!document.getElementById('refusal').hidden")
        shown, caret = page.text("#refusal pre").split("\n")[:2]
        self.assertEqual((len(shown) < 80, shown[caret.index("^"):]), (True, "lo(Distance)"))

    def test_the_caret_stands_right_behind_signs_of_two_units(self):
        for before in ("", "😀", "𝄞𝄞", "城市", "…"):
            for question, wrong in [(f'best pos(Hotel, \'{before}\') * lo(Distance)', "l"), (f"best pos(Hotel, '{before}') * 😀", "😀"), ("best " + f"pos(Hotel, '{before}') * " * 8 + "lo(Distance)", "l")]:
                self.ask(question)
                self.browser.until(f"!document.getElementById('refusal').hidden && document.querySelector('#refusal mark').textContent === {json.dumps(wrong)}"
                                   f" && document.querySelector('#refusal pre').textContent.includes({json.dumps(before)})")
                left = self.browser.js("[document.querySelector('#refusal mark'), document.querySelector('#refusal .caret')].map(part => part.getBoundingClientRect().left)")
                self.assertAlmostEqual(left[0], left[1], delta=1, msg=question)

    def test_names_are_text(self):
        self.ask("top_level 9 low(Opened)")
        self.browser.until("document.querySelectorAll('#rows tbody tr').length === 8")
        self.assertIn("<img src=x onerror=alert(1)>", self.rows())
        self.assertEqual(self.browser.count("img"), 0)
        self.assertEqual(self.counts(), [1, 1, 4, 0])        # two have no date or no price
        self.ask("best low(<img src=x onerror=alert(1)>)")
        self.browser.until("!document.getElementById('refusal').hidden")
        self.assertEqual(self.browser.count("img"), 0)

    def test_axes_that_are_chosen(self):
        page = self.browser
        page.js("document.getElementById('x').value = 'Opened'; document.getElementById('x').dispatchEvent(new Event('change'))")
        page.until("document.querySelector('#plot text.name').textContent === 'Opened'")
        ticks = page.js("[...document.querySelectorAll('#plot text')].map(text => text.textContent)")
        self.assertEqual([tick for tick in ticks if len(tick) == 4 and tick.isdigit()], ["1990", "2000", "2010", "2020", "2030"])
        self.assertEqual(page.js("document.querySelectorAll('#plot text.name')[1].textContent"), "Price (EUR)")

    def test_rows_are_added_repriced_removed_and_added_again(self):
        page = self.browser
        page.click("#add")
        for name, value in {"Hotel": "Bargain", "Price (EUR)": "35.5", "Distance": "far", "Opened": "2024-02-29"}.items():
            page.fill(f"#fields [name={json.dumps(name)}]", value)
        page.click("#save")
        page.until("!document.getElementById('wrong').hidden")
        self.assertIn("Distance", page.text("#wrong"))
        self.assertIn("400", page.faults.pop()["entry"]["text"])
        page.fill('#fields [name="Distance"]', "900")
        page.click("#save")
        page.until("document.getElementById('state').textContent === 'Live, version 2'")
        page.until("!document.getElementById('editor').open")
        self.assertEqual(self.rows(), ["Alpine", "Garden", "Bargain", "Quay", "River"])
        page.click('tr[data-id="9"] button')
        self.assertEqual(page.js("document.querySelector('#fields [name=\"Price (EUR)\"]').value"), "35.50")
        page.fill('#fields [name="Price (EUR)"]', "300")
        page.click("#save")
        page.until("document.getElementById('state').textContent === 'Live, version 3'")
        self.assertEqual(self.rows(), ["Quay", "Alpine", "Garden", "Old Town", "River"])
        page.click('tr[data-id="1"] button:nth-child(2)')
        page.until("document.getElementById('state').textContent === 'Live, version 4'")
        self.assertNotIn("Quay", self.rows())
        self.assertIn("Quay is removed.", page.text("#done"))
        page.click("#done button")
        page.until("document.getElementById('state').textContent === 'Live, version 5'")
        self.assertIn("Quay", self.rows())
        self.assertEqual(sum(self.counts()), 8)

    def test_two_browsers_see_the_same(self):
        with Browser() as other:
            other.open(self.server.url)
            other.until("document.querySelectorAll('#rows tbody tr').length === 5")
            ask(self.server, "PUT", "/rows/5", {"Price (EUR)": "30"})
            for page in (self.browser, other):
                page.until("document.getElementById('state').textContent === 'Live, version 2'")
            self.ask("best low(Distance) & high(Opened)")
            self.browser.until("document.querySelectorAll('#rows tbody tr').length === 1")
            self.assertEqual(other.js("[...document.querySelectorAll('#rows tbody tr')].map(row => [...row.children].map(cell => cell.textContent))"),
                             [["1", "Garden", "170.00", "170", "1999-01-31", "3", "EditRemove"], ["1", "River", "30.00", "490", "2010-02-03", "5", "EditRemove"],
                              ["2", "Quay", "40.00", "1200", "2001-05-01", "1", "EditRemoveWhy?"], ["2", "Alpine", "99.00", "540", "", "2", "EditRemoveWhy?"]])
            self.assertEqual(other.faults, [])

    @test_asgi.CAN_BE_MOUNTED
    def test_below_a_path_of_another_program(self):
        with test_asgi.mounted("/my/hotels") as server:
            self.browser.open(f"http://127.0.0.1:{server.server_address[1]}/my/hotels/")
            self.browser.until("document.querySelectorAll('#rows tbody tr').length === 4")
            self.browser.click('tr[data-id="2"] button')
            self.browser.fill('#fields [name="Distance"]', "77")
            self.browser.click("#save")
            self.browser.until("document.getElementById('state').textContent === 'Live, version 2'")
            self.assertEqual(server.desk.picture("best low(Distance)").best[0].id, 2)

    def test_the_server_is_started_anew_with_other_rows(self):
        with served(self.records) as server:
            port = server.server_address[1]
            self.browser.open(server.url)
            self.browser.until("document.querySelectorAll('#rows tbody tr').length === 5")
        other = [{"Hotel": "Other", "Price (EUR)": 1, "Distance": 2, "Opened": None}]
        with served(other, port=port, title="Others"):
            self.browser.until("document.title === 'Others' && document.querySelectorAll('#rows tbody tr').length === 1")
            self.browser.faults.clear()         # that the server was away

    def test_the_server_is_started_anew_while_a_question_is_refused(self):
        """Nothing is watched meanwhile, so that no stream breaks."""
        with served(self.records) as server:
            port = server.server_address[1]
            self.browser.open(server.url)
            self.browser.until("document.querySelectorAll('#rows tbody tr').length === 5")
            self.ask("best low(nothing)")
            self.browser.until("!document.getElementById('refusal').hidden")
        for connection in list(server._open):       # as the end of its process does
            with contextlib.suppress(OSError):
                connection.shutdown(socket.SHUT_RDWR)
        with served([{"Place": "Other", "Distance": 2, "Price": 1}], port=port, title="Others"):
            self.ask("best low(Distance)")
            self.browser.until("document.title === 'Others' && document.querySelectorAll('#rows tbody tr').length === 1")
            self.browser.faults.clear()         # that the server was away

    def test_a_phone_in_the_dark(self):
        page = self.browser
        page.call("Emulation.setEmulatedMedia", features=[{"name": "prefers-color-scheme", "value": "dark"}])
        page.size(390, 844, 2)
        page.until("document.getElementById('plot').clientWidth < 390")
        self.assertLessEqual(page.js("document.documentElement.scrollWidth"), 390)
        self.assertEqual(page.js("getComputedStyle(document.body).backgroundColor"), "rgb(20, 24, 29)")
        page.until("Math.max(...[...document.querySelectorAll('#plot .point')].map(point => point.getBoundingClientRect().right)) < 390")
        self.assertEqual(self.counts(), [3, 2, 0, 2])
        page.call("Emulation.setEmulatedMedia", features=[{"name": "prefers-color-scheme", "value": "light"}])

    def test_everything_has_a_name(self):
        """Each control has a label that a screen reader says."""
        nameless = self.browser.js("""[...document.querySelectorAll("button, select, textarea, input, svg[role=img], [role=region], dialog")].filter(part => part.closest("dialog") === null
            && !(part.labels?.length || part.ariaLabel || part.getAttribute("aria-labelledby") || part.textContent.trim() && part.tagName === "BUTTON")).map(part => part.outerHTML)""")
        self.assertEqual(nameless, [])
        self.assertEqual(self.browser.js("document.documentElement.lang"), "en")


class OddNames(Paged):
    records = [{" Price ": number, "far\naway": 9 - number, "Hotel": text} for number, text in enumerate(["Quay\n  by the river", "it's \"new\"\n", "Alpine"])]

    def open(self):
        self.browser.open(self.server.url)
        self.browser.until("document.readyState === 'complete' && document.querySelectorAll('#examples option').length === 3")

    def test_line_ends_between_quotes_stay(self):
        for question, rows in [('best low("far\naway")', ["Alpine"]), ('best\n  low("far\naway") *\n low(" Price ")', [text for text in (self.records[at]["Hotel"] for at in range(3))]),
                               ("best pos(Hotel, 'Quay\n  by the river')", ["Quay\n  by the river"]), ("best\npos(Hotel, 'it''s \"new\"\n')", ["it's \"new\"\n"])]:
            self.ask(question)
            self.browser.until(f"[...document.querySelectorAll('#rows tbody th')].map(row => row.textContent).join('|') === {json.dumps('|'.join(rows))}")
            self.assertTrue(self.browser.js("document.getElementById('refusal').hidden"))

    def test_an_axis_whose_name_has_blanks_around_it(self):
        self.ask('best low("far\naway")')
        self.browser.js("document.getElementById('y').value = ' Price '; document.getElementById('y').dispatchEvent(new Event('change'))")
        self.browser.until("[...document.querySelectorAll('#plot text.name')].map(text => text.textContent).join('|') === 'far\\naway| Price '")
        self.browser.js("history.back()")
        self.browser.until("document.getElementById('y').value === ''")

    def test_a_first_question_that_is_refused_leaves_no_picture(self):
        self.browser.open(f"{self.server.url}?{urlencode({'question': 'best low(nothing)'})}")
        self.browser.until("document.getElementById('state')?.textContent === 'The question is refused.'")


if __name__ == "__main__":
    unittest.main()
