"""Pages whose server does not answer, answers late, has ended, or is asked by many windows, in a headless Chromium."""
import time
import unittest
from unittest import mock

from prefq import pictures, replies
from test_page import Paged

SILENT = 3600
STATE = "document.getElementById('state').textContent"
UNKNOWN = "The server does not answer: look whether it was done before you do it again"
# A page whose clock runs so many times as fast, and which keeps what it has said of the server.
HURRIES = """(() => {
    const wait = window.setTimeout;
    window.setTimeout = (call, time) => wait(call, time / 20);
    AbortSignal.timeout = time => { const end = new AbortController(); wait(() => end.abort(), time / 100); return end.signal; };
    window.said = [];
    addEventListener("DOMContentLoaded", () => new MutationObserver(() => said.push(document.getElementById("state").textContent))
        .observe(document.getElementById("state"), {childList: true}));
})()"""
HIDDEN = "Object.defineProperty(document, 'hidden', {{configurable: true, value: {}}}); document.dispatchEvent(new Event('visibilitychange'))"


class Alone(Paged):
    def setUp(self):
        script = self.browser.call("Page.addScriptToEvaluateOnNewDocument", source=HURRIES)["identifier"]
        self.addCleanup(self.browser.call, "Page.removeScriptToEvaluateOnNewDocument", identifier=script)
        super().setUp()

    def refusing(self, path, *refusals):
        """The server raises these for its first requests for a path."""
        route, left = self.server.site.route, list(refusals)

        def refuses(request):
            if request.path == path and left:
                raise left.pop(0)
            return route(request)
        return mock.patch.object(self.server.site, "route", refuses)

    def go_away(self):
        """No request of the page gets a reply."""
        self.browser.js("window.fetch = () => Promise.reject(new TypeError('Failed to fetch'))")

    def test_a_page_whose_first_request_is_refused_says_so_and_asks_again(self):
        full = replies.Wrong(503, "400 connections are open already")
        with self.refusing("/about", full, full):
            self.open()
        self.assertIn("400 connections are open already. Trying again …", self.browser.js("said"))
        self.browser.until(f"{STATE} === 'Live, version 1'")
        self.assertEqual(self.browser.count("#examples option"), 3)
        self.browser.faults.clear()

    def test_a_page_is_not_loaded_anew_where_the_server_does_not_say_which_one_it_is(self):
        self.browser.click("#add")
        with self.refusing("/about", replies.Wrong(503, "400 connections are open already")):
            self.browser.js(HIDDEN.format("true"))
            self.browser.js(HIDDEN.format("false"))
            self.server.desk.update(1, {"Distance": 1})
            self.browser.until(f"{STATE} === 'Live, version 2'")
        self.assertTrue(self.browser.js("document.getElementById('editor').open"))
        self.browser.faults.clear()

    def test_why_a_row_is_where_it_is_cannot_be_said(self):
        self.go_away()
        self.browser.fill("#row", "2")
        self.browser.click("#which button")
        self.browser.until("document.getElementById('reasons').open")
        self.assertEqual((self.browser.text("#reason"), self.browser.text("#reasons h2")), ("The server does not answer", "Row 2"))
        self.browser.click("#reasons button")

    def test_a_change_whose_reply_is_lost_is_said_to_be_unknown(self):
        self.go_away()
        self.browser.click("tr[data-id='1'] .actions button:nth-child(2)")
        self.browser.until(f"document.getElementById('done').textContent === {UNKNOWN!r}")
        self.browser.click("#add")
        self.browser.click("#save")
        self.browser.until(f"document.getElementById('wrong').textContent === {UNKNOWN!r}")
        self.assertFalse(self.browser.js("document.getElementById('save').disabled"))

    def test_a_change_that_has_no_reply_is_waited_for_a_while(self):
        with self.server.desk._lock:
            self.browser.click("#add")
            self.browser.click("#save")
            self.browser.until(f"document.getElementById('wrong').textContent === {UNKNOWN!r}")

    def test_a_page_says_that_nothing_comes_any_more_and_watches_anew(self):
        with mock.patch.object(replies, "SECONDS_QUIET", SILENT):
            self.server.desk.update(1, {"Distance": 1})
            self.browser.until("said.includes('The server does not answer. Trying again …')")
            self.browser.until(f"{STATE} === 'Live, version 2'")
        self.server.desk.update(1, {"Distance": 2})
        self.browser.until(f"{STATE} === 'Live, version 3'")

    def test_a_page_is_told_that_the_server_is_there(self):
        with mock.patch.object(replies, "SECONDS_QUIET", 0.2):
            self.server.desk.update(1, {"Distance": 1})
            self.browser.until(f"{STATE} === 'Live, version 2'")
            self.browser.js("new Promise(done => setTimeout(done, 20 * 3000))")
        self.assertEqual([text for text in self.browser.js("said") if "Live" not in text], [])

    def test_a_page_that_nobody_sees_watches_nothing(self):
        """A browser has six connections to a server: those of six windows, and no change was sent by any of them."""
        self.browser.js(HIDDEN.format("true"))
        self.browser.fill("#question", "best lo")
        self.server.desk.update(1, {"Distance": 1})
        self.server.desk.update(1, {"Distance": 2})
        self.assertEqual(self.browser.js(STATE), "Live, version 1")
        self.browser.js(HIDDEN.format("false"))
        self.browser.until(f"{STATE} === 'Live, version 3'")
        self.assertTrue(self.browser.js("document.getElementById('refusal').hidden"))

    def test_a_picture_that_takes_long_is_waited_for(self):
        """A page said for each of more than 40 seconds that the server does not answer, and asked for it again."""
        made, picture = [], pictures.picture

        def slow(*words):
            made.append(words)
            time.sleep(5)
            return picture(*words)

        with mock.patch.object(replies, "SECONDS_QUIET", 0.3), mock.patch.object(pictures, "picture", slow):
            self.server.desk.update(1, {"Distance": 1})
            self.browser.until(f"{STATE} === 'Live, version 2'")
        self.assertEqual((len(made), [text for text in self.browser.js("said") if "Live" not in text]), (1, []))

    def test_seven_windows_of_one_browser(self):
        """They took all six connections to the server, so that the seventh showed nothing, and none could save."""
        windows = [self.browser]
        for _ in range(6):
            windows.append(self.browser.window(self.server.url))
            self.addCleanup(windows[-1].close)
            self.addCleanup(windows[-1].call, "Page.close")
        for page in windows:
            page.until("document.querySelectorAll('#rows tbody tr').length === 5")
        self.assertEqual([page.js("document.hidden") for page in windows], [False] * 7)
        for version, page in enumerate(windows, 2):
            page.click("tr[data-id='1'] button")
            page.fill("#fields [name='Distance']", str(1200 + version))
            page.click("#save")
            for other in windows:
                other.until(f"{STATE} === 'Live, version {version}' && [...document.querySelectorAll('#rows td')].some(cell => cell.textContent === '{1200 + version}')", 20)
        self.assertEqual(self.server.site.streams._value, replies.MOST_STREAMS - 1)
        self.assertEqual([page.faults for page in windows], [[]] * 7)

    def test_a_shared_worker_whose_file_does_not_come_is_begun_again(self):
        route, left = self.server.site.route, [replies.Wrong(503, "400 connections are open already")] * 2

        def refuses(request):
            if request.path == "/stream.js" and request.query and left:
                raise left.pop()
            return route(request)

        with mock.patch.object(self.server.site, "route", refuses):
            self.browser.open(self.server.url + "?question=best+low(Distance)")
            self.browser.until("document.querySelectorAll('#rows tbody tr').length === 1")
            self.server.desk.update(3, {"Distance": 1})
            self.browser.until(f"{STATE} === 'Live, version 2'")
        self.assertEqual(left, [])
        self.browser.faults.clear()

    def test_a_browser_without_shared_workers_has_a_stream_for_each_window(self):
        script = self.browser.call("Page.addScriptToEvaluateOnNewDocument", source="delete window.SharedWorker")["identifier"]
        self.addCleanup(self.browser.call, "Page.removeScriptToEvaluateOnNewDocument", identifier=script)
        self.open()
        self.server.desk.update(1, {"Distance": 1})
        self.browser.until(f"{STATE} === 'Live, version 2'")
        self.browser.js(HIDDEN.format("true"))
        self.server.desk.update(1, {"Distance": 2})
        self.browser.js(HIDDEN.format("false"))
        self.browser.until(f"{STATE} === 'Live, version 3'")

    def test_a_page_says_that_the_desk_was_closed(self):
        self.server.desk.close()
        self.browser.until(f"{STATE} === 'the desk was closed. Trying again …'")
        self.browser.faults.clear()


if __name__ == "__main__":
    unittest.main()
