"""Drives a headless Chromium through its debugging port, with the standard library alone."""
import base64
import json
import os
import shutil
import socket
import struct
import subprocess
import tempfile
import time
import urllib.request

NAMES = ("chromium", "chromium-browser", "google-chrome")


def chromium():
    """The path of a Chromium that is installed."""
    return next(filter(None, map(shutil.which, NAMES)), None)


class Page:
    """A page of a browser."""

    def __init__(self, port, path):
        self._count = 0
        self.faults = []        # exceptions in the page, and what its policy or the network refused
        self._port = port
        self._connect((port, path))
        for domain in ("Page", "Runtime", "Log"):
            self.call(f"{domain}.enable")
        self.call("Emulation.setFocusEmulationEnabled", enabled=True)       # as a window that is in front

    def close(self):
        self._file.close()
        self._socket.close()

    def window(self, url):
        """The page of another window of this browser."""
        target = self.call("Target.createTarget", url=url, newWindow=True)["targetId"]
        return Page(self._port, f"/devtools/page/{target}")

    def size(self, width, height, scale=1):
        self.call("Emulation.setDeviceMetricsOverride", width=width, height=height, deviceScaleFactor=scale, mobile=width < 600)

    def open(self, url):
        self.call("Page.navigate", url=url)

    def js(self, code):
        """The value of an expression in the page."""
        result = self.call("Runtime.evaluate", expression=code, awaitPromise=True, returnByValue=True)
        if "exceptionDetails" in result:
            raise AssertionError(f"{code}: {result['exceptionDetails'].get('exception', {}).get('description', result['exceptionDetails'])}")
        return result["result"].get("value")

    def until(self, code, seconds=60):
        """Waits until an expression of the page is true, and returns it."""
        end = time.monotonic() + seconds
        while time.monotonic() < end:
            found = self.js(code)
            if found:
                return found
            time.sleep(0.05)
        raise AssertionError(f"{code} was not true within {seconds} seconds; the page says: {self.js('document.body.innerText')[:2000]}")

    def click(self, selector):
        self.js(f"document.querySelector({json.dumps(selector)}).click()")

    def fill(self, selector, value):
        self.js(f"document.querySelector({json.dumps(selector)}).value = {json.dumps(value)}")

    def text(self, selector):
        return self.js(f"document.querySelector({json.dumps(selector)}).innerText")

    def count(self, selector):
        return self.js(f"document.querySelectorAll({json.dumps(selector)}).length")

    def screenshot(self, path):
        with open(path, "wb") as file:
            file.write(base64.b64decode(self.call("Page.captureScreenshot", format="png")["data"]))

    def call(self, method, **parameters):
        """Calls a method of the DevTools protocol."""
        self._count += 1
        self._send(json.dumps({"id": self._count, "method": method, "params": parameters}).encode())
        while True:
            result = json.loads(self._message())
            if result.get("method") == "Runtime.exceptionThrown" or result.get("method") == "Log.entryAdded" and result["params"]["entry"]["level"] == "error":
                self.faults.append(result["params"])
            if result.get("id") == self._count:
                if "error" in result:
                    raise AssertionError(f"{method}: {result['error']}")
                return result["result"]

    def _connect(self, address):
        port, path = address
        self._socket = socket.create_connection(("127.0.0.1", port), timeout=60)
        key = base64.b64encode(os.urandom(16)).decode()
        self._socket.sendall(f"GET {path} HTTP/1.1\r\nHost: 127.0.0.1:{port}\r\nUpgrade: websocket\r\nConnection: Upgrade\r\nSec-WebSocket-Key: {key}\r\n"
                             "Sec-WebSocket-Version: 13\r\n\r\n".encode())
        self._file = self._socket.makefile("rb")
        while self._file.readline() not in (b"\r\n", b""):
            pass

    def _send(self, data):
        """One masked text frame."""
        mask = os.urandom(4)
        length = bytes([0x80 | len(data)]) if len(data) < 126 else b"\xfe" + struct.pack(">H", len(data)) if len(data) < 65_536 else b"\xff" + struct.pack(">Q", len(data))
        self._socket.sendall(b"\x81" + length + mask + bytes(byte ^ mask[at % 4] for at, byte in enumerate(data)))

    def _message(self):
        """The next message, of one frame or several."""
        text = b""
        while True:
            first, second = self._file.read(2)
            length = second & 127
            if length == 126:
                length = struct.unpack(">H", self._file.read(2))[0]
            elif length == 127:
                length = struct.unpack(">Q", self._file.read(8))[0]
            text += self._file.read(length)
            if first & 0x80:
                return text


class Browser(Page):
    """A browser with one page."""

    def __init__(self, width=1200, height=860, dark=False):
        self._folder = tempfile.mkdtemp()
        words = [chromium(), "--headless=new", "--no-sandbox", "--disable-gpu", "--disable-dev-shm-usage", "--no-first-run", "--remote-debugging-port=0",
                 "--remote-allow-origins=*", "--hide-scrollbars", f"--user-data-dir={self._folder}", f"--window-size={width},{height}", "about:blank"]
        environment = {**os.environ, "HOME": self._folder, "TMPDIR": self._folder}
        self._process = subprocess.Popen(words, stdout=subprocess.DEVNULL, stderr=subprocess.DEVNULL, env=environment, start_new_session=True)
        try:
            super().__init__(*self._address())
            self.size(width, height)
            self.call("Emulation.setEmulatedMedia", features=[{"name": "prefers-color-scheme", "value": "dark" if dark else "light"}])
        except BaseException:
            self.close()
            raise

    def __enter__(self):
        return self

    def __exit__(self, *_):
        self.close()

    def close(self):
        if hasattr(self, "_socket"):
            super().close()
        self._process.terminate()
        try:
            self._process.wait(10)
        except subprocess.TimeoutExpired:
            self._process.kill()
            self._process.wait()
        shutil.rmtree(self._folder, ignore_errors=True)

    def _address(self):
        """The port and the path of the page, which the browser writes into its folder as soon as it listens."""
        end = time.monotonic() + 60
        while time.monotonic() < end:
            try:
                with open(f"{self._folder}/DevToolsActivePort") as file:
                    port = int(file.readline())
                with urllib.request.urlopen(f"http://127.0.0.1:{port}/json", timeout=10) as reply:
                    page = next(page for page in json.load(reply) if page["type"] == "page")
                return port, page["webSocketDebuggerUrl"].split(str(port), 1)[1]
            except (OSError, ValueError, StopIteration):
                time.sleep(0.1)
        raise AssertionError("the browser does not start")
