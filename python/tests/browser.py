"""A headless Chromium for the tests, by its DevTools protocol: https://chromedevtools.github.io/devtools-protocol/"""
import base64
import contextlib
import json
import os
import pathlib
import signal
import socket
import subprocess
import tempfile
import time

from tool_case import SECONDS

WORDS = ["--headless=new", "--no-sandbox", "--disable-gpu", "--disable-dev-shm-usage", "--disable-background-networking",
         "--hide-scrollbars", "--no-first-run", "--remote-debugging-pipe"]
KEYS = {"Enter": 13, "Tab": 9, "Delete": 46, "Home": 36, "ArrowLeft": 37, "ArrowUp": 38, "ArrowRight": 39, "ArrowDown": 40,
        "+": 187, "-": 189}
TEXTS = {"Enter": "\r", "+": "+", "-": "-"}
# The main module of the service's page, or of the page in one file.
MAIN = "(typeof main_js === 'undefined' ? import('/map/main.js') : main_js)"


class Browser:
    """One page. `faults` are what its console has of errors, and `asked` the addresses that it has asked for."""

    def __init__(self):
        self._folder = tempfile.TemporaryDirectory(prefix="browser-", ignore_cleanup_errors=True)
        self.faults, self.asked, self._number, self._received, self._session = [], [], 0, b"", {}
        # (the program reads commands from descriptor 3, and writes to 4)
        self._socket, theirs = socket.socketpair()
        self._socket.settimeout(SECONDS)
        shell = ["/bin/bash", "-c", f'exec "$@" 3<&{theirs.fileno()} 4>&{theirs.fileno()}', "bash"]
        words = [*shell, "chromium", *WORDS, f"--user-data-dir={self._folder.name}", "about:blank"]
        with theirs:
            environment, pipe = {**os.environ, "HOME": self._folder.name}, [theirs.fileno()]
            self._process = subprocess.Popen(words, stderr=subprocess.DEVNULL, env=environment, process_group=0, pass_fds=pipe)
        try:
            target = self.call("Target.createTarget", url="about:blank")["targetId"]
            self._session = {"sessionId": self.call("Target.attachToTarget", targetId=target, flatten=True)["sessionId"]}
            for domain in ("Page", "Runtime", "Log", "Network"):
                self.call(f"{domain}.enable")
        except BaseException:
            self.close()
            raise

    def close(self):
        with contextlib.suppress(ProcessLookupError):
            os.killpg(self._process.pid, signal.SIGKILL)
        self._process.wait()
        self._socket.close()
        self._folder.cleanup()

    def call(self, method, **words):
        self._number += 1
        command = {"id": self._number, "method": method, "params": words, **self._session}
        self._socket.sendall(json.dumps(command).encode() + b"\0")
        while (message := self._read()).get("id") != self._number:
            self._note(message["method"], message["params"])
        assert "error" not in message, f"{method}: {message['error']}"
        return message["result"]

    def _read(self):
        """The next message: JSON that ends with a zero byte."""
        while b"\0" not in self._received:
            part = self._socket.recv(1 << 20)
            assert part, "chromium has ended"
            self._received += part
        text, _, self._received = self._received.partition(b"\0")
        return json.loads(text)

    def _note(self, name, words):
        if name == "Network.requestWillBeSent":
            self.asked.append(words["request"]["url"])
        is_error = name == "Log.entryAdded" and words["entry"]["level"] == "error"
        is_said = name == "Runtime.consoleAPICalled" and words["type"] in ("error", "warning", "assert")
        if name == "Runtime.exceptionThrown" or is_error or is_said:
            self.faults.append(words)

    def open(self, address, width=1280, height=800, is_dark=False):
        scheme = [{"name": "prefers-color-scheme", "value": "dark" if is_dark else "light"}]
        self.call("Emulation.setEmulatedMedia", features=scheme)
        self.call("Emulation.setDeviceMetricsOverride", width=width, height=height, deviceScaleFactor=1, mobile=width < 600)
        self.call("Emulation.setTouchEmulationEnabled", enabled=width < 600)
        self.call("Page.navigate", url="about:blank")
        self.call("Page.navigate", url=address)
        self.until("location.href !== 'about:blank' && document.readyState === 'complete'")

    def value(self, script):
        """The value of an expression of JavaScript; a promise is waited for."""
        found = self.call("Runtime.evaluate", expression=script, awaitPromise=True, returnByValue=True)
        assert "exceptionDetails" not in found, f"{script}: {found['exceptionDetails']}"
        return found["result"].get("value")

    def until(self, script):
        """Waits until an expression is true; returns its value."""
        while not (found := self.value(script)):
            time.sleep(0.05)
        return found

    def drawn(self, body):
        """The value of a function's body over the map's `view`, once the page has drawn all that it has."""
        return self.value(f"{MAIN}.then(async ({{view}}) => {{ while (view.frame) await new Promise(requestAnimationFrame); {body} }})")

    def pixel(self, lon, lat):
        return self.drawn(f"""const {{left, top}} = view.element.getBoundingClientRect(), [x, y] = view.pixel([{lon}, {lat}]);
            return [x + left, y + top];""")

    def mouse(self, kind, place, buttons=1):
        pressed = "none" if kind == "mouseMoved" and not buttons else "left"
        self.call("Input.dispatchMouseEvent", type=kind, x=place[0], y=place[1], button=pressed, buttons=buttons, clickCount=1)

    def click(self, place):
        self.drag(place, place, 0)

    def drag(self, begin, end, steps=6):
        """Moves the pointer, pressed, from a pixel to another."""
        self.mouse("mouseMoved", begin, 0)
        self.mouse("mousePressed", begin)
        for step in range(1, steps + 1):
            self.mouse("mouseMoved", [low + (high - low) * step / steps for low, high in zip(begin, end)])
        self.mouse("mouseReleased", end, 0)

    def press(self, key, is_shifted=False):
        words = {"key": key, "windowsVirtualKeyCode": KEYS[key], "modifiers": 8 * is_shifted}
        text = {"text": TEXTS[key]} if key in TEXTS else {}
        self.call("Input.dispatchKeyEvent", type="keyDown" if text else "rawKeyDown", **words, **text)
        self.call("Input.dispatchKeyEvent", type="keyUp", **words)

    def picture(self, path):
        pathlib.Path(path).write_bytes(base64.b64decode(self.call("Page.captureScreenshot", format="png")["data"]))
