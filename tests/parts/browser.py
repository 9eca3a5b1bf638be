"""A browser's window that a test uses; and Chromium with no window, told what to do by its own protocol over a pair of pipes."""
import base64
import json
import os
import select
import subprocess
import tempfile
import time

import process_threads

CODES = {"ArrowLeft": 37, "ArrowUp": 38, "ArrowRight": 39, "ArrowDown": 40, "PageUp": 33, "PageDown": 34, "End": 35, "Home": 36, "Enter": 13, "Tab": 9, "Escape": 27,
         "Backspace": 8, " ": 32, "/": 191, "F9": 120, "F10": 121}
MODIFIERS = {"Alt": 1, "Control": 2, "Meta": 4, "Shift": 8}


class Window:
    """A window of one page in any browser. It keeps what the console has of errors, and which addresses were asked for."""

    WORKER = ""    # the name that the browser gives the threads of workers
    process: subprocess.Popen[bytes]    # the browser

    def __init__(self):
        self.errors, self.asked = [], []

    def value(self, expression):
        """What an expression gives, or what a promise that it gives comes to."""
        raise NotImplementedError

    def press(self, key):
        """A key, as `Control+Enter`, `Alt+1`, `a`."""
        raise NotImplementedError

    def wait(self, expression, seconds=60):
        """Waits until an expression is true."""
        end = time.monotonic() + seconds
        while not self.value(f"(() => {{ try {{ return {expression}; }} catch (_) {{ return false; }} }})()"):    # a page that is on its way has no parts
            if time.monotonic() > end:
                raise RuntimeError(f"not within {seconds} s: {expression}")
            time.sleep(0.02)

    def place_of(self, selector, turn=0.5):
        """The place in an element, so far along it, which is brought into sight."""
        return self.value(f"(() => {{ const it = document.querySelector({json.dumps(selector)}); it.scrollIntoView({{ block: 'center' }}); const box = it.getBoundingClientRect(); "
                          f"return [box.left + box.width * {turn}, box.top + box.height / 2]; }})()")

    def type(self, text):
        for letter in text:
            self.press(letter)

    def busy_workers(self):
        """How many threads of workers run or want a processor, as Linux says. It needs no word of the page."""
        return process_threads.running(self.process.pid, self.WORKER)


class Browser(Window):
    """Chromium."""

    WORKER = "DedicatedWorker"    # Linux keeps 15 letters

    def __init__(self, *options):
        super().__init__()
        from_browser, to_us = os.pipe()
        from_us, to_browser = os.pipe()
        self.folder = tempfile.TemporaryDirectory(ignore_cleanup_errors=True)

        def place():
            os.dup2(from_us, 13)
            os.dup2(to_us, 14)
            os.dup2(13, 3)
            os.dup2(14, 4)

        words = ["chromium", "--headless", "--no-sandbox", "--disable-gpu", "--remote-debugging-pipe", f"--user-data-dir={self.folder.name}", *options, "about:blank"]
        self.process = subprocess.Popen(words, stdin=subprocess.DEVNULL, stdout=subprocess.DEVNULL, stderr=subprocess.DEVNULL, preexec_fn=place, pass_fds=(3, 4))
        os.close(from_us)
        os.close(to_us)
        self.heard, self.said, self.rest, self.count, self.session = from_browser, to_browser, b"", 0, None
        target = self.tell("Target.createTarget", url="about:blank")["targetId"]
        self.session = self.tell("Target.attachToTarget", targetId=target, flatten=True)["sessionId"]
        for part in ("Page", "Runtime", "Log", "Network"):
            self.tell(f"{part}.enable")

    def tell(self, method, **params):
        self.count += 1
        message = {"id": self.count, "method": method, "params": params}
        if self.session:
            message["sessionId"] = self.session
        data = json.dumps(message).encode() + b"\0"
        while data:
            data = data[os.write(self.said, data):]
        while True:
            answer = self.hear()
            self.note(answer)
            if answer.get("id") == self.count:
                if "error" in answer:
                    raise RuntimeError(f"{method}: {answer['error']}")
                return answer["result"]

    def note(self, message):
        """Keeps what the console has of errors, and what was asked of a network or a disk."""
        method, params = message.get("method"), message.get("params", {})
        if method == "Runtime.exceptionThrown" or method == "Log.entryAdded" and params["entry"]["level"] == "error" \
                or method == "Runtime.consoleAPICalled" and params["type"] in ("error", "warning"):
            self.errors.append(json.dumps(params)[:400])
        if method == "Network.requestWillBeSent":
            self.asked.append(params["request"]["url"])

    def hear(self, seconds=120):
        while b"\0" not in self.rest:
            if not select.select([self.heard], [], [], seconds)[0]:
                raise RuntimeError("chromium says nothing")
            more = os.read(self.heard, 1 << 20)
            if not more:
                raise RuntimeError("chromium ended")
            self.rest += more
        message, self.rest = self.rest.split(b"\0", 1)
        return json.loads(message)

    def go(self, url):
        self.tell("Page.navigate", url=url)

    def size(self, width, height=900):
        self.tell("Emulation.setDeviceMetricsOverride", width=width, height=height, deviceScaleFactor=1, mobile=False)

    def prefer(self, scheme, media=""):
        """Dark or light, and the screen or paper."""
        self.tell("Emulation.setEmulatedMedia", media=media, features=[{"name": "prefers-color-scheme", "value": scheme}])

    def value(self, expression):
        """What an expression gives, or what a promise that it gives comes to."""
        told = self.tell("Runtime.evaluate", expression=expression, returnByValue=True, awaitPromise=True)
        if "exceptionDetails" in told:
            raise RuntimeError(f"{expression[:200]}: {json.dumps(told['exceptionDetails'])[:600]}")
        return told["result"].get("value")

    def touch(self, selector):
        """A finger on the middle of an element."""
        self.tell("Emulation.setTouchEmulationEnabled", enabled=True)
        x, y = self.place_of(selector)
        self.tell("Input.dispatchTouchEvent", type="touchStart", touchPoints=[{"x": x, "y": y}])
        self.tell("Input.dispatchTouchEvent", type="touchEnd", touchPoints=[])

    def click(self, selector, turn=0.5):
        """The mouse on an element, so far along it."""
        x, y = self.place_of(selector, turn)
        for kind in ("mousePressed", "mouseReleased"):
            self.tell("Input.dispatchMouseEvent", type=kind, x=x, y=y, button="left", clickCount=1)

    def press(self, key):
        """A key, as `Control+Enter`, `Alt+1`, `a`."""
        *held, key = key.split("+") if len(key) > 1 else [key]
        modifiers = sum(MODIFIERS[it] for it in held)
        code = f"Digit{key}" if key.isdigit() else f"Key{key.upper()}" if key.isalpha() and len(key) == 1 else "Space" if key == " " else key
        params = {"key": key, "code": code, "modifiers": modifiers, "windowsVirtualKeyCode": CODES.get(key, ord(key.upper()) if len(key) == 1 else 0)}
        text = "" if modifiers & 7 else "\r" if key == "Enter" else key if len(key) == 1 else ""
        self.tell("Input.dispatchKeyEvent", type="keyDown" if text else "rawKeyDown", **params, **({"text": text} if text else {}))
        self.tell("Input.dispatchKeyEvent", type="keyUp", **params)

    def insert(self, text):
        """Text, as if it were typed or pasted."""
        self.tell("Input.insertText", text=text)

    def picture(self, file, whole=False):
        told = self.tell("Page.captureScreenshot", format="png", captureBeyondViewport=whole)
        with open(file, "wb") as it:
            it.write(base64.b64decode(told["data"]))

    def end(self):
        self.tell("Browser.close")
        self.process.wait()
