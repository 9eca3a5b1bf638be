"""Firefox with no window, told what to do by WebDriver BiDi over a websocket."""
import base64
import json
import os
import socket
import subprocess
import tempfile
import time

from browser import Window

NAME = "firefox-esr"
KEYS = {"Alt": "\ue00a", "Control": "\ue009", "Meta": "\ue03d", "Shift": "\ue008", "Backspace": "\ue003", "Tab": "\ue004", "Enter": "\ue006", "Escape": "\ue00c",
        "PageUp": "\ue00e", "PageDown": "\ue00f", "End": "\ue010", "Home": "\ue011", "ArrowLeft": "\ue012", "ArrowUp": "\ue013", "ArrowRight": "\ue014", "ArrowDown": "\ue015",
        "F9": "\ue039", "F10": "\ue03a"}
TEXT, CLOSE = 1, 8    # kinds of a websocket's frames
# So that it begins sooner: it makes no processes in advance, and looks for nothing on a network.
CHOICES = {"dom.ipc.processPrelaunch.enabled": False, "browser.newtab.preload": False, "browser.startup.page": 0, "extensions.enabledScopes": 0, "gfx.webrender.software": True,
           "datareporting.policy.dataSubmissionEnabled": False, "network.captive-portal-service.enabled": False, "network.connectivity-service.enabled": False}


class WebSocket:
    """Messages of text to a server on this machine, and from it (RFC 6455)."""

    def __init__(self, port, path, seconds=120):
        self.socket = socket.create_connection(("127.0.0.1", port), seconds)
        self.heard = self.socket.makefile("rb")
        key = base64.b64encode(os.urandom(16)).decode()
        words = [f"GET {path} HTTP/1.1", f"Host: 127.0.0.1:{port}", "Upgrade: websocket", "Connection: Upgrade", f"Sec-WebSocket-Key: {key}", "Sec-WebSocket-Version: 13", "", ""]
        self.socket.sendall("\r\n".join(words).encode())
        status = self.heard.readline()
        if status.split()[1:2] != [b"101"]:
            raise RuntimeError(f"no websocket: {status.decode(errors='replace')}")
        while self.heard.readline().strip():
            pass

    def send(self, text):
        """One frame. A client masks what it sends."""
        data, mask = text.encode(), os.urandom(4)
        size = len(data)
        length = bytes([128 | size]) if size < 126 else b"\xfe" + size.to_bytes(2, "big") if size < 1 << 16 else b"\xff" + size.to_bytes(8, "big")
        self.socket.sendall(bytes([128 | TEXT]) + length + mask + bytes(it ^ mask[k % 4] for k, it in enumerate(data)))

    def receive(self):
        """The next message. It may come in several frames; what comes between messages is left out."""
        data = b""
        while True:
            head, size = self.exactly(2)
            size = int.from_bytes(self.exactly({126: 2, 127: 8}[size]), "big") if size > 125 else size
            part, kind = self.exactly(size), head & 15
            if kind == CLOSE:
                raise RuntimeError(f"{NAME} ended")
            if kind < CLOSE:
                data += part
                if head & 128:
                    return data.decode()

    def exactly(self, size):
        data = self.heard.read(size)
        if len(data) < size:
            raise RuntimeError(f"{NAME} ended")
        return data

    def close(self):
        self.heard.close()
        self.socket.close()


class Firefox(Window):
    """A window of one page. It keeps what the console has of errors, and which addresses were asked for."""

    WORKER = "DOM Worker"

    def __init__(self):
        super().__init__()
        self.folder = tempfile.TemporaryDirectory(ignore_cleanup_errors=True)
        with open(f"{self.folder.name}/user.js", "w", encoding="utf-8") as it:
            it.writelines(f"user_pref({json.dumps(name)}, {json.dumps(value)});\n" for name, value in CHOICES.items())
        words = [NAME, "--headless", "--no-remote", "--profile", self.folder.name, "--remote-debugging-port", "0", "about:blank"]
        self.process = subprocess.Popen(words, stdin=subprocess.DEVNULL, stdout=subprocess.DEVNULL, stderr=subprocess.DEVNULL, env=os.environ | {"HOME": self.folder.name})
        self.count, self.socket = 0, WebSocket(self.port(), "/session")
        self.tell("session.new", capabilities={})
        self.tell("session.subscribe", events=["log.entryAdded", "network.beforeRequestSent"])
        self.context = self.tell("browsingContext.getTree")["contexts"][0]["context"]

    def port(self, seconds=60):
        """The port that Firefox listens on. It writes the number into its folder."""
        end = time.monotonic() + seconds
        while time.monotonic() < end and self.process.poll() is None:
            try:
                with open(f"{self.folder.name}/WebDriverBiDiServer.json", encoding="utf-8") as it:
                    return json.load(it)["ws_port"]
            except (FileNotFoundError, ValueError):    # it is not there yet, or not whole
                time.sleep(.05)
        raise RuntimeError(f"{NAME} does not listen")

    def tell(self, method, **params):
        self.count += 1
        self.socket.send(json.dumps({"id": self.count, "method": method, "params": params}))
        while True:
            answer = json.loads(self.socket.receive())
            self.note(answer)
            if answer.get("id") == self.count:
                if answer["type"] == "error":
                    raise RuntimeError(f"{method}: {answer['error']}: {answer['message'][:600]}")
                return answer["result"]

    def note(self, message):
        """Keeps what the console has of errors, and what was asked of a network or a disk."""
        method, params = message.get("method"), message.get("params", {})
        if method == "log.entryAdded" and (params["level"] == "error" or params["type"] == "console" and params["level"] == "warn"):
            self.errors.append(json.dumps(params)[:400])
        if method == "network.beforeRequestSent":
            self.asked.append(params["request"]["url"])

    def go(self, url):
        self.tell("browsingContext.navigate", context=self.context, url=url, wait="complete")

    def size(self, width, height=900):
        self.tell("browsingContext.setViewport", context=self.context, viewport={"width": width, "height": height})

    def value(self, expression):
        """What an expression gives, or what a promise that it gives comes to."""
        told = self.tell("script.evaluate", expression=f"Promise.resolve(({expression})).then(it => JSON.stringify(it))", target={"context": self.context}, awaitPromise=True)
        if told["type"] == "exception":
            raise RuntimeError(f"{expression[:200]}: {json.dumps(told['exceptionDetails'])[:600]}")
        return json.loads(told["result"].get("value", "null"))

    def act(self, kind, steps, **more):
        self.tell("input.performActions", context=self.context, actions=[{"type": kind, "id": kind, "actions": steps, **more}])

    def click(self, selector, turn=0.5):
        """The mouse on an element, so far along it."""
        x, y = (round(it) for it in self.place_of(selector, turn))
        self.act("pointer", [{"type": "pointerMove", "x": x, "y": y}, {"type": "pointerDown", "button": 0}, {"type": "pointerUp", "button": 0}], parameters={"pointerType": "mouse"})

    def press(self, key):
        """A key, as `Control+Enter`, `Alt+1`, `a`."""
        keys = [KEYS.get(it, it) for it in (key.split("+") if len(key) > 1 else [key])]
        self.act("key", [{"type": "keyDown", "value": it} for it in keys] + [{"type": "keyUp", "value": it} for it in reversed(keys)])

    def insert(self, text):
        """Text, key by key."""
        keys = text.replace("\n", KEYS["Enter"])
        self.act("key", [{"type": kind, "value": it} for it in keys for kind in ("keyDown", "keyUp")])

    def end(self):
        try:
            self.tell("browser.close")
            self.process.wait(30)
        except (OSError, RuntimeError, subprocess.TimeoutExpired):
            self.process.kill()
            self.process.wait()
        self.socket.close()
