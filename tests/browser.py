"""A browser without a window, driven as a user would: pages are opened, keys pressed, places clicked, and what is seen is read.

It is Chromium, by its DevTools protocol over two pipes (`--remote-debugging-pipe`): a message is JSON with a zero byte behind it, from
file 3 of the browser to file 4. So there is no port, no WebSocket and nothing to install but Debian's package chromium.
Keys and clicks are events of the browser's own input, which takes the focus and what lies on top into account as for a user.
"""
import fcntl
import json
import os
import select
import shutil
import signal
import time

NAMES = ("chromium", "chromium-browser", "google-chrome", "chrome")
WORDS = (
    "--headless=new",
    "--no-sandbox",
    "--disable-gpu",
    "--disable-dev-shm-usage",
    "--disable-background-networking",
    "--no-first-run",
    "--remote-debugging-pipe",
    "--window-size=1280,900",
)
SECONDS = 60
KEYS = {  # the code and the number of a key
    "ArrowLeft": ("ArrowLeft", 37),
    "ArrowRight": ("ArrowRight", 39),
    "PageUp": ("PageUp", 33),
    "PageDown": ("PageDown", 34),
    "Home": ("Home", 36),
    "End": ("End", 35),
    "Tab": ("Tab", 9),
    "Enter": ("Enter", 13),
    " ": ("Space", 32),
}


class Failed(Exception):
    """The browser does not do what it is told to."""


def found():
    """Returns the path of a browser: what the variable CHROMIUM names, or the first one there is; None where there is none."""
    return next((path for path in map(shutil.which, [os.environ.get("CHROMIUM") or "", *NAMES]) if path), None)


class Browser:
    """A browser that runs until it is closed."""

    def __init__(self, path, folder):
        """Starts the browser of a path, with its own files in a folder."""
        given, self.to = os.pipe()
        self.of, told = os.pipe()
        ends = [fcntl.fcntl(end, fcntl.F_DUPFD, 16) for end in (given, told)]  # above 3 and 4
        nothing = [(os.POSIX_SPAWN_OPEN, 0, os.devnull, os.O_RDONLY, 0), (os.POSIX_SPAWN_OPEN, 1, os.devnull, os.O_WRONLY, 0)]
        nothing.append((os.POSIX_SPAWN_OPEN, 2, f"{folder}/complaints", os.O_WRONLY | os.O_CREAT, 0o600))
        pipes = [(os.POSIX_SPAWN_DUP2, ends[0], 3), (os.POSIX_SPAWN_DUP2, ends[1], 4)]
        pipes += [(os.POSIX_SPAWN_CLOSE, end) for end in ends]
        words = [path, *WORDS, f"--user-data-dir={folder}/profile", "about:blank"]
        self.process = os.posix_spawn(path, words, os.environ, file_actions=[*nothing, *pipes], setpgroup=0)
        for end in (given, told, *ends):
            os.close(end)
        self.number, self.text, self.events = 0, b"", []

    def __enter__(self):
        return self

    def __exit__(self, *_):
        """Ends the browser and its own processes."""
        os.killpg(self.process, signal.SIGKILL)
        os.waitpid(self.process, 0)
        os.close(self.to)
        os.close(self.of)

    def call(self, method, session=None, **given):
        """Calls a method of the protocol, and returns what it gives."""
        self.number += 1
        message = {"id": self.number, "method": method, "params": given, **({"sessionId": session} if session else {})}
        text = json.dumps(message).encode() + b"\0"
        while text:
            text = text[os.write(self.to, text) :]
        while True:
            message = self.message(method)
            if message.get("id") == self.number:
                if "error" in message:
                    raise Failed(f"{method}: {message['error']['message']}")
                return message["result"]
            self.events.append(message)

    def message(self, method):
        """Returns the next message of the browser."""
        last = time.monotonic() + SECONDS
        while b"\0" not in self.text:
            ready, _, _ = select.select([self.of], [], [], max(0, last - time.monotonic()))
            part = os.read(self.of, 2**16) if ready else b""
            if not part:
                raise Failed(f"{method}: the browser says nothing any more")
            self.text += part
        text, _, self.text = self.text.partition(b"\0")
        return json.loads(text)

    def waits_for(self, session, event):
        """Waits for an event of a page."""
        while not any(it.get("method") == event and it.get("sessionId") == session for it in self.events):
            self.events.append(self.message(event))

    def page(self, address, **form):
        return Page(self, address, **form)


class Page:
    """A page that is open. `problems` has its errors, and what it wanted to load."""

    def __init__(self, browser, address, width=1280, height=900, dark=False):
        self.browser = browser
        target = browser.call("Target.createTarget", url="about:blank")["targetId"]
        self.session = browser.call("Target.attachToTarget", targetId=target, flatten=True)["sessionId"]
        for domain in ("Page", "Runtime", "Log", "Network"):
            self.call(f"{domain}.enable")
        self.call("Emulation.setDeviceMetricsOverride", width=width, height=height, deviceScaleFactor=1, mobile=width < 600)
        scheme = {"name": "prefers-color-scheme", "value": "dark" if dark else "light"}
        self.call("Emulation.setEmulatedMedia", features=[scheme])
        self.address = address
        start = time.monotonic()
        self.call("Page.navigate", url=address)
        browser.waits_for(self.session, "Page.loadEventFired")
        self.seconds = time.monotonic() - start

    def call(self, method, **given):
        return self.browser.call(method, self.session, **given)

    def read(self, expression):
        """Returns the value of an expression of the page's script."""
        given = {"expression": expression, "returnByValue": True, "awaitPromise": True}
        found = self.call("Runtime.evaluate", **given)
        if "exceptionDetails" in found:
            raise Failed(f"{expression}: {found['exceptionDetails'].get('exception', {}).get('description', found)}")
        return found["result"].get("value")

    def text(self, selector):
        return self.read(f"document.querySelector({json.dumps(selector)}).textContent")

    def texts(self, selector):
        return self.read(f"[...document.querySelectorAll({json.dumps(selector)})].map((it) => it.textContent)")

    def count(self, selector):
        return self.read(f"document.querySelectorAll({json.dumps(selector)}).length")

    def press(self, *keys):
        """Presses keys, one after another: a name of KEYS or a letter."""
        for key in keys:
            code, number = KEYS[key] if key in KEYS else (f"Key{key.upper()}", ord(key.upper()))
            written = {"text": key} if len(key) == 1 else {}
            event = {"key": key, "code": code, "windowsVirtualKeyCode": number}
            self.call("Input.dispatchKeyEvent", type="keyDown" if written else "rawKeyDown", **event, **written)
            self.call("Input.dispatchKeyEvent", type="keyUp", **event)

    def click(self, selector):
        """Clicks in the middle of what a selector finds, where it is seen."""
        point = self.read(
            f"""(() => {{
              const it = document.querySelector({json.dumps(selector)});
              it.scrollIntoView({{ block: "center", inline: "center", behavior: "instant" }});
              const box = it.getBoundingClientRect();
              return [box.x + box.width / 2, box.y + box.height / 2];
            }})()"""
        )
        event = {"x": point[0], "y": point[1], "button": "left", "clickCount": 1}
        self.call("Input.dispatchMouseEvent", type="mouseMoved", x=point[0], y=point[1])
        self.call("Input.dispatchMouseEvent", type="mousePressed", **event)
        self.call("Input.dispatchMouseEvent", type="mouseReleased", **event)

    def choose(self, selector, value):
        """Gives a control a value, as a user does who moves or opens it."""
        self.read(
            f"""(() => {{
              const it = document.querySelector({json.dumps(selector)});
              it.value = {json.dumps(str(value))};
              it.dispatchEvent(new Event("input", {{ bubbles: true }}));
              it.dispatchEvent(new Event("change", {{ bubbles: true }}));
            }})()"""
        )

    def picture(self):
        """Returns what is seen, as the text of a PNG in base 64."""
        return self.call("Page.captureScreenshot", format="png")["data"]

    def problems(self):
        """Returns the errors of the page, and each address besides its own that it wanted to load."""
        wrong = []
        for it in self.browser.events:
            if it.get("sessionId") == self.session:
                given = it.get("params", {})
                if it["method"] == "Runtime.exceptionThrown":
                    wrong.append(given["exceptionDetails"].get("exception", {}).get("description", "an exception"))
                if it["method"] == "Log.entryAdded" and given["entry"]["level"] == "error":
                    wrong.append(given["entry"]["text"])
                if it["method"] == "Network.requestWillBeSent" and not given["request"]["url"].startswith((self.address, "data:", "about:")):
                    wrong.append(f"it loads {given['request']['url']}")
        return wrong
