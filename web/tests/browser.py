"""Headless browsers, driven over WebDriver by Python's own library: Chromium and WebKit by their drivers, and
Firefox, for which Debian has no driver, by the protocol Marionette, which has the same commands over a socket."""
import base64
import glob
import json
import os
import shutil
import signal
import socket
import subprocess
import tempfile
import time
import urllib.error
import urllib.request
from typing import Optional

from checks.lib.tools import free_port, write

ELEMENT = "element-6066-11e4-a52e-4f735466cecf"
KEYS = {"Tab": "\ue004", "Enter": "\ue007", "Space": " "}
TIMEOUTS = {"script": 300_000, "pageLoad": 60_000}


class Browser:
    """One window. `close` ends everything that was started."""

    name: str

    def __init__(self, width=1000, height=1400):
        self.workdir = tempfile.mkdtemp(prefix="twox-browser-")
        self.port = free_port()
        self.process = None
        try:
            self.start(width, height)
        except BaseException:
            self.close()
            raise

    def start(self, width, height):
        raise NotImplementedError

    def command(self, name, **parameters):
        """Sends a command of the protocol, and returns its result."""
        raise NotImplementedError

    def end_session(self):
        raise NotImplementedError

    def spawn(self, *args, **more):
        none = subprocess.DEVNULL
        self.process = subprocess.Popen(args, start_new_session=True, stdin=none, stdout=none, stderr=none, **more)

    def until(self, attempt, what, errors):
        """The result of the attempt, once there is one."""
        for _ in range(300):
            try:
                return attempt()
            except errors:
                time.sleep(0.1)
        raise RuntimeError(f"{what} didn't start")

    def go(self, url):
        self.command("Navigate", url=url)

    def run(self, script, *arguments):
        """The value of a script, which may be a promise."""
        whole = (
            "const done = arguments[arguments.length - 1]; const given = [...arguments].slice(0, -1);"
            "(async (...arguments) => {" + script + "})(...given)"
            ".then((value) => done({ value }), (error) => done({ error: String(error.stack ?? error) }));"
        )
        answer = self.command("ExecuteAsyncScript", script=whole, args=list(arguments))
        if "error" in answer:
            raise RuntimeError(answer["error"])
        return answer.get("value")

    def find(self, selector):
        return self.command("FindElement", using="css selector", value=selector)[ELEMENT]

    def click(self, selector):
        """Clicks an element once the page shows it."""
        self.wait("return document.querySelector(arguments[0])?.getClientRects().length > 0", selector, seconds=10)
        self.command("ElementClick", id=self.find(selector))

    def type(self, selector, text):
        self.command("ElementSendKeys", id=self.find(selector), text=text)

    def fill(self, selector, text):
        """Puts text into a field, replacing its content."""
        self.command("ElementClear", id=self.find(selector))
        if text:
            self.type(selector, text)

    def press(self, *names):
        """Presses keys, one after another, wherever the focus is."""
        actions = [{"type": action, "value": KEYS[name]} for name in names for action in ("keyDown", "keyUp")]
        self.command("PerformActions", actions=[{"type": "key", "id": "keyboard", "actions": actions}])

    def wait(self, script, *arguments, seconds=60):
        """Waits until the script's value is true, and returns it."""
        end = time.monotonic() + seconds
        while time.monotonic() < end:
            value = self.run(script, *arguments)
            if value:
                return value
            time.sleep(0.05)
        raise RuntimeError(f"waited {seconds} seconds for: {script.strip().splitlines()[-1]}")

    def close(self):
        """Ends the session, and then what was started."""
        try:
            self.end_session()
        except (RuntimeError, OSError):
            pass
        if self.process:
            try:
                os.killpg(self.process.pid, signal.SIGTERM)
                self.process.wait(10)
            except (ProcessLookupError, subprocess.TimeoutExpired):
                self.process.kill()
        shutil.rmtree(self.workdir, ignore_errors=True)


class ByDriver(Browser):
    """A browser that has a program as its driver."""

    # The path of a command, in which {id} is an element's.
    PATHS = {
        "Navigate": "/url",
        "ExecuteAsyncScript": "/execute/async",
        "FindElement": "/element",
        "ElementClick": "/element/{id}/click",
        "ElementSendKeys": "/element/{id}/value",
        "ElementClear": "/element/{id}/clear",
        "PerformActions": "/actions",
    }
    session = None

    def start_driver(self, *args, **more):
        self.spawn(*args, f"--port={self.port}", **more)
        self.until(lambda: self.request("GET", "/status")["ready"], args[0], (urllib.error.URLError, ConnectionError))

    def start_session(self, **expected):
        answer = self.request("POST", "/session", {"capabilities": {"alwaysMatch": {"timeouts": TIMEOUTS, **expected}}})
        self.session, self.version = answer["sessionId"], answer["capabilities"]["browserVersion"]

    def end_session(self):
        if self.session:
            self.request("DELETE", f"/session/{self.session}")

    def request(self, method, path, body=None):
        data = None if body is None else json.dumps(body).encode()
        asked = urllib.request.Request(
            f"http://127.0.0.1:{self.port}{path}", data, method=method, headers={"Content-Type": "application/json"}
        )
        try:
            with urllib.request.urlopen(asked, timeout=330) as answer:
                return json.load(answer)["value"]
        except urllib.error.HTTPError as error:
            raise RuntimeError(json.load(error)["value"]["message"].split("\n")[0]) from None

    def command(self, name, **parameters):
        return self.request("POST", f"/session/{self.session}" + self.PATHS[name].format(**parameters), parameters)


class Chromium(ByDriver):
    """Debian's, by chromedriver."""

    name = "Chromium"

    def start(self, width, height):
        self.start_driver("chromedriver")
        options = [
            "--headless=new",
            f"--user-data-dir={self.workdir}",
            f"--window-size={width},{height}",
            *"--disable-gpu --hide-scrollbars --force-device-scale-factor=1 --no-first-run".split(),
            "--disable-dev-shm-usage",
        ]
        if os.geteuid() == 0:
            options.append("--no-sandbox")
        self.start_session(browserName="chrome", **{"goog:chromeOptions": {"args": options}})

    def devtools(self, name, **parameters):
        return self.request("POST", f"/session/{self.session}/goog/cdp/execute", {"cmd": name, "params": parameters})

    def picture(self, last):
        """The page from the top to the end of the element of that id, as a PNG."""
        width, height = self.run(
            "const { bottom } = document.getElementById(arguments[0]).getBoundingClientRect(); return [innerWidth, bottom + 24]",
            last,
        )
        clip = {"x": 0, "y": 0, "width": width, "height": height, "scale": 1}
        return base64.b64decode(
            self.devtools("Page.captureScreenshot", format="png", captureBeyondViewport=True, clip=clip)["data"]
        )


class WebKit(ByDriver):
    """Debian's WebKitGTK in its small browser, which needs a screen: that of Xvfb."""

    name = "WebKitGTK"
    SCREEN = ["xvfb-run", "--auto-servernum", "--server-args=-screen 0 1000x1400x24"]

    def start(self, *_):
        self.start_driver(
            *self.SCREEN,
            "WebKitWebDriver",
            env={**os.environ, "HOME": self.workdir, "WEBKIT_DISABLE_COMPOSITING_MODE": "1"},
        )
        options = {"binary": mini_browser(), "args": ["--automation"]}
        self.start_session(browserName="MiniBrowser", **{"webkitgtk:browserOptions": options})

    def click(self, selector):
        """By a script on the page: this driver clicks the element's old position if the list has moved since."""
        self.run("document.querySelector(arguments[0]).click()", selector)


def mini_browser() -> Optional[str]:
    """Debian installs it with WebKit's library."""
    found = sorted(glob.glob("/usr/lib/*/webkit2gtk-4.*/MiniBrowser"))
    return found[-1] if found else None


class Firefox(Browser):
    """Debian's, by Marionette."""

    name = "Firefox"
    socket = None

    def start(self, width, height):
        write(os.path.join(self.workdir, "user.js"), f'user_pref("marionette.port", {self.port});\n')
        self.spawn(
            *"firefox-esr --headless --marionette --no-remote --profile".split(),
            self.workdir,
            f"--width={width}",
            f"--height={height}",
            env={**os.environ, "HOME": self.workdir},
        )
        self.socket = self.until(lambda: socket.create_connection(("127.0.0.1", self.port), 330), "Firefox", OSError)
        self.file = self.socket.makefile("rb")
        self.read()  # the server's greeting
        self.number = 0
        self.version = self.command("NewSession", capabilities={"alwaysMatch": {"timeouts": TIMEOUTS}})[
            "browserVersion"
        ]

    def end_session(self):
        if self.socket:
            self.command("DeleteSession")
            self.socket.close()

    def read(self):
        """A message: its length in bytes, a colon, and its bytes."""
        length = b""
        while not length.endswith(b":"):
            byte = self.file.read(1)
            if not byte:
                raise RuntimeError("Firefox has ended")
            length += byte
        return json.loads(self.file.read(int(length[:-1])))

    def command(self, name, **parameters):
        self.number += 1
        message = json.dumps([0, self.number, f"WebDriver:{name}", parameters]).encode()
        self.socket.sendall(b"%d:%s" % (len(message), message))
        _, _, error, answer = self.read()
        if error:
            raise RuntimeError(error["message"].split("\n")[0])
        if name == "NewSession":
            return answer["capabilities"]
        return answer.get("value") if isinstance(answer, dict) else answer
