"""The page in a browser, served from the working tree, with files of the check's own."""
import os
import threading

from checks.lib.report import check
from checks.lib.tools import bytes_of
from web import serve
from web.tests.module_checks import WEB

# The content of a card of the list: its state, its texts and its digests.
CARD = """const item = [...document.querySelectorAll(".card")].find((it) => it.querySelector(".name").textContent === arguments[0]);
if (!item) return null;
const rows = [...item.querySelectorAll(".digest")];
return { message: item.querySelector(".state").textContent, failed: item.classList.contains("failed"),
  button: item.querySelector(".act").hidden ? "" : item.querySelector(".act").textContent,
  isRunning: !item.querySelector("progress").hidden,
  digests: Object.fromEntries(rows.map((row) => [row.dataset.kind, row.querySelector("code").textContent])) };"""


class Requests(serve.Handler):
    """Records requests and serves bundles, and can serve a broken worker, withhold a file, or serve another text in
    its place."""

    asked = []
    before_worker = b""
    withheld = None
    changed = ("", b"")
    bundles = ""

    def do_GET(self):
        Requests.asked.append(self.path)
        name = self.path.removeprefix("/bundles/")
        if self.path == Requests.withheld:
            self.send_error(404)
        elif self.path == Requests.changed[0]:
            self.send_file(os.path.join(WEB, "text.js"), Requests.changed[1] + b"\n")
        elif self.path == "/web/worker.js" and Requests.before_worker:
            self.send_file(os.path.join(WEB, "worker.js"), Requests.before_worker)
        elif name != self.path:
            self.send_file(os.path.join(Requests.bundles, name))
        else:
            super().do_GET()

    def send_file(self, path, before=b""):
        body = before + bytes_of(path)
        self.send_response(200)
        self.send_header("Content-Type", self.guess_type(path))
        self.send_header("Content-Length", str(len(body)))
        self.end_headers()
        self.wfile.write(body)


class Served:
    """The pages of the working tree, served while the `with` lasts."""

    def __init__(self, bundles, handler=Requests):
        Requests.bundles = bundles
        self.handler = handler

    def __enter__(self):
        self.serving = serve.server(0, self.handler)
        threading.Thread(target=self.serving.serve_forever, daemon=True).start()
        return f"http://127.0.0.1:{self.serving.server_address[1]}"

    def __exit__(self, *_):
        self.serving.shutdown()
        self.serving.server_close()


class Page:
    """The page in a browser, with files of its own."""

    def __init__(self, browser, address, workdir):
        self.browser, self.address, self.workdir = browser, address, workdir

    def open(self):
        self.browser.go("about:blank")
        self.browser.go(self.address)
        self.browser.wait(
            "return document.documentElement.hasAttribute('data-ready') || !document.getElementById('unsupported').hidden"
        )

    def file(self, name, content=b"", length=None):
        """Makes a file. With a length it is that long, and zeros after the content take no space."""
        path = os.path.join(self.workdir, name)
        with open(path, "wb") as file:
            file.write(content)
            if length is not None:
                file.truncate(length)
        return path

    def choose(self, *paths):
        self.browser.type("#files", "\n".join(paths))

    def set_key(self, seed="", secret="", form="hex"):
        self.browser.run("document.getElementById('key').open = true")
        self.browser.click(f"[name=form][value={form}]")
        self.set_field("seed", seed)
        self.set_field("secret", secret)

    def card(self, name):
        return self.browser.run(CARD, name)

    def wait_for(self, name, test, seconds=60):
        """The card once `test`, a script over `card`, is true for it."""
        return self.browser.wait(
            f"const card = (() => {{ {CARD} }})(); return card && ({test}) ? card : null;", name, seconds=seconds
        )

    def digests(self, name, seconds=120):
        card = self.wait_for(name, "!card.isRunning && (card.failed || 'xxh64' in card.digests)", seconds)
        check(not card["failed"], card["message"])
        self.browser.run(
            """const item = [...document.querySelectorAll(".card")].find((it) => it.querySelector(".name").textContent === arguments[0]);
            const more = item.querySelector(".more");
            if (!more.hidden && more.ariaExpanded === "false") more.click();""",
            name,
        )
        return self.card(name)["digests"]

    def text_of(self, selector):
        return self.browser.run("return document.querySelector(arguments[0]).textContent", selector)

    def set_field(self, field, text):
        self.browser.run(
            """const it = document.getElementById(arguments[0]); it.value = arguments[1];
            it.dispatchEvent(new Event("input", { bubbles: true }));""",
            field,
            text,
        )

    def error_of(self, field):
        return self.browser.run(
            "return [document.getElementById(arguments[0] + '-error').textContent,"
            "document.getElementById(arguments[0]).getAttribute('aria-invalid')]",
            field,
        )
