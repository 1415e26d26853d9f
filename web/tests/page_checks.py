"""The page as a user uses it."""
import functools
import http.client
import http.server
import os
import subprocess
import sys
import tempfile
from typing import Any
import threading
import time

from checks.lib.report import check
from checks.lib.tools import write
from web.tests.module_checks import WEB
from web.tests.page import Page, Requests, Served, serve
from web.tests.values import SOME_BYTES, reference, vectors

MIB = 1 << 20


def labels(page):
    """Every control has a name, and the name of a control of a file has the file's name."""
    page.choose(*(page.file(f"{number}.bin", b"") for number in range(4)))
    page.digests("3.bin")
    nameless = page.browser.run(
        """return [...document.querySelectorAll(".card button")].filter((it) => !it.hidden && it.checkVisibility())
        .filter((it) => !(it.ariaLabel || "").includes(it.closest(".card").querySelector(".name").textContent)).map((it) => it.outerHTML)"""
    )
    check(not nameless, str(nameless))
    lacking = page.browser.run(
        """return [...document.querySelectorAll("input, textarea, button, progress")]
        .filter((it) => !(it.labels?.length || it.ariaLabel || it.textContent.trim())).map((it) => it.outerHTML)"""
    )
    check(not lacking, str(lacking))


def text(page):
    page.set_key("1234")
    page.browser.type("#text", "some bytes")
    check(page.digests("Text") == SOME_BYTES, page.card("Text"))
    page.browser.fill("#text", "")
    page.browser.run("document.getElementById('text').dispatchEvent(new Event('input', { bubbles: true }))")
    page.browser.wait("return !document.querySelector('.card')")


def large_file(page):
    block = bytes((i * 167 + (i >> 8) * 13 + (i >> 16)) % 256 for i in range(MIB))
    path = page.file("hundred.bin", b"".join(bytes([i]) + block for i in range(100)))
    page.set_key()
    page.choose(path)
    check("/web/reader_worker.js" in Requests.asked, "no other thread reads")
    check(page.digests("hundred.bin") == reference(path), page.card("hundred.bin"))
    check(
        page.browser.run("return document.getElementById('status').textContent") == "hundred.bin: done",
        "nothing is said",
    )
    return page.card("hundred.bin")["message"]


def small_files(page):
    names = [f"{length}.bin" for length in (0, 1, 3, 16, 240, 241, 1000, 4 * MIB, 4 * MIB + 1)]
    paths = [page.file(name, bytes(i % 251 for i in range(int(name[:-4])))) for name in names]
    page.choose(*paths)
    for name, path in zip(names, paths):
        check(page.digests(name) == reference(path), f"{name}: {page.card(name)}")
    return f"{len(names)} files"


def seed_and_secret(page):
    found = list(vectors((100, 1000, 5000)))
    tried = found[:: max(1, len(found) // 12)]
    for number, vector in enumerate(tried):
        page.set_key("" if vector.seed is None else hex(vector.seed), vector.secret.hex(" "))
        page.choose(page.file(f"vector{number}.bin", vector.input))
        digest = page.digests(f"vector{number}.bin")[vector.algorithm]
        check(int(digest, 16) == vector.value, f"{vector}: {digest}")
    check(len(tried) >= 10, "too few vectors")
    return f"{len(tried)} vectors of the reference library"


def wide_seed(page):
    page.set_key(hex(2**32))
    page.choose(page.file("wide.bin", b"abc"))
    digests = page.digests("wide.bin")
    check(digests["xxh32"].startswith("none"), digests["xxh32"])
    check(len(digests["xxh64"]) == 16, digests["xxh64"])


def wrong_seed(page):
    page.set_key("12x")
    page.choose(page.file("seed.bin", b"some bytes"))
    page.browser.wait("return document.getElementById('seed-error').textContent")
    card, error = page.card("seed.bin"), page.error_of("seed")
    check("18446744073709551615" in error[0] and error[1] == "true", error)
    check(not card["digests"] and not card["isRunning"], card)
    page.set_key(str(2**64))
    page.browser.wait("return document.getElementById('seed').getAttribute('aria-invalid') === 'true'")
    page.set_key("1234")
    check(page.digests("seed.bin") == SOME_BYTES, "the file isn't hashed once the seed is right")


def wrong_secret(page):
    for secret, form, message in (
        ("ab" * 135, "hex", "135 bytes"),
        ("short", "text", "5 bytes"),
        ("abc", "hex", "3 hexadecimal digits"),
        ("xy", "hex", '"x" is not a hexadecimal digit'),
    ):
        page.set_key("", secret, form)
        page.browser.wait(
            "return document.getElementById('secret-error').textContent.includes(arguments[0])", message, seconds=10
        )
        check(page.error_of("secret")[1] == "true", "aria-invalid isn't set")
    page.set_key("", "short", "text")
    page.browser.type("#text", "some bytes")
    page.browser.wait(
        "return document.getElementById('text-error').textContent === 'Not hashed: the secret is invalid.'"
    )
    card = page.card("Text")
    check(card["message"] == "Waiting: the secret is invalid" and not card["digests"], card)
    page.set_key("", "\u00e9" * 68, "text")
    page.browser.wait("return document.getElementById('secret').getAttribute('aria-invalid') === 'false'")
    page.digests("Text")
    check(page.text_of("#text-error") == "", page.text_of("#text-error"))


def stop_and_start(page):
    page.set_key()
    path = page.file("sparse.bin", b"zeros after this", 1500 * MIB)
    page.choose(path)
    page.wait_for("sparse.bin", "card.isRunning && card.message.includes(' of ')")
    page.browser.click(".act")
    card = page.wait_for("sparse.bin", "card.button === 'Start again'")
    check(card["message"] == "Stopped. There is no digest." and not card["digests"], card)
    page.browser.click(".act")
    check(page.digests("sparse.bin", 300) == reference(path), "other digests after a start again")
    os.remove(path)
    return "1,500 MiB"


def stop_all(page):
    """One file runs and one waits: neither has a digest afterwards."""
    paths = [page.file(name, b"x", 1500 * MIB) for name in ("first.bin", "second.bin")]
    page.choose(*paths)
    page.wait_for("first.bin", "card.isRunning && card.message.includes(' of ')")
    page.browser.click("#stop-all")
    for name, path in zip(("first.bin", "second.bin"), paths):
        card = page.wait_for(name, "card.button === 'Start again'")
        check(card["message"] == "Stopped. There is no digest." and not card["digests"], card)
        os.remove(path)


def dropped(page):
    page.set_key("1234")
    page.browser.run(
        """const carried = new DataTransfer();
        carried.items.add(new File(["some bytes"], "dropped.txt"));
        document.body.dispatchEvent(new DragEvent("drop", { bubbles: true, cancelable: true, dataTransfer: carried }));"""
    )
    check(page.digests("dropped.txt") == SOME_BYTES, page.card("dropped.txt"))


def alive(page):
    """The longest time between two turns of the page's own thread while a file is hashed."""
    page.browser.run(
        """window.gap = 0; let last = performance.now();
        window.turns = setInterval(() => { const now = performance.now(); window.gap = Math.max(window.gap, now - last); last = now; }, 10);"""
    )
    path = page.file("alive.bin", b"x", 400 * MIB)
    page.choose(path)
    page.digests("alive.bin")
    gap = page.browser.run("clearInterval(window.turns); return window.gap;")
    os.remove(path)
    check(gap < 1000, f"{gap:.0f} ms")
    return f"the longest wait was {gap:.0f} ms"


def vanished(page):
    """Files wait for a valid seed; meanwhile one vanishes and another changes. The last one is hashed."""
    page.set_key("wrong")
    gone, changed, stored = (page.file(name, b"some bytes") for name in ("gone.bin", "changed.bin", "kept.bin"))
    page.choose(gone, changed, stored)
    page.wait_for("kept.bin", "true")
    os.remove(gone)
    with open(changed, "ab") as file:
        file.write(b" and more")
    os.utime(changed, (0, 0))
    page.set_key("1234")
    check(page.digests("kept.bin") == SOME_BYTES, "the next file isn't hashed")
    for name in ("gone.bin", "changed.bin"):
        card = page.wait_for(name, "card.failed")
        check("can't be read" in card["message"] and not card["digests"] and card["button"] == "Start again", card)


def vanished_while_hashed(page):
    page.set_key()
    path, after = page.file("going.bin", b"x", 3000 * MIB), page.file("after.bin", b"some bytes")
    page.choose(path, after)
    page.wait_for("going.bin", "card.isRunning && card.message.includes(' of ')")
    os.remove(path)
    card = page.wait_for("going.bin", "card.failed")
    check("can't be read" in card["message"] and not card["digests"], card)
    check(page.digests("after.bin") == reference(after), "the next file isn't hashed")


def focused(page):
    return page.browser.run(
        "const it = document.activeElement; return it.id || it.ariaLabel || it.textContent.trim() || it.tagName"
    )


def keyboard(page):
    """Only by Tab, from the top: every control in the order of the page, the key opened, a digest copied."""
    page.browser.devtools(
        "Browser.grantPermissions",
        permissions=["clipboardReadWrite", "clipboardSanitizedWrite"],
        origin=page.address.split("/web")[0],
    )
    seen = []
    for _ in range(5):
        page.browser.press("Tab")
        seen.append(focused(page))
    check(seen == ["files", "folder", "text", "expected", "Seed and secret"], seen)
    page.browser.press("Enter", "Tab")
    check(focused(page) == "seed", focused(page))
    page.browser.type("#seed", "1234")
    page.browser.run("document.getElementById('text').focus()")
    page.browser.type("#text", "some bytes")
    page.digests("Text")
    for _ in range(30):
        page.browser.press("Tab")
        if focused(page).startswith("Copy XXH64"):
            break
    check(focused(page) == "Copy XXH64 of Text", focused(page))
    check(
        page.browser.run("return getComputedStyle(document.activeElement).outlineStyle") == "solid", "no focus is shown"
    )
    page.browser.press("Enter")
    page.browser.wait("return document.getElementById('status').textContent === 'XXH64 copied'", seconds=10)
    check(page.browser.run("return navigator.clipboard.readText()") == SOME_BYTES["xxh64"], "another text was copied")


def clear(page):
    page.choose(page.file("one.bin", b"1"))
    page.digests("one.bin")
    page.browser.click("#clear")
    page.browser.wait("return !document.querySelector('.card') && document.getElementById('results').hidden", seconds=5)
    check(focused(page) == "files", "the focus is lost")


STALE = "Hashed with another seed or secret. Hash again to use this one."
NO_VERDICT = "return document.querySelector('.card .verdicts').textContent === ''"


def again(page):
    """With another seed the card's digests are hidden, and nothing is compared with them, until they are computed
    again. With the first seed they are shown without that."""
    page.set_key()
    page.choose(page.file("again.bin", b"some bytes"))
    first = page.digests("again.bin")
    page.set_field("expected", SOME_BYTES["xxh64"])
    page.browser.wait(
        "return document.getElementById('verdict').textContent === 'Different: no digest of again.bin is this one.'",
        seconds=5,
    )
    for seed, secret in (("1234", ""), ("", "ab" * 136), ("12x", "")):
        page.set_key(seed, secret)
        card = page.wait_for("again.bin", "!('xxh64' in card.digests)")
        check(card["message"] == STALE and card["button"] == "Hash again", card)
        page.browser.wait(NO_VERDICT, seconds=5)
        page.browser.wait(
            "return document.getElementById('verdict').textContent === 'Hash again to compare it: the digests are of another seed or secret.'",
            seconds=5,
        )
    page.set_key()
    page.wait_for("again.bin", "'xxh64' in card.digests")
    check(page.digests("again.bin") == first, page.card("again.bin"))
    page.set_key("1234")
    page.wait_for("again.bin", "!('xxh64' in card.digests)")
    page.browser.click("#again")
    page.wait_for("again.bin", "card.message.includes('seed 1234') && 'xxh64' in card.digests")
    check(page.digests("again.bin") == SOME_BYTES, page.card("again.bin"))
    page.browser.wait(
        "return document.getElementById('verdict').textContent === 'Same: XXH64 of again.bin.'", seconds=5
    )


def changed_while_hashed(page):
    """A file that is hashed while the seed changes has no digest to compare, and no expected digest is found."""
    page.set_key()
    path = page.file("slow.bin", b"x", 1500 * MIB)
    page.set_field("expected", "ab" * 8)
    page.choose(path)
    page.wait_for("slow.bin", "card.isRunning && card.message.includes(' of ')")
    page.set_key("1234")
    card = page.wait_for("slow.bin", "!card.isRunning", 300)
    os.remove(path)
    check(card["message"] == STALE and not card["digests"], card)
    page.browser.wait(NO_VERDICT, seconds=5)


# The service worker requests the page's files by itself.
KEEPING = ("/web/offline.js", "/web/page_files.json")


def no_network(page):
    stored(page)
    before = len(Requests.asked)
    page.choose(page.file("quiet.bin", b"1" * 20 * MIB))
    page.digests("quiet.bin")
    asked = [path for path in Requests.asked[before:] if path not in KEEPING]
    check(not asked, asked)


def stored(page):
    """Waits until the page's files are cached."""
    page.browser.wait("return (await navigator.serviceWorker.ready).active?.state === 'activated'", seconds=30)


def offline(page):
    """After the page was loaded once, it works without its server."""
    with Served(Requests.bundles) as address:
        there = Page(page.browser, f"{address}/web/", page.workdir)
        there.open()
        stored(there)
    there.open()
    there.set_key("1234")
    there.browser.type("#text", "some bytes")
    check(there.digests("Text") == SOME_BYTES, there.card("Text"))


def no_space_to_store(page):
    """If a newer file can't be cached for lack of space, the page gets it from the network."""
    with Served(Requests.bundles) as address:
        there = Page(page.browser, f"{address}/web/", page.workdir)
        there.open()
        stored(there)
        fresh = "return (await fetch('text.js')).text()"
        check("fresh" not in there.browser.run(fresh), "the file is changed already")
        there.browser.devtools("Storage.overrideQuotaForOrigin", origin=address, quotaSize=1)
        Requests.changed = ("/web/text.js", b"// fresh\n" + b"/" * MIB)
        try:
            message = there.browser.run(fresh)
        finally:
            Requests.changed = ("", b"")
            there.browser.devtools("Storage.overrideQuotaForOrigin", origin=address)
    check(message.startswith("// fresh"), message[:60])
    return f"{len(message)} characters"


def one_folder(page):
    """The page as one folder, on a server that knows nothing of it, under another path."""
    with tempfile.TemporaryDirectory(prefix="twox-folder-") as workdir:
        folder = os.path.join(workdir, "some", "where")
        ran = subprocess.run([os.path.join(WEB, "folder"), folder], capture_output=True, text=True)
        check(ran.returncode == 0, ran.stderr)
        for wrong, why in (
            (folder, f"{folder} is there, and isn't an empty folder"),
            (os.path.join(folder, "page.js", "below"), f"{folder}/page.js/below: Not a directory"),
        ):
            again = subprocess.run([os.path.join(WEB, "folder"), wrong], capture_output=True, text=True)
            check(again.returncode == 1 and again.stderr == f"web/folder: {why}\n", again.stderr)
        with http.server.ThreadingHTTPServer(("127.0.0.1", 0), functools.partial(Quiet, directory=workdir)) as serving:
            threading.Thread(target=serving.serve_forever, daemon=True).start()
            there = Page(page.browser, f"http://127.0.0.1:{serving.server_address[1]}/some/where/", page.workdir)
            there.open()
            there.browser.type("#text", "some bytes")
            there.digests("Text")
            stored(there)
            links(there)
            serving.shutdown()
    return ran.stdout.split(": ")[-1].strip()


class Quiet(http.server.SimpleHTTPRequestHandler):
    def log_message(self, *_):
        pass


def links(page):
    wrong = page.browser.run(
        """const found = await Promise.all([...document.links].map(async (it) => [it.href, (await fetch(it.href)).status]));
        return found.filter(([, status]) => status !== 200)"""
    )
    check(not wrong, str(wrong))


# For each visible field and button, the contrast of its border with the colors on both sides, by WCAG's formula.
CONTRASTS = """const luminance = (color) => color.match(/[0-9.]+/g).slice(0, 3).map((it) => it / 255)
    .map((it) => (it <= 0.04045 ? it / 12.92 : ((it + 0.055) / 1.055) ** 2.4)).reduce((sum, it, i) => sum + it * [0.2126, 0.7152, 0.0722][i], 0);
const contrast = (...colors) => { const [low, high] = colors.map(luminance).sort((a, b) => a - b); return (high + 0.05) / (low + 0.05); };
const ground = (it) => { const color = getComputedStyle(it).backgroundColor; return color.endsWith(", 0)") ? ground(it.parentElement) : color; };
document.getElementById("key").open = true;
return [...document.querySelectorAll("textarea, input:not([type]), select, button")].filter((it) => it.checkVisibility())
    .flatMap((it) => [it, it.parentElement].map((side) => [it.id || it.textContent, contrast(getComputedStyle(it).borderTopColor, ground(side))]));"""


def schemes(page):
    """Light and dark, with visible borders of fields and buttons in both."""
    page.choose(*(page.file(f"{number}.bin", b"") for number in range(4)))
    page.digests("3.bin")
    grounds, lowest = set(), []
    for scheme in ("light", "dark"):
        page.browser.devtools(
            "Emulation.setEmulatedMedia", features=[{"name": "prefers-color-scheme", "value": scheme}]
        )
        grounds.add(page.browser.run("return getComputedStyle(document.documentElement).backgroundColor"))
        time.sleep(0.5)  # until borders have changed
        lowest.append(min(page.browser.run(CONTRASTS), key=lambda it: it[1]))
    page.browser.devtools("Emulation.setEmulatedMedia", features=[{"name": "prefers-color-scheme", "value": "light"}])
    check(len(grounds) == 2, grounds)
    check(all(contrast >= 3 for _, contrast in lowest), lowest)
    return f"the lowest contrasts: {', '.join(f'{contrast:.2f}' for _, contrast in lowest)}"


class Lacking:
    """The page while the `with` lasts with a line before its worker that disables something, or without a file."""

    def __init__(self, page, line=b"", withheld=None):
        self.page, self.line, self.withheld = page, line, withheld

    def __enter__(self):
        Requests.before_worker, Requests.withheld = self.line, self.withheld
        self.page.open()

    def __exit__(self, *_):
        Requests.before_worker, Requests.withheld = b"", None


def which_module(page):
    """The message about the module in use, with vectors and without: and both hash."""
    message = page.text_of("#module")
    check(message.startswith("The fast module is in use"), message)
    with Lacking(page, b"WebAssembly.validate = () => false;\n"):
        plain = page.text_of("#module")
        page.set_key("1234")
        page.browser.type("#text", "some bytes")
        check(page.digests("Text") == SOME_BYTES, page.card("Text"))
    check(plain.startswith("The plain module is in use"), plain)


def reads_by_itself(page):
    """A file of several chunks if the hashing thread has no reader thread, and if that one can't be loaded."""
    path = page.file("pieces.bin", bytes(i % 251 for i in range(MIB)), 20 * MIB)
    lacks: list[dict[str, Any]] = [{"line": b"delete globalThis.Worker;\n"}, {"withheld": "/web/reader_worker.js"}]
    for lack in lacks:
        with Lacking(page, **lack):
            page.choose(path)
            check(page.digests("pieces.bin") == reference(path), (lack, page.card("pieces.bin")))


def no_webassembly(page):
    with Lacking(page, b"delete globalThis.WebAssembly;\n"):
        shown = page.browser.run(
            "const it = document.getElementById('unsupported'); return [it.hidden, it.textContent, document.getElementById('files').disabled]"
        )
    check(shown[0] is False and "WebAssembly is not available here" in shown[1] and shown[2] is True, shown)


# Files of a tree that serve.py serves, files that it doesn't, and names that are no file or elsewhere.
PUBLIC = "web/index.html docs/C.md docs/api/x crates/x/src/lib.rt README.md LICENSE oracle/vectors.txt".split()
PRIVATE = "README.md.orig docs.bak/x web-old/x LICENSE2 oracle/vectors.txt~ oracle/check .git/config".split()
NO_FILES = "README.md/x web/outside web/../.git/config docs/%2e%2e/.git/config".split()


def served_and_no_more(folder: str) -> None:
    """Without a browser: from a tree of its own, serve.py serves the listed files, and none with the same beginning
    or elsewhere."""
    top, before = os.path.join(folder, "served"), serve.TOP
    for name in PUBLIC + PRIVATE:
        write(os.path.join(top, name), name)
    os.symlink("../.git/config", os.path.join(top, "web", "outside"))
    serve.TOP = os.path.realpath(top)
    try:
        with Served(None, serve.Handler) as address:
            served = [name for name in PUBLIC + PRIVATE + NO_FILES if status_of(address, name) == 200]
            wrong = sorted({*served} ^ {*PUBLIC})
            wrong += [name for name in ("web/", "docs/", "web") if status_of(address, name) not in (200, 301)]
    finally:
        serve.TOP = before
    check(not wrong, str(wrong))


def wrong_ports_are_refused() -> None:
    """serve.py prints its usage for what is no port."""
    for args in (["65536"], ["99999"], ["\N{SUPERSCRIPT TWO}"], ["-1"], ["port"], ["8000", "8001"]):
        done = subprocess.run([sys.executable, serve.__file__, *args], capture_output=True, text=True, timeout=60)
        check(done.returncode == 1 and done.stderr.startswith("usage: web/serve.py "), f"{args}: {done.stderr[-80:]}")


def status_of(address, name):
    asked = http.client.HTTPConnection(address.removeprefix("http://"))
    asked.request("GET", f"/{name}")
    status = asked.getresponse().status
    asked.close()
    return status


PAGE_CHECKS = {
    "every control has a name": labels,
    "typed text is hashed, with the seed": text,
    "100 MB in pieces, as xxhsum": large_file,
    "files of all ranges of lengths, as xxhsum": small_files,
    "seeds and secrets": seed_and_secret,
    "a seed of more than 32 bits gives no XXH32, and the others": wide_seed,
    "a wrong seed is told, and the file waits for a right one": wrong_seed,
    "a wrong secret is told, as text and as hexadecimal, and beside the text": wrong_secret,
    "stopped there is no digest, and started again the right ones": stop_and_start,
    "stop all": stop_all,
    "a dropped file": dropped,
    "the page stays alive": alive,
    "a file that vanished or changed is told, and the next one hashed": vanished,
    "the same while it is hashed": vanished_while_hashed,
    "the keyboard alone": keyboard,
    "hash again, with another seed": again,
    "another seed while a file is hashed": changed_while_hashed,
    "clear": clear,
    "no request while hashing": no_network,
    "each link leads to a page": links,
    "light and dark": schemes,
    "which module runs is said, and either hashes": which_module,
    "where no other thread reads, the one that hashes does": reads_by_itself,
    "a browser without WebAssembly is told so": no_webassembly,
    "without a network, once it was loaded": offline,
    "a newer file for which there is no room": no_space_to_store,
    "one folder on another host": one_folder,
}

# The checks for each browser.
IN_EACH_BROWSER = {
    labels,
    text,
    small_files,
    seed_and_secret,
    stop_and_start,
    dropped,
    alive,
    again,
    clear,
    which_module,
    reads_by_itself,
    no_webassembly,
    offline,
    one_folder,
}


def take_picture(page: Page) -> str:
    page.open()
    page.set_key("1234")
    page.browser.run("document.getElementById('key').open = false")
    page.browser.type("#text", "some bytes")
    page.digests("Text")
    page.choose(page.file("recording.flac", bytes(i % 251 for i in range(MIB)), 96 * MIB))
    page.digests("recording.flac")
    page.set_field("expected", SOME_BYTES["xxh64"] + "  some.txt")
    page.browser.wait("return document.getElementById('verdict').textContent")
    page.browser.run("document.activeElement.blur(); scrollTo(0, 0)")
    path = write(os.path.join(os.path.dirname(WEB), "docs", "page.png"), page.browser.picture("results"))
    return f"docs/page.png, {os.path.getsize(path)} bytes"
