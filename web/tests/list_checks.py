"""The page with expected digests, with many files, and on a small screen."""
import os
import subprocess
import time

from checks.lib.report import Fault, check
from checks.lib.tools import text_of, write
from web.tests.module_checks import WEB
from web.tests.values import SOME_BYTES, XXHSUM, line_of, reference

ENDINGS = {"xxh32": "xxh32", "xxh64": "xxh64", "xxh3_64": "xxh3", "xxh3_128": "xxh128"}
# The rows of the first checksum file that is shown, and its counts.
ROWS = """const item = document.querySelector(".checklist"); if (!item) return null;
return { rows: [...item.querySelectorAll("ol li")].map((it) => [it.children[0].textContent, it.children[1].textContent]),
    counts: item.querySelector(".counts").textContent, hint: !item.querySelector(".hint").hidden };"""


def written_digests():
    """Every correct way to write a digest, and the name of its hash."""
    short, plain, narrow, wide = (SOME_BYTES[algorithm] for algorithm in ("xxh32", "xxh64", "xxh3_64", "xxh3_128"))
    return [
        (short, "XXH32"),
        (plain.upper(), "XXH64"),
        (narrow, "XXH3, 64 bits"),
        (wide, "XXH3, 128 bits"),
        ("  0x" + plain, "XXH64"),
        (plain + "  some.txt", "XXH64"),
        (wide + " *some.txt", "XXH3, 128 bits"),
        (f"XXH3 (a (b).txt) = {narrow}", "XXH3, 64 bits"),
        ("XXH3_" + narrow + "  x", "XXH3, 64 bits"),
        ("xxh128: " + wide.upper(), "XXH3, 128 bits"),
        ("XXH3, 64 bits " + narrow, "XXH3, 64 bits"),
        (f"XXH64_LE (x) = {bytes.fromhex(plain)[::-1].hex()}", "XXH64"),
    ]


def check_expected(page):
    """Every correct way to write a digest, and the same with its last digit changed."""
    page.set_key("1234")
    page.choose(page.file("some.txt", b"some bytes"))
    page.digests("some.txt")
    for text, name in written_digests():
        page.set_field("expected", text)
        page.browser.wait(
            "return document.getElementById('verdict').textContent === arguments[0]",
            f"Same: {name} of some.txt.",
            seconds=5,
        )
        check(page.text_of(".card .verdicts") == f"Same: {name}", f"{text}: {page.text_of('.card .verdicts')}")
    for digits in SOME_BYTES.values():
        other = digits[:-1] + ("0" if digits[-1] != "0" else "1")
        page.set_field("expected", other)
        page.browser.wait(
            "return document.getElementById('verdict').textContent.startsWith('Different, with seed 1234: no digest of some.txt is this one.')",
            seconds=5,
        )
        check(
            page.text_of(".card .verdicts") == "Different from the expected digest, with seed 1234",
            page.text_of(".card .verdicts"),
        )
    page.set_field("expected", f"XXH64 {SOME_BYTES['xxh3_64']}")
    page.browser.wait("return document.getElementById('verdict').textContent.startsWith('Different')", seconds=5)
    return f"{len(written_digests())} ways to write one"


def no_digest(page):
    for line in ("hello", "582ee33d9ad8c6e", "582ee33d9ad8c6eg", "582ee33d9ad8c6e99"):
        page.set_field("expected", line)
        check(
            "8, 16 or 32" in page.error_of("expected")[0] and page.error_of("expected")[1] == "true",
            page.error_of("expected"),
        )
    page.set_field("expected", "XXH64: " + SOME_BYTES["xxh32"])
    check(
        page.error_of("expected")[0].startswith("A digest of XXH64 doesn't have 8 digits."), page.error_of("expected")
    )
    page.set_field("expected", "")
    check(page.error_of("expected") == ["", "false"] and page.text_of("#verdict") == "", page.error_of("expected"))


def other_digests(page):
    """Digests of other hashes are identified: by their names, by their number of digits, or as possible ones."""
    page.choose(page.file("some.txt", b"some bytes"))
    page.digests("some.txt")
    for name, count in (("SHA-1", 40), ("SHA-224", 56), ("SHA-256", 64), ("SHA-384", 96), ("SHA-512", 128)):
        for line in ("ab" * (count // 2), "CD" * (count // 2) + "  some.txt", f"{'ef' * (count // 2)} *some.txt"):
            page.set_field("expected", line)
            expected = f"{count} digits: this looks like {name}; this page computes only XXH32, XXH64 and XXH3."
            check(page.error_of("expected") == [expected, "true"], page.error_of("expected"))
    for line, name in (
        ("MD5 (some.txt) = " + "ab" * 16, "MD5"),
        ("sha256:" + "ab" * 32, "sha256"),
        ("MD5: " + "ab" * 16, "MD5"),
        ("SHA512 (some.txt) = " + "ab" * 64, "SHA512"),
        ("crc32 1234abcd", "crc32"),
    ):
        page.set_field("expected", line)
        expected = f"This is a digest of {name}; this page computes only XXH32, XXH64 and XXH3."
        check(page.error_of("expected") == [expected, "true"], page.error_of("expected"))
    for line, name in (
        ("ab" * 16, "an MD5"),
        ("ab" * 16 + "  some.txt", "an MD5"),
        ("1234abcd", "a CRC-32"),
        ("XXH128 " + "ab" * 16, ""),
    ):
        page.set_field("expected", line)
        end = f" {len(line.split()[0])} digits may also be {name}, which this page doesn't compute." if name else ""
        page.browser.wait(
            "return document.getElementById('verdict').textContent === arguments[0]",
            "Different: no digest of some.txt is this one." + end,
            seconds=5,
        )


def among_many(page):
    """The matching one of several files, and the number of others."""
    paths = [page.file(f"many{i}.bin", bytes([i])) for i in range(5)]
    page.choose(*paths)
    page.set_field("expected", reference(paths[3])["xxh3_128"])
    page.browser.wait(
        """return document.getElementById('verdict').textContent
        === 'Same: XXH3, 128 bits of many3.bin. Different from 4 others.'""",
        seconds=10,
    )


def checked(page, rows, counts):
    """Waits until the checksum file has these rows and counts."""
    result = None
    for _ in range(100):
        result = page.browser.run(ROWS)
        if result and result["rows"] == rows and result["counts"] == counts:
            return result
        time.sleep(0.05)
    raise Fault(str(result))


def checksum_file(page):
    """Lines of xxhsum in each of its forms: of an unchanged file, of a changed one, and of one that is not chosen."""
    for number, (algorithm, args) in enumerate(
        [(algorithm, args) for algorithm in XXHSUM for args in ((), ("--tag",), ("--tag", "--little-endian"))]
    ):
        names = [f"right{number}.bin", f"changed{number}.bin", f"absent (1) {number}.bin"]
        paths = [page.file(name, name.encode() * 100) for name in names]
        lines = "".join(line_of(name, algorithm, *args, folder=page.workdir) for name in names)
        page.file(names[1], b"other bytes")
        page.open()
        page.choose(page.file(f"sums{number}.txt", lines.encode()), *paths[:2])
        rows = [[names[0], "same"], [names[1], "different"], [names[2], "not here"]]
        check(checked(page, rows, "3 lines: 1 same, 1 different, 1 not here.")["hint"], "there is no hint")
        check(page.text_of("#list").count("Same as in sums") == 1, page.text_of("#list"))
        page.choose(paths[2])
        checked(page, [*rows[:2], [names[2], "same"]], "3 lines: 2 same, 1 different.")
    return f"{number + 1} forms"


def under_a_seed(page):
    """Under a seed, in a section that is closed, a checksum file's rows differ, and it shows the reason. Without the
    seed they have no result until the files are hashed again."""
    path = page.file("one.bin", b"one")
    sums = page.file("sums.xxh64", line_of("one.bin", "xxh64", folder=page.workdir).encode())
    page.set_key("1234")
    page.browser.run("document.getElementById('key').open = false")
    page.choose(path, sums)
    checked(page, [["one.bin", "different"]], "1 line: 1 different.")
    check("Hashed with seed 1234. xxhsum has no seed" in page.text_of(".checklist"), page.text_of(".checklist"))
    check(page.text_of("#key summary") == "Seed and secret (with seed 1234)", page.text_of("#key summary"))
    check(
        page.text_of(".card .verdicts").startswith("Different from sums.xxh64, with seed 1234"),
        page.text_of(".card .verdicts"),
    )
    page.set_key()
    checked(page, [["one.bin", "hash again"]], "1 line: 1 hash again.")
    check(page.text_of(".card .verdicts") == "", page.text_of(".card .verdicts"))
    page.browser.click("#again")
    checked(page, [["one.bin", "same"]], "1 line: 1 same.")
    check(
        "seed" not in page.text_of(".checklist") and page.text_of("#key summary") == "Seed and secret",
        page.text_of(".checklist"),
    )


def long_lines(page):
    """A line of 32,767 bytes is read, as by the command, and a longer one is malformed: one of 16 MB delays nothing."""
    digits = "0" * 32
    for name, row in (
        ("a" * (32767 - 34), "not here"),
        ("\u00e9" * ((32767 - 34) // 2), "not here"),
        ("a" * (32767 - 33), None),
        ("\u00e9" * ((32767 - 34) // 2 + 1), None),
    ):
        page.open()
        page.choose(page.file("list.xxh128", f"{digits}  {name}\n".encode()))
        if row:
            checked(page, [[name, row]], "1 line: 1 not here.")
        else:
            page.digests("list.xxh128")
    page.open()
    page.browser.run(
        """window.gap = 0; let last = performance.now();
        window.turns = setInterval(() => { const now = performance.now(); window.gap = Math.max(window.gap, now - last); last = now; }, 10);"""
    )
    page.choose(page.file("list.xxh128", b"\\" + digits.encode() + b"  " + b"a" * ((16 << 20) - 40) + b"\n"))
    page.digests("list.xxh128")
    gap = page.browser.run("clearInterval(window.turns); return window.gap;")
    check(gap < 1500, f"the longest wait was {gap:.0f} ms")
    return f"the longest wait was {gap:.0f} ms"


def improper_lines(page):
    """Malformed lines are counted; a file with more of them is no checksum file, and may be hashed as a file."""
    path = page.file("one.bin", b"one")
    line = line_of("one.bin", "xxh64", folder=page.workdir)
    upper = line.strip().upper().replace("ONE.BIN", "./one.bin")
    sums = page.file("sums.xxh64", f"# a comment\r\n\r\n{line.strip()}\r\n{upper}\nwhat is this\n".encode())
    page.choose(path, sums, page.file("prose.txt", f"{line}is what I\nwrote\ndown\n".encode()))
    checked(page, [["one.bin", "same"], ["./one.bin", "same"]], "3 lines: 2 same, 1 line not understood.")
    check(
        page.digests("prose.txt") == reference(os.path.join(page.workdir, "prose.txt")),
        "the text isn't hashed as a file",
    )
    page.browser.click(".checklist .hash")
    check(page.digests("sums.xxh64") == reference(sums), "it isn't hashed as a file")


def folder_of(page, name, files):
    for path, content in files.items():
        write(os.path.join(page.workdir, name, path), content)
    return os.path.join(page.workdir, name)


def folder_chosen(page):
    """A folder with files of one name in two places, and its own checksum file."""
    files = {"a/x.bin": b"first", "b/x.bin": b"second", "top.bin": b"third"}
    folder = folder_of(page, "chosen", files)
    lines = [line_of(name, "xxh3_128", folder=folder) for name in sorted(files)]
    folder_of(page, "chosen", {"all.xxh128": "".join(lines).encode()})
    page.browser.type("#folder", folder)
    checked(page, [[name, "same"] for name in sorted(files)], "3 lines: 3 same.")
    for name in files:
        check(page.digests(f"chosen/{name}") == reference(os.path.join(folder, name)), name)


def folder_dropped(page):
    folder = folder_of(page, "dropped", {f"deep/er/{i:03}.bin": bytes([i]) for i in range(120)})
    place = {"x": 200, "y": 200, "data": {"items": [], "files": [folder], "dragOperationsMask": 1}}
    for event in ("dragEnter", "dragOver", "drop"):
        page.browser.devtools("Input.dispatchDragEvent", type=event, **place)
    page.browser.wait("return document.querySelectorAll('.card code').length === 120")
    check(page.digests("dropped/deep/er/077.bin") == reference(os.path.join(folder, "deep/er/077.bin")), "077.bin")
    return "120 files"


def text_dropped(page):
    """Text that is dropped on a field is written there, and elsewhere the page stays."""
    page.choose(page.file("some.txt", b"some bytes"))
    digest = page.digests("some.txt")["xxh64"]
    data = {"items": [{"mimeType": "text/plain", "data": digest}], "dragOperationsMask": 1}
    for selector in ("h1", "#expected"):
        x, y = page.browser.run(
            """const it = document.querySelector(arguments[0]);
            it.scrollIntoView();
            const { left, top } = it.getBoundingClientRect();
            return [left + 5, top + 5];""",
            selector,
        )
        for event in ("dragEnter", "dragOver", "drop"):
            page.browser.devtools("Input.dispatchDragEvent", type=event, x=x, y=y, data=data)
    page.browser.wait("return document.getElementById('verdict').textContent.startsWith('Same')", seconds=10)
    check(page.browser.run("return document.getElementById('expected').value") == digest, "another text is there")
    check(not page.browser.run("return document.body.classList.contains('dropping')"), "it still expects a drop")


# The drop event for the page: entries as in a browser, created by a script.
DROP = """const event = new Event("drop", { bubbles: true, cancelable: true });
const fileEntry = (path, file) => ({ isFile: true, isDirectory: false, fullPath: path, file });
const item = (entry) => ({ kind: "file", webkitGetAsEntry: () => entry, getAsFile: () => null });
const good = new File(["some bytes"], "good.txt");
Object.defineProperty(event, "dataTransfer", { value: { items: %s } });
document.body.dispatchEvent(event);"""


def odd_items(page):
    """In a drop with unreadable items each is reported, and the others are hashed. Hashed again, the result is the
    same."""
    page.set_key("1234")
    page.browser.run("navigator.clipboard.writeText = async (text) => { window.copied = text; };")
    page.browser.run(
        DROP
        % """[item(null), item(fileEntry("/closed.bin", (_, fail) => fail(new DOMException("closed", "NotReadableError")))),
        item(fileEntry("/good.txt", (give) => give(good))), { kind: "string" }]"""
    )
    for _ in range(2):
        check(page.digests("good.txt") == SOME_BYTES, page.card("good.txt"))
        closed = page.wait_for("closed.bin", "card.failed")
        check("can't be read" in closed["message"] and not closed["digests"], closed)
        odd = page.wait_for("item 1 of the drop", "card.failed")
        check("neither a file nor a folder" in odd["message"] and not odd["digests"], odd)
        page.browser.click("#copy-all")
        page.browser.wait("return window.copied", seconds=5)
        check(
            page.browser.run("const it = window.copied; window.copied = ''; return it;")
            == f"{SOME_BYTES['xxh64']}  good.txt\n",
            "other lines are copied",
        )
        page.browser.run("document.querySelector('.card .state').textContent = ''")
        page.browser.click("#again")
        page.wait_for("good.txt", "card.message.includes('seed 1234') && 'xxh64' in card.digests")


def dragged(page):
    """Wherever the page is scrolled to, it shows that files may be dropped."""
    shown = """const { content, position, display } = getComputedStyle(document.body, "::after");
        return content !== "none" && position === "fixed" && display !== "none";"""
    page.browser.run("document.body.style.minHeight = '5000px'; scrollTo(0, 3000);")
    for event, is_shown in (("dragover", True), ("dragleave", False), ("dragover", True), ("drop", False)):
        page.browser.run(
            """const carried = new DataTransfer();
            document.body.dispatchEvent(new DragEvent(arguments[0], { bubbles: true, cancelable: true, dataTransfer: carried }));""",
            event,
        )
        check(page.browser.run(shown) == is_shown, f"after {event}")


def looked_into(page):
    """Files that may be checksum files are read a few at a time, however many there are, and one is found among them."""
    page.browser.run(
        """const read = Blob.prototype.arrayBuffer;
        window.most = window.reading = 0;
        Blob.prototype.arrayBuffer = async function () {
            window.most = Math.max(window.most, window.reading += 1);
            try { return await read.call(this); } finally { window.reading -= 1; }
        };"""
    )
    files = {f"{i:03}.txt": b"# no list, but it begins as one\n" * 1000 for i in range(300)}
    folder = folder_of(page, "texts", files)
    folder_of(page, "texts", {"sums.txt": line_of("007.txt", "xxh64", folder=folder).encode()})
    page.browser.type("#folder", folder)
    checked(page, [["007.txt", "same"]], "1 line: 1 same.")
    most = page.browser.run("return window.most")
    check(0 < most <= 16, f"{most} are read at once")


MILLION = 1_000_000


def drop_many(page, count):
    """Drops a folder of that many files."""
    page.browser.run(
        DROP
        % """[item({ isDirectory: true, fullPath: "/many", createReader: () => {
        const batches = [Array.from({ length: arguments[0] }, (_, i) => fileEntry(`/many/${i}`, (give) => give(good))), []];
        return { readEntries: (give) => give(batches.shift()) };
    } })]""",
        count,
    )


def cleared_while_added(page):
    """A folder that is still being added when the list is cleared doesn't come back."""
    page.set_key("wrong")
    drop_many(page, 50_000)
    page.browser.click("#clear")
    time.sleep(1)
    count = page.browser.run("return document.querySelectorAll('.card').length")
    check(count == 0, f"{count} cards are there")
    check("50,000" not in page.text_of("#status"), page.text_of("#status"))


def stopped_while_added(page):
    """After all files are stopped, the rest of a folder is added, and not hashed either."""
    page.set_key("wrong")
    drop_many(page, 20_000)
    page.browser.click("#stop-all")
    page.browser.wait("return document.getElementById('status').textContent === '20,000 files were added'", seconds=60)
    check(page.browser.run("return document.getElementById('stop-all').hidden"), "files wait")
    check(page.card("many/0")["message"] == "Stopped. There is no digest.", page.card("many/0"))
    page.browser.click("#again")
    page.browser.wait("return !document.getElementById('stop-all').hidden", seconds=60)
    page.browser.click("#clear")


def found_while_added(page):
    """After a file with the expected digest is found, the rest of a folder is added, and not hashed."""
    page.set_key("1234")
    page.set_field("expected", SOME_BYTES["xxh64"])
    drop_many(page, 20_000)
    page.browser.wait("return document.getElementById('status').textContent === '20,000 files were added'", seconds=60)
    page.browser.wait("return document.getElementById('stop-all').hidden", seconds=60)
    hashed = int(page.text_of("#tally").split(" of ")[0].replace(",", ""))
    check(hashed < 10_000, f"{hashed} were hashed")
    page.browser.click("#clear")


def million_names(page):
    """A folder of 1,000,000 files is listed, stopped, restarted and hashed as far as the check waits."""
    page.set_key("wrong")
    began = time.monotonic()
    drop_many(page, MILLION)
    page.browser.wait(
        "return document.getElementById('status').textContent === arguments[0]",
        f"{MILLION:,} files were added",
        seconds=240,
    )
    listed = time.monotonic() - began
    page.browser.click("#stop-all")
    page.browser.wait("return !document.getElementById('again').hidden", seconds=60)
    page.browser.click("#again")
    page.browser.wait(
        "return document.getElementById('again').hidden && !document.getElementById('stop-all').hidden", seconds=60
    )
    page.set_key("1234")
    page.browser.wait(
        "return document.getElementById('tally').textContent.match(/^([0-9,]+) of/)?.[1].length > 3", seconds=120
    )
    page.browser.click("#stop-all")
    page.browser.wait("return document.getElementById('stop-all').hidden", seconds=60)
    tally = page.text_of("#tally")
    check(f"of {MILLION:,} files hashed" in tally, tally)
    check(page.digests("many/0") == SOME_BYTES, page.card("many/0"))
    page.browser.click("#clear")
    return f"listed in {listed:.0f} s"


def lines_saved(page):
    """The saved file passes xxhsum -c, for each hash; the copied text is the same."""
    page.browser.devtools(
        "Browser.grantPermissions",
        permissions=["clipboardReadWrite", "clipboardSanitizedWrite"],
        origin=page.address.split("/web")[0],
    )
    page.browser.devtools("Browser.setDownloadBehavior", behavior="allow", downloadPath=page.workdir)
    names = ["a (b).bin", "c d.bin", "e\u00e9\\.bin", "f.bin", "g.bin"]
    page.choose(*[page.file(name, name.encode() * 1000) for name in names])
    page.wait_for("g.bin", "'xxh64' in card.digests")
    for algorithm in XXHSUM:
        page.browser.run(
            """const it = document.getElementById("kind"); it.value = arguments[0]; it.dispatchEvent(new Event("change"));""",
            algorithm,
        )
        check(list(page.card("f.bin")["digests"]) == [algorithm], page.card("f.bin"))
        saved = os.path.join(page.workdir, f"checksums.{ENDINGS[algorithm]}")
        page.browser.click("#save")
        end = time.monotonic() + 10
        while not os.path.exists(saved) and time.monotonic() < end:
            time.sleep(0.05)
        ran = subprocess.run(["xxhsum", "-c", saved], cwd=page.workdir, capture_output=True, text=True)
        check(ran.returncode == 0 and ran.stdout.count(": OK") == len(names), ran.stdout + ran.stderr)
        page.browser.click("#copy-all")
        page.browser.wait("return document.getElementById('status').textContent === 'all lines copied'", seconds=10)
        check(page.browser.run("return navigator.clipboard.readText()") == text_of(saved), "other lines were copied")
        page.browser.run("document.getElementById('status').textContent = ''")
    page.set_key("7")
    page.browser.click("#again")
    page.browser.wait("return !document.getElementById('lines-note').hidden", seconds=10)


def removed(page):
    """A row that is done, one that runs, and one that waits."""
    paths = [
        page.file("short.bin", b"x"),
        page.file("long.bin", b"x", 3000 << 20),
        page.file("next.bin", b"some bytes"),
    ]
    page.set_key("1234")
    page.choose(*paths)
    page.wait_for("long.bin", "card.isRunning && card.message.includes(' of ')")
    page.browser.click("[aria-label='Remove short.bin']")
    check(page.card("short.bin") is None and page.card("long.bin")["isRunning"], "another row was removed")
    page.browser.click("[aria-label='Remove long.bin']")
    check(page.digests("next.bin", 20) == SOME_BYTES, page.card("next.bin"))
    check(page.browser.run("return document.activeElement.ariaLabel") == "Remove next.bin", "the focus is lost")
    page.browser.click("[aria-label='Remove next.bin']")
    page.browser.wait("return document.getElementById('results').hidden", seconds=5)
    os.remove(paths[1])


MANY = 10_000


def many_files(page):
    """10,000 files with their checksum file, of which one changed: the time, and the longest delay of the page."""
    folder = folder_of(page, "thousands", {f"{i % 100:02}/{i:05}.bin": b"%d" % i for i in range(MANY)})
    names = sorted(os.path.join(at, name)[len(folder) + 1 :] for at, _, names in os.walk(folder) for name in names)
    lines = subprocess.run(["xxhsum", "-H3", *names], cwd=folder, capture_output=True, text=True, check=True).stdout
    folder_of(page, "thousands", {"all.xxh3": lines.encode(), "42/00042.bin": b"other bytes"})
    page.browser.run(
        """window.gap = 0; let last = performance.now();
        window.turns = setInterval(() => { const now = performance.now(); window.gap = Math.max(window.gap, now - last); last = now; }, 10);"""
    )
    if page.browser.name == "Chromium":
        page.browser.type("#folder", folder)
    else:
        page.choose(*(os.path.join(folder, name) for name in ("all.xxh3", *names)))
    began = time.monotonic()
    counts = f"{MANY:,} lines: {MANY - 1:,} same, 1 different."
    page.browser.wait(
        "return document.querySelector('.checklist .counts')?.textContent === arguments[0]", counts, seconds=120
    )
    took, gap = time.monotonic() - began, page.browser.run("clearInterval(window.turns); return window.gap;")
    check(page.text_of("#tally").startswith(f"{MANY:,} files hashed"), page.text_of("#tally"))
    page.browser.click(".checklist .filter input")
    check(page.browser.run(ROWS)["rows"] == [["42/00042.bin", "different"]], "the row that differs isn't shown alone")
    rows = page.browser.run("return document.querySelectorAll('.card').length")
    check(rows < 1000, f"{rows} rows stand on the page")
    page.browser.run("document.getElementById('more-files').scrollIntoView()")
    page.browser.wait("return document.querySelectorAll('.card').length > arguments[0]", rows, seconds=5)
    check(took < 60 and gap < 5000, f"{took:.1f} s, the longest wait {gap:.0f} ms")
    return f"{took:.1f} s, the longest wait {gap:.0f} ms"


def download(page):
    """A digest that was pasted before: the file with it ends the search, and one that waited can still be hashed."""
    expected = page.file("download.iso", b"the right bytes", 30 << 20)
    page.set_field("expected", reference(expected)["xxh3_128"])
    page.choose(expected, *[page.file(f"other{i}.iso", b"%d" % i, 3000 << 20) for i in range(3)])
    for i in range(3):
        page.wait_for(f"other{i}.iso", "card.message === 'Not hashed, since the expected digest was found'")
    verdict = "Same: XXH3, 128 bits of download.iso. 3 more have no digest."
    page.browser.wait("return document.getElementById('verdict').textContent === arguments[0]", verdict, seconds=5)
    page.browser.run("""[...document.querySelectorAll(".card")].at(-1).querySelector(".act").click()""")
    page.wait_for("other2.iso", "card.isRunning && card.message.includes(' of ')")
    page.browser.click("#stop-all")
    for i in range(3):
        os.remove(os.path.join(page.workdir, f"other{i}.iso"))


def small_screen(page):
    """The results come into view, nothing is wider than the screen, and every button is high enough."""
    page.browser.devtools("Emulation.setDeviceMetricsOverride", width=390, height=844, deviceScaleFactor=1, mobile=True)
    try:
        page.open()
        page.browser.run("document.getElementById('key').open = true")
        names = [f"photograph with a long name {i}.jpeg" for i in range(6)]
        page.choose(*[page.file(name, name.encode()) for name in names])
        page.digests(names[5])
        page.browser.wait(
            "const { top } = document.getElementById('results').getBoundingClientRect(); return top >= -1 && top < 300;",
            seconds=5,
        )
        low = page.browser.run(
            """return [...document.querySelectorAll("button, select, summary, .pick label, fieldset label, #expected, #seed, footer a")]
            .filter((it) => it.checkVisibility() && it.getBoundingClientRect().height < 44).map((it) => it.outerHTML.slice(0, 80))"""
        )
        check(not low, str(low))
        wide = page.browser.run("return document.documentElement.scrollWidth")
        check(wide <= 390, f"{wide} pixels wide")
    finally:
        page.browser.devtools("Emulation.clearDeviceMetricsOverride")


def opened_as_file(page):
    """The instructions are visible there, and never on a page that is served."""
    seen = "const it = document.getElementById('asleep'); return Boolean(it?.checkVisibility({ visibilityProperty: true }) && it.offsetHeight > 20);"
    check(page.browser.run("return document.getElementById('asleep') === null"), "they stay on the page that is served")
    page.browser.go("file://" + os.path.join(WEB, "index.html"))
    page.browser.wait(seen, seconds=10)
    check("web/open" in page.text_of("#asleep"), page.text_of("#asleep"))


LIST_CHECKS = {
    "an expected digest, in words": check_expected,
    "what is no digest is told": no_digest,
    "a digest of another hash is told": other_digests,
    "what can't be read in a drop is told, and again": odd_items,
    "dragging over a scrolled page": dragged,
    "an expected digest among many": among_many,
    "a checksum file with its files": checksum_file,
    "a checksum file under a seed": under_a_seed,
    "long lines of a checksum file": long_lines,
    "improper lines of a checksum file": improper_lines,
    "a folder that is chosen": folder_chosen,
    "files that begin as checksum files do are read a few at a time": looked_into,
    "a folder that is dropped": folder_dropped,
    "a text that is dropped on a field": text_dropped,
    "lines saved and copied, for xxhsum -c": lines_saved,
    "one file is removed": removed,
    "10,000 files and their checksum file": many_files,
    "the list is cleared while files are added": cleared_while_added,
    "all is stopped while files are added": stopped_while_added,
    "a digest is found while files are added": found_while_added,
    "1,000,000 names": million_names,
    "verifying a download": download,
    "a small screen": small_screen,
    "opened as a file": opened_as_file,
}

# The checks for each browser.
IN_EACH_BROWSER = {
    check_expected,
    other_digests,
    odd_items,
    among_many,
    checksum_file,
    improper_lines,
    removed,
    many_files,
    download,
}
