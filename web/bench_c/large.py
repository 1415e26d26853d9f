"""Measures how fast the page's worker hashes a large file in a headless browser, compared with reading only:

    python3 -B . web.bench_c.large large chromium | firefox | webkit [MIB [TURNS]]

It prints GB/s, the best and the median turn of each: only reading, as the page reads; all four hashes, as the page
computes them; and each hash separately, by `hashBlob`. They take turns, over one file of 1,024 MiB in the system's
cache."""
import os
import sys
import tempfile

from checks.lib.tools import TOP, write
from web.tests.browser import Chromium, Firefox, WebKit
from web.tests.page import Served

WEB = os.path.join(TOP, "web")

MIB = 1 << 20
# As streams.js reads: four chunks ahead.
READER = """
onmessage = async ({ data }) => {
  const [size, piece, reads] = [data.size, 8 * 1024 * 1024, []];
  const start = performance.now();
  let at = 0, taken = 0;
  const readOn = () => { if (at < size) { reads.push(data.slice(at, Math.min(at + piece, size)).arrayBuffer()); at += piece; } };
  for (let i = 0; i < 4; i += 1) readOn();
  while (reads.length > 0) {
    taken += (await reads.shift()).byteLength;
    readOn();
  }
  postMessage(taken === size ? performance.now() - start : -1);
};
"""
HASHER = """
import { load } from "/web/twox_hash.js";
import { hashBlob } from "/web/streams.js";
onmessage = async ({ data: [kind, file] }) => {
  await load();
  const start = performance.now();
  await hashBlob(kind, file);
  postMessage(performance.now() - start);
};
"""
PAGE = """<!doctype html><title>large</title><input type=file id=file><script type=module>
const worker = (url) => new Worker(url, { type: "module" });
const workers = { read: worker("reader.js"), page: worker("/web/worker.js"), one: worker("hasher.js") };
const answer = (it, message) => new Promise((resolve, reject) => {
  it.onerror = (event) => reject(new Error(event.message));
  it.onmessage = ({ data }) => {
    if (typeof data === "number") resolve(data);
    if (data.type === "done") resolve(data.milliseconds);
    if (data.type === "failed") reject(new Error(data.message));
  };
  it.postMessage(message);
});
globalThis.measured = async (what) => {
  const [file] = document.getElementById("file").files;
  if (what === "reading alone") return answer(workers.read, file);
  if (what === "all four") return answer(workers.page, { type: "hash", job: 1, blob: file, size: file.size });
  return answer(workers.one, [what, file]);
};
</script>"""
WHAT = ["reading alone", "all four", "xxh32", "xxh64", "xxh3_64", "xxh3_128"]


def measure(browser_name, mib="1024", turns="5"):
    size = int(mib) * MIB
    with tempfile.TemporaryDirectory(prefix="twox-large-") as folder:
        for name, text in ("reader.js", READER), ("hasher.js", HASHER), ("large.html", PAGE):
            write(os.path.join(folder, name), text)
        large = os.path.join(folder, "large")
        with open(large, "wb") as file:
            for _ in range(int(mib)):
                file.write(os.urandom(MIB))
        browser = {"chromium": Chromium, "firefox": Firefox, "webkit": WebKit}[browser_name]()
        try:
            with Served(folder) as address:
                browser.go(f"{address}/bundles/large.html")
                browser.wait("return typeof measured === 'function'")
                browser.type("#file", large)
                taken = {what: [] for what in WHAT}
                for _ in range(int(turns)):
                    for what in WHAT:
                        taken[what].append(browser.run("return measured(...arguments)", what))
        finally:
            browser.close()
    for what, times in taken.items():
        best, median = (size / 1e6 / it for it in (min(times), sorted(times)[len(times) // 2]))
        print(f"{what}: {best:.2f}, {median:.2f} GB/s")


def main():
    if not 2 <= len(sys.argv) <= 4:
        sys.exit(__doc__)
    measure(*sys.argv[1:])
