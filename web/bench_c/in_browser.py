"""Benchmarks modules in a headless browser, as run.mjs does in Node:

    python3 -B . web.bench_c.in_browser in_browser chromium | firefox | webkit ROUNDS NAME=FILE.."""
import json
import os
import shutil
import sys
import tempfile

from checks.lib.tools import TOP, write
from web.tests.browser import Chromium, Firefox, WebKit
from web.tests.page import Requests, Served

WEB = os.path.join(TOP, "web")


class Isolated(Requests):
    """Declares that the page shares nothing with other sites, so that the browser's clock is precise."""

    def end_headers(self):
        self.send_header("Cross-Origin-Opener-Policy", "same-origin")
        self.send_header("Cross-Origin-Embedder-Policy", "require-corp")
        super().end_headers()


PAGE = """<!doctype html><title>bench</title><script type=module>
import { measure } from "/web/bench_c/measure.js";
globalThis.measured = async (names, rounds) => {
  const bytes = async (name) => new Uint8Array(await (await fetch(`${name}.wasm`)).arrayBuffer());
  return [...measure(await Promise.all(names.map(async (name) => ({ name, bytes: await bytes(name) }))), rounds)];
};
</script>"""


def measure(browser_name, rounds, *args):
    modules = dict(word.split("=") for word in args)
    with tempfile.TemporaryDirectory(prefix="twox-bench-") as folder:
        for name, file in modules.items():
            shutil.copyfile(file, os.path.join(folder, f"{name}.wasm"))
        write(os.path.join(folder, "bench.html"), PAGE)
        browser = {"chromium": Chromium, "firefox": Firefox, "webkit": WebKit}[browser_name]()
        try:
            with Served(folder, Isolated) as address:
                browser.go(f"{address}/bundles/bench.html")
                browser.wait("return typeof measured === 'function' && crossOriginIsolated")
                for row in browser.run("return measured(...arguments)", list(modules), int(rounds)):
                    print(json.dumps(row))
        finally:
            browser.close()


def main():
    measure(*sys.argv[1:])
