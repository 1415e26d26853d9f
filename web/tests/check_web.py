"""Tests the modules, the package and the page as programs and users use them. Prints one line per check.

    web/check [--without-rt] [--node PROGRAM].. [--picture] [--only WORD]

First from a copy of the files in git, with rt hidden, since users have none:

- the modules of this folder, in Node and in the shell of WebKit's engine, as a package in a folder of its own, in
  bundles in Chromium, Firefox and WebKitGTK, and the package's types (tests/module_checks.py);
- the page as a user would use it, in each browser (tests/page_checks.py, tests/list_checks.py).

Then, except with --without-rt, that a new build of the proved code gives the same modules (web/build).

--node also tests another Node, for example an older one. --picture also writes docs/page.png. --only runs only the
checks of the page whose names contain the word, on the files of this folder. Missing packages are installed by
apt-get. The values are those of oracle/vectors.txt and of Debian's xxhsum. It ends everything that it starts."""
import os
import shutil
import signal
import subprocess
import sys
import tempfile

from checks.lib import command
from checks.lib.report import Report, check
from checks.lib.tools import TOP, clean_copy, hide_rt, install, missing_packages, ran
from web.tests import list_checks, module_checks, page_checks
from web.tests.browser import Chromium, Firefox, WebKit, mini_browser
from web.tests.page import Page, Served

PACKAGES = {
    "node": "nodejs",
    "npm": "npm",
    "esbuild": "esbuild",
    "tsc": "node-typescript",
    "chromium": "chromium",
    "chromedriver": "chromium-driver",
    "firefox-esr": "firefox-esr",
    "WebKitWebDriver": "webkit2gtk-driver",
    "xvfb-run": "xvfb",
    "xauth": "xauth",
    "xxhsum": "xxhash",
}
COPY = "TWOX_HASH_WEB_CHECK_COPY"


def install_missing():
    missing = missing_packages(PACKAGES)
    if not module_checks.jsc():
        missing.add("libjavascriptcoregtk-4.0-bin")
    if not mini_browser():
        missing.add("libwebkit2gtk-4.1-0")
    install(missing)


def check_in_browser(checks, browser_class, folder, chosen):
    browser = browser_class()
    try:
        with Served(folder) as address, tempfile.TemporaryDirectory(prefix="twox-page-") as workdir:
            name = f"{browser.name} {browser.version}"
            if not chosen.only:
                module_checks.check_in_browser(checks, name, folder, browser, address)
            page = Page(browser, f"{address}/web/", workdir)
            for what, test in {**page_checks.PAGE_CHECKS, **list_checks.LIST_CHECKS}.items():
                if chosen.only in what and (browser_class is Chromium or test in IN_EACH_BROWSER):
                    page.open()
                    checks.attempt(f"{name}: {what}", test, page)
            if chosen.picture and browser_class is Chromium:
                checks.attempt("picture", page_checks.take_picture, page)
    finally:
        browser.close()


# The checks for the other browsers: the rest needs Chromium's developer tools.
IN_EACH_BROWSER = page_checks.IN_EACH_BROWSER | list_checks.IN_EACH_BROWSER


def check_all(checks, chosen):
    with tempfile.TemporaryDirectory(prefix="twox-package-") as folder:
        if not chosen.only:
            nodes = ["node", *chosen.node]
            module_checks.check_in_node(checks, folder, nodes)
            module_checks.check_in_jsc(checks)
            checks.attempt("serve.py serves the page, and no more", page_checks.served_and_no_more, folder)
            checks.attempt("serve.py refuses what is no port", page_checks.wrong_ports_are_refused)
            module_checks.check_package(checks, folder, nodes)
        for browser_class in (Chromium, Firefox, WebKit):
            check_in_browser(checks, browser_class, folder, chosen)


def check_copy(checks):
    """Runs all checks from a clean copy without rt, as a separate program."""
    with tempfile.TemporaryDirectory(prefix="twox-copy-") as workdir:
        copy = os.path.join(workdir, "twox_hash")
        clean_copy(copy)
        hide_rt(workdir)
        command = [os.path.join(copy, "web", "check"), *sys.argv[1:]]
        with subprocess.Popen(command, stdout=subprocess.PIPE, text=True, env={**os.environ, COPY: "yes"}) as running:
            for line in running.stdout:
                checks.repeat(line)
        if "--picture" in sys.argv:
            shutil.copy(os.path.join(copy, "docs", "page.png"), os.path.join(TOP, "docs", "page.png"))


def regenerated():
    done = ran([os.path.join(TOP, "web", "build")])
    check(done.returncode == 0, done.stdout.strip()[-400:])
    return done.stdout.strip().splitlines()[-1]


def main():
    parser = command.parser(__doc__)
    parser.add_argument("--without-rt", action="store_true", help="only what needs no rt, with rt hidden")
    parser.add_argument("--node", action="append", default=[], metavar="PROGRAM", help="also test this Node")
    parser.add_argument("--picture", action="store_true", help="also write docs/page.png")
    parser.add_argument(
        "--only", default="", metavar="WORD", help="the checks of the page whose names contain the word"
    )
    chosen, checks, has_rt = parser.parse_args(), Report(), shutil.which("rt")
    signal.signal(signal.SIGTERM, lambda *_: sys.exit(1))  # so that what was started is ended
    install_missing()
    if chosen.only or COPY in os.environ:
        check_all(checks, chosen)
    else:
        path = os.environ["PATH"]
        check_copy(checks)
        os.environ["PATH"] = path
        if has_rt and not chosen.without_rt:
            checks.attempt("a new build of the proved modules gives those of this folder", regenerated)
    sys.exit(checks.end())
