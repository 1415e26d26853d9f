"""The module as programs use it: in Node, as a package, in bundles, under a type checker and in other engines."""
import json
import os
import re
import shutil
import subprocess
import tempfile
from typing import Iterable, Optional

from checks.lib import tools
from checks.lib.report import Fault, Report, check
from checks.lib.tools import bytes_of, text_of
from web.tests.browser import Browser
from web.tests.values import long_digests

HERE = os.path.dirname(os.path.abspath(__file__))
WEB = os.path.dirname(HERE)
PACKAGED = [
    *"LICENSE README.md SHA256SUMS inline.d.ts inline.js node.d.ts node.js node_hash.js package.json".split(),
    *"streams.d.ts streams.js twox_hash.d.ts twox_hash.js twox_hash.wasm twox_hash_simd.wasm".split(),
    *"xxhash_wasm.d.ts xxhash_wasm.js out/modules.js out/modules.cjs".split(),
    *(
        f"out/{name}.{end}"
        for name in ("inline", "node", "node_hash", "streams", "twox_hash", "xxhash_wasm")
        for end in ("cjs", "d.cts")
        if (name, end) != ("node_hash", "d.cts")
    ),
    "out/twox_hash.wasm",
    "out/twox_hash_simd.wasm",
]
MODULES = ["twox_hash.wasm", "twox_hash_simd.wasm"]
SAMPLE = "await load(); console.log(toHex(xxh64('some bytes', 1234), 'xxh64'));"
OF_SAMPLE = "eab55659a496d78b\n"
TSC = ["tsc", "--strict", "--noEmit", "--target", "es2022", "--module", "node16", "--moduleResolution", "node16"]
# Bundles for a browser: the file's form, esbuild's options, and how the entry is imported.
BUNDLES = {
    "with the bytes inside, as one classic script": (["--format=iife"], 'import * as entry from "twox_hash/inline";'),
    "whose modules esbuild puts beside it": (
        ["--format=esm", "--loader:.wasm=file"],
        'import * as twox from "twox_hash"; import plain from "twox_hash/twox_hash.wasm";'
        'import vectors from "twox_hash/twox_hash_simd.wasm";'
        "const entry = { ...twox, load: () => twox.load((hasVectors) => hasVectors ? vectors : plain) };",
    ),
    "whose modules lie beside it": (["--format=esm"], 'import * as entry from "twox_hash";'),
    "whose modules lie beside it, as one classic script": (["--format=iife"], 'import * as entry from "twox_hash";'),
}
# The engine and flag for an x86 processor without the vectors of WebAssembly.
WITHOUT_VECTORS = ["--no-enable-sse4-1"]


def run(command, folder):
    return subprocess.run(command, capture_output=True, text=True, cwd=folder)


def must(command, folder):
    ran = run(command, folder)
    check(ran.returncode == 0, f"{' '.join(command[:2])}: {(ran.stderr + ran.stdout).strip()[-600:]}")
    return ran.stdout


def write(folder, name, data):
    return tools.write(os.path.join(folder, name), data)


def all_right(lines):
    """Checks that no line of the tests reports a failure, and returns their number."""
    wrong = [f"{line['name']} ({line.get('message', '')})" for line in lines if not line["ok"]]
    check(len(lines) > 1 and not wrong, "; ".join(wrong) or f"{len(lines)} tests")
    return f"{len(lines)} tests"


def tests_in_node(folder, node, entry, others="", flags=(), vectors=None, required=False):
    """The tests of an entry, and of the other ones, in a Node: as the folder's scripts import or require them."""
    imports = "".join(f'import * as {name} from "{path}";' for name, path in entry.items())
    if required:
        imports = (
            'import { createRequire } from "node:module"; const given = createRequire(import.meta.url);'
            + "".join(f'const {name} = given("{path}");' for name, path in entry.items())
        )
    script = write(
        folder,
        "run.mjs",
        f'{imports} {others} import {{ report }} from "file://{HERE}/run_node.mjs";'
        f"await report(process.argv[2], {{ {', '.join(entry)}{', xxhash' if others else ''} }});",
    )
    result = json.loads(must([node, *flags, script, json.dumps(long_digests())], folder))
    check(vectors is None or result["hasVectors"] == vectors, f"vectors: {result['hasVectors']}")
    vectors = "with" if result["hasVectors"] else "without"
    return f"Node {result['version']}, {vectors} vectors, {all_right(result['lines'])}"


def tests_of_tree(folder, node, flags=(), vectors=None):
    """The tests of the files in this folder."""
    entry = {"entry": f"file://{WEB}/node.js", "node": f"file://{WEB}/node.js", "streams": f"file://{WEB}/streams.js"}
    return tests_in_node(folder, node, entry, flags=flags, vectors=vectors)


def tests_of_module(folder, node, module):
    """The module's tests with this module, even where the other would be loaded."""
    entry = write(
        folder,
        "given.mjs",
        f'import * as twox from "file://{WEB}/node.js"; export * from "file://{WEB}/node.js";'
        f'export const load = () => twox.load("file://{WEB}/{module}");',
    )
    return tests_in_node(folder, node, {"entry": f"file://{entry}"})


def wrong_module_is_noticed(folder, node):
    """A module with one bit changed, in the default secret of XXH3, fails the tests."""
    module = bytearray(bytes_of(f"web/{MODULES[1]}"))
    at = module.find(bytes.fromhex("b8fe6c3923a44bbe"))
    check(at > 0, "the secret is not there")
    module[at] ^= 1
    path = write(folder, "wrong.wasm", bytes(module))
    entry = write(
        folder,
        "wrong.mjs",
        f'import * as twox from "file://{WEB}/node.js"; export * from "file://{WEB}/node.js";'
        f'export const load = () => twox.load("file://{path}");',
    )
    try:
        result = tests_in_node(folder, node, {"entry": f"file://{entry}"})
    except Fault as found:
        check("vectors of the reference library" in str(found), str(found))
        return
    check(False, f"a wrong module passes: {result}")


def refused_in_node(folder, node):
    """Without WebAssembly, the error reports that."""
    script = write(
        folder,
        "refused.mjs",
        f"""delete globalThis.WebAssembly;
        const {{ isSupported, load }} = await import("file://{WEB}/node.js");
        await load().catch((error) => console.log(isSupported(), error.name, error.code, error.message));""",
    )
    result = must([node, script], folder)
    check(result.startswith("false TwoxHashError unsupported WebAssembly is not available"), result)


def failed_sources_are_refused(folder, node):
    """A source that fails with anything is an error with its reason, and a later call loads the module."""
    script = write(
        folder,
        "failed.mjs",
        f"""const {{ load, toHex, xxh64 }} = await import("file://{WEB}/node.js");
        for (const reason of [undefined, null, "offline", new Error("offline"), Symbol("offline"), {{}}]) {{
            const call = load(() => Promise.reject(reason));
            await call.catch((error) => console.log(error.name, error.code, error.cause === reason, error.message));
        }}
        {SAMPLE}""",
    )
    *lines, value = must([node, script], folder).splitlines()
    begin = "TwoxHashError load true The WebAssembly module couldn't be loaded: "
    reasons = ["undefined", "null", "offline", "offline", "Symbol(offline)", "[object Object]"]
    check(lines == [begin + reason for reason in reasons] and value == "eab55659a496d78b", "\n".join(lines))


def packed(folder):
    """Installs the package there, as npm packs it, and nothing else."""
    must(["npm", "pack", "--pack-destination", folder], WEB)
    archive = next(name for name in os.listdir(folder) if name.endswith(".tgz"))
    write(folder, "package.json", '{ "private": true, "type": "module" }')
    must(["npm", "install", "--offline", "--no-audit", "--no-fund", "./" + archive], folder)
    package = os.path.join(folder, "node_modules", "twox_hash")
    files = [os.path.relpath(os.path.join(at, name), package) for at, _, names in os.walk(package) for name in names]
    check(sorted(files) == sorted(PACKAGED), sorted(set(files) ^ set(PACKAGED)))
    check(text_of(f"{package}/LICENSE") == text_of("LICENSE"), "LICENSE is another")
    links = set(re.findall(r"\]\(([^)#:]+)[^):]*\)", text_of(f"{package}/README.md")))
    lost = [link for link in links if not link.startswith("../") and not os.path.exists(os.path.join(package, link))]
    check(not lost, f"README links to {lost}")
    return archive


def copy_of_clone(folder):
    """A user's clone of the repository, in which nothing was packed or built."""
    top = os.path.dirname(WEB)
    must(
        ["git", "-C", top, "checkout-index", "-q", "-a", f"--prefix={folder}/"]
        if os.path.exists(os.path.join(top, ".git"))
        else ["cp", "-r", top, folder],
        top,
    )
    shutil.rmtree(os.path.join(folder, "web", "out"), ignore_errors=True)


def files_of(web):
    """The file names in a copy of this folder without build output, and the text of package.json."""
    return {name: name == "package.json" and text_of(f"{web}/{name}") for name in os.listdir(web) if name != "out"}


def row_of_page(start):
    """The second cell of the row of web/README.md with this beginning."""
    return re.search(rf"^\| {re.escape(start)} \| (.*) \|$", text_of("web/README.md"), re.M)[1]


def install_by(commands, workdir, node):
    """Runs commands of the page in one shell, in a folder next to a clone, and uses the package that they install."""
    user = os.path.join(workdir, "user")
    write(user, "package.json", '{ "private": true }')
    offline = "export npm_config_offline=true npm_config_audit=false npm_config_fund=false"
    must(["sh", "-e", "-c", "\n".join([offline, *commands])], user)
    for name in ("twox_hash", "twox_hash/inline"):
        result = must(
            [node, "--input-type=module", "-e", f'import {{ load, toHex, xxh64 }} from "{name}"; {SAMPLE}'], user
        )
        check(result == OF_SAMPLE, result)


def installed_as_printed(folder, node):
    """Each way to install on the page leaves the clone unchanged."""
    ways = [
        re.findall("`([^`]+)`", way) for way in row_of_page("the package, which has no dependencies").split("; or ")
    ]
    check(len(ways) == 2, f"{len(ways)} ways")
    for way in ways:
        with tempfile.TemporaryDirectory(dir=folder) as workdir:
            copy_of_clone(os.path.join(workdir, "twox_hash"))
            web = os.path.join(workdir, "twox_hash", "web")
            before = files_of(web)
            install_by(way, workdir, node)
            check(files_of(web) == before, f"{way} changes the clone")
    return "; ".join(" && ".join(way) for way in ways)


def installed_from_read_only(folder, node):
    """The way on the page for a clone whose files and folders nobody may write. npm writes to the copy, so its user must
    be able to: root may in any case."""
    commands = re.findall("`([^`]+)`", row_of_page("the package, from a read-only checkout"))
    with tempfile.TemporaryDirectory(dir=folder) as workdir:
        copy_of_clone(os.path.join(workdir, "twox_hash"))
        must(["chmod", "-R", "a-w", "twox_hash"], workdir)
        try:
            install_by([it.replace("/tmp/", f"{workdir}/") for it in commands], workdir, node)
        finally:
            must(["chmod", "-R", "u+w", "twox_hash"], workdir)
        check(os.stat(os.path.join(workdir, "twox_hash_web")).st_mode & 0o200, "the copy is read-only too")
    return " && ".join(commands)


def without_a_package(node):
    """The files that the page lists, copied, are enough, also if Node doesn't detect the type of a script."""
    names = re.findall("`([^`]+)`", row_of_page("the files without a package"))
    with tempfile.TemporaryDirectory() as workdir:  # below no other package.json
        for name in names:
            if name.startswith("{"):
                write(workdir, "package.json", name)
            elif name != "package.json":
                shutil.copy(os.path.join(WEB, name), workdir)
        write(workdir, "main.mjs", f'import {{ load, toHex, xxh64 }} from "./node.js"; {SAMPLE}')
        guess = "--experimental-detect-module"
        flags = must(
            [node, "-p", f'process.allowedNodeEnvironmentFlags.has("{guess}") ? "--no{guess[1:]}" : ""'], workdir
        ).split()
        result = must([node, *flags, "main.mjs"], workdir)
    check(result == OF_SAMPLE, result)
    return ", ".join(names)


def bundles_for_node(folder, node):
    """esbuild's bundles for Node, with the modules next to them, run from another folder."""
    entries = {
        "import": 'import { load, toHex, xxh64 } from "twox_hash";',
        "require": 'const { load, toHex, xxh64 } = require("twox_hash");',
    }
    for given, form, end in (("import", "esm", "mjs"), ("import", "cjs", "cjs"), ("require", "cjs", "cjs")):
        with tempfile.TemporaryDirectory(dir=folder) as workdir:
            app = write(
                workdir,
                f"app.{'mjs' if given == 'import' else 'cjs'}",
                f"{entries[given]} (async () => {{ {SAMPLE} }})();",
            )
            bundled = os.path.join(workdir, "dist", "here", f"app.{end}")
            must(
                [
                    "esbuild",
                    app,
                    *"--bundle --platform=node --log-level=error".split(),
                    f"--format={form}",
                    f"--outfile={bundled}",
                ],
                workdir,
            )
            for module in MODULES:
                shutil.copy(os.path.join(WEB, module), os.path.dirname(bundled))
            result = must([node, bundled], "/")
        check(result == OF_SAMPLE, f"{given}, {form}: {result}")


def tests_of_commonjs(folder, node):
    """All tests of the package by `require`, whose names are those of `import`."""
    with open(os.path.join(folder, "commonjs.cjs"), "w", encoding="utf-8") as file:
        file.write(
            """const entries = ["twox_hash", "twox_hash/streams", "twox_hash/inline", "twox_hash/xxhash-wasm"];
            module.exports = Object.fromEntries(entries.map((name) => [name, require(name)]));
            const { load, xxh64, TwoxHashError } = require("twox_hash");
            const early = (() => { try { return xxh64("some bytes"); } catch (error) { return error instanceof TwoxHashError && error.code; } })();
            module.exports.first = load().then(() => [early, xxh64("some bytes", 1234).toString(16)].join(" "));"""
        )
    script = write(
        folder,
        "commonjs.mjs",
        """import { createRequire } from "node:module";
        const { first, ...entries } = createRequire(import.meta.url)("./commonjs.cjs");
        const wrong = [];
        for (const [name, given] of Object.entries(entries)) {
          const [one, other] = [Object.keys(given), Object.keys(await import(name))].map((names) => names.sort().join());
          if (one !== other) wrong.push(`${name}: ${one} and not ${other}`);
        }
        console.log(JSON.stringify([await first, wrong]));""",
    )
    check(json.loads(must([node, script], folder)) == ["not-loaded eab55659a496d78b", []], must([node, script], folder))
    given = {"entry": "twox_hash", "streams": "twox_hash/streams"}
    return tests_in_node(
        folder, node, {**given, "node": "twox_hash"}, 'const xxhash = given("twox_hash/xxhash-wasm");', required=True
    )


def page_example(folder, node):
    """The examples of web/README.md have the printed results, in the package's own folder."""
    examples = re.findall(r"```js\n(.*?)```", text_of("web/README.md"), re.S)
    same = (
        "function same(value, expected) { if (value !== expected) throw new Error(`${value} instead of ${expected}`); }"
    )
    all_of_them = 0
    for number, code in enumerate(examples):
        lines, count = re.subn(r'^(?:const \w+ = )?(.*); // "([0-9a-f]+)"$', r'same(\1, "\2");', code, flags=re.M)
        check(count >= 1 and 'from "twox_hash' in code, f"example {number + 1} has {count} values")
        must([node, write(folder, f"example{number}.mjs", lines + same)], folder)
        all_of_them += count
    check(all_of_them >= 6, f"{all_of_them} values")
    return f"{all_of_them} values of {len(examples)} examples"


def types(folder):
    """The types, of `import` and of `require`, and in a program without types of a browser."""
    for name in ("types.ts", "types.cts"):
        shutil.copy(os.path.join(HERE, "types.ts"), os.path.join(folder, name))
        must([*TSC, "--lib", "es2022,dom", name], folder)
    shutil.copy(os.path.join(HERE, "types_without_dom.ts"), folder)
    must([*TSC, "--lib", "es2022", "types_without_dom.ts"], folder)


def bundle(folder, name, args, entry):
    """Writes the bundle's page, and returns its address."""
    out = os.path.join(folder, name)
    os.makedirs(out)
    app = write(
        folder,
        f"{name}.js",
        f'{entry} import {{ runTests }} from "{HERE}/module_tests.js";'
        "globalThis.tests = (...given) => runTests(entry, ...given);",
    )
    must(["esbuild", app, "--bundle", "--log-level=error", *args, f"--outdir={out}"], folder)
    if '"twox_hash"' in entry and "--loader:.wasm=file" not in args:
        for module in MODULES:
            shutil.copy(os.path.join(WEB, module), out)
    module_type = "" if "--format=iife" in args else ' type="module"'
    write(out, "index.html", f"<!doctype html><title>bundle</title><script{module_type} src={name}.js></script>")
    return f"{name}/index.html"


def tests_in_bundle(browser, address, folder, name, args, entry):
    browser.go(address + bundle(folder, name, args, entry))
    browser.wait("return typeof tests === 'function'")
    return all_right(
        browser.run(
            """return tests(await (await fetch("/oracle/vectors.txt")).text(), arguments[0]);""", long_digests()
        )
    )


# A page with no bundle, whose script imports the files of this folder.
TESTS_PAGE = """<!doctype html><title>tests</title><script type=module>
import * as twox from "/web/twox_hash.js";
import * as streams from "/web/streams.js";
import { runTests } from "/web/tests/module_tests.js";
import { runStreamTests } from "/web/tests/stream_tests.js";
globalThis.tests = async (table, digests) => ({ vectors: twox.hasVectors(),
  lines: [...await runTests(twox, table, digests), ...await runStreamTests(twox, streams, digests)] });
</script>"""


def tests_in_page(browser, address, folder):
    write(folder, "tests.html", TESTS_PAGE)
    browser.go(address + "tests.html")
    browser.wait("return typeof tests === 'function'")
    result = browser.run(
        """return tests(await (await fetch("/oracle/vectors.txt")).text(), arguments[0]);""", long_digests()
    )
    return f"{all_right(result['lines'])}, {'with' if result['vectors'] else 'without'} vectors"


def tests_in_jsc(module, vectors):
    """The module's tests in the shell of WebKit's engine."""
    environment = {**os.environ, "JSC_useWasmSIMD": str(int(vectors))}
    ran = subprocess.run(
        [
            jsc() or "jsc",
            "-m",
            os.path.join(HERE, "run_jsc.mjs"),
            "--",
            WEB,
            os.path.join(WEB, module),
            json.dumps(long_digests()),
        ],
        capture_output=True,
        text=True,
        env=environment,
    )
    check(ran.stdout.startswith("{"), (ran.stdout + ran.stderr)[-600:])
    result = json.loads(ran.stdout)
    check(result["hasVectors"] == vectors, f"vectors: {result['hasVectors']}")
    return all_right(result["lines"])


def jsc() -> Optional[str]:
    """Debian installs it with WebKit's library."""
    folders = [f"/usr/lib/x86_64-linux-gnu/javascriptcoregtk-{it}" for it in ("4.0", "4.1")]
    found = [f"{it}/jsc" for it in folders if os.path.exists(f"{it}/jsc")]
    return found[0] if found else shutil.which("jsc")


def lines_read(folder):
    """The lines of checks/lines.json as the page reads them; a parser that accepts none is detected."""
    nothing = write(folder, "nothing.mjs", "export const isComment = () => false; export const readLine = () => null;")
    script = write(
        folder,
        "lines.mjs",
        f'import {{ misread }} from "file://{HERE}/lines_test.mjs";'
        "console.log(JSON.stringify(await misread(process.argv[2])));",
    )
    result, planted = (
        json.loads(must(["node", script, f"file://{reader}"], folder)) for reader in (f"{WEB}/lines.js", nothing)
    )
    check(result["count"] > 100 and not result["wrong"], json.dumps(result["wrong"][:3]))
    check(len(planted["wrong"]) > 50, "a reader that reads nothing passes")
    return f"{result['count']} lines"


def check_in_node(checks: Report, folder: str, nodes: Iterable[str]) -> None:
    checks.attempt(
        "the modules have their sums",
        lambda: must(["sha256sum", "--check", "SHA256SUMS"], WEB).strip().replace("\n", ", "),
    )
    checks.attempt("Node: the page reads lines as the command does", lines_read, folder)
    for node in nodes:
        checks.attempt(f"{node}: the tests of the module and its streams", tests_of_tree, folder, node)
        for module in MODULES:
            checks.attempt(f"{node}: the tests of {module}", tests_of_module, folder, node, module)
    checks.attempt("Node where WebAssembly has no vectors", tests_of_tree, folder, nodes[0], WITHOUT_VECTORS, False)
    checks.attempt("Node: a module with a wrong bit is noticed", wrong_module_is_noticed, folder, nodes[0])
    checks.attempt("Node without WebAssembly is told so", refused_in_node, folder, nodes[0])
    checks.attempt("Node: a source that fails is refused", failed_sources_are_refused, folder, nodes[0])


def check_package(checks: Report, folder: str, nodes: Iterable[str]) -> None:
    checks.attempt("the package, as npm packs it, has its files and no other", packed, folder)
    xxhash = 'import xxhash from "twox_hash/xxhash-wasm";'
    for node in nodes:
        checks.attempt(
            f"the package in {node}: all tests",
            tests_in_node,
            folder,
            node,
            {"entry": "twox_hash", "node": "twox_hash", "streams": "twox_hash/streams"},
            xxhash,
        )
        checks.attempt(f"the package in {node}: all tests of what require gives", tests_of_commonjs, folder, node)
        checks.attempt(
            f"the package in {node}: the entry with the bytes inside",
            tests_in_node,
            folder,
            node,
            {"entry": "twox_hash/inline"},
        )
        checks.attempt(f"the files alone in {node}, as the page says", without_a_package, node)
        checks.attempt(f"bundles for {node}, with the modules beside them", bundles_for_node, folder, node)
    checks.attempt("npm install, as the page says", installed_as_printed, folder, nodes[0])
    checks.attempt("npm install from a read-only clone", installed_from_read_only, folder, nodes[0])
    checks.attempt("the examples of web/README.md", page_example, folder, nodes[0])
    checks.attempt("the package's types, by tsc --strict", types, folder)


def check_in_jsc(checks: Report) -> None:
    checks.attempt("WebKit's engine (jsc): the tests of twox_hash_simd.wasm", tests_in_jsc, MODULES[1], True)
    checks.attempt(
        "WebKit's engine (jsc), without vectors: the tests of twox_hash.wasm", tests_in_jsc, MODULES[0], False
    )


def check_in_browser(checks: Report, name: str, folder: str, browser: Browser, address: str) -> None:
    checks.attempt(
        f"{name}: the tests of the module and its streams", tests_in_page, browser, f"{address}/bundles/", folder
    )
    for number, (what, (args, entry)) in enumerate(BUNDLES.items()):
        checks.attempt(
            f"{name}: the module's tests in a bundle {what}",
            tests_in_bundle,
            browser,
            f"{address}/bundles/",
            folder,
            f"{browser.name.lower()}{number}",
            args,
            entry,
        )
