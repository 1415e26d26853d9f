#!/usr/bin/env python3
"""Serves the page and the repository's pages that it links to, only on this machine.

    web/serve.py [PORT] [--open]

--open shows the page in the default browser. Ctrl-C ends it."""
import http.server
import os
import sys
import webbrowser

TOP = os.path.dirname(os.path.dirname(os.path.realpath(__file__)))
PORT = 8000
PUBLIC = tuple("/web/ /docs/ /crates/ /README.md /CALLING.md /CONTRIBUTING.md /LICENSE /oracle/vectors.txt".split())


def is_public(path):
    """True if a whole path is in `PUBLIC`, or below one that ends with a slash."""
    return any(
        path + "/" == TOP + it or path.startswith(TOP + it) if it.endswith("/") else path == TOP + it for it in PUBLIC
    )


class Handler(http.server.SimpleHTTPRequestHandler):
    """The files of `PUBLIC`, with sources and pages as text."""

    extensions_map = {
        ".json": "application/json",
        ".html": "text/html; charset=utf-8",
        ".css": "text/css",
        ".js": "text/javascript",
        ".mjs": "text/javascript",
        ".wasm": "application/wasm",
        ".svg": "image/svg+xml",
        ".png": "image/png",
        "": "text/plain; charset=utf-8",
    }

    def __init__(self, *arguments):
        super().__init__(*arguments, directory=TOP)

    def send_head(self):
        if self.path == "/":
            self.send_response(302)
            self.send_header("Location", "/web/")
            self.end_headers()
            return None
        if not is_public(os.path.realpath(self.translate_path(self.path))):
            self.send_error(404)
            return None
        return super().send_head()

    def guess_type(self, path):
        return self.extensions_map.get(os.path.splitext(path)[1], self.extensions_map[""])

    def end_headers(self):
        self.send_header("Cache-Control", "no-cache")
        super().end_headers()

    def log_message(self, *_):
        pass


def server(port: int, handler: type[http.server.SimpleHTTPRequestHandler] = Handler) -> http.server.ThreadingHTTPServer:
    return http.server.ThreadingHTTPServer(("127.0.0.1", port), handler)


def main(args):
    numbers = [word for word in args if word.isdecimal() and int(word) < 1 << 16]
    if [word for word in args if word not in numbers and word != "--open"] or len(numbers) > 1:
        sys.exit("usage: web/serve.py [PORT] [--open]")
    try:
        serving = server(int(numbers[0]) if numbers else PORT)
    except OSError as error:
        sys.exit(f"web/serve.py: {error.strerror}: use another port, for example web/serve.py 8001")
    address = f"http://127.0.0.1:{serving.server_address[1]}/web/"
    print(f"{address} (Ctrl-C ends it)", flush=True)
    if "--open" in args:
        webbrowser.open(address)
    try:
        serving.serve_forever()
    except KeyboardInterrupt:
        print()


if __name__ == "__main__":
    main(sys.argv[1:])
