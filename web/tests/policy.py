"""That nothing leaves the page: each way of sending something is tried, from the page and from its worker, at a server that keeps a list
of what it is asked for. From a page without the policy the page's ways do reach it; the worker's are not tried there."""
import functools
import http.server
import os
import threading
import time

import page as pages
from browser import PATIENCE, Off, Page
from native import tillsparrow

WEB = os.path.dirname(os.path.dirname(os.path.abspath(__file__)))

# each may fail as it likes; the server tells whether it was asked
ANYWHERE = {
    "fetch": "fetch(u).catch(() => 0)",
    "xhr": "(x => { x.open('GET', u); x.send(); })(new XMLHttpRequest())",
    "socket": "new WebSocket(u.replace('http', 'ws'))",
    "events": "new EventSource(u)",
    "import": "import(u).catch(() => 0)",
}
IN_WORKER = {**ANYWHERE, "scripts": "importScripts(u)"}
IN_PAGE = {
    **ANYWHERE,
    "beacon": "navigator.sendBeacon(u, 'tray')",
    "image": "new Image().src = u",
    "style": "document.head.append(Object.assign(document.createElement('link'), {rel: 'stylesheet', href: u}))",
    "script": "document.head.append(Object.assign(document.createElement('script'), {src: u}))",
    "frame": "document.body.append(Object.assign(document.createElement('iframe'), {src: u}))",
    "object": "document.body.append(Object.assign(document.createElement('object'), {data: u}))",
    "video": "document.body.append(Object.assign(document.createElement('video'), {src: u}))",
    "font": "new FontFace('f', 'url(' + u + ')').load().catch(() => 0)",
    "background": "document.body.style.backgroundImage = 'url(' + u + ')'",
    "worker": "new Worker(u)",
    "prefetch": "document.head.append(Object.assign(document.createElement('link'), {rel: 'prefetch', href: u}))",
    "manifest": "document.head.append(Object.assign(document.createElement('link'), {rel: 'manifest', href: u}))",
    "ping": "(a => { document.body.append(a); a.click(); })(Object.assign(document.createElement('a'), {href: '#', ping: u}))",
    # the last, since the page goes there where it may
    "form": "(f => { document.body.append(f); f.submit(); })(Object.assign(document.createElement('form'), {action: u}))",
}


class Server:
    """A web server of the folder web on this computer, and what it was asked for."""

    def __enter__(self):
        asked = self.asked = []

        class Handler(http.server.SimpleHTTPRequestHandler):
            def log_message(self, form, *values):
                asked.append(self.path.rstrip("?"))

            def do_POST(self):
                self.send_error(404)

        self.server = http.server.ThreadingHTTPServer(("127.0.0.1", 0), functools.partial(Handler, directory=WEB))
        self.url = f"http://127.0.0.1:{self.server.server_address[1]}"
        threading.Thread(target=self.server.serve_forever, daemon=True).start()
        return self

    def __exit__(self, *_):
        self.server.shutdown()
        self.server.server_close()


def attempt(target, ways, url, who):
    for name, way in ways.items():
        target.value(f"(async () => {{ const u = '{url}/{who}-{name}'; try {{ await ({way}); }} catch {{}} }})()")


def test_policy(browser, room, shots):
    """From a web server as from a file: the page works, and nobody is asked for anything."""
    with Server() as server:
        page = pages.Tillsparrow(browser, server.url + "/tillsparrow.html")
        page.drop_all(pages.TRAY)
        pages.hold_picture(page, "from a web server", tillsparrow.read(pages.TRAY))
        pages.held([], page.complaints(), "what the browser complains of")
        attempt(page.worker(), IN_WORKER, server.url, "worker")
        attempt(page, IN_PAGE, server.url, "page")
        page.value("document.body.append(Object.assign(document.createElement('script'), {textContent: 'globalThis.run = 1'})); 0")
        pages.held("undefined", page.value("typeof run"), "a script that is not the page's own")
        page.drop_all(pages.TRAY)  # it still works
        from_file = pages.Tillsparrow(browser)
        attempt(from_file, IN_PAGE, server.url, "file")
        attempt(from_file.worker(), IN_WORKER, server.url, "file-worker")
        # the same ways, where nothing forbids them: each arrives, and only these do
        free = Page(browser, server.url + "/src/words.js")
        attempt(free, IN_PAGE, server.url, "free")
        wanted = {f"/free-{name}" for name in IN_PAGE}
        deadline = time.monotonic() + PATIENCE
        while not wanted <= set(server.asked) and time.monotonic() < deadline:
            time.sleep(0.02)
        asked = [path for path in server.asked if path not in ("/src/words.js", "/favicon.ico")]
        if set(asked) != wanted | {"/tillsparrow.html"}:
            raise Off(f"the server was asked for {sorted(set(asked) - wanted)}, and not for {sorted(wanted - set(asked))}")
        for each in (page, from_file, free):
            each.close()
    return f"{2 * len(IN_PAGE) + 2 * len(IN_WORKER)} ways to send something reach nobody"
