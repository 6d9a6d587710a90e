"""Chromium without a window, driven over its DevTools pipe: pages, what they log and ask for, and real events for mouse, keys, touch,
dropped and chosen files. Nothing but Python and the distribution's chromium is needed."""
import base64
import fcntl
import json
import os
import select
import shutil
import signal
import tempfile
import time

PATIENCE = 30  # seconds that anything may take
ORDINARY = {" ": "Space", "+": "Equal", "=": "Equal", "-": "Minus", "0": "Digit0", "1": "Digit1"}


class Off(Exception):
    """What does not hold, as one line."""


def pipe():
    """Both ends, numbered so that they are not in the way of the two that Chromium reads and writes, 3 and 4."""
    ends = os.pipe()
    high = [fcntl.fcntl(end, fcntl.F_DUPFD_CLOEXEC, 10) for end in ends]
    for end in ends:
        os.close(end)
    return high


class Browser:
    """A browser with a home of its own, which is gone at the end."""

    def __init__(self):
        self.home = tempfile.mkdtemp(prefix="tillsparrow-browser-")
        self.downloads = os.path.join(self.home, "downloads")
        os.mkdir(self.downloads)
        self.rest, self.count, self.answers, self.events = b"", 0, {}, []
        commands, self.commands = pipe()
        self.replies, replies = pipe()
        words = ["chromium", "--headless=new", "--disable-gpu", "--no-first-run", "--disable-background-networking",
                 "--remote-debugging-pipe", "--user-data-dir=" + os.path.join(self.home, "profile")]
        if os.geteuid() == 0:
            words.append("--no-sandbox")  # which root cannot have
        log = os.path.join(self.home, "log")
        self.process = os.posix_spawnp("chromium", [*words, "about:blank"], os.environ, setpgroup=0, file_actions=[
            (os.POSIX_SPAWN_DUP2, commands, 3), (os.POSIX_SPAWN_DUP2, replies, 4),
            (os.POSIX_SPAWN_OPEN, 1, log, os.O_WRONLY | os.O_CREAT | os.O_TRUNC, 0o600), (os.POSIX_SPAWN_DUP2, 1, 2)])
        os.close(commands)
        os.close(replies)

    def __enter__(self):
        try:
            self.version = self.send("Browser.getVersion")["product"]
            self.send("Browser.setDownloadBehavior", {"behavior": "allow", "downloadPath": self.downloads, "eventsEnabled": True})
        except BaseException:
            self.__exit__()
            raise
        return self

    def __exit__(self, *_):
        try:
            self.send("Browser.close")
        except Off:
            pass
        deadline = time.monotonic() + 5
        while os.waitpid(self.process, os.WNOHANG)[0] == 0:
            if time.monotonic() > deadline:
                os.killpg(self.process, signal.SIGKILL)
                deadline += PATIENCE
            time.sleep(0.02)
        os.close(self.commands)
        os.close(self.replies)
        shutil.rmtree(self.home, ignore_errors=True)

    # ---- commands and what comes back

    def receive(self, deadline):
        """Takes in what has come, waiting for something."""
        if not select.select([self.replies], [], [], max(0, deadline - time.monotonic()))[0]:
            raise Off("the browser does not answer")
        data = os.read(self.replies, 1 << 20)
        if not data:
            raise Off("the browser has ended: " + self.last_words())
        *whole, self.rest = (self.rest + data).split(b"\0")
        for text in whole:
            message = json.loads(text)
            if "id" in message:
                self.answers[message["id"]] = message
            else:
                self.events.append(message)

    def last_words(self):
        with open(os.path.join(self.home, "log"), encoding="utf-8", errors="replace") as file:
            return file.read()[-300:].strip()

    def send(self, method, params=None, session=None):
        self.count += 1
        message = {"id": self.count, "method": method, "params": params or {}, **({"sessionId": session} if session else {})}
        try:
            data = json.dumps(message).encode() + b"\0"
            while data:
                data = data[os.write(self.commands, data):]
        except BrokenPipeError:
            raise Off("the browser has ended: " + self.last_words()) from None
        deadline = time.monotonic() + PATIENCE
        while message["id"] not in self.answers:
            self.receive(deadline)
        answer = self.answers.pop(message["id"])
        if "error" in answer:
            raise Off(f"{method}: {answer['error']['message']}")
        return answer["result"]

    def happened(self, method, session=None):
        return [each["params"] for each in self.events if each["method"] == method and session in (None, each.get("sessionId"))]


class Target:
    """A page or a worker in which something is evaluated."""

    def __init__(self, browser, session):
        self.browser, self.session = browser, session

    def send(self, method, **params):
        return self.browser.send(method, params, self.session)

    def value(self, expression):
        """What an expression comes to; one that promises something is waited for."""
        done = self.send("Runtime.evaluate", expression=expression, awaitPromise=True, returnByValue=True)
        if "exceptionDetails" in done:
            raise Off(f"{expression[:60]}: {done['exceptionDetails'].get('exception', {}).get('description', done['exceptionDetails'])}")
        return done["result"].get("value")

    def until(self, expression):
        """Waits until an expression is true, and gives what it then is."""
        deadline = time.monotonic() + PATIENCE
        while not (value := self.value(expression)):
            if time.monotonic() > deadline:
                raise Off(f"never came true: {expression}")
            time.sleep(0.02)
        return value


class Page(Target):
    """A page in a tab of its own."""

    def __init__(self, browser, url, width=1280, height=960, dark=False, touch=False):
        target = browser.send("Target.createTarget", {"url": "about:blank"})["targetId"]
        super().__init__(browser, browser.send("Target.attachToTarget", {"targetId": target, "flatten": True})["sessionId"])
        self.target = target
        for domain in ("Page", "Runtime", "Network", "DOM", "Log"):
            self.send(domain + ".enable")
        self.send("Target.setAutoAttach", autoAttach=True, waitForDebuggerOnStart=False, flatten=True)
        self.send("Emulation.setDeviceMetricsOverride", width=width, height=height, deviceScaleFactor=1, mobile=touch)
        self.send("Emulation.setEmulatedMedia", features=[{"name": "prefers-color-scheme", "value": "dark" if dark else "light"}])
        self.send("Emulation.setTouchEmulationEnabled", enabled=touch, maxTouchPoints=5)
        self.send("Page.navigate", url=url)
        self.until(f"location.href === {json.dumps(url)} && document.readyState === 'complete'")

    def close(self):
        self.browser.send("Target.closeTarget", {"targetId": self.target})

    def workers(self):
        """The sessions of the page's workers, the latest last."""
        return [each["sessionId"] for each in self.browser.happened("Target.attachedToTarget", self.session)
                if each["targetInfo"]["type"] == "worker"]

    def worker(self, count=1):
        """The latest worker, when the page has had so many."""
        deadline = time.monotonic() + PATIENCE
        while len(self.workers()) < count:
            self.browser.receive(deadline)
        return Target(self.browser, self.workers()[-1])

    def complaints(self):
        """What the page has logged as an error or a warning, and what it threw; not the advice on reading a canvas back, which only the
        tests do."""
        logged = [each["entry"]["text"] for each in self.browser.happened("Log.entryAdded", self.session)
                  if "willReadFrequently" not in each["entry"]["text"]]
        said = [str(each["args"]) for each in self.browser.happened("Runtime.consoleAPICalled", self.session)]
        thrown = [each["exceptionDetails"]["text"] for each in self.browser.happened("Runtime.exceptionThrown", self.session)]
        return logged + said + thrown

    def requests(self):
        return [each["request"]["url"] for each in self.browser.happened("Network.requestWillBeSent", self.session)]

    # ---- events as a person makes them

    def middle(self, selector):
        """The middle of an element, where it is seen."""
        return self.value(f"(e => {{ e.scrollIntoView({{block: 'nearest'}}); const r = e.getBoundingClientRect();"
                          f"return [r.x + r.width / 2, r.y + r.height / 2]; }})(document.querySelector({json.dumps(selector)}))")

    def mouse(self, kind, x, y, **more):
        self.send("Input.dispatchMouseEvent", type=kind, x=x, y=y, **more)

    def click(self, selector):
        x, y = self.middle(selector)
        for kind in ("mousePressed", "mouseReleased"):
            self.mouse(kind, x, y, button="left", clickCount=1)

    def key(self, key, shift=False):
        """A key pressed and let go."""
        text = {"text": key} if len(key) == 1 else {}
        code = ORDINARY.get(key, "Key" + key.upper() if len(key) == 1 else key)
        for kind in ("keyDown", "keyUp"):
            self.send("Input.dispatchKeyEvent", type=kind, key=key, code=code, modifiers=8 if shift else 0,
                      **(text if kind == "keyDown" else {}))

    def touch(self, kind, *points):
        self.send("Input.dispatchTouchEvent", type=kind, touchPoints=[{"x": x, "y": y, "id": i} for i, (x, y) in enumerate(points)])

    def drop(self, paths, x=150, y=200):
        data = {"items": [], "files": paths, "dragOperationsMask": 1}
        for kind in ("dragEnter", "dragOver", "drop"):
            self.send("Input.dispatchDragEvent", type=kind, x=x, y=y, data=data)

    def choose(self, selector, paths):
        root = self.send("DOM.getDocument")["root"]["nodeId"]
        self.send("DOM.setFileInputFiles", nodeId=self.send("DOM.querySelector", nodeId=root, selector=selector)["nodeId"], files=paths)

    def download(self, name):
        """Waits for a file that the page saves, and takes it from the folder."""
        path, deadline = os.path.join(self.browser.downloads, name), time.monotonic() + PATIENCE
        ended = lambda: any(each["state"] == "completed" for each in self.browser.happened("Browser.downloadProgress"))  # noqa: E731
        while not (ended() and os.path.exists(path)):
            self.value("0")
            if time.monotonic() > deadline:
                raise Off(f"{name} was not saved; the folder has {os.listdir(self.browser.downloads)}")
            time.sleep(0.02)
        self.browser.events = [each for each in self.browser.events if not each["method"].startswith("Browser.download")]
        with open(path, "rb") as file:
            data = file.read()
        os.remove(path)
        return data

    def screenshot(self, path):
        """The whole page."""
        width, height = self.value("[innerWidth, document.documentElement.scrollHeight]")
        clip = {"x": 0, "y": 0, "width": width, "height": height, "scale": 1}
        data = self.send("Page.captureScreenshot", format="png", captureBeyondViewport=True, clip=clip)["data"]
        with open(path, "wb") as file:
            file.write(base64.b64decode(data))
