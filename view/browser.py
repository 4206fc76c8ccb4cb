"""browser: makes pages and opens them in a headless Chromium, for view/browser-check and view/picture.

Chromium is driven over the pipe of its DevTools protocol. The messages are JSON, each ended by a zero byte: Chromium reads them
from file 3 and writes its own to file 4. Every wait has an end. The browser has a profile folder of its own, finds no host, and
gets no file but the page that it is given. It is ended with the block that started it, and ends by itself once the pipe is
closed."""
import base64
import fcntl
import json
import os
import pathlib
import select
import shlex
import shutil
import signal
import subprocess
import tempfile
import time

NAMES = ["chromium", "chromium-browser", "google-chrome"]
MISSING = "none of " + ", ".join(NAMES) + " is on the PATH. On Debian: apt-get install chromium"
FLAGS = ["--headless=new", "--remote-debugging-pipe", "--disable-gpu", "--disable-smooth-scrolling",
         "--host-resolver-rules=MAP * ~NOTFOUND", "--proxy-server=direct://", "--disable-background-networking",
         "--disable-component-update", "--disable-default-apps", "--disable-dev-shm-usage", "--disable-extensions",
         "--disable-sync", "--no-default-browser-check", "--no-first-run", "--no-service-autorun",
         "--password-store=basic", "--use-mock-keychain", "--font-render-hinting=none", "--force-color-profile=srgb",
         "--lang=en-US"]
ANSWER, MAKING = 15, 60  # seconds for the answer to one message and for making a page, at most
TOP = os.path.dirname(os.path.dirname(os.path.abspath(__file__)))
KEYS = {"Tab": (9, None), "Space": (32, " "), "Enter": (13, "\r")}


class Failed(Exception):
    """The browser did not do what it was asked to, or not in time."""


def find():
    """The path of the browser, or None."""
    return next((path for path in map(shutil.which, NAMES) if path), None)


def on_signal(number, _frame):
    raise SystemExit(128 + number)


def words():
    """The program that makes pages, and the folder of the programs that it asks."""
    program = shlex.split(os.environ.get("SATURN_VIEW", "")) or [os.path.join(TOP, "view", "target", "release", "saturn-view")]
    return program, os.environ.get("SATURN_PROGRAMS") or os.path.join(TOP, "target", "bin")


def missing():
    """What is missing on the machine to make pages, or None."""
    program, programs = words()
    if not shutil.which(program[0]):
        return f"{program[0]} is missing. cargo build --release --offline --manifest-path view/Cargo.toml makes it"
    if not os.access(os.path.join(programs, "saturn_trace"), os.X_OK):
        return f"{programs} has no saturn_trace. launch/build makes it; or name a folder with the programs in SATURN_PROGRAMS"
    return None


def make(script, html):
    """Writes the page of a script to a file."""
    program, programs = words()
    with open(html, "wb") as file:
        try:
            done = subprocess.run(program + [programs, script], stdin=subprocess.DEVNULL, stdout=file, stderr=subprocess.PIPE,
                                  timeout=MAKING)
        except subprocess.TimeoutExpired:
            raise Failed(f"the page took more than {MAKING} s to make") from None
    if done.returncode:
        raise Failed(f"no page: status {done.returncode}, {done.stderr.decode(errors='replace').strip()[:200]}")


class Browser:
    """A running Chromium. To be used in a with statement."""

    def __init__(self, path):
        self.path, self.process, self.folder = path, None, None
        self.last, self.answers, self.pages, self.rest = 0, {}, {}, b""

    def __enter__(self):
        for number in (signal.SIGTERM, signal.SIGHUP):
            signal.signal(number, on_signal)
        self.folder = tempfile.mkdtemp(prefix="saturn-browser-")
        try:
            self.start()
            self.call("Browser.getVersion", seconds=60)
        except BaseException:
            self.__exit__()
            raise
        return self

    def start(self):
        """Starts Chromium, as the first of a process group, with our two pipes as its files 3 and 4."""
        theirs_in, ours_out = os.pipe()
        ours_in, theirs_out = os.pipe()
        self.out, self.into = ours_out, ours_in
        high = [fcntl.fcntl(end, fcntl.F_DUPFD_CLOEXEC, 10) for end in (theirs_in, theirs_out)]

        def place():
            os.dup2(high[0], 3)
            os.dup2(high[1], 4)
        flags = FLAGS + ["--user-data-dir=" + os.path.join(self.folder, "profile")]
        if os.geteuid() == 0:
            flags.append("--no-sandbox")
        with open(os.path.join(self.folder, "log"), "wb") as log:
            self.process = subprocess.Popen([self.path] + flags, stdin=subprocess.DEVNULL, stdout=log, stderr=log, pass_fds=(3, 4),
                                            preexec_fn=place, start_new_session=True)
        for end in [theirs_in, theirs_out] + high:
            os.close(end)
        os.set_blocking(self.out, False)

    def __exit__(self, *_):
        if self.process:
            self.end()
        shutil.rmtree(self.folder, ignore_errors=True)

    def end(self):
        """Closes the pipe and ends whatever is left of the process group."""
        for end in (self.out, self.into):
            os.close(end)
        try:
            self.process.wait(3)
        except subprocess.TimeoutExpired:
            pass
        try:
            os.killpg(self.process.pid, signal.SIGKILL)
        except ProcessLookupError:
            pass
        self.process.wait(10)
        self.process = None

    def why(self):
        """The last lines that Chromium wrote."""
        with open(os.path.join(self.folder, "log"), encoding="utf-8", errors="replace") as log:
            return "".join(log.readlines()[-5:]).strip()

    def post(self, method, params=None, session=None):
        """Sends a message and waits for nothing. Returns its number."""
        self.last += 1
        message = {"id": self.last, "method": method, "params": params or {}}
        if session:
            message["sessionId"] = session
        left, end = json.dumps(message).encode() + b"\0", time.monotonic() + ANSWER
        while left:
            if not select.select([], [self.out], [], max(0, end - time.monotonic()))[1]:
                raise Failed("Chromium takes no messages")
            try:
                left = left[os.write(self.out, left):]
            except BrokenPipeError:
                raise Failed("Chromium ended: " + self.why()) from None
        return self.last

    def call(self, method, params=None, session=None, seconds=ANSWER):
        """Sends a message and returns its answer."""
        number, end = self.post(method, params, session), time.monotonic() + seconds
        self.answers[number] = None
        while self.answers[number] is None:
            self.read(end, method)
        answer = self.answers.pop(number)
        if "error" in answer:
            raise Failed(f"{method}: {answer['error'].get('message')}")
        return answer["result"]

    def read(self, end, what):
        """Takes what Chromium has written; waits for it until end."""
        if not select.select([self.into], [], [], max(0, end - time.monotonic()))[0]:
            raise Failed(f"{what}: no answer in time")
        came = os.read(self.into, 1 << 20)
        if not came:
            raise Failed("Chromium ended: " + self.why())
        *messages, self.rest = (self.rest + came).split(b"\0")
        for message in map(json.loads, messages):
            if message.get("id") in self.answers:
                self.answers[message["id"]] = message
            elif message.get("sessionId") in self.pages:
                self.pages[message["sessionId"]].event(message["method"] if "method" in message else "", message.get("params", {}))


class Page:
    """A page from disk in a tab of its own, in a with statement. In faults is all that should not have happened in it."""

    def __init__(self, browser, path, width=1280, height=900, seconds=20):
        self.browser, self.url, self.width, self.height = browser, pathlib.Path(path).resolve().as_uri(), width, height
        self.faults, self.loaded, self.requests, self.end = [], False, 0, time.monotonic() + seconds

    def __enter__(self):
        self.target = self.browser.call("Target.createTarget", {"url": "about:blank"})["targetId"]
        self.session = self.browser.call("Target.attachToTarget", {"targetId": self.target, "flatten": True})["sessionId"]
        self.browser.pages[self.session] = self
        try:
            self.open()
        except BaseException:
            self.__exit__()
            raise
        return self

    def open(self):
        for domain in ("Page", "Runtime", "Log", "Network", "Audits", "Inspector"):
            self.call(domain + ".enable")
        self.call("Fetch.enable", {"patterns": [{"urlPattern": "*"}]})
        self.size(self.width, self.height)
        self.media()
        self.call("Page.bringToFront")
        self.call("Page.navigate", {"url": self.url})
        self.until(lambda: self.loaded, "the page is not loaded", step=0)

    def __exit__(self, *_):
        del self.browser.pages[self.session]
        try:
            self.browser.call("Target.closeTarget", {"targetId": self.target}, seconds=5)
        except Failed:
            pass  # what went wrong before says more

    def event(self, method, params):
        """Notes what happened in the page; lets nothing through but the page itself."""
        if method == "Page.loadEventFired":
            self.loaded = True
        elif method == "Fetch.requestPaused":
            own = self.own(params["request"]["url"])
            more = {} if own else {"errorReason": "AccessDenied"}
            self.browser.post("Fetch." + ("continueRequest" if own else "failRequest"),
                              dict(more, requestId=params["requestId"]), self.session)
        elif method == "Network.requestWillBeSent":
            self.requests += 1
            if not self.own(params["request"]["url"]):
                self.faults.append("a request for " + params["request"]["url"][:200])
        else:
            self.note(method, params)

    def own(self, url):
        return url.partition("#")[0] == self.url

    def note(self, method, params):
        """Adds to the faults, if it is one."""
        if method == "Network.loadingFailed":
            self.faults.append("a failed request: " + params.get("blockedReason", params["errorText"]))
        elif method == "Runtime.consoleAPICalled" and params["type"] in ("error", "warning", "assert"):
            self.faults.append(f"console {params['type']}: " + " ".join(str(one.get("value")) for one in params["args"]))
        elif method == "Runtime.exceptionThrown":
            details = params["exceptionDetails"]
            self.faults.append("exception: " + details.get("exception", {}).get("description", details["text"]).split("\n")[0])
        elif method == "Log.entryAdded" and params["entry"]["level"] in ("error", "warning"):
            self.faults.append(f"log {params['entry']['level']}: {params['entry']['text'][:200]}")
        elif method == "Inspector.targetCrashed":
            self.faults.append("the tab crashed")
        elif method == "Audits.issueAdded" and params["issue"]["code"] in ("ContentSecurityPolicyIssue", "QuirksModeIssue"):
            self.faults.append("browser issue: " + params["issue"]["code"])

    def call(self, method, params=None):
        left = self.end - time.monotonic()
        if left <= 0:
            raise Failed("the page takes too long")
        return self.browser.call(method, params, self.session, min(ANSWER, left))

    def until(self, test, what, seconds=3, step=0.03):
        """Waits until test() holds, and returns what it gave."""
        end = min(self.end, time.monotonic() + (seconds if step else ANSWER))
        while True:
            found = test()
            if found:
                return found
            if time.monotonic() > end:
                raise Failed(what)
            if step:
                time.sleep(step)
            else:
                self.browser.read(end, what)

    def run(self, text):
        """The value of a JavaScript expression in the page; a promise is waited for."""
        given = {"expression": text, "returnByValue": True, "awaitPromise": True}
        answer = self.call("Runtime.evaluate", given)
        if "exceptionDetails" in answer:
            raise Failed(answer["exceptionDetails"].get("exception", {}).get("description", "exception") + " in " + text[:80])
        return answer["result"].get("value")

    def frame(self):
        """Waits until what was done is drawn."""
        self.run("new Promise(done => requestAnimationFrame(() => requestAnimationFrame(() => done(1))))")

    def size(self, width, height):
        self.width, self.height = width, height
        self.call("Emulation.setDeviceMetricsOverride", {"width": width, "height": height, "deviceScaleFactor": 1, "mobile": False})

    def media(self, media="", scheme="light", forced="none"):
        """The medium, 'print' or '' for the screen; the colour scheme; forced colours, 'active' or 'none'."""
        features = [{"name": "prefers-color-scheme", "value": scheme}, {"name": "forced-colors", "value": forced}]
        self.call("Emulation.setEmulatedMedia", {"media": media, "features": features})

    def mouse(self, kind, x, y, **more):
        self.call("Input.dispatchMouseEvent", dict(more, type=kind, x=x, y=y))

    def click(self, x, y):
        self.mouse("mouseMoved", x, y)
        self.mouse("mousePressed", x, y, button="left", buttons=1, clickCount=1)
        self.mouse("mouseReleased", x, y, button="left", clickCount=1)

    def wheel(self, x, y, right, down):
        self.mouse("mouseWheel", x, y, deltaX=right, deltaY=down)
        self.frame()

    def key(self, name):
        """Presses Tab, Space or Enter."""
        number, text = KEYS[name]
        given = {"key": text or name, "code": name, "windowsVirtualKeyCode": number}
        self.call("Input.dispatchKeyEvent", dict(given, type="keyDown", **({"text": text} if text else {})))
        self.call("Input.dispatchKeyEvent", dict(given, type="keyUp"))

    def picture(self, path, height=None):
        """A PNG of the page from its top, of this height or of all of it, at most 16,000 pixels."""
        self.call("Emulation.setScrollbarsHidden", {"hidden": True})
        whole = self.run("document.documentElement.scrollHeight")
        clip = {"x": 0, "y": 0, "width": self.width, "height": min(height or whole, 16000), "scale": 1}
        given = {"format": "png", "captureBeyondViewport": True, "clip": clip}
        self.save(path, self.call("Page.captureScreenshot", given)["data"])
        self.call("Emulation.setScrollbarsHidden", {"hidden": False})

    def pdf(self, path):
        """Prints the page as from a dialog with A4 upright, and returns the bytes of the PDF."""
        given = {"paperWidth": 8.27, "paperHeight": 11.69, "preferCSSPageSize": True, "generateTaggedPDF": False}
        return self.save(path, self.call("Page.printToPDF", given)["data"])

    @staticmethod
    def save(path, data):
        data = base64.b64decode(data)
        with open(path, "wb") as file:
            file.write(data)
        return data
