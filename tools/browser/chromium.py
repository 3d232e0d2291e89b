"""Chromium without a window, driven by the DevTools protocol over the pipe that it offers (file descriptors 3 and 4):
no port is open, and it ends with whoever drives it."""

import base64
import contextlib
import fcntl
import json
import os
import queue
import shutil
import subprocess
import sys
import threading
import time

# for a machine with other work beside it: of a call, and of an installation
SECONDS, INSTALL_SECONDS = 120, 900
FLAGS = [
    "--headless", "--remote-debugging-pipe", "--disable-gpu", "--no-first-run", "--mute-audio",
    "--disable-background-networking", "--disable-component-update", "--disable-sync", "--disable-default-apps",
    "--disable-dev-shm-usage", "--disable-features=Translate,OptimizationHints,MediaRouter",
    "--window-size=1000,800",
]
# for tests: nothing but this machine can be reached
HERE_ALONE = "--host-resolver-rules=MAP * ~NOTFOUND, EXCLUDE 127.0.0.1"
KEYS = {"Enter": (13, "\r"), "Tab": (9, ""), "ArrowDown": (40, "")}
ALT, CTRL, SHIFT = 1, 2, 8


class Fault(Exception):
    """The browser refused a call, or didn't do in time what was waited for."""


class Late(Fault):
    """It wasn't done in time."""


def install():
    """The path of Chromium, which apt-get installs where it is missing; the program ends where it can't."""
    found = shutil.which("chromium")
    if not found:
        print("chromium is missing: apt-get installs it", flush=True)
        asks_nothing = {**os.environ, "DEBIAN_FRONTEND": "noninteractive"}
        how = {"stdin": subprocess.DEVNULL, "stdout": subprocess.DEVNULL, "check": True, "env": asks_nothing}
        apt = ["apt-get", "-qq", "-o", "Acquire::Retries=3", "-o", "DPkg::Lock::Timeout=300"]
        try:
            for words in (["update"], ["install", "-y", "--no-install-recommends", "chromium"]):
                subprocess.run([*apt, *words], timeout=INSTALL_SECONDS, **how)
        except (OSError, subprocess.SubprocessError) as why:
            sys.exit(f"chromium can't be installed: {why}")
        found = shutil.which("chromium")
    return found


def until(what, holds, seconds=SECONDS):
    """What `holds` answers, once it answers something."""
    end, pause = time.monotonic() + seconds, 0.02
    while True:
        answer = holds()
        if answer:
            return answer
        if time.monotonic() > end:
            raise Late(f"waited {seconds} s in vain: {what}")
        time.sleep(pause)
        # a slow machine has other things to do
        pause = min(pause * 1.1, 0.2)


def soon(holds, seconds=20):
    """Waits for what may never be."""
    try:
        until("", holds, seconds)
    except Fault:
        pass


def start(call, **how):
    """A process that ends where this one does, however that ends."""
    return subprocess.Popen(["setpriv", "--pdeathsig", "KILL", *call], **how)


class Browser:
    def __init__(self, profile, flags=()):
        asks, self.asks = (fcntl.fcntl(end, fcntl.F_DUPFD_CLOEXEC, 10) for end in os.pipe())
        self.answers, answers = (fcntl.fcntl(end, fcntl.F_DUPFD_CLOEXEC, 10) for end in os.pipe())
        root = ["--no-sandbox"] if os.geteuid() == 0 else []
        call = [install(), *FLAGS, *root, *flags, f"--user-data-dir={profile}", "about:blank"]
        # the shell puts the ends of the pipes where Chromium looks for them
        place = f'exec "$@" 3<&{asks} 4>&{answers} {asks}<&- {answers}>&-'
        self.log = open(f"{profile}.log", "wb")
        self.process = subprocess.Popen(
            ["bash", "-c", place, "bash", *call], pass_fds=(asks, answers), stdin=subprocess.DEVNULL,
            stdout=self.log, stderr=self.log, start_new_session=True,
        )
        os.close(asks)
        os.close(answers)
        self.lock, self.number, self.waiting, self.tabs, self.front = threading.Lock(), 0, {}, [], None
        # frames with a process of their own, in tabs that are watched; and what is told of those that are gone
        self.frames, self.gone = [], []
        self.trace, self.is_traced = [], threading.Event()
        threading.Thread(target=self.read, daemon=True).start()
        self.call("Target.setAutoAttach", autoAttach=True, waitForDebuggerOnStart=False, flatten=True)
        until("the first tab", lambda: self.tabs)

    def read(self):
        rest = b""
        while piece := os.read(self.answers, 1 << 16):
            *whole, rest = (rest + piece).split(b"\0")
            for text in whole:
                self.take(json.loads(text))

    def take(self, said):
        if "id" in said:
            if said["id"] in self.waiting:
                self.waiting.pop(said["id"]).put(said)
        elif said["method"] == "Tracing.dataCollected":
            self.trace += said["params"]["value"]
        elif said["method"] == "Tracing.tracingComplete":
            self.is_traced.set()
        elif said["method"] == "Target.attachedToTarget" and said["params"]["targetInfo"]["type"] == "page":
            self.tabs.append(Tab(self, said["params"]))
            # a window that a script opens waits for this, and the script with it
            self.call("Runtime.runIfWaitingForDebugger", said["params"]["sessionId"], is_awaited=False)
        elif said["method"] == "Target.attachedToTarget" and said["params"]["targetInfo"]["type"] == "iframe":
            frame = Tab(self, said["params"])
            self.frames.append(frame)
            frame.watch(is_awaited=False)
            self.call("Runtime.runIfWaitingForDebugger", frame.session, is_awaited=False)
        elif said["method"] == "Target.detachedFromTarget":
            session = said["params"]["sessionId"]
            self.gone += [told for frame in self.frames if frame.session == session for told in frame.events]
            self.tabs = [tab for tab in self.tabs if tab.session != session]
            self.frames = [frame for frame in self.frames if frame.session != session]
        elif "sessionId" in said:
            for tab in self.tabs + self.frames:
                if tab.session == said["sessionId"]:
                    tab.events.append(said)

    def call(self, method, session=None, is_awaited=True, **params):
        with self.lock:
            self.number += 1
            number = self.number
            answer = self.waiting[number] = queue.Queue()
            asked = {"id": number, "method": method, "params": params} | ({"sessionId": session} if session else {})
            os.write(self.asks, json.dumps(asked).encode() + b"\0")
        if not is_awaited:
            return None
        try:
            said = answer.get(timeout=SECONDS)
        except queue.Empty:
            raise Late(f"no answer to {method}") from None
        if "error" in said:
            raise Fault(f"{method}: {said['error']['message']}")
        return said["result"]

    def open(self, address=None, **where):
        """A new tab, at an address."""
        made = self.call("Target.createTarget", url="about:blank", **where)["targetId"]
        tab = until("a tab", lambda: next((it for it in self.tabs if it.target == made), None))
        self.front = None
        if address:
            tab.go(address)
        return tab

    @contextlib.contextmanager
    def stranger(self):
        """A tab of somebody else, with no cookie and nothing stored."""
        context = self.call("Target.createBrowserContext")["browserContextId"]
        tab = self.open(browserContextId=context)
        try:
            yield tab
        finally:
            self.call("Target.disposeBrowserContext", browserContextId=context)
            until("the tab's end", lambda: tab not in self.tabs)
            self.front = None

    def opened(self, act):
        """The tab that this act opens."""
        before = {tab.target for tab in self.tabs}
        act()
        self.front = None
        tab = until("a new tab", lambda: next((it for it in self.tabs if it.target not in before), None))
        tab.loaded()
        return tab

    def traced(self, act):
        """What ran while this was done: events of the trace, with times of the thread's own clock."""
        self.trace.clear()
        self.is_traced.clear()
        categories = {"includedCategories": ["devtools.timeline"]}
        self.call("Tracing.start", traceConfig=categories, transferMode="ReportEvents")
        act()
        self.call("Tracing.end")
        if not self.is_traced.wait(SECONDS):
            raise Late("no trace")
        return self.trace

    def close(self):
        os.close(self.asks)
        try:
            self.process.wait(10)
        except subprocess.TimeoutExpired:
            os.killpg(self.process.pid, 9)
            self.process.wait()
        self.log.close()


class Tab:
    def __init__(self, browser, params):
        self.browser, self.session = browser, params["sessionId"]
        self.target = params["targetInfo"]["targetId"]
        self.events = []

    def call(self, method, **params):
        return self.browser.call(method, self.session, **params)

    def watch(self, is_awaited=True):
        """Has all that scripts, loads and dialogs do told, here and in each frame, from its beginning on."""
        for domain in ("Runtime", "Page", "Network"):
            self.browser.call(f"{domain}.enable", self.session, is_awaited)
        how = {"autoAttach": True, "waitForDebuggerOnStart": True, "flatten": True}
        self.browser.call("Target.setAutoAttach", self.session, is_awaited, **how)

    def run(self, script):
        """What a script answers in the page, as JSON has it; it may be a promise."""
        said = self.call("Runtime.evaluate", expression=script, returnByValue=True, awaitPromise=True)
        if "exceptionDetails" in said:
            raise Fault(f"{script[:80]}: {said['exceptionDetails']}")
        return said["result"].get("value")

    def go(self, address):
        before = self.born()
        said = self.call("Page.navigate", url=address)
        if said.get("errorText"):
            raise Fault(f"{address}: {said['errorText']}")
        self.moved(before)

    def born(self):
        try:
            return self.run("performance.timeOrigin")
        except Fault:
            return None

    def holds(self, script):
        """Waits until that holds in the page that is there then."""
        def found():
            try:
                return self.run(f"!!({script})")
            except Fault:
                return False
        until(script, found)

    def loaded(self):
        self.holds("document.readyState === 'complete' && location.href !== 'about:blank'")

    def moved(self, before):
        """Waits until another page is there than that which began then."""
        until("another page", lambda: self.born() not in (before, None))
        self.loaded()

    def leads(self, act):
        """Waits until the page that this act leads to is there."""
        before = self.born()
        act()
        self.moved(before)

    def place(self, selector):
        spot = self.run(f"""(() => {{
            const el = document.querySelector({json.dumps(selector)});
            if (!el) return null;
            el.scrollIntoView({{ block: "center" }});
            const {{ x, y, width, height }} = el.getBoundingClientRect();
            return [x + width / 2, y + height / 2];
        }})()""")
        if not spot:
            raise Fault(f"{selector} isn't on {self.run('location.href')}")
        return spot

    def click(self, selector, modifiers=0, button="left"):
        self.click_at(*self.place(selector), modifiers, button)

    def come_forward(self):
        """A tab that isn't seen takes no input."""
        if self.browser.front is not self:
            self.call("Page.bringToFront")
            self.browser.front = self

    def click_at(self, x, y, modifiers=0, button="left"):
        self.come_forward()
        self.call("Input.dispatchMouseEvent", type="mouseMoved", x=x, y=y)
        for kind in ("mousePressed", "mouseReleased"):
            self.call("Input.dispatchMouseEvent", type=kind, x=x, y=y, button=button, clickCount=1, modifiers=modifiers)

    def key(self, key):
        self.come_forward()
        code, text = KEYS.get(key, (ord(key.upper()[0]), key))
        about = {"key": key, "code": key if len(key) > 1 else "", "windowsVirtualKeyCode": code}
        self.call("Input.dispatchKeyEvent", type="keyDown", text=text, **about)
        self.call("Input.dispatchKeyEvent", type="keyUp", **about)

    def command(self, name):
        """An editing command, as its key gives it: selectAll, copy, cut, paste, undo."""
        self.come_forward()
        self.call("Input.dispatchKeyEvent", type="rawKeyDown", key="F12", commands=[name])
        self.call("Input.dispatchKeyEvent", type="keyUp", key="F12")

    def drop(self, selector, text):
        """Drops a text there."""
        self.come_forward()
        x, y = self.place(selector)
        data = {"items": [{"mimeType": "text/plain", "data": text}], "dragOperationsMask": 1}
        for kind in ("dragEnter", "dragOver", "drop"):
            self.call("Input.dispatchDragEvent", type=kind, x=x, y=y, data=data)

    def answer(self, selector, yes):
        """Clicks, and answers the question that the page asks then: whether to go on, or to leave."""
        self.call("Page.enable")
        self.events.clear()
        x, y = self.place(selector)
        self.come_forward()
        for kind in ("mousePressed", "mouseReleased"):
            about = {"type": kind, "x": x, "y": y, "button": "left", "clickCount": 1}
            self.browser.call("Input.dispatchMouseEvent", self.session, False, **about)
        until("a question", lambda: any(it["method"] == "Page.javascriptDialogOpening" for it in list(self.events)))
        self.call("Page.handleJavaScriptDialog", accept=yes)

    def type(self, text):
        """Types a text key by key."""
        for letter in text:
            self.key("Enter" if letter == "\n" else letter)

    def fill(self, selector, text):
        """Puts a text into a field as a paste does, behind what it holds."""
        self.click(selector)
        self.run(f"(() => {{ const el = document.querySelector({json.dumps(selector)});"
                 "try { el.setSelectionRange(el.value.length, el.value.length) } catch {} })()")
        self.call("Input.insertText", text=text)

    def back(self, by=-1):
        history = self.call("Page.getNavigationHistory")
        entry = history["entries"][history["currentIndex"] + by]["id"]
        self.call("Page.navigateToHistoryEntry", entryId=entry)

    def offline(self, yes):
        self.call("Network.enable")
        rates = {"latency": 0, "downloadThroughput": -1, "uploadThroughput": -1}
        self.call("Network.emulateNetworkConditions", offline=yes, **rates)

    def crash(self):
        """Its process ends at once, as in a crash."""
        self.call("Page.crash", is_awaited=False)
        time.sleep(0.5)

    def shot(self, path):
        said = self.call("Page.captureScreenshot", format="png")
        with open(path, "wb") as file:
            file.write(base64.b64decode(said["data"]))

    def close(self):
        self.browser.call("Target.closeTarget", targetId=self.target)
        self.browser.front = None
        until("the tab's end", lambda: self not in self.browser.tabs)


if __name__ == "__main__":
    install()
