"""The administrator's page in Chromium: each part is a function of the test `review` of tools/browser_tests."""

import collections
import contextlib
import html.parser
import json
import pathlib
import re
import signal
import subprocess
import time
import urllib.parse

import review_sites
from chromium import Late, start, until
import tried
from tried import Wrong, free_port

SECONDS, STARTS = 300, 120
# the answer's status, in a page
STATUS = "performance.getEntriesByType('navigation')[0].responseStatus"
# what the page itself asks for
OWN_PATHS = {"/", "/client", "/visit", "/page", "/search", "/report", "/state", "/decide", "/review.css", "/page.css",
             "/review.js", "/favicon.ico"}


def want(what, found, wanted):
    if found != wanted:
        raise Wrong(f"{what}:\n        found  {found}\n        wanted {wanted}")


class Review:
    """The program over a site's file and uploads, at one port, however often it is started."""

    def __init__(self, room, site, uploads):
        self.room, self.site, self.uploads, self.port = room, site, [str(it) for it in uploads], free_port()
        self.origin = f"http://127.0.0.1:{self.port}"
        self.start()

    def start(self):
        call = [self.room.review, "review", str(self.port), str(self.site), *self.uploads]
        self.process = start(call, stdin=subprocess.DEVNULL, stdout=subprocess.DEVNULL, stderr=subprocess.PIPE)
        said = self.process.stderr.readline().decode()
        want("what it says at its start", said, f"{self.origin}/\n")

    def end(self, how=signal.SIGTERM):
        self.process.send_signal(how)
        self.process.wait()
        self.process.stderr.close()

    def replayed(self):
        """The report that `replay` writes of the site's file as it stands."""
        call = [self.room.program, "replay", str(self.site), *self.uploads]
        ran = subprocess.run(call, stdin=subprocess.DEVNULL, capture_output=True, timeout=SECONDS)
        if ran.returncode not in (0, 4):
            raise Wrong(f"replay ended with {ran.returncode}: {ran.stderr}")
        return ran.stdout

    def visit(self, client, visit):
        return f"{self.origin}/visit?c={client}&v={visit}"


@contextlib.contextmanager
def reviewed(room, name, site, uploads, names=None):
    """The program over these, in a folder of that name."""
    review = Review(room, *review_sites.write(pathlib.Path(room.folder) / name, site, uploads, names))
    try:
        yield review
    finally:
        review.end()


@contextlib.contextmanager
def watched(room, address=None):
    """A tab of which all is told that scripts, loads and dialogs do."""
    room.browser.gone.clear()
    tab = room.browser.open()
    tab.watch()
    look(tab)
    if address:
        tab.go(address)
    try:
        yield tab
    finally:
        tab.close()


def look(tab, scheme="light", width=1280, height=900, zoom=1):
    """How a tab is looked at; zoom leaves fewer of the lengths that pages are measured by."""
    size = {"width": width // zoom, "height": height // zoom, "deviceScaleFactor": zoom, "mobile": False}
    tab.call("Emulation.setDeviceMetricsOverride", **size)
    # what scrolls smoothly isn't where it is clicked
    wishes = [("prefers-reduced-motion", "reduce"), ("prefers-color-scheme", scheme)]
    tab.call("Emulation.setEmulatedMedia", features=[{"name": name, "value": value} for name, value in wishes])


def standing(report):
    """Of each client each visit's state, with its conflict."""
    clients = {}
    for line in report.decode().splitlines():
        word, _, rest = line.partition(" ")
        if word == "client":
            visits = clients[rest.split(" ")[0]] = {}
        elif word == "visit":
            number, _, state = rest.partition(" ")
            visits[int(number)] = state
    return clients


def fronts(report):
    """The first visit that waits of each client that has one, in their order."""
    found = []
    for client, visits in standing(report).items():
        waiting = [number for number, state in visits.items() if state.startswith("waiting")]
        found += [(client, waiting[0])] if waiting else []
    return found


def below(upload, visit):
    """What a visit led to, by parents."""
    found = {visit}
    for line in upload.lines:
        if line["t"] == "load" and line.get("parent") in found:
            found.add(line["visit"])
    return sorted(found - {visit})


def texts(tab, selector):
    return tab.run(f"[...document.querySelectorAll({json.dumps(selector)})].map((it) => it.textContent)")


def report_of(tab):
    """The bytes of the report, as the page's own origin gets them."""
    found = tab.run("fetch('/report').then((it) => it.arrayBuffer()).then((it) => [...new Uint8Array(it)])")
    return bytes(found)


def form_of(tab):
    """Client and visit of the forms that a decision is sent by, and their buttons."""
    return tab.run("""[...document.querySelectorAll("form[data-visit]")].map((form) =>
        [form.dataset.client, +form.dataset.visit, form.querySelector("button").name])""")


def note_of(tab):
    return " ".join(texts(tab, ".note[role=status]:not([hidden])"))


def line_of(client, visit, choice):
    return f'{{"decide":["{client}",{visit},"{choice}"]}}\n'.encode()


# ---- decisions


class Deciding:
    """All conflicts of a site decided, one after another; `press` is how a link is followed or a button pressed."""

    def __init__(self, tab, review, uploads, press):
        self.tab, self.review, self.press = tab, review, press
        self.uploads = {upload.client: upload for upload in uploads}
        self.report, self.count, self.moves = review.replayed(), 0, 0

    def run(self):
        self.tab.go(f"{self.review.origin}/")
        while waiting := fronts(self.report):
            listed = [re.match(r"(\S+), visit (\d+)", it).groups() for it in texts(self.tab, ".fronts a")]
            want("what is to be decided first", [(client, int(visit)) for client, visit in listed], waiting)
            self.follow(".fronts a")
            client = waiting[0][0]
            while mine := dict(fronts(self.report)).get(client):
                self.decide(client, mine)
            want("where the last decision leads", self.tab.run("location.pathname"), "/client")
            self.follow("nav a[href='/']")
        want("what is left", texts(self.tab, ".fronts a"), [])
        want("what the page says of it", "Nothing waits." in self.tab.run("document.body.innerText"), True)
        return self.count

    def follow(self, selector):
        self.tab.leads(lambda: self.press(self.tab, selector))
        self.moves += 1

    def decide(self, client, visit):
        tab, choice = self.tab, "keep" if self.count % 2 else "cancel"
        want("the forms", form_of(tab), [[client, visit, "keep"], [client, visit, "cancel"]])
        led = below(self.uploads[client], visit)
        named = [it.split(" ")[1] for it in texts(tab, ".along li a")]
        want(f"what goes with {client}'s visit {visit}", named, [str(it) for it in led])
        is_told = f"and {len(led)} visit" in " ".join(texts(tab, "button[name=cancel]"))
        want("that they go with it is said on the button", is_told, led != [])
        before = self.review.site.read_bytes()
        self.follow(f"button[name={choice}]")
        self.count += 1
        want("the site's file", self.review.site.read_bytes(), before + line_of(client, visit, choice))
        self.report = self.review.replayed()
        want("the report", report_of(tab), self.report)
        done, states = "kept" if choice == "keep" else "cancelled", standing(self.report)[client]
        want("what is told of it", f"Visit {visit} is {done}" in note_of(tab), True)
        want("its state", states[visit].split(" ")[0], done)
        if choice == "cancel":
            want("theirs", {states[it].split(" ")[0] for it in led} - {"cancelled"}, set())


SITES = {"paths": review_sites.each_conflict, "elements": review_sites.by_elements}


def try_clicks(room):
    """All conflicts of a site clicked down to none: each decision is a line of the file, and the report is replay's."""
    count = 0
    for name, make in SITES.items():
        site, uploads, wanted = make()
        with reviewed(room, f"clicks_{name}", site, uploads) as review, watched(room) as tab:
            found = [(client, number, state.split(" ")[1]) for client, visits in standing(review.replayed()).items()
                     for number, state in visits.items() if state.startswith("waiting")]
            want("conflicts", found, wanted)
            count += Deciding(tab, review, uploads, lambda tab, selector: tab.click(selector)).run()
            tab.leads(lambda: tab.click("nav a[href='/report']"))
            want("the report as it is seen", tab.run("document.body.textContent"), review.replayed().decode())
            want("what went wrong in the page", told_of(tab, review), [])
    return f"{count} conflicts by mouse"


def by_keys(tab, selector):
    """Goes there by Tab, and presses Enter; whoever has the focus must be outlined."""
    for _ in range(400):
        tab.key("Tab")
        if tab.run(f"document.activeElement === document.querySelector({json.dumps(selector)})"):
            break
    else:
        raise Wrong(f"no way to {selector} by Tab on {tab.run('location.href')}")
    outline = tab.run("(() => { const it = getComputedStyle(document.activeElement);"
                      "return [it.outlineStyle, parseFloat(it.outlineWidth) >= 3] })()")
    want(f"the outline of {selector}", outline, ["solid", True])
    tab.key("Enter")


def try_keys(room):
    """The same by keys alone; and the way past the head, and a search."""
    site, uploads, _ = review_sites.each_conflict()
    with reviewed(room, "keys", site, uploads) as review, watched(room, f"{review.origin}/") as tab:
        tab.key("Tab")
        want("the first stop", tab.run("document.activeElement.className"), "skip")
        tab.key("Enter")
        tab.key("Tab")
        is_behind = tab.run("document.activeElement.matches('main a, main summary')")
        want("the stop behind the way past the head", is_behind, True)
        tab.go(f"{review.origin}/")
        by_keys_to_search(tab)
        want("found", texts(tab, ".tree a"), ["ann, visit 5"])
        count = Deciding(tab, review, uploads, by_keys).run()
    return f"{count} by keys"


def by_keys_to_search(tab):
    while not tab.run("document.activeElement.matches('#q')"):
        tab.key("Tab")
    tab.type("K5")
    tab.leads(lambda: tab.key("Enter"))


def try_tabs(room):
    """Two tabs on one visit: the second one's decision is answered by the desk, and it is told before."""
    site, uploads, _ = review_sites.each_conflict()
    with reviewed(room, "tabs", site, uploads) as review, \
            watched(room, review.visit("ann", 1)) as one, watched(room, review.visit("ann", 1)) as other:
        want("a note before", texts(other, "#meanwhile:not([hidden])"), [])
        one.leads(lambda: one.click("button[name=keep]"))
        before = review.site.read_bytes()
        one.key("Tab")
        other.come_forward()
        until("the note", lambda: texts(other, "#meanwhile:not([hidden])"))
        want("the note", "Another browser has decided" in texts(other, "#meanwhile:not([hidden])")[0], True)
        other.leads(lambda: other.click("button[name=cancel]"))
        want("the answer", texts(other, "strong"), ["C2 front 5"])
        want("the answer's status", other.run(STATUS), 409)
        want("it is an alert", len(texts(other, "[role=alert]")), 1)
        picture(room, other, "review_refused_light", {})
        want("the file", review.site.read_bytes(), before)
        want("the report", report_of(other), review.replayed())
        other.leads(lambda: other.click("main > p:not(.note) a"))
        want("where its link leads", form_of(other)[0][:2], ["ann", 5])
        # a page that the browser has kept is that of before: it is loaded anew
        other.leads(lambda: other.back(-2))
        until("its state", lambda: texts(other, "h1 .state") == ["kept"])
        want("its forms", form_of(other), [])
        for step in range(2):
            one.leads(lambda: one.click("button[name=keep]"))
        want("the last one's page", one.run("location.pathname"), "/client")
        other.go(review.visit("bob", 1))
        one.go(review.visit("bob", 1))
        # twice on one button: one decision
        x, y = one.place("button[name=keep]")
        before = review.site.read_bytes()
        one.leads(lambda: [one.click_at(x, y), one.click_at(x, y)])
        want("the file", review.site.read_bytes(), before + line_of("bob", 1, "keep"))
        want("the page", one.run("location.pathname + location.search"), "/visit?c=bob&v=2&told=1")
    return "two tabs"


def try_starts(room):
    """Ended and started again, also by a kill, it shows the same; a page of before is told to load anew."""
    site, uploads, _ = review_sites.each_conflict()

    def views(tab):
        found = []
        for path in ("/", "/client?c=ann", "/client?c=bob", "/visit?c=ann&v=5", "/visit?c=ann&v=2", "/search?q=K2",
                     "/state"):
            tab.go(review.origin + path)
            found.append(tab.run("document.body.innerText"))
        return found + [report_of(tab)]

    with reviewed(room, "starts", site, uploads) as review, watched(room, review.visit("ann", 1)) as tab, \
            watched(room) as old:
        tab.leads(lambda: tab.click("button[name=cancel]"))
        for how in (signal.SIGTERM, signal.SIGKILL):
            before, kept = views(tab), review.site.read_bytes()
            old.go(review.visit("ann", 5))
            review.end(how)
            review.start()
            want("what is shown", views(tab), before)
            old.leads(lambda: old.click("button[name=keep]"))
            want("a decision by a page of before", old.run(STATUS), 403)
            want("what it is told", "Load it anew" in old.run("document.body.innerText"), True)
            want("the file", review.site.read_bytes(), kept)
    return "2 starts"


def try_along(room):
    """What a cancel would take along is named before, and stands cancelled behind it; of many the first hundred."""
    old = review_sites.guestbook(review_sites.GIFT)
    site = [{"patched": ["/guestbook"], "pages": {"/guestbook": review_sites.guestbook()}}]
    upload = review_sites.Upload("ann")
    first = upload.visit("/guestbook", old, ("click", "/html/body/a", 1))
    beside = upload.visit("/news", old)
    last = first
    for number in range(150):
        # a chain, with a short branch at each tenth
        child = upload.visit(f"/news?{number}", old, parent=last, made=1)
        last = last if number % 10 == 9 else child
    with reviewed(room, "along", site, [upload]) as review, watched(room, review.visit("ann", first)) as tab:
        led = below(upload, first)
        want("all that it led to", len(led), 150)
        want("those that are named", texts(tab, ".along li a"), [f"Visit {it}" for it in led[:100]] + ["and 50 more"])
        want("the button", texts(tab, "button[name=cancel]"), ["Cancel visit 1, and 150 visits with it"])
        states = standing(review.replayed())["ann"]
        want("before", {state for number, state in states.items() if number in led}, {"untouched"})
        tab.leads(lambda: tab.click("button[name=cancel]"))
        states = standing(review.replayed())["ann"]
        want("behind", {state for number, state in states.items() if number in led}, {"cancelled"})
        want("what it didn't lead to", states[beside], "untouched")
        shown = texts(tab, ".tree li")
        want("cancelled ones of the tree", sum("cancelled" in it for it in shown), 151)
        want("the report", report_of(tab), review.replayed())
    return "151 visits cancelled by one decision"


# ---- pages in frames


def walk(node):
    yield node
    for child in node.get("children", []):
        yield from walk(child)


def attributes(node):
    pairs = node.get("attributes", [])
    return dict(zip(pairs[::2], pairs[1::2]))


def text_in(node):
    return "".join(it["nodeValue"] for it in walk(node) if it["nodeName"] == "#text")


class Frame:
    """A drawn page, as DevTools have its document: no script of ours runs there, either."""

    def __init__(self, tab, node):
        self.about = attributes(node)
        own = [it for it in tab.browser.frames if it.target == node.get("frameId")]
        self.session = own[0] if own else tab
        self.root = self.session.call("DOM.getDocument", depth=-1)["root"] if own else node["contentDocument"]
        self.nodes = list(walk(self.root))
        self.text = text_in(self.root)

    def classed(self, name):
        return [it for it in self.nodes if name in attributes(it).get("class", "").split(" ")]

    def marks(self):
        """Names and marks of the elements that are marked, and what the gap is in."""
        found = [(attributes(it).get("data-n"), attributes(it)["data-mark"]) for it in self.classed("target")]
        for gap in self.classed("gap"):
            parent = next(it for it in self.nodes if gap in it.get("children", []))
            found.append(("gap in", attributes(parent).get("data-n")))
        return found

    def box(self):
        """Where what is marked first begins, counted from the frame's upper edge, and how high the frame is."""
        node = next((it for it in self.nodes if attributes(it).get("id") == "target"), None)
        if node is None:
            return None
        quad = self.session.call("DOM.getContentQuads", nodeId=node["nodeId"])["quads"][0]
        height = self.session.call("Page.getLayoutMetrics")["cssVisualViewport"]["clientHeight"]
        return quad[1], height


def frames_of(tab, count=2):
    """The drawn pages of a visit, once they are there."""
    def found():
        root = tab.call("DOM.getDocument", depth=-1, pierce=True)["root"]
        nodes = [it for it in walk(root) if it["nodeName"] == "IFRAME"]
        try:
            frames = [Frame(tab, node) for node in nodes]
        except KeyError:
            return None
        return len(frames) == count and all(it.classed("a") or it.text.strip() for it in frames) and frames
    return until("the drawn pages", found)


VIEWS = {
    "overview": "/", "client": "/client?c=ann", "front": "/visit?c=ann&v=1", "texts": "/visit?c=ann&v=5",
    "gap": "/visit?c=ann&v=6", "several": "/visit?c=bob&v=1", "button": "/visit?c=bob&v=4",
    "no_page": "/visit?c=cy&v=1", "watched": "/visit?c=cy&v=2", "opener": "/visit?c=cy&v=4", "done": "/visit?c=ann&v=4",
    "search": "/search?q=/guestbook", "report": "/report",
    "drawn": "/page?c=ann&v=1&of=repaired", "missing": "/visit?c=zoe&v=1",
}
LOOKS = {
    "light": {}, "dark": {"scheme": "dark"}, "zoom": {"zoom": 2}, "narrow": {"width": 390, "height": 844},
    "narrow_dark": {"width": 390, "height": 844, "scheme": "dark"},
}
# texts whose colours are less than 4.5 to 1, large ones 3 to 1, of WCAG 2.1, 1.4.3
FAINT = """(() => {
    const part = (it) => (it /= 255) <= 0.03928 ? it / 12.92 : ((it + 0.055) / 1.055) ** 2.4;
    const light = ([r, g, b]) => 0.2126 * part(r) + 0.7152 * part(g) + 0.0722 * part(b);
    const colour = (it) => it.match(/[\d.]+/g).map(Number);
    const behind = (el) => {
        for (; el; el = el.parentElement) {
            const it = colour(getComputedStyle(el).backgroundColor);
            if (it[3] !== 0) return it;
        }
        return [255, 255, 255];
    };
    const walker = document.createTreeWalker(document.body, NodeFilter.SHOW_TEXT), found = [];
    while (walker.nextNode()) {
        const el = walker.currentNode.parentElement, style = getComputedStyle(el);
        const is_seen = walker.currentNode.nodeValue.trim() && el.checkVisibility();
        if (!is_seen || el.matches(".hidden, .skip, :disabled")) continue;
        const [one, other] = [light(colour(style.color)), light(behind(el))].sort((a, b) => b - a);
        const size = parseFloat(style.fontSize), is_large = size >= 24 || size >= 18.66 && style.fontWeight >= 700;
        const ratio = (one + 0.05) / (other + 0.05);
        if (ratio < (is_large ? 3 : 4.5)) found.push([el.className || el.nodeName, ratio.toFixed(2)]);
    }
    return found;
})()"""


# what is wider than its room
WIDE = """[document.documentElement, ...document.querySelectorAll(".wide")]
    .map((it) => it.scrollWidth - it.clientWidth).filter((it) => it > 0).map((it) => `${it} too wide`)"""


def try_views(room):
    """Each view fits its window, light and dark, at 200 % and in a narrow window, and its texts can be told from what
    is behind them; with --shots each is a picture."""
    site, uploads, _ = review_sites.each_conflict()
    wrong, count = [], 0
    with reviewed(room, "views", site, uploads) as review, watched(room) as tab:
        for name, path in VIEWS.items():
            for how, about in LOOKS.items():
                look(tab, **about)
                tab.go(review.origin + path)
                if name != "drawn" and name != "report":
                    wrong += [f"{name}, {how}: {it}" for it in tab.run(FAINT)]
                if name != "report":
                    wrong += [f"{name}, {how}: {it}" for it in tab.run(WIDE)]
                count += 1
                picture(room, tab, f"review_{name}_{how}", about)
        tab.go(review.visit("ann", 1))
        tab.leads(lambda: tab.click("button[name=cancel]"))
        picture(room, tab, "review_told_light", {})
        tab.go(f"{review.origin}/client?c=ann")
        for how, about in LOOKS.items():
            look(tab, **about)
            tab.go(f"{review.origin}/client?c=ann")
            picture(room, tab, f"review_decided_{how}", about)
        with review.site.open("a") as other:
            other.write("\n")
        tab.go(review.visit("bob", 1))
        tab.leads(lambda: tab.click("button[name=keep]"))
        want("a decision behind another's line", (tab.run(STATUS), len(texts(tab, "[role=alert]"))), (503, 1))
        picture(room, tab, "review_unwritten_light", {})
    site, uploads = review_sites.long_names()
    with reviewed(room, "long", site, uploads) as review, watched(room) as tab:
        client = uploads[0].client
        paths = {"overview": "/", "client": f"/client?c={client}", "visit": f"/visit?c={client}&v=2",
                 "search": "/search?q=x"}
        for name, path in paths.items():
            for how, about in LOOKS.items():
                look(tab, **about)
                tab.go(review.origin + path)
                wrong += [f"{name} of long names, {how}: {it}" for it in tab.run(WIDE)]
                count += 1
                picture(room, tab, f"review_long_{name}_{how}", about)
    with reviewed(room, "wanting", *review_sites.wanting()) as review, watched(room) as tab:
        for how, about in LOOKS.items():
            look(tab, **about)
            tab.go(f"{review.origin}/")
            wrong += [f"what is wanting, {how}: {it}" for it in tab.run(FAINT)]
            tab.run("document.querySelector('details').open = true")
            picture(room, tab, f"review_wanting_{how}", about)
            count += 1
    want("views", "\n        ".join(wrong), "")
    return f"{count} views"


def picture(room, tab, name, about):
    """The whole page, as far as that is of some use."""
    if not room.shots:
        return
    pathlib.Path(room.shots).mkdir(exist_ok=True)
    height = min(2400, tab.run("document.documentElement.scrollHeight"))
    look(tab, **{**about, "height": max(height * about.get("zoom", 1), about.get("height", 900))})
    # frames are drawn behind their page
    time.sleep(0.5)
    tab.shot(f"{room.shots}/{name}.png")
    look(tab, **about)


def told_of(tab, review, asked=""):
    """What ran or was loaded in a watched tab and its frames, beyond the page's own and an address that was asked."""
    found = []
    for it in [*tab.events, *tab.browser.gone, *(told for frame in tab.browser.frames for told in frame.events)]:
        method, about = it["method"], it["params"]
        if method in ("Runtime.consoleAPICalled", "Runtime.exceptionThrown", "Page.javascriptDialogOpening",
                      "Page.windowOpen", "Page.downloadWillBegin"):
            found.append((method, json.dumps(about)[:200]))
        elif method == "Network.requestWillBeSent":
            address = about["request"]["url"]
            if not is_own(review, address) and address != review.origin + asked:
                found.append((method, address[:200]))
    return found


# of each conflict of `each_conflict`, what is marked on the recorded page, and on the repaired one
HERE, NONE = "here", []
MARKS = {
    ("ann", 1): ([("a", HERE)], [("gap in", "body")]),
    ("ann", 5): ([("textarea", HERE)], [("textarea", HERE)]),
    ("ann", 6): ([("a", HERE)], [("gap in", "section")]),
    ("bob", 1): ([("a", HERE)], [("a", "its path leads here")] * 2),
    ("bob", 2): ([("input", HERE)], [("input", HERE)]),
    ("bob", 3): ([("h1", HERE)], [("h1", HERE)]),
    ("bob", 4): ([("button", HERE)], [("form", HERE)]),
    ("cy", 1): (NONE, None),
    ("cy", 2): (NONE, NONE),
    ("cy", 4): (NONE, NONE),
    ("dan", 1): (NONE, NONE),
}


def try_frames(room):
    """The recorded and the repaired page stand side by side, the target marked on each, or where it would be; what is
    marked is seen without scrolling."""
    site, uploads, _ = review_sites.each_conflict()
    wrong, count = [], 0
    with reviewed(room, "frames", site, uploads) as review, watched(room) as tab:
        for (client, visit), marks in MARKS.items():
            tab.go(review.visit(client, visit))
            frames = frames_of(tab, 2 - marks.count(None))
            found = [frame.marks() for frame in frames]
            if found != [it for it in marks if it is not None]:
                wrong.append(f"{client} {visit}: {found}, wanted {marks}")
            for frame, it in zip(frames, found):
                count += 1
                if it:
                    top, height = frame.box()
                    if not 0 <= top < height:
                        wrong.append(f"{client} {visit}: what is marked stands at {top} of {height}")
                if frame.about.get("sandbox") != "":
                    wrong.append(f"{client} {visit}: sandbox {frame.about.get('sandbox')}")
            sides = tab.run("[...document.querySelectorAll('figure')].map((it) => it.getBoundingClientRect().top)")
            if len(set(sides)) != 1:
                wrong.append(f"{client} {visit}: not side by side: {sides}")
            is_open = tab.run("[...document.querySelectorAll('iframe')].some((it) => it.contentDocument)")
            if is_open:
                wrong.append(f"{client} {visit}: the frame's document can be reached")
        want("frames", "\n        ".join(wrong), "")
        want("what went wrong in the page", told_of(tab, review), [])
    return f"{count} drawn pages"


def try_texts(room):
    """Of a field that starts otherwise, and of what is watched, both texts stand there with their difference."""
    site, uploads, _ = review_sites.each_conflict()
    with reviewed(room, "texts", site, uploads) as review, watched(room, review.visit("ann", 5)) as tab:
        old, new, typed = texts(tab, ".text")
        want("the texts", (old, new), (review_sites.OLD_TEXT, review_sites.NEW_TEXT))
        want("what was typed", typed, review_sites.OLD_TEXT + " I come!")
        gone, come = texts(tab, "del"), texts(tab, "ins")
        want("their difference", (gone, come), (["water, a hat and good shoes."], ["water and your own lunch."]))
        tab.go(review.visit("cy", 2))
        shown = [[word for word in it.split() if word in ("10", "12", "pounds")] for it in texts(tab, ".text")]
        want("what is watched", shown, [["10", "pounds"], ["12", "pounds"]])
        want("its difference", (texts(tab, "del"), texts(tab, "ins")), (["10"], ["12"]))
    return "differences of 2 pairs of texts"


# ---- attacks


def try_attacks(room):
    """Stored attacks as texts, values, names, addresses and typed words: nothing runs and nothing is loaded."""
    with contextlib.closing(review_sites.Evil()) as other:
        seen = watch_plain(room, other)
    with contextlib.closing(review_sites.Evil()) as evil:
        site, uploads, names = review_sites.attacked(evil.origin)
        with reviewed(room, "attacks", site, uploads, names) as review, watched(room) as tab:
            room.browser.gone.clear()
            tabs, wrong, count, shown = len(room.browser.tabs), [], 0, []
            report, attacks = review.replayed(), review_sites.strings(evil.origin)
            paths = ["/", "/report"] + [f"/client?c={client}" for client in standing(report)]
            paths += [f"/visit?c={client}&v={visit}" for client, visits in standing(report).items() for visit in visits]
            views = ("search?q=", "client?c=", "nothing", "visit?v=1&c=", "page?of=recorded&v=1&c=", "?from=")
            paths += [f"/{views[number % 6]}{urllib.parse.quote(attack)}" for number, attack in enumerate(attacks[::3])]
            for path in paths:
                tab.go(review.origin + path)
                count += 1
                if path.startswith("/visit?c="):
                    frames = frames_of(tab)
                    wrong += [f"{path}: {it}" for frame in frames for it in frame_faults(frame)]
                    shown += [frame.text for frame in frames] + [tab.run("document.body.textContent")]
                if tab.run("'hit' in window"):
                    wrong.append(f"{path}: an attack's mark")
                wrong += [f"{path}: {it}" for it in page_faults(tab, review)]
                wrong += [f"{path}: {it}" for it in told_of(tab, review, path)]
                tab.events.clear()
                room.browser.gone.clear()
            shown = drawable(" ".join(shown))
            wrong += [f"not shown as it is: {it}" for it in attacks if drawable(it) not in shown]
            # and behind clicks
            tab.go(review.visit("ann", fronts(report)[0][1]))
            while form_of(tab):
                tab.leads(lambda: tab.click("button[name=keep]"))
            wrong += [f"behind decisions: {it}" for it in told_of(tab, review)]
            wrong += [f"asked of the attacker: {it}" for it in evil.asked]
            want("tabs", len(room.browser.tabs), tabs)
            want("attacks", "\n        ".join(wrong), "")
    return f"{len(attacks)} attacks in {count} pages (on a page without a guard {seen} of them do something)"


def watch_plain(room, evil, at_once=12):
    """Of how many of these attacks a page without any guard runs or loads something: so they would be seen."""
    seen, numbers = 0, range(len(review_sites.strings("")))
    tabs = [room.browser.open() for _ in range(at_once)]
    for tab in tabs:
        tab.watch()
    for begin in numbers[::at_once]:
        some = list(zip(tabs, numbers[begin:begin + at_once]))
        for tab, number in some:
            tab.events.clear()
            tab.browser.call("Page.navigate", tab.session, False, url=f"{evil.origin}/plain/{number}")
        time.sleep(1)
        for tab, number in some:
            told = [(it["method"], it["params"]) for it in list(tab.events)]
            seen += any(method in ("Page.javascriptDialogOpening", "Runtime.consoleAPICalled") or
                        method == "Network.requestWillBeSent" and not AT_HOME.search(about["request"]["url"])
                        for method, about in told)
            tab.browser.call("Page.handleJavaScriptDialog", tab.session, False, accept=False)
    for tab in room.browser.tabs[1:]:
        tab.close()
    return seen


# what any plain page asks for
AT_HOME = re.compile("/plain/|/favicon.ico$")
# all that a drawn page may have; of what stands there once, with which attributes
DRAWN = {"#document", "html", "HEAD", "TITLE", "DIV", "SPAN", "#text"}
DRAWN_ONCE = {"HTML": {"lang": "en"}, "META": {"charset": "utf-8"}, "BODY": {"tabindex": "0"},
              "LINK": {"rel": "stylesheet", "href": "/page.css"}}
DRAWN_NAMES = {"data-n", "data-mark", "class", "id"}
DRAWN_CLASSES = {"", "link", "field", "press", "tick", "off", "undrawn", "a", "target", "gap"}


def frame_faults(frame):
    """What a drawn page has beside elements and attributes of the page's own."""
    found, seen = [], collections.Counter(node["nodeName"] for node in frame.nodes)
    for node in frame.nodes:
        name, about = node["nodeName"], attributes(node)
        if name in DRAWN_ONCE:
            if about != DRAWN_ONCE[name] or seen[name] > 1:
                found.append(f"{seen[name]} of {name}, with {about}")
        elif name not in DRAWN:
            found.append(f"an element {name}")
        elif not set(about) <= DRAWN_NAMES:
            found.append(f"attributes {set(about)}")
        elif about.get("id", "target") != "target" or not set(about.get("class", "").split(" ")) <= DRAWN_CLASSES:
            found.append(f"a name of {about}")
    return found


class Pieces(html.parser.HTMLParser):
    """Of each element that a piece of review/pieces has, its attributes."""

    def __init__(self):
        super().__init__()
        self.names = collections.defaultdict(set)
        for file in (tried.TOP / "review/pieces").glob("*/*.html"):
            self.feed(re.sub(r"\{\{\{?\w+\}?\}\}", " ", file.read_text()))

    def handle_starttag(self, tag, pairs):
        # two pieces are attributes alone
        self.names[tag] |= {"class", "aria-current", *(name for name, _ in pairs)}


PIECES = Pieces().names
ONCE = ("html", "head", "title", "link", "script", "body", "header", "main")
# of each element its name, its attributes, and where it leads, loads from or sends
ELEMENTS = """[...document.querySelectorAll("*")].map((it) => [it.localName, it.getAttributeNames(),
    ["href", "src", "action"].filter((name) => it.hasAttribute(name)).map((name) => {
        try { return new URL(it.getAttribute(name), document.baseURI).href } catch { return it.getAttribute(name) }
    })])"""


def page_faults(tab, review):
    """What one of the page's own views has beside the elements and attributes of its pieces, and what leads out."""
    if tab.run("document.contentType") != "text/html":
        return []
    elements, here = tab.run(ELEMENTS), tab.run("location.href.split('#')[0]")
    seen = collections.Counter(name for name, _, _ in elements)
    found = [f"{seen[name]} of {name}" for name in ONCE if seen[name] != 1]
    # the search, and the two forms of a decision
    found += [f"{seen['form']} forms"] if seen["form"] not in (1, 3) else []
    for name, names, addresses in elements:
        if name not in PIECES:
            found.append(f"an element {name}")
        elif not set(names) <= PIECES[name]:
            found.append(f"attributes {set(names) - PIECES[name]} of {name}")
        found += [f"{name} leads to {it[:200]}" for it in addresses
                  if not is_own(review, it) and it.split("#")[0] != here]
    return found


def is_own(review, address):
    about = urllib.parse.urlsplit(address)
    return f"{about.scheme}://{about.netloc}" == review.origin and about.path in OWN_PATHS


def drawable(text):
    """A text as a browser has it in a page: without NUL, and blanks are one."""
    return re.sub(r"\s+", " ", text.replace("\0", "")).strip()


# ---- many visits


def try_times(room):
    """10,000 visits with 1,000 conflicts: how long an overview and a decision take."""
    site, uploads = review_sites.many()
    begun = time.monotonic()
    with reviewed(room, "times", site, uploads) as review, watched(room) as tab:
        begun = time.monotonic() - begun
        overviews, decisions, shown = [], [], []
        for _ in range(5):
            tab.go(f"{review.origin}/")
            overviews.append(tab.run("performance.getEntriesByType('navigation')[0].duration"))
        want("conflicts", "1,000 waiting" in tab.run("document.body.innerText").replace("1000 ", "1,000 "), True)
        tab.leads(lambda: tab.click(".fronts a"))
        for _ in range(9):
            tab.events.clear()
            tab.leads(lambda: tab.click("button[name=keep]"))
            decisions.append(posted(tab))
            shown.append(tab.run("performance.getEntriesByType('navigation')[0].duration"))
        want("the report", report_of(tab), review.replayed())
    found = {"the overview": (overviews, 1000), "a decision": (decisions, 50)}
    said = ", ".join(f"{what} {min(times):.0f} to {max(times):.0f} ms" for what, (times, _) in found.items())
    if room.is_proved:
        slow = [what for what, (times, most) in found.items() if sorted(times)[len(times) // 2] > most]
        want("what is too slow", slow, [])
    return f"{said} (with the next page {min(shown):.0f} to {max(shown):.0f}), the start {begun:.1f} s"


def posted(tab):
    """How many milliseconds the answer to the last POST took, as Chromium saw it."""
    for it in tab.events:
        if it["method"] == "Network.requestWillBeSent" and "redirectResponse" in it["params"]:
            timing = it["params"]["redirectResponse"]["timing"]
            return timing["receiveHeadersEnd"] - timing["sendStart"]
    raise Late("the time of a POST isn't told")


PARTS = {name.removeprefix("try_"): it for name, it in list(globals().items()) if name.startswith("try_")}


def build(program):
    """The program as `rt try` builds it."""
    site = pathlib.Path(f"{program}.site")
    site.write_text('{"patched":[]}\n')
    tried.build("review_program", ["review", str(free_port()), str(site), None], program)
