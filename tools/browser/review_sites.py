"""Site files and uploads for the tests of the administrator's page."""

import json
import threading

from attacks import ATTACKS, ELEMENTS, NAMES
from test_site import Handler, Server


def el(name, /, *children, **attributes):
    """An element of a page; `of` holds attributes whose names are no words."""
    attributes |= attributes.pop("of", {})
    node = {"n": name}
    if attributes:
        node["a"] = attributes
    if children:
        node["c"] = list(children)
    return node


def page(*body):
    return el("html", el("head", el("title", "Club")), el("body", *body))


class Upload:
    """A client's upload, written as a recorder would."""

    def __init__(self, client):
        self.client, self.lines, self.count, self.time = client, [{"t": "hello", "client": client}], 0, 0

    def say(self, t, **more):
        self.time += 1
        self.lines.append({"t": t, "visit": self.count, "at": self.time, **more})

    def visit(self, path, shown, *events, parent=0, made=0, is_open=False):
        """A visit. Its events: inputs (target, value), clicks (target, request) and submits (target, request, by)."""
        self.count += 1
        opener = {"parent": parent, "from": made} if parent else {}
        self.say("load", path=path, page=shown, **opener)
        for kind, target, *rest in events:
            if kind == "input":
                self.say(kind, target=target, value=rest[0])
            else:
                by = {"by": rest[1]} if len(rest) > 1 else {}
                self.say(kind, target=target, req=rest[0], **by)
        if not is_open:
            self.say("end")
        return self.count

    def text(self, bye=True):
        lines = self.lines + ([{"t": "bye"}] if bye else [])
        return "".join(json.dumps(line, ensure_ascii=False) + "\n" for line in lines)


def write(folder, site, uploads, names=None):
    """Both, as files of that folder; the paths of the site's and the uploads'."""
    folder.mkdir(parents=True)
    first, *more = site
    file = folder / "site.jsonl"
    file.write_text("".join(json.dumps(line, ensure_ascii=False) + "\n" for line in [first, *more]))
    paths = []
    for number, upload in enumerate(uploads):
        path = folder / (names[number] if names else f"{upload.client}.jsonl")
        path.write_text(upload.text())
        paths.append(path)
    return file, paths


# ---- a site with each conflict

FORM, AREA = "/html/body/form", "/html/body/form/textarea"
LONG = ("The walk begins at the station at nine in the morning. ", "Bring water, a hat and good shoes. ",
        "We are back before it is dark, rain or not.")


def guestbook(*more, text="", entry="1", box=(), button="Sign"):
    return page(
        el("h1", "Guestbook of the club"), el("p", "Write what you like."),
        el("form", el("label", "From ", el("input", name="from")),
           el("textarea", *([text] if text else []), name="text"),
           el("input", type="hidden", name="entry", value=entry), *box, el("button", button),
           action="/sign", method="post"),
        *more)


def list_of(*items):
    return el("ul", *(el("li", text, " ", el("a", "read", href=f"/read?n={number}")) for number, text in items))


GIFT = el("a", "Get your free gift", href="/guestbook?draft=gift")
NEWS = el("p", el("a", "News", href="/news"))
RADIO = el("label", el("input", type="radio", name="size", value="small"), "small")
PRICE = el("p", "You pay ", el("b", "10 pounds"), ".", id="price")
MORE = el("p", "You pay ", el("b", "12 pounds"), ".", id="price")
PAY = el("form", el("button", "Pay"), action="/pay", method="post")
OLD_TEXT, NEW_TEXT = "".join(LONG), LONG[0] + "Bring water and your own lunch. " + LONG[2]
FROM_IN = f"{FORM}/label/input"
LARGE = "x" * 30000


def each_conflict():
    """A site and uploads with each conflict that events by paths give; and what waits, in the order of the report."""
    old = guestbook(GIFT, NEWS)
    site = [{
        "patched": ["/guestbook", "/walk", "/twice", "/gone", "/pay", "/size", "/moved", "/cut", "/frame", "/asks",
                    "/find"], "watch": ["/html/body/p[2]/b"],
        "quota": 50000,
        "pages": {
            "/guestbook": guestbook(NEWS), "/guestbook?draft=gift": guestbook(text="Free gifts at evil.example!"),
            "/asks": page(el("form", el("input", name="q"), action="/search")), "/find?q=walk": page(el("h1", "Found")),
            "/walk": guestbook(NEWS, text=NEW_TEXT),
            "/twice": page(el("h1", "Two"), el("a", "One", href="/read?n=1"), el("a", "Two", href="/read?n=2")),
            "/pay": page(el("h1", "Pay"), el("p", "Your order."), MORE, PAY),
            "/size": guestbook(NEWS, box=[RADIO]),
            "/moved": page(
                el("h1", "Moved"), el("form", el("input", name="q"), action="/find"), el("form", el("button", "Go"))),
            "/cut": guestbook(NEWS),
            "/frame": page(el("div", el("section", el("p", "Nothing is left.")))),
        },
    }]
    ann = Upload("ann")
    first = ann.visit("/guestbook", old, ("input", FROM_IN, "Ann"), ("input", AREA, "Lovely!"),
                      ("click", "/html/body/a", 1))
    gift = ann.visit("/guestbook?draft=gift", guestbook(text="Free gifts at evil.example!"), ("submit", FORM, 1),
                     parent=first, made=1)
    ann.visit("/news", page(el("h1", "News")), ("click", "/html/body/h1", 0), parent=gift, made=1)
    ann.visit("/guestbook", old, ("input", AREA, "Thanks"), ("submit", FORM, 1, f"{FORM}/button"))
    ann.visit("/walk", guestbook(NEWS, text=OLD_TEXT), ("input", AREA, OLD_TEXT + " I come!"), ("submit", FORM, 1))
    ann.visit("/frame", page(el("div", el("section", el("p", "An advert"), el("a", "Buy", href="/buy")))),
              ("click", "/html/body/div/section/a", 1))
    bob = Upload("bob")
    bob.visit("/twice", page(el("h1", "One"), el("a", "One", href="/read?n=1")), ("click", "/html/body/a", 1))
    bob.visit("/size", guestbook(NEWS, box=[RADIO]), ("click", f"{FORM}/label[2]/input", 0), ("submit", FORM, 1))
    bob.visit("/guestbook", old, ("click", "/html/body/h1", 1))
    bob.visit("/moved", page(el("h1", "Moved"), el("form", el("input", name="q"), el("button", "Go"), action="/find")),
              ("input", "/html/body/form/input", "walks"),
              ("submit", "/html/body/form[1]", 1, "/html/body/form/button"))
    cy = Upload("cy")
    cy.visit("/gone", old, ("click", "/html/body/a", 1))
    cy.visit("/pay", page(el("h1", "Pay"), el("p", "Your order."), PRICE, PAY), ("submit", "/html/body/form", 1))
    asked = cy.visit("/asks", page(el("form", el("input", name="q"), action="/find")),
                     ("input", "/html/body/form/input", "walk"), ("submit", "/html/body/form", 1))
    cy.visit("/find?q=walk", page(el("h1", "Found")), parent=asked, made=1)
    dan = Upload("dan")
    dan.visit("/cut", old, ("input", AREA, LARGE), ("input", AREA, LARGE[:25000]), is_open=True)
    wanted = [
        ("ann", 1, "K2"), ("ann", 5, "K5"), ("ann", 6, "K2"), ("bob", 1, "K3"), ("bob", 2, "K4"), ("bob", 3, "K6"),
        ("bob", 4, "K7"), ("cy", 1, "K1"), ("cy", 2, "K9"), ("cy", 4, "K10"), ("dan", 1, "K8"),
    ]
    return site, [ann, bob, cy, dan], wanted


def by_elements():
    """A site whose events act on what the user saw, wherever it stands: what is sent is another now."""
    def shop(price, names, token):
        return page(
            el("h1", "Shop"), list_of(*names),
            el("form", el("p", "Take ", el("b", "the hat")), el("input", type="hidden", name="price", value=price),
               el("input", type="hidden", name="csrf", value=token), el("input", name="how", placeholder="how many"),
               el("button", "Buy the hat"), action="/buy", method="post"))
    new = shop("12", [(2, "A coat"), (3, "A hat")], "new")
    site = [{"patched": ["/shop"], "same": ["csrf"], "pages": {"/shop": new}}]
    old = shop("10", [(1, "A free gift"), (2, "A coat"), (3, "A hat")], "old")
    eve = Upload("eve")
    eve.visit("/shop", old, ("click", "/html/body/ul/li[2]/a", 1))
    eve.visit("/shop", old, ("input", "/html/body/form/input[3]", "2"),
              ("submit", "/html/body/form", 1, "/html/body/form/button"))
    eve.visit("/shop", old, ("click", "/html/body/ul/li[1]/a", 1))
    eve.visit("/shop", old, ("click", "/html/body/ul/li[3]/a", 1))
    return site, [eve], [("eve", 2, "K11"), ("eve", 3, "K3")]


class Text:
    """An upload that no recorder would write."""

    def __init__(self, client, lines):
        self.client, self.lines = client, lines

    def text(self):
        return self.lines


def long_names():
    """A client with the longest name, whose visits each opened the next one, at addresses without a blank."""
    upload, pages = Upload("0123456789abcdef" * 4), {}
    for number in range(20):
        address = f"/guestbook?{'x' * 200}{number}"
        pages[address] = guestbook(NEWS)
        parent = {"parent": upload.count, "made": 1} if number else {}
        upload.visit(address, guestbook(GIFT, NEWS), ("click", "/html/body/a", 1), **parent)
    return [{"patched": ["/guestbook"], "pages": pages}], [upload]


def wanting():
    """A site and uploads with much that is to be looked at before a decision."""
    site = [{"patched": ["/guestbook"], "quota": 2000, "pages": {"/guestbook": guestbook(NEWS)}}]
    ann = Upload("ann")
    for _ in range(5):
        ann.visit("/guestbook", guestbook(GIFT, NEWS), ("click", "/html/body/a", 1))
    bob = Upload("bob")
    bob.visit("/news", page(el("h1", "News")))
    cut = Text("bob", bob.text()[:-20])
    mail = Text("mail", '{"t":"hello","client":"a@b"}\n')
    return site, [ann, cut, Text("no_hello", "{}\n"), mail, Text("none", "")]


# ---- attacks


def strings(origin):
    """All attacks of an attacker at this origin."""
    return [attack.replace("EVIL", origin) for attack in ATTACKS]


class Evil:
    """The attacker's origin, another port of 127.0.0.1: what is asked there is noted, and scripts call `alert`."""

    def __init__(self):
        self.asked = []
        self.server = Server(("127.0.0.1", 0), type("Bound", (EvilHandler,), {"site": self}))
        self.origin = f"http://127.0.0.1:{self.server.server_address[1]}"
        threading.Thread(target=self.server.serve_forever, daemon=True).start()

    def close(self):
        self.server.shutdown()
        self.server.server_close()


class EvilHandler(Handler):
    def handle_one(self):
        self.rfile.read(int(self.headers.get("Content-Length", "0")))
        if self.path.startswith("/plain/"):
            text = strings(self.site.origin)[int(self.path.removeprefix("/plain/"))]
            return self.give(200, "text/html; charset=utf-8", f"<!doctype html><title>x</title><body>{text}".encode())
        self.site.asked.append(self.path)
        self.give(200, "text/javascript", b"alert('loaded')")


def in_all_places(attack, number):
    """Elements that have an attack wherever a page may have a text of the attacker's."""
    name = NAMES[number % len(NAMES)]
    return el(
        "div", attack, el("p", attack, of={"title": attack, "class": attack}), el("a", attack, href=attack),
        el("img", alt=attack, src=attack), el("input", name=attack, value=attack, placeholder=attack, type=attack),
        el("input", type="hidden", name=attack, value=attack),
        el("select", el("option", attack, value=attack), value=attack),
        el("form", el("button", attack, name=attack, value=attack), action=attack, method=attack),
        el("textarea", attack, name=attack), el("b", of={name: attack, attack: attack}),
        el("script", attack), el("style", attack),
        el(ELEMENTS[number % len(ELEMENTS)], attack, of={name: attack, "src": attack}))


def attacked(origin):
    """A site and uploads in which all that may be an attacker's is an attack; and names of the uploads' files."""
    found, uploads = strings(origin), []
    clients = ["ann", "__proto__", "constructor", "script", "javascript"]
    first = {"patched": ["/a", *found], "pages": {}, "watch": ["/html/body/p"]}
    lines = [{"patched": ["/a"]}]
    size = 6
    for place in range(0, len(found), size):
        some = found[place:place + size]
        upload = Upload(clients[place // size] if place // size < len(clients) else f"c-{place}-onload_alert")
        uploads.append(upload)
        body = [in_all_places(attack, place + at) for at, attack in enumerate(some)]
        old, new = (
            page(*body, el("form", el("textarea", text, name=some[0]), el("button", "Send"),
                           action=some[-1], method="post"), el("p", text)) for text in (some[0], some[-1]))
        form = "/html/body/form"
        # a field that starts otherwise (K5), a click with a request on what is no link (K6), what is watched (K9)
        kinds = [lambda it: [("input", f"{form}/textarea", it), ("submit", form, 1)],
                 lambda it: [("click", "/html/body/p", 1), ("click", "/html/body/div[1]/a", 2)],
                 lambda it: [("click", "/html/body/div[1]/a", 1)]]
        for at, attack in enumerate(some):
            upload.visit(attack, old, *kinds[at % 3](attack))
            lines.append({"path": attack, "client": upload.client, "visit": upload.count, "page": new})
    names = [f"{it}.jsonl" for it in file_names(len(uploads))]
    return [first, *lines], uploads, names


def file_names(count):
    """Attacks as far as a file's name may have them."""
    found = ["a", '<img src=x onerror=alert(1)>', '"><svg onload=alert(1)>', "'onfocus='alert(1)'autofocus='", "-->",
             "&lt;b&gt;"]
    return (found + [f"u{number}" for number in range(count)])[:count]


# ---- many visits


def many(clients=20, visits=500, conflicts=50):
    """So many clients with so many visits, of which so many each are conflicts."""
    site = [{"patched": ["/guestbook"], "pages": {"/guestbook": guestbook(NEWS)}}]
    uploads = []
    for client in range(clients):
        upload = Upload(f"client-{client:02}")
        for number in range(visits):
            is_conflict = number % (visits // conflicts) == 0
            event = ("click", "/html/body/a", 1) if is_conflict else ("submit", FORM, 1)
            upload.visit("/guestbook", guestbook(GIFT, NEWS), event)
        uploads.append(upload)
    return site, uploads
