"""The site of ./demo: a guestbook that shows what members write as they write it, and what Mallory makes of that."""

import html
import threading
import urllib.parse

from chromium import until
from test_site import TAG, Handler, Request, Server

ADVERT = "Free gifts at evil.example!"
# Whoever opens the page signs for them once, and the link leads to a text that waits to be sent.
FIRST_ATTACK = f"""Lovely! <a id="gift" href="/guestbook?draft={urllib.parse.quote_plus(ADVERT)}">Get your free gift</a>
<script>if (!document.cookie.includes("signed")) {{
    document.cookie = "signed=1";
    fetch("/sign", {{ method: "POST", redirect: "manual", body: new URLSearchParams({{ text: "{ADVERT}" }}) }});
}}</script>"""
# Each member's thanks go to Mallory's entry, the second, and each text begins with hers.
SECOND_ATTACK = f"""Me again! <script>addEventListener("DOMContentLoaded", () => {{
    for (const field of document.querySelectorAll("[name=entry]")) field.value = "2";
    document.querySelector("textarea").textContent = "{ADVERT} ";
}})</script>"""
STYLE = """body { font: 16px/1.5 sans-serif; max-width: 40em; margin: 1em auto; padding: 0 1em; }
textarea { display: block; width: 100%; height: 4em; } li { margin: 1em 0; } li form { display: inline; }"""


class Visitor(Handler):
    """One request; what a browser sends for the recorder goes on to the collector."""

    def handle_one(self):
        site, body = self.site, self.rfile.read(int(self.headers.get("Content-Length", "0")))
        path, _, query = self.path.partition("?")
        if path in ("/upload", "/recorder.js"):
            return self.forward(body, site.collector)
        if path == "/favicon.ico":
            return self.give(404, "text/plain", b"")
        who = self.cookie("user")
        if path != "/away":
            if name := self.cookie("yugdemor"):
                site.clients[who] = name
            site.log.append((who, Request(self.command, self.path, body, self.headers.get("Sec-Fetch-Dest", ""))))
        if self.command == "POST":
            site.post(path, dict(urllib.parse.parse_qsl(body.decode())), who)
            return self.give(303, "text/plain", b"", [("Location", "/guestbook")])
        text = site.page(path, dict(urllib.parse.parse_qsl(query)), who)
        self.give(200, "text/html; charset=utf-8", text.encode(), [("Cache-Control", "no-store")])

    def cookie(self, name):
        return (f"; {self.headers.get('Cookie', '')}".partition(f"; {name}=")[2]).partition(";")[0]


class Guestbook:
    """Its entries, and who thanked for which; who asked for what; and the collector."""

    def __init__(self):
        self.entries, self.thanks, self.is_repaired, self.clients, self.log = [], [], False, {}, []
        # the port of the collector, and what it has of a user
        self.collector, self.stored, self.change = None, None, lambda text: text
        self.server = Server(("127.0.0.1", 0), type("Bound", (Visitor,), {"site": self}))
        self.origin = f"http://127.0.0.1:{self.server.server_address[1]}"
        threading.Thread(target=self.server.serve_forever, daemon=True).start()

    def close(self):
        self.server.shutdown()
        self.server.server_close()

    def post(self, path, fields, who):
        if path == "/sign":
            self.entries.append((who, fields.get("text", "")))
        elif path == "/thank":
            self.thanks.append((who, fields.get("entry", "")))

    def entry(self, number, who, text):
        shown = html.escape(text) if self.is_repaired else text
        return (f'<li><b>{who}</b>: {shown} <form method="post" action="/thank"><input type="hidden" name="entry" '
                f'value="{number}"><button>Thank</button></form></li>')

    def page(self, path, fields, who):
        entries = "".join(self.entry(number, *it) for number, it in enumerate(self.entries, 1))
        bodies = {
            "/guestbook": f"""<p>Here is {who}.</p><h1>Guestbook of the club</h1><form method="post" action="/sign">
                <textarea name="text">{html.escape(fields.get("draft", ""))}</textarea><button id="sign">Sign</button>
                </form><ol>{entries}</ol><p><a id="news" href="/news">News</a></p>""",
            "/news": "<h1>News</h1><p>We walk on Sunday, rain or not.</p>",
        }
        tag = TAG if path in bodies else ""
        head = f'<meta charset="utf-8"><title>{path[1:]}</title><style>{STYLE}</style>'
        return f"<!doctype html><html><head>{tag}{head}</head><body>{bodies.get(path, '')}</body></html>"


# ---- what is done there


def as_user(browser, site, name, act):
    """A member comes in a browser of their own, does this, and leaves, when all that was recorded is stored."""
    def has(kind):
        pages = [it for who, it in site.log if who == name and (it.method, it.goal) == ("GET", "document")]
        return sum(line["t"] == kind for line in site.stored(name)) == len(pages)

    with browser.stranger() as tab:
        tab.call("Network.setCookie", name="user", value=name, url=site.origin)
        tab.go(f"{site.origin}/guestbook")
        act(tab, site)
        until(f"all pages of {name}", lambda: has("load"))
        tab.go(f"{site.origin}/away")
        until(f"all that {name} did", lambda: has("end"))


def sign(tab, text):
    tab.fill("textarea", text)
    tab.leads(lambda: tab.click("#sign"))


def ann(tab, site):
    """Signs, thanks Dora, and reads the news."""
    sign(tab, "What a fine summer feast!")
    tab.leads(lambda: tab.click("li:nth-child(1) button"))
    tab.leads(lambda: tab.click("#news"))


def bob(tab, site):
    """Wants the gift, and sends what stands there; later he comes again, and signs."""
    tab.leads(lambda: tab.click("#gift"))
    tab.leads(lambda: tab.click("#sign"))
    tab.go(f"{site.origin}/guestbook")
    sign(tab, "I'll be there on Sunday.")


def cy(tab, site):
    """Thanks Dora, and signs behind what stands there already."""
    tab.leads(lambda: tab.click("li:nth-child(1) button"))
    sign(tab, "See you on Sunday!")
    tab.leads(lambda: tab.click("#news"))


def use(browser, site):
    """All of it, in its order."""
    site.post("/sign", {"text": "Thank you for the feast."}, "dora")
    site.post("/sign", {"text": FIRST_ATTACK}, "mallory")
    as_user(browser, site, "ann", ann)
    as_user(browser, site, "bob", bob)
    site.post("/sign", {"text": SECOND_ATTACK}, "mallory")
    as_user(browser, site, "cy", cy)


def repair(site):
    """Texts are texts now, and the entries are those before the attack."""
    site.is_repaired, site.entries, site.thanks = True, site.entries[:1], []
