"""The site that the tests open: it has the recorder in each page, and its log says what the browser sent."""

import html
import http.client
import http.server
import mimetypes
import pathlib
import re
import threading
import time
import urllib.parse

from forms import FORMS

TAG = '<script src="/recorder.js"></script>'
# What somebody stored in the guestbook: it signs for whoever comes, and its link leads where a script signs again.
ATTACK = """Nice! <a id="gifts" href="/win?for=you">Free <b>gifts</b></a>
<script>fetch("/sign", { method: "POST", body: new URLSearchParams({ from: "me", text: "Buy gifts!" }) })</script>"""
TEXTS = {"wiki": "First line\nSecond <line>\n\nLast & least"}


def with_recorder(text):
    """A page with the recorder first in its head."""
    return re.sub(rb"(?i)<head(\s[^>]*)?>", lambda it: it[0] + TAG.encode(), text, count=1)


class Request:
    """One that a browser sent, and what for: "document" for what a tab shows."""

    def __init__(self, method, path, body, goal):
        self.method, self.path, self.body, self.goal = method, path, body, goal

    def __repr__(self):
        return f"{self.method} {self.path} {self.body}"


class Site:
    """Its pages, what they keep, and the log: all of one test."""

    def __init__(self):
        self.attacked, self.entries, self.items, self.notes = True, [], ["first"], dict(TEXTS)
        self.log, self.upload_port, self.extra = [], None, {}
        # a folder whose files it has, and the port of a server that it is a proxy of
        self.folder, self.upstream = None, None
        # what is made of the recorder, and of an answer of the other server
        self.change = lambda text: text
        site = self

        class Bound(Handler):
            pass

        Bound.site = self
        self.server = Server(("127.0.0.1", 0), Bound)
        self.port = self.server.server_address[1]
        self.origin = f"http://127.0.0.1:{self.port}"
        threading.Thread(target=site.server.serve_forever, daemon=True).start()

    def close(self):
        self.server.shutdown()
        self.server.server_close()

    def sent(self, prefix="/", since=0):
        """What came for addresses of that prefix."""
        return [it for it in self.log[since:] if it.path.startswith(prefix)]

    def guestbook(self):
        entries = "".join(f"<li>{who}: {what}</li>" for who, what in self.entries)
        attack = f"<li>Eve: {ATTACK}</li>" if self.attacked else ""
        return ('<h1>Guestbook</h1><form method="post" action="/sign"><input name="from" id="from">'
                '<textarea name="text" id="text"></textarea><button id="sign">Sign</button></form>'
                f'<a id="news" href="/news">News</a><ul>{attack}{entries}</ul>')

    def wiki(self, asked):
        name = asked.get("page", "wiki")
        words = html.escape(self.notes.get(name, ""))
        if asked.get("do") != "edit":
            return f'<h1>{name}</h1><pre>{words}</pre><a id="edit" href="/wiki?page={name}&amp;do=edit">Edit</a>'
        return (f'<form method="post" action="/wiki?page={name}"><textarea id="text" name="text" rows="9">\n{words}'
                f'</textarea><input id="why" name="why"><button name="do" value="save" id="save">Save</button>'
                f'<button name="do" value="look">Preview</button></form>')

    def newest_first(self):
        """Each item has a form of its own."""
        one = ('<li>{0} <form id="{0}" method="post" action="/list/answer?to={0}"><input name="text">'
               "<button>Answer</button></form></li>")
        items = "".join(one.format(it) for it in reversed(self.items))
        return ('<form method="post" action="/list"><input id="new" name="item"><button id="add">Add</button></form>'
                f"<ol>{items}</ol>")

    def page(self, path, query, user):
        """The head and body of an address."""
        asked = dict(urllib.parse.parse_qsl(query))
        form = next((it for it in FORMS if path == it.path), None)
        if path in self.extra:
            return self.extra[path]
        if form:
            return form.head, form.body
        if path == "/guestbook":
            return "", self.guestbook()
        if path == "/wiki":
            return "", self.wiki(asked)
        if path == "/list":
            return "", self.newest_first()
        if path == "/me":
            return "", f"<p>{html.escape(user)}</p>"
        if path == "/login":
            return "", '<form method="post" action="/login"><input name="user"></form>'
        if path == "/win":
            return "", ('<p>You won!</p><form method="post" action="/sign"><input type="hidden" name="from" '
                        'value="you"><input type="hidden" name="text" value="I won!"></form>'
                        "<script>document.forms[0].submit()</script>")
        return "", f'<p>{html.escape(path)}</p><a id="back" href="/guestbook">Guestbook</a>'

    def posted(self, path, query, body):
        """Does what was sent, and tells where to go then."""
        said = dict(urllib.parse.parse_qsl(body, keep_blank_values=True))
        if path == "/sign":
            self.entries.append((html.escape(said.get("from", "")), html.escape(said.get("text", ""))))
            return "/guestbook"
        if path == "/wiki" and said.get("do") == "save":
            name = dict(urllib.parse.parse_qsl(query)).get("page", "wiki")
            self.notes[name] = said["text"].replace("\r\n", "\n")
            return f"/wiki?page={name}"
        if path.startswith("/list"):
            if path == "/list/answer":
                return "/list"
            self.items.append(html.escape(said.get("item", "")))
            return "/list"
        return None


class Server(http.server.ThreadingHTTPServer):
    daemon_threads = True

    def handle_error(self, request, address):
        """A browser may hang up at any time."""


class Handler(http.server.BaseHTTPRequestHandler):
    protocol_version = "HTTP/1.1"
    site = None

    def log_message(self, *words):
        pass

    def give(self, status, kind, body, more=()):
        self.send_response(status)
        self.send_header("Content-Type", kind)
        self.send_header("Content-Length", str(len(body)))
        for name, value in more:
            self.send_header(name, value)
        self.end_headers()
        self.wfile.write(body)

    def forward(self, body, port):
        """To another server, as a proxy does it."""
        there = http.client.HTTPConnection("127.0.0.1", port or 1, timeout=60)
        names = ("Cookie", "Origin", "Host", "Content-Type", "Referer")
        try:
            there.request(self.command, self.path, body, {it: self.headers[it] for it in names if self.headers[it]})
            answer = there.getresponse()
            passed = ("set-cookie", "cache-control", "location")
            more = [(name, value) for name, value in answer.getheaders() if name.lower() in passed]
            kind, text = answer.headers["Content-Type"] or "text/plain", answer.read()
            text = with_recorder(text) if kind.startswith("text/html") else self.site.change(text)
            self.give(answer.status, kind, text, more)
        except (OSError, http.client.HTTPException):
            self.give(502, "text/plain", b"nobody is there\n")
        finally:
            there.close()

    def handle_one(self):
        body = self.rfile.read(int(self.headers.get("Content-Length", "0")))
        path, _, query = self.path.partition("?")
        site = self.site
        if path in ("/upload", "/recorder.js"):
            return self.forward(body, site.upload_port)
        if path == "/favicon.ico":
            return self.give(404, "text/plain", b"")
        site.log.append(Request(self.command, self.path, body, self.headers.get("Sec-Fetch-Dest", "")))
        if site.upstream:
            return self.forward(body, site.upstream)
        if path.endswith("/slow"):
            time.sleep(1.5)
        if path.endswith("/nothing"):
            return self.give(204, "text/plain", b"")
        if path.endswith("/attached"):
            return self.give(200, "text/plain", b"x", [("Content-Disposition", "attachment")])
        if path == "/hop":
            return self.give(303, "text/plain", b"", [("Location", "/to/hopped")])
        if self.command == "POST":
            if path == "/login":
                cookie = f"{body.decode()}; Path=/"
                return self.give(303, "text/plain", b"", [("Location", "/me"), ("Set-Cookie", cookie)])
            to = site.posted(path, query, body.decode("latin-1"))
            if to:
                return self.give(303, "text/plain", b"", [("Location", to)])
        if site.folder and (file := pathlib.Path(site.folder + urllib.parse.unquote(path))).is_file():
            kind, text = mimetypes.guess_type(path)[0] or "text/plain", file.read_bytes()
            return self.give(200, kind, with_recorder(text) if kind == "text/html" else text)
        user = self.headers.get("Cookie", "").partition("user=")[2].partition(";")[0]
        head, inside = site.page(path, query, user or "nobody")
        form = next((it for it in FORMS if path == it.path), None)
        charset = form.charset if form else "utf-8"
        tag = "" if path.startswith("/bare") else TAG
        head = f"{tag}<title>{html.escape(path)}</title>{head}"
        text = f"<!doctype html><html><head>{head}</head><body>{inside}</body></html>"
        more = [] if path.startswith("/kept") else [("Cache-Control", "no-store")]
        if path.startswith("/strict"):
            more.append(("Content-Security-Policy", "script-src 'self'; connect-src 'self'"))
        self.give(200, f"text/html; charset={charset}", text.encode(charset, "xmlcharrefreplace"), more)

    def do_GET(self):
        self.handle_one()

    def do_POST(self):
        self.handle_one()
