"""The sweep `collecting` of tools/sweeps: something is refused to the collector at its start, or while it answers.

A run of the collector answers hundreds of requests. While it answers one, an allocation or a call of the system is
refused, and then

- it is answered 503 or 507, or its connection ends, or it is answered as if nothing had been refused;
- what any answer tells would be there if the machine lost in that moment all that wasn't synced;
- another client's next line is stored, and when the same is asked again, it is answered as ever: except where a sync
  failed, which closes the client's file until the next start, and one of the folder each that isn't open.

Behind the run each file is a hello and whole lines, but for a torn tail. A start over these files goes on with them,
and one over what the machine would have kept of them: in the end each line of each client is there once."""

import collections
import functools
import http.client
import json
import shutil
import signal
import socket
import time

import tried
from collector import body_of, check_file, line

# How many lines a visit has, and how many visits are sent to one open file.
LAST, MANY = 3, 50

# What comes of a request that is answered otherwise, when it is sent again.
AGAIN, SHUT = "then as ever", "then its file is closed"

SHUT_TEXTS = [b'{"why":"the client\'s file is closed"}\n', b'{"why":"a file can\'t be used"}\n']

# How each call of the system is refused, in the words of refuse.c, and what may come of the request. Behind a write
# that goes through by half come the rest of it, the look how long the file is, the cut, and the round's sync. Before
# each write the collector looks so, too.
REFUSALS = {
    "allocation": {"": f"503, {AGAIN}|no answer, {AGAIN}|200"},
    "open": {" 24": "200", " 28": f"507, {AGAIN}"},
    "statx": {" 5": f"503, {AGAIN}"},
    "pread": {" 5": f"503, {AGAIN}"},
    "pwrite": {
        " 0": "200",
        " 5": f"503, {AGAIN}",
        " 28": f"507, {AGAIN}",
        " 0+1": f"503, {AGAIN}",
        " 0+2": f"503, {AGAIN}",
        " 0+3": f"503, {AGAIN}",
        " 0+4": f"503, {AGAIN}|no answer, {SHUT}",
    },
    "ftruncate": {" 5": f"503, {AGAIN}"},
    "fdatasync": {" 5": f"503, {SHUT}|no answer, {SHUT}"},
    "recv": {" 104": f"no answer, {AGAIN}|200"},
    "send": {" 0": "200", " 32": f"no answer, {AGAIN}"},
    "accept4": {" 24": "200"},
    "ioctl": {" 5": f"no answer, {AGAIN}|200"},
    "setsockopt": {" 5": "200"},
    "epoll_ctl": {" 12": f"no answer, {AGAIN}"},
}

# How calls at the start are refused, and how the program ends. (The folder is there already.)
START = {
    "allocation": {"": (5, "no memory")},
    "mkdir": {" 5": "whole"},
    **{name: {" 5": (6, "the folder can't be used")} for name in ("open", "flock", "fsync", "getdents64")},
    "getentropy": {" 5": (5, "no memory")},
    **{
        name: {" 5": (6, "the port can't be used")}
        for name in ("socket", "setsockopt", "bind", "listen", "epoll_create1", "epoll_ctl")
    },
}


def sent(visit, n):
    """A line of a visit p1, p2, .., or of c1, c2, .., which these opened."""
    return line(visit, n, LAST, "p" + visit[1:] if visit[0] == "c" else None)


# What a client sends first.
FIRST = body_of([sent("p1", 1)])


def body(k):
    """Lines of two visits: one stands twice, one comes too early, one can't be stored, and one stands behind it."""
    p, c = f"p{k}", f"c{k}"
    wrong = sent(c, 2).replace("/html", "html")
    return body_of([sent(p, 1), sent(p, 2), sent(p, 1), sent(c, 1), wrong, sent(c, 3), sent(p, 9), sent(p, 3)])


def told_of(k):
    return {"have": {f"p{k}": 3, f"c{k}": 1}, "refused": {f"c{k}": "E8.X1"}}


def hello(name):
    return b'{"t":"hello","client":"%s"}\n' % name.encode()


def lying(name):
    """The text of a client's file that a server left: two lines of a visit, and a torn one."""
    stored = sent("p1", 1).replace("{", '{"visit":1,"parent":0,', 1), sent("p1", 2).replace("{", '{"visit":1,', 1)
    return hello(name) + body_of(stored) + b'{"visit":1,"v":"p1'


Call = collections.namedtuple("Call", "name file answer at made path")


class Disk:
    """The clients' files as the log of calls tells, and what stays of them if all ends at some moment: what was synced,
    in files whose names were, and nothing behind a sync that failed."""

    def __init__(self, folder, log):
        self.folder, self.log, self.rest, self.calls, self.seen = folder, open(log, "rb"), b"", [], 0
        self.open, self.lost, self.is_folder_lost = {}, set(), False
        self.named = {path.name for path in folder.glob("*.jsonl")}
        self.written = {name: (folder / name).stat().st_size for name in self.named}
        self.stays = dict(self.written)

    def read_on(self):
        """Takes the next calls of the log: name, descriptor, answer, place, allocations and path of each."""
        *lines, self.rest = (self.rest + self.log.read()).split(b"\n")
        for text in lines:
            name, file, answer, at, made, path = text.decode().split(" ", 5)
            self.calls.append(Call(name, int(file), int(answer), int(at), int(made), path))

    def see(self, call):
        if call.name == "open" and call.answer >= 0:
            name = self.open[call.answer] = call.path.rpartition("/")[2]
            self.written.setdefault(name, 0)
            self.stays.setdefault(name, 0)
        name = self.open.get(call.file)
        if call.name == "pwrite" and call.answer > 0:
            self.written[name] = max(self.written[name], call.at + call.answer)
        elif call.name == "ftruncate" and call.answer == 0:
            self.written[name], self.stays[name] = call.at, min(self.stays[name], call.at)
        elif call.name == "fdatasync" and call.answer < 0:
            self.lost.add(name)
        elif call.name == "fdatasync" and name not in self.lost:
            self.stays[name] = self.written[name]
        elif call.name == "fsync" and call.answer < 0:
            self.is_folder_lost = True
        elif call.name == "fsync" and not self.is_folder_lost:
            self.named |= self.written.keys()

    def kept(self, client, has_ended=False):
        """What stays of a client's file if all ends when the last request was answered, or now: nothing where its name
        may not."""
        self.read_on()
        until = len(self.calls)
        for place in range(len(self.calls) - 1, self.seen - 1, -1):
            if self.calls[place].name == "send" and not has_ended:
                until = place
            if self.calls[place].name == "recv" and self.calls[place].answer > 0:
                break
        for call in self.calls[self.seen : until]:
            self.see(call)
        self.seen, name = until, f"{client}.jsonl"
        return (self.folder / name).read_bytes()[: self.stays[name]] if name in self.named else b""


class Server:
    """The collector while it runs."""

    def __init__(self, running, port, folder, calls):
        self.running, self.port, self.folder, self.calls, self.disk = running, port, folder, calls, None

    def connected(self):
        """A connection, or None where the program has ended."""
        while self.running.poll() is None:
            try:
                there = socket.create_connection(("127.0.0.1", self.port), timeout=60)
            except OSError:
                time.sleep(0.002)
                continue
            self.disk = self.disk or Disk(self.folder, self.calls)
            return there
        return None


def ran_over(sweeps, folder, talk, **refused):
    """One run of the collector over the folder, and what the talk with it came to."""
    port, calls = tried.free_port(), folder.with_name(folder.name + ".calls")
    calls.unlink(missing_ok=True)
    calls.touch()

    def callers(running):
        try:
            return talk(Server(running, port, folder, calls))
        except (AssertionError, LookupError, TypeError, ValueError) as wrong:
            raise tried.Wrong(f"{folder.name}: {wrong!r}") from wrong
        finally:
            running.terminate()

    return sweeps.collector.run(["collect", str(port), str(folder)], callers=callers, calls=calls, **refused)


class Peer:
    """Whoever asks, over a connection of his own."""

    def __init__(self, server, name=None):
        self.server, self.name, self.there = server, name, None

    def send(self, method, path, text=None, refused=None, chunked=False):
        head = [f"{method} {path} HTTP/1.1", "Host: a", "Content-Type: text/plain"]
        head += [f"Cookie: yugdemor={self.name}"] if self.name else []
        head += [f"Refuse: {refused}"] if refused else []
        if chunked:
            head.append("Transfer-Encoding: chunked")
            pieces = text[: len(text) // 2], text[len(text) // 2 :], b""
            text = b"".join(b"%x\r\n%s\r\n" % (len(piece), piece) for piece in pieces)
        elif text:
            head.append(f"Content-Length: {len(text)}")
        self.there = self.there or self.server.connected()
        try:
            if self.there:
                self.there.sendall("\r\n".join([*head, "", ""]).encode() + (text or b""))
        except OSError:
            pass

    def receive(self):
        """Status, fields and text of the answer; None where the connection ends without one."""
        if not self.there:
            return None
        try:
            answer = http.client.HTTPResponse(self.there)
            answer.begin()
            return answer.status, answer.headers, answer.read()
        except TimeoutError:
            raise tried.Wrong("a request isn't answered") from None
        except (OSError, http.client.HTTPException):
            self.there.close()
            self.there = None
            return None

    def ask(self, *words, **more):
        self.send(*words, **more)
        return self.receive()


class Client(Peer):
    """A client, and what it was told, which stays whatever happens."""

    def __init__(self, server, name=None):
        super().__init__(server, name)
        self.told = {}
        self.name = name or given_name(self.ask("GET", "/upload"))

    def receive(self):
        answer = super().receive()
        if answer and answer[0] == 200 and self.name:
            have = json.loads(answer[2]).get("have", {})
            self.told |= {visit: count for visit, count in have.items() if count}
        if self.told:
            self.check(self.server.disk.kept(self.name))
        return answer

    def check(self, text):
        """How many lines of each visit are in the text of its file; none but its own, and all that were told."""
        return check_file(text[: text.rfind(b"\n") + 1] or hello(self.name), self.name, self.told, sent)

    def file(self, folder):
        path = folder / f"{self.name}.jsonl"
        return path.read_bytes() if path.exists() else b""


def given_name(answer):
    return answer[1]["Set-Cookie"].split("=")[1].split(";")[0]


# ---- what is asked, and what it is answered as ever

Asked = collections.namedtuple("Asked", "who ask is_right")


def told(right):
    """Whether a text tells just this."""
    return lambda answer: json.loads(answer[2]) == right


class Asker:
    """All who ask something of one run of the collector."""

    def __init__(self, server, lying_names):
        self.server, self.lying_names, self.k, self.others = server, lying_names, 1, 0
        self.control, self.clients, self.shut = Peer(server), [], []
        self.other, self.open = self.client(), self.open_client()
        self.other_goes_on(False)

    def client(self, name=None):
        self.clients.append(Client(self.server, name))
        return self.clients[-1]

    def open_client(self):
        client = self.client()
        client.ask("POST", "/upload", body(1))
        return client

    def asked(self, who, right, *words, **more):
        return Asked(who, functools.partial(who.ask, *words, **more), right)

    def first_lines(self):
        return self.asked(self.client(), told({"have": {"p1": 1}, "refused": {}}), "POST", "/upload", FIRST)

    def lying_file(self):
        right = {"have": {"p1": 2, "q": 0}, "refused": {}}
        return self.asked(self.client(self.lying_names.pop()), told(right), "GET", "/upload?v=p1&v=q")

    def next_visit(self):
        self.k += 1
        if self.k % MANY == 0:
            self.open = self.open_client()
        return self.k

    def more_lines(self):
        k = self.next_visit()
        return self.asked(self.open, told(told_of(k)), "POST", "/upload", body(k))

    def line_in_chunks(self):
        visit = f"p{self.next_visit()}"
        right = told({"have": {visit: 1}, "refused": {}})
        return self.asked(self.open, right, "POST", "/upload", body_of([sent(visit, 1)]), chunked=True)

    def what_is_stored(self):
        return self.asked(self.open, told(told_of(1)), "GET", "/upload?v=p1&v=c1")

    def what_nobody_sent(self):
        return self.asked(self.client(), told({"have": {"p1": 0}, "refused": {}}), "GET", "/upload?v=p1")

    def a_name(self):
        return self.asked(Peer(self.server), given_name, "GET", "/upload")

    def a_connection(self):
        who = Peer(self.server)

        def ask(refused=None):
            if refused:
                self.control.ask("GET", "/health", refused=refused)
                who.there = None
            return who.ask("GET", "/health")

        return Asked(who, ask, told({"ok": True}))

    def refuse(self, name, k, how):
        """From here on that is refused."""
        self.control.ask("GET", "/health", refused=f"{name} {k}{how}")

    def quiet(self):
        """From here on nothing is."""
        while (answer := self.control.ask("GET", "/health", refused="nothing")) is None:
            if self.server.running.poll() is not None:
                raise tried.Wrong("the program has ended")
        assert answer[0] == 200, answer

    def other_goes_on(self, once_more):
        """The next line of another client is stored. Its connection may have ended, where a call on it failed."""
        visit, n = f"p{self.others // LAST + 1}", self.others % LAST + 1
        self.others += 1
        for _ in range(1 + once_more):
            answer = self.other.ask("POST", "/upload", body_of([sent(visit, n)]))
            if answer:
                break
        if not answer or not (answer[0] == 200 and told({"have": {visit: n}, "refused": {}})(answer)):
            raise tried.Wrong(f"another client was answered {answer}")

    def attempt(self, kind, name, k, how):
        """Has that refused while this is answered. The calls meanwhile, and what came of it."""
        asked, words, disk = getattr(self, kind)(), f"{name} {k}{how}", self.server.disk
        disk.read_on()
        seen = len(disk.calls)
        first = asked.ask(refused=words)
        self.quiet()
        disk.read_on()
        said = [place for place in range(seen, len(disk.calls)) if disk.calls[place].name == "refuse"]
        calls = disk.calls[said[0] + 1 : said[1]]
        self.other_goes_on(name == "recv")
        answer = came(asked, first, asked.ask() or name == "recv" and asked.ask())
        if answer.endswith(SHUT):
            self.shut.append(asked.who.name)
            self.open = self.open_client()
        return calls, answer

    def attempts(self, kind, names):
        """Each call of these names is refused that is made meanwhile, in turn and in each way."""
        calls, answer = self.attempt(kind, "nothing", 0, "")
        yield "nothing", False, "whole" if answer == "200" else tried.Wrong(answer)
        for name in names:
            for k in range(1, met(calls, name) + 1):
                for how, right in REFUSALS[name].items():
                    try:
                        made, answer = self.attempt(kind, name, k, how)
                    except (AssertionError, ValueError, tried.Wrong) as wrong:
                        raise tried.Wrong(f"{kind}, {name} {k}{how}: {wrong!r}") from wrong
                    word, is_met = f"{kind}, {name} {k}{how}", met(made, name) >= k
                    if answer not in (right.split("|") if is_met else ["200"]):
                        yield word, is_met, tried.Wrong(answer)
                    else:
                        yield word, is_met, f"{name}{how}: {answer}" if is_met else "whole"


def met(calls, name):
    """How many calls of that name were made."""
    if name == "allocation":
        return max(call.made for call in calls)
    return sum(call.name == name for call in calls)


def came(asked, first, second):
    """What came of a request, and of the same again."""
    word = str(first[0]) if first else "no answer"
    if word == "200" and not asked.is_right(first):
        return f"wrong: {first[2]}"
    if second and second[0] == 200 and asked.is_right(second):
        return word if word == "200" else f"{word}, {AGAIN}"
    if second and second[0] == 503 and second[2] in SHUT_TEXTS:
        return f"{word}, {SHUT}"
    return f"{word}, then {second}"


# ---- the sweep

OF_FILES = ["open", "statx", "pread", "pwrite", "ftruncate", "fdatasync"]

# What is refused while which requests are answered, a run each.
RUNS = {
    "new": {"first_lines": ["allocation", *OF_FILES, "recv", "send"]},
    "lying": {"lying_file": ["allocation", *OF_FILES]},
    "open": {
        "more_lines": ["pwrite", "send", "recv", "allocation"],
        "line_in_chunks": ["recv", "allocation"],
        "what_is_stored": ["allocation"],
        "what_nobody_sent": ["allocation"],
        "a_name": ["allocation"],
        "a_connection": ["accept4", "ioctl", "setsockopt", "epoll_ctl", "allocation"],
    },
}


def folder_of(sweeps, name):
    folder = sweeps.room / f"collecting.{name}"
    folder.mkdir()
    return folder


def answered(sweeps, name):
    """One run, in which each of these requests is answered once for each refusal; then starts over its files."""
    folder, names = folder_of(sweeps, name), [f"{k:032x}" for k in range(200)] if name == "lying" else []
    for lies in names:
        (folder / f"{lies}.jsonl").write_bytes(lying(lies))

    def talk(server):
        asker = Asker(server, names)
        runs = {kind.replace("_", " "): list(asker.attempts(kind, refused)) for kind, refused in RUNS[name].items()}
        return runs, asker, server.disk

    ran = ran_over(sweeps, folder, talk)
    runs, asker, disk = ran.sent
    said = [f"warp_server: the file of {client} isn't touched until the next start" for client in asker.shut]
    if ran.status != -signal.SIGTERM or ran.err.splitlines() != said:
        raise tried.Wrong(f"another end, or other lines on standard error: {ran}")
    kept = folder_of(sweeps, f"{name}.kept")
    texts = {client: disk.kept(client.name, has_ended=True) for client in asker.clients}
    less = [client for client, text in texts.items() if text != client.file(folder)]
    for client in less:
        if texts[client]:
            (kept / f"{client.name}.jsonl").write_bytes(texts[client])
    go_on(sweeps, folder, asker.clients)
    go_on(sweeps, kept, less)
    return runs


def go_on(sweeps, folder, clients):
    """A start over these files: what was told is there, and each client sends what isn't. Of clients whose files are
    the same but for their names, and who were told the same, one does."""
    clients = {(client.file(folder).replace(client.name.encode(), b""), str(client.told)): client for client in clients}

    def talk(server):
        for client in clients.values():
            have = client.check(client.file(folder))
            visits = sorted({"p1", "c1", *have, *(f"c{visit[1:]}" for visit in have)}, reverse=True)
            right = {"have": {visit: have.get(visit, 0) for visit in visits}, "refused": {}}
            again = Client(server, client.name)
            answer = again.ask("GET", "/upload?" + "&".join(f"v={visit}" for visit in visits))
            assert answer and told(right)(answer), (answer, right)
            lines = [sent(visit, n) for visit in visits for n in range(have.get(visit, 0) + 1, LAST + 1)]
            for at in range(0, len(lines), 100):
                assert again.ask("POST", "/upload", body_of(lines[at : at + 100]))[0] == 200
            text = client.file(folder)
            assert text.endswith(b"\n") and set(client.check(text).values()) == {LAST}, text

    ran = ran_over(sweeps, folder, talk)
    if ran.status != -signal.SIGTERM or ran.err:
        raise tried.Wrong(f"a start over what was left: {ran}")


def started(sweeps):
    """Each call and each allocation of a start is refused: it ends as documented, and touches no file."""
    name, kept = "0" * 32, folder_of(sweeps, "start")
    (kept / f"{name}.jsonl").write_bytes(lying(name))

    def run(word, **refused):
        folder = kept.with_name(f"{kept.name}.{word}".replace(" ", "-"))
        shutil.copytree(kept, folder)

        def talk(server):
            answer = Client(server, name).ask("GET", "/upload?v=p1")
            if not answer:
                return server.running.wait(60), None
            return server.disk.calls, told({"have": {"p1": 2}, "refused": {}})(answer)

        ran = ran_over(sweeps, folder, talk, **refused)
        calls, is_right = ran.sent
        if is_right and ran.status == -signal.SIGTERM:
            return calls, "whole"
        if ran.out or (folder / f"{name}.jsonl").read_bytes() != lying(name):
            return calls, f"another end: {ran}"
        return calls, (ran.status, ran.err.removeprefix("warp_server: ").removesuffix("\n"))

    calls, answer = run("nothing")
    calls = calls[: next(place for place, call in enumerate(calls) if call.name == "epoll_wait") + 1]
    runs = [("nothing", False, answer)]
    for call, ways in START.items():
        for k in range(1, met(calls, call) + 1):
            for how, right in ways.items():
                words = f"{call} {k}{how}"
                _, answer = run(words, **({"allocation": k} if call == "allocation" else {"call": words}))
                runs.append((words, True, f"{call}{how}: {answer}" if answer == right else tried.Wrong(answer)))
    return {"a start": runs}


# ---- what concerns more than one client


def folder_unsynced(asker, words):
    """A sync of the folder fails behind a new file: whoever has a file open goes on, and no other is opened."""
    _, answer = asker.attempt("first_lines", *words)
    another = asker.client().ask("POST", "/upload", FIRST)
    return f"{answer}, another new one is answered {another[0]}"


def one_of_a_round_unsynced(asker, words):
    """A sync fails in a round with lines of two clients: nothing is told of either, and one of them goes on."""
    two, running = [asker.open, asker.open_client()], asker.server.running
    asker.refuse(*words)
    running.send_signal(signal.SIGSTOP)
    for client in two:
        client.send("POST", "/upload", body(2))
    running.send_signal(signal.SIGCONT)
    first = [client.receive() for client in two]
    asker.quiet()
    again = [client.ask("POST", "/upload", body(2)) for client in two]
    assert first == [None, None], first
    return "no answer, then {} and {}".format(*sorted(answer[0] for answer in again))


def sockets_unwaited(asker, words):
    """The sockets can't be waited for: where that was broken off it is tried again, and else the program ends."""
    asked = asker.first_lines()
    asker.refuse(*words)
    if answer := asked.ask():
        return str(answer[0])
    return f"it ends with {asker.server.running.wait(60)}"


RARE = [
    (folder_unsynced, ("fsync", 1, " 5"), f"503, {SHUT}, another new one is answered 503"),
    (one_of_a_round_unsynced, ("fdatasync", 1, " 5"), "no answer, then 200 and 503"),
    (one_of_a_round_unsynced, ("fdatasync", 2, " 5"), "no answer, then 200 and 503"),
    (sockets_unwaited, ("epoll_wait", 1, " 4"), "200"),
    (sockets_unwaited, ("epoll_wait", 1, " 5"), "it ends with 6"),
]


def rarely(sweeps):
    """These, a run each, and a start over the files of each."""
    runs = [("nothing", False, "whole")]
    for place, (of, words, right) in enumerate(RARE):
        folder = folder_of(sweeps, f"rare.{place}")

        def talk(server):
            asker = Asker(server, [])
            return asker.clients, of(asker, words)

        clients, answer = ran_over(sweeps, folder, talk).sent
        go_on(sweeps, folder, clients)
        runs.append((of.__name__, True, f"{words[0]}{words[2]}: {answer}" if answer == right else tried.Wrong(answer)))
    return {"rare": runs}


def collecting(sweeps):
    parts = [functools.partial(answered, sweeps, name) for name in RUNS]
    for runs in sweeps.all([*parts, functools.partial(started, sweeps), functools.partial(rarely, sweeps)]):
        for title, answers in runs.items():
            sweeps.judge(f"collect, {title}", answers)
