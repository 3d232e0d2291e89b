"""The collector's program as `rt try` builds it, what clients post to it, and what their files must be then."""

import json
import os
import pathlib
import shutil
import subprocess
import time

import tried

LINES = 20


def build(path, *flags):
    """Builds the program there. `rt try` keeps none, so it is copied while it waits to open its lock, a pipe."""
    folder = pathlib.Path(f"{path}.folder")
    folder.mkdir()
    os.mkfifo(folder / "lock")
    with open(f"{path}.log", "wb") as log:
        call = ["rt", "try", *flags, "--", "collect", str(tried.free_port()), str(folder)]
        made = subprocess.Popen(call, cwd=tried.TOP / "crates/collect_program", stdout=log, stderr=log)
        while made.poll() is None and not os.path.exists(path):
            time.sleep(0.05)
            for line in pathlib.Path("/proc").glob("[0-9]*/cmdline"):
                try:
                    words = line.read_text(errors="replace").split("\0")
                except OSError:
                    continue
                own = [word for word in words if word.endswith("/program")]
                if str(folder) in words and own:
                    shutil.copy(own[0], path)
                    os.kill(int(line.parent.name), 9)
        made.wait()
    if not os.path.exists(path):
        raise SystemExit(f"collect_program was not built: {pathlib.Path(f'{path}.log').read_text()}")


def named(cookie):
    return {"Cookie": cookie, "Content-Type": "text/plain;charset=UTF-8"}


def line(visit, n, last=LINES, opener=None):
    """A line of a visit: it is loaded, clicked in, and has ended with its last."""
    if n == 1:
        said = {"v": visit, "n": 1, "t": "load", "at": 1, "path": "/" + visit, "page": {"n": "html"}}
        if opener:
            said["opener"] = opener
    elif n == last:
        said = {"v": visit, "n": n, "t": "end", "at": n}
    else:
        said = {"v": visit, "n": n, "t": "click", "at": n, "target": "/html", "req": n - 1}
    return json.dumps(said, separators=(",", ":"))


def body_of(lines):
    return "".join(text + "\n" for text in lines).encode()


def check_file(text, client, told, sent=line):
    """The text of a client's file is its hello and messages, as they were sent, with all lines that were told."""
    lines = text.split(b"\n")
    assert lines[-1] == b"", (client, lines[-1])
    assert json.loads(lines[0]) == {"t": "hello", "client": client}, lines[0]
    have, visits = {}, {}
    for raw in lines[1:-1]:
        said = json.loads(raw)
        visit, n = said["v"], said["n"]
        assert n == have.get(visit, 0) + 1, (client, visit, n, have.get(visit))
        have[visit] = n
        if n == 1:
            visits[visit] = len(visits) + 1
            assert said["parent"] == visits.get(said.get("opener"), 0), said
        assert said["visit"] == visits[visit], said
        stored = {k: v for k, v in said.items() if k not in ("visit", "parent")}
        assert stored == json.loads(sent(visit, n)), (stored, visit, n)
    for visit, n in told.items():
        assert have.get(visit, 0) >= n, (client, visit, n, have.get(visit))
    return have
