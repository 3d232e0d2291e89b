"""Programs as `rt try` builds them: compiled with checks, and not proved."""

import itertools
import os
import pathlib
import random
import shutil
import socket
import subprocess
import time

TOP = pathlib.Path(__file__).resolve().parent.parent

# Ports below those that connections get. Each comes again only when all others have, so that runs side by side get none
# that another is about to listen on.
PORTS = itertools.cycle(random.sample(range(20_000, 32_000), 12_000))


class Wrong(Exception):
    """An answer that nothing promises."""


def build(crate, words, path, *flags):
    """Builds the crate's program at that path. It is called with these words, of which None stands for a file that it
    reads first. `rt try` keeps no program, so it is copied while it is held up by that file, which nobody writes."""
    gate, log = f"{path}.gate", pathlib.Path(f"{path}.log")
    os.mkfifo(gate)
    call = ["rt", "try", *flags, "--", *(word or gate for word in words)]
    with open(log, "wb") as out:
        made = subprocess.Popen(
            call, cwd=TOP / "crates" / crate, stdin=subprocess.DEVNULL, stdout=out, stderr=out
        )
        while made.poll() is None and not os.path.exists(path):
            keep(gate, path)
        made.wait()
    if not os.path.exists(path):
        raise SystemExit(f"{crate} was not built: {log.read_text()}")


def keep(gate, path):
    """Copies the program that waits at the gate, if one does."""
    try:
        end = os.open(gate, os.O_WRONLY | os.O_NONBLOCK)
    except OSError:
        time.sleep(0.05)
        return
    for line in pathlib.Path("/proc").glob("[0-9]*/cmdline"):
        try:
            words = line.read_text(errors="replace").split("\0")
        except OSError:
            continue
        own = [word for word in words if word.endswith("/program")]
        if gate in words and own:
            shutil.copy(own[0], path)
    os.close(end)


def free_port():
    """A port of 127.0.0.1 that nobody listens on."""
    for port in PORTS:
        with socket.socket() as trial:
            try:
                trial.bind(("127.0.0.1", port))
                return port
            except OSError:
                pass
