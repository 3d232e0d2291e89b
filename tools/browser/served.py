#!/usr/bin/env python3
"""The recorder as a server gives it, for `/recorder.js`: without indents and comments.

  tools/browser/served.py     writes it into the collector, behind a change of recorder/recorder.js"""

import pathlib

TOP = pathlib.Path(__file__).resolve().parent.parent.parent
RECORDER = TOP / "recorder" / "recorder.js"
COLLECTOR = TOP / "crates/collect_server/src/recorder.rt"
HEAD = """//! What `/recorder.js` gives: `recorder/recorder.js` without indents and comments.
//! `tools/browser/served.py` writes it.

pub(crate) const RECORDER: &[u8] = b"\\
"""


def recorder():
    lines = [line.strip() for line in RECORDER.read_text(encoding="ascii").splitlines()]
    return "".join(line + "\n" for line in lines if line and not line.startswith("//")).encode()


def source():
    """The collector's file that has it."""
    lines = recorder().decode().replace("\\", "\\\\").replace('"', '\\"').splitlines()
    return HEAD + "".join(f"    {line}\\n\\\n" for line in lines) + '";\n'


if __name__ == "__main__":
    COLLECTOR.write_text(source())
