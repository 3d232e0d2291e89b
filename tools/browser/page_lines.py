"""Lines of a site file of what pages show in Chromium: tools/pages is the command over it, and tells of its words."""

import json
import pathlib
import re

from chromium import Fault

TOP = pathlib.Path(__file__).resolve().parent.parent.parent
# A page of the copy may have the recorder in it: that begins nothing where it seems to be there already.
UNRECORDED = 'window[Symbol.for("yugdemor")] = true'


def page_script(step, watched):
    """The recorder's part that makes a page's tree, and what runs behind it."""
    text = (TOP / "recorder" / "recorder.js").read_text()
    part = text[text.index("// ---- page"):text.index("// ---- end of page")]
    # in whatever namespace
    paths = [re.sub(r"/([A-Za-z_][\w.-]*)", r"/*[local-name()='\1']", path) for path in watched]
    words = f"const STEP = {json.dumps(step)}, WATCHED = {json.dumps(paths)};"
    return "{" + words + part + (TOP / "recorder" / "page.js").read_text() + "}"


def visits(upload, paths):
    """The client of an upload, and the number, address and step of each visit to one of the paths."""
    with open(upload, encoding="utf8") as file:
        lines = [json.loads(line) for line in file if line.endswith("\n") and line.strip()]
    loads = [(line["visit"], line["path"], line.get("step", 0)) for line in lines if line["t"] == "load"]
    return lines[0]["client"], [load for load in loads if load[1].split("?")[0].split("#")[0] in paths]


def take(words, name, count):
    """What stands behind each such option, which is taken out of the words."""
    found = []
    while name in words:
        at = words.index(name)
        found.append(words[at + 1:at + 1 + count])
        del words[at:at + 1 + count]
    return found


class Asked:
    """What the words of a call ask for: whose pages, and each with its address, step and further members."""

    def __init__(self, words):
        words = list(words)
        self.cookies, self.logins = take(words, "--cookie", 1), take(words, "--login", 2)
        self.watched, uploads = [path for (path,) in take(words, "--watch", 1)], take(words, "--visits", 1)
        self.is_sound = words and not any(word.startswith("-") for word in words) and len(words) > len(uploads[:1])
        self.pages = [(address, None, {}) for address in words]
        if self.is_sound and uploads:
            client, found = visits(uploads[0][0], words[1:])
            here = words[0].rstrip("/")
            self.pages = [(here + path, step, {"client": client, "visit": visit}) for visit, path, step in found]

    def lines(self, tab):
        """Of each page its address, and its line or why there is none."""
        tab.call("Page.enable")
        tab.call("Page.addScriptToEvaluateOnNewDocument", source=UNRECORDED)
        for address, file in self.logins:
            tab.go(address)
            tab.leads(lambda: tab.run(f"setTimeout(() => {{ {pathlib.Path(file).read_text()} }})"))
        for address, step, more in self.pages:
            for (cookie,) in self.cookies:
                name, _, value = cookie.partition("=")
                tab.call("Network.setCookie", name=name, value=value, url=address)
            try:
                tab.go(address)
                made = json.loads(tab.run(page_script(step, self.watched)))
            except Fault as why:
                yield address, None, why
                continue
            line = {"path": made["path"], **more, "page": made["page"]}
            yield address, line if made["page"] else None, "what is watched there has no room"
