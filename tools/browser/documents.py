"""Pages of documentation, as packages have them in a folder: which are opened, and what is done on them."""

import functools
import pathlib
import re
import time

# Links that can be hit, of this origin, one to this page or to others, and text fields, each with a spot to click at.
SPOTS = """(() => {
    const spot = (el) => {
        el.scrollIntoView({ block: "center", behavior: "instant" });
        const { x, y, width, height } = el.getClientRects()[0] ?? {};
        const at = [x + width / 2, y + height / 2];
        return width && at.every(Number.isFinite) && el.contains(document.elementFromPoint(...at)) ? at : null;
    };
    const links = [...document.links].filter((it) => it.origin === location.origin);
    const isHere = (it) => it.hash && it.href.split("#")[0] === location.href.split("#")[0];
    // a third on their way through the page
    const some = (all) => all.slice(all.length / 3).concat(all.slice(0, all.length / 3)).find(spot);
    const found = KIND === "here" ? some(links.filter(isHere))
        : KIND === "on" ? some(links.filter((it) => !isHere(it)))
        : [...document.querySelectorAll("form input:is([type=text], [type=search], :not([type]))")].find(spot);
    return found ? spot(found) : null;
})()"""

LEADS_ON = re.compile(rb"(?i)http-equiv=.?refresh")


def leads_on(file):
    with open(file, "rb") as page:
        return LEADS_ON.search(page.read(8192))


@functools.cache
def packages(folder):
    """The HTML files of each package, by its name; none that leads on to another by itself."""
    found = {}
    for file in sorted(pathlib.Path(folder).glob("**/*.htm*")):
        parts = file.relative_to(folder).parts
        if file.suffix in (".htm", ".html") and file.is_file() and not leads_on(file):
            name = parts[parts.index("doc") + 1] if "doc" in parts[:-2] else parts[-2]
            found.setdefault(name, []).append("/" + "/".join(parts))
    return found


def spread(files, count):
    """So many of them, evenly."""
    return [files[(2 * it + 1) * len(files) // (2 * count)] for it in range(count)] if len(files) > count else files


def chosen(folder, count):
    """So many addresses of a folder at the least, of each package as many, where it has them."""
    all_files = list(packages(folder).values())
    for each in range(1, 10000):
        found = [file for files in all_files for file in spread(files, each)]
        if len(found) >= count or each >= max(map(len, all_files)):
            return found


def act(tab, last):
    """Clicks on links to the page itself, types into a field, and leaves by a link, or by Enter in the field."""
    def spot(kind):
        found = tab.run(SPOTS.replace("KIND", f'"{kind}"'))
        if found:
            tab.click_at(*found)
            time.sleep(0.1)
        return found

    before = tab.born()
    spot("here")
    is_typed = spot("field")
    if is_typed:
        tab.type("some words")
    if last == "link":
        spot("on")
    elif is_typed:
        tab.key("Enter")
    end = time.monotonic() + 2
    while time.monotonic() < end and tab.born() == before:
        time.sleep(0.1)
    if tab.born() != before:
        tab.loaded()
