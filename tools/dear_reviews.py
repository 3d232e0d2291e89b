"""Sites and uploads of about 1 MB that somebody makes up to keep the administrator's page busy, each with the request
that would be dear, and how it is answered."""

import json


def text_of(value):
    return json.dumps(value, separators=(",", ":"))


def upload_of(page, events):
    """One visit to that page, on which this is done."""
    lines = [{"t": "hello", "client": "ann"}, {"t": "load", "visit": 1, "at": 1, "path": "/a", "page": page}]
    lines += [{"visit": 1, "at": 2} | event for event in events]
    lines += [{"t": "end", "visit": 1, "at": 3}, {"t": "bye"}]
    return "".join(text_of(line) + "\n" for line in lines)


def site_of(page):
    return text_of({"patched": ["/a"], "pages": {"/a": page}}) + "\n"


def long_paths():
    """Paths of 16 long steps, of which the eighth step reaches two thousand elements, where the ninth finds nothing."""
    inner = {"n": "b", "c": [{"n": "c", "c": [{"n": "d"}]} for _ in range(2030)]}
    for _ in range(5):
        inner = {"n": "b", "c": [inner]}
    steps = "/a" + 6 * "/b" + "/c" + 7 * ("/" + 64 * "x") + "/" + 50 * "y"
    events = [{"t": "click", "target": f"{steps}{k % 300}"} for k in range(980)]
    events += [{"t": "click", "target": "/a", "req": k} for k in range(1, 21)]
    return site_of({"n": "z"}), upload_of({"n": "a", "c": [inner]}, events)


def many_lookups():
    """Ten thousand submits by paths to the last of four thousand elements, behind the first of which the visit stops."""
    page = {"n": "a", "c": [{"n": "b"} for _ in range(4080)]}
    events = []
    for k in range(7000):
        place, other = 4080 - 2 * k % 300, 4079 - 2 * k % 300
        event = {"t": "submit", "target": f"/a/b[{place}]", "by": f"/a/b[{other}]"}
        events.append(event | ({"req": k - 6979} if k >= 6980 else {}))
    return site_of({"n": "a"}), upload_of(page, events)


def long_addresses():
    """Sixty submits of a form with an address of 900 KB, each byte of which is written as five."""
    new = {"n": "form", "a": {"action": 900_000 * "'", "method": "post"}}
    events = [{"t": "submit", "target": "/html/form", "req": k} for k in range(1, 61)]
    events.append({"t": "click", "target": "/html/p"})
    old = {"n": "form", "a": {"method": "post"}}
    return site_of({"n": "html", "c": [new]}), upload_of({"n": "html", "c": [old]}, events)


def long_report():
    """9,900 submits of a text of 380 KB, each byte of which is written as three: eleven gigabytes of report."""
    field = {"n": "input", "a": {"name": "x", "value": 380_000 * "'"}}
    new = {"n": "form", "a": {"method": "post"}, "c": [field]}
    events = [{"t": "submit", "target": "/html/form", "req": k} for k in range(1, 9901)]
    old = {"n": "form", "a": {"method": "post"}}
    return site_of({"n": "html", "c": [new]}), upload_of({"n": "html", "c": [old]}, events)


DEAR = {
    "long paths": (long_paths, "/visit?c=ann&v=1", 200),
    "many look-ups": (many_lookups, "/visit?c=ann&v=1", 200),
    "long addresses": (long_addresses, "/visit?c=ann&v=1", 200),
    "a long report": (long_report, "/report", 503),
}
