# Makes a small upload that somebody could send to keep a server busy. `input` names it:
#   pages       2,000 visits to a repaired page of 4,000 elements with 7 attributes each
#   attributes  5,000 clicks on an element of 40,000 attributes
#   siblings    5,000 clicks on the last of 4,000 siblings
#   forms       500 submits of a form of 4,000 elements
#   watched     4,000 watched paths over 1,500 siblings, and 10 visits
#   stars       500 watched paths like /html/*/p over 4,000 siblings, and 100 visits
#   paths       500 watched paths like /html/*/b0 that no page has, over 4,095 elements, and 1,100 visits
#   names       26,000 watched paths like /html/body/b7, and 4,000 visits to small pages no two of which are equal
#   indices     4,000 watched paths like /html/p[7], and 21 visits to 4,000 siblings, no two equal
#   radios      1,000 submits of a form of 4,000 radio buttons
#   texts       1,000 submits of a text of 64,999 bytes, each of which the report writes as three
#   children    2,800 visits that one visit opened, by as many submits of eight such texts, which the repaired page drops
# With `same` in the site line, so by elements:
#   alike       5,000 clicks on the last of 2,500 links that look alike, none of which has an anchor
#   hidden      9,900 inputs on 1,700 hidden fields in turn
#   tokens      9,900 clicks on ten links in turn, each of 3,000 pairs of a query, of which one is fresh
#   awk -v input=pages -f make_costly.awk > upload.jsonl
function times(n, text,   all) { all = ""; for (i = 1; i <= n; i++) all = all (i > 1 ? "," : "") text; return all }
function site(page, watch) { print "{\"patched\":[\"/a\"]," same "\"quota\":4294967295,\"watch\":[" watch "],\"pages\":{\"/a\":" page "}}"; print "{\"t\":\"hello\",\"client\":\"bench\"}" }
function load(visit, page) { print "{\"t\":\"load\",\"visit\":" visit ",\"at\":0,\"path\":\"/a\",\"page\":" page "}" }
function link(token,   i, query) { for (i = 0; i < 3000; i++) query = query "&m"; return "{\"n\":\"a\",\"a\":{\"href\":\"?t=" token query "\"}}" }
function ends(visit) { print "{\"t\":\"end\",\"visit\":" visit ",\"at\":0}" }
function visits(n,   visit) { for (visit = 1; visit <= n; visit++) { load(visit, "{\"n\":\"html\"}"); ends(visit) } }
function submits(n,   k) { for (k = 1; k <= n; k++) print "{\"t\":\"submit\",\"visit\":1,\"at\":0,\"target\":\"/html/form\",\"req\":" k "}" }
function form(elements, n) {
    site("{\"n\":\"html\",\"c\":[{\"n\":\"form\",\"c\":[" elements "]}]}", "")
    load(1, "{\"n\":\"html\"}")
    submits(n)
    ends(1)
}
function clicks(n, target,   k) { load(1, "{\"n\":\"html\"}"); for (k = 1; k <= n; k++) print "{\"t\":\"click\",\"visit\":1,\"at\":0,\"target\":\"" target "\"}"; ends(1) }
BEGIN {
    if (input == "pages") {
        attributes = ""
        for (i = 0; i < 7; i++) attributes = attributes (i ? "," : "") "\"a" i "\":\"v\""
        site("{\"n\":\"html\",\"c\":[" times(4000, "{\"n\":\"p\",\"a\":{" attributes "}}") "]}", "")
        visits(2000)
    } else if (input == "attributes") {
        attributes = ""
        for (i = 10000; i < 50000; i++) attributes = attributes (i > 10000 ? "," : "") "\"a" i "\":\"\""
        site("{\"n\":\"html\",\"c\":[{\"n\":\"input\",\"a\":{" attributes "}}]}", "")
        clicks(5000, "/html/input")
    } else if (input == "siblings") {
        site("{\"n\":\"html\",\"c\":[" times(4000, "{\"n\":\"p\"}") "]}", "")
        clicks(5000, "/html/p[4000]")
    } else if (input == "forms") {
        form(times(4000, "{\"n\":\"input\",\"a\":{\"name\":\"n\"}}"), 500)
    } else if (input == "watched") {
        watch = ""
        for (i = 0; i < 4000; i++) watch = watch (i ? "," : "") "\"/html/p[" i % 1500 + 1 "]\""
        site("{\"n\":\"html\",\"c\":[" times(1500, "{\"n\":\"p\"}") "]}", watch)
        page = "{\"n\":\"html\",\"c\":[" times(1500, "{\"n\":\"p\"}") "]}"
        for (visit = 1; visit <= 10; visit++) {
            load(visit, page)
            ends(visit)
        }
    } else if (input == "stars") {
        site("{\"n\":\"html\",\"c\":[" times(4000, "{\"n\":\"p\"}") "]}", times(500, "\"/html/*/p\""))
        visits(100)
    } else if (input == "paths") {
        watch = ""
        for (i = 0; i < 500; i++) watch = watch (i ? "," : "") "\"/html/*/b" i "\""
        site("{\"n\":\"html\",\"c\":[" times(4095, "{\"n\":\"p\"}") "]}", watch)
        visits(1100)
    } else if (input == "names") {
        watch = ""
        for (i = 10000; i < 36000; i++) watch = watch (i > 10000 ? "," : "") "\"/html/body/b" i "\""
        site("{\"n\":\"html\"}", watch)
        for (visit = 1; visit <= 4000; visit++) {
            load(visit, "{\"n\":\"html\",\"c\":[\"" visit "\"]}")
            ends(visit)
        }
    } else if (input == "indices") {
        watch = ""
        for (i = 1; i <= 4000; i++) watch = watch (i > 1 ? "," : "") "\"/html/p[" i "]\""
        page = times(4000, "{\"n\":\"p\"}")
        site("{\"n\":\"html\",\"c\":[" page "]}", watch)
        for (visit = 1; visit <= 21; visit++) {
            load(visit, "{\"n\":\"html\",\"c\":[\"" visit "\"," page "]}")
            ends(visit)
        }
    } else if (input == "radios") {
        form(times(4000, "{\"n\":\"input\",\"a\":{\"name\":\"n\",\"type\":\"radio\"}}"), 1000)
    } else if (input == "texts") {
        page = "{\"n\":\"html\",\"c\":[{\"n\":\"form\",\"c\":[{\"n\":\"textarea\",\"a\":{\"name\":\"t\"}}]}]}"
        site(page, "")
        load(1, page)
        print "{\"t\":\"input\",\"visit\":1,\"at\":0,\"target\":\"/html/form/textarea\",\"value\":\"" times(32500, ";") "\"}"
        submits(1000)
        ends(1)
    } else if (input == "children") {
        site("{\"n\":\"html\",\"c\":[{\"n\":\"form\",\"c\":[" times(8, "{\"n\":\"textarea\"}") "]}]}", "")
        load(1, "{\"n\":\"html\",\"c\":[{\"n\":\"form\",\"c\":[" times(8, "{\"n\":\"textarea\",\"a\":{\"name\":\"t\"}}") "]}]}")
        for (k = 1; k <= 8; k++) print "{\"t\":\"input\",\"visit\":1,\"at\":0,\"target\":\"/html/form/textarea[" k "]\",\"value\":\"" times(32450, ";") "\"}"
        submits(2800)
        for (k = 1; k <= 2800; k++) {
            print "{\"t\":\"load\",\"visit\":" k + 1 ",\"at\":0,\"parent\":1,\"from\":" k ",\"path\":\"/a\",\"page\":{\"n\":\"html\"}}"
            ends(k + 1)
        }
        ends(1)
    } else if (input == "alike") {
        same = "\"same\":[],"
        links = times(2500, "{\"n\":\"a\",\"a\":{\"href\":\"\"}}")
        site("{\"n\":\"html\",\"c\":[\"x\"," links "]}", "")
        load(1, "{\"n\":\"html\",\"c\":[" links "]}")
        for (k = 1; k <= 5000; k++) print "{\"t\":\"click\",\"visit\":1,\"at\":0,\"target\":\"/html/a[2500]\",\"req\":" k "}"
        ends(1)
    } else if (input == "hidden") {
        same = "\"same\":[],"
        page = "{\"n\":\"html\",\"c\":[" times(1700, "{\"n\":\"input\",\"a\":{\"type\":\"hidden\"}}") "]}"
        site(page, "")
        load(1, page)
        for (k = 1; k <= 9900; k++) print "{\"t\":\"input\",\"visit\":1,\"at\":0,\"target\":\"/html/input[" k % 1700 + 1 "]\",\"value\":\"x\"}"
        ends(1)
    } else if (input == "tokens") {
        same = "\"same\":[\"t\"],"
        for (i = 0; i < 10; i++) { before = before (i ? "," : "") link(1); now = now (i ? "," : "") link(2) }
        site("{\"n\":\"html\",\"c\":[" now "]}", "")
        load(1, "{\"n\":\"html\",\"c\":[" before "]}")
        for (k = 1; k <= 9900; k++) print "{\"t\":\"click\",\"visit\":1,\"at\":0,\"target\":\"/html/a[" k % 10 + 1 "]\",\"req\":" k "}"
        ends(1)
    } else { print "make_costly: no such input" > "/dev/stderr"; exit 1 }
    print "{\"t\":\"bye\"}"
}
