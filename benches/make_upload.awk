# Makes a site line and an upload of at least `size` bytes: visits of a form with typed texts, a checkbox and a submit, a third of them to a page that
# was patched. The same size gives the same upload. With `siblings` so many other elements stand beside the form, and with `inputs` each visit has so
# many typed texts. With `workers` the site has so many. With `changing` each visit's page has an attribute of its own, so that no two are equal.
# With `same` events go by their elements, with `patched` these pages are patched, with `visits` there are so many, and with `chained` each visit is
# opened by the submit of the one before.
#   awk -v size=600000 -f make_upload.awk > upload.jsonl
#   awk -v size=6000000 -v siblings=4000 -v inputs=1000 -f make_upload.awk > upload.jsonl
function chance(n) { seed = (seed * 16807) % 2147483647; return seed % n }
function say(line) { print line; bytes += length(line) + 1 }
function word(n,   text) { text = ""; while (n-- > 0) text = text substr("abcdefghijklmnopqrstuvwxyz    ", chance(30) + 1, 1); return text }
BEGIN {
    seed = 20111023
    for (i = 0; i < siblings; i++) others = others "{\"n\":\"i\"},"
    page = "{\"n\":\"html\",\"c\":[{\"n\":\"body\",\"c\":[{\"n\":\"p\",\"c\":[\"Write to us\"]}," others "{\"n\":\"form\",\"a\":{\"action\":\"/send\",\"method\":\"post\"},\"c\":[{\"n\":\"input\",\"a\":{\"name\":\"subject\"}},{\"n\":\"textarea\",\"a\":{\"name\":\"text\"}},{\"n\":\"input\",\"a\":{\"name\":\"copy\",\"type\":\"checkbox\"}},{\"n\":\"button\",\"a\":{\"name\":\"go\",\"value\":\"1\"},\"c\":[\"Send\"]}]}]}]}"
    split("/a /b /c", address, " ")
    if (!workers) workers = 1
    if (!patched) patched = "/a"
    for (i = split(patched, patches, ","); i > 0; i--) {
        listed = "\"" patches[i] "\"" (listed ? "," : "") listed
        pages = "\"" patches[i] "\":" page (pages ? "," : "") pages
    }
    print "{\"patched\":[" listed "]," (same ? "\"same\":[]," : "") "\"workers\":" workers ",\"quota\":4294967295,\"watch\":[\"/html/body/p\"],\"pages\":{" pages "}}"
    say("{\"t\":\"hello\",\"client\":\"" (client ? client : "bench") "\"}")
    for (visit = 1; visits ? visit <= visits : bytes < size; visit++) {
        at = visit * 1000
        shown = page
        if (changing) sub(/"n":"html"/, "&,\"a\":{\"id\":\"" visit "\"}", shown)
        say("{\"t\":\"load\",\"visit\":" visit ",\"at\":" at "," (chained && visit > 1 ? "\"parent\":" visit - 1 ",\"from\":1," : "") "\"path\":\"" address[visit % 3 + 1] "\",\"page\":" shown "}")
        for (i = inputs ? inputs : chance(12) + 4; i > 0; i--) {
            target = chance(2) ? "/html/body/form/input[1]" : "/html/body/form/textarea"
            say("{\"t\":\"input\",\"visit\":" visit ",\"at\":" at + 20 - i ",\"target\":\"" target "\",\"value\":\"" word(chance(60)) "\"}")
        }
        if (chance(2)) say("{\"t\":\"click\",\"visit\":" visit ",\"at\":" at + 21 ",\"target\":\"/html/body/form/input[2]\"}")
        say("{\"t\":\"submit\",\"visit\":" visit ",\"at\":" at + 22 ",\"target\":\"/html/body/form\",\"by\":\"/html/body/form/button\",\"req\":1}")
        say("{\"t\":\"end\",\"visit\":" visit ",\"at\":" at + 23 "}")
    }
    say("{\"t\":\"bye\"}")
}
