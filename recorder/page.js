// What tools/pages runs in a page that is loaded, behind the part of recorder.js that makes a page's tree: so pages of
// a site file are made as the recorder makes them, at a visit's STEP with what that left out. A text that is WATCHED is
// never left out: beside a visit that was recorded without it, it is another (K9).
const root = document.documentElement, path = location.pathname + location.search;
const isWatched = WATCHED.some((it) => document.evaluate(it, document, null, 9).singleNodeValue);
let made = [...pageOf(root, STEP === null ? BYTES - bytesOf(json({ path })) : 1e6, STEP)].pop();
if (isWatched && made.step > 1) made = [...pageOf(root, 1e6, 1)].pop();
JSON.stringify({ path, page: isWatched && made.step > 1 ? null : JSON.parse(made.text) });
