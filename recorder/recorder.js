// README.md says how and why.
(() => {
"use strict";

// ---- page

const get = (el, name) => Reflect.get(Element.prototype, name, el);
const { getAttribute, getAttributeNames, matches, querySelectorAll } = Element.prototype;
const attr = (el, name) => el ? getAttribute.call(el, name) : null;
const all = (el, selector) => [...querySelectorAll.call(el, selector)];

const BYTES = 65200, NODES = 4096, LEVELS = 48;
const ACTING = "a[*|href],area[href],button,input,textarea,select", TARGETS = "form," + ACTING;
const READ = "href action method type name value checked disabled formaction formmethod".split(" ");
const SEEN = [...READ, ..."alt src title placeholder aria-label".split(" ")];

const json = (value) => JSON.stringify(value).replace(/\\(\\|ud\w{3})/g, (it) => it.length > 2 ? "\ufffd" : it);
const bytesOf = (text) => new TextEncoder().encode(text).length;
const asSent = (text) => text.replace(/\r\n?|\n/g, "\r\n");
const nameOf = (el) => get(el, "localName").match(/^[a-z_][\w.-]{0,63}$/i)?.[0] ?? "_";
const kindOf = (el) => {
	const isField = /^(input|button|textarea|select)$/.test(nameOf(el)), { type } = el;
	return !isField || /^(image|file|reset|button)$/.test(type) ? "" : /^(check|rad|sub)/.test(type) ? type : "text";
};
const startOf = (el) => {
	const it = el.cloneNode(true);
	it.value = it.defaultValue ?? it.value;
	return asSent(it.value ?? "");
};
const attrsOf = (el, n, step) => {
	const a = {};
	for (const name of getAttributeNames.call(el))
		if (!step || (step > 1 ? READ : SEEN).includes(name)) a[name] = attr(el, name);
	const isMended = n === "input" && kindOf(el) === "text" && el.value !== (a.value ?? "");
	if (n === "select" || isMended) a.value = startOf(el);
	else if (a.value) a.value = asSent(a.value);
	return a;
};
const leading = (root) => {
	const shown = new Set([root, ...all(root, `:is(${TARGETS}),:has(${TARGETS})`)]);
	for (const el of shown) {
		let it = el;
		do it = get(it, "previousElementSibling"); while (it && nameOf(it) !== nameOf(el));
		if (it) shown.add(it);
	}
	return shown;
};
const isKept = (text, n, step) => !step || n === "textarea" || step < 2 && !/^(script|style)$/.test(n) && text.trim();
const treeOf = function* (copy, n, path, level, page) {
	const { step, shown, places } = page, c = [], counts = { __proto__: null };
	places.set(copy, { copy, path });
	if (places.size % 64 === 0) yield;
	for (const it of get(copy, "childNodes")) {
		if (it instanceof Text) {
			if (isKept(it.data, n, step)) c.push(n === "textarea" ? asSent(it.data) : it.data);
		} else if (it instanceof Element && level < LEVELS && (!shown || shown.has(it))) {
			const name = nameOf(it), count = counts[name] = (counts[name] ?? 0) + 1;
			c.push(yield* treeOf(it, name, `${path}/${name}[${count}]`, level + 1, page));
		}
	}
	page.nodes += c.length;
	return { n, a: attrsOf(copy, n, step), c };
};
const pageOf = function* (root, room, from) {
	for (let step = from ?? (all(root, "*").length < NODES ? 0 : 3); ; step += 1) {
		const page = { step, shown: step > 3 ? new Set() : step > 2 ? leading(root) : null, places: new Map(), nodes: 1 };
		const tree = yield* treeOf(root, nameOf(root), `/${nameOf(root)}[1]`, 1, page);
		page.text = json(tree).replace(/,"(a":{}|c":\[\])/g, "");
		yield page;
		if (step > 3 || page.nodes <= NODES && bytesOf(page.text) <= room) return page;
	}
};
// ---- end of page

const safely = (act) => (...words) => {
	try {
		return act(...words);
	} catch {}
};
const bare = (address) => address.split("#")[0];
const unasked = (address) => address.split(/[?#]/)[0];

const script = document.currentScript?.src, UPLOAD = new URL("upload", script || location.origin);
const MARK = Symbol.for("yugdemor"), DAY = 864e5, { fetch, navigation, Date: { now } } = window;
const LINE = "yugdemor line ", OPEN = "yugdemor open ", TO = "yugdemor to ", KNOWN = "yugdemor known";
const memory = {}, store = (where, key, text) => safely(() => where[key] = text)();
const stored = (kind) => [local ?? {}, memory].flatMap((where) => Object.keys(where).sort()
	.filter((key) => key.startsWith(kind) && where[key]).map((key) => [key, where[key]]));

let local, session, room = 2e6, isSafe, isKnown, pause = 0, isBusy, timer;
const keep = (line, tail = "}") => {
	const key = `${LINE}${line.v} ${1e5 + line.n}`, text = json(line).slice(0, -1) + tail;
	room -= text.length;
	isSafe &&= room > 0 && store(local, key, text);
	if (!isSafe) memory[key] = text;
};
const nextLines = (kind, left) => stored(kind).filter(([, text], at) => (left -= text.length) > 0 || !at);
const bodyOf = (lines) => lines.map(([, text]) => text + "\n").join("");
const forget = (lines, { have = {}, refused = {} }) => {
	const first = {};
	let went;
	for (const [key, text] of lines) {
		const line = JSON.parse(text), { v, n, opener } = line;
		if (!(v in have)) continue;
		first[v] ??= n;
		const isLost = refused[v] || first[v] > have[v] + 1, isDone = isLost || n <= have[v];
		visit.isOver ||= isLost && v === visit.v;
		if (!isDone && (!opener || local[OPEN + opener])) continue;
		went = true;
		room += text.length;
		delete local[key];
		delete memory[key];
		if (!isDone) keep({ ...line, opener: undefined });
	}
	return went;
};
const ask = async (options) => {
	const answer = await fetch(UPLOAD, { credentials: "include", ...options });
	isKnown &&= answer.status !== 401;
	return answer.json();
};
const flush = async () => {
	timer = clearTimeout(timer);
	const lines = isBusy ? [] : nextLines(LINE, 12e4);
	if (!lines.length) return;
	let went;
	isBusy = true;
	try {
		isKnown ||= await (navigator.locks?.request(KNOWN, ask) ?? ask());
		store(local, KNOWN, 1);
		went = forget(lines, await ask({ method: "POST", body: bodyOf(lines) }));
	} catch {}
	isBusy = false;
	pause = went ? 100 : Math.min(3e4, pause * 2 + 100);
	plan();
};
const plan = () => (timer ??= setTimeout(flush, pause));

let visit;
const enter = safely(() => {
	if (!local) {
		local = safely(() => localStorage)() ?? {};
		session = safely(() => sessionStorage)() ?? {};
		visit.handed = session[TO];
		delete session[TO];
		isSafe = local instanceof Storage;
		isKnown = local[KNOWN];
		for (const [, text] of stored(LINE)) room -= text.length;
		for (const [key, text] of stored(OPEN)) {
			const end = JSON.parse(text);
			if (end.at > now() - 2 * DAY) continue;
			delete local[key];
			if (end.n) keep(end);
		}
		plan();
	}
	if (!visit.n) store(local, OPEN + visit.v, json({ at: visit.at }));
});
const whenIdle = (act) => window.requestIdleCallback?.(act, { timeout: 100 }) ?? setTimeout(act, 50, true);
const begin = (isNew) => {
	const at = now(), v = `${at.toString(36)}-${crypto.getRandomValues(new Uint32Array(4)).join("-")}`;
	visit = { v, isNew, path: location.pathname + location.search, at, n: 0, sent: 0, isOver: true };
	window[MARK] = v;
	whenIdle(enter);
};
const say = (t, rest, tail) => {
	if (visit.isOver) return;
	const { v } = visit, n = ++visit.n, at = visit.at = now();
	keep({ v, n, t, at, kept: isSafe ? undefined : false, ...rest }, tail);
	store(local, OPEN + v, json({ v, n: n + 1, t: "end", at }));
	plan();
};
const sayEvent = (t, chain, rest) => {
	if (visit.n < 1e4) say(t, { target: targetOf(chain), ...rest });
	else if (visit.n === 1e4) say("click", { target: targetOf([]) });
};
const note = (changes) => changes.forEach((it) => {
	visit.changes.push(it);
	it.removedNodes.forEach(watch);
});
const observer = new MutationObserver(note);
const watch = (node) => observer.observe(node,
	{ subtree: true, childList: true, attributeOldValue: true, characterDataOldValue: true });
const take = () => {
	if (visit.changes) return;
	visit.changes = [];
	watch(visit.root = document.documentElement);
	whenIdle(tell);
};
const tellPage = function* () {
	const { root, changes, isNew, path } = visit, copies = new Map();
	const inert = document.implementation.createHTMLDocument("");
	const copyOf = (node) => {
		if (!node || copies.has(node)) return copies.get(node);
		let top;
		for (let it = node; it; it = get(it, "parentElement")) top = it;
		const one = document.createTreeWalker(top), other = document.createTreeWalker(inert.importNode(top, true));
		do copies.set(one.currentNode, other.currentNode); while (one.nextNode() && other.nextNode());
		return copies.get(node);
	};
	enter();
	note(observer.takeRecords());
	observer.disconnect();
	changes.reverse().forEach(safely((it) => {
		const { attributeName: name, attributeNamespace: space, oldValue } = it, copy = copyOf(it.target);
		if (!name) copy.nodeValue = oldValue;
		else if (oldValue === null) copy.removeAttributeNS(space, name);
		else copy.setAttributeNS(space, name, oldValue);
		for (const node of it.addedNodes) copy.removeChild(copyOf(node));
		for (const node of it.removedNodes) copy.insertBefore(copyOf(node), copyOf(it.nextSibling));
	}));
	const head = { ...openerOf(visit), path }, page = yield* pageOf(copyOf(root), BYTES - bytesOf(json(head)));
	visit.places = page.places;
	for (const [el, copy] of copies) {
		const it = placeOf(copy);
		if (it) visit.places.set(el, Object.assign(it, { el, filled: isNew ? null : valueOf(el) }));
	}
	visit.isOver = false;
	say("load", { ...head, step: page.step }, `,"page":${page.text}}`);
};
const tell = safely((isPiece) => {
	const end = now() + (isPiece ? 4 : 1e9);
	visit.pieces ??= tellPage();
	while (!visit.pieces.next().done) if (now() > end) return whenIdle(tell);
});
const placeOf = (el) => visit.places.get(el);
const targetOf = (chain) => {
	const at = chain.findIndex(placeOf), { path } = placeOf(chain[at] ?? visit.root);
	return at ? `${path.split("/", LEVELS).join("/")}/_new[1]` : path;
};
const isLink = (el) => el && /^(a|area)$/.test(nameOf(el));
const conflict = (chain) =>
	sayEvent("click", chain.filter((el) => !isLink(el)), { req: ++visit.sent });

const handOn = (to, n) => {
	if (!to) return;
	enter();
	const { v } = visit, url = bare(document.URL), id = TO + [v, n, to = bare(to)];
	store(session, TO, id);
	store(local, id, json({ id, opened: { opener: v, from: n }, url, to, at: now() }));
};
const openerOf = ({ isNew, handed }) => {
	const fit = ({ id, url, to }) => {
		const there = (to === bare(document.URL)) * 2 + (url === document.referrer);
		return (isNew || id === handed) && there && there + (id === handed) * 1.5;
	};
	const [best] = stored(TO).map(([, text]) => JSON.parse(text))
		.filter((it) => performance.timeOrigin - it.at < 6e4 ? fit(it) : !delete local[it.id])
		.sort((one, other) => fit(other) - fit(one));
	delete local[best?.id];
	return best?.opened ?? (isNew && window !== parent && { opener: parent[MARK] });
};

let typed, idle;
const valueOf = (el) => el.type === "checkbox" ? el.checked : el.value;
const isOn = (it) => it.held ?? it.copy.defaultChecked;
const heldBy = (it) => it.held ?? startOf(it.copy);
const sayInput = (chain, text) => {
	const [el] = chain, value = asSent(text), it = placeOf(el);
	if (el.type === "password" || it && (it.copy.type === "password" || heldBy(it) === value)) return;
	if (bytesOf(json(value)) > 6e4) return conflict(chain);
	if (it) it.held = value;
	sayEvent("input", chain, { value });
};
const sayTyped = (chain) => {
	if (typed && typed.chain[0] !== chain?.[0]) sayInput(typed.chain, typed.text);
	typed = chain && { chain, text: chain[0].value, at: now() };
	if (chain) idle ??= setTimeout(sayIdle, 1e3);
};
const sayIdle = () => {
	const left = typed?.at + 1e3 - now();
	idle = left > 0 ? setTimeout(sayIdle, left) : safely(sayTyped)();
};
const toggle = (it) => {
	it.held = !isOn(it);
	sayEvent("click", [it.el]);
};
const under = (form) => placeOf(form) ? all(placeOf(form).copy, "*").map(placeOf).filter(Boolean) : [];
const reconcile = (form) => {
	for (const it of under(form)) {
		const { el, filled } = it, kind = kindOf(it.copy);
		if (filled !== valueOf(el) && !el.matches(":autofill")) continue;
		if (kind === "text") sayInput([el], el.value);
		if (kind === "checkbox" && isOn(it) !== el.checked) toggle(it);
	}
};

const pairsOf = (form, by) => under(form).flatMap((it) => {
	const { name, value, disabled } = attrsOf(it.copy, nameOf(it.copy), 1), kind = kindOf(it.copy);
	if (!name || disabled !== undefined) return [];
	if (kind === "text") return [[name, heldBy(it)]];
	if (/^[cr]/.test(kind)) return isOn(it) ? [[name, value ?? "on"]] : [];
	return it.el === by ? [[name, value ?? ""]] : [];
});
const stated = ({ form, submitter }, name) => attr(submitter, `form${name}`) ?? attr(form, name) ?? "";
const urlOf = (address, base = document.baseURI) => URL.parse(address, base)?.href ?? "";
const submitTo = (submit) => urlOf(stated(submit, "action") || document.URL);
const replayed = (address) => urlOf(address, location.origin + visit.path);
const isFormSaid = (submit, to) => {
	const { form, submitter, data } = submit, copy = placeOf(form)?.copy, post = /^post$/i;
	const isPost = post.test(stated(submit, "method")), part = isPost ? bare : unasked;
	const sent = json([...data].map((pair) => pair.map((it) => it.replace ? asSent(it) : null)));
	return isPost === post.test(attr(copy, "method"))
		&& !(isPost && /^(multi|text)/i.test(stated(submit, "enctype")))
		&& (/^\s*utf-?8\s*$/i.test(attr(form, "accept-charset") ?? document.characterSet)
			|| /^[\0-~]*$/.test(stated(submit, "action") + sent))
		&& /^http/.test(to) && part(to) === part(replayed(attr(copy, "action") || visit.path))
		&& sent === json(pairsOf(form, submitter));
};
let asked;
const request = (isSaid, t, chain, rest, to, here) => {
	if (isSaid) sayEvent(t, chain, { ...rest, req: ++visit.sent });
	else conflict(chain);
	asked = { to: unasked(to), isHere: here && navigation };
	handOn(to, visit.sent);
};

// the user's, and the last
let turn, cause;
const acting = (chain) => chain.find((el) => matches.call(el, ACTING));
const chainOf = (it) => typed?.chain[0] === it.target ? typed.chain
	: it.composedPath().filter((el) => el instanceof Element);
const isHere = (target) => {
	const name = target ?? attr(document.querySelector("base[target]"), "target") ?? "";
	return /^(_self)?$/i.test(name) || name === window.name || window === parent && /^_(top|parent)$/i.test(name);
};
const staysHere = (link, it) => isHere(attr(link, "target"))
	&& !(it.button || it.ctrlKey || it.metaKey || it.shiftKey || it.altKey || matches.call(link, "[download]"));
const linkTo = (link, it) => {
	if (!isLink(link) || it.defaultPrevented) return null;
	const to = urlOf(link.href?.baseVal ?? link.href), isInside = to.includes("#") && bare(to) === bare(document.URL);
	return /^http/.test(to) && !(isInside && staysHere(link, it)) ? to : null;
};
const settleClick = (el, chain, event, made) => {
	const it = placeOf(el), kind = it && kindOf(it.copy), to = linkTo(el, event);
	const isSaid = () => !event.altKey && replayed(attr(it?.copy, "href")) === to
		&& ![el, event.target].some((it) => matches.call(it, "[ping],[ismap]"));
	if (to) request(isSaid(), "click", chain, {}, to, staysHere(el, event));
	else if (event.type !== "click" || kind === "text" || event.defaultPrevented && /^[cr]/.test(kind)) return;
	else if (kind === "checkbox") toggle(it);
	else if (!made) sayEvent("click", chain);
};
const settleForm = (submit, made) => {
	const { form, submitter, data, event } = submit, by = submitter && { by: targetOf([submitter]) };
	const to = submitTo(submit);
	reconcile(form);
	if (data && !event.defaultPrevented)
		request(isFormSaid(submit, to), "submit", [form], by, to, isHere(stated(submit, "target") || undefined));
	else if (!made) sayEvent("submit", [form], by);
};
const settle = safely(() => {
	if (!turn) return;
	visit.places ?? tell();
	const { event, chain, isClick, field, submit, made, went } = turn, el = isClick && acting(chain);
	turn = null;
	checkLeft();
	if (field && (field === typed?.chain || kindOf(field[0]) === "text")) sayTyped(field);
	if (isClick || submit || made) sayTyped();
	if (submit) settleForm(submit, made);
	else if (el) settleClick(el, chain.slice(chain.indexOf(el)), event, made);
	cause = { at: now(), chain };
	if (went) leave(went);
	made?.forEach(answer);
});
const answer = (to) => {
	if (!cause.n) conflict(cause.chain);
	cause.n ??= visit.sent;
	handOn(to, cause.n);
};
const fail = () => turn ? (turn.made ??= []).push(null) : answer();
const leave = (to) => asked?.to === unasked(to) ? asked.isHere = false : fail();
const checkLeft = () => {
	if (asked?.isHere) fail();
	asked = null;
};
const alone = new Set();
const noteCall = (address, opens, target) => {
	const to = address === null ? "" : urlOf(address), led = opens && to;
	if (!/^(http|about)/.test(to) || target !== undefined && navigation && isHere(target)) return;
	if (turn) (turn.made ??= []).push(led);
	else if (now() - cause?.at < 500 && !alone.has(unasked(to))) answer(led);
	else {
		alone.add(unasked(to));
		handOn(led, 0);
	}
};
const startEvent = (it) => {
	const { type } = it;
	if (!it.isTrusted) return type === "click" && noteCall(linkTo(acting(chainOf(it)), it), true);
	const isClick = type === "click" || type === "auxclick" && it.button === 1;
	if (isClick) settle();
	if (!turn) {
		if (type === "input" && it.inputType) return;
		if (now() - visit.at > DAY) begin();
		take();
		if (!visit.isNew) tell();
		setTimeout(settle);
		turn = { event: it, isClick, chain: chainOf(it) };
	}
	if (it.key === "Enter") turn.enter = it;
	if (type === "input") turn.field = chainOf(it);
};
const noteSubmit = (it) => {
	const { submitter, target: form } = it, { event, enter, isClick, chain } = turn ?? {};
	if (!it.isTrusted) return;
	const isPressed = isClick && acting(chain) === submitter && !event.defaultPrevented;
	const isEntered = enter?.target.form === form && !enter.defaultPrevented;
	if (isPressed || isEntered) turn.submit = { form, submitter, event: it };
	else noteCall(submitTo({ form, submitter }), true);
};

const watchCalls = (note) => {
	const watch = (owner, name, act) => {
		const apply = (call, self, words) => (safely(act)(self, ...words), Reflect.apply(call, self, words));
		owner[name] = new Proxy(owner[name], { apply });
	};
	watch(window, "fetch", (_, it) => note(it?.url ?? it));
	watch(window, "open", (_, it) => note(it || "about:blank", true));
	watch(Navigator.prototype, "sendBeacon", (_, it) => note(it));
	watch(HTMLElement.prototype, "click", (it) => it.href && !it.isConnected && note(it.href, true));
	watch(HTMLFormElement.prototype, "submit", (it) => note(attr(it, "action") ?? "", true, attr(it, "target")));
	watch(XMLHttpRequest.prototype, "open", (self, _, it) => self[MARK] = it);
	watch(XMLHttpRequest.prototype, "send", (self) => note(self[MARK]));
};

const on = (type, act, owner = window) => owner.addEventListener(type, safely(act), true);
const start = () => {
	if (window[MARK]) return;
	begin(performance.getEntriesByType("navigation")[0].type === "navigate");
	for (const type of "pointerdown keydown keypress beforeinput input click auxclick change drop".split(" "))
		on(type, startEvent);
	on("submit", noteSubmit);
	on("formdata", (it) => {
		if (it.isTrusted && turn?.submit?.form === it.target) turn.submit.data = it.formData;
	});
	on("navigate", ({ destination: { url, sameDocument }, navigationType, userInitiated }) => {
		const { way } = visit, at = now();
		if (url === way?.url && at - way.at < 3e3) fail();
		visit.way = !sameDocument && navigationType !== "traverse" && /^http/.test(url) && { url, at };
		if (!visit.way) return;
		if (!userInitiated) noteCall(url, true);
		else if (turn) turn.went = url;
		else leave(url);
	}, navigation);
	for (const it of ["success", "error"]) on(`navigate${it}`, () => {
		const { way } = visit;
		setTimeout(safely(() => way && way === visit.way && fail()));
	}, navigation);
	on("securitypolicyviolation", (it) => it.effectiveDirective === "form-action" && fail());
	on("pageshow", ({ persisted }) => {
		if (persisted) begin();
		take();
	});
	on("pagehide", () => {
		take();
		tell();
		settle();
		checkLeft();
		sayTyped();
		say("end");
		visit.isOver = true;
		delete local[OPEN + visit.v];
		if (isKnown) navigator.sendBeacon(UPLOAD, bodyOf(nextLines(LINE + visit.v, 6e4)));
	});
	on("visibilitychange", () => {
		settle();
		sayTyped();
		if (visit.changes) tell();
		flush();
	});
	on("online", flush);
	if (document.readyState === "complete") take();
	if (script) watchCalls(noteCall);
	else on("yugdemor", ({ detail }) => noteCall(...JSON.parse(detail)));
};
if (/^http/.test(location) && safely(() => top.location.href)()) {
	if (document.prerendering) on("prerenderingchange", start);
	else safely(start)();
}
})();
