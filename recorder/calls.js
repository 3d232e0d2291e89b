// The extension's part in the page's own world: it tells recorder.js, which runs out of reach there, what the page's
// scripts send. A page can make up such calls, and so conflicts, and hide its own.
(() => {
"use strict";
const safely = (act) => (...words) => {
	try {
		return act(...words);
	} catch {}
};
const watchCalls = (note) => {
	const addresses = new WeakMap(), stated = (form, name) => Element.prototype.getAttribute.call(form, name);
	const watch = (owner, name, act) => {
		const apply = (call, self, words) => {
			safely(act)(self, ...words);
			return Reflect.apply(call, self, words);
		};
		owner[name] = new Proxy(owner[name], { apply });
	};
	watch(window, "fetch", (_, it) => note(`${it?.url ?? it}`));
	watch(window, "open", (_, it) => note(`${it || "about:blank"}`, true));
	watch(Navigator.prototype, "sendBeacon", (_, it) => note(`${it}`));
	// that of a link outside of the page
	watch(HTMLElement.prototype, "click", (it) => it.href && !it.isConnected && note(`${it.href}`, true));
	watch(HTMLFormElement.prototype, "submit", (it) => note(stated(it, "action") ?? "", true, stated(it, "target")));
	watch(XMLHttpRequest.prototype, "open", (self, _, it) => addresses.set(self, `${it}`));
	watch(XMLHttpRequest.prototype, "send", (self) => note(addresses.get(self)));
};

watchCalls((...words) => dispatchEvent(new CustomEvent("yugdemor", { detail: JSON.stringify(words) })));
})();
