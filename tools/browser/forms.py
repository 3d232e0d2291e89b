"""Small form pages, one way of sending each: what is in the page, what the user does, and if a replay can say it."""

import base64

from chromium import ALT, SHIFT

# A replay says what is sent, or is a conflict; or nothing is sent at all, and it says that, or is a conflict.
DONE, CONFLICT, NOTHING, KEPT = "done", "conflict", "nothing", "kept"
PIXEL = "data:image/png;base64," + base64.b64encode(base64.b64decode(
    "iVBORw0KGgoAAAANSUhEUgAAAAEAAAABCAYAAAAfFcSJAAAADUlEQVR42mNk+M9QDwADhgGAWjR9awAAAABJRU5ErkJggg=="
)).decode()
SEND = '<button id="send">Send</button>'


class Form:
    def __init__(self, name, body, act, ends, head="", charset="utf-8"):
        self.name, self.body, self.act, self.ends, self.head, self.charset = name, body, act, ends, head, charset

    @property
    def path(self):
        return f"/form/{self.name}/page"


def filled(*texts, press="#send"):
    """Fills the fields #a, #b, .. and presses a button."""
    def act(tab):
        for letter, text in zip("abc", texts):
            tab.fill(f"#{letter}", text)
        tab.click(press)
    return act


def entered(tab):
    tab.fill("#a", "typed")
    tab.key("Enter")


def clicked(*selectors):
    def act(tab):
        for selector in selectors:
            tab.click(selector)
    return act


def pressed(selector, *keys):
    """Presses keys, with that element in focus."""
    def act(tab):
        tab.run(f"document.querySelector('{selector}').focus()")
        for key in keys:
            tab.key(key)
    return act


def keyed(selector, *keys, then="#send"):
    def act(tab):
        pressed(selector, *keys)(tab)
        tab.click(then)
    return act


def typed_twice(tab):
    tab.fill("#a", "first")
    tab.click("#clear")
    tab.fill("#a", "second")
    tab.click("#send")


def refused_first(tab):
    tab.click("#send")
    tab.fill("#a", "there")
    tab.click("#send")


def modified(modifiers):
    def act(tab):
        tab.click("#send", modifiers)
    return act


def twice(tab):
    """Two clicks, the second before an answer to the first came."""
    spot = tab.place("#send")
    tab.click_at(*spot)
    tab.click_at(*spot)


def then_here(tab):
    """A click that leaves the page where it is, and another."""
    tab.click("#send")
    tab.click("#here")


def commanded(*commands):
    """Fills #a, gives commands, and puts what they copied into #b."""
    def act(tab):
        tab.fill("#a", "some words")
        for command in commands:
            tab.command(command)
        tab.click("#b")
        tab.command("paste")
        tab.click("#send")
    return act


def undone(tab):
    tab.fill("#a", "some words")
    tab.click("#a")
    tab.type("more")
    tab.command("undo")
    tab.click("#send")


def dropped(tab):
    tab.drop("#a", "some words")
    tab.click("#send")


def answered(yes, then=""):
    """Fills #a, presses a button, answers the question that comes, and runs a script."""
    def act(tab):
        tab.fill("#a", "x")
        tab.answer("#send", yes)
        if then:
            tab.run(then)
    return act


def once(script, act):
    """Acts when that holds in the page."""
    def when(tab):
        tab.holds(script)
        act(tab)
    return when


def post(inside, more=""):
    return f'<form method="post" action="sent" {more}>{inside}</form>'


FORMS = [
    Form("plain", post('<input id="a" name="from"><textarea id="b" name="text"></textarea>' + SEND),
         filled("Ann", "Lovely site!"), DONE),
    Form("get", '<form action="sent?x=1#top"><input id="a" name="q">' + SEND + "</form>", filled("a b&c"), DONE),
    Form("no_action", '<form method="POST"><input id="a" name="q">' + SEND + "</form>", filled("x"), DONE),
    Form("checkboxes", post('<input type="checkbox" id="x" name="x"><input type="checkbox" id="y" name="y" value="7" '
         'checked><input type="checkbox" name="z" checked>' + SEND), clicked("#x", "#y", "#send"), DONE),
    Form("checkbox_twice", post('<input type="checkbox" id="x" name="x">' + SEND), clicked("#x", "#x", "#send"), DONE),
    Form("radio_left", post('<input type="radio" name="r" value="1"><input type="radio" name="r" value="2" checked>'
         + SEND), clicked("#send"), DONE),
    Form("radio_chosen", post('<input type="radio" name="r" id="r" value="1"><input type="radio" name="r" value="2" '
         'checked>' + SEND), clicked("#r", "#send"), CONFLICT),
    Form("select", post('<select id="s" name="s"><option value="1">one<option>two<option value="3">three</select>'
         + SEND), keyed("#s", "ArrowDown"), DONE),
    Form("select_left", post('<select name="s"><option value="1">one<option selected>two</select>' + SEND),
         clicked("#send"), DONE),
    Form("two_buttons", post('<input id="a" name="a"><button name="do" value="save">Save</button>'
         '<button id="send" name="do" value="preview">Preview</button>'), filled("x"), DONE),
    Form("enter_presses", post('<input id="a" name="a"><input type="submit" name="do" value="go">'), entered, DONE),
    Form("enter_alone", post('<input id="a" name="a">'), entered, DONE),
    Form("lines", post('<textarea id="a" name="t"></textarea>' + SEND), filled("one\ntwo\n\nthree"), DONE),
    Form("lines_left", post('<textarea name="t">\none\ntwo\n</textarea><input id="a" name="a">' + SEND),
         filled("x"), DONE),
    Form("hidden", post('<input type="hidden" name="token" value="a&#10;b"><input id="a" name="a">' + SEND),
         filled("x"), DONE),
    Form("letters", post('<input id="a" name="é&amp;=">' + SEND), filled("é 漢 😀 +&=%*~'()!"), DONE),
    Form("left_out", post('<input name="d" value="1" disabled><input value="2"><input name="" value="3">'
         '<input id="a" name="a">' + SEND), filled("x"), DONE),
    Form("label", post('<label id="l"><input type="checkbox" name="c">Yes</label>' + SEND),
         clicked("#l", "#send"), DONE),
    Form("inside_button", post('<input id="a" name="a"><button><b><i id="send">Send</i></b></button>'),
         filled("x"), DONE),
    Form("sanitized", post('<input type="color" name="c"><input type="range" name="r"><input type="number" name="n" '
         'value="x1"><input type="email" name="e" value=" a@b.c "><input id="a" readonly name="a" value="y">' + SEND),
         clicked("#send"), DONE),
    Form("nothing", '<form action="sent">' + SEND + "</form>", clicked("#send"), DONE),
    Form("reset", post('<input id="a" name="a" value="was "><input type="reset" id="clear">' + SEND),
         typed_twice, DONE),
    Form("required", post('<input id="a" name="a" required>' + SEND), refused_first, DONE),
    Form("dialog", '<dialog open><form method="dialog"><input id="a" name="a">' + SEND + "</form></dialog>",
         filled("x"), NOTHING),
    Form("stopped", post('<input id="a" name="a">' + SEND, 'onsubmit="return false"'), filled("x"), NOTHING),
    Form("hiding_names", post('<input id="a" name="action"><input name="attributes" value="1"><input name="n">'
         '<input name="getAttribute"><input name="parentNode"><input name="localName">' + SEND), filled("x"), DONE),
    Form("forged_data", post('<input id="a" name="a">' + SEND) + "<script>onformdata = (event) => event.isTrusted && "
         "event.target.dispatchEvent(new FormDataEvent('formdata', { formData: new FormData(), bubbles: true }))"
         "</script>", filled("x"), DONE),
    Form("new_tab", post('<input id="a" name="a">' + SEND, 'target="_blank"'), filled("x"), DONE),
    Form("moved_by_script", post('<input id="a" name="a">' + SEND) + '<script>onload = () => setTimeout(() =>'
         "document.body.prepend(document.createElement('form')), 50)</script>", filled("x"), DONE),
    Form("space", post('<input name="a" value="x"><button id="b" name="b">Send</button>'), pressed("#b", " "), DONE),
    Form("steps", post('<input type="number" id="n" name="n" value="3"><input type="range" name="r">' + SEND),
         keyed("#n", "ArrowDown", "ArrowDown"), DONE),
    Form("to_frame", post('<input id="a" name="a">' + SEND, 'target="f"') + '<iframe name="f"></iframe>',
         filled("x"), DONE),
    Form("search", '<form action="sent"><input type="search" id="a" name="a"></form>', entered, DONE),
    Form("sent_by_choice", post('<select id="s" name="s" onchange="this.form.submit()"><option>1<option>2</select>'),
         pressed("#s", "ArrowDown"), CONFLICT),
    Form("direction", post('<input id="a" name="a" dirname="way">' + SEND), filled("x"), CONFLICT),
    Form("charset_name", post('<input type="hidden" name="_charset_"><input id="a" name="a">' + SEND),
         filled("x"), CONFLICT),
    Form("wrapped", post('<textarea id="a" name="a" cols="20" wrap="hard"></textarea>' + SEND),
         filled("more words than stand in a line of twenty"), CONFLICT),
    Form("own_element", post('<x-field name="x"></x-field><input id="a" name="a">' + SEND) + "<script>"
         "customElements.define('x-field', class extends HTMLElement { static formAssociated = true; constructor() {"
         "super(); this.attachInternals().setFormValue('7') } })</script>", filled("x"), CONFLICT),
    Form("formaction", post('<input id="a" name="a"><button id="send" formaction="elsewhere">Send</button>'),
         filled("x"), CONFLICT),
    Form("formmethod", post('<input id="a" name="a"><button id="send" formmethod="get">Send</button>'),
         filled("x"), CONFLICT),
    Form("outside", post(SEND, 'id="f"') + '<input id="a" name="a" form="f">', filled("x"), CONFLICT),
    Form("button_outside", post('<input id="a" name="a">', 'id="f"') + '<button id="send" form="f">Send</button>',
         filled("x"), CONFLICT),
    Form("fieldset", post('<fieldset disabled><input name="d" value="1"></fieldset><input id="a" name="a">' + SEND),
         filled("x"), CONFLICT),
    Form("multiple", post('<select name="s" multiple><option selected>1<option selected>2</select>' + SEND),
         clicked("#send"), CONFLICT),
    Form("image", post(f'<input id="a" name="a"><input type="image" id="send" name="i" src="{PIXEL}" width="20" '
         'height="20">'), filled("x"), CONFLICT),
    Form("multipart", post('<input id="a" name="a">' + SEND, 'enctype="multipart/form-data"'), filled("x"), CONFLICT),
    Form("charset", post('<input id="a" name="a">' + SEND, 'accept-charset="windows-1252"'), filled("é"), CONFLICT),
    Form("charset_of_ascii", post('<input id="a" name="a">' + SEND, 'accept-charset="windows-1252"'), filled("e"), DONE),
    Form("page_charset_of_ascii", post('<input id="a" name="a">' + SEND), filled("e"), DONE, charset="windows-1252"),
    Form("address_charset", f'<form method="post" action="sent?é"><input id="a" name="a">{SEND}</form>', filled("e"),
         CONFLICT, charset="windows-1252"),
    Form("page_charset", post('<input id="a" name="a">' + SEND), filled("é"), CONFLICT, charset="windows-1252"),
    Form("base", post('<input id="a" name="a">' + SEND), filled("x"), CONFLICT, head='<base href="/form/base/other/">'),
    Form("file", post('<input id="a" name="a"><input type="file" name="f">' + SEND), filled("x"), CONFLICT),
    Form("password", post('<input id="a" type="password" name="a">' + SEND), filled("secret"), CONFLICT),
    Form("set_by_script", post('<input id="a" name="a"><input type="hidden" name="h">' + SEND,
         'onsubmit="this.h.value = 1"'), filled("x"), CONFLICT),
    Form("typed_over_by_script", post('<input id="a" name="a">' + SEND, 'onsubmit="this.a.value = 1"'),
         filled("x"), CONFLICT),
    Form("added_by_script", post('<input id="a" name="a">' + SEND) + '<script>document.forms[0].addEventListener('
         "'formdata', (event) => event.formData.append('b', 1))</script>", filled("x"), CONFLICT),
    Form("made_by_script", post('<input id="a" name="a">' + SEND, 'id="f"') + '<script>onload = () => setTimeout(() =>'
         """f.insertAdjacentHTML('afterbegin', '<input type="hidden" name="b" value="1">'), 50)</script>""",
         once("f.b", filled("x")), CONFLICT),
    Form("fetch", post('<input id="a" name="a">' + SEND) + '<script>document.forms[0].onsubmit = (event) => {'
         "event.preventDefault(); fetch('sent', { method: 'POST', body: new URLSearchParams('a=x') }) }</script>",
         filled("x"), CONFLICT),
    Form("fetch_later", post('<input id="a" name="a"><button type="button" id="send">Send</button>') + '<script>'
         "send.onclick = () => setTimeout(() => fetch('sent', { method: 'POST', body: 'a=x' }), 200)</script>",
         filled("x"), CONFLICT),
    Form("xhr", post('<input id="a" name="a"><b id="send">Send</b>') + '<script>send.onclick = () => { const it = '
         "new XMLHttpRequest(); it.open('POST', 'sent'); it.send('a=x') }</script>", filled("x"), CONFLICT),
    Form("beacon", post('<input id="a" name="a">' + SEND, 'onsubmit="navigator.sendBeacon(\'/form/beacon/seen\', 1)"'),
         filled("x"), CONFLICT),
    Form("submit_by_script", post('<input id="a" name="a"><button type="button" id="send">Send</button>')
         + "<script>send.onclick = () => document.forms[0].submit()</script>", filled("x"), CONFLICT),
    Form("asked_by_script", post('<input id="a" name="a">') + '<a id="send" href="#">Send</a><script>send.onclick = '
         "() => { document.forms[0].requestSubmit(); return false }</script>", filled("x"), CONFLICT),
    Form("gone_by_script", post('<input id="a" name="a"><button type="button" id="send">Send</button>')
         + "<script>send.onclick = () => { location = 'sent?b=' + document.forms[0].a.value }</script>",
         filled("x"), CONFLICT),
]

# What a script does to the press of a button, or instead of it.
A = '<input id="a" name="a">'
PRESSED = '<input id="a" name="a"><button id="send" name="b" value="1" onclick="{}">Send</button>'
CALLED = A + '<button type="button" id="send">Send</button>'


def calls(script):
    return f"<script>send.onclick = () => {{ {script} }}</script>"


FORMS += [
    Form("submit_in_click", post(PRESSED.format("this.form.submit()")), filled("x"), DONE),
    Form("submit_in_submit", post(PRESSED.format(""), 'onsubmit="this.submit()"'), filled("x"), DONE),
    Form("submit_instead", post(PRESSED.format(""), 'onsubmit="this.submit(); return false"'), filled("x"), CONFLICT),
    Form("asked_in_click", post(PRESSED.format("this.form.requestSubmit(this)")), filled("x"), DONE),
    Form("asked_for_another", post(PRESSED.format("this.form.requestSubmit()")), filled("x"), CONFLICT),
    Form("other_form", post(CALLED) + '<form action="sent"><input name="z"></form>'
         + calls("document.forms[1].submit()"), filled("x"), CONFLICT),
    Form("submit_to_tab", post(CALLED, 'target="_blank"') + calls("document.forms[0].submit()"),
         filled("x"), CONFLICT),
    Form("submit_to_frame", post(CALLED, 'target="f"') + '<iframe name="f"></iframe>'
         + calls("document.forms[0].submit()"), filled("x"), CONFLICT),
    Form("submit_by_base", post(CALLED) + calls("document.forms[0].submit()"), filled("x"), CONFLICT,
         head='<base target="_blank">'),
    Form("link_by_script", CALLED + calls('Object.assign(document.createElement("a"), { href: "sent", '
         'target: "_blank" }).click()'), clicked("#send"), CONFLICT),
    Form("link_by_event", CALLED + '<a id="l" href="sent" target="_blank"></a>'
         + calls('l.dispatchEvent(new MouseEvent("click"))'), clicked("#send"), CONFLICT),
    Form("download_by_script", CALLED + calls('Object.assign(document.createElement("a"), { href: "sent", '
         'download: "x" }).click()'), clicked("#send"), CONFLICT),
    Form("window_by_script", CALLED + calls('open().location = "sent"'), clicked("#send"), CONFLICT),
    Form("files_asked_for", CALLED + calls('Object.assign(document.createElement("input"), { type: "file" }).click()'),
         clicked("#send"), NOTHING),
    Form("action_by_script", post(PRESSED.format("this.form.action = 'elsewhere'")), filled("x"), CONFLICT),
    Form("method_by_script", post(PRESSED.format("this.form.method = 'get'")), filled("x"), CONFLICT),
    Form("typed_by_script", post(A + SEND) + "<script>onload = () => setTimeout(() => { a.focus();"
         "document.execCommand('insertText', false, 'x') }, 50)</script>", once("a.value", clicked("#send")), CONFLICT),
    Form("input_by_script", post(A + SEND) + "<script>onload = () => setTimeout(() => { a.value = 'x';"
         "a.dispatchEvent(new Event('input', { bubbles: true })) }, 50)</script>",
         once("a.value", clicked("#send")), CONFLICT),
    Form("checked_by_script", post('<input type="checkbox" id="x" name="x">' + SEND) + "<script>onload = () =>"
         "setTimeout(() => { x.checked = true }, 50)</script>", once("x.checked", clicked("#send")), CONFLICT),
    Form("checked_before", post('<input type="checkbox" id="x" name="x">' + SEND)
         + "<script>x.checked = true</script>", clicked("#x", "#send"), CONFLICT),
    Form("disabled_in_submit", post(PRESSED.format(""), 'onsubmit="send.disabled = true"'), filled("x"), CONFLICT),
    Form("disabled_nameless", post(A + SEND, 'onsubmit="send.disabled = true"'), filled("x"), DONE),
    Form("disabled_in_click", post(PRESSED.format("this.disabled = true")), filled("x"), NOTHING),
    Form("removed_in_submit", post(A + SEND, 'onsubmit="this.remove()"'), filled("x"), NOTHING),
    Form("removed_later", post(A + SEND) + "<script>document.forms[0].onformdata = (event) => event.target.remove()"
         "</script>", filled("x"), KEPT),
    Form("confirmed", post(A + SEND, 'onsubmit="return confirm()"'), answered(True), DONE),
    Form("declined", post(A + SEND, 'onsubmit="return confirm()"'), answered(False), NOTHING),
]

# Links around other things and in them, and where they lead.
SHADOW = """<x-it id="send" style="display: block"></x-it><script>
customElements.define("x-it", class extends HTMLElement {{ constructor() {{
    super();
    this.attachShadow({{ mode: "{}" }}).innerHTML = `{}`;
}} }});
</script>"""
WIDE = 'style="display: block; width: 100%; height: 40px"'
IMAGE = f'<img id="send" src="{PIXEL}" width="40" height="40" '
FORMS += [
    Form("link_around_button", '<a href="sent"><button type="button" id="send">x</button></a>',
         clicked("#send"), CONFLICT),
    Form("link_around_field", '<a href="sent"><input id="send"></a>', clicked("#send"), CONFLICT),
    Form("link_around_label", f'<a href="sent"><label id="send" {WIDE}>x<input type="checkbox"></label></a>',
         clicked("#send"), KEPT),
    Form("link_around_summary", '<a href="sent"><details><summary id="send">x</summary></details></a>',
         clicked("#send"), KEPT),
    Form("link_in_button", post('<button><a id="send" href="sent">x</a></button>'), clicked("#send"), DONE),
    Form("link_in_label", '<label><input type="checkbox"><a id="send" href="sent">x</a></label>',
         clicked("#send"), DONE),
    Form("label_of_button", post(A + '<label id="send" for="b">x</label><button id="b" name="b">Send</button>'),
         filled("x"), DONE),
    Form("label_stopped", post('<label id="l" onclick="return false"><input type="checkbox" name="c">x</label>' + SEND),
         clicked("#l", "#send"), DONE),
    Form("label_of_radio", post('<label id="l"><input type="radio" name="r">x</label>' + SEND),
         clicked("#l", "#send"), CONFLICT),
    Form("open_shadow_link", SHADOW.format("open", f'<a href="sent" {WIDE}>x</a>'), clicked("#send"), CONFLICT),
    Form("closed_shadow_link", SHADOW.format("closed", f'<a href="sent" {WIDE}>x</a>'), clicked("#send"), CONFLICT),
    Form("closed_shadow_form", SHADOW.format("closed", f'<form action="sent"><button {WIDE}>x</button></form>'),
         clicked("#send"), CONFLICT),
    Form("image_link", f'<a href="sent">{IMAGE} ismap></a>', clicked("#send"), CONFLICT),
    Form("image_map", f'<map name="m"><area href="sent" coords="0,0,40,40"></map>{IMAGE} usemap="#m">',
         clicked("#send"), DONE),
    Form("here_in_frame", '<iframe name="f"></iframe><a id="send" target="f" href="#x">x</a>', clicked("#send"), DONE),
    Form("here_by_base", '<a id="send" href="#x">x</a>', clicked("#send"), DONE, head='<base target="_blank">'),
    Form("here_in_window", '<a id="send" href="#x">x</a>', modified(SHIFT), DONE),
    Form("here_on_top", '<a id="send" target="_top" href="#x">x</a>', clicked("#send"), NOTHING),
    Form("saved", '<a id="send" href="sent">x</a>', modified(ALT), CONFLICT),
    Form("mail", '<a id="send" href="mailto:a@b.example">x</a>', clicked("#send"), NOTHING),
    Form("download", '<a id="send" href="sent" download>x</a><a id="here" href="#x">x</a>', then_here, DONE),
    Form("attachment", '<a id="send" href="attached">x</a><a id="here" href="#x">x</a>', then_here, DONE),
    Form("no_content", '<a id="send" href="nothing">x</a><a id="here" href="#x">x</a>', then_here, DONE),
    Form("link_twice", '<a id="send" href="slow">x</a>', twice, CONFLICT),
    Form("form_twice", '<form method="post" action="slow"><button id="send">x</button></form>', twice, CONFLICT),
    Form("no_action_allowed", post(A + SEND), filled("x"), KEPT,
         head="<meta http-equiv=\"Content-Security-Policy\" content=\"form-action 'none'\">"),
    Form("intercepted", '<a id="send" href="sent">x</a><script>navigation.onnavigate = (it) => it.intercept()</script>',
         clicked("#send"), KEPT),
    Form("intercepted_form", post(A + SEND) + "<script>navigation.onnavigate = (it) => it.intercept()</script>",
         filled("x"), KEPT),
    Form("kept_by_script", '<a id="send" href="sent">x</a><script>navigation.onnavigate = () => false</script>',
         clicked("#send"), KEPT),
    Form("kept", A + '<a id="send" href="sent">x</a><script>onbeforeunload = () => false</script>',
         answered(False, "onbeforeunload = null"), KEPT),
    Form("kept_form", post(A + SEND) + "<script>onbeforeunload = () => false</script>",
         answered(False, "onbeforeunload = null"), KEPT),
    Form("left", A + '<a id="send" href="sent">x</a><script>onbeforeunload = () => false</script>',
         answered(True), DONE),
]

# Fields: how they are filled in, and what of them is sent.
TWO = post(A + '<textarea id="b" name="b"></textarea>' + SEND)
FORMS += [
    Form("pasted", TWO, commanded("selectAll", "copy"), DONE),
    Form("cut", TWO, commanded("selectAll", "cut"), DONE),
    Form("undone", post(A + SEND), undone, DONE),
    Form("dropped", post(A + SEND), dropped, DONE),
    Form("edited_text", post('<p contenteditable id="e">x</p><input type="hidden" name="h">' + SEND,
         'onsubmit="this.h.value = e.textContent"'), lambda tab: (tab.click("#e"), tab.type("abc"), tab.click("#send")),
         CONFLICT),
    Form("shown_password", post('<input type="password" id="a" name="a" onfocus="this.type = \'text\'">' + SEND),
         filled("secret"), CONFLICT),
    Form("reset_at_last", post(A + '<input type="checkbox" name="c" id="c"><input type="reset" id="clear">' + SEND),
         lambda tab: (tab.fill("#a", "x"), clicked("#c", "#clear", "#send")(tab)), CONFLICT),
    Form("radio_by_key", post('<input type="radio" name="r" id="r" checked><input type="radio" name="r" value="2">'
         + SEND), keyed("#r", "ArrowDown"), CONFLICT),
    Form("enter_in_checkbox", post('<input type="checkbox" name="c" id="c">' + SEND), pressed("#c", " ", "Enter"),
         DONE),
    Form("enter_outside", post('<input name="b">' + SEND, 'id="f"') + '<input id="a" name="a" form="f">', entered,
         CONFLICT),
    Form("enter_in_vain", post(A + "<button disabled>Send</button>"), entered, NOTHING),
    Form("multiple_one", post('<select multiple name="s"><option>1<option selected>2</select>' + SEND),
         clicked("#send"), DONE),
    Form("multiple_none", post('<select multiple name="s"><option>1<option>2</select>' + SEND), clicked("#send"),
         CONFLICT),
    Form("option_disabled", post('<select name="s"><option disabled selected>1<option>2</select>' + SEND),
         clicked("#send"), CONFLICT),
    Form("select_empty", post('<select name="s"></select>' + SEND), clicked("#send"), CONFLICT),
    Form("legend", post(f'<fieldset disabled><legend>{A}</legend><input name="b"></fieldset>' + SEND),
         filled("x"), CONFLICT),
    Form("owned_elsewhere", post('<input name="o" form="g">' + A + SEND) + '<form id="g"></form>',
         filled("x"), CONFLICT),
    Form("other_button", post(A, 'id="f"') + '<form><button id="send" form="f">Send</button></form>',
         filled("x"), CONFLICT),
    Form("nested", post(A + SEND) + "<script>document.forms[0].append(document.createElement('form'));"
         "document.forms[1].innerHTML = '<input name=\"n\">'</script>", filled("x"), CONFLICT),
    Form("in_table", f'<table><form method="post" action="sent"><tr><td>{A}{SEND}</td></tr></form></table>',
         filled("x"), CONFLICT),
    Form("target_of_button", post(A + '<button id="send" formtarget="_blank">Send</button>'), filled("x"), DONE),
    Form("popover", post(A + '<button id="send" popovertarget="p">Send</button><p popover id="p">x</p>'), filled("x"),
         DONE),
]
