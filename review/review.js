// What the administrator's page does where scripts run. All of it works without: forms are sent, and links followed.
"use strict";

// A decision is sent once, however often its button is pressed.
for (const form of document.querySelectorAll("form[data-visit]")) {
    form.addEventListener("submit", (event) => {
        if (form.dataset.sent) {
            event.preventDefault();
            return;
        }
        form.dataset.sent = "yes";
        // Only behind this event, since a button that is disabled isn't sent.
        setTimeout(() => {
            for (const button of document.querySelectorAll("form[data-visit] button")) {
                button.disabled = true;
            }
        });
    });
}

// A page that comes out of the browser's own cache may be older than what was decided since.
window.addEventListener("pageshow", (event) => {
    if (event.persisted) {
        location.reload();
    }
});

// Whether another browser has decided meanwhile is looked up when one comes back to the page.
const told = document.getElementById("meanwhile");
let asking = false;

async function look() {
    if (asking || document.hidden || !told) {
        return;
    }
    asking = true;
    try {
        const answer = await fetch("/state", { cache: "no-store" });
        told.hidden = !answer.ok || (await answer.text()).trim() === told.dataset.decided;
    } catch {
        // The server has ended: what is shown is all that there is.
    }
    asking = false;
}

document.addEventListener("visibilitychange", look);
window.addEventListener("focus", look);
