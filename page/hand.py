"""Uses the page as a reader would: by its menus, buttons, fields and sliders."""

import json

# Waits until the page can be used.
READY = """new Promise((done) => {
    const timer = setInterval(() => document.documentElement.dataset.ready && (clearInterval(timer), done()), 10);
})"""

SCRIPT = """window.hand = {
    saved: [],
    idle: () => new Promise((done) => {
        const timer = setInterval(() => {
            const isBusy = document.getElementById("answer").getAttribute("aria-busy") === "true";
            if (!isBusy && !mechdes.isMoving) { clearInterval(timer); done(); }
        }, 5);
    }),
    writes(id, text) {
        const field = document.getElementById(id);
        field.focus();
        field.value = text;
        field.dispatchEvent(new Event("input", { bubbles: true }));
        field.dispatchEvent(new Event("change", { bubbles: true }));
    },
    async begins(name) {
        await mechdes.editor.begins(name);
        await this.idle();
    },
    turnsTo(word) {
        document.querySelector(`[name=command][value=${word}]`).click();
    },
    reports(place) {
        const choices = [...document.querySelectorAll("#fields select")];
        choices.forEach(({ id, options }) => this.writes(id, String(Math.min(place, options.length - 1))));
        return choices.map(({ selectedOptions: [option] }) => option.textContent).join(",");
    },
    async asks() {
        document.getElementById("ask").click();
        await this.idle();
        return this.shown();
    },
    async presses(text) {
        [...document.querySelectorAll("button")].find((each) => each.textContent === text).click();
        await this.idle();
        return this.shown();
    },
    async moves(id, text) {
        this.writes(id, text);
        await this.idle();
        return this.shown();
    },
    offered: () => [...document.querySelectorAll("[name=command]")].filter((each) => !each.parentElement.hidden).map(({ value }) => value),
    next: () => [...document.querySelectorAll("#verdict button")].map(({ textContent }) => textContent),
    shown: () => ({
        word: mechdes.question.command.word,
        status: Number(document.getElementById("answer").dataset.status),
        printed: mechdes.printed.text,
        verdict: document.getElementById("verdict").textContent,
    }),
};
HTMLAnchorElement.prototype.click = function () {
    hand.saved.push([this.download, this.href]);
}; 0"""

# The controls and texts that can be seen and do not stand out from what is behind them, as WCAG reckons it.
FAINT = """(() => {
    const channels = (colour) => (colour.match(/[\\d.]+/g) ?? []).map(Number);
    const light = (colour) => {
        const [r, g, b] = channels(colour).map((part) => (part / 255 <= 0.03928 ? part / 255 / 12.92 : ((part / 255 + 0.055) / 1.055) ** 2.4));
        return 0.2126 * r + 0.7152 * g + 0.0722 * b;
    };
    const isClear = (colour) => channels(colour)[3] === 0;
    const groundOf = (element) => {
        for (let at = element; at; at = at.parentElement) {
            const ground = getComputedStyle(at).backgroundColor;
            if (!isClear(ground)) return ground;
        }
        return "rgb(255, 255, 255)";
    };
    const ratio = (one, two) => {
        const [more, less] = [light(one), light(two)].toSorted((a, b) => b - a);
        return (more + 0.05) / (less + 0.05);
    };
    const faint = [];
    for (const element of document.querySelectorAll("body *")) {
        const hasText = [...element.childNodes].some((node) => node.nodeType === 3 && node.data.trim());
        if (!hasText || !element.checkVisibility() || element.closest("svg, script, .hidden, .skip")) continue;
        const found = ratio(getComputedStyle(element).color, groundOf(element));
        if (found < 4.5) faint.push(`${element.localName} ${element.textContent.trim().slice(0, 30)}: ${found.toFixed(2)}`);
    }
    for (const element of document.querySelectorAll("select, input:not([type=radio], [type=range]), textarea, button:not(.main)")) {
        if (!element.checkVisibility()) continue;
        const found = ratio(getComputedStyle(element).borderColor, groundOf(element.parentElement));
        if (found < 3) faint.push(`the edge of ${element.id || element.textContent}: ${found.toFixed(2)}`);
    }
    return faint;
})()"""

# Roles of which each one is to have a name.
NAMED = {"button", "textbox", "combobox", "slider", "spinbutton", "radio", "link", "region", "image", "table"}


class Hand:
    """The hand that uses the page of a browser."""

    def __init__(self, browser):
        self.browser = browser

    def opens(self, path, fragment=""):
        self.browser.open(path, fragment)
        self.browser.evaluate(READY)
        self.browser.evaluate(SCRIPT)

    def does(self, action, *words):
        return self.browser.evaluate(f"hand.{action}({', '.join(map(json.dumps, words))})")

    def asks(self, word, fields):
        """Turns to a command, writes its fields by their names, and asks it."""
        self.does("turnsTo", word)
        for name, text in fields.items():
            self.does("writes", name, text)
        return self.does("asks")

    def text(self):
        """The setting that stands there."""
        return self.browser.evaluate("mechdes.editor.text").encode()

    def saves(self, text):
        """The name and the text of the file that a button saves."""
        self.does("presses", text)
        return self.browser.evaluate("(async () => { const [name, at] = hand.saved.pop(); return [name, await (await fetch(at)).text()]; })()")

    def unnamed(self):
        """The controls that the accessibility tree has no name for."""
        nodes = self.browser.ask("Accessibility.getFullAXTree")["nodes"]
        seen = [(node["role"]["value"], node.get("name", {}).get("value", "")) for node in nodes if not node["ignored"] and "role" in node]
        return [role for role, name in seen if role in NAMED and not name.strip()], len(seen)

    def faint(self):
        return self.browser.evaluate(FAINT)
