// Small helpers for the document.

/** The element of an id. */
export const byId = (id) => document.getElementById(id);

/** A new element: attributes, among them `onclick` and the like, and children. Null children are left out. */
export function element(tag, attributes = {}, ...children) {
    const made = document.createElement(tag);
    for (const [name, value] of Object.entries(attributes)) {
        if (name.startsWith("on")) made.addEventListener(name.slice(2), value);
        else if (value === true) made.setAttribute(name, "");
        else if (value !== false && value !== null && value !== undefined) made.setAttribute(name, value);
    }
    made.append(...children.flat().filter((it) => it !== null && it !== undefined));
    return made;
}

/** Tells a text to screen readers. */
export function say(text) {
    byId("said").textContent = text;
}

/** How long a button shows that it has done its work. */
const SHOWN = 1500;

/** Shows a text in a button for a moment. */
export function flash(button, text) {
    button.dataset.name ??= button.textContent;
    button.textContent = text;
    setTimeout(() => (button.textContent = button.dataset.name), SHOWN);
}

/** Shows a note above the sheet, with buttons, pairs of a text and what it does; null takes it away. */
export function notify(text, ...buttons) {
    const place = byId("notice");
    place.hidden = text === null;
    if (text === null) return;
    const close = () => {
        place.hidden = true;
    };
    const made = buttons.map(([name, act]) => element("button", { type: "button", onclick: () => { close(); act(); } }, name));
    place.replaceChildren(element("p", {}, text), element("p", { class: "row-of-buttons" }, ...made, element("button", { type: "button", "aria-label": "Close this note", onclick: close }, "Close")));
    say(text);
}
