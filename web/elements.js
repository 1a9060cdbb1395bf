// Elements from data. Texts become text nodes, never markup: names come from people.

const DRAWING = "http://www.w3.org/2000/svg";
const NAME_BYTES = 64;

// An element: make("a.button", { href: "#/team" }, "My team"). The properties may be left out; one that is null or false is
// not set, and one that begins with "on" is a listener. Children are elements, texts and numbers, in lists too.
export function make(name, ...parts) {
	const [tag, ...classes] = name.split(".");
	return filled(document.createElement(tag), classes, parts);
}

// The same for a part of a drawing (SVG).
export function draw(name, ...parts) {
	const [tag, ...classes] = name.split(".");
	return filled(document.createElementNS(DRAWING, tag), classes, parts);
}

function filled(element, classes, parts) {
	const hasProperties = parts[0]?.constructor === Object;
	for (const [name, value] of Object.entries(hasProperties ? parts.shift() : {})) {
		give(element, name, value);
	}
	element.classList.add(...classes);
	element.append(...parts.flat(Infinity).filter(isThere));
	return element;
}

function give(element, name, value) {
	if (name.startsWith("on")) {
		element.addEventListener(name.slice(2), value);
	} else if (isThere(value)) {
		element.setAttribute(name, value === true ? "" : value);
	}
}

const isThere = (value) => value !== null && value !== undefined && value !== false;

// A text by a person, which may run in another direction than the page.
export const named = (text) => make("bdi", text);

export const link = (address, ...text) => make("a", { href: `#/${address}` }, ...text);

export const quiet = (...text) => make("p.quiet", ...text);

export const icon = (name) => draw("svg", { viewBox: "0 0 24 24", "aria-hidden": "true" }, draw("use", { href: `icons.svg#${name}` }));

// A button that calls with itself.
export function button(id, text, call, { kind = "", ...properties } = {}) {
	return make(`button${kind}`, { type: "button", id, onclick: (event) => call(event.currentTarget), ...properties }, text);
}

export const mainButton = (id, text, call, properties = {}) => button(id, text, call, { kind: ".main", ...properties });

// A form with its button, with which it calls.
export function form(id, text, call, ...children) {
	const busy = make("button.main", { id }, text);
	const send = (event) => {
		event.preventDefault();
		call(busy);
	};
	return make("form.form", { onsubmit: send }, ...children, busy);
}

// A card with a form that sets something. Its button is named by the first field.
export function setting(what, call, ...fields) {
	const set = form(`set-${what}`, "Set", call, ...fields);
	set.lastChild.ariaLabel = `Set: ${fields[0].firstChild.textContent}`;
	return make("div.card", set);
}

// What is unfolded by a tap on its title.
export const folded = (id, title, ...content) => make("details", { id }, make("summary", title), ...content);

// The properties of what is scrolled inside of itself, by keyboard too.
export const scrolling = (label) => ({ tabindex: 0, role: "group", "aria-label": label });

export function input(id, properties = {}) {
	return make("input", { id, required: true, autocomplete: "off", ...properties });
}

// A choice of one among pairs of a value and its text.
export function choice(id, pairs, chosen, properties = {}) {
	const options = pairs.map(([value, text]) => make("option", { value, selected: String(value) === String(chosen) }, text));
	return make("select", { id, ...properties }, options);
}

export const field = (label, entry) => make("div", make("label", { for: entry.id }, label), entry);

// A field for the name of a team or a league.
export function nameInput(id, properties = {}) {
	const isLong = (text) => new TextEncoder().encode(text).length > NAME_BYTES;
	const judge = ({ target }) => target.setCustomValidity(isLong(target.value) ? `A name has at most ${NAME_BYTES} bytes.` : "");
	return input(id, { oninput: judge, ...properties });
}

export function check(id, text, isChecked, properties = {}) {
	const box = make("input", { type: "checkbox", id, checked: isChecked, ...properties });
	return make("label.check", { for: id }, box, text);
}

// A dialog over the page. When it is closed the focus goes back, also where the page was drawn anew meanwhile.
export function ask(title, ...children) {
	const { id } = document.activeElement;
	const dialog = make("dialog", { "aria-labelledby": "asked" }, make("h2", { id: "asked" }, title), ...children);
	dialog.addEventListener("close", () => {
		dialog.remove();
		document.getElementById(id)?.focus();
	});
	dialog.addEventListener("click", ({ target }) => (target === dialog || target.closest("a, #no")) && dialog.close());
	document.body.append(dialog);
	dialog.showModal();
	return dialog;
}

// Asks for a yes.
export function confirmed(title, yes, ...children) {
	return new Promise((answer) => {
		const agree = () => dialog.close("yes");
		const buttons = make("div.buttons", mainButton("yes", yes, agree), button("no", "Back", () => {}));
		const dialog = ask(title, ...children, buttons);
		dialog.addEventListener("close", () => answer(dialog.returnValue === "yes"));
	});
}
