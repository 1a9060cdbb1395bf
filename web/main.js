// The page: who is signed in, which place is open, and when it is drawn anew.

import { button, confirmed, field, form, icon, input, make, named } from "./elements.js";
import * as host from "./host.js";
import { hasDrafts, recall, remember } from "./kept.js";
import { heading } from "./parts.js";
import { sentence } from "./say.js";
import { seasonBy } from "./season.js";
import { countdown, when, whole } from "./words.js";

import { drawCorrection } from "./correct.js";
import { drawDraws } from "./draws.js";
import { drawFixtures } from "./fixtures.js";
import { drawKeys } from "./keys.js";
import { drawCup, drawLeague, drawLeagues } from "./leagues.js";
import { drawEvening, drawMove, drawSeason } from "./operator.js";
import { drawPlayer, drawPlayers } from "./players.js";
import { drawEntry, drawPoints, drawWeek } from "./points.js";
import { drawSheet } from "./sheet.js";
import { drawTeam } from "./team.js";
import { drawTransfers } from "./transfers.js";

// Each place by the first word of its address: how it is drawn, where it stands in the bar.
const PLACES = {
	points: [drawPoints, "points"],
	week: [drawWeek, "points"],
	team: [drawTeam, "team"],
	transfers: [drawTransfers, "transfers"],
	fixtures: [drawFixtures, "fixtures"],
	players: [drawPlayers, "players"],
	player: [drawPlayer, "players"],
	leagues: [drawLeagues, "leagues"],
	league: [drawLeague, "leagues"],
	entry: [drawEntry, "leagues"],
	cup: [drawCup, "leagues"],
	matches: [drawEvening, "matches"],
	move: [drawMove, "matches"],
	sheet: [drawSheet, "matches"],
	correct: [drawCorrection, "matches"],
	season: [drawSeason, "season"],
	keys: [drawKeys, "keys"],
	draws: [drawDraws, "leagues"],
};
const FOR_ALL = { fixtures: "Fixtures", players: "Players", leagues: "Leagues" };
const BAR_OF_MANAGERS = { points: "Points", team: "My team", transfers: "Transfers", ...FOR_ALL };
const BAR_OF_THE_OPERATOR = { matches: "Matches", season: "Season", keys: "Keys", ...FOR_ALL };
const REFRESHED = 60; // seconds until what is looked at is read again
const NOT_SAVED = "Not saved yet, trying again.";
const part = (id) => document.getElementById(id);

let isLed = false; // whether what was sent leads to another place, where its notice stays
let turn = 0; // of several that draw at once, the last one shows
let open = null; // the address of the place that is in the page
let shown = 0; // how often something was read anew when it was put there
let deadline = null; // of the next gameweek, in seconds, with its name

// What was typed into forms of the open place and not sent, by the ids of the fields.
const typed = () => recall("typed")?.[open] ?? {};
const keepTyped = (fields) => remember("typed", { [open]: fields });

// Drawing a place

function placeNow() {
	const [name, ...ids] = location.hash.replace(/^#\//, "").split("/");
	return { name: Object.hasOwn(PLACES, name) ? name : null, ids: ids.map(Number) };
}

// A reader that asks the host, each target once.
function freshReader() {
	const asked = new Map();
	return (target) => {
		if (!asked.has(target)) {
			asked.set(target, host.readAnew(target));
		}
		return asked.get(target);
	};
}

const keptReader = async (target) => host.readKept(target);

// The open place by a reader. A place is given its reader, who asks, how it acts, and the season.
async function drawn(read) {
	const caller = await read("/api/me/");
	if (!hasDrafts()) {
		host.goOnFrom(caller.last);
	}
	const isOperator = caller.entry === null;
	const { hash } = location;
	const { name = null, ids } = placeNow();
	const place = name ?? (isOperator ? "matches" : "points");
	const page = { read, caller, isOperator, send, redraw };
	let nodes;
	try {
		page.season = await seasonBy(read);
		nodes = await PLACES[place][0](page, ...ids);
	} catch (fault) {
		nodes = instead(fault);
	}
	return { hash, header: await headerOf(page), isOperator, here: PLACES[place][1], nodes: [nodes].flat(Infinity).filter(Boolean) };
}

// What is drawn where the host refused what a place reads.
function instead(fault) {
	if (!(fault instanceof host.Refusal) || fault.status === 401) {
		throw fault;
	}
	return [heading(fault.status === 404 ? "There is nothing here" : "Not yet"), make("p", sentence(fault))];
}

// Shows the open place: as it is kept where it was opened just now, then as the host tells it.
async function show() {
	const mine = ++turn;
	if (open !== location.hash) {
		await showKept();
	}
	work(true);
	while (mine === turn) {
		try {
			const found = await drawn(freshReader());
			if (mine === turn && (open !== found.hash || shown !== host.changes())) {
				put(found);
			}
			part("unsaved").hidden ||= !host.isBusy();
			break;
		} catch (fault) {
			await endure(fault);
		}
	}
	if (mine === turn) {
		work(false);
	}
}

async function showKept() {
	try {
		put(await drawn(keptReader));
	} catch (fault) {
		if (!(fault instanceof host.NotKept)) {
			throw fault;
		}
	}
}

// Signs in again where the key isn't known; waits where the host can't answer.
async function endure(fault) {
	if (fault.status === 401) {
		host.signOut();
		signInForm(sentence(fault));
	} else if (fault instanceof host.NoAnswer || fault instanceof host.Refusal) {
		unsaved(host.isBusy() ? NOT_SAVED : fault.status ? sentence(fault) : "The host gives no answer. Trying again.");
		await host.pauseOf(2);
	} else {
		throw fault;
	}
}

// Draws the place again: something was chosen here.
async function redraw() {
	const mine = turn;
	const found = await drawn(keptReader);
	if (mine === turn) {
		put(found);
	}
}

// Puts what was drawn into the page; focus, what was typed, unfolded and scrolled stay.
function put({ hash, header, isOperator, here, nodes }) {
	const isOpened = open !== hash;
	if (isOpened && open !== null) {
		keepTyped({});
	}
	open = hash;
	const { id, selectionStart } = document.activeElement ?? {};
	shown = host.changes();
	const unfolded = [...part("main").querySelectorAll("details[open][id]")].map((it) => it.id);
	const scrolled = [...part("main").querySelectorAll(".scroll[id]")].map((it) => [it.id, it.scrollLeft]);
	part("header").replaceChildren(...header);
	showBar(isOperator, here);
	part("main").replaceChildren(...nodes);
	const title = part("main").querySelector("h1");
	document.title = `${title.textContent} · Kowhirupe`;
	countDown();
	Object.entries(typed()).forEach(([it, values]) => part(it) && Object.assign(part(it), values));
	if (isOpened) {
		scrollTo(0, 0);
		title.focus();
		return;
	}
	unfolded.forEach((it) => part(it)?.setAttribute("open", ""));
	scrolled.forEach(([it, left]) => part(it)?.scrollTo(left, 0));
	if (id) {
		part(id)?.focus({ preventScroll: true });
		if (part(id)?.type === "search") {
			part(id).setSelectionRange(selectionStart, selectionStart);
		}
	}
}

// Header and bar

async function headerOf({ season, isOperator, caller, read }) {
	deadline = season?.next && { name: `Gameweek ${season.next}`, moment: season.deadline(season.next) };
	const points = caller.started_event && (await read(`/api/entry/${caller.entry}/`)).summary_event_points;
	const who = make("span.who", isOperator ? "The operator" : named(caller.name), points !== null && ` · ${whole(points)} points`);
	return [who, button("sign-out", "Sign out", signOut, { kind: ".link" }), make("span", { id: "next" })];
}

// Tells how long it is to the deadline, and asks the host once it is there.
function countDown() {
	const shown = part("next");
	if (shown && deadline) {
		const left = countdown(deadline.moment);
		shown.textContent = `${deadline.name}: ${when(deadline.moment)}${left ? `, in ${left}` : ""}`;
		if (Math.ceil(deadline.moment - Date.now() / 1000) === -1) {
			refresh();
		}
	}
}

// Marks where one is in the bar, which is made once.
function showBar(isOperator, here) {
	const places = isOperator ? BAR_OF_THE_OPERATOR : BAR_OF_MANAGERS;
	const way = ([place, text]) => make("li", make("a", { href: `#/${place}`, id: `to-${place}` }, icon(place), text));
	if (!part(`to-${Object.keys(places)[0]}`)) {
		part("places").replaceChildren(make("ul", Object.entries(places).map(way)));
	}
	Object.keys(places).forEach((place) => part(`to-${place}`).setAttribute("aria-current", place === here ? "page" : "false"));
}

// What is told

let waiting = null;

// A bar moves on top while the host is asked for longer than a moment.
function work(isGoingOn) {
	clearTimeout(waiting);
	part("main").setAttribute("aria-busy", String(isGoingOn));
	part("working").hidden = true;
	if (isGoingOn) {
		waiting = setTimeout(() => (part("working").hidden = false), 150);
	}
}

function unsaved(text) {
	part("unsaved").textContent = text;
	part("unsaved").hidden = false;
}

// A notice, until it is closed or another place is opened.
function say(kind, text) {
	const close = button("close-notice", "Close", () => part("notice").replaceChildren(), { kind: ".link" });
	part("notice").replaceChildren(make(`p.notice.${kind}`, make("span", text), close));
}

// Commands

// Sends a command for a button, which is busy meanwhile, says how it ended, and shows the place anew, or the one that `next`
// gives. `done` is said of it; the others are those of `host.command`. Gives the answer's body; null where it was refused.
async function send(busy, target, members, { done = "Saved.", next = null, ...others } = {}) {
	const from = location.hash;
	if (host.isBusy()) {
		say("bad", "Wait until what was sent is saved.");
		return null;
	}
	busy.disabled = true;
	work(true);
	let body = null;
	try {
		body = await host.command(target, members, others);
		forget(busy);
		say("done", done);
	} catch (fault) {
		say("bad", await inWords(fault));
	}
	busy.disabled = false;
	if (body && next && location.hash === from) {
		isLed = true;
		location.hash = next(body);
	} else {
		await show();
	}
	return body;
}

// Forgets what was typed into the form of a button.
function forget({ form }) {
	keepTyped(Object.fromEntries(Object.entries(typed()).filter(([id]) => part(id)?.form !== form)));
}

// Why a command was not done.
async function inWords(fault) {
	if (fault instanceof host.TooLate) {
		const next = fault.next === null ? "The season is over." : `Gameweek ${fault.next} is next: look at your team, and save again.`;
		return `The deadline of gameweek ${fault.gameweek} has passed. ${next}`;
	}
	if (fault instanceof host.NoAnswer) {
		return "The host gives no answer. Try again.";
	}
	if (fault instanceof host.Refusal) {
		const [season, me] = await Promise.all([seasonBy(host.readAnew), host.readAnew("/api/me/")]).catch(() => []);
		return sentence(fault, season, me?.name ?? "The team");
	}
	throw fault;
}

// Goes on with a command that was under way before a reload.
async function resume() {
	try {
		if ((await host.resume()) === null) {
			return;
		}
		say("done", "What was sent before is saved.");
	} catch (fault) {
		say("bad", await inWords(fault));
	}
	await show();
}

host.watch((isWaiting) => (isWaiting ? unsaved(NOT_SAVED) : (part("unsaved").hidden = true)));

// Signing in and out

function signInForm(wrong = "") {
	turn += 1;
	open = null;
	work(false);
	part("header").replaceChildren();
	part("places").replaceChildren();
	part("unsaved").hidden = true;
	const key = input("key", { type: "password", autocomplete: "current-password", "aria-describedby": "notice" });
	const enter = () => {
		const text = key.value.trim().toLowerCase();
		if (/^[a-z0-9]+$/.test(text)) {
			host.signIn(text);
			begin();
		} else {
			signInForm("A key is letters and digits.");
		}
	};
	part("main").replaceChildren(
		heading("Kowhirupe"),
		make("p", "Sign in with the key that you were given."),
		form("sign-in", "Sign in", enter, field("Key", key)),
	);
	part("notice").replaceChildren();
	if (wrong) {
		say("bad", wrong);
	}
	document.title = "Sign in · Kowhirupe";
	key.focus();
}

async function signOut() {
	if (await confirmed("Sign out?", "Sign out", "The key is forgotten by this browser.")) {
		host.signOut();
		location.hash = "";
		signInForm();
	}
}

function begin() {
	resume();
	show();
}

// What happens on its own

// Reads anew what is looked at, unless something is asked or sent.
function refresh() {
	if (document.visibilityState === "visible" && part("places").firstChild && !document.querySelector("dialog") && !host.isBusy()) {
		show();
	}
}

setInterval(countDown, 1000);
setInterval(refresh, REFRESHED * 1000);
document.addEventListener("visibilitychange", refresh);
addEventListener("hashchange", () => {
	if (!isLed) {
		part("notice").replaceChildren();
	}
	isLed = false;
	if (host.hasKey()) {
		show();
	}
});
part("main").addEventListener("input", ({ target: { id, value, checked, form } }) => {
	if (form && host.hasKey()) {
		keepTyped({ ...typed(), [id]: { value, checked } });
	}
});
part("skip").addEventListener("click", () => part("main").querySelector("h1").focus());

host.signInAgain();
if (host.hasKey()) {
	begin();
} else {
	signInForm();
}
