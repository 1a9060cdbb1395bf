// Requests to the host: key, numbers of commands, repeats, what was read. Nothing else fetches.

import { ownBy, recall, remember } from "./kept.js";

const KEY = "kowhirupe key";
const SECONDS = 20; // that an answer may take
const LONGEST_PAUSE = 8; // seconds between two tries
const TRY_AGAIN = [502, 503, 504, 507]; // the host, or a proxy before it, could not do it now
const NUMBERED = [1, 2, 3]; // refusals for the number alone

// The host, or the way to it, gave no answer.
export class NoAnswer extends Error {}

// What was asked for is not kept from an earlier time.
export class NotKept extends Error {}

// An answer other than the one that was hoped for.
export class Refusal extends Error {
	constructor(status, body) {
		super(`${status} ${JSON.stringify(body)}`);
		Object.assign(this, { status, body });
	}
}

// The deadline passed before a command for its gameweek was done; `next` is that of now, or null.
export class TooLate extends Error {
	constructor(gameweek, next) {
		super(`gameweek ${gameweek}`);
		Object.assign(this, { gameweek, next });
	}
}

let key = null;
let last = null; // the number of the last command that is known to be done
let isSending = false;
let changed = 0;
const read = new Map(); // by target the answer of a view
let say = () => {}; // is told whether a command waits for its answer

// The key: a window keeps its own, and a new one begins with the one that was used last.

function own(newKey) {
	key = newKey;
	read.clear();
	ownBy(key);
	last = recall("last");
}

export const hasKey = () => key !== null;

export function signInAgain() {
	own(sessionStorage.getItem(KEY) ?? localStorage.getItem(KEY));
}

export function signIn(newKey) {
	sessionStorage.setItem(KEY, newKey);
	localStorage.setItem(KEY, newKey);
	own(newKey);
}

export function signOut() {
	if (localStorage.getItem(KEY) === key) {
		localStorage.removeItem(KEY);
	}
	sessionStorage.removeItem(KEY);
	own(null);
}

// Asking

async function ask(method, target, text) {
	const controller = new AbortController();
	const timer = setTimeout(() => controller.abort(), SECONDS * 1000);
	try {
		const answer = await fetch(`.${target}`, { method, body: text, headers: { "Fpl-Key": key }, cache: "no-store", signal: controller.signal });
		const told = await answer.text();
		return { status: answer.status, text: told, body: JSON.parse(told) };
	} catch {
		throw new NoAnswer(target);
	} finally {
		clearTimeout(timer);
	}
}

// Views

// The body of a view as it was read last.
export function readKept(target) {
	if (!read.has(target)) {
		throw new NotKept(target);
	}
	const { status, body } = read.get(target);
	if (status !== 200) {
		throw new Refusal(status, body);
	}
	return body;
}

// Reads a view anew. If it is as it was, the body is the same object.
export async function readAnew(target) {
	const answer = await ask("GET", target);
	if (TRY_AGAIN.includes(answer.status)) {
		throw new NoAnswer(target);
	}
	const before = read.get(target);
	if (before?.text !== answer.text || before.status !== answer.status) {
		read.set(target, answer);
		changed += 1;
	}
	return readKept(target);
}

// How often something was read that was other than before.
export const changes = () => changed;

// What is shown stands behind this command, and nothing was begun on what stood before it.
export function goOnFrom(number) {
	if (!isSending && (last === null || number > last)) {
		know(number);
	}
}

function know(number) {
	last = number;
	remember("last", number);
}

// Commands: one at a time, each kept until it is answered.

export function watch(watcher) {
	say = watcher;
}

export function isBusy() {
	return isSending;
}

// Sends a command with the next number, again and again until it is answered, and gives the answer's body; else throws
// TooLate or a Refusal. `drafts` names what is kept here for it, which goes once it is done; with `gameweek` it is not sent
// once that is locked.
export function command(target, members, { drafts = [], gameweek = null } = {}) {
	return alone(async () => {
		const number = 1 + (last ?? (await readAnew("/api/me/")).last);
		remember("command", { target, text: JSON.stringify({ number, ...members }), number, drafts, gameweek });
		return deliver();
	});
}

// Goes on with a command that was sent before a reload; null if there is none.
export function resume() {
	return alone(() => (recall("command") === null ? null : deliver()));
}

async function alone(deed) {
	isSending = true;
	try {
		return await deed();
	} finally {
		isSending = false;
	}
}

async function deliver() {
	const sent = recall("command");
	let answer;
	try {
		answer = await answered(sent);
	} finally {
		remember("command", null);
		say(false);
	}
	if (answer.status === 200 || answer.status === 201) {
		know(sent.number);
		sent.drafts.forEach((name) => remember(name, null));
		return answer.body;
	}
	if (answer.status === 409 && NUMBERED.includes(answer.body.rule)) {
		know(answer.body.last);
	}
	throw new Refusal(answer.status, answer.body);
}

// The answer to a command: the same bytes again after 1, 2, 4, 8 seconds.
async function answered(sent) {
	for (let pause = 1; ; pause = Math.min(2 * pause, LONGEST_PAUSE)) {
		try {
			await refuseTooLate(sent);
			const answer = await ask("POST", sent.target, sent.text);
			if (!TRY_AGAIN.includes(answer.status)) {
				return answer;
			}
		} catch (fault) {
			if (!(fault instanceof NoAnswer)) {
				throw fault;
			}
		}
		say(true);
		await pauseOf(pause);
	}
}

// Where the deadline has passed, a command that was not done is not sent any more.
async function refuseTooLate({ gameweek, number }) {
	if (gameweek === null) {
		return;
	}
	const me = await readAnew("/me");
	if (me.gameweek !== gameweek && me.last < number) {
		throw new TooLate(gameweek, me.gameweek);
	}
}

// Waits so many seconds, or until the network is back.
export function pauseOf(seconds) {
	return new Promise((go) => {
		const end = () => {
			clearTimeout(timer);
			removeEventListener("online", end);
			go();
		};
		const timer = setTimeout(end, seconds * 1000);
		addEventListener("online", end);
	});
}
