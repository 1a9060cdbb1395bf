// How numbers, money and times are written.

const MINUS = "\u2212";
const LENGTHS = { d: 86400, h: 3600, min: 60 };

const dates = (parts) => new Intl.DateTimeFormat("en-GB", parts);
const clock = { hour: "2-digit", minute: "2-digit" };
const moments = dates({ weekday: "short", day: "numeric", month: "short", ...clock, timeZoneName: "short" });
const days = dates({ weekday: "long", day: "numeric", month: "long", year: "numeric" });
const hours = dates(clock);

// What a player can have in a match, by the names of the views.
export const STATS = {
	minutes: "Minutes",
	goals_scored: "Goals",
	assists: "Assists",
	clean_sheets: "Clean sheets",
	goals_conceded: "Conceded",
	own_goals: "Own goals",
	penalties_saved: "Penalties saved",
	penalties_missed: "Penalties missed",
	yellow_cards: "Yellow cards",
	red_cards: "Red cards",
	saves: "Saves",
	bonus: "Bonus",
	bps: "Bonus number",
};

export const POSITIONS = ["", "goalkeeper", "defender", "midfielder", "forward"];
export const SHORT_POSITIONS = ["", "GKP", "DEF", "MID", "FWD"];

// The chips by their names in commands, each with that of the views below /api/.
export const CHIPS = {
	wildcard: { view: "wildcard", name: "Wildcard", does: "All transfers of the gameweek are free. Once in each half of the season; it can't be taken back." },
	free_hit: { view: "freehit", name: "Free hit", does: "All transfers of the gameweek are free, and afterwards your old squad is back. It can't be taken back." },
	bench_boost: { view: "bboost", name: "Bench boost", does: "The bench counts too, and nobody is substituted." },
	triple_captain: { view: "3xc", name: "Triple captain", does: "Your captain counts three times in place of twice." },
};

// Tenths of a million as millions.
export const money = (tenths) => `${tenths < 0 ? MINUS : ""}${(Math.abs(tenths) / 10).toFixed(1)}`;

// A whole number with the minus that is as wide as a digit; null is a dash.
export const whole = (number) => (number === null ? "–" : `${number}`.replace("-", MINUS));

export const counted = (number, one) => `${whole(number)} ${one}${number === 1 ? "" : "s"}`;

// Moments, in seconds or as texts, are written in the reader's own zone.
const dateOf = (moment) => new Date(typeof moment === "number" ? moment * 1000 : moment);
export const when = (moment) => moments.format(dateOf(moment));
export const day = (moment) => days.format(dateOf(moment));
export const hour = (moment) => hours.format(dateOf(moment));

// How long it is until a moment, in its two greatest parts; null if it has passed.
export function countdown(moment) {
	let left = Math.ceil(moment - Date.now() / 1000);
	if (left <= 0) {
		return null;
	}
	const parts = [];
	for (const [name, length] of Object.entries(LENGTHS)) {
		const count = Math.floor(left / length);
		left -= count * length;
		if (count > 0) {
			parts.push(`${count}\u00a0${name}`);
		}
	}
	return parts.slice(0, 2).join("\u00a0") || "less than a minute";
}

// The moment, in seconds, of a field for a local date and time.
export const momentOf = (text) => Math.floor(new Date(text).getTime() / 1000);

// A moment as such a field has it.
export function fieldTime(moment) {
	const date = dateOf(moment);
	const local = new Date(date.getTime() - date.getTimezoneOffset() * 60000);
	return local.toISOString().slice(0, 19);
}

// A text as a search compares it: small letters without marks.
export const plain = (text) => text.normalize("NFD").replace(/\p{Mark}/gu, "").toLowerCase();
