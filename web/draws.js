// Head-to-head leagues and cups, drawn by lot.

import { randomBelow, shuffled } from "./chance.js";
import { button, check, choice, confirmed, field, form, make, named, quiet } from "./elements.js";
import { readAnew } from "./host.js";
import { heading } from "./parts.js";
import { counted } from "./words.js";

export async function drawDraws(page) {
	const { season } = page;
	const [leagues, entries] = await Promise.all([page.read("/api/leagues/"), page.read("/api/entries/")]);
	const waiting = leagues.filter((it) => it.scoring === "h" && !it.drawn);
	return [
		heading("Draws"),
		make("h2", "Head-to-head leagues"),
		waiting.length > 0 ? make("ul.list", waiting.map((it) => leagueRow(page, it))) : quiet("No league waits to be drawn."),
		make("h2", "A cup"),
		season.next === null ? quiet("The season is over.") : cupForm(page, season, entries.filter((it) => it.started_event !== null)),
	];
}

function leagueRow(page, { id, name, members, start_event: start }) {
	const draw = async (busy) => {
		const { standings } = await readAnew(`/api/leagues-h2h/${id}/standings/`);
		const order = shuffled(standings.results.map((row) => row.entry));
		const says = make("p", named(name), `: ${counted(order.length, "member")} get their places by lot, and nobody can join afterwards.`);
		if (await confirmed("Draw this league?", "Draw", says)) {
			await page.send(busy, `/leagues/${id}/draw`, { order }, { done: "The league is drawn." });
		}
	};
	return make("li", make("div.who", named(name), make("small", `${counted(members, "member")}, from gameweek ${start}`)), button(`draw-${id}`, "Draw", draw));
}

function cupForm(page, season, entries) {
	const start = choice("cup-start", season.openGameweeks());
	const boxes = make("div.choices", entries.map((it) => check(`in-cup-${it.entry}`, named(it.name), true, { value: it.entry })));
	const send = (busy) => {
		const chosen = [...boxes.querySelectorAll(":checked")].map((box) => Number(box.value));
		const members = { start: Number(start.value), ...bracketOf(chosen) };
		page.send(busy, "/cups", members, { done: "The cup is drawn.", next: (body) => `#/cup/${body.cup}` });
	};
	return form(
		"draw-cup",
		"Draw the cup",
		send,
		field("First round in gameweek", start),
		make("fieldset", make("legend", "Who plays"), boxes),
		quiet("Places, byes and coins are drawn by lot. A cup can't be taken back."),
	);
}

// The slots of a cup by lot, with byes up to a power of two, which never meet; a coin for each tie.
function bracketOf(entries) {
	const drawn = shuffled(entries);
	const ties = 2 ** Math.max(0, Math.ceil(Math.log2(drawn.length)) - 1);
	const first = drawn.slice(0, ties);
	const second = shuffled([...drawn.slice(ties), ...Array(Math.max(0, 2 * ties - drawn.length)).fill(0)]);
	const slots = first.flatMap((entry, tie) => [entry, second[tie]]);
	return { slots, coins: slots.slice(1).map(() => randomBelow(2)) };
}
