// What several places draw: shirts, pitches, tables, strips, ways between gameweeks.

import { draw, link, make, named, scrolling } from "./elements.js";
import { POSITIONS, SHORT_POSITIONS, whole } from "./words.js";

const SHIRT = "M14 3 6 7 1 16l8 4 2-3v21h22V17l2 3 8-4-5-9-8-4c-2 5-14 5-16 0z";
const PATTERNS = [
	"M6 7 1 16l8 4 2-3V5zM38 7l5 9-8 4-2-3V5z", // sleeves
	"M14 7h3v31h-3zM20.5 8h3v30h-3zM27 7h3v31h-3z", // stripes
	"M11 12h22v4H11zM11 20h22v4H11zM11 28h22v4H11z", // hoops
	"M22 7h8l3-2v33H22z", // halves
	"M11 9 33 30v8L11 17z", // a sash
];

// A shirt: a hue a club, a pattern by its number's remainder.
export function shirt(club, isKeeper = false) {
	const hue = Math.round((club * 137.5) % 360);
	const colours = [`hsl(${hue} 65% 36%)`, `hsl(${(hue + 50) % 360} 85% 88%)`];
	const [ground, pattern] = isKeeper ? colours.reverse() : colours;
	return draw(
		"svg.shirt",
		{ viewBox: "0 0 44 40", "aria-hidden": "true" },
		draw("path", { d: SHIRT, fill: ground }),
		draw("path", { d: PATTERNS[club % PATTERNS.length], fill: pattern }),
		draw("path", { d: SHIRT, fill: "none", stroke: "rgb(0 0 0 / 45%)" }),
	);
}

// A player on a pitch. `worth` stands below the name; `badges` are pairs of a class and a text; `about` is read aloud;
// `state` is "chosen", "may" or "not", or undefined where nothing is chosen.
export function playerButton(season, id, { worth, badges = [], about = [], state, onclick }) {
	const player = season.player(id);
	const properties = {
		type: "button",
		id: `player-${id}`,
		"aria-label": [player.web_name, season.clubName(player.team), POSITIONS[player.element_type], ...about].filter(Boolean).join(", "),
		"aria-pressed": state && String(state === "chosen"),
		onclick,
	};
	return make(
		`button.player${state ? `.${state}` : ""}`,
		properties,
		shirt(player.team, player.element_type === 1),
		badges.map(([kind, text]) => make(`span.badge.${kind}`, text)),
		make("bdi.name", player.web_name),
		make("span.worth", worth),
	);
}

// A pitch with a row for each position. `buttons` are by the player's number; `others` gives more for a row.
export function pitch(season, buttons, others = () => []) {
	const row = (position) => {
		const inRow = [...buttons].filter(([id]) => season.player(id).element_type === position).map(([, button]) => button);
		return make("div.row", inRow, others(position));
	};
	return make("section.pitch", { "aria-label": "The pitch" }, [1, 2, 3, 4].map(row));
}

export function bench(title, buttons) {
	return make("section.bench", make("h2", title), make("div.row", [...buttons.values()]));
}

// A table. A text of `head` that ends with "#" heads numbers; a row is a list of cells, or has `cells` and `isOwn`; its first
// cell is its heading. A wide table is scrolled by keyboard too.
export function table(caption, head, rows, { isWide = false } = {}) {
	const kind = (place) => (head[place].endsWith("#") ? ".number" : ".text");
	const heading = (text, place) => make(`th${kind(place)}`, { scope: "col" }, text.replace("#", ""));
	const cell = (content, place) => (place === 0 ? make(`th${kind(0)}`, { scope: "row" }, content) : make(`td${kind(place)}`, content));
	const row = (it) => make(it.isOwn ? "tr.own" : "tr", (it.cells ?? it).map(cell));
	return make(
		`div.scroll${isWide ? ".wide" : ""}`,
		isWide ? scrolling(caption) : {},
		make("table", make("caption", caption), make("thead", make("tr", head.map(heading))), make("tbody", rows.map(row))),
	);
}

// A rank and how it has moved, also for who does not see the arrow.
export function ranked({ rank, last_rank: lastRank }) {
	const places = lastRank - rank;
	const [kind, arrow, word] = places > 0 ? ["up", "▲", "up"] : ["down", "▼", "down"];
	const moved = make(`span.${kind}`, make("span", { "aria-hidden": "true" }, arrow), make("span.unseen", word), Math.abs(places));
	const still = make("span.quiet", lastRank === 0 ? "new" : "=");
	return [whole(rank), " ", lastRank === 0 || places === 0 ? still : moved];
}

// Pairs of a word and a figure; a number is written with its sign.
export function strip(pairs) {
	const shown = (value) => (typeof value === "string" ? value : whole(value));
	return make("dl.strip", pairs.map(([word, value]) => make("div", make("dt", word), make("dd", shown(value)))));
}

export const heading = (...title) => make("h1", { id: "title", tabindex: -1 }, ...title);

// A heading with ways to the gameweeks before and after.
export function turning(title, address, gameweek, first, last) {
	const way = (number, arrow) =>
		number >= first && number <= last
			? make("a.button", { href: `#/${address}/${number}`, "aria-label": `Gameweek ${number}` }, arrow)
			: make("span.button.no", arrow);
	return make("div.turning", way(gameweek - 1, "‹"), title, way(gameweek + 1, "›"));
}

export const noTeam = (title) => [heading(title), make("p", "There is no team of yours yet. ", link("transfers", "Pick your first squad."))];

export const playerLink = (season, id) => link(`player/${id}`, named(season.playerName(id)));

// A club by its three letters, and a position by its own.
export function shortly(season, { team, element_type: position }) {
	return `${season.shortName(team)} · ${SHORT_POSITIONS[position]}`;
}
