// The list of all players, searched and sorted in memory, drawn by and by.

import { choice, field, input, make, quiet } from "./elements.js";
import { recall, remember } from "./kept.js";
import { POSITIONS, counted, money, plain, whole } from "./words.js";

const AT_ONCE = 12; // rows, within a frame
// The figures by which players are sorted, and how they are written.
export const SORTS = {
	total_points: { text: "Points", shown: whole },
	points_per_game: { text: "Points a game", shown: String },
	selected_by_percent: { text: "Owned by", shown: (percent) => `${percent}%` },
	event_points: { text: "This week", shown: whole },
	now_cost: { text: "Price", shown: money },
};
const PRICES = [45, 50, 55, 60, 70, 80, 90, 100, 120, 150];
const ALL = { search: "", position: 0, club: 0, price: 0, sort: "total_points" };

// What was chosen last in a list of this name.
export const filtersOf = (name) => ({ ...ALL, ...recall(`list ${name}`) });

export const filter = (name, changed) => remember(`list ${name}`, { ...filtersOf(name), ...changed });

function found(season, { search, position, club, price, sort }) {
	const words = plain(search.trim());
	const fits = (player) =>
		(position === 0 || player.element_type === position) &&
		(club === 0 || player.team === club) &&
		(price === 0 || player.now_cost <= price) &&
		season.plainNames.get(player.id).includes(words);
	return season.all.filter(fits).sort((one, other) => other[sort] - one[sort] || one.id - other.id);
}

// The list with its filters: `open` makes what holds the rows, and `row` a player's row.
export function browsing(season, name, open, row) {
	const place = make("div", { id: `list-${name}` });
	const count = make("p.quiet.small", { role: "status" });
	const redraw = () => {
		const players = found(season, filtersOf(name));
		const holder = open();
		count.textContent = counted(players.length, "player");
		place.replaceChildren(players.length > 0 ? holder : quiet("Nobody is like that."));
		drawOn(players, place, holder.querySelector("tbody") ?? holder, row);
	};
	redraw();
	return make("section", filters(season, name, redraw), count, place);
}

// Draws some more whenever the end of what is drawn comes near.
function drawOn(players, place, rows, row) {
	let drawn = 0;
	const end = make("div");
	const watcher = new IntersectionObserver((seen) => seen.some((it) => it.isIntersecting) && more(), { rootMargin: "800px" });
	const more = () => {
		rows.append(...players.slice(drawn, drawn + AT_ONCE).map(row));
		drawn += AT_ONCE;
		watcher.disconnect();
		if (drawn < players.length) {
			watcher.observe(end);
		}
	};
	place.append(end);
	more();
}

function filters(season, name, redraw) {
	const chosen = filtersOf(name);
	const change = (member) => ({ target: { value } }) => {
		filter(name, { [member]: typeof ALL[member] === "number" ? Number(value) : value });
		redraw();
	};
	const select = (label, member, pairs) => field(label, choice(`${name}-${member}`, pairs, chosen[member], { onchange: change(member) }));
	const search = input(`${name}-search`, { type: "search", value: chosen.search, required: false, oninput: change("search") });
	return make(
		"div.filters",
		field("Search", search),
		select("Position", "position", POSITIONS.map((text, position) => [position, text ? `${text}s` : "all"])),
		select("Club", "club", [[0, "all"], ...season.clubChoices()]),
		select("Price", "price", [[0, "any"], ...PRICES.map((price) => [price, `up to ${money(price)}`])]),
		select("Sorted by", "sort", Object.entries(SORTS).map(([sort, { text }]) => [sort, text])),
	);
}
