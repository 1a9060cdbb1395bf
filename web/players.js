// All players, and one with his matches and what the operator changes of him.

import { SORTS, browsing } from "./browsing.js";
import { choice, field, input, link, make, named, nameInput, quiet, setting } from "./elements.js";
import { heading, playerLink, shortly, strip, table } from "./parts.js";
import { POSITIONS, STATS, money, when, whole } from "./words.js";

const LETTERS = "GDMF"; // of the positions, in commands
const STAT_NAMES = Object.keys(STATS);
const STAT_HEADS = Object.values(STATS).map((text) => `${text}#`);
const statsOf = (it) => STAT_NAMES.map((name) => whole(it[name]));

export async function drawPlayers(page) {
	const { season } = page;
	const head = ["Player", ...Object.values(SORTS).map(({ text }) => `${text}#`), ...STAT_HEADS];
	const open = () => table("All players of the season", head, [], { isWide: true });
	const row = (player) => {
		const about = make("div.small", shortly(season, player), player.status === "u" && ", has left");
		const figures = [...Object.entries(SORTS).map(([sort, { shown }]) => shown(player[sort])), ...statsOf(player)];
		return make("tr", make("th.text", { scope: "row" }, playerLink(season, player.id), about), figures.map((it) => make("td.number", it)));
	};
	return [heading("Players"), browsing(season, "players", open, row)];
}

export async function drawPlayer(page, id) {
	const { season } = page;
	const { fixtures, history } = await page.read(`/api/element-summary/${id}/`);
	const player = season.player(id);
	return [
		heading(named(player.web_name)),
		quiet(named(season.clubName(player.team)), `, ${POSITIONS[player.element_type]}`, player.status === "u" && ", has left the league"),
		strip([
			["Price", money(player.now_cost)],
			["Points", player.total_points],
			["Points a game", player.points_per_game],
			["Owned by", `${player.selected_by_percent}%`],
		]),
		page.isOperator && changes(page, season, player),
		make("h2", "Played"),
		history.length > 0 ? played(season, history) : quiet("Nothing yet."),
		make("h2", "To come"),
		fixtures.length > 0 ? toCome(season, fixtures) : quiet("Nothing."),
	];
}

function played(season, history) {
	const match = (it) => {
		const against = it.opponent_team === null ? season.fixtureName(it.fixture) : `${season.shortName(it.opponent_team)} (${it.was_home ? "H" : "A"})`;
		const score = it.team_h_score === null ? "" : ` ${it.team_h_score}–${it.team_a_score}`;
		return [link(`fixtures/${it.round}`, `Week ${it.round}`), " ", against, score];
	};
	const row = (it) => [match(it), whole(it.total_points), ...statsOf(it)];
	return table("Match by match", ["Match", "Points#", ...STAT_HEADS], history.map(row), { isWide: true });
}

function toCome(season, fixtures) {
	const against = (it) => named(`${season.clubName(it.is_home ? it.team_a : it.team_h)} (${it.is_home ? "H" : "A"})`);
	const row = (it) => [against(it), when(it.kickoff_time), whole(it.event)];
	return table("The matches of his club", ["Against", "Kick-off", "Week#"], fixtures.map(row));
}

// What the operator changes, each by a command of its own.
function changes(page, season, { id: player, web_name: called, element_type: plays, now_cost: cost, team, status }) {
	const price = input("price", { type: "number", step: "0.1", value: (cost / 10).toFixed(1) });
	const club = choice("club", season.clubChoices(), team);
	const name = nameInput("name", { value: called });
	const position = choice("position", [...LETTERS].map((letter, place) => [letter, POSITIONS[place + 1]]), LETTERS[plays - 1]);
	const isGone = status === "u";
	const set = (target, members) => (busy) => page.send(busy, target, members());
	return make(
		"div.cards",
		setting("price", set("/prices", () => ({ player, price: Math.round(10 * price.value) })), field("Price in millions", price)),
		setting("club", set("/clubs", () => ({ player, club: Number(club.value) })), field("Club", club)),
		setting("gone", set("/gone", () => ({ player, gone: !isGone })), make("span", isGone ? "He has left. Set that he is back:" : "Set that he has left:")),
		setting("name", set(`/players/${player}`, () => ({ name: name.value, position: position.value })), field("Name", name), field("Position", position)),
	);
}
