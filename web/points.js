// A team's points, what each player's are made of, and the team of the week.

import { ask, button, link, make, named, quiet } from "./elements.js";
import { bench, heading, noTeam, pitch, playerButton, strip, table, turning } from "./parts.js";
import { CHIPS, STATS, whole } from "./words.js";

export async function drawPoints(page, gameweek) {
	const { entry, started_event: first } = page.caller;
	return first === null ? noTeam("Points") : gameweekOf(page, entry, first, gameweek, "points");
}

export async function drawEntry(page, entry, gameweek) {
	const { started_event: first, name } = await page.read(`/api/entry/${entry}/`);
	const [title, ...others] = await gameweekOf(page, entry, first, gameweek, `entry/${entry}`);
	return [title, quiet(named(name)), others];
}

async function gameweekOf(page, entry, first, given, address) {
	const { season } = page;
	if (first > season.current) {
		return [heading("Points"), make("p", `They come once gameweek ${first} has begun. `, link("team", "My team"))];
	}
	const gameweek = given ?? season.current;
	const [picks, live] = await Promise.all([page.read(`/api/entry/${entry}/event/${gameweek}/picks/`), page.read(`/api/event/${gameweek}/live/`)]);
	const told = new Map(live.elements.map((player) => [player.id, player]));
	const came = new Map(picks.automatic_subs.map((it) => [it.element_in, it.element_out]));
	const went = new Set(came.values());
	const isOn = (pick) => (pick.position <= 11 ? !went.has(pick.element) : came.has(pick.element));
	const buttonOf = (pick) => [pick.element, pickButton(season, pick, told.get(pick.element), gameweek, came.has(pick.element), went.has(pick.element))];
	const [on, off] = [true, false].map((it) => new Map(picks.picks.filter((pick) => isOn(pick) === it).map(buttonOf)));
	return [
		turning(heading(`Gameweek ${gameweek}`), address, gameweek, first, season.current),
		summary(season.gameweeks[gameweek - 1], picks),
		pitch(season, on),
		bench("Bench, in its order", off),
		make("p", link(`week/${gameweek}`, "Team of the week")),
	];
}

function summary(event, { entry_history: row, active_chip: active }) {
	const chip = Object.values(CHIPS).find((it) => it.view === active);
	return [
		strip([
			["Points", row.points],
			["Transfers cost", -row.event_transfers_cost],
			["Net", row.points - row.event_transfers_cost],
			["Average", event.average_entry_score],
			["Highest", event.highest_score],
			["Overall rank", row.overall_rank],
			["Total", row.total_points],
		]),
		quiet(chip ? `${chip.name} was played. ` : "", event.finished ? "All matches are finished." : "Not all matches are finished."),
	];
}

function pickButton(season, pick, player, gameweek, hasCome, hasGone) {
	const points = whole(player.stats.total_points);
	const times = pick.multiplier > 1 ? `×${pick.multiplier}` : "";
	const marks = [
		pick.is_captain && ["leader", "C", "captain"],
		pick.is_vice_captain && ["leader", "V", "vice-captain"],
		hasCome && ["came", "↑", "came in"],
		hasGone && ["went", "↓", "went out"],
	].filter(Boolean);
	const about = [`${points} points`, ...marks.map(([, , spoken]) => spoken), times && `counts ${pick.multiplier} times`];
	const onclick = () => explain(season, player, gameweek, times);
	return playerButton(season, pick.element, { worth: points + times, badges: marks, about, onclick });
}

// What a player's points of a gameweek are made of, line by line.
function explain(season, { id, explain: lines, stats }, gameweek, times = "") {
	const { team, web_name: name } = season.player(id);
	const row = (it) => [STATS[it.identifier], whole(it.value), whole(it.points)];
	const tables = lines.map((line) => table(season.fixtureName(line.fixture), ["What", "Number#", "Points#"], line.stats.map(row)));
	ask(
		`${name}, ${season.clubName(team)}`,
		make("p", `${whole(stats.total_points)}${times} points in gameweek ${gameweek}.`, stats.in_dreamteam && " He is in the team of the week."),
		tables.length > 0 ? tables : quiet(`No figures yet: ${season.opponents(team, gameweek)}.`),
		make("div.buttons", button("no", "Close", () => {}), link(`player/${id}`, "All his matches")),
	);
}

export async function drawWeek(page, given) {
	const { season } = page;
	if (season.current === 0) {
		return [heading("Team of the week"), quiet("There is one once a gameweek has begun.")];
	}
	const gameweek = given ?? season.current;
	const { team } = await page.read(`/api/dream-team/${gameweek}/`);
	const { elements } = await page.read(`/api/event/${gameweek}/live/`);
	const buttonOf = ({ element, points }) => {
		const onclick = () => explain(season, elements.find((it) => it.id === element), gameweek);
		return [element, playerButton(season, element, { worth: whole(points), about: [`${whole(points)} points`], onclick })];
	};
	return [
		turning(heading(`Team of week ${gameweek}`), "week", gameweek, 1, season.current),
		team.length > 0 ? pitch(season, team.map(buttonOf)) : quiet("No eleven has played yet."),
	];
}
