// Correcting a goal: from whom, to whom, and what it changed.

import { button, mainButton, make, named, quiet } from "./elements.js";
import { GOALS, OWN_GOALS, WINNING_GOAL } from "./figures.js";
import { readAnew } from "./host.js";
import { recall, remember } from "./kept.js";
import { heading, table } from "./parts.js";
import { counted, whole } from "./words.js";

const MOST_TEAMS = 100; // whose gameweek is compared

const DRAFT = "draft correction"; // from whom and to whom, of a fixture
let chosen = {};
let report = null; // what the last correction changed

export async function drawCorrection(page, id) {
	const { season } = page;
	const sheet = await page.read(`/api/fixtures/${id}/sheet/`);
	const fixture = season.fixture(id);
	const view = { page, season, sheet, fixture };
	const goals = goalsOf(view);
	const kept = recall(DRAFT);
	chosen = kept?.fixture === id && isAmong(goals, kept.from) ? kept : { fixture: id };
	const takers = chosen.from ? takersOf(view) : [];
	return [
		heading("Correct a goal"),
		quiet(named(season.fixtureName(id)), `, ${whole(fixture.team_h_score)} to ${whole(fixture.team_a_score)}. The score stays.`),
		report?.fixture === id && reported(),
		make("h2", { id: "from" }, "1. Whose goal is it not?"),
		choices(view, "from", goals),
		chosen.from && [make("h2", { id: "to" }, "2. Whose goal is it?"), choices(view, "to", takers)],
		isAmong(takers, chosen.to) && confirmation(view),
	];
}

const isAmong = (goals, one) => goals.some((it) => it.id === one?.id);

// A goal of a player, and the figure that counts it.
function goal({ season }, player, figure) {
	return { player, figure, id: `${player}-${figure}`, text: `${season.playerName(player)}${figure === OWN_GOALS ? ", own goal" : ""}` };
}

function goalsOf(view) {
	const of = (figure) => view.sheet.lines.filter((line) => line.figures[figure] > 0).map((line) => goal(view, line.player, figure));
	return [...of(GOALS), ...of(OWN_GOALS)];
}

// Who may have scored it for the same side: one of it, or of the other by an own goal.
function takersOf(view) {
	const { season, sheet, fixture } = view;
	const isAtHome = ({ player, figure }) => (season.player(player).team === fixture.team_h) === (figure === GOALS);
	const of = (figure) => sheet.lines.map((line) => goal(view, line.player, figure));
	return [...of(GOALS), ...of(OWN_GOALS)].filter((it) => it.id !== chosen.from.id && isAtHome(it) === isAtHome(chosen.from));
}

function choices({ page }, which, list) {
	const choose = (it) => () => {
		remember(DRAFT, { ...chosen, to: null, [which]: it });
		report = null;
		page.redraw();
	};
	const one = (it) => button(`${which}-${it.id}`, named(it.text), choose(it), { "aria-pressed": String(it.id === chosen[which]?.id) });
	return make("div.choices", { role: "group", "aria-labelledby": which }, list.length > 0 ? list.map(one) : "Nobody");
}

// The correction: the sheet with the goal moved, as one command

function confirmation(view) {
	const { from, to } = chosen;
	return make(
		"div.tools",
		make("p", "The goal goes from ", named(from.text), " to ", named(to.text), takesWinner(view) && ", and it was the winning goal", "."),
		mainButton("correct", "Correct it", (busy) => corrected(view, busy)),
	);
}

// Whether it was the winning goal: that of its scorer, who had no other.
function takesWinner({ sheet }) {
	const { player, figure } = chosen.from;
	const { figures } = sheet.lines.find((line) => line.player === player);
	return figure === GOALS && figures[GOALS] === 1 && figures[WINNING_GOAL] === 1;
}

function movedLines(view) {
	const { from, to } = chosen;
	const isWinner = takesWinner(view);
	return view.sheet.lines.map(({ player, figures }) => {
		const moved = [...figures];
		if (player === from.player) {
			moved[from.figure] -= 1;
			moved[WINNING_GOAL] = isWinner ? 0 : moved[WINNING_GOAL];
		}
		if (player === to.player) {
			moved[to.figure] += 1;
			moved[WINNING_GOAL] = isWinner && to.figure === GOALS ? 1 : moved[WINNING_GOAL];
		}
		return { player, figures: moved };
	});
}

async function corrected(view, busy) {
	const { page, sheet, fixture } = view;
	busy.disabled = true;
	const before = await stateOf(view);
	const members = { lines: movedLines(view), finished: sheet.finished };
	if (await page.send(busy, `/fixtures/${fixture.id}/sheet`, members, { drafts: [DRAFT], done: "The goal is corrected." })) {
		const behind = await stateOf(view);
		const changed = [...behind].filter(([what, value]) => value !== before.get(what));
		report = { fixture: fixture.id, rows: changed.map(([what, value]) => [what, before.get(what), value]) };
		await page.redraw();
		document.getElementById("changed").focus();
	}
}

// What a correction changed: figures of players and teams, and places in leagues, by what they are

async function stateOf({ season, fixture, sheet }) {
	const inMatch = sheet.lines.map((line) => line.player);
	const { elements } = await readAnew(`/api/event/${fixture.event}/live/`);
	const players = elements.filter((it) => inMatch.includes(it.id)).flatMap(({ id, stats }) => [
		[`${season.playerName(id)}: points`, stats.total_points],
		[`${season.playerName(id)}: bonus`, stats.bonus],
	]);
	return new Map([...players, ...(await teamsNow(fixture.event)), ...(await placesNow())]);
}

// The points of each team in a gameweek; of none where there are too many to compare.
async function teamsNow(gameweek) {
	const entries = (await readAnew("/api/entries/")).filter((it) => it.started_event !== null && it.started_event <= gameweek);
	const points = async ({ entry, name }) => {
		const { entry_history: row } = await readAnew(`/api/entry/${entry}/event/${gameweek}/picks/`);
		return [`${name}: points of gameweek ${gameweek}`, row.points];
	};
	return Promise.all(entries.length > MOST_TEAMS ? [] : entries.map(points));
}

async function placesNow() {
	const leagues = await readAnew("/api/leagues/");
	const tables = await Promise.all(leagues.map((it) => readAnew(`/api/leagues-${it.scoring === "c" ? "classic" : "h2h"}/${it.id}/standings/`)));
	const places = ({ league, standings }) => standings.results.map((row) => [`${row.entry_name}: place in ${league.name}`, row.rank]);
	return tables.flatMap(places);
}

function reported() {
	const row = ([what, before, behind]) => [named(what), whole(before), whole(behind)];
	const title = make("h2", { id: "changed", tabindex: -1 }, "What it changed");
	return [title, table(counted(report.rows.length, "figure"), ["What", "Before#", "Now#"], report.rows.map(row))];
}
