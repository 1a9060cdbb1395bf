// Leagues and cups: tables, matches, brackets; making a league and joining one.

import { randomLetters } from "./chance.js";
import { choice, field, folded, form, input, link, make, named, nameInput, quiet, scrolling } from "./elements.js";
import { heading, noTeam, ranked, table, turning } from "./parts.js";
import { counted, whole } from "./words.js";

const KINDS = { c: "Classic", h: "Head-to-head" };
const CODE = { pattern: "[a-z0-9]{4,16}", title: "4 to 16 small letters and digits" };

export async function drawLeagues(page) {
	const { read, caller, isOperator, season } = page;
	const [all, cups] = await Promise.all([read("/api/leagues/"), read("/api/cups/")]);
	const isIn = caller.started_event !== null;
	const mine = isIn ? await read("/api/my-leagues/") : [];
	const others = all.filter((league) => mine.every((it) => it.id !== league.id));
	const cupRow = (cup) => [link(`cup/${cup.id}`, `Cup ${cup.id}`), whole(cup.slots), whole(cup.start_event)];
	const otherRow = (it) => [leagueLink(it), KINDS[it.scoring], whole(it.members), whole(it.start_event)];
	return [
		isIn || isOperator ? heading("Leagues") : noTeam("Leagues"),
		isOperator && make("p", link("draws", "Draw leagues and cups")),
		isIn && (await ownLeagues(page, mine)),
		isIn && others.length > 0 && joinForm(page, others),
		isIn && season.next !== null && makeForm(page, season),
		others.length > 0 && table("Leagues, with their first gameweek", ["League", "Kind", "Members#", "From#"], others.map(otherRow)),
		cups.length > 0 && table("Cups, with their first gameweek", ["Cup", "Places#", "From#"], cups.map(cupRow)),
	];
}

const leagueLink = (league) => link(`league/${league.id}`, named(league.name));

async function ownLeagues(page, mine) {
	const { leagues } = await page.read(`/api/entry/${page.caller.entry}/`);
	const places = new Map([...leagues.classic, ...leagues.h2h].map((it) => [it.id, { rank: it.entry_rank, last_rank: it.entry_last_rank }]));
	const rank = (it) => (it.scoring === "h" && !it.drawn ? "not drawn" : ranked(places.get(it.id)));
	const row = (it) => [leagueLink(it), rank(it), whole(it.members), make("code", it.code)];
	return mine.length > 0
		? table("My leagues", ["League", "Rank#", "Members#", "Code"], mine.map(row))
		: quiet("No league yet. Make one, or join by a code.");
}

// Joining and making

function joinForm(page, leagues) {
	const which = choice("join-league", leagues.map((it) => [it.id, it.name]));
	const code = input("join-code", CODE);
	const join = (busy) => {
		const league = which.value;
		page.send(busy, `/leagues/${league}/join`, { code: code.value }, { done: "You are in.", next: () => `#/league/${league}` });
	};
	return folded("join-a-league", "Join a league by its code", form("join", "Join", join, field("League", which), field("Its code", code)));
}

function makeForm(page, season) {
	const kind = choice("league-kind", [["classic", "Classic: most points in all"], ["head", "Head-to-head: a match each gameweek"]]);
	const name = nameInput("league-name");
	const code = input("league-code", { ...CODE, value: randomLetters(8) });
	const start = choice("league-start", season.openGameweeks());
	const send = (busy) => {
		const members = { kind: kind.value, name: name.value, code: code.value, start: Number(start.value) };
		const done = `The league is made. Its code is ${members.code}.`;
		page.send(busy, "/leagues", members, { done, next: (body) => `#/league/${body.league}` });
	};
	const fields = [field("Kind", kind), field("Name", name), field("Code with which others join", code), field("From gameweek", start)];
	return folded("make-a-league", "Make a league", form("make-league", "Make it", send, ...fields));
}

// One league

export async function drawLeague(page, id, gameweek) {
	const { season } = page;
	const league = (await page.read("/api/leagues/")).find((it) => it.id === id);
	const isHead = league?.scoring === "h";
	const { standings } = await page.read(`/api/leagues-${isHead ? "h2h" : "classic"}/${id}/standings/`);
	const mine = page.caller.started_event === null ? [] : await page.read("/api/my-leagues/");
	const code = mine.find((it) => it.id === id && !it.drawn)?.code;
	return [
		heading(named(league.name)),
		quiet(`${KINDS[league.scoring]}, ${counted(league.members, "member")}, from gameweek ${league.start_event}.`),
		code && make("p", "Others join with the code ", make("code", code), "."),
		isHead && !league.drawn && quiet(`The operator draws it before gameweek ${league.start_event}; until then others can join.`),
		standingsTable(page, season, standings.results, isHead),
		isHead && league.drawn && (await matches(page, season, league, gameweek)),
	];
}

function standingsTable(page, season, rows, isHead) {
	const figures = isHead
		? { "Points#": "total", "Won#": "matches_won", "Drawn#": "matches_drawn", "Lost#": "matches_lost", "Scored#": "points_for" }
		: { "Week#": "event_total", "Total#": "total" };
	const name = (it) => (season.current === 0 ? named(it.entry_name) : link(`entry/${it.entry}/${season.current}`, named(it.entry_name)));
	const row = (it) => ({
		cells: [ranked(it), name(it), ...Object.values(figures).map((member) => whole(it[member]))],
		isOwn: it.entry === page.caller.entry,
	});
	return table("The table. A name opens that team", ["Rank#", "Team", ...Object.keys(figures)], rows.map(row), { isWide: isHead });
}

async function matches(page, season, league, given) {
	const { results } = await page.read(`/api/leagues-h2h-matches/league/${league.id}/`);
	const gameweek = given ?? Math.max(season.current, league.start_event);
	const isPlayed = gameweek <= season.current;
	const row = (it) => ({
		cells: [named(it.entry_1_name), isPlayed ? `${whole(it.entry_1_points)} : ${whole(it.entry_2_points)}` : "–", named(it.entry_2_name)],
		isOwn: [it.entry_1_entry, it.entry_2_entry].includes(page.caller.entry),
	});
	const title = make("h2", `Matches of gameweek ${gameweek}`);
	const ofGameweek = results.filter((it) => it.event === gameweek);
	return [
		turning(title, `league/${league.id}`, gameweek, league.start_event, season.last),
		table(isPlayed ? "Played" : "To come", ["Team", "Points", "Against"], ofGameweek.map(row)),
	];
}

// Cups

const ROUNDS = ["", "Final", "Semi-finals", "Quarter-finals"]; // by how many rounds are left

export async function drawCup(page, id) {
	const [cup, entries] = await Promise.all([page.read(`/api/cups/${id}/`), page.read("/api/entries/")]);
	const names = new Map(entries.map((it) => [it.entry, it.name]));
	const title = (left) => ROUNDS[left] ?? `Last ${2 ** left}`;
	const rounds = cup.rounds.map((round, place) => roundOf(round, title(cup.rounds.length - place), place === 0 ? "Bye" : "Still open", names));
	return [
		heading(`Cup ${id}`),
		quiet("Points decide, then goals, then goals conceded, then a coin."),
		make("div.bracket", scrolling("The bracket"), rounds),
	];
}

function roundOf({ event, ties }, title, nobody, names) {
	const side = (entry, points, winner) => {
		const isWinner = entry !== null && entry === winner;
		const who = make("span", entry === null ? nobody : named(names.get(entry)), isWinner && [" ✓", make("span.unseen", " goes on")]);
		return make(isWinner ? "div.won" : "div", who, points !== null && whole(points));
	};
	const item = (tie) => make("li.tie", side(tie.entry_1, tie.entry_1_points, tie.winner), side(tie.entry_2, tie.entry_2_points, tie.winner));
	return make("section", make("h2", title), make("p.quiet.small", `Gameweek ${event}`), make("ol", ties.map(item)));
}
