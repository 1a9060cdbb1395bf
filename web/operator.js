// The operator's evening: matches, with sheets, corrections, marks and moves; deadlines.

import { button, choice, field, form, input, link, make, named, quiet, setting } from "./elements.js";
import { matchesOf } from "./fixtures.js";
import { heading, turning } from "./parts.js";
import { fieldTime, momentOf, when } from "./words.js";

export async function drawEvening(page, given) {
	const { season } = page;
	const gameweek = given ?? (season.current || 1);
	const isLocked = gameweek <= season.current;
	return [
		turning(heading(`Gameweek ${gameweek}`), "matches", gameweek, 1, season.last),
		quiet(isLocked ? "Figures can be handed in and corrected." : "Figures come once the deadline has passed."),
		matchesOf(season, gameweek, (it) => actions(page, it, it.event !== null && isLocked)),
	];
}

function actions(page, { id, started, finished }, isLocked) {
	const done = finished ? "The match is not finished any more: nobody has bonus." : "The match is finished.";
	const mark = (busy) => page.send(busy, `/fixtures/${id}/finished`, { finished: !finished }, { done });
	const way = (place, text) => make("a.button", { href: `#/${place}/${id}` }, text);
	return make(
		"div.buttons",
		isLocked && started && way("correct", "Correct a goal"),
		isLocked && way("sheet", "Sheet"),
		isLocked && button(`finish-${id}`, finished ? "Mark as not finished" : "Mark as finished", mark),
		way("move", "Change"),
	);
}

const timeInput = (id, moment) => input(id, { type: "datetime-local", step: 1, value: fieldTime(moment) });

export async function drawMove(page, id) {
	const { season } = page;
	const { event, kickoff_time: stands, team_h: host, team_a: guest } = season.fixture(id);
	const gameweek = choice("gameweek", [["", "None: it is postponed"], ...season.gameweeks.map((it) => [it.id, it.name])], event ?? "");
	const kickoff = timeInput("kickoff", stands);
	const move = (busy) => {
		const to = Number(gameweek.value) || null;
		const next = () => (to === null ? "#/matches" : `#/matches/${to}`);
		page.send(busy, `/fixtures/${id}/move`, { gameweek: to, kickoff: momentOf(kickoff.value) }, { done: "The match is moved.", next });
	};
	const judge = () => away.setCustomValidity(home.value === away.value ? "A club can't play against itself." : "");
	const [home, away] = [["home", host], ["away", guest]].map(([side, club]) => choice(side, season.clubChoices(), club, { onchange: judge }));
	const setClubs = (busy) => page.send(busy, `/fixtures/${id}`, { home: Number(home.value), away: Number(away.value) });
	return [
		heading("Change a match"),
		quiet(named(season.fixtureName(id)), ". Its figures count where it then stands."),
		form("move", "Move", move, field("Gameweek", gameweek), field("Kick-off, in your own time", kickoff)),
		make("h2", "Its clubs"),
		setting("clubs", setClubs, field("At home", home), field("Away", away)),
	];
}

// The season

export async function drawSeason(page) {
	const { season } = page;
	const row = ([gameweek, name]) => {
		const time = timeInput(`deadline-${gameweek}`, season.deadline(gameweek));
		const set = (busy) => page.send(busy, "/deadlines", { gameweek, deadline: momentOf(time.value) }, { done: `The deadline of gameweek ${gameweek} is set.` });
		return setting(time.id, set, field(`${name}: ${when(season.deadline(gameweek))}`, time));
	};
	return [
		heading("The season"),
		make("p", "What is told of a player is changed ", link("players", "on his own page"), "."),
		make("h2", "Deadlines"),
		make("div.cards", season.openGameweeks().map(row)),
	];
}
