// Fixtures by gameweek, with results, scorers and bonus.

import { link, make, named, quiet } from "./elements.js";
import { heading, playerLink, turning } from "./parts.js";
import { STATS, counted, day, hour, when, whole } from "./words.js";

const UNTOLD = ["saves", "bps"];

export async function drawFixtures(page, given) {
	const { season } = page;
	const gameweek = given ?? (season.current || season.next);
	return [
		turning(heading(`Gameweek ${gameweek}`), "fixtures", gameweek, 1, season.last),
		quiet(`Deadline: ${when(season.deadline(gameweek))}`),
		gameweek <= season.current && link(`week/${gameweek}`, "Team of the week"),
		matchesOf(season, gameweek, () => null),
	];
}

// The matches of a gameweek by day, then those in none; `more` is added to each.
export function matchesOf(season, gameweek, more) {
	const matches = season.fixturesIn(gameweek);
	const nowhere = season.fixturesIn(null);
	const days = [...new Set(matches.map((it) => day(it.kickoff_time)))];
	const ofDay = (title) => [make("h2", title), make("div.cards", matches.filter((it) => day(it.kickoff_time) === title).map(card))];
	const card = (it) => matchCard(season, it, more(it));
	return [
		matches.length > 0 ? days.map(ofDay) : quiet("No match stands in this gameweek."),
		nowhere.length > 0 && [make("h2", "In no gameweek"), nowhere.map(card)],
	];
}

// A match with its score, and below it who did what on either side.
function matchCard(season, it, more) {
	const score = it.team_h_score === null ? hour(it.kickoff_time) : `${it.team_h_score} – ${it.team_a_score}`;
	const state = it.finished ? "Finished" : `Not finished: ${counted(it.minutes, "minute")} told`;
	return make(
		"article.card",
		{ id: `match-${it.id}` },
		make("div.match", make("span.home", named(season.clubName(it.team_h))), make("span.score", score), named(season.clubName(it.team_a))),
		it.started && [make("p.quiet.small", state), sides(season, it)],
		more,
	);
}

function sides(season, { stats }) {
	const shown = stats.filter((stat) => !UNTOLD.includes(stat.identifier) && stat.h.length + stat.a.length > 0);
	const person = ({ element, value }) => make("li", playerLink(season, element), value > 1 ? ` ${whole(value)}` : "");
	const lists = ({ identifier, h, a }) => [make("h3", STATS[identifier]), make("ul", h.map(person)), make("ul", a.map(person))];
	return make("div.sides", shown.map(lists));
}
