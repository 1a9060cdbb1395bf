// The season as the host tells it, by numbers.

import { Refusal } from "./host.js";
import { plain } from "./words.js";

const seasons = new WeakMap(); // by the host's answers, so that each is gone through once
const byId = (list) => new Map(list.map((item) => [item.id, item]));

// What was found, which a place can't do without.
export function there(found) {
	if (!found) {
		throw new Refusal(404, {});
	}
	return found;
}

// Reads the season by the reader of a place.
export async function seasonBy(read) {
	const [overview, fixtures] = await Promise.all([read("/api/bootstrap-static/"), read("/api/fixtures/")]);
	if (seasons.get(overview)?.fixtures !== fixtures) {
		seasons.set(overview, new Season(overview, fixtures));
	}
	return seasons.get(overview);
}

class Season {
	constructor({ elements, teams, events }, fixtures) {
		this.all = elements;
		this.fixtures = fixtures;
		this.gameweeks = events;
		this.players = byId(elements);
		this.plainNames = new Map(elements.map((player) => [player.id, plain(player.web_name)]));
		this.clubs = byId(teams);
		this.fixtureOf = byId(fixtures);
		this.last = events.length;
		this.current = events.find((event) => event.is_current)?.id ?? 0; // 0 where none is locked
		this.next = events.find((event) => event.is_next)?.id ?? null; // null where all are
	}

	player(id) {
		return this.players.get(id);
	}

	position(id) {
		return this.player(id).element_type;
	}

	playerName(id) {
		return this.player(id)?.web_name ?? `player ${id}`;
	}

	clubName(id) {
		return this.clubs.get(id)?.name ?? `club ${id}`;
	}

	shortName(id) {
		return this.clubs.get(id).short_name.toUpperCase();
	}

	fixtureName(id) {
		const fixture = this.fixtureOf.get(id);
		return fixture ? `${this.clubName(fixture.team_h)} against ${this.clubName(fixture.team_a)}` : `match ${id}`;
	}

	deadline(gameweek) {
		return there(this.gameweeks[gameweek - 1]).deadline_time_epoch;
	}

	fixture(id) {
		return there(this.fixtureOf.get(id));
	}

	// Those in a gameweek, or in none where it is null.
	fixturesIn(gameweek) {
		return this.fixtures.filter((fixture) => fixture.event === gameweek);
	}

	// As choices.
	openGameweeks() {
		return this.gameweeks.filter((event) => event.id > this.current).map((event) => [event.id, event.name]);
	}

	clubChoices() {
		return [...this.clubs.values()].map((club) => [club.id, club.name]);
	}

	// Against whom a club plays in a gameweek: `BUR (H)`, two where it plays twice.
	opponents(club, gameweek) {
		const matches = this.fixturesIn(gameweek).filter((it) => it.team_h === club || it.team_a === club);
		const against = (it) => (it.team_h === club ? `${this.shortName(it.team_a)} (H)` : `${this.shortName(it.team_h)} (A)`);
		return matches.map(against).join(", ") || "no match";
	}
}
