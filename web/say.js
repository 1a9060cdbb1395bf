// Each refusal of the host as a sentence, with what it names in braces; {team} is the caller's. No other place knows their
// numbers; a test holds them against docs/HTTP.md.

import { FIGURES } from "./figures.js";
import { money } from "./words.js";

const REFUSALS = {
	1: "The host is behind what this page knew. Look at what stands now, and save again.",
	2: "This was changed on another device. Look at it, and save again.",
	3: "This was changed on another device. Look at it, and save again.",
	4: "There is no season yet. The operator loads it.",
	5: "There is a season already.",
	6: "The season is over: every gameweek is locked.",
	7: "The deadline of gameweek {gameweek} has to stand between the one before and the next.",
	8: "Gameweek {gameweek} is locked, or that deadline has passed already.",
	9: "{fixture} would kick off less than 90 minutes after the deadline.",
	10: "{fixture} has figures or is finished, so it can only go to a locked gameweek.",
	11: "{fixture} stands in no locked gameweek, so there is nothing to hand in yet.",
	12: "{player} is there already.",
	13: "A price goes from 3.0 to 20.0.",
	14: "{player} has left the league, and can't be bought.",
	15: "A squad has two goalkeepers, five defenders, five midfielders and three forwards.",
	16: "{player} stands twice in the team.",
	17: "Over the limit: {team} would have more than three players of {club}.",
	18: "{team} is {short_by} short of the money for that.",
	19: "A goalkeeper stands first among the starters and first on the bench.",
	20: "The eleven needs at least three defenders and a forward.",
	21: "Captain and vice-captain are two different players of the eleven.",
	22: "{team} doesn't have {player}.",
	23: "{team} has {player} already.",
	24: "{player} plays in another position than the one who goes.",
	25: "A gameweek has at most 20 transfers, and 1,000 where they are free.",
	26: "This chip was played in gameweek {gameweek}.",
	27: "A chip is played in this gameweek already.",
	28: "In your first gameweek all transfers are free: no wildcard, no free hit.",
	29: "A wildcard and a free hit can't be taken back.",
	30: "No chip is played in this gameweek.",
	31: "{team} has its squad already.",
	32: "{team} has no squad yet. Pick fifteen players first.",
	33: "A season has at most 2,048 teams.",
	34: "This league is drawn: nobody can join any more.",
	35: "That is not the code of this league.",
	36: "{team} is in this league already.",
	37: "A team is in at most 20 leagues, and a season has at most 512.",
	38: "This league is full.",
	39: "Gameweek {gameweek} is locked, so nothing can start in it.",
	40: "That can't be drawn: a league wants all its members, two or more; a cup wants registered teams, and a gameweek for each round.",
	41: "{field} is above what it can be.",
	42: "{player} has two lines in the sheet.",
	43: "A match has at most 64 lines.",
	44: "This key is in use already.",
	45: "Gameweek {gameweek} can have at most 20 matches.",
	46: "A season has at most 1,200 players.",
	47: "{fixture} is there already.",
	48: "A season has at most 380 matches.",
	49: "A season has at most 32 cups.",
	65: "{player} is or was in a team, or has figures, so his position stays.",
	66: "{fixture} has figures or is finished, so its clubs stay.",
};

const STATUSES = {
	400: "The host could not read that ({field}). Please tell who runs it.",
	401: "This key is not known here. Look at the card that you were given.",
	403: "That is not for this key.",
	404: "What that names is not there.",
	500: "The host's store is damaged. Please tell who runs it.",
};

// What a refusal names, in words.
function wordsOf(body, season, team) {
	return {
		...body,
		team,
		player: season?.playerName(body.player) ?? "A player",
		club: season?.clubName(body.club) ?? "a club",
		fixture: season?.fixtureName(body.fixture) ?? "A match",
		field: FIGURES[body.field - 1] ?? body.field,
		short_by: money(body.short_by),
	};
}

// A refusal as a sentence, with the names of whom it is about.
export function sentence({ status, body }, season = null, team = "Your team") {
	const text = (status === 409 ? REFUSALS[body.rule] : STATUSES[status]) ?? `The host answered ${status}.`;
	const words = wordsOf(body, season, team);
	return text.replace(/\{(\w+)\}/g, (_, name) => words[name]);
}

// Whether a refusal says that the caller has no squad.
export const isUnregistered = (refusal) => refusal.status === 409 && refusal.body.rule === 32;
