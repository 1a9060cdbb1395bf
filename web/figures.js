// The 28 figures of a line, by their places in it, in the groups of a sheet.

export const GROUPS = {
	Match: { 0: "Minutes", 3: "Goals conceded", 9: "Own goals" },
	Attack: { 1: "Goals", 2: "Assists", 6: "Penalties missed", 16: "Dribbles", 17: "Winning goal" },
	Keeping: { 4: "Saves", 5: "Penalties saved" },
	Cards: { 7: "Yellow card", 8: "Red card" },
	Passes: { 10: "Crosses", 11: "Big chances created", 14: "Key passes", 18: "Passes attempted", 19: "Passes completed" },
	Defence: { 12: "Clearances, blocks, interceptions", 13: "Recoveries", 15: "Net tackles" },
	Faults: {
		20: "Penalties conceded",
		21: "Big chances missed",
		22: "Errors to a goal",
		23: "Errors to an attempt",
		24: "Times tackled",
		25: "Fouls",
		26: "Offsides",
		27: "Shots off target",
	},
};
const MOST = { 0: 120, 7: 1, 8: 1, 17: 1, 18: 400, 19: 400 }; // and 99 of the others

export const FIGURES = Object.assign([], ...Object.values(GROUPS));

export const GOALS = 1;
export const OWN_GOALS = 9;
export const WINNING_GOAL = 17;
const ATTEMPTED = 18;
const COMPLETED = 19;

// What is wrong with the figure at a place of a line, or null.
export function wrongFigure(line, place) {
	const [name, figure, most] = [FIGURES[place], line[place], MOST[place] ?? 99];
	if (!Number.isInteger(figure) || figure < 0) {
		return `${name} is a whole number.`;
	}
	if (place === COMPLETED && figure > line[ATTEMPTED]) {
		return "More passes are completed than attempted.";
	}
	return figure > most ? `${name} goes up to ${most}.` : null;
}
