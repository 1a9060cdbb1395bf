// Lineups by slot: 1 the goalkeeper, 2 to 11 the other starters, 12 the goalkeeper on the bench, 13 to 15 the rest.
// The host judges again; this says which players can be tapped.

const STARTERS = 11;
const KEEPER = 1;
const DEFENDER = 2;
const FORWARD = 4;

export const isStarter = (slot) => slot <= STARTERS;

function changed(players, one, other) {
	const order = [...players];
	[order[one - 1], order[other - 1]] = [order[other - 1], order[one - 1]];
	return order;
}

// Whether the players, given by their positions, may stand so.
function isLegal(positions) {
	const outfield = positions.slice(1, STARTERS);
	const count = (position) => outfield.filter((it) => it === position).length;
	const hasKeepers = positions[0] === KEEPER && positions[STARTERS] === KEEPER;
	return hasKeepers && count(DEFENDER) >= 3 && count(FORWARD) >= 1;
}

// Whether two slots can be changed: one is on the bench, and the eleven stays legal.
export function canChange(players, one, other, season) {
	const isOnBench = !isStarter(one) || !isStarter(other);
	return one !== other && isOnBench && isLegal(changed(players, one, other).map((id) => season.position(id)));
}

// A lineup with two slots changed. Who comes for a leader wears his armband.
export function withChange({ players, captain, vice }, one, other) {
	const order = changed(players, one, other);
	const starters = order.slice(0, STARTERS);
	const out = players[Math.min(one, other) - 1];
	const into = players[Math.max(one, other) - 1];
	const leader = (player) => (starters.includes(player) ? player : player === out ? into : player);
	return { players: order, captain: leader(captain), vice: leader(vice) };
}

// A lineup with another captain or vice-captain; if he is the other one, they change.
export function withLeader(lineup, armband, player) {
	const other = armband === "captain" ? "vice" : "captain";
	return { ...lineup, [other]: lineup[other] === player ? lineup[armband] : lineup[other], [armband]: player };
}

// Fifteen players in the slots of 4-4-2, those of each position as they come.
export function usualOrder(players, season) {
	const [keepers, defenders, midfielders, forwards] = [1, 2, 3, 4].map((it) => players.filter((id) => season.position(id) === it));
	const starters = [keepers[0], ...defenders.slice(0, 4), ...midfielders.slice(0, 4), ...forwards.slice(0, 2)];
	return [...starters, keepers[1], ...defenders.slice(4), ...midfielders.slice(4), ...forwards.slice(2)];
}
