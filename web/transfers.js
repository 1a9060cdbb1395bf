// Transfers, and the first squad: one command for all.

import { SORTS, browsing, filter, filtersOf } from "./browsing.js";
import { button, choice, confirmed, field, mainButton, make, named, quiet } from "./elements.js";
import { recall, remember } from "./kept.js";
import { usualOrder } from "./lineups.js";
import { heading, pitch, playerButton, playerLink, shirt, shortly, strip } from "./parts.js";
import { myTeam } from "./team.js";
import { CHIPS, POSITIONS, counted, money } from "./words.js";

const SWAPS = "draft swaps"; // pairs of who goes, and who comes or null
const SQUAD = "draft squad"; // the players of a first squad
const MADE = "made"; // how many of a gameweek were made in this window
const PLACES = [0, 2, 5, 5, 3]; // of a squad, by position
const BUDGET = 1000;
const COST = 4; // points for each transfer beyond the free ones
const FREE = ["wildcard", "free_hit"];

export async function drawTransfers(page) {
	const { season } = page;
	const me = await myTeam(page);
	if (page.isOperator || season.next === null) {
		return [heading("Transfers"), quiet(page.isOperator ? "The operator has no team." : "The season is over.")];
	}
	return me === null ? firstSquad(page, season) : transfers(page, season, me);
}

const sum = (numbers) => numbers.reduce((total, number) => total + number, 0);

// The list of players, with a button for each who may come.
function market(season, name, mayCome, come) {
	const figures = (content) => {
		const isShown = (sort) => sort === filtersOf(name).sort || sort === "now_cost";
		const one = ([sort, told]) => make(isShown(sort) ? "span" : "span.more", content(told, sort));
		return make("span.figures", Object.entries(SORTS).map(one));
	};
	const row = (player) => {
		const isGone = player.status === "u";
		const buy = { disabled: isGone || !mayCome(player), "aria-label": `Buy ${player.web_name}` };
		return make(
			"li",
			shirt(player.team, player.element_type === 1),
			make("span.who", playerLink(season, player.id), make("small", shortly(season, player), isGone && ", has left")),
			figures(({ text, shown }, sort) => [make("span.unseen", `${text} `), shown(player[sort])]),
			button(`buy-${player.id}`, "+", () => come(player), buy),
		);
	};
	return browsing(season, name, () => make("ul.list", make("li.small", figures(({ text }) => text))), row);
}

// Transfers of a squad that stands

async function transfers(page, season, me) {
	const held = me.players.map((it) => it.player);
	const swaps = (recall(SWAPS) ?? []).filter((swap) => held.includes(swap.out) && !held.includes(swap.in));
	const sells = new Map(me.players.map((it) => [it.player, it.sell]));
	const comers = swaps.map((swap) => swap.in).filter((player) => player !== null);
	const bank = me.bank + sum(swaps.map((swap) => sells.get(swap.out))) - sum(comers.map((player) => season.player(player).now_cost));
	const keep = (changed) => {
		remember(SWAPS, changed.length > 0 ? changed : null);
		page.redraw();
	};
	if (swaps.length === 0) {
		remember(SWAPS, null);
	}
	const view = { page, season, me, swaps, sells, bank, keep, made: await madeSoFar(page, me) };
	const open = (player) => swaps.find((swap) => swap.in === null && season.position(swap.out) === player.element_type);
	const mayCome = (player) => open(player) !== undefined && !comers.includes(player.id) && !held.includes(player.id);
	const come = (player) => keep(swaps.map((swap) => (swap === open(player) ? { ...swap, in: player.id } : swap)));
	return [
		heading(`Transfers for gameweek ${me.gameweek}`),
		quiet("Tap a player to sell him, then choose who comes."),
		strip([
			["Bank", money(bank)],
			["Free transfers", me.free ?? "all"],
			["These cost", -costOf(view)],
			["Chip", CHIPS[me.chip]?.name ?? "none"],
		]),
		make("div.beside", make("div", pitch(season, squadButtons(view)), confirmation(view)), market(season, "transfers", mayCome, come)),
	];
}

// How many were made in the gameweek, as far as is told: by their cost, who is new or what was made here.
async function madeSoFar(page, me) {
	if (me.free === null || me.cost > 0) {
		return me.free === null ? 0 : me.free + me.cost / COST;
	}
	const { chips, current } = await page.read(`/api/entry/${me.entry}/history/`);
	const hits = chips.filter((chip) => chip.name === "freehit").map((chip) => chip.event);
	const before = current.findLast((row) => !hits.includes(row.event));
	const { picks } = await page.read(`/api/entry/${me.entry}/event/${before.event}/picks/`);
	const isNew = (it) => picks.every((pick) => pick.element !== it.player);
	return Math.max(me.players.filter(isNew).length, recall(MADE)?.[me.gameweek] ?? 0);
}

function costOf({ me, made, swaps }) {
	const cost = (transfers) => COST * Math.max(transfers - me.free, 0);
	return me.free === null || FREE.includes(me.chip) ? 0 : cost(made + swaps.length) - cost(made);
}

// The squad as it would be. A tap sells who is held, keeps who goes, and takes back who comes.
function squadButtons({ season, me, swaps, sells, keep }) {
	const sell = (player) => () => {
		filter("transfers", { position: season.position(player), search: "" });
		keep([...swaps, { out: player, in: null }]);
	};
	const stay = (swap) => () => keep(swaps.filter((it) => it !== swap));
	const leave = (swap) => () => keep(swaps.map((it) => (it === swap ? { ...it, in: null } : it)));
	return me.players.map(({ player }) => {
		const swap = swaps.find((it) => it.out === player);
		if (swap?.in) {
			const price = money(season.player(swap.in).now_cost);
			const comes = { worth: price, badges: [["came", "↑"]], about: [`comes for ${price}`], state: "chosen", onclick: leave(swap) };
			return [swap.in, playerButton(season, swap.in, comes)];
		}
		const price = money(sells.get(player));
		const goes = swap && { badges: [["went", "↓"]], state: "not", onclick: stay(swap) };
		return [player, playerButton(season, player, { worth: price, about: [`sells for ${price}`], onclick: sell(player), ...goes })];
	});
}

function confirmation(view) {
	const { swaps, bank, keep } = view;
	const missing = swaps.filter((swap) => swap.in === null).length;
	if (swaps.length === 0) {
		return null;
	}
	return make(
		"div.tools",
		{ role: "group", "aria-label": "The transfers" },
		`${counted(swaps.length, "transfer")}${missing > 0 ? `, ${missing} to choose` : ""}. Bank ${money(bank)}.`,
		make(
			"div.buttons",
			mainButton("confirm", "Confirm", (busy) => agreed(view, busy), { disabled: missing > 0 }),
			button("undo", "Undo", () => keep([])),
		),
	);
}

async function agreed(view, busy) {
	const { page, season, me, swaps, sells, bank, made } = view;
	const cost = costOf(view);
	const line = (swap) =>
		make("li", named(season.playerName(swap.out)), ` ${money(sells.get(swap.out))} → `, named(season.playerName(swap.in)), ` ${money(season.player(swap.in).now_cost)}`);
	const isSure = await confirmed(
		counted(swaps.length, "transfer"),
		cost === 0 ? "Make them" : `Make them for ${cost} points`,
		make("ul", swaps.map(line)),
		make("p", `The bank is ${money(bank)} afterwards. They cost ${counted(cost, "point")}.`),
	);
	const telling = { gameweek: me.gameweek, drafts: [SWAPS], done: "The transfers are made." };
	if (isSure && (await page.send(busy, "/transfers", { swaps }, telling))) {
		remember(MADE, { [me.gameweek]: made + swaps.length });
		page.redraw();
	}
}

// The first squad

function firstSquad(page, season) {
	const squad = (recall(SQUAD) ?? []).filter((id) => season.player(id));
	const wanted = (position) => PLACES[position] - squad.filter((id) => season.position(id) === position).length;
	const left = BUDGET - sum(squad.map((id) => season.player(id).now_cost));
	const missing = 15 - squad.length;
	const keep = (changed) => {
		remember(SQUAD, changed);
		page.redraw();
	};
	const picked = squad.map((id) => {
		const price = money(season.player(id).now_cost);
		return [id, playerButton(season, id, { worth: price, about: [`costs ${price}`], onclick: () => keep(squad.filter((it) => it !== id)) })];
	});
	const empty = (position) => Array.from({ length: wanted(position) }, (_, place) => emptyPlace(page, position, place));
	const mayCome = (player) => wanted(player.element_type) > 0 && !squad.includes(player.id);
	const enter = (busy) => registered(page, season, squad, busy);
	return [
		heading("Pick your first squad"),
		quiet(`Fifteen players for 100.0 million, at most three of a club. You play from gameweek ${season.next} on.`),
		make(
			"div.beside",
			make(
				"div",
				pitch(season, picked, empty),
				make("div.tools", `${missing} to pick, ${money(left)} left. `, mainButton("confirm", "Enter this squad", enter, { disabled: missing > 0 })),
			),
			market(season, "squad", mayCome, (player) => keep([...squad, player.id])),
		),
	];
}

// A place that is open: a tap shows the players for it.
function emptyPlace(page, position, place) {
	const look = async () => {
		filter("squad", { position });
		await page.redraw();
		document.getElementById("list-squad").scrollIntoView({ block: "center" });
	};
	const face = [shirt(0), make("span.name", POSITIONS[position]), make("span.worth", "choose")];
	return button(`empty-${position}-${place}`, face, look, { kind: ".player.not" });
}

// Asks for the armbands, and enters the squad in the slots of 4-4-2.
async function registered(page, season, squad, busy) {
	const players = usualOrder(squad, season);
	const starters = players.slice(0, 11).map((id) => [id, season.playerName(id)]);
	const dearest = [...starters].sort(([one], [other]) => season.player(other).now_cost - season.player(one).now_cost);
	const captain = choice("squad-captain", starters, dearest[0][0]);
	const vice = choice("squad-vice", starters, dearest[1][0]);
	const isSure = await confirmed(
		"Who leads the team?",
		"Enter this squad",
		make("p", "The team begins in 4-4-2. All of it can be changed until the deadline."),
		field("Captain, who counts twice", captain),
		field("Vice-captain, who stands in for him", vice),
	);
	const members = { players, captain: Number(captain.value), vice: Number(vice.value) };
	if (isSure) {
		await page.send(busy, "/squad", members, { drafts: [SQUAD], done: "Your squad is entered.", next: () => "#/team" });
	}
}
