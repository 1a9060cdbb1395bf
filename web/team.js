// My team of the next gameweek: lineup, captain and vice-captain, chips.

import { button, confirmed, link, mainButton, make, named, quiet } from "./elements.js";
import { Refusal } from "./host.js";
import { recall, remember } from "./kept.js";
import { canChange, isStarter, withChange, withLeader } from "./lineups.js";
import { bench, heading, noTeam, pitch, playerButton, strip } from "./parts.js";
import { isUnregistered } from "./say.js";
import { CHIPS, money } from "./words.js";

const DRAFT = "draft lineup";
let chosen = null; // the player who was tapped

// The caller's team as /me has it; null where there is none.
export async function myTeam(page) {
	try {
		return page.isOperator ? null : await page.read("/me");
	} catch (fault) {
		if (fault instanceof Refusal && isUnregistered(fault)) {
			return null;
		}
		throw fault;
	}
}

export async function drawTeam(page) {
	const { season } = page;
	const me = await myTeam(page);
	if (me === null) {
		return noTeam("My team");
	}
	const draft = draftOf(me);
	const view = { page, season, me, lineup: draft ?? lineupOf(me), isDraft: draft !== null };
	if (me.gameweek === null) {
		return [heading("My team, at the end of the season"), figuresOf(me), standing(view)];
	}
	return [
		heading(`My team for gameweek ${me.gameweek}`),
		figuresOf(me),
		make("div.beside", make("div", standing(view), tools(view)), await chips(view)),
	];
}

function lineupOf({ players, captain, vice }) {
	return { players: players.map((it) => it.player), captain, vice };
}

// What was moved and is not on the host yet. It goes where the squad is another now.
function draftOf(me) {
	const draft = recall(DRAFT);
	const stands = lineupOf(me);
	const isOther = JSON.stringify(draft) !== JSON.stringify(stands);
	if (draft !== null && isOther && stands.players.every((player) => draft.players.includes(player))) {
		return draft;
	}
	remember(DRAFT, null);
	return null;
}

function figuresOf(me) {
	return strip([
		["Total points", me.total],
		["Bank", money(me.bank)],
		["Free transfers", me.free ?? "all"],
		["Transfers cost", -me.cost],
		["Chip", CHIPS[me.chip]?.name ?? "none"],
	]);
}

// The pitch

function standing(view) {
	const { season, lineup } = view;
	const buttons = lineup.players.map((id, place) => [id, slotButton(view, id, place + 1)]);
	return [
		pitch(season, buttons.slice(0, 11)),
		bench("Bench: who comes in first stands first", new Map(buttons.slice(11))),
	];
}

function slotButton(view, id, slot) {
	const { season, me, lineup } = view;
	const against = season.opponents(season.player(id).team, me.gameweek ?? season.current);
	const leads = id === lineup.captain ? ["C", "captain"] : id === lineup.vice ? ["V", "vice-captain"] : null;
	return playerButton(season, id, {
		worth: against,
		badges: leads ? [["leader", leads[0]]] : [],
		about: [`against ${against}`, isStarter(slot) ? "in the eleven" : "on the bench", ...(leads ? [leads[1]] : [])],
		state: stateOf(view, id, slot),
		onclick: () => me.gameweek !== null && tapped(view, id, slot),
	});
}

function stateOf({ season, lineup }, id, slot) {
	const from = lineup.players.indexOf(chosen) + 1;
	if (from === 0) {
		return undefined;
	}
	return id === chosen ? "chosen" : canChange(lineup.players, from, slot, season) ? "may" : "not";
}

// The first tap chooses a player, the second changes him with another, if legal.
function tapped(view, id, slot) {
	const { page, lineup } = view;
	if (stateOf(view, id, slot) === "may") {
		keep(page, withChange(lineup, lineup.players.indexOf(chosen) + 1, slot));
	} else {
		chosen = id === chosen ? null : id;
		page.redraw();
	}
}

function keep(page, draft) {
	remember(DRAFT, draft);
	chosen = null;
	page.redraw();
}

function tools(view) {
	const { page, season, lineup, me, isDraft } = view;
	const slot = lineup.players.indexOf(chosen) + 1;
	const leads = isStarter(slot) && [
		button("captain", "Make captain", () => keep(page, withLeader(lineup, "captain", chosen))),
		button("vice", "Make vice-captain", () => keep(page, withLeader(lineup, "vice", chosen))),
	];
	const about = slot > 0 && [
		make("div", named(season.playerName(chosen)), " can change with those who are marked."),
		make("div.buttons", leads, link(`player/${chosen}`, "His matches")),
	];
	const save = (busy) => page.send(busy, "/lineup", lineup, { gameweek: me.gameweek, drafts: [DRAFT], done: "Your team is saved." });
	const saving = isDraft && make("div.buttons", mainButton("save", "Save", save), button("undo", "Undo", () => keep(page, null)), "Not saved yet");
	if (!about && !saving) {
		return quiet("Tap a player to change him, or to give him the armband.");
	}
	return make("div.tools", { role: "group", "aria-label": "The lineup" }, about, saving);
}

// Chips

async function chips({ page, me }) {
	const [{ chips: played }, { split }] = await Promise.all([page.read(`/api/entry/${me.entry}/history/`), page.read("/season")]);
	const usedIn = (chip) => {
		const isOfThisHalf = (event) => chip !== "wildcard" || event <= split === me.gameweek <= split;
		return played.find(({ name, event }) => name === CHIPS[chip].view && isOfThisHalf(event))?.event;
	};
	const cards = Object.keys(CHIPS).map((chip) => chipCard(page, me, chip, usedIn(chip)));
	return make("section", make("h2", "Chips"), make("div.cards", cards));
}

function chipCard(page, me, chip, used) {
	const { name, does } = CHIPS[chip];
	const isActive = me.chip === chip;
	const canGoBack = chip === "bench_boost" || chip === "triple_captain";
	const play = async (busy) => {
		if (await confirmed(`${name} in gameweek ${me.gameweek}?`, `Play ${name.toLowerCase()}`, make("p", does))) {
			await page.send(busy, "/chip", { chip }, { gameweek: me.gameweek, done: `${name} is played in gameweek ${me.gameweek}.` });
		}
	};
	const cancel = (busy) => page.send(busy, "/chip/cancel", {}, { gameweek: me.gameweek, done: `${name} is taken back.` });
	const state = isActive ? "Played in this gameweek." : used && `Played in gameweek ${used}.`;
	return make(
		"div.card",
		make("h3", name),
		make("p.small", does),
		state && make("p", make("strong", state)),
		!isActive && !used && me.chip === "none" && button(`play-${chip}`, `Play ${name.toLowerCase()}`, play),
		isActive && canGoBack && button(`cancel-${chip}`, "Take it back", cancel),
	);
}
