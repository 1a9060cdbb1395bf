// The sheet of a match: checked as it is typed, what changed marked, sent whole.

import { button, check, folded, mainButton, make, named, scrolling } from "./elements.js";
import { FIGURES, GROUPS, wrongFigure } from "./figures.js";
import { recall, remember } from "./kept.js";
import { heading, shortly } from "./parts.js";

const PLACES = Object.values(GROUPS).map((group) => Object.keys(group).map(Number));
const COLUMNS = PLACES.flat();
const STARTS = PLACES.map(([first]) => first);
const NOTHING = FIGURES.map(() => 0);
const isEmpty = (line) => line.every((figure) => figure === 0);

export async function drawSheet(page, id) {
	const { season } = page;
	const told = await page.read(`/api/fixtures/${id}/sheet/`);
	const sheet = new Sheet(page, season, id, told, recall(`draft sheet ${id}`));
	return [
		heading("Sheet of a match"),
		make("p", named(season.fixtureName(id)), ". Rows and columns can be pasted from a spreadsheet."),
		sheet.table(),
		sheet.others(),
		sheet.tools(),
	];
}

class Sheet {
	constructor(page, season, id, told, draft) {
		Object.assign(this, { page, season, id, name: `draft sheet ${id}` });
		this.match = season.fixture(id);
		this.told = new Map(told.lines.map((line) => [line.player, line.figures]));
		this.wasFinished = told.finished;
		this.lines = draft ? new Map(draft.lines) : new Map(this.told);
		this.isFinished = draft?.isFinished ?? told.finished;
		this.inputs = new Map(); // by player, in the order of the columns
		this.state = make("span", { role: "status" });
		this.save = mainButton("save", "Save the sheet", (busy) => this.send(busy));
	}

	before(player) {
		return this.told.get(player) ?? NOTHING;
	}

	isChanged() {
		const isOther = (player) => String(this.lines.get(player) ?? NOTHING) !== String(this.before(player));
		return this.isFinished !== this.wasFinished || [...this.lines.keys(), ...this.told.keys()].some(isOther);
	}

	wrong() {
		return [...this.lines.values()].flatMap((line) => COLUMNS.map((place) => wrongFigure(line, place))).find(Boolean);
	}

	keep() {
		const isKept = this.isChanged() || this.lines.size > this.told.size;
		remember(this.name, isKept ? { lines: [...this.lines], isFinished: this.isFinished } : null);
		this.showState();
	}

	showState() {
		this.save.disabled = this.wrong() !== undefined || !this.isChanged();
		this.state.textContent = this.wrong() ?? (this.isChanged() ? "Not saved yet" : "");
	}

	// Those with a row: who has a figure, and who was added here.
	shown() {
		return this.order([...this.lines.keys()].filter((player) => !this.told.has(player) || !isEmpty(this.lines.get(player))));
	}

	// Home first, by position.
	order(players) {
		const place = (id) => {
			const { team, element_type: position } = this.season.player(id);
			return (team === this.match.team_h ? 0 : 10) + position;
		};
		return players.sort((one, other) => place(one) - place(other) || one - other);
	}

	// The table

	table() {
		const group = (title, at) => make("th.group", { scope: "colgroup", colspan: PLACES[at].length }, title);
		const column = (place) => make(`th${this.edge(place)}`, { scope: "col" }, make("span", FIGURES[place]));
		const head = make("thead", make("tr", make("td"), Object.keys(GROUPS).map(group)), make("tr", make("th", { scope: "col" }, "Player"), COLUMNS.map(column)));
		return make(
			"div.scroll.sheet",
			{ id: "sheet", ...scrolling("The figures"), onpaste: (event) => this.pasted(event) },
			make("table", head, make("tbody", this.shown().map((player) => this.row(player)))),
		);
	}

	edge(place) {
		return STARTS.includes(place) ? ".group" : "";
	}

	row(player) {
		const about = this.season.player(player);
		const inputs = COLUMNS.map((place) => this.input(player, about.web_name, place));
		this.inputs.set(player, inputs);
		this.mark(player);
		const head = make("th", { scope: "row" }, named(about.web_name), make("div", shortly(this.season, about)));
		return make("tr", head, inputs.map((entry, at) => make(`td${this.edge(COLUMNS[at])}`, entry)));
	}

	input(player, name, place) {
		const entry = make("input", {
			id: `figure-${player}-${place}`,
			inputmode: "numeric",
			autocomplete: "off",
			value: this.lines.get(player)[place],
			"aria-label": `${name}, ${FIGURES[place]}`,
			onfocus: () => entry.select(),
			oninput: () => this.typed(player, place, entry.value),
		});
		return entry;
	}

	typed(player, place, text) {
		const figure = text.trim() === "" ? 0 : Number(text);
		this.lines.set(player, this.lines.get(player).with(place, figure));
		this.mark(player);
		this.keep();
	}

	// Shows which figures of a player are wrong, and which are others than the host has.
	mark(player) {
		const line = this.lines.get(player);
		this.inputs.get(player).forEach((entry, at) => {
			const wrong = wrongFigure(line, COLUMNS[at]);
			entry.classList.toggle("changed", line[COLUMNS[at]] !== this.before(player)[COLUMNS[at]]);
			entry.setAttribute("aria-invalid", String(wrong !== null));
			entry.title = wrong ?? "";
		});
	}

	// Rows and columns of a spreadsheet go into the cells from the one where they are pasted.
	pasted(event) {
		const rows = event.clipboardData.getData("text").trimEnd().split("\n").map((row) => row.split("\t"));
		if (rows.flat().length === 1) {
			return;
		}
		event.preventDefault();
		const [, player, place] = event.target.id.split("-").map(Number);
		const below = this.shown().slice(this.shown().indexOf(player));
		const behind = COLUMNS.slice(COLUMNS.indexOf(place));
		rows.slice(0, below.length).forEach((row, down) => row.slice(0, behind.length).forEach((text, across) => this.put(below[down], behind[across], text)));
	}

	put(player, place, text) {
		this.inputs.get(player)[COLUMNS.indexOf(place)].value = text.trim();
		this.typed(player, place, text);
	}

	// Who has no row, and saving

	others() {
		const { team_h: home, team_a: away } = this.match;
		const shown = this.shown();
		const rest = this.season.all.filter(({ id, team }) => (team === home || team === away) && !shown.includes(id)).map(({ id }) => id);
		const add = (player) => button(`add-${player}`, named(this.season.playerName(player)), () => this.add(player));
		return folded("others", `Players without a figure (${rest.length})`, make("div.choices", this.order(rest).map(add)));
	}

	add(player) {
		this.lines.set(player, this.before(player));
		this.keep();
		this.page.redraw();
	}

	tools() {
		const finish = ({ target }) => {
			this.isFinished = target.checked;
			this.keep();
		};
		const undo = () => {
			remember(this.name, null);
			this.page.redraw();
		};
		this.showState();
		return make(
			"div.tools",
			check("finished", "The match is finished: bonus is given", this.isFinished, { onchange: finish }),
			make("div.buttons", this.save, button("undo", "Undo", undo), this.state),
		);
	}

	send(busy) {
		const lines = [...this.lines].filter(([player, line]) => !isEmpty(line) || this.told.has(player));
		const members = { lines: lines.map(([player, figures]) => ({ player, figures })), finished: this.isFinished };
		return this.page.send(busy, `/fixtures/${this.id}/sheet`, members, { drafts: [this.name], done: "The sheet is saved." });
	}
}
