// Keys to hand out: made here, sent to the host alone, shown as cards to print.

import { randomLetters } from "./chance.js";
import { button, field, form, make, named, nameInput, quiet } from "./elements.js";
import { recall, remember } from "./kept.js";
import { heading, table } from "./parts.js";
import { there } from "./season.js";
import { whole } from "./words.js";

const CARDS = "cards"; // those that were made in this window, until they are put away

// Keys for new teams, or another key for a team, whose old one is lost or known to others.
export async function drawKeys(page, entry) {
	const entries = await page.read("/api/entries/");
	const team = entry && there(entries.find((it) => it.entry === entry));
	const cards = recall(CARDS) ?? [];
	const name = nameInput("team-name", { value: team?.name });
	const another = ({ entry, name }) => make("a", { href: `#/keys/${entry}`, "aria-label": `New key for ${name}` }, "New");
	const row = (it) => [named(it.name), whole(it.entry), whole(it.started_event), another(it)];
	return [
		heading(team ? ["A new key for ", named(team.name)] : "Keys"),
		team && make("p", "The old key lets nobody in any more. The team keeps all that it has."),
		form("make-key", team ? "Make a new key" : "Make a key", (busy) => makeKey(page, busy, name.value, team), field("Name of the team", name)),
		cards.length > 0 && cardsOf(page, cards),
		entries.length > 0 ? table("The teams, with their first gameweek", ["Team", "Number#", "From#", "Key#"], entries.map(row)) : quiet("No team yet. Make a key for each manager."),
	];
}

// The card is kept before the command goes, so that no lost answer loses the key.
async function makeKey(page, busy, name, team) {
	const card = { name, key: randomLetters(16) };
	const before = recall(CARDS) ?? [];
	remember(CARDS, [card, ...before]);
	const telling = { done: "The key is made. Hand it to the manager.", next: team && (() => "#/keys") };
	const body = await page.send(busy, team ? `/keys/${team.entry}` : "/keys", card, telling);
	const entry = body && (team ?? body).entry;
	remember(CARDS, body ? [{ ...card, entry }, ...before.filter((it) => it.entry !== entry)] : before);
	await page.redraw();
}

function cardsOf(page, cards) {
	const putAway = () => {
		remember(CARDS, null);
		page.redraw();
	};
	const address = `${location.origin}${location.pathname}`;
	const card = ({ name, key }) =>
		make("div.card", make("h3", named(name)), make("p.key", key), quiet(`Sign in at ${address} with this key. Whoever has it plays for this team.`));
	return make(
		"section",
		make("h2", "Cards"),
		quiet("They are shown in this window alone: print them, or write them down."),
		make("div.cards", cards.map(card)),
		make("div.buttons", button("print", "Print", () => print()), button("put-away", "Put them away", putAway)),
	);
}
