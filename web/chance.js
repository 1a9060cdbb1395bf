// What is drawn by lot, by the browser's own random source.

const LETTERS = "abcdefghjkmnpqrstuvwxyz23456789"; // without those that look alike
const RANGE = 2 ** 32;

// A whole number below another one, each as likely as the others.
export function randomBelow(bound) {
	const most = RANGE - (RANGE % bound);
	for (;;) {
		const [drawn] = crypto.getRandomValues(new Uint32Array(1));
		if (drawn < most) {
			return drawn % bound;
		}
	}
}

// A list in an order by lot.
export function shuffled(list) {
	const drawn = [...list];
	for (let place = drawn.length - 1; place > 0; place -= 1) {
		const other = randomBelow(place + 1);
		[drawn[place], drawn[other]] = [drawn[other], drawn[place]];
	}
	return drawn;
}

// So many small letters and digits.
export function randomLetters(length) {
	return Array.from({ length }, () => LETTERS[randomBelow(LETTERS.length)]).join("");
}
