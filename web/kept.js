// What is kept in this window, under the key of who is signed in. It outlives a reload.

let owner = "";

export function ownBy(key) {
	owner = key ?? "";
}

function nameOf(name) {
	return `kowhirupe ${owner} ${name}`;
}

// Whether something was begun here that is not on the host.
export function hasDrafts() {
	return Object.keys(sessionStorage).some((name) => name.startsWith(nameOf("draft")));
}

export function recall(name) {
	return JSON.parse(sessionStorage.getItem(nameOf(name)));
}

export function remember(name, value) {
	if (value === null) {
		sessionStorage.removeItem(nameOf(name));
	} else {
		sessionStorage.setItem(nameOf(name), JSON.stringify(value));
	}
}
