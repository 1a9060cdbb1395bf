#!/usr/bin/env python3
"""What the requests of a week cost in a season with managers, leagues and cups, by kind, and in the mean of the whole mix.

usage: mixed.py PROGRAM [ENTRIES [GAMEWEEKS]]
The season is that of cells.py at a middle size: ENTRIES (500, and 64 at least) that did something in each of 11 of GAMEWEEKS
(38, and 13 at least), of which 10 are locked, fixtures of 32 lines, a classic league of all entries, head-to-head leagues of at
most 64 and 20 small classic leagues with each entry in one of either, and 4 cups from gameweek 4 on. `pipe` takes it into a
store. Then it opens the store and takes all requests of one kind of the mix, under valgrind's callgrind: what one takes is the
difference to an opening without them, by how many there are. Beside it stands what of that the store takes to commit, which a
program without a store does not do. At the end all kinds are asked as one mix, in an order that is the same each time. An
answer with another status than the wanted one ends the script.
"""
import random
import sys
import tempfile
from pathlib import Path

import cells
from leagues import OPERATOR

LOCKED = 10
SMALL = 20  # so many small leagues
COMMIT = "season_keeping::host::Host::commit"


class Stream(cells.Stream):
    """The season, and what is asked behind it."""

    def make(self):
        self.sent = {}
        self.begin()
        everyone = list(range(1, self.entries + 1))
        self.heads = -(-self.entries // 64)
        self.leagues([everyone])
        self.leagues([everyone[at :: self.heads] for at in range(self.heads)], "head")
        self.leagues([everyone[at::SMALL] for at in range(SMALL)])
        for _ in range(4):
            self.cup(1 << min(self.entries.bit_length() - 1, 10), start=4)
        self.play(LOCKED + 1)

    def post(self, target, key, members=""):
        super().post(target, key, members)
        self.sent[key] = self.requests[-1]

    def anyone(self):
        return self.random.randrange(self.entries) + 1

    def see(self, target):
        self.ask("GET", target, self.key(self.anyone()))

    def chip(self, entry):
        self.post("/chip", self.key(entry), '"chip":"triple_captain"')

    def cancel(self, entry):
        self.chip(entry)
        self.post("/chip/cancel", self.key(entry))

    def repeat(self):
        key = self.key(self.anyone())
        self.requests.append(self.sent[key])
        self.moments.append(f"{self.now}\n")

    def refusal(self):
        """A transfer of one who is there already."""
        entry = self.anyone()
        key, (out, there) = self.key(entry), self.squads[entry][:2]
        self.refused.add(len(self.requests))
        self.ask("POST", "/transfers", key, f'{{"number":{self.numbers[key] + 1},"swaps":[{{"out":{out},"in":{there}}}]}}')

    def line(self, f):
        player, goals = self.random.choice(self.in_fixture(f)), self.random.randrange(2)
        self.post(f"/fixtures/{f + 1}/line", OPERATOR, f'"player":{player},"figures":{self.figures(goals)}')

    def move(self, f, gameweek):
        self.post(f"/fixtures/{f + 1}/move", OPERATOR, f'"gameweek":{gameweek},"kickoff":{100_000 * gameweek + 5400}')

    def lock(self):
        self.now = 100_000 * (LOCKED + 1)
        self.see("/season")


def late(n):
    """A fixture of the last locked gameweek."""
    return 10 * (LOCKED - 1) + n % 10


KINDS = {  # how many are in the mix, and what the n-th of them is
    "/me": (400, lambda it, n: it.see("/me")),
    "an entry's gameweek": (300, lambda it, n: it.see(f"/entries/{it.anyone()}/gameweeks/{n % LOCKED + 1}")),
    "a player": (100, lambda it, n: it.see(f"/players/{n * 7 % cells.PLAYERS + 1}")),
    "a player's gameweek": (200, lambda it, n: it.see(f"/players/{n * 7 % cells.PLAYERS + 1}/gameweeks/{n % LOCKED + 1}")),
    "a fixture with its lines": (200, lambda it, n: it.see(f"/fixtures/{n % (10 * LOCKED) + 1}")),
    "the season": (40, lambda it, n: it.see("/season")),
    "a classic table of all": (20, lambda it, n: it.see("/leagues/1")),
    "a small classic table": (150, lambda it, n: it.see(f"/leagues/{2 + it.heads + n % SMALL}")),
    "a head-to-head table": (100, lambda it, n: it.see(f"/leagues/{2 + n % it.heads}")),
    "a cup": (40, lambda it, n: it.see(f"/cups/{n % 4 + 1}")),
    "a lineup": (150, lambda it, n: it.lineup(it.anyone())),
    "a transfer": (120, lambda it, n: it.transfer(it.anyone())),
    "a chip": (20, lambda it, n: it.chip(n + 1)),
    "a chip, its cancelling": (20, lambda it, n: it.cancel(it.entries - n)),
    "joining a small league": (20, lambda it, n: it.join(2 + it.heads + (n + 1) % SMALL, n + 1)),
    "the last command again": (20, lambda it, n: it.repeat()),
    "a transfer, refused": (40, lambda it, n: it.refusal()),
    "a price": (100, lambda it, n: it.post("/prices", OPERATOR, f'"player":{n * 7 % cells.PLAYERS + 1},"price":{41 + n % 20}')),
    "a line": (40, lambda it, n: it.line(late(n))),
    "a sheet": (10, lambda it, n: it.sheet(late(n))),
    "the finished mark": (10, lambda it, n: it.post(f"/fixtures/{late(n // 2) + 1}/finished", OPERATOR, f'"finished":{("false", "true")[n % 2]}')),
    "a fixture to come, moved": (5, lambda it, n: it.move(10 * (it.gameweeks - 2) + n, it.gameweeks)),
    "a fixture with lines, moved": (1, lambda it, n: it.move(late(0) - 10, LOCKED)),
    "/season, locking a gameweek": (1, lambda it, n: it.lock()),
}


def main():
    program = str(Path(sys.argv[1]).resolve())
    entries, gameweeks = (list(map(int, sys.argv[2:])) + [500, 38][len(sys.argv) - 2 :])
    mix = [(ask, n) for times, ask in KINDS.values() for n in range(times)]
    random.Random(7).shuffle(mix)
    parts = {kind: [(ask, n) for n in range(times)] for kind, (times, ask) in KINDS.items()} | {"the whole mix": mix}
    with tempfile.TemporaryDirectory() as folder:
        season = cells.Season(program, folder, Stream(gameweeks, entries))
        opened = season.counted(season.later())
        print(f"a store of {season.size / 2**20:.1f} MiB, opened by {opened.total():,} instructions")
        print(f"{'request':28}{'how many':>10}{'instructions':>14}{'of the store':>14}", flush=True)
        for kind, asked in parts.items():
            stream = season.later()
            for ask, n in asked:
                ask(stream, n)
            profile, many = season.counted(stream), len(stream.requests)
            stored = profile.of(COMMIT) - opened.of(COMMIT)
            print(f"{kind:28}{many:10}{(profile.total() - opened.total()) / many:14,.0f}{stored / many:14,.0f}", flush=True)
        if not stored:
            sys.exit(f"the program has no function {COMMIT}")


if __name__ == "__main__":
    main()
