#!/usr/bin/env python3
"""What a correction costs beside making all cells of a season, what a league's table costs beside writing its rows, and what
cells and index take of the memory.

usage: cells.py PROGRAM [ENTRIES [GAMEWEEKS]]
The season is at its limits: 20 clubs, 700 players, GAMEWEEKS (38, and 10 at least) that are all locked, each with 10 fixtures of 32 lines,
ENTRIES (2048, and 1024 at least) with a squad of the first gameweek, 512 leagues, each entry in 20 of them, and 32 cups of
1,024 entries. `pipe` takes it into a store. Then it opens the store, which makes all cells anew, and takes some requests, under
valgrind's callgrind: of all cells the function that makes them, of a request the difference to an opening without it, with its
commit. Corrections give one goal more to players whom few entries hold, and to players whom many do. The table is that of a
classic league of all entries, beside the function that writes its body. The peak of the memory is that of an opening.
"""
import copy
import os
import shutil
import subprocess
import sys
import tempfile
from pathlib import Path

import leagues
import managers

PLAYERS = 700
LINES = 32
CORRECTIONS = 20
SHARES = "GGGG" + "D" * 11 + "M" * 13 + "F" * 7  # of a club's 35 players


def position(player):
    return SHARES[(player - 1) // 20]


class Stream(leagues.Stream):
    """The largest season."""

    positions = [position(p) for p in range(1, PLAYERS + 1)]

    def __init__(self, gameweeks, entries):
        super().__init__(gameweeks, entries, 0, None)

    def make(self):
        self.begin()
        self.everything()
        self.now = 100_000 * self.gameweeks + 5_000
        for f in range(10 * self.gameweeks):
            self.sheet(f)

    def begin(self):
        deadlines = ",".join(str(100_000 * g) for g in range(1, self.gameweeks + 1))
        clubs = ",".join(f'{{"id":{c},"name":"Club {c}"}}' for c in range(1, 21))
        self.post("/season", "operator1", f'"deadlines":[{deadlines}],"split":{self.gameweeks // 2},"clubs":[{clubs}]')
        for p in range(1, PLAYERS + 1):
            members = f'"id":{p},"name":"Player {p}","position":"{position(p)}","club":{managers.club(p)},"price":{40 + p % 21}'
            self.post("/players", "operator1", members)
        for f in range(10 * self.gameweeks):
            g, home = f // 10 + 1, f % 10 + 1
            members = f'"id":{f + 1},"home":{home},"away":{home + 10},"gameweek":{g},"kickoff":{100_000 * g + 5400}'
            self.post("/fixtures", "operator1", members)
        self.pools = {it: [p for p in range(1, PLAYERS + 1) if position(p) == it] for it in "GDMF"}
        for entry in range(1, self.entries + 1):
            self.post("/keys", "operator1", f'"key":"{self.key(entry)}","name":"Entry {entry}"')
            self.squads[entry] = self.squad()
            self.post("/squad", self.key(entry), self.order(entry))

    def squad(self):
        chosen = []
        for it in managers.SHAPE:
            while True:
                p = self.random.choice(self.pools[it])
                if p not in chosen and sum(managers.club(other) == managers.club(p) for other in chosen) < 3:
                    chosen.append(p)
                    break
        return chosen

    def everything(self):
        leagues.Bench.everything(self, self)

    def in_fixture(self, f):
        sides = (f % 10 + 1, f % 10 + 11)
        return [p for p in range(1, PLAYERS + 1) if managers.club(p) in sides and (p - 1) // 20 % 35 < LINES // 2]

    def figures(self, goals):
        row = [0] * 28
        row[0], row[1], row[12] = 90, goals, self.random.randrange(5)
        return str(row).replace(" ", "")

    def sheet(self, f):
        lines = ",".join(f'{{"player":{p},"figures":{self.figures(self.random.randrange(2))}}}' for p in self.in_fixture(f))
        self.post(f"/fixtures/{f + 1}/sheet", "operator1", f'"lines":[{lines}],"finished":true')

    def by_holders(self):
        """Players whom few hold, and whom many do, of those who play."""
        playing = sorted({p for f in range(10) for p in self.in_fixture(f)}, key=lambda p: (self.holders(p), p))
        return (("of who is held least", playing[:CORRECTIONS]), ("of who is held most", playing[-CORRECTIONS:]))

    def holders(self, player):
        return sum(player in squad for squad in self.squads.values())

    def correct(self, players):
        """A goal more for each of some players, in a match of each; how many teams hold one in the mean."""
        for turn, player in enumerate(players):
            f = next(f for f in range(10 * (turn % self.gameweeks), 10 * self.gameweeks) if player in self.in_fixture(f))
            self.post(f"/fixtures/{f + 1}/line", "operator1", f'"player":{player},"figures":{self.figures(2)}')
        return sum(map(self.holders, players)) / len(players)


class Season:
    """A store of the season, and runs over it."""

    def __init__(self, program, folder, stream):
        self.place, self.stream = managers.Place(program, folder), stream
        self.used, self.kept = Path(folder) / "used", Path(folder) / "kept"
        self.used.mkdir()
        self.words = [*self.place.words, "--store", str(self.used / "season")]
        self.run(self.words, stream)
        self.size = sum(it.stat().st_size for it in self.used.iterdir())
        shutil.copytree(self.used, self.kept)

    def anew(self):
        """The store as the season left it."""
        shutil.rmtree(self.used)
        shutil.copytree(self.kept, self.used)

    def run(self, words, stream):
        source = self.place.folder / "requests"
        source.write_text("".join(stream.requests))
        with open(source) as opened:
            surroundings = self.place.surroundings(stream)
            done = subprocess.run(words, stdin=opened, capture_output=True, env=surroundings, check=True)
        self.place.accepted(stream, done.stdout)
        return done

    def later(self):
        """A stream that goes on behind the season."""
        stream = copy.deepcopy(self.stream)
        stream.requests, stream.moments = [], []
        return stream

    def counted(self, stream):
        """What callgrind says of a run over a copy of the store."""
        self.anew()
        profile = self.place.folder / "profile"
        self.run([*managers.COUNTING, f"--callgrind-out-file={profile}", *self.words], stream)
        return Profile(profile)

    def peak(self):
        """In MiB, of a run that asks nothing."""
        self.anew()
        pid = os.fork()
        if pid == 0:
            os.dup2(os.open("/dev/null", os.O_RDONLY), 0)
            os.execv(self.words[0], self.words)
        _, status, used = os.wait4(pid, 0)
        assert status == 0
        return used.ru_maxrss / 1024


class Profile:
    """A file of callgrind: of each function its own instructions, and those of its calls."""

    def __init__(self, path):
        names, self.own, self.inner, self.calls = {}, {}, {}, {}
        name_of = lambda text: self.named(names, text)
        here = called = None
        for line in open(path, errors="replace"):
            if line.startswith("fn="):
                here = name_of(line[3:].strip())
            elif line.startswith("cfn="):
                called = name_of(line[4:].strip())
            elif line.startswith("calls="):
                self.calls[called] = self.calls.get(called, 0) + int(line[6:].split()[0])
            elif line[:1].isdigit() or line[:1] in "+-*":
                parts = line.split()
                if len(parts) < 2 or here is None:
                    continue
                if called is not None:
                    self.inner[called] = self.inner.get(called, 0) + int(parts[1])
                    called = None
                else:
                    self.own[here] = self.own.get(here, 0) + int(parts[1])

    @staticmethod
    def named(names, text):
        number, _, name = text.partition(" ")
        if name:
            names[number] = name
        return names.get(number, number)

    def of(self, word):
        """The instructions, with what it calls, of the function whose name begins so."""
        return sum(it for name, it in self.inner.items() if name.startswith(word))

    def total(self):
        return sum(self.own.values())


def main():
    program = str(Path(sys.argv[1]).resolve())
    entries, gameweeks = (list(map(int, sys.argv[2:])) + [2048, 38][len(sys.argv) - 2 :])
    with tempfile.TemporaryDirectory() as folder:
        season = Season(program, folder, Stream(gameweeks, entries))
        opened = season.counted(season.later())
        made = opened.of("season_host::following::cells_of")
        print(f"a store of {season.size / 2**20:.0f} MiB: opened by {opened.total():,} instructions, of which all cells {made:,}", flush=True)
        for name, players in season.stream.by_holders():
            stream = season.later()
            held = stream.correct(players)
            profile, count = season.counted(stream), len(stream.requests)
            each = (profile.total() - opened.total()) / count
            print(f"a correction of one goal, {name}, by {held:.0f} entries: {each:,.0f}, so all cells are {made / each:,.0f} times as dear", flush=True)
        looked = season.later()
        looked.ask("GET", "/leagues/1", "operator1")
        profile = season.counted(looked)
        whole, written = profile.total() - opened.total(), profile.of("fpl_answers::views::shown_text")
        print(f"a table of {entries} rows: {whole:,}, of which writing it {written:,}: {whole / written:.2f} times", flush=True)
        print(f"peak of the memory of an opening: {season.peak():.0f} MiB", flush=True)


if __name__ == "__main__":
    main()
