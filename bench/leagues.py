#!/usr/bin/env python3
"""What tables of leagues, cups and joining a league cost through `pipe`, by how many rows, members and leagues there
are, and the memory that leagues and cups take.

usage: leagues.py PROGRAM [GAMEWEEKS [ENTRIES]]
The season is that of managers.py: 20 clubs, 120 players, GAMEWEEKS (12, and 11 at least) with 10 fixtures each that get
their sheets, of 12 lines, once they are locked, and ENTRIES (2048, and 1024 at least), of which each does something in
each gameweek that is played. Leagues and cups are made in the first gameweek, and start with it.

What a request takes is the difference between a run with some of them and one without them, by valgrind's callgrind
and with the clock of tests/outside.c, as managers.py says. Tables and cups are looked at with one gameweek locked, and
with all but the last. Joining and drawing are asked in the first gameweek. The peak of the memory is read from /proc
while a run without valgrind waits for more input. An answer that accepts nothing ends the script.
"""
import copy
import random
import sys
import tempfile
from pathlib import Path

import managers

OPERATOR = "operator1"


class Stream(managers.Stream):
    """A season in whose first gameweek leagues and cups are made, and of whose gameweeks some are played."""

    def __init__(self, gameweeks, entries, played, arrange):
        self.played, self.arrange, self.count = played, arrange, 0
        super().__init__(gameweeks, entries)

    def make(self):
        self.begin()
        self.arrange(self)
        self.play(self.played)

    def league(self, kind, creator):
        self.count += 1
        members = f'"kind":"{kind}","name":"League {self.count}","code":"code{self.count}","start":1'
        self.post("/leagues", self.key(creator), members)

    def join(self, league, entry):
        self.post(f"/leagues/{league}/join", self.key(entry), f'"code":"code{league}"')

    def leagues(self, all_members, kind="classic"):
        """A league of each list of members, who come in mixed; a head-to-head one is drawn."""
        first = self.count + 1
        for members in all_members:
            self.league(kind, members[0])
        comers = [(first + at, entry) for at, members in enumerate(all_members) for entry in members[1:]]
        random.Random(7).shuffle(comers)
        for league, entry in comers:
            self.join(league, entry)
        for at, members in enumerate(all_members) if kind == "head" else ():
            order = ",".join(map(str, random.Random(at).sample(members, len(members))))
            self.post(f"/leagues/{first + at}/draw", OPERATOR, f'"order":[{order}]')

    def cup(self, slots, start=1):
        """A cup of so many entries, which stand in no order."""
        order = random.Random(slots).sample(range(1, self.entries + 1), slots)
        coins = [at % 2 for at in range(slots - 1)]
        self.post("/cups", OPERATOR, f'"start":{start},"slots":{order},"coins":{coins}'.replace(" ", ""))

    def spread(self, count):
        return [turn * self.entries // count + 1 for turn in range(count)]


class Bench:
    def __init__(self, program, folder, gameweeks, entries):
        self.place = managers.Place(program, folder)
        self.gameweeks, self.entries = gameweeks, entries

    def more(self, stream, requests, times):
        """Instructions of one of so many requests, which come behind a stream."""
        longer = copy.deepcopy(stream)
        requests(longer)
        assert len(longer.requests) == len(stream.requests) + times
        if not hasattr(stream, "instructions"):
            stream.instructions = self.place.instructions(stream)
        return (self.place.instructions(longer) - stream.instructions) / times

    def views(self):
        def arrange(stream):
            some = stream.spread(64)
            stream.leagues([list(range(1, self.entries + 1)), some])
            stream.leagues([some], "head")
            stream.cup(1024)

        late = self.gameweeks - 1
        kinds = (
            (f"classic, {self.entries} rows", "/leagues/1", 1, lambda locked: self.entries * locked),
            ("classic, 64 rows", "/leagues/2", 8, lambda locked: 64 * locked),
            ("head, 64 rows", "/leagues/3", 8, lambda locked: 64 * locked),
            ("cup, 1024 slots", "/cups/1", 1, lambda locked: sum(1024 >> r for r in range(min(locked, 10)))),
        )
        # A row and gameweek is what one entry has in one gameweek; in a cup only those that are still in it.
        print(f"{'look at':20}{'1 locked':>14}{f'{late} locked':>16}{'a row and gameweek':>26}", flush=True)
        streams = [Stream(self.gameweeks, self.entries, locked + 1, arrange) for locked in (1, late)]
        for name, target, times, parts in kinds:
            taken = []
            for stream in streams:
                looks = lambda it: [it.ask("GET", target, OPERATOR) for _ in range(times)]
                taken.append(self.more(stream, looks, times))
            each = [it / parts(locked) for it, locked in zip(taken, (1, late))]
            print(f"{name:20}{taken[0]:14.0f}{taken[1]:16.0f}{each[0]:13.0f}{each[1]:13.0f}", flush=True)

    def joins(self):
        """Each of some entries joins each of some leagues: of how many, with how many members."""
        print(f"{'join, draw':20}{'few':>14}{'many':>16}{'ratio':>8}", flush=True)
        self.join_pair("10, 512 leagues", ((10, 10), (512, 10)), 10, 40)
        self.join_pair(f"10, {self.entries - 20} members", ((20, 10), (20, self.entries - 20)), 20, 20)

    def join_pair(self, name, sizes, joined, comers):
        row = []
        for count, members in sizes:
            stream = Stream(self.gameweeks, self.entries, 0, lambda it: None)
            last = stream.spread(comers)
            others = [entry for entry in range(1, self.entries + 1) if entry not in last]
            others.reverse()  # so that the greatest number is in a league of each season
            stream.leagues([[others[(at * members + k) % len(others)] for k in range(members)] for at in range(count)])
            into = [at * count // joined + 1 for at in range(joined)]
            pairs = [(league, entry) for entry in last for league in into]
            row.append(self.more(stream, lambda it: [it.join(*pair) for pair in pairs], len(pairs)))
        print(f"{name:20}{row[0]:14.0f}{row[1]:16.0f}{row[1] / row[0]:8.2f}", flush=True)

    def draws(self):
        """Drawing a cup of 64 and of 1,024 slots."""
        stream = Stream(self.gameweeks, self.entries, 0, lambda it: None)
        cups = [self.more(stream, lambda it: [it.cup(slots) for _ in range(16)], 16) for slots in (64, 1024)]
        print(f"{'cup of 64, of 1024':20}{cups[0]:14.0f}{cups[1]:16.0f}{cups[1] / cups[0]:8.2f}", flush=True)

    def everything(self, stream):
        """512 leagues, each entry in 20: one of all, head-to-head ones of 64 with 8 of an entry, and classic ones."""
        everyone = range(self.entries)
        heads, classics = self.entries * 8 // 64, [[] for _ in range(511 - self.entries * 8 // 64)]
        for entry in everyone:
            for turn in range(11):
                classics[(entry * 11 + turn) % len(classics)].append(entry + 1)
        stream.leagues([[entry + 1 for entry in everyone]])
        stream.leagues([[(at * 64 + k) % self.entries + 1 for k in range(64)] for at in range(heads)], "head")
        stream.leagues(classics)
        for _ in range(32):
            stream.cup(1024)

    def memory(self):
        bare = Stream(self.gameweeks, self.entries, self.gameweeks, lambda it: None)
        full = Stream(self.gameweeks, self.entries, self.gameweeks, self.everything)
        without, with_all = (self.place.peak(it) / 1024 for it in (bare, full))
        for target in ("/leagues/1", "/leagues/2", "/cups/1"):
            full.ask("GET", target, OPERATOR)
        looked = self.place.peak(full) / 1024
        print(f"peak of memory: {without:.1f} MiB without leagues and cups, {with_all:.1f} with {full.count} and 32,")
        print(f"so {with_all - without:.1f} more; {looked:.1f} once two tables and a cup were looked at", flush=True)


def main():
    program = str(Path(sys.argv[1]).resolve())
    gameweeks, entries = (list(map(int, sys.argv[2:])) + [12, 2048][len(sys.argv) - 2 :])
    with tempfile.TemporaryDirectory() as folder:
        bench = Bench(program, folder, gameweeks, entries)
        bench.memory()
        bench.views()
        bench.joins()
        bench.draws()


if __name__ == "__main__":
    main()
