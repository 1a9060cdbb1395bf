#!/usr/bin/env python3
"""What each view below /api/ takes over the largest season, beside what it may.

usage: windows.py PROGRAM [ENTRIES [GAMEWEEKS]]
The season has 20 clubs, 1,200 players, GAMEWEEKS (38) that are all locked, each with 10 fixtures of 32 lines, and ENTRIES (2048),
of which each does something in each gameweek; one classic league of all, a head-to-head league of 64 that is drawn, and a cup
of 1,024. `pipe` takes it into a store, and opens that again under valgrind's callgrind, which writes what was counted
whenever the clock is asked, that is once a request. So of each request that is counted which is from the moment that it is
judged by to that of the next one: its answer, and reading the next head, a few thousand instructions. The clock itself, that of
tests/outside.c, is not counted. Each view is asked twice, and the second time is shown.

Memory is that of a run without valgrind: how much the greatest part of it that was in use grows from before a request to behind
it, as /proc tells. What the opening gave back, and the C library kept, may serve an answer too and is not seen, so it is
the least that the answer takes. An answer other than 200, or a request of which nothing was counted, ends the script.
"""
import re
import subprocess
import sys
import tempfile
from pathlib import Path

import cells
import leagues
import managers

PLAYERS = 1200
SHARES = "G" * 7 + "D" * 19 + "M" * 22 + "F" * 12  # of a club's 60 players
PLAYING = [60 * turn // 16 for turn in range(16)]  # those of them who play: two, five, six and three
OPERATOR = "operator1"
MILLION = 1_000_000


def position(player):
    return SHARES[(player - 1) // 20]


class Stream(leagues.Stream):
    """The largest season, in which all entries do something in each gameweek."""

    positions = [position(p) for p in range(1, PLAYERS + 1)]

    def __init__(self, gameweeks, entries):
        super().__init__(gameweeks, entries, gameweeks, None)

    def make(self):
        self.begin()
        everybody = list(range(1, self.entries + 1))
        self.leagues([everybody])
        self.leagues([everybody[:64]], "head")
        self.cup(self.slots())
        self.play(self.gameweeks)
        self.now = 100_000 * self.gameweeks + 5_000
        for f in range(10 * (self.gameweeks - 1), 10 * self.gameweeks):
            self.sheet(f)

    def slots(self):
        """1,024, or the greatest number that entries and gameweeks have room for."""
        return max(1 << rounds for rounds in range(1, 11) if 1 << rounds <= self.entries and rounds <= self.gameweeks)

    def begin(self):
        deadlines = ",".join(str(100_000 * g) for g in range(1, self.gameweeks + 1))
        clubs = ",".join(f'{{"id":{c},"name":"Club {c}"}}' for c in range(1, 21))
        self.post("/season", OPERATOR, f'"deadlines":[{deadlines}],"split":{self.gameweeks // 2},"clubs":[{clubs}]')
        for p in range(1, PLAYERS + 1):
            members = f'"id":{p},"name":"Player {p}","position":"{position(p)}","club":{managers.club(p)},"price":{40 + p % 21}'
            self.post("/players", OPERATOR, members)
        for f in range(10 * self.gameweeks):
            g, home = f // 10 + 1, f % 10 + 1
            members = f'"id":{f + 1},"home":{home},"away":{home + 10},"gameweek":{g},"kickoff":{100_000 * g + 5400}'
            self.post("/fixtures", OPERATOR, members)
        self.pools = {it: [p for p in range(1, PLAYERS + 1) if position(p) == it] for it in "GDMF"}
        for entry in range(1, self.entries + 1):
            self.post("/keys", OPERATOR, f'"key":"{self.key(entry)}","name":"Entry {entry}"')
            self.squads[entry] = self.squad()
            self.post("/squad", self.key(entry), self.order(entry))

    def squad(self):
        chosen = []
        for it in managers.SHAPE:
            chosen.append(self.comer(it, chosen))
        return chosen

    def comer(self, it, others):
        """A player of a position who can come to these."""
        while True:
            p = self.random.choice(self.pools[it])
            if p not in others and sum(managers.club(other) == managers.club(p) for other in others) < 3:
                return p

    def transfer(self, entry):
        players = self.squads[entry]
        slot = self.random.randrange(15)
        comer = self.comer(managers.SHAPE[slot], players)  # so he is nobody whom the entry has
        self.post("/transfers", self.key(entry), f'"swaps":[{{"out":{players[slot]},"in":{comer}}}]')
        players[slot] = comer

    def sheet(self, f):
        sides = (f % 10 + 1, f % 10 + 11)
        playing = [p for p in range(1, PLAYERS + 1) if managers.club(p) in sides and (p - 1) // 20 in PLAYING]
        lines = ",".join(f'{{"player":{p},"figures":{self.figures()}}}' for p in playing)
        self.post(f"/fixtures/{f + 1}/sheet", OPERATOR, f'"lines":[{lines}],"finished":true')

    def figures(self):
        """Some of everything that views list: goals, assists, conceded, saves, a yellow card, key passes."""
        row = [0] * 28
        row[0] = 90
        for field, most in ((1, 2), (2, 2), (3, 3), (4, 4), (7, 2), (14, 5)):
            row[field] = self.random.randrange(most)
        return str(row).replace(" ", "")


def asked(stream):
    """Each view with what it may take: millions of instructions, and of what three times may be taken, if anything is said."""
    entry, last = stream.entries // 2, stream.gameweeks
    return (
        ("/api/bootstrap-static/", 60),
        ("/api/fixtures/", 40),
        (f"/api/event/{last}/live/", 8),
        (f"/api/element-summary/{stream.squads[entry][0]}/", None),
        (f"/api/dream-team/{last}/", None),
        (f"/api/entry/{entry}/", None),
        (f"/api/entry/{entry}/history/", 20),
        (f"/api/entry/{entry}/event/{last}/picks/", None),
        (f"/api/entry/{entry}/transfers/", None),
        ("/leagues/1", None),
        ("/api/leagues-classic/1/standings/", "/leagues/1"),
        ("/leagues/2", None),
        ("/api/leagues-h2h/2/standings/", None),
        ("/api/leagues-h2h-matches/league/2/", None),
        ("/api/cups/1/", None),
    )


class Season(cells.Season):
    """A store of the season, and runs over it."""

    def parts(self, stream):
        """What was counted of each request but the last behind its moment, and their answers."""
        self.anew()
        for old in self.place.folder.glob("profile*"):
            old.unlink()
        profile = self.place.folder / "profile"
        counting = [*managers.COUNTING, "--dump-before=clock_gettime", f"--callgrind-out-file={profile}"]
        done = self.run([*counting, *self.words], stream)
        parts = sorted(self.place.folder.glob("profile.*"), key=lambda it: int(it.suffix[1:]))
        counts = [counted_in(it) for it in [*parts, profile] if it.exists()]
        # In front of them stands what comes before the first moment, and the last one is that of the end too.
        return counts[-len(stream.requests) : -1], bodies(done.stdout)[:-1]

    def grown(self, target):
        """By how many bytes the memory in use grows at most while a view is answered, the second time that it is asked."""
        self.anew()
        stream = self.later()
        for _ in range(2):
            stream.ask("GET", target, OPERATOR)
        surroundings = self.place.surroundings(stream)
        with subprocess.Popen(self.words, stdin=subprocess.PIPE, stdout=subprocess.PIPE, env=surroundings) as program:
            process = Path(f"/proc/{program.pid}")
            for request in stream.requests:
                (process / "clear_refs").write_text("5")  # the peak is that from here on
                before = in_use(process, "VmRSS")
                program.stdin.write(request.encode())
                program.stdin.flush()
                read_answer(program.stdout)
                grown = in_use(process, "VmHWM") - before
            program.stdin.close()
            return 1024 * grown


def counted_in(path):
    """The instructions of a file of callgrind."""
    found = re.search(r"^(?:totals|summary): *(\d+)", path.read_text(errors="replace"), re.MULTILINE)
    return int(found.group(1)) if found else 0


def bodies(answers):
    return [it.split(b"\r\n\r\n", 1)[1] for it in re.split(rb"HTTP/1\.1 \d+ [^\r]*\r\n", answers)[1:]]


def read_answer(stream):
    length = 0
    while (field := stream.readline()) not in (b"\r\n", b""):
        if field.lower().startswith(b"content-length:"):
            length = int(field.split(b":")[1])
    stream.read(length)


def in_use(process, name):
    """In KiB."""
    return int(re.search(rf"{name}:\s+(\d+)", (process / "status").read_text()).group(1))


def told(taken, may, others):
    """What a view may take, and whether it takes more."""
    if may is None:
        return ""
    most = 3 * others[may] if isinstance(may, str) else may * MILLION
    said = f"three times {may}" if isinstance(may, str) else f"{may} million"
    return f"at most {said}{', MORE' if taken > most else ''}"


def main():
    program = str(Path(sys.argv[1]).resolve())
    entries, gameweeks = (list(map(int, sys.argv[2:])) + [2048, 38][len(sys.argv) - 2 :])
    with tempfile.TemporaryDirectory() as folder:
        season = Season(program, folder, Stream(gameweeks, entries))
        print(f"a store of {season.size / 2**20:.0f} MiB", flush=True)
        stream, views = season.later(), asked(season.stream)
        for target, _ in views:
            for _ in range(2):
                stream.ask("GET", target, OPERATOR)
        stream.ask("GET", "/season", OPERATOR)  # with which the program ends
        counts, answers = season.parts(stream)
        if len(counts) != 2 * len(views) or 0 in counts or len(answers) != 2 * len(views):
            sys.exit(f"of {2 * len(views)} requests {sum(it > 0 for it in counts)} were counted, and {len(answers)} answered")
        taken = dict(zip((target for target, _ in views), counts[1::2]))
        print(f"{'view':40}{'instructions':>14}{'a byte':>8}{'bytes':>11}{'memory':>12}{'times':>7}", flush=True)
        for at, (target, may) in enumerate(views):
            size, grown = len(answers[2 * at + 1]), season.grown(target)
            row = f"{target:40}{taken[target]:14,}{taken[target] / size:8.1f}{size:11,}{grown:12,}{grown / size:7.1f}"
            print(f"{row}  {told(taken[target], may, taken)}".rstrip(), flush=True)


if __name__ == "__main__":
    main()
