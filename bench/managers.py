#!/usr/bin/env python3
"""What a manager's requests cost through `pipe` with 10 entries and with 2,048, and the memory of both seasons.

usage: managers.py PROGRAM [GAMEWEEKS [ENTRIES [TIMES]]]
The season has 20 clubs, 120 players and 38 gameweeks (or GAMEWEEKS), each with 10 fixtures that get their sheets, of 12
lines, once it is locked. Each entry makes a transfer or sets its lineup in each gameweek, and plays a chip in three.
Then come, in the last gameweek, TIMES (100) requests of a kind, by entries spread over all; of chips that stay, one an
entry at most. What one takes is the difference between a run with them and one without them, by valgrind's callgrind,
all but what the clock takes, which is that of tests/outside.c: gcc builds it, and shows the program nothing else of that
file, whose malloc would add 20 instructions to a call. An answer that accepts nothing ends the script. The peak of the
memory is read from /proc while a run without valgrind waits for more input.
"""
import os
import random
import re
import subprocess
import sys
import tempfile
import threading
from pathlib import Path

TOP = Path(__file__).resolve().parent.parent
POSITIONS = "G" * 20 + "D" * 40 + "M" * 40 + "F" * 20  # of the players 1 to 120
SHAPE = "GDDDDMMMMFFGDMF"  # of the slots 1 to 15
CHIPS = {10: "wildcard", 20: "free_hit", 30: "bench_boost"}  # each after a lineup of that gameweek
KINDS = ("lineup", "transfers", "chip", "chip, cancel", "me")
COUNTING = ["valgrind", "--tool=callgrind", "--toggle-collect=clock_gettime", "--collect-atstart=yes"]  # all but the clock


def club(player):
    return player % 20 + 1


class Stream:
    """The bytes of a season's requests, and the moment at which each is asked."""

    positions = POSITIONS

    def __init__(self, gameweeks, entries):
        self.requests, self.moments, self.now, self.numbers = [], [], 500, {}
        self.random, self.gameweeks, self.entries = random.Random(7), gameweeks, entries
        self.squads, self.refused = {}, set()  # the places of requests that are to be refused
        self.make()

    def ask(self, method, target, key, body=""):
        length = f"Content-Length: {len(body)}\r\n" if body else ""
        self.requests.append(f"{method} {target} HTTP/1.1\r\nFpl-Key: {key}\r\n{length}\r\n{body}")
        self.moments.append(f"{self.now}\n")

    def post(self, target, key, members=""):
        self.numbers[key] = self.numbers.get(key, 0) + 1
        self.ask("POST", target, key, f'{{"number":{self.numbers[key]}{"," if members else ""}{members}}}')

    def make(self):
        self.begin()
        self.play(self.gameweeks)

    def begin(self):
        """The season, with entries that have a squad."""
        deadlines = ",".join(str(100_000 * g) for g in range(1, self.gameweeks + 1))
        clubs = ",".join(f'{{"id":{c},"name":"Club {c}"}}' for c in range(1, 21))
        self.post("/season", "operator1", f'"deadlines":[{deadlines}],"split":{self.gameweeks // 2},"clubs":[{clubs}]')
        for p, position in enumerate(POSITIONS, 1):
            members = f'"id":{p},"name":"Player {p}","position":"{position}","club":{club(p)},"price":{40 + p % 21}'
            self.post("/players", "operator1", members)
        for f in range(10 * self.gameweeks):
            g, home = f // 10 + 1, f % 10 + 1
            members = f'"id":{f + 1},"home":{home},"away":{home + 10},"gameweek":{g},"kickoff":{100_000 * g + 5400}'
            self.post("/fixtures", "operator1", members)
        for entry in range(1, self.entries + 1):
            self.post("/keys", "operator1", f'"key":"{self.key(entry)}","name":"Entry {entry}"')
            self.squads[entry] = self.squad()
            self.post("/squad", self.key(entry), self.order(entry))

    def play(self, gameweeks):
        """What entries do in so many gameweeks, of which the last stays open."""
        for gameweek in range(1, gameweeks + 1):
            self.now = 100_000 * gameweek - 500
            for f in range(10 * (gameweek - 2), 10 * (gameweek - 1)) if gameweek > 1 else ():
                self.sheet(f)
            for entry in range(1, self.entries + 1):
                if (entry + gameweek) % 2 and gameweek not in CHIPS:
                    self.transfer(entry)
                else:
                    self.lineup(entry)
                if gameweek in CHIPS and gameweek < self.gameweeks:
                    self.post("/chip", self.key(entry), f'"chip":"{CHIPS[gameweek]}"')

    def key(self, entry):
        return f"manager{entry * 7919 % 100_003:05}"  # no two alike, and in no order

    def squad(self):
        """Fifteen players by slot, of whom no club has more than three."""
        chosen = []
        for position in SHAPE:
            chosen.append(self.random.choice(self.fitting(position, chosen)))
        return chosen

    def fitting(self, position, others):
        """The players of a position who can come to these."""
        alike = [p for p, it in enumerate(self.positions, 1) if it == position and p not in others]
        return [p for p in alike if sum(club(it) == club(p) for it in others) < 3]

    def order(self, entry):
        players = self.squads[entry]
        captain, vice = self.random.sample(players[:11], 2)
        return f'"players":{str(players).replace(" ", "")},"captain":{captain},"vice":{vice}'

    def sheet(self, f):
        lines = []
        for p in [p for p in range(1, 121) if club(p) in (f % 10 + 1, f % 10 + 11)]:
            figures = [0] * 28
            figures[0], figures[1], figures[12] = 90, self.random.randrange(2), self.random.randrange(5)
            lines.append(f'{{"player":{p},"figures":{str(figures).replace(" ", "")}}}')
        self.post(f"/fixtures/{f + 1}/sheet", "operator1", f'"lines":[{",".join(lines)}],"finished":true')

    def lineup(self, entry):
        """Two of the same position change their places."""
        players = self.squads[entry]
        one = self.random.randrange(15)
        other = self.random.choice([at for at in range(15) if SHAPE[at] == SHAPE[one] and at != one])
        players[one], players[other] = players[other], players[one]
        self.post("/lineup", self.key(entry), self.order(entry))

    def transfer(self, entry):
        players = self.squads[entry]
        slot = self.random.randrange(15)
        others = players[:slot] + players[slot + 1 :]
        comer = self.random.choice([p for p in self.fitting(SHAPE[slot], others) if p != players[slot]])
        self.post("/transfers", self.key(entry), f'"swaps":[{{"out":{players[slot]},"in":{comer}}}]')
        players[slot] = comer

    def last(self, kind, times):
        """So many requests of a kind, by entries spread over all."""
        for turn in range(times):
            entry = (turn * self.entries // times if times < self.entries else turn % self.entries) + 1
            if kind == "me":
                self.ask("GET", "/me", self.key(entry))
            elif kind == "lineup":
                self.lineup(entry)
            elif kind == "transfers":
                self.transfer(entry)
            else:
                self.post("/chip", self.key(entry), '"chip":"triple_captain"')
                if kind == "chip, cancel":
                    self.post("/chip/cancel", self.key(entry))


class Place:
    """A temporary folder with the clock, where streams are run."""

    def __init__(self, program, folder):
        self.words = [program, "pipe", "--key", "operator1"]
        self.folder, self.clock = Path(folder), Path(folder) / "clock.so"
        (self.folder / "shown").write_text("{ global: clock_gettime; local: *; };")
        flags = ["-O1", "-shared", "-fPIC", f"-Wl,--version-script={self.folder / 'shown'}"]
        subprocess.run(["gcc", *flags, "-o", self.clock, TOP / "tests/outside.c"], check=True)

    def surroundings(self, stream):
        (self.folder / "moments").write_text("".join(stream.moments))
        return os.environ | {"LD_PRELOAD": str(self.clock), "KOWHIRUPE_MOMENTS": str(self.folder / "moments")}

    def instructions(self, stream):
        (self.folder / "requests").write_text("".join(stream.requests))
        with open(self.folder / "requests") as source:
            surroundings = self.surroundings(stream)
            words = [*COUNTING, "--callgrind-out-file=/dev/null", *self.words]
            done = subprocess.run(words, stdin=source, capture_output=True, env=surroundings, check=True)
        self.accepted(stream, done.stdout)
        return int(re.search(rb"Collected : (\d+)", done.stderr).group(1))

    def accepted(self, stream, answers):
        statuses = re.findall(rb"HTTP/1.1 (\d+)", answers)
        wanted = lambda at: (b"409",) if at in stream.refused else (b"200", b"201")
        wrong = next((at for at, it in enumerate(statuses) if it not in wanted(at)), len(statuses))
        if wrong < len(stream.requests):
            sys.exit(f"request {wrong} had another answer: {stream.requests[wrong]}\n{answers[-300:].decode()}")

    def peak(self, stream):
        """In KiB."""
        surroundings = self.surroundings(stream)
        with subprocess.Popen(self.words, stdin=subprocess.PIPE, stdout=subprocess.PIPE, env=surroundings) as program:
            data = "".join(stream.requests).encode()
            threading.Thread(target=lambda: (program.stdin.write(data), program.stdin.flush())).start()
            answers, end, count = [], b"", 0
            while count < len(stream.requests):
                answers.append(program.stdout.read1(65536))
                if not answers[-1]:
                    break  # it ended
                count += (end + answers[-1]).count(b"HTTP/1.1 ")
                end = (end + answers[-1])[-8:]
            self.accepted(stream, b"".join(answers))
            with open(f"/proc/{program.pid}/status") as status:
                return int(re.search(r"VmHWM:\s+(\d+)", status.read()).group(1))


def main():
    program = str(Path(sys.argv[1]).resolve())
    gameweeks, entries, times = (list(map(int, sys.argv[2:])) + [38, 2048, 100][len(sys.argv) - 2 :])
    with tempfile.TemporaryDirectory() as folder:
        place = Place(program, folder)
        few, most = (place.peak(Stream(gameweeks, many)) / 1024 for many in (10, entries))
        print(f"peak of memory: {few:.1f} MiB with 10 entries, {most:.1f} with {entries}", flush=True)
        print(f"{'request':14}{'10':>12}{entries:>12}{'ratio':>8}", flush=True)
        none = {many: place.instructions(Stream(gameweeks, many)) for many in (10, entries)}
        for kind in KINDS:
            row = []
            for many in (10, entries):
                stream, asked = Stream(gameweeks, many), min(times, many) if kind == "chip" else times
                stream.last(kind, asked)
                row.append((place.instructions(stream) - none[many]) / asked)
            print(f"{kind:14}{row[0]:12.0f}{row[1]:12.0f}{row[1] / row[0]:8.2f}", flush=True)


if __name__ == "__main__":
    main()
