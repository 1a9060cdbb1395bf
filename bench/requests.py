#!/usr/bin/env python3
"""Writes a stream of requests over a season for bench/pipe.sh.

usage: requests.py PLAYERS FIXTURES LINES KIND COUNT
First come the requests that make the season: 20 clubs, so many players and fixtures, and a finished sheet of so many
lines for each fixture. Then come COUNT requests of a KIND: season, player, gameweek, fixture, price, club, gone,
deadline, move, line, sheet, finished, drop (a line away and back), repeat (the same price again), refused (a price of
201), unknown (a player who is not there), or mixed. All are asked with the key `operator1`.
"""
import random
import sys

KICKOFF = 1_000_000


class Stream:
    def __init__(self, players, fixtures, lines):
        self.out, self.count, self.random = sys.stdout.buffer, 0, random.Random(7)
        self.players, self.fixtures, self.lines = players, fixtures, lines
        self.gameweeks = max(2, min(38, (fixtures + 9) // 10))

    def get(self, target):
        self.out.write(f"GET {target} HTTP/1.1\r\nHost: localhost\r\nFpl-Key: operator1\r\n\r\n".encode())

    def post(self, target, members, number=None):
        if number is None:
            self.count += 1
            number = self.count
        body = f'{{"number":{number}{"," if members else ""}{members}}}'
        head = f"POST {target} HTTP/1.1\r\nHost: localhost\r\nFpl-Key: operator1\r\n"
        self.out.write(f"{head}Content-Type: application/json\r\nContent-Length: {len(body)}\r\n\r\n{body}".encode())

    def figures(self):
        minutes = self.random.choice((0, 30, 60, 90, 90, 90))
        row = [0] * 28
        if minutes:
            attempted = self.random.randrange(60)
            row[0], row[1], row[2] = minutes, int(self.random.random() < 0.12), int(self.random.random() < 0.12)
            row[3], row[7], row[12] = self.random.randrange(3), int(self.random.random() < 0.1), self.random.randrange(9)
            row[18], row[19] = attempted, self.random.randrange(attempted + 1)
        return "[" + ",".join(map(str, row)) + "]"

    def players_of(self, fixture):
        first = (fixture * 64) % self.players
        return [(first + place) % self.players + 1 for place in range(min(self.lines, self.players))]

    def line(self, player):
        return f'"player":{player},"figures":{self.figures()}'

    def make(self):
        deadlines = ",".join(str(KICKOFF - 5400 + 1000 * g) for g in range(self.gameweeks - 1))
        deadlines = deadlines + ("," if deadlines else "") + "4000000000"
        clubs = ",".join(f'{{"id":{c},"name":"Club {c}"}}' for c in range(1, 21))
        self.post("/season", f'"deadlines":[{deadlines}],"split":{self.gameweeks // 2},"clubs":[{clubs}]')
        for p in range(1, self.players + 1):
            position = "GDDDMMMMFF"[p % 10]
            self.post("/players", f'"id":{p},"name":"Player {p}","position":"{position}","club":{p % 20 + 1},"price":{40 + p % 80}')
        for f in range(1, self.fixtures + 1):
            g = (f - 1) % max(self.gameweeks - 1, 1) + 1
            self.post("/fixtures", f'"id":{f},"home":{f % 20 + 1},"away":{(f + 7) % 20 + 1},"gameweek":{g},"kickoff":{KICKOFF + 100_000}')
        for f in range(1, self.fixtures + 1):
            self.sheet(f)

    def sheet(self, f):
        rows = ",".join("{" + self.line(p) + "}" for p in self.players_of(f))
        self.post(f"/fixtures/{f}/sheet", f'"lines":[{rows}],"finished":true')

    def ask(self, kind):
        player, fixture = self.random.randrange(self.players) + 1, self.random.randrange(self.fixtures) + 1
        if kind == "season":
            self.get("/season")
        elif kind == "player":
            self.get(f"/players/{player}")
        elif kind == "gameweek":
            self.get(f"/players/{player}/gameweeks/{self.random.randrange(max(self.gameweeks - 1, 1)) + 1}")
        elif kind == "fixture":
            self.get(f"/fixtures/{fixture}")
        elif kind == "price":
            self.post("/prices", f'"player":{player},"price":{40 + player % 90}')
        elif kind == "club":
            self.post("/clubs", f'"player":{player},"club":{player % 20 + 1}')
        elif kind == "gone":
            self.post("/gone", f'"player":{player},"gone":false')
        elif kind == "deadline":
            self.post("/deadlines", f'"gameweek":{self.gameweeks},"deadline":{4_000_000_000 + self.count}')
        elif kind == "move":
            g = self.random.randrange(max(self.gameweeks - 1, 1)) + 1
            self.post(f"/fixtures/{fixture}/move", f'"gameweek":{g},"kickoff":{KICKOFF + 100_000}')
        elif kind == "line":
            self.post(f"/fixtures/{fixture}/line", self.line(self.random.choice(self.players_of(fixture))))
        elif kind == "sheet":
            self.sheet(fixture)
        elif kind == "finished":
            self.post(f"/fixtures/{fixture}/finished", '"finished":true')
        elif kind == "drop":
            gone = self.random.choice(self.players_of(fixture))
            self.post(f"/fixtures/{fixture}/drop", f'"player":{gone}')
            self.post(f"/fixtures/{fixture}/line", self.line(gone))
        elif kind == "repeat":
            self.post("/prices", '"player":1,"price":50', number=self.last)
        elif kind == "refused":
            self.post("/prices", f'"player":{player},"price":201', number=self.count + 1)
        elif kind == "unknown":
            self.get(f"/players/{player + 900_000}")

    def mixed(self):
        shares = {"gameweek": 30, "fixture": 20, "player": 20, "line": 10, "price": 8, "season": 4, "finished": 2,
                  "club": 1, "gone": 1, "unknown": 2, "refused": 1, "sheet": 1}
        return self.random.choices(list(shares), shares.values())[0]


def main():
    players, fixtures, lines, kind, count = sys.argv[1:]
    stream = Stream(int(players), int(fixtures), int(lines))
    stream.make()
    if kind == "repeat":
        stream.post("/prices", '"player":1,"price":50')
        stream.last = stream.count
    for _ in range(int(count)):
        stream.ask(stream.mixed() if kind == "mixed" else kind)


if __name__ == "__main__":
    main()
