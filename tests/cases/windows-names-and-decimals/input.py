# A season of two players, who meet twenty times in gameweek 1 and once in gameweek 2.
import json
import sys

from managers import OPERATOR, ask
from views import line

sys.stdout.reconfigure(encoding="utf-8")
CLUBS = ["Ōtāhuhu", '"Q" Park', "🦅🦅🦅🦅", "AB"]
number = 0


def do(target, **members):
    """A command, whose length is that of its bytes."""
    global number
    number += 1
    body = json.dumps({"number": number, **members}, separators=(",", ":"), ensure_ascii=False)
    length = len(body.encode())
    print(end=f"POST {target} HTTP/1.1\r\nFpl-Key: {OPERATOR}\r\nContent-Length: {length}\r\n\r\n{body}\r\n")


def look():
    ask("/api/bootstrap-static/", OPERATOR)
    ask("/api/bootstrap-static", OPERATOR)


clubs = [{"id": 10 * at, "name": name} for at, name in enumerate(CLUBS, 1)]
do("/season", deadlines=[10000, 20000], split=1, clubs=clubs)
do("/players", id=7, name="Ō'Neill", position="D", club=10, price=45)
do("/players", id=900000, name='"Q"', position="F", club=20, price=200)
for fixture in range(1, 21):
    do("/fixtures", id=fixture, home=10, away=20, gameweek=1, kickoff=15400)
do("/fixtures", id=21, home=10, away=20, gameweek=2, kickoff=25400)
# A minute with a yellow card is worth nothing; a minute with an own goal -1, and a minute alone 1.
for fixture in range(1, 21):
    first = line(7, minutes=1, conceded=0, own_goals=1) if fixture == 1 else line(7, minutes=1, conceded=0, yellow=1)
    second = line(900000, minutes=1, conceded=0, yellow=int(fixture > 1))
    do(f"/fixtures/{fixture}/sheet", lines=[first, second], finished=False)
look()
# A minute and an assist are 4 points.
lines = [line(7, minutes=1, conceded=0, yellow=1), line(900000, minutes=1, conceded=0, assists=1)]
do("/fixtures/21/sheet", lines=lines, finished=False)
look()
