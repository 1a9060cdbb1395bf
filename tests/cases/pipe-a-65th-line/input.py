# A season with 65 players, a match with lines of 64 of them, and a line of the last one.
import json

number = 0


def post(target, **members):
    global number
    number += 1
    body = json.dumps({"number": number, **members})
    print(end=f"POST {target} HTTP/1.1\r\nFpl-Key: operator1\r\nContent-Length: {len(body)}\r\n\r\n{body}\r\n")


post("/season", deadlines=[0], split=1, clubs=[{"id": 1, "name": "A"}, {"id": 2, "name": "B"}])
for player in range(1, 66):
    post("/players", id=player, name=f"P{player}", position="M", club=1, price=50)
post("/fixtures", id=1, home=1, away=2, gameweek=1, kickoff=5400)
lines = [{"player": player, "figures": [90] + 27 * [0]} for player in range(1, 66)]
post("/fixtures/1/sheet", lines=lines, finished=True)
number -= 1
post("/fixtures/1/sheet", lines=lines[:64], finished=True)
post("/fixtures/1/line", **lines[64])
number -= 1
post("/fixtures/1/line", **lines[63])
