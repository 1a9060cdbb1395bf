"""What the input.py and output.py of the cases of managers, leagues and cups share: requests and answers, and a small
season with a first squad.

Eighteen players, P1 to P18, cost 50 each. P1 to P15 are a squad by slot, three of each of clubs 1 to 5:
P1 and P12 are goalkeepers, P2 to P4, P14 and P15 defenders, P5 to P9 midfielders, P10, P11 and P13 forwards. The others
are of club 6: P16 is a defender, P17 a midfielder, P18 a forward. Deadlines are at 10000, 20000 and so on, to 50000 where
nothing else is said; the first half of the season has three gameweeks. Fixture g stands in gameweek g.
"""
import json

OPERATOR, FIRST, SECOND = "operator1", "manager01", "manager02"
SQUAD = list(range(1, 16))
POSITIONS = "GDDDMMMMMFFGFDDDMF"
TAKERS = (16, 17, 18)  # of the bonus: 99 key passes
last = {}  # the number of each caller's last command


def ask(target, key, body=None, method="GET"):
    length = "" if body is None else f"Content-Length: {len(body)}\r\n"
    print(end=f"{method} {target} HTTP/1.1\r\nFpl-Key: {key}\r\n{length}\r\n" + (f"{body}\r\n" if body else ""))


def do(key, target, /, **members):
    """A command, with the caller's next number."""
    last[key] = last.get(key, 0) + 1
    body = json.dumps({"number": last[key], **members}, separators=(",", ":"))
    ask(target, key, body, "POST")


def answer(status, body):
    """An answer, with its length."""
    print(end=f"HTTP/1.1 {status}\r\nContent-Type: application/json\r\nContent-Length: {len(body)}\r\n\r\n{body}")


def is_refused(key, target, /, **members):
    """A command that is refused, so that its number stays free."""
    do(key, target, **members)
    last[key] -= 1



def line(player, minutes=90, goals=0, conceded=1, yellow=0, key_passes=0):
    figures = [minutes, goals, 0, conceded, 0, 0, 0, yellow] + 6 * [0] + [key_passes] + 13 * [0]
    return {"player": player, "figures": figures}


def sheet(fixture, players, finished=False):
    """Each plays 90 minutes and concedes a goal, which gives 2 points; the bonus goes to P16, P17 and P18."""
    lines = [line(player) for player in players] + [line(player, key_passes=99) for player in TAKERS]
    do(OPERATOR, f"/fixtures/{fixture}/sheet", lines=lines, finished=finished)


def begin(profile=1, gameweeks=5):
    """The operator's first commands, 25 where the season has five gameweeks."""
    clubs = [{"id": club, "name": f"Club {club}"} for club in range(1, 7)]
    deadlines = [10000 * gameweek for gameweek in range(1, gameweeks + 1)]
    do(OPERATOR, "/season", deadlines=deadlines, split=3, clubs=clubs, profile=profile)
    for player, position in enumerate(POSITIONS, 1):
        club = (player + 2) // 3
        do(OPERATOR, "/players", id=player, name=f"P{player}", position=position, club=club, price=50)
    for gameweek in range(1, gameweeks + 1):
        do(OPERATOR, "/fixtures", id=gameweek, home=1, away=2, gameweek=gameweek, kickoff=10000 * gameweek + 5400)
    do(OPERATOR, "/keys", key=FIRST, name="First")


def begin_with_squad(profile=1, gameweeks=5):
    begin(profile, gameweeks)
    do(FIRST, "/squad", players=SQUAD, captain=10, vice=5)


def manager(entry):
    """The key of an entry's manager."""
    return f"manager{entry:02}"


def enter(*entries):
    """The operator makes these entries, the first of which is the next one."""
    for entry in entries:
        do(OPERATOR, "/keys", key=manager(entry), name=f"Entry {entry}")


def register(entry, captain, vice, players=SQUAD):
    do(manager(entry), "/squad", players=players, captain=captain, vice=vice)


def league(entry, kind, start, code="code1", name="League"):
    """The entry's manager makes a league."""
    do(manager(entry), "/leagues", kind=kind, name=name, code=code, start=start)


def join(entry, league, code="code1"):
    do(manager(entry), f"/leagues/{league}/join", code=code)
