"""What the cases `corrections-..` share: a season of four entries, all views of it, and how their answers are written.

The season is that of managers.py with a midfielder P19 of club 3 more. Entries 1 and 2 have its first squad, with the
captains P10 and P6. Entries 3 and 4 have P17, P19 and P18 in the slots of P6, P8 and P10, and the captains P18 and P17.
The vice-captain of all is P5. All four are in league 1, classic from gameweek 1; entries 1, 2 and 4 in league 2, classic
from gameweek 2; entries 1, 2 and 3 in league 3, head-to-head from gameweek 1. Its order is 3, 1, 2 and the Average: in
gameweek 1 entry 1 meets 2 and 3 the Average, in gameweek 2 entry 3 meets 1 and 2 the Average. In the cup 1 meets 2 and 3
meets 4 in gameweek 1, and the winners meet in gameweek 2; the coins are 0, 0 and 1.

An output.py keeps in `shown` what the views show, changes there what a correction changes, and nothing else, and lets
`answer_all` write the answers to the views that `ask_all` of the input.py asks.
"""
import json
from types import SimpleNamespace

from managers import OPERATOR, SQUAD, answer, ask, begin, do, enter, join, league, manager, register

OTHERS = [{6: 17, 8: 19, 10: 18}.get(player, player) for player in SQUAD]
FOUR = 1, 2, 3, 4
NAMES = {1: "First", 2: "Entry 2", 3: "Entry 3", 4: "Entry 4", 5: "Entry 5"}
FIGURES = {"minutes": 0, "goals": 1, "assists": 2, "conceded": 3, "yellow": 7, "own_goals": 9, "key_passes": 14}
SET_UP = 31  # so many commands of the operator begin the season


def line(player, minutes=90, conceded=1, **others):
    """A plain line has 2 points, and 6 in the bonus points system."""
    figures = 28 * [0]
    for name, figure in {"minutes": minutes, "conceded": conceded, **others}.items():
        figures[FIGURES[name]] = figure
    return {"player": player, "figures": figures}


def lines_of(players, *others, without=()):
    """These lines, and plain ones of the players who have none of these and are not left out."""
    named = {one["player"] for one in others}
    return [line(player) for player in players if player not in named and player not in without] + list(others)


def team(entry):
    """The fifteen by slot, and the captain; a fifth entry, where a case has one, has those of the first."""
    return (SQUAD, SQUAD, OTHERS, OTHERS, SQUAD)[entry - 1], (10, 6, 18, 17, 10)[entry - 1]


def begin_four():
    """The season, its entries, leagues and the cup: 31 commands of the operator."""
    begin()
    do(OPERATOR, "/players", id=19, name="P19", position="M", club=3, price=50)
    enter(2, 3, 4)
    for entry in FOUR:
        players, captain = team(entry)
        register(entry, captain, vice=5, players=players)
    for kind, start in ("classic", 1), ("classic", 2), ("head", 1):
        league(1, kind, start)
    for entry, number in (2, 1), (3, 1), (4, 1), (2, 2), (4, 2), (2, 3), (3, 3):
        join(entry, number)
    do(OPERATOR, "/leagues/3/draw", order=[3, 1, 2])
    do(OPERATOR, "/cups", start=1, slots=[1, 2, 3, 4], coins=[0, 0, 1])


def ask_all(locked, fixtures, players, entries=FOUR):
    """All views: of these fixtures, of these players and entries in the locked gameweeks, and of what comes of it."""
    for fixture in fixtures:
        ask(f"/fixtures/{fixture}", OPERATOR)
    for gameweek in range(1, locked + 1):
        for player in players:
            ask(f"/players/{player}/gameweeks/{gameweek}", OPERATOR)
        for entry in entries:
            ask(f"/entries/{entry}/gameweeks/{gameweek}", OPERATOR)
    for entry in entries:
        ask("/me", manager(entry))
    for number in 1, 2, 3:
        ask(f"/leagues/{number}", OPERATOR)
    ask("/cups/1", OPERATOR)


def say(body, status="200 OK"):
    answer(status, json.dumps(body, sort_keys=True, separators=(",", ":")))


def done(number):
    say({"done": number})


def answer_begin():
    """The answers to the commands that begin the season."""
    for number in range(1, 25):
        done(number)
    say({"done": 25, "entry": 1}, "201 Created")
    done(26)
    for entry in 2, 3, 4:
        say({"done": 25 + entry, "entry": entry}, "201 Created")
    for entry in FOUR:
        done(1)
    for number in 1, 2, 3:
        say({"done": number + 1, "league": number}, "201 Created")
    for number in 2, 2, 2, 3, 3, 4, 3:  # those of entries 2, 3, 4, 2, 4, 2 and 3
        done(number)
    done(30)
    say({"cup": 1, "done": SET_UP}, "201 Created")


# What the views show. Each output.py fills it in, and changes it:
# stands: of a fixture, its gameweek, its kick-off, and whether it is finished
# lines: of a fixture, for each player his points, his number in the bonus points system and his bonus
# did: of a gameweek, for each player his points, goals and goals conceded; who is not named did not play
# teams: of a gameweek, for each entry its points before deductions; who is not named is not shown. A team has its captain
#     with factor 2 and is its first eleven, but for `others`
# others: of a gameweek and an entry, what else its team shows: armband, factor, eleven, chip, cost
# totals, classic, head, cup: as the views show them; a row of a head-to-head league is the rank, the entry, how many
#     matches are won, drawn and lost, match points and points scored; one of a classic league the rank, entry and total
# free, last, transfers, fifteens: of an entry, free transfers of the next gameweek, the number of its last command,
#     transfers that a table counts, and in a gameweek its fifteen by slot
shown = SimpleNamespace(
    stands={}, lines={}, did={}, teams={}, others={}, totals={}, classic={}, head=[], cup=[],
    free={1: 1, 2: 1, 3: 1, 4: 1, 5: 1}, last={1: 4, 2: 4, 3: 3, 4: 3}, transfers={1: 0, 2: 0, 3: 0, 4: 0, 5: 0},
    fifteens={(entry, gameweek): team(entry)[0] for entry in NAMES for gameweek in (1, 2, 3)},
)


def answer_fixture(fixture):
    gameweek, kickoff, finished = shown.stands[fixture]
    lines = [
        {"player": player, "points": points, "bps": number, "bonus": bonus}
        for player, (points, number, bonus) in sorted(shown.lines.get(fixture, {}).items())
    ]
    body = {"id": fixture, "home": 1, "away": 2, "gameweek": gameweek, "kickoff": kickoff, "finished": finished}
    say(body | {"lines": lines})


def answer_player(player, gameweek):
    played = player in shown.did[gameweek]
    points, goals, conceded = shown.did[gameweek].get(player, (0, 0, 0))
    say({"conceded": conceded, "goals": goals, "played": played, "points": points})


def answer_team(entry, gameweek):
    if entry not in shown.teams[gameweek]:
        return say({"error": "unknown"}, "404 Not Found")
    players, gross = shown.fifteens[entry, gameweek], shown.teams[gameweek][entry]
    body = {"armband": players.index(team(entry)[1]) + 1, "factor": 2, "eleven": list(range(1, 12)), "chip": "none"}
    body |= {"players": players, "gross": gross, "cost": 0, **shown.others.get((gameweek, entry), {})}
    say(body | {"net": gross - body["cost"]})


def answer_me(entry, locked):
    players = [{"bought": 50, "player": player, "price": 50, "sell": 50} for player in shown.fifteens[entry, locked + 1]]
    body = {"entry": entry, "gameweek": locked + 1, "players": players, "captain": team(entry)[1], "vice": 5, "bank": 250}
    body |= {"chip": "none", "cost": 0, "free": shown.free[entry], "last": shown.last[entry], "total": shown.totals[entry]}
    say(body)


def answer_all(locked, fixtures, players, entries=FOUR):
    """The answers to ask_all with the same arguments."""
    for fixture in fixtures:
        answer_fixture(fixture)
    for gameweek in range(1, locked + 1):
        for player in players:
            answer_player(player, gameweek)
        for entry in entries:
            answer_team(entry, gameweek)
    for entry in entries:
        answer_me(entry, locked)
    for number, start in (1, 1), (2, 2):
        rows = [
            {"rank": rank, "entry": entry, "name": NAMES[entry], "total": total, "transfers": shown.transfers[entry]}
            for rank, entry, total in shown.classic[number]
        ]
        say({"kind": "classic", "name": "League", "rows": rows, "start": start})
    names = "rank", "entry", "won", "drawn", "lost", "points", "scored"
    rows = [{**dict(zip(names, row)), "name": NAMES[row[1]]} for row in shown.head]
    say({"kind": "head", "name": "League", "rows": rows, "start": 1})
    say({"rounds": shown.cup, "start": 1})
