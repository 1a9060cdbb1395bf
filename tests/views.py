"""What the cases `windows-..` of the views below /api/ share: a season, when it is looked at, and what its lines are worth.

The season is that of managers.py, with fixtures 6 (clubs 3 and 4, gameweek 2) and 7 (clubs 6 and 5, in no gameweek) more.
Entries 1 and 2 play from gameweek 1, entry 3 from gameweek 2, entry 4 is never registered. League 1 is a classic one;
league 2 a head-to-head one of three from gameweek 2, league 3 one that is never drawn, and league 4 one of entries 2 and 1
from gameweek 1. Cup 1 has a final in gameweek 3, and cup 2 a bye and two rounds, in gameweeks 2 and 3.

It is looked at in seven stages, each behind its commands below:
begun      nothing is locked
first      gameweek 1 is locked and played; for gameweek 2 entry 1 makes two transfers, of which one costs points, entry 2
           plays a free hit, and entry 3 registers, makes a transfer and plays a bench boost. Of that nothing is shown
second     gameweek 2 is locked and played, but fixture 6 is not finished. Entry 1 makes a transfer and plays a triple
           captain for gameweek 3, which is open: nothing of it is shown
corrected  P2's goal of gameweek 1 is taken back, so the bonus changes; fixture 6 is finished, which gives its bonus
moved      fixture 6 moves to gameweek 1, and its lines with it. P4 goes to club 1, P6 to club 6, and P18 leaves
third      gameweek 3 is locked, and fixture 3 finished without a line
fourth     gameweek 4 is locked, and in fixture 4 P6 scores an own goal in his first minute, so all have less than nothing

An input.py says which targets are looked at in which stage, and its output.py the answers. Each target is asked twice: with
the slash at its end by the operator, and without it, with a body that is no JSON, by the manager of entry 2.
"""
import json

from managers import FIRST, OPERATOR, SQUAD, answer, ask, begin, do

MANAGERS = {1: FIRST, 2: "manager02", 3: "manager03"}
NAMES = {1: "First", 2: "Entry 2", 3: "Entry 3", None: "AVERAGE"}
FIGURES = {
    "minutes": 0, "goals": 1, "assists": 2, "conceded": 3, "saves": 4, "penalties_saved": 5, "penalties_missed": 6,
    "yellow": 7, "red": 8, "own_goals": 9, "key_passes": 14,
}
SET_UP = 25  # so many commands begin the season


def line(player, minutes=90, conceded=1, **others):
    """A plain line has 2 points, and 6 in the bonus points system."""
    figures = 28 * [0]
    for name, figure in {"minutes": minutes, "conceded": conceded, **others}.items():
        figures[FIGURES[name]] = figure
    return {"player": player, "figures": figures}


# Clubs 1 and 2 meet in fixture 1. P3 and P12 are not there, and P13 not for a minute. P6 scores, P2 does, and P4 twice over
# helps the others: by an own goal, and by a red card, beside which the yellow one does not count.
SHEET_1 = [
    line(1, saves=4), line(2, goals=1), line(4, minutes=70, conceded=2, yellow=1, red=1, own_goals=1),
    line(5, conceded=2, assists=1, yellow=1), line(6, conceded=2, goals=1), line(7), line(8),
    line(9, minutes=30, conceded=0), line(10, penalties_missed=1), line(11, minutes=60, conceded=0),
    line(13, minutes=0, conceded=0), line(14), line(15, conceded=0),
]
SHEET_2 = [
    line(1), line(2), line(3), line(4, conceded=0), line(5, conceded=0), line(6, conceded=0, goals=1), line(16),
    line(17, key_passes=9), line(18, assists=1),
]
SHEET_6 = [
    line(6, minutes=10, conceded=0, yellow=1), line(7, minutes=45, conceded=0), line(8, minutes=63, conceded=2, goals=1),
    line(9, minutes=63, conceded=2), line(10, minutes=63, goals=2), line(11, minutes=63),
    line(12, minutes=63, penalties_saved=1),
]
SHEET_4 = [line(6, minutes=1, conceded=0, own_goals=1), line(8, minutes=0, conceded=0)]


def with_others(**slots):
    """The first squad with others in some slots."""
    return [slots.get(f"slot{slot}", player) for slot, player in enumerate(SQUAD, 1)]


def operator(target, made=None, /, **members):
    return OPERATOR, target, made, members


def manager(entry, target, made=None, /, **members):
    return MANAGERS[entry], target, made, members


def league(entry, number, kind, start, name):
    return manager(entry, "/leagues", {"league": number}, kind=kind, name=name, code=f"code{number}", start=start)


def join(entry, number):
    return manager(entry, f"/leagues/{number}/join", code=f"code{number}")


STAGES = {
    "begun": [
        operator("/fixtures", id=6, home=3, away=4, gameweek=2, kickoff=25400),
        operator("/fixtures", id=7, home=6, away=5, gameweek=None, kickoff=12345),
        *[operator("/keys", {"entry": it}, key=f"manager{it:02}", name=f"Entry {it}") for it in (2, 3, 4)],
        manager(1, "/squad", players=SQUAD, captain=5, vice=10),
        manager(2, "/squad", players=SQUAD, captain=6, vice=5),
        league(1, 1, "classic", 1, "Office"),
        league(1, 2, "head", 2, "Lunch"),
        league(1, 3, "head", 1, "Never drawn"),
        league(2, 4, "head", 1, "Derby"),
        join(1, 4),
        join(2, 1),
        join(2, 2),
        operator("/leagues/4/draw", order=[2, 1]),
        operator("/cups", {"cup": 1}, start=3, slots=[2, 1], coins=[1]),
    ],
    "first": [
        operator("/fixtures/1/sheet", lines=SHEET_1, finished=True),
        *[operator("/prices", player=player, price=price) for player, price in ((9, 53), (17, 55), (18, 60))],
        manager(3, "/squad", players=SQUAD, captain=8, vice=7),
        manager(3, "/transfers", swaps=[{"out": 15, "in": 16}]),
        manager(3, "/chip", chip="bench_boost"),
        join(3, 1),
        join(3, 2),
        operator("/leagues/2/draw", order=[3, 1, 2]),
        operator("/cups", {"cup": 2}, start=2, slots=[1, 0, 3, 2], coins=[0, 0, 0]),
        manager(1, "/transfers", swaps=[{"out": 15, "in": 16}, {"out": 9, "in": 17}]),
        manager(1, "/lineup", players=with_others(slot9=17, slot15=16), captain=10, vice=5),
        manager(2, "/chip", chip="free_hit"),
        manager(2, "/transfers", swaps=[{"out": 10, "in": 18}]),
        manager(2, "/lineup", players=with_others(slot10=18), captain=7, vice=5),
    ],
    "second": [
        operator("/fixtures/2/sheet", lines=SHEET_2, finished=True),
        operator("/fixtures/6/sheet", lines=SHEET_6, finished=False),
        manager(1, "/chip", chip="triple_captain"),
        manager(1, "/transfers", swaps=[{"out": 17, "in": 9}]),
    ],
    "corrected": [
        operator("/fixtures/1/line", **line(2)),
        operator("/fixtures/6/finished", finished=True),
    ],
    "moved": [
        operator("/fixtures/6/move", gameweek=1, kickoff=15400),
        operator("/clubs", player=4, club=1),
        operator("/clubs", player=6, club=6),
        operator("/gone", player=18, gone=True),
    ],
    "third": [operator("/fixtures/3/finished", finished=True)],
    "fourth": [operator("/fixtures/4/sheet", lines=SHEET_4, finished=False)],
}


def play(looks):
    """The season, with the targets that are looked at in each stage."""
    begin()
    for stage, commands in STAGES.items():
        for key, target, _, members in commands:
            do(key, target, **members)
        for target in looks.get(stage, ()):
            ask(f"{target}/", OPERATOR)
            ask(target, MANAGERS[2], "{what is no JSON")


def say(body, status="200 OK"):
    answer(status, json.dumps(body, sort_keys=True, separators=(",", ":")))


def answer_play(shown):
    """The answers to all this: to each look of a stage what `shown` has for it, in their order; None where it is 404."""
    numbers = {OPERATOR: SET_UP}
    for number in range(1, SET_UP):
        say({"done": number})
    say({"done": SET_UP, "entry": 1}, "201 Created")
    for stage, commands in STAGES.items():
        for key, _, made, _ in commands:
            numbers[key] = numbers.get(key, 0) + 1
            say({"done": numbers[key], **(made or {})}, "201 Created" if made else "200 OK")
        for body in shown.get(stage, ()):
            for _ in range(2):
                say({"error": "unknown"}, "404 Not Found") if body is None else say(body)


# What the lines are worth, by the tables of points and of the bonus points system. What is not named is 0; conceded is that
# of the sheets above.

STATS = (
    "assists", "bonus", "bps", "clean_sheets", "goals_conceded", "goals_scored", "minutes", "own_goals", "penalties_missed",
    "penalties_saved", "red_cards", "saves", "total_points", "yellow_cards",
)


def worth(points, bps, minutes=90, goals_conceded=1, **others):
    """What a line shows; `points` are with the bonus."""
    return {**dict.fromkeys(STATS, 0), "total_points": points, "bps": bps, "minutes": minutes, "goals_conceded": goals_conceded, **others}


# The bonus goes to P6 with 24 (3), and to P2 and P15 with 18 (2 each, since one is above); P1 with 14 has three above.
WORTH_1 = {
    1: worth(3, 14, saves=4),  # 2, and 1 for three saves; 6 + 4 times 2
    2: worth(10, 18, goals_scored=1, bonus=2),  # 2 + 6 + 2; 6 + 12
    4: worth(-4, -9, minutes=70, goals_conceded=2, red_cards=1, own_goals=1),  # 2 - 1 - 3 - 2; 6 - 9 - 6
    5: worth(4, 12, goals_conceded=2, assists=1, yellow_cards=1),  # 2 + 3 - 1; 6 + 9 - 3
    6: worth(10, 24, goals_conceded=2, goals_scored=1, bonus=3),  # 2 + 5 + 3; 6 + 18
    7: worth(2, 6),
    8: worth(2, 6),
    9: worth(1, 3, minutes=30, goals_conceded=0),
    10: worth(0, 0, penalties_missed=1),  # 2 - 2; 6 - 6
    11: worth(2, 3, minutes=60, goals_conceded=0, clean_sheets=1),  # a forward's clean sheet is worth nothing
    13: worth(0, 0, minutes=0, goals_conceded=0),
    14: worth(2, 6),
    15: worth(8, 18, goals_conceded=0, clean_sheets=1, bonus=2),  # 2 + 4 + 2; 6 + 12
}
# The bonus: P6 with 24 (3), P4 with 18 (2), P17 and P18 with 15 (1 each).
WORTH_2 = {
    1: worth(2, 6),
    2: worth(2, 6),
    3: worth(2, 6),
    4: worth(8, 18, goals_conceded=0, clean_sheets=1, bonus=2),  # 2 + 4 + 2; 6 + 12
    5: worth(3, 6, goals_conceded=0, clean_sheets=1),  # 2 + 1
    6: worth(11, 24, goals_conceded=0, goals_scored=1, clean_sheets=1, bonus=3),  # 2 + 5 + 1 + 3; 6 + 18
    16: worth(2, 6),
    17: worth(3, 15, bonus=1),  # 6 + 9 key passes
    18: worth(6, 15, assists=1, bonus=1),  # 2 + 3 + 1; 6 + 9
}
# Not finished, so without bonus.
WORTH_6 = {
    6: worth(0, 0, minutes=10, goals_conceded=0, yellow_cards=1),  # 1 - 1; 3 - 3
    7: worth(1, 3, minutes=45, goals_conceded=0),
    8: worth(7, 24, minutes=63, goals_conceded=2, goals_scored=1),  # 2 + 5; 6 + 18
    9: worth(2, 6, minutes=63, goals_conceded=2),
    10: worth(10, 54, minutes=63, goals_scored=2),  # 2 + 8; 6 + 48
    11: worth(2, 6, minutes=63),
    12: worth(7, 21, minutes=63, penalties_saved=1),  # 2 + 5; 6 + 15
}
# Without P2's goal the bonus of fixture 1 goes to P6 with 24 (3), P15 with 18 (2) and P1 with 14 (1).
CORRECTED_1 = WORTH_1 | {1: worth(4, 14, saves=4, bonus=1), 2: worth(2, 6)}
# Finished, the bonus of fixture 6 goes to P10 with 54 (3), P8 with 24 (2) and P12 with 21 (1).
FINISHED_6 = WORTH_6 | {
    8: worth(9, 24, minutes=63, goals_conceded=2, goals_scored=1, bonus=2),
    10: worth(13, 54, minutes=63, goals_scored=2, bonus=3),
    12: worth(8, 21, minutes=63, penalties_saved=1, bonus=1),
}
LINES = {
    "begun": {},
    "first": {1: WORTH_1},
    "second": {1: WORTH_1, 2: WORTH_2, 6: WORTH_6},
    "corrected": {1: CORRECTED_1, 2: WORTH_2, 6: FINISHED_6},
}
LINES |= {"moved": LINES["corrected"], "third": LINES["corrected"]}
LINES["fourth"] = LINES["third"] | {
    4: {
        6: worth(-1, -3, minutes=1, goals_conceded=0, own_goals=1),  # 1 - 2; 3 - 6
        8: worth(0, 0, minutes=0, goals_conceded=0),
    }
}
# Which of these stand in a gameweek, and when the fixtures kick off.
PLAYED = {
    "begun": {1: (), 2: (), 3: ()},
    "first": {1: (1,), 2: (), 3: ()},
    "second": {1: (1,), 2: (2, 6), 3: ()},
    "corrected": {1: (1,), 2: (2, 6), 3: ()},
    "moved": {1: (1, 6), 2: (2,), 3: ()},
    "third": {1: (1, 6), 2: (2,), 3: ()},
    "fourth": {1: (1, 6), 2: (2,), 3: (), 4: (4,)},
}
TIMES = {  # a moment is so many hours, minutes and seconds behind midnight
    10000: "02:46:40", 20000: "05:33:20", 30000: "08:20:00", 40000: "11:06:40", 50000: "13:53:20",
    12345: "03:25:45", 15400: "04:16:40", 25400: "07:03:20", 35400: "09:50:00", 45400: "12:36:40", 55400: "15:23:20",
}
# The team of the week in its order, with the points: of gameweek 1 3-5-2 with all five midfielders, since P13 did not play;
# of gameweek 2 3-4-3, though 3-5-2 with P9 in place of P11 makes as much. Without fixture 6 nine players played in gameweek
# 2, which are no eleven.
DREAMS = {
    "first": {1: [(1, 3), (2, 10), (15, 8), (14, 2), (6, 10), (5, 4), (7, 2), (8, 2), (9, 1), (11, 2), (10, 0)]},
    "second": {2: [(12, 7), (4, 8), (2, 2), (3, 2), (6, 11), (8, 7), (5, 3), (17, 3), (10, 10), (18, 6), (11, 2)]},
    "corrected": {
        1: [(1, 4), (15, 8), (2, 2), (14, 2), (6, 10), (5, 4), (7, 2), (8, 2), (9, 1), (11, 2), (10, 0)],
        2: [(12, 8), (4, 8), (2, 2), (3, 2), (6, 11), (8, 9), (5, 3), (17, 3), (10, 13), (18, 6), (11, 2)],
    },
    "moved": {
        1: [(12, 8), (15, 8), (2, 2), (14, 2), (8, 11), (6, 10), (5, 4), (7, 3), (9, 3), (10, 13), (11, 4)],
        2: [],
    },
}
DREAMS["second"][1] = DREAMS["first"][1]
DREAMS["third"] = DREAMS["moved"]


def time_of(moment):
    return f"1970-01-01T{TIMES[moment]}Z"


def total(lines):
    """The sums of some lines."""
    return {name: sum(it[name] for it in lines) for name in STATS}


def lines_of(stage, player, fixtures=(1, 2, 4, 6)):
    """The player's lines in these fixtures."""
    return [LINES[stage][it][player] for it in fixtures if player in LINES[stage].get(it, {})]
