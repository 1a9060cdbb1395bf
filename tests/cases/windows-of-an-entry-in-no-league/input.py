# Four entries, looked at with nothing locked, with one to four gameweeks locked, and behind a correction.
from managers import FIRST, OPERATOR, SQUAD, ask, begin, do, enter, join, league, manager, register, sheet


def look():
    for entry in 1, 2, 3, 4:
        ask(f"/api/entry/{entry}/", OPERATOR)
        ask(f"/api/entry/{entry}", manager(4), "{what is no JSON")


def swaps(entry, *pairs):
    do(manager(entry), "/transfers", swaps=[{"out": out, "in": into} for out, into in pairs])


begin()
enter(2, 3, 4)
register(1, 10, 5)
register(2, 10, 5)
league(2, "classic", 3, "code1", "Late")
league(2, "head", 4, "code2", "Later")
look()
sheet(1, SQUAD, True)  # gameweek 1 is locked
do(OPERATOR, "/prices", player=15, price=55)
do(FIRST, "/chip", chip="wildcard")
swaps(1, (15, 16), (9, 17), (13, 18))
swaps(2, (9, 17))
look()
sheet(2, SQUAD, True)  # gameweek 2
register(3, 10, 5)
join(3, 1)
swaps(3, (15, 16))
swaps(1, (16, 15), (17, 9), (18, 13))
look()
do(OPERATOR, "/fixtures/2/finished", finished=False)
look()
sheet(3, SQUAD, False)  # gameweek 3
swaps(1, (15, 16))
look()
do(OPERATOR, "/fixtures/4/finished", finished=True)  # gameweek 4
look()
