# What manager 1 sees before and after manager 2 changed his open gameweek, and once it is locked.
from managers import OPERATOR, ask, begin, do, enter, join, league, line, manager, register

begin()
enter(2)
register(1, captain=10, vice=5)
register(2, captain=10, vice=5)
league(1, "classic", start=1)
league(1, "head", start=1)
join(2, 1)
join(2, 2)
do(OPERATOR, "/leagues/2/draw", order=[1, 2])
do(OPERATOR, "/cups", start=1, slots=[1, 2], coins=[1])
do(OPERATOR, "/cups", start=2, slots=[1, 2], coins=[1])


def look():
    for target in "leagues/1", "leagues/2", "cups/1", "cups/2", "entries/2/gameweeks/1", "entries/2/gameweeks/2":
        ask(f"/{target}", manager(1))


do(OPERATOR, "/fixtures/1/sheet", lines=[line(player) for player in range(1, 19)], finished=False)
look()
do(manager(2), "/transfers", swaps=[{"out": 2, "in": 16}, {"out": 9, "in": 17}, {"out": 11, "in": 18}])
do(manager(2), "/lineup", players=[12, 16, 14, 15, 5, 6, 7, 8, 17, 10, 18, 1, 13, 3, 4], captain=18, vice=17)
do(manager(2), "/chip", chip="triple_captain")
look()
do(manager(2), "/chip/cancel")
do(manager(2), "/chip", chip="bench_boost")
look()
do(OPERATOR, "/fixtures/2/sheet", lines=[line(player) for player in range(1, 19)], finished=False)
look()
