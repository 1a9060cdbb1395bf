# A head-to-head league of three over four rounds.
from managers import OPERATOR, ask, begin, do, enter, join, league, line, manager, register

SWAPS = [{"out": 2, "in": 16}, {"out": 9, "in": 17}, {"out": 11, "in": 18}]
begin()
enter(2, 3)
for entry, captain in (1, 10), (2, 5), (3, 6):
    register(entry, captain, vice=7)
league(1, "head", start=1)
join(2, 1)
join(3, 1)
ask("/leagues/1", OPERATOR)
do(OPERATOR, "/leagues/1/draw", order=[2, 3, 1])
ask("/leagues/1", OPERATOR)
ask("/leagues/1", OPERATOR)
lines = [line(player) for player in (1, 2, 3, 4, 6, 7, 8)]
lines += [line(5, goals=1), line(9, minutes=59), line(10, goals=3)]
do(OPERATOR, "/fixtures/1/sheet", lines=lines, finished=False)
for entry in (1, 2, 3):
    ask(f"/entries/{entry}/gameweeks/1", OPERATOR)
ask("/leagues/1", manager(1))
lines = [line(player, minutes=0, conceded=0, yellow=1) for player in (10, 11)]
do(OPERATOR, "/fixtures/2/sheet", lines=lines, finished=False)
ask("/leagues/1", manager(2))
do(manager(3), "/transfers", swaps=SWAPS)
ask("/leagues/1", manager(3))
do(manager(1), "/transfers", swaps=SWAPS)
ask("/leagues/1", manager(1))
