# A head-to-head league of four over its three rounds.
from managers import OPERATOR, ask, begin, do, enter, join, league, line, manager, register

begin()
enter(2, 3, 4)
for entry, captain in (1, 10), (2, 5), (3, 6), (4, 11):
    register(entry, captain, vice=7)
league(4, "head", start=1)
for entry in (3, 1, 2):
    join(entry, 1)
do(OPERATOR, "/leagues/1/draw", order=[1, 2, 3, 4])
lines = [line(player, goals=int(player in (6, 10))) for player in range(1, 12)]
do(OPERATOR, "/fixtures/1/sheet", lines=lines, finished=False)
ask("/leagues/1", manager(4))
ask("/leagues/1", manager(4))
do(OPERATOR, "/fixtures/3/sheet", lines=[line(5, goals=1)], finished=False)
ask("/leagues/1", manager(4))
