# A cup of four with a bye, a tie that a coin decides, and a correction of it.
from managers import OPERATOR, ask, begin, do, enter, line, manager, register

begin()
enter(2, 3)
for entry, captain in (1, 10), (2, 5), (3, 6):
    register(entry, captain, vice=7)
do(OPERATOR, "/cups", start=1, slots=[1, 0, 2, 3], coins=[0, 1, 0])
ask("/cups/1", manager(1))
do(OPERATOR, "/fixtures/1/sheet", lines=[line(player) for player in range(1, 12)], finished=False)
ask("/cups/1", manager(1))
lines = [line(player, goals=int(player == 6)) for player in range(1, 12)]
do(OPERATOR, "/fixtures/2/sheet", lines=lines, finished=False)
ask("/cups/1", manager(1))
do(OPERATOR, "/fixtures/1/line", **line(5, goals=1))
ask("/cups/1", manager(1))
do(OPERATOR, "/fixtures/1/line", **line(5))
ask("/cups/1", OPERATOR)
