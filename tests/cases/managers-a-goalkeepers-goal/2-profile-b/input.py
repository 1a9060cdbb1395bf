# A goal of a goalkeeper, under profile B.
from managers import FIRST, OPERATOR, ask, begin_with_squad, do, line

begin_with_squad(profile=2)
do(OPERATOR, "/fixtures/1/line", **line(1, goals=1))
ask("/fixtures/1", FIRST)
ask("/players/1/gameweeks/1", FIRST)
ask("/entries/1/gameweeks/1", FIRST)
