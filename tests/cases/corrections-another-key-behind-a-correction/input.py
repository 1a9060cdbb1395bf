# A correction, another key behind it, and a correction behind that.
from managers import FIRST, OPERATOR, SECOND, SQUAD, ask, begin, do, join, league, line, sheet

begin()
do(OPERATOR, "/keys", key=SECOND, name="Second")
do(FIRST, "/squad", players=SQUAD, captain=10, vice=5)
do(SECOND, "/squad", players=SQUAD, captain=5, vice=10)
league(1, "classic", 1)
join(2, 1)
sheet(1, SQUAD)
ask("/leagues/1", FIRST)
do(OPERATOR, "/fixtures/1/line", **line(10, goals=2))
do(OPERATOR, "/keys/2", key="another02", name="Second again")
ask("/leagues/1", "another02")
ask("/leagues/1", SECOND)
do(OPERATOR, "/fixtures/1/line", **line(10))
ask("/leagues/1", "another02")
