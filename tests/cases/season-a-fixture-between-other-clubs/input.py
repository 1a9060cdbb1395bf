# The clubs of fixtures that have no facts, and of some that have.
from managers import FIRST, OPERATOR, ask, begin, do, is_refused, last, line

begin()
ask("/fixtures/1", FIRST)

# it acts once
do(OPERATOR, "/fixtures/1", home=3, away=4)
last[OPERATOR] -= 1
do(OPERATOR, "/fixtures/1", home=3, away=4)
last[OPERATOR] -= 1
is_refused(OPERATOR, "/fixtures/1", home=4, away=3)
last[OPERATOR] += 1
ask("/fixtures/1", FIRST)
do(OPERATOR, "/fixtures/1", home=3, away=4)

# what is refused
for fixture in ("0", "6", "1000000", "4294967295", "4294967296", "01"):
    is_refused(OPERATOR, f"/fixtures/{fixture}", home=1, away=2)
is_refused(OPERATOR, "/fixtures/1", home=7, away=2)
is_refused(OPERATOR, "/fixtures/1", home=1, away=255)
is_refused(OPERATOR, "/fixtures/1", home=3, away=3)
is_refused(OPERATOR, "/fixtures/1", home=0, away=3)
is_refused(OPERATOR, "/fixtures/1", home=1, away=256)
is_refused(OPERATOR, "/fixtures/1", away=3)
is_refused(FIRST, "/fixtures/1", home=1, away=2)

# with a line, and with the mark
do(OPERATOR, "/fixtures/1/line", **line(1))
is_refused(OPERATOR, "/fixtures/1", home=5, away=6)
is_refused(OPERATOR, "/fixtures/1", home=3, away=4)
do(OPERATOR, "/fixtures/1/drop", player=1)
do(OPERATOR, "/fixtures/1", home=5, away=6)
do(OPERATOR, "/fixtures/1/finished", finished=True)
is_refused(OPERATOR, "/fixtures/1", home=1, away=2)
do(OPERATOR, "/fixtures/1/finished", finished=False)
do(OPERATOR, "/fixtures/1", home=1, away=6)
ask("/fixtures/1", FIRST)

# in an open gameweek, and in none
do(OPERATOR, "/fixtures/2", home=6, away=5)
do(OPERATOR, "/fixtures/2/move", gameweek=None, kickoff=33333)
do(OPERATOR, "/fixtures/2", home=5, away=6)
ask("/fixtures/2", FIRST)
