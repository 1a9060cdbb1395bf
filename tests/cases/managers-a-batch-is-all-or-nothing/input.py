# Batches that are refused and one that is done, with what they cost in points.
from managers import FIRST, OPERATOR, SQUAD, ask, begin_with_squad, do, is_refused, sheet

begin_with_squad()
sheet(1, SQUAD)
for player in (11, 16, 17):
    do(OPERATOR, "/prices", player=player, price=200)
is_refused(FIRST, "/transfers", swaps=[{"out": 2, "in": 16}, {"out": 6, "in": 17}, {"out": 7, "in": 18}])
is_refused(FIRST, "/transfers", swaps=[{"out": 2, "in": 16}, {"out": 6, "in": 17}])
ask("/me", FIRST)
do(FIRST, "/transfers", swaps=[{"out": 2, "in": 16}, {"out": 6, "in": 17}, {"out": 11, "in": 18}])
ask("/me", FIRST)
ask("/me", FIRST)
ask("/entries/1/gameweeks/2", FIRST)
