# A free hit in the second gameweek, with two transfers and a lineup.
from managers import FIRST, OPERATOR, ask, begin_with_squad, do, is_refused

begin_with_squad()
is_refused(FIRST, "/chip", chip="free_hit")
do(OPERATOR, "/prices", player=16, price=60)
do(FIRST, "/transfers", swaps=[{"out": 2, "in": 16}])
do(FIRST, "/chip", chip="free_hit")
do(FIRST, "/transfers", swaps=[{"out": 5, "in": 17}])
do(FIRST, "/lineup", players=[1, 16, 3, 4, 17, 6, 7, 8, 9, 10, 11, 12, 13, 14, 15], captain=11, vice=17)
ask("/me", FIRST)
is_refused(FIRST, "/chip/cancel")
ask("/me", FIRST)
ask("/entries/1/gameweeks/2", FIRST)
