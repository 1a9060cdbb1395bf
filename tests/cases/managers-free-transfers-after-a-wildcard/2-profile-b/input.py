# A wildcard in the third gameweek, under profile B.
from managers import FIRST, ask, begin_with_squad, do

begin_with_squad(profile=2)
ask("/me", FIRST)
ask("/me", FIRST)
do(FIRST, "/chip", chip="wildcard")
do(FIRST, "/transfers", swaps=[{"out": 2, "in": 16}, {"out": 5, "in": 17}, {"out": 11, "in": 18}])
ask("/me", FIRST)
ask("/me", FIRST)
ask("/me", FIRST)
