# Free transfers over a season of eight gameweeks, under profile B.
from managers import FIRST, ask, begin_with_squad, do

begin_with_squad(profile=2, gameweeks=8)
for _ in range(7):
    ask("/me", FIRST)
do(FIRST, "/transfers", swaps=[{"out": 2, "in": 16}])
ask("/me", FIRST)
ask("/me", FIRST)
for _ in range(3):
    do(FIRST, "/transfers", swaps=[{"out": 3, "in": 2}, {"out": 6, "in": 17}])
    do(FIRST, "/transfers", swaps=[{"out": 2, "in": 3}, {"out": 17, "in": 6}])
ask("/me", FIRST)
