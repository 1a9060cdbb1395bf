# Prices rise and fall around a squad that was bought at 50 each.
from managers import FIRST, OPERATOR, ask, begin_with_squad, do

begin_with_squad()
for player, price in [(2, 51), (3, 52), (4, 53), (5, 49), (16, 53)]:
    do(OPERATOR, "/prices", player=player, price=price)
ask("/me", FIRST)
do(FIRST, "/transfers", swaps=[{"out": 4, "in": 16}])
ask("/me", FIRST)
do(FIRST, "/transfers", swaps=[{"out": 16, "in": 4}])
ask("/me", FIRST)
