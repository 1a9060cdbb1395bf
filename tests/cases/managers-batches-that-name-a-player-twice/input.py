# Batches that name a player twice, that crowd a club, that cost all or a tenth more, and more than twenty transfers.
from managers import FIRST, OPERATOR, begin_with_squad, do, is_refused


def swaps(*pairs):
    return [{"out": out, "in": into} for out, into in pairs]


begin_with_squad()
is_refused(FIRST, "/transfers", swaps=swaps((6, 17), (6, 17)))
is_refused(FIRST, "/transfers", swaps=swaps((6, 17), (17, 7)))
is_refused(FIRST, "/transfers", swaps=swaps((6, 17), (7, 17)))
is_refused(FIRST, "/transfers", swaps=swaps((6, 6)))
is_refused(FIRST, "/transfers", swaps=swaps((6, 17), (7, 6)))
do(OPERATOR, "/clubs", player=17, club=1)
is_refused(FIRST, "/transfers", swaps=swaps((6, 17)))
do(FIRST, "/transfers", swaps=swaps((6, 17), (3, 16)))
do(OPERATOR, "/prices", player=18, price=200)
do(OPERATOR, "/prices", player=6, price=151)
is_refused(FIRST, "/transfers", swaps=swaps((10, 18), (17, 6)))
do(OPERATOR, "/prices", player=6, price=150)
do(FIRST, "/transfers", swaps=swaps((10, 18), (17, 6)))
for _ in range(8):
    do(FIRST, "/transfers", swaps=swaps((6, 17)))
    do(FIRST, "/transfers", swaps=swaps((17, 6)))
is_refused(FIRST, "/transfers", swaps=swaps((6, 17)))
