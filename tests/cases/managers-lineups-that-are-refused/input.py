# Lineups that are refused, each by one rule and, where it can be, by those behind it.
from managers import FIRST, begin_with_squad, do, is_refused


def is_no_lineup(*players, captain, vice):
    is_refused(FIRST, "/lineup", players=players, captain=captain, vice=vice)


begin_with_squad()
is_no_lineup(2, 1, 3, 16, 5, 6, 7, 8, 9, 10, 11, 12, 12, 14, 15, captain=10, vice=10)
is_no_lineup(2, 1, 3, 4, 5, 6, 7, 8, 9, 10, 11, 12, 12, 14, 15, captain=10, vice=10)
is_no_lineup(2, 1, 13, 4, 5, 6, 7, 8, 9, 10, 11, 12, 3, 14, 15, captain=10, vice=10)
is_no_lineup(1, 2, 13, 4, 5, 6, 7, 8, 9, 10, 11, 12, 3, 14, 15, captain=10, vice=10)
is_no_lineup(1, 2, 3, 4, 14, 6, 7, 8, 9, 15, 5, 12, 13, 10, 11, captain=2, vice=2)
is_no_lineup(1, 2, 3, 4, 5, 6, 7, 8, 9, 10, 11, 12, 13, 14, 15, captain=10, vice=10)
is_no_lineup(1, 2, 3, 4, 5, 6, 7, 8, 9, 10, 11, 12, 13, 14, 15, captain=13, vice=10)
is_no_lineup(1, 2, 3, 4, 5, 6, 7, 8, 9, 10, 11, 12, 13, 14, 15, captain=10, vice=16)
is_no_lineup(1, 2, 3, 4, 5, 6, 7, 8, 9, 10, 11, 12, 13, 14, 15, captain=12, vice=10)
do(FIRST, "/lineup", players=[1, 2, 3, 4, 14, 15, 5, 6, 7, 8, 10, 12, 9, 11, 13], captain=1, vice=15)
