# A lineup one second before the deadline, and one at its moment.
from managers import FIRST, SQUAD, ask, begin_with_squad, do

begin_with_squad()
do(FIRST, "/lineup", players=[1, 14, 3, 4, 5, 6, 7, 8, 9, 10, 11, 12, 13, 2, 15], captain=11, vice=10)
do(FIRST, "/lineup", players=SQUAD, captain=6, vice=7)
ask("/entries/1/gameweeks/1", FIRST)
ask("/me", FIRST)
ask("/entries/1/gameweeks/2", FIRST)
ask("/entries/1/gameweeks/2", FIRST)
ask("/entries/1/gameweeks/3", FIRST)
