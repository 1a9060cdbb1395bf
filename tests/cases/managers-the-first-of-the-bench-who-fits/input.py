# A match without two of the eleven, from which one line after the other is taken away.
from managers import FIRST, OPERATOR, SQUAD, ask, begin_with_squad, do, sheet

begin_with_squad()
sheet(1, [player for player in SQUAD if player not in (2, 6)])
ask("/entries/1/gameweeks/1", FIRST)
do(OPERATOR, "/fixtures/1/finished", finished=True)
ask("/entries/1/gameweeks/1", FIRST)
for player in (1, 13, 14):
    do(OPERATOR, "/fixtures/1/drop", player=player)
    ask("/entries/1/gameweeks/1", FIRST)
