# A captain who does not play, then a vice-captain who does not either, then a card for the captain.
from managers import FIRST, OPERATOR, SQUAD, ask, begin_with_squad, do, line, sheet

begin_with_squad()
sheet(1, [player for player in SQUAD if player != 10])
ask("/entries/1/gameweeks/1", FIRST)
do(OPERATOR, "/fixtures/1/finished", finished=True)
ask("/entries/1/gameweeks/1", FIRST)
do(OPERATOR, "/fixtures/1/drop", player=5)
ask("/entries/1/gameweeks/1", FIRST)
do(OPERATOR, "/fixtures/1/line", **line(10, minutes=0, conceded=0, yellow=1))
ask("/entries/1/gameweeks/1", FIRST)
