# Fixtures 1 and 2 are played; fixture 2 moves to gameweek 1 and back; fixtures 3 and 6 without lines come to gameweek 1.
from corrections import ask_all, begin_four, line, lines_of
from managers import OPERATOR, do

ELEVENS, ASKED = (*range(1, 12), 17, 18, 19), (6, 8, 10, 13, 18)
begin_four()
for player, position in (20, "D"), (21, "M"):
    do(OPERATOR, "/players", id=player, name=f"P{player}", position=position, club=6, price=50)
takers = [line(player, key_passes=99) for player in (16, 20, 21)]
others = line(6, goals=1), line(17, assists=1), line(19, assists=1), line(13), *takers
do(OPERATOR, "/fixtures/1/sheet", lines=lines_of(ELEVENS, *others, without=[10]), finished=True)
others = line(8, key_passes=5), line(10, goals=2), line(18, goals=1)
do(OPERATOR, "/fixtures/2/sheet", lines=lines_of(ELEVENS, *others), finished=False)
ask_all(2, (1, 2, 3), ASKED)
do(OPERATOR, "/fixtures/2/move", gameweek=1, kickoff=25400)
ask_all(2, (1, 2, 3), ASKED)
do(OPERATOR, "/fixtures/2/finished", finished=True)
ask_all(2, (1, 2, 3), ASKED)
do(OPERATOR, "/fixtures/2/move", gameweek=2, kickoff=25400)
ask_all(2, (1, 2, 3), ASKED)
do(OPERATOR, "/fixtures/3/move", gameweek=1, kickoff=35400)
ask_all(2, (1, 2, 3), ASKED)
do(OPERATOR, "/fixtures/3/move", gameweek=None, kickoff=35400)
ask_all(2, (1, 2, 3), ASKED)
do(OPERATOR, "/fixtures", id=6, home=1, away=2, gameweek=1, kickoff=25400)
ask_all(2, (1, 2, 3, 6), ASKED)
for finished in True, False:
    do(OPERATOR, "/fixtures/6/finished", finished=finished)
    ask_all(2, (1, 2, 3, 6), ASKED)
for finished in True, False:
    do(OPERATOR, "/fixtures/6/sheet", lines=[], finished=finished)
    ask_all(2, (1, 2, 3, 6), ASKED)
