# A match whose mark is taken away and set, and whose lines go, one by one and with whole sheets.
from corrections import ask_all, begin_four, line, lines_of
from managers import OPERATOR, do

ASKED = 5, 6, 7, 8, 9, 10, 13, 14
PASSERS = line(7, key_passes=3), line(8, key_passes=5), line(9, key_passes=1)
OTHERS = line(6, goals=1), *PASSERS, line(13), line(14, 59), line(17, 59)


def put_sheet(*without, finished=True):
    """The sheet of fixture 1, in which P10 has no line, without these too."""
    lines = [one for one in lines_of((*range(1, 12), 17, 18, 19), *OTHERS) if one["player"] not in (10, *without)]
    do(OPERATOR, "/fixtures/1/sheet", lines=lines, finished=finished)


begin_four()
do(OPERATOR, "/fixtures/2/sheet", lines=[line(10, goals=1), line(6)], finished=False)
put_sheet()
ask_all(2, (1, 2), ASKED)
do(OPERATOR, "/fixtures/1/finished", finished=False)
ask_all(2, (1, 2), ASKED)
do(OPERATOR, "/fixtures", id=6, home=1, away=2, gameweek=1, kickoff=25400)
do(OPERATOR, "/fixtures/1/finished", finished=True)
ask_all(2, (1, 2), ASKED)
put_sheet(finished=False)
ask_all(2, (1, 2), ASKED)
put_sheet()
do(OPERATOR, "/fixtures/6/finished", finished=True)
ask_all(2, (1, 2), ASKED)
do(OPERATOR, "/fixtures/1/drop", player=13)
ask_all(2, (1, 2), ASKED)
do(OPERATOR, "/fixtures/1/line", **line(13))
ask_all(2, (1, 2), ASKED)
put_sheet(6)
ask_all(2, (1, 2), ASKED)
put_sheet(5, 13)
ask_all(2, (1, 2), ASKED)
put_sheet(*range(1, 20), finished=False)
ask_all(2, (1, 2), ASKED)
do(OPERATOR, "/fixtures/1/line", **line(5))
ask_all(2, (1, 2), ASKED)
do(OPERATOR, "/fixtures/1/drop", player=5)
ask_all(2, (1, 2), ASKED)
put_sheet()
ask_all(2, (1, 2), ASKED)
