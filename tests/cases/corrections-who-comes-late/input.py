# An entry and a member of a league who come late, a goal of each gameweek that is another's, lines that change no points.
from corrections import NAMES, ask_all, begin_four, line, lines_of
from managers import OPERATOR, SQUAD, ask, do, enter, join, manager, register

ASKED = 6, 10, 13, 18


def ask_both():
    """All views, and then the second cup, which has other coins."""
    ask_all(2, (1, 2), ASKED, NAMES)
    ask("/cups/2", OPERATOR)


begin_four()
do(OPERATOR, "/cups", start=1, slots=[1, 2, 3, 4], coins=[0, 0, 0])
do(OPERATOR, "/fixtures/1/sheet", lines=lines_of((*range(1, 12), 17, 18, 19), line(6, goals=1)), finished=False)
ask_all(1, (1,), ASKED)
enter(5)
register(5, captain=10, vice=5, players=SQUAD)
do(manager(5), "/chip", chip="bench_boost")
join(5, 1)
ask_all(1, (1,), ASKED)
lines = lines_of((*range(1, 16), 17, 18, 19), line(13, goals=1))
do(OPERATOR, "/fixtures/2/sheet", lines=lines, finished=False)
ask_both()
join(3, 2)
ask_both()
do(OPERATOR, "/fixtures/1/line", **line(6))
do(OPERATOR, "/fixtures/1/line", **line(18, goals=1))
ask_both()
do(OPERATOR, "/fixtures/2/line", **line(10, conceded=0))
ask_both()
do(OPERATOR, "/fixtures/2/line", **line(18, goals=1, own_goals=2))
ask_both()
do(OPERATOR, "/fixtures/2/line", **line(13))
do(OPERATOR, "/fixtures/2/line", **line(18, goals=1))
ask_both()
do(OPERATOR, "/gone", player=10, gone=True)
do(OPERATOR, "/clubs", player=18, club=5)
do(OPERATOR, "/deadlines", gameweek=3, deadline=29000)
ask_both()
