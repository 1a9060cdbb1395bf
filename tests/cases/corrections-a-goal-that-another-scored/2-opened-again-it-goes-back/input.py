# The same views of the store that is opened again; the goal goes back to P10, and lines of P18 and of P10 change alone.
from corrections import ask_all, line
from managers import OPERATOR, do, last

last[OPERATOR] = 41
ASKED = (6, 7, 8, 10, 18, 20)
ask_all(2, (1, 2), ASKED)
do(OPERATOR, "/fixtures/1/line", **line(18, assists=1))
ask_all(2, (1, 2), ASKED)
do(OPERATOR, "/fixtures/1/line", **line(6, key_passes=1))
do(OPERATOR, "/fixtures/1/line", **line(10, goals=1))
ask_all(2, (1, 2), ASKED)
do(OPERATOR, "/fixtures/1/line", **line(18, assists=2, yellow=1))
ask_all(2, (1, 2), ASKED)
do(OPERATOR, "/fixtures/2/line", **line(10, goals=1))
ask_all(2, (1, 2), ASKED)
