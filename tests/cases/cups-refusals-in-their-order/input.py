# Cups that are refused, each rule in its turn, and then 32 cups.
from managers import OPERATOR, ask, begin, do, enter, is_refused, register

begin()
enter(2, 3)
register(1, captain=10, vice=5)
register(2, captain=10, vice=5)


def is_no_cup(start, slots, coins):
    is_refused(OPERATOR, "/cups", start=start, slots=slots, coins=coins)


is_no_cup(6, [1, 2], [0])
is_no_cup(1, [1, 4], [])
is_no_cup(1, [1, 0, 2], [0, 0])
is_no_cup(2, [], [])
is_no_cup(2, [1], [])
is_no_cup(2, [1, 0, 2], [0, 0])
is_no_cup(2, [1, 2], [])
is_no_cup(2, [1, 2], [0, 0])
is_no_cup(2, [1, 1], [0])
is_no_cup(2, [1, 0, 2, 1], [0, 0, 0])
is_no_cup(2, [0, 0], [0])
is_no_cup(2, [0, 0, 1, 2], [0, 0, 0])
is_no_cup(2, [1, 2, 0, 0], [0, 0, 0])
is_no_cup(5, [1, 0, 2, 0], [0, 0, 0])
is_no_cup(2, [1, 3], [0])
do(OPERATOR, "/cups", start=5, slots=[1, 2], coins=[0])
do(OPERATOR, "/cups", start=4, slots=[1, 0, 0, 2], coins=[1, 1, 1])
for _ in range(30):
    do(OPERATOR, "/cups", start=2, slots=[0, 1], coins=[1])
is_no_cup(6, [1, 2], [0])
is_no_cup(2, [1, 4], [0])
is_no_cup(1, [1], [])
is_no_cup(2, [1], [])
is_no_cup(2, [1, 2], [0])
ask("/cups/1", OPERATOR)
ask("/cups/2", OPERATOR)
ask("/cups/32", OPERATOR)
ask("/cups/33", OPERATOR)
