# The views behind each change. How the numbers come about is said here and in goal.py.
import sys
from pathlib import Path

sys.path.append(str(Path(__file__).parents[1]))

from corrections import answer_all, answer_begin, done, shown
from goal import ASKED, goal_of_10, goal_of_6, second_gameweek, tables_with_goal_of_10, tables_with_goal_of_6, two_swaps_of_4

answer_begin()

# Gameweek 1 with its match finished. Entry 1 beats 2 by 40 to 33, and 3 the Average by 37 to 36. In the cup 1 and 3 go on.
# League 2, which begins in gameweek 2, has nothing yet, so all are level.
shown.stands = {1: (1, 15400, True), 2: (2, 25400, False)}
goal_of_10()
shown.totals = {1: 40, 2: 33, 3: 37, 4: 30}
shown.classic = {1: [(1, 1, 40), (2, 3, 37), (3, 2, 33), (4, 4, 30)], 2: [(1, 1, 0), (1, 2, 0), (1, 4, 0)]}
shown.head = [(1, 1, 1, 0, 0, 3, 40), (2, 3, 1, 0, 0, 3, 37), (3, 2, 0, 0, 1, 0, 33)]
shown.cup = [[1, 3], None]
done(32)
answer_all(1, (1, 2), ASKED)

# Gameweek 2 is locked and has no line. All have 0 there, and entry 4 has -4, since it made two transfers. So 3 and 1 draw,
# and 2 draws with the Average, whose mean is 0. In the final 1 and 3 are level in all, and the coin 1 is for 3.
done(4)
two_swaps_of_4()
shown.did[2], shown.teams[2] = {}, {1: 0, 2: 0, 3: 0, 4: 0}
shown.totals[4] = 30 - 4
shown.classic[1] = [(1, 1, 40), (2, 3, 37), (3, 2, 33), (4, 4, 26)]
shown.classic[2] = [(1, 1, 0), (1, 2, 0), (3, 4, -4)]
shown.head = [(1, 1, 1, 1, 0, 4, 40), (2, 3, 1, 1, 0, 4, 37), (3, 2, 0, 1, 1, 1, 33)]
shown.cup = [[1, 3], [3]]
answer_all(2, (1, 2), ASKED)

# Gameweek 2 is played.
done(33)
second_gameweek()
tables_with_goal_of_10()
answer_all(2, (1, 2), ASKED)

# The goal is that of P6.
done(34)
done(35)
goal_of_6()
tables_with_goal_of_6()
answer_all(2, (1, 2), ASKED)

# A line with the same figures, a sheet with the same lines and a mark that is set already change nothing.
for number in 36, 37, 38:
    done(number)
answer_all(2, (1, 2), ASKED)

# Nor does P20, who did not play.
done(39)
answer_all(2, (1, 2), (*ASKED, 20))

# He has a line in fixture 1: 30 key passes, 2 points and 36 in the system. So he has the bonus of 3, P8 with 26 has 2, P6
# with 25 has 1, and P18 with 24 none. Entry 1: eight with 2, P6 8, P8 4, P10 2: 30, and 2 for P10: 32. Entry 2: 30, and 8
# for P6: 38. Entry 3: 18 + 1 + 8 = 27, and 8 for P18: 35. Entry 4: 27, and 2 for P17: 29.
# 2 beats 1 by 38 to 32; the Average has (32 + 38 + 35) / 3 = 35, and 3 draws with it. In the cup 2 and 3 go on as before.
done(40)
shown.lines[1] |= {20: (2, 36, 3), 8: (2, 26, 2), 6: (7, 25, 1), 18: (8, 24, 0)}
shown.did[1] |= {20: (5, 0, 1), 8: (4, 0, 1), 6: (8, 1, 1), 18: (8, 0, 1)}
shown.teams[1] = {1: 32, 2: 38, 3: 35, 4: 29}
shown.totals = {1: 32 + 40, 2: 38 + 32, 3: 35 + 38, 4: 29 + 28}
shown.classic[1] = [(1, 3, 73), (2, 1, 72), (3, 2, 70), (4, 4, 57)]
shown.head = [(1, 1, 1, 0, 1, 3, 72), (2, 2, 1, 0, 1, 3, 70), (3, 3, 0, 1, 1, 1, 73)]
answer_all(2, (1, 2), (*ASKED, 20))

# Without his line all is as before.
done(41)
goal_of_10()
goal_of_6()
tables_with_goal_of_10()
tables_with_goal_of_6()
answer_all(2, (1, 2), (*ASKED, 20))
