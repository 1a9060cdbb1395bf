# What was shown last, and then the views behind each further change. More of the numbers is said in goal.py.
import sys
from pathlib import Path

sys.path.append(str(Path(__file__).parents[1]))

from corrections import answer_all, done, shown
from goal import ASKED, goal_of_10, goal_of_6, second_gameweek, tables_with_goal_of_10, tables_with_goal_of_6, two_swaps_of_4

shown.stands = {1: (1, 15400, True), 2: (2, 25400, False)}
goal_of_10()
goal_of_6()
two_swaps_of_4()
second_gameweek()
tables_with_goal_of_10()
tables_with_goal_of_6()
answer_all(2, (1, 2), (*ASKED, 20))

# P18 has one assist in fixture 1: 2 + 3 = 5, 6 + 9 = 15, and still the bonus of 1, so 6. Entry 3: 18 + 1 + 6 = 25, and 6 for
# P18: 31. Entry 4, which had him in gameweek 1: 25, and 2 for P17: 27. Entries 1 and 2 stay, and so does gameweek 2; but the
# Average has (34 + 41 + 31) / 3 = 35.33, so 35, and 3 loses to it. In the cup 3 beats 4 as before, by 31 to 27.
done(42)
shown.lines[1][18] = (5, 15, 1)
shown.did[1][18] = (6, 0, 1)
shown.teams[1] |= {3: 31, 4: 27}
shown.totals |= {3: 31 + 38, 4: 27 + 28}
shown.classic[1] = [(1, 1, 74), (2, 2, 73), (3, 3, 69), (4, 4, 55)]
shown.head = [(1, 1, 1, 0, 1, 3, 74), (2, 2, 1, 0, 1, 3, 73), (3, 3, 0, 0, 2, 0, 69)]
answer_all(2, (1, 2), (*ASKED, 20))

# The goal is that of P10 again: he, P6 and P8 have what they had first, and so entries 1 and 2, 40 and 33. 1 beats 2; the
# Average has (40 + 33 + 31) / 3 = 34.67, so 34, and 3 loses to it. In the cup 1 meets 3 again, and beats it by 40 to 38.
done(43)
done(44)
shown.lines[1] |= {6: (2, 7, 0), 8: (2, 26, 2), 10: (6, 30, 3)}
shown.did[1] |= {6: (2, 0, 1), 8: (4, 0, 1), 10: (9, 1, 1)}
shown.teams[1] |= {1: 40, 2: 33}
shown.totals |= {1: 40 + 40, 2: 33 + 32}
shown.classic[1] = [(1, 1, 80), (2, 3, 69), (3, 2, 65), (4, 4, 55)]
shown.head = [(1, 1, 2, 0, 0, 6, 80), (2, 3, 0, 0, 2, 0, 69), (3, 2, 0, 0, 2, 0, 65)]
shown.cup = [[1, 3], [1]]
answer_all(2, (1, 2), (*ASKED, 20))

# P18 has both assists again, and a yellow card: 2 + 2 x 3 - 1 = 7, 6 + 18 - 3 = 21, and still the bonus of 1, so 8. Entry 3:
# 18 + 1 + 8 = 27, and 8 for P18: 35. Entry 4: 27, and 2 for P17: 29. The Average has (40 + 33 + 35) / 3 = 36, so 3 loses to
# it, with points that would have beaten the 34 of before.
done(45)
shown.lines[1][18] = (7, 21, 1)
shown.did[1][18] = (8, 0, 1)
shown.teams[1] |= {3: 35, 4: 29}
shown.totals |= {3: 35 + 38, 4: 29 + 28}
shown.classic[1] = [(1, 1, 80), (2, 3, 73), (3, 2, 65), (4, 4, 57)]
shown.head = [(1, 1, 2, 0, 0, 6, 80), (2, 3, 0, 0, 2, 0, 73), (3, 2, 0, 0, 2, 0, 65)]
answer_all(2, (1, 2), (*ASKED, 20))

# P10 has one goal in fixture 2: 2 + 4 = 6, 6 + 24 = 30. Entry 1: ten with 2 and 6: 26, and 6 for P10: 32. Entry 2: 26, and 2
# for P6: 28. Entry 4, which has him since gameweek 2: 26, and 2 for P17: 28, and 24 after 4. Entry 3 keeps its 38, and
# gameweek 1 stays. So 3 beats 1, and 2 loses with 28 to (32 + 28 + 38) / 3 = 32.67, so 32; in the final 3 beats 1.
done(46)
shown.lines[2][10] = (6, 30, 0)
shown.did[2][10] = (6, 1, 1)
shown.teams[2] |= {1: 32, 2: 28, 4: 28}
shown.totals |= {1: 40 + 32, 2: 33 + 28, 4: 29 + 24}
shown.classic[1] = [(1, 3, 73), (2, 1, 72), (3, 2, 61), (4, 4, 53)]
shown.classic[2] = [(1, 1, 32), (2, 2, 28), (3, 4, 24)]
shown.head = [(1, 3, 1, 0, 1, 3, 73), (2, 1, 1, 0, 1, 3, 72), (3, 2, 0, 0, 2, 0, 61)]
shown.cup = [[1, 3], [3]]
answer_all(2, (1, 2), (*ASKED, 20))
