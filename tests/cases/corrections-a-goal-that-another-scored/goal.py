"""What the views show once both gameweeks are played, with the goal of fixture 1 where it was first and where it is then.

A line of 90 minutes has 2 points and 6 in the bonus points system (the system, below); 59 minutes give 1 and 3. Everybody
concedes one goal, so there is no clean sheet and nothing is taken off.
"""
from corrections import shown

ELEVENS = (*range(1, 12), 17, 18, 19)  # who play, in both matches
ASKED = (6, 7, 8, 10, 18)
PLAIN = {player: (2, 6, 0) for player in ELEVENS}
PLAYED = {player: (2, 0, 1) for player in ELEVENS}


def goal_of_10():
    """Fixture 1 as it was first. P10: 2 + 4 = 6 for his goal, 6 + 24 = 30 in the system. P8: 20 key passes, 26. P18: 2
    assists, 2 + 6 = 8, 6 + 18 = 24. P6: a key pass, 7. P19: 59 minutes. The bonus is 3 for P10, 2 for P8, 1 for P18.
    Entry 1: nine with 2 (P1 to P7, P9, P11), P8 2 + 2 = 4, P10 6 + 3 = 9: 31, and 9 for its captain P10: 40. Entry 2: 31,
    and 2 for P6: 33. Entries 3 and 4: nine with 2 (P1 to P5, P7, P9, P11, P17), P19 1, P18 8 + 1 = 9: 28; with 9 for P18
    37, with 2 for P17 30.
    """
    shown.lines[1] = {**PLAIN, 6: (2, 7, 0), 8: (2, 26, 2), 10: (6, 30, 3), 18: (8, 24, 1), 19: (1, 3, 0)}
    shown.did[1] = {**PLAYED, 8: (4, 0, 1), 10: (9, 1, 1), 18: (9, 0, 1), 19: (1, 0, 1)}
    shown.teams[1] = {1: 40, 2: 33, 3: 37, 4: 30}


def goal_of_6():
    """Fixture 1 with the goal of P10 as that of P6. P10: 2, 6. P6: 2 + 5 = 7, 6 + 18 + 1 = 25. The bonus is 3 for P8, 2
    for P6, and still 1 for P18.
    Entry 1: eight with 2 (P1 to P5, P7, P9, P11), P6 7 + 2 = 9, P8 2 + 3 = 5, P10 2: 32, and 2 for P10: 34. Entry 2: 32,
    and 9 for P6: 41. Entries 3 and 4 have neither of the two nor P8, so they keep what they had: entry 4 has P6 and P10
    from gameweek 2 on.
    """
    shown.lines[1] |= {6: (7, 25, 2), 8: (2, 26, 3), 10: (2, 6, 0)}
    shown.did[1] |= {6: (9, 1, 1), 8: (5, 0, 1), 10: (2, 0, 1)}
    shown.teams[1] |= {1: 34, 2: 41}


def second_gameweek():
    """Fixture 2, not finished, so nobody has bonus. P10: two goals, 2 + 8 = 10, 6 + 48 = 54. P18: a goal and an assist, 2
    + 4 + 3 = 9, 6 + 24 + 9 = 39.
    Entry 1: ten with 2, P10 10: 30, and 10 for him: 40. Entry 2: 30, and 2 for P6: 32. Entry 3: ten with 2, P18 9: 29, and
    9 for him: 38. Entry 4 has sold P9 and P18 for P6 and P10: ten with 2, P10 10, 2 for P17: 32, and 28 after 4.
    """
    shown.lines[2] = {**PLAIN, 10: (10, 54, 0), 18: (9, 39, 0)}
    shown.did[2] = {**PLAYED, 10: (10, 2, 1), 18: (9, 1, 1)}
    shown.teams[2] = {1: 40, 2: 32, 3: 38, 4: 32}


def two_swaps_of_4():
    """From gameweek 2 on entry 4 has P6 in the slot of P9 and P10 in that of P18. One of its two transfers was free, the
    other costs 4; none is left, so one is free in gameweek 3, where the others have two.
    """
    for gameweek in 2, 3:
        shown.fifteens[4, gameweek] = [1, 2, 3, 4, 5, 17, 7, 19, 6, 10, 11, 12, 13, 14, 15]
    shown.others[2, 4] = {"cost": 4}
    shown.free = {1: 2, 2: 2, 3: 2, 4: 1}
    shown.last[4], shown.transfers[4] = 4, 2


def tables_with_goal_of_10():
    """Gameweek 1: 1 beats 2 by 40 to 33; the Average has (40 + 33 + 37) / 3 = 36.67, so 36, and 3 beats it with 37.
    Gameweek 2: 1 beats 3 by 40 to 38; the Average has (40 + 32 + 38) / 3 = 36.67, so 36, and 2 loses to it with 32.
    Cup: 1 beats 2, and 3 beats 4 by 37 to 30; then 1 beats 3 by 40 to 38.
    """
    shown.totals = {1: 40 + 40, 2: 33 + 32, 3: 37 + 38, 4: 30 + 28}
    shown.classic[1] = [(1, 1, 80), (2, 3, 75), (3, 2, 65), (4, 4, 58)]
    shown.classic[2] = [(1, 1, 40), (2, 2, 32), (3, 4, 28)]
    shown.head = [(1, 1, 2, 0, 0, 6, 80), (2, 3, 1, 0, 1, 3, 75), (3, 2, 0, 0, 2, 0, 65)]
    shown.cup = [[1, 3], [1]]


def tables_with_goal_of_6():
    """Gameweek 1: 2 beats 1 by 41 to 34; the Average has (34 + 41 + 37) / 3 = 37.33, so 37, and 3 draws with it, though
    its points are those of before. Gameweek 2 is as it was, and so is league 2, which begins there.
    Cup: 2 beats 1, and meets 3 in place of 1, to whom it loses by 32 to 38.
    """
    shown.totals |= {1: 34 + 40, 2: 41 + 32}
    shown.classic[1] = [(1, 3, 75), (2, 1, 74), (3, 2, 73), (4, 4, 58)]
    shown.head = [(1, 1, 1, 0, 1, 3, 74), (2, 2, 1, 0, 1, 3, 73), (3, 3, 0, 1, 1, 1, 75)]
    shown.cup = [[2, 3], [3]]
