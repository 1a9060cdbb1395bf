# The views behind each change, and how their numbers come about. A line of 90 minutes has 2 points and 6 in the bonus
# points system (the system, below); everybody concedes one goal, so there is no clean sheet and nothing is taken off.
from corrections import answer_all, answer_begin, done, shown

ELEVENS, ASKED = (*range(1, 12), 17, 18, 19), (6, 8, 10, 13, 18)
PLAIN, PLAYED = {player: (2, 6, 0) for player in ELEVENS}, {player: (2, 0, 1) for player in ELEVENS}
WITH_13 = [1, 2, 3, 4, 5, 6, 7, 8, 9, 13, 11]  # the eleven in which slot 13 stands for slot 10

answer_begin()
for number in 32, 33, 34, 35:  # P20 and P21, and both sheets
    done(number)

# Fixture 1, finished: P6 scores, 2 + 5 = 7 and 6 + 18 = 24 in the system; P17 and P19 have an assist, 2 + 3 = 5 and 6 + 9
# = 15. P16, P20 and P21, whom nobody has, have 99 key passes, 6 + 99 = 105, and the bonus: 3 each, and three above the
# others. P10 does not play, P13 does.
fixture_1 = {**PLAIN, 6: (7, 24, 0), 17: (5, 15, 0), 19: (5, 15, 0), 13: (2, 6, 0)}
fixture_1 |= {16: (2, 105, 3), 20: (2, 105, 3), 21: (2, 105, 3)}
del fixture_1[10]
played_1 = {**PLAYED, 6: (7, 1, 1), 13: (2, 0, 1), 17: (5, 0, 1), 19: (5, 0, 1)}
del played_1[10]

# Fixture 2, not finished: P10 has two goals, 2 + 8 = 10 and 6 + 48 = 54; P18 one, 2 + 4 = 6 and 6 + 24 = 30; P8 five key
# passes, 11.
shown.lines = {1: fixture_1, 2: {**PLAIN, 8: (2, 11, 0), 10: (10, 54, 0), 18: (6, 30, 0)}}
shown.stands = {1: (1, 15400, True), 2: (2, 25400, False), 3: (3, 35400, False)}
shown.free = {1: 2, 2: 2, 3: 2, 4: 2}


def ended_without_10():
    """Gameweek 1 with fixture 1 alone has ended. In the squad of 1 and 2 slot 13 stands for slot 10: nine with 2 (P1 to
    P5, P7, P8, P9, P11), P6 7, P13 2: 27. P5 wears the armband of entry 1, in slot 5: 29. Entry 2 has 7 more for P6: 34.
    The squad of 3 and 4 is whole: eight with 2 (P1 to P5, P7, P9, P11), P17 5, P19 5, P18 2: 28. With 2 for P18 30, with 5
    for P17 33.
    """
    shown.did[1] = played_1
    shown.teams[1] = {1: 29, 2: 34, 3: 30, 4: 33}
    shown.others = {(1, 1): {"armband": 5, "eleven": WITH_13}, (1, 2): {"eleven": WITH_13}}


# Gameweek 2: entry 1 has ten with 2 and P10 10: 30, and 10 for him: 40. Entry 2: 30, and 2 for P6: 32. Entry 3: ten with 2
# and P18 6: 26, and 6 for him: 32. Entry 4: 26, and 2 for P17: 28.
# Head-to-head: 2 beats 1 by 34 to 29, and 3 loses with 30 to (29 + 34 + 30) / 3 = 31. Then 1 beats 3 by 40 to 32, and 2
# loses with 32 to (40 + 32 + 32) / 3 = 34.67, so 34. Cup: 2 beats 1, 4 beats 3 by 33 to 30; then 2 beats 4 by 32 to 28.
ended_without_10()
shown.did[2] = {**PLAYED, 10: (10, 2, 1), 18: (6, 1, 1)}
shown.teams[2] = {1: 40, 2: 32, 3: 32, 4: 28}
shown.totals = {1: 69, 2: 66, 3: 62, 4: 61}
shown.classic = {1: [(1, 1, 69), (2, 2, 66), (3, 3, 62), (4, 4, 61)], 2: [(1, 1, 40), (2, 2, 32), (3, 4, 28)]}
shown.head = [(1, 1, 1, 0, 1, 3, 69), (2, 2, 1, 0, 1, 3, 66), (3, 3, 0, 0, 2, 0, 62)]
shown.cup = [[2, 4], [2]]
answer_all(2, (1, 2, 3), ASKED)

# Fixture 2 stands in gameweek 1, which has not ended then: P10 stands for himself and wears the armband. Who plays in both
# has 2 + 2 = 4, P6 7 + 2 = 9, P10 10, P17 and P19 5 + 2 = 7, P18 2 + 6 = 8; they concede two.
# Entry 1: nine with 4 (P1 to P5, P7, P8, P9, P11), 9 and 10: 55, and 10 for P10: 65. Entry 2: 55, and 9 for P6: 64. Entry
# 3: eight with 4, 7, 7 and 8: 54, and 8 for P18: 62. Entry 4: 54, and 7 for P17: 61.
# In gameweek 2 no fixture stands, so it has ended, and nobody played: captains and vice-captains did not, so that nobody
# wears the armband, and nobody of the bench can stand for anyone.
# Head-to-head: 1 beats 2 by 65 to 64, and 3 loses with 62 to (65 + 64 + 62) / 3 = 63.67, so 63; then all draw with 0. Cup:
# 1 beats 2, 3 beats 4 by 62 to 61; then all is level, and the coin 1 is for 3.
done(36)
shown.stands[2] = (1, 25400, False)
twice = {player: (4, 0, 2) for player in ELEVENS} | {17: (7, 0, 2), 19: (7, 0, 2)}
shown.did = {1: {**twice, 6: (9, 1, 2), 10: (10, 2, 1), 13: (2, 0, 1), 18: (8, 1, 2)}, 2: {}}
shown.teams = {1: {1: 65, 2: 64, 3: 62, 4: 61}, 2: {1: 0, 2: 0, 3: 0, 4: 0}}
shown.others = {(2, entry): {"armband": None, "factor": 1} for entry in (1, 2, 3, 4)}
shown.totals = {1: 65, 2: 64, 3: 62, 4: 61}
shown.classic = {1: [(1, 1, 65), (2, 2, 64), (3, 3, 62), (4, 4, 61)], 2: [(1, 1, 0), (1, 2, 0), (1, 4, 0)]}
shown.head = [(1, 1, 1, 1, 0, 4, 65), (2, 2, 0, 1, 1, 1, 64), (3, 3, 0, 1, 1, 1, 62)]
shown.cup = [[1, 3], [3]]
answer_all(2, (1, 2, 3), ASKED)

# It is finished, so gameweek 1 has ended; but P10 has played in it, and nobody stands for him. The bonus of fixture 2 is 3
# for P10, 2 for P18, 1 for P8, and three are above the others.
# Entry 1: eight with 4 (P1 to P5, P7, P9, P11), P6 9, P8 5, P10 13: 59, and 13 for P10: 72. Entry 2: 59, and 9 for P6: 68.
# Entry 3: eight with 4, 7, 7 and P18 10: 56, and 10 for P18: 66. Entry 4: 56, and 7 for P17: 63.
# Head-to-head: 1 beats 2, and 3 loses with 66 to (72 + 68 + 66) / 3 = 68.67, so 68. Cup: 1, and 3 by 66 to 63, as before.
done(37)
shown.stands[2] = (1, 25400, True)
shown.lines[2] |= {8: (2, 11, 1), 10: (10, 54, 3), 18: (6, 30, 2)}
shown.did[1] |= {8: (5, 0, 2), 10: (13, 2, 1), 18: (10, 1, 2)}
shown.teams[1] = {1: 72, 2: 68, 3: 66, 4: 63}
shown.totals = {1: 72, 2: 68, 3: 66, 4: 63}
shown.classic[1] = [(1, 1, 72), (2, 2, 68), (3, 3, 66), (4, 4, 63)]
shown.head = [(1, 1, 1, 1, 0, 4, 72), (2, 2, 0, 1, 1, 1, 68), (3, 3, 0, 1, 1, 1, 66)]
answer_all(2, (1, 2, 3), ASKED)


def back():
    """It stands in gameweek 2 again, finished: gameweek 1 is what it was first. Gameweek 2: entry 1 has nine with 2 (P1 to
    P7, P9, P11), P8 3, P10 13: 34, and 13 for P10: 47. Entry 2: 34, and 2 for P6: 36. Entry 3: ten with 2, P18 8: 28, and
    8 for him: 36. Entry 4: 28, and 2 for P17: 30.
    Head-to-head: gameweek 1 as first; then 1 beats 3 by 47 to 36, and 2 loses with 36 to (47 + 36 + 36) / 3 = 39.67, so
    39. Cup: 2 and 4 as first; then 2 beats 4 by 36 to 30.
    """
    ended_without_10()
    shown.did[2] = {**PLAYED, 8: (3, 0, 1), 10: (13, 2, 1), 18: (8, 1, 1)}
    shown.teams[2] = {1: 47, 2: 36, 3: 36, 4: 30}
    shown.totals = {1: 76, 2: 70, 3: 66, 4: 63}
    shown.classic[1] = [(1, 1, 76), (2, 2, 70), (3, 3, 66), (4, 4, 63)]
    shown.classic[2] = [(1, 1, 47), (2, 2, 36), (3, 4, 30)]
    shown.head = [(1, 1, 1, 0, 1, 3, 76), (2, 2, 1, 0, 1, 3, 70), (3, 3, 0, 0, 2, 0, 66)]
    shown.cup = [[2, 4], [2]]


def not_ended():
    """A match without a mark stands in gameweek 1 too, which so has not ended. Nobody stands for P10, who wears the armband
    of entry 1 for nothing: nine with 2, P6 7: 25. Entry 2: 25, and 7 for P6: 32. Entries 3 and 4, whose elevens and
    captains played, have 30 and 33 as before, and no player's gameweek changes.
    Head-to-head: 2 beats 1 by 32 to 25, and 3 with 30 beats (25 + 32 + 30) / 3 = 29. The cup is as before.
    """
    shown.teams[1] = {1: 25, 2: 32, 3: 30, 4: 33}
    shown.others = {}
    shown.totals |= {1: 25 + 47, 2: 32 + 36}
    shown.classic[1] = [(1, 1, 72), (2, 2, 68), (3, 3, 66), (4, 4, 63)]
    shown.head = [(1, 1, 1, 0, 1, 3, 72), (2, 2, 1, 0, 1, 3, 68), (3, 3, 1, 0, 1, 3, 66)]


done(38)
shown.stands[2] = (2, 25400, True)
back()
answer_all(2, (1, 2, 3), ASKED)

done(39)
shown.stands[3] = (1, 35400, False)
not_ended()
answer_all(2, (1, 2, 3), ASKED)

done(40)
shown.stands[3] = (None, 35400, False)
back()
answer_all(2, (1, 2, 3), ASKED)

done(41)
shown.stands[6] = (1, 25400, False)
not_ended()
answer_all(2, (1, 2, 3, 6), ASKED)

# The mark of the new match, in which nobody has a line, ends the gameweek, and is taken away; then the same by sheets.
for number in 42, 44:
    done(number)
    shown.stands[6] = (1, 25400, True)
    back()
    answer_all(2, (1, 2, 3, 6), ASKED)
    done(number + 1)
    shown.stands[6] = (1, 25400, False)
    not_ended()
    answer_all(2, (1, 2, 3, 6), ASKED)
