# The views behind each change, and how their numbers come about. A line of 90 minutes has 2 points and 6 in the bonus
# points system (the system, below); everybody concedes one goal, so there is no clean sheet and nothing is taken off. No
# match is finished, so nobody has bonus, and nobody is replaced.
from corrections import NAMES, answer_all, answer_begin, done, say, shown

ASKED = 6, 10, 13, 18


def answer_both():
    """The coin of the final, 1 in the first cup, is 0 in the second: where it decides, the final is for the other."""
    answer_all(2, (1, 2), ASKED, NAMES)
    say({"rounds": [shown.cup[0], second_final], "start": 1})


answer_begin()
say({"cup": 2, "done": 32}, "201 Created")

# P6 scores in fixture 1: 2 + 5 = 7, 6 + 18 = 24. Entry 1: ten with 2 and P6 7: 27, and 2 for P10: 29. Entry 2: 27, and 7 for
# P6: 34. Entries 3 and 4: 22, and 2 for their captains: 24. Head-to-head: 2 beats 1, and 3 loses with 24 to (29 + 34 + 24)
# / 3 = 29. Cup: 2, and of 3 and 4, who are level in all, 3 by the coin 0.
shown.stands = {1: (1, 15400, False), 2: (2, 25400, False)}
eleven = (*range(1, 12), 17, 18, 19)
shown.lines[1] = {**{player: (2, 6, 0) for player in eleven}, 6: (7, 24, 0)}
shown.did[1] = {**{player: (2, 0, 1) for player in eleven}, 6: (7, 1, 1)}
shown.teams[1] = {1: 29, 2: 34, 3: 24, 4: 24}
shown.totals = {1: 29, 2: 34, 3: 24, 4: 24, 5: 0}
shown.classic[1] = [(1, 2, 34), (2, 1, 29), (3, 3, 24), (3, 4, 24)]
shown.classic[2] = [(1, 1, 0), (1, 2, 0), (1, 4, 0)]
shown.head = [(1, 2, 1, 0, 0, 3, 34), (2, 1, 0, 0, 1, 0, 29), (3, 3, 0, 0, 1, 0, 24)]
shown.cup = [[2, 3], None]
done(33)
answer_all(1, (1,), ASKED)

# Entry 5 comes for gameweek 2 with the squad and the captain of entry 1, and has nothing yet.
say({"done": 34, "entry": 5}, "201 Created")
for number in 1, 2, 3:
    done(number)
shown.last[5] = 3
shown.classic[1] = [(1, 2, 34), (2, 1, 29), (3, 3, 24), (3, 4, 24), (5, 5, 0)]
answer_all(1, (1,), ASKED)

# In fixture 2 the bench of entries 1, 2 and 5 plays too, and P13, who sits on all benches, scores: 2 + 4 = 6, 6 + 24 = 30.
# Entries 1 to 4: 22, and 2 for their captains: 24. Entry 5: 24, and its bench boost counts 2, 6, 2 and 2: 36. Entry 5 is not
# shown in gameweek 1. All matches of gameweek 2 are draws, and 2 and 3 are level in the final, for the goal is none of their
# elevens': the coin 1 is for 3, the coin 0 for 2.
shown.free = {1: 2, 2: 2, 3: 2, 4: 2, 5: 1}
played = (*range(1, 16), 17, 18, 19)
shown.lines[2] = {**{player: (2, 6, 0) for player in played}, 13: (6, 30, 0)}
shown.did[2] = {**{player: (2, 0, 1) for player in played}, 13: (6, 1, 1)}
shown.teams[2] = {1: 24, 2: 24, 3: 24, 4: 24, 5: 36}
shown.others[2, 5] = {"chip": "bench_boost"}
shown.totals = {1: 29 + 24, 2: 34 + 24, 3: 24 + 24, 4: 24 + 24, 5: 36}
shown.classic[1] = [(1, 2, 58), (2, 1, 53), (3, 3, 48), (3, 4, 48), (5, 5, 36)]
shown.classic[2] = [(1, 1, 24), (1, 2, 24), (1, 4, 24)]
shown.head = [(1, 2, 1, 1, 0, 4, 58), (2, 1, 0, 1, 1, 1, 53), (3, 3, 0, 1, 1, 1, 48)]
shown.cup, second_final = [[2, 3], [3]], [2]
done(35)
answer_both()

# Entry 3 comes into league 2, whose gameweek is locked: it has what it had in gameweek 2.
done(4)
shown.last[3] = 4
shown.classic[2] = [(1, 1, 24), (1, 2, 24), (1, 3, 24), (1, 4, 24)]
answer_both()

# The goal of P6 is that of P18: P6 has 2, P18 2 + 4 = 6, 30. Entries 1 and 2: 22, and 2: 24. Entry 3: ten with 2 and 6: 26,
# and 6 for P18: 32. Entry 4: 26, and 2 for P17: 28. Head-to-head: 1 and 2 draw, and 3 beats (24 + 24 + 32) / 3 = 26.67, so
# 26. Cup: 1 and 2 are level in all, and the coin 0 is for 1; 3 beats 4; the final is level as before, for 3 and, in the
# second cup, for 1, who is there in place of 2. Gameweek 2, league 2 and entry 5 stay.
done(36)
done(37)
shown.lines[1] |= {6: (2, 6, 0), 18: (6, 30, 0)}
shown.did[1] |= {6: (2, 0, 1), 18: (6, 1, 1)}
shown.teams[1] = {1: 24, 2: 24, 3: 32, 4: 28}
shown.totals |= {1: 24 + 24, 2: 24 + 24, 3: 32 + 24, 4: 28 + 24}
shown.classic[1] = [(1, 3, 56), (2, 4, 52), (3, 1, 48), (3, 2, 48), (5, 5, 36)]
shown.head = [(1, 3, 1, 1, 0, 4, 56), (2, 1, 0, 2, 0, 2, 48), (2, 2, 0, 2, 0, 2, 48)]
shown.cup, second_final = [[1, 3], [3]], [1]
answer_both()

# P10 conceded nothing in fixture 2, which gives a forward no points; but the final is for 1, with 10 goals conceded to 11.
done(38)
shown.did[2][10] = (2, 0, 0)
shown.cup, second_final = [[1, 3], [1]], [1]
answer_both()

# P18 has a goal and two own goals: 2 + 4 - 2 x 2 = 2 as before, and 6 + 24 - 2 x 6 = 18 in the system. The final is for 3,
# with a goal to none.
done(39)
shown.lines[2][18] = (2, 18, 0)
shown.did[2][18] = (2, 1, 1)
shown.cup, second_final = [[1, 3], [3]], [3]
answer_both()

# The goal of P13 is that of P18, who has no own goals: P13 has 2, P18 6. Entries 1 and 2 keep their 24, for P13 was on their
# bench. Entry 3 has 26, and 6 for P18: 32. Entry 4: 26, and 2: 28. Entry 5: 24, and four with 2: 32. Head-to-head: 3 beats 1
# by 32 to 24, and 2 loses with 24 to (24 + 24 + 32) / 3 = 26.67, so 26. In both finals 3 beats 1. Gameweek 1 stays.
done(40)
done(41)
shown.lines[2] |= {13: (2, 6, 0), 18: (6, 30, 0)}
shown.did[2] |= {13: (2, 0, 1), 18: (6, 1, 1)}
shown.teams[2] |= {3: 32, 4: 28, 5: 32}
shown.totals |= {3: 32 + 32, 4: 28 + 28, 5: 32}
shown.classic[1] = [(1, 3, 64), (2, 4, 56), (3, 1, 48), (3, 2, 48), (5, 5, 32)]
shown.classic[2] = [(1, 3, 32), (2, 4, 28), (3, 1, 24), (3, 2, 24)]
shown.head = [(1, 3, 2, 0, 0, 6, 64), (2, 1, 0, 1, 1, 1, 48), (2, 2, 0, 1, 1, 1, 48)]
answer_both()

# P10 has gone, P18 plays for club 5, and the next deadline is another: all stays.
for number in 42, 43, 44:
    done(number)
answer_both()
