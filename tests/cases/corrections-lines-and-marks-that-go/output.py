# The views behind each change, and how their numbers come about. A line of 90 minutes has 2 points and 6 in the bonus
# points system (the system, below), one of 59 minutes 1 and 3; everybody concedes one goal, so there is no clean sheet and
# nothing is taken off.
from corrections import answer_all, answer_begin, done, shown

ASKED = 5, 6, 7, 8, 9, 10, 13, 14
CAPTAINS_PLACE = [1, 2, 3, 4, 5, 6, 7, 8, 9, 13, 11]  # slot 13 stands for slot 10


def answer_next(*numbers):
    """Commands of these numbers were done, and this is shown then."""
    for number in numbers:
        done(number)
    answer_all(2, (1, 2), ASKED)


# Gameweek 2, whose match has no mark: P10 scores, 2 + 4 = 6 and 6 + 24 = 30 in the system, and P6 plays. Entry 1: 8, and 6
# for P10: 14. Entry 2: 8, and 2 for P6: 10. The others have 0. Head-to-head: 1 beats 3, and 2 with 10 beats (14 + 10 + 0)
# / 3 = 8.
shown.stands = {1: (1, 15400, True), 2: (2, 25400, False)}
shown.lines[2] = {6: (2, 6, 0), 10: (6, 30, 0)}
shown.did[2] = {6: (2, 0, 1), 10: (6, 1, 1)}
shown.teams[2] = {1: 14, 2: 10, 3: 0, 4: 0}
shown.classic[2] = [(1, 1, 14), (2, 2, 10), (3, 4, 0)]
shown.free = {1: 2, 2: 2, 3: 2, 4: 2}

# The lines of fixture 1: P6 scores, 2 + 5 = 7 and 6 + 18 = 24; P8 has five key passes, 11, P7 three, 9, and P9 one, 7. P14
# of the bench and P17 play 59 minutes. P10 does not play, nor P12, P15 and P16.
LINES = {player: (2, 6) for player in (1, 2, 3, 4, 5, 11, 13, 18, 19)}
LINES |= {6: (7, 24), 7: (2, 9), 8: (2, 11), 9: (2, 7), 14: (1, 3), 17: (1, 3)}


def facts(bonus, without=()):
    """Fixture 1 with this bonus, and the players' gameweek 1, without the lines of these players."""
    lines = {player: (*line, bonus.get(player, 0)) for player, line in LINES.items() if player not in without}
    shown.lines[1] = lines
    shown.did[1] = {player: (line[0] + line[2], int(player == 6), 1) for player, line in lines.items()}


def first():
    """Fixture 1 is finished, and the gameweek has ended. P6 has 7 + 3 = 10, P8 2 + 2 = 4, P7 2 + 1 = 3.
    Entries 1 and 2: slot 13 stands for slot 10: eight with 2 (P1 to P5, P9, P11, P13), 10, 3 and 4: 33. P5 wears the
    armband of entry 1, in slot 5: 35. Entry 2: 33, and 10 for P6: 43. Entries 3 and 4: nine with 2 (P1 to P5, P9, P11, P18,
    P19), P17 1, P7 3: 22. With 2 for P18 24, with 1 for P17 23.
    Head-to-head: 2 beats 1, and 3 loses with 24 to (35 + 43 + 24) / 3 = 34. Cup: 2, 3, and then 2 by 10 to 0.
    """
    facts({6: 3, 8: 2, 7: 1})
    shown.stands[1] = (1, 15400, True)
    shown.teams[1] = {1: 35, 2: 43, 3: 24, 4: 23}
    shown.others = {(1, 1): {"armband": 5, "eleven": CAPTAINS_PLACE}, (1, 2): {"eleven": CAPTAINS_PLACE}}
    shown.totals = {1: 35 + 14, 2: 43 + 10, 3: 24, 4: 23}
    shown.classic[1] = [(1, 2, 53), (2, 1, 49), (3, 3, 24), (4, 4, 23)]
    shown.head = [(1, 2, 2, 0, 0, 6, 53), (2, 1, 1, 0, 1, 3, 49), (3, 3, 0, 0, 2, 0, 24)]
    shown.cup = [[2, 3], [2]]


def without_mark():
    """Fixture 1 is not finished: there is no bonus, nobody stands for P10, and he wears the armband of entry 1 for nothing.
    Entry 1: nine with 2 (P1 to P5, P7, P8, P9, P11), P6 7: 25. Entry 2: 25, and 7 for P6: 32. Entries 3 and 4: ten with 2
    (P1 to P5, P7, P9, P11, P18, P19), P17 1: 21. With 2 for P18 23, with 1 for P17 22.
    Head-to-head: 2 beats 1, and 3 loses with 23 to (25 + 32 + 23) / 3 = 26.67, so 26. The cup is as before.
    """
    facts({})
    shown.stands[1] = (1, 15400, False)
    shown.teams[1] = {1: 25, 2: 32, 3: 23, 4: 22}
    shown.others = {}
    shown.totals = {1: 25 + 14, 2: 32 + 10, 3: 23, 4: 22}
    shown.classic[1] = [(1, 2, 42), (2, 1, 39), (3, 3, 23), (4, 4, 22)]
    shown.head = [(1, 2, 2, 0, 0, 6, 42), (2, 1, 1, 0, 1, 3, 39), (3, 3, 0, 0, 2, 0, 23)]


answer_begin()
done(32)
first()
answer_next(33)
without_mark()
answer_next(34)

# A new match, fixture 6, stands in gameweek 1. So with the mark of fixture 1 its bonus comes, and nobody of the bench; then
# a sheet with the same lines takes the mark away.
# Entry 1: seven with 2 (P1 to P5, P9, P11), 10, 3 and 4: 31. Entry 2: 31, and 10 for P6: 41. Entries 3 and 4 have 24 and 23
# as first. Head-to-head: 2 beats 1, and 3 loses with 24 to (31 + 41 + 24) / 3 = 32.
first()
shown.teams[1] |= {1: 31, 2: 41}
shown.others = {}
shown.totals |= {1: 31 + 14, 2: 41 + 10}
shown.classic[1] = [(1, 2, 51), (2, 1, 45), (3, 3, 24), (4, 4, 23)]
shown.head = [(1, 2, 2, 0, 0, 6, 51), (2, 1, 1, 0, 1, 3, 45), (3, 3, 0, 0, 2, 0, 24)]
answer_next(35, 36)
without_mark()
answer_next(37)

# The mark comes with a sheet again, and fixture 6 is finished too.
first()
answer_next(38, 39)

# P13 did not play, so P14 stands for P10: 33 - 2 + 1 = 32. Entry 1: 2 for P5, 34. Entry 2: 10 for P6, 42. The Average has
# (34 + 42 + 24) / 3 = 33.33, so 33.
facts({6: 3, 8: 2, 7: 1}, without=[13])
shown.teams[1] |= {1: 34, 2: 42}
shown.others[1, 1] = {"armband": 5, "eleven": [1, 2, 3, 4, 5, 6, 7, 8, 9, 14, 11]}
shown.others[1, 2] = {"eleven": [1, 2, 3, 4, 5, 6, 7, 8, 9, 14, 11]}
shown.totals |= {1: 34 + 14, 2: 42 + 10}
shown.classic[1] = [(1, 2, 52), (2, 1, 48), (3, 3, 24), (4, 4, 23)]
shown.head = [(1, 2, 2, 0, 0, 6, 52), (2, 1, 1, 0, 1, 3, 48), (3, 3, 0, 0, 2, 0, 24)]
answer_next(40)

# With his line again.
first()
answer_next(41)

# A sheet without P6: the bonus is 3 for P8, 2 for P7, 1 for P9, so they have 5, 4 and 3. P13 stands for P6, P14 for P10. P5
# wears the armband of entry 1 and of entry 2, whose captain was P6.
# Entries 1 and 2: six with 2 (P1 to P5, P11), 4, 5 and 3, P13 2, P14 1: 27, and 2 for P5: 29. Entries 3 and 4: eight with 2
# (P1 to P5, P11, P18, P19), P17 1, P7 4, P9 3: 24. With 2 for P18 26, with 1 for P17 25.
# Head-to-head: 1 and 2 draw, and 3 loses with 26 to (29 + 29 + 26) / 3 = 28. Cup: 1 and 2 are level in all, and the coin 0
# is for 1, who then beats 3 by 14 to 0.
facts({8: 3, 7: 2, 9: 1}, without=[6])
shown.teams[1] = {1: 29, 2: 29, 3: 26, 4: 25}
shown.others = {(1, entry): {"armband": 5, "eleven": [1, 2, 3, 4, 5, 13, 7, 8, 9, 14, 11]} for entry in (1, 2)}
shown.totals = {1: 29 + 14, 2: 29 + 10, 3: 26, 4: 25}
shown.classic[1] = [(1, 1, 43), (2, 2, 39), (3, 3, 26), (4, 4, 25)]
shown.head = [(1, 1, 1, 1, 0, 4, 43), (2, 2, 1, 1, 0, 4, 39), (3, 3, 0, 0, 2, 0, 26)]
shown.cup = [[1, 3], [1]]
answer_next(42)

# A sheet with P6, and without P5 and P13. In all four teams P14 stands for P5, whose slot comes first, and nobody is left
# for P10. Neither captain nor vice-captain of entry 1 played, so nobody wears its armband.
# Entry 1: six with 2 (P1 to P4, P9, P11), P14 1, 10, 3 and 4: 30. Entry 2: 30, and 10 for P6: 40. Entries 3 and 4: eight
# with 2 (P1 to P4, P9, P11, P18, P19), P14 1, P17 1, P7 3: 21. With 2 for P18 23, with 1 for P17 22.
# Head-to-head: 2 beats 1, and 3 loses with 23 to (30 + 40 + 23) / 3 = 31. Cup: 2, 3, and then 2, as first.
facts({6: 3, 8: 2, 7: 1}, without=[5, 13])
shown.teams[1] = {1: 30, 2: 40, 3: 23, 4: 22}
shown.others = {(1, entry): {"eleven": [1, 2, 3, 4, 14, 6, 7, 8, 9, 10, 11]} for entry in (1, 2, 3, 4)}
shown.others[1, 1] |= {"armband": None, "factor": 1}
shown.totals = {1: 30 + 14, 2: 40 + 10, 3: 23, 4: 22}
shown.classic[1] = [(1, 2, 50), (2, 1, 44), (3, 3, 23), (4, 4, 22)]
shown.head = [(1, 2, 2, 0, 0, 6, 50), (2, 1, 1, 0, 1, 3, 44), (3, 3, 0, 0, 2, 0, 23)]
shown.cup = [[2, 3], [2]]
answer_next(43)


def nobody():
    """No line and no mark. All have 0 in gameweek 1, and draw, 3 with the Average of 0; in the cup the coins are for 1 and
    for 3, and 1 beats 3 by 14 to 0.
    """
    facts({}, without=LINES)
    shown.stands[1] = (1, 15400, False)
    shown.teams[1] = {1: 0, 2: 0, 3: 0, 4: 0}
    shown.others = {}
    shown.totals = {1: 14, 2: 10, 3: 0, 4: 0}
    shown.classic[1] = [(1, 1, 14), (2, 2, 10), (3, 3, 0), (3, 4, 0)]
    shown.head = [(1, 1, 1, 1, 0, 4, 14), (2, 2, 1, 1, 0, 4, 10), (3, 3, 0, 1, 1, 1, 0)]
    shown.cup = [[1, 3], [1]]


nobody()
answer_next(44)

# One line, that of P5, who has 2 in all four teams: the matches and ties are level as they were.
facts({}, without=LINES.keys() - {5})
shown.teams[1] = {1: 2, 2: 2, 3: 2, 4: 2}
shown.totals = {1: 16, 2: 12, 3: 2, 4: 2}
shown.classic[1] = [(1, 1, 16), (2, 2, 12), (3, 3, 2), (3, 4, 2)]
shown.head = [(1, 1, 1, 1, 0, 4, 16), (2, 2, 1, 1, 0, 4, 12), (3, 3, 0, 1, 1, 1, 2)]
answer_next(45)

# And none again; and then the first sheet.
nobody()
answer_next(46)
first()
answer_next(47)
