# The entries. A squad of 15 costs 750 of 1000, so banks begin with 250.
#
# Gameweek 1. P3 did not play, nor did P13, and P14 stands for P3. The eleven have 3 (P1), 10 (P2), 2 (P14), -4, 4, 10, 2, 2, 1,
# 0 and 2 (P4 to P11): 32. Entry 1 has P5's 4 once more, 36; entry 2 P6's 10, 42. With P2's goal taken back he has 2 and P1 4:
# 25, so 29 and 35. With fixture 6 the eleven have 4, 2, 2, -4, 4, 10, 3, 11, 3, 13 and 4: 52, so 56 and 62.
#
# Gameweek 2. Entry 1 sells P9 for 51, bought for 50 and worth 53, and buys P17 for 55, and P16 for P15 at 50 each: 246. It had
# one free transfer, so the other costs 4. Entry 2 buys P18 for 60 under a free hit, and has 240, and 250 again from gameweek 3
# on. Entry 3 bought P9 for 53, so it has 247. Entry 1 has 2 (P1), 2, 2, 8, 3, 11, 1, 7 (P2 to P8), 3 (P17), 10 (P10) and 2
# (P11), 51, and P10's 10 once more: 61, which is 57 after the cost. Entry 2 has 2, 2, 2, 8, 3, 11, 1, 7, 2 (P9), 6 (P18) and
# 2: 46, and P7's 1: 47. Entry 3 has 2, 2, 2, 8, 3, 11, 1, 7, 2, 10 and 2, 50, with P12's 7 and P16's 2 of the bench 59, and P8's
# 7: 66. With the bonus of fixture 6 P8 has 9, P10 13 and P12 8: 69, 49 and 74. Without fixture 6, and ended, entry 1 has 2, 2,
# 2, 8, 3, 11, 3 and P16's 2 in place of P7, 33, and P5's 3: 36. Entry 2 has 2, 2, 2, 8, 3, 11 and 6, 34, and P5's 3: 37. Entry 3
# has 2, 2, 2, 8, 3, 11 and P16's 2: 30, for neither of its captains played.
#
# Gameweek 3. Entry 1 sells P17 for 55 and buys P9 for 53: 248. Nobody has points. In gameweek 4 all have P6's -1, and entry 2,
# whose captain he is, twice.
from views import NAMES, answer_play

LEAGUES = {1: (1, "Office", "c", 1), 2: (1, "Lunch", "h", 2), 3: (1, "Never drawn", "h", 1), 4: (2, "Derby", "h", 1)}
STARTS = {1: 1, 2: 1, 3: 2}


def places(entry, ranks):
    """The entry's leagues, each with its rank and the one before."""
    rows = {"c": [], "h": []}
    for number, (rank, last) in ranks.items():
        creator, name, scoring, start = LEAGUES[number]
        rows[scoring].append(
            {
                "admin_entry": creator, "entry_can_admin": creator == entry, "entry_last_rank": last, "entry_rank": rank,
                "id": number, "league_type": "x", "max_entries": {"c": None, "h": 64}[scoring], "name": name,
                "scoring": scoring, "start_event": start,
            }
        )
    return {"classic": rows["c"], "h2h": rows["h"]}


def entry(number, current, ranks, bank=None, transfers=0, points=None, rank=None, total=None, overall=None):
    return {
        "current_event": current, "id": number, "last_deadline_bank": bank, "last_deadline_total_transfers": transfers,
        "leagues": places(number, ranks), "name": NAMES[number], "player_first_name": "", "player_last_name": "",
        "started_event": STARTS[number], "summary_event_points": points, "summary_event_rank": rank,
        "summary_overall_points": total, "summary_overall_rank": overall,
    }


LEVEL, UNDRAWN = (1, 0), (1, 1)
# Before a lock all are level. Entry 3 is not registered.
BEGUN = [
    entry(1, None, {1: LEVEL, 2: LEVEL, 3: LEVEL, 4: LEVEL}),
    entry(2, None, {1: LEVEL, 2: LEVEL, 4: LEVEL}),
    None,
]
# Entry 3 begins in gameweek 2: in the classic league it has nothing, and is the last; the head-to-head league begins with it.
FIRST = [
    entry(1, 1, {1: (2, 0), 2: LEVEL, 3: LEVEL, 4: (2, 0)}, 250, 0, 36, 2, 36, 2),
    entry(2, 1, {1: (1, 0), 2: LEVEL, 4: (1, 0)}, 250, 0, 42, 1, 42, 1),
    entry(3, 1, {1: (3, 0), 2: LEVEL}),
]
# Totals are 36 + 57, 42 + 47 and 66. In gameweek 2 entry 3 wins by 66 against the Average, and entry 1 by 57 to 47.
SECOND = [
    entry(1, 2, {1: (1, 2), 2: (2, 0), 3: UNDRAWN, 4: (1, 2)}, 246, 2, 61, 2, 93, 1),
    entry(2, 2, {1: (2, 1), 2: (3, 0), 4: (2, 1)}, 240, 1, 47, 3, 89, 2),
    entry(3, 2, {1: (3, 3), 2: (1, 0)}, 247, 0, 66, 1, 66, 3),
]
# 29 + 65, 35 + 49 and 74.
CORRECTED = [
    entry(1, 2, {1: (1, 2), 2: (2, 0), 3: UNDRAWN, 4: (1, 2)}, 246, 2, 69, 2, 94, 1),
    entry(2, 2, {1: (2, 1), 2: (3, 0), 4: (2, 1)}, 240, 1, 49, 3, 84, 2),
    entry(3, 2, {1: (3, 3), 2: (1, 0)}, 247, 0, 74, 1, 74, 3),
]
# 56 + 32, 62 + 37 and 30. The Average has 33, so entry 3 loses; its 30 points are fewer than entry 1's 32.
MOVED = [
    entry(1, 2, {1: (2, 2), 2: (2, 0), 3: UNDRAWN, 4: (2, 2)}, 246, 2, 36, 2, 88, 2),
    entry(2, 2, {1: (1, 1), 2: (1, 0), 4: (1, 1)}, 240, 1, 37, 1, 99, 1),
    entry(3, 2, {1: (3, 3), 2: (3, 0)}, 247, 0, 30, 3, 30, 3),
]
# All are level in gameweek 3, and draw.
THIRD = [
    entry(1, 3, {1: (2, 2), 2: (2, 2), 3: UNDRAWN, 4: (2, 2)}, 248, 3, 0, 1, 88, 2),
    entry(2, 3, {1: (1, 1), 2: (1, 1), 4: (1, 1)}, 250, 1, 0, 1, 99, 1),
    entry(3, 3, {1: (3, 3), 2: (3, 3)}, 247, 0, 0, 1, 30, 3),
]
FOURTH = [
    entry(1, 4, {1: (2, 2), 2: (2, 2), 3: UNDRAWN, 4: (2, 2)}, 248, 3, -1, 1, 87, 2),
    entry(2, 4, {1: (1, 1), 2: (1, 1), 4: (1, 1)}, 250, 1, -2, 3, 97, 1),
    entry(3, 4, {1: (3, 3), 2: (3, 3)}, 247, 0, -1, 1, 29, 3),
]
answer_play(
    {
        "begun": BEGUN,
        "first": FIRST,
        "second": [*SECOND, None, None, None],
        "corrected": CORRECTED,
        "moved": MOVED,
        "third": THIRD,
        "fourth": FOURTH,
    }
)
