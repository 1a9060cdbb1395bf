# The gameweeks of the entries. Points, banks and ranks are worked out in windows-of-an-entry. On the bench of gameweek 1 are P3,
# who did not play, P12, P13 and P15: 8. In gameweek 2 entry 1 has P12's 7 and P16's 2 there, and entry 2 P12's 7.
from views import answer_play


def row(event, points, bench, total, rank, bank=250, transfers=0, cost=0):
    return {
        "bank": bank, "event": event, "event_transfers": transfers, "event_transfers_cost": cost, "overall_rank": rank,
        "points": points, "points_on_bench": bench, "total_points": total,
    }


def history(*rows, chips=()):
    return {"chips": [{"event": event, "name": name} for event, name in chips], "current": list(rows), "past": []}


FREE_HIT, BENCH_BOOST, TRIPLE_CAPTAIN = (2, "freehit"), (2, "bboost"), (3, "3xc")


def of_all(first, second, third):
    """In gameweek 1 of entries 1 and 2, in gameweek 2 of all, and in gameweek 3 of all: points, bench, total and rank."""
    own = {"bank": 246, "transfers": 2, "cost": 4}, {"bank": 240, "transfers": 1}, {"bank": 247}
    last = {"bank": 248, "transfers": 1}, {}, {"bank": 247}
    rows = [[row(1, *it)] for it in first] + [[]]
    for at, it in enumerate(second):
        rows[at].append(row(2, *it, **own[at]))
    for at, it in enumerate(third):
        rows[at].append(row(3, *it, **last[at]))
    chips = [(TRIPLE_CAPTAIN,) if third else (), (FREE_HIT,) if second else (), (BENCH_BOOST,) if second else ()]
    return [history(*rows[at], chips=chips[at]) for at in range(3)]


NONE = history()
FIRST = [(36, 8, 36, 2), (42, 8, 42, 1)]
# With the bonus of fixture 6 P12 has 8. With fixture 6 itself gameweek 1 has his 8 and P15's 8 on the bench; in gameweek 2 the
# one of entry 1 who played, P16, stands for P7.
MOVED = [(56, 16, 56, 2), (62, 16, 62, 1)], [(36, 0, 88, 2), (37, 0, 99, 1), (30, 0, 30, 3)]
answer_play(
    {
        "begun": [NONE, NONE, None],
        "first": of_all(FIRST, [], []),
        "second": of_all(FIRST, [(61, 9, 93, 1), (47, 7, 89, 2), (66, 0, 66, 3)], []) + [None, None],
        "corrected": of_all([(29, 8, 29, 2), (35, 8, 35, 1)], [(69, 10, 94, 1), (49, 8, 84, 2), (74, 0, 74, 3)], []),
        "moved": of_all(*MOVED, []),
        "third": of_all(*MOVED, [(0, 0, 88, 2), (0, 0, 99, 1), (0, 0, 30, 3)]),
    }
)
