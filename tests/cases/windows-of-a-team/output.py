# The teams. Points are worked out in windows-of-an-entry, and those on the bench in windows-of-an-entrys-gameweeks.
from managers import SQUAD
from views import answer_play, with_others

ELEVEN = {slot: 1 for slot in range(1, 12)}


def row(event, points, bench, total, rank, bank=250, transfers=0, cost=0):
    return {
        "bank": bank, "event": event, "event_transfers": transfers, "event_transfers_cost": cost, "overall_rank": rank,
        "points": points, "points_on_bench": bench, "total_points": total,
    }


def team(entry, players, captain, vice, history, counts=(), chip=None, stands_for=()):
    """Captain and vice-captain are slots, which in these squads are the players' numbers; `counts` are the multipliers that
    are not those of the first eleven, and `stands_for` who comes in for whom."""
    multipliers = ELEVEN | dict(counts)
    return {
        "active_chip": chip,
        "automatic_subs": [{"element_in": it, "element_out": out, "entry": entry, "event": history["event"]} for it, out in stands_for],
        "entry_history": history,
        "picks": [
            {
                "element": player, "is_captain": slot == captain, "is_vice_captain": slot == vice,
                "multiplier": multipliers.get(slot, 0), "position": slot,
            }
            for slot, player in enumerate(players, 1)
        ],
    }


def first(one, two):
    """Gameweek 1: P3 did not play, and P14 of slot 14 stands for him, since P13 of slot 13 did not play either."""
    in_third = {3: 0, 14: 1}
    return [
        team(1, SQUAD, 5, 10, one, in_third | {5: 2}, stands_for=[(14, 3)]),
        team(2, SQUAD, 6, 5, two, in_third | {6: 2}, stands_for=[(14, 3)]),
        None,  # entry 3 begins in gameweek 2
    ]


FIRST = first(row(1, 36, 8, 36, 2), row(1, 42, 8, 42, 1))
ONE, TWO, THREE = with_others(slot9=17, slot15=16), with_others(slot10=18), with_others(slot15=16)
IN_2 = {"bank": 246, "transfers": 2, "cost": 4}, {"bank": 240, "transfers": 1}, {"bank": 247}
FIFTEEN = {slot: 1 for slot in range(12, 16)}
SECOND = [
    team(1, ONE, 10, 5, row(2, 61, 9, 93, 1, **IN_2[0]), {10: 2}),
    team(2, TWO, 7, 5, row(2, 47, 7, 89, 2, **IN_2[1]), {7: 2}, "freehit"),
    team(3, THREE, 8, 7, row(2, 66, 0, 66, 3, **IN_2[2]), FIFTEEN | {8: 2}, "bboost"),
]
# Without fixture 6, and ended: of those of entry 1 who did not play P7 alone is replaced, by P16 of slot 15, and P5 wears the
# armband. So he does for entry 2, whose bench did not play. For entry 3 neither P8 nor P7 played, and nobody wears it.
MOVED = [
    team(1, ONE, 10, 5, row(2, 36, 0, 88, 2, **IN_2[0]), {7: 0, 15: 1, 5: 2}, stands_for=[(16, 7)]),
    team(2, TWO, 7, 5, row(2, 37, 0, 99, 1, **IN_2[1]), {5: 2}, "freehit"),
    team(3, THREE, 8, 7, row(2, 30, 0, 30, 3, **IN_2[2]), FIFTEEN, "bboost"),
]
# Nobody played in gameweek 3, which has ended.
THIRD = [
    team(1, THREE, 10, 5, row(3, 0, 0, 88, 2, bank=248, transfers=1), (), "3xc"),
    team(2, SQUAD, 6, 5, row(3, 0, 0, 99, 1)),
    team(3, THREE, 8, 7, row(3, 0, 0, 30, 3, bank=247)),
]
answer_play(
    {
        "begun": [None],
        "first": [*FIRST, None, None],
        "second": [*FIRST, *SECOND, *6 * [None]],
        "moved": [*first(row(1, 56, 16, 56, 2), row(1, 62, 16, 62, 1)), *MOVED],
        "third": THIRD,
    }
)
