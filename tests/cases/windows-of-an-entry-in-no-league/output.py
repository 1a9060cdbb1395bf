# The answers. Each squad of 15 costs 750 of 1000, but that of entry 3, for which P15 costs 55, costs 755.
#
# Gameweek 1: the eleven have 2 each, and P10 as captain 2 more: 24. Gameweek 2: entry 1 sells P15, bought for 50 and worth 55,
# for 52, and buys for 50 three times, so it has 252; both entries have P17's 2 and his bonus of 3 in the eleven, 27, and without
# the mark 24. Gameweek 3: entry 1 pays 55 for P15, and has 247; of three transfers, with one free after a wildcard, two cost 8.
# Each has 24: entry 1 24 + 24 + 16, entry 2 24 + 24 + 24, entry 3 24. Entry 3 sells P15 for 55 and buys P16 for 50 in its first
# gameweek: 250. Gameweek 4 has ended without a line; entry 1 buys P16 for 50 and sells P15 for 55: 252.
import json

from managers import answer

NAMES = {1: "First", 2: "Entry 2", 3: "Entry 3"}
STARTS = {1: 1, 2: 1, 3: 3}


def row(number, entry, rank, last):
    name, scoring, start, most = {1: ("Late", "c", 3, None), 2: ("Later", "h", 4, 64)}[number]
    return {
        "admin_entry": 2, "entry_can_admin": entry == 2, "entry_last_rank": last, "entry_rank": rank, "id": number,
        "league_type": "x", "max_entries": most, "name": name, "scoring": scoring, "start_event": start,
    }


def shown(entry, current, classic, bank=None, transfers=0, points=None, rank=None, total=None, overall=None):
    """An entry; `classic` is its rank in league 1 and the one before, or None."""
    return {
        "current_event": current, "id": entry, "last_deadline_bank": bank, "last_deadline_total_transfers": transfers,
        "leagues": {
            "classic": [row(1, entry, *classic)] if classic else [], "h2h": [row(2, entry, 1, 0)] if entry == 2 else [],
        },
        "name": NAMES[entry], "player_first_name": "", "player_last_name": "", "started_event": STARTS[entry],
        "summary_event_points": points, "summary_event_rank": rank, "summary_overall_points": total,
        "summary_overall_rank": overall,
    }


def say(*bodies):
    for body in bodies:
        answer("200 OK", json.dumps(body, sort_keys=True, separators=(",", ":")))


def look(*entries):
    """Each of the entries is asked twice, and 1 to 4 are."""
    for entry in entries:
        say(entry, entry)
    for _ in range(2 * (4 - len(entries))):
        answer("404 Not Found", '{"error":"unknown"}')


def done(*numbers):
    say(*[{"done": number} for number in numbers])


def made(number, **what):
    answer("201 Created", json.dumps({"done": number, **what}, separators=(",", ":")))


done(*range(1, 25))
for entry in 1, 2, 3, 4:
    made(24 + entry, entry=entry)
done(1, 1)
made(2, league=1)
made(3, league=2)
look(shown(1, None, None), shown(2, None, (1, 0)))
done(29, 30, 2, 3, 4)
look(shown(1, 1, None, 250, 0, 24, 1, 24, 1), shown(2, 1, (1, 0), 250, 0, 24, 1, 24, 1))
done(31, 1, 2, 3, 4)
# Before the league's start its members are told apart by entry 2's transfer, as they are behind it.
look(shown(1, 2, None, 252, 3, 27, 1, 51, 1), shown(2, 2, (2, 0), 250, 1, 27, 1, 51, 2), shown(3, 2, (1, 0)))
done(32)
look(shown(1, 2, None, 252, 3, 24, 1, 48, 1), shown(2, 2, (2, 0), 250, 1, 24, 1, 48, 2), shown(3, 2, (1, 0)))
done(33, 5)
# Both members have 24 from gameweek 3 on.
look(
    shown(1, 3, None, 247, 6, 24, 1, 64, 2),
    shown(2, 3, (2, 0), 250, 1, 24, 1, 72, 1),
    shown(3, 3, (1, 0), 250, 0, 24, 1, 24, 3),
)
done(34)
look(
    shown(1, 4, None, 252, 7, 0, 1, 64, 2),
    shown(2, 4, (2, 2), 250, 1, 0, 1, 72, 1),
    shown(3, 4, (1, 1), 250, 0, 0, 1, 24, 3),
)
