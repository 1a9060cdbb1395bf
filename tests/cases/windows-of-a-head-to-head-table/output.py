# The tables. The points after deductions are worked out in windows-of-an-entry, and the matches stand in
# windows-of-head-to-head-matches.
from views import NAMES, answer_play

LEAGUES = {2: (1, "Lunch", 2), 3: (1, "Never drawn", 1), 4: (2, "Derby", 1)}


def table(number, drawn, *rows):
    """Rows of entry, rank, last rank, matches won, drawn and lost, match points, and points scored."""
    creator, name, start = LEAGUES[number]
    league = {
        "admin_entry": creator, "closed": drawn, "code_privacy": "p", "id": number, "league_type": "x", "max_entries": 64,
        "name": name, "scoring": "h", "start_event": start,
    }
    results = [
        {
            "division": number, "entry": entry, "entry_name": NAMES[entry], "id": entry, "last_rank": last,
            "matches_drawn": level, "matches_lost": lost, "matches_played": won + level + lost, "matches_won": won,
            "player_name": "", "points_for": scored, "rank": rank, "rank_sort": place, "total": total,
        }
        for place, (entry, rank, last, won, level, lost, total, scored) in enumerate(rows, 1)
    ]
    page = {"has_next": False, "page": 1}
    return {"league": league, "new_entries": page | {"results": []}, "standings": page | {"results": results}}


def bare(entry, last=0):
    """A member who has played nothing."""
    return entry, 1, last, 0, 0, 0, 0, 0


UNDRAWN = table(3, False, bare(1, last=1))
answer_play(
    {
        "begun": [table(2, False, bare(1), bare(2)), table(3, False, bare(1)), table(4, True, bare(1), bare(2))],
        # Entry 2 wins by 42 to 36.
        "first": [
            table(2, True, bare(1), bare(2), bare(3)),
            table(3, False, bare(1)),
            table(4, True, (2, 1, 0, 1, 0, 0, 3, 42), (1, 2, 0, 0, 0, 1, 0, 36)),
        ],
        # Entry 3 wins by 66 against the Average, which has 56, and entry 1 by 57 to 47, in league 4 too: 36 + 57 and 42 + 47.
        "second": [
            table(2, True, (3, 1, 0, 1, 0, 0, 3, 66), (1, 2, 0, 1, 0, 0, 3, 57), (2, 3, 0, 0, 0, 1, 0, 47)),
            UNDRAWN,
            table(4, True, (1, 1, 2, 1, 0, 1, 3, 93), (2, 2, 1, 1, 0, 1, 3, 89)),
            None, None, None,
        ],
        # 74 to 62, and 65 to 49; in gameweek 1 it is 35 to 29.
        "corrected": [
            table(2, True, (3, 1, 0, 1, 0, 0, 3, 74), (1, 2, 0, 1, 0, 0, 3, 65), (2, 3, 0, 0, 0, 1, 0, 49)),
            UNDRAWN,
            table(4, True, (1, 1, 2, 1, 0, 1, 3, 94), (2, 2, 1, 1, 0, 1, 3, 84)),
        ],
        # Entry 3's 30 are less than the Average's 33, and entry 2 wins by 37 to 32; in gameweek 1 by 62 to 56.
        "moved": [
            table(2, True, (2, 1, 0, 1, 0, 0, 3, 37), (1, 2, 0, 0, 0, 1, 0, 32), (3, 3, 0, 0, 0, 1, 0, 30)),
            UNDRAWN,
            table(4, True, (2, 1, 1, 2, 0, 0, 6, 99), (1, 2, 2, 0, 0, 2, 0, 88)),
        ],
        # In gameweek 3 all have 0, the Average too.
        "third": [
            table(2, True, (2, 1, 1, 1, 1, 0, 4, 37), (1, 2, 2, 0, 1, 1, 1, 32), (3, 3, 3, 0, 1, 1, 1, 30)),
            UNDRAWN,
            table(4, True, (2, 1, 1, 2, 1, 0, 7, 99), (1, 2, 2, 0, 1, 2, 1, 88)),
        ],
        # In gameweek 4 entry 3 wins by -1 to -2 against entry 2, and entry 1 by -1 to -2, against the Average and entry 2.
        "fourth": [
            table(2, True, (2, 1, 1, 1, 1, 1, 4, 35), (1, 2, 2, 1, 1, 1, 4, 31), (3, 3, 3, 1, 1, 1, 4, 29)),
            UNDRAWN,
            table(4, True, (2, 1, 1, 2, 1, 1, 7, 97), (1, 2, 2, 1, 1, 2, 4, 87)),
        ],
    }
)
