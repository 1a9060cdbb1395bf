# The table; its points are worked out in windows-of-an-entry.
from views import NAMES, answer_play


def table(*rows):
    """Rows of entry, rank, last rank, points of the gameweek and total."""
    league = {
        "admin_entry": 1, "closed": False, "code_privacy": "p", "id": 1, "league_type": "x", "max_entries": None,
        "name": "Office", "scoring": "c", "start_event": 1,
    }
    results = [
        {
            "entry": entry, "entry_name": NAMES[entry], "event_total": points, "id": entry, "last_rank": last,
            "player_name": "", "rank": rank, "rank_sort": place, "total": total,
        }
        for place, (entry, rank, last, points, total) in enumerate(rows, 1)
    ]
    page = {"has_next": False, "page": 1}
    return {"league": league, "new_entries": page | {"results": []}, "standings": page | {"results": results}}


answer_play(
    {
        "begun": [table((1, 1, 0, 0, 0), (2, 1, 0, 0, 0))],
        "first": [table((2, 1, 0, 42, 42), (1, 2, 0, 36, 36), (3, 3, 0, 0, 0))],
        "second": [table((1, 1, 2, 61, 93), (2, 2, 1, 47, 89), (3, 3, 3, 66, 66)), None, None, None, None],
        "corrected": [table((1, 1, 2, 69, 94), (2, 2, 1, 49, 84), (3, 3, 3, 74, 74))],
        "moved": [table((2, 1, 1, 37, 99), (1, 2, 2, 36, 88), (3, 3, 3, 30, 30))],
        "third": [table((2, 1, 1, 0, 99), (1, 2, 2, 0, 88), (3, 3, 3, 0, 30))],
    }
)
