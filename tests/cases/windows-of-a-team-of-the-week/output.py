# The elevens of views.py, and who has the most points of all who played.
from views import DREAMS, answer_play


def dream(stage, gameweek, player, points):
    team = [{"element": it, "points": its, "position": place} for place, (it, its) in enumerate(DREAMS[stage][gameweek], 1)]
    return {"team": team, "top_player": {"id": player, "points": points}}


NONE = {"team": [], "top_player": None}
answer_play(
    {
        "begun": [NONE, NONE],
        "first": [dream("first", 1, 2, 10), NONE],  # P2 and P6 have 10
        "second": [dream("second", 1, 2, 10), dream("second", 2, 6, 11), None, NONE, None],
        "corrected": [dream("corrected", 1, 6, 10), dream("corrected", 2, 10, 13)],
        "moved": [dream("moved", 1, 10, 13), dream("moved", 2, 6, 11)],
        "third": [NONE],
    }
)
