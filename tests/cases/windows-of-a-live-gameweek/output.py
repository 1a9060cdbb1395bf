# What each player did in a gameweek, and what his points are for: identifier, points and value.
from views import DREAMS, LINES, PLAYED, answer_play, lines_of, total

PLAIN = [("minutes", 2, 90)]
EXPLAINED_1 = {
    1: [*PLAIN, ("saves", 1, 4)],
    2: [*PLAIN, ("goals_scored", 6, 1), ("bonus", 2, 2)],
    4: [("minutes", 2, 70), ("goals_conceded", -1, 2), ("own_goals", -2, 1), ("red_cards", -3, 1)],
    5: [*PLAIN, ("assists", 3, 1), ("yellow_cards", -1, 1)],
    6: [*PLAIN, ("goals_scored", 5, 1), ("bonus", 3, 3)],
    7: PLAIN,
    8: PLAIN,
    9: [("minutes", 1, 30)],
    10: [*PLAIN, ("penalties_missed", -2, 1)],
    11: [("minutes", 2, 60)],
    13: [("minutes", 0, 0)],
    14: PLAIN,
    15: [*PLAIN, ("clean_sheets", 4, 1), ("bonus", 2, 2)],
}
EXPLAINED_2 = {
    1: PLAIN,
    2: PLAIN,
    3: PLAIN,
    4: [*PLAIN, ("clean_sheets", 4, 1), ("bonus", 2, 2)],
    5: [*PLAIN, ("clean_sheets", 1, 1)],
    6: [*PLAIN, ("goals_scored", 5, 1), ("clean_sheets", 1, 1), ("bonus", 3, 3)],
    16: PLAIN,
    17: [*PLAIN, ("bonus", 1, 1)],
    18: [*PLAIN, ("assists", 3, 1), ("bonus", 1, 1)],
}
AN_HOUR = [("minutes", 2, 63)]
EXPLAINED_6 = {
    6: [("minutes", 1, 10), ("yellow_cards", -1, 1)],
    7: [("minutes", 1, 45)],
    8: [*AN_HOUR, ("goals_scored", 5, 1)],
    9: AN_HOUR,
    10: [*AN_HOUR, ("goals_scored", 8, 2)],
    11: AN_HOUR,
    12: [*AN_HOUR, ("penalties_saved", 5, 1)],
}
CORRECTED = {1: EXPLAINED_1 | {1: [*PLAIN, ("saves", 1, 4), ("bonus", 1, 1)], 2: PLAIN}, 2: EXPLAINED_2}
CORRECTED[6] = EXPLAINED_6 | {player: [*EXPLAINED_6[player], ("bonus", it, it)] for player, it in ((8, 2), (10, 3), (12, 1))}
EXPLAINED = {"first": {1: EXPLAINED_1}, "second": {1: EXPLAINED_1, 2: EXPLAINED_2, 6: EXPLAINED_6}}
EXPLAINED |= {"corrected": CORRECTED, "moved": CORRECTED}


def element(stage, gameweek, player):
    fixtures = [it for it in PLAYED[stage][gameweek] if player in LINES[stage][it]]
    stats = total(lines_of(stage, player, fixtures))
    items = lambda it: [dict(zip(("identifier", "points", "value"), item)) for item in EXPLAINED[stage][it][player]]
    stats["in_dreamteam"] = player in dict(DREAMS[stage][gameweek])
    return {"explain": [{"fixture": it, "stats": items(it)} for it in fixtures], "id": player, "stats": stats}


def live(stage, gameweek):
    return {"elements": [element(stage, gameweek, player) for player in range(1, 19)]}


OPEN = {"elements": []}
answer_play(
    {
        "begun": [OPEN, OPEN],
        "first": [live("first", 1), OPEN],
        "second": [live("second", 1), live("second", 2), OPEN, None, OPEN, None],
        "corrected": [live("corrected", 1), live("corrected", 2)],
        "moved": [live("moved", 1), live("moved", 2)],
    }
)
