# The matches. League 2 has the places of entry 3, entry 1, entry 2 and the Average, and starts in gameweek 2: in its rounds 0, 1
# and 2 those of the places 0, 1 and 2 meet whose sum is 0, 1 or 2, modulo 3, and the last of them meets the Average. League 4
# has the places of entry 2 and entry 1. Points after deductions are worked out in windows-of-an-entry.
from views import NAMES, answer_play

AVERAGE = None
LUNCH = {
    2: [(0, 3, AVERAGE), (1, 1, 2)],  # place 0, whose double is 0, and 1 + 2
    3: [(0, 3, 1), (2, 2, AVERAGE)],  # 0 + 1, and place 2, whose double is 1
    4: [(0, 3, 2), (1, 1, AVERAGE)],  # 0 + 2, and place 1, whose double is 2
    5: [(0, 3, AVERAGE), (1, 1, 2)],  # as in round 0
}
DERBY = {gameweek: [(0, 2, 1)] for gameweek in range(1, 6)}


def side(name, entry, mine, theirs, is_played):
    won, level, lost = (is_played and it for it in (mine > theirs, mine == theirs, mine < theirs))
    return {
        f"{name}_draw": int(level), f"{name}_entry": entry, f"{name}_loss": int(lost), f"{name}_name": NAMES[entry],
        f"{name}_player_name": "", f"{name}_points": mine, f"{name}_total": 3 if won else int(level), f"{name}_win": int(won),
    }


def matches(league, rounds, points):
    """`points` are those of each entry, and of the Average, in the locked gameweeks."""
    results = []
    for gameweek, pairs in rounds.items():
        scored, is_played = points.get(gameweek, {}), gameweek in points
        for place, one, other in pairs:
            mine, theirs = scored.get(one, 0), scored.get(other, 0)
            about = {
                "event": gameweek, "id": 1000 * gameweek + place, "is_bye": False, "is_knockout": False, "league": league,
                "winner": None,
            }
            results.append(about | side("entry_1", one, mine, theirs, is_played) | side("entry_2", other, theirs, mine, is_played))
    return {"has_next": False, "page": 1, "results": results}


def of_all(points):
    return [matches(2, LUNCH, points), NONE, matches(4, DERBY, points)]


NONE = matches(3, {}, {})
FIRST = {1: 36, 2: 42}
SECOND = {1: 57, 2: 47, 3: 66, AVERAGE: 56}  # 170 are three times 56 and 2
CORRECTED = {1: {1: 29, 2: 35}, 2: {1: 65, 2: 49, 3: 74, AVERAGE: 62}}  # 188 are three times 62 and 2
MOVED = {1: {1: 56, 2: 62}, 2: {1: 32, 2: 37, 3: 30, AVERAGE: 33}}
answer_play(
    {
        "begun": [NONE, NONE, matches(4, DERBY, {})],
        "first": of_all({1: FIRST}),
        "second": of_all({1: FIRST, 2: SECOND}) + [None, None, None],
        "corrected": of_all(CORRECTED),
        "moved": of_all(MOVED),
        "third": of_all(MOVED | {3: {}}),
        # -1, -2 and -1 are no less than three times -2, so entry 1 beats the Average.
        "fourth": of_all(MOVED | {3: {}, 4: {1: -1, 2: -2, 3: -1, AVERAGE: -2}}),
    }
)
