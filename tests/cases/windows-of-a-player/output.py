# What players 3 and 4 of clubs 1 and 2, and player 6 of club 2, have before them and behind them.
from views import LINES, answer_play, time_of


def coming(club, fixtures):
    """`fixtures` of clubs 1 and 2 that have not started, each in the gameweek of its number."""
    return [
        {
            "event": it, "id": it, "is_home": club == 1, "kickoff_time": time_of(10000 * it + 5400), "team_a": 2, "team_h": 1,
        }
        for it in fixtures
    ]


SEVENTH = {"event": None, "id": 7, "is_home": True, "kickoff_time": time_of(12345), "team_a": 5, "team_h": 6}


def behind(stage, player, fixture, gameweek, kickoff, opponent, is_home, score):
    home, away = score
    return {
        **LINES[stage][fixture][player], "element": player, "fixture": fixture, "kickoff_time": time_of(kickoff),
        "opponent_team": opponent, "round": gameweek, "team_a_score": away, "team_h_score": home, "was_home": is_home,
    }


def summary(fixtures, history):
    return {"fixtures": fixtures, "history": history, "history_past": []}


def of_all(stage, fixtures, first_score):
    """Before anybody changes club: P3 has a line in fixture 2 alone, P6 one in fixture 6, of clubs 3 and 4, too."""
    away = coming(2, fixtures)
    third = [behind(stage, 3, 2, 2, 25400, 2, True, (0, 1))]
    fourth, sixth = (
        [behind(stage, it, 1, 1, 15400, 1, False, first_score), behind(stage, it, 2, 2, 25400, 1, False, (0, 1))] for it in (4, 6)
    )
    sixth.append(behind(stage, 6, 6, 2, 25400, None, None, (1, 2)))
    return [summary(coming(1, fixtures), third), summary(away, fourth), summary(away, sixth)]


def of_all_behind_moves(stage, fixtures):
    """P4 is of club 1 now and P6 of club 6, so the scores of fixtures 1 and 2, with his goals, cannot be told."""
    home, none = coming(1, fixtures), (None, None)
    third = [behind(stage, 3, 2, 2, 25400, 2, True, none)]
    fourth = [behind(stage, 4, 1, 1, 15400, 2, True, none), behind(stage, 4, 2, 2, 25400, 2, True, none)]
    sixth = [
        behind(stage, 6, 1, 1, 15400, None, None, none),
        behind(stage, 6, 6, 1, 15400, None, None, (1, 2)),
        behind(stage, 6, 2, 2, 25400, None, None, none),
    ]
    return [summary(home, third), summary(home, fourth), summary([SEVENTH], sixth)]


FIVE = 1, 2, 3, 4, 5
answer_play(
    {
        "begun": [summary(coming(club, FIVE), []) for club in (1, 2, 2)],
        "second": of_all("second", (3, 4, 5), (2, 1)) + [None, None, None],
        "corrected": of_all("corrected", (3, 4, 5), (1, 1)),
        "moved": of_all_behind_moves("moved", (3, 4, 5)),
        "third": of_all_behind_moves("third", (4, 5)),  # fixture 3 has the finished mark
    }
)
