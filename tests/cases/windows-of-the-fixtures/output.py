# What each fixture shows in each stage. A figure lists player and value, greatest value first, then by player.
from views import answer_play, time_of

FIGURES = (
    "goals_scored", "assists", "own_goals", "penalties_saved", "penalties_missed", "yellow_cards", "red_cards", "saves",
    "bonus", "bps",
)
CLUBS = {6: (3, 4), 7: (6, 5)}  # home and away; clubs 1 and 2 in the others


def listed(pairs):
    return [{"element": player, "value": value} for player, value in pairs]


def fixture(number, event, kickoff, score=(None, None), minutes=0, finished=False, home=None, away=None):
    """`home` and `away` are what the players of the two sides have of some figures; None where it has not started."""
    club_h, club_a = CLUBS.get(number, (1, 2))
    stats = [
        {"a": listed(away.get(name, [])), "h": listed(home.get(name, [])), "identifier": name}
        for name in (FIGURES if home is not None else ())
    ]
    return {
        "code": number, "event": event, "finished": finished, "finished_provisional": finished, "id": number,
        "kickoff_time": time_of(kickoff), "minutes": minutes, "started": home is not None, "stats": stats, "team_a": club_a,
        "team_a_score": score[1], "team_h": club_h, "team_h_score": score[0],
    }


SEVENTH = fixture(7, None, 12345)  # kicks off first, in no gameweek
FIRST, SECOND, SIXTH = fixture(1, 1, 15400), fixture(2, 2, 25400), fixture(6, 2, 25400)
LATER = [fixture(gameweek, gameweek, 10000 * gameweek + 5400) for gameweek in (3, 4, 5)]
# P4 is away, so his own goal counts for the home side; his yellow card stands beside a red one. P10, who missed a penalty, is
# of neither club.
AWAY_1 = {
    "goals_scored": [(6, 1)], "assists": [(5, 1)], "own_goals": [(4, 1)], "yellow_cards": [(5, 1)], "red_cards": [(4, 1)],
    "bonus": [(6, 3)], "bps": [(6, 24), (5, 12), (4, -9)],
}
HOME_1 = {"goals_scored": [(2, 1)], "saves": [(1, 4)], "bonus": [(2, 2)], "bps": [(2, 18), (1, 14)]}
PLAYED_1 = fixture(1, 1, 15400, (2, 1), 90, True, HOME_1, AWAY_1)
AWAY_2 = {"goals_scored": [(6, 1)], "bonus": [(6, 3), (4, 2)], "bps": [(6, 24), (4, 18), (5, 6)]}
PLAYED_2 = fixture(2, 2, 25400, (0, 1), 90, True, {"bps": [(1, 6), (2, 6), (3, 6)]}, AWAY_2)
# P6 has a line in fixture 6 and is of neither club.
HOME_6 = {"goals_scored": [(8, 1)], "bps": [(8, 24), (9, 6), (7, 3)]}
AWAY_6 = {"goals_scored": [(10, 2)], "penalties_saved": [(12, 1)], "bps": [(10, 54), (12, 21), (11, 6)]}
BEGUN_6 = fixture(6, 2, 25400, (1, 2), 63, False, HOME_6, AWAY_6)
# Without P2's goal; P1 has a bonus.
CORRECTED_HOME_1 = {"saves": [(1, 4)], "bonus": [(1, 1)], "bps": [(1, 14), (2, 6)]}
CORRECTED_1 = fixture(1, 1, 15400, (1, 1), 90, True, CORRECTED_HOME_1, AWAY_1)
WITH_BONUS_6 = HOME_6 | {"bonus": [(8, 2)]}, AWAY_6 | {"bonus": [(10, 3), (12, 1)]}
FINISHED_6 = fixture(6, 2, 25400, (1, 2), 90, True, *WITH_BONUS_6)
# P4 is of the home side now; P6 of neither, so that nobody can tell for whom his goals were.
MOVED_6 = fixture(6, 1, 15400, (1, 2), 90, True, *WITH_BONUS_6)
HOME_1_WITH_P4 = {
    "own_goals": [(4, 1)], "red_cards": [(4, 1)], "saves": [(1, 4)], "bonus": [(1, 1)], "bps": [(1, 14), (2, 6), (4, -9)],
}
AWAY_1_WITHOUT_P6 = {"assists": [(5, 1)], "yellow_cards": [(5, 1)], "bps": [(5, 12)]}
MOVED_1 = fixture(1, 1, 15400, (None, None), 90, True, HOME_1_WITH_P4, AWAY_1_WITHOUT_P6)
HOME_2_WITH_P4 = {"bonus": [(4, 2)], "bps": [(4, 18), (1, 6), (2, 6), (3, 6)]}
MOVED_2 = fixture(2, 2, 25400, (None, None), 90, True, HOME_2_WITH_P4, {"bps": [(5, 6)]})
WITHOUT_A_LINE = fixture(3, 3, 35400, (0, 0), 90, True, {}, {})
UNKNOWN_OWN_GOAL = fixture(4, 4, 45400, (None, None), 1, False, {}, {})
answer_play(
    {
        "begun": [[SEVENTH, FIRST, SECOND, SIXTH, *LATER]],
        "first": [[SEVENTH, PLAYED_1, SECOND, SIXTH, *LATER]],
        "second": [[SEVENTH, PLAYED_1, PLAYED_2, BEGUN_6, *LATER]],
        "corrected": [[SEVENTH, CORRECTED_1, PLAYED_2, FINISHED_6, *LATER]],
        "moved": [[SEVENTH, MOVED_1, MOVED_6, MOVED_2, *LATER]],
        "third": [[SEVENTH, MOVED_1, MOVED_6, MOVED_2, WITHOUT_A_LINE, *LATER[1:]]],
        "fourth": [[SEVENTH, MOVED_1, MOVED_6, MOVED_2, WITHOUT_A_LINE, UNKNOWN_OWN_GOAL, *LATER[2:]]],
    }
)
