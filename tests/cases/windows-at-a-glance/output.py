# The season at a glance in each stage.
from managers import POSITIONS
from views import PLAYED, answer_play, lines_of, time_of, total

NUMBERS = "GDMF"
# How many players there are: P1 and P12; P2 to P4 and P14 to P16; P5 to P9 and P17; P10, P11, P13 and P18.
COUNTS = 2, 6, 6, 4
TYPES = [
    ("Goalkeeper", "GKP", 1, 1, 2), ("Defender", "DEF", 5, 3, 5), ("Midfielder", "MID", 5, 2, 5), ("Forward", "FWD", 3, 1, 3),
]
# Of the entries in the last locked gameweek, in percent: both have the first squad in gameweek 1. In gameweek 2 they are
# three: P9 left entry 1, P10 entry 2 for its free hit, P15 entries 1 and 3; P16 came to both, P17 to entry 1, P18 to entry
# 2. In gameweek 3 P9 is with all again, and so is P10; P17 and P18 have nobody.
FIRST_SQUAD = {player: "100.0" for player in range(1, 16)}
SELECTED = {"begun": {}, "first": FIRST_SQUAD}
SELECTED["second"] = FIRST_SQUAD | {9: "66.7", 10: "66.7", 15: "33.3", 16: "66.7", 17: "33.3", 18: "33.3"}
SELECTED["corrected"] = SELECTED["moved"] = SELECTED["second"]
SELECTED["third"] = SELECTED["fourth"] = FIRST_SQUAD | {15: "33.3", 16: "66.7"}
# Total points by played lines: P13's only line has no minute.
FIRST = {1: "3.0", 2: "10.0", 4: "-4.0", 5: "4.0", 6: "10.0", 7: "2.0", 8: "2.0", 9: "1.0", 11: "2.0", 14: "2.0", 15: "8.0"}
PER_GAME = {"begun": {}, "first": FIRST}
PER_GAME["second"] = FIRST | {
    1: "2.5", 2: "6.0", 3: "2.0", 4: "2.0", 5: "3.5",  # 5, 12, 2, 4 and 7 points
    6: "7.0",  # 10 + 11 + 0 in three
    7: "1.5", 8: "4.5", 9: "1.5", 10: "5.0", 11: "2.0", 12: "7.0", 16: "2.0", 17: "3.0", 18: "6.0",
}
# P1 6 points in two lines, P2 4, P8 2 + 9, P10 13, P12 8 in one
PER_GAME["corrected"] = PER_GAME["second"] | {1: "3.0", 2: "2.0", 8: "5.5", 10: "6.5", 12: "8.0"}
PER_GAME["moved"] = PER_GAME["third"] = PER_GAME["corrected"]
PER_GAME["fourth"] = PER_GAME["third"] | {6: "5.0"}  # 10 + 11 + 0 - 1 in four; P8 did not play
PRICES = {9: 53, 17: 55, 18: 60}
# Of gameweeks 1, 2, 3 and 4: mean, greatest, who has it, and whether it has ended. The gross points are 36 and 42 in gameweek 1;
# 61, 47 and 66 in gameweek 2. The correction leaves 29 and 35, and with the bonus of fixture 6 gameweek 2 has 69, 49 and 74.
# Once it has moved they are 56 and 62, and 36, 37 and 30, whose mean of 34 and a third is rounded down. In gameweek 3 all
# have 0. In gameweek 4 P6's -1 counts twice for entry 2, whose captain he is: -1, -2 and -1, whose mean is rounded down to -2.
OPEN = 0, None, None, False
WEEKS = {
    "begun": [],
    "first": [(39, 42, 2, True)],
    "second": [(39, 42, 2, True), (58, 66, 3, False)],
    "corrected": [(32, 35, 2, True), (64, 74, 3, True)],
    "moved": [(59, 62, 2, True), (34, 37, 2, True)],
    "third": [(59, 62, 2, True), (34, 37, 2, True), (0, 0, 1, True)],
    "fourth": [(59, 62, 2, True), (34, 37, 2, True), (0, 0, 1, True), (-2, -1, 1, False)],
}


def kind(number, name, short, most, least, squad):
    return {
        "element_count": COUNTS[number - 1], "id": number, "plural_name": f"{name}s", "plural_name_short": short,
        "singular_name": name, "singular_name_short": short, "squad_max_play": most, "squad_min_play": least,
        "squad_select": squad,
    }


def club_of(stage, player):
    is_later = stage in ("moved", "third", "fourth")
    return {4: 1, 6: 6}[player] if is_later and player in (4, 6) else (player + 2) // 3


def element(stage, player):
    last = len(WEEKS[stage])
    points = total(lines_of(stage, player, PLAYED[stage][last]))["total_points"] if last else 0
    club = club_of(stage, player)
    return {
        **total(lines_of(stage, player)), "chance_of_playing_next_round": None, "chance_of_playing_this_round": None,
        "code": player, "element_type": NUMBERS.index(POSITIONS[player - 1]) + 1, "event_points": points, "first_name": "",
        "id": player, "news": "", "now_cost": 50 if stage == "begun" else PRICES.get(player, 50), "photo": "",
        "points_per_game": PER_GAME[stage].get(player, "0.0"), "second_name": f"P{player}",
        "selected_by_percent": SELECTED[stage].get(player, "0.0"),
        "status": "u" if player == 18 and stage in ("moved", "third", "fourth") else "a", "team": club, "team_code": club,
        "web_name": f"P{player}",
    }


def event(stage, gameweek):
    weeks = WEEKS[stage]
    mean, most, entry, has_ended = (weeks + 5 * [OPEN])[gameweek - 1]
    last, deadline = len(weeks), 10000 * gameweek
    return {
        "average_entry_score": mean, "data_checked": has_ended, "deadline_time": time_of(deadline),
        "deadline_time_epoch": deadline, "finished": has_ended, "highest_score": most, "highest_scoring_entry": entry,
        "id": gameweek, "is_current": gameweek == last, "is_next": gameweek == last + 1, "is_previous": gameweek == last - 1,
        "name": f"Gameweek {gameweek}",
    }


def glance(stage):
    return {
        "element_types": [kind(number, *it) for number, it in enumerate(TYPES, 1)],
        "elements": [element(stage, player) for player in range(1, 19)],
        "events": [event(stage, gameweek) for gameweek in range(1, 6)],
        "teams": [{"code": it, "id": it, "name": f"Club {it}", "short_name": "Clu"} for it in range(1, 7)],
        "total_players": 2 if stage == "begun" else 3,  # entry 3 comes behind the first lock, and entry 4 never
    }


answer_play({stage: [glance(stage)] for stage in WEEKS})
