# What both looks show.
import json
import sys

from views import time_of

sys.stdout.reconfigure(encoding="utf-8")
NAMES = [("Ōtāhuhu", "Ōtā"), ('"Q" Park', '"Q"'), ("🦅🦅🦅🦅", "🦅🦅🦅"), ("AB", "AB")]
TYPES = [
    ("Goalkeeper", "GKP", 1, 1, 2), ("Defender", "DEF", 5, 3, 5), ("Midfielder", "MID", 5, 2, 5), ("Forward", "FWD", 3, 1, 3),
]


def say(body):
    body = json.dumps(body, sort_keys=True, separators=(",", ":"), ensure_ascii=False)
    print(end=f"HTTP/1.1 200 OK\r\nContent-Type: application/json\r\nContent-Length: {len(body.encode())}\r\n\r\n{body}")


def kind(number, name, short, most, least, squad):
    return {
        "element_count": (0, 1, 0, 1)[number - 1], "id": number, "plural_name": f"{name}s", "plural_name_short": short,
        "singular_name": name, "singular_name_short": short, "squad_max_play": most, "squad_min_play": least,
        "squad_select": squad,
    }


def element(player, name, position, club, price, latest, per_game, **figures):
    names = (
        "assists", "bonus", "bps", "clean_sheets", "goals_conceded", "goals_scored", "minutes", "own_goals",
        "penalties_missed", "penalties_saved", "red_cards", "saves", "total_points", "yellow_cards",
    )
    return {
        **dict.fromkeys(names, 0), **figures, "chance_of_playing_next_round": None, "chance_of_playing_this_round": None,
        "code": player, "element_type": position, "event_points": latest, "first_name": "", "id": player, "news": "",
        "now_cost": price, "photo": "", "points_per_game": per_game, "second_name": name, "selected_by_percent": "0.0",
        "status": "a", "team": club, "team_code": club, "web_name": name,
    }


def event(gameweek, last):
    return {
        "average_entry_score": 0, "data_checked": False, "deadline_time": time_of(10000 * gameweek),
        "deadline_time_epoch": 10000 * gameweek, "finished": False, "highest_score": None, "highest_scoring_entry": None,
        "id": gameweek, "is_current": gameweek == last, "is_next": gameweek == last + 1, "is_previous": gameweek == last - 1,
        "name": f"Gameweek {gameweek}",
    }


def glance(last, *elements):
    return {
        "element_types": [kind(number, *it) for number, it in enumerate(TYPES, 1)],
        "elements": list(elements),
        "events": [event(gameweek, last) for gameweek in (1, 2)],
        "teams": [{"code": 10 * at, "id": 10 * at, "name": name, "short_name": short} for at, (name, short) in enumerate(NAMES, 1)],
        "total_players": 0,
    }


for number in range(1, 45):
    say({"done": number})
# In the bonus points system a minute is 3, a yellow card -3, an own goal -6 and an assist 9.
for turn in range(2):
    say(
        glance(
            1,
            element(7, "Ō'Neill", 2, 10, 45, -1, "-0.1", bps=-3, minutes=20, own_goals=1, total_points=-1, yellow_cards=19),
            element(900000, '"Q"', 4, 20, 200, 1, "0.1", bps=3, minutes=20, total_points=1, yellow_cards=19),
        )
    )
say({"done": 45})
for turn in range(2):
    say(
        glance(
            2,
            element(7, "Ō'Neill", 2, 10, 45, 0, "0.0", bps=-3, minutes=21, own_goals=1, total_points=-1, yellow_cards=20),
            element(900000, '"Q"', 4, 20, 200, 4, "0.2", assists=1, bps=15, minutes=21, total_points=5, yellow_cards=19),
        )
    )
