"""The routes, and what the bodies of commands say: docs/HTTP.md, Asking; Commands; Views.

A body is read member by member, in the order of the tables there, so that the first wrong member is named.
"""
import json
import re
from typing import Callable, NamedTuple

from figures import POSITIONS

LAST_MOMENT = 253402300799
MOST_IDS = 4294967295
PLAYER, CLUB, GAMEWEEK, ENTRY = (1, 999999), (1, 255), (1, 38), (1, MOST_IDS)
FIXTURE, PRICE, MOMENT = PLAYER, (0, 65535), (0, LAST_MOMENT)
CHIPS = ("none", "wildcard", "free_hit", "bench_boost", "triple_captain")
DEEPEST = 127


class Malformed(Exception):
    """The first wrong member of a body, or `body` where it is no JSON object."""


class NotJson(Exception):
    """A text that is no JSON."""


# Texts


def finite(text):
    """A number that is too large for a float is none."""
    value = float(text)
    if value in (float("inf"), float("-inf")):
        raise NotJson
    return value


def integer(text):
    """Minus zero is no whole number."""
    value = finite(text)
    return value if text == "-0" else int(text)


def no_constant(word):
    """Python would read NaN and Infinity."""
    raise NotJson


def has_lone_surrogate(value):
    if type(value) is str:
        return re.search("[\ud800-\udfff]", value) is not None
    if type(value) is list:
        return any(map(has_lone_surrogate, value))
    return False  # an object was looked at when it was made


def object_of(pairs):
    """A member that stands twice has its last value, but the earlier one has to be readable too."""
    if any(has_lone_surrogate(name) or has_lone_surrogate(value) for name, value in pairs):
        raise NotJson
    return dict(pairs)


def is_too_deep(text):
    if text.count("[") + text.count("{") <= DEEPEST:
        return False
    depth = 0
    for bracket in re.findall(r"[][{}]", re.sub(r'"(?:[^"\\]|\\.)*"', "", text, flags=re.DOTALL)):
        depth += 1 if bracket in "[{" else -1
        if depth > DEEPEST:
            return True
    return False


def read_object(data):
    """The members of a body, by name."""
    try:
        text = data.decode("utf-8")
        if is_too_deep(text):
            raise NotJson
        value = json.loads(text, parse_constant=no_constant, parse_float=finite, parse_int=integer, object_pairs_hook=object_of)
    except (ValueError, RecursionError, NotJson):
        raise Malformed("body") from None
    if type(value) is not dict:
        raise Malformed("body")
    return value


# Members: each of these makes a reader, which takes a body and gives the member's value


def is_whole(value, low, high):
    """Whether a value is a whole number in this range; true and false are none."""
    return type(value) is int and low <= value <= high


def is_name(value):
    if type(value) is not str:
        return False
    data = value.encode("utf-8")
    return 1 <= len(data) <= 64 and all(byte >= 32 and byte != 127 for byte in data)


def member(name, is_right):
    """The member of this name, which has to stand and to be right."""

    def read(body):
        if name not in body or not is_right(body[name]):
            raise Malformed(name)
        return body[name]

    return read


def number(name, low, high):
    return member(name, lambda value: is_whole(value, low, high))


def text(name):
    return member(name, is_name)


def small(name, low, high):
    """Small letters and digits."""
    return member(name, lambda value: type(value) is str and re.fullmatch("[a-z0-9]{%d,%d}" % (low, high), value))


def truth(name):
    return member(name, lambda value: type(value) is bool)


def word(name, words):
    return member(name, lambda value: type(value) is str and value in words)


def gameweek_or_null(body):
    return member("gameweek", lambda value: value is None or is_whole(value, *GAMEWEEK))(body)


def numbers(name, low, high, least, greatest):
    """A list of so many whole numbers in this range."""
    is_right = lambda value: type(value) is list and low <= len(value) <= high and all(is_whole(it, least, greatest) for it in value)
    return lambda body: tuple(member(name, is_right)(body))


def figures(name):
    return numbers(name, 28, 28, 0, 65535)


def rows(name, low, high, *readers):
    """A list of so many objects with these members; whatever is wrong inside of it, the list is named."""

    def read(body):
        found = []
        for row in member(name, lambda value: type(value) is list and low <= len(value) <= high)(body):
            try:
                if type(row) is not dict:
                    raise Malformed
                found.append(tuple(read_one(row) for read_one in readers))
            except Malformed:
                raise Malformed(name) from None
        return tuple(found)

    return read


def members(*readers):
    return lambda body: tuple(read(body) for read in readers)


def season_members(body):
    deadlines = numbers("deadlines", 1, 38, *MOMENT)(body)
    split = number("split", 0, len(deadlines))(body)
    clubs = rows("clubs", 1, 20, number("id", *CLUB), text("name"))(body)
    if len({club for club, _ in clubs}) != len(clubs):
        raise Malformed("clubs")
    profile = number("profile", 1, 2)(body) if "profile" in body else 1
    return deadlines, split, clubs, profile


def player_members(body):
    player, name = number("id", *PLAYER)(body), text("name")(body)
    position = POSITIONS.index(word("position", tuple(POSITIONS))(body))
    return player, name, position, number("club", *CLUB)(body), number("price", *PRICE)(body)


def fixture_members(body):
    fixture, home, away = members(number("id", *FIXTURE), number("home", *CLUB), number("away", *CLUB))(body)
    if home == away:
        raise Malformed("away")
    return fixture, home, away, gameweek_or_null(body), number("kickoff", *MOMENT)(body)


def name_and_position(body):
    name = text("name")(body)
    return name, POSITIONS.index(word("position", tuple(POSITIONS))(body))


def two_clubs(body):
    home, away = members(number("home", *CLUB), number("away", *CLUB))(body)
    if home == away:
        raise Malformed("away")
    return home, away


def chip_members(body):
    return (CHIPS.index(word("chip", CHIPS[1:])(body)),)


FIFTEEN = members(numbers("players", 15, 15, *PLAYER), number("captain", *PLAYER), number("vice", *PLAYER))


# Commands and routes

OPERATOR, MANAGER, ANYBODY = "operator", "manager", "anybody"


class Command(NamedTuple):
    """The number by which a store names a command, who may ask it, and how its members are read."""

    number: int
    caller: str
    members: Callable


COMMANDS = {
    "season": Command(1, OPERATOR, season_members),
    "deadlines": Command(2, OPERATOR, members(number("gameweek", *GAMEWEEK), number("deadline", *MOMENT))),
    "players": Command(3, OPERATOR, player_members),
    "amend_player": Command(24, OPERATOR, name_and_position),
    "prices": Command(4, OPERATOR, members(number("player", *PLAYER), number("price", *PRICE))),
    "clubs": Command(5, OPERATOR, members(number("player", *PLAYER), number("club", *CLUB))),
    "gone": Command(6, OPERATOR, members(number("player", *PLAYER), truth("gone"))),
    "fixtures": Command(7, OPERATOR, fixture_members),
    "amend_fixture": Command(25, OPERATOR, two_clubs),
    "move": Command(8, OPERATOR, members(gameweek_or_null, number("kickoff", *MOMENT))),
    "sheet": Command(9, OPERATOR, members(rows("lines", 0, 100, number("player", *PLAYER), figures("figures")), truth("finished"))),
    "line": Command(10, OPERATOR, members(number("player", *PLAYER), figures("figures"))),
    "drop": Command(11, OPERATOR, members(number("player", *PLAYER))),
    "finished": Command(12, OPERATOR, members(truth("finished"))),
    "keys": Command(13, OPERATOR, members(small("key", 8, 64), text("name"))),
    "rekey": Command(23, OPERATOR, members(small("key", 8, 64), text("name"))),
    "squad": Command(14, MANAGER, FIFTEEN),
    "transfers": Command(15, MANAGER, members(rows("swaps", 1, 15, number("out", *PLAYER), number("in", *PLAYER)))),
    "lineup": Command(16, MANAGER, FIFTEEN),
    "chip": Command(17, MANAGER, chip_members),
    "cancel": Command(18, MANAGER, members()),
    "leagues": Command(19, MANAGER, members(word("kind", ("classic", "head")), text("name"), small("code", 4, 16), number("start", *GAMEWEEK))),
    "join": Command(20, MANAGER, members(small("code", 4, 16))),
    "draw": Command(21, OPERATOR, members(numbers("order", 0, 64, *ENTRY))),
    "cups": Command(22, OPERATOR, members(number("start", *GAMEWEEK), numbers("slots", 0, 1024, 0, MOST_IDS), numbers("coins", 0, 1024, 0, 1))),
}
ROUTES = {
    "/season": {"POST": "season", "GET": "view_season"},
    "/deadlines": {"POST": "deadlines"},
    "/players": {"POST": "players"},
    "/prices": {"POST": "prices"},
    "/clubs": {"POST": "clubs"},
    "/gone": {"POST": "gone"},
    "/fixtures": {"POST": "fixtures"},
    "/fixtures/ID/move": {"POST": "move"},
    "/fixtures/ID/sheet": {"POST": "sheet"},
    "/fixtures/ID/line": {"POST": "line"},
    "/fixtures/ID/drop": {"POST": "drop"},
    "/fixtures/ID/finished": {"POST": "finished"},
    "/keys": {"POST": "keys"},
    "/keys/ID": {"POST": "rekey"},
    "/squad": {"POST": "squad"},
    "/transfers": {"POST": "transfers"},
    "/lineup": {"POST": "lineup"},
    "/chip": {"POST": "chip"},
    "/chip/cancel": {"POST": "cancel"},
    "/leagues": {"POST": "leagues"},
    "/leagues/ID/join": {"POST": "join"},
    "/leagues/ID/draw": {"POST": "draw"},
    "/cups": {"POST": "cups"},
    "/me": {"GET": "view_me"},
    "/players/ID": {"POST": "amend_player", "GET": "view_player"},
    "/players/ID/gameweeks/ID": {"GET": "view_player_gameweek"},
    "/fixtures/ID": {"POST": "amend_fixture", "GET": "view_fixture"},
    "/entries/ID/gameweeks/ID": {"GET": "view_entry"},
    "/leagues/ID": {"GET": "view_league"},
    "/cups/ID": {"GET": "view_cup"},
}
# Each of these is there with a slash at its end too.
WINDOWS = {
    "/api/bootstrap-static": "window_bootstrap",
    "/api/fixtures": "window_fixtures",
    "/api/fixtures/ID/sheet": "window_sheet",
    "/api/event/ID/live": "window_live",
    "/api/element-summary/ID": "window_element_summary",
    "/api/dream-team/ID": "window_dream_team",
    "/api/entries": "window_entries",
    "/api/entry/ID": "window_entry",
    "/api/entry/ID/history": "window_history",
    "/api/entry/ID/event/ID/picks": "window_picks",
    "/api/entry/ID/transfers": "window_transfers",
    "/api/leagues": "window_leagues",
    "/api/my-leagues": "window_my_leagues",
    "/api/leagues-classic/ID/standings": "window_classic_standings",
    "/api/leagues-h2h/ID/standings": "window_head_standings",
    "/api/leagues-h2h-matches/league/ID": "window_head_matches",
    "/api/cups": "window_cups",
    "/api/cups/ID": "window_cup",
    "/api/me": "window_me",
}
OF_MANAGERS = ("view_me", "window_my_leagues")
OF_THE_CALLER = (*OF_MANAGERS, "window_me")
WITHOUT_SEASON = ("window_me",)
ROUTES |= {target + end: {"GET": name} for target, name in WINDOWS.items() for end in ("", "/")}
PATTERNS = [(re.compile(target.replace("ID", "(0|[1-9][0-9]{0,9})")), methods) for target, methods in ROUTES.items()]


def route_of(target):
    """What is asked by which method at a target, and the ids in it; or None."""
    for pattern, methods in PATTERNS:
        found = pattern.fullmatch(target)
        if found and all(int(id) <= MOST_IDS for id in found.groups()):
            return methods, tuple(map(int, found.groups()))
    return None


def may_ask(name, caller):
    """Whether a route is for this caller, 0 for the operator."""
    whose = COMMANDS[name].caller if name in COMMANDS else MANAGER if name in OF_MANAGERS else ANYBODY
    return whose == ANYBODY or (whose == OPERATOR) == (caller == 0)
