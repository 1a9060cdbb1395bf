#!/usr/bin/env python3
"""A plain host of a season's facts in Python's standard library, for bench/pipe.sh: it answers the requests on
standard input as `kowhirupe pipe --key KEY` does, of which the bench prints the ratio.

usage: plain_host.py KEY < requests
"""
import json
import re
import sys
import time
from bisect import bisect_right

PHRASES = {
    200: "OK", 201: "Created", 400: "Bad Request", 401: "Unauthorized", 403: "Forbidden", 404: "Not Found",
    405: "Method Not Allowed", 409: "Conflict", 411: "Length Required", 413: "Payload Too Large",
    431: "Request Header Fields Too Large", 501: "Not Implemented",
}
POSITIONS = {"G": 0, "D": 1, "M": 2, "F": 3}
LAST_MOMENT = 253402300799


class Malformed(Exception):
    """A body's first wrong member."""


class Refused(Exception):
    """A rule that refuses, with its number and what it names."""

    def __init__(self, rule, **kept):
        self.body = dict(kept, error="rule", rule=rule)


class Unknown(Exception):
    """An id that is not there."""


def number(body, name, low, high):
    value = body.get(name)
    if type(value) is not int or not low <= value <= high:
        raise Malformed(name)
    return value


def gameweek_or_none(body):
    if "gameweek" in body and body["gameweek"] is None:
        return None
    return number(body, "gameweek", 1, 38)


def text_name(value):
    if type(value) is not str:
        return False
    data = value.encode("utf-8", "surrogatepass")
    return 1 <= len(data) <= 64 and all(b >= 32 and b != 127 for b in data)


def truth(body, name):
    if type(body.get(name)) is not bool:
        raise Malformed(name)
    return body[name]


def figures_of(value, field):
    if type(value) is not list or len(value) != 28 or not all(type(v) is int and 0 <= v <= 65535 for v in value):
        raise Malformed(field)
    return tuple(value)


def read_season(body):
    deadlines = body.get("deadlines")
    if type(deadlines) is not list or not 1 <= len(deadlines) <= 38 \
            or not all(type(d) is int and 0 <= d <= LAST_MOMENT for d in deadlines):
        raise Malformed("deadlines")
    split = number(body, "split", 0, len(deadlines))
    clubs = body.get("clubs")
    if type(clubs) is not list or not 1 <= len(clubs) <= 20:
        raise Malformed("clubs")
    rows = []
    for club in clubs:
        if type(club) is not dict or type(club.get("id")) is not int or not 1 <= club["id"] <= 255 \
                or not text_name(club.get("name")):
            raise Malformed("clubs")
        rows.append((club["id"], club["name"]))
    if len({row[0] for row in rows}) != len(rows):
        raise Malformed("clubs")
    profile = number(body, "profile", 1, 2) if "profile" in body else 1
    return ("season", tuple(deadlines), split, tuple(rows), profile)


def read_player(body):
    player = number(body, "id", 1, 999999)
    if not text_name(body.get("name")):
        raise Malformed("name")
    position = body.get("position")
    if type(position) is not str or position not in POSITIONS:
        raise Malformed("position")
    return ("player", player, body["name"], position, number(body, "club", 1, 255), number(body, "price", 0, 65535))


def read_fixture(body):
    fixture, home = number(body, "id", 1, 999999), number(body, "home", 1, 255)
    away = number(body, "away", 1, 255)
    if away == home:
        raise Malformed("away")
    return ("fixture", fixture, home, away, gameweek_or_none(body), number(body, "kickoff", 0, LAST_MOMENT))


def read_sheet(body):
    lines = body.get("lines")
    if type(lines) is not list or len(lines) > 100:
        raise Malformed("lines")
    rows = []
    for line in lines:
        if type(line) is not dict or type(line.get("player")) is not int or not 1 <= line["player"] <= 999999:
            raise Malformed("lines")
        rows.append((line["player"], figures_of(line.get("figures"), "lines")))
    return ("sheet", tuple(rows), truth(body, "finished"))


READERS = {
    "season": read_season,
    "deadlines": lambda b: ("deadline", number(b, "gameweek", 1, 38), number(b, "deadline", 0, LAST_MOMENT)),
    "players": read_player,
    "prices": lambda b: ("price", number(b, "player", 1, 999999), number(b, "price", 0, 65535)),
    "clubs": lambda b: ("club", number(b, "player", 1, 999999), number(b, "club", 1, 255)),
    "gone": lambda b: ("gone", number(b, "player", 1, 999999), truth(b, "gone")),
    "fixtures": read_fixture,
    "move": lambda b: ("move", gameweek_or_none(b), number(b, "kickoff", 0, LAST_MOMENT)),
    "sheet": read_sheet,
    "line": lambda b: ("line", number(b, "player", 1, 999999), figures_of(b.get("figures"), "figures")),
    "drop": lambda b: ("drop", number(b, "player", 1, 999999)),
    "finished": lambda b: ("finished", truth(b, "finished")),
}
GREATEST = [120, 99, 99, 99, 99, 99, 99, 1, 1, 99, 99, 99, 99, 99, 99, 99, 99, 1, 400, None] + [99] * 8


def wrong_field(figures):
    for place, value in enumerate(figures):
        if value > (figures[18] if GREATEST[place] is None else GREATEST[place]):
            return place + 1
    return 0


def clean_sheet(f):
    return f[0] >= 60 and f[3] == 0


def line_points(position, f):
    points = (2 if f[0] >= 60 else 1 if f[0] else 0) + f[1] * (6, 6, 5, 4)[position] + 3 * f[2]
    points += (4, 4, 1, 0)[position] if clean_sheet(f) else 0
    points += f[4] // 3 if position == 0 else 0
    points -= f[3] // 2 if position < 2 else 0
    points += 5 * f[5] - 2 * f[6] - (0 if f[8] else f[7]) - 3 * f[8] - 2 * f[9]
    return points


def line_bps(position, f):
    bps = (6 if f[0] > 60 else 3 if f[0] else 0) + f[1] * (12, 12, 18, 24)[position] + 9 * f[2]
    bps += 12 if clean_sheet(f) and position < 2 else 0
    bps += 2 * f[4] + 15 * f[5] - 6 * f[6] - 3 * (0 if f[8] else f[7]) - 9 * f[8] - 6 * f[9]
    bps += f[10] + 3 * f[11] + f[12] // 2 + f[13] // 3 + f[14] + 2 * f[15] + f[16] + 3 * f[17]
    if f[18] >= 30:
        bps += 6 if 10 * f[19] >= 9 * f[18] else 4 if 10 * f[19] >= 8 * f[18] else 2 if 10 * f[19] >= 7 * f[18] else 0
    return bps - 3 * (f[20] + f[21] + f[22]) - f[23] - f[24] - f[25] - f[26] - f[27]


class Host:
    def __init__(self):
        self.season = False
        self.last = 0
        self.kept = None
        self.players, self.fixtures, self.lines, self.marks = {}, {}, {}, set()

    def lock(self, now):
        if self.season:
            self.locked = max(self.locked, bisect_right(self.deadlines, now))

    def command(self, count, command, target, now):
        if count != self.last + 1:
            if count == self.last and (command, target) == self.kept:
                return {"done": count}
            raise Refused(1 if count > self.last + 1 else 2 if count == self.last else 3, last=self.last)
        kind = command[0]
        if kind == "season":
            if self.season:
                raise Refused(5)
        elif not self.season:
            raise Refused(4)
        getattr(self, "do_" + kind)(*command[1:], *target, now)
        self.last, self.kept = count, (command, target)
        return {"done": count}

    def do_season(self, deadlines, split, clubs, profile, now):
        for place in range(1, len(deadlines)):
            if deadlines[place] <= deadlines[place - 1]:
                raise Refused(7, gameweek=place + 1)
        self.season, self.deadlines, self.split, self.clubs = True, list(deadlines), split, dict(sorted(clubs))
        self.locked = 0
        self.profile = profile
        self.standing = {g: set() for g in range(1, len(deadlines) + 1)}

    def there(self, ids, id):
        if id not in ids:
            raise Unknown

    def gameweek_there(self, g):
        if g is not None and g > len(self.deadlines):
            raise Unknown

    def do_deadline(self, g, deadline, now):
        self.gameweek_there(g)
        if g <= self.locked or deadline <= now:
            raise Refused(8, gameweek=g)
        if g > 1 and deadline <= self.deadlines[g - 2] or g < len(self.deadlines) and deadline >= self.deadlines[g]:
            raise Refused(7, gameweek=g)
        early = [f for f in self.standing[g] if self.fixtures[f][3] < deadline + 5400]
        if early:
            raise Refused(9, fixture=min(early))
        self.deadlines[g - 1] = deadline

    def do_player(self, player, name, position, club, price, now):
        self.there(self.clubs, club)
        if player in self.players:
            raise Refused(12, player=player)
        if len(self.players) >= 1200:
            raise Refused(46)
        if not 30 <= price <= 200:
            raise Refused(13)
        self.players[player] = [name, position, club, price, False]

    def do_price(self, player, price, now):
        self.there(self.players, player)
        if not 30 <= price <= 200:
            raise Refused(13)
        self.players[player][3] = price

    def do_club(self, player, club, now):
        self.there(self.players, player)
        self.there(self.clubs, club)
        self.players[player][2] = club

    def do_gone(self, player, gone, now):
        self.there(self.players, player)
        self.players[player][4] = gone

    def judge_place(self, fixture, g, kickoff):
        if g is None:
            return
        if len(self.standing[g] - {fixture}) >= 20:
            raise Refused(45, gameweek=g)
        if kickoff < self.deadlines[g - 1] + 5400:
            raise Refused(9, fixture=fixture)

    def do_fixture(self, fixture, home, away, g, kickoff, now):
        self.there(self.clubs, home)
        self.there(self.clubs, away)
        self.gameweek_there(g)
        if fixture in self.fixtures:
            raise Refused(47, fixture=fixture)
        if len(self.fixtures) >= 380:
            raise Refused(48)
        self.judge_place(fixture, g, kickoff)
        self.fixtures[fixture] = [home, away, g, kickoff]
        if g is not None:
            self.standing[g].add(fixture)

    def do_move(self, g, kickoff, fixture, now):
        self.there(self.fixtures, fixture)
        self.gameweek_there(g)
        if (self.lines.get(fixture) or fixture in self.marks) and (g is None or g > self.locked):
            raise Refused(10, fixture=fixture)
        self.judge_place(fixture, g, kickoff)
        row = self.fixtures[fixture]
        if row[2] is not None:
            self.standing[row[2]].discard(fixture)
        row[2], row[3] = g, kickoff
        if g is not None:
            self.standing[g].add(fixture)

    def in_locked(self, fixture):
        g = self.fixtures[fixture][2]
        if g is None or g > self.locked:
            raise Refused(11, fixture=fixture)

    def mark(self, fixture, finished):
        (self.marks.add if finished else self.marks.discard)(fixture)

    def do_sheet(self, lines, finished, fixture, now):
        self.there(self.fixtures, fixture)
        for player, _ in lines:
            self.there(self.players, player)
        self.in_locked(fixture)
        if len(lines) > 64:
            raise Refused(43)
        seen = set()
        for player, _ in lines:
            if player in seen:
                raise Refused(42, player=player)
            seen.add(player)
        for _, figures in lines:
            if wrong_field(figures):
                raise Refused(41, field=wrong_field(figures))
        self.lines[fixture] = dict(lines)
        self.mark(fixture, finished)

    def do_line(self, player, figures, fixture, now):
        self.there(self.fixtures, fixture)
        self.there(self.players, player)
        self.in_locked(fixture)
        lines = self.lines.setdefault(fixture, {})
        if player not in lines and len(lines) >= 64:
            raise Refused(43)
        if wrong_field(figures):
            raise Refused(41, field=wrong_field(figures))
        lines[player] = figures

    def do_drop(self, player, fixture, now):
        self.there(self.fixtures, fixture)
        self.there(self.lines.get(fixture, {}), player)
        del self.lines[fixture][player]

    def do_finished(self, finished, fixture, now):
        self.there(self.fixtures, fixture)
        self.in_locked(fixture)
        self.mark(fixture, finished)

    def position(self, player):
        return POSITIONS[self.players[player][1]]

    def standing_of(self, fixture):
        lines = self.lines.get(fixture, {})
        return [line_bps(self.position(p), f) for p, f in lines.items() if f[0]]

    def bonus(self, fixture, standing, player, figures):
        if fixture not in self.marks or not figures[0]:
            return 0
        own = line_bps(self.position(player), figures)
        return max(0, 3 - sum(1 for other in standing if other > own))

    def view_season(self):
        clubs = [{"id": club, "name": name} for club, name in self.clubs.items()]
        return {"clubs": clubs, "deadlines": self.deadlines, "locked": self.locked, "profile": self.profile, "split": self.split}

    def view_player(self, player):
        self.there(self.players, player)
        name, position, club, price, gone = self.players[player]
        return {"club": club, "gone": gone, "id": player, "name": name, "position": position, "price": price}

    def view_gameweek(self, player, g):
        self.there(self.players, player)
        if not 1 <= g <= self.locked:
            raise Unknown
        points = goals = conceded = 0
        played = False
        for fixture in self.standing[g]:
            figures = self.lines.get(fixture, {}).get(player)
            if figures is None:
                continue
            points += line_points(self.position(player), figures)
            points += self.bonus(fixture, self.standing_of(fixture), player, figures)
            played = played or bool(figures[0] or figures[7] or figures[8])
            goals, conceded = goals + figures[1], conceded + figures[3]
        return {"conceded": conceded, "goals": goals, "played": played, "points": points}

    def view_fixture(self, fixture):
        self.there(self.fixtures, fixture)
        home, away, g, kickoff = self.fixtures[fixture]
        standing = self.standing_of(fixture)
        lines = [
            {"bonus": self.bonus(fixture, standing, p, f), "bps": line_bps(self.position(p), f), "player": p,
             "points": line_points(self.position(p), f)}
            for p, f in sorted(self.lines.get(fixture, {}).items())
        ]
        return {"away": away, "finished": fixture in self.marks, "gameweek": g, "home": home, "id": fixture,
                "kickoff": kickoff, "lines": lines}


ID = "(0|[1-9][0-9]{0,9})"
ROUTES = [(re.compile(pattern.replace("ID", ID) + r"\Z"), methods) for pattern, methods in [
    ("/season", {"POST": "season", "GET": "season"}),
    ("/deadlines", {"POST": "deadlines"}), ("/players", {"POST": "players"}), ("/prices", {"POST": "prices"}),
    ("/clubs", {"POST": "clubs"}), ("/gone", {"POST": "gone"}), ("/fixtures", {"POST": "fixtures"}),
    ("/fixtures/ID/move", {"POST": "move"}), ("/fixtures/ID/sheet", {"POST": "sheet"}),
    ("/fixtures/ID/line", {"POST": "line"}), ("/fixtures/ID/drop", {"POST": "drop"}),
    ("/fixtures/ID/finished", {"POST": "finished"}),
    ("/players/ID", {"GET": "player"}), ("/players/ID/gameweeks/ID", {"GET": "gameweek"}),
    ("/fixtures/ID", {"GET": "fixture"}),
]]


def route(method, target):
    for pattern, methods in ROUTES:
        found = pattern.match(target)
        if found:
            ids = [int(text) for text in found.groups()]
            if any(id > 4294967295 for id in ids):
                continue
            return (methods.get(method), ids)
    return None


def strict_object(data):
    def no_constant(word):
        raise ValueError(word)

    def float_of(text):
        value = float(text)
        if value in (float("inf"), float("-inf")):
            raise ValueError(text)
        return value

    def int_of(text):
        float_of(text)
        return -0.0 if text == "-0" else int(text)

    text = data.decode("utf-8")
    depth = greatest = 0
    in_text = escaped = False
    for letter in text:
        if in_text:
            in_text = escaped or letter != '"'
            escaped = letter == "\\" and not escaped
        elif letter == '"':
            in_text, escaped = True, False
        elif letter in "[{":
            depth += 1
            greatest = max(greatest, depth)
        elif letter in "]}":
            depth -= 1
    if greatest > 127:
        raise ValueError("depth")
    value = json.loads(text, parse_constant=no_constant, parse_float=float_of, parse_int=int_of, strict=True)
    if re.search(r"\\u[dD][89a-fA-F]", text):
        json.dumps(value, ensure_ascii=False).encode("utf-8")
    return value


def answered(host, key, method, target, shown, body):
    row = route(method, target)
    if row is None:
        return 404, {"error": "unknown"}
    name, ids = row
    if name is None:
        return 405, {"error": "method"}
    if shown != key:
        return 401, {"error": "key"}
    try:
        if method == "POST":
            try:
                value = strict_object(body)
            except (ValueError, RecursionError):
                raise Malformed("body")
            if type(value) is not dict:
                raise Malformed("body")
            count = number(value, "number", 1, 2 ** 63 - 1)
            command = READERS[name](value)
            now = int(time.time())
            host.lock(now)
            return 200, host.command(count, command, ids, now)
        now = int(time.time())
        host.lock(now)
        if not host.season:
            raise Refused(4)
        return 200, getattr(host, "view_" + name)(*ids)
    except Malformed as wrong:
        return 400, {"error": "malformed", "field": str(wrong)}
    except Refused as refused:
        return 409, refused.body
    except Unknown:
        return 404, {"error": "unknown"}


def respond(out, status, body, closing):
    text = json.dumps(body, separators=(",", ":"), sort_keys=True, ensure_ascii=False).encode("utf-8")
    close = "Connection: close\r\n" if closing else ""
    head = f"HTTP/1.1 {status} {PHRASES[status]}\r\nContent-Type: application/json\r\nContent-Length: {len(text)}\r\n{close}\r\n"
    out.write(head.encode() + text)


TOKEN = re.compile(rb"[!#$%&'*+\-.^_`|~0-9A-Za-z]+\Z")


def is_target(target):
    """Whether a target is text without spaces and control characters."""
    try:
        target.decode("utf-8")
    except UnicodeDecodeError:
        return False
    return bool(target) and all(b > 32 and b != 127 for b in target)


def head_fields(head):
    """The request line and the fields of a head, or None where it is none."""
    lines = head.replace(b"\r\n", b"\n").split(b"\n")
    first = lines[0].split(b" ")
    if len(first) != 3 or not TOKEN.match(first[0]) or not is_target(first[1]) or first[2] not in (b"HTTP/1.1", b"HTTP/1.0"):
        return None
    fields = []
    for line in lines[1:]:
        if not line:
            break
        name, colon, value = line.partition(b":")
        if not colon or not TOKEN.match(name) or re.search(rb"[\x00-\x08\x0a-\x1f\x7f]", value):
            return None
        fields.append((name.lower(), value.strip(b" \t")))
    return first, fields


def serve(key, data, out):
    host, at = Host(), 0
    key = key.encode()
    while True:
        while data[at:at + 1] == b"\n" or data[at:at + 2] == b"\r\n":
            at += 1 if data[at:at + 1] == b"\n" else 2
        if at >= len(data):
            return 0
        ends = [e for e in (data.find(b"\n\n", at, at + 8192), data.find(b"\n\r\n", at, at + 8192)) if e >= 0]
        if not ends:
            if len(data) - at >= 8192:
                respond(out, 431, {"error": "bytes"}, True)
                return 12
            return 7
        end = min(ends)
        end += 2 if data[end + 1:end + 2] == b"\n" else 3
        head = data[at:end]
        if head.count(b"\n") - 2 > 64:
            respond(out, 431, {"error": "bytes"}, True)
            return 12
        read = head_fields(head)
        status = 0
        if read is None:
            status = 400
        else:
            (method, target, version), fields = read
            lengths = [value for name, value in fields if name == b"content-length"]
            if any(name == b"transfer-encoding" for name, _ in fields):
                status = 501
            elif len(lengths) > 1 or lengths and not re.match(rb"[0-9]{1,10}\Z", lengths[0]):
                status = 400
            elif method == b"POST" and not lengths:
                status = 411
            elif lengths and int(lengths[0]) > 262144:
                status = 413
        if status:
            respond(out, status, {"error": "bytes"}, True)
            return 12
        length = int(lengths[0]) if lengths else 0
        if len(data) - end < length:
            return 7
        body, at = data[end:end + length], end + length
        keys = [value for name, value in fields if name == b"fpl-key"]
        closing = version == b"HTTP/1.0" or any(name == b"connection" and value.lower() == b"close" for name, value in fields)
        shown = keys[0] if len(keys) == 1 else None
        status, answer = answered(host, key, method.decode(), target.decode("utf-8", "replace"), shown, body)
        respond(out, status, answer, closing)
        if closing:
            return 0


if __name__ == "__main__":
    sys.exit(serve(sys.argv[1], sys.stdin.buffer.read(), sys.stdout.buffer))
