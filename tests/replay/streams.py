"""Random streams of requests, by their seeds: each a play of a season or of bytes, with what the clock tells and the answers.

They are made such that all refusals come, each command is done and repeated, and the odd situations of a season are met:
free hits, double and blank gameweeks, corrections behind a deadline, level tables, ties that a coin decides, limits.
"""
import itertools
import random

from moves import Moves
from oddities import odd_body, odd_head, odd_targets
from spoiling import ending, flipped_head

LIMITS = ("leagues", "head", "players", "fixtures", "lines", "lines", "cups", "cups", "standing", "standing", "bracket", "players", "head")


class Stream(Moves):
    """A stream of a kind, which is drawn where none is named."""

    def __init__(self, seed, kind=None, windows=()):
        chance = random.Random(seed)
        self.windows = windows
        self.kind = kind or chance.choice(["plain"] * 30 + ["wrong"] * 6 + ["odd"] * 4)
        super().__init__(chance)
        self.is_level = self.kind == "level"
        self.wrong = {"plain": 0.12, "wrong": 0.4, "odd": 0.2}.get(self.kind, self.wrong)
        self.fancy = 0.8 if self.kind == "odd" else self.fancy

    def made(self):
        """The stream, whole."""
        name = self.kind.partition(":")[0]
        play = {"plain": "season", "wrong": "season", "odd": "season", "level": "leagues"}.get(name, name)
        getattr(self, f"play_{play}")()
        self.finish()
        return self

    def finish(self):
        """Perhaps something that ends the session."""
        if self.is_over or self.chance.random() > (0.9 if self.kind == "odd" else 0.25):
            return
        self.send(flipped_head(self.chance) if self.chance.random() < 0.5 else ending(self.chance))

    # A season

    def step(self):
        chance, draw = self.chance, self.chance.random()
        entry = self.any_entry()
        if draw < 0.36:
            facts = ("sheet", "line", "drop", "finished", "finish_gameweek", "move")
            others = ("fixture", "deadline", "price", "club", "gone", "player", "key", "draw", "cup", "season", "rekey", "amend_fixture", "amend_player")
            (name,) = chance.choices(facts + others, [10, 14, 5, 8, 4, 9, 3, 5, 8, 3, 3, 2, 2, 5, 4, 1, 3, 3, 4])
            getattr(self, name)()
            if name in facts and chance.random() < 0.25:
                self.all_views(chance.choice([0.1, 0.3]))
        elif draw < 0.68 and entry:
            names = ("squad", "transfers", "lineup", "chip", "cancel", "league", "join")
            (name,) = chance.choices(names, [2, 12, 8, 7, 4, 3, 6])
            getattr(self, name)(entry)
        elif draw < 0.73:
            self.repeat(chance.randint(0, len(self.host.entries)))
        elif draw < 0.97:
            self.view()
        elif entry:
            self.get("/me", entry)

    def enter(self):
        """A few entries, most of them with squads, in leagues and cups."""
        chance, host = self.chance, self.host
        for _ in range(chance.choice([1, 2, 3, 4, 5, 6, 8])):
            self.key()
        for entry in range(1, len(host.entries) + 1):
            for _ in range(3):
                if not self.is_registered(entry) and chance.random() < 0.9:
                    self.squad(entry)
        for _ in range(chance.choice([0, 1, 2, 4])):
            if host.entries:
                self.league(self.any_entry())
        for _ in range(len(host.leagues) * 3):
            self.join(self.any_entry())
        for _ in range(len(host.leagues)):
            if chance.random() < 0.8:
                self.draw()
        for _ in range(chance.choice([0, 1, 1, 2])):
            self.cup()

    def play_season(self):
        chance, host = self.chance, self.host
        self.begin()
        if not host.has_season:
            return
        self.enter()
        steps = chance.choice([60, 120, 200, 300, 500])
        pace = (host.gameweeks + 0.5) / steps / 0.7 * chance.choice([0.5, 0.8, 1, 1])
        for _ in range(steps):
            if self.is_over:
                return
            self.tick(pace)
            self.step()
        if chance.random() < 0.5:
            self.now = max(self.now, host.deadlines[-1])
        self.all_views()
        if chance.random() < 0.5:
            for _ in range(10):
                self.one_of("line", "sheet", "drop", "finished", "finish_gameweek", "move")
            self.all_views()

    def one_of(self, *names):
        getattr(self, self.chance.choice(names))()

    # Leagues

    def play_leagues(self):
        """Many members that are nearly level: long leagues and larger cups, with corrections."""
        chance, host = self.chance, self.host
        self.wrong, self.fancy = chance.choice([0.0, 0.03]), 0.02
        self.begin(gameweeks=chance.choice([4, 6, 8, 9, 12]), clubs=8, players=40)
        if not host.has_season:
            return
        self.enter_leagues()
        steps = chance.choice([8, 15, 30])
        while not self.is_over and host.next_gameweek():
            for _ in range(steps):
                self.step_in_leagues()
            if host.next_gameweek():
                self.now = max(self.now, host.deadlines[host.locked] + chance.choice([0, 0, -1, 1]))
                self.get("/season")
        self.all_views()

    def enter_leagues(self):
        chance, host = self.chance, self.host
        for _ in range(chance.choice([3, 4, 5, 6, 7, 8, 9, 10, 13])):
            self.key()
        early = [entry for entry in range(1, len(host.entries) + 1) if chance.random() < 0.85]
        for entry in early:
            self.squad_if_none(entry, 5)
        for _ in range(chance.choice([2, 3, 4])):
            entry = chance.choice(early) if early else 1
            self.make_league(entry, chance.choice(["classic", "head", "head"]), chance.choice([1, 1, 2, 3]))
        for league in range(1, len(host.leagues) + 1):
            for entry in early:
                if chance.random() < 0.85:
                    self.do(entry, f"/leagues/{league}/join", [("code", "abcd")])
        for _ in range(len(host.leagues) * 2):
            self.draw()
        for _ in range(chance.choice([1, 2, 3])):
            self.cup()

    def step_in_leagues(self):
        chance, draw = self.chance, self.chance.random()
        entry = self.any_entry()
        if draw < 0.3 and entry:
            name = chance.choice(["transfers", "transfers", "lineup", "chip", "chip", "cancel", "join"])
            getattr(self, name)(entry)
        elif draw < 0.65:
            self.one_of("sheet", "sheet", "line", "line", "drop", "finished", "finish_gameweek", "move", "price", "fixture")
            if chance.random() < 0.4:
                self.all_views(chance.choice([0.1, 0.2]))
        elif draw < 0.7:
            self.one_of("draw", "cup")
        else:
            self.view(chance.choice(["league", "cup", "entry", "me"]))

    # Transfers

    def play_frenzy(self):
        """Transfers up to the limit of 20, and to that of 1,000 under a wildcard or a free hit or in the first gameweek."""
        chance, host = self.chance, self.host
        self.wrong = 0.02
        self.begin(gameweeks=chance.choice([3, 4]), clubs=8, players=60)
        if not host.has_season:
            return
        self.key()
        self.key()
        for entry in range(1, len(host.entries) + 1):
            self.squad_if_none(entry, 6)
        entries = self.registered()
        for _ in range(host.gameweeks if entries else 0):
            if self.is_over or not host.next_gameweek():
                break
            self.frenzy_of(chance.choice(entries))
        if entries:
            self.all_views()

    def frenzy_of(self, entry):
        """A gameweek of one entry."""
        chance, host = self.chance, self.host
        if chance.random() < 0.5:
            self.chip(entry, "wildcard", "free_hit")
        is_great = chance.random() < 0.35
        for _ in range(95 if is_great else chance.randint(6, 25)):
            self.transfers(entry, chance.choice([15, 13, 11] if is_great else [1, 2, 5, 15]))
            if chance.random() < 0.05:
                self.price()
            if chance.random() < 0.1:
                self.get("/me", entry)
        if chance.random() < 0.5:
            self.chip(entry, "wildcard", "free_hit", "bench_boost")
            self.get("/me", entry)
            self.transfers(entry, 2)
        if host.next_gameweek():
            self.now = max(self.now, host.deadlines[host.locked])
        self.get("/me", entry)
        for _ in range(5):
            self.sheet()

    # Limits

    def play_limits(self):
        """One of the limits of docs/LIMITS.md is reached."""
        chance = self.chance
        self.wrong = self.fancy = 0.0
        which = chance.choice(LIMITS)
        which = self.kind.partition(":")[2] or which
        if which == "fixtures":
            self.begin(gameweeks=chance.choice([20, 38, 5]))
        else:
            self.begin(gameweeks=chance.choice([3, 6, 11]), players=110 if which == "lines" else 40)
        if self.host.has_season:
            getattr(self, f"most_{which}")()
            self.all_views(0.2)

    def most_entries(self):
        for number in range(1, 2051):
            self.do(0, "/keys", [("key", f"manager{number:04}"), ("name", "E")])
        self.do(0, "/keys", [("key", "operator1"), ("name", "E")])
        self.squad(2048)

    def enter_many(self, count):
        for number in range(1, count + 1):
            self.do(0, "/keys", [("key", f"manager{number:04}"), ("name", f"E{number}")])
            self.squad_if_none(len(self.host.entries), 8)

    def play_gameweeks(self):
        """All gameweeks pass, and the leagues and cups are looked at."""
        host = self.host
        for gameweek in range(host.gameweeks):
            self.now = max(self.now, host.deadlines[gameweek])
            for _ in range(3):
                self.sheet()
            for league in range(1, min(3, len(host.leagues)) + 1) if gameweek < 4 else ():
                self.get(f"/leagues/{league}")
            for cup in range(1, len(host.cups) + 1):
                self.get(f"/cups/{cup}")

    def most_leagues(self):
        chance, host = self.chance, self.host
        self.enter_many(27)
        for entry in range(1, 28):
            for _ in range(21 if entry > 1 else 22):
                self.make_league(entry, chance.choice(["classic", "head"]), 1)
            self.get(f"/leagues/{len(host.leagues)}")
        for _ in range(20):
            self.join(self.any_entry())
        self.play_gameweeks()

    def most_head(self):
        """Of the members of a head-to-head league."""
        chance, host = self.chance, self.host
        self.enter_many(67)
        for kind in ("head", "classic"):
            self.make_league(1, kind, chance.choice([1, 2]))
        for entry in range(2, 68):
            for league in (1, 2):
                self.do(entry, f"/leagues/{league}/join", [("code", "abcd")])
        order = list(host.leagues[0].members) if host.leagues else []
        chance.shuffle(order)
        self.do(0, "/leagues/1/draw", [("order", order)])
        self.play_gameweeks()

    def most_bracket(self):
        """Of the rounds of a cup."""
        chance = self.chance
        self.enter_many(chance.choice([20, 70]))
        for _ in range(4):
            ties = 2 ** (chance.choice([4, 5, 6, 7]) - 1)
            entries = self.registered()
            chance.shuffle(entries)
            first = [2 * tie + chance.randrange(2) for tie in range(ties)]
            rest = [place for place in range(2 * ties) if place not in first]
            chance.shuffle(rest)
            slots = self.seated(entries, first + rest)
            coins = [chance.randrange(2) for _ in slots[1:]]
            self.do(0, "/cups", [("start", 1), ("slots", slots), ("coins", coins)])
        self.play_gameweeks()

    def most_players(self):
        self.has_players_in_a_row = True
        for _ in range(1290):
            self.add_player()

    def most_fixtures(self):
        chance, gameweeks = self.chance, self.host.gameweeks
        for number in range(1, min(401, 20 * gameweeks) + 1):
            gameweek = (number - 1) % gameweeks + 1
            self.add_fixture(number, gameweek if chance.random() < 0.8 and gameweeks > 5 else None)
        for number in range(min(401, 20 * gameweeks), 425):
            self.add_fixture(number, None)
        self.fixture()

    def most_lines(self):
        chance, host = self.chance, self.host
        self.now = host.deadlines[0]
        for fixture in (900001, 900002):
            self.add_fixture(fixture, 1)
        for count in (64, 65, 66, 100, 101, 99):
            players = list(host.players)[:count]
            players += players[: count - len(players)]
            chance.shuffle(players)
            lines = [{"player": player, "figures": self.line_figures()} for player in players]
            self.do(0, "/fixtures/900001/sheet", [("lines", lines), ("finished", True)])
            if count == 66:
                lines = [{"player": player, "figures": [0] * 28} for player in players[:64]]
                self.do(0, "/fixtures/900001/sheet", [("lines", lines), ("finished", True)])
        for player in host.players:
            self.do(0, "/fixtures/900002/line", [("player", player), ("figures", self.line_figures())])
            if chance.random() < 0.1:
                self.drop()
        self.get("/fixtures/900001")
        self.get("/fixtures/900002")

    def most_cups(self):
        self.key()
        self.key()
        for entry in range(1, min(2, len(self.host.entries)) + 1):
            self.squad_if_none(entry, 8)
        for _ in range(60):
            self.cup()

    def most_standing(self):
        """Of the fixtures of a gameweek."""
        chance, kickoff = self.chance, self.host.deadlines[1] + 90000
        for fixture in range(1000, 1026):
            self.add_fixture(fixture, 2)
        for fixture in range(1000, 1026):
            self.do(0, f"/fixtures/{fixture}/move", [("gameweek", chance.choice([1, 1, 2])), ("kickoff", kickoff)])
        for fixture in range(1026, 1040):
            self.add_fixture(fixture, chance.choice([1, 2]))
        self.move()

    # Bytes

    def play_heads(self):
        """Heads of all sorts, until one of them ends the session."""
        while not self.is_over:
            self.send(odd_head(self.chance))

    def play_bodies(self):
        """JSON of all sorts."""
        for _ in range(500):
            self.send(self.message("POST", "/gone", "operator1", odd_body(self.chance)))

    def play_targets(self):
        """Each target with each method, by each caller, and ids of all sorts in them; before and behind the beginning."""
        if self.chance.random() < 0.5:
            self.begin(gameweeks=2)
            self.key()
        callers = (None, "operator1", "manager01", "wrong000")
        bodies = (b"", b"{}", b'{"number":1}')
        asked = list(itertools.product(("GET", "POST", "PUT", "get", "HEAD"), odd_targets(self.windows), callers, bodies))
        for method, target, key, body in self.chance.sample(asked, 1000):
            self.send(self.message(method, target, key, body))


# Of all seeds, by a draw of each: up to which share a kind comes; where it is None the stream draws one
SHARES = [
    (0.03, "frenzy"),
    (0.068, "limits"),
    (0.0686, "limits:entries"),
    (0.075, "heads"),
    (0.08, "bodies"),
    (0.084, "targets"),
    (0.8, None),
    (0.92, "leagues"),
    (1.0, "level"),
]


def stream(seed, windows=()):
    """The stream of a seed, which asks these views below /api/ too."""
    draw = random.Random(f"mode{seed}").random()
    return Stream(seed, next(kind for share, kind in SHARES if draw < share), windows).made()
