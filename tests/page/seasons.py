"""The seasons that the page is tried on, handed in by the host's own routes."""
import copy
import random

from served import OPERATOR

FIRST_DEADLINE = 1691775000  # 2023-08-11T17:30:00Z
WEEK, BEFORE_KICKOFF = 7 * 86400, 5400
GAMEWEEKS = 8
CLUBS = ("Arrowtown", "Bluff Albion", "Cambridge", "Dunedin City", "Eastbourne", "Featherston", "Gisborne", "Hokitika Rangers")
SHAPE = "GGDDDDDMMMMMFFF"
SURNAMES = """
Abbott Akehurst Alder Amosa Barlow Bates Beckett Biggs Birch Blake Bowen Brandt Bright Calder Carver Chadwick Clegg Coates Cole
Conroy Corbett Crane Cross Dalton Darrow Dempsey Dixon Doyle Drake Duffy Eaton Ellery Emmett Faleafa Farrow Fenwick Finch Flynn
Foster Frost Gable Garner Gibbs Gilroy Goddard Grady Haines Hale Halloran Harker Hart Heke Hobbs Holt Hurst Ihaka Ingram Irving
Jarvis Jennings Jovic Kahu Kaye Keane Kepa Kerr Kirwan Lacey Lange Larkin Leota Locke Lowry Lund Mahuta Mansell Marsh Mercer Moana
Mosley Nash Neville Ngata Nolan Novak Oakley Olsen Orr Osei Paewai Palmer Parata Pike Pratt Quayle Quinn Rangi Reeve Rennie Ropata
Rowe Ryder Salt Savage Seddon Shaw Silva Sloane Stark Tamihana Tanner Tate Tipene Tolley Tuala Underhill Upton Vance Veitch Vogel
Waaka Walsh Webb Weir Wiremu Wynn Yates Young Zeller
""".split()


class Caller:
    """One who sends commands, each with his next number."""

    def __init__(self, served, key):
        self.served, self.key = served, key
        self.number = served.ask("GET", "/api/me/", key)[1].get("last", 0)

    def does(self, target, **members):
        self.number += 1
        status, body = self.served.ask("POST", target, self.key, {"number": self.number, **members})
        if status not in (200, 201):
            raise AssertionError(f"{target} {members}: {status} {body}")
        return body

    def refresh(self):
        self.number = self.served.ask("GET", "/api/me/", self.key)[1]["last"]
        return self


def deadline(gameweek):
    return FIRST_DEADLINE + (gameweek - 1) * WEEK


def kickoff(gameweek, place=0):
    return deadline(gameweek) + BEFORE_KICKOFF + place * 9000


def price_of(position, chance):
    low, high = {"G": (42, 55), "D": (40, 62), "M": (45, 95), "F": (50, 110)}[position]
    return chance.randint(low, high)


class Small:
    """Eight clubs of fifteen, eight gameweeks of four matches; the players of club c are 15 (c - 1) + 1 and on."""

    def __init__(self, served):
        self.served, self.chance = served, random.Random(51)
        self.operator = Caller(served, OPERATOR)
        self.positions, self.prices, self.clubs, self.names, self.fixtures = {}, {}, {}, {}, {}

    def at(self, served):
        """The same season at another host that holds it."""
        other = copy.copy(self)
        other.served, other.operator = served, Caller(served, OPERATOR)
        return other

    def make(self):
        self.served.tell(deadline(1) - 5 * 86400)
        clubs = [{"id": number, "name": name} for number, name in enumerate(CLUBS, 1)]
        deadlines = [deadline(gameweek) for gameweek in range(1, GAMEWEEKS + 1)]
        self.operator.does("/season", deadlines=deadlines, split=4, clubs=clubs)
        for club in range(1, len(CLUBS) + 1):
            for place, position in enumerate(SHAPE):
                self.add_player(15 * (club - 1) + place + 1, club, position)
        for gameweek in range(1, GAMEWEEKS + 1):
            for place, (home, away) in enumerate(self.pairs(gameweek)):
                self.add_fixture(10 * gameweek + place, home, away, gameweek, place)
        return self

    def add_player(self, player, club, position):
        name, price = SURNAMES[player - 1], price_of(position, self.chance)
        self.positions[player], self.prices[player], self.clubs[player], self.names[player] = position, price, club, name
        self.operator.does("/players", id=player, name=name, position=position, club=club, price=price)

    def add_fixture(self, fixture, home, away, gameweek, place):
        self.fixtures[fixture] = (home, away)
        self.operator.does("/fixtures", id=fixture, home=home, away=away, gameweek=gameweek, kickoff=kickoff(gameweek, place))

    def pairs(self, gameweek):
        """Four pairs of the eight clubs, others each gameweek."""
        others, turn = list(range(2, len(CLUBS) + 1)), gameweek % 7
        turned = [1, *others[turn:], *others[:turn]]
        pairs = [(turned[place], turned[-1 - place]) for place in range(4)]
        return [pair if gameweek % 2 else pair[::-1] for pair in pairs]

    # Managers

    def key(self, key, name):
        return self.operator.does("/keys", key=key, name=name)["entry"]

    def squad(self, seed):
        """Fifteen players who may be picked together, in the slots of 4-4-2."""
        chance = random.Random(seed)
        while True:
            squad, clubs = [], {}
            for position in SHAPE:
                fits = [it for it, at in self.positions.items() if at == position and it not in squad and clubs.get(self.clubs[it], 0) < 3]
                player = chance.choice(fits)
                squad.append(player)
                clubs[self.clubs[player]] = clubs.get(self.clubs[player], 0) + 1
            if sum(self.prices[it] for it in squad) <= 1000:
                break
        of = lambda letter: [it for it in squad if self.positions[it] == letter]
        keepers, defenders, midfielders, forwards = map(of, "GDMF")
        starters = [keepers[0], *defenders[:4], *midfielders[:4], *forwards[:2]]
        return [*starters, keepers[1], defenders[4], midfielders[4], forwards[2]]

    def enter(self, key, name, seed):
        """An entry with a squad; its captain is the first forward, its vice-captain the first midfielder."""
        entry = self.key(key, name)
        players = self.squad(seed)
        Caller(self.served, key).does("/squad", players=players, captain=players[9], vice=players[5])
        return entry

    # Matches

    def figures(self, player, goals, conceded, chance):
        """Figures of a usual match."""
        minutes = chance.choice([90, 90, 90, 90, 75, 62, 20])
        figures = [0] * 28
        figures[0], figures[1], figures[3] = minutes, goals, conceded if minutes >= 60 else 0
        figures[2] = chance.choice([0, 0, 0, 0, 0, 1])
        figures[4] = chance.randint(0, 6) if self.positions[player] == "G" else 0
        figures[7] = chance.choice([0] * 7 + [1])
        figures[14], figures[15], figures[25] = chance.randint(0, 3), chance.randint(0, 3), chance.randint(0, 2)
        figures[18] = chance.randint(15, 60)
        figures[19] = figures[18] * chance.randint(65, 95) // 100
        return figures

    def sheet(self, fixture, is_finished=True, absent=()):
        """A match with thirteen players a side, the same for the same number."""
        chance = random.Random(fixture)
        lines, scored = [], [chance.choice([0, 0, 1, 1, 2, 3]), chance.choice([0, 0, 1, 1, 2])]
        for side, club in enumerate(self.fixtures[fixture]):
            players = [15 * (club - 1) + place for place in (1, 3, 4, 5, 6, 8, 9, 10, 11, 12, 13, 14, 15)]
            scorers = [chance.choice(players[5:]) for _ in range(scored[side])]
            for player in players:
                if player not in absent:
                    figures = self.figures(player, scorers.count(player), scored[1 - side], chance)
                    lines.append({"player": player, "figures": figures})
        self.operator.does(f"/fixtures/{fixture}/sheet", lines=lines, finished=is_finished)

    def play(self, gameweek, hours=30):
        """The deadline passes, and all matches are handed in."""
        self.served.tell(deadline(gameweek) + hours * 3600)
        for fixture in range(10 * gameweek, 10 * gameweek + 4):
            self.sheet(fixture, absent=range(gameweek % 5 + 8, 121, 31))


class Generated:
    """The season of `generate`, as docs/FORMATS.md tells it."""

    KINDS = {"G": (0, 3), "D": (3, 9), "M": (12, 11), "F": (23, 7)}
    BANDS = (0, 1, *range(3, 9), *range(12, 17), *range(23, 26))

    def __init__(self, served, entries=500, seed=7):
        self.served, self.entries, self.x = served, entries, seed
        self.operator = Caller(served, OPERATOR)

    def draw(self):
        self.x = (6364136223846793005 * self.x + 1442695040888963407) % 2**64
        return self.x >> 33

    def position(self, band):
        return next(letter for letter, (first, count) in self.KINDS.items() if first <= band < first + count)

    def make(self):
        self.served.tell(1691700000)
        clubs = [{"id": club, "name": f"C{club}"} for club in range(1, 21)]
        self.operator.does("/season", deadlines=[FIRST_DEADLINE], split=1, clubs=clubs)
        for player in range(1, 601):
            position, club = self.position((player - 1) // 20), (player - 1) % 20 + 1
            self.operator.does("/players", id=player, name=f"P{player}", position=position, club=club, price=40 + self.draw() % 25)
        for fixture in range(1, 11):
            members = {"home": 2 * fixture - 1, "away": 2 * fixture, "gameweek": 1, "kickoff": kickoff(1)}
            self.operator.does("/fixtures", id=fixture, **members)
        for entry in range(1, self.entries + 1):
            self.enter(entry)
        self.served.tell(1691790000)
        for fixture in range(1, 11):
            self.sheet(fixture)
        return self

    def enter(self, entry):
        key = f"entrykey{entry:04}"
        self.operator.does("/keys", key=key, name=f"E{entry}")
        players = []
        for slot, letter in enumerate("GDDDDMMMMFFGDMF", 1):
            first, count = self.KINDS[letter]
            players.append(20 * (first + self.draw() % count) + (entry + slot - 1) % 20 + 1)
        caller = Caller(self.served, key)
        caller.does("/squad", players=players, captain=players[1 + self.draw() % 10], vice=players[0])
        if entry == 1:
            caller.does("/leagues", kind="classic", name="All", code="all1", start=1)
        else:
            caller.does("/leagues/1/join", code="all1")

    def sheet(self, fixture):
        lines = []
        for club in (2 * fixture - 1, 2 * fixture):
            for band in self.BANDS:
                lines.append({"player": 20 * band + club, "figures": self.figures(band)})
        self.operator.does(f"/fixtures/{fixture}/sheet", lines=lines, finished=True)

    def figures(self, band):
        draws, figures = [self.draw() for _ in range(8)], [0] * 28
        figures[0] = (0, 30, 60, 90)[draws[0] % 4]
        if figures[0] == 0:
            return figures
        figures[1], figures[2], figures[3] = int(draws[1] % 8 == 0), int(draws[2] % 8 == 0), draws[3] % 3
        figures[4] = draws[4] % 7 if self.position(band) == "G" else 0
        figures[7] = int(draws[5] % 10 == 0)
        figures[18] = draws[6] % 60
        figures[19] = figures[18] - draws[7] % (figures[18] + 1)
        return figures


MANAGERS = (("kea123456", "Kea Kickers", 11), ("tui123456", "Tui Town", 12), ("weka12345", "Weka Wanderers", 13), ("ruru12345", "Ruru Rovers", 14))


def played_season(served, gameweeks):
    """The small season with four managers in two leagues and a cup, and so many gameweeks played."""
    season = Small(served).make()
    entries = [season.enter(*manager) for manager in MANAGERS]
    callers = [Caller(served, key).refresh() for key, _, _ in MANAGERS]
    callers[0].does("/leagues", kind="classic", name="The office", code="kettle", start=1)
    callers[0].does("/leagues", kind="head", name="Lunch table", code="teapot", start=1)
    for caller in callers[1:]:
        caller.does("/leagues/1/join", code="kettle")
    for caller in callers[1:3]:
        caller.does("/leagues/2/join", code="teapot")
    season.operator.does("/leagues/2/draw", order=entries[:3])
    season.operator.does("/cups", start=2, slots=entries, coins=[0, 1, 0])
    chips = {(2, 1): "bench_boost", (3, 0): "triple_captain"}
    for gameweek in range(1, gameweeks + 1):
        for place, caller in enumerate(callers):
            if (gameweek, place) in chips:
                caller.does("/chip", chip=chips[gameweek, place])
        season.play(gameweek)
    return season
