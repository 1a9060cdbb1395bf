"""What is asked in a stream: each command and each view with members drawn at random, mostly such that it is done."""
from asking import OPERATOR, Asking
from bodies import CHIPS, LAST_MOMENT, MOST_IDS
from figures import COMPLETED, DEFENDER, FORWARD, GOALKEEPER, GREATEST, MIDFIELDER, POSITIONS, Line, selling_price
from spoiling import NAMES, spoiled_member, spoiled_target


class OperatorMoves(Asking):
    """The season and the facts of its matches. `level` says that all lines are worth the same."""

    def __init__(self, chance):
        super().__init__(chance)
        self.clubs = []
        self.next_player, self.has_players_in_a_row = 1, False
        self.is_level = False

    # The beginning

    def begin(self, gameweeks=None, clubs=None, players=None):
        """A season with its players and fixtures; there may be none at the end, where all that was tried was wrong."""
        chance = self.chance
        self.begin_season(self.season_members(gameweeks, clubs))
        if not self.host.has_season:
            return
        self.clubs = sorted(self.host.clubs)
        if chance.random() < 0.3:
            self.repeat(0)
        count = players or chance.choice([28, 32, 36, 40, 44])
        shape = {"G": max(3, count // 8), "D": count * 3 // 10 + 1, "M": count * 3 // 10 + 1, "F": max(4, count // 5)}
        order = [position for position in POSITIONS for _ in range(shape[position])]
        chance.shuffle(order)
        prices = (30, 70) if chance.random() < 0.6 else (40, 110)
        for position in order:
            self.add_player(position, chance.randint(*prices))
        fixture = 1
        for gameweek in range(1, self.host.gameweeks + 1):
            for _ in range(chance.choice([0, 1, 1, 2, 2, 3])):
                self.add_fixture(fixture if chance.random() < 0.8 else chance.randint(1, 999999), gameweek)
                fixture += 1

    def season_members(self, gameweeks, clubs):
        chance = self.chance
        gameweeks = gameweeks or chance.choice([1, 2, 3, 4, 4, 5, 5, 6, 6, 6, 8])
        count = clubs or chance.choice([5, 6, 7, 7, 8, 8])
        self.clubs = chance.sample(range(1, 256), count) if chance.random() < 0.3 else list(range(1, count + 1))
        is_late = chance.random() < 0.04
        if is_late:
            start = LAST_MOMENT - 10000 * gameweeks - chance.choice([0, 777, 5400, 10000])
        else:
            start = chance.choice([10000, 10000, 10000, 10000, 0, 100000])
        deadlines = [start + 10000 * place + chance.choice([0, 0, 1, 777]) for place in range(gameweeks)]
        if chance.random() < 0.02:
            deadlines = [start + place for place in range(gameweeks)]
        if is_late:
            self.now = deadlines[0] - 100
        else:
            self.now = min(self.now, max(0, deadlines[0] - 1)) if start else 0
        split = chance.randint(0, gameweeks)
        name = lambda club: chance.choice(NAMES) if chance.random() < 0.4 else f"C{club}"
        members = [("deadlines", deadlines), ("split", split), ("clubs", [{"id": club, "name": name(club)} for club in self.clubs])]
        return members + ([("profile", chance.choice([1, 2]))] if chance.random() < 0.6 else [])

    def begin_season(self, members):
        chance, deadlines = self.chance, members[0][1]
        if chance.random() < 0.3:
            self.get(chance.choice(["/season", "/players/1", "/cups/1"]))
            self.do(0, "/keys", [("key", "manager01"), ("name", "x")])
        for _ in range(30):
            if self.host.has_season:
                break
            draw = chance.random()
            if draw < 0.1 and len(deadlines) > 1:
                wrong, place = list(deadlines), chance.randrange(1, len(deadlines))
                before = wrong[place - 1]
                wrong[place] = chance.choice([before, before - 1 if before else 0, 0])
                self.do(0, "/season", [("deadlines", wrong)] + members[1:])
            elif draw < 0.15:
                self.do(0, "/season", spoiled_member(chance, members))
            else:
                self.do(0, "/season", members)

    def season(self):
        """A second one."""
        chance, host = self.chance, self.host
        deadlines = list(host.deadlines)
        if chance.random() < 0.5:
            deadlines[-1] = max(0, deadlines[-1] - chance.choice([0, 1, 20000]))
        clubs = [{"id": club, "name": name} for club, name in host.clubs.items()]
        split = chance.randint(0, len(deadlines))
        self.do(0, "/season", [("deadlines", deadlines), ("split", split), ("clubs", clubs), ("profile", chance.choice([1, 2]))])

    # Players and fixtures

    def any_fixture(self):
        """A fixture that is there, or hardly ever another number."""
        if self.chance.random() < 0.03 or not self.host.fixtures:
            return self.chance.choice([0, 1, 77, 999999, 1000000, MOST_IDS])
        return self.chance.choice(list(self.host.fixtures))

    def any_player(self):
        if self.chance.random() < 0.02 or not self.host.players:
            return self.chance.choice([1, 999999, self.chance.randint(1, 999999)])
        return self.chance.choice(list(self.host.players))

    def add_player(self, position=None, price=None):
        chance = self.chance
        if self.is_over:
            return
        player = self.next_player
        self.next_player += 1 if self.has_players_in_a_row else chance.choice([1, 1, 1, 1, 7])
        if chance.random() < 0.03:
            player = chance.choice([999999, 1, chance.randint(1, 999999)])
        name = chance.choice(NAMES) if chance.random() < 0.2 else f"P{player}"
        position, club = position or chance.choice("GDMF"), chance.choice(self.clubs)
        price = chance.randint(30, 110) if price is None else price
        draw = chance.random()
        if draw < 0.02:
            price = chance.choice([29, 201, 0, 65535, 65536, 30, 200])
        elif draw < 0.04:
            club = chance.randint(1, 255)
        elif draw < 0.05 and self.host.players:
            player = chance.choice(list(self.host.players))
        self.do(0, "/players", [("id", player), ("name", name), ("position", position), ("club", club), ("price", price)])

    def player(self):
        self.add_player()

    def amend_player(self):
        """Another name of a player, and mostly his own position."""
        chance, player = self.chance, self.any_player()
        position = chance.choice("GDMF")
        if chance.random() < 0.6 and player in self.host.players:
            position = POSITIONS[self.host.players[player].position]
        self.do(0, f"/players/{player}", [("name", chance.choice(NAMES) if chance.random() < 0.5 else f"Q{player}"), ("position", position)])

    def price(self):
        player = self.any_player()
        old = self.host.players[player].price if player in self.host.players else 50
        near = [old + 1, old + 2, old + 3, old - 1, old - 3, old + 10, old]
        self.do(0, "/prices", [("player", player), ("price", self.chance.choice([*near, 30, 200, 29, 201, self.chance.randint(30, 120)]))])

    def club(self):
        player = self.any_player()
        club = self.chance.choice(self.clubs) if self.chance.random() < 0.95 else self.chance.randint(1, 255)
        self.do(0, "/clubs", [("player", player), ("club", club)])

    def gone(self):
        self.do(0, "/gone", [("player", self.any_player()), ("gone", self.chance.random() < 0.5)])

    def deadline_of(self, gameweek):
        """The deadline of a gameweek, and 0 where it has none."""
        return self.host.deadlines[gameweek - 1] if gameweek and gameweek <= self.host.gameweeks else 0

    def add_fixture(self, fixture, gameweek):
        chance, host = self.chance, self.host
        home, away = chance.sample(self.clubs, 2)
        deadline = host.deadlines[0] if gameweek is None else self.deadline_of(gameweek)
        kickoff = deadline + 5400 + chance.choice([0, 0, 1, 3600, 100000])
        draw = chance.random()
        if draw < 0.04:
            kickoff = chance.choice([deadline + 5399, 0, deadline, LAST_MOMENT])
        elif draw < 0.06:
            home = chance.randint(1, 255)
        elif draw < 0.08:
            away = chance.choice([home, chance.randint(1, 255)])
        elif draw < 0.09:
            gameweek = chance.choice([38, host.gameweeks + 1, None, 39, 0])
        self.do(0, "/fixtures", [("id", fixture), ("home", home), ("away", away), ("gameweek", gameweek), ("kickoff", kickoff)])

    def fixture(self):
        chance, host = self.chance, self.host
        fixture = chance.choice([chance.randint(1, 60), chance.randint(1, 999999)] + list(host.fixtures)[:2])
        self.add_fixture(fixture, chance.choice([None] + list(range(1, host.gameweeks + 1))))

    def move(self):
        chance, gameweeks = self.chance, self.host.gameweeks
        fixture, locked = self.any_fixture(), self.locked_now()
        choices = [None, chance.randint(1, gameweeks), chance.randint(1, gameweeks)]
        gameweek = chance.choice(choices + ([chance.randint(1, locked)] * 3 if locked else []))
        deadline = self.deadline_of(gameweek)
        kickoff = deadline + 5400 + chance.choice([0, 1, 5000])
        if chance.random() < 0.06:
            kickoff = chance.choice([deadline + 5399, 0, deadline])
        if chance.random() < 0.03:
            gameweek = chance.choice([gameweeks + 1, 38])
        self.do(0, f"/fixtures/{fixture}/move", [("gameweek", gameweek), ("kickoff", kickoff)])

    def amend_fixture(self):
        """Other clubs of a fixture, or the same."""
        chance, fixture = self.chance, self.any_fixture()
        home, away = chance.choice(self.clubs), chance.choice(self.clubs)
        if chance.random() < 0.05:
            away = chance.randint(1, 255)
        self.do(0, f"/fixtures/{fixture}", [("home", home), ("away", away)])

    def deadline(self):
        chance, host = self.chance, self.host
        gameweek, locked = chance.randint(1, host.gameweeks), self.locked_now()
        if locked < host.gameweeks and chance.random() < 0.85:
            gameweek = chance.randint(locked + 1, host.gameweeks)
        if chance.random() < 0.03:
            gameweek = chance.choice([38, host.gameweeks + 1])
        old = self.deadline_of(gameweek) if gameweek <= host.gameweeks else 5
        before = host.deadlines[gameweek - 2] if 1 < gameweek <= host.gameweeks else 0
        after = host.deadlines[gameweek] if gameweek < host.gameweeks else old + 1000
        near = [old, old - 1, old + 1, old - 100, old + 100, old + 500, self.now, self.now + 1]
        new = chance.choice([*near, before, before + 1, after, after - 1, old - 5000, 0])
        self.do(0, "/deadlines", [("gameweek", gameweek), ("deadline", max(0, new))])

    # The facts of matches

    def usual_figures(self, figures, is_still):
        """Figures as a match has them; those of one who does little are but the first few."""

        def draw(name, *values):
            figures[name] = self.chance.choice(values)

        if is_still:
            draw("goals", 0, 0, 0, 1, 1, 2)
            draw("assists", 0, 0, 1)
            draw("conceded", 0, 0, 1, 2, 3)
            return
        draw("goals", 0, 0, 0, 0, 1, 1, 2, 3)
        draw("assists", 0, 0, 0, 1, 2)
        draw("conceded", 0, 0, 1, 1, 2, 3, 4, 5)
        draw("saves", 0, 0, 1, 2, 3, 5, 6)
        draw("penalty_saves", *[0] * 9, 1)
        draw("penalty_misses", *[0] * 9, 1)
        draw("yellow", 0, 0, 0, 1)
        draw("red", *[0] * 7, 1)
        draw("own_goals", *[0] * 9, 1, 2)
        for name in Line._fields[10:17] + Line._fields[20:]:
            draw(name, 0, 0, 0, 0, 1, 1, 2, 3, 7)
        draw("winning_goal", 0, 0, 0, 1)
        draw("attempted", 0, 29, 30, 30, 40, 50, 60, 100, 31, 37, 400)
        attempted = figures["attempted"]
        tenths = [rounded for tenth in (9, 8, 7) for rounded in (attempted * tenth // 10, -(-attempted * tenth // 10))]
        draw("completed", 0, attempted, *tenths, self.chance.randint(0, attempted))
        figures["completed"] = min(attempted, figures["completed"])

    def great_figures(self, figures):
        """Figures up to the greatest ones."""
        chance = self.chance
        for place, name in enumerate(Line._fields):
            if place != COMPLETED:
                figures[name] = chance.choice([0, GREATEST[place], GREATEST[place], chance.randint(0, GREATEST[place])])
        figures["completed"] = chance.choice([0, figures["attempted"], chance.randint(0, figures["attempted"])])

    def line_figures(self):
        chance = self.chance
        figures, draw = dict.fromkeys(Line._fields, 0), chance.random()
        figures["minutes"] = chance.choice([0, 1, 30, 59, 60, 61, 90, 90, 90, 90, 90, 120])
        if draw < 0.9:
            self.usual_figures(figures, draw < 0.35)
        elif draw < 0.97:
            self.great_figures(figures)
        else:
            place = chance.randrange(28)
            greatest = 0 if place == COMPLETED else GREATEST[place]
            figures[Line._fields[place]] = chance.choice([greatest + 1, 65535, 100, 2])
        return list(figures.values())

    def level_line(self, player):
        """Lines that give each player of a position the same points, with other goals and conceded goals."""
        position = self.host.players[player].position if player in self.host.players else MIDFIELDER
        own_goal = {"assists": 2, "own_goals": 1}
        choices = {
            GOALKEEPER: [{}, {"conceded": 1, "saves": 12}, {"conceded": 3, "saves": 15}],
            DEFENDER: [{}, {"goals": 1, "conceded": 4}, {"goals": 1, "conceded": 5}],
            MIDFIELDER: [{"assists": 1}, {"goals": 1, "conceded": 1, "yellow": 1}, {"goals": 1, "conceded": 3, "yellow": 1}],
            FORWARD: [{"goals": 1}, {"goals": 1, "conceded": 2}, own_goal, {**own_goal, "conceded": 4}],
        }
        some = {"minutes": 90, **self.chance.choice(choices[position])}
        return [0] * 28 if self.chance.random() < 0.05 else [some.get(name, 0) for name in Line._fields]

    def some_line(self, player):
        chance = self.chance
        if self.is_level and chance.random() < 0.98:
            return self.level_line(player)
        if chance.random() < 0.35:
            there = [line for lines in self.host.lines.values() for line in lines.values()]
            if there:
                return list(chance.choice(there))
        return self.line_figures()

    def locked_fixture(self, share):
        """Mostly a fixture that can have facts."""
        chance, host, locked = self.chance, self.host, self.locked_now()
        some = [number for number, it in host.fixtures.items() if it.gameweek is not None and it.gameweek <= locked]
        return chance.choice(some) if some and chance.random() < share else self.any_fixture()

    def sheet(self):
        chance = self.chance
        fixture, share = self.locked_fixture(0.93), chance.choice([0, 0.2, 0.5, 0.8, 0.9, 1])
        players = [it for it in self.host.players if chance.random() < share]
        chance.shuffle(players)
        if chance.random() < 0.95:
            players = players[:64]
        if chance.random() < 0.03 and players:
            players.append(chance.choice(players))
        if chance.random() < 0.02:
            players.append(self.any_player())
        lines = [{"player": player, "figures": self.some_line(player)} for player in players]
        is_finished = chance.random() < (0.3 if self.is_level else 0.75)
        self.do(0, f"/fixtures/{fixture}/sheet", [("lines", lines), ("finished", is_finished)])

    def line(self):
        chance = self.chance
        fixture, player = self.locked_fixture(0.93), self.any_player()
        old = self.host.lines.get(fixture, {}).get(player)
        figures = list(old) if old and chance.random() < 0.3 else self.some_line(player)
        if old and chance.random() < 0.5:
            figures, place = list(old), chance.randrange(28)
            figures[place] = chance.choice([0, 1, figures[place], figures[place] + 1])
        self.do(0, f"/fixtures/{fixture}/line", [("player", player), ("figures", figures)])

    def drop(self):
        there = [(fixture, player) for fixture, lines in self.host.lines.items() for player in lines]
        is_there = there and self.chance.random() < 0.85
        fixture, player = self.chance.choice(there) if is_there else (self.any_fixture(), self.any_player())
        self.do(0, f"/fixtures/{fixture}/drop", [("player", player)])

    def finished(self):
        fixture = self.locked_fixture(0.9)
        self.do(0, f"/fixtures/{fixture}/finished", [("finished", self.chance.random() < 0.7)])

    def finish_gameweek(self):
        locked = self.locked_now()
        for fixture in self.host.standing(self.chance.randint(1, locked)) if locked else ():
            if fixture not in self.host.finished:
                self.do(0, f"/fixtures/{fixture}/finished", [("finished", True)])


class Moves(OperatorMoves):
    """Entries, leagues, cups and views besides."""

    def key(self):
        chance, entries = self.chance, self.host.entries
        number = len(entries) + 1
        key = f"manager{number:02}"
        if chance.random() < 0.1:
            key = chance.choice([OPERATOR, "a" * 8, "0" * 64, "manager01"] + [entry.key for entry in entries])
        self.do(0, "/keys", [("key", key), ("name", chance.choice(NAMES) if chance.random() < 0.5 else f"E{number}")])

    def rekey(self):
        """Another key of an entry: a new one, its own, another's, or one that somebody had."""
        chance, entries = self.chance, self.host.entries
        entry = self.any_of(len(entries))
        key = f"another{chance.randint(10, 40)}"
        if chance.random() < 0.4:
            key = chance.choice([OPERATOR, "a" * 8] + [f"manager{number:02}" for number in range(1, 9)] + [entry.key for entry in entries])
        self.do(0, f"/keys/{entry}", [("key", key), ("name", chance.choice(NAMES) if chance.random() < 0.5 else f"R{entry}")])

    def is_registered(self, entry):
        return self.host.first_gameweek(entry) is not None

    def registered(self):
        return [entry for entry in range(1, len(self.host.entries) + 1) if self.is_registered(entry)]

    def any_entry(self):
        """An entry, or 0 where there is none."""
        return self.chance.randint(1, len(self.host.entries)) if self.host.entries else 0

    # Squads and lineups

    def positions(self, players):
        return [self.host.players[player].position for player in players]

    def chosen(self, players):
        """Players in this order, as long as they are needed and their clubs have room; by position."""
        chosen, clubs = [[], [], [], []], {}
        for player in players:
            position, club = self.host.players[player].position, self.host.players[player].club
            most = (2, 5, 5, 3)[position]
            if len(chosen[position]) < most and clubs.get(club, 0) < (3 if self.chance.random() < 0.98 else 4):
                chosen[position].append(player)
                clubs[club] = clubs.get(club, 0) + 1
        return chosen

    def by_slot(self, keepers, defenders, midfielders, forwards):
        chance = self.chance
        back = chance.choice([3, 3, 4, 4, 5])
        front = chance.choice([it for it in (1, 2, 3) if 2 <= 10 - back - it <= 5])
        middle = 10 - back - front
        bench = defenders[back:] + midfielders[middle:] + forwards[front:]
        chance.shuffle(bench)
        outfield = defenders[:back] + midfielders[:middle] + forwards[:front]
        chance.shuffle(outfield)
        return [keepers[0], *outfield, keepers[1], *bench]

    def drawn_squad(self):
        """Fifteen by slot, mostly a squad that can be had; or None where none was found."""
        chance, players = self.chance, self.host.players
        gameweek = self.host.next_gameweek() or self.host.gameweeks
        squads = [self.host.team(entry, gameweek).players for entry in self.registered()]
        if squads and chance.random() < 0.4:
            squad = list(chance.choice(squads))
            if chance.random() < 0.5:
                self.shuffle_lineup(squad)
            return squad
        for attempt in range(60):
            order = [it for it in players if not players[it].has_gone or chance.random() < 0.02]
            chance.shuffle(order)
            if attempt > 10:
                order.sort(key=lambda it: players[it].price + chance.randint(0, 40))
            if attempt > 4 and attempt % 2:  # position by position, in an order of these
                ranks = [chance.random() for _ in range(4)]
                order.sort(key=lambda it: ranks[players[it].position])
            chosen = self.chosen(order)
            if list(map(len, chosen)) != [2, 5, 5, 3]:
                continue
            if sum(players[it].price for some in chosen for it in some) > 1000 and chance.random() < 0.95:
                continue
            return self.by_slot(*chosen)
        return None

    def shuffle_lineup(self, squad):
        """Puts the fifteen into another order, mostly that of a lineup."""
        chance = self.chance
        if chance.random() < 0.3:
            squad[0], squad[11] = squad[11], squad[0]
        outfield = [player for player in squad if self.host.players[player].position != GOALKEEPER]
        for _ in range(30):
            chance.shuffle(outfield)
            positions = self.positions(outfield[:10])
            if positions.count(DEFENDER) >= 3 and positions.count(FORWARD) >= 1 or chance.random() < 0.06:
                break
        squad[1:11], squad[12:15] = outfield[:10], outfield[10:]

    def spoil_fifteen(self, squad, twice, other, changed):
        """Perhaps one stands twice, or another is named, or two change their slots: up to these shares."""
        chance, draw = self.chance, self.chance.random()
        if draw < twice:
            squad[chance.randrange(15)] = chance.choice(squad)
        elif draw < other:
            squad[chance.randrange(15)] = self.any_player()
        elif draw < changed:
            one, two = chance.sample(range(15), 2)
            squad[one], squad[two] = squad[two], squad[one]

    def leaders(self, squad):
        chance = self.chance
        captain, vice = chance.sample(squad[:11], 2)
        draw = chance.random()
        if draw < 0.03:
            vice = captain
        elif draw < 0.06:
            vice = chance.choice(squad[11:])
        elif draw < 0.08:
            captain = chance.choice(squad[11:])
        elif draw < 0.1:
            captain = self.any_player()
        return [("captain", captain), ("vice", vice)]

    def squad(self, entry):
        squad = self.drawn_squad()
        if squad:
            self.spoil_fifteen(squad, 0.03, 0.06, 0.09)
            self.do(entry, "/squad", [("players", squad)] + self.leaders(squad))

    def squad_if_none(self, entry, attempts):
        for _ in range(attempts):
            if not self.is_registered(entry):
                self.squad(entry)

    def lineup(self, entry):
        if not self.is_registered(entry):
            if self.chance.random() < 0.7:
                return self.squad(entry)
            players = [self.any_player() for _ in range(15)]
            return self.do(entry, "/lineup", [("players", players), ("captain", 1), ("vice", 2)])
        squad = list(self.host.team(entry, min(self.locked_now() + 1, self.host.gameweeks)).players)
        if self.chance.random() < 0.9:
            self.shuffle_lineup(squad)
        self.spoil_fifteen(squad, 0.03, 0.07, 0.11)
        self.do(entry, "/lineup", [("players", squad)] + self.leaders(squad))

    # Transfers and chips

    def incomer(self, out, taken, after, money, is_careful):
        """Who may come for one who goes, where care is taken one who can be had; with the team and the money then; or None."""
        chance, players = self.chance, self.host.players
        position = players[out].position
        pool = [it for it in players if players[it].position == position and it not in taken]
        pool = [it for it in pool if not players[it].has_gone or chance.random() < 0.05]
        chance.shuffle(pool)
        for into in pool:
            now = [it for it in after if it != out] + [into]
            left = money - players[into].price
            is_crowded = sum(players[it].club == players[into].club for it in now) > 3
            if not (is_careful and (is_crowded or left < 0)):
                return into, now, left
        return None

    def drawn_swaps(self, team, size, is_careful):
        swaps, taken, after, money = [], set(team.players), list(team.players), team.bank
        outs = list(team.players)
        self.chance.shuffle(outs)
        for out in outs:
            if len(swaps) >= size:
                break
            sold = selling_price(team.bought[out], self.host.players[out].price)
            found = self.incomer(out, taken, after, money + sold, is_careful)
            if found:
                into, after, money = found
                swaps.append({"out": out, "in": into})
                taken.add(into)
        return swaps or [{"out": self.chance.choice(team.players), "in": self.any_player()}]

    def spoil_swaps(self, swaps, held):
        chance, draw = self.chance, self.chance.random()
        place = chance.randrange(len(swaps))
        if draw < 0.02:
            swaps[place]["out"] = self.any_player()
        elif draw < 0.04:
            swaps[place]["in"] = self.any_player()
        elif draw < 0.06:
            swaps[place]["in"] = chance.choice(held)
        elif draw < 0.08 and len(swaps) > 1:
            swaps[place]["out"] = swaps[place - 1]["out"]
        elif draw < 0.1 and len(swaps) > 1:
            swaps[place]["in"] = swaps[place - 1]["in"]
        elif draw < 0.11 and len(swaps) < 15:
            swaps.append({"out": swaps[0]["in"], "in": swaps[0]["out"]})
        elif draw < 0.12 and len(swaps) < 15:
            swaps.append({"out": swaps[0]["in"], "in": self.any_player()})
        if chance.random() < 0.5:
            chance.shuffle(swaps)

    def transfers(self, entry, size=None):
        chance = self.chance
        if not self.is_registered(entry):
            if chance.random() < 0.8:
                return self.squad(entry)
            return self.do(entry, "/transfers", [("swaps", [{"out": self.any_player(), "in": self.any_player()}])])
        team = self.host.team(entry, min(self.locked_now() + 1, self.host.gameweeks))
        size = size or chance.choice([1, 1, 1, 2, 2, 3, 5, 8, 15])
        swaps = self.drawn_swaps(team, size, is_careful=chance.random() < 0.8)
        self.spoil_swaps(swaps, team.players)
        self.do(entry, "/transfers", [("swaps", swaps)])

    def chip(self, entry, *chips):
        self.do(entry, "/chip", [("chip", self.chance.choice(chips or CHIPS[1:]))])

    def cancel(self, entry):
        self.do(entry, "/chip/cancel", [])

    # Leagues and cups

    def make_league(self, entry, kind, start, name="L", code="abcd"):
        self.do(entry, "/leagues", [("kind", kind), ("name", name), ("code", code), ("start", start)])

    def league(self, entry):
        chance, gameweeks, locked = self.chance, self.host.gameweeks, self.locked_now()
        if chance.random() < 0.2 or locked >= gameweeks:
            start = chance.randint(1, gameweeks)
        else:
            start = chance.randint(locked + 1, min(gameweeks, locked + 2))
        if chance.random() < 0.03:
            start = chance.choice([gameweeks + 1, 38])
        kind = chance.choice(["classic", "head", "head"])
        name = chance.choice(NAMES) if chance.random() < 0.5 else "League"
        self.make_league(entry, kind, start, name, chance.choice(["abcd", "code1", "a" * 16]))

    def join(self, entry):
        chance, leagues = self.chance, self.host.leagues
        league = chance.randint(1, len(leagues)) if leagues and chance.random() < 0.97 else chance.choice([0, 99, MOST_IDS])
        is_known = leagues and 1 <= league <= len(leagues) and chance.random() < 0.93
        code = leagues[league - 1].code if is_known else chance.choice(["abcd", "wrong", "code1"])
        self.do(entry, f"/leagues/{league}/join", [("code", code)])

    def draw(self):
        chance, leagues, entries = self.chance, self.host.leagues, len(self.host.entries)
        is_good = lambda it: it.kind == "head" and not it.order and it.start > self.locked_now()
        good = [number for number, it in enumerate(leagues, 1) if is_good(it)]
        if good and chance.random() < 0.8:
            league = chance.choice(good)
        else:
            league = chance.randint(1, len(leagues)) if leagues else 1
        order = list(leagues[league - 1].members) if leagues else []
        chance.shuffle(order)
        draw = chance.random()
        if draw < 0.04:
            order = order[:-1]
        elif draw < 0.08:
            order.append(chance.choice([1, 2, entries, entries + 1, MOST_IDS] + order) or 1)
        elif draw < 0.1 and order:
            order[0] = order[-1]
        elif draw < 0.12:
            league = chance.choice([0, len(leagues) + 1, MOST_IDS])
        self.do(0, f"/leagues/{league}/draw", [("order", order[:70])])

    def cup(self):
        chance, gameweeks, locked = self.chance, self.host.gameweeks, self.locked_now()
        start = chance.randint(1, gameweeks) if chance.random() < 0.15 or locked >= gameweeks else locked + 1
        entries = [it for it in range(1, len(self.host.entries) + 1) if self.is_registered(it) or chance.random() < 0.03]
        chance.shuffle(entries)
        room = max(1, gameweeks - start + 1)
        rounds = chance.randint(1, min(4, room)) if chance.random() < 0.9 else chance.randint(1, 5)
        ties = 2 ** (rounds - 1)
        first = [2 * tie + chance.randrange(2) for tie in range(ties)]
        rest = [place ^ 1 for place in first]
        chance.shuffle(rest)
        slots = self.seated(entries, first + rest)
        coins = [chance.randrange(2) for _ in slots[1:]]
        self.do(0, "/cups", self.spoiled_cup(start, slots, coins))

    def seated(self, entries, places):
        """The slots of a cup, its first entries at the first of these places, so that at most one bye comes to a tie."""
        slots = [0] * len(places)
        for place, entry in zip(places, entries):
            slots[place] = entry
        return slots

    def spoiled_cup(self, start, slots, coins):
        chance, draw = self.chance, self.chance.random()
        if draw < 0.02:
            coins = coins[:-1]
        elif draw < 0.04:
            slots = slots[:-1]
        elif draw < 0.06:
            slots[0] = slots[-1]
        elif draw < 0.07:
            slots[0] = chance.choice([len(self.host.entries) + 1, MOST_IDS])
        elif draw < 0.08:
            start = chance.choice([self.host.gameweeks + 1, 38])
        elif draw < 0.09:
            slots, coins = chance.choice([([], []), ([1], []), ([1, 2, 3], [0, 0])])
        return [("start", start), ("slots", slots), ("coins", coins)]

    # Views

    def any_of(self, count):
        """A number from 1 to this one, or hardly ever another."""
        is_there = count and self.chance.random() < 0.96
        return self.chance.randint(1, count) if is_there else self.chance.choice([0, count + 1, MOST_IDS])

    def any_gameweek(self):
        if self.chance.random() < 0.9:
            return self.chance.randint(1, max(1, self.locked_now()))
        return self.chance.choice([0, self.host.locked + 1, 38, 39, MOST_IDS])

    def target_of(self, kind):
        host = self.host
        return {
            "season": lambda: "/season",
            "me": lambda: "/me",
            "player": lambda: f"/players/{self.any_player()}",
            "player_gameweek": lambda: f"/players/{self.any_player()}/gameweeks/{self.any_gameweek()}",
            "fixture": lambda: f"/fixtures/{self.any_fixture()}",
            "entry": lambda: f"/entries/{self.any_of(len(host.entries))}/gameweeks/{self.any_gameweek()}",
            "league": lambda: f"/leagues/{self.any_of(len(host.leagues))}",
            "cup": lambda: f"/cups/{self.any_of(len(host.cups))}",
            "window": self.any_window,
        }[kind]()

    def any_window(self):
        """A view below /api/, with or without a slash at its end."""
        host = self.host
        counts = {"entry": len(host.entries), "cups": len(host.cups)}
        ids = {
            "fixtures": self.any_fixture,
            "event": self.any_gameweek,
            "dream-team": self.any_gameweek,
            "element-summary": self.any_player,
        }
        parts = self.chance.choice(self.windows).split("/")
        for place, part in enumerate(parts):
            if part == "ID":
                of = parts[place - 1]
                parts[place] = str(ids[of]() if of in ids else self.any_of(counts.get(of, len(host.leagues))))
        return "/".join(parts) + self.chance.choice(["", "/"])

    def all_windows(self, share):
        """Each view below /api/ a few times, as whoever it is."""
        for _ in range(int(4 * len(self.windows) * share)):
            self.get(self.any_window(), self.chance.randint(0, len(self.host.entries)))

    def view(self, kind=None):
        """A view, of this kind where one is named, as whoever it is, and perhaps made wrong."""
        chance, entries = self.chance, len(self.host.entries)
        caller = chance.randint(0, entries)
        kind = kind or chance.choice("season me me player player_gameweek fixture entry entry league league cup cup".split())
        if self.windows and chance.random() < 0.5:
            kind = "window"
        method, target, key = "GET", self.target_of(kind), self.key_of(caller)
        draw = chance.random()
        if kind == "me" and caller == 0 and draw < 0.8 and entries:
            key = self.key_of(chance.randint(1, entries))
        if draw > 1 - self.wrong / 4:
            method = chance.choice(["PUT", "get", "DELETE", "HEAD", "TRACE", "CONNECT"])
        elif draw > 1 - self.wrong / 2:
            target = spoiled_target(chance, target)
        elif draw > 1 - self.wrong * 0.7:
            key = chance.choice([None, "nobody00", "", "OPERATOR1"])
        body = None
        if chance.random() < self.fancy / 3:
            body = chance.choice([b"", b"x", b"{}", b"GET / HTTP/1.1\r\n\r\n", b"\x00\xff"])
        data = self.message(method, target, key, body)
        if chance.random() < self.fancy / 10:
            data = data.replace(b"\r\n\r\n", b"\r\nFpl-Key: operator1\r\n\r\n", 1)
        self.send(data)

    def all_views(self, share=1.0):
        """Every view of all that is there, or a share of them."""
        chance, host = self.chance, self.host
        if not host.has_season:
            return
        gameweeks, entries = range(1, self.locked_now() + 1), range(1, min(len(host.entries), 12) + 1)
        targets = [f"/leagues/{number}" for number in range(1, len(host.leagues) + 1)][:40]
        targets += [f"/cups/{number}" for number in range(1, len(host.cups) + 1)][:40]
        targets += [f"/entries/{entry}/gameweeks/{gameweek}" for entry in entries for gameweek in gameweeks]
        targets += [f"/fixtures/{fixture}" for fixture in list(host.fixtures)[:30]]
        targets += [f"/players/{player}/gameweeks/{gameweek}" for player in list(host.players)[:10] for gameweek in gameweeks]
        for target in targets:
            if chance.random() < share:
                self.get(target, chance.randint(0, len(host.entries)))
        for entry in entries:
            if chance.random() < share:
                self.get("/me", entry)
        if chance.random() < share:
            self.get("/season")
        if self.windows:
            self.all_windows(share)
