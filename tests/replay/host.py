"""A second host, written from the rules alone: docs/RULES.md and docs/HTTP.md.

It judges each request by the plain rules over the books, and knows nothing of how the program does it. Want of memory and
faults of a store are no part of it. The headings are those of docs/RULES.md where they are about rules.
"""
from bodies import CHIPS, COMMANDS, OF_THE_CALLER, WITHOUT_SEASON, Malformed, may_ask, number, read_object, route_of
from books import BUDGET, NONE, UNLIMITED, WILDCARD, Cancel, Cup, Entry, FirstSquad, Fixture, League, Lineup, Play, Player, Swap
from figures import DEFENDER, FORWARD, GOALKEEPER, POSITIONS, Line, bps_of, selling_price, wrong_field
from refusing import Refused, Unknown, need, refuse_repeats
from windows import Windows

NUMBER = number("number", 1, 2**63 - 1)
BEFORE_KICKOFF = 5400


class Host(Windows):
    """The books, the operator's key, and the last command of each caller, who is 0 for the operator, else an entry.

    The views are here and in `windows`: a view `NAME` is the method of this name, which is given the ids of the target.
    A command is done by the method `do_` and its name in `bodies`, which is given the entry where it is a manager's, the ids
    of the target and the members. It gives what it made, if anything: its kind and its number.
    """

    def __init__(self, operator):
        super().__init__()
        self.operator = operator
        self.last = {}  # of each caller the number, the command and the answer
        self.moment = None

    # Asking: docs/HTTP.md has the order in which a request is judged

    def answer(self, method, target, key, body, clock):
        """The status of an answer, and its body."""
        route = route_of(target)
        if route is None:
            return 404, {"error": "unknown"}
        methods, ids = route
        if method not in methods:
            return 405, {"error": "method"}
        caller = self.caller_of(key)
        if caller is None:
            return 401, {"error": "key"}
        name = methods[method]
        if not may_ask(name, caller):
            return 403, {"error": "caller"}
        try:
            if name in COMMANDS:
                return self.command(caller, name, ids, read_object(body), clock)
            return 200, self.view(caller, name, ids, clock)
        except Malformed as wrong:
            return 400, {"error": "malformed", "field": str(wrong)}
        except Unknown:
            return 404, {"error": "unknown"}
        except Refused as refusal:
            return 409, {**refusal.named, "error": "rule", "rule": refusal.rule}

    def caller_of(self, key):
        if key == self.operator:
            return 0
        return next((number for number, entry in enumerate(self.entries, 1) if entry.key == key), None)

    def last_number(self, caller):
        return self.last[caller][0] if caller in self.last else 0

    def command(self, caller, name, ids, body, clock):
        number, members = NUMBER(body), COMMANDS[name].members(body)
        self.moment = clock()
        self.lock(self.moment)
        last, command = self.last_number(caller), (name, ids, members)
        if number == last and command == self.last[caller][1]:
            return self.last[caller][2]
        if number != last + 1:
            raise Refused(1 if number > last else 2 if number == last else 3, last=last)
        if self.has_season and name == "season":
            raise Refused(5)
        if not self.has_season and name != "season":
            raise Refused(4)
        made = getattr(self, f"do_{name}")(*([caller] if caller else []), *ids, *members)
        answer = (201, {"done": number, made[0]: made[1]}) if made else (200, {"done": number})
        self.last[caller] = (number, command, answer)
        self.memory.clear()
        return answer

    def view(self, caller, name, ids, clock):
        self.lock(clock())
        if not self.has_season and name not in WITHOUT_SEASON:
            raise Refused(4)
        return getattr(self, name)(*([caller] if name in OF_THE_CALLER else []), *ids)

    # What has to be there

    def need_player(self, player):
        need(player in self.players)

    def need_fixture(self, fixture):
        need(fixture in self.fixtures)

    def need_club(self, club):
        need(club in self.clubs)

    def need_gameweek(self, gameweek):
        need(gameweek is None or gameweek <= self.gameweeks)

    def need_entry(self, entry):
        need(1 <= entry <= len(self.entries))

    def league(self, league):
        need(1 <= league <= len(self.leagues))
        return self.leagues[league - 1]

    # The operator's commands: The calendar; Players and prices

    def do_season(self, deadlines, split, clubs, profile):
        for gameweek in range(2, len(deadlines) + 1):
            if deadlines[gameweek - 1] <= deadlines[gameweek - 2]:
                raise Refused(7, gameweek=gameweek)
        self.has_season, self.deadlines, self.split = True, list(deadlines), split
        self.clubs, self.profile = dict(clubs), profile

    def do_deadlines(self, gameweek, deadline):
        self.need_gameweek(gameweek)
        if gameweek <= self.locked or deadline <= self.moment:
            raise Refused(8, gameweek=gameweek)
        is_first, is_last = gameweek == 1, gameweek == self.gameweeks
        if not is_first and deadline <= self.deadlines[gameweek - 2] or not is_last and deadline >= self.deadlines[gameweek]:
            raise Refused(7, gameweek=gameweek)
        for fixture in self.standing(gameweek):
            if self.fixtures[fixture].kickoff < deadline + BEFORE_KICKOFF:
                raise Refused(9, fixture=fixture)
        self.deadlines[gameweek - 1] = deadline

    def do_players(self, player, name, position, club, price):
        self.need_club(club)
        if player in self.players:
            raise Refused(12, player=player)
        if len(self.players) >= 1200:
            raise Refused(46)
        self.refuse_price(price)
        self.players[player] = Player(name, position, club, price)

    def refuse_price(self, price):
        if not 30 <= price <= 200:
            raise Refused(13)

    def has_been_used(self, player):
        """Whether an entry has had a player, a transfer names him, or he has a line."""
        events = [event for entry in self.entries for event in entry.events]
        return (
            any(player in event.players for event in events if isinstance(event, FirstSquad))
            or any(player in (event.out, event.into) for event in events if isinstance(event, Swap))
            or any(player in lines for lines in self.lines.values())
        )

    def do_amend_player(self, player, name, position):
        self.need_player(player)
        if self.players[player].position != position and self.has_been_used(player):
            raise Refused(65, player=player)
        self.players[player].name, self.players[player].position = name, position

    def do_prices(self, player, price):
        self.need_player(player)
        self.refuse_price(price)
        self.players[player].price = price

    def do_clubs(self, player, club):
        self.need_player(player)
        self.need_club(club)
        self.players[player].club = club

    def do_gone(self, player, has_gone):
        self.need_player(player)
        self.players[player].has_gone = has_gone

    def refuse_place(self, fixture, gameweek, kickoff):
        """Refuses that a fixture stands in a gameweek, or in none."""
        if gameweek is None:
            return
        if len([it for it in self.standing(gameweek) if it != fixture]) >= 20:
            raise Refused(45, gameweek=gameweek)
        if kickoff < self.deadlines[gameweek - 1] + BEFORE_KICKOFF:
            raise Refused(9, fixture=fixture)

    def do_fixtures(self, fixture, home, away, gameweek, kickoff):
        self.need_club(home)
        self.need_club(away)
        self.need_gameweek(gameweek)
        if fixture in self.fixtures:
            raise Refused(47, fixture=fixture)
        if len(self.fixtures) >= 380:
            raise Refused(48)
        self.refuse_place(fixture, gameweek, kickoff)
        self.fixtures[fixture] = Fixture(home, away, gameweek, kickoff)

    def do_move(self, fixture, gameweek, kickoff):
        self.need_fixture(fixture)
        self.need_gameweek(gameweek)
        if self.has_facts(fixture) and (gameweek is None or gameweek > self.locked):
            raise Refused(10, fixture=fixture)
        self.refuse_place(fixture, gameweek, kickoff)
        self.fixtures[fixture].gameweek, self.fixtures[fixture].kickoff = gameweek, kickoff

    def do_amend_fixture(self, fixture, home, away):
        self.need_fixture(fixture)
        self.need_club(home)
        self.need_club(away)
        if self.has_facts(fixture):
            raise Refused(66, fixture=fixture)
        self.fixtures[fixture].home, self.fixtures[fixture].away = home, away

    # The facts of a match

    def refuse_open(self, fixture):
        gameweek = self.fixtures[fixture].gameweek
        if gameweek is None or gameweek > self.locked:
            raise Refused(11, fixture=fixture)

    def refuse_figures(self, line):
        field = wrong_field(line)
        if field:
            raise Refused(41, field=field)

    def mark(self, fixture, is_finished):
        (self.finished.add if is_finished else self.finished.discard)(fixture)

    def do_sheet(self, fixture, lines, is_finished):
        self.need_fixture(fixture)
        for player, _ in lines:
            self.need_player(player)
        self.refuse_open(fixture)
        if len(lines) > 64:
            raise Refused(43)
        refuse_repeats(42, [player for player, _ in lines])
        sheet = {player: Line(*figures) for player, figures in lines}
        for line in sheet.values():
            self.refuse_figures(line)
        self.lines[fixture] = sheet
        self.mark(fixture, is_finished)

    def do_line(self, fixture, player, figures):
        self.need_fixture(fixture)
        self.need_player(player)
        self.refuse_open(fixture)
        lines, line = self.lines.get(fixture, {}), Line(*figures)
        if player not in lines and len(lines) >= 64:
            raise Refused(43)
        self.refuse_figures(line)
        self.lines[fixture] = {**lines, player: line}

    def do_drop(self, fixture, player):
        self.need_fixture(fixture)
        need(player in self.lines.get(fixture, {}))
        del self.lines[fixture][player]

    def do_finished(self, fixture, is_finished):
        self.need_fixture(fixture)
        self.refuse_open(fixture)
        self.mark(fixture, is_finished)

    # Entries

    def do_keys(self, key, name):
        if len(self.entries) >= 2048:
            raise Refused(33)
        if self.caller_of(key) is not None:
            raise Refused(44)
        self.entries.append(Entry(key, name))
        return "entry", len(self.entries)

    def do_rekey(self, entry, key, name):
        self.need_entry(entry)
        if self.caller_of(key) not in (None, entry):
            raise Refused(44)
        self.entries[entry - 1].key, self.entries[entry - 1].name = key, name

    def open_gameweek(self):
        """The gameweek in which managers act."""
        gameweek = self.next_gameweek()
        if gameweek is None:
            raise Refused(6)
        return gameweek

    def refuse_unregistered(self, entry):
        if self.first_gameweek(entry) is None:
            raise Refused(32)

    def refuse_gone(self, players):
        for player in players:
            if self.players[player].has_gone:
                raise Refused(14, player=player)

    def add(self, entry, *events):
        self.entries[entry - 1].events.extend(events)

    # Squads; Lineups

    def leaders(self, players, captain, vice):
        """The slots of captain and vice-captain of a lineup that is not refused."""
        positions = [self.position(player) for player in players]
        if positions[0] != GOALKEEPER or positions[11] != GOALKEEPER:
            raise Refused(19)
        if positions[1:11].count(DEFENDER) < 3 or positions[1:11].count(FORWARD) < 1:
            raise Refused(20)
        if captain == vice or captain not in players[:11] or vice not in players[:11]:
            raise Refused(21)
        return players.index(captain) + 1, players.index(vice) + 1

    def refuse_squad(self, players):
        refuse_repeats(16, players)
        positions = [self.position(player) for player in players]
        if [positions.count(position) for position in range(4)] != [2, 5, 5, 3]:
            raise Refused(15)
        clubs = [self.players[player].club for player in players]
        for club in sorted(set(clubs)):
            if clubs.count(club) > 3:
                raise Refused(17, club=club)

    def do_squad(self, entry, players, captain, vice):
        for player in (*players, captain, vice):
            self.need_player(player)
        gameweek = self.open_gameweek()
        if self.first_gameweek(entry) is not None:
            raise Refused(31)
        self.refuse_gone(players)
        self.refuse_squad(players)
        prices = tuple(self.players[player].price for player in players)
        if sum(prices) > BUDGET:
            raise Refused(18, short_by=sum(prices) - BUDGET)
        self.add(entry, FirstSquad(gameweek, players, prices, *self.leaders(players, captain, vice)))

    def do_lineup(self, entry, players, captain, vice):
        for player in (*players, captain, vice):
            self.need_player(player)
        gameweek = self.open_gameweek()
        self.refuse_unregistered(entry)
        held = self.team(entry, gameweek).players
        for player in players:
            if player not in held:
                raise Refused(22, player=player)
        refuse_repeats(16, players)
        self.add(entry, Lineup(gameweek, players, *self.leaders(players, captain, vice)))

    # Transfers

    def refuse_swaps(self, swaps, held):
        """Refuses a batch by who goes and who comes, of those who are held."""
        outs, incomers = zip(*swaps)
        for place, out in enumerate(outs):
            if out not in held or out in outs[:place]:
                raise Refused(22, player=out)
        for place, into in enumerate(incomers):
            if into in held or into in incomers[:place]:
                raise Refused(23, player=into)
        self.refuse_gone(incomers)
        for out, into in swaps:
            if self.position(out) != self.position(into):
                raise Refused(24, player=into)
        clubs = [self.players[it].club for it in (*(it for it in held if it not in outs), *incomers)]
        for into in incomers:
            club = self.players[into].club
            if clubs.count(club) > 3:
                raise Refused(17, club=club)

    def do_transfers(self, entry, swaps):
        for swap in swaps:
            for player in swap:
                self.need_player(player)
        gameweek = self.open_gameweek()
        self.refuse_unregistered(entry)
        team = self.team(entry, gameweek)
        is_unlimited = gameweek == self.first_gameweek(entry) or team.chip in UNLIMITED
        if self.transfers(entry, gameweek) + len(swaps) > (1000 if is_unlimited else 20):
            raise Refused(25)
        self.refuse_swaps(swaps, team.players)
        price = lambda player: self.players[player].price
        made = [Swap(gameweek, out, into, selling_price(team.bought[out], price(out)), price(into)) for out, into in swaps]
        left = team.bank + sum(swap.sold - swap.paid for swap in made)
        if left < 0:
            raise Refused(18, short_by=-left)
        self.add(entry, *made)

    # Chips

    def do_chip(self, entry, chip):
        gameweek = self.open_gameweek()
        self.refuse_unregistered(entry)
        if chip in UNLIMITED and gameweek == self.first_gameweek(entry):
            raise Refused(28)
        if self.chip_at(entry, gameweek) != NONE:
            raise Refused(27)
        for earlier in range(1, gameweek):
            is_same_half = (earlier <= self.split) == (gameweek <= self.split)
            if self.chip_at(entry, earlier) == chip and (chip != WILDCARD or is_same_half):
                raise Refused(26, gameweek=earlier)
        self.add(entry, Play(gameweek, chip))

    def do_cancel(self, entry):
        gameweek = self.open_gameweek()
        self.refuse_unregistered(entry)
        chip = self.chip_at(entry, gameweek)
        if chip == NONE:
            raise Refused(30)
        if chip in UNLIMITED:
            raise Refused(29)
        self.add(entry, Cancel(gameweek))

    # Leagues; Cups

    def leagues_of(self, entry):
        return sum(entry in league.members for league in self.leagues)

    def refuse_start(self, start):
        if start <= self.locked:
            raise Refused(39, gameweek=start)

    def do_leagues(self, entry, kind, name, code, start):
        self.need_gameweek(start)
        self.refuse_unregistered(entry)
        self.refuse_start(start)
        if len(self.leagues) >= 512 or self.leagues_of(entry) >= 20:
            raise Refused(37)
        self.leagues.append(League(kind, name, code, start, entry, {entry}))
        return "league", len(self.leagues)

    def do_join(self, entry, league, code):
        league = self.league(league)
        self.refuse_unregistered(entry)
        if league.order:
            raise Refused(34)
        if league.code != code:
            raise Refused(35)
        if entry in league.members:
            raise Refused(36)
        if self.leagues_of(entry) >= 20:
            raise Refused(37)
        if len(league.members) >= (64 if league.kind == "head" else 2048):
            raise Refused(38)
        league.members.add(entry)

    def do_draw(self, league, order):
        league = self.league(league)
        for entry in order:
            self.need_entry(entry)
        if league.order:
            raise Refused(34)
        self.refuse_start(league.start)
        if league.kind == "classic" or len(league.members) < 2 or sorted(order) != sorted(league.members):
            raise Refused(40)
        league.order = list(order)

    def do_cups(self, start, slots, coins):
        self.need_gameweek(start)
        entrants = [entry for entry in slots if entry != 0]
        for entry in entrants:
            self.need_entry(entry)
        if len(self.cups) >= 32:
            raise Refused(49)
        self.refuse_start(start)
        rounds = len(slots).bit_length() - 1
        is_bracket = 1 <= rounds <= 10 and len(slots) == 2**rounds and start + rounds - 1 <= self.gameweeks
        has_no_bye_tie = all(slots[place : place + 2] != (0, 0) for place in range(0, len(slots), 2))
        stands_once = len(set(entrants)) == len(entrants)
        are_registered = all(self.first_gameweek(entry) is not None for entry in entrants)
        if not (is_bracket and len(coins) == len(slots) - 1 and stands_once and has_no_bye_tie and are_registered):
            raise Refused(40)
        self.cups.append(Cup(start, slots, coins))
        return "cup", len(self.cups)

    # Views: docs/HTTP.md, Views

    def view_season(self):
        clubs = [{"id": club, "name": name} for club, name in sorted(self.clubs.items())]
        return {"clubs": clubs, "deadlines": self.deadlines, "locked": self.locked, "profile": self.profile, "split": self.split}

    def pick_shown(self, player, bought):
        price = self.players[player].price
        return {"bought": bought, "player": player, "price": price, "sell": selling_price(bought, price)}

    def view_me(self, entry):
        self.refuse_unregistered(entry)
        gameweek = self.next_gameweek() or self.gameweeks
        team = self.team(entry, gameweek)
        return {
            "bank": team.bank,
            "captain": team.players[team.captain - 1],
            "chip": CHIPS[team.chip],
            "cost": self.cost(entry, gameweek),
            "entry": entry,
            "free": self.free_transfers(entry, gameweek),
            "gameweek": self.next_gameweek(),
            "last": self.last_number(entry),
            "players": [self.pick_shown(player, team.bought[player]) for player in team.players],
            "total": self.total(entry, 1, self.locked),
            "vice": team.players[team.vice - 1],
        }

    def view_player(self, number):
        self.need_player(number)
        player = self.players[number]
        shown = {"club": player.club, "gone": player.has_gone, "id": number, "name": player.name, "price": player.price}
        return {**shown, "position": POSITIONS[player.position]}

    def view_player_gameweek(self, player, gameweek):
        self.need_player(player)
        need(1 <= gameweek <= self.locked)
        return self.figures(player, gameweek)._asdict()

    def line_shown(self, fixture, player, line):
        bps = bps_of(self.position(player), line)
        return {"bonus": self.bonus(fixture)[player], "bps": bps, "player": player, "points": self.points(player, line)}

    def view_fixture(self, number):
        self.need_fixture(number)
        fixture = self.fixtures[number]
        return {
            "away": fixture.away,
            "finished": number in self.finished,
            "gameweek": fixture.gameweek,
            "home": fixture.home,
            "id": number,
            "kickoff": fixture.kickoff,
            "lines": [self.line_shown(number, *it) for it in sorted(self.lines.get(number, {}).items())],
        }

    def view_entry(self, entry, gameweek):
        self.need_entry(entry)
        first = self.first_gameweek(entry)
        need(first is not None and first <= gameweek <= self.locked)
        team, score = self.team(entry, gameweek), self.score(entry, gameweek)
        shown = {name: getattr(score, name) for name in ("armband", "cost", "eleven", "factor", "gross", "net")}
        return {**shown, "chip": CHIPS[team.chip], "players": team.players}

    def view_league(self, number):
        league = self.league(number)
        return {"kind": league.kind, "name": league.name, "rows": self.table(league, self.locked), "start": league.start}

    def view_cup(self, number):
        need(1 <= number <= len(self.cups))
        cup = self.cups[number - 1]
        return {"rounds": self.rounds(cup), "start": cup.start}
