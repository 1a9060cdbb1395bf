"""The facts of a season and what was done by each manager, and all that follows from them.

Everything is told by a replay of what stands here: nothing is carried along. What is worked out between two changes of the
books is remembered until the next one, so that long streams are not slow. The headings are those of docs/RULES.md.
"""
from dataclasses import dataclass, field
from typing import NamedTuple

from bodies import CHIPS
from figures import DEFENDER, FORWARD, GOALKEEPER, bps_of, points_of

NONE, WILDCARD, FREE_HIT, BENCH_BOOST, TRIPLE_CAPTAIN = range(len(CHIPS))
UNLIMITED = (WILDCARD, FREE_HIT)  # the chips under which transfers cost nothing
BUDGET = 1000


@dataclass
class Player:
    name: str
    position: int
    club: int
    price: int
    has_gone: bool = False


@dataclass
class Fixture:
    home: int
    away: int
    gameweek: int  # or None
    kickoff: int


class FirstSquad(NamedTuple):
    gameweek: int
    players: tuple
    prices: tuple
    captain: int  # a slot, as the vice-captain is
    vice: int


class Swap(NamedTuple):
    gameweek: int
    out: int
    into: int
    sold: int
    paid: int


class Lineup(NamedTuple):
    gameweek: int
    players: tuple
    captain: int
    vice: int


class Play(NamedTuple):
    gameweek: int
    chip: int


class Cancel(NamedTuple):
    gameweek: int


@dataclass
class Entry:
    key: str
    name: str
    events: list = field(default_factory=list)


@dataclass
class League:
    kind: str
    name: str
    code: str
    start: int
    creator: int
    members: set
    order: list = field(default_factory=list)


class Cup(NamedTuple):
    start: int
    slots: tuple
    coins: tuple


class Figures(NamedTuple):
    """What a player did in a gameweek."""

    points: int
    goals: int
    conceded: int
    played: bool


class Team(NamedTuple):
    players: tuple  # by slot
    bought: dict  # the price of each
    captain: int
    vice: int
    bank: int
    chip: int


class Score(NamedTuple):
    """What a team scores in a gameweek; the eleven and the armband are slots, and the armband may be None."""

    eleven: list
    armband: int
    factor: int
    gross: int
    cost: int
    net: int
    goals: int
    conceded: int


def remembered(method):
    """A method of the books whose values are remembered until they change."""

    def told(books, *what):
        key = (method.__name__, *what)
        if key not in books.memory:
            books.memory[key] = method(books, *what)
        return books.memory[key]

    return told


def meets(one, other, places, round):
    """Whether two places meet in a round, counted from 0 (docs/RULES.md: Head-to-head leagues)."""
    last = places - 1
    if one < last and other < last:
        return (one + other) % last == round % last
    return 2 * min(one, other) % last == round % last


class Books:
    """A season's books. Gameweeks, entries, leagues and cups count from 1."""

    def __init__(self):
        self.has_season = False
        self.deadlines, self.split, self.locked, self.clubs, self.profile = [], 0, 0, {}, 1
        self.players, self.fixtures, self.lines, self.finished = {}, {}, {}, set()
        self.entries, self.leagues, self.cups = [], [], []
        self.memory = {}

    def lock(self, moment):
        """Locks the gameweeks whose deadline is at or before the moment, for good (The calendar: Locks)."""
        locked = max(self.locked, self.passed(moment))
        if locked != self.locked:
            self.locked = locked
            self.memory.clear()

    # The calendar

    def passed(self, moment):
        return sum(deadline <= moment for deadline in self.deadlines)

    @property
    def gameweeks(self):
        return len(self.deadlines)

    def next_gameweek(self):
        return self.locked + 1 if self.locked < self.gameweeks else None

    def standing(self, gameweek):
        """The fixtures that stand in a gameweek, by their numbers."""
        return [it for it in sorted(self.fixtures) if self.fixtures[it].gameweek == gameweek]

    def has_ended(self, gameweek):
        return all(it in self.finished for it in self.standing(gameweek))

    def has_facts(self, fixture):
        return bool(self.lines.get(fixture)) or fixture in self.finished

    # Bonus of a match; A player's gameweek

    def position(self, player):
        return self.players[player].position

    @remembered
    def bonus(self, fixture):
        """The bonus of each player who has a line in a fixture."""
        lines = self.lines.get(fixture, {})
        if fixture not in self.finished:
            return dict.fromkeys(lines, 0)
        numbers = {player: bps_of(self.position(player), line) for player, line in lines.items() if line.minutes >= 1}
        above = lambda player: sum(other > numbers[player] for other in numbers.values())
        return {player: max(0, 3 - above(player)) if player in numbers else 0 for player in lines}

    def points(self, player, line):
        return points_of(self.profile, self.position(player), line)

    @remembered
    def figures(self, player, gameweek):
        """What a player did in the fixtures that now stand in a gameweek."""
        fixtures = [it for it in self.standing(gameweek) if player in self.lines.get(it, {})]
        lines = [self.lines[it][player] for it in fixtures]
        return Figures(
            sum(self.points(player, line) for line in lines) + sum(self.bonus(it)[player] for it in fixtures),
            sum(line.goals for line in lines),
            sum(line.conceded for line in lines),
            any(line.minutes or line.yellow or line.red for line in lines),
        )

    # A manager's season: transfers, money and chips

    def first_gameweek(self, entry):
        """The gameweek for which an entry was registered, or None."""
        return next((it.gameweek for it in self.entries[entry - 1].events if isinstance(it, FirstSquad)), None)

    def chip_at(self, entry, gameweek):
        chip = NONE
        for event in self.entries[entry - 1].events:
            if event.gameweek == gameweek and isinstance(event, (Play, Cancel)):
                chip = event.chip if isinstance(event, Play) else NONE
        return chip

    def counting(self, entry, gameweek):
        """The events that count in a gameweek: not those of an earlier one with a free hit."""
        events = self.entries[entry - 1].events
        free_hits = {it.gameweek for it in events if self.chip_at(entry, it.gameweek) == FREE_HIT}
        earlier = [it for it in events if it.gameweek < gameweek and it.gameweek not in free_hits]
        return earlier + [it for it in events if it.gameweek == gameweek]

    @remembered
    def team(self, entry, gameweek):
        """The team of a registered entry, from its first gameweek on."""
        order, bought, captain, vice, bank = [], {}, None, None, BUDGET
        for event in self.counting(entry, gameweek):
            if isinstance(event, FirstSquad):
                bought = dict(zip(event.players, event.prices))
                bank -= sum(event.prices)
            if isinstance(event, (FirstSquad, Lineup)):
                order, captain, vice = list(event.players), event.captain, event.vice
            if isinstance(event, Swap):
                del bought[event.out]
                bought[event.into] = event.paid
                bank += event.sold - event.paid
                order[order.index(event.out)] = event.into
        assert set(bought) == set(order) and len(order) == len(bought) == 15 and bank >= 0
        return Team(tuple(order), bought, captain, vice, bank, self.chip_at(entry, gameweek))

    def swaps_in(self, entry, gameweek):
        return [it for it in self.entries[entry - 1].events if isinstance(it, Swap) and it.gameweek == gameweek]

    def transfers(self, entry, gameweek):
        return len(self.swaps_in(entry, gameweek))

    def free_transfers(self, entry, gameweek):
        """How many transfers of a gameweek are free; None in the first one, where all are."""
        first = self.first_gameweek(entry)
        if gameweek <= first:
            return None
        free = 1
        for earlier in range(first + 1, gameweek):
            if self.chip_at(entry, earlier) in UNLIMITED:
                free = free if self.profile == 2 else 1
            else:
                free = min(5 if self.profile == 2 else 2, max(free - self.transfers(entry, earlier), 0) + 1)
        return free

    def cost(self, entry, gameweek):
        """The points that the transfers of a gameweek cost."""
        if gameweek <= self.first_gameweek(entry) or self.chip_at(entry, gameweek) in UNLIMITED:
            return 0
        return 4 * max(self.transfers(entry, gameweek) - self.free_transfers(entry, gameweek), 0)

    def counted_transfers(self, entry, last):
        """Those up to a gameweek that a classic league compares."""
        first = self.first_gameweek(entry)
        counted = (it for it in range(1, last + 1) if it != first and self.chip_at(entry, it) not in UNLIMITED)
        return sum(self.transfers(entry, it) for it in counted)

    # The final eleven; The armband; A team's score; Totals

    def is_formation(self, slots, players):
        at = [self.position(players[slot - 1]) for slot in slots]
        return len(set(slots)) == 11 and at.count(GOALKEEPER) == 1 and at.count(DEFENDER) >= 3 and at.count(FORWARD) >= 1

    def final_eleven(self, players, played):
        """The slots that stand for the starters behind the end of a gameweek, where these slots played."""
        eleven = list(range(1, 12))
        if 1 not in played and 12 in played:
            eleven[0] = 12
        for starter in range(2, 12):
            if starter in played:
                continue
            for slot in (13, 14, 15):
                replaced = eleven[: starter - 1] + [slot] + eleven[starter:]
                if slot in played and slot not in eleven and self.is_formation(replaced, players):
                    eleven = replaced
                    break
        return eleven

    @remembered
    def score(self, entry, gameweek):
        team = self.team(entry, gameweek)
        figures = {slot: self.figures(player, gameweek) for slot, player in enumerate(team.players, 1)}
        played = {slot for slot in figures if figures[slot].played}
        has_ended = self.has_ended(gameweek)
        eleven = list(range(1, 12))
        if has_ended and team.chip != BENCH_BOOST:
            eleven = self.final_eleven(team.players, played)
        armband = team.captain
        if has_ended and team.captain not in played:
            armband = team.vice if team.vice in played else None
        factor = 1 if armband is None else 3 if team.chip == TRIPLE_CAPTAIN else 2
        gross = sum(figures[slot].points for slot in (figures if team.chip == BENCH_BOOST else eleven))
        if armband is not None:
            gross += (factor - 1) * figures[armband].points
        cost = self.cost(entry, gameweek)
        goals, conceded = (sum(getattr(figures[slot], name) for slot in eleven) for name in ("goals", "conceded"))
        return Score(eleven, armband, factor, gross, cost, gross - cost, goals, conceded)

    def total(self, entry, start, last):
        """An entry's points after deductions over the gameweeks from this one, or from its first, to a locked one."""
        first = self.first_gameweek(entry)
        if first is None:
            return 0
        return sum(self.score(entry, gameweek).net for gameweek in range(max(start, first), last + 1))

    # Tables and ranks

    def classic_rows(self, league, last):
        """The rows of a classic league by entry, up to a gameweek, and what they are ranked by: the greater is better."""
        rows = {}
        for entry in league.members:
            rows[entry] = {"total": self.total(entry, league.start, last), "transfers": self.counted_transfers(entry, last)}
        return rows, {entry: (row["total"], -row["transfers"]) for entry, row in rows.items()}

    def places(self, league):
        """The places of a drawn head-to-head league, that of the Average among them."""
        return len(league.order) + len(league.order) % 2

    def opponent(self, league, place, gameweek):
        """The place that meets this one in a gameweek."""
        places = self.places(league)
        return next(it for it in range(places) if it != place and meets(place, it, places, gameweek - league.start))

    @remembered
    def scored_by_place(self, order, gameweek):
        """What decides the matches of a gameweek, by place; where the members are odd the Average stands last."""
        scored = [self.score(entry, gameweek).net for entry in order]
        return [*scored, sum(scored) // len(scored)] if len(scored) % 2 else scored

    def head_rows(self, league, last):
        """The same of a head-to-head league."""
        rows = {entry: dict.fromkeys(("drawn", "lost", "points", "scored", "won"), 0) for entry in league.members}
        for gameweek in range(league.start, last + 1) if league.order else ():
            scored = self.scored_by_place(tuple(league.order), gameweek)
            for place, entry in enumerate(league.order):
                mine, theirs = scored[place], scored[self.opponent(league, place, gameweek)]
                end, points = ("won", 3) if mine > theirs else ("drawn", 1) if mine == theirs else ("lost", 0)
                for name, more in ((end, 1), ("points", points), ("scored", mine)):
                    rows[entry][name] += more
        return rows, {entry: (row["points"], row["scored"]) for entry, row in rows.items()}

    def table(self, league, last):
        """The rows of a league up to a gameweek, as they are shown, by rank and entry."""
        rows, worth = (self.classic_rows if league.kind == "classic" else self.head_rows)(league, last)
        rank = {entry: 1 + sum(other > worth[entry] for other in worth.values()) for entry in rows}
        shown = [{"entry": it, "name": self.entries[it - 1].name, "rank": rank[it], **rows[it]} for it in rows]
        return sorted(shown, key=lambda row: (row["rank"], row["entry"]))

    # Cups

    def goes_on(self, one, other, gameweek, coin):
        """Who goes on from a tie, where 0 is a bye."""
        if 0 in (one, other):
            return one or other
        first, second = ((it.net, it.goals, -it.conceded) for it in (self.score(one, gameweek), self.score(other, gameweek)))
        return one if first > second or first == second and coin == 0 else other

    def rounds(self, cup):
        """The winners of each round of a cup; None for a round whose gameweek is open."""
        rounds, winners, coins = [], list(cup.slots), list(cup.coins)
        ties, gameweek = len(winners) // 2, cup.start
        while ties:
            if gameweek > self.locked:
                rounds.append(None)
            else:
                pairs = zip(winners[::2], winners[1::2], coins)
                winners = [self.goes_on(one, other, gameweek, coin) for one, other, coin in pairs]
                coins = coins[ties:]
                rounds.append(winners)
            ties, gameweek = ties // 2, gameweek + 1
        return rounds
