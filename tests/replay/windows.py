"""The views below /api/ of the second host: what a season shows, in the shapes of the game's public API.

All is told of locked gameweeks: a squad, a transfer, a lineup or a chip of an open one enters no answer. A view is the method
that `bodies.WINDOWS` names, and is given the ids of the target; an id that is not there is `Unknown`.
"""
from datetime import datetime, timezone

from books import BENCH_BOOST, NONE, Books, Cancel, Play, remembered
from figures import GOALKEEPER, bps_of, is_clean_sheet, yellow_counted
from refusing import need

ELEMENT_TYPES = (
    ("Goalkeeper", "GKP", 1, 1, 2),
    ("Defender", "DEF", 5, 3, 5),
    ("Midfielder", "MID", 5, 2, 5),
    ("Forward", "FWD", 3, 1, 3),
)
CHIP_NAMES = (None, "wildcard", "freehit", "bboost", "3xc")
# Of the eleven that score the most the first of these formations is the team of the week.
FORMATIONS = ((3, 4, 3), (3, 5, 2), (4, 3, 3), (4, 4, 2), (4, 5, 1), (5, 2, 3), (5, 3, 2), (5, 4, 1))
FIXTURE_STATS = (
    "goals_scored",
    "assists",
    "own_goals",
    "penalties_saved",
    "penalties_missed",
    "yellow_cards",
    "red_cards",
    "saves",
    "bonus",
    "bps",
)
HEAD_MOST = 64
MINUTES = 90
AVERAGE = "AVERAGE"


def time_text(moment):
    """A moment as YYYY-MM-DDTHH:MM:SSZ."""
    told = datetime.fromtimestamp(moment, timezone.utc)
    return f"{told.year:04}-{told.month:02}-{told.day:02}T{told.hour:02}:{told.minute:02}:{told.second:02}Z"


def decimal_text(above, below):
    """A quotient with one digit behind the point, rounded half away from zero; 0.0 where there is nothing below."""
    if below == 0:
        return "0.0"
    tenths = (abs(above) * 20 + below) // (2 * below)
    return f"{'-' if above < 0 and tenths else ''}{tenths // 10}.{tenths % 10}"


def rank_of(worth, one):
    """One more than the number of those who are better; the greater worth is better."""
    return 1 + sum(other > worth[one] for other in worth.values())


def page(rows):
    return {"has_next": False, "page": 1, "results": rows}


class Windows(Books):
    """The views, over the books."""

    # What many of them show

    @property
    def current(self):
        """The gameweek that was locked last, or None."""
        return self.locked or None

    def is_registered(self, entry):
        return 1 <= entry <= len(self.entries) and self.first_gameweek(entry) is not None

    def is_in(self, entry, gameweek):
        first = self.first_gameweek(entry)
        return gameweek is not None and first is not None and first <= gameweek

    @remembered
    def entries_in(self, gameweek):
        return [entry for entry in range(1, len(self.entries) + 1) if self.is_in(entry, gameweek)]

    @remembered
    def gross_in(self, gameweek):
        return {entry: self.score(entry, gameweek).gross for entry in self.entries_in(gameweek)}

    @remembered
    def worth_through(self, gameweek):
        """What ranks the entries of a gameweek over all: total through it, then fewer transfers."""
        worth = lambda entry: (self.total(entry, 1, gameweek), -self.counted_transfers(entry, gameweek))
        return {entry: worth(entry) for entry in self.entries_in(gameweek)}

    def side(self, player, fixture):
        """`h` or `a`, by the club that the player has now, or None."""
        club, it = self.players[player].club, self.fixtures[fixture]
        return "h" if club == it.home else "a" if club == it.away else None

    @remembered
    def lines_of(self, player):
        """The fixtures in which a player has a line, by kick-off, then number."""
        fixtures = (it for it, lines in self.lines.items() if player in lines)
        return sorted(fixtures, key=lambda it: (self.fixtures[it].kickoff, it))

    def line_stats(self, fixture, player):
        """The figures of a line that the API has, and what follows from the line."""
        line, bonus = self.lines[fixture][player], self.bonus(fixture)[player]
        return {
            "assists": line.assists,
            "bonus": bonus,
            "bps": bps_of(self.position(player), line),
            "clean_sheets": int(is_clean_sheet(line)),
            "goals_conceded": line.conceded,
            "goals_scored": line.goals,
            "minutes": line.minutes,
            "own_goals": line.own_goals,
            "penalties_missed": line.penalty_misses,
            "penalties_saved": line.penalty_saves,
            "red_cards": line.red,
            "saves": line.saves,
            "total_points": self.points(player, line) + bonus,
            "yellow_cards": yellow_counted(line),
        }

    def summed_stats(self, player, fixtures):
        stats = [self.line_stats(it, player) for it in fixtures]
        names = ("assists", "bonus", "bps", "clean_sheets", "goals_conceded", "goals_scored", "minutes", "own_goals")
        names += ("penalties_missed", "penalties_saved", "red_cards", "saves", "total_points", "yellow_cards")
        return {name: sum(it[name] for it in stats) for name in names}

    # /api/bootstrap-static/

    def window_bootstrap(self):
        return {
            "element_types": [self.element_type_shown(number, *it) for number, it in enumerate(ELEMENT_TYPES, 1)],
            "elements": [self.element_shown(player) for player in sorted(self.players)],
            "events": [self.event_shown(gameweek) for gameweek in range(1, self.gameweeks + 1)],
            "teams": [self.team_shown(club) for club in sorted(self.clubs)],
            "total_players": sum(self.is_registered(entry) for entry in range(1, len(self.entries) + 1)),
        }

    def element_type_shown(self, number, name, short, most, least, squad):
        return {
            "element_count": sum(player.position == number - 1 for player in self.players.values()),
            "id": number,
            "plural_name": f"{name}s",
            "plural_name_short": short,
            "singular_name": name,
            "singular_name_short": short,
            "squad_max_play": most,
            "squad_min_play": least,
            "squad_select": squad,
        }

    @remembered
    def holders(self, gameweek):
        """By how many entries of a gameweek each player is held in it."""
        held = {}
        for entry in self.entries_in(gameweek):
            for player in self.team(entry, gameweek).players:
                held[player] = held.get(player, 0) + 1
        return held

    def element_shown(self, number):
        player, stats = self.players[number], self.summed_stats(number, self.lines_of(number))
        played = sum(self.lines[it][number].minutes >= 1 for it in self.lines_of(number))
        entries = len(self.entries_in(self.current)) if self.current else 0
        held = self.holders(self.current).get(number, 0) if self.current else 0
        return {
            **stats,
            "chance_of_playing_next_round": None,
            "chance_of_playing_this_round": None,
            "code": number,
            "element_type": player.position + 1,
            "event_points": self.figures(number, self.current).points if self.current else 0,
            "first_name": "",
            "id": number,
            "news": "",
            "now_cost": player.price,
            "photo": "",
            "points_per_game": decimal_text(stats["total_points"], played),
            "second_name": player.name,
            "selected_by_percent": decimal_text(100 * held, entries),
            "status": "u" if player.has_gone else "a",
            "team": player.club,
            "team_code": player.club,
            "web_name": player.name,
        }

    def event_shown(self, gameweek):
        gross = self.gross_in(gameweek) if gameweek <= self.locked else {}
        highest = max(gross.values(), default=None)
        is_over = gameweek <= self.locked and self.has_ended(gameweek)
        return {
            "average_entry_score": sum(gross.values()) // len(gross) if gross else 0,
            "data_checked": is_over,
            "deadline_time": time_text(self.deadlines[gameweek - 1]),
            "deadline_time_epoch": self.deadlines[gameweek - 1],
            "finished": is_over,
            "highest_score": highest,
            "highest_scoring_entry": min((entry for entry in gross if gross[entry] == highest), default=None),
            "id": gameweek,
            "is_current": gameweek == self.locked,
            "is_next": gameweek == self.locked + 1,
            "is_previous": gameweek == self.locked - 1,
            "name": f"Gameweek {gameweek}",
        }

    def team_shown(self, club):
        name = self.clubs[club]
        return {"code": club, "id": club, "name": name, "short_name": name[:3]}

    # Fixtures

    def in_order(self, fixtures):
        return sorted(fixtures, key=lambda it: (self.fixtures[it].kickoff, it))

    def window_fixtures(self):
        return [self.fixture_shown(it) for it in self.in_order(self.fixtures)]

    def goals_at(self, fixture):
        """The score of a match, home and away; two times None where it cannot be told."""
        if not self.has_facts(fixture):
            return None, None
        goals = {"h": 0, "a": 0}
        for player, line in self.lines.get(fixture, {}).items():
            side = self.side(player, fixture)
            if side is None and (line.goals or line.own_goals):
                return None, None
            if side is not None:
                goals[side] += line.goals
                goals["a" if side == "h" else "h"] += line.own_goals
        return goals["h"], goals["a"]

    def minutes_of(self, fixture):
        if fixture in self.finished:
            return MINUTES
        return min(MINUTES, max((line.minutes for line in self.lines.get(fixture, {}).values()), default=0))

    def stat_shown(self, fixture, name):
        """What the players of either side have of a figure, greatest first."""
        values = {player: self.line_stats(fixture, player)[name] for player in self.lines.get(fixture, {})}
        shown = {}
        for side in "ah":
            of_side = [player for player in values if values[player] and self.side(player, fixture) == side]
            ordered = sorted(of_side, key=lambda player: (-values[player], player))
            shown[side] = [{"element": player, "value": values[player]} for player in ordered]
        return {**shown, "identifier": name}

    def fixture_shown(self, number):
        fixture, started = self.fixtures[number], self.has_facts(number)
        home_score, away_score = self.goals_at(number)
        return {
            "code": number,
            "event": fixture.gameweek,
            "finished": number in self.finished,
            "finished_provisional": number in self.finished,
            "id": number,
            "kickoff_time": time_text(fixture.kickoff),
            "minutes": self.minutes_of(number),
            "started": started,
            "stats": [self.stat_shown(number, name) for name in FIXTURE_STATS] if started else [],
            "team_a": fixture.away,
            "team_a_score": away_score,
            "team_h": fixture.home,
            "team_h_score": home_score,
        }

    def window_sheet(self, number):
        need(number in self.fixtures)
        lines = sorted(self.lines.get(number, {}).items())
        return {
            "finished": number in self.finished,
            "lines": [{"figures": list(line), "player": player} for player, line in lines],
        }

    # A gameweek of all players

    def need_gameweek_of_season(self, gameweek):
        need(1 <= gameweek <= self.gameweeks)

    def window_live(self, gameweek):
        self.need_gameweek_of_season(gameweek)
        if gameweek > self.locked:
            return {"elements": []}
        return {"elements": [self.live_shown(player, gameweek) for player in sorted(self.players)]}

    def live_shown(self, player, gameweek):
        fixtures = [it for it in self.standing(gameweek) if player in self.lines.get(it, {})]
        in_dream_team = any(player == it for it, _ in self.dream_team(gameweek))
        return {
            "explain": [{"fixture": it, "stats": self.explained(it, player)} for it in fixtures],
            "id": player,
            "stats": {**self.summed_stats(player, fixtures), "in_dreamteam": in_dream_team},
        }

    def explained(self, fixture, player):
        """What a line's points are made of: minutes always, and all else that gives or takes points."""
        line, position = self.lines[fixture][player], self.position(player)
        is_back = position <= 1
        items = [
            ("goals_scored", line.goals * (10 if self.profile == 2 else 6, 6, 5, 4)[position], line.goals),
            ("assists", 3 * line.assists, line.assists),
            ("clean_sheets", (4, 4, 1, 0)[position] if is_clean_sheet(line) else 0, 1),
            ("goals_conceded", -(line.conceded // 2) if is_back else 0, line.conceded),
            ("own_goals", -2 * line.own_goals, line.own_goals),
            ("penalties_saved", 5 * line.penalty_saves, line.penalty_saves),
            ("penalties_missed", -2 * line.penalty_misses, line.penalty_misses),
            ("yellow_cards", -yellow_counted(line), line.yellow),
            ("red_cards", -3 * line.red, line.red),
            ("saves", line.saves // 3 if position == GOALKEEPER else 0, line.saves),
            ("bonus", self.bonus(fixture)[player], self.bonus(fixture)[player]),
        ]
        items = [it for it in items if it[1] != 0]
        items.insert(0, ("minutes", 2 if line.minutes >= 60 else 1 if line.minutes else 0, line.minutes))
        return [{"identifier": name, "points": points, "value": value} for name, points, value in items]

    # A player

    def window_element_summary(self, player):
        need(player in self.players)
        club = self.players[player].club
        coming = [it for it, fixture in self.fixtures.items() if club in (fixture.home, fixture.away) and not self.has_facts(it)]
        return {
            "fixtures": [self.coming_shown(it, club) for it in self.in_order(coming)],
            "history": [self.line_shown_in_history(it, player) for it in self.lines_of(player)],
            "history_past": [],
        }

    def coming_shown(self, number, club):
        fixture = self.fixtures[number]
        return {
            "event": fixture.gameweek,
            "id": number,
            "is_home": club == fixture.home,
            "kickoff_time": time_text(fixture.kickoff),
            "team_a": fixture.away,
            "team_h": fixture.home,
        }

    def line_shown_in_history(self, number, player):
        fixture, side = self.fixtures[number], self.side(player, number)
        home_score, away_score = self.goals_at(number)
        return {
            **self.line_stats(number, player),
            "element": player,
            "fixture": number,
            "kickoff_time": time_text(fixture.kickoff),
            "opponent_team": {"h": fixture.away, "a": fixture.home, None: None}[side],
            "round": fixture.gameweek,
            "team_a_score": away_score,
            "team_h_score": home_score,
            "was_home": None if side is None else side == "h",
        }

    # The team of the week

    @remembered
    def dream_team(self, gameweek):
        """Players with their points, by position; empty where no eleven can be formed."""
        points = self.points_of_those_who_played(gameweek)
        best, most = [], None
        for formation in FORMATIONS:
            eleven = []
            for position, count in enumerate((1, *formation)):
                of_position = [it for it in points if self.position(it) == position]
                eleven += sorted(of_position, key=lambda it: (-points[it], it))[:count]
            total = sum(points[it] for it in eleven)
            if len(eleven) == 11 and (most is None or total > most):
                best, most = eleven, total
        return [(player, points[player]) for player in best]

    def points_of_those_who_played(self, gameweek):
        figures = {player: self.figures(player, gameweek) for player in self.players}
        return {player: it.points for player, it in figures.items() if it.played}

    def window_dream_team(self, gameweek):
        self.need_gameweek_of_season(gameweek)
        points = self.points_of_those_who_played(gameweek) if gameweek <= self.locked else {}
        top = min(points, key=lambda player: (-points[player], player), default=None)
        team = self.dream_team(gameweek) if points else []
        return {
            "team": [{"element": it, "points": worth, "position": place} for place, (it, worth) in enumerate(team, 1)],
            "top_player": None if top is None else {"id": top, "points": points[top]},
        }

    # Entries

    def window_entries(self):
        first = self.first_gameweek
        return [{"entry": number, "name": it.name, "started_event": first(number)} for number, it in enumerate(self.entries, 1)]

    def need_registered(self, entry):
        need(self.is_registered(entry))

    def window_entry(self, entry):
        self.need_registered(entry)
        current = self.current
        is_in = self.is_in(entry, current)
        first = self.first_gameweek(entry)
        transfers = sum(self.transfers(entry, it) for it in range(first + 1, self.locked + 1))
        return {
            "current_event": current,
            "id": entry,
            "last_deadline_bank": self.team(entry, current).bank if is_in else None,
            "last_deadline_total_transfers": transfers,
            "leagues": {"classic": self.leagues_shown_of(entry, "classic"), "h2h": self.leagues_shown_of(entry, "head")},
            "name": self.entries[entry - 1].name,
            "player_first_name": "",
            "player_last_name": "",
            "started_event": first,
            "summary_event_points": self.score(entry, current).gross if is_in else None,
            "summary_event_rank": rank_of(self.gross_in(current), entry) if is_in else None,
            "summary_overall_points": self.total(entry, 1, current) if is_in else None,
            "summary_overall_rank": rank_of(self.worth_through(current), entry) if is_in else None,
        }

    def leagues_shown_of(self, entry, kind):
        leagues = [(number, it) for number, it in enumerate(self.leagues, 1) if it.kind == kind and entry in it.members]
        return [self.league_shown_of(entry, number, league) for number, league in leagues]

    def league_shown_of(self, entry, number, league):
        return {
            "admin_entry": league.creator,
            "entry_can_admin": league.creator == entry,
            "entry_last_rank": self.last_ranks(league)[entry],
            "entry_rank": next(row["rank"] for row in self.table(league, self.locked) if row["entry"] == entry),
            "id": number,
            "league_type": "x",
            "max_entries": HEAD_MOST if league.kind == "head" else None,
            "name": league.name,
            "scoring": league.kind[0],
            "start_event": league.start,
        }

    def last_ranks(self, league):
        """The rank of each member in the table of a gameweek before; 0 where the league had not begun."""
        if league.start >= self.locked:
            return dict.fromkeys(league.members, 0)
        return {row["entry"]: row["rank"] for row in self.table(league, self.locked - 1)}

    # An entry's gameweeks

    def chips_of(self, entry):
        """The chips of the locked gameweeks, by gameweek."""
        touched = sorted({it.gameweek for it in self.entries[entry - 1].events if isinstance(it, (Play, Cancel))})
        chips = [(gameweek, self.chip_at(entry, gameweek)) for gameweek in touched if gameweek <= self.locked]
        return [(gameweek, chip) for gameweek, chip in chips if chip != NONE]

    def window_history(self, entry):
        self.need_registered(entry)
        return {
            "chips": [{"event": gameweek, "name": CHIP_NAMES[chip]} for gameweek, chip in self.chips_of(entry)],
            "current": [self.gameweek_row(entry, it) for it in range(self.first_gameweek(entry), self.locked + 1)],
            "past": [],
        }

    def counting_slots(self, entry, gameweek):
        if self.team(entry, gameweek).chip == BENCH_BOOST:
            return list(range(1, 16))
        return self.score(entry, gameweek).eleven

    def gameweek_row(self, entry, gameweek):
        team, score, counting = self.team(entry, gameweek), self.score(entry, gameweek), self.counting_slots(entry, gameweek)
        bench = [player for slot, player in enumerate(team.players, 1) if slot not in counting]
        return {
            "bank": team.bank,
            "event": gameweek,
            "event_transfers": 0 if gameweek == self.first_gameweek(entry) else self.transfers(entry, gameweek),
            "event_transfers_cost": score.cost,
            "overall_rank": rank_of(self.worth_through(gameweek), entry),
            "points": score.gross,
            "points_on_bench": sum(self.figures(player, gameweek).points for player in bench),
            "total_points": self.total(entry, 1, gameweek),
        }

    def window_picks(self, entry, gameweek):
        need(self.is_registered(entry) and self.first_gameweek(entry) <= gameweek <= self.locked)
        team, score, counting = self.team(entry, gameweek), self.score(entry, gameweek), self.counting_slots(entry, gameweek)
        player_at = lambda slot: team.players[slot - 1]
        stands_for = [(starter, slot) for starter, slot in enumerate(score.eleven, 1) if starter != slot]
        factor = lambda slot: 0 if slot not in counting else score.factor if slot == score.armband else 1
        return {
            "active_chip": CHIP_NAMES[team.chip],
            "automatic_subs": [
                {"element_in": player_at(slot), "element_out": player_at(starter), "entry": entry, "event": gameweek}
                for starter, slot in stands_for
            ],
            "entry_history": self.gameweek_row(entry, gameweek),
            "picks": [
                {
                    "element": player,
                    "is_captain": slot == team.captain,
                    "is_vice_captain": slot == team.vice,
                    "multiplier": factor(slot),
                    "position": slot,
                }
                for slot, player in enumerate(team.players, 1)
            ],
        }

    def window_transfers(self, entry):
        self.need_registered(entry)
        gameweeks = range(self.first_gameweek(entry) + 1, self.locked + 1)
        swaps = [swap for gameweek in gameweeks for swap in self.swaps_in(entry, gameweek)]
        return [
            {
                "element_in": swap.into,
                "element_in_cost": swap.paid,
                "element_out": swap.out,
                "element_out_cost": swap.sold,
                "entry": entry,
                "event": swap.gameweek,
            }
            for swap in reversed(swaps)
        ]

    # Leagues

    def league_line(self, number, league):
        return {
            "drawn": bool(league.order),
            "id": number,
            "members": len(league.members),
            "name": league.name,
            "scoring": league.kind[0],
            "start_event": league.start,
        }

    def window_leagues(self):
        return [self.league_line(number, league) for number, league in enumerate(self.leagues, 1)]

    def window_my_leagues(self, entry):
        mine = [(number, league) for number, league in enumerate(self.leagues, 1) if entry in league.members]
        return [{**self.league_line(number, league), "code": league.code} for number, league in mine]

    def need_league(self, number, kind):
        need(1 <= number <= len(self.leagues) and self.leagues[number - 1].kind == kind)
        return self.leagues[number - 1]

    def standings(self, number, league, rows):
        about = {
            "admin_entry": league.creator,
            "closed": bool(league.order),
            "code_privacy": "p",
            "id": number,
            "league_type": "x",
            "max_entries": HEAD_MOST if league.kind == "head" else None,
            "name": league.name,
            "scoring": league.kind[0],
            "start_event": league.start,
        }
        return {"league": about, "new_entries": page([]), "standings": page(rows)}

    def standing_row(self, row, last_ranks):
        """What the rows of both kinds of leagues have."""
        return {
            "entry": row["entry"],
            "entry_name": row["name"],
            "id": row["entry"],
            "last_rank": last_ranks[row["entry"]],
            "player_name": "",
            "rank": row["rank"],
        }

    def window_classic_standings(self, number):
        league = self.need_league(number, "classic")
        last_ranks, rows = self.last_ranks(league), []
        for place, row in enumerate(self.table(league, self.locked), 1):
            entry = row["entry"]
            gross = self.score(entry, self.current).gross if self.is_in(entry, self.current) else 0
            rows.append({**self.standing_row(row, last_ranks), "event_total": gross, "rank_sort": place, "total": row["total"]})
        return self.standings(number, league, rows)

    def window_head_standings(self, number):
        league = self.need_league(number, "head")
        last_ranks, rows = self.last_ranks(league), []
        for place, row in enumerate(self.table(league, self.locked), 1):
            matches = {f"matches_{end}": row[end] for end in ("drawn", "lost", "won")}
            rows.append(
                {
                    **self.standing_row(row, last_ranks),
                    **matches,
                    "division": number,
                    "matches_played": sum(matches.values()),
                    "points_for": row["scored"],
                    "rank_sort": place,
                    "total": row["points"],
                }
            )
        return self.standings(number, league, rows)

    def window_head_matches(self, number):
        league = self.need_league(number, "head")
        matches = []
        for gameweek in range(league.start, self.gameweeks + 1) if league.order else ():
            for place in range(self.places(league)):
                other = self.opponent(league, place, gameweek)
                if place < other:
                    matches.append(self.match_shown(number, league, gameweek, place, other))
        return page(matches)

    def match_shown(self, number, league, gameweek, place, other):
        shown = {"event": gameweek, "id": 1000 * gameweek + place, "is_bye": False, "is_knockout": False, "league": number, "winner": None}
        is_played = gameweek <= self.locked
        scored = self.scored_by_place(tuple(league.order), gameweek) if is_played else None
        for name, mine, theirs in (("entry_1", place, other), ("entry_2", other, place)):
            entry = league.order[mine] if mine < len(league.order) else None
            won, drawn = (scored[mine] > scored[theirs], scored[mine] == scored[theirs]) if is_played else (False, False)
            shown |= {
                f"{name}_draw": int(drawn),
                f"{name}_entry": entry,
                f"{name}_loss": int(is_played and not won and not drawn),
                f"{name}_name": AVERAGE if entry is None else self.entries[entry - 1].name,
                f"{name}_player_name": "",
                f"{name}_points": scored[mine] if is_played else 0,
                f"{name}_total": 3 * won + drawn,
                f"{name}_win": int(won),
            }
        return shown

    # Cups

    def window_cups(self):
        return [{"id": number, "slots": len(cup.slots), "start_event": cup.start} for number, cup in enumerate(self.cups, 1)]

    def window_cup(self, number):
        need(1 <= number <= len(self.cups))
        cup = self.cups[number - 1]
        entrants, rounds = [entry or None for entry in cup.slots], []
        for place, winners in enumerate(self.rounds(cup)):
            rounds.append(self.round_shown(cup.start + place, entrants, winners))
            entrants = winners or [None] * (len(entrants) // 2)
        return {"id": number, "rounds": rounds, "start_event": cup.start}

    def round_shown(self, gameweek, entrants, winners):
        points = lambda entry: None if winners is None or entry is None else self.score(entry, gameweek).net
        ties = []
        for tie, (one, other) in enumerate(zip(entrants[::2], entrants[1::2])):
            winner = None if winners is None else winners[tie]
            shown = {"entry_1": one, "entry_1_points": points(one), "entry_2": other, "entry_2_points": points(other)}
            ties.append({**shown, "winner": winner})
        return {"event": gameweek, "ties": ties}

    # The caller

    def window_me(self, caller):
        entry = self.entries[caller - 1] if caller else None
        return {
            "entry": caller or None,
            "last": self.last_number(caller),
            "name": entry and entry.name,
            "started_event": entry and self.first_gameweek(caller),
        }
