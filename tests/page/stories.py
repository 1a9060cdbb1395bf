"""Longer plays: what several people see of one another over some days."""
from seasons import MANAGERS, Small, deadline
from served import OPERATOR
from wanted import need

DAY = 86400
MINUTES, GOALS = 0, 1  # the places of these figures in a line


def choose(page, season, players, where="squad"):
    """Picks these players from the list of this name, each found by his name."""
    for player in players:
        page.set(f"{where}-search", season.names[player]).tap(f"buy-{player}")
        page.find(f"#player-{player}")


def three_in_the_office(stage):
    """Three managers in three windows pick squads and meet in a league; a deadline passes under their open pages, the operator
    hands a match in, and corrects a goal two days later: tables and explanations change where they are looked at."""
    stage.open(360)
    stage.serve()
    season = Small(stage.served).make()
    windows = [entered(stage, season, *manager) for manager in MANAGERS[:3]]
    meet(windows)
    for window in windows:
        window.here().go("points").sees("They come once gameweek 1 has begun")
    stage.served.tell(deadline(1) + 2 * 3600)
    for window in windows:
        window.here().refresh().sees("Bench, in its order")
    ask = lambda target: stage.served.ask("GET", target, OPERATOR)[1]
    holder, fixture, scorer, taker = scene(season, ask)
    operator = stage.window(OPERATOR, is_new=True)
    hand_in(operator, season, fixture, scorer, taker)
    shown = {window: looked_at(window, holder, scorer) for window in windows}
    stage.served.tell(deadline(1) + 2 * DAY)
    correct(operator, season, fixture, scorer, taker)
    for window in windows:
        need(looked_at(window, holder, scorer) != shown[window], "nothing changed")
        need("Goals" not in looked_at(window, holder, scorer)[1], "the goal is explained where it is not")


def entered(stage, season, key, name, seed):
    """A window in which a manager has picked his squad."""
    entry = season.key(key, name)
    page = stage.window(key, is_new=entry > 1)
    page.go("transfers").sees("Pick your first squad")
    choose(page, season, season.squad(seed))
    page.tap("confirm").tap("yes").sees("Your squad is entered", "#notice")
    return page


def meet(windows):
    """The first one makes a league, and the others join."""
    first, *others = windows
    first.here().go("leagues").unfold("make-a-league")
    first.set("league-name", "The office").set("league-code", "kettle").tap("make-league").sees("kettle")
    for page in others:
        page.here().go("leagues").unfold("join-a-league").set("join-code", "kettle").tap("join")
        page.sees("You are in", "#notice").sees("The office")


def scene(season, ask):
    """An entry, and a match of gameweek 1 in which a player who counts for it may score in place of one whom nobody has."""
    picks = {entry: ask(f"/api/entry/{entry}/event/1/picks/")["picks"] for entry in (1, 2, 3)}
    held = {it["element"] for picked in picks.values() for it in picked}
    for holder, picked in picks.items():
        for scorer in (it["element"] for it in picked if it["multiplier"] == 1):
            club = season.clubs[scorer]
            mates = [it for it, at in season.clubs.items() if at == club and it not in held]
            if season.positions[scorer] != "G" and mates:
                return holder, next(it for it, sides in season.fixtures.items() if it < 20 and club in sides), scorer, mates[0]
    raise AssertionError("the season has no such goal")


def hand_in(operator, season, fixture, scorer, taker):
    """The sheet of a match with two players, of whom one scored."""
    operator.go("matches/1").go(f"sheet/{fixture}").unfold("others")
    for player in (scorer, taker):
        operator.unfold("others").tap(f"add-{player}").type(f"figure-{player}-{MINUTES}", "90")
    operator.type(f"figure-{scorer}-{GOALS}", "1").tap("finished").tap("save").sees("The sheet is saved", "#notice")
    operator.go("matches/1").sees(season.names[scorer], f"#match-{fixture}")


def correct(operator, season, fixture, scorer, taker):
    """The goal goes to the other one; a reload between the taps loses nothing."""
    operator.here().go(f"correct/{fixture}").tap(f"from-{scorer}-{GOALS}")
    operator.reload().tap(f"to-{taker}-{GOALS}").tap("correct")
    operator.sees("What it changed").sees(f"{season.names[scorer]}: points")


def looked_at(window, holder, player):
    """The table of the league, and what a player's points are made of, as a window shows them."""
    window.here().go("league/1").refresh()
    table = window.text("table")
    window.go(f"entry/{holder}/1").refresh().tap(f"player-{player}")
    explained = window.text("dialog")
    window.tap("no")
    return table, explained


STORIES = {play.__name__: play for play in (three_in_the_office,)}
