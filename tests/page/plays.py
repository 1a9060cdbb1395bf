"""The plays: each a function that is given the stage, with a line that says what it shows."""
import socket
import time

from looks import LOOKS, pictures
from seasons import CLUBS, GAMEWEEKS, MANAGERS, Caller, Small, deadline
from served import OPERATOR
from stories import STORIES, choose
from wanted import need
from written import WRITTEN

KEA, TUI, WEKA = "kea123456", "tui123456", "weka12345"
MARKUP = "<img src=x onerror=alert(1)>"
ARABIC = "\u0646\u0627\u062f\u064a \u0643\u0631\u0629 \u0627\u0644\u0642\u062f\u0645 \u0641\u064a \u0627\u0644\u0645\u0643\u062a\u0628"
# Milliseconds of work that a person feels, on a machine that has other work too.
FELT = 300
EMOJI = "\U0001f984" * 16


def signing_in(stage):
    """A wrong key is told; a right one stays over a reload, until one signs out."""
    stage.open()
    stage.serve_played(1)
    page = stage.window("nosuchkey1")
    page.sees("not known here", "#notice")
    page.sign_in("\u043a\u043b\u044e\u0447 1")
    page.sees("A key is letters and digits", "#notice")
    page.sign_in(KEA)
    page.sees("Kea Kickers", "#header")
    page.reload().sees("Kea Kickers", "#header")
    for place in ("points/9", "fixtures/99", "player/999", "league/9", "cup/9", "entry/9/1", "week/99"):
        page.go(place).sees("There is nothing here")
    page.tap("sign-out").tap("yes")
    page.find("#key")
    page.reload().find("#key")


def before_a_season(stage):
    """Where there is no season that is said, to the operator too."""
    stage.open()
    stage.serve()
    stage.served.tell(deadline(1) - 86400)
    stage.window(OPERATOR).sees("There is no season yet")


def first_squad(stage):
    """A squad is picked, refused with the names of whom it is about, put right, and kept over a reload meanwhile."""
    stage.open(360)
    stage.serve()
    season = Small(stage.served).make()
    season.key(KEA, "Kea Kickers")
    for player in range(1, 121):
        if season.prices[player] > 60:
            season.operator.does("/prices", player=player, price=60)
    page = stage.window(KEA)
    page.go("transfers").sees("Pick your first squad")
    four_of_one = [1, 16, 3, 4, 18, 33, 34, 8, 23, 38, 53, 54, 58, 73, 88]
    choose(page, season, four_of_one[:9])
    page.reload().find("#player-23")
    choose(page, season, four_of_one[9:])
    page.tap("confirm").tap("yes")
    page.sees("Over the limit: Kea Kickers would have more than three players of Arrowtown", "#notice")
    page.tap("player-8")
    choose(page, season, [68])
    page.tap("confirm")
    page.set("squad-captain", 58).set("squad-vice", 73).tap("yes")
    page.sees("Your squad is entered", "#notice")
    page.sees("My team for gameweek 1")
    _, me = stage.served.ask("GET", "/me", KEA)
    need({it["player"] for it in me["players"]} == {*four_of_one, 68} - {8}, f"another squad: {me}")
    need((me["captain"], me["vice"]) == (58, 73), f"other leaders: {me}")


def lineups(stage):
    """Two taps change two players where that is legal; captain and vice-captain; Save is one command; Undo is none."""
    stage.open(360)
    stage.serve_played(1)
    page = stage.window(KEA)
    page.go("team")
    _, me = stage.served.ask("GET", "/me", KEA)
    by_slot = [it["player"] for it in me["players"]]
    keeper, defender, bench_keeper, bench_defender = by_slot[0], by_slot[1], by_slot[11], by_slot[12]
    page.tap(f"player-{keeper}")
    need("not" in page.find(f"#player-{defender}").get_attribute("class"), "a goalkeeper changes with a defender")
    page.tap(f"player-{bench_keeper}")
    page.sees("Not saved yet")
    page.tap(f"player-{defender}").tap(f"player-{bench_defender}")
    page.tap(f"player-{by_slot[5]}").tap("captain")
    page.reload().sees("Not saved yet")
    page.tap("save").sees("Your team is saved", "#notice")
    _, now = stage.served.ask("GET", "/me", KEA)
    order = [it["player"] for it in now["players"]]
    need(order[0] == bench_keeper and order[1] == bench_defender, f"another order {order}")
    need(now["captain"] == by_slot[5] and now["last"] == me["last"] + 1, f"not one command: {now}")
    page.tap(f"player-{by_slot[6]}").tap("vice").tap("undo")
    page.needs_no("#save")


def transfers(stage):
    """What transfers cost is told before they are made; one command for all; a refusal keeps what was chosen."""
    stage.open(360)
    season = stage.serve_played(2)
    page = stage.window(KEA)
    page.go("transfers")
    _, me = stage.served.ask("GET", "/me", KEA)
    held = [it["player"] for it in me["players"]]
    clubs = [season.clubs[it] for it in held]

    def fit(out):
        position = season.positions[out]
        cheap = [it for it, at in season.positions.items() if at == position and it not in held and season.prices[it] <= season.prices[out]]
        return next(it for it in cheap if clubs.count(season.clubs[it]) < 2)

    outs = held[1:4]
    ins = []
    for out in outs:
        held.append(fit(out))
        ins.append(held[-1])
        clubs.append(season.clubs[held[-1]])
    for out, into in zip(outs, ins):
        choose(page.tap(f"player-{out}"), season, [into], "transfers")
    page.sees("3 transfers")
    cost = 4 * max(3 - me["free"], 0)
    page.tap("confirm").sees(f"They cost {cost} point", "dialog")
    page.tap("yes").sees("The transfers are made", "#notice")
    _, now = stage.served.ask("GET", "/me", KEA)
    need(now["cost"] == cost and set(ins) <= {it["player"] for it in now["players"]}, f"other transfers: {now}")
    into = fit(ins[0])
    choose(page.tap(f"player-{ins[0]}"), season, [into], "transfers")
    season.operator.does("/gone", player=into, gone=True)
    page.tap("confirm").sees(f"Make them for {4 if cost else 4 * (3 - me['free'] + 1)} points", "dialog")
    page.tap("yes").sees(f"{season.names[into]} has left the league", "#notice")
    page.find(f"#player-{into}")


def transfers_in_turn(stage):
    """A place that is changed twice counts twice: what the next transfer costs is told before it is made."""
    stage.open(360)
    season = stage.serve_played(2)
    page = stage.window(KEA)
    page.go("transfers")
    _, me = stage.served.ask("GET", "/me", KEA)
    need(me["free"] == 2 and me["cost"] == 0, f"another beginning: {me}")
    out, other = (it["player"] for it in me["players"][1:3])
    held = [it["player"] for it in me["players"]]
    fits = lambda it: season.positions[it] == "D" and it not in held and season.prices[it] <= season.prices[out]
    far = [it for it in season.positions if fits(it) and all(season.clubs[it] != season.clubs[held_one] for held_one in held)]
    first, second, third = (far or list(filter(fits, season.positions)))[:3]
    for goes, comes, button in ((out, first, "Make them"), (first, second, "Make them"), (other, third, "Make them for 4 points")):
        choose(page.tap(f"player-{goes}"), season, [comes], "transfers")
        page.tap("confirm")
        page.until(lambda: page.text("#yes") == button, f"{button}, and not {page.text('#yes')}")
        page.tap("no" if button.endswith("points") else "yes").settled()


def chips(stage):
    """A chip is played, told, and taken back; a wildcard stays."""
    stage.open()
    stage.serve_played(1)
    page = stage.window(KEA)
    page.go("team").tap("play-triple_captain").tap("yes")
    page.sees("Triple captain is played", "#notice")
    need(stage.served.ask("GET", "/me", KEA)[1]["chip"] == "triple_captain", "no chip")
    page.tap("cancel-triple_captain").sees("taken back", "#notice")
    page.tap("play-wildcard").tap("yes").sees("Wildcard is played", "#notice")
    page.needs_no("#cancel-wildcard")
    page.go("transfers").sees("Wildcard", ".strip")


def leagues(stage):
    """Three managers in three windows: one makes a league, another joins by its code, a wrong code is told."""
    stage.open()
    stage.serve_played(1)
    kea = stage.window(KEA)
    kea.go("leagues").unfold("make-a-league")
    kea.set("league-name", "Tea break").set("league-code", "oolong7").tap("make-league")
    kea.sees("oolong7")
    tui = stage.window(TUI, is_new=True)
    tui.go("leagues").unfold("join-a-league")
    tui.set("join-league", 3).type("join-code", "wrongcode").tap("join")
    tui.sees("not the code of this league", "#notice")
    tui.unfold("join-a-league").set("join-league", 3).set("join-code", "oolong7").tap("join")
    tui.sees("You are in", "#notice")
    tui.sees("Kea Kickers")
    weka = stage.window(WEKA, is_new=True)
    weka.go("league/3").sees("Tea break")
    need("oolong7" not in weka.text(), "a code is shown to who is no member")
    for window, name in ((kea, "Kea Kickers"), (tui, "Tui Town"), (weka, "Weka Wanderers")):
        window.here().reload().sees(name, "#header")


def points(stage):
    """A locked gameweek as the host tells it, with the lines of which a player's points are made; a row opens a team."""
    stage.open(360)
    season = stage.serve_played(3)
    page = stage.window(KEA)
    _, picks = stage.served.ask("GET", "/api/entry/1/event/3/picks/", KEA)
    _, live = stage.served.ask("GET", "/api/event/3/live/", KEA)
    told = {it["id"]: it for it in live["elements"]}
    page.go("points/3")
    row = picks["entry_history"]
    strip = page.text(".strip").split("\n")
    for figure in ("points", "overall_rank", "total_points"):
        need(str(row[figure]) in strip, f"no {figure} {row[figure]} in {strip}")
    for pick in picks["picks"]:
        button = page.find(f"#player-{pick['element']}")
        spoken, points = button.get_attribute("aria-label"), told[pick["element"]]["stats"]["total_points"]
        need(f"{points} points".replace("-", "\u2212") in spoken, f"{points} for {spoken}")
        is_on = button.find_elements("xpath", "ancestor::*[contains(@class, 'pitch')]") != []
        need(is_on == (pick["multiplier"] > 0), f"{spoken} stands on the wrong side")
    best = max(picks["picks"], key=lambda it: told[it["element"]]["stats"]["total_points"])["element"]
    page.tap(f"player-{best}")
    shown = page.text("dialog")
    need(season.names[best] in shown, f"another player: {shown}")
    rows = page.driver.execute_script("return [...document.querySelectorAll('dialog tbody tr')].map((row) => Number(row.lastChild.textContent.replace('\u2212', '-')))")
    need(sum(rows) == told[best]["stats"]["total_points"], f"the lines give {rows}")
    page.picture("360-explained", 740)
    page.tap("no")
    page.until(lambda: page.driver.switch_to.active_element.get_attribute("id") == f"player-{best}", "the focus where it was")
    page.driver.execute_script("document.querySelector('h1').isMarked = true")
    page.refresh()
    need(page.driver.execute_script("return document.querySelector('h1').isMarked"), "what did not change was drawn again")
    page.go("league/1")
    page.find("tbody a").click()
    page.sees("Gameweek 3")
    page.go("entry/2/2").sees("Bench boost was played")
    _, boosted = stage.served.ask("GET", "/api/entry/2/event/2/picks/", KEA)
    need(all(pick["multiplier"] for pick in boosted["picks"]), "not all count under a bench boost")
    need(str(boosted["entry_history"]["points"]) in page.text(".strip").split("\n"), "other points under a bench boost")
    page.go("entry/1/3").sees("Triple captain was played").sees("\u00d73", ".pitch")
    page.go("league/2/3").sees("AVERAGE")


def correction(stage):
    """A goal is corrected in three taps, two days later: table, points and explanation change in an open window."""
    stage.open()
    season = stage.serve_played(3)
    stage.served.tell(deadline(3) + 3 * 86400)
    ask = lambda target: stage.served.ask("GET", target, OPERATOR)[1]
    held = {player for entry in range(1, 5) for player in counting(ask, entry)}
    fixture, scorer, taker = goal_to_move(season, ask, held)
    holder = next(it for it in range(1, 5) if scorer in counting(ask, it))
    manager = stage.window(KEA)
    manager.go("league/1")
    before = manager.text()
    manager.go(f"entry/{holder}/3").tap(f"player-{scorer}")
    explained = manager.text("dialog")
    manager.tap("no").go("league/1")
    operator = stage.window(OPERATOR, is_new=True)
    operator.go("matches/3")
    operator.go(f"correct/{fixture}")
    operator.tap(f"from-{scorer}-1").reload().tap(f"to-{taker}-1").tap("correct")
    operator.sees("What it changed")
    operator.sees(f"{season.names[scorer]}: points")
    operator.picture("1280-corrected")
    lines = {it["player"]: it["figures"] for it in ask(f"/api/fixtures/{fixture}/sheet/")["lines"]}
    need(lines[taker][1] >= 1, "no goal for who scored it")
    manager.here().refresh()
    manager.until(lambda: manager.text() != before, "another table")
    manager.go(f"entry/{holder}/3").tap(f"player-{scorer}")
    manager.until(lambda: manager.text("dialog") != explained, "another explanation")
    manager.tap("no")


def counting(ask, entry):
    """The players of an entry who count in gameweek 3."""
    return [it["element"] for it in ask(f"/api/entry/{entry}/event/3/picks/")["picks"] if it["multiplier"]]


def goal_to_move(season, ask, held):
    """A match of gameweek 3, a scorer in it who counts for somebody, and a player of his side who counts for nobody."""
    for fixture in range(30, 34):
        lines = ask(f"/api/fixtures/{fixture}/sheet/")["lines"]
        for line in lines:
            if line["figures"][1] and line["player"] in held:
                mates = [it["player"] for it in lines if season.clubs[it["player"]] == season.clubs[line["player"]]]
                others = [it for it in mates if it not in held and it != line["player"]]
                if others:
                    return fixture, line["player"], others[0]
    raise AssertionError("the season has no such goal")


def sheets(stage):
    """Figures of a match: ranges are checked as they are typed, rows are pasted, what changed is marked, one command."""
    stage.open()
    stage.serve_played(1)
    page = stage.window(OPERATOR)
    page.go("sheet/10")
    _, before = stage.served.ask("GET", "/api/fixtures/10/sheet/", OPERATOR)
    _, me = stage.served.ask("GET", "/api/me/", OPERATOR)
    player = before["lines"][0]["player"]
    page.type(f"figure-{player}-0", "121")
    page.sees("Minutes goes up to 120")
    need(not page.find("#save").is_enabled(), "a wrong sheet can be saved")
    page.type(f"figure-{player}-0", "77").type(f"figure-{player}-18", "10").type(f"figure-{player}-19", "11")
    page.sees("More passes are completed than attempted")
    page.type(f"figure-{player}-19", "9").sees("Not saved yet")
    need("changed" in page.find(f"#figure-{player}-0").get_attribute("class"), "a change is not marked")
    page.reload().find(f"#figure-{player}-0.changed")
    paste = "const event = new ClipboardEvent('paste', {bubbles: true, cancelable: true, clipboardData: new DataTransfer()}); event.clipboardData.setData('text', '88\\t2\\n87\\t1\\n'); document.getElementById(arguments[0]).dispatchEvent(event)"
    page.driver.execute_script(paste, f"figure-{player}-0")
    page.tap("save").sees("The sheet is saved", "#notice")
    _, now = stage.served.ask("GET", "/api/fixtures/10/sheet/", OPERATOR)
    line = now["lines"][0]["figures"]
    need((line[0], line[3], line[18], line[19]) == (88, 2, 10, 9), f"other figures {line}")
    need(len(now["lines"]) == len(before["lines"]), "another number of lines")
    need(stage.served.ask("GET", "/api/me/", OPERATOR)[1]["last"] == me["last"] + 1, "not one command")


def evening(stage):
    """The operator's other pages: finished, a move, a deadline, a price, a key, draws."""
    stage.open(360)
    stage.serve_played(1)
    ask = lambda target: stage.served.ask("GET", target, OPERATOR)[1]
    page = stage.window(OPERATOR)
    page.go("matches/1").tap("finish-10").sees("not finished any more", "#notice")
    need(not ask("/fixtures/10")["finished"], "still finished")
    page.go("move/20").set("gameweek", "").tap("move").sees("moved", "#notice")
    need(ask("/fixtures/20")["gameweek"] is None, "still there")
    written = lambda moment: time.strftime("%Y-%m-%dT%H:%M:%S", time.localtime(moment))
    page.go("season").set("deadline-3", written(deadline(3) - 600)).set("deadline-5", written(deadline(5) - 60)).tap("set-deadline-3")
    page.sees("deadline of gameweek 3 is set", "#notice")
    need(ask("/season")["deadlines"][2:5] == [deadline(3) - 600, deadline(4), deadline(5)], "other deadlines")
    page.reload().tap("set-deadline-5").sees("deadline of gameweek 5 is set", "#notice")
    need(ask("/season")["deadlines"][4] == deadline(5) - 60, "what was typed was lost")
    page.go("player/7").type("price", "9.9").tap("set-price").sees("Saved", "#notice")
    need(ask("/players/7")["price"] == 99, "another price")
    page.set("club", 5).tap("set-club")
    page.until(lambda: ask("/players/7")["club"] == 5, "another club")
    page.go("keys").type("team-name", "Ruru Two").reload().tap("make-key").sees("The key is made", "#notice")
    key = page.text(".key")
    need(len(key) == 16 and stage.served.ask("GET", "/api/me/", key)[1]["name"] == "Ruru Two", f"no key {key}")
    page.picture("360-key")
    page.go("draws").tap("draw-cup").sees("Cup 2")
    need(len(ask("/api/cups/2/")["rounds"]) == 2, "another bracket")
    kea = Caller(stage.served, KEA).refresh()
    kea.does("/leagues", kind="head", name="Pairs", code="pairs", start=3)
    Caller(stage.served, TUI).refresh().does("/leagues/3/join", code="pairs")
    page.go("draws").tap("draw-3").tap("yes").sees("The league is drawn", "#notice")


def another_key(stage):
    """A key that leaked lets nobody in any more: the manager is asked for a key, and goes on with the one on his new card."""
    stage.open(360)
    stage.serve_played(1)
    _, me = stage.served.ask("GET", "/me", KEA)
    manager = stage.window(KEA)
    manager.sees("Kea Kickers", "#header")
    operator = stage.window(OPERATOR, is_new=True)
    operator.go("keys")
    operator.find("a[href='#/keys/1']").click()
    operator.sees("A new key for Kea Kickers").tap("make-key").sees("The key is made", "#notice")
    key = operator.text(".key")
    need(len(key) == 16 and stage.served.ask("GET", "/me", KEA)[0] == 401, "the old key is known")
    operator.picture("360-another-key")
    operator.go("keys/2").set("team-name", "Tui City").tap("make-key").sees("Tui City", "table")
    operator.go("keys/1").tap("make-key")
    operator.until(lambda: key not in operator.text(), "no card for a key that is another one now")
    need(len(operator.all(".key")) == 2, "not a card for each team")
    key = operator.text(".key")
    manager.here().refresh().sees("not known here", "#notice").sign_in(key)
    manager.sees("Kea Kickers", "#header").go("team").tap(f"player-{me['players'][5]['player']}").tap("captain").tap("save")
    manager.sees("Your team is saved", "#notice")


def misspelt_player(stage):
    """A player's name is put right at any time, and his position until he is in use; then it is told why not."""
    stage.open(360)
    season = stage.serve_played(1)
    ask = lambda target: stage.served.ask("GET", target, OPERATOR)[1]
    held = {player for *_, seed in MANAGERS for player in season.squad(seed)}
    idle = next(it for it in range(2, 121, 15) if it not in held)  # the second goalkeeper of a club, who has not played
    page = stage.window(OPERATOR)
    page.go(f"player/{idle}").set("name", "Te Rangi").set("position", "F").reload().tap("set-name").sees("Saved", "#notice")
    page.sees("Te Rangi", "h1").sees("forward")
    need(ask(f"/players/{idle}")["position"] == "F", "another position")
    used = min(held)
    page.go(f"player/{used}").set("name", "O\u2019Hara").tap("set-name").sees("O\u2019Hara", "h1")
    position = ask(f"/players/{used}")["position"]
    page.set("position", next(it for it in "GDMF" if it != position)).tap("set-name")
    page.sees("O\u2019Hara is or was in a team, or has figures, so his position stays", "#notice")
    need(ask(f"/players/{used}")["position"] == position, "another position of one who is in use")


def other_clubs(stage):
    """The clubs of a match are put right until it has figures; then it is told why not. None plays against itself."""
    stage.open(360)
    season = stage.serve_played(1)
    ask = lambda target: stage.served.ask("GET", target, OPERATOR)[1]
    home, away = season.fixtures[20]
    page = stage.window(OPERATOR)
    page.go("move/20").set("home", away).tap("set-clubs")
    need(page.driver.execute_script("return !document.getElementById('away').validity.valid"), "a club plays against itself")
    page.set("away", home).tap("set-clubs").sees("Saved", "#notice")
    now = ask("/fixtures/20")
    need((now["home"], now["away"], now["gameweek"]) == (away, home, 2), f"another match: {now}")
    home, away = season.fixtures[10]
    page.go("move/10").set("home", away).set("away", home).tap("set-clubs")
    page.sees(f"{CLUBS[home - 1]} against {CLUBS[away - 1]} has figures or is finished, so its clubs stay", "#notice")


def two_windows(stage):
    """Two windows of one manager: the slower one is told, over a reload too, keeps what was chosen, and saves it then."""
    stage.open()
    stage.serve_played(1)
    _, me = stage.served.ask("GET", "/me", KEA)
    by_slot = [it["player"] for it in me["players"]]
    one = stage.window(KEA)
    one.go("team").tap(f"player-{by_slot[5]}").tap("captain")
    other = stage.window(is_new=True)
    other.sees("Kea Kickers", "#header")
    other.go("team").tap(f"player-{by_slot[6]}").tap("captain").tap("save").sees("saved", "#notice")
    one.here().reload().tap("save").sees("changed on another device", "#notice")
    one.sees("Not saved yet").tap("save").sees("Your team is saved", "#notice")
    _, now = stage.served.ask("GET", "/me", KEA)
    need(now["captain"] == by_slot[5] and now["last"] == me["last"] + 2, f"another captain {now}")


def stopped_host(stage):
    """The host is stopped under an open page: a save waits, over a reload too, and is done once when it is back."""
    stage.open()
    stage.serve_played(1)
    _, me = stage.served.ask("GET", "/me", KEA)
    page = stage.window(KEA)
    page.go("team").tap(f"player-{me['players'][5]['player']}").tap("captain")
    stage.served.stop()
    page.tap("save").sees("Not saved yet, trying again", "#unsaved")
    stage.served.start()
    page.sees("Your team is saved", "#notice")
    _, now = stage.served.ask("GET", "/me", KEA)
    need(now["captain"] == me["players"][5]["player"] and now["last"] == me["last"] + 1, f"not once: {now}")
    page.tap(f"player-{me['players'][6]['player']}").tap("captain")
    page.driver.execute_script("window.realFetch = fetch; window.fetch = () => Promise.reject(new TypeError('cut'))")
    page.tap("save").sees("Not saved yet", "#unsaved")
    page.reload().sees("What was sent before is saved", "#notice")
    _, behind = stage.served.ask("GET", "/me", KEA)
    need(behind["captain"] == me["players"][6]["player"] and behind["last"] == now["last"] + 1, f"not once: {behind}")


def cut_network(stage):
    """The network is cut in mid-save: the answer is lost, the command is sent again and done once."""
    stage.open()
    stage.serve_played(1)
    _, me = stage.served.ask("GET", "/me", KEA)
    page = stage.window(KEA)
    page.go("team").tap(f"player-{me['players'][5]['player']}").tap("captain")
    lost = "const real = fetch; let count = 0; window.fetch = async (...all) => { const answer = await real(...all); if (all[1].method === 'POST' && ++count === 1) { throw new TypeError('cut'); } return answer; }"
    page.driver.execute_script(lost)
    page.tap("save").sees("Your team is saved", "#notice")
    _, now = stage.served.ask("GET", "/me", KEA)
    need(now["last"] == me["last"] + 1, f"not once: {now}")
    page.tap(f"player-{me['players'][6]['player']}").tap("captain")
    stage.driver.set_network_conditions(offline=True, latency=0, throughput=0)
    page.tap("save").sees("Not saved yet", "#unsaved")
    stage.driver.delete_network_conditions()
    page.sees("Your team is saved", "#notice")


def passed_deadline(stage):
    """A deadline passes under an open page: Save is refused, the next gameweek is named, and what was chosen is kept."""
    stage.open(360)
    stage.serve_played(1)
    stage.served.tell(deadline(2) - 10)
    _, me = stage.served.ask("GET", "/me", KEA)
    page = stage.window(KEA)
    page.go("team").tap(f"player-{me['players'][5]['player']}").tap("captain")
    stage.served.tell(deadline(2))
    page.tap("save").sees("The deadline of gameweek 2 has passed. Gameweek 3 is next", "#notice")
    page.sees("My team for gameweek 3")
    page.picture("360-passed-deadline", 740)
    page.tap("save").sees("Your team is saved", "#notice")
    _, now = stage.served.ask("GET", "/me", KEA)
    need(now["captain"] == me["players"][5]["player"], "another captain")


def names_that_are_markup(stage):
    """Names that are markup, in Arabic or of emoji are texts, and cut nothing off at 320 pixels."""
    stage.open(320)
    stage.serve()
    season = Small(stage.served).make()
    for player, name in ((3, MARKUP), (4, ARABIC), (5, EMOJI), (8, "W" * 64), (9, "<b>bold</b>&amp;")):
        season.operator.does("/players", id=500 + player, name=name, position=season.positions[player], club=1, price=40)
        season.positions[500 + player], season.prices[500 + player], season.clubs[500 + player] = season.positions[player], 40, player
    entries = [season.key(f"entry{place}234567", name) for place, name in enumerate((MARKUP, ARABIC, EMOJI, "W" * 64), 1)]
    for club, player in ((7, 503), (6, 504), (5, 505), (4, 508), (1, 509)):
        season.operator.does("/clubs", player=player, club=club)
    players = [1, 503, 504, 19, 35, 508, 509, 38, 53, 43, 58, 91, 505, 68, 103]
    for place, _ in enumerate(entries, 1):
        Caller(stage.served, f"entry{place}234567").does("/squad", players=players, captain=508, vice=509)
    first = Caller(stage.served, "entry1234567").refresh()
    first.does("/leagues", kind="classic", name=MARKUP, code="code1", start=1)
    for place in (2, 3, 4):
        Caller(stage.served, f"entry{place}234567").refresh().does("/leagues/1/join", code="code1")
    season.play(1)
    page = stage.window("entry1234567")
    page.sees(MARKUP, "#header")
    for place in ("points", "team", "transfers", "players", "player/503", "player/505", "leagues", "league/1", "fixtures/1", "entry/3/1", "entry/4/1"):
        page.go(place)
        need(not page.all("main img") and not page.all("main b"), f"markup in {place}")
        need(page.overflow() <= 0, f"{place} is {page.overflow()} pixels too wide")
        page.picture(f"320-names-{place.replace('/', '-')}")
    need("onerror" not in page.driver.page_source.replace("&lt;img src=x onerror=alert(1)&gt;", "").replace('title="<img src=x onerror=alert(1)>"', "").replace("<img src=x onerror=alert(1)>, ", ""), "markup in the page's source")


def screen_reader(stage):
    """Each place has a main part, one heading that has and keeps the focus, and a name for whatever can be acted on."""
    stage.open()
    stage.serve_played(3)
    acting = ("button", "link", "textbox", "searchbox", "combobox", "checkbox", "spinbutton", "DateTime", "dialog")
    for key, places in (
        (KEA, ("points", "team", "transfers", "fixtures", "players", "player/9", "leagues", "league/1", "league/2", "cup/1", "week", "entry/2/1")),
        (OPERATOR, ("matches", "sheet/30", "correct/30", "move/41", "season", "keys", "keys/1", "draws", "player/9")),
    ):
        page = stage.window(key)
        page.sees("Gameweek 4", "#header")
        for place in places:
            page.go(place)
            tree = page.tree()
            nameless = [role for role, name in tree if role in acting and not name.strip()]
            need(not nameless, f"{place}: {nameless} without a name")
            roles = [role for role, _ in tree]
            need(roles.count("main") == 1 and "navigation" in roles, f"{place}: {set(roles)}")
            need(len(page.all("main h1")) == 1, f"{place} has not one heading")
            need(page.driver.switch_to.active_element.tag_name == "h1", f"{place}: the focus is lost")
        page.tap("sign-out").tap("yes")


def keyboard(stage):
    """One signs in, changes a lineup and saves it, and closes a dialog, with keys alone."""
    stage.open()
    stage.serve_played(1)
    _, me = stage.served.ask("GET", "/me", KEA)
    page = stage.window()
    page.find("#key")
    page.press(*KEA, "Enter").sees("Kea Kickers", "#header")
    page.reach("to-team").press("Enter").sees("My team for gameweek 2")
    page.reach(f"player-{me['players'][5]['player']}").press("Enter").reach("captain").press("Enter").reach("save").press("Enter")
    page.sees("Your team is saved", "#notice")
    need(stage.served.ask("GET", "/me", KEA)[1]["captain"] == me["players"][5]["player"], "another captain")
    page.reach("play-bench_boost").press("Enter").find("dialog")
    page.press("Escape").until(lambda: not page.all("dialog"), "no dialog")
    page.until(lambda: page.focus() == "play-bench_boost", "the focus where it was")


def odd_gameweeks(stage):
    """A season before its first deadline, a blank and a double gameweek, one that has ended, negative points."""
    stage.open(360)
    stage.serve()
    season = Small(stage.served).make()
    for key, name, seed in ((KEA, "Kea Kickers", 11), (TUI, "Tui Town", 12)):
        season.enter(key, name, seed)
    page = stage.window(KEA)
    page.go("points").sees("They come once gameweek 1 has begun")
    page.go("team").sees("My team for gameweek 1")
    page.go("week").sees("once a gameweek has begun")
    page.go("fixtures").sees("Gameweek 1")
    for fixture in range(20, 24):
        home, away = season.fixtures[fixture]
        season.operator.does(f"/fixtures/{fixture}/move", gameweek=3, kickoff=deadline(3) + 9000)
    season.play(1)
    page.go("fixtures/2").sees("No match stands in this gameweek")
    page.go("team").sees("no match")
    stage.served.tell(deadline(3) + 86400)
    red = next(it["player"] for it in stage.served.ask("GET", "/me", KEA)[1]["players"])
    figures = [1] + [0] * 27
    figures[8], figures[9] = 1, 2
    season.operator.does("/fixtures/20/line", player=red, figures=figures)
    page.go("points/3")
    need("\u22126" in page.text(".pitch"), "no negative points")
    page.go("fixtures/3")
    need(len(page.all("article")) == 8, "no double gameweek")
    stage.served.tell(deadline(GAMEWEEKS) + 86400)
    page.go("team").sees("at the end of the season")
    page.go("transfers").sees("The season is over")
    page.go(f"points/{GAMEWEEKS}").sees(f"Gameweek {GAMEWEEKS}")


def twenty_at_once(stage):
    """Twenty loads at once, of pages and of views, beside clients that ask nothing or half a message: none waits for another."""
    stage.open()
    stage.serve()
    Small(stage.served).make()
    stage.driver.get(stage.served.url)
    script = """
      const [key, done] = arguments;
      const load = async (target) => {
        const begun = performance.now();
        const answer = await fetch(target, { headers: { "Fpl-Key": key } });
        await answer.text();
        return [answer.status, performance.now() - begun];
      };
      const targets = [];
      for (const page of ["style.css", "main.js", "parts.js", "team.js", "icons.svg"]) {
        targets.push(`/${page}`, "/season", "/api/me/", "/api/entries/");
      }
      Promise.all(targets.map(load)).then(done);
    """
    with socket.create_connection(("127.0.0.1", stage.served.port)) as half, socket.create_connection(("127.0.0.1", stage.served.port)):
        half.sendall(b"GET /season HTTP/1.1\r\nFpl-K")
        found = stage.driver.execute_async_script(script, OPERATOR)
    need(len(found) == 20 and all(status == 200 for status, _ in found), f"not all came: {found}")
    need(max(took for _, took in found) < 30_000, f"one waited: {found}")


def generated_season(stage):
    """The season of `generate`: what a key press in the list of 600 players takes, which nobody may feel, and a table of many rows."""
    stage.open()
    stage.serve_generated()
    page = stage.window("entrykey0001")
    page.go("players").sees("600 players")
    script = """
      const [field, times] = [arguments[0], {}];
      for (let turn = 0; turn < 30; turn += 1) {
        for (const text of ["p", "p1", "p12", "p1", "p", ""]) {
          const begun = performance.now();
          field.value = text;
          field.dispatchEvent(new Event("input"));
          document.body.getBoundingClientRect();
          times[text] = Math.min(times[text] ?? Infinity, performance.now() - begun);
        }
      }
      return times;
    """
    times = page.driver.execute_script(script, page.find("#players-search"))
    need(max(times.values()) < FELT, f"key presses take, at best of many, so many milliseconds: {times}")
    page.driver.execute_script("scrollTo(0, document.body.scrollHeight)")
    page.until(lambda: len(page.all("tbody tr")) > 40, "the next rows")
    page.go("league/1")
    need(len(page.all("tbody tr")) == 500, "another number of rows")


PLAYS = {
    **WRITTEN,
    **{
        play.__name__: play
        for play in (
            signing_in,
            before_a_season,
            first_squad,
            lineups,
            transfers,
            transfers_in_turn,
            chips,
            leagues,
            points,
            correction,
            sheets,
            evening,
            another_key,
            misspelt_player,
            other_clubs,
            two_windows,
            stopped_host,
            cut_network,
            passed_deadline,
            names_that_are_markup,
            screen_reader,
            keyboard,
            odd_gameweeks,
            twenty_at_once,
            generated_season,
        )
    },
    **STORIES,
    **LOOKS,
}
