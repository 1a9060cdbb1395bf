"""Pictures of each place for a person to look at, and what of them a script can tell: nothing is cut off at the side."""
from seasons import deadline
from served import OPERATOR
from wanted import need

KEA = "kea123456"
PLACES = {
    KEA: ("points", "team", "transfers", "fixtures", "players", "player/9", "leagues", "league/1", "league/2", "cup/1", "week", "entry/2/2"),
    OPERATOR: ("matches", "sheet/30", "correct/30", "move/41", "season", "keys", "keys/1", "draws", "leagues", "player/9"),
}
NOW = deadline(4) - 2 * 86400 - 3 * 3600


# What is wrong with how a place looks: players who overlap or stand beside the pitch, words that are cut off, and texts that
# stand out from what is behind them by less than 4.5 to 1. Who can't be chosen is faint, and a shirt's name may end in dots.
WRONG = r"""
  const wrong = [];
  const box = (it) => it.getBoundingClientRect();
  for (const ground of document.querySelectorAll(".pitch, .bench")) {
    const players = [...ground.querySelectorAll(".player")].map(box);
    const isBeside = (one) => one.left < box(ground).left - 1 || one.right > box(ground).right + 1;
    const touch = (one, other) => one.left < other.right - 1 && other.left < one.right - 1 && one.top < other.bottom - 1 && other.top < one.bottom - 1;
    wrong.push(...players.filter(isBeside).map(() => "a player stands beside the pitch"));
    players.forEach((one, place) => players.slice(place + 1).forEach((other) => touch(one, other) && wrong.push("two players overlap")));
  }
  for (const it of document.querySelectorAll("button:not(.player, .unseen), .button, a, dt, dd, h1, h2, summary, .score, .who")) {
    if (it.clientWidth > 0 && it.scrollWidth > it.clientWidth + 1) wrong.push(`cut off: ${it.textContent}`);
  }
  const parts = (colour) => colour.match(/[\d.]+/g).map(Number);
  const linear = (part) => (part / 255 <= 0.03928 ? part / 255 / 12.92 : ((part / 255 + 0.055) / 1.055) ** 2.4);
  const light = (colour) => [0.2126, 0.7152, 0.0722].reduce((sum, weight, at) => sum + weight * linear(colour[at]), 0);
  const behind = (it) => {
    const colour = it ? parts(getComputedStyle(it).backgroundColor) : [255, 255, 255];
    return colour.length === 3 ? colour : behind(it.parentElement);
  };
  const texts = document.createTreeWalker(document.body, NodeFilter.SHOW_TEXT);
  while (texts.nextNode()) {
    const it = texts.currentNode.parentElement;
    if (!texts.currentNode.textContent.trim() || it.closest(".unseen, .not, :disabled, option") || !it.checkVisibility()) continue;
    const [one, other] = [light(parts(getComputedStyle(it).color)), light(behind(it))].sort((one, other) => other - one);
    if ((one + 0.05) / (other + 0.05) < 4.5) wrong.push(`faint: ${it.textContent}`);
  }
  return [...new Set(wrong)];
"""


def look(stage, width, is_dark=False):
    stage.open(width)
    stage.serve_played(3)
    theme = "dark" if is_dark else "light"
    for key, places in PLACES.items():
        page = stage.window(key, moment=NOW)
        page.media(prefers_color_scheme=theme)
        page.sees("Gameweek 4", "#header")
        whose = "operator-" if key == OPERATOR else ""
        for place in places:
            page.go(place)
            need(page.overflow() <= 0, f"{place} is {page.overflow()} pixels too wide at {width}")
            wrong = page.driver.execute_script(WRONG)
            need(not wrong, f"{place} at {width}, {theme}: {wrong}")
            page.picture(f"{width}-{theme}-{whose}{place.replace('/', '-')}")
        page.tap("sign-out").tap("yes")


def small_light(stage):
    """Each place at 360 pixels, and whether it is wider than the window."""
    look(stage, 360)


def smallest(stage):
    """The same at 320 pixels."""
    look(stage, 320)


def large_light(stage):
    """The same at 1,280 pixels."""
    look(stage, 1280)


def small_dark(stage):
    """The same at 360 pixels in the dark."""
    look(stage, 360, is_dark=True)


def on_paper(stage):
    """A table is printed without what is around it."""
    stage.open()
    stage.serve_played(3)
    page = stage.window(KEA, moment=NOW)
    page.go("league/1")
    page.media(media="print")
    need(not page.find("#places").is_displayed(), "the places are printed")
    need(page.find("table").is_displayed(), "the table is not printed")
    page.picture("print-league-1", 740)
    page.media()


def no_motion(stage):
    """Nothing moves where a person wants no motion."""
    stage.open()
    stage.serve()
    page = stage.window()
    page.find("#key")
    moving = "document.getElementById('working').hidden = false; return getComputedStyle(document.getElementById('working')).animationName"
    for wish, name in (("no-preference", "working"), ("reduce", "none")):
        page.media(prefers_reduced_motion=wish)
        need(page.driver.execute_script(moving) == name, f"the bar moves by {name} where motion is {wish}")


def pictures(stage):
    """The two pictures of the README: a gameweek's points at 360 pixels, and the own team at 1,280."""
    folder = stage.top / "docs/pictures"
    folder.mkdir(exist_ok=True)
    for width, place, name in ((360, "points", "points"), (1280, "team", "team")):
        stage.open(width)
        stage.serve_played(3)
        page = stage.window(KEA, moment=NOW)
        page.sees("Gameweek 4", "#header")
        page.go(place)
        data = page.picture(name, 740).read_bytes()
        need(len(data) < 150_000, f"{name} has {len(data)} bytes")
        (folder / f"page-{name}.png").write_bytes(data)
        stage.served.stop()


LOOKS = {play.__name__: play for play in (small_light, smallest, large_light, small_dark, on_paper, no_motion)}
