"""What a player's line in a fixture is worth, and what a player is sold for.

docs/RULES.md: Figures; Points of a line; Bonus points system; Players and prices.
"""
from typing import NamedTuple

POSITIONS = "GDMF"
GOALKEEPER, DEFENDER, MIDFIELDER, FORWARD = range(4)


class Line(NamedTuple):
    """The 28 figures, in the order of the table of figures."""

    minutes: int
    goals: int
    assists: int
    conceded: int
    saves: int
    penalty_saves: int
    penalty_misses: int
    yellow: int
    red: int
    own_goals: int
    crosses: int
    big_chances_created: int
    blocks: int
    recoveries: int
    key_passes: int
    tackles: int
    dribbles: int
    winning_goal: int
    attempted: int
    completed: int
    penalties_conceded: int
    big_chances_missed: int
    errors_to_goal: int
    errors_to_attempt: int
    tackled: int
    fouls: int
    offsides: int
    off_target: int


COMPLETED = Line._fields.index("completed")
# Those of the passes completed are the passes attempted.
GREATEST = [{"minutes": 120, "yellow": 1, "red": 1, "winning_goal": 1, "attempted": 400}.get(name, 99) for name in Line._fields]


def wrong_field(line):
    """The number, from 1, of the first figure above its greatest value, or None."""
    for place, figure in enumerate(line):
        if figure > (line.attempted if place == COMPLETED else GREATEST[place]):
            return place + 1
    return None


def is_clean_sheet(line):
    return line.minutes >= 60 and line.conceded == 0


def yellow_counted(line):
    """A yellow card is not counted beside a red one."""
    return 0 if line.red else line.yellow


def points_of(profile, position, line):
    """The points of a line, without bonus."""
    points = 2 if line.minutes >= 60 else 1 if line.minutes >= 1 else 0
    points += line.goals * (10 if profile == 2 else 6, 6, 5, 4)[position]
    points += 3 * line.assists + 5 * line.penalty_saves - 2 * line.penalty_misses
    points -= yellow_counted(line) + 3 * line.red + 2 * line.own_goals
    if position in (GOALKEEPER, DEFENDER):
        points -= line.conceded // 2
    if position == GOALKEEPER:
        points += line.saves // 3
    if is_clean_sheet(line):
        points += (4, 4, 1, 0)[position]
    return points


def passes_bps(line):
    """Nine, eight or seven tenths of at least 30 passes."""
    if line.attempted < 30:
        return 0
    return next((worth for tenths, worth in ((9, 6), (8, 4), (7, 2)) if 10 * line.completed >= tenths * line.attempted), 0)


def bps_of(position, line):
    """The number of a line in the bonus points system."""
    number = 6 if line.minutes > 60 else 3 if line.minutes >= 1 else 0
    number += line.goals * (12, 12, 18, 24)[position] + 9 * line.assists
    number += 2 * line.saves + 15 * line.penalty_saves - 6 * line.penalty_misses
    number -= 3 * yellow_counted(line) + 9 * line.red + 6 * line.own_goals
    number += line.crosses + 3 * line.big_chances_created + line.blocks // 2 + line.recoveries // 3
    number += line.key_passes + 2 * line.tackles + line.dribbles + 3 * line.winning_goal
    number -= 3 * (line.penalties_conceded + line.big_chances_missed + line.errors_to_goal)
    number -= line.errors_to_attempt + line.tackled + line.fouls + line.offsides + line.off_target
    if is_clean_sheet(line) and position in (GOALKEEPER, DEFENDER):
        number += 12
    return number + passes_bps(line)


def selling_price(bought, price):
    """What a player is sold for who was bought at that price and has this one now."""
    return price if price <= bought else bought + (price - bought) // 2
