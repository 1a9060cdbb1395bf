# Teams of gameweeks 1 to 3, and who is not there.
from views import play


def picks(*pairs):
    return [f"/api/entry/{entry}/event/{gameweek}/picks" for entry, gameweek in pairs]


FIRST, SECOND, THIRD = [(1, 1), (2, 1), (3, 1)], [(1, 2), (2, 2), (3, 2)], [(1, 3), (2, 3), (3, 3)]
MISSING = picks((1, 3), (1, 0), (1, 6), (4, 1), (0, 1), (5, 1))
play(
    {
        "begun": picks((1, 1)),
        "first": picks(*FIRST, (1, 2), (3, 2)),
        "second": picks(*FIRST, *SECOND) + MISSING,
        "moved": picks(*FIRST, *SECOND),
        "third": picks(*THIRD),
    }
)
