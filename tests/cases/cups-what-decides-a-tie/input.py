# Four cups of the same two entries, under one sheet after another.
from managers import OPERATOR, SQUAD, ask, begin, do, enter, manager, register

begin()
enter(2)
do(OPERATOR, "/players", id=19, name="P19", position="M", club=6, price=50)
register(1, captain=10, vice=5)
register(2, captain=5, vice=10, players=[17 if player == 9 else player for player in SQUAD])
do(manager(2), "/chip", chip="bench_boost")
for slots in [1, 2], [2, 1]:
    for coin in 0, 1:
        do(OPERATOR, "/cups", start=1, slots=slots, coins=[coin])


def line(player, minutes=90, goals=0, assists=0, conceded=1, penalty_saves=0, own_goals=0, key_passes=0):
    figures = [minutes, goals, assists, conceded, 0, penalty_saves, 0, 0, 0, own_goals]
    return {"player": player, "figures": figures + 4 * [0] + [key_passes] + 13 * [0]}


def under(*others, without=(), finished=False):
    """These lines, and a plain one of each other player of the two elevens, and then the winners."""
    named = [one["player"] for one in others]
    plain = [line(player) for player in (*range(1, 12), 17) if player not in (*named, *without)]
    do(OPERATOR, "/fixtures/1/sheet", lines=[*plain, *others], finished=finished)
    for cup in (1, 2, 3, 4):
        ask(f"/cups/{cup}", OPERATOR)


under()
under(line(17, goals=1))
under(line(9, goals=1, own_goals=2), line(17, assists=1))
under(line(9, goals=3), line(17, assists=5))
under(line(9, goals=1, conceded=9), line(17, penalty_saves=1))
under(line(9, conceded=2))
under(line(10, goals=1), line(5, assists=1, conceded=0))
under(line(13, goals=1, own_goals=3))
takers = [line(player, key_passes=99) for player in (16, 18, 19)]
under(line(13, goals=1, own_goals=2), line(17, own_goals=1), *takers, without=[9], finished=True)
for entry in (1, 2):
    ask(f"/entries/{entry}/gameweeks/1", OPERATOR)
