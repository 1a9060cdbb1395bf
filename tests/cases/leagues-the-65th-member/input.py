# 65 entries, 64 of which are members of a head-to-head league.
from managers import OPERATOR, ask, begin, do, enter, is_refused, join, league, manager, register

begin()
enter(*range(2, 66))
for entry in range(1, 66):
    register(entry, captain=10, vice=5)
league(1, "head", start=1)
for entry in range(64, 1, -1):
    join(entry, 1)
is_refused(manager(65), "/leagues/1/join", code="code2")
is_refused(manager(65), "/leagues/1/join", code="code1")
ask("/leagues/1", OPERATOR)
league(1, "classic", start=1)
for entry in range(65, 1, -1):
    join(entry, 2)
for _ in range(18):
    league(65, "head", start=1)
is_refused(manager(65), "/leagues/1/join", code="code1")
league(65, "head", start=1)
is_refused(manager(65), "/leagues/1/join", code="code1")
is_refused(OPERATOR, "/leagues/1/draw", order=[*range(2, 65), 65])
do(OPERATOR, "/leagues/1/draw", order=[*range(2, 65), 1])
ask("/leagues/1", manager(65))
ask("/leagues/2", manager(65))
