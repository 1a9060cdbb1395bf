# 512 entries with their squads, and cups of 1,024 slots from gameweek 2, which is refused, and from gameweek 1.
from managers import OPERATOR, ask, begin, do, enter, is_refused, register

begin(gameweeks=10)
enter(*range(2, 513))
for entry in range(1, 513):
    register(entry, captain=10, vice=5)
slots = [slot for entry in range(1, 513) for slot in (entry, 0)]
coins = [tie % 2 for ties in (512, 256, 128, 64, 32, 16, 8, 4, 2, 1) for tie in range(ties)]
is_refused(OPERATOR, "/cups", start=2, slots=slots, coins=coins)
do(OPERATOR, "/cups", start=1, slots=slots, coins=coins)
ask("/cups/1", OPERATOR)
