# Names and positions that are put right, and who is in use.
from managers import FIRST, OPERATOR, SQUAD, ask, begin, do, is_refused, last, line

begin()

# before anybody has had him: it acts once
do(OPERATOR, "/players/16", name="Sixteen", position="M")
last[OPERATOR] -= 1
do(OPERATOR, "/players/16", name="Sixteen", position="M")
last[OPERATOR] -= 1
is_refused(OPERATOR, "/players/16", name="Sixteen", position="D")
last[OPERATOR] += 1
ask("/players/16", FIRST)
do(OPERATOR, "/players/10", name="Ten", position="F")

# what is refused
for player in ("0", "99", "1000000", "4294967295", "4294967296", "016"):
    is_refused(OPERATOR, f"/players/{player}", name="Nobody", position="M")
is_refused(OPERATOR, "/players/16", name="Sixteen", position="X")
is_refused(OPERATOR, "/players/16", name="", position="M")
is_refused(OPERATOR, "/players/16", position="M")
is_refused(OPERATOR, "/players/16", name="Sixteen")
is_refused(FIRST, "/players/16", name="Sixteen", position="M")

# in a first squad
do(FIRST, "/squad", players=SQUAD, captain=10, vice=5)
is_refused(OPERATOR, "/players/10", name="Ten", position="M")
do(OPERATOR, "/players/10", name="Ten again", position="F")

# by transfers
do(FIRST, "/transfers", swaps=[{"out": 6, "in": 16}])
is_refused(OPERATOR, "/players/6", name="P6", position="D")
is_refused(OPERATOR, "/players/16", name="Sixteen", position="D")
do(FIRST, "/transfers", swaps=[{"out": 16, "in": 6}])
is_refused(OPERATOR, "/players/16", name="Sixteen", position="D")

# with a line, and without it
do(OPERATOR, "/players/17", name="P17", position="F")
do(OPERATOR, "/fixtures/1/line", **line(18))
is_refused(OPERATOR, "/players/18", name="P18", position="M")
do(OPERATOR, "/players/18", name="Eighteen", position="F")
do(OPERATOR, "/fixtures/1/drop", player=18)
do(OPERATOR, "/players/18", name="Eighteen", position="M")
ask("/players/18", FIRST)
ask("/players/17", FIRST)

# by the new positions
do(FIRST, "/transfers", swaps=[{"out": 8, "in": 18}])
is_refused(FIRST, "/transfers", swaps=[{"out": 9, "in": 17}])
