# Other keys of entries, and whose the old ones are.
from managers import FIRST, OPERATOR, SECOND, SQUAD, ask, begin, do, is_refused, join, last, league

begin()
do(OPERATOR, "/keys", key=SECOND, name="Second")
do(FIRST, "/squad", players=SQUAD, captain=10, vice=5)
do(SECOND, "/squad", players=SQUAD, captain=5, vice=10)
league(1, "classic", 1)
join(2, 1)

# what is refused
is_refused(OPERATOR, "/keys/2", key=FIRST, name="Second")
is_refused(OPERATOR, "/keys/2", key=OPERATOR, name="Second")
is_refused(OPERATOR, "/keys/3", key=OPERATOR, name="Third")
is_refused(OPERATOR, "/keys/0", key="another01", name="Nobody")
is_refused(OPERATOR, "/keys/4294967295", key="another01", name="Nobody")
is_refused(OPERATOR, "/keys/4294967296", key="another01", name="Nobody")
is_refused(OPERATOR, "/keys/01", key="another01", name="Nobody")
is_refused(OPERATOR, "/keys/3", key="another", name="Third")
is_refused(OPERATOR, "/keys/2", key="another01", name="")
is_refused(OPERATOR, "/keys/2", name="Second")
is_refused(FIRST, "/keys/1", key="another01", name="First")
ask("/keys/1", OPERATOR)

# another key: it acts once, and the old one is nobody's
do(OPERATOR, "/keys/1", key="another01", name="First again")
last[OPERATOR] -= 1
do(OPERATOR, "/keys/1", key="another01", name="First again")
last[OPERATOR] -= 1
is_refused(OPERATOR, "/keys/1", key="another01", name="First")
last[OPERATOR] += 1
ask("/api/me/", FIRST)
do("nobody", "/chip", chip="bench_boost")
ask("/api/me/", "another01")
ask("/leagues/1", SECOND)

# its numbers go on, and its last command is answered again
last["another01"] = 1
do("another01", "/leagues", kind="classic", name="League", code="code1", start=1)
do("another01", "/chip", chip="bench_boost")

# the same key again, with another name and with the same
do(OPERATOR, "/keys/1", key="another01", name="Once more")
do(OPERATOR, "/keys/1", key="another01", name="Once more")

# the old key goes to the second entry, whose own goes to a third one, and the first gets it back at last
do(OPERATOR, "/keys/2", key=FIRST, name="Second")
ask("/api/me/", FIRST)
ask("/api/me/", SECOND)
do(OPERATOR, "/keys", key=SECOND, name="Third")
ask("/api/me/", SECOND)
is_refused(OPERATOR, "/keys/1", key=FIRST, name="First")
do(OPERATOR, "/keys/2", key="another02", name="Second")
do(OPERATOR, "/keys/1", key=FIRST, name="First")
ask("/api/me/", FIRST)
ask("/api/me/", "another01")
ask("/api/me/", "another02")
ask("/leagues/1", FIRST)
