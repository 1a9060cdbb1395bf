# Bodies of the operator and of a manager of which a member is wrong, and the greatest numbers that are read.
from managers import FIRST, OPERATOR, SQUAD, ask, begin, is_refused

CLUBS = [{"id": 1, "name": "A"}]
SEASON = {"deadlines": [5400], "split": 1, "clubs": CLUBS}
TEAM = {"players": SQUAD, "captain": 10, "vice": 5}


def is_malformed(key, target, body):
    ask(target, key, body, "POST")


begin()
for profile in (0, 3, "2", None):
    is_refused(OPERATOR, "/season", **SEASON, profile=profile)
is_refused(OPERATOR, "/season", **SEASON, profile=2)
for key in ("manager", 65 * "m", "Manager1", 12345678, None):
    is_refused(OPERATOR, "/keys", key=key, name="")
for name in ("", 65 * "n", 1, None):
    is_refused(OPERATOR, "/keys", key="manager03", name=name)
for players in (SQUAD[:14], [*SQUAD, 16], [0, *SQUAD[1:]], [1000000, *SQUAD[1:]], "1", None):
    for target in ("/squad", "/lineup"):
        is_refused(FIRST, target, players=players, captain=0, vice=0)
for captain in (0, 1000000, "10", None):
    is_refused(FIRST, "/squad", **(TEAM | {"captain": captain, "vice": 0}))
is_refused(FIRST, "/squad", **(TEAM | {"vice": 0}))
is_refused(FIRST, "/lineup", players=SQUAD, captain=10)
for swaps in ([], 16 * [{"out": 1, "in": 2}], [{"out": 1, "in": 0}], [{"out": 0, "in": 2}], [{"out": 1}], [[1, 2]], {"out": 1, "in": 2}, None):
    is_refused(FIRST, "/transfers", swaps=swaps)
for chip in ("none", "Wildcard", "", 1, None):
    is_refused(FIRST, "/chip", chip=chip)
is_malformed(FIRST, "/chip/cancel", "{}")
is_malformed(FIRST, "/chip/cancel", '{"number":9223372036854775808}')
is_malformed(FIRST, "/chip/cancel", '{"number":9223372036854775807}')
is_malformed(OPERATOR, "/prices", '{"number":25,"player":1,"price":-0}')
is_malformed(OPERATOR, "/prices", '{"number":1e0,"player":1,"price":50}')
is_malformed(OPERATOR, "/prices", '{"number":26,"player":1,"price":65535}')
is_malformed(OPERATOR, "/prices", '{"number":26,"player":999999,"price":50}')
is_malformed(OPERATOR, "/prices", '{"number":"x","player":"y","price":50,"number":26,"player":1,"more":[{}]}')
