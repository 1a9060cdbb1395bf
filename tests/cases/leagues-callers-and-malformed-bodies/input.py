# Requests about leagues and cups from wrong callers and with wrong bodies.
from managers import OPERATOR, ask, begin, is_refused, league, manager, register

FIRST = manager(1)
begin()
register(1, captain=10, vice=5)
league(1, "head", start=1)
is_refused(OPERATOR, "/leagues", kind="classic", name="L", code="code1", start=1)
is_refused(OPERATOR, "/leagues/1/join", code="code1")
is_refused(FIRST, "/leagues/1/draw", order=[1])
is_refused(FIRST, "/cups", start=0)
ask("/leagues", FIRST)
ask("/cups", OPERATOR)
ask("/leagues/1/join", FIRST)
ask("/leagues/1/draw", OPERATOR)
is_refused(FIRST, "/leagues/1", code="code1")
is_refused(OPERATOR, "/cups/1", start=1)
ask("/leagues/01", FIRST)
ask("/leagues/1/draw/2", OPERATOR)
ask("/leagues/1", OPERATOR)
ask("/leagues/2", OPERATOR)
ask("/cups/1", OPERATOR)

LEAGUE = {"kind": "classic", "name": "L", "code": "code1", "start": 1}
WRONG = [
    ("kind", ["cup", "Classic", "", 1, None]),
    ("name", ["", 65 * "n", 33 * "é", "a\tb", 1, None]),
    ("code", ["abc", "abcdefghijklmnopq", "Code1", "code 1", "code-1", 12345, None]),
    ("start", [0, 39, -1, 1.0, "1", None]),
]
for member, values in WRONG:
    for value in values:
        is_refused(FIRST, "/leagues", **(LEAGUE | {member: value}))
is_refused(FIRST, "/leagues", kind="cup", name="", code="", start=0)
is_refused(FIRST, "/leagues", kind="head", name="", code="", start=0)
is_refused(FIRST, "/leagues", kind="head", name="L", code="", start=0)
for member in LEAGUE:
    is_refused(FIRST, "/leagues", **{name: value for name, value in LEAGUE.items() if name != member})
is_refused(FIRST, "/leagues", **(LEAGUE | {"name": 64 * "n", "code": "abcd", "start": 38}))
is_refused(FIRST, "/leagues", **(LEAGUE | {"name": 32 * "é", "code": "abcdefghijklmnop", "start": 38}))
for code in ["abc", "CODE1", None]:
    is_refused(FIRST, "/leagues/1/join", code=code)
is_refused(FIRST, "/leagues/1/join")
for order in [1, None, "1", [0], [4294967296], [-1], ["1"], [1.0], 65 * [1]]:
    is_refused(OPERATOR, "/leagues/1/draw", order=order)
is_refused(OPERATOR, "/leagues/1/draw")
is_refused(OPERATOR, "/leagues/1/draw", order=64 * [1])
is_refused(OPERATOR, "/leagues/1/draw", order=[4294967295])
for start in [0, 39, None]:
    is_refused(OPERATOR, "/cups", start=start, slots=[-1], coins=[2])
for slots in [1, None, [-1], [4294967296], [None], ["0"], 1025 * [0]]:
    is_refused(OPERATOR, "/cups", start=1, slots=slots, coins=[2])
for coins in [0, None, [2], [-1], [False], [None], 1025 * [0]]:
    is_refused(OPERATOR, "/cups", start=1, slots=[], coins=coins)
is_refused(OPERATOR, "/cups", slots=[1, 0], coins=[0])
is_refused(OPERATOR, "/cups", start=1, coins=[0])
is_refused(OPERATOR, "/cups", start=1, slots=[1, 0])
is_refused(OPERATOR, "/cups", start=1, slots=1024 * [0], coins=1024 * [1])
is_refused(OPERATOR, "/cups", start=1, slots=[4294967295], coins=[])
