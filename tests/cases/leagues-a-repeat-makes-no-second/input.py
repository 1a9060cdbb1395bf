# Commands about leagues and cups that are sent again.
from managers import OPERATOR, ask, begin, do, enter, is_refused, join, last, league, manager, register


def numbered(number, key, target, /, **members):
    last[key] = number - 1
    do(key, target, **members)


def again(key, target, /, **members):
    """A command of the last number once more."""
    numbered(last[key], key, target, **members)


LEAGUE = {"kind": "head", "name": "L", "code": "code1", "start": 1}
CUP = {"start": 1, "slots": [2, 1], "coins": [0]}
begin()
enter(2)
register(1, captain=10, vice=5)
register(2, captain=10, vice=5)
do(manager(1), "/leagues", **LEAGUE)
again(manager(1), "/leagues", **LEAGUE)
again(manager(1), "/leagues", start=1, code="code1", name="L", kind="head", note="ignored")
ask("/leagues/2", manager(1))
again(manager(1), "/leagues", **(LEAGUE | {"code": "code2"}))
again(manager(1), "/leagues", **(LEAGUE | {"kind": "classic"}))
join(2, 1)
again(manager(2), "/leagues/1/join", code="code1")
again(manager(2), "/leagues/1/join", code="code2")
again(manager(1), "/leagues", **LEAGUE)
do(OPERATOR, "/leagues/1/draw", order=[2, 1])
again(OPERATOR, "/leagues/1/draw", order=[2, 1])
again(OPERATOR, "/leagues/1/draw", order=[1, 2])
is_refused(OPERATOR, "/leagues/1/draw", order=[2, 1])
again(manager(2), "/leagues/1/join", code="code1")
is_refused(manager(2), "/leagues/1/join", code="code1")
do(OPERATOR, "/cups", **CUP)
again(OPERATOR, "/cups", **CUP)
again(OPERATOR, "/cups", **(CUP | {"coins": [1]}))
again(OPERATOR, "/cups", **(CUP | {"slots": [1, 2]}))
again(manager(1), "/leagues", **LEAGUE)
again(OPERATOR, "/cups", **CUP)
ask("/leagues/2", manager(1))
ask("/cups/2", manager(1))
is_refused(manager(1), "/leagues", **LEAGUE)
again(manager(1), "/leagues", **LEAGUE)
numbered(1, manager(1), "/leagues", **LEAGUE)
numbered(4, manager(1), "/leagues", **LEAGUE)
numbered(3, manager(1), "/leagues", **(LEAGUE | {"start": 2}))
do(manager(1), "/leagues", **(LEAGUE | {"start": 2}))
again(manager(1), "/leagues", **(LEAGUE | {"start": 2}))
ask("/leagues/3", manager(2))
ask("/leagues/4", manager(2))
ask("/leagues/1", manager(2))
