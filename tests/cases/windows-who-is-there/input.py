# Who asks what is there, before a season, in its first gameweek and behind it.
from managers import OPERATOR, ask, begin, do, enter, is_refused, join, league, line, manager, register

WINDOWS = ["me", "entries", "leagues", "cups", "fixtures/1/sheet"]
for window in WINDOWS:
    ask(f"/api/{window}/", OPERATOR)
begin()
enter(2, 3)
register(1, captain=10, vice=5)
league(1, "classic", start=1, name="Office")
league(1, "head", start=3, code="code2", name="Lunch")
do(OPERATOR, "/fixtures/1/sheet", lines=[line(2, goals=1), line(1, minutes=45)], finished=True)
register(2, captain=10, vice=5)
join(2, 1)
join(2, 2, code="code2")
for end in "", "/":
    for window in WINDOWS:
        ask(f"/api/{window}{end}", manager(1))
    ask(f"/api/my-leagues{end}", manager(1))
do(OPERATOR, "/leagues/2/draw", order=[2, 1])
do(OPERATOR, "/cups", start=4, slots=[1, 0, 2, 0], coins=[0, 0, 1])
for target in "me", "leagues", "cups", "fixtures/2/sheet", "fixtures/9/sheet", "my-leagues":
    ask(f"/api/{target}/", OPERATOR)
for entry in 2, 3:
    ask("/api/me/", manager(entry))
    ask("/api/my-leagues", manager(entry))
is_refused(OPERATOR, "/api/entries/")
ask("/api/entries//", OPERATOR)
ask("/api/", OPERATOR)
ask("/api/fixtures/01/sheet", OPERATOR)
