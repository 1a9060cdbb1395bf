# Gameweeks of all players, and those that the season does not have.
from views import play

BOTH = ["/api/event/1/live", "/api/event/2/live"]
MORE = ["/api/event/0/live", "/api/event/5/live", "/api/event/6/live"]
play({"begun": BOTH, "first": BOTH, "second": [*BOTH, "/api/event/3/live", *MORE], "corrected": BOTH, "moved": BOTH})
