# Players 3, 4 and 6, and who is not there.
from views import play

PLAYERS = [f"/api/element-summary/{player}" for player in (3, 4, 6)]
MORE = ["/api/element-summary/0", "/api/element-summary/19", "/api/element-summary/4294967295"]
play({"begun": PLAYERS, "second": PLAYERS + MORE, "corrected": PLAYERS, "moved": PLAYERS, "third": PLAYERS})
