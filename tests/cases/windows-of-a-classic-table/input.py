# The table of league 1, and leagues that are no classic ones.
from views import play

TABLE = ["/api/leagues-classic/1/standings"]
MORE = [f"/api/leagues-classic/{league}/standings" for league in (2, 4, 0, 5)]
play({"begun": TABLE, "first": TABLE, "second": TABLE + MORE, "corrected": TABLE, "moved": TABLE, "third": TABLE})
