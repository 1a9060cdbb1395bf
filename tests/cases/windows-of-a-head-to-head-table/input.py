# The tables of leagues 2 to 4, and leagues that are no head-to-head ones.
from views import play

TABLES = [f"/api/leagues-h2h/{league}/standings" for league in (2, 3, 4)]
MORE = [f"/api/leagues-h2h/{league}/standings" for league in (1, 0, 5)]
play(
    {
        "begun": TABLES,
        "first": TABLES,
        "second": TABLES + MORE,
        "corrected": TABLES,
        "moved": TABLES,
        "third": TABLES,
        "fourth": TABLES,
    }
)
