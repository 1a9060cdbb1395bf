# The matches of leagues 2 to 4, and leagues that are no head-to-head ones.
from views import play

MATCHES = [f"/api/leagues-h2h-matches/league/{league}" for league in (2, 3, 4)]
MORE = [f"/api/leagues-h2h-matches/league/{league}" for league in (1, 0, 5)]
play(
    {
        "begun": MATCHES,
        "first": MATCHES,
        "second": MATCHES + MORE,
        "corrected": MATCHES,
        "moved": MATCHES,
        "third": MATCHES,
        "fourth": MATCHES,
    }
)
