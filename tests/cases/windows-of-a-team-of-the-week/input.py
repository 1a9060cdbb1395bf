# Teams of the week.
from views import play

BOTH = ["/api/dream-team/1", "/api/dream-team/2"]
MORE = ["/api/dream-team/0", "/api/dream-team/5", "/api/dream-team/6"]
play({"begun": BOTH, "first": BOTH, "second": BOTH + MORE, "corrected": BOTH, "moved": BOTH, "third": ["/api/dream-team/3"]})
