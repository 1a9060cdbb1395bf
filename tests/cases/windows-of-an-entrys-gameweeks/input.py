# The histories of entries 1 to 3, and who is not there.
from views import play

ALL = [f"/api/entry/{entry}/history" for entry in (1, 2, 3)]
MORE = ["/api/entry/4/history", "/api/entry/5/history"]
play({"begun": ALL, "first": ALL, "second": ALL + MORE, "corrected": ALL, "moved": ALL, "third": ALL})
