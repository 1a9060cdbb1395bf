# Entries 1 to 3, and who is not there.
from views import play

ALL = [f"/api/entry/{entry}" for entry in (1, 2, 3)]
MORE = [f"/api/entry/{entry}" for entry in (4, 0, 5)]
play({"begun": ALL, "first": ALL, "second": ALL + MORE, "corrected": ALL, "moved": ALL, "third": ALL, "fourth": ALL})
