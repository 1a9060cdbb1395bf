"""The views below /api/, and where the ids stand in their targets."""

TARGETS = [
    "bootstrap-static",
    "fixtures",
    "event/ID/live",
    "element-summary/ID",
    "dream-team/ID",
    "entry/ID",
    "entry/ID/history",
    "entry/ID/event/ID/picks",
    "entry/ID/transfers",
    "leagues-classic/ID/standings",
    "leagues-h2h/ID/standings",
    "leagues-h2h-matches/league/ID",
    "cups/ID",
]
IDS = "0", "1", "4294967295"
WRONG_IDS = "01", "-1", "4294967296", "x"


def targets(name, ids):
    """The targets of a view with each of these ids; one where it has none."""
    return [f"/api/{name.replace('ID', it)}" for it in ids] if "ID" in name else [f"/api/{name}"]


def without_route(name):
    """Targets that are like those of a view, and have no route."""
    target = targets(name, "1")[0]
    return [f"{target}//", f"{target}?page=1"] + (targets(name, WRONG_IDS) if "ID" in name else [])
