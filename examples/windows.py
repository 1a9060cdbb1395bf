#!/usr/bin/env python3
"""The ten best players, a league's table with its movement, and a manager's transfers: windows.py URL KEY [LEAGUE [ENTRY]]"""
import json
import sys
from urllib.request import Request, urlopen

url, key, league, entry = (sys.argv[1:] + ["1", "1"])[:4]


def look(view):
    return json.load(urlopen(Request(f"{url.rstrip('/')}/api/{view}/", headers={"Fpl-Key": key})))


season = look("bootstrap-static")
names, clubs = ({it["id"]: it[name] for it in season[of]} for of, name in (("elements", "web_name"), ("teams", "short_name")))
for it in sorted(season["elements"], key=lambda it: -it["total_points"])[:10]:
    name, each, held = f"{it['web_name']}, {clubs[it['team']]}", it["points_per_game"], it["selected_by_percent"]
    print(f"{it['total_points']:5} {name}, {each} a match, held by {held}%")
for it in look(f"leagues-classic/{league}/standings")["standings"]["results"]:
    moved = (it["last_rank"] or it["rank"]) - it["rank"]
    print(f"{it['rank']:5} {'↑' if moved > 0 else '↓' if moved else '='} {it['entry_name']} {it['total']}")
for it in look(f"entry/{entry}/transfers"):
    sold, bought = (f"{names[it[way]]} at {it[way + '_cost'] / 10}" for way in ("element_out", "element_in"))
    print(f"gameweek {it['event']}: {sold} for {bought}")
