# The sheets of the two fixtures. Who is not named has no points; all concede once, so nobody keeps a clean sheet.
#
# Gameweek 1, member 1 owns 1 and 2; 6 to 10; 18 to 22; 30 to 32: 2 for the goalkeeper; 8, 2, 2, 2 of five defenders;
# 7, 2, 2, 2 of five midfielders; 6, 2 of three forwards: 2 + 14 + 13 + 8 = 37 in 4-4-2.
# Member 2 owns 3 and 4; 11, 12, 13, 16, 15; 23, 24, 25, 28, 27; 33 to 35: 2 for the goalkeeper; 8, 2, 2, 2 and -2;
# 12, 7, 5, 1 and 0; 6, 2, 2: 2 + 14 + 24 + 10 = 50 in 4-3-3.
# Gameweek 2: member 1 has 36 in the place of 32, who scores 6; member 2 has 16, who scores 2.
# So the totals are 37 + 6 = 43 and 50 + 2 = 52. What 36 did in gameweek 1, and 14 in both, counts for nobody.
import json


def figures(minutes, goals=0, assists=0, red=0, own=0):
    return [minutes, goals, assists, 1, 0, 0, 0, 0, red, own] + [0] * 18


def sheet(fixture, number, lines):
    body = json.dumps({"number": number, "lines": [{"player": p, "figures": f} for p, f in lines], "finished": False},
                      separators=(",", ":"))
    print(f"POST /fixtures/{fixture}/sheet HTTP/1.1\r\nFpl-Key: operator1\r\nContent-Length: {len(body)}\r\n\r\n{body}",
          end="\r\n")


plain = figures(90)
sheet(1, 44, [
    (1, plain), (3, plain),
    (6, figures(90, goals=1)), (7, plain), (8, plain), (9, plain),
    (11, plain), (12, plain), (13, plain), (14, figures(90, goals=2)), (15, figures(30, red=1)), (16, figures(90, goals=1)),
    (18, figures(90, goals=1)), (19, plain), (20, plain), (21, plain), (22, figures(90, own=1)),
    (23, figures(90, goals=2)), (24, figures(90, assists=1)), (25, figures(30)), (28, figures(90, goals=1)),
    (30, figures(90, goals=1)), (31, plain),
    (33, plain), (34, plain), (35, figures(90, goals=1)), (36, figures(90, goals=2)),
])
sheet(2, 45, [(14, figures(90, goals=2)), (16, plain), (36, figures(90, goals=1))])
