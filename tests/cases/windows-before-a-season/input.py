# Each view before there is a season: with and without the slash, without a key and with another, and what has no route.
from managers import OPERATOR, ask
from targets import IDS, TARGETS, targets, without_route

for name in TARGETS:
    for target in targets(name, IDS):
        ask(f"{target}/", OPERATOR)
        ask(target, OPERATOR, "{what is no JSON")
    target = targets(name, "1")[0]
    print(end=f"GET {target} HTTP/1.1\r\n\r\n")
    ask(f"{target}/", "manager01")
    ask(f"{target}/", OPERATOR, "{}", "POST")
    print(end=f"DELETE {target} HTTP/1.1\r\n\r\n")
    for target in without_route(name):
        ask(target, OPERATOR)
