# The answers to each view.
from managers import answer
from targets import IDS, TARGETS, targets, without_route

for name in TARGETS:
    for target in 2 * targets(name, IDS):
        answer("409 Conflict", '{"error":"rule","rule":4}')
    for turn in range(2):
        answer("401 Unauthorized", '{"error":"key"}')
    for turn in range(2):
        answer("405 Method Not Allowed", '{"error":"method"}')
    for target in without_route(name):
        answer("404 Not Found", '{"error":"unknown"}')
