# The season, its 18 players and five fixtures, the entries, and what is refused behind them.
from managers import answer

for number in range(1, 25):
    answer("200 OK", f'{{"done":{number}}}')
for entry in range(1, 2049):
    answer("201 Created", f'{{"done":{entry + 24},"entry":{entry}}}')
answer("409 Conflict", '{"error":"rule","rule":33}')
answer("409 Conflict", '{"error":"rule","rule":33}')
answer("409 Conflict", '{"error":"rule","rule":32}')
answer("401 Unauthorized", '{"error":"key"}')
