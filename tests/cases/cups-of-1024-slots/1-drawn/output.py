# The season, its 18 players and 10 fixtures, the entries and their squads, and the cups.
from managers import answer

for number in range(1, 30):
    answer("200 OK", f'{{"done":{number}}}')
for entry in range(1, 513):
    answer("201 Created", f'{{"done":{entry + 29},"entry":{entry}}}')
for entry in range(1, 513):
    answer("200 OK", '{"done":1}')
answer("409 Conflict", '{"error":"rule","rule":40}')
answer("201 Created", '{"cup":1,"done":542}')
answer("200 OK", f'{{"rounds":[{",".join(10 * ["null"])}],"start":1}}')
