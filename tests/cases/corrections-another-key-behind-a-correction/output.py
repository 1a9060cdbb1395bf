# The answers: points by the rules, 2 for each player who played, 4 for each goal of a forward.
from managers import answer


def done(number, **made):
    made = "".join(f',"{kind}":{id}' for kind, id in made.items())
    answer("201 Created" if made else "200 OK", f'{{"done":{number}{made}}}')


def table(*rows):
    rows = ",".join(f'{{"entry":{entry},"name":"{name}","rank":{rank},"total":{total},"transfers":0}}' for entry, name, rank, total in rows)
    answer("200 OK", f'{{"kind":"classic","name":"League","rows":[{rows}],"start":1}}')


for number in range(1, 25):
    done(number)
done(25, entry=1)
done(26, entry=2)
done(1)
done(1)
done(2, league=1)
done(2)
done(27)
table((1, "First", 1, 24), (2, "Second", 1, 24))
done(28)
done(29)
table((1, "First", 1, 24 + 2 * 8), (2, "Second again", 2, 24 + 8))
answer("401 Unauthorized", '{"error":"key"}')
done(30)
table((1, "First", 1, 24), (2, "Second again", 1, 24))
