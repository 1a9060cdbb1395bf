# The answers, one behind another.
from managers import answer


def done(number, **made):
    made = "".join(f',"{kind}":{id}' for kind, id in made.items())
    answer("201 Created" if made else "200 OK", f'{{"done":{number}{made}}}')


def unknown():
    answer("404 Not Found", '{"error":"unknown"}')


def malformed(field):
    answer("400 Bad Request", f'{{"error":"malformed","field":"{field}"}}')


def has_facts():
    answer("409 Conflict", '{"error":"rule","fixture":1,"rule":66}')


def fixture(number, home, away, gameweek, kickoff):
    answer("200 OK", f'{{"away":{away},"finished":false,"gameweek":{gameweek},"home":{home},"id":{number},"kickoff":{kickoff},"lines":[]}}')


for number in range(1, 25):
    done(number)
done(25, entry=1)
fixture(1, 1, 2, 1, 15400)

done(26)
done(26)
answer("409 Conflict", '{"error":"rule","last":26,"rule":2}')
fixture(1, 3, 4, 1, 15400)
done(27)

for _ in range(8):
    unknown()
malformed("away")
malformed("home")
malformed("away")
malformed("home")
answer("403 Forbidden", '{"error":"caller"}')

done(28)
has_facts()
has_facts()
done(29)
done(30)
done(31)
has_facts()
done(32)
done(33)
fixture(1, 1, 6, 1, 15400)

done(34)
done(35)
done(36)
fixture(2, 5, 6, "null", 33333)
