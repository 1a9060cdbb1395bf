# The answers, one behind another.
from managers import answer


def done(number, **made):
    made = "".join(f',"{kind}":{id}' for kind, id in made.items())
    answer("201 Created" if made else "200 OK", f'{{"done":{number}{made}}}')


def unknown():
    answer("404 Not Found", '{"error":"unknown"}')


def malformed(field):
    answer("400 Bad Request", f'{{"error":"malformed","field":"{field}"}}')


def refused(rule, player):
    answer("409 Conflict", f'{{"error":"rule","player":{player},"rule":{rule}}}')


def player(number, name, position):
    answer("200 OK", f'{{"club":6,"gone":false,"id":{number},"name":"{name}","position":"{position}","price":50}}')


for number in range(1, 25):
    done(number)
done(25, entry=1)

done(26)
done(26)
answer("409 Conflict", '{"error":"rule","last":26,"rule":2}')
player(16, "Sixteen", "M")
done(27)

for _ in range(6):
    unknown()
malformed("position")
malformed("name")
malformed("name")
malformed("position")
answer("403 Forbidden", '{"error":"caller"}')

done(1)
refused(65, 10)
done(28)

done(2)
refused(65, 6)
refused(65, 16)
done(3)
refused(65, 16)

done(29)
done(30)
refused(65, 18)
done(31)
done(32)
done(33)
player(18, "Eighteen", "M")
player(17, "P17", "F")

done(4)
refused(24, 17)
