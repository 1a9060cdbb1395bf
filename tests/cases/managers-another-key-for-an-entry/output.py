# The answers, one behind another.
from managers import answer

OK, CREATED, REFUSED = "200 OK", "201 Created", "409 Conflict"


def done(number, **made):
    made = "".join(f',"{kind}":{id}' for kind, id in made.items())
    answer(CREATED if made else OK, f'{{"done":{number}{made}}}')


def unknown():
    answer("404 Not Found", '{"error":"unknown"}')


def nobody():
    answer("401 Unauthorized", '{"error":"key"}')


def is_there():
    answer(REFUSED, '{"error":"rule","rule":44}')


def malformed(field):
    answer("400 Bad Request", f'{{"error":"malformed","field":"{field}"}}')


def me(entry, last, name, first):
    answer(OK, f'{{"entry":{entry},"last":{last},"name":"{name}","started_event":{first}}}')


def table(*names):
    rows = ",".join(f'{{"entry":{entry},"name":"{name}","rank":1,"total":0,"transfers":0}}' for entry, name in enumerate(names, 1))
    answer(OK, f'{{"kind":"classic","name":"League","rows":[{rows}],"start":1}}')


for number in range(1, 25):
    done(number)
done(25, entry=1)
done(26, entry=2)
done(1)
done(1)
done(2, league=1)
done(2)

is_there()
is_there()
for _ in range(5):
    unknown()
malformed("key")
malformed("name")
malformed("key")
answer("403 Forbidden", '{"error":"caller"}')
answer("405 Method Not Allowed", '{"error":"method"}')

done(27)
done(27)
answer(REFUSED, '{"error":"rule","last":27,"rule":2}')
nobody()
nobody()
me(1, 2, "First again", 1)
table("First again", "Second")

done(2, league=1)
done(3)

done(28)
done(29)

done(30)
me(2, 2, "Second", 1)
nobody()
done(31, entry=3)
me(3, 0, "Third", "null")
is_there()
done(32)
done(33)
me(1, 3, "First", 1)
nobody()
me(2, 2, "Second", 1)
table("First", "Second")
