"""How requests are written in many ways, and made wrong. What is drawn is drawn from the `chance` that is given."""
import json
import re

from bodies import LAST_MOMENT

NAMES = [
    *("A", "Kea Kickers", "é", "日本", "𝄞 clef", 'q"uote\\', "a/b", "x" * 64, "é" * 32, " ", "0", "tab?", "\u2028", "\x80"),
    *("null", "{}", "\ufeffbom", "😀" * 16),
]
BAD_NAMES = ["", "x" * 65, "é" * 33, "a\x00", "a\x1fb", "\x7f", "a\nb", "😀" * 16 + "a"]
KEY = b"Fpl-Key: operator1\r\n"
ASKING = b"GET /season HTTP/1.1\r\n" + KEY
BEGINNING = b"POST /season HTTP/1.1\r\n" + KEY


class Raw(str):
    """JSON text that is put in as it is."""


# JSON


def space(chance, is_fancy):
    return chance.choice(["", "", " ", "\n", "\t", "\r\n "]) if is_fancy else ""


def escaped(chance, letter):
    """A letter by its number, which above 65535 takes two."""
    number = ord(letter)
    if number > 0xFFFF:
        number -= 0x10000
        return "\\u%04x\\u%04X" % (0xD800 + (number >> 10), 0xDC00 + (number & 0x3FF))
    return ("\\u%04x" if chance.random() < 0.5 else "\\u%04X") % number


def written_text(chance, text, is_fancy):
    out = []
    for letter in text:
        if is_fancy and chance.random() < 0.3:
            out.append(escaped(chance, letter))
        elif letter == "/" and is_fancy and chance.random() < 0.5:
            out.append("\\/")
        else:
            out.append(json.dumps(letter, ensure_ascii=False)[1:-1])
    return '"' + "".join(out) + '"'


def written(chance, value, is_fancy):
    """A value as JSON, which is fancy where it has spaces and letters by their numbers."""
    if isinstance(value, Raw):
        return str(value)
    if isinstance(value, dict):
        return written_object(chance, list(value.items()), is_fancy)
    if isinstance(value, (list, tuple)):
        items = [space(chance, is_fancy) + written(chance, it, is_fancy) + space(chance, is_fancy) for it in value]
        return "[" + ",".join(items) + ("" if items else space(chance, is_fancy)) + "]"
    return written_text(chance, value, is_fancy) if isinstance(value, str) else json.dumps(value)


def written_object(chance, pairs, is_fancy):
    members = []
    for name, value in pairs:
        parts = [space(chance, is_fancy), written_text(chance, name, is_fancy and chance.random() < 0.2), space(chance, is_fancy)]
        parts += [":", space(chance, is_fancy), written(chance, value, is_fancy), space(chance, is_fancy)]
        members.append("".join(parts))
    return "{" + ",".join(members) + "}"


# One member, one target, one body that is wrong


def spoiled_number(chance, value):
    value = value or 1
    around = [0, -1, value + 1, 38, 39, 255, 256, 999999, 1000000, 65535, 65536, LAST_MOMENT, LAST_MOMENT + 1, 2**32 - 1, 2**32]
    far = [2**63, 2**64, 10**30, Raw(f"{value}.0"), Raw(f"{value}e0"), Raw("-0"), str(value), [value], {"a": value}, True, False]
    texts = [Raw("1e400"), Raw("1E+2"), Raw("0.1"), Raw("-1.5e-3"), Raw("9" * 310), Raw("9" * 300)]
    return chance.choice(around + far + texts)


def spoiled_text(chance):
    texts = ["abc", "a" * 17, "a" * 16, "abcd", "ABCD", "a-bc", "a" * 7, "a" * 8, "a" * 64, "a" * 65, "g", "K", "GD", "Head", "none"]
    others = ["bench boost", 5, None, True, [], ["G"], {}]
    written = ['"\\ud800"', '"\\udc00\\ud800"', '"\\ud83d\\ude00"', '"\\x"', '"a\tb"', '"\\u00e"', '"\\u0000"', '"\\/\\b"']
    return chance.choice(BAD_NAMES + NAMES + texts + others + list(map(Raw, written)))


def spoiled_list(chance, items):
    way = chance.random()
    if way < 0.2 or not items:
        lengths = [items + items, items * 8, [items], items[:-1], items + items[:1], *(items[:1] * count for count in (101, 100, 65, 1025, 39))]
        return chance.choice([[], {}, 0, "x", None, *lengths])
    place = chance.randrange(len(items))
    front, item, rest = items[:place], items[place], items[place + 1 :]
    if isinstance(item, dict) and item:
        return front + [dict(spoiled_member(chance, list(item.items())))] + rest
    if way < 0.5:
        return front + rest
    numbers = [0, -1, 999999, 1000000, 65535, 65536, 2**32 - 1, 2**32]
    others = [None, "1", [], {}, True, Raw("1.0"), Raw("1e1"), 2, LAST_MOMENT, LAST_MOMENT + 1, 10**25]
    return front + [chance.choice(numbers + others)] + rest


def spoiled_member(chance, pairs):
    """The members with one of them missing or another."""
    place = chance.randrange(len(pairs))
    name, value = pairs[place]
    kind = chance.random()
    if kind < 0.15:
        return pairs[:place] + pairs[place + 1 :]
    if kind < 0.3:
        new = None
    elif isinstance(value, bool):
        new = chance.choice([0, 1, "true", None, []])
    elif isinstance(value, int) or value is None:
        new = spoiled_number(chance, value)
    elif isinstance(value, str):
        new = spoiled_text(chance)
    else:
        new = spoiled_list(chance, list(value))
    return pairs[:place] + [(name, new)] + pairs[place + 1 :]


def spoiled_id(chance, found):
    more = str(int(found[0]) + 1)
    near = ["0", "01", "+1", "-1", "4294967295", "4294967296", "99999999999", "1a", "", "1.0", "%31", "00", more, "9999999999", "é"]
    return chance.choice(near)


def spoiled_target(chance, target):
    if re.search("[0-9]", target) and chance.random() < 0.6:
        return re.sub(r"[0-9]+", lambda found: spoiled_id(chance, found), target, count=1)
    changed = [target + "/", target + "?x=1", target + "?", "/" + target, target.upper(), target + "s", target[:-1] or "*", "/", "*"]
    changed += ["http://h" + target, target.replace("/", "//"), target + "#a", "/nowhere", target + "/1", target + "%20", "/."]
    others = ["/players/1", "/fixtures/1", "/me", "/season", "/cups/1", "/leagues/1", "/entries/1/gameweeks/1"]
    return chance.choice(changed + others)


def spoiled_body(chance, pairs):
    """The body of a command with bytes changed, or with one that is no JSON or hardly one."""
    text = written_object(chance, pairs, chance.random() < 0.3).encode()
    if chance.random() < 0.5:
        return flipped(chance, text)
    deep = chance.choice([120, 125, 126, 127, 128, 140])
    front = text[:-1]
    whole = [b"", b"{}", b"[]", b"null", b"1", b'"x"', text + b" \n", b" \t" + text, text + b"x", front, text + text]
    whole += [b"\xef\xbb\xbf" + text, text.replace(b":", b"=", 1), text.replace(b"}", b",}", 1), b"[" + text + b"]"]
    values = [b"\xff", b'"\xff"', b'"\xed\xa0\x80"', b"NaN", b"1e400", b"-1e400", b"0e999", b"1e-400", b'"\\ud800"']
    more = [b',"z":' + value + b"}" for value in values]
    more += [b',"\\ud800":1}', b',"z":"\\udbff\\udfff"}', b',"z":[' + b"[" * deep + b"]" * deep + b"]}"]
    more += [b',"z":' + b'{"a":' * deep + b"1" + b"}" * deep + b"}"]
    more += [b',"z":' + value + b"}" for value in (b"01", b"1.", b".5", b"-", b"- 1", b"tru", b"True")]
    more += [b",'z':1}"]
    values = [b'"a\nb"', b'"a\x7fb"', b'"\\a"', b'"' + b"y" * 3000 + b'"', b'"\\u12"']
    more += [b',"z":' + value + b"}" for value in values]
    more += [b"/**/}"]
    values = [b"Infinity", b"1e+5", b"1E-5", b"1e", b"123456789012345678901234567890", b"-9223372036854775809", b"18446744073709551616"]
    later = [b',"z":' + value + b"}" for value in values]
    named = [text.replace(b'"number"', b'"numbe\\u0072"'), text.replace(b'"number"', b'"Number"'), b"\x00" + text, text + b"\x00"]
    last = [front + b',"z":{"a":1,"a":"\\ud800"}}', front + b',"z":"\\ud800","z":1}']
    return chance.choice([*whole, *(front + it for it in more), b"\x0c" + text, *(front + it for it in later), *named, *last])


def flipped(chance, data):
    """A few bytes changed, put in, taken out, doubled or moved."""
    out = bytearray(data)
    for _ in range(chance.choice([1, 1, 1, 2, 3])):
        place = chance.randrange(len(out) + 1)
        byte = chance.choice(b'"\\{}[]:,0123456789.-+eE \t\n\r\x00\x1f\x7f\x80\xff\xc3\xa9\xedu/tfna')
        way = chance.randrange(6)
        if way == 0 or not out:
            out.insert(place, byte)
        elif way == 1:
            out[place % len(out)] = byte
        elif way == 2:
            del out[place % len(out)]
        elif way == 3:
            out[place % len(out)] ^= 1 << chance.randrange(8)
        else:
            end = min(len(out), place + chance.randrange(1, 12))
            out[place:end] = out[place:end] * 2 if way == 4 else b""
    return bytes(out)


# What ends a session


def fields(count):
    return b"".join(b"X%d: %d\r\n" % (place, place) for place in range(count))


def longest_head(more):
    """A head of as many bytes as it may have, and so many more."""
    front = ASKING + b"X: "
    return front + b"a" * (8192 - len(front) - 4 + more) + b"\r\n\r\n"


def closing_messages():
    return [
        b"GET /season HTTP/1.0\r\n" + KEY + b"\r\n",
        ASKING + b"Connection: close\r\n\r\n" + ASKING + b"\r\n",
        ASKING + b"connection: \tCLOSE \r\n\r\nxx",
        ASKING + b"Connection: keep-alive\r\nConnection: close\r\n\r\n",
        b"GET /nowhere HTTP/1.0\r\n\r\n",
    ]


def wrong_lengths():
    body = b'{"number":1}'
    return [
        BEGINNING + b"\r\n",
        b"POST /nowhere HTTP/1.1\r\n" + KEY + b"\r\n",
        BEGINNING + b"Content-Length: 262145\r\n\r\n",
        BEGINNING + b"Content-Length: 9999999999\r\n\r\n",
        ASKING + b"Content-Length: 262145\r\n\r\n",
        BEGINNING + b"Content-Length: 12345678901\r\n\r\n",
        BEGINNING + b"Content-Length: 00000000012\r\n\r\n" + body,
        BEGINNING + b"Content-Length: +12\r\n\r\n" + body,
        BEGINNING + b"Content-Length: \r\n\r\n" + body,
        BEGINNING + b"Content-Length: 12\r\nContent-Length: 12\r\n\r\n" + body,
        BEGINNING + b"Content-Length: 12, 12\r\n\r\n" + body,
        BEGINNING + b"Content-Length: 262144\r\n\r\n" + b" " * 262143 + b"x",
        BEGINNING + b"Transfer-Encoding: chunked\r\n\r\n",
        BEGINNING + b"transfer-encoding:\r\nContent-Length: x\r\n\r\n",
        BEGINNING + b"Content-Length: 12\r\n\r\n" + body[:-1],
        BEGINNING + b"Content-Length: 12\r\n\r\n" + body + b"\r",
    ]


def cut_and_long_heads(more):
    long = longest_head(more)
    fronts = [ASKING, b"\r\n\n\r", b"\r", b"\rGET / HTTP/1.1\r\n\r\n", b" GET / HTTP/1.1\r\n\r\n"]
    many = [ASKING + fields(63) + b"\r\n", ASKING + fields(64) + b"\r\n", ASKING + fields(64)]
    return [*fronts, *many, long, b"a" * 8192, b"a" * 8191, b"\n" * 9000 + b"a" * 8191, b"\r\n" * 5000 + long]


def wrong_lines():
    wrong = [ASKING + line + b"\r\n\r\n" for line in (b" folded: x", b"X : x", b": x", b"X")]
    firsts = [b"GET /season HTTP/2.0", b"GET /season HTTP/1.2", b"GET /season http/1.1", b"GET  /season HTTP/1.1", b"GET /season  HTTP/1.1"]
    wrong += [line + b"\r\n" + KEY + b"\r\n" for line in (*firsts, b"GET /season HTTP/1.1 ", b"GET /season")]
    wrong += [b"GET\r\n\r\n", b"G(T /season HTTP/1.1\r\n" + KEY + b"\r\n", b"GET /season\x7f HTTP/1.1\r\n" + KEY + b"\r\n"]
    wrong += [b"GET /season%s HTTP/1.1\r\n\r\n" % it for it in (b"\xff", b"\xc3\xa9")]
    lines = [b"X: a\x00b", b"X: a\x7fb", b"X: a\xffb", b"X: a\rb", b"X\xc3\xa9: a", b"X: a\x01"]
    wrong += [b"GET /season HTTP/1.1\r\n" + line + b"\r\n\r\n" for line in lines]
    ends = [b"\r\r\n\r\n", b"\r\nX: a\r\r\n\r\n", b"\n\n", b"\n\r\n", b"\r\n\n"]
    wrong += [b"GET /season HTTP/1.1" + end for end in ends]
    return [*wrong, b"GET /\"<>\\^`{|} HTTP/1.1\r\n\r\n", b"GET * HTTP/1.1\r\n\r\n", b"\x16\x03\x01\x02\x00\x01\n\n"]


def ending(chance):
    """Bytes that mostly end a session: a message that closes, no message, or a cut one."""
    more = chance.choice([-1, 0, 1])
    return chance.choice(closing_messages() + wrong_lengths() + cut_and_long_heads(more) + wrong_lines())


def flipped_head(chance):
    heads = [
        ASKING + b"X-A: b\r\n\r\n",
        b'POST /gone HTTP/1.1\r\nFpl-Key: operator1\r\nContent-Length: 0000000034\r\n\r\n{"number":1,"player":1,"gone":true}',
        b"GET /me HTTP/1.0\nfpl-key:\t operator1 \nConnection: close\n\n",
        b"\r\nGET /players/1 HTTP/1.1\r\n\r\n",
        b"GET /fixtures/1 HTTP/1.1\r\nConnection: x\r\nFpl-Key: operator1\r\n\r\n" * 2,
    ]
    return flipped(chance, chance.choice(heads))
