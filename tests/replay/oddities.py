"""Heads, bodies and targets of all sorts: right ones, wrong ones, and such of which it is hard to say."""
from bodies import ROUTES
from spoiling import flipped

IDS = [
    *("0", "1", "2", "01", "00", "-1", "+1", "", "1.0", "4294967295", "4294967296", "9999999999", "10000000000", "0000000001"),
    *("18446744073709551617", "1%20", "a", "é", "1/", "1?", "1#", "%31", "٣", "1e0", "0x1"),
]
NO_ROUTES = [
    *("/", "/entries", "/entries/ID", "/chip/ID", "/players/ID/gameweeks", "/fixtures/ID/move/ID", "/Season", "/SEASON", "/season/"),
    *("//season", "/./season", "/season//", "/fixtures/ID/ID", "/fixtures/move", "/fixtures//move", "/leagues/join", "/leagues/ID/table"),
]
METHODS = [b"get", b"PUT", b"", b"G T", b"GE\x7f", b"!#$%&'*+-.^_`|~", b"GET\t", b"\xc3\xa9"]
TARGETS = [
    *(b"/me", b"/players/1", b"*", b"", b"/a b", b"/\x80", b"/\xc3\xa9", b"/\xed\xa0\x80", b"/\x7f", b"/\x01", b'/<>"{}|\\^`'),
    *(b"http://a/season", b"/season?x"),
]
VERSIONS = [b"HTTP/1.0", b"HTTP/1.2", b"HTTP/2", b"http/1.1", b"HTTP/1.1 ", b"HTTP/1", b"", b"HTTP/1.10", b"XTTP/1.1"]
FIELD_NAMES = [
    *(b"fpl-key", b"content-length", b"connection", b"Transfer-Encoding", b"Expect", b"X" * 100, b"", b"X Y", b"X:", b" X", b"\tX"),
    *(b"X\x00", b"X\xc3\xa9", b"!#$%&'*+-.^_`|~", b"(X)", b"X "),
]
FIELD_VALUES = {
    b"fpl-key": [b"operator1", b" operator1 ", b"operator1\t", b"operator2", b""],
    b"content-length": [
        *(b"5", b"0", b"05", b"0000000005", b"00000000005", b"+5", b"5 ", b"5,5", b"", b"262144", b"262145", b"9999999999", b"-1"),
        *(b"0x5", b"5\x0b", b"\xd9\xa5"),
    ],
    b"connection": [b"keep-alive", b"close", b"CLOSE", b"keep-alive, close", b"close, x", b" close\t", b""],
}
OTHER_VALUES = [b"a", b"", b"a b", b"\x80\xff", b"\xc3\xa9", b"a\x00", b"a\x7f", b"a\x01", b"a\tb", b"a\rb", b":", b"a" * 300]
EXPONENTS = [
    *("", "0", "1", "5", "00", "290", "291", "305", "307", "308", "309", "310", "330", "400", "99999999999999999999"),
    *("2147483648", "4294967296"),
]
LETTERS = [
    *("a", "é", "😀", "\\n", '\\"', "\\/", "\\\\", "\\b", "\\f", "\\r", "\\t", "\\u0041", "\\u00E9", "\\uD83D\\uDE00", "\\ud83d"),
    *("\\ude00", "\\u000", "\\uzzzz", "\\u+041", "\\U0041", "\\'", "\\x41", "\\0", "\t", "\n", "\x00", "\x1f", "\x7f", "'"),
    *("\\ud800\\u0041", "\\ud800x", "\\udbff\\udfff", "\\ud83d\\ud83d\\ude00", "\u2028", "\\u 041"),
]
WORDS = ["True", "nul", "NaN", "Infinity", "-Infinity", "nan", "truee", "undefined", "", "null\x00"]
SPACES = ["", " ", "\n", "\t", "\r", "\r\n ", "\x0b", "\x0c", "\u00a0", "\ufeff", "/**/", "//x\n"]


def mostly(chance, usual, share, others):
    """The usual value, and in this share of cases one of the others."""
    return chance.choice(others) if chance.random() < share else usual


# Targets


def odd_targets(windows):
    """Each target with each id in each place, and some that no route has; below /api/ only these."""
    targets = []
    for target in [it for it in [*ROUTES, *NO_ROUTES] if not it.startswith("/api/") or it.rstrip("/") in windows]:
        places = target.split("ID")
        for place in range(1, len(places)):
            targets += ["1".join(places[:place]) + id + "1".join(places[place:]) for id in IDS]
        targets += [] if len(places) > 1 else [target]
    return targets


# Heads


def line_end(chance, share):
    return mostly(chance, chance.choice([b"\r\n", b"\r\n", b"\n"]), share / 4, [b"\r", b"\r\r\n"])


def odd_field(chance, share):
    name = mostly(chance, chance.choice([b"X", b"Accept", b"Connection"]), share, FIELD_NAMES)
    values = FIELD_VALUES.get(name.lower(), OTHER_VALUES)
    value = mostly(chance, values[0], share, values)
    colon = mostly(chance, b":", share / 4, [b"", b" :", b"::"])
    return name + colon + chance.choice([b" ", b"", b"\t", b"  "]) + value + line_end(chance, share)


def odd_head(chance):
    """A message with a body of five bytes, mostly; a share of its parts is odd."""
    share = chance.choice([0, 0.01, 0.05, 0.2])
    front = mostly(chance, chance.choice([b"", b"\r\n", b"\n", b"\n\r\n"]), share, [b" ", b"\r"])
    parts = [mostly(chance, it, share, odd) for it, odd in ((b"GET", METHODS), (b"/season", TARGETS), (b"HTTP/1.1", VERSIONS))]
    first = mostly(chance, b" ", share / 4, [b"  ", b"\t"]).join(parts) + line_end(chance, share)
    fields = [b"Fpl-Key: operator1\r\n", b"Content-Length: 5\r\n"]
    count = mostly(chance, chance.randrange(5), share, [0, 60, 61, 62, 63, 64])
    fields += [odd_field(chance, share) for _ in range(count)]
    chance.shuffle(fields)
    head = first + b"".join(fields[mostly(chance, 0, share, [1, 2]) :])
    if chance.random() < share:
        size = chance.choice([8191, 8192, 8193]) - len(head) - len(b"Y: \r\n\r\n")
        head += b"Y: " + b"y" * size + b"\r\n"
    head += mostly(chance, chance.choice([b"\r\n", b"\n"]), share, [b"", b"\r", b" \r\n"])
    message = front + head + mostly(chance, b"hello", share, [b"", b"hell", b"hello\r\n", b"hello\r"])
    return flipped(chance, message) if chance.random() < share else message


# Bodies


def digits(chance, count):
    return "".join(chance.choice("0123456789") for _ in range(count))


def odd_number(chance):
    text = chance.choice(["", "", "", "-"]) if chance.random() < 0.9 else chance.choice(["+", "--"])
    long = digits(chance, chance.choice([1, 2, 17, 18, 19, 20, 21, 40, 300, 308, 309, 310, 400])).lstrip("0") or "0"
    text += chance.choice(["0", "1", "00", "01", long, long, ""])
    if chance.random() < 0.4:
        text += "." + chance.choice(["", "0", digits(chance, chance.choice([1, 5, 20, 320])), "0" * 320 + "1"])
    if chance.random() < 0.5:
        text += chance.choice("eE") + chance.choice(["", "", "+", "-", "+-"]) + chance.choice(EXPONENTS)
    return text


def odd_text(chance):
    letters = "".join(chance.choice(LETTERS) for _ in range(chance.randrange(8)))
    return mostly(chance, '"%s"', 0.1, ['"%s', '%s"', "'%s'"]) % letters


def odd_space(chance):
    return mostly(chance, "", 0.1, SPACES)


def odd_value(chance, depth=0):
    draw = chance.random()
    if draw < 0.3:
        return odd_number(chance)
    if draw < 0.55:
        return odd_text(chance)
    if draw < 0.7 or depth > 4:
        return mostly(chance, chance.choice(["true", "false", "null"]), 0.3, WORDS)
    comma = odd_space(chance) + "," + odd_space(chance)
    values = [odd_value(chance, depth + 1) for _ in range(chance.randrange(4))]
    if draw < 0.85:
        return "[" + comma.join(values) + mostly(chance, "]", 0.1, [",]", "", "}"])
    colon = mostly(chance, ":", 0.1, ["=", "", " : "])
    return "{" + comma.join(odd_text(chance) + colon + value for value in values) + mostly(chance, "}", 0.1, ["", "]", ",}"])


def deep_value(chance):
    """Lists and objects about as deep as they may be."""
    opened = [chance.choice(["[", '{"a":']) for _ in range(chance.choice([100, 125, 126, 127, 128]))]
    closed = ["]" if it == "[" else "}" for it in reversed(opened)]
    return "".join(opened) + chance.choice(["1", '"[[["', "[]", "{}"]) + "".join(closed)


def odd_body(chance):
    """A command of three members, mostly, in which something is odd."""
    value = deep_value(chance) if chance.random() < 0.03 else odd_value(chance)
    body = chance.choice([
        '{"number":1,"player":1,"gone":true,"z":' + value + "}",
        '{"number":1,"player":1,"gone":true,"z":1,"z":' + value + ',"z":2}',
        '{"number":1,"player":' + value + ',"gone":true}',
        '{"number":' + odd_number(chance) + ',"player":1,"gone":true}',
        '{"number":1,"player":1,"gone":true,' + odd_text(chance) + ":1}",
        odd_space(chance) + value + odd_space(chance),
    ]).encode("utf-8")
    if chance.random() < 0.05:
        place = chance.randrange(len(body) + 1)
        body = body[:place] + bytes([chance.choice([0x80, 0xFF, 0xC0, 0xED, 0xF4, 0xE2, 0xA0])]) + body[place:]
    return body
