"""A stream while it is made: its pieces so far, the clock, and how a request is written, spoiled and sent."""
from typing import NamedTuple

from bodies import LAST_MOMENT
from host import Host
from messages import session
from spoiling import Raw, spoiled_body, spoiled_member, spoiled_target, written_object

OPERATOR = "operator1"


class Piece(NamedTuple):
    """Bytes of a stream, mostly one request; what the clock tells meanwhile; and the model's answers."""

    moment: int
    data: bytes
    answers: bytes


class Telling:
    """A clock that tells these moments and keeps which it was asked for. Where one cannot be told it tells the last one again."""

    def __init__(self):
        self.told, self.asked = 0, []

    def tell(self, moment):
        self.asked.append(moment)
        if 0 <= moment <= LAST_MOMENT:
            self.told = moment
        return self.told


class Asking:
    """The model plays along, so that most requests are ones that it does."""

    def __init__(self, chance):
        self.chance = chance
        self.host = Host(OPERATOR)
        self.now = chance.choice([0, 1, 500, 5000])
        self.has_strange_clock = chance.random() < 0.1
        self.pieces, self.status, self.is_over = [], 0, False
        self.clock = Telling()
        self.sent = {}  # by caller the last command that was sent, which may be wrong
        self.wrong, self.fancy = 0.06, 0.1  # how many commands are made wrong, and how many requests are written in odd ways

    # Sending

    def send(self, data):
        """Sends bytes, unless the session is over."""
        if self.is_over:
            return
        moment = self.now
        if self.has_strange_clock and self.chance.random() < 0.02:
            # below 0 the clock cannot be read, and behind the last moment it tells nothing
            moment = self.chance.choice([-1, -self.now, LAST_MOMENT + 1, 2**62, LAST_MOMENT + self.now, -(2**40)])
        answers, status = session(self.host, data, lambda place: self.clock.tell(moment))
        self.pieces.append(Piece(moment, data, b"".join(answers)))
        if status or any(b"\r\nConnection: close\r\n" in it for it in answers):
            self.is_over, self.status = True, status

    def key_field(self, key, is_fancy):
        chance = self.chance
        name = chance.choice(["Fpl-Key", "fpl-key", "FPL-KEY"]) if is_fancy else "Fpl-Key"
        front = chance.choice(["", " ", "\t ", "  "]) if is_fancy else " "
        return f"{name}:{front}{key}{chance.choice(['', ' ', chr(9)]) if is_fancy else ''}"

    def length_field(self, body, is_fancy):
        chance, length = self.chance, str(len(body))
        if is_fancy and chance.random() < 0.3:
            length = length.zfill(chance.randint(1, 10))
        name = chance.choice(["Content-Length", "content-length", "CONTENT-length"]) if is_fancy else "Content-Length"
        return f"{name}: {length}"

    def other_fields(self):
        """Fields that mean nothing to the host."""
        some = ["X-A: b", "Accept: */*", "Expect: 100-continue", "Connection: keep-alive", "X-Empty:", "Connection: keep-alive, close"]
        some += ["X-U: é", "Fpl-Keys: operator1", "!#$%&'*+-.^_`|~: x", "Connection: closed", 'X: "a\\\t:b"']
        return [self.chance.choice(some) for _ in range(self.chance.choice([0, 0, 1, 2, 5, 60]))]

    def message(self, method, target, key, body=None):
        chance = self.chance
        is_fancy = chance.random() < self.fancy
        end = "\n" if is_fancy and chance.random() < 0.3 else "\r\n"
        fields = [] if key is None else [self.key_field(key, is_fancy)]
        fields += [] if body is None else [self.length_field(body, is_fancy)]
        front = ""
        if is_fancy:
            fields += self.other_fields()
            chance.shuffle(fields)
            front = chance.choice(["", "", "\r\n", "\n", "\r\n\n\r\n"])
        lines = [f"{method} {target} HTTP/1.1", *fields, ""]
        return (front + "".join(line + end for line in lines)).encode() + (body or b"")

    def key_of(self, caller):
        return OPERATOR if caller == 0 else self.host.entries[caller - 1].key

    def get(self, target, caller=0):
        self.send(self.message("GET", target, self.key_of(caller)))

    # Commands

    def do(self, caller, target, pairs):
        """A command with these members, perhaps made wrong in one respect."""
        chance, key, number = self.chance, self.key_of(caller), self.host.last_number(caller) + 1
        if chance.random() >= self.wrong:
            return self.command("POST", target, key, pairs, number, caller)
        way = chance.choice(["number", "member", "member", "key", "target", "method", "body", "twice"])
        if way == "number":
            return self.command("POST", target, key, pairs, self.spoiled_number(number), caller)
        if way == "member" and pairs:
            return self.command("POST", target, key, spoiled_member(chance, pairs), number, caller)
        if way == "key":
            return self.command("POST", target, self.spoiled_key(), pairs, number, caller)
        if way == "target":
            return self.command("POST", spoiled_target(chance, target), key, pairs, number, caller)
        if way == "method":
            method = chance.choice(["GET", "PUT", "DELETE", "post", "HEAD", "PATCH", "OPTIONS", "X"])
            return self.command(method, target, key, pairs, number, caller)
        if way == "twice":
            return self.with_member_twice(caller, target, key, pairs, number)
        if way == "body":
            return self.send(self.message("POST", target, key, spoiled_body(chance, [("number", number), *pairs])))
        return self.command("POST", target, key, pairs, number, caller)

    def spoiled_number(self, number):
        near = [number - 1, number - 1, number - 2, number + 1, number + 2, 0, 2**63 - 1, 2**63, 2**64, -1]
        texts = [Raw("1.0"), Raw("1e0"), Raw("-0"), None, "1", True, Raw(f"{number}.0"), Raw("1e400"), Raw("01"), Raw("+1")]
        return self.chance.choice(near + texts)

    def spoiled_key(self):
        known = self.chance.choice([OPERATOR] + [entry.key for entry in self.host.entries])
        return self.chance.choice([None, "nokey123", "", "operator1x", "Operator1", OPERATOR, "é", "a" * 65, known])

    def with_member_twice(self, caller, target, key, pairs, number):
        chance, pairs = self.chance, list(pairs)
        name, value = [("number", number), *pairs][chance.randrange(len(pairs) + 1)]
        other = (name, chance.choice([None, 1, "x", [], {}, Raw("1.5"), value]))
        is_front = chance.random() < 0.5
        if name == "number":
            pairs = [other, *pairs, ("number", number)] if is_front else [("number", number), *pairs, other]
            return self.send_members("POST", target, key, pairs)
        return self.command("POST", target, key, [other, *pairs] if is_front else [*pairs, other], number, caller)

    def command(self, method, target, key, pairs, number, caller):
        """The members with the number before them, perhaps in another order and with one that no route knows."""
        chance, pairs = self.chance, [("number", number), *pairs]
        if number is None and chance.random() < 0.5:
            pairs = pairs[1:]
        if chance.random() < self.fancy:
            if len({name for name, _ in pairs}) == len(pairs):
                chance.shuffle(pairs)
            if chance.random() < 0.4:
                place = chance.randrange(len(pairs) + 1)
                name = chance.choice(["x", "", "Number", "numbers", "é", "note"])
                pairs.insert(place, (name, chance.choice([1, None, "n", [1, [2]], {"number": 5}, True])))
        self.sent[caller] = (target, pairs)
        self.send_members(method, target, key, pairs)

    def send_members(self, method, target, key, pairs):
        body = written_object(self.chance, pairs, self.chance.random() < self.fancy).encode()
        self.send(self.message(method, target, key, body))

    def repeat(self, caller):
        """The command that the caller sent last again, written anew."""
        if caller not in self.sent:
            return
        chance, (target, pairs) = self.chance, self.sent[caller]
        pairs = list(pairs)
        if chance.random() < 0.5 and len({name for name, _ in pairs}) == len(pairs):
            chance.shuffle(pairs)
        if target == "/season" and chance.random() < 0.7:
            profiles = [value for name, value in pairs if name == "profile"]
            if 1 in profiles:
                pairs = [it for it in pairs if it[0] != "profile"]
            elif not profiles:
                pairs.append(("profile", chance.choice([1, 1, 2])))
        body = written_object(chance, pairs, chance.random() < 0.3).encode()
        self.send(self.message("POST", target, self.key_of(caller), body))

    # The clock

    def locked_now(self):
        """How many gameweeks would be locked if something was asked."""
        return max(self.host.locked, self.host.passed(self.now))

    def tick(self, pace):
        """Moves the clock: mostly little, sometimes onto a deadline or over it, sometimes back."""
        chance, host = self.chance, self.host
        draw = chance.random()
        is_over = host.has_season and host.next_gameweek() is None
        if not host.has_season or is_over:
            self.now = min(LAST_MOMENT, self.now + chance.randrange(3))
            if draw < 0.02 and is_over:
                self.now = chance.choice([0, self.now, LAST_MOMENT])
            return
        deadline = host.deadlines[host.locked]
        if draw < pace:
            self.now = chance.choice([deadline - 1, deadline, deadline, deadline + 1, deadline + 5400, deadline - 1])
            if chance.random() < 0.05:
                self.now = host.deadlines[chance.randrange(host.locked, host.gameweeks)]
        elif draw < pace + 0.05:
            self.now = max(0, self.now - chance.choice([1, 100, 10000, 50000]))
        else:
            self.now += chance.choice([0, 0, 0, 1, 2, 10])
