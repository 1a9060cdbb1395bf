"""The records that a store has behind a run: docs/FORMATS.md, Records."""
from bodies import COMMANDS

KINDS = ("", "classic", "head")


def bytes_of(size, *numbers):
    return b"".join(number.to_bytes(size, "big") for number in numbers)


def text(value, size=1):
    """A text behind its length."""
    data = value.encode("utf-8")
    return bytes_of(size, len(data)) + data


def member(value):
    """A member of a command."""
    if isinstance(value, tuple):
        return bytes_of(2, len(value)) + b"".join(map(member_of_list, value))
    if isinstance(value, str):
        return text(value, 2)
    return bytes([value]) if isinstance(value, bool) else bytes_of(8, value or 0)


def member_of_list(value):
    """What stands in a list: an object has its members and no count."""
    return b"".join(map(member, value)) if isinstance(value, tuple) else member(value)


def command(name, ids, members):
    front = bytes_of(1, COMMANDS[name].number) + bytes_of(4, *ids)
    parts = list(map(member, members))
    if name == "season":
        parts[3] = b"\2" if members[3] == 2 else b""
    if name == "players":
        parts[2] = bytes_of(1, members[2])
    if name == "amend_player":
        parts[1] = bytes_of(1, members[1])
    if name == "chip":
        parts[0] = bytes_of(1, members[0])
    if name == "leagues":
        parts[0] = bytes_of(1, KINDS.index(members[0]))
    return front + b"".join(parts)


def of_facts(host):
    yield (1, 0, 0, 0), bytes_of(1, host.profile, host.gameweeks, host.split, host.locked) + bytes_of(8, *host.deadlines)
    for club, name in host.clubs.items():
        yield (2, club, 0, 0), text(name)
    for number, player in host.players.items():
        body = bytes_of(1, player.position, player.club) + bytes_of(2, player.price) + bytes_of(1, player.has_gone)
        yield (3, number, 0, 0), body + text(player.name)
    for number, fixture in host.fixtures.items():
        body = bytes_of(1, fixture.home, fixture.away, fixture.gameweek or 0) + bytes_of(8, fixture.kickoff)
        yield (4, number, 0, 0), body + bytes_of(1, number in host.finished)
        for player, line in host.lines.get(number, {}).items():
            yield (5, number, player, 0), bytes_of(2, *line)


def of_entries(host):
    for number, entry in enumerate(host.entries, 1):
        yield (6, number, 0, 0), bytes_of(1, host.first_gameweek(number) or 0) + text(entry.key) + text(entry.name)
        for gameweek in {event.gameweek for event in entry.events}:
            team = host.team(number, gameweek)
            picks = b"".join(bytes_of(4, player) + bytes_of(2, team.bought[player]) for player in team.players)
            body = bytes_of(1, team.captain, team.vice) + bytes_of(4, team.bank) + bytes_of(1, team.chip)
            yield (7, number, gameweek, 0), picks + body
            for place, swap in enumerate(host.swaps_in(number, gameweek), 1):
                yield (8, number, gameweek, place), bytes_of(4, swap.out, swap.into) + bytes_of(2, swap.sold, swap.paid)


def of_competitions(host):
    for number, league in enumerate(host.leagues, 1):
        body = bytes_of(1, KINDS.index(league.kind), league.start) + bytes_of(4, league.creator)
        body += bytes_of(1, len(league.order)) + bytes_of(4, *league.order)
        yield (9, number, 0, 0), body + text(league.code) + text(league.name)
        for entry in league.members:
            yield (10, number, entry, 0), b""
    for number, cup in enumerate(host.cups, 1):
        yield (11, number, 0, 0), bytes_of(1, cup.start) + bytes_of(2, len(cup.slots)) + bytes_of(4, *cup.slots) + bytes(cup.coins)


def of_last_commands(host):
    for caller, (number, asked, (status, body)) in host.last.items():
        made = next((body[name] for name in ("entry", "league", "cup") if name in body), 0)
        yield (12, caller, 0, 0), bytes_of(8, number) + bytes_of(2, status) + bytes_of(4, made) + command(*asked)


def records_of(host):
    """The records that tell a host's books, each by its kind and its key. There are none before the season."""
    if not host.has_season:
        return {}
    return {key: body for part in (of_facts, of_entries, of_competitions, of_last_commands) for key, body in part(host)}
