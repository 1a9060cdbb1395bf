#!/usr/bin/env python3
"""What a store costs: a command through `pipe` without one and over one, beside what SQLite takes to commit the same rows;
and opening a large store, beside the sqlite3 shell that reads the same rows.

usage: keeper.py PROGRAM [COMMANDS [RECORDS]]
COMMANDS (1000) prices are set over a season of 600 players, each of which commits two records, and then a tenth as many
sheets of 49 lines, each of which takes the place of one with 49 others and so commits a hundred. Instructions are those of
a run with them less those of one without, by valgrind's callgrind, a command; for SQLite those of the sqlite3 shell, which
puts and deletes the same rows in one transaction, with prepared statements' parameters as literals. Seconds are of whole
runs, each commit synced to the disk that TMPDIR lies on. Then a store of some RECORDS (900000) records is made by this
script, which `pipe` opens on an empty input and the shell reads in the order of its keys: seconds of processor, and the peak
of memory.
"""
import os
import re
import resource
import sqlite3
import subprocess
import sys
import tempfile
import time
from pathlib import Path

PROGRAM = Path(sys.argv[1]).resolve()
COMMANDS = int(sys.argv[2]) if len(sys.argv) > 2 else 1000
RECORDS = int(sys.argv[3]) if len(sys.argv) > 3 else 900000
PLAYERS = 600
LINES = 49  # of a sheet
RECORD = "kind INTEGER NOT NULL, a INTEGER NOT NULL, b INTEGER NOT NULL, c INTEGER NOT NULL, body BLOB NOT NULL, PRIMARY KEY (kind, a, b, c)"
LINE = "a INTEGER NOT NULL, b INTEGER NOT NULL, c INTEGER NOT NULL, body BLOB NOT NULL, PRIMARY KEY (a, b, c)"


def post(target, number, members):
    body = f'{{"number":{number},{members}}}'
    return f"POST {target} HTTP/1.1\r\nFpl-Key: operator1\r\nContent-Length: {len(body)}\r\n\r\n{body}"


def season(deadline):
    asked = [post("/season", 1, f'"deadlines":[{deadline}],"split":1,"clubs":[' + ",".join(f'{{"id":{c},"name":"Club {c}"}}' for c in range(1, 21)) + "]")]
    return asked + [post("/players", p + 1, f'"id":{p},"name":"Player {p}","position":"M","club":{p % 20 + 1},"price":50') for p in range(1, PLAYERS + 1)]


def prices(count):
    return [post("/prices", PLAYERS + 2 + n, f'"player":{n * 7 % PLAYERS + 1},"price":{51 + n % 100}') for n in range(count)]


def sheets(count):
    """A season whose gameweek is locked at the second message, since its deadline has passed, and the sheets of its fixture."""
    asked = [*season(1000000), post("/fixtures", PLAYERS + 2, '"id":1,"home":1,"away":2,"gameweek":1,"kickoff":2000000')]
    figures = ",".join(["90"] + ["0"] * 27)
    for n in range(count):
        lines = ",".join(f'{{"player":{p},"figures":[{figures}]}}' for p in lined_up(n))
        asked.append(post("/fixtures/1/sheet", PLAYERS + 3 + n, f'"lines":[{lines}],"finished":false'))
    return "".join(asked).encode()


def lined_up(n):
    """The players of the n-th sheet."""
    first = 1 + n % 2 * LINES
    return range(first, first + LINES)


def number(n, size):
    return n.to_bytes(size, "big")


def rows_of(n):
    """The two rows that the n-th price puts."""
    player, price = n * 7 % PLAYERS + 1, 51 + n % 100
    name = f"Player {player}".encode()
    body = bytes([2, player % 20 + 1]) + number(price, 2) + bytes([0, len(name)]) + name
    last = number(PLAYERS + 2 + n, 8) + number(200, 2) + number(0, 4) + bytes([4]) + number(player, 8) + number(price, 8)
    return (3, player, 0, 0, body), (12, 0, 0, 0, last)


def script(count):
    """What the shell is told: the season's rows, and a transaction for each price."""
    put = lambda row: f"INSERT INTO record VALUES ({row[0]},{row[1]},{row[2]},{row[3]},x'{row[4].hex()}') ON CONFLICT DO UPDATE SET body = excluded.body;"
    lines = ["PRAGMA journal_mode = WAL;", "PRAGMA synchronous = FULL;", f"CREATE TABLE IF NOT EXISTS record ({RECORD}) STRICT;", "BEGIN;"]
    lines += [put((3, p, 0, 0, rows_of(0)[0][4])) for p in range(1, PLAYERS + 1)] + ["COMMIT;"]
    for n in range(count):
        one, two = rows_of(n)
        lines += ["BEGIN;", put(one), put(two), "COMMIT;"]
    return "\n".join(lines).encode()


def sheet_script(count):
    """What the shell is told: the tables, and a transaction for each sheet."""
    lines = ["PRAGMA journal_mode = WAL;", "PRAGMA synchronous = FULL;", f"CREATE TABLE record ({RECORD}) STRICT;", f"CREATE TABLE line ({LINE}) STRICT;"]
    put = lambda table, row: f"INSERT INTO {table} VALUES ({','.join(str(it) for it in row[:-1])},x'{row[-1].hex()}') ON CONFLICT DO UPDATE SET body = excluded.body;"
    for n in range(count):
        last = number(PLAYERS + 3 + n, 8) + number(200, 2) + number(0, 4) + bytes([9]) + bytes(12 + 60 * LINES)
        lines += ["BEGIN;", put("record", (12, 0, 0, 0, last)), put("record", (4, 1, 0, 0, bytes([1, 2, 1]) + number(2000000, 8) + bytes([0])))]
        lines += [f"DELETE FROM line WHERE a = 1 AND b = {p} AND c = 0;" for p in lined_up(n + 1)]
        lines += [put("line", (1, p, 0, number(90, 2) + bytes(54))) for p in lined_up(n)] + ["COMMIT;"]
    return "\n".join(lines).encode()


def ran(words, data, place, counted):
    """The instructions of a run, or its seconds."""
    words = ["valgrind", "--tool=callgrind", "--callgrind-out-file=/dev/null", *words] if counted else words
    began = time.monotonic()
    run = subprocess.run(words, input=data, stdout=subprocess.PIPE, stderr=subprocess.PIPE, cwd=place, check=True)
    if counted:
        return int(re.search(rb"Collected : (\d+)", run.stderr)[1])
    return time.monotonic() - began


def cost(words, data_of, counted, most):
    """A command's part of it."""
    found = []
    for count in (0, most):
        with tempfile.TemporaryDirectory() as place:
            found.append(ran(words, data_of(count), place, counted))
    return (found[1] - found[0]) / most


def commands(what, stream, told, most):
    pipe = [str(PROGRAM), "pipe", "--key", "operator1"]
    runs = {"pipe in memory": (pipe, stream), "pipe over a store": ([*pipe, "--store", "s"], stream), "sqlite3 shell": (["sqlite3", "s"], told)}
    found = {name: (cost(words, data, True, most), cost(words, data, False, most)) for name, (words, data) in runs.items()}
    for name, (counted, seconds) in found.items():
        print(f"{name}: {counted:,.0f} instructions and {seconds * 1000:.3f} ms a {what}")
    one, other = found["pipe over a store"], found["sqlite3 shell"]
    print(f"over a store {one[0] / other[0]:.2f} times the instructions of SQLite, and {one[1] / other[1]:.2f} times its time")


def large(path):
    """A store of a season at its limits: the lines of 380 fixtures, entries with a team in each gameweek, and transfers."""
    store = sqlite3.connect(path)
    store.execute(f"CREATE TABLE record ({RECORD}) STRICT")
    store.execute(f"CREATE TABLE line ({LINE}) STRICT")
    players, gameweeks, entries = 1200, 38, 2048
    squad = [1, 301, 302, 303, 304, 601, 602, 603, 604, 901, 902, 2, 305, 605, 903]
    rows = [(1, 0, 0, 0, bytes([1, gameweeks, 19, gameweeks]) + b"".join(number(1000000 * g, 8) for g in range(1, gameweeks + 1)))]
    rows += [(2, c, 0, 0, bytes([2]) + b"C" + bytes([64 + c])) for c in range(1, 21)]
    rows += [(3, p, 0, 0, bytes([(p - 1) // 300, (p - 1) % 20 + 1]) + number(50, 2) + bytes([0, 1]) + b"P") for p in range(1, players + 1)]
    for f in range(1, 381):
        g = (f - 1) // 10 + 1
        rows.append((4, f, 0, 0, bytes([f % 20 + 1, (f + 1) % 20 + 1, g]) + number(1000000 * g + 5400, 8) + bytes([1])))
    lines = [(f, p, 0, number(90, 2) + bytes(54)) for f in range(1, 381) for p in range(1, 65)]
    team = b"".join(number(p, 4) + number(50, 2) for p in squad) + bytes([2, 3]) + number(250, 4) + bytes([0])
    there = len(rows) + len(lines) + 2 * entries
    for e in range(1, entries + 1):
        key = f"key{e:08}".encode()
        rows.append((6, e, 0, 0, bytes([1, len(key)]) + key + bytes([1]) + b"E"))
    each = (RECORDS - there) // entries  # how many teams and transfers an entry has
    for e in range(1, entries + 1):
        left = each
        for g in range(1, gameweeks + 1):
            if left < 1 and g > 1:
                break
            rows.append((7, e, g, 0, team))
            left -= 1
            # pairs of transfers that bring back who went: at most 20, and as many as 1,000 in the first gameweek
            most = min(left - (gameweeks - g), 1000 if g == 1 else 20) // 2 * 2
            for n in range(0, max(most, 0), 2):
                out, into = squad[14], 904
                rows.append((8, e, g, n + 1, number(out, 4) + number(into, 4) + number(50, 2) + number(50, 2)))
                rows.append((8, e, g, n + 2, number(into, 4) + number(out, 4) + number(50, 2) + number(50, 2)))
                left -= 2
    with store:
        store.executemany("INSERT INTO record VALUES (?,?,?,?,?)", rows)
        store.executemany("INSERT INTO line VALUES (?,?,?,?)", lines)
    store.close()
    return len(rows) + len(lines)


def child(words, data, place):
    """Seconds of processor and the peak of memory, in MiB, of a run that has to end well."""
    pid = os.fork()
    if pid == 0:
        os.chdir(place)
        source = os.open("input", os.O_RDONLY)
        os.dup2(source, 0)
        os.dup2(os.open("/dev/null", os.O_WRONLY), 1)
        os.execvp(words[0], words)
    _, status, used = os.wait4(pid, 0)
    if status != 0:
        sys.exit(f"{words[0]} ended with {os.waitstatus_to_exitcode(status)}")
    return used.ru_utime + used.ru_stime, used.ru_maxrss / 1024


def opening():
    with tempfile.TemporaryDirectory() as place:
        place = Path(place)
        count = large(place / "s")
        (place / "input").write_bytes(b"")
        ours = child([str(PROGRAM), "pipe", "--key", "operator1", "--store", "s"], b"", place)
        (place / "input").write_bytes(b"SELECT * FROM record ORDER BY kind, a, b, c;\nSELECT * FROM line ORDER BY a, b, c;\n")
        shell = child(["sqlite3", "s"], b"", place)
        size = sum(it.stat().st_size for it in place.iterdir())
        print(f"opening {count:,} records ({size / 2**20:.0f} MiB): {ours[0]:.2f} seconds and {ours[1]:.0f} MiB; the sqlite3 shell reads them in {shell[0]:.2f} and {shell[1]:.0f}")


commands("price", lambda count: "".join(season(253402300000) + prices(count)).encode(), script, COMMANDS)
commands("sheet", sheets, sheet_script, max(COMMANDS // 10, 1))
opening()
