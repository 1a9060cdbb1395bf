#!/usr/bin/env python3
"""What looks and corrections read and evaluate in the season of `generate --seed 7`, beside what they may.

usage: reads.py PROGRAM
`generate` makes the season in a store: 600 players, ten fixtures of 32 lines in one locked gameweek, and 500 entries in one
league. Each look and each correction comes to a copy of that store through `pipe`, under valgrind's callgrind. What it takes
is the difference to a run without it. Reads are the calls by which a cell is read, and evaluations those by which one gets its
value. Where `Cells::get` of `rescore_graph` is inlined, as it is today, reads are not seen, and evaluations alone are held
against their bounds. What a look or a command reads of an entry's rows and of lines counts too, but stands in no call of its
own and is not seen here. A line is put again with the figures that it has. One player comes whom nobody holds, and gets a line,
and then a goal that moves no bonus; another, who gets a goal too, is held by more entries than any other. Bounds are checked;
the status is 0 where all are kept.
"""
import shutil
import subprocess
import sys
import tempfile
from pathlib import Path

import cells
import managers

ENTRIES, LINES = 500, 32
LATE = 1_691_790_000  # the moment of the sheets, behind the deadline
NEWCOMER = 601
LAST = (1, 1, [90, 1])  # of which fixture, of whom and with which figures the last command of the season put a line
HELD = (5, 169, [90, 3])  # the same of the player who is held most, with a goal more than anybody has
# The calls by which a cell is read.
READS = (("rescore_graph::cells::Cells::get",),)
# Those by which a cell is evaluated.
EVALUATIONS = (("rescore_graph::cells::Cells::evaluate",),)
# A goal that moves no bonus of a player whom nobody holds: the line, the bonus and the player's gameweek, and no entry's.
UNHELD = 3


class Stream(managers.Stream):
    """Requests that come behind the season."""

    def __init__(self, *asks):
        self.requests, self.moments, self.refused = [], [], set()
        self.now, self.numbers = LATE, {"operator1": 1122}
        for ask in asks:
            ask(self)

    def line(self, fixture, player, figures):
        row = str(figures + [0] * (28 - len(figures))).replace(" ", "")
        self.post(f"/fixtures/{fixture}/line", "operator1", f'"player":{player},"figures":{row}')

    def comes(self):
        members = f'"id":{NEWCOMER},"name":"Newcomer","position":"D","club":1,"price":40'
        self.post("/players", "operator1", members)


class Season(cells.Season):
    """A store of the made-up season, and runs over it."""

    def __init__(self, program, folder):
        self.place = managers.Place(program, folder)
        self.used, self.kept = Path(folder) / "used", Path(folder) / "kept"
        self.used.mkdir()
        store = ["--store", str(self.used / "season")]
        self.words = [*self.place.words, *store]
        subprocess.run([program, "generate", "--seed", "7", *store], capture_output=True, check=True)
        shutil.copytree(self.used, self.kept)

    def run(self, words, stream):
        done = super().run(words, stream)
        self.answers = done.stdout
        return done


class Runs:
    """What was called in some runs, each by its name."""

    def __init__(self):
        self.calls = {}

    def add(self, run, profile):
        self.calls[run] = profile.calls

    def of(self, run, function):
        return sum(it for name, it in self.calls[run].items() if self.is_of(name, function))

    @staticmethod
    def is_of(name, function):
        behind = name[len(function) :]
        longer = behind[:1].isalnum() or behind.startswith("_") or (behind.startswith("::") and not behind.startswith("::<"))
        return name.startswith(function) and not longer

    def seen(self, functions):
        """The first of some functions of which any run has a call, if one has."""
        for function in functions:
            if any(self.of(run, function) for run in self.calls):
                return function
        return None

    def more(self, run, other, kinds):
        """How many calls of these kinds a run has beyond another one; None where no run has a call of one of the kinds."""
        names = [self.seen(functions) for functions in kinds]
        if None in names:
            return None
        return sum(self.of(run, name) - self.of(other, name) for name in names)


def shown(count):
    return "not seen" if count is None else f"{count:,}"


def runs_of(season):
    comes = [lambda it: it.comes(), lambda it: it.line(1, NEWCOMER, [10])]
    asks = {
        "opened": [],
        "again": [lambda it: it.line(*LAST)],
        "me": [lambda it: it.ask("GET", "/me", f"entrykey{ENTRIES:04}")],
        "came": comes,
        "unheld": [*comes, lambda it: it.line(1, NEWCOMER, [10, 1])],
        "held": [lambda it: it.line(*HELD)],
        "table": [lambda it: it.ask("GET", "/leagues/1", "operator1")],
    }
    runs = Runs()
    for name, those in asks.items():
        runs.add(name, season.counted(Stream(*those)))
    assert season.answers.count(b'"rank":') == ENTRIES  # of the table, which came last
    return runs


def main():
    program = str(Path(sys.argv[1]).resolve())
    with tempfile.TemporaryDirectory() as folder:
        runs = runs_of(Season(program, folder))
    bounds = (
        ("a line put again: reads", runs.more("again", "opened", READS), 2 * LINES + 8),
        ("a line put again: evaluations", runs.more("again", "opened", EVALUATIONS), 0),
        (f"the table of {ENTRIES} rows: reads", runs.more("table", "opened", READS), 3 * ENTRIES + 8),
        ("/me: reads", runs.more("me", "opened", READS), 64),
        ("a goal of whom nobody holds: evaluations", runs.more("unheld", "came", EVALUATIONS), UNHELD),
    )
    for name, count, most in bounds:
        over = count is not None and count > most
        print(f"{name}: {shown(count)}, of at most {most:,}{', and so TOO MANY' if over else ''}")
    for name, run, other in (("whom nobody holds", "unheld", "came"), ("who is held most", "held", "opened")):
        reads, evaluated = (runs.more(run, other, kinds) for kinds in (READS, EVALUATIONS))
        print(f"a goal of {name}: {shown(reads)} reads, {shown(evaluated)} evaluations")
    if all(count is None for _, count, _ in bounds):
        sys.exit(f"no run has a call of {EVALUATIONS[0][0]}")
    kept = [count <= most for _, count, most in bounds if count is not None]
    print(f"{kept.count(True)} passed, {kept.count(False)} failed")
    return 0 if all(kept) else 1


if __name__ == "__main__":
    sys.exit(main())
