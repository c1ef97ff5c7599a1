"""Plays nights: files of requests in turn, each with its answer, and of what the desk shows afterwards.

A night begins with a line `NAME after BEGINNINGS: what it shows`; an empty line comes before the next. It is played once
after each of its beginnings (beginnings.txt beside it), or from nothing loaded. Each line below is one of these; a time
alone is one of the night that begins on 2024-03-01, an operation's number alone is PAYROLL's, AUDIT.10 is that of another
occurrence of 22:00, and `-` is an empty list:

    21:00 load STATIONS RUNS | names -      what is asked at a moment, and its answer: what is named, or `refused 9`. The
                                            text of a load, an addition or an extension is of parts (parts.txt beside)
    T1 4: 22:40 ended 10 | names 20         the same by a tracker, with its number
    keys 5 10 / PAYROLL                     all operations and all occurrences of the plan, in order, from there on
    shows SW S                              the letters of their statuses
    like LOADED                             the tables hold the same as after that beginning
    row CPU1|A|                             a table has this row, and others may
    changes meta, operation 5               the keys of the rows that are new, or differ, by the last request
    gone interval SETP 22:00                the keys of those that it took away
    sql DROP TABLE need                     the tables are changed; `tables NAME` by a text, NAME.sql; `fresh` lacks all
    opened, damaged                         a desk is opened over them; none is, and they stay
    opened by SQL, damaged by SQL           the same of a copy that is changed so
    why KEY S MOMENT / held / END 1         what is told of an operation; `no-why KEY MOMENT refused 5`, where nothing is
    clock 22:00, no-plan                    and of the plan `ready CPU1 10`, `no-workstation XXXX`
    occurrence PAYROLL 5 5 2                its priority, its operations and how many are complete; or `no-occurrence OTHER`
    latest 10 03:09                         and of an operation `latest-minute`, `waits`, `duration`, `priority`, `due`,
                                            `mark`, `held 10`, `free 10`, `no-operation 10`

There are three ways, each a case of its own: `play` has all requests at once, in memory, and no look; `do`, `load` and
`extend` have a line each over a database's file, of which the tables are looked at, and what `report` and `why` tell; `desk`
has them over HTTP, and shows what the plan is. After each line the tables have to hold the same by both of these, and in the
end what the desk shows. A night is played by the ways that know each of its lines."""
import concurrent.futures
import itertools
import os
import threading
import typing
from pathlib import Path

from player import common, night_looks, night_plays
from player.common import Failure
from player.night_lines import Otherwise, Play, told_apart
from player.night_texts import NIGHTS, Section, named, sections
from player.night_ways import ByCommands, ByDesk

BEGINNINGS = NIGHTS / "beginnings.txt"


class Case(typing.NamedTuple):
    """A night after one of its beginnings."""
    file: Path
    before: Section
    night: Section

    def lines(self):
        """All lines, those of the beginning first, each with its file."""
        return [*((BEGINNINGS, line) for line in self.before.lines), *((self.file, line) for line in self.night.lines)]

    def keys(self):
        """What the plan has after the beginning."""
        return next((line.text[len("keys "):] for line in self.before.lines if line.text.startswith("keys ")), "")

    def ways(self):
        """The ways over a database by which each request is asked."""
        has_reports = any(turn.tracker for _, turn in night_plays.turns_of(self.lines()))
        return [way for way in (ByCommands, ByDesk) if way.takes_reports or not has_reports]


class Player:
    """Plays the nights of a file."""

    def __init__(self, program, folder):
        self.program = program
        self.folder = folder
        self.parts = named(NIGHTS / "parts.txt")
        self.beginnings = {"-": Section("-", None, []), **named(BEGINNINGS)}
        self.begun = {}
        self.beginning = threading.RLock()  # one beginning is played at a time
        self.copies = itertools.count()

    def cases(self, path):
        """Each night after each of its beginnings."""
        for night in sections(path):
            befores = night.name.partition(" after ")[2] or "-"
            for before in befores.split():
                yield Case(path, self.beginnings[before], night)

    def room(self):
        """A folder that isn't there yet."""
        return self.folder / str(next(self.copies))

    def after(self, kind, name):
        """The way of a kind after a beginning, which is played once."""
        with self.beginning:
            if (kind, name) not in self.begun:
                self.begun[kind, name] = self.made(kind, name)
            return self.begun[kind, name]

    def made(self, kind, name):
        """The same, as it is played."""
        folder = self.room()
        folder.mkdir()
        way = kind(self.program, folder, self.parts)
        way.begin()
        self.go_over(Play(way, BEGINNINGS, self.after), self.beginnings[name].lines)
        return way

    def go_over(self, play, lines):
        """Takes all lines, and lets the database go."""
        try:
            for line in lines:
                play.take(line)
        finally:
            play.way.let_go()

    def by_play(self, case):
        """The failure of a night by `play`; or nothing."""
        wrong = night_plays.deviation(self.program, case.lines(), self.parts)
        if wrong is None:
            return None
        (file, line), wanted, got = wrong
        return Otherwise(file, line.number, wanted, got)

    def over_databases(self, case):
        """The failures of a night by each way over a database, which go over it side by side."""
        wrong, plays = {}, {}
        for kind in case.ways():
            try:
                way = self.after(kind, case.before.name).copy_to(self.room())
                plays[kind] = Play(way, case.file, self.after)
                plays[kind].keys = case.keys()
            except Otherwise as fault:
                wrong[kind] = fault
        try:
            for line in case.night.lines:
                self.take(case, plays, wrong, line)
            self.agree(case, plays, wrong)
        finally:
            for play in plays.values():
                play.way.let_go()
        return {kind: wrong.get(kind) for kind in case.ways()}

    def take(self, case, plays, wrong, line):
        """Takes a line by each way that has had none go otherwise; the tables have to hold the same then."""
        for kind, play in plays.items():
            if kind not in wrong:
                try:
                    play.take(line)
                except Otherwise as fault:
                    wrong[kind] = fault
        if len(plays) == 2 and not wrong:
            wanted, got = told_apart(plays[ByCommands].rows, plays[ByDesk].rows)
            if wanted != got:
                wrong[ByDesk] = Otherwise(case.file, line.number, f"by commands {wanted}", f"by a desk {got}")

    def agree(self, case, plays, wrong):
        """Holds what a desk shows in the end against the tables, where they are a plan's."""
        last, play = case.night.lines[-1], plays.get(ByDesk)
        if play is None or ByDesk in wrong or last.text == "damaged" or not play.rows["meta"][0][2]:
            return
        apart = night_looks.disagreement(play.way, play.rows)
        if apart:
            wrong[ByDesk] = Otherwise(case.file, last.number, f"shown, as the tables have it, {apart[0]}", apart[1])

    def played(self, case):
        """Each way by which a night is played, and its failure, or nothing in its place."""
        by_play = [("play", self.by_play(case))] if night_plays.can_play(case.lines()) else []
        return by_play + [(kind.name, wrong) for kind, wrong in self.over_databases(case).items()]


def play(path, program):
    """How many of a file's cases pass, and the lines that go otherwise. Its nights are played side by side."""
    with common.own_folder() as folder, concurrent.futures.ThreadPoolExecutor(os.cpu_count()) as pool:
        player = Player(program, folder)
        played = [case for cases in pool.map(player.played, player.cases(path)) for case in cases]
    failures = [Failure(wrong.file, wrong.line, repr(wrong.wanted), f"{wrong.got!r} by {way}", number)
                for number, (way, wrong) in enumerate(played, 1) if wrong]
    return len(played) - len(failures), failures
