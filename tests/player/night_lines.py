"""The lines of a night, as one way goes over them."""
import http.client
import sqlite3
import subprocess

from player import night_looks
from player.common import own_folder
from player.night_texts import moment, occurrence, operation, short_moment
from player.night_turns import is_answer, turn_of
from player.night_ways import Unanswered


# what a program that fails, or that tells what none should, leads to
FAULTS = (Unanswered, OSError, RuntimeError, ValueError, LookupError, http.client.HTTPException, subprocess.SubprocessError,
          sqlite3.Error)


class Otherwise(Exception):
    """A line that goes otherwise."""

    def __init__(self, file, line, wanted, got):
        super().__init__(wanted, got)
        self.file, self.line, self.wanted, self.got = file, line, wanted, got


class Play:
    """A night, or a beginning, by one way, from line to line."""

    def __init__(self, way, file, begun):
        self.way = way
        self.file = file
        self.begun = begun          # gives the way after the beginning of a name
        self.keys = ""
        self.before = {}
        self.rows = way.rows()

    def take(self, line):
        """Takes a line, if it goes as it says."""
        try:
            wanted, got = self.judged(line.text)
        except FAULTS as fault:
            wanted, got = line.text, f"{type(fault).__name__}: {fault}"
        if wanted != got:
            raise Otherwise(self.file, line.number, wanted, got)

    def judged(self, text):
        """What a line is to tell, and what it tells."""
        turn = turn_of(text)
        if turn:
            got = self.way.answer(turn)
            self.look_again()
            return turn.told, turn.told if is_answer(turn.told, got) else got
        word, _, rest = text.partition(" ")
        if word in LINES:
            return LINES[word](self, rest)
        told = rest.split()
        return " ".join([*told[:1], *map(short_moment, told[1:])]), night_looks.of_operation(self.way, self.rows, word, rest)

    def look_again(self):
        """Looks at the tables behind a line that may change them."""
        self.before, self.rows = self.rows, self.way.rows()

    def set_keys(self, keys):
        """Takes what the plan has from there on."""
        self.keys = keys
        return keys, keys

    def change(self, change, *told):
        """Changes the tables."""
        change(*told)
        self.look_again()
        return told, told

    def opening(self, wanted, told):
        """Whether a desk is opened over the tables, or over a copy that SQL has changed; damaged ones have to stay."""
        if told:
            return self.opening_of_copy(wanted, told.removeprefix("by "))
        got = opening(self.way)
        self.look_again()
        return wanted, got

    def opening_of_copy(self, wanted, text):
        """The same of the copy."""
        with own_folder() as folder:
            copy = self.way.copy_to(folder / "copy")
            copy.change(text)
            try:
                return wanted, opening(copy)
            finally:
                copy.let_go()

    def like(self, name):
        """What the tables hold after a beginning, and what they hold."""
        return told_apart(self.begun(type(self.way), name).rows(), self.rows)

    def row(self, told):
        """Whether a table has a row."""
        return told, told if night_looks.has_row(self.rows, told) else "no such row"

    def why(self, told):
        """What is told of an operation; or, where a desk can't be asked, what it is to be."""
        key, _, at = told.split()[:3]
        got = self.way.why(key, at)
        return told, told if got is None else " / ".join(got)

    def no_why(self, told):
        """The refusal of the same."""
        key, at, refusal = told.split(" ", 2)
        got = self.way.why(key, at)
        return refusal, refusal if got is None else refused(got)

    def no_operation(self, name):
        """The refusal of an operation that isn't there."""
        return "refused 5", refused(self.way.why(operation(name), moment(night_looks.clock(self.way, self.rows))))


def refused(lines):
    """A refusal without its name; or all that is told in its place."""
    words = lines[0].split()
    return " ".join(words[:2]) if len(lines) == 1 and words[0] == "refused" else " / ".join(lines)


def opening(way):
    """Whether a desk is opened over its tables, or they are damaged, and stay."""
    before = way.rows()
    told = way.opening()
    return "changed" if told == "damaged" and way.rows() != before else told


def told_apart(wanted, got):
    """What the rows of some tables have alone, and what those of others have."""
    one = {(table, row) for table, rows in wanted.items() for row in rows}
    other = {(table, row) for table, rows in got.items() for row in rows}
    return str(sorted(one - other, key=str)[:3]), str(sorted(other - one, key=str)[:3])


# what a line of this word is to tell, and what it tells
LINES = {
    "keys": Play.set_keys,
    "sql": lambda play, text: play.change(play.way.change, text),
    "tables": lambda play, text: play.change(play.way.change, text),
    "fresh": lambda play, text: play.change(play.way.empty),
    "opened": lambda play, told: play.opening("opened", told),
    "damaged": lambda play, told: play.opening("damaged", told),
    "like": Play.like,
    "row": Play.row,
    "changes": lambda play, told: (told, night_looks.changed(play.before, play.rows)[0]),
    "gone": lambda play, told: (told, night_looks.changed(play.before, play.rows)[1]),
    "why": Play.why,
    "no-why": Play.no_why,
    "shows": lambda play, told: night_looks.shows(play.way, play.rows, play.keys, told),
    "ready": lambda play, told: (told, night_looks.ready(play.way, told)),
    "occurrence": lambda play, told: (told, night_looks.counts(play.way, play.rows, told)),
    "clock": lambda play, told: (told, night_looks.clock(play.way, play.rows)),
    "no-plan": lambda play, _: ("refused 3", refused(play.way.report("occurrences"))),
    "no-workstation": lambda play, name: ("refused 7", refused(play.way.report("ready", name))),
    "no-occurrence": lambda play, name: ("refused 6", refused(play.way.operations(occurrence(name)))),
    "no-operation": Play.no_operation,
}
