#!/usr/bin/env python3
"""Kills `plandesk serve` again and again in a stream of numbered reports, and sees that each acted once, none lost.

    stops.py [--reports N] [--stops N] [--trackers N] [--seed N] [--desk] [--program PATH]

Some trackers report in turn that an operation of theirs has started, is interrupted, has started, and so on. At so many
of the reports the program is killed (`kill -9`), at a moment drawn by chance from what a report takes, or after one. The
C library then reads the files: each tracker's receipt has to be that of its last report that was answered, or of the one
that wasn't, and its operation has to stand as that says. Then the program is started again over the same file and port,
and one time in three it is killed again while it opens the file. Each tracker does what a tracker does that doesn't
know: it repeats its last report, byte for byte, which has to be answered as before where it was; and the one before it
is answered as old. At the end the tables have to be those of the same reports without a stop. With `--desk` it is `desk`
that is killed: after each stop its journal has to have what the tables have, and what was answered.

Exit status: 0 all is so, 1 it isn't, 2 nothing could be tried.
"""
import argparse
import random
import sqlite3
import subprocess
import sys
import tempfile
import threading
import time
from collections import Counter
from pathlib import Path
from statistics import median

from measure import MOMENT, PROGRAM, Unmeasured
from served import Served, add_desk_word, desk_words, journal_of, load, report_text, rows

OLD = (409, b'{"name":"Old","refusal":22}')
MARKS = {1: "running", 0: "interrupted"}    # after an odd and an even number of reports


class Lost(Exception):
    """A report acted twice, or not at all, or was answered differently."""


def plan_text(trackers):
    """An operation for each tracker, all on one manual workstation that has servers for all."""
    lines = ["W,SETP,S,,,,,,,", f"I,SETP,2024-03-01T22:00,2024-03-02T02:00,{trackers},0,0,,,",
             "O,PAYROLL,2024-03-01T22:00,5,2024-03-02T05:00,,,,,"]
    lines += [f"P,PAYROLL,2024-03-01T22:00,{n + 1},SETP,10,0,0,," for n in range(trackers)]
    return "\n".join(lines) + "\n"


class Tracker:
    """Its reports, each with the answer that it got, if it did."""

    def __init__(self, turn):
        self.name, self.turn = f"T{turn + 1}", turn + 1
        self.texts, self.answers = [], []

    def next_report(self):
        number = len(self.texts) + 1
        what = "started" if number % 2 else "interrupted"
        operation = f"PAYROLL/2024-03-01T22:00/{self.turn:03}"
        self.texts.append(report_text(self.name, number, MOMENT, what, operation))
        self.answers.append(None)
        return self.texts[-1]

    def take(self, answer):
        if answer[0] != 200:
            raise Lost(f"{self.name} reports {self.texts[-1]} and is answered {answer}")
        if self.answers[-1] not in (None, answer):
            raise Lost(f"{self.name} is answered {answer}, where it was {self.answers[-1]}")
        self.answers[-1] = answer

    def has_acted(self, tables):
        """Whether the tables have its last report, where it wasn't answered; what was answered has to be in."""
        number, text = next((row[1:3] for row in tables["receipt"] if row[0] == self.name), (0, b""))
        mark = next(row[9] for row in tables["operation"] if row[2] == self.turn)
        least = len(self.texts) - (self.texts != [] and self.answers[-1] is None)
        is_so = least <= number <= len(self.texts) and text == (self.texts[number - 1].encode() if number else b"")
        if not is_so or mark != (MARKS[number % 2] if number else "none"):
            raise Lost(f"{self.name} has a receipt of number {number}, {text!r}, and a mark {mark}, where {least} of "
                       f"{len(self.texts)} reports were answered")
        return number == len(self.texts)


def report_and_kill(desk, text, patience):
    """Sends a report to a desk that is killed meanwhile; the answer, or None where the connection was cut."""
    killer = threading.Timer(patience, desk.process.kill)
    killer.start()
    try:
        return desk.report(text)
    except OSError:
        return None
    finally:
        killer.join()
        desk.kill()


def kill_opening(given, folder, patience):
    """Starts the program over the file, and kills it so many seconds later, at work or listening."""
    words = [given.program, "serve", "--db", "night.db", "--port", "1", "--requests", "1"]
    if given.desk:
        words = [given.program, "desk", "--db", "night.db", "--port", "1", *desk_words(given)]
    opening = subprocess.Popen(words, cwd=folder, stdout=subprocess.DEVNULL, stderr=subprocess.DEVNULL)
    time.sleep(patience)
    opening.kill()
    return opening.wait() == -9


def judge_journal(folder, trackers, tables):
    """The journal has each report that the tables have, and the answer of each that was answered."""
    told, _ = journal_of(folder)
    asked = {entry["body"] for entry, _ in told}
    answered = {entry["body"] for entry, answer in told if answer and answer["status"] == 200}
    kept = {bytes(row[2]).decode() for row in tables["receipt"]}
    taken = {text for one in trackers for text, answer in zip(one.texts, one.answers) if answer}
    if not kept <= asked or not taken <= answered:
        raise Lost(f"the journal lacks {sorted(kept - asked)[:3]} of the tables, {sorted(taken - answered)[:3]} of what was "
                   "answered")


def recover(desk, trackers):
    """Each tracker repeats its last report, and then one of those before."""
    for tracker in trackers:
        if tracker.texts:
            tracker.take(desk.report(tracker.texts[-1]))
        if len(tracker.texts) > 1:
            answer = desk.report(tracker.texts[-2])
            if answer != OLD:
                raise Lost(f"{tracker.name} reports again {tracker.texts[-2]} and is answered {answer}")


def play(given, folder, stops):
    """Plays the reports, with a stop at each of these; how many stops fell where, and the last rows."""
    (folder / "plan.csv").write_text(plan_text(given.trackers))
    load(given.program, folder, "plan.csv", MOMENT)
    begun = time.perf_counter()
    desk = Served(given.program, folder, desk=desk_words(given))
    opening = time.perf_counter() - begun
    trackers = [Tracker(turn) for turn in range(given.trackers)]
    chance, taken, fell = random.Random(given.seed), [0.002], Counter()
    try:
        for turn in range(given.reports):
            tracker = trackers[turn % len(trackers)]
            text = tracker.next_report()
            if turn in stops:
                answer = report_and_kill(desk, text, chance.uniform(0, 1.2 * median(taken[-20:])))
                if answer is not None:
                    tracker.take(answer)
                tables = rows(folder)
                acted = [one.has_acted(tables) for one in trackers][turn % len(trackers)]
                if given.desk:
                    judge_journal(folder, trackers, tables)
                fell["after the answer" if answer else "before the answer" if acted else "before the commit"] += 1
                if chance.random() < 1 / 3:
                    fell["in an opening"] += kill_opening(given, folder, chance.uniform(0, opening))
                    if rows(folder) != tables:
                        raise Lost("the tables aren't what they were before an opening that was stopped")
                desk = Served(given.program, folder, desk.port, desk=desk_words(given))
                recover(desk, trackers)
            else:
                begun = time.perf_counter()
                tracker.take(desk.report(text))
                taken.append(time.perf_counter() - begun)
    finally:
        desk.kill()
    return fell, rows(folder)


def main():
    words = argparse.ArgumentParser(description=__doc__.splitlines()[0])
    words.add_argument("--reports", type=int, default=2000, help="reports in all")
    words.add_argument("--stops", type=int, default=200, help="at how many of them the program is killed")
    words.add_argument("--trackers", type=int, default=8, help="trackers, which report in turn: 1 to 64")
    words.add_argument("--seed", type=int, default=1, help="what chance draws the moments of the stops from")
    add_desk_word(words)
    words.add_argument("--program", type=Path, default=PROGRAM)
    given = words.parse_args()
    given.program = given.program.resolve()
    stops = set(random.Random(given.seed).sample(range(given.reports), given.stops))
    try:
        if not given.program.exists():
            raise Unmeasured(f"no program {given.program}: bin/build proves and builds it")
        with tempfile.TemporaryDirectory() as stopped, tempfile.TemporaryDirectory() as whole:
            fell, left = play(given, Path(stopped), stops)
            _, wanted = play(given, Path(whole), set())
            if left != wanted:
                raise Lost("the tables aren't those of the same reports without a stop")
        told = ", ".join(f"{count} {where}" for where, count in sorted(fell.items()))
        print(f"{given.reports} reports of {given.trackers} trackers, {given.stops} stops ({told}): each acted once, "
              "none lost")
        return 0
    except Lost as lost:
        print(f"stops: {lost}", file=sys.stderr)
        return 1
    except (Unmeasured, OSError, sqlite3.Error) as fault:
        print(f"stops: {fault}", file=sys.stderr)
        return 2


if __name__ == "__main__":
    sys.exit(main())
