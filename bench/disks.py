#!/usr/bin/env python3
"""Runs `plandesk serve` and `load` over disks that are full, files that may not grow, and files that may not be written,
and sees that the answers are those that are documented, that nothing is lost, and that the desk opens again.

    disks.py [--trials N] [--seed N] [--program PATH]

It needs root, for a small tmpfs, `chattr +i` and another user. A trial loads a plan, has trackers report so many times as
chance says, and then has the disk fail:

- full: a tmpfs has no room any more, or a few pages of it;
- limit: the process may write no file beyond a length (`RLIMIT_FSIZE`), so that a write is cut in its middle;
- sealed: the files are made immutable.

Reports go on until one isn't accepted. It has to be answered 26, and all after it 27. What was accepted before, and
nothing else but that report, is in the tables as the C library reads them. While the disk still fails an opening ends
with `fault file` or works; when it is well again the desk opens, each tracker repeats its last report, reports once more,
and the tables have to be those of the same reports on a disk that is well.

Exit status: 0 all is so, 1 it isn't, 2 nothing could be tried.
"""
import argparse
import os
import random
import resource
import shutil
import signal
import sqlite3
import subprocess
import sys
import tempfile
from collections import Counter
from pathlib import Path

from measure import MOMENT, PROGRAM, Unmeasured
from served import Served, load, rows
from stops import Lost, Tracker, plan_text, recover

STORE = (503, b'{"name":"Store","refusal":26}')
REOPEN = (503, b'{"name":"Reopen","refusal":27}')
FAULT = (3, b"", b"fault file\n")
TRACKERS, PAGE, NOBODY = 4, 4096, 65_534
MOST_REPORTS = 3000
MEGABYTES = 16


def run(words, folder, **more):
    ended = subprocess.run([str(word) for word in words], cwd=folder, capture_output=True, **more)
    return ended.returncode, ended.stdout, ended.stderr


def must(condition, what):
    if not condition:
        raise Lost(what)


class Full:
    """A tmpfs that a further file fills up."""

    def __init__(self, folder):
        self.folder = folder / "full"
        self.folder.mkdir()
        if run(["mount", "-t", "tmpfs", "-o", f"size={MEGABYTES}M", "tmpfs", self.folder], folder)[0]:
            raise Unmeasured("no tmpfs can be mounted: this needs root")

    def hurt(self, _, chance):
        room = os.statvfs(self.folder)
        left = chance.choice((0, 0, 1, 2, 5, 20))
        with open(self.folder / "filler", "wb") as filler:
            os.posix_fallocate(filler.fileno(), 0, max(1, (room.f_bavail - left) * room.f_frsize))

    def heal(self):
        (self.folder / "filler").unlink(missing_ok=True)

    def end(self):
        self.heal()
        run(["umount", self.folder], "/")


class Limit:
    """A process that may write no file beyond a length."""

    def __init__(self, folder):
        self.folder = folder / "limit"
        self.folder.mkdir()
        self.most = resource.RLIM_INFINITY

    def hurt(self, desk, chance):
        longest = max((self.folder / name).stat().st_size for name in ("night.db", "night.db-wal"))
        self.most = longest + chance.choice((0, 1, 24, 500, PAGE, 3 * PAGE + 7, -PAGE - 100))
        resource.prlimit(desk.process.pid, resource.RLIMIT_FSIZE, (self.most, resource.RLIM_INFINITY))

    def heal(self):
        self.most = resource.RLIM_INFINITY

    def end(self):
        self.heal()


class Sealed:
    """Files that are made immutable while the desk has them open."""

    def __init__(self, folder):
        self.folder = folder / "sealed"
        self.folder.mkdir()
        (self.folder / "probe").touch()
        if run(["chattr", "+i", "probe"], self.folder)[0] or run(["chattr", "-i", "probe"], self.folder)[0]:
            raise Unmeasured("no file can be made immutable: this needs root")

    def hurt(self, _, chance):
        both = ["night.db", "night.db-wal"]
        run(["chattr", "+i", *chance.choice((both, both[1:]))], self.folder)

    def heal(self):
        run(["chattr", "-i", "night.db", "night.db-wal"], self.folder)

    def end(self):
        self.heal()


class Trial:
    """A desk over a disk that fails, and its trackers."""

    def __init__(self, given, disk, chance, look):
        self.given, self.disk, self.chance, self.look = given, disk, chance, look
        self.trackers = [Tracker(turn) for turn in range(TRACKERS)]
        self.sent = 0

    def limited(self):
        """What a process is started with: the limit, if there is one now, and no death by its signal."""
        signal.signal(signal.SIGXFSZ, signal.SIG_IGN)
        if isinstance(self.disk, Limit):
            resource.setrlimit(resource.RLIMIT_FSIZE, (self.disk.most, resource.RLIM_INFINITY))

    def opened(self):
        return Served(self.given.program, self.disk.folder, preexec_fn=self.limited)

    def report(self, desk):
        """The next report, of the tracker whose turn it is; its answer."""
        tracker = self.trackers[self.sent % TRACKERS]
        self.sent += 1
        answer = desk.report(tracker.next_report())
        if answer != STORE:
            tracker.take(answer)
        return answer

    def fails(self, desk):
        """Reports until one is answered 26; then all is answered 27. How many were accepted with the disk failing."""
        for accepted in range(MOST_REPORTS):
            if self.report(desk) == STORE:
                break
        else:
            raise Lost(f"{MOST_REPORTS} reports were accepted on a disk that fails")
        asked = [("POST", "/report", self.trackers[0].texts[-1]), ("GET", "/occurrences", None),
                 ("GET", "/ready/SETP", None), ("GET", "/ready/XXXX", None),
                 ("POST", "/operator", '{"at":"2024-03-01T22:00","do":"tick"}')]
        for method, path, text in asked:
            answer = desk.ask(method, path, text)
            must(answer == REOPEN, f"after a 26 {path} is answered {answer}")
        must(desk.ask("GET", "/nothing")[0] == 404, "after a 26 a path that there isn't is answered 404")
        return accepted

    def opens_or_not(self):
        """Tries to open the desk while the disk still fails; what came of it."""
        try:
            desk = self.opened()
        except Unmeasured as fault:
            must("b'fault file\\n', status 3" in str(fault), f"an opening on a disk that fails: {fault}")
            return "not opened meanwhile"
        try:
            for tracker in self.trackers:
                if tracker.answers and tracker.answers[-1] is None:
                    answer = desk.report(tracker.texts[-1])
                    if answer not in (STORE, REOPEN):
                        tracker.take(answer)
        finally:
            desk.kill()
        return "opened meanwhile"

    def looks_right(self):
        tables = rows(self.disk.folder, self.look)
        return any([tracker.has_acted(tables) and tracker.answers[-1:] == [None] for tracker in self.trackers])

    def play(self, fell):
        for name in ("night.db", "night.db-wal", "plan.csv"):
            (self.disk.folder / name).unlink(missing_ok=True)
        (self.disk.folder / "plan.csv").write_text(plan_text(TRACKERS))
        load(self.given.program, self.disk.folder, "plan.csv", MOMENT)
        desk = self.opened()
        try:
            for _ in range(self.chance.choice((0, 1, 7, 40, 150, 240))):
                must(self.report(desk)[0] == 200, "a report on a disk that is well isn't accepted")
            self.disk.hurt(desk, self.chance)
            fell["accepted while it fails"] += self.fails(desk)
            desk.kill()
            fell["26 and in"] += self.looks_right()
            fell[self.opens_or_not()] += 1
            self.looks_right()
            self.disk.heal()
            desk = self.opened()
            recover(desk, self.trackers)
            for _ in self.trackers:
                must(self.report(desk)[0] == 200, "a report isn't accepted when the disk is well again")
        finally:
            self.disk.heal()
            desk.kill()

    def wanted(self, folder):
        """The tables that the same reports leave on a disk that is well."""
        for name in ("night.db", "night.db-wal"):
            (folder / name).unlink(missing_ok=True)
        (folder / "plan.csv").write_text(plan_text(TRACKERS))
        load(self.given.program, folder, "plan.csv", MOMENT)
        desk = Served(self.given.program, folder)
        try:
            for turn in range(self.sent):
                tracker = self.trackers[turn % TRACKERS]
                must(desk.report(tracker.texts[turn // TRACKERS])[0] == 200, "a report isn't accepted")
        finally:
            desk.kill()
        return rows(folder)


def try_serving(given, folder):
    look = folder / "look"
    look.mkdir()
    for kind in (Full, Limit, Sealed):
        disk, fell = kind(folder), Counter()
        try:
            for turn in range(given.trials):
                trial = Trial(given, disk, random.Random(f"{given.seed}/{kind.__name__}/{turn}"), look)
                trial.play(fell)
                must(rows(disk.folder, look) == trial.wanted(look), "the tables aren't those of a disk that is well")
        finally:
            disk.end()
        told = ", ".join(f"{count} {what}" for what, count in sorted(fell.items()))
        print(f"serve, {kind.__name__.lower()}: {given.trials} trials, each answered 26 and then 27, none lost ({told})",
              flush=True)


def try_loading(given, folder):
    """Loads into a full disk, with so many pages of room; and then with room enough."""
    disk, told, look = Full(folder), Counter(), folder / "look"
    look.mkdir()
    try:
        for pages in (*range(0, 60), 80, 100, 150, 200):
            for name in ("night.db", "night.db-wal", "plan.csv"):
                (disk.folder / name).unlink(missing_ok=True)
            (disk.folder / "plan.csv").write_text(plan_text(99))
            room = os.statvfs(disk.folder)
            with open(disk.folder / "filler", "wb") as filler:
                os.posix_fallocate(filler.fileno(), 0, (room.f_bavail - pages) * room.f_frsize)
            words = [given.program, "load", "--db", "night.db", "--plan", "plan.csv", "--at", MOMENT]
            first = run(words, disk.folder)
            must(first in ((0, b"accepted\n", b""), (1, b"refused 26 Store\n", b""), FAULT,
                          (3, b"accepted\n", b"fault file\n")), f"load with {pages} pages of room ends with {first}")
            disk.heal()
            again = run(words, disk.folder)
            must(again[:2] == (0, b"accepted\n") or again[:2] == (1, b"refused 4 Loaded\n") and first != FAULT,
                f"load after {first} ends with {again}")
            must(b"accepted" not in first[1] or b"Loaded" in again[1], f"load was accepted and isn't in: {first}, {again}")
            must(len(rows(disk.folder, look)["operation"]) == 99, "the plan isn't there")
            told[f"{(first[1] + first[2]).decode().strip()!r}, then {again[1].decode().strip()!r}"] += 1
    finally:
        disk.end()
    for what, count in sorted(told.items()):
        print(f"load into a full disk: {count} times {what}")


def other_user():
    os.setgid(NOBODY)
    os.setuid(NOBODY)


def try_reading_only(given, folder):
    """A file, a folder and a mount that may only be read: a fault of a file, and not a byte is changed."""
    place = Path(tempfile.mkdtemp(dir=folder))
    program = shutil.copy(given.program, place / "program")
    (place / "plan.csv").write_text(plan_text(TRACKERS))
    load(given.program, place, "plan.csv", MOMENT)
    before = (place / "night.db").read_bytes(), (place / "plan.csv").read_bytes()
    for each in (folder, program):
        os.chmod(each, 0o755)
    commands = [["serve", "--db", "night.db", "--port", "1", "--requests", "1"],
                ["load", "--db", "night.db", "--plan", "plan.csv", "--at", MOMENT],
                ["do", "--db", "night.db", "--request", '{"at":"2024-03-01T22:00","do":"tick"}'],
                ["report", "--db", "night.db", "--kind", "occurrences"]]
    known = run([program, "--help"], place)[1]
    commands = [words for words in commands if f"\n  {words[0]} ".encode() in known]
    run(["mount", "--bind", place, place], folder)
    try:
        for what, of_folder, of_file, mount in (("file", 0o777, 0o444, "rw"), ("folder", 0o555, 0o666, "rw"),
                                                ("file and folder", 0o555, 0o444, "rw"), ("mount", 0o777, 0o666, "ro")):
            os.chmod(place, of_folder)
            os.chmod(place / "night.db", of_file)
            (place / "night.db-wal").unlink(missing_ok=True)
            run(["mount", "-o", f"remount,bind,{mount}", place], folder)
            for words in commands:
                ended = run([program, *words], place, preexec_fn=other_user, timeout=60)
                must(ended == FAULT, f"{words[0]} over a {what} to read only ends with {ended}")
                must((place / "night.db").read_bytes() == before[0], f"{words[0]} has changed a {what} to read only")
            run(["mount", "-o", "remount,bind,rw", place], folder)
    finally:
        run(["umount", place], folder)
    os.chmod(place, 0o777)
    must(run([program, *commands[1]], place)[1] == b"refused 4 Loaded\n", "the database doesn't open again")
    print(f"to read only, a file, a folder, both, and a mount: {', '.join(words[0] for words in commands)} end with "
          f"'fault file', 3, and change nothing")


def try_full_streams(given, folder):
    """Standard output into /dev/full: a fault of a file, and what was accepted stands."""
    (folder / "plan.csv").write_text(plan_text(TRACKERS))
    words = [str(given.program), "load", "--db", "stands.db", "--plan", "plan.csv", "--at", MOMENT]
    with open("/dev/full", "wb") as full:
        ended = subprocess.run(words, cwd=folder, stdout=full, stderr=subprocess.PIPE)
        must((ended.returncode, ended.stderr) == (3, b"fault file\n"), f"load to a full stream ends with {ended}")
        must(run(words, folder)[1] == b"refused 4 Loaded\n", "a load whose answer couldn't be written doesn't stand")
        words = [str(given.program), "serve", "--db", "stands.db", "--port", "0", "--requests", "1"]
        words[5] = str(random.Random(given.seed).randrange(20_000, 30_000))
        ended = subprocess.run(words, cwd=folder, stdout=full, stderr=subprocess.PIPE, timeout=60)
        must((ended.returncode, ended.stderr) == (3, b"fault file\n"), f"serve to a full stream ends with {ended}")
    print("standard output into /dev/full: load and serve end with 'fault file', 3; the load stands")


def main():
    words = argparse.ArgumentParser(description=__doc__.splitlines()[0])
    words.add_argument("--trials", type=int, default=40, help="trials of each kind of failing disk")
    words.add_argument("--seed", type=int, default=1, help="what chance draws the moments from")
    words.add_argument("--program", type=Path, default=PROGRAM)
    given = words.parse_args()
    given.program = given.program.resolve()
    try:
        if not given.program.exists():
            raise Unmeasured(f"no program {given.program}: bin/build proves and builds it")
        with tempfile.TemporaryDirectory() as place:
            folder = Path(place)
            try_serving(given, folder)
            try_loading(given, Path(tempfile.mkdtemp(dir=folder)))
            try_reading_only(given, folder)
            try_full_streams(given, folder)
        return 0
    except Lost as lost:
        print(f"disks: {lost}", file=sys.stderr)
        return 1
    except (Unmeasured, OSError, sqlite3.Error, subprocess.TimeoutExpired) as fault:
        print(f"disks: {fault!r}", file=sys.stderr)
        return 2


if __name__ == "__main__":
    sys.exit(main())
