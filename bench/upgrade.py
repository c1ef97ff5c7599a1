#!/usr/bin/env python3
"""Opens a database of version 1 of the tables by `plandesk`, and stops it meanwhile.

    upgrade.py [--released PATH] [--stops N] [--seed N] [--program PATH]
    upgrade.py --pack [--released PATH]

The database has a night in which bills have come in: written by the C library of SQLite from the SQL texts of
crates/test_wires/src/first.rt, or with --released by a program of a release before 0.15. `report` has to leave its nine
tables but for the version, and two empty ones beside them; the night has to go on; and a copy that was opened is killed
at --stops moments, after which the tables have to be those of before or those of after. What doesn't fit is refused 28
and stays. With --pack the database is printed as tests/sessions/files/first.db.packed has it, and nothing is tried.

Exit status: 0 all is so, 1 it isn't, 2 nothing could be tried.
"""
import argparse
import json
import random
import re
import shutil
import sqlite3
import subprocess
import sys
import tempfile
import time
from collections import Counter
from contextlib import closing
from pathlib import Path

from growths import PLAN, UNTIL_TEN_ENDS, on, operation, told
from measure import HERE, PROGRAM, Unmeasured

TEXTS = HERE.parent / "crates" / "test_wires" / "src" / "first.rt"
OPENING = ("report", "--db", "night.db", "--kind", "occurrences")
OCCURRENCES = """OCCURRENCES AT 2024-03-01T22:45
BILLING          2024-03-01T22:00 5 W 2024-03-02T03:00     1     0
PAYROLL          2024-03-01T22:00 5 S 2024-03-02T05:00     5     2
END 2
"""
REST = [(on("23:40", "ended", 20), told(operation(10, "BILLING"))), (on("23:50", "ended", 40), told())]
COLUMNS = {"quantity": ["resource TEXT", "quantity INTEGER"],
           "amount": ["app TEXT", "ia INTEGER", "num INTEGER", "resource TEXT", "amount INTEGER"]}
DAMAGES = ["UPDATE operation SET status = 'R' WHERE num = 20", "UPDATE meta SET version = 2", "UPDATE meta SET version = 3",
           "CREATE TABLE quantity (id INTEGER PRIMARY KEY)", "CREATE TABLE amount (id INTEGER PRIMARY KEY)", "DROP TABLE need"]


class Wrong(Exception):
    """Something isn't as it has to be."""


def run(program, folder, *words):
    ended = subprocess.run([str(program), *words], cwd=folder, capture_output=True, text=True)
    return ended.returncode, ended.stdout, ended.stderr


def asked(program, folder, request, answer):
    got = run(program, folder, "do", "--db", "night.db", "--request", json.dumps(request))
    if got != (0, answer, ""):
        raise Wrong(f"{request} was answered {got}, and {answer!r} is due")


def by_texts(path):
    """The database as the C library writes it from the SQL texts."""
    texts = dict(re.findall(r'pub const (\w+): &str =\s*"(.*?)";\n', TEXTS.read_text(), re.DOTALL))
    with closing(sqlite3.connect(path)) as database:
        database.execute("PRAGMA journal_mode = WAL")
        database.executescript(texts["FIRST_TABLES"] + texts["FIRST_NIGHT"] + texts["RECEIPT"])


def by_release(program, folder):
    """The database as a program of that release writes it."""
    (folder / "plan.csv").write_text(PLAN)
    got = run(program, folder, "load", "--db", "night.db", "--plan", "plan.csv", "--at", "2024-03-01T21:00")
    if got != (0, told(), ""):
        raise Unmeasured(f"the release's load ended with {got}")
    for request, answer in UNTIL_TEN_ENDS[1:]:
        asked(program, folder, request, answer)


def packed(data):
    """Bytes as lines of hexadecimal digits, 60 bytes each, and of a plus sign and a number of zero bytes."""
    lines = []
    for zeros, others in re.findall(rb"(\0{16,})|((?:(?!\0{16}).)+)", data, re.DOTALL):
        lines += [f"+{len(zeros)}"] if zeros else [others[at:at + 60].hex() for at in range(0, len(others), 60)]
    return "\n".join(lines)


def put(folder, source):
    """A database in place of the one in a folder, each with its log."""
    for ending in ("", "-wal"):
        (folder / f"night.db{ending}").unlink(missing_ok=True)
        if (source / f"night.db{ending}").exists():
            shutil.copy(source / f"night.db{ending}", folder / f"night.db{ending}")


def tables(folder, look):
    """The rows of each table, as the C library reads them over a copy."""
    put(look, folder)
    with closing(sqlite3.connect(look / "night.db")) as database:
        names = [name for (name,) in database.execute("SELECT name FROM sqlite_schema WHERE type = 'table'")]
        return {name: sorted(database.execute(f"SELECT * FROM {name}").fetchall(), key=repr) for name in names}


def columns(folder, table):
    with closing(sqlite3.connect(folder / "night.db")) as database:
        found = database.execute(f"PRAGMA table_info({table})").fetchall()
    return [f"{name} {kind}" for _, name, kind, is_needed, _, _ in found if is_needed]


def changed(folder, sql):
    with closing(sqlite3.connect(folder / "night.db")) as database:
        database.executescript(sql)


def upgraded(before):
    (number, _, loaded, clock), = before["meta"]
    return before | {"meta": [(number, 2, loaded, clock)], "quantity": [], "amount": []}


def kill_opening(program, folder, after):
    """Kills an opening after so many seconds; whether it was still at it."""
    process = subprocess.Popen([str(program), *OPENING], cwd=folder, stdout=subprocess.DEVNULL, stderr=subprocess.DEVNULL)
    time.sleep(after)
    is_running = process.poll() is None
    process.kill()
    process.wait()
    return is_running


def try_all(given, first, folder, look):
    before = tables(first, look)
    if len(before) != 9 or before["meta"][0][1] != 1:
        raise Unmeasured(f"no tables of version 1: {sorted(before)}, {before.get('meta')}")
    put(folder, first)
    begun = time.perf_counter()
    got = run(given.program, folder, *OPENING)
    taken = time.perf_counter() - begun
    after = tables(folder, look)
    if got != (0, OCCURRENCES, "") or after != upgraded(before):
        raise Wrong(f"opened, it shows {got}, and has {after}")
    for table, wanted in COLUMNS.items():
        if columns(look, table) != wanted:
            raise Wrong(f"{table} has the columns {columns(look, table)}")
    for request, answer in REST:
        asked(given.program, folder, request, answer)
    for sql in DAMAGES:
        put(folder, first)
        changed(folder, sql)
        damaged = tables(folder, look)
        got = run(given.program, folder, *OPENING)
        if got != (1, "refused 28 Damaged\n", "") or tables(folder, look) != damaged:
            raise Wrong(f"after {sql}: {got}")
    chance, fell = random.Random(given.seed), Counter()
    for _ in range(given.stops):
        put(folder, first)
        is_running = kill_opening(given.program, folder, chance.uniform(0, 1.2 * taken))
        found = tables(folder, look)
        if found not in (before, after):
            raise Wrong(f"a stop leaves {found}")
        fell[f"{'in the opening' if is_running else 'after it'}, version {found['meta'][0][1]}"] += 1
        got = run(given.program, folder, *OPENING)
        if got != (0, OCCURRENCES, "") or tables(folder, look) != after:
            raise Wrong(f"opened after a stop: {got}")
    return fell


def main():
    words = argparse.ArgumentParser(description=__doc__.splitlines()[0])
    words.add_argument("--released", type=Path, help="a program of a release before 0.15, which writes the database")
    words.add_argument("--stops", type=int, default=100)
    words.add_argument("--seed", type=int, default=1, help="what chance draws the moments of the stops from")
    words.add_argument("--program", type=Path, default=PROGRAM)
    words.add_argument("--pack", action="store_true", help="print the database, and try nothing")
    given = words.parse_args()
    given.program = given.program.resolve()
    try:
        if not given.pack and not given.program.exists():
            raise Unmeasured(f"no program {given.program}: bin/build proves and builds it")
        with tempfile.TemporaryDirectory() as first, tempfile.TemporaryDirectory() as folder, tempfile.TemporaryDirectory() as look:
            if given.released:
                by_release(given.released.resolve(), Path(first))
            else:
                by_texts(Path(first) / "night.db")
            if given.pack:
                whole = tables(Path(first), Path(look))
                (Path(first) / "night.db-wal").unlink(missing_ok=True)
                if tables(Path(first), Path(look)) != whole:
                    raise Unmeasured("its log isn't copied into it")
                print(packed((Path(first) / "night.db").read_bytes()))
                return 0
            fell = try_all(given, Path(first), Path(folder), Path(look))
    except Wrong as wrong:
        print(f"upgrade: {wrong}", file=sys.stderr)
        return 1
    except (Unmeasured, OSError, sqlite3.Error) as fault:
        print(f"upgrade: {fault}", file=sys.stderr)
        return 2
    told_stops = ", ".join(f"{count} {where}" for where, count in sorted(fell.items()))
    print(f"version 1 becomes version 2, and the night goes on; {len(DAMAGES)} damages are refused; {given.stops} stops ({told_stops})")
    return 0


if __name__ == "__main__":
    sys.exit(main())
