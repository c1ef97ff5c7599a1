#!/usr/bin/env python3
"""Measures accepted requests at the plan of a database: what the store takes of each, beside the C library of SQLite.

    calls.py [--extension] [--runs N] [--requests N] [--size N] [--program PATH] [--calls PATH]

With --extension it is one by which half of the occurrences leave and as many come in, else ends of operations. README.md says how the program `calls` is built, and what each figure is. Exit status: 0 the target is kept, 1 it is
missed, 2 nothing could be measured.
"""
import argparse
import shutil
import sqlite3
import subprocess
import sys
import tempfile
import time
from pathlib import Path
from statistics import median

from measure import HERE, MOMENT, PROGRAM, Unmeasured, tell_surroundings
from stored import FULL, TABLES

CALLS = HERE.parent / "crates" / "bench_calls" / "out" / "bench_calls"
KEYS = {"meta": 1, "workstation": 1, "interval": 2, "resource": 1, "occurrence": 2, "operation": 3, "dependency": 6,
        "need": 4, "receipt": 1, "quantity": 1, "amount": 4}
MOST_TIMES_THE_LIBRARY = 2.0


def told_by(words, folder):
    run = subprocess.run([str(word) for word in words], cwd=folder, capture_output=True, text=True)
    if run.returncode != 0:
        raise Unmeasured(f"{words[0]} ended with {run.returncode}: {run.stdout[:100]!r} {run.stderr[:100]!r}")
    return run.stdout.splitlines()


def copy_database(folder, name, to):
    """A copy of a database that is closed, without its log, which has nothing then."""
    (folder / f"{to}-wal").unlink(missing_ok=True)
    shutil.copy(folder / name, folder / to)
    return to


def rows_of(folder, name):
    with sqlite3.connect(folder / copy_database(folder, name, "look.db")) as database:
        return {table: set(database.execute(f"SELECT * FROM {table}").fetchall()) for table in TABLES}


def keys_of(rows):
    """The rows of each table by their keys."""
    return {table: {row[:KEYS[table]]: row for row in found} for table, found in rows.items()}


def changes_of(calls, folder, words):
    """For each request the rows that it changes and the keys of those that it takes out, as the C library reads them before and
    after, each with its table."""
    changes = []
    name = copy_database(folder, "night.db", "step.db")
    before = keys_of(rows_of(folder, name))
    for word in words:
        told_by([calls, "parts", name, word], folder)
        after = keys_of(rows_of(folder, name))
        changed = [(table, row) for table in TABLES for key, row in sorted(after[table].items()) if before[table].get(key) != row]
        gone = [(table, key) for table in TABLES for key in sorted(before[table].keys() - after[table].keys())]
        changes.append((changed, gone))
        before = after
    return changes


def upsert(database, table):
    columns = [column[1] for column in database.execute(f"PRAGMA table_info({table})")]
    key, rest = columns[:KEYS[table]], columns[KEYS[table]:]
    change = "UPDATE SET " + ", ".join(f"{name} = excluded.{name}" for name in rest) if rest else "NOTHING"
    return f"INSERT INTO {table} VALUES ({', '.join('?' * len(columns))}) ON CONFLICT ({', '.join(key)}) DO {change}"


def deletion(database, table):
    columns = [column[1] for column in database.execute(f"PRAGMA table_info({table})")]
    return f"DELETE FROM {table} WHERE " + " AND ".join(f"{name} = ?" for name in columns[:KEYS[table]])


def seconds_by_library(folder, changes):
    """Seconds that the C library takes, called by Python, for the rows of each request, in a transaction with one sync."""
    database = sqlite3.connect(folder / copy_database(folder, "night.db", "peer.db"), isolation_level=None)
    database.execute("PRAGMA journal_mode = WAL")
    database.execute("PRAGMA synchronous = FULL")
    texts = {table: upsert(database, table) for table in TABLES}
    deletions = {table: deletion(database, table) for table in TABLES}
    taken = []
    for rows, gone in changes:
        begun = time.perf_counter()
        database.execute("BEGIN")
        for table, row in rows:
            database.execute(texts[table], row)
        for table, key in gone:
            database.execute(deletions[table], key)
        database.execute("COMMIT")
        taken.append(time.perf_counter() - begun)
    database.close()
    return taken


def asked(given, folder):
    """Loads a plan, and gives the words of the requests."""
    words = [sys.executable, HERE / "generate.py", str(given.size), "plan.csv"] + (["--over", "next.csv"] if given.extension else [])
    subprocess.run(words, cwd=folder, check=True)
    told = told_by([given.program, "load", "--db", "night.db", "--plan", "plan.csv", "--at", MOMENT], folder)
    if given.extension:
        return ["@next.csv"]
    keys = [line.split(" ")[1] for line in told[1:]][:given.requests]
    if len(keys) < given.requests:
        raise Unmeasured(f"only {len(keys)} operations are started")
    return keys


def measured(given, folder):
    words = asked(given, folder)
    changes = changes_of(given.calls, folder, words)
    parts, whole, library = [], [], []
    for _ in range(given.runs):
        name = copy_database(folder, "night.db", "parts.db")
        parts += [[int(part) for part in line.split()] for line in told_by([given.calls, "parts", name, *words], folder)]
        library += seconds_by_library(folder, changes)
        name = copy_database(folder, "night.db", "whole.db")
        whole += [int(line) for line in told_by([given.calls, "whole", name, *words], folder)]
    if [line[3:] for line in parts] != [[len(rows), len(gone)] for rows, gone in changes] * given.runs:
        raise Unmeasured("the rows that were written aren't those that changed")
    return parts, whole, library


def tell(parts, whole, library):
    """Prints the figures in milliseconds; whether the target is kept."""
    prepare, write, apply, rows, gone = (median(line[part] for line in parts) for part in range(5))
    peer = median(library) * 1e6
    print(f"rows      {rows:.0f} median, {min(line[3] for line in parts)} to {max(line[3] for line in parts)}; {gone:.0f} taken out")
    print(f"prepare   {prepare / 1e3:9.3f} ms median")
    print(f"write     {write / 1e3:9.3f} ms median: the store's part")
    print(f"apply     {apply / 1e3:9.3f} ms median")
    print(f"call      {median(whole) / 1e3:9.3f} ms median: the whole, at the desk")
    print(f"library   {peer / 1e3:9.3f} ms median, for the same rows in one transaction\n")
    is_kept = write <= MOST_TIMES_THE_LIBRARY * peer
    print(f"  {'kept  ' if is_kept else 'MISSED'} {write / peer:9.2f} of at most {MOST_TIMES_THE_LIBRARY:6.1f}  times the library, for the store's part")
    return is_kept


def main():
    words = argparse.ArgumentParser(description=__doc__.splitlines()[0])
    words.add_argument("--extension", action="store_true", help="an extension in place of ends of operations")
    words.add_argument("--runs", type=int, default=5, help="runs of each")
    words.add_argument("--requests", type=int, default=12, help="requests, one after the other")
    words.add_argument("--size", type=int, default=FULL, help="operations of the plan")
    words.add_argument("--program", type=Path, default=PROGRAM)
    words.add_argument("--calls", type=Path, default=CALLS)
    given = words.parse_args()
    given.program, given.calls = given.program.resolve(), given.calls.resolve()
    try:
        for program in (given.program, given.calls):
            if not program.exists():
                raise Unmeasured(f"no program {program}: README.md says how it is built")
        tell_surroundings(given.calls, given.runs, f"of {given.size} operations", f"SQLite {sqlite3.sqlite_version}")
        with tempfile.TemporaryDirectory() as folder:
            return 0 if tell(*measured(given, Path(folder))) else 1
    except (Unmeasured, OSError, sqlite3.Error, subprocess.CalledProcessError) as fault:
        print(f"calls: {fault}", file=sys.stderr)
        return 2


if __name__ == "__main__":
    sys.exit(main())
