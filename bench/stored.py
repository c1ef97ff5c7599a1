#!/usr/bin/env python3
"""Measures `plandesk load` into a file, and the opening of that file, beside the C library of SQLite on the same rows.

    stored.py [--runs N] [--size N] [--program PATH]

README.md says what each figure is. Exit status: 0 all targets are kept, 1 one is missed, 2 nothing could be measured.
"""
import argparse
import sqlite3
import subprocess
import sys
import tempfile
import time
from pathlib import Path
from statistics import median

from measure import HERE, MOMENT, PROGRAM, Run, Unmeasured, median_of, peak_of, tell_surroundings

FULL = 20_000
MOST_SECONDS_TO_LOAD = 3.0
MOST_MEGABYTES_TO_LOAD = 250
MOST_TIMES_THE_LIBRARY = 6.0
MOST_SECONDS_TO_OPEN = 1.2
TABLES = ("meta", "workstation", "interval", "resource", "occurrence", "operation", "dependency", "need", "receipt",
          "quantity", "amount")


def run_desk(program, folder, plan, told, status):
    """One `plandesk load`, which has to answer this."""
    words = [program, "load", "--db", "night.db", "--plan", plan, "--at", MOMENT]
    run = Run(words, folder, folder / "answer")
    if run.status != status or not run.out.startswith(told):
        raise Unmeasured(f"load answered {run.out[:200]!r}, status {run.status}")
    return run


def stored_rows(folder):
    """The texts that make the tables, and the rows of each, as the C library reads them."""
    with sqlite3.connect(folder / "night.db") as database:
        texts = [text for (text,) in database.execute("SELECT sql FROM sqlite_schema WHERE type = 'table'")]
        return texts, {table: database.execute(f"SELECT * FROM {table}").fetchall() for table in TABLES}


def insert_by_library(path, texts, rows):
    """Seconds that the C library takes, called by Python, for the same rows in one transaction: one sync at its end."""
    database = sqlite3.connect(path, isolation_level=None)
    database.execute("PRAGMA journal_mode = WAL")
    database.execute("PRAGMA synchronous = FULL")
    for text in texts:
        database.execute(text)
    begun = time.perf_counter()
    database.execute("BEGIN")
    for table, values in rows.items():
        if values:
            database.executemany(f"INSERT INTO {table} VALUES ({', '.join('?' * len(values[0]))})", values)
    database.execute("COMMIT")
    taken = time.perf_counter() - begun
    database.close()
    return taken


def measured(given, folder):
    words = [sys.executable, HERE / "generate.py", str(given.size), "plan.csv"]
    subprocess.run(words, cwd=folder, check=True)
    (folder / "none.csv").write_bytes(b"")
    loads, opens, library = [], [], []
    for _ in range(given.runs):
        for name in ("night.db", "night.db-wal", "peer.db", "peer.db-wal", "peer.db-shm"):
            (folder / name).unlink(missing_ok=True)
        loads.append(run_desk(given.program, folder, "plan.csv", b"accepted\n", 0))
        opens.append(run_desk(given.program, folder, "none.csv", b"refused 4 Loaded\n", 1))
        texts, rows = stored_rows(folder)
        library.append(insert_by_library(folder / "peer.db", texts, rows))
    print(f"rows      {sum(len(values) for values in rows.values())}; file {(folder / 'night.db').stat().st_size} bytes\n")
    return loads, opens, library


def tell(loads, opens, library):
    """Prints the figures; whether all targets are kept."""
    print(f"load      {median_of(loads):.3f} s median, {peak_of(loads):.0f} MB")
    print(f"open      {median_of(opens):.3f} s median, {peak_of(opens):.0f} MB")
    print(f"library   {median(library):.3f} s median, for the same rows in one transaction\n")
    asked = [
        ("seconds to load", median_of(loads), MOST_SECONDS_TO_LOAD),
        ("megabytes to load", peak_of(loads), MOST_MEGABYTES_TO_LOAD),
        ("times the library, to load", median_of(loads) / median(library), MOST_TIMES_THE_LIBRARY),
        ("seconds to open", median_of(opens), MOST_SECONDS_TO_OPEN),
    ]
    for what, is_so, most in asked:
        print(f"  {'kept  ' if is_so <= most else 'MISSED'} {is_so:9.2f} of at most {most:6.1f}  {what}")
    return all(is_so <= most for _, is_so, most in asked)


def main():
    words = argparse.ArgumentParser(description=__doc__.splitlines()[0])
    words.add_argument("--runs", type=int, default=5, help="runs of each")
    words.add_argument("--size", type=int, default=FULL, help="operations of the plan")
    words.add_argument("--program", type=Path, default=PROGRAM)
    given = words.parse_args()
    given.program = given.program.resolve()
    try:
        if not given.program.exists():
            raise Unmeasured(f"no program {given.program}: bin/plandesk builds it")
        tell_surroundings(given.program, given.runs, f"of {given.size} operations", f"SQLite {sqlite3.sqlite_version}")
        with tempfile.TemporaryDirectory() as folder:
            return 0 if tell(*measured(given, Path(folder))) else 1
    except (Unmeasured, OSError, sqlite3.Error, subprocess.CalledProcessError) as fault:
        print(f"stored: {fault}", file=sys.stderr)
        return 2


if __name__ == "__main__":
    sys.exit(main())
