#!/usr/bin/env python3
"""Measures `plandesk validate` beside `check`, and `plandesk why` beside a report that opens the same desk.

    reasons.py [--runs N] [--size N] [--program PATH]

README.md says what each figure is. Exit status: 0 the target is kept, 1 it is missed, 2 nothing could be measured.
"""
import argparse
import csv
import subprocess
import sys
import tempfile
from collections import defaultdict
from pathlib import Path

from measure import HERE, MOMENT, PROGRAM, Run, Unmeasured, median_of, peak_of, processor_of, tell_surroundings

FULL = 20_000
MOST_TIMES_CHECK = 1.3


def run_desk(program, folder, words, told, status):
    """One run of the program, which has to begin its answer so."""
    run = Run([program, *words], folder, folder / "answer")
    if run.status != status or not run.out.startswith(told):
        raise Unmeasured(f"{words[0]} answered {run.out[:200]!r}, status {run.status}")
    return run


def ends_of(plan):
    """Two operations that wait: one with few operations before it, and one with the most. Each with how many there are."""
    before, operations = defaultdict(list), []
    with open(plan, newline="") as text:
        for record in csv.reader(text):
            if record[0] == "P":
                operations.append(tuple(record[1:4]))
            elif record[0] == "D":
                before[tuple(record[4:7])].append(tuple(record[1:4]))
    counts = {}
    for operation in operations[::max(1, len(operations) // 400)]:
        seen, left = set(), [operation]
        while left:
            for other in before[left.pop()]:
                if other not in seen:
                    seen.add(other)
                    left.append(other)
        counts[operation] = len(seen)
    waiting = sorted((count, operation) for operation, count in counts.items() if count)
    return waiting[0], waiting[-1]


def key_of(operation):
    application, arrival, number = operation
    return f"{application}/{arrival}/{int(number):03}"


def measured(given, folder):
    words = [sys.executable, HERE / "generate.py", str(given.size), "plan.csv"]
    subprocess.run(words, cwd=folder, check=True)
    run_desk(given.program, folder, ["load", "--db", "night.db", "--plan", "plan.csv", "--at", MOMENT], b"accepted\n", 0)
    ends = ends_of(folder / "plan.csv")
    texts = {"check": [], "validate": []}
    whys = {"report": [], **{f"why, {count} operations before it": [] for count, _ in ends}}
    for _ in range(given.runs):
        check = ["check", "--plan", "plan.csv", "--at", MOMENT]
        texts["check"].append(run_desk(given.program, folder, check, b"accepted\n", 0))
        texts["validate"].append(run_desk(given.program, folder, ["validate", "--plan", "plan.csv"], b"no faults\n", 0))
        report = ["report", "--db", "night.db", "--kind", "errors"]
        whys["report"].append(run_desk(given.program, folder, report, b"ERRORS", 0))
        for count, operation in ends:
            key = key_of(operation)
            why = ["why", "--db", "night.db", "--op", key]
            whys[f"why, {count} operations before it"].append(run_desk(given.program, folder, why, key.encode(), 0))
    return texts, whys


def tell(texts, whys):
    """Prints the figures; whether the target is kept."""
    for name, runs in {**texts, **whys}.items():
        print(f"{name:36} {median_of(runs):.3f} s median, {processor_of(runs):.3f} s of processor, {peak_of(runs):.0f} MB")
    times = median_of(texts["validate"]) / median_of(texts["check"])
    print(f"\n  {'kept  ' if times <= MOST_TIMES_CHECK else 'MISSED'} {times:9.2f} of at most {MOST_TIMES_CHECK:6.1f}  times check, to validate")
    return times <= MOST_TIMES_CHECK


def main():
    words = argparse.ArgumentParser(description=__doc__.splitlines()[0])
    words.add_argument("--runs", type=int, default=5, help="runs of each")
    words.add_argument("--size", type=int, default=FULL, help="operations of the plan")
    words.add_argument("--program", type=Path, default=PROGRAM)
    given = words.parse_args()
    given.program = given.program.resolve()
    try:
        if not given.program.exists():
            raise Unmeasured(f"no program {given.program}: bin/plandesk builds it")
        tell_surroundings(given.program, given.runs, f"of {given.size} operations", "nothing beside it")
        with tempfile.TemporaryDirectory() as folder:
            return 0 if tell(*measured(given, Path(folder))) else 1
    except (Unmeasured, OSError, subprocess.CalledProcessError) as fault:
        print(f"reasons: {fault}", file=sys.stderr)
        return 2


if __name__ == "__main__":
    sys.exit(main())
