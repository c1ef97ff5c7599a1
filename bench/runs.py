#!/usr/bin/env python3
"""Measures requests that `Plan::run` accepts in memory: ends of operations, additions of occurrences with one operation,
new dependencies and deletions of occurrences, beside `check` of the same plan; and an extension by which half of the
occurrences leave and as many come in.

    runs.py [--runs N] [--requests N] [--sizes N,N..] [--program PATH] [--runner PATH]

README.md says how the program `runs` is built. Exit status: 0 all was measured, 2 nothing could be measured.
"""
import argparse
import random
import subprocess
import sys
import tempfile
import time
from graphlib import TopologicalSorter
from pathlib import Path
from statistics import median

from measure import HERE, MOMENT, PROGRAM, Unmeasured, tell_surroundings

RUNNER = HERE.parent / "crates" / "bench_runs" / "out" / "bench_runs"


def told_by(words, **how):
    run = subprocess.run([str(word) for word in words], capture_output=True, text=True, **how)
    if run.returncode != 0:
        raise Unmeasured(f"{words[0]} ended with {run.returncode}: {run.stdout[:100]!r} {run.stderr[:100]!r}")
    return run.stdout.splitlines()


def taken(runner, plan, words):
    """Microseconds that a run of these requests takes at the plan."""
    with open(plan) as text:
        return int(told_by([runner, *words], stdin=text)[0])


def made(folder, size):
    plan = folder / f"{size}.csv"
    told_by([sys.executable, HERE / "generate.py", size, plan])
    return plan


def made_over(folder, size):
    """A plan of which half is over, and the text of what comes in."""
    plan, comes_in = folder / f"{size}_over.csv", folder / f"{size}_next.csv"
    told_by([sys.executable, HERE / "generate.py", size, plan, "--over", comes_in])
    return plan, comes_in


def new_dependencies(texts, started, count):
    """Pairs of operations that stand in no pair yet, in an order of the operations that no pair goes against, so that they
    close no path; no successor is started."""
    keys = [f"{it[1]}/{it[2]}/{int(it[3]):03}" for it in texts if it[0] == "P"]
    pairs = {(f"{it[1]}/{it[2]}/{int(it[3]):03}", f"{it[4]}/{it[5]}/{int(it[6]):03}") for it in texts if it[0] == "D"}
    order = {key: place for place, key in enumerate(TopologicalSorter({key: [] for key in keys} | preds_of(pairs)).static_order())}
    chance, found = random.Random(1), set()
    while len(found) < count:
        first, second = sorted(chance.sample(keys, 2), key=order.get)
        if (first, second) not in pairs and second not in started:
            found.add((first, second))
    return [f"{first},{second}" for first, second in sorted(found)]


def preds_of(pairs):
    preds = {}
    for first, second in pairs:
        preds.setdefault(second, []).append(first)
    return preds


def deletions(texts, started, count):
    """Occurrences of which no operation is started."""
    busy = {key.rsplit("/", 1)[0] for key in started}
    free = [key for key in (f"{it[1]}/{it[2]}" for it in texts if it[0] == "O") if key not in busy]
    return random.Random(1).sample(free, count)


def milliseconds(given, plan, words):
    """Of one request, the median over the runs."""
    return median(taken(given.runner, plan, words) for _ in range(given.runs)) / 1000 / (len(words) - 1)


def checked(given, plan):
    """Milliseconds of `check`, the median, and what it says is started."""
    took, said = [], []
    for _ in range(given.runs):
        begun = time.monotonic()
        said = told_by([given.program, "check", "--plan", plan, "--at", MOMENT])
        took.append(1000 * (time.monotonic() - begun))
    return median(took), [line.split()[1] for line in said if " " in line]


def measured(given, folder, size):
    """Milliseconds of each kind of request, of `check`, and how many ends there were."""
    plan = made(folder, size)
    check, started = checked(given, plan)
    texts = [line.split(",") for line in plan.read_text().splitlines()]
    workstation = min(it[1] for it in texts if it[0] == "W")
    asked = {
        "end": ["ends", *started[: given.requests]],
        "addition": ["additions", *(f"{workstation},ADDED{number}" for number in range(given.requests))],
        "dependency": ["dependencies", *new_dependencies(texts, set(started), given.requests)],
        "deletion": ["deletions", *deletions(texts, started, given.requests)],
    }
    took = {"check": check} | {kind: milliseconds(given, plan, words) for kind, words in asked.items()}
    over, comes_in = made_over(folder, size)
    return took | {"extension": milliseconds(given, over, ["extensions", comes_in])}


def main():
    words = argparse.ArgumentParser(description=__doc__.splitlines()[0])
    words.add_argument("--runs", type=int, default=5, help="runs of each")
    words.add_argument("--requests", type=int, default=12, help="requests, one after the other")
    words.add_argument("--sizes", default="1000,5000,18000", help="operations of each plan, which has room for the additions")
    words.add_argument("--program", type=Path, default=PROGRAM)
    words.add_argument("--runner", type=Path, default=RUNNER)
    given = words.parse_args()
    sizes = [int(size) for size in given.sizes.split(",")]
    try:
        tell_surroundings(given.program, f"{given.runs} of {given.requests} requests", f"of {', '.join(map(str, sizes))} operations", "")
        for size in sizes:
            with tempfile.TemporaryDirectory() as folder:
                took = measured(given, Path(folder), size)
                print(f"{size:>6} operations, milliseconds: " + ", ".join(f"{kind} {each:.3f}" for kind, each in took.items())
                      + f"; the extension takes {took['extension'] / took['addition']:.2f} times an addition", flush=True)
    except (Unmeasured, OSError) as why:
        print(f"runs.py: {why}", file=sys.stderr)
        return 2
    return 0


if __name__ == "__main__":
    sys.exit(main())
