#!/usr/bin/env python3
"""Holds what `plandesk forecast` tells, over nights drawn by chance, against the model of forecast.py. And makes the
forecast's requests at a copy of the database: each has to be accepted, and to name what the forecast says begins then.

    forecasts.py [--nights N] [--requests N] [--seed N] [--program PATH]
    forecasts.py --plan PLAN.csv --at MOMENT [--until MOMENT]               prints the model's text

Exit status: 0 all is as it has to be, 1 something isn't, 2 nothing could be tried.
"""
import argparse
import json
import random
import re
import shutil
import sqlite3
import sys
import tempfile
from pathlib import Path

from forecast import Forecast, forecast_text, text_of
from measure import PROGRAM, Unmeasured
from night import answer_text
from rules import Plan, answered, minute_of, moment_text
from whys import EVENING, Trial, plan_in, plan_of, request_of, rows_of


# The nights

def paths_of(text):
    return text.partition("LATE PATHS")[2].partition("END")[0].splitlines()[1:]


def ask(trial, chance, plan):
    """One forecast, from the clock or later on, at times cut short: its text, and what its requests are answered."""
    start = plan.clock + chance.choice((0, 0, 0, 1, 45))
    until = chance.choice((None, None, None, start, start + 60, start + 400))
    words = (["--at", moment_text(start)] if start > plan.clock else []) + (["--until", moment_text(until)] if until else [])
    got = trial.run("forecast", "--db", "night.db", *words)
    told = Forecast(plan, start, until)
    wanted = text_of(told)
    trial.judge(got == (0, wanted.encode(), b""), "forecast", words, got[2], got[1].decode(), wanted)
    trial.counts["forecasts"] += 1
    trial.counts["rows"] += wanted.count("\n")
    trial.counts.update(f"members of late paths: {row[72:82].strip()}" for row in paths_of(wanted))
    for name in ("night.db", "night.db-wal"):
        if (trial.folder / name).exists():
            shutil.copy(trial.folder / name, trial.folder / name.replace("night", "ahead"))
    for request, named in told.requests:
        got = trial.run("do", "--db", "ahead.db", "--request", json.dumps(request))
        trial.judge(got == (0, answer_text(None, named).encode(), b""), "request", request, got, named)
        trial.counts["requests of forecasts"] += 1


def with_deadlines(chance, text):
    """The text of a night with earlier deadlines, so that more is late."""
    later = (30, 90, 200, 540)
    return re.sub("(?m)^(O,.*)2024-03-02T06:00", lambda row: row[1] + moment_text(minute_of(EVENING) + chance.choice(later)), text)


def play_night(trial, seed, requests):
    chance = random.Random(seed)
    for name in ("night.db", "night.db-wal"):
        (trial.folder / name).unlink(missing_ok=True)
    text, at = with_deadlines(chance, plan_of(chance)), minute_of(EVENING)
    (trial.folder / "plan.csv").write_text(text)
    refusal, _, plan = answered(Plan(), {"at": EVENING, "do": "load", "records": text})
    if refusal or trial.run("load", "--db", "night.db", "--plan", "plan.csv", "--at", EVENING)[0]:
        raise Unmeasured(f"the plan of {seed} isn't accepted: {refusal}")
    for _ in range(requests):
        ask(trial, chance, plan)
        at += chance.choice((0, 1, 5, 30))
        request = request_of(chance, plan, at)
        _, _, plan = answered(plan, request)
        trial.run("do", "--db", "night.db", "--request", json.dumps(request))
    trial.judge(plan_in(rows_of(trial.folder / "night.db")) == plan, "the forecasts changed the plan", plan)


def try_nights(given):
    if not given.program.exists():
        raise Unmeasured(f"no program {given.program}: bin/plandesk builds it")
    with tempfile.TemporaryDirectory() as folder:
        trial = Trial(given.program.resolve(), Path(folder))
        for night in range(given.nights):
            play_night(trial, f"{given.seed}/{night}", given.requests)
    for what, count in sorted(trial.counts.items()):
        print(f"{count:7} {what}")
    print(f"{trial.counts['forecasts']} forecasts, {len(trial.wrong)} wrong")
    return 1 if trial.wrong else 0


def main():
    words = argparse.ArgumentParser(description=__doc__.splitlines()[0])
    words.add_argument("--nights", type=int, default=60)
    words.add_argument("--requests", type=int, default=12, help="requests of each night")
    words.add_argument("--seed", type=int, default=1)
    words.add_argument("--program", type=Path, default=PROGRAM)
    words.add_argument("--plan", type=Path, help="prints the model's text of this plan, loaded at --at")
    words.add_argument("--at")
    words.add_argument("--until")
    given = words.parse_args()
    try:
        if not given.plan:
            return try_nights(given)
        request = {"at": given.at, "do": "load", "records": given.plan.read_text()}
        _, _, plan = answered(Plan(), request)
        print(forecast_text(plan, minute_of(given.at), minute_of(given.until) if given.until else None), end="")
    except (Unmeasured, OSError, sqlite3.Error) as fault:
        print(f"forecasts: {fault}", file=sys.stderr)
        return 2
    return 0


if __name__ == "__main__":
    sys.exit(main())
