#!/usr/bin/env python3
"""Holds what `plandesk why` tells, over nights drawn by chance, what their requests are answered and leave in the tables, and
what `plandesk validate` tells of texts, against models written apart from the desk's own code: rules.py, expected_plan.py.

    whys.py [--nights N] [--requests N] [--texts N] [--seed N] [--program PATH]

README.md says what is tried. Exit status: 0 all is as it has to be, 1 something isn't, 2 nothing could be tried.
"""
import argparse
import json
import random
import re
import sqlite3
import subprocess
import sys
import tempfile
from collections import Counter
from contextlib import closing
from pathlib import Path

from expected_plan import MOST_QUANTITY, denotes_plan, records_of, returns
from hostile import rewritten
from measure import HERE, PROGRAM, Unmeasured
from night import answer_text, why_text
from rules import (WAITING_OR_READY, Interval, Need, Operation, Plan, answered, key_text, minute_of, moment_text, occurrence_of,
                   occurrence_text, without_what_is_over)

EVENING = "2024-03-01T21:00"
MINUTES = (0, 1, 20, 61, 200, 480, 721)
TABLES = ("meta", "workstation", "interval", "resource", "occurrence", "operation", "dependency", "need", "quantity", "amount")


def rows_of(path):
    """A desk's tables as the C library reads them."""
    with closing(sqlite3.connect(path)) as database:
        database.row_factory = sqlite3.Row
        return {name: database.execute(f"SELECT * FROM {name}").fetchall() for name in TABLES}


def plan_in(rows):
    """The plan of these tables, without the columns that follow from the others."""
    intervals = {row["name"]: set() for row in rows["workstation"]}
    for row in rows["interval"]:
        intervals[row["ws"]].add(Interval(row["start"], row["stop"], row["servers"], row["r1"], row["r2"]))
    operations = {(row["app"], row["ia"], row["num"]): Operation(
        row["ws"], row["duration"], row["r1"], row["r2"], row["not_before"], row["deadline"], row["mark"], row["code"],
        row["held"] == 1, row["nop"] == 1) for row in rows["operation"]}
    amounts = {(row["app"], row["ia"], row["num"], row["resource"]): row["amount"] for row in rows["amount"]}
    needs = {}
    for row in rows["need"]:
        key = row["app"], row["ia"], row["num"], row["resource"]
        needs[key[:3], row["resource"]] = Need(row["mode"], row["keep"], amounts.get(key, 1) if row["mode"] == "S" else 0)
    return Plan(
        loaded=rows["meta"][0]["loaded"] == 1, clock=rows["meta"][0]["clock"],
        attributes={row["name"]: row["attr"] for row in rows["workstation"]}, intervals=intervals,
        available={row["name"]: row["available"] == 1 for row in rows["resource"]},
        quantities={row["name"]: MOST_QUANTITY for row in rows["resource"]}
        | {row["resource"]: row["quantity"] for row in rows["quantity"]},
        occurrences={(row["app"], row["ia"]): (row["priority"], row["deadline"]) for row in rows["occurrence"]},
        operations=operations, needs=needs,
        pairs=frozenset(((row["papp"], row["pia"], row["pnum"]), (row["sapp"], row["sia"], row["snum"]))
                        for row in rows["dependency"]))


def do_follow(rows, plan):
    """Whether the columns that follow from the others are those of the plan."""
    return all(row["status"] == plan.occurrence_status((row["app"], row["ia"])) for row in rows["occurrence"]) and all(
        (row["status"], row["latest"], row["waiting"]) == (plan.statuses[key], plan.latest_starts[key], len(plan.waited_for(key)))
        for row in rows["operation"] for key in [(row["app"], row["ia"], row["num"])])


def plan_of(chance):
    """The text of a small night, with something of everything."""
    lines, applications = [], [f"APPL{number}" for number in range(chance.randint(2, 5))]
    stations = [(f"WS{number}", attribute) for number, attribute in enumerate("AASSCN")]
    for name, attribute in stations:
        lines.append(f"W,{name},{attribute},,,,,,,")
        start = minute_of(EVENING) + chance.choice((-60, -60, 0, 60))
        for _ in range(chance.choice((0, 1, 1, 2, 3))):
            end = start + chance.choice((120, 400, 600))
            lines.append(f"I,{name},{moment_text(start)},{moment_text(end)},{chance.choice((0, 1, 2, 2))},{chance.randint(1, 3)},1,,,")
            start = end + chance.choice((0, 0, 60))
    resources = {f"FILE{number}": chance.choice(("", "1", "2", "3", "5")) for number in range(3)}
    lines += [f"X,{name},{chance.choice('YYYYYN')},{quantity},,,,,," for name, quantity in resources.items()]
    operations = []
    for name in applications:
        lines.append(f"O,{name},{EVENING},{chance.randint(1, 9)},2024-03-02T06:00,,,,,")
        for number in sorted(chance.sample(range(1, 256), chance.randint(1, 5))):
            station = chance.choice(stations)[0]
            early = chance.choice(("", "", "", "", "", moment_text(minute_of(EVENING) + 90)))
            lines.append(f"P,{name},{EVENING},{number},{station},{chance.randint(1, 90)},{chance.choice((0, 0, 0, 1, 2))},"
                         f"{chance.choice((0, 0, 0, 1))},{early},")
            operations.append((name, number))
            for resource in chance.sample(sorted(resources), chance.choice((0, 0, 1, 2))):
                mode = chance.choice("SSX")
                amount = chance.choice(("", chance.randint(1, int(resources[resource] or 9)))) if mode == "S" else ""
                lines.append(f"N,{name},{EVENING},{number},{resource},{mode},{chance.choice('KF')},{amount},,")
    chance.shuffle(operations)
    pairs = {tuple(sorted(chance.sample(range(len(operations)), 2))) for _ in range(len(operations))} if operations[1:] else ()
    for one, other in sorted(pairs):
        (before, first), (after, second) = operations[one], operations[other]
        lines.append(f"D,{before},{EVENING},{first},{after},{EVENING},{second},,,")
    return "\n".join(lines) + "\n"


def extension_of(chance, plan):
    """The text of one occurrence of one or two operations, at times after an operation of the plan, with a need at times."""
    name = f"NEXT{chance.randrange(1_000_000)}"
    lines = [f"O,{name},{EVENING},{chance.randint(1, 9)},2024-03-02T06:00,,,,,"]
    for number in range(1, chance.choice((2, 3))):
        lines.append(f"P,{name},{EVENING},{number},{chance.choice(sorted(plan.attributes))},{chance.randint(1, 90)},0,0,,")
        if number > 1:
            lines.append(f"D,{name},{EVENING},1,{name},{EVENING},{number},,,")
    if chance.random() < 0.7:
        application, arrival, number = chance.choice(sorted(plan.operations))
        lines.append(f"D,{application},{moment_text(arrival)},{number},{name},{EVENING},1,,,")
    if chance.random() < 0.5:
        lines.append(f"N,{name},{EVENING},1,{chance.choice(sorted(plan.available))},{chance.choice('SX')},{chance.choice('KF')},,,")
    return "\n".join(lines) + "\n"


def wilder(chance, plan, text):
    """An extension's text of which a name or two may be others, and which may have another occurrence or dependency."""
    lines = text.splitlines()
    application, arrival, number = chance.choice(sorted(plan.operations))
    named = lines[0].split(",")[1]
    more = (f"D,{named},{EVENING},1,{application},{moment_text(arrival)},{number},,,", f"D,OTHER,{EVENING},1,{named},{EVENING},1,,,",
            f"D,{named},{EVENING},1,OTHER,{EVENING},1,,,",
            f"O,{application},{moment_text(arrival)},5,2024-03-02T06:00,,,,,\nP,{application},{moment_text(arrival)},7,"
            f"{chance.choice(sorted(plan.attributes))},9,0,0,,")
    lines += chance.sample(more, chance.choice((0, 0, 1, 2)))
    for _ in range(chance.choice((0, 0, 1))):
        at = chance.randrange(1, len(lines))
        fields = lines[at].split(",")
        if fields[0] == "P":
            fields[4] = "WSX"
        elif fields[0] == "N":
            fields[4:8] = chance.choice((["NONE", "S", "F", ""], [fields[4], "S", "F", "999999"]))
        lines[at] = ",".join(fields)
    return "\n".join(lines) + "\n"


def ends_of(fields):
    """The predecessor and the successor of a dependency's record."""
    return tuple((at[0], minute_of(at[1]), int(at[2])) for at in (fields[1:4], fields[4:7]))


def is_path_told(plan, text, line, keys):
    """Whether the record of this line is the first with which a path returns, by way of what stays of the plan, and that is told."""
    pairs, records = set(without_what_is_over(plan).pairs), [line.split(",") for line in text.splitlines()]
    pairs |= {ends_of(fields) for fields in records[:line - 1] if fields[0] == "D"}
    closing = ends_of(records[line - 1])
    turns = list(zip(keys, keys[1:] + keys[:1]))
    return (not returns(pairs) and turns[0] == tuple(map(key_text, closing))
            and set(turns) <= {tuple(map(key_text, pair)) for pair in pairs | {closing}})


def beside_lines(plan, text):
    """What is wrong with the records of an extension's text beside what stays of the plan: docs/PROOF.md, of `faults_beside`."""
    left = without_what_is_over(plan)
    records = [line.split(",") for line in text.splitlines()]
    own = {occurrence_of(f"{fields[1]}/{fields[2]}") for fields in records if fields[0] == "O"}
    for line, fields in enumerate(records, 1):
        if fields[0] == "O" and occurrence_of(f"{fields[1]}/{fields[2]}") in left.occurrences:
            yield f"line {line}: occurrence: the plan has it already: an extension brings new ones"
        if fields[0] == "P" and fields[4] not in left.attributes:
            yield f"line {line}: operation: workstation: the plan has none of this name"
        if fields[0] == "N" and fields[4] not in left.available:
            yield f"line {line}: need: special resource: the plan has none of this name"
        elif fields[0] == "N" and fields[5] == "S" and int(fields[7] or 1) > left.quantities[fields[4]]:
            yield f"line {line}: need: amount: more than the plan has of the special resource"
        if fields[0] != "D":
            continue
        before, after = ends_of(fields)
        for end, of_pair in ((before, "predecessor"), (after, "successor")):
            if end[:2] not in own and end not in left.operations:
                yield f"line {line}: dependency: {of_pair}: neither the extension nor what stays of the plan has it"
        if before[:2] not in own and left.statuses.get(before) == "D":
            yield f"line {line}: dependency: predecessor: it is deleted: nothing can wait for it"
        if after[:2] not in own and left.statuses.get(after, "W") not in WAITING_OR_READY:
            yield f"line {line}: dependency: successor: it neither waits nor is ready: nothing can come before it"


def request_of(chance, plan, at):
    """A request that is often accepted."""
    operation = chance.choice(sorted(plan.operations))
    status = plan.statuses[operation]
    likely = {"A": ("started", "started", "hold", "nop"), "R": ("started", "started", "ended"), "*": ("started", "ended", "nop"),
              "W": ("hold", "nop", "release", "unnop"), "S": ("ended", "error", "interrupted", "unknown", "started"),
              "E": ("rerun", "complete"), "U": ("ended", "error", "complete"), "I": ("started", "complete", "rerun"),
              "C": ("rerun", "tick", "tick"), "D": ("tick",)}
    others = ("release", "release", "available", "available", "tick", "tick", "delete", "extend")
    what = chance.choice(likely[status] if chance.random() < 0.75 else others)
    told = {"at": moment_text(at), "do": what}
    if what == "available":
        told |= {"resource": chance.choice(sorted(plan.available)), "value": chance.random() < 0.6}
    elif what == "tick":
        pass
    elif what == "delete":
        told |= {"occ": occurrence_text(operation[:2])}
    elif what == "extend":
        told |= {"records": extension_of(chance, plan)}
    else:
        told |= {"op": key_text(operation)} | ({"code": "S0C7"} if what == "error" else {})
    return told


class Trial:
    """What was tried, and what wasn't as it has to be."""

    def __init__(self, program, folder):
        self.program, self.folder = program, folder
        self.counts, self.wrong = Counter(), []

    def run(self, *words):
        ran = subprocess.run([str(self.program), *words], cwd=self.folder, capture_output=True)
        return ran.returncode, ran.stdout, ran.stderr

    def judge(self, is_so, *told):
        if not is_so:
            self.wrong.append(told)
            if len(self.wrong) <= 5:
                print("WRONG", *told, sep="\n", file=sys.stderr)


def ask(trial, chance, plan):
    """Why each of some operations doesn't go on, now and at other minutes."""
    for operation in chance.sample(sorted(plan.operations), min(4, len(plan.operations))):
        minute = chance.choice((plan.clock, plan.clock, minute_of(EVENING) + chance.choice(MINUTES)))
        words = [] if minute == plan.clock else ["--at", moment_text(minute)]
        got = trial.run("why", "--db", "night.db", "--op", key_text(operation), *words)
        wanted = why_text(plan, operation, minute)
        trial.judge(got == (0, wanted.encode(), b""), "why", got, wanted)
        trial.counts["answers of why"] += 1
        for line in wanted.splitlines()[1:-1]:
            trial.counts["lines: " + re.sub(r"[A-Z0-9]+/\S+|WS\d|FILE\d|\d{4}-\S+|\d+", "_", line)[:24]] += 1


def judge_extension(trial, chance, plan):
    """An extension beside the plan: no fault exactly where the plan takes it at its clock, else each line that is in the way."""
    text = wilder(chance, plan, extension_of(chance, plan))
    (trial.folder / "next.csv").write_text(text)
    refusal, _, _ = answered(plan, {"at": moment_text(plan.clock), "do": "extend", "records": text})
    if refusal == 21:
        return
    wanted = list(beside_lines(plan, text)) if refusal else []
    status, told, fault = trial.run("validate", "--extension", "next.csv", "--db", "night.db")
    got = told.decode().splitlines() or [""]
    closes = re.fullmatch(r"line (\d+): dependency: closes a path that returns: no path may: (.*)", got[0])
    if refusal == 19 and closes and not wanted and is_path_told(plan, text, int(closes[1]), closes[2].split(", ")):
        wanted = got[:1]
    trial.judge(not fault and status == (1 if refusal else 0) and got == wanted + [f"{len(wanted)} faults" if refusal else "no faults"],
                "extension", text, wanted, refusal, got, fault)
    trial.counts[f"extensions refused {refusal}" if refusal else "extensions without faults"] += 1


def ask_for(trial, plan, request):
    """One request by `do`; the plan that it has to make."""
    refusal, named, made = answered(plan, request)
    got = trial.run("do", "--db", "night.db", "--request", json.dumps(request))
    wanted = answer_text(refusal, named)
    trial.judge(got == (1 if refusal else 0, wanted.encode(), b""), "do", request, got, wanted)
    trial.counts["requests refused" if refusal else "requests accepted"] += 1
    return made


def look_at(trial, wanted):
    """The plan that stands in the tables, which has to be this one."""
    rows = rows_of(trial.folder / "night.db")
    plan = plan_in(rows)
    trial.judge(plan == wanted and do_follow(rows, plan), "tables", plan, wanted)
    return plan


def play_night(trial, seed, requests):
    chance = random.Random(seed)
    for name in ("night.db", "night.db-wal"):
        (trial.folder / name).unlink(missing_ok=True)
    text = plan_of(chance)
    (trial.folder / "plan.csv").write_text(text)
    refusal, named, made = answered(Plan(), {"at": EVENING, "do": "load", "records": text})
    got = trial.run("load", "--db", "night.db", "--plan", "plan.csv", "--at", EVENING)
    if refusal or got[0]:
        raise Unmeasured(f"the plan of {seed} isn't accepted: {refusal}, {got}")
    trial.judge(got[1:] == (answer_text(refusal, named).encode(), b""), "load", got, named)
    at = minute_of(EVENING)
    for _ in range(requests):
        plan = look_at(trial, made)
        ask(trial, chance, plan)
        judge_extension(trial, chance, plan)
        at += chance.choice((0, 0, 1, 5, 30))
        made = ask_for(trial, plan, request_of(chance, plan, at))
    look_at(trial, made)


def warnings_of(text):
    """What the records of a plan's text are warned of, in their order: docs/PROOF.md, of `warnings_of_text`."""
    records = [[field.decode() for field in fields] for fields in records_of(text)]
    starts_known = {fields[1]: fields[2] in "AS" for fields in records if fields[0] == "W"}
    deadlines = {tuple(fields[1:3]): fields[4] for fields in records if fields[0] == "O"}
    offered = {name: [[int(it) for it in fields[4:7]] for fields in records if fields[:2] == ["I", name]] for name in starts_known}
    for fields in records:
        if fields[0] == "W" and starts_known[fields[1]] and not offered[fields[1]]:
            yield "workstation: has no open interval: nothing starts on it"
        if fields[0] != "P":
            continue
        needed, intervals = [1, int(fields[6]), int(fields[7])], offered[fields[4]]
        if starts_known[fields[4]] and intervals and not any(all(map(int.__le__, needed, it)) for it in intervals):
            yield "operation: needs more than each open interval of its workstation has of servers, R1 or R2: it never starts"
        begin = max(minute_of(it) for it in (fields[2], fields[8]) if it)
        if minute_of(fields[9] or deadlines[tuple(fields[1:3])]) < begin + int(fields[5]):
            yield "operation: its deadline is too early: from its not-before or its input arrival on, its duration goes past it"


def judge_texts(trial, seed, texts):
    """Whether a text has faults exactly where it denotes no plan, each told with a line that it has."""
    chance = random.Random(seed)
    night = (HERE.parent / "examples" / "night" / "night.csv").read_bytes()
    for turn in range(texts):
        text = rewritten(chance, night) if turn % 2 else rewritten(chance, plan_of(chance).encode())
        (trial.folder / "text.csv").write_bytes(text)
        status, told, fault = trial.run("validate", "--plan", "text.csv")
        told_lines = told.decode("utf-8", "replace").splitlines()
        lines = [line for line in told_lines if not line.startswith("warning: ")]
        is_plan = denotes_plan(text)
        warned = [re.sub(r"^warning: line \d+: ", "", line) for line in told_lines if line.startswith("warning: ")]
        expected = list(warnings_of(text)) if is_plan else warned
        more = [f"warning: {len(expected) - 100} more"] if is_plan and len(expected) > 100 else []
        trial.judge(warned == (expected[:100] + more if is_plan else warned), "warnings", expected, told, text)
        trial.judge(not fault and (status, lines) == (0, ["no faults"]) if is_plan else status == 1 and len(lines) > 1,
                    "validate", is_plan, status, told, fault, text)
        count = re.fullmatch(r"(\d+) faults", lines[-1]) if lines and not is_plan else None
        numbers = [re.match(r"line (\d+): .", line) for line in lines[:min(100, int(count[1]))]] if count else []
        most = text.count(b"\n") + text.count(b"\r") + 1
        trial.judge(is_plan or (count and all(number and 1 <= int(number[1]) <= most for number in numbers)),
                    "lines", told, text)
        trial.counts["texts without faults" if is_plan else "texts with faults"] += 1


def main():
    words = argparse.ArgumentParser(description=__doc__.splitlines()[0])
    words.add_argument("--nights", type=int, default=60)
    words.add_argument("--requests", type=int, default=40, help="requests of each night")
    words.add_argument("--texts", type=int, default=2000)
    words.add_argument("--seed", type=int, default=1)
    words.add_argument("--program", type=Path, default=PROGRAM)
    given = words.parse_args()
    try:
        if not given.program.exists():
            raise Unmeasured(f"no program {given.program}: bin/plandesk builds it")
        with tempfile.TemporaryDirectory() as folder:
            trial = Trial(given.program.resolve(), Path(folder))
            for night in range(given.nights):
                play_night(trial, f"{given.seed}/{night}", given.requests)
            judge_texts(trial, f"{given.seed}/texts", given.texts)
    except (Unmeasured, OSError, sqlite3.Error) as fault:
        print(f"whys: {fault}", file=sys.stderr)
        return 2
    for what, count in sorted(trial.counts.items()):
        print(f"{count:7} {what}")
    print(f"{sum(trial.counts[one] for one in ('answers of why', 'texts with faults', 'texts without faults'))} tried,"
          f" {len(trial.wrong)} wrong")
    return 1 if trial.wrong else 0


if __name__ == "__main__":
    sys.exit(main())
