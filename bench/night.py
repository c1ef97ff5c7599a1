#!/usr/bin/env python3
"""Makes what plandesk has to answer in examples/night, played.txt, reports.txt and forecasts.txt, by a model: the rules of
rules.py, forecasts by forecast.py and the texts below, apart from the desk's own code.

    night.py --check                says where the kept copies in examples/night differ from what the model makes
    night.py --write FOLDER         writes them into a folder: examples/night itself, where a rule or a text is to change
    night.py --why KEY --after N    prints what `why` tells of an operation after so many of the requests

Exit status: 0 nothing differs, or it is written; 1 something differs; 2 a file isn't there, or a line is no request.
"""
import argparse
import difflib
import json
import sys
from pathlib import Path

from expected import is_operation, is_operators_request, object_of
from forecast import forecast_text
from rules import REFUSALS, WAITING_OR_READY, Plan, answered, key_text, minute_of, moment_text, operation_of

NIGHT = Path(__file__).resolve().parent.parent / "examples" / "night"
EVENING = "2024-03-01T19:30"    # the moment of the load
MORNING = "2024-03-02T07:00"    # the moment at which the second night comes in
# After which request each report is asked for, and of which workstation: as bin/night does.
REPORTED = ((13, "ready", "CPU1"), (22, "errors", None), (63, "late", None), (72, "occurrences", None), (74, "occurrences", None),
            (79, "late", None), (92, "occurrences", None))

# After which request a forecast is asked for, from the clock on: as bin/night does.
FORETOLD = 0, 24, 62


def lines_of(*lines):
    return "".join(f"{line}\n" for line in lines)


# The texts of reports. A column is told of a plan and of the key of a row.

def left(width, told):
    return lambda plan, key: f"{told(plan, key):<{width}}"


def right(width, told):
    return lambda plan, key: f"{told(plan, key):>{width}}"


APPLICATION = left(16, lambda plan, key: key[0])
ARRIVAL = left(16, lambda plan, key: moment_text(key[1]))
NUMBER = right(3, lambda plan, key: key[2])
WORKSTATION = left(4, lambda plan, key: plan.operations[key].workstation)
PRIORITY = left(1, lambda plan, key: plan.occurrences[key[:2]][0])
STATUS = left(1, lambda plan, key: plan.statuses[key])
LATEST = left(16, lambda plan, key: moment_text(plan.latest_starts[key]))


def ready(plan, workstation):
    """In ready order."""
    return [key for key in plan.ready() if plan.operations[key].workstation == workstation]


def occurrences(plan, _):
    """All of them, in key order."""
    return sorted(plan.occurrences)


def errors(plan, _):
    """Operations in error, in key order."""
    return sorted(key for key, status in plan.statuses.items() if status == "E")


def late(plan, _):
    """What waits or is ready and should have started before the clock, by latest start and key."""
    return sorted((key for key, status in plan.statuses.items()
                   if status in WAITING_OR_READY and plan.latest_starts[key] < plan.clock),
                  key=lambda key: (plan.latest_starts[key], key))


# Of each report its first line, the keys of its rows, and its columns.
REPORTS = {
    "ready": ("READY {workstation} AT {now}", ready, (
        APPLICATION, ARRIVAL, NUMBER, STATUS,
        left(1, lambda plan, key: "H" if plan.operations[key].held else "-"),
        PRIORITY,
        right(4, lambda plan, key: plan.operations[key].duration),
        LATEST)),
    "occurrences": ("OCCURRENCES AT {now}", occurrences, (
        APPLICATION, ARRIVAL, PRIORITY,
        left(1, lambda plan, key: plan.occurrence_status(key)),
        left(16, lambda plan, key: moment_text(plan.occurrences[key][1])),
        right(5, lambda plan, key: len(plan.statuses_in(key))),
        right(5, lambda plan, key: plan.statuses_in(key).count("C")))),
    "errors": ("ERRORS AT {now}", errors, (
        APPLICATION, ARRIVAL, NUMBER, WORKSTATION,
        left(4, lambda plan, key: plan.operations[key].code))),
    "late": ("LATE AT {now}", late, (APPLICATION, ARRIVAL, NUMBER, WORKSTATION, STATUS, LATEST)),
}


def report_text(plan, kind, workstation=None):
    head, keys_of, columns = REPORTS[kind]
    rows = [" ".join(column(plan, key) for column in columns) for key in keys_of(plan, workstation)]
    return lines_of(head.format(workstation=workstation, now=moment_text(plan.clock)), *rows, f"END {len(rows)}")


# The texts of answers and of `why`

def answer_text(refusal, named):
    if refusal:
        return lines_of(f"refused {refusal} {REFUSALS[refusal]}")
    return lines_of("accepted", *(f"starts {key_text(key)}" for key in named))


def why_text(plan, key, minute):
    """Why an operation doesn't go on at a minute, and the roots of what it waits for."""
    told = [reason for _, reason in plan.lacking(key, minute)]
    if plan.statuses[key] == "W":
        told += [f"root {key_text(one)} {plan.statuses[one]}" for one in plan.roots(key)]
    return lines_of(f"{key_text(key)} {plan.statuses[key]} {moment_text(minute)}", *told, f"END {len(told)}")


# The nights

class NotTold(Exception):
    """Nothing can be told: a line is no request, or there is no such operation."""


def text_in(name):
    return (NIGHT / name).read_bytes().decode()


def requests_of_both():
    """Both nights' requests, a line each, with the one by which the second comes in between."""
    extension = {"at": MORNING, "do": "extend", "records": text_in("next.csv")}
    return [*text_in("requests.jsonl").splitlines(), json.dumps(extension), *text_in("next.jsonl").splitlines()]


def steps():
    """The load and each request: its number, what `play` prints of it, and the plan after it. The load prints nothing."""
    refusal, _, plan = answered(Plan(), {"at": EVENING, "do": "load", "records": text_in("night.csv")})
    if refusal:
        raise NotTold(f"the load is refused {refusal}")
    yield 0, "", plan
    for number, line in enumerate(requests_of_both(), 1):
        if not is_operators_request(line.encode()):
            raise NotTold(f"request {number} is none: {line}")
        request = object_of(line.encode())
        refusal, named, plan = answered(plan, request)
        yield number, f"{number} {moment_text(minute_of(request['at']))}\n{answer_text(refusal, named)}", plan


def expected_texts():
    """What has to be played and reported, by the names of the files."""
    answers, reports, forecasts = [], [], []
    for number, answer, plan in steps():
        answers.append(answer)
        reports += [report_text(plan, kind, workstation) for after, kind, workstation in REPORTED if after == number]
        if number in FORETOLD:
            forecasts.append(forecast_text(plan, plan.clock))
    return {"played.txt": "".join(answers), "reports.txt": "\n".join(reports), "forecasts.txt": "\n".join(forecasts)}


def check():
    """Says where the kept copies differ. 1 where one does, else 0."""
    status = 0
    for name, made in expected_texts().items():
        kept = text_in(name)
        if kept == made:
            print(f"night: examples/night/{name} is as the model makes it")
        else:
            status = 1
            sys.stdout.writelines(difflib.unified_diff(
                kept.splitlines(keepends=True), made.splitlines(keepends=True), f"examples/night/{name}",
                "what the model makes"))
    return status


def write(folder):
    for name, made in expected_texts().items():
        (folder / name).write_bytes(made.encode())
    return 0


def tell_why(text, after):
    for number, _, plan in steps():
        if number == after and is_operation(text) and operation_of(text) in plan.operations:
            sys.stdout.write(why_text(plan, operation_of(text), plan.clock))
            return 0
    raise NotTold(f"no operation {text} after request {after}")


def main():
    words = argparse.ArgumentParser(description=" ".join(__doc__.splitlines()[:2]), epilog=__doc__.splitlines()[-1])
    what = words.add_mutually_exclusive_group(required=True)
    what.add_argument("--check", action="store_true", help="say where the kept copies in examples/night differ")
    what.add_argument("--write", type=Path, metavar="FOLDER", help="write the three files into a folder")
    what.add_argument("--why", metavar="KEY", help="print what `why` tells of an operation, as APP/MOMENT/NNN")
    words.add_argument("--after", type=int, default=0, metavar="N", help="after so many of the requests, for --why (0: after the load)")
    given = words.parse_args()
    try:
        if given.check:
            return check()
        return write(given.write) if given.write else tell_why(given.why, given.after)
    except (NotTold, OSError) as fault:
        print(f"night: {fault}", file=sys.stderr)
        return 2


if __name__ == "__main__":
    sys.exit(main())
