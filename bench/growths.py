#!/usr/bin/env python3
"""Refuses each growth of memory of `plandesk` in turn, one a run and no other.

    growths.py [--every N] [--program PATH]

A night's requests are made over a database, each once for each growth that it asks for: by `load`, `extend` and `do`, a tracker's
reports by `serve`; and the commands that only read, `validate`, `check`, `play`, `report` and `why`. Each answer has to be
that of a run with memory, or tell that memory lacks: `refused 25 Memory`, `fault memory`, 503 with 25, or no reply; of a
text a beginning may stand before that. Then the tables have to be those from before the request (after no reply, those
before it or after it), and the request, made again with memory, has to be answered as it is without the refusal, and to
leave the same tables. What the opening of a database asks for is refused in the first request over one; the others are
tried from the end of their openings on. With --every N only each N-th growth is refused.

It needs gcc. Exit status: 0 all is so, 1 it isn't, 2 nothing could be tried.
"""
import argparse
import json
import os
import shutil
import sqlite3
import subprocess
import sys
from concurrent.futures import ProcessPoolExecutor
from pathlib import Path

from measure import HERE, PROGRAM, Unmeasured, tried_in_a_folder
from served import Cut, Served, reply_of, report_text, request_bytes, rows

PLAN = """W,CPU1,A,,,,,,,
W,SETP,S,,,,,,,
W,PRT1,C,,,,,,,
W,DUMM,N,,,,,,,
I,CPU1,2024-03-01T22:00,2024-03-02T06:00,2,3,0,,,
I,SETP,2024-03-01T22:00,2024-03-02T02:00,1,0,0,,,
X,CUSTFILE,Y,,,,,,,
O,PAYROLL,2024-03-01T22:00,5,2024-03-02T05:00,,,,,
P,PAYROLL,2024-03-01T22:00,5,SETP,10,0,0,,
P,PAYROLL,2024-03-01T22:00,10,CPU1,30,0,0,,
P,PAYROLL,2024-03-01T22:00,20,CPU1,60,0,0,,
P,PAYROLL,2024-03-01T22:00,30,DUMM,1,0,0,,
P,PAYROLL,2024-03-01T22:00,40,PRT1,20,0,0,,
N,PAYROLL,2024-03-01T22:00,20,CUSTFILE,X,K,,,
D,PAYROLL,2024-03-01T22:00,5,PAYROLL,2024-03-01T22:00,10,,,
D,PAYROLL,2024-03-01T22:00,10,PAYROLL,2024-03-01T22:00,20,,,
D,PAYROLL,2024-03-01T22:00,20,PAYROLL,2024-03-01T22:00,30,,,
D,PAYROLL,2024-03-01T22:00,30,PAYROLL,2024-03-01T22:00,40,,,
"""
BILLING = """O,BILLING,2024-03-01T22:00,5,2024-03-02T03:00,,,,,
P,BILLING,2024-03-01T22:00,10,CPU1,30,0,0,,
N,BILLING,2024-03-01T22:00,10,CUSTFILE,S,F,,,
"""
BILLING_LAST = BILLING + "D,PAYROLL,2024-03-01T22:00,40,BILLING,2024-03-01T22:00,10,,,\n"
PAYROLL = "".join(line for line in PLAN.splitlines(True) if line[0] in "OPD")
NEXT_NIGHT = """O,PAYROLL,2024-03-02T22:00,5,2024-03-03T05:00,,,,,
P,PAYROLL,2024-03-02T22:00,10,CPU1,30,0,0,,
"""
AFTER_THE_OLD = NEXT_NIGHT + "D,PAYROLL,2024-03-01T22:00,40,PAYROLL,2024-03-02T22:00,10,,,\n"
TEXTS = ("plan.csv", "next.csv", "asked.jsonl")
FIRST_GROWTHS_MISSED = 3
GROWTHS_AROUND = 200
MOST_SHOWN = 20


def operation(number, application="PAYROLL"):
    return f"{application}/2024-03-01T22:00/{number:03}"


def on(evening, verb, number, **more):
    """What an operator asks about an operation of PAYROLL, and at what time."""
    return {"at": f"2024-03-01T{evening}", "do": verb, "op": operation(number), **more}


def told(*named):
    return "".join(f"{line}\n" for line in ("accepted", *(f"starts {key}" for key in named)))


LOADING = [("load", told())]
UNTIL_TEN_ENDS = LOADING + [
    (on("22:00", "started", 5), told()),
    (on("22:10", "ended", 5), told(operation(10))),
    (on("22:40", "ended", 10), told(operation(20))),
    ({"at": "2024-03-01T22:45", "do": "add", "records": BILLING}, told())]
FAILED = (on("23:00", "error", 20, code="S0C7"), told())
DELETED = {"at": "2024-03-01T21:00", "do": "delete", "occ": "PAYROLL/2024-03-01T22:00"}
# Each night: how many of its turns only lead up to those that are tried, and the turns, each with what it is told.
NIGHTS = {
    "a run that fails and is made again": (0, UNTIL_TEN_ENDS[:3] + [
        (on("22:20", "interrupted", 10), "refused 10 WrongWorkstation\n")] + UNTIL_TEN_ENDS[3:] + [
        FAILED, (on("23:05", "rerun", 20), told(operation(10, "BILLING")))]),
    "a run that ends": (5, UNTIL_TEN_ENDS + [
        (on("23:40", "ended", 20), told(operation(10, "BILLING"))), (on("23:50", "ended", 40), told()),
        ({"at": "2024-03-01T23:55", "do": "extend", "records": AFTER_THE_OLD}, "refused 5 UnknownOperation\n"),
        ("extend", told("PAYROLL/2024-03-02T22:00/010")),
        ({"at": "2024-03-01T23:56", "do": "extend", "records": ""}, told())]),
    "a deletion while it runs": (5, UNTIL_TEN_ENDS + [
        ({**DELETED, "at": "2024-03-01T22:50"}, "refused 17 Running\n")]),
    "a deletion, an addition and a dependency": (1, LOADING + [
        ({"at": "2024-03-01T21:00", "do": "add", "records": BILLING_LAST}, told()),
        (DELETED, told()), (DELETED, "refused 9 WrongStatus\n"),
        ({"at": "2024-03-01T21:00", "do": "add", "records": PAYROLL}, "refused 18 Duplicate\n")]),
    "a new dependency": (1, LOADING + [
        ({"at": "2024-03-01T21:00", "do": "depend", "from": operation(5), "to": operation(40)}, told())]),
}
REPORTS = [
    (report_text("T1", 1, "2024-03-01T22:00", "started", operation(5)), 200, '{"named":[]}'),
    (report_text("T1", 2, "2024-03-01T22:10", "ended", operation(5)), 200, f'{{"named":["{operation(10)}"]}}'),
    (report_text("T1", 3, "2024-03-01T22:11", "started", operation(10)), 200, '{"named":[]}'),
    (report_text("T1", 4, "2024-03-01T22:40", "ended", operation(10)), 200, f'{{"named":["{operation(20)}"]}}'),
    (report_text("T1", 4, "2024-03-01T22:40", "ended", operation(10)), 200, f'{{"named":["{operation(20)}"]}}'),
    (report_text("T1", 4, "2024-03-01T22:41", "ended", operation(10)), 409, '{"name":"Reused","refusal":24}'),
    (report_text("T1", 6, "2024-03-01T22:41", "ended", operation(20)), 409, '{"name":"Gap","refusal":23}'),
    (report_text("T1", 3, "2024-03-01T22:11", "started", operation(10)), 409, '{"name":"Old","refusal":22}'),
    (report_text("T1", 0, "2024-03-01T22:11", "started", operation(10)), 409, '{"name":"Old","refusal":22}')]
READING = [
    ["validate", "--plan", "plan.csv"],
    ["validate", "--extension", "next.csv"],
    ["check", "--plan", "plan.csv", "--at", "2024-03-01T21:00"],
    ["play", "--plan", "plan.csv", "--at", "2024-03-01T21:00", "--requests", "asked.jsonl"],
    *(["report", "--db", "night.db", "--kind", kind, "--ws", "CPU1"]
      for kind in ("ready", "occurrences", "errors", "late")),
    ["why", "--db", "night.db", "--op", operation(10, "BILLING")],
    ["why", "--db", "night.db", "--op", operation(40)]]


class Wrong(Exception):
    """What isn't as it has to be."""


def words_of(asked):
    if asked == "load":
        return ["load", "--db", "night.db", "--plan", "plan.csv", "--at", "2024-03-01T21:00"]
    if asked == "extend":
        return ["extend", "--db", "night.db", "--plan", "next.csv", "--at", "2024-03-01T23:55"]
    return ["do", "--db", "night.db", "--request", json.dumps(asked, separators=(",", ":"))]


def surroundings(given, growth=None):
    """The environment of a run in which this growth is refused, or none."""
    if growth is None:
        return dict(os.environ)
    return {**os.environ, "LD_PRELOAD": given.refuser, "GROWTH_REFUSED": str(growth), "GROWTH_TOLD": "refused"}


def run(given, folder, words, growth=None):
    ended = subprocess.run([given.program, *words], cwd=folder, env=surroundings(given, growth), capture_output=True,
                           text=True)
    return ended.returncode, ended.stdout, ended.stderr


def lacks_memory(ended, whole):
    """Whether a run tells that memory lacks, and shows before that a beginning of what it shows with memory, or nothing."""
    status, out, err = ended
    if err == "fault memory\n":
        return status == 3 and whole.startswith(out)
    beginning, refusal, rest = out.partition("refused 25 Memory\n")
    # the requests behind it are made of a plan without it, where more than one is made
    goes_on = whole[:2] == "1 " and "refused 25" not in rest
    return status == 1 and not err and bool(refusal) and (not rest or goes_on) and whole.startswith(beginning)


def tables_of(folder):
    """The rows of the tables; None where there is no database, or it has none of them."""
    if not (folder / "night.db").exists():
        return None
    try:
        return rows(folder)
    except sqlite3.OperationalError as fault:
        if str(fault) == "no such table: meta":
            return None
        raise


def put_back(folder, kept):
    """The database as it was kept."""
    (folder / "refused").unlink(missing_ok=True)
    for name in ("night.db", "night.db-wal"):
        (folder / name).unlink(missing_ok=True)
        if (kept / name).exists():
            shutil.copy(kept / name, folder / name)


def is_before(tables, before):
    """Whether the tables are those from before; a load may have made them, and left them empty."""
    if before is None:
        return tables is None or all(not found for table, found in tables.items() if table != "meta")
    return tables == before


def without_growth(given, folder, kept, command, growth):
    """Makes a request without this growth. Whether there was such a growth, and whether memory lacked for it."""
    words, whole, before, after = command
    put_back(folder, kept)
    ended = run(given, folder, words, growth)
    was_refused = (folder / "refused").exists()
    if ended == whole:
        if tables_of(folder) != after:
            raise Wrong(f"{words}: growth {growth}: answered as with memory, over other tables")
        return was_refused, False
    if not was_refused or not lacks_memory(ended, whole[1]):
        raise Wrong(f"{words}: growth {growth}: {ended}")
    if not is_before(tables_of(folder), before):
        raise Wrong(f"{words}: growth {growth}: told that memory lacks, over other tables")
    again = run(given, folder, words)
    if again != whole or tables_of(folder) != after:
        raise Wrong(f"{words}: growth {growth}: again, with memory: {again}")
    return True, True


def growths_of_opening(given, folder):
    """How many growths a request asks for that is refused at once, less some that the ends of runs ask for."""
    asked = words_of({"at": "1972-01-01T00:00", "do": "tick"})
    least, most = 0, 1
    while True:
        (folder / "refused").unlink(missing_ok=True)
        run(given, folder, asked, most)
        if not (folder / "refused").exists():
            break
        least, most = most, 2 * most
    while most - least > 1:
        middle = (least + most) // 2
        (folder / "refused").unlink(missing_ok=True)
        run(given, folder, asked, middle)
        least, most = (middle, most) if (folder / "refused").exists() else (least, middle)
    return max(1, least - GROWTHS_AROUND)


def exchange(desk, text):
    """The status and the body of the reply to a report; None where there is no reply."""
    try:
        written = desk.exchange(request_bytes("POST", "/report", text))
    except ConnectionResetError:
        return None
    if not written:
        return None
    status, _, body = reply_of(written)
    return status, body.decode()


def served(given, folder, text, growth=None):
    """The reply to a report at a desk that serves it alone, None for none, and whether the desk came to listen."""
    try:
        desk = Served(given.program, folder, connections=1, env=surroundings(given, growth))
    except Unmeasured:
        return None, False
    try:
        return exchange(desk, text), True
    finally:
        desk.process.wait(timeout=30)
        desk.kill()


def without_growth_served(given, folder, kept, command, growth):
    """The same of a tracker's report; after no reply the tables are those before it or those after it."""
    text, whole, before, after = command
    put_back(folder, kept)
    answer, _ = served(given, folder, text, growth)
    was_refused = (folder / "refused").exists()
    if answer == whole:
        if tables_of(folder) != after:
            raise Wrong(f"{text}: growth {growth}: answered as with memory, over other tables")
        return was_refused, False
    if not was_refused or answer not in (None, (503, '{"name":"Memory","refusal":25}')):
        raise Wrong(f"{text}: growth {growth}: {answer}")
    left = tables_of(folder)
    if left != before and (answer is not None or left != after):
        raise Wrong(f"{text}: growth {growth}: {answer}, over other tables")
    again, _ = served(given, folder, text)
    if again != whole or tables_of(folder) != after:
        raise Wrong(f"{text}: growth {growth}: again, with memory: {again}")
    return True, True


def swept(given, folder, kept, command, way, first):
    """A request without each growth from this one on, in steps: how many were refused, for how many memory lacked, and
    what went otherwise."""
    refused, lacking, wrong, missed = 0, 0, [], 0
    growth = first
    while missed < FIRST_GROWTHS_MISSED and len(wrong) < MOST_SHOWN:
        try:
            was_refused, lacked = way(given, folder, kept, command, growth)
            refused += was_refused
            lacking += lacked
            missed = 0 if was_refused else missed + 1
        except (Wrong, Cut, OSError) as fault:
            wrong.append(str(fault))
        growth += given.step
    return refused, lacking, wrong


def sweep(given, folder, name, command, way):
    """The same with the work parted among the processors."""
    kept, first = folder, 1
    if tables_of(folder) and command[0][0] not in ("validate", "check", "play"):
        first = growths_of_opening(given, folder) if given.is_opening_tried else 1
        given.is_opening_tried = True
    given.step = given.every * given.workers
    parts = []
    for at in range(given.workers):
        parts.append(folder / f"part{at}")
        shutil.rmtree(parts[-1], ignore_errors=True)
        parts[-1].mkdir()
        for text in TEXTS:
            shutil.copy(folder / text, parts[-1] / text)
    with ProcessPoolExecutor(given.workers) as pool:
        made = [pool.submit(swept, given, part, kept, command, way, first + at * given.every)
                for at, part in enumerate(parts)]
        results = [it.result() for it in made]
    refused, lacking = sum(it[0] for it in results), sum(it[1] for it in results)
    wrong = [line for it in results for line in it[2]]
    print(f"{refused:7} refused, {lacking:7} answered that memory lacks: {name}", flush=True)
    for line in wrong[:MOST_SHOWN]:
        print(f"  {line}")
    given.refused += refused
    given.wrong += len(wrong)


def asked_once(given, folder, words):
    """The request with memory over a copy: how it ends, and the tables before and after."""
    before = tables_of(folder)
    copy = folder / "copy"
    shutil.rmtree(copy, ignore_errors=True)
    copy.mkdir()
    for text in TEXTS:
        shutil.copy(folder / text, copy / text)
    put_back(copy, folder)
    return copy, before, run(given, copy, words) if isinstance(words, list) else served(given, copy, words)[0]


def without_database(folder):
    for name in ("night.db", "night.db-wal"):
        (folder / name).unlink(missing_ok=True)


def play_night(given, folder, name, lead, turns):
    without_database(folder)
    for at, (asked, wanted) in enumerate(turns):
        words = words_of(asked)
        copy, before, ended = asked_once(given, folder, words)
        status = 0 if wanted.startswith("accepted") else 1
        if ended != (status, wanted, ""):
            raise Unmeasured(f"{words} ended with {ended}")
        if at >= lead:
            verb = asked if isinstance(asked, str) else asked["do"]
            sweep(given, folder, f"{name}: {verb}", (words, ended, before, tables_of(copy)), without_growth)
        put_back(folder, copy)


def play_reports(given, folder):
    without_database(folder)
    run(given, folder, words_of("load"))
    for text, status, body in REPORTS:
        copy, before, answer = asked_once(given, folder, text)
        if answer != (status, body):
            raise Unmeasured(f"{text} is answered {answer}")
        sweep(given, folder, f"served: {body}", (text, answer, before, tables_of(copy)), without_growth_served)
        put_back(folder, copy)


def play_reading(given, folder):
    """What only reads, over the night in which a run failed."""
    without_database(folder)
    for asked, _ in UNTIL_TEN_ENDS + [FAILED]:
        run(given, folder, words_of(asked))
    for words in READING:
        copy, before, ended = asked_once(given, folder, words)
        if ended[0] != 0 or ended[2]:
            raise Unmeasured(f"{words} ended with {ended}")
        sweep(given, folder, " ".join(words[:1] + words[3:]), (words, ended, before, before), without_growth)


def build(folder):
    refuser = folder / "growths.so"
    made = subprocess.run(["gcc", "-O2", "-shared", "-fPIC", "-o", str(refuser), str(HERE / "growths.c")],
                          capture_output=True, text=True)
    if made.returncode != 0:
        raise Unmeasured(f"gcc: {made.stderr[:200]}")
    return str(refuser)


def play_all(given, folder):
    given.refuser = build(folder)
    (folder / "plan.csv").write_text(PLAN)
    (folder / "next.csv").write_text(NEXT_NIGHT)
    lines = [json.dumps(asked) for asked, _ in UNTIL_TEN_ENDS[1:] + [FAILED]]
    (folder / "asked.jsonl").write_text("".join(f"{line}\n" for line in lines))
    for night, (lead, turns) in NIGHTS.items():
        play_night(given, folder, night, lead, turns)
    play_reports(given, folder)
    play_reading(given, folder)


def main():
    options = argparse.ArgumentParser(description=__doc__.split("\n")[0])
    options.add_argument("--every", type=int, default=1)
    options.add_argument("--program", type=Path, default=PROGRAM)
    given = options.parse_args()
    given.program = str(given.program.resolve())
    given.workers, given.refused, given.wrong, given.is_opening_tried = os.cpu_count() or 1, 0, 0, False
    if status := tried_in_a_folder(lambda folder: play_all(given, folder)):
        return status
    print(f"{given.refused} growths refused, one a run; {given.wrong} answers otherwise than they have to be")
    return 1 if given.wrong or not given.refused else 0


if __name__ == "__main__":
    sys.exit(main())
