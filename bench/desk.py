#!/usr/bin/env python3
"""Tries `plandesk desk` over sockets: looks, silent clients, the clock's guard, the journal under stops; and its rates.

    desk.py [--stops N] [--reports N] [--size N] [--seed N] [--only NAME] [--program PATH]

`looks`: each look before and after a report, beside what `report`, `why` and `show` print over a copy of the files; HEAD,
POST on a look, what isn't there. `clients`: silent ones, one that sends half a head, one that doesn't read, a burst.
`guard`: 422 on either side of the limit, and not before a load. `opening`: `--at`, and journals that can't be had or take
nothing. `stops`: so many stops by SIGTERM and `kill -9` at moments drawn by chance; the journal has whatever acted, before
its answer, and the requests that it has as accepted, played again, leave the same rows and the same answers. `rates`:
reports at `serve`, at `desk`, and at `desk` with a journal, in turn.

Exit status: 0 all is so, 1 it isn't, 2 nothing could be tried.
"""
import argparse
import json
import random
import resource
import shutil
import signal
import socket
import sqlite3
import subprocess
import sys
import tempfile
import threading
import time
from contextlib import ExitStack
from pathlib import Path
from statistics import median

from measure import HERE, MOMENT, PROGRAM, Unmeasured
from rules import minute_of, moment_text
from served import JOURNAL, JSON, Served, journal_of, load, received, reply_of, report_text, request_bytes, rows

DAILY = "DAILY/2024-03-01T22:00"
FIRST, SECOND = f"{DAILY}/010", f"{DAILY}/020"
MINUTES_AHEAD = 1440
EXCHANGE_SECONDS = 10
MOST_WAITING = 64
MOST_SHOWS = 0.05           # seconds that a look at the largest plan may take
MOST_TIMES = {"desk": 1.05, "desk with a journal": 1.10}    # of what a report takes at `serve`
KEPT = ("night.db", "night.db-wal", JOURNAL)


class Wrong(Exception):
    """The desk doesn't do what it has to."""


def judge(is_so, what, *got):
    if not is_so:
        raise Wrong(f"{what}: " + ", ".join(repr(one)[:600] for one in got))


def run(given, folder, *words):
    """The status of a command, and what it prints, on standard output and on standard error."""
    ended = subprocess.run([str(word) for word in (given.program, *words)], cwd=folder, capture_output=True, timeout=60)
    return ended.returncode, ended.stdout, ended.stderr


def begin(given, folder, plan):
    """A folder with the database of a plan, loaded at its evening, and nothing else."""
    for name in KEPT:
        (folder / name).unlink(missing_ok=True)
    (folder / "plan.csv").write_text(plan)
    return load(given.program, folder, "plan.csv", MOMENT)


def day_plan():
    return (HERE.parent / "examples" / "day.csv").read_text()


def trackers_plan(count):
    """An operation for each of so many trackers, all on one manual workstation that has servers for all."""
    lines = ["W,SETP,S,,,,,,,", f"I,SETP,2024-03-01T22:00,2024-03-02T02:00,{count},0,0,,,",
             "O,PAYROLL,2024-03-01T22:00,5,2024-03-02T05:00,,,,,"]
    lines += [f"P,PAYROLL,2024-03-01T22:00,{n + 1},SETP,10,0,0,," for n in range(count)]
    return "\n".join(lines) + "\n"


def tick_text(minute):
    return json.dumps({"at": moment_text(minute), "do": "tick"}, separators=(",", ":"))


# Looks

PRINTED = {
    "/report/occurrences": ("report", "--kind", "occurrences"), "/report/errors": ("report", "--kind", "errors"),
    "/report/late": ("report", "--kind", "late"), "/report/ready/CPU1": ("report", "--kind", "ready", "--ws", "CPU1"),
    f"/why/{FIRST}": ("why", "--op", FIRST), f"/why/{SECOND}": ("why", "--op", SECOND),
    "/show/started": ("show", "--kind", "started"), f"/show/operations/{DAILY}": ("show", "--kind", "operations", "--occ", DAILY),
    "/show/resources": ("show", "--kind", "resources"), "/show/workstations": ("show", "--kind", "workstations"),
    "/show/trackers": ("show", "--kind", "trackers"),
}
REFUSED = {"/started/NONE": (7, "UnknownWorkstation"), "/report/ready/NONE": (7, "UnknownWorkstation"),
           "/why/NONE": (5, "UnknownOperation"), f"/why/{DAILY}/099": (5, "UnknownOperation"),
           "/show/operations/NONE": (6, "UnknownOccurrence")}
NOWHERE = ("/", "/nothing", "/report/", "/report/none", "/report/ready", "/report/ready/", "/show", "/show/none", "/why", "/why/",
           "/started/", "/show/operations", "/show/operations/", "/health/", "/Health")


def started_row(mark, operation, minutes):
    return {"duration": minutes, "mark": mark, "op": operation, "ws": "CPU1"}


def look_at_all(given, folder, desk, clock, started):
    """Each look of the day's plan, by which nothing changes; its texts as the commands print them over a copy."""
    before = rows(folder)
    with tempfile.TemporaryDirectory() as other:
        for name in KEPT[:2]:
            if (folder / name).exists():
                shutil.copy(folder / name, other)
        for path, words in PRINTED.items():
            status, out, err = run(given, other, words[0], "--db", "night.db", *words[1:])
            judge(status == 0, f"{words} over a copy", out, err)
            shown = desk.look(path)
            judge(shown == out, f"GET {path} isn't what {words[0]} prints", shown, out)
    health = json.loads(desk.look("/health", JSON))
    judge(health == {"clock": clock, "loaded": True}, "/health", health)
    for path in ("/started", "/started/CPU1", "/started/%43PU1"):
        told = desk.look(path, JSON)
        judge(told == json.dumps(started, separators=(",", ":")).encode(), path, told, started)
    for path, (number, name) in REFUSED.items():
        got = desk.ask("GET", path)
        judge(got == (409, b'{"name":"%s","refusal":%d}' % (name.encode(), number)), path, got)
    judge(rows(folder) == before, "a look changes the tables")


def look_by_other_methods(desk):
    for path in (*PRINTED, "/health", "/started", "/started/CPU1"):
        for method, body in (("POST", "{}"), ("HEAD", None), ("PUT", "{}")):
            got = reply_of(desk.exchange(request_bytes(method, path, body)))
            judge(got == (405, "GET", b'{"error":405}'), f"{method} {path}", got)
    for path in ("/report", "/operator"):
        got = reply_of(desk.exchange(request_bytes("GET", path)))
        judge(got == (405, "POST", b'{"error":405}'), f"GET {path}", got)
    for path in NOWHERE:
        got = desk.ask("GET", path)
        judge(got == (404, b'{"error":404}'), f"GET {path}", got)


def try_looks(given, folder):
    begin(given, folder, day_plan())
    desk = Served(given.program, folder, desk=[])
    try:
        look_at_all(given, folder, desk, MOMENT, [started_row("named", FIRST, 30)])
        report = report_text("T1", 1, "2024-03-01T22:01", "started", FIRST)
        judge(desk.report(report) == (200, b'{"named":[]}'), "a report", report)
        look_at_all(given, folder, desk, "2024-03-01T22:01", [started_row("started", FIRST, 30)])
        report = report_text("T1", 2, "2024-03-01T22:31", "ended", FIRST)
        judge(desk.report(report)[0] == 200, "a report", report)
        look_at_all(given, folder, desk, "2024-03-01T22:31", [started_row("named", SECOND, 60)])
        look_by_other_methods(desk)
    finally:
        desk.kill()
    return f"{3 * (len(PRINTED) + 4)} looks as the commands print them"


# Clients

def milliseconds(call):
    begun = time.perf_counter()
    call()
    return (time.perf_counter() - begun) * 1e3


def connections(desk, stack, count):
    return [stack.enter_context(desk.connect()) for _ in range(count)]


def is_closed(stream):
    stream.settimeout(0.05)
    try:
        return stream.recv(1) == b""
    except TimeoutError:
        return False
    except socket.timeout:
        return False
    except ConnectionError:
        return True


def ask_health(desk):
    desk.look("/health", JSON)


def try_silent(desk):
    """Behind silent clients the first answer comes at once; the oldest go where too many wait; the others are answered."""
    with ExitStack() as stack:
        connections(desk, stack, 20)
        time.sleep(0.1)
        taken = milliseconds(lambda: ask_health(desk))
        judge(taken < 50, "the first answer behind 20 silent clients, in milliseconds", taken)
    with ExitStack() as stack:
        silent = connections(desk, stack, 100)
        time.sleep(0.1)
        ask_health(desk)
        gone = [is_closed(stream) for stream in silent]
        judge(sum(gone) in (100 - MOST_WAITING, 101 - MOST_WAITING) and gone == sorted(gone, reverse=True),
              "of 100 silent clients the oldest are let go", sum(gone))
        for stream in silent[-5:]:
            stream.settimeout(EXCHANGE_SECONDS)
            stream.sendall(request_bytes("GET", "/health"))
            judge(reply_of(received(stream))[0] == 200, "who was silent is answered")
    return taken


def try_burst(desk, count):
    """So many at once, each of which sends at once, are all answered."""
    answered = []

    def ask():
        try:
            ask_health(desk)
            answered.append(True)
        except OSError as fault:
            answered.append(fault)

    clients = [threading.Thread(target=ask) for _ in range(count)]
    for client in clients:
        client.start()
    for client in clients:
        client.join()
    judge(answered.count(True) == count, f"a burst of {count}", [one for one in answered if one is not True][:3])


def try_half(desk):
    """Half a head holds the others no longer than an exchange may take."""
    with desk.connect() as half:
        half.sendall(b"GET / HT")
        time.sleep(0.1)
        taken = milliseconds(lambda: ask_health(desk)) / 1e3
        judge(EXCHANGE_SECONDS - 2 < taken < EXCHANGE_SECONDS + 2, "behind half a head, in seconds", taken)


def try_deaf(given, folder):
    """A client that doesn't read holds the others no longer than an exchange may take."""
    desk = Served(given.program, folder, desk=[])
    try:
        largest = desk.look("/report/occurrences")
        with socket.socket() as deaf:
            deaf.setsockopt(socket.SOL_SOCKET, socket.SO_RCVBUF, 4096)
            deaf.connect(("127.0.0.1", desk.port))
            deaf.sendall(request_bytes("GET", "/report/occurrences"))
            time.sleep(0.1)
            taken = milliseconds(lambda: ask_health(desk)) / 1e3
            judge(taken < EXCHANGE_SECONDS + 2, "behind a client that doesn't read, in seconds", taken)
        shown = [milliseconds(lambda: desk.look("/report/occurrences")) / 1e3 for _ in range(5)]
        judge(min(shown) < MOST_SHOWS, f"/report/occurrences, {len(largest)} bytes, in seconds", min(shown))
    finally:
        desk.kill()
    return taken, min(shown)


def try_clients(given, folder):
    begin(given, folder, day_plan())
    desk = Served(given.program, folder, desk=["--journal", JOURNAL])
    try:
        silent = try_silent(desk)
        try_burst(desk, 300)
        for sent in (b"", b"GET /health HTTP/1.1\r\n"):
            with desk.connect() as gone:
                gone.sendall(sent)
        try_half(desk)
        ask_health(desk)
        held = len(list(Path(f"/proc/{desk.process.pid}/fd").iterdir()))
        judge(held < 20, "descriptors after all have gone", held)
    finally:
        desk.kill()
    subprocess.run([sys.executable, HERE / "generate.py", str(given.size), "large.csv"], cwd=folder, check=True)
    begin(given, folder, (folder / "large.csv").read_text())
    deaf, shown = try_deaf(given, folder)
    return (f"first answer behind 20 silent clients {silent:.1f} ms, behind one that doesn't read {deaf:.1f} s; "
            f"/report/occurrences of {given.size} operations {shown * 1e3:.0f} ms")


# The clock's guard

def try_guard(given, folder):
    for words, ahead in (([], MINUTES_AHEAD), (["--ahead", "5"], 5), (["--ahead", "5256000"], 5256000)):
        begin(given, folder, day_plan())
        desk = Served(given.program, folder, desk=[*words, "--journal", JOURNAL])
        try:
            clock, before = minute_of(MOMENT), rows(folder)
            reports = [tick_text(clock + ahead + more) for more in (1, 1000000)]
            for text in reports:
                got = desk.ask("POST", "/operator", text)
                judge(got == (422, b'{"error":422}'), f"{text} with {words}", got)
            text = report_text("T1", 1, moment_text(clock + ahead + 1), "started", FIRST)
            judge(desk.report(text) == (422, b'{"error":422}'), text)
            judge(rows(folder) == before, "what is too far changes the tables")
            told, _ = journal_of(folder)
            judge([answer["status"] for _, answer in told] == [422] * 3, "the journal's lines of what is too far", told)
            text = tick_text(clock + ahead)
            judge(desk.ask("POST", "/operator", text)[0] == 200, f"{text} with {words}")
            judge(json.loads(desk.look("/health", JSON))["clock"] == moment_text(clock + ahead), "the clock after it")
        finally:
            desk.kill()
    (folder / "none.csv").write_text("")
    for name in KEPT:
        (folder / name).unlink(missing_ok=True)
    run(given, folder, "load", "--db", "night.db", "--plan", "none.csv", "--at", MOMENT)
    desk = Served(given.program, folder, desk=[])
    try:
        judge(desk.look("/health", JSON) == b'{"clock":null,"loaded":false}', "/health before a load")
        got = desk.ask("POST", "/operator", tick_text(minute_of("2070-01-01T00:00")))
        judge(got == (409, b'{"name":"NotLoaded","refusal":3}'), "a tick before a load", got)
        load_text = json.dumps({"at": "2070-01-01T00:00", "do": "load", "records": day_plan()})
        judge(desk.ask("POST", "/operator", load_text)[0] == 200, "a load, however far")
    finally:
        desk.kill()
    for wrong in ("0", "5256001", "-1", "x", ""):
        status, out, _ = run(given, folder, "desk", "--db", "night.db", "--port", "1", "--ahead", wrong)
        judge(status == 2 and not out, f"--ahead {wrong}", status, out)
    return "422 on either side of three limits"


# The opening, and faults of the journal and the store

def ended_by(desk, seconds=20):
    """The status that a desk ends with by itself, and what it says."""
    status = desk.process.wait(timeout=seconds)
    return status, desk.process.stderr.read()


def try_at(given, folder):
    """`--at` brings a plan to the present, by a tick that the journal has; earlier it does nothing."""
    begin(given, folder, day_plan())
    later = "2024-03-04T08:00"
    for at, clock, ticks in ((later, later, 1), (later, later, 1), (MOMENT, later, 1), ("2024-03-04T08:01", "2024-03-04T08:01", 2)):
        desk = Served(given.program, folder, desk=["--at", at, "--journal", JOURNAL])
        try:
            judge(json.loads(desk.look("/health", JSON))["clock"] == clock, f"the clock after --at {at}")
            told, _ = journal_of(folder)
            judge(len(told) == ticks and all(answer["status"] == 200 for _, answer in told), "the journal's ticks", told)
            judge(all(json.loads(entry["body"])["do"] == "tick" for entry, _ in told), "the journal's ticks", told)
        finally:
            desk.kill()
    words = ["desk", "--db", "night.db", "--port", "1", "--at"]
    got = run(given, folder, *words, "2072-01-01T00:00")
    judge(got[0] == 1 and b"--at 2072-01-01T00:00: more than --gap" in got[1], "--at far after the clock", got)
    got = run(given, folder, *words, "2024-13-01T00:00")
    judge(got == (2, b"", b"fault moment\n"), "--at that is no moment", got)


def try_journals(given, folder):
    """A journal that can't be had, and one that takes nothing: nothing is asked, and the desk ends."""
    begin(given, folder, day_plan())
    before = rows(folder)
    (folder / "folder").mkdir(exist_ok=True)
    for path in ("folder", "none/night.log"):
        got = run(given, folder, "desk", "--db", "night.db", "--port", "1", "--journal", path)
        judge(got == (3, b"", b"fault file\n"), f"--journal {path}", got)
    desk = Served(given.program, folder, desk=["--journal", "/dev/full"])
    try:
        judge(desk.look("/health", JSON) != b"", "a look needs no journal")
        sent = request_bytes("POST", "/report", report_text("T1", 1, MOMENT, "started", FIRST))
        try:
            written = desk.exchange(sent)
        except ConnectionError:
            written = b""
        judge(written == b"", "a report that the journal doesn't take", written)
        got = ended_by(desk)
        judge(got == (3, b"fault file\n"), "a journal that takes nothing", got)
    finally:
        desk.kill()
    judge(rows(folder) == before, "what the journal didn't take changes the tables")
    (folder / JOURNAL).write_bytes(b'{"body":"cut sh')
    desk = Served(given.program, folder, desk=["--journal", JOURNAL])
    try:
        judge(desk.report(report_text("T1", 1, MOMENT, "started", FIRST))[0] == 200, "a report")
    finally:
        desk.kill()
    lines = (folder / JOURNAL).read_bytes().split(b"\n")
    judge(lines[0] == b'{"body":"cut sh' and len(lines) == 4 and lines[3] == b"", "a line cut short is ended", lines)


def try_store(given, folder):
    """A store that fails: the answer is 26, and the desk ends, so that it is opened again."""
    begin(given, folder, day_plan())
    # a write beyond the greatest size of a file is a signal, which ends who doesn't ignore it
    desk = Served(given.program, folder, desk=[], restore_signals=False,
                  preexec_fn=lambda: signal.signal(signal.SIGXFSZ, signal.SIG_IGN))
    try:
        resource.prlimit(desk.process.pid, resource.RLIMIT_FSIZE, (1024, 1024))
        got = desk.report(report_text("T1", 1, MOMENT, "started", FIRST))
        judge(got == (503, b'{"name":"Store","refusal":26}'), "a store that fails", got)
        got = ended_by(desk)
        judge(got == (3, b"fault file\n"), "the desk after a 26", got)
    finally:
        desk.kill()
    desk = Served(given.program, folder, desk=[])
    try:
        judge(desk.report(report_text("T1", 1, MOMENT, "started", FIRST))[0] == 200, "the same, once it is opened again")
    finally:
        desk.kill()


def try_opening(given, folder):
    try_at(given, folder)
    try_journals(given, folder)
    try_store(given, folder)
    with socket.socket() as taken:
        taken.bind(("127.0.0.1", 0))
        taken.listen()
        got = run(given, folder, "desk", "--db", "night.db", "--port", taken.getsockname()[1])
        judge(got == (3, b"", b"fault network\n"), "a port that is taken", got)
    return "--at, journals and a store that fail"


# Stops

class Reports:
    """The reports of some trackers, in turn: each repeats what it had no answer to."""

    def __init__(self, count):
        self.names = [f"T{turn + 1}" for turn in range(count)]
        self.numbers, self.waiting = dict.fromkeys(self.names, 0), {}
        self.turn, self.answered = 0, []

    def send(self, desk):
        """One report, to which an answer comes or a cut."""
        name = self.names[self.turn % len(self.names)]
        number = self.numbers[name] + 1
        what = "started" if number % 2 else "interrupted"
        operation = f"PAYROLL/2024-03-01T22:00/{self.names.index(name) + 1:03}"
        text = self.waiting.setdefault(name, report_text(name, number, MOMENT, what, operation))
        status, body = desk.report(text)
        judge(status == 200, "a report", text, status, body)
        self.answered.append((text, body))
        self.numbers[name] = number
        del self.waiting[name]
        self.turn += 1


def judge_journal(folder, reports):
    """Each answered report has both lines, the answer its reply; each report that the tables have has its own."""
    told, _ = journal_of(folder)
    answers = [(entry["body"], json.dumps(answer["reply"], separators=(",", ":")).encode())
               for entry, answer in told if answer and answer["status"] == 200]
    judge(set(reports.answered) <= set(answers), "an answered report isn't in the journal",
          set(reports.answered) - set(answers))
    asked = {entry["body"] for entry, _ in told}
    kept = {bytes(row[2]).decode() for row in rows(folder)["receipt"]}
    judge(kept <= asked, "a report acted without its line", kept - asked)


def stop(desk, chance, reports):
    """Reports until the desk is stopped, at a moment drawn by chance."""
    killer = threading.Timer(chance.uniform(0, 0.05), desk.process.send_signal,
                             (chance.choice((signal.SIGTERM, signal.SIGKILL)),))
    killer.start()
    try:
        while True:
            reports.send(desk)
    except OSError:
        pass
    killer.join()
    desk.process.wait(timeout=20)
    desk.kill()


def play_again(given, folder, other, left):
    """What the journal has as accepted, sent alone: the same answers, and the same rows. And `play` says the same."""
    told, _ = journal_of(folder)
    shutil.copy(folder / "plan.csv", other)
    load(given.program, other, "plan.csv", MOMENT)
    desk = Served(given.program, other, desk=[])
    try:
        for entry, answer in told:
            if answer and answer["status"] == 200:
                got = desk.ask("POST", entry["path"], entry["body"])
                judge(got[0] == 200 and json.loads(got[1]) == answer["reply"], "played again", entry, answer, got)
    finally:
        desk.kill()
    judge(rows(other) == left, "the accepted requests of the journal leave other rows")
    got = run(given, folder, "play", "--plan", "plan.csv", "--at", MOMENT, "--journal", JOURNAL)
    judge(got[0] == 0, "play of the journal", got)


def try_stops(given, folder):
    begin(given, folder, trackers_plan(8))
    chance, reports, port = random.Random(given.seed), Reports(8), None
    for _ in range(given.stops):
        desk = Served(given.program, folder, port, desk=["--journal", JOURNAL])
        port = desk.port
        stop(desk, chance, reports)
        judge_journal(folder, reports)
    desk = Served(given.program, folder, port, desk=["--journal", JOURNAL])
    try:
        for _ in reports.names:
            reports.send(desk)
    finally:
        desk.kill()
    judge_journal(folder, reports)
    left = rows(folder)
    with tempfile.TemporaryDirectory() as other:
        play_again(given, folder, Path(other), left)
    return f"{given.stops} stops among {len(reports.answered)} reports: the journal has whatever acted"


# Rates

def processor_seconds(pid):
    fields = Path(f"/proc/{pid}/stat").read_text().rsplit(")", 1)[1].split()
    return (int(fields[11]) + int(fields[12])) / 100


def try_rates(given, folder):
    """Reports at each, in turn, so that what else the machine does counts for all alike."""
    ways = {"serve": None, "desk": [], "desk with a journal": ["--journal", JOURNAL]}
    desks, taken, used = {}, {way: [] for way in ways}, {}
    try:
        for at, (way, words) in enumerate(ways.items()):
            place = folder / str(at)
            place.mkdir(exist_ok=True)
            begin(given, place, trackers_plan(8))
            desks[way] = Served(given.program, place, desk=words), Reports(8)
        for way, (desk, _) in desks.items():
            used[way] = processor_seconds(desk.process.pid)
        for _ in range(given.reports):
            for way, (desk, reports) in desks.items():
                taken[way].append(milliseconds(lambda: reports.send(desk)))
        for way, (desk, _) in desks.items():
            used[way] = (processor_seconds(desk.process.pid) - used[way]) * 1e3 / given.reports
    finally:
        for desk, _ in desks.values():
            desk.kill()
    told = [f"{way} {median(taken[way]):.3f} ms, {used[way]:.3f} ms of processor" for way in ways]
    for way, most in MOST_TIMES.items():
        times = median(taken[way]) / median(taken["serve"])
        told.append(f"{way} {times:.2f} times serve")
        judge(times <= most, f"a report at {way}", ", ".join(told))
    return ", ".join(told)


TRIALS = {"looks": try_looks, "clients": try_clients, "guard": try_guard, "opening": try_opening, "stops": try_stops,
          "rates": try_rates}


def main():
    words = argparse.ArgumentParser(description=__doc__.splitlines()[0])
    words.add_argument("--stops", type=int, default=100, help="how often the desk is stopped")
    words.add_argument("--reports", type=int, default=2000, help="reports at each, for the rates")
    words.add_argument("--size", type=int, default=20_000, help="operations of the large plan")
    words.add_argument("--seed", type=int, default=1, help="what chance draws the moments of the stops from")
    words.add_argument("--only", choices=TRIALS, help="try this alone")
    words.add_argument("--program", type=Path, default=PROGRAM)
    given = words.parse_args()
    given.program = given.program.resolve()
    status = 0
    try:
        if not given.program.exists():
            raise Unmeasured(f"no program {given.program}: bin/build proves and builds it")
        for name in [given.only] if given.only else TRIALS:
            with tempfile.TemporaryDirectory() as folder:
                try:
                    print(f"{name}: {TRIALS[name](given, Path(folder))}", flush=True)
                except Wrong as wrong:
                    status = 1
                    print(f"{name}: WRONG: {wrong}", file=sys.stderr, flush=True)
        return status
    except (Unmeasured, OSError, sqlite3.Error, subprocess.SubprocessError) as fault:
        print(f"desk: {fault!r}", file=sys.stderr)
        return 2


if __name__ == "__main__":
    sys.exit(main())
