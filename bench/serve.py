#!/usr/bin/env python3
"""Measures `plandesk serve` on a small plan and on a full one, beside beanstalkd, which syncs its log as often.

    serve.py [--requests N] [--connections N] [--size N] [--seconds N] [--desk] [--program PATH]

With `--desk` it measures `desk` too, without a journal and with one.

README.md says what each figure is. Exit status: 0 all was answered as it has to be, 2 nothing could be measured.
"""
import argparse
import re
import shutil
import socket
import sqlite3
import subprocess
import sys
import tempfile
import time
from concurrent.futures import ThreadPoolExecutor
from contextlib import closing
from pathlib import Path
from statistics import median

from measure import HERE, MOMENT, PROGRAM, Unmeasured, tell_surroundings
from served import JOURNAL, Served, free_port, load, report_text, request_bytes
from stored import FULL

ACCEPTED = (200, b'{"named":[]}')
JOB = b"x" * 100    # about as long as a report
COLUMNS = f"{'count':>6} {'a second':>9} {'median':>9} {'99 of 100':>9} {'most':>9}  (ms)"


def small_plan(operations):
    """So many operations, all on one manual workstation that has servers for all."""
    lines = ["W,SETP,S,,,,,,,", f"I,SETP,2024-03-01T22:00,2024-03-02T02:00,{operations},0,0,,,",
             "O,PAYROLL,2024-03-01T22:00,5,2024-03-02T05:00,,,,,"]
    lines += [f"P,PAYROLL,2024-03-01T22:00,{n + 1},SETP,10,0,0,," for n in range(operations)]
    return "\n".join(lines) + "\n"


def timed(call, count):
    """Milliseconds of so many calls, one after the other."""
    taken = []
    for _ in range(count):
        before = time.perf_counter()
        call()
        taken.append((time.perf_counter() - before) * 1e3)
    return taken


def tell(what, calls, count):
    """Makes each of these calls so many times, all at once, and prints what they took."""
    begun = time.perf_counter()
    with ThreadPoolExecutor(len(calls)) as clients:
        taken = sorted(ms for each in clients.map(lambda call: timed(call, count), calls) for ms in each)
    rate = len(taken) / (time.perf_counter() - begun)
    late = taken[min(len(taken) - 1, len(taken) * 99 // 100)]
    print(f"  {what:<40} {len(taken):6} {rate:9.1f} {median(taken):9.3f} {late:9.3f} {taken[-1]:9.3f}", flush=True)


class Tracker:
    """It reports an operation of a manual workstation started and interrupted, in turn, for ever: each report is
    accepted, changes rows, and keeps a receipt."""

    def __init__(self, desk, name):
        self.desk, self.name = desk, name
        self.number, self.operation = 0, None
        self.last = None

    def starts(self, operation):
        """Whether the operation's start is accepted, as the first report."""
        self.operation = operation
        self.last = report_text(self.name, 1, MOMENT, "started", operation)
        self.number = 1 if self.desk.report(self.last) == ACCEPTED else 0
        return self.number == 1

    def send(self):
        self.number += 1
        what = "started" if self.number % 2 else "interrupted"
        self.last = report_text(self.name, self.number, MOMENT, what, self.operation)
        self.repeat()

    def repeat(self):
        answer = self.desk.report(self.last)
        if answer != ACCEPTED:
            raise Unmeasured(f"a report is answered {answer}")


def looked_up(folder, query):
    """What the C library reads in a database before the desk has written to it."""
    shutil.copy(folder / "night.db", folder / "look.db")
    with closing(sqlite3.connect(folder / "look.db")) as database:
        return [value for (value,) in database.execute(query).fetchall()]


def trackers_of(desk, folder, names):
    """A tracker of each name, with an operation of a manual workstation each, all of which are started."""
    keys = looked_up(folder, "SELECT app || '/' || strftime('%Y-%m-%dT%H:%M', 63072000 + 60 * ia, 'unixepoch') || '/' || "
                             "printf('%03d', num) FROM operation JOIN workstation ON name = ws "
                             "WHERE attr = 'S' AND status = 'A'")
    trackers = []
    for key in keys:
        tracker = Tracker(desk, names[len(trackers)])
        if tracker.starts(key):
            trackers.append(tracker)
            if len(trackers) == len(names):
                return trackers
    raise Unmeasured(f"only {len(trackers)} operations of manual workstations can be started")


def asker(desk, path):
    sent = request_bytes("GET", path)

    def ask():
        if not desk.exchange(sent).startswith(b"HTTP/1.1 200 OK\r\n"):
            raise Unmeasured(f"GET {path} isn't answered by a list")

    return ask


def wrk(desk, path, given, connections, words=()):
    """What wrk makes of a path, or of reports: a line of its own words."""
    if not shutil.which("wrk"):
        return "no wrk here (apt-get install wrk)"
    script = ["-s", HERE / "report.lua"] if words else []
    command = ["wrk", f"-t{connections}", f"-c{connections}", f"-d{given.seconds}s", "--timeout", "30s", "--latency",
               *script, f"http://127.0.0.1:{desk.port}{path}", "--", *words]
    run = subprocess.run([str(word) for word in command], capture_output=True, text=True)
    found = {name: re.search(rf"{name}\s+([\d.]+\w*)", run.stdout) for name in ("Requests/sec:", "50%", "99%")}
    if not all(found.values()):
        raise Unmeasured(f"wrk says {run.stdout[:200]!r} {run.stderr[:200]!r}")
    bad = re.search(r"Non-2xx or 3xx responses: (\d+)", run.stdout)
    told = ", ".join(f"{name.strip(':')} {value.group(1)}" for name, value in found.items())
    return told + (f", {bad.group(1)} NOT ACCEPTED" if bad else "")


def tell_wrk(desk, given, trackers):
    """What wrk makes of reports of these trackers, and of a list, with as many clients at once."""
    count = len(trackers)
    words = [trackers[0].number, MOMENT, *(word for tracker in trackers for word in (tracker.name, tracker.operation))]
    print(f"  wrk, {count} at once, reports:          {wrk(desk, '/report', given, count, words)}")
    print(f"  wrk, {count} at once, GET /occurrences: {wrk(desk, '/occurrences', given, count)}", flush=True)


def ways_of(given):
    """The commands that are measured, and the words of each that is a `desk`."""
    return {"serve": None, **({"desk": [], "desk with a journal": ["--journal", JOURNAL]} if given.desk else {})}


def measure_desks(what, given, folder):
    for way, words in ways_of(given).items():
        for name in ("night.db", "night.db-wal", JOURNAL):
            (folder / name).unlink(missing_ok=True)
        measure_desk(f"{way}, {what}", given, folder, words)


def measure_desk(what, given, folder, words):
    load(given.program, folder, "plan.csv", MOMENT)
    desk = Served(given.program, folder, desk=words)
    several, first = given.connections, desk.peak_megabytes()
    try:
        one, *others = trackers_of(desk, folder, [f"T{turn}" for turn in range(several + 1)])
        workstation = looked_up(folder, "SELECT min(name) FROM workstation WHERE attr = 'S'")[0]
        print(f"\n{what:<42} {COLUMNS}")
        tell("reports of one tracker", [one.send], given.requests)
        tell("its last one, repeated", [one.repeat], given.requests)
        tell(f"reports of {several} trackers at once", [tracker.send for tracker in others], given.requests // several)
        for path in ("/occurrences", f"/ready/{workstation}"):
            tell(f"GET {path}, {len(desk.ask('GET', path)[1])} bytes", [asker(desk, path)], given.requests)
        tell_wrk(desk, given, [one])
        tell_wrk(desk, given, others)
        print(f"  memory: {first:.0f} MB at the peak of its opening, {desk.peak_megabytes():.0f} MB at the peak of all")
    finally:
        desk.kill()


def measure_beanstalkd(given, folder):
    """Jobs that are put, reserved and deleted: the queue keeps them in a log, which is synced at each write."""
    if not shutil.which("beanstalkd"):
        print("\nno beanstalkd here (apt-get install beanstalkd)")
        return
    port = free_port()
    words = ["beanstalkd", "-l", "127.0.0.1", "-p", str(port), "-b", str(folder), "-f", "0"]
    queue = subprocess.Popen(words)
    try:
        time.sleep(0.5)
        clients = [Client(port) for _ in range(given.connections)]
        print(f"\n{'beanstalkd -f 0, connections that are kept':<42} {COLUMNS}")
        tell("jobs put, reserved and deleted", [clients[0].job], given.requests)
        tell(f"the same, {len(clients)} clients at once", [client.job for client in clients],
             given.requests // len(clients))
        tell("jobs put alone", [clients[0].put], given.requests)
    finally:
        queue.kill()
        queue.wait()


class Client:
    """A client of beanstalkd."""

    def __init__(self, port):
        self.stream = socket.create_connection(("127.0.0.1", port))
        self.stream.setsockopt(socket.IPPROTO_TCP, socket.TCP_NODELAY, 1)
        self.answers = self.stream.makefile("rb")

    def said(self, text, answer):
        self.stream.sendall(text)
        line = self.answers.readline()
        if not line.startswith(answer):
            raise Unmeasured(f"beanstalkd answers {line!r}")
        return line

    def put(self):
        self.said(b"put 0 0 60 %d\r\n%s\r\n" % (len(JOB), JOB), b"INSERTED")

    def job(self):
        self.put()
        number = self.said(b"reserve\r\n", b"RESERVED").split()[1]
        self.answers.read(len(JOB) + 2)
        self.said(b"delete %s\r\n" % number, b"DELETED")


def main():
    words = argparse.ArgumentParser(description=__doc__.splitlines()[0])
    words.add_argument("--requests", type=int, default=200, help="requests of each kind")
    words.add_argument("--connections", type=int, default=8, help="clients at once: 1 to 60")
    words.add_argument("--size", type=int, default=FULL, help="operations of the full plan")
    words.add_argument("--seconds", type=int, default=5, help="seconds of each run of wrk")
    words.add_argument("--desk", action="store_true", help="measure `desk` beside `serve`, without a journal and with one")
    words.add_argument("--program", type=Path, default=PROGRAM)
    given = words.parse_args()
    given.program = given.program.resolve()
    try:
        if not given.program.exists():
            raise Unmeasured(f"no program {given.program}: bin/build proves and builds it")
        small, full = given.connections + 1, given.size
        tell_surroundings(given.program, given.requests, f"{small} operations, and {full}",
                          f"a client at a time, and {given.connections}")
        with tempfile.TemporaryDirectory() as few, tempfile.TemporaryDirectory() as many, \
                tempfile.TemporaryDirectory() as log:
            (Path(few) / "plan.csv").write_text(small_plan(small))
            measure_desks(f"plan of {small} operations", given, Path(few))
            subprocess.run([sys.executable, HERE / "generate.py", str(full), "plan.csv"], cwd=many, check=True)
            measure_desks(f"plan of {full} operations", given, Path(many))
            measure_beanstalkd(given, Path(log))
        return 0
    except (Unmeasured, OSError, sqlite3.Error, subprocess.CalledProcessError) as fault:
        print(f"serve: {fault}", file=sys.stderr)
        return 2


if __name__ == "__main__":
    sys.exit(main())
