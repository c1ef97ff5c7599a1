#!/usr/bin/env python3
"""Runs the commands of docs/OPERATING.md, "Trackers and operators, over HTTP", as they stand there, and curl at each
route and status, and compares the answers with those of the profile's rules. Those of sqlite3 come last, when the desk is
stopped by `kill -9`: while it serves, the file is locked.

    curls.py [--program PATH]

The commands run by bash in a folder of their own, where `bin/plandesk` is the program and `examples/` the repository's.
They take port 8080, which has to be free.

Exit status: 0 all is answered so, 1 it isn't, 2 nothing could be tried.
"""
import argparse
import os
import re
import shutil
import signal
import socket
import subprocess
import sys
import tempfile
import time
from pathlib import Path

from measure import HERE, PROGRAM

TOP = HERE.parent
PORT = 8080
LATEST = '"latest":"2024-03-02T04:30"'
EXTRA = f'[{{"duration":30,"held":false,{LATEST},"op":"EXTRA/2024-03-01T22:00/010","priority":5,"status":"A"}}]'
OCCURRENCES = ('[{"deadline":"2024-03-02T05:00","occ":"DAILY/2024-03-01T22:00","priority":5,"status":"S"},'
               '{"deadline":"2024-03-02T05:00","occ":"EXTRA/2024-03-01T22:00","priority":5,"status":"W"}]')
LAST = '{"tracker":"T1","number":2,"at":"2024-03-01T22:31","do":"ended","op":"DAILY/2024-03-01T22:00/010"}'
TICK = '{"at":"2024-03-01T23:00","do":"tick"}'
REPORT = '{"tracker":"T1","number":%d,"at":"2024-03-01T23:00","do":"started","op":"DAILY/2024-03-01T22:00/%s"}'
# What the commands of each block print.
PRINTED = [
    "accepted\nstarts DAILY/2024-03-01T22:00/010\nlistening\n",
    '{"named":[]}{"named":["DAILY/2024-03-01T22:00/020"]}',
    '{"named":[]}' + EXTRA + OCCURRENCES + '{"named":["EXTRA/2024-03-01T22:00/010"]}',
    "T1|3|" + REPORT % (3, "020") + "|\n",
]
# After those of curl: curl's words, the status, and the body. (Path, method and length are tested before the body is read.)
ANSWERED = [
    ("the last report again, the same answer", ["/report", "-d", LAST], 200, '{"named":["DAILY/2024-03-01T22:00/020"]}'),
    ("the next", ["/report", "-d", REPORT % (3, "020")], 200, '{"named":[]}'),
    ("its number, another text", ["/report", "-d", REPORT % (3, "010")], 409, '{"name":"Reused","refusal":24}'),
    ("a number of the past", ["/report", "-d", REPORT % (1, "010")], 409, '{"name":"Old","refusal":22}'),
    ("a number too far on", ["/report", "-d", REPORT % (5, "010")], 409, '{"name":"Gap","refusal":23}'),
    ("what was done already", ["/report", "-d", REPORT % (4, "010")], 409, '{"name":"WrongStatus","refusal":9}'),
    ("no operation", ["/report", "-d", REPORT % (4, "030")], 409, '{"name":"UnknownOperation","refusal":5}'),
    ("an operator's request", ["/operator", "-d", TICK], 200, '{"named":[]}'),
    ("the past", ["/operator", "-d", TICK.replace("T23", "T22")], 409, '{"name":"Past","refusal":1}'),
    ("beyond all moments", ["/operator", "-d", TICK.replace("2024", "2072")], 409, '{"name":"MomentRange","refusal":2}'),
    ("a list, escaped", ["/ready/%43PU1"], 200, "[]"),
    ("a list of no workstation", ["/ready/XXXX"], 409, '{"name":"UnknownWorkstation","refusal":7}'),
    ("a report without a tracker", ["/report", "-d", TICK], 400, '{"error":400}'),
    ("a report to the operator's path", ["/operator", "-d", REPORT % (4, "020")], 400, '{"error":400}'),
    ("a day that there isn't", ["/operator", "-d", TICK.replace("03-01", "02-30")], 400, '{"error":400}'),
    ("a target of another form", ["/", "--request-target", "*"], 400, '{"error":400}'),
    ("no path of the desk's", ["/nothing"], 404, '{"error":404}'),
    ("a path in escapes", ["/%72eport", "-d", TICK], 404, '{"error":404}'),
    ("GET of what is posted", ["/report?x=1"], 405, '{"error":405}'),
    ("POST to a list", ["/occurrences", "-d", "x"], 405, '{"error":405}'),
    ("HEAD of a list", ["/occurrences", "-X", "HEAD"], 405, '{"error":405}'),
    ("no length", ["/report", "-X", "POST"], 411, '{"error":411}'),
    ("a body in chunks", ["/report", "-H", "Transfer-Encoding: chunked", "-d", TICK], 501, '{"error":501}'),
    ("a long body", ["/report", "-H", "Expect:", "-d", "@long"], 413, '{"error":413}'),
    ("the longest body", ["/operator", "-H", "Expect:", "--data-binary", "@longest"], 200, '{"named":[]}'),
]


def blocks():
    """The blocks of shell commands of the section, each as its text."""
    text = (TOP / "docs" / "OPERATING.md").read_text()
    section = text.split("\n## serve: trackers and operators, over HTTP\n")[1].split("\n## ")[0]
    return re.findall(r"^```sh\n(.*?)^```$", section, re.DOTALL | re.MULTILINE)


def is_listening():
    with socket.socket() as probe:
        return probe.connect_ex(("127.0.0.1", PORT)) == 0


def folder_of_a_user(place, program):
    (place / "bin").mkdir()
    (place / "bin" / "plandesk").write_text(f'#!/bin/sh\nexec {program} "$@"\n')
    (place / "bin" / "plandesk").chmod(0o755)
    shutil.copytree(TOP / "examples", place / "examples")
    (place / "long").write_text("x" * 65_537)
    (place / "longest").write_text(TICK + " " * (65_536 - len(TICK)))


class Shell:
    """Runs blocks of commands in a folder. What they leave running ends with it."""

    def __init__(self, place):
        self.place, self.groups = place, []
        self.told = open(place / "told", "w+")

    def printed(self, block):
        """What a block prints. What it leaves running prints to the same file, and has time to begin."""
        begins = len((self.place / "told").read_text())
        bash = subprocess.Popen(["bash", "-c", block], cwd=self.place, stdout=self.told, stderr=subprocess.STDOUT,
                                start_new_session=True)
        self.groups.append(bash.pid)
        bash.wait(timeout=60)
        for _ in range(100):
            told = (self.place / "told").read_text()[begins:]
            if "plandesk serve" not in block or told.endswith("listening\n"):
                break
            time.sleep(0.05)
        return told

    def end(self):
        for group in self.groups:
            try:
                os.killpg(group, signal.SIGKILL)
            except ProcessLookupError:
                pass    # it has left nothing running
        self.groups = []


def compare(what, got, wanted):
    if got != wanted:
        print(f"WRONG: {what}\n  got    {got!r}\n  wanted {wanted!r}", file=sys.stderr)
    return got == wanted


def play(place, shell):
    """Of each comparison, whether it was right."""
    found = blocks()
    if len(found) != len(PRINTED):
        return [compare("blocks of commands", len(found), len(PRINTED))]
    right = [compare(block, shell.printed(block), wanted)
             for block, wanted in zip(found, PRINTED) if not block.startswith("sqlite3")]
    for what, words, status, body in ANSWERED:
        path, *more = words
        run = subprocess.run(["curl", "-sS", "-m", "20", "-w", "\n%{http_code}", f"http://127.0.0.1:{PORT}{path}", *more],
                             cwd=place, capture_output=True, text=True)
        right.append(compare(f"{what}: curl {' '.join(words)[:200]} {run.stderr.strip()}", run.stdout, f"{body}\n{status}"))
    shell.end()
    time.sleep(0.2)
    return right + [compare(block, shell.printed(block), wanted)
                    for block, wanted in zip(found, PRINTED) if block.startswith("sqlite3")]


def main():
    words = argparse.ArgumentParser(description=__doc__.splitlines()[0])
    words.add_argument("--program", type=Path, default=PROGRAM)
    given = words.parse_args()
    program = given.program.resolve()
    if not program.exists() or not shutil.which("curl") or is_listening():
        print(f"curls: no program {program}, no curl, or port {PORT} is taken", file=sys.stderr)
        return 2
    with tempfile.TemporaryDirectory() as folder:
        folder_of_a_user(Path(folder), program)
        shell = Shell(Path(folder))
        try:
            right = play(Path(folder), shell)
        finally:
            shell.end()
    print(f"curls: {len(right)} comparisons, {right.count(False)} wrong")
    return 0 if all(right) else 1


if __name__ == "__main__":
    sys.exit(main())
