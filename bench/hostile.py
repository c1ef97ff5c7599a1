#!/usr/bin/env python3
"""Throws at `plandesk serve` what no client should send and texts of additions and extensions, and texts of plans at `check`
and of requests at `do`.

    hostile.py [--rounds N] [--texts N] [--seed N] [--desk] [--program PATH]

A round plays a night: before each of its requests come the same, cut short and mutated by bytes, some in pieces, some by
clients that go away at once. Over all rounds each request is cut at each length. Each input has to be answered as
`expected.py` says of its form, byte for byte but for what the plan says; none may end the desk or hold it for good; and
at the end of a round the tables, as the C library reads them, have to be those of the accepted requests alone, which
are sent again as they are to a desk over a copy of the tables from before. A plan's text has to be accepted where
`expected_plan.py` says that it denotes a plan, and else be refused 21; that of an addition or an extension has to be refused
21 just where it says that it denotes none, and 20 or less where it needs more of a resource than there is; a request's text
has to be a fault just where `expected.py` says that it is none, and to change the tables only where it is accepted.

With `--desk` it is `desk` that they are thrown at: what is asked for more than a day after the plan's clock has to be
answered 422, and nothing else; and the journal has to have just the accepted requests as accepted.

Exit status: 0 all is so, 1 it isn't, 2 nothing could be tried.
"""
import argparse
import errno
import json
import random
import shutil
import socket
import sqlite3
import struct
import subprocess
import sys
import tempfile
import time
from collections import Counter
from contextlib import closing
from pathlib import Path

from expected import (MOST_BODY_BYTES, MOST_DESK_BODY_BYTES, MOST_HEAD_BYTES, REPORTS, is_operation, is_operators_request,
                      object_of, status_of)
from expected_plan import denotes_addition, denotes_extension, denotes_plan, fits_quantities
from measure import HERE, PROGRAM, Unmeasured
from rules import REFUSALS, minute_of
from served import (JOURNAL, Cut, Served, add_desk_word, desk_words, journal_of, load, received, reply_of, request_bytes,
                    rows)

NIGHT = HERE.parent / "examples" / "night"
EVENING = "2024-03-01T19:30"
MUTANTS_EACH = 4
EXCHANGE_SECONDS = 10
MINUTES_AHEAD = 1440
MOST_SHOWN = 20
TELLING = [bytes([code]) for code in b'\0\t\n\r "#%+,-./0159:?ACINX[\\]_e{}\x7f\x80\xc3\xed\xff'] + [
    b"\r\n", b"\r\n\r\n", b"\xef\xbb\xbf", b"\\u0000", b"\\ud800", b"1e400", b"000000000", b"2072", b"null", b'""', b"%2F",
    b"Content-Length: 1\r\n", b"Transfer-Encoding: x\r\n", b" HTTP/1.1", b"/operator", b"9" * 20, b"[" * 130]
HEADS = [
    "{method} {path} HTTP/1.1\r\nHost: localhost\r\nContent-Length: {length}\r\n\r\n",
    "{method} {path} HTTP/1.1\r\nHost: 127.0.0.1:8080\r\nUser-Agent: curl/7.88.1\r\nAccept: */*\r\n"
    "Content-Length: {length}\r\nContent-Type: application/x-www-form-urlencoded\r\n\r\n",
    "\r\n\n{method} {path}?x=1 HTTP/1.0\ncontent-LENGTH:\t{length} \n\n",
]


ADDITIONS = [
    b"O,EXTRA,2024-03-01T22:00,5,2024-03-02T05:00,,,,,\nP,EXTRA,2024-03-01T22:00,10,CPU1,30,0,0,,\n",
    b"O,MORE,2024-03-01T22:00,5,2024-03-02T05:00,,,,,\nP,MORE,2024-03-01T22:00,10,CPU1,30,1,0,2024-03-01T23:00,\n"
    b"P,MORE,2024-03-01T22:00,20,CPU1,30,0,0,,2024-03-02T04:00\nN,MORE,2024-03-01T22:00,10,TAPE-1,S,F,4,,\n"
    b"N,MORE,2024-03-01T22:00,20,TAPE-1,X,K,,,\nD,MORE,2024-03-01T22:00,10,MORE,2024-03-01T22:00,20,,,\n"
    b"D,MORE,2024-03-01T22:00,20,REPORTS,2024-03-02T01:00,20,,,\n",
    b"O,TAPES,2024-03-01T22:00,5,2024-03-02T05:00,,,,,\nP,TAPES,2024-03-01T22:00,10,CPU1,30,0,0,,\n"
    b"N,TAPES,2024-03-01T22:00,10,TAPE-1,S,F,4,,\nN,TAPES,2024-03-01T22:00,10,STOCK.FILE,S,F,5,,\n"]
TWO_NIGHTS = (
    b"O,BATCH,2024-03-02T22:00,5,2024-03-03T05:00,,,,,\nP,BATCH,2024-03-02T22:00,10,CPU1,30,1,0,,\n"
    b"P,BATCH,2024-03-02T22:00,20,PRT1,30,0,0,,\nO,BATCH,2024-03-03T22:00,4,2024-03-04T05:00,,,,,\n"
    b"P,BATCH,2024-03-03T22:00,10,CPU2,20,1,0,2024-03-03T23:00,2024-03-04T04:00\nN,BATCH,2024-03-02T22:00,20,TAPE-1,S,F,4,,\n"
    b"N,BATCH,2024-03-03T22:00,10,TAPE-1,X,K,,,\nD,BATCH,2024-03-02T22:00,10,BATCH,2024-03-02T22:00,20,,,\n"
    b"D,BATCH,2024-03-02T22:00,20,BATCH,2024-03-03T22:00,10,,,\nD,REPORTS,2024-03-02T01:00,20,BATCH,2024-03-02T22:00,10,,,\n")
EXTENSIONS = [*ADDITIONS, TWO_NIGHTS, ADDITIONS[0] + TWO_NIGHTS]
QUANTITIES = {"TAPE-1": 4, "STOCK.FILE": 5}
ABOVE = ADDITIONS[2].replace(b",4,,", b",5,,")
LIMIT = b'{"name":"Limit","refusal":20}'
TAPES = b"""W,CPU1,A,,,,,,,
I,CPU1,2024-03-01T19:30,2024-03-02T06:00,9,0,0,,,
X,TAPE,Y,6,,,,,,
O,DAILY,2024-03-01T22:00,5,2024-03-02T05:00,,,,,
P,DAILY,2024-03-01T22:00,10,CPU1,30,0,0,,
P,DAILY,2024-03-01T22:00,20,CPU1,30,0,0,,
P,DAILY,2024-03-01T22:00,30,CPU1,30,0,0,,
N,DAILY,2024-03-01T22:00,10,TAPE,S,F,,,
N,DAILY,2024-03-01T22:00,20,TAPE,S,K,6,,
N,DAILY,2024-03-01T22:00,30,TAPE,X,F,,,
"""


def bodies_of_a_night():
    """The night's requests in their order, as an operator's and, where they are reports, most as a tracker's; before
    them a request of each other kind."""
    operation, extra = "REPORTS/2024-03-02T01:00/020", "EXTRA/2024-03-01T22:00"
    before = [{"do": "load", "records": (NIGHT / "night.csv").read_text()},
              {"do": "add", "records": ADDITIONS[0].decode()},
              {"do": "depend", "from": f"{extra}/010", "to": operation}]
    before += [{"do": verb, "op": f"{extra}/010"} for verb in ("nop", "unnop", "hold", "release", "complete", "rerun")]
    before += [{"do": "unknown", "op": operation}, {"do": "delete", "occ": extra},
               {"do": "extend", "records": ADDITIONS[0].decode()}, {"do": "delete", "occ": extra},
               {"do": "extend", "records": ""},
               {"do": "available", "resource": "TAPE-1", "value": False},
               {"do": "available", "resource": "TAPE-1", "value": True},
               {"do": "intervals", "ws": "WAIT", "intervals": [["2024-03-01T19:30", "2024-03-02T02:00", 2, 0, 0]]}]
    bodies, numbers = [("operator", json.dumps({"at": EVENING, **request})) for request in before], Counter()
    for turn, line in enumerate((NIGHT / "requests.jsonl").read_text().splitlines()):
        request, tracker = json.loads(line), f"T{turn % 3}"
        if request["do"] in REPORTS and turn % 4:
            numbers[tracker] += 1
            bodies.append(("report", json.dumps({"tracker": tracker, "number": numbers[tracker], **request})))
        else:
            bodies.append(("operator", line))
    return bodies


def head_of(turn, method, path, body):
    return HEADS[turn % len(HEADS)].format(method=method, path=path, length=len(body)).encode()


def requests_of_a_night():
    """Each as its form of head, method, path and body."""
    asked = [(turn, "POST", f"/{path}", body.encode()) for turn, (path, body) in enumerate(bodies_of_a_night())]
    lists = [(0, "GET", path, b"") for path in ("/occurrences", "/ready/CPU1", "/ready/%53ETP", "/ready/X")]
    return asked[:20] + lists + asked[20:]


def mutated(chance, text, others):
    """The text with one to four changes of its bytes."""
    text = bytearray(text)
    for _ in range(chance.choice((1, 1, 1, 2, 3, 4))):
        place = chance.randrange(len(text) + 1)
        end = min(len(text), place + chance.choice((1, 1, 2, 5, 20)))
        kind = chance.randrange(7)
        if kind == 0:
            text[place:place + 1] = bytes(byte ^ 1 << chance.randrange(8) for byte in text[place:place + 1])
        elif kind == 1:
            text[place:end] = chance.choice(TELLING)
        elif kind == 2:
            text[place:place] = chance.choice(TELLING)
        elif kind == 3:
            del text[place:end]
        elif kind == 4:
            text[place:place] = text[place:end]
        elif kind == 5:
            text[place:place + 1] = bytes([chance.randrange(256)])
        else:
            other = chance.choice(others)
            text[place:end] = other[place:place + chance.choice((4, 20, 100))]
    return bytes(text)


def mutant(chance, request, others):
    """The request with another body of its right length, with another head, or with other bytes anywhere."""
    *form, body = request
    kind = chance.randrange(4)
    if kind < 2:
        body = mutated(chance, body, [other[3] for other in others])
        return head_of(*form, body) + body
    texts = [head_of(*other) + other[3] for other in others]
    if kind == 2:
        return mutated(chance, head_of(*request), texts) + body
    return mutated(chance, head_of(*request) + body, texts)


def edges(most):
    """Inputs at the limits of a head and a body, which may have so many bytes."""
    tick, line = b'{"at":"2024-03-01T19:30","do":"tick"}', b"GET /occurrences HTTP/1.1\r\n"
    for more in (-1, 0, 1):
        padded = tick + b" " * (most + more - len(tick))
        yield request_bytes("POST", "/operator", padded.decode())
        yield line + b"A: " + b"x" * (MOST_HEAD_BYTES + more - len(line) - 7) + b"\r\n\r\n"
        yield line + b"A:b\r\n" * (64 + more) + b"\r\n"
        head = b"POST /operator HTTP/1.1\r\nContent-Length: %d\r\nA: " % len(tick)
        yield head + b"x" * (MOST_HEAD_BYTES + 9 * more - len(head) - 4) + b"\r\n\r\n" + tick
    yield line + b"A: " + b"x" * (MOST_HEAD_BYTES * 8)
    yield b"\r\n" * 5000 + line + b"\r\n"
    yield request_bytes("POST", "/report", "[" * most)


def inputs_of(turn, rounds, chance, most):
    """The inputs of a round: before each request its share of the cuts, and mutants."""
    known = requests_of_a_night()
    count = sum(1 for _ in edges(MOST_BODY_BYTES))
    yield next(sent for at, sent in enumerate(edges(most)) if at == turn % count)
    for request in known:
        text = head_of(*request) + request[3]
        yield from (text[:end] for end in range(turn, len(text), rounds))
        yield from (mutant(chance, request, known) for _ in range(MUTANTS_EACH))
        yield text


class Hostility:
    """What was sent so far, and what was wrong with the answers."""

    def __init__(self, given):
        self.answers, self.ways, self.wrong = Counter(), Counter(), []
        self.peak = 0
        self.desk = desk_words(given)
        self.most = MOST_BODY_BYTES if self.desk is None else MOST_DESK_BODY_BYTES
        self.clock = None    # of the plan that is served, once one is loaded

    def is_too_far(self, body):
        """Whether a request's moment is beyond the guard of a `desk`."""
        if self.desk is None or self.clock is None:
            return False
        return minute_of(object_of(body)["at"]) > self.clock + MINUTES_AHEAD

    def judge(self, is_so, what, sent, got):
        if not is_so:
            self.wrong.append(what)
            if len(self.wrong) <= MOST_SHOWN:
                print(f"WRONG: {what}\n  sent {sent[:3000]!r}\n  got  {got!r}", file=sys.stderr, flush=True)


def go_away(desk, sent):
    """A client that sends this and resets the connection, with no look at the reply."""
    with desk.connect() as stream:
        stream.setsockopt(socket.SOL_SOCKET, socket.SO_LINGER, struct.pack("ii", 1, 0))
        stream.sendall(sent)


def written_to(desk, pieces, is_ended):
    """What is written to a client that sends these pieces, and ends its side or leaves it open; None after a reset."""
    with desk.connect() as stream:
        try:
            for piece in pieces:
                stream.sendall(piece)
            if is_ended:
                stream.shutdown(socket.SHUT_WR)
            return received(stream)
        except OSError as fault:
            # a client that ends its side after a reset is told that it isn't connected
            if isinstance(fault, ConnectionError) or fault.errno == errno.ENOTCONN:
                return None
            raise


def is_answer(status, body, asked):
    """Whether a reply is one that the desk gives to what is asked, whatever the plan is."""
    try:
        said = json.loads(body)
    except ValueError:
        return False
    if json.dumps(said, separators=(",", ":")).encode() != body:
        return False
    if status == 409:
        numbers = REFUSALS if asked in ("report", "operator") else (3, 7)
        return said.get("refusal") in numbers and said == {"name": REFUSALS[said["refusal"]], "refusal": said["refusal"]}
    if asked in ("report", "operator"):
        return status == 200 and said.keys() == {"named"} and all(map(is_operation, said["named"]))
    members = {"ready": ["duration", "held", "latest", "op", "priority", "status"],
               "occurrences": ["deadline", "occ", "priority", "status"]}[asked]
    return status == 200 and all(list(row) == members for row in said)


def throw(desk, chance, sent, told):
    """Sends an input and judges what comes of it; the request, where it is accepted."""
    status, allowed, asked = status_of(sent, told.most)
    what, body = asked or (None, None)
    way, pieces = chance.random(), [sent]
    is_whole = status != 0 or body is None or sent.endswith(body)
    if way < 0.04 and what != "operator":
        told.ways["and gone at once"] += 1
        go_away(desk, sent)
    elif way < 0.2 and is_whole and len(sent) > 3:
        told.ways["in pieces"] += 1
        ends = sorted(chance.sample(range(1, len(sent)), 3))
        pieces = [sent[start:end] for start, end in zip([0, *ends], [*ends, len(sent)])]
    # where the desk may answer before it has read all, a reset may come in place of the reply
    may_be_reset = (status != 0 or not is_whole or what in ("ready", "occurrences")) and (
        len(pieces) > 1 or len(sent) > MOST_HEAD_BYTES)
    written = written_to(desk, pieces, is_ended=status == 400)
    if not written and may_be_reset:
        told.answers["reset"] += 1
        return None
    try:
        got = reply_of(written or b"")
    except Cut as cut:
        told.judge(False, str(cut), sent, written)
        return None
    told.answers[got[0]] += 1
    if status:
        told.judge(got == (status, allowed, b'{"error":%d}' % status), f"{status} is due", sent, got)
        return None
    if body is not None and told.is_too_far(body):
        told.judge(got == (422, None, b'{"error":422}'), "422 is due", sent, got)
        return None
    told.judge(is_answer(got[0], got[2], what) and got[1] is None, f"an answer to {what} is due", sent, got)
    if got[0] != 200 or body is None:
        return None
    told.clock = minute_of(object_of(body)["at"])
    return f"/{what}", body, got[2]


def tables_after(desk, folder):
    found = rows(folder)
    desk.kill()
    return found


def judge_journal(folder, accepted, told):
    """The journal has just these requests as accepted, in their order, with their answers."""
    found = [(entry["path"], entry["body"].encode(), json.dumps(answer["reply"], separators=(",", ":")).encode())
             for entry, answer in journal_of(folder)[0] if answer and answer["status"] == 200]
    told.judge(found == accepted, "the journal's accepted requests", b"", [one for one in found if one not in accepted][:3])


def play(given, folder, start, turn, told):
    """A round; and its accepted requests alone, which have to be answered alike and to leave the same tables."""
    chance = random.Random(f"{given.seed}/{turn}")
    for name in ("night.db", "night.db-wal", JOURNAL):
        (folder / name).unlink(missing_ok=True)
    shutil.copy(folder / start, folder / "night.db")
    told.clock = minute_of(EVENING) if start == "loaded.db" else None
    desk = Served(given.program, folder, desk=told.desk)
    accepted = []
    try:
        for sent in inputs_of(turn, given.rounds, chance, told.most):
            told.ways["inputs"] += 1
            taken = throw(desk, chance, sent, told)
            accepted += [taken] if taken else []
        told.peak = max(told.peak, desk.peak_megabytes())
        left = tables_after(desk, folder)
        if given.desk:
            judge_journal(folder, accepted, told)
        (folder / "night.db-wal").unlink(missing_ok=True)
        shutil.copy(folder / start, folder / "night.db")
        desk = Served(given.program, folder, desk=told.desk)
        for path, body, answer in accepted:
            again = desk.ask("POST", path, body.decode())
            told.judge(again == (200, answer), f"sent alone to {path}, it is due {answer!r} again", body, again)
        wanted = tables_after(desk, folder)
        for table in left:
            told.judge(left[table] == wanted[table], f"round {turn} leaves other rows in {table} than what it accepted",
                       b"", [row for row in left[table] if row not in wanted[table]][:3])
        told.ways["accepted"] += len(accepted)
    finally:
        desk.kill()


def dripped(stream, text):
    """Sends a text a byte each half a second, and returns what is written to a client that does, once it is let go."""
    stream.settimeout(0.5)
    for code in text:
        try:
            stream.sendall(bytes([code]))
            return stream.recv(65536)
        except TimeoutError:
            continue
        except ConnectionError:
            return b""
    return b"all was taken"


def keep_still(given, folder, told):
    """Clients that send nothing, a part of a head, or a part of a body, and wait, or send byte after byte: each is let go
    once its time is over, and the next is served. At `desk` who sends nothing has all the time."""
    text = request_bytes("POST", "/operator", '{"at":"2024-03-01T19:30","do":"tick"}')
    desk = Served(given.program, folder, desk=told.desk)
    kept = ((b"", b""), (text[:30], b""), (text[:-5], b""), (b"", text), (text[:-30], b" " * 60))
    try:
        for sent, more in kept[1:] if given.desk else kept:
            begun = time.monotonic()
            with desk.connect() as stream:
                stream.sendall(sent)
                written = dripped(stream, more) if more else received(stream)
            taken = time.monotonic() - begun
            told.judge(not written and EXCHANGE_SECONDS - 1 < taken < EXCHANGE_SECONDS + 2,
                       f"let go after {taken:.1f} seconds", sent, written)
            told.judge(desk.ask("GET", "/ready/X")[0] == 409, "the next client is served", sent, None)
            told.ways["kept still"] += 1
    finally:
        desk.kill()


def serve_so_many(given, folder, told):
    """Connections that fault count: after three of them the desk ends, with its log copied into its file."""
    desk = Served(given.program, folder, connections=3)
    try:
        go_away(desk, b"")
        go_away(desk, b"GET /occurrences HTTP/1.1\r\n")
        answer = desk.ask("GET", "/nothing")
        status = desk.process.wait(timeout=30)
        told.judge(answer[0] == 404 and status == 0, "three connections, and status 0", b"", (answer, status))
    finally:
        desk.kill()


def run(words, folder):
    ended = subprocess.run(words, cwd=folder, capture_output=True)
    return ended.returncode, ended.stdout, ended.stderr


def is_told(status, out, err):
    """Whether a run tells that a request was accepted, or refused 1 to 24, and nothing else."""
    lines = out.decode(errors="replace").split("\n")
    if err or lines.pop() != "":
        return False
    if status == 0:
        return lines[0] == "accepted" and all(line[:7] == "starts " and is_operation(line[7:]) for line in lines[1:])
    return status == 1 and out in {f"refused {number} {name}\n".encode() for number, name in REFUSALS.items()}


def rewritten(chance, text):
    """A plan's text with one change that may leave it a plan."""
    lines = text.splitlines(keepends=True)
    one, other = chance.randrange(len(lines)), chance.randrange(len(lines))
    kind = chance.randrange(6)
    if kind == 0:
        lines[one], lines[other] = lines[other], lines[one]
    elif kind == 1:
        del lines[one]
    elif kind == 2:
        lines[one] = lines[one].replace(b"\n", chance.choice((b"\r", b"\r\n", b"\n\n")))
    elif kind == 3:
        lines[one] = b'"' + lines[one].replace(b",", b'",', 1)
    else:
        place = chance.choice([at for at, code in enumerate(text) if chr(code) in "0123456789"])
        return text[:place] + b"%d" % chance.randrange(10) + text[place + 1:]
    return b"".join(lines)


def check_plans(given, folder, told):
    chance = random.Random(f"{given.seed}/plans")
    plans = [(NIGHT / "night.csv").read_bytes(), (NIGHT.parent / "day.csv").read_bytes(), TAPES]
    for turn in range(given.texts):
        plan = plans[turn // 2 % len(plans)]
        text = rewritten(chance, plan) if turn % 2 else mutated(chance, plan, plans)
        (folder / "plan.csv").write_bytes(text)
        got = run([given.program, "check", "--plan", "plan.csv", "--at", EVENING], folder)
        is_plan = denotes_plan(text)
        told.judge(is_told(*got) and got[0] == 0 if is_plan else got == (1, b"refused 21 BadPlan\n", b""),
                   "the text denotes a plan" if is_plan else "the text denotes no plan", text, got)
        told.ways["plans accepted" if got[0] == 0 else "plans refused"] += 1


def set_quantities(folder):
    """Writes into the tables how much there is of some resources, as no request can."""
    with closing(sqlite3.connect(folder / "night.db")) as database:
        database.executemany("INSERT INTO quantity VALUES (?, ?)", QUANTITIES.items())
        database.commit()


def coming_in(given, folder, told, verb, texts, denotes):
    """Texts of additions or of extensions, mutated, at one desk, to which they are operators' requests."""
    chance = random.Random(f"{given.seed}/{verb}")
    shutil.copy(folder / "loaded.db", folder / "night.db")
    (folder / "night.db-wal").unlink(missing_ok=True)
    set_quantities(folder)
    desk = Served(given.program, folder, desk=told.desk)
    try:
        got = desk.ask("POST", "/operator", json.dumps({"at": EVENING, "do": verb, "records": ABOVE.decode()}))
        told.judge(got == (409, LIMIT), "20 is due, and nothing else is wrong", ABOVE, got)
        for turn in range(given.texts):
            one = texts[turn // 2 % len(texts)]
            text = rewritten(chance, one) if turn % 2 else mutated(chance, one, texts)
            text = text.decode(errors="replace")
            comes_in = denotes(text.encode())
            got = desk.ask("POST", "/operator", json.dumps({"at": EVENING, "do": verb, "records": text}))
            is_bad = got == (409, b'{"name":"BadPlan","refusal":21}')
            is_within = not comes_in or fits_quantities(text.encode(), QUANTITIES)
            told.judge(got[0] == 409 if not is_within else got[1] != LIMIT, "20 where it needs more than there is", text, got)
            told.ways[f"texts to {verb} that need more than there is"] += not is_within
            told.judge(is_bad != comes_in and is_answer(*got, "operator"),
                       f"the text denotes what may {verb}" if comes_in else f"the text denotes nothing to {verb}", text, got)
            told.ways[f"texts to {verb} answered {got[0]}" if comes_in else f"texts of nothing to {verb}"] += 1
    finally:
        desk.kill()


def do_texts(given, folder, told):
    """One operator's request after the other, mutated, by `do`, if the program has it."""
    if b"\n  do " not in run([given.program, "--help"], folder)[1]:
        return
    chance = random.Random(f"{given.seed}/texts")
    bodies = [body.encode() for path, body in bodies_of_a_night() if path == "operator"]
    shutil.copy(folder / "loaded.db", folder / "night.db")
    before = rows(folder)
    for turn in range(given.texts):
        text = bodies[turn % len(bodies)]
        text = (mutated(chance, text, bodies) if turn % 3 else text).replace(b"\0", b"")
        got = run([given.program, "do", "--db", "night.db", "--request", text], folder)
        after = rows(folder)
        if is_operators_request(text):
            told.judge(is_told(*got), "the text is a request", text, got)
        else:
            told.judge(got[0] == 2 and not got[1] and got[2], "the text is no request", text, got)
        told.judge(got[0] == 0 or after == before, "the tables change by what isn't accepted", text, got)
        told.ways[f"texts of requests, status {got[0]}"] += 1
        before = after


def try_all(given, folder, told):
    shutil.copy(NIGHT / "night.csv", folder / "plan.csv")
    load(given.program, folder, "plan.csv", EVENING, "loaded.db")
    (folder / "none.csv").write_bytes(b"")
    status, out, _ = run([given.program, "load", "--db", "empty.db", "--plan", "none.csv", "--at", EVENING], folder)
    if (status, out) != (1, b"refused 21 BadPlan\n"):
        raise Unmeasured(f"load of an empty plan ended with {status}: {out!r}")
    for turn in range(given.rounds):
        play(given, folder, "empty.db" if turn % 4 == 3 else "loaded.db", turn, told)
    shutil.copy(folder / "loaded.db", folder / "night.db")
    (folder / "night.db-wal").unlink(missing_ok=True)
    keep_still(given, folder, told)
    if not given.desk:
        serve_so_many(given, folder, told)
    check_plans(given, folder, told)
    coming_in(given, folder, told, "add", ADDITIONS, denotes_addition)
    coming_in(given, folder, told, "extend", EXTENSIONS, denotes_extension)
    do_texts(given, folder, told)


def main():
    words = argparse.ArgumentParser(description=__doc__.splitlines()[0])
    words.add_argument("--rounds", type=int, default=180, help="rounds, of some 600 inputs each")
    words.add_argument("--texts", type=int, default=1000, help="texts of plans, of additions, of extensions, and of requests for `do`")
    words.add_argument("--seed", type=int, default=1, help="what chance draws the inputs from")
    add_desk_word(words)
    words.add_argument("--program", type=Path, default=PROGRAM)
    given = words.parse_args()
    given.program = given.program.resolve()
    told = Hostility(given)
    try:
        if not given.program.exists():
            raise Unmeasured(f"no program {given.program}: bin/build proves and builds it")
        with tempfile.TemporaryDirectory() as folder:
            try_all(given, Path(folder), told)
    except (Unmeasured, OSError, sqlite3.Error) as fault:
        print(f"hostile: {fault!r}", file=sys.stderr)
        return 2
    finally:
        print("hostile: " + ", ".join(f"{count} {what}" for what, count in told.ways.items()))
        print("  answers: " + ", ".join(f"{count} {what}" for what, count in sorted(told.answers.items(), key=str)))
    print(f"  {len(told.wrong)} wrong; the desk had {told.peak:.0f} MB at its peak")
    return 1 if told.wrong else 0


if __name__ == "__main__":
    sys.exit(main())
