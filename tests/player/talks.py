"""Plays talks: what clients send to a desk over its port, and what they are told.

A talk begins with the command that serves its desk, `serve`, `desk` or `desk --bound`: over a database of its own, in which no plan is
loaded, and with a journal where it is `desk`. Blocks follow, each parted from the next by an empty line. A line that begins
with `#` is a comment. A block is one of these:

    GET /ready/CPU1                      what a client sends. It is told: status and length, further lines of the head,
    200 OK | 2                           if there are any, behind another `|`, and the body
    []

    GET /report/late                     it is told these lines, as a text
    text
    LATE AT 2024-03-01T21:00
    END 0

    GET /forecast                        it is told lines that begin so, among others, and none that begins as what
    lines                                stands behind `! `
    HTTP/1.1 200 OK
    ! LATE PATHS

    cut POST /operator {"at":".."}       the client sends the beginnings of this, each a byte longer, all but the whole.
    400 Bad Request | 13                 It is told so where it then ends its side; once more, it goes away there
    {"error":400}

    gone POST /operator {"at":".."}      the client goes away once it has sent this

    once POST /operator {"at":".."}      it is told so, and the journal's file was opened once for it
    200 OK | 12
    {"named":[]}

    PAYROLL/2024-03-01T22:00/005 none A  the operation's mark and status in the tables, or `-` where it isn't there

    journal                              the last lines of the journal; what is sent by GET adds none to it
    {"reply":{"named":[]},"status":200}

    moved                                the journal's file gets another name: what follows stands in a new one

    damaged                              somebody adds these lines to the journal
    no line of a journal

    anew                                 the desk is ended, and started again over its database

What is sent is a request, `GET PATH` or `POST PATH BODY`, or, behind `sent`, bytes as they are: there `~` ends a line of a
head. `^` stands behind the bytes that suffice: in pieces of 8192, 64, 7, 2 and 1 of them, while no more come, the client is
told the same and let go; and once more, where all are sent at once. `<3 ab>` stands for `ababab`, and `<night.csv>` for the
text of this file, as JSON writes it."""
import contextlib
import ctypes
import datetime
import difflib
import itertools
import json
import os
import re
import shutil
import signal
import socket
import sqlite3
import struct

from . import common

COMMANDS = {"serve": ["serve", "--db", "night.db", "--requests", "1000000"],
            "desk": ["desk", "--db", "night.db", "--journal", "night.journal"],
            "desk --bound": ["desk", "--db", "night.db", "--bound", "--journal", "night.journal"]}
SENT = re.compile(r"(cut |gone |once |)((?:GET|POST|sent) .*)")
STANDS = re.compile(r"(\w+)/(\d{4}-\d\d-\d\dT\d\d:\d\d)/(\d{3}) (.*)")
SHORT = re.compile(r"<(\d+) ([^>]*)>|<([a-z_]+\.csv)>")
PIECES = (8192, 64, 7, 2, 1)
PATIENCE = 9        # seconds: a desk that waits for more than suffices lets its client go after ten
JSON = re.compile(r"HTTP/1\.1 ([^\r\n]*)\r\nContent-Type: application/json\r\nContent-Length: (\d+)\r\nConnection: close"
                  r"(?:\r\n([^\r\n]+))?")
TEXT = "HTTP/1.1 200 OK\r\nContent-Type: text/plain; charset=utf-8\r\nContent-Length: {}\r\nConnection: close"
GONE = struct.pack("ii", 1, 0)      # a socket that lingers so for no time is reset when it is closed
FIRST = datetime.datetime(1972, 1, 1)
IN_CLOSE_WRITE, IN_OPEN = 0x08, 0x20
EVENT = struct.Struct("iIII")


def talks_of(path):
    """The talks of a file: for each its blocks, which are lines. The first block is the command."""
    lines = (line for line in common.lines_of(path) if not line.text.startswith("#"))
    blocks = [list(block) for some, block in itertools.groupby(lines, key=lambda line: line.text != "") if some]
    talks = []
    for block in blocks:
        if block[0].text in COMMANDS:
            talks.append([])
        talks[-1].append(block)
    return talks


def written_out(text, folder):
    """A line with what its short forms stand for; files are those of this folder."""
    def long(found):
        times, piece, name = found.groups()
        return json.dumps((folder / name).read_text())[1:-1] if name else int(times) * piece
    return SHORT.sub(long, text)


def parts_of(text, folder):
    """The bytes that a line says are sent: those that suffice, and what comes behind `^`."""
    kind, _, rest = written_out(text, folder).partition(" ")
    if kind == "sent":
        front, _, behind = rest.replace("~", "\r\n").partition("^")
        return front.encode(), behind.encode()
    path, _, body = rest.partition(" ")
    length = f"Content-Length: {len(body.encode())}\r\n" if kind == "POST" else ""
    return f"{kind} {path} HTTP/1.1\r\nHost: localhost\r\n{length}\r\n{body}".encode(), b""


def told_of(reply):
    """A reply in the words of a talk; where its head isn't one of those that they stand for, all its lines."""
    head, _, body = reply.decode(errors="backslashreplace").partition("\r\n\r\n")
    found = JSON.fullmatch(head)
    if found:
        more = [found[3] + "~"] if found[3] else []
        return [" | ".join([found[1], found[2], *more]), *body.split("\n")]
    if head == TEXT.format(len(body.encode())) and body.endswith("\n"):
        return ["text", *body[:-1].split("\n")]
    return common.texts_of(reply)


def send(connection, sent, most):
    """Sends bytes, at most so many at once. A desk that lets the connection go before may still have told something."""
    connection.setsockopt(socket.IPPROTO_TCP, socket.TCP_NODELAY, 1)
    with contextlib.suppress(ConnectionError):
        for first in range(0, len(sent), most):
            connection.sendall(sent[first:first + most])


def standing(folder, app, arrival, number):
    """An operation's mark and status in a copy of the tables, `-` where it isn't there."""
    minute = (datetime.datetime.fromisoformat(arrival) - FIRST) // datetime.timedelta(minutes=1)
    with common.own_folder() as copy:
        for name in ("night.db", "night.db-wal"):
            shutil.copy(folder / name, copy)
        with contextlib.closing(sqlite3.connect(str(copy / "night.db"))) as tables:
            row = tables.execute("SELECT mark, status FROM operation WHERE app = ? AND ia = ? AND num = ?",
                                 (app, minute, int(number))).fetchone()
    return " ".join(row) if row else "-"


def times_opened(file, act):
    """How often a file is opened while this is done, as the system tells; its ends are told too, so that no two are told as one."""
    system = ctypes.CDLL(None)
    events = system.inotify_init1(os.O_NONBLOCK)
    try:
        system.inotify_add_watch(events, os.fsencode(file), IN_OPEN | IN_CLOSE_WRITE)
        act()
        with contextlib.suppress(BlockingIOError):
            return sum(mask == IN_OPEN for _, mask, _, _ in EVENT.iter_unpack(os.read(events, 65536)))
        return 0
    finally:
        os.close(events)


class Talk:
    """A talk that is played: its desk, over the database of a folder, and the lines that went otherwise."""

    def __init__(self, path, program, folder, command):
        self.path = path
        self.program = program
        self.folder = folder
        self.command = command
        self.failures = []
        self.desk = None

    def play(self, blocks):
        """Plays the blocks after the command."""
        load = ["load", "--db", "night.db", "--plan", str((self.path.parent / "night.csv").resolve()), "--at",
                "1971-12-31T23:59"]
        ran = common.run(self.program, load, self.folder)
        if ran != (b"refused 1 Past\n", b"", 1):
            raise RuntimeError(f"no empty desk is made: {ran}")
        self.begin()
        try:
            for block in blocks:
                self.go(block)
            self.end()
        finally:
            common.stop(self.desk.process)
        return self.failures

    def begin(self):
        """Starts the desk."""
        self.desk = common.started(self.program, COMMANDS[self.command.text], self.folder)

    def end(self):
        """Ends the desk, which has printed nothing more, and hasn't ended by itself."""
        self.desk.process.send_signal(signal.SIGTERM)
        ran = self.desk.end()
        if ran != (b"", b"", -signal.SIGTERM):
            self.fail(self.command, "that it goes on and prints nothing", f"{ran}")

    def fail(self, line, wanted, got):
        """A line goes otherwise."""
        self.failures.append(common.Failure(self.path, line.number, wanted, got, self.command.number))

    def compare(self, wanted, got, end):
        """Lines that are wanted, and what came; whether they are the same."""
        failures = common.differences(self.path, wanted, got, end.number, self.command.number)
        self.failures += failures
        return not failures

    def go(self, block):
        """Plays a block."""
        first, told = block[0], block[1:]
        sent, stands = SENT.fullmatch(first.text), STANDS.fullmatch(first.text)
        if sent:
            front, behind = parts_of(sent[2], self.path.parent)
            play = {"": self.exchange, "cut ": self.cut, "gone ": self.gone, "once ": self.once}[sent[1]]
            play(first, front, behind, told)
        elif stands:
            there = standing(self.folder, *stands.groups()[:3])
            if there != stands[4]:
                self.fail(first, repr(stands[4]), repr(there))
        elif first.text == "journal":
            wanted = [common.Line(line.number, written_out(line.text, self.path.parent)) for line in told]
            self.compare(wanted, self.entries()[-len(told):], block[-1])
        elif first.text == "moved":
            (self.folder / "night.journal").rename(self.folder / "moved.journal")
        elif first.text == "damaged":
            with open(self.folder / "night.journal", "a") as journal:
                journal.writelines(line.text + "\n" for line in told)
        elif first.text == "anew":
            self.end()
            self.begin()
        else:
            raise ValueError(f"{self.path}:{first.number}: no block begins with {first.text!r}")

    def entries(self):
        """The lines of the journal."""
        journal = self.folder / "night.journal"
        return common.texts_of(journal.read_bytes()) if journal.exists() else []

    def reply(self, sent, most, ends=False):
        """What comes back to bytes that are sent, at most so many at once; the client may end its side then."""
        try:
            with self.desk.connect() as connection:
                connection.settimeout(PATIENCE)
                send(connection, sent, most)
                if ends:
                    connection.shutdown(socket.SHUT_WR)
                return common.read_all(connection)
        except (ConnectionError, socket.timeout):
            return b""

    def is_told(self, told, reply):
        """Whether a reply is what lines tell."""
        if told[0].text != "lines":
            return self.compare(told, told_of(reply), told[-1])
        came = reply.decode(errors="backslashreplace").splitlines()
        wanted = [line for line in told[1:] if not line.text.startswith("! ")]
        missing = [line for line in wanted if not any(text.startswith(line.text) for text in came)]
        for line in missing:
            nearest = difflib.get_close_matches(line.text, came, 1, 0)
            self.fail(line, f"a line that begins {line.text!r}", repr(nearest[0]) if nearest else "nothing")
        others = [line for line in told[1:] if line not in wanted and any(text.startswith(line.text[2:]) for text in came)]
        for line in others:
            self.fail(line, f"no line that begins {line.text[2:]!r}", "one")
        return not missing and not others

    def exchange(self, first, front, behind, told):
        """Bytes are sent, and told so; where some come behind those that suffice, in pieces of whatever size."""
        entries = self.entries()
        tries = [(front, most) for most in PIECES] if behind or "^" in first.text else []
        for sent, most in [*tries, (front + behind, len(front + behind))]:
            if not self.is_told(told, self.reply(sent, most)):
                return
        if not front.startswith(b"POST ") and self.entries() != entries:
            self.fail(first, "no line in the journal", repr(self.entries()[-1]))

    def cut(self, first, front, behind, told):
        """A request is cut after each byte but the last."""
        for length in range(len(front)):
            if not self.is_told(told, self.reply(front[:length], 8192, ends=True)):
                return
            self.gone(first, front[:length], behind, told)

    def once(self, first, front, behind, told):
        """A request for which the journal's file is opened once."""
        opened = times_opened(self.folder / "night.journal", lambda: self.is_told(told, self.reply(front, len(front))))
        if opened != 1:
            self.fail(first, "that the journal's file is opened once", f"{opened} times")

    def gone(self, first, front, behind, told):
        """A client goes away once it has sent this."""
        with self.desk.connect() as connection:
            send(connection, front, 8192)
            connection.setsockopt(socket.SOL_SOCKET, socket.SO_LINGER, GONE)


def play(path, program):
    """How many talks of a file pass, and the lines that go otherwise."""
    passed, failures = 0, []
    for (command,), *blocks in talks_of(path):
        with common.own_folder() as folder:
            failed = Talk(path, program, folder, command).play(blocks)
        passed += not failed
        failures += failed
    return passed, failures
