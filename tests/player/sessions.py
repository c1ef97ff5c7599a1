"""Plays sessions: runs of the program one after another over the files of a folder, and clients of a desk that serves.

The folder is the session's own; all of tests/sessions/files stand in it. A line is one of these; an empty line and one that
begins with `#` are comments:

    $ load --db @night.db --plan @night.csv --at 2024-03-01T21:00
    accepted                            a run by these words, parted by single blanks, and below it each line that it shows
    $ report --db @night.db --kind ready
    !fault words                        `!` stands before each line of its faults,
    =2                                  and `=` before its exit status, if that isn't 0
    $ forecast --help
    ~ Example: plandesk forecast        it shows a text of which this is a part, and needn't be told whole
    % night.db DROP TABLE need          another program changes a database: its name, and SQL statements
    - absent.db                         the folder has no such file
    & serve --db @night.db --requests 2
                                        a desk is served at a free port, from here on to the end. Then it has to end by itself
    1> POST /operator HTTP/1.1          client 1 connects, and sends all its lines that follow each other: between them are
    1>                                  CR LF, behind the last nothing. A client that sends nothing has one empty line
    1< HTTP/1.1 200 OK                  what client 1 reads to the end, in the same way

Of the words `@name` stands for a file of the folder, `@` for the folder, `''` for the empty word, and TAKEN for a port that
another program holds. `>full` and `>gone`, behind a 2 for standard error, give a run a stream that fails: on a full disk, or
in a pipe whose reader has gone. A file of tests/sessions/files that ends in .packed is unpacked: a line `>TEXT` is that text
and a line feed, `"TEXT` the text alone, `+N` so many zero bytes; other lines have two hexadecimal digits for each byte."""
import contextlib
import os
import pathlib
import re
import shutil
import socket
import sqlite3
import subprocess
import typing

from player import common

FILES = pathlib.Path(__file__).resolve().parent.parent / "sessions" / "files"
STEP = re.compile(r"([$%&-]|\d[<>])(?: (.*))?")     # a line that isn't told by the program, but has it do something
STREAM = re.compile(r"(2?)>(full|gone)")            # a word that gives a run a stream which fails
PART = "~ "                                         # stands before a part of what is shown


class Step(typing.NamedTuple):
    """Something that is done in a session: what it is, its words, the number of its line, and the lines below it."""
    kind: str
    words: str
    number: int
    below: typing.List[common.Line]


def steps_of(lines):
    """The steps of a session. Empty lines and comments are none; lines of one client that follow each other are one."""
    steps = []
    for line in lines:
        found = STEP.fullmatch(line.text)
        if line.text == "" or line.text.startswith("#"):
            continue
        if not found:
            steps[-1].below.append(line)
            continue
        kind, words = found[1], found[2] or ""
        if not (kind[0].isdigit() and steps and steps[-1].kind == kind):
            steps.append(Step(kind, words, line.number, []))
        if kind[0].isdigit():
            steps[-1].below.append(common.Line(line.number, words))
    return steps


def unpacked(path):
    """The bytes of a packed file."""
    parts = []
    for line in common.lines_of(path):
        kind, rest = line.text[:1], line.text[1:]
        if kind == ">":
            parts.append(rest.encode() + b"\n")
        elif kind == '"':
            parts.append(rest.encode())
        elif kind == "+":
            parts.append(bytes(int(rest)))
        else:
            parts.append(bytes.fromhex(line.text))
    return b"".join(parts)


def put_files(folder):
    """Puts the files of sessions into a folder, those that are packed by their bytes."""
    for path in FILES.iterdir():
        if path.suffix == ".packed":
            (folder / path.stem).write_bytes(unpacked(path))
        else:
            shutil.copy(path, folder)


class Session:
    """A session that is played in a folder. What it opens is closed as `opened` is."""

    def __init__(self, file, program, folder, opened):
        self.file = file
        self.program = program
        self.folder = folder
        self.opened = opened
        self.desks = {}         # by the number of the line that serves each
        self.clients = {}       # by the digit of each

    def word(self, text):
        """What a word of a run stands for."""
        if text.startswith("@"):
            return f"{self.folder}/{text[1:]}"
        if text == "TAKEN":
            holder = self.opened.enter_context(socket.create_server(("127.0.0.1", 0)))
            return str(holder.getsockname()[1])
        return "" if text == "''" else text

    def stream(self, what):
        """A stream that fails: a full disk, or a pipe whose reader has gone."""
        if what == "full":
            return self.opened.enter_context(open("/dev/full", "wb"))
        reader, writer = os.pipe()
        os.close(reader)
        return self.opened.enter_context(open(writer, "wb"))

    def run(self, words):
        """Runs the program with these words."""
        texts = [word for word in words.split(" ") if not STREAM.fullmatch(word)]
        failing = {found[1]: self.stream(found[2]) for found in map(STREAM.fullmatch, words.split(" ")) if found}
        return common.run(self.program, [self.word(text) for text in texts], self.folder,
                          out=failing.get("", subprocess.PIPE), err=failing.get("2", subprocess.PIPE))

    def play_run(self, step):
        """Runs the program, and compares what it tells with the lines below."""
        return self.compare(step, self.run(step.words))

    def compare(self, step, ran):
        """Compares what a run showed, its faults behind `!` and its status behind `=` with the lines below."""
        shown = common.texts_of(ran.out or b"")
        parts = [line.text for line in step.below if line.text.startswith(PART)]
        if parts:
            shown = [part for part in parts if part[len(PART):] in "\n".join(shown)]
        faults = [f"!{text}" for text in common.texts_of(ran.err or b"")]
        status = [f"={ran.status}"] if ran.status else []
        return self.differences(step, shown + faults + status)

    def differences(self, step, got):
        last = step.below[-1].number if step.below else step.number
        return common.differences(self.file, step.below, got, last, step.number)

    def change(self, step):
        """Has another program change a database: its name stands before the statements."""
        name, statements = step.words.split(" ", 1)
        with contextlib.closing(sqlite3.connect(self.folder / name, isolation_level=None)) as database:
            database.execute("PRAGMA journal_mode = WAL")       # as a desk's databases are
            database.executescript(statements)
        return self.differences(step, [])

    def is_absent(self, step):
        """Looks that a file isn't there."""
        if not (self.folder / step.words).exists():
            return self.differences(step, [])
        return [common.Failure(self.file, step.number, "no file", step.words, step.number)]

    def serve(self, step):
        """Starts a desk that listens until the session ends."""
        words = [self.word(text) for text in step.words.split(" ")]
        self.desks[step.number] = self.opened.enter_context(common.listening(self.program, words, self.folder))
        return []

    def send(self, step):
        """Has a client connect to the desk that was served last, and send the lines."""
        client = self.opened.enter_context(self.desks[max(self.desks)].connect())
        client.sendall("\r\n".join(line.text for line in step.below).encode())
        self.clients[step.kind[0]] = client
        return []

    def receive(self, step):
        """Compares what a client reads, to its end, with the lines."""
        read = common.read_all(self.clients[step.kind[0]]).decode(errors="backslashreplace")
        return self.differences(step, read.split("\r\n"))

    def end(self, step):
        """Waits until the desk of this step has ended, if it has begun, and compares what it tells with the lines below."""
        desk = self.desks.get(step.number)
        return self.compare(step, desk.end()) if desk else []


KINDS = {"$": Session.play_run, "%": Session.change, "-": Session.is_absent, "&": Session.serve,
         ">": Session.send, "<": Session.receive}


def play(path, program):
    """How many cases of a session pass, and what fails. Cases are its runs, the files that aren't there, the clients that
    read."""
    steps = steps_of(common.lines_of(path))
    failures = []
    with common.own_folder() as folder, contextlib.ExitStack() as opened:
        put_files(folder)
        session = Session(path, program, folder, opened)
        for step in steps:
            failures += play_step(session, step, KINDS[step.kind[-1]])
        for step in steps:
            if step.kind == "&":
                failures += play_step(session, step, Session.end)
    cases = {step.number for step in steps if step.kind[-1] in "$-&<"}
    return len(cases - {failure.case for failure in failures}), failures


def play_step(session, step, kind):
    """What fails of a step, which may fail by itself."""
    try:
        return kind(session, step)
    except (OSError, RuntimeError, LookupError, ValueError, sqlite3.Error, subprocess.TimeoutExpired) as fault:
        return [common.Failure(session.file, step.number, f"to do {step.words!r}", repr(fault), step.number)]
