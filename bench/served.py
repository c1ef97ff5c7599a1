"""A running `plandesk serve` or `desk`, what a client sends to it and gets from it, its journal, and the tables as the C
library reads them. A connection for each request."""
import json
import re
import shutil
import socket
import sqlite3
import subprocess
from contextlib import closing

from measure import Unmeasured
from stored import TABLES

MOST_CONNECTIONS = 1_000_000
SECONDS_TO_ANSWER = 60
PHRASES = {200: "OK", 400: "Bad Request", 404: "Not Found", 405: "Method Not Allowed", 409: "Conflict",
           411: "Length Required", 413: "Payload Too Large", 422: "Unprocessable Entity", 501: "Not Implemented",
           503: "Service Unavailable"}
JSON, TEXT = "application/json", "text/plain; charset=utf-8"
JOURNAL = "night.log"


class Cut(OSError):
    """A connection that ended before its reply was whole."""


def free_port():
    with socket.socket() as probe:
        probe.bind(("127.0.0.1", 0))
        return probe.getsockname()[1]


def load(program, folder, plan, moment, database="night.db"):
    """Loads a plan into a database that isn't there yet; the keys that it names."""
    words = [program, "load", "--db", database, "--plan", plan, "--at", moment]
    run = subprocess.run([str(word) for word in words], cwd=folder, capture_output=True, text=True)
    if run.returncode != 0:
        raise Unmeasured(f"load ended with {run.returncode}: {run.stdout[:100]!r} {run.stderr[:100]!r}")
    return [line.split(" ")[1] for line in run.stdout.splitlines()[1:]]


def report_text(tracker, number, at, what, operation, **more):
    """A tracker's report, always with the same bytes for the same report."""
    return json.dumps({"tracker": tracker, "number": number, "at": at, "do": what, "op": operation, **more},
                      separators=(",", ":"))


def request_bytes(method, path, text=None):
    """A request as a plain client sends it."""
    body = (text or "").encode()
    length = "" if text is None else f"Content-Length: {len(body)}\r\n"
    return f"{method} {path} HTTP/1.1\r\nHost: localhost\r\n{length}\r\n".encode() + body


def reply_of(written, media=JSON):
    """The status, the method that is allowed, and the body of a reply, which has to be written as it is promised."""
    head, ended, body = written.partition(b"\r\n\r\n")
    status = re.match(rb"HTTP/1\.1 (\d{3}) ", head)
    allowed = re.search(rb"\r\nAllow: (GET|POST)\Z", head)
    if not ended or not status:
        raise Cut(f"no whole reply: {written[:200]!r}")
    status, allowed = int(status[1]), allowed and allowed[1].decode()
    wanted = (f"HTTP/1.1 {status} {PHRASES.get(status)}\r\nContent-Type: {media}\r\n"
              f"Content-Length: {len(body)}\r\nConnection: close" + (f"\r\nAllow: {allowed}" if allowed else ""))
    if head != wanted.encode():
        raise Cut(f"not the fields and the length that are promised, or a part of the body: {written[:300]!r}")
    return status, allowed, body


def add_desk_word(words):
    words.add_argument("--desk", action="store_true", help="try `desk`, with a journal, in place of `serve`")


def desk_words(given):
    """The words of `desk` where it is to be tried, and else None."""
    return ["--journal", JOURNAL] if given.desk else None


class Served:
    """A desk that listens: by `serve`, or by `desk` with these words. The database is opened before it does, so that the
    time until then counts for nothing."""

    def __init__(self, program, folder, port=None, connections=MOST_CONNECTIONS, desk=None, **more):
        self.port = port or free_port()
        command, words = ("serve", ["--requests", connections]) if desk is None else ("desk", desk)
        words = [program, command, "--db", "night.db", "--port", self.port, *words]
        self.process = subprocess.Popen([str(word) for word in words], cwd=folder, stdout=subprocess.PIPE,
                                        stderr=subprocess.PIPE, **more)
        told = self.process.stdout.readline()
        if told != b"listening\n":
            raise Unmeasured(f"{command} doesn't listen: {told + self.process.stderr.read()!r}, status {self.process.wait()}")

    def connect(self):
        stream = socket.create_connection(("127.0.0.1", self.port), timeout=SECONDS_TO_ANSWER)
        stream.setsockopt(socket.IPPROTO_TCP, socket.TCP_NODELAY, 1)
        return stream

    def exchange(self, sent):
        """All that is written to a client that sends this and no more, as soon as the connection ends."""
        with self.connect() as stream:
            stream.sendall(sent)
            return received(stream)

    def ask(self, method, path, text=None):
        """The status and the body of the reply. A connection that is cut is an OSError."""
        status, _, body = reply_of(self.exchange(request_bytes(method, path, text)))
        return status, body

    def report(self, text):
        return self.ask("POST", "/report", text)

    def look(self, path, media=TEXT):
        """The body of what is shown under a path."""
        status, _, body = reply_of(self.exchange(request_bytes("GET", path)), media)
        if status != 200:
            raise Unmeasured(f"GET {path} is answered {status}: {body!r}")
        return body

    def peak_megabytes(self):
        with open(f"/proc/{self.process.pid}/status") as told:
            return next(int(line.split()[1]) / 1024 for line in told if line.startswith("VmHWM"))

    def kill(self):
        """Ends it as `kill -9` does."""
        self.process.kill()
        self.process.wait()
        self.process.stdout.close()
        self.process.stderr.close()


def received(stream):
    parts = []
    while part := stream.recv(65536):
        parts.append(part)
    return b"".join(parts)


def journal_of(folder):
    """What a journal tells: its requests, each with its answer, or None where there is none; and whether its last line was
    cut short."""
    *lines, last = (folder / JOURNAL).read_bytes().split(b"\n")
    told = []
    for line in lines:
        try:
            entry = json.loads(line)
        except ValueError:
            continue    # cut short by a kill, and ended at the next opening
        if "path" in entry:
            told.append((entry, None))
        else:
            told[-1] = (told[-1][0], entry)
    return told, last != b""


def rows(folder, look=None):
    """All rows of the tables of a database that nobody writes now, its log read with it, as the C library reads them
    over a copy, which is made beside the database or in another folder."""
    look = look or folder
    for ending in ("", "-wal", "-shm"):
        (look / f"look.db{ending}").unlink(missing_ok=True)
        if ending != "-shm" and (folder / f"night.db{ending}").exists():
            shutil.copy(folder / f"night.db{ending}", look / f"look.db{ending}")
    with closing(sqlite3.connect(look / "look.db")) as database:
        return {table: sorted(database.execute(f"SELECT * FROM {table}").fetchall()) for table in TABLES}
