"""What the players of sessions, talks and nights share."""
import contextlib
import difflib
import os
import pathlib
import select
import socket
import subprocess
import tempfile
import typing

SECONDS = 60            # for a run of the program, and for an exchange with a desk


class Failure(typing.NamedTuple):
    """A line that goes otherwise. `case` is the line at which its case begins; 0 where the whole file is one case."""
    file: pathlib.Path
    line: int
    wanted: str
    got: str
    case: int = 0

    def __str__(self):
        return f"{self.file}:{self.line}: wanted {self.wanted}, got {self.got}"


class Line(typing.NamedTuple):
    """A line of a file, and its number from 1 on."""
    number: int
    text: str


class Ran(typing.NamedTuple):
    """What a run of the program printed to its two streams, and its exit status."""
    out: bytes
    err: bytes
    status: int


def lines_of(path):
    """The lines of a file, parted at line feeds alone."""
    texts = path.read_bytes().decode().split("\n")
    if texts[-1] == "":
        texts.pop()
    return [Line(number, text) for number, text in enumerate(texts, 1)]


def texts_of(printed):
    """The lines of what a program printed, without the end of each. Bytes that are no UTF-8 are told by their numbers; the
    last line, where it has no end, by `(no end of line)`."""
    texts = printed.decode(errors="backslashreplace").split("\n")
    last = texts.pop()
    return texts + [last + "(no end of line)"] if last else texts


def differences(file, wanted, got, end, case=0):
    """The failures of a case: each wanted line that didn't come, with what came in its place, and what came beside them.
    What is too much at the end is told of the line `end`."""
    matcher = difflib.SequenceMatcher(None, [line.text for line in wanted], got, autojunk=False)
    failures = []
    for what, first, past, first_got, past_got in matcher.get_opcodes():
        if what == "equal":
            continue
        for place in range(max(past - first, past_got - first_got)):
            line = wanted[first + place] if first + place < past else None
            came = repr(got[first_got + place]) if first_got + place < past_got else "nothing"
            number = line.number if line else wanted[past].number if past < len(wanted) else end
            failures.append(Failure(file, number, repr(line.text) if line else "nothing", came, case))
    return failures


@contextlib.contextmanager
def own_folder():
    """A folder of a case's own, which is removed at the end."""
    with tempfile.TemporaryDirectory(prefix="plandesk-") as folder:
        yield pathlib.Path(folder)


def environment():
    """What the program is told of its surroundings: next to nothing."""
    return {"PATH": os.defpath, "LC_ALL": "C"}


def run(program, words, folder, out=subprocess.PIPE, err=subprocess.PIPE):
    """Runs the program in a folder, with these words, and nothing to read. Its streams can be other files."""
    ran = subprocess.run(["plandesk", *words], executable=program, cwd=folder, env=environment(), timeout=SECONDS,
                         stdin=subprocess.DEVNULL, stdout=out, stderr=err)
    return Ran(ran.stdout, ran.stderr, ran.returncode)


def free_port():
    """A port of this machine that nobody holds at this moment."""
    with socket.create_server(("127.0.0.1", 0)) as holder:
        return holder.getsockname()[1]


class Desk:
    """A desk that listens: a run of `serve` or `desk`."""

    def __init__(self, process, port):
        self.process = process
        self.port = port

    def connect(self):
        """A connection to it."""
        return socket.create_connection(("127.0.0.1", self.port), SECONDS)

    def exchange(self, sent):
        """What comes back, to its end, to these bytes, over a connection of their own. The client goes on listening, and
        doesn't close its side before."""
        with self.connect() as connection:
            connection.sendall(sent)
            return read_all(connection)

    def end(self):
        """Waits until it has ended by itself, and tells what its run came to."""
        out, err = self.process.communicate(timeout=SECONDS)
        return Ran(out, err, self.process.returncode)


def read_all(connection):
    """What comes over a connection, to its end. A connection that is reset ends there."""
    parts = []
    with contextlib.suppress(ConnectionResetError):
        while part := connection.recv(65536):
            parts.append(part)
    return b"".join(parts)


@contextlib.contextmanager
def listening(program, words, folder):
    """A desk by these words, `serve ..` or `desk ..` without `--port`, which listens; it is ended at the end, if it hasn't by
    then."""
    desk = started(program, words, folder)
    try:
        yield desk
    finally:
        stop(desk.process)


def started(program, words, folder):
    """The same desk. A port that another took in between is given up for another."""
    for _ in range(20):
        port = free_port()
        process = subprocess.Popen(["plandesk", *words, "--port", str(port)], executable=program, cwd=folder, bufsize=0,
                                   env=environment(), stdin=subprocess.DEVNULL, stdout=subprocess.PIPE,
                                   stderr=subprocess.PIPE)
        told = first_line(process.stdout)
        if told == b"listening\n":
            return Desk(process, port)
        process.kill()
        out, fault = process.communicate()
        if fault != b"fault network\n":
            break
    raise RuntimeError(f"{words[0]} doesn't listen: {told + out!r} {fault!r}")


def first_line(stream):
    """The first line that comes over a stream; what came of it, where none does for too long."""
    ready, _, _ = select.select([stream], [], [], SECONDS)
    return stream.readline() if ready else b""


def stop(process):
    """Ends a process of ours, and lets its streams go."""
    with process:
        if process.poll() is None:
            process.kill()
