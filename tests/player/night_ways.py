"""The ways in which a night is played over a database: by a command for each line, and by a desk that is served."""
import http.client
import json
import shutil
import sqlite3
from contextlib import closing

from player import common
from player.night_texts import NIGHTS, minute
from player.night_turns import answer_of_lines, answer_of_reply, request, text_of

# the eleven tables, and how many columns are the key of each, the first ones
KEYS = {"meta": 1, "workstation": 1, "interval": 2, "resource": 1, "occurrence": 2, "operation": 3, "dependency": 6,
        "need": 4, "quantity": 1, "amount": 4, "receipt": 1}
DATABASE = "night.db"
MOST_AHEAD = 5256000    # minutes that a request may be after the clock, at most
DAMAGED = "refused 28 Damaged"
FAR = "2025"            # moments before that are less than that after any clock of a night


class Unanswered(Exception):
    """What a run of the program, or a reply, tells in place of an answer."""


def rows_of(path):
    """The rows of each of the tables that are there."""
    with closing(sqlite3.connect(path)) as database:
        there = {name for name, in database.execute("SELECT name FROM sqlite_master WHERE type = 'table'")}
        return {name: sorted(database.execute(f"SELECT * FROM {name}")) for name in KEYS if name in there}


class Way:
    """A database in a folder of its own."""

    def __init__(self, program, folder, parts):
        self.program = program
        self.folder = folder
        self.parts = parts

    def files(self):
        """The files of the database."""
        return [self.folder / (DATABASE + end) for end in ("", "-wal", "-shm")]

    def begin(self):
        """Makes a desk at which nothing is loaded: a load that is refused leaves one."""
        (self.folder / "none.csv").write_text("")
        ran = self.run("load", "--plan", "none.csv", "--at", "2024-03-01T20:00")
        if ran.out != b"refused 21 BadPlan\n":
            raise Unanswered(f"no desk is made: {ran}")

    def run(self, command, *words):
        """A run of a command over the database."""
        return common.run(self.program, [command, "--db", DATABASE, *words], self.folder)

    def rows(self):
        """What the tables hold, as a copy of the files shows it, so that nobody waits for another."""
        with common.own_folder() as look:
            for file in self.files():
                if file.exists():
                    shutil.copy(file, look)
            return rows_of(look / DATABASE)

    def copy_to(self, folder):
        """The same way over a copy of the database."""
        self.let_go()
        folder.mkdir()
        for file in self.files():
            if file.exists():
                shutil.copy(file, folder)
        return type(self)(self.program, folder, self.parts)

    def change(self, text):
        """Changes the tables by SQL, or by a file of this name."""
        self.let_go()
        file = NIGHTS / (text.lower() + ".sql")
        with closing(sqlite3.connect(self.folder / DATABASE)) as database:
            database.executescript(file.read_text() if text.isidentifier() and file.exists() else text)
            database.commit()

    def empty(self):
        """Another database, without tables, takes the place of this one."""
        self.let_go()
        for file in self.files():
            file.unlink(missing_ok=True)

    def let_go(self):
        """Lets no program have the database open."""


class ByCommands(Way):
    """A command for each line."""
    name = "do"
    takes_reports = False       # of trackers, which have numbers
    is_shown = False            # what the plan is: the tables are looked at, since a look would be a run of the program

    def answer(self, turn):
        """The answer to a turn."""
        ran = self.asked(turn, text_of(turn, self.parts))
        lines = common.texts_of(ran.out or ran.err)
        if ran.status != (0 if lines[:1] == ["accepted"] else 1):
            raise Unanswered(f"{' / '.join(lines)}, status {ran.status}")
        return answer_of_lines(lines)

    def asked(self, turn, text):
        """The run that asks it: `load` and `extend` read the text of a file."""
        if turn.word not in ("load", "load-cr-lf", "extend"):
            return self.run("do", "--request", request(turn, self.parts))
        (self.folder / "text.csv").write_bytes(text.encode())
        return self.run(turn.word[:6].partition("-")[0], "--plan", "text.csv", "--at", turn.at)

    def opening(self):
        """Whether a desk is opened: `opened`, `damaged`, or what else is told."""
        told = self.report("occurrences")[0]
        return "damaged" if told == DAMAGED else "opened"

    def told(self, *words):
        """What a command of this kind tells; of a refusal `refused 3 NotLoaded`."""
        ran = self.run(*words)
        if ran.err or ran.status not in (0, 1):
            raise Unanswered(f"{ran.err.decode()!r}, status {ran.status}")
        return common.texts_of(ran.out)

    def report(self, kind, *workstation):
        """The lines of a report."""
        return self.told("report", "--kind", kind, *(word for name in workstation for word in ("--ws", name)))

    def operations(self, occurrence):
        """The lines of an occurrence's operations."""
        return self.told("show", "--kind", "operations", "--occ", occurrence)

    def why(self, operation, moment):
        """What is told of an operation at a moment."""
        return self.told("why", "--op", operation, "--at", moment)


class ByDesk(Way):
    """A desk that is served, over HTTP."""
    name = "desk"
    takes_reports = True
    is_shown = True

    def __init__(self, *where):
        super().__init__(*where)
        self.desk = None

    def serve(self, *words):
        """The desk, which is started where none is."""
        if self.desk is None:
            options = ["--db", DATABASE, "--ahead", str(MOST_AHEAD), *words]
            self.desk = common.started(self.program, ["desk", *options], self.folder)
        return self.desk

    def let_go(self):
        if self.desk is not None:
            common.stop(self.desk.process)
            self.desk = None

    def exchange(self, method, path, body=None):
        """The status and the body of a reply."""
        with closing(http.client.HTTPConnection("127.0.0.1", self.serve().port, timeout=common.SECONDS)) as connection:
            connection.request(method, path.replace("#", "%23"), body)
            reply = connection.getresponse()
            return reply.status, reply.read().decode()

    def answer(self, turn):
        """The answer to a turn. What is too far ahead of the clock is refused, whatever it asks: a desk that is started
        again ticks so far by itself."""
        far = self.is_far(turn)
        got = answer_of_reply(*self.exchange("POST", "/report" if turn.tracker else "/operator", request(turn, self.parts)))
        if not far:
            return got
        if got != "status 422":
            raise Unanswered(f"{got} to what is too far ahead")
        return self.ticked(turn)

    def opening(self):
        """Whether a desk is opened: `opened`, `damaged`, or what else is told."""
        self.let_go()
        try:
            self.serve()
        except RuntimeError as ended:
            return "damaged" if f"b'{DAMAGED}\\n'" in str(ended) else str(ended)
        return "opened"

    def is_far(self, turn):
        """Whether a turn is further ahead of the clock than a desk's request may be."""
        if turn.at < FAR:
            return False
        health = json.loads(self.exchange("GET", "/health")[1])
        return health["loaded"] and minute(turn.at) > minute(health["clock"]) + MOST_AHEAD

    def ticked(self, turn):
        """The answer of a desk that is started again to the tick at its beginning."""
        self.let_go()
        try:
            self.serve("--at", turn.at, "--gap", "52596000")
        except RuntimeError as ended:
            return str(ended).partition("b'")[2].partition("\\n")[0]
        return "names -"

    def told(self, path):
        """The text of a path; of a refusal `refused 3 NotLoaded`."""
        status, text = self.exchange("GET", path)
        if status not in (200, 409):
            raise Unanswered(f"status {status}: {text}")
        return common.texts_of(text.encode()) if status == 200 else [answer_of_reply(status, text)]

    def report(self, kind, *workstation):
        """The lines of a report."""
        return self.told("/".join(["/report", kind, *workstation]))

    def operations(self, occurrence):
        """The lines of an occurrence's operations."""
        return self.told("/show/operations/" + occurrence)

    def why(self, operation, moment):
        """What is told of an operation at a moment, where that is the clock's, which alone a desk is asked for; else
        nothing."""
        if json.loads(self.exchange("GET", "/health")[1])["clock"] != moment:
            return None
        return self.told("/why/" + operation)
