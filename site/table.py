"""The table of a tracker, read and written: which command an operation has, what holds for it, and which code an exit status.

    # a remark
    workstations CPU1 SETP
    DAILY/*/010 -> /srv/jobs/extract "$PLANDESK_ARRIVAL"
    exit 12 -> DISK
    limit DAILY/* 90
    output 50
    retry DAILY/*/010 2
    user batch
"""
import fnmatch
import os
import pwd
import re
from typing import NamedTuple, Optional

KINDS = """none of `workstations NAME..`, `PATTERN -> COMMAND`, `exit N -> CODE`, `limit [PATTERN] MINUTES`,
`output [PATTERN] MEGABYTES`, `retry [PATTERN] TIMES`, `user [PATTERN] NAME`""".replace("\n", " ")


class WrongTable(Exception):
    """A text is no table: the line, and what it may be."""


class Order(NamedTuple):
    """What is to be run, and what holds for it: minutes, megabytes and a user, None where nothing is said."""
    command: str
    workstation: str
    limit: Optional[float]
    output: Optional[float]
    user: Optional[str]


def amount(word):
    """A number above 0."""
    if not re.fullmatch(r"\d{1,6}(\.\d{1,3})?", word) or not float(word):
        raise WrongTable(f"{word} is no number above 0")
    return float(word)


def times(word):
    if not re.fullmatch(r"\d{1,2}", word):
        raise WrongTable(f"{word} is no number of times, 0 to 99")
    return int(word)


def user(name):
    """A user of this machine, as whom this process may run something."""
    try:
        number = pwd.getpwnam(name).pw_uid
    except KeyError:
        raise WrongTable(f"this machine has no user {name}") from None
    if os.geteuid() not in (0, number):
        raise WrongTable(f"what runs as {name} needs a tracker that runs as root or as {name}")
    return name


RULES = {"limit": amount, "output": amount, "retry": times, "user": user}


class Table:
    """What the text of a table says. Of each kind the first line that matches an operation's key counts."""

    def __init__(self, text):
        self.workstations, self.commands, self.codes, self.rules = [], [], {}, {name: [] for name in RULES}
        for number, line in enumerate(text.split("\n"), 1):
            try:
                self.take(line)
            except WrongTable as wrong:
                raise WrongTable(f"line {number}: {wrong}") from None
        if not self.workstations:
            raise WrongTable("no line `workstations NAME..`")

    def take(self, line):
        left, arrow, right = (part.strip() for part in line.partition(" -> "))
        if not left or left.startswith("#"):
            return
        coded, words = re.fullmatch(r"exit\s+(\d{1,3})", left), left.split()
        if not arrow and words[0] == "workstations" and len(words) > 1:
            self.workstations += words[1:]
        elif not arrow and words[0] in RULES and len(words) in (2, 3):
            self.rules[words[0]].append((words[1] if len(words) == 3 else "*", RULES[words[0]](words[-1])))
        elif coded and re.fullmatch(r"[A-Z0-9@#$]{1,4}", right):
            self.codes[int(coded[1])] = right
        elif right and len(words) == 1:
            self.commands.append((left, right))
        else:
            raise WrongTable(KINDS)

    def command_of(self, key):
        return first(self.commands, key)

    def order_of(self, key, workstation=""):
        """What is to be run for an operation. What the table has no command for any more ends in error."""
        command = self.command_of(key) or "echo the table has no command for this any more; exit 126"
        return Order(command, workstation, *(self.rule_of(name, key) for name in ("limit", "output", "user")))

    def rule_of(self, name, key):
        """What holds for an operation; None where nothing is said."""
        return first(self.rules[name], key)

    def retries_of(self, key):
        """How often an operation may be run again."""
        return self.rule_of("retry", key) or 0

    def code_of(self, status):
        return self.codes.get(status, f"E{status:03}")


def first(lines, key):
    """What the first of these lines says whose pattern matches; None where none does."""
    return next((said for pattern, said in lines if fnmatch.fnmatchcase(key, pattern)), None)


def table_text(workstations, commands):
    """The text of a table, of names of workstations and of pairs of an application with a number and a command. A command
    is one line. (What begins with # would be a remark.)"""
    lines = ["workstations " + " ".join(workstations)] if workstations else []
    for (application, number), command in commands:
        lines.append(f"{re.sub('^#', '[#]', application)}/*/{number:03} -> {command}")
    return "".join(line + "\n" for line in lines)
