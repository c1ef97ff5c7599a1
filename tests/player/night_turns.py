"""Turns of nights: what is asked, as JSON and as the commands' words, and what is answered."""
import json
import typing

from player.night_texts import listed, moment, occurrence, operation, records, short_operation


class Turn(typing.NamedTuple):
    """What is asked at a moment, by whom where it is a tracker's report, and what it is answered."""
    tracker: str
    number: int
    at: str
    word: str
    rest: str
    told: str


def turn_of(text):
    """The turn that a line tells, as `T1 4: 22:40 ended 10 | names 20`; or none."""
    asked, bar, told = text.partition(" | ")
    if not bar:
        return None
    who, colon, rest = asked.partition(": ")
    tracker, _, number = who.partition(" ") if colon else ("", "", "0")
    at, word, *further = (rest if colon else asked).split(" ", 2)
    return Turn(tracker, int(number), moment(at), word, "".join(further), told)


def interval(text):
    """An open interval, as a request has it."""
    first, end, *numbers = text.split()
    return [moment(first), moment(end), *map(int, numbers)]


def intervals(rest):
    """A workstation's new open intervals."""
    name, _, all_of_them = rest.partition(" ")
    return {"ws": name, "intervals": [] if all_of_them == "-" else [interval(one) for one in all_of_them.split(",")]}


def error(rest):
    """An operation and its error code."""
    name, code = rest.split()
    return {"op": operation(name), "code": code}


def depend(rest):
    """A pair."""
    successor, predecessor = rest.split(" on ")
    return {"from": operation(predecessor), "to": operation(successor)}


# the `do` of words that are called otherwise
DO = {"open": "intervals", "away": "available", "load-cr-lf": "load"}

# the members beside the moment and `do`; of any other word `op`
MEMBERS = {
    "tick": lambda rest: {},
    "open": intervals,
    "away": lambda rest: {"resource": rest, "value": False},
    "available": lambda rest: {"resource": rest, "value": True},
    "delete": lambda rest: {"occ": occurrence(rest)},
    "depend": depend,
    "error": error,
}


def text_of(turn, parts):
    """The text that a load, an addition or an extension brings; or none."""
    if turn.word not in ("load", "load-cr-lf", "add", "extend"):
        return None
    text = records(parts, turn.rest)
    return text.replace("\n", "\r\n") if turn.word == "load-cr-lf" else text


def request(turn, parts):
    """A turn as a JSON text: an operator's request, or a tracker's report."""
    who = {"tracker": turn.tracker, "number": turn.number} if turn.tracker else {}
    text = text_of(turn, parts)
    if text is None:
        members = MEMBERS.get(turn.word, lambda rest: {"op": operation(rest)})(turn.rest)
    else:
        members = {"records": text}
    asked = {**who, "at": turn.at, "do": DO.get(turn.word, turn.word), **members}
    return json.dumps(asked, separators=(",", ":"))


def names(keys):
    """What is told of an accepted request that names these operations."""
    return " ".join(["names", *(short_operation(key) for key in keys)]) if keys else "names -"


def answer_of_lines(lines):
    """The answer that a command prints, as a night tells it, but with the refusal's name."""
    if lines[:1] == ["accepted"] and all(line.startswith("starts ") for line in lines[1:]):
        return names([line[len("starts "):] for line in lines[1:]])
    return " / ".join(lines)


def answer_of_reply(status, body):
    """The answer that a desk replies, in the same words."""
    if status == 200:
        return names(json.loads(body)["named"])
    if status == 409:
        refused = json.loads(body)
        return f"refused {refused['refusal']} {refused['name']}"
    return "no request" if status == 400 else f"status {status}"


def is_answer(told, got):
    """Whether an answer is what a night tells, which leaves out the refusal's name."""
    if told.startswith("names "):
        return got == names([operation(name) for name in listed(told[len("names "):])])
    return got == told or got.startswith(told + " ")
