"""A night by `play`: all of its requests in one run, in memory."""
import re

from player import common
from player.night_turns import answer_of_lines, is_answer, request, text_of, turn_of

HEAD = re.compile(r"(\d+) (\S{16})")    # what stands before each answer: the number of the request's line, and its moment
NO_MOMENT = "-" * 16                    # that of a moment which no plan can name


def can_play(lines):
    """Whether `play` knows all requests of these lines, and there is a load among them: it has no tables and no trackers."""
    turns = [turn for _, turn in turns_of(lines)]
    changes = any(line.text.split()[0] in ("sql", "tables", "fresh") for _, line in lines)
    return not changes and not any(turn.tracker for turn in turns) and any(is_load(turn) for turn in turns)


def turns_of(lines):
    """The turns among lines of files, each with its line."""
    return [(line, turn) for line, turn in ((line, turn_of(line[1].text)) for line in lines) if turn]


def is_load(turn):
    """Whether a turn is a load."""
    return turn.word in ("load", "load-cr-lf")


def answers(program, lines, parts, folder):
    """Each line of a turn with what it is to be answered and what it is, as far as `play` tells it. Before the load that is
    accepted each other one is a run of its own; what else is asked there no run asks."""
    turns = turns_of(lines)
    accepted = [is_load(turn) and turn.told.startswith("names ") for _, turn in turns]
    place = accepted.index(True) if True in accepted else len(turns)
    for line, turn in turns[:place]:
        if is_load(turn):
            yield line, turn, " / ".join(played(program, turn, [], parts, folder))
    if place < len(turns):
        yield from after_load(program, turns[place:], parts, folder)


def after_load(program, turns, parts, folder):
    """The same of the load that is accepted, of which `check` tells the answer, and of all behind it."""
    line, load = turns[0]
    lines = played(program, load, [turn for _, turn in turns[1:]], parts, folder)
    ran = common.run(program, ["check", "--plan", "plan.csv", "--at", load.at], folder)
    yield line, load, answer_of_lines(common.texts_of(ran.out))
    told = blocks(lines)
    for number, (line, turn) in enumerate(turns[1:], 1):
        moment, lines_of_one = told.get(number, ("no moment", lines[-1:]))
        answer = answer_of_lines(lines_of_one)
        yield line, turn, answer if moment in (turn.at, NO_MOMENT) else f"{moment}: {answer}"


def played(program, load, turns, parts, folder):
    """What a run prints."""
    (folder / "plan.csv").write_bytes(text_of(load, parts).encode())
    (folder / "requests.jsonl").write_text("".join(request(turn, parts) + "\n" for turn in turns))
    words = ["--plan", "plan.csv", "--at", load.at, "--requests", "requests.jsonl"]
    ran = common.run(program, ["play", *words], folder)
    return common.texts_of(ran.out + ran.err)


def blocks(lines):
    """The moment and the lines of each answer, by the number of its request."""
    found, lines_of_one = {}, []
    for line in lines:
        head = HEAD.fullmatch(line)
        if head:
            lines_of_one = found.setdefault(int(head[1]), (head[2], []))[1]
        else:
            lines_of_one.append(line)
    return found


def deviation(program, lines, parts):
    """The first line that is answered otherwise by `play`, what it is to be answered, and what it is; or nothing."""
    with common.own_folder() as folder:
        for line, turn, got in answers(program, lines, parts, folder):
            if not is_answer(turn.told, got):
                return line, turn.told, got
    return None
