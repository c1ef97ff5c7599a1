"""The texts of nights: nights, beginnings and parts, and what the words in them name."""
import datetime
import pathlib
import typing

from player.common import Line, lines_of

NIGHTS = pathlib.Path(__file__).resolve().parent.parent / "nights"
DAY = "2024-03-01T"     # the day on which a night begins
ARRIVAL = DAY + "22:00"


class Section(typing.NamedTuple):
    """A night, a beginning or a part: what stands in its first line before the colon, that line, and those below."""
    name: str
    header: Line
    lines: list


def sections(path):
    """The sections of a file, which empty lines part. One that begins with `#` is a comment."""
    found, open_one = [], False
    for line in lines_of(path):
        if not line.text:
            open_one = False
        elif open_one:
            found[-1].lines.append(line)
        else:
            found.append(Section(line.text.partition(": ")[0], line, []))
            open_one = True
    return [section for section in found if not section.name.startswith("#")]


def named(path):
    """The sections of a file by their names."""
    return {section.name: section for section in sections(path)}


def listed(text):
    """The words of a list; `-` is an empty one."""
    return [] if text == "-" else text.split()


def moment(text):
    """A moment: whole, or the time of one of the night, from 20:00 on of its first day, before 10:00 of the next."""
    if len(text) == 5:
        return (DAY if text[0] == "2" else DAY.replace("01T", "02T")) + text
    return text


def short_moment(text):
    """The time alone of a moment of the night."""
    return text[11:] if text == moment(text[11:]) else text


def minute(text):
    """The minutes of a moment from 1972 on."""
    return int((datetime.datetime.fromisoformat(text) - datetime.datetime(1972, 1, 1)).total_seconds()) // 60


def moment_of(number):
    """The moment of so many minutes; hyphens before 1972."""
    if number < 0:
        return "-" * 16
    return (datetime.datetime(1972, 1, 1) + datetime.timedelta(minutes=number)).isoformat("T", "minutes")


def occurrence(name):
    """The key of an occurrence, which is named by its application alone where its input arrival is 22:00."""
    return name if "/" in name else f"{name}/{ARRIVAL}"


def short_occurrence(key):
    """The name of an occurrence's key."""
    application, arrival = key.split("/")
    return application if arrival == ARRIVAL else key


def operation(name):
    """The key of an operation, which is named by its number alone where it is PAYROLL's, and as AUDIT.10 where it is that of
    another occurrence of 22:00."""
    if "/" in name:
        return name
    application, _, number = name.rpartition(".")
    return f"{occurrence(application or 'PAYROLL')}/{int(number):03}"


def short_operation(key):
    """The name of an operation's key."""
    application, arrival, number = key.split("/")
    if arrival != ARRIVAL:
        return key
    return str(int(number)) if application == "PAYROLL" else f"{application}.{int(number)}"


def crowd(lines, occurrences, operations):
    """So many occurrences by the lines of one, of its operations, and of the pair of two of them."""
    first, each, *pair = lines
    text = []
    for place in range(1, occurrences + 1):
        text.append(first.format(occurrence=place))
        for number in range(1, operations + 1):
            told = {"occurrence": place, "number": number, "before": number - 1}
            text += [line.format(**told) for line in [each, *(pair if number > 1 else [])]]
    return text


def records(parts, names):
    """The records of the parts of a list, one after another: a part's name, or that of a crowd with how many occurrences
    there are and how many operations of each, as FIRST*80*250."""
    text = []
    for name in listed(names):
        part, *counts = name.split("*")
        lines = [line.text for line in parts[part].lines]
        text += crowd(lines, *map(int, counts)) if counts else lines
    return "".join(line + "\n" for line in text)
