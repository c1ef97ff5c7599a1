"""Looks at a plan: what reports, shows, reasons and the tables of a database tell, in the words of a night."""
import collections

from player.night_texts import minute, moment_of, occurrence, operation, short_moment, short_occurrence, short_operation
from player.night_ways import KEYS, Unanswered

FEW = 9     # occurrences whose operations are looked at in the end of a night


def lines_told(lines):
    """The lines of a report without its first and its last."""
    if lines[0].startswith("refused "):
        raise Unanswered(lines[0])
    return lines[1:-1]


def clock(way, rows):
    """The plan's clock."""
    if way.is_shown:
        return short_moment(way.report("occurrences")[0].split()[-1])
    return short_moment(moment_of(rows["meta"][0][3]))


def occurrences(way, rows):
    """Of each occurrence, by its key, its priority, its status, its deadline, how many operations it has, and how many are
    complete: as the report says where the way shows it, and else as the tables have it."""
    if way.is_shown:
        told = [line.split() for line in lines_told(way.report("occurrences"))]
        return {f"{row[0]}/{row[1]}": row[2:] for row in told}
    return occurrences_in(rows)


def occurrences_in(rows):
    """The same as the tables have it."""
    own = collections.Counter(row[:2] for row in rows["operation"])
    complete = collections.Counter(row[:2] for row in rows["operation"] if row[13] == "C")
    return {f"{row[0]}/{moment_of(row[1])}": [str(row[2]), row[4], moment_of(row[3]), str(own[row[:2]]),
                                              str(complete[row[:2]])]
            for row in rows["occurrence"]}


def operations(way, rows, key):
    """Of each of an occurrence's operations, by its key, its status, `H` where it is held, `N` where it is a NOP, its
    duration, its latest start, and how many predecessors it waits for: as it is shown, or else as the tables have it."""
    return operations_shown(way, key) if way.is_shown else operations_in(rows, key)


def operations_in(rows, key):
    """The same as the tables have it."""
    own = [row for row in rows["operation"] if f"{row[0]}/{moment_of(row[1])}" == key]
    return {f"{key}/{row[2]:03}": {"status": row[13], "held": "H" if row[11] else "-", "nop": "N" if row[12] else "-",
                                   "duration": str(row[4]), "latest": moment_of(row[14]), "waits": str(row[15])}
            for row in own}


def operations_shown(way, key):
    """The same as it is shown."""
    shown = {}
    for line in lines_told(way.operations(key)):
        number, _, status, held, nop, duration, _, latest, waits = cut(line, 3, 4, 1, 1, 1, 4, 16, 16, 5)
        shown[f"{key}/{int(number):03}"] = {"status": status, "held": held, "nop": nop, "duration": duration,
                                            "latest": latest, "waits": waits}
    return shown


def cut(line, *widths):
    """The columns of a line, which are as wide as that, with a blank between two."""
    columns, place = [], 0
    for width in widths:
        columns.append(line[place:place + width].strip())
        place += width + 1
    return columns


def shows(way, rows, keys, told):
    """The letters of the statuses of all operations and of all occurrences, in order; or the keys, if these aren't all."""
    arrived = occurrences(way, rows)
    of_operations = {key: shown["status"] for one in arrived for key, shown in operations(way, rows, one).items()}
    got = f"{names(map(short_operation, of_operations))} / {names(map(short_occurrence, arrived))}"
    if got != keys:
        return f"keys {keys}", f"keys {got}"
    letters = "".join(of_operations.values()) or "-", "".join(row[1] for row in arrived.values()) or "-"
    return told, " ".join(letters)


def names(found):
    """A list of names; `-` of none."""
    return " ".join(found) or "-"


def ready(way, told):
    """The operations that are ready on a workstation, in order."""
    workstation = told.split()[0]
    rows = [line.split() for line in lines_told(way.report("ready", workstation))]
    return f"{workstation} {names(short_operation(f'{row[0]}/{row[1]}/{int(row[2]):03}') for row in rows)}"


def counts(way, rows, told):
    """An occurrence's priority, and how many operations it has, and how many are complete."""
    name = told.split()[0]
    row = occurrences(way, rows).get(occurrence(name), ["none"] * 5)
    return f"{name} {row[0]} {row[3]} {row[4]}"


def of_operation(way, rows, look, told):
    """What is told of an operation: by what is shown, and what isn't shown by its row."""
    name = told.split()[0]
    key = operation(name)
    row = operation_row(rows, key)
    shown = operations(way, rows, key.rpartition("/")[0]).get(key)
    if not row or not shown:
        return "no such operation"
    held = "held" if shown["held"] == "H" else "free"
    if look == "priority":
        return f"{name} {occurrences(way, rows)[key.rpartition('/')[0]][0]}"
    got = {"held": held, "free": held, "mark": row[9], "due": short_moment(moment_of(row[8])), "latest-minute": row[14],
           "latest": short_moment(shown["latest"]), "waits": shown["waits"], "duration": shown["duration"]}[look]
    return name if look == got else f"{name} {got}"


def operation_row(rows, key):
    """The row of an operation."""
    application, arrival, number = key.split("/")
    for row in rows["operation"]:
        if row[:3] == (application, minute(arrival), int(number)):
            return row
    return None


def key_text(table, key):
    """The key of a row, in a night's words."""
    if table in ("occurrence", "operation", "need", "amount", "dependency", "interval"):
        return f"{table} {KEY_TEXTS[table](*key)}"
    return " ".join([table, *(key if table != "meta" else [])])


def short_row_operation(application, arrival, number):
    """The name of an operation's columns."""
    return short_operation(f"{application}/{moment_of(arrival)}/{number:03}")


def needed(application, arrival, number, resource):
    """An operation's need of a special resource."""
    return f"{short_row_operation(application, arrival, number)} {resource}"


KEY_TEXTS = {
    "interval": lambda workstation, start: f"{workstation} {short_moment(moment_of(start))}",
    "occurrence": lambda application, arrival: short_occurrence(f"{application}/{moment_of(arrival)}"),
    "operation": short_row_operation,
    "dependency": lambda *key: f"{short_row_operation(*key[:3])} {short_row_operation(*key[3:])}",
    "need": needed,
    "amount": needed,
}


def by_key(rows, table):
    """The rows of a table by their keys."""
    return {row[:KEYS[table]]: row for row in rows.get(table, [])}


def changed(before, after):
    """The keys of the rows that are new or differ, and of those that are gone, in order."""
    new, gone = [], []
    for table in KEYS:
        one, other = by_key(before, table), by_key(after, table)
        new += [key_text(table, key) for key in sorted(other) if one.get(key) != other[key]]
        gone += [key_text(table, key) for key in sorted(one) if key not in other]
    return ", ".join(new) or "-", ", ".join(gone) or "-"


def has_row(rows, told):
    """Whether a table has this row, its columns with a bar behind each."""
    return any(told == "".join(f"{column}|" for column in row) for table in rows.values() for row in table)


def disagreement(way, rows):
    """Where what a desk shows parts from the tables, in its occurrences and the operations of the first; or nothing."""
    told, wanted = occurrences(way, rows), occurrences_in(rows)
    if told != wanted:
        return str(wanted), str(told)
    for key in list(wanted)[:FEW]:
        shown, held = operations_shown(way, key), operations_in(rows, key)
        if shown != held:
            return str(held), str(shown)
    return None
