"""Whether a text denotes a plan, an addition or an extension: docs/PROFILE.md, "The text of a plan" and "Limits", read a
second time and written in Python, apart from the desk's own code."""
import re
from collections import Counter

from expected import is_moment

NUMBER, MINUTE = "0|[1-9][0-9]*", "[0-9]{4}-[0-9]{2}-[0-9]{2}T[0-9]{2}:[0-9]{2}"
APPLICATION, WORKSTATION, RESOURCE = "[A-Z0-9@#$]{1,16}", "[A-Z0-9@#$]{1,4}", "[A-Z0-9@#$.-]{1,44}"
# Each field of a kind, from the second on: a form, and for a number its range. A third part says that it may be empty.
MOST_QUANTITY = 999_999
QUANTITY = (1, MOST_QUANTITY, "")
OPERATION_KEY = (APPLICATION, MINUTE, (1, 255))
FORMS = {
    "W": (WORKSTATION, "[ASCN]"),
    "I": (WORKSTATION, MINUTE, MINUTE, (0, 99), (0, 99), (0, 99)),
    "X": (RESOURCE, "[YN]", QUANTITY),
    "O": (APPLICATION, MINUTE, (1, 9), MINUTE),
    "P": (*OPERATION_KEY, WORKSTATION, (1, 5999), (0, 99), (0, 99), f"({MINUTE})?", f"({MINUTE})?"),
    "D": (*OPERATION_KEY, *OPERATION_KEY),
    "N": (*OPERATION_KEY, RESOURCE, "[SX]", "[KF]", QUANTITY),
}
KEY_FIELDS = {"W": 1, "I": 2, "X": 1, "O": 2, "P": 3, "D": 6, "N": 4}
MOST = {"W": 99, "X": 999, "O": 5000, "P": 20_000, "D": 100_000}
MOST_INTERVALS, MOST_NEEDS, FIELDS = 400, 16, 10


def records_of(text):
    """The records of a CSV text, each a list of fields of bytes. A line end is LF, CR LF or CR; empty lines are none."""
    text = text.removeprefix(b"\xef\xbb\xbf")
    records, fields, field, place = [], [], bytearray(), "record"
    for code in text:
        byte = bytes([code])
        if place == "record" and byte in b"\r\n":
            continue
        if place == "quoted":
            place = "after quote" if byte == b'"' else place
            field += b"" if byte == b'"' else byte
        elif place == "after quote" and byte == b'"':
            field, place = field + byte, "quoted"
        elif place in ("record", "field") and byte == b'"':
            place = "quoted"
        elif byte in b",\r\n":
            fields.append(bytes(field))
            field, place = bytearray(), "field"
            if byte != b",":
                records.append(fields)
                fields, place = [], "record"
        else:
            field, place = field + byte, "inside"
    if place != "record":
        records.append([*fields, bytes(field)])
    return records


def is_of_form(text, form):
    if isinstance(form, tuple):
        if text in form[2:]:
            return True
        return re.fullmatch(NUMBER, text) is not None and len(text) < 10 and form[0] <= int(text) <= form[1]
    return re.fullmatch(form, text) is not None and (MINUTE not in form or text == "" or is_moment(text))


def values_of(record):
    """The fields of a record that it names, or None where it has no form."""
    if len(record) != FIELDS:
        return None
    kind, *fields = (field.decode("latin-1") for field in record)
    forms = FORMS.get(kind)
    if not forms or any(fields[len(forms):]) or not all(map(is_of_form, fields, forms)):
        return None
    if kind == "N" and fields[4] == "X" and fields[6]:
        return None
    return kind, fields[:len(forms)]


def amount_of(need):
    """How much a need takes of its resource beside others; an exclusive one none."""
    return int(need[6] or 1) if need[4] == "S" else 0


def quantities_of(resources):
    return {name: int(quantity or MOST_QUANTITY) for name, _, quantity in resources}


def are_within(needs, quantities):
    """Whether no need takes more than there is of its resource; one that isn't there is told elsewhere."""
    return all(amount_of(need) <= quantities.get(need[3], MOST_QUANTITY) for need in needs)


def returns(pairs):
    """Whether a path of these pairs returns to its start."""
    successors, before = {}, Counter()
    for one, other in pairs:
        successors.setdefault(one, []).append(other)
        before[other] += 1
    free = [one for one in successors if not before[one]]
    passed = 0
    while free:
        for other in successors.get(free.pop(), ()):
            passed += 1
            before[other] -= 1
            if not before[other]:
                free.append(other)
    return passed < len(pairs)


def are_disjoint(intervals):
    """Intervals as workstation, first minute and end: texts of moments stand in the order of the moments."""
    ordered = sorted(intervals)
    return all(start < end for _, start, end in ordered) and all(
        one[0] != other[0] or one[2] <= other[1] for one, other in zip(ordered, ordered[1:]))


def kinds_of(text):
    """The fields of the records of each kind, or None where a record has no form."""
    kinds = {kind: [] for kind in FORMS}
    for record in records_of(text):
        found = values_of(record)
        if not found:
            return None
        kinds[found[0]].append(found[1])
    return kinds


def keys_of(kinds):
    return {kind: [tuple(fields[:KEY_FIELDS[kind]]) for fields in kinds[kind]] for kind in FORMS}


def come_in(kinds):
    """Whether these records are of occurrences that may come in together, of any number of them."""
    if not kinds or kinds["W"] or kinds["I"] or kinds["X"]:
        return False
    keys = keys_of(kinds)
    own = set(keys["O"])
    ends = [(key[:3], key[3:]) for key in keys["D"]]
    named = {key[:3] for key in keys["N"]} | {end for pair in ends for end in pair if end[:2] in own}
    return (all(len(set(found)) == len(found) for found in keys.values())
            and {key[:2] for key in keys["P"]} == own
            and {key[:2] for key in keys["N"]} <= own and named <= set(keys["P"])
            and all(one[:2] in own or other[:2] in own for one, other in ends)
            and max(Counter(key[:3] for key in keys["N"]).values(), default=0) <= MOST_NEEDS)


def denotes_addition(text):
    kinds = kinds_of(text)
    return come_in(kinds) and len(kinds["O"]) == 1


def denotes_extension(text):
    return come_in(kinds_of(text))


def fits_quantities(text, quantities):
    """Whether no need of a text that denotes an addition or an extension takes more than there is in the plan."""
    return are_within(kinds_of(text)["N"], quantities)


def denotes_plan(text):
    kinds = kinds_of(text)
    if not kinds:
        return False
    keys = keys_of(kinds)
    defined = {kind: set(keys[kind]) for kind in FORMS}
    pairs = [(key[:3], key[3:]) for key in keys["D"]]
    return (all(len(defined[kind]) == len(keys[kind]) for kind in FORMS)
            and all(len(keys[kind]) <= most for kind, most in MOST.items())
            and max(Counter(key[0] for key in keys["I"]).values(), default=0) <= MOST_INTERVALS
            and max(Counter(key[:3] for key in keys["N"]).values(), default=0) <= MOST_NEEDS
            and bool(keys["W"]) and bool(keys["O"]) and {key[:2] for key in keys["P"]} == defined["O"]
            and {key[:1] for key in keys["I"]} | {(fields[3],) for fields in kinds["P"]} <= defined["W"]
            and {(key[3],) for key in keys["N"]} <= defined["X"]
            and {key[:3] for key in keys["N"]} | {end for pair in pairs for end in pair} <= defined["P"]
            and are_within(kinds["N"], quantities_of(kinds["X"]))
            and are_disjoint([fields[:3] for fields in kinds["I"]]) and not returns(pairs))
