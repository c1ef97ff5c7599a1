"""What an input to `serve` or `desk` has to get, and whether a text is a request: docs/PROFILE.md and docs/OPERATING.md, read a
second time and written in Python, apart from the desk's own code. What the plan answers to a request isn't told here.

    status_of(input, most)      400 to 501, with the method that is allowed; or 0 and what is asked of the desk
    is_report(body)             whether bytes are a tracker's report, and whose
    is_operators_request(body)  whether bytes are an operator's request
"""
import json
import re
from datetime import datetime

MOST_HEAD_BYTES, MOST_FIELDS, MOST_BODY_BYTES = 8192, 64, 65_536
MOST_DESK_BODY_BYTES = 16_777_216    # at `desk`
MOST_LEVELS = 127

TOKEN = rb"[A-Za-z0-9!#$%&'*+\-.^_`|~]+"
FIELD = rb"(" + TOKEN + rb"):([\t\x20-\x7e\x80-\xff]*)\r?\n"
HEAD = re.compile(rb"(?:\r?\n)*(" + TOKEN + rb") ([\x21-\x7e\x80-\xff]+) HTTP/1\.[01]\r?\n((?:" + FIELD + rb")*)\r?\n")

NAME = "[A-Z0-9@#$]"
MOMENT = r"(\d{4}-\d\d-\d\dT\d\d:\d\d)"
APPLICATION, TRACKER, CODE, WORKSTATION = f"{NAME}{{1,16}}", f"{NAME}{{1,8}}", f"{NAME}{{1,4}}", f"{NAME}{{1,4}}"
RESOURCE = r"[A-Z0-9@#$.\-]{1,44}"
REPORTS = ("started", "ended", "error", "interrupted", "unknown")
ON_OPERATION = (*REPORTS, "hold", "release", "nop", "unnop", "rerun", "complete")


def is_minute(text):
    """Whether a text is a minute of the calendar, of the years 0000 to 9999."""
    if not isinstance(text, str) or not re.fullmatch(MOMENT, text, re.ASCII):
        return False
    # the calendar comes again each 400 years, and Python has no year 0
    year = int(text[:4])
    try:
        datetime.strptime(f"{year + 400 if year < 400 else year:04}{text[4:]}", "%Y-%m-%dT%H:%M")
    except ValueError:
        return False
    return True


def is_moment(text):
    return is_minute(text) and "1972" <= text[:4] <= "2071"


def is_name(text, form):
    return isinstance(text, str) and re.fullmatch(form, text, re.ASCII) is not None


def is_occurrence(text):
    found = isinstance(text, str) and re.fullmatch(f"{APPLICATION}/{MOMENT}", text, re.ASCII)
    return bool(found) and is_moment(found[1])


def is_operation(text):
    if not isinstance(text, str) or not re.fullmatch(r".*/\d{3}", text, re.ASCII | re.DOTALL):
        return False
    return is_occurrence(text[:-4]) and 1 <= int(text[-3:]) <= 255


def is_whole(value, most):
    return isinstance(value, int) and not isinstance(value, bool) and 0 <= value <= most


def is_interval(value):
    return (isinstance(value, list) and len(value) == 5 and is_moment(value[0]) and is_moment(value[1])
            and value[0] < value[1] and all(is_whole(part, 99) for part in value[2:]))


def is_text(value):
    return isinstance(value, str)


# What members each `do` takes beside `at` and `do`.
MEMBERS = {
    **{verb: {"op": is_operation} for verb in ON_OPERATION},
    "tick": {},
    "error": {"op": is_operation, "code": lambda value: is_name(value, CODE)},
    "delete": {"occ": is_occurrence},
    "load": {"records": is_text},
    "add": {"records": is_text},
    "extend": {"records": is_text},
    "depend": {"from": is_operation, "to": is_operation},
    "available": {"resource": lambda value: is_name(value, RESOURCE), "value": lambda value: isinstance(value, bool)},
    "intervals": {"ws": lambda value: is_name(value, WORKSTATION),
                  "intervals": lambda value: isinstance(value, list) and all(map(is_interval, value))},
}


def whole_or_not(digits):
    """A whole number, or a float where the sign or the size makes it one."""
    number = int(digits)
    return finite(digits) if digits == "-0" or not -2**63 <= number < 2**64 else number


def finite(digits):
    number = float(digits)
    if number in (float("inf"), float("-inf")):
        raise ValueError("beyond the floats")
    return number


def refuse(_):
    raise ValueError("no JSON")


def surrogates_in(value):
    if isinstance(value, list):
        return any(map(surrogates_in, value))
    return isinstance(value, str) and any("\ud800" <= c <= "\udfff" for c in value)


def members_of(pairs):
    """The members of an object: of two with one name the last. Texts with a lone surrogate are no JSON."""
    if any(surrogates_in(part) for pair in pairs for part in pair):
        raise ValueError("a lone surrogate")
    return dict(pairs)


def levels(text):
    """How deep arrays and objects go."""
    deep = most = 0
    for part in re.findall(r'"(?:[^"\\]|\\.)*"?|[\[{]|[\]}]', text, re.DOTALL):
        deep += {"[": 1, "{": 1, "]": -1, "}": -1}.get(part, 0)
        most = max(most, deep)
    return most


def object_of(body):
    """The members of a JSON text that is an object, or None."""
    try:
        text = body.decode()
        if levels(text) > MOST_LEVELS:
            return None
        value = json.loads(text, parse_int=whole_or_not, parse_float=finite, parse_constant=refuse,
                           object_pairs_hook=members_of)
    except (ValueError, RecursionError):
        return None
    return value if isinstance(value, dict) else None


def is_request(members):
    """Whether these members, without a tracker's, are a request."""
    if members is None or not is_minute(members.get("at")) or not is_text(members.get("do")):
        return False
    wanted = MEMBERS.get(members["do"])
    others = {name: value for name, value in members.items() if name not in ("at", "do")}
    if wanted is None or others.keys() != wanted.keys():
        return False
    return all(test(others[name]) for name, test in wanted.items())


def is_operators_request(body):
    return is_request(object_of(body))


def is_report(body):
    members = object_of(body)
    if members is None or not is_name(members.get("tracker"), TRACKER) or not is_whole(members.get("number"), 999_999_999):
        return False
    others = {name: value for name, value in members.items() if name not in ("tracker", "number")}
    return others.get("do") in REPORTS and is_request(others)


def is_utf8(text):
    try:
        text.decode()
        return True
    except UnicodeDecodeError:
        return False


def route_of(path):
    """The method of a path, and what is asked; or None."""
    if path in (b"/report", b"/operator"):
        return "POST", path[1:].decode()
    if path == b"/occurrences":
        return "GET", "occurrences"
    return ("GET", "ready") if re.fullmatch(rb"/ready/[^/]+", path, re.DOTALL) else None


def length_told(fields, most):
    """The status for what the fields say of a body, or 0, and its length."""
    lengths = [value.strip(b" \t") for name, value in fields if name.lower() == b"content-length"]
    if any(name.lower() == b"transfer-encoding" for name, _ in fields):
        return 501, 0
    if not lengths:
        return 411, 0
    if len(lengths) > 1 or not re.fullmatch(rb"[0-9]{1,9}", lengths[0]):
        return 400, 0
    length = int(lengths[0])
    return (413, 0) if length > most else (0, length)


def status_of(sent, most=MOST_BODY_BYTES):
    """The status that an input gets, the method that its path takes if it is 405, and what is asked: `report`,
    `operator`, `ready` or `occurrences` with the body, where the desk is to answer and the status is 0."""
    head = HEAD.match(sent[:MOST_HEAD_BYTES])
    if not head or not is_utf8(head[2]):
        return 400, None, None
    fields = re.findall(FIELD, head[3])
    if len(fields) > MOST_FIELDS or not head[2].startswith(b"/"):
        return 400, None, None
    route = route_of(head[2].split(b"?")[0])
    if not route:
        return 404, None, None
    method, asked = route
    if head[1] != method.encode():
        return 405, method, None
    if method == "GET":
        return 0, None, (asked, None)
    status, length = length_told(fields, most)
    body = sent[head.end():][:length]
    if status or len(body) < length or not {"report": is_report, "operator": is_operators_request}[asked](body):
        return status or 400, None, None
    return 0, None, (asked, body)
