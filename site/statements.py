"""The statements that OPC's batch loader reads, and the applications that they say."""
import re

from told import Place, text_in

USED = {"ADSTART": {"ADID", "PRIORITY"},
        "ADRUN": {"IATIME", "DLDAY", "DLTIME"},
        "ADOP": {"OPNO", "WSID", "JOBN", "DURATION", "R1NUM", "R2NUM", "STARTDAY", "STARTTIME", "TIME", "DLDAY",
                 "DLTIME"},
        "ADDEP": {"PREADID", "PREOPNO", "PREWSID", "PREJOBN"},
        "ADSR": {"RESOURCE", "USAGE", "QUANTITY", "ONERROR"}}
NOTHING = {("PSNUM", "1")}      # what says no more than the plan does
NAMES = {"ADID": r"[A-Z0-9@#$]{1,16}", "PREADID": r"[A-Z0-9@#$]{1,16}", "WSID": r"[A-Z0-9@#$]{1,4}",
         "JOBN": r"[A-Z0-9@#$]{1,8}", "RESOURCE": r"[A-Z0-9@#$.-]{1,44}", "USAGE": "[SX]", "TIME": "[YN]", "ONERROR": "F|FS|FX|K"}
TIMES = r"([01]\d|2[0-3])\.?([0-5]\d)|(24)\.?(00)"
WORDS = re.compile(r"\s+|/\*.*?\*/|(?P<name>[A-Z0-9@#$]+)(?:\s*\((?P<value>(?:'(?:[^']|'')*'|[^'()]|\([^()]*\))*)\))?", re.S)


class Statement:
    """A statement: its verb, its place, its keywords with values and places."""

    def __init__(self, verb, place, told):
        self.verb, self.place, self.told, self.given, self.places = verb, place, told, {}, {}
        self.rule = None                            # of an ADRUN
        self.predecessors, self.needs = [], []      # of an ADOP

    def fault(self, keyword, text):
        """A fault of a keyword, whose value is told, of one that goes over lines the first."""
        value, *rest = self.given.get(keyword, "").split("\n")
        self.told.fault(self.places.get(keyword, self.place), f"{self.verb} {keyword}({value}{' ..' if rest else ''}): {text}")

    def text(self, keyword, default=None):
        """The value of a keyword that is a name, or that has no rule of its own."""
        value = self.given.get(keyword, default)
        if value is None:
            self.told.fault(self.place, f"{self.verb}: {keyword} is missing")
        elif value != default and not re.fullmatch(NAMES.get(keyword, ".*"), value):
            self.fault(keyword, f"must be {NAMES[keyword]}")
        return value

    def number(self, keyword, least, most, default=None):
        value = self.given.get(keyword, default)
        if value is None:
            self.told.fault(self.place, f"{self.verb}: {keyword} is missing")
            return least
        if not re.fullmatch(r"\d{1,9}", str(value)) or not least <= int(value) <= most:
            self.fault(keyword, f"must be {least} to {most}")
            return least
        return int(value)

    def minutes(self, days, time):
        """Minutes from the start of the occurrence's day: None where the time isn't given."""
        if time not in self.given:
            if days in self.given:
                self.told.left_out(self.places[days], f"{self.verb} {days}: without {time}")
            return None
        found = re.fullmatch(TIMES, self.given[time])
        if not found:
            self.fault(time, "must be hhmm, 0000 to 2400")
            return None
        hours, minutes = [int(part) for part in found.groups() if part]
        return self.number(days, 0, 366, 0) * 1440 + hours * 60 + minutes


def statements(path, told):
    """The statements of a file, each from its verb on. Columns from 73 on aren't read, nor lines that begin with //."""
    lines = text_in(path, told).split("\n")
    for at, line in enumerate(lines, 1):
        if line[72:].strip() and not line[72:].strip().isdigit():
            told.left_out(Place(path, at), f"columns 73 and on: {line[72:].strip()}")
        if line.startswith("//"):
            told.left_out(Place(path, at), line[:72].strip())
    text = "\n".join("" if line.startswith("//") else line[:72] for line in lines)
    found, at, line = [], 0, 1
    while at < len(text):
        place, word = Place(path, line), WORDS.match(text, at)
        if not word:
            told.fault(place, f"doesn't read from here: {text[at:at + 20].splitlines()[0]}")
            break
        take_word(found, word, place, told)
        line += text.count("\n", at, word.end())
        at = word.end()
    return found


def take_word(found, word, place, told):
    """A verb begins a statement; a keyword belongs to the last one."""
    name, value = word["name"], word["value"]
    if name and value is None and re.match("AD|OPTIONS$", name):
        found.append(Statement(name, place, told))
    elif name and not found:
        told.fault(place, f"{name}: before any statement")
    elif name:
        value = re.sub(r"''|'", lambda quotes: "'" if quotes[0] == "''" else "", (value or "").strip())
        if name in found[-1].given:
            told.fault(place, f"{found[-1].verb} {name}: given before")
        found[-1].given[name], found[-1].places[name] = value, place


class Application:
    """What the statements from one ADSTART to the next say."""

    def __init__(self, start):
        self.start, self.name, self.runs, self.operations = start, start.text("ADID", ""), [], {}
        self.others = []    # statements that aren't used

    def take(self, statement, told):
        operation = next(reversed(self.operations.values()), None)
        if statement.verb == "ADRUN":
            self.runs.append(statement)
        elif statement.verb == "ADRULE":
            self.take_rule(statement, told)
        elif statement.verb == "ADOP":
            number = statement.number("OPNO", 1, 255)
            if number in self.operations:
                told.fault(statement.place, f"ADOP OPNO({number}): given before, at {self.operations[number].place}")
            self.operations[number] = statement
        elif statement.verb in ("ADDEP", "ADSR") and not operation:
            told.fault(statement.place, f"{statement.verb}: before any ADOP")
        elif statement.verb in ("ADDEP", "ADSR"):
            (operation.predecessors if statement.verb == "ADDEP" else operation.needs).append(statement)
        else:
            self.others.append(statement)

    def take_rule(self, rule, told):
        if not self.runs or self.runs[-1].rule:
            told.fault(rule.place, "ADRULE: it needs an ADRUN of its own before it")
        else:
            self.runs[-1].rule = rule

    def tell_left_out(self, told, used):
        """Tells which statements and keywords nobody reads; `used` has by verb the keywords that are read, None for all."""
        operations = self.operations.values()
        said = [self.start, *self.runs, *operations, *self.others, *[run.rule for run in self.runs if run.rule]]
        said += [one for operation in operations for one in operation.predecessors + operation.needs]
        for statement in said:
            if statement.verb not in used:
                told.left_out(statement.place, statement.verb)
                continue
            for keyword, value in statement.given.items():
                if used[statement.verb] is not None and keyword not in used[statement.verb] and (keyword, value) not in NOTHING:
                    told.left_out(statement.places[keyword], f"{statement.verb} {keyword}({value})")

    def matching(self, dependency):
        """The numbers of the operations that a dependency may mean."""
        wanted = [(keyword[3:], dependency.given[keyword]) for keyword in ("PREOPNO", "PREWSID", "PREJOBN")
                  if keyword in dependency.given]
        return [number for number, operation in self.operations.items()
                if all(number == int(value) if keyword == "OPNO" and value.isdigit() else operation.given.get(keyword) == value
                       for keyword, value in wanted)]

    def run_of(self, minutes):
        """The ADRUN that tells the deadline of an input arrival at these minutes of a day, and whether it has that IATIME: if
        none has, it is the first one. None where there is none."""
        runs = [run for run in self.runs if run.given.get("TYPE") not in ("X", "E")]
        mine = next((run for run in runs if run.minutes("IADAY", "IATIME") == minutes), None)
        return mine or (runs[0] if runs else None), bool(mine)


def applications(paths, told):
    """The applications of files, by name."""
    found = {}
    for path in map(str, paths):
        mine = None
        for statement in statements(path, told):
            if statement.verb == "ADSTART":
                mine = Application(statement)
                if mine.name in found:
                    told.fault(statement.place, f"ADSTART ADID({mine.name}): given before, at {found[mine.name].start.place}")
                found[mine.name] = mine
            elif mine:
                mine.take(statement, told)
            elif statement.verb in USED or statement.verb == "ADRULE":
                told.fault(statement.place, f"{statement.verb}: before any ADSTART")
            else:
                told.left_out(statement.place, statement.verb)
    return found
