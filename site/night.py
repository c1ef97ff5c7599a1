"""The records of occurrences, made of applications, for a plan or beside one."""
import re
import shlex
from datetime import timedelta
from graphlib import CycleError, TopologicalSorter

from common import ALWAYS
from table import table_text
from told import NOWHERE, Place, text_in

MOST = {"occurrences": 5_000, "operations": 20_000, "dependencies": 100_000}
MOST_NEEDS = 16
FIRST, LAST = ALWAYS.split(",")
MINUTE = timedelta(minutes=1)


def text_of(moment):
    return moment.isoformat(timespec="minutes")


def midnight(moment):
    return moment.replace(hour=0, minute=0)


class Night:
    """The records of occurrences. `planned` tells, of an application and a moment, the input arrival of the occurrence that was
    planned last at or before it, as a text; without it that isn't known."""

    def __init__(self, applications, told, planned=None):
        self.applications, self.told, self.planned = applications, told, planned
        self.arrivals = {}      # of each application, those of the text
        self.standing = {}      # and those of the plan, each with its status
        self.records, self.pairs, self.operations = [], {}, 0
        self.jobs = {}          # of the table: the workstation and the name of an application's operation
        self.workstations = self.quantities = None      # of the plan, where they are known: attributes, and amounts
        self.opened = {}        # the workstations that --base opens, and where

    def moment(self, moment, statement):
        text = text_of(moment)
        if not FIRST <= text <= LAST:
            self.told.fault(statement.place, f"{statement.verb}: {text} is no moment of a plan")
        return text

    def take_base(self, path, is_written):
        """The records of workstations, intervals and special resources, as a plan has them."""
        self.workstations, self.quantities = {}, {}
        for number, record in enumerate(text_in(path, self.told).split("\n"), 1):
            fields, place = record.split(",") + [""] * 4, Place(path, number)
            if record and fields[0] not in ("W", "I", "X"):
                self.told.fault(place, f"{record}: must be a record W, I or X")
            if fields[0] == "W":
                self.workstations[fields[1]] = fields[2]
            elif fields[0] == "I":
                self.opened[fields[1]] = place
            elif fields[0] == "X":
                self.quantities[fields[1]] = int(fields[3]) if re.fullmatch(r"\d{1,6}", fields[3]) else 999_999
            self.records += [record] if record and is_written else []

    def take_standing(self, text):
        """The rows of a desk's report of occurrences."""
        for fields in map(str.split, text.splitlines()):
            if len(fields) == 7:
                self.standing.setdefault(fields[0], {})[fields[1]] = fields[3]

    def add(self, application, arrival, deadline):
        start = application.start
        key = f"{application.name},{self.moment(arrival, start)}"
        self.records.append(f"O,{key},{start.number('PRIORITY', 1, 9, 5)},{self.moment(deadline, start)},,,,,")
        if not application.operations:
            self.told.fault(start.place, f"{application.name}: no ADOP")
        for number, operation in application.operations.items():
            self.add_operation(application, arrival, number, operation)

    def add_operation(self, application, arrival, number, operation):
        key, workstation = f"{application.name},{text_of(arrival)}", operation.text("WSID")
        if self.workstations is not None and workstation not in self.workstations:
            self.told.fault(operation.place, f"ADOP WSID({workstation}): --base has no such workstation")
        start, deadline = operation.minutes("STARTDAY", "STARTTIME"), operation.minutes("DLDAY", "DLTIME")
        waits = operation.text("TIME", "N" if start is None else "Y") == "Y"
        not_before = arrival if start is None else midnight(arrival) + start * MINUTE
        self.operations += 1
        self.records.append(",".join([
            "P", key, str(number), workstation or "", str(operation.number("DURATION", 1, 5999)),
            str(operation.number("R1NUM", 0, 99, 0)), str(operation.number("R2NUM", 0, 99, 0)),
            self.moment(not_before, operation) if waits else "",
            "" if deadline is None else self.moment(midnight(arrival) + deadline * MINUTE, operation)]))
        if "JOBN" in operation.given:
            self.add_job(application.name, number, operation)
        self.add_needs(f"{key},{number}", operation)
        for dependency in operation.predecessors:
            self.add_predecessor(application, key, number, dependency)

    def add_job(self, name, number, operation):
        job, workstation = operation.text("JOBN"), operation.given.get("WSID")
        attribute = (self.workstations or {}).get(workstation, "A")
        if attribute in ("A", "S"):
            self.jobs[name, number] = workstation, job
        else:
            self.told.warn(operation.places["JOBN"], f"ADOP JOBN({job}): {workstation} has attribute {attribute}: no tracker "
                           "runs it")

    def table(self, command, workstations=(), commands=()):
        """The text of the tracker's table: each JOBN stands for {} in the command; and what else it has."""
        workstations = sorted({workstation for workstation, _ in self.jobs.values()} | set(workstations))
        jobs = [(key, command.replace("{}", shlex.quote(job))) for key, (_, job) in self.jobs.items()]
        return table_text(workstations, [*jobs, *commands])

    def add_needs(self, key, operation):
        names = [need.given.get("RESOURCE") for need in operation.needs]
        if len(names) > MOST_NEEDS:
            self.told.fault(operation.place, f"ADOP: {len(names)} ADSR: at most {MOST_NEEDS}")
        for at, need in enumerate(operation.needs):
            name, usage = need.text("RESOURCE"), need.text("USAGE", "X")
            if names.index(name) < at:
                self.told.fault(need.place, f"ADSR RESOURCE({name}): given before for this operation")
            if usage == "X" and "QUANTITY" in need.given:
                self.told.left_out(need.places["QUANTITY"], "ADSR QUANTITY: exclusive use takes the whole")
            most = 999_999 if self.quantities is None else self.quantities.get(name, 0)
            if not most:
                self.told.fault(need.place, f"ADSR RESOURCE({name}): --base has no such special resource")
            amount = str(need.number("QUANTITY", 1, most or 999_999, 1)) if usage == "S" else ""
            keeps = need.text("ONERROR", "F") in ("K", "FX" if usage == "S" else "FS")
            self.records.append(f"N,{key},{name},{usage},{'K' if keeps else 'F'},{amount},,")

    def add_predecessor(self, application, key, number, dependency):
        name, arrival = dependency.text("PREADID", application.name), key.split(",")[1]
        number_before = dependency.number("PREOPNO", 1, 255, 0) if "PREOPNO" in dependency.given else None
        if name != application.name:
            arrival = self.latest(name, arrival, dependency)
            if arrival is None:
                return
        if name in self.applications:
            found = self.applications[name].matching(dependency)
            if len(found) != 1:
                self.told.fault(dependency.place, f"ADDEP: {len(found)} operations of {name} are so: it has to be one")
            number_before = found[0] if found else None
        elif number_before is None:
            self.told.fault(dependency.place, f"ADDEP: no ADSTART ADID({name}), so PREOPNO has to tell the operation")
        pair = (f"{name},{arrival},{number_before}", f"{key},{number}")
        if pair in self.pairs:
            self.told.left_out(dependency.place, f"ADDEP: the same as at {self.pairs[pair]}")
        self.pairs.setdefault(pair, dependency.place)

    def latest(self, name, arrival, dependency):
        """The input arrival of the occurrence that is waited for: the latest at or before this one, of all that was planned. None
        where there is none, or where that one is over: nothing is waited for then, an older one that still stands neither."""
        mine, standing = self.arrivals.get(name, ()), self.standing.get(name, {})
        there = {one for one in {*mine, *standing} if one <= arrival}
        found = max({*there, self.planned and self.planned(name, arrival)} - {None}, default=None)
        if found is None:
            self.told.warn(dependency.place, f"ADDEP PREADID({name}): no occurrence at or before {arrival}: "
                           "nothing is waited for")
        elif found not in mine and standing.get(found, "C") in "CD":
            older = [one for one in there if standing.get(one, "C") not in "CD"]
            self.told.warn(dependency.place, f"ADDEP: {name}/{found} is over, or never came in: nothing is waited for"
                           + (f", not for {name}/{max(older)} either" if older else ""))
            return None
        elif found not in mine and not self.planned:
            self.told.warn(dependency.place, f"ADDEP: {name}/{found} is the latest that stands, and is waited for: --times would "
                           "tell whether a later one is over")
        return found

    def text(self):
        """All of it; what is wrong with the whole is a fault."""
        before = {}
        for first, second in self.pairs:
            before.setdefault(second, []).append(first)
        try:
            TopologicalSorter(before).prepare()
        except CycleError as cycle:
            path = [key.replace(",", "/") for key in cycle.args[1]]
            self.told.fault(self.pairs[tuple(cycle.args[1][:2])], "ADDEP: closes a path that returns: " + ", ".join(path))
        counts = {"occurrences": sum(map(len, self.arrivals.values())), "operations": self.operations,
                  "dependencies": len(self.pairs)}
        for what, count in counts.items():
            if count > MOST[what]:
                self.told.fault(NOWHERE, f"{count} {what}: a plan has at most {MOST[what]}")
        return "".join(line + "\n" for line in self.records + [f"D,{first},{second},,," for first, second in self.pairs])
