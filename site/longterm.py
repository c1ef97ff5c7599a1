"""The long-term plan: which occurrences come on which day, by run cycles, calendars and changes by hand."""
import re
from bisect import bisect_right
from datetime import datetime, timedelta
from typing import NamedTuple

from calendars import DAYS, FIRST, MOST_SERVERS, Times, day_of, day_text, minutes_of, weekday
from cycles import Cycle, validity
from night import MINUTE, text_of
from statements import USED, Application, Statement, applications
from told import Told, lines_of

READ_BY_PLANNER = {**USED, "ADSTART": USED["ADSTART"] | {"CALENDAR", "ADVALFROM", "ADVALTO"}, "ADRUN": None, "ADRULE": None}
BACK = (1, 31, 400)             # days in which an occurrence is looked for that was planned before
LONGEST = 5999


class Occurrence(NamedTuple):
    app: str
    arrival: datetime
    deadline: datetime
    why: str


class Change(NamedTuple):
    """A line of --changes."""
    place: object
    what: str
    app: str
    at: datetime
    to: object          # of a move
    deadline: object


def moment_of(day):
    return datetime.fromordinal(day)


class LongTerm:
    """The applications of this desk, those of other desks that they wait for, and which days all have."""

    def __init__(self, given, told):
        self.told, self.times = told, Times(given.times, told)
        self.applications = applications(given.statements, told)
        self.own, self.addresses = set(self.applications), {}
        for address, paths, place in self.times.desks:
            try:
                self.take_desk(address, applications(paths, told), place)
            except OSError as fault:
                told.fault(place, f"desk {address}: {fault}")
        self.calendars = {name: self.times.calendar(one.start.given.get("CALENDAR"), one.start.place)
                          for name, one in self.applications.items()}
        self.cycles = {name: [Cycle(run, self.times) for run in one.runs] for name, one in self.applications.items()}
        self.valid = {name: validity(one.start, "ADVALFROM", "ADVALTO") for name, one in self.applications.items()}
        self.changes, self.known = {}, {}
        for change in Changes(given.changes, self, told).lines if given.changes else ():
            self.changes.setdefault(change.app, []).append(change)

    def take_desk(self, address, others, place):
        """Of another desk's applications those that are waited for come in, each as what waits for it."""
        for name in set(others) & set(self.applications):
            self.told.fault(place, f"desk {address}: {name} is at {self.applications[name].start.place} already")
        awaited = {}
        for name in self.own:
            for dependency in [one for operation in self.applications[name].operations.values()
                               for one in operation.predecessors]:
                other = others.get(dependency.given.get("PREADID"))
                if other:
                    awaited.setdefault(other.name, set()).update(other.matching(dependency))
        if awaited and not self.times.awaits:
            self.told.fault(place, f"desk {address}: a line `awaits WS..` has to name workstations that wait for its operations")
            return
        for name in sorted(set(awaited) - set(self.applications)):
            self.applications[name] = StandIn(others[name], sorted(awaited[name]), list(self.times.awaits), len(self.addresses))
            self.addresses[name] = address

    def tell_left_out(self):
        for name in self.own:
            self.applications[name].tell_left_out(self.told, READ_BY_PLANNER)

    def of(self, name, low, high):
        """Those of an application whose input arrival is on a day in [low, high), by it, without changes by hand."""
        found, calendar, (first, last) = {}, self.calendars[name], self.valid[name]
        low, high = max(low, first), min(high, last + 1)
        if not calendar or low >= high:
            return found
        if high - 1 > calendar.until:
            self.told.fault(calendar.place, f"calendar {calendar.name} ends on {day_text(calendar.until)}, before "
                            f"{day_text(high - 1)}")
        for cycle in self.cycles[name]:
            for day in cycle.days(calendar, low, high) if cycle.type in "NR" else ():
                arrival = moment_of(day) + cycle.arrival * MINUTE
                if arrival not in found:
                    found[arrival] = Occurrence(name, arrival, moment_of(day) + cycle.deadline * MINUTE, cycle.name)
        for cycle in self.cycles[name]:
            out = set(cycle.days(calendar, low, high)) if cycle.type in "XE" else ()
            for arrival in [one for one in found if one.toordinal() in out]:
                if cycle.arrival in (None, arrival.hour * 60 + arrival.minute):
                    del found[arrival]
        return found

    def between(self, low, high, names, told):
        """Those of applications whose input arrival is in [low, high), in order of it, with what was changed by hand."""
        found = []
        for name in names:
            mine = self.of(name, low.toordinal(), (high - MINUTE).toordinal() + 1)
            for change in self.changes.get(name, ()):
                self.change(mine, change, (low, high), told)
            found += [one for one in mine.values() if low <= one.arrival < high]
        return sorted(found, key=lambda one: (one.arrival, one.app))

    def change(self, found, change, span, told):
        """A change by hand, of what an application has in this span."""
        place, what, app, at, to, deadline = change
        low, high = span
        if not low <= at < high and not (to and low <= to < high):
            return
        here = found.get(at) if low <= at < high else self.of(app, at.toordinal(), at.toordinal() + 1).get(at)
        if what == "add" and here:
            told.warn(place, f"{app}/{text_of(at)} is there already: nothing is changed")
        elif what == "add":
            found[at] = Occurrence(app, at, deadline or self.deadline(change), f"added at {place}")
        elif not here:
            told.warn(place, f"{app} has no occurrence at {text_of(at)}: nothing is changed")
        else:
            found.pop(at, None)
            if to and to < low:
                told.warn(place, f"{app} goes to {text_of(to)}, which is planned already: `add` it there")
            elif to in found:
                told.fault(place, f"{app}/{text_of(to)} is there already: remove that one, or move it elsewhere")
            elif to:
                found[to] = Occurrence(app, to, deadline or here.deadline + (to - at), f"moved from {text_of(at)} at {place}")

    def deadline(self, change):
        """That of the run cycle with this input arrival, else of the first."""
        run, _ = self.applications[change.app].run_of(change.at.hour * 60 + change.at.minute)
        minutes = run.minutes("DLDAY", "DLTIME") if run else None
        if minutes is None:
            self.told.fault(change.place, f"{change.app}: no ADRUN tells its deadline: add `deadline MOMENT`")
        return moment_of(change.at.toordinal()) + (minutes or 0) * MINUTE

    def last(self, low, high):
        """Of a span what tells, of an application and the text of a moment in it, the latest input arrival that was planned."""
        def planned(name, moment):
            for days in BACK if name in self.applications else ():
                key = name, low, days
                if key not in self.known:
                    arrivals = self.between(low - timedelta(days=days), high, [name], Told())
                    self.known[key] = [text_of(one.arrival) for one in arrivals]
                at = bisect_right(self.known[key], moment)
                if at:
                    return self.known[key][at - 1]
            return None
        return planned

    def row(self, one):
        """An occurrence, in words: its input arrival, the day, whether it is a work day, and so on."""
        day = one.arrival.toordinal()
        kind = "work" if self.calendars[one.app].is_work(day) else "free"
        return [text_of(one.arrival), DAYS[weekday(day)][:3].title(), kind, one.app, text_of(one.deadline), one.why]


class StandIn(Application):
    """An application of another desk: of its operations those that are waited for, each on a workstation that waits."""

    def __init__(self, whole, numbers, workstations, turn):
        super().__init__(whole.start)
        self.runs, self.whole, known = whole.runs, whole, {}
        for number in numbers:
            operation = Statement("ADOP", whole.operations[number].place, whole.start.told)
            operation.given = {"OPNO": str(number), "WSID": workstations[turn % len(workstations)], "TIME": "Y",
                               "DURATION": str(min(LONGEST, self.length(number, known)))}
            operation.places = dict.fromkeys(operation.given, operation.place)
            self.operations[number] = operation

    def matching(self, dependency):
        return self.whole.matching(dependency)

    def length(self, number, known):
        """The minutes of the longest path of durations that leads to the end of an operation."""
        if number not in known:
            known[number] = 0               # (a path that returns is its own desk's fault)
            operation = self.whole.operations[number]
            before = [one for dependency in operation.predecessors if dependency.given.get("PREADID", self.name) == self.name
                      for one in self.whole.matching(dependency)]
            known[number] = operation.number("DURATION", 1, LONGEST) + max((self.length(one, known) for one in before), default=0)
        return known[number]


class Changes:
    """The lines of --changes: occurrences that are added, removed or moved by hand."""
    FORM = re.compile(r"(?P<day>\S+) (?P<what>remove|add|move) (?P<app>\S+) (?P<at>\d{4})"
                      r"(?: to (?P<to>\S+) (?P<to_at>\d{4}))?(?: deadline (?P<deadline>\S+))?")

    def __init__(self, path, plan, told):
        self.plan, self.told, self.lines, self.touched = plan, told, [], {}
        for place, words in lines_of(path, told):
            found = self.FORM.fullmatch(" ".join(words))
            if found and (found["what"] == "move") == bool(found["to"]) and not (found["what"] == "remove" and found["deadline"]):
                self.take(place, found)
            else:
                told.fault(place, "must be `DATE add APPLICATION HHMM [deadline MOMENT]`, `DATE remove APPLICATION HHMM` or "
                           "`DATE move APPLICATION HHMM to DATE HHMM [deadline MOMENT]`")

    def take(self, place, found):
        what, app, at = found["what"], found["app"], self.when(place, found["day"], found["at"])
        to = self.when(place, found["to"], found["to_at"]) if found["to"] else None
        day, _, minutes = (found["deadline"] or "").partition("T")
        deadline = self.when(place, day, minutes.replace(":", "")) if day else None
        if app not in self.plan.applications:
            self.told.fault(place, f"{app}: no ADSTART has it")
            return
        for when in {at, to} - {None}:
            if (app, when) in self.touched:
                self.told.fault(place, f"{app}: {text_of(when)} was changed before, at {self.touched[app, when]}")
            self.touched[app, when] = place
        self.lines.append(Change(place, what, app, at, to, deadline))

    def when(self, place, day, time):
        if not day_of(day) or minutes_of(time) is None:
            self.told.fault(place, f"{day} {time}: must be YYYY-MM-DD HHMM, a deadline YYYY-MM-DDTHH:MM")
            return moment_of(FIRST)
        return moment_of(day_of(day)) + minutes_of(time) * MINUTE


def read_durations(path, found, told):
    """Estimates replace durations of applications, where these are what was learned from."""
    for place, words in lines_of(path, told):
        if len(words) != 6 or not re.fullmatch(r"\d{1,3} \S+ \d+ \d+(\.\d+)? \d+", " ".join(words[1:])):
            told.fault(place, "must be APPLICATION NUMBER WS DURATION ESTIMATE RUNS, as `history durations` prints")
            continue
        app, number, workstation, was, estimate, _ = words
        operation = found[app].operations.get(int(number)) if app in found else None
        if operation and [operation.given.get("WSID"), operation.given.get("DURATION", "").lstrip("0")] == [workstation, was]:
            operation.given["DURATION"] = str(min(LONGEST, max(1, int(float(estimate) + .5))))
        else:
            told.warn(place, f"{app} {number}: the statements have another workstation or duration: they count")


def judge_awaits(plan, records, standing, told):
    """More than 99 that wait on one workstation at once might keep each other from what they wait for."""
    waiting = {}
    for name in plan.addresses:
        left = sum(status not in "CD" for status in standing.get(name, {}).values())
        for operation in plan.applications[name].operations.values():
            waiting[operation.given["WSID"]] = waiting.get(operation.given["WSID"], 0) + left
    for record in records:
        fields = record.split(",")
        if fields[0] == "P" and fields[1] in plan.addresses:
            waiting[fields[4]] += 1
    for workstation, count in sorted(waiting.items()):
        if count > MOST_SERVERS:
            told.fault(plan.times.awaits[workstation], f"awaits {workstation}: {count} operations may wait there at once, and it "
                       f"has {MOST_SERVERS} servers: name more workstations")
