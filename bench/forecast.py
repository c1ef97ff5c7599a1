"""A forecast of a plan and its text, by the rules of rules.py and what docs/OPERATING.md says of forecasts, apart from the
desk's own code: it goes from minute to minute.

    forecast_text(plan, minute, until)      what `forecast` prints of a plan from a minute on, up to another one, or to its end
    text_of(Forecast(plan, minute, until, known))       the same, where of these operations it is known since when they go as they do

What it takes to be so, each read off what an operator means, and not off the desk's definitions:

- An operation lasts its duration from when its start is reported. One that is named and not reported has done nothing yet: it
  is taken to start now. One that runs since nobody knows when may have done anything: it is taken to start now, too, and its
  begin isn't told.
- Where completion alone is reported, work is done from when it may be: once all before it is over, and its not-before has come.
- Who freed something for an operation is looked for in the plan as that minute began: of what `why` names first there, the ended
  operation had some.
- What hasn't ended by the last minute that is told of is late by what has passed of its deadline until then, at least.
- What runs should have ended when its duration had passed since its start. It hasn't, so nobody knows when it will, nor when what
  waits for it begins: their times are marked. Of what was only named nobody knows how long it runs, since it doesn't.
- A person starts what stands on a workstation of attribute S, and again what was interrupted there; and reports that it is done
  what stands on one of attribute C, when its duration has passed.
"""
from functools import cached_property

from rules import LAST_MINUTE, MAY_TAKE, READY, answered, key_text, moment_text

NOTHING = "-" * 16


class Forecast:
    """A forecast of a plan: its requests, each with what it names, its last plan, since when each operation is going in it, and
    when each is complete."""

    def __init__(self, plan, at, until=None, known=None):
        self.first, self.at, self.until, self.known = plan, at, until, known or {}
        self.last, self.done, self.requests, self.as_minute_began = plan, {}, [], {}
        self.since = {key: self.counted(plan, key, minute) for key, minute in self.known.items()
                      if plan.operations[key].mark != "named"}
        self.make({"do": "tick"}, at)
        while found := self.first_work():
            self.make(*found)
        self.to = self.last.clock if until is None else until

    def going(self, plan):
        """What is started; and what is ready where completion alone is reported, and isn't held."""
        return {key for key, status in plan.statuses.items()
                if status == "S" or status in READY and plan.attribute(key) == "C" and not plan.operations[key].held}

    def counted(self, plan, key, minute):
        """From when it counts that it goes since a minute: what has no mark is only reported as complete."""
        operation = plan.operations[key]
        return max(minute, operation.not_before) if operation.mark == "none" else minute

    def make(self, request, minute):
        request = {**request, "at": moment_text(minute)}
        self.as_minute_began.setdefault(minute, self.last)
        refusal, named, self.last = answered(self.last, request)
        self.requests.append((request, named))
        if refusal:
            raise ValueError(f"{request} is refused {refusal}")
        for key in self.going(self.last):
            self.since.setdefault(key, self.counted(self.last, key, minute))
        for key, status in self.last.statuses.items():
            if status == "C":
                self.done.setdefault(key, minute)

    def end_of(self, key):
        return self.since[key] + self.last.operations[key].duration

    def last_minute(self):
        """Behind it nothing more ends, opens, or is no longer too early; the clock, where nothing is going or ready."""
        plan, going = self.last, self.going(self.last)
        if not going and not plan.ready():
            return plan.clock
        found = {plan.clock, *map(self.end_of, going), *(one.end for intervals in plan.intervals.values() for one in intervals),
                 *(operation.not_before for operation in plan.operations.values())}
        return min(max(found), LAST_MINUTE if self.until is None else self.until)

    def may_begin(self, attribute, minute):
        return [key for key in self.last.ready()
                if self.last.attribute(key) == attribute and not any(self.last.lacking(key, minute))]

    def first_work(self):
        """What is done at the first minute with work, and that minute."""
        for minute in range(self.last.clock, self.last_minute() + 1):
            due = sorted(key for key in self.going(self.last) if self.end_of(key) <= minute)
            if due:
                return {"do": "ended", "op": key_text(due[0])}, minute
            if self.may_begin("A", minute):
                return {"do": "tick"}, minute
            begins = self.may_begin("S", minute)
            if begins:
                return {"do": "started", "op": key_text(begins[0])}, minute
        return None

    # What is read off it

    def outstanding(self):
        return sorted(key for key, status in self.first.statuses.items() if status not in "CD")

    def begins(self, key):
        return key in self.going(self.last) or self.last.statuses[key] == "C"

    def beginning(self, key):
        """None where it isn't known, of what runs already, or waits for its completion alone."""
        begun, mark = self.since.get(key, self.done.get(key)), self.first.operations[key].mark
        is_unknown = key in self.going(self.first) and mark != "named" and key not in self.known and begun == self.at
        return None if is_unknown else begun

    def begin_or_now(self, key):
        begun = self.beginning(key)
        return self.at if begun is None else begun

    def ends_at(self, minute):
        return [key for key in self.outstanding() if self.done.get(key) == minute]

    def over_by(self, key):
        """By how many minutes it runs longer than planned."""
        if key not in self.going(self.first) or key not in self.known or self.first.operations[key].mark == "named":
            return 0
        return max(0, self.at - self.counted(self.first, key, self.known[key]) - self.first.operations[key].duration)

    @cached_property
    def uncertain(self):
        """What runs longer than planned, and whatever waits for that."""
        found = {key for key in self.first.operations if self.over_by(key)}
        while more := {key for key, status in self.first.statuses.items()
                       if status not in "CD" and key not in found and found & set(self.first.live_predecessors(key))}:
            found |= more
        return found

    def cause(self, key):
        """What an operation begins after, and the operations of which the first is before it on a path."""
        begin, operation = self.begin_or_now(key), self.first.operations[key]
        awaited = [one for one in self.ends_at(begin) if one in self.first.live_predecessors(key)]
        if key in self.going(self.first) or begin == self.at:
            return "now", []
        if awaited:
            return "after", awaited
        if operation.not_before == begin:
            return "not-before", []
        if any(one.start == begin for one in self.first.intervals[operation.workstation]):
            return "opens", []
        return "frees", [one for one in self.ends_at(begin) if self.begin_or_now(one) < begin and self.frees(one, key, begin)]

    def frees(self, ended, key, minute):
        """Whether what ended had of what the other one lacked first as the minute began."""
        number, lack = next(iter(self.as_minute_began[minute].lacking(key, minute)), (0, ""))
        other, words = self.first.operations[ended], lack.split("\n")[0].split(" ")
        has = {"servers": 1, "R1": other.r1, "R2": other.r2}
        if number in (14, 15):
            is_there = other.workstation == self.first.operations[key].workstation
            return is_there and self.first.attribute(ended) in MAY_TAKE and has[words[2].rstrip(":")] > 0
        if number == 16 and words[1:3] == ["held", "by"]:
            return words[3] == key_text(ended)
        return number == 16 and words[1] == "lacks:" and self.first.attribute(ended) in MAY_TAKE and words[0] in self.first.needed_by(ended)

    def lacked(self, key):
        """What an operation lacked first as the minute began at which it begins."""
        begin = self.begin_or_now(key)
        return next((lack.split("\n")[0] for _, lack in self.as_minute_began[begin].lacking(key, begin)), "-")

    def path_to(self, key):
        cause, before = self.cause(key)
        return [*(self.path_to(before[0]) if before else []), (key, cause)]

    def occurrence_end(self, occurrence):
        ends = [self.done.get(key) for key in self.last.operations if key[:2] == occurrence]
        return None if self.last.occurrence_status(occurrence) != "C" or None in ends else max(ends)

    def asked_at(self, key):
        """The minute at which it is asked why it doesn't go on."""
        operation = self.last.operations[key]
        minute = max(self.to, operation.not_before)
        openings = [max(minute, one.start) for one in self.last.intervals[operation.workstation] if one.end > minute]
        return min(openings, default=minute)


def late(minute, bound):
    return f"{minute - bound:>5}" if minute is not None and minute > bound else "    -"


def shown(minute):
    return NOTHING if minute is None else moment_text(minute)


def named(key):
    return f"{key[0]:<16} {moment_text(key[1])}"


def occurrence_row(told, key):
    priority, deadline = told.first.occurrences[key]
    end = told.occurrence_end(key)
    never = sum(one[:2] == key and not told.begins(one) and told.last.operations[one].mark == "none" for one in told.outstanding())
    status = told.first.occurrence_status(key)
    told_by = told.to if end is None else end
    return f"{named(key)} {priority} {status} {moment_text(deadline)} {shown(end)} {late(told_by, deadline)} {never:>5}"


def operation_row(told, key):
    begun, latest = told.beginning(key), told.first.latest_starts[key]
    operation, status = told.first.operations[key], told.first.statuses[key]
    over = f"{told.over_by(key):>5}" if told.over_by(key) else "    ~" if key in told.uncertain else "    -"
    return (f"{named(key)} {key[2]:>3} {operation.workstation:<4} {status} {shown(begun)} {shown(told.done.get(key))} "
            f"{moment_text(latest)} {late(begun, latest)} {over}")


def path_row(told, occurrence, key, cause):
    freed = told.lacked(key) if cause == "frees" else "-"
    return f"{named(occurrence)} {named(key)} {key[2]:>3} {cause:<10} {shown(told.beginning(key))} {moment_text(told.done[key])} {freed}"


def placed(told, key):
    return f"{named(key)} {key[2]:>3} {told.first.operations[key].workstation:<4}"


def by_hand(told, begun, never):
    """What people have to do: what is to be started again first."""
    for key in never:
        if told.last.operations[key].mark == "interrupted":
            yield key, "start again", None
    for key in begun:
        attribute, going = told.first.attribute(key), key in told.going(told.first)
        if attribute == "C":
            yield key, "report end", told.done.get(key)
        elif attribute == "S" and not going:
            yield key, "start", told.begin_or_now(key)


def by_hand_row(told, key, deed, minute):
    return f"{placed(told, key)} {deed:<11} {shown(minute)} {moment_text(told.first.latest_starts[key])}"


def named_only(told, begun):
    """What was named and isn't started: what was named first, or nobody knows when, comes first."""
    keys = [key for key in begun if told.first.operations[key].mark == "named"]
    return [f"{placed(told, key)} {shown(told.known.get(key))}" for key in sorted(keys, key=lambda key: (told.known.get(key, -1)))]


def over_rows(told, begun):
    keys = sorted(filter(told.over_by, begun), key=lambda key: -told.over_by(key))
    return [f"{placed(told, key)} {shown(told.known[key])} {told.over_by(key):>5}" for key in keys]


def standstill_row(told, key):
    minute, operation = told.asked_at(key), told.last.operations[key]
    own = {"error": f"in error {operation.code}", "interrupted": "interrupted", "undecided": "undecided"}.get(operation.mark)
    why = [reason.split("\n")[0] for _, reason in told.last.lacking(key, minute)]
    return f"{key_text(key)} {told.last.statuses[key]} {moment_text(minute)} {own or (why[0] if why else 'begins later')}"


def late_paths(told, occurrences):
    for key in occurrences:
        end = told.occurrence_end(key)
        if end is not None and end > told.first.occurrences[key][1]:
            last = next(one for one in told.ends_at(end) if one[:2] == key)
            yield from (path_row(told, key, *member) for member in told.path_to(last))


def lines_of(head, rows):
    return "".join(f"{line}\n" for line in (head, *rows, f"END {len(rows)}"))


def part(told, head, rows):
    return lines_of(f"{head} FROM {moment_text(told.at)} TO {moment_text(told.to)}", rows)


def part_now(told, head, rows):
    return lines_of(f"{head} AT {moment_text(told.at)}", rows)


def text_of(told):
    occurrences = [key for key in sorted(told.first.occurrences) if told.first.occurrence_status(key) not in "CD"]
    begun = sorted(filter(told.begins, told.outstanding()), key=lambda key: (told.begin_or_now(key), key))
    never = sorted((key for key in told.outstanding() if not told.begins(key)), key=lambda key: (told.last.statuses[key] == "W", key))
    return "".join((
        part(told, "FORECAST OF OCCURRENCES", [occurrence_row(told, key) for key in occurrences]),
        part(told, "FORECAST OF OPERATIONS", [operation_row(told, key) for key in begun]),
        part(told, "LATE PATHS", list(late_paths(told, occurrences))),
        part(told, "NEVER STARTED" if told.until is None else "NOT STARTED", [standstill_row(told, key) for key in never]),
        part_now(told, "NAMED AND NOT STARTED", named_only(told, begun)),
        part_now(told, "LONGER THAN PLANNED", over_rows(told, begun)),
        part(told, "BY HAND", [by_hand_row(told, *row) for row in by_hand(told, begun, never)])))


def forecast_text(plan, minute, until=None):
    """Of a plan that a tick at the minute isn't refused by; `until` isn't before it."""
    return text_of(Forecast(plan, minute, until))
