"""The rules of docs/PROFILE.md, read a second time and written in Python, apart from the desk's own code, in the plainest
form. A `Plan` holds what was loaded and reported, as tables by key and sets; a request makes another plan of it. All that
is read off a plan is worked out afresh of the whole of it: statuses as a least set, latest starts as the least numbers,
what is given out as sums. The sections below have the names of those of docs/PROFILE.md.

    Plan()                      no plan is loaded
    answered(plan, request)     what a request, the members of its JSON text, is answered, and the plan that it makes
"""
from dataclasses import dataclass, field, replace
from datetime import datetime, timedelta
from functools import cached_property
from typing import NamedTuple

from expected_plan import (MOST, MOST_INTERVALS, MOST_QUANTITY, are_disjoint, denotes_addition, denotes_extension, denotes_plan,
                           kinds_of, quantities_of, returns)

REFUSALS = dict(enumerate(
    "Past MomentRange NotLoaded Loaded UnknownOperation UnknownOccurrence UnknownWorkstation UnknownResource WrongStatus "
    "WrongWorkstation Held TooEarly Closed NoServer NoFixed ResourceBusy Running Duplicate Cycle Limit BadPlan Old Gap "
    "Reused".split(), 1))


# Moments, names and keys

EPOCH, MINUTE, FORM = datetime(1972, 1, 1), timedelta(minutes=1), "%Y-%m-%dT%H:%M"
LAST_MINUTE = 52_595_999
MINUTES_OF_400_YEARS = 146_097 * 1440


def minute_of(text):
    """Minutes from 1972-01-01T00:00 on. The calendar comes again each 400 years, and Python has no year 0."""
    year = int(text[:4])
    moment = datetime.strptime(f"{year % 400 + 400:04}{text[4:]}", FORM)
    return (moment - EPOCH) // MINUTE + (year // 400 - 1) * MINUTES_OF_400_YEARS


def moment_text(minute):
    return (EPOCH + minute * MINUTE).strftime(FORM) if 0 <= minute <= LAST_MINUTE else "-" * 16


def occurrence_text(occurrence):
    return f"{occurrence[0]}/{moment_text(occurrence[1])}"


def key_text(operation):
    return f"{occurrence_text(operation)}/{operation[2]:03}"


def occurrence_of(text):
    application, arrival = text.split("/")
    return application, minute_of(arrival)


def operation_of(text):
    application, arrival, number = text.split("/")
    return application, minute_of(arrival), int(number)


# What a plan holds

class Interval(NamedTuple):
    start: int
    end: int
    servers: int
    r1: int
    r2: int


class Need(NamedTuple):
    mode: str       # S shared, X exclusive
    keep: str       # K kept on error, F freed
    amount: int     # none where exclusive


@dataclass(frozen=True)
class Operation:
    workstation: str
    duration: int
    r1: int
    r2: int
    not_before: int
    deadline: int
    mark: str = "none"
    code: str = ""
    held: bool = False
    nop: bool = False


def closed(found, more_of):
    """The least set that has what was found, and with it all that follows from what it has."""
    while True:
        more = more_of(found) - found
        if not more:
            return found
        found = found | more


STATUS_OF_MARK = {"named": "S", "running": "S", "interrupted": "I", "error": "E", "undecided": "U", "deleted": "D", "done": "C"}
READY, WAITING_OR_READY, UNDER_WAY = set("AR*"), set("WAR*"), set("SIU")
MAY_TAKE = {"A", "S"}       # attributes of the workstations where starts are known
MARK_TOLD = {"named": " named", "running": " started"}
MODE_TOLD = {"S": "shared", "X": "exclusive"}


@dataclass(frozen=True)
class Plan:
    """Occurrences are known by (application, input arrival), operations by these and their number. Moments are minutes."""
    loaded: bool = False
    clock: int = 0
    attributes: dict = field(default_factory=dict)      # of workstations: A, S, C or N
    intervals: dict = field(default_factory=dict)       # of workstations
    available: dict = field(default_factory=dict)       # of special resources, whether they are
    quantities: dict = field(default_factory=dict)      # of special resources
    occurrences: dict = field(default_factory=dict)     # their priority and deadline
    operations: dict = field(default_factory=dict)
    needs: dict = field(default_factory=dict)           # by operation and special resource
    pairs: frozenset = frozenset()                      # (predecessor, successor)

    def with_flag(self, operations, **flag):
        return replace(self, operations={
            key: replace(operation, **flag) if key in operations else operation for key, operation in self.operations.items()})

    def marked(self, operations, mark, code=""):
        return self.with_flag(operations, mark=mark, code=code)

    def attribute(self, operation):
        return self.attributes[self.operations[operation].workstation]

    def needed_by(self, operation):
        """The special resources that it needs, each with its need."""
        return {resource: need for (needy, resource), need in sorted(self.needs.items()) if needy == operation}

    # Statuses

    def live(self, operations):
        return {key for key in operations if self.operations[key].mark != "deleted"}

    def live_predecessors(self, operation):
        return self.live(before for before, after in self.pairs if after == operation)

    def live_successors(self, operations):
        return self.live(after for before, after in self.pairs if before in operations)

    @cached_property
    def satisfied(self):
        """The least set of the rule: what was done or deleted, and what passes by itself once it waits for nothing."""
        over = {key for key, operation in self.operations.items() if operation.mark in ("done", "deleted")}
        passing = {key for key, operation in self.operations.items()
                   if operation.mark == "none" and not operation.held and (operation.nop or self.attribute(key) == "N")}
        return closed(over, lambda found: {key for key in passing - found if self.live_predecessors(key) <= found})

    def status_of(self, key):
        before = self.live_predecessors(key)
        if self.operations[key].mark != "none":
            return STATUS_OF_MARK[self.operations[key].mark]
        if key in self.satisfied:
            return "C"
        if not before:
            return "A"
        if not before <= self.satisfied:
            return "W"
        return "*" if any(self.attribute(one) == "N" for one in before) else "R"

    @cached_property
    def statuses(self):
        return {key: self.status_of(key) for key in self.operations}

    def statuses_in(self, occurrence):
        return [status for key, status in self.statuses.items() if key[:2] == occurrence]

    def occurrence_status(self, occurrence):
        """The first that holds."""
        own = set(self.statuses_in(occurrence))
        lines = {"D": own == {"D"}, "E": "E" in own, "U": "U" in own, "C": own == {"C"}, "S": own & set("SIC"), "W": True}
        return next(status for status, holds in lines.items() if holds)

    def waited_for(self, operation):
        """Its predecessors that are neither complete nor deleted."""
        return sorted(self.live_predecessors(operation) - self.satisfied)

    def roots(self, operation):
        """What holds the chain: of all that it waits for, and that waits for, what waits for nothing."""
        chain = closed({operation}, lambda found: {before for one in found for before in self.waited_for(one)})
        return sorted(one for one in chain if not self.waited_for(one))

    def reached(self, operation):
        """What an operation reaches by successors that aren't deleted; itself too."""
        return closed({operation}, self.live_successors)

    # What may start

    def given_out(self, workstation):
        """Servers, R1 and R2 of what is started or undecided there."""
        taken = [operation for key, operation in self.operations.items()
                 if operation.workstation == workstation and self.statuses[key] in "SU"]
        return len(taken), sum(one.r1 for one in taken), sum(one.r2 for one in taken)

    def holders(self, resource):
        """Who holds a special resource, and by what need, in key order."""
        return [(key, need) for (key, needed), need in sorted(self.needs.items())
                if needed == resource and self.attribute(key) in MAY_TAKE
                and (self.statuses[key] in UNDER_WAY or self.statuses[key] == "E" and need.keep == "K")]

    def lacking_of_workstation(self, operation, minute):
        """What the workstation lacks at the minute."""
        name = operation.workstation
        opened = [one for one in self.intervals[name] if one.start <= minute < one.end]
        if not opened:
            later = [one.start for one in self.intervals[name] if one.start > minute]
            yield 13, f"{name} closed until {moment_text(min(later))}" if later else f"{name} closed"
            return
        asked = zip((14, 15, 15), ("servers", "R1", "R2"), self.given_out(name), opened[0][2:], (1, operation.r1, operation.r2))
        for number, supply, given, offered, needed in asked:
            if given + needed > offered:
                yield number, f"{name} lacks {supply}: given out {given}, open {offered}, needed {needed}"

    def lacking_of_resources(self, key):
        """Which of its special resources it can't have, and who is in the way or holds how much; what it holds itself never
        is. Who holds how much is told in the lines below the first."""
        needs = self.needed_by(key)
        others = {resource: [(holder, held) for holder, held in self.holders(resource) if holder != key] for resource in needs}
        for resource in needs:
            if not self.available[resource]:
                yield 16, f"{resource} not available"
        for resource, need in needs.items():
            for holder, held in others[resource]:
                if not need.mode == held.mode == "S":
                    yield 16, f"{resource} held by {key_text(holder)} {MODE_TOLD[held.mode]}"
        for resource, need in needs.items():
            left = self.quantities[resource] - sum(held.amount for _, held in others[resource])
            if left < need.amount:
                yield 16, "\n".join([f"{resource} lacks: left {left}, needed {need.amount}", *(
                    f"  {key_text(holder)} {self.statuses[holder]} {MODE_TOLD[held.mode]} {held.amount}"
                    for holder, held in others[resource])])

    def lacking(self, key, minute):
        """All that an operation lacks to go on at the minute, each with the number of its refusal, in the order in which a start
        is refused. Where nobody reports starts, and of a NOP of which nothing was reported, status and hold alone count."""
        operation, status = self.operations[key], self.statuses[key]
        if status not in WAITING_OR_READY and not (status == "I" and self.attribute(key) == "S"):
            yield 9, f"status {status}{MARK_TOLD.get(operation.mark, '')}"
        if status == "W":
            for one in self.waited_for(key):
                yield 9, f"waits for {key_text(one)} {self.statuses[one]}"
        if operation.held:
            yield 11, "held"
        if self.attribute(key) in MAY_TAKE and not (operation.nop and operation.mark == "none"):
            if operation.not_before > minute:
                yield 12, f"not before {moment_text(operation.not_before)}"
            yield from self.lacking_of_workstation(operation, minute)
            yield from self.lacking_of_resources(key)

    # Latest start, ready list and choice

    @cached_property
    def latest_starts(self):
        """Of each operation the least, over all paths of live successors, of the last one's deadline less all durations: what
        its own deadline and its successors' latest starts leave, worked out again until nothing changes."""
        successors = {key: self.live_successors({key}) for key in self.operations}
        found = {key: operation.deadline - operation.duration for key, operation in self.operations.items()}
        while True:
            again = {key: min([operation.deadline, *(found[after] for after in successors[key])]) - operation.duration
                     for key, operation in self.operations.items()}
            if again == found:
                return found
            found = again

    def ready(self):
        """The ready list."""
        def order(key):
            priority = self.occurrences[key[:2]][0]
            return priority != 9, self.latest_starts[key], -priority, self.operations[key].duration, key
        return sorted((key for key, status in self.statuses.items() if status in READY), key=order)

    def with_chosen(self):
        """What is named at the plan's clock, in ready order; and the plan in which it is."""
        named = []
        for key in self.ready():
            now = self.marked(named, "named")
            if self.attribute(key) == "A" and not any(now.lacking(key, self.clock)):
                named.append(key)
        return named, self.marked(named, "named")


# The text of a plan

def parts_of(text):
    """What the records of a text hold, as parts of a plan. The text denotes a plan, an addition or an extension."""
    kinds = kinds_of(text)
    occurrences = {(fields[0], minute_of(fields[1])): (int(fields[2]), minute_of(fields[3])) for fields in kinds["O"]}
    operations, needs = {}, {}
    for application, arrival, number, workstation, duration, r1, r2, not_before, deadline in kinds["P"]:
        key = application, minute_of(arrival), int(number)
        operations[key] = Operation(workstation, int(duration), int(r1), int(r2), minute_of(not_before) if not_before else 0,
                                    minute_of(deadline) if deadline else occurrences[key[:2]][1])
    for application, arrival, number, resource, mode, keep, amount in kinds["N"]:
        needs[(application, minute_of(arrival), int(number)), resource] = Need(mode, keep, int(amount or 1) if mode == "S" else 0)
    pairs = frozenset(((one, minute_of(arrival), int(number)), (other, minute_of(its_arrival), int(its_number)))
                      for one, arrival, number, other, its_arrival, its_number in kinds["D"])
    return {"occurrences": occurrences, "operations": operations, "needs": needs, "pairs": pairs}


def plan_of(text):
    """The plan that a text denotes."""
    kinds = kinds_of(text)
    intervals = {name: {Interval(minute_of(start), minute_of(end), *map(int, offered)) for its, start, end, *offered in kinds["I"]
                        if its == name} for name, _ in kinds["W"]}
    return Plan(attributes=dict(kinds["W"]), intervals=intervals, available={name: yes == "Y" for name, yes, _ in kinds["X"]},
                quantities=quantities_of(kinds["X"]), **parts_of(text))


# Requests and refusals: of each request which refusals apply to it, and what plan it makes where none does

def broken(lines):
    """The numbers of the lines that don't hold."""
    return {number for number, holds in lines.items() if not holds}


def of_operation(asked):
    """Refuses what is asked of an operation that isn't in the plan, and else what is refused of it at the request's minute."""
    def refusals(plan, request):
        key = operation_of(request["op"])
        return asked(plan, key, minute_of(request["at"])) if key in plan.operations else {5}
    return refusals


def for_start(plan, key, minute):
    if plan.attribute(key) == "A":
        return broken({9: plan.operations[key].mark == "named"})
    return {number for number, _ in plan.lacking(key, minute)} if plan.attribute(key) == "S" else {10}


def for_end(plan, key, _):
    status = plan.statuses[key]
    if plan.attribute(key) == "C":
        return broken({9: status in READY, 11: not plan.operations[key].held})
    return broken({9: status in "SU"}) if plan.attribute(key) in MAY_TAKE else {10}


def for_interruption(plan, key, _):
    return broken({9: plan.statuses[key] == "S", 10: plan.attribute(key) == "S"})


def for_unknown(plan, key, _):
    return broken({9: plan.statuses[key] == "S"})


def for_flag(plan, key, _):
    return broken({9: plan.statuses[key] in WAITING_OR_READY})


def for_rerun(plan, key, _):
    others = plan.reached(key) - {key}
    return broken({9: plan.statuses[key] in "ICEU", 17: not any(plan.statuses[one] in UNDER_WAY for one in others)})


def for_completion(plan, key, _):
    return broken({9: plan.statuses[key] not in "WCD", 11: not plan.operations[key].held})


def for_deletion(plan, request):
    occurrence = occurrence_of(request["occ"])
    if occurrence not in plan.occurrences:
        return {6}
    return broken({9: plan.occurrence_status(occurrence) != "D", 17: not UNDER_WAY & set(plan.statuses_in(occurrence))})


def is_within_limits(plan):
    return all(len(one) <= MOST[kind] for kind, one in (("O", plan.occurrences), ("P", plan.operations), ("D", plan.pairs)))


def with_parts(plan, parts):
    return replace(plan, **{name: {**getattr(plan, name), **parts[name]} for name in ("occurrences", "operations", "needs")},
                   pairs=plan.pairs | parts["pairs"])


def for_what_comes_in(plan, text):
    """What refuses occurrences, of a text that denotes some, at the plan that they come into."""
    parts = parts_of(text)
    old = {key for key in plan.operations if key[:2] not in parts["occurrences"]}
    ends = {end for pair in parts["pairs"] for end in pair}
    return broken({
        5: ends <= old | parts["operations"].keys(),
        7: {operation.workstation for operation in parts["operations"].values()} <= plan.attributes.keys(),
        8: {resource for _, resource in parts["needs"]} <= plan.available.keys(),
        9: all(plan.statuses[after] in WAITING_OR_READY for _, after in parts["pairs"] if after in old)
        and all(plan.statuses[before] != "D" for before, _ in parts["pairs"] if before in old),
        18: not parts["occurrences"].keys() & plan.occurrences.keys(),
        19: not returns(plan.pairs | parts["pairs"]),
        20: is_within_limits(with_parts(plan, parts)) and all(
            need.amount <= plan.quantities.get(resource, MOST_QUANTITY) for (_, resource), need in parts["needs"].items())})


def without_what_is_over(plan):
    """The plan without the occurrences that are complete or deleted, what is theirs, and the pairs that name that."""
    stay = {one for one in plan.occurrences if plan.occurrence_status(one) not in "CD"}
    return replace(plan, occurrences={key: occurrence for key, occurrence in plan.occurrences.items() if key in stay},
                   operations={key: operation for key, operation in plan.operations.items() if key[:2] in stay},
                   needs={(key, resource): need for (key, resource), need in plan.needs.items() if key[:2] in stay},
                   pairs=frozenset(pair for pair in plan.pairs if all(key[:2] in stay for key in pair)))


def for_addition(plan, request):
    text = request["records"].encode()
    return for_what_comes_in(plan, text) if denotes_addition(text) else {21}


def for_extension(plan, request):
    text = request["records"].encode()
    return for_what_comes_in(without_what_is_over(plan), text) if denotes_extension(text) else {21}


def for_dependency(plan, request):
    before, after = operation_of(request["from"]), operation_of(request["to"])
    if not {before, after} <= plan.operations.keys():
        return {5}
    joined = replace(plan, pairs=plan.pairs | {(before, after)})
    return broken({9: plan.statuses[before] != "D" and plan.statuses[after] in WAITING_OR_READY,
                   18: (before, after) not in plan.pairs, 19: not returns(joined.pairs), 20: is_within_limits(joined)})


def for_intervals(plan, request):
    ws = request["ws"]
    return broken({7: ws in plan.attributes, 20: len(request["intervals"]) <= MOST_INTERVALS,
                   21: are_disjoint([(ws, *one[:2]) for one in request["intervals"]])})


def for_load(plan, request):
    return broken({4: not plan.loaded, 21: denotes_plan(request["records"].encode())})


def with_mark(mark):
    return lambda plan, request: plan.marked({operation_of(request["op"])}, mark, request.get("code", ""))


def with_flag(**flag):
    return lambda plan, request: plan.with_flag({operation_of(request["op"])}, **flag)


def with_rerun(plan, request):
    return plan.marked(plan.reached(operation_of(request["op"])), "none")


def with_deletion(plan, request):
    return plan.marked({key for key in plan.operations if key[:2] == occurrence_of(request["occ"])}, "deleted")


def with_addition(plan, request):
    return with_parts(plan, parts_of(request["records"].encode()))


def with_extension(plan, request):
    return with_parts(without_what_is_over(plan), parts_of(request["records"].encode()))


def with_dependency(plan, request):
    return replace(plan, pairs=plan.pairs | {(operation_of(request["from"]), operation_of(request["to"]))})


def with_availability(plan, request):
    return replace(plan, available={**plan.available, request["resource"]: request["value"]})


def with_intervals(plan, request):
    intervals = {Interval(minute_of(start), minute_of(end), *offered) for start, end, *offered in request["intervals"]}
    return replace(plan, intervals={**plan.intervals, request["ws"]: intervals})


REQUESTS = {
    "load": (for_load, lambda _, request: plan_of(request["records"].encode())),
    "tick": (lambda plan, _: set(), lambda plan, _: plan),
    "started": (of_operation(for_start), with_mark("running")),
    "ended": (of_operation(for_end), with_mark("done")),
    "error": (of_operation(for_end), with_mark("error")),
    "interrupted": (of_operation(for_interruption), with_mark("interrupted")),
    "unknown": (of_operation(for_unknown), with_mark("undecided")),
    "hold": (of_operation(for_flag), with_flag(held=True)),
    "release": (of_operation(for_flag), with_flag(held=False)),
    "nop": (of_operation(for_flag), with_flag(nop=True)),
    "unnop": (of_operation(for_flag), with_flag(nop=False)),
    "rerun": (of_operation(for_rerun), with_rerun),
    "complete": (of_operation(for_completion), with_mark("done")),
    "delete": (for_deletion, with_deletion),
    "add": (for_addition, with_addition),
    "extend": (for_extension, with_extension),
    "depend": (for_dependency, with_dependency),
    "available": (lambda plan, request: broken({8: request["resource"] in plan.available}), with_availability),
    "intervals": (for_intervals, with_intervals),
}


def refusals_of(plan, request):
    """The numbers of all refusals that apply."""
    minute, do = minute_of(request["at"]), request["do"]
    numbers = broken({1: plan.clock <= minute, 2: minute <= LAST_MINUTE, 3: plan.loaded or do == "load"})
    return numbers or REQUESTS[do][0](plan, request)


def answered(plan, request):
    """The least refusal that applies, and the plan as it was; or None, what is named, and the plan that it is named in."""
    refusals = refusals_of(plan, request)
    if refusals:
        return min(refusals), [], plan
    made = REQUESTS[request["do"]][1](plan, request)
    named, made = replace(made, loaded=True, clock=minute_of(request["at"])).with_chosen()
    return None, named, made
