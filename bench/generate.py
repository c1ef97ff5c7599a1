#!/usr/bin/env python3
"""Writes a plan of a given size, and the same graph for ninja.

    generate.py OPERATIONS PLAN.csv [--ninja build.ninja] [--no-resources] [--ascending] [--in-order] [--chains] [--over NEXT.csv]

The plan is the same each time: nothing in it is drawn by chance. README.md says how it is made.
"""
import argparse
from math import gcd

FULL = 20_000            # operations at the limit
WORKSTATIONS = 99
INTERVALS_EACH = 400     # at the limit, as are the next two
RESOURCES = 999
MEMBERS = 4              # operations of an occurrence
PAIRS_EACH = 5           # pairs to an operation, on average
FARTHEST = 2_000         # a predecessor comes at most so many operations before
CHAIN = 20               # operations of a chain, where they stand in chains
REACH = 6                # how many before it in its chain come before an operation
NOON = 12 * 60           # first minute of the first interval, on the first day


def moment(minute):
    """The text of a minute, counted from 2024-03-01T00:00. The plan ends in the same month."""
    day, rest = divmod(minute, 1440)
    assert 0 <= day < 31
    return f"2024-03-{day + 1:02}T{rest // 60:02}:{rest % 60:02}"


def share(at_limit, operations):
    """What a plan of this size has of something, in proportion to the limit; at least one."""
    return max(1, at_limit * operations // FULL)


def stride_of(count, near):
    """A step through `count` things that meets each once, near a number."""
    while gcd(near, count) != 1:
        near += 1
    return near


def spread(records):
    """The same records in an order that no key follows."""
    count = len(records)
    step = stride_of(count, count * 5 // 13 + 1)
    return [records[i * step % count] for i in range(count)]


class Operations:
    """The operations by their turn: each comes after its predecessors. Their keys go up with the turn, or up and down. Those of
    the first turns may be on workstations that report nothing, so that they are complete when the plan is loaded."""

    def __init__(self, count, ascending, over=0):
        self.count = count
        self.turns = range(count)
        self.days = 0
        self.over = over
        self.occurrences = count // MEMBERS
        self.ascending = ascending
        self.step = 1 if ascending else stride_of(self.occurrences, self.occurrences * 3 // 8 + 1)

    def occurrence(self, turn):
        return turn // MEMBERS * self.step % self.occurrences

    def later(self):
        """The first turns under keys of a week later, on their own workstations."""
        again = Operations(self.count, self.ascending)
        again.turns, again.days = range(self.over), 7
        return again

    def occurrence_fields(self, number):
        return f"BATCH{number // 2:05},{moment(22 * 60 + (self.days + number % 2) * 1440)}"

    def workstation(self, turn):
        return f"W{13 + 20 * (turn % 5) if turn < self.over else turn * 37 % WORKSTATIONS:03}"

    def number(self, turn):
        member = turn % MEMBERS
        turned = not self.ascending and turn // MEMBERS % 3 == 0
        return 10 * (MEMBERS - member if turned else member + 1)

    def key(self, turn):
        return f"{self.occurrence_fields(self.occurrence(turn))},{self.number(turn)}"

    def is_first(self, turn):
        """One in twenty has no predecessor, so that there is something to choose from."""
        return turn % (5 * MEMBERS) == 0


def predecessors(turn, wanted):
    """So many turns before this one: the one before in its occurrence, and others up to FARTHEST before."""
    found = [turn - 1] if turn % MEMBERS else []
    reach, seed = min(turn, FARTHEST), turn * 7919
    while len(found) < min(wanted, turn):
        seed = (seed * 1103515245 + 12345) % 2**31
        before = turn - 1 - (seed >> 8) % reach
        if before not in found:
            found.append(before)
    return found


def all_predecessors(operations):
    """Each operation's predecessors by turn. They are PAIRS_EACH times as many as operations in all."""
    later = [t for t in range(operations.count) if not operations.is_first(t)]
    wanted = {t: min(PAIRS_EACH, t) for t in later}
    missing = PAIRS_EACH * operations.count - sum(wanted.values())
    able = [t for t in later if t > 2 * PAIRS_EACH]
    for i in range(missing):
        wanted[able[i * len(able) // missing]] += 1
    return [predecessors(t, wanted.get(t, 0)) for t in range(operations.count)]


def predecessors_in_chains(operations):
    """Each operation's predecessors by turn, where operations stand in chains, each after the REACH before it: an end releases
    the next one. The last of a chain has one more, so that they are PAIRS_EACH times as many in all."""
    found = []
    for turn in range(operations.count):
        member = turn % CHAIN
        wanted = min(member, REACH) + (member == CHAIN - 1)
        found.append([turn - 1 - i for i in range(wanted)])
    return found


def workstation_records(operations):
    """Mostly of attribute A; one in ten S, one in twenty C, one in twenty N. Their intervals are an hour apart, and some touch."""
    each = share(INTERVALS_EACH, operations.count)
    named, opened = [], []
    for ws in range(WORKSTATIONS):
        attribute = {13: "N", 7: "C", 4: "S", 14: "S"}.get(ws % 20, "A")
        named.append(f"W,W{ws:03},{attribute},,,,,,,")
        for i in range(each):
            first = NOON + 60 * i + (30 if ws % 7 == 3 else 0)
            end = first + 45 + (ws + i) % 16
            opened.append(f"I,W{ws:03},{moment(first)},{moment(end)},{1 + (ws + i) % 9},{5 + i % 15},{5 + ws % 15},,,")
    return named, opened


def resource_name(number):
    return f"PROD.MASTER-{number:04}.DATASET"


def resource_records(operations):
    """One in fifty isn't available."""
    return [f"X,{resource_name(i)},{'N' if i % 50 == 49 else 'Y'},,,,,,," for i in range(share(RESOURCES, operations.count))]


def need_records(operations):
    """Half of the operations need none, a quarter one and a quarter two; one need in three is exclusive, half are kept on error."""
    resources = share(RESOURCES, operations.count)
    records = []
    for turn in operations.turns:
        for i in range((0, 1, 0, 2)[(turn // MEMBERS + turn) % 4]):
            number = (turn * 31 + i * 17) % resources
            mode, on_error = "SXS"[(turn + i) % 3], "KF"[(turn // 2 + i) % 2]
            records.append(f"N,{operations.key(turn)},{resource_name(number)},{mode},{on_error},,,")
    return records


def occurrence_records(operations):
    records = []
    for number in sorted({operations.occurrence(turn) for turn in operations.turns}):
        deadline = moment(4 * 1440 + number * 7 % 4320)
        records.append(f"O,{operations.occurrence_fields(number)},{1 + number % 9},{deadline},,,,,")
    return records


def operation_records(operations):
    records = []
    for turn in operations.turns:
        workstation = operations.workstation(turn)
        not_before = moment(21 * 60 + turn % 120) if turn % 9 == 0 else ""
        deadline = moment(5 * 1440 + turn * 11 % 2880) if turn % 7 == 0 else ""
        needs = f"{1 + turn * 13 % 90},{turn % 3},{turn % 2}"
        records.append(f"P,{operations.key(turn)},{workstation},{needs},{not_before},{deadline}")
    return records


def pair_records(operations, before):
    return [f"D,{operations.key(p)},{operations.key(turn)},,," for turn in operations.turns for p in before[turn]]


def plan_records(operations, before, with_resources):
    """The records by kind, each kind in an order of its own."""
    named, opened = workstation_records(operations)
    kinds = [named, opened, occurrence_records(operations), operation_records(operations), pair_records(operations, before)]
    if with_resources:
        kinds += [resource_records(operations), need_records(operations)]
    return kinds


def extension_records(operations, before, with_resources):
    """The records of the first turns under keys of a week later, by kind."""
    later = operations.later()
    kinds = [occurrence_records(later), operation_records(later), pair_records(later, before)]
    return kinds + ([need_records(later)] if with_resources else [])


def write_plan(path, kinds, in_order):
    with open(path, "w", newline="") as out:
        for kind in kinds:
            for record in kind if in_order else spread(kind):
                assert record.count(",") == 9, record
                out.write(record + "\n")


def write_ninja(path, operations, before):
    """A build statement for each operation, its predecessors' outputs as inputs. Names are short, which favours ninja. As
    `generator` ninja takes an output that is there as built, without a record of the command."""
    with open(path, "w") as out:
        out.write("rule run\n  command = run $out\n  generator = 1\n")
        for turn in range(operations.count):
            inputs = "".join(f" o{p}" for p in before[turn])
            out.write(f"build o{turn}: run{inputs}\n")


def main():
    words = argparse.ArgumentParser(description=__doc__.splitlines()[0])
    words.add_argument("operations", type=int, help=f"a multiple of 20, up to {FULL}")
    words.add_argument("plan")
    words.add_argument("--ninja", help="write the graph as a build.ninja too")
    words.add_argument("--no-resources", action="store_true", help="no special resources, and no needs of them")
    words.add_argument("--ascending", action="store_true", help="each pair leads from a smaller to a greater key")
    words.add_argument("--in-order", action="store_true", help="records of a kind in the order of turns, not spread")
    words.add_argument("--chains", action="store_true", help="operations in chains of twenty, so that an end releases the next one")
    words.add_argument("--over", help="half of the occurrences are complete when the plan is loaded; to this file "
                       "goes what comes in as they leave: as many, under keys of a week later, on the workstations of a plan without --over")
    given = words.parse_args()
    if not 40 <= given.operations <= FULL or given.operations % (5 * MEMBERS):
        words.error(f"a multiple of 20 from 40 to {FULL}")
    over = given.operations // (2 * MEMBERS) * MEMBERS if given.over else 0
    operations = Operations(given.operations, given.ascending, over)
    before = predecessors_in_chains(operations) if given.chains else all_predecessors(operations)
    write_plan(given.plan, plan_records(operations, before, not given.no_resources), given.in_order)
    if given.over:
        write_plan(given.over, extension_records(operations, before, not given.no_resources), given.in_order)
    if given.ninja:
        write_ninja(given.ninja, operations, before)


if __name__ == "__main__":
    main()
