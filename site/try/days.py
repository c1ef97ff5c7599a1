"""Which days run cycles give, a second time and apart from the planner, as a question about one day; worked examples.

A day is a date. An interval is found by going from the day on as long as both lie in one; what is chosen by counting."""
from datetime import date as D
from datetime import timedelta
from functools import lru_cache
from typing import NamedTuple, Optional

ONE = timedelta(days=1)
FIRST, NEVER = D(1972, 1, 1), D(2072, 1, 1)
NAMES = "MONDAY TUESDAY WEDNESDAY THURSDAY FRIDAY SATURDAY SUNDAY".split()
TIMES = """calendar BANK default
    week MONDAY TUESDAY WEDNESDAY THURSDAY FRIDAY
    free 2024-01-01 2024-03-29 2024-04-01 2024-05-06     # New Year, Easter, May
    free 2024-12-24..2024-12-26
    work 2024-12-28                                      # a Saturday for the year's end
calendar SHOP
    week MONDAY TUESDAY WEDNESDAY THURSDAY FRIDAY SATURDAY
    free 2024-12-25..2024-12-26
period WORKDAY every 1 work days from 2024-01-01
period TENTH every 10 work days from 2024-01-02
period FORTN every 14 days from 2024-01-05
period QUARTER dates 2024-01-01 2024-04-01 2024-07-01 2024-10-01..2024-12-31
period TAX dates 2024-01-15..2024-02-09 2024-03-25..2024-04-05
"""
CALENDARS = {
    "BANK": (range(5), {D(2024, 1, 1), D(2024, 3, 29), D(2024, 4, 1), D(2024, 5, 6), D(2024, 12, 24), D(2024, 12, 25),
                        D(2024, 12, 26)},
             {D(2024, 12, 28)}),
    "SHOP": (range(6), {D(2024, 12, 25), D(2024, 12, 26)}, set())}
# of a period what it counts, its length and its origin, or its intervals with their last days
PERIODS = {
    "WORKDAY": ("work", 1, D(2024, 1, 1)), "TENTH": ("work", 10, D(2024, 1, 2)), "FORTN": ("days", 14, D(2024, 1, 5)),
    "QUARTER": ((D(2024, 1, 1), D(2024, 3, 31)), (D(2024, 4, 1), D(2024, 6, 30)), (D(2024, 7, 1), D(2024, 9, 30)),
                (D(2024, 10, 1), D(2024, 12, 31))),
    "TAX": ((D(2024, 1, 15), D(2024, 2, 9)), (D(2024, 3, 25), D(2024, 4, 5)))}
ALL = tuple(range(1, 13))           # MONTH is the tuple of its months


class Cycle(NamedTuple):
    """A run cycle. A number below 0 counts from the last day on."""
    type: str
    cycles: tuple
    kinds: tuple = ("DAY",)
    only: tuple = ()
    every: int = 0
    shift: int = 0
    rule: str = "E"
    at: Optional[str] = "2000"
    low: D = FIRST
    high: D = NEVER


def works(calendar, day):
    week, free, work = CALENDARS[calendar]
    return day in work or day.weekday() in week and day not in free


@lru_cache(None)
def work_number(calendar, origin, day):
    """How many work days there are from an origin up to a day."""
    if day - ONE > origin:
        return work_number(calendar, origin, day - ONE) + works(calendar, day)
    return sum(works(calendar, origin + ONE * at) for at in range((day - origin).days + 1))


def are_together(calendar, cycle, one, other):
    """Whether two days, the earlier first, lie in one interval of a cycle."""
    if cycle == "WEEK":
        return one.isocalendar()[:2] == other.isocalendar()[:2]
    if cycle == "YEAR":
        return one.year == other.year
    if cycle not in PERIODS:
        return (one.year, one.month) == (other.year, other.month) and one.month in cycle
    period = PERIODS[cycle]
    if period[0] not in ("work", "days"):
        return any(first <= one and other <= last for first, last in period)
    counts, length, origin = period
    if one < origin:
        return False
    if counts == "days":
        return (one - origin).days // length == (other - origin).days // length
    one, other = [work_number(calendar, origin, day) - 1 for day in (one, other)]
    return one >= 0 and one // length == other // length


FOUND = {}


def interval(calendar, cycle, day):
    """The days of the interval in which a day lies, in order; none where it lies in none."""
    key = calendar, cycle, day
    if key not in FOUND:
        first = last = day
        while are_together(calendar, cycle, first - ONE, day):
            first -= ONE
        while are_together(calendar, cycle, day, last + ONE):
            last += ONE
        days = [first + ONE * at for at in range((last - first).days + 1)] if are_together(calendar, cycle, day, day) else []
        for one in days or [day]:
            FOUND[calendar, cycle, one] = days
    return FOUND[key]


def counts(calendar, by_work, kind, day):
    """Whether a day counts."""
    if kind in NAMES and NAMES[day.weekday()] != kind or kind == "WORKDAY" and not works(calendar, day):
        return False
    if kind == "FREEDAY" and works(calendar, day):
        return False
    return works(calendar, day) or not by_work


@lru_cache(None)
def counted(calendar, by_work, kind, cycle, first):
    """The days that count of the interval that begins with this one."""
    return [day for day in interval(calendar, cycle, first) if counts(calendar, by_work, kind, day)]


@lru_cache(None)
def is_chosen(calendar, run, day):
    """Whether it is, before any is moved."""
    for cycle in run.cycles:
        days = interval(calendar, cycle, day)
        by_work = run.rule == "E" or run.type in "NX" and PERIODS[cycle][0] == "work"
        for kind in run.kinds if days else ():
            if not counts(calendar, by_work, kind, day):
                continue
            mine = counted(calendar, by_work, kind, cycle, days[0])
            before = sum(one <= day for one in mine)
            behind = sum(one >= day for one in mine)
            since = sum(days[0] + ONE * run.shift <= one <= day for one in mine)
            if run.every and since and (since - 1) % run.every == 0:
                return True
            if before in run.only or -behind in run.only:
                return True
    return False


def gives(calendar, run, day):
    """Whether a run cycle gives a day."""
    if not run.low <= day < run.high:
        return False
    if run.rule in "E3" or is_chosen(calendar, run, day):
        return is_chosen(calendar, run, day) and (run.rule in "E3" or works(calendar, day))
    step = {"1": ONE, "2": -ONE}.get(run.rule)
    other = day
    while step and works(calendar, day) and not works(calendar, other + step):
        other += step
        if is_chosen(calendar, run, other):
            return True
    return False


def occurrences(calendar, runs, low, high):
    """The day and the time of each occurrence from low to high."""
    found, day = set(), low
    while day <= high:
        for run in runs:
            if run.type in "NR" and gives(calendar, run, day) and not any(
                    out.type in "XE" and out.at in (None, run.at) and gives(calendar, out, day) for out in runs):
                found.add((day, run.at))
        day += ONE
    return found


def statement_of(run):
    """The text of a run cycle."""
    text = f"ADRUN TYPE({run.type}) RULE({run.rule})\n DLDAY(1) DLTIME(0500)\n" + (f" IATIME({run.at})\n" if run.at else "")
    text += f" VALFROM({run.low:%y%m%d})\n" if run.low != FIRST else ""
    text += f" VALTO({run.high:%y%m%d})\n" if run.high != NEVER else ""
    if run.type in "NX":
        return text + f" PERIOD({run.cycles[0]}) OFFSET({' '.join(map(str, run.only))})\n"
    numbers = " ".join(str(one) if one > 0 else f"LAST({-one})" for one in run.only)
    text += f"ADRULE EVERY({run.every}) ORIGINSHIFT({run.shift})\n" if run.every and run.shift else (
        f"ADRULE EVERY({run.every})\n" if run.every else f"ADRULE ONLY({numbers})\n")
    text += f" DAY({' '.join(run.kinds)})\n"
    for cycle in run.cycles:
        if isinstance(cycle, tuple):
            names = " ".join(D(2024, month, 1).strftime("%b").upper() for month in cycle)
            text += " MONTH\n" if cycle == ALL else f" MONTH({names})\n"
        elif cycle not in PERIODS:
            text += f" {cycle}\n"
    periods = [cycle for cycle in run.cycles if cycle in PERIODS]
    return text + (f" PERIOD({' '.join(periods)})\n" if periods else "")


def N(period, *only, rule="E", **more):
    return Cycle("N", (period,), only=only, rule=rule, **more)


def R(kinds, cycle, *only, rule="E", **more):
    return Cycle("R", (cycle,), tuple(kinds.split()), only, rule=rule, **more)


def out(run, at):
    return run._replace(type={"N": "X", "R": "E"}[run.type], at=at)


EASTER, SPRING, YEAR = (D(2024, 3, 25), D(2024, 4, 7)), (D(2024, 3, 1), D(2024, 4, 30)), (D(2024, 1, 1), D(2024, 12, 31))
HALF, TERM = (D(2024, 1, 1), D(2024, 6, 30)), (D(2024, 1, 1), D(2024, 4, 30))
SPAN = (D(2023, 12, 1), D(2025, 2, 28))         # in which all of them lie, but for the last example
WORK, LAST_DAY = N("WORKDAY", 1), R("WORKDAY", ALL, -1)
# the calendar, the run cycles, the days looked at, and the days expected, worked out by hand
EXAMPLES = [
    ("BANK", [WORK], EASTER, "0325 0326 0327 0328 0402 0403 0404 0405"),
    ("BANK", [N("FORTN", 1, rule="3")], SPRING, "0301 0315 0329 0412 0426"),
    ("BANK", [N("FORTN", 1, rule="1")], SPRING, "0301 0315 0328 0412 0426"),
    ("BANK", [N("FORTN", 1, rule="2")], SPRING, "0301 0315 0402 0412 0426"),
    ("BANK", [N("FORTN", 1, rule="4")], SPRING, "0301 0315 0412 0426"),
    ("BANK", [N("FORTN", 3)], SPRING, "0305 0319 0404 0416 0430"),
    ("BANK", [N("FORTN", -1, rule="3")], SPRING, "0314 0328 0411 0425"),
    ("BANK", [N("QUARTER", 1, -1, rule="1")], HALF, "0328 0628"),
    ("BANK", [N("QUARTER", -1)], YEAR, "0328 0628 0930 1231"),
    ("BANK", [N("QUARTER", -1, rule="2")], (D(2024, 4, 2), D(2024, 4, 30)), "0402"),
    ("BANK", [N("TAX", 20)], YEAR, "0209"),
    ("BANK", [N("TENTH", 1)], SPRING, "0312 0326 0411 0425"),
    ("BANK", [N("TENTH", -1)], SPRING, "0311 0325 0410 0424"),
    ("BANK", [LAST_DAY], SPRING, "0328 0430"),
    ("BANK", [R("MONDAY", ALL, 1, rule="2")], SPRING, "0304 0402"),
    ("BANK", [R("MONDAY", ALL, 1)], SPRING, "0304 0408"),
    ("BANK", [R("FRIDAY", ALL, 1, -1, rule="1")], SPRING, "0301 0328 0405 0426"),
    ("BANK", [R("DAY", "WEEK", rule="3", every=2)], EASTER, "0325 0327 0329 0331 0401 0403 0405 0407"),
    ("BANK", [R("DAY", "WEEK", rule="4", every=2, shift=1)], EASTER, "0326 0328 0402 0404"),
    ("BANK", [R("FRIDAY", "YEAR", rule="3", every=3)], TERM, "0105 0126 0216 0308 0329 0419"),
    ("BANK", [R("FREEDAY", ALL, 1, rule="3")], SPRING, "0302 0401"),
    ("BANK", [R("WORKDAY", (3, 12), 3)], YEAR, "0305 1204"),
    ("BANK", [R("WORKDAY", "TAX", -2)], YEAR, "0208 0404"),
    ("SHOP", [R("WORKDAY", "WEEK", -1)], (D(2024, 12, 16), D(2024, 12, 31)), "1221 1228"),
    ("BANK", [WORK, out(N("FORTN", 1, rule="1"), None)], EASTER, "0325 0326 0327 0402 0403 0404 0405"),
    ("BANK", [WORK, out(LAST_DAY, "2000"), LAST_DAY._replace(at="2300")], EASTER, "0325 0326 0327 0328@2300 0402 0403 0404 0405"),
    ("BANK", [WORK._replace(low=D(2024, 3, 27), high=D(2024, 4, 3))], EASTER, "0327 0328 0402"),
    ("BANK", [N("FORTN", 1, rule="2", high=D(2024, 4, 2))], SPRING, "0301 0315"),
    ("BANK", [R("DAY", (2,), 29, rule="3")], (D(2023, 1, 1), D(2025, 12, 31)), "0229")]


def expected(text):
    """The days and times of an example."""
    return {(D(2024, int(one[:2]), int(one[2:4])), one[5:] or "2000") for one in text.split()}


def by_chance(chance):
    """A set of run cycles, its calendar, and the days looked at."""
    runs = []
    for _ in range(chance.randint(1, 3)):
        kind, rule, at = chance.choice("NNXRRRE"), chance.choice("E1234"), chance.choice(["2000", "2300"])
        if kind in "NX":
            run = Cycle(kind, (chance.choice(list(PERIODS)),), only=tuple(chance.sample([1, 2, 3, 9, 14, -1, -2, -10], 2)))
        else:
            months = chance.choice([ALL, tuple(sorted(chance.sample(range(1, 13), 3)))])
            kinds = ["DAY", "WORKDAY", *NAMES] + ["FREEDAY"] * (rule != "E")
            run = Cycle(kind, tuple(chance.sample(["WEEK", "YEAR", months, *PERIODS], chance.randint(1, 2))),
                        tuple(chance.sample(kinds, chance.randint(1, 2))))
            run = run._replace(every=chance.randint(1, 6), shift=chance.choice([0, 0, 1, 3, 9])) if chance.random() < .5 else (
                run._replace(only=tuple(chance.sample([1, 2, 3, 5, 21, -1, -2, -4], 2))))
        if chance.random() < .3:
            run = run._replace(low=D(2024, 1, 1) + ONE * chance.randint(0, 200),
                               high=D(2024, 5, 1) + ONE * chance.randint(0, 200))
        runs.append(run._replace(rule=rule, at=None if kind in "XE" and chance.random() < .5 else at))
    low = D(2023, 12, 20) + ONE * chance.randint(0, 375)
    return chance.choice(["BANK", "SHOP"]), runs, (low, low + ONE * chance.randint(5, 40))
