"""Run cycles: which days an ADRUN gives, with its ADRULE where it is one of rules. PLANNING.md defines them."""
import re
from bisect import bisect_left
from datetime import date, timedelta

from calendars import DAYS, FIRST, LAST, Period, day_of, weekday

MONTHS = "JANUARY FEBRUARY MARCH APRIL MAY JUNE JULY AUGUST SEPTEMBER OCTOBER NOVEMBER DECEMBER".split()
KINDS = ["DAY", "WORKDAY", "FREEDAY", *DAYS]
READ = {"ADRUN": {"NAME", "TYPE", "RULE", "VALFROM", "VALTO", "PERIOD", "OFFSET", "IATIME", "DLDAY", "DLTIME"},
        "ADRULE": {"ONLY", "EVERY", "DAY", "WEEK", "MONTH", "YEAR", "PERIOD", "ORIGINSHIFT"}}
HARMLESS = {"DESCR", "JVTAB", "VARTAB"}         # they tell no day
FOR_EVER = "711231"


def short_day(text):
    """The day of yymmdd: 72 to 99 are 1972 to 1999, 00 to 71 are 2000 to 2071. None where it is none."""
    if not re.fullmatch(r"\d{6}", text, re.A):
        return None
    return day_of(f"{19 if int(text[:2]) >= 72 else 20}{text[:2]}-{text[2:4]}-{text[4:]}")


def validity(statement, first, last):
    """The first day in effect, and the first one out of effect, by the keywords of these names."""
    days = []
    for keyword, default in ((first, FIRST), (last, LAST + 1)):
        value = statement.given.get(keyword)
        day = default if value is None or keyword == last and value == FOR_EVER else short_day(value)
        if day is None:
            statement.fault(keyword, "must be yymmdd")
        days.append(day or default)
    return days


def words_in(text):
    return re.split(r"[\s,]+", text.strip())


def integers(statement, keyword, text, least=1):
    """The numbers that a value has."""
    found = words_in(text)
    if not all(re.fullmatch(r"-?\d{1,3}", one, re.A) and int(one) >= least and int(one) for one in found):
        statement.fault(keyword, f"must be numbers {least} to 999" + (", and not 0" if least < 0 else ""))
        return [1]
    return [int(one) for one in found]


def one_of(statement, keyword, words, default):
    value = statement.given.get(keyword) or default
    if value not in words:
        statement.fault(keyword, f"must be one of {', '.join(words)}")
        return default
    return value


def nth(days, number):
    """The number-th of days in order, with a negative number from the last on: a list of it, empty where there are fewer."""
    at = number - 1 if number > 0 else len(days) + number
    return days[at:at + 1] if at >= 0 else []


class Cycle:
    """An ADRUN, and its ADRULE."""

    def __init__(self, run, times):
        self.run, self.times, self.told = run, times, run.told
        self.type = one_of(run, "TYPE", "N X R E".split(), "R" if run.rule else "N")
        self.free = one_of(run, "RULE", "E 1 2 3 4".split(), "E")
        self.name = run.given.get("NAME") or run.given.get("PERIOD") or f"line {run.place.line}"
        self.low, self.high = validity(run, "VALFROM", "VALTO")
        self.numbers, self.every, self.shift, self.kinds, self.cycles = [], 0, 0, ["DAY"], []
        self.arrival, self.deadline = run.minutes("IADAY", "IATIME"), run.minutes("DLDAY", "DLTIME")
        self.judge_keywords(run)
        self.judge_times(run)
        if self.type in "NX":
            self.take_offsets(run)
        elif run.rule:
            self.take_rule(run.rule)
        else:
            self.told.fault(run.place, f"ADRUN: TYPE {self.type} needs an ADRULE")

    def judge_keywords(self, statement):
        """A keyword that isn't read may change the days, so it isn't left out."""
        for keyword in set(statement.given) - READ[statement.verb] - HARMLESS:
            statement.fault(keyword, "it isn't read, and may change the days")

    def judge_times(self, run):
        if self.arrival is not None and self.arrival >= 1440:
            run.fault("IATIME", "must be 0000 to 2359")
        if self.type in "NR" and self.arrival is None:
            self.told.fault(run.place, "ADRUN: IATIME is missing")
            self.arrival = 0
        if self.type in "NR" and self.deadline is None:
            self.told.fault(run.place, "ADRUN: DLTIME is missing")
            self.deadline = 1440

    def take_offsets(self, run):
        self.numbers = integers(run, "OFFSET", run.given.get("OFFSET", "1"), -999)
        self.cycles = self.periods(run) if run.given.get("PERIOD") else []
        if len(self.cycles) != 1:
            self.told.fault(run.place, f"ADRUN: TYPE {self.type} needs one PERIOD")
        if run.rule:
            self.told.fault(run.rule.place, f"ADRULE: of an ADRUN of TYPE {self.type}")

    def periods(self, statement):
        """The periods that a statement names."""
        names = words_in(statement.given["PERIOD"])
        for name in names:
            if name not in self.times.periods:
                statement.fault("PERIOD", f"--times has no period {name}")
        return [self.times.periods.get(name) or Period(name) for name in names]

    def take_rule(self, rule):
        for keyword in {"PERIOD", "OFFSET"} & set(self.run.given):
            self.run.fault(keyword, f"of TYPE {self.type} its ADRULE tells")
        self.judge_keywords(rule)
        given = rule.given
        if ("ONLY" in given) == ("EVERY" in given):
            self.told.fault(rule.place, "ADRULE: one of ONLY and EVERY has to be given")
        elif "EVERY" in given:
            self.every = integers(rule, "EVERY", given["EVERY"])[0]
            self.shift = integers(rule, "ORIGINSHIFT", given["ORIGINSHIFT"])[0] if "ORIGINSHIFT" in given else 0
        else:
            self.numbers = self.ordinals(rule)
        self.kinds = words_in(given.get("DAY", ""))
        if not set(self.kinds) <= set(KINDS):
            rule.fault("DAY", f"must be of {', '.join(KINDS)}")
        elif self.free == "E" and "FREEDAY" in self.kinds:
            rule.fault("DAY", "with RULE(E) work days alone count, so there is no FREEDAY")
        self.cycles = self.cycles_of(rule)

    def ordinals(self, rule):
        """What ONLY has: those of LAST are negative."""
        if "ORIGINSHIFT" in rule.given:
            rule.fault("ORIGINSHIFT", "it goes with EVERY alone")
        last = re.findall(r"LAST\s*\(([^()]*)\)", rule.given["ONLY"])
        rest = re.sub(r"LAST\s*\([^()]*\)", " ", rule.given["ONLY"]).strip()
        found = integers(rule, "ONLY", rest) if rest or not last else []
        return found + [-one for text in last for one in integers(rule, "ONLY", text)]

    def cycles_of(self, rule):
        """Those in which days are counted: WEEK, YEAR, tuples of months, and periods."""
        found = [keyword for keyword in ("WEEK", "YEAR") if keyword in rule.given]
        for keyword in found:
            if rule.given[keyword]:
                rule.fault(keyword, "it takes no numbers here")
        if "MONTH" in rule.given:
            names = words_in(rule.given["MONTH"]) if rule.given["MONTH"] else MONTHS
            months = tuple(at for name in names for at, month in enumerate(MONTHS, 1) if name in (month, month[:3]))
            if len(months) != len(names):
                rule.fault("MONTH", "must be of JAN to DEC")
            found.append(months)
        found += self.periods(rule) if "PERIOD" in rule.given else []
        if not found:
            self.told.fault(rule.place, "ADRULE: one of WEEK, MONTH, YEAR and PERIOD has to be given")
        return found

    def days(self, calendar, low, high):
        """The days in [low, high) that it gives."""
        signature = (calendar.name, low, high, self.type in "NX", self.free, self.every, self.shift, *self.numbers, *self.kinds,
                     *[cycle.name if isinstance(cycle, Period) else cycle for cycle in self.cycles])
        known = self.times.known                    # worked out once for all run cycles that are alike
        if signature not in known:
            known[signature] = self.moved_into(calendar, low, high)
        return [day for day in known[signature] if self.low <= day < self.high]

    def moved_into(self, calendar, low, high):
        """Those in [low, high), whatever its validity. Only from the work days next to these is one moved into them."""
        wide = low, high
        if self.free in "12":
            wide = (calendar.before(low) or FIRST), (calendar.after(high - 1) or LAST) + 1
        chosen = {day for cycle in self.cycles for first, end in intervals(cycle, calendar, *wide)
                  for day in self.chosen(cycle, calendar, first, end) if wide[0] <= day < wide[1]}
        return sorted(day for day in {self.moved(day, calendar) for day in chosen} if day and low <= day < high)

    def chosen(self, cycle, calendar, first, end):
        """Of the days of an interval those that it chooses, before any is moved."""
        found = set()
        by_work = self.free == "E" or self.type in "NX" and isinstance(cycle, Period) and cycle.by_work
        for kind in self.kinds:
            days = days_of(kind, by_work, calendar, first, end)
            if self.every:
                found.update(days[bisect_left(days, first + self.shift)::self.every])
            for number in self.numbers:
                found.update(nth(days, number))
        return found

    def moved(self, day, calendar):
        """Where its free-day rule moves a day."""
        if self.free in "E3" or calendar.is_work(day):
            return day
        return None if self.free == "4" else calendar.before(day) if self.free == "1" else calendar.after(day)


def days_of(kind, by_work, calendar, first, end):
    """The days of a kind in [first, end), in order."""
    first, end = max(FIRST, first), min(LAST + 1, end)
    if by_work or kind == "WORKDAY":
        days = calendar.works[bisect_left(calendar.works, first):bisect_left(calendar.works, end)]
    else:
        days = range(first, end)
    if kind == "FREEDAY":
        return [day for day in days if not calendar.is_work(day)]
    return days if kind in ("DAY", "WORKDAY") else [day for day in days if DAYS[weekday(day)] == kind]


def intervals(cycle, calendar, low, high):
    """The intervals of a cycle that have a day in [low, high), as [first, end)."""
    if isinstance(cycle, Period):
        return cycle.intervals(calendar, low, high)
    if cycle == "WEEK":
        return [(at, at + 7) for at in range(low - weekday(low), high, 7)]
    if cycle == "YEAR":
        years = range(date.fromordinal(low).year, date.fromordinal(high - 1).year + 1)
        return [(date(year, 1, 1).toordinal(), date(year + 1, 1, 1).toordinal()) for year in years]
    found, first = [], date.fromordinal(low).replace(day=1)
    while first.toordinal() < high:
        following = (first + timedelta(days=31)).replace(day=1)
        if first.month in cycle:
            found.append((first.toordinal(), following.toordinal()))
        first = following
    return found
