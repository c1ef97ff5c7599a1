"""Which days are work days, which periods there are, when workstations are open: the text of `--times`.

    night 1200 PLAN                              # nights go from 12:00 to 12:00; the workstation of their marker
    calendar BANK default until 2024-12-31       # planning behind that day is a fault
        week MONDAY TUESDAY WEDNESDAY THURSDAY FRIDAY
        free 2024-01-01 2024-12-24..2024-12-26
        work 2024-12-28                          # counts before free
    period TENTH every 10 work days from 2024-01-02
    period FORTNIGHT every 14 days from 2024-01-05
    period QUARTER dates 2024-01-01 2024-04-01 2024-07-01 2024-10-01..2024-12-31
    hours CPU1 BANK                              # HHMM-HHMM SERVERS R1 R2, within a day
        standard 1800-2400 4 6 2 0000-0700 4 6 2
        SUNDAY 0000-0700 4 6 2
        free 2000-2400 1 6 2
        2024-12-24 closed
    desk 127.0.0.1:8081 pay.stm                  # statements of another desk
    awaits AWT1 AWT2                             # workstations that wait for other desks' operations

A day is a number, that of date.toordinal()."""
import re
from bisect import bisect_left, bisect_right
from datetime import date, datetime, timedelta
from functools import cached_property
from pathlib import Path

from common import OWN_NAME
from told import NOWHERE, lines_of

FIRST, LAST = date(1972, 1, 1).toordinal(), date(2071, 12, 31).toordinal()
DAYS = "MONDAY TUESDAY WEDNESDAY THURSDAY FRIDAY SATURDAY SUNDAY".split()
MOST_INTERVALS = 400
MOST_SERVERS = 99
BLOCKS = {"calendar": "calendars", "period": "periods", "hours": "hours"}
FORMS = ("none of `calendar NAME`, `period NAME`, `hours WS`, `night HHMM [WS]`, `desk ADDRESS:PORT FILE..`, `awaits WS..`, nor "
         "a line of a calendar or of hours")


def day_text(day):
    return date.fromordinal(day).isoformat()


def weekday(day):
    return (day + 6) % 7        # 0 is Monday


def day_of(text):
    """The day of YYYY-MM-DD; None where there is none that a plan may name."""
    try:
        day = date.fromisoformat(text).toordinal() if re.fullmatch(r"\d{4}-\d\d-\d\d", text, re.A) else None
    except ValueError:
        return None
    return day if day and FIRST <= day <= LAST else None


def span_of(text):
    """The first and the last day of DATE or DATE..DATE."""
    first, dots, last = text.partition("..")
    first, last = day_of(first), day_of(last if dots else first)
    return (first, last) if first and last and first <= last else None


def minutes_of(text):
    """The minutes of HHMM, 0000 to 2359; None where it is none."""
    found = re.fullmatch(r"([01]\d|2[0-3])([0-5]\d)", text, re.A)
    return int(found[1]) * 60 + int(found[2]) if found else None


class Calendar:
    LINES = "week|free|work"

    def __init__(self, name, place):
        self.name, self.place, self.week, self.free, self.work, self.until = name, place, set(), set(), set(), LAST

    def is_work(self, day):
        return day in self.work or weekday(day) in self.week and day not in self.free

    @cached_property
    def works(self):
        """All work days, in order."""
        return [day for day in range(FIRST, LAST + 1) if self.is_work(day)]

    def before(self, day):
        """The last work day before a day; None where there is none."""
        at = bisect_left(self.works, day)
        return self.works[at - 1] if at else None

    def after(self, day):
        """The first work day after a day; None where there is none."""
        at = bisect_right(self.works, day)
        return self.works[at] if at < len(self.works) else None

    def take(self, place, words, told):
        """A line of its block."""
        for word in words[1:]:
            span = span_of(word)
            if words[0] == "week" and word in DAYS:
                self.week.add(DAYS.index(word))
            elif words[0] in ("free", "work") and span:
                (self.free if words[0] == "free" else self.work).update(range(span[0], span[1] + 1))
            else:
                told.fault(place, f"{words[0]} {word}: must be `week MONDAY..`, `free DATE..` or `work DATE..`; DATE is "
                           "YYYY-MM-DD or YYYY-MM-DD..YYYY-MM-DD")


class Period:
    """`length` days or work days from `origin` on, or the intervals that are given."""

    def __init__(self, name, length=None, by_work=False, origin=None, given=()):
        self.name, self.length, self.by_work, self.origin, self.given = name, length, by_work, origin, list(given)

    def intervals(self, calendar, low, high):
        """Those that have a day in [low, high), as [first, end)."""
        if self.length is None:
            return [(first, end) for first, end in self.given if first < high and low < end]
        if not self.by_work:
            first = self.origin + max(0, low - self.origin) // self.length * self.length
            return [(at, at + self.length) for at in range(first, high, self.length)]
        works = calendar.works
        origin, number = bisect_left(works, self.origin), bisect_right(works, low) - 1
        begin = origin + max(0, number - origin) // self.length * self.length
        starts = works[begin:bisect_left(works, high):self.length]
        ends = [*works[begin + self.length:begin + self.length * (len(starts) + 1):self.length], LAST + 1]
        return [(first, end) for first, end in zip(starts, ends) if low < end]


class Hours:
    """When a workstation is open. Of its lines that are of a day a date counts first, then free days, days of the week, and
    `standard`."""
    LINES = rf"{'|'.join(DAYS)}|standard|free|\d{{4}}-.*"

    def __init__(self, name, place, calendar):
        self.name, self.place, self.calendar, self.lines = name, place, calendar, []

    def take(self, place, words, told):
        """A line of its block."""
        at = next((at for at, word in enumerate(words) if re.match(r"\d{4}-\d{4}$|closed$", word)), len(words))
        days, rest = words[:at], words[at:]
        spans = [] if set(days) <= {*DAYS, "standard", "free"} else [span_of(one) for one in days]
        if not days or not rest or not all(spans) or len(days) > 1 and {"standard", "free"} & set(days):
            told.fault(place, "hours: must be `standard`, `free`, days of the week or dates, and then HHMM-HHMM SERVERS R1 R2 .. "
                       "or `closed`")
            return
        rank = {"standard": 3, "free": 1}.get(days[0], 0 if spans else 2)
        for other in self.lines:
            if other.rank == rank and (set(other.days) & set(days) or any(
                    a <= d and c <= b for a, b in spans for c, d in other.spans)):
                told.fault(place, f"hours: a day of it has line {other.place.line} already")
        self.lines.append(Line(place, rank, days, spans, openings(place, rest, told)))

    def of_day(self, day, calendar):
        """The openings of a day."""
        mine = [line for line in self.lines if line.is_of(day, calendar)]
        return min(mine, key=lambda line: line.rank).openings if mine else []

    def intervals(self, low, high, calendar):
        """Those within moments [low, high), as (start, stop, servers, R1, R2)."""
        found = []
        for day in range(low.toordinal(), high.toordinal() + 1):
            for start, stop, *most in self.of_day(day, calendar):
                start, stop = [datetime.fromordinal(day) + timedelta(minutes=minutes) for minutes in (start, stop)]
                if max(low, start) < min(high, stop):
                    found.append((max(low, start), min(high, stop), *most))
        return found


class Line:
    """A line of hours: which days it is of, and what is open then."""

    def __init__(self, place, rank, days, spans, openings):
        self.place, self.rank, self.days, self.spans, self.openings = place, rank, days, spans, openings

    def is_of(self, day, calendar):
        return (self.rank == 3 or self.rank == 2 and DAYS[weekday(day)] in self.days or self.rank == 1
                and not calendar.is_work(day)
                or any(first <= day <= last for first, last in self.spans))


def openings(place, words, told):
    """What HHMM-HHMM SERVERS R1 R2 .. says, or `closed`: (start, stop, servers, R1, R2), in minutes of the day."""
    found = []
    for at in range(0, len(words) if words != ["closed"] else 0, 4):
        part = words[at:at + 4]
        times = re.fullmatch(r"([01]\d|2[0-3]|24)([0-5]\d)-([01]\d|2[0-3]|24)([0-5]\d)", part[0])
        numbers = [int(one) for one in part[1:] if re.fullmatch(r"\d\d?", one, re.A)]
        start, stop = (int(times[1]) * 60 + int(times[2]), int(times[3]) * 60 + int(times[4])) if times else (1, 0)
        if start < stop <= 1440 and len(numbers) == 3:
            found.append((start, stop, *numbers))
        else:
            told.fault(place, f"{' '.join(part)}: must be HHMM-HHMM SERVERS R1 R2, within a day, each number 0 to 99")
    found.sort()
    if any(one[1] > other[0] for one, other in zip(found, found[1:])):
        told.fault(place, "hours: they overlap")
    return found


def joined(intervals):
    """The same, those that touch and are alike as one."""
    found = []
    for one in intervals:
        if found and found[-1][1] == one[0] and found[-1][2:] == one[2:]:
            found[-1] = (found[-1][0], *one[1:])
        else:
            found.append(one)
    return found


class Times:
    """What the text says."""

    def __init__(self, path, told):
        self.folder, self.told, self.default, self.known = Path(path).parent, told, None, {}
        self.calendars, self.periods, self.hours, self.desks, self.awaits = {}, {}, {}, [], {}
        self.begin, self.mark, self.nights, block = 0, "PLAN", 0, None
        for place, words in lines_of(path, told):
            block = self.take(place, words, block)
        for calendar in self.calendars.values():
            if not calendar.week and not calendar.work:
                told.fault(calendar.place, f"calendar {calendar.name}: it has no work day")
        for one in self.hours.values():
            self.calendar(one.calendar, one.place)

    def take(self, place, words, block):
        """A line, and the block that the next one may be of."""
        kind, name = words[0], words[1] if len(words) > 1 else ""
        if kind in BLOCKS:
            return self.take_name(place, words)
        if kind == "night":
            self.take_night(place, words[1:])
        elif kind == "desk":
            self.take_desk(place, words[1:])
        elif kind == "awaits":
            self.awaits.update(dict.fromkeys(words[1:], place))
            self.judge_names(place, words[1:])
        elif block and re.fullmatch(block.LINES, kind):
            block.take(place, words, self.told)
            return block
        else:
            self.told.fault(place, f"{kind} {name}: {FORMS}")
        return None

    def take_name(self, place, words):
        """The first line of a calendar, a period or hours."""
        kind, name = words[0], words[1] if len(words) > 1 else ""
        known, most = getattr(self, BLOCKS[kind]), 4 if kind == "hours" else 16
        if not re.fullmatch(rf"[A-Z0-9@#$]{{1,{most}}}", name):
            self.told.fault(place, f"{kind} {name}: must have a name of 1 to {most} characters of A-Z, 0-9, @, # and $")
            return Calendar(name, place) if kind == "calendar" else Hours(name, place, None)        # (its lines are read, too)
        if name in known:
            self.told.fault(place, f"{kind} {name}: given before")
        elif kind == "period":
            self.take_period(place, name, words[2:])
        elif kind == "calendar":
            self.take_calendar(place, name, words[2:])
        else:
            if len(words) > 3:
                self.told.fault(place, "hours: must be `hours WS` or `hours WS CALENDAR`")
            self.hours[name] = Hours(name, place, words[2] if len(words) > 2 else None)
        return None if kind == "period" else known.get(name)

    def take_calendar(self, place, name, words):
        calendar = self.calendars[name] = Calendar(name, place)
        if "default" in words:
            words.remove("default")
            if self.default:
                self.told.fault(place, f"calendar {name}: {self.default} is the default already")
            self.default = name
        if words[:1] == ["until"] and len(words) == 2 and day_of(words[1]):
            calendar.until = day_of(words[1])
        elif words:
            self.told.fault(place, f"calendar {name}: `default` and `until DATE` may follow, and not `{' '.join(words)}`")

    def take_period(self, place, name, words):
        cyclic = re.fullmatch(r"every (\d{1,4}) (days|work days) from (\S+)", " ".join(words), re.A)
        spans = [span_of(word) for word in words[1:]]
        if cyclic and day_of(cyclic[3]) and int(cyclic[1]):
            self.periods[name] = Period(name, int(cyclic[1]), cyclic[2] == "work days", day_of(cyclic[3]))
        elif words[:1] == ["dates"] and spans and all(spans):
            ends = [first for first, _ in spans[1:]] + [LAST + 1]
            if not all(last < end for (_, last), end in zip(spans, ends)):
                self.told.fault(place, f"period {name}: its dates have to rise")
            if ".." not in words[-1]:
                self.told.fault(place, f"period {name}: its last date has no end: DATE..DATE")
            self.periods[name] = Period(name, given=[(first, last + 1 if ".." in word else end)
                                                     for (first, last), word, end in zip(spans, words[1:], ends)])
        else:
            self.told.fault(place, f"period {name}: must be `every N days from DATE`, `every N work days from DATE` or "
                            "`dates DATE ..`")
            self.periods[name] = Period(name)

    def take_night(self, place, words):
        if len(words) not in (1, 2) or minutes_of(words[0]) is None or self.nights:
            self.told.fault(place, "night: must be `night HHMM` or `night HHMM WS`, once")
            return
        self.begin, self.mark, self.nights = minutes_of(words[0]), (words[1:] or ["PLAN"])[0], 1
        self.judge_names(place, [self.mark])

    def take_desk(self, place, words):
        host, colon, port = (words or [""])[0].rpartition(":")
        if len(words) < 2 or not colon or not OWN_NAME.fullmatch(host) or not re.fullmatch(r"\d{1,5}", port, re.A):
            self.told.fault(place, "desk: must be `desk ADDRESS:PORT FILE..`: localhost or an address of digits and dots, and "
                            "the files of the statements that it plans by")
            return
        self.desks.append((words[0], [str(self.folder / word) for word in words[1:]], place))

    def judge_names(self, place, names):
        for name in names:
            if not re.fullmatch(r"[A-Z0-9@#$]{1,4}", name):
                self.told.fault(place, f"{name}: a workstation's name has 1 to 4 characters of A-Z, 0-9, @, # and $")

    def calendar(self, name, place=NOWHERE):
        """That of this name, or the default one, or the only one."""
        if not name:
            name = self.default or (next(iter(self.calendars)) if len(self.calendars) == 1 else None)
        if name not in self.calendars:
            self.told.fault(place, f"no calendar {name} is given" if name else "no calendar is named, and none is the default")
        return self.calendars.get(name)
