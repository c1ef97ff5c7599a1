"""The example night, and what is kept of it: a model of the rules made that."""
import re

from trial import HERE, judge

NIGHT = HERE.parent / "examples/night"
PLAN, BEGIN = (NIGHT / "night.csv").read_text(), "2024-03-01T19:30"


def play(site):
    """A desk that has the plan is asked what leads to 21:09."""
    for line in (NIGHT / "requests.jsonl").read_text().splitlines()[:24]:
        site.desk.ask("POST", "/operator", line.encode())


def forecast():
    """The kept forecast at 21:09: the rows of its first four parts."""
    text = (NIGHT / "forecasts.txt").read_text().split("\n\n")[1]
    judge(text.startswith("FORECAST OF OCCURRENCES FROM 2024-03-01T21:09"), "the kept forecast", text[:80])
    parts = re.split(r"(?m)^END \d+\n?", text)[:4]
    return [[line.split() for line in part.splitlines()[1:]] for part in parts]
