"""The largest plan, and twenty pages at once."""
import json
import os
import sys
import time
from concurrent.futures import ThreadPoolExecutor
from pathlib import Path

from clicks import Browser
from consoles import Place, ask, later
from trial import HERE, done, judge, room

WATCH = """new MutationObserver((_, watcher) => {
    if (!document.getElementById('asked')) return;
    watcher.disconnect();
    requestAnimationFrame(() => setTimeout(() => { window.drawn = performance.now() }));
}).observe(document, {childList: true, subtree: true})"""
LAST_LOOK = """return Math.max(...performance.getEntriesByType('resource')
    .filter(one => !/[.]|me$/.test(one.name.slice(22))).map(one => one.responseEnd))"""
PAGE_LOOKS = ["/me", "/health", "/report/occurrences", "/report/errors", "/report/late", "/show/started", "/show/workstations",
              "/show/resources", "/show/trackers", "/forecast"]


def try_large(given):
    """The largest plan: drawn within a second of its looks; and twenty pages cost the desk's thread three seconds of thirty."""
    with room() as folder:
        site = Place(given.plandesk, folder)
        try:
            plan = site.folder / "large.csv"
            done(sys.executable, HERE.parent / "bench/generate.py", 20000, plan)
            site.load(plan.read_text(), "2024-03-01T12:00")
            site.start_desk("--ahead", "5256000")
            door = site.start_door(site.address, "--clock", "desk")
            drawn = draw_large(site, door)
            used = look_as_twenty(site, door)
            judge(used <= 3, "twenty pages cost the desk at most three seconds of thirty", used)
            return f"{drawn}; twenty pages cost the desk {used:.2f} s of thirty"
        finally:
            site.end()


def draw_large(site, door):
    """How long the page's thread works until it is drawn, which no other work on the machine makes longer."""
    page = Browser(site.folder)
    site.browsers.append(page)
    lead = page.driver.execute_cdp_cmd
    lead("Page.addScriptToEvaluateOnNewDocument", {"source": WATCH})
    lead("Performance.enable", {"timeDomain": "threadTicks"})
    worked, behind = [], []
    for _ in range(5):
        page.open(f"http://{door}/console")
        page.until("window.drawn", "it is drawn")
        worked.append({one["name"]: one["value"] for one in lead("Performance.getMetrics", {})["metrics"]}["TaskDuration"])
        behind.append((page.js("return window.drawn") - page.js(LAST_LOOK)) / 1000)
    judge(max(worked) < 1 and min(behind) < 2, "the page is drawn within a second", worked, behind)
    judge(len(page.texts("#occurrences tbody tr")) == 200 and "and 4800 more: search" in page.text("#occurrences"),
          "lists end at 200")
    page.driver.find_element("id", "search").send_keys("H00")
    page.until("document.querySelectorAll('#found li').length === 20", "a search")
    page.end()
    site.browsers.remove(page)
    return f"drawn by {max(worked):.2f} s of work, at best {min(behind):.2f} s behind its looks"


def look_as_twenty(site, door):
    """Seconds of processor that the desk takes for twenty pages in thirty seconds, in which the clock moves once."""
    def used():
        words = Path(f"/proc/{site.process.pid}/stat").read_text().rpartition(")")[2].split()
        return (int(words[11]) + int(words[12])) / os.sysconf("SC_CLK_TCK")
    end = time.monotonic() + 31

    def look(turn):
        time.sleep(turn * 1.5)
        clock, seen = None, 0
        while time.monotonic() < end:
            now = json.loads(ask(door, "GET", "/health")[1])["clock"]
            if now != clock or time.monotonic() - seen > 30:
                for path in PAGE_LOOKS:
                    ask(door, "GET", path)
                clock, seen = now, time.monotonic()
            time.sleep(5)
    for path in PAGE_LOOKS:         # (all twenty are open before)
        ask(door, "GET", path)
    time.sleep(1)
    before = used()
    with ThreadPoolExecutor(21) as pool:
        looking = [pool.submit(look, turn) for turn in range(20)]
        time.sleep(15)
        asked = used()
        site.do("tick", later(site.desk.clock()))
        asked = used() - asked      # the tick itself isn't the pages'
        for one in looking:
            one.result()
    return used() - before - asked
