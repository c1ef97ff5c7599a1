"""What isn't asked of one operation, by a click: occurrences, special resources, intervals; and what a rerun reaches."""
import time

from clicks import read_exact
from consoles import ARRIVAL, CLOSED, STATIONS, choose, confirm, fill, go_to, place, renew, standing
from trial import judge, moment, occurrence_of, plan_of, wait_until


def try_facilities(given):
    """What isn't asked of an operation: an occurrence comes and goes, a resource, intervals, the clock."""
    with place(given) as site:
        page = site.browse(site.before.address)
        choose(page, "Take away", "#resources")
        judge(confirm(site, page)["value"] is False and site.desk.rows("/show/resources")[0][1] == "N",
              "a resource is taken away")
        choose(page, "Make available", "#resources")
        judge(confirm(site, page)["value"] is True and site.desk.rows("/show/resources")[0][1] == "Y", "it is available again")
        choose(page, "Add an occurrence", "#occurrences")
        fill(page, records=f"O,NEW,{ARRIVAL},5,{moment(600)},,,,,\nP,NEW,{ARRIVAL},10,CPU1,x,0,0,,\n")
        page.click("Check it", "#ask")
        page.until("document.querySelector('#ask pre[role=status]').textContent", "a check")
        fill(page, records=f"O,NEW,{ARRIVAL},5,{moment(600)},,,,,\nP,NEW,{ARRIVAL},10,CPU1,5,0,0,,\n")
        judge(confirm(site, page)["do"] == "add", "an occurrence comes in")
        wait_until(lambda: "NEW" in page.text("#occurrences"), "it is shown")
        change_intervals(site, page)
        try_neighbours(site, page)
        go_to(page, "occ", f"ONE/{ARRIVAL}")
        choose(page, "Delete the occurrence", "#side")
        judge("It will be refused 17 Running: report the end of ONE/" in page.text("#ask"), "what it will be refused",
              page.text("#ask"))
        confirm(site, page, "refused 17 Running")
        site.do("ended", site.desk.clock(), op=f"ONE/{ARRIVAL}/010")
        site.do("ended", site.desk.clock(), op=f"ONE/{ARRIVAL}/020")
        choose(page, "Delete the occurrence", "#side")
        judge("refused" not in page.text("#ask") and confirm(site, page)["do"] == "delete", "an occurrence goes")
        wait_until(lambda: page.text("#side p .tag").startswith("D"), "it is shown as deleted")
        go_to(page, "op", f"NEW/{ARRIVAL}/010")
        site.do("ended", site.desk.clock(), op=f"NEW/{ARRIVAL}/010")
        renew(page)
        go_to(page, "op", f"NEW/{ARRIVAL}/010")
        choose(page, "Rerun", "#side")
        judge("It reaches 1 operation." in page.text("#ask"), "what it reaches", page.text("#ask"))
        page.click("Leave it", "#ask")
        judge(not page.faults(), "the browser's log", page.faults())
        return "resource, addition, intervals, deletion"


def change_intervals(site, page):
    """A workstation gets other intervals, of which the next request begins with the new ones."""
    go_to(page, "ws", "CPU1")
    choose(page, "Give it other intervals", "#side")
    lines = page.js("return document.querySelector('#ask textarea').value")
    judge(lines == "1972-01-01T00:00 2071-12-31T23:59 99 0 0", "all of them stand there", lines)
    fill(page, lines=f"{ARRIVAL} 2030-01-01T00:00 7 1 2\n2030-01-01T00:00, 2031-01-01T00:00, 8, 0, 0")
    judge(confirm(site, page)["intervals"] == [[ARRIVAL, "2030-01-01T00:00", 7, 1, 2],
                                               ["2030-01-01T00:00", "2031-01-01T00:00", 8, 0, 0]],
          "intervals")
    judge(site.desk.rows("/show/workstations")[0][5] == "7", "they are open")
    wait_until(lambda: "servers 8, R1 0, R2 0" in page.text("#side"), "they are shown")
    choose(page, "Give it other intervals", "#side")
    lines = page.js("return document.querySelector('#ask textarea').value")
    judge(lines == f"{ARRIVAL} 2030-01-01T00:00 7 1 2\n2030-01-01T00:00 2031-01-01T00:00 8 0 0", "the new ones stand there",
          lines)
    page.click("Leave it", "#ask")


def try_neighbours(site, page):
    """Of two operations that look alike each button stands for its own, and the focus stays in its row."""
    for number in ("110", "120"):
        site.do("add", site.desk.clock(), records=occurrence_of(f"N{number}/{ARRIVAL}", {10: ("CPU2", 5), 20: ("SET1", 5)}))
    renew(page)
    for name in ("N110", "N120"):
        go_to(page, "op", f"{name}/{ARRIVAL}/010")
    choose(page, "Hold", "#side")
    judge(read_exact(page)[0]["op"] == f"N120/{ARRIVAL}/010", "the second is asked for", page.text("#exact"))
    confirm(site, page)
    page.click("Close", "#side")
    wait_until(lambda: [row.split()[0] for row in page.texts("#hand li")] == ["N110", "N120"], "two by hand")
    page.js("document.querySelectorAll('#hand button')[1].focus()")
    site.do("hold", site.desk.clock(), op=f"N110/{ARRIVAL}/010")
    page.js("window.dispatchEvent(new Event('storage'))")
    time.sleep(0.2)
    judge(page.js("return document.activeElement.closest('li').textContent").startswith("N120"), "the focus stays in its row")
    page.press("ENTER")
    page.until("document.querySelector('#ask[open] #send')", "a dialog")
    judge(read_exact(page)[0]["op"] == f"N120/{ARRIVAL}/020", "it stands for its own", page.text("#exact"))
    page.click("Leave it", "#ask")


def try_reach(given):
    """A rerun tells what it reaches, what runs again, and what it will be refused."""
    plan = plan_of(STATIONS, CLOSED,
                   occurrence_of(f"ONE/{ARRIVAL}", {10: ("CPU1", 5), 20: ("CPU1", 5), 30: ("CPU1", 5), 40: ("CPU2", 5)},
                                                   [(10, 20), (20, 30), (20, 40)]),
                   occurrence_of(f"TWO/{ARRIVAL}", {10: ("CPU2", 5)}) + f"D,ONE,{ARRIVAL},40,TWO,{ARRIVAL},10,,,\n")
    with place(given, plan) as site:
        for do, number in (("ended", "010"), ("ended", "020")):
            site.do(do, site.desk.clock(), op=f"ONE/{ARRIVAL}/{number}")
        page = site.browse(site.before.address)
        go_to(page, "op", f"ONE/{ARRIVAL}/010")
        choose(page, "Rerun", "#side")
        text = page.text("#ask")
        judge("It reaches 5 operations, of which 1 complete will run again." in text
              and page.text("#send") == "Rerun 5 operations", "the reach", text)
        judge(f"It will be refused 17 Running: report the end of ONE/{ARRIVAL}/030 first." in text, "what it will be refused",
              text)
        rows = page.texts("#ask .box li")
        judge([row[:len(f"ONE/{ARRIVAL}/010")] for row in rows] == [f"ONE/{ARRIVAL}/{number}"
                                                                    for number in ("010", "030", "020", "040")]
              + [f"TWO/{ARRIVAL}/010"], "what runs stands first, then what is complete", rows)
        confirm(site, page, "refused 17 Running")
        site.do("ended", site.desk.clock(), op=f"ONE/{ARRIVAL}/030")
        choose(page, "Rerun", "#side")
        judge("of which 2 complete will run again" in page.text("#ask") and "refused" not in page.text("#ask"),
              "then it won't be", page.text("#ask"))
        confirm(site, page)
        judge(standing(site, f"ONE/{ARRIVAL}/030") == "W--", "it has acted")
        return "what a rerun reaches"
