"""Whose time it is: the moment of a request, and what it moves."""
from clicks import read_exact
from consoles import ANSWER, ARRIVAL, CLOSED, STATIONS, answered, choose, confirm, go_to, later, place, send
from trial import judge, moment, occurrence_of, plan_of, wait_until


def try_moments(given):
    """Whose time it is, what a moment moves, and a clock that another moves meanwhile."""
    soon = moment(-5)
    plan = plan_of(STATIONS, CLOSED, occurrence_of(f"ONE/{ARRIVAL}", {10: ("CPU2", 5), 20: ("CPU2", 5)}),
                   occurrence_of(f"WAITS/{ARRIVAL}", {10: ("CPU1", 5)}, not_before=soon))
    key = f"ONE/{ARRIVAL}/010"
    with place(given, plan, moment(-10)) as site:
        page = site.browse(site.before.address)
        wait_until(lambda: "No tick for 1" in page.text("#banner"), "no tick is told")
        judge(page.js("return document.getElementById('banner').className") == "bad", "it is told in red")
        go_to(page, "op", key)
        choose(page, "Hold", "#side")
        text = page.text("#ask")
        judge("There was no tick for 1" in text and f"by the forecast WAITS/{ARRIVAL}/010" in text, "what its moment moves", text)
        judge(read_exact(page)[0]["at"] in (moment(), moment(-1)), "its moment is the wall's", text)
        page.click("Leave it", "#ask")
        choose(page, "Tick now", "#banner")
        send(page)
        answered(page, what="a tick")
        judge("WAITS 10" in page.text("#ask"), "it names what waited", page.text("#ask"))
        page.click("Close", "#ask")
        wait_until(lambda: "No tick" not in page.text("#banner"), "the banner goes")
        try_past(site, page, key)
    with place(given, plan_of(STATIONS, occurrence_of(f"ONE/{ARRIVAL}", {10: ("SET1", 5)})), moment(-3000)) as site:
        page, old = site.browse(site.before.address), site.desk.clock()
        wait_until(lambda: "2 days behind" in page.text("#banner"), "a desk that stood still")
        go_to(page, "op", key)
        choose(page, "Hold", "#side")
        judge(confirm(site, page)["at"] == old, "then its moment is the plan's clock")
        other = site.browse(site.start_door(site.address, "--clock", "desk"))
        judge(other.text("#banner") == "" and other.text("#wall") == "" and other.text("#clock") == old[11:],
              "a plan of another day",
              other.text("#banner"))
    return "lags of ten minutes and two days, a clock ahead"


def try_past(site, page, key):
    """Somebody sets the clock ahead while a dialog is open."""
    choose(page, "Hold", "#side")
    first = read_exact(page)[0]["at"]
    ahead = later(first, 3)
    site.do("tick", ahead)
    send(page)
    page.until(f"document.querySelector('{ANSWER}')?.textContent", "an answer")
    text = page.text("#ask")
    if "accepted" not in text:      # (a look that came in between would have renewed its moment)
        judge("refused 1 Past" in text and f"The plan's clock is {ahead}" in text
              and "What to do: " in text,
              "it is refused, with the clock", text)
    page.click("Close", "#ask")
    wait_until(lambda: "minutes ahead: requests go by the plan's" in page.text("#banner"), "the banner says so")
    choose(page, "Release" if "accepted" in text else "Hold", "#side")
    judge(read_exact(page)[0]["at"] == ahead, "its moment is the clock's", page.text("#exact"))
    site.do("tick", later(ahead))
    wait_until(lambda: read_exact(page)[0]["at"] == later(ahead), "it is renewed while it is open")
    confirm(site, page)
