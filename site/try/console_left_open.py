"""Two tabs, and a page that is left open over restarts."""
import threading
import time

from consoles import ARRIVAL, answered, choose, confirm, doubt, drawn, go_to, lose, place, send, standing
from trial import judge, kill, moment, wait_until


def try_tabs(given):
    """One request at a time, over all tabs."""
    with place(given) as site:
        key = f"ONE/{ARRIVAL}/020"
        page = site.browse(site.before.address)
        first = page.driver.current_window_handle
        page.driver.switch_to.new_window("tab")
        tabs = first, page.driver.current_window_handle
        page.open(f"http://{site.before.address}/console")
        drawn(page, "the second tab")
        ask_in_both(site, page, tabs, key)
        doubt_in_both(site, page, tabs, key)
        return "two tabs, one request at a time"


def ask_in_both(site, page, tabs, key):
    """Both have a dialog open; while the first's request is under way the second sends nothing, and tells of it."""
    to = page.driver.switch_to.window
    for tab, what in zip(tabs, ("Hold", "Make it a NOP")):
        to(tab)
        go_to(page, "op", key)
        choose(page, what, "#side")
    to(tabs[0])
    site.behind.hold, before = threading.Event(), len(site.before.posts)
    send(page)
    wait_until(lambda: len(site.before.posts) == before + 1, "the first is sent")
    to(tabs[1])
    page.js("document.getElementById('send').click()")
    time.sleep(1)
    judge(len(site.before.posts) == before + 1, "the second sends nothing meanwhile", site.before.posts[before:])
    page.press("ESCAPE")
    page.until("document.getElementById('banner').innerText.includes('has no answer yet')", "the second tab tells it")
    page.click("Make it a NOP", "#side")
    page.until("document.getElementById('ask').innerText.includes('It has no answer yet')", "what another tab asked is shown")
    tries = lambda: [fields["Request-Try"] for fields, _ in site.before.posts[before:]]
    wait_until(lambda: tries() == ["first", "repeat"], "and asked about")
    judge("Hold" in page.text("#title"), "it is the first's", page.text("#ask"))
    judge(len(site.behind.posts) == 1, "the desk is asked once", site.behind.posts)
    site.behind.hold.set()
    site.behind.hold = None
    for tab in reversed(tabs):
        to(tab)
        answered(page, what="each tab has the answer")
        page.click("Close", "#ask")
    to(tabs[1])
    choose(page, "Make it a NOP", "#side")
    confirm(site, page)
    judge(standing(site, key)[1:] == "HN", "each acted once", standing(site, key))


def doubt_in_both(site, page, tabs, key):
    """Both show one doubt: of two who want it sent once more one sends it."""
    to = page.driver.switch_to.window
    to(tabs[0])
    lose(site, page, site.before, "before", "Release")
    doubt(page, "not", "open")
    to(tabs[1])
    page.click("Look", "#banner")
    doubt(page, "not", "open")
    site.behind.hold, before = threading.Event(), len(site.before.posts)
    page.click("Send the same once more", "#ask")
    wait_until(lambda: len(site.before.posts) == before + 1, "it is sent once more")
    to(tabs[0])
    page.click("Send the same once more", "#ask")
    page.until("document.getElementById('ask').innerText.includes('Nothing was sent: another tab')", "the other tab is told")
    tries = [fields["Request-Try"] for fields, _ in site.before.posts[before:]]
    judge(tries.count("again") == 1, "by one tab", tries)
    site.behind.hold.set()
    site.behind.hold = None
    to(tabs[1])
    answered(page)
    judge(len(site.asked("release")) == 1 and standing(site, key)[1:] == "-N", "it acted, once", site.asked("release"))


def try_restart(given):
    """A page that is left open over restarts of desk and door."""
    with place(given) as site:
        door, key = site.start_door(site.address), f"ONE/{ARRIVAL}/020"
        page = site.browse(door)
        site.kill_desk()
        page.until("document.getElementById('banner').innerText.includes(\"The desk isn't there (502). What is shown is \")",
                   "no desk")
        go_to(page, "op", key)
        judge("nothing was sent" in page.text("#side"), "what is asked then", page.text("#side"))
        site.start_desk("--at", moment())
        wait_until(lambda: page.text("#banner") == "", "the desk is back")
        kill(site.doors[-1])
        page.until("document.getElementById('banner').innerText.includes('What is shown is ')", "no door")
        site.start_door(site.address, port=int(door.rpartition(":")[2]))
        wait_until(lambda: page.text("#banner") == "", "the door is back")
        wait_until(lambda: "waiting" in page.text("#side"), "what is open is drawn anew")
        choose(page, "Hold", "#side")
        confirm(site, page)
        return "a desk and a door that go and come"
