"""Answers that are lost, at each place."""
import json
import threading
import time

from consoles import (ARRIVAL, CLOSED, STATIONS, answered, ask, doubt, go_to, later, lose, place, renew, settled, standing)
from trial import judge, kill, occurrence_of, plan_of, wait_until


def try_lost(given):
    """Answers that are lost, at each place."""
    numbers = {number: ("CPU2", 5) for number in range(10, 130, 10)}
    plan = plan_of(STATIONS, CLOSED, occurrence_of(f"ONE/{ARRIVAL}", numbers),
                   occurrence_of(f"HAND/{ARRIVAL}", {10: ("SET1", 5)}))
    with place(given, plan) as site:
        page = site.browse(site.before.address)
        keys = iter(f"ONE/{ARRIVAL}/{number:03}" for number in numbers)
        for trial in (lose_before_door, lose_behind_door, lose_before_desk, lose_behind_desk, lose_late, lose_too_late,
                      lose_reload,
                      lose_again_refused, lose_answers, lose_without_store, lose_without_door, lose_kept):
            key = f"HAND/{ARRIVAL}/010" if trial is lose_again_refused else next(keys)
            go_to(page, "op", key)
            trial(site, page, key)
            page = site.browsers[-1]
            settled(page)
            judge(not page.faults(), f"the browser's log behind {trial.__name__}", page.faults())
        lose_closed(site, next(keys))
        return ("before and behind door and desk, late, reloads, closed, a door and a store that go; on a kept connection the "
                f"browser sent one POST {site.repeats} times by itself")


def lose_before_door(site, page, key):
    """The door doesn't know it, so it isn't sent: a person sends the same once more."""
    at, before = lose(site, page, site.before, "before")
    buttons = doubt(page, "not", "open")
    judge(len(site.asked()) == before and "I have looked" not in buttons and "It acted" not in buttons,
          "nothing is sent by itself", buttons)
    text = json.loads(page.text("#ask pre"))
    page.click("Send the same once more", "#ask")
    answered(page, what="an answer")
    asked = [json.loads(body) for body, _, _ in site.asked()[before:]]
    judge(asked == [text] and text["at"] == at, "the same, once", asked, text)
    page.click("Close", "#ask")


def lose_behind_door(site, page, key):
    """The door tells it again."""
    _, before = lose(site, page, site.before, "behind")
    answered(page, what="the answer")
    tries = [fields["Request-Try"] for fields, _ in site.before.posts[-2:]]
    judge(len(site.asked()) == before + 1 and tries == ["first", "repeat"], "it is asked once", tries)
    page.click("Close", "#ask")


def lose_before_desk(site, page, key):
    """It hasn't acted, and can't once the clock is past its moment."""
    at, before = lose(site, page, site.behind, "before")
    judge("Send the same once more" in doubt(page, "not", "open"), "a person may send it once more")
    site.do("tick", at)
    time.sleep(6)
    doubt(page, "not", "open")
    site.do("tick", later(at))
    buttons = doubt(page, "not", "over")
    judge("Send the same once more" not in buttons and "I have looked" in buttons, "it can't be sent then", buttons)
    page.click("I have looked", "#ask")
    judge(len(site.asked("hold")) == len([1 for body, _, _ in site.asked()[:before] if '"hold"' in body]), "nothing was sent")


def lose_behind_desk(site, page, key):
    """It has acted, and that is seen."""
    _, before = lose(site, page, site.behind, "behind")
    buttons = doubt(page, "acted", "open")
    judge("It acted" in buttons and "Send the same once more" not in buttons and len(site.asked()) == before + 1, "it acted",
          buttons)
    page.click("It acted", "#ask")


def lose_late(site, page, key):
    """It lies somewhere, and acts while it still may."""
    at, before = lose(site, page, site.behind, "late")
    doubt(page, "not", "open")
    site.behind.go.set()
    wait_until(lambda: "It acted" in doubt(page, "acted", "open"), "it is seen that it acted")
    page.click("It acted", "#ask")
    site.behind.go.clear()
    site.behind.passed_late.clear()


def lose_too_late(site, page, key):
    """It lies somewhere until its moment is over: what the page says then is so."""
    at, before = lose(site, page, site.behind, "late")
    doubt(page, "not", "open")
    site.do("tick", later(at))
    doubt(page, "not", "over")
    site.behind.go.set()
    wait_until(site.behind.passed_late.is_set, "it comes to the desk")
    judge(standing(site, key) == "A--" and site.asked()[-1][2] == 409, "it couldn't act any more", site.asked()[-1])
    page.click("I have looked", "#ask")
    site.behind.go.clear()


def lose_reload(site, page, key):
    """While one is in doubt nothing else is sent, also after a reload; a phone tells it whatever is open."""
    page.size(390, 844, is_phone=True)
    lose(site, page, site.behind, "before")
    doubt(page, "not", "open")
    sent_, text = len(site.behind.posts), page.text("#ask pre")
    page.driver.refresh()
    page.until("document.getElementById('banner').innerText.includes('has no answer yet')", "the banner tells it")
    judge(len(site.behind.posts) == sent_, "a reload sends nothing", site.behind.posts[sent_:])
    go_to(page, "op", key)
    page.click("Make it a NOP", "#side")
    doubt(page, "not", "open")
    judge(page.text("#ask pre") == text and len(site.behind.posts) == sent_, "another request isn't sent: the doubt is shown",
          page.text("#ask"))
    page.press("ESCAPE")
    judge(not page.js("return document.getElementById('side').hidden"), "the operation is open still")
    page.click("Look", "#banner")
    doubt(page, "not", "open")
    page.click("Send the same once more", "#ask")
    answered(page)
    page.click("Close", "#ask")
    page.size(1400, 1000)


def lose_again_refused(site, page, key):
    """A refusal of the second says nothing of the first."""
    at, _ = lose(site, page, site.behind, "before")
    doubt(page, "not", "open")
    site.do("started", site.desk.clock(), op=key)
    page.click("Send the same once more", "#ask")
    page.until("document.getElementById('doubt')?.innerText.includes('answered refused 9 WrongStatus')",
               "the refusal of the second")
    judge("The first may have acted" in page.text("#ask") and "nothing has changed" not in page.text("#ask"),
          "it isn't taken for the first's",
          page.text("#ask"))
    site.do("tick", later(at))
    doubt(page, "not", "over")
    page.click("I have looked", "#ask")


def lose_answers(site, page, key):
    """Which of the desk's faults are answers."""
    for refusal, name, is_open in ((25, "Memory", False), (26, "Store", True), (27, "Reopen", False), (0, "", True)):
        body = json.dumps({"name": name, "refusal": refusal} if refusal else {"error": 503}).encode()
        site.behind.answer = (503, "application/json", body)
        at, _ = lose(site, page, site.behind, None)
        if is_open:
            doubt(page, "not", "open")
            site.do("tick", later(at))
            doubt(page, "not", "over")
            page.click("I have looked", "#ask")
        else:
            answered(page, f"refused {refusal} {name}")
            judge("What to do: " in page.text("#ask"), "in words", page.text("#ask"))
            page.click("Close", "#ask")
        site.behind.answer = None


def lose_without_store(site, page, key):
    """What can't be kept isn't sent."""
    page.js("Storage.prototype.setItem = () => { throw new DOMException('full', 'QuotaExceededError') }")
    before = len(site.before.posts)
    lose(site, page, site.before, None)
    page.until("document.getElementById('ask').innerText.includes('Nothing was sent')", "it is told")
    judge(len(site.before.posts) == before, "nothing is sent", site.before.posts[before:])
    renew(page)


def lose_without_door(site, page, key):
    """The door is killed while it waits, and comes back: it doesn't know the request, and sends nothing."""
    site.behind.hold = threading.Event()
    at, before = lose(site, page, site.behind, None)
    wait_until(lambda: site.behind.posts and key in site.behind.posts[-1][1], "the door has sent it")
    sent_ = len(site.behind.posts)
    kill(site.doors[0])
    site.start_door(site.behind.address, port=int(site.door.rpartition(":")[2]))
    page.until("document.getElementById('doubt')", "a doubt")
    judge(len(site.behind.posts) == sent_, "nothing is sent again", site.behind.posts[sent_:])
    site.behind.hold.set()
    site.behind.hold = None
    doubt(page, "acted", "open")
    page.click("It acted", "#ask")


def lose_kept(site, page, key):
    """On a connection that is kept the browser sends a POST again by itself, and the door tells the desk's one answer; where a
    door keeps none, the page asks nobody."""
    keeping = site.relay(site.door, is_kept=True)
    page = site.browse(keeping.address)
    go_to(page, "op", key)
    _, before = lose(site, page, keeping, "behind")
    answered(page, what="the answer")
    posts = [fields for fields, body in keeping.posts if key in body]
    judge(len(site.asked()) == before + 1 and len({fields["Request-Id"] for fields in posts}) == 1, "it is asked once", posts)
    site.repeats = len([1 for fields in posts if fields["Request-Try"] == "first"])
    page.click("Close", "#ask")
    me = json.loads(ask(site.door, "GET", "/me")[1])
    keeping.me = {**me, "once": False}
    renew(page)
    go_to(page, "op", key)
    at, _ = lose(site, page, keeping, "all", "Release")
    doubt(page, "not", "open")
    judge({fields["Request-Try"] for fields, body in keeping.posts if '"release"' in body} == {"first"}, "the page asks nobody",
          keeping.posts[-3:])
    keeping.lose, keeping.me = None, None
    site.do("tick", later(at))
    doubt(page, "not", "over")
    page.click("I have looked", "#ask")


def lose_closed(site, key):
    """The browser is closed while it waits, and opened again."""
    site.behind.hold = threading.Event()
    profile = site.folder / "own-profile"
    page = site.browse(site.before.address, profile=profile)
    go_to(page, "op", key)
    lose(site, page, site.behind, None)
    wait_until(lambda: key in site.behind.posts[-1][1], "it is sent")
    sent_ = len(site.behind.posts)
    page.end()
    site.browsers.remove(page)
    site.behind.hold.set()
    site.behind.hold = None
    page = site.browse(site.before.address, profile=profile)
    page.until("document.getElementById('banner').innerText.includes('has no answer yet')", "it is kept")
    page.click("Look", "#banner")
    answered(page, what="the door tells what it was answered")
    judge(len(site.behind.posts) == sent_, "nothing is sent", site.behind.posts[sent_:])
    page.click("Close", "#ask")
    settled(page)
