"""A console before a desk, and what trials do at its page."""
import datetime
import http.client
import json
import os
import pwd
import subprocess
import threading
from contextlib import contextmanager

from clicks import Browser
from relay import Added, Relay
from common import MINUTE
from trial import HERE, Site, free_port, judge, moment, occurrence_of, plan_of, room, wait_until

ME = pwd.getpwuid(os.geteuid()).pw_name
STATIONS = {"CPU1": ("A", 99), "SET1": ("S", 99), "PRT1": ("C", 1), "WAIT": ("N", 1)}
CLOSED = "W,CPU2,A,,,,,,,\nX,TAPE,Y,,,,,,,\n"        # a workstation that never opens, and a special resource
ANSWER = "#ask[open] > p > .tag"
ARRIVAL = "2026-01-01T00:00"
SIGNS = {"acted": "This is how it would be had it acted.", "not": "This isn't how it would be had it acted",
         "open": "it still may act", "over": "It can't act any more"}


class Place(Site):
    """A site with a console before its desk: a relay between door and desk, and one between browser and door."""

    def __init__(self, program, folder):
        super().__init__(program, folder)
        self.relays, self.browsers, self.doors = [], [], []

    def relay(self, *words, **more):
        self.relays.append(Relay(*words, **more))
        return self.relays[-1]

    def start_door(self, desk, *words, port=None):
        """A door, and its address."""
        port = port or free_port()
        said = open(self.folder / "console.said", "ab")
        process = subprocess.Popen([HERE / "console", "--desk", desk, "--port", str(port), *map(str, words)], cwd=self.folder,
                                   stdout=subprocess.PIPE, stderr=said)
        said.close()
        told = process.stdout.readline()
        judge(told == b"listening\n", "a door that listens", told, (self.folder / "console.said").read_text())
        threading.Thread(target=lambda: [None for _ in process.stdout], daemon=True).start()
        self.started.append(process)
        self.doors.append(process)
        return f"127.0.0.1:{port}"

    def browse(self, address, **more):
        self.browsers.append(Browser(self.folder, **more))
        self.browsers[-1].open(f"http://{address}/console")
        drawn(self.browsers[-1])
        return self.browsers[-1]

    def asked(self, do=None):
        """The requests of operators in the journal, but for ticks: body, who asked, and status."""
        found = []
        for line in (self.folder / "night.journal").read_text().splitlines():
            entry = json.loads(line)
            if "path" in entry:
                found.append([entry["body"], entry.get("by"), None])
            else:
                found[-1][2] = entry["status"]
        return [one for one in found if do is None or json.loads(one[0])["do"] == do]

    def end(self):
        try:
            for one in self.browsers:
                one.end()
        finally:
            super().end()
            for one in self.relays:
                one.end()


@contextmanager
def place(given, plan=None, at=None):
    """A desk with this plan, a relay before it, a door before that, and a relay before the door."""
    with room() as folder:
        site = Place(given.plandesk, folder)
        try:
            records = plan or plan_of(STATIONS, CLOSED,
                                      occurrence_of(f"ONE/{ARRIVAL}", {10: ("CPU1", 5), 20: ("CPU1", 5)}, [(10, 20)]))
            site.load(records, at or moment())
            site.start_desk()
            site.behind = site.relay(site.address, Added(records, site.address, given.plandesk))
            site.door = site.start_door(site.behind.address)
            site.before = site.relay(site.door)
            yield site
        finally:
            site.end()


def ask(address, method, path, body=None, **fields):
    """Status and body; underscores in names of fields are hyphens."""
    host, _, port = address.rpartition(":")
    connection = http.client.HTTPConnection(host, int(port), timeout=60)
    try:
        connection.request(method, path, body, {name.replace("_", "-"): value for name, value in fields.items()})
        reply = connection.getresponse()
        return reply.status, reply.read().decode()
    finally:
        connection.close()


def tick():
    return json.dumps({"at": moment(), "do": "tick"})


def later(moment_, minutes=1):
    return (datetime.datetime.strptime(moment_, MINUTE) + datetime.timedelta(minutes=minutes)).strftime(MINUTE)


def standing(site, key):
    """Status, hold and NOP of an operation, as `show` has them."""
    row, = [row for row in site.desk.rows(f"/show/operations/{key.rpartition('/')[0]}") if int(row[0]) == int(key[-3:])]
    return "".join(row[2:5])


def go_to(page, kind, key):
    """Opens an operation, an occurrence or a workstation beside the page, drawn anew."""
    page.js("location.hash = ''; location.hash = `${arguments[0]}=${encodeURIComponent(arguments[1])}`", kind, key)
    is_open = f"document.querySelector('#side h1')?.textContent === {json.dumps(key)}"
    page.until(is_open + " && !document.getElementById('side').hidden", f"{key} is opened")


def drawn(page, what="the page is drawn"):
    page.until("document.querySelectorAll('main section').length > 9", what)


def choose(page, title, within):
    """Clicks the button of a request; its dialog is open then, and nothing is sent."""
    page.click(title, within)
    page.until("document.querySelector('#ask[open] #send')", f"the dialog of {title}")


def send(page):
    page.driver.find_element("id", "send").click()


def send_twice(page):
    """The body that is shown as it is clicked, twice in one turn."""
    lines = page.js("const text = document.getElementById('exact').textContent, send = document.getElementById('send');"
                    "send.click(); send.click(); return text")
    judge(lines.startswith("POST /operator\n"), "what is shown is a request", lines)
    return lines.partition("\n")[2]


def answered(page, told="accepted", what="an answer"):
    """What the dialog shows is an answer, which begins so."""
    page.until(f"document.querySelector('{ANSWER}')?.textContent", what)
    judge(page.text(ANSWER).startswith(told), f"answered {told}", page.text("#ask"))


def fill(page, **fields):
    for name, text in fields.items():
        box = page.driver.find_element("name", name)
        box.clear()
        box.send_keys(text)


def confirm(site, page, told="accepted"):
    """Sends what the dialog shows; what was sent, which stands in the journal once, as it was shown."""
    before = len(site.asked())
    exact = send_twice(page)
    answered(page, told)
    asked = site.asked()[before:]
    judge([(body, by) for body, by, _ in asked] == [(exact, ME)], "what is shown is what is sent, once", exact, asked)
    page.click("Close", "#ask")
    return json.loads(exact)


def renew(page):
    """Has the page look at all anew."""
    page.open(page.driver.current_url.split("#")[0])
    drawn(page)


def lose(site, page, relay, how, do="Hold"):
    """Asks for something whose answer is lost; the moment of what was asked, and how often the desk was asked for it."""
    choose(page, do, "#side")
    relay.lose, before = how, len(site.asked())
    return json.loads(send_twice(page))["at"], before


def doubt(page, *signs):
    """The page shows a doubt, with just these signs."""
    page.until("document.getElementById('doubt')", "a doubt")
    wait_until(lambda: {sign for sign, words in SIGNS.items() if words in page.text("#ask")} == set(signs),
               f"a doubt: {signs}: {page.text('#ask')}")
    return page.texts("#ask button")


def settled(page):
    """Nothing is in doubt in this browser."""
    kept = page.js("return Object.keys(localStorage).filter(name => name.startsWith('plandesk.asked.'))")
    judge(kept == [], "nothing is in doubt", kept, page.text("#banner"))
