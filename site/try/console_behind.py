"""The console behind nginx, by a certificate, and before a replica."""
import http.server
import json
import os
import shutil
import subprocess
import threading
from contextlib import contextmanager
from importlib.machinery import SourceFileLoader
from importlib.util import module_from_spec, spec_from_loader

from browser import Browser as Certified
from clicks import Browser
from consoles import (ARRIVAL, ME, STATIONS, Place, answered, ask, choose, doubt, drawn, go_to, place, send, send_twice, settled,
                      tick)
from relay import Added
from trial import HERE, Wrong, done, free_port, judge, moment, occurrence_of, plan_of, room, wait_until


def try_front(given):
    """Behind nginx: by a certificate, whose name stands in the journal; a page of another site does nothing."""
    loader = SourceFileLoader("front_trial", str(HERE / "try/front"))
    front_trial = module_from_spec(spec_from_loader("front_trial", loader))
    loader.exec_module(front_trial)
    missing = [name for name in ("nginx", "openssl", "certutil", "pk12util", "unshare") if not shutil.which(name)]
    if missing or os.geteuid() != 0:
        raise Wrong(f"it can't be tried: {missing or 'root is needed'}")
    with place(given) as site:
        front_trial.make_authority(site.folder, "ca")
        front_trial.make_certificate(site.folder, "server", "/CN=localhost",
                                     extension="subjectAltName=DNS:localhost,IP:127.0.0.1")
        for name in ("operator", "tracker"):
            front_trial.make_certificate(site.folder, name, front_trial.SUBJECTS[name])
        done("openssl", "ca", "-config", "ca.cnf", "-gencrl", "-out", "ca.crl", cwd=site.folder)
        door = site.start_door(site.behind.address, "--trust", ME)
        front = front_trial.Front(site.folder, door)
        try:
            ask_by_certificate(front)
            page = browse_by_certificate(site, front)
            judge(page.text("#me") == "anna", "who it is", page.text("#me"))
            go_to(page, "op", f"ONE/{ARRIVAL}/020")
            choose(page, "Hold", "#side")
            exact = send_twice(page)
            answered(page, what="an answer")
            judge([one[:2] for one in site.asked("hold")] == [[exact, "anna"]], "once, by anna", site.asked("hold"))
            page.click("Close", "#ask")
            judge(not page.faults(), "the browser's log", page.faults())
            return "by a certificate, " + try_stranger(site, front, page)
        finally:
            front.end()


def ask_by_certificate(front):
    told = [json.loads(front.ask(who, "GET", "/me")[1]) for who in ("operator", "tracker", "operator")]
    judge([(one["by"], one["may"]) for one in told] == [("anna", "act"), (None, "look"), ("anna", "act")],
          "who is told what he may", told)
    fields = {"Request-Id": "f", "Plandesk-By": "root"}
    judge(front.ask("operator", "POST", "/validate", tick())[0] in (200, 404), "a check")
    judge(front.ask("tracker", "POST", "/operator", tick(), **fields)[0] == 403, "a tracker may not act")
    judge(front.ask("tracker", "POST", "/validate", tick())[0] == 403, "nor check")


def browse_by_certificate(site, front):
    """A browser that takes the operator's certificate without asking."""
    shown = Certified(site.folder, "operator", [f"https://localhost:{front.port}"])
    driver = site.folder / "chromedriver"
    driver.write_text(f"#!/bin/sh\nexport HOME={shown.home}\nexec unshare --mount sh -c 'mount --bind {site.folder}/etc "
                      f"/etc/chromium && exec {shutil.which('chromedriver')} \"$@\"' chromedriver \"$@\"\n")
    driver.chmod(0o755)
    page = Browser(site.folder, driver=str(driver))
    site.browsers.append(page)
    page.open(f"https://localhost:{front.port}/console")
    drawn(page)
    return page


STRANGE = """<!doctype html><title>waiting</title>
<form id=form method=post enctype=text/plain target=frame action='@to@'><input name='@name@' value='":1}'></form>
<iframe name=frame></iframe>
<script>
fetch('@to@', {method: 'POST', mode: 'no-cors', credentials: 'include', body: '@body@'}).finally(() => {
  navigator.sendBeacon('@to@', '@body@');
  document.getElementById('form').submit();
  setTimeout(() => { document.title = 'sent'; }, 1500);
});
</script>"""


@contextmanager
def serving(text):
    """The address of a page with this text."""
    class Stranger(http.server.BaseHTTPRequestHandler):
        def do_GET(self):
            self.send_response(200)
            self.send_header("Content-Type", "text/html")
            self.end_headers()
            self.wfile.write(text.encode())

        def log_message(self, *_):
            pass
    server = http.server.ThreadingHTTPServer(("127.0.0.1", 0), Stranger)
    threading.Thread(target=server.serve_forever, daemon=True).start()
    try:
        yield f"http://localhost:{server.server_address[1]}/"
    finally:
        server.shutdown()
        server.server_close()


def try_stranger(site, front, page):
    """A page of another site, in the same browser, with the same certificate."""
    body = json.dumps({"at": moment(), "do": "nop", "op": f"ONE/{ARRIVAL}/020"})
    text = STRANGE.replace("@to@", f"https://localhost:{front.port}/operator").replace("@body@", body)
    text = text.replace("@name@", body[:-1] + ',"x')
    before = len(site.asked())
    with serving(text) as address:
        page.open(address)
        page.until("document.title === 'sent'", "the stranger's page has tried")
        page.open(f"http://{site.door}/console")
    log = (front.folder / "access.log").read_text()
    judge(len(site.asked()) == before and log.count(" POST /operator 403 ") >= 3, "nothing acts", site.asked()[before:],
          log[-600:])
    return "and a stranger's page does nothing"


def try_replica(given):
    """Before a replica: asked once by its log, also where the answer is lost and a person sends the same once more."""
    if not shutil.which("etcd"):
        raise Wrong("it can't be tried: etcd-server is missing")
    with room() as folder:
        site = Place(given.plandesk, folder)
        try:
            client, peer = free_port(), free_port()
            words = ["etcd", "--name", "m1", "--data-dir", "etcd", "--listen-client-urls", f"http://127.0.0.1:{client}",
                     "--advertise-client-urls", f"http://127.0.0.1:{client}", "--listen-peer-urls", f"http://127.0.0.1:{peer}",
                     "--initial-advertise-peer-urls", f"http://127.0.0.1:{peer}", "--initial-cluster",
                     f"m1=http://127.0.0.1:{peer}"]
            site.started.append(subprocess.Popen(words, cwd=site.folder, stdout=subprocess.DEVNULL, stderr=subprocess.DEVNULL))
            records = plan_of(STATIONS, occurrence_of(f"ONE/{ARRIVAL}", {10: ("CPU1", 5), 20: ("SET1", 5), 30: ("SET1", 5)}),
                              done(HERE / "replica", "--records"))
            site.load(records, moment())
            site.start_desk()
            listen = f"127.0.0.1:{free_port()}"
            site.started.append(subprocess.Popen([HERE / "replica", "--name", "m1", "--desk", site.address, "--etcd",
                                                  f"127.0.0.1:{client}",
                                                  "--listen", listen], cwd=site.folder, stdout=subprocess.DEVNULL))
            wait_until(lambda: level(listen), "the replica is level", 0.3)
            check_at_replica(site, listen)
            return click_at_replica(site, listen, Added(records, site.address, given.plandesk))
        finally:
            site.end()


def check_at_replica(site, listen):
    """What is wrong with an addition is told by the console before a replica, and by `operate`; nothing is asked."""
    door, before = site.start_door(listen), site.asked()
    for station, wanted in (("CPU1", []), ("CPU9", ["line 2: operation: workstation: the plan has none of this name"])):
        records = occurrence_of(f"NEW/{ARRIVAL}", {10: (station, 5)})
        status, told = ask(door, "POST", "/validate", json.dumps({"at": moment(), "do": "add", "records": records}))
        judge(status == 200 and json.loads(told)["faults"] == wanted, "a check behind a console", station, status, told)
        (site.folder / "new.csv").write_text(records)
        told = done(HERE / "operate", "--desk", listen, "--dry-run", "add", site.folder / "new.csv")
        judge(told.splitlines()[1:] == (wanted or ["no faults"]), "a dry run at a replica", station, told)
    judge(site.asked() == before, "nothing is asked", site.asked())


def level(address):
    try:
        told = json.loads(ask(address, "GET", "/log")[1])
        return told["head"] is not None and told["head"] == told["applied"]
    except (OSError, ValueError, KeyError):
        return False


def click_at_replica(site, listen, added):
    site.behind = site.relay(listen, added)
    site.door = site.start_door(site.behind.address)
    site.before = site.relay(site.door)
    page = site.browse(site.before.address)
    go_to(page, "op", f"ONE/{ARRIVAL}/020")
    choose(page, "Hold", "#side")
    exact = send_twice(page)
    answered(page, what="an answer")
    page.click("Close", "#ask")
    held = lambda: [body for body, _, _ in site.asked("hold")]
    judge(held() == [exact], "the desk is asked once", held())
    go_to(page, "op", f"ONE/{ARRIVAL}/030")
    site.behind.lose = "behind"
    choose(page, "Hold", "#side")
    send(page)
    doubt(page, "acted", "open")
    page.click("It acted", "#ask")
    go_to(page, "op", f"ONE/{ARRIVAL}/020")
    site.behind.lose = "before"
    choose(page, "Release", "#side")
    send(page)
    doubt(page, "not", "open")
    page.click("Send the same once more", "#ask")
    answered(page, what="an answer")
    names = [fields["Request-Id"] for fields, body in site.behind.posts if '"release"' in body]
    judge(len(names) == 2 and len(set(names)) == 1 and len(site.asked("release")) == 1, "by the same Request-Id, once", names,
          site.asked("release"))
    page.click("Close", "#ask")
    site.behind.answer = (202, "application/json", b'{"index":1}')
    choose(page, "Hold", "#side")
    send(page)
    doubt(page, "not", "over")
    page.click("I have looked", "#ask")
    settled(page)
    told = done(HERE / "operate", "--desk", listen, "nop", f"ONE/{ARRIVAL}/30")
    judge(told == "accepted\n" and len(site.asked("nop")) == 1, "operate asks a replica", told)
    return "asked once, by its log"
