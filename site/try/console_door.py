"""The console's door, by requests: who asks, what is foreign, what is asked once, what is told again."""
import http.client
import json
import os
import re
import shutil
import socket
import subprocess
import threading
import time
from concurrent.futures import ThreadPoolExecutor

from consoles import ARRIVAL, ME, ask, place, tick
from trial import HERE, free_port, judge, moment, wait_until

POLICY = ("default-src 'none'; script-src 'self'; style-src 'self'; connect-src 'self'; img-src data:; base-uri 'none'; "
          "form-action 'none'; frame-ancestors 'none'; require-trusted-types-for 'script'; trusted-types 'none'")


def sent(address, text, shut=False, source=None, family=socket.AF_INET):
    """What comes back for these bytes; `shut`: this end is shut for writing behind them."""
    host, _, port = address.rpartition(":")
    with socket.socket(family) as raw:
        raw.settimeout(60)
        if source:
            raw.bind((source, 0))
        raw.connect((f"::ffff:{host}" if family == socket.AF_INET6 else host, int(port)))
        raw.sendall(text.encode())
        if shut:
            raw.shutdown(socket.SHUT_WR)
            time.sleep(0.3)
        told = b""
        try:
            while part := raw.recv(65536):
                told += part
        except ConnectionResetError:
            pass
        return told.decode()


def head(path, body="", *fields):
    return "\r\n".join([f"{'POST' if body else 'GET'} {path} HTTP/1.1", "Host: 127.0.0.1", f"Content-Length: {len(body)}",
                        *fields, "", body])


def try_door(given):
    with place(given) as site:
        try_page(site)
        foreign = try_foreign(site)
        try_once(site)
        try_under_way(site)
        try_ends(site)
        try_beginnings(site)
        users = try_users(site) if os.geteuid() == 0 else "no other users: root is needed"
        return f"{foreign} heads, requests that are repeated, ends that are shut, {users}"


def try_page(site):
    host, _, port = site.door.rpartition(":")
    connection = http.client.HTTPConnection(host, int(port), timeout=60)
    for path in ("/", "/console", "/console.js", "/console.css", "/answers.json", "/me", "/health"):
        connection.request("GET", path, headers={"Connection": "keep-alive"})
        reply = connection.getresponse()
        fields = [reply.getheader(name) for name in ("Content-Security-Policy", "Cache-Control", "Connection")]
        judge((reply.status, fields) == (200, [POLICY, "no-store", "close"]), f"{path} and its fields", reply.status, fields)
        reply.read()
        judge(connection.sock is None, f"the connection is closed behind {path}")
    page = ask(site.door, "GET", "/console")[1]
    judge(not re.search(r"https?:|<style|style=|<script(?! type=\"module\" src=\"/)|\bon\w+=", page),
          "nothing from outside or inline", page)
    judge(json.loads(ask(site.door, "GET", "/me")[1]) == {"by": ME, "may": "act", "once": True, "offset": 0}, "who asks",
          ask(site.door, "GET", "/me"))
    for path in ("/console.py", "/../console", "/page/console.js", "/console.html"):
        judge(ask(site.door, "GET", path)[0] == 404, f"no file {path}", ask(site.door, "GET", path))
    kept = json.loads(ask(site.door, "GET", "/answers.json")[1])
    judge(list(map(int, kept)) == list(range(1, 29)) and all(len(one) == 3 and all(one) for one in kept.values()), "28 refusals",
          kept)


def try_foreign(site):
    """Which heads are let in, and that no other acts."""
    own = f"http://{site.door}"
    heads = [
        (200, {}), (200, {"Host": "localhost:1"}), (200, {"Host": "LOCALHOST"}), (403, {"Host": "evil.example"}),
        (403, {"Host": "127.0.0.1.evil.example"}), (403, {"Host": "localhost.evil.example"}), (403, {"Host": ""}),
        (200, {"Origin": own}), (200, {"Origin": own, "Sec-Fetch-Site": "same-origin"}),
        (403, {"Origin": own, "Sec-Fetch-Site": "cross-site"}), (403, {"Origin": own, "Sec-Fetch-Site": "same-site"}),
        (403, {"Origin": own, "Sec-Fetch-Site": "none"}), (403, {"Sec-Fetch-Site": "same-origin"}), (403, {"Origin": "null"}),
        (403, {"Origin": "http://evil.example"}), (403, {"Origin": own + "0"}), (403, {"Origin": own.replace("http", "https")}),
        (403, {"Origin": f"http://localhost:{site.door.rpartition(':')[2]}"}), (403, {"Origin": ""})]
    for turn, (status, fields) in enumerate(heads):
        before = len(site.asked())
        told = ask(site.door, "POST", "/operator", tick(), **{"Request-Id": f"foreign{turn}", **fields})
        judge(told[0] == status and len(site.asked()) == before + (status == 200), "a foreign head", fields, told,
              site.asked()[before:])
    for host in ("evil.example", "evil.example:8081", ""):
        for path in ("/console", "/me", "/health", "/report/occurrences"):
            judge(ask(site.door, "GET", path, Host=host)[0] == 403, f"a page under {host!r} looks at {path}")
    for hosts in (["Host: evil.example"], ["Host: 127.0.0.1"]):
        told = sent(site.door, head("/operator", tick(), "Request-Id: two", *hosts))
        judge(told.startswith("HTTP/1.0 403 "), "two hosts", told)
    judge(sent(site.door, "GET /me HTTP/1.0\r\n\r\n").startswith("HTTP/1.0 403 "), "no host")
    return len(heads)


def try_once(site):
    """A request goes to the desk once, whoever sends it again."""
    body, before = tick(), len(site.asked())
    judge(ask(site.door, "POST", "/operator", body)[0] == 428, "no Request-Id")
    judge(ask(site.door, "POST", "/operator", body, Request_Id="a", Request_Try="perhaps")[0] == 428, "another try")
    judge(ask(site.door, "POST", "/operator", body, Request_Id="a", Request_Try="repeat")[0] == 404,
          "a repeat of what isn't known")
    judge(len(site.asked()) == before, "nothing of this is sent", site.asked()[before:])
    with ThreadPoolExecutor(20) as pool:
        told = set(pool.map(lambda _: ask(site.door, "POST", "/operator", body, Request_Id="a"), range(20)))
    judge(told == {(200, '{"named":[]}')} and len(site.asked()) == before + 1, "twenty at once", told, site.asked()[before:])
    for attempt in ("first", "repeat", "again"):
        judge(ask(site.door, "POST", "/operator", body, Request_Id="a", Request_Try=attempt) == (200, '{"named":[]}'),
              "once more")
    judge(ask(site.door, "POST", "/operator", body + " ", Request_Id="a")[0] == 409, "other bytes")
    judge(len(site.asked()) == before + 1, "it is asked once", site.asked()[before:])
    site.behind.lose = "behind"
    told = [ask(site.door, "POST", "/operator", body, Request_Id="b", Request_Try=attempt)[0]
            for attempt in ("first", "first", "repeat", "again", "again")]
    judge(told == [504, 504, 504, 200, 200] and len(site.asked()) == before + 3, "an answer that is lost", told,
          site.asked()[before:])
    site.behind.answer = (503, "application/json", b'{"name":"Memory","refusal":25}')
    told = [ask(site.door, "POST", "/operator", body, Request_Id="c", Request_Try=attempt)[0] for attempt in ("first", "again")]
    judge(told == [503, 503] and len(site.behind.posts) >= 1, "want of memory is an answer", told)
    site.behind.answer = None
    judge(ask(site.door, "POST", "/operator", body, Request_Id="c", Request_Try="again")[0] == 503, "which isn't asked for again")
    judge(ask(site.door, "POST", "/report", body)[0] == 404 and ask(site.door, "POST", "/console", body)[0] == 404, "other paths")
    judge(ask(site.door, "POST", "/operator", "x", Content_Length="16777217")[0] == 413, "too long")
    bad = ask(site.door, "POST", "/operator", '{"at":"2024-03-01T22:00","do":"hold","note":1}', Request_Id="d")
    judge(bad[0] == 400 and "op: missing" in bad[1], "what is wrong with a request", bad)
    judge('"faults":[]' in ask(site.door, "POST", "/validate", body)[1].replace(" ", ""), "a check of a request")
    judge(len(site.asked()) == before + 4, "and no more is asked", site.asked()[before:])
    away = site.start_door(f"127.0.0.1:{free_port()}")
    judge(ask(away, "POST", "/operator", body, Request_Id="e") == (502, '{"error":502,"sent":false}'), "no desk",
          ask(away, "POST", "/operator", body, Request_Id="e"))


def try_under_way(site):
    """While a request is under way nobody sends it again: who asks for it waits for its answer."""
    body, before = tick(), len(site.behind.posts)
    site.behind.hold = threading.Event()
    with ThreadPoolExecutor(3) as pool:
        asked = [pool.submit(ask, site.door, "POST", "/operator", body, Request_Id="way")]
        wait_until(lambda: len(site.behind.posts) > before, "it is under way")
        asked += [pool.submit(ask, site.door, "POST", "/operator", body, Request_Id="way", Request_Try=attempt)
                  for attempt in ("repeat", "again")]
        time.sleep(1)
        site.behind.hold.set()
        told = [one.result() for one in asked]
    site.behind.hold = None
    judge(told == [(200, '{"named":[]}')] * 3 and len(site.behind.posts) == before + 1, "it is sent once", told,
          site.behind.posts[before:])


def try_ends(site):
    """Who has shut his end isn't told by the kernel: so he is nobody, and doesn't act."""
    before = len(site.asked())
    text = head("/operator", tick(), "Request-Id: shut")
    judge(sent(site.door, text, shut=True).startswith("HTTP/1.0 403 ") and len(site.asked()) == before,
          "an end that is shut for writing", site.asked()[before:])
    for more in ({"source": "127.0.0.9"}, {"family": socket.AF_INET6}):
        judge(f'"by": "{ME}"' in sent(site.door, head("/me"), **more), "another way to this machine", more)


def try_beginnings(site):
    """A second one at a port, a page that can't be read, and a disk on which nothing more can be written."""
    begin = lambda *words: subprocess.run(words, stdout=subprocess.PIPE, stderr=subprocess.STDOUT, text=True, timeout=60)
    told = begin(HERE / "console", "--desk", site.address, "--port", site.door.rpartition(":")[2])
    judge(told.returncode == 1 and "can't be listened at" in told.stdout, "two at one port", told)
    judge(ask(site.door, "GET", "/me")[0] == 200, "the first goes on")
    shutil.copytree(HERE, site.folder / "copied", ignore=shutil.ignore_patterns("try", "__pycache__"))
    (site.folder / "copied/page/console.html").unlink()
    told = begin(site.folder / "copied/console", "--desk", site.address, "--port", str(free_port()))
    judge(told.returncode == 1 and "can't be read" in told.stdout, "a page that lacks a file", told)
    port = free_port()
    with open("/dev/full", "w") as full, open(site.folder / "full.said", "w") as said:
        site.started.append(subprocess.Popen([HERE / "console", "--desk", site.address, "--port", str(port)], stdout=full,
                                             stderr=said))
    full = f"127.0.0.1:{port}"
    wait_until(lambda: is_there(full), "a door whose lines can't be written")
    before = len(site.asked())
    told = [ask(full, "POST", "/operator", tick(), Request_Id="full") for _ in range(2)]
    judge(told == [(200, '{"named":[]}')] * 2 and len(site.asked()) == before + 1, "it answers, once", told)


def is_there(address):
    try:
        return ask(address, "GET", "/me")[0] == 200
    except OSError:
        return False


def as_user(user, *requests, apart=()):
    """What these requests, each words and fields, are answered when this user asks them, or `apart`, in namespaces of his own."""
    code = ("import http.client, json, sys\n"
            "for (address, method, path, body), fields in json.loads(sys.argv[1]):\n"
            "    host, port = address.split(':'); connection = http.client.HTTPConnection(host, int(port), timeout=60)\n"
            "    connection.request(method, path, body, fields); reply = connection.getresponse()\n"
            "    print(json.dumps([reply.status, reply.read().decode()]))\n")
    told = subprocess.run([*apart, "/usr/bin/python3", "-c", code, json.dumps(requests)], stdout=subprocess.PIPE, text=True,
                          user=user, extra_groups=[], cwd="/", check=True).stdout
    return [tuple(json.loads(line)) for line in told.splitlines()]


def gone(user, address, text):
    """This user sends these bytes and is gone, twenty times."""
    code = ("import socket, sys\nhost, port = sys.argv[1].split(':')\nfor turn in range(20):\n"
            "    with socket.create_connection((host, int(port))) as raw: raw.sendall((sys.argv[2] % turn).encode())\n")
    subprocess.run(["/usr/bin/python3", "-c", code, address, text], user=user, extra_groups=[], cwd="/", check=True)


def try_users(site):
    """Users of this machine, a group of those who may act, and a server that is trusted."""
    before = len(site.asked())
    gone("nobody", site.door, head("/operator", tick(), "Request-Id: gone-%s"))
    time.sleep(1)
    judge({by for _, by, _ in site.asked()[before:]} <= {"nobody"}, "who has gone isn't root", site.asked()[before:])
    members, trusted = site.start_door(site.address, "--operators", "adm"), site.start_door(site.address, "--trust", "daemon")
    before = len(site.asked())
    post = lambda door, name, **fields: ((door, "POST", "/operator", tick()), {"Request-Id": name, **fields})
    look = lambda door, **fields: ((door, "GET", "/me", None), fields)
    told = as_user("nobody", look(site.door), post(site.door, "n1"), look(members), post(members, "n2"), look(trusted),
                   post(trusted, "n3", **{"Plandesk-By": "anna"}), post(site.door, "a"))
    judge([status for status, _ in told] == [200, 200, 200, 403, 200, 200, 409], "another user", told)
    judge([json.loads(told[turn][1])["may"] for turn in (0, 2, 4)] == ["act", "look", "act"], "who may", told)
    judge([by for _, by, _ in site.asked()[before:]] == ["nobody", "nobody"], "he is who he is", site.asked()[before:])
    judge(ask(members, "POST", "/operator", tick(), Request_Id="r")[0] == 200, "root may")
    apart = ("unshare", "--user", "--map-root-user")
    if subprocess.run([*apart, "true"], user="nobody", extra_groups=[], cwd="/", stderr=subprocess.DEVNULL).returncode == 0:
        (_, me), = as_user("nobody", look(members), apart=apart)
        judge(json.loads(me)["by"] == "nobody" and json.loads(me)["may"] == "look", "who is root in a namespace of his own", me)
    before = len(site.asked())
    anna = {"Plandesk-By": "anna"}
    told = as_user("daemon", look(trusted), post(trusted, "d1"), look(trusted, **anna), post(trusted, "d2", **anna),
                   post(trusted, "d3", **{"Plandesk-By": "an na"}), ((trusted, "POST", "/operator", tick()), {"Request-Id": "d4",
                        "Plandesk-By": "anna", "plandesk-by": "root"}), post(site.door, "d5", **anna),
                   ((trusted, "GET", "/health", None), {"Host": "desk.bank.example"}))
    judge([status for status, _ in told] == [200, 403, 200, 200, 403, 403, 200, 200], "a trusted server", told)
    judge([json.loads(told[turn][1])["may"] for turn in (0, 2)] == ["look", "act"] and json.loads(told[2][1])["by"] == "anna",
          "whom it names",
          told)
    judge([by for _, by, _ in site.asked()[before:]] == ["anna", "daemon"], "by whom", site.asked()[before:])
    report = json.dumps({"tracker": "T1", "number": 1, "at": moment(), "do": "started", "op": f"ONE/{ARRIVAL}/010"})
    named = ((trusted, "POST", "/report", report), {"Plandesk-By": "T1"})
    told = as_user("daemon", named) + [ask(trusted, "POST", "/report", report)]
    judge([status for status, _ in told] == [200, 404], "reports by the trusted server alone", told)
    told = [subprocess.run([HERE / "console", *words], stderr=subprocess.DEVNULL).returncode
            for words in (("--operators", "no-such-group"), ("--trust", "no-such-user"), ("--zone", "Nowhere"))]
    judge(told == [2, 2, 2], "a group, a user and a zone that aren't there", told)
    return "other users and a trusted server"


def try_kept(given):
    """The desk is asked once for what many look at, until the clock moves or somebody acts."""
    with place(given) as site:
        count = lambda path: site.behind.looks.count(path)
        ask(site.door, "GET", "/health")
        with ThreadPoolExecutor(20) as pool:
            told = set(pool.map(lambda _: ask(site.door, "GET", "/forecast"), range(20)))
        judge(len(told) == 1 and count("/forecast") == 1, "twenty at once", count("/forecast"))
        ask(site.door, "GET", "/forecast", Cache_Control="no-cache")
        judge(count("/forecast") == 2, "who wants it afresh", count("/forecast"))
        judge(ask(site.door, "GET", "/report/errors")[1].endswith("END 0\n"), "nothing is in error")
        error = {"at": moment(), "do": "error", "op": f"ONE/{ARRIVAL}/010", "code": "U100"}
        ask(site.door, "POST", "/operator", json.dumps(error), Request_Id="k")
        judge("U100" in ask(site.door, "GET", "/report/errors")[1] and count("/report/errors") == 2, "somebody acted")
        ask(site.door, "GET", "/forecast")
        ahead = moment(2)
        site.do("tick", ahead)
        time.sleep(1.1)
        judge(ask(site.door, "GET", "/forecast")[1].startswith("FORECAST") and count("/forecast") == 3,
              "the clock isn't known yet")
        ask(site.door, "GET", "/health")
        judge(ahead in ask(site.door, "GET", "/forecast")[1] and count("/forecast") == 4, "the clock moved", count("/forecast"))
        time.sleep(5.2)
        ask(site.door, "GET", "/forecast")
        judge(count("/forecast") == 5, "five seconds later", count("/forecast"))
        before = count(f"/why/ONE/{ARRIVAL}/020")
        for _ in range(2):
            ask(site.door, "GET", f"/why/ONE/{ARRIVAL}/020")
        judge(count(f"/why/ONE/{ARRIVAL}/020") == before + 2, "other looks aren't kept")
        return "one look of the desk for twenty"
