"""A relay before a desk, or a door: it counts what comes, loses what it is told to, and adds or takes away looks."""
import csv
import http.client
import http.server
import io
import json
import re
import socket
import subprocess
import threading
import time
import urllib.parse

import trial                # (it finds the site's own modules)
from common import exchange

JSON, TEXT = "application/json", "text/plain; charset=utf-8"


class Added:
    """What a desk doesn't show yet: an occurrence's dependencies, what a rerun reaches, a workstation's intervals, by the records
    of its plan and what has come in since; and what is wrong with a request, by the program."""

    def __init__(self, records, address, program):
        self.address, self.program, self.pairs, self.intervals = address, program, set(), {}
        self.take(records)

    def take(self, records):
        for row in csv.reader(io.StringIO(records)):
            if row[:1] == ["D"]:
                self.pairs.add(tuple(f"{row[at]}/{row[at + 1]}/{int(row[at + 2]):03}" for at in (1, 4)))
            elif row[:1] == ["I"]:
                self.intervals.setdefault(row[1], []).append(row[2:4] + [int(word) for word in row[4:7]])

    def follow(self, request):
        """What was accepted."""
        if request["do"] in ("add", "extend"):
            self.take(request["records"])
        elif request["do"] == "depend":
            self.pairs.add((request["from"], request["to"]))
        elif request["do"] == "intervals":
            self.intervals[request["ws"]] = request["intervals"]

    def rows(self, occurrence):
        """The rows of an occurrence's operations by key, and the clock; of none what the desk says."""
        status, _, body = exchange(self.address, "GET", "/show/operations/" + urllib.parse.quote(occurrence, safe="/:"))
        if status != 200:
            return None, body
        head, *lines = body.decode().splitlines()
        return {f"{occurrence}/{int(line.split()[0]):03}": line.split() for line in lines[:-1]}, head.split()[-1]

    def look(self, path):
        """Status, media type and body of one of these looks."""
        kind, key = re.fullmatch(r"/show/(dependencies|reach|intervals)/(.*)", urllib.parse.unquote(path)).groups()
        if kind == "intervals":
            clock = json.loads(exchange(self.address, "GET", "/health")[2])["clock"]
            rows = [f"{begin} {end} {servers:2} {r1:2} {r2:2}" for begin, end, servers, r1,
                    r2 in sorted(self.intervals.get(key, []))]
        else:
            occurrence = key if kind == "dependencies" else key.rpartition("/")[0]
            found, clock = self.rows(occurrence)
            if found is None or kind == "reach" and key not in found:
                return 409, JSON, clock if found is None else b'{"name":"UnknownOperation","refusal":5}'
            rows = self.dependencies(key) if kind == "dependencies" else self.reach(key)
        return 200, TEXT, "".join(f"{line}\n"
                                  for line in [f"{kind.upper()} {key} AT {clock}", *rows, f"END {len(rows)}"]).encode()

    def row(self, key):
        return self.rows(key.rpartition("/")[0])[0][key]

    def dependencies(self, occurrence):
        return [f"{words(one)} {self.row(one)[2]} {words(other)} {self.row(other)[2]}" for one, other in sorted(self.pairs)
                if occurrence in (one.rpartition("/")[0], other.rpartition("/")[0])]

    def reach(self, key):
        reached, left = {key}, [key]
        while left:
            at = left.pop()
            for one, other in self.pairs:
                if one == at and other not in reached and self.row(other)[2] != "D":
                    reached.add(other)
                    left.append(other)
        return [f"{words(one)} {self.row(one)[1]:4} {self.row(one)[2]}" for one in sorted(reached)]

    def faults(self, body):
        told = subprocess.run([self.program, "validate", "--request", "-"], input=body, stdout=subprocess.PIPE).stdout
        return told.decode().splitlines()[:-1]


def words(key):
    application, arrival, number = key.split("/")
    return f"{application:16} {arrival} {int(number):3}"


class Relay(http.server.ThreadingHTTPServer):
    """`lose` is what becomes of the next POST to /operator: "before" it isn't sent on, "behind" its reply isn't, "late" it is
    sent on when `go` is set, and nobody waits for the reply. `answer` is told instead of what is asked for, `hold` waited for
    before that; `checked` is told of /validate; `me` is what /me tells. `added` are the looks of a desk that lacks them; `lacks`:
    it is as a desk without them. `is_kept`: connections are kept, as a front keeps them."""
    request_queue_size = 128

    def __init__(self, target, added=None, lacks=False, is_kept=False):
        self.target, self.added, self.lacks, self.lose, self.posts, self.looks = target, added, lacks, None, [], []
        self.go, self.passed_late, self.answer, self.hold, self.me = threading.Event(), threading.Event(), None, None, None
        self.checked = None
        super().__init__(("127.0.0.1", 0), type("Kept", (Passing,), {"protocol_version": "HTTP/1.1"}) if is_kept else Passing)
        self.address = f"127.0.0.1:{self.server_address[1]}"
        threading.Thread(target=self.serve_forever, daemon=True).start()

    def end(self):
        self.shutdown()
        self.server_close()

    def handle_error(self, *_):
        pass


class Passing(http.server.BaseHTTPRequestHandler):
    def do_GET(self):
        self.server.looks.append(self.path)
        is_new = re.match("/show/(dependencies|reach|intervals)/", self.path)
        if is_new and self.server.lacks:
            return self.tell(404, JSON, b'{"error":404}', None)
        status, media, body, date = self.passed(None)
        if self.path == "/me" and self.server.me:
            body = json.dumps(self.server.me).encode()
        if status == 404 and self.server.added and is_new:
            status, media, body = self.server.added.look(self.path)
        self.tell(status, media, body, date)

    def do_POST(self):
        body, added = self.rfile.read(int(self.headers["Content-Length"])), self.server.added
        if self.path == "/operator":
            self.server.posts.append((dict(self.headers), body.decode()))
            lose, self.server.lose = self.server.lose, None if self.server.lose != "all" else "all"
            if lose in ("before", "all"):
                return self.cut()
            if lose == "late":
                threading.Thread(target=self.pass_late, args=(body,), daemon=True).start()
                return self.cut()
            if self.server.answer:
                return self.tell(*self.server.answer, None)
            if self.server.hold:
                self.server.hold.wait(60)
        else:
            lose = None
        if self.path == "/validate" and self.server.lacks:
            return self.tell(404, JSON, b'{"error":404}', None)
        if self.path == "/validate" and self.server.checked:
            return self.tell(*self.server.checked, None)
        status, media, told, date = self.passed(body)
        if added and status == 404 and self.path == "/validate":
            status, media, told = 200, JSON, json.dumps({"faults": added.faults(body)}).encode()
        if added and status == 400 and b'"faults"' not in told:
            told = json.dumps({"error": 400, "faults": added.faults(body)}).encode()
        if added and status == 200 and self.path == "/operator":
            added.follow(json.loads(body))
        if lose == "behind":
            return self.cut()
        return self.tell(status, media, told, date)

    def pass_late(self, body):
        self.server.go.wait(120)
        self.passed(body)
        self.server.passed_late.set()

    def passed(self, body):
        """What the target answers, and its date."""
        host, _, port = self.server.target.rpartition(":")
        connection = http.client.HTTPConnection(host, int(port), timeout=90)
        fields = {name: value for name, value in self.headers.items() if name.lower() not in ("connection", "content-length")}
        try:
            connection.request(self.command, self.path, body, fields)
            reply = connection.getresponse()
            return reply.status, reply.getheader("Content-Type", ""), reply.read(), reply.getheader("Date")
        finally:
            connection.close()

    def cut(self):
        """The connection ends without a reply."""
        self.close_connection = True
        self.connection.setsockopt(socket.SOL_SOCKET, socket.SO_LINGER, b"\1\0\0\0\0\0\0\0")
        self.connection.close()

    def tell(self, status, media, body, date):
        self.send_response_only(status)
        self.send_header("Date", date or self.date_time_string(time.time()))
        self.send_header("Content-Type", media)
        self.send_header("Content-Length", str(len(body)))
        self.end_headers()
        self.wfile.write(body)

    def log_message(self, *_):
        pass
