"""An ordered log as keys of an etcd, by the gateway that every member has for JSON (version 3.4 and later). Its texts and
keys go there as base64, its numbers as texts."""
import base64
import hashlib
import json

from common import NoAnswer, exchange, follow

AT_ONCE = 100           # entries read, or identifiers taken away, in one transaction
SECONDS = 10            # for a reply of a member


class Away(Exception):
    """The etcd, or enough of its members, can't be had for the moment."""


class Full(Away):
    """The etcd takes nothing more."""


class Forgotten(Exception):
    """A request may have acted long ago, or not: its Request-Id isn't known any more."""


def coded(text):
    return base64.b64encode(text.encode()).decode()


def numbered(index):
    return f"{index:012}"


class Log:
    """The log, and what stands beside it, as keys of an etcd.

    `head` is the last index; `log/INDEX` an entry; `asked/ID` the index and the digest of an operator's request; `past` the
    latest moment of those that were taken away; `tracker/NAME` the index of a tracker's last report; `replica/NAME` how far a
    replica is."""

    def __init__(self, address, prefix):
        self.address, self.prefix = address, prefix

    def key(self, name):
        return coded(self.prefix + name)

    def ask(self, path, message):
        try:
            status, _, body = exchange(self.address, "POST", f"/v3/{path}", json.dumps(message).encode(), seconds=SECONDS)
            told = json.loads(body)
        except (NoAnswer, ValueError) as fault:
            raise Away(fault) from fault
        if status != 200:
            raise (Full if "space exceeded" in str(told) else Away)(told)
        return told

    def is_absent(self, name):
        return {"target": "CREATE", "key": self.key(name), "createRevision": "0"}

    def has(self, name, value, result="EQUAL"):
        return {"target": "VALUE", "result": result, "key": self.key(name), "value": coded(value)}

    def put(self, name, value):
        return {"requestPut": {"key": self.key(name), "value": coded(value)}}

    def get(self, name):
        return {"requestRange": {"key": self.key(name)}}

    def delete(self, first, end=None):
        return {"requestDeleteRange": {"key": self.key(first), **({"rangeEnd": self.key(end)} if end else {})}}

    def change(self, compare, success, failure=()):
        """Whether it was done, and the texts that `failure` looks up, None where there is none."""
        told = self.ask("kv/txn", {"compare": compare, "success": list(success), "failure": list(failure)})
        found = [one.get("response_range", {}).get("kvs") for one in told.get("responses", ())]
        texts = [base64.b64decode(one[0].get("value", "")).decode() if one else None for one in found]
        return told.get("succeeded", False), texts

    def range(self, first, end, limit=0, behind=False):
        """Keys from `first` to `end` with their texts; with `behind` as this member has them, who may be behind others."""
        told = self.ask("kv/range", {"key": self.key(first), "range_end": self.key(end), "limit": str(limit),
                                     "serializable": behind})
        return [(base64.b64decode(one["key"]).decode()[len(self.prefix):], base64.b64decode(one.get("value", "")).decode())
                for one in told.get("kvs", ())]

    def head(self):
        return int(dict(self.range("head", "head\0")).get("head", 0))

    def entries(self, after):
        """The next entries, whatever of the log this member has."""
        found = self.range("log/" + numbered(after + 1), "log0", AT_ONCE, behind=True)
        return [(int(key[4:]), json.loads(text)) for key, text in found]

    def append(self, entry, seen, waits):
        """The index of an entry, and that it is this one; or where its Request-Id is there already, that index, and whether it
        is the same request. `seen` is how far the log was known when its client came, `waits` whether that still waits.

        A transaction holds only while the log ends where it was found to end before the client was looked at. So what comes
        late comes before all that was answered since, or finds its Request-Id or a later report of its tracker's, or nobody
        who waits: then nothing is appended."""
        digest, text, head = hashlib.sha256(f"{entry['path']} {entry['body']}".encode()).hexdigest(), json.dumps(entry), seen
        is_named, asker = bool(entry["id"]), f"asked/{entry['id']}" if entry["id"] else f"tracker/{entry['tracker']}"
        while waits():
            index = numbered(head + 1)
            compare = [self.has("head", str(head)) if head else self.is_absent("head"), self.is_absent("log/" + index)]
            if is_named:
                compare += [self.is_absent(asker), self.has("past", entry["at"], "LESS")]
            success = [self.put("head", str(head + 1)), self.put("log/" + index, text), self.put(asker, f"{head + 1} {digest}")]
            done, found = self.change(compare, success, [self.get("head"), self.get(asker), self.get("past")])
            if done:
                return head + 1, True
            head, (last, before), past = int(found[0] or 0), (found[1] or "0 -").split(), found[2]
            if head < seen:
                raise Away("the etcd has another log")
            if is_named and found[1]:
                return int(last), before == digest
            if is_named and past is None:
                self.change([self.is_absent("past")], [self.put("past", "")])
            elif is_named and past >= entry["at"]:
                raise Forgotten()
            elif not is_named and int(last) > seen:
                raise Away("its tracker has had another report appended")
        raise Away("its client has gone")

    def compact(self, keep, clock):
        """Takes away what every replica has carried out, but for the last entries; and the Request-Ids of those whose moment
        the plan's clock has passed, so that every desk would refuse them."""
        done = min((int(text) for _, text in self.range("replica/", "replica0")), default=0) - keep
        gone = self.range("log/", "log/" + numbered(done + 1), AT_ONCE) if done > 0 else []
        if gone:
            entries, past = [json.loads(text) for _, text in gone], dict(self.range("past", "past\0")).get("past")
            moments = {one["id"]: one["at"] for one in entries if one["id"] and one.get("at", "later") < clock}
            drop = self.delete("log/", "log/" + numbered(int(gone[-1][0][4:]) + 1))
            try:
                self.change([self.is_absent("past") if past is None else self.has("past", past)],
                            [drop, self.put("past", max([past or "", *moments.values()])),
                             *[self.delete(f"asked/{one}") for one in moments]])
            except Full:
                self.change([], [drop])         # what makes room is taken; the Request-Ids stay
            told = self.ask("kv/range", {"key": self.key("head")})
            self.ask("kv/compaction", {"revision": told["header"]["revision"]})

    def wait(self, wake):
        """Sets an event whenever the log grows, until this member can't be had."""
        asked = json.dumps({"create_request": {"key": self.key("log/"), "range_end": self.key("log0")}}).encode()
        for _ in follow(self.address, "/v3/watch", asked, 3600):
            wake.set()
