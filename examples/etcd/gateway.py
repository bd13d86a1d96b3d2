"""etcd's JSON gateway, for snapshot-isolation transactions: revisions, reads at one, and commits that compare."""
import base64
import http.client
import json


class Etcd:
    """The JSON gateway of one etcd. It never asks twice: an answer that doesn't come leaves the request in doubt."""

    def __init__(self, address):
        self.connection = http.client.HTTPConnection(address, timeout=60)

    def ask(self, path, body):
        try:
            self.connection.request("POST", "/v3/kv/" + path, json.dumps(body), {"Content-Type": "application/json"})
            answer = self.connection.getresponse()
            text = answer.read()
        except OSError:
            self.connection.close()
            raise
        if answer.status != 200:
            raise OSError(f"etcd answered {answer.status}: {text!r}")
        return json.loads(text)

    def revision(self):
        """The revision of the latest snapshot."""
        return int(self.ask("range", {"key": coded("any")})["header"]["revision"])

    def read(self, key, revision):
        """The key's value at the revision, 0 for the newest, and the revision that put it; None twice where it has none."""
        found = self.ask("range", {"key": coded(key), "revision": revision}).get("kvs", [])
        if not found:
            return None, None
        return int(base64.b64decode(found[0]["value"])), int(found[0]["mod_revision"])

    def commit(self, writes, unchanged_after):
        """Puts the writes if none of their keys was changed after that revision, or whatever was where it is None.
        The revision of the change, or None where there was none. `replaced` has what each key had before."""
        self.replaced = {}
        compare = []
        if unchanged_after is not None:
            limit = str(unchanged_after + 1)
            compare = [{"key": coded(key), "target": "MOD", "result": "LESS", "mod_revision": limit} for key in writes]
        puts = [{"request_put": {"key": coded(key), "value": coded(str(value)), "prev_kv": True}} for key, value in writes.items()]
        answer = self.ask("txn", {"compare": compare, "success": puts})
        if not answer.get("succeeded"):
            return None
        for key, put in zip(writes, answer["responses"]):
            before = put["response_put"].get("prev_kv")
            self.replaced[key] = int(base64.b64decode(before["value"])) if before else None
        return int(answer["header"]["revision"])

    def forget(self, prefix):
        """Deletes the keys that begin so; the prefix doesn't end with the last letter there is."""
        self.ask("deleterange", {"key": coded(prefix), "range_end": coded(prefix[:-1] + chr(ord(prefix[-1]) + 1))})


def coded(text):
    return base64.b64encode(text.encode()).decode()
