"""What a client wrote down of its faults, as the findings that they have to come to, and the difference to an answer.

A note tells what was done (examples/injected.py): which value a read returned, which one the database had for it, which value a write
replaced. From these alone, and from who wrote which value, each finding's line follows; no stamp is looked at."""
import json

PLACES = 4096  # a value is its writer's id times this, and a place


def key_text(key):
    return json.dumps(key, ensure_ascii=False)


def value_text(value):
    return "initial" if value is None else str(value)


class Notes:
    """The notes of one run."""

    def __init__(self, lines):
        self.replacers, self.faults, self.late = {}, [], []
        for line in lines:
            note = json.loads(line)
            if note["did"] == "late":
                self.late.append(note)
                continue
            if note["did"] != "write":
                self.faults.append(note)
                continue
            self.replacers.setdefault((note["key"], note["replaced"]), []).append(note["id"])
            if "seen" in note and note["seen"] != note["replaced"]:
                self.faults.append(note)

    def forks(self):
        """Values that two committed transactions replaced: no database may do this, nor a client that tells the truth."""
        return {pair: ids for pair, ids in self.replacers.items() if len(ids) > 1}

    def finding(self, note):
        """The line of the finding that the fault comes to."""
        key, number = key_text(note["key"]), note["id"]
        if note["did"] == "write":
            return f"overlap key={key} first={note['replaced'] // PLACES} second={number}"
        returned = note["returned"]
        read = f"key={key} txn={number} op={note['op']} read={value_text(returned)}"
        if note["did"] == "outside":
            return f"future {read} writer={returned // PLACES}"
        if note["did"] == "misjudged":
            return f"aborted {read} writer={returned // PLACES}"
        return f"stale {read} missed={self.replacers[note['key'], returned][0]}"

    def old_reads(self):
        """How the lines begin that starts which were asked for too late come to, at the least: more reads may look old."""
        return [f"stale key={key_text(it['key'])} txn={it['id']} op={it['op']} read={value_text(it['returned'])} " for it in self.late]

    def findings(self):
        return {self.finding(note) for note in self.faults}


def difference(expected, answer):
    """How an answer differs from the findings that it should have: lines, none where it doesn't."""
    found = [line for line in answer.splitlines() if not line.startswith(("transactions=", "short "))]
    missing, more = sorted(expected - set(found)), sorted(set(found) - expected)
    twice = len(found) - len(set(found))
    return [f"missing: {it}" for it in missing] + [f"more: {it}" for it in more] + ([f"{twice} lines stand twice"] if twice else [])
