"""Finds the phenomena of Adya's thesis in what is present, from the edges between transactions: it knows nothing of findings.

docs/DEFINITIONS.md, "The thesis". An edge is (from, label, to), by ids. A closed walk of ww and wr edges is there exactly where a cycle is, and
one with exactly one rw edge exactly where a cycle with exactly one is.
"""


def returned(present, key, value):
    """The version that a read of the value returned: 0 for the initial one, or its installer; None where it returned none."""
    if value == present.set_up(key):
        return 0
    return next((it for it in present.versions(key) if it.last_write(key) == value), None)


def reads(present):
    """The reads of committed transactions."""
    return [(txn, key, value) for txn in present.txns if txn.status == "committed" for word, key, value in txn.ops if word == "r"]


def edges(present):
    """The edges of the start-ordered serialization graph."""
    found = set()
    for key in {key for txn in present.txns for _, key, _ in txn.ops}:
        order = present.versions(key)
        found |= {(a.id, "ww", b.id) for a, b in zip(order, order[1:])}
        for txn, other, value in reads(present):
            version = returned(present, key, value) if other == key else None
            if version:
                found.add((version.id, "wr", txn.id))
            if version is not None:
                behind = [it for it in order if not version or it.commit > version.commit]
                found |= {(txn.id, "rw", it.id) for it in behind[:1]}
    nodes = [it for it in present.txns if it.status == "committed"]
    found |= {(a.id, "st", b.id) for a in nodes for b in nodes if a.commit < b.start}
    return {it for it in found if it[0] != it[2]}


def reached(start, steps):
    """The nodes to which a walk of these steps leads, of none among them."""
    found, last = {start}, {start}
    while last:
        last = {b for a, _, b in steps if a in last} - found
        found |= last
    return found


def is_pl_si(present):
    """Neither G1a, G1b, G1c, G-SI(a) nor G-SI(b)."""
    writers = [(txn, pair) for txn in present.txns for pair in txn.writes()]
    for reader, key, value in reads(present):
        for writer, pair in writers:
            if pair == (key, value) and (writer.status == "aborted" or writer.id != reader.id and writer.last_write(key) != value):
                return False  # G1a or G1b
    all_edges = edges(present)
    flow = {it for it in all_edges if it[1] in ("ww", "wr")}
    no_rw = {it for it in all_edges if it[1] != "rw"}
    if any((a, "st", b) not in all_edges for a, _, b in flow):
        return False  # G-SI(a)
    if any(a in reached(b, flow) for a, _, b in flow):
        return False  # G1c
    return not any(a in reached(b, no_rw) for a, label, b in all_edges if label == "rw")  # G-SI(b)


def is_well_formed(present):
    """Each read returns its transaction's own last write before it; or else none of its later ones, and what the key was set up with (or null), or
    what a present transaction writes that isn't in doubt."""
    for txn in (it for it in present.txns if it.status == "committed"):
        for number, (word, key, value) in enumerate(txn.ops):
            own = txn.last_write(key, number)
            if word != "r" or own is not None and own == value:
                continue
            known = value == present.set_up(key) or any((key, value) in it.writes() for it in present.txns if it.status != "indoubt")
            if own is not None or (key, value) in txn.writes() or not known:
                return False
    return True
