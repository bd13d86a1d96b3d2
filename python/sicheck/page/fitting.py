"""Whether an answer and a log belong together: the counts, and every finding, told and untold."""
from ..answers import ABORTED_READ, DOUBT, INTERMEDIATE, OVERLAP, STALE, Finding
from .histories import Misfit
from .judgement import findings_of, key_histories
from ..log_lines import ABORTED, COMMITTED, IN_DOUBT

MOST_TOLD = 5


def suits(record, finding):
    """Whether the record may be the one that the finding names by its id."""
    writes = [op.value for op in record.ops if op.is_write and op.key == finding.key]
    if finding.kind == OVERLAP:
        return record.is_committed and bool(writes)
    if record.id == finding.first:
        op = record.ops[finding.second] if finding.second < len(record.ops) else None
        return record.is_committed and op == ("r", finding.key, finding.read)
    if finding.kind == STALE:
        return record.is_committed and bool(writes)
    status = {DOUBT: IN_DOUBT, ABORTED_READ: ABORTED}.get(finding.kind, COMMITTED)
    return record.status == status and finding.read in (writes[:-1] if finding.kind == INTERMEDIATE else writes)


def settle_unsure(history, findings):
    """Where several records may be present for an id, takes the first that suits every finding that names it."""
    named = {}
    unsure = {record.id: record for record in history.unsure()}
    for finding in findings:
        for number in finding.names():
            if number in unsure:
                named.setdefault(number, []).append(finding)
    for number, record in unsure.items():
        candidates = [record, *record.rivals]
        fitting = [one for one in candidates if all(suits(one, finding) for finding in named.get(number, []))]
        if not fitting:
            raise Misfit(f"none of the records that transaction {number} may have suits the findings that name it")
        kept = fitting[0]
        kept.rivals = tuple(one for one in candidates if one is not kept)
        history.records[number] = kept


def unsure_keys(history):
    """The keys on which the order of the sources may decide what is present."""
    return {op.key for record in history.unsure() for one in (record, *record.rivals) for op in one.ops}


def difference(told, found):
    """Why the findings told aren't those of the log, in words."""
    told, found = set(told), set(found)
    wrong = [f"the answer tells `{finding.text()}`, and the log doesn't show it"
             for finding in sorted(told - found, key=Finding.order)]
    missing = [f"the log shows `{finding.text()}`, and the answer doesn't tell it"
               for finding in sorted(found - told, key=Finding.order)]
    reasons = wrong + missing
    more = [f"and {len(reasons) - MOST_TOLD:,} more differences"] if len(reasons) > MOST_TOLD else []
    return "; ".join(reasons[:MOST_TOLD] + more)


def fitted_keys(history, answer):
    """What is present on each key, where the answer is one of the log; raises `Misfit` where it isn't. On keys where the
    order of the sources may decide, no finding can be compared but by what it names."""
    if answer.summary.transactions != len(history.records):
        raise Misfit(f"the answer counts {answer.summary.transactions:,} transactions, and the log has "
                     f"{len(history.records):,} that are present")
    settle_unsure(history, answer.findings)
    keys = key_histories(history)
    excepted = unsure_keys(history)
    told = [finding for finding in answer.findings if finding.key not in excepted]
    found = [finding for key, one in keys.items() if key not in excepted for finding in findings_of(one)]
    if len(told) != len(found) or set(told) != set(found):
        raise Misfit(difference(told, found))
    for finding in answer.findings:
        check_names(history, finding)
    return keys


def check_names(history, finding):
    for number in finding.names():
        if number not in history.records or not suits(history.records[number], finding):
            raise Misfit(f"the answer tells `{finding.text()}`, and transaction {number} isn't so in the log")
