"""When in the run the findings happened: a strip over the commit stamps."""
from bisect import bisect_left
from typing import NamedTuple

from ..answers import KINDS, OVERLAP
from .drawing import box, line, picture_frame, width_of, words
from .markup import element

MOST_COLUMNS = 80
LABEL_WIDTH, WIDTH, ROW, TOP = 100, 720, 34, 8


class Column(NamedTuple):
    """Neighbouring commits, and the findings of each kind there."""
    first: int
    last: int
    counts: dict
    leads_to: object  # the first drawn finding there, or None


def stamp_of(finding, history):
    """The commit of the reader, or of the one that overwrote."""
    return history.records[finding.second if finding.kind == OVERLAP else finding.first].commit


def columns_of(history, groups):
    """The commits of the run, dealt in their order to columns of equal number."""
    commits = sorted({record.commit for record in history.records.values() if record.is_committed})
    many = min(MOST_COLUMNS, len(commits))
    edges = [place * len(commits) // many for place in range(many)] + [len(commits)] if many else [0]
    counts, leads = [{} for _ in range(many)], [None] * many
    for group in groups:
        for place, finding in enumerate(group.findings):
            rank = bisect_left(commits, stamp_of(finding, history))
            column = min(rank * many // len(commits), many - 1)
            column += (rank >= edges[column + 1]) - (rank < edges[column])
            counts[column][group.kind] = counts[column].get(group.kind, 0) + 1
            if leads[column] is None and place < group.drawn:
                leads[column] = finding
    return [Column(commits[begin], commits[end - 1], *rest)
            for begin, end, *rest in zip(edges, edges[1:], counts, leads)]


def column_words(column):
    stamps = f"stamp {column.first}" if column.first == column.last else f"stamps {column.first} to {column.last}"
    counts = ", ".join(f"{count:,} {KINDS[kind]}" for kind, count in sorted(column.counts.items()))
    return f"{stamps}: {counts}"


def draw_strip(columns, address):
    """A row for each kind, in which the height of a bar is the number of findings there. The bars lead to findings."""
    kinds = sorted({kind for column in columns for kind in column.counts})
    wide = WIDTH / len(columns)
    bottom = TOP + ROW * len(kinds)
    parts = []
    for row, kind in enumerate(kinds):
        base = TOP + ROW * (row + 1)
        greatest = max(column.counts.get(kind, 0) for column in columns)
        parts.append(words(0, base - 10, KINDS[kind], class_="strip-kind"))
        parts.append(line(LABEL_WIDTH, base, LABEL_WIDTH + WIDTH, base, class_="grid-solid"))
        for place, column in enumerate(columns):
            count = column.counts.get(kind, 0)
            if count:
                high = max(4, (ROW - 8) * count / greatest)
                bar = box(LABEL_WIDTH + place * wide + 0.5, base - high, max(wide - 1, 1), high, class_="strip-bar")
                parts.append(linked(bar + element("title", column_words(column)), column.leads_to, address))
    parts += ticks(columns, bottom)
    label = f"When the findings happened, by commit stamps {columns[0].first} to {columns[-1].last}. The table below says the same."
    return picture_frame(LABEL_WIDTH + WIDTH + 20, bottom + 24, label, parts)


def linked(content, finding, address):
    """The content with a link to a finding. The keyboard has the links of the table, so it passes these by."""
    return element("g", content) if finding is None else element("a", content, href="#" + address(finding), tabindex="-1")


def ticks(columns, bottom):
    """The stamps below the strip: the first, the last, and as many between as have room."""
    longest = width_of(str(columns[-1].last)) + 16
    many = max(1, min(8, len(columns) - 1, int(WIDTH // longest) - 1))
    parts = []
    for place in sorted({round(tick * (len(columns) - 1) / many) for tick in range(many + 1)}):
        x = LABEL_WIDTH + (place + 0.5) * WIDTH / len(columns)
        anchor = "start" if place == 0 else "end" if place == len(columns) - 1 and place else "middle"
        parts.append(line(x, bottom, x, bottom + 5, class_="grid-solid"))
        parts.append(words(x, bottom + 18, str(columns[place].first), class_="stamp", text_anchor=anchor))
    return parts
