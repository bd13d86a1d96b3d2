"""Pictures as SVG. What they hold are numbers and fixed words, never a key."""
from .markup import element, text_of, void

LETTER = 7.3  # the width of a letter of the fixed pitch at 12 pixels
LEFT, RIGHT = 10, 12
LEAST_COLUMN, LEAST_WIDTH = 46, 340
AXIS, BAND, BAND_HEIGHT, TAG = 16, 26, 38, 15
LABEL, BAR, CHIP, LANE_GAP = 16, 14, 20, 14

# What the pictures of a page share: hatching, and the heads of arrows.
SHARED = (
    '<svg class="shared" width="0" height="0" aria-hidden="true" focusable="false"><defs>'
    '<pattern id="hatch" width="6" height="6" patternUnits="userSpaceOnUse" patternTransform="rotate(45)">'
    '<line x1="0" y1="0" x2="0" y2="6" class="hatching"/></pattern>'
    '<marker id="arrow" viewBox="0 0 8 8" refX="8" refY="4" markerWidth="9" markerHeight="9" orient="auto">'
    '<path d="M0 0 L8 4 L0 8 z"/></marker></defs></svg>')


def words(x, y, text, **values):
    return element("text", text_of(text), x=number(x), y=number(y), **values)


def number(value):
    return f"{value:.1f}".removesuffix(".0")


def box(x, y, width, height, **values):
    return void("rect", x=number(x), y=number(y), width=number(width), height=number(height), **values)


def line(x1, y1, x2, y2, **values):
    return void("line", x1=number(x1), y1=number(y1), x2=number(x2), y2=number(y2), **values)


def width_of(text):
    return len(text) * LETTER


def picture_frame(width, height, label, parts):
    """An SVG that is one picture to a screen reader, with the label as its text. It keeps its size; who shows it scrolls."""
    return element("svg", *parts, width=number(width), height=number(height),
                   viewBox=f"0 0 {number(width)} {number(height)}", role="img", aria_label=label)


class Axis:
    """The places of stamps from left to right: in their order, not to scale, each with room for what stands between."""

    def __init__(self, picture):
        stamps = {stamp for lane in picture.lanes for stamp in (lane.start, lane.end)}
        stamps |= {version.begins for version in picture.versions}
        self.stamps = sorted(stamps - {None})
        self.spans = []  # from, to (a place among the stamps; -1 the left edge, the number of them the right), least width
        self.places = {stamp: place for place, stamp in enumerate(self.stamps)}
        self.add_labels()
        self.add_versions(picture.versions)
        self.add_lanes(picture.lanes)
        self.lay_out()

    def add_labels(self):
        widths = [width_of(str(stamp)) for stamp in self.stamps]
        for place in range(len(widths) - 1):
            self.spans.append((place, place + 1, max(LEAST_COLUMN, (widths[place] + widths[place + 1]) / 2 + 10)))
        self.spans.append((-1, 0, widths[0] / 2))
        self.spans.append((len(widths) - 1, len(widths), widths[-1] / 2))

    def add_versions(self, versions):
        edges = [-1 if version.begins is None else self.places[version.begins] for version in versions]
        for version, begins, ends in zip(versions, edges, [*edges[1:], len(self.stamps)]):
            longest = max(map(len, (version.text, version.origin)))
            tags = max((len(tag) + 2 for tag in version.tags), default=0)
            self.spans.append((begins, ends, max(longest, tags) * LETTER + 14))

    def add_lanes(self, lanes):
        for lane in lanes:
            if lane.end is None:
                self.spans.append((self.places[lane.start], len(self.stamps), width_of(lane.state) + 30))

    def lay_out(self):
        ends = [LEFT] + [0] * (len(self.stamps) + 1)
        for begin, end, width in sorted(self.spans, key=lambda span: span[1]):
            ends[end + 1] = max(ends[end + 1], ends[begin + 1] + width)
        self.left, *self.xs, self.right = ends

    def x(self, stamp):
        return self.xs[self.places[stamp]]


def chip_rows(chips, width):
    """The chips in rows of that width, each with its left edge and its width."""
    rows, x = [[]], LEFT
    for chip in chips:
        wide = width_of(chip.text) + 14 + (12 if chip.is_wrong else 0)
        if rows[-1] and x + wide > width:
            rows.append([])
            x = LEFT
        rows[-1].append((chip, x, wide))
        x += wide + 6
    return rows


def draw_chip(chip, x, y, wide):
    if chip.is_left_out:
        return words(x + 7, y + 14, f"… {chip.text}", class_="left-out")
    kind = "write" if chip.is_write else "read"
    text = f"✗ {chip.text}" if chip.is_wrong else chip.text
    return box(x, y, wide, CHIP, rx=4, class_=f"chip {kind}{' wrong' if chip.is_wrong else ''}") \
        + words(x + 7, y + 14, text, class_="chip-text wrong-text" if chip.is_wrong else "chip-text")


def draw_bar(lane, axis, y):
    """The bar of a lane: closed where the transaction committed, open and dashed where it didn't, or isn't known to have."""
    begin = axis.x(lane.start)
    middle = y + BAR / 2
    kind = "reader" if lane.is_reader else "ghost" if lane.is_ghost else "writer"
    if lane.end is None:
        shape = box(begin, y, axis.right - begin, BAR, class_=f"bar open {kind}")
        shape += words(axis.right - 8, y + 11, lane.state, class_="state", text_anchor="end")
    elif lane.end == lane.start:
        shape = void("path", d=f"M{number(begin - 9)} {middle} l9 -8 l9 8 l-9 8 z", class_=f"bar {kind}")
    else:
        shape = box(begin, y, axis.x(lane.end) - begin, BAR, class_=f"bar {kind}")
        shape += box(axis.x(lane.end) - 4, y - 2, 4, BAR + 4, class_="commit")
    if lane.end != lane.start:
        shape += void("circle", cx=number(begin), cy=middle, r=5, class_="start")
    return shape


def lane_label(lane):
    state = f" ({lane.state})" if lane.is_ghost else ""
    name = f"transaction {lane.id}{state}"
    return element("tspan", text_of(name), class_="name") + element("tspan", text_of(f" {lane.role}"), class_="role")


def label_width(lane):
    return len(f"transaction {lane.id} {lane.role} {lane.state if lane.is_ghost else ''}") * 6.6 + LEFT + 16


def draw_lanes(picture, axis, top, width):
    """The lanes below one another: the parts, the middles of the bars, and where the last one ends."""
    parts, middles, y = [], [], top
    for lane in picture.lanes:
        parts.append(element("text", lane_label(lane), x=LEFT, y=number(y + 12)))
        parts.append(draw_bar(lane, axis, y + LABEL + 4))
        middles.append(y + LABEL + 4 + BAR / 2)
        y += LABEL + BAR + 12
        for row in chip_rows(lane.chips, width - RIGHT):
            parts.extend(draw_chip(chip, x, y, wide) for chip, x, wide in row)
            y += CHIP + 4
        y += LANE_GAP
    return parts, middles, y


def draw_versions(versions, axis):
    """The band of versions, each from its commit on, and the texts in it and below it."""
    edges = [axis.left if version.begins is None else axis.x(version.begins) for version in versions]
    boxes, texts = [], []
    for version, begin, end in zip(versions, edges, [*edges[1:], axis.right]):
        kind = "left-out" if version.is_left_out else "tagged" if version.tags else "plain"
        boxes.append(box(begin, BAND, end - begin, BAND_HEIGHT, class_=f"version {kind}"))
        texts.append(words(begin + 6, BAND + 15, version.text, class_="value"))
        texts.append(words(begin + 6, BAND + 31, version.origin, class_="origin"))
        for row, tag in enumerate(version.tags, 1):
            texts.append(words(begin + 2, BAND + BAND_HEIGHT + TAG * row - 2, f"▲ {tag}", class_="tag"))
    return boxes, texts


def draw_marks(picture, axis, middles):
    """The line of the reader's snapshot, from the versions to its bar, or the time in which both were under way."""
    if picture.overlap:
        begin, end = map(axis.x, picture.overlap)
        top, bottom = middles[0] - BAR / 2 - 3, middles[-1] + BAR / 2 + 3
        return [box(begin, top, end - begin, bottom - top, class_="both")]
    x = axis.x(picture.snapshot)
    return [line(x, BAND - 6, x, middles[-1], class_="snapshot")]


def draw_axis(axis, bottom):
    parts = []
    for stamp in axis.stamps:
        x = axis.x(stamp)
        parts.append(line(x, AXIS + 3, x, bottom, class_="grid"))
        parts.append(words(x, AXIS - 4, str(stamp), class_="stamp", text_anchor="middle"))
    return parts


def draw_picture(picture, label):
    """The picture of a finding: stamps, the versions of the key, and a lane for each transaction."""
    axis = Axis(picture)
    width = max(LEAST_WIDTH, axis.right + RIGHT, *(label_width(lane) for lane in picture.lanes))
    axis.right = max(axis.right, width - RIGHT)
    tags = max(len(version.tags) for version in picture.versions)
    top = BAND + BAND_HEIGHT + TAG * tags + 14
    lanes, middles, bottom = draw_lanes(picture, axis, top, width)
    boxes, texts = draw_versions(picture.versions, axis)
    parts = draw_axis(axis, bottom - LANE_GAP) + boxes + draw_marks(picture, axis, middles) + texts + lanes
    return picture_frame(width, bottom, label, parts)


def pill(x, y, text):
    wide = width_of(text) + 20
    return box(x, y, wide, 26, rx=13, class_="node") + words(x + wide / 2, y + 17, text, text_anchor="middle"), wide


def draw_steps(steps, label):
    """Steps from one transaction to the next, side by side."""
    gap = 90
    drawn, right = pill(LEFT, 24, str(steps[0][0]))
    parts, right = [drawn], LEFT + right
    for _, name, second in steps:
        drawn, wide = pill(right + gap, 24, str(second))
        parts += [drawn, line(right + 2, 37, right + gap - 2, 37, class_="edge", marker_end="url(#arrow)"),
                  words(right + gap / 2, 31, name, text_anchor="middle", class_="edge-label")]
        right += gap + wide
    return picture_frame(right + RIGHT, 64, label, parts)


def draw_edges(edges, label):
    """One edge, or two that lead there and back, between two transactions."""
    first, _, second = edges[0]
    left, left_width = pill(LEFT, 24, str(first))
    gap = 90
    right, right_width = pill(LEFT + left_width + gap, 24, str(second))
    begin, end = LEFT + left_width, LEFT + left_width + gap
    parts = [left, right]
    for edge, y in zip(edges, (31, 43) if len(edges) == 2 else (37,)):
        there = edge[0] == first
        parts.append(line(begin + 2 if there else end - 2, y, end - 2 if there else begin + 2, y, class_="edge",
                          marker_end="url(#arrow)"))
        parts.append(words((begin + end) / 2, y - 6 if there else y + 16, edge[1], text_anchor="middle", class_="edge-label"))
    return picture_frame(LEFT + left_width + gap + right_width + RIGHT, 64, label, parts)
