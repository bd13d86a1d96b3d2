"""Elements of HTML and SVG as text. What comes from a log goes through `text_of` first."""
from html import escape

from .wording import with_escapes


def attributes(values):
    """The attributes; a name ends with `_` where Python has the word for itself, and None leaves an attribute out."""
    return "".join(f' {name.rstrip("_").replace("_", "-")}="{escape(str(value))}"' for name, value in values.items()
                   if value is not None)


def element(name, *contents, **values):
    return f"<{name}{attributes(values)}>{''.join(contents)}</{name}>"


def void(name, **values):
    """An element that never has contents."""
    return f"<{name}{attributes(values)}/>"


def text_of(text):
    """Any text as it is shown: escaped, and with an escape for each character that can't be seen."""
    return escape(with_escapes(str(text)))


def data(text):
    """Text of the log: shown from left to right by itself, whatever letters it has."""
    return element("code", text_of(text), class_="data", dir="ltr")


def table(caption, heads, rows, **values):
    """A table in which the first cell of each row is its head. The cells know their column's name, which a small screen shows
    beside them, and their roles, which they would lose there."""
    head = element("tr", *(element("th", text_of(name), scope="col", role="columnheader") for name in heads), role="row")
    body = []
    for row in rows:
        cells = [element("th", row[0], scope="row", role="rowheader", data_head=heads[0])]
        cells += [element("td", cell, role="cell", data_head=name) for name, cell in zip(heads[1:], row[1:])]
        body.append(element("tr", *cells, role="row"))
    return element("table", element("caption", text_of(caption)), element("thead", head, role="rowgroup"),
                   element("tbody", *body, role="rowgroup"), role="table", **values)


def scrolled(content, label):
    """Content that may be wider than the screen, which the keyboard can scroll too."""
    return element("div", content, class_="scrolled", role="region", tabindex="0", aria_label=label)
