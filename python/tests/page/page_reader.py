"""For tests: makes a page of lines and an answer, and reads it back, looking whether its tags nest and its pictures parse."""
import io
import json
import os
import re
import subprocess
import sys
import tempfile
import unittest
from contextlib import redirect_stderr
from html.parser import HTMLParser
from pathlib import Path
from xml.etree import ElementTree

from sicheck.page.command import page_of, settings
from sicheck.page.histories import Source

PYTHON = Path(__file__).resolve().parents[2]
VOID = {"meta", "br"}


class Tags(HTMLParser):
    """The elements of a page: what each article, heading and cell says, and every id."""

    def __init__(self, text):
        super().__init__()
        self.open, self.ids, self.links, self.faults = [], [], [], []
        self.texts = {}  # by the name of a tag: the texts of its elements
        self.articles = {}  # by address: what the article says
        self.words = []
        self.attributes = []
        self.feed(text)
        self.close()
        self.faults += [f"{name} isn't closed" for name, *_ in self.open]

    def handle_starttag(self, tag, attrs):
        attrs = dict(attrs)
        self.attributes.append((tag, attrs))
        if "id" in attrs:
            self.ids.append(attrs["id"])
        if attrs.get("href", "").startswith("#"):
            self.links.append(attrs["href"][1:])
        if tag not in VOID:
            self.open.append((tag, attrs, []))

    def handle_startendtag(self, tag, attrs):
        self.handle_starttag(tag, attrs)
        if tag not in VOID:
            self.handle_endtag(tag)

    def handle_endtag(self, tag):
        if not self.open or self.open[-1][0] != tag:
            self.faults.append(f"{tag} at {self.getpos()} closes {self.open[-1][0] if self.open else 'nothing'}")
            return
        name, attrs, words = self.open.pop()
        text = "".join(words)
        self.texts.setdefault(name, []).append(text)
        if name == "article":
            self.articles[attrs["id"]] = text
        if self.open:
            self.open[-1][2].append(text)

    def handle_data(self, data):
        self.words.append(data)
        if self.open:
            self.open[-1][2].append(data)


class Result:
    """What a run of the command gave: its status, its page and its complaint."""

    def __init__(self, status, page, complaint):
        self.status, self.page, self.complaint = status, page, complaint
        self.read = None

    def tags(self):
        """The elements of the page, which is read once."""
        self.read = self.read or Tags(self.page)
        return self.read

    def pictures(self):
        """The pictures of the page, each parsed as XML."""
        return [ElementTree.fromstring(text) for text in re.findall(r"<svg.*?</svg>", self.page, re.DOTALL)]

    def picture_of(self, address):
        """The picture of a finding: the first one in its article."""
        article = self.page[self.page.index(f'<article id="{address}"'):]
        return ElementTree.fromstring(re.search(r"<svg.*?</svg>", article, re.DOTALL)[0])


def texts_of(picture, kind):
    """The texts of the elements of a picture that have the class."""
    return ["".join(part.itertext()) for part in picture.iter() if kind in part.get("class", "").split()]


def lines(*edits):
    """A log of these edits, each a text or a value to be written as JSON."""
    return "".join((edit if isinstance(edit, str) else json.dumps(edit)) + "\n" for edit in edits)


def committed(number, start, commit, *ops):
    return {"do": "txn", "id": number, "start": start, "status": "committed", "commit": commit, "ops": list(map(list, ops))}


def unfinished(number, start, status, *ops):
    return {"do": "txn", "id": number, "start": start, "status": status, "ops": list(map(list, ops))}


class PageTest(unittest.TestCase):
    """A test with a folder of its own."""

    def setUp(self):
        folder = tempfile.TemporaryDirectory()
        self.addCleanup(folder.cleanup)
        self.folder = Path(folder.name)

    def write(self, name, content):
        path = self.folder / name
        path.write_bytes(content if isinstance(content, bytes) else content.encode("utf-8"))
        return str(path)

    def sources(self, *logs):
        """The logs as sources."""
        found = [Source(self.write(f"{place}.jsonl", log)) for place, log in enumerate(logs)]
        for source in found:
            self.addCleanup(source.close)
        return found

    def run_command(self, *words):
        """The command `python3 -m sicheck page`, on these words."""
        env = {**os.environ, "PYTHONPATH": str(PYTHON)}
        done = subprocess.run([sys.executable, "-m", "sicheck", "page", *words], env=env, capture_output=True, check=False)
        return Result(done.returncode, done.stdout.decode("utf-8"), done.stderr.decode("utf-8"))

    def words(self, logs, answer, *options):
        """The words that ask for the page of these logs and this answer; one log may stand without a list."""
        logs = logs if isinstance(logs, list) else [logs]
        names = [self.write(f"{place}.jsonl", log) for place, log in enumerate(logs)]
        return [*names, "--answer", self.write("answer", answer), *options]

    def page(self, logs, answer, *options):
        """The page of these logs and this answer, without a process of its own."""
        complaint = io.StringIO()
        with redirect_stderr(complaint):
            page, status = page_of(settings(self.words(logs, answer, *options)))
        return Result(status, page, complaint.getvalue())

    def good_page(self, logs, answer, *options):
        """The page, which has to be made without a complaint and to be well formed."""
        return self.checked(self.page(logs, answer, *options))

    def checked(self, result):
        self.assertEqual((result.status, result.complaint), (0, ""))
        self.check_form(result)
        return result

    def check_says(self, result, *texts):
        """The page has these texts, each within one element or across them."""
        words = "".join(result.tags().words)
        for text in texts:
            self.assertTrue(text in words, f"the page doesn't say: {text}")

    def check_form(self, result):
        tags = result.tags()
        self.assertEqual(tags.faults, [])
        self.assertEqual(len(tags.ids), len(set(tags.ids)), "an id stands twice")
        self.assertEqual(set(tags.links) - set(tags.ids), set(), "links lead nowhere")
        self.assertTrue(all(picture.tag == "svg" for picture in result.pictures()))
