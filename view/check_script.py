"""A script, its page, and every difference between the two."""
import os
import subprocess
import xml.parsers.expat

from check_facts import Facts
from check_page import Page, check_html, check_moved
from check_rows import check_rows, check_spaces
from check_safety import check_safety
from check_timeline import check_timeline
from check_top import check_top

UNNAMED = b"standard input"
MOST_SECONDS = 40    # how long a page may take
MOST_HTML = 5000000  # how many bytes are read by html.parser, which is slow


def make_page(words, script=None, may_speak=False):
    """The page that a command writes, the script on its standard input if it is given; and what is wrong with the run. A launcher
    may speak: it says what it builds."""
    given = {"input": script} if script is not None else {"stdin": subprocess.DEVNULL}
    try:
        done = subprocess.run(words, stdout=subprocess.PIPE, stderr=subprocess.PIPE, timeout=MOST_SECONDS, check=False, **given)
    except subprocess.TimeoutExpired:
        return b"", [f"no page after {MOST_SECONDS} seconds"]
    well = done.returncode == 0 and (may_speak or not done.stderr)
    return done.stdout, [] if well else [f"exit {done.returncode}, and it says {done.stderr[:200]!r}"]


def differences(page, facts, header, kinds, name=UNNAMED, as_html=True):
    """All that is wrong with a page. kinds collects the words for each kind of frame; name is that of the script's file."""
    try:
        read = Page(page)
    except xml.parsers.expat.ExpatError as error:
        return [f"not well-formed: {error}"]
    found = list(check_html(read)) if as_html else []
    found += check_moved(read)
    found += check_safety(read)
    found += check_top(read, facts, header, name)
    found += check_spaces(read.nodes)
    found += check_rows(read.ids, facts, header, kinds)
    found += check_timeline(read.ids, facts, header)
    return found


def check_reasons(page, reasons):
    """The reasons of BAD lines hold the words they must, commas in numbers aside."""
    ids = Page(page).ids if reasons else {}
    for line, word in dict(reasons).items():
        cells = [cell for cell in ids[f"L{line}"].inside() if "answer" in cell.classes()] if f"L{line}" in ids else []
        said = "".join(cell.words() for cell in cells)
        if not said.startswith("BAD") or word not in said.replace(",", ""):
            yield f"row {line}, answer: {said!r} does not hold {word!r}"


def check_kinds(pages):
    """Every kind of frame has its words, the same on all pages, and no other kind has them. pages: the words by kind, of each."""
    kinds = {}
    for page in pages:
        for kind, words in page.items():
            kinds.setdefault(kind, set()).update(words)
    said = [words for some in kinds.values() for words in some]
    for kind, words in kinds.items():
        if len(words) != 1 or any(said.count(one) > 1 or len(one) < 3 for one in words):
            yield f"the kind {kind} is called {sorted(words)}"


class Result:
    """What came of one script: how much there was to compare, and what differed."""

    def __init__(self, name, facts):
        self.name, self.found, self.kinds = name, [], {}
        self.lines, self.answers = facts.count, facts.count - facts.counts[None]
        self.changes = sum(len(line.changes) for line in facts.lines)
        self.ends, self.ends_drawn = len(facts.clock), 0


def check_one(view, programs, header, job):
    """Makes the page of one script and compares it. view: the words that start the page program."""
    facts = Facts(programs, job.script)
    result = Result(job.name, facts)
    name = os.fsencode(os.path.basename(job.path)) if job.path else UNNAMED
    page, result.found = make_page(view + [job.path]) if job.path else make_page(view, job.script)
    try:
        result.found += differences(page, facts, header, result.kinds, name, len(page) < MOST_HTML)
    except (AttributeError, IndexError, KeyError, TypeError, ValueError) as error:
        result.found.append(f"a part that PAGE.md names is missing or of another form: {error!r}")
    if not result.found:
        result.found += check_reasons(page, job.reasons)
    result.ends_drawn = page.count(b'<path class="clock"')
    return result
