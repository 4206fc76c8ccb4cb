"""A script of very many lines: its page comes in time, has the first 20,000 rows, and tells of all lines at its top."""
import collections
import xml.parsers.expat

from check_facts import run
from check_page import Page
from check_rows import DRAWN, check_rest
from check_script import UNNAMED, make_page
from check_scripts import many_lines
from check_top import check_top


class Ends:
    """What the programs say of the whole script. It never leaves fallback, so 26h is as at power-up."""

    def __init__(self, programs, script):
        printed = run(programs, "saturn_script", script)[1:]
        self.count = len(printed)
        answers = collections.Counter(line.split(" ", 2)[1] for line in printed)
        self.counts = {None if answer == "BAD" else int(answer): count for answer, count in answers.items()}
        if any(" R " in line for line in printed):
            raise ValueError("the long script leaves fallback")
        self.mode, self.cyc = next(line for line in reversed(printed) if not line.endswith("BAD")).split(" ")[2:]
        self.registers = bytes.fromhex(run(programs, "saturn_trace", b"0 \n")[1].split(" ")[5])
        self.time = sum(int(line[2:]) for line in script.split(b"\n") if line.startswith(b"T "))
        self.which = run(programs, "saturn_which", script)


def check_long(view, programs, header, count):
    """The differences, as a list."""
    script = many_lines(count)
    page, found = make_page(view, script)
    try:
        read = Page(page)
    except xml.parsers.expat.ExpatError as error:
        return found + [f"{count:,} lines: not well-formed: {error}"]
    found += check_top(read, Ends(programs, script), header, UNNAMED)
    for tag, letter in ("tr", "L"), ("a", "M"):
        names = [node.attrs["id"] for node in read.nodes if node.tag == tag and "id" in node.attrs]
        if names != [f"{letter}{i + 1}" for i in range(DRAWN)]:
            found.append(f"{len(names)} elements {tag} with an id, not {DRAWN:,} in order")
    if "rows" in read.ids:
        found += check_rest(read.ids["rows"], count)
    return [f"{count:,} lines: {what}" for what in found]
