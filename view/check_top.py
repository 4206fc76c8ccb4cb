"""The top of a page against the facts: the title, the four paragraphs and the table of counts."""
import re

from check_rows import DRAWN, shown_line, shown_parts

WHICH = {"FALLBACK": "The script itself ends in fallback", "NONE": "No single frame mattered", "LONG": "Too long for saturn-which"}


def check_title(nodes, name):
    """The file's name, given as bytes, in its two places. In <title> are no elements: the digits of a byte may be in brackets."""
    places = ("title", "head"), ("h1", "header")
    heads, tops = ([node for node in nodes if (node.tag, node.parent.tag) == place] for place in places)
    due = shown_line(name)
    if [shown_parts(node) for node in tops] != [due]:
        yield f"top: <h1> is {[node.text() for node in tops]}, and the name {name}"
    titles = ["".join(text if kind == "text" else form.format(text) for kind, text in due) for form in ("{}", "[{}]")]
    if len(heads) != 1 or heads[0].text() not in titles:
        yield f"top: <title> is {[node.text() for node in heads]}, and the name {name}"


def check_end(said, facts):
    mode = {"F": "Ends in fallback", "R": "Ends in RUN"}[facts.mode]
    if not said.startswith(mode) or re.findall(r"\b[0-9A-F]{2}h", said) != [facts.cyc + "h"]:
        yield f"end: {said!r}, and the trace ends {facts.mode} {facts.cyc}"


def check_ground(said, facts, grounds):
    """The number of 26h and its words, and no other."""
    ground = facts.registers[0x26]
    rest = said.replace("26h", "", 1)
    named = [number for number, words in grounds.items() if rest.rstrip(".").endswith(words)]
    if named != [ground] or re.findall(r"\d+", rest) != [str(ground)]:
        yield f"ground: {said!r}, and 26h is {ground}"


def check_which(node, facts):
    printed, said = facts.which, node.words()
    links = [link.attrs.get("href") for link in node.find("a")]
    mattered = re.fullmatch(r"\d+", printed[0]) if len(printed) == 1 else None
    if mattered:
        right = said.startswith(f"Line {printed[0]} mattered") and links == [f"#L{printed[0]}"]
    else:
        right = len(printed) == 1 and said.startswith(WHICH[printed[0]]) and not links
    others = [words for name, words in WHICH.items() if words in said and [name] != printed]
    if not right or others or (not mattered and re.search(r"Line \d+ mattered", said)):
        yield f"which: {said!r} with {links}, and saturn-which printed {printed}"


def check_drawn(said, facts):
    """How many lines and milliseconds, and how many lines are drawn if not all are."""
    count = facts.count
    for many, unit in (count, r"lines?\b"), (facts.time, r"(ms|milliseconds?)\b"):
        if not re.search(rf"(?<![\d,]){many:,} {unit}", said):
            yield f"drawn: {said!r}, and the script has {count:,} lines and {facts.time:,} ms"
    left_out = f"The first {DRAWN:,} of {count:,} lines are drawn."
    if (count > DRAWN) != (left_out in said) or (count <= DRAWN and "drawn" in said):
        yield f"drawn: {said!r} with {count:,} lines"


def check_counts(table, facts, answers):
    """A row for each answer that occurred, with all lines that had it."""
    counts = dict(facts.counts)
    bad = counts.pop(None, 0)
    due = [[str(answer), answers[answer], f"{counts[answer]:,}"] for answer in sorted(counts)]
    rows = [[cell.words() for cell in row.find("td")] for row in table.find("tr") if row.find("td")]
    if bad and rows and len(rows[-1]) == 3 and rows[-1][1]:
        due.append(["BAD", rows[-1][1], f"{bad:,}"])
    elif bad:
        due.append(["BAD", "some words", f"{bad:,}"])
    if rows != due:
        odd = [pair for pair in zip(rows, due) if pair[0] != pair[1]][:1]
        yield f"counts: {len(rows)} rows for {len(due)}; the first that differ: {odd}"


def check_top(page, facts, header, name):
    """name: that of the script's file, as bytes."""
    yield from check_title(page.nodes[1:], name)
    ids = page.ids
    for name, tag in ("end", "p"), ("ground", "p"), ("which", "p"), ("drawn", "p"), ("counts", "table"):
        node = ids.get(name)
        if not node or node.tag != tag or node.parent.tag != "header":
            yield f"top: no <{tag} id=\"{name}\"> in the header"
            return
    yield from check_end(ids["end"].words(), facts)
    yield from check_ground(ids["ground"].words(), facts, header.grounds)
    yield from check_which(ids["which"], facts)
    yield from check_drawn(ids["drawn"].words(), facts)
    yield from check_counts(ids["counts"], facts, header.answers)
