"""The rows of a page against the facts: one for each drawn line, in order, with nothing missing and nothing more."""
import re

from check_facts import ASKED_BYTES, MODES

DRAWN = 20000  # how many lines are drawn at most
SHOWN = 400    # after how many bytes the text of a line is cut
CELLS = ["line", "time", "port", "what", "answer", "mode", "changes", "reply"]
NAMED = re.compile(r"(\w+) \(([0-9A-F]{2})h(?: to ([0-9A-F]{2})h)?\): ([0-9A-F]+)h → ([0-9A-F]+)h")
PLACED = re.compile(r"(output|input)(s?) ([0-9A-F]{2})h(?: to ([0-9A-F]{2})h)?: ([0-9A-F ]+) → ([0-9A-F ]+)")
PLACES = {"output": (0x80, 0xBF), "input": (0xC0, 0xFF)}


def number(text):
    """A whole number, with or without commas; None for anything else."""
    return int(text.replace(",", "")) if re.fullmatch(r"\d+|\d{1,3}(,\d{3})+", text) else None


def numbers_in(text):
    """The whole numbers in a text, with or without commas."""
    return [int(word.replace(",", "")) for word in re.findall(r"\d{1,3}(?:,\d{3})+|\d+", text)]


def decoded_named(match, registers):
    """Address to old and new byte, of a change of a register with a name. A number has its low byte at the low address."""
    name, first, last, old, new = match.groups()
    first, last = int(first, 16), int(last or first, 16)
    size = last - first + 1
    if registers.get(name) != (first, last) or len(old) != 2 * size or len(new) != 2 * size:
        return None
    old, new = bytes.fromhex(old)[::-1], bytes.fromhex(new)[::-1]
    return {first + i: pair for i, pair in enumerate(zip(old, new))}


def decoded_placed(match):
    """The same, of a run of outputs or inputs."""
    kind, several, first, last, old, new = match.groups()
    first, last = int(first, 16), int(last or first, 16)
    old, new = ([int(digits, 16) for digits in text.split(" ")] for text in (old, new))
    inside = PLACES[kind][0] <= first <= last <= PLACES[kind][1]
    if not inside or bool(several) != (last > first) or not len(old) == len(new) == last - first + 1:
        return None
    return {first + i: pair for i, pair in enumerate(zip(old, new))}


def decoded(text, registers):
    """A change read back from its text, or None."""
    match = NAMED.fullmatch(text)
    if match:
        return decoded_named(match, registers)
    match = PLACED.fullmatch(text)
    return decoded_placed(match) if match else None


def check_items(texts, changes, registers):
    """The texts of changes, as a list, say what changed: each byte once, in order, neighbours of one kind in one run."""
    shown, last = {}, -1
    for text in texts:
        change = decoded(text, registers)
        if change is None:
            yield f"the change {text!r} cannot be read"
            continue
        if min(change) <= last:
            yield f"the change {text!r} is out of order"
        if min(change) == last + 1 and min(change) > 0x80 and min(change) != 0xC0:
            yield f"the change {text!r} belongs to the run before it"
        if min(change) >= 0x80 and any(old == new for old, new in change.values()):
            yield f"the change {text!r} holds a register that did not change"
        last = max(change)
        shown.update((address, pair) for address, pair in change.items() if pair[0] != pair[1])
    for address in sorted(set(shown) | set(changes)):
        if shown.get(address) != changes.get(address):
            yield f"change of {address:02X}h: {changes.get(address)} in the trace, {shown.get(address)} on the page (old, new)"


def check_changes(cell, line, registers):
    inside = cell.inside()
    paragraphs, lists = ([node for node in inside if node.tag == tag] for tag in ("p", "ul"))
    if len(paragraphs) + len(lists) != len(inside) or len(lists) != bool(line.changes) or inside != paragraphs + lists:
        yield "changes: not a paragraph if the mode changed in a T line, and a list if registers did"
    said = [node.words() for node in paragraphs]
    due = [] if line.fallback_after is None else [f"after {line.fallback_after} ms: {MODES[line.mode]}"]
    if [text.replace(",", "") for text in said] != due:
        yield f"changes: {said} on the page, {due} tick by tick"
    items = [item.words() for node in lists for item in node.find("li")]
    yield from check_items(items, line.changes, registers)
    if "".join(cell.text().split()) != "".join("".join(said + items).split()):
        yield "changes: text beside the paragraph and the list"


def shown_line(raw):
    """The children of <code> for a line of the script: texts, and the digits of bytes that are not shown as text."""
    parts = []
    for byte in raw[:SHOWN]:
        if not 0x20 <= byte <= 0x7E:
            parts.append(("byte", f"{byte:02X}"))
        elif parts and parts[-1][0] == "text":
            parts[-1] = ("text", parts[-1][1] + chr(byte))
        else:
            parts.append(("text", chr(byte)))
    return parts


def shown_parts(node):
    """The children of an element in the same form, without a word about a cut."""
    return [("text", child) if isinstance(child, str) else (" ".join(child.classes()), child.text())
            for child in node.children if isinstance(child, str) or "cut" not in child.classes()]


def check_spaces(nodes):
    """A browser shows the spaces of a line as they are; without such a style it would run `T  5` together."""
    style = "".join(node.text() for node in nodes if node.tag == "style")
    rules = [what for where, what in re.findall(r"([^{}]*)\{([^{}]*)\}", style) if re.search(r"\bcode\b", where)]
    if not any(re.search(r"white-space:\s*(pre|pre-wrap|break-spaces)\s*(;|$)", what) for what in rules):
        yield "spaces: the style of <code> lets a browser run the spaces of a BAD line together"


def check_bad_line(cell, line):
    """The line itself, as it is in the script."""
    codes, cuts = cell.find("code"), cell.find("span", "cut")
    if len(codes) != 1 or shown_parts(codes[0]) != shown_line(line.raw):
        yield f"what: {line.raw[:60]!r} is not shown as it is"
    if len(cuts) != (len(line.raw) > SHOWN) or any(len(line.raw) not in numbers_in(cut.text()) for cut in cuts):
        yield f"what: a line of {len(line.raw)} bytes, and the page says {[cut.words() for cut in cuts]}"


def named_place(place, address, registers):
    """Whether the words name the register with this address."""
    if place in ("outputs", "inputs"):
        first, last = PLACES[place[:-1]]
    elif place in registers:
        first, last = registers[place]
    else:
        known = any(first <= address <= last for first, last in list(registers.values()) + list(PLACES.values()))
        return place == f"register {address:02X}h" and not known
    return first <= address <= last


def check_frame(where, cell, text, registers, kinds):
    """The kind in words, and what saturn-frame writes. kinds collects the words of each kind."""
    shown = [code.text() for code in cell.find("code")]
    if shown != [text]:
        yield f"{where}: {[code[:80] for code in shown]} on the page, {text[:80]!r} by saturn-frame"
        return
    before = cell.children[0] if isinstance(cell.children[0], str) else ""
    if "".join(cell.text().split()) != "".join((before + text).split()):
        yield f"{where}: text behind the frame"
    words, kind = " ".join(before.split()), text.split(" ")[0]
    place = re.fullmatch(r"(.*), (to|from) (.*)", words)
    address = re.search(r" at=([0-9A-F]{2})\b", text)
    if place and address:
        words = place[1]
        if not named_place(place[3], int(address[1], 16), registers):
            yield f"{where}: {place[3]!r} is not the place of {text[:80]!r}"
    kinds.setdefault(kind, set()).add(words)


def check_what(cell, line, facts, registers, kinds):
    words = cell.words()
    if line.body_bytes() > ASKED_BYTES:
        if f"{line.body_bytes()} bytes" not in words:
            yield f"what: {words[:80]!r} for a body of {line.body_bytes()} bytes, too long for saturn-frame"
    elif line.kind == "frame":
        yield from check_frame("what", cell, facts.frame_text(line), registers, kinds)
    elif line.kind == "BAD":
        yield from check_bad_line(cell, line)
    elif line.kind == "I" and words != "1 tick, with inputs":
        yield f"what: {words!r} for an I line"
    elif line.kind == "T" and words.replace(",", "") != f"{line.ticks()} tick" + "s" * (line.ticks() != 1):
        yield f"what: {words!r} for {line.raw[:20]!r}"


def check_said(cells, line, answers):
    """The number, the time, the port, the answer and the mode."""
    links = [(link.attrs.get("href"), link.words()) for link in cells["line"].find("a")]
    if links != [(f"#M{line.number}", str(line.number))] or cells["line"].words() != str(line.number):
        yield f"line: {links}"
    times = [number(word) for word in cells["time"].words().split(" to ")]
    if times != ([line.start, line.end] if line.ticks() else [line.start]):
        yield f"time: {cells['time'].words()!r} on the page, {line.start} to {line.end} by the script"
    port = line.raw[:1].decode("ascii") if line.kind == "frame" else ""
    if cells["port"].words() != port:
        yield f"port: {cells['port'].words()!r} on the page, {port!r} in the script"
    said = cells["answer"].words()
    if line.kind == "BAD" and not re.match(r"BAD\b[^A-Za-z]*[A-Za-z].*[A-Za-z].*[A-Za-z]", said):
        yield f"answer: {said!r} for a BAD line"
    if line.kind != "BAD" and said != f"{line.answer} {answers[line.answer]}":
        yield f"answer: {said!r} on the page, {line.answer} in the trace"
    mode = "" if line.kind == "BAD" else f"{MODES[line.mode]} {line.cyc}"
    if cells["mode"].words() != mode:
        yield f"mode: {cells['mode'].words()!r} on the page, {mode!r} in the trace"


def check_row(row, line, facts, header, kinds):
    due = "bad" if line.kind == "BAD" else "refused" if line.answer else "ok"
    if row.classes() != [due]:
        yield f"class {row.attrs.get('class')!r} in place of {due!r}"
    inside = row.inside()
    if [(child.tag, child.attrs.get("class")) for child in inside] != [("td", name) for name in CELLS]:
        yield f"the cells are {[child.attrs.get('class') for child in inside]}"
        return
    cells = dict(zip(CELLS, inside))
    yield from check_said(cells, line, header.answers)
    yield from check_what(cells["what"], line, facts, header.registers, kinds)
    yield from check_changes(cells["changes"], line, header.registers)
    if line.reply:
        yield from check_frame("reply", cells["reply"], facts.frames[line.reply], header.registers, kinds)
    elif cells["reply"].children:
        yield f"reply: {cells['reply'].words()[:60]!r} on the page, none in the trace"


def check_rest(section, count):
    """What is said of the lines that are not drawn."""
    said = [node.words() for node in section.inside() if node.attrs.get("id") == "rest"]
    due = [f"Lines {DRAWN + 1:,} to {count:,} are not drawn."] if count > DRAWN + 1 else None
    if count <= DRAWN and said:
        yield f"rest: {said} with {count} lines"
    if count == DRAWN + 1 and not (len(said) == 1 and f"{count:,}" in said[0] and "not drawn" in said[0]):
        yield f"rest: {said} with {count} lines"
    if due and said != due:
        yield f"rest: {said} in place of {due}"


def check_rows(ids, facts, header, kinds):
    """ids: the elements of the page by their ids; kinds collects the words for each kind of frame."""
    table, section, box = ids.get("lines"), ids.get("rows"), ids.get("only")
    if not (table and section and box and table.parent is section):
        yield "rows: no table of lines in its section, or no box above it"
        return
    above = section.inside()
    above = above[:above.index(table)]
    labels = [node for node in above if node.tag == "label" and node.attrs.get("for") == "only"]
    if box not in above or box.tag != "input" or box.attrs.get("type") != "checkbox" or len(labels) != 1:
        yield "rows: the box and its label do not stand before the table"
    rows = [row for body in table.inside() if body.tag == "tbody" for row in body.inside()]
    drawn = facts.lines[:DRAWN]
    if [row.attrs.get("id") for row in rows] != [f"L{line.number}" for line in drawn]:
        yield f"rows: {len(rows)} rows for {len(drawn)} lines, or not in order"
        return
    for row, line in zip(rows, drawn):
        for difference in check_row(row, line, facts, header, kinds):
            yield f"row {line.number}, {difference}"
    yield from check_rest(section, len(facts.lines))
