"""The timeline of a page against the facts: a mark for each drawn line, the bands of the mode, the clock, outputs, load, shapes."""
import bisect
import re

from check_rows import DRAWN, PLACED, check_items, number, numbers_in

STRIP, STRIPS = 1100, 12  # how wide a strip for printing is, in pixels, and how many there are at most
SHAPES = 8  # how many concentrators have a shape of their own
NEAR = 3    # how many pixels apart ends of cycles are drawn at least
LANES = {"sync": "sync", "read": "read", "write": "write", "refused": "unread"}


def mark_class(line, facts):
    if line.kind != "frame":
        return {"T": "ticks", "I": "inputs", "BAD": "bad"}[line.kind]
    return LANES.get(facts.frame_text(line).split(" ")[0], "other")


def title_of(node):
    """The words of its own <title>."""
    return " ".join(child.words() for child in node.inside() if child.tag == "title")


def linked_line(node):
    """The number of the line whose row it leads to."""
    target = re.fullmatch(r"#L(\d+)", node.attrs.get("href", ""))
    return int(target[1]) if target else None


def check_mark(mark, line, facts, answers):
    classes = [mark_class(line, facts)] + ["refused"] * bool(line.answer)
    if mark.classes() != classes or linked_line(mark) != line.number:
        yield f"class {mark.classes()}, link {mark.attrs.get('href')}; it is {classes}"
    numbers = [node.words() for node in mark.find("text", "number")]
    due = ["BAD"] if line.kind == "BAD" else [str(line.answer)] if line.answer else []
    if numbers != due:
        yield f"number {numbers} in place of {due}"
    yield from check_mark_title(title_of(mark), line, facts, answers)


def check_mark_title(title, line, facts, answers):
    """The title of a mark has the line's number and what came of it, and no number that has nothing to do with the line."""
    words = "BAD" if line.kind == "BAD" else f"{line.answer} {answers[line.answer]}" if line.kind == "frame" else "tick"
    found = numbers_in(title)
    if line.number not in found or words not in title:
        yield f"the title {title[:80]!r} does not say the line and {words!r}"
    known = {line.number, line.start, line.end, line.ticks(), line.body_bytes()}
    if line.kind == "frame":
        known.add(int(line.raw[:1]))
        found = numbers_in(title.replace(words, "", 1).replace(facts.frame_text(line), "", 1))
    if line.kind != "BAD" and not known.issuperset(found):
        yield f"the title {title[:80]!r} has {sorted(set(found) - known)}, which the line has not"


def check_marks(links, facts, answers):
    marks = [link for link in links if "id" in link.attrs]
    drawn = facts.lines[:DRAWN]
    if [mark.attrs["id"] for mark in marks] != [f"M{line.number}" for line in drawn]:
        yield f"marks: {len(marks)} for {len(drawn)} lines, or not in order"
        return
    for mark, line in zip(marks, drawn):
        for difference in check_mark(mark, line, facts, answers):
            yield f"mark {line.number}, {difference}"


def check_bands(rects, facts):
    """The titles say when the mode changed, to the millisecond, and the rectangles lie side by side from end to end."""
    found, ends = [], []
    for rect in rects:
        title = re.fullmatch(r"(RUN|fallback) from ([\d,]+) ms to ([\d,]+) ms", title_of(rect))
        if not title or sorted(rect.classes()) != sorted(["mode", title[1].lower()]):
            yield f"bands: {rect.classes()} with the title {title_of(rect)!r}"
            return
        found.append((title[1], number(title[2]), number(title[3])))
        left = float(rect.attrs["x"])
        ends.append((left, left + float(rect.attrs["width"])))
    due, empty = drawn_bands(facts)
    if found != due and not (empty and found == due[:-1]):
        odd = [pair for pair in zip(found, due) if pair[0] != pair[1]][:1]
        yield f"bands: {len(found)} for {len(due)}; the first that differ: {odd}"
    for (_, right), (left, _) in zip(ends, ends[1:]):
        if abs(right - left) > 0.11:
            yield f"bands: one ends at {right:.1f} pixels, the next begins at {left:.1f}"


def drawn_time(facts):
    """The milliseconds of the drawn lines."""
    return facts.lines[:DRAWN][-1].end if facts.lines else 0


def drawn_bands(facts):
    """The bands up to the end of the last drawn line; and whether the last of them, if the mode changed there, has no width."""
    turns = [turn for turn in facts.turns if turn[0] <= DRAWN]
    ends = [time for _, time, _ in turns[1:]] + [drawn_time(facts)]
    empty = turns[-1][0] == min(DRAWN, len(facts.lines)) and turns[-1][1] == ends[-1]
    return [(mode, since, to) for (_, since, mode), to in zip(turns, ends)], empty


def clock_marks(paths):
    """The millisecond of each end of a cycle, and its place in pixels."""
    times = [re.match(r"([\d,]+) ms\b", title_of(path)) for path in paths]
    places = [float(re.match(r"M([\d.]+) ", path.attrs["d"])[1]) for path in paths]
    return [number(time[1]) if time else -1 for time in times], places


def check_places(rects, paths, facts):
    """Where the mode changed by the clock, its bands meet at the place of that millisecond, between the ends of cycles about it."""
    times, places = clock_marks(paths)
    if times != sorted(times):
        return
    for (line, time, mode), rect in zip(facts.turns, rects):
        if line and facts.lines[line - 1].kind != "frame":
            left, right, at = bisect.bisect_left(times, time), bisect.bisect_right(times, time), float(rect.attrs["x"])
            if any(place > at + 0.11 for place in places[:right]) or any(place < at - 0.11 for place in places[left:]):
                yield f"bands: {mode} at {time} ms begins at {at:.1f} pixels, and the clock's ends about it do not"


def check_clock(paths, said, facts):
    """No end of a cycle that the clock did not make; all of them, unless the page says that some were left out."""
    found, places = clock_marks(paths)
    due, shown = [time for time in facts.clock if time <= drawn_time(facts)], set(found)
    if found != [time for time in due if time in shown]:
        yield f"clock: an end that was none, or not in order: {sorted(shown.difference(due), key=str)[:3]}"
    if len(found) not in numbers_in(said) or (len(found) < len(due) and "drawn" not in said):
        yield f"clock: {len(found)} of {len(due)} ends are drawn, and the page says {said!r}"
    counted = re.match(r"The clock ended ([\d,]+) cycle", said)
    if counted and number(counted[1]) != len(due) and "too many ticks" not in said:
        yield f"clock: the clock ended {len(due)} cycles, and the page says {said!r}"
    if any(right - left < NEAR - 0.11 for left, right in zip(places, places[1:])):
        yield f"clock: two ends closer than {NEAR} pixels"


def check_outputs(links, facts, registers):
    """A mark for each line in which outputs changed, and for no other."""
    due = {}
    for line in facts.lines[:DRAWN]:
        changed = {address: pair for address, pair in line.changes.items() if 0x80 <= address <= 0xBF}
        if changed:
            due[line.number] = changed
    marks = [link for link in links if "outputs" in link.classes()]
    if [linked_line(mark) for mark in marks] != sorted(due):
        yield f"outputs: marks of lines {[linked_line(mark) for mark in marks][:9]}, changes in lines {sorted(due)[:9]}"
        return
    for mark in marks:
        texts = [match[0].strip() for match in PLACED.finditer(title_of(mark))]
        for difference in check_items(texts, due[linked_line(mark)], registers):
            yield f"outputs of line {linked_line(mark)}: {difference}"


def check_loads(links, facts):
    """The bars are the lines that saturn-load printed, with its numbers."""
    found = []
    for link in [link for link in links if "load" in link.classes()]:
        title = re.match(r"(\d+) thousandths, remainder (\d+)\b", title_of(link))
        found.append((linked_line(link), *(map(int, title.groups()) if title else (None, None))))
        share = found[-1][1]
        if link.classes() != (["load", "over"] if share is not None and share > 1000 else ["load"]):
            yield f"load of line {found[-1][0]}: class {link.attrs['class']!r} with {share} thousandths"
        if [node.words() for node in link.find("text")] not in ([], [str(share)], [f"{share or 0:,}"]):
            yield f"load of line {found[-1][0]}: the text is not its number"
    due = [load for load in facts.loads if load[0] <= DRAWN]
    if found != due:
        odd = [pair for pair in zip(found, due) if pair[0] != pair[1]][:1]
        yield f"load: {len(found)} bars for {len(due)} cycles; the first that differ: {odd}"


def shapes_of(node):
    return [path.attrs.get("d") for path in node.find("path", "shape")]


def sync_shapes(ids, facts):
    """Source to shape, of all drawn syncs; the sources of accepted ones; the lines whose shape is another than their source's."""
    shapes, accepted, odd = {}, set(), []
    for line in facts.lines[:DRAWN]:
        if line.kind == "frame" and mark_class(line, facts) == "sync":
            source = re.search(r" src=([0-9A-F]{6})\b", facts.frame_text(line))[1]
            shape = shapes_of(ids[f"M{line.number}"]) if f"M{line.number}" in ids else []
            if len(shape) != 1 or shapes.setdefault(source, shape) != shape:
                odd.append(line.number)
            if line.answer == 0:
                accepted.add(source)
    return shapes, accepted, odd


def check_shapes(ids, facts):
    """Syncs of one source have one shape, which the legend shows beside its SID. Eight sources have one of their own, those of
    accepted syncs before others; the rest share one."""
    shapes, accepted, odd = sync_shapes(ids, facts)
    if odd:
        yield f"shapes: lines {odd[:9]} have another shape than their source"
    items = ids["legend"].find("li") if "legend" in ids else []
    named = [(source, shapes_of(item)) for item in items for source in re.findall(r"\b[0-9A-F]{6}\b", item.words())]
    first = [source for source, _ in named[:SHAPES]]
    rest = [shapes[source] for source in shapes if source not in first]
    if len(set(first)) != min(SHAPES, len(shapes)) or any(shapes.get(source) != shape for source, shape in named):
        yield f"shapes: the legend names {first}, the syncs are of {list(shapes)[:9]}, or with other shapes"
    own = [shape for _, shape in named[:SHAPES]]
    if any(shape in own[:i] for i, shape in enumerate(own)) or any(shape in own or shape != rest[0] for shape in rest):
        yield f"shapes: of {len(shapes)} sources not the first eight have a shape of their own, and the rest one"
    if rest and rest[0] not in [shapes_of(item) for item in items]:
        yield "shapes: the legend does not have the shape that the others share"
    if first != [s for s in first if s in accepted] + [s for s in first if s not in accepted] or (
            accepted - set(first) and set(first) - accepted):
        yield f"shapes: the legend names {first}, and those of accepted syncs are {sorted(accepted)}"


def check_strips(section, drawing):
    """For printing: as many pieces as the drawing is wide, or none and a word about it."""
    wide = float(drawing.attrs.get("width", "0"))
    strips, papers = ([node for node in section.inside() if name in node.classes()] for name in ("strip", "paper"))
    due = -(-int(wide) // STRIP) if wide <= STRIP * STRIPS else 0
    if len(strips) not in (due, max(due, 1)) or bool(papers) == bool(strips) or any(not strip.find("use") for strip in strips):
        yield f"strips: {len(strips)} for a drawing of {wide:.0f} pixels, and {len(papers)} words about it"


def check_timeline(ids, facts, header):
    section, drawing = ids.get("timeline"), ids.get("drawing")
    scroll = drawing.parent if drawing else None
    if not section or not scroll or scroll.classes() != ["scroll"] or section not in (scroll.parent, scroll.parent.parent):
        yield "timeline: no drawing that can be scrolled"
        return
    nodes = list(drawing.nodes())
    links = [node for node in nodes if node.tag == "a"]
    strange = [link for link in links if "id" not in link.attrs and not set(link.classes()) & {"outputs", "load"}]
    if strange:
        yield f"timeline: {len(strange)} links that are no mark"
    yield from check_marks(links, facts, header.answers)
    bands = [node for node in nodes if node.tag == "rect" and "mode" in node.classes()]
    clock = [node for node in nodes if node.tag == "path" and "clock" in node.classes()]
    yield from check_bands(bands, facts)
    yield from check_places(bands, clock, facts)
    yield from check_clock(clock, ids["clock"].words() if "clock" in ids else "", facts)
    yield from check_outputs(links, facts, header.registers)
    yield from check_loads(links, facts)
    yield from check_shapes(ids, facts)
    yield from check_strips(section, drawing)
