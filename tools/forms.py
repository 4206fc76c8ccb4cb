#!/usr/bin/env python3
"""Counts the places in src/ that could have an older form of Rattle: what docs/DESIGN-PASS.md counts, point by point.

usage: tools/forms.py [--list]      at the top of the repository; --list prints each place

Only crates/*/src/*.rt is read, and for the last point crates/*/proofs. It finds candidates; a reader judges each.
"""

import collections
import glob
import re
import sys

LIST = "--list" in sys.argv[1:]
FUNCTION = re.compile(r"^[ ]*(?:pub(?:\([a-z]+\))? )?(?:const )?fn (\w+)", re.M)
STRUCT = re.compile(r"^[ ]*(?:pub(?:\([a-z]+\))? )?struct (\w+)[^;{]*\{(.*?)^[ ]*\}", re.M | re.S)


def sources():
    return sorted(f for f in glob.glob("crates/*/src/**/*.rt", recursive=True))


def read(path):
    with open(path, encoding="utf-8") as f:
        return f.read()


def line_of(text, at):
    return text.count("\n", 0, at) + 1


def functions(text):
    """Yields (name, line, head with its clauses, body) of each function."""
    for m in FUNCTION.finditer(text):
        indent = re.match(r"[ ]*", m.group(0)).group(0)
        end = re.search(r"^%s\}$|;$" % indent, text[m.start():], re.M)
        whole = text[m.start(): m.start() + (end.end() if end else 0)]
        opened = re.search(r"^%s\{|\) \{$|> \{$|\w \{$" % indent, whole, re.M)
        cut = opened.end() if opened else len(whole)
        yield m.group(1), line_of(text, m.start()), whole[:cut], whole[cut:]


def found(pattern, flags=re.M):
    places = []
    for path in sources():
        text = read(path)
        for m in re.finditer(pattern, text, flags):
            places.append("%s:%d: %s" % (path, line_of(text, m.start()), m.group(0).strip().split("\n")[0]))
    return places


def structs(has):
    places = []
    for path in sources():
        text = read(path)
        for m in STRUCT.finditer(text):
            if has(m.group(2)):
                places.append("%s:%d: struct %s" % (path, line_of(text, m.start()), m.group(1)))
    return places


def shaped(body):
    """The body's shape: each name that is no keyword is one letter, each number another."""
    words = "as break const continue else false fn for if in let loop match mut pub ref return self struct true while".split()
    body = re.sub(r"//[^\n]*", "", body)
    body = re.sub(r"0x[0-9A-Fa-f]+|\b\d+\w*", "0", body)
    return re.sub(r"\s+", " ", re.sub(r"\b[A-Za-z_]\w*\b", lambda m: m.group(0) if m.group(0) in words else "n", body))


def twins():
    by_shape = collections.defaultdict(list)
    for path in sources():
        for name, line, _, body in functions(read(path)):
            if body.count("\n") >= 4:
                by_shape[shaped(body)].append("%s:%d: fn %s" % (path, line, name))
    return [" = ".join(p) for p in by_shape.values() if len(p) > 1]


def repeats():
    """Pairs of stretches of six lines of code and more that are the same, line for line."""
    at, pairs = collections.defaultdict(list), []
    for path in sources():
        code = [(n, l.strip()) for n, l in enumerate(read(path).split("\n"), 1)
                if l.strip() and not re.match(r"\s*(//|ghost use|use |#!?\[)", l)]
        for i in range(len(code) - 5):
            shape = "\n".join(l for _, l in code[i:i + 6])
            if sum(1 for _, l in code[i:i + 6] if re.search(r"[(=]", l) and "const" not in l) > 3:
                at[shape].append((path, code[i][0], i))
    seen = set()
    for places in at.values():
        for a in places:
            for b in places:
                if a < b:
                    if (a[0], b[0], a[2] - 1, b[2] - 1) not in seen:
                        pairs.append("%s:%d = %s:%d" % (a[0], a[1], b[0], b[1]))
                    seen.add((a[0], b[0], a[2], b[2]))
    return sorted(pairs)


def matches_to_bool():
    places = []
    for path in sources():
        for name, line, _, body in functions(read(path)):
            arms = re.findall(r"=> (\S+?),?$", body, re.M)
            if len(arms) > 1 and set(arms) <= {"true", "false"}:
                places.append("%s:%d: fn %s" % (path, line, name))
    return places


def shared_facts():
    """Conjuncts that stand in the clauses of three functions or more, and parameters that travel together."""
    facts, groups = collections.defaultdict(set), collections.defaultdict(set)
    for path in sources():
        for name, line, head, _ in functions(read(path)):
            place = "%s:%d" % (path, line)
            for clause in re.findall(r"(?:requires|ensures)[^{]*\{(.*?)\}(?= ensures| requires|$)", head, re.M):
                for part in re.split(r" × ", clause):
                    part = part.strip().strip("()")
                    if "≤" in part or "<" in part or re.match(r"^[A-Z]", part):
                        facts[part].add(place)
            types = tuple(re.findall(r"(\w+: [^,()]+)", re.sub(r"\s+", " ", head.split("->")[0].split("requires")[0].split("ensures")[0])))
            for width in (3, 4, 5, 6):
                for at in range(len(types) - width + 1):
                    groups[types[at: at + width]].add(place)
    many = {k: v for k, v in groups.items() if len(v) > 2}
    longest = [k for k in many if not any(len(o) > len(k) and any(o[i:i + len(k)] == k for i in range(len(o))) for o in many)]
    return (["%s: %d functions" % (k, len(v)) for k, v in sorted(facts.items()) if len(v) > 2],
            ["(%s): %d functions" % (", ".join(k), len(many[k])) for k in sorted(longest)])


def show(point, what, places):
    print("%-3s %4d  %s" % (point, len(places), what))
    if LIST:
        for place in places:
            print("          " + place)


def main():
    show("1a", "enums", found(r"^[ ]*(?:pub )?enum \w+"))
    show("1b", "constants of one byte: numbers for kinds, refusals, modes", found(r"^(?:pub )?const [A-Z0-9_]+: u8 = "))
    show("1c", "structs with a flag or an answer beside a value", structs(
        lambda s: re.search(r"\b(?:bool\b|verdict:|answer:|right:|reading:)", s) and s.count(":") > 1))
    show("1d", "functions that give a number for a kind or a refusal", found(r"^[ ]*(?:pub )?fn \w+(?:_number|_ground|_after)\b.*-> u8"))
    show("2a", "groups of functions of one shape, of four lines and more", twins())
    show("2b", "pairs of stretches that are the same, of six lines and more", repeats())
    show("3a", "`while` loops", found(r"^[ ]*while .*"))
    show("3b", "`for _ in 0..u64::MAX`", found(r"^[ ]*for _ in 0\.\.u64::MAX.*"))
    show("4a", "a match on every case to say true or false", matches_to_bool())
    show("4b", "calls of std::num by name", found(r"std::num::\w+"))
    show("4c", "functions that compare, copy, convert or choose the least", found(
        r"^[ ]*(?:pub )?fn (?:same|least|wide|word|copy_at|put_low|number\d?|\w+_number|number_of|is_word|starts_with)\b.*"))
    facts, groups = shared_facts()
    show("5a", "bounds and named facts in the clauses of three functions and more", facts)
    show("5b", "three parameters and more that travel together through three functions", groups)
    show("6a", "structs with an array and a length", structs(
        lambda s: re.search(r"\[\w+; \w+\]", s) and re.search(r"\b(?:len|count|from|end|to): \w+", s)))
    show("6b", "functions that take a slice and an index or a length beside it", found(
        r"^[ ]*(?:pub )?fn \w+[^{]*?: &(?:mut )?\[[^\]]+\], (?:at|from|len|n|next|i): (?:usize|u64)[^{]*?\)"))
    show("6c", "arrays of columns and parallel arrays", found(r"^[ ]*pub \w+: \[u8; (?:8|20|64)\],"))
    show("7", "places that ask for the next line, step by step", found(r"^.*\bnext_line\((?!$).*|^.*lines::next_line.*"))
    answers = sorted(glob.glob("crates/*/proofs/**/Answers.antt", recursive=True) + glob.glob("crates/*/proofs/**/Invariants.antt", recursive=True))
    show("8a", "files of answers and invariants", answers)
    print("%-3s %4d  %s" % ("8b", sum(read(f).count("\n") for f in answers), "lines in them"))


main()
