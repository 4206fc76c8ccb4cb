#!/usr/bin/env python3
"""check.py PROGRAMS [LAUNCHER]: the pages of many scripts against what the programs say of them; view/check builds and starts it.
PROGRAMS is the folder of the programs. LAUNCHER, if it is given, must write the same page as the page program itself.
Prints a line for each group of scripts, the first ten differences, and their number."""
import concurrent.futures
import os
import sys
import tempfile

sys.dont_write_bytecode = True  # no folder __pycache__ beside the files

from check_damage import check_damages
from check_header import Header
from check_long import check_long
from check_script import check_kinds, check_one, make_page
from check_scripts import Job, from_files, fuzzed, made_hostile, many_lines

TOP = os.path.dirname(os.path.dirname(os.path.abspath(__file__)))
PROGRAM = os.path.join(TOP, "view/target/release/saturn-view")
PEER = os.path.join(TOP, "peer/target/release/peer")
SHOWN = 10  # how many differences are printed


def counted(count, what):
    return f"no {what}" if count == 0 else f"{count} {what}" + "s" * (count != 1)


def check_title(words, view, path):
    """A page from a file and one from standard input differ in the title alone, which stands in two places."""
    name = os.path.basename(path).encode("ascii")
    with open(path, "rb") as file:
        script = file.read()
    (named, wrong), (unnamed, also) = make_page(words + [path], None, words != view), make_page(view, script)
    yield from wrong + also
    if named.count(b">" + name + b"<") != 2 or named.replace(b">" + name + b"<", b">standard input<") != unnamed:
        yield f"{words[0]} {name.decode()}: not the page from standard input but for its title"


class Check:
    """The groups, what was found, and what is printed."""

    def __init__(self, view, programs, pool):
        self.view, self.programs, self.pool = view, programs, pool
        self.header = Header(os.path.join(TOP, "include/saturn.h"))
        self.found, self.results = [], []

    def start(self, function, *words):
        return self.pool.submit(function, self.view, self.programs, self.header, *words)

    def say(self, what, found):
        print(f"view: {what}: {counted(len(found), 'difference')}", flush=True)
        self.found += found

    def group(self, name, started, whole_clock=False):
        results = [each.result() for each in started]
        found = [f"{result.name}: {what}" for result in results for what in result.found]
        if whole_clock:
            found += [f"{result.name}: {result.ends_drawn} of {result.ends} ends of cycles are drawn, and there is room for all"
                      for result in results if result.ends_drawn != result.ends]
        lines, answers, changes = (sum(getattr(result, part) for result in results) for part in ("lines", "answers", "changes"))
        what = f"{counted(len(results), 'page')}, {lines:,} lines, {answers:,} answers, {changes:,} changed registers"
        self.say(f"{name}, {what}", found)
        self.results += results

    def run(self, folder, launcher):
        """The long ones start first, and are said last."""
        opening = os.path.join(TOP, "examples/opening.script")
        with open(opening, "rb") as file:
            script = file.read()
        million = self.start(check_long, 1000000)
        more = self.start(check_one, Job("20,001 lines", many_lines(20001), None, ()))
        damages = self.start(check_damages, script)
        groups = [("examples", from_files(os.path.join(TOP, "examples/*.script"))),
                  ("hostile scripts", from_files(os.path.join(TOP, "view/hostile/*.script")) + made_hostile(folder)),
                  ("fuzzed scripts", fuzzed(PEER))]
        started = [(name, [self.start(check_one, job) for job in jobs]) for name, jobs in groups]
        for name, jobs in started:
            self.group(name, jobs, name == "examples")
        self.group("one line too many", [more])
        self.say("1,000,000 lines, 1 page of the first 20,000", million.result())
        self.say("the words for the kinds of frames", list(check_kinds([result.kinds for result in self.results])))
        self.say("a page from a file and one from standard input", list(check_title(self.view, self.view, opening)))
        if launcher:
            self.say(f"{launcher} and the page program", list(check_title([launcher], self.view, opening)))
        count, missed = damages.result()
        print(f"view: a page damaged in {count} ways, {count - len(missed) if count else 0} noticed", flush=True)
        self.found += missed


def main(words):
    if len(words) not in (1, 2):
        print("usage: check.py PROGRAMS [LAUNCHER]", file=sys.stderr)
        return 2
    with tempfile.TemporaryDirectory() as folder, concurrent.futures.ProcessPoolExecutor(2) as pool:
        check = Check([PROGRAM, words[0]], words[0], pool)
        check.run(folder, words[1] if len(words) == 2 else None)
    for what in check.found[:SHOWN]:
        print(f"view: DIFFERENT: {what[:300]}")
    if check.found:
        print(f"view: {counted(len(check.found), 'difference')} in all")
    return 1 if check.found else 0


if __name__ == "__main__":
    sys.exit(main(sys.argv[1:]))
