"""The scripts whose pages are checked: examples, hostile ones that are stored or made, and fuzzed ones of the second program."""
import collections
import glob
import os
import random
import subprocess

# A script, the path of its file (None: it comes on standard input), and words that the reasons of its BAD lines must hold, by line.
Job = collections.namedtuple("Job", "name script path reasons")

# a line that is BAD, and a word that a fair reason holds
REASONS = [
    (b"", "empty"),
    (b"T 0", "60000"),
    (b"T 60001", "60000"),
    (b"T 01", "zero"),
    (b"T", "number"),
    (b"t 5", "capital"),
    (b"T 5\r", "CR"),
    (b"\r", "CR"),
    (b"I " + b"5" * 127, "128"),
    (b"I " + b"5" * 129, "128"),
    (b"I " + b"G" * 128, "hex"),
    (b"1 ABC", "hex"),
    (b"1 0G", "hex"),
    (b"1", "space"),
    (b"1 " + b"AB" * 599 + b"A", "1200"),
    (b"x" * 5000, "1200"),
    (b"# a comment", "comment"),
    (b"1 sync src=000007 cyc=10", "saturn-frame"),
    (b"hello", "port"),
]

# how the second program is asked: the kind of script, its seed, and how many lines
FUZZED = ["scripts 1 300", "scripts 2 400", "scripts 3 250", "scripts 4 300", "scripts 5 100", "scripts 6 200", "loads 1 300",
          "loads 2 400", "loads 3 200", "loads 4 100", "incident 1", "incident 5", "incident 9"]


def from_files(pattern):
    """A job for each file."""
    jobs = []
    for path in sorted(glob.glob(pattern)):
        with open(path, "rb") as file:
            jobs.append(Job(os.path.basename(path), file.read(), path, ()))
    return jobs


def at_the_limits():
    """Lines and bodies about as long as is read or shown."""
    lines = [b"1 " + b"AB" * 599, b"1 " + b"AB" * 599 + b"A", b"9 " + b"ab" * 599, b"I " + b"0" * 1198, b"T " + b"0" * 1198 + b"5"]
    lines += [b"1 " + b"00" * count for count in (6, 7, 272, 273, 543, 544, 595, 596, 597, 598)]
    lines += [b"2 7E" + b"00" * 593 + b"7E", b"2 7E" + b"00" * 597 + b"7E"]
    lines += [b"<" * count for count in (399, 400, 401, 1199, 1200, 1201)]
    lines += [b"x" * 399 + b"\xff\xff", b"\xff" * 400, b"\0" * 5000, b"&lt;" * 1250, b" " * 5000, b"1 " + b"0" * 60000]
    return b"\n".join(lines)


def noise(seed, letters, count):
    """So many letters, drawn at random."""
    drawn = random.Random(seed)
    return bytes(drawn.choice(letters) for _ in range(count))


def named(folder, name, script):
    """A job for a file of this name, given as bytes, which is made."""
    path = os.path.join(os.fsencode(folder), name)
    with open(path, "wb") as file:
        file.write(script)
    return Job(f"{name}"[1:], script, os.fsdecode(path), ())


def made_hostile(folder):
    """Scripts that are too large to store, noise, and two whose files have hostile names."""
    words = {i + 1: word for i, (_, word) in enumerate(REASONS)}
    return [
        Job("reasons", b"\n".join(line for line, _ in REASONS) + b"\n", None, words),
        Job("limits", at_the_limits(), None, ()),
        Job("bytes at random", noise(1, bytes(range(256)), 6000), None, ()),
        Job("letters at random", noise(2, b"TI 0123456789ABCDEFabcdef<>&\"'\r\0\xff\n\n\n\n", 4000), None, ()),
        Job("lines at random", noise(3, b"12 70FE5D\n", 6000), None, ()),
        named(folder, b"<b>&\"'.script", b"T 5\n<b>\n"),
        named(folder, b"<title>\n\x01\xff\xc3\xa9.script", b""),
    ]


def fuzzed(peer):
    jobs = []
    for words in FUZZED:
        done = subprocess.run([peer] + words.split(" "), stdout=subprocess.PIPE, check=True)
        jobs.append(Job(words, done.stdout, None, ()))
    return jobs


def many_lines(count):
    """A long script of short lines: ticks, a port that answers 21, and two kinds of BAD lines. Its last line takes 3 ms."""
    lines = [b"T 1\n", b"0 \n", b"x\n", b"\n"] * (count // 4 + 1)
    return b"".join(lines[:count - 1]) + b"T 3\n"
