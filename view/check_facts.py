"""What the programs say of a script, line by line: the truth that a page is held against. Nothing here reads a page."""
import collections
import os
import subprocess

MODES = {"F": "fallback", "R": "RUN"}
ASKED_BYTES = 595  # the longest body that saturn-frame can be asked for with its two flags, in a line of 1,200 characters


class Line:
    """A line of a script and what it did."""

    def __init__(self, number, raw):
        self.number, self.raw = number, raw
        self.kind = "BAD"  # or T, I, frame
        self.answer = self.mode = self.cyc = self.reply = None
        self.changes = {}  # address to old and new byte
        self.start = self.end = 0
        self.fallback_after = None  # for a T line in which the mode changed: after how many milliseconds

    def ticks(self):
        return int(self.raw[2:]) if self.kind == "T" else 1 if self.kind == "I" else 0

    def body_bytes(self):
        return len(self.raw[2:]) // 2 if self.kind == "frame" else 0

    def question(self):
        """The body as saturn-frame is asked for it: between flags, so that it loses no 7Eh of its own. One that is too long to be
        asked is cut; its length is refused all the same."""
        return "7E" + self.raw[2:2 + 2 * ASKED_BYTES].decode("ascii") + "7E"


def run(programs, name, given):
    """What a program prints, as lines without their LF."""
    done = subprocess.run([os.path.join(programs, name)], input=given, stdout=subprocess.PIPE, check=True)
    return done.stdout.decode("ascii").split("\n")[:-1]


def split_lines(script):
    """LF ends a line; the last one may lack it, and nothing follows a final LF."""
    lines = script.split(b"\n")
    return lines if lines[-1] else lines[:-1]


class Facts:
    """A script, played by the programs."""

    def __init__(self, programs, script):
        self.lines = [Line(i + 1, raw) for i, raw in enumerate(split_lines(script))]
        self.trace(programs, script)
        self.frames = self.explained(programs)
        self.loads = [tuple(map(int, line.split())) for line in run(programs, "saturn_load", script)]
        self.which = run(programs, "saturn_which", script)
        self.play_ticks(programs)

    def trace(self, programs, script):
        """The trace. A line that only answers 21 goes before the script, and shows the registers at power-up."""
        printed = run(programs, "saturn_trace", b"0 \n" + script)[1:]
        if len(printed) != len(self.lines) + 1:
            raise ValueError("saturn_trace printed another number of lines")
        _, _, self.mode, self.cyc, _, registers = printed[0].split(" ")
        self.first_mode, self.first_cyc = self.mode, self.cyc
        self.registers, time = bytes.fromhex(registers), 0
        for line, text in zip(self.lines, printed[1:]):
            words = text.split(" ")
            if words[0] != str(line.number + 1):
                raise ValueError(f"saturn_trace: {text[:40]!r} in place of line {line.number + 1}")
            if words[1:] != ["BAD"]:
                self.take(line, words[1:])
            line.start, line.end = time, time + line.ticks()
            time = line.end
        self.time, self.count = time, len(self.lines)
        self.counts = collections.Counter(line.answer for line in self.lines)

    def take(self, line, words):
        """A line that is not BAD."""
        first = line.raw[:1].decode("ascii")
        line.kind = first if first in "TI" else "frame"
        line.answer, (line.mode, line.cyc) = int(words[0]), words[1:3]
        line.reply = None if words[3] == "-" else words[3]
        registers = bytes.fromhex(words[4])
        pairs = enumerate(zip(self.registers, registers))
        line.changes = {address: pair for address, pair in pairs if pair[0] != pair[1]}
        self.registers, self.mode, self.cyc = registers, line.mode, line.cyc

    def explained(self, programs):
        """What saturn-frame writes of each body and each reply, by the question."""
        asked = [line.question() for line in self.lines if line.kind == "frame"]
        asked += [line.reply for line in self.lines if line.reply]
        asked = list(dict.fromkeys(asked))
        if not asked:
            return {}
        answers = run(programs, "saturn_frame", "".join(f"body {body}\n" for body in asked).encode("ascii"))
        if len(answers) != len(asked):
            raise ValueError("saturn_frame printed another number of lines")
        return dict(zip(asked, answers))

    def play_ticks(self, programs):
        """Plays the script with each T n as n lines T 1. turns: the line, the time and the mode of each change of mode, power-up
        first; clock: when the clock ended cycles."""
        steps = [b"T 1\n" * line.ticks() if line.kind == "T" else line.raw + b"\n" for line in self.lines]
        printed = iter(run(programs, "saturn_script", b"".join(steps))[1:])
        mode, cyc = self.first_mode, self.first_cyc
        self.turns, self.clock = [(0, 0, MODES[mode])], []
        for line in self.lines:
            for step in range(max(1, line.ticks()) if line.kind == "T" else 1):
                words = next(printed).split(" ")
                if words[1:] == ["BAD"]:
                    continue
                now = line.start + (step + 1 if line.ticks() else 0)
                if line.ticks() and words[3] != cyc:
                    self.clock.append(now)
                if words[2] != mode:
                    self.turns.append((line.number, now, MODES[words[2]]))
                    if line.kind == "T":
                        line.fallback_after = step + 1
                mode, cyc = words[2:4]
            if line.kind != "BAD" and (mode, cyc) != (line.mode, line.cyc):
                raise ValueError(f"line {line.number}: tick by tick it ends otherwise")

    def frame_text(self, line):
        """What saturn-frame writes of the body of a frame line."""
        return self.frames[line.question()]
