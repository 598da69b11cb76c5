"""A solution with what stands around it, and its lines as the student sees them."""
import html
import re
import sys
import time
from pathlib import Path

# Where a picture has the number of a line of the source: beside a row, and in the words of its title.
BESIDE = re.compile(r'(?<=font-size="10\.5" fill="#4f5a65" text-anchor="end">)(\d+)(?=</text>)')
TITLE = re.compile(r"((?:<title>|; )\d+ \S+), line (\d+)(?=: )")
LINE = re.compile(r"\bline (\d+)\b")


def bytes_of(name):
    """Returns what is in a file; - is standard input."""
    if name != "-":
        return Path(name).read_bytes()
    if sys.stdin is None:
        raise OSError(None, "standard input is closed")
    return sys.stdin.buffer.read()


def ended(text):
    return text if text.endswith(b"\n") or not text else text + b"\n"


class Frame:
    """What stands around each solution: nothing, or the bytes of the files of --top and --bottom."""

    def __init__(self, asked):
        self.names = [asked.own.get(it) for it in ("--top", "--bottom")]
        self.top, self.bottom = (b"" if it is None else ended(bytes_of(it)) for it in self.names)


class Solution:
    """The bytes of a solution in its frame, and the time that is left for it."""

    def __init__(self, program, frame, own, seconds):
        self.program, self.frame, self.own, self.seconds = program, frame, own, seconds
        self.source = frame.top + (ended(own) if frame.bottom else own) + frame.bottom
        self.above = frame.top.count(b"\n")
        self.below = self.above + ended(own).count(b"\n")
        self.refused_for = None
        self.begin()

    def begin(self):
        """Gives it all its time again."""
        self.ends = time.monotonic() + self.seconds

    def run(self, *words):
        return self.program.run(words, self.source, self.ends)

    def line(self, number):
        """Returns how the student sees a line of the source."""
        if number <= self.above:
            return f"line {number} of {self.frame.names[0]}"
        if number > self.below and self.frame.bottom:
            return f"line {number - self.below} of {self.frame.names[1]}"
        return f"line {number - self.above}"

    def with_lines(self, text):
        """Returns the text with each 'line N' as the student sees it."""
        return LINE.sub(lambda found: self.line(int(found[1])), text)

    def with_numbers(self, drawn):
        """Returns a picture with the lines of the student's file; a line of what stands around it has no number beside its row."""
        beside = BESIDE.sub(lambda found: str(int(found[1]) - self.above) if self.above < int(found[1]) <= self.below else "", drawn)
        return TITLE.sub(lambda found: f"{found[1]}, {html.escape(self.line(int(found[2])))}", beside)

    def refusal(self):
        """Returns why it is refused, in a sentence, which is looked for once."""
        if self.refused_for is None:
            answer = self.run("refusal")
            self.refused_for = self.with_lines(answer.text.splitlines()[0]) if answer.status == 1 and answer.text else "refused"
        return self.refused_for
