"""What the built programs say, and how it differs from what the reference says."""
import json
import subprocess

SECONDS = 20


class Differs(Exception):
    """What was told, and what was wanted."""

    def __init__(self, what, told, wanted):
        super().__init__(what)
        self.what, self.told, self.wanted = what, told, wanted


class OutOfTime(Exception):
    """A program took too long."""


class Programs:
    """The built programs."""

    def __init__(self, cpx, show):
        self.cpx, self.show = cpx, show

    def run(self, words, source):
        try:
            ran = subprocess.run(words, input=source, capture_output=True, timeout=SECONDS)
        except subprocess.TimeoutExpired:
            raise OutOfTime from None
        return ran.stdout.decode("latin-1"), ran.returncode

    def lines(self, words, source):
        text, status = self.run([self.cpx, *words], source)
        return text.splitlines(), status

    def object(self, words, source):
        """What cpx_show writes with --json."""
        text, status = self.run([self.show, *words], source)
        try:
            return json.loads(text) if text else {}, status
        except json.JSONDecodeError:
            raise Differs("no JSON", text[:500], "an object") from None


def want_same(what, told, wanted):
    """Both are lists of lines, or any other values."""
    if told == wanted:
        return
    if isinstance(told, list) and isinstance(wanted, list):
        for number, (one, other) in enumerate(zip(told, wanted)):
            if one != other:
                raise Differs(f"{what}: {number}", one, other)
        shorter = min(len(told), len(wanted))
        raise Differs(f"{what}: {len(told)} and not {len(wanted)}", told[shorter:shorter + 1], wanted[shorter:shorter + 1])
    raise Differs(what, told, wanted)
