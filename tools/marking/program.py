"""cpx_show, run with a bound of time, and given up at Control-C."""
import os
import signal
import subprocess
import threading
import time


class Stopped(Exception):
    """Control-C was pressed."""


class TimeIsOver(Exception):
    """What all may take is used up."""


class Answer:
    """The status of the program, none where it took too long, with what it wrote."""

    def __init__(self, status, text="", said=""):
        self.status, self.text, self.said = status, text, said


class Program:
    """The program, with all that runs of it now."""

    def __init__(self, path, minutes):
        self.path, self.is_stopped = path, False
        self.ends = time.monotonic() + 60 * minutes if minutes else None
        self.running, self.lock = set(), threading.Lock()

    def run(self, words, source, ends):
        """Returns the answer to the words about the source, given up at a time."""
        if self.ends is not None:
            ends = min(ends, self.ends)
        left = ends - time.monotonic()
        if left <= 0:
            return self.given_up()
        child = self.begin(words)
        try:
            text, said = child.communicate(source, timeout=left)
        except subprocess.TimeoutExpired:
            child.kill()
            child.communicate()
            return self.given_up()
        finally:
            with self.lock:
                self.running.discard(child)
        if self.is_stopped or child.returncode == -signal.SIGINT:
            raise Stopped
        return Answer(child.returncode, text.decode("utf-8", "replace"), said.decode("utf-8", "replace"))

    def begin(self, words):
        with self.lock:
            if self.is_stopped:
                raise Stopped
            child = subprocess.Popen([self.path, *words], stdin=subprocess.PIPE, stdout=subprocess.PIPE, stderr=subprocess.PIPE)
            self.running.add(child)
            return child

    def given_up(self):
        if self.is_stopped:
            raise Stopped
        if self.ends is not None and time.monotonic() >= self.ends:
            raise TimeIsOver
        return Answer(None)

    def stop(self):
        """Ends all that runs of it, and begins no more."""
        self.is_stopped = True
        for child in list(self.running):
            child.kill()


def path_of_program(root):
    """Returns where the program stands, none where there is no build."""
    for at in (root / "crates/cpx_show/out/cpx_show", root / "bin/cpx_show"):
        if os.access(at, os.X_OK):
            return at
    return None
