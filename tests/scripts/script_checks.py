"""What the checks of scripts have in common."""
import os
import pty
import select
import signal
import subprocess
from pathlib import Path

ROOT = Path(__file__).resolve().parents[2]
DISPLAYS = ROOT / "examples/two-displays.cp"
DEADLOCK = ROOT / "examples/philosophers-deadlock.cp"
ORDERED = ROOT / "examples/philosophers-ordered.cp"
CPX = ROOT / "crates/cpx/out/cpx"
SHOW = ROOT / "crates/cpx_show/out/cpx_show"
FAULTS = []


def run(*words, source=b"", folder=ROOT, path=None):
    environment = dict(os.environ, PATH=path) if path else None
    done = subprocess.run([str(it) for it in words], input=source, capture_output=True, cwd=folder, env=environment, timeout=120, check=False)
    return done.returncode, done.stdout.decode(), done.stderr.decode()


def want(what, found, wanted):
    if found != wanted:
        FAULTS.append(f"{what}: {found!r}, wanted {wanted!r}")


def want_in(what, found, wanted):
    if wanted not in found:
        FAULTS.append(f"{what}: {found!r}, wanted {wanted!r} in it")


class AtTerminal:
    """A command whose standard error is a terminal, and that Control-C can stop."""

    def __init__(self, words, source=b"", folder=ROOT):
        self.ours, theirs = pty.openpty()
        # Who runs this may have set Control-C aside, which is handed down.
        self.process = subprocess.Popen([str(it) for it in words], stdin=subprocess.PIPE, stdout=subprocess.PIPE, stderr=theirs, cwd=folder, start_new_session=True,
                                        preexec_fn=lambda: signal.signal(signal.SIGINT, signal.default_int_handler))
        os.close(theirs)
        self.process.stdin.write(source)
        self.process.stdin.close()
        self.said = b""

    def read(self):
        """Reads what it says; answers whether there was anything within a minute."""
        try:
            more = os.read(self.ours, 1000) if select.select([self.ours], [], [], 60)[0] else b""
        except OSError:
            more = b""
        self.said += more
        return bool(more)

    def wait_for(self, text):
        """Waits until it has said something."""
        while text not in self.said and self.read():
            pass

    def interrupt(self):
        os.killpg(self.process.pid, signal.SIGINT)

    def end(self):
        """Returns its status, what it wrote, and what it said at the terminal."""
        while self.read():
            pass
        text = self.process.stdout.read().decode()
        self.process.stdout.close()
        os.close(self.ours)
        return self.process.wait(60), text, self.said.decode()
