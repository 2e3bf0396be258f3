"""The program `exh_store_lines`, of which calls of the library are asked line by line, and which may be killed amid them."""

import os
import select
import signal
import subprocess
import tempfile
import time
from pathlib import Path

from .bench import ENVIRONMENT
from .rooms import SHARED_MASK

ROOT = Path(__file__).resolve().parent.parent.parent
STORE_PROGRAM = ROOT / "crates/exh_store_lines/out/exh_store_lines"
# The seconds within which an answer comes, or the program ends.
SECONDS = 60
# What an answer begins with that says why there is none.
REFUSED = "refused: "
MEMORY_REFUSED = REFUSED + "out of memory"


class Wrong(Exception):
    """In what a run differs from what it must come to."""


class StoreRun:
    """A run of the program in a folder, maybe for a user."""

    def __init__(self, program, folder, user=None, descriptors=(), **environment):
        how = {} if user is None else {"user": user.number, "group": user.group, "extra_groups": [], "umask": SHARED_MASK}
        self.said = tempfile.TemporaryFile()
        self.run = subprocess.Popen(
            [program],
            stdin=subprocess.PIPE,
            stdout=subprocess.PIPE,
            stderr=self.said,
            cwd=folder,
            env={**ENVIRONMENT, **environment},
            pass_fds=descriptors,
            **how,
        )
        self.asked_at = self.seconds = 0
        self.held = b""

    def ask(self, line):
        """Asks for a call. A program that is gone takes none."""
        self.asked_at = time.monotonic()
        try:
            self.run.stdin.write(line.encode() + b"\n")
            self.run.stdin.flush()
        except BrokenPipeError:
            pass

    def answer(self, seconds=SECONDS):
        """The next line; None where the output ends before."""
        end = time.monotonic() + seconds
        while b"\n" not in self.held:
            ready, _, _ = select.select([self.run.stdout], [], [], max(end - time.monotonic(), 0))
            if not ready:
                raise Wrong("no answer came in time")
            more = os.read(self.run.stdout.fileno(), 1 << 20)
            if not more:
                return None
            self.held += more
        line, _, self.held = self.held.partition(b"\n")
        self.seconds = time.monotonic() - self.asked_at
        return line.decode()

    def told(self, line, seconds=SECONDS):
        """The answer to a call."""
        self.ask(line)
        return self.answer(seconds)

    def waits(self, seconds):
        """Whether nothing is answered for so long."""
        return b"\n" not in self.held and not select.select([self.run.stdout], [], [], seconds)[0]

    def close(self):
        """Closes its input: what it came to, its status, the rest of its output, and standard error."""
        self.run.stdin.close()
        rest = self.held + self.run.stdout.read()
        status = self.run.wait(SECONDS)
        self.run.stdout.close()
        self.said.seek(0)
        with self.said:
            return status, rest, self.said.read()

    def end(self):
        """Lets it end, which must be well, and with nothing more to say."""
        status, rest, said = self.close()
        if status or rest or said:
            raise Wrong(f"it ended with status {status}, {rest[:200]} and {said[:200]}")

    def kill(self):
        if self.run.poll() is None:
            self.run.send_signal(signal.SIGKILL)
        self.run.wait()
        for it in (self.run.stdin, self.run.stdout, self.said):
            try:
                it.close()
            except BrokenPipeError:
                pass
