"""A folder in which the program is run, over one file after the other."""

import itertools
import os
import tempfile
from pathlib import Path
from typing import NamedTuple

from .notes import notes_of
from .program import outcome_of
from .said import are_like

# Where files are written that only one run reads, so that nobody waits for a disk.
MEMORY = "/dev/shm"


def folder_for(name):
    """A folder for files that only one run reads, which goes when it isn't needed."""
    return tempfile.TemporaryDirectory(prefix=f"exhash-{name}-", dir=MEMORY if os.path.isdir(MEMORY) else None)


class Told(NamedTuple):
    """What a run comes to, one letter a byte."""

    text: str
    error: str
    status: int


class Bench:
    """A folder in which the program is run."""

    def __init__(self, program, folder):
        self.program = program
        self.file = Path(folder, "file.exh")
        self.saved = Path(folder, "saved.exh")
        self.answers = [os.open(Path(folder, name), os.O_RDWR | os.O_CREAT) for name in ("text", "error")]

    def run(self, *words, given=None):
        """What the program comes to, in the folder."""
        for answer in self.answers:
            os.ftruncate(answer, 0)
            os.lseek(answer, 0, os.SEEK_SET)
        actions = [(os.POSIX_SPAWN_DUP2, answer, at) for at, answer in enumerate(self.answers, 1)]
        if given is not None:
            actions.append((os.POSIX_SPAWN_DUP2, given, 0))
        words = [self.program, *map(os.fspath, words)]
        started = os.posix_spawn(self.program, words, {"LANG": "C.UTF-8"}, file_actions=actions)
        _, status = os.waitpid(started, 0)
        told = [os.pread(answer, os.fstat(answer).st_size, 0).decode("latin-1") for answer in self.answers]
        return Told(*told, os.waitstatus_to_exitcode(status))

    def close(self):
        for answer in self.answers:
            os.close(answer)


def differing(wanted, got):
    """In what a run differs, which is told in short, of standard error from the patterns of its lines; nothing where it
    doesn't."""
    text, patterns, status = wanted
    if (text, status) != (got.text, got.status):
        return f"wanted {(text, status)}, got {(got.text, got.status)}"
    is_right = are_like(patterns, got.error.splitlines())
    return None if is_right else f"standard error: wanted {patterns}, got {got.error!r}"


def difference_in(bench, content, *words):
    """In what a run over a file differs from what the reader says of it; nothing where it doesn't."""
    command, *rest = words
    asked, files = [command, os.fspath(bench.file), *rest], {os.fspath(bench.file): content}
    wanted, got = outcome_of(asked, b"", files), bench.run(*asked)
    patterns = notes_of(asked, b"", files)
    if (got.text, got.status) == (wanted.text.decode("latin-1"), wanted.status) and are_like(patterns, got.error.splitlines()):
        return None
    for number, (want, line) in enumerate(itertools.zip_longest(wanted.lines, got.text.split("\n")[:-1]), 1):
        if want != line:
            return f"`{' '.join(words)}`, line {number}: wanted {want!r}, got {line!r}, status {got.status}"
    if wanted.status != got.status:
        return f"`{' '.join(words)}`: wanted the status {wanted.status}, got {got.status}"
    return f"`{' '.join(words)}`: standard error: wanted {patterns}, got {got.error!r}"
