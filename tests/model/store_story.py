"""Stories of runs of `exh_store_lines`, as files of tests/store/ tell them, line by line.

    NAME> WORDS        asks the run of this name for a call; the run begins with its first
    NAME= ANSWER       the next line that it answers
    ! STEP             what the runner does, see `Step`
    = LINE             a line of what that gives

A line that begins with `#` says what the story is about. The lines between `repeat N` and `end` stand there N times, as
tests/run has it of long scripts. Page files that lie there first stand in NAME.pages, as it has them. In the end each run
that wasn't killed must end with status 0, and say nothing more."""

import fcntl
import os
import shutil
import subprocess
import tempfile
from pathlib import Path

from .bench import ENVIRONMENT
from .bits import pseudokey_of
from .file_reader import file_of
from .grammar import printed
from .in_place import MEMORY
from .page_reader import Fault
from .rooms import GROUP, SHARED_FOLDER, LeftOut
from .savers import User
from .store_program import SECONDS, StoreRun, Wrong

# For how long a run must be seen to wait.
A_WHILE = 0.4


class Step:
    """What the runner does in a story: each method is a step by its name, a hyphen standing for an underscore."""

    def __init__(self, story):
        self.story, self.at = story, story.at

    def kill(self, name):
        """A run is killed."""
        self.story.runs.pop(name).kill()

    def end(self, name):
        """A run ends, since its input does."""
        self.story.runs.pop(name).end()

    def waits(self, name):
        """A run that was asked doesn't answer for a while."""
        if not self.story.runs[name].waits(A_WHILE):
            raise Wrong(f"{name} doesn't wait")

    def took(self, name, least, most):
        """The last answer of a run took so many seconds."""
        seconds = self.story.runs[name].seconds
        if not float(least) <= seconds <= float(most):
            raise Wrong(f"{name} took {seconds:.2f} seconds")

    def user(self, name, number):
        """A run will be of the user of this number, whose group has the folder and what is in it."""
        if os.geteuid() != 0:
            raise LeftOut("the runner isn't root")
        self.story.share()
        self.story.users[name] = User(int(number), GROUP)

    def owner(self, name, number):
        """A file is of this user and the group from now on."""
        os.chown(self.at(name), int(number), GROUP)

    def mode(self, name, digits):
        """Who may do what with a file or a folder, in octal digits."""
        os.chmod(self.at(name), int(digits, 8))

    def lock(self, name):
        """Another process takes the system's lock of a file."""
        file = self.at(name).open("rb")
        fcntl.flock(file, fcntl.LOCK_EX)
        self.story.locks[name] = file

    def unlock(self, name):
        """It gives the lock back."""
        self.story.locks.pop(name).close()

    def remove(self, name):
        self.at(name).unlink()

    def move(self, name, to):
        self.at(name).rename(self.at(to))

    def copy(self, name, to):
        shutil.copy(self.at(name), self.at(to))

    def link(self, name, to):
        """A link that leads there."""
        self.at(name).symlink_to(to)

    def second_name(self, name, of):
        os.link(self.at(of), self.at(name))

    def folder(self, name):
        self.at(name).mkdir()

    def pipe(self, name):
        os.mkfifo(self.at(name))

    def bytes(self, name, digits=""):
        """A file of these bytes, in hexadecimal digits."""
        self.at(name).write_bytes(bytes.fromhex(digits))

    def turn(self, name, at):
        """The highest binary digit of a byte is turned."""
        content = bytearray(self.at(name).read_bytes())
        content[int(at)] ^= 0x80
        self.at(name).write_bytes(content)

    def cut(self, name, length):
        os.truncate(self.at(name), int(length))

    def same(self, name, other):
        """Two files have the same bytes."""
        if self.at(name).read_bytes() != self.at(other).read_bytes():
            raise Wrong(f"{name} and {other} differ")

    def differ(self, name, other):
        if self.at(name).read_bytes() == self.at(other).read_bytes():
            raise Wrong(f"{name} and {other} are the same")

    def files(self):
        """The names of all that is in the folder."""
        return sorted(os.listdir(self.story.folder))

    def pairs(self, name):
        """The pairs of a page file, as the second reader of the formats reads it, in the order of the pages."""
        try:
            file = file_of(self.at(name).read_bytes())
        except Fault as fault:
            raise Wrong(f"{name}: {fault}") from None
        keys = sorted(file.map, key=lambda key: (pseudokey_of(file.keyer, key), key))
        return [f"{printed(key)} {printed(file.map[key])}" for key in keys]

    def count(self, name):
        """How many pairs a page file has, by that reader."""
        return [str(len(file_of(self.at(name).read_bytes()).map))]

    def exhash(self, *words):
        """What the program `exhash` prints, which ends well."""
        told = {"cwd": self.story.folder, "env": ENVIRONMENT, "capture_output": True, "timeout": SECONDS}
        done = subprocess.run([self.story.exhash, *words], stdin=subprocess.DEVNULL, check=False, **told)
        if done.returncode or done.stderr:
            raise Wrong(f"exhash {' '.join(words)}: status {done.returncode}, {done.stderr[:200]}")
        return done.stdout.decode().splitlines()


class Story:
    """A story that is being played in a folder of its own."""

    def __init__(self, program, exhash, folder):
        self.program, self.exhash, self.folder = program, exhash, Path(folder)
        self.runs, self.users, self.locks = {}, {}, {}
        self.due = []

    def at(self, name):
        return self.folder / name

    def share(self):
        """Gives the folder, and what is there, to the group."""
        for it in (self.folder, *self.folder.iterdir()):
            os.chown(it, -1, GROUP)
            os.chmod(it, SHARED_FOLDER if it.is_dir() else 0o664)

    def run_of(self, name):
        if name not in self.runs:
            self.runs[name] = StoreRun(self.program, self.folder, self.users.get(name))
        return self.runs[name]

    def take(self, line):
        """Plays a line."""
        word, _, rest = line.partition(" ")
        if word == "=":
            self.see_due(rest)
        elif word == "!":
            self.see_nothing_due()
            name, *words = rest.split(" ")
            self.due = list(getattr(Step(self), name.replace("-", "_"))(*words) or ())
        elif word.endswith(">"):
            self.see_nothing_due()
            self.run_of(word[:-1]).ask(rest)
        elif word.endswith("="):
            answer = self.runs[word[:-1]].answer()
            if answer != rest:
                raise Wrong(f"the answer is {answer!r}"[:400])
        else:
            raise Wrong("it is no line of a story")

    def see_due(self, line):
        given = self.due.pop(0) if self.due else None
        if given != line:
            raise Wrong(f"the line is {given!r}")

    def see_nothing_due(self):
        if self.due:
            raise Wrong(f"before it comes {self.due[0]!r}")

    def end(self):
        self.see_nothing_due()
        for name in list(self.runs):
            self.runs.pop(name).end()

    def clear(self):
        for it in self.runs.values():
            it.kill()
        for it in self.locks.values():
            it.close()


def told_lines(text):
    """The lines of a story, with their numbers."""
    lines = enumerate(text.splitlines(), 1)
    return [(number, line) for number, line in lines if line and not line.startswith("#")]


def play(program, exhash, text, files):
    """Plays a story over page files: what is wrong of it, and in which line, or None."""
    with tempfile.TemporaryDirectory(dir=MEMORY) as folder:
        for name, content in files.items():
            Path(folder, name).write_bytes(content)
        story, line = Story(program, exhash, folder), ""
        try:
            for number, line in told_lines(text):
                story.take(line)
            line = "the end"
            story.end()
        except Wrong as what:
            return f"{line}: {what}"
        finally:
            story.clear()
    return None
