"""A folder in which savers run over files, and may wait at a call of the system while something else is done."""

import os
import shutil
import subprocess
import tempfile
from pathlib import Path
from typing import NamedTuple

from .savers import Link, Writer

TESTS = Path(__file__).resolve().parent.parent
PROGRAM = TESTS.parent / "crates/exh_cli/out/exh_cli"
SECONDS = 60
ENVIRONMENT = {"PATH": "/usr/local/bin:/usr/bin:/bin", "LANG": "C.UTF-8"}
# Who may read and write a file that is there before, and what a new one has no part of.
MODE, MASK = 0o640, 0o022
NEW_MODE = 0o666


class Ended(NamedTuple):
    """What a run came to."""

    status: int
    text: bytes
    error: str


class Fault(NamedTuple):
    """The call that fails, by its number from 1 among all, and with which error."""

    nth: int
    error: int


class Held(NamedTuple):
    """What a run that waited at a call came to.

    A call is its name, how the file is opened, 0 to read, 1 to write and 2 for both, and its path. One that fails is told
    twice, by the name `refused` too.
    """

    has_waited: bool
    # The calls up to that at which it waited, and those behind it.
    calls: list
    later: list
    # What came of what was done meanwhile.
    between: object
    ended: Ended


def ended(run):
    """What a run comes to that was started."""
    text, error = run.communicate(timeout=SECONDS)
    return Ended(run.returncode, text, error.decode())


def call_of(line):
    return tuple(line.rstrip("\n").split(" ", 2))


def calls_to_wait(lines):
    """The calls that are told up to the one at which the run waits, and whether it does."""
    calls = []
    for line in lines:
        calls.append(call_of(line))
        if calls[-1][0] == "waits":
            return calls[:-1], True
    return calls, False


def built(room, name):
    """Builds a library of tests/ that is to be preloaded."""
    library = f"{room}/{name}.so"
    subprocess.run(["cc", "-O1", "-shared", "-fPIC", "-o", library, TESTS / f"{name}.c", "-ldl"], check=True)
    return library


class Holding:
    """A run that began, and waits at its calls of some numbers until it may go on."""

    def __init__(self, bench, saver, places, fault=Fault(0, 0)):
        (told, tell), pipes = os.pipe(), [os.pipe() for _ in places]
        waits = [it for it, _ in pipes]
        asked = {"LD_PRELOAD": bench.shim, "REFUSED_CALL": "any", "REFUSED_NTH": str(fault.nth)}
        asked |= {"REFUSED_ERROR": str(fault.error), "REFUSED_AT": ",".join(map(str, places))}
        asked |= {"REFUSED_WAITS": ",".join(map(str, waits)), "REFUSED_TELLS": str(tell)}
        asked |= {"REFUSED_HASTE": str(bench.haste)}
        self.goes = [it for _, it in pipes]
        self.lines = open(told, "r", encoding="utf-8")
        self.run = bench.started(saver, env=ENVIRONMENT | asked, pass_fds=[tell, *waits])
        for descriptor in (tell, *waits):
            os.close(descriptor)

    def calls(self):
        """The calls up to the next one at which the run waits, and whether it does."""
        return calls_to_wait(self.lines)

    def go(self):
        """Lets the run make the call at which it waits."""
        os.close(self.goes.pop(0))

    def ended(self):
        """What the run comes to, which waits no more."""
        while self.goes:
            self.go()
        with self.lines:
            last = ended(self.run)
            return last, [call_of(line) for line in self.lines]


class Bench:
    """A folder in which savers run. Files are laid there for this owner and group, where they aren't the runner's."""

    def __init__(self, program, shim, folder, mode=MODE, mask=MASK, owner=None):
        self.program, self.shim, self.folder = program, shim, Path(folder).resolve()
        self.mode, self.mask, self.owner = mode, mask, owner
        # How many times faster time passes for the runs, which then wait less for each other.
        self.haste = 1

    def lay(self, files):
        """Leaves these files and links in the folder, no other."""
        for there in self.folder.iterdir():
            if there.is_dir() and not there.is_symlink():
                shutil.rmtree(there)
            else:
                there.unlink()
        for name, content in files.items():
            self.lay_file(self.folder / name, content)

    def lay_file(self, file, content):
        file.parent.mkdir(exist_ok=True)
        if isinstance(content, Link):
            file.symlink_to(content)
            return
        file.write_bytes(content)
        if self.owner is not None:
            os.chown(file, *self.owner)
        file.chmod(self.mode)

    def files(self):
        """The files and links that are there, by their paths in the folder."""
        places = {str(it.relative_to(self.folder)): it for it in self.folder.rglob("*")}
        links = {name: Link(it.readlink()) for name, it in places.items() if it.is_symlink()}
        return links | {name: it.read_bytes() for name, it in places.items() if it.is_file() and name not in links}

    def exposed(self, before):
        """The files that other people may read or write than those that were there before, or than a new one."""
        files = (it for it in self.folder.rglob("*") if it.is_file() and not it.is_symlink())
        modes = {str(it.relative_to(self.folder)): it.stat().st_mode & 0o7777 for it in files}
        new = NEW_MODE & ~self.mask
        return [name for name, mode in modes.items() if mode != (self.mode if name in before else new)]

    def started(self, saver, **how):
        """A run that began, whose standard input is whole."""
        if saver.user is not None:
            how |= {"user": saver.user.number, "group": saver.user.group, "extra_groups": []}
        with tempfile.TemporaryFile() as given:
            given.write(saver.given)
            given.seek(0)
            pipes = {"stdin": given, "stdout": subprocess.PIPE, "stderr": subprocess.PIPE}
            how |= {"cwd": self.folder, "umask": self.mask}
            return subprocess.Popen([self.program, *saver.words], **pipes, **how)

    def whole(self, run):
        """What a run comes to that isn't held up, or what is done by others."""
        if isinstance(run, Writer):
            run.write_in(self.folder)
            return Ended(0, b"", "")
        hastened = {} if self.haste == 1 else {"LD_PRELOAD": self.shim, "REFUSED_HASTE": str(self.haste)}
        return ended(self.started(run, env=ENVIRONMENT | hastened))

    def held(self, saver, at, between, fault=Fault(0, 0)):
        """Runs a saver of which a call fails, if one is to, and that waits at its call of this number until something is
        done. Where it has no such call nothing is done."""
        run = Holding(self, saver, [at], fault)
        try:
            calls, is_waiting = run.calls()
            done = between() if is_waiting else None
        finally:
            last, later = run.ended()
        return Held(is_waiting, calls, later, done, last)
