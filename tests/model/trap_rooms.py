"""The folders in which traps are laid, and what a run there must come to."""

import contextlib
import os
import subprocess
import tempfile
import time
from pathlib import Path

from .bench import ENVIRONMENT
from .cut_off import laid
from .in_place import MEMORY, PLACE, SECONDS, by_bytes, files_in, pairs_in
from .page_file import BLOCK
from .rooms import GROUP, SHARED_FILE, SHARED_FOLDER, SHARED_MASK, LeftOut, asked, copied

# The bytes of a small file system.
SMALL = 1 << 20


class Wrong(Exception):
    """What is wrong of a run."""


class Room:
    """A folder in which the program runs, maybe as a user."""

    def __init__(self, program, folder):
        self.program, self.folder = program, Path(folder)

    def at(self, name):
        return self.folder / name

    def run(self, words, given=b"", user=None):
        """What a run comes to."""
        how = {} if user is None else {"user": user.number, "group": user.group, "extra_groups": [], "umask": SHARED_MASK}
        pipes = {"input": given, "capture_output": True}
        try:
            command = [self.program, *words]
            return subprocess.run(command, cwd=self.folder, env=ENVIRONMENT, timeout=SECONDS, check=False, **pipes, **how)
        except subprocess.TimeoutExpired:
            raise Wrong(f"{' '.join(words)}: it had not ended in time") from None

    def wants(self, words, status, text=None, error=None, given=b"", user=None):
        """Runs the program, which must end so: with this status and text, and an error that has this; without one says
        nothing."""
        done = self.run(words, given, user)
        told = f"{' '.join(words)}: status {done.returncode}: {done.stdout[:80]} {done.stderr[:200]}"
        if done.returncode != status or (text is not None and done.stdout != text):
            raise Wrong(told)
        if (error is None and done.stderr) or (error is not None and error.encode() not in done.stderr):
            raise Wrong(told)

    def has(self, pairs, name=PLACE, user=None):
        """A file must be legal and have these pairs."""
        self.wants(["check", name], 0, user=user)
        done = self.run(["pairs", name], user=user)
        if done.returncode or pairs_in(done.stdout) != by_bytes(pairs):
            raise Wrong(f"pairs {name}: status {done.returncode}: other pairs, {done.stderr[:200]}")

    def is_let_be(self, words, error, name=PLACE, status=1, text=b"", user=None):
        """A run must be refused with an error, and leave all files as they were."""
        before = files_in(self.folder)
        self.wants(words, status, text, error, user=user)
        if files_in(self.folder) != before:
            raise Wrong(f"{' '.join(words)}: it changed something of {name}")

    def has_no_log(self):
        beside = [name for name in os.listdir(self.folder) if name.endswith("-wal")]
        if beside:
            raise Wrong(f"left: {beside}")


@contextlib.contextmanager
def room_with(program, files):
    """A folder with files."""
    with tempfile.TemporaryDirectory(dir=MEMORY) as folder:
        laid(files, folder)
        yield Room(program, folder)


@contextlib.contextmanager
def shared_room(program, files, owner):
    """A folder of a user's, in which the files are theirs and their group's."""
    if os.geteuid() != 0:
        raise LeftOut("the runner isn't root")
    with room_with(program, files) as room, copied(program) as [copy]:
        room.program = copy
        os.chown(room.folder, 0, GROUP)
        os.chmod(room.folder, SHARED_FOLDER)
        for name in files:
            os.chown(room.at(name), *owner)
            os.chmod(room.at(name), SHARED_FILE)
        yield room


@contextlib.contextmanager
def small_room(program, files, size=SMALL):
    """A folder of a small file system, of so many bytes."""
    if os.geteuid() != 0:
        raise LeftOut("the runner isn't root")
    with tempfile.TemporaryDirectory(dir=MEMORY) as folder:
        asked("mount", "-t", "tmpfs", "-o", f"size={size}", "tmpfs", folder)
        try:
            laid(files, folder)
            yield Room(program, folder)
        finally:
            unmount(folder)


def unmount(folder):
    """Takes a file system away. A process that is just being started may hold its files for a moment."""
    for _ in range(100):
        if subprocess.run(["umount", folder], capture_output=True, check=False).returncode == 0:
            return
        time.sleep(0.1)
    raise RuntimeError(f"{folder} isn't unmounted")


def free(filler):
    """Gives back the room of what fills a file system, also where a process that is just being started holds it."""
    os.truncate(filler, 0)
    filler.unlink()


def fill(filler, left):
    """Fills a file system up to so many blocks."""
    with filler.open("wb", buffering=0) as file:
        with contextlib.suppress(OSError):
            while file.write(bytes(BLOCK)):
                pass
        file.truncate(max(file.tell() // BLOCK - left, 0) * BLOCK)
