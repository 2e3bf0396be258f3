"""The folders in which savers meet: a usual one, one that two users share, and one where numbers of files come again."""

import contextlib
import os
import shutil
import subprocess
import tempfile
from pathlib import Path

from .bench import Bench
from .savers import User

# The users of a shared folder, and their group, by numbers that no name needs to have.
GROUP = 65531
USERS = (User(65532, GROUP), User(65533, GROUP))
SHARED_FOLDER, SHARED_FILE, SHARED_MASK = 0o2775, 0o664, 0o002
# The bytes of a file system, and those that it has for what it knows of a file: there is no room for parts of seconds.
IMAGE_LEN, INODE_LEN = 8 << 20, 128
# Where files lie that nobody needs later, so that nobody waits for a disk.
MEMORY = "/dev/shm"


class LeftOut(Exception):
    """Why a folder can't be made here."""


def new_folder():
    """A folder for files that nobody needs later, which is gone in the end."""
    return tempfile.TemporaryDirectory(prefix="exhash-meeting-", dir=MEMORY if os.path.isdir(MEMORY) else None)


@contextlib.contextmanager
def usual(program, shim):
    """A folder of the runner's alone."""
    with new_folder() as folder:
        yield Bench(program, shim, folder)


@contextlib.contextmanager
def shared(program, shim):
    """A folder in which both users may make files, which are their group's, and each may write to those of the other."""
    if os.geteuid() != 0:
        raise LeftOut("the runner isn't root")
    with new_folder() as folder, copied(program, shim) as copies:
        os.chown(folder, -1, GROUP)
        os.chmod(folder, SHARED_FOLDER)
        yield Bench(*copies, folder, SHARED_FILE, SHARED_MASK, USERS[0])


@contextlib.contextmanager
def of_a_user(program, shim):
    """A folder of a user who isn't root: of another one where the runner is, who may read and write all."""
    with new_folder() as folder, copied(program, shim) as copies:
        owner = USERS[0] if os.geteuid() == 0 else None
        if owner is not None:
            os.chown(folder, *owner)
        yield Bench(*copies, folder, owner=owner)


@contextlib.contextmanager
def copied(*files):
    """Copies of files, for users who may not look into the folders above these."""
    with tempfile.TemporaryDirectory(prefix="exhash-program-") as room:
        os.chmod(room, 0o755)
        copies = [Path(shutil.copy(file, room)) for file in files]
        for copy in copies:
            copy.chmod(0o755)
        yield copies


@contextlib.contextmanager
def numbered_again(program, shim):
    """A folder of a file system that gives a file the number of one that is gone, and tells its time in whole seconds."""
    if os.geteuid() != 0:
        raise LeftOut("the runner isn't root")
    with new_folder() as room:
        image, folder = Path(room, "image"), Path(room, "files")
        with image.open("wb") as file:
            file.truncate(IMAGE_LEN)
        folder.mkdir()
        asked("mkfs.ext4", "-q", "-I", str(INODE_LEN), str(image))
        asked("mount", "-o", "loop", str(image), str(folder))
        try:
            shutil.rmtree(folder / "lost+found")
            yield Bench(program, shim, folder)
        finally:
            subprocess.run(["umount", folder], check=True)


def asked(*words):
    """Runs a command of the system; where it can't be, the folder is left out."""
    try:
        subprocess.run(words, check=True, capture_output=True)
    except (OSError, subprocess.CalledProcessError) as error:
        raise LeftOut(f"{words[0]} failed") from error


ROOMS = {"usual": usual, "shared": shared, "numbered again": numbered_again}
