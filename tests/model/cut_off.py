"""Runs over page files of version 3 that are cut off: by a kill in place of a call of the system, or by a call that fails."""

import tempfile
from pathlib import Path
from typing import NamedTuple

from .in_place import MEMORY, PAIRS, PLACE, calling, files_in, key_of, run
from .page_log import LEAST

# The error by which the program is killed at a call.
KILL = 0
LOG = PLACE + "-wal"
# What the refusal of another program's log says, behind the path.
NO_LOG = "is no log of exhash: move it"
# The put that is cut off, and the pairs behind it.
PUT = calling("put", key_of(1), "cut")
CHANGED = {key_of(1): "cut"}
LATER = {**PAIRS, **CHANGED}


def laid(files, room):
    """Lays files in a folder."""
    for name, content in files.items():
        Path(room, name).write_bytes(content)


class Left(NamedTuple):
    """What a run came to: its status, what it said, the calls that it made, each its name and the file's, and the files that
    it left."""

    status: int
    said: bytes
    calls: list
    files: dict


def left_by(program, library, words, given, files, **refusing):
    """What a run over files comes to of which calls may be refused."""
    with tempfile.TemporaryDirectory(dir=MEMORY) as room, tempfile.TemporaryFile() as tells:
        laid(files, room)
        refusing["REFUSED_TELLS"] = str(tells.fileno())
        done = run(program, words, given, room, [tells.fileno()], LD_PRELOAD=library, **refusing)
        tells.seek(0)
        told = [line.split(" ", 2) for line in tells.read().decode().splitlines()]
        return Left(done.returncode, done.stderr, [(name, Path(file).name) for name, _, file in told], files_in(room))


def failing(program, library, words, given, files, nth, error):
    """What a run comes to of which a call fails."""
    refusing = {"REFUSED_CALL": "any", "REFUSED_NTH": str(nth), "REFUSED_ERROR": str(error)}
    return left_by(program, library, words, given, files, **refusing)


def calls_made(program, library, words, given, files):
    """The calls that a run makes over files, which must be done."""
    left = left_by(program, library, words, given, files, REFUSED_CALL="none", REFUSED_ERROR="0")
    if left.status:
        raise RuntimeError(f"{words}: {left.status}: {left.said}")
    return left.calls


def calls_of(program, library, words, given, files):
    """How many calls a run makes over files, which must be done."""
    return len(calls_made(program, library, words, given, files))


def refused(program, library, words, given, files, nth, error):
    """What a run comes to of which a call fails: its status, whether it says so, and the files that it leaves. Where standard
    output fails there is nothing more to say."""
    left = failing(program, library, words, given, files, nth, error)
    return left.status, bool(left.said) or ("refused", "&1") in left.calls, left.files


def left_with_a_log(program, library, files, is_one=lambda left: True):
    """The files as the put that was killed leaves them, with a log beside the file that has a change; the last such ones."""
    for nth in reversed(range(1, calls_of(program, library, PUT, b"", files) + 1)):
        _, _, left = refused(program, library, PUT, b"", files, nth, KILL)
        if len(left.get(LOG, b"")) >= LEAST and is_one(left):
            return left
    raise RuntimeError("no put that is killed leaves a log")
