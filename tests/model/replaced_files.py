"""Traps of page files that are made or replaced: beside a log that isn't theirs, amid a change, and under a run that waits."""

import contextlib
import os
import subprocess
import tempfile
from pathlib import Path

from .bench import ENVIRONMENT, built
from .cut_off import KILL, LOG, PUT, calls_of, refused
from .in_place import FIRST_LINE, PAIRS, PLACE, SECONDS, files_in, pairs_in, run
from .page_log import LEAST
from .trap_rooms import Wrong, room_with

# What the refusal of a log says that isn't the file's, behind the path.
OTHERS = "the log beside it, of the same name with -wal behind it, is"
UNSAVED = f'exhash: not saved to "{PLACE}": {OTHERS}'
TEXT = FIRST_LINE + b"a b\n"
PLAIN = "plain.exh"
# What a save says of a file that it replaces and hasn't opened.
REPLACED = b"a page file was replaced: "
# The statuses of a put that is killed, and of one that finds the lock taken.
KILLED, BUSY = -9, 4
# Runs that read a whole file of the usual pairs, and wait for who changes it.
WAITING = (
    (["check", PLACE], None),
    (["dump", PLACE], None),
    (["pairs", PLACE], None),
    (["serve", "--open", PLACE], None),
    (["convert", PLACE, "new.exh"], "new.exh"),
    (["convert", PLACE, "new.exh", "--version", "2"], "new.exh"),
    (["backup", PLACE, "new.exh"], "new.exh"),
    (["export", PLACE], None),
    (["stats", PLACE], None),
)


# ---- runs that wait at a call


class Waiting:
    """A run that is held at a call of a name, the one of this number, or at none; its calls of that name are told."""

    def __init__(self, library, room, words, call, nth=0, given=b""):
        (told, tell), (waits, self.goes) = os.pipe(), os.pipe()
        refusing = {"LD_PRELOAD": library, "REFUSED_CALL": call, "REFUSED_NTH": "0", "REFUSED_ERROR": "0"}
        refusing |= {"REFUSED_AT": str(nth), "REFUSED_WAITS": str(waits), "REFUSED_TELLS": str(tell)}
        pipes = {"stdin": subprocess.PIPE, "stdout": subprocess.PIPE, "stderr": subprocess.PIPE}
        how = {"cwd": room.folder, "env": ENVIRONMENT | refusing, "pass_fds": [tell, waits]}
        self.words, self.lines = words, open(told, encoding="utf-8")
        self.run = subprocess.Popen([room.program, *words], **pipes, **how)
        with contextlib.suppress(BrokenPipeError):
            self.run.stdin.write(given)
            self.run.stdin.close()
        self.run.stdin = None
        os.close(tell)
        os.close(waits)

    def comes_to(self, call):
        """Waits until the run makes a call, and says whether it does."""
        return any(line.startswith(f"{call} ") for line in self.lines)

    def go(self):
        os.close(self.goes)

    def ends(self):
        """What it comes to: its status, text and error."""
        with self.lines:
            text, error = self.run.communicate(timeout=SECONDS)
        return self.run.returncode, text, error


# ---- new files beside a log


def new_file_beside_a_log(program, left, alone):
    """No command makes a file beside a log of a file that is gone: each is refused, and changes nothing."""
    script = FIRST_LINE + b"begin r1 c1 1 put a b\nhop r1\n"
    makers = (
        (["create", PLACE], b"", b"", OTHERS),
        (["backup", "other.exh", PLACE], b"", b"", OTHERS),
        (["import", PLACE, "--create"], b"a b\n", b"", OTHERS),
        (["convert", "other.exh", PLACE], b"", b"", UNSAVED),
        (["load", PLACE], TEXT, b"loaded 1\n", UNSAVED),
        (["load", "--long", PLACE], TEXT, b"loaded 1\n", UNSAVED),
        (["serve", "--save", PLACE], script, None, UNSAVED),
    )
    for words, given, text, error in makers:
        with room_with(program, {LOG: left[LOG], "other.exh": alone[PLACE]}) as room:
            before = files_in(room.folder)
            room.wants(words, 1, text, error, given=given)
            if files_in(room.folder) != before:
                raise Wrong(f"{' '.join(words)}: it changed a file")
            room.at(LOG).unlink()
            room.wants(words, 0, None, given=given)
            room.wants(["check", PLACE], 0)
            room.has_no_log()


def copy_of_a_removed_copy(program, left, alone):
    """A backup beside the log of a copy of the same file, which was removed, isn't made: it would take that log's change."""
    with room_with(program, {"copy.exh": left[PLACE], "copy.exh-wal": left[LOG], PLACE: alone[PLACE]}) as room:
        room.at("copy.exh").unlink()
        room.is_let_be(["backup", PLACE, "copy.exh"], OTHERS)
        room.at("copy.exh-wal").unlink()
        room.wants(["backup", PLACE, "copy.exh"], 0)
        room.has(PAIRS, "copy.exh")


def old_version_beside_a_log(program, left, _):
    """A file of version 2 has no log: where one stands beside it, it isn't replaced, neither by one that would have it."""
    with room_with(program, {}) as room:
        room.wants(["load", PLACE], 0, None, given=TEXT)
        room.at(LOG).write_bytes(left[LOG])
        for words, given, text, error in (
            (["load", PLACE], TEXT, b"loaded 1\n", UNSAVED),
            (["serve", "--save", PLACE], FIRST_LINE, b"", UNSAVED),
            (["compact", PLACE], b"", b"", OTHERS),
        ):
            before = files_in(room.folder)
            room.wants(words, 1, text, error, given=given)
            if files_in(room.folder) != before:
                raise Wrong(f"{' '.join(words)}: it changed a file")
        room.has({"a": "b"})
        room.at(LOG).unlink()
        room.wants(["compact", PLACE], 0)
        room.wants(["put", PLACE, "a", "c"], 0, b"was b\n")


def new_file_beside_what_has_no_change(program, _, alone):
    """An empty file under the log's name, or a log that was emptied, keeps nobody from making a file; what is there already is
    said to be there, whatever stands beside it."""
    with room_with(program, {LOG: b""}) as room:
        room.wants(["create", PLACE], 0)
        room.wants(["put", PLACE, "k", "v"], 0, b"new\n")
        room.has({"k": "v"})
    with room_with(program, {**alone, LOG: bytes(LEAST)}) as room:
        for words in (["create", PLACE], ["backup", PLACE, PLACE]):
            room.wants(words, 3, b"", "something is there already")


# ---- files that are replaced amid something


def nth_of_a_put_that_leaves_a_log(program, library, alone):
    """The call in whose place a put is killed last so that its log stays, with a change."""
    words = [*PUT, "--wait", "0"]
    for nth in reversed(range(1, calls_of(program, library, words, b"", alone) + 1)):
        _, _, files = refused(program, library, words, b"", alone, nth, KILL)
        if len(files.get(LOG, b"")) >= LEAST:
            return words, str(nth)
    raise Wrong("no put that is killed leaves a log")


def put_killed_amid_a_save(program, _, alone):
    """A load and a script that are saved over a file of version 3, held at each lock that they take, and a put that is killed
    meanwhile: no log stays beside the new file."""
    script = FIRST_LINE + b"begin r1 c1 1 put a b\nhop r1\n"
    with tempfile.TemporaryDirectory() as tools:
        library = built(tools, "refuse_call")
        put, nth = nth_of_a_put_that_leaves_a_log(program, library, alone)
        killing = {"LD_PRELOAD": library, "REFUSED_CALL": "any", "REFUSED_NTH": nth, "REFUSED_ERROR": str(KILL)}
        for words, given in ((["load", PLACE], TEXT), (["serve", "--save", PLACE], script)):
            for lock in (1, 2, 3):
                with room_with(program, alone) as room:
                    saver = Waiting(library, room, words, "flock", lock, given)
                    if not saver.comes_to("waits"):
                        raise Wrong(f"{words}: it takes no lock {lock}")
                    done = run(program, put, b"", room.folder, **killing)
                    if done.returncode not in (KILLED, BUSY):
                        raise Wrong(f"put: status {done.returncode}: {done.stderr[:200]}")
                    saver.go()
                    status, _, error = saver.ends()
                    if status or (error and REPLACED not in error):
                        raise Wrong(f"{words}, lock {lock}: status {status}: {error[:200]}")
                    room.has_no_log()
                    room.has({"a": "b"})
                    room.wants(["compact", PLACE], 0)
                    room.has({"a": "b"})


def is_compacted_under(program, library, alone, words, made, nth):
    """A run goes on while `compact` replaces the file that it has opened: behind its first try of the lock, or amid the one of
    this number."""
    with room_with(program, alone) as room:
        room.wants(["compact", PLACE, "--cap", "4"], 0)
        given = FIRST_LINE.replace(b"cap=2", b"cap=4") if words[0] == "serve" else b""
        compact = Waiting(library, room, ["compact", PLACE, "--cap", "4"], "rename", 1)
        if not compact.comes_to("waits"):
            raise Wrong("compact: it renames nothing")
        reader = Waiting(library, room, words, "flock", nth, given)
        # The reader has opened the file that is to be replaced, and asks for its lock; or it reads beside it.
        reader.comes_to("waits" if nth else "flock")
        compact.go()
        if compact.ends()[0]:
            raise Wrong("compact: it isn't done")
        reader.go()
        status, text, error = reader.ends()
        if status or error:
            raise Wrong(f"{' '.join(words)}: status {status}: {text[:80]} {error[:200]}")
        if words[0] == "pairs" and len(pairs_in(text)) != len(PAIRS):
            raise Wrong(f"pairs: {text[:200]}")
        room.has(PAIRS, made or PLACE)
        if made and words[0] == "backup" and Path(room.at(made)).read_bytes() != room.at(PLACE).read_bytes():
            raise Wrong("backup: it isn't the file that is there")


def compacted_under_a_run_that_waits(program, _, alone):
    """Runs that wait for the lock of a file while `compact` replaces it go on with the new one."""
    with tempfile.TemporaryDirectory() as tools:
        library = built(tools, "refuse_call")
        for words, made in WAITING:
            for nth in (0, 2):
                is_compacted_under(program, library, alone, words, made, nth)


TRAPS = (
    new_file_beside_a_log,
    copy_of_a_removed_copy,
    old_version_beside_a_log,
    new_file_beside_what_has_no_change,
    put_killed_amid_a_save,
    compacted_under_a_run_that_waits,
)
