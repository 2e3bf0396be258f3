"""Traps beside a page file: names of its unfinished files, a log's owner and permissions, the system's limits, and a file
that is moved over it, or mounted by itself, amid a change."""

import contextlib
import os
import resource
import signal
import stat
import subprocess
import tempfile

from .bench import Bench, built
from .cut_off import KILL, LOG, PUT, calls_made, calls_of, failing
from .in_place import FIRST_LINE, MEMORY, MORE, PAIRS, PLACE, calling, files_in, key_of, run
from .page_file import BLOCK
from .page_log import LEAST
from .rooms import USERS, LeftOut, asked
from .savers import Saver, User
from .saving import BESIDE, BESIDES, UNFINISHED
from .trap_rooms import Wrong, room_with, shared_room

COPY = "copy.exh"
COPYING = COPY + ".exhash-copying"
MAKING = LOG + "-new"
# A user who isn't in the group of the files.
STRANGER = User(65534, 65534)
# How many limits on the bytes of a file are tried, and by which they differ; and those on open files.
LIMITS, STEP = 40, 13 * 1024
OPEN_FILES = range(3, 16)


@contextlib.contextmanager
def library_in():
    """The library that refuses calls."""
    with tempfile.TemporaryDirectory() as tools:
        os.chmod(tools, 0o755)
        yield built(tools, "refuse_call")


def records_in(program):
    """A page file that a user made, with records."""
    with room_with(program, {}) as room:
        room.wants(["create", PLACE], 0)
        room.wants(["put", PLACE, "k1", "v1"], 0, b"new\n")
        return room.at(PLACE).read_bytes()


# ---- unfinished files


def stays(room, name, content):
    """A file must be there with its bytes."""
    if not room.at(name).exists() or room.at(name).read_bytes() != content:
        raise Wrong(f"{name} is gone, or another file")


def page_file_named_as_an_unfinished_one(program, _, alone):
    """A page file, a text, zeros and the beginning of a page file under the names of unfinished files: each stays."""
    for content in (records_in(program), b"a text", bytes(BLOCK), b"EXHASHPF, and no more", UNFINISHED[:7]):
        with room_with(program, {**alone, PLACE + BESIDE: content, COPYING: content}) as room:
            room.wants(["compact", PLACE], 0)
            room.wants(["import", "--format", "words", "new.exh", "--create"], 0, given=b"a b\n")
            room.wants(["backup", PLACE, COPY], 1, b"", f"each name beside it is taken: {COPYING}")
            for name in (PLACE + BESIDE, COPYING):
                stays(room, name, content)
            if sorted(files_in(room.folder)) != sorted((PLACE, PLACE + BESIDE, COPYING, "new.exh")):
                raise Wrong(f"left: {sorted(files_in(room.folder))}")
            room.has(PAIRS)


def page_files_under_each_name(program, _, alone):
    """A page file under each name that a save uses: it is refused by these names, and all stay."""
    records = records_in(program)
    with room_with(program, {**alone, **{PLACE + name: records for name in BESIDES}}) as room:
        room.is_let_be(["compact", PLACE], "each name beside it is taken: ")
        room.at(PLACE + BESIDES[2]).unlink()
        room.wants(["compact", PLACE], 0)
        for name in (it for it in BESIDES if it != BESIDES[2]):
            stays(room, PLACE + name, records)


def unfinished_file_taken_over(program, _, alone):
    """What is empty, or begins as an unfinished file does, is taken over, and is gone."""
    for content in (b"", UNFINISHED, UNFINISHED + alone[PLACE][8:], UNFINISHED + b"longer" * BLOCK):
        with room_with(program, {**alone, PLACE + BESIDE: content, COPYING: content}) as room:
            room.wants(["backup", PLACE, COPY], 0)
            stays(room, COPY, alone[PLACE])
            room.wants(["compact", PLACE], 0)
            if sorted(files_in(room.folder)) != sorted((PLACE, COPY)):
                raise Wrong(f"left: {sorted(files_in(room.folder))}")
            room.has(PAIRS)


def killed_at_each_call(program, alone, words):
    """The number of each call of a run, and the files that it leaves where it is killed there."""
    with library_in() as library:
        for nth in range(1, calls_of(program, library, words, b"", alone) + 1):
            yield nth, failing(program, library, words, b"", alone, nth, KILL).files


def compact_killed_at_each_call(program, _, alone):
    """The next is done; of the killed one at most a whole file is left, which had but to get its place."""
    wholes = 0
    for nth, left in killed_at_each_call(program, alone, ["compact", PLACE]):
        with room_with(program, left) as room:
            room.wants(["compact", PLACE], 0)
            room.has(PAIRS)
            for name in sorted(set(files_in(room.folder)) - {PLACE}):
                wholes += 1
                if wholes > 2:
                    raise Wrong(f"killed at call {nth}: it leaves {name}")
                room.has(PAIRS, name)


def backup_killed_at_each_call(program, _, alone):
    """There is no copy or a whole one, and the next is done, or refused by the name of a whole file that had but to be
    linked."""
    wholes = 0
    for nth, left in killed_at_each_call(program, alone, ["backup", PLACE, COPY]):
        with room_with(program, left) as room:
            if COPY not in left:
                done = room.run(["backup", PLACE, COPY])
                if done.returncode:
                    wholes += 1
                    if wholes > 2 or COPYING.encode() not in done.stderr:
                        raise Wrong(f"killed at call {nth}: {done.stderr[:200]}")
                    stays(room, COPYING, alone[PLACE])
                    room.at(COPYING).unlink()
                    room.wants(["backup", PLACE, COPY], 0)
            stays(room, COPY, alone[PLACE])
            stays(room, PLACE, alone[PLACE])


def new_file_named_as_an_unfinished_one(program, _, alone):
    """A new file has no name that an unfinished file of a page file beside it would have; beside another file it may."""
    names = [PLACE + it for it in (*BESIDES, ".exhash-copying", "-wal-new")]
    with room_with(program, {**alone, "text": b"a text"}) as room:
        room.wants(["create", "other.exh"], 0)
        for name in names:
            for words in (["create", name], ["load", name], ["backup", "other.exh", name], ["convert", "other.exh", name]):
                room.wants(words, 1, None, "or of an unfinished file, of the page file beside it", given=FIRST_LINE + b"a b\n")
                if room.at(name).exists():
                    raise Wrong(f"{' '.join(words)}: it made a file")
        room.has(PAIRS)
        room.wants(["create", f"text{BESIDE}"], 0)


# ---- a log's owner and permissions


def run_in(room, library, words, nth, user=None):
    """A run in a folder that is killed at its call of this number."""
    asking = {"LD_PRELOAD": library, "REFUSED_CALL": "any", "REFUSED_NTH": str(nth), "REFUSED_ERROR": str(KILL)}
    how = {} if user is None else {"user": user.number, "group": user.group, "extra_groups": [], "umask": 0o077}
    return subprocess.run(
        [room.program, *words], cwd=room.folder, env={**os.environ, **asking}, capture_output=True, check=False, **how
    ).returncode


def killed_while_a_log_is_made(program, _, alone):
    """A change by root, who lets nobody else in, is killed at each of its calls: each user goes on, and nothing stays."""
    with library_in() as library, shared_room(program, alone, USERS[0]) as room:
        count = calls_of(program, library, PUT, b"", alone)
        for nth in range(1, count + 1):
            os.umask(0o077)
            try:
                run_in(room, library, PUT, nth)
            finally:
                os.umask(0o022)
            for number, user in enumerate(USERS):
                room.wants(["put", PLACE, f"{number}", f"v{nth}"], 0, user=user)
            beside = sorted(set(files_in(room.folder)) - {PLACE})
            if beside:
                raise Wrong(f"killed at call {nth}: left: {beside}")


def name_of_a_log_that_is_made(program, _, alone):
    """What stands under the name that a log has as it is made: an empty file goes, all else stays."""
    with room_with(program, {**alone, MAKING: b""}) as room:
        room.wants(["put", PLACE, MORE, "1"], 0, b"new\n")
        if sorted(files_in(room.folder)) != [PLACE]:
            raise Wrong(f"left: {sorted(files_in(room.folder))}")
        for content in (b"a text", alone[PLACE]):
            room.at(MAKING).write_bytes(content)
            room.wants(["put", PLACE, MORE, "2"], 0)
            stays(room, MAKING, content)
        room.has({**PAIRS, MORE: "2"})


def bits_of(mode, user, about):
    """The bits that a user has of a file."""
    shift = 6 if user.number == about.st_uid else 3 if user.group == about.st_gid else 0
    return mode >> shift & 0o7


def log_of_no_more_bits(program, _, alone):
    """The log of a file has the file's group, or lets nobody do what the file doesn't let them, but who made it."""
    with library_in() as library, shared_room(program, alone, USERS[0]) as room:
        os.chmod(room.folder, 0o777)
        count, seen = calls_of(program, library, PUT, b"", alone), 0
        for mode in (0o666, 0o646, 0o606, 0o662):
            os.chmod(room.at(PLACE), mode)
            # Behind its last calls nothing is left to see.
            for nth in range(1, count + 1):
                run_in(room, library, PUT, nth, STRANGER)
                for name in (LOG, MAKING):
                    if room.at(name).exists():
                        file, log = room.at(PLACE).stat(), room.at(name).stat()
                        for user in (*USERS, User(1, 1)):
                            more = bits_of(stat.S_IMODE(log.st_mode), user, log) & ~bits_of(stat.S_IMODE(file.st_mode), user, file)
                            if more & 0o6:
                                raise Wrong(f"{mode:o}, call {nth}: {name} has mode {log.st_mode:o}, {log.st_uid}:{log.st_gid}")
                        seen += 1
                        room.at(name).unlink()
                room.at(PLACE).write_bytes(alone[PLACE])
        if not seen:
            raise Wrong("no log was left")


# ---- limits of the system


def limited(room, words, which, most, given=b""):
    """What a run comes to under a limit."""

    def prepare():
        signal.signal(signal.SIGXFSZ, signal.SIG_DFL)
        resource.setrlimit(resource.RLIMIT_CORE, (0, 0))
        resource.setrlimit(which, (most, most))

    return subprocess.run(
        [room.program, *words], input=given, cwd=room.folder, capture_output=True, check=False, preexec_fn=prepare
    )


def limit_on_the_size_of_files(program, _, alone):
    """Under each limit a run is done, or says why it isn't and leaves all as it was: none is killed."""
    runs = (PUT, calling("del", key_of(1)), calling("swap", key_of(5), "v5", "w5"), ["backup", PLACE, COPY], ["create", "new.exh"])
    for words in runs:
        ended = set()
        for limit in [0, 1, *range(BLOCK, LIMITS * STEP, STEP)]:
            with room_with(program, alone) as room:
                done = limited(room, words, resource.RLIMIT_FSIZE, limit)
                ended.add(done.returncode)
                if done.returncode not in (0, 1) or bool(done.returncode) != bool(done.stderr):
                    raise Wrong(f"{' '.join(words)}, {limit} bytes: status {done.returncode}, {done.stderr[:200]}")
                if done.returncode and files_in(room.folder) != alone:
                    raise Wrong(f"{' '.join(words)}, {limit} bytes: it changed something: {sorted(files_in(room.folder))}")
                if done.returncode and b"limit" not in done.stderr:
                    raise Wrong(f"{' '.join(words)}, {limit} bytes: {done.stderr[:200]}")
        if ended != {0, 1}:
            raise Wrong(f"{' '.join(words)}: it ended with {ended}")


def limit_on_open_files(program, _, alone):
    """With few open files a change or a copy is done, or leaves nothing beside."""
    for words in (PUT, calling("del", key_of(1)), ["backup", PLACE, COPY], ["compact", PLACE]):
        for limit in OPEN_FILES:
            with room_with(program, alone) as room:
                done = limited(room, words, resource.RLIMIT_NOFILE, limit)
                beside = set(files_in(room.folder)) - {PLACE} - ({COPY} if done.returncode == 0 else set())
                if done.returncode not in (0, 1, 127) or beside:
                    raise Wrong(f"{' '.join(words)}, {limit} files: status {done.returncode}, left: {sorted(beside)}")
                if done.returncode and files_in(room.folder) != alone:
                    raise Wrong(f"{' '.join(words)}, {limit} files: it changed something")


# ---- files that are moved and mounted


def first_copying(program, library, words, files):
    """Which of the writes of a change, at places of a file, is the first of its copying."""
    calls = calls_made(program, library, words, b"", files)
    return [file for name, file in calls if name == "pwrite"].index(PLACE) + 1


def file_moved_over_it(program, _, alone):
    """A put is held at each of its calls, while another file is moved over it and a put into that is killed: what that one
    committed isn't lost."""
    other, late = records_in(program), ["put", PLACE, "--wait", "0", "late", "1"]
    with library_in() as library, tempfile.TemporaryDirectory(dir=MEMORY) as folder:
        bench, committed = Bench(program, library, folder), 0
        killing = {"REFUSED_CALL": "pwrite", "REFUSED_NTH": str(first_copying(program, library, late, {PLACE: other}))}
        killing |= {"LD_PRELOAD": library, "REFUSED_ERROR": str(KILL)}

        def between():
            bench.lay_file(bench.folder / "other.exh", other)
            os.replace(bench.folder / "other.exh", bench.folder / PLACE)
            run(program, late, b"", folder, **killing)
            log = bench.folder / LOG
            return log.read_bytes() if log.exists() and log.stat().st_size >= LEAST else b""

        for nth in range(1, calls_of(program, library, PUT, b"", alone) + 1):
            bench.lay(alone)
            held = bench.held(Saver(PUT, PLACE), nth, between)
            got = bench.whole(Saver(["get", PLACE, "late"], PLACE))
            if b"late" in (held.between or b""):
                committed += 1
                if got.status != 0 or got.text != b"1\n":
                    raise Wrong(f"held at call {nth}: the put that was committed is lost: {got}")
        if not committed:
            raise Wrong("no put was committed meanwhile")


def file_that_is_mounted(program, _, alone):
    """A page file that is mounted by itself into another folder isn't changed there, where its log would be another one."""
    if os.geteuid() != 0:
        raise LeftOut("the runner isn't root")
    with room_with(program, alone) as room, room_with(program, {PLACE: b""}) as other:
        asked("mount", "--bind", room.at(PLACE), other.at(PLACE))
        try:
            other.is_let_be(["put", PLACE, "k", "v"], "it is mounted by itself")
            other.wants(calling("get", key_of(1)), 0, f"{b'v1'.hex()}\n".encode())
        finally:
            subprocess.run(["umount", other.at(PLACE)], check=True)
        room.wants(["put", PLACE, MORE, "1"], 0, b"new\n")


TRAPS = (
    page_file_named_as_an_unfinished_one,
    page_files_under_each_name,
    unfinished_file_taken_over,
    compact_killed_at_each_call,
    backup_killed_at_each_call,
    new_file_named_as_an_unfinished_one,
    killed_while_a_log_is_made,
    name_of_a_log_that_is_made,
    log_of_no_more_bits,
    limit_on_the_size_of_files,
    limit_on_open_files,
    file_moved_over_it,
    file_that_is_mounted,
)
