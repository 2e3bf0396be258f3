"""Traps for changes in place: logs that aren't the file's, and names, paths and folders that a log doesn't fit."""

import os
import shutil

from .beside_files import TRAPS as BESIDE
from .cut_off import LATER, LOG, laid
from .foreign_logs import NO_LOG
from .foreign_logs import TRAPS as FOREIGN
from .in_place import FIRST_LINE, MORE, PAIRS, PLACE, calling, files_in, key_of
from .own_logs import OTHERS, UNFIT
from .own_logs import TRAPS as OWN
from .page_file import BLOCK, sealed
from .page_reader import Live
from .placed_change import block_of
from .placed_file import EMPTY, OF_GROUP, SLOTS, Cell, header_of, page_block_at, walk_block_at
from .replaced_files import TRAPS as REPLACED
from .rooms import SHARED_FOLDER, USERS
from .trap_rooms import Wrong, fill, free, room_with, shared_room, small_room

LINK = "link.exh"
# What each sentence of a refusal begins with.
REFUSED = f"exhash: {PLACE}: "
# What the put that is cut off leaves, as it is got.
DIGITS = b"637574\n"
# The bytes of a log from which all was copied.
EMPTY_LOG = 41
# A byte at which nothing special lies, though the locks of other programs do.
GIB = 1 << 30
# The blocks that are left of a small file system.
LEFT = range(9)
# So few that a put that grows the file finds room for its log alone.
FEW = 24


def another_file(program):
    """A file of version 3 with another pair."""
    with room_with(program, {}) as room:
        room.wants(["load", "plain.exh"], 0, given=FIRST_LINE + b"a b\n")
        room.wants(["convert", "plain.exh", PLACE], 0)
        return room.at(PLACE).read_bytes()


# ---- logs


def log_of_another_file(program, left, _):
    """The log of a run that was cut off beside another file, which has too few blocks for it: it is refused, and named, until it
    is removed."""
    with room_with(program, {**left, PLACE: another_file(program)}) as room:
        for words in (["put", PLACE, "k", "v"], ["del", PLACE, "a"], ["swap", PLACE, "a", "b", "c"]):
            room.is_let_be(words, UNFIT)
        room.is_let_be(["get", PLACE, "a"], UNFIT)
        room.is_let_be(["check", PLACE], UNFIT, text=b"refused 41\n")
        room.at(LOG).unlink()
        room.wants(["put", PLACE, "k", "v"], 0, b"new\n")
        room.has({"a": "b", "k": "v"})


def log_of_a_file_that_is_gone(program, left, _):
    """The same where the file was removed, and another one moved to its place."""
    with room_with(program, left) as room:
        room.at(PLACE).unlink()
        room.wants(["load", "plain.exh"], 0, given=FIRST_LINE + b"a b\n")
        room.wants(["convert", "plain.exh", "moved.exh"], 0)
        room.at("moved.exh").rename(room.at(PLACE))
        room.is_let_be(["put", PLACE, "k", "v"], UNFIT)
        room.at(LOG).unlink()
        room.has({"a": "b"})


def log_of_a_copy(program, left, alone):
    """The log beside a copy that was made before and changed since: equal settings and pages don't make it the copy's."""
    with room_with(program, alone) as room:
        room.wants(["put", PLACE, MORE, "1"], 0, b"new\n")
        shutil.copy(room.at(PLACE), room.at("kept"))
        room.at(LOG).write_bytes(left[LOG])
        room.is_let_be(["put", PLACE, "k", "v"], OTHERS)
        room.at(LOG).unlink()
        room.has({**PAIRS, MORE: "1"})


def log_behind_a_renamed_file(program, left, alone):
    """A file that was renamed without its log, changed, and renamed back: the log is no longer its own."""
    with room_with(program, {**left, **alone}) as room:
        room.at(PLACE).rename(room.at("moved.exh"))
        room.wants(["put", "moved.exh", MORE, "1"], 0, b"new\n")
        room.at("moved.exh").rename(room.at(PLACE))
        room.is_let_be(["put", PLACE, "k", "v"], OTHERS)
        room.at(LOG).unlink()
        room.has({**PAIRS, MORE: "1"})


def file_and_log_copied(program, left, _):
    """Both copied to another name: the copy recovers, and so does the file."""
    with room_with(program, left) as room:
        shutil.copy(room.at(PLACE), room.at("copy.exh"))
        shutil.copy(room.at(LOG), room.at("copy.exh-wal"))
        for name in ("copy.exh", PLACE):
            room.wants(calling("get", key_of(1), path=name), 0, DIGITS)
            room.has(LATER, name)
        room.has_no_log()


def file_alone_copied(program, left, alone):
    """The file copied without its log, before any of this was moved into it: it has the pairs from before."""
    with room_with(program, {**left, **alone}) as room:
        shutil.copy(room.at(PLACE), room.at("copy.exh"))
        room.has(PAIRS, "copy.exh")
        room.has(LATER)


def log_settled_before_a_load(program, left, _):
    """A load that replaces a file beside which a log was left: the log is gone, and never copied into the new one."""
    with room_with(program, left) as room:
        room.wants(["load", PLACE], 0, given=FIRST_LINE + b"a b\n")
        room.has_no_log()
        room.has({"a": "b"})


def folder_for_a_log(program, _, alone):
    """A folder under the log's name: nothing is changed, and the file is read when it is gone."""
    with room_with(program, alone) as room:
        room.at(LOG).mkdir()
        content = room.at(PLACE).read_bytes()
        room.wants(["put", PLACE, "k", "v"], 1, b"", NO_LOG)
        if room.at(PLACE).read_bytes() != content:
            raise Wrong("put: it changed the file")
        room.at(LOG).rmdir()
        room.has(PAIRS)


def pipe_for_a_log(program, _, alone):
    """A pipe under the log's name, which nobody reads: nothing waits for it, and nothing is changed."""
    with room_with(program, alone) as room:
        os.mkfifo(room.at(LOG))
        content = room.at(PLACE).read_bytes()
        room.wants(["put", PLACE, "k", "v"], 1, b"", NO_LOG)
        room.at(LOG).unlink()
        if room.at(PLACE).read_bytes() != content:
            raise Wrong("put: it changed the file")
        room.has(PAIRS)


# ---- names and paths


def second_name(program, _, alone):
    """A hard link: the file is read, and not changed."""
    with room_with(program, alone) as room:
        os.link(room.at(PLACE), room.at(LINK))
        for words in (["put", LINK, "k", "v"], calling("del", key_of(1))):
            room.is_let_be(words, "second name")
        room.has(PAIRS)
        room.at(LINK).unlink()
        room.wants(["put", PLACE, MORE, "1"], 0, b"new\n")


def link_to_the_file(program, left, alone):
    """A link in another folder: what is changed, locked and logged is the file to which it leads."""
    with room_with(program, {**left, **alone}) as room:
        room.at("links").mkdir()
        link = room.at("links") / LINK
        link.symlink_to(f"../{PLACE}")
        # The log beside the file is found by the link too.
        room.wants(calling("get", key_of(1), path=f"links/{LINK}"), 0, DIGITS)
        room.wants(["put", f"links/{LINK}", MORE, "1"], 0, b"new\n")
        room.has({**LATER, MORE: "1"})
        room.has_no_log()
        if not link.is_symlink() or os.listdir(room.at("links")) != [LINK]:
            raise Wrong("the link or its folder is another one")


def long_name(program, _, alone):
    """A name of 247 bytes has room for those of a log and a journal, and one of 248 has none; the longest is read."""
    with room_with(program, alone) as room:
        name = "n" * 247
        room.at(PLACE).rename(room.at(name))
        room.wants(["put", name, MORE, "1"], 0, b"new\n")
        room.at(name).rename(room.at(f"{name}n"))
        room.is_let_be(["put", f"{name}n", "k", "v"], "its name")
        room.at(f"{name}n").rename(room.at("n" * 255))
        room.has({**PAIRS, MORE: "1"}, "n" * 255)
        room.wants(["get", "n" * 255, MORE], 0, b"1\n")


def odd_name(program, left, _):
    """A name with blanks, quotes, a newline and a letter of two bytes: it is changed, and told as a string of Rust's."""
    with room_with(program, {}) as room:
        name = 'a "b"\n\\é.exh'
        laid({name: left[PLACE], f"{name}-wal": left[LOG]}, room.folder)
        room.wants(["put", name, MORE, "1"], 0, b"new\n")
        room.has({**LATER, MORE: "1"}, name)
        room.has_no_log()
        os.link(room.at(name), room.at(LINK))
        room.is_let_be(["put", name, "k", "v"], 'exhash: a "b"\\n\\\\é.exh: ')


def journal(program, _, alone):
    """A file as SQLite's journal is named: the file isn't changed while it is there."""
    with room_with(program, alone) as room:
        room.at(f"{PLACE}-journal").write_bytes(b"")
        room.is_let_be(["put", PLACE, "k", "v"], "-journal")
        room.at(f"{PLACE}-journal").unlink()
        room.wants(["put", PLACE, MORE, "1"], 0, b"new\n")


# ---- lengths


def part_of_a_block(program, _, alone):
    """Bytes behind the last block that are no block: they are neither cut nor filled up."""
    with room_with(program, {PLACE: alone[PLACE] + b"behind"}) as room:
        for words in (["put", PLACE, "k", "v"], calling("del", key_of(1))):
            room.is_let_be(words, REFUSED)
        room.is_let_be(["check", PLACE], "(refused 39)", text=b"refused 39\n")


def above_a_gib(program, _, __):
    """A file of over a GiB, whose key's page stands at that byte: it is changed there. Of the other pages none is read."""
    place = next(it for it in range(GIB // BLOCK) if page_block_at(it) * BLOCK == GIB)
    count = place + OF_GROUP
    key, low = b"\x80", "1".ljust(64, "0")
    slots = [(1, place), *[EMPTY] * (SLOTS - 1)]
    group = min(OF_GROUP, count - place // OF_GROUP * OF_GROUP)
    blocks = {
        0: header_of((2, 0, 2), [count], (b"its own ", b"before\0\0")),
        walk_block_at(0): sealed(b"".join([Cell(0, slots).content(), *[Cell(0, [EMPTY] * SLOTS).content()] * (OF_GROUP - 1)])),
        walk_block_at(place // OF_GROUP): sealed(Cell(0, [EMPTY] * SLOTS).content() * group),
        page_block_at(place): block_of(Live(low, "1", None, [])),
    }
    with room_with(program, {}) as room:
        with room.at(PLACE).open("wb") as file:
            for at, block in blocks.items():
                file.seek(at * BLOCK)
                file.write(block)
            file.truncate((page_block_at(count - 1) + 1) * BLOCK)
        room.wants(calling("put", "#80", "v"), 0, b"new\n")
        room.wants(calling("get", "#80"), 0, b"76\n")
        room.has_no_log()
        with room.at(PLACE).open("rb") as file:
            file.seek(GIB)
            if file.read(BLOCK) != block_of(Live(low, "1", None, [(key, b"v")])):
                raise Wrong("the block at a GiB is another one")


# ---- what a user may do


def reads_by_the_log(room, pairs, user=None):
    """Each reading finds the pairs that a file and its log have together, and leaves both as they are."""
    before = files_in(room.folder)
    for key, value in pairs.items():
        room.wants(calling("get", key), 0, f"{value.encode().hex()}\n".encode(), user=user)
    room.has(pairs, user=user)
    room.wants(["dump", PLACE], 0, user=user)
    told = {words: room.run([words, PLACE], user=user) for words in ("export", "stats")}
    for words, done in told.items():
        if done.returncode or done.stderr:
            raise Wrong(f"{words}: status {done.returncode}: {done.stderr[:200]}")
    if len(told["export"].stdout.splitlines()) != len(pairs) + 2:
        raise Wrong(f"export: {told['export'].stdout[:200]}")
    if files_in(room.folder) != before:
        raise Wrong("a reading changed a file")


def file_to_read(program, _, alone):
    """A file that may only be read: it is, and isn't changed."""
    with shared_room(program, alone, USERS[0]) as room:
        os.chmod(room.at(PLACE), 0o444)
        room.is_let_be(["put", PLACE, "k", "v"], REFUSED, user=USERS[0])
        room.has(PAIRS, user=USERS[0])


def folder_to_read(program, left, alone):
    """A folder in which nothing can be made: its file is read, and isn't changed. One whose log may be read alone is read with
    it, and the log stays."""
    with shared_room(program, alone, USERS[0]) as room:
        os.chmod(room.folder, 0o555)
        room.is_let_be(["put", PLACE, "k", "v"], REFUSED, user=USERS[0])
        room.has(PAIRS, user=USERS[0])
        os.chmod(room.folder, SHARED_FOLDER)
        room.at(LOG).write_bytes(left[LOG])
        os.chown(room.at(LOG), *USERS[1])
        os.chmod(room.at(LOG), 0o444)
        os.chmod(room.folder, 0o555)
        reads_by_the_log(room, LATER, USERS[0])
        room.is_let_be(["put", PLACE, "k", "v"], REFUSED, user=USERS[0])
        os.chmod(room.folder, SHARED_FOLDER)
        room.has(LATER)
        room.has_no_log()


def sticky_folder(program, left, _):
    """A folder in which each may remove only what is theirs: the other's log is copied and emptied, and may stay so."""
    with shared_room(program, left, USERS[0]) as room:
        os.chmod(room.folder, 0o3775)
        room.wants(["put", PLACE, MORE, "1"], 0, b"new\n", user=USERS[1])
        if room.at(LOG).exists() and room.at(LOG).stat().st_size != EMPTY_LOG:
            raise Wrong(f"the log has {room.at(LOG).stat().st_size} bytes")
        room.has({**LATER, MORE: "1"}, user=USERS[1])
        room.wants(["put", PLACE, "k", "v"], 0, b"new\n", user=USERS[0])
        room.has({**LATER, MORE: "1", "k": "v"}, user=USERS[1])
        room.has_no_log()


def full_disk(program, _, alone):
    """A disk with room for so many blocks, from none on: a put that needs more says so and changes nothing, and is done
    once there is room."""
    key = "#c1c1c1"
    for left in LEFT:
        with small_room(program, alone) as room:
            filler = room.at("filler")
            fill(filler, left)
            done = room.run(calling("put", key, "v"))
            if done.returncode not in (0, 1) or (done.returncode == 1) != bool(done.stderr):
                raise Wrong(f"{left} blocks: status {done.returncode}: {done.stdout} {done.stderr[:200]}")
            # What of its commit got into the log takes no room.
            if b"stands in the log" not in done.stderr:
                room.has_no_log()
            free(filler)
            room.has({**PAIRS, key: "v"} if done.returncode == 0 else PAIRS)
            room.wants(calling("put", key, "w"), 0)
            room.has({**PAIRS, key: "w"})
            room.has_no_log()


def del_on_a_full_disk(program, _, alone):
    """A disk with room for so many blocks, and no log: a del is done where its log fits, and is else refused and changes
    nothing."""
    key = key_of(1)
    for left in LEFT:
        with small_room(program, alone) as room:
            fill(room.at("filler"), left)
            done = room.run(calling("del", key))
            wanted = {LEFT[0]: (1,), LEFT[-1]: (0,)}.get(left, (0, 1))
            if done.returncode not in wanted or (done.returncode == 1) != bool(done.stderr):
                raise Wrong(f"{left} blocks: status {done.returncode}: {done.stdout} {done.stderr[:200]}")
            room.has_no_log()
            room.has({it: PAIRS[it] for it in PAIRS if it != key} if done.returncode == 0 else PAIRS)


def full_disk_behind_the_log(program, _, alone):
    """A put whose log is written, and whose blocks find no room in the file, is saved and says so. Until there is room all is
    read by the log, also for a copy elsewhere; each change says why it isn't done, and changes nothing. Then the next finds
    the put done, and a del and a compact free more."""
    with small_room(program, alone) as room, room_with(program, {}) as elsewhere:
        filler, pairs = room.at("filler"), {**PAIRS}
        fill(filler, FEW)
        for key in (f"#{number * 40503 % 65536:04x}d1" for number in range(1000)):
            done, pairs[key] = room.run(calling("put", key, "v")), "v"
            if done.returncode:
                break
        if b"stands in the log" not in done.stderr:
            raise Wrong(f"status {done.returncode}: {done.stdout} {done.stderr[:200]}")
        for words in (calling("put", key, "w"), calling("del", key_of(1)), ["import", PLACE]):
            room.is_let_be(words, "can't be copied into it: No space left on device (os error 28) (refused 41)")
        reads_by_the_log(room, pairs)
        room.wants(["backup", PLACE, str(elsewhere.at("copy.exh"))], 0)
        elsewhere.has(pairs, "copy.exh")
        free(filler)
        room.has(pairs)
        room.has_no_log()
        del pairs[key]
        room.wants(calling("del", key), 0)
        room.wants(["compact", PLACE], 0)
        room.has(pairs)


TRAPS = {
    it.__name__.replace("_", " "): it
    for it in (
        *FOREIGN,
        *OWN,
        *BESIDE,
        *REPLACED,
        log_of_another_file,
        log_of_a_file_that_is_gone,
        log_of_a_copy,
        log_behind_a_renamed_file,
        file_and_log_copied,
        file_alone_copied,
        log_settled_before_a_load,
        folder_for_a_log,
        pipe_for_a_log,
        second_name,
        link_to_the_file,
        long_name,
        odd_name,
        journal,
        part_of_a_block,
        above_a_gib,
        file_to_read,
        folder_to_read,
        sticky_folder,
        full_disk,
        del_on_a_full_disk,
        full_disk_behind_the_log,
    )
}
