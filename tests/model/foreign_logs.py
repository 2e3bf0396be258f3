"""Traps at the name of a page file's log: what is no log of exhash is never touched, and what is one goes on."""

import os
import sqlite3
from pathlib import Path

from .cut_off import LATER, LOG, NO_LOG, PUT
from .in_place import FIRST_LINE, MORE, PAIRS, PLACE, calling, key_of
from .page_file import BLOCK
from .page_log import EMPTY, FRONT, HEADER, LEAST, changed_blocks, empty_log, header, log_of
from .rooms import USERS
from .trap_rooms import Wrong, room_with, shared_room

# Commands that open a log, and those that do where one is beside the file that may have a change.
CHANGES = (["put", PLACE, "k", "v"], calling("del", key_of(1)), calling("swap", key_of(5), "v5", "w5"))
READS = (calling("get", key_of(1)), ["export", PLACE], ["stats", PLACE], ["backup", PLACE, "copy.exh"], ["compact", PLACE])
# The text of a user, which is shorter than a log that has a change, and one that is longer.
TEXTS = (b"7 eggs\n", b"what I wrote down, and nobody else has; it isn't a log, and is longer than one without a change\n")


def is_refused(room):
    """Each command is refused with what stands there, and leaves it."""
    for words in CHANGES:
        room.is_let_be(words, NO_LOG)
    if room.at(LOG).stat().st_size >= LEAST:
        for words in READS:
            room.is_let_be(words, NO_LOG)
        room.is_let_be(["check", PLACE], NO_LOG, text=b"refused 41\n")
    room.at(LOG).unlink()
    room.has(PAIRS)
    room.wants(["put", PLACE, MORE, "1"], 0, b"new\n")


def are_refused(program, alone, contents):
    """Each of some contents is refused under the log's name."""
    for content in contents:
        with room_with(program, {**alone, LOG: content}) as room:
            is_refused(room)


def goes_on(program, files, pairs):
    """A file beside which a log stands is read and changed, and the log is gone."""
    with room_with(program, files) as room:
        room.wants(["put", PLACE, MORE, "1"], 0, b"new\n")
        room.has({**pairs, MORE: "1"})
        room.has_no_log()


# ---- what is no log


def text_for_a_log(program, _, alone):
    """A text under the log's name, a short and a long one."""
    are_refused(program, alone, TEXTS)


def page_file_for_a_log(program, _, alone):
    """A page file under the log's name keeps its records."""
    with room_with(program, alone) as room:
        room.wants(["create", "other.exh"], 0)
        room.wants(["put", "other.exh", "k1", "v1"], 0, b"new\n")
        room.at("other.exh").rename(room.at(LOG))
        for words in (*CHANGES, *READS):
            room.is_let_be(words, NO_LOG)
        room.has({"k1": "v1"}, LOG)
        room.wants(["put", LOG, "k2", "v2"], 0, b"new\n")
        room.has({"k1": "v1", "k2": "v2"}, LOG)


def zeros_for_a_log(program, _, alone):
    """A block of zeros, and a zero more than a log without a commit may have."""
    are_refused(program, alone, (bytes(BLOCK), bytes(LEAST + 1), bytes(LEAST) + b"behind"))


def other_programs_log(program, _, alone):
    """SQLite's logs: with pages of 4,096 bytes they are in the same format, and with others in another one."""
    for pages in (BLOCK, 1024):
        with room_with(program, alone) as room:
            base = sqlite3.connect(room.at("base"))
            base.executescript(f"pragma page_size={pages}; pragma journal_mode=wal; create table t (a);")
            base.execute("insert into t values (1)")
            base.commit()
            room.at(LOG).write_bytes(Path(f"{room.at('base')}-wal").read_bytes())
            base.close()
            is_refused(room)


def log_without_a_header(program, left, alone):
    """Logs in the format whose last commit has another first page, or none; a header with a byte turned, or of another
    length of blocks."""
    block, count = bytes(range(256)) * (BLOCK // 256), len(alone[PLACE]) // BLOCK
    own = alone[PLACE][:BLOCK]
    turned = bytearray(left[LOG])
    turned[HEADER - 1] ^= 1
    others = ([{0: block}], [{1: block}], [{0: own}, {0: block, 1: block}])
    are_refused(program, alone, [log_of(commits, count) for commits in others])
    are_refused(program, alone, (bytes(turned), header(block=1024) + bytes(BLOCK)))


# ---- names, folders and users


def new_file_of_that_name(program, _, alone):
    """A new file has no name that the log of a page file beside it would have; beside another file, or none, it may."""
    with room_with(program, {**alone, "text": b"a text"}) as room:
        room.wants(["create", "other.exh"], 0)
        for words in (["create", LOG], ["load", LOG], ["backup", "other.exh", LOG], ["convert", "other.exh", LOG]):
            room.wants(words, 1, None, "its name is that of the log", given=FIRST_LINE + b"a b\n")
            if room.at(LOG).exists():
                raise Wrong(f"{' '.join(words)}: it made a file")
        room.has(PAIRS)
        for beside in ("text-wal", "none-wal"):
            room.wants(["create", beside], 0)


def log_that_is_a_link(program, _, alone):
    """A link under the log's name, to a file or to nothing, and a log of two names: none is followed, emptied or removed."""
    with room_with(program, alone) as room:
        room.at("kept").write_bytes(b"")
        for target in ("kept", "nothing"):
            room.at(LOG).symlink_to(target)
            for words in (["put", PLACE, "k", "v"], calling("get", key_of(1))):
                room.wants(words, 1, b"", NO_LOG)
            if not room.at(LOG).is_symlink() or room.at("nothing").exists() or room.at("kept").read_bytes():
                raise Wrong(f"the link to {target} was followed, or is gone")
            room.at(LOG).unlink()
        os.link(room.at("kept"), room.at(LOG))
        room.is_let_be(["put", PLACE, "k", "v"], "the log beside it, of the same name with -wal behind it, has a second name")
        room.at(LOG).unlink()
        room.has(PAIRS)


def log_of_another_user(program, left, _):
    """A log that a user may not read and write is named, and so is a folder in which they may make none."""
    with shared_room(program, left, USERS[0]) as room:
        os.chmod(room.at(LOG), 0o600)
        for words in (["put", PLACE, "k", "v"], calling("get", key_of(1))):
            room.is_let_be(words, "may not be read and written", user=USERS[1])
        os.chmod(room.at(LOG), 0o660)
        room.wants(["put", PLACE, MORE, "1"], 0, b"new\n", user=USERS[1])
        os.chmod(room.folder, 0o555)
        room.is_let_be(["put", PLACE, "k", "v"], "its folder lets no log be made there", user=USERS[1])
        room.has({**LATER, MORE: "1"}, user=USERS[1])


# ---- what is one


def short_log(program, _, alone):
    """An empty file, zeros and beginnings of a header have no commit: a change goes on, and removes them."""
    whole = empty_log()
    for content in (b"", bytes(LEAST), bytes(EMPTY), whole[:1], whole[:FRONT], whole[:HEADER], whole, b"\0" + whole[1:20]):
        goes_on(program, {**alone, LOG: content}, PAIRS)
    are_refused(program, alone, (b"\0" + whole[1:5] + b"\1", whole[: FRONT - 1] + b"\1"))


def log_that_is_being_emptied(program, left, alone):
    """A log that is cut off as it is emptied, whose first byte is 0 and whose header is half old and half new: it has no
    commit, and the file has all."""
    with room_with(program, left) as room:
        room.has(LATER)
        file = room.at(PLACE).read_bytes()
    log, new = left[LOG], empty_log(b"newsalts")
    for end in (1, FRONT, 20, HEADER, EMPTY):
        half = b"\0" + new[1:end] + log[end:]
        goes_on(program, {PLACE: file, LOG: half}, LATER)
    goes_on(program, {PLACE: file, LOG: new + log[EMPTY:]}, LATER)
    for at in range(1, FRONT):
        turned = bytearray(b"\0" + log[1:])
        turned[at] ^= 4
        are_refused(program, alone, (bytes(turned),))


def log_by_its_format(program, _, alone):
    """A log that is laid by its format, as each program before this one left it: its change is found, once or twice."""
    count = len(alone[PLACE]) // BLOCK
    with room_with(program, alone) as room:
        room.wants(PUT, 0)
        after = room.at(PLACE).read_bytes()
    blocks = changed_blocks(alone[PLACE], after)
    for commits in ([blocks], [{0: blocks[0]}, blocks]):
        goes_on(program, {**alone, LOG: log_of(commits, count)}, LATER)


TRAPS = (
    text_for_a_log,
    page_file_for_a_log,
    zeros_for_a_log,
    other_programs_log,
    log_without_a_header,
    new_file_of_that_name,
    log_that_is_a_link,
    log_of_another_user,
    short_log,
    log_that_is_being_emptied,
    log_by_its_format,
)
