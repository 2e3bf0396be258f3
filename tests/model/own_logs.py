"""Traps of logs with several commits, as programs before this one left them, and of damaged headers: whose a log is its headers
tell."""

import os

from .cut_off import LOG
from .foreign_logs import goes_on
from .in_place import MORE, PAIRS, PLACE, calling, files_in, key_of
from .page_file import BLOCK
from .page_log import changed_blocks, log_of, shut
from .rooms import USERS
from .trap_rooms import Wrong, room_with, shared_room

# What the refusal of another file's log says, behind the path.
OTHERS = "isn't this file's: move it away, keep it, and try check"
# What that of a log says whose blocks are no list of blocks with those of the file.
UNFIT = "doesn't fit the file: move it away, keep it, and try check"
# What is said of a file that is read with the log beside it.
DAMAGED = "its header is damaged: it is read with the log beside it, which is not copied into it"
# The changes that are made in turn, none of which adds a block: the keys, and their values.
CHANGES = tuple((key_of(number), f"t{number}") for number in range(3))
# Another one, over the file as it is behind the first.
OTHER = (key_of(9), "another")
# How many commits the logs have.
COMMITS = (2, 3)
# Where a header has its stamp.
STAMP = 84


def put_into(program, file, key, value):
    """The bytes of a page file behind a put."""
    with room_with(program, {PLACE: file}) as room:
        room.wants(calling("put", key, value), 0)
        return room.at(PLACE).read_bytes()


def states_of(program, alone):
    """The bytes of a file before some changes and behind each of them, and the pairs that they have."""
    files, pairs = [alone[PLACE]], [PAIRS]
    for key, value in CHANGES:
        files.append(put_into(program, files[-1], key, value))
        pairs.append({**pairs[-1], key: value})
    if len({len(file) for file in files}) != 1:
        raise Wrong("a put of a value added a block")
    return files, pairs


def log_from(files):
    """The log of the commits that lead from each of some files to the next one."""
    return shut(log_of([changed_blocks(*two) for two in zip(files, files[1:])], len(files[0]) // BLOCK))


def is_anothers(program, file, log, said=OTHERS):
    """A log that isn't the file's is refused by each command, which leaves both as they are, and moved away it is no more."""
    with room_with(program, {PLACE: file, LOG: log}) as room:
        for words in (calling("put", MORE, "1"), calling("del", key_of(1)), calling("get", key_of(1)), ["export", PLACE]):
            room.is_let_be(words, said)
        room.is_let_be(["check", PLACE], said, text=b"refused 41\n")
        room.at(LOG).rename(room.at("kept"))
        room.wants(["check", PLACE], 0)
        room.wants(["put", PLACE, MORE, "1"], 0, b"new\n")


def several_commits(program, _, alone):
    """A log of two and of three commits: the file is the one before the first of them, or one amid their copying, whose header
    is that before, of any of them, or damaged. Each of their changes is found."""
    files, pairs = states_of(program, alone)
    for count in COMMITS:
        log = log_from(files[: count + 1])
        for header in files[: count + 1]:
            goes_on(program, {PLACE: header[:BLOCK] + files[0][BLOCK:], LOG: log}, pairs[count])
        damaged = files[0][:STAMP] + bytes(BLOCK - STAMP)
        goes_on(program, {PLACE: damaged + files[0][BLOCK:], LOG: log}, pairs[count])


def several_commits_of_another(program, _, alone):
    """A log of two and of three commits beside a file that was changed otherwise behind the first of them, one that is newer
    than the last, and one of another lineage: it is refused, and neither is changed."""
    files, _ = states_of(program, alone)
    newer = put_into(program, files[-1], *OTHER)
    with room_with(program, {}) as room:
        room.wants(["create", PLACE], 0)
        room.wants(["put", PLACE, "a", "b"], 0, b"new\n")
        another = room.at(PLACE).read_bytes()
    for count in COMMITS:
        log = log_from(files[: count + 1])
        for file in (put_into(program, files[1], *OTHER), put_into(program, alone[PLACE], *OTHER), newer):
            is_anothers(program, file, log)
        # It has too few blocks for those that the log leaves as they are.
        is_anothers(program, another, log, UNFIT)


def commits_with_a_gap(program, _, alone):
    """A log in which a commit is missing, so that a state has another stamp before than that of the one in front of it: it is
    no log of the file from which the first came."""
    files, _ = states_of(program, alone)
    commits = [changed_blocks(files[0], files[1]), changed_blocks(files[2], files[3])]
    is_anothers(program, files[0], shut(log_of(commits, len(files[0]) // BLOCK)))


def log_of_more_blocks(program, _, alone):
    """A log whose last commit leaves more blocks than it and the file have: it doesn't fit, and is named so."""
    files, _ = states_of(program, alone)
    log = log_of([changed_blocks(files[0], files[1])], len(files[0]) // BLOCK + 2)
    is_anothers(program, files[0], shut(log), UNFIT)


def is_read_amid_copying(program, files, pairs):
    """A file into which a log was being copied is recovered by each reader."""
    for words in (calling("get", key_of(0)), ["export", PLACE], ["stats", PLACE], ["check", PLACE], ["backup", PLACE, "copy.exh"]):
        with room_with(program, files) as room:
            room.wants(words, 0)
            room.has_no_log()
            room.has(pairs)


def damaged_header_amid_copying(program, _, alone):
    """A damaged header that has the stamps of a state of the log, or the stamp of the one before the first."""
    files, pairs = states_of(program, alone)
    for count in (1, *COMMITS):
        log = log_from(files[: count + 1])
        for stamps in (files[0][STAMP : STAMP + 8], *(file[STAMP : STAMP + 16] for file in files[1 : count + 1])):
            damaged = (files[0][:STAMP] + stamps).ljust(BLOCK, b"\0") + files[0][BLOCK:]
            is_read_amid_copying(program, {PLACE: damaged, LOG: log}, pairs[count])


def is_salvaged(room, pairs, said, status=0):
    """A salvage reads file and log, leaves both as they are, and has these pairs."""
    room.is_let_be(["salvage", PLACE], said, status=status, text=None)
    text = room.run(["salvage", PLACE]).stdout
    room.wants(["import", "copy.exh", "--create"], 0, None, given=text)
    room.has(pairs, "copy.exh")
    room.at("copy.exh").unlink()


def salvaged_with_its_log(program, _, alone):
    """A file with its log is salvaged as the two stand together; where the log can't be read with it, alone."""
    files, pairs = states_of(program, alone)
    for count in (1, *COMMITS):
        log = log_from(files[: count + 1])
        for header in files[: count + 1]:
            with room_with(program, {PLACE: header[:BLOCK] + files[0][BLOCK:], LOG: log}) as room:
                is_salvaged(room, pairs[count], f"a log stands beside it, {room.at(LOG).resolve()}, and is read with it")
    with room_with(program, {PLACE: put_into(program, files[1], *OTHER), LOG: log_from(files[:3])}) as room:
        is_salvaged(room, {**pairs[1], OTHER[0]: OTHER[1]}, "and is not read: ")


def damaged_header_of_who_may_only_read(program, _, alone):
    """Who may not write to the log is told too that the header is damaged, by each reader."""
    files, _ = states_of(program, alone)
    other = put_into(program, alone[PLACE], *OTHER)
    turned = other[: STAMP - 1] + bytes([other[STAMP - 1] ^ 1]) + other[STAMP:BLOCK]
    with shared_room(program, {PLACE: turned + other[BLOCK:], LOG: log_from(files[:2])}, USERS[0]) as room:
        for name in (PLACE, LOG):
            os.chmod(room.at(name), 0o644)
        value = CHANGES[0][1].encode().hex().encode() + b"\n"
        room.is_let_be(calling("get", CHANGES[0][0]), DAMAGED, status=0, text=value, user=USERS[1])
        for words in (["export", PLACE], ["stats", PLACE], ["check", PLACE], ["dump", PLACE], ["pairs", PLACE]):
            room.is_let_be(words, DAMAGED, status=0, text=None, user=USERS[1])


def log_of_another_beside_a_damaged_header(program, _, alone):
    """A header that is damaged, and has none of these stamps, or one of two: readers answer from file and log, say so, and
    leave both; what changes the file copies the log."""
    files, _ = states_of(program, alone)
    other = put_into(program, alone[PLACE], *OTHER)
    log = log_from(files[:2])
    turned = other[: STAMP - 1] + bytes([other[STAMP - 1] ^ 1]) + other[STAMP:BLOCK]
    mixed = (files[0][:STAMP] + files[1][STAMP : STAMP + 8]).ljust(BLOCK, b"\1")
    both = {**PAIRS, CHANGES[0][0]: CHANGES[0][1], OTHER[0]: OTHER[1]}
    for header in (turned, mixed):
        with room_with(program, {PLACE: header + other[BLOCK:], LOG: log}) as room:
            before = files_in(room.folder)
            room.is_let_be(calling("get", CHANGES[0][0]), DAMAGED, status=0, text=CHANGES[0][1].encode().hex().encode() + b"\n")
            for words in (["export", PLACE], ["stats", PLACE], ["check", PLACE], ["dump", PLACE], ["pairs", PLACE]):
                room.is_let_be(words, DAMAGED, status=0, text=None)
            room.wants(["backup", PLACE, "copy.exh"], 0, None, DAMAGED)
            room.has(both, "copy.exh")
            room.at("copy.exh").unlink()
            room.is_let_be(["convert", PLACE, "new.exh"], "block 0 is damaged", text=None)
            is_salvaged(room, both, f"blocks from {len(other) // BLOCK} on are those that the log changes", status=5)
            if files_in(room.folder) != before:
                raise Wrong("a reader changed something")
            room.wants(["put", PLACE, MORE, "1"], 0, b"new\n")
            room.has({**both, MORE: "1"})
            room.has_no_log()


TRAPS = (
    several_commits,
    several_commits_of_another,
    commits_with_a_gap,
    log_of_more_blocks,
    damaged_header_amid_copying,
    salvaged_with_its_log,
    damaged_header_of_who_may_only_read,
    log_of_another_beside_a_damaged_header,
)
