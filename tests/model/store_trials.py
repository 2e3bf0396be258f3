"""Trials of stores that a story can't tell line by line: commits that are cut off or refused at each call of the system, or at
each growth of memory, full disks, and many processes at once."""

import contextlib
import errno
import itertools
import random
import tempfile
import threading
from pathlib import Path
from typing import NamedTuple

from .cut_off import KILL, laid
from .file import Call, File
from .file_reader import file_of
from .in_place import MEMORY, PLACE
from .page_file import bytes_of_file, put
from .page_reader import Fault
from .placed_file import DRAWN, placed_file
from .saving import others_beside
from .store_program import MEMORY_REFUSED, REFUSED, StoreRun, Wrong
from .trap_rooms import fill, free, small_room
from .version import CURRENT

WAYS = {KILL: "killed", errno.ENOSPC: "no room", errno.EIO: "a fault of the device"}
KEYS = 12
# What is said of a change that is saved, and of one that is saved or not, which the next opening tells. A store that was told
# one of these commits no more.
SAVED, UNSURE = REFUSED + "the change was saved", REFUSED + "the change may have been saved"
# What is said of a commit that is saved by a store that commits no more.
UNHELD = REFUSED + "it is saved, but can't be opened again"
# The blocks that are left of a small file system.
LEFT = range(0, 24, 2)
PROCESSES, COMMITS = 4, 10
# The seconds for which a process among many waits for the lock, and for its answer.
WAIT, ANSWERED = 200, 240
# How often a file is read beside a store, which commits at least so often meanwhile.
READINGS, LEAST = 20, 3


def key_of(number):
    return bytes([number * 20 % 256, number])


PAIRS = {key_of(number): b"v%d" % number for number in range(KEYS)}


def file_with(pairs):
    file = File.empty(2, 1, "plain")
    for key, value in pairs.items():
        put(file, Call("put", key, value))
    return file


# The same pairs in files of two versions.
FILES = {3: placed_file(file_with(PAIRS), DRAWN), 2: bytes_of_file(file_with(PAIRS), CURRENT)}


class Errand(NamedTuple):
    """What a store is asked before it is committed, and the pairs that it has then."""

    lines: dict
    left: dict


def word(data):
    return "#" + data.hex()


def without(key):
    return {other: value for other, value in PAIRS.items() if other != key}


NEW = b"\xc1\xc1"
ERRANDS = {
    "a put of a value": Errand({f"put {word(key_of(3))} other": "was v3"}, {**PAIRS, key_of(3): b"other"}),
    "a put that splits": Errand({f"put {word(NEW)} new": "new"}, {**PAIRS, NEW: b"new"}),
    "a removal": Errand({f"remove {word(key_of(7))}": "was v7"}, without(key_of(7))),
    "puts of all": Errand(
        {f"put {word(key)} w": f"was {value.decode()}" for key, value in PAIRS.items()}, dict.fromkeys(PAIRS, b"w")
    ),
}

# Which commits have each growth refused, and which each call, by the file's version.
GROWING = ((3, "a put that splits"), (2, "a put of a value"))
CALLING = (*((3, name) for name in ERRANDS), (2, "a put that splits"))
# The number of a growth that no run asks for.
NEVER = 10**9


def pairs_at(folder, name=PLACE):
    """The pairs of a file, by the second reader of the formats."""
    try:
        return file_of(Path(folder, name).read_bytes()).map
    except Fault as fault:
        raise Wrong(f"{name}: {fault}") from None


def asked(run, lines):
    """Asks lines that must be answered so; False where the run is gone before."""
    for line, wanted in lines.items():
        answer = run.told(line)
        if answer is None:
            return False
        if answer != wanted:
            raise Wrong(f"{line}: the answer is {answer!r}")
    return True


@contextlib.contextmanager
def store_run(program, folder, descriptors=(), **environment):
    """A run that is killed in the end if it is still there."""
    run = StoreRun(program, folder, None, descriptors, **environment)
    try:
        yield run
    finally:
        run.kill()


def see_next(program, folder, allowed):
    """Who opens the file next finds one of these lists of pairs, and can change it; then nothing stands beside it."""
    with store_run(program, folder) as run:
        asked(run, {f"open {PLACE} 0": "done"})
        length = run.told("len")
        if length not in [f"len {len(pairs)}" for pairs in allowed]:
            raise Wrong(f"the next opening: {length}")
        if not any(all(run.told(f"get {word(key)}") == f"is {value.decode()}" for key, value in it.items()) for it in allowed):
            raise Wrong("the next opening: the pairs are neither those from before nor those from after")
        asked(run, {"put zz 1": "new", "commit": "done", "close": "done"})
        run.end()
    if pairs_at(folder) not in [{**pairs, b"zz": b"1"} for pairs in allowed]:
        raise Wrong("the pairs are other ones behind the next commit")
    if beside := others_beside(folder, PLACE):
        raise Wrong(f"left: {beside}")


# ---- calls of the system


def calls_of(program, library, files, lines):
    """How many calls a run makes."""
    with tempfile.TemporaryDirectory(dir=MEMORY) as folder, tempfile.TemporaryFile() as tells:
        laid(files, folder)
        refusing = {"REFUSED_CALL": "none", "REFUSED_ERROR": "0", "REFUSED_TELLS": str(tells.fileno()), "REFUSED_ABOUT": PLACE}
        with store_run(program, folder, [tells.fileno()], LD_PRELOAD=library, **refusing) as run:
            asked(run, lines)
            run.end()
        tells.seek(0)
        return len(tells.read().splitlines())


def cut_off(program, library, version, errand, nth, error):
    """One call about the file fails, or the run is killed there: what is wrong, or None."""
    with tempfile.TemporaryDirectory(dir=MEMORY) as folder:
        laid({PLACE: FILES[version]}, folder)
        refusing = {"REFUSED_CALL": "any", "REFUSED_NTH": str(nth), "REFUSED_ERROR": str(error), "REFUSED_ABOUT": PLACE}
        allowed = [PAIRS, errand.left]
        try:
            with store_run(program, folder, LD_PRELOAD=library, **refusing) as run:
                allowed = after_a_fault(run, errand)
            see_next(program, folder, allowed)
        except Wrong as what:
            return str(what)
    return None


def after_a_fault(run, errand):
    """Opens, changes and commits, of which a call fails: which pairs the next one may find."""
    opened = run.told(f"open {PLACE} 0")
    if opened is None or opened.startswith(REFUSED):
        return [PAIRS]
    if opened != "done" or not asked(run, errand.lines):
        raise Wrong(f"open: {opened!r}")
    committed = run.told("commit")
    return [PAIRS, errand.left] if committed is None else committed_again(run, errand, committed)


def committed_again(run, errand, committed):
    """What a commit came to of which a call failed: the store has its pairs all the same, and where nothing was saved a second
    commit is done. Which pairs the next one may find."""
    asked(run, {"len": f"len {len(errand.left)}"})
    again = run.told("commit")
    if again == "done" or committed == "done" or committed.startswith((SAVED, UNHELD)):
        return [errand.left]
    if not committed.startswith(UNSURE):
        raise Wrong(f"a second commit: {again}, after {committed}")
    return [PAIRS, errand.left]


def calls(shims, program, report):
    """A commit of each errand once for each call of the system about the file, with the run killed there, and with the call
    failing."""
    for version, name in CALLING:
        errand = ERRANDS[name]
        lines = {f"open {PLACE} 0": "done", **errand.lines, "commit": "done"}
        count = calls_of(program, shims["refuse_call"], {PLACE: FILES[version]}, lines)
        for nth, error in itertools.product(range(1, count + 1), WAYS):
            told = f"{name}, version {version}, call {nth} of {count}, {WAYS[error]}"
            report(told, cut_off, program, shims["refuse_call"], version, errand, nth, error)


# ---- growths of memory


def growing_run(program, library, folder, tells, growth, **environment):
    """A run of which the growth of this number is refused."""
    refusing = {"REFUSED_GROWTH": str(growth), "REFUSED_TELLS": str(tells.fileno()), **environment}
    return store_run(program, folder, [tells.fileno()], LD_PRELOAD=library, **refusing)


def growths_of(program, library, version, lines):
    """How many growths of memory a run asks for."""
    with tempfile.TemporaryDirectory(dir=MEMORY) as folder, tempfile.TemporaryFile() as tells:
        laid({PLACE: FILES[version]}, folder)
        with growing_run(program, library, folder, tells, NEVER, REFUSED_COUNTS="1") as run:
            asked(run, lines)
            run.end()
        tells.seek(0)
        return int(tells.read())


def grown(program, library, version, errand, nth):
    """One growth of memory is refused: what is wrong, or None."""
    with tempfile.TemporaryDirectory(dir=MEMORY) as folder, tempfile.TemporaryFile() as tells:
        laid({PLACE: FILES[version]}, folder)
        try:
            with growing_run(program, library, folder, tells, nth) as run:
                ended = not all(asked_again(run, line, wanted) for line, wanted in growing_lines(errand).items())
            if not ended and pairs_at(folder) != errand.left:
                return "the pairs aren't those from after"
            see_next(program, folder, [PAIRS, errand.left] if ended else [errand.left])
        except Wrong as what:
            return str(what)
    return None


def growing_lines(errand):
    return {f"open {PLACE} 0": "done", **errand.lines, "len": f"len {len(errand.left)}", "commit": "done"}


def asked_again(run, line, wanted):
    """Asks a line, and again where memory was refused and nothing done; False where the run is gone."""
    answer = run.told(line)
    if answer is not None and answer.startswith(MEMORY_REFUSED):
        answer = run.told(line)
    if answer is None:
        return False
    if answer != wanted and not answer.startswith(UNHELD):
        raise Wrong(f"{line}: the answer is {answer!r}")
    return True


def growths(shims, program, report):
    """A commit once for each growth of memory, which is refused: a call that says so left all as it was, and is then done."""
    for version, name in GROWING:
        count = growths_of(program, shims["refuse_growth"], version, growing_lines(ERRANDS[name]))
        for nth in range(1, count + 1):
            told = f"{name}, version {version}, growth {nth} of {count}"
            report(told, grown, program, shims["refuse_growth"], version, ERRANDS[name], nth)


# ---- full disks


def full_disk(_, program, report):
    """A disk with room for so many blocks: a commit that needs more says so, leaves the file as it was and the store its
    pairs, and is done once there is room."""
    for (version, name), left in itertools.product(CALLING, LEFT):
        report(f"{name}, version {version}, {left} blocks left", filled, program, version, ERRANDS[name], left)


def filled(program, version, errand, left):
    with small_room(program, {PLACE: FILES[version]}) as room, store_run(program, room.folder) as run:
        filler = room.at("filler")
        try:
            asked(run, {f"open {PLACE} 0": "done", **errand.lines})
            fill(filler, left)
            committed = run.told("commit")
            free(filler)
            allowed = committed_again(run, errand, committed)
            run.end()
            see_next(program, room.folder, allowed)
        except Wrong as what:
            return str(what)
    return None


# ---- many at once


def one_of_many(program, folder, process, wrongs):
    """Opens, puts, commits and closes so often, some of it directly, and is sometimes killed: what was acknowledged is what
    it left."""
    chance, left, unsure = random.Random(process), {}, {}
    for number in range(COMMITS):
        key, value = bytes([(5 * process + number % 5) * 8 % 256, 1]), b"%d" % number
        with store_run(program, folder) as run:
            if chance.random() < 0.3:
                lines = [f"direct {PLACE} within {WAIT} put {word(key)} {value.decode()}"]
            else:
                lines = [f"open {PLACE} {WAIT}", f"put {word(key)} {value.decode()}", "close"]
            if chance.random() < 0.15:
                threading.Timer(chance.random() * 0.03, run.run.kill).start()
            answers = [run.told(line, ANSWERED) for line in lines]
        if any(it is not None and it.startswith(REFUSED) for it in answers):
            wrongs.append(f"process {process}: {answers}")
        if answers[-1] is None:
            unsure[key] = unsure.get(key, set()) | {left.get(key), value}
        else:
            left[key] = value
            unsure.pop(key, None)
    wrongs.append((left, unsure))


def processes(_, program, report):
    """Several processes at once, by stores and directly, some killed: each acknowledged commit is there in the end."""
    report("processes at once", many_at_once, program)


def many_at_once(program):
    with tempfile.TemporaryDirectory(dir=MEMORY) as folder:
        laid({PLACE: FILES[3]}, folder)
        wrongs = []
        threads = [threading.Thread(target=one_of_many, args=(program, folder, it, wrongs)) for it in range(PROCESSES)]
        for it in threads:
            it.start()
        for it in threads:
            it.join()
        told = [it for it in wrongs if isinstance(it, str)]
        if told or len(wrongs) != PROCESSES:
            return told[0] if told else "a process failed"
        with store_run(program, folder) as run:
            asked(run, {f"open {PLACE} 0": "done"})
            run.end()
        has = pairs_at(folder)
        for left, unsure in wrongs:
            for key, value in left.items():
                if has.get(key) != value and has.get(key) not in unsure.get(key, ()):
                    return f"{key}: it has {has.get(key)}, and was given {value}"
    return None


def readers(_, program, report):
    """Readers beside a store that commits one value for all keys after the other: each reads one value for all."""
    report("readers beside a store", reading, program)


def reading(program):
    with tempfile.TemporaryDirectory(dir=MEMORY) as folder:
        laid({PLACE: placed_file(file_with(dict.fromkeys(PAIRS, b"v0")), DRAWN)}, folder)
        wrongs, number = [], 0
        thread = threading.Thread(target=reads, args=(program, folder, wrongs))
        with store_run(program, folder) as run:
            asked(run, {f"open {PLACE} 0": "done"})
            thread.start()
            while thread.is_alive():
                number += 1
                asked(run, {f"put {word(key)} v{number}": f"was v{number - 1}" for key in PAIRS})
                asked(run, {"commit": "done"})
            thread.join()
            run.end()
    if not wrongs and number < LEAST:
        return f"only {number} commits"
    return wrongs[0] if wrongs else None


def reads(program, folder, wrongs):
    for _ in range(READINGS):
        with store_run(program, folder) as run:
            opened, pairs = run.told(f"open-read {PLACE} 60"), run.told("pairs")
        values = set((pairs or "").split(" ")[2::2])
        if opened != "done" or len(values) != 1:
            wrongs.append(f"a reader: {opened}, {pairs}")
            return


TRIALS = {"calls": calls, "growths": growths, "full disk": full_disk, "processes": processes, "readers": readers}
