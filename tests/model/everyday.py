"""What an everyday command comes to, by its words and the files that are there: what it prints, says, ends with and leaves."""

from typing import NamedTuple

from .bits import low_bound, parent_of
from .command_line import WrongWords
from .file import Call
from .file_reader import file_of, value_in
from .grammar import WrongLine, bytes_of, printed
from .page_file import BLOCK, MAGIC, bytes_of_file, load_of, put
from .page_reader import READ, Fault
from .placed_change import DONE, PlacedChange, is_in_place
from .placed_file import DRAWN, is_placed, placed_file, stamp_after, stamps_of, with_stamps
from .placed_reader import PlacedReader
from .request import DIGITS, request_of
from .said import ANY, sentence_of
from .saving import is_savable, saved_over
from .version import KEY_LIMIT, NUMBER_LIMIT, SCRIPT_LIMIT, VALUE_LIMIT

# The statuses of runs that aren't done.
UNREADABLE, WRONG, ABSENT = 1, 2, 3


class Answer(NamedTuple):
    """What a command comes to: what it prints, the patterns of what it says, which aren't known of wrong words, its status,
    and the files."""

    text: bytes
    error: list | None
    status: int
    files: dict


class Lacking(Exception):
    """A command that isn't done, with its status and what it says of a path."""

    def __init__(self, status, path, said):
        super().__init__(status, path, said)
        self.status, self.path, self.said = status, path, said


def answer_of(words, given, files):
    """What a command comes to over what is on standard input and the files that are there."""
    try:
        request = request_of(words)
    except WrongWords:
        return Answer(b"", None, WRONG, files)
    stored = Stored(request.path, files)
    try:
        return Answer(*COMMANDS[request.command](request, given, stored), stored.files)
    except Fault as fault:
        sentence = sentence_of(request.path, fault.text(), files.get(request.path))
        return Answer(b"", [sentence], UNREADABLE, files)
    except Lacking as it:
        return Answer(b"", [f"exhash: {it.path}: {it.said}"], it.status, files)


def content_at(path, files):
    """The bytes of the file of a path. Where there is none the reading faults."""
    if path not in files:
        raise Fault(READ)
    return files[path]


# ---- keys and values on standard input


def keys_of_input(request, given):
    """The keys of lines on standard input, each a word as `pairs` prints it, or hexadecimal digits."""
    if len(given) > SCRIPT_LIMIT:
        raise Lacking(UNREADABLE, ANY, ANY)
    lines = given.removesuffix(b"\n").split(b"\n") if given else []
    return [key_of_line(number, line, request.is_hex) for number, line in enumerate(lines, 1)]


def key_of_line(number, line, is_hex):
    try:
        key = bytes_of("#" + line.decode("latin-1").lower() if is_hex else line.decode("latin-1"))
    except WrongLine:
        key = b""
    if not 1 <= len(key) <= KEY_LIMIT:
        raise Lacking(UNREADABLE, ANY, f"{ANY}line {number}{ANY}")
    return key


def keys_asked_for(request, given):
    return request.keys or keys_of_input(request, given)


def value_asked_for(request, given):
    """The value of a `put`: its word, or standard input without one newline at its end, which `--raw` keeps; with `--hex` the
    bytes of its digits."""
    [value] = request.values
    if value is not None:
        return value
    value = given if request.is_raw else given.removesuffix(b"\n")
    if request.is_hex:
        value = bytes_of_digits(value)
    if len(value) > VALUE_LIMIT:
        raise Lacking(UNREADABLE, ANY, f"{ANY}{len(value)}{ANY}{VALUE_LIMIT}{ANY}")
    return value


def bytes_of_digits(digits):
    if not DIGITS.fullmatch(digits):
        raise Lacking(UNREADABLE, ANY, ANY)
    return bytes.fromhex(digits.decode())


# ---- answers


def shown(content, is_hex):
    """A value that is alone on its line."""
    return content.hex().encode() if is_hex else content


def word(content, is_hex):
    """A key or a value beside another word."""
    return (content.hex() if is_hex else printed(content)).encode()


def absent_line(request, key):
    return f"exhash: {request.path}: no key {printed(key)}"


def got(request, given, stored):
    """`get`: each value that is there, and of each key that isn't a line on standard error."""
    found = [(key, stored.value(key)) for key in keys_asked_for(request, given)]
    absent = [absent_line(request, key) for key, value in found if value is None]
    if request.are_several:
        lines = [(word(key, request.is_hex), word(it, request.is_hex)) for key, it in found if it is not None]
        text = b"".join(b"%s %s\n" % line for line in lines)
    else:
        end = b"" if request.is_raw else b"\n"
        text = b"".join(shown(it, request.is_hex) + end for _, it in found if it is not None)
    return text, absent, ABSENT if absent else 0


def line_of(request, reply):
    """The line of a reply."""
    value = b"" if reply.value is None else b" " + shown(reply.value, request.is_hex)
    return reply.word.encode() + value + b"\n"


def put_into(request, given, stored):
    """`put`: of a key that is there, or isn't, as the options want it."""
    [key], value = request.keys, value_asked_for(request, given)
    is_there = bool(request.flags & {"new", "replace"}) and stored.value_before(key) is not None
    if "new" in request.flags and is_there:
        return b"exists\n", [], ABSENT
    if "replace" in request.flags and not is_there:
        return b"none\n", [], ABSENT
    return called(request, Call("put", key, value), stored)


def called(request, call, stored):
    """One call over a file, which is saved where the call is done."""
    [reply] = stored.called([call])
    return line_of(request, reply), [], 0 if reply.word in DONE else ABSENT


def taken_out(request, given, stored):
    """`del`: all keys by one commit."""
    keys = keys_asked_for(request, given)
    replies = stored.called([Call("del", key) for key in keys], request.are_several)
    if not request.are_several:
        return line_of(request, replies[0]), [], 0 if replies[0].word in DONE else ABSENT
    pairs = list(zip(keys, replies))
    absent = [absent_line(request, key) for key, reply in pairs if reply.word == "none"]
    were = [(word(key, request.is_hex), word(it.value, request.is_hex)) for key, it in pairs if it.word != "none"]
    return b"".join(b"%s was %s\n" % line for line in were), absent, ABSENT if absent else 0


def swapped(request, _given, stored):
    [key], (old, new) = request.keys, request.values
    return called(request, Call("swap", key, new, old), stored)


# ---- files


class Mapped:
    """A page file as its one map, whatever its pages are."""

    def __init__(self, file):
        self.file = file

    def value(self, key):
        return self.file.map.get(key)

    value_before = value

    def called(self, calls, _is_whole=False):
        """The replies of calls, one after the other."""
        return [self.file.answer(call) for call in calls]


class Stored:
    """The page file of a path among files, by its bytes."""

    def __init__(self, path, files):
        self.path, self.files = path, files

    def value(self, key):
        """The value of a key, by what a `get` reads; none where it has none."""
        return value_in(content_at(self.path, self.files), key)

    def value_before(self, key):
        """The value that a key has before a change, by what the change reads; none where it has none."""
        content = content_at(self.path, self.files)
        if not is_in_place(content):
            return file_of(content).map.get(key)
        return self.in_place(content).value(key)

    def called(self, calls, is_whole=False):
        """The replies of calls, one after the other; the file is saved once, where one is done. Also one of version 3 may be
        read whole before."""
        content = content_at(self.path, self.files)
        if is_in_place(content):
            if is_whole:
                file_of(content)
            return self.called_in_place(content, calls)
        file = file_of(content)
        replies = [put(file, call) for call in calls]
        if any(reply.word in DONE for reply in replies):
            if not is_savable(self.path, self.files):
                raise Lacking(UNREADABLE, self.path, ANY)
            self.files = saved_over(self.path, bytes_of_file(file.opened()), self.files)
        return replies

    def in_place(self, content):
        """A file of version 3, of which only what a change needs is asked. One that ends amid a block is let be."""
        if len(content) % BLOCK:
            raise Lacking(UNREADABLE, self.path, ANY)
        return PlacedChange(content)

    def called_in_place(self, content, calls):
        """The same of a file of version 3."""
        replies, left = [], content
        for call in calls:
            reply, after = self.in_place(left).call(call)
            if whole := whole_changed(left, call):
                # What the documents say of a legal file, whatever the blocks come to.
                if whole != (reply, after if reply.word in DONE else None):
                    raise ValueError(f"the blocks and the pairs come to different things after {call}")
            replies.append(reply)
            left = after
        if left != content:
            # All of it is one commit.
            own, _ = stamps_of(content)
            self.files = self.files | {self.path: with_stamps(left, (stamp_after(own), own))}
        return replies


def whole_changed(content, call):
    """What a call comes to over a legal file of version 3, read and written whole: the reply, and the bytes where it is
    done. None where the file isn't legal."""
    try:
        file = file_of(content)
    except Fault:
        return None
    reply = put(file, call)
    if reply.word not in DONE:
        return reply, None
    if call.word == "del":
        merge_once(file, call.key)
    return reply, bytes_again(file.opened(), content)


def merge_once(file, key):
    """Merges the page that a key left with its buddy, where both are live and at most half full together."""
    ward, pseudokey = file.ward_of(key), file.pseudokey(key)
    leaf = next(leaf for leaf in ward.leaves if pseudokey.startswith(leaf))
    parent = parent_of(leaf) if len(leaf) > file.ward_bits else None
    if parent is None or not {parent + "0", parent + "1"} <= ward.leaves or file.count_under(parent) > file.cap // 2:
        return
    if ward.table()[parent].version < NUMBER_LIMIT:
        file.merge(ward.number, ward.page_at(low_bound(parent)))


def bytes_again(file, opened):
    """The bytes of a file that is saved where it was opened: of version 3 where it was."""
    if not is_placed(opened):
        return bytes_of_file(file)
    # Each page keeps its place, and those that are new stand behind them, ward by ward.
    old = PlacedReader(opened).placed().wards()
    more = [ward.number for ward in file.wards for _ in range(len(ward.lows) - old.count(ward.number))]
    before, _ = stamps_of(opened)
    return placed_file(file, (stamp_after(before), before), old[len(file.wards) :] + more)


def created(request, _given, stored):
    """An empty file of these settings, where nothing is or an empty file."""
    if stored.files.get(request.path):
        raise Lacking(ABSENT, request.path, ANY)
    line = "file cap={cap} wards={wards} copies=1 keyer={keyer}\n".format(**request.settings)
    stored.files = stored.files | {request.path: placed_file(load_of(line.encode())[1].left(), DRAWN)}
    return b"", [], 0


def copied(request, _given, stored):
    """The bytes of the page file of a path, where nothing is."""
    if request.new in stored.files:
        raise Lacking(ABSENT, request.new, ANY)
    content = content_at(request.path, stored.files)
    if not content.startswith(MAGIC):
        raise Lacking(UNREADABLE, request.path, f"{ANY}no page file{ANY}")
    if len(content) % BLOCK:
        raise Lacking(UNREADABLE, request.path, ANY)
    stored.files = stored.files | {request.new: content}
    return b"", [], 0


COMMANDS = {"get": got, "put": put_into, "del": taken_out, "swap": swapped, "create": created, "backup": copied}
