"""The bytes of a page file, what `check`, `dump` and `pairs` print of it, and what `load` prints and makes."""

import hashlib
import struct

from .bits import low_bound
from .file import Call, File, MustSplit, Refused
from .grammar import WrongLine, bytes_of, entry_text, is_call_in_range, page_text, printed, settings_of, words_of
from .tables import Kind
from .version import CURRENT, SCRIPT_LIMIT

# The bytes of a block, and those before its digest.
BLOCK = 4096
CONTENT = 4064
MAGIC = b"EXHASHPF"
KEYERS = {"sha": 1, "plain": 2}
LIVE, FORWARD = 1, 2
SPLIT, MERGE = 1, 2
NO_LINK = 2**32 - 1
ENTRIES_OF_BLOCK = 254


def sealed(content):
    """The block of a content: zeros behind it, and their digest."""
    content = content.ljust(CONTENT, b"\0")
    return content + hashlib.sha256(content).digest()


def field_of(prefix, width):
    """The digits of a prefix, then zeros, in so many bytes."""
    return int(low_bound(prefix)[: 8 * width], 2).to_bytes(width, "big")


def entries_of(file):
    """The entries of all wards' tables, each with its ward, in the order of prefixes."""
    entries = [(ward.number, *it) for ward in file.wards for it in ward.table().items()]
    return sorted(entries, key=lambda it: it[1])


def header_block(file, version):
    counts = [len(ward.lows) for ward in file.wards]
    settings = struct.pack(">HBBB3x", version.number, file.cap, file.ward_bits, KEYERS[file.keyer])
    return sealed(MAGIC + settings + struct.pack(">I16I", len(entries_of(file)), *counts, *[0] * (16 - len(counts))))


def page_block(file, ward, number, version):
    leaf = ward.leaf_of(number)
    if leaf is None:
        head = struct.pack(">B3xI", FORWARD, ward.target_of(number)) + field_of(ward.lows[number], version.width)
        return sealed(head)
    keys, right = file.keys_under(leaf), ward.right_of(leaf)
    head = struct.pack(">BBBxI", LIVE, len(leaf), len(keys), NO_LINK if right is None else right)
    records = b"".join(bytes([len(key), len(file.map[key])]) + key + file.map[key] for key in keys)
    return sealed((head + field_of(leaf, version.width)).ljust(16, b"\0") + records)


def entry_image(ward, prefix, entry, version):
    kind = SPLIT if entry.kind is Kind.SPLIT else MERGE
    head = struct.pack(">BBBx", ward, kind, len(prefix)) + field_of(prefix, version.width)
    return head.ljust(8, b"\0") + struct.pack(">II", entry.version, entry.right)


def has_room(file, version):
    """Whether a page file of the version may have these wards."""
    are_short = all(len(leaf) <= version.limit for ward in file.wards for leaf in ward.leaves)
    are_coarse = not any("1" in low[version.limit :] for ward in file.wards for low in ward.lows)
    most = 2 ** (version.limit - file.ward_bits)
    are_few = all(len(ward.lows) <= most for ward in file.wards) and len(entries_of(file)) < 2**version.limit
    return are_short and are_coarse and are_few


def bytes_of_file(file, version=CURRENT):
    """The bytes of the page file of wards."""
    pages = [page_block(file, ward, it, version) for ward in file.wards for it in range(len(ward.lows))]
    images = [entry_image(*entry, version) for entry in entries_of(file)]
    tables = [sealed(b"".join(images[at : at + ENTRIES_OF_BLOCK])) for at in range(0, len(images), ENTRIES_OF_BLOCK)]
    return b"".join([header_block(file, version), *pages, *tables])


def check_text(file):
    """What `check` prints of a file."""
    pages = sum(len(ward.lows) for ward in file.wards)
    live = sum(len(ward.leaves) for ward in file.wards)
    counts = f"pages {pages} live {live} forward {pages - live} records {len(file.map)} entries {len(entries_of(file))}"
    return [f"legal wards {len(file.wards)} {counts}"]


def dump_text(file):
    """What `dump` prints of a file."""
    lines = [f"file cap={file.cap} wards={file.ward_bits} keyer={file.keyer}"]
    for ward in file.wards:
        lines.append(f"ward {ward.number} pages {len(ward.lows)}")
        for number in range(len(ward.lows)):
            lines += [page_text(file, ward, number), *(f"pair {it}" for it in pairs_of(file, ward, number))]
    return lines + [entry_text(prefix, entry) for _, prefix, entry in entries_of(file)]


def pairs_of(file, ward, number):
    """The pairs of a page's records; none of a forwarding page."""
    leaf = ward.leaf_of(number)
    keys = [] if leaf is None else file.keys_under(leaf)
    return [f"{printed(key)} {printed(file.map[key])}" for key in keys]


def pairs_text(file, **given):
    """What `pairs` prints of a file, with the settings that are given in place of its own."""
    settings = {"cap": file.cap, "wards": file.ward_bits, "copies": 1, "keyer": file.keyer} | given
    lines = [" ".join(["file", *(f"{name}={value}" for name, value in settings.items())])]
    pages = [(ward, number) for ward in file.wards for number in range(len(ward.lows))]
    return lines + [pair for ward, number in pages for pair in pairs_of(file, ward, number)]


class Load:
    """A text of pairs as far as it was read, into a file that is opened, or a new one."""

    def __init__(self, opened=None):
        self.opened, self.before = opened, len(opened.map) if opened else 0
        self.file = None
        self.is_refused = False

    def line(self, line):
        """The lines that a line prints."""
        if self.is_refused or not line:
            return []
        try:
            if self.file is None:
                self.file = self.begun(settings_of(line))
                return []
            return self.pair(line)
        except (WrongLine, Refused) as error:
            self.is_refused = self.file is None
            return [f"refused {error.number}"]

    def begun(self, settings):
        """The file to which pairs come."""
        if self.opened is None:
            return File.empty(settings.cap, settings.ward_bits, settings.keyer)
        if settings[:2] + settings[3:4] != (self.opened.cap, self.opened.ward_bits, self.opened.keyer):
            raise Refused(63)
        return self.opened

    def pair(self, line):
        """Takes a line of a pair."""
        words = words_of(line)
        if len(words) != 2:
            raise WrongLine(60)
        call = Call("put", bytes_of(words[0]), bytes_of(words[1]))
        if not is_call_in_range(call):
            raise WrongLine(61)
        reply = put(self.file, call)
        return [f"full {printed(call.key)}"] if reply.word == "full" else []

    def end(self):
        """What is printed at the end."""
        if self.file is not None:
            return [f"loaded {len(self.file.map) - self.before}"]
        lines = [] if self.is_refused else ["refused 60"]
        self.is_refused = True
        return lines

    def left(self):
        """The file that is saved, as it is when it is opened; none of a refused load."""
        return None if self.is_refused else self.file.opened()


def put(file, call):
    """Puts a pair, splitting the page of its key as long as it must be split."""
    ward = file.ward_of(call.key)
    while True:
        leaf = next(it for it in ward.leaves if file.pseudokey(call.key).startswith(it))
        number = ward.page_at(low_bound(leaf))
        outcome = file.hop(ward, number, call)
        if not isinstance(outcome, MustSplit):
            return outcome
        file.split(ward.number, number)


def load_of(content, opened=None):
    """The lines that `load` prints of a text, or `load --into` over a file that is opened, and the load as it ended."""
    load = Load(opened)
    if opened is None and len(content) > SCRIPT_LIMIT:
        load.is_refused = True
        return ["refused 62"], load
    lines = [told for line in content.split(b"\n") for told in load.line(line)]
    return lines + load.end(), load
