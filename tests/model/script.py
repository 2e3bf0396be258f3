"""What each line of a script prints, over a new file or an opened one."""

import collections

from .bits import prefix_text
from .file import File, Moved, MustSplit, Refused
from .grammar import FORMS, WrongLine, entry_text, line_of, page_text, printed, settings_of, words_of
from .tables import Kind
from .version import LIMIT, SCRIPT_LIMIT
from .world import World


class Script:
    """A script as far as it was read. `met` counts what came up in it."""

    def __init__(self, opened=None):
        self.opened = opened
        self.world = None
        self.tells_moves = False
        self.is_refused = False
        self.met = collections.Counter()

    def line(self, line):
        """The lines that a line prints."""
        if self.is_refused or not line:
            return []
        try:
            if self.world is None:
                self.begin_file(line)
                return []
            return self.step(line)
        except (WrongLine, Refused) as error:
            self.is_refused = self.world is None
            self.met[f"refused {error.number} of {known_word(line)}"] += 1
            return [f"refused {error.number}"]

    def begin_file(self, line):
        """Takes the first line."""
        settings = settings_of(line)
        file = self.opened
        if file is None:
            file = File.empty(settings.cap, settings.ward_bits, settings.keyer)
        elif settings[:2] + settings[3:4] != (file.cap, file.ward_bits, file.keyer):
            raise Refused(63)
        self.world = World.over(file, settings.copies)
        self.tells_moves = settings.tells_moves
        self.met["line file"] += 1
        self.met["line file with moves=yes"] += settings.tells_moves
        self.met[f"keyer {settings.keyer}"] += 1
        self.met[f"wards {2**settings.ward_bits}"] += 1

    def step(self, line):
        """Takes a later line."""
        read = line_of(line)
        lines = getattr(self, read.word)(*read.numbers, *filter(None, [read.call]))
        self.met[f"line {read.word}" + (f" {read.call.word}" if read.call else "")] += 1
        return lines

    def begin(self, name, _client, copy, call):
        flight = self.world.begin(name, copy, call)
        return [f"r{name} at {flight.ward}/{flight.page}"]

    def hop(self, name):
        flight = self.world.flights.get(name)
        outcome = self.world.hop(name)
        if isinstance(outcome, MustSplit):
            self.met["hop split"] += 1
            return [f"r{name} split"]
        if isinstance(outcome, Moved):
            self.met["hop moved"] += 1
            return [f"r{name} moved {flight.ward}/{outcome.page}"]
        reply, moves, bound = outcome
        self.note_answer(flight, reply, moves)
        words = [f"r{name} {reply.word}"]
        words += [] if reply.value is None else [printed(reply.value)]
        words += [f"moves {moves} of {bound}"] if self.tells_moves else []
        return [" ".join(words)]

    def note_answer(self, flight, reply, moves):
        """Notes what a call was answered, and of a swap whether at a full page, and after moves."""
        answered = f"{flight.call.word} answered {reply.word}"
        self.met[answered] += 1
        if flight.call.word == "swap":
            file = self.world.file
            leaf = file.wards[flight.ward].leaf_of(flight.page)
            self.met[f"{answered} at a full page"] += file.count_under(leaf) >= file.cap
            self.met[f"{answered} through a late copy"] += moves > 0

    def split(self, ward, page):
        notice, is_revived = self.world.file.split(ward, page)
        self.met["revived page"] += is_revived
        return [self.notice_text(notice)]

    def merge(self, ward, page):
        return [self.notice_text(self.world.file.merge(ward, page))]

    def notice_text(self, notice):
        self.met["longest prefix"] += notice.entry.kind is Kind.SPLIT and len(notice.prefix) == LIMIT - 1
        place = f"{notice.ward}/{notice.index}"
        return f"notice {place} prefix {prefix_text(notice.prefix)} {notice.entry.text()}"

    def deliver(self, copy, ward, index):
        taken = self.world.deliver(copy, ward, index)
        self.note_depths(taken)
        self.met["late notice"] += taken.is_late
        return [f"copy {copy} took {ward}/{index}"]

    def note_depths(self, taken):
        self.met["doubled array"] += taken.after > taken.before
        self.met["halved array"] += taken.after < taken.before
        self.met["array doubled eight times at once"] += taken.after >= taken.before + 8
        self.met["array halved eight times at once"] += taken.after <= taken.before - 8

    def send(self, copy):
        return [f"table {self.world.send(copy)}"]

    def combine(self, copy, table):
        taken = self.world.combine(copy, table)
        self.note_depths(taken)
        self.met["late table"] += taken.is_late
        return [f"copy {copy} joined {table}"]

    def restart(self, copy):
        self.world.restart(copy)
        return [f"copy {copy} restarted"]

    def show(self, copy):
        depth, table, leaves = self.world.shown(copy)
        bits = self.world.file.ward_bits
        lines = [f"copy {copy} depth {depth}"]
        lines += [entry_text(prefix, entry) for prefix, entry in table.items()]
        return lines + [f"leaf {prefix_text(it)} {int(it[:bits] or '0', 2)}/{page}" for it, page in leaves]

    def page(self, ward_number, number):
        wards = self.world.file.wards
        if ward_number >= len(wards):
            raise Refused(24)
        ward = wards[ward_number]
        if not ward.has_page(number):
            raise Refused(1)
        self.met["page live" if ward.leaf_of(number) is not None else "page forward"] += 1
        return [page_text(self.world.file, ward, number)]

    def inflight(self):
        flights = self.world.flights
        self.met["several requests in flight"] += len(flights) > 1
        return [f"inflight {len(flights)}", *(f"r{name} at {it.ward}/{it.page}" for name, it in flights.items())]

    def end(self):
        """What the script prints at its end."""
        if self.world is not None or self.is_refused:
            return []
        self.is_refused = True
        return ["refused 60"]

    def left(self):
        """The file that the run leaves, as it is when it is opened; none of a refused run."""
        return None if self.is_refused else self.world.file.opened()


def known_word(line):
    """The first word of a line, where it is one of the grammar's."""
    word = words_of(line)[0]
    return word if word in ("file", "begin", *FORMS) else "another word"


def text_of(content, opened=None):
    """The lines that a script's bytes print, and the script as it ended."""
    script = Script(opened)
    if len(content) > SCRIPT_LIMIT:
        script.is_refused = True
        return ["refused 62"], script
    lines = [told for line in content.split(b"\n") for told in script.line(line)]
    return lines + script.end(), script
