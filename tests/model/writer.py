"""Scripts by chance, in which rare things happen often.

Who writes a script sees what it has come to so far, and so splits the pages where requests wait, merges those that fit
into one, and tells copies late. Whatever it writes is answered by `script`, which knows nothing of chance.
"""

from .bits import low_bound, parent_of
from .dice import line_out_of_range, line_outside, other_than, spelled, value_by
from .file import Call
from .script import Script
from .version import INDEX_LIMIT, LIMIT, NUMBER_LIMIT

# Names and clients that are seldom taken.
RARE_NAMES = (NUMBER_LIMIT, NUMBER_LIMIT - 1, 10**9)
# Of a ward that is told at once: by how many digits its leaves are longer than its prefix, and the most notices.
DEEP = 8
MANY = 80


def deepest_of(ward):
    """The first of a ward's longest leaves."""
    return max(sorted(ward.leaves), key=len)


class Writer:
    """Writes a script, line by line, and keeps with each line what it must print."""

    def __init__(self, dice, taste, opened=None):
        self.dice = dice
        self.taste = taste
        self.script = Script(opened)
        # Pairs of a line and the lines that it prints.
        self.told = []

    @property
    def world(self):
        return self.script.world

    @property
    def file(self):
        return self.world.file

    def say(self, line):
        """Writes a line. Gives the lines that it prints."""
        content = line.encode("latin-1")
        lines = self.script.line(content)
        self.told.append((content, lines))
        return lines

    def chance(self, of_hundred):
        return self.dice.randrange(100) < of_hundred

    def some_copy(self):
        return self.dice.randint(1, len(self.world.copies))

    def some_ward(self):
        return self.dice.choice(self.file.wards)

    def some_worn_ward(self):
        """A ward with a forwarding page, where there is one."""
        worn = [ward for ward in self.file.wards if len(ward.lows) > len(ward.leaves)]
        return self.dice.choice(worn or self.file.wards)

    def some_page(self, ward):
        """A page of a ward, a forwarding one rather than a live one."""
        forwards = [page for page in range(len(ward.lows)) if ward.leaf_of(page) is None]
        return self.dice.choice(forwards) if forwards and self.chance(60) else self.dice.randrange(len(ward.lows))

    def some_notices(self, count):
        """Notices of one ward: the last ones in any order, any in any order, or the last ones backwards."""
        notices = self.some_worn_ward().notices
        last = notices[-count:]
        match self.dice.randrange(4):
            case 0:
                return last[::-1]
            case 1:
                return self.dice.sample(notices, min(count, len(notices)))
        return self.dice.sample(last, len(last))

    def write(self, length):
        """Writes so many lines and some more."""
        plans = {
            self.ask: 30,
            self.drill: 3,
            self.shrink: 9,
            self.gossip: 10,
            self.go_on: 8,
            self.tell_at_once: 4,
            self.exchange: 6,
            self.restart: 2,
            self.look: 5,
            self.leave_the_way: 5,
            self.change_by_chance: 7,
            self.step_that_is_refused: 7,
            self.wrong_line: 6,
        }
        while len(self.told) < length:
            [plan] = self.dice.choices(list(plans), list(plans.values()))
            plan()
        self.finish()

    # Requests.

    def some_call(self):
        key = self.dice.choice(self.taste.keys)
        word = self.dice.choice(("get", "put", "put", "put", "del", "swap", "swap", "swap"))
        if word == "swap":
            return self.some_swap(key)
        return Call(word, key, value_by(self.dice) if word == "put" else b"")

    def some_swap(self, key):
        """A swap, of which half name the value that stands, if the key has one."""
        stands = self.file.map.get(key, b"")
        old = stands if self.chance(50) else other_than(self.dice, stands)
        return Call("swap", key, old if self.chance(5) else value_by(self.dice), old)

    def begin(self, call, copy=None):
        """Begins a request, mostly under a name that is free. Gives the name."""
        free = [name for name in range(1, 9) if name not in self.world.flights]
        name = self.dice.choice(free) if free and not self.chance(3) else self.dice.choice((1, *RARE_NAMES))
        client = self.dice.choice((1, 2, NUMBER_LIMIT))
        words = [call.word, spelled(self.dice, call.key)]
        values = {"put": [call.value], "swap": [call.old, call.value]}.get(call.word, [])
        words += [spelled(self.dice, value) for value in values]
        self.say(f"begin r{name} c{client} {copy or self.some_copy()} {' '.join(words)}")
        return name

    def follow(self, name, patience=4 * LIMIT):
        """Hops until the request is answered, with a split where it waits for one."""
        for _ in range(patience):
            flight = self.world.flights.get(name)
            if flight is None:
                return
            [line] = self.say(f"hop r{name}")
            if line.endswith(" split") and not self.split(flight.ward, flight.page):
                return

    def split(self, ward, page):
        """Splits a page, and seldom tells of it. Gives whether it was split."""
        [line] = self.say(f"split {ward} {page}")
        if line.startswith("notice") and self.chance(15):
            self.say(f"deliver {self.some_copy()} {ward} {self.file.wards[ward].notices[-1].index}")
        return line.startswith("notice")

    def ask(self):
        """A request, which is mostly followed to its end."""
        name = self.begin(self.some_call())
        if self.chance(80):
            self.follow(name, self.dice.choice((1, 2, 4 * LIMIT)))

    def go_on(self):
        """Goes on with a request in flight, or with all."""
        flights = list(self.world.flights)
        for name in self.dice.sample(flights, min(len(flights), self.dice.choice((1, 2, 8)))):
            self.follow(name, self.dice.choice((1, 3, 4 * LIMIT)))

    def leave_the_way(self):
        """Splits, merges and answers while other requests are on their way."""
        names = [self.begin(self.some_call(), 1) for _ in range(3)]
        self.dice.choice((self.shrink, self.ask, self.some_split))()
        for name in names:
            self.follow(name, self.dice.choice((2, 4 * LIMIT)))

    def some_split(self):
        """A split of a full page, where there is one."""
        full = [
            (ward, leaf)
            for ward in self.file.wards
            for leaf in sorted(ward.leaves)
            if self.file.count_under(leaf) >= self.taste.cap
        ]
        if full:
            ward, leaf = self.dice.choice(full)
            self.split(ward.number, ward.page_at(low_bound(leaf)))

    def drill(self):
        """Puts keys that share as many digits as a prefix may have, until their page is split no more."""
        if self.taste.cap > 5:
            return
        digits = self.file.pseudokey(self.dice.choice(self.taste.keys))[:LIMIT]
        shared = [key for key in self.taste.keys if self.file.pseudokey(key).startswith(digits)]
        for key in self.dice.sample(shared, len(shared)):
            self.follow(self.begin(Call("put", key, value_by(self.dice))))
        ward = self.file.ward_of(shared[0])
        if digits in ward.leaves:
            self.say(f"split {ward.number} {ward.page_at(low_bound(digits))}")

    def shrink(self):
        """Merges a page with its buddy, mostly after their records were taken out, and often on and on."""
        ward = self.some_ward()
        leaf = self.dice.choice(sorted(ward.leaves))
        leaf = deepest_of(ward) if self.chance(50) else leaf
        for _ in range(self.dice.choice((1, 2, LIMIT))):
            if leaf == ward.prefix or not self.merge_into(ward, parent_of(leaf)):
                return
            leaf = parent_of(leaf)

    def merge_into(self, ward, parent):
        """Takes records out until two pages fit into one, and merges them. Gives whether they were merged."""
        page = ward.page_at(low_bound(parent))
        keys = self.file.keys_under(parent)
        if parent + "0" in ward.leaves and parent + "1" in ward.leaves and self.chance(90):
            for key in keys[: max(0, len(keys) - self.taste.cap)]:
                self.follow(self.begin(Call("del", key)))
        [line] = self.say(f"merge {ward.number} {page}")
        if line.startswith("notice") and self.chance(40):
            self.say(f"deliver {self.some_copy()} {ward.number} {ward.notices[-1].index}")
        return line.startswith("notice")

    # Copies.

    def gossip(self):
        """Tells a copy of changes, in any order, and asks it where keys are."""
        copy = self.some_copy()
        for notice in self.some_notices(self.dice.choice((1, 1, 2, 3, 6, 30))):
            self.say(f"deliver {copy} {notice.ward} {notice.index}")
            if self.chance(20):
                self.show(copy)
        self.probe(copy)

    def tell_at_once(self):
        """Tells a copy of a deep ward, the first split last, and then maybe of its last merge alone."""
        ward = max(self.file.wards, key=lambda ward: len(deepest_of(ward)))
        if len(deepest_of(ward)) < len(ward.prefix) + DEEP or not 0 < len(ward.notices) <= MANY:
            self.drill()
            return
        copy = self.some_copy()
        self.say(f"restart {copy}")
        for notice in ward.notices[::-1]:
            self.say(f"deliver {copy} {notice.ward} {notice.index}")
        self.probe(copy)
        if self.chance(80):
            while ward.leaves != {ward.prefix} and self.merge_into(ward, parent_of(deepest_of(ward))):
                pass
            self.say(f"deliver {copy} {ward.number} {ward.notices[-1].index}")
            self.probe(copy)

    def exchange(self):
        """Sends a table, or joins one that was sent, rather an old one."""
        if not self.world.sent or self.chance(35):
            self.say(f"send {self.some_copy()}")
            return
        copy = self.some_copy()
        sent = len(self.world.sent)
        self.say(f"combine {copy} {self.dice.choice((1, sent, self.dice.randint(1, sent)))}")
        self.probe(copy)

    def restart(self):
        copy = self.some_copy()
        self.say(f"restart {copy}")
        self.probe(copy)

    def probe(self, copy):
        """Asks what a copy knows, and at which pages requests begin there."""
        if self.chance(50):
            self.show(copy)
        for _ in range(self.dice.randrange(3)):
            key = self.dice.choice(self.taste.keys)
            call = Call("get", key) if self.chance(50) else self.some_swap(key)
            self.follow(self.begin(call, copy))

    def show(self, copy):
        self.say(f"show {copy}")

    # Views, and lines that are refused.

    def look(self):
        ward = self.some_ward()
        match self.dice.randrange(5):
            case 0:
                self.say("inflight")
            case 1:
                self.show(self.some_copy())
            case _:
                self.say(f"page {ward.number} {self.dice.randrange(len(ward.lows))}")

    def change_by_chance(self):
        """A split or a merge of any page, or of one that isn't there."""
        ward = self.some_worn_ward()
        no_ward = self.dice.choice((len(self.file.wards), NUMBER_LIMIT))
        no_page = self.dice.choice((len(ward.lows), NUMBER_LIMIT))
        page = self.some_page(ward)
        place = self.dice.choice((f"{no_ward} {page}", f"{ward.number} {no_page}", *[f"{ward.number} {page}"] * 2))
        self.say(f"{self.dice.choice(('split', 'merge'))} {place}")

    def step_that_is_refused(self):
        """A step or a view of something that isn't there."""
        ward, copy = self.some_ward(), self.some_copy()
        no_copy = self.dice.choice((0, len(self.world.copies) + 1, NUMBER_LIMIT))
        no_ward = self.dice.choice((len(self.file.wards), NUMBER_LIMIT))
        no_page = self.dice.choice((len(ward.lows), NUMBER_LIMIT))
        indexes = {notice.index for notice in ward.notices}
        no_index = self.dice.choice(sorted({0, 1, max(indexes, default=0) + 1, INDEX_LIMIT} - indexes))
        no_table = self.dice.choice((0, len(self.world.sent) + 1, NUMBER_LIMIT))
        taken = self.dice.choice([*self.world.flights, 1])
        lines = (
            f"page {self.dice.choice((f'{no_ward} 0', f'{ward.number} {no_page}'))}",
            f"begin r{taken} c1 {self.dice.choice((copy, no_copy))} get a",
            f"begin r77 c1 {no_copy} get a",
            f"hop r{self.dice.choice((78, NUMBER_LIMIT))}",
            f"deliver {no_copy} {no_ward} {no_index}",
            f"deliver {copy} {no_ward} {no_index}",
            f"deliver {copy} {ward.number} {no_index}",
            f"send {no_copy}",
            f"restart {no_copy}",
            f"show {no_copy}",
            f"combine {no_copy} {no_table}",
            f"combine {copy} {no_table}",
        )
        self.say(self.dice.choice(lines))

    def wrong_line(self):
        """A line outside the grammar, or one with something out of range."""
        self.say(line_outside(self.dice, self.taste) if self.chance(75) else line_out_of_range(self.dice))

    def finish(self):
        """Asks what has become of all."""
        for copy in range(1, len(self.world.copies) + 1):
            self.show(copy)
        ward = self.some_ward()
        for page in range(len(ward.lows)):
            self.say(f"page {ward.number} {page}")
        self.say("inflight")
