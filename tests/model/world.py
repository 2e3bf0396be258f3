"""A file with copies of its directory, tables that were sent, and requests in flight: what each step comes to."""

from dataclasses import dataclass, field
from typing import NamedTuple

from .file import Call, File, Moved, Refused, Reply
from .tables import depth_of, leaves_of, table_of, walk


class Flight(NamedTuple):
    """A request in flight: where it stands, and of its moves how many it made and from where."""

    call: Call
    ward: int
    page: int
    # The distance of its page, and the changes of its ward, when it was begun.
    distance: int
    changes: int
    moves: int = 0


class Done(NamedTuple):
    """The outcome of a hop that answers: the reply, the moves made, and their bound."""

    reply: Reply
    moves: int
    bound: int


class Taken(NamedTuple):
    """What a copy took, and how its directory changed by it."""

    # Its depths before and after.
    before: int
    after: int
    # Whether what came was known to be out of date at some prefix.
    is_late: bool


@dataclass
class World:
    """A file, its copies' sets, the sets that were sent, and the requests in flight in the order begun."""

    file: File
    start: frozenset
    copies: list
    sent: list = field(default_factory=list)
    flights: dict = field(default_factory=dict)

    @classmethod
    def over(cls, file, copies):
        """A world whose copies were told of the file's tables."""
        start = frozenset().union(*(ward.told() for ward in file.wards))
        return cls(file, start, [start] * copies)

    def copy(self, number):
        """What the copy of a number was told."""
        if not 1 <= number <= len(self.copies):
            raise Refused(20)
        return self.copies[number - 1]

    def names(self, number, key):
        """The page that a copy names for a key."""
        return walk(self.copy(number), self.file.ward_bits, self.file.pseudokey(key))[1]

    def begin(self, name, copy, call):
        """Begins a request. Gives it as it stands in flight."""
        if name in self.flights:
            raise Refused(25)
        page, ward = self.names(copy, call.key), self.file.ward_of(call.key)
        distance = ward.distance(page, self.file.pseudokey(call.key))
        self.flights[name] = Flight(call, ward.number, page, distance, len(ward.notices))
        return self.flights[name]

    def hop(self, name):
        """A hop of a request. Gives its outcome; where it is done it isn't in flight any more."""
        if name not in self.flights:
            raise Refused(21)
        flight = self.flights[name]
        ward = self.file.wards[flight.ward]
        outcome = self.file.hop(ward, flight.page, flight.call)
        if isinstance(outcome, Moved):
            self.flights[name] = flight._replace(page=outcome.page, moves=flight.moves + 1)
        if not isinstance(outcome, Reply):
            return outcome
        del self.flights[name]
        return Done(outcome, flight.moves, flight.distance + len(ward.notices) - flight.changes)

    def take(self, number, told):
        """A copy takes what it is told."""
        before, bits = self.copies[number - 1], self.file.ward_bits
        after = before | told
        self.copies[number - 1] = after
        known = table_of(before)
        is_late = any(prefix in known and known[prefix] > entry for prefix, entry in table_of(told).items())
        return Taken(depth_of(before, bits), depth_of(after, bits), is_late)

    def deliver(self, number, ward, index):
        """A copy takes a notice that was issued."""
        self.copy(number)
        if ward >= len(self.file.wards):
            raise Refused(24)
        told = frozenset(it.told() for it in self.file.wards[ward].notices if it.index == index)
        if not told:
            raise Refused(22)
        return self.take(number, told)

    def send(self, number):
        """Keeps a copy's table. Gives the table's number."""
        self.sent.append(self.copy(number))
        return len(self.sent)

    def combine(self, number, table):
        """A copy takes a table that was sent."""
        self.copy(number)
        if not 1 <= table <= len(self.sent):
            raise Refused(23)
        return self.take(number, self.sent[table - 1])

    def restart(self, number):
        """A copy is back at the start table."""
        self.copy(number)
        self.copies[number - 1] = self.start

    def shown(self, number):
        """What a copy knows: its depth, its table, and its leaves with their pages."""
        told, bits = self.copy(number), self.file.ward_bits
        return depth_of(told, bits), table_of(told), leaves_of(told, bits)
