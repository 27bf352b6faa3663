"""The log of a database: its entries and their bytes ("Log file" and "Entries" of docs/FORMATS.md)."""

import bisect
from typing import NamedTuple

import encoding

MAGIC = b"SRLOG001"
OPEN = b"\1"
CLOSED = b"\0"
# how many bytes stand before the first gate, and how many a record has beside its body: a gate and a length
HEADER = 16
FRAME = 5


class Own(NamedTuple):
    """A transaction of the database's own."""

    changes: list

    def spelled(self):
        """Its bytes."""
        return b"\1" + encoding.list_of(self.changes, encoding.change)


class Taken(NamedTuple):
    """A transaction that was taken. `judged` has each operation, its outcome, and the catalog behind it where a statement changed it, else None."""

    partner: str
    offset: int
    judged: list

    def spelled(self):
        """Its bytes."""
        judged = encoding.list_of(self.judged, lambda item: item[0].spelled() + item[1].spelled())
        return b"\2" + encoding.name(self.partner) + encoding.offset(self.offset) + judged


class OnCatalog(NamedTuple):
    """A statement that changed the catalog."""

    text: str

    def spelled(self):
        """Its bytes."""
        return b"\3" + encoding.text(self.text.encode())


class Synchronized(NamedTuple):
    """What a partner sees of some tables: of each its name and rows."""

    partner: str
    tables: list

    def spelled(self):
        """Its bytes."""
        tables = encoding.list_of(self.tables, lambda item: encoding.name(item[0]) + encoding.list_of(item[1], encoding.row))
        return b"\4" + encoding.name(self.partner) + tables


class Passed(NamedTuple):
    """A statement that is passed on to users, and to these alone where `only` says so."""

    users: list
    only: bool
    text: str
    changes: list

    def spelled(self):
        """Its bytes."""
        head = encoding.list_of(self.users, encoding.name) + encoding.number(int(self.only), 1) + encoding.text(self.text.encode())
        return b"\5" + head + encoding.list_of(self.changes, encoding.change)


class Confirmed(NamedTuple):
    """A partner has confirmed an offset."""

    partner: str
    offset: int

    def spelled(self):
        """Its bytes."""
        return b"\6" + encoding.name(self.partner) + b"\1" + encoding.offset(self.offset)


class Asked(NamedTuple):
    """A partner has asked for what is behind an offset."""

    partner: str
    count: int
    offset: int

    def spelled(self):
        """Its bytes."""
        return b"\6" + encoding.name(self.partner) + b"\2" + encoding.offset(self.count) + encoding.offset(self.offset)


class Raised(NamedTuple):
    """Something of a partner is missing."""

    partner: str

    def spelled(self):
        """Its bytes."""
        return b"\6" + encoding.name(self.partner) + b"\3"


class Sent(NamedTuple):
    """The log was sent to a partner up to its offset, in so many messages, which confirm an offset of his."""

    partner: str
    offset: int
    messages: int
    confirm: int

    def spelled(self):
        """Its bytes."""
        sent = encoding.offset(self.offset) + encoding.number(self.messages, 4) + encoding.offset(self.confirm)
        return b"\6" + encoding.name(self.partner) + b"\4" + sent


# the entries that speak of a partner's book
NOTED = (Taken, Confirmed, Asked, Raised, Sent)


class Log:
    """The bytes of a log from its base up to its closed gate, its entries, and the offset of each; `end` is that of the last."""

    def __init__(self, base):
        self.data = MAGIC + encoding.offset(base) + CLOSED
        self.base = self.end = base
        self.entries = []
        self.offsets = []

    def commit(self, entry):
        """Adds an entry; answers its offset."""
        body = entry.spelled()
        self.data = self.data[:-1] + OPEN + encoding.number(len(body), 4) + body + CLOSED
        self.end += len(body) + FRAME
        self.entries.append(entry)
        self.offsets.append(self.end)
        return self.end

    def up_to(self, offset):
        """The entries up to an offset."""
        return self.entries[: bisect.bisect_right(self.offsets, offset)]

    def behind(self, offset):
        """The log that begins at an offset, and has the entries behind it as they stand."""
        count = len(self.up_to(offset))
        other = Log(offset)
        other.data = other.data[:-1] + self.data[HEADER + offset - self.base :]
        other.entries, other.offsets, other.end = self.entries[count:], self.offsets[count:], self.end
        return other
