"""The operations that databases send each other, what becomes of one, and their bytes ("Ops" and "Entries" of docs/FORMATS.md)."""

from typing import NamedTuple

import encoding

# why an operation is skipped; its number is its place
CLASHES = ["", "Duplicate", "NoRow", "NoTable", "NoColumn", "BadValue", "Null", "Trigger", "Statement"]


class Insert(NamedTuple):
    """A new row: columns with their values, without those that are NULL."""

    table: str
    columns: list

    def spelled(self):
        """Its bytes."""
        return b"\1" + encoding.name(self.table) + encoding.list_of(self.columns, encoding.named_value)


class Remove(NamedTuple):
    """The row of a key goes."""

    table: str
    key: list

    def spelled(self):
        """Its bytes."""
        return b"\2" + encoding.name(self.table) + encoding.list_of(self.key, encoding.named_value)


class Set(NamedTuple):
    """Columns of the row of a key change, each from an old value to a new one."""

    table: str
    key: list
    columns: list

    def spelled(self):
        """Its bytes."""
        key = encoding.list_of(self.key, encoding.named_value)
        return b"\3" + encoding.name(self.table) + key + encoding.list_of(self.columns, encoding.named_value)


class Clear(NamedTuple):
    """Every row of a table goes."""

    table: str

    def spelled(self):
        """Its bytes."""
        return b"\4" + encoding.name(self.table)


class Exec(NamedTuple):
    """A statement runs."""

    text: str

    def spelled(self):
        """Its bytes."""
        return b"\5" + encoding.text(self.text.encode())


class Plain(NamedTuple):
    """An operation was done, with these changes."""

    changes: list

    def spelled(self):
        """Its bytes."""
        return b"\0" + encoding.list_of(self.changes, encoding.change)


class Conflict(NamedTuple):
    """An update met another value: the rows that triggers inserted, the row of its key before and behind."""

    table: str
    inserted: list
    before: list
    behind: list

    def spelled(self):
        """Its bytes."""
        return b"\1" + encoding.list_of(self.inserted, encoding.change) + encoding.row(self.before) + encoding.row(self.behind)

    def changes(self):
        """What it changes: the inserted rows, and the row of the key where it is another one."""
        own = [(self.table, self.before, self.behind)] if self.before != self.behind else []
        return self.inserted + own


class Clash(NamedTuple):
    """An operation was skipped."""

    reason: str

    def spelled(self):
        """Its bytes."""
        return b"\2" + encoding.number(CLASHES.index(self.reason), 1)


def read_operation(reader):
    """An operation."""
    tag = reader.number(1)
    if tag == 1:
        operation = Insert(reader.name(), reader.columns(1))
        if any(value is None for _, value in operation.columns):
            raise encoding.Broken
        return operation
    if tag == 2:
        return Remove(reader.name(), reader.columns(1))
    if tag == 3:
        return Set(reader.name(), reader.columns(1), reader.columns(2))
    if tag == 4:
        return Clear(reader.name())
    if tag == 5:
        return Exec(reader.text().decode())
    raise encoding.Broken
