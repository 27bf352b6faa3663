"""How a snapshot is read from bytes, and where it breaks ("Snapshot and root" of docs/FORMATS.md)."""

import statements
from books import COLUMNS, Book
from encoding import Broken, Reader
from faults import Refused
from reading import LAST_OFFSET, Damaged, Misfit, Unsure, is_row_of, statement_of
from states import MAGIC, State
from values import key_order


class SnapshotReader(Reader):
    """Reads a snapshot from front to back. Where it breaks, `field` is the first byte of the field that does."""

    def __init__(self, data):
        super().__init__(data)
        self.field = 0

    def take(self, length):
        """The next bytes."""
        self.field = self.place
        return super().take(length)

    def name(self):
        """A name; it breaks at its length."""
        place = self.place
        try:
            return super().name()
        except Broken:
            self.break_at(place)

    def text(self):
        """A text; it breaks at its length."""
        place = self.place
        try:
            return super().text()
        except Broken:
            self.break_at(place)

    def break_at(self, place):
        """Breaks at a place."""
        self.field = place
        raise Broken

    def demand(self, is_right, place):
        """Breaks at a place where something is not right."""
        if not is_right:
            self.break_at(place)


def read_script(reader, state):
    """The statements of the catalog, each accepted behind those before it; all together are the catalog's own script."""
    start = reader.place
    places, texts = [], []
    for _ in range(reader.number(4)):
        place = reader.place
        text = reader.text().decode()
        try:
            statement = statement_of(state.known, text)
            reader.demand(statements.is_on_catalog(statement), place)
            state.set_catalog(state.catalog.changed(statement))
        except (Misfit, Refused):
            reader.break_at(place)
        except Unsure as unsure:
            raise Unsure(place) from unsure
        places.append(place)
        texts.append(text)
    script = state.texts()
    for place, text, wanted in zip(places, texts, script):
        reader.demand(text == wanted, place)
    reader.demand(len(texts) <= len(script), places[len(script)] if len(texts) > len(script) else start)
    reader.demand(len(texts) == len(script), start)


def read_tables(reader, state):
    """The rows of each table, by ascending key."""
    place = reader.place
    reader.demand(reader.number(4) == len(state.catalog.tables), place)
    for table in state.catalog.tables.values():
        place = reader.place
        reader.demand(reader.name() == table.name, place)
        last = None
        for _ in range(reader.number(4)):
            place = reader.place
            row = reader.list_of(reader.value)
            reader.demand(is_row_of(table, row), place)
            key = key_order(table.key_of(row))
            reader.demand(last is None or last < key, place)
            last = key
            state.rows.apply(state.catalog, [(table.name, None, row)])


def read_books(reader, state):
    """The book of each user."""
    place = reader.place
    reader.demand(reader.number(4) == len(state.catalog.users), place)
    for user in state.catalog.users:
        place = reader.place
        reader.demand(reader.name() == user, place)
        state.books[user] = Book()
        for column in COLUMNS:
            setattr(state.books[user], column, reader.number(8))


def read_all(reader, known):
    """The offset and the state of a snapshot."""
    reader.demand(reader.take(len(MAGIC)) == MAGIC, 0)
    place = reader.place
    offset = reader.number(8)
    reader.demand(offset <= LAST_OFFSET, place)
    state = State(reader.name(), known)
    read_script(reader, state)
    read_tables(reader, state)
    read_books(reader, state)
    reader.demand(reader.is_at_end(), reader.place)
    return offset, state


def read_snapshot(file, data, known):
    """The offset and the state that the bytes of a file spell; Damaged where they spell none, and Unsure, with the file and the place, at a text of which it cannot be
    told whether it is a statement."""
    reader = SnapshotReader(data)
    try:
        return read_all(reader, known)
    except Broken as broken:
        raise Damaged(file, reader.field) from broken
    except Unsure as unsure:
        raise Unsure(file, *unsure.args) from unsure
