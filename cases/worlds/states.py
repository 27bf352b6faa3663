"""What entries come to: the catalog, the rows and the books; and the bytes of a snapshot of it ("Snapshot and root" of docs/FORMATS.md)."""

import copy

import encoding
import logs
import statements
from books import COLUMNS, Book
from catalog import Catalog
from operations import Conflict, Plain
from rows import Rows

MAGIC = b"SRSNP001"


class State:
    """A catalog, rows, and a book of each partner. `known` has the statement of each text that any database has printed."""

    def __init__(self, publisher, known):
        self.publisher = publisher
        self.known = known
        self.catalog = Catalog(publisher)
        self.rows = Rows()
        self.books = {}

    def kept(self):
        """The same state, which stays as it is."""
        other = State(self.publisher, self.known)
        other.catalog = self.catalog
        other.rows = self.rows.copy()
        other.books = {user: copy.copy(book) for user, book in self.books.items()}
        return other

    def take_in(self, entry):
        """Goes on with an entry."""
        self.apply(entry)
        if isinstance(entry, logs.NOTED):
            self.books[entry.partner].note(entry)

    def apply(self, entry):
        """What an entry changes in the catalog and the rows."""
        if isinstance(entry, logs.Own):
            self.rows.apply(self.catalog, entry.changes)
        elif isinstance(entry, logs.OnCatalog):
            self.set_catalog(self.catalog.changed(self.known[entry.text]))
        elif isinstance(entry, logs.Passed) and not entry.only:
            statement = self.known[entry.text]
            if statements.is_on_catalog(statement):
                self.set_catalog(self.catalog.changed(statement))
            else:
                self.rows.apply(self.catalog, entry.changes)
        elif isinstance(entry, logs.Taken):
            for _, outcome, catalog in entry.judged:
                if isinstance(outcome, Plain):
                    self.rows.apply(self.catalog, outcome.changes)
                elif isinstance(outcome, Conflict):
                    self.rows.apply(self.catalog, outcome.changes())
                if catalog is not None:
                    self.set_catalog(catalog)

    def set_catalog(self, catalog):
        """Goes on with another catalog: rows of dropped tables go, and who is granted gets a book."""
        self.rows.keep_tables(catalog)
        self.catalog = catalog
        for user in catalog.users:
            self.books.setdefault(user, Book())

    # ---- what it says

    def shown(self, base, end):
        """The lines of `show` where the log goes from one offset to another."""
        lines = [f"publisher {self.publisher}", f"base {base}", f"end {end}", f"rows {self.rows.count()}"]
        for user, is_above in self.catalog.users.items():
            place = "consolidated" if is_above else "remote"
            lines.append(f"user {user} {place} address {user} " + " ".join(self.books[user].columns()))
        return lines

    def rows_of(self, name):
        """The rows of a table, by ascending key."""
        return [row for _, row in self.rows.items(name)]

    # ---- its snapshot

    def texts(self):
        """The statements that make the catalog, as they print."""
        return list(map(statements.print_statement, self.catalog.script()))

    def head(self, offset):
        """The first bytes of its snapshot at an offset: up to the last of the statements."""
        texts = encoding.list_of(self.texts(), lambda text: encoding.text(text.encode()))
        return MAGIC + encoding.offset(offset) + encoding.name(self.publisher) + texts

    def spelled(self, offset):
        """The bytes of its snapshot at an offset."""
        tables = encoding.list_of(self.catalog.tables, lambda name: encoding.name(name) + encoding.list_of(self.rows_of(name), encoding.row))
        return self.head(offset) + tables + encoding.list_of(self.catalog.users, self.spelled_book)

    def spelled_book(self, user):
        """The bytes of a partner's book."""
        return encoding.name(user) + b"".join(encoding.offset(getattr(self.books[user], column)) for column in COLUMNS)
