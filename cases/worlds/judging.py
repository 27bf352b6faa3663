"""What becomes of an operation that a partner has sent ("Judging" of docs/REPLICATION.md)."""

import statements
import triggers
import values
from faults import Refused
from operations import Clash, Clear, Conflict, Exec, Insert, Plain, Remove, Set
from rows import execute


class Clashed(Exception):
    """An operation is skipped; its text is the reason."""


def fitted(table, columns):
    """Values fitted to their columns, each behind its name."""
    types = table.types()
    found = {}
    for name, value in columns:
        found[name] = values.fit(value, types[name])
        if found[name] is values.UNFIT:
            raise Clashed("BadValue")
    return found


class Judge:
    """Judges the operations of a transaction one after the other, each on what the one before has left. Nothing of it is kept in the database."""

    def __init__(self, database, partner):
        self.catalog = database.catalog
        self.rows = database.rows.copy()
        self.known = database.known
        self.is_above = database.catalog.users[partner]

    def take(self, operation):
        """The outcome of an operation, and the catalog behind it where it is another one, else None."""
        catalog = None
        try:
            outcome, catalog = self.outcome(operation)
        except Clashed as clashed:
            outcome = Clash(str(clashed))
        if isinstance(outcome, Plain):
            self.rows.apply(self.catalog, outcome.changes)
        elif isinstance(outcome, Conflict):
            self.rows.apply(self.catalog, outcome.changes())
        if catalog is not None:
            self.catalog = catalog
            self.rows.keep_tables(catalog)
        return outcome, catalog

    def outcome(self, operation):
        """What becomes of an operation, and the catalog behind it where it is another one."""
        if isinstance(operation, Exec):
            return self.run(operation)
        table = self.catalog.tables.get(operation.table)
        if table is None:
            raise Clashed("NoTable")
        if isinstance(operation, Clear):
            return self.clear(operation), None
        if isinstance(operation, Insert):
            return self.insert(table, operation), None
        return self.change(table, operation), None

    def run(self, operation):
        """Exec: from above alone, and only what passthrough carries."""
        statement = self.known.get(operation.text)
        if not self.is_above or statement is None or not statements.is_carried(statement):
            raise Clashed("Statement")
        try:
            if statements.is_on_catalog(statement):
                return Plain([]), self.catalog.changed(statement)
            return Plain(execute(self.catalog, self.rows, statement)[0]), None
        except Refused as refused:
            raise Clashed("Statement") from refused

    def clear(self, operation):
        """Clear: from above alone."""
        if not self.is_above:
            raise Clashed("Statement")
        return Plain([(operation.table, row, None) for _, row in self.rows.items(operation.table)])

    def insert(self, table, operation):
        """Insert: NULL stands in columns that are not named."""
        if any(name not in table.names() for name, _ in operation.columns):
            raise Clashed("NoColumn")
        found = fitted(table, operation.columns)
        if any(name not in found for name in table.required()):
            raise Clashed("Null")
        row = [found.get(name) for name in table.names()]
        if self.rows.get(table, table.key_of(row)) is not None:
            raise Clashed("Duplicate")
        return Plain([(table.name, None, row)])

    def change(self, table, operation):
        """Remove or Set, of a row whose key is held."""
        if sorted(name for name, _ in operation.key) != sorted(table.key_names()):
            raise Clashed("NoColumn")
        columns = operation.columns if isinstance(operation, Set) else []
        if any(name not in table.names() or name in table.key_names() for name, _, _ in columns):
            raise Clashed("NoColumn")
        key = fitted(table, operation.key)
        fresh = fitted(table, [(name, new) for name, old, new in columns if self.is_above or old != new])
        if None in key.values() or any(value is None and name in table.required() for name, value in fresh.items()):
            raise Clashed("Null")
        stored = self.rows.get(table, tuple(key[name] for name in table.key_names()))
        if stored is None:
            raise Clashed("NoRow")
        if isinstance(operation, Remove):
            return Plain([(table.name, stored, None)])
        return self.set(table, stored, columns, fresh)

    def set(self, table, stored, columns, fresh):
        """Set: from below it is a conflict where a stored value is not the old one. Values are equal as in keys."""
        types = table.types()
        old = dict(zip(table.names(), stored))
        new = {**old, **fresh}
        taken_for = {}
        differing = set()
        for name, expected, _ in columns:
            value = values.fit(expected, types[name])
            taken_for[name] = None if value is values.UNFIT else value
            if value is values.UNFIT or value != old[name]:
                differing.add(name)
        if self.is_above or not differing:
            row = list(new.values())
            return Plain([(table.name, stored, row)] if row != stored else [])
        inserted = triggers.fire(self.catalog, self.rows, table, {"OLD": old, "NEW": new, "REMOTE": taken_for}, differing)
        if inserted is None:
            raise Clashed("Trigger")
        return Conflict(table.name, inserted, stored, list(new.values()))
