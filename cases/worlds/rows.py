"""The rows of a database, and what statements on rows change (docs/SQL.md).

A change is the name of a table, the row before or None, and the row behind or None.
"""

import statements
import values
from expressions import Overflow, evaluate, holds, references
from faults import Refused

# what stands in the place of a value that could not be reckoned
PAST_END = object()


class Rows:
    """The rows of each table, by their keys."""

    def __init__(self):
        self.tables = {}

    def copy(self):
        """The same rows, which may be changed."""
        other = Rows()
        other.tables = {name: dict(held) for name, held in self.tables.items()}
        return other

    def get(self, table, key):
        """The row of a key, or None."""
        return self.tables.get(table.name, {}).get(key)

    def items(self, name):
        """The keys of a table with their rows, ascending."""
        return sorted(self.tables.get(name, {}).items(), key=lambda item: values.key_order(item[0]))

    def count(self):
        """How many rows there are."""
        return sum(len(held) for held in self.tables.values())

    def apply(self, catalog, changes):
        """Does changes one after the other."""
        for name, before, behind in changes:
            table = catalog.tables[name]
            held = self.tables.setdefault(name, {})
            if before is not None:
                del held[table.key_of(before)]
            if behind is not None:
                held[table.key_of(behind)] = behind

    def keep_tables(self, catalog):
        """Of a table that was dropped the rows go with it."""
        self.tables = {name: held for name, held in self.tables.items() if name in catalog.tables}


def fitted_row(table, raw):
    """A row as it stands in its table; the fault is that of the first column that has one."""
    row = []
    for column, value in zip(table.columns, raw):
        if value is PAST_END:
            raise Refused("Overflow")
        fitted = values.fit(value, column.type)
        if fitted is values.UNFIT:
            raise Refused("BadValue " + column.name)
        if fitted is None and column.required:
            raise Refused("Null " + column.name)
        row.append(fitted)
    return row


def reckon(expression, value_of_reference):
    """The value of an expression, or PAST_END."""
    try:
        return evaluate(expression, value_of_reference)
    except Overflow:
        return PAST_END


def refuse_duplicates(keys):
    """Tells the least of keys that are held twice."""
    if keys:
        least = min(keys, key=values.key_order)
        raise Refused("Duplicate (" + ", ".join(values.printed(value) for value in least) + ")")


def execute(catalog, rows, statement):
    """The changes of a statement on rows, by ascending key, and how many rows it speaks of."""
    table = catalog.tables.get(statement.table)
    if table is None:
        raise Refused("NoTable " + statement.table)
    check_columns(table, statement)
    if isinstance(statement, statements.Insert):
        return insert(table, rows, statement)
    return change(table, rows, statement)


def check_columns(table, statement):
    """Refuses the leftmost column that the table has not. The values of an INSERT are literals here."""
    if isinstance(statement, statements.Insert):
        named = statement.columns or []
    else:
        named = []
        if isinstance(statement, statements.Update):
            for name, expression in statement.sets:
                named += [name, *(reference.name for reference in references(expression))]
        if statement.where:
            named += [reference.name for reference in references(statement.where)]
    for name in named:
        if name not in table.names():
            raise Refused("NoColumn " + name)


def insert(table, rows, statement):
    """INSERT: each row is whole and fits, then no key is held."""
    columns = statement.columns or table.names()
    fresh = []
    for listed in statement.rows:
        if len(listed) != len(columns):
            raise Refused("BadValue " + table.name)
        given = {name: reckon(expression, None) for name, expression in zip(columns, listed)}
        fresh.append(fitted_row(table, [given.get(name) for name in table.names()]))
    twice = []
    keys = set()
    for row in fresh:
        key = table.key_of(row)
        if key in keys or rows.get(table, key) is not None:
            twice.append(key)
        keys.add(key)
    refuse_duplicates(twice)
    fresh.sort(key=lambda row: values.key_order(table.key_of(row)))
    return [(table.name, None, row) for row in fresh], len(fresh)


def selected(table, rows, where):
    """The keys and rows of which a condition is true; with each how its columns are looked up."""
    for key, row in rows.items(table.name):
        held = dict(zip(table.names(), row))

        def value_of_reference(reference, held=held):
            return held[reference.name]

        try:
            if where is None or holds(where, value_of_reference):
                yield key, row, value_of_reference
        except Overflow as overflow:
            raise Refused("Overflow") from overflow


def change(table, rows, statement):
    """UPDATE or DELETE. An UPDATE moves all its rows at once, so that one may take the key which another leaves."""
    old = dict(rows.items(table.name))
    behind = {}
    for key, row, value_of_reference in selected(table, rows, statement.where):
        behind[key] = None
        if isinstance(statement, statements.Update):
            sets = dict(statement.sets)
            raw = [reckon(sets[name], value_of_reference) if name in sets else value for name, value in zip(table.names(), row)]
            behind[key] = fitted_row(table, raw)
    held = {key: row for key, row in old.items() if key not in behind}
    twice = []
    for row in behind.values():
        if row is not None:
            key = table.key_of(row)
            if key in held:
                twice.append(key)
            held[key] = row
    refuse_duplicates(twice)
    changes = [(table.name, old.get(key), held.get(key)) for key in sorted(set(old) | set(held), key=values.key_order)]
    return [(name, before, after) for name, before, after in changes if before != after], len(behind)
