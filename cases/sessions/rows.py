"""Rows of tables, and the changes and refusals of INSERT, UPDATE and DELETE (docs/SQL.md, "INSERT, UPDATE and DELETE")."""

from typing import NamedTuple

import tree
from expressions import Refused, WrongClass, given, need_truth, need_value, references
from values import NoFit, Overflow, fitted, order_of_row, printed_key


class Change(NamedTuple):
    """A change at a key: a table, the row before and the row after, either of which may be None."""

    table: str
    before: object
    after: object


class Rows:
    """The rows of each table by their keys, in a catalog. Rows are not changed, so a copy has the same ones."""

    def __init__(self, catalog):
        self.catalog = catalog
        self.tables = {}

    def copy(self, catalog):
        """The same rows in another catalog of the same tables."""
        other = Rows(catalog)
        other.tables = {name: dict(rows) for name, rows in self.tables.items()}
        return other

    def follow(self):
        """Takes up tables that are new in the catalog, and lets those go that are gone."""
        self.tables = {name: self.tables.get(name, {}) for name in self.catalog.tables}

    def key_of(self, table, row):
        """The key of a row."""
        names = self.catalog.scope(table).names
        return tuple(row[names.index(name)] for name in self.catalog.tables[table].key)

    def ascending(self, table):
        """The keys of a table with their rows, ascending."""
        return sorted(self.tables[table].items(), key=lambda pair: order_of_row(pair[0]))

    def apply(self, changes):
        """Does changes, one after the other."""
        for change in changes:
            if change.before is not None:
                del self.tables[change.table][self.key_of(change.table, change.before)]
            if change.after is not None:
                self.tables[change.table][self.key_of(change.table, change.after)] = change.after

    def undo(self, changes):
        """Takes changes back, the last first."""
        self.apply([Change(change.table, change.after, change.before) for change in reversed(changes)])

    # ---- what a statement comes to

    def outcome(self, statement):
        """The changes of a statement and its count; nothing is changed yet."""
        if statement.table not in self.tables:
            raise Refused("NoTable", statement.table)
        scope = self.catalog.scope(statement.table)
        if isinstance(statement, tree.Insert):
            check_insert(statement, scope)
            rows = [self.inserted(statement, scope, row) for row in statement.rows]
            return self.changes(statement.table, [], rows), len(rows)
        check_change(statement, scope)
        selected = []
        rows = []
        for key, row in self.ascending(statement.table):
            if statement.where is not None and given_or_refused(statement.where, scope.over(row)) is not True:
                continue
            selected.append(key)
            if isinstance(statement, tree.Update):
                rows.append(updated(dict(statement.assignments), scope, row))
        return self.changes(statement.table, selected, rows), len(selected)

    def inserted(self, statement, scope, expressions):
        """The row that a row of expressions makes. A column that is not named is NULL."""
        named = dict(zip(statement.columns or scope.names, expressions))
        return tuple(held(column, named.get(column.name, tree.Literal(None)), None) for column in scope.columns)

    def changes(self, table, old_keys, new_rows):
        """The changes that take the rows of keys away and put others: at each key that then has another row than before, ascending."""
        after = {key: row for key, row in self.tables[table].items() if key not in old_keys}
        twice = []
        for row in new_rows:
            key = self.key_of(table, row)
            if key in after:
                twice.append(key)
            after[key] = row
        if twice:
            raise Refused("Duplicate", printed_key(min(twice, key=order_of_row)))
        before = self.tables[table]
        touched = sorted(set(before) | set(after), key=order_of_row)
        return [Change(table, before.get(key), after.get(key)) for key in touched if before.get(key) != after.get(key)]


# ---- the refusals before a row is looked at, from left to right


def need_columns(names, scope):
    """These names are columns."""
    for name in names:
        if name not in scope.names:
            raise Refused("NoColumn", name)


def need_references(expression, scope):
    """The names in an expression are columns."""
    for name in scope.missing(expression):
        raise Refused("NoColumn", name)


def need_once(names):
    """No column stands again."""
    for place, name in enumerate(names):
        if name in names[:place]:
            raise Refused("BadValue", name)


def need_class(expression, scope, name):
    """An expression gives a value for a column."""
    try:
        need_value(expression, scope.class_of)
    except WrongClass:
        raise Refused("BadValue", name) from None


def check_insert(statement, scope):
    """INSERT: its columns are there, its expressions constant; no column stands again, and each row has a value for each."""
    names = statement.columns or scope.names
    need_columns(names, scope)
    for row in statement.rows:
        for expression in row:
            for reference in references(expression):
                raise Refused("NoColumn", reference.name)
    need_once(names)
    for row in statement.rows:
        for name, expression in zip(names, row):
            need_class(expression, scope, name)
        if len(row) != len(names):
            raise Refused("BadValue", statement.table)


def check_change(statement, scope):
    """UPDATE and DELETE: their columns are there; no column is assigned again; each value and the condition has its class."""
    assignments = statement.assignments if isinstance(statement, tree.Update) else []
    for name, expression in assignments:
        need_columns([name], scope)
        need_references(expression, scope)
    if statement.where is not None:
        need_references(statement.where, scope)
    names = [name for name, _ in assignments]
    for place, (name, expression) in enumerate(assignments):
        need_once(names[: place + 1])
        need_class(expression, scope, name)
    try:
        if statement.where is not None:
            need_truth(statement.where, scope.class_of)
    except WrongClass:
        raise Refused("BadValue", statement.table) from None


# ---- the values of a row


def given_or_refused(expression, value_of_reference):
    """What an expression gives; where it is nothing the statement is refused."""
    try:
        return given(expression, value_of_reference)
    except Overflow:
        raise Refused("Overflow") from None


def held(column, expression, value_of_reference):
    """The value of an expression as a column holds it."""
    try:
        value = fitted(given_or_refused(expression, value_of_reference), column.type)
    except NoFit:
        raise Refused("BadValue", column.name) from None
    if value is None and column.never_null:
        raise Refused("Null", column.name)
    return value


def updated(assignments, scope, row):
    """The row that assignments make of one. All expressions are of the old row."""
    values = []
    for column, value in zip(scope.columns, row):
        values.append(held(column, assignments[column.name], scope.over(row)) if column.name in assignments else value)
    return tuple(values)
