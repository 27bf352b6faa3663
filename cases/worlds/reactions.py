"""Draws triggers."""

import statements
import values
from drawing import scope_of
from expressions import Binary, Reference
from values import Type

KINDS_OF_VARIABLES = [Type("INTEGER"), Type("BIGINT"), Type("VARCHAR", 5), Type("DATE")]
# names that a trigger may give its three rows, beside the usual ones
ALIASES = ["old", "new", "remote", "cust", "n", "type", "file", "address", "o"]
USUAL = ["o", "n", "r"]


class Reaction:
    """One trigger of a table: the names of its three rows, its variables, and what its expressions may name."""

    def __init__(self, drawing, catalog, table):
        self.drawing = drawing
        self.catalog = catalog
        self.table = table
        self.outside_key = [column for column in table.columns if column.name not in table.key_names()]
        self.aliases = drawing.some(ALIASES, [3]) if drawing.chance(0.2) else USUAL
        self.variables = [(f"v{number}", drawing.choice(KINDS_OF_VARIABLES)) for number in range(drawing.below(3))]
        self.scope = [found for alias in self.aliases for found in scope_of(table, alias)]
        self.scope += [(Reference(None, name), values.CLASSES[kind.name]) for name, kind in self.variables]

    def statement(self):
        """CREATE TRIGGER. Seldom it names not all of its rows, and is refused where it uses the one that is left out."""
        drawing = self.drawing
        names = [column.name for column in self.outside_key]
        of = drawing.some(names, range(1, len(names) + 1)) if drawing.chance(0.6) else []
        rows = drawing.shuffled(list(zip(["OLD", "NEW", "REMOTE"], self.aliases)))
        if drawing.chance(0.05):
            del rows[0]
        actions = [self.action(2) for _ in range(1 + drawing.below(3))]
        return statements.CreateTrigger(f"g{drawing.below(5)}", of, self.table.name, rows, self.variables, actions)

    def action(self, depth):
        """An action."""
        drawing = self.drawing
        share = drawing.random.random()
        if share < 0.5:
            return self.assign()
        if share < 0.65 and self.variables:
            name, kind = drawing.choice(self.variables)
            return statements.Assign(None, name, drawing.expression(values.CLASSES[kind.name], self.scope, 1))
        if share < 0.85 or not depth:
            into = [name for name in ("hist", "hist", "cust", "flag") if name in self.catalog.tables]
            return self.add(self.catalog.tables[drawing.choice(into or [self.table.name])])
        then = [self.action(depth - 1) for _ in range(drawing.below(3))]
        otherwise = [self.action(depth - 1) for _ in range(drawing.below(2))] if drawing.chance(0.5) else None
        return statements.If(drawing.condition(self.scope, 1), then, otherwise)

    def assign(self):
        """SET of a column of NEW: often both changes together, seldom a value of another class."""
        drawing = self.drawing
        column = drawing.choice(self.outside_key)
        kind = values.CLASSES[column.type.name]
        old, new, remote = (Reference(alias, column.name) for alias in self.aliases)
        if kind == values.NUMBER and drawing.chance(0.4):
            return statements.Assign(new.alias, column.name, Binary("-", Binary("+", old, new), remote))
        if drawing.chance(0.05):
            kind = drawing.choice([values.NUMBER, values.TEXT, values.DATE])
        return statements.Assign(new.alias, column.name, drawing.expression(kind, self.scope, 2))

    def add(self, table):
        """INSERT of a row."""
        drawing = self.drawing
        columns = [column for column in table.columns if column.required or drawing.chance(0.7)]
        columns = drawing.shuffled(columns) if drawing.chance(0.5) else columns
        is_named = len(columns) < len(table.columns) or drawing.chance(0.5)
        columns = columns if is_named else table.columns
        names = [column.name for column in columns] if is_named else None
        return statements.Add(table.name, names, [drawing.expression(values.CLASSES[column.type.name], self.scope, 2) for column in columns])
