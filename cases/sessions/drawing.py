"""Draws names, literals, expressions and conditions, and statements on rows. Most of them go with the columns of a table that is there; some do not, so that
there is something to refuse."""

import random

from values import CLASSES

TABLES = ("t", "u", "v", "old", "w")
COLUMNS = ("id", "n", "b", "s", "d", "new", "k")
PUBLICATIONS = ("p", "q", "address")
USERS = ("r1", "r2", "hq", "file", "cons")
TRIGGERS = ("g", "h", "remote")
ALIASES = ("a", "b", "t", "u", "o", "x")
TYPES = ("INTEGER", "INT", "BIGINT", "DATE")
LENGTHS = (1, 2, 3, 8, 32767)
# how often each class is drawn
MANY_CLASSES = ("number", "number", "number", "text", "date")
SMALL = ("0", "1", "2", "3", "4", "5", "-1", "10")
# the ends of the types, and what comes near one when it is multiplied
ENDS = ("2147483647", "-2147483648", "2147483648", "-2147483649", "65536", "46341", "4294967296", "9223372036854775807", "-9223372036854775808", "3037000500")
TEXTS = ("'A'", "'B'", "''", "'abc'", "'é'", "''''", "'B''c'")
DATES = ("2024-02-29", "0001-01-01", "9999-12-31", "1970-01-01", "1969-12-31")
NO_DATES = ("2023-02-29", "2024-2-29", "0000-01-01")


class Drawing:
    """Draws with a seed. Where a catalog is known, names are mostly ones that it has; some values are ones of the rows of its tables."""

    def __init__(self, seed, catalog=None):
        self.random = random.Random(seed)
        self.catalog = catalog
        self.rows = {}
        self.careless = False

    # ---- the dice

    def one(self, choices):
        """One of these."""
        return self.random.choice(list(choices))

    def chance(self, part):
        """Whether something happens that happens so often."""
        return self.random.random() < part

    def slips(self, part):
        """Whether something is drawn that is mostly refused, which happens so often, and more in a careless statement: that may have several faults."""
        return self.chance(8 * part if self.careless else part)

    def some(self, choices, least, most):
        """Some of these, in any order."""
        return self.random.sample(list(choices), self.random.randint(least, min(most, len(choices))))

    # ---- names

    def cased(self, name):
        """A name, in which capital letters stand now and then."""
        if self.chance(0.05):
            return name.upper()
        return name.capitalize() if self.chance(0.03) else name

    def known(self, kind, others):
        """A name of a kind that is there, or now and then any other."""
        there = getattr(self.catalog, kind) if self.catalog else {}
        return self.one(there) if there and self.chance(0.9) else self.one(others)

    def table(self):
        """The name of a table, mostly of one that has rows."""
        filled = [name for name, rows in self.rows.items() if rows]
        return self.cased(self.one(filled) if filled and self.chance(0.6) else self.known("tables", TABLES))

    def columns(self, table):
        """The columns of a table as it is known: pairs of a name and a class. Those of a table that is not there have no class."""
        if self.catalog and table.lower() in self.catalog.tables:
            return [(column.name, CLASSES[column.type.kind]) for column in self.catalog.tables[table.lower()].columns]
        return [(name, None) for name in COLUMNS]

    def names(self, table):
        """The names of the columns."""
        return [name for name, _ in self.columns(table)]

    def class_of(self, table, column):
        """The class of a column; None where it is not known."""
        return dict(self.columns(table)).get(column.lower())

    def may_be_null(self, table, name):
        """Whether a column is known to be one that may be NULL."""
        found = self.catalog.tables.get(table.lower()) if self.catalog else None
        return found is not None and name in [column.name for column in found.columns if not column.never_null]

    def dotted(self, aliases, name):
        """A name, now and then behind an alias."""
        return f"{self.one(aliases)}.{name}" if aliases and self.chance(0.3) else name

    def reference(self, table, aliases):
        """A column, now and then one that the table does not have."""
        name = self.one(COLUMNS) if self.slips(0.04) else self.one(self.names(table))
        return self.dotted(aliases, self.cased(name))

    def type(self):
        """The type of a column or variable."""
        return f"VARCHAR({self.one(LENGTHS)})" if self.chance(0.25) else self.one(TYPES)

    # ---- values

    def literal(self):
        """A literal of any class, or NULL. Some texts are dates, and some are nearly."""
        kind = self.random.randrange(12)
        if kind < 5:
            return self.one(SMALL)
        if kind == 5:
            return self.one(ENDS)
        if kind < 9:
            return self.one(TEXTS + tuple(f"'{date}'" for date in DATES + NO_DATES))
        if kind < 11:
            return f"DATE '{self.one(DATES)}'"
        return "NULL"

    def plain(self, table, aliases, wanted):
        """A column or a literal of a class. Without a list of aliases it is a literal."""
        names = [name for name, found in self.columns(table) if found == wanted]
        if aliases is not None and names and self.chance(0.6):
            return self.dotted(aliases, self.cased(self.one(names)))
        if self.chance(0.1):
            return self.one(("NULL", self.literal()))
        if wanted == "number":
            return self.one(SMALL) if self.chance(0.7) else self.one(ENDS)
        return self.one(TEXTS) if wanted == "text" else f"DATE '{self.one(DATES)}'"

    def number(self, table, aliases, depth):
        """A number with operators in it."""
        kind = self.random.randrange(7)
        if depth == 0 or kind < 2:
            return self.plain(table, aliases, "number")
        if kind == 2:
            inner = self.number(table, aliases, depth - 1)
            return f"-{self.one(('', ' '))}({inner})" if self.chance(0.7) else f"- {inner}"
        left, right = (self.enclosed(self.number(table, aliases, depth - 1)) for _ in range(2))
        return f"{left} {self.one('+-*')} {right}"

    def enclosed(self, part):
        """An operand, in a third of the cases in parentheses."""
        return f"({part})" if self.chance(0.35) else part

    def value(self, table, aliases, wanted=None):
        """An expression of a class, or of any."""
        wanted = wanted or self.one(MANY_CLASSES)
        if wanted == "number":
            return self.number(table, aliases, self.one((0, 0, 1, 2)))
        return self.plain(table, aliases, wanted)

    def condition(self, table, aliases, depth=2):
        """A condition, in which two classes are compared now and then."""
        kind = self.random.randrange(10)
        if depth > 0 and kind < 3:
            left, right = (self.enclosed(self.condition(table, aliases, depth - 1)) for _ in range(2))
            return f"{left} {self.one(('AND', 'OR', 'and'))} {right}"
        if depth > 0 and kind == 3:
            inner = self.condition(table, aliases, depth - 1)
            return f"NOT ({inner})" if self.chance(0.6) else f"NOT {inner}"
        if kind == 4:
            return f"{self.value(table, aliases)} IS {self.one(('', 'NOT '))}NULL"
        if kind == 5 and self.chance(0.3):
            return self.one(("NULL", self.value(table, aliases), "(NULL)"))
        wanted = self.one(MANY_CLASSES)
        left = self.value(table, aliases, wanted)
        right = self.value(table, aliases, None if self.slips(0.05) else wanted)
        return f"{left} {self.one(('=', '<>', '<', '<=', '>', '>='))} {right}"

    # ---- statements on rows

    def insert(self, scope=None, aliases=None):
        """INSERT, of one row where it is an action of a trigger of a table, whose columns its values may have."""
        table = self.table()
        names = self.some(self.names(table), 1, len(self.names(table))) if self.chance(0.4) else None
        if names and self.slips(0.07):
            names.append(self.one(names + list(COLUMNS)))
        listed = f" ({', '.join(self.cased(name) for name in names)})" if names else ""
        count = 1 if scope else self.one((1, 1, 2, 3, 4, 6))
        rows = [self.row(table, names or self.names(table), scope or table, aliases) for _ in range(count)]
        return f"INSERT INTO {table}{listed} VALUES {', '.join(rows)}"

    def row(self, table, names, scope, aliases):
        """A row of values for columns, now and then one too many or too few."""
        values = [self.value_for(table, name, scope, aliases) for name in names]
        if self.slips(0.03):
            values.append("1")
        if self.slips(0.03) and len(values) > 1:
            values.pop()
        return f"({', '.join(values)})"

    def value_for(self, table, name, scope, aliases):
        """A value for a column of a table, mostly of its class."""
        wanted = self.class_of(table, name)
        if self.chance(0.2) and self.may_be_null(table, name):
            return "NULL"
        if self.slips(0.03):
            return self.condition(scope, aliases, 0) if self.chance(0.3) else self.literal()
        if wanted == "date" and self.chance(0.5):
            return f"'2024-0{self.random.randint(1, 9)}-10'"
        if wanted == "number" and self.chance(0.7):
            return str(self.random.randint(-3, 12))
        return self.value(scope, aliases, wanted)

    def update(self):
        """UPDATE."""
        table = self.table()
        assignments = [self.assignment(table, name) for name in self.some(self.names(table), 1, 3)]
        if self.slips(0.02):
            assignments.append(assignments[0])
        where = f" WHERE {self.condition(table, [table])}" if self.chance(0.8) else ""
        return f"UPDATE {table} SET {', '.join(assignments)}{where}"

    def assignment(self, table, name):
        """A column and a value, now and then of another class, or a truth."""
        name = self.one(COLUMNS) if self.slips(0.02) else name
        value = self.value(table, [table], self.class_of(table, name))
        if self.slips(0.04):
            value = self.one((self.literal(), self.condition(table, [table], 0)))
        return f"{self.cased(name)} = {value}"

    def delete(self):
        """DELETE."""
        table = self.table()
        return f"DELETE FROM {table}" + (f" WHERE {self.condition(table, [table])}" if self.chance(0.95) else "")

    # ---- SELECT

    def select(self):
        """SELECT, mostly of one table."""
        table = self.table()
        count = self.one((1, 1, 1, 2, 2, 3))
        aliases, sources = [], []
        for place in range(count):
            source = self.table() if self.chance(0.4) else table
            alias = "a0" if self.slips(0.03) else f"{self.one(ALIASES)}{place}"
            if count == 1 and self.chance(0.6):
                alias = ""
            aliases.append(alias or source)
            sources.append(source + (f" AS {alias}" if alias else ""))
            if place:
                sources[-1] += f" ON {self.condition(source, [*aliases, 'z'] if self.slips(0.05) else aliases, 1)}"
        joined = sources[0] + "".join(f" {self.one(('JOIN', 'INNER JOIN'))} {source}" for source in sources[1:])
        where = f" WHERE {self.condition(table, aliases)}" if self.chance(0.5) else ""
        return f"SELECT {self.items(table, aliases)} FROM {joined}{where}{self.order(table, aliases)}"

    def items(self, table, aliases):
        """The items of a SELECT: aggregates, all columns or values. Now and then one is of another kind than the others."""
        if len(aliases) == 1 and self.chance(0.3):
            items = [self.aggregate(table, aliases) for _ in range(self.random.randint(1, 4))]
            return ", ".join(items + [self.value(table, aliases)] if self.slips(0.05) else items)
        if self.chance(0.3):
            return "*"
        items = [self.value(table, aliases) for _ in range(self.random.randint(1, 3))]
        return ", ".join(items + ["COUNT(*)"] if self.slips(0.03) else items)

    def aggregate(self, table, aliases):
        """An aggregate."""
        aggregate = self.one(("COUNT", "SUM", "MIN", "MAX"))
        if aggregate == "COUNT":
            return "COUNT(*)"
        return f"{aggregate}({self.value(table, aliases, 'number' if aggregate == 'SUM' else None)})"

    def order(self, table, aliases):
        """ORDER BY, or nothing."""
        if self.chance(0.4):
            return ""
        return " ORDER BY " + ", ".join(self.reference(table, aliases) + self.one(("", " ASC", " DESC")) for _ in range(self.one((1, 1, 2, 3))))
