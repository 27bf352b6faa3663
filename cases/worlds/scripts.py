"""Draws statements for a database as it stands: on rows, on its catalog, passed on."""

import statements
import values
from drawing import scope_of
from expressions import Binary, Literal, Reference
from reactions import Reaction
from values import Column, Type

INTEGER = Type("INTEGER")
BIGINT = Type("BIGINT")
DATE = Type("DATE")
TABLES = {
    "cust": (
        [
            Column("id", INTEGER, True),
            Column("rep", Type("VARCHAR", 8), False),
            Column("qty", INTEGER, False),
            Column("note", Type("VARCHAR", 20), False),
            Column("born", DATE, False),
            Column("big", BIGINT, False),
        ],
        ["id"],
    ),
    "pair": (
        [Column("a", INTEGER, True), Column("b", BIGINT, True), Column("note", Type("VARCHAR", 4), True), Column("region", INTEGER, False)],
        ["b", "a"],
    ),
    "flag": ([Column("k", DATE, True)], ["k"]),
    "tags": ([Column("t", Type("VARCHAR", 8), True), Column("u", Type("VARCHAR", 8), True)], ["t", "u"]),
    "hist": ([Column("n", INTEGER, True), Column("txt", Type("VARCHAR", 40), False), Column("d", DATE, False)], ["n"]),
}
# columns that may stand behind SUBSCRIBE BY
PARTING = ("rep", "region", "note", "b", "u", "txt", "n", "k")


class Scripts:
    """Draws for one database at a time."""

    def __init__(self, drawing, databases):
        self.drawing = drawing
        self.databases = databases

    def outside_key(self, table):
        """The columns of a table outside its key."""
        return [column for column in table.columns if column.name not in table.key_names()]

    def scope(self, table):
        """The columns of a table as a scope, now and then behind the table's name."""
        return scope_of(table, table.name if self.drawing.chance(0.2) else None)

    # ---- publications and triggers

    def article(self, database, name, is_plain):
        """An article of a table: plain, or with columns, WHERE and SUBSCRIBE BY."""
        drawing = self.drawing
        table = database.catalog.tables[name]
        if is_plain:
            return statements.Article(name)
        columns = where = by = None
        if drawing.chance(0.35):
            others = [column.name for column in self.outside_key(table) if drawing.chance(0.6)]
            columns = drawing.shuffled(table.key_names() + others)
        if drawing.chance(0.3):
            where = drawing.condition(self.scope(table), 1, False)
        if drawing.chance(0.5):
            parting = [column for column in table.names() if column in PARTING]
            if parting and drawing.chance(0.85):
                by = Reference(table.name if drawing.chance(0.2) else None, drawing.choice(parting))
            else:
                by = Literal(drawing.text() if drawing.chance(0.5) else drawing.number())
        return statements.Article(name, columns, where, by)

    def publication(self, database, name, most):
        """A publication of up to so many tables."""
        tables = self.drawing.some(list(database.catalog.tables), range(1, most + 1))
        return statements.CreatePublication(name, [self.article(database, table, False) for table in tables])

    def trigger(self, database):
        """A trigger, or None where there is no table for one."""
        catalog = database.catalog
        tables = [catalog.tables[name] for name in ("cust", "pair", "hist") if name in catalog.tables]
        tables = [table for table in tables if self.outside_key(table)]
        return Reaction(self.drawing, catalog, self.drawing.choice(tables)).statement() if tables else None

    # ---- statements on rows

    def value(self, column):
        """A value for a column, mostly one that may stand in it, with few keys and partitions."""
        drawing = self.drawing
        kind = values.CLASSES[column.type.name]
        if column.name in ("id", "a", "n") and drawing.chance(0.95):
            return Literal(values.number(drawing.below(9)))
        if column.name == "b" and drawing.chance(0.9):
            return Literal(values.number(drawing.below(3)))
        if column.name in ("rep", "u") and drawing.chance(0.85):
            return Literal(drawing.partition())
        if column.required and drawing.chance(0.95):
            plain = {values.NUMBER: values.number(drawing.below(9)), values.TEXT: drawing.partition(), values.DATE: drawing.date()}
            return Literal(plain[kind])
        return Literal(drawing.assigned(kind if drawing.chance(0.97) else drawing.choice([values.NUMBER, values.TEXT])))

    def on_rows(self, database):
        """INSERT, UPDATE or DELETE."""
        drawing = self.drawing
        name = drawing.choice([*database.catalog.tables, "cust", "cust", "cust"])
        if name not in database.catalog.tables:
            name = drawing.choice(list(database.catalog.tables))
        table = database.catalog.tables[name]
        share = drawing.random.random()
        if share < 0.5:
            return self.insert(table)
        where = self.where(table)
        columns = [column for column in table.columns if column.name not in table.key_names() or drawing.chance(0.07)]
        if share < 0.88 and columns:
            sets = []
            for column in drawing.some(columns, [1, 1, 2, 3]):
                reckoned = drawing.expression(values.CLASSES[column.type.name], self.scope(table), 1)
                sets.append((column.name, reckoned if drawing.chance(0.45) else self.value(column)))
            return statements.Update(name, sets, where)
        return statements.Delete(name, where)

    def insert(self, table):
        """INSERT of up to three rows, with or without the names of columns."""
        drawing = self.drawing
        columns = table.columns
        names = None
        if drawing.chance(0.3):
            columns = drawing.shuffled([column for column in columns if column.required or drawing.chance(0.7)])
            names = [column.name for column in columns]
        rows = [[self.value(column) for column in columns] for _ in range(drawing.choice([1, 1, 1, 2, 3]))]
        return statements.Insert(table.name, names, rows)

    def where(self, table):
        """A condition for an UPDATE or a DELETE, or None."""
        drawing = self.drawing
        if drawing.chance(0.08):
            return None
        if "id" in table.names() and drawing.chance(0.7):
            return Binary(drawing.choice(["=", "=", "=", "<", ">="]), Reference(None, "id"), Literal(values.number(drawing.below(9))))
        return drawing.condition(self.scope(table), 1)

    # ---- statements on the catalog, and those that are passed on

    def on_catalog(self, database, is_carried=False):
        """A statement on the catalog, or None; of those on subscriptions only such as passthrough carries where it is to be carried."""
        drawing = self.drawing
        catalog = database.catalog
        if drawing.chance(0.08):
            return statements.SetOption(drawing.chance(0.7))
        share = drawing.random.random()
        if share < 0.6 and catalog.subscriptions:
            found = drawing.choice(catalog.subscriptions)
            verbs = ["START", "STOP", "DROP", "CREATE"] if is_carried else ["START", "START", "STOP", "SYNCHRONIZE", "SYNCHRONIZE", "DROP", "CREATE"]
            return statements.Subscription(drawing.choice(verbs), *found[:3])
        if share < 0.75:
            return self.trigger(database)
        if share < 0.8 and catalog.triggers:
            return statements.DropTrigger(drawing.choice(list(catalog.triggers)))
        if share < 0.9 and catalog.tables:
            return self.publication(database, f"p{drawing.below(4)}", 2)
        if share < 0.95:
            columns = [Column("k", INTEGER, True), Column("v", Type("VARCHAR", 3), False)]
            return statements.CreateTable(f"x{drawing.below(2)}", columns, ["k"])
        if share < 0.97 and catalog.publications:
            return statements.DropPublication(drawing.choice(list(catalog.publications)))
        return statements.DropTable(drawing.choice(["x0", "x1", "cust"]))

    def passed_on(self, database):
        """A script that passes statements on, those with ONLY often such as fit the receiver; None where there is nobody below."""
        drawing = self.drawing
        below = [user for user, is_above in database.catalog.users.items() if not is_above]
        if not below:
            return None
        users = [drawing.choice(below) for _ in range(drawing.choice([1, 1, 2, 3]))]
        only = drawing.chance(0.4)
        script = [self.on_rows(database)] if drawing.chance(0.3) else []
        script.append(statements.Passthrough(only, users))
        for _ in range(1 + drawing.below(3)):
            share = drawing.random.random()
            if share < 0.7:
                statement = self.on_rows(database)
            elif share < 0.95:
                statement = self.on_catalog(self.databases.get(drawing.choice(users), database) if only else database, True)
            else:
                statement = self.on_catalog(database)
            script += [statement] if statement else []
            if drawing.chance(0.1):
                script.append(statements.Passthrough(drawing.chance(0.5), [drawing.choice(below)]))
        if drawing.chance(0.8):
            script.append(statements.PASSTHROUGH_STOP)
        if drawing.chance(0.2):
            script += [self.on_rows(database), statements.COMMIT]
        return script
