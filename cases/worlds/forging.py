"""Worlds in which messages are forged: operations of every kind that fit no view, windows that overlap, bodies that are none."""

import encoding
import messages
import operations
import statements
import values
from drawing import DAYS
from kinds import Conflicting, Differing
from statements import CreateTable, Grant
from values import Type

NOBODY = "e"
WITHOUT_DATABASE = "d"


class Forging(Conflicting):
    """Three databases that grant each other as they like, and get forged messages. `seen` are the windows that were forged: of one window there is one body."""

    def __init__(self, program, folder, seed, _tree):
        super().__init__(program, folder, seed, dict.fromkeys("abc"))
        self.seen = set()

    def begin(self):
        """Makes the databases."""
        Differing.begin(self)

    def grants(self, publisher):
        """Grants to most others, one of which may be above; and to one that has no database."""
        others = [other for other in self.databases if other != publisher]
        above = self.drawing.choice([None, *others])
        found = [Grant(other == above, other) for other in others if self.drawing.chance(0.9)]
        return found + [Grant(False, WITHOUT_DATABASE)] if self.drawing.chance(0.3) else found

    def make_tables(self):
        """CREATE TABLE of most tables, with shorter texts and more NOT NULL now and then."""
        script = []
        for name, (columns, key) in self.tables.items():
            if not self.drawing.chance(0.05):
                script.append(CreateTable(name, [self.column(column, column.name in key) for column in columns], key))
        return script

    def column(self, column, is_of_key):
        """A column."""
        kind = column.type
        if kind.name == "VARCHAR" and self.drawing.chance(0.1):
            kind = Type("VARCHAR", self.drawing.choice([1, 4]))
        return column._replace(type=kind, required=column.required or not is_of_key and self.drawing.chance(0.04))

    def commit(self, publisher):
        """Transactions, or forged messages."""
        if self.drawing.chance(0.5):
            self.spoil()
        else:
            super().commit(publisher)

    def spoil(self):
        """Something bad happens to files now and then, and messages are forged."""
        if self.drawing.chance(0.3):
            self.world.spoil()
        for _ in range(1 + self.drawing.below(5)):
            self.forge(self.drawing.choice(list(self.databases)))

    # ---- forged operations

    def value(self, kind):
        """A value: NULL now and then, or one of another class."""
        drawing = self.drawing
        if drawing.chance(0.12):
            return None
        if drawing.chance(0.1):
            kind = drawing.choice([values.NUMBER, values.TEXT, values.DATE])
        value = drawing.value(kind)
        if kind == values.NUMBER and drawing.chance(0.2):
            return ("BIGINT", value[1])
        return values.text(drawing.choice(DAYS)) if kind == values.DATE and drawing.chance(0.2) else value

    def small(self, name):
        """A value of a key's column, one of few."""
        if name in ("id", "n"):
            return values.number(self.drawing.below(9))
        if name in ("a", "b"):
            return ("INTEGER" if name == "a" else "BIGINT", self.drawing.below(3))
        return self.drawing.date() if name == "k" else self.drawing.partition()

    def key(self, database, table):
        """The key of an operation, mostly one that is held, and the stored row by its columns; seldom it is no key of the table."""
        drawing = self.drawing
        rows = database.rows.items(table.name)
        key = [(name, self.small(name)) for name in table.key_names()]
        stored = {}
        if rows and drawing.chance(0.8):
            row = drawing.choice(rows)[1]
            key = table.named_key(row)
            stored = dict(zip(table.names(), row))
        if drawing.chance(0.2):
            key = drawing.shuffled(key)
        if drawing.chance(0.03) and len(key) > 1:
            del key[0]
        if drawing.chance(0.03):
            key.append(("rep" if table.name == "cust" else "zz", values.text("A")))
        name, value = key[0]
        if drawing.chance(0.05) and value[0] == "INTEGER":
            key[0] = (name, ("BIGINT", value[1]))
        elif drawing.chance(0.02):
            key[0] = (name, None)
        return key, stored

    def operation(self, database):
        """An operation for a database, which may or may not be done there."""
        drawing = self.drawing
        name = drawing.choice([*database.catalog.tables, "nowhere", "cust", "cust", "pair"])
        table = database.catalog.tables.get(name) or values.Table(name, [values.Column("id", Type("INTEGER"), True)], [0])
        columns = list(table.classes().items()) + ([("zz", values.NUMBER)] if drawing.chance(0.03) else [])
        share = drawing.random.random()
        if share < 0.3:
            return self.insert(table, columns)
        if share < 0.88:
            key, stored = self.key(database, table)
            return operations.Remove(name, key) if share < 0.4 else self.set(table, columns, key, stored)
        if share < 0.91:
            return operations.Clear(name)
        statement = self.on_rows(database.publisher) if drawing.chance(0.6) else self.scripts.on_catalog(database, True)
        if statement is None:
            return operations.Clear(name)
        text = statements.print_statement(statement)
        database.known[text] = statement
        return operations.Exec(text + (";" if drawing.chance(0.05) else ""))

    def insert(self, table, columns):
        """An Insert, or a Clear where no value would be named."""
        named = []
        for column, kind in columns:
            if column in table.key_names() or self.drawing.chance(0.7):
                named.append((column, self.small(column) if column in table.key_names() else self.value(kind)))
        named = [(column, value) for column, value in named if value is not None]
        named = self.drawing.shuffled(named) if self.drawing.chance(0.3) else named
        return operations.Insert(table.name, named) if named else operations.Clear(table.name)

    def set(self, table, columns, key, stored):
        """A Set, of which often the stored values are the old ones; or a Remove where no column would change."""
        changed = []
        for column, kind in self.drawing.some(columns, [1, 1, 2, 3]):
            if column not in table.key_names() or self.drawing.chance(0.05):
                old = stored.get(column) if self.drawing.chance(0.6) else self.value(kind)
                changed.append((column, old, self.value(kind)))
        return operations.Set(table.name, key, changed) if changed else operations.Remove(table.name, key)

    # ---- forged messages

    def forge(self, publisher):
        """Forges a window for a database: transactions that lead on, or do not, cut into pieces of which one may miss."""
        drawing = self.drawing
        database = self.databases[publisher]
        users = list(database.catalog.users) + ([NOBODY] if drawing.chance(0.1) else [])
        if not users:
            return
        user = drawing.choice(users)
        received = database.books[user].log_received if user in database.books else 0
        previous = max(0, received + drawing.choice([0, 0, 0, 0, -5, 3, -received]))
        upto, body = self.damaged(*self.transactions(database, previous))
        window = (publisher, user, previous, upto, len(body))
        if window in self.seen:
            return
        self.seen.add(window)
        receiver = publisher if drawing.chance(0.97) else "q"
        message = messages.Message(user, receiver, drawing.below(3), previous, upto, len(body), 0, b"", *self.reports(database, user))
        cuts = [drawing.below(len(body)) for _ in range(2)] if drawing.chance(0.3) else []
        cuts = sorted({0, len(body), *cuts})
        for start, end in zip(cuts, cuts[1:]):
            if not drawing.chance(0.03):
                piece = body[start : end + drawing.choice([0, 0, 1, 5])]
                self.world.put(publisher, f"{user}.f{drawing.below(1_000_000)}", message._replace(start=start, fragment=piece).spelled())

    def transactions(self, database, previous):
        """Some transactions behind an offset: their last offset, their body, and whether a statement is in it."""
        drawing = self.drawing
        offset = previous
        body = b""
        has_statement = False
        for _ in range(drawing.choice([1, 1, 2, 4])):
            offset += 1 + drawing.below(59)
            drawn = [self.operation(database) for _ in range(drawing.choice([1, 2, 3, 6]))]
            has_statement = has_statement or any(isinstance(operation, operations.Exec) for operation in drawn)
            body += messages.transaction(offset, drawn)
        return offset, body, has_statement

    def damaged(self, upto, body, has_statement):
        """End and body of a window, now and then such as do not go together. No byte of a statement is changed: it might be another one."""
        drawing = self.drawing
        share = drawing.random.random()
        if share < 0.03:
            return upto + 1, body
        if share < 0.06:
            return upto, body + b"\0"
        if share < 0.09 and not has_statement:
            place = drawing.below(len(body))
            return upto, body[:place] + encoding.number(drawing.below(256), 1) + body[place + 1 :]
        return upto, body

    def reports(self, database, user):
        """A confirm, and the count and the offset of an ask; now and then such as lie past the log."""
        drawing = self.drawing
        end = database.log.end
        past = end + 1 if drawing.chance(0.2) else 0
        sent = database.books[user].log_sent if user in database.books else 0
        confirm = drawing.choice([0, 0, sent, end, past])
        if drawing.chance(0.6):
            return confirm, 0, 0
        noted = database.books[user].resend_count if user in database.books else 0
        return confirm, drawing.choice([noted + 1, noted + 1, 1 + drawing.below(8)]), drawing.choice([0, end, end // 2, past])
