"""Reads the statements of a script (docs/SQL.md, "Grammar")."""

import tree
from parsing import Expressions
from values import Type, number_of

LONGEST_TEXT = 32767
MOST_SOURCES = 8
DEEPEST_IF = 200
ALIASES = ("old", "new", "remote")
SWITCHES = (b"on", b"off")


class Statements(Expressions):
    """Reads a script, or is refused at a byte of it."""

    def script(self):
        """All statements. Empty ones are left out."""
        statements = []
        while True:
            while self.took_sign(";"):
                pass
            if self.token().kind == "end":
                return statements
            statements.append(self.statement())
            if self.token().kind != "end":
                self.need_sign(";")

    def statement(self):
        """A statement, by its first word."""
        readers = {
            "create": self.create,
            "drop": self.drop,
            "grant": self.grant,
            "start": self.start,
            "stop": self.stop,
            "synchronize": self.synchronize,
            "set": self.option,
            "insert": self.insert,
            "update": self.update,
            "delete": self.delete,
            "select": self.select,
            "commit": self.commit,
            "rollback": self.rollback,
            "passthrough": self.passthrough,
        }
        if not self.is_next("word", readers):
            self.refuse()
        return readers[self.take()]()

    # ---- the catalog

    def create(self):
        """CREATE, and what it makes."""
        if self.took("table"):
            return self.table()
        if self.took("publication"):
            return tree.CreatePublication(self.name(), self.enclosed(self.article))
        if self.took("subscription"):
            return self.subscription("CREATE")
        self.need("trigger")
        return self.trigger()

    def table(self):
        """A table: columns, and at most one key, behind a column or behind all. The columns of the key are never NULL."""
        name = self.name()
        columns = []
        key = []
        self.need_sign("(")
        while True:
            if columns and not key and self.took("primary"):
                self.need("key")
                key = self.enclosed(self.name)
                break
            column, is_key = self.column(not key)
            columns.append(column)
            if is_key:
                key = [column.name]
            if not self.took_sign(","):
                break
        self.need_sign(")")
        columns = [column._replace(never_null=column.never_null or column.name in key) for column in columns]
        return tree.CreateTable(name, columns, key)

    def column(self, may_be_key):
        """A column with its rules, each at most once, and whether it is the key."""
        name, kind = self.name(), self.type()
        rules = []
        while True:
            if "not" not in rules and self.took("not"):
                self.need("null")
                rules.append("not")
            elif "null" not in rules and self.took("null"):
                rules.append("null")
            elif may_be_key and "primary" not in rules and self.took("primary"):
                self.need("key")
                rules.append("primary")
            else:
                return tree.Column(name, kind, "not" in rules), "primary" in rules

    def type(self):
        """The type of a column or variable."""
        if self.took("integer", "int"):
            return Type("INTEGER")
        if self.took("bigint"):
            return Type("BIGINT")
        if self.took("date"):
            return Type("DATE")
        self.need("varchar")
        self.need_sign("(")
        if self.token().kind != "number" or not 1 <= self.token().content <= LONGEST_TEXT:
            self.refuse()
        length = self.take()
        self.need_sign(")")
        return Type("VARCHAR", length)

    def article(self):
        """A table of a publication."""
        self.need("table")
        table, columns, where, subscribe_by = self.name(), self.names_if_any(), self.where_if_any(), None
        if self.took("subscribe"):
            self.need("by")
            subscribe_by = self.expression()
        return tree.Article(table, columns, where, subscribe_by)

    def where_if_any(self):
        """The condition behind WHERE, or None."""
        return self.expression() if self.took("where") else None

    def start(self):
        """START SUBSCRIPTION."""
        self.need("subscription")
        return self.subscription("START")

    def stop(self):
        """STOP SUBSCRIPTION."""
        self.need("subscription")
        return self.subscription("STOP")

    def synchronize(self):
        """SYNCHRONIZE SUBSCRIPTION."""
        self.need("subscription")
        return self.subscription("SYNCHRONIZE")

    def subscription(self, verb):
        """What stands behind the word SUBSCRIPTION."""
        self.need("to")
        publication, value = self.name(), None
        if self.took_sign("("):
            value = self.value()
            self.need_sign(")")
        self.need("for")
        return tree.Subscription(verb, publication, value, self.name())

    def value(self):
        """The value of a subscription or an option: a literal, which may be a negative number."""
        if self.took_sign("-"):
            if self.token().kind != "number":
                self.refuse()
            return tree.Literal(number_of(-self.take()))
        literal = self.literal_if_any()
        if literal is None:
            self.refuse()
        return literal

    def option(self):
        """SET OPTION. On and Off are kept so, however their letters were written."""
        self.need("option")
        name = self.name()
        self.need_sign("=")
        value = self.value().value
        if value is not None and value.kind == "VARCHAR" and value.content.lower() in SWITCHES:
            value = value._replace(content=value.content.capitalize())
        return tree.SetOption(name, tree.Literal(value))

    def drop(self):
        """DROP, and what it takes away."""
        if self.took("subscription"):
            return self.subscription("DROP")
        if not self.is_next("word", ("table", "publication", "trigger")):
            self.refuse()
        return tree.Drop(self.take().upper(), self.name())

    def grant(self):
        """GRANT, to a user below or above."""
        above = self.took("consolidate")
        if not above:
            self.need("remote")
        self.need("to")
        user, address = self.name(), None
        if self.took("type"):
            self.need("file", "address")
            address = self.need_text()
        return tree.Grant(above, user, address)

    # ---- triggers

    def trigger(self):
        """A trigger, behind the word TRIGGER."""
        name = self.name()
        self.need("resolve", "update")
        columns = self.listed(self.name) if self.took("of") else []
        self.need("on")
        table = self.name()
        self.need("referencing")
        aliases = self.aliases()
        self.need("for", "each", "row", "begin")
        variables = []
        while self.took("declare"):
            variables.append((self.name(), self.type()))
            self.need_sign(";")
        actions = self.actions(0)
        self.need("end")
        return tree.CreateTrigger(name, columns, table, aliases, variables, actions)

    def aliases(self):
        """The aliases of a trigger: each of the rows at most once, and so each name."""
        aliases = []
        while self.is_next("word", ALIASES) and self.token().content not in [row for row, _ in aliases]:
            row = self.take()
            self.need("as")
            if self.token().content in [name for _, name in aliases]:
                self.refuse()
            aliases.append((row, self.name()))
        return aliases

    def actions(self, depth):
        """The actions that stand here, within so many IFs."""
        actions = []
        while True:
            if self.took("set"):
                target = self.reference()
                self.need_sign("=")
                actions.append(tree.Set(target, self.expression()))
            elif self.took("insert"):
                self.need("into")
                table, columns = self.name(), self.names_if_any()
                self.need("values")
                actions.append(tree.Insert(table, columns, [self.enclosed(self.expression)]))
            elif self.is_next("word", ("if",)):
                actions.append(self.branch(depth))
            else:
                return actions
            self.need_sign(";")

    def branch(self, depth):
        """An IF, within so many others."""
        if depth >= DEEPEST_IF:
            self.refuse()
        self.need("if")
        condition = self.expression()
        self.need("then")
        then = self.actions(depth + 1)
        otherwise = self.actions(depth + 1) if self.took("else") else None
        self.need("end", "if")
        return tree.If(condition, then, otherwise)

    # ---- rows

    def insert(self):
        """INSERT."""
        self.need("into")
        table, columns = self.name(), self.names_if_any()
        self.need("values")
        return tree.Insert(table, columns, self.listed(lambda: self.enclosed(self.expression)))

    def update(self):
        """UPDATE."""
        table = self.name()
        self.need("set")
        return tree.Update(table, self.listed(self.assignment), self.where_if_any())

    def assignment(self):
        """A column and the expression that it is set to."""
        column = self.name()
        self.need_sign("=")
        return column, self.expression()

    def delete(self):
        """DELETE."""
        self.need("from")
        return tree.Delete(self.name(), self.where_if_any())

    def select(self):
        """SELECT."""
        items = None if self.took_sign("*") else self.listed(self.item)
        self.need("from")
        sources, conditions = [self.source()], []
        while self.is_next("word", ("inner", "join")):
            if len(sources) >= MOST_SOURCES:
                self.refuse()
            self.took("inner")
            self.need("join")
            sources.append(self.source())
            self.need("on")
            conditions.append(self.expression())
        where, order = self.where_if_any(), []
        if self.took("order"):
            self.need("by")
            order = self.listed(self.ordered)
        return tree.Select(items, sources, conditions, where, order)

    def item(self):
        """An item of a SELECT."""
        if self.took("count"):
            self.need_sign("(")
            self.need_sign("*")
            self.need_sign(")")
            return tree.Item("COUNT", None)
        if not self.is_next("word", ("sum", "min", "max")):
            return tree.Item(None, self.expression())
        aggregate = self.take().upper()
        self.need_sign("(")
        expression = self.expression()
        self.need_sign(")")
        return tree.Item(aggregate, expression)

    def source(self):
        """A table of a SELECT."""
        table = self.name()
        return tree.Source(table, self.name() if self.took("as") else table)

    def ordered(self):
        """A column of ORDER BY, and whether it goes down."""
        reference = self.reference()
        descending = self.took("desc")
        if not descending:
            self.took("asc")
        return reference, descending

    # ---- the run

    def commit(self):
        """COMMIT, perhaps with WORK."""
        self.took("work")
        return tree.Commit()

    def rollback(self):
        """ROLLBACK, perhaps with WORK."""
        self.took("work")
        return tree.Rollback()

    def passthrough(self):
        """PASSTHROUGH STOP or FOR."""
        if self.took("stop"):
            return tree.PassthroughStop()
        only = self.took("only")
        self.need("for")
        return tree.PassthroughFor(only, self.listed(self.name))


def statements_of(script):
    """The statements of the bytes of a script."""
    return Statements(script).script()
