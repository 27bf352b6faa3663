"""Draws statements that change the catalog, and whole scripts, also ones that are spoiled."""

import re

import printing
from catalog import MOST_COLUMNS
from drawing import COLUMNS, PUBLICATIONS, TABLES, TRIGGERS, USERS, Drawing

ADDRESSES = ("x", "R1", "1", "select", "r1", "hq", "a''b", "")
VERBS = ("CREATE", "CREATE", "START", "START", "START", "STOP", "SYNCHRONIZE", "SYNCHRONIZE", "SYNCHRONIZE", "DROP")
ROWS = ("OLD", "NEW", "REMOTE")
NAMES_OF_ROWS = ("o", "nw", "r", "old", "new")
VARIABLES = ("v1", "v2", "v3")
# these faults are drawn more often than others, so fewer of their statements stay in a script
MANY_FAULTS = ("BadValue", "Duplicate", "Exists", "Missing", "NoTable", "Null")
FEW_ROWS = 3
# a statement that is always refused
REFUSED_AT_ONCE = b"DROP TABLE zzz; "
# the pieces of a script, and what is put between them to spoil it
PIECES = re.compile(r"('(?:[^']|'')*'|[A-Za-z_0-9]+|<=|>=|<>|\s+)")
SPOILING = """NULL ( ) , ; . - + * = <> PRIMARY KEY NOT IS AND OR WHERE SET FROM AS JOIN ON END IF THEN ELSE id 5 'x' DATE TABLE FOR ORDER BY COUNT VALUES
9223372036854775808 9223372036854775809 32768 old type INTEGER ' $ -- OPTION alter ADD default GLOBAL autoincrement SEND every AT""".split()


class Scripts(Drawing):
    """Draws statements of every kind."""

    def statement(self):
        """A statement. While there is no table it mostly makes one, and while there are few rows more of them."""
        self.careless = self.chance(0.1)
        tables = self.catalog.tables if self.catalog else {}
        if not tables and self.chance(0.8):
            return self.create_table()
        if sum(len(rows) for rows in self.rows.values()) < FEW_ROWS and self.chance(0.25):
            return self.insert()
        kinds = (
            (5, self.create_table),
            (1, self.wide_table),
            (2, self.drop),
            (6, self.create_publication),
            (5, self.grant),
            (3, self.option),
            (18, self.subscription),
            (6, self.create_trigger),
            (5, self.passthrough),
            (26, self.insert),
            (10, self.update),
            (3, self.delete),
            (24, self.select),
            (8, lambda: self.one(("COMMIT", "COMMIT WORK"))),
            (2, lambda: self.one(("ROLLBACK", "ROLLBACK WORK"))),
        )
        return self.random.choices([draw for _, draw in kinds], [weight for weight, _ in kinds])[0]()

    # ---- tables, publications

    def create_table(self):
        """CREATE TABLE, with a key behind a column, behind all, or now and then none."""
        names = self.some(COLUMNS, 1, 6)
        key = self.some(names, 1, 3)
        if self.slips(0.04):
            names.append(self.one(names))
        if self.slips(0.04):
            key.append(self.one(COLUMNS))
        kind = self.one(("none", "behind a column", "behind all", "behind all"))
        columns = [self.column(name, kind == "behind a column" and name == key[0]) for name in names]
        if kind == "behind all":
            columns.append(f"PRIMARY KEY ({', '.join(key)})")
        return f"CREATE TABLE {self.one(TABLES)} ({', '.join(columns)})"

    def wide_table(self):
        """CREATE TABLE of as many columns as a table may have, or of one more, and its DROP."""
        columns = "".join(f", c{place} DATE" for place in range(1, self.one((MOST_COLUMNS, MOST_COLUMNS + 1))))
        return f"CREATE TABLE wide (c0 INT PRIMARY KEY{columns}); DROP TABLE wide"

    def column(self, name, is_key):
        """A column with its rules in any order."""
        rules = ["PRIMARY KEY"] if is_key else []
        if self.chance(0.25):
            rules.append("NOT NULL")
        if self.chance(0.1):
            rules.append("NULL")
        self.random.shuffle(rules)
        return " ".join([self.cased(name), self.type(), *rules])

    def drop(self):
        """DROP of what is no subscription."""
        return self.one((f"DROP TABLE {self.table()}", f"DROP PUBLICATION {self.one(PUBLICATIONS)}", f"DROP TRIGGER {self.one(TRIGGERS)}"))

    def create_publication(self):
        """CREATE PUBLICATION, now and then of one table twice."""
        tables = [self.table() for _ in range(self.one((1, 1, 2, 3)))]
        if not self.slips(0.1):
            tables = list(dict.fromkeys(table.lower() for table in tables))
        return f"CREATE PUBLICATION {self.one(PUBLICATIONS)} ({', '.join(self.article(table) for table in tables)})"

    def article(self, table):
        """A table of a publication: most of its columns, a condition, and what it is subscribed by."""
        parts = [f"TABLE {table}"]
        if self.chance(0.5):
            names = self.names(table)
            listed = self.some(names, max(1, len(names) - 2), len(names))
            if self.slips(0.05):
                listed.append(self.one(COLUMNS))
            parts.append(f"({', '.join(listed)})")
        if self.chance(0.4):
            parts.append(f"WHERE {self.condition(table, ['zz'] if self.slips(0.1) else [table], 1)}")
        if self.chance(0.5):
            others = (self.literal(), self.literal(), f"({self.value(table, [table])})")
            parts.append(f"SUBSCRIBE BY {self.reference(table, [table]) if self.chance(0.7) else self.one(others)}")
        return " ".join(parts)

    # ---- users

    def grant(self):
        """GRANT."""
        address = f" TYPE FILE ADDRESS '{self.one(ADDRESSES)}'" if self.chance(0.3) else ""
        return f"GRANT {self.one(('REMOTE', 'REMOTE', 'REMOTE', 'CONSOLIDATE'))} TO {self.one(USERS)}{address}"

    def option(self):
        """SET OPTION, now and then of one that there is not, or of a value that it has not."""
        name = self.cased("verify_all_columns") if not self.slips(0.1) else self.one(("x", "option", "global_database_id"))
        values = ("'On'", "'Off'", "'oN'", "'OFF'") if not self.slips(0.2) else ("'Yes'", "NULL", "1", "- 1", "''", "DATE '2000-01-01'", "'On '")
        return f"SET OPTION {name} = {self.one(values)}"

    def subscription(self):
        """A statement of a subscription, mostly of one that is there, unless it makes one."""
        verb = self.one(VERBS)
        there = dict(self.catalog.subscriptions) if self.catalog else {}
        if verb in ("STOP", "SYNCHRONIZE") and self.chance(0.8):
            there = {subscription: started for subscription, started in there.items() if started}
        if there and verb != "CREATE" and self.chance(0.85):
            publication, value, user = self.one(there)
            between = "" if value is None else f"({printing.literal(value.value)}) "
            return f"{verb} SUBSCRIPTION TO {publication} {between}FOR {user}"
        publication = self.known("publications", PUBLICATIONS)
        between = f"({self.value_of(publication)}) " if self.chance(0.6) else ""
        return f"{verb} SUBSCRIPTION TO {publication} {between}FOR {self.known('users', USERS)}"

    def value_of(self, publication):
        """A literal for a subscription, mostly of the class that the first table of its publication is subscribed by, and of a value that a row has."""
        articles = self.catalog.publications.get(publication) if self.catalog else None
        if not articles or articles[0].subscribe_by is None or self.chance(0.2):
            return self.literal()
        table, name = articles[0].table, printing.expression(articles[0].subscribe_by).rpartition(".")[2]
        rows = [printing.literal(row[self.names(table).index(name)]) for row in self.rows.get(table, {}).values() if name in self.names(table)]
        return self.one(rows) if rows else self.plain(table, None, self.class_of(table, name) or "number")

    def passthrough(self):
        """The beginning or the end of a region."""
        users = self.one(("r1", "r1, r2", "r2, r1, r2", "hq"))
        return self.one(("PASSTHROUGH STOP", f"PASSTHROUGH FOR {users}", "PASSTHROUGH ONLY FOR r1"))

    # ---- triggers

    def create_trigger(self):
        """CREATE TRIGGER."""
        table = self.table()
        rows = self.some(ROWS, 0, 3)
        aliases = self.random.sample(NAMES_OF_ROWS, len(rows))
        variables = [f"DECLARE {self.one(VARIABLES)} {self.type()}; " for _ in range(self.one((0, 0, 1, 2)))]
        columns = ""
        if self.chance(0.4):
            names = self.some(self.names(table), 1, 7)
            columns = f"OF {', '.join(names + [self.one(COLUMNS)] if self.slips(0.1) else names)} "
        head = f"CREATE TRIGGER {self.one(TRIGGERS)} RESOLVE UPDATE {columns}ON {table} REFERENCING "
        named = "".join(f"{row} AS {alias} " for row, alias in zip(rows, aliases))
        new = dict(zip(rows, aliases)).get("NEW")
        return f"{head}{named}FOR EACH ROW BEGIN {''.join(variables)}{self.actions(table, aliases, new, 2)}END"

    def actions(self, table, aliases, new, depth):
        """Some actions of a trigger of a table, whose IFs are at most so deep."""
        return "".join(f"{self.action(table, aliases, new, depth)}; " for _ in range(self.one((0, 1, 1, 2, 3))))

    def action(self, table, aliases, new, depth):
        """An action of a trigger."""
        kind = self.random.randrange(5)
        if kind == 4 and depth > 0:
            otherwise = f"ELSE {self.actions(table, aliases, new, depth - 1)}" if self.chance(0.4) else ""
            condition = self.within(aliases, self.condition(table, aliases, 1))
            return f"IF {condition} THEN {self.actions(table, aliases, new, depth - 1)}{otherwise}END IF"
        if kind == 3:
            head, values, rows = self.insert(table, aliases).partition(" VALUES ")
            return head + values + self.within(aliases, rows)
        target = self.one(VARIABLES)
        if kind < 2:
            alias = new if new and self.chance(0.9) else self.one(aliases or ["zz"])
            target = f"{alias}.{self.one(self.names(table)[1:] if len(self.names(table)) > 1 else COLUMNS)}"
        return f"SET {target} = {self.within(aliases, self.value(table, aliases))}"

    def within(self, aliases, expression):
        """An expression of a trigger, in which columns stand behind aliases, but for a few. Without an alias it is mostly a number."""
        if not aliases:
            return expression if self.chance(0.3) else "1"
        pieces = re.split(r"('(?:[^']|'')*'|[A-Za-z_0-9.]+)", expression)
        return "".join(f"{self.one(aliases)}.{piece}" if piece.lower() in COLUMNS and not self.slips(0.03) else piece for piece in pieces)

    # ---- scripts

    def spoiled(self, script):
        """A script in which a piece is gone, put in, or in another's place, or which ends too early."""
        pieces = [piece for piece in PIECES.split(script) if piece]
        place = self.random.randrange(len(pieces))
        kind = self.random.randrange(4)
        if kind == 0:
            del pieces[place]
        elif kind == 1:
            pieces.insert(place, f" {self.one(SPOILING)} ")
        elif kind == 2:
            other = self.random.randrange(len(pieces))
            pieces[place], pieces[other] = pieces[other], pieces[place]
        else:
            pieces = pieces[:place]
        return "".join(pieces)

    def at_limit(self):
        """A statement in which something is as long or as deep as it may be, or nearly so, or more by one."""
        deep = 200 + self.one((-2, -1, 0, 1))
        turn = self.one((-1, 0, 1))
        return self.one(
            (
                f"DELETE FROM t WHERE {'(' * deep}n{')' * deep} = 1",
                f"DELETE FROM t WHERE n{' + n' * deep} = 1",
                f"DELETE FROM t WHERE n = n{self.one((' - 1', ' * b'))} + {'- ' * deep}n",
                f"DELETE FROM t WHERE {'NOT ' * deep}n IS NULL",
                f"DELETE FROM t WHERE n = 1{self.one((' OR n = 1', ' AND n = 1')) * deep}",
                f"DELETE FROM t WHERE n = {self.one(('-', ''))}{2**63 + turn}",
                f"SELECT * FROM t{' JOIN t ON NULL' * (7 + turn)}",
                f"CREATE TRIGGER g RESOLVE UPDATE ON t REFERENCING FOR EACH ROW BEGIN {'IF NULL THEN ' * deep}{'END IF; ' * deep}END",
                f"CREATE TABLE t (s VARCHAR({32767 + turn}) PRIMARY KEY)",
                f"DROP TABLE {'x' * (64 + turn)}",
            )
        )

    def to_refuse(self):
        """The bytes of a script of some statements that are spoiled here and there. Its first statement is refused, so nothing of it runs where it is read."""
        kinds = (self.statement, self.create_trigger, self.create_table, self.create_publication, self.select, self.subscription, self.grant, self.option)
        parts = [self.at_limit() if self.chance(0.05) else self.one(kinds)() for _ in range(self.one((1, 1, 2, 3)))]
        for _ in range(self.one((0, 1, 1, 1, 2, 3))):
            place = self.random.randrange(len(parts))
            parts[place] = self.spoiled(parts[place]) if parts[place] else ""
        script = "; ".join(parts).encode()
        if self.chance(0.05):
            place = self.random.randint(0, len(script))
            script = script[:place] + bytes([self.random.randrange(256)]) + script[place:]
        return REFUSED_AT_ONCE + script

    def to_run(self, database):
        """The bytes of a script that mostly runs on a database, up to its last statement, which may be refused."""
        database = database.copy()
        parts = []
        for _ in range(self.random.randint(2, 20)):
            self.catalog, self.rows = database.catalog, database.rows.tables
            part = self.statement()
            if self.chance(0.03):
                part = self.spoiled(part)
            after = database.copy()
            printed, status = after.run(f"{part}; COMMIT".encode())
            if status == 0:
                parts.append(part)
                database = after
            elif self.chance(0.1 if any(fault in printed for fault in MANY_FAULTS) and not self.careless else 0.25):
                parts.append(part)
                break
        if self.chance(0.4):
            parts.append("COMMIT")
        script = self.one(("; ", ";\n", ";\r\n", "; -- x\n")).join(parts) + self.one(("", ";", ";\n"))
        return script.encode()
