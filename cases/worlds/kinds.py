"""The kinds of worlds: how their databases are made, and what happens in them round by round."""

import statements
import values
from agent import Options
from drawing import Drawing
from expressions import Binary, Literal, Reference
from messages import BARE, transaction
from scripts import BIGINT, INTEGER, TABLES, Scripts
from statements import COMMIT, ROLLBACK, Article, CreatePublication, CreateTable, Grant, Subscription
from values import Column, Type
from world import World

# how many bytes a message file may be said to have
LEAST_LENGTH = 10_000
GREATEST_LENGTH = 1_048_576
LONG = "n" * 64
# Each database with the one above it.
TREES = [
    {"cons": None, "r1": "cons", "r2": "cons"},
    {"hq": None, "mid": "hq", "r1": "mid", "r2": "mid", "r3": "hq"},
    {"hq": None, "mid": "hq", "low": "mid"},
    {"_1": None, LONG: "_1", "low": LONG, "x9": "_1"},
]


class Differing:
    """A tree of databases that have differing tables, publications and subscriptions, so that much of what they send each other clashes."""

    tables = TABLES

    def __init__(self, program, folder, seed, tree, present=None):
        """`present` are the databases that are there, where some of the tree are but partners of others."""
        self.drawing = Drawing(seed)
        self.tree = tree
        self.world = World(program, folder, self.drawing, present or tree)
        self.databases = self.world.databases
        self.scripts = Scripts(self.drawing, self.databases)

    def begin(self):
        """Makes the databases with their tables, partners, publications and triggers."""
        self.world.begin()
        for publisher in self.databases:
            self.world.script(publisher, self.make_tables() + self.drawing.shuffled(self.grants(publisher)) + self.options_set())
            self.publish(publisher)
            self.make_triggers(publisher, self.drawing.below(4))

    def grants(self, publisher):
        """The grants to the database above and to those below."""
        above = [Grant(True, self.tree[publisher])] if self.tree[publisher] else []
        return above + [Grant(False, below) for below, own in self.tree.items() if own == publisher]

    def options_set(self):
        """SET OPTION, in some databases."""
        return [statements.SetOption(True)] if self.drawing.chance(0.3) else []

    def make_tables(self):
        """CREATE TABLE of most tables: their columns may miss, may stand in another order and have other types."""
        script = []
        for name, (columns, key) in self.tables.items():
            if self.drawing.chance(0.06):
                continue
            columns = [self.column(column, column.name in key) for column in columns if column.name in key or not self.drawing.chance(0.05)]
            columns = self.drawing.shuffled(columns) if self.drawing.chance(0.2) else columns
            script.append(CreateTable(name, columns, self.drawing.shuffled(key) if self.drawing.chance(0.2) else key))
        return script

    def column(self, column, is_of_key):
        """A column, now and then of another type, or with NOT NULL or without."""
        kind = column.type
        if self.drawing.chance(0.08):
            if kind.name == "VARCHAR":
                kind = Type("VARCHAR", self.drawing.choice([1, 2, 4, 8, 20, 40]))
            else:
                kind = {INTEGER: BIGINT, BIGINT: INTEGER}.get(kind, kind)
        return Column(column.name, kind, column.required != (not is_of_key and self.drawing.chance(0.05)))

    def make_triggers(self, publisher, count):
        """So many triggers, each by a script of its own: one may be refused."""
        for _ in range(count):
            trigger = self.scripts.trigger(self.databases[publisher])
            if trigger:
                self.world.script(publisher, [trigger])

    def publish(self, publisher):
        """A publication, with a subscription or two for each partner, most of which are started."""
        database = self.databases[publisher]
        tables = self.drawing.shuffled(list(database.catalog.tables))
        if not tables:
            return
        count = len(tables) if self.drawing.chance(0.4) else 1 + self.drawing.below(len(tables))
        articles = [self.scripts.article(database, table, self.drawing.chance(0.4)) for table in tables[:count]]
        publication = CreatePublication(f"p{self.drawing.below(3)}", articles)
        self.world.script(publisher, [publication])
        kinds = sorted(database.catalog.class_behind_by(article) for article in articles if article.by)
        for user in database.catalog.users:
            for _ in range(self.drawing.choice([1, 1, 2])):
                value = self.subscription_value(kinds[0]) if kinds and self.drawing.chance(0.85) else None
                self.subscribe(publisher, Subscription("CREATE", publication.name, value, user), self.drawing.chance(0.9))

    def subscription_value(self, kind):
        """A value of a subscription, mostly one that rows have."""
        if kind == values.TEXT:
            return Literal(self.drawing.partition())
        if kind == values.NUMBER:
            return Literal(values.number(self.drawing.below(3)) if self.drawing.chance(0.6) else self.drawing.assigned(kind))
        return Literal(self.drawing.date())

    def subscribe(self, publisher, subscription, is_started):
        """CREATE SUBSCRIPTION, and START where it is to be; each by a script of its own."""
        self.world.script(publisher, [subscription])
        if is_started:
            self.world.script(publisher, [subscription._replace(verb="START")])

    # ---- rounds

    def round(self):
        """Something happens to one database, or the agents run."""
        publisher = self.drawing.choice(list(self.databases))
        share = self.drawing.random.random()
        if share < 0.45:
            self.commit(publisher)
        elif share < 0.53:
            statement = self.scripts.on_catalog(self.databases[publisher])
            self.world.script(publisher, [statement] if statement else [])
        elif share < 0.60:
            self.pass_on(publisher)
        elif share < 0.68:
            self.spoil()
        else:
            everybody = self.drawing.shuffled(list(self.databases))
            for each in [publisher] if self.drawing.chance(0.6) else everybody:
                self.world.agent(each, self.options(each))
        if self.drawing.chance(0.05):
            self.world.show(publisher)
        if self.drawing.chance(0.05):
            self.world.select(publisher)

    def options(self, publisher):
        """The options of a run of the agent."""
        chance = self.drawing.chance
        return Options(chance(0.08), chance(0.08), chance(0.15), self.length(publisher), chance(0.2))

    def length(self, _publisher):
        """How many bytes a message may have, or None."""
        return self.drawing.choice([LEAST_LENGTH, GREATEST_LENGTH, 20_000]) if self.drawing.chance(0.3) else None

    def on_rows(self, publisher):
        """A statement on rows."""
        return self.scripts.on_rows(self.databases[publisher])

    def commit(self, publisher):
        """Some transactions, each by a script of its own: a refused statement ends its script. Few are rolled back, or neither. Seldom more is published."""
        if self.drawing.chance(0.06):
            self.publish(publisher)
        for _ in range(1 + self.drawing.below(4)):
            script = [self.on_rows(publisher) for _ in range(self.drawing.choice([1, 1, 2, 4]))]
            self.world.script(publisher, [*script, COMMIT if self.drawing.chance(0.92) else ROLLBACK])
        if self.drawing.chance(0.1):
            self.world.script(publisher, [self.on_rows(publisher)])

    def pass_on(self, publisher):
        """Statements are passed on."""
        script = self.scripts.passed_on(self.databases[publisher])
        if script:
            self.world.script(publisher, script)

    def spoil(self):
        """Something bad happens to files."""
        self.world.spoil()


class Conflicting(Differing):
    """A tree of databases that have the same tables and change the same rows, so that there are many conflicts."""

    # of a table a value of its key's first column whose rows an article may leave out
    left_out = {
        "cust": values.number(3),
        "pair": values.number(1),
        "flag": values.date("1970-01-01"),
        "tags": values.text("C"),
        "hist": values.number(2),
    }

    def begin(self):
        """Makes the databases; those below subscribe to partitions."""
        self.world.begin()
        for publisher in self.databases:
            articles = [self.article(publisher, name) for name in self.tables]
            self.world.script(publisher, [*self.make_tables(), *self.grants(publisher), CreatePublication("p", articles), *self.options_set()])
            for user, is_above in self.databases[publisher].catalog.users.items():
                partitions = [Literal(values.text(name)) for name in self.drawing.some("ABC", [1, 2, 3])]
                for value in [None] if is_above else partitions:
                    self.subscribe(publisher, Subscription("CREATE", "p", value, user), True)
            self.make_triggers(publisher, 1 + self.drawing.below(4))

    def make_tables(self):
        """CREATE TABLE of each table."""
        return [CreateTable(name, [self.column(column, column.name in key) for column in columns], key) for name, (columns, key) in self.tables.items()]

    def column(self, column, is_of_key):
        """A column; a text outside the key is shorter now and then."""
        if column.type.name == "VARCHAR" and not is_of_key and self.drawing.chance(0.06):
            return column._replace(type=Type("VARCHAR", self.drawing.choice([2, 8])))
        return column

    def article(self, publisher, name):
        """An article: at the top that of `cust` is often parted, others leave out a key now and then."""
        columns, key = self.tables[name]
        if name not in self.left_out:
            return Article(name)
        names = None
        if self.drawing.chance(0.25):
            names = self.drawing.shuffled(key + [column.name for column in columns if column.name not in key and self.drawing.chance(0.7)])
        if not self.tree[publisher] and name == "cust" and self.drawing.chance(0.6):
            return Article(name, names, by=Reference(None, "rep"))
        if self.drawing.chance(0.15):
            return Article(name, names, Binary("<>", Reference(None, key[0]), Literal(self.left_out[name])))
        return Article(name, names)

    def on_rows(self, publisher):
        """Mostly an UPDATE of one row that is there."""
        database = self.databases[publisher]
        rows = [(name, row) for name in ("cust", "hist", "pair") if name in database.catalog.tables for _, row in database.rows.items(name)]
        if not rows or not self.drawing.chance(0.75):
            return super().on_rows(publisher)
        name, row = self.drawing.choice(rows)
        table = database.catalog.tables[name]
        where = None
        for column, value in table.named_key(row):
            is_it = Binary("=", Reference(None, column), Literal(value))
            where = Binary("AND", where, is_it) if where else is_it
        columns = self.drawing.some(self.scripts.outside_key(table), [1, 1, 2, 3])
        return statements.Update(name, [(column.name, Literal(self.fresh(column))) for column in columns], where)

    def fresh(self, column):
        """A new value of a column."""
        kind = values.CLASSES[column.type.name]
        if column.name == "rep":
            return self.drawing.partition()
        if kind == values.NUMBER:
            return values.number(self.drawing.below(20)) if self.drawing.chance(0.8) else None
        return values.text(self.drawing.choice("ABCDEFG")) if kind == values.TEXT else self.drawing.date()

    def pass_on(self, publisher):
        """Statements are passed on seldom."""
        if self.drawing.chance(0.3):
            super().pass_on(publisher)

    def spoil(self):
        """Something bad happens to files more seldom."""
        if self.drawing.chance(0.4):
            super().spoil()


class Cutting(Conflicting):
    """Besides, there are long texts and short messages, so that transactions are cut into several files."""

    tables = {**TABLES, "doc": ([Column("id", INTEGER, True), Column("body", Type("VARCHAR", 32767), False)], ["id"])}

    def on_rows(self, publisher):
        """Often an INSERT of long texts."""
        if not self.drawing.chance(0.35) or "doc" not in self.databases[publisher].catalog.tables:
            return super().on_rows(publisher)
        rows = []
        for _ in range(self.drawing.choice([1, 1, 2, 3])):
            length = self.drawing.choice([10, 100, 3000, 9000, 9700, 9835 + self.drawing.below(40), 20000, 32767])
            body = values.text(self.drawing.choice("abcdefgh") * length)
            rows.append([Literal(values.number(self.drawing.below(1_000_000))), Literal(body)])
        return statements.Insert("doc", None, rows)

    def filled(self, database):
        """The lengths of message files that transactions which are due just fill."""
        for user in database.catalog.users:
            length = BARE + len(database.publisher) + len(user)
            for offset, operations in database.due(user):
                length += len(transaction(offset, operations))
                if LEAST_LENGTH <= length <= GREATEST_LENGTH:
                    yield length

    def length(self, publisher):
        """How many bytes a message may have: often few, and now and then as many as are just filled."""
        filled = list(self.filled(self.databases[publisher]))
        if filled and self.drawing.chance(0.4):
            return self.drawing.choice(filled)
        return self.drawing.choice([LEAST_LENGTH, LEAST_LENGTH, 10_001, 10_050, 12_000, 50_000, GREATEST_LENGTH])

    def spoil(self):
        """Something bad happens to files."""
        self.world.spoil()
