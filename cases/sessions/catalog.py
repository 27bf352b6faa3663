"""What a database has beside its rows, which statements change it, and by what they are refused (docs/SQL.md, "What changes the catalog")."""

import re

import tree
import triggers
from expressions import Refused, TableScope, WrongClass, class_of, has_arithmetic, need_truth

# of several faults the first of these is told, and of several places of one the leftmost
FAULTS = ("Exists", "Missing", "BadType", "NoKey", "KeyNotInArticle", "TwiceSubscribed", "InUse", "TooMany")
MOST_TABLES = 256
MOST_COLUMNS = 256
MOST_PUBLICATIONS = 256
MOST_ARTICLES = 64
MOST_USERS = 1024
MOST_SUBSCRIPTIONS = 65536
MOST_TRIGGERS = 1024


class Faults:
    """The faults of a statement, in the order of their places."""

    def __init__(self):
        self.found = []

    def add(self, fault, *values):
        """One fault more."""
        self.found.append(Refused(fault, *values))

    def add_twice(self, names):
        """Each name that stands again among these."""
        for place, name in enumerate(names):
            if name in names[:place]:
                self.add("Exists", name)

    def add_past(self, count, limit):
        """A fault where there are more than a limit."""
        if count > limit:
            self.add("TooMany", str(limit))

    def answer(self):
        """Refuses the statement where it has a fault."""
        if self.found:
            raise min(self.found, key=lambda refused: FAULTS.index(refused.fault))


class Catalog:
    """Tables, publications, triggers, users and options by their names, and subscriptions in order, with whether each is started. Statements are not changed, so
    a copy has the same ones."""

    def __init__(self, publisher):
        self.publisher = publisher
        self.tables = {}
        self.publications = {}
        self.triggers = {}
        self.users = {}
        self.subscriptions = {}
        self.options = {}

    def copy(self):
        """Another catalog of the same."""
        other = Catalog(self.publisher)
        for part in ("tables", "publications", "triggers", "users", "subscriptions", "options"):
            setattr(other, part, dict(getattr(self, part)))
        return other

    def scope(self, table):
        """The columns of a table, which is there."""
        return TableScope(table, self.tables[table].columns)

    def check(self, statement):
        """Refuses a statement by the first of its faults."""
        checks = {
            tree.CreateTable: self.check_table,
            tree.CreatePublication: self.check_publication,
            tree.CreateTrigger: self.check_trigger,
            tree.Drop: self.check_drop,
            tree.Grant: self.check_grant,
            tree.Subscription: self.check_subscription,
            tree.SetOption: self.check_option,
            tree.PassthroughFor: self.check_users,
        }
        faults = Faults()
        if type(statement) in checks:
            checks[type(statement)](statement, faults)
        faults.answer()

    def change(self, statement):
        """Does what a statement says that is not refused."""
        if isinstance(statement, tree.CreateTable):
            self.tables[statement.name] = statement
        elif isinstance(statement, tree.CreatePublication):
            self.publications[statement.name] = [self.whole(article) for article in statement.articles]
        elif isinstance(statement, tree.CreateTrigger):
            self.triggers[statement.name] = statement
        elif isinstance(statement, tree.Grant):
            self.users[statement.user] = statement
        elif isinstance(statement, tree.SetOption):
            self.options[statement.name] = statement.value.value.content
        elif isinstance(statement, tree.Drop):
            del self.kind(statement.kind)[statement.name]
        elif statement.verb == "DROP":
            del self.subscriptions[subscribed(statement)]
        elif statement.verb in ("CREATE", "START", "STOP"):
            self.subscriptions[subscribed(statement)] = statement.verb == "START"

    def kind(self, kind):
        """What there is of a kind, by name."""
        return {"TABLE": self.tables, "PUBLICATION": self.publications, "TRIGGER": self.triggers}[kind]

    def whole(self, article):
        """An article with its columns: all that its table has now, where none is written."""
        return article._replace(columns=article.columns or self.scope(article.table).names)

    # ---- tables, publications, triggers

    def check_table(self, statement, faults):
        """CREATE TABLE."""
        names = [column.name for column in statement.columns]
        if statement.name in self.tables:
            faults.add("Exists", statement.name)
        faults.add_twice(names)
        faults.add_twice(statement.key)
        for name in statement.key:
            if name not in names:
                faults.add("Missing", name)
        if not statement.key:
            faults.add("NoKey", statement.name)
        faults.add_past(len(self.tables) + 1, MOST_TABLES)
        faults.add_past(len(names), MOST_COLUMNS)

    def check_publication(self, statement, faults):
        """CREATE PUBLICATION."""
        if statement.name in self.publications:
            faults.add("Exists", statement.name)
        for place, article in enumerate(statement.articles):
            if article.table in [other.table for other in statement.articles[:place]]:
                faults.add("Exists", article.table)
            faults.add_twice(article.columns or [])
            if article.table in self.tables:
                self.check_article(article, faults)
            else:
                faults.add("Missing", article.table)
        faults.add_past(len(self.publications) + 1, MOST_PUBLICATIONS)
        faults.add_past(len(statement.articles), MOST_ARTICLES)

    def check_article(self, article, faults):
        """An article of a table that is there."""
        scope = self.scope(article.table)
        expressions = [part for part in (article.where, article.subscribe_by) if part is not None]
        lacking = [name for expression in expressions for name in scope.missing(expression)]
        for name in [name for name in article.columns or [] if name not in scope.names] + lacking:
            faults.add("Missing", name)
        if not lacking and not self.is_sound(article, scope):
            faults.add("BadType", article.table)
        for name in self.tables[article.table].key:
            if article.columns and name not in article.columns:
                faults.add("KeyNotInArticle", article.table, name)

    def is_sound(self, article, scope):
        """Whether the WHERE of an article is a truth without arithmetic, and its SUBSCRIBE BY a column or a literal."""
        if article.subscribe_by is not None and not isinstance(article.subscribe_by, (tree.Reference, tree.Literal)):
            return False
        if article.where is None:
            return True
        try:
            need_truth(article.where, scope.class_of)
        except WrongClass:
            return False
        return not has_arithmetic(article.where)

    def check_trigger(self, statement, faults):
        """CREATE TRIGGER."""
        if statement.name in self.triggers:
            faults.add("Exists", statement.name)
        triggers.Check(statement, self.tables, faults).run()
        faults.add_past(len(self.triggers) + 1, MOST_TRIGGERS)

    def check_drop(self, statement, faults):
        """DROP of what is no subscription."""
        if statement.name not in self.kind(statement.kind):
            faults.add("Missing", statement.name)
        if statement.kind == "TABLE" and statement.name in self.named_tables():
            faults.add("InUse", statement.name)
        if statement.kind == "PUBLICATION" and statement.name in [publication for publication, _, _ in self.subscriptions]:
            faults.add("InUse", statement.name)

    def named_tables(self):
        """The tables that a publication or a trigger names."""
        names = [article.table for articles in self.publications.values() for article in articles]
        for trigger in self.triggers.values():
            names += triggers.tables_of(trigger)
        return names

    # ---- users and subscriptions

    def check_grant(self, statement, faults):
        """GRANT. There is at most one user above."""
        above = [user for user in self.users.values() if user.above]
        if statement.user in self.users or statement.user == self.publisher or statement.above and above:
            faults.add("Exists", statement.user)
        if statement.address is not None and not re.fullmatch(rb"[A-Za-z_][A-Za-z0-9_]{0,63}", statement.address):
            faults.add("BadType", statement.user)
        faults.add_past(len(self.users) + 1, MOST_USERS)

    def check_option(self, statement, faults):
        """SET OPTION, of which there is one: it is On or Off."""
        value = statement.value.value
        if statement.name != "verify_all_columns":
            faults.add("Missing", statement.name)
        if value is None or value.kind != "VARCHAR" or value.content not in (b"On", b"Off"):
            faults.add("BadType", statement.name)

    def check_users(self, statement, faults):
        """PASSTHROUGH FOR, whose users are below."""
        for user in statement.users:
            if user not in self.users or self.users[user].above:
                faults.add("Missing", user)

    def check_subscription(self, statement, faults):
        """CREATE, START, STOP, SYNCHRONIZE or DROP of a subscription, which is looked for only where its publication and its user are there."""
        if statement.publication not in self.publications:
            faults.add("Missing", statement.publication)
        if statement.user not in self.users:
            faults.add("Missing", statement.user)
        if faults.found:
            return
        started = self.subscriptions.get(subscribed(statement))
        if statement.verb == "CREATE":
            self.check_new_subscription(statement, faults)
        elif started is None or statement.verb in ("STOP", "SYNCHRONIZE") and not started:
            faults.add("Missing", statement.publication)
        elif statement.verb == "SYNCHRONIZE" and self.users[statement.user].above:
            faults.add("Missing", statement.user)
        elif statement.verb == "START" and not started:
            self.check_start(statement, faults)

    def check_new_subscription(self, statement, faults):
        """CREATE SUBSCRIPTION, whose value has the class of each SUBSCRIBE BY."""
        if subscribed(statement) in self.subscriptions:
            faults.add("Exists", statement.publication)
        if statement.value is not None:
            for article in self.publications[statement.publication]:
                if article.subscribe_by is not None:
                    classes = {class_of(part, self.scope(article.table).class_of) for part in (statement.value, article.subscribe_by)}
                    if len(classes - {"any"}) > 1:
                        faults.add("BadType", statement.publication)
        faults.add_past(len(self.subscriptions) + 1, MOST_SUBSCRIPTIONS)

    def check_start(self, statement, faults):
        """START, which puts no table into a second publication of a user."""
        others = [publication for publication, user in self.started() if user == statement.user and publication != statement.publication]
        tables = [article.table for other in others for article in self.publications[other]]
        for article in self.publications[statement.publication]:
            if article.table in tables:
                faults.add("TwiceSubscribed", statement.user, article.table)

    def is_started(self, statement):
        """Whether the subscription of a statement is started."""
        return self.subscriptions[subscribed(statement)]

    def started(self):
        """The publication and the user of each subscription that is started."""
        return [(publication, user) for (publication, _, user), started in self.subscriptions.items() if started]


def subscribed(statement):
    """What a subscription is known by. One without a value and one with the value NULL are two."""
    return statement.publication, statement.value, statement.user
