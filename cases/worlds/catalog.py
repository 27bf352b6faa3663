"""The catalog of a database: what each statement changes in it, and by what fault it is refused (docs/SQL.md).

A changed catalog is a new one, so that a statement which is refused leaves the old one as it is.
"""

from typing import NamedTuple

import statements
import triggers
import values
from expressions import Literal, WrongClass, class_of, has_arithmetic, references
from faults import Refused, exists, in_use, missing, wrong_type
from values import Table


class Subscribed(NamedTuple):
    """A subscription."""

    publication: str
    value: tuple
    user: str
    started: bool


class Catalog:
    """Tables, publications with their articles, triggers, users (whether each is the one above), and subscriptions, in order of their creation; and whether all
    columns are verified."""

    def __init__(self, publisher):
        self.publisher = publisher
        self.tables = {}
        self.publications = {}
        self.triggers = {}
        self.users = {}
        self.subscriptions = []
        self.verifies = False

    def copy(self):
        """One of the same contents, which may be changed."""
        other = Catalog(self.publisher)
        other.tables = dict(self.tables)
        other.publications = dict(self.publications)
        other.triggers = dict(self.triggers)
        other.users = dict(self.users)
        other.subscriptions = list(self.subscriptions)
        other.verifies = self.verifies
        return other

    def script(self):
        """The statements that make it of a new one ("The statements of a catalog")."""
        script = [statements.Grant(is_above, user) for user, is_above in self.users.items()]
        script += [statements.CreateTable(table.name, table.columns, table.key_names()) for table in self.tables.values()]
        script += [statements.CreatePublication(name, articles) for name, articles in self.publications.items()]
        script += self.triggers.values()
        script += [statements.Subscription("CREATE", *found[:3]) for found in self.subscriptions]
        script += [statements.Subscription("START", *found[:3]) for found in self.subscriptions if found.started]
        return script + [statements.SetOption(True)] * self.verifies

    def subscription(self, statement):
        """The place of the subscription that a statement names, or None."""
        wanted = (statement.publication, statement.value, statement.user)
        for place, found in enumerate(self.subscriptions):
            if found[:3] == wanted:
                return place
        return None

    def is_started(self, statement):
        """Whether the subscription that a statement names is there and started."""
        place = self.subscription(statement)
        return place is not None and self.subscriptions[place].started

    def started_of(self, user):
        """The started subscriptions of a user."""
        return [found for found in self.subscriptions if found.started and found.user == user]

    def article(self, publication, table):
        """The article of a table that a publication has, or None."""
        for found in self.publications[publication]:
            if found.table == table:
                return found
        return None

    def class_behind_by(self, article):
        """The class of what stands behind SUBSCRIBE BY."""
        if isinstance(article.by, Literal):
            return values.class_of(article.by.value)
        return self.tables[article.table].classes()[article.by.name]

    def changed(self, statement):
        """The catalog behind a statement."""
        other = self.copy()
        CHANGES[type(statement)](other, statement)
        return other


# Each of these changes the catalog that it is given, which is a copy, or refuses the statement.


def create_table(catalog, statement):
    """CREATE TABLE."""
    if statement.name in catalog.tables:
        exists(statement.name)
    names = [column.name for column in statement.columns]
    catalog.tables[statement.name] = Table(statement.name, statement.columns, [names.index(name) for name in statement.key])


def drop_table(catalog, statement):
    """DROP TABLE, of which no publication and no trigger may speak."""
    if statement.name not in catalog.tables:
        missing(statement.name)
    if any(catalog.article(publication, statement.name) for publication in catalog.publications):
        in_use(statement.name)
    for trigger in catalog.triggers.values():
        added = [action.table for action in statements.all_actions(trigger.actions) if isinstance(action, statements.Add)]
        if statement.name in (trigger.table, *added):
            in_use(statement.name)
    del catalog.tables[statement.name]


def check_names_of_article(catalog, article):
    """Each table and column that an article names is there."""
    if article.table not in catalog.tables:
        missing(article.table)
    names = catalog.tables[article.table].names()
    named = list(article.columns or [])
    for expression in (article.where, article.by):
        if expression:
            named += [reference.name for reference in references(expression)]
    for name in named:
        if name not in names:
            missing(name)


def check_condition_of_article(catalog, article):
    """WHERE of an article is a condition without arithmetic."""
    classes = catalog.tables[article.table].classes()
    if has_arithmetic(article.where):
        wrong_type(article.table)
    try:
        found = class_of(article.where, lambda reference: classes[reference.name])
    except WrongClass:
        wrong_type(article.table)
    if found not in (values.ANY, values.TRUTH):
        wrong_type(article.table)


def create_publication(catalog, statement):
    """CREATE PUBLICATION: first the names of all articles, then their conditions, then that each has its key."""
    if statement.name in catalog.publications:
        exists(statement.name)
    tables = [article.table for article in statement.articles]
    for place, table in enumerate(tables):
        if table in tables[:place]:
            exists(table)
    for article in statement.articles:
        check_names_of_article(catalog, article)
    for article in statement.articles:
        if article.where:
            check_condition_of_article(catalog, article)
    articles = []
    for article in statement.articles:
        table = catalog.tables[article.table]
        columns = list(article.columns or table.names())
        for name in table.key_names():
            if name not in columns:
                raise Refused(f"KeyNotInArticle {article.table} {name}")
        articles.append(article._replace(columns=columns))
    catalog.publications[statement.name] = articles


def drop_publication(catalog, statement):
    """DROP PUBLICATION, of which there may be no subscription."""
    if statement.name not in catalog.publications:
        missing(statement.name)
    if any(found.publication == statement.name for found in catalog.subscriptions):
        in_use(statement.name)
    del catalog.publications[statement.name]


def grant(catalog, statement):
    """GRANT: one database above at most."""
    if statement.name == catalog.publisher or statement.name in catalog.users or (statement.above and True in catalog.users.values()):
        exists(statement.name)
    catalog.users[statement.name] = statement.above


def check_subscription(catalog, statement):
    """Publication, user and subscription that a statement names are there. A view is recorded for users below alone."""
    has_both = statement.publication in catalog.publications and statement.user in catalog.users
    if statement.verb == "CREATE" and has_both and catalog.subscription(statement) is not None:
        exists(statement.publication)
    if statement.publication not in catalog.publications:
        missing(statement.publication)
    if statement.verb == "SYNCHRONIZE" and catalog.users.get(statement.user):
        missing(statement.user if catalog.is_started(statement) else statement.publication)
    if statement.user not in catalog.users:
        missing(statement.user)
    if statement.verb != "CREATE" and catalog.subscription(statement) is None:
        missing(statement.publication)
    if statement.verb in ("STOP", "SYNCHRONIZE") and not catalog.is_started(statement):
        missing(statement.publication)


def check_value(catalog, statement):
    """The value of a new subscription is of the class of each SUBSCRIBE BY."""
    for article in catalog.publications[statement.publication]:
        if article.by and statement.value:
            classes = {catalog.class_behind_by(article), values.class_of(statement.value.value)}
            if values.ANY not in classes and len(classes) > 1:
                wrong_type(statement.publication)


def check_twice(catalog, statement):
    """A user has each table by one publication."""
    for article in catalog.publications[statement.publication]:
        for found in catalog.started_of(statement.user):
            if found.publication != statement.publication and catalog.article(found.publication, article.table):
                raise Refused(f"TwiceSubscribed {statement.user} {article.table}")


def subscription(catalog, statement):
    """A statement on a subscription. SYNCHRONIZE changes nothing in the catalog."""
    check_subscription(catalog, statement)
    place = catalog.subscription(statement)
    if statement.verb == "CREATE":
        check_value(catalog, statement)
        catalog.subscriptions.append(Subscribed(statement.publication, statement.value, statement.user, False))
    elif statement.verb == "DROP":
        del catalog.subscriptions[place]
    elif statement.verb in ("START", "STOP"):
        if statement.verb == "START":
            check_twice(catalog, statement)
        catalog.subscriptions[place] = catalog.subscriptions[place]._replace(started=statement.verb == "START")


def set_option(catalog, statement):
    """SET OPTION verify_all_columns."""
    catalog.verifies = statement.is_on


def create_trigger(catalog, statement):
    """CREATE TRIGGER."""
    triggers.check(catalog, statement)
    catalog.triggers[statement.name] = statement


def drop_trigger(catalog, statement):
    """DROP TRIGGER."""
    if statement.name not in catalog.triggers:
        missing(statement.name)
    del catalog.triggers[statement.name]


CHANGES = {
    statements.CreateTable: create_table,
    statements.DropTable: drop_table,
    statements.CreatePublication: create_publication,
    statements.DropPublication: drop_publication,
    statements.Grant: grant,
    statements.Subscription: subscription,
    statements.SetOption: set_option,
    statements.CreateTrigger: create_trigger,
    statements.DropTrigger: drop_trigger,
}
