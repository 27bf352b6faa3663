"""A database, and what a script does on it (docs/SQL.md, "Scripts")."""

import log
import printing
import tree
from catalog import Catalog
from expressions import Refused, given
from grammar import statements_of
from lexing import Unreadable
from rows import Rows
from selecting import selected
from values import CLASSES, printed

ON_ROWS = (tree.Insert, tree.Update, tree.Delete)
# the exit statuses of a script that is refused, and of one that is refused at a limit
REFUSED = 4
LIMIT = 9


class Database:
    """The catalog of a publisher, its rows and its log."""

    def __init__(self, publisher):
        self.catalog = Catalog(publisher)
        self.rows = Rows(self.catalog)
        self.log = log.Log()

    def copy(self):
        """Another database of the same."""
        other = Database(self.catalog.publisher)
        other.catalog = self.catalog.copy()
        other.rows = self.rows.copy(other.catalog)
        other.log = log.Log(self.log.bodies)
        return other

    def run(self, script):
        """What the bytes of a script print, and the exit status."""
        try:
            statements = statements_of(script)
        except Unreadable as refused:
            return f"script refused at byte {refused.place}\n", REFUSED
        run = Run(self)
        status = run.whole(statements)
        return "".join(f"{line}\n" for line in run.lines), status

    def change(self, statement):
        """Does a statement that changes the catalog."""
        self.catalog.change(statement)
        self.rows.follow()

    def view(self, user, table):
        """What a user sees of a table's rows, by ascending key: the columns of the article in its order."""
        seen = [
            (value, article)
            for (publication, value, subscriber), started in self.catalog.subscriptions.items()
            for article in self.catalog.publications[publication]
            if started and subscriber == user and article.table == table
        ]
        scope = self.catalog.scope(table)
        rows = []
        for _, row in self.rows.ascending(table):
            for value, article in seen:
                if is_seen(article, value, scope.over(row)):
                    rows.append(tuple(row[scope.names.index(name)] for name in article.columns))
                    break
        return rows


def is_seen(article, value, value_of_reference):
    """Whether a subscription with a value has a row: where its WHERE is true, and its SUBSCRIBE BY is the value. NULL is no value."""
    if article.where is not None and given(article.where, value_of_reference) is not True:
        return False
    if article.subscribe_by is None:
        return True
    found = given(article.subscribe_by, value_of_reference)
    if found is None or value is None or value.value is None:
        return False
    return (CLASSES[found.kind], found.content) == (CLASSES[value.value.kind], value.value.content)


class Run:
    """A run of one script: the lines that it prints, the changes of the open transaction, and the users of a passthrough region, if one is open."""

    def __init__(self, database):
        self.database = database
        self.lines = []
        self.open = []
        self.users = None
        self.only = False

    def whole(self, statements):
        """Runs statements up to the first that is refused, and answers the status. What is open at the end is rolled back."""
        for place, statement in enumerate(statements):
            try:
                self.statement(statement)
            except Refused as refused:
                self.roll_back()
                self.lines.append(f"statement {place + 1} refused: {refused.line}")
                return LIMIT if refused.fault == "TooMany" else REFUSED
        if self.open:
            self.roll_back()
            self.lines.append("rolled back")
        return 0

    def statement(self, statement):
        """Runs one statement."""
        if isinstance(statement, tree.Commit):
            if not self.flush():
                self.lines.append("nothing to commit")
        elif isinstance(statement, tree.Rollback):
            self.roll_back()
            self.lines.append("rolled back")
        elif isinstance(statement, tree.Select):
            rows = selected(self.database.rows, statement)
            self.lines += ["|".join(printed(value) for value in row) for row in rows]
            self.lines.append(f"{len(rows)} rows")
        elif isinstance(statement, tree.PassthroughStop):
            self.flush()
            self.users = None
            self.lines.append("passthrough off")
        elif isinstance(statement, tree.PassthroughFor):
            self.flush()
            self.database.catalog.check(statement)
            self.users, self.only = list(dict.fromkeys(statement.users)), statement.only
            self.lines.append("passthrough on")
        elif self.users is not None:
            self.pass_on(statement)
        elif isinstance(statement, ON_ROWS):
            self.on_rows(statement)
        else:
            self.on_catalog(statement)

    def commit(self, body):
        """Commits an entry."""
        self.lines.append(f"committed {self.database.log.commit(body)}")

    def flush(self):
        """Commits the open transaction, and answers whether it had changes."""
        if not self.open:
            return False
        self.commit(log.own(self.open))
        self.open = []
        return True

    def roll_back(self):
        """Takes the changes of the open transaction back."""
        self.database.rows.undo(self.open)
        self.open = []

    def on_rows(self, statement):
        """INSERT, UPDATE and DELETE outside a region."""
        changes, count = self.database.rows.outcome(statement)
        self.database.rows.apply(changes)
        self.open += changes
        self.lines.append(f"{count} rows")

    def on_catalog(self, statement):
        """CREATE, DROP, GRANT, SET OPTION, START, STOP and SYNCHRONIZE outside a region. The open transaction is committed before, also where they are refused."""
        self.flush()
        catalog = self.database.catalog
        catalog.check(statement)
        if isinstance(statement, tree.Subscription) and statement.verb == "SYNCHRONIZE":
            tables = [article.table for article in catalog.publications[statement.publication]]
            self.commit(log.view(statement.user, [(table, self.database.view(statement.user, table)) for table in tables]))
        elif isinstance(statement, tree.Subscription) and statement.verb == "START" and catalog.is_started(statement):
            self.lines.append("nothing to commit")
        else:
            self.database.change(statement)
            self.commit(log.statement(printing.statement(statement)))

    def pass_on(self, statement):
        """A statement in a region. With ONLY it neither runs nor is checked here."""
        self.need_carried(statement)
        changes = []
        if not self.only and isinstance(statement, ON_ROWS):
            changes, _ = self.database.rows.outcome(statement)
            self.database.rows.apply(changes)
        elif not self.only:
            self.database.catalog.check(statement)
            self.database.change(statement)
        self.commit(log.passed(self.users, self.only, printing.statement(statement), changes))

    def need_carried(self, statement):
        """GRANT, SET OPTION and SYNCHRONIZE are not carried: they are refused by what is there already or is missing, without ONLY, and else by their first name."""
        if isinstance(statement, tree.Grant):
            first = statement.user
        elif isinstance(statement, tree.SetOption):
            first = statement.name
        elif isinstance(statement, tree.Subscription) and statement.verb == "SYNCHRONIZE":
            first = statement.publication
        else:
            return
        self.flush()
        try:
            if not self.only:
                self.database.catalog.check(statement)
        except Refused as refused:
            if refused.fault in ("Exists", "Missing"):
                raise
        raise Refused("BadType", first)
