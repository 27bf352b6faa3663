"""What a script of SQL does with a database: its lines and its status (docs/SQL.md)."""

import logs
from faults import Refused, missing, wrong_type
from rows import execute
from statements import COMMIT, PASSTHROUGH_STOP, ROLLBACK, VERIFY, Grant, Passthrough, SetOption, Subscription, is_carried, is_on_catalog, print_statement
from views import seen

DONE = 0
REFUSED = 4


def first_name(statement):
    """The name by which a statement is refused that is not carried."""
    if isinstance(statement, SetOption):
        return VERIFY
    return statement.publication if isinstance(statement, Subscription) else statement.name


class Session:
    """One script: the changes that are not committed yet, the rows with them, and the region of passthrough that is open."""

    def __init__(self, database):
        self.database = database
        self.lines = []
        self.pending = []
        self.work = None
        self.region = None

    def run(self, script):
        """Runs statements up to the first that is refused; answers the lines and the status."""
        for place, statement in enumerate(script, 1):
            self.database.known[print_statement(statement)] = statement
            try:
                self.statement(statement)
            except Refused as refused:
                self.lines.append(f"statement {place} refused: {refused}")
                return self.lines, REFUSED
        if self.pending:
            self.lines.append("rolled back")
        return self.lines, DONE

    def statement(self, statement):
        """Runs one statement."""
        synchronizes = isinstance(statement, Subscription) and statement.verb == "SYNCHRONIZE"
        if isinstance(statement, Passthrough):
            self.open_region(statement)
        elif statement == PASSTHROUGH_STOP:
            self.flush()
            self.region = None
            self.lines.append("passthrough off")
        elif statement == COMMIT:
            if not self.pending:
                self.lines.append("nothing to commit")
            self.flush()
        elif statement == ROLLBACK:
            self.pending = []
            self.work = None
            self.lines.append("rolled back")
        elif self.region and is_carried(statement):
            self.pass_on(statement)
        elif self.region and (synchronizes or isinstance(statement, (Grant, SetOption))):
            if not self.region.only:
                self.database.catalog.changed(statement)
            wrong_type(first_name(statement))
        elif synchronizes:
            self.synchronize(statement)
        elif is_on_catalog(statement):
            self.on_catalog(statement)
        else:
            self.on_rows(statement)

    def commit(self, entry):
        """Commits an entry, and tells its offset."""
        self.lines.append(f"committed {self.database.commit(entry)}")

    def flush(self):
        """Commits the pending changes, where there are any."""
        if self.pending:
            self.commit(logs.Own(self.pending))
        self.pending = []
        self.work = None

    def open_region(self, statement):
        """PASSTHROUGH: each user is one below. One who is named twice counts once."""
        self.flush()
        self.region = None
        for user in statement.users:
            if self.database.catalog.users.get(user, True):
                missing(user)
        self.region = statement._replace(users=list(dict.fromkeys(statement.users)))
        self.lines.append("passthrough on")

    def pass_on(self, statement):
        """A statement that is passed on; without ONLY it is to be right here as well, and runs here."""
        changes = []
        if not self.region.only:
            if is_on_catalog(statement):
                self.database.catalog.changed(statement)
            else:
                changes, _ = execute(self.database.catalog, self.database.rows, statement)
        self.commit(logs.Passed(self.region.users, self.region.only, print_statement(statement), changes))

    def synchronize(self, statement):
        """SYNCHRONIZE: records what the user sees of each table of the publication, by ascending key."""
        self.flush()
        catalog = self.database.catalog
        catalog.changed(statement)
        tables = []
        for article in catalog.publications[statement.publication]:
            shown = [seen(catalog, statement.user, article.table, row) for _, row in self.database.rows.items(article.table)]
            tables.append((article.table, [[value for _, value in columns] for columns in shown if columns]))
        self.commit(logs.Synchronized(statement.user, tables))

    def on_catalog(self, statement):
        """A statement on the catalog is a transaction of its own; a subscription that is started stays so."""
        self.flush()
        catalog = self.database.catalog
        catalog.changed(statement)
        if isinstance(statement, Subscription) and statement.verb == "START" and catalog.is_started(statement):
            self.lines.append("nothing to commit")
        else:
            self.commit(logs.OnCatalog(print_statement(statement)))

    def on_rows(self, statement):
        """A statement on rows joins the pending changes."""
        changes, count = execute(self.database.catalog, self.work or self.database.rows, statement)
        self.work = self.work or self.database.rows.copy()
        self.work.apply(self.database.catalog, changes)
        self.pending += changes
        self.lines.append(f"{count} rows")
