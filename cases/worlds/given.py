"""What an entry of a log gives each partner ("What a log gives" of docs/REPLICATION.md)."""

import logs
from operations import Clear, Conflict, Exec, Insert, Plain, Remove, Set
from views import seen


def insert(table, shown):
    """The Insert of a row that came into a view."""
    return Insert(table, [column for column in shown if column[1] is not None])


def of_change(catalog, user, change):
    """What a change gives a user: the operation that brings his view of its key from the row before to the row behind; None where both are one. To the user
    above an update names all columns outside the key where they are to be verified, else, and to a user below, those that differ."""
    name, before, behind = change
    table = catalog.tables.get(name)
    shown_before = seen(catalog, user, name, before)
    shown_behind = seen(catalog, user, name, behind)
    if table is None or shown_before == shown_behind:
        return None
    if shown_before is None:
        return insert(name, shown_behind)
    if shown_behind is None:
        return Remove(name, table.named_key(before))
    pairs = [(column, old, new) for (column, old), (_, new) in zip(shown_before, shown_behind)]
    if catalog.verifies and catalog.users[user]:
        pairs = [pair for pair in pairs if pair[0] not in table.key_names()]
    else:
        pairs = [pair for pair in pairs if pair[1] != pair[2]]
    return Set(name, table.named_key(before), pairs)


def to_sender(catalog, user, conflict):
    """What a conflict gives him who sent the update: the inserted rows that he sees, and his whole row as it now is."""
    table = catalog.tables[conflict.table]
    for name, _, row in conflict.inserted:
        shown = seen(catalog, user, name, row)
        if shown:
            yield insert(name, shown)
    shown = seen(catalog, user, table.name, conflict.behind)
    if shown is None:
        yield Remove(table.name, table.named_key(conflict.before))
        return
    before = dict(zip(table.names(), conflict.before))
    pairs = [(column, before[column], new) for column, new in shown if column not in table.key_names()]
    if pairs:
        yield Set(table.name, table.named_key(conflict.before), pairs)


class Giving:
    """Collects what an entry gives each user of a catalog."""

    def __init__(self, catalog):
        self.catalog = catalog
        self.operations = {user: [] for user in catalog.users}

    def give_changes(self, changes, without=()):
        """Gives changes to each user but some."""
        for change in changes:
            for user, operations in self.operations.items():
                operation = None if user in without else of_change(self.catalog, user, change)
                if operation is not None:
                    operations.append(operation)

    def give_view(self, user, tables):
        """Gives a user the view that was recorded for him."""
        for name, rows in tables:
            articles = [self.catalog.article(found.publication, name) for found in self.catalog.started_of(user)]
            columns = next(article for article in articles if article).columns
            self.operations[user].append(Clear(name))
            self.operations[user] += [insert(name, list(zip(columns, row))) for row in rows]

    def give_taken(self, entry):
        """Gives what was taken from a user to the others, and to himself what became of his conflicts. The catalog goes on with each statement."""
        for _, outcome, catalog in entry.judged:
            if isinstance(outcome, Plain):
                self.give_changes(outcome.changes, (entry.partner,))
                self.catalog = catalog or self.catalog
            elif isinstance(outcome, Conflict):
                self.give_changes(outcome.changes(), (entry.partner,))
                self.operations[entry.partner] += to_sender(self.catalog, entry.partner, outcome)


def given(catalog, entry):
    """The operations that an entry gives each user of the catalog before it."""
    giving = Giving(catalog)
    if isinstance(entry, logs.Own):
        giving.give_changes(entry.changes)
    elif isinstance(entry, logs.Taken):
        giving.give_taken(entry)
    elif isinstance(entry, logs.Synchronized):
        giving.give_view(entry.partner, entry.tables)
    elif isinstance(entry, logs.Passed):
        for user in entry.users:
            giving.operations[user].append(Exec(entry.text))
        giving.give_changes(entry.changes, entry.users)
    return giving.operations
