"""What a user sees of a row ("Views" of docs/REPLICATION.md)."""

import values
from expressions import evaluate, holds


def goes_to(subscription, article, value_of_reference):
    """Whether SUBSCRIBE BY of an article gives a row to a subscription."""
    if article.by is None:
        return True
    if subscription.value is None:
        return False
    return values.compare(evaluate(article.by, value_of_reference), subscription.value.value) == 0


def seen(catalog, user, table_name, row):
    """The columns of the user's article and their values in a row; None where he does not see it, or there is no row."""
    table = catalog.tables.get(table_name)
    if table is None or row is None:
        return None
    held = dict(zip(table.names(), row))

    def value_of_reference(reference):
        return held[reference.name]

    for subscription in catalog.started_of(user):
        article = catalog.article(subscription.publication, table_name)
        if article is None or article.where and not holds(article.where, value_of_reference):
            continue
        if goes_to(subscription, article, value_of_reference):
            return [(name, held[name]) for name in article.columns]
    return None
