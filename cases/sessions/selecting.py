"""The rows and the refusals of a SELECT (docs/SQL.md, "SELECT"): the filter of all combinations, whatever way the program takes to them."""

from expressions import Refused, WrongClass, given, need_truth, need_value, references
from values import CLASSES, Overflow, Value, order_of, reckoned


class Selection:
    """One SELECT over the rows of a database."""

    def __init__(self, rows, statement):
        self.rows = rows
        self.statement = statement
        for source in statement.sources:
            if source.table not in rows.tables:
                raise Refused("NoTable", source.table)
        self.scope = [(source.alias, column) for source in statement.sources for column in rows.catalog.tables[source.table].columns]
        self.tests = list(statement.conditions)
        if statement.where is not None:
            self.tests.append(statement.where)

    def answer(self):
        """The rows that are printed."""
        self.check_names()
        try:
            self.check_classes()
        except WrongClass:
            self.refuse()
        try:
            kept = self.ordered([combination for combination in self.combinations() if self.is_kept(combination)])
            if self.statement.items is None:
                return kept
            if self.has_aggregates():
                return [tuple(self.aggregated(item, kept) for item in self.statement.items)]
            return [tuple(given(item.expression, self.over(combination)) for item in self.statement.items) for combination in kept]
        except Overflow:
            raise Refused("Overflow") from None

    def refuse(self):
        """Refuses what is no missing table or column. The line has the first table, not its alias."""
        raise Refused("BadValue", self.statement.sources[0].table)

    def has_aggregates(self):
        """Whether an item is an aggregate."""
        return any(item.aggregate for item in self.statement.items or [])

    # ---- the refusals

    def places(self, reference):
        """The places of a combination that a name may mean."""
        return [place for place, (alias, column) in enumerate(self.scope) if column.name == reference.name and reference.alias in (None, alias)]

    def names(self):
        """The names in the statement, from left to right."""
        expressions = [item.expression for item in self.statement.items or [] if item.expression is not None]
        expressions += self.tests + [reference for reference, _ in self.statement.order]
        return [reference for expression in expressions for reference in references(expression)]

    def check_names(self):
        """Each name is there; no two sources have one alias; each name means one column."""
        for reference in self.names():
            if not self.places(reference):
                raise Refused("NoColumn", reference.name)
        aliases = [source.alias for source in self.statement.sources]
        if len(set(aliases)) < len(aliases):
            self.refuse()
        if any(len(self.places(reference)) > 1 for reference in self.names()):
            self.refuse()

    def check_classes(self):
        """Items are values, conditions truths, and a SUM is of numbers. Aggregates stand alone, and not beside a JOIN."""
        items = self.statement.items or []
        if self.has_aggregates() and (len(self.statement.sources) > 1 or not all(item.aggregate for item in items)):
            raise WrongClass
        for item in items:
            if item.expression is not None:
                found = need_value(item.expression, self.class_of_reference)
                if item.aggregate == "SUM" and found not in ("number", "any"):
                    raise WrongClass
        for test in self.tests:
            need_truth(test, self.class_of_reference)

    def class_of_reference(self, reference):
        """The class of a column."""
        return CLASSES[self.scope[self.places(reference)[0]][1].type.kind]

    # ---- the rows

    def over(self, combination):
        """What gives the values of names over a combination."""
        return lambda reference: combination[self.places(reference)[0]]

    def combinations(self):
        """The rows of each source behind each combination of those before, by their keys."""
        found = [()]
        for source in self.statement.sources:
            rows = [row for _, row in self.rows.ascending(source.table)]
            found = [combination + row for combination in found for row in rows]
        return found

    def is_kept(self, combination):
        """Whether all conditions are true. Those behind one that is not are not tested."""
        return all(given(test, self.over(combination)) is True for test in self.tests)

    def ordered(self, kept):
        """The combinations in the order of the statement. Equal ones stay as they stand, also where the order goes down."""
        for reference, descending in reversed(self.statement.order):
            place = self.places(reference)[0]
            kept.sort(key=lambda combination, place=place: order_of(combination[place]), reverse=descending)
        return kept

    def aggregated(self, item, kept):
        """The value of an aggregate over the combinations that are kept."""
        if item.aggregate == "COUNT":
            return Value("BIGINT", len(kept))
        values = [given(item.expression, self.over(combination)) for combination in kept]
        values = [value for value in values if value is not None]
        if not values:
            return None
        if item.aggregate == "SUM":
            return reckoned("BIGINT", sum(value.content for value in values))
        return min(values, key=order_of) if item.aggregate == "MIN" else max(values, key=order_of)


def selected(rows, statement):
    """The rows of a SELECT."""
    return Selection(rows, statement).answer()
