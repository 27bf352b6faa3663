"""Draws values, expressions and conditions."""

import random

import values
from expressions import Binary, IsNull, Literal, Negative, Not, Reference

TEXTS = ["A", "B", "C", "", "x", "ABCD", "ABCDE", "ä", "it's", "12345678", "123456789", "2024-02-29", "2023-02-29", "zzzzzzzzzzzzzzz"]
TEXTS += ["a'b", "a\nb", "\0", "--x", "a;b", "'", "''", "\t", "$1", "\u2028", "\U0001f600", "NULL", "A ", " A", "a"]
NUMBERS = [0, 1, 2, 3, 5, 7, -1, -5, 2147483647, -2147483648, 2147483648, 100000, 9223372036854775807, 46341]
DAYS = ["2024-02-29", "1970-01-01", "0001-01-01", "9999-12-31", "2000-01-01"]
COMPARISONS = ["=", "<>", "<", "<=", ">", ">="]
PARTITIONS = "ABC"


class Drawing:
    """Everything is drawn from one seed. A scope is a list of references, each with its class."""

    def __init__(self, seed):
        self.random = random.Random(seed)

    def chance(self, share):
        """Whether something that comes in this share of the cases comes now."""
        return self.random.random() < share

    def choice(self, things):
        """One of some things."""
        return self.random.choice(things)

    def below(self, limit):
        """A number from 0 on that is below a limit."""
        return self.random.randrange(limit)

    def shuffled(self, things):
        """The same things in another order."""
        return self.random.sample(things, len(things))

    def some(self, things, counts):
        """As many different things as one of these counts says, or all."""
        return self.random.sample(things, min(len(things), self.choice(counts)))

    # ---- values

    def number(self):
        """A number: one at the end of a type now and then."""
        return values.number(self.choice(NUMBERS) if self.chance(0.35) else self.below(8))

    def text(self):
        """A text: that of a partition in half of the cases."""
        return values.text(self.choice(TEXTS) if self.chance(0.5) else self.choice(PARTITIONS))

    def date(self):
        """A date."""
        return values.date(self.choice(DAYS))

    def partition(self):
        """The text of a partition."""
        return values.text(self.choice(PARTITIONS))

    def value(self, kind):
        """A value of a class."""
        return {values.NUMBER: self.number, values.TEXT: self.text, values.DATE: self.date}[kind]()

    def assigned(self, kind):
        """A value for a column of a class: NULL now and then, and for a date also a text that spells one."""
        if self.chance(0.1):
            return None
        if kind == values.DATE and self.chance(0.4):
            return values.text(self.choice(DAYS))
        return self.value(kind)

    # ---- expressions

    def expression(self, kind, scope, depth):
        """An expression of a class over a scope."""
        fitting = [reference for reference, found in scope if found == kind]
        if fitting and self.chance(0.5):
            return self.choice(fitting)
        if kind == values.NUMBER and depth and self.chance(0.5):
            if self.chance(0.15):
                return Negative(self.choice(fitting)) if fitting else Literal(self.number())
            return Binary(self.choice("+-*"), self.expression(kind, scope, depth - 1), self.expression(kind, scope, depth - 1))
        return Literal(None if self.chance(0.08) else self.value(kind))

    def condition(self, scope, depth, has_arithmetic=True):
        """A condition over a scope."""
        share = self.random.random()
        if depth and share < 0.2:
            left = self.condition(scope, depth - 1, has_arithmetic)
            return Binary(self.choice(["AND", "OR"]), left, self.condition(scope, depth - 1, has_arithmetic))
        if depth and share < 0.3:
            return Not(self.condition(scope, depth - 1, has_arithmetic))
        if share < 0.42:
            return IsNull(self.choice(scope)[0], self.chance(0.5))
        kind = self.choice(scope)[1]
        sides = [self.expression(kind, scope, int(has_arithmetic)) for _ in range(2)]
        return Binary(self.choice(COMPARISONS), *sides)


def scope_of(table, alias=None):
    """The columns of a table as a scope, behind an alias where one is given."""
    classes = table.classes()
    return [(Reference(alias, name), classes[name]) for name in table.names()]
