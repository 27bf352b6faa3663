"""Expressions: how they print, of which class they are, and what they come to (docs/SQL.md)."""

from typing import NamedTuple

import values

# a truth is True, False or this
UNKNOWN = "unknown"
ARITHMETIC = ("+", "-", "*")
CONNECTIVES = ("AND", "OR")


class Literal(NamedTuple):
    """A value as it is written."""

    value: tuple


class Reference(NamedTuple):
    """A column, behind the name that a trigger has for its row where there is one; or a variable of a trigger."""

    alias: str
    name: str


class Binary(NamedTuple):
    """Arithmetic, a comparison, AND or OR."""

    operator: str
    left: tuple
    right: tuple


class Not(NamedTuple):
    """NOT of a condition."""

    inner: tuple


class Negative(NamedTuple):
    """The negative of a number."""

    inner: tuple


class IsNull(NamedTuple):
    """IS NULL, or IS NOT NULL where it is denied."""

    inner: tuple
    denied: bool


class Overflow(Exception):
    """A number that is past the end of its type."""


class WrongClass(Exception):
    """An expression that stands where none of its class may."""


def parts(expression):
    """The expressions that an expression is made of."""
    if isinstance(expression, Binary):
        return (expression.left, expression.right)
    return (expression.inner,) if isinstance(expression, (Not, Negative, IsNull)) else ()


def references(expression):
    """The columns and variables of an expression, from left to right."""
    if isinstance(expression, Reference):
        yield expression
    for part in parts(expression):
        yield from references(part)


def has_arithmetic(expression):
    """Whether something is reckoned in an expression."""
    reckons = isinstance(expression, Negative) or isinstance(expression, Binary) and expression.operator in ARITHMETIC
    return reckons or any(has_arithmetic(part) for part in parts(expression))


# ---- printing


def operand(expression):
    """An expression within another one: in parentheses, but for a literal or a column."""
    plain = printed(expression)
    return plain if isinstance(expression, (Literal, Reference)) else f"({plain})"


def printed(expression):
    """An expression in its normal form."""
    if isinstance(expression, Literal):
        return values.literal(expression.value)
    if isinstance(expression, Reference):
        return f"{expression.alias}.{expression.name}" if expression.alias else expression.name
    if isinstance(expression, Binary):
        return f"{operand(expression.left)} {expression.operator} {operand(expression.right)}"
    if isinstance(expression, Not):
        return "NOT " + operand(expression.inner)
    if isinstance(expression, Negative):
        return f"-({printed(expression.inner)})"
    return operand(expression.inner) + (" IS NOT NULL" if expression.denied else " IS NULL")


# ---- classes


def demand(found, wanted):
    """Refuses a class that is neither the wanted one nor any."""
    if found not in (values.ANY, wanted):
        raise WrongClass


def class_of(expression, class_of_reference):
    """The class of an expression; `class_of_reference` knows that of a column."""
    if isinstance(expression, Literal):
        return values.class_of(expression.value)
    if isinstance(expression, Reference):
        return class_of_reference(expression)
    classes = [class_of(part, class_of_reference) for part in parts(expression)]
    if isinstance(expression, IsNull):
        if classes[0] == values.TRUTH:
            raise WrongClass
        return values.TRUTH
    if isinstance(expression, Negative) or isinstance(expression, Binary) and expression.operator in ARITHMETIC:
        for found in classes:
            demand(found, values.NUMBER)
        return values.NUMBER
    if isinstance(expression, Not) or expression.operator in CONNECTIVES:
        for found in classes:
            demand(found, values.TRUTH)
        return values.TRUTH
    left, right = classes
    if values.TRUTH in classes or values.ANY not in classes and left != right:
        raise WrongClass
    return values.TRUTH


# ---- evaluation


def truth(value):
    """What a value is as a condition: NULL is unknown."""
    return UNKNOWN if value is None else value


def reckoned(type_name, content):
    """A number that was reckoned in a type."""
    if not values.in_range(type_name, content):
        raise Overflow
    return (type_name, content)


def arithmetic(operator, left, right):
    """Sum, difference or product: an INTEGER where both are, else a BIGINT."""
    if left is None or right is None:
        return None
    content = {"+": left[1] + right[1], "-": left[1] - right[1], "*": left[1] * right[1]}[operator]
    return reckoned("INTEGER" if left[0] == right[0] == "INTEGER" else "BIGINT", content)


def connected(operator, left, right):
    """AND and OR of three truths: what decides AND is a False, what decides OR a True."""
    deciding = operator == "OR"
    if deciding in (left, right):
        return deciding
    return UNKNOWN if UNKNOWN in (left, right) else not deciding


def compared(operator, left, right):
    """A comparison, unknown where a side is NULL."""
    sign = values.compare(left, right)
    if sign is None:
        return UNKNOWN
    return {"=": sign == 0, "<>": sign != 0, "<": sign < 0, "<=": sign <= 0, ">": sign > 0, ">=": sign >= 0}[operator]


def evaluate(expression, value_of_reference):
    """The value of an expression, or its truth; `value_of_reference` knows that of a column."""
    if isinstance(expression, Literal):
        return expression.value
    if isinstance(expression, Reference):
        return value_of_reference(expression)
    found = [evaluate(part, value_of_reference) for part in parts(expression)]
    if isinstance(expression, IsNull):
        return (found[0] is None) != expression.denied
    if isinstance(expression, Negative):
        return None if found[0] is None else reckoned(found[0][0], -found[0][1])
    if isinstance(expression, Not):
        inner = truth(found[0])
        return UNKNOWN if inner == UNKNOWN else not inner
    if expression.operator in ARITHMETIC:
        return arithmetic(expression.operator, *found)
    if expression.operator in CONNECTIVES:
        return connected(expression.operator, truth(found[0]), truth(found[1]))
    return compared(expression.operator, *found)


def holds(expression, value_of_reference):
    """Whether a condition is true, which is neither false nor unknown."""
    return truth(evaluate(expression, value_of_reference)) is True
