"""What expressions are: their classes, the names in them, and what they give over a row (docs/SQL.md, "Classes" and "The meaning of an expression").

A truth is True, False, or None where it is unknown; a value is NULL, which is None too, or a Value."""

import tree
from values import CLASSES, reckoned

ARITHMETIC = ("+", "-", "*")


class WrongClass(Exception):
    """An expression, or a part of it, has a class that cannot stand there."""


class Refused(Exception):
    """A statement is refused: the name of the fault, and what stands behind it in the line."""

    def __init__(self, fault, *values):
        super().__init__(fault, *values)
        self.fault = fault
        self.line = " ".join((fault, *values))


class TableScope:
    """The columns of one table, which a name means alone or behind the table's name."""

    def __init__(self, table, columns):
        self.table = table
        self.columns = columns
        self.names = [column.name for column in columns]

    def has(self, reference):
        """Whether a name means a column."""
        return reference.alias in (None, self.table) and reference.name in self.names

    def missing(self, expression):
        """The names of an expression that mean no column, from left to right."""
        return [reference.name for reference in references(expression) if not self.has(reference)]

    def class_of(self, reference):
        """The class of the column that a name means."""
        return CLASSES[self.columns[self.names.index(reference.name)].type.kind]

    def over(self, row):
        """What gives the values of names over a row."""
        return lambda reference: row[self.names.index(reference.name)]


def references(expression):
    """The names in an expression, from left to right."""
    if isinstance(expression, tree.Reference):
        return [expression]
    if isinstance(expression, tree.Binary):
        return references(expression.left) + references(expression.right)
    if isinstance(expression, tree.Unary):
        return references(expression.operand)
    return []


def has_arithmetic(expression):
    """Whether an expression has a plus, a minus or a times."""
    if isinstance(expression, tree.Binary):
        return expression.operator in ARITHMETIC or has_arithmetic(expression.left) or has_arithmetic(expression.right)
    if isinstance(expression, tree.Unary):
        return expression.operator == "-" or has_arithmetic(expression.operand)
    return False


# ---- classes


def class_of(expression, class_of_reference):
    """The class of an expression: number, text, date or truth, or any, which NULL has."""
    if isinstance(expression, tree.Literal):
        return "any" if expression.value is None else CLASSES[expression.value.kind]
    if isinstance(expression, tree.Reference):
        return class_of_reference(expression)
    if isinstance(expression, tree.Unary):
        return class_of_unary(expression.operator, class_of(expression.operand, class_of_reference))
    left = class_of(expression.left, class_of_reference)
    right = class_of(expression.right, class_of_reference)
    if expression.operator in ("AND", "OR"):
        goes_with("truth", left, right)
        return "truth"
    if expression.operator in ARITHMETIC:
        goes_with("number", left, right)
        return "number"
    if "truth" in (left, right) or left != right and "any" not in (left, right):
        raise WrongClass
    return "truth"


def class_of_unary(operator, operand):
    """The class of an operator of one operand, which has a class."""
    if operator == "-":
        goes_with("number", operand)
        return "number"
    if operator == "NOT":
        goes_with("truth", operand)
    elif operand == "truth":
        raise WrongClass
    return "truth"


def goes_with(wanted, *classes):
    """Each of these classes goes where one is wanted."""
    if any(each not in (wanted, "any") for each in classes):
        raise WrongClass


def need_truth(expression, class_of_reference):
    """An expression may be a condition."""
    goes_with("truth", class_of(expression, class_of_reference))


def need_value(expression, class_of_reference):
    """An expression gives a value, which is no truth; answers its class."""
    found = class_of(expression, class_of_reference)
    if found == "truth":
        raise WrongClass
    return found


# ---- what they give


def given(expression, value_of_reference):
    """The value or the truth that an expression gives. Each part of it is reckoned, so an overflow in any part is one of the whole."""
    if isinstance(expression, tree.Literal):
        return expression.value
    if isinstance(expression, tree.Reference):
        return value_of_reference(expression)
    if isinstance(expression, tree.Unary):
        return given_by_unary(expression.operator, given(expression.operand, value_of_reference))
    left = given(expression.left, value_of_reference)
    right = given(expression.right, value_of_reference)
    if expression.operator == "AND":
        return conjunction(left, right)
    if expression.operator == "OR":
        return negation(conjunction(negation(left), negation(right)))
    if left is None or right is None:
        return None
    if expression.operator in ARITHMETIC:
        return reckoned("BIGINT" if "BIGINT" in (left.kind, right.kind) else "INTEGER", number(expression.operator, left.content, right.content))
    return compares(expression.operator, left.content, right.content)


def given_by_unary(operator, operand):
    """What an operator gives of one operand."""
    if operator == "NOT":
        return negation(operand)
    if operator == "-":
        return None if operand is None else reckoned(operand.kind, -operand.content)
    return (operand is None) == (operator == "IS NULL")


def conjunction(left, right):
    """Of two truths: false where one is, and else unknown where one is."""
    if left is False or right is False:
        return False
    return None if left is None or right is None else True


def negation(truth):
    """The other truth; unknown stays."""
    return None if truth is None else not truth


def number(operator, left, right):
    """A sum, a difference or a product."""
    if operator == "+":
        return left + right
    return left - right if operator == "-" else left * right


def compares(operator, left, right):
    """Whether a comparison of two contents of one class holds: numbers as numbers, texts by their bytes, dates by day."""
    comparisons = {"=": left == right, "<>": left != right, "<": left < right, "<=": left <= right, ">": left > right, ">=": left >= right}
    return comparisons[operator]
