"""Values, their order, and how they fit the columns of a table (docs/SQL.md, and "Values" of docs/FORMATS.md).

A value is None for NULL, or a pair of its type's name and of what it is: a number, bytes of UTF-8, or days since 1970-01-01.
"""

import datetime
from typing import NamedTuple

# The classes of values and of expressions. NULL, and what may be of each class, has the class ANY.
ANY, NUMBER, TEXT, DATE, TRUTH = range(5)
CLASSES = {"INTEGER": NUMBER, "BIGINT": NUMBER, "VARCHAR": TEXT, "DATE": DATE}
# the least number that is too great for a type
PAST = {"INTEGER": 2**31, "BIGINT": 2**63}
EPOCH = datetime.date(1970, 1, 1).toordinal()
# what fitting answers for a value that may not stand in a column
UNFIT = object()


class Type(NamedTuple):
    """The type of a column or of a variable; a length where it is VARCHAR."""

    name: str
    length: int = 0


class Column(NamedTuple):
    """A column of a table; where it is required it has no NULL."""

    name: str
    type: Type
    required: bool


class Table(NamedTuple):
    """A table: its columns, and the places of those that its key has, in key order."""

    name: str
    columns: list
    key: list

    def names(self):
        """The names of the columns, in table order."""
        return [column.name for column in self.columns]

    def key_names(self):
        """The names of the key's columns, in key order."""
        return [self.columns[place].name for place in self.key]

    def key_of(self, row):
        """The key of a row."""
        return tuple(row[place] for place in self.key)

    def named_key(self, row):
        """The key of a row, each value behind its column's name."""
        return [(self.columns[place].name, row[place]) for place in self.key]

    def types(self):
        """The type of each column, by its name."""
        return {column.name: column.type for column in self.columns}

    def classes(self):
        """The class of each column, by its name."""
        return {column.name: CLASSES[column.type.name] for column in self.columns}

    def required(self):
        """The names of the columns that have no NULL."""
        return {column.name for column in self.columns if column.required}


def in_range(type_name, number):
    """Whether a number is one of an integer type."""
    return -PAST[type_name] <= number < PAST[type_name]


def number(content):
    """A number as it is written: an INTEGER where it is one, else a BIGINT."""
    return ("INTEGER" if in_range("INTEGER", content) else "BIGINT", content)


def text(content):
    """A text."""
    return ("VARCHAR", content.encode())


def date(content):
    """The date of `YYYY-MM-DD`."""
    return ("DATE", day_of(content.encode()))


def class_of(value):
    """The class of a value."""
    return ANY if value is None else CLASSES[value[0]]


def order(value):
    """By this values stand in keys: NULL first; of two equal numbers the INTEGER first."""
    if value is None:
        return (ANY,)
    if class_of(value) == NUMBER:
        return (NUMBER, value[1], value[0] == "BIGINT")
    return (class_of(value), value[1])


def key_order(key):
    """By this keys stand in their table."""
    return tuple(order(value) for value in key)


def compare(left, right):
    """Less, equal or greater as -1, 0 or 1; None where it is unknown."""
    if left is None or right is None or class_of(left) != class_of(right):
        return None
    return (left[1] > right[1]) - (left[1] < right[1])


def day_of(content):
    """The day that the bytes `YYYY-MM-DD` name; None where they name none."""
    if len(content) != 10 or content[4:5] != b"-" or content[7:8] != b"-" or not (content[:4] + content[5:7] + content[8:]).isdigit():
        return None
    try:
        return datetime.date(int(content[:4]), int(content[5:7]), int(content[8:])).toordinal() - EPOCH
    except ValueError:
        return None


def fit_date(value):
    """A value in a column of DATE: a date, or a text that spells one."""
    if value[0] == "DATE":
        return value
    day = day_of(value[1]) if value[0] == "VARCHAR" else None
    return UNFIT if day is None else ("DATE", day)


def fit(value, kind):
    """A value as it stands in a column of this type, or UNFIT."""
    if value is None:
        return None
    if kind.name == "DATE":
        return fit_date(value)
    if kind.name == "VARCHAR":
        return value if value[0] == "VARCHAR" and len(value[1]) <= kind.length else UNFIT
    return (kind.name, value[1]) if class_of(value) == NUMBER and in_range(kind.name, value[1]) else UNFIT


def literal(value):
    """A value as it is written in a statement."""
    return "DATE '" + printed(value) + "'" if class_of(value) == DATE else printed(value)


def printed(value):
    """A value as a line of a SELECT has it."""
    if value is None:
        return "NULL"
    if value[0] == "VARCHAR":
        return "'" + value[1].decode().replace("'", "''") + "'"
    if value[0] == "DATE":
        return datetime.date.fromordinal(value[1] + EPOCH).isoformat()
    return str(value[1])
