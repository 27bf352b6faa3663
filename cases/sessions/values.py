"""Values and their types: which numbers are INTEGERs, which texts are dates, what fits a column, how values are put in order, and how they print. A value is
NULL, which is None, or a Value. docs/SQL.md has the rules under "The meaning of an expression", docs/FORMATS.md the form of a printed value."""

import datetime
import re
from typing import NamedTuple

# 1970-01-01 among the days that datetime counts
EPOCH = datetime.date(1970, 1, 1).toordinal()
# how far a number of each type goes to either side: from -RANGE to RANGE - 1
RANGES = {"INTEGER": 2**31, "BIGINT": 2**63}
# the class of each type
CLASSES = {"INTEGER": "number", "BIGINT": "number", "VARCHAR": "text", "DATE": "date"}
# the classes in the order in which their values stand; NULL stands before all
RANKS = {"number": 1, "text": 2, "date": 3}


class Value(NamedTuple):
    """A value that is not NULL: its type's name, and a number, the bytes of a text, or the days since 1970-01-01."""

    kind: str
    content: object


class Type(NamedTuple):
    """The type of a column or variable. A length has VARCHAR alone."""

    kind: str
    length: int = 0


class Overflow(Exception):
    """A number passes its type's end."""


class NoFit(Exception):
    """A value does not fit a column."""


def number_of(number):
    """The value of a number that is written down: an INTEGER where it is one, else a BIGINT."""
    return Value("INTEGER" if within("INTEGER", number) else "BIGINT", number)


def within(kind, number):
    """Whether a number is one of a type."""
    return -RANGES[kind] <= number < RANGES[kind]


def reckoned(kind, number):
    """The value of a number that comes out at a type."""
    if not within(kind, number):
        raise Overflow
    return Value(kind, number)


def day_of(text):
    """The days from 1970-01-01 to the date that the bytes of a text are; None where they are none."""
    if not re.fullmatch(rb"[0-9]{4}-[0-9]{2}-[0-9]{2}", text):
        return None
    year, month, day = (int(part) for part in text.split(b"-"))
    try:
        return datetime.date(year, month, day).toordinal() - EPOCH
    except ValueError:
        return None


def fitted(value, wanted):
    """A value as a column of this type holds it. A text that is a date fits a DATE, and a number of either type the other where it is not too large."""
    if value is None:
        return None
    if wanted.kind in RANGES and value.kind in RANGES and within(wanted.kind, value.content):
        return Value(wanted.kind, value.content)
    if wanted.kind == "VARCHAR" and value.kind == "VARCHAR" and len(value.content) <= wanted.length:
        return value
    if wanted.kind == "DATE" and value.kind == "DATE":
        return value
    if wanted.kind == "DATE" and value.kind == "VARCHAR" and day_of(value.content) is not None:
        return Value("DATE", day_of(value.content))
    raise NoFit


def order_of(value):
    """By this values are put in order. NULL is first."""
    return (0, 0) if value is None else (RANKS[CLASSES[value.kind]], value.content)


def order_of_row(row):
    """By this rows and keys are put in order."""
    return tuple(order_of(value) for value in row)


def quoted(text):
    """The bytes of a text as a literal, each quote in it twice."""
    return "'" + text.decode().replace("'", "''") + "'"


def printed(value):
    """A value in a line of a SELECT or of a refusal."""
    if value is None:
        return "NULL"
    if value.kind == "VARCHAR":
        return quoted(value.content)
    if value.kind == "DATE":
        return datetime.date.fromordinal(value.content + EPOCH).isoformat()
    return str(value.content)


def printed_key(key):
    """A key in the line of a refusal."""
    return "(" + ", ".join(printed(value) for value in key) + ")"
