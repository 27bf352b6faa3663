"""Statements and expressions as they are kept, in their normal form (docs/SQL.md, "Normal form"). Where a part may be missing it is None."""

from typing import NamedTuple


class Literal(NamedTuple):
    """A value that is written down."""

    value: object


class Reference(NamedTuple):
    """The name of a column or variable, perhaps behind an alias and a dot."""

    alias: object
    name: str


class Binary(NamedTuple):
    """An operator of two operands."""

    operator: str
    left: object
    right: object


class Unary(NamedTuple):
    """NOT, -, IS NULL or IS NOT NULL, and its operand."""

    operator: str
    operand: object


class Column(NamedTuple):
    """A column of a table."""

    name: str
    type: object
    never_null: bool


class CreateTable(NamedTuple):
    """CREATE TABLE. The key has no name where there is none."""

    name: str
    columns: list
    key: list


class Drop(NamedTuple):
    """DROP of a TABLE, a PUBLICATION or a TRIGGER."""

    kind: str
    name: str


class Article(NamedTuple):
    """A table of a publication."""

    table: str
    columns: object
    where: object
    subscribe_by: object


class CreatePublication(NamedTuple):
    """CREATE PUBLICATION."""

    name: str
    articles: list


class Grant(NamedTuple):
    """GRANT REMOTE, or CONSOLIDATE, which is above. The address has the bytes of its text."""

    above: bool
    user: str
    address: object


class Subscription(NamedTuple):
    """CREATE, START, STOP, SYNCHRONIZE or DROP of a subscription, whose value is a literal."""

    verb: str
    publication: str
    value: object
    user: str


class SetOption(NamedTuple):
    """SET OPTION. The value is a literal, and the texts On and Off are spelled so."""

    name: str
    value: object


class CreateTrigger(NamedTuple):
    """CREATE TRIGGER. The aliases are pairs of OLD, NEW or REMOTE and a name, the variables pairs of a name and a type."""

    name: str
    columns: list
    table: str
    aliases: list
    variables: list
    actions: list


class Set(NamedTuple):
    """SET of a reference, an action of a trigger."""

    target: object
    expression: object


class If(NamedTuple):
    """IF, an action of a trigger, with the actions of either side."""

    condition: object
    then: list
    otherwise: object


class Insert(NamedTuple):
    """INSERT, also as an action of a trigger, where it has one row."""

    table: str
    columns: object
    rows: list


class Update(NamedTuple):
    """UPDATE, with pairs of a column and an expression."""

    table: str
    assignments: list
    where: object


class Delete(NamedTuple):
    """DELETE."""

    table: str
    where: object


class Item(NamedTuple):
    """An item of a SELECT: an expression, or an aggregate, of which COUNT has no expression."""

    aggregate: object
    expression: object


class Source(NamedTuple):
    """A table of a SELECT, with its alias, which is the table's name where none is written."""

    table: str
    alias: str


class Select(NamedTuple):
    """SELECT. Without items it is of all columns. The order is of pairs of a reference and whether it is DESC."""

    items: object
    sources: list
    conditions: list
    where: object
    order: list


class Commit(NamedTuple):
    """COMMIT."""


class Rollback(NamedTuple):
    """ROLLBACK."""


class PassthroughFor(NamedTuple):
    """PASSTHROUGH FOR, perhaps with ONLY."""

    only: bool
    users: list


class PassthroughStop(NamedTuple):
    """PASSTHROUGH STOP."""
