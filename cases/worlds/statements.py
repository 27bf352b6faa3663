"""Statements, and how each prints in its normal form (docs/SQL.md)."""

from typing import NamedTuple

import values
from expressions import printed


class CreateTable(NamedTuple):
    """CREATE TABLE; the key by the names of its columns."""

    name: str
    columns: list
    key: list


class DropTable(NamedTuple):
    """DROP TABLE."""

    name: str


class Article(NamedTuple):
    """A table of a publication: the columns, or None for all; a condition, or None; a column or a literal behind SUBSCRIBE BY, or None."""

    table: str
    columns: list = None
    where: tuple = None
    by: tuple = None


class CreatePublication(NamedTuple):
    """CREATE PUBLICATION."""

    name: str
    articles: list


class DropPublication(NamedTuple):
    """DROP PUBLICATION."""

    name: str


class Grant(NamedTuple):
    """GRANT CONSOLIDATE to the database above, or GRANT REMOTE."""

    above: bool
    name: str


class Subscription(NamedTuple):
    """CREATE, START, STOP, SYNCHRONIZE or DROP SUBSCRIPTION; the value is a literal, or None where there is none."""

    verb: str
    publication: str
    value: tuple
    user: str


class SetOption(NamedTuple):
    """SET OPTION verify_all_columns: whether it is On."""

    is_on: bool


class CreateTrigger(NamedTuple):
    """CREATE TRIGGER. `rows` has the names that it gives to OLD, NEW and REMOTE, `variables` a name and a type each."""

    name: str
    of: list
    table: str
    rows: list
    variables: list
    actions: list


class DropTrigger(NamedTuple):
    """DROP TRIGGER."""

    name: str


class Assign(NamedTuple):
    """SET in a trigger, of a column of a row or of a variable."""

    alias: str
    name: str
    value: tuple


class Add(NamedTuple):
    """INSERT in a trigger; the columns, or None for all."""

    table: str
    columns: list
    values: list


class If(NamedTuple):
    """IF in a trigger; `otherwise` is None where there is no ELSE."""

    condition: tuple
    then: list
    otherwise: list


class Insert(NamedTuple):
    """INSERT INTO; the columns, or None for all."""

    table: str
    columns: list
    rows: list


class Update(NamedTuple):
    """UPDATE; each set is a column's name and an expression."""

    table: str
    sets: list
    where: tuple


class Delete(NamedTuple):
    """DELETE FROM."""

    table: str
    where: tuple


class Passthrough(NamedTuple):
    """PASSTHROUGH FOR users, or PASSTHROUGH ONLY FOR users."""

    only: bool
    users: list


class Word(NamedTuple):
    """A statement that has nothing but its words."""

    text: str


VERIFY = "verify_all_columns"
COMMIT = Word("COMMIT")
ROLLBACK = Word("ROLLBACK")
PASSTHROUGH_STOP = Word("PASSTHROUGH STOP")

ON_ROWS = (Insert, Update, Delete)


def is_on_catalog(statement):
    """Whether a statement changes the catalog and is committed by itself."""
    if isinstance(statement, Subscription):
        return statement.verb != "SYNCHRONIZE"
    return isinstance(statement, (CreateTable, DropTable, CreatePublication, DropPublication, Grant, SetOption, CreateTrigger, DropTrigger))


def is_carried(statement):
    """Whether passthrough carries a statement: one on rows, and one on the catalog but for GRANT and SET OPTION."""
    return isinstance(statement, ON_ROWS) or is_on_catalog(statement) and not isinstance(statement, (Grant, SetOption))


# ---- actions of triggers


def all_actions(actions):
    """The actions of a trigger with those within them, from front to back."""
    for action in actions:
        yield action
        if isinstance(action, If):
            yield from all_actions(action.then)
            yield from all_actions(action.otherwise or [])


# ---- printing


def names(listed):
    """Names in parentheses, behind a blank; nothing for None."""
    return " (" + ", ".join(listed) + ")" if listed else ""


def list_of(expressions):
    """Expressions in parentheses."""
    return "(" + ", ".join(map(printed, expressions)) + ")"


def condition(where):
    """WHERE with its condition; nothing for None."""
    return " WHERE " + printed(where) if where else ""


def print_type(kind):
    """A type."""
    return f"VARCHAR({kind.length})" if kind.name == "VARCHAR" else kind.name


def print_actions(actions):
    """Actions, each behind a blank and with its semicolon."""
    return "".join(f" {print_action(action)};" for action in actions)


def print_action(action):
    """One action of a trigger."""
    if isinstance(action, Assign):
        return "SET " + (action.alias + "." if action.alias else "") + f"{action.name} = {printed(action.value)}"
    if isinstance(action, Add):
        return f"INSERT INTO {action.table}{names(action.columns)} VALUES {list_of(action.values)}"
    otherwise = "" if action.otherwise is None else " ELSE" + print_actions(action.otherwise)
    return f"IF {printed(action.condition)} THEN{print_actions(action.then)}{otherwise} END IF"


def print_create_table(statement):
    """CREATE TABLE."""
    columns = [f"{column.name} {print_type(column.type)}" + (" NOT NULL" if column.required else "") for column in statement.columns]
    return f"CREATE TABLE {statement.name} ({', '.join(columns)}, PRIMARY KEY{names(statement.key)})"


def print_article(article):
    """An article of a publication."""
    by = " SUBSCRIBE BY " + printed(article.by) if article.by else ""
    return f"TABLE {article.table}{names(article.columns)}{condition(article.where)}{by}"


def print_subscription(statement):
    """A statement on a subscription."""
    value = f" ({values.literal(statement.value.value)})" if statement.value else ""
    return f"{statement.verb} SUBSCRIPTION TO {statement.publication}{value} FOR {statement.user}"


def print_trigger(statement):
    """CREATE TRIGGER."""
    of = " OF " + ", ".join(statement.of) if statement.of else ""
    rows = "".join(f" {row} AS {alias}" for row, alias in statement.rows)
    variables = "".join(f" DECLARE {name} {print_type(kind)};" for name, kind in statement.variables)
    head = f"CREATE TRIGGER {statement.name} RESOLVE UPDATE{of} ON {statement.table} REFERENCING{rows} FOR EACH ROW"
    return f"{head} BEGIN{variables}{print_actions(statement.actions)} END"


def print_on_rows(statement):
    """INSERT, UPDATE or DELETE."""
    if isinstance(statement, Insert):
        return f"INSERT INTO {statement.table}{names(statement.columns)} VALUES " + ", ".join(map(list_of, statement.rows))
    if isinstance(statement, Update):
        sets = ", ".join(f"{name} = {printed(expression)}" for name, expression in statement.sets)
        return f"UPDATE {statement.table} SET {sets}{condition(statement.where)}"
    return f"DELETE FROM {statement.table}{condition(statement.where)}"


PRINTERS = {
    CreateTable: print_create_table,
    DropTable: lambda statement: "DROP TABLE " + statement.name,
    CreatePublication: lambda statement: f"CREATE PUBLICATION {statement.name} ({', '.join(map(print_article, statement.articles))})",
    DropPublication: lambda statement: "DROP PUBLICATION " + statement.name,
    Grant: lambda statement: ("GRANT CONSOLIDATE TO " if statement.above else "GRANT REMOTE TO ") + statement.name,
    Subscription: print_subscription,
    SetOption: lambda statement: f"SET OPTION {VERIFY} = '{'On' if statement.is_on else 'Off'}'",
    CreateTrigger: print_trigger,
    DropTrigger: lambda statement: "DROP TRIGGER " + statement.name,
    Insert: print_on_rows,
    Update: print_on_rows,
    Delete: print_on_rows,
    Passthrough: lambda statement: "PASSTHROUGH " + ("ONLY " if statement.only else "") + "FOR " + ", ".join(statement.users),
    Word: lambda statement: statement.text,
}


def print_statement(statement):
    """A statement in its normal form."""
    return PRINTERS[type(statement)](statement)
