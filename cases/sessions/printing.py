"""How a statement prints that stands in the log (docs/SQL.md, "Printing")."""

import tree
from values import printed, quoted


def literal(value):
    """A value as a literal of a statement, where a date stands behind its word."""
    if value is not None and value.kind == "DATE":
        return f"DATE '{printed(value)}'"
    return printed(value)


def reference(name):
    """A name, behind its alias where it has one."""
    return name.name if name.alias is None else f"{name.alias}.{name.name}"


def expression(part):
    """A whole expression."""
    if isinstance(part, tree.Literal):
        return literal(part.value)
    if isinstance(part, tree.Reference):
        return reference(part)
    if isinstance(part, tree.Binary):
        return f"{operand(part.left)} {part.operator} {operand(part.right)}"
    if part.operator == "-":
        return f"-({expression(part.operand)})"
    if part.operator == "NOT":
        return f"NOT {operand(part.operand)}"
    return f"{operand(part.operand)} {part.operator}"


def operand(part):
    """An operand, in parentheses where it is an operator itself."""
    return f"({expression(part)})" if isinstance(part, (tree.Binary, tree.Unary)) else expression(part)


def expressions(parts):
    """Expressions in parentheses."""
    return "(" + ", ".join(expression(part) for part in parts) + ")"


def kind_of(kind):
    """The type of a column or variable."""
    return f"VARCHAR({kind.length})" if kind.kind == "VARCHAR" else kind.kind


def behind(names):
    """Names in parentheses behind a blank, or nothing where there are none."""
    return f" ({', '.join(names)})" if names else ""


def where(condition):
    """A condition behind WHERE, or nothing where there is none."""
    return "" if condition is None else f" WHERE {expression(condition)}"


def statement(part):
    """A statement of those that the log has."""
    return PRINTERS[type(part)](part)


def create_table(part):
    """CREATE TABLE, whose key stands behind its columns."""
    parts = [f"{column.name} {kind_of(column.type)}{' NOT NULL' if column.never_null else ''}" for column in part.columns]
    if part.key:
        parts.append("PRIMARY KEY" + behind(part.key))
    return f"CREATE TABLE {part.name} ({', '.join(parts)})"


def create_publication(part):
    """CREATE PUBLICATION."""
    return f"CREATE PUBLICATION {part.name} ({', '.join(article(each) for each in part.articles)})"


def article(part):
    """A table of a publication."""
    subscribe_by = "" if part.subscribe_by is None else f" SUBSCRIBE BY {expression(part.subscribe_by)}"
    return f"TABLE {part.table}{behind(part.columns)}{where(part.where)}{subscribe_by}"


def drop(part):
    """DROP of what is no subscription."""
    return f"DROP {part.kind} {part.name}"


def grant(part):
    """GRANT."""
    address = "" if part.address is None else f" TYPE FILE ADDRESS {quoted(part.address)}"
    return f"GRANT {'CONSOLIDATE' if part.above else 'REMOTE'} TO {part.user}{address}"


def subscription(part):
    """CREATE, START, STOP or DROP of a subscription."""
    value = "" if part.value is None else f" ({literal(part.value.value)})"
    return f"{part.verb} SUBSCRIPTION TO {part.publication}{value} FOR {part.user}"


def set_option(part):
    """SET OPTION."""
    return f"SET OPTION {part.name} = {literal(part.value.value)}"


def create_trigger(part):
    """CREATE TRIGGER. Each of its declarations and actions ends with a semicolon."""
    columns = f"OF {', '.join(part.columns)} " if part.columns else ""
    aliases = "".join(f"{row.upper()} AS {name} " for row, name in part.aliases)
    variables = "".join(f"DECLARE {name} {kind_of(kind)}; " for name, kind in part.variables)
    head = f"CREATE TRIGGER {part.name} RESOLVE UPDATE {columns}ON {part.table} REFERENCING {aliases}FOR EACH ROW BEGIN "
    return f"{head}{variables}{actions(part.actions)}END"


def actions(parts):
    """The actions of a trigger, each with its semicolon and a blank."""
    return "".join(f"{action(part)}; " for part in parts)


def action(part):
    """An action of a trigger."""
    if isinstance(part, tree.Set):
        return f"SET {reference(part.target)} = {expression(part.expression)}"
    if isinstance(part, tree.Insert):
        return insert(part)
    otherwise = "" if part.otherwise is None else f"ELSE {actions(part.otherwise)}"
    return f"IF {expression(part.condition)} THEN {actions(part.then)}{otherwise}END IF"


def insert(part):
    """INSERT."""
    return f"INSERT INTO {part.table}{behind(part.columns)} VALUES {', '.join(expressions(row) for row in part.rows)}"


def update(part):
    """UPDATE."""
    return f"UPDATE {part.table} SET {', '.join(f'{column} = {expression(value)}' for column, value in part.assignments)}{where(part.where)}"


def delete(part):
    """DELETE."""
    return f"DELETE FROM {part.table}{where(part.where)}"


PRINTERS = {
    tree.CreateTable: create_table,
    tree.CreatePublication: create_publication,
    tree.CreateTrigger: create_trigger,
    tree.Drop: drop,
    tree.Grant: grant,
    tree.Subscription: subscription,
    tree.SetOption: set_option,
    tree.Insert: insert,
    tree.Update: update,
    tree.Delete: delete,
}
