"""The bytes of a database's log: its entries, and the records that have them (docs/FORMATS.md, "Log file" and "Entries")."""

HEADER = b"SRLOG001" + bytes(8)
# a record is its body, the number of its bytes before it and a gate
AROUND = 5
OPEN = b"\x01"
CLOSED = b"\x00"


class Log:
    """The bodies of the records that are committed. The log's base is 0."""

    def __init__(self, bodies=()):
        self.bodies = list(bodies)

    def commit(self, body):
        """One record more; answers its offset."""
        self.bodies.append(body)
        return sum(len(each) + AROUND for each in self.bodies)

    def file(self):
        """The bytes of the file, up to the gate that is closed."""
        return HEADER + b"".join(OPEN + text(body) for body in self.bodies) + CLOSED


def number(value, length):
    """A number of so many bytes, whose most significant one stands first."""
    return value.to_bytes(length, "big", signed=value < 0)


def name(word):
    """A name behind its length."""
    return number(len(word), 1) + word.encode()


def text(content):
    """Bytes behind their length."""
    return number(len(content), 4) + content


def listed(parts):
    """Parts behind their number."""
    return number(len(parts), 4) + b"".join(parts)


def value(found):
    """A value behind the tag of its type."""
    if found is None:
        return b"\x00"
    if found.kind == "INTEGER":
        return b"\x01" + number(found.content, 4)
    if found.kind == "BIGINT":
        return b"\x02" + number(found.content, 8)
    if found.kind == "VARCHAR":
        return b"\x03" + text(found.content)
    return b"\x04" + number(found.content, 4)


def row(values):
    """A row in table order."""
    return listed([value(found) for found in values])


def row_if_any(values):
    """A row that may be missing."""
    return b"\x00" if values is None else b"\x01" + row(values)


def changes(found):
    """The changes of a transaction."""
    return listed([name(change.table) + row_if_any(change.before) + row_if_any(change.after) for change in found])


def own(found):
    """An entry of this database's own transaction."""
    return b"\x01" + changes(found)


def statement(printed):
    """An entry of a statement that changes the catalog."""
    return b"\x03" + text(printed.encode())


def view(user, tables):
    """An entry of what a user sees of tables: pairs of a name and rows."""
    return b"\x04" + name(user) + listed([name(table) + listed([row(values) for values in rows]) for table, rows in tables])


def passed(users, only, printed, found):
    """An entry of a statement that is passed on to users, perhaps to them alone, with what it changes here."""
    return b"\x05" + listed([name(user) for user in users]) + number(only, 1) + text(printed.encode()) + changes(found)
