"""How the entries of a log are read from bytes, and whether each fits what stands before it ("Log file", "Entries" and "Damage" of docs/FORMATS.md)."""

import re

import encoding
import logs
import statements
import values
from encoding import Broken, Reader
from faults import Refused
from operations import CLASHES, Clash, Conflict, Exec, Plain, Set, read_operation
from rows import execute

# the words in capitals that printed statements have, and all that stands outside their texts
WORDS = set(
    """ADDRESS AND AS BEGIN BIGINT BY CONSOLIDATE CREATE DATE DECLARE DELETE DROP EACH ELSE END FILE FOR FROM GRANT IF INSERT INTEGER INTO IS KEY NEW NOT NULL OF OLD
    ON ONLY OPTION OR PASSTHROUGH PRIMARY PUBLICATION REFERENCING REMOTE RESOLVE ROW SET START STOP SUBSCRIBE SUBSCRIPTION SYNCHRONIZE TABLE THEN TO TRIGGER TYPE
    UPDATE VALUES VARCHAR WHERE""".split()
)
PLAIN = re.compile(rb"[a-zA-Z0-9_ (),;.+*=<>-]*")
TEXT = re.compile(rb"'(?:[^']|'')*'")
FIRST = ("CREATE ", "DROP ", "GRANT ", "START ", "STOP ", "SET OPTION ", "INSERT ", "UPDATE ", "DELETE ")
LONGEST = 64 * 1024 * 1024
LAST_OFFSET = 2**62


class Misfit(Exception):
    """Something is as it is spelled, and does not fit what stands before it."""


class Unsure(Exception):
    """A text that no database has printed: it may be a statement, or may be none."""


class Damaged(Exception):
    """A file is damaged at a place."""

    def __init__(self, file, place):
        super().__init__(f"{file} {place}")
        self.file, self.place = file, place


def statement_of(known, text):
    """The statement that prints so; a Misfit where there can be none."""
    if text in known:
        return known[text]
    outside = TEXT.sub(b" ", text.encode())
    words = re.findall(r"[A-Za-z0-9_]*[A-Z][A-Za-z0-9_]*", outside.decode(errors="replace"))
    if not text.startswith(FIRST) or not PLAIN.fullmatch(outside) or not WORDS.issuperset(words):
        raise Misfit
    raise Unsure


# ---- entries


def read_row(reader):
    """A row."""
    return reader.list_of(reader.value)


def read_option(reader):
    """An option of a row."""
    tag = reader.number(1)
    if tag > 1:
        raise Broken
    return read_row(reader) if tag else None


def read_change(reader):
    """A change, whose two rows are not one."""
    table, before, behind = reader.name(), read_option(reader), read_option(reader)
    if before == behind:
        raise Broken
    return table, before, behind


def read_judged(reader):
    """An operation and its outcome."""
    operation = read_operation(reader)
    tag = reader.number(1)
    if tag == 0:
        return operation, Plain(reader.list_of(lambda: read_change(reader))), None
    if tag == 1:
        inserted = reader.list_of(lambda: read_change(reader))
        table = operation.table if isinstance(operation, Set) else None
        return operation, Conflict(table, inserted, read_row(reader), read_row(reader)), None
    reason = reader.number(1)
    if tag != 2 or not 0 < reason < len(CLASHES):
        raise Broken
    return operation, Clash(CLASHES[reason]), None


def filled(items):
    """A list that is not empty."""
    if not items:
        raise Broken
    return items


def read_passed(reader):
    """A Pass."""
    users = reader.list_of(reader.name)
    only = reader.number(1)
    if only > 1 or len(set(users)) != len(users):
        raise Broken
    return logs.Passed(users, bool(only), reader.text().decode(), reader.list_of(lambda: read_change(reader)))


def read_note(reader):
    """A Note."""
    user, tag = reader.name(), reader.number(1)
    if tag == 1:
        return logs.Confirmed(user, reader.number(8))
    if tag == 2:
        return logs.Asked(user, reader.number(8), reader.number(8))
    if tag == 3:
        return logs.Raised(user)
    if tag == 4:
        return logs.Sent(user, reader.number(8), reader.number(4), reader.number(8))
    raise Broken


def read_entry(body):
    """The entry that bytes spell."""
    reader = Reader(body)
    tag = reader.number(1)
    if tag == 1:
        entry = logs.Own(filled(reader.list_of(lambda: read_change(reader))))
    elif tag == 2:
        entry = logs.Taken(reader.name(), reader.number(8), filled(reader.list_of(lambda: read_judged(reader))))
    elif tag == 3:
        entry = logs.OnCatalog(reader.text().decode())
    elif tag == 4:
        entry = logs.Synchronized(reader.name(), reader.list_of(lambda: (reader.name(), reader.list_of(lambda: read_row(reader)))))
    elif tag == 5:
        entry = read_passed(reader)
    elif tag == 6:
        entry = read_note(reader)
    else:
        raise Broken
    if not reader.is_at_end():
        raise Broken
    return entry


# ---- whether they fit


def is_row_of(table, row):
    """Whether a row fits a table as it stands."""
    if len(row) != len(table.columns):
        return False
    return all(values.fit(value, column.type) == value and not (value is None and column.required) for column, value in zip(table.columns, row))


def go_on(state, changes):
    """Does changes, each of which is to fit what the one before leaves."""
    for change in changes:
        name, before, behind = change
        table = state.catalog.tables.get(name)
        if table is None or not all(row is None or is_row_of(table, row) for row in (before, behind)):
            raise Misfit
        keys = {table.key_of(row) for row in (before, behind) if row is not None}
        if len(keys) != 1 or state.rows.get(table, keys.pop()) != before:
            raise Misfit
        state.rows.apply(state.catalog, [change])


def accepted(state, text, is_right):
    """The statement of a text, which is of a kind and is accepted; and the catalog behind it where it is one on the catalog, else None."""
    statement = statement_of(state.known, text)
    if not is_right(statement):
        raise Misfit
    try:
        if statements.is_on_catalog(statement):
            return state.catalog.changed(statement)
        execute(state.catalog, state.rows, statement)
        return None
    except Refused as refused:
        raise Misfit from refused


def check_conflict(state, operation, outcome):
    """A conflict stands beside a Set; its triggers insert, and its rows stand under the key that the Set names."""
    table = state.catalog.tables.get(outcome.table)
    if table is None or any(before is not None for _, before, _ in outcome.inserted):
        raise Misfit
    rows = (outcome.before, outcome.behind)
    if not all(is_row_of(table, row) for row in rows):
        raise Misfit
    named = dict(operation.key)
    types = table.types()
    key = tuple(values.fit(named[name], types[name]) if name in named else values.UNFIT for name in table.key_names())
    if len(operation.key) != len(key) or any(table.key_of(row) != key for row in rows):
        raise Misfit


def go_on_taken(state, entry):
    """Goes on with a From; answers it with the catalogs that its statements made."""
    judged = []
    for operation, outcome, _ in entry.judged:
        catalog = None
        if isinstance(outcome, Conflict):
            check_conflict(state, operation, outcome)
            go_on(state, outcome.changes())
        elif isinstance(outcome, Plain):
            if isinstance(operation, Exec):
                catalog = accepted(state, operation.text, statements.is_carried)
            go_on(state, outcome.changes)
            if catalog is not None:
                state.set_catalog(catalog)
        judged.append((operation, outcome, catalog))
    state.books[entry.partner].note(entry)


def go_on_passed(state, entry):
    """Goes on with a Pass."""
    statement = statement_of(state.known, entry.text)
    if not statements.is_carried(statement) or entry.changes and (entry.only or statements.is_on_catalog(statement)):
        raise Misfit
    catalog = None if entry.only else accepted(state, entry.text, statements.is_carried)
    go_on(state, entry.changes)
    if catalog is not None:
        state.set_catalog(catalog)


def go_on_with(state, entry):
    """Goes on with an entry that was read; a Misfit where it does not fit."""
    users = entry.users if isinstance(entry, logs.Passed) else [entry.partner] if isinstance(entry, (logs.Synchronized, *logs.NOTED)) else []
    if not all(user in state.catalog.users for user in users):
        raise Misfit
    if isinstance(entry, logs.Own):
        go_on(state, entry.changes)
    elif isinstance(entry, logs.OnCatalog):
        state.set_catalog(accepted(state, entry.text, statements.is_on_catalog))
    elif isinstance(entry, logs.Taken):
        go_on_taken(state, entry)
    elif isinstance(entry, logs.Passed):
        go_on_passed(state, entry)
    elif not isinstance(entry, logs.Synchronized):
        state.books[entry.partner].note(entry)


# ---- logs


def records_of(file, data, base):
    """The bodies of a log's records, each behind the place of its gate, and the place of the closed gate; Damaged where it is not as written."""
    if len(data) <= logs.HEADER or not data.startswith(logs.MAGIC):
        raise Damaged(file, 0)
    found = int.from_bytes(data[8:16], "big")
    if found > LAST_OFFSET:
        raise Damaged(file, 0)
    if found != base:
        raise Damaged(file, 8)
    records = []
    gate = logs.HEADER
    while data[gate : gate + 1] == logs.OPEN:
        length = int.from_bytes(data[gate + 1 : gate + logs.FRAME], "big")
        behind = gate + logs.FRAME + length
        if gate + logs.FRAME > len(data) or not 0 < length <= LONGEST or behind >= len(data) or base + behind - logs.HEADER > LAST_OFFSET:
            raise Damaged(file, gate)
        records.append((gate, data[gate + logs.FRAME : behind]))
        gate = behind
    return records, gate


def limit_of(entry):
    """How long the body of an entry may be."""
    if isinstance(entry, logs.Taken):
        return LONGEST
    return 16 * 1024 * 1024 if isinstance(entry, logs.Synchronized) else 4 * 1024 * 1024


def replayed(state, file, data, base):
    """Has a state go on with the entries of a log; answers its end. Damaged where one is none or does not fit; an Unsure names the file and the gate of the record
    with the text."""
    records, closed = records_of(file, data, base)
    for gate, body in records:
        try:
            entry = read_entry(body)
            if len(body) > limit_of(entry):
                raise Misfit
            go_on_with(state, entry)
        except (Broken, Misfit) as fault:
            raise Damaged(file, gate) from fault
        except Unsure as unsure:
            raise Unsure(file, gate) from unsure
    return base + closed - logs.HEADER
