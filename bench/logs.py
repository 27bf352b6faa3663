"""Logs that are written straight into the file, as the program would have written them: quicker than its commits, each of which has two syncs."""

import os
import struct

# what a log has before its first gate
HEADER = 16
# how many bytes a record has besides its body: a gate and the length
AROUND = 5
# the tags of the entries that are written here, that of an operation that inserts, and those of values
OWN, FROM, NOTE, SENT = 1, 2, 6, 4
INSERT = 1
INTEGER, VARCHAR = 1, 3
# how many bytes are put together before they are written
PIECE = 1024 * 1024


def end_of(path):
    """The place of the first closed gate."""
    with open(path, "rb") as file:
        file.seek(HEADER)
        while file.read(1) == b"\1":
            (length,) = struct.unpack(">I", file.read(4))
            file.seek(length, os.SEEK_CUR)
        return file.tell() - 1


def row(*values):
    """A row of INTEGERs and texts."""
    cells = (struct.pack(">Bi", INTEGER, value) if isinstance(value, int) else struct.pack(">BI", VARCHAR, len(value)) + value for value in values)
    return struct.pack(">I", len(values)) + b"".join(cells)


def inserted(image, table=b"t"):
    """A transaction that inserts one row."""
    return struct.pack(">BIB", OWN, 1, len(table)) + table + b"\0\1" + image


def named(names, values):
    """A row of INTEGERs by the names of its columns."""
    cells = (struct.pack(">B", len(name)) + name + struct.pack(">Bi", INTEGER, value) for name, value in zip(names, values))
    return struct.pack(">I", len(names)) + b"".join(cells)


def inserting(columns, table=b"t"):
    """The operation that inserts a row, which is given by the names of its columns."""
    return struct.pack(">BB", INSERT, len(table)) + table + columns


def taken(user, offset, operation, image, table=b"t"):
    """A transaction of one operation, at an offset of a partner's log, that was taken from him and inserted a row."""
    head = struct.pack(">BB", FROM, len(user)) + user + struct.pack(">QI", offset, 1)
    return head + operation + struct.pack(">BIB", 0, 1, len(table)) + table + b"\0\1" + image


def deleted(image, table=b"t"):
    """A transaction that deletes one row."""
    return struct.pack(">BIB", OWN, 1, len(table)) + table + b"\1" + image + b"\0"


def sent(user, offset, confirmed=0):
    """A note that one message was put for a partner, which has the log up to an offset, and confirms what was taken from him up to another."""
    return struct.pack(">BB", NOTE, len(user)) + user + struct.pack(">BQIQ", SENT, offset, 1, confirmed)


def append(path, bodies):
    """Puts records behind those that the log has. Returns the offset of its end."""
    at = end_of(path)
    with open(path, "r+b", buffering=PIECE) as file:
        file.seek(at)
        for body in bodies:
            file.write(b"\1" + struct.pack(">I", len(body)) + body)
        file.write(b"\0")
        file.truncate()
        file.flush()
        os.fsync(file.fileno())
        return file.tell() - 1 - HEADER
