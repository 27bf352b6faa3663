"""Message files, their windows and their bodies ("Messages" of docs/FORMATS.md, "Messages and windows" of docs/REPLICATION.md)."""

import hashlib
from typing import NamedTuple

import encoding
from operations import read_operation

LONGEST = 2 * 1024 * 1024
LONGEST_BODY = 64 * 1024 * 1024
HEAD = b"SRMF\1"
DIGEST = 32
# the bytes of a message without its fragment and its two names
BARE = 99


class Message(NamedTuple):
    """The fields of a message file."""

    sender: str
    receiver: str
    resend: int
    previous: int
    upto: int
    total: int
    start: int
    fragment: bytes
    confirm: int
    ask_count: int
    ask_offset: int

    def window(self):
        """What the pieces of one body have in common."""
        return (self.previous, self.upto, self.total)

    def spelled(self):
        """The bytes of its file."""
        plain = b"".join(
            [
                HEAD,
                encoding.name(self.sender),
                encoding.name(self.receiver),
                encoding.offset(self.resend),
                encoding.offset(self.previous),
                encoding.offset(self.upto),
                encoding.number(self.total, 4),
                encoding.number(self.start, 4),
                encoding.text(self.fragment),
                encoding.offset(self.confirm),
                encoding.offset(self.ask_count),
                encoding.offset(self.ask_offset),
            ]
        )
        return plain + hashlib.sha256(plain).digest()

    def is_right(self):
        """Whether its fields go together."""
        return (
            self.previous <= self.upto
            and self.total <= LONGEST_BODY
            and (self.total == 0) == (self.previous == self.upto)
            and self.start + len(self.fragment) <= self.total
            and (not self.fragment) == (self.total == 0)
            and (self.ask_count != 0 or self.ask_offset == 0)
        )


def read_fields(reader):
    """The message whose bytes begin here."""
    if reader.take(len(HEAD)) != HEAD:
        raise encoding.Broken
    names = [reader.name(), reader.name()]
    offsets = [reader.number(8) for _ in range(3)]
    sizes = [reader.number(4) for _ in range(2)]
    fragment = reader.take(reader.number(4))
    return Message(*names, *offsets, *sizes, fragment, *[reader.number(8) for _ in range(3)])


def read_message(data):
    """The message of a file, or None where the file is none."""
    reader = encoding.Reader(data)
    try:
        message = read_fields(reader)
        digest = hashlib.sha256(data[: reader.place]).digest()
        is_whole = reader.take(DIGEST) == digest and reader.is_at_end() and len(data) <= LONGEST
    except encoding.Broken:
        return None
    return message if is_whole and message.is_right() else None


def transaction(offset, operations):
    """The bytes of a transaction in a body."""
    return encoding.offset(offset) + encoding.list_of(operations, lambda operation: operation.spelled())


def read_body(data):
    """The transactions of a body, each its offset and its operations; None where the bytes are no body."""
    reader = encoding.Reader(data)
    found = []
    try:
        while not reader.is_at_end():
            offset = reader.number(8)
            operations = reader.list_of(lambda: read_operation(reader))
            if not operations or found and offset <= found[-1][0]:
                return None
            found.append((offset, operations))
    except encoding.Broken:
        return None
    return found or None


def whole_body(total, pieces):
    """The body that messages of one window carry together; None where a byte of it is missing. Of two for one byte the later one counts."""
    body = bytearray(total)
    is_there = bytearray(total)
    for piece in pieces:
        end = piece.start + len(piece.fragment)
        body[piece.start : end] = piece.fragment
        is_there[piece.start : end] = b"\1" * len(piece.fragment)
    return bytes(body) if all(is_there) else None


def fill_windows(transactions, room):
    """How transactions go into windows: each takes as many as have room, and at least one. Of each window its end and its body."""
    windows = []
    body = b""
    end = None
    for offset, operations in transactions:
        spelled = transaction(offset, operations)
        if body and len(body) + len(spelled) > room:
            windows.append((end, body))
            body = b""
        body += spelled
        end = offset
    if body:
        windows.append((end, body))
    return windows
