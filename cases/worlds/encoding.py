"""How fields and values are spelled in bytes, and how they are read ("Fields" and "Values" of docs/FORMATS.md)."""

import re

NAME = re.compile(rb"[a-z_][a-z0-9_]*")
LONGEST_NAME = 64
FIRST_DAY = -719162
LAST_DAY = 2932896
# of each type its tag, and the bytes of its numbers
TAGS = {"INTEGER": (1, 4), "BIGINT": (2, 8), "VARCHAR": (3, None), "DATE": (4, 4)}


def number(content, length):
    """A number of so many bytes."""
    return content.to_bytes(length, "big")


def offset(content):
    """An offset, or a count of eight bytes."""
    return number(content, 8)


def name(content):
    """A name."""
    return number(len(content), 1) + content.encode()


def text(content):
    """A text, of which the bytes are given."""
    return number(len(content), 4) + content


def list_of(items, spelled):
    """A list, each item of which is spelled by a function."""
    return number(len(items), 4) + b"".join(spelled(item) for item in items)


def option(item, spelled):
    """An option."""
    return b"\0" if item is None else b"\1" + spelled(item)


def value(content):
    """A value."""
    if content is None:
        return b"\0"
    tag, length = TAGS[content[0]]
    plain = text(content[1]) if length is None else content[1].to_bytes(length, "big", signed=True)
    return number(tag, 1) + plain


def row(content):
    """A row, or a key."""
    return list_of(content, value)


def change(content):
    """A change: the table, the row before and the row behind."""
    table, before, behind = content
    return name(table) + option(before, row) + option(behind, row)


def named_value(content):
    """A column's name, and a value or two."""
    return name(content[0]) + b"".join(value(each) for each in content[1:])


class Broken(Exception):
    """Bytes that spell nothing."""


class Reader:
    """Reads fields of bytes from front to back."""

    def __init__(self, data):
        self.data = data
        self.place = 0

    def is_at_end(self):
        """Whether everything was read."""
        return self.place == len(self.data)

    def take(self, length):
        """The next bytes."""
        if self.place + length > len(self.data):
            raise Broken
        self.place += length
        return self.data[self.place - length : self.place]

    def number(self, length):
        """A number of so many bytes."""
        return int.from_bytes(self.take(length), "big")

    def signed(self, length):
        """A number in two's complement."""
        return int.from_bytes(self.take(length), "big", signed=True)

    def name(self):
        """A name."""
        length = self.number(1)
        if not 1 <= length <= LONGEST_NAME:
            raise Broken
        content = self.take(length)
        if not NAME.fullmatch(content):
            raise Broken
        return content.decode()

    def text(self):
        """The bytes of a text."""
        content = self.take(self.number(4))
        try:
            content.decode()
        except UnicodeDecodeError as error:
            raise Broken from error
        return content

    def value(self):
        """A value."""
        tag = self.number(1)
        if tag == 0:
            return None
        for kind, (own_tag, length) in TAGS.items():
            if tag == own_tag:
                content = self.text() if length is None else self.signed(length)
                if kind == "DATE" and not FIRST_DAY <= content <= LAST_DAY:
                    raise Broken
                return (kind, content)
        raise Broken

    def list_of(self, read):
        """A list, of which each item is read by a function."""
        return [read() for _ in range(self.number(4))]

    def columns(self, count):
        """A list of columns with so many values each, which is not empty and names no column twice."""
        found = self.list_of(lambda: (self.name(), *(self.value() for _ in range(count))))
        if not found or len({column[0] for column in found}) != len(found):
            raise Broken
        return found
