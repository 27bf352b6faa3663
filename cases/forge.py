"""Message files as docs/FORMATS.md lays them out ("Messages"), true ones and forged ones."""

import hashlib

# A field of a step `forge`, and what stands where it is not given. Total and fragment are of the whole body where they are not given.
USUAL = {
    "magic": "53524d46",
    "version": "1",
    "from": "cons",
    "to": "r1",
    "resend": "0",
    "prev": "0",
    "upto": "0",
    "total": None,
    "start": "0",
    "fragment": None,
    "confirm": "0",
    "ask": "0,0",
    "body": "",
}


def number(text, length):
    """A number of so many bytes, big-endian."""
    return int(text).to_bytes(length, "big")


def name(text):
    """A name behind its length."""
    return bytes([len(text)]) + text.encode()


def bytes_of(text):
    """Bytes in hex; HEX*N is N times these."""
    plain, _, times = text.partition("*")
    return bytes.fromhex(plain) * int(times or 1)


def message(words):
    """The message file that fields `NAME=VALUE` say, with its digest."""
    fields = dict(USUAL)
    for word in words:
        field, _, value = word.partition("=")
        if field not in fields:
            raise ValueError(f"no field of a message: {word}")
        fields[field] = value
    body = bytes_of(fields["body"])
    fragment = body if fields["fragment"] is None else bytes_of(fields["fragment"])
    total = len(body) if fields["total"] is None else fields["total"]
    count, offset = fields["ask"].split(",")
    parts = [
        bytes.fromhex(fields["magic"]),
        number(fields["version"], 1),
        name(fields["from"]),
        name(fields["to"]),
        number(fields["resend"], 8),
        number(fields["prev"], 8),
        number(fields["upto"], 8),
        number(total, 4),
        number(fields["start"], 4),
        number(len(fragment), 4),
        fragment,
        number(fields["confirm"], 8),
        number(count, 8),
        number(offset, 8),
    ]
    plain = b"".join(parts)
    return plain + hashlib.sha256(plain).digest()
