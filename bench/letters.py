"""Message files that are written straight into a folder, as a partner's agent would have put them."""

import hashlib
import struct

HEAD = b"SRMF\1"


def letter(sender, receiver, upto, operations):
    """A message file with one transaction of some operations, which is the first that the sender gives."""
    body = struct.pack(">QI", upto, len(operations)) + b"".join(operations)
    names = b"".join(struct.pack(">B", len(name)) + name for name in (sender, receiver))
    plain = HEAD + names + struct.pack(">QQQIII", 0, 0, upto, len(body), 0, len(body)) + body + struct.pack(">QQQ", 0, 0, 0)
    return plain + hashlib.sha256(plain).digest()


def file_name(sender, number):
    """The name of a sender's message file."""
    return f"{sender}.{number:016x}"
