"""A log at its limits: the last record that has room is told from the first that has none.

    python3 cases/full.py PROGRAM [--folder F]

A transaction may end the log file at 1,006,632,960 bytes and a note of a partner's book at 1,073,741,824. A log is written up to the place
from which the next record ends the file there, or a byte behind it: the first is committed and stands after it is opened again, the second is
refused with `full END NEED` and status 9, and the file stays as it was. The logs are written straight into the file, each record a transaction
that inserts or deletes one row with a text of 30,000 letters, so that the table stays small.
"""

import argparse
import os
import struct
import subprocess
import sys

sys.path.insert(0, os.path.join(os.path.dirname(os.path.abspath(__file__)), "..", "bench"))
import common  # noqa: E402
import logs  # noqa: E402

MIB = 1024 * 1024
TRANSACTIONS = 960 * MIB
NOTES = 1024 * MIB
SCRIPT = b"""CREATE TABLE t (id INTEGER PRIMARY KEY, s VARCHAR(32767));
CREATE TABLE u (id INTEGER PRIMARY KEY, n INTEGER);
CREATE PUBLICATION p (TABLE u);
GRANT REMOTE TO r1;
GRANT REMOTE TO r2;
CREATE SUBSCRIPTION TO p FOR r1;
START SUBSCRIPTION TO p FOR r1;
INSERT INTO u VALUES (1, 1);
COMMIT;
"""
# the message's note: tag, name, tag, offset, count, offset, with the length before it and the gate behind
NOTE = 1 + 3 + 1 + 8 + 4 + 8 + 5
# the record of `INSERT INTO u VALUES (2, 2)`: tag, count, name, two options, a row of two INTEGERs
ROW = 1 + 4 + 2 + 1 + 1 + 4 + 10 + 5


def record(body):
    """A record between two gates: its length, the body, an open gate behind it."""
    return struct.pack(">I", len(body)) + body + b"\1"


def change(key, letters, goes):
    """A transaction that inserts a row of table t, or deletes it."""
    image = logs.row(key, b"x" * letters)
    return record(logs.deleted(image) if goes else logs.inserted(image))


def note(offset):
    """A note that one message was put for r2."""
    return record(logs.sent(b"r2", offset))


def fill(path, wanted):
    """Goes on with transactions until the first closed gate stands at `wanted`."""
    at, shortest = logs.end_of(path), len(change(1, 0, False))
    pair = change(1, 30_000, False) + change(1, 30_000, True)
    with open(path, "r+b") as file:
        file.seek(at)
        file.write(b"\1")
        while wanted - at >= len(pair) + 2 * shortest:
            file.write(pair)
            at += len(pair)
        # what is left is filled by two rows and stays
        first = (wanted - at) // 2
        for key, length in ((1, first), (2, wanted - at - first)):
            file.write(change(key, length - shortest, False))
        close(file, wanted)


def close(file, gate):
    """Closes the gate at this place, the last byte of the file."""
    file.seek(gate)
    file.write(b"\0")
    file.truncate()
    file.flush()
    os.fsync(file.fileno())


def fill_with_notes(path, wanted, offset):
    """Goes on with notes, until the first closed gate stands at `wanted`; `wanted` is a whole number of notes away."""
    with open(path, "r+b") as file:
        file.seek(0, 2)
        at = file.tell() - 1
        count, rest = divmod(wanted - at, len(note(offset)))
        assert rest == 0
        file.seek(at)
        file.write(b"\1")
        many = note(offset) * 10_000
        while count >= 10_000:
            file.write(many)
            count -= 10_000
        file.write(note(offset) * count)
        close(file, wanted)


def answer(words, text, folder):
    """Runs the program on a script; returns its status and its lines."""
    ran = subprocess.run(words, input=text, stdout=subprocess.PIPE, cwd=folder)
    return ran.returncode, ran.stdout.decode().splitlines()


def made(program, folder):
    """A database with a partner, to whom one row is to be sent. Returns the log's path."""
    common.fresh(folder, "c1")
    for words, text in ((["init", "c1", "cons"], b""), (["sql", "c1"], SCRIPT)):
        status, lines = answer([program, *words], text, folder)
        if status:
            sys.exit(f"{words}: {status} {lines}")
    os.makedirs(f"{folder}/mail/cons", exist_ok=True)
    os.makedirs(f"{folder}/mail/r1", exist_ok=True)
    return f"{folder}/c1.log0"


def at_limit(program, folder, limit, past, begin, words_of, text, done):
    """Tries one record that ends the file at `limit`, or `past` bytes behind it. Returns whether it is answered as it is to be."""
    path = made(program, folder)
    offset = logs.end_of(path) - logs.HEADER
    need = ROW if text else NOTE
    gate = limit - 1 - need + past
    begin(path, gate, offset)
    status, lines = answer([program, *words_of], text, folder)
    length, wanted = os.path.getsize(path), done(offset, gate) if past == 0 else (9, [f"full {gate + 1} {need}"])
    again, _ = answer([program, "show", "c1"], b"", folder)
    kept = length == (limit if past == 0 else gate + 1)
    right = status == wanted[0] and lines[-len(wanted[1]):] == wanted[1] and kept and again == 0
    print(f"{'right' if right else 'WRONG'}: {' '.join(words_of[:1])} behind {gate + 1} bytes: {status} {lines[-1:]}, {length} bytes", flush=True)
    return right


def main():
    parser = argparse.ArgumentParser(description="A log at its limits.")
    parser.add_argument("program", help="the proved program, as crates/dbremote/out/dbremote")
    parser.add_argument("--folder", default=".", help="where the logs are to lie (default: the present folder)")
    words = parser.parse_args()
    program, right = os.path.abspath(words.program), True
    with common.room(words.folder) as folder:
        for past in (0, 1):
            right &= at_limit(
                program, folder, TRANSACTIONS, past, lambda path, gate, offset: fill(path, gate), ["sql", "c1"],
                b"INSERT INTO u VALUES (2, 2);\nCOMMIT;\n", lambda offset, gate: (0, ["1 rows", f"committed {gate - logs.HEADER + ROW}"]),
            )
        size = len(note(0))

        def notes(path, gate, offset):
            fill(path, TRANSACTIONS - 1 - 100 - (TRANSACTIONS - 101 - gate) % size)
            fill_with_notes(path, gate, offset)

        for past in (0, 1):
            right &= at_limit(
                program, folder, NOTES, past, notes, ["agent", "c1", "--mail", "mail", "-s"], b"",
                lambda offset, gate: (0, [f"to r1 put 1 up to {offset}", f"to r2 put 0 up to {offset}"]),
            )
    sys.exit(0 if right else 1)


if __name__ == "__main__":
    main()
