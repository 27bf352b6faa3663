"""What a log gives a partner, what updates from partners come to, and synchronizing a table.

    python3 bench/replication.py crates/test_replication/out/test_replication crates/dbremote/out/dbremote [--folder F] [--times N] [--small]

`scan` reads a log of 1,000,000 transactions that insert one row each, with the statements before it that make a table whose rows go to partners by a
column's value, and feeds the entries to a scanner for one partner: microseconds an entry beyond reading it, for 100 to 60,000 started
subscriptions. `judge` judges updates by key from below
on tables of growing size: microseconds an update, which is to grow with the logarithm of the rows. `synchronize` is a SYNCHRONIZE of a table of
growing size by the program: seconds beyond the same script without it, which are to grow with the rows and their logarithm.
"""

import argparse
import struct

import common

# how many rows an INSERT of the program has
TOGETHER = 1_000
UPDATES = 200_000


def body(entry):
    """An entry behind its length."""
    return struct.pack(">I", len(entry)) + entry


def statement(text):
    """The entry of a statement on the catalog."""
    return body(b"\3" + struct.pack(">I", len(text)) + text.encode())


def transaction(key, value):
    """The entry of a transaction that inserts the row (key, value) into t."""
    row = struct.pack(">IBiBI", 2, 1, key, 3, len(value)) + value.encode()
    return body(b"\1" + struct.pack(">I", 1) + b"\1t" + b"\0\1" + row)


def log(subscriptions, rows):
    """A log's bodies: a table that is parted among at most 1,000 partners, and the transactions, whose values go round."""
    users = min(subscriptions, 1_000)
    made = ["CREATE TABLE t (id INTEGER NOT NULL, rep VARCHAR(8), PRIMARY KEY (id))", "CREATE PUBLICATION p (TABLE t SUBSCRIBE BY rep)"]
    made += [f"GRANT REMOTE TO u{user}" for user in range(users)]
    for word in ("CREATE", "START"):
        made += [f"{word} SUBSCRIPTION TO p ('v{number}') FOR u{number % users}" for number in range(subscriptions)]
    return b"".join([*map(statement, made), *(transaction(key, f"v{key % subscriptions}") for key in range(rows))])


def least(words, program, arguments, source, folder):
    """The least time of some runs of a program, and what it wrote."""
    runs = [common.run([program, *arguments], source, folder) for _ in range(words.times)]
    return min(run[0] for run in runs), runs[0][2].decode().strip()


def scans(words, folder, rows):
    """Microseconds an entry beyond reading it."""
    table = []
    for subscriptions in (100, 1_000, 10_000, 60_000):
        with open(f"{folder}/bodies", "wb") as file:
            file.write(log(subscriptions, rows))
        empty, _ = written(folder, "made", log(subscriptions, 0))
        read, _ = least(words, words.program, ["read"], f"{folder}/bodies", folder)
        scanned, told = least(words, words.program, ["scan", "u0"], f"{folder}/bodies", folder)
        begun, _ = least(words, words.program, ["scan", "u0"], empty, folder)
        table.append((subscriptions, read, scanned, begun, (scanned - begun - read) / rows * 1_000_000, told))
    common.table(("subscriptions", "read, s", "scan, s", "of it the statements, s", "microseconds an entry", "told"), table)


def written(folder, name, data):
    """The path of a file with these bytes, and their number."""
    with open(f"{folder}/{name}", "wb") as file:
        file.write(data)
    return f"{folder}/{name}", len(data)


def judgings(words, folder, rows):
    """Microseconds an update."""
    nothing, _ = written(folder, "nothing", b"")
    table = []
    for size in (rows // 100, rows // 10, rows):
        loaded, _ = least(words, words.program, ["update", str(size), "0"], nothing, folder)
        judged, told = least(words, words.program, ["update", str(size), str(UPDATES)], nothing, folder)
        table.append((size, loaded, judged, (judged - loaded) / UPDATES * 1_000_000, told))
    common.table(("rows", "loaded, s", "judged, s", "microseconds an update", "told"), table)


def synchronizations(words, folder, rows):
    """Seconds of a SYNCHRONIZE beyond the same script without it."""
    made = b"CREATE PUBLICATION p (TABLE t); GRANT REMOTE TO r1; CREATE SUBSCRIPTION TO p FOR r1; START SUBSCRIPTION TO p FOR r1;\n"
    table = []
    for size in (rows // 4, rows // 2, rows):
        inserts = [
            b"INSERT INTO t VALUES " + b", ".join(b"(%d, %d)" % (key, key % 1_000) for key in range(at, at + TOGETHER)) + b"; COMMIT;\n"
            for at in range(0, size, TOGETHER)
        ]
        times = []
        for end in (b"", b"SYNCHRONIZE SUBSCRIPTION TO p FOR r1;\n"):
            script, _ = written(folder, "script", b"".join([made, *inserts, end]))
            runs = []
            for _ in range(words.times):
                common.make(words.database, folder)
                runs.append(common.run([words.database, "sql", "c1"], script, folder)[0])
            times.append(min(runs))
        table.append((size, times[0], times[1], times[1] - times[0]))
    common.table(("rows", "without, s", "with, s", "SYNCHRONIZE, s"), table)


def main():
    parser = argparse.ArgumentParser(description="Measures what a log gives, judging and SYNCHRONIZE.")
    parser.add_argument("program", help="the proved crates/test_replication/out/test_replication")
    parser.add_argument("database", help="the proved crates/dbremote/out/dbremote")
    parser.add_argument("--folder", default=".", help="the disk that is measured: a folder on it (default: the present one)")
    parser.add_argument("--times", type=int, default=3, help="how often each run is made; the least time counts (default 3)")
    parser.add_argument("--small", action="store_true", help="a tenth of each size, to see that it works")
    words = parser.parse_args()
    words.program, words.database = map(common.os.path.abspath, (words.program, words.database))
    rows = 100_000 if words.small else 1_000_000
    with common.room(words.folder) as folder:
        scans(words, folder, rows)
        judgings(words, folder, rows)
        synchronizations(words, folder, rows)


if __name__ == "__main__":
    main()
