"""Opening a log that stands: its time, and its memory for a row."""

import common
import logs
from beside import Job, milliseconds

MIB = 1024 * 1024
WITH_TEXT = b"CREATE TABLE t (id INTEGER PRIMARY KEY, n INTEGER, s VARCHAR(32767));\n"
# how many rows there are at least, of those that the memory for a row is told from
PART = 10
# in long logs, each record inserts or deletes a row with so many letters; of the longest one so many bytes stay free
LETTERS, FREE = 30_000, 100_000
# how many texts there are
TEXTS = 1_000


def mixed(key, rows):
    """A number for a key, below the number of rows and another one for each: as if drawn."""
    return (key * 7_919 + 12_345) % rows


def text_of(key):
    return b"i%d" % (key % TEXTS)


def fill(bench, folder, rows, texts):
    """A database whose log has so many rows, one a transaction."""
    common.make(bench.program, folder, setup=WITH_TEXT if texts else common.SETUP)
    values = ((key, mixed(key, rows), *([text_of(key)] if texts else [])) for key in range(rows))
    logs.append(f"{folder}/c1.log0", (logs.inserted(logs.row(*row)) for row in values))


def dump(bench, folder, rows, texts):
    """A database of SQLite with these rows, in `kept`, and its dump."""
    column, value = (b", s VARCHAR", b", 'i' || (i %% %d)" % TEXTS) if texts else (b"", b"")
    common.written(
        f"{folder}/dumped",
        [
            b"CREATE TABLE t (id INTEGER PRIMARY KEY, n INTEGER%s);\n" % column,
            b"WITH RECURSIVE k(i) AS (SELECT 0 UNION ALL SELECT i + 1 FROM k WHERE i + 1 < %d)\n" % rows,
            b"INSERT INTO t SELECT i, (i * 7919 + 12345) %% %d%s FROM k;\n" % (rows, value),
            b".output dump\n.dump\n",
        ],
    )
    bench.shell(folder, f"{folder}/dumped", "kept")


def rows_of(bench, rows, texts=False):
    """The folder with these rows in a log, and with SQLite's where it is there."""

    def make(folder):
        fill(bench, folder, rows, texts)
        if bench.sqlite:
            dump(bench, folder, rows, texts)

    return bench.once(f"rows-{rows}{'-texts' if texts else ''}", make)


def long(bench, mib):
    """The folder of a log of nearly so many MiB, whose table stays small."""

    def make(folder):
        common.make(bench.program, folder, setup=WITH_TEXT)
        image = logs.row(1, 1, b"x" * LETTERS)
        pair = [logs.inserted(image), logs.deleted(image)]
        pairs = (mib * MIB - FREE) // sum(len(body) + logs.AROUND for body in pair)
        logs.append(f"{folder}/c1.log0", (body for _ in range(pairs) for body in pair))

    return bench.once(f"long-{mib}", make)


def opens(bench, name, folder_of, with_dump):
    """The time of opening."""
    return Job(
        f"opening: {name}",
        lambda: milliseconds(bench.sql(folder_of())),
        bench.with_floor(lambda: milliseconds(bench.floor(folder_of(), "keep", "c1.log0"))),
        bench.with_sqlite(lambda: milliseconds(bench.shell(folder_of(), f"{folder_of()}/dump", ":memory:"))) if with_dump else None,
        "sqlite3 reads its .dump" if with_dump else "",
    )


def memory(bench, name, rows, texts):
    """The memory for a row: by how much the peak grows from a tenth of the rows to all."""

    def beyond(peak_of):
        few, many = (rows_of(bench, size, texts) for size in (rows // PART, rows))
        return (peak_of(many) - peak_of(few)) * MIB / (rows - rows // PART)

    return Job(
        f"opening: memory, {name}",
        lambda: beyond(lambda folder: bench.sql(folder, with_peak=True).peak),
        bench.with_floor(lambda: beyond(lambda folder: bench.floor(folder, "keep", "c1.log0", with_peak=True).peak)),
        bench.with_sqlite(lambda: beyond(lambda folder: bench.shell(folder, f"{folder}/dump", ":memory:", with_peak=True).peak)),
        "sqlite3, in memory",
        "bytes a row",
    )


def longest(bench):
    """How many MiB the longest log has."""
    return bench.size(960, 40)


def jobs(bench):
    rows = bench.size(1_000_000, 50_000)
    many = f"{rows:,} rows"
    return [
        opens(bench, f"{many} of two INTEGERs", lambda: rows_of(bench, rows), True),
        opens(bench, f"{many} with a text", lambda: rows_of(bench, rows, True), True),
        opens(bench, f"a log of {longest(bench)} MiB", lambda: long(bench, longest(bench)), False),
        memory(bench, "two INTEGERs", rows, False),
        memory(bench, "with a text", rows, True),
    ]
