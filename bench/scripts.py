"""Scripts: many INSERTs, commits, and a question to a database that lies there."""

import common
import opening
from beside import WAL, Job, let_go, milliseconds

COMMIT = b"COMMIT;\n"


def inserts(rows, every):
    """INSERTs of one row each, in transactions of so many."""
    for first in range(0, rows, every):
        yield b"".join(common.INSERT % (key, opening.mixed(key, rows)) for key in range(first, min(first + every, rows))) + COMMIT


def for_sqlite(transactions):
    """The same transactions in SQLite's words."""
    yield WAL + common.SETUP
    for transaction in transactions:
        yield b"BEGIN;\n" + transaction


def prepared(bench, rows, every):
    """The folder of a script and of an empty database."""

    def make(folder):
        common.written(f"{folder}/script", inserts(rows, every))
        common.written(f"{folder}/theirs", for_sqlite(inserts(rows, every)))

    return bench.once(f"script-{rows}-{every}", make)


def anew(bench, folder):
    common.make(bench.program, folder)
    return folder


def sides(bench, rows, every, of, with_peak=False):
    """What a script takes of each side, each time on an empty database."""

    def ours():
        folder = anew(bench, prepared(bench, rows, every))
        return of(bench.sql(folder, f"{folder}/script", with_peak=with_peak))

    def floor():
        folder = anew(bench, prepared(bench, rows, every))
        return of(bench.floor(folder, "script", "c1.log0", script=f"{folder}/script", with_peak=with_peak))

    def other():
        folder = prepared(bench, rows, every)
        let_go(f"{folder}/other")
        return of(bench.shell(folder, f"{folder}/theirs", "other", with_peak=with_peak))

    return ours, bench.with_floor(floor), bench.with_sqlite(other)


def asked(bench, rows):
    """A question by a new process, which opens the database."""

    def script():
        return common.written(f"{opening.rows_of(bench, rows)}/asked", [b"SELECT SUM(n) FROM t;\n"])

    return Job(
        f"script: SUM of {rows:,} rows by a new process",
        lambda: milliseconds(bench.sql(opening.rows_of(bench, rows), script())),
        bench.with_floor(lambda: milliseconds(bench.floor(opening.rows_of(bench, rows), "sum", "c1.log0"))),
        bench.with_sqlite(lambda: milliseconds(bench.shell(opening.rows_of(bench, rows), script(), "kept"))),
        "sqlite3, its file",
    )


def jobs(bench):
    rows, every = bench.size(1_000_000, 50_000), bench.size(100_000, 10_000)
    commits = bench.size(2_000, 100)
    pick = "sqlite3, WAL, full syncs"
    return [
        Job(f"script: {rows:,} one-row INSERTs, COMMIT each {every:,}", *sides(bench, rows, every, milliseconds), pick),
        Job("script: peak memory of that", *sides(bench, rows, every, lambda found: found.peak, True), pick, "MiB"),
        Job(f"commits: {commits:,} of one row", *sides(bench, commits, 1, milliseconds), pick),
        asked(bench, rows),
    ]
