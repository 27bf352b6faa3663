"""A log that is begun anew: its time beyond opening beside a plain copy, its memory, and opening behind it."""

import os

import common
import exchange
import logs
import opening
from beside import MILLISECONDS, Job, milliseconds

MICROSECONDS = 1_000_000
NEVER = "the run without it"


def agent(bench, folder, name="c1", restarts=True, with_peak=False):
    """A receive pass alone, which finds nothing; behind a restart where it is to be."""
    words = [bench.program, "agent", name, "--mail", "mail", "-r", *(["-x"] if restarts else [])]
    return bench.used(words, os.devnull, folder, with_peak=with_peak)


def entries(bench, rows):
    """The folder of a database whose rows each came by an entry of the log; nobody needs any."""

    def make(folder):
        opening.fill(bench, folder, rows, False)

    return bench.once(f"entries-{rows}", make)


def snapshot(bench, rows):
    """The folder of a database whose rows all stand in the snapshot, and nothing in the log behind it."""

    def make(folder):
        common.copied(entries(bench, rows), "c1", folder)
        agent(bench, folder)

    return bench.once(f"snapshot-{rows}", make)


def kept(bench, rows):
    """The folder of a database with a partner who has confirmed nothing, and needs all entries but those of the catalog; its log was begun anew before them."""

    def make(folder):
        common.make(bench.program, folder, "above", exchange.ABOVE, "above")
        agent(bench, folder, "above")
        logs.append(f"{folder}/above.log1", exchange.rows(rows))

    return bench.once(f"kept-{rows}", make)


def in_force(folder, name):
    """The snapshot and the log in force."""
    with open(f"{folder}/{name}.root", "rb") as file:
        generation = file.read(1)[0] % 2
    return f"{name}.snap{generation}", f"{name}.log{generation}"


def copy(bench, folder, name):
    """The milliseconds of a floor that copies a snapshot and a log, and syncs both and a root behind them."""
    return milliseconds(bench.floor(folder, "copy", *in_force(folder, name), "copied"))


def beyond(bench, folder, name, anew=None):
    """The milliseconds of a restart beyond the run without it. Where a folder is given, the database is as it is there each time, and not as the last time left it."""
    if anew:
        common.copied(anew, name, folder)
    before = agent(bench, folder, name, False).seconds
    return (agent(bench, folder, name).seconds - before) * MILLISECONDS


def as_entries(bench, rows):
    """A folder for restarts of what stands as entries."""
    return bench.once(f"restarted-{rows}", lambda folder: None)


def read(bench, rows):
    """The milliseconds of a floor that reads the snapshot and the log in force."""
    return milliseconds(bench.floor(snapshot(bench, rows), "read", *in_force(snapshot(bench, rows), "c1")))


def opened(bench, rows):
    """The milliseconds of a run of an empty script on rows of a snapshot."""
    return milliseconds(bench.sql(snapshot(bench, rows)))


def memory(bench, rows):
    """The memory for a row of a snapshot: by how much the peak grows from a tenth of the rows to all."""
    few, many = (bench.sql(snapshot(bench, size), with_peak=True).peak for size in (rows // opening.PART, rows))
    return (many - few) * opening.MIB / (rows - rows // opening.PART)


def peaks(bench, name, folder_of, database="c1"):
    """The peak memory of a restart, beside that of the same run without it."""
    return Job(
        f"restart: peak memory, {name}",
        lambda: agent(bench, folder_of(), database, True, True).peak,
        None,
        lambda: agent(bench, folder_of(), database, False, True).peak,
        NEVER,
        "MiB",
    )


def jobs(bench):
    rows = bench.size(1_000_000, 50_000)
    return [
        Job(
            f"restart: {rows:,} rows, each of an entry",
            lambda: beyond(bench, as_entries(bench, rows), "c1", entries(bench, rows)),
            bench.with_floor(lambda: copy(bench, snapshot(bench, rows), "c1")),
        ),
        Job(
            f"restart: {rows:,} rows of a snapshot",
            lambda: beyond(bench, snapshot(bench, rows), "c1"),
            bench.with_floor(lambda: copy(bench, snapshot(bench, rows), "c1")),
        ),
        Job(
            f"restart: {rows:,} entries that are kept",
            lambda: beyond(bench, kept(bench, rows), "above"),
            bench.with_floor(lambda: copy(bench, kept(bench, rows), "above")),
        ),
        peaks(bench, "rows of a snapshot", lambda: snapshot(bench, rows)),
        peaks(bench, "entries that are kept", lambda: kept(bench, rows), "above"),
        Job(f"opening: {rows:,} rows of a snapshot", lambda: opened(bench, rows), bench.with_floor(lambda: read(bench, rows))),
        Job(
            "opening: of it beyond reading the bytes",
            lambda: (opened(bench, rows) - (read(bench, rows) if bench.floors else 0)) / MILLISECONDS * MICROSECONDS / rows,
            unit="microseconds a row",
        ),
        Job("opening: memory, rows of a snapshot", lambda: memory(bench, rows), unit="bytes a row"),
    ]
