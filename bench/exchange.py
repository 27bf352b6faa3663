"""The agent between two offices: sending, receiving, and a run with nothing to do."""

import os
import shutil

import common
import logs
from beside import MILLISECONDS, Job, milliseconds

ABOVE = (
    b"CREATE TABLE t (id INTEGER PRIMARY KEY, n INTEGER); CREATE PUBLICATION p (TABLE t); GRANT REMOTE TO below;"
    b"CREATE SUBSCRIPTION TO p FOR below; START SUBSCRIPTION TO p FOR below;\n"
)
BELOW = (
    b"CREATE TABLE t (id INTEGER PRIMARY KEY, n INTEGER); GRANT CONSOLIDATE TO above; CREATE PUBLICATION p (TABLE t);"
    b"CREATE SUBSCRIPTION TO p FOR above; START SUBSCRIPTION TO p FOR above;\n"
)


def rows(many):
    """So many transactions of one row."""
    return (logs.inserted(logs.row(key, key * 7)) for key in range(many))


def unsent(bench, many):
    """The folder of a database above with so many transactions, of which none was sent."""

    def make(folder):
        common.make(bench.program, folder, "above", ABOVE, "above")
        logs.append(f"{folder}/above.log0", rows(many))

    return bench.once(f"unsent-{many}", make)


def untaken(bench, many):
    """The folder of an empty database below, with the files of so many transactions in its mail."""

    def make(folder):
        common.copied(unsent(bench, many), "above", folder)
        agent(bench, folder, "above", "-s")
        common.make(bench.program, folder, "below", BELOW, "below")

    return bench.once(f"untaken-{many}", make)


def all_sent(bench, many):
    """The folder of a database above with so many transactions, of which all were sent."""

    def make(folder):
        common.copied(unsent(bench, many), "above", folder)
        end = logs.end_of(f"{folder}/above.log0") - logs.HEADER
        logs.append(f"{folder}/above.log0", [logs.sent(b"below", end)])
        os.makedirs(f"{folder}/mail/above")

    return bench.once(f"sent-{many}", make)


def agent(bench, folder, name, *flags):
    """A run of the agent."""
    return common.used([bench.program, "agent", name, "--mail", "mail", *flags], os.devnull, folder, statuses=(0, 1))


def anew(bench, folder, name):
    """A folder with a copy of a database, and with no mail."""
    room = bench.once(f"anew-{name}", lambda folder: None)
    shutil.rmtree(f"{room}/mail", ignore_errors=True)
    common.copied(folder, name, room)
    return room


def send(bench, many):
    return Job(
        f"send: first send of {many:,} transactions",
        lambda: milliseconds(agent(bench, anew(bench, unsent(bench, many), "above"), "above", "-s")),
        bench.with_floor(lambda: milliseconds(bench.floor(anew(bench, unsent(bench, many), "above"), "send", "above.log0", "mail", 1, 0))),
        bench.with_changesets(lambda: bench.told(bench.changesets, bench.folder, "send", many, "changeset")[0]),
        "SQLite's changeset and its file, alone",
    )


def take(bench, name, many, of, other):
    """What receiving takes: the files stay where they are."""

    def ours():
        folder = untaken(bench, many)
        room = anew(bench, folder, "below")
        return of(common.used([bench.program, "agent", "below", "--mail", f"{folder}/mail", "-r", "-p"], os.devnull, room, statuses=(0, 1)))

    def floor():
        folder = untaken(bench, many)
        return of(bench.floor(anew(bench, folder, "below"), "take", f"{folder}/mail/below", "below.log0"))

    return Job(name, ours, bench.with_floor(floor), other, "SQLite applies as many changesets, alone" if other else "")


def applied(bench, many):
    for suffix in ("", "-wal", "-shm"):
        if os.path.exists(f"{bench.folder}/applied{suffix}"):
            os.remove(f"{bench.folder}/applied{suffix}")
    return bench.told(bench.changesets, bench.folder, "take", many, "applied")[0]


def idle(bench, many):
    """A run with nothing to do."""
    return Job(
        f"idle: a run with nothing to do, {many:,} transactions",
        lambda: milliseconds(agent(bench, all_sent(bench, many), "above")),
        bench.with_floor(lambda: milliseconds(bench.floor(all_sent(bench, many), "keep", "above.log0"))),
    )


def idle_beyond(bench, many):
    def ours():
        folder = all_sent(bench, many)
        opened = common.used([bench.program, "show", "above"], os.devnull, folder)
        return milliseconds(agent(bench, folder, "above")) - milliseconds(opened)

    return Job("idle: of it beyond opening", ours)


def jobs(bench):
    few, many = bench.size(10_000, 500), bench.size(1_000_000, 50_000)
    return [
        send(bench, few),
        take(bench, f"receive: {few:,} transactions", few, milliseconds, bench.with_changesets(lambda: applied(bench, few))),
        take(bench, "receive: of it the processor", few, lambda found: found.processor * MILLISECONDS, None),
        idle(bench, many),
        idle_beyond(bench, many),
    ]
