"""Inputs that somebody may have made to be slow: what each takes at one size and at twice that size."""

import itertools
import random

import common
import logs
import offices
import opening
from beside import Growth, milliseconds
from exchange import agent

MIB = 1024 * 1024
TWO_KEYS = b"CREATE TABLE t (id INTEGER, n INTEGER, PRIMARY KEY (id, n));\n"
# how many tables there may be
TABLES = 256
# how many publications users subscribe to
PUBLICATIONS = 128
# of so many rows all but one go
KEPT = 32
# of which kind the program's end may be where a log is damaged, and where a script is refused
DAMAGED, REFUSED = 3, 4
# the letters of a variable's name, so that the longest trigger comes near to 4 MiB, and how many references stand in one assignment
LETTERS, TOGETHER = 22, 5
ASSIGNED = "CREATE TRIGGER f RESOLVE UPDATE ON t REFERENCING OLD AS o NEW AS n REMOTE AS r FOR EACH ROW BEGIN "


def made(bench, name, setup, bodies):
    """The folder of a database whose log goes on with these records."""

    def make(folder):
        common.make(bench.program, folder, setup=setup)
        logs.append(f"{folder}/c1.log0", bodies)

    return bench.once(name, make)


def emptied(bench, rows):
    """A log that inserts rows and deletes 31 of each 32."""
    put = (logs.inserted(logs.row(key, key)) for key in range(rows))
    gone = (logs.deleted(logs.row(key, key)) for key in range(rows) if key % KEPT)
    return made(bench, f"emptied-{rows}", common.SETUP, itertools.chain(put, gone))


def falling(bench, rows):
    """A log whose keys fall."""
    return made(bench, f"falling-{rows}", common.SETUP, (logs.inserted(logs.row(rows - key, 7)) for key in range(rows)))


def two_keys(bench, rows):
    """A log of a table whose key has two columns."""
    return made(bench, f"two-keys-{rows}", TWO_KEYS, (logs.inserted(logs.row(1, key)) for key in range(rows)))


def turns(bench, rows):
    """A log each of whose entries is of another table than the one before it."""
    names = [b"t%d" % number for number in range(TABLES)]
    setup = b"".join(b"CREATE TABLE %s (id INTEGER PRIMARY KEY, n INTEGER);\n" % name for name in names)
    bodies = (logs.inserted(logs.row(key, key), names[key % TABLES]) for key in range(rows))
    return made(bench, f"turns-{rows}", setup, bodies)


def damaged(bench, rows):
    """A log with an entry that does not fit, and far behind it a record that is not as written."""

    def make(folder):
        common.make(bench.program, folder)
        path = f"{folder}/c1.log0"
        logs.append(path, (logs.inserted(logs.row(key, key)) for key in (0, *range(rows))))
        with open(path, "r+b") as file:
            file.seek(logs.end_of(path))
            file.write(b"\1")

    return bench.once(f"damaged-{rows}", make)


def opened(bench, folder, statuses=(0,)):
    return milliseconds(bench.sql(folder, statuses=statuses))


def ran(bench, name, lines, of=milliseconds, statuses=(0,), with_peak=False):
    """What a script takes on an empty database."""

    def make(folder):
        common.written(f"{folder}/script", lines)

    folder = bench.once(name, make)
    common.make(bench.program, folder)
    return of(bench.sql(folder, f"{folder}/script", statuses=statuses, with_peak=with_peak))


def one_statement(bytes_):
    """One INSERT of so many bytes, nothing of which is committed."""
    row = b",(%d,7)"
    yield b"INSERT INTO t VALUES (0,7)"
    written = 0
    for key in range(1, bytes_):
        line = row % key
        written += len(line)
        if written > bytes_ - 100:
            break
        yield line
    yield b";\n"


def undone(rows, times=100):
    """UPDATE and ROLLBACK a hundred times."""
    yield b"INSERT INTO t VALUES " + b", ".join(b"(%d, %d)" % (key, key) for key in range(rows)) + b";\nCOMMIT;\n"
    yield b"UPDATE t SET n = n + 1;\nROLLBACK;\n" * times


def subscriptions(many):
    """Users who subscribe to each of 128 publications, and each subscription is started."""
    for place in range(PUBLICATIONS):
        yield b"CREATE TABLE t%d (id INTEGER PRIMARY KEY, n INTEGER);\nCREATE PUBLICATION p%d (TABLE t%d);\n" % (place, place, place)
    for user in range(many // PUBLICATIONS):
        yield b"GRANT REMOTE TO u%d;\n" % user
        for place in range(PUBLICATIONS):
            yield b"CREATE SUBSCRIPTION TO p%d FOR u%d;\nSTART SUBSCRIPTION TO p%d FOR u%d;\n" % (place, user, place, user)


def trigger(references):
    """A trigger whose assignments refer to its variables, of which there is one for ten references, each as often as the others."""
    variables = references // 10
    names = [f"v{place:0{LETTERS - 1}}" for place in range(variables)]
    drawn = random.Random(1)
    yield (ASSIGNED + "".join(f"DECLARE {name} INTEGER;" for name in names)).encode()
    for place in range(references // TOGETHER):
        yield f"SET {names[place % variables]} = {' + '.join(drawn.choice(names) for _ in range(TOGETHER))};".encode()
    yield b" END;\n"


def filled_and_emptied(times, rows=1_000):
    """So many rows are put by one statement and deleted by another, so many times."""
    put = b"INSERT INTO t VALUES " + b", ".join(b"(%d, %d)" % (row, row) for row in range(rows)) + b";\nDELETE FROM t;\n"
    return (put for _ in range(times))


def idle(bench, partners):
    """A run with nothing to do, where nothing was ever sent."""
    return milliseconds(agent(bench, offices.nobodys(bench, partners, bench.size(10_000, 500)), "hq", "-s"))


def sent(bench, folder):
    """A run that sends, from a copy of a folder."""
    return milliseconds(agent(bench, offices.anew(bench, folder), "hq", "-s"))


def grows(bench):
    """The rows of the second table, each with the smaller size."""
    half = bench.size(500_000, 20_000)
    text = bench.size(31 * MIB, 2 * MIB)
    return [
        Growth("opening: MiB of log", opening.longest(bench) // 2, lambda mib: opened(bench, opening.long(bench, mib))),
        Growth("opening: rows, of which 31 of each 32 are deleted", half, lambda rows: opened(bench, emptied(bench, rows))),
        Growth("opening: rows whose keys fall", half, lambda rows: opened(bench, falling(bench, rows))),
        Growth("opening: rows, a key of two columns", half, lambda rows: opened(bench, two_keys(bench, rows))),
        Growth("opening: entries, each of another table", half, lambda rows: opened(bench, turns(bench, rows))),
        Growth("opening: records, the last damaged, the second unfit", half, lambda rows: opened(bench, damaged(bench, rows), (DAMAGED,))),
        Growth("script: one INSERT of so many bytes", text, lambda size: ran(bench, f"one-{size}", one_statement(size))),
        Growth("script: one INSERT, its peak memory", text, lambda size: ran(bench, f"one-{size}", one_statement(size), lambda found: found.peak, with_peak=True), "MiB"),
        Growth("script: COMMIT; and nothing else", 8 * half, lambda many: ran(bench, f"commits-{many}", (b"COMMIT;\n" for _ in range(many)))),
        Growth("script: ( in one condition, refused", half, lambda many: ran(bench, f"deep-{many}", [b"DELETE FROM t WHERE ", b"(" * many], statuses=(REFUSED,))),
        Growth("script: rows, UPDATE and ROLLBACK 100 times", half // 50, lambda rows: ran(bench, f"undone-{rows}", undone(rows))),
        Growth("script: 1,000 rows put and deleted, times", half // 1_000, lambda times: ran(bench, f"emptying-{times}", filled_and_emptied(times))),
        Growth("script: references in one CREATE TRIGGER", half // 10, lambda many: ran(bench, f"trigger-{many}", trigger(many))),
        Growth("script: subscriptions made and started", bench.size(2_048, 512), lambda many: ran(bench, f"subscribed-{many}", subscriptions(many))),
        Growth("agent: partners with nothing to do, never sent", bench.size(500, 20), lambda partners: idle(bench, partners)),
        *of_offices(bench),
    ]


def of_offices(bench):
    """The jobs of a head office with twice the partners, and with twice the log."""
    partners, rows = bench.size(500, 10), bench.size(10_000, 500)
    return [
        Growth("agent: partners, first send of 10,000 rows", partners, lambda count: sent(bench, offices.unsent(bench, count, rows))),
        Growth("agent: partners, one new row each", partners, lambda count: sent(bench, offices.one_each(bench, count, rows))),
        Growth("agent: partners, a letter from each", partners, lambda count: offices.receiving(bench, count).ours()),
        Growth("agent: rows that came in, 1,000 partners", rows, lambda count: milliseconds(agent(bench, offices.taken(bench, 2 * partners, count), "hq", "-s"))),
        Growth("agent: rows of a first send, 1,000 partners", rows, lambda count: sent(bench, offices.unsent(bench, 2 * partners, count))),
    ]
