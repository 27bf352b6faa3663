"""Questions and updates over all rows of a table, and at many keys: what one takes beyond opening."""

import common
import opening
from beside import MILLISECONDS, Job

ROLLBACK = b"ROLLBACK;\n"
BEGIN = b"BEGIN;\n"
# what sqlite3 loads its file with, before anything is measured
LOADED = b"SELECT n FROM t WHERE id = 0;\n"


def beyond(run, without, beyond_it, times):
    """The milliseconds of what a script has so many times, beyond a script without it."""
    before = run(without).seconds
    return (run(beyond_it).seconds - before) / times * MILLISECONDS


def walk(bench, rows, name, end, word, undone=False, times=10):
    """What is asked or done so many times in one run. Where it is undone, each time is a transaction."""
    times = bench.size(times, 2)

    def place():
        return opening.rows_of(bench, rows)

    def script(side, lines):
        return common.written(f"{place()}/walk-{side}", lines)

    def ours():
        repeated = [end + (ROLLBACK if undone else b"")] * times
        return beyond(lambda path: bench.sql(place(), path), script("empty", []), script("ours", repeated), times)

    def other():
        repeated = [(BEGIN if undone else b"") + end + (ROLLBACK if undone else b"")] * times
        return beyond(
            lambda path: bench.shell(place(), path, "-deserialize", "kept"), script("loaded", [LOADED]), script("theirs", [LOADED, *repeated]), times
        )

    floor = None if word is None else lambda: bench.walked(place(), word, times, script("points", [end]) if word == "points" else "/dev/null")
    return Job(f"walk: {name}", ours, bench.with_floor(floor) if floor else None, bench.with_sqlite(other), "sqlite3, in memory")


def jobs(bench):
    rows, points = bench.size(1_000_000, 50_000), bench.size(100_000, 5_000)
    updates = b"".join(b"UPDATE t SET n = %d WHERE id = %d;\n" % (place, opening.mixed(place * (rows // points), rows)) for place in range(points))
    return [
        walk(bench, rows, "COUNT(*)", b"SELECT COUNT(*) FROM t;\n", None),
        walk(bench, rows, "COUNT(*) WHERE", b"SELECT COUNT(*) FROM t WHERE n >= 0;\n", "count"),
        walk(bench, rows, "SUM", b"SELECT SUM(n) FROM t;\n", "sum"),
        walk(bench, rows, "MIN and MAX", b"SELECT MIN(n), MAX(n) FROM t;\n", "best"),
        walk(bench, rows, "SELECT that finds none", b"SELECT id FROM t WHERE n < 0;\n", "none"),
        walk(bench, rows, "SELECT of all", b"SELECT id, n FROM t;\n", "rows", times=3),
        walk(bench, rows, "SELECT of all, ORDER BY n DESC", b"SELECT id, n FROM t ORDER BY n DESC, id;\n", "order", times=3),
        walk(bench, rows, "UPDATE of each row, ROLLBACK", b"UPDATE t SET n = n + 1;\n", "update", undone=True, times=5),
        walk(bench, rows, f"{points:,} UPDATEs by key, ROLLBACK", updates, "points", undone=True, times=3),
    ]
