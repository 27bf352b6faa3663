"""Every job of dbremote beside its floor, and beside what a user would pick instead: one command, one table.

    python3 bench/all.py [--program P] [--folder F] [--only WORD] [--rounds N] [--quick]

A floor is a plain C loop that does the same work on the same bytes with the same syncs (bench/floors.c, which is compiled by cc). What stands beside is named in
each row: the shell sqlite3, or SQLite's session extension (bench/changesets.c, where its headers are there). What is not there is said, and left out. All sides
of a row are run in turn, round by round, since machines change their pace: the figures are the middles of the rounds, and the ratios are the middles of what
each round says. `ours / floor` is 2.0 where dbremote takes twice as long as the floor; `ours / other` is 2.0 where it takes twice as long as the other one.
Of a walk, opening is not counted, and of SQLite's loading neither; SQLite's changesets are timed alone; all else are whole processes. A row that takes long is
made in fewer rounds.

The second table has inputs that somebody may have made to be slow, at one size and at twice that: a growth of 2 is wanted.

The first lines tell how fast the machine is, so that tables of two machines can be compared: a chain of 100 million steps each of which waits for the one
before it, 256 MiB of memory touched for the first time, and 200 commits with two syncs each.
"""

import argparse
import os
import platform
import sys
import time

import common
import exchange
import hostile
import offices
import opening
import restarts
import scripts
import walks
from beside import Bench

TOP = os.path.dirname(os.path.dirname(os.path.abspath(__file__)))
# where the program lies, the first that is there
PROGRAMS = ("release/dbremote", "crates/dbremote/out/dbremote")
# how many seconds the rounds of a row may take until no more is begun
LONG = 25
SYNCS = 200


def words_of():
    parser = argparse.ArgumentParser(description=__doc__, formatter_class=argparse.RawDescriptionHelpFormatter)
    parser.add_argument("--program", help=f"the program (default: {' or '.join(PROGRAMS)})")
    parser.add_argument("--folder", default=".", help="the disk that is measured: a folder on it, for files that go again (default: the present one)")
    parser.add_argument("--only", default="", metavar="WORD", help="only rows with this in their names")
    parser.add_argument("--rounds", type=int, default=5, help="how many rounds are made of each row (default 5)")
    parser.add_argument("--quick", action="store_true", help="small sizes and one round, to see that it works")
    words = parser.parse_args()
    there = [path for path in (f"{TOP}/{place}" for place in PROGRAMS) if os.access(path, os.X_OK)]
    if not words.program and not there:
        sys.exit("there is no program: name one by --program")
    words.program = os.path.abspath(words.program or there[0])
    return words


def figure(value):
    """A number with as many digits as say something."""
    if value is None:
        return ""
    return f"{value:,.0f}" if abs(value) >= 100 else f"{value:.1f}" if abs(value) >= 10 else f"{value:.2f}"


def ratio(ours, others):
    """The middle of the rounds' ratios, where there are two sides and both take time."""
    if not ours or not others or min(others) <= 0 or min(ours) <= 0:
        return ""
    return figure(common.middle([our / other for our, other in zip(ours, others)]))


def in_turn(words, sides):
    """What each side says in each round. A round before them prepares what is needed; it counts where quickness is wanted, and where more would take too long."""
    there = [side for side in sides if side]
    begun = time.perf_counter()
    found = [[side()] for side in there]
    if not words.quick and time.perf_counter() - begun <= LONG:
        found = [[] for _ in there]
        begun = time.perf_counter()
        for at in range(words.rounds):
            if at > 0 and time.perf_counter() - begun > LONG:
                break
            for side, values in zip(there, found):
                values.append(side())
    told = iter(found)
    return [next(told) if side else None for side in sides]


def tried(words, name, sides):
    """What the sides say, or none of them where one fails, which is said at once."""
    begun = time.perf_counter()
    try:
        found = in_turn(words, sides)
    except (common.Failed, OSError) as failure:
        print(f"{name}: {failure}", file=sys.stderr, flush=True)
        return [None for _ in sides]
    print(f"{name}: in {time.perf_counter() - begun:.0f} s", file=sys.stderr, flush=True)
    return found


def middle(values):
    return common.middle(values) if values else None


def rounds(values):
    """How many rounds were made."""
    return str(len(values)) if values else "failed"


def rows_of(words, jobs):
    """The rows of the first table."""
    for job in jobs:
        ours, floors, others = tried(words, job.name, [job.ours, job.floor, job.other])
        beside = [figure(middle(floors)), ratio(ours, floors), figure(middle(others)), ratio(ours, others), job.pick if others else ""]
        yield [job.name, job.unit, figure(middle(ours)), *beside, rounds(ours)]


def growths_of(words, rows):
    """The rows of the second table."""
    for row in rows:
        once, twice = tried(words, row.name, [lambda row=row: row.ours(row.size), lambda row=row: row.ours(2 * row.size)])
        yield [row.name, row.unit, f"{row.size:,}", figure(middle(once)), f"{2 * row.size:,}", figure(middle(twice)), ratio(twice, once), rounds(once)]


def print_table(heads, rows):
    """A table in Markdown, each column as wide as it needs; a column in which nothing stands is left out."""
    if not rows:
        return
    there = [at for at in range(len(heads)) if any(row[at] for row in rows)]
    rows = [[row[at] for at in there] for row in (heads, *rows)]
    widths = [max(map(len, column)) for column in zip(*rows)]
    rows.insert(1, ["-" * width for width in widths])
    for row in rows:
        print("| " + " | ".join(text.ljust(width) if at == 0 else text.rjust(width) for at, (text, width) in enumerate(zip(row, widths))) + " |")
    print(flush=True)


def processor():
    """What the machine says of its processor."""
    try:
        with open("/proc/cpuinfo", encoding="utf-8") as file:
            return next(line.split(":", 1)[1].strip() for line in file if line.startswith("model name"))
    except (OSError, StopIteration):
        return platform.processor() or "a processor without a name"


def print_machine(words, bench):
    """How fast the machine is."""
    print(f"{processor()}, {os.cpu_count()} threads, {platform.system()} {platform.release()}")
    if bench.floors:
        loops = [bench.told(bench.floors, bench.folder, "machine") for _ in range(words.rounds)]
        syncs = [bench.told(bench.floors, bench.folder, "syncs", "syncs", SYNCS)[0] for _ in range(words.rounds)]
        steps, touched = ([loop[at] for loop in loops] for at in (0, 1))
        print(f"100 million steps {figure(common.middle(steps))} ms; 256 MiB touched {figure(common.middle(touched))} ms; ", end="")
        print(f"{SYNCS} commits with two syncs each {figure(common.middle(syncs))} ms")
    for line in bench.lacks:
        print(line)
    print(flush=True)


def main():
    words = words_of()
    with common.room(words.folder) as folder:
        bench = Bench(words.program, folder, words.quick)
        jobs = [job for part in (opening, restarts, scripts, walks, exchange, offices) for job in part.jobs(bench) if words.only in job.name]
        hard = [row for row in hostile.grows(bench) if words.only in row.name]
        print_machine(words, bench)
        heads = ["job", "unit", "ours", "floor", "ours / floor", "other", "ours / other", "what the other is", "rounds"]
        print_table(heads, list(rows_of(words, jobs)))
        print_table(["input", "unit", "size", "ours", "twice the size", "ours", "growth", "rounds"], list(growths_of(words, hard)))


if __name__ == "__main__":
    main()
