"""What the measurements share: running a program, its peak memory, and tables."""

import argparse
import contextlib
import os
import shutil
import subprocess
import tempfile
import time
from typing import NamedTuple

# the script that makes the table that the rows go into: two INTEGERs, of which the first is the key
SETUP = b"CREATE TABLE t (id INTEGER PRIMARY KEY, n INTEGER);\n"
INSERT = b"INSERT INTO t VALUES (%d, %d);\n"
KIB = 1024
# what the names of a database's five files end in
SUFFIXES = ("root", "log0", "log1", "snap0", "snap1")


def arguments(about):
    """The words of a measurement: the program, and where its files are to lie."""
    parser = argparse.ArgumentParser(description=about)
    parser.add_argument("program", help="the proved program, as crates/dbremote/out/dbremote")
    parser.add_argument("--folder", default=".", help="the disk that is measured: a folder on it (default: the present one)")
    parser.add_argument("--times", type=int, default=3, help="how often each run is made (default 3)")
    parser.add_argument("--small", action="store_true", help="a tenth of each size, to see that it works")
    words = parser.parse_args()
    words.program = os.path.abspath(words.program)
    return words


@contextlib.contextmanager
def room(folder):
    """A new folder, which goes again."""
    made = tempfile.mkdtemp(prefix="dbremote-bench-", dir=os.path.abspath(folder))
    try:
        yield made
    finally:
        shutil.rmtree(made, ignore_errors=True)


class Failed(SystemExit):
    """A run did not end as it was to end. Where nobody catches it, it ends the measurement with its line."""


class Used(NamedTuple):
    """What a run took: seconds, seconds of the processor, and peak resident memory in MiB, which is at least what this process holds."""

    seconds: float
    processor: float
    peak: float


def used(words, script, folder, lines=subprocess.DEVNULL, statuses=(0,)):
    """Runs a program on a script, which is closed behind it; returns what it used."""
    with open(script, "rb") as source:
        begun = time.perf_counter()
        child = subprocess.Popen(words, stdin=source, stdout=lines, cwd=folder)
        _, status, found = os.wait4(child.pid, 0)
        seconds = time.perf_counter() - begun
    child.returncode = os.waitstatus_to_exitcode(status)
    if child.returncode not in statuses:
        raise Failed(f"{' '.join(words)} ended with status {child.returncode}")
    return Used(seconds, found.ru_utime + found.ru_stime, found.ru_maxrss / KIB)


def run(words, script, folder):
    """Runs the program on a script; returns its seconds, its peak resident memory in MiB, and what it wrote."""
    with open(f"{folder}/lines", "w+b") as lines:
        found = used(words, script, folder, lines)
        lines.seek(0)
        return found.seconds, found.peak, lines.read()


def middle(values):
    """The middle one of an odd number of values, the mean of the two in the middle of an even number."""
    values = sorted(values)
    return (values[(len(values) - 1) // 2] + values[len(values) // 2]) / 2


def written(path, lines):
    """Writes a script, line by line, for a child's peak begins at what this process holds; returns its path."""
    with open(path, "wb") as file:
        file.writelines(lines)
    return path


def fresh(folder, name):
    """Lets go of the files of a database."""
    for suffix in SUFFIXES:
        with contextlib.suppress(FileNotFoundError):
            os.remove(f"{folder}/{name}.{suffix}")


def copied(folder, name, into):
    """Copies a database's files into a folder, in place of those that it has."""
    for suffix in SUFFIXES:
        if os.path.exists(f"{folder}/{name}.{suffix}"):
            shutil.copy(f"{folder}/{name}.{suffix}", f"{into}/{name}.{suffix}")


def make(program, folder, name="c1", setup=SETUP, publisher="cons"):
    """Makes a database anew, with what a script makes."""
    fresh(folder, name)
    used([program, "init", name, publisher], os.devnull, folder)
    used([program, "sql", name], written(f"{folder}/setup", [setup]), folder)


def table(heads, rows):
    """Prints a table, each column as wide as it needs."""
    texts = [heads, *[[text if isinstance(text, str) else f"{text:,.2f}" if isinstance(text, float) else f"{text:,}" for text in row] for row in rows]]
    widths = [max(len(row[at]) for row in texts) for at in range(len(heads))]
    for row in texts:
        print("  ".join(text.rjust(width) for text, width in zip(row, widths)))
    print(flush=True)
