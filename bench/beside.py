"""What the jobs of bench/all.py are made of: the programs that are run, what is prepared once, and a row of the table."""

import os
import shutil
import subprocess
from dataclasses import dataclass
from typing import Callable, Optional

import common

HERE = os.path.dirname(os.path.abspath(__file__))
# a log of its own for each write, synced at each commit: what keeps a commit as dbremote does
WAL = b"PRAGMA journal_mode = WAL; PRAGMA synchronous = FULL;\n"
MILLISECONDS = 1_000


@dataclass
class Job:
    """A row of the table: what it is, its unit, and what tells one round of each side. A side that cannot be had is none."""

    name: str
    ours: Callable[[], float]
    floor: Optional[Callable[[], float]] = None
    other: Optional[Callable[[], float]] = None
    pick: str = ""
    unit: str = "ms"


@dataclass
class Growth:
    """A row of the second table: what a job takes at a size."""

    name: str
    size: int
    ours: Callable[[int], float]
    unit: str = "ms"


class Bench:
    """The programs, a folder, and what was prepared in it."""

    def __init__(self, program, folder, quick):
        self.program, self.folder, self.quick = program, folder, quick
        self.made = {}
        self.lacks = []
        self.floors = self.compiled("floors", "the floors")
        self.changesets = self.compiled("changesets", "SQLite's changesets", "-lsqlite3")
        self.sqlite = shutil.which("sqlite3")
        if not self.sqlite:
            self.lacks.append("sqlite3 is not there: what stands beside its shell is left out")

    def compiled(self, name, what, *libraries):
        """The path of a program that cc makes of its source, or none."""
        compiler = shutil.which("cc")
        if not compiler:
            self.lacks.append(f"cc is not there: {what} are left out")
            return None
        path = f"{self.folder}/{name}"
        done = subprocess.run([compiler, "-O3", "-o", path, f"{HERE}/{name}.c", *libraries], capture_output=True, check=False)
        if done.returncode != 0:
            self.lacks.append(f"bench/{name}.c was not compiled: {what} are left out ({done.stderr.decode(errors='replace').splitlines()[0]})")
            return None
        return path

    def size(self, whole, quick):
        """A size of a whole run, or of a quick one."""
        return quick if self.quick else whole

    def once(self, name, make):
        """The folder of what is prepared under a name, which is made at its first use."""
        if name not in self.made:
            self.made[name] = f"{self.folder}/{name}"
            os.mkdir(self.made[name])
            make(self.made[name])
        return self.made[name]

    def with_floor(self, side):
        return side if self.floors else None

    def with_sqlite(self, side):
        return side if self.sqlite else None

    def with_changesets(self, side):
        return side if self.changesets else None

    def used(self, words, script, folder, statuses=(0,), with_peak=False):
        """What a run takes. Its peak is exact only where it is asked for, and the floors are there."""
        if not with_peak or not self.floors:
            return common.used(words, script, folder, statuses=statuses)
        found = common.used([self.floors, "peak", f"{folder}/peak", *words], script, folder, statuses=statuses)
        with open(f"{folder}/peak", encoding="ascii") as file:
            return found._replace(peak=int(file.read()) / common.KIB)

    def sql(self, folder, script=os.devnull, statuses=(0,), with_peak=False):
        """What a run of a script takes."""
        return self.used([self.program, "sql", "c1"], script, folder, statuses, with_peak)

    def floor(self, folder, *words, script=os.devnull, with_peak=False):
        """What a floor takes as a whole process."""
        return self.used([self.floors, *map(str, words)], script, folder, with_peak=with_peak)

    def told(self, program, folder, *words):
        """The milliseconds that a floor or a changeset tells of itself."""
        done = subprocess.run([program, *map(str, words)], stdin=subprocess.DEVNULL, stdout=subprocess.PIPE, cwd=folder, check=False)
        if done.returncode != 0:
            raise common.Failed(f"{program} {words} ended with status {done.returncode}")
        return [float(word) for word in done.stdout.split()]

    def walked(self, folder, word, times, script=os.devnull):
        """The milliseconds of one walk of a floor over the rows of the log, which it prints nowhere."""
        words = [self.floors, "walk", "c1.log0", word, str(times), script]
        done = subprocess.run(words, stdin=subprocess.DEVNULL, stdout=subprocess.DEVNULL, stderr=subprocess.PIPE, cwd=folder, check=False)
        if done.returncode != 0:
            raise common.Failed(f"{words} ended with status {done.returncode}")
        return float(done.stderr)

    def shell(self, folder, script, *words, with_peak=False):
        """What a run of SQLite's shell takes."""
        return self.used([self.sqlite, "-batch", *words], script, folder, with_peak=with_peak)


def milliseconds(found):
    """The time of a run."""
    return found.seconds * MILLISECONDS


def let_go(path):
    """Removes a database of SQLite."""
    for suffix in ("", "-wal", "-shm", "-journal"):
        if os.path.exists(path + suffix):
            os.remove(path + suffix)
