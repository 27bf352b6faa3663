"""Refuses each growth of memory of runs of a built program. ../growths.sh says what for."""

import os
import shutil
import subprocess
import sys
import tempfile
from typing import NamedTuple

HERE = os.path.dirname(os.path.abspath(__file__))
NO_MEMORY = 8
LACKS = "out of memory\n"
CUST = "CREATE TABLE cust (id INTEGER PRIMARY KEY, rep VARCHAR(8), qty INTEGER);"
ABOVE = f"""{CUST}
CREATE PUBLICATION p (TABLE cust SUBSCRIBE BY rep);
GRANT REMOTE TO r1; GRANT REMOTE TO r2;
CREATE SUBSCRIPTION TO p ('A') FOR r1; CREATE SUBSCRIPTION TO p ('B') FOR r2;
START SUBSCRIPTION TO p ('A') FOR r1; START SUBSCRIPTION TO p ('B') FOR r2;"""
BELOW = f"""{CUST}
GRANT CONSOLIDATE TO cons;
CREATE PUBLICATION p (TABLE cust);
CREATE SUBSCRIPTION TO p FOR cons;
START SUBSCRIPTION TO p FOR cons;"""
DATABASES = ("cons", "r1")


class Run(NamedTuple):
    """A run: its words and its script, what it prints, and its status."""

    words: tuple
    script: str
    lines: str
    status: int


class Loss(NamedTuple):
    """A file that is lost between two runs."""

    address: str
    name: str


def sql(name, script, *lines):
    return Run(("sql", name), script, "".join(line + "\n" for line in lines), 0)


def agent(name, *lines, status=0):
    return Run(("agent", name, "--mail", "box"), "", "".join(line + "\n" for line in lines), status)


def inserted(key, offset):
    return sql("cons", f"INSERT INTO cust VALUES ({key}, 'A', 10); COMMIT;", "1 rows", f"committed {offset}")


def sent(upto, others):
    return agent("cons", "from r1 took 0 up to 0", "from r2 took 0 up to 0", f"to r1 put 1 up to {upto}", others)


# a row that moves from one partner to another
MOVED = [
    inserted(1, 435),
    sql("cons", "UPDATE cust SET rep = 'B' WHERE id = 1; COMMIT;", "1 rows", "committed 492"),
    sent(492, "to r2 put 1 up to 492"),
    agent("r1", "from cons took 2 up to 492", "to cons put 1 up to 0"),
]
# a file that is lost and asked for again
ASKED = [
    inserted(1, 435),
    sent(435, "to r2 put 0 up to 0"),
    inserted(2, 502),
    sent(502, "to r2 put 0 up to 0"),
    inserted(3, 569),
    sent(569, "to r2 put 0 up to 0"),
    Loss("r1", "cons.0000000000000002"),
    agent("r1", "from cons took 1 up to 435", "gap cons 435 569", "to cons put 1 up to 0", status=1),
    agent("cons", "from r1 took 0 up to 0", "from r2 took 0 up to 0", "to r1 put 1 up to 569", "to r2 put 0 up to 0"),
    agent("r1", "from cons took 2 up to 569", "to cons put 1 up to 0"),
]
ROWS = {"a row that moves": MOVED, "a file that is lost": ASKED}


class Wrong(Exception):
    """A run did something else than it is to do."""


class Trial:
    """A program and the library that refuses, and a folder in which the databases lie."""

    def __init__(self, program, library, room):
        self.program, self.library, self.room = program, library, room
        self.folder = f"{room}/now"
        self.counted = f"{room}/counted"

    def run(self, run, refused=0):
        """What a run prints, its status, and how many growths it asked for."""
        surroundings = {**os.environ, "LD_PRELOAD": self.library, "REFUSED": str(refused), "COUNTED": self.counted}
        done = subprocess.run([self.program, *run.words], cwd=self.folder, env=surroundings, input=run.script.encode(), capture_output=True, check=False)
        with open(self.counted, encoding="ascii") as file:
            return done.stdout.decode(), done.returncode, int(file.read())

    def begin(self):
        """Makes the databases."""
        shutil.rmtree(self.folder, ignore_errors=True)
        os.mkdir(self.folder)
        for name, script in zip(DATABASES, (ABOVE, BELOW)):
            self.run(Run(("init", name, name), "", "", 0))
            self.run(Run(("sql", name), script, "", 0))

    def keep(self):
        """Keeps the folder as it is."""
        shutil.rmtree(f"{self.room}/before", ignore_errors=True)
        shutil.copytree(self.folder, f"{self.room}/before")

    def back(self):
        """Puts the folder back."""
        shutil.rmtree(self.folder)
        shutil.copytree(f"{self.room}/before", self.folder)

    def end(self):
        """The rows of both databases, and of each partner what was sent to him and taken from him."""
        found = []
        for name in DATABASES:
            found.append(self.run(Run(("sql", name), "SELECT * FROM cust ORDER BY id;", "", 0))[0])
            shown = self.run(Run(("show", name), "", "", 0))[0].splitlines()
            found += [(line.split()[1], *line.split()[5:7]) for line in shown if line.startswith("user ")]
        return found

    def refuse(self, run, number, before, after):
        """A run of which one growth is refused, and one more; answers whether the first was ended by it. A line that is told goes out in pieces where it
        cannot be held, so that a run may do all that it is to do."""
        self.back()
        lines, status, _ = self.run(run, number)
        if (lines, status) == (run.lines, run.status):
            if self.end() != after:
                raise Wrong(f"it ends as if nothing had been refused, and leaves {self.end()}")
            return False
        told = lines.removesuffix(LACKS)
        if status != NO_MEMORY or not run.lines.startswith(told) or (told and not told.endswith("\n")):
            raise Wrong(f"it prints\n{lines}and ends with {status}")
        if run.words[0] == "sql":
            # who gives a script looks what was committed of it
            if self.end() == after:
                return True
            if self.end() != before:
                raise Wrong(f"it leaves {self.end()}")
        self.run(run)
        if self.end() != after:
            raise Wrong(f"one more run leaves {self.end()}, and is to leave {after}")
        return True

    def row(self, steps, step):
        """All runs of a row, of each of which each growth is refused once; every so many of them where not each is wanted. Answers how many runs were ended by
        it, and how many went on."""
        self.begin()
        counts = [0, 0]
        for number, run in enumerate(steps, 1):
            if isinstance(run, Loss):
                os.remove(f"{self.folder}/box/{run.address}/{run.name}")
                continue
            before = self.end()
            self.keep()
            lines, status, count = self.run(run)
            if (lines, status) != (run.lines, run.status):
                raise Wrong(f"run {number}, {' '.join(run.words)}: with all its memory it prints\n{lines}and ends with {status}")
            after = self.end()
            shutil.rmtree(f"{self.room}/after", ignore_errors=True)
            shutil.copytree(self.folder, f"{self.room}/after")
            for place in range(1, count + 1, step):
                try:
                    counts[not self.refuse(run, place, before, after)] += 1
                except Wrong as wrong:
                    raise Wrong(f"run {number}, {' '.join(run.words)}, growth {place} of {count}: {wrong}") from None
            shutil.rmtree(self.folder)
            shutil.copytree(f"{self.room}/after", self.folder)
        return counts


def counts(program, library, room):
    """Whether the library counts the growths of a program: it does not where the program has the C library in it."""
    counted = f"{room}/none"
    subprocess.run([program], cwd=room, env={**os.environ, "LD_PRELOAD": library, "COUNTED": counted}, capture_output=True, check=False)
    return os.path.exists(counted)


def main(arguments):
    """Refuses the growths of each row, and answers the exit status."""
    if len(arguments) not in (2, 3):
        print("usage: cases/growths.sh PROGRAM [STEP]")
        return 2
    program = os.path.abspath(arguments[1])
    step = int(arguments[2]) if len(arguments) == 3 else 1
    status = 0
    with tempfile.TemporaryDirectory() as room:
        library = f"{room}/refuse.so"
        subprocess.run(["cc", "-O1", "-shared", "-fPIC", "-fno-builtin", "-o", library, f"{HERE}/refuse.c"], check=True)
        if not counts(program, library, room):
            print("growths: left out, for the program does not take its memory from the system's C library")
            return 0
        for name, steps in ROWS.items():
            try:
                ended, went_on = Trial(program, library, room).row(steps, step)
                print(f"growths: {name}: {ended} refused that end a run with {NO_MEMORY}, of which one more ends as it is to; {went_on} of lines, without which runs go on", flush=True)
            except Wrong as wrong:
                print(f"growths: {name}: {wrong}", flush=True)
                status = 1
    return status


if __name__ == "__main__":
    sys.exit(main(sys.argv))
