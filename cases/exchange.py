"""Lets three databases exchange messages over bad folders. exchange.sh says what for.

A head office has the rows of both its offices, an office those that bear its name. In each round each database commits some transactions, among them ones that
move a row from one office to the other, and runs its agent once, which may be killed at a random moment. Between two runs files of the folders are taken away
for good or for a while, copied under another name, or cut. At the end nothing bad happens any more, and the agents run until nothing is to be sent. Then each
database has the rows that it is to have, as they were last written, and each transaction was taken once.

No two databases write one row: what stands at the end is known from what was committed.
"""

import os
import random
import re
import subprocess
import sys
import tempfile
import time

ROUNDS = 40
SEED = 2024
OFFICES = ("north", "south")
ALL = ("hq", *OFFICES)
TABLE = "CREATE TABLE t (id INTEGER PRIMARY KEY, office VARCHAR(8), n INTEGER);"


class World:
    """The databases in their folder, what each has committed, and the files that are held back."""

    def __init__(self, program, folder):
        self.program = program
        self.folder = folder
        self.draw = random.Random(SEED)
        self.rows = {}
        self.given = {name: 0 for name in OFFICES}
        self.took = {name: 0 for name in OFFICES}
        self.held = []
        self.counts = {"runs": 0, "killed": 0, "lost": 0, "late": 0, "copied": 0, "cut": 0, "astray": 0}

    def run(self, words, script=""):
        """What a run printed that nobody kills."""
        done = subprocess.run([self.program, *words], cwd=self.folder, input=script, capture_output=True, text=True, check=False)
        if done.returncode not in (0, 1):
            raise RuntimeError(f"{' '.join(words)}: status {done.returncode}: {done.stdout}")
        return done.stdout

    def begin(self):
        """Makes the databases, which grant each other."""
        self.run(["init", "hq", "hq"])
        self.run(["sql", "hq"], TABLE + "CREATE PUBLICATION p (TABLE t SUBSCRIBE BY office);")
        for office in OFFICES:
            self.run(["init", office, office])
            self.run(["sql", office], TABLE + "GRANT CONSOLIDATE TO hq; CREATE PUBLICATION p (TABLE t); CREATE SUBSCRIPTION TO p FOR hq; START SUBSCRIPTION TO p FOR hq;")
            self.run(["sql", "hq"], f"GRANT REMOTE TO {office}; CREATE SUBSCRIPTION TO p ('{office}') FOR {office}; START SUBSCRIPTION TO p ('{office}') FOR {office};")

    # ---- what is committed

    def insert(self, name, office):
        """A transaction of a new row, which goes to an office."""
        key = 10 * len(self.rows) + ALL.index(name)
        self.rows[key] = (office, 0)
        return self.written(name, f"INSERT INTO t VALUES ({key}, '{office}', 0); COMMIT;", {office})

    def change(self, name):
        """A transaction that changes a row which this database wrote: its number, or at the head office the office that has it."""
        keys = [key for key in self.rows if key % 10 == ALL.index(name)]
        if not keys:
            return ""
        key = self.draw.choice(keys)
        office, n = self.rows[key]
        if name == "hq" and self.draw.random() < 0.5:
            other = OFFICES[1 - OFFICES.index(office)]
            self.rows[key] = (other, n)
            return self.written(name, f"UPDATE t SET office = '{other}' WHERE id = {key}; COMMIT;", set(OFFICES))
        self.rows[key] = (office, n + 1)
        return self.written(name, f"UPDATE t SET n = n + 1 WHERE id = {key}; COMMIT;", {office})

    def written(self, name, script, offices):
        """A transaction of a database is counted for those who are given it."""
        if name == "hq":
            for office in offices:
                self.given[office] += 1
        else:
            self.took[name] += 1
        return script

    def commit(self, name):
        """Some transactions of a database in one script: an office inserts rows of its own, the head office rows of either."""
        script = []
        for _ in range(self.draw.randrange(4)):
            office = self.draw.choice(OFFICES) if name == "hq" else name
            script.append(self.insert(name, office) if self.draw.random() < 0.6 else self.change(name))
        self.run(["sql", name], "".join(script))

    def commit_last(self):
        """One more transaction for each partner, so that each message before it is followed by one."""
        for office in OFFICES:
            self.run(["sql", "hq"], self.insert("hq", office))
            self.run(["sql", office], self.insert(office, office))

    # ---- what happens to files

    def files(self):
        """The message files, each with its path."""
        return sorted(os.path.join(root, name) for root, _, names in os.walk(os.path.join(self.folder, "box")) for name in names if not name.startswith("."))

    def spoil(self):
        """Something bad happens to each file in five cases of sixteen. What was held back comes again now and then."""
        for path in self.files():
            kind = self.draw.randrange(16)
            if kind == 0:
                self.counts["lost"] += 1
                os.remove(path)
            elif kind == 1:
                self.counts["late"] += 1
                self.held.append((path, self.data(path)))
                os.remove(path)
            elif kind == 2:
                self.counts["copied"] += 1
                self.put(f"{path}.copy{self.draw.randrange(1000)}", self.data(path))
            elif kind == 3:
                self.counts["cut"] += 1
                data = self.data(path)
                self.put(path, data[: self.draw.randrange(len(data) + 1)])
            elif kind == 4:
                self.counts["astray"] += 1
                self.put(os.path.join(self.folder, "box", self.draw.choice(ALL), f"astray{self.draw.randrange(1000)}"), self.data(path))
        if self.held and self.draw.random() < 0.3:
            path, data = self.held.pop(self.draw.randrange(len(self.held)))
            self.put(f"{path}.late{len(self.held)}", data)

    def data(self, path):
        """The bytes of a file."""
        with open(path, "rb") as file:
            return file.read()

    def put(self, path, data):
        """Writes a file, and the folder that it is in."""
        os.makedirs(os.path.dirname(path), exist_ok=True)
        with open(path, "wb") as file:
            file.write(data)

    # ---- runs of the agent

    def agent(self, name, moment=None):
        """A run of a database's agent; with a moment it is killed so many seconds after its start. Answers its lines."""
        self.counts["runs"] += 1
        words = ["agent", name, "--mail", "box", "-l", "10000"]
        if moment is None:
            return self.run(words)
        with subprocess.Popen([self.program, *words], cwd=self.folder, stdin=subprocess.DEVNULL, stdout=subprocess.PIPE, text=True) as started:
            time.sleep(moment)
            if started.poll() is None:
                self.counts["killed"] += 1
            started.kill()
            return started.stdout.read()

    def round(self, seconds):
        """Each database commits and runs its agent, of which every third is killed at a moment of the time that a run took."""
        for name in ALL:
            self.commit(name)
            self.agent(name, self.draw.uniform(0, seconds) if self.draw.random() < 0.34 else None)
            self.spoil()

    def settle(self):
        """The agents run until a whole round puts nothing and nothing is missing; answers whether that comes."""
        self.commit_last()
        for _ in range(20):
            lines = "".join(self.agent(name) for name in ALL)
            if not re.search(r"^(gap|to \w+ put [^0])", lines, re.MULTILINE):
                return True
        return False

    # ---- what is to stand at the end

    def wanted(self, name):
        """The rows that a database is to have."""
        return [f"{key}|'{office}'|{n}" for key, (office, n) in sorted(self.rows.items()) if name in ("hq", office)]

    def faults(self):
        """What is not as it is to be."""
        for name in ALL:
            lines = self.run(["sql", name], "SELECT * FROM t;").split("\n")[:-2]
            if lines != self.wanted(name):
                yield f"{name} has {len(lines)} rows, of which some are others than the {len(self.wanted(name))} that it is to have"
        shown = {name: self.run(["show", name]) for name in ALL}
        for office in OFFICES:
            here = re.search(r"^user hq .*$", shown[office], re.MULTILINE)[0].split()
            there = re.search(rf"^user {office} .*$", shown["hq"], re.MULTILINE)[0].split()
            if int(here[-2]) != self.given[office]:
                yield f"{office} took {here[-2]} transactions of {self.given[office]}"
            if int(there[-2]) != self.took[office]:
                yield f"hq took {there[-2]} transactions of the {self.took[office]} of {office}"


def main(arguments):
    """Lets them exchange, and answers the exit status."""
    if len(arguments) not in (2, 3):
        print("usage: cases/exchange.sh PROGRAM [ROUNDS]")
        return 2
    rounds = int(arguments[2]) if len(arguments) == 3 else ROUNDS
    with tempfile.TemporaryDirectory() as folder:
        world = World(os.path.abspath(arguments[1]), folder)
        world.begin()
        begun = time.perf_counter()
        for name in ALL:
            world.agent(name)
        seconds = 2 * (time.perf_counter() - begun) / len(ALL)
        for _ in range(rounds):
            world.round(seconds)
        faults = [] if world.settle() else ["something is still on its way"]
        faults += world.faults()
        for fault in faults:
            print(f"exchange: {fault}")
    counted = ", ".join(f"{count} {what}" for what, count in world.counts.items())
    print(f"exchange: {rounds} rounds, {counted}; {len(world.rows)} rows, {len(faults)} faults")
    return 1 if faults else 0


sys.exit(main(sys.argv))
