"""Draws sessions, runs them with a built program, and compares what comes with what an independent reading of the rules says. sessions.sh says what for.

The modules beside this one are that reading, the model: they follow docs/SQL.md and docs/FORMATS.md, and share no code with the program. What a trigger does
when an agent runs it is no part of them. Each database of the check has a seed of its own, by which its scripts are drawn, one after the other, on what the
model says that the database has by then. Of each run the lines, the exit status and the log are compared. Scripts that are spoiled here and there, or stand at
a limit, come besides; of these it is compared where they are refused, or that they are read."""

import os
import subprocess
import sys
import tempfile

from database import REFUSED, Database
from grammar import statements_of
from lexing import Unreadable
from scripts import Scripts

DATABASES = 60
# the runs of each database, and the scripts that are spoiled
RUNS = 24
SPOILED = 30
SEED = 2024
PUBLISHER = "cons"
# how many differences are shown, and how many bytes of each part
SHOWN = 5
LONGEST = 2000
# expressions are read and reckoned by functions that call themselves
DEEPEST = 20000


class Sessions:
    """The program, a folder for its databases, and what was counted."""

    def __init__(self, program, folder):
        self.program = program
        self.folder = folder
        self.counts = {"databases": 0, "runs": 0, "scripts that are refused": 0}
        self.differences = 0

    def run(self, words, script=b""):
        """What a run printed, on either way, and its exit status."""
        done = subprocess.run([self.program, *words], cwd=self.folder, input=script, capture_output=True, check=False)
        return done.stdout + done.stderr, done.returncode

    def differ(self, what, script, wanted, came):
        """Counts a difference, and shows it where not many were shown before."""
        self.differences += 1
        if self.differences <= SHOWN:
            print(f"sessions: {what}")
            for title, part in (("script", script), ("to come", wanted), ("came", came)):
                print(f"  {title}: {bounded(part)}")

    def make(self, name):
        """A new database, and the model of it."""
        self.run(["init", name, PUBLISHER])
        return Database(PUBLISHER)

    def database(self, number):
        """Runs scripts on a database of its own, up to one that differs."""
        name = f"d{number}"
        self.counts["databases"] += 1
        database = self.make(name)
        scripts = Scripts(SEED + number)
        for count in range(1, RUNS + 1):
            script = scripts.to_run(database)
            printed, status = database.run(script)
            if not self.is_met(f"database {number}, run {count}", name, script, (printed.encode(), status), database.log.file()):
                break

    def is_met(self, what, name, script, wanted, log):
        """Whether a run prints and leaves what it is to. What stands behind the closed gate of a log means nothing."""
        self.counts["runs"] += 1
        came = self.run(["sql", name], script)
        if came != wanted:
            self.differ(what, script, wanted, came)
            return False
        with open(os.path.join(self.folder, f"{name}.log0"), "rb") as file:
            left = file.read()[: len(log)]
        if left != log:
            place = next((place for place, (byte, other) in enumerate(zip(log, left)) if byte != other), len(left))
            self.differ(f"{what}, the log from byte {place} on", script, log[place:].hex(), left[place:].hex())
            return False
        return True

    def refusals(self, count):
        """Runs so many spoiled scripts, none of which does anything."""
        database = self.make("spoiled")
        scripts = Scripts(SEED, database.catalog)
        for number in range(1, count + 1):
            script = scripts.to_refuse()
            wanted = (refusal(script), REFUSED)
            self.counts["scripts that are refused"] += 1
            came = self.run(["sql", "spoiled"], script)
            if came != wanted:
                self.differ(f"spoiled script {number}", script, wanted, came)


def refusal(script):
    """By what a script is refused whose first statement drops a table that is not there."""
    try:
        statements_of(script)
    except Unreadable as refused:
        return f"script refused at byte {refused.place}\n".encode()
    return b"statement 1 refused: Missing zzz\n"


def bounded(part):
    """A part of a difference in a line, of which the end is shown where it is long."""
    line = part if isinstance(part, str) else repr(part)
    return line if len(line) <= LONGEST else f"..{line[-LONGEST:]}"


def main(arguments):
    """Compares the program with the model, and answers the exit status."""
    if len(arguments) not in (2, 3):
        print("usage: cases/sessions.sh PROGRAM [DATABASES]")
        return 2
    databases = int(arguments[2]) if len(arguments) == 3 else DATABASES
    sys.setrecursionlimit(DEEPEST)
    with tempfile.TemporaryDirectory() as folder:
        sessions = Sessions(os.path.abspath(arguments[1]), folder)
        for number in range(databases):
            sessions.database(number)
        sessions.refusals(databases * SPOILED)
    counted = ", ".join(f"{count} {what}" for what, count in sessions.counts.items())
    print(f"sessions: {counted}, {sessions.differences} differences")
    return 1 if sessions.differences else 0


sys.exit(main(sys.argv))
