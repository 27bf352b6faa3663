"""Counts the bytes of the log that runs of the agent read at a head office with many partners, as strace tells them. reads.sh says what for.

Opening reads the log twice, and a run may read it once more for all its partners together, besides a piece or two for each message that it puts. A run that
read the log for each partner would read it forty times.
"""

import os
import re
import subprocess
import sys
import tempfile

PARTNERS = 40
# rows with a text of so many bytes, so that the log has far more than the pieces in which it is read
ROWS = 100
TEXT = 30_000
PIECE = 64 * 1024
# how often the log may be read, and how many pieces for each message
OFTEN = 4
PIECES = 4
TABLE = "CREATE TABLE c (id INTEGER PRIMARY KEY, n INTEGER, body VARCHAR(32767)); CREATE PUBLICATION p (TABLE c (id, n) SUBSCRIBE BY n);"
READ = re.compile(r"(?:\d+ +)?p?read(?:64)?\(\d+<([^>]*)>.*\) += (\d+)")


def granted(name, value):
    """A partner who has the rows of a value."""
    return f"GRANT REMOTE TO {name}; CREATE SUBSCRIPTION TO p ({value}) FOR {name}; START SUBSCRIPTION TO p ({value}) FOR {name};"


class Office:
    """A head office in a folder."""

    def __init__(self, program, folder):
        self.program, self.folder = program, folder
        self.run(["init", "hq", "hq"])
        self.script(TABLE + "".join(granted(f"u{number}", number) for number in range(PARTNERS)))

    def run(self, words, script="", before=()):
        """A run that is to succeed."""
        done = subprocess.run([*before, self.program, *words], cwd=self.folder, input=script.encode(), capture_output=True, check=False)
        if done.returncode != 0:
            sys.exit(f"reads: {' '.join(words)} ended with status {done.returncode}")
        return done.stdout.decode()

    def script(self, script):
        """A script."""
        self.run(["sql", "hq"], script)

    def rows(self, first, count, value, body=""):
        """So many rows of a value, each committed by itself."""
        self.script("".join(f"INSERT INTO c VALUES ({key}, {value}, '{body}'); COMMIT;" for key in range(first, first + count)))

    def length(self):
        """How many bytes the log has up to its closed gate."""
        return int(re.search(r"^end (\d+)$", self.run(["show", "hq"]), re.MULTILINE)[1])

    def agent(self):
        """A run of the agent: how many messages it put, and how many bytes of the log it read."""
        told = os.path.join(self.folder, "calls")
        lines = self.run(["agent", "hq", "--mail", "box"], before=["strace", "-f", "-y", "-qq", "-e", "trace=read,pread64", "-o", told])
        put = sum(int(count) for count in re.findall(r"^to \w+ put (\d+) ", lines, re.MULTILINE))
        with open(told, encoding="utf-8", errors="replace") as file:
            found = [READ.match(line) for line in file]
        return put, sum(int(call[2]) for call in found if call and os.path.basename(call[1]) == "hq.log0")


def main(arguments):
    """Counts what five runs read, and answers the exit status."""
    if len(arguments) != 2:
        print("usage: cases/reads.sh PROGRAM")
        return 2
    wrong = 0
    with tempfile.TemporaryDirectory() as folder:
        office = Office(os.path.abspath(arguments[1]), folder)
        office.rows(0, ROWS, -1, "x" * TEXT)
        steps = [
            ("nothing was ever sent, and nothing is due", lambda: None, 0),
            ("a row is due to one", lambda: office.rows(ROWS, 1, 3), 1),
            ("a row is due to each", lambda: [office.rows(ROWS + 1 + value, 1, value) for value in range(PARTNERS)], PARTNERS),
            ("all was sent, and then somebody is granted", lambda: office.script(granted("late", 0)), 0),
            ("a row goes from one to another", lambda: office.script("UPDATE c SET n = 5 WHERE n = 3; COMMIT;"), 2),
        ]
        for what, happens, wanted in steps:
            happens()
            length = office.length()
            put, read = office.agent()
            if put != wanted:
                print(f"reads: {what}: {put} messages were put, and {wanted} are due")
                wrong += 1
            if read > OFTEN * length + PIECES * PIECE * (put + 1):
                print(f"reads: {what}: {read} bytes were read of a log of {length}")
                wrong += 1
    print(f"reads: 5 runs for {PARTNERS} partners, {wrong} wrong")
    return 1 if wrong else 0


if __name__ == "__main__":
    sys.exit(main(sys.argv))
