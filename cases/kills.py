"""Kills runs of a built program at random moments. kills.sh says what for.

One database is kept through all runs. Each run commits transactions of three rows, whose keys go on from those that the database has, and is killed by
SIGKILL at a moment of the time that it would take. What it had printed by then is read: each transaction that a whole line `committed OFFSET` told is to be
there at the next run, at most one more may be, each is there whole, and none twice.
"""

import os
import random
import re
import subprocess
import sys
import tempfile
import time

TIMES = 200
# the transactions of a run, and the rows of each
RUN = 40
ROWS = 3
# the moments are drawn from this
SEED = 2024


def script_from(first):
    """The transactions of a run, whose keys begin at `first`."""
    lines = []
    for number in range(RUN):
        keys = range(first + number * ROWS, first + (number + 1) * ROWS)
        lines.append("INSERT INTO t VALUES " + ", ".join(f"({key}, {key})" for key in keys) + "; COMMIT;")
    return "\n".join(lines).encode()


def run(program, folder, script):
    """What a run that nobody kills printed, and the seconds that it took."""
    begun = time.perf_counter()
    done = subprocess.run([program, "sql", "c1"], cwd=folder, input=script, capture_output=True, check=True)
    return done.stdout.decode(), time.perf_counter() - begun


def killed(program, folder, script, moment):
    """What a run printed that is killed so many seconds after its start."""
    with open(os.path.join(folder, "script"), "wb") as file:
        file.write(script)
    with open(os.path.join(folder, "script"), "rb") as file:
        started = subprocess.Popen([program, "sql", "c1"], cwd=folder, stdin=file, stdout=subprocess.PIPE)
    time.sleep(moment)
    started.kill()
    printed = started.stdout.read().decode()
    started.stdout.close()
    started.wait()
    return printed


def rows(program, folder):
    """How many rows the table has, its least and its greatest key, and the sum of its numbers."""
    line = run(program, folder, b"SELECT COUNT(*), MIN(id), MAX(id), SUM(n) FROM t;")[0].split("\n")[0]
    return [int(part) for part in line.split("|")]


def main(arguments):
    """Kills the runs, and answers the exit status."""
    if len(arguments) not in (2, 3):
        print("usage: cases/kills.sh PROGRAM [TIMES]")
        return 2
    program = os.path.abspath(arguments[1])
    times = int(arguments[2]) if len(arguments) == 3 else TIMES
    draw = random.Random(SEED)
    inside = lost = 0
    with tempfile.TemporaryDirectory() as folder:
        subprocess.run([program, "init", "c1", "cons"], cwd=folder, capture_output=True, check=True)
        run(program, folder, b"CREATE TABLE t (id INTEGER PRIMARY KEY, n INTEGER);")
        seconds = run(program, folder, script_from(0))[1]
        held = RUN * ROWS
        for number in range(times):
            told = re.findall(r"^committed \d+$", killed(program, folder, script_from(held), draw.uniform(0, seconds)).rpartition("\n")[0], re.MULTILINE)
            count, least, greatest, total = rows(program, folder)
            added = count - held
            if added % ROWS or not len(told) <= added // ROWS <= min(len(told) + 1, RUN) or (least, greatest, total) != (0, count - 1, count * (count - 1) // 2):
                print(f"kill {number + 1}: {len(told)} transactions were told, {added} rows came")
                lost += 1
            inside += 0 < added < RUN * ROWS
            held = count
    print(f"kills: {times}, {inside} of them amid the transactions of a run, {held // ROWS} transactions stand, {lost} runs lost or doubled one")
    return 0 if lost == 0 and inside > 0 else 1


sys.exit(main(sys.argv))
