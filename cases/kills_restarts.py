"""Kills runs of a built program that begin a log anew, at random moments. kills.sh says what for.

A head office with many rows has two partners. Before each kill it commits a row for each; both are sent, the first partner always takes and confirms his, the
second every other time alone. So the least need of both, which is the new base, is the end of the log, or the end of the entry before the second one's row. The run
that is killed by SIGKILL, at a moment of the time that it would take, is one of the send pass with nothing to send: it changes the base alone. Behind it `show`
has what it had, with the base that was or with the new one. Then one more run does what the killed one was to do, and prints it.
"""

import os
import random
import re
import subprocess
import sys
import tempfile
import time

TIMES = 100
# how many rows there are from the beginning on, and in each transaction that makes them
ROWS = 4_000
TOGETHER = 500
# the moments are drawn from this
SEED = 2025
# how many times as long as a whole run the latest moment is
PAST = 1.2
TABLE = "CREATE TABLE t (id INTEGER PRIMARY KEY, office VARCHAR(2), n INTEGER);"
ABOVE = """CREATE PUBLICATION p (TABLE t SUBSCRIBE BY office); GRANT REMOTE TO r1; GRANT REMOTE TO r2;
    CREATE SUBSCRIPTION TO p ('r1') FOR r1; CREATE SUBSCRIPTION TO p ('r2') FOR r2; START SUBSCRIPTION TO p ('r1') FOR r1; START SUBSCRIPTION TO p ('r2') FOR r2;"""
BELOW = "GRANT CONSOLIDATE TO hq;"
RESTARTS = ["agent", "hq", "--mail", "m", "-s", "-x"]


class Lost(Exception):
    """Something is not as it was to be behind a kill."""


def run(program, folder, words, script=""):
    """What a run that nobody kills printed; it ends with status 0."""
    return subprocess.run([program, *words], cwd=folder, input=script.encode(), capture_output=True, check=True).stdout.decode()


def made(program, folder):
    """Makes the three databases, with rows at the head office that go to nobody."""
    for name in ("hq", "r1", "r2"):
        run(program, folder, ["init", name, name])
        run(program, folder, ["sql", name], TABLE + (ABOVE if name == "hq" else BELOW))
    values = [", ".join(f"({key}, NULL, {key})" for key in range(first, first + TOGETHER)) for first in range(0, ROWS, TOGETHER)]
    run(program, folder, ["sql", "hq"], "".join(f"INSERT INTO t VALUES {row}; COMMIT;" for row in values))


def exchanged(program, folder, key, is_taken):
    """A row for each partner is committed, sent, taken and confirmed; by the second one where he takes now. Answers the offsets of the two rows."""
    script = f"INSERT INTO t VALUES ({key}, 'r1', 1); COMMIT; INSERT INTO t VALUES ({key + 1}, 'r2', 1); COMMIT;"
    offsets = [int(offset) for offset in re.findall(r"committed (\d+)", run(program, folder, ["sql", "hq"], script))]
    run(program, folder, ["agent", "hq", "--mail", "m"])
    for name in ("r1", "r2")[: 1 + is_taken]:
        run(program, folder, ["agent", name, "--mail", "m"])
    run(program, folder, ["agent", "hq", "--mail", "m", "-r"])
    return offsets


def shown(program, folder):
    """The lines of `show` without the one of the base, the base, and the end."""
    lines = run(program, folder, ["show", "hq"])
    base, end = (int(re.search(f"^{word} (\\d+)$", lines, re.MULTILINE)[1]) for word in ("base", "end"))
    return lines.replace(f"base {base}\n", "", 1), base, end


def killed(program, folder, moment):
    """A run that begins the log anew, killed so many seconds after its start."""
    started = subprocess.Popen([program, *RESTARTS], cwd=folder, stdin=subprocess.DEVNULL, stdout=subprocess.DEVNULL)
    time.sleep(moment)
    started.kill()
    started.wait()


def written(folder):
    """The bytes of both generations."""
    found = []
    for ending in ("snap0", "log0", "snap1", "log1"):
        with open(os.path.join(folder, f"hq.{ending}"), "rb") as file:
            found.append(file.read())
    return found


def kill(program, folder, number, moment):
    """One kill; answers how far the run came: `nothing`, `amid` the other generation, or `all` of the new base."""
    is_taken = number % 2 == 0
    mine, yours = exchanged(program, folder, ROWS + 2 * number, is_taken)
    before, old, end = shown(program, folder)
    new = end if is_taken else mine
    files = written(folder)
    killed(program, folder, moment)
    behind, base, _ = shown(program, folder)
    if behind != before or base not in (old, new):
        raise Lost(f"base {base}, where {old} or {new} is to be, and\n{behind}, where\n{before} is to be")
    came = "all" if base == new else "amid" if written(folder) != files else "nothing"
    wanted = f"restarted {new}\nto r1 put 0 up to {mine}\nto r2 put 0 up to {yours}\n"
    found = run(program, folder, RESTARTS)
    if found != wanted or shown(program, folder) != (before, new, end):
        raise Lost(f"the next run printed\n{found}, where\n{wanted} is to be, or left another base or end")
    return came


def whole(program, folder):
    """How many seconds a run takes that nobody kills, in the middle of three."""
    seconds = []
    for _ in range(3):
        begun = time.perf_counter()
        run(program, folder, RESTARTS)
        seconds.append(time.perf_counter() - begun)
    return sorted(seconds)[1]


def rows(program, folder, name):
    """How many rows a database has, and the sum of their numbers."""
    return [int(part) for part in run(program, folder, ["sql", name], "SELECT COUNT(*), SUM(n) FROM t;").split("\n")[0].split("|")]


def look_at_rows(program, folder, times):
    """Each partner gets all of his rows, and the head office has them all."""
    for name in ("hq", "r1", "r2", "hq"):
        run(program, folder, ["agent", name, "--mail", "m"])
    wanted = {"hq": [ROWS + 2 * times, ROWS * (ROWS - 1) // 2 + 2 * times], "r1": [times, times], "r2": [times, times]}
    for name, counts in wanted.items():
        found = rows(program, folder, name)
        if found != counts:
            raise Lost(f"at the end {name} has {found[0]} rows with the sum {found[1]}, where {counts} is to be")


def main(arguments):
    """Kills the runs, and answers the exit status."""
    if len(arguments) not in (2, 3):
        print("usage: cases/kills.sh PROGRAM [TIMES]")
        return 2
    program = os.path.abspath(arguments[1])
    times = int(arguments[2]) if len(arguments) == 3 else TIMES
    draw = random.Random(SEED)
    came = {"nothing": 0, "amid": 0, "all": 0}
    with tempfile.TemporaryDirectory() as folder:
        made(program, folder)
        try:
            for number in range(times):
                if number % 20 == 0:
                    seconds = whole(program, folder)
                came[kill(program, folder, number, draw.uniform(0, PAST * seconds))] += 1
            look_at_rows(program, folder, times)
        except (Lost, subprocess.CalledProcessError) as lost:
            print(f"kills: of a run that begins the log anew, kill {number + 1}: {lost}")
            return 1
    print(f"kills: {times} of runs that begin a log anew, {came['nothing']} before it, {came['amid']} amid it, {came['all']} behind it, all as it is to be")
    return 0 if came["all"] and came["all"] < times else 1


sys.exit(main(sys.argv))
