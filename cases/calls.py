"""Counts the system calls that make a commit and a put durable, as strace tells them.

A commit is four calls: the record behind the gate, a sync, one byte over the gate, a sync. The first sync of a run is followed by one of the
folder of the database, and a line is printed only behind the syncs of its commit. A new database has its five files made first, each only
where it is not there; behind the first sync of one of them their folder is synced, and the root gets its byte last. A log that is begun anew
is written into the generation that is not in force: its snapshot is cut, written and synced, then its log, and then one byte over the root's first,
with a sync; a file that is made meanwhile has its folder synced behind its own sync. The line comes behind all that. A put writes a file whose
name begins with a dot, syncs it, renames it, and then syncs the folder of the message. Before the first put of a run the folder in which the
path begins and each on it is synced, and before the first into another folder the mail folder and that folder.
"""

import os
import re
import subprocess
import sys
import tempfile

SCRIPT = b"INSERT INTO t VALUES (%d, 1);\nINSERT INTO t VALUES (%d, 2);\nCOMMIT;\n"
# a row of the program that tests the devices: messages are put, one in place of another
PUTS = b"host folder box; attach box/db box/mail; put r1 b.2 two; put r1 b.1 one; put r1 b.2 again; put r2 b.3 other; gone box => ok; ok; ok; ok; ok; ok; ok\n"
WATCHED = "openat,pwrite64,write,ftruncate,fdatasync,fsync,rename,mkdir"
CALL = re.compile(r"(?:\d+ +)?(\w+)\((.*)\) += (-?\d+)")


def traced(words, folder, script=b""):
    """The watched calls of a run that succeeded, in order: each its name and its words, with the path of each file beside its number."""
    told = os.path.join(folder, "calls")
    done = subprocess.run(
        ["strace", "-f", "-y", "-qq", "-s", "64", "-e", f"trace={WATCHED}", "-o", told, *words],
        cwd=folder, input=script, capture_output=True, check=False,
    )
    if done.returncode != 0:
        sys.exit(f"calls: {' '.join(words)} ended with status {done.returncode}")
    with open(told, encoding="utf-8", errors="replace") as file:
        found = [CALL.match(line) for line in file]
    return [(call[1], call[2]) for call in found if call and int(call[3]) >= 0]


def path_of(words):
    """The path that stands beside the number of the file that a call is given."""
    return re.match(r"\d+<([^>]*)>", words)[1]


def steps_of_run(words, folder, script):
    """What a run does to its log and to its folder, and each piece that it prints: a write has its place and its length."""
    log, steps = os.path.join(folder, "c1.log0"), []
    for name, rest in traced(words, folder, script):
        if name == "write" and rest.startswith("1<"):
            steps.append("print")
        elif name in ("pwrite64", "ftruncate", "fdatasync", "fsync"):
            what = {log: "log", folder: "folder"}.get(path_of(rest), path_of(rest))
            numbers = [int(number) for number in rest.rsplit(", ", 2)[1:]] if name == "pwrite64" else []
            steps.append(" ".join([name, what, *map(str, reversed(numbers))]))
    return steps


def makes(program, folder):
    """The steps of a run that makes a database, and those that are wanted."""
    names = {os.path.join(folder, f"c0.{suffix}"): suffix for suffix in ("root", "log0", "log1", "snap0", "snap1")}
    found = []
    for name, rest in traced([program, "init", "c0", "cons"], folder):
        if name == "openat" and "O_CREAT" in rest:
            path = os.path.join(folder, rest.split('"')[1])
            found.append(f"make {names.get(path, path)}" + ("" if "O_EXCL" in rest else " or open"))
        elif name in ("mkdir", "rename"):
            found.append(f"{name} {rest}")
        elif name in ("pwrite64", "ftruncate", "fdatasync", "fsync"):
            found.append(f"{name} {'folder' if path_of(rest) == folder else names.get(path_of(rest), path_of(rest))}")
        elif name == "write" and rest.startswith("1<"):
            found.append("print")
    wanted = [f"make {suffix}" for suffix in names.values()]
    for suffix in ("log0", "log1", "snap0", "snap1", "root"):
        wanted += [f"pwrite64 {suffix}", f"fdatasync {suffix}"]
        if suffix == "log0":
            wanted.append("fsync folder")
    return found, [*wanted, "print"]


def commit(gate, body):
    """The steps of a commit whose body has so many bytes, and the place of the next gate: its frame is a length of four bytes and a gate."""
    return [f"pwrite64 log {gate + 1} {body + 5}", "fdatasync log", f"pwrite64 log {gate} 1", "fdatasync log"], gate + body + 5


def commits(program, folder):
    """The steps that two runs of two transactions each make, and those that are wanted: the root is synced, its folder, and then the others."""
    # an entry of two inserts has 5 + 2 * 18 bytes; the table's statement has 65 letters, behind a tag and a length of four bytes
    for words, script in ((["init", "c1", "cons"], b""), (["sql", "c1"], b"CREATE TABLE t (id INTEGER PRIMARY KEY, n INTEGER);\n")):
        traced([program, *words], folder, script)
    wanted, found, gate = [], [], 16 + 1 + 4 + 65 + 5
    for first in (1, 5):
        lines = SCRIPT % (first, first + 1) + SCRIPT % (first + 2, first + 3)
        found += [step for step in steps_of_run([program, "sql", "c1"], folder, lines) if step == "print" or step.split()[1] in ("log", "folder")]
        wanted += ["fsync folder", "fdatasync log"]
        for _ in range(2):
            steps, gate = commit(gate, 5 + 2 * 18)
            wanted += [*steps, "print"]
    return found, wanted


# ---- a log begun anew

# the key has 5 bytes, NULL one, a text of one letter 6, behind a count of 4; a change has the table's name of 2 bytes and two options of a row
ROW, ROW_WITH_TEXT, CHANGE = 4 + 5 + 1, 4 + 5 + 6, 2 + 1 + 1
ROWS = 8_000
STATEMENTS = [
    "GRANT REMOTE TO r1",
    "CREATE TABLE t (id INTEGER NOT NULL, rep VARCHAR(8), PRIMARY KEY (id))",
    "CREATE PUBLICATION p (TABLE t (id, rep) SUBSCRIBE BY rep)",
    "CREATE SUBSCRIPTION TO p ('A') FOR r1",
    "START SUBSCRIPTION TO p ('A') FOR r1",
]


def steps_of_restart(program, folder):
    """What a run that begins the log anew does to the files and the folder. Pieces that are written behind each other are one step, and so are lines."""
    names = {os.path.join(folder, f"c2.{suffix}"): suffix for suffix in ("root", "log0", "log1", "snap0", "snap1")}
    steps = []
    for name, rest in traced([program, "agent", "c2", "--mail", "m", "-r", "-x"], folder):
        if name == "openat" and "O_CREAT" in rest:
            path = os.path.join(folder, rest.split('"')[1])
            steps.append(["make", names.get(path, path)])
        elif name == "write" and rest.startswith("1<") and steps[-1] != ["print"]:
            steps.append(["print"])
        elif name in ("pwrite64", "ftruncate", "fdatasync", "fsync"):
            path = path_of(rest)
            what = "folder" if path == folder else names.get(path, path)
            if name == "ftruncate":
                steps.append([name, what, int(rest.rsplit(", ", 1)[1])])
            elif name == "pwrite64":
                length, place = (int(number) for number in rest.rsplit(", ", 2)[1:])
                if steps[-1][:2] == [name, what] and sum(steps[-1][2:]) == place:
                    steps[-1][3] += length
                else:
                    steps.append([name, what, place, length])
            else:
                steps.append([name, what])
    return [" ".join(map(str, step)) for step in steps]


def wanted_of_restart(old, new, snapshot, log, are_there):
    """The steps of a run that goes from one generation to another, whose snapshot and log have so many bytes. Where the other generation's files are not there, they are
    made, and not cut."""
    steps = ["fdatasync root", "fsync folder", f"fdatasync snap{old}", f"fdatasync log{old}"]
    for name, length in ((f"snap{new}", snapshot), (f"log{new}", log)):
        steps += [f"ftruncate {name} 0" if are_there else f"make {name}", f"pwrite64 {name} 0 {length}", f"fdatasync {name}"]
        steps += [] if are_there else ["fsync folder"]
    return [*steps, "pwrite64 root 0 1", "fdatasync root", "print"]


def restarts(program, folder):
    """The steps of two runs that begin a log anew, the second where the files of the other generation were taken away; and those that are wanted. The base lies before the
    row that the partner was not sent: the log keeps that row and the one behind it."""
    script = "CREATE TABLE t (id INTEGER PRIMARY KEY, rep VARCHAR(8)); CREATE PUBLICATION p (TABLE t SUBSCRIBE BY rep); GRANT REMOTE TO r1;"
    script += f"{STATEMENTS[3]}; {STATEMENTS[4]}; INSERT INTO t VALUES {', '.join(f'({key}, NULL)' for key in range(ROWS))}; COMMIT;"
    script += f"INSERT INTO t VALUES ({ROWS}, 'A'); COMMIT; INSERT INTO t VALUES ({ROWS + 1}, NULL); COMMIT;"
    for words, lines in ((["init", "c2", "cons"], ""), (["sql", "c2"], script)):
        traced([program, *words], folder, lines.encode())
    # a book has its user's name and eight numbers, an entry a tag and a count
    snapshot = 8 + 8 + 5 + 4 + sum(4 + len(text) for text in STATEMENTS) + 4 + 2 + 4 + ROWS * ROW + 4 + 3 + 8 * 8
    log = 16 + sum(5 + 1 + 4 + CHANGE + row for row in (ROW_WITH_TEXT, ROW)) + 1
    found = steps_of_restart(program, folder)
    wanted = wanted_of_restart(0, 1, snapshot, log, True)
    for suffix in ("log0", "snap0"):
        os.remove(os.path.join(folder, f"c2.{suffix}"))
    return found + steps_of_restart(program, folder), wanted + wanted_of_restart(1, 0, snapshot, log, False)


def puts(tests, folder):
    """The steps of the puts of a row, one after the other, and those that are wanted of each."""
    drafts, inboxes, found, wanted = [], set(), [], []
    for name, rest in traced([tests], folder, PUTS):
        if name == "openat" and "O_EXCL" in rest:
            path = os.path.join(folder, rest.split('"')[1])
            inbox, draft = os.path.split(path)
            if inbox not in inboxes:
                way = [folder, os.path.dirname(os.path.dirname(inbox))] if not inboxes else []
                wanted += [f"fsync {each}" for each in [*way, os.path.dirname(inbox), inbox]]
            wanted += [f"write {path}", f"fsync {path}", f"rename {os.path.join(inbox, draft[1:])}", f"fsync {inbox}"]
            drafts.append(path)
            inboxes.add(inbox)
        elif name == "rename":
            found.append("rename " + os.path.join(folder, rest.split('"')[3]))
        elif name == "fsync" or name == "write" and path_of(rest) in drafts:
            found.append(f"{name} {path_of(rest)}")
    if sum(step.startswith("rename ") for step in wanted) != 4:
        sys.exit("calls: the row did not put its four messages")
    return found, wanted


def main():
    failed = 0
    with tempfile.TemporaryDirectory() as made:
        folder = os.path.realpath(made)
        program = os.path.abspath(sys.argv[1])
        checks = [("a new database", *makes(program, folder)), ("commits", *commits(program, folder)), ("a log begun anew, twice", *restarts(program, folder))]
        if len(sys.argv) > 2 and os.path.exists(sys.argv[2]):
            checks.append(("puts", *puts(os.path.abspath(sys.argv[2]), folder)))
        for name, found, wanted in checks:
            if found == wanted:
                print(f"calls: {len(found)} steps of {name}, each in its place")
            else:
                failed = 1
                print(f"calls: {name}: wanted\n  " + "\n  ".join(wanted) + "\ncalls: found\n  " + "\n  ".join(found))
    sys.exit(failed)


main()
