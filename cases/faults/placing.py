"""A database in a folder, and runs of it: what the checks share."""

import os
import shutil
import subprocess

# two offices, of which the row goes to the first and then to the second
SCRIPT = b"""CREATE TABLE cust (id INTEGER PRIMARY KEY, rep VARCHAR(8), qty INTEGER);
CREATE PUBLICATION p (TABLE cust SUBSCRIBE BY rep);
GRANT REMOTE TO r1;
GRANT REMOTE TO r2;
CREATE SUBSCRIPTION TO p ('A') FOR r1;
CREATE SUBSCRIPTION TO p ('B') FOR r2;
START SUBSCRIPTION TO p ('A') FOR r1;
START SUBSCRIPTION TO p ('B') FOR r2;
INSERT INTO cust VALUES (1, 'A', 10);
COMMIT;
UPDATE cust SET rep = 'B' WHERE id = 1;
COMMIT;
"""
RECEIVED = b"from r1 took 0 up to 0\nfrom r2 took 0 up to 0\n"
AGENT = RECEIVED + b"to r1 put 1 up to 492\nto r2 put 1 up to 492\n"
FILES = ("log0", "log1", "root", "snap0", "snap1")
NOBODY = 65534


class Lost(Exception):
    """Something that is not as it is to be."""


def run(words, folder, script=b"", **more):
    """The status of a run, what it printed, and what it said on standard error."""
    more = {"stdout": subprocess.PIPE, "stderr": subprocess.PIPE, **more}
    done = subprocess.run(words, cwd=folder, input=script, check=False, timeout=100, **more)
    return done.returncode, done.stdout, done.stderr


def wanted(found, hoped, what):
    """Fails where what was found is not what was hoped for."""
    if found != hoped:
        raise Lost(f"{what}: {found!r}, not {hoped!r}")


def place(program, folder, name="c1"):
    """Makes the database of the script in a folder, which is made too."""
    os.makedirs(folder, exist_ok=True)
    wanted(run([program, "init", name, "cons"], folder), (0, b"created cons\n", b""), "init")
    wanted(run([program, "sql", name], folder, SCRIPT)[0], 0, "sql")


def copied(folder, name):
    """A copy of a folder beside it."""
    return shutil.copytree(folder, os.path.join(os.path.dirname(folder), name), symlinks=True)


def all_in(folder):
    """All files and folders below a folder, each file with its bytes."""
    found = {}
    for root, folders, names in os.walk(folder):
        for name in folders:
            found[os.path.relpath(os.path.join(root, name), folder)] = None
        for name in names:
            path = os.path.join(root, name)
            if os.path.isfile(path):
                with open(path, "rb") as file:
                    found[os.path.relpath(path, folder)] = file.read()
            else:
                found[os.path.relpath(path, folder)] = b""
    return found


def as_another(words):
    """The words of a run as a user who may not do all; none where that cannot be had."""
    if os.geteuid() != 0:
        return words
    asked = ["setpriv", f"--reuid={NOBODY}", f"--regid={NOBODY}", "--clear-groups"]
    if shutil.which("setpriv") and subprocess.run([*asked, "true"], capture_output=True, check=False).returncode == 0:
        return [*asked, *words]
    return None


def given_to_another(*paths):
    """Gives files and folders, with all that is in them, to that user."""
    if os.geteuid() == 0:
        for path in paths:
            for each in [path, *(os.path.join(path, name) for name in all_in(path))]:
                os.chown(each, NOBODY, NOBODY)
