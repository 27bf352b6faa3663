"""Making a database: two that begin at once, names that are too long, and databases that are not there."""

import fcntl
import os
import subprocess
import time

from placing import FILES, Lost, all_in, run, wanted
from tracing import traced

PAIRS = 50


def one_of_two(program, folder, name, begun):
    """Looks at what two runs of `init` left: one of them made the database, the other was refused, and nothing is mixed."""
    ends = {}
    for user, process in begun.items():
        printed, _ = process.communicate(timeout=60)
        ends[user] = process.returncode, printed
    made = [user for user, end in ends.items() if end == (0, f"created {user}\n".encode())]
    refused = [end for end in ends.values() if end in ((3, b"database exists\n"), (5, b"disk fault\n"))]
    if len(made) != 1 or len(refused) != 1:
        raise Lost(f"{name}: {ends}")
    alone = os.path.join(folder, f"alone-{made[0]}")
    if not os.path.exists(alone):
        os.mkdir(alone)
        run([program, "init", "c", made[0]], alone)
    hoped = {f"c.{suffix}": all_in(alone)[f"c.{suffix}"] for suffix in FILES}
    found = {f"c.{suffix}": data for suffix in FILES if (data := all_in(os.path.join(folder, name)).get(f"c.{suffix}")) is not None}
    wanted(found, hoped, f"{name}: the files")


def begin(program, folder, user, before=()):
    """Begins a run of `init`."""
    return subprocess.Popen([*before, program, "init", "c", user], cwd=folder, stdout=subprocess.PIPE, stderr=subprocess.PIPE)


def two_at_once(program, folder):
    """Two runs of `init` at once make one database."""
    for at in range(PAIRS):
        name = f"pair{at}"
        os.mkdir(os.path.join(folder, name))
        begun = {user: begin(program, os.path.join(folder, name), user) for user in ("a", "b")}
        one_of_two(program, folder, name, begun)


def two_at_each_moment(program, folder):
    """A run of `init` that stops for a while at each of its calls, and another one meanwhile, make one database."""
    for call, most in (("openat", 16), ("flock", 2), ("pwrite64", 6), ("fdatasync", 6)):
        for at in range(1, most):
            name = f"{call}{at}"
            within = os.path.join(folder, name)
            os.mkdir(within)
            slow = ["strace", "-f", "-qq", "-o", "/dev/null", "-e", f"trace={call}", "-e", f"inject={call}:delay_enter=400000:when={at}"]
            begun = {"a": begin(program, within, "a", slow)}
            time.sleep(0.2)
            begun["b"] = begin(program, within, "b")
            one_of_two(program, folder, name, begun)


def names_of_each_length(program, folder):
    """A name whose longest file name passes the system's limit leaves nothing."""
    longest = os.pathconf(folder, "PC_NAME_MAX") - len(".snap0")
    for length in range(longest, longest + 7):
        within = os.path.join(folder, str(length))
        os.mkdir(within)
        name = "a" * length
        status, printed, said = run([program, "init", name, "cons"], within)
        if length == longest:
            wanted((status, printed, said), (0, b"created cons\n", b""), f"a name of {length} bytes")
            wanted(sorted(all_in(within)), [f"{name}.{suffix}" for suffix in FILES], f"a name of {length} bytes")
        elif length <= 255:
            wanted((status, printed), (5, b"disk fault\n"), f"a name of {length} bytes")
            wanted(all_in(within), {}, f"a name of {length} bytes leaves")
            if b"File name too long" not in said:
                raise Lost(f"a name of {length} bytes: {said!r}")


def not_there(program, folder):
    """A database that is not there is missing, and nothing is made or touched."""
    for name in ("zz", "absent/zz"):
        for words in (["sql", name], ["agent", name, "--mail", "m"], ["show", name]):
            done = traced([program, *words], folder)
            wanted((done.status, done.printed, done.said), (3, b"database missing\n", b""), " ".join(words))
            wanted(all_in(folder), {}, f"{' '.join(words)} leaves")
            for call in done.calls:
                if "O_CREAT" in call.words or call.name in ("mkdir", "rename", "unlink", "pwrite64", "ftruncate"):
                    raise Lost(f"{' '.join(words)}: {call}")


def made_meanwhile(program, folder):
    """A database that another run makes while this one begins is not read without its lock."""
    for at in range(1, 6):
        within = os.path.join(folder, str(at))
        os.mkdir(within)
        with subprocess.Popen(["sh", "-c", 'sleep 0.2; exec "$0" init c cons', program], cwd=within, stdout=subprocess.DEVNULL):
            done = traced([program, "sql", "c"], within, b"", [f"openat:delay_exit=400000:when={at}"], "openat,flock,pread64,pwrite64,fdatasync")
        if (done.status, done.printed) not in ((3, b"database missing\n"), (0, b""), (5, b"disk fault\n")):
            raise Lost(f"sql: status {done.status} and {done.printed!r}")
        locked = False
        for call in done.calls:
            locked = locked or call.name == "flock" and call.done
            if call.name in ("pread64", "pwrite64", "fdatasync") and call.path.startswith(within) and not locked:
                raise Lost(f"{call} without the lock")


def another_run(program, folder):
    """Another run that has the database is waited for, but no longer than five seconds."""
    run([program, "init", "c", "cons"], folder)
    for held, hoped in ((1, (0, b"")), (60, (5, b"disk fault\n"))):
        with open(os.path.join(folder, "c.root"), "rb") as root:
            fcntl.flock(root, fcntl.LOCK_EX)
            begun = time.monotonic()
            waiting = subprocess.Popen([program, "sql", "c"], cwd=folder, stdin=subprocess.DEVNULL, stdout=subprocess.PIPE, stderr=subprocess.PIPE)
            try:
                waiting.wait(timeout=held)
            except subprocess.TimeoutExpired:
                fcntl.flock(root, fcntl.LOCK_UN)
            printed, said = waiting.communicate(timeout=60)
            took = time.monotonic() - begun
        wanted((waiting.returncode, printed), hoped, f"a database that is had for {held} seconds")
        lines = [b"dbremote: c.root: waiting for another run"]
        if hoped[0]:
            lines.append(b"dbremote: c.root: another run has the database")
            if not 4.5 < took < 20:
                raise Lost(f"it waited {took:.1f} seconds")
        wanted(said.splitlines(), lines, "standard error")


CHECKS = [two_at_once, two_at_each_moment, names_of_each_length, not_there, made_meanwhile, another_run]
