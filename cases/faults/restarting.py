"""Logs that are begun anew while something fails: the database has the old base or the new one, and all else as it was."""

import os
import shutil
import signal

from placing import FILES, Lost, all_in, copied, place, run, wanted
from tracing import traced

# what the second office has not confirmed
MORE = b"INSERT INTO cust VALUES (2, 'B', 1);\nCOMMIT;\n"
WORDS = ["agent", "c1", "--mail", "m", "-s", "-x"]
CALLS = ("ftruncate", "pwrite64", "fdatasync", "fsync")
MOST = 40
ROWS = b"SELECT * FROM cust;\n"


def prepared(program, folder):
    """A folder with a database of two offices, of which the first has confirmed all that was given to it, the second all but its last row. Behind that row stands the note
    that it was sent: the log is to be begun anew before the row."""
    first = os.path.join(folder, "first")
    place(program, first)
    wanted(run([program, "agent", "c1", "--mail", "m"], first)[0], 0, "agent")
    for name in ("r1", "r2"):
        wanted(run([program, "init", name, name], first)[0], 0, "init")
        script = b"CREATE TABLE cust (id INTEGER PRIMARY KEY, rep VARCHAR(8), qty INTEGER); GRANT CONSOLIDATE TO cons;"
        wanted(run([program, "sql", name], first, script)[0], 0, "sql")
        wanted(run([program, "agent", name, "--mail", "m"], first)[0], 0, "agent")
    wanted(run([program, "agent", "c1", "--mail", "m", "-r"], first)[0], 0, "agent")
    wanted(run([program, "sql", "c1"], first, MORE)[0], 0, "sql")
    wanted(run([program, "agent", "c1", "--mail", "m", "-s"], first)[0], 0, "agent")
    return first


def told(program, folder):
    """The lines of `show` without that of the base, with the rows behind them; and the base."""
    status, lines, _ = run([program, "show", "c1"], folder)
    rows = run([program, "sql", "c1"], folder, ROWS)
    based = [line for line in lines.splitlines() if line.startswith(b"base ")]
    if status != 0 or len(based) != 1:
        raise Lost(f"show: status {status} and {lines!r}")
    return (lines.replace(based[0] + b"\n", b"", 1), rows), int(based[0].split()[1])


def unfaulted(program, first):
    """What `show` and SELECT tell before and behind a run in which nothing fails, and what that prints."""
    before, old = told(program, first)
    folder = copied(first, "unfaulted")
    done = traced([program, *WORDS], folder, watched=",".join(CALLS))
    behind, new = told(program, folder)
    wanted(done.status, 0, "the run in which nothing fails")
    wanted(behind, before, "what is told behind it")
    if not 0 == old < new:
        raise Lost(f"the base was {old}, and is {new}")
    wanted(done.printed.splitlines()[0], b"restarted %d" % new, "its first line")
    return before, old, new, done.printed


def look_at(program, folder, hoped, has_new, what):
    """Fails where the database is another one, or has another base than the old one, or the new one where its root was written. Then runs the agent once more."""
    before, old, new, printed = hoped
    behind, base = told(program, folder)
    wanted(behind, before, f"{what}: what is told")
    if base not in has_new:
        raise Lost(f"{what}: the base is {base}")
    wanted(run([program, *WORDS], folder), (0, printed, b""), f"{what}: the next run")
    wanted(told(program, folder), (before, new), f"{what}: what is told behind the next run")


def unsynced(done, folder):
    """The files of the database that a run wrote or cut, and did not sync since."""
    left = set()
    for call in done.calls:
        if call.done and call.name in ("pwrite64", "ftruncate"):
            left.add(os.path.basename(call.path))
        elif call.done and call.name == "fdatasync":
            left.discard(os.path.basename(call.path))
    return {name for name in left if name.startswith("c1.")}


def has_written_root(done):
    """Whether a run wrote its root."""
    return any(call.done and not call.is_injected and call.name == "pwrite64" and call.path.endswith("c1.root") for call in done.calls)


def crashed(first, within, name, how):
    """A folder behind a crash, which left of a file that was not synced what it had before, or a half of what was written."""
    folder = copied(within, f"{os.path.basename(within)}-{name}-{how}")
    if how == "old":
        shutil.copy(os.path.join(first, name), os.path.join(folder, name))
    else:
        os.truncate(os.path.join(folder, name), os.path.getsize(os.path.join(folder, name)) // 2)
    return folder


def each_call(program, folder, fault, look):
    """Has a fault meet each call of a run that begins a log anew, one after the other."""
    first = prepared(program, folder)
    hoped = unfaulted(program, first)
    for name in CALLS:
        for at in range(1, MOST):
            within = copied(first, f"{name}{at}")
            done = traced([program, *WORDS], within, b"", [f"{name}:{fault}:when={at}"], ",".join(CALLS))
            if not look(first, within, done, hoped, f"{name} {at}"):
                break
            shutil.rmtree(within)
        if at in (1, MOST - 1):
            raise Lost(f"{name}: no call of it was met, or all were")


def restarts_that_fail(program, folder):
    """A call of a run that begins a log anew fails: the run says so, and the base is the old one, or the new one where the root was written."""

    def look(_first, within, done, hoped, what):
        hit = [call for call in done.calls if call.is_injected]
        if not hit:
            return False
        wanted((done.status, done.printed), (5, b"disk fault\n"), what)
        if not done.said.startswith(b"dbremote: "):
            raise Lost(f"{what}: standard error has {done.said!r}")
        look_at(program, within, hoped, [hoped[2]] if has_written_root(done) else [hoped[1]], what)
        return True

    each_call(program, folder, "error=EIO", look)


def restarts_that_are_killed(program, folder):
    """A run that begins a log anew ends before a call, and the machine with it: of each file that was not synced the old bytes, half of the new ones or all may be left."""

    def look(first, within, done, hoped, what):
        if done.status == 0:
            return False
        if done.status not in (-signal.SIGKILL, 128 + signal.SIGKILL):
            raise Lost(f"{what}: status {done.status}")
        left = unsynced(done, within)
        if "c1.root" in left and left != {"c1.root"}:
            raise Lost(f"{what}: the root was written before {sorted(left - {'c1.root'})} were synced")
        for name in sorted(left):
            for how in ("old",) if name == "c1.root" else ("old", "half"):
                image = crashed(first, within, name, how)
                look_at(program, image, hoped, [hoped[1]], f"{what}, {name} {how}")
                shutil.rmtree(image)
        # whether a call was made before which the run ended, strace does not say
        at_root = any(call.name == "pwrite64" and call.path.endswith("c1.root") for call in done.calls)
        look_at(program, within, hoped, [hoped[2]] if has_written_root(done) else hoped[1:3] if at_root else [hoped[1]], what)
        return True

    each_call(program, folder, "signal=KILL", look)


def files_that_are_gone(program, folder):
    """A log is begun anew where the files of the other generation are empty, anything, or not there; the name of each that is made is durable before the root names it."""
    first = prepared(program, folder)
    hoped = unfaulted(program, first)
    for ending in ("snap1", "log1"):
        for how in ("gone", "empty", "rubbish"):
            within = copied(first, f"{ending}-{how}")
            path = os.path.join(within, f"c1.{ending}")
            os.remove(path)
            if how != "gone":
                with open(path, "wb") as file:
                    file.write(b"" if how == "empty" else b"\1" * 100_000)
            wanted(told(program, within), (hoped[0], hoped[1]), f"{ending} {how}: what is told")
            done = traced([program, *WORDS], within)
            wanted((done.status, done.printed, done.said), (0, hoped[3], b""), f"{ending} {how}")
            look_at_names(done, within, f"{ending} {how}")
            found, other = (all_in(each) for each in (within, os.path.join(folder, "unfaulted")))
            for name in FILES:
                data = other[f"c1.{name}"]
                wanted(found[f"c1.{name}"][: len(data) if name == "log1" else None], data, f"{ending} {how}: c1.{name}")


def look_at_names(done, folder, what):
    """Fails where the root is written before the folder is synced behind a file that was made."""
    is_made = False
    for call in done.calls:
        if call.done and call.name == "openat" and "O_CREAT" in call.words:
            is_made = True
        elif call.done and call.name == "fsync" and call.path == folder:
            is_made = False
        elif call.done and call.name == "pwrite64" and call.path.endswith("c1.root") and is_made:
            raise Lost(f"{what}: the root names a file whose name was not synced")


CHECKS = [restarts_that_fail, restarts_that_are_killed, files_that_are_gone]
