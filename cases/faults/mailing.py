"""Messages that are put while something fails: nothing counts as sent before its name, and that of each folder on its way, stands after a crash."""

import os
import shutil
import signal

from placing import AGENT, RECEIVED, Lost, all_in, as_another, copied, given_to_another, place, run, wanted
from tracing import traced

WORDS = ["agent", "d/c1", "--mail", "x/a/m"]
WAY = ["", "x", "x/a", "x/a/m"]
ADDRESSES = ("r1", "r2")
MOST = 60


def prepared(program, folder):
    """A folder with the database in d/."""
    first = os.path.join(folder, "first")
    place(program, os.path.join(first, "d"))
    return first


def look_at_notes(done, folder):
    """Fails where a message is noted whose name, or a folder on its way, was not synced in this run."""
    synced, waiting = set(), None
    for call in done.calls:
        if not call.done:
            continue
        if call.name == "fsync":
            synced.add(call.path)
        elif call.name == "rename":
            waiting = os.path.dirname(call.last_path)
            synced.discard(waiting)
        elif call.name == "mkdir":
            synced.discard(os.path.dirname(call.path))
        elif call.name == "pwrite64" and waiting and call.path.endswith("c1.log0"):
            for name in [*WAY, os.path.relpath(waiting, folder)]:
                if os.path.normpath(os.path.join(folder, name)) not in synced:
                    raise Lost(f"a message in {os.path.relpath(waiting, folder)} is noted, and ./{name} was not synced")
            waiting = None


def look_at_end(program, folder, hoped):
    """Runs the agent once more: behind it all is as if nothing had failed."""
    done = traced([program, *WORDS], folder)
    if done.status != 0 or not done.printed.startswith(RECEIVED):
        raise Lost(f"the next run: status {done.status} and {done.printed!r}")
    look_at_notes(done, folder)
    wanted(run([program, "show", "d/c1"], folder), hoped[0], "show")
    wanted(mail_in(folder), hoped[1], "the mail")


def mail_in(folder):
    """The mail folder, with all that is in it."""
    return {name: data for name, data in all_in(folder).items() if name.startswith("x")}


def unfaulted(program, first):
    """What `show` says, and the mail, after a run in which nothing fails."""
    folder = copied(first, "unfaulted")
    done = traced([program, *WORDS], folder)
    wanted((done.status, done.printed, done.said), (0, AGENT, b""), "agent")
    look_at_notes(done, folder)
    return run([program, "show", "d/c1"], folder), mail_in(folder)


def look_at_drafts(folder):
    """Fails where a draft lies about."""
    drafts = [name for name in mail_in(folder) if os.path.basename(name).startswith(".")]
    if drafts:
        raise Lost(f"left lying: {drafts}")


def calls_that_fail(program, folder):
    """The agent whose call of the mail fails says so, leaves nothing lying, and the next run makes all that is needed durable."""
    first = prepared(program, folder)
    hoped = unfaulted(program, first)
    for name, error in (("fsync", "EIO"), ("mkdir", "EACCES"), ("rename", "EIO"), ("write", "ENOSPC")):
        for at in range(1, MOST):
            within = copied(first, f"{name}{at}")
            done = traced([program, *WORDS], within, b"", [f"{name}:error={error}:when={at}"])
            hit = [call for call in done.calls if call.is_injected]
            if not hit:
                break
            if name == "write" and hit[0].words.startswith("1<"):
                shutil.rmtree(within)
                continue
            is_disk = hit[0].path == os.path.join(within, "d")
            wanted((done.status, done.printed.splitlines()[-1]), (5, b"disk fault") if is_disk else (6, b"mail fault"), f"{name} {at}")
            if b"dbremote: " not in done.said:
                raise Lost(f"{name} {at}: nothing is said")
            look_at_notes(done, within)
            look_at_drafts(within)
            look_at_end(program, within, hoped)
            shutil.rmtree(within)
        if at in (1, MOST - 1):
            raise Lost(f"{name}: no call of it failed, or all did")


def runs_that_are_killed(program, folder):
    """The next run behind a killed one makes all that is needed durable."""
    first = prepared(program, folder)
    hoped = unfaulted(program, first)
    for name in ("fsync", "mkdir", "rename"):
        for at in range(1, MOST):
            within = copied(first, f"{name}{at}")
            done = traced([program, *WORDS], within, b"", [f"{name}:signal=KILL:when={at}"])
            if done.status == 0:
                break
            if done.status not in (-signal.SIGKILL, 128 + signal.SIGKILL):
                raise Lost(f"{name} {at}: status {done.status}")
            look_at_end(program, within, hoped)
            shutil.rmtree(within)
        if at in (1, MOST - 1):
            raise Lost(f"{name}: no run was killed, or all were")


def folders_of_another(program, folder):
    """Folders that another database made, and did not sync, are synced."""
    first = prepared(program, folder)
    hoped = unfaulted(program, first)
    for made in ("x", "x/a", "x/a/m", "x/a/m/r1"):
        within = copied(first, made.replace("/", "-"))
        os.makedirs(os.path.join(within, made))
        look_at_end(program, within, hoped)


def once_each(program, folder):
    """The folders on the way are synced once a run, and those of an address once, and for each message."""
    first = prepared(program, folder)
    done = traced([program, *WORDS], first)
    counts = {}
    for call in done.calls:
        if call.name == "fsync" and not os.path.basename(call.path).startswith("."):
            name = os.path.relpath(call.path, first)
            counts[name] = counts.get(name, 0) + 1
    wanted(counts, {"d": 1, ".": 1, "x": 1, "x/a": 1, "x/a/m": 2, "x/a/m/r1": 2, "x/a/m/r2": 2}, "syncs")


def a_drop_box(program, folder):
    """A folder that may be written and not read is refused, and nothing lies in it."""
    os.makedirs(os.path.join(folder, "m/r1"))
    place(program, os.path.join(folder, "d"))
    given_to_another(folder)
    inbox = os.path.join(folder, "m/r1")
    if os.geteuid() == 0:
        os.chown(inbox, 0, 0)
    os.chmod(inbox, 0o1733 if os.geteuid() == 0 else 0o333)
    words = as_another([program, "agent", "d/c1", "--mail", "m"])
    if not words:
        return "(no other user can be had)"
    for _ in range(2):
        status, printed, said = run(words, folder)
        os.chmod(inbox, 0o700)
        left = os.listdir(inbox)
        os.chmod(inbox, 0o1733 if os.geteuid() == 0 else 0o333)
        wanted((status, printed), (6, RECEIVED + b"mail fault\n"), "agent")
        wanted(left, [], "in the folder")
        wanted(said, b"dbremote: m/r1: Permission denied\n", "standard error")
    return ""


CHECKS = [calls_that_fail, runs_that_are_killed, folders_of_another, once_each, a_drop_box]
