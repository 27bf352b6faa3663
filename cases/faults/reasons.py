"""What is said on standard error where a call fails, and that it changes nothing of what is printed."""

import os
import resource
import shutil
import signal
import subprocess

from placing import AGENT, Lost, all_in, as_another, copied, place, run, wanted


def told(found, status, printed, said, what):
    """Fails where a run ended or printed otherwise, or said other lines."""
    wanted(found, (status, printed, b"".join(b"dbremote: " + line + b"\n" for line in said)), what)


def what_is_missing(program, folder):
    """A folder that is not there, a file in place of a folder, and a name that is none are said."""
    told(run([program, "init", "absent/c", "cons"], folder), 5, b"disk fault\n", [b"absent/c.root: No such file or directory"], "no folder")
    wanted(all_in(folder), {}, "made")
    place(program, folder)
    with open(os.path.join(folder, "file"), "wb"):
        pass
    told(run([program, "show", "file/c"], folder), 5, b"disk fault\n", [b"file/c.root: Not a directory"], "a file")
    status, printed, said = run([program, "agent", "c1", "--mail", "file"], folder)
    wanted((status, printed.splitlines()[-1]), (6, b"mail fault"), "a file for a mail folder")
    wanted(said, b"dbremote: file/cons: Not a directory\n", "standard error")
    strange = "st\nr\x7f"
    told(run([program, "init", f"{strange}/c", "cons"], folder), 5, b"disk fault\n", [b"st?r?/c.root: No such file or directory"], "a strange name")


def what_may_not_be_done(program, folder):
    """Files that may not be written are read, and what may not be done is said."""
    within = os.path.join(folder, "d")
    place(program, within)
    shown = run([program, "show", "c1"], within)
    for name in os.listdir(within):
        os.chmod(os.path.join(within, name), 0o444)
    os.chmod(within, 0o555)
    before = all_in(within)
    words = as_another([program])
    if not words:
        return "(no other user can be had)"
    wanted(run([*words, "show", "c1"], within), shown, "show")
    wanted(run([*words, "sql", "c1"], within, b"SELECT id FROM cust;"), (0, b"1\n1 rows\n", b""), "a query")
    found = run([*words, "sql", "c1"], within, b"INSERT INTO cust VALUES (2, 'A', 1);\nCOMMIT;\n")
    told(found, 5, b"1 rows\ndisk fault\n", [b"c1.log0: Permission denied"], "a commit")
    told(run([*words, "init", "c2", "cons"], within), 5, b"disk fault\n", [b"c2.root: Permission denied"], "init")
    wanted(all_in(within), before, "the files")
    os.chmod(os.path.join(within, "c1.root"), 0)
    told(run([*words, "show", "c1"], within), 5, b"disk fault\n", [b"c1.root: Permission denied"], "a root that may not be read")
    os.chmod(within, 0o755)
    return ""


def a_full_disk(program, folder):
    """A full disk is said, a message that it cut off leaves nothing lying, and the next run goes on."""
    for name in ("small", "first"):
        os.mkdir(os.path.join(folder, name))
    small = os.path.join(folder, "small")
    mounted = os.geteuid() == 0 and subprocess.run(["mount", "-t", "tmpfs", "-o", "size=16k", "none", small], capture_output=True, check=False).returncode == 0
    if not mounted:
        return "(no small disk can be had)"
    try:
        place(program, os.path.join(folder, "d"))
        with open(os.path.join(small, "filler"), "wb", buffering=0) as file:
            try:
                while True:
                    file.write(b"x" * 4096)
            except OSError:
                pass
        found = run([program, "agent", "d/c1", "--mail", "small/m"], folder)
        if found[0] != 6 or not found[1].endswith(b"mail fault\n") or b": No space left on device\n" not in found[2]:
            raise Lost(f"agent: {found}")
        wanted([name for name in all_in(small) if os.path.basename(name).startswith(".")], [], "left lying")
        os.remove(os.path.join(small, "filler"))
        wanted(run([program, "agent", "d/c1", "--mail", "small/m"], folder), (0, AGENT, b""), "the next run")
    finally:
        subprocess.run(["umount", small], check=False)
    return ""


def files_that_may_not_grow(program, folder):
    """A file that may not grow is said, and the rows that were committed stand."""
    place(program, folder)

    def limit():
        signal.signal(signal.SIGXFSZ, signal.SIG_IGN)
        resource.setrlimit(resource.RLIMIT_FSIZE, (1024, 1024))

    text = b"INSERT INTO cust VALUES (%d, 'B', 1);\n"
    script = b"".join(text % at + b"COMMIT;\n" for at in range(2, 40))
    status, printed, said = run([program, "sql", "c1"], folder, script, preexec_fn=limit)
    wanted((status, printed.splitlines()[-1], said), (5, b"disk fault", b"dbremote: c1.log0: File too large\n"), "sql")
    count = printed.count(b"committed")
    wanted(run([program, "sql", "c1"], folder, b"SELECT COUNT(*) FROM cust;"), (0, b"%d\n1 rows\n" % (1 + count), b""), "the rows")


def standard_error(program, folder):
    """A standard error that is closed or full changes nothing."""
    place(program, os.path.join(folder, "first"))
    runs = (["agent", "c1", "--mail", "c1.root"], ["init", "absent/c", "cons"], ["sql", "zz"], ["agent", "c1", "--mail", "m"])
    for at, words in enumerate(runs):
        ends = []
        for name in ("2>&1", "2>&-", "2>/dev/full", "<&- 2>&-"):
            within = copied(os.path.join(folder, "first"), f"{at}{name.replace('/', '-')}")
            line = f'exec "$@" {name}' if name != "2>&1" else 'exec "$@" 2>/dev/null'
            status, printed, _ = run(["sh", "-c", line, "sh", program, *words], within)
            ends.append((status, printed, all_in(within)))
            shutil.rmtree(within)
        for end in ends[1:]:
            wanted(end, ends[0], " ".join(words))


def standard_streams(program, folder):
    """A standard output that is full or closed is said, of the first line and of the fault's."""
    place(program, folder)
    with open("/dev/full", "wb") as full:
        status, _, said = run([program, "show", "c1"], folder, stdout=full)
    wanted((status, said), (7, 2 * b"dbremote: standard output: No space left on device\n"), "a full standard output")
    status, _, said = run(["sh", "-c", 'exec "$0" show c1 >&-', program], folder)
    wanted((status, said), (7, 2 * b"dbremote: standard output: Bad file descriptor\n"), "a closed standard output")
    found = run(["sh", "-c", 'exec "$0" sql c1 <&-', program], folder)
    wanted(found, (7, b"source fault\n", b"dbremote: standard input: Bad file descriptor\n"), "a closed standard input")


CHECKS = [what_is_missing, what_may_not_be_done, a_full_disk, files_that_may_not_grow, standard_error, standard_streams]
