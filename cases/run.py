"""Runs the cases of this folder with a built program. README.md has their forms."""

import ctypes
import os
import re
import shlex
import subprocess
import sys
import tempfile

from steps import cases_of, files_in, many_times, run, write

HERE = os.path.dirname(os.path.abspath(__file__))


def rows_of(path):
    """The lines of a file that are neither empty nor a comment."""
    with open(os.path.join(HERE, path), encoding="utf-8") as file:
        return [line.rstrip("\n") for line in file if line.strip() and not line.startswith("#")]


def bind_modes():
    """Has the modes of files bind the programs that are run, also where they are run by root; answers whether they do."""
    prctl = getattr(ctypes.CDLL(None), "prctl", None)
    for capability in (1, 2):  # to read and write whatever the mode, and to look into each folder
        if prctl:
            prctl(24, capability, 0, 0, 0)  # takes it from what a program can get that is started from here
    with tempfile.TemporaryDirectory() as folder:
        path = os.path.join(folder, "closed")
        write(path, b"")
        os.chmod(path, 0)
        return subprocess.run(["cat", path], capture_output=True, check=False).returncode != 0


def paths_of(names):
    """The files of cases that are named, or all of program/ and agent/."""
    if names:
        return names
    return [f"{group}/{name}" for group in ("program", "agent") for name in sorted(os.listdir(os.path.join(HERE, group)))]


def cases(program, names=()):
    """The cases of these files, each its name and what of it is not met."""
    with_modes = bind_modes()
    if not with_modes:
        print("cases: those with a step `mode` are left out, for modes bind nobody here")
    for path in paths_of(names):
        yield from cases_of(program, os.path.join(HERE, path), path, with_modes)


# ---- words.txt, refused.txt, damaged.txt, restarted.txt


def fault(met):
    """What is said of a row that is met or not."""
    return "" if met else "the status, a line or a file is another"


def word_of(text):
    """A word; in it %XX is the byte XX."""
    return os.fsdecode(re.sub(rb"%([0-9a-f]{2})", lambda found: bytes.fromhex(found[1].decode()), text.encode()))


def words(program):
    """Words, each with the status and the lines that are wanted of it. Where they are refused, or ask for the demonstration, nothing is made."""
    wanted = 0, b""
    for row in rows_of("words.txt"):
        if row.startswith("> "):
            status, line = row[2:].split(" ", 1)
            wanted = int(status), line.replace("\\n", "\n").encode() + b"\n"
            continue
        with tempfile.TemporaryDirectory() as folder:
            told = run(program, [word_of(word) for word in shlex.split(many_times(row))], folder) == wanted
            made = os.listdir(folder)
        yield f"words.txt: {row}", fault(told and not (made and (wanted[0] == 2 or row.startswith("demo"))))


def script_of(text):
    """The script of a refused statement, and its place: as it stands, or behind so many of its like."""
    many = re.fullmatch(r"(\d+) times (.*)", text)
    if not many:
        return text, 1
    count = int(many[1])
    return "\n".join(many[2].replace("#", str(place)) + ";" for place in range(1, count + 1)), count


def refused(program):
    """Statements that are refused on one database. What stands before a limit is met is committed."""
    rows = rows_of("refused.txt")
    made = "\n".join(row[2:] for row in rows if row.startswith("> "))
    with tempfile.TemporaryDirectory() as folder:
        run(program, ["init", "c1", "cons"], folder)
        yield "refused.txt: the database", fault(run(program, ["sql", "c1"], folder, made.encode())[0] == 0)
        whole = files_in(folder)
    for row in rows:
        if row.startswith("> "):
            continue
        refusal, _, text = row.partition(": ")
        script, place = script_of(text)
        status = 9 if refusal.startswith("TooMany") else 4
        with tempfile.TemporaryDirectory() as folder:
            for name, data in whole.items():
                write(os.path.join(folder, name), data)
            answered, lines = run(program, ["sql", "c1"], folder, script.encode())
            told = lines.endswith(b"statement %d refused: %s\n" % (place, refusal.encode()))
            kept = place > 1 or files_in(folder) == whole
            yield f"refused.txt: {row}", fault(told and answered == status and lines.count(b"\n") == place and kept)


def span(text):
    """The places of a range, both ends included."""
    first, _, last = text.partition("..")
    return range(int(first), int(last or first) + 1)


def damages(table):
    """The damaged databases of a table: each its name, its files, and what is said of them."""
    files = {}
    single = {}
    rows = [row.partition(": ") for row in rows_of(table)]
    for left, _, verdict in rows:
        kind, name, *rest = left.split()
        if kind == "byte":
            single[name, int(rest[0]), int(rest[1], 16)] = verdict
    for left, _, verdict in rows:
        kind, name, *rest = left.split()
        old = files.get(name, b"")
        if kind == "file":
            files[name] = bytes.fromhex("".join(rest))
        elif kind == "more":
            yield left, {**files, name: old + bytes.fromhex(rest[0])}, verdict
        elif kind == "cut":
            for length in span(rest[0]):
                yield f"cut {name} {length}", {**files, name: old[:length]}, verdict
        elif kind == "turn":
            for at in span(rest[0]):
                for byte in sorted({old[at] ^ 1, old[at] ^ 128, 0, 255} - {old[at]}):
                    told = single.get((name, at, byte), verdict)
                    yield f"byte {name} {at} becomes {byte}", {**files, name: old[:at] + bytes([byte]) + old[at + 1 :]}, told
    yield "whole", files, "stands"


def damaged(program, table):
    """Whether an empty script on each damaged database of a table says what it is to say, and leaves the files."""
    for name, files, verdict in damages(table):
        lines = b"" if verdict == "stands" else b"database missing\n" if verdict == "missing" else b"database damaged %s\n" % verdict.encode()
        with tempfile.TemporaryDirectory() as folder:
            for file, data in files.items():
                write(os.path.join(folder, f"c1.{file}"), data)
            told = run(program, ["sql", "c1"], folder) == (0 if verdict == "stands" else 3, lines)
            left = {f"c1.{file}": data for file, data in files.items() if data}
            yield f"{table}: {name}", fault(told and files_in(folder) == left)


def demonstration(program):
    """A demonstration of 2000 statements, twice: the same five lines, and behind the lost messages and the conflicts nothing differs in the end. And one whose
    lines nobody takes."""
    with tempfile.TemporaryDirectory() as folder:
        status, lines = run(program, ["demo", "1", "2000"], folder)
        again = run(program, ["demo", "1", "2000"], folder)
        made = os.listdir(folder)
    form = rb"statements 2000\nmessages \d+ lost [1-9]\d*\nrows( [1-9]\d*){4}\nconflicts [1-9]\d* clashes \d+\ndiffer 0\n"
    yield "demo 1 2000", fault(status == 0 and re.fullmatch(form, lines) and not made)
    yield "demo 1 2000, again", fault(again == (status, lines))
    if os.path.exists("/dev/full"):
        with open("/dev/full", "wb") as full:
            yield "demo 7 0, to a full device", fault(subprocess.run([program, "demo", "7", "0"], stdout=full, check=False).returncode == 7)


def rows(program):
    """The rows of the tables, and the demonstration."""
    yield from words(program)
    yield from refused(program)
    for table in ("damaged.txt", "restarted.txt"):
        yield from damaged(program, table)
    yield from demonstration(program)


def main(arguments):
    """Runs the cases that are named, or all and the rows of the tables, and answers the exit status."""
    if len(arguments) < 2:
        print("usage: cases/run.sh PROGRAM [CASE ..]")
        return 2
    program, *names = arguments[1:]
    program = os.path.abspath(program)
    met = count = 0
    for group in (cases(program, names), [] if names else rows(program)):
        for name, wrong in group:
            count += 1
            met += not wrong
            if wrong:
                print(f"not met: {name}: {wrong}", flush=True)
    print(f"cases: {met} of {count} met")
    return 0 if met == count else 1


sys.exit(main(sys.argv))
