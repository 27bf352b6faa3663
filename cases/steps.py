"""The steps of a case, done in a folder of their own. README.md has their forms."""

import hashlib
import os
import re
import shutil
import subprocess
import tempfile

import forge


class NotMet(Exception):
    """A step that did not go as its case says."""


def run(program, words, folder, script=b""):
    """The exit status of a run in a folder, and what it printed."""
    done = subprocess.run([program, *words], cwd=folder, input=script, capture_output=True, check=False)
    return done.returncode, done.stdout


def run_between(program, words, folder, change):
    """The same of a run without input. `change` is called as soon as the first byte is printed; the lines that follow wait meanwhile. It is handed the pipe
    from which they are read, and may close it."""
    with subprocess.Popen([program, *words], cwd=folder, stdin=subprocess.DEVNULL, stdout=subprocess.PIPE, stderr=subprocess.DEVNULL) as process:
        first = os.read(process.stdout.fileno(), 1)
        change(process.stdout)
        rest = b"" if process.stdout.closed else process.stdout.read()
    return process.returncode, first + rest


def place(folder, name):
    """The path of a file of a case. In its name %XX is the byte XX, and {N*C} is N times C."""
    name = many_times(name)
    plain = re.sub(rb"%([0-9a-f]{2})", lambda found: bytes.fromhex(found[1].decode()), name.encode())
    return os.path.join(folder, os.fsdecode(plain))


def write(path, data):
    """Writes a file, and the folders on its way."""
    os.makedirs(os.path.dirname(path), exist_ok=True)
    with open(path, "wb") as file:
        file.write(data)


def read(path):
    """The bytes of a file; none where it is not there."""
    if not os.path.exists(path):
        return b""
    with open(path, "rb") as file:
        return file.read()


def files_in(folder):
    """The files of a folder that have bytes, by their names."""
    found = {}
    for root, _, names in os.walk(folder):
        for name in names:
            path = os.path.join(root, name)
            data = read(path) if os.path.isfile(path) else b""
            if data:
                found[os.path.relpath(path, folder)] = data
    return found


def many_times(text):
    """The text with {N*C} as N times C."""
    return re.sub(r"\{(\d+)\*(.)\}", lambda found: found[2] * int(found[1]), text)


def repeated(text):
    """The lines of a block's line `+N TEXT`: TEXT so many times. In it #A is A, A + 1 and so on, with at least as many digits as A is written with,
    #A+B goes up by B, {N*C} is N times C, and \\n parts lines."""
    count, _, line = text.partition(" ")
    line = many_times(line).replace("\\n", "\n")

    def numbered(i):
        return re.sub(
            r"#(\d+)(?:\+(\d+))?",
            lambda found: str(int(found[1]) + i * int(found[2] or 1)).zfill(len(found[1])),
            line,
        )

    return "".join(numbered(i) + "\n" for i in range(int(count)))


def line_of(line):
    """What a line of a block stands for."""
    if line[2] == "+":
        return repeated(line[3:]).encode()
    return line[3:].encode() + (b"\n" if line[2] == "|" else b"")


def parts_of(path):
    """The parts of a file of cases: each its name and its steps, the words of each step and the blocks behind it. The first part has no name; a line
    `== NAME` begins each further one."""
    parts = [("", [])]
    block = None
    with open(path, encoding="utf-8", newline="") as file:
        for line in file.read().split("\n"):
            steps = parts[-1][1]
            if line.startswith(("  |", "  +", "  \\")):
                steps[-1][1][block] += line_of(line)
            elif line in ("stdin", "stdout"):
                block = line
                steps[-1][1][block] = b""
            elif line.startswith("status "):
                steps[-1][1]["status"] = int(line[7:])
            elif line.startswith("== "):
                parts.append((line[3:], []))
            elif line and not line.startswith("#"):
                steps.append((line.split(" "), {}))
    return parts


class Case:
    """A case in its folder: what is held of it, what is left at its end, and the change that waits for the next run."""

    def __init__(self, program, folder):
        self.program = program
        self.folder = folder
        self.held = {}
        self.left = {}
        self.change = None

    def at(self, name):
        """The path of a file."""
        return place(self.folder, name)

    def do(self, words, blocks):
        """Does a step."""
        kind, *rest = words
        if kind == "run":
            self.do_run(rest, blocks)
        elif kind == "meanwhile":
            self.change = (lambda pipe: pipe.close()) if rest == ["close"] else (lambda pipe: self.do(rest, blocks))
        elif kind == "left":
            self.left[rest[0]] = rest[2] if len(rest) > 2 else ""
        elif kind in ("file", "same", "length", "there", "gone"):
            self.do_look(kind, rest)
        elif kind in ("touch", "many", "forge", "part", "turn", "copy", "append", "cut"):
            self.do_write(kind, rest)
        else:
            self.do_place(kind, rest)

    def do_run(self, words, blocks):
        """Runs the program."""
        change, self.change = self.change, None
        if change:
            got = run_between(self.program, words, self.folder, change)
        else:
            got = run(self.program, words, self.folder, blocks.get("stdin", b""))
        wanted = blocks["status"], blocks.get("stdout", b"")
        if got != wanted:
            raise NotMet(f"{' '.join(words)}: status {got[0]} and {shown(got[1], wanted[1])}")

    def do_look(self, kind, rest):
        """Looks at files."""
        if kind == "file":
            wanted = "".join(rest[1:])
            if read(self.at(rest[0])).hex() != wanted:
                raise NotMet(f"{rest[0]} has other bytes")
            return
        if kind == "length":
            if len(read(self.at(rest[0]))) != int(rest[1]):
                raise NotMet(f"{rest[0]} has {len(read(self.at(rest[0])))} bytes")
            return
        if kind == "same":
            if read(self.at(rest[0])) != read(self.at(rest[1])):
                raise NotMet(f"{rest[0]} and {rest[1]} have other bytes")
            return
        for name in rest:
            if os.path.lexists(self.at(name)) != (kind == "there"):
                raise NotMet(f"{name} is {'gone' if kind == 'there' else 'there'}")

    def do_write(self, kind, rest):
        """Writes files."""
        name, *rest = rest
        path = self.at(name)
        if kind == "touch":
            write(path, b"")
        elif kind == "many":
            for i in range(int(rest[0])):
                write(path + f"{i:05}", b"")
        elif kind == "forge":
            write(path, forge.message(rest))
        elif kind == "part":
            write(self.at(rest[0]), read(path)[: int(rest[1])])
        elif kind == "turn":
            data = read(path)
            for i in range(8 * len(data)):
                turned = data[i // 8] ^ (1 << (i % 8))
                write(self.at(rest[0]) + f"{i:05}", data[: i // 8] + bytes([turned]) + data[i // 8 + 1 :])
        elif kind == "copy":
            write(self.at(rest[0]), read(path))
        elif kind == "append":
            write(path, read(path) + bytes.fromhex(rest[0]))
        elif kind == "cut":
            write(path, read(path)[: int(rest[1])])

    def do_place(self, kind, rest):
        """Changes what stands in a folder."""
        path = self.at(rest[0])
        os.makedirs(os.path.dirname(path), exist_ok=True)
        if kind == "delete":
            os.remove(path)
        elif kind == "hold":
            self.held[rest[0]] = read(path)
            os.remove(path)
        elif kind == "release":
            write(path, self.held.pop(rest[0]))
        elif kind == "folder":
            os.makedirs(path)
        elif kind == "link":
            os.symlink(rest[1], path)
        elif kind == "pipe":
            os.mkfifo(path)
        elif kind == "mode":
            os.chmod(path, int(rest[1], 8))
        else:
            raise NotMet(f"there is no step {kind}")

    def do_all(self, steps):
        """Does steps in order, and looks at the files that are to be left."""
        for at, (words, blocks) in enumerate(steps, 1):
            try:
                self.do(words, blocks)
            except (NotMet, OSError, KeyError, ValueError, IndexError) as fault:
                raise NotMet(f"step {at}: {fault}") from fault
        if self.left:
            self.look_at_left()

    def look_at_left(self):
        """Whether the files that are left have the bytes that are named, and the others none."""
        have = files_in(self.folder)
        for name in sorted(set(have) | set(self.left)):
            data = have.get(name, b"")
            wanted = self.left.get(name, "")
            got = "sha256:" + hashlib.sha256(data).hexdigest() if wanted.startswith("sha256:") else data.hex()
            if got != wanted:
                raise NotMet(f"at the end {name} has other bytes")


def shown(got, wanted):
    """The first line that differs."""
    lines = got.split(b"\n")
    other = wanted.split(b"\n")
    at = next((i for i, (one, two) in enumerate(zip(lines, other)) if one != two), min(len(lines), len(other)))
    line = [some[at] if at < len(some) else None for some in (lines, other)]
    return f"line {at + 1} is {line[0]!r}, not {line[1]!r}"


def cases_of(program, path, label, with_modes=True):
    """The cases of a file: each its name, and what of it is not met. Where the file has parts, its steps before them are done once, and each part goes on
    from there in a copy. Those with a step `mode` are left out where modes bind nobody."""
    (_, before), *parts = parts_of(path)
    with tempfile.TemporaryDirectory() as made:
        first = os.path.join(made, "first")
        os.mkdir(first)
        if with_modes or not has_mode(before):
            yield label, fault_of(Case(program, first), before)
        for name, steps in parts:
            if with_modes or not has_mode(steps):
                yield f"{label}: {name}", fault_in_copy(program, first, steps)


def has_mode(steps):
    """Whether a step is to set the mode of a file."""
    return any(words[0] == "mode" for words, _ in steps)


def fault_in_copy(program, first, steps):
    """What is not met of the steps of a case that goes on in a copy of a folder."""
    with tempfile.TemporaryDirectory() as made:
        folder = os.path.join(made, "folder")
        shutil.copytree(first, folder, symlinks=True)
        return fault_of(Case(program, folder), steps)


def fault_of(case, steps):
    """What is not met of the steps of a case; nothing where all are."""
    try:
        case.do_all(steps)
    except NotMet as fault:
        return str(fault)
    return ""
