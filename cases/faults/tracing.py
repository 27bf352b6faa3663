"""Runs of the program under strace: which calls they made, and runs into which a fault is put."""

import os
import re
import subprocess

WATCHED = "openat,pwrite64,write,ftruncate,fdatasync,fsync,rename,mkdir,unlink"
CALL = re.compile(r"(?:\d+ +)?(\w+)\((.*)\) += (-?\d+|\?)(.*)")


class Call:
    """A call: its name, its words, whether it succeeded, and the path that it was given or that stands beside the number of its file."""

    def __init__(self, found, folder):
        self.name, self.words = found[1], found[2]
        self.done = found[3].isdigit()
        self.is_injected = "INJECTED" in found[4]
        beside = re.match(r"\d+<([^>]*)>", self.words)
        named = re.findall(r'"([^"]*)"', self.words)
        self.path = beside[1] if beside else os.path.join(folder, named[0]) if named else ""
        self.last_path = os.path.join(folder, named[-1]) if named else self.path
        self.numbers = [int(number) for number in re.findall(r", (\d+)(?=,|$)", self.words)]

    def __repr__(self):
        return f"{self.name} {self.path}"


class Run:
    """A run that ended: its status, what it printed, what it said on standard error, and its calls."""

    def __init__(self, status, printed, said, calls):
        self.status, self.printed, self.said, self.calls = status, printed, said, calls


def traced(words, folder, script=b"", faults=(), watched=WATCHED):
    """A run in a folder under strace. Each fault is a word of strace's --inject."""
    told = os.path.join(folder, ".calls")
    asked = ["strace", "-f", "-y", "-qq", "-s", "64", "-e", f"trace={watched}", "-o", told]
    for fault in faults:
        asked += ["-e", f"inject={fault}"]
    done = subprocess.run([*asked, *words], cwd=folder, input=script, capture_output=True, check=False)
    with open(told, encoding="utf-8", errors="replace") as file:
        found = [CALL.match(line) for line in file]
    os.remove(told)
    return Run(done.returncode, done.stdout, done.stderr, [Call(call, folder) for call in found if call])
