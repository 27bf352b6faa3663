"""Draws databases that replicate, and compares each run of the program with what the rules of docs/ say. ../worlds.sh says what for.

What each run is to print, and what is to stand in the files and the mail behind it, comes from the modules beside this one alone. They were written from the
rules, share nothing with the program, and keep no files.
"""

import os
import subprocess
import sys
import tempfile
from typing import NamedTuple

import demonstration
from forging import Forging
from kinds import TREES, Conflicting, Cutting, Differing
from offices import PRESENT, TREE, Serving
from sizes import FIXED
from world import Difference

KINDS = [Differing, Conflicting, Cutting, Forging]
WORLDS = len(KINDS) * len(TREES)
# worlds of a head office with many partners, one for each so many others
SERVED = 8
ROUNDS = 80
# a seed and a count each; the logs of 1,001 statements have more than 9,000 bytes
DEMONSTRATIONS = [(7, 0), (1, 101), (11, 1001), (2**64 - 1, 301)]


class Count(NamedTuple):
    """What was done: runs, those that began a log anew, copies that were damaged, and those of which the rules could not be asked, for a text in them."""

    runs: int = 0
    restarts: int = 0
    damaged: int = 0
    unsure: int = 0

    def plus(self, other):
        """Both together."""
        return Count(*map(sum, zip(self, other)))


def live(program, number):
    """One world from its beginning on; answers what was done, and the difference that ended it or None."""
    kind = KINDS[number // len(TREES) % len(KINDS)]
    with tempfile.TemporaryDirectory() as folder:
        return lived(kind(program, folder, number, TREES[number % len(TREES)]), number)


def served(program, number):
    """One world of a head office with many partners, as `live` does it."""
    with tempfile.TemporaryDirectory() as folder:
        return lived(Serving(program, folder, number, TREE, PRESENT), number)


def counted(world):
    """What was done in a world."""
    return Count(world.runs, world.restarts, world.damaged, world.unsure)


def lived(drawn, number):
    """A world that was drawn with a number, from its beginning on: what was done, and the difference that ended it or None."""
    try:
        drawn.begin()
        for _ in range(ROUNDS):
            drawn.round()
            drawn.world.befall()
    except Difference as difference:
        return counted(drawn.world), f"world {number}, {type(drawn).__name__.lower()}, {difference}"
    return counted(drawn.world), None


def fixed(program, build):
    """A fixed world: what was done, and the difference that ended it or None."""
    with tempfile.TemporaryDirectory() as folder:
        try:
            return counted(build(program, folder)), None
        except Difference as difference:
            return Count(), f"{build.__name__}, {difference}"


def shown(program, seed, count):
    """A demonstration: that it is a run, and the difference or None."""
    wanted = "".join(line + "\n" for line in demonstration.lines_of(seed, count))
    done = subprocess.run([program, "demo", str(seed), str(count)], stdin=subprocess.DEVNULL, capture_output=True, check=False)
    if (done.returncode, done.stdout.decode(errors="replace")) == (0, wanted):
        return Count(1), None
    return Count(1), f"demo {seed} {count} is to end with 0 and print\n{wanted}and ends with {done.returncode} and prints\n{done.stdout.decode(errors='replace')}"


def lives(program, count):
    """The demonstrations, the fixed worlds, and so many drawn ones, with as many of a head office as belong to them."""
    yield from (shown(program, seed, count_of) for seed, count_of in DEMONSTRATIONS)
    yield from (fixed(program, build) for build in FIXED)
    yield from (live(program, number) for number in range(count))
    yield from (served(program, number) for number in range(-(-count // SERVED)))


def main(arguments):
    """Compares worlds, and answers the exit status."""
    if len(arguments) not in (2, 3):
        print("usage: cases/worlds.sh PROGRAM [WORLDS]")
        return 2
    program = os.path.abspath(arguments[1])
    count = int(arguments[2]) if len(arguments) == 3 else WORLDS
    done = Count()
    differences = 0
    for added, difference in lives(program, count):
        done = done.plus(added)
        if difference is not None:
            print(f"worlds: {difference}")
            differences += 1
    sizes = f"{count}, {-(-count // SERVED)} of a head office with {len(TREE) - 1} partners, {len(FIXED)} of fixed sizes, {len(DEMONSTRATIONS)} demonstrations"
    damages = f"{done.restarts} logs begun anew, {done.damaged} copies damaged, {done.unsure} of them in a text"
    print(f"worlds: {sizes}, {done.runs} runs, {damages}, {len(TREES)} trees, {differences} differences")
    return 1 if differences else 0


if __name__ == "__main__":
    sys.exit(main(sys.argv))
