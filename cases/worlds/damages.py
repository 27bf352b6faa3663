"""Draws what becomes of the files of a database, and what a run that only looks says of them then ("Damage" of docs/FORMATS.md)."""

from typing import NamedTuple

import logs
from database import Database
from encoding import number
from reading import Damaged, Unsure, replayed
from snapshots import read_snapshot

DAMAGED = 3
# how long the rubbish is at most that stands where nothing is in force
RUBBISH = 200


class Verdict(NamedTuple):
    """What is said of files: the line and the status of damage; or the state that they stand for, with its base and its end; or neither, where a text may be a statement
    and may be none. Then it is damaged no earlier than at the file and the place of the text, if at all."""

    damage: str = None
    state: object = None
    base: int = 0
    end: int = 0
    unsure: tuple = None

    def show(self):
        """The lines and the status of `show`."""
        if self.damage:
            return [self.damage], DAMAGED
        return self.state.shown(self.base, self.end), 0

    def may_be(self, lines, status):
        """Whether a run may say this of files of which it cannot be told."""
        if status == 0:
            return True
        words = lines.split()
        if status != DAMAGED or lines.count("\n") != 1 or words[:2] != ["database", "damaged"]:
            return False
        file, place = self.unsure
        return words[2] == file and int(words[3]) >= place or file.startswith("snap") and words[2] == file.replace("snap", "log")


def verdict(files, known):
    """What is said of files, which are given by the endings of their names."""
    generation = files["root"][0] % 2
    try:
        base, state = read_snapshot(f"snap{generation}", files[f"snap{generation}"], known)
        end = replayed(state, f"log{generation}", files[f"log{generation}"], base)
    except Damaged as damaged:
        return Verdict(damage=f"database damaged {damaged}")
    except Unsure as unsure:
        return Verdict(unsure=unsure.args)
    return Verdict(state=state, base=base, end=end)


class Damages:
    """Draws for one database at a time."""

    def __init__(self, drawing):
        self.drawing = drawing

    def turned(self, data, place):
        """The bytes with one bit turned at a place."""
        return data[:place] + number(data[place] ^ 1 << self.drawing.below(8), 1) + data[place + 1 :]

    def place_in_snapshot(self, database: Database):
        """A place of the snapshot in force: as often behind the statements as anywhere."""
        head = len(database.at_base.head(database.log.base)) if self.drawing.chance(0.5) else 0
        return head + self.drawing.below(len(database.snapshot) - head)

    def place_in_log(self, database):
        """A place of the log in force: as often at a gate, in a length or at the beginning of a record as anywhere."""
        data = database.log.data
        if self.drawing.chance(0.5):
            gate = self.drawing.choice([logs.HEADER, *(logs.HEADER + offset - database.log.base for offset in database.log.offsets)])
            return min(gate + self.drawing.below(2 * logs.FRAME), len(data) - 1)
        return self.drawing.below(len(data))

    def in_force(self, database):
        """The snapshot or the log in force, cut or with a bit turned: the ending of its name and its bytes."""
        generation = database.generation()
        if self.drawing.chance(0.5):
            name, data, place = f"snap{generation}", database.snapshot, self.place_in_snapshot(database)
        else:
            name, data, place = f"log{generation}", database.log.data, self.place_in_log(database)
        return name, data[:place] if self.drawing.chance(0.3) else self.turned(data, place)

    def not_in_force(self, database, found):
        """A file of the other generation, of which the bytes are given by the endings of names, made anything; None where it is taken away."""
        name = self.drawing.choice(["snap", "log"])
        other = f"{name}{1 - database.generation()}"
        data = found.get(other) or b""
        share = self.drawing.random.random()
        if data and share < 0.35:
            return other, self.turned(data, self.drawing.below(len(data)))
        if data and share < 0.5:
            return other, data[: self.drawing.below(len(data))]
        if share < 0.6:
            return other, b""
        if share < 0.7:
            return other, None
        if share < 0.85:
            return other, found[f"{name}{database.generation()}"]
        return other, self.drawing.random.randbytes(self.drawing.below(RUBBISH))

    def root(self, database):
        """Another root that names the same generation."""
        first = 2 * self.drawing.below(128) + database.generation()
        return number(first, 1) + self.drawing.random.randbytes(self.drawing.below(4))
