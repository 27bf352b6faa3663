"""A database as the rules have it: what its files are to hold, and what its partners are given."""

import bisect

import logs
import statements
from given import given
from states import State


class Database(State):
    """A state, the log that has led to it from the state at its base, and what each partner is given. `root` has the bytes of the root, of which the first names the
    generation in force, and `snapshot` those of its snapshot."""

    def __init__(self, publisher, known):
        super().__init__(publisher, known)
        self.log = logs.Log(0)
        self.given = {}
        self.root = b"\0"
        self.at_base = self.kept()
        self.snapshot = self.at_base.spelled(0)

    def generation(self):
        """The generation in force: 0 where the root's first byte is even, else 1."""
        return self.root[0] % 2

    def files(self):
        """The files in force, by the endings of their names; of the log up to its closed gate."""
        return {"root": self.root, f"snap{self.generation()}": self.snapshot, f"log{self.generation()}": self.log.data}

    def commit(self, entry):
        """Commits an entry; answers its offset."""
        offset = self.log.commit(entry)
        for user, operations in given(self.catalog, entry).items():
            if operations:
                self.given.setdefault(user, []).append((offset, operations))
        self.take_in(entry)
        return offset

    def due(self, user):
        """The transactions that a partner is given past what he was sent."""
        return [transaction for transaction in self.given.get(user, []) if transaction[0] > self.books[user].log_sent]

    def show(self):
        """The lines of `show`."""
        return self.shown(self.log.base, self.log.end)

    # ---- the log begun anew ("A log begun anew" of docs/REPLICATION.md)

    def need(self, user):
        """Where begins what a partner needs: the end of the entry before the first that gives him a transaction which he has not confirmed, or the base; the end of
        the log where there is none."""
        unconfirmed = [offset for offset, _ in self.given.get(user, []) if offset > self.books[user].confirm_sent]
        if not unconfirmed:
            return self.log.end
        if unconfirmed[0] <= self.log.base:
            raise AssertionError(f"{user} needs what stands before the base")
        offsets = self.log.offsets
        return [self.log.base, *offsets][bisect.bisect_left(offsets, unconfirmed[0])]

    def restart(self):
        """Begins the log anew at the least need of all partners, in the other generation; answers the new base."""
        base = min(map(self.need, self.catalog.users), default=self.log.end)
        for entry in self.log.up_to(base):
            self.at_base.take_in(entry)
        self.known.update({statements.print_statement(statement): statement for statement in self.at_base.catalog.script()})
        self.snapshot = self.at_base.spelled(base)
        self.log = self.log.behind(base)
        self.root = bytes([1 - self.generation()]) + self.root[1:]
        return base
