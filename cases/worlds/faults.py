"""The faults by which a statement is refused (docs/SQL.md)."""


class Refused(Exception):
    """A statement is refused; its text is what the line tells behind `refused:`."""


def missing(name):
    """What a statement names is not there."""
    raise Refused("Missing " + name)


def exists(name):
    """What a statement makes is there."""
    raise Refused("Exists " + name)


def in_use(name):
    """What a statement drops is still named by something."""
    raise Refused("InUse " + name)


def wrong_type(name):
    """An expression of a statement is of a class that may not stand there."""
    raise Refused("BadType " + name)
