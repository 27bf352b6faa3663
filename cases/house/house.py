"""Looks at the repository itself: its edits, its layers, its files of definitions and proofs, and what its documents name. ../README.md says what is wanted."""

import os
import sys

import edits
import layers
import modules
import names
from tree import Tree

TOP = os.path.dirname(os.path.dirname(os.path.dirname(os.path.abspath(__file__))))


def wrong(top):
    """All that is not so in a checkout."""
    tree = Tree(top)
    for part in (edits, layers, modules, names):
        yield from part.wrong(tree)


def main(words):
    """Says what is not so, and answers the status."""
    if words == ["--self-test"]:
        from trials import untold

        found = list(untold(TOP))
    elif not words:
        found = list(wrong(TOP))
    else:
        print("usage: cases/house.sh [--self-test]")
        return 2
    for line in found:
        print(f"house: {line}")
    return 1 if found else 0


if __name__ == "__main__":
    sys.exit(main(sys.argv[1:]))
