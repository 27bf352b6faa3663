"""Trials of the checks themselves: checkouts that are wrong in one place each, and whether that is told."""

import os
import re
import shutil
import subprocess
import tempfile

import edits
import layers
import modules
import names
from tree import Tree

EDIT = "wrong-bodies/sr_book/a_trial.edit"
BOOK = "file: src/book.rt\n"


def edit_of(pairs):
    """An edit of these pairs beside the others."""
    return lambda tree: tree.with_text(EDIT, BOOK + "".join(f"old: {old}\nnew: {new}\n" for old, new in pairs))


def turned(path, old, new):
    """The first place of a pattern in a file turned."""

    def turn(tree):
        text, count = re.subn(old, new, tree.text(path), count=1, flags=re.M)
        if count != 1:
            raise ValueError(f"{path} has no {old}")
        return tree.with_text(path, text)

    return turn


def added(path, line):
    """A line behind those of a file."""
    return lambda tree: tree.with_text(path, tree.text(path) + line + "\n")


def last_first(tree):
    """The last crate of crates.txt in front of the others."""
    lines = tree.text("crates.txt").rstrip("\n").split("\n")
    return tree.with_text("crates.txt", "\n".join([lines[-1], *lines[:-1]]) + "\n")


def trials():
    """Each trial: the part that has to see it, what is turned, and a piece of what has to be told."""
    page, proved, theorems = layers.PAGE, "docs/PROVED.md", "docs/THEOREMS.md"
    yield edits, edit_of([("this text stands nowhere in it", "nor this")]), "stands 0 times"
    yield edits, edit_of([("self.", "self .")]), "an old text stands"
    yield edits, edit_of([("impl Book {", "impl Book {"), ("no", "such")]), "an old text stands"
    yield edits, lambda tree: tree.with_text(EDIT, "file: src/no_such_file.rt\nold: a\nnew: b\n"), "names no file"
    yield edits, lambda tree: tree.with_text(EDIT, BOOK), "without its new one"
    yield edits, lambda tree: tree.with_text("wrong-bodies/sr_nothing/a.edit", BOOK), "names no file"
    yield edits, lambda tree: tree.with_text("wrong-bodies/sr_book/none.edit", ""), "are not counted as"
    yield edits, turned(proved, r"The gate tries \d+ edits", "The gate tries 10 edits"), "are not counted as 'tries"
    yield layers, last_first, "does not stand above it"
    yield layers, turned("crates.txt", r"^sr_book:.*\n", ""), "sr_book has no line"
    yield layers, added("crates.txt", "sr_nothing: sr_base"), "there is no crate sr_nothing"
    yield layers, turned("crates.txt", r"^(sr_logfile: sr_base) sr_site$", r"\1"), "in one of the table and crates.txt alone"
    yield layers, turned(page, r"^\| 1 \| sr_base \|", "| 2 | sr_base |"), "stands in layer 1"
    yield layers, turned(page, r"^(\| 2 \| .*\n)(\| 2 \| .*\n)", r"\2\1"), "in another order"
    yield layers, turned(page, r"^\| 2 \| .*\n", ""), "in another order"
    yield modules, lambda tree: tree.with_text("crates/sr_book/specs/NoSuch.antt", ""), "has no line `mod NoSuch`"
    yield modules, lambda tree: tree.with_text("crates/sr_book/proofs/NoSuch.antt", ""), "has no line `mod NoSuch`"
    yield modules, lambda tree: tree.with_text("crates/sr_logfile/specs/Records.antt", None), "it names Records"
    yield names, added("README.md", "This stands on sr_nothing."), "no crate sr_nothing"
    yield names, added("README.md", "See docs/NOTHING_THERE.md."), ""
    yield names, added("README.md", "See docs/nothing-there.md."), "no docs/nothing-there.md"
    yield names, added("cases/README.md", "`cases/nothing.sh` does it."), "no cases/nothing.sh"
    yield names, added(proved, "`a_word_that_nothing_has` says it."), "no a_word_that_nothing_has"
    yield names, added("docs/REPLICATION.md", "`aWordThatNothingHas` says it."), "no aWordThatNothingHas"
    yield names, added(proved, "`sr_book::stays_good` says it."), "no stays_good of sr_book::stays_good"
    yield names, turned(theorems, r"`specs/Records`", "`specs/NoRecords`"), "there is no specs/NoRecords"
    yield names, turned(theorems, r"`(IsLog)`(, `HasLog` )?\(`specs/(?:Inner/)?Logs`\)", r"`\1` (`specs/Damage`)"), "IsLog does not stand in"
    yield names, turned(theorems, r"`one_spelling_or_one_damage` \|", "`always_good` |"), "always_good is in none of sr_logfile"
    yield names, turned(proved, r"^(\| sr_exec_fits \|.*)`is_row`", r"\1`key_of`"), "key_of is in none of sr_exec_fits"
    yield names, turned(page, r"^\| `fault`, `reporting` \|", "| `fault` |"), "has no reporting"
    yield names, turned(page, r"^\| `fault`, `reporting` \|", "| `fault`, `reporting`, `no_such` |"), "no no_such in crates/dbremote_command/src"
    yield names, lambda tree: tree.with_text("crates/sr_logfile/specs/Records.antt", None), "there is no specs/Records"


def unread_ones(tree):
    """Whether the toolchain reads what an edit makes: one that is sound, and one with a brace too many."""
    if not shutil.which("rt"):
        return
    small = Tree.__new__(Tree)
    small.__dict__ = {**tree.__dict__, "files": {"crates/sr_book/src/book.rt"}, "folders": set()}
    small = small.with_text("docs/PROVED.md", "tries 0 edits of 0 crates, try the 1 edits of 1 crates")
    text = next(line for _, line in tree.lines("crates/sr_book/src/book.rt") if line.startswith("impl") and tree.text("crates/sr_book/src/book.rt").count(line) == 1)
    for new, wanted in ((text.replace("{", "{ "), 0), (text + "{", 1)):
        found = list(edits.wrong(small.with_text(EDIT, f"{BOOK}old: {text}\nnew: {new}\n")))
        if len(found) != wanted:
            yield f"an edit that makes {new!r}: {len(found)} told, {wanted} wanted: {found}"


def releases(top):
    """Whether cases/release.sh tells a release of this tree's bytes, one of other bytes, and one of other sources."""
    if not shutil.which("rt"):
        return
    with tempfile.TemporaryDirectory() as folder:
        for part in ("cases/release.sh", "release/sum.sh"):
            os.makedirs(os.path.join(folder, os.path.dirname(part)), exist_ok=True)
            shutil.copy2(os.path.join(top, part), os.path.join(folder, part))
        os.makedirs(os.path.join(folder, "crates/a/src"))

        def write(path, text):
            with open(os.path.join(folder, path), "w", encoding="utf-8") as file:
                file.write(text)

        def said(command, *words):
            ran = subprocess.run([os.path.join(folder, command), *words], capture_output=True, text=True, check=False)
            return ran.returncode, ran.stdout

        write("crates.txt", "a:\n")
        write("crates/a/src/lib.rt", "//! Nothing.\n")
        write("release/dbremote", "the program")
        write("built", "the program")
        version = subprocess.run(["rt", "version"], capture_output=True, text=True, check=False).stdout
        write("release/made", said("release/sum.sh")[1] + version)
        program = os.path.join(folder, "built")
        if said("cases/release.sh", program)[0] != 0:
            yield "release.sh refuses a release of this tree"
        write("built", "another program")
        if said("cases/release.sh", program)[0] != 1:
            yield "release.sh takes a release of other bytes"
        write("built", "the program")
        write("crates/a/src/lib.rt", "//! Something.\n")
        status, told = said("cases/release.sh", program)
        if status != 1 or "release/make.sh" not in told:
            yield "release.sh takes a release of other sources, or does not say what to run"
        os.remove(os.path.join(folder, "release/made"))
        if said("cases/release.sh", program)[0] != 1:
            yield "release.sh takes a release that does not say of what it is made"


def without_reading(part):
    """A check of a part, where what edits make is not read, which takes seconds."""
    return edits.unapplied if part is edits else part.wrong


def untold(top):
    """The trials that are not told, and those that an untouched checkout tells."""
    tree = Tree(top)
    before = {part: set(without_reading(part)(tree)) for part in (edits, layers, modules, names)}
    for part, turn, told in trials():
        found = set(without_reading(part)(turn(tree))) - before[part]
        if told and not any(told in line for line in found):
            yield f"not told: {told}"
    yield from unread_ones(tree)
    yield from releases(top)
