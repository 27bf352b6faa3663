"""That each file of definitions and of proofs is named by the file above it, and each that is named is there: the prover reads no other."""

import re

FILE = re.compile(r"(crates/\w+/(?:specs|proofs))/((?:[A-Z]\w*/)*)([A-Z]\w*)\.antt")
NAMED = re.compile(r"^(?:pub )?mod (\w+)$", re.M)
FIRST = "Lib"


def above(root, folders):
    """The path of the file that names those of a folder, and their folder."""
    inner = folders.rstrip("/")
    return (f"{root}/{inner}.antt", f"{root}/{inner}") if inner else (f"{root}/{FIRST}.antt", root)


def wrong(tree):
    """What is wrong with files and the lines that name them."""
    for path in sorted(tree.files):
        found = FILE.fullmatch(path)
        if not found:
            continue
        root, folders, name = found.groups()
        by, _ = above(root, folders)
        if (folders or name != FIRST) and (by not in tree.files or name not in NAMED.findall(tree.text(by))):
            yield f"{path}: {by} has no line `mod {name}`"
        of = root if name == FIRST and not folders else path.removesuffix(".antt")
        for named in NAMED.findall(tree.text(path)):
            if f"{of}/{named}.antt" not in tree.files:
                yield f"{path}: it names {named}, and there is no {of}/{named}.antt"
