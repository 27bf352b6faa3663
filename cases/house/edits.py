"""That each edit which the prover is to refuse can be applied, and that the edited file reads."""

import os
import shutil
import subprocess
import tempfile


def edits_of(tree):
    """The paths of all edits, each with its crate."""
    for path in sorted(tree.files):
        parts = path.split("/")
        if path.endswith(".edit") and parts[0] == "wrong-bodies" and len(parts) == 3:
            yield path, parts[1]
        elif path.endswith(".edit") and parts[0] == "crates" and parts[2:3] == ["must-fail"]:
            yield path, parts[1]


def applied(tree, path, crate):
    """The files that an edit makes, by their paths in the crate, and why it cannot be applied."""
    texts, target, old, pairs = {}, None, None, 0
    for number, line in tree.lines(path):
        if line.startswith("file: "):
            target = line[len("file: "):]
            if f"crates/{crate}/{target}" not in tree.files or not target.startswith(("src/", "specs/")):
                return {}, f"line {number} names no file of the crate's code or definitions: {target}"
        elif line.startswith("old: "):
            old = line[len("old: "):]
        elif line.startswith("new:"):
            if target is None or old is None:
                return {}, f"line {number} stands before a file and an old text"
            text = texts.get(target, tree.text(f"crates/{crate}/{target}"))
            found = text.count(old)
            if found != 1:
                return {}, f"an old text stands {found} times in {target}: {old.strip()}"
            texts[target] = text.replace(old, line[len("new:"):].removeprefix(" "))
            old, pairs = None, pairs + 1
        elif line.strip():
            return {}, f"line {number} is of no kind: {line.strip()}"
    if not pairs or old is not None:
        return {}, "an old text without its new one"
    if all(text == tree.text(f"crates/{crate}/{name}") for name, text in texts.items()):
        return {}, "it changes nothing"
    return texts, ""


def unread(made):
    """Of edited files, by the edits that made them, those that the toolchain cannot read, each with what it says."""
    with tempfile.TemporaryDirectory() as folder:
        for part in ("src", "specs"):
            os.mkdir(os.path.join(folder, part))
        names = {}
        for place, (path, target, text) in enumerate(made):
            name = f"{target.split('/')[0]}/edited_{place}{os.path.splitext(target)[1]}"
            names[name] = path
            with open(os.path.join(folder, name), "w", encoding="utf-8") as file:
                file.write(text)
        said = subprocess.run(["rt", "fmt"], cwd=folder, capture_output=True, text=True, errors="replace", check=False)
        told = False
        for line in (said.stdout + said.stderr).split("\n"):
            for name, path in names.items():
                at = line.find(f"{name}: ")
                if at >= 0 and not line.startswith("rt: formatted"):
                    told = True
                    yield path, line[at + len(name) + 2:]
        if said.returncode != 0 and not told:
            yield "the edits", f"rt fmt ended with {said.returncode} on the edited files"


def miscounted(tree):
    """Where docs/PROVED.md counts the edits of the gate and the others in another way than they stand."""
    for place, word in (("crates", "tries"), ("wrong-bodies", "try the")):
        own = [crate for path, crate in edits_of(tree) if path.startswith(place + "/")]
        said = f"{word} {len(own)} edits of {len(set(own))} crates"
        if said not in tree.text("docs/PROVED.md"):
            yield f"docs/PROVED.md: the edits in {place} are not counted as '{said}'"


def unapplied(tree, made=None):
    """Which edits cannot be applied; what the others make is put on a list: the edit, the file in its crate, the text."""
    for path, crate in edits_of(tree):
        texts, why = applied(tree, path, crate)
        if why:
            yield f"{path}: {why}"
        elif made is not None:
            made += [(path, target, text) for target, text in texts.items()]
    with_edits = {crate for _, crate in edits_of(tree)}
    for path in sorted(tree.folders):
        if path.startswith("wrong-bodies/") and path.split("/")[1] not in with_edits & tree.crates:
            yield f"{path}: a folder of wrong bodies without any, or of no crate"
    yield from miscounted(tree)


def wrong(tree):
    """What is wrong with the edits."""
    made = []
    yield from unapplied(tree, made)
    if made and shutil.which("rt"):
        for path, said in unread(made):
            yield f"{path}: {said}"
