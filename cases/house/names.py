"""That what the documents name is there: crates, files, definitions, contracts, and the files of each table of files.

What counts as a name: `sr_x`, `dbremote_x` and `test_x` anywhere; what stands in backticks and is one word, words parted by `::`, or a path; and a path from one of the folders of the
top anywhere. A word is there where a source, its comments left out, or a file's name has it. In docs/THEOREMS.md and docs/PROVED.md a `specs/FILE` or
`specs/Inner/FILE` is a file of the crate that the brackets name, or of one of its section's, and the names in the same cell before it are words of that file."""

import os
import re

# Words in backticks that are no names of the repository: system calls, programs, and what the examples of the text name themselves.
OTHERS = set(
    "openat flock statx pread64 pwrite64 ftruncate fdatasync fsync rename mkdir unlink getdents64 read write fcntl clock_gettime nanosleep strace stdin stdout "
    "python3 HANDLES".split()
)
# The pages for users, who have files and programs of their own: there a word is a name where it has a `_` or a capital letter within, and a path where it
# begins with a folder of the top.
FOR_USERS = {"README.md", "docs/REPLICATION.md"}
TICKED = re.compile(r"`([^`]+)`")
CRATE = re.compile(r"\b(?:sr|dbremote|test|world)_[a-z]+(?:_[a-z]+)*\b")
PLACE = re.compile(r"(?<![\w./-])(?:docs|cases|crates|bench|examples|release|wrong-bodies|\.ci)/[\w./-]*[\w/]")
ENDINGS = (".rt", ".antt", ".md", ".sh", ".py", ".txt", ".edit", ".case")


def documents(tree):
    """The documents that are looked at."""
    return sorted(path for path in tree.files if path == "README.md" or re.fullmatch(r"(docs|cases|bench)/\w+\.md", path))


def is_place(path):
    """Whether a text in backticks is the path of a file or a folder, and not a pattern or a path of the reader's own."""
    if not re.fullmatch(r"[\w./-]+", path) or re.search(r"\b[A-Z]{2,}\b", path.replace("README", "")):
        return False
    return path.endswith(ENDINGS) and not path.startswith(".") or re.match(r"(\./)?[a-z][\w.-]*/", path) is not None


def stands(tree, page, path):
    """Whether the path is there, from the top, beside the page, or in some crate."""
    path = path.removeprefix("./")
    if any(tree.is_there(it) for it in (path, path + ".antt", f"{os.path.dirname(page)}/{path}")):
        return True
    if path.split("/")[0] in ("src", "specs", "proofs", "must-fail"):
        ends = (path, path + ".antt", path + ".rt")
        return any(tree.is_there(f"crates/{crate}/{end}") for crate in tree.crates for end in ends)
    return False


def is_known(name, words):
    """Whether a name is one of the words, or the beginning of one where it ends with `_`, or none of the repository's."""
    return name in words or name in OTHERS or name.endswith("_") and any(word.startswith(name) for word in words)


def loose(tree, page, number, line, known):
    """What is not there of the names of a line, each looked for by itself."""
    at = f"{page}:{number}: there is no"
    for crate in sorted(set(CRATE.findall(line)) - tree.crates):
        yield f"{at} crate {crate}"
    for path in PLACE.findall(line):
        if is_place(path) and not stands(tree, page, path):
            yield f"{at} {path}"
    for text in TICKED.findall(line):
        if re.fullmatch(r"[A-Za-z_]\w*", text):
            is_name = page not in FOR_USERS or re.search(r"\w_\w|[a-z][A-Z]", text)
            if is_name and not is_known(text, known):
                yield f"{at} {text}"
        elif re.fullmatch(r"[A-Za-z_]\w*(::[A-Za-z_]\w*)+", text):
            first, *rest = text.split("::")
            words = tree.words_of(first) if first in tree.crates else known
            for word in rest if first in tree.crates else [first, *rest]:
                if word not in words:
                    yield f"{at} {word} of {text}"
        elif page not in FOR_USERS and is_place(text) and not PLACE.fullmatch(text) and not stands(tree, page, text):
            yield f"{at} {text}"


def cells_of(line):
    """The cells of a row of a table."""
    return [cell.strip() for cell in re.split(r"(?<!\\)\|", line.strip())[1:-1]]


def homes_of(tree, file, named, others):
    """The files of definitions of this name: those of the crates that the brackets name, or else of the others that may be meant."""
    for crates in (named, others):
        homes = [path for path in (f"crates/{crate}/specs/{file}.antt" for crate in crates) if path in tree.files]
        if homes:
            return homes
    return []


def in_files(tree, page, number, cell, others):
    """What is not there of names with the files of definitions that they stand in: `Name`, `Other` (sr_x, `specs/File`). The last one stands in one of the
    files, those before it somewhere in the crates that may be meant."""
    before = 0
    for bracket in re.finditer(r"\(([^()]*`specs/(?:Inner/)?\w+`[^()]*)\)", cell):
        named = CRATE.findall(bracket[1])
        here = f"({bracket[1]})".replace("`", "")
        homes = []
        for file in re.findall(r"`specs/((?:Inner/)?\w+)`", bracket[1]):
            found = homes_of(tree, file, named, others)
            homes += found
            if not found:
                yield f"{page}:{number}: there is no specs/{file} in {' or '.join(named or others)}"
        words = set().union(*(tree.words_in(home) for home in homes)) if homes else set()
        names = [name for name in TICKED.findall(cell[before : bracket.start()]) if re.fullmatch(r"[A-Za-z_]\w*", name) and name not in tree.crates]
        if homes and names and names[-1] not in words:
            yield f"{page}:{number}: {names[-1]} does not stand in {here}"
        before = bracket.end()


def in_crates(tree, page, number, cell, crates):
    """What no crate has of the names in a cell, of those that its section and its row name."""
    for name in TICKED.findall(cell):
        if re.fullmatch(r"[A-Za-z_]\w*", name) and name not in tree.crates and not any(is_known(name, tree.words_of(crate)) for crate in crates):
            yield f"{page}:{number}: {name} is in none of {', '.join(sorted(crates))}"


def by_section(tree, page):
    """What is not there of names that stand beside their file, in the table rows of a page with the crates in its headings."""
    crates = set()
    for number, line in tree.lines(page):
        if line.startswith("## "):
            crates = set(CRATE.findall(line)) & tree.crates
        if line.startswith("| "):
            cells = cells_of(line)
            meant = sorted((crates | set(CRATE.findall(line))) & tree.crates)
            for cell in cells:
                yield from in_files(tree, page, number, cell, meant)
            of_one = page == "docs/PROVED.md" and cells[0].split(",")[0] in tree.crates
            for cell in cells if crates else cells[-1:] if of_one else ():
                yield from in_crates(tree, page, number, cell, meant)


def folder_of(line, page):
    """The folder whose files the first cells of a table name, by the table's head: `| File of `crates/sr_x/src` |`."""
    head = re.match(r"\| (?:File|Module) of `([\w./]+)` \|", line)
    if not head:
        return None
    return head[1].rstrip("/") if head[1].startswith("crates/") else f"{os.path.dirname(page)}/{head[1].rstrip('/')}"


def of_files(tree, page):
    """What a table of a folder's files names and is not there, or leaves out."""
    folder, told = None, set()
    for number, line in [*tree.lines(page), (0, "")]:
        if folder and not line.startswith("|"):
            inside = {os.path.splitext(path[len(folder) + 1:])[0] for path in tree.files if path.startswith(folder + "/")}
            inside = {name for name in inside if not name.startswith("Inner/")}
            for name in sorted(inside - told - {"lib", "main", "Lib", "Inner", os.path.basename(folder)}):
                yield f"{page}: the table of {folder} has no {name}"
            folder, told = None, set()
        if folder and not line.startswith("|---"):
            for name in TICKED.findall(cells_of(line)[0]):
                told.add(name)
                if not any(f"{folder}/{name}{ending}" in tree.files for ending in ENDINGS):
                    yield f"{page}:{number}: there is no {name} in {folder}"
        folder = folder or folder_of(line, page)


def wrong(tree):
    """What the documents name and is not there."""
    known = tree.all_words() | tree.crates
    for page in documents(tree):
        for number, line in tree.lines(page):
            yield from loose(tree, page, number, line, known)
        yield from by_section(tree, page)
        yield from of_files(tree, page)
