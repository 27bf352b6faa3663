#!/usr/bin/env python3
"""What a believer of the program's contract reads: from `run` and the laws over it, and from the devices, all definitions that their clauses cite, and what
these cite, file by file from the outside in, each with how many of its definitions are reached.

Usage: docs/believed.py [--headline | --check], from any folder. With --headline it prints the table of what the law on many runs rests on, as docs/PROVED.md has
it. With --check it prints what is amiss alone, and ends with status 1 where something is: in `specs/` stands what is reached, in `specs/Inner/` all else, each
file of `specs/` begins with a sentence on what it is for, and docs/PROVED.md has that table."""

import collections
import glob
import os
import re
import sys

# Where reading begins: a crate, a file of its source, and the text with which the contract begins; a whole file where there is none.
HEADLINE = ("sr_world_runs", "lives", "fn runs_make_one_world")
ROOTS = [
    ("dbremote_run", "whole", "fn run<"),
    HEADLINE,
    *(("sr_site", file, "") for file in ("held", "disk", "mail", "stream")),
]
# The crates whose definitions say what a life, a world, a step and an image are; what they cite of others says what entries, statements and messages are.
OF_WORLDS = ("sr_world_runs", "sr_world", "sr_world_model", "sr_world_untouched", "sr_database_meaning", "sr_site", "sr_book")
PAGE = "docs/PROVED.md"
# A name may be twice among what is believed so often: the number falls with each name that gets one meaning, and does not rise.
MOST_TWICE = 92
WORD = r"[A-Za-z_][\w'\-]*"
HEAD = re.compile(rf"(?:unfoldable )?(?:abbrev )?(?:pub )?(?:abbrev |record |data )?({WORD}) ?[:({{]")
INNER_HEAD = re.compile(rf"  (?:unfoldable )?(?:pub )?(?:abbrev |record |data )+(?:pub )?({WORD}) ?[:({{]")

Text = collections.namedtuple("Text", "names modules found owner header blocks")


def imports(text, word):
    """What the `use` lines of a text bring in: names, each with its module and its name there, and modules by their names here."""
    names, modules = {}, {}
    for module, group in re.findall(rf"^ *{word} ([\w.]+)\.\{{([^}}]*)\}}", text, re.M):
        for name, _, other in (part.strip().partition(" as ") for part in group.split(",")):
            names[other or name] = module, name
    for module, other in re.findall(rf"^ *{word} ([\w.]+?)(?: as (\w+))?;? *$", text, re.M):
        modules[other or module.split(".")[-1]] = module
    return names, modules


def file_of(module):
    """The file of definitions that a module is, where it is one of this repository's."""
    parts = module.split(".")
    file = "crates/%s/specs/%s.antt" % (parts[1], "/".join(parts[3:])) if parts[2:3] == ["specs"] else ""
    return file if os.path.exists(file) else None


loaded = {}


def load(file):
    """A file of definitions: what it imports, the lines of each definition, of which one each field or constructor is, and its modules' parameters."""
    if file in loaded:
        return loaded[file]
    with open(file, encoding="utf-8") as source:
        text = re.sub(r"--[^\n]*", "", source.read())
    found, owner, name, header, blocks, block = {}, {}, None, "", {}, None
    for line in text.split("\n"):
        head = HEAD.match(line) or INNER_HEAD.match(line)
        if line.startswith(("use ", "pub use ", "pub mod ", "mod ")):
            name = None
        elif line.startswith("module "):
            header, name, block = header + line, None, line
        elif head:
            name = head[1]
            block = block if line.startswith(" ") else None
            if block:
                blocks[name] = block
            found.setdefault(name, []).append(line)
        elif name and line.strip():
            found[name].append(line)
            for field in re.findall(rf"^ +(?:pub )?({WORD}) :", line):
                owner[field] = name
    loaded[file] = Text(*imports(text, "(?:pub )?use"), found, owner, header, blocks)
    return loaded[file]


def cited(text, names, modules, own):
    """The definitions that a text cites, each by its file and its name."""
    for word, field in re.findall(rf"({WORD})(?:\.({WORD}))?", text):
        module, name = names.get(word) or (modules.get(word), field)
        file = file_of(module) if module else own
        if module and not file:
            # a constructor's type, or a type of the code
            outer, _, name = module.rpartition(".")
            file = file_of(outer)
        if file:
            yield file, name if module else word


def cited_by(places):
    """What the contracts at these places cite."""
    for crate, file, start in places:
        with open(f"crates/{crate}/src/{file}.rt", encoding="utf-8") as source:
            text = source.read()
        if start and start not in text:
            sys.exit(f"believed: crates/{crate}/src/{file}.rt has no {start}")
        part = start + text.partition(start)[2].partition("\n{")[0] if start else text
        yield from cited(re.sub(r"//[^\n]*", "", part), *imports(text, "ghost use"), None)


def reached(places=ROOTS):
    """The definitions that are reached from these places, in the order in which they are, each with its lines."""
    todo, seen = collections.deque(cited_by(places)), {}
    while todo:
        file, name = todo.popleft()
        text = load(file)
        if name not in text.found and name not in text.owner and name in text.names:
            # handed on from another file
            module, name = text.names[name]
            if file_of(module):
                todo.append((file_of(module), name))
            continue
        name = name if name in text.found else text.owner.get(name)
        if name and (file, name) not in seen:
            seen[file, name] = text.found[name]
            todo += cited("\n".join(text.found[name]) + text.header, text.names, text.modules, file)
    return seen


def wrong(seen):
    """What stands on the wrong side, and the files that do not begin with a sentence."""
    files = dict.fromkeys(file for file, _ in seen)
    for file in files:
        if "/Inner/" in file:
            yield f"{file}: a contract of the program cites {', '.join(name for of, name in seen if of == file)}"
        for name in load(file).found:
            # what stands in one module with parameters stays together
            block = load(file).blocks.get(name)
            beside = block and any(load(file).blocks.get(other) == block for of, other in seen if of == file)
            if (file, name) not in seen and "/Inner/" not in file and not beside:
                yield f"{file}: no contract of the program cites {name}"
    for file in sorted(glob.glob("crates/*/specs/**/*.antt", recursive=True)):
        if load(file).found and "/Inner/" not in file and file not in files:
            yield f"{file}: no contract of the program cites it"
        with open(file, encoding="utf-8") as source:
            if load(file).found and not source.readline().startswith("-- "):
                yield f"{file}: it does not begin with a sentence on what it is for"


def purpose_of(file):
    """The sentence with which a file of definitions begins, as far as its first line goes."""
    with open(file, encoding="utf-8") as source:
        return source.readline().removeprefix("-- ").strip()


def headline():
    """The table of what the law on many runs rests on: the files of worlds in reading order, and the rest in a line."""
    seen = reached([HEADLINE])
    rows, others, rest = {}, set(), (0, 0)
    for (file, _), lines in seen.items():
        if file.split("/")[1] in OF_WORLDS:
            count, sum_of_lines = rows.get(file, (0, 0))
            rows[file] = count + 1, sum_of_lines + len(lines)
        else:
            others.add(file)
            rest = rest[0] + 1, rest[1] + len(lines)
    yield "| File | Definitions | Lines | What it says |"
    yield "|---|---|---|---|"
    for file, (count, lines) in rows.items():
        yield f"| `{file}` | {count} | {lines} | {purpose_of(file)} |"
    yield f"| {len(others)} files of other crates | {rest[0]} | {rest[1]} | What entries, statements, rows, views and messages are |"


def main():
    os.chdir(os.path.join(os.path.dirname(os.path.abspath(__file__)), ".."))
    if sys.argv[1:] == ["--headline"]:
        print("\n".join(headline()))
        return
    seen = reached()
    files = collections.Counter(file for file, _ in seen)
    twice = sorted(name for name, count in collections.Counter(name for _, name in seen).items() if count > 1)
    if sys.argv[1:] == ["--check"]:
        amiss = list(wrong(seen))
        with open(PAGE, encoding="utf-8") as page:
            if "\n".join(headline()) not in page.read():
                amiss.append(f"{PAGE} has another table than docs/believed.py --headline prints")
        if len(twice) > MOST_TWICE:
            amiss.append(f"{len(twice)} names are believed twice, and {MOST_TWICE} were: {' '.join(twice)}")
        for line in amiss:
            print(f"believed: {line}")
        sys.exit(1 if amiss else 0)
    for file, count in files.items():
        print(count, file)
    print(f"{len(seen)} definitions, {sum(map(len, seen.values()))} lines, {len(files)} files; {len(twice)} names stand twice")


main()
