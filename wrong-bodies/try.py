#!/usr/bin/env python3
"""Tries the wrong bodies that the gate does not: in a copy of the repository the prover must refuse each.

Usage: wrong-bodies/try.py [--resume FILE] [CRATE..], from any folder; all crates that have some where none is named.

A check tries many edits at once, each of another function, or of a copy of it beside it, and asks for these functions and what they call. So a crate takes
minutes where the libraries below it are proved in this checkout; else they are proved first. A line for each edit says what it came to, with the function, the
first goal that is left open in it and the seconds; the last line counts. It ends with status 0 where all were refused. With --resume the lines go into FILE
too, and what was refused there is not tried again: so a run can be stopped and go on, over the same sources.

An edit is refused where the prover leaves a goal open of a function that the edit changes. It is NOT REFUSED where that function is still proved; refused BY A
NAME where nothing is wrong but that a proof cites what the edit took away, and BY A LIMIT where the prover gave no verdict, both of which say little of the
contract; a BAD EDIT where it does not apply, compile or read; NOT TRIED where its check came to no end."""

import collections
import glob
import os
import re
import shutil
import subprocess
import sys
import tempfile
import time

HERE = os.path.dirname(os.path.abspath(__file__))
TOP = os.path.dirname(HERE)
PARTS = ("src", "specs", "proofs")
FUNCTION = re.compile(r"((?:    )?)(?:pub(?:\([\w: ]+\))? )?(?:const )?(?:unsafe )?fn (\w+)")
BLOCK = re.compile(r"(?:unsafe )?impl\b|(?:pub )?trait ")
OWN_BLOCK = re.compile(r"(?:unsafe )?impl(?:<.*?>)? (\w+)(?:<[^ ]*>)? \{$")
# What a check says: a goal that is left open, and an error, which in a file of proofs is of the function whose folder it is.
GOAL = re.compile(r"note: (?:\./)?(src/\S+?):(\d+):\d+: it is not proved that .*\(`([^`]+)`\)(.*)")
ERROR = re.compile(r"(?:note: )?(?:\./)?((?:src|specs|proofs)/\S+?):(\d+):\d+: error(?:\[\S+\])?: (?:`([^`]*)`: )?(.*)")
NAME_GONE = re.compile(r"has no field|is not in scope|has no `|was not admitted")
UNREAD = re.compile(r"is not in scope|has no field|is no name|operand is missing|expected the end|cannot continue")
ENDED = re.compile(r"^(only=|logic=|rattle: no verdict)", re.M)

# An edit, with the number of the copy of its function in which it is made, 0 for the function itself.
Edit = collections.namedtuple("Edit", "crate name pairs places copy")
# What an edit changes: by what words it is told of, and by which path a check is asked for it; the function, if it is one; its file, and its lines from its
# attributes on; its key, one for all of a cycle of calls; the head of its block, None where it cannot be copied; and whether the edit leaves its contract.
Place = collections.namedtuple("Place", "shown asked name file first last key head is_body")


def read(path):
    with open(path, encoding="utf-8") as file:
        return file.read()


def place_of(file, text, at):
    """The function, as `rt fmt` lays it out, in which a place of a source is, or else the module. A method is asked for by its type, and one of a trait by its module."""
    lines, at = text.split("\n"), text.count("\n", 0, at)
    module = [it for it in file.removesuffix(".rt").split("/")[1:] if it not in ("lib", "main", "mod")] if file.endswith(".rt") else []
    first = next((it for it in range(at, -1, -1) if file.endswith(".rt") and FUNCTION.match(lines[it])), len(lines))
    found = FUNCTION.match(lines[first]) if first < len(lines) else None
    last = next((it for it in range(first, len(lines)) if lines[it] == found[1] + "}" or it == first and lines[it].endswith("}")), -1)
    if at > last:
        return Place("::".join(module) or file, "::".join(module), "", file, 1, len(lines), None, None, False)
    body = next((it for it in range(first, last) if lines[it] == found[1] + "{"), first)
    top = next((it for it in range(first, 0, -1) if not lines[it - 1] or lines[it - 1].endswith(("{", "}"))), 0)
    cycle = re.search(r"#\[cycle\((\w+)\)", "".join(lines[top:first]))
    head = next((lines[it] for it in range(first, -1, -1) if BLOCK.match(lines[it])), "") if found[1] else ""
    own = OWN_BLOCK.match(head)
    asked = [own[1], found[2]] if own else module if head else [*module, found[2]]
    key = f"+{cycle[1]}" if cycle else (file, first)
    shown = "::".join([*module, *([own[1]] if own else []), found[2]])
    return Place(shown, "::".join(asked), found[2], file, top + 1, last + 1, key, head if not cycle and (own or not head) else None, at >= body)


def applied(edit, own, texts):
    """Makes an edit in texts of the crate's files by their paths, and gives the places that it changes, and why it cannot be made."""
    places = []
    for file, old, new in edit.pairs:
        texts.setdefault(file, read(f"{own}/{file}"))
        if texts[file].count(old) != 1:
            return places, f"an old text stands {texts[file].count(old)} times in {file}"
        places.append(place_of(file, texts[file], texts[file].index(old)))
        texts[file] = texts[file].replace(old, new)
    return places, "" if edit.pairs else "it has no old and new text"


def made_in_copy(edit, own, texts):
    """Makes an edit in a copy of its function at the end of the file, with a copy of its proof, and gives the place of that."""
    place, source = edit.places[0], read(f"{own}/{edit.places[0].file}")
    name, text = f"{place.name}_{edit.copy}", "\n".join(source.split("\n")[place.first - 1 : place.last])
    for _, old, new in edit.pairs:
        text = text.replace(old, new)
    text = re.sub(rf"\bfn {place.name}\b", f"fn {name}", text, count=1)
    before = texts.setdefault(place.file, source)
    texts[place.file] += f"\n{place.head}\n{text}\n}}\n" if place.head else f"\n{text}\n"
    dotted = place.asked.replace("::", ".")
    for file in glob.glob(f"{own}/proofs/**/{place.asked.replace('::', '/')}/*.antt", recursive=True):
        folder, last = os.path.split(os.path.relpath(file, own))
        texts[f"{folder}_{edit.copy}/{last}"] = re.sub(rf"(?<=\.){re.escape(dotted)}(?=[.\s])", f"{dotted}_{edit.copy}", read(file))
    return place._replace(asked=f"{place.asked}_{edit.copy}", name=name, first=before.count("\n") + 1, last=texts[place.file].count("\n"))


def edits_of(crate):
    for name in sorted(os.listdir(f"{HERE}/{crate}")):
        said, pairs = {}, []
        for line in read(f"{HERE}/{crate}/{name}").split("\n"):
            word, _, text = line.partition(":")
            said[word] = text.removeprefix(" ")
            if word == "new":
                pairs.append((said["file"].strip(), said["old"], said["new"]))
        yield Edit(crate, name, pairs, [], 0)


def batches(edits):
    """Edits of bodies together, the second of a function in a copy of it, where it can be copied, and none two of one cycle of calls; each other edit alone."""
    found, many = [], collections.Counter()
    for edit in edits:
        keys = {place.key if place.is_body else None for place in edit.places}
        many.update(keys)
        number = max(many[key] for key in keys)
        if number > 1 and len(keys) == 1 and None not in keys and edit.places[0].head is not None:
            edit, keys = edit._replace(copy=number), set()
        room = next((it for it in found if None not in keys | it[1] and not keys & it[1]), None)
        if room:
            room[0].append(edit)
            room[1].update(keys)
        else:
            found.append(([edit], keys))
    return sorted((batch for batch, _ in found), key=len, reverse=True)


def linked(one, other):
    """Copies a source, and gives a file of a proved library a second name where it can."""
    try:
        return os.link(one, other) if "/out/rlib/" in one else shutil.copy2(one, other)
    except OSError:
        return shutil.copy2(one, other)


def copied(room):
    """Copies the repository's sources and its proved libraries."""
    for name in filter(os.path.exists, (f"{TOP}/crates.txt", f"{TOP}/HANDLES")):
        shutil.copy2(name, room)

    def left_out(folder, names):
        kept = (*PARTS, "out") if os.path.dirname(folder) == f"{TOP}/crates" else ("rlib",) if folder.endswith("/out") else names
        return set(names) - set(kept)

    shutil.copytree(f"{TOP}/crates", f"{room}/crates", ignore=left_out, copy_function=linked)


def said_of(room, batch, is_whole):
    """What a check of the crate's copy says with the edits of a batch in it, of the functions that they change and those that these call, or of all; and the
    places where each edit was made."""
    texts, made, own, copy = {}, [], f"{TOP}/crates/{batch[0].crate}", f"{room}/crates/{batch[0].crate}"
    for edit in sorted(batch, key=lambda it: it.copy):
        why = "" if edit.copy else applied(edit, own, texts)[1]
        if why:
            return f"error: {why}", []
        made.append((edit, [made_in_copy(edit, own, texts)] if edit.copy else edit.places))
    for file, text in texts.items():
        os.makedirs(os.path.dirname(f"{copy}/{file}"), exist_ok=True)
        with open(f"{copy}/{file}", "w", encoding="utf-8") as out:
            out.write(text)
    asked = {place.asked for _, places in made for place in places}
    words = [] if is_whole or "" in asked else [word for path in sorted(asked) for word in ("--only", path)]
    ran = subprocess.run(["rt", "check", *words], cwd=copy, stdin=subprocess.DEVNULL, stdout=subprocess.PIPE, stderr=subprocess.STDOUT, text=True, errors="replace", check=False)
    for file in texts:
        if os.path.exists(f"{own}/{file}"):
            shutil.copy2(f"{own}/{file}", f"{copy}/{file}")
        else:
            shutil.rmtree(os.path.dirname(f"{copy}/{file}"), ignore_errors=True)
    return ran.stdout, made


def touches(place, found):
    return place.file == found[1] and place.first <= int(found[2]) <= place.last


def unread(said):
    """The line that says that the sources do not compile or read with their edits, or that the check came to no end; else nothing."""
    errors = [line for line in said.split("\n") if re.search(r"\berror[\[:]", line)]
    if not ENDED.search(said):
        asked_wrong = errors and errors[0].startswith("rattle: ")
        return f"{'NOT TRIED' if asked_wrong else 'BAD EDIT'}: {errors[0]}" if errors else "NOT TRIED: its check came to no end"
    for found in filter(None, map(ERROR.match, errors)):
        if not found[1].startswith("proofs/") and (not found[3] or UNREAD.search(re.sub(r"`[^`]*`", "", found[4]))):
            return f"BAD EDIT: {found[0]}"
    return ""


def parted(batch, made, why):
    """Of a batch that does not compile, the edits where the first error stands and the others; or where that tells nothing, its halves."""
    found = ERROR.match(why.partition(": ")[2])
    wrong = [edit for edit, places in made if any(found and touches(place, found) or f"`{place.asked}`" in why for place in places)]
    return [[edit for edit in batch if edit not in wrong], wrong] if 0 < len(wrong) < len(batch) else [batch[: len(batch) // 2], batch[len(batch) // 2 :]]


def verdict(places, said, is_whole):
    """What a check says of an edit, and whether that is the last word on it."""
    weaker, told = [], []
    for place in places:
        folder = f"/{place.asked.replace('::', '/')}/".replace("//", "/")
        for line in said.split("\n"):
            goal, error, of = GOAL.match(line), ERROR.match(line), re.sub(r"::fn::(\w+)::.*", r"::\1", line.partition(": ")[0])
            if goal and (is_whole or touches(place, goal)):
                if "gave up" not in goal[4]:
                    return f"refused ({place.shown}, {goal[3]})", True
                weaker.append(f"refused ({place.shown}, {goal[3]}, where the search gave up)")
            elif error and (is_whole or error[1].startswith("proofs/") and folder in error[1] and f"/{place.name}/" in error[1] or f"/{place.key}/" in error[1]):
                if not NAME_GONE.search(error[4]):
                    return f"refused ({place.shown}, {error[3] or error[4]})", True
                weaker.append(f"refused BY A NAME: {error[0]}")
            elif line.startswith("fn ") and (is_whole or f"::{place.asked}" in of and of.endswith(f"::{place.name}")):
                told.append(line.partition(": ")[2])
    if weaker:
        return min(weaker), True
    if any("could not tell" in it for it in told):
        return "refused BY A LIMIT", is_whole
    if told and all(it == "proved" for it in told):
        return "NOT REFUSED", is_whole or all(place.is_body for place in places)
    return f"NOT TRIED: {next((it for it in told if it != 'proved'), 'nothing is told of what it changes')}", is_whole


def tried(room, edits):
    """Tries the edits of one crate, and gives for each what it came to and the seconds."""
    good = []
    for edit in edits:
        places, why = applied(edit, f"{TOP}/crates/{edit.crate}", {})
        if why:
            yield edit, f"BAD EDIT: {why}", 0
        else:
            good.append(edit._replace(places=places))
    queue = [(batch, not all(place.asked for edit in batch for place in edit.places)) for batch in batches(good)]
    while queue:
        batch, is_whole = queue.pop(0)
        begun = time.monotonic()
        said, made = said_of(room, batch, is_whole)
        seconds = round((time.monotonic() - begun) / len(batch))
        why = unread(said)
        if why and len(batch) > 1:
            queue[:0] = [(part, False) for part in parted(batch, made, why)]
        elif why:
            yield batch[0], why, seconds
        for edit, places in [] if why else made:
            came_to, is_last = verdict(places, said, is_whole)
            if is_last:
                yield edit, came_to, seconds
            else:
                # alone and in its place, and then with all of the crate
                queue.append(([edit._replace(copy=0)], len(batch) == 1))


def main(words):
    file = words[1] if words[:1] == ["--resume"] and len(words) > 1 else None
    crates = words[2 if file else 0 :] or sorted(it for it in os.listdir(HERE) if os.path.isdir(f"{HERE}/{it}"))
    if not all(os.path.isdir(f"{HERE}/{it}") and os.path.isdir(f"{TOP}/crates/{it}") for it in crates):
        sys.exit("Usage: wrong-bodies/try.py [--resume FILE] [CRATE..], crates that have a folder beside it")
    before = set(re.findall(r"^(\S+ \S+\.edit): refused \(", read(file), re.M)) if file and os.path.exists(file) else set()
    refused, wanted = 0, 0
    with tempfile.TemporaryDirectory(prefix="wrong-bodies-") as room:
        copied(room)
        for crate in crates:
            edits = list(edits_of(crate))
            left = [edit for edit in edits if f"{crate} {edit.name}" not in before]
            wanted, refused = wanted + len(edits), refused + len(edits) - len(left)
            for edit, came_to, seconds in tried(room, left):
                refused += came_to.startswith("refused (")
                line = f"{crate} {edit.name}: {came_to}, {seconds} s"
                print(line, flush=True)
                if file:
                    with open(file, "a", encoding="utf-8") as out:
                        out.write(line + "\n")
    print(f"{refused} of {wanted} wrong bodies refused")
    return refused != wanted


if __name__ == "__main__":
    sys.exit(main(sys.argv[1:]))
