"""That the table of layers stands as crates.txt has it, and each crate above those that it stands on."""

import re

PAGE = "docs/ARCHITECTURE.md"


def listed(tree):
    """The crates of crates.txt in their order, each with what it uses."""
    for number, line in tree.lines("crates.txt"):
        if line.strip() and not line.startswith("#"):
            name, _, uses = line.partition(":")
            yield number, name.strip(), uses.split()


def rows(tree):
    """The rows of the table: the number of the line, the layer, the crate, and what it stands on."""
    within = False
    for number, line in tree.lines(PAGE):
        if line.startswith("| Layer | Crate | Stands on |"):
            within = True
        elif within and not line.startswith("|"):
            return
        elif within and not line.startswith("|---"):
            layer, crate, uses = [cell.strip() for cell in line.strip("|").split("|")[:3]]
            yield number, layer, crate, [use.strip("` ") for use in uses.split(",") if use.strip()]


def wrong(tree):
    """What is wrong with crates.txt and the table."""
    above, layers = set(), {}
    names = [name for _, name, _ in listed(tree)]
    for number, name, uses in listed(tree):
        if name not in tree.crates:
            yield f"crates.txt:{number}: there is no crate {name}"
        for use in uses:
            if use in names and use not in above:
                yield f"crates.txt:{number}: {name} stands on {use}, which does not stand above it"
            if use not in names and use in tree.crates:
                yield f"crates.txt:{number}: {use} has no line"
        above.add(name)
    for crate in sorted(tree.crates - set(names)):
        yield f"crates.txt: {crate} has no line"
    uses_of = {name: uses for _, name, uses in listed(tree)}
    in_table = []
    for number, layer, crate, uses in rows(tree):
        in_table.append(crate)
        if crate not in uses_of:
            yield f"{PAGE}:{number}: crates.txt has no {crate}"
            continue
        for use in sorted(set(uses) ^ set(uses_of[crate])):
            yield f"{PAGE}:{number}: {crate} stands on {use} in one of the table and crates.txt alone"
        own = [use for use in uses_of[crate] if use in names]
        at = 1 + max((layers.get(use, 0) for use in own), default=0)
        if not re.fullmatch(r"\d+", layer) or int(layer) != at:
            yield f"{PAGE}:{number}: {crate} stands in layer {at}, one above the highest that it stands on, and not {layer}"
        layers[crate] = at
    if in_table != names:
        place = next((at for at, pair in enumerate(zip(in_table, names)) if pair[0] != pair[1]), min(len(in_table), len(names)))
        yield f"{PAGE}: the table stands in another order than crates.txt, from its row {place + 1} on"
