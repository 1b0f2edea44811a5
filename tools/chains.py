#!/usr/bin/env python3
"""Says how the crates stand on one another, as crates.txt has it.

It prints the longest chain of crates. It fails, with a line for each cause, where
- that chain is longer than 13 crates,
- a crate of the source meaning, of Silica, of lowering or of the flow check stands, however far below, on the lexer or the tree,
- ob_owners, ob_store_payload or ob_store stands, however far below, on requests or on the steps of the machine,
- a crate stands in crates.txt under none of the groups, each of which a comment heads, or before one that it names,
- or the table of floors in docs/ARCHITECTURE.md isn't the one that follows from crates.txt; with `--write` it is written there.
A crate's floor is the number of crates in the longest chain below it. Libraries of the toolchain don't count.
"""
import pathlib
import sys

TOP = pathlib.Path(__file__).resolve().parent.parent
DOCUMENT = TOP / "docs" / "ARCHITECTURE.md"
LONGEST = 13
# What means the same whatever the text looked like, and what it therefore never stands on.
MEANINGS = ("ob_source_", "ob_heap_spec", "ob_table_spec", "ob_silica", "ob_lower", "ob_flow")
TEXTS = ("ob_lexer", "ob_tree")
# What is kept whatever was asked, and what it therefore never stands on: each crate of requests or of the machine stands on one of these.
STORES = ("ob_owners", "ob_store_payload", "ob_store")
REQUESTS = ("ob_invocation_spec", "ob_machine_steps")
# What crates are about. A line '# GROUP: ..' of crates.txt heads each group, in this order.
GROUPS = ("text", "names", "meaning", "silica", "code", "store", "serve", "explain", "top")
# A crate with one of these endings has definitions and laws, and no code but types of which they speak.
WITHOUT_CODE = ("_spec", "_meaning", "_steps", "_places", "_formed", "_functions", "_laws", "_correct", "_verified", "_sound_code", "_examples")
HEAD = ["| floor | code | definitions and laws |", "|---|---|---|"]


def read_crates():
    """The crates of crates.txt, each with those of them that it names."""
    lines = [line.split("#")[0] for line in (TOP / "crates.txt").read_text().splitlines()]
    named = {line.split(":")[0].split()[0]: line.split(":")[1].split() for line in lines if ":" in line}
    return {name: [it for it in below if it in named] for name, below in named.items()}


def read_groups():
    """The groups that crates.txt heads, and the crates that stand under none."""
    heads, without = [], []
    for line in (TOP / "crates.txt").read_text().splitlines():
        front = line.partition(":")[0]
        if front.removeprefix("# ") in GROUPS:
            heads.append(front.removeprefix("# "))
        elif line and not line.startswith("#") and not heads:
            without.append(front)
    return heads, without


def longest_chain(name, crates, found):
    """The longest chain that ends with this crate, lowest first; found has those that are known already."""
    if name not in found:
        below = [longest_chain(it, crates, found) for it in crates[name]]
        found[name] = max(below, key=len, default=[]) + [name]
    return found[name]


def way_down(name, ends, crates):
    """The crates from this one down to one of these; none if it stands on none of them."""
    if name in ends:
        return [name]
    ways = [way_down(it, ends, crates) for it in crates[name]]
    return next(([name, *way] for way in ways if way), [])


def floors(chains):
    """The table of floors, highest first."""
    rows = []
    for size in sorted({len(chain) for chain in chains.values()}, reverse=True):
        here = sorted(name for name, chain in chains.items() if len(chain) == size)
        laws = [name for name in here if name.endswith(WITHOUT_CODE)]
        code = [name for name in here if name not in laws]
        rows.append(f"| {size - 1} | {', '.join(code)} | {', '.join(laws)} |".replace("|  |", "| |"))
    return HEAD + rows


def main():
    crates, chains, wrong = read_crates(), {}, []
    longest = max((longest_chain(name, crates, chains) for name in crates), key=len)
    print(f"the longest chain has {len(longest)} crates: {', '.join(longest)}")
    if len(longest) > LONGEST:
        wrong.append(f"the longest chain has {len(longest)} crates, and at most {LONGEST} are allowed")
    ways = [way_down(name, TEXTS, crates) for name in crates if name.startswith(MEANINGS)]
    ways += [way_down(name, REQUESTS, crates) for name in STORES]
    wrong += [f"{way[0]} stands on {way[-1]}: {', '.join(way)}" for way in ways if way]

    heads, without = read_groups()
    if heads != list(GROUPS):
        wrong.append(f"crates.txt heads the groups {', '.join(heads)}, and not {', '.join(GROUPS)}")
    wrong += [f"{name} stands in crates.txt under no group" for name in without]
    place = {name: at for at, name in enumerate(crates)}
    wrong += [f"{name} stands in crates.txt before {it}" for name in crates for it in crates[name] if place[it] > place[name]]

    text = DOCUMENT.read_text()
    front, head, rest = text.partition(HEAD[0])
    after = rest.split("\n\n", 1)[-1]
    right = front + "\n".join(floors(chains)) + "\n\n" + after
    if not head:
        wrong.append("docs/ARCHITECTURE.md has no table of floors, which begins with " + HEAD[0])
    elif text != right and "--write" in sys.argv[1:]:
        DOCUMENT.write_text(right)
    elif text != right:
        wrong.append("the table of floors in docs/ARCHITECTURE.md isn't that of crates.txt: run python3 tools/chains.py --write")

    for why in wrong:
        print(f"chains.py: {why}", file=sys.stderr)
    return 1 if wrong else 0


sys.exit(main())
