#!/usr/bin/env python3
"""Writes crates/README.md: the groups of crates.txt, and of each crate what it is for, its floor, its lines and its functions.

What a crate is for is the first sentence of the head of its src/lib.rt, or of its src/main.rt. Its floor is the number of crates in the longest chain
below it. The lines are those of its .rt files and, behind the slash, those of its definitions and proofs; the functions are those of src/.

With `--check` nothing is written, and it fails where the document isn't up to date; and where a crate has more than 120 functions or a .rt file
more than 600 lines, but for the exceptions below, which may only get less: an exception that has come down has to be written so.
"""
import pathlib
import re
import sys

TOP = pathlib.Path(__file__).resolve().parent.parent
CRATES, DOCUMENT = TOP / "crates", TOP / "crates" / "README.md"
MOST_FUNCTIONS, MOST_LINES = 120, 600
# Crates with more functions, and files with more lines, each with how many it has.
FUNCTIONS = {"ob_conformance": 264, "ob_explain_flow": 274, "ob_explain_names": 300, "ob_explain_store": 140, "ob_resolve_scope": 123, "ob_verify": 123}
LINES = {}
FUNCTION = re.compile(r"^\s*(?:pub(?:\([a-z]+\))? )?(?:const )?(?:unsafe )?fn \w", re.M)
GROUP = re.compile(r"# (\w+): (.+)$")
HEAD = """# The crates

`python3 tools/crates.py` makes this page of crates.txt and the sources. The groups stand in the order of crates.txt, and in each of them a crate
stands after those that it uses. The floor of a crate is the number of crates in the longest chain below it. Lines are those of code with its
contracts, and behind the slash those of definitions and proofs, in hundreds. docs/ARCHITECTURE.md says how the crates work together.
"""


def read_groups():
    """The groups of crates.txt: each with its name, what it is about, and its crates with those that they name."""
    groups = []
    for line in (TOP / "crates.txt").read_text().splitlines():
        head = GROUP.match(line)
        if head and head[1].islower():
            groups.append((head[1], head[2], {}))
        elif ":" in line and not line.startswith("#"):
            front, _, below = line.partition(":")
            groups[-1][2][front.split()[0]] = below.split()
    return groups


def floor_of(name, named, found):
    """How many crates the longest chain below a crate has."""
    if name not in found:
        found[name] = max((floor_of(it, named, found) + 1 for it in named[name] if it in named), default=0)
    return found[name]


def sources(name, folder, ending):
    return sorted((CRATES / name / folder).rglob("*" + ending))


def lines_in(paths):
    return sum(path.read_text().count("\n") for path in paths)


def rounded(lines):
    """A number of lines in hundreds, so that the page stays as it is where few of them change."""
    return f"{(lines + 50) // 100 * 100:,}" if lines >= 50 else "few" if lines else "none"


def functions_of(name):
    return sum(len(FUNCTION.findall(path.read_text())) for path in sources(name, "src", ".rt"))


def purpose_of(name):
    """The first sentence of the head of a crate."""
    root = next(path for path in (CRATES / name / "src" / "lib.rt", CRATES / name / "src" / "main.rt") if path.exists())
    head = []
    for line in root.read_text().splitlines():
        if not line.startswith("//!"):
            break
        head.append(line.removeprefix("//!").strip())
    sentence = re.match(r".*?[.](?=\s|$)", " ".join(head))
    return (sentence[0] if sentence else " ".join(head)).replace("|", "\\|")


def document():
    groups = read_groups()
    named = {name: below for _, _, crates in groups for name, below in crates.items()}
    found, parts = {}, [HEAD]
    for group, about, crates in groups:
        parts += [f"## {group}", "", about[0].upper() + about[1:] + ".", "", "| crate | what it is for | floor | lines | functions |", "|---|---|---|---|---|"]
        for name in crates:
            code, proofs = lines_in(sources(name, "src", ".rt")), lines_in(sources(name, "specs", ".antt") + sources(name, "proofs", ".antt"))
            parts.append(f"| {name} | {purpose_of(name)} | {floor_of(name, named, found)} | {rounded(code)} / {rounded(proofs)} | {functions_of(name)} |")
        parts.append("")
    return "\n".join(parts)


def too_large():
    """What is larger than it may be, and each exception that isn't needed as it is written."""
    functions = {path.name: functions_of(path.name) for path in sorted(CRATES.iterdir()) if (path / "src").is_dir()}
    lines = {path.relative_to(CRATES).as_posix(): lines_in([path]) for name in functions for path in sources(name, "src", ".rt")}
    for sort, sizes, most, allowed in (("functions", functions, MOST_FUNCTIONS, FUNCTIONS), ("lines", lines, MOST_LINES, LINES)):
        for name, size in sizes.items():
            if size > allowed.get(name, most):
                yield f"{name} has {size} {sort}, and {allowed.get(name, most)} are allowed"
        for name, size in allowed.items():
            if sizes.get(name, 0) < size:
                yield f"{name} has {sizes.get(name, 0)} {sort}: write that in place of the exception {size}, or take it out"


def main():
    text, checks = document(), sys.argv[1:] == ["--check"]
    if sys.argv[1:] and not checks:
        sys.exit("usage: python3 tools/crates.py [--check]")
    if not checks:
        DOCUMENT.write_text(text)
        return 0
    wrong = list(too_large())
    if not DOCUMENT.exists() or DOCUMENT.read_text() != text:
        wrong.append("crates/README.md isn't up to date: run python3 tools/crates.py")
    for why in wrong:
        print(f"crates.py: {why}", file=sys.stderr)
    return 1 if wrong else 0


sys.exit(main())
