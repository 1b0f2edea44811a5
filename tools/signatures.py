#!/usr/bin/env python3
"""Lists in docs/CLAIMS.md the calls that take no memory, each with its signature.

Such a call is handed no allocator, and its answer has no case for want of memory. So it succeeds without the premise that there is memory left: what
takes memory stands before it, as `reserve` before `apply`. The script reads the signatures, and tells one that isn't so.

With `--check` nothing is written: it says whether the document is up to date, and ends with 1 if not.
"""
import pathlib
import re
import sys

TOP = pathlib.Path(__file__).resolve().parent.parent
DOCUMENT = TOP / "docs" / "CLAIMS.md"
BEGIN, END = "<!-- calls without memory -->\n", "<!-- end of the calls without memory -->\n"
# The crates, their files and the calls; of a crate without names every public call but its laws, which run nothing.
CALLS = (
    ("ob_perm", None, ()),
    ("ob_machine_parts", "guard", ("leave", "unlock", "may_change", "busy")),
    ("ob_lanes", "lanes", ("committed",)),
    ("ob_heap", "content", ("apply",)),
    ("ob_owners", "owners", ("apply", "owner")),
    ("ob_links", "links", ("insert", "remove", "first", "after", "item")),
    ("ob_journal", "journal", ("append", "move_to")),
    ("ob_store", "store", ("commit",)),
    ("ob_io", "sink", ("write_all",)),
)
# A public call with its signature, up to its first clause or its body.
CALL = re.compile(r"^ *pub fn (\w+)(.*?)(?=\n *(?:requires|ensures)\b|\n *\{|\s\{)", re.M | re.S)
# What a call has that may want memory: an allocator, or an answer for want of it.
WANTS = re.compile(r"\balloc\b|\bGlobal\b|\bMemory\b|\w*Error\b")


def signatures(crate, file, names):
    """The calls of a file, or of all files of a crate, each with its signature on one line."""
    files = sorted((TOP / "crates" / crate / "src").glob("*.rt")) if file is None else [TOP / "crates" / crate / "src" / f"{file}.rt"]
    calls = [call for path in files for call in CALL.finditer(path.read_text()) if not call[1].endswith("_laws")]
    found = {call[1]: " ".join(call[2].split()) for call in calls if not names or call[1] in names}
    for name in set(names) - set(found):
        sys.exit(f"signatures.py: {crate} has no public call `{name}` in {file}.rt")
    return found


def table():
    """The lines of the document, and what isn't so."""
    lines, wrong = ["| crate | calls that take no memory |\n", "|---|---|\n"], []
    for crate, file, names in CALLS:
        found = signatures(crate, file, names)
        wrong += [f"{crate}: `{name}` may want memory: {text}" for name, text in found.items() if WANTS.search(text)]
        lines.append(f"| {crate} | " + ", ".join(f"`{name}`" for name in (names or sorted(found))) + " |\n")
    return "".join(lines), wrong


def main():
    made, wrong = table()
    for line in wrong:
        print(f"signatures.py: {line}")
    if wrong:
        sys.exit(1)
    text = DOCUMENT.read_text()
    before, rest = text.split(BEGIN)
    _, after = rest.split(END)
    new = before + BEGIN + made + END + after
    if "--check" in sys.argv[1:]:
        if new != text:
            sys.exit("signatures.py: docs/CLAIMS.md isn't up to date: run tools/signatures.py")
    else:
        DOCUMENT.write_text(new)


if __name__ == "__main__":
    main()
