#!/usr/bin/env python3
"""Looks whether what the documents name is in the repository, and fails, with a line for each name that isn't.

It reads README.md, the documents of docs/ but for those that scripts make of the crates, and the README files of folders below. It asks of

- each path: it ends like a file of this project, and may leave out the folders in front. Where the paragraph names crates, one of a source
  has to be in one of these
- each name in backticks that looks like one of this project: it has an underscore, or capitals inside. It has to stand in a source
  without its comments, in a script, or as the stem of a file
- each name in backticks, whatever it looks like, that is said to be `of` a crate, or that stands under a heading which names crates alone:
  it has to stand in a source of these crates, unless it is a word of the language or of requests
- each name in backticks that stands in parentheses, alone or with others: a source has to declare it, as a function, a type, a definition, a
  clause, a field or a case
- each name of a crate, in backticks or not, as ob_base
- each sheet of cases with words behind a colon, all in backticks: these have to be the title of a case in it
- each link: its file, and the heading that it leads to

A name of another's is one that some source uses, and so is here. Names in the document's own blocks of code are those of programs of the
language, and a word in capitals, as NAME, takes the place of others: neither is asked.
"""
import os
import pathlib
import re
import sys

TOP = pathlib.Path(__file__).resolve().parent.parent
CRATES = TOP / "crates"
# Documents that scripts make of the crates.
MADE = ("DEFINITIONS.md", "THEOREM.md")
SOURCES = (".rt", ".antt")
ENDINGS = ("rt", "antt", "txt", "py", "md", "obs", "edit", "json", "image")
# The call of which all is said, and the crates whose words in quotes are those of the language and of requests.
TOP_CALL, SPOKEN = "run", ("ob_lexer", "ob_wire")
# What begins a path that isn't in the repository before it is built: where the gate and a run leave what they make.
BUILT = ("out/", "crates/obsidian/out/")
CODE = re.compile(r"`([^`\n]+)`")
CRATE = re.compile(r"\bob_[a-z_]+\b")
NAME = re.compile(r"[A-Za-z_][A-Za-z0-9_]*$")
PATH = re.compile(rf"[\w.][\w./-]*\.(?:{'|'.join(ENDINGS)})(?![\w-])")
OF_CRATE = re.compile(r"((?:`\w+`(?:,| and)? )+)of (ob_\w+)")
HEAD = re.compile(r"#+ (ob_[a-z_]+(?:, ob_[a-z_]+)*)$")
CASE = re.compile(r"(\w+\.txt):(.+)")
LINK = re.compile(r"\[[^\]]*\]\(([^)#\s]*)(?:#([^)\s]*))?\)")
ASIDE = re.compile(r"\(((?:`[A-Za-z_]{3,}`(?:, | and )?)+)[),;:]")
DECLARED = {
    ".rt": re.compile(r"\b(?:fn|struct|enum|trait|const|type|mod|ensures|requires|ghost) (\w+)|^\s+(?:pub )?(\w+)\s*[:(,{]", re.M),
    ".antt": re.compile(r"\bpub (?:data |record |mod )?(\w+)|^\s+(\w+) : ", re.M),
}
COMMENT = {".rt": re.compile(r"//.*"), ".antt": re.compile(r"(?:^|\s)--.*"), ".py": re.compile(r"#.*")}


def tracked():
    """The files of the repository, but for what was built: by their paths from the top."""
    found = []
    for folder, folders, files in os.walk(TOP):
        folders[:] = [name for name in folders if name not in (".git", "out", "unfinished", "__pycache__")]
        found += [(pathlib.Path(folder) / name).relative_to(TOP).as_posix() for name in files]
    return sorted(found)


def without_comments(path):
    """A source or a script without its comments."""
    return "\n".join(COMMENT[path.suffix].sub("", line) for line in path.read_text(errors="replace").split("\n"))


def declared_in(suffix, text):
    """The names that a source declares."""
    return {name for found in DECLARED[suffix].findall(text) for name in found if name} if suffix in DECLARED else set()


def quoted(crate):
    """The words that a crate's sources have in quotes."""
    for path in [*(CRATES / crate / "src").glob("*.rt"), *(CRATES / crate / "specs").glob("*.antt")]:
        yield from re.findall(r'"(\w+)"', path.read_text())


class Repository:
    """What is in the repository: its files, and the names that its sources use, in all and crate by crate."""

    def __init__(self):
        self.files = tracked()
        self.crates = {place.split("/")[1] for place in self.files if place.startswith("crates/") and place.count("/") > 1}
        self.names, self.by_crate = set(), {crate: set() for crate in self.crates}
        # Besides what sources declare, the libraries that crates use.
        self.declared = set(re.findall(r"\w+", (TOP / "crates.txt").read_text()))
        for place in self.files:
            path, parts = TOP / place, pathlib.PurePath(place).parts
            text = without_comments(path) if path.suffix in COMMENT else ""
            found = {*parts, path.stem, *re.findall(r"[A-Za-z_][A-Za-z0-9_]*", text)}
            self.names |= found
            self.declared |= {*parts, path.stem} | declared_in(path.suffix, text)
            if parts[0] == "crates" and len(parts) > 2:
                self.by_crate[parts[1]] |= found
        self.spoken = {word for crate in SPOKEN for word in quoted(crate)}

    def has_case(self, sheet, title):
        """Whether a sheet has a case of this title."""
        places = [place for place in self.files if place.startswith("tests/cases/") and place.endswith("/" + sheet)]
        return any(line.partition(" ")[2] == title for place in places for line in (TOP / place).read_text(errors="replace").split("\n"))

    def has_path(self, path, crates):
        """Whether a path is there, under one of these crates if any are named, or in a folder anywhere else."""
        found = [place for place in self.files if place == path or place.endswith("/" + path)]
        if crates and path.endswith(SOURCES):
            found = [place for place in found if place.split("/")[1] in crates]
        return bool(found) or path.startswith(BUILT)


def paragraphs(text):
    """The paragraphs and items of a document outside of its blocks of code, each with the number of its first line."""
    part, begins, is_code = [], 0, False
    for number, line in enumerate(text.split("\n") + [""], 1):
        is_fence = line.lstrip().startswith("```")
        is_new = re.match(r"\s*(?:[-*] |\d+\. |\||#)", line)
        if (is_fence or is_new or not line.strip()) and part:
            yield begins, "\n".join(part)
            part = []
        if is_fence:
            is_code = not is_code
        elif line.strip() and not is_code:
            begins = begins if part else number
            part.append(line)


def blocks_of_code(text):
    """The words that stand in a document's blocks of code."""
    return set(re.findall(r"\w+", " ".join(re.findall(r"```.*?```", text, re.S))))


def anchors(text):
    """The anchors of a document's headings."""
    heads = re.findall(r"^#+ (.*)$", re.sub(r"```.*?```", "", text, flags=re.S), re.M)
    return {re.sub(r"[^\w\- ]", "", head.lower()).strip().replace(" ", "-") for head in heads}


def looks_ours(name):
    """Whether a name looks like one of this project: small words joined, or capitals inside of it."""
    if not NAME.match(name) or name.startswith("_") or name.endswith("_") or re.search(r"_[A-Z]+(?:_|$)", name) and not name.isupper():
        return False
    return "_" in name or bool(re.search(r"[a-z0-9][A-Z]", name))


class Document:
    """A document, and what in it isn't there."""

    def __init__(self, path, repository):
        self.path, self.repository = path, repository
        self.text = path.read_text()
        self.own, self.wrong = blocks_of_code(self.text), []
        # The crates of the heading above, if it names nothing else.
        self.headed = set()

    def note(self, number, why):
        self.wrong.append(f"{self.path.relative_to(TOP)}:{number}: {why}")

    def name(self, number, name):
        """Notes a name that stands nowhere."""
        if looks_ours(name) and name not in self.repository.names and name not in self.own:
            self.note(number, f"no source has the name {name}")

    def span(self, number, span, crates):
        """Looks at what stands between backticks."""
        paths = PATH.findall(span)
        for path in paths:
            if not self.repository.has_path(path, crates):
                self.note(number, f"no file {path}" + (f" in {', '.join(sorted(crates))}" if crates else ""))
        case = CASE.fullmatch(span)
        if case and not self.repository.has_case(*case.groups()):
            self.note(number, f"no case of {case[1]} has the title {case[2]}")
        if not paths and re.match(r"[\w:.]+(?:\(\))?$", span):
            for name in re.split(r"::|\.", span.removesuffix("()")):
                self.name(number, name)

    def paragraph(self, number, text):
        """Looks at a paragraph."""
        if text.startswith("#"):
            head = HEAD.match(text)
            self.headed = set(CRATE.findall(head[1])) if head else set()
        crates = set(CRATE.findall(text))
        for name in sorted(crates - self.repository.crates):
            if not any(crate.startswith(name) for crate in self.repository.crates):
                self.note(number, f"no crate {name}")
        for span in CODE.findall(text):
            self.span(number, span, crates & self.repository.crates)
        for path in PATH.findall(CODE.sub("", LINK.sub("", text))):
            if "/" in path and not self.repository.has_path(path, set()):
                self.note(number, f"no file {path}")
        for name in [name for found in ASIDE.findall(text) for name in CODE.findall(found)]:
            if name not in self.repository.declared | self.repository.spoken | self.own:
                self.note(number, f"no source declares {name}")
        for names, crate in OF_CRATE.findall(text):
            self.of_crates(number, CODE.findall(names), {crate})
        if self.headed:
            found = [name for span in CODE.findall(OF_CRATE.sub("", text)) for name in span.split("::")]
            self.of_crates(number, [name for name in found if name not in self.repository.spoken and name != TOP_CALL], self.headed)
        for place, anchor in LINK.findall(text):
            self.link(number, place, anchor)

    def of_crates(self, number, names, crates):
        """Notes the names that no source of these crates has."""
        here = [self.repository.by_crate[crate] for crate in crates & self.repository.crates]
        for name in names:
            if here and NAME.match(name) and not name.endswith("_") and not any(name in words for words in here):
                self.note(number, f"no source of {', '.join(sorted(crates))} has the name {name}")

    def link(self, number, place, anchor):
        """Looks at a link: its file, and its heading."""
        if ":" in place:
            return
        # The introduction of a document that is made is read in docs/.
        folder = self.path.parent if self.path.suffix == ".md" else TOP / "docs"
        path = (folder / place).resolve() if place else self.path
        if not path.exists():
            self.note(number, f"no file {place}")
        elif anchor and path.suffix == ".md" and anchor not in anchors(path.read_text()):
            self.note(number, f"no heading #{anchor} in {path.relative_to(TOP)}")

    def look(self):
        """All that isn't there."""
        for number, text in paragraphs(self.text):
            self.paragraph(number, text)
        return self.wrong


def main():
    repository = Repository()
    paths = [TOP / place for place in repository.files if place.endswith(".md") and pathlib.PurePath(place).name not in MADE]
    paths += [TOP / "tools" / "theorem.txt"]
    wrong = [why for path in paths for why in Document(path, repository).look()]
    for why in wrong:
        print(f"names.py: {why}", file=sys.stderr)
    print(f"{len(paths)} documents, {len(wrong)} names that aren't there")
    return 1 if wrong else 0


if __name__ == "__main__":
    sys.exit(main())
