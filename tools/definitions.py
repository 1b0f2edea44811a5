#!/usr/bin/env python3
"""Writes docs/DEFINITIONS.md, an index of the definitions of crates/*/specs in reading order, and all of them into out/DEFINITIONS.md; or prints
definitions by name.

    tools/definitions.py            writes both documents
    tools/definitions.py NAME ..    prints each definition of a name as it is written, with its file and line, and what it cites
    tools/definitions.py --check    says whether the index is up to date, and ends with 1 if not

The index has the files on which the contract of the top call rests, each with what it is about and the names that it defines, a file before those
whose definitions it uses; and below them the other files. The whole document has five parts: the top call's contract with every definition that its
clauses cite, and that those cite; the faults by number, each with its conditions, sites, code and cases; the sites of the class table; the
definitions that are left, crate by crate; and an index of names. All is read from the crates: sentences are the comments above definitions, and where
a rule comes from stands in brackets in the head of its file. What isn't there, tools/definitions.txt may say.

Where documents are made or checked it names on standard error each definition that has neither a comment nor a sentence in definitions.txt, each name
of the code that stands in a comment without marks, and each line of definitions.txt that is of nothing.
"""
import pathlib
import re
import sys
from dataclasses import dataclass, field

# The names in the project on which this file depends: files of definitions are CRATE/FILE, all others CRATE/src/FILE.rt.
TOP_FILE, TOP_CALL = "obsidian/src/dispatch.rt", "run"
NUMBERS, NUMBERS_IN_CODE, SITES, RULES = "ob_base/Faults", "ob_base/src/fault.rt", "ob_resolve_spec/Sites", "ob_flow_spec/Deriving"
CASES, PREMISES = "ob_conformance", ("one", "must")

TOP = pathlib.Path(__file__).resolve().parent.parent
CRATES = TOP / "crates"
INDEX, DOCUMENT = TOP / "docs" / "DEFINITIONS.md", TOP / "out" / "DEFINITIONS.md"
SENTENCES = TOP / "tools" / "definitions.txt"
SIGNATURE_MOST, PART_MOST = 110, 150
# The index has so many bytes at most.
INDEX_MOST = 100_000

IDENT = r"[A-Za-z_][A-Za-z0-9_']*(?:-[A-Za-z0-9_']+)*"
CHAIN = re.compile(rf"(?<![\w.)'\]]){IDENT}(?:\.(?:{IDENT}|\d+))*")
OPERATOR = re.compile(r"[^\s\w(){}\[\].;,'\"]+")
HEADER = re.compile(r"(abbrev |unfoldable )?pub (data |record )?(\S+)\s*(.*)")
USE = re.compile(r"(?:ghost )?use Rattle\.(\w+)\.specs\.([\w.']+?)(?:\.\{(.*)\}| as (\S+?));?$")
ROW_OF_GRAMMAR = re.compile(r"[a-z]+ (?:[={[\"]|\||NAME)|`")
SOURCE = re.compile(r"\bown\b|documentation|TOPLAS|Specification|RFC|POSIX|Rust")
BARE_NAME = re.compile(r"(?<![\w.])[a-z]+(?:_[a-z]+)+\b")
PUBLIC_TYPE = re.compile(r"\s*pub (struct|enum) (\w+)(.*)")


@dataclass
class Part:
    """A field of a record or struct, or a constructor of a type."""
    name: str
    type: str = ""
    comment: str = ""


@dataclass
class Definition:
    """A definition of a file, or a type of the code."""
    place: str
    name: str
    kind: str
    signature: str = ""
    comment: str = ""
    clauses: list = field(default_factory=list)
    parts: list = field(default_factory=list)
    cites: set = field(default_factory=set)
    matches: set = field(default_factory=set)
    makes: set = field(default_factory=set)
    by_clause: list = field(default_factory=list)

    @property
    def key(self):
        return self.place, self.name


@dataclass
class File:
    """A file of definitions, with what its head says, the names that it uses and the shorter names of files that it has."""
    place: str
    head: str = ""
    definitions: list = field(default_factory=list)
    names: dict = field(default_factory=dict)
    aliases: dict = field(default_factory=dict)


# ---- reading files of definitions

def flat_lines(text):
    """The lines of a file, with those of mutual blocks at the left margin."""
    in_block = block = None
    for line in text.split("\n"):
        if line in ("mutual", "abbrev mutual"):
            in_block, block = True, line
            continue
        if line and not line.startswith(" "):
            in_block = False
        if in_block:
            line = line[2:]
            if block == "abbrev mutual" and line.startswith("pub "):
                line = "abbrev " + line
        yield line


def place_of_path(crate, path):
    """The place that a path of a `use` names, and what of it: (crate/file, type of the code or nothing)."""
    steps = path.split(".")
    if steps[0] != "declared":
        return f"{crate}/{steps[0]}", None
    return f"{crate}/src/{'/'.join(steps[1:-1] or steps[1:])}.rt", steps[-1]


def read_use(file, line):
    """Notes the names that a line `use` brings into a file."""
    found = USE.match(line.strip())
    if not found or not found[1].startswith("ob"):
        return
    crate, path, names, alias = found.groups()
    path = re.sub(r"\.The\w+$", "", path)
    place, of_code = place_of_path(crate, path)
    if alias:
        file.aliases[alias] = (place, of_code)
        return
    for name in re.split(r",\s*", names):
        name, _, shown = name.partition(" as ")
        file.names[shown.strip() or name.strip()] = (place, of_code, name.strip())


def begin_definition(file, found, comment):
    """A definition by its first line."""
    how, kind, name, rest = found.groups()
    kind = (kind or "").strip() or ("function" if how else "fact")
    definition = Definition(file.place, name, kind, rest, " ".join(comment))
    file.definitions.append(definition)
    return definition


def add_line(definition, line, comment):
    """Takes in a line that belongs to a definition: of its head, of a clause or of a part."""
    text = line.strip()
    is_type = definition.kind in ("data", "record")
    if is_type and definition.signature.endswith("where"):
        begins = re.match(r"  (?:pub )?(\S.*?) : (.*)", line)
        if begins and not line.startswith("   "):
            definition.parts.append(Part(begins[1], begins[2], " ".join(comment)))
        elif definition.parts:
            definition.parts[-1].type += " " + text
    elif is_type or (line.startswith(" ") and not definition.clauses):
        definition.signature += " " + text
    elif line.startswith(" "):
        definition.clauses[-1] += " " + text
    else:
        definition.clauses.append(text)


def read_file(path):
    """A file of definitions."""
    file = File(f"{path.parent.parent.name}/{path.stem}")
    definition, comment, head = None, [], []
    for line in flat_lines(path.read_text()):
        text = line.strip()
        found = HEADER.match(line)
        if text.startswith("--"):
            comment += [] if text.startswith("-- ---") else [text[2:].strip()]
        elif line.startswith(("use ", "ghost use ")):
            head = head or comment
            read_use(file, line)
            comment = []
        elif found and found[3] not in ("mod", "use", "ruleset"):
            definition = begin_definition(file, found, comment)
            comment = []
        elif line.startswith(("infix", "unfolding")):
            continue
        else:
            if text and definition and not line.startswith("pub "):
                add_line(definition, line, comment)
            if not text and not head and not file.definitions:
                head = comment
            comment = []
    file.head = " ".join(head)
    return file


# ---- reading types of the code

def read_code_types(path, place):
    """The public types of a file of code, each with its fields or variants and their comments."""
    found, comment, current = [], [], None
    for line in path.read_text().split("\n"):
        text = line.strip()
        begins = PUBLIC_TYPE.match(line)
        if text.startswith("///"):
            comment.append(text[3:].strip())
            continue
        if begins:
            kind, name, rest = begins.groups()
            current = Definition(place, name, kind, rest.strip(" {;"), " ".join(comment))
            found.append(current)
            current = current if line.rstrip().endswith("{") else None
        elif current and line.startswith("}"):
            current = None
        elif current and text and not text.startswith(("#", "//")):
            part = re.match(r"(?:pub(?:\(\w+\))? )?(\w+)\s*:?\s*(.*?),?$", text)
            if part:
                current.parts.append(Part(part[1], part[2], " ".join(comment)))
        if not text.startswith("#"):
            comment = []
    return found


def read_code():
    """All public types of the code, by place and name; and where a crate's type of a name is."""
    types, by_crate = {}, {}
    for path in sorted(CRATES.glob("*/src/**/*.rt")):
        place = str(path.relative_to(CRATES))
        for definition in read_code_types(path, place):
            types[definition.key] = definition
            by_crate.setdefault((place.split("/")[0], definition.name), definition.key)
    for definition in types.values():
        cite_code(definition, types, by_crate)
    return types


def cite_code(definition, types, by_crate):
    """Notes the types of the code that a type of the code has in its fields."""
    crate = definition.place.split("/")[0]
    used = re.findall(r"use (ob\w*)::\{?([^;]*)", (CRATES / definition.place).read_text())
    text = " ".join([definition.signature] + [part.type for part in definition.parts])
    for name in set(re.findall(r"\b[A-Z]\w*", text)):
        here = (definition.place, name)
        others = [by_crate.get((other, name)) for other, names in used if re.search(rf"\b{name}\b", names)]
        key = here if here in types else by_crate.get((crate, name)) or next(filter(None, others), None)
        definition.cites |= {key} if key and key != definition.key else set()


# ---- what a definition cites

class Project:
    """All files of definitions and all types of the code."""

    def __init__(self):
        paths = sorted(path for path in CRATES.glob("*/specs/*.antt") if path.name != "Lib.antt")
        self.files = {file.place: file for file in map(read_file, paths)}
        self.types = read_code()
        self.owners, self.definitions = {}, dict(self.types)
        for file in self.files.values():
            for definition in file.definitions:
                self.definitions[definition.key] = definition
        for definition in self.definitions.values():
            for part in definition.parts if definition.kind in ("data", "enum") else []:
                self.owners.setdefault((definition.place, part.name), definition.key)
        for file in self.files.values():
            for definition in file.definitions:
                self.cite(file, definition)

    def meant(self, file, chain):
        """What a name with what is behind its dots refers to: (the key of a definition, a constructor or nothing)."""
        first, *others = chain.split(".")
        if first in file.aliases and others:
            place, of_code = file.aliases[first]
            return ((place, of_code), others[0]) if of_code else self.at(place, others[0])
        if first in file.names:
            place, of_code, name = file.names[first]
            if of_code:
                return (place, of_code), None if name == of_code else name
            return self.at(place, name)
        return self.at(file.place, first)

    def at(self, place, name):
        """The definition of a name at a place, or the type whose constructor it is."""
        if (place, name) in self.definitions:
            return (place, name), None
        owner = self.owners.get((place, name))
        return (owner, name) if owner else None

    def is_constructor(self, file, chain):
        """Whether a name refers to a constructor."""
        meant = self.meant(file, chain)
        return bool(meant and meant[1])

    def cite(self, file, definition):
        """Notes what a definition cites: in its type and parts, in the patterns and in the bodies of its clauses."""
        names = bound(definition.signature)
        for text, name in [(definition.signature, "")] + [(part.type, part.name) for part in definition.parts]:
            definition.cites |= {key for key, _ in self.cited(file, text, names | bound(text))}
            names |= {name} if definition.kind == "record" else set()
        for clause in definition.clauses:
            left, _, right = clause.partition(" = ")
            patterns = [chain for chain in CHAIN.findall(left) if chain != definition.name]
            constructors = [chain for chain in patterns if self.is_constructor(file, chain)]
            variables = set(patterns) - set(constructors) | bound(clause)
            for pattern in re.findall(r"[|\[] ([^|\[↦]*) ↦", right):
                self.take_pattern(file, pattern, constructors, variables)
            right = re.sub(r"[|\[] [^|\[↦]* ↦", ";", right)
            matched = {self.meant(file, chain) for chain in constructors}
            made = self.cited(file, right, variables)
            definition.by_clause.append((matched, made))
            definition.matches |= matched
            definition.makes |= made
            definition.cites |= {key for key, _ in made | matched}
        definition.cites.discard(definition.key)

    def take_pattern(self, file, text, constructors, variables):
        """Takes a pattern of an `elim` apart into its constructors and variables."""
        for chain in CHAIN.findall(text):
            (constructors.append if self.is_constructor(file, chain) else variables.add)(chain)

    def cited(self, file, text, variables):
        """What a text cites, but for its variables."""
        text = re.sub(r'"(?:\\.|[^"\\])*"', '""', text)
        text = re.sub(rf"([{{;]\s*){IDENT}\s+=\s", r"\1", text)
        chains = [chain for chain in CHAIN.findall(text) if chain.split(".")[0] not in variables]
        signs = [f"◌{sign}◌" for sign in OPERATOR.findall(text)]
        return {meant for meant in (self.meant(file, chain) for chain in chains + signs) if meant}

    def reachable(self, keys):
        """What is cited by these definitions, and by those that they cite, with themselves."""
        reached, waiting = set(), list(keys)
        while waiting:
            key = waiting.pop()
            if key in reached or key not in self.definitions:
                continue
            reached.add(key)
            waiting += self.definitions[key].cites
        return reached


def bound(text):
    """The names that a text binds: of functions, of types that depend on a value, and of `let`."""
    names = set(re.findall(rf"let ({IDENT})", text))
    for group in re.findall(r"λ\s*((?:[^.]|\.(?=\S))*?)\.\s", text):
        names |= set(re.findall(IDENT, re.sub(r" : [^)]*", "", group)))
    for group in re.findall(rf"[({{]((?:{IDENT} )+): ", text):
        names |= set(group.split())
    return names


def ghost_uses(path):
    """A file of code, as one that uses definitions."""
    file = File(str(path.relative_to(CRATES)))
    for line in path.read_text().split("\n"):
        if line.strip().startswith("ghost use "):
            read_use(file, line)
    return file


def contracts_of_top():
    """The top call's contract, and those of the traits of what it is handed: (file, text) of each, as they are written."""
    text = (CRATES / TOP_FILE).read_text()
    start = re.search(rf"^pub fn {TOP_CALL}\b", text, re.M).start()
    written = text[start:text.index("\n{\n", start)]
    found = [(ghost_uses(CRATES / TOP_FILE), written)]
    for trait in re.findall(r"\w+: (\w+)", written[:written.index("(")]):
        for path in sorted(CRATES.glob("*/src/**/*.rt")):
            declared = re.search(rf"^pub trait {trait} .*?^\}}", path.read_text(), re.M | re.S)
            if declared:
                found.append((ghost_uses(path), declared[0]))
    return found


# ---- floors and order

def crates_in_order():
    """The crates by their floors, each with its floor: a crate stands above all that it uses."""
    uses = {}
    for line in (TOP / "crates.txt").read_text().split("\n"):
        if line.strip() and not line.startswith("#"):
            name, _, others = line.partition(":")
            uses[name.split()[0]] = others.split()
    floors = {}

    def floor(crate):
        if crate not in floors:
            floors[crate] = 1 + max((floor(other) for other in uses[crate] if other in uses), default=0)
        return floors[crate]

    return sorted(((floor(crate), crate) for crate in uses), key=lambda pair: pair[0])


def files_in_order(project, places):
    """Places of one crate, each behind those of which it uses a definition."""
    done = []

    def visit(place, above):
        if place in done or place in above:
            return
        file = project.files.get(place)
        cited = {key[0] for definition in file.definitions for key in definition.cites} if file else set()
        for other in sorted(cited & set(places)):
            visit(other, above | {place})
        done.append(place)

    for place in sorted(places):
        visit(place, frozenset())
    return done


# ---- writing

def cell(text):
    """A text in a table."""
    return text.replace("|", "\\|")


def code(text):
    """A text of the code in a table."""
    return f"`{cell(text)}`" if text else ""


def shortened(text, most):
    """A text of the code, cut where it is long."""
    text = re.sub(r"\s+", " ", text).strip()
    if len(text) <= most:
        return text
    return text[:most].rsplit(" ", 1)[0] + " .."


def ended(text):
    """A sentence with its full stop."""
    return text if text.endswith((".", ":", "?")) else text + "."


def sentence(comment):
    """A comment as a sentence. A row of the grammar begins as it is written."""
    text = comment.strip()
    if not text:
        return ""
    text = text if ROW_OF_GRAMMAR.match(text) else text[:1].upper() + text[1:]
    return ended(text)


def signature(definition):
    """The type of a definition, or the parameters of a type."""
    text = re.sub(r"\s+", " ", definition.signature).strip()
    if definition.kind in ("struct", "enum"):
        return f"{definition.kind} {shortened(text, SIGNATURE_MOST)}".strip()
    if definition.kind in ("data", "record"):
        text = re.sub(r"\s*: Type 0 where$", "", text)
        return f"{definition.kind} {shortened(text, SIGNATURE_MOST)}".strip()
    return shortened(text.removeprefix(":"), SIGNATURE_MOST)


def rows_of(definition, says):
    """The rows of a definition in the table of its file: its own, and one for each of its parts."""
    rows = [f"| {code(definition.name)} | {code(signature(definition))} | {cell(says)} |"]
    for part in definition.parts:
        rows.append(f"| · {code(part.name)} | {code(shortened(part.type, PART_MOST))} | {cell(sentence(part.comment))} |")
    return rows


class Writer:
    """The document, part by part."""

    def __init__(self):
        self.project = Project()
        self.contracts = contracts_of_top()
        self.wrong, self.index = [], {}
        self.told = self.read_sentences()
        self.numbers = self.read_numbers()
        cited = [self.project.cited(file, without_comments(text), bound(text)) for file, text in self.contracts]
        self.reached = self.project.reachable(key for keys in cited for key, _ in keys)

    def read_sentences(self):
        """What stands beside the crates: sources of files by place, and sentences of definitions by place and name."""
        told = {}
        for line in SENTENCES.read_text().split("\n") if SENTENCES.exists() else []:
            key, is_told, text = line.partition(": ")
            if is_told and not line.startswith("#"):
                told[key] = text.strip()
                place, _, name = key.partition(" ")
                if (place, name) not in self.project.definitions if name else place not in self.project.files:
                    self.wrong.append(f"of nothing: {key} in {SENTENCES.name}")
        return told

    def read_numbers(self):
        """The numbers of the faults: constant -> (number, name, what the code says of it, the code's constant)."""
        said, comment = {}, []
        for line in (CRATES / NUMBERS_IN_CODE).read_text().split("\n"):
            constant = re.match(r"pub const (\w+): u16 = (\d+);", line)
            if constant:
                said[int(constant[2])] = (" ".join(comment), constant[1])
            comment = comment + [line[3:].strip()] if line.startswith("///") else []
        text = " ".join(clause for d in self.project.files[NUMBERS].definitions for clause in d.clauses)
        names = dict(re.findall(r"\((\w+), codes \"(\w+)\"\)", text))
        values = {c: int(n) for c, n in re.findall(r"\b(\w+) = (\d+)\b", text) if c in names}
        return {c: (n, names[c], *said.get(n, ("", ""))) for c, n in sorted(values.items(), key=lambda pair: pair[1])}

    def says(self, definition):
        """The sentence of a definition. A fault's number has that of the code."""
        if definition.place == NUMBERS and definition.name in self.numbers:
            number, _, said, _ = self.numbers[definition.name]
            return f"{number}: {said}"
        told = self.told.get(f"{definition.place} {definition.name}", "")
        if not definition.comment and not told:
            self.wrong.append(f"no comment: {definition.name} of {definition.place}")
        for comment in [definition.comment] + [part.comment for part in definition.parts]:
            for name in BARE_NAME.findall(re.sub(r"`[^`]*`", "", comment)):
                self.wrong.append(f"a name of the code in plain words: {name}, above {definition.name} of {definition.place}")
        return sentence(definition.comment or told)

    def table(self, place, definitions, title, level):
        """A file's heading, what its head says, and the table of some of its definitions."""
        file = self.project.files.get(place)
        lines = ["", f"{level} {title}", ""]
        if file:
            head, source = taken_apart(file.head)
            source = source or self.told.get(place) or "this project's own"
            lines += [sentence(head), f"Source: {source.rstrip('.')}.", ""]
        lines += ["| definition | signature | what it says |", "|---|---|---|"]
        for definition in definitions:
            lines += rows_of(definition, self.says(definition))
            self.index.setdefault(definition.name, []).append((place, title))
        return lines

    def listed(self, place, is_reached):
        """The definitions of a place that are reached, or those that aren't."""
        if place in self.project.files:
            found = [d for d in self.project.files[place].definitions if d.kind != "fact"]
        else:
            found = [d for d in self.project.types.values() if d.place == place]
        return [d for d in found if (d.key in self.reached) == is_reached]

    def crate_tables(self, crate, is_reached):
        """The tables of a crate: of what is reached from the top file down, of the rest from the ground up."""
        places = [p for p in self.project.files if p.startswith(crate + "/") and self.listed(p, is_reached)]
        places = files_in_order(self.project, places)
        if is_reached:
            places.reverse()
            places += sorted({key[0] for key in self.reached if key[0].startswith(crate + "/src/")})
        lines = []
        for place in places:
            is_split = not is_reached and self.listed(place, True)
            lines += self.table(place, self.listed(place, is_reached), place + (", the rest" if is_split else ""), "####")
        return lines

    def crate_parts(self, crates, is_reached):
        """Of each crate its heading, what it is, and its tables; and before them how many definitions each has."""
        contents, parts = [], []
        for floor, crate in crates:
            tables = self.crate_tables(crate, is_reached)
            if not tables:
                continue
            is_split = not is_reached and any(key[0].startswith(crate + "/") for key in self.reached)
            title, says = (f"{crate}, the rest", "") if is_split else (crate, crate_sentence(crate))
            count = sum(line.startswith("| `") for line in tables)
            contents.append(f"[{title}](#{anchor(title)}) {count}")
            parts += ["", f"### {title}", "", f"{says} Floor {floor}.".strip()] + tables
        return ["", "Definitions by crate:", "", *[f"- {line}" for line in contents], *parts]

    def top_part(self, crates):
        """The top call's contract, those of the traits that it takes, and what both rest on."""
        (_, contract), *traits = self.contracts
        lines = ["", f"## 1. What `{TOP_CALL}` says", "", TOP_INTRODUCTION, "", "```rust", contract, "```", "", TRAITS]
        for file, text in traits:
            lines += ["", f"{file.place}:", "", "```rust", text, "```"]
        return lines + self.crate_parts(reversed(crates), True)

    def rest_part(self, crates):
        """The definitions that are left."""
        return ["", "## 4. The rest, crate by crate", "", REST_INTRODUCTION, *self.crate_parts(crates, False)]

    def index_part(self):
        """Each name with its places."""
        lines = ["", "## 5. Index", "", INDEX_INTRODUCTION, "", "| name | where |", "|---|---|"]
        for name in sorted(self.index, key=lambda name: (name.lower(), name)):
            places = ", ".join(f"[{place}](#{anchor(title)})" for place, title in self.index[name])
            lines.append(f"| {code(name)} | {places} |")
        return lines

    def document(self):
        """The whole text."""
        crates = crates_in_order()
        top, faults, sites = self.top_part(crates), Faults(self).part(), sites_part(self)
        lines = [HEAD.format(reached=len(self.reached), call=TOP_CALL)] + top + faults + sites
        lines += self.rest_part(crates) + self.index_part()
        return "\n".join(lines).rstrip() + "\n"


# ---- the index

def indexed_file(writer, place, is_named):
    """The line of a file in the index: a link, and what it is about with the names that it defines, or how many these are."""
    link = f"[{place.split('/', 1)[1]}]({path_from_docs(place)})"
    found = [d for is_reached in (True, False) for d in writer.listed(place, is_reached)]
    if not is_named:
        return f"- {link}: {len(found)}"
    names = ", ".join(f"`{d.name}`" for d in found if d.key in writer.reached)
    head = taken_apart(writer.project.files[place].head)[0] if place in writer.project.files else ""
    return f"- {link}: {sentence(head)} {names}".replace(":  ", ": ")


def path_from_docs(place):
    """The path of a place from the folder of the documents."""
    return f"../crates/{place}" if "/src/" in place else f"../crates/{place.replace('/', '/specs/', 1)}.antt"


def indexed_crates(writer, crates, is_reached):
    """The crates of the index that have files on which the top call's contract rests, or the files that are left."""
    lines = []
    for _, crate in crates:
        of_crate = [place for place in writer.project.files if place.startswith(crate + "/")]
        places = [place for place in of_crate if bool(writer.listed(place, True)) == is_reached and writer.listed(place, is_reached)]
        places = files_in_order(writer.project, places)
        if is_reached:
            places = places[::-1] + sorted({key[0] for key in writer.reached if key[0].startswith(crate + "/src/")})
        if places:
            title = crate if is_reached or not any(key[0].startswith(crate + "/") for key in writer.reached) else f"{crate}, the rest"
            lines += ["", f"### {title}", "", *[indexed_file(writer, place, is_reached) for place in places]]
    return lines


def index(writer):
    """The text of the index."""
    crates = crates_in_order()
    files = {key[0] for key in writer.reached}
    lines = [INDEX_HEAD.format(reached=len(writer.reached), files=len(files), call=TOP_CALL)]
    lines += ["", f"## What the contract of `{TOP_CALL}` rests on", *indexed_crates(writer, list(reversed(crates)), True)]
    lines += ["", "## The rest", "", REST_INTRODUCTION, *indexed_crates(writer, crates, False)]
    return "\n".join(lines).rstrip() + "\n"


# ---- one definition

def written(place, name):
    """The block of a file that defines a name, with its first line, counted from 1."""
    path = TOP / "docs" / path_from_docs(place)
    lines = path.read_text().split("\n")
    begins = re.compile(rf"\s*(?:abbrev |unfoldable )?pub (?:data |record |struct |enum )?{re.escape(name)}(?=[\s<{{(;:]|$)")
    number = next((number for number, line in enumerate(lines) if begins.match(line)), None)
    if number is None:
        return 0, ""
    first, last = number, number
    while first > 0 and lines[first - 1].strip():
        first -= 1
    while last + 1 < len(lines) and (lines[last + 1].strip() if lines[number].startswith(" ") or "/src/" not in place else lines[last] != "}"):
        last += 1
    return first + 1, "\n".join(lines[first:last + 1])


def tell(project, name):
    """Prints each definition of a name, and the types that have a case or field of it."""
    found = [key for key in project.definitions if key[1] == name]
    owners = [d.key for d in project.definitions.values() if any(part.name == name for part in d.parts)]
    for key in dict.fromkeys(found + owners):
        number, text = written(*key)
        path = path_from_docs(key[0]).removeprefix("../")
        cited = sorted({f"{other[1]} ({other[0]})" for other in project.definitions[key].cites})
        print(f"{path}:{number}" + ("" if key in found else f", of {key[1]}") + f"\n\n{text}\n" + (f"\ncites: {', '.join(cited)}\n" if cited else ""))
    if not found and not owners:
        print(f"definitions.py: no definition, field or case has the name {name}", file=sys.stderr)
    return 0 if found or owners else 1


def without_comments(text):
    """A text of the code without its comments."""
    return re.sub(r"//.*", "", text)


def crate_sentence(crate):
    """What a crate says of itself: the first paragraph of its own comment."""
    lines = []
    for name in ("lib.rt", "main.rt"):
        path = CRATES / crate / "src" / name
        for line in path.read_text().split("\n") if path.exists() else []:
            if not line.startswith("//!") or not line[3:].strip():
                break
            lines.append(line[3:].strip())
    return " ".join(lines)


def taken_apart(head):
    """What the head of a file says, and the source of its rule, which stands in its last brackets."""
    found = list(re.finditer(r"\s*\(((?:[^()]|\([^()]*\))*)\)", head))
    sources = [m for m in found if SOURCE.search(m[1])]
    if not sources:
        return head, ""
    last = sources[-1]
    return head[:last.start()] + head[last.end():], last[1]


def anchor(title):
    """The anchor that a heading gets."""
    return re.sub(r"[^\w\- ]", "", title.lower()).replace(" ", "-")


# ---- the faults

class Faults:
    """The part on faults: each with its conditions, its sites, its code and its cases."""

    def __init__(self, writer):
        self.writer, self.project, self.numbers = writer, writer.project, writer.numbers
        reached = [self.project.definitions[key] for key in sorted(writer.reached)]
        self.reached = [d for d in reached if d.place in self.project.files]
        self.forms = forms_of_rules(self.project)
        self.code = code_of_constants({constant for _, _, _, constant in self.numbers.values()})
        self.cases = count_cases()

    def groups(self):
        """The lists of faults with their comments, each with its constants."""
        for definition in self.project.files[NUMBERS].definitions:
            constants = re.findall(r"\((\w+), codes", " ".join(definition.clauses))
            if constants:
                yield definition.comment, constants

    def conditions(self, constant):
        """The definitions that say when a fault is there: those under what the top call says that cite its number."""
        key = (NUMBERS, constant)
        for definition in self.reached:
            if key in definition.cites and definition.place != NUMBERS:
                text = " ".join(definition.clauses)
                paired = re.search(rf"\((?:\w+\.)?{constant}, ({IDENT})\)", text)
                beside = paired and self.project.definitions.get((definition.place, paired[1]))
                yield (beside, True) if beside else (definition, False)

    def told(self, constant, definition, is_paired):
        """The lines on one condition."""
        said = re.sub(r"^\d+: ", "", definition.comment)
        lines = [f"- Condition: `{definition.name}` ({definition.place}): {ended(said[:1].lower() + said[1:])}"]
        for part in definition.parts:
            if definition.kind == "record" or re.search(rf"\b{constant}\b", part.type):
                lines.append(f"  - `{part.name}`: `{shortened(part.type.split(f' → {definition.name} ')[0], 300)}`")
        if not is_paired:
            lines += [f"  - must hold: `{premise}`" for premise in premises(constant, definition)]
        return lines

    def sites(self, constant, definition, is_paired):
        """The constructors of which a condition speaks."""
        key = ((NUMBERS, constant), None)
        for matched, made in definition.by_clause:
            if is_paired or made == {key}:
                yield from sorted(matched)

    def sites_told(self, constant):
        """The lines on the sites of a fault: those of its conditions, and the forms at which the flow rules ask for it."""
        lines, seen = [], set()
        for definition, is_paired in self.conditions(constant):
            for owner, name in self.sites(constant, definition, is_paired):
                if (owner, name) not in seen and (owner[0] == SITES or not is_paired):
                    seen.add((owner, name))
                    lines.append(f"- Site: {self.site_told(owner, name)}.")
        forms = [f"`{form}`" for form, cited in self.forms if (NUMBERS, constant) in cited]
        if forms:
            lines.append(f"- Forms: {', '.join(forms)}.")
        return lines

    def site_told(self, owner, name):
        """What is said of a site, and for another type's case, what makes it."""
        part = next((part for part in self.project.definitions[owner].parts if part.name == name), Part(name))
        makers = [d.name for d in self.reached if (owner, name) in d.makes] if owner[0] != SITES else []
        told = f"`{name}`" + (f": {part.comment}" if part.comment else "")
        return told.rstrip(".") + (f"; made by {', '.join(f'`{maker}`' for maker in makers)}" if makers else "")

    def fault(self, constant):
        """The section on one fault."""
        number, name, said, in_code = self.numbers[constant]
        lines = ["", f"#### {number} {name}", "", said, ""]
        conditions = list(dict.fromkeys((d.key, is_paired) for d, is_paired in self.conditions(constant)))
        for key, is_paired in conditions:
            lines += self.told(constant, self.project.definitions[key], is_paired)
        lines += self.sites_told(constant)
        functions = self.code.get(in_code, [])
        cases = self.cases.get(number, {})
        if not conditions and not functions and not cases:
            return lines + ["Nothing answers it yet."]
        lines.append("- Code: " + (", ".join(functions) or "none") + ".")
        counts = ", ".join(f"{file} {count}" for file, count in sorted(cases.items(), key=lambda pair: (-pair[1], pair[0])))
        lines.append(f"- Cases: {sum(cases.values())}" + (f": {counts}." if counts else "."))
        return lines

    def part(self):
        """All faults, first in a table and then one by one."""
        lines = ["", "## 2. The faults", "", FAULTS_INTRODUCTION, ""]
        lines += ["| number | name | what it says | cases |", "|---|---|---|---|"]
        for number, name, said, _ in self.numbers.values():
            count = sum(self.cases.get(number, {}).values())
            lines.append(f"| {number} | [{name}](#{number}-{name.lower()}) | {cell(said)} | {count} |")
        for comment, constants in self.groups():
            lines += ["", f"### {comment[:1].upper() + comment[1:]}"]
            for constant in constants:
                lines += self.fault(constant)
        return lines


def premises(constant, definition):
    """What must hold, where a clause of a definition asks for it with a fault's number."""
    text = " ".join(definition.clauses)
    for word in re.finditer(rf"\b(?:{'|'.join(PREMISES)}) {constant} ", text):
        place, end = atom(text, word.end())
        holds, _ = atom(text, end)
        yield shortened(holds.removeprefix("(").removesuffix(")") if holds.startswith("(") else holds, 200)


def atom(text, start):
    """The name or the bracketed text that begins here, and where it ends."""
    while start < len(text) and text[start] == " ":
        start += 1
    end, depth = start, 0
    while end < len(text) and (depth > 0 or text[end] not in " )"):
        depth += (text[end] == "(") - (text[end] == ")")
        end += 1
    return text[start:end], end


def forms_of_rules(project):
    """Each form of a term with what the rule of its derivation cites, but through the rules of other forms."""
    rules = max(project.files[RULES].definitions, key=lambda definition: len(definition.matches))
    found = []
    for matched, made in rules.by_clause:
        reached, waiting = set(), [key for key, _ in made]
        while waiting:
            key = waiting.pop()
            if key not in reached and key in project.definitions and (key[0] != RULES or key not in rules.cites):
                reached.add(key)
                waiting += project.definitions[key].cites
        found += [(name, reached) for _, name in sorted(matched) if name]
    return found


def code_of_constants(constants):
    """The functions of the code that name each constant."""
    found = {}
    for path in sorted(CRATES.glob("*/src/**/*.rt")):
        place = str(path.relative_to(CRATES))
        if place == NUMBERS_IN_CODE or place.startswith(CASES + "/"):
            continue
        text = re.sub(r"^\s*(?:pub )?use [^;]*;|//.*$", "", path.read_text(), flags=re.M)
        item = ""
        for line in text.split("\n"):
            begins = re.match(r"\s*(?:pub(?:\(\w+\))? )?(?:const )?(fn|const) (\w+)", line)
            item = f"`{begins[2]}` ({place})" if begins else item
            for constant in constants & set(re.findall(r"\b[A-Z][A-Z0-9_]+\b", line)):
                functions = found.setdefault(constant, [])
                if item not in functions:
                    functions.append(item)
    return found


def count_cases():
    """How many cases of each file have a fault's number in their answer."""
    counts = {}
    for path in sorted((TOP / "tests" / "cases").rglob("*.txt"), key=lambda path: path.name):
        part, every = "", ""
        for line in path.read_text().split("\n"):
            word, _, rest = line.partition(" ")
            if not line:
                part = every = ""
            elif word == "-":
                answer = rest.split(" => ", 1)[1] if " => " in rest else every
            if word not in ("-", "|", "<", ">"):
                part = word
                every = rest if word == "every" else every
            is_answer = word == "<" or (word == "|" and part == "answer") or word == "answer"
            found = re.search(r"\d+:\d+: (\d{3}) [A-Z]\w+$", answer if word == "-" else rest if is_answer else "")
            if found:
                in_file = counts.setdefault(int(found[1]), {})
                in_file[path.name] = in_file.get(path.name, 0) + 1
    return counts


# ---- the sites of the class table

def sites_part(writer):
    """The table of the sites of names and types: what each says, which faults it may have and where it is made."""
    project, rows = writer.project, []
    faults, sites = Faults(writer), next(d for d in project.files[SITES].definitions if d.kind == "data")
    told = {}
    for constant, (number, name, _, _) in writer.numbers.items():
        for definition, is_paired in faults.conditions(constant):
            for owner, site in faults.sites(constant, definition, is_paired):
                if owner == sites.key:
                    told.setdefault(site, []).append(f"{number} {name}")
    for part in sites.parts:
        makers = [f"{code(d.name)} ({d.place.split('/')[1]})" for d in faults.reached if (sites.key, part.name) in d.makes]
        names = ", ".join(dict.fromkeys(told.get(part.name, [])))
        with_what = part.type.removesuffix(f"→ {sites.name}").strip()
        rows.append(f"| {code(part.name)} | {code(with_what)} | {cell(part.comment)} | {names} | {', '.join(makers)} |")
    head = "| site | with | what it says | faults | made by |"
    return ["", "## 3. The sites of the class table", "", SITES_INTRODUCTION, "", head, "|---|---|---|---|---|"] + rows


# ---- sentences of the document

INDEX_HEAD = """# Definitions

The definitions of this project stand in `crates/CRATE/specs/`. This index has their files in an order in which they can be read.
`tools/definitions.py` makes it from the crates. `tools/definitions.py NAME` prints a definition, and without a name the script writes
`out/DEFINITIONS.md` too: all definitions with their types and sentences, and the faults with their conditions, sites, code and cases.

The contract of `{call}` rests on {reached} definitions and types of {files} files. With Rattle's own library and those of `clap` and `serde_json` they
are all that has to be read to know what is proved; [THEOREM](THEOREM.md#an-order-of-reading) says which come first. They go from the top down, crate by
crate: a file stands before those whose definitions it uses. Names are those on which the contract rests. What else the same files define, and what the
files below them do, contracts of functions inside and laws cite."""

HEAD = """# Definitions

What the contracts of this project cite, with types and sentences. `tools/definitions.py` makes this document from the crates:
the sentences are the comments above the definitions.

1. [What `{call}` says](#1-what-{call}-says): the contract of the top call, and the {reached} definitions and types that it
   rests on
2. [The faults](#2-the-faults): each by number with its conditions, its sites, its code and its cases
3. [The sites of the class table](#3-the-sites-of-the-class-table)
4. [The rest, crate by crate](#4-the-rest-crate-by-crate)
5. [Index](#5-index): each name, and the file that defines it

A place CRATE/FILE is the file `crates/CRATE/specs/FILE.antt`; other places are files under `crates/`. A table lists
definitions of one file in their order there. A `data` has one of the cases that stand below it with a dot. A `record` has all
that stands below it: fields, or the parts of a statement, each of which holds. Types that are long end with ` ..`. The source
of a file says where its rule is published; where none is, it is this project's own. Not listed are Rattle's own library and
facts, which are proved where they stand. The floor of a crate is the length of its longest chain of uses."""

TOP_INTRODUCTION = """The program hands the words of the command line, the files, the two streams and the disk to this one
call, and ends with the status that it answers. The clauses hold of every run. Below them stands every definition that a clause
cites, and that those cite in turn: with Rattle's own library they are all that has to be read to know what is proved. Who asks
what a crash leaves begins at `Survives` (ob_run/Survival), goes on to `AfterFirst` (ob_serve/Crash) and `IsStoreOf`
(ob_store_spec/Stores), and ends at `Torn` (ob_disk_spec/Disk), which is what the disk has to obey. The list goes from the top
down, floor by floor and file by file: a file stands before those whose definitions it uses, so a reader may stop wherever a name
says enough. Types of the code of which definitions speak stand at the end of their crate."""

TRAITS = """What is handed in keeps the contracts of its trait, whatever it is; its `view` has what is observable of it. The
definitions that these cite are among those below."""

FAULTS_INTRODUCTION = """A text that is refused has one fault that is reported: a number with its name, and a place. Beside each
stands what it says, and

- its conditions: the definitions of part 1 that give the number, with what must hold, or else the fault is there
- its sites: the kinds of places at which a condition of names and types looks (part 3), and the forms of a lowered body whose
  permission rules ask for a premise
- its code: the functions that answer the number
- its cases: how many have it in their answer, by sheets of `tests/cases`"""

SITES_INTRODUCTION = """A site is a place of a program at which something is asked of it. The conditions in part 2 say which
sites have a fault; the definitions that make sites go over the tree."""

REST_INTRODUCTION = """Definitions that contracts of functions inside cite, those that laws are about, and those of stages
that no command uses yet. It goes from the ground up: a crate stands after those that it uses, and a file after those of its
crate whose definitions it uses."""

INDEX_INTRODUCTION = """Each name with the places that define it. Fields and cases stand under their type."""


def main():
    files = [CRATES / path for path in (TOP_FILE, NUMBERS_IN_CODE)]
    files += [CRATES / place.replace("/", "/specs/", 1) for place in (NUMBERS + ".antt", SITES + ".antt", RULES + ".antt")]
    missing = [str(path.relative_to(TOP)) for path in files if not path.exists()]
    if missing:
        print("not there, see the top of tools/definitions.py:", *missing, file=sys.stderr)
        return 2
    names = [word for word in sys.argv[1:] if word != "--check"]
    if names:
        project = Project()
        return max([tell(project, name) for name in names])
    writer = Writer()
    text, everything = index(writer), writer.document()
    for what in dict.fromkeys(writer.wrong):
        print(what, file=sys.stderr)
    if len(text.encode()) > INDEX_MOST:
        sys.exit(f"definitions.py: the index has {len(text.encode()):,} bytes, and may have {INDEX_MOST:,}")
    if "--check" in sys.argv[1:]:
        is_same = INDEX.exists() and INDEX.read_text() == text
        print("up to date" if is_same else "not up to date")
        return 0 if is_same else 1
    INDEX.write_text(text)
    DOCUMENT.parent.mkdir(exist_ok=True)
    DOCUMENT.write_text(everything)
    return 0


if __name__ == "__main__":
    sys.exit(main())
