#!/usr/bin/env python3
"""Writes docs/ERRORS.md: of each number and name that a user or a developer meets what it means, what meets it, the cure, and where it stands.

tools/errors.txt says of each its definitions, functions and laws, and of faults and of code also what they mean and the cure. What refusals, aborts,
statuses, stores that are refused and causes mean stands in tables of the documents, and is taken from there. What meets each is the shortest case of
the sheets. The script fails where

- the sources have a number that tools/errors.txt hasn't, or the reverse, or another name for it
- a definition, a function or a law isn't in the file that is named, or a definition or a function doesn't speak of the number
- a function of the compiler tells a fault and isn't listed
- no case meets a number

With `--check` nothing is written: it says whether the document is up to date, and ends with 1 if not.
"""
import bisect
import pathlib
import re
import sys
from dataclasses import dataclass, field

TOP = pathlib.Path(__file__).resolve().parent.parent
CRATES, DOCS, DOCUMENT, TABLE = TOP / "crates", TOP / "docs", TOP / "docs" / "ERRORS.md", TOP / "tools" / "errors.txt"
sys.dont_write_bytecode = True
sys.path.insert(0, str(TOP / "tests"))
import cases  # noqa: E402

HEAD = """# Errors

What each number and name means, a small program or request that meets it, and what to do. `python3 tools/errors.py` makes this page of
tools/errors.txt, of the tables of the other documents and of the sheets of cases, and the gate looks whether it is up to date. To find a number, look
for it in the list below, or for the name. Whoever changes the code finds at each its definition, the functions that ask it, and the law if there is
one: what is proved of it in general. Which of several faults is reported says [{0}]({0}).
"""
# What the document says that HEAD names.
WHICH = "**Which fault is reported.**"
# The sorts of entries: the chapter, what stands at its head, and how the heading of an entry begins.
SORTS = {
    "fault": ("Faults of a text", "`check`, `serve` and `audit` write `LINE:COLUMN: NUMBER Name` of the first fault of a text, and end with 1.", ""),
    "refusal": ("Refusals", "A request that is refused is answered with `refused` and the number. Nothing has run.", "Refused "),
    "abort": ("Aborts", "A request that aborts is answered with `abort` and the name. It ran, and was undone.", "Abort "),
    "store": (
        "Stores that are refused", "`serve` and `audit` write the line `store: NUMBER Name`, and end with 6. No byte of the file is changed.", ""),
    "status": ("Statuses", "The status with which a run ends, and the word on standard error if there is one.", "Status "),
    "code": (
        "Faults of code", "The verifier finds these in an image. It is proved that code which the compiler makes has none. So only who writes an"
        " image by hand meets them, or changes what makes code.", ""),
    "line": (
        "Lines for scripts", "From status 2 on standard error has one of these lines, after `obsidian: status`. Nothing is proved of them.", ""),
}
# The faults of a text by their first digits.
STEPS = {"1": "Words and signs", "2": "The grammar", "3": "Names, types and type arguments", "4": "Permissions and states"}
# The crates whose functions tell faults of a text.
STAGES = re.compile(r"ob_(lexer|parser\w*|generic(_walk)?|resolve\w*|lower(_parts)?|flow(_context|_premises)?|emit|front)$")
# The tables of the documents by their first rows: which column has the key, which says what it means, and which the cure.
TABLES = {
    "refusal": ("| number | name | the line is refused where | what to do |", 0, 2, 3),
    "abort": ("| `abort` | with | why | what to do |", 0, 2, 3),
    "store": ("| line | it means | what to do |", 0, 1, 2),
    "status": ("| status | word on standard error | when |", 0, 2, None),
    "cure": ("| status | what to do |", 0, None, 1),
    "cause": ("| CAUSE | what to do |", 0, None, 1),
    "lines": ("| status | line |", 0, 1, None),
}
# Topics of which no case is shown: their cases are long.
UNSHOWN = ("random", "slow")
# How much is shown of a case: lines, and characters of a line.
MOST_LINES, MOST_OF_LINE = 14, 140
DECLARED = r"^\s*(?:pub(?:\(\w+\))? |abbrev |record |data |mutual |const |opaque )*(?:fn )?{}\b"


class Trouble(Exception):
    """What isn't as it has to be."""


# ---- tools/errors.txt

@dataclass
class Entry:
    """What tools/errors.txt says of a number or a name."""
    sort: str
    key: str
    name: str
    texts: dict = field(default_factory=dict)
    places: dict = field(default_factory=lambda: {"definition": [], "function": [], "law": []})

    def heading(self):
        return f"{SORTS[self.sort][2]}{self.key} {self.name}".strip()


def entries():
    """The entries of tools/errors.txt, in their order."""
    found = []
    for number, line in enumerate(TABLE.read_text().splitlines(), 1):
        head = re.fullmatch(r"\[(\w+) (\S+)(?: (\w+))?\]", line)
        word, colon, rest = line.partition(": ")
        if head:
            found.append(Entry(head[1], head[2], head[3] or ""))
        elif colon and word in ("definition", "function", "law"):
            file, _, name = rest.partition(" ")
            found[-1].places[word].append((file, name))
        elif colon and word in ("means", "place", "cure", "script"):
            found[-1].texts[word] = rest
        elif line and not line.startswith("#"):
            raise Trouble(f"tools/errors.txt:{number}: what is this line?")
    return found


# ---- what the sources have

def read(path):
    return (CRATES / path).read_text()


def constants_of(path):
    """The numbers of a file of constants, by their words."""
    return dict(re.findall(r"pub const (\w+): u16 = (\d+);", read(path)))


def named(path, row):
    """The numbers of a file of constants, each with the name that a row of a match gives its word."""
    constants = constants_of(path)
    return {constants[word]: name for word, name in re.findall(row, read(path), re.M)}


def reversed_pairs(path, row):
    return {number: name for name, number in re.findall(row, read(path))}


def known():
    """What the sources have: of each sort the numbers or words, with their names."""
    return {
        "fault": named("ob_base/src/fault.rt", r'^ +([A-Z0-9_]+) => "(\w+)"'),
        "refusal": reversed_pairs("ob_wire/src/refusal.rt", r"Refusal::(\w+) => (\d+)"),
        "abort": {word: "" for word in re.findall(r'abort_with \(codes "(\w+)"\)', read("ob_wire/specs/Replies.antt"))},
        "store": dict(re.findall(r'"store: (\d+) (\w+)', read("ob_run/src/refusal.rt"))),
        "status": reversed_pairs("ob_outside/src/exit.rt", r"Exit::(\w+) => (\d+)"),
        "code": named("ob_verify/src/numbers.rt", r"^ +([A-Z_]+) => Some\(CodeFault::(\w+)\)"),
        "line": lines_known(),
    }


def lines_of(cell):
    """The lines for scripts that a cell names: each part alone, or with each of the causes behind it."""
    spans = re.findall(r"`([^`]+)`", cell)
    part = spans[0].split()[2]
    if spans[0].endswith("CAUSE"):
        return [f"{part}-{word}" for word in spans[1:]]
    return [span.split()[2] for span in spans if "NUMBER" not in span and " status " in span]


def lines_known():
    """The lines for scripts, as the documents list them, with the words that the sources have."""
    listed = [line for _, cell, _ in rows("lines") for line in lines_of(cell)]
    listed += [f"disk-{word}" for cell, _, _ in rows("cause") for word in keys_in(cell)]
    parts = set(re.findall(r'=> Some\("(\w+)"\)', read("obsidian/src/saying.rt"))) - {"store"}
    words = {one or other for one, other in re.findall(r'cause: "(\w+)"|^ +"(\w+)"$', read("ob_explain_store/src/causes.rt"), re.M)}
    lacking = (parts ^ {line.split("-")[0] for line in listed}) | (words ^ {line.split("-")[1] for line in listed if "-" in line})
    if lacking:
        raise Trouble(f"the documents and the sources have other lines for scripts: {', '.join(sorted(lacking))}")
    return dict.fromkeys(listed, "")


# ---- what the documents say

def rows(table):
    """The rows of a table of the documents: its key, what it means, and the cure, each with links that lead from docs/ERRORS.md."""
    front, *columns = TABLES[table]
    for path in sorted(DOCS.glob("*.md")):
        text = path.read_text()
        if path != DOCUMENT and front in text:
            break
    else:
        raise Trouble(f"no document has a table that begins with {front}")
    lines = text.partition(front)[2].split("\n")[2:]
    end = next(place for place, line in enumerate(lines) if not line.startswith("|"))
    found = [[cell.strip() for cell in line.strip().strip("|").split("|")] for line in lines[:end]]
    return [[re.sub(r"\]\(#", f"]({path.name}#", row[column]) if column is not None else "" for column in columns] for row in found]


def keys_in(cell):
    """The keys that the first cell of a row names: numbers, or words."""
    return re.findall(r"\d+", cell) or re.findall(r"`?(\w+)`?", cell)


def told(entry):
    """What an entry means and the cures, as the documents say; or as tools/errors.txt does."""
    means, cures = [entry.texts.get("means", "")], [entry.texts.get("cure", "")]
    tables = {"status": ("status", "cure"), "line": ("cause",) if entry.key.startswith("disk-") else ()}.get(entry.sort, (entry.sort,))
    key = entry.key.removeprefix("disk-")
    for cell, mean, cure in [row for table in tables if table in TABLES for row in rows(table)]:
        if key in keys_in(cell):
            means.append(mean)
            cures.append(cure)
    return [[text for text in dict.fromkeys(texts) if text] for texts in (means, cures)]


# ---- where it stands

def line_of(path, name):
    """The number of the line on which a file declares a name."""
    where = CRATES / path
    lines = where.read_text().split("\n") if where.exists() else []
    for number, line in enumerate(lines, 1):
        if re.match(DECLARED.format(re.escape(name)), line) and not line.startswith(("use ", "ghost use ")):
            return number
    raise Trouble(f"tools/errors.txt: crates/{path} declares no {name}")


def block_of(path, name):
    """What a file says from the declaration of a name up to the next declaration at the same depth."""
    lines = read(path).split("\n")[line_of(path, name) - 1:]
    ends = r"(?:abbrev |record |pub |data |infix)" if path.endswith(".antt") else r"\s*(?:pub(?:\(\w+\))? )?fn "
    end = next((place for place, line in enumerate(lines[1:], 1) if re.match(ends, line)), len(lines))
    return "\n".join(lines[:end])


def words_of(entry):
    """The words by which definitions and functions speak of an entry."""
    snake = re.sub(r"(?<=[a-z0-9])(?=[A-Z])", "_", entry.name).lower()
    if entry.sort == "fault":
        word = next(word for word, number in constants_of("ob_base/src/fault.rt").items() if number == entry.key)
        return [word, word.lower(), entry.name]
    if entry.sort == "abort":
        return [entry.key.capitalize(), f"by_{entry.key}"]
    return [entry.name, snake]


def speaks(path, name, words):
    """Whether what a file says of a name has one of these words, or a line that has the name."""
    some = re.compile(rf"\b(?:{'|'.join(words)})\b")
    return bool(some.search(block_of(path, name))) or any(some.search(line) and re.search(rf"\b{name}\b", line) for line in read(path).split("\n"))


def unspoken(entry):
    """What an entry names and doesn't speak of it, nor is named where another does; of a line for scripts nothing is asked."""
    for sort in ("definition", "function"):
        places = entry.places[sort] if entry.sort != "line" else []
        spoken = [place for place in places if speaks(*place, words_of(entry))]
        others = "\n".join(block_of(*place) for place in spoken)
        lacking = [place for place in places if place not in spoken and place[1] not in others]
        yield from (f"{path}: {name} doesn't speak of {entry.heading()}" for path, name in lacking)
    for path, name in entry.places["law"] + entry.places["function"]:
        line_of(path, name)


def telling():
    """The functions of the compiler in which the constant of a fault stands, each with the number."""
    constants = constants_of("ob_base/src/fault.rt")
    some = re.compile(rf"\b(?:{'|'.join(constants)})\b")
    for path in sorted(CRATES.glob("*/src/*.rt")):
        text = re.sub(r"^(?:pub |ghost )?use [^;]*;|//.*", "", path.read_text(), flags=re.M) if STAGES.match(path.parent.parent.name) else ""
        for part in re.split(r"\bfn (?=\w)", text)[1:]:
            for word in set(some.findall(part)):
                yield constants[word], (path.relative_to(CRATES).as_posix(), re.match(r"\w+", part)[0])


def unlisted(found):
    """Functions that tell a fault, and aren't listed with it."""
    listed = {entry.key: entry.places["function"] for entry in found if entry.sort == "fault"}
    for number, place in telling():
        if place not in listed[number]:
            yield f"tools/errors.txt: {number} lacks the function {' '.join(place)}"


def different(found):
    """Numbers that only the sources or only tools/errors.txt has, and other names."""
    for sort, names in known().items():
        listed = {entry.key: entry.name for entry in found if entry.sort == sort}
        for key in sorted(set(names) | set(listed)):
            if names.get(key) != listed.get(key):
                yield f"{sort} {key}: the sources have {names.get(key)}, and tools/errors.txt {listed.get(key)}"


# ---- what meets it

def sheets():
    """The cases that may be shown, each with the path of its sheet."""
    for topic, paths in cases.topics().items():
        for path in paths.values() if topic not in UNSHOWN else ():
            place = pathlib.Path(path)
            yield from ((place.relative_to(TOP).as_posix(), case) for case in cases.Sheet(place.read_bytes()).cases)


def programs():
    """The programs of the repository, by their bytes."""
    paths = [path for folder in ("tests/programs", "examples") for path in sorted((TOP / folder).rglob("*.obs"))]
    return {path.read_bytes(): path.relative_to(TOP).as_posix() for path in paths}


def replies_of(case):
    """Of each refusal and abort in the output of a case its first reply, with the input up to the line that it answers."""
    given, found = case.part(b"input").removesuffix(b"\n").split(b"\n"), {}
    for place, line in enumerate(case.part(b"output").split(b"\n")[:-1]):
        told = re.match(rb'\{"abort":"(\w+)"|\{"id":[^{}]*,"refused":(\d+)\}$', line)
        key = told and (("abort", told[1].decode()) if told[1] else ("refusal", told[2].decode()))
        if key and key not in found:
            found[key] = line.decode(errors="replace"), given[:bisect.bisect_right(case.firsts, place) if len(case.firsts) == len(given) else None]
    return found.items()


def size_of(text, files):
    """How much a text weighs where the shortest case is looked for: a program of the repository is shown by its name."""
    return 60 if text in files else len(text)


def met_by(case, files):
    """What a case meets: of each key its size and what is shown of it, as parts with their captions."""
    kind, text, answer = case.kind.decode(), case.part(b"text"), case.wanted().decode(errors="replace")
    if kind in ("check", "image") and (found := re.match(r"(?:\d+:\d+: )?(\d+) \w+", answer)):
        yield ("code" if kind == "image" else "fault", found[1]), len(text), [("", text), ("=>", answer)]
    if kind in ("store", "failing-store"):
        for number in re.findall(r"store: (\d+) \w+", answer):
            yield ("store", number), size_of(text, files) + len(case.asked()), [("program", text), ("steps", case.asked()), ("=>", answer)]
    if kind == "area" and '"abort":"room"' in answer:
        parts = [("program", text), ("size of an area, and lines", case.asked()), ("=>", answer)]
        yield ("abort", "room"), size_of(text, files) + len(case.asked()), parts
    if kind in ("run", "failing-run", "outside"):
        yield met_by_run(case, text, files)
    if kind in ("store", "failing-store") and (found := re.match(r"serve ([56]) \w+", answer)):
        yield ("status", found[1]), size_of(text, files) + len(case.asked()) + 1000, [("program", text), ("steps", case.asked()), ("=>", answer)]
    if kind in ("run", "store", "failing-store"):
        yield from met_by_replies(case, text, files)
    if kind in ("told", "told-of-store"):
        for line in re.findall(r"^obsidian: status ([\w ]+)$", answer, re.M):
            yield ("line", line.replace(" ", "-")), len(case.asked()) + len(text), []


def met_by_run(case, text, files):
    """The status that a run meets. One whose outside fails on purpose is taken only where there is no other."""
    words, kind = case.part(b"words"), case.kind.decode()
    status = case.part(b"status").decode().strip() or ("0 Done" if kind != "outside" else case.wanted().decode().strip())
    size = size_of(text, files) + len(case.part(b"input")) + 2000 * (kind != "run")
    outside = case.asked() if kind == "outside" else case.part(b"given")
    parts = [("program", text), ("words", words), ("what fails", outside), ("lines", case.part(b"input"))]
    parts += [("=>", case.part(b"output")), ("status", status)]
    return ("status", status.split()[0]), size, parts


def met_by_replies(case, text, files):
    """The refusals and aborts that the replies of a case tell. One over a store is taken only where there is no other."""
    other = case.kind != b"run"
    for key, (reply, lines) in replies_of(case):
        size = size_of(text, files) + sum(map(len, lines)) + 2000 * other
        front = [("steps", case.asked())] if other else [("words", case.part(b"words"))] if b"--" in case.part(b"words") else []
        yield key, size, [("program", text), *front, ("lines", b"".join(line + b"\n" for line in lines)), ("=>", reply)]


def shortest():
    """Of each key the path of the sheet, the title and the parts of its shortest case."""
    files, found = programs(), {}
    for path, case in sheets():
        for key, size, parts in met_by(case, files):
            if key not in found or size < found[key][0]:
                found[key] = size, path, case.title.decode(errors="replace"), parts
    return found, files


# ---- the page

def cut(text):
    """Lines that can be shown: of many the last ones, and of long ones the front."""
    lines = [line if len(line) <= MOST_OF_LINE else f"{line[:MOST_OF_LINE]} .. ({len(line)} characters)" for line in text.rstrip("\n").split("\n")]
    left = len(lines) - MOST_LINES
    return "\n".join([f".. ({left} lines)", *lines[left:]] if left > 0 else lines)


def block(caption, data, files):
    """A part of a case, as it is shown."""
    if isinstance(data, bytes) and data in files:
        return f"Program: [{files[data]}](../{files[data]})\n"
    text = data if isinstance(data, str) else data.decode("utf-8", errors="backslashreplace")
    text = "".join(letter if letter == "\n" or letter.isprintable() else repr(letter)[1:-1] for letter in text)
    if not text.strip("\n"):
        return f"{caption.capitalize()}: none\n" if caption == "lines" else f"`{' ' * min(len(text), 1)}`\n" if text else ""
    if "\n" not in text.strip("\n") and caption not in ("", "program"):
        front = "Answer" if caption == "=>" else caption.capitalize()
        return f"{front}: `{cut(text)}`\n" if "`" not in text else fenced(caption, text)
    return fenced(caption, text)


def fenced(caption, text):
    front = {"=>": "Answer:\n\n", "": ""}.get(caption, f"{caption.capitalize()}:\n\n")
    return f"{front}```\n{cut(text)}\n```\n"


def link(path, name):
    return f"[`{name}`](../crates/{path}#L{line_of(path, name)}) of {path.split('/')[0]}"


def sentence(text):
    """A text as a sentence: with a capital in front, unless a name stands there, and a full stop."""
    return (text if text.startswith("`") else text[:1].upper() + text[1:]) + ("" if text.endswith((".", ":")) else ".")


def places_of(entry):
    """Where an entry stands, for who changes the code."""
    words = {"definition": "Definition", "function": "Asked by", "law": "Law"}
    return [f"- {words[word]}: {', '.join(link(*place) for place in places)}" for word, places in entry.places.items() if places]


def chapter_of(entry, met, files):
    """What is told of one entry."""
    means, cures = told(entry)
    if not means or not cures and entry.sort not in ("status",):
        raise Trouble(f"{entry.heading()}: nothing says what it means, or the cure")
    front = "the line is refused where " if entry.sort == "refusal" else ""
    lines = [f"### {entry.heading()}", "", *(sentence(front + text) if len(means) == 1 else f"- {sentence(text)}" for text in means), ""]
    if "place" in entry.texts:
        lines.append(f"- Place: {entry.texts['place']}")
    lines += [f"- Cure: {text}" for text in cures]
    lines += places_of(entry)
    if "script" in entry.texts:
        return "\n".join([*lines, f"- Script: [{entry.texts['script']}](../{entry.texts['script']})"]) + "\n"
    if (entry.sort, entry.key) not in met:
        raise Trouble(f"{entry.heading()}: no case of the sheets meets it")
    _, path, title, parts = met[entry.sort, entry.key]
    lines += [f"- Sheet: [{path.removeprefix('tests/cases/')}](../{path}), \"{title}\":", ""]
    return "\n".join(lines) + "\n" + "\n".join(shown for caption, data in parts if (shown := block(caption, data, files)))


def lines_table(found, met):
    """The table of the lines for scripts."""
    lines = ["| line | it means | what to do | said by | met in |", "|---|---|---|---|---|"]
    script = (TOP / "tests" / "files.py").read_text()
    for entry in found:
        means, cures = told(entry)
        words = entry.key.replace("-", " ")
        if not means or not cures:
            raise Trouble(f"the line {words}: nothing says what it means, or the cure")
        tried = re.search(rf'\b{words}\b|b"{words.split()[-1]}"', script) and " " in words and "tests/files.py"
        sheet = met["line", entry.key][1] if ("line", entry.key) in met else tried
        functions = ", ".join(link(*place) for place in entry.places["function"])
        where = f"[{pathlib.Path(sheet).name}](../{sheet})" if sheet else "no test"
        lines.append(f"| `{words}` | {'; '.join(means)} | {'; '.join(cures)} | {functions} | {where} |")
    return "\n".join(lines) + "\n"


def links_to(found):
    """A link to each of these entries."""
    anchors = [re.sub(r"[^\w\- ]", "", entry.heading().lower()).replace(" ", "-") for entry in found]
    return ",\n  ".join(f"[{entry.key} {entry.name}".strip() + f"](#{anchor})" for entry, anchor in zip(found, anchors))


def index_of(found):
    """The list of all entries: of each chapter a link to each, and faults of a text step by step."""
    lines = []
    for sort, (title, _, _) in SORTS.items():
        own = [entry for entry in found if entry.sort == sort]
        lines.append(f"- [{title}](#{title.lower().replace(' ', '-')})" + (f":\n  {links_to(own)}" if sort not in ("fault", "line") else ""))
        for front, step in STEPS.items() if sort == "fault" else ():
            lines.append(f"- {step}:\n  {links_to([entry for entry in own if entry.key.startswith(front)])}")
    return "\n".join(lines) + "\n"


def document(found):
    met, files = shortest()
    which = next(path.name for path in sorted(DOCS.glob("*.md")) if WHICH in path.read_text())
    parts = [HEAD.format(which), index_of(found)]
    for sort, (title, front, _) in SORTS.items():
        own = [entry for entry in found if entry.sort == sort]
        parts.append(f"## {title}\n" + (f"\n{front}\n" if front else ""))
        parts += [lines_table(own, met)] if sort == "line" else [chapter_of(entry, met, files) for entry in own]
    return "\n".join(parts)


def main():
    if sys.argv[1:] not in ([], ["--check"]):
        sys.exit("usage: python3 tools/errors.py [--check]")
    try:
        found = entries()
        wrong = list(different(found)) or [*unlisted(found), *(why for entry in found for why in unspoken(entry))]
        text = document(found) if not wrong else ""
    except Trouble as trouble:
        wrong = [str(trouble)]
    if not wrong and not sys.argv[1:]:
        DOCUMENT.write_text(text)
    elif not wrong and (not DOCUMENT.exists() or DOCUMENT.read_text() != text):
        wrong = ["docs/ERRORS.md isn't up to date: run python3 tools/errors.py"]
    for why in wrong:
        print(f"errors.py: {why}", file=sys.stderr)
    return 1 if wrong else 0


if __name__ == "__main__":
    sys.exit(main())
