#!/usr/bin/env python3
"""Writes docs/THEOREM.md: what tools/theorem.txt says, with the corollary's definitions and an order of reading in it; the contract of the top call;
and below it the definitions of the run's own layer, all as they are written; and in the end the list of all modules on which the contract rests.

Only definitions on which the contract rests are shown, each with the comment above it, crate by crate from the top down and file by
file, so that a name stands before what it is made of. What lies deeper is named at the end, with its place in docs/DEFINITIONS.md. What is
longer than a screen is cut where a clause or a definition begins, under a heading that names what it has.

With `--check` nothing is written: it says whether the document is up to date, and ends with 1 if not.
"""
import pathlib
import re
import sys
import textwrap

sys.path.insert(0, str(pathlib.Path(__file__).resolve().parent))
import definitions as names

DOCUMENT = names.TOP / "docs" / "THEOREM.md"
INTRODUCTION = names.TOP / "tools" / "theorem.txt"
# The file of the corollary's definitions, and the line of the introduction in whose place they stand.
COROLLARY, MARK = "ob_run/Corollary", "<!-- the corollary -->"
# What is read first, in this order, with the line of the introduction in whose place its table stands: the definitions of a file, or all of a
# crate's on which the contract rests, and what they say.
ORDER_MARK = "<!-- the order of reading -->"
ORDER = (
    ("ob_run/Corollary", ("ServesObservable",), "What `serve P STORE` has done where all bytes are observable: above, as it is written"),
    ("ob_run/Statuses", ("Treats",), "What each status says of a command whose text was read"),
    ("ob_serve/Served", ("SpeaksOf", "IsAnswered", "IsGiven", "IsStored", "Ends"), "Each end of a session: the columns of the table of statuses"),
    ("ob_run/Survival", ("Survives",), "What a crash at any moment leaves"),
    ("ob_serve/Crash", ("AfterFirst", "AfterSome"), "The stores after a prefix of the items"),
    ("ob_serve/Kept", ("IsKept",), "What each item keeps: rest, one owner of each asset, and nothing changed where nothing was done"),
    ("ob_serve/Items", ("items_of_line",), "The items of a line, a batch counted in"),
    ("ob_store_spec/Settling", ("settled",), "When a line gets a record, when the store moves, and when there is no room"),
    ("ob_store_spec/Stores", ("IsStoreOf",), "When the bytes of a disk represent a store of a program"),
    ("ob_disk_spec/Disk", ("Torn", "IsQuiet", "IsWrite"), "The crash model: what a write may leave of bytes until a sync"),
    ("ob_rest_spec", (), "When a store is at rest, and what owns an object"),
    ("ob_invocation_spec", (), "What a request does: refusals, what it enters, what handles become, its reply"),
    ("ob_source_meaning", (), "What the body of a transaction does, by its source"),
)
# The crates that tell of sessions, stores and the outside: what is read next.
CORE = ("ob_run", "ob_serve", "ob_outside", "ob_store_spec", "ob_journal_spec", "ob_disk_spec", "ob_io")
# A line that uses definitions of a library.
LIBRARY = re.compile(r"(?:ghost )?use Rattle\.(\w+)\.specs\.([\w.]+?)(?:\.\{| as |;|$)")
# Lines of prose have so many characters at most.
WIDTH = 140
# The call whose clauses promise more of an accepted program than the top call's, and the clauses.
PROMISE_FILE, PROMISE_CALL, PROMISES = "ob_front/src/programs.rt", "compile", ("sound", "sound_code")
# The most lines of code under one heading.
MOST_LINES = 44
# The run's own layer, from the top down: what each crate is about, in a few words.
LAYER = {
    "obsidian": "What a run of a further command does",
    "ob_run": "What each status says of a run",
    "ob_outside": "All that a run meets outside itself, and how it ends",
    "ob_serve": "A session: lines, their items, replies and the store, one after another",
    "ob_owners": "What an audit counts",
    "ob_store": "A disk of which no byte changed, and what a store holds that is only read",
    "ob_words": "The words of the command line",
    "ob_io": "Files, the input and the output",
    "ob_store_spec": "When bytes represent a store, and what a line changes",
    "ob_journal_spec": "When bytes represent a journal",
    "ob_disk_spec": "A disk, and what a crash leaves of it",
}
DEFINED = re.compile(r"(?:abbrev |unfoldable )?pub (?:data |record )?(\S+)")
CLAUSE = re.compile(r"    (?:ensures|requires) (\w+)? ?\{")
RULE = re.compile(r"-- -+ (.*)$")


# ---- the order of reading

def lines_of(writer, place, keys):
    """The parts of a file that define these: each by its file and number, with how many lines it has."""
    path = names.CRATES / (place.replace("/", "/specs/", 1) + ".antt")
    wanted = {name for at, name in keys if at == place}
    found = [(number, without_head(block, path)) for number, block in enumerate(blocks(path))]
    return {(place, number): block.count("\n") + 1 for number, block in found if wanted & set(defined_in(block))}


def used_in(project, place, first):
    """These definitions of a file, and those of the same file that they use."""
    found, waiting = set(), [(place, name) for name in first]
    while waiting:
        key = waiting.pop()
        if key not in project.definitions:
            sys.exit(f"theorem.py: {place} has no definition {key[1]}")
        if key not in found:
            found.add(key)
            waiting += [other for other in project.definitions[key].cites if other[0] == place]
    return found


def read_by(writer, place, first):
    """What a row of the order of reading has: the parts with their lines."""
    if first:
        return lines_of(writer, place, used_in(writer.project, place, first))
    places = [other for other in writer.project.files if other.startswith(place + "/")]
    return {part: count for other in places for part, count in lines_of(writer, other, writer.reached).items()}


def order_of_reading(writer):
    """The table of what is read first, each row with the lines that it adds."""
    rows, read = ["| read | in | which says | lines | in all |", "|---|---|---|---|---|"], {}

    def add(what, where, says, parts):
        new = {part: count for part, count in parts.items() if part not in read}
        read.update(new)
        rows.append(f"| {what} | {where} | {says} | {sum(new.values()):,} | {sum(read.values()):,} |")

    for place, first, says in ORDER:
        path = names.path_from_docs(place) if first else f"../crates/{place}/specs"
        add(", ".join(f"`{name}`" for name in first) or "all", f"[{place}]({path})", says, read_by(writer, place, first))
    core = {part: count for crate in CORE for part, count in read_by(writer, crate, ()).items()}
    add("the rest of these", ", ".join(CORE), "Sessions, stores and the outside in all", core)
    every = {part: count for place in writer.project.files for part, count in lines_of(writer, place, writer.reached).items()}
    add("the rest", "[the modules](#the-modules-on-which-it-rests)", "What texts are accepted, their code, and its lanes", every)
    return "\n".join(rows)


# ---- the contract and the definitions as they are written

def blocks(path):
    """The parts of a file of definitions between blank lines, without its head and what it imports."""
    text = "\n".join(line for line in path.read_text().split("\n") if not line.startswith("use "))
    found = [part for part in re.split(r"\n\s*\n", text) if part.strip()]
    return [part.strip("\n") for part in found]


def defined_in(block):
    """The names that a block defines."""
    return [found[1] for line in block.split("\n") if (found := DEFINED.match(line.strip()))]


def heads_of(block):
    """The names that a block defines, without its fields and cases."""
    margin = "  " if block.split("\n")[0] in ("mutual", "abbrev mutual") else ""
    return [found[1] for line in block.split("\n") if line.startswith(margin) and (found := DEFINED.match(line[len(margin):]))]


def without_head(block, path):
    """A block without the sentences at the file's head, which stand above the first definition in one piece with it."""
    head = []
    for line in path.read_text().split("\n"):
        if not line.startswith("--"):
            break
        head.append(line)
    head = "\n".join(head)
    return block[len(head):].strip("\n") if head and block.startswith(head) else block


def shown(writer, place):
    """The definitions of a file on which the top call's contract rests, as they are written: each with the title above its part."""
    path = names.CRATES / (place.replace("/", "/specs/", 1) + ".antt")
    reached = {name for at, name in writer.reached if at == place}
    title, found = "", []
    for part in (without_head(block, path) for block in blocks(path)):
        rule = RULE.match(part)
        title = rule[1] if rule else title
        part = "\n".join(line for line in part.split("\n") if not RULE.match(line))
        if reached & set(defined_in(part)):
            found.append((title, part))
    return found


def height(parts):
    """How many lines parts take, with a blank one after each."""
    return sum(part.count("\n") + 2 for part in parts)


def cut(parts):
    """Parts in as few groups as are no longer than a screen, of much the same height."""
    most = height(parts) / -(-height(parts) // MOST_LINES)
    groups = [[]]
    for part in parts:
        if groups[-1] and (height(groups[-1]) >= most or height(groups[-1] + [part]) > MOST_LINES):
            groups.append([])
        groups[-1].append(part)
    return groups


def grouped(parts):
    """Parts with titles in groups: one for each title, or more where it would be longer than a screen."""
    titles = list(dict.fromkeys(title for title, _ in parts))
    return [(title, some) for title in titles for some in cut([part for at, part in parts if at == title])]


def fenced(language, text):
    """A block of code."""
    return ["", f"```{language}", text, "```"]


def named(words):
    """Names in a heading: the first four."""
    return ", ".join(f"`{word}`" for word in words[:4]) + (", .." if len(words) > 4 else "")


def heading(level, title, words):
    """A heading: a title, or names, or both."""
    return f"{level} {': '.join(filter(None, (title[:1].upper() + title[1:], named(words))))}"


def file_part(writer, place):
    """A file: its heading, what its head says, and its definitions."""
    groups = grouped(shown(writer, place))
    if not groups:
        return []
    head, source = names.taken_apart(writer.project.files[place].head)
    source = source or writer.told.get(place) or "this project's own"
    says = f"{names.sentence(head)} Source: {source.rstrip('.')}.".strip()
    lines = ["", f"### {place}", "", *textwrap.wrap(says, WIDTH, break_on_hyphens=False)]
    for title, parts in groups:
        if len(groups) > 1:
            words = [name for part in parts for name in heads_of(part)]
            lines += ["", heading("####", title, words)]
        lines += fenced("antt", "\n\n".join(parts))
    return lines


def crate_part(writer, crate):
    """A crate of the layer: the files from the top down, without the one that stands in the introduction."""
    places = [place for place in writer.project.files if place.startswith(crate + "/") and place != COROLLARY]
    lines = [line for place in reversed(names.files_in_order(writer.project, places)) for line in file_part(writer, place)]
    return ["", f"## {LAYER[crate]} ({crate})"] + lines if lines else []


def clauses(contract):
    """A contract without its head: each clause with its name, and with the comment above its part."""
    title, found = "", []
    for line in contract.split("\n"):
        begins = CLAUSE.match(line)
        if line.strip().startswith("//"):
            title = line.strip().strip("/ ").rstrip(".")
        elif begins:
            found.append([title, begins[1], line])
        elif found and line.strip():
            found[-1][2] += "\n" + line
    return found


def contract_part(contract):
    """The top call's contract: what it takes and gives, and its clauses under headings of their own."""
    first = CLAUSE.search(contract, re.search(r"^    (?:ensures|requires) ", contract, re.M).start())
    head = "\n".join(line for line in contract[:first.start()].rstrip().split("\n") if not line.strip().startswith("//"))
    lines = ["", f"## The contract of `{names.TOP_CALL}`", "", "What it is handed, and what it answers:"] + fenced("rust", head)
    found = clauses(contract)
    for title, parts in grouped([(title, text) for title, _, text in found]):
        words = [name for _, name, text in found if name and text in parts]
        lines += ["", heading("###", title or ("" if words else "What it promises"), words)] + fenced("rust", "\n".join(parts))
    return lines


def traits_part(writer):
    """The contracts of what the call is handed."""
    lines = ["", "## What files, streams and a disk promise", "", "The run is generic over these. Whatever meets them meets the theorem."]
    for file, text in writer.contracts[1:]:
        lines += ["", f"### {re.search(r'trait (.*?) [{]', text)[1]} ({file.place})"]
        methods = [("", part) for part in re.split(r"\n\s*\n", text)]
        for number, (_, parts) in enumerate(grouped(methods)):
            words = named(re.findall(r"^    (?:ghost|fn) (\w+)", "\n".join(parts), re.M))
            lines += ["", f"#### {words}"] if number else []
            lines += fenced("rust", "\n\n".join(parts))
    return lines


def deeper_part(writer):
    """Where to read on: the crates below that the contract rests on."""
    counts = {}
    for place, _ in writer.reached:
        counts[place.split("/")[0]] = counts.get(place.split("/")[0], 0) + 1
    lines = ["", "## Where it goes on", "", "These crates have the definitions that the ones above rest on, from the top down."]
    lines += ["", "| crate | what it does | definitions |", "|---|---|---|"]
    for _, crate in reversed(names.crates_in_order()):
        if crate in counts and crate not in LAYER:
            lines.append(f"| [{crate}](DEFINITIONS.md#{names.anchor(crate)}) | {names.crate_sentence(crate)} | {counts[crate]} |")
    return lines


def introduction(writer):
    """What stands before the contract, with the corollary's definitions and the order of reading in their places."""
    text = INTRODUCTION.read_text().strip()
    for mark, made in ((MARK, "\n".join(file_part(writer, COROLLARY)).strip()), (ORDER_MARK, order_of_reading(writer))):
        if text.count(mark) != 1:
            sys.exit(f"theorem.py: theorem.txt doesn't have the mark {mark} once")
        text = text.replace(mark, made)
    return text


def document(writer):
    """The whole text."""
    (_, contract), *_ = writer.contracts
    lines = [introduction(writer)] + contract_part(contract) + traits_part(writer)
    for crate in LAYER:
        lines += crate_part(writer, crate)
    return "\n".join(lines + deeper_part(writer) + modules_part(writer)).rstrip() + "\n"


# ---- the list of modules

def groups_of_crates():
    """The groups of crates.txt from the top down: what each is about, and its crates from the top down."""
    groups = []
    for line in (names.TOP / "crates.txt").read_text().split("\n"):
        head = re.match(r"# (\w+): (.*)", line)
        if head and head[1].islower():
            groups.append((head[1], []))
        elif line and not line.startswith("#") and groups:
            groups[-1][1].append(line.split(":")[0])
    return [(group, crates[::-1]) for group, crates in reversed(groups)]


def files_of(keys):
    """The files of definitions among what is reached."""
    return {place for place, _ in keys if "/src/" not in place}


def split_modules(project, crate, files):
    """The modules of a crate that are to be read, and those that aren't."""
    every = sorted(place for place in project.files if place.startswith(crate + "/"))
    some = [place.split("/")[1] for place in every if place in files]
    return some, [place.split("/")[1] for place in every if place not in files]


def listed(project, crates, files):
    """What is to be read of crates: those of which it is all, and then the others with their modules, or with those that are left out."""
    whole, parts = [], []
    for crate in crates:
        some, left = split_modules(project, crate, files)
        if some and left:
            parts.append(f"{crate}: all but {', '.join(left)}" if len(left) < len(some) else f"{crate}: {', '.join(some)}")
        elif some:
            whole.append(crate)
    return "; ".join(([f"all of {', '.join(whole)}"] if whole else []) + parts)


def wrapped(text):
    """An item of a list, in lines."""
    return textwrap.wrap(f"- {text}", WIDTH, subsequent_indent="  ", break_on_hyphens=False)


def libraries(writer, files):
    """The modules of libraries other than std that these files of definitions use, and the contracts above them."""
    paths = [names.CRATES / (place.replace("/", "/specs/", 1) + ".antt") for place in sorted(files)]
    paths += [names.CRATES / file.place for file, _ in writer.contracts]
    found = {}
    for path in paths:
        for library, module in (used.groups() for line in path.read_text().split("\n") if (used := LIBRARY.match(line.strip()))):
            if library != "std" and not library.startswith("ob"):
                found.setdefault(library, set()).add(module.removesuffix(".TheVariants"))
    return [f"**{library}.specs**: {', '.join(sorted(modules))}" for library, modules in sorted(found.items())]


def promised(writer):
    """What the clauses rest on that promise more of an accepted program."""
    path = names.CRATES / PROMISE_FILE
    text = re.search(rf"^pub fn {PROMISE_CALL}\b.*?\n\{{\n", path.read_text(), re.M | re.S)[0]
    cited = [text for _, name, text in clauses(text) if name in PROMISES]
    if len(cited) != len(PROMISES):
        sys.exit(f"theorem.py: {PROMISE_CALL} of {PROMISE_FILE} doesn't have the clauses {', '.join(PROMISES)}")
    project, text = writer.project, "\n".join(cited)
    keys = {key for key, _ in project.cited(names.ghost_uses(path), text, names.bound(text))}
    return project.reachable(keys)


def modules_part(writer):
    """The list of modules."""
    groups, first = groups_of_crates(), files_of(writer.reached)
    more = files_of(promised(writer)) - first
    lines = ["", "## The modules on which it rests", ""]
    lines += [f"Whoever believes the theorem has read these. The contract of `{names.TOP_CALL}` rests on {len(first)} modules of"]
    lines += ["`crates/CRATE/specs/`, by the groups of crates.txt from the top down:", ""]
    for group, crates in groups:
        text = listed(writer.project, crates, first)
        lines += wrapped(f"**{group}**: {text}") if text else []
    lines += ["", "They use these modules of libraries, which say what words and a line of JSON mean, beside Rattle's own:", ""]
    lines += [line for text in libraries(writer, first) for line in wrapped(text)]
    lines += ["", f"The clauses `{'` and `'.join(PROMISES)}` of `{PROMISE_CALL}` rest on {len(more)} more:", ""]
    return lines + wrapped(listed(writer.project, [crate for _, crates in groups for crate in crates], more))


def main():
    text = document(names.Writer())
    if "--check" in sys.argv[1:]:
        is_fresh = DOCUMENT.exists() and DOCUMENT.read_text() == text
        print("up to date" if is_fresh else f"not up to date: {DOCUMENT.name}")
        return 0 if is_fresh else 1
    DOCUMENT.write_text(text)
    return 0


if __name__ == "__main__":
    sys.exit(main())
