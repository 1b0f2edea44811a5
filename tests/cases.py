"""Cases: how sheets are read, what comes of each case, and how what differs is shown. tests/run is the command that runs them.

How cases are written, and what each kind asks, says tests/cases/README.md. Each case has a folder of its own, with the text in the file `p`. Its
input is a file whose offset tells how much of it was read: all of it where `serve` ends with `Done`, and nothing where a text is checked or
refused, or a trial is held. Where the status has a word on standard error, it begins with that. A process is cut after 60 seconds, and then
its case doesn't agree.
"""
import difflib
import os
import re
import subprocess
import sys
import tempfile
from concurrent.futures import ThreadPoolExecutor
from dataclasses import dataclass, field

import images
import questions
import samples

SHEETS = os.path.join(samples.TOP, "tests", "cases")
# The topic whose sheets take minutes: they are run only where it, or one of them, is named.
SLOW = "slow"
# How many lines are shown of what was wanted and of what came, and how many bytes of each.
MOST_LINES, MOST_BYTES = 60, 2000
# After how many seconds a process is cut, and the case program, which is asked many questions at once.
PATIENCE = 60
PATIENCE_OF_MANY = 600
# The kinds that are asked of the program: the parts that hold what is asked and what is wanted, and the others that such a case may have.
OF_PROGRAM = {
    b"check": (b"text", b"answer", ()),
    b"serve": (b"text", b"answer", ()),
    b"explain": (b"text", b"answer", ()),
    b"cuts": (b"text", b"answer", ()),
    b"run": (b"input", b"output", (b"text", b"words", b"status")),
    b"store": (b"runs", b"answer", (b"text", b"options", b"input", b"output")),
    b"told": (b"words", b"answer", (b"text", b"input")),
    b"told-of-store": (b"runs", b"answer", (b"text", b"options", b"input", b"output")),
    b"whole": (b"text", b"answer", ()),
    b"fronts": (b"text", b"answer", ()),
    b"code": (b"text", b"answer", ()),
    b"compiled": (b"text", b"answer", ()),
}
# Those of which the case program is asked. The code of what `calls` runs is taken from a store of the program.
OF_CASE_PROGRAM = {kind: parts[:3] for kind, parts in questions.KINDS.items()} | {b"calls": (b"runs", b"answer", (b"text", b"objects"))}
KINDS = OF_PROGRAM | OF_CASE_PROGRAM
# The parts that a table of each kind may have.
OF_TABLES = (b"front", b"back", b"every", b"answer-front", b"answer-back")
# What the first marks of a line stand for.
MARKS = {b">": b"input", b"<": b"output"}
PIECES = {b"": b"`", b"nothing": b"", b"newline": b"\n", b"return": b"\r", b"tab": b"\t", b"space": b" "}
# The statuses by their numbers, and those of which standard error has the word.
STATUSES = ("Done", "Refused", "Usage", "ReadFault", "WriteFault", "DiskFault", "StoreRefused", "Memory", "FileFault", "Long")
TOLD = ("Usage", "ReadFault", "WriteFault", "DiskFault", "Memory", "FileFault", "Long")
# With these nothing of the input is read.
UNREAD = ("Refused", "StoreRefused", "Usage", "FileFault")


class Trouble(Exception):
    """Why a sheet can't be read, or a case can't be run."""


# ---- sheets

@dataclass
class Case:
    """A case, or what is common to the rows of a table of cases."""
    kind: bytes
    title: bytes
    parts: dict = field(default_factory=dict)
    # Of each line of the input, how many lines of the output stand before it.
    firsts: list = field(default_factory=list)
    # Its row in a table.
    row: bytes = b""

    def part(self, name):
        return self.parts.get(name, b"")

    def asked(self):
        return self.part(KINDS[self.kind][0])

    def wanted(self):
        status = self.parts.get(b"status", b"0 Done") + b"\n" if self.kind in (b"run", b"failing-run") else b""
        return status + self.part(KINDS[self.kind][1])

    def add(self, name, more):
        if name not in (*KINDS[self.kind][0:2], *KINDS[self.kind][2], *OF_TABLES):
            raise Trouble("an unknown word")
        self.parts[name] = self.part(name) + more


def read(name):
    with open(samples.path_of(name), "rb") as file:
        return file.read()


def times(piece):
    """The bytes of `COUNT times PART` and `COUNT lines PART`."""
    count, word, part = piece.split(b" ", 2)
    if word not in (b"times", b"lines") or not count.isdigit():
        raise Trouble("an unknown piece")
    end = b"\n" if word == b"lines" else b""
    return b"".join(part.replace(b"#", b"%d" % number) + end for number in range(int(count)))


def bytes_of_piece(piece):
    """The bytes that a piece between two backticks stands for."""
    word, _, rest = piece.partition(b" ")
    if piece in PIECES:
        return PIECES[piece]
    if word == b"hex":
        return bytes.fromhex(rest.decode())
    if word == b"file":
        return read(rest.decode())
    return times(piece)


def bytes_of(text):
    """The bytes that a text of a case stands for."""
    parts = text.split(b"`")
    if len(parts) % 2 == 0:
        raise Trouble("a backtick without another")
    return b"".join(bytes_of_piece(part) if number % 2 else part for number, part in enumerate(parts))


class Sheet:
    """The cases of a file, which is read line by line. Where they aren't compared, a row needs no answer."""

    def __init__(self, data, compares=True):
        self.cases, self.case, self.is_table, self.part, self.compares = [], None, False, b"", compares
        for number, line in enumerate(data.split(b"\n"), 1):
            try:
                self.take(line)
            except (Trouble, ValueError, OSError) as error:
                raise Trouble(f"line {number}: {error}") from error
        self.end_case()

    def take(self, line):
        word, _, rest = line.partition(b" ")
        if not line or line.startswith(b"#"):
            return
        if word in KINDS:
            self.end_case()
            self.case, self.is_table = Case(word, rest), False
        elif self.case is None:
            raise Trouble("no case was begun")
        elif word == b"-":
            self.is_table = True
            self.cases.append(self.row_of(rest))
        elif word in MARKS:
            self.take_marked(MARKS[word], self.line_of(rest))
        elif word == b"|":
            self.case.add(self.part, self.line_of(rest))
        else:
            self.part = word
            self.case.add(word, bytes_of(rest))

    def take_marked(self, name, text):
        """Lines of the input, or of the output. The replies to a line stand behind it."""
        if name == b"input":
            self.case.firsts += [len(lines_of(self.case.part(b"output")))] * len(lines_of(text))
        self.case.add(name, text)

    def line_of(self, text):
        """A line of a part, with its newline if it doesn't say that it has none."""
        unended = b"`unended`"
        return bytes_of(text[: -len(unended)]) if text.endswith(unended) else bytes_of(text) + b"\n"

    def row_of(self, row):
        """The case of a row of the table."""
        case = self.case
        asked, wanted, _ = KINDS[case.kind]
        text, arrow, answer = row.partition(b" => ")
        if not arrow and b"every" not in case.parts and self.compares:
            raise Trouble("no answer of this row")
        whole = case.part(b"answer-front") + bytes_of(answer) + case.part(b"answer-back") if arrow else case.part(b"every")
        sides = {asked: case.part(b"front") + bytes_of(text) + case.part(b"back"), wanted: whole + b"\n"}
        return Case(case.kind, case.title, {**case.parts, **sides}, case.firsts, row)

    def end_case(self):
        if self.case and not self.is_table:
            self.cases.append(self.case)


def topics():
    """The topics, each with the paths of its sheets by their names."""
    folders = sorted(entry.name for entry in os.scandir(SHEETS) if entry.is_dir())
    paths = {topic: sorted(os.listdir(os.path.join(SHEETS, topic))) for topic in folders}
    return {topic: {name.removesuffix(".txt"): os.path.join(SHEETS, topic, name) for name in paths[topic]} for topic in folders}


def chosen(names):
    """The sheets that these words name, each with its cases: a topic, or a sheet, and behind a colon words of titles."""
    found, sheets = topics(), []
    by_name = {name: {name: path} for topic in found for name, path in found[topic].items()}
    for word in names or [topic for topic in found if topic != SLOW]:
        name, _, title = word.partition(":")
        among = found.get(name) or by_name.get(name.removesuffix(".txt"))
        if among is None:
            raise Trouble(f"{name}: there is no such topic and no such sheet; the topics are {', '.join(found)}")
        having = [(sheet, cases) for sheet, path in among.items() if (cases := cases_of(sheet, path, title.encode()))]
        if not having:
            raise Trouble(f"{word}: no case has these words in its title")
        sheets += having
    return sheets


def cases_of(sheet, path, title):
    """The cases of a sheet whose title has these words."""
    try:
        with open(path, "rb") as file:
            return [case for case in Sheet(file.read()).cases if title in case.title]
    except Trouble as trouble:
        raise Trouble(f"{sheet}: {trouble}") from trouble


# ---- runs

@dataclass
class Ended:
    """How a process ended, and what it wrote."""
    status: int
    output: bytes
    errors: bytes
    # How many bytes of the input it left, and how many there were.
    unread: int
    length: int
    words: list

    def name(self):
        return STATUSES[self.status] if 0 <= self.status < len(STATUSES) else "unknown"

    def remarks(self):
        """What isn't as it is to be beside the status and the output."""
        name, serves = self.name(), b"serve" in self.words
        left = self.length if name in UNREAD or name == "Done" and not serves else 0 if name == "Done" else self.unread
        remarks = f", bytes that weren't read: {self.unread}" if self.unread != left else ""
        if name in TOLD and self.errors.partition(b"\n")[0] != name.encode():
            remarks += ", and standard error has another word"
        return remarks

    def end(self):
        return f"{self.status} {self.name()}{self.remarks()}".encode()

    def whole(self):
        return self.end() + b"\n" + self.output


class Room:
    """A folder in which a program runs over the file `p`."""

    def __init__(self, program, folder, text=b""):
        self.program, self.folder = program, folder
        self.write("p", text)

    def write(self, name, data):
        with open(os.path.join(self.folder, name), "wb") as file:
            file.write(data)

    def run(self, words, given):
        """A run of these words over an input. The file of the input has no name, so that `p` is the only one."""
        with tempfile.TemporaryFile() as file:
            file.write(given)
            file.seek(0)
            how = {"stdin": file, "stdout": subprocess.PIPE, "stderr": subprocess.PIPE, "cwd": self.folder}
            ran = subprocess.run([self.program, *words], timeout=PATIENCE, **how)
            unread = len(given) - os.lseek(file.fileno(), 0, os.SEEK_CUR)
        return Ended(ran.returncode, ran.stdout, ran.stderr, unread, len(given), words)


def said(ended, done):
    """What a run wrote that is done where it writes this, and else refuses; or all that it comes to."""
    is_said = ended.name() == ("Done" if ended.output == done else "Refused") and not ended.remarks()
    return ended.output if is_said else ended.whole()


def check(program, text):
    with tempfile.TemporaryDirectory() as folder:
        return said(Room(program, folder, text).run([b"check", b"p"], b"{\n"), b"accepted\n")


def come_of_check(program, case):
    return check(program, case.asked())


def come_of_serve(program, case):
    with tempfile.TemporaryDirectory() as folder:
        return said(Room(program, folder, case.asked()).run([b"serve", b"p"], b""), b"") or b"served\n"


def come_of_explain(program, case):
    """What `check p` tells on standard error. Where it tells a fault, the line of its output is the first line there, without the file."""
    with tempfile.TemporaryDirectory() as folder:
        ended = Room(program, folder, case.asked()).run([b"check", b"p"], b"{\n")
    line = ended.output.partition(b"\n")[0] + b"\n"
    is_told = ended.errors.startswith(b"p:" + line) if ended.status == 1 else line == b"accepted\n"
    if ended.output != line or not is_told or ended.status > 1 or ended.remarks():
        return ended.whole() + ended.errors
    return ended.errors or b"nothing\n"


def come_of_cuts(program, case):
    """`one line each`, where `check` writes one line of each front of the text's bytes; or else what it writes of the first other."""
    text = case.asked()
    with ThreadPoolExecutor(os.cpu_count()) as pool:
        lines = pool.map(lambda end: check(program, text[:end]), range(1, len(text) + 1))
    others = (line for line in lines if line.count(b"\n") != 1 or not line.endswith(b"\n"))
    return next(others, b"one line each\n")


# ---- tokens left out and changed, and code

TOKEN = re.compile(rb'[A-Za-z_][A-Za-z0-9_]*|[0-9]+|"(?:\\.|[^"\\])*"|->|>>|::|==|!=|<=|>=|&&|\|\||[^\s]')


def place_of(text, at):
    """The line and the column of an offset."""
    front = text[:at]
    return b"%d:%d" % (front.count(b"\n") + 1, len(front[front.rfind(b"\n") + 1:].decode()) + 1)


def is_expected_at(program, text, place):
    """Whether the first fault of a text is that another token is expected at this place."""
    return check(program, text) == place + b": 201 Expected\n"


def counts(program, text, token):
    """Whether a token counts: with another in its place, which doesn't stand there, that is refused, and the tokens before it are at their end.
    The other one is `is`, which stands nowhere but where a bound has it.
    """
    begin, end = token.span()
    other = b" while " if token[0] == b"is" else b" is "
    changed = text[:begin] + other + text[end:]
    is_cut = begin == TOKEN.search(text).start() or is_expected_at(program, text[:begin], place_of(text, begin))
    return is_cut and is_expected_at(program, changed, place_of(changed, begin + 1))


def come_of_whole(program, case):
    text = case.asked()
    if re.search(rb": (10[0-9]|20[12]) ", check(program, text)):
        return b"refused\n"
    others = [b"%d " % number for number, token in enumerate(TOKEN.finditer(text)) if not counts(program, text, token)]
    return b"".join(others) + (b"do not count\n" if others else b"each token counts\n")


def come_of_fronts(program, case):
    text = case.asked()
    ends = [token.start() for token in TOKEN.finditer(text)] + [len(text)]
    found = [b"%d" % number for number, end in enumerate(ends) if not is_expected_at(program, text[:end], place_of(text, end))]
    return b" ".join(found) + b"\n"


def image_of(program, text):
    """The image of a text's code, from the store that the program begins for it; or nothing, and what it writes where it begins none."""
    with tempfile.TemporaryDirectory() as folder:
        room = Room(program, folder, text)
        ended = room.run([b"serve", b"p", b"s"], b"")
        line = said(ended, b"")
        if line:
            return b"", line
        with open(os.path.join(folder, "s"), "rb") as file:
            store = file.read()
    image = store[17:-1]
    # An open area of the first serial number, the length of the image, and behind it the closed gate of the first record.
    if store != b"\1OBSA" + (1).to_bytes(8, "big") + len(image).to_bytes(4, "big") + image + b"\0":
        raise Trouble("no store without a record")
    return image, b""


def come_of_code(program, case):
    image, line = image_of(program, case.asked())
    return line or images.code_of(image)


def come_of_compiled(program, case):
    image, line = image_of(program, case.asked())
    return line or image.hex().encode() + b"\n"


def come_of_calls(program, case):
    image, line = image_of(program, case.part(b"text"))
    return line or (yield from questions.runs_of(image, case.part(b"objects"), case.asked()))


def told(ended):
    """What a run told on standard error; all that it comes to, where something else isn't as it is to be."""
    return (ended.whole() if ended.remarks() else b"") + (ended.errors or b"nothing\n")


def come_of_told(program, case):
    with tempfile.TemporaryDirectory() as folder:
        return told(Room(program, folder, case.part(b"text")).run(case.asked().split(), case.part(b"input")))


def come_of_run(program, case):
    words = case.part(b"words")
    with tempfile.TemporaryDirectory() as folder:
        return Room(program, folder, case.part(b"text")).run(words.split(b" ") if words else [], case.asked()).whole()


# ---- stores

def digits(data):
    return b" " + (data.hex().encode() or b"-")


def lines_of(data):
    """The lines, each with its newline; of bytes, only a newline ends one."""
    return re.findall(rb"[^\n]*\n|[^\n]+", data)


class Shelf(Room):
    """A folder in which runs serve the file `p` over the store `s`."""

    def __init__(self, program, folder, case):
        super().__init__(program, folder, case.part(b"text"))
        self.words = [b"serve", *case.part(b"options").split(), b"p", b"s"]
        self.input, self.awaited, self.firsts = lines_of(case.part(b"input")), lines_of(case.part(b"output")), case.firsts
        self.ended = None

    def store(self):
        path = os.path.join(self.folder, "s")
        if not os.path.exists(path):
            return b""
        with open(path, "rb") as file:
            return file.read()

    def gate(self):
        """The offset of the gate of the first record: behind the image, and the four bytes before it tell how many it has."""
        store = self.store()
        return 17 + (int.from_bytes(store[13:17], "big") if len(store) >= 17 else 0)

    def put(self, offset, words):
        """Puts the bytes of these words into the store, from an offset on."""
        if not all(word.startswith(b"0x") for word in words.split()):
            raise Trouble("no bytes of a store")
        data = b"".join(bytes.fromhex(word[2:].decode()) for word in words.split())
        with open(os.path.join(self.folder, "s"), "ab"):
            pass
        with open(os.path.join(self.folder, "s"), "rb+") as file:
            file.seek(offset)
            file.write(data)

    def put_record(self, record):
        """Puts a record behind the image, as the only one."""
        self.put(self.gate(), b"0x" + record.hex().encode())

    def hold(self, count):
        self.put_record(questions.record_held(count))

    def fill(self, count, size):
        """A record with so many objects of the first contract, whose only field is a string of so many bytes."""
        string = b"\2" + size.to_bytes(4, "big") + size * b"a"
        self.put_record(questions.record_of([number.to_bytes(4, "big") + b"\0\0\0\0\xff\0" + string for number in range(count)], []))

    def lose(self, count):
        """A record with so many objects of the first contract, which has no field and no state; all of them are disowned."""
        self.put_record(questions.record_of([number.to_bytes(4, "big") + b"\0\0\0\0\xff\2" for number in range(count)], []))

    def serve(self, lines):
        """A run over the store, of these lines of the input: `2 to 5`, `none`, or all."""
        first, _, last = lines.partition(b" to ")
        begin, end = (0, None) if not lines else (0, 0) if lines == b"none" else (int(first) - 1, int(last))
        ended = self.ended = self.run(self.words, b"".join(self.input[begin:end]))
        awaited, written = self.awaited[(self.firsts[begin:] or [0])[0] :], lines_of(ended.output)
        if ended.output == b"".join(awaited[: len(written)]):
            return b" " + ended.end() + b", lines: %d" % len(written)
        return b" " + ended.end() + b"".join(b" " + line.rstrip(b"\n") for line in written)

    def audit(self):
        """A run that tells of the store, which stays as it is."""
        before = self.store()
        ended = self.ended = self.run([b"audit", b"p", b"s"], b"")
        remark = b"" if before == self.store() else b", the store has changed"
        return b" " + ended.end() + b" " * bool(ended.output) + b", ".join(ended.output.splitlines()) + remark

    def edit(self, old, new):
        """Puts other words into the text, in place of some that stand there."""
        path = os.path.join(self.folder, "p")
        with open(path, "rb") as file:
            text = file.read()
        if old not in text:
            raise Trouble("no such words in the text")
        self.write("p", text.replace(old, new))

    def take(self, step):
        """What a step comes to; nothing, where it says nothing."""
        word, _, rest = step.partition(b" ")
        if word == b"edit":
            old, _, new = rest.partition(b" into ")
            return self.edit(old, new)
        if word == b"hold":
            return self.hold(int(rest))
        if word == b"lose":
            return self.lose(int(rest))
        if word == b"fill":
            return self.fill(*map(int, rest.split(b" of ")))
        if word in (b"disk", b"put", b"second"):
            return self.put({b"disk": 0, b"put": self.gate(), b"second": questions.AREA}[word], rest)
        if word == b"serve":
            return word + self.serve(rest)
        if word == b"audit":
            return word + self.audit()
        if word in (b"show", b"records"):
            return word + digits(self.store()[0 if word == b"show" else self.gate():])
        if word == b"areas":
            return questions.areas_shown(self.store(), questions.AREA)
        raise Trouble("no step on a real file")


def come_of_store(program, case):
    with tempfile.TemporaryDirectory() as folder:
        shelf = Shelf(program, folder, case)
        answers = [shelf.take(step) for step in case.asked().split(b"; ")]
    return b"; ".join(answer for answer in answers if answer is not None) + b"\n"


def come_of_told_of_store(program, case):
    with tempfile.TemporaryDirectory() as folder:
        shelf = Shelf(program, folder, case)
        for step in case.asked().split(b"; "):
            shelf.take(step)
        return told(shelf.ended)


COMES = {
    b"check": come_of_check,
    b"serve": come_of_serve,
    b"explain": come_of_explain,
    b"cuts": come_of_cuts,
    b"run": come_of_run,
    b"store": come_of_store,
    b"told": come_of_told,
    b"told-of-store": come_of_told_of_store,
    b"whole": come_of_whole,
    b"fronts": come_of_fronts,
    b"code": come_of_code,
    b"compiled": come_of_compiled,
    b"calls": come_of_calls,
}


# ---- questions

@dataclass
class Asking:
    """A case that isn't answered yet: how it goes on, and the question that it asks."""
    steps: object
    question: str = ""


def go_on(how):
    """What comes of a case, or how it asks on; or why it can't be run."""
    try:
        return how()
    except subprocess.TimeoutExpired:
        return f"cut after {PATIENCE} seconds\n".encode()
    except (Trouble, ValueError, LookupError, OSError) as error:
        return f"not run: {error}\n".encode()


def asked_on(steps, answer=None):
    try:
        return Asking(steps, steps.send(answer))
    except StopIteration as end:
        return end.value


def begin(program, case):
    """What comes of a case, or how it asks the case program."""
    if case.kind in questions.KINDS:
        return go_on(lambda: asked_on(questions.KINDS[case.kind][3](case)))
    if case.kind in OF_CASE_PROGRAM:
        return go_on(lambda: asked_on(COMES[case.kind](program, case)))
    return go_on(lambda: COMES[case.kind](program, case))


def answers_to(case_program, lines):
    """An answer to each question: `!` where the case program ends before it."""
    if not lines:
        return []
    given = "".join(line + "\n" for line in lines).encode()
    try:
        ran = subprocess.run([case_program], input=given, stdout=subprocess.PIPE, timeout=PATIENCE_OF_MANY)
    except subprocess.TimeoutExpired:
        return ["!"] * len(lines)
    answers = ran.stdout.decode().split("\n")[:-1]
    return (answers + ["!"] * len(lines))[: len(lines)]


def answers_of_parts(case_program, pool, lines):
    """An answer to each question, of which each processor is asked a part."""
    count = os.cpu_count()
    parts = list(pool.map(lambda first: answers_to(case_program, lines[first::count]), range(count)))
    return [parts[at % count][at // count] for at in range(len(lines))]


def come_of_all(ask, begun):
    """What comes of cases that were begun: all their questions are asked at once, as often as they ask on."""
    come = list(begun)
    while asking := [at for at, it in enumerate(come) if isinstance(it, Asking)]:
        for at, answer in zip(asking, ask([come[at].question for at in asking])):
            steps = come[at].steps
            come[at] = go_on(lambda: asked_on(steps, answer))
    return come


# ---- reports

def marked(mark, data):
    """The bytes as lines that each begin with a mark."""
    return b"".join(mark + line for line in lines_of(data)) + (b"" if data.endswith(b"\n") or not data else b"`unended`\n")


def shortened(line):
    return line if len(line) <= MOST_BYTES else line[:MOST_BYTES] + b" ..\n"


def difference(case, came):
    """How what came differs from what was wanted: lines behind `-` were wanted, and lines behind `+` came."""
    sides = [[line.decode("utf-8", "backslashreplace") for line in lines_of(marked(b"", data))] for data in (case.wanted(), came)]
    lines = list(difflib.unified_diff(*sides, "wanted", "came", n=3))[2:]
    shown = [shortened(line.encode()) for line in lines[:MOST_LINES]]
    return b"".join(b"  " + line for line in shown) + (b"  ..\n" if len(lines) > MOST_LINES else b"")


def report(sheet, cases, come):
    """Says of a sheet how many cases agree, and shows the others, and how many weren't asked. Returns how many agree, and how many were asked."""
    out = sys.stdout.buffer
    agreeing = asked = 0
    for case, came in zip(cases, come):
        asked += came is not None
        if came == case.wanted():
            agreeing += 1
        elif came is not None:
            out.write(sheet.encode() + b":" + case.title + b"\n" + (b"  row " + shortened(case.row + b"\n") if case.row else b""))
            out.write(difference(case, came))
    left = f", {len(cases) - asked} not asked" if asked < len(cases) else ""
    out.write(f"{sheet}: {agreeing} of {asked} cases agree{left}\n".encode())
    out.flush()
    return agreeing, asked


def sums(reports):
    """Says of all sheets how many cases agree. Returns whether all do that were asked."""
    agreeing, asked = (sum(numbers) for numbers in zip(*reports))
    print(f"{agreeing} of {asked} cases agree")
    return agreeing == asked


def compare(program, case_program, names):
    """Runs the sheets that are named, and says of each how many cases agree. Returns whether all do."""
    sheets, reports = chosen(names), []
    with ThreadPoolExecutor(os.cpu_count()) as pool, ThreadPoolExecutor(os.cpu_count()) as asking:
        begun = [(sheet, cases, [pool.submit(begin, program, case) for case in cases]) for sheet, cases in sheets]
        for sheet, cases, futures in begun:
            ask = lambda lines: answers_of_parts(case_program, asking, lines)
            reports.append(report(sheet, cases, come_of_all(ask, [future.result() for future in futures])))
    return sums(reports)


def answer(program, case_program):
    """Writes what comes of each case of the sheet on standard input."""
    cases = Sheet(sys.stdin.buffer.read(), compares=False).cases
    with ThreadPoolExecutor(os.cpu_count()) as pool:
        begun = list(pool.map(lambda case: begin(program, case), cases))
        ask = lambda lines: answers_of_parts(case_program, pool, lines)
        for case, came in zip(cases, come_of_all(ask, begun)):
            sys.stdout.buffer.write(b"= " + case.title + b"\n" + marked(b"| ", came))
    return True
