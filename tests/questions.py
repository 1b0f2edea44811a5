"""What the case program is asked, and how its answers are told. tests/cases/README.md says which questions there are, and what
cases of each kind expect. Each kind is a generator: it is handed what a case asks, yields questions, and returns the answer as cases have it.
"""
import json
import re

import images

# The room of an output, and the size of an area, where none is named.
AMPLE = 1 << 30
AREA = 1 << 26
NEWLINE = b"\n"
# How many calls fail, where all from one on do: more than a run of a case has.
LATER = 100
# How many units of fuel a run of code has that doesn't say it, and a request.
FUEL, FUEL_OF_REQUESTS = 1000, 100_000
# The options of a command line, and what each is where it isn't there.
LIMITS = {b"--fuel": FUEL_OF_REQUESTS, b"--lanes": 1, b"--slice": 1000}
NO_STATE, OTHER_STATE, BITS = 32, 33, 34


class Unasked(ValueError):
    """Why a case can't be asked."""


def told(data):
    """Bytes as a word of a question."""
    return data.hex() or "-"


class Answer:
    """The words of an answer, which are read one after another."""

    def __init__(self, line):
        if line == "!":
            raise Unasked("the case program has no answer")
        self.words, self.at = line.split(), 0

    def word(self):
        self.at += 1
        if self.at > len(self.words):
            raise Unasked("the answer is cut")
        return self.words[self.at - 1]

    def next_is(self, word):
        """Whether the next word is this one, which is read then."""
        is_next = self.at < len(self.words) and self.words[self.at] == word
        self.at += is_next
        return is_next

    def is_read(self):
        return self.at == len(self.words)

    def number(self):
        return int(self.word())

    def bytes(self):
        word = self.word()
        return b"" if word == "-" else bytes.fromhex(word)

    def text(self):
        return self.bytes().decode()

    def place(self):
        return f"{self.number()}:{self.number()}"

    def end(self, answer):
        """The answer, once all words are read."""
        if not self.is_read():
            raise Unasked(f"words are left: {' '.join(self.words[self.at:])[:200]}")
        return answer

    def fault(self):
        """The line of a fault, if it is one."""
        if not self.next_is("fault"):
            return None
        place = self.place()
        return self.end(f"{place}: {self.number()} {self.word()}\n".encode())


def quoted(text):
    """A text in quotes, with escapes in place of what can't be printed."""
    names = {"\0": "\\0", "\t": "\\t", "\n": "\\n", "\r": "\\r", '"': '\\"', "\\": "\\\\"}
    return '"' + "".join(names.get(it) or (it if it.isprintable() else f"\\u{{{ord(it):x}}}") for it in text) + '"'


# ---- texts

def tokens(case):
    answer = Answer((yield f"tokens {told(case.asked())}"))
    fault = answer.fault()
    if fault:
        return fault
    parts = []
    while True:
        stretch = f"{answer.place()} {answer.number()}..{answer.number()}"
        if answer.is_read():
            return "; ".join([*parts, stretch + " end\n"]).encode()
        kind = answer.word()
        value = quoted(answer.text()) if kind == "Text" else answer.text() if kind == "Name" else answer.word()
        parts.append(f"{stretch} {kind} {value}")


def layout_of(text):
    answer = Answer((yield f"layout {told(text)}"))
    fault = answer.fault()
    return fault or answer.end(answer.bytes())


def layout(case):
    return (yield from layout_of(case.asked()))


def again(case):
    once = yield from layout_of(case.asked())
    twice = yield from layout_of(once)
    return b"the same\n" if once == twice else twice


def tree(case):
    line = yield f"tree {told(case.part(b'text'))}"
    fault = Answer(line).fault()
    shown = line.removeprefix(" ").encode()
    return fault or (b"shown" if case.asked() and case.asked() in shown else shown) + b"\n"


# ---- class tables

def states(bits, count=BITS):
    """A set of states: the bits of the first ones, so many, and that of no state."""
    names = {NO_STATE: "none", OTHER_STATE: "other"}
    shown = [names.get(bit, str(bit)) for bit in range(BITS) if bits >> bit & 1 and (bit < count or bit == NO_STATE)]
    return "{" + ",".join(shown) + "}"


def perm(answer):
    mode, bits = answer.word(), answer.number()
    return mode + (states(bits) if mode == "Owned" else "")


def kind(answer, has_perm=True):
    of = answer.word()
    if of != "Reference":
        return of
    return f"Reference {answer.number()}" + (" " + perm(answer) if has_perm else "")


def many(answer, part):
    return [part(answer) for _ in range(answer.number())]


class Tables:
    """Tells a class table, or terms, line by line from an answer."""

    def __init__(self, answer):
        self.answer, self.lines, self.level = answer, [], 0

    def line(self, *parts):
        self.lines.append("  " * self.level + " ".join(str(part) for part in parts))

    def under(self, *parts):
        """What these functions tell stands one level deeper."""
        self.level += 1
        for part in parts:
            part()
        self.level -= 1

    def times(self, part):
        for _ in range(self.answer.number()):
            part()

    def name(self):
        return self.answer.text() or "-"

    def seen(self):
        what = self.answer.word()
        if what != "this":
            what += self.answer.word()
        return f"{what}@{self.answer.place()}"

    # class tables

    def states(self):
        names = many(self.answer, lambda answer: answer.text())
        for number, name in enumerate(names):
            self.line("state", number, name)
        return len(names)

    def fields(self, count):
        for number in range(self.answer.number()):
            name, of = self.name(), kind(self.answer)
            self.line("field", number, name, of, "available", states(self.answer.number(), count))

    def param(self, number):
        name, of, exit = self.name(), kind(self.answer), perm(self.answer)
        self.line("param", number, name, of, "exit", exit if of.startswith("Reference") else "-")

    def listed(self):
        self.line("listed", self.answer.number(), "entry", perm(self.answer), "exit", perm(self.answer))

    def signature(self, number, is_constructor):
        answer = self.answer
        name, private, entry, exit = self.name(), answer.word(), perm(answer), perm(answer)
        result = kind(answer)
        self.line("transaction", number, name, "private", private, "entry", "-" if is_constructor else entry, "exit", exit, "result", result)
        self.under(lambda: [self.param(at + 1) for at in range(answer.number())], lambda: self.times(self.listed))

    def members(self, constructor):
        self.fields(self.states())
        for number in range(self.answer.number()):
            self.signature(number, str(number) == constructor)

    def contract(self, number):
        answer = self.answer
        name, asset, main, interface, implements, constructor = self.name(), *[answer.word() for _ in range(5)]
        marks = ("asset", asset, "main", main, "interface", interface)
        self.line("contract", number, name, *marks, "implements", implements, "constructor", constructor)
        self.under(lambda: self.members(constructor))

    def expr(self):
        answer = self.answer
        word = answer.word()
        at = f"{word}@{answer.place()}"
        if word in ("Number", "Bool"):
            return self.line(at, answer.word())
        if word == "Text":
            return self.line(at, answer.bytes().hex() or "-")
        if word == "Seen":
            return self.line(at, self.seen())
        if word in ("Unary", "Binary"):
            self.line(at, f"{answer.word()}@{answer.place()}")
            return self.under(*[self.expr] * (1 if word == "Unary" else 2))
        if word == "New":
            self.line(at, "contract", answer.number())
        elif word == "Call":
            receiver = "none" if answer.next_is("none") else self.seen()
            contract, tx = answer.number(), answer.number()
            self.line(at, "receiver", receiver, "contract", contract, f"t{tx}@{answer.place()}")
        else:
            raise Unasked(f"no expression: {word}")
        return self.under(lambda: self.times(self.expr))

    def value(self):
        if not self.answer.next_is("none"):
            self.under(self.expr)

    def given(self):
        field = self.answer.number()
        self.line(f"Given@{self.answer.place()} f{field}")
        self.value()

    def block(self, word):
        self.line(word, "end", self.answer.place())
        self.under(lambda: self.times(self.statement))

    def otherwise(self):
        if self.answer.next_is("otherwise"):
            self.block("otherwise")
        elif not self.answer.next_is("none"):
            raise Unasked("no other branch")

    def branches(self):
        self.under(lambda: self.block("then"), self.otherwise)

    def statement(self):
        answer = self.answer
        word = answer.word()
        at = f"{word}@{answer.place()}"
        if word == "Declare":
            local, place = answer.number(), answer.place()
            self.line(at, f"l{local}@{place}", kind(answer, has_perm=False))
            self.value()
        elif word == "Assign":
            self.line(at, self.seen())
            self.value()
        elif word in ("Stage", "Change"):
            self.line(at, "state", answer.number())
            self.under(lambda: self.times(self.given))
        elif word in ("Call", "Return", "Revert"):
            self.line(at)
            self.value()
        elif word == "Test":
            self.line(at, self.seen(), "state", answer.number())
            self.branches()
        elif word == "If":
            self.line(at)
            self.value()
            self.branches()
        elif word == "While":
            self.line(at)
            self.value()
            self.under(lambda: self.block("body"))
        elif word == "Disown":
            self.line(at, self.seen())
        elif word == "Assert":
            self.line(at, self.seen(), perm(answer))
        else:
            raise Unasked(f"no statement: {word}")

    def body(self):
        answer = self.answer
        self.line("body", answer.number(), answer.number(), "end", answer.place())
        self.under(lambda: self.times(self.statement))

    def table(self):
        for number in range(self.answer.number()):
            self.contract(number)
        self.times(self.body)

    # terms

    def named(self):
        what = self.answer.word()
        return what if what == "this" else what + self.answer.word()

    def operand(self):
        what = self.named()
        return f"{what}@{self.answer.place()}"

    def slot(self):
        word = self.answer.word()
        return word if word == "none" else "s" + word

    def operands(self):
        return ["args", *[self.operand() for _ in range(self.answer.number())]]

    def given_fields(self):
        for _ in range(self.answer.number()):
            field = self.answer.number()
            yield f"f{field}@{self.answer.place()}"
            yield self.operand()

    def parts(self, word):
        """What stands behind the word and the place of a term."""
        answer = self.answer
        if word == "Const":
            slot, of = self.slot(), answer.word()
            return [slot, of, answer.bytes().hex() or "-" if of == "Text" else answer.word()]
        if word == "Op":
            return [self.slot(), answer.word(), self.operand(), self.operand(), "line", answer.number()]
        if word == "Copy":
            return [self.named(), self.operand()]
        if word == "Move":
            return [self.named(), self.operand(), "contract", answer.word()]
        if word == "New":
            return [self.slot(), "contract", answer.number(), *self.operands()]
        if word == "Call":
            return [self.slot(), "receiver", self.operand(), "contract", answer.number(), f"t{answer.number()}", *self.operands()]
        if word == "CallThis":
            return [self.slot(), f"t{answer.number()}", *self.operands()]
        if word == "Change":
            return ["state", answer.number(), "given", *self.given_fields()]
        if word == "Test":
            return [self.operand(), "state", answer.number(), f"join@{answer.place()}"]
        if word == "If":
            return [self.operand(), f"join@{answer.place()}"]
        if word == "Loop":
            return [self.operand(), "end", answer.place()]
        if word == "Assert":
            return [self.operand(), perm(answer)]
        if word in ("Disown", "Revert"):
            return [self.operand()]
        if word == "Return":
            return ["none" if answer.next_is("none") else self.operand()]
        if word == "Drop":
            return [self.slot()]
        if word in ("Unit", "BadRow"):
            return []
        raise Unasked(f"no term: {word}")

    def branch(self, word):
        self.line(word)
        self.under(lambda: self.times(self.term))

    def term(self):
        word = self.answer.word()
        place = self.answer.place()
        self.line(f"{word}@{place}", *self.parts(word))
        if word in ("Test", "If"):
            self.under(lambda: self.branch("then"), lambda: self.branch("otherwise"))
        elif word == "Loop":
            self.under(lambda: self.branch("first"), lambda: self.branch("body"))

    def terms_of_body(self):
        answer = self.answer
        self.line("body", answer.number(), answer.number(), "slots", answer.number(), "end", answer.place())
        self.under(lambda: self.times(self.term))

    def told(self, part):
        part(self)
        return self.answer.end("".join(line + "\n" for line in self.lines).encode())


def table(case):
    answer = Answer((yield f"table {told(case.asked())}"))
    return answer.fault() or Tables(answer).told(Tables.table)


def terms(case):
    answer = Answer((yield f"terms {told(case.asked())}"))
    return answer.fault() or Tables(answer).told(lambda tables: tables.times(tables.terms_of_body))


# ---- code and its runs

def verdict(answer):
    """What the verifier says of code, or where its bytes are no image's; `None` where runs are told."""
    if answer.next_is("verified"):
        return b"verified"
    if answer.next_is("bad"):
        return f"BadImage {answer.number()}".encode()
    if answer.next_is("fault"):
        return f"{answer.number()} {answer.word()} {answer.number()}:{answer.number()}".encode()
    return None


def image(case):
    data = images.bytes_of_words(case.asked())
    answer = Answer((yield f"image {told(data)}"))
    bad = verdict(answer)
    if bad:
        return answer.end(bad + b"\n")
    is_same = answer.bytes() == data
    return answer.end(verdict(answer) + (b"\n" if is_same else b", encoded as others\n"))


def encoded(case):
    answer = Answer((yield f"image {told(images.bytes_of_words(case.asked()))}"))
    return (verdict(answer) or answer.bytes().hex().encode()) + b"\n"


def value_told(word):
    """A value, as questions tell it."""
    if word in ("true", "false"):
        return "b1" if word == "true" else "b0"
    if re.fullmatch(r"i-?\d+|o\d+", word):
        return word
    if len(word) > 1 and word.startswith('"') and word.endswith('"'):
        return "x" + told(word[1:-1].encode())
    raise Unasked(f"no value: {word}")


def object_told(words):
    """An object, as questions tell it."""
    parts, words = [], iter(words)
    for word in words:
        found = re.fullmatch(r"(c|state|f)(\d+)", word)
        if found and found[1] == "f":
            parts.append(f"f{found[2]}={value_told(next(words, ''))}")
        elif found:
            parts.append({"c": "c", "state": "q"}[found[1]] + found[2])
        elif word in ("shared", "disowned"):
            parts.append(word[0])
        else:
            raise Unasked(f"no part of an object: {word}")
    return " ".join(parts)


def run_told(words):
    """A run, as questions tell it."""
    marks = {"on": "r", "c": "c", "t": "t", "fuel": "u", "slice": "z"}
    parts, units = [], {"u": FUEL, "z": None}
    for word in words:
        found = re.fullmatch(r"(on|c|t|fuel|slice)(\d+)", word)
        if found and marks[found[1]] in units:
            units[marks[found[1]]] = int(found[2])
        elif found:
            parts.append(marks[found[1]] + found[2])
        else:
            parts.append("l" if word == "locked" else value_told(word))
    slice_units = units["u"] if units["z"] is None else units["z"]
    return " ".join([*parts, f"u{units['u']}", f"z{slice_units}"])


def value_shown(answer):
    of = answer.word()
    if of == "Text":
        return quoted(answer.text())
    return {"Int": "i", "Object": "o", "Bool": ""}[of] + answer.word()


def progress_shown(answer):
    how = answer.word()
    if how == "gives":
        return f"ended {value_shown(answer)}"
    if how == "revert":
        return f"revert {quoted(answer.text())}"
    if how == "state":
        number, state = answer.number(), answer.word()
        return f"state o{number}" + ("" if state == "none" else f" state{state}")
    if how == "reentry":
        return f"reentry o{answer.number()}"
    if how == "overflow":
        return f"overflow line{answer.number()}"
    return {"stuck": "no step"}.get(how, how)


def object_shown(answer):
    number, contract, state, shared, disowned = (answer.word() for _ in range(5))
    fields = many(answer, lambda answer: f"f{answer.number()} {value_shown(answer)}")
    marks = [f"state{state}" * (state != "none"), "shared" * (shared == "true"), "disowned" * (disowned == "true")]
    return " ".join([f"o{number} is c{contract}", *filter(None, marks), *fields])


def run_shown(answer):
    how = progress_shown(answer)
    parts = [how, f"units {answer.number()}"]
    slices = answer.number()
    if slices > 1:
        parts.append(f"slices {slices}")
    reads = [f"o{number}" for number in sorted(many(answer, Answer.number))]
    if answer.word() == "true":
        reads.append("next")
    if reads:
        parts.append("reads " + " ".join(reads))
    if how.startswith("ended"):
        parts += many(answer, object_shown)
    return "; ".join(parts)


def runs_of(data, objects, runs):
    """What runs of the code of an image come to, on objects."""
    on = ";".join(object_told(item.split()) for item in objects.decode().split(";") if item.split())
    each = [[]]
    for word in runs.decode().split():
        if word == "then":
            each.append([])
        else:
            each[-1].append(word)
    answer = Answer((yield f"runs {told(data)} {' | '.join([on, *map(run_told, each)])}"))
    said = verdict(answer)
    if said:
        return answer.end(said + b"\n")
    return answer.end((" then ".join([run_shown(answer) for _ in each]) + "\n").encode())


def steps(case):
    return (yield from runs_of(images.bytes_of_words(case.asked()), case.part(b"objects"), case.part(b"runs")))


def entries(case):
    return (yield from runs_of(images.bytes_of_words(case.part(b"text")), case.part(b"objects"), case.asked()))


# ---- disks

def asked_steps(steps):
    """The answers to steps on a disk, each as its words, from the steps as questions."""
    line = yield f"desk {';'.join(steps)}"
    answers = [Answer(answer) for answer in line.removesuffix(";").split(" ;")] if line != "!" else [Answer(line)]
    return answers[: len(steps)]


def journal_shown(answer):
    """What a journal says; or the word that stands in its place."""
    if not answer.next_is("serial"):
        return " ".join({"none": "no journal"}.get(word, word) for word in answer.words)
    parts = [f"serial {answer.number()} image {answer.word()} gate {answer.number()}"]
    while not answer.is_read():
        parts.append(f"payload {answer.word()}")
    return " ".join(parts)


def disk(case):
    fails, asked, words = [], [f"area {AREA}"], [None]
    for step in case.asked().decode().split("; "):
        word, _, rest = step.partition(" ")
        data = told(images.bytes_of_words(rest.encode())) if word in ("disk", "begin", "append", "move") else ""
        if word == "fails":
            # The disk's bytes are put there by a call before the others.
            fails.append(str(int(rest) + 1))
        elif word == "disk":
            asked += [f"clear {','.join(fails) or '-'}", f"write 0 {data}"]
            words += [None, None]
        elif word in ("area", "stop"):
            asked.append(f"{word} {int(rest)}")
            words.append(None)
        elif word in ("find", "begin", "append", "move", "show", "faults"):
            asked.append(f"{word} {data}".strip())
            words.append(word)
        else:
            raise Unasked(f"no step on a disk: {word}")
    answers = yield from asked_steps(asked)
    return "; ".join(f"{word} {journal_shown(answer)}" for word, answer in zip(words, answers) if word).encode() + b"\n"


# ---- a file of a script as a disk

# What names mean where a case doesn't tell it: the disk `s` and its number in /proc, the streams, and the other file of the run.
MEANT = {"s": "1.7", "/proc/self/fd/3": "1.7", "/proc/self/fd/0": "2.0", "/proc/self/fd/1": "2.1", "/proc/self/fd/2": "2.2", "p": "1.8"}
# How many words stand behind the name of a call.
WORDS_OF_CALLS = {"kind_of": 2, "open": 2, "kind": 1, "descriptor": 1, "lock": 0, "sync_folder": 1, "len": 1, "read_at": 2, "write_at": 2, "sync": 0}


class Script:
    """What the file answers to calls, which names mean which file, and which steps are taken."""

    def __init__(self, text):
        self.access, self.other, self.bytes, self.calls, self.means, self.steps = "both", "p", b"", {}, dict(MEANT), []
        for step in text.split("; "):
            self.take(*two(step))

    def take(self, word, rest):
        if word in ("reading", "both"):
            self.access = word
        elif word == "other":
            self.other = rest
        elif word == "bytes":
            self.bytes = images.bytes_of_words(rest.encode())
        elif word == "call":
            number, told_of = two(rest)
            self.calls[int(number)] = told_of.removeprefix("fails ").removeprefix("says ")
        elif word == "means":
            name, file = two(rest)
            self.means[name] = file
        elif word == "attached":
            self.steps.append((word, "attach s"))
        elif word == "write":
            offset, words = two(rest)
            self.steps.append((word, f"write {int(offset)} {told(images.bytes_of_words(words.encode()))}"))
        elif word in ("attach", "len", "read", "sync", "show"):
            self.steps.append((word, f"{word} {rest}".strip()))
        else:
            raise Unasked(f"no step on a file: {word}")

    def question(self):
        calls = ",".join(self.calls.get(number, "-") for number in range(max(self.calls, default=0) + 1))
        means = ",".join(f"{name}={file}" for name, file in self.means.items())
        return f"file {self.access} {self.other} {calls} {means} {told(self.bytes)} {';'.join(step for _, step in self.steps)}"


def identity_shown(answer):
    return "none" if answer.next_is("none") else f"{answer.number()}.{answer.number()}"


def call_shown(answer):
    word = answer.word()
    if word == "identity":
        return f"identity {identity_shown(answer)}"
    if word == "identity_of":
        return f"identity_of {answer.word()} {identity_shown(answer)}"
    return " ".join([word, *(answer.word() for _ in range(WORDS_OF_CALLS[word]))])


def file_step_shown(word, answer):
    """How a step ended, the calls that it made, and how many more of them failed."""
    ended = []
    while not answer.next_is(":"):
        ended.append(answer.word())
    asked, calls = answer.number(), []
    while not answer.is_read():
        calls.append(call_shown(answer))
    if asked != len(calls):
        calls.append(f"{asked - len(calls)} failed")
    if word == "attached" and ended == ["done"]:
        return None
    return " ".join(["attach" if word == "attached" else word, *ended]) + (": " + ", ".join(calls) if calls else "")


def file(case):
    script = Script(case.asked().decode())
    line = yield script.question()
    answers = [Answer(answer) for answer in line.removesuffix(" ;").split(" ;")]
    shown = [file_step_shown(word, answer) for (word, _), answer in zip(script.steps, answers, strict=True)]
    return "; ".join(filter(None, shown)).encode() + b"\n"


# ---- runs over an outside that fails

class Outside:
    """What the outside of a run does: `files 0`, `input 1`, `output from 2`, `room 8`, `sure`, with `, ` between."""

    def __init__(self, text=b""):
        self.is_sure, self.room, self.calls = False, AMPLE, {"files": [], "input": [], "output": []}
        for part in filter(None, text.decode().split(", ")):
            word, _, rest = part.partition(" ")
            if word == "sure":
                self.is_sure = True
            elif word == "room":
                self.room = int(rest)
            elif word in self.calls:
                first, count = int(rest.removeprefix("from ")), LATER if rest.startswith("from ") else 1
                self.calls[word] += range(first, first + count)
            else:
                raise Unasked(f"no such outside: {part}")

    def numbers(self):
        return " ".join(",".join(map(str, calls)) or "-" for calls in self.calls.values())


class Options:
    """The options of a command line: `--fuel 6 --lanes 2 --slice 10`."""

    def __init__(self, case):
        self.words = case.part(b"options").split()
        self.given = dict(zip(self.words[::2], self.words[1::2]))

    def lanes(self):
        return int(self.given.get(b"--lanes", LIMITS[b"--lanes"]))

    def numbers(self):
        """The units of fuel of a request, how many lanes there are, and the units of a slice."""
        return " ".join(str(int(self.given.get(word, default))) for word, default in LIMITS.items())


class Ended:
    """How a run ended, and what it left."""

    def __init__(self, answer, given, words, is_sure, of_disk=0):
        self.status, self.name = answer.number(), answer.word()
        self.output = None if answer.next_is("untold") else answer.bytes()
        self.faults = of_disk + (0 if is_sure else sum(answer.number() for _ in range(3)))
        left = answer.word()
        self.left = None if left == "none" else int(left)
        self.length, self.serves = len(given), b"serve" in words
        answer.end(None)

    def is_well(self):
        """Whether as many calls failed as the end says, and as many bytes of the input are left."""
        faults = self.name in ("FileFault", "ReadFault", "WriteFault", "DiskFault")
        unread = {"Done": 0 if self.serves else self.length}.get(self.name)
        if self.name in ("Refused", "StoreRefused", "Usage", "FileFault"):
            unread = self.length
        return self.faults == faults and (unread is None or self.left is None or self.left == unread)

    def end(self):
        remark = "" if self.is_well() else f", calls that failed: {self.faults}, bytes that weren't read: {self.left or 0}"
        return f"{self.status} {self.name}{remark}".encode()

    def first_lines(self, whole):
        """How many lines were written, where they are the first ones of these."""
        output = self.output or b""
        is_cut = output and not output.endswith(b"\n")
        return None if is_cut or not whole.startswith(output) else output.count(b"\n")


def handed(words, text, given):
    line = b"".join(b"|" + word for word in words)
    return f"{told(line)} {told(text)} {told(given)}"


def words_of(case):
    return case.part(b"words").split(b" ") if case.part(b"words") else []


def ended_sure(case, given, room):
    words = words_of(case)
    answer = Answer((yield f"sure {handed(words, case.part(b'text'), given)} {room}"))
    return Ended(answer, given, words, is_sure=True)


def ended_of(case, given, outside):
    """How the run of a case ends over an input, where the outside does this, and the disk has no byte and doesn't fail."""
    if outside.is_sure:
        return (yield from ended_sure(case, given, outside.room))
    words = words_of(case)
    run = f"run {handed(words, case.part(b'text'), given)} {outside.numbers()} {outside.room}"
    answer, faults = yield from asked_steps([run, "faults"])
    return Ended(answer, given, words, is_sure=False, of_disk=faults.number())


def run_given(case):
    ended = yield from ended_of(case, case.asked(), Outside(case.part(b"given")))
    return ended.end() + b"\n" + (b"untold\n" if ended.output is None else ended.output)


def outside(case):
    given = case.part(b"input")
    ended = yield from ended_of(case, given, Outside(case.asked()))
    whole = yield from ended_sure(case, given, AMPLE)
    if ended.output is None or whole.output is None:
        return ended.end() + b", untold\n"
    count = ended.first_lines(whole.output)
    return ended.end() + (b", other lines\n" if count is None else b", lines: %d\n" % count)


def lines_of(data):
    return re.findall(rb"[^\n]*\n|[^\n]+", data)


def record_of(objects, handles):
    """A record of these objects and handles, with a closed gate behind it."""
    parts = [b"".join([len(part).to_bytes(4, "big"), *part]) for part in (objects, handles)]
    payload = b"".join(parts)
    return b"\1" + len(payload).to_bytes(4, "big") + payload + b"\0"


def record_held(count):
    """A record with one object of the first contract, which is disowned, and so many Unowned handles on it."""
    of_a = b"\0\0\0\1a\0\0\0\6"
    return record_of([bytes(8) + b"\xff\2"], [of_a + b"h%05d" % number + b"\1\0\0\0\0\2" for number in range(count)])


def lines_shown(output, count):
    """How many of the awaited lines were written, or the lines themselves."""
    return b", lines: %d" % count if count is not None else b"".join(b" " + line for line in output.splitlines())


# How an opening ends that finds no store, by its number.
UNOPENED = {"NotStore": 611, "Damaged": 612, "Room": 613, "OtherProgram": 615, "NotAtRest": 601}


def served_shown(answer, awaited, faults):
    """How lines were served over a store in areas of some size, or why none was opened."""
    word = answer.word()
    if word in UNOPENED:
        line = " ".join([f"serve 6 StoreRefused store: {UNOPENED[word]} {word}", *answer.words[answer.at:]])
        return f"{line}, calls that failed: {faults}".encode() if faults else line.encode()
    output, number = answer.end(answer.bytes()), {"Done": 0, "DiskFault": 5}[word]
    remark = "" if faults == (number == 5) else f", calls that failed: {faults}"
    return f"serve {number} {word}{remark}".encode() + lines_shown(output, output.count(b"\n") if awaited.startswith(output) else None)


def audit_shown(ended, is_kept):
    """How an audit ended, and its lines."""
    remark = b"" if is_kept else b", the store has changed"
    return b"audit " + ended.end() + b" " * bool(ended.output) + b", ".join(ended.output.splitlines()) + remark


class Shelf:
    """A case's program and lines, and the steps of its runs over one disk, each as a question and with how its answer is told."""

    def __init__(self, case):
        self.case, self.input, self.awaited = case, lines_of(case.part(b"input")), lines_of(case.part(b"output"))
        self.options = Options(case)
        self.fails, self.given, self.steps, self.faults, self.size = [], Outside(), [], 0, None

    def add(self, question, shown=None):
        self.steps.append((question, shown))

    def serve(self, lines):
        first, _, last = lines.partition(" to ")
        begin, end = (0, None) if not lines else (0, 0) if lines == "none" else (int(first) - 1, int(last))
        given, awaited = b"".join(self.input[begin:end]), b"".join(self.awaited[(self.case.firsts[begin:] or [0])[0] :])
        # The faults of the disk are those of all runs: what this one adds to them is its own.
        self.add("faults", lambda answer: setattr(self, "faults", answer.number()))
        if self.size:
            self.serve_in_areas(given, awaited)
        else:
            told_of = lambda ended: b"serve " + ended.end() + lines_shown(ended.output, ended.first_lines(awaited))
            self.run_words([b"serve", *self.options.words, b"p", b"s"], given, told_of)

    def serve_in_areas(self, given, awaited):
        """Only opens the store and serves the lines, in areas of the size that was told."""
        asked = f"serve {told(self.case.part(b'text'))} {self.options.numbers()} {told(given)}"
        self.add(asked, lambda answer: setattr(self, "run", answer))
        self.add("faults", lambda answer: served_shown(self.run, awaited, answer.number() - self.faults))

    def run_words(self, words, given, told):
        run, self.given = f"run {handed(words, self.case.part(b'text'), given)} {self.given.numbers()} {self.given.room}", Outside()
        self.add(run, lambda answer: setattr(self, "run", answer))
        self.add("faults", lambda answer: told(Ended(self.run, given, words, False, answer.number() - self.faults)))

    def audit(self):
        """A run that tells of the store, and leaves the bytes of the disk as they are."""
        if self.size:
            raise Unasked("an audit has areas of 64 MiB")
        self.add("faults", lambda answer: setattr(self, "faults", answer.number()))
        self.add("show", lambda answer: setattr(self, "before", answer.word()))
        self.run_words([b"audit", *self.options.words, b"p", b"s"], b"", lambda ended: setattr(self, "audited", ended))
        self.add("show", lambda answer: audit_shown(self.audited, answer.word() == self.before))

    def take(self, step):
        word, _, rest = step.partition(" ")
        if word == "fails":
            self.fails.append(str(int(rest)))
            self.add(f"clear {','.join(self.fails)}")
        elif word == "disk":
            self.add(f"write 0 {told(images.bytes_of_words(rest.encode()))}")
        elif word == "stop":
            self.add(f"stop {int(rest)}")
        elif word == "area":
            self.size = int(rest)
            self.add(f"area {self.size}")
        elif word == "given":
            self.given = Outside(rest.encode())
        elif word == "serve":
            self.serve(rest)
        elif word == "audit":
            self.audit()
        elif word == "show":
            self.add("show", lambda answer: b"show " + told(answer.bytes()).encode())
        elif word == "records":
            self.add("show", lambda answer: b"records " + told(records_in(answer.bytes())).encode())
        elif word == "areas":
            self.add("show", lambda answer, size=self.size: areas_shown(answer.bytes(), size))
        else:
            raise Unasked(f"no step on a store: {word}")


def records_in(store):
    """The bytes from the gate of the first record on: it stands behind the image, and the four bytes before that tell how many it has."""
    return store[17 + int.from_bytes(store[13:17], "big"):]


def area_shown(area):
    """What an area says of itself: its serial, where the gate behind its records is, and how many those are."""
    if len(area) < 2 or area[0] == 0:
        return "closed"
    gate, count = 17 + int.from_bytes(area[13:17], "big"), 0
    if area[1:5] != b"OBSA" or gate >= len(area):
        return "no store"
    while gate < len(area) and area[gate]:
        gate, count = gate + 5 + int.from_bytes(area[gate + 1:gate + 5], "big"), count + 1
    return f"serial {int.from_bytes(area[5:13], 'big', signed=True)} gate {gate} records {count}" if gate < len(area) else "damaged"


def areas_shown(store, size):
    """What each of the two areas of a disk says of itself."""
    return f"areas {area_shown(store[:size])} and {area_shown(store[size:2 * size])}".encode()


def memory_store(case):
    shelf = Shelf(case)
    for step in case.asked().decode().split("; "):
        shelf.take(step)
    answers = yield from asked_steps([question for question, _ in shelf.steps])
    shown = [how(answer) for (_, how), answer in zip(shelf.steps, answers) if how]
    return b"; ".join(part for part in shown if part is not None) + b"\n"


def area(case):
    size, _, lines = case.asked().partition(b"\n")
    _, answer = yield from asked_steps([f"area {int(size)}", f"serve {told(case.part(b'text'))} {Options(case).numbers()} {told(lines)}"])
    if answer.next_is("Room"):
        return f"needs {answer.number()}\n".encode()
    if not answer.next_is("Done"):
        raise Unasked(f"not served: {' '.join(answer.words)}")
    return answer.end(answer.bytes())


# ---- stores with a byte that is another one

def ranges(numbers):
    """Ascending numbers, those that follow one another as `5 to 12`."""
    found = []
    for number in numbers:
        if found and found[-1][1] == number - 1:
            found[-1][1] = number
        else:
            found.append([number, number])
    return ", ".join(str(first) if first == last else f"{first} to {last}" for first, last in found)


def opened_shown(answer):
    """What requests are answered on a store, or why it is refused."""
    word = answer.word()
    if word in UNOPENED:
        return " ".join([f"{UNOPENED[word]} {word}", *answer.words[answer.at:]])
    if word != "Done":
        raise Unasked(f"not served: {word}")
    return " ".join(answer.bytes().decode().splitlines())


def spoiled(case):
    """What a store is opened as where one of its bytes is this one, for each of its bytes."""
    area, served = f"area {int(case.part(b'size'))}", f"serve {told(case.part(b'text'))} {Options(case).numbers()}"
    _, _, shown = yield from asked_steps([area, f"{served} {told(case.part(b'input'))}", "show"])
    store, value, asked = shown.bytes(), int(case.asked()), f"{served} {told(case.part(b'ask'))}"
    steps = [area, f"write 0 {told(store)}"]
    for at, byte in enumerate(store):
        steps += [f"write {at} {value:02x}", asked, f"write {at} {byte:02x}"]
    found = {}
    for at, answer in enumerate((yield from asked_steps(steps))[3::3]):
        found.setdefault(opened_shown(answer), []).append(at)
    return ("; ".join(f"{ranges(at)}: {told_of}" for told_of, at in found.items()) + "\n").encode()


# ---- requests run in slices

# How a request is run: at once, and in slices of so many units.
WAYS = ("at once", "in slices of 1", "in slices of 2", "in slices of 3", "in slices of 1000")


def item_order(item):
    """Objects by number, the next number, handles by client and name, and whether the handles are full."""
    return ("object", "next", "handle", "full").index(item[0]), item[1:]


def item_read(answer):
    word = answer.word()
    return (word, answer.number()) if word == "object" else (word, answer.bytes(), answer.bytes()) if word == "handle" else (word,)


def item_shown(item):
    if item[0] == "handle":
        return b".".join(item[1:]).decode()
    return f"o{item[1]}" if item[0] == "object" else item[0]


def handle_shown(answer):
    """A handle that differs: on which object it is, and how it holds that; or that it is none."""
    name, mode = f"{answer.text()}.{answer.text()}", answer.word()
    return f"{name} is {mode}" + ("" if mode == "none" else f" o{answer.number()}")


def request_run(answer):
    """What a request comes to: its reply, the units that it takes, the items that it reads, and what differs in the store."""
    units, items = answer.number(), {item_read(answer) for _ in range(answer.number())}
    reads = " ".join(["reads", *map(item_shown, sorted(items, key=item_order))])
    parts = [answer.text().rstrip("\n"), f"units {units}", *([reads] if items else []), *many(answer, object_shown), *many(answer, handle_shown)]
    return "; ".join(parts)


def ways_shown(answer):
    """What a request comes to; and each way of running it that comes to something else."""
    each = [request_run(answer) for _ in WAYS]
    others = [f"; {way}: {come}" for way, come in zip(WAYS, each) if come != each[0]]
    return (each[0] + "".join(others) + "\n").encode()


def lines_told(case):
    """The lines of the input, each as a word of a question."""
    return [told(line.rstrip(b"\n")) for line in lines_of(case.part(b"input"))]


def sliced(case):
    lines = lines_told(case)
    question = f"slices {told(case.part(b'text'))} {int(case.part(b'fuel') or FUEL_OF_REQUESTS)} {' '.join(lines)}"
    _, answer = yield from asked_steps([f"area {AREA}", question])
    return answer.end(b"".join(ways_shown(answer) for _ in lines))


# ---- batches in lanes

def lanes_read(answer, count):
    """How many units the run of each lane has taken; `none` where it has none."""
    return [answer.word() for _ in range(count)]


def turn_shown(reply, before, after):
    """What a turn comes to: the reply that it writes, and each lane whose run is another one behind it, or has taken more."""
    changed = [f"{lane}:{now}" for lane, (was, now) in enumerate(zip(before, after)) if was != now]
    return " ".join([*([reply.decode().rstrip("\n")] if reply else []), *changed]) or "-"


def batch_turns(answer, count):
    """The turns of a batch, one after another, and how often a run was opened."""
    turns, opened, before = [], 0, ["none"] * count
    while answer.next_is("turn"):
        lane, reply, after = len(turns) % count, answer.bytes(), lanes_read(answer, count)
        # A commit has each other run opened again that isn't there any more; the one that ended was opened once at least.
        opened += sum(now == "none" != was for at, (was, now) in enumerate(zip(before, after)) if at != lane) + bool(reply)
        turns.append(turn_shown(reply, before, after))
        before = after
    return "; ".join([*turns, f"openings {opened}"])


def store_held(case, options):
    """The steps by which a disk holds a store whose only record has an object of the first contract, disowned, and so many Unowned handles."""
    count = int(case.part(b"hold"))
    _, _, shown = yield from asked_steps([f"area {AREA}", f"serve {told(case.part(b'text'))} {options.numbers()} -", "show"])
    return [f"write 0 {told(shown.bytes()[:-1] + record_held(count))}"]


def lines_of_lanes(case):
    """The lines of the input: each array alone, and those between together."""
    found = []
    for line in lines_of(case.part(b"input")):
        if not line.startswith(b"[") and found and not found[-1].startswith(b"["):
            found[-1] += line
        else:
            found.append(line.rstrip(NEWLINE) if line.startswith(b"[") else line)
    return found


def in_lanes(case):
    options = Options(case)
    held = (yield from store_held(case, options)) if case.part(b"hold") else []
    asked = " ".join(["lanes", told(case.part(b"text")), options.numbers(), *map(told, lines_of_lanes(case))])
    answers = yield from asked_steps([f"area {int(case.part(b'size') or AREA)}", *held, asked])
    answer, batches = answers[-1], []
    while answer.next_is("batch"):
        batches.append(batch_turns(answer, options.lanes()) + "\n")
    return answer.end("".join(batches).encode())


# ---- owners

def owner_shown(answer):
    """The place that owns an object."""
    word = answer.word()
    if word == "field":
        return f"o{answer.number()}.f{answer.number()}"
    return f"{answer.text()}.{answer.text()}" if word == "handle" else word


def owners_shown(answer):
    return " ".join(many(answer, owner_shown)) or "no objects"


def owners(case):
    """The owners after each line, on a store that is opened anew; and after all of them on one that stays open, where they are others."""
    text, lines = told(case.part(b"text")), lines_told(case)
    steps = [f"area {AREA}", f"owners {text} {' '.join(lines)}", "clear -", f"owners {text} {told(case.part(b'input'))}"]
    _, anew, _, at_once = yield from asked_steps(steps)
    each, last = [owners_shown(anew) for _ in lines], owners_shown(at_once)
    remark = "" if last == each[-1] else f"; in one run: {last}"
    return anew.end(("\n".join(each) + remark + "\n").encode())


# ---- requests and replies

def why(answer, shape):
    """What is said of a line that asks or tells nothing; `None` where it does."""
    said = {"json": b"no JSON\n", "size": b"wrong number of requests\n", "shape": shape}
    return next((text for word, text in said.items() if answer.next_is(word)), None)


def argument_shown(value):
    if value is None:
        return "other"
    if isinstance(value, bool):
        return "true" if value else "false"
    if isinstance(value, dict):
        return f"ref {value['ref']}"
    return f"text {quoted(value)}" if isinstance(value, str) else str(value)


def request_shown(line):
    """The request that a line asks, from the line by which it is sent."""
    asked = json.loads(line)
    arguments = "(" + ", ".join(map(argument_shown, asked.get("args", []))) + ")"
    into = f" into {asked['into']}" if "into" in asked else ""
    what = {
        "new": lambda: f"new {asked['contract']}{arguments}{into}",
        "call": lambda: f"{asked['on']}.{asked['tx']}{arguments}{into}",
        "give": lambda: f"give {asked['on']} to {asked['to']}{into} as {asked['as']}",
    }.get(asked["op"], lambda: f"{asked['op']} {asked['on']}")
    return f"{asked['id']} {asked['who']}: {what()}"


def batch_shown(answer):
    lines = many(answer, Answer.bytes)
    return f"{len(lines)} request{'s' * (len(lines) != 1)}: {'; '.join(map(request_shown, lines))}"


def request(case):
    answer = Answer((yield f"request {told(case.asked())}"))
    said = why(answer, b"no request\n")
    if said:
        return said
    shown = batch_shown(answer) if answer.next_is("batch") else request_shown(answer.bytes())
    return answer.end(shown.encode() + b"\n")


def sent(case):
    answer = Answer((yield f"request {told(case.asked())}"))
    said = why(answer, b"no request\n")
    if said:
        return said
    line = answer.end(answer.bytes())
    answer = Answer((yield f"request {told(line)}"))
    return line + (why(answer, b" is no request\n") or (b"\n" if answer.bytes() == line else b" isn't read back\n"))


def answered(case):
    answer = Answer((yield f"reply {told(case.asked())}"))
    return why(answer, b"no reply\n") or answer.end(answer.bytes())


def shown_told(text):
    """An object that is shown: `NUMBER CONTRACT STATE`, and marks and fields."""
    number, contract, state, *rest = text.split(" ")
    shown = {"object": int(number), "contract": contract, "state": None if state == "none" else state}
    shown |= {mark: mark in rest for mark in ("shared", "disowned")}
    return shown | {"fields": dict(field_told(word) for word in rest if word not in ("shared", "disowned"))}


def field_told(word):
    name, value = word.split("=")
    if value in ("true", "false"):
        return name, value == "true"
    if value.startswith('"'):
        return name, value[1:-1]
    return name, int(value[1:]) if value.startswith("i") else {"object": int(value[1:])}


REFUSALS = {
    "LongLine": 1, "Json": 2, "Shape": 3, "NoHandle": 5, "NoContract": 6, "NotMain": 7, "NoTransaction": 8, "ArgCount": 9, "ArgKind": 10,
    "Permission": 11, "Repeated": 12, "IntoMissing": 13, "IntoNeedless": 14, "IntoTaken": 15, "HandlesFull": 16,
}


def two(text):
    """The two parts of a text at its first blank."""
    first, _, rest = text.partition(" ")
    return first, rest


def aborts(form, text):
    """What a reply has of an abort, beside its word and its number."""
    if form == "revert":
        return {"text": text}
    if form == "overflow":
        return {"line": int(text)}
    if form == "room":
        return dict(zip(("need", "size"), map(int, two(text))))
    number, state = two(text)
    return ({"object": int(number)} if number else {}) | ({"state": state} if state else {})


def ok(form, text):
    """What is given of this form."""
    first, rest = two(text)
    how = {
        "nothing": lambda: None,
        "int": lambda: int(text),
        "bool": lambda: text == "true",
        "text": lambda: text,
        "object": lambda: {"object": int(text)},
        "see": lambda: shown_told(text),
        "handle": lambda: {"handle": [first, rest]},
        "field": lambda: {"field": [int(first), rest]},
    }
    if form not in how:
        raise Unasked(f"no reply: {form}")
    return how[form]()


def reply_told(text):
    """A line with the reply that is told: with blanks, and its keys in an order of its own, so that it isn't the line that is expected."""
    number, rest = two(text)
    form, told_of = two(rest)
    reply = {"id": None if number == "none" else int(number)}
    if form in ("revert", "state", "reentry", "overflow", "fuel", "full", "room"):
        reply |= aborts(form, told_of) | {"abort": form}
    elif form == "refused":
        reply |= {"refused": REFUSALS[told_of]}
    else:
        reply |= {"ok": ok(form, told_of)}
    return json.dumps(dict(reversed(reply.items()))).encode()


def reply(case):
    answer = Answer((yield f"reply {told(reply_told(case.asked().decode()))}"))
    said = why(answer, b"no reply\n")
    return said or answer.end(answer.bytes())


# ---- words, names and bytes

def asked(case):
    answer = Answer((yield f"words {told(case.asked())}"))
    if answer.next_is("Usage"):
        return answer.end(b"Usage\n")
    fuel, lanes, slice_units, word = (answer.word() for _ in range(4))
    names = [word] if word == "trial" else ["serve" if word == "store" else word]
    while not answer.is_read():
        names.append(answer.word() if word == "trial" else quoted(answer.text()))
    return f"{' '.join(names)}, fuel {fuel}, lanes {lanes}, slice {slice_units}\n".encode()


def trial(case):
    answer = Answer((yield f"trial {int(case.asked())}"))
    return answer.end(answer.bytes())


def form(case):
    line = yield f"form {told(case.asked())}"
    forms = {"true true true": b"name label text", "false true true": b"label text", "false false true": b"text", "false false false": b"none"}
    return forms.get(" ".join(Answer(line).words), b"another mix") + b"\n"


def field_bytes(case):
    """The bytes of a field, which stands among four: a whole number in one, four and eight bytes, and a text."""
    word, _, value = case.asked().decode().partition(" ")
    number, text = (0, value.encode()) if word == "text" else (int(value), b"")
    answer = Answer((yield f"fields {number} {told(text)}"))
    data = answer.bytes()
    begin, end = {"u8": (0, 1), "u32": (1, 5), "i64": (5, 13), "text": (13, len(data))}[word]
    read = {"u8": answer.word(), "u32": answer.word(), "i64": answer.word(), "text": answer.text()}[word]
    return answer.end(told(data[begin:end]).encode() + (b"\n" if read == value else b", read as another\n"))


def message(case):
    line = yield f"message {case.asked().decode()}"
    Answer(line)
    return line.removeprefix(" ").encode() + b"\n"


# The kinds that ask the case program: the parts that hold what is asked and what is wanted, the others that such a case may have, and what is
# asked.
KINDS = {
    b"tokens": (b"text", b"answer", (), tokens),
    b"layout": (b"text", b"answer", (), layout),
    b"again": (b"text", b"answer", (), again),
    b"tree": (b"part", b"answer", (b"text",), tree),
    b"table": (b"text", b"answer", (), table),
    b"terms": (b"text", b"answer", (), terms),
    b"image": (b"text", b"answer", (), image),
    b"encoded": (b"text", b"answer", (), encoded),
    b"steps": (b"text", b"answer", (b"objects", b"runs"), steps),
    b"entries": (b"runs", b"answer", (b"text", b"objects"), entries),
    b"disk": (b"text", b"answer", (), disk),
    b"file": (b"text", b"answer", (), file),
    b"outside": (b"given", b"answer", (b"text", b"words", b"input"), outside),
    b"failing-run": (b"input", b"output", (b"text", b"words", b"given", b"status"), run_given),
    b"failing-store": (b"runs", b"answer", (b"text", b"options", b"input", b"output"), memory_store),
    b"area": (b"runs", b"answer", (b"text", b"options"), area),
    b"spoiled": (b"value", b"answer", (b"text", b"size", b"input", b"ask"), spoiled),
    b"slices": (b"input", b"output", (b"text", b"fuel"), sliced),
    b"lanes": (b"input", b"output", (b"text", b"options", b"size", b"hold"), in_lanes),
    b"owners": (b"input", b"output", (b"text",), owners),
    b"request": (b"text", b"answer", (), request),
    b"reply": (b"text", b"answer", (), reply),
    b"sent": (b"text", b"answer", (), sent),
    b"answered": (b"text", b"answer", (), answered),
    b"asked": (b"text", b"answer", (), asked),
    b"trial": (b"text", b"answer", (), trial),
    b"form": (b"text", b"answer", (), form),
    b"bytes": (b"text", b"answer", (), field_bytes),
    b"message": (b"text", b"answer", (), message),
}
