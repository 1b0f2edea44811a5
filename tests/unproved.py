"""Cases without a proof: the sources are built once by `rt try --cases`, and run over a folder of inputs. Nothing is proved of what runs so.

What cases ask of the program as a process is asked here of `run` over files, streams and a disk in memory, which the case program calls. So nothing
is tried of real files and streams. What a person is told is asked of the sources of the program itself, which are built once for all of
it. A case for which neither will do comes to nothing, and isn't asked: it has steps on a real file, or looks at each token of a text.
"""
import os
import re
import subprocess
import sys
import tempfile

import cases
import images
import questions
import samples

# How many questions and how many bytes of them a process is handed at most: its answers have to fit into 1 MiB.
MOST_QUESTIONS, MOST_BYTES = 32, 1 << 17
# The steps on a store that the disk in memory has.
STEPS = (b"disk", b"serve", b"audit", b"show", b"records", b"areas")
# After how many seconds a process is cut. The slow interpreter, which runs a program first, is given up at once.
LIMITS = ["--steps", "1", "--seconds", "600"]
ENDED = re.compile(rb"case=(\d+) (?:run=ended status=(\d+))?.*\n")


# ---- runs

class Run:
    """What a program wrote over an input, and its status; none where it came to no end."""

    def __init__(self):
        self.output, self.errors, self.status = b"", b"", None


def run_each(crate, inputs, arguments=()):
    """Builds a program once, and runs it over each of these inputs, with these arguments, of which `{}` names a copy of the input."""
    print(f"building {crate} without a proof, to run it over {len(inputs)} inputs", file=sys.stderr, flush=True)
    with tempfile.TemporaryDirectory() as folder:
        for number, given in enumerate(inputs):
            with open(os.path.join(folder, str(number)), "wb") as file:
                file.write(given)
        for number, words in enumerate(arguments):
            with open(os.path.join(folder, f"{number}.args"), "wb") as file:
                file.write(b"".join(word + b"\n" for word in words))
        place = os.path.join(samples.TOP, "crates", crate)
        how = {"cwd": place, "stdin": subprocess.DEVNULL, "stdout": subprocess.PIPE, "stderr": subprocess.PIPE}
        ran = subprocess.run(["rt", "try", *LIMITS, "--cases", folder], **how)
    if ran.returncode not in (0, 4, 5, 6):
        sys.exit(f"{ran.stderr.decode(errors='replace')}{crate} could not be built")
    return runs_told(ran, len(inputs))


def runs_told(ran, count):
    """The runs of which rt tells: their output behind `== NAME`, and what each wrote on standard error before the line of its end."""
    runs, at, told = [Run() for _ in range(count)], None, b""
    for line in cases.lines_of(ran.stdout):
        if line.startswith(b"== "):
            at = int(line[3:])
        elif at is not None:
            runs[at].output += line
    for line in cases.lines_of(ran.stderr):
        ended = ENDED.fullmatch(line)
        if ended:
            run = runs[int(ended[1])]
            run.errors, run.status, told = told, ended[2] and int(ended[2]), b""
        else:
            told += line
    return runs


def portions(lines):
    """The questions in portions for one process each."""
    portion, size = [], 0
    for line in lines:
        if portion and (len(portion) == MOST_QUESTIONS or size + len(line) > MOST_BYTES):
            yield portion
            portion, size = [], 0
        portion.append(line)
        size += len(line)
    if portion:
        yield portion


def answers_to(lines):
    """An answer to each question: `!` where the case program ends before it."""
    found = []
    asked = list(portions(lines))
    for portion, run in zip(asked, run_each("ob_conformance", ["".join(line + "\n" for line in portion).encode() for portion in asked])):
        answers = run.output.decode().split("\n")[:-1]
        found += (answers + ["!"] * len(portion))[: len(portion)]
    return found


# ---- what cases ask

def ended(words, text, given):
    """How a run of these words over a text ends."""
    return (yield from questions.ended_sure(cases.Case(b"run", b"", {b"words": words, b"text": text}), given, questions.AMPLE))


def said(end, done):
    """What a run wrote that is done where it writes this, and else refuses; or all that it comes to."""
    is_said = end.name == ("Done" if end.output == done else "Refused") and end.is_well()
    return end.output if is_said else end.end() + b"\n" + (end.output or b"")


def come_of_check(case):
    return said((yield from ended(b"check p", case.asked(), b"{\n")), b"accepted\n")


def come_of_serve(case):
    return said((yield from ended(b"serve p", case.asked(), b"")), b"") or b"served\n"


def image_of(text):
    """The image of a text's code, from the store that the program begins for it; or nothing, and what it writes where it begins none."""
    words = [b"serve", b"p", b"s"]
    run = f"run {questions.handed(words, text, b'')} {questions.Outside().numbers()} {questions.AMPLE}"
    answer, faults, shown = yield from questions.asked_steps([run, "faults", "show"])
    line = said(questions.Ended(answer, b"", words, False, faults.number()), b"")
    return (b"", line) if line else (shown.bytes()[17:-1], b"")


def come_of_code(case):
    image, line = yield from image_of(case.asked())
    return line or images.code_of(image)


def come_of_compiled(case):
    image, line = yield from image_of(case.asked())
    return line or image.hex().encode() + b"\n"


def come_of_calls(case):
    image, line = yield from image_of(case.part(b"text"))
    return line or (yield from questions.runs_of(image, case.part(b"objects"), case.asked()))


COMES = {
    b"check": come_of_check,
    b"serve": come_of_serve,
    b"run": questions.run_given,
    b"store": questions.memory_store,
    b"code": come_of_code,
    b"compiled": come_of_compiled,
    b"calls": come_of_calls,
}


def is_of_memory(steps):
    """Whether a disk in memory has these steps. It is always there, so an audit of a file that isn't can't be asked of it."""
    return not steps[0].startswith(b"audit") and all(step.partition(b" ")[0] in STEPS for step in steps)


def begin(case):
    """How a case asks the case program; nothing, where it can't."""
    if case.kind == b"store" and not is_of_memory(case.asked().split(b"; ")):
        return None
    steps = COMES.get(case.kind) or (questions.KINDS[case.kind][3] if case.kind in questions.KINDS else None)
    return steps and cases.go_on(lambda: cases.asked_on(steps(case)))


# ---- what a person is told

def explained(run):
    """What `check` tells of a text that is handed to it as the file `case`, and is `p` where cases tell of it."""
    return re.sub(rb"^case:", b"p:", run.errors, flags=re.M) or b"nothing\n"


def tell(explaining):
    """What comes of cases of the kind `explain`."""
    runs = run_each("obsidian", [case.asked() for case in explaining], [[b"check", b"{}"]] * len(explaining))
    return [explained(run) if run.status in (0, 1) else b"not run\n" for run in runs]


def compare(names):
    """Runs the sheets that are named, and says of each how many cases agree. Returns whether all do that were asked."""
    sheets = cases.chosen(names)
    chosen = [case for _, of_sheet in sheets for case in of_sheet]
    come = cases.come_of_all(answers_to, [begin(case) for case in chosen])
    explaining = [at for at, case in enumerate(chosen) if case.kind == b"explain"]
    for at, told in zip(explaining, tell([chosen[at] for at in explaining]) if explaining else ()):
        come[at] = told
    reports, first = [], 0
    for sheet, of_sheet in sheets:
        reports.append(cases.report(sheet, of_sheet, come[first:first + len(of_sheet)]))
        first += len(of_sheet)
    agree = cases.sums(reports)
    print("nothing is proved of what ran, and no real file, stream or store was tried")
    return agree
