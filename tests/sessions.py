#!/usr/bin/env python3
"""Runs the sessions of the examples against the proved program, and looks whether `compare_sessions.py` tells what differs.

  python3 tests/sessions.py [--program PROGRAM]

Each folder of examples/ that has a program NAME.obs is called NAME, and has a session.txt and a README.md. In examples/market/steps/ a session has
the name of its program. What the gate needs in crates/obsidian is the same as in examples/vending_machine/. Behind these stand sessions that
differ, or that can't be read, each with what has to be told of it. The status is 1 where a reply differs, where a file lacks or isn't the
same, or where something else is told.
"""
import os
import shlex
import subprocess
import sys
import tempfile

import samples

TOP = samples.TOP
EXAMPLES, STEPS = "examples", os.path.join("examples", "market", "steps")
SCRIPT = os.path.join(TOP, "tools", "compare_sessions.py")
# The files that the gate needs in crates/obsidian, and what they are the same as.
TWINS = {"data/vending_machine.obs": "vending_machine.obs", "stdin": "requests"}
NEW = '{"op":"new","id":1,"who":"a","contract":"Tally","into":"t"}'
MADE = '{"id":1,"ok":{"object":0}}'
ADD = '{"op":"call","id":2,"who":"a","on":"t","tx":"add","args":[5]}'
MISSING = "never answered by ok:\n  Tally: add\n"
ALL = "each transaction was answered by ok\n"
# A session of tally.obs, or of another program; the status, and what is told, on standard error where the session can't be read.
TOLD = [
    (f'> {NEW}\n< {MADE}\n> {ADD}\n< {{"id":2,"ok":5}}\n', 0, f"s: 2 of 2 replies agree\n{ALL}"),
    # Without marks of replies, with a comment, a blank request, and in two runs.
    (f'# once\n> {NEW}\n{MADE}\n\nrestart\n>\n> {ADD}\n{{"id":2,"ok":5}}\n', 0, f"s: 2 of 2 replies agree\n{ALL}"),
    (f'> {NEW}\n< {MADE}\n> {ADD}\n< {{"id":2,"ok":6}}\n> {{\n< {{}}\n', 1,
     f's:4: another reply came\n  wanted | {{"id":2,"ok":6}}\n  came   | {{"id":2,"ok":5}}\ns: 1 of 3 replies agree\n{ALL}'),
    (f"> {NEW}\n", 1, f"s:1: another reply came\n  wanted | no reply\n  came   | {MADE}\ns: 0 of 1 replies agree\n{MISSING}"),
    (f"> {NEW}\n< {MADE}\n< {MADE}\n", 1, f"s:3: another reply came\n  wanted | {MADE}\n  came   | no reply\ns: 1 of 2 replies agree\n{MISSING}"),
    (f">\n< {MADE}\n", 1, f"s:2: another reply came\n  wanted | {MADE}\n  came   | no reply\ns: 0 of 1 replies agree\n{MISSING}"),
    (f"{MADE}\n> {NEW}\n", 2, "s:1: a reply that stands under no request\n"),
    (f"> {NEW}\nrestart\n< {MADE}\n", 2, "s:3: a reply that stands under no request\n"),
    (f"> {NEW}\n< {MADE}\nrestart\n", 2, "s: no request stands behind the last `restart`\n"),
    ("# nothing\n", 2, "s: no request stands in it\n"),
    (f"> {NEW}\n< {MADE}\n{ADD[1:]}\n", 2,
     "s:3: no line of a session: each is a request behind `> `, a reply, `restart`, a comment behind `#`, or empty\n"),
    # A batch has a reply for each of its requests, or one alone where it is refused as a whole.
    (f'> {NEW}\n< {MADE}\n> [{ADD},{ADD.replace(":2,", ":3,")}]\n< {{"id":2,"ok":5}}\n< {{"id":3,"ok":10}}\n> []\n< {{"id":null,"refused":4}}\n', 0,
     f"s: 4 of 4 replies agree\n{MISSING}"),
    # Of marks, which no client has, nothing is told.
    (f'> {NEW.replace("Tally", "Mint")}\n< {MADE}\n', 0,
     "s: 1 of 1 replies agree\nnever answered by ok:\n  Money: worth, fits, merge, split\n  Mint: mint, is_mine\n", "money.obs"),
    (f"> {NEW}\n< 4:24: 406 BranchLoses\n", 1, "s: the program ended with status 1\n  4:24: 406 BranchLoses\n", "payment.obs"),
]


def compare(program, folder, source, session, **how):
    return subprocess.run([sys.executable, SCRIPT, "--program", program, source, session], cwd=folder, check=False, **how)


def examples():
    """The programs of the examples and of the market's steps, each with its session, by their paths from the top."""
    folders = [entry for entry in os.scandir(os.path.join(TOP, EXAMPLES)) if entry.is_dir()]
    names = [entry.name for entry in folders if any(name.endswith(".obs") for name in os.listdir(entry.path))]
    steps = [name.removesuffix(".txt") for name in os.listdir(os.path.join(TOP, STEPS)) if name.endswith(".txt")]
    found = [(os.path.join(EXAMPLES, name, name + ".obs"), os.path.join(EXAMPLES, name, "session.txt")) for name in sorted(names)]
    return found + [(os.path.join(STEPS, name + ".obs"), os.path.join(STEPS, name + ".txt")) for name in sorted(steps)]


def examples_agree(program):
    return all([compare(program, TOP, text, session).returncode == 0 for text, session in examples()])


def bytes_of(*parts):
    """The bytes of a file; none where there is no such file."""
    path = os.path.join(TOP, *parts)
    if not os.path.isfile(path):
        return b""
    with open(path, "rb") as file:
        return file.read()


def files_are_there():
    """Whether each example has its files, and what the gate needs is the same as in the example."""
    lacks = [path for text, session in examples() for path in (text, session) if not bytes_of(path)]
    lacks += [path for text, _ in examples() if (path := os.path.join(os.path.dirname(text), "README.md")) and STEPS not in text and not bytes_of(path)]
    machine = os.path.join(EXAMPLES, "vending_machine")
    others = [name for name, twin in TWINS.items() if bytes_of("crates", "obsidian", name) != bytes_of(machine, twin)]
    for path in lacks:
        print(f"{path} isn't there")
    for name in others:
        print(f"crates/obsidian/{name} isn't the same as {machine}/{TWINS[name]}")
    return not lacks and not others


def is_told(program, session, status, told, name="tally.obs"):
    """Whether this comes of a session of a program."""
    with tempfile.TemporaryDirectory() as folder:
        with open(os.path.join(folder, "s"), "w", encoding="utf-8") as file:
            file.write(session)
        ran = compare(program, folder, samples.path_of(name), "s", capture_output=True, text=True)
    came = ran.stderr if status == 2 else ran.stdout
    if (ran.returncode, came) == (status, told):
        return True
    print(f"of the session\n{session}came, with status {ran.returncode} in place of {status},\n{came}in place of\n{told}")
    return False


def ends_quietly(program):
    """Whether nothing is told on standard error where nobody reads what is told."""
    reader, writer = os.pipe()
    os.close(reader)
    ran = compare(program, TOP, "examples/money/money.obs", "examples/money/session.txt", stdout=writer, stderr=subprocess.PIPE, text=True)
    os.close(writer)
    if ran.returncode == 1 and not ran.stderr:
        return True
    print(f"where nobody reads, with status {ran.returncode} in place of 1, came\n{ran.stderr}")
    return False


def main():
    words = sys.argv[1:]
    if words and (words[0] != "--program" or len(words) != 2):
        sys.exit(f"usage:{__doc__.partition('tests/sessions.py')[2].splitlines()[0]}")
    program = shlex.quote(os.path.abspath(words[1] if words else os.path.join(TOP, "crates", "obsidian", "out", "obsidian")))
    agree = files_are_there() and examples_agree(program)
    told = [is_told(program, *row) for row in TOLD]
    print(f"{sum(told)} of {len(told)} wrong sessions are reported as they have to be")
    quiet = ends_quietly(program)
    sys.exit(0 if agree and all(told) and quiet else 1)


if __name__ == "__main__":
    main()
