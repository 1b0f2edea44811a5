#!/usr/bin/env python3
"""Hands the program what nobody meant, and looks how it takes it.

  python3 tests/fuzz.py [--inputs N] [--seconds N] [--seed N] [--program PROGRAM]

It makes N inputs (1,000, if none are asked for), or as many as it comes to in so many seconds, from the sample programs, their lines and a
store, drawn at random and changed at random, and hands them to PROGRAM (the one that the gate has left, if none is named):

- texts, to `check`: the status is 0 with the line `accepted`, or 1 with one line of a fault;
- lines, many to a run of `serve` over a store, each of them an input: the status is 0, each line that isn't blank and isn't refused whole has as many
  replies as requests, and behind each run `audit` finds the store at rest; where all were refused or aborted, its numbers are as before;
- stores, of one area or two, to `serve` with three lines: the status is that of `audit` before it, 6 with one line of a refusal, and then no byte of
  the store has changed, or 0, and then it is as for lines;
- words of the command line: the status is one of the table, and without a command it is 2.

In all of them it is an error where the program ends by a signal, takes more than 10 seconds of a processor, or ends with a status that the table of exit
statuses doesn't have. It tells the first error with the seed and the number of the input, writes the input to standard error, and ends with status
1; else it tells how many inputs of each sort there were, and so it does with status 1 where it is stopped by a signal.
"""
import argparse
import collections
import json
import os
import random
import re
import resource
import signal
import sys
import tempfile
import time

import samples

TOP = os.path.dirname(os.path.dirname(os.path.abspath(__file__)))
PROGRAM = os.path.join(TOP, "crates", "obsidian", "out", "obsidian")
MACHINE = os.path.join(TOP, "examples", "vending_machine", "vending_machine.obs")
LINES = os.path.join(TOP, "examples", "vending_machine", "requests")
# The statuses of the table, after how many seconds of a processor a run is cut, and after how many of the clock.
STATUSES, PATIENCE, LATE = range(10), 10, 300
# How many lines a run of `serve` is handed, and one over a store that was changed; and how many bytes of an area are changed at most.
TOGETHER, BEHIND, CHANGES = 200, 3, 8
# How often texts, runs of lines, stores and words are drawn, and behind how many runs of lines the store is begun anew.
SHARES, ANEW = (60, 0.5, 30, 10), 5
# How many bytes an area has, how often a store has a second one, and how often it is as long as both: such files take longest.
AREA, SECOND, WHOLE = 1 << 26, 0.03, 0.005
# Where files are that needn't be synced, which is sooner done.
IN_MEMORY = "/dev/shm"
# Of each sort of request that the sample's lines don't have, one.
REQUESTS = [{"op": "give", "id": 11, "who": "alice", "on": "k", "to": "bob", "into": "k", "as": "shared"},
            {"op": "give", "id": 12, "who": "alice", "on": "m", "to": "bob", "into": "m", "as": "owned"},
            {"op": "disown", "id": 13, "who": "bob", "on": "k"}]
TOKEN = re.compile(rb"\w+|\s+|->|>>|.", re.S)
FAULT = re.compile(rb"\d+:\d+: \d{3} [A-Za-z0-9]+\n")
REFUSED_STORE = re.compile(rb"store: \d{3} [A-Za-z]+( \d+)?\n")
# What is put into texts and lines.
PIECES = [b"{", b"}", b"(", b")", b"[", b"]", b";", b"\"", b"\\", b"\0", b"\xff", b"\n", b" ", b"9223372036854775808", b"-1", b"1e9", b"while", b"if",
          b"this", b"Owned", b"@", b">>", b"::", b"->", b"\"ref\"", b"null", b"\"into\":\"m\"", b"\xf0\x9f\x98\x80", b"[" * 200, b"/*", b"//"]


class Wrong(Exception):
    """The program did what it may not."""


def changed(draw, text, most=6):
    """Bytes with some pieces left out, put in, doubled or replaced."""
    parts = bytearray(text)
    for _ in range(draw.randrange(1, most)):
        at, long = draw.randrange(len(parts) + 1), draw.randrange(1, 40)
        how = draw.randrange(5)
        if how == 0:
            del parts[at:at + long]
        elif how == 1:
            parts[at:at] = draw.choice(PIECES)
        elif how == 2:
            parts[at:at] = parts[at:at + long]
        elif how == 3 and at < len(parts):
            parts[at] = draw.randrange(256)
        else:
            other = draw.randrange(len(parts) + 1)
            parts[at:at + long] = parts[other:other + long]
    return bytes(parts)


def rewritten(draw, text, most=4):
    """A text in which some words are other ones of it, or some signs other signs, or are left out."""
    tokens = TOKEN.findall(text)
    for _ in range(draw.randrange(1, most)):
        at = draw.randrange(len(tokens))
        alike = [token for token in tokens if token[:1].isalnum() == tokens[at][:1].isalnum()]
        tokens[at] = draw.choice(alike) if draw.random() < 0.8 else b""
    return b"".join(tokens)


def give_up(number, frame):
    raise Wrong(f"it went on for more than {LATE} seconds")


class Runner:
    """Runs a program in the folder in which this process is, over files for its input and its output."""

    def __init__(self, program):
        self.program = program
        self.input, self.output = (os.open(name, os.O_RDWR | os.O_CREAT) for name in ("input", "output"))
        self.streams = [(os.POSIX_SPAWN_DUP2, self.input, 0), (os.POSIX_SPAWN_DUP2, self.output, 1),
                        (os.POSIX_SPAWN_OPEN, 2, os.devnull, os.O_WRONLY, 0)]
        signal.signal(signal.SIGALRM, give_up)

    def ended(self, words):
        """The status of a process, which is ended when it has taken so long."""
        pid = os.posix_spawn(self.program, [self.program, *words], os.environ, file_actions=self.streams)
        resource.prlimit(pid, resource.RLIMIT_CPU, (PATIENCE, PATIENCE))
        try:
            signal.alarm(LATE)
            return os.waitstatus_to_exitcode(os.waitpid(pid, 0)[1])
        except BaseException:
            os.kill(pid, signal.SIGKILL)
            os.waitpid(pid, 0)
            raise
        finally:
            signal.alarm(0)

    def run(self, *words, given=b""):
        """The status of a run, and its output."""
        for file in (self.input, self.output):
            os.ftruncate(file, 0)
            os.lseek(file, 0, os.SEEK_SET)
        os.pwrite(self.input, given, 0)
        status = self.ended(words)
        if status not in STATUSES:
            raise Wrong(f"{words[:1]} ended with {status}")
        return status, os.pread(self.output, os.fstat(self.output).st_size, 0)


def requests_of(line):
    """How many requests a line has that is JSON."""
    value = json.loads(line)
    return len(value) if isinstance(value, list) else 1


def are_replies(replies, lines):
    """Whether each line has its replies: one that is refused whole has one, without an id, and each other one as many as it has requests."""
    at = 0
    for line in lines:
        if at == len(replies):
            return False
        at += 1 if replies[at]["id"] is None else requests_of(line)
    return at == len(replies)


class Fuzzing:
    """A program, and what it was handed, in the folder in which this process is."""

    def __init__(self, program, seed):
        self.run, self.draw = Runner(program).run, random.Random(seed)
        self.counts = collections.Counter()
        self.texts = [open(path, "rb").read() for path in samples.programs()]
        with open(LINES, "rb") as file:
            self.lines = file.read().splitlines()
        self.requests = [json.loads(line) for line in self.lines] + REQUESTS
        self.begin_store()

    def begin_store(self):
        """A store with the sample's lines done."""
        if os.path.exists("store"):
            os.remove("store")
        self.run("serve", MACHINE, "store", given=b"\n".join(self.lines) + b"\n")

    def near(self):
        """A request, of which some parts are as another one has them."""
        request, other = dict(self.draw.choice(self.requests)), self.draw.choice(self.requests)
        for part in self.draw.sample(sorted(request), self.draw.randrange(3)):
            request[part] = other.get(part)
        return request

    def line(self):
        """A line of the sample that is changed, a request that is nearly one, or a batch of some."""
        how = self.draw.random()
        if how < 0.5:
            return changed(self.draw, self.draw.choice(self.lines)).replace(b"\n", b" ")
        return json.dumps(self.near() if how < 0.9 else [self.near() for _ in range(self.draw.randrange(1, 9))]).encode()

    def served(self, store, lines):
        """The status of a run of lines over a store, and what is wrong with it and behind it."""
        options = "--lanes", str(self.draw.randrange(1, 9)), "--slice", str(self.draw.randrange(1, 20))
        before = self.run("audit", MACHINE, store)
        status, output = self.run("serve", *options, MACHINE, store, given=b"\n".join(lines) + b"\n")
        if status != before[0] or status not in (0, 6):
            return status, f"serve ended with {status}, and audit with {before[0]}"
        if status == 6:
            return status, None if REFUSED_STORE.fullmatch(output) else f"a store was refused by {output!r}"
        replies, after = [json.loads(reply) for reply in output.splitlines()], self.run("audit", MACHINE, store)
        if after[0] != 0:
            return status, f"behind serve audit ended with {after[0]}"
        if not are_replies(replies, [line for line in lines if line.strip(b" \t\r")]):
            return status, f"{len(replies)} replies aren't those of {len(lines)} lines"
        if not any("ok" in reply for reply in replies) and before != after:
            return status, f"refused and aborted requests left {after[1]!r} of {before[1]!r}"
        return status, None

    def fuzz_text(self):
        text = self.draw.choice((changed, rewritten))(self.draw, self.draw.choice(self.texts))
        with open("text", "wb") as file:
            file.write(text)
        status, output = self.run("check", "text")
        if not (status == 0 and output == b"accepted\n" or status == 1 and FAULT.fullmatch(output)):
            return text, f"check ended with {status} and wrote {output[:80]!r}"
        return text, None

    def fuzz_lines(self):
        lines = [self.line() for _ in range(TOGETHER)]
        status, wrong = self.served("store", lines)
        return b"\n".join(lines), wrong or (f"serve ended with {status}" if status != 0 else None)

    def spoiled(self, area):
        """An area of which some bytes are others, and which may be cut."""
        area = bytearray(area)
        for _ in range(self.draw.randrange(CHANGES)):
            area[self.draw.randrange(len(area))] = self.draw.choice((0, 1, 127, 128, 255, self.draw.randrange(256)))
        if self.draw.random() < 0.2:
            del area[self.draw.randrange(len(area)):]
        return bytes(area)

    def fuzz_store(self):
        """One area, or two of which the second has the next serial."""
        with open("store", "rb") as file:
            area = file.read()
        areas = [(0, self.spoiled(area))]
        if self.draw.random() < SECOND:
            areas.append((AREA, self.spoiled(area[:12] + b"\2" + area[13:])))
        lines = [self.line() for _ in range(BEHIND)]
        with open("changed", "wb+") as file:
            for at, piece in areas:
                os.pwrite(file.fileno(), piece, at)
            if self.draw.random() < WHOLE:
                file.truncate(2 * AREA)
            status, wrong = self.served("changed", lines)
            is_kept = all(os.pread(file.fileno(), len(piece), at) == piece for at, piece in areas)
        if status == 6 and not is_kept:
            wrong = "a store that was refused has changed"
        return b"".join(piece for _, piece in areas) + b"\n".join(lines), wrong

    def fuzz_words(self):
        words = [self.draw.choice(["check", "serve", "audit", "trial", "--fuel", "--lanes", "--slice", "--help", "7", "0", "-1", "200001", "nothing",
                                   "", "é", "trial 7", "--fuel=6"]) for _ in range(self.draw.randrange(5))]
        status, _ = self.run(*words)
        if not any(word in words for word in ("check", "serve", "audit", "trial")) and status != 2:
            return repr(words).encode(), f"without a command the status is {status}"
        return repr(words).encode(), None

    def go(self, inputs, late):
        """So many inputs, or as many as there is time for; or what was wrong with one of them."""
        while sum(self.counts.values()) < inputs and time.monotonic() < late:
            (name, one, count), = self.draw.choices((("texts", self.fuzz_text, 1), ("lines", self.fuzz_lines, TOGETHER),
                                                     ("stores", self.fuzz_store, 1), ("words", self.fuzz_words, 1)), SHARES)
            try:
                given, wrong = one()
            except Wrong as error:
                given, wrong = b"", str(error)
            if wrong:
                sys.stderr.buffer.write(given + b"\n")
                return f"{name}: input {sum(self.counts.values())}: {wrong}"
            self.counts[name] += count
            if name == "lines" and self.counts[name] % (ANEW * TOGETHER) == 0:
                self.begin_store()
        return None

    def told(self):
        return f"{sum(self.counts.values())} inputs: " + ", ".join(f"{count} {name}" for name, count in sorted(self.counts.items()))


def stop(number, frame):
    raise KeyboardInterrupt


def main():
    words = argparse.ArgumentParser(description=__doc__.splitlines()[0])
    words.add_argument("--inputs", type=int, default=1000)
    words.add_argument("--seconds", type=float, default=float("inf"))
    words.add_argument("--seed", type=int, default=1)
    words.add_argument("--program", default=PROGRAM)
    asked = words.parse_args()
    program = os.path.abspath(asked.program)
    signal.signal(signal.SIGTERM, stop)
    with tempfile.TemporaryDirectory(dir=IN_MEMORY if os.access(IN_MEMORY, os.W_OK) else None) as folder:
        os.chdir(folder)
        fuzzing = Fuzzing(program, asked.seed)
        try:
            wrong = fuzzing.go(asked.inputs, time.monotonic() + asked.seconds)
        except KeyboardInterrupt:
            sys.exit(f"fuzz.py: seed {asked.seed}: stopped behind {fuzzing.told()}")
    if wrong:
        sys.exit(f"fuzz.py: seed {asked.seed}: {wrong}")
    print(f"fuzz.py: {fuzzing.told()}")


if __name__ == "__main__":
    main()
