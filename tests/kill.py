#!/usr/bin/env python3
"""Kills the program while it serves over a store, and looks whether each line that it answered is there, and all money.

  python3 tests/kill.py [--times N] [--seed N] [--full] [--program PROGRAM]

Each time it starts `PROGRAM serve P STORE` (the one that the gate has left, if none is named) over one store, hands it lines that each
split a part from a purse or merge one into it, and kills it by SIGKILL: half the times after a number of replies, half after a while, both
drawn at random. Then, without a look at the store, it does so with a second run, and opens the store by a third one. It is an error where
the store isn't opened, where a line isn't there of whose reply a byte was written, where a split isn't of the object that its reply names,
where a line is there and one before it isn't, where more is there than the line in hand, or where the amounts of all money don't add up to
what was minted. It tells the first error and ends with status 1; else it tells how many lines were handed over, answered and kept.

With `--full` it fills the area in which the store stands before each time, but for a few records, so that the runs that are killed move into the
other one. It fills it with records that take away handles which aren't there.

What it tries is that a process may end at any moment. The system goes on, so bytes that were written and not yet synced aren't lost.
"""
import argparse
import json
import os
import random
import subprocess
import sys
import tempfile
import threading
import time

TOP = os.path.dirname(os.path.dirname(os.path.abspath(__file__)))
PROGRAM = os.path.join(TOP, "crates", "obsidian", "out", "obsidian")
MONEY = os.path.join(TOP, "examples", "money", "money.obs")
# How much money there is.
MINTED = 1_000_000_000
# The most that is split off by one line.
PART = 1000
# The most splits of one run: the bytes of its lines and those of their replies fit into a pipe.
SPLITS = 75
# How many bytes an area has, how many of them are left at most where it is filled, and how long a record is that fills it.
AREA, LEFT, LONG = 1 << 26, 4000, 13 + 74 * 10_000


def request(number, operation, **parts):
    """The line of a request of alice's."""
    return json.dumps({"op": operation, "id": number, "who": "alice", **parts}, separators=(",", ":")) + "\n"


class Line:
    """A line that splits a part from the purse, or merges it into the purse again."""

    def __init__(self, number, name, part, merges):
        self.number, self.name, self.part, self.merges = number, name, part, merges

    def text(self):
        if self.merges:
            return request(self.number, "call", on="purse", tx="merge", args=[{"ref": self.name}])
        return request(self.number, "call", on="purse", tx="split", args=[self.part], into=self.name)

    def is_there(self, seen):
        """Whether the line was done, by what is seen of each part."""
        return seen[self.name] is not None and (not self.merges or seen[self.name]["disowned"])

    def is_told(self, reply, seen):
        """Whether the reply is what this line gives."""
        return reply.get("ok", "") == (None if self.merges else {"object": seen[self.name]["object"]})


def record_of(size):
    """A record of about so many bytes that changes nothing: it takes away handles that aren't there, in the order of their names."""
    count = max(0, size - 13) // 74
    handles = b"".join(b"\0\0\0\1-\0\0\0\x40%064d\0" % number for number in range(count))
    payload = bytes(4) + count.to_bytes(4, "big") + handles
    return b"\1" + len(payload).to_bytes(4, "big") + payload if count else b""


def serial_of(area):
    return int.from_bytes(area[5:13], "big") if area[:5] == b"\1OBSA" else 0


def fill(store, left):
    """Fills the area in which a store stands with records that change nothing, but for about so many bytes."""
    with open(store, "rb+") as file:
        file.seek(0)
        heads = [file.read(17)]
        file.seek(AREA)
        heads.append(file.read(17))
        start = AREA if serial_of(heads[1]) > serial_of(heads[0]) else 0
        file.seek(start)
        area = file.read(AREA)
        gate = 17 + int.from_bytes(area[13:17], "big")
        while area[gate]:
            gate += 5 + int.from_bytes(area[gate + 1:gate + 5], "big")
        file.seek(start + gate)
        whole, rest = divmod(AREA - gate - left, LONG)
        file.write(whole * record_of(LONG) + record_of(rest) + b"\0")


class Trial:
    """One program over one store."""

    def __init__(self, program, text, store, draw, is_filled):
        self.words = [program, "serve", text, store]
        self.draw, self.is_filled = draw, is_filled
        # How long it took to answer all lines of a run.
        self.whole = 0.0
        self.handed = self.answered = self.kept = 0
        # What is in parts that weren't merged again, by their names.
        self.parts = {}

    def start(self):
        return subprocess.Popen(self.words, stdin=subprocess.PIPE, stdout=subprocess.PIPE, stderr=subprocess.PIPE)

    def ask(self, lines):
        """The replies of a run that isn't killed."""
        run = self.start()
        output, error = run.communicate("".join(lines).encode())
        if run.returncode != 0:
            sys.exit(f"the store was not opened: status {run.returncode}, {output.decode()} {error.decode()}")
        return [json.loads(line) for line in output.decode().splitlines()]

    def see(self, names):
        """What is seen of these, by their names; None, where there is no such handle."""
        return dict(zip(names, (reply.get("ok") for reply in self.ask([request(0, "see", on=name) for name in names]))))

    def killed(self, lines):
        """What was written by a run that is killed."""
        begun = time.monotonic()
        run = self.start()
        if self.draw.random() < 0.5:
            wanted, late = self.draw.randrange(len(lines) + 1), 30.0
        else:
            wanted, late = len(lines), self.draw.uniform(0, 1.5 * self.whole)
        timer = threading.Timer(late, run.kill)
        timer.start()
        # The input stays open, so that the run doesn't end by itself.
        try:
            run.stdin.write("".join(lines).encode())
            run.stdin.flush()
        except BrokenPipeError:
            pass
        output = b"".join(iter_lines(run.stdout, wanted))
        if wanted < len(lines):
            run.kill()
        elif output.count(b"\n") == len(lines):
            self.whole = max(self.whole, time.monotonic() - begun)
        run.kill()
        output += run.stdout.read()
        run.wait()
        timer.cancel()
        for pipe in (run.stdin, run.stdout, run.stderr):
            try:
                pipe.close()
            except BrokenPipeError:
                pass
        return output.decode()

    def drawn(self, time_name):
        """The lines of a run: splits, and a merge behind about half of them."""
        lines = []
        for place in range(self.draw.randrange(1, SPLITS + 1)):
            name, part = f"{time_name}_{place}", self.draw.randrange(PART + 1)
            for merges in (False, True)[: self.draw.randrange(1, 3)]:
                lines.append(Line(len(lines), name, part, merges))
        return lines

    def look(self, title, lines, written, seen):
        """Looks for the lines that a killed run was handed."""
        there = [line.is_there(seen) for line in lines]
        kept = there.index(False) if False in there else len(lines)
        reached = written.count("\n") + (not written.endswith("\n") and written != "")
        if kept < reached:
            sys.exit(f"{title}: {reached} lines were answered, and {kept} are there")
        if kept > reached + 1:
            sys.exit(f"{title}: {reached} lines were answered, and {kept} are there, more than one that has no reply")
        if any(there[kept:]):
            sys.exit(f"{title}: line {kept} isn't there, and a later one is")
        for line, reply in zip(lines, written.splitlines(keepends=True)):
            if reply.endswith("\n") and not line.is_told(json.loads(reply), seen):
                sys.exit(f"{title}: line {line.number} did something else than its reply says")
        for line in lines[:kept]:
            self.parts[line.name] = 0 if line.merges else line.part
        self.handed += len(lines)
        self.answered += reached
        self.kept += kept

    def time(self, number):
        """Kills two runs in a row, and then looks for their lines and for the money."""
        if self.is_filled:
            fill(self.words[-1], self.draw.randrange(1, LEFT))
        runs = []
        for letter in "ab":
            lines = self.drawn(f"c{number}{letter}")
            runs.append((f"time {number}{letter}", lines, self.killed([line.text() for line in lines])))
        names = dict.fromkeys(line.name for _, lines, _ in runs for line in lines)
        seen = self.see([*names, "purse"])
        for title, lines, written in runs:
            self.look(title, lines, written, seen)
        if seen["purse"]["fields"]["amount"] + sum(self.parts.values()) != MINTED:
            sys.exit(f"time {number}: the purse has {seen['purse']['fields']['amount']}, and not what is left of {MINTED}")

    def sum(self):
        """The money in the purse and in all parts that have an owner."""
        seen = self.see(["purse", *self.parts]).values()
        return sum(money["fields"]["amount"] for money in seen if not money["disowned"])


def iter_lines(pipe, count):
    """The lines of a pipe, so many of them at most."""
    for _ in range(count):
        line = pipe.readline()
        if not line:
            return
        yield line


def main():
    parser = argparse.ArgumentParser(description="Kills the program while it serves over a store.")
    parser.add_argument("--times", type=int, default=200)
    parser.add_argument("--seed", type=int, default=1)
    parser.add_argument("--full", action="store_true")
    parser.add_argument("--program", default=PROGRAM)
    given = parser.parse_args()
    with tempfile.TemporaryDirectory() as folder:
        store = os.path.join(folder, "store")
        trial = Trial(os.path.abspath(given.program), MONEY, store, random.Random(given.seed), given.full)
        begun = time.monotonic()
        trial.ask([request(0, "new", contract="Mint", into="mint"),
                   request(1, "call", on="mint", tx="mint", args=[MINTED], into="purse")])
        trial.whole = time.monotonic() - begun
        for number in range(given.times):
            trial.time(number)
        if trial.sum() != MINTED:
            sys.exit(f"the amounts add up to {trial.sum()}, and {MINTED} were minted")
        size = os.path.getsize(store)
    print(f"killed {2 * given.times} runs: {trial.handed} lines handed over, {trial.answered} answered, {trial.kept} there, "
          f"all money there, {size} bytes")


if __name__ == "__main__":
    main()
