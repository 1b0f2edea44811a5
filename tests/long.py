#!/usr/bin/env python3
"""Hands the program more bytes of input than it takes, and looks how it ends then, and what is in its store.

  python3 tests/long.py [--program PROGRAM]

It runs PROGRAM, the one that the gate has left if none is named, over a store and an input of a little more than 2^40 bytes, and wants this: the run
ends with 9; of the bytes up to there the first line and the last whole one have their replies, and the long one between them is refused; these are
in the store; the line whose newline is the next byte has no reply, and isn't there; and nothing is read that lies behind.

The input is a file that has bytes at its two ends alone. What was never written between them is one line of zero bytes, and no disk holds it.
A run takes about a quarter of an hour of a processor, so the gate makes none.
"""
import argparse
import os
import subprocess
import sys
import tempfile

TOP = os.path.dirname(os.path.dirname(os.path.abspath(__file__)))
PROGRAM = os.path.join(TOP, "crates", "obsidian", "out", "obsidian")
MACHINE = os.path.join(TOP, "examples", "vending_machine", "vending_machine.obs")
# How many bytes of input are taken, and where a file is read soonest that has no bytes.
MOST, IN_MEMORY = 1 << 40, "/dev/shm"
NEW = b'{"op":"new","id":%d,"who":"a","contract":"Machine","into":"%s"}'
FIRST, LAST, CUT = (NEW % it for it in ((1, b"first"), (2, b"last"), (3, b"cut")))
REPLIES = b'{"id":1,"ok":{"object":0}}\n{"id":null,"refused":1}\n{"id":2,"ok":{"object":1}}\n'
# What is asked of the store behind them, and the replies.
OWNERS = b"".join(b'{"op":"owner","id":%d,"who":"a","on":"%s"}\n' % it for it in ((1, b"first"), (2, b"last"), (3, b"cut")))
OWNED = b'{"id":1,"ok":{"handle":["a","first"]}}\n{"id":2,"ok":{"handle":["a","last"]}}\n{"id":3,"refused":5}\n'


def serve(program, folder, *pieces):
    """How a run ends over an input that has these bytes at these offsets: the status, the output, whether it tells of `Long`, and how far it read."""
    with tempfile.TemporaryFile(dir=folder) as file:
        for at, piece in pieces:
            os.pwrite(file.fileno(), piece, at)
        ended = subprocess.run([program, "serve", MACHINE, "store"], cwd=folder, stdin=file, stdout=subprocess.PIPE, stderr=subprocess.PIPE)
        return ended.returncode, ended.stdout, b"Long" in ended.stderr.splitlines(), os.lseek(file.fileno(), 0, os.SEEK_CUR)


def main():
    words = argparse.ArgumentParser(usage=__doc__.split("\n\n")[1].strip())
    words.add_argument("--program", default=PROGRAM)
    program = os.path.abspath(words.parse_args().program)
    end = b"\n" + LAST + b"\n" + CUT
    with tempfile.TemporaryDirectory(dir=IN_MEMORY if os.access(IN_MEMORY, os.W_OK) else None) as folder:
        came = serve(program, folder, (0, FIRST + b"\n"), (MOST - len(end), end + b"\n" + LAST + b"\n"))
        behind = serve(program, folder, (0, OWNERS))
    wanted = 9, REPLIES, True, MOST
    if came != wanted or behind[:2] != (0, OWNED):
        sys.exit(f"long.py: an input of more than 2^40 bytes\n  wanted: {wanted}, then {OWNED}\n  came:   {came}, then {behind}")
    print("long.py: of an input of more than 2^40 bytes each line that was read whole was answered, and nothing behind 2^40 was read")


if __name__ == "__main__":
    main()
