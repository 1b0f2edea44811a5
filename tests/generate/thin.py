#!/usr/bin/env python3
"""Leaves of a sheet of random cases those that tell most.

  python3 tests/generate/thin.py [--bytes BYTES] SHEET..

A case has a mark for each form that a line of its answer has: the line without its numbers, its names in quotes and its bytes, and the forms of
its answers where it has several on a line. The cases are gone through in their order, and one stays where it has a mark that fewer than N of
those before it have which stay. So each form of answer that the sheet had is met N times, or as often as it was there. N is the largest number
with which the sheet has at most so many bytes (165,000 if none are asked for). It rewrites the sheets, and says of each what N is, and how many
cases and bytes it had and has.
"""
import argparse
import collections
import os
import re
import sys

sys.path.insert(0, os.path.join(os.path.dirname(os.path.abspath(__file__)), ".."))
import cases

QUOTED = re.compile(rb'"(?:\\.|[^"\\])*"')
BYTES, NUMBER = re.compile(rb"\b[0-9a-f]{6,}\b|\b[0-9a-f]*[0-9][a-f][0-9a-f]*\b"), re.compile(rb"-?\d+")
# How long a form is at most, and what parts the answers on a line.
LONGEST, BETWEEN = 120, re.compile(rb"; | then ")


def form_of(answer):
    """An answer without what is drawn. Of a fault and a refusal the number stays."""
    fault = re.match(rb"\d+:\d+: (\d{3} \w+)$", answer)
    if fault:
        return fault[1]
    kept = [word for word in re.findall(rb'"(?:ok|abort|refused)":(?:"\w+"|\d+)?', answer)]
    blank = NUMBER.sub(b"#", BYTES.sub(b"h", QUOTED.sub(b"q", answer)))
    return b" ".join(kept) + b" " + re.sub(rb"(\S+)( \1)+", rb"\1 ..", blank)[:LONGEST]


def marks_of(case):
    """The marks of a case: its answer's forms, and those of the lines that its runs write."""
    told = case.wanted() + case.part(b"output")
    return {case.kind + b" " + form_of(part) for line in told.split(b"\n") for part in BETWEEN.split(line) if part}


def blocks_of(data):
    """The lines before the first case, and then those of each case or table."""
    blocks = [[]]
    for line in data.split(b"\n"):
        if line.partition(b" ")[0] in cases.KINDS:
            blocks.append([])
        blocks[-1].append(line)
    return blocks


def thinned(data, marks, times):
    """The sheet with the cases that stay, and how many stay."""
    met, of_sheet, kept, stay = collections.Counter(), iter(marks), [], 0
    for block in blocks_of(data):
        is_table = any(line.startswith(b"- ") for line in block)
        lines, stays_any = [], not kept
        for line in block:
            if line.startswith(b"- ") if is_table else line.partition(b" ")[0] in cases.KINDS:
                its_marks = next(of_sheet)
                if any(met[mark] < times for mark in its_marks):
                    met.update(its_marks)
                    stays_any, stay = True, stay + 1
                elif is_table:
                    continue
            lines.append(line)
        kept += lines if stays_any else []
    while kept and not kept[-1]:
        kept.pop()
    return b"\n".join(kept) + b"\n", stay


def most_within(data, marks, most):
    """The most times that forms may be met, so that the sheet has no more bytes."""
    least, above = 1, len(marks) + 1
    while above - least > 1:
        times = (least + above) // 2
        if len(thinned(data, marks, times)[0]) <= most:
            least = times
        else:
            above = times
    return least


def main():
    words = argparse.ArgumentParser(usage=__doc__.split("\n\n")[1].strip())
    words.add_argument("--bytes", type=int, default=165_000)
    words.add_argument("sheets", nargs="+")
    given = words.parse_args()
    for path in given.sheets:
        with open(path, "rb") as file:
            data = file.read()
        marks = [marks_of(case) for case in cases.Sheet(data).cases]
        times = most_within(data, marks, given.bytes)
        after, stay = thinned(data, marks, times)
        with open(path, "wb") as file:
            file.write(after)
        print(f"{os.path.basename(path)}: {times} times, {stay} of {len(marks)} cases, {len(after)} of {len(data)} bytes")


if __name__ == "__main__":
    main()
