#!/usr/bin/env python3
"""Runs sessions of a program, and compares each reply with the one that the session has.

  ./obsidian test [--fuel UNITS] [--lanes LANES] [--slice UNITS] P SESSION..
  python3 tools/compare_sessions.py [--program COMMAND] [OPTIONS] P SESSION..

How a session is written says docs/GUIDE.md, under "Tests of your own". Each is served from an empty store; one with a line `restart` over a
store in a file, which is gone at the end. Of each session the first reply that differs is shown, with its place, and how many agree; at the end
stands which transactions no session has answered by `ok`, of the contracts of which a client can have an object. The status is 0 where all
replies agree, 1 where one doesn't, where the text of P is refused, the program ended otherwise or nobody reads what is told, and 2 where the
words are wrong, or a session can't be read.
"""
import argparse
import itertools
import json
import os
import re
import shlex
import subprocess
import sys
import tempfile
from dataclasses import dataclass, field

TOP = os.path.dirname(os.path.dirname(os.path.abspath(__file__)))
PROGRAM = os.path.join(TOP, "crates", "obsidian", "out", "obsidian")
OPTIONS = ("--fuel", "--lanes", "--slice")
# Comments, texts, words and signs of a program.
TOKENS = re.compile(r'//[^\n]*|/\*.*?\*/|"(?:\\.|[^"\\\n])*"|\w+|\S', re.DOTALL)
# A line of these alone, and not longer, has no reply.
BLANKS = b" \t\r"
LONGEST_LINE = 65536


class Trouble(Exception):
    """Why a session can't be read."""


class Stopped(Exception):
    """Why a program serves no longer."""


@dataclass
class Request:
    """A request of a session, with the replies that stand under it, each with the number of its line."""
    line: int
    text: bytes
    wanted: list = field(default_factory=list)
    # Whether the program is started anew before it.
    restarts: bool = False

    def is_blank(self):
        return not self.text.strip(BLANKS) and len(self.text) <= LONGEST_LINE

    def asked(self):
        """The JSON value of the request; nothing where it has none."""
        try:
            return json.loads(self.text)
        except (ValueError, RecursionError):
            return None

    def called(self):
        """The client, the handle and the transaction of a call; nothing of another request."""
        asked = self.asked()
        if not isinstance(asked, dict) or asked.get("op") != "call":
            return None
        words = [asked.get(key) for key in ("who", "on", "tx")]
        return words if all(isinstance(word, str) for word in words) else None


# ---- sessions

def take_line(requests, restarts, number, line):
    """Adds what a line of a session says. Returns whether the program is started anew before the next request."""
    mark, text = line[:1], line[1:].removeprefix(b" ")
    if mark == b">":
        requests.append(Request(number, text, restarts=restarts))
        return False
    if mark in (b"<", b"{"):
        if not requests or restarts:
            raise Trouble("a reply that stands under no request")
        requests[-1].wanted.append((number, (text if mark == b"<" else line).rstrip(b"\r")))
    elif line.strip() == b"restart":
        return True
    elif line.strip() and mark != b"#":
        raise Trouble("no line of a session: each is a request behind `> `, a reply, `restart`, a comment behind `#`, or empty")
    return restarts


def requests_of(path):
    """The requests of a session."""
    requests, restarts, number = [], False, 0
    try:
        with open(path, "rb") as file:
            for number, line in enumerate(file.read().split(b"\n"), 1):
                restarts = take_line(requests, restarts, number, line)
    except OSError as error:
        raise Trouble(f"{path}: {error.strerror}") from error
    except Trouble as trouble:
        raise Trouble(f"{path}:{number}: {trouble}") from trouble
    if restarts or not requests:
        raise Trouble(f"{path}: no request stands behind the last `restart`" if restarts else f"{path}: no request stands in it")
    return requests


# ---- runs

def look(request):
    """The line that asks of which contract the object is that a request calls; no byte, where it calls none."""
    called = request.called()
    return json.dumps({"op": "see", "id": 0, "who": called[0], "on": called[1]}).encode() + b"\n" if called else b""


def replies_to(request, told):
    """The replies to a request, of those that are left: one for each request of a batch, but one alone where it is refused as a whole."""
    if request.is_blank():
        return []
    first, asked = next(told, None), request.asked()
    others = len(asked) - 1 if isinstance(asked, list) and fields(first).get("id") is not None else 0
    return [reply for reply in (first, *itertools.islice(told, others)) if reply is not None]


def replies_of(command, store, requests):
    """The replies of one run: for each request what `look` told before it, and its own. How each run opens the store isn't passed on,
    unless the run fails."""
    given = b"".join(look(request) + request.text + b"\n" for request in requests)
    errors = subprocess.PIPE if store else None
    ran = subprocess.run([*command, *store], input=given, stdout=subprocess.PIPE, stderr=errors, check=False)
    lines = ran.stdout.split(b"\n")
    if ran.returncode != 0:
        sys.stderr.write((ran.stderr or b"").decode(errors="replace"))
        last = [line.decode(errors="replace") for line in lines if line][-1:]
        raise Stopped("\n  ".join([f"the program ended with status {ran.returncode}", *last]))
    told = iter(lines[:-1])
    return [(next(told, None) if look(request) else None, replies_to(request, told)) for request in requests]


def runs_of(requests):
    """The requests of each run of a session."""
    runs = [[]]
    for request in requests:
        if request.restarts:
            runs.append([])
        runs[-1].append(request)
    return runs


def served(command, requests):
    """The requests of a session, each with what came of it."""
    runs = runs_of(requests)
    with tempfile.TemporaryDirectory() as folder:
        store = [os.path.join(folder, "store")] if len(runs) > 1 else []
        for run in runs:
            yield from zip(run, replies_of(command, store, run))


# ---- reports

def fields(reply):
    """The fields of a reply; none where there is no reply."""
    try:
        return json.loads(reply or b"{}")
    except ValueError:
        return {}


def answered(request, told, replies):
    """The contract and the transaction that a reply has answered by `ok`; of an instance its generic contract."""
    called, seen = request.called(), fields(told).get("ok")
    return {(seen["contract"].partition("[")[0], called[2])} if called and seen and any("ok" in fields(reply) for reply in replies) else set()


def differences(request, came):
    """Where a request's replies aren't those of the session: the line, what it has and what came."""
    for place in range(max(len(request.wanted), len(came))):
        line, wanted = request.wanted[place] if place < len(request.wanted) else (request.line, None)
        other = came[place] if place < len(came) else None
        if wanted != other:
            yield line, wanted, other


def shown(reply):
    return "no reply" if reply is None else reply.decode(errors="replace")


def compare(command, path):
    """Runs a session, and says how many replies agree. Returns whether all do, and what was answered by `ok`."""
    first, agreeing, total, done = None, 0, 0, set()
    for request, (told, replies) in served(command, requests_of(path)):
        others = list(differences(request, replies))
        total += max(len(request.wanted), len(replies))
        agreeing += max(len(request.wanted), len(replies)) - len(others)
        first = first or (others[0] if others else None)
        done |= answered(request, told, replies)
    if first:
        print(f"{path}:{first[0]}: another reply came\n  wanted | {shown(first[1])}\n  came   | {shown(first[2])}")
    print(f"{path}: {agreeing} of {total} replies agree", flush=True)
    return first is None, done


@dataclass
class Contract:
    """A contract: its transactions that aren't private, and of which contracts and interfaces they return objects."""
    is_main: bool = False
    implements: str = ""
    transactions: list = field(default_factory=list)
    returned: set = field(default_factory=set)


def contracts_of(text):
    """The contracts of a program by their names."""
    found, contract, depth, is_main, is_private, before = {}, Contract(), 0, False, False, ""
    for token in TOKENS.findall(text):
        if depth == 0 and before in ("contract", "interface"):
            contract = found.setdefault(token, Contract(is_main)) if before == "contract" else Contract()
        elif depth == 0 and before == "implements":
            contract.implements = token
        elif depth == 1 and before == "transaction" and not is_private:
            contract.transactions.append(token)
        elif depth == 1 and before == "returns" and not is_private:
            contract.returned.add(token)
        is_main = token == "main" or is_main and token != "{"
        is_private = token == "private" or is_private and token != "{"
        depth += (token == "{") - (token == "}")
        before = token
    return found


def reached(contracts):
    """The contracts of which a client can have an object: he makes it, or gets it from a transaction that he can call."""
    names, more = set(), {name for name, contract in contracts.items() if contract.is_main}
    while more:
        names |= more
        returned = set().union(*(contracts[name].returned for name in names))
        more = {name for name, contract in contracts.items() if returned & {name, contract.implements}} - names
    return names


def tell_missing(program, done):
    """Says which transactions that a client can call no session has answered by `ok`."""
    with open(program, encoding="utf-8") as file:
        contracts = contracts_of(file.read())
    missing = {name: [called for called in contracts[name].transactions if (name, called) not in done] for name in contracts}
    names = reached(contracts)
    lines = [f"  {name}: {', '.join(called)}" for name, called in missing.items() if called and name in names]
    print("\n".join(["never answered by ok:", *lines] if lines else ["each transaction was answered by ok"]))


def words():
    parser = argparse.ArgumentParser(usage=__doc__.split("\n\n")[1].strip())
    parser.add_argument("--program", default=shlex.quote(PROGRAM))
    for option in OPTIONS:
        parser.add_argument(option)
    parser.add_argument("text", metavar="P")
    parser.add_argument("sessions", metavar="SESSION", nargs="+")
    return parser.parse_args()


def main():
    given = words()
    options = [word for option in OPTIONS if (value := getattr(given, option[2:])) for word in (option, value)]
    command = [*shlex.split(given.program), *options, "serve", "--", given.text]
    is_well, done = True, set()
    for path in given.sessions:
        try:
            agrees, more = compare(command, path)
        except Trouble as trouble:
            print(trouble, file=sys.stderr)
            return 2
        except BrokenPipeError:
            raise
        except (Stopped, OSError) as stopped:
            print(f"{path}: {stopped}")
            return 1
        is_well, done = is_well and agrees, done | more
    tell_missing(given.text, done)
    return 0 if is_well else 1


def status():
    """The status of a run. It ends quietly where nobody reads what it tells, as behind `| head`."""
    for stream in (sys.stdout, sys.stderr):
        # A name needn't be UTF-8. Python has its other bytes as surrogates.
        stream.reconfigure(errors="surrogateescape")
    try:
        given = main()
        sys.stdout.flush()
        return given
    except BrokenPipeError:
        os.dup2(os.open(os.devnull, os.O_WRONLY), sys.stdout.fileno())
        return 1


if __name__ == "__main__":
    sys.exit(status())
