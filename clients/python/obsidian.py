"""A client of `obsidian serve`: it starts the program, asks line by line, and says by name what is refused or aborted, and what to do.

    import obsidian

    with obsidian.Server("vending_machine.obs") as server:
        alice = server.client("alice")
        alice.new("Machine", into="m")
        alice.call("m", "mint", into="c")
        try:
            alice.call("m", "buy", obsidian.Ref("c"), into="candy")
        except obsidian.Aborted as aborted:
            print(aborted.name, aborted.details)
        bob = server.client("bob")
        shown, refused = server.batch([alice.request("see", on="m"), bob.request("see", on="m")])

Only Python's standard library is needed. `who` is a name that this process vouches for: a front for many people decides which of them is which
client, since the program takes each line as it stands.

Where a request is interrupted, as by a time limit or by Ctrl-C, nobody can tell whether it was done, and its reply may still come. So the run is
asked no more: each request after it raises Broken.
"""
import contextlib
import itertools
import json
import os
import selectors
import subprocess
import threading
import time
import weakref
from dataclasses import dataclass

# Why a line is refused, by its number: the name, and what to do.
REFUSALS = {
    1: ("LongLine", "shorten it"),
    2: ("Json", "mend it"),
    3: ("Shape", "write the keys of its row"),
    4: ("BatchSize", "send 1 to 64"),
    5: ("NoHandle", "ask as the client that has it"),
    6: ("NoContract", "see the program"),
    7: ("NotMain", "call a transaction that makes such an object"),
    8: ("NoTransaction", "see the program"),
    9: ("ArgCount", "give as many"),
    10: ("ArgKind", "give a number, truth value, text or handle as declared"),
    11: ("Permission", "use a handle that owns, or shares"),
    12: ("Repeated", "give another object"),
    13: ("IntoMissing", "name it"),
    14: ("IntoNeedless", "leave it out"),
    15: ("IntoTaken", "use another name, or `disown` that one"),
    16: ("HandlesFull", "`disown` some"),
}
# Why a line is aborted, by its name and what is told with it: what to do.
ABORTS = {
    ("revert", "text"): "as it says",
    ("state", "object", "state"): "ask for it, by `see`, before",
    ("state", "object"): "ask otherwise: the program meets itself",
    ("reentry", "object"): "ask otherwise: the program meets itself",
    ("overflow", "line"): "give other numbers",
    ("fuel",): "do it in several requests",
    ("full",): "begin a new store",
    ("room", "need", "size"): 'see "A full store" in the guide',
}
# How a run ends, by its status: the name, and what became of the request in progress: of those without a reply the one that would have been
# answered next. The others weren't done.
ENDS = {
    0: ("Done", "its input had ended: the line wasn't sent"),
    1: ("Refused", "the text of the program has a fault: nothing was done"),
    2: ("Usage", "the words aren't a command: nothing was done"),
    3: ("ReadFault", "the line wasn't read: it wasn't done"),
    4: ("WriteFault", "the request in progress may be done: look before you ask again"),
    5: ("DiskFault", "the request in progress is in the store in full or not at all: look before you ask again"),
    6: ("StoreRefused", "the store wasn't opened: nothing was done"),
    7: ("Memory", "the request in progress changed nothing"),
    8: ("FileFault", "the file of the program couldn't be read: nothing was done"),
    9: ("Long", "the line wasn't read: it wasn't done"),
}
UNKNOWN_END = ("Crash", "the request in progress is in the store in full or not at all: look before you ask again")
# Why a run is asked no more, and what to do.
GIVEN_UP = ("an earlier line was given up before its last reply", "close this run, begin another, and look what was done")
MISMATCHED = ("a reply came that isn't one to this line", GIVEN_UP[1])
FORKED = ("the run belongs to the process from which this one was forked", "begin a run of your own")
# How an object is given.
MODES = ("owned", "shared", "unowned")


class Error(Exception):
    """Whatever a request comes to that isn't done."""


class Refused(Error):
    """The program took up nothing: `number`, `name`, and what to do (`advice`)."""

    def __init__(self, number):
        self.number = number
        self.name, self.advice = REFUSALS.get(number, ("unknown", "see the guide of this program"))
        super().__init__(f"refused: {number} {self.name}: {self.advice}")


class Aborted(Error):
    """The request ran and was undone: `name`, the `details` that are told with it, and what to do (`advice`)."""

    def __init__(self, name, details):
        self.name, self.details = name, details
        self.advice = ABORTS.get((name, *sorted(details)), "see the guide of this program")
        told = ", ".join(f"{key} {value!r}" for key, value in details.items())
        super().__init__(f"aborted: {name}{', ' + told if told else ''}: {self.advice}")


class Broken(Error):
    """The run is asked no more, since the next reply may be one to an earlier line, or since it is another process's: `reason`, and what to
    do (`advice`)."""

    def __init__(self, reason, advice):
        self.reason, self.advice = reason, advice
        super().__init__(f"this run is asked no more: {reason}: {advice}")


class Ended(Error):
    """The program has ended and answers no more: `status`, `name`, the lines that it still wrote (`told`), and what became of the request
    in progress (`advice`). Of a batch `answered` has what the requests with a reply came to, by their places in it, from 0."""

    def __init__(self, status, told=()):
        self.status, self.told, self.answered = status, list(told), {}
        self.name, self.advice = ENDS.get(status, UNKNOWN_END)
        super().__init__("; ".join([f"the program ended: status {status} {self.name}: {self.advice}", *self.told]))


@dataclass(frozen=True)
class Ref:
    """An argument: the object of this handle of the client that asks."""
    handle: str


def argument(value):
    """An argument as it stands in a request."""
    if isinstance(value, Ref):
        return {"ref": value.handle}
    if isinstance(value, (bool, int, str)):
        return value
    raise TypeError(f"an argument is an int, a bool, a str or a Ref, and not {value!r}")


def outcome_of(reply):
    """What a reply has as `ok`, or the error that it tells."""
    if "ok" in reply:
        return reply["ok"]
    if "refused" in reply:
        return Refused(reply["refused"])
    return Aborted(reply["abort"], {key: value for key, value in reply.items() if key not in ("abort", "id")})


# The servers of this process.
SERVERS = weakref.WeakSet()


def let_go():
    """In a process that was just forked, lets its copies of all pipes lead nowhere: otherwise no run's input would end while this process lives.
    They aren't closed, since their numbers could be those of other files by the time that they are closed again."""
    if SERVERS:
        nothing = os.open(os.devnull, os.O_RDWR)
        for pipe in (pipe for server in SERVERS for pipe in (server.run.stdin, server.run.stdout) if not pipe.closed):
            os.dup2(nothing, pipe.fileno(), inheritable=False)
        os.close(nothing)


os.register_at_fork(after_in_child=let_go)


class Server:
    """A run of `COMMAND serve PROGRAM [STORE]`, from its beginning to `close`, or to the end of a `with`. Several threads may ask, but a process
    that is forked may not."""

    def __init__(self, program, store=None, command=("obsidian",), fuel=None):
        options = [] if fuel is None else ["--fuel", str(fuel)]
        words = [*command, *options, "serve", "--", program, *([] if store is None else [store])]
        self.run = subprocess.Popen(words, stdin=subprocess.PIPE, stdout=subprocess.PIPE)
        self.process = os.getpid()
        self.numbers = itertools.count(1)
        # Whoever has it may use the pipes. A signal's handler that asks in the midst of a request finds `is_open`, and doesn't wait for itself.
        self.turn = threading.RLock()
        # Whether a line was begun whose replies haven't all been taken.
        self.is_open = False
        SERVERS.add(self)

    def client(self, who):
        return Client(self, who)

    def ask(self, **request):
        """Asks a request, whose `id` is given here, and returns what its reply has as `ok`; raises Refused, Aborted, Ended or Broken."""
        asked = {**request, "id": next(self.numbers)}
        outcome = self.exchange(asked, [asked])[0]
        if isinstance(outcome, Error):
            raise outcome
        return outcome

    def batch(self, requests):
        """Asks 1 to 64 requests, each made by `Client.request`, in one line. Returns what each comes to, in their order: what its reply has as
        `ok`, or its Refused or Aborted. Raises Refused where the line is, Ended, which has what was answered before, or Broken."""
        asked = [{**request, "id": next(self.numbers)} for request in requests]
        return self.exchange(asked, asked)

    def exchange(self, value, asked):
        """Writes a line, and returns what each of its requests comes to. Where anything interrupts this, the run is asked no more: the next
        reply may be one to this line."""
        line, outcomes = json.dumps(value, ensure_ascii=False, separators=(",", ":")).encode() + b"\n", {}
        # A fork has a copy of the lock, which nobody there may ever release.
        if os.getpid() != self.process:
            raise Broken(*FORKED)
        with self.turn:
            if self.is_open:
                raise Broken(*GIVEN_UP)
            self.is_open = True
            try:
                self.send(line)
                self.take_replies(asked, outcomes)
            except Refused:
                self.is_open = False
                raise
            except Ended as ended:
                ended.answered = outcomes
                self.is_open = False
                raise
            self.is_open = False
        return [outcomes[place] for place in range(len(asked))]

    def take_replies(self, asked, outcomes):
        """Takes the replies to a line, and notes in `outcomes` what each of its requests comes to, by its place. Raises Refused where the line
        is, as a whole and with one reply."""
        places = {request["id"]: place for place, request in enumerate(asked)}
        for _ in asked or [None]:
            reply = self.reply()
            if reply["id"] is None and "refused" in reply and not outcomes:
                raise outcome_of(reply)
            if reply["id"] not in places:
                raise Broken(*MISMATCHED)
            outcomes[places.pop(reply["id"])] = outcome_of(reply)

    def send(self, line):
        """Writes a line. Nothing of it is kept to be written later, so of one that is given up no more is sent."""
        left = memoryview(line)
        try:
            while left:
                left = left[os.write(self.run.stdin.fileno(), left):]
        except (BrokenPipeError, ValueError):
            raise self.ended() from None

    def reply(self):
        """The next reply. What the program writes on a line that it doesn't answer, as a fault of its text, is none."""
        told = b"" if self.run.stdout.closed else self.run.stdout.readline()
        if not told.startswith(b"{") or not told.endswith(b"\n"):
            raise self.ended(told)
        return json.loads(told)

    def ended(self, told=b""):
        """How the program ended, with the rest of its lines."""
        rest = told if self.run.stdout.closed else told + self.run.stdout.read()
        return Ended(self.run.wait(), rest.decode(errors="replace").splitlines())

    def close(self, limit=60):
        """Ends the input, reads what was left of replies, waits for the program's end, and returns its status: 0 where all is well. Where the
        program hasn't ended after `limit` seconds it is killed. In a fork nothing is done, and None is returned."""
        if os.getpid() != self.process:
            return None
        end = time.monotonic() + limit
        if not self.turn.acquire(timeout=limit):
            # Another thread is still waiting for a reply. The end of the program ends that.
            self.run.kill()
            return self.run.wait()
        try:
            self.run.stdin.close()
            self.read_away(end)
            return self.run.wait(max(end - time.monotonic(), 0))
        except subprocess.TimeoutExpired:
            self.run.kill()
            return self.run.wait()
        finally:
            # A signal's handler can't close what it has interrupted in a read.
            with contextlib.suppress(RuntimeError):
                self.run.stdout.close()
            self.turn.release()

    def read_away(self, end):
        """Reads what the program still writes, until it ends or the time is over. It can't end while its output is full."""
        if self.run.stdout.closed:
            return
        with selectors.DefaultSelector() as selector:
            selector.register(self.run.stdout, selectors.EVENT_READ)
            while (left := end - time.monotonic()) > 0:
                if selector.select(left) and not os.read(self.run.stdout.fileno(), 1 << 16):
                    return

    def __enter__(self):
        return self

    def __exit__(self, *_):
        self.close()


@dataclass(frozen=True)
class Client:
    """One client of a server. Handles are named by their names."""
    server: Server
    who: str

    def request(self, operation, args=(), **parts):
        """A request for a batch: the operation, and what it has beside its number and its client, by its keys."""
        given = {key: value for key, value in parts.items() if value is not None}
        if args:
            given["args"] = [argument(value) for value in args]
        return {"op": operation, "who": self.who, **given}

    def ask(self, operation, **parts):
        return self.server.ask(**self.request(operation, **parts))

    def new(self, contract, *args, into):
        """Makes an object of the main contract, and returns its number."""
        return self.ask("new", contract=contract, args=args, into=into)["object"]

    def call(self, handle, transaction, *args, into=None):
        """Calls a transaction, and returns what it gives: None, an int, a bool, a str, or with `into` the number of an object."""
        given = self.ask("call", on=handle, tx=transaction, args=args, into=into)
        return given["object"] if isinstance(given, dict) else given

    def see(self, handle):
        """The object: a dict with `contract`, `disowned`, `fields`, `object`, `shared` and `state`."""
        return self.ask("see", on=handle)

    def owner(self, handle):
        """What owns the object: ("handle", CLIENT, NAME), ("field", NUMBER, NAME), or None."""
        given = self.ask("owner", on=handle)
        return None if given is None else next((kind, *place) for kind, place in given.items())

    def give(self, handle, to, into, mode):
        """Gives the client `to` a handle `into` on the object: as `owned`, `shared` or `unowned`."""
        if mode not in MODES:
            raise ValueError(f"an object is given as one of {', '.join(MODES)}, and not as {mode!r}")
        self.ask("give", on=handle, to=to, into=into, **{"as": mode})

    def disown(self, handle):
        """Removes the handle. Where it was an owned one, nobody owns the object any more."""
        self.ask("disown", on=handle)
