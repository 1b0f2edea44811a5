#!/usr/bin/env python3
"""Refuses the program its allocations, one at a time, and looks how it ends then, and what is in its store.

  python3 tests/memory.py [--every N] [--program PROGRAM]

It runs PROGRAM, the one that the gate has left if none is named, over and over: the first allocation is refused, then the second one alone,
and so on until a run needs no more of them. With `--every` it is each Nth one only. The runs serve the sample's lines on a new store, a look
at the store that these leave, an audit of it, lines with two batches in two lanes, and a line that moves a store. Each of them has to end in
one of these ways:

- by 7: its replies are those to a prefix of the lines, each of them whole, and each byte of the store is as that prefix leaves it. It may be
  that the store isn't begun, where there was none;
- by 5 without a reply, and the store is as it was, but that the file may be made: the name of the store and that of its folder take memory;
- by 0: its replies and its store are whole. What was refused was for what a person is told on standard error, which may lack then.

It tells the first run that doesn't, and ends with status 1; else it tells how many ended how. A run that ends so is opened once more by an
audit, for each store that it may leave.

For this it traces its runs, as a debugger does, on x86-64. As soon as the loader is done, a run gets a page with code through which its calls
of `malloc` and `realloc` go from there on, and which counts them. Where nothing may be traced, it says so and ends with 0.
"""
import argparse
import collections
import ctypes
import json
import os
import platform
import signal
import struct
import subprocess
import sys
import tempfile
import threading

TOP = os.path.dirname(os.path.dirname(os.path.abspath(__file__)))
PROGRAM = os.path.join(TOP, "crates", "obsidian", "out", "obsidian")
SAMPLES = os.path.join(TOP, "tests", "programs")
MACHINE = os.path.join(TOP, "examples", "vending_machine", "vending_machine.obs")
LINES = os.path.join(TOP, "examples", "vending_machine", "requests")
# After how many seconds a run is cut, and how many bytes an area has.
PATIENCE, AREA = 300, 1 << 26

# Requests of ptrace, the option by which a process stops at its end, and how that stop is told.
TRACEME, CONT, GETREGS, SETREGS, SETOPTIONS = 0, 7, 12, 13, 0x4200
TRACEEXIT, EXITING = 0x40, signal.SIGTRAP | 6 << 8
REGISTERS = "r15 r14 r13 r12 rbp rbx r11 r10 r9 r8 rax rcx rdx rsi rdi orig_rax rip cs eflags rsp ss fs_base gs_base ds es fs gs".split()
# A call of the system that maps a page which can be written and run, and a stop behind it.
MAPS = {"rax": 9, "rdi": 0, "rsi": 4096, "rdx": 7, "r10": 0x22, "r8": 2**64 - 1, "r9": 0, "orig_rax": 2**64 - 1}
SYSCALL, STOP = b"\x0f\x05", b"\xcc"
# What counts a call down: `sub qword [count], 1; je refuse; jmp [function]; refuse: xor eax, eax; ret`, with places told from where they are used.
COUNTED, PIECE = "<3sib2s2si3s", 64
# Of an ELF file: kinds of its parts, and of its dynamic entries.
LOADED, DYNAMIC = 1, 2
STRINGS, SYMBOLS, RELOCATIONS = 5, 6, ((23, 2), (7, 8))
# The entry of a program, among what the system tells it.
ENTRY = 9

LIBC = ctypes.CDLL(None, use_errno=True)
LIBC.ptrace.restype = ctypes.c_long
LIBC.ptrace.argtypes = ctypes.c_long, ctypes.c_long, ctypes.c_void_p, ctypes.c_void_p


class Untraced(Exception):
    """Why nothing may be traced."""


def ptrace(request, pid, data=0):
    if LIBC.ptrace(request, pid, 0, data) == -1:
        raise Untraced(os.strerror(ctypes.get_errno()))


class Program:
    """A program, and where it keeps the addresses of the functions that take memory."""

    def __init__(self, path):
        self.path = path
        with open(path, "rb") as file:
            self.bytes = file.read()
        self.entry, table = struct.unpack_from("<QQ", self.bytes, 24)
        size, count = struct.unpack_from("<HH", self.bytes, 54)
        parts = [struct.unpack_from("<IIQQQQ", self.bytes, table + size * number) for number in range(count)]
        self.loaded = [(at, address, length) for kind, _, at, address, _, length in parts if kind == LOADED]
        (at, length), = [(at, length) for kind, _, at, _, _, length in parts if kind == DYNAMIC]
        self.dynamic = dict(struct.iter_unpack("<QQ", self.bytes[at:at + length]))
        found = dict(self.slots())
        self.counted = [found["malloc"], found["realloc"]]

    def place(self, address):
        """Where in the file stands what is loaded at an address."""
        return next(at + address - first for at, first, length in self.loaded if first <= address < first + length)

    def slots(self):
        """The names of the functions of libraries, each with where the loader puts its address."""
        for table, length in RELOCATIONS:
            if table in self.dynamic:
                start = self.place(self.dynamic[table])
                for slot, info, _ in struct.iter_unpack("<QQq", self.bytes[start:start + self.dynamic[length]]):
                    name, = struct.unpack_from("<I", self.bytes, self.place(self.dynamic[SYMBOLS]) + 24 * (info >> 32))
                    begin = self.place(self.dynamic[STRINGS]) + name
                    yield self.bytes[begin:self.bytes.index(b"\0", begin)].decode(), slot


class Traced:
    """A process that is traced from its start on."""

    def __init__(self, program, words, folder, streams):
        self.program = program
        self.process = subprocess.Popen([program.path, *words], cwd=folder, stdin=streams[0], stdout=streams[1], stderr=streams[2],
                                        env={**os.environ, "LD_BIND_NOW": "1"}, preexec_fn=lambda: LIBC.ptrace(TRACEME, 0, 0, 0))
        self.pid = self.process.pid
        self.timer = threading.Timer(PATIENCE, self.process.kill)
        self.timer.start()
        if not os.WIFSTOPPED(self.wait()):
            raise Untraced("a process isn't stopped at its start")
        self.memory = os.open(f"/proc/{self.pid}/mem", os.O_RDWR)
        with open(f"/proc/{self.pid}/auxv", "rb") as file:
            self.entry = dict(struct.iter_unpack("<QQ", file.read()))[ENTRY]

    def wait(self):
        return os.waitpid(self.pid, 0)[1]

    def go(self, number=0):
        """Goes on, with this signal if there is one, up to the next stop."""
        ptrace(CONT, self.pid, number)
        return self.wait()

    def registers(self):
        all_of_them = (ctypes.c_uint64 * len(REGISTERS))()
        ptrace(GETREGS, self.pid, ctypes.addressof(all_of_them))
        return dict(zip(REGISTERS, all_of_them))

    def set_registers(self, registers):
        all_of_them = (ctypes.c_uint64 * len(REGISTERS))(*(registers[name] for name in REGISTERS))
        ptrace(SETREGS, self.pid, ctypes.addressof(all_of_them))

    def mapped(self):
        """A page of its own. The loader is done by then, and nothing of the program has run."""
        kept = os.pread(self.memory, 3, self.entry)
        os.pwrite(self.memory, STOP, self.entry)
        self.go()
        registers = {**self.registers(), "rip": self.entry}
        os.pwrite(self.memory, SYSCALL + STOP, self.entry)
        self.set_registers({**registers, **MAPS})
        self.go()
        page = self.registers()["rax"]
        os.pwrite(self.memory, kept, self.entry)
        self.set_registers(registers)
        return page

    def refuse(self, number):
        """Has the allocation of this number refused, and tells where they are counted down."""
        page = self.mapped()
        os.pwrite(self.memory, struct.pack("<q", number), page)
        for place, slot in enumerate(self.program.counted, 1):
            slot += self.entry - self.program.entry
            function, code = page + 8 * place, page + PIECE * place
            os.pwrite(self.memory, os.pread(self.memory, 8, slot), function)
            os.pwrite(self.memory, struct.pack(COUNTED, b"\x48\x83\x2d", page - (code + 8), 1, b"\x74\x06", b"\xff\x25", function - (code + 16),
                                               b"\x31\xc0\xc3"), code)
            os.pwrite(self.memory, struct.pack("<Q", code), slot)
        return page

    def end(self, count):
        """The status at its end, and what is left of a count then."""
        ptrace(SETOPTIONS, self.pid, TRACEEXIT)
        status = self.go()
        while os.WIFSTOPPED(status) and status >> 8 != EXITING:
            status = self.go(os.WSTOPSIG(status))
        left = struct.unpack("<q", os.pread(self.memory, 8, count))[0] if os.WIFSTOPPED(status) else 0
        if os.WIFSTOPPED(status):
            status = self.go()
        self.close()
        return os.waitstatus_to_exitcode(status), left

    def close(self):
        self.timer.cancel()
        self.process.returncode = 0
        os.close(self.memory)


class Session:
    """What a run is asked over a store, and what may come of it."""

    def __init__(self, trials, title, words, given, items=None, before=None, first=1):
        """Of lines with batches `items` are the lines that ask the same one by one, in the order of the replies."""
        self.trials, self.title, self.words, self.given, self.before, self.first = trials, title, words, given, before, first
        status, self.output, _, taken = trials.run(words, given, before)
        if status != 0:
            sys.exit(f"memory.py: {title}: with all memory the status is {status}")
        self.taken, self.replies = taken, self.output.splitlines(keepends=True)
        # The store behind each number of replies.
        self.stores, items = [], given.splitlines(keepends=True) if items is None else items
        for count in range(len(self.replies) + 1 if words[0] == "serve" else 1):
            trials.run(words, b"".join(items[:count]), before)
            self.stores.append(trials.held)
            if trials.run(["audit", *words[1:3]], b"", self.stores[-1])[0] != 0:
                sys.exit(f"memory.py: {title}: behind {count} lines the store isn't opened")

    def ended(self, status, output, store):
        """How a run has ended, or None where it may not end so."""
        count = output.count(b"\n")
        is_whole = output == b"".join(self.replies[:count])
        if status == 7 and is_whole and count < max(1, len(self.replies)):
            unbegun = count == 0 and self.before is None and store in (None, b"")
            return "Memory" if unbegun or store == self.stores[min(count, len(self.stores) - 1)] else None
        if status == 5 and output == b"" and (store == self.before or self.before is None and store == b""):
            return "DiskFault"
        return "Done" if status == 0 and output == self.output and store == self.stores[-1] else None

    def sweep(self, every):
        """Counts how its runs ended, or tells the first one that didn't end as it has to."""
        counts = collections.Counter()
        for number in range(self.first, self.taken + 1, every):
            status, output, told, _ = self.trials.run(self.words, self.given, self.before, number)
            how = self.ended(status, output, self.trials.held)
            if how is None:
                sys.exit(f"memory.py: {self.title}: without allocation {number} the status is {status}, the replies are\n"
                         f"{output.decode(errors='replace')}and standard error has\n{told.decode(errors='replace')}")
            counts[how] += 1
        return counts


class Trials:
    """A program in a folder of its own."""

    def __init__(self, program, folder):
        self.program, self.folder = program, folder
        # The bytes of the store behind the last run.
        self.held = None

    def path(self, name):
        return os.path.join(self.folder, name)

    def store(self):
        """The bytes of the store; None where there is no file."""
        try:
            with open(self.path("store"), "rb") as file:
                return file.read()
        except FileNotFoundError:
            return None

    def put(self, store):
        """Has the store have these bytes."""
        if store is None:
            if os.path.exists(self.path("store")):
                os.remove(self.path("store"))
        elif self.held != store:
            with open(self.path("store"), "wb") as file:
                file.write(store)

    def run(self, words, given, store, number=0):
        """The status, the output and standard error of a run over a store, and how many allocations it took. 0 refuses none of them."""
        self.put(store)
        with open(self.path("given"), "wb") as file:
            file.write(given)
        with open(self.path("given"), "rb") as source, open(self.path("output"), "wb+") as output, open(self.path("told"), "wb+") as told:
            run = Traced(self.program, words, self.folder, (source, output, told))
            try:
                status, left = run.end(run.refuse(number))
            except BaseException:
                run.process.kill()
                run.close()
                raise
            if status == -signal.SIGKILL:
                sys.exit(f"memory.py: {words[0]} went on for more than {PATIENCE} seconds")
            self.held = self.store()
            return status, *(file.seek(0) or file.read() for file in (output, told)), number - left


def line(**parts):
    return json.dumps(parts, separators=(",", ":")).encode() + b"\n"


def batches():
    """Lines of which two are batches, and the lines that ask the same one by one, in the order of the replies."""
    def call(number, who, name, of):
        return line(op="call", id=number, who=who, on=of, tx=name)
    single = [line(op="new", id=1, who="alice", contract="Tally", into="t"), line(op="new", id=2, who="bob", contract="Tally", into="u"),
              line(op="give", id=5, who="alice", on="t", to="bob", into="t", **{"as": "shared"})]
    slow, bump, again, once_more = call(3, "alice", "slow", "t"), call(4, "bob", "bump", "u"), call(6, "alice", "slow", "t"), call(7, "bob", "bump", "t")

    def batch(*requests):
        return b"[" + b",".join(request.strip() for request in requests) + b"]\n"
    return b"".join([*single[:2], batch(slow, bump), single[2], batch(again, once_more)]), [*single[:2], bump, slow, single[2], once_more, again]


def full(trials, words, new, put):
    """A store with as many records of one line as have room in its area."""
    trials.run(words, new, None)
    begun = trials.held
    trials.run(words, put, begun)
    # The last byte of what stands before a record is its gate, which opens it.
    record = b"\1" + trials.held[len(begun):-1]
    return begun[:-1] + (AREA - len(begun)) // len(record) * record + b"\0"


def sessions(trials):
    """Each session with its title."""
    with open(LINES, "rb") as file:
        lines = file.read()
    machine = ["serve", MACHINE, "store"]
    new = Session(trials, "lines on a new store", machine, lines)
    yield new
    held = new.stores[-1]
    yield Session(trials, "an opening and a look", machine, lines.splitlines(keepends=True)[-1], before=held)
    yield Session(trials, "an audit", ["audit", *machine[1:]], b"", before=held)
    given, items = batches()
    yield Session(trials, "batches", ["serve", os.path.join(SAMPLES, "slow_tally.obs"), "store", "--lanes", "2", "--slice", "10"], given, items)
    notice = ["serve", os.path.join(SAMPLES, "notice.obs"), "store"]
    put = line(op="call", id=1, who="a", on="n", tx="put", args=["x" * 1024])
    before = full(trials, notice, line(op="new", id=0, who="a", contract="Notice", into="n"), put)
    opening = trials.run(notice, b"", before)[3]
    yield Session(trials, "a move", notice, put, before=before, first=opening)


def main():
    words = argparse.ArgumentParser(usage=__doc__.split("\n\n")[1].strip())
    words.add_argument("--every", type=int, default=1)
    words.add_argument("--program", default=PROGRAM)
    asked = words.parse_args()
    if platform.machine() != "x86_64":
        print(f"memory.py: nothing was traced: it knows no {platform.machine()}")
        return
    program = Program(os.path.abspath(asked.program))
    told = []
    with tempfile.TemporaryDirectory() as folder:
        try:
            for session in sessions(Trials(program, folder)):
                counts = session.sweep(asked.every)
                told.append(f"{session.title} {sum(counts.values())} ({', '.join(f'{count} {how}' for how, count in sorted(counts.items()))})")
        except (Untraced, PermissionError) as why:
            print(f"memory.py: nothing was traced: {why}")
            return
    print("memory.py: refused allocations of " + "; ".join(told))


if __name__ == "__main__":
    main()
