#!/usr/bin/env python3
"""Runs a ledger by the scripts and units of examples/ledger, with a front that reconnects, and looks at what becomes of it.

  python3 tests/ledger.py [--program PROGRAM]

PROGRAM is the one that the gate has left if none is named. Systemd is stood in for: for each connection the words of `ExecStart` run with the
connection as input and output, one at a time, and a stop runs `ExecStop`, sends SIGTERM to the session, waits, and kills what is left. The
front sends a request at a time, and looks after each new connection how far the ledger is. It wants this:

- the first store is made once, with all its room; none is begun by a session, whatever is at its name;
- a backup, a restore, a kill, a stop and a lock of another's need no person: the front goes on after each, nothing answered is lost, and at most
  the request that it waited for was done without a reply; what was answered before a backup is in the copy;
- where the program says a fault that needs a person, and where what a run has left can't be synced, no session begins until `stopped` is gone;
- a copy that was changed isn't restored;
- the guide shows the files as they are; the scripts have no fault that shellcheck finds, and the unit scores 3 at most.

It tells each thing that isn't so, and what it couldn't try on this machine, and ends with status 1 if something isn't so.
"""
import argparse
import configparser
import fcntl
import json
import os
import re
import shlex
import shutil
import signal
import socket
import subprocess
import sys
import tempfile
import threading
import time

TOP = os.path.dirname(os.path.dirname(os.path.abspath(__file__)))
PROGRAM = os.path.join(TOP, "crates", "obsidian", "out", "obsidian")
TALLY = os.path.join(TOP, "tests", "programs", "tally.obs")
EXAMPLES = os.path.join(TOP, "examples", "ledger")
GUIDE = os.path.join(TOP, "docs", "GUIDE.md")
SCRIPTS = "settings", "session", "begin", "backup", "restore"
# What the guide shows as it is.
SHOWN = {"ledger.socket", "ledger@.service"}
# How many bytes a store may ever have.
AREAS = 1 << 27
# After how many seconds a wait is given up, here and by the scripts, and how long a front waits before it connects again.
PATIENCE, TURN, PAUSE = 240, 20, 0.02
# The most that the unit may score at `systemd-analyze security`, in tenths.
SCORE = 30
# The causes of status 5 after which a next run may be tried, and those that need a person.
HARMLESS = "locked", "missing", "permission", "files", "memory", "kind", "stream", "replaced", "proc", "open", "lock"
GRAVE = "folder", "length", "read", "write", "full", "sync"


def line_of(number, operation, **parts):
    return json.dumps({"op": operation, "id": number, "who": "a", **parts}, separators=(",", ":")).encode() + b"\n"


def unit(name):
    """The settings of a unit, by section."""
    parsed = configparser.ConfigParser(strict=False, interpolation=None)
    parsed.optionxform = str
    parsed.read(os.path.join(EXAMPLES, name))
    return parsed


class StandIn:
    """Does with ledger.socket and ledger@.service what systemd does, as far as the streams and the ends of sessions go."""

    def __init__(self, folder):
        self.folder = folder
        service, listening = unit("ledger@.service")["Service"], unit("ledger.socket")["Socket"]
        wanted = ["yes", "1", "socket", "socket", "mixed"]
        asked = [listening["Accept"], listening["MaxConnections"], service["StandardInput"], service["StandardOutput"], service["KillMode"]]
        if asked != wanted:
            sys.exit(f"ledger.py: the units ask for {asked}, and the stand-in does {wanted}")
        self.start, self.stop = (self.words(service[key]) for key in ("ExecStart", "ExecStop"))
        self.last = int(service["TimeoutStopSec"])
        self.path = os.path.join(folder, "socket")
        self.listener = self.listen(self.path, self.connected)
        self.control = self.listen(os.path.join(folder, "control"), self.asked_to_stop)
        self.turn, self.session, self.connection, self.killed = threading.Lock(), None, None, 0

    def words(self, command):
        """The words of a command, with the scripts of this folder."""
        return [word.replace("/usr/local/lib/ledger", self.folder) for word in shlex.split(command)]

    def listen(self, path, handle):
        listener = socket.socket(socket.AF_UNIX)
        listener.bind(path)
        listener.listen(64)
        threading.Thread(target=self.accept, args=(listener, handle), daemon=True).start()
        return listener

    @staticmethod
    def accept(listener, handle):
        while True:
            try:
                handle(listener.accept()[0])
            except OSError:
                return

    def connected(self, connection):
        with self.turn:
            if self.session:
                connection.close()
                return
            with open(os.path.join(self.folder, "log"), "ab") as log:
                self.session = subprocess.Popen(self.start, stdin=connection, stdout=connection, stderr=log, start_new_session=True)
            self.connection = connection
            threading.Thread(target=self.wait, args=(self.session, connection), daemon=True).start()

    def wait(self, session, connection):
        session.wait()
        try:
            os.killpg(session.pid, signal.SIGKILL)
        except ProcessLookupError:
            pass
        with self.turn:
            connection.close()
            self.session = self.connection = None

    def end(self):
        """What `systemctl stop 'ledger@*.service'` does."""
        with self.turn:
            session = self.session
            if session is None:
                return
            subprocess.run(self.stop, stdin=self.connection, stdout=self.connection, check=False)
        session.terminate()
        try:
            session.wait(self.last)
        except subprocess.TimeoutExpired:
            self.killed += 1
            session.kill()

    def asked_to_stop(self, connection):
        self.end()
        connection.close()

    def program(self):
        """The number of the process of the program in the session; None, where there is none."""
        session = self.session
        if session is None:
            return None
        found = subprocess.run(["pgrep", "-P", str(session.pid), "-f", " serve "], stdout=subprocess.PIPE, text=True, check=False).stdout.split()
        return int(found[0]) if found else None

    def close(self):
        for listener in self.listener, self.control:
            listener.shutdown(socket.SHUT_RDWR)
            listener.close()
        self.end()


class Front(threading.Thread):
    """Adds 1, again and again, and connects again where the connection ends. It keeps the greatest number that it was answered, what it saw
    after each connection, and what wasn't as it is to be."""

    def __init__(self, path):
        super().__init__(daemon=True)
        self.path, self.answered, self.seen, self.wrong, self.is_ending = path, 0, [], [], False
        self.start()

    def run(self):
        while not self.is_ending:
            try:
                with socket.socket(socket.AF_UNIX) as connection:
                    connection.connect(self.path)
                    self.session(connection, connection.makefile("rb"))
            except OSError:
                pass
            time.sleep(PAUSE)

    @staticmethod
    def ask(connection, replies, line):
        """What a reply has as `ok`; None, where there is no whole reply."""
        connection.sendall(line)
        told = replies.readline()
        return json.loads(told)["ok"] if told.endswith(b"\n") else None

    def session(self, connection, replies):
        seen = self.ask(connection, replies, line_of(0, "see", on="t"))
        if seen is None:
            return
        there = seen["fields"]["n"]
        if there not in (self.answered, self.answered + 1):
            self.wrong.append(f"{self.answered} were answered, and {there} are there")
        self.answered = there
        self.seen.append(there)
        while not self.is_ending:
            given = self.ask(connection, replies, line_of(there, "call", on="t", tx="add", args=[1]))
            if given is None:
                return
            there += 1
            if given != there:
                self.wrong.append(f"{given} was answered, and not {there}")
            self.answered = there

    def end(self):
        self.is_ending = True
        self.join(PATIENCE)


class Ledger:
    """A folder with the scripts and a ledger, and what stands in for systemd."""

    def __init__(self, folder, program, disk=None):
        self.folder, self.program = folder, program
        os.makedirs(disk or os.path.join(folder, "disk"), exist_ok=True)
        self.store = os.path.join(disk or os.path.join(folder, "disk"), "ledger.store")
        self.copies, self.runtime = os.path.join(folder, "copies"), os.path.join(folder, "run")
        os.mkdir(self.runtime)
        for name in SCRIPTS:
            shutil.copy(os.path.join(EXAMPLES, name), folder)
        shutil.copy(program, os.path.join(folder, "obsidian"))
        self.set(program=os.path.join(folder, "obsidian"), text=TALLY, store=self.store, copies=self.copies, run=self.runtime, patience=TURN)
        self.stand_in = StandIn(folder)
        end = f"{shlex.quote(sys.executable)} {shlex.quote(os.path.abspath(__file__))} --end {shlex.quote(os.path.join(folder, 'control'))}"
        self.change("settings", "    systemctl stop 'ledger@*.service'\n", f"    {end}\n")

    def path(self, name):
        return os.path.join(self.folder, name)

    def change(self, name, old, new):
        """Puts a text in the place of another, which is there once."""
        with open(self.path(name), encoding="utf-8") as file:
            text = file.read()
        if text.count(old) != 1:
            sys.exit(f"ledger.py: {name} hasn't once: {old}")
        with open(self.path(name), "w", encoding="utf-8") as file:
            file.write(text.replace(old, new))

    def set(self, **values):
        for key, value in values.items():
            with open(self.path("settings"), encoding="utf-8") as file:
                old = re.search(rf"^{key}=.*\n", file.read(), re.M)
            self.change("settings", "\n" + old.group(), f"\n{key}={shlex.quote(str(value))}\n")

    def script(self, name, *words, given=b"", path=None):
        """The status of a script, what it writes, and what it says."""
        environment = {**os.environ, "PATH": f"{path}:{os.environ['PATH']}"} if path else None
        try:
            run = subprocess.run([self.path(name), *words], input=given, capture_output=True, timeout=PATIENCE, check=False, env=environment)
        except subprocess.TimeoutExpired:
            return f"cut after {PATIENCE} seconds", b"", ""
        return run.returncode, run.stdout, run.stderr.decode(errors="replace")

    def is_stopped(self):
        return os.path.exists(os.path.join(self.runtime, "stopped"))

    def start_again(self):
        os.remove(os.path.join(self.runtime, "stopped"))

    def count_in(self, store):
        """The number in a store. The file is copied first, so that it stays as it is."""
        shutil.copy(store, self.path("looked_at"))
        run = subprocess.run([self.program, "serve", TALLY, self.path("looked_at")], input=line_of(0, "see", on="t"), capture_output=True,
                             timeout=PATIENCE, check=False)
        os.remove(self.path("looked_at"))
        return json.loads(run.stdout)["ok"]["fields"]["n"] if run.returncode == 0 else f"status {run.returncode}: {run.stderr.decode()}"

    def last_copy(self):
        return os.path.join(self.copies, max(os.listdir(self.copies)))


class Looks:
    """What isn't so, and the ledgers that are looked at."""

    def __init__(self, program, folder):
        self.program, self.folder, self.failed, self.count = program, folder, False, 0

    def ledger(self, disk=None):
        self.count += 1
        folder = os.path.join(self.folder, str(self.count))
        os.mkdir(folder)
        return Ledger(folder, self.program, disk)

    def want(self, title, wanted, came):
        if came != wanted:
            print(f"ledger.py: {title}\n  wanted: {wanted}\n  came:   {came}", flush=True)
            self.failed = True

    def until(self, title, holds):
        """Waits until something is so."""
        end = time.monotonic() + PATIENCE
        while not holds():
            if time.monotonic() > end:
                self.want(title, "so", f"not so after {PATIENCE} seconds")
                return
            time.sleep(PAUSE)

    def goes_on(self, title, front):
        """Waits until a front is answered again."""
        before = front.answered
        self.until(f"{title}: the front goes on", lambda: front.answered > before + 5)

    def begun(self):
        """A ledger with a tally."""
        ledger = self.ledger()
        self.want("begin", (0, b""), ledger.script("begin")[:2])
        ended = ledger.script("session", given=line_of(0, "new", contract="Tally", into="t"))
        self.want("the first session", (0, b'{"id":0,"ok":{"object":0}}\n'), ended[:2])
        return ledger

    def first_store(self):
        """It is made once, and whatever else is at its name isn't touched."""
        ledger = self.ledger()
        given = line_of(0, "new", contract="Tally", into="t")
        for title, content in ("no file", None), ("an empty file", b""), ("a blank file", bytes(4096)), ("another file", b"\0a film" * 999):
            if content is not None:
                with open(ledger.store, "wb") as file:
                    file.write(content)
            self.want(f"a session where there is {title}", (75, b""), ledger.script("session", given=given)[:2])
            if content is None:
                self.want("no file after that", False, os.path.exists(ledger.store))
                continue
            self.want(f"begin where there is {title}", 75, ledger.script("begin")[0])
            with open(ledger.store, "rb") as file:
                self.want(f"{title} after that", True, file.read() == content)
            os.remove(ledger.store)
        self.want("begin", 0, ledger.script("begin")[0])
        found = os.stat(ledger.store)
        self.want("the room of the first store", (AREAS, AREAS // 512), (found.st_size, found.st_blocks // 8 * 8))
        self.want("the mode of the first store", 0o600, found.st_mode & 0o777)
        self.want("a second begin", 75, ledger.script("begin")[0])
        self.want("the first store has its tally", (0, b'{"id":0,"ok":{"object":0}}\n'), ledger.script("session", given=given)[:2])
        with open(ledger.store, "r+b") as file:
            file.write(b"\0")
        self.want("a session over a store whose first byte is gone", (75, b""), ledger.script("session", given=given)[:2])
        self.want("stopped after all that", False, ledger.is_stopped())
        ledger.stand_in.close()

    def backups(self, ledger, front):
        for _ in range(2):
            self.goes_on("before a backup", front)
            before = front.answered
            ended = ledger.script("backup")
            self.want(f"a backup: {ended[2]}", (0, True), (ended[0], ended[1].startswith(b"objects 1\nhandles 1\n")))
            copied = ledger.count_in(os.path.join(ledger.last_copy(), "ledger.store"))
            self.goes_on("after a backup", front)
            self.want("what was answered before a backup is in the copy", True, copied >= before)
            self.want("the copy is what the front saw after the backup", True, copied in front.seen)
            time.sleep(1)
        self.want("how many copies there are", 2, len(os.listdir(ledger.copies)))

    def kills(self, ledger, front):
        for _ in range(3):
            self.goes_on("before a kill", front)
            os.kill(ledger.stand_in.program(), signal.SIGKILL)
            self.goes_on("after a kill", front)

    def locks(self, ledger, front):
        """A script's turn, and then another's lock of the store, before which no session has come."""
        with open(ledger.store, "rb") as store:
            turn = os.open(ledger.runtime, os.O_RDONLY)
            self.goes_on("before a turn", front)
            fcntl.flock(turn, fcntl.LOCK_EX)
            ledger.stand_in.end()
            self.waits("while a script has its turn", front)
            ledger.set(patience=1)
            for words in ("backup",), ("restore", ledger.last_copy()):
                self.want(f"{words[0]} while a script has its turn", 75, ledger.script(*words)[0])
            ledger.set(patience=TURN)
            fcntl.flock(store, fcntl.LOCK_EX | fcntl.LOCK_NB)
            os.close(turn)
            self.waits("while the store is locked", front)
            self.want("a session while the store is locked", (75, b""), ledger.script("session")[:2])
        self.goes_on("after a lock", front)

    def waits(self, title, front):
        """Looks whether a front is answered nothing for a while."""
        before = front.answered, len(front.seen)
        time.sleep(0.5)
        self.want(f"the front waits {title}", before, (front.answered, len(front.seen)))

    def restores(self, ledger, front):
        """A copy comes back, and the file that was the store stays beside it; a copy that was changed is refused."""
        self.goes_on("before a restore", front)
        front.end()
        copy = ledger.last_copy()
        copied = ledger.count_in(os.path.join(copy, "ledger.store"))
        kept = set(os.listdir(os.path.dirname(ledger.store)))
        # Its bytes that are 0 are made to take no room.
        subprocess.run(["fallocate", "--dig-holes", os.path.join(copy, "ledger.store")], check=True)
        self.want("a restore", 0, ledger.script("restore", copy)[0])
        self.want("the store after a restore", copied, ledger.count_in(ledger.store))
        self.want("its room", AREAS // 512, os.stat(ledger.store).st_blocks // 8 * 8)
        older = set(os.listdir(os.path.dirname(ledger.store))) - kept
        self.want("how many files a restore leaves", 1, len(older))
        self.want("what was the store", front.answered, ledger.count_in(os.path.join(os.path.dirname(ledger.store), older.pop())))
        with open(os.path.join(copy, "ledger.store"), "r+b") as file:
            file.seek(600)
            byte = file.read(1)
            file.seek(600)
            file.write(bytes([byte[0] ^ 1]))
        self.want("a restore of a copy that was changed", 1, ledger.script("restore", copy)[0])
        self.want("the store after that", copied, ledger.count_in(ledger.store))

    def stops(self, ledger):
        """What was sent before a stop is answered, and the session ends then."""
        begun = time.monotonic()
        with socket.socket(socket.AF_UNIX) as connection:
            connection.connect(ledger.stand_in.path)
            connection.sendall(b"".join(line_of(number, "call", on="t", tx="add", args=[1]) for number in range(200)))
            self.until("the program of a session runs", lambda: ledger.stand_in.program() is not None)
            ledger.stand_in.end()
            replies = [json.loads(line)["id"] for line in connection.makefile("rb")]
        self.want("what was sent before a stop is answered", list(range(200)), replies)
        self.want("how many sessions a stop had to kill", 0, ledger.stand_in.killed)
        self.want("whether the stop took long", False, time.monotonic() - begun > ledger.stand_in.last)

    def goings_on(self):
        ledger = self.begun()
        front = Front(ledger.stand_in.path)
        for part in self.backups, self.kills, self.locks, self.restores:
            part(ledger, front)
        self.stops(ledger)
        self.want("what the front found wrong", [], front.wrong)
        self.want("stopped after all that", False, ledger.is_stopped())
        ledger.stand_in.close()

    def faults(self):
        """Of a program that ends so: the status, what it says, and whether a person is needed."""
        ledger = self.begun()
        runs = [(5, f"obsidian: status disk {cause}", False) for cause in HARMLESS]
        runs += [(5, f"obsidian: status disk {cause}", True) for cause in GRAVE]
        runs += [(5, "DiskFault", True), (6, "obsidian: status store 612", True)]
        runs += [(status, "", False) for status in (0, 1, 2, 3, 4, 7, 8, 9, 137)]
        for status, said, is_grave in runs:
            with open(ledger.path("obsidian"), "w", encoding="utf-8") as file:
                file.write(f"#!/bin/sh\necho '{said}' >&2\nexit {status}\n")
            ended = ledger.script("session")
            self.want(f"a session that ends with {status} {said}", (status, b"", is_grave), (*ended[:2], ledger.is_stopped()))
            if is_grave and ledger.is_stopped():
                self.want("the next session", 75, ledger.script("session")[0])
                ledger.start_again()
        os.mkdir(ledger.path("bin"))
        with open(ledger.path("bin/dd"), "w", encoding="utf-8") as file:
            file.write(f"#!/bin/sh\ncase \"$*\" in *fdatasync*) exit 1 ;; esac\nexec {shutil.which('dd')} \"$@\"\n")
        os.chmod(ledger.path("bin/dd"), 0o755)
        ended = ledger.script("session", path=ledger.path("bin"))
        self.want("a session where the store can't be synced", (5, b"", True), (*ended[:2], ledger.is_stopped()))
        self.want("a backup where the store can't be synced", 1, ledger.script("backup", path=ledger.path("bin"))[0])
        self.want("the copies after that", [], os.listdir(ledger.copies))
        ledger.stand_in.close()

    def syncs_first(self):
        """What is done before each run, by its calls of the system: a sync, and behind it the advice to forget what is kept of the file."""
        if not shutil.which("strace"):
            print("ledger.py: not tried, for want of strace: the calls that bring a store to the disk")
            return
        ledger = self.begun()
        shutil.copy(TALLY, ledger.path("file"))
        words = ["bash", "-c", f". {shlex.quote(ledger.path('settings'))}; settle {shlex.quote(ledger.path('file'))}"]
        traced = "trace=fdatasync,fadvise64,ftruncate,write,pwrite64"
        told = subprocess.run(["strace", "-f", "-o", ledger.path("calls"), "-e", traced, *words], check=False)
        with open(ledger.path("calls"), encoding="utf-8") as file:
            calls = re.findall(r"^\d+ +(\w+\(.*\)) += (\S+)$", file.read(), re.M)
        self.want("the calls that bring a store to the disk", (0, [("fdatasync(1)", "0"), ("fadvise64(1, 0, 0, POSIX_FADV_DONTNEED)", "0")]),
                  (told.returncode, calls))
        with open(ledger.path("file"), "rb") as file, open(TALLY, "rb") as text:
            self.want("the file after that", True, file.read() == text.read())
        ledger.stand_in.close()

    def full_disk(self):
        disk = os.path.join(self.folder, "small")
        os.mkdir(disk)
        mounted = subprocess.run(["mount", "-t", "tmpfs", "-o", "size=64k", "tmpfs", disk], stderr=subprocess.DEVNULL, check=False)
        if mounted.returncode != 0:
            print("ledger.py: not tried, for want of the right to mount: a full disk")
            return
        try:
            self.fill(disk)
        finally:
            subprocess.run(["umount", "--lazy", disk], check=False)

    def fill(self, disk):
        ledger = self.ledger(disk)
        self.want("begin on a disk without room", 1, ledger.script("begin")[0])
        self.want("what that leaves", [], os.listdir(disk))
        given = line_of(0, "new", contract="Tally", into="t")
        subprocess.run([self.program, "serve", TALLY, ledger.store], input=given, capture_output=True, check=True)
        front = Front(ledger.stand_in.path)
        self.until("a full disk stops the ledger", ledger.is_stopped)
        self.waits("while it is stopped", front)
        subprocess.run(["mount", "-o", "remount,size=1m", disk], check=True)
        ledger.start_again()
        self.goes_on("after a full disk has room again", front)
        front.end()
        self.want("what the front found wrong on a full disk", [], front.wrong)
        ledger.stand_in.close()

    def files(self):
        with open(GUIDE, encoding="utf-8") as file:
            guide = file.read()
        shown = re.findall(r"\]\(\.\./examples/ledger/([^)]+)\)[^\n]*:\n\n```\n(.*?)```\n", guide, re.S)
        for name, block in shown:
            with open(os.path.join(EXAMPLES, name), encoding="utf-8") as file:
                self.want(f"{name} as the guide shows it", file.read(), block)
        self.want("what the guide shows", SHOWN, {name for name, _ in shown} & SHOWN)
        scored = ["security", "--offline=true", f"--threshold={SCORE}", "./ledger@.service"]
        for name, words in ("shellcheck", ["-x", *SCRIPTS]), ("systemd-analyze", scored):
            if not shutil.which(name):
                print(f"ledger.py: not tried, for want of {name}: what it finds in {words[-1]}")
                continue
            found = subprocess.run([name, *words], cwd=EXAMPLES, capture_output=True, text=True, check=False)
            self.want(f"what {name} finds: {found.stdout}{found.stderr}", 0, found.returncode)


def end_session(control):
    """Has the stand-in end the session, and waits until it has ended."""
    with socket.socket(socket.AF_UNIX) as connection:
        connection.connect(control)
        connection.recv(1)


def main():
    parser = argparse.ArgumentParser(usage=__doc__.split("\n\n")[1].strip())
    parser.add_argument("--program", default=PROGRAM)
    parser.add_argument("--end", help=argparse.SUPPRESS)
    given = parser.parse_args()
    if given.end:
        end_session(given.end)
        return
    # So that what was mounted and made is taken away where this is ended from outside.
    signal.signal(signal.SIGTERM, lambda *_: sys.exit(1))
    with tempfile.TemporaryDirectory() as folder:
        looks = Looks(os.path.abspath(given.program), folder)
        for part in looks.files, looks.first_store, looks.goings_on, looks.faults, looks.syncs_first, looks.full_disk:
            part()
    if not looks.failed:
        print("ledger.py: the ledger goes on, and stops, as it should")
    sys.exit(1 if looks.failed else 0)


if __name__ == "__main__":
    main()
