#!/usr/bin/env python3
"""Looks at what the program does with real streams and files of which no sheet of cases can tell.

  python3 tests/files.py [--program PROGRAM]

It runs PROGRAM, the one that the gate has left if none is named, and wants this:

- where a read of the input fails, at once or behind whole lines, the run ends with 3: each whole line has its reply, and nothing else is written;
- where a write of the output fails, the run ends with 4;
- in both cases standard error tells which stream failed;
- standard error has one line for scripts, which names the cause: also where a stream isn't ready and doesn't wait, where nobody reads the output any
  more, and where a store is locked by somebody else, may not be opened, finds no room, or too many files are open;
- an input and an output that are set not to wait are waited for, where they are pipes;
- of a text that is too long no more is read than tells that it is;
- where the run has no right to the text, it ends with 8, and standard error tells which call failed and how;
- a STORE that is there, and is longer than 128 MiB, keeps its mode, its length and what stands behind them, and is served from run to run;
- a STORE that is a standard stream of the run, or would take the place of one that is closed, or is the program's own text, keeps each byte: the
  run ends with 5, and standard error, where it isn't closed itself, tells which it was. The same holds where /proc isn't mounted, which is tried
  where a process may have mounts of its own;
- an audit works on a file that the run may only read, and makes none where there is none;
- a STORE that is a pipe isn't opened, and ends the run with 5;
- a STORE is served in a folder whose name isn't UTF-8.

It tells each thing that isn't so, and ends with status 1 then.
"""
import argparse
import ctypes
import fcntl
import os
import resource
import select
import signal
import socket
import subprocess
import sys
import tempfile
import threading
import time

TOP = os.path.dirname(os.path.dirname(os.path.abspath(__file__)))
PROGRAM = os.path.join(TOP, "crates", "obsidian", "out", "obsidian")
TALLY = os.path.join(TOP, "tests", "programs", "tally.obs")
# Lines to a tally, and their replies.
NEW = b'{"op":"new","id":1,"who":"a","contract":"Tally","into":"t"}\n'
ADD = b'{"op":"call","id":2,"who":"a","on":"t","tx":"add","args":[5]}\n'
REPLIES = b'{"id":1,"ok":{"object":0}}\n', b'{"id":2,"ok":5}\n'
# The most bytes of a text, and how many of a longer one are written at a time.
LONGEST, PIECE = 1 << 20, 4096
# Runs of a store `s`, by a shell: what each shows, its words and redirections, and what standard error tells of `s`; None where that is no file of ours.
CLOSED = b"s: a standard stream of this run is closed, and the store would take its place"
STREAM = b"s: it is the standard input, output or error of this run"
STREAMS = [
    ("standard input is closed", "serve TALLY s <&- 2>t", CLOSED),
    ("standard output is closed", "serve TALLY s <lines >&- 2>t", CLOSED),
    ("standard error is closed", "serve TALLY s <lines 2>&-", None),
    ("all three streams are closed", "serve TALLY s <&- >&- 2>&-", None),
    ("standard output of an audit is closed", "audit TALLY s >&- 2>t", CLOSED),
    ("standard error of an audit is closed", "audit TALLY s 2>&-", None),
    ("standard output is the store, to be read and written", "serve TALLY s <lines 1<>s 2>t", STREAM),
    ("standard output is the store, to be appended to", "serve TALLY s <lines >>s 2>t", STREAM),
    ("standard error is the store", "serve TALLY s <lines 2>>s", None),
    ("standard error is the store, to be read and written", "serve TALLY s <lines 2<>s", None),
    ("standard error of an audit is the store, to be read and written", "audit TALLY s 2<>s", None),
    ("standard input is the store", "serve TALLY s <s 2>t", STREAM),
    ("standard output is the store by a hard link", "serve TALLY s <lines >>hard 2>t", STREAM),
    ("standard output is the store by a symbolic link", "serve TALLY symbolic <lines >>s 2>t", STREAM.replace(b"s:", b"symbolic:")),
]
# The same of a store that is the text of its program.
OTHER = b"s: another word of the command names it too"
# How many bytes of a STORE are the program's, and what stands behind them.
AREAS, BEHIND = 1 << 27, bytes(range(256)) * 64
# After how many seconds a run is cut, and how long it is made to wait.
PATIENCE, DELAY = 60, 0.2
# How many requests have more replies than a small pipe has room for.
MANY = 2000


class Looks:
    """One program in a folder of its own, and what wasn't as it is to be."""

    def __init__(self, program, folder):
        self.program, self.folder, self.failed = program, folder, False

    def path(self, name):
        return os.path.join(self.folder, name)

    def begin(self, *words, **how):
        """A run of these words, without input if none is given."""
        ways = {"stdin": subprocess.DEVNULL, "stdout": subprocess.PIPE, "stderr": subprocess.PIPE, "cwd": self.folder, **how}
        return subprocess.Popen([self.program, *words], **ways)

    def end(self, run, given=None, lines=1):
        """The status of a run, its output, and so many lines of what it tells."""
        try:
            output, told = run.communicate(given, PATIENCE)
        except subprocess.TimeoutExpired:
            run.kill()
            run.communicate()
            return f"cut after {PATIENCE} seconds"
        return run.returncode, output, told.splitlines()[:lines]

    def want(self, title, wanted, came):
        if came != wanted:
            print(f"files.py: {title}\n  wanted: {wanted}\n  came:   {came}")
            self.failed = True

    def reads_that_fail(self):
        """A folder can be opened as the input, and not be read. A peer that ends before it has read everything breaks what it sent off."""
        folder = os.open(self.folder, os.O_RDONLY)
        told = [b"ReadFault", b"obsidian: status input failed"]
        self.want("the first read fails", (3, b"", told), self.end(self.begin("serve", TALLY, stdin=folder), lines=2))
        os.close(folder)
        peer, end = socket.socketpair()
        peer.sendall(NEW + ADD + b'{"op"')
        end.sendall(b"unread")
        peer.close()
        wanted = 3, b"".join(REPLIES), told
        self.want("a read behind two lines fails", wanted, self.end(self.begin("serve", TALLY, stdin=end), lines=2))
        end.close()

    def writes_that_fail(self):
        with open("/dev/full", "wb") as full:
            came = self.end(self.begin("serve", TALLY, stdin=subprocess.PIPE, stdout=full), NEW + ADD, lines=4)
        told = [
            b"WriteFault",
            b"obsidian: status output full",
            b"standard output: a write failed, so what stands there may be cut short: No space left on device (os error 28)",
            b"  note: the first request without a whole reply was answered all the same: what it changed is in the store.",
        ]
        self.want("a write fails", (4, None, told), came)

    def want_cause(self, title, status, cause, run, given=None):
        """The status of a run, and its only line for scripts."""
        came = self.end(run, given, lines=None)
        if isinstance(came, tuple):
            came = came[0], [line for line in came[2] if line.startswith(b"obsidian: status ")]
        self.want(title, (status, [b"obsidian: status " + cause]), came)

    def streams_that_are_not_ready(self):
        for title, status, cause, name in (("input", 3, b"input blocking", "stdin"), ("output", 4, b"output blocking", "stdout")):
            peer, end = socket.socketpair()
            end.setblocking(False)
            run = self.begin("serve", TALLY, **{"stdin": subprocess.PIPE, name: end})
            self.want_cause(f"standard {title} doesn't wait", status, cause, run, (NEW + 50000 * ADD) * (name == "stdout") or None)
            peer.close()
            end.close()
        reader, writer = os.pipe()
        os.close(reader)
        self.want_cause("nobody reads the output", 4, b"output closed", self.begin("serve", TALLY, stdin=subprocess.PIPE, stdout=writer), NEW)
        os.close(writer)

    def stores_that_cannot_be_had(self):
        """Each store is another file, since the first run makes it. A limit of files is a signal, which is ignored here."""
        for title, cause, prepare in (
            ("too many files are open", b"disk files", lambda: resource.setrlimit(resource.RLIMIT_NOFILE, (4, 4))),
            ("a store finds no room", b"disk full", lambda: resource.setrlimit(resource.RLIMIT_FSIZE, (16, 16))),
            ("a folder that may not be written", b"disk permission", lambda: (os.chdir("closed"), obey_rights())),
        ):
            os.makedirs(self.path("closed"), 0o500, exist_ok=True)
            signal.signal(signal.SIGXFSZ, signal.SIG_IGN)
            run = self.begin("serve", TALLY, cause.decode(), stdin=subprocess.PIPE, preexec_fn=prepare, restore_signals=False)
            self.want_cause(title, 5, cause, run, NEW)
        with open(self.path("locked"), "wb") as file:
            fcntl.flock(file, fcntl.LOCK_EX)
            self.want_cause("a store that is locked", 5, b"disk locked", self.begin("serve", TALLY, "locked"))

    def input_that_does_not_wait(self):
        """A pipe is waited for. A socket can't be opened once more, so its refusal is told."""
        end, into_pipe = os.pipe()
        os.set_blocking(end, False)
        run = self.begin("serve", TALLY, stdin=end)
        os.close(end)
        for line in (NEW, ADD):
            time.sleep(DELAY)
            os.write(into_pipe, line)
        os.close(into_pipe)
        self.want("a pipe that doesn't wait as the input", (0, b"".join(REPLIES), []), self.end(run, lines=0))
        peer, end = socket.socketpair()
        end.setblocking(False)
        self.want("a socket that doesn't wait as the input", (3, b"", []), self.end(self.begin("serve", TALLY, stdin=end), lines=0))
        peer.close()
        end.close()

    def output_that_does_not_wait(self):
        """The pipe has room for few of the replies until they are read."""
        from_pipe, end = os.pipe()
        fcntl.fcntl(end, fcntl.F_SETPIPE_SZ, PIECE)
        os.set_blocking(end, False)
        with open(self.path("lines"), "wb") as file:
            file.write(NEW + ADD * MANY)
        with open(self.path("lines"), "rb") as lines:
            run = self.begin("serve", TALLY, stdin=lines, stdout=end)
        os.close(end)
        time.sleep(DELAY)
        with open(from_pipe, "rb") as replies:
            came = replies.read()
        self.want("a pipe that doesn't wait as the output", (0, 1 + MANY), (self.end(run, lines=0)[0], came.count(b"\n")))

    def audits(self):
        self.end(self.begin("serve", TALLY, "a", stdin=subprocess.PIPE), NEW, 0)
        os.chmod(self.path("a"), 0o400)
        numbers = b"objects 1\nhandles 1\nowned 0\nshared 1\ndisowned 0\nloose 0\n"
        came = self.end(self.begin("audit", TALLY, "a", preexec_fn=obey_rights), lines=0)
        self.want("an audit of a file that may only be read", (0, numbers, []), came)
        came = self.end(self.begin("audit", TALLY, "missing"), lines=0)
        self.want("an audit of a file that is missing", (5, b"", False), (*came[:2], os.path.exists(self.path("missing"))))

    def store_that_is_a_pipe(self):
        """Who has a pipe open to read learns when a writer came and went."""
        os.mkfifo(self.path("fifo"))
        end = os.open(self.path("fifo"), os.O_RDONLY | os.O_NONBLOCK)
        came = self.end(self.begin("serve", TALLY, "fifo"), lines=0)
        seen = select.poll()
        seen.register(end)
        self.want("a store that is a pipe isn't opened", (5, b"", []), (*came[:2], seen.poll(0)))
        os.close(end)

    def folder_without_utf_8(self):
        folder = os.path.join(os.fsencode(self.folder), b"\xff")
        os.mkdir(folder)
        run = self.begin("serve", TALLY, "s", stdin=subprocess.PIPE, cwd=folder)
        self.want("a store in a folder whose name isn't UTF-8", (0, REPLIES[0], []), self.end(run, NEW, 0))

    def long_text(self):
        """The text comes through a pipe, so that it is seen how much of it was taken, but for what the pipe holds."""
        from_pipe, into_pipe = os.pipe()
        most = LONGEST + fcntl.fcntl(into_pipe, fcntl.F_GETPIPE_SZ)
        run = self.begin("check", "/dev/stdin", stdin=from_pipe)
        os.close(from_pipe)
        timer = threading.Timer(PATIENCE, run.kill)
        timer.start()
        taken = 0
        try:
            while taken < 4 * LONGEST:
                taken += os.write(into_pipe, bytes(PIECE))
        except BrokenPipeError:
            pass
        timer.cancel()
        os.close(into_pipe)
        self.want("a text that is too long", (1, b"1:1: 109 LongProgram\n", [b"/dev/stdin:1:1: 109 LongProgram"]), self.end(run))
        self.want("how much of it is taken", f"{most} bytes at most", f"{max(most, taken)} bytes at most")

    def text_without_right(self):
        with open(self.path("p"), "wb") as file:
            os.fchmod(file.fileno(), 0)
        told = [b"FileFault", b"obsidian: status file permission", b"p: it couldn't be opened: Permission denied (os error 13)"]
        came = self.end(self.begin("check", "p", preexec_fn=obey_rights), lines=3)
        self.want("a text to which the run has no right", (8, b"", told), came)

    def shell(self, script):
        """The status of a script that runs the program, called `obsidian`; it finds a tally's text as TALLY, and a request as `lines`."""
        with open(self.path("lines"), "wb") as file:
            file.write(ADD)
        script = script.replace("TALLY", TALLY).replace("obsidian", self.program)
        return subprocess.run(["sh", "-c", script], cwd=self.folder, stdin=subprocess.DEVNULL, stdout=subprocess.DEVNULL, timeout=PATIENCE).returncode

    def read(self, name):
        with open(self.path(name), "rb") as file:
            return file.read()

    def store_apart(self, title, status, script, told, cause=b"stream"):
        """Runs a script over a new store `s`, and wants its status, what it tells in `t`, and each byte of the store as it was."""
        for name in ("s", "t", "hard", "symbolic"):
            if os.path.lexists(self.path(name)):
                os.remove(self.path(name))
        self.end(self.begin("serve", TALLY, "s", stdin=subprocess.PIPE), NEW, 0)
        os.link(self.path("s"), self.path("hard"))
        os.symlink("s", self.path("symbolic"))
        kept = self.read("s")
        came = self.shell(script)
        wanted = [] if told is None else [b"obsidian: status disk " + cause, told]
        tells = [] if told is None else [line for line in self.read("t").splitlines() if line in wanted]
        self.want(title, (status, wanted, True), (came, tells, self.read("s") == kept))

    def stores_that_are_streams(self):
        for title, words, told in STREAMS:
            self.store_apart(title, 5, f"exec obsidian {words}", told)
        self.store_apart("a store that is the program's text", 5, "cp TALLY p; exec obsidian serve p p <lines 2>t", OTHER.replace(b"s:", b"p:"))
        for title, words in (
            ("standard error is the store, and the text has a fault", "echo '{' >q; exec obsidian serve q s <lines 2<>s"),
            ("standard error is the store, and the text is missing", "rm -f q; exec obsidian serve q s <lines 2<>s"),
        ):
            self.store_apart(title, 1 if "echo" in words else 8, words, None)
        self.want("the text stays", True, self.read("p") == open(TALLY, "rb").read())
        for title, words in (("to be read and written", "1<>s"), ("to be appended to", ">>s")):
            script = f"echo fault >bad; exec obsidian serve bad s <lines {words} 2>t"
            self.store_apart(f"a text with a fault is refused, and standard output is the store, {title}", 4, script, None)

    def stores_apart_from_streams(self):
        """A plain run, and one between pipes, over stores that are no streams."""
        for title, script in (
            ("a run between files", "obsidian serve TALLY s <lines >t 2>u"),
            ("a run between pipes", "cat lines | obsidian serve TALLY s 2>u | cat >t"),
        ):
            if os.path.exists(self.path("s")):
                os.remove(self.path("s"))
            self.end(self.begin("serve", TALLY, "s", stdin=subprocess.PIPE), NEW, 0)
            self.want(title, (0, REPLIES[1]), (self.shell(script), self.read("t")))

    def store_without_proc(self):
        """A mount of an empty folder over /proc is seen by nobody else: the script has mounts of its own."""
        hide = "mount --make-rprivate / && mount -t tmpfs none /proc"
        if subprocess.run(["unshare", "--mount", "sh", "-c", hide], stderr=subprocess.DEVNULL).returncode != 0:
            print("files.py: not tried: a run without /proc, since no mounts of its own are to be had here")
            return
        told = b"s: /proc doesn't tell which files this run has open: entity not found"
        script = f"exec unshare --mount sh -c '{hide} && exec obsidian serve TALLY s <lines 2>t'"
        self.store_apart("a run without /proc", 5, script, told, b"proc")

    def long_store(self):
        with open(self.path("s"), "wb") as file:
            os.fchmod(file.fileno(), 0o640)
            file.seek(AREAS)
            file.write(BEHIND)
        for line, reply in zip((NEW, ADD), REPLIES):
            ended = self.end(self.begin("serve", TALLY, "s", stdin=subprocess.PIPE), line, 0)
            self.want("a line to a long store", (0, reply, []), ended)
        with open(self.path("s"), "rb") as file:
            mode = os.fstat(file.fileno()).st_mode & 0o777
            file.seek(AREAS)
            behind = file.read()
        self.want("the mode of a store that is there", 0o640, mode)
        self.want("what stands behind the 128 MiB of a store stays", True, behind == BEHIND)


def obey_rights():
    """Lets root have no more rights to a file than its mode gives: CAP_DAC_OVERRIDE and CAP_DAC_READ_SEARCH go from PR_CAPBSET_DROP on."""
    for capability in (1, 2):
        ctypes.CDLL(None).prctl(24, capability, 0, 0, 0)


def main():
    parser = argparse.ArgumentParser(usage=__doc__.split("\n\n")[1].strip())
    parser.add_argument("--program", default=PROGRAM)
    given = parser.parse_args()
    with tempfile.TemporaryDirectory() as folder:
        looks = Looks(os.path.abspath(given.program), folder)
        looks.reads_that_fail()
        looks.writes_that_fail()
        looks.streams_that_are_not_ready()
        looks.stores_that_cannot_be_had()
        looks.input_that_does_not_wait()
        looks.output_that_does_not_wait()
        looks.long_text()
        looks.text_without_right()
        looks.stores_that_are_streams()
        looks.stores_apart_from_streams()
        looks.store_without_proc()
        looks.audits()
        looks.store_that_is_a_pipe()
        looks.folder_without_utf_8()
        looks.long_store()
    if not looks.failed:
        print("files.py: streams and files are as they should be")
    sys.exit(1 if looks.failed else 0)


if __name__ == "__main__":
    main()
