#!/usr/bin/env python3
"""Tests the client `obsidian.py` against the proved program.

  python3 clients/python/test_obsidian.py [--program PROGRAM]
"""
import contextlib
import io
import os
import re
import signal
import sys
import tempfile
import threading
import time
import unittest

import obsidian
import vending_machine
from obsidian import Ref

TOP = vending_machine.TOP
COMMAND = [os.path.join(TOP, "crates", "obsidian", "out", "obsidian")]
# In the place of the program: it answers the second request of a batch, writes a part of the next reply, and ends as where the disk fails.
ENDS_EARLY = [sys.executable, "-c", "input(); print('{\"id\":2,\"ok\":7}\\n{\"id\"', end=''); raise SystemExit(5)"]
# In the place of the program: it answers each line with that text, or not at all, and doesn't end where its input does.
SAYS = [sys.executable, "-c", "import sys; [print(sys.argv[1], flush=True) for line in sys.stdin]"]
SILENT = [sys.executable, "-c", "import time; time.sleep(600)"]
# After how many seconds a request is given up, and after how many a run that should have ended is killed.
LIMIT, PATIENCE = 0.2, 30


def serve(name, **how):
    example = os.path.join(TOP, "examples", name.removesuffix(".obs"), name)
    path = example if os.path.exists(example) else os.path.join(TOP, "tests", "programs", name)
    return obsidian.Server(path, command=COMMAND, **how)


def rows_of_reference(front):
    """The cells of the table of the reference that begins with this line."""
    with open(os.path.join(TOP, "docs", "REFERENCE.md"), encoding="utf-8") as file:
        rows = file.read().partition(front)[2].split("\n")[2:]
    end = next(place for place, row in enumerate(rows) if not row.startswith("|"))
    return [[cell.strip() for cell in row.strip("|").split("|")] for row in rows[:end]]


def without_links(text):
    """A text of the reference, with the names of the guide's chapters in quotes."""
    return re.sub(r"\[([^]]*)\]\([^)]*\)", r'"\1" in the guide', text)


class TablesTest(unittest.TestCase):
    """What the client says of refusals and aborts is what the reference says."""

    def test_refusals_are_those_of_the_reference(self):
        rows = rows_of_reference("| number | name | the line is refused where | what to do |")
        self.assertEqual({int(number): (name, advice) for number, name, _, advice in rows}, obsidian.REFUSALS)

    def test_aborts_are_those_of_the_reference(self):
        rows = rows_of_reference("| `abort` | with | why | what to do |")
        told = {(name.strip("`"), *re.findall(r"`(\w+)`", parts)): without_links(advice) for name, parts, _, advice in rows}
        self.assertEqual(told, obsidian.ABORTS)


class ServingTest(unittest.TestCase):
    def refusal(self, name, ask, *words, **parts):
        with self.assertRaises(obsidian.Refused) as raised:
            ask(*words, **parts)
        self.assertEqual(raised.exception.name, name)
        self.assertIn(raised.exception.advice, str(raised.exception))

    def abort(self, name, details, ask, *words, **parts):
        with self.assertRaises(obsidian.Aborted) as raised:
            ask(*words, **parts)
        self.assertEqual((raised.exception.name, raised.exception.details), (name, details))
        self.assertNotIn("this program", raised.exception.advice)

    def test_each_operation(self):
        with serve("vending_machine.obs") as server:
            alice, bob = server.client("alice"), server.client("bob")
            self.assertEqual(alice.new("Machine", into="m"), 0)
            self.assertEqual(alice.call("m", "bake", into="d"), 1)
            self.assertIsNone(alice.call("m", "restock", Ref("d")))
            self.assertEqual(alice.see("m")["fields"], {"candy": {"object": 1}, "sold": 0})
            self.assertEqual(alice.owner("d"), ("field", 0, "candy"))
            self.assertIsNone(alice.give("m", "bob", "machine", "shared"))
            self.assertEqual(bob.call("machine", "mint", into="c"), 2)
            self.assertEqual(bob.call("machine", "buy", Ref("c"), into="e"), 1)
            self.assertEqual(bob.owner("e"), ("handle", "bob", "e"))
            self.assertIsNone(bob.disown("e"))
            self.assertIsNone(alice.owner("d"))
            self.assertEqual(server.close(), 0)

    def test_values_of_each_kind(self):
        with serve("operators.obs") as server:
            ann = server.client("ann é€😀\"\\\n")
            ann.new("Sums", "a\"b\\c\nd é€😀", into="s")
            self.assertEqual(ann.call("s", "text"), "a\"b\\c\nd é€😀")
            ann.call("s", "sub", -2 ** 63 + 1, 1)
            self.assertEqual(ann.call("s", "get"), -2 ** 63)
        with serve("doors.obs") as server:
            ann = server.client("ann")
            ann.new("Door", into="d")
            self.assertIs(ann.call("d", "ask"), True)

    def test_each_refusal(self):
        with serve("counter_desk.obs") as server:
            ann, bob = server.client("ann"), server.client("bob")
            ann.new("Desk", 1, into="d")
            ann.call("d", "coin", into="c")
            self.refusal("NoHandle", bob.see, "d")
            self.refusal("NoContract", ann.new, "None", into="x")
            self.refusal("NotMain", ann.new, "Coin", into="x")
            self.refusal("NoTransaction", ann.call, "d", "hidden")
            self.refusal("ArgCount", ann.new, "Desk", into="x")
            self.refusal("ArgKind", ann.new, "Desk", "one", into="x")
            self.refusal("ArgKind", ann.new, "Desk", 2 ** 63, into="x")
            ann.give("d", "bob", "d", "unowned")
            ann.give("c", "bob", "c", "unowned")
            self.refusal("Permission", bob.call, "d", "share", Ref("c"))
            self.refusal("Repeated", ann.call, "d", "keep", Ref("c"), Ref("c"), Ref("c"), 1)
            self.refusal("IntoMissing", ann.call, "d", "coin")
            self.refusal("IntoNeedless", ann.call, "d", "count", into="x")
            self.refusal("IntoTaken", ann.call, "d", "coin", into="c")
            self.refusal("Shape", server.ask, op="paint", who="ann")
            self.refusal("Shape", ann.see, "a" * 65)
            self.refusal("LongLine", ann.see, "a" * 65536)
            # All of this has left the session as it was.
            self.assertEqual(ann.call("d", "count"), 1)

    def test_aborts(self):
        with serve("vending_machine.obs") as server:
            alice = server.client("alice")
            alice.new("Machine", into="m")
            alice.call("m", "mint", into="c")
            self.abort("state", {"object": 0, "state": "Empty"}, alice.call, "m", "buy", Ref("c"), into="e")
        with serve("operators.obs") as server:
            ann = server.client("ann")
            ann.new("Sums", "a", into="s")
            self.abort("revert", {"text": "no"}, ann.call, "s", "why", "no")
            self.abort("overflow", {"line": 13}, ann.call, "s", "div", 1, 0)
            self.assertEqual(ann.call("s", "get"), 0)
        with serve("callback.obs") as server:
            ann = server.client("ann")
            ann.new("A", into="a")
            self.abort("reentry", {"object": 0}, ann.call, "a", "round")
        with serve("spender.obs", fuel=20) as server:
            ann = server.client("ann")
            ann.new("Spender", into="s")
            self.abort("fuel", {}, ann.call, "s", "down", 20)

    def test_a_batch(self):
        with serve("tally.obs") as server:
            ann, bob = server.client("ann"), server.client("bob")
            ann.new("Tally", into="t")
            ann.give("t", "bob", "t", "shared")
            add = [who.request("call", on="t", tx="add", args=[1]) for who in (ann, bob) for _ in range(32)]
            sums = server.batch(add)
            self.assertEqual(sorted(sums), list(range(1, 65)))
            self.assertEqual((sums[:32], sums[32:]), (sorted(sums[:32]), sorted(sums[32:])))
            shown, refused = server.batch([ann.request("see", on="t"), bob.request("see", on="u")])
            self.assertEqual((shown["fields"], refused.name), ({"n": 64}, "NoHandle"))
            self.refusal("BatchSize", server.batch, [])
            self.refusal("BatchSize", server.batch, add + [ann.request("see", on="t")])
            self.refusal("Shape", server.batch, add + [ann.request("paint", on="t")])
            self.assertEqual(ann.call("t", "add", 1), 65)

    def test_threads_ask_in_turn(self):
        with serve("tally.obs") as server:
            server.client("ann").new("Tally", into="t")
            sums = []
            threads = [threading.Thread(target=lambda: sums.append(server.client("ann").call("t", "add", 1))) for _ in range(20)]
            for thread in threads:
                thread.start()
            for thread in threads:
                thread.join()
            self.assertEqual(sorted(sums), list(range(1, 21)))

    def test_what_is_no_argument_is_never_sent(self):
        with serve("tally.obs") as server:
            ann = server.client("ann")
            ann.new("Tally", into="t")
            self.assertRaises(TypeError, ann.call, "t", "add", 1.5)
            self.assertRaises(ValueError, ann.give, "t", "bob", "t", "lent")
            self.assertEqual(ann.call("t", "add", 2), 2)


class EndsTest(unittest.TestCase):
    def ended(self, status, name, ask, *words, **parts):
        with self.assertRaises(obsidian.Ended) as raised:
            ask(*words, **parts)
        self.assertEqual((raised.exception.status, raised.exception.name), (status, name))
        return raised.exception

    def test_a_store_is_kept_from_run_to_run(self):
        with tempfile.TemporaryDirectory() as folder:
            store = os.path.join(folder, "store")
            with serve("tally.obs", store=store) as server:
                server.client("ann").new("Tally", into="t")
                server.client("ann").call("t", "add", 5)
            with serve("tally.obs", store=store) as server:
                self.assertEqual(server.client("ann").call("t", "add", 2), 7)
            with serve("purse.obs", store=store) as server:
                told = self.ended(6, "StoreRefused", server.client("ann").see, "t").told
            self.assertRegex("\n".join(told), "^store: 615 OtherProgram")

    def test_a_text_with_a_fault_is_told(self):
        with quiet(), serve("payment.obs") as server:
            told = self.ended(1, "Refused", server.client("ann").new, "Bank", into="b").told
            self.assertEqual(told, ["4:24: 406 BranchLoses"])

    def test_a_text_that_is_missing_is_told(self):
        with quiet(), serve("missing.obs") as server:
            self.ended(8, "FileFault", server.client("ann").new, "Bank", into="b")

    def test_a_crash_is_told_once_and_again(self):
        with serve("tally.obs") as server:
            ann = server.client("ann")
            ann.new("Tally", into="t")
            server.run.send_signal(signal.SIGKILL)
            server.run.wait()
            self.assertIn("look before", self.ended(-signal.SIGKILL, "Crash", ann.call, "t", "add", 1).advice)
            self.ended(-signal.SIGKILL, "Crash", ann.call, "t", "add", 1)

    def test_what_was_answered_of_a_batch_is_kept(self):
        with obsidian.Server("tally.obs", command=ENDS_EARLY) as server:
            see = server.client("ann").request("see", on="t")
            ended = self.ended(5, "DiskFault", server.batch, [see, see, see])
            self.assertEqual((ended.answered, ended.told), ({1: 7}, ['{"id"']))
            self.assertEqual(self.ended(5, "DiskFault", server.batch, [see]).answered, {})

    def test_nothing_is_asked_after_the_end(self):
        server = serve("tally.obs")
        ann = server.client("ann")
        ann.new("Tally", into="t")
        self.assertEqual(server.close(), 0)
        self.ended(0, "Done", ann.call, "t", "add", 1)


class TimeUp(BaseException):
    """A time limit that is reached: not even an Exception."""


class InterruptedTest(unittest.TestCase):
    """What is interrupted between a line and its last reply breaks the server, so that no request has another one's reply."""

    def tally(self, name="tally.obs", contract="Tally", *args):
        """A server with an object `t` of ann, and ann. A run that doesn't end is killed, so that the tests go on."""
        server = serve(name)
        timer = threading.Timer(PATIENCE, server.run.kill)
        timer.start()
        self.addCleanup(timer.cancel)
        self.addCleanup(server.close)
        ann = server.client("ann")
        ann.new(contract, *args, into="t")
        return server, ann

    def give_up(self, server, ask, *words, meanwhile=lambda: None):
        """Asks while the program doesn't run, until a time limit, and lets it run again."""
        server.run.send_signal(signal.SIGSTOP)
        meanwhile()
        with time_limit(), self.assertRaises(TimeUp):
            ask(*words)
        server.run.send_signal(signal.SIGCONT)

    def broken(self, ask, *words):
        with self.assertRaises(obsidian.Error) as raised:
            ask(*words)
        self.assertIsInstance(raised.exception, obsidian.Broken)
        self.assertIn("begin", raised.exception.advice)
        self.assertIn(raised.exception.advice, str(raised.exception))

    def test_a_time_limit(self):
        server, ann = self.tally()
        self.give_up(server, ann.call, "t", "add", 5)
        self.broken(ann.call, "t", "add", 1)
        self.broken(server.batch, [ann.request("see", on="t")])
        self.assertEqual(server.close(), 0)
        self.broken(ann.see, "t")

    def test_what_was_given_up_is_done_and_nothing_after_it(self):
        with tempfile.TemporaryDirectory() as folder:
            store = os.path.join(folder, "store")
            with serve("tally.obs", store=store) as server:
                ann = server.client("ann")
                ann.new("Tally", into="t")
                self.give_up(server, ann.call, "t", "add", 5)
                self.broken(ann.call, "t", "add", 1)
            with serve("tally.obs", store=store) as server:
                self.assertEqual(server.client("ann").see("t")["fields"], {"n": 5})

    def test_a_fork(self):
        server, ann = self.tally()
        child = os.fork()
        if child == 0:
            try:
                ann.call("t", "add", 1)
            except obsidian.Error as error:
                os._exit(0 if type(error).__name__ == "Broken" and server.close() is None else 1)
            finally:
                os._exit(1)
        self.assertEqual(os.waitstatus_to_exitcode(os.waitpid(child, 0)[1]), 0)
        self.assertEqual(ann.call("t", "add", 2), 2)
        self.assertEqual(server.close(), 0)

    def test_a_fork_that_lives_on(self):
        server, ann = self.tally()
        child = os.fork()
        if child == 0:
            signal.pause()
        try:
            self.assertEqual(server.close(), 0)
        finally:
            os.kill(child, signal.SIGKILL)
            os.waitpid(child, 0)

    def test_a_batch_that_is_given_up(self):
        server, ann = self.tally("operators.obs", "Sums", "a" * 1024)
        self.give_up(server, server.batch, [ann.request("see", on="t")] * 64)
        self.broken(ann.see, "t")
        self.assertEqual(server.close(), 0)
        self.assertEqual(server.close(), 0)

    def test_a_thread_that_waits_for_its_turn(self):
        server, ann = self.tally()
        came = []
        waiting = threading.Thread(target=lambda: came.append(outcome(ann.call, "t", "add", 1)))
        self.give_up(server, ann.call, "t", "add", 5, meanwhile=threading.Timer(LIMIT / 2, waiting.start).start)
        waiting.join()
        self.assertEqual([type(it).__name__ for it in came], ["Broken"])

    def test_a_wait_for_the_turn_that_is_given_up(self):
        server, ann = self.tally()
        came = []
        first = threading.Thread(target=lambda: came.append(outcome(ann.call, "t", "add", 1)))
        self.give_up(server, ann.call, "t", "add", 5, meanwhile=lambda: (first.start(), wait_until(lambda: server.is_open)))
        first.join()
        self.assertEqual(came, [1])
        self.assertEqual(ann.call("t", "add", 2), 3)

    def test_a_handler_that_asks(self):
        server, ann = self.tally()
        came = []
        server.run.send_signal(signal.SIGSTOP)
        threading.Timer(2 * LIMIT, server.run.send_signal, [signal.SIGCONT]).start()
        with time_limit(lambda *_: came.append(outcome(ann.call, "t", "add", 5))):
            self.assertEqual(ann.call("t", "add", 1), 1)
        self.assertEqual([type(it).__name__ for it in came], ["Broken"])
        self.assertEqual(ann.call("t", "add", 2), 3)

    def test_what_has_no_line_breaks_nothing(self):
        server, ann = self.tally()
        self.assertRaises(UnicodeEncodeError, server.client("\udc80").see, "t")
        self.assertRaises(TypeError, server.batch, [ann.request("see", on=b"t")])
        self.assertEqual(ann.call("t", "add", 2), 2)

    def test_replies_of_other_numbers(self):
        for reply in ('{"id":2,"ok":null}', '{"id":null,"ok":null}'):
            with obsidian.Server("tally.obs", command=[*SAYS, reply]) as server:
                self.broken(server.client("ann").see, "t")
                self.broken(server.client("ann").see, "t")
        with obsidian.Server("tally.obs", command=[*SAYS, '{"id":1,"ok":null}']) as server:
            see = server.client("ann").request("see", on="t")
            self.assertEqual(server.batch([see]), [None])
            self.broken(server.batch, [see, see])

    def test_a_program_that_does_not_end_is_killed(self):
        server = obsidian.Server("tally.obs", command=SILENT)
        self.assertEqual(server.close(LIMIT), -signal.SIGKILL)

    def test_a_thread_that_waits_for_a_reply_while_another_closes(self):
        server = obsidian.Server("tally.obs", command=SILENT)
        came = []
        waiting = threading.Thread(target=lambda: came.append(outcome(server.client("ann").see, "t")))
        waiting.start()
        wait_until(lambda: server.is_open)
        self.assertEqual(server.close(LIMIT), -signal.SIGKILL)
        waiting.join()
        self.assertEqual([it.status for it in came], [-signal.SIGKILL])
        self.assertEqual(server.close(), -signal.SIGKILL)


class ExampleTest(unittest.TestCase):
    BOUGHT = "bought candy 1, which alice owns\nnot bought: state, the machine is Empty: ask for it, by `see`, before\nsold so far: 1\n"

    def test_the_vending_machine(self):
        told = io.StringIO()
        with contextlib.redirect_stdout(told):
            vending_machine.main(COMMAND)
        self.assertEqual(told.getvalue(), self.BOUGHT)

    def test_the_vending_machine_goes_on(self):
        told = io.StringIO()
        with tempfile.TemporaryDirectory() as folder, contextlib.redirect_stdout(told):
            vending_machine.main(COMMAND, os.path.join(folder, "store"))
            vending_machine.main(COMMAND, os.path.join(folder, "store"))
        self.assertEqual(told.getvalue().splitlines()[-1], "sold so far: 2")


def time_is_up(*_):
    raise TimeUp


@contextlib.contextmanager
def time_limit(handler=time_is_up):
    """Calls a handler of the alarm once the time is over."""
    kept = signal.signal(signal.SIGALRM, handler)
    signal.setitimer(signal.ITIMER_REAL, LIMIT)
    try:
        yield
    finally:
        signal.setitimer(signal.ITIMER_REAL, 0)
        signal.signal(signal.SIGALRM, kept)


def outcome(ask, *words):
    """What a request comes to: what it gives, or the error that it raises."""
    try:
        return ask(*words)
    except obsidian.Error as error:
        return error


def wait_until(holds):
    end = time.monotonic() + PATIENCE
    while not holds() and time.monotonic() < end:
        time.sleep(0.001)


@contextlib.contextmanager
def quiet():
    """Keeps what a process tells a person on standard error out of the test's report."""
    kept = os.dup(2)
    with open(os.devnull, "wb") as nothing:
        os.dup2(nothing.fileno(), 2)
    try:
        yield
    finally:
        os.dup2(kept, 2)
        os.close(kept)


if __name__ == "__main__":
    words = sys.argv[1:]
    if words[:1] == ["--program"]:
        COMMAND[:] = words[1:2]
        words = words[2:]
    unittest.main(argv=[sys.argv[0], *words])
