"""Tests of the threads that read blocks: they end where nobody asks for more, and start anew."""

import io
import os
import signal
import subprocess
import sys
import threading
import time
import unittest
import warnings
from unittest import mock

from jadvolni import iter_table
from jadvolni._pool import Pool

TEXT = b"1\n" * 5000
COLUMNS = {"a": "u8"}
# A process that holds a table whose rows aren't all read, and then goes on with what it is given.
HOLDING = f"""
import io, os, signal, sys, time
from jadvolni import iter_table, parse_table
signal.signal(signal.SIGINT, signal.default_int_handler)  # (ignored in a shell's background)
tables = iter_table(io.BytesIO({TEXT!r}), {COLUMNS}, threads=4, size=64)
next(tables)
print("read", flush=True)
"""
WAITING = """
while True:
    time.sleep(0.01)
"""
FORKING = """
if os.fork():
    sys.exit(os.waitstatus_to_exitcode(os.wait()[1]))
again = iter_table(io.BytesIO(b"1\\n" * 99), {"a": "u8"}, threads=2, size=9)
print(sum(len(table["a"]) for table in again), file=sys.stderr)
sys.exit(5)
"""
AT_EXIT = """
import atexit
def read():
    print(len(parse_table(b"1\\n" * 99, {"a": "u8"}, threads=3)["a"]), file=sys.stderr)
atexit.register(read)
"""


class Processes(unittest.TestCase):
    """Processes that end while they hold a table that isn't read to its end."""

    def ended(self, code, told=None):
        """How such a process ends, which may be told a signal, and the last of its errors."""
        command = [sys.executable, "-c", HOLDING + code]
        run = subprocess.Popen(command, text=True, stdout=subprocess.PIPE, stderr=subprocess.PIPE)
        try:
            self.assertEqual(run.stdout.readline(), "read\n")
            if told:
                run.send_signal(told)
            errors = run.communicate(timeout=60)[1]
        finally:
            run.kill()
        return run.returncode, errors.splitlines()[-1:]

    def test_ends(self):
        for code, status, errors in (
            ("", 0, []),
            ("sys.exit(3)", 3, []),
            ("for table in tables: raise ValueError('own')", 1, ["ValueError: own"]),
            ("cycle = [tables]; cycle.append(cycle); del tables, cycle", 0, []),
        ):
            with self.subTest(code=code):
                self.assertEqual(self.ended(code), (status, errors))

    def test_an_interrupt_ends_it(self):
        wanted = -signal.SIGINT, ["KeyboardInterrupt"]
        self.assertEqual(self.ended(WAITING, signal.SIGINT), wanted)

    def test_a_fork_ends(self):
        self.assertEqual(self.ended(FORKING), (5, ["99"]))

    def test_tables_are_read_at_the_end(self):
        """Where no thread can be started any more, the last one reads them."""
        self.assertEqual(self.ended(AT_EXIT), (0, ["99"]))


class Pools(unittest.TestCase):
    """Threads that end while they have nothing to do."""

    def test_rows_are_the_same_whose_threads_end_at_once(self):
        before = threading.active_count()
        for idle in 0, 0.001:
            with mock.patch("jadvolni._pool._IDLE", idle):
                for threads in 2, 4:
                    read = 0
                    for table in iter_table(io.BytesIO(TEXT), COLUMNS, threads=threads, size=64):
                        read += len(table["a"])
                        if read % 1000 == 0:
                            time.sleep(0.01)
                    self.assertEqual(read, 5000)
                    self.assertEqual(threading.active_count(), before)

    def test_idle_threads_end_and_are_forgotten(self):
        with mock.patch("jadvolni._pool._IDLE", 0), Pool(3) as pool:
            for number in range(50):
                self.assertEqual(pool.submit(pow, number, 2).result(), number ** 2)
                for thread in pool.threads:
                    thread.join(60)
            self.assertEqual((len(pool.threads), pool.running), (1, 0))

    def test_calls_are_made_where_none_is_started(self):
        with mock.patch("threading.Thread.start", side_effect=RuntimeError("can't start")):
            with Pool(3) as pool:
                self.assertEqual(pool.map(abs, [-1, 2, -3]), [1, 2, 3])
                self.assertRaises(ZeroDivisionError, pool.submit(divmod, 1, 0).result)
        self.assertEqual((pool.most, pool.threads), (0, []))

    def test_calls_are_made_where_no_thread_can_wait(self):
        """As without memory for a lock: then threads end, and no more are started."""
        for error in MemoryError, RuntimeError("can't allocate lock"):
            with Pool(2) as pool, mock.patch.object(pool.changed, "wait", side_effect=error):
                for number in range(50):
                    self.assertEqual(pool.submit(pow, number, 2).result(60), number ** 2)
                    for thread in pool.threads:
                        thread.join(60)
                self.assertEqual((len(pool.threads), pool.most, pool.running), (1, 0, 0))

    def test_garbage_that_one_of_the_threads_collects(self):
        """A table that nobody holds, and that isn't read to its end, is left by any thread."""
        with Pool(2) as pool:
            self.assertIsNone(pool.submit(pool.__exit__).result(60))
            self.assertEqual(pool.map(abs, [-1, 2]), [1, 2])
        self.assertFalse([it for it in pool.threads if it.is_alive()])

    def test_a_fork_waits_for_no_thread(self):
        """Also where it was made while one of them held the lock."""
        asked, held, done = threading.Event(), threading.Event(), threading.Event()

        def hold():
            asked.wait(60)
            with pool.changed:
                held.set()
                done.wait(60)

        with Pool(1) as pool:
            pool.submit(hold)
            asked.set()
            self.assertTrue(held.wait(60))
            with warnings.catch_warnings():  # (from Python 3.12 on, of threads)
                warnings.simplefilter("ignore")
                child = os.fork()
            if not child:
                signal.alarm(20)
                pool.__exit__()
                os._exit(7)
            done.set()
        self.assertEqual(os.waitstatus_to_exitcode(os.waitpid(child, 0)[1]), 7)

    def test_all_calls_are_made_before_it_is_left(self):
        made = []
        with Pool(2) as pool:
            for number in range(200):
                pool.submit(made.append, number)
        self.assertEqual((sorted(made), pool.running), ([*range(200)], 0))
        self.assertFalse([it for it in pool.threads if it.is_alive()])

    def test_an_interruption_leaves_it_unlocked(self):
        """Python's own code enters a lock in one step, and a condition in several."""
        class Entered(threading.Condition):
            def __enter__(self):
                raise AssertionError("a condition was entered")

        with mock.patch("jadvolni._pool.Condition", Entered), Pool(2) as pool:
            self.assertEqual(pool.map(len, ["", "a", "ab"]), [0, 1, 2])
            pool.most, pool.running = 0, 0
            self.assertEqual(pool.submit(len, "abc").result(), 3)


if __name__ == "__main__":
    unittest.main()
