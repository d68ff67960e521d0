"""A pool of threads that make calls."""

from __future__ import annotations

import os
from collections import deque
from concurrent.futures import Future
from threading import Condition, RLock, Thread, current_thread
from typing import Any, Callable, Iterable, Optional, TypeVar

T = TypeVar("T")
_Call = tuple["Future[Any]", Callable[..., Any], tuple[Any, ...]]

# A thread without a call ends after this many seconds. A process waits for its threads as it ends:
# so it does end while it holds a table that isn't read to its end.
_IDLE = 0.1


def _answer(call: _Call) -> None:
    """Makes a call, and stores what it returns or raises in its future."""
    future, function, given = call
    try:
        future.set_result(function(*given))
    except BaseException as error:  # (who waits for the answer receives it)
        future.set_exception(error)


class Pool:
    """At most `most` threads. If the system starts no more, those that run make all calls, and if
    none runs, the caller's own thread does. All have ended when the block of `with` is left, unless
    one of them leaves it."""

    def __init__(self, most: int) -> None:
        self.most, self.running = most, 0
        self.threads: list[Thread] = []
        self.calls: deque[_Call] = deque()
        # It guards the calls, and how many threads run. (Entered by its condition, an interruption
        # could leave it locked: that enters it in Python.)
        self.lock = RLock()
        self.changed = Condition(self.lock)
        self.is_left = False
        self.process = os.getpid()

    def __enter__(self) -> Pool:
        return self

    def __exit__(self, *_: object) -> None:
        if os.getpid() != self.process:
            return  # (a fork has no other thread, so the lock may be held by none)
        with self.lock:
            self.is_left = True
            self.changed.notify_all()
        if current_thread() in self.threads:
            return  # (it collects garbage, of which an iterator is a part: none waits for itself)
        for thread in self.threads:
            thread.join()

    def _next_call(self) -> Optional[_Call]:
        """The next call for a thread, or None: then the thread ends."""
        with self.lock:
            try:
                self.changed.wait_for(lambda: self.calls or self.is_left, _IDLE)
            except (MemoryError, RuntimeError):  # (for lack of memory, where no more are started)
                self.most = 0
            if self.calls:
                return self.calls.popleft()
            self.running -= 1
            return None

    def _work(self) -> None:
        """Makes calls, until there are no more."""
        while call := self._next_call():
            _answer(call)
            del call  # (and with it what was answered, while the next one is waited for)

    def _add_thread(self) -> None:
        """Starts one more thread, which is counted as running already."""
        thread = Thread(target=self._work)
        try:
            thread.start()
        except RuntimeError:  # (the system has none left, or the interpreter ends)
            with self.lock:
                self.running -= 1
                self.most = self.running
        else:
            self.threads = [it for it in self.threads if it.is_alive()] + [thread]

    def submit(self, function: Callable[..., T], *given: Any) -> Future[T]:
        """The future of a call: what it will return or raise."""
        future: Future[T] = Future()
        with self.lock:
            self.calls.append((future, function, given))
            is_short = self.running < self.most
            self.running += is_short
            self.changed.notify()
        if is_short:
            self._add_thread()
        with self.lock:
            left = self.calls.pop() if self.calls and not self.running else None
        if left:
            _answer(left)
        return future

    def map(self, function: Callable[..., T], given: Iterable[Any]) -> list[T]:
        """What the function returns for each argument, in their order."""
        return [it.result() for it in [self.submit(function, one) for one in given]]
