"""Threads beside that of the window: what they are given to do, and what comes of it."""

from collections import deque
from collections.abc import Callable
from concurrent.futures import Future, wait
from concurrent.futures import TimeoutError as NotYet
from contextlib import suppress
from threading import Condition, Thread
from typing import Any, TypeVar, cast

from PyQt6.QtCore import QEventLoop, QObject, QTimer, pyqtSignal

from scribe.window.held import Held

Result = TypeVar("Result")
# how long the window waits without even being drawn
_MOMENT_SECONDS = 0.05
# how often it is looked whether hands type on
_LOOK_MILLISECONDS = 50
# after how long that is said
_LONG_MILLISECONDS = 2_000


class _Job:
    """What is to be done, and what is called with what came of it, in the window's thread."""

    def __init__(
        self,
        act: Callable[[], Any],
        then: Callable[["Future[Any]"], None],
        name: str = "",
    ) -> None:
        self.act = act
        self.then = then
        self.name = name
        self.future: Future[Any] = Future()

    def run(self) -> None:
        """Does it."""
        try:
            self.future.set_result(self.act())
        except BaseException as failure:
            # raised again where the result is asked for
            self.future.set_exception(failure)


class Worker(QObject):
    """A thread, and what waits to be done there, one after the other."""

    #: The window waits for long; or doesn't any more.
    waits = pyqtSignal(bool)
    _done = pyqtSignal(object)

    def __init__(self, held: Held) -> None:
        super().__init__()
        self._held = held
        self._jobs: deque[_Job] = deque()
        self._changed = Condition()
        self._is_over = False
        self._done.connect(self._hand_over)
        self._thread = Thread(target=self._run, daemon=True)
        self._thread.start()

    def result(self, act: Callable[[], Result], is_first: bool = True) -> Result:
        """What comes of something that is done before all that waits, or after it.

        The window waits for it. Meanwhile it is drawn, and what is pressed is held.
        """
        job = _Job(act, lambda future: None)
        self._put(job, is_first)
        # a time that ran out within the work looks the same, and is raised below
        moment = max(_MOMENT_SECONDS, self._held.still_seconds)
        with suppress(NotYet):
            return cast(Result, job.future.result(timeout=moment))
        self._wait_for(job)
        return cast(Result, job.future.result())

    def _wait_for(self, job: _Job) -> None:
        long = QTimer()
        long.setSingleShot(True)
        long.timeout.connect(lambda: self.waits.emit(True))
        long.start(_LONG_MILLISECONDS)
        self.wait_until(job.future.done)
        if not long.isActive():
            self.waits.emit(False)
        long.stop()

    def wait_until(self, is_over: Callable[[], bool]) -> None:
        """Waits for something, and holds what is pressed meanwhile."""
        loop, flags = QEventLoop(), QEventLoop.ProcessEventsFlag
        with self._held.holding():
            while not is_over():
                loop.processEvents(flags.WaitForMoreEvents)

    @property
    def is_typed_on(self) -> bool:
        """Whether hands are typing, so that no dialog opens by itself yet."""
        return self._held.is_typed_on

    def wait_for_pause(self) -> None:
        """Waits until hands don't type any more, before a dialog opens by itself."""
        timer = QTimer()
        timer.start(_LOOK_MILLISECONDS)
        self.wait_until(lambda: not self.is_typed_on)
        timer.stop()

    def post(
        self, act: Callable[[], Result], then: Callable[["Future[Result]"], None]
    ) -> None:
        """Has something done later, and then something in the thread of the window."""
        self._put(_Job(act, then), False)

    def latest(
        self,
        name: str,
        act: Callable[[], Result],
        then: Callable[["Future[Result]"], None],
    ) -> None:
        """The same, in place of what has that name and wasn't begun."""
        with self._changed:
            others = [job for job in self._jobs if job.name != name]
            self._jobs = deque([*others, _Job(act, then, name)])
            self._changed.notify()

    def at_once(self, act: Callable[[], object], seconds: float) -> None:
        """Has something done before all that waits, and waits so many seconds for it, without drawing."""
        job = _Job(act, lambda future: None)
        self._put(job, True)
        if self._thread.is_alive():
            wait([job.future], seconds)

    def stop(self) -> None:
        """Ends the thread once all that waits was done."""
        with self._changed:
            self._is_over = True
            self._changed.notify()
        self._thread.join()

    def _put(self, job: _Job, is_first: bool) -> None:
        with self._changed:
            if is_first:
                self._jobs.appendleft(job)
            else:
                self._jobs.append(job)
            self._changed.notify()

    def _run(self) -> None:
        while True:
            with self._changed:
                while not self._jobs:
                    if self._is_over:
                        return
                    self._changed.wait()
                job = self._jobs.popleft()
            job.run()
            self._done.emit(job)
            # what it holds goes in the thread of the window
            del job

    def _hand_over(self, job: _Job) -> None:
        job.then(job.future)
