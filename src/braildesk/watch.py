"""Whether other programs had a file open for writing, as the system tells it."""

import errno
import os

#: What is told of: a file that was open for writing was closed.
_CLOSED = 0x8
_FLAGS = os.O_NONBLOCK | os.O_CLOEXEC
_READ = 1 << 16


class Watch:
    """Watches an open file from now on; raises ``OSError`` where that can't be done.

    What another machine does to a file over a network isn't seen, nor what a memory mapping does.
    """

    def __init__(self, descriptor: int) -> None:
        import ctypes  # which few sessions need

        library = ctypes.CDLL(None, use_errno=True)
        path = os.fsencode(f"/proc/self/fd/{descriptor}")
        try:
            self._events = library.inotify_init1(_FLAGS)
            if self._events < 0:
                raise _failure(ctypes.get_errno())
            if library.inotify_add_watch(self._events, path, _CLOSED) < 0:
                number = ctypes.get_errno()
                self.close()
                raise _failure(number)
        except AttributeError:
            raise _failure(errno.ENOSYS) from None

    def was_written(self) -> bool:
        """Whether a program that had it open for writing has closed it since this was last asked."""
        found = False
        try:
            while os.read(self._events, _READ):
                found = True
        except BlockingIOError:
            pass
        return found

    def close(self) -> None:
        """Watches it no longer."""
        os.close(self._events)


def _failure(number: int) -> OSError:
    return OSError(number, os.strerror(number))
