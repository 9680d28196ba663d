"""A child that ends where its parent is killed."""
import ctypes
import os
import signal
from collections.abc import Callable, Iterable

# PR_SET_PDEATHSIG of prctl(2).
END_WITH_PARENT = 1


def with_parent(waiting: Iterable[int] | None = None) -> Callable[[], None]:
    """What a child does first, so that it ends where this process is killed: it may wait for the other end of a FIFO.
    Where these are given, they are the signals that wait in the child, whatever waits here."""
    system, parent = ctypes.CDLL(None, use_errno=True), os.getpid()

    def first() -> None:
        system.prctl(END_WITH_PARENT, signal.SIGTERM)
        # What this process heeds ends the child, as it does behind exec(2): until then it would be lost.
        for number in signal.valid_signals():
            if callable(signal.getsignal(number)):
                signal.signal(number, signal.SIG_DFL)
        if os.getppid() != parent:
            os.kill(os.getpid(), signal.SIGTERM)
        if waiting is not None:
            signal.pthread_sigmask(signal.SIG_SETMASK, waiting)

    return first
