"""What a command does with a signal while there is no program yet to pass it on to: it says so in a line, and ends.

The line tells a caller such as timeout(1) why there is no answer. Of `signal` this takes its part in C, so that it is
there before all that takes time to read.

Python looks at a signal between two of its own steps, or where the signal breaks off a call of the system. One that
comes behind the last step before a call that waits does neither, and read(2) of a FIFO, say, would wait on for good.
So each signal wakes a thread, which breaks off what the main thread waits for until that has looked.
"""
import _signal as signal
import _thread
import os
import sys

NUMBERS = (signal.SIGTERM, signal.SIGHUP)
ALL = (*NUMBERS, signal.SIGINT)
KILLED = 128
# What breaks off a wait: a signal that each program ignores unless it says otherwise.
POKE, POKE_SECONDS = signal.SIGURG, 0.05


class Ended(SystemExit):
    """A signal ends this command."""


class Watch:
    """The thread that sees to it that the main thread looks at each signal, and what both know."""

    def __init__(self):
        """Starts the thread. It takes no signal itself: those that are held back wait."""
        self.main, self.looked, self.lost = _thread.get_ident(), _thread.allocate_lock(), []
        self.reading, self.writing = map(above_standard, os.pipe())
        os.set_blocking(self.writing, False)
        signal.signal(POKE, self.look)
        before = signal.pthread_sigmask(signal.SIG_BLOCK, signal.valid_signals())
        try:
            _thread.start_new_thread(self.run, ())
        finally:
            signal.pthread_sigmask(signal.SIG_SETMASK, before - {POKE})
        signal.set_wakeup_fd(self.writing, warn_on_full_buffer=False)
        sys.unraisablehook = self.keep

    def run(self) -> None:
        """Breaks off what the main thread waits for at each signal. Its number comes through the pipe."""
        while True:
            if not os.read(self.reading, 512).strip(bytes([POKE])):
                continue
            self.looked.acquire(False)
            signal.pthread_kill(self.main, POKE)
            while not self.looked.acquire(timeout=POKE_SECONDS):
                signal.pthread_kill(self.main, POKE)

    def look(self, _: int, frame: object) -> None:
        """The main thread has been broken off. Behind a call of a function, as here, Python looks at all signals. In
        `keep` nothing can be raised either: there a further poke is waited for."""
        while frame is not None:
            if frame.f_code is Watch.keep.__code__:
                return
            frame = frame.f_back
        if self.looked.locked():
            self.looked.release()
        if self.lost:
            raise self.lost.pop()

    def keep(self, told: "sys.UnraisableHookArgs") -> None:
        """An end that was raised where nothing can be raised, such as in a `__del__`, is raised once more."""
        if not isinstance(told.exc_value, (Ended, KeyboardInterrupt)):
            sys.__unraisablehook__(told)
            return
        self.lost.append(told.exc_value)
        os.write(self.writing, b"\0")


WATCHES = []


def heeded(numbers: tuple[int, ...] = NUMBERS) -> list[int]:
    """Those of some signals that the caller has not told to ignore, as nohup(1) does."""
    return [it for it in numbers if signal.getsignal(it) != signal.SIG_IGN]


def say(line: str) -> None:
    """Writes a line, also where another is being written."""
    try:
        os.write(2, f"{line}\n".encode())
    except OSError:
        pass


def above_standard(file: int) -> int:
    """The same file under a number that is none of standard input, output and errors: the caller may have closed
    those."""
    if file > 2:
        return file
    try:
        return above_standard(os.dup(file))
    finally:
        os.close(file)


def start_watch() -> None:
    """From here on Python looks at each signal, also at one that comes right before a call that waits. Without a
    thread, where the caller allows none, it does so at nearly all."""
    if WATCHES:
        return
    try:
        WATCHES.append(Watch())
    except (OSError, RuntimeError):
        pass


def heed(name: str, more: str = "", numbers: tuple[int, ...] = NUMBERS) -> None:
    """From here on a signal ends this command by an exit, behind which all is cleared up; a further one changes nothing
    of that."""
    found = heeded(numbers)

    def end(number: int, _: object) -> None:
        for it in found:
            signal.signal(it, lambda *_: None)
        say(f"{name}: ended by signal {number}{more}")
        raise Ended(KILLED + number)

    start_watch()
    for number in found:
        signal.signal(number, end)
    release(found)


def hold(numbers: list[int] | tuple[int, ...]) -> set[int]:
    """Signals wait from here on, also over the start of another program in the place of this one; gives those that
    waited before."""
    return signal.pthread_sigmask(signal.SIG_BLOCK, numbers)


def release(numbers: list[int] | tuple[int, ...]) -> None:
    """Signals that wait come now."""
    signal.pthread_sigmask(signal.SIG_UNBLOCK, numbers)


def leave() -> None:
    """From here on a signal ends this process at once, and so a program that is started in its place."""
    found = heeded(ALL)
    hold(found)
    for number in found:
        signal.signal(number, signal.SIG_DFL)
    release(found)
