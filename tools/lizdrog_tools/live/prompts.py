"""Reads lines from a person: by python3-prompt-toolkit where it is there, else by readline; and from a file or a pipe.
"""
import os
import pathlib
import sys
from collections.abc import Callable

Completing = Callable[[str], tuple[str, list[str]]]


def history_file() -> pathlib.Path:
    """The file of the lines that were typed, which this user alone may read."""
    state = os.environ.get("XDG_STATE_HOME") or os.path.expanduser("~/.local/state")
    file = pathlib.Path(state, "lizdrog", "history")
    try:
        file.parent.mkdir(parents=True, exist_ok=True)
        file.touch(0o600)
    except OSError:
        return pathlib.Path(os.devnull)
    return file


def ended(word: str) -> str:
    """A word with the blank behind it; an instance's pins follow its colon."""
    return word if word.endswith(":") else f"{word} "


class Plain:
    """Lines of standard input, without a prompt."""

    is_person = False

    def read(self, _: str) -> str:
        line = sys.stdin.buffer.readline()
        if not line:
            raise EOFError
        return line.decode("latin-1").removesuffix("\n")


class ByReadline:
    """A prompt with the history and the completion of readline."""

    is_person = True

    def __init__(self, completing: Completing):
        import atexit
        import readline

        self.found: list[str] = []
        file = history_file()

        def complete(_: str, number: int) -> str | None:
            if number == 0:
                self.found = completing(readline.get_line_buffer()[: readline.get_endidx()])[1]
            return ended(self.found[number]) if number < len(self.found) else None

        readline.set_completer_delims(" \t")
        readline.set_completer(complete)
        readline.parse_and_bind("tab: complete")
        try:
            readline.read_history_file(file)
            atexit.register(readline.write_history_file, file)
        except OSError:
            pass

    def read(self, text: str) -> str:
        return input(text)


class ByToolkit:
    """A prompt of python3-prompt-toolkit."""

    is_person = True

    def __init__(self, completing: Completing):
        from prompt_toolkit import PromptSession
        from prompt_toolkit.completion import Completer, Completion
        from prompt_toolkit.history import FileHistory

        class ByLine(Completer):
            def get_completions(self, document, _):
                prefix, found = completing(document.text_before_cursor)
                for it in found:
                    yield Completion(ended(it), start_position=-len(prefix), display=it)

        self.session = PromptSession(
            history=FileHistory(str(history_file())),
            completer=ByLine(),
            complete_while_typing=False,
            enable_history_search=True,
        )

    def read(self, text: str) -> str:
        return self.session.prompt(text)


def prompt_of(completing: Completing, is_plain: bool) -> Plain | ByReadline | ByToolkit:
    """The best prompt that is to be had here."""
    if is_plain or not (sys.stdin.isatty() and sys.stdout.isatty()):
        return Plain()
    try:
        return ByToolkit(completing)
    except ImportError:
        return ByReadline(completing)
