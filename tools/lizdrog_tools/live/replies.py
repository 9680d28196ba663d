"""Words of the lines that a session hears, and where each of its replies ends."""
import dataclasses
import re

from lizdrog_tools import closing_answers

BLANKS = re.compile(rb"[ \t]+")
LONGEST_LINE = 65536
# What stands for the words of a line that is wrong whatever it says.
WRONG = [b"\xff"]
# A reply whose lines are more than this is handed on in parts: such an answer is none that the server gives.
MOST_LINES = 10_000_000
# How many of an answer's words, counted from the end, say how many plain lines follow.
COUNTS = {b"path": (1,), **{sort.encode(): places for sort, places in closing_answers.COUNTS.items()}}


def words_of(line: bytes) -> list[bytes]:
    """The words of a line as the server takes them: none of a comment; a line that is too long or not in ASCII is
    wrong.
    """
    line = line.removesuffix(b"\n")
    if len(line) > LONGEST_LINE or not line.isascii():
        return WRONG
    words = [it for it in BLANKS.split(line) if it]
    return [] if words and words[0].startswith(b"#") else words


def count_of(words: list[bytes], at: int) -> int:
    """The number that a word is, or 0."""
    if not 0 <= at < len(words) or not words[at].isdigit():
        return 0
    return min(int(words[at][:9]), MOST_LINES)


def counts_below(answer: list[bytes]) -> tuple[int, int]:
    """How many answers and how many plain lines follow the line of an answer."""
    sort = answer[0] if answer else b""
    if sort in (b"paths", b"worst_paths", b"what_if"):
        return count_of(answer, 1), 0
    if sort in (b"worst", b"skew", b"resizes"):
        return 0, count_of(answer, 1)
    if sort == b"summary":
        return 0, count_of(answer, 3)
    if sort in (b"path", b"timing") and answer[1:2] == [b"none"]:
        return 0, 0
    return 0, sum(count_of(answer, len(answer) - it) for it in COUNTS.get(sort, ()))


@dataclasses.dataclass(frozen=True)
class Reply:
    """A row with the lines below it, or an error, as its bytes; and the words of its first line."""

    data: bytes
    words: list[bytes]

    @property
    def is_row(self) -> bool:
        return len(self.words) > 2 and self.words[0].isdigit() and self.words[1].isdigit()

    @property
    def error_line(self) -> int | None:
        """The line of the session's input that an error names; none where this is no error."""
        is_error = len(self.words) == 3 and self.words[0] == b"error" and self.words[2].isdigit()
        return int(self.words[2]) if is_error else None

    @property
    def design(self) -> int:
        """The number of the design that a row speaks of."""
        return int(self.words[1])

    @property
    def sort(self) -> bytes:
        """The first word of a row's answer."""
        return self.words[2]


class ReplyReader:
    """Cuts the bytes that a session is told into replies, by the counts in their lines."""

    def __init__(self) -> None:
        self.rest, self.parts, self.head = b"", [], []
        self.answers, self.lines = 0, 0

    def take(self, data: bytes) -> list[Reply]:
        """The replies that end with these bytes."""
        *lines, self.rest = (self.rest + data).split(b"\n")
        found = []
        for line in lines:
            self.line(line)
            if not self.answers and not self.lines:
                found.append(Reply(b"\n".join([*self.parts, b""]), self.head))
                self.parts = []
        return found

    def line(self, line: bytes) -> None:
        """One line more: the first of a reply, that of an answer of a draft or of several paths, or one below these."""
        words = line.split(b" ")
        if not self.parts:
            self.head = words
            self.answers, self.lines = counts_below(words[2:]) if words[0].isdigit() else (0, 0)
        elif self.lines:
            self.lines -= 1
        else:
            more, self.lines = counts_below(words)
            self.answers += more - 1
        self.parts.append(line)
