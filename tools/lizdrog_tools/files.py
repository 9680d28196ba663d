"""The one way in which the tools open files, and say what is wrong with them.

A text comes plain or compressed (gzip, xz, zstd), by what the file begins with and not by its name. What no tool can
use is an `InputFault`: it has the file, the line where there is one, and a sentence. A tool prints it as `NAME:
FILE:LINE: SENTENCE` and ends with status 2.
"""
import functools
import gzip
import lzma
import os
import re
import shutil
import subprocess
import sys
import zlib
from collections.abc import Callable
from typing import TypeVar

Parsed = TypeVar("Parsed")

BAD_INPUT = 2
GZIP, XZ, ZSTD = b"\x1f\x8b", b"\xfd7zXZ\x00", b"\x28\xb5\x2f\xfd"
UTF_16 = (b"\xff\xfe", b"\xfe\xff")
BYTE_ORDER_MARK = b"\xef\xbb\xbf"
# Bytes that no text has: control characters but for tab, line feed, vertical tab, form feed and carriage return.
CONTROLS = bytes([*range(9), *range(14, 32), 127])
NO_TEXT = re.compile(b"[" + re.escape(CONTROLS) + b"]")


class InputFault(Exception):
    """Says in a sentence what is wrong with a file, and at which line, where one can be told."""

    def __init__(self, file: str | os.PathLike, line: int | None, message: str):
        super().__init__(message)
        self.file, self.line, self.message = os.fspath(file), line, message

    def __str__(self) -> str:
        place = self.file if self.line is None else f"{self.file}:{self.line}"
        return f"{place}: {self.message}"


class TextFault(ValueError):
    """Says what is wrong with a text, and at which line, where nobody has said yet which file it is of."""

    def __init__(self, line: int | None, message: str):
        super().__init__(message)
        self.line, self.message = line, message


def unpacked_zstd(name: str | os.PathLike, data: bytes) -> bytes:
    """What a text packed by zstd holds, by the program of that name."""
    program = shutil.which("zstd")
    if program is None:
        raise InputFault(name, None,
                         "the file is compressed (zstd), and there is no program zstd here: apt-get install zstd")
    ran = subprocess.run([program, "-dcq"], input=data, capture_output=True, check=False)
    if ran.returncode:
        raise InputFault(name, None, "the file is compressed (zstd), and damaged")
    return ran.stdout


def unpacked(name: str | os.PathLike, data: bytes) -> bytes:
    """The bytes of a text, whether its file is compressed or not."""
    try:
        if data.startswith(GZIP):
            return gzip.decompress(data)
        if data.startswith(XZ):
            return lzma.decompress(data)
    except (OSError, EOFError, zlib.error, lzma.LZMAError) as why:
        sort = "gzip" if data.startswith(GZIP) else "xz"
        raise InputFault(name, None, f"the file is compressed ({sort}), and damaged: {why}") from why
    return unpacked_zstd(name, data) if data.startswith(ZSTD) else data


def raw_text(name: str | os.PathLike) -> str:
    """The bytes of a file as they are, one character for each, so that places are counted in bytes."""
    with open(name, "rb") as file:
        return file.read().decode("latin-1")


def read_text(name: str | os.PathLike, *, may_be_empty: bool = False) -> str:
    """The text of a file, one character for each byte, unpacked where it is compressed."""
    with open(name, "rb") as file:
        data = unpacked(name, file.read())
    if data.startswith(UTF_16):
        raise InputFault(name, 1, "the file is UTF-16, which is not read: iconv -f UTF-16 -t ASCII FILE")
    strange = NO_TEXT.search(data) if len(data.translate(None, CONTROLS)) < len(data) else None
    if strange:
        line = data.count(b"\n", 0, strange.start()) + 1
        raise InputFault(name, line, f"the file is no text: it has a byte {data[strange.start()]} here")
    if not data.strip() and not may_be_empty:
        raise InputFault(name, None, "the file is empty")
    return data.removeprefix(BYTE_ORDER_MARK).decode("latin-1")


def parsed(name: str | os.PathLike, parse: Callable[[str], Parsed], *, may_be_empty: bool = False) -> Parsed:
    """What a function makes of the text of a file, whose `TextFault` becomes an `InputFault`."""
    try:
        return parse(read_text(name, may_be_empty=may_be_empty))
    except TextFault as why:
        raise InputFault(name, why.line, why.message) from why


def line_of(text: str, offset: int) -> int:
    """The line of a place, from 1."""
    return text.count("\n", 0, offset) + 1


def line_and_column(text: str, offset: int) -> tuple[int, int]:
    """The line and the column of a place, both from 1."""
    return line_of(text, offset), offset - text.rfind("\n", 0, offset)


def tool(name: str) -> Callable[[Callable[[], int | None]], Callable[[], int]]:
    """Makes a function the main function of a tool: it gives the status, 2 with a sentence where an input cannot be
    used."""
    def around(work: Callable[[], int | None]) -> Callable[[], int]:
        @functools.wraps(work)
        def main() -> int:
            try:
                status = work() or 0
                sys.stdout.flush()
                return status
            except BrokenPipeError:
                os.dup2(os.open(os.devnull, os.O_WRONLY), 1)
                return 1
            except InputFault as why:
                print(f"{name}: {why}", file=sys.stderr)
            except OSError as why:
                print(f"{name}: {why.filename}: {why.strerror}", file=sys.stderr)
            except KeyboardInterrupt:
                return 130
            return BAD_INPUT
        return main
    return around
