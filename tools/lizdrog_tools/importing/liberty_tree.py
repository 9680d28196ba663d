"""Liberty texts as trees: the cells that are wanted, each with the place of every attribute."""
import dataclasses
import re
from collections.abc import Iterator

from lizdrog_tools.files import InputFault, line_of

BRACES = re.compile(r'/\*.*?\*/|"[^"]*"|([{}])', re.S)
COMMENT = re.compile(r"/\*.*?\*/", re.S)
HEAD = re.compile(r"([A-Za-z_]\w*)\s*\(([^(){};]*)\)\s*$", re.S)
TOKEN = re.compile(r'/\*.*?\*/|\\\r?\n|"([^"]*)"|([{}();:,])|((?:[^\s{}();:,"/\\]|/(?!\*)|\\(?!\r?\n))+)|(\n)', re.S)
CONTINUED = re.compile(r"\\\r?\n")
LONGEST_HEAD = 500
QUOTED, MARK, WORD, END = 1, 2, 3, 4


@dataclasses.dataclass(slots=True)
class Attribute:
    """A simple attribute has one value, a complex one the arguments in its brackets."""

    name: str
    values: list[str]
    line: int
    is_complex: bool


@dataclasses.dataclass(slots=True)
class Group:
    """A group with its arguments, attributes and inner groups, in the order of the text."""

    name: str
    args: list[str]
    line: int
    attributes: list[Attribute] = dataclasses.field(default_factory=list)
    groups: list["Group"] = dataclasses.field(default_factory=list)

    def text(self, name: str) -> str | None:
        """The value of a simple attribute, or none."""
        found = [it for it in self.attributes if it.name == name]
        return found[-1].values[0] if found and found[-1].values else None

    def values(self, name: str) -> list[str]:
        """The arguments of a complex attribute."""
        found = [it for it in self.attributes if it.name == name]
        return found[-1].values if found else []

    def named(self, name: str) -> list["Group"]:
        return [it for it in self.groups if it.name == name]


class TreeReader:
    """Reads the statements of one group from its opening brace."""

    def __init__(self, text: str, start: int, file: str):
        self.text, self.file = text, file
        self.tokens = TOKEN.finditer(text, start)
        self.lines, self.counted_to = line_of(text, start), start
        self.sort, self.word, self.place = 0, "", start
        self.step()

    def step(self) -> None:
        for found in self.tokens:
            if found.lastindex:
                self.sort, self.word, self.place = found.lastindex, found.group(found.lastindex), found.start()
                return
        self.sort, self.word, self.place = 0, "", len(self.text)

    def line(self) -> int:
        self.lines += self.text.count("\n", self.counted_to, self.place)
        self.counted_to = max(self.place, self.counted_to)
        return self.lines

    def at(self, mark: str) -> bool:
        return self.sort == MARK and self.word == mark

    def skip_ends(self) -> None:
        while self.sort == END:
            self.step()

    def arguments(self) -> list[str]:
        self.step()
        args = []
        while self.sort and not self.at(")"):
            if self.at(":") and args:
                self.step()
                args[-1] += f":{self.word}"
            elif self.sort in (QUOTED, WORD):
                args.append(CONTINUED.sub("", self.word) if self.sort == QUOTED else self.word)
            self.step()
        self.step()
        return args

    def simple(self) -> str:
        self.step()
        words = []
        while self.sort not in (END, 0) and not (self.sort == MARK and self.word in ";}"):
            words.append(CONTINUED.sub("", self.word))
            self.step()
        return " ".join(words)

    def body(self, group: Group) -> None:
        """The statements up to the brace that closes the group."""
        self.step()
        while not self.at("}"):
            if not self.sort:
                raise InputFault(
                    self.file, group.line, f"the group {group.name} ({', '.join(group.args)}) has no closing bracket"
                )
            if self.sort not in (QUOTED, WORD):
                self.step()
                continue
            self.statement(group)
        self.step()

    def statement(self, group: Group) -> None:
        name, line = self.word, self.line()
        self.step()
        self.skip_ends()
        if self.at(":"):
            group.attributes.append(Attribute(name, [self.simple()], line, False))
        elif self.at("("):
            args = self.arguments()
            self.skip_ends()
            if self.at("{"):
                inner = Group(name, args, line)
                group.groups.append(inner)
                self.body(inner)
            else:
                group.attributes.append(Attribute(name, args, line, True))


@dataclasses.dataclass(slots=True)
class Part:
    """A group that stands directly in the library: its head, and where its opening brace is."""

    name: str
    args: list[str]
    brace: int


@dataclasses.dataclass(slots=True)
class LibraryText:
    """A library, of which only the frame is read: a cell is read when it is asked for."""

    file: str
    text: str
    name: str
    parts: list[Part]
    frame: Group

    def group(self, part: Part) -> Group:
        reader = TreeReader(self.text, part.brace, self.file)
        group = Group(part.name, part.args, reader.line())
        reader.body(group)
        return group

    def line(self, part: Part) -> int:
        return line_of(self.text, part.brace)

    def named(self, name: str) -> Iterator[Group]:
        return (self.group(it) for it in self.parts if it.name == name)


def words_of(args: str) -> list[str]:
    return [it.strip().strip('"') for it in args.replace("\\\n", " ").split(",") if it.strip()]


def read_library(text: str, file: str) -> LibraryText:
    """The frame of a library: its attributes, and the groups that stand directly in it."""
    parts, frame, depth, behind, whole = [], [], 0, 0, None
    for found in BRACES.finditer(text):
        mark = found.group(1)
        if mark == "{":
            depth += 1
            if depth > 2:
                continue
            head = COMMENT.sub(lambda it: " " * len(it.group()), text[behind : found.start()])
            said = HEAD.search(head)
            if not said:
                raise InputFault(file, line_of(text, found.start()), "a { without the name of a group before it")
            part = Part(said.group(1), words_of(said.group(2)), found.start())
            if depth == 1:
                whole = part
            else:
                frame.append((behind, head[: said.start()]))
                parts.append(part)
            behind = found.end()
        elif mark == "}":
            depth -= 1
            if depth == 1:
                behind = found.end()
            elif depth == 0:
                frame.append((behind, text[behind : found.start()]))
                check_end(text, found.end(), file)
                break
    if whole is None or whole.name != "library":
        raise InputFault(file, 1, "this is no library (Liberty): it has no group `library (..) {`")
    if depth:
        raise unclosed(text, file)
    return LibraryText(file, text, whole.args[0] if whole.args else "", parts, frame_of(text, frame, file))


def unclosed(text: str, file: str) -> InputFault:
    """Where a closing bracket is missing: at the first cell that begins inside another group."""
    opened: list[Part] = []
    for found in BRACES.finditer(text):
        if found.group(1) == "}" and opened:
            opened.pop()
        elif found.group(1) == "{":
            said = HEAD.search(text, max(0, found.start() - LONGEST_HEAD), found.start())
            opened.append(Part(said.group(1) if said else "", words_of(said.group(2)) if said else [], found.start()))
            if len(opened) > 2 and opened[-1].name == "cell":
                (one, outer), (other, line) = (
                    (f"{it.name} ({', '.join(it.args)})", line_of(text, it.brace)) for it in (opened[1], opened[-1])
                )
                return InputFault(
                    file,
                    line,
                    f"{other} begins inside the group {one} of line {outer}: a closing bracket is missing before it",
                )
    return InputFault(file, None, f"{len(opened)} closing brackets are missing at the end of the library")


def check_end(text: str, end: int, file: str) -> None:
    """Nothing but comments stands after the library."""
    rest = COMMENT.sub(lambda it: "\n" * it.group().count("\n"), text[end:])
    if rest.strip(" \t\r\n;"):
        line = line_of(text, end) + rest[: len(rest) - len(rest.lstrip())].count("\n")
        raise InputFault(
            file,
            line,
            "the library ends before this line: a closing bracket too many, or a second library, which is a file of "
            "its own",
        )


def frame_of(text: str, pieces: list[tuple[int, str]], file: str) -> Group:
    """The attributes that stand directly in the library."""
    group = Group("library", [], 1)
    for start, piece in pieces:
        if not piece.strip(" \t\r\n;"):
            continue
        inner = Group("library", [], line_of(text, start))
        reader = TreeReader("{" + piece + "\n}", 0, file)
        reader.lines = inner.line
        reader.body(inner)
        group.attributes += inner.attributes
    return group
