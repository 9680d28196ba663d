"""What the commands of constraints share: the design, the objects that Tcl holds by a number, and the place of the
command."""
import dataclasses
import re

from lizdrog_tools.importing.design import Design, Object, Search
from lizdrog_tools.importing.report import Place, Report
from lizdrog_tools.importing.tcl import CommandFault, split_list

TOKEN = re.compile(r"@\d+")
MARKS = re.compile(r"[\s{}\"]")


@dataclasses.dataclass(slots=True)
class Words:
    """The words of a command: options without a value, options with theirs, and the others."""

    flags: set[str]
    values: dict[str, list[str]]
    plain: list[str]

    def value(self, option: str) -> str | None:
        found = self.values.get(option)
        return found[-1] if found else None

    def has(self, option: str) -> bool:
        return option in self.flags or option in self.values


class Session:
    """One run of constraints over a design."""

    def __init__(self, design: Design, report: Report):
        self.design, self.report = design, report
        self.place, self.command = Place("", 0), ""
        self.held: list[Object] = []
        self.numbers: dict[Object, int] = {}

    # ------------------------------------------------------------------------------------------ words

    def parse(self, words: list[str], options: dict[str, int]) -> Words:
        """The words of a command, by how many values each option takes; a beginning that fits one option stands for
        it."""
        found, rest = Words(set(), {}, []), list(words)
        while rest:
            word = rest.pop(0)
            if not re.fullmatch(r"-[A-Za-z]\w*", word):
                found.plain.append(word)
                continue
            fits = [word] if word in options else [it for it in options if it.startswith(word)]
            if len(fits) != 1:
                raise CommandFault(f"{self.command} has no option {word}")
            if options[fits[0]] == 0:
                found.flags.add(fits[0])
            elif rest:
                found.values.setdefault(fits[0], []).append(rest.pop(0))
            else:
                raise CommandFault(f"{self.command} needs a value after {word}")
        return found

    # ------------------------------------------------------------------------------------------ objects

    def token(self, made: Object) -> str:
        if made not in self.numbers:
            self.numbers[made] = len(self.held)
            self.held.append(made)
        return f"@{self.numbers[made]}"

    def tokens(self, found: list[Object]) -> str:
        return " ".join(map(self.token, found))

    def items(self, text: str) -> list[Object | str]:
        """What a word holds: objects, and names that nobody has looked up yet."""
        found: list[Object | str] = []
        for word in [text] if not MARKS.search(text) and "\\" not in text else split_list(text):
            if TOKEN.fullmatch(word):
                if int(word[1:]) >= len(self.held):
                    raise CommandFault(f"there is no collection {word}")
                found.append(self.held[int(word[1:])])
            elif word != text and MARKS.search(word):
                found += self.items(word)
            elif word:
                found.append(word)
        return found

    def collection(self, text: str) -> list[Object]:
        """The objects of a collection."""
        found = self.items(text)
        names = [it for it in found if isinstance(it, str)]
        if names:
            raise CommandFault(f"{self.command}: {names[0]} is no collection")
        return found

    def look_up(self, kinds: tuple[str, ...], pattern: str, how: Search, *, quiet: bool = False) -> list[Object]:
        """The objects of the first of the kinds that a pattern means; what means nothing is told."""
        named = [it for it in kinds if not it.startswith("block")]
        for kind in named:
            found = self.design.find(kind, pattern, how)
            if found:
                return found
        what = " or ".join(named).replace("_", " ")
        if quiet:
            self.report.drop("no-match", self.place, f"{self.command}: no {what} {pattern} (-quiet)")
        elif how.is_regexp or "*" in pattern or "?" in pattern:
            self.report.drop("no-match", self.place, f"{self.command}: no {what} matches {pattern}")
        else:
            self.report.lose("not-found", self.place, f"{self.command}: there is no {what} {pattern}")
        return []

    def objects(self, text: str, kinds: tuple[str, ...]) -> list[Object]:
        """The objects that a word names, each once; of another kind than these is an error."""
        found: dict[Object, None] = {}
        for item in self.items(text):
            if isinstance(item, str):
                found.update(dict.fromkeys(self.look_up(kinds, item, Search())))
            elif item.kind in kinds:
                found[item] = None
            else:
                raise CommandFault(
                    f"{self.command}: a {item.kind.replace('_', ' ')} ({item.name}) is given where "
                    f"{' or '.join(kinds)} is asked"
                )
        return list(found)

    def lose(self, kind: str, text: str) -> None:
        self.report.lose(kind, self.place, text)

    def drop(self, kind: str, text: str) -> None:
        self.report.drop(kind, self.place, text)

    def change(self, kind: str, text: str) -> None:
        self.report.change(kind, self.place, text)
