"""Filters of collections: `ref_name =~ DFF* && direction == in`."""
import re
from collections.abc import Callable

from lizdrog_tools.importing.design import Search, matcher
from lizdrog_tools.importing.tcl import CommandFault

TOKEN = re.compile(r'\s*(?:(&&|\|\||==|!=|=~|!~|<=|>=|<|>|!|\(|\))|"([^"]*)"|\{([^}]*)\}|([^\s&|=!<>()]+))')
COMPARING = {"==", "!=", "=~", "!~", "<", ">", "<=", ">="}
Lookup = Callable[[str], str | None]
SHORT = {"in": "input", "out": "output", "inout": "inout"}


def tokens_of(text: str) -> list[tuple[str, str]]:
    """Each token with its sort: a mark or a word."""
    found, at, text = [], 0, text.strip()
    while at < len(text):
        match = TOKEN.match(text, at)
        if not match or match.end() == at:
            raise CommandFault(f"the filter {text} is not understood at {text[at:]}")
        mark, *words = match.groups()
        found.append(("mark", mark) if mark else ("word", next(it for it in words if it is not None)))
        at = match.end()
    return found


class Filter:
    """A filter, to be asked of one object after the other."""

    def __init__(self, text: str):
        self.text, self.tokens, self.at = text, tokens_of(text), 0
        self.test = self.alternatives()
        if self.at != len(self.tokens):
            raise CommandFault(f"the filter {text} is not understood")

    def look(self) -> tuple[str, str]:
        return self.tokens[self.at] if self.at < len(self.tokens) else ("end", "")

    def alternatives(self) -> Callable[[Lookup], bool]:
        tests = [self.conditions()]
        while self.look() in (("mark", "||"), ("word", "or")):
            self.at += 1
            tests.append(self.conditions())
        return lambda lookup: any(it(lookup) for it in tests)

    def conditions(self) -> Callable[[Lookup], bool]:
        tests = [self.condition()]
        while self.look() in (("mark", "&&"), ("word", "and")):
            self.at += 1
            tests.append(self.condition())
        return lambda lookup: all(it(lookup) for it in tests)

    def condition(self) -> Callable[[Lookup], bool]:
        sort, word = self.look()
        self.at += 1
        if (sort, word) == ("mark", "!"):
            inner = self.condition()
            return lambda lookup: not inner(lookup)
        if (sort, word) == ("mark", "("):
            inner = self.alternatives()
            if self.look() != ("mark", ")"):
                raise CommandFault(f"the filter {self.text} has an open bracket")
            self.at += 1
            return inner
        if sort != "word":
            raise CommandFault(f"the filter {self.text} is not understood")
        name = word.removeprefix("@")
        if self.look()[0] != "mark" or self.look()[1] not in COMPARING:
            return lambda lookup: self.value(lookup, name) in ("true", "1")
        sign, (_, wanted) = self.look()[1], self.tokens[self.at + 1] if self.at + 1 < len(self.tokens) else ("end", "")
        self.at += 2
        return self.comparison(name, sign, wanted)

    def value(self, lookup: Lookup, name: str) -> str:
        found = lookup(name)
        if found is None:
            raise CommandFault(f"the filter {self.text} asks for {name}, which is not known of these objects")
        return found

    def comparison(self, name: str, sign: str, wanted: str) -> Callable[[Lookup], bool]:
        if sign in ("=~", "!~"):
            fits = matcher(wanted, Search())
            return lambda lookup: fits(self.value(lookup, name)) == (sign == "=~")
        wanted = SHORT.get(wanted, wanted) if "direction" in name else wanted
        if sign in ("==", "!="):
            return lambda lookup: (self.value(lookup, name) == wanted) == (sign == "==")
        try:
            limit = float(wanted)
        except ValueError:
            raise CommandFault(f"the filter {self.text} compares with {wanted}, which is no number") from None
        compare = {"<": float.__lt__, ">": float.__gt__, "<=": float.__le__, ">=": float.__ge__}[sign]
        return lambda lookup: compare(float(self.value(lookup, name)), limit)
