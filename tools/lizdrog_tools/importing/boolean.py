"""Boolean functions as libraries write them: `!(A B)+C'`, with constants carried through."""
import itertools
import re

TOKEN = re.compile(r"\s*([A-Za-z_][\w]*(?:\[\d+\])?|[01]|[!'*&+|^()])")
MOST_INPUTS = 12
Value = bool | None


class NoFunction(ValueError):
    """A text is no boolean function."""


class Function:
    """A boolean function of named inputs."""

    def __init__(self, text: str):
        self.text = text
        self.tokens = self.split(text)
        self.at = 0
        self.root = self.alternatives()
        if self.at != len(self.tokens):
            raise NoFunction(text)
        self.inputs = sorted({it for it in self.tokens if it[0].isalpha() or it[0] == "_"})

    @staticmethod
    def split(text: str) -> list[str]:
        tokens, at, text = [], 0, text.rstrip()
        while at < len(text):
            found = TOKEN.match(text, at)
            if not found:
                raise NoFunction(text)
            tokens.append(found.group(1))
            at = found.end()
        return tokens

    def look(self) -> str:
        return self.tokens[self.at] if self.at < len(self.tokens) else ""

    def alternatives(self) -> tuple:
        terms = [self.product()]
        while self.look() and self.look() in "+|":
            self.at += 1
            terms.append(self.product())
        return ("or", *terms) if len(terms) > 1 else terms[0]

    def product(self) -> tuple:
        factors = [self.exclusive()]
        while self.look() and self.look() not in "+|)":
            if self.look() in "*&":
                self.at += 1
            factors.append(self.exclusive())
        return ("and", *factors) if len(factors) > 1 else factors[0]

    def exclusive(self) -> tuple:
        factor = self.factor()
        while self.look() == "^":
            self.at += 1
            factor = ("xor", factor, self.factor())
        return factor

    def factor(self) -> tuple:
        word = self.look()
        self.at += 1
        if word == "!":
            return ("not", self.factor())
        if word == "(":
            inner = self.alternatives()
            if self.look() != ")":
                raise NoFunction(self.text)
            self.at += 1
        elif word in ("0", "1"):
            inner = ("constant", word == "1")
        elif word and (word[0].isalpha() or word[0] == "_"):
            inner = ("input", word)
        else:
            raise NoFunction(self.text)
        while self.look() == "'":
            self.at += 1
            inner = ("not", inner)
        return inner

    def free(self, known: dict[str, Value]) -> list[str]:
        return [it for it in self.inputs if known.get(it) is None]

    def value(self, known: dict[str, Value]) -> Value:
        """The value under what is known of the inputs: none where it depends on others."""
        free = self.free(known)
        if len(free) > MOST_INPUTS:
            return evaluate(self.root, known)
        seen = set()
        for choice in itertools.product((False, True), repeat=len(free)):
            seen.add(evaluate(self.root, {**known, **dict(zip(free, choice, strict=True))}))
            if len(seen) > 1:
                return None
        return seen.pop()

    def senses(self, name: str, known: dict[str, Value]) -> set[str]:
        """How the value may follow an input under what is known of the others: `positive`, `negative`, both, or
        neither."""
        free = [it for it in self.free(known) if it != name]
        if len(free) > MOST_INPUTS:
            return {"positive", "negative"}
        found = set()
        for choice in itertools.product((False, True), repeat=len(free)):
            others = {**known, **dict(zip(free, choice, strict=True))}
            low, high = (evaluate(self.root, {**others, name: it}) for it in (False, True))
            if low != high:
                found.add("positive" if high else "negative")
        return found


def evaluate(node: tuple, known: dict[str, Value]) -> Value:
    """The value of a part of a function, by three values: true, false and unknown."""
    if node[0] == "constant":
        return node[1]
    if node[0] == "input":
        return known.get(node[1])
    values = [evaluate(it, known) for it in node[1:]]
    if node[0] == "not":
        return None if values[0] is None else not values[0]
    if node[0] == "xor":
        return None if None in values else values[0] != values[1]
    decisive = node[0] == "or"
    return decisive if decisive in values else None if None in values else not decisive


def sense_word(senses: set[str]) -> str | None:
    """The `timing_sense` of an input that is followed in these ways; none where it is not followed."""
    return "non_unate" if len(senses) == 2 else f"{next(iter(senses))}_unate" if senses else None
