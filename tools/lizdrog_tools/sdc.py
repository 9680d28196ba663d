"""Reads constraints (SDC) into commands and words, in a plain, forgiving way."""
import re

COMMENT = re.compile(r"#(?:[^\\\n]|\\.)*", re.S)
SPACE = re.compile(r"(?:[ \t\r]|\\\r?\n)+")
PLAIN = re.compile(r"(?:[^\s;\\]|\\(?!\r?\n))+")


class Word:
    """A word of a command: plain, a list, or what a bracket asks for."""

    def __init__(self, sort: str, names: list[str], offset: int, text: str):
        self.sort, self.names, self.offset, self.text = sort, names, offset, text


class SdcCommand:
    """A command of the constraints with its words."""

    def __init__(self, name: str, offset: int):
        self.name, self.offset = name, offset
        self.words: list[Word] = []

    def after(self, option: str) -> Word | None:
        """The word after an option, or none."""
        for at, word in enumerate(self.words[:-1]):
            if word.text == option:
                return self.words[at + 1]
        return None

    def has(self, option: str) -> bool:
        """Whether an option is among the words."""
        return any(it.text == option for it in self.words)


def closing(text: str, at: int, opening: str, ending: str) -> int:
    """The place after the mark that closes the one at `at`, on this line."""
    depth = 0
    for place in range(at, len(text)):
        if text[place] == opening:
            depth += 1
        elif text[place] == ending:
            depth -= 1
            if not depth:
                return place + 1
        elif text[place] == "\n" and text[place - 1:place] not in ("\\",) and text[place - 2:place] != "\\\r":
            return place
    return len(text)


def sdc_word(text: str, at: int) -> tuple[Word, int]:
    """The word at a place, and the place after it."""
    if text[at] == "{":
        end = closing(text, at, "{", "}")
        return Word("list", text[at + 1:end].rstrip("}").replace("\\", " ").split(), at, text[at:end]), end
    if text[at] == "[":
        end = closing(text, at, "[", "]")
        inside = text[at + 1:end - 1].replace("\\\n", " ").replace("{", " ").replace("}", " ").split()
        if inside[:1] == ["list"]:
            return Word("[list", [], at, " ".join(text[at:end].replace("\\\n", " ").split())), end
        return Word(inside[0] if inside else "", inside[1:], at, text[at:end]), end
    found = PLAIN.match(text, at)
    end = found.end() if found else at + 1
    return Word("plain", [text[at:end]], at, text[at:end]), end


def read_commands(text: str) -> list[SdcCommand]:
    """The commands of an SDC text."""
    commands, at, current = [], 0, None
    while at < len(text):
        space = SPACE.match(text, at)
        if space:
            at = space.end()
        elif text[at] in "\n;":
            current, at = None, at + 1
        elif current is None and text[at] == "#":
            at = COMMENT.match(text, at).end()
        else:
            word, end = sdc_word(text, at)
            if current is None:
                current = SdcCommand(word.text, at)
                commands.append(current)
            else:
                current.words.append(word)
            at = max(end, at + 1)
    return commands


def pin_word(name: str) -> str:
    """A pin of the constraints as a pin word of scripts."""
    at = max(name.rfind("/"), name.rfind(":"))
    return f"{name[:at]}:{name[at + 1:]}" if at > 0 else name
