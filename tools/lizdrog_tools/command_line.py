"""The words of the command `lizdrog`: its options, and what is surely wrong with the rest. It imports nothing, so that
each call begins at once."""

LEAST_WORDS = {"run": 7, "live": 6, "generate": 3}
# Commands on a design: they take a saved journal or a project file, and their sixth word is the number of workers.
ON_DESIGN = ("run", "live")
MOST_SCRIPTS = 16
MOST_PAIRS = 16
MOST_WORKERS = 32
# Options with a value, and those without, before the command.
VALUED = ("--program",)
PLAIN = ("--proved", "--build", "--version")
HELPS = ("--help", "-h", "help")


def without_journal(words: list[str]) -> tuple[list[str], str | None]:
    """The words of a run without its option, and the name of its saved journal, or none."""
    options = words[:words.index("--")] if "--" in words else words
    found = next((at for at, word in enumerate(options) if word == "--journal" or word.startswith("--journal=")), None)
    if found is None:
        return words, None
    if words[found] != "--journal":
        return words[:found] + words[found + 1:], words[found].split("=", 1)[1]
    return words[:found] + words[found + 2:], words[found + 1] if found + 1 < len(words) else None


def options_of(words: list[str]) -> tuple[dict, list[str] | None]:
    """The options before the command, and the command with its words: none where an option is not known."""
    given = {"proved": False, "build": False, "version": False, "program": None}
    at = 0
    while at < len(words) and words[at].startswith("-"):
        word, at = words[at], at + 1
        if word in VALUED and at < len(words):
            given[word[2:]], at = words[at], at + 1
        elif word in PLAIN:
            given[word[2:]] = True
        else:
            return given, None
    return given, words[at:]


def asked_help(words: list[str]) -> str | None:
    """The command whose help is asked, "" for all of it, or none where no help is asked."""
    if words and words[0] in HELPS:
        return words[1] if len(words) > 1 and words[0] == "help" else ""
    if len(words) > 1 and not words[0].startswith("-") and words[1] in HELPS[:2]:
        return words[0]
    return None


def misfit(words: list[str], project: str | None = None) -> str | None:
    """Why the words are surely no command, so that they start no build; none where the program has to judge them. The
    documents may be those of a project file."""
    if not words or words[0] not in LEAST_WORDS:
        return f"there is no command {words[0]}" if words else "a command is missing"
    name, least = words[0], LEAST_WORDS[words[0]]
    words, journal = without_journal(words) if name in ON_DESIGN else (words, None)
    after = f" after --journal {journal}" if journal else ""
    if len(words) <= least and project:
        return f"{name} takes a SCRIPT or more behind {project}, and no SCRIPT is there"
    if len(words) <= least:
        more = " or more" if name in ON_DESIGN else ""
        return f"{name} takes {least} words{more}{after}, and here are {len(words) - 1}"
    is_plain = name in ON_DESIGN and not any(it.startswith("-") for it in words)
    if is_plain and not is_number(words[6], MOST_WORKERS):
        return f"WORKERS, the sixth word{after}, is a number from 1 to {MOST_WORKERS}, and here it is {words[6]}"
    return misfit_pairs(words[7:]) if is_plain and name == "live" else None


def misfit_pairs(names: list[str]) -> str | None:
    """Why these are no names of the inputs and outputs of a live server's sessions."""
    if len(names) % 2:
        return f"after WORKERS come IN and OUT of each session, in pairs, and here is {names[-1]} alone"
    count = len(names) // 2
    return f"live takes {MOST_PAIRS} pairs IN OUT at most, and here are {count}" if count > MOST_PAIRS else None


def is_number(word: str, most: int) -> bool:
    """Whether a word is a number from 1 to some other, in at most 20 decimal digits."""
    return word.isascii() and word.isdecimal() and len(word) <= 20 and 1 <= int(word) <= most


def doubts(words: list[str]) -> str:
    """What is seen of words that the program took for no command."""
    words, _ = without_journal(words)
    if any(it.startswith("-") for it in words):
        return ("a word that begins with - is written after the word --, and the one option is --journal NAME after "
                f"{'live' if words[0] == 'live' else 'run'}; standard input is /dev/stdin")
    is_long = words[0] == "run" and len(words) > LEAST_WORDS["run"] + MOST_SCRIPTS
    return f"run takes {MOST_SCRIPTS} scripts at most" if is_long else "these words are no command"
