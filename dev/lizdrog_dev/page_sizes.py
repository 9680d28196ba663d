"""Sizes of the pages: dev/page_sizes.py [--check] [--long PAGE]

Prints a line for each page: its bytes, its sentences, the mean of words in a sentence, and how many sentences have more
than 40 words. Pages are README.md, CHANGELOG.md and docs/*.md; the log in docs/log is left out. Headings, tables and
blocks of code are no sentences; the end of a paragraph or of a list's item ends one.

  --check      status 1 where a page or all of them are above their limit, with a line for each that is
  --long PAGE  prints the sentences of a page that have more than 40 words
"""
import argparse
import dataclasses
import re
import signal
import sys

from lizdrog_tools.places import TOP

MOST_BYTES_OF_ALL, MOST_BYTES, MOST_WORDS, LONG = 200_000, 25_000, 20, 40
# Pages with a limit of their own, in KB of 1,024 bytes.
MOST_KB_OF = {"GUARANTEE.md": 10, "DEFINITIONS.md": 22, "RULES.md": 28, "ARCHITECTURE.md": 12, "DECISIONS.md": 12,
              "SPEED.md": 4}
SENTENCE_END = re.compile(r"(?<=[^.][.!?])[*)\"]* (?=[*(\[\"`A-Z0-9])|(?<=[.!?][)\"]) ")
SHORT_SENTENCES = {"README.md", "SCRIPTS.md", "GUARANTEE.md"}


@dataclasses.dataclass(frozen=True)
class Page:
    name: str
    size: int
    sentences: list[str]

    @property
    def most_bytes(self) -> int:
        return MOST_KB_OF[self.name] * 1024 if self.name in MOST_KB_OF else MOST_BYTES

    @property
    def words(self) -> int:
        return sum(len(it.split()) for it in self.sentences)

    @property
    def mean(self) -> float:
        return self.words / len(self.sentences) if self.sentences else 0.0

    @property
    def long(self) -> list[str]:
        return [it for it in self.sentences if len(it.split()) > LONG]


def paragraphs(text: str) -> list[str]:
    """The running text of a page: paragraphs and items of lists, each in one line."""
    text = re.sub(r"^```.*?^```$", "", text, flags=re.S | re.M)
    lines = [""]
    for line in text.splitlines():
        if not line.strip() or line.startswith(("|", "#")):
            lines.append("")
        elif re.match(r"\s*([-*]|\d+\.) ", line):
            lines.append(re.sub(r"^\s*([-*]|\d+\.) ", "", line))
        else:
            lines[-1] = f"{lines[-1]} {line.strip()}".strip()
    return [it for it in lines if it]


def sentences(text: str) -> list[str]:
    """A sentence ends with its mark and a blank; the dots of `..` and marks within backquotes end none."""
    found: list[str] = []
    for line in paragraphs(text):
        line = re.sub(r"`[^`]*`", lambda it: it.group().replace(" ", "_"), line)
        found += [it for it in SENTENCE_END.split(line) if it.strip(" *")]
    return found


def pages() -> list[Page]:
    files = [TOP / "README.md", TOP / "CHANGELOG.md", *sorted((TOP / "docs").glob("*.md"))]
    return [Page(it.name, it.stat().st_size, sentences(it.read_text())) for it in files]


def complaints(found: list[Page]) -> list[str]:
    total, said = sum(it.size for it in found), []
    if total > MOST_BYTES_OF_ALL:
        said.append(f"all pages have {total} bytes, {MOST_BYTES_OF_ALL} at most are wanted")
    for it in found:
        if it.size > it.most_bytes:
            said.append(f"{it.name} has {it.size} bytes, {it.most_bytes} at most are wanted")
        if it.mean >= MOST_WORDS and it.name in SHORT_SENTENCES:
            said.append(f"{it.name} has {it.mean:.1f} words in a sentence, fewer than {MOST_WORDS} are wanted")
    return said


def main() -> int:
    signal.signal(signal.SIGPIPE, signal.SIG_DFL)
    words = argparse.ArgumentParser(description=__doc__, formatter_class=argparse.RawDescriptionHelpFormatter)
    words.add_argument("--check", action="store_true", help="status 1 where a limit is passed")
    words.add_argument("--long", metavar="PAGE", help="print the long sentences of a page")
    asked, found = words.parse_args(), pages()
    if asked.long:
        page = next((it for it in found if it.name in (asked.long, f"{asked.long}.md")), None)
        if page is None:
            print(f"page_sizes: there is no page {asked.long}", file=sys.stderr)
            return 2
        print("\n".join(f"{len(it.split())}: {it}" for it in page.long))
        return 0
    for it in found:
        print(f"{it.name:18} {it.size:7} bytes {len(it.sentences):4} sentences {it.mean:5.1f} words each "
              f"{len(it.long):3} above {LONG}")
    print(f"{'all':18} {sum(it.size for it in found):7} bytes")
    said = complaints(found)
    print("".join(f"page_sizes: {it}\n" for it in said), end="")
    return 1 if asked.check and said else 0
