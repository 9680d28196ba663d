"""Reads a script for the plain timer of reference_timer.py, written from the definitions and not from the program: its
commands, or the fault of its lowest line. A command is a tuple that begins with its sort:

  ('take',), ('await', N, L), ('ask', WORDS), ('change', EDITS), ('what_if', TRIALS), ('advise', KIND, PAIRS)

where a trial of a draft is ('try', EDITS), ('drop',) or ('ask', WORDS), an edit is its words, and a pair is an instance
and a cell. With the questions for closing timing these are ('ask', WORDS), and 'advise' is a trial, too."""
import re

COMMANDS, EDITS_OF_GROUP, TRIALS, LONGEST = 10000, 1000, 100, 65536
LIMIT = 10 ** 12
PLAIN = [
    r'report_(slew|at|rat|slack) \S+ (early|late) (rise|fall)',
    r'report_(endpoint|path) \S+ (setup|hold)',
    r'report_(wns|tns) (setup|hold)',
]
COUNTED = r'report_worst (?:setup|hold) (\d{1,20})'
FURTHER = [r'report_through \S+ (setup|hold)( \S+){1,16}', r'advise (setup|hold)( \S+ \S+){1,100}']
CLOSING = [
    r'report_(net|instance|sizes) \S+', r'report_timing \S+ (setup|hold)',
    r'report_timing_through \S+ (setup|hold)( \S+){1,16}', r'report_(failing|summary) (setup|hold)', r'report_skew',
    r'advise_tns (setup|hold)( \S+ \S+){1,100}', r'advise_sizes (setup|hold) (wns|tns)( \S+)+',
]
OVERALL = r'report_worst_paths (?:setup|hold) (\d{1,20})(?: each (\d{1,20}))?'
RANKED = r'report_paths \S+ (?:setup|hold) (\d{1,20})'
AWAITED = r'await (\d{1,20}) (\d{1,20})'
EDIT = (
    r'(repower_gate|insert_gate|connect_pin) \S+ \S+|(remove_gate|insert_net|remove_net|disconnect_pin)'
    r' \S+|insert_buffer( \S+){4,} \S+'
)
MARKS = ('begin_eco', 'commit_eco', 'begin_what_if', 'end_what_if', 'drop_last')


class Fault(Exception):
    """A script is refused; the arguments are the code and the line."""


def counts(form, text, most):
    """Whether a line has a form, and its number is from 1 to the greatest."""
    found = re.fullmatch(form, text, re.A)
    return bool(found) and 1 <= int(found.group(1)) <= most


def is_number(word, limit):
    return bool(re.fullmatch(r'\d{1,20}', word, re.A)) and int(word) <= limit


def is_node(word):
    return is_number(word[1:], 2 ** 32 - 1) if word.startswith('#') else True


def is_parasitics(words):
    """Whether the words behind set_parasitics are a net and `none` or items."""
    if len(words) < 2 or words[1:] == ['none']:
        return len(words) == 2
    at = 1
    while at < len(words):
        nodes = {'c': 1, 'r': 2}.get(words[at], 0)
        item = words[at + 1:at + 2 + nodes]
        if nodes == 0 or len(item) != nodes + 1 or not all(map(is_node, item[:-1])) or not is_number(item[-1], LIMIT):
            return False
        at += nodes + 2
    return True


def is_closing(text):
    """Whether a line is a question for closing timing."""
    overall = re.fullmatch(OVERALL, text, re.A)
    if overall:
        count, each = int(overall.group(1)), int(overall.group(2) or 1)
        return 1 <= each <= count <= 100
    return any(re.fullmatch(it, text, re.A) for it in CLOSING)


def said(line, with_closing=False):
    """What the words of a line say: its sort and the command, or none where the line is passed over."""
    words = re.split(r'[ \t]+', line.strip(' \t'))
    if any(it > '\x7f' for it in line):
        return 'unknown', None
    if words == [''] or words[0].startswith('#'):
        return None
    text = ' '.join(words)
    if re.search(r'[\x00-\x1f\x7f]', text):
        return 'unknown', None
    if text in MARKS:
        return text, None
    if text == 'take':
        return 'other', ('take',)
    awaited = re.fullmatch(AWAITED, text, re.A)
    if awaited:
        number, looks = map(int, awaited.groups())
        return ('other', ('await', number, looks)) if number < 2 ** 64 and 1 <= looks <= 1000 else ('unknown', None)
    if any(re.fullmatch(it, text, re.A) for it in PLAIN) or counts(COUNTED, text, 100):
        return 'plain', ('ask', words)
    if with_closing and is_closing(text):
        return 'plain', ('ask', words)
    further = 'plain' if with_closing else 'other'
    if re.fullmatch(FURTHER[0], text, re.A) or counts(RANKED, text, 100):
        return further, ('ask', words)
    if re.fullmatch(FURTHER[1], text, re.A):
        return further, ('advise', words[1], list(zip(words[2::2], words[3::2])))
    if re.fullmatch(EDIT, text, re.A) or words[0] == 'set_parasitics' and is_parasitics(words[1:]):
        return 'edit', words
    return 'unknown', None


class Reader:
    """Where a script stands: its commands so far, the faults, and the draft and the group of edits that are open."""

    def __init__(self):
        self.commands, self.faults, self.draft, self.group = [], [], None, None

    def bad(self, line):
        self.faults.append((line, 'C1'))

    def behind(self, limit, before, line):
        """C2 where so many of a kind stand before the line."""
        if before >= limit:
            self.faults.append((line, 'C2'))

    def take(self, line, sort, command):
        """Takes what a line says; whether it may stand there."""
        if self.group:
            return self.in_group(line, sort, command)
        return self.in_draft(line, sort, command) if self.draft else self.outside(line, sort, command)

    def in_group(self, line, sort, command):
        begin, edits = self.group
        if sort == 'edit':
            self.behind(EDITS_OF_GROUP, len(edits), line)
            edits.append(command)
        elif sort == 'commit_eco' and edits:
            self.group = None
            self.draft[1].append(('try', edits)) if self.draft else self.commands.append(('change', edits))
        else:
            self.bad(begin if sort == 'commit_eco' else line)
            return False
        return True

    def in_draft(self, line, sort, command):
        begin, trials = self.draft
        if sort in ('edit', 'plain', 'drop_last', 'begin_eco'):
            self.behind(TRIALS, len(trials), line)
        if sort == 'edit':
            trials.append(('try', [command]))
        elif sort == 'plain':
            trials.append(command)
        elif sort == 'drop_last':
            trials.append(('drop',))
        elif sort == 'begin_eco':
            self.group = line, []
        elif sort == 'end_what_if' and trials:
            self.draft = None
            self.commands.append(('what_if', trials))
        else:
            self.bad(begin if sort == 'end_what_if' else line)
            return False
        return True

    def outside(self, line, sort, command):
        if sort in ('unknown', 'commit_eco', 'end_what_if', 'drop_last'):
            self.bad(line)
            return False
        self.behind(COMMANDS, len(self.commands), line)
        if sort == 'begin_eco':
            self.group = line, []
        elif sort == 'begin_what_if':
            self.draft = line, []
        else:
            self.commands.append(('change', [command]) if sort == 'edit' else command)
        return True

    def end(self):
        """The end of the text."""
        for open_one in (self.draft, self.group):
            if open_one:
                self.bad(open_one[0])


def read(text, with_closing=False):
    """The commands of a script by its text, each byte a character; with the questions for closing timing or without."""
    reader = Reader()
    for number, line in enumerate(text.split('\n'), 1):
        if len(line) > LONGEST:
            reader.faults.append((number, 'C2'))
        what = said(line, with_closing)
        if what and not reader.take(number, *what):
            break
    else:
        reader.end()
    if reader.faults:
        line, code = min(reader.faults)
        raise Fault(code, line)
    return reader.commands
