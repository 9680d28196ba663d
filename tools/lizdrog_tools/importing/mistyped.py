"""Attributes of libraries that no reader takes and that look like a mistyped one."""
import functools

from lizdrog_tools.importing.liberty_tree import Group
from lizdrog_tools.importing.report import Place, Report

READ = (
    "time_unit",
    "capacitive_load_unit",
    "delay_model",
    "lu_table_template",
    "variable_1",
    "variable_2",
    "index_1",
    "index_2",
    "direction",
    "capacitance",
    "timing",
    "related_pin",
    "timing_type",
    "timing_sense",
    "cell_rise",
    "cell_fall",
    "rise_transition",
    "fall_transition",
    "rise_constraint",
    "fall_constraint",
    "values",
    "function",
)
# Words of Liberty that are near one of these and mean something else.
ANOTHER = {
    "variable_3",
    "index_3",
    "variable_4",
    "index_4",
    "timing_label",
    "when_start",
    "when_end",
    "sdf_cond",
    "value",
}
LEAST_LETTERS = 5
FARTHEST = 2


def distance(one: str, other: str) -> int:
    """How many letters have to be changed, put in or taken out."""
    before = list(range(len(other) + 1))
    for at, letter in enumerate(one, 1):
        row = [at]
        for place, sign in enumerate(other, 1):
            row.append(min(before[place] + 1, row[-1] + 1, before[place - 1] + (letter != sign)))
        before = row
    return before[-1]


@functools.cache
def meant(word: str) -> str | None:
    """The read attribute that a word is nearest to; none where it is one, or far from all."""
    if word in READ or word in ANOTHER or len(word) < LEAST_LETTERS:
        return None
    near = [(distance(word, it), it) for it in READ if abs(len(it) - len(word)) <= FARTHEST]
    found = min(near, default=(FARTHEST + 1, ""))
    return found[1] if 1 <= found[0] <= FARTHEST else None


def mistyped(group: Group, file: str, report: Report) -> None:
    """Tells the attributes of a group and of the groups in it that look mistyped."""
    for item in (*group.attributes, *group.groups):
        wanted = meant(item.name)
        if wanted:
            report.lose("mistyped", Place(file, item.line), f"{item.name} is passed over: is {wanted} meant?")
    for inner in group.groups:
        mistyped(inner, file, report)
