"""W-202: a text of rules, written as the paper prints them, made into a sheet."""

import re

from second.groups import REPLACE, SINGLE_LETTER, Group, Rule
from second.sheets import sheet_of

# The conditions by their numbers, as 01's table prints them without its ticks.
SPELLED = [
    b"none",
    b"m>0",
    b"m>1",
    b"*v*",
    b"m>1 and (*S or *T)",
    b"*d and not (*L or *S or *Z)",
    b"m=1 and *o",
    b"m=1 and not *o",
    b"m>1 and *d and *L",
]
GATES = {b"group": 0, b"group opened": 1}
CONDITION = b"|".join(map(re.escape, SPELLED))
RULE = re.compile(b"(%b) ([a-z]+|-) -> (single letter|[a-z]+|-)( opens)?" % CONDITION)


def add_group(groups, gate):
    """Adds a group, unless 01 calls its record faulty: the 17th, or the first with gate 1."""
    if len(groups) == 16 or gate == 1 and not groups:
        return False
    groups.append(Group(gate, []))
    return True


def add_rule(groups, rule):
    """Adds a rule to the last group, unless 01 calls its record faulty: before any group, the
    129th, over 12 letters, or a single letter without condition 5 or 8 or with an ending."""
    if not groups or sum(len(group.rules) for group in groups) == 128:
        return False
    if len(rule.ending) > 12 or len(rule.replacement) > 12:
        return False
    if rule.action == SINGLE_LETTER and (rule.condition not in (5, 8) or rule.ending):
        return False
    groups[-1].rules.append(rule)
    return True


def add_line(groups, line):
    """Adds what a line, here without its line feed, names. False where it is not of the form, or
    where its record is faulty."""
    if line in GATES:
        return add_group(groups, GATES[line])
    form = RULE.fullmatch(line)
    if form is None:
        return False
    condition, ending, result, opens = form.groups()
    action = SINGLE_LETTER if result == b"single letter" else REPLACE
    replacement = b"" if action == SINGLE_LETTER or result == b"-" else result
    ending = b"" if ending == b"-" else ending
    rule = Rule(SPELLED.index(condition), action, 1 if opens else 0, ending, replacement)
    return add_rule(groups, rule)


def make_sheet(lines, sheet):
    """Request 7: number, length written or line or 0, the sheet."""
    *ended, unended = lines.split(b"\n")
    groups = []
    for number, line in enumerate(ended, 1):
        if not add_line(groups, line):
            return 8, number, sheet
    if unended:  # a last line without its line feed
        return 8, len(ended) + 1, sheet
    made = sheet_of(groups)
    if len(sheet) < len(made):
        return 9, 0, sheet
    return 0, len(made), made + sheet[len(made) :]
