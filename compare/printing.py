"""Groups printed as lines, and by it a third way to answer request 7, which takes no line apart: it
prints rules and compares."""

import re
from functools import lru_cache
from itertools import accumulate

from second.groups import REPLACE, SINGLE_LETTER, Group, Rule
from second.lines import SPELLED
from second.sheets import END, check_sheet, read_sheet, record, sheet_of


def printed_rule(rule):
    result = b"single letter" if rule.action == SINGLE_LETTER else rule.replacement or b"-"
    opens = b" opens" if rule.opens else b""
    return b"%b %b -> %b%b\n" % (SPELLED[rule.condition], rule.ending or b"-", result, opens)


def printed(groups):
    """The lines that name these groups."""
    text = b""
    for group in groups:
        text += b"group opened\n" if group.gate else b"group\n"
        text += b"".join(map(printed_rule, group.rules))
    return text


def guesses(line):
    """The rules that a line could name. With a condition guessed, the ending and the replacement
    are the words in two known places; over 255 letters, no record can hold an ending."""
    words = [b"" if word == b"-" else word for word in line.removesuffix(b"\n").split(b" ")]
    for condition, spelled in enumerate(SPELLED):
        behind = words[spelled.count(b" ") + 1 :]
        if line.startswith(spelled) and len(behind) >= 3 and len(behind[0]) <= 255:
            for opens in (0, 1):
                yield Rule(condition, REPLACE, opens, behind[0], behind[2])
                yield Rule(condition, SINGLE_LETTER, opens, behind[0], b"")


@lru_cache(maxsize=1 << 16)
def record_of(line):
    """The record, faulty or not, of the group or the rule that is printed as this line; None where
    there is none. There are never two."""
    for gate in (0, 1):
        group = [Group(gate, [])]
        if printed(group) == line:
            return sheet_of(group)[:-4]
    named = [rule for rule in guesses(line) if printed_rule(rule) == line]
    assert len(named) <= 1, f"{named} are all printed as {line}"
    return sheet_of([Group(0, named)])[6:-4] if named else None


def by_printing(request):
    """The third way: the lines' records, judged by 01's check, whose place tells the line. A sheet
    that is made has to be printed, once it is read, as the text that came."""
    _, text, sheet = request
    records = [record_of(line) for line in re.findall(rb"[^\n]*\n|[^\n]+", text)]
    of_form = records.index(None) if None in records else len(records)
    made = b"".join(records[:of_form]) + record(END, b"")
    number, place = check_sheet(made)
    if number != 0:
        starts = accumulate(map(len, records[:of_form]), initial=0)
        return 8, list(starts).index(place) + 1, sheet
    if of_form < len(records):
        return 8, of_form + 1, sheet
    if len(sheet) < len(made):
        return 9, 0, sheet
    again = printed(read_sheet(made))
    return (0, len(made), made + sheet[len(made) :]) if again == text else ("printed", again)
